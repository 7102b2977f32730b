"""The variables, members and elements that a line of a source names, and what it does with them, as far as its text
alone tells."""
import functools
import re
from typing import NamedTuple

from report.source_lines import without_comments
from tokens import ASSIGNMENTS, after_postfixes, tokens_of


class Use(NamedTuple):
    """What a line names: the name that it begins with, and what follows, each `*`, `[]`, `.NAME`, `->NAME` or `()`;
    whether an operator reads and writes it there; whether it may be both, since its address is taken or it is handed to
    a function; whether it is declared there; and whether a statement begins with it, so that nobody uses the value."""

    base: str
    steps: tuple[str, ...]
    reads: bool
    writes: bool
    is_handed: bool
    is_declared: bool
    is_first: bool


RESERVED = set(
    "alignof break case catch cilk_spawn co_return co_yield const constexpr continue decltype default delete "
    "do else extern false for goto if inline new nullptr register return sizeof static switch throw true try "
    "typedef typeof union using virtual void volatile while _Cilk_spawn _Cilk_for cilk_for cilk_sync struct "
    "enum class".split()
)
IN_TYPES = {"const", "volatile"}
STEPS = {"*", "&", "++", "--"}
ENDS = (")", ",", None)
BEFORE_STATEMENT = (None, ";", "{", "}", ")", ",", ":", "else", "do")


class Line:
    def __init__(self, text: str) -> None:
        self.tokens = tokens_of(without_comments(text))

    def text_at(self, at: int) -> str | None:
        return self.tokens[at].text if 0 <= at < len(self.tokens) else None

    def is_operand(self, at: int) -> bool:
        """Whether an expression may end here, so that what follows is no prefix."""
        if not 0 <= at < len(self.tokens):
            return False
        token = self.tokens[at]
        return token.text in (")", "]") or (token.kind != "mark" and token.text not in RESERVED)

    def uses(self) -> list[Use]:
        return [
            self.use(at, token.text)
            for at, token in enumerate(self.tokens)
            if token.kind == "word"
            and token.text not in RESERVED
            and self.text_at(at - 1) not in (".", "->", "sizeof")
            and self.text_at(at + 1) != "::"
        ]

    def postfixes(self, at: int) -> tuple[list[str], int]:
        """The steps from here on, and what follows them."""
        end, operators = after_postfixes(self.tokens, at)
        return [self.step(operator) for operator in operators], end

    def step(self, at: int) -> str:
        partner: int | None = self.tokens[at].partner
        return self.tokens[at].text + (self.text_at(at + 1 if partner is None else partner) or "")

    def use(self, first: int, base: str) -> Use:
        start = first
        while self.text_at(start - 1) == "::":
            start -= 2 if self.is_operand(start - 2) else 1
        steps, end = self.postfixes(first + 1)
        prefix = self.prefix(start)
        if prefix == "*" and self.text_at(start - 2) == "(" and self.text_at(end) == ")":
            # (*p).x, or the same in other brackets.
            more, end = self.postfixes(end + 1)
            steps, start, prefix = [*steps, "*", *more], start - 2, self.prefix(start - 2)
        behind = self.text_at(end)
        if prefix == "*":
            steps = [*steps, "*"]
            start -= 1
            behind = self.text_at(end + 1) if behind in ("++", "--") else behind
            prefix = self.prefix(start)
        is_first = self.text_at(start - 1 - (prefix is not None)) in BEFORE_STATEMENT
        return Use(base, tuple(steps), *self.usage(start, prefix, behind), self.is_declared(first), is_first)

    def prefix(self, start: int) -> str | None:
        found = self.text_at(start - 1)
        return found if found in STEPS and not self.is_operand(start - 2) else None

    def is_declared(self, name: int) -> bool:
        """Whether a type is before this name."""
        before = name - 1
        while self.text_at(before) in ("*", "&", "&&"):
            before -= 1
        token = self.tokens[before] if before >= 0 else None
        return token is not None and token.kind == "word" and (token.text not in RESERVED or token.text in IN_TYPES)

    def usage(self, start: int, prefix: str | None, behind: str | None) -> tuple[bool, bool, bool]:
        """Whether it is read, written or handed on, by the operators around it."""
        is_handed = prefix == "&" or (behind in ENDS and self.text_at(start - 1) in ("(", ",") and self.is_call(start))
        counts = "++" in (prefix, behind) or "--" in (prefix, behind)
        return counts or behind != "=", counts or behind in ASSIGNMENTS, is_handed

    def is_call(self, at: int) -> bool:
        around = self.tokens[at].around
        return around is not None and self.text_at(around) == "(" and self.is_operand(around - 1)


@functools.lru_cache
def uses_of(text: str) -> list[Use]:
    return Line(text).uses()


def updates(text: str, before: str = "", after: str = "") -> bool:
    """Whether all that a line writes is made of what it was, as a sum or a greatest number is, and used by nothing
    else. The line before may ask for that, or this one for what the line after does."""
    written = written_in(text)
    if not written and is_question(text):
        before, written = "", written_in(after)
    read = {use[:2] for use in (*uses_of(text), *(uses_of(before) if is_question(before) else ())) if use.reads}
    return bool(written) and all(use.is_first and use[:2] in read for use in written)


def written_in(text: str) -> list[Use]:
    return [use for use in uses_of(text) if use.writes and "()" not in use.steps and not use.is_declared]


def is_question(text: str) -> bool:
    return re.match(r"(?:else )?if\b", text) is not None
