"""What the text calls functions: a lambda by the line where it begins, and a template without its long arguments."""
from __future__ import annotations

import functools
import os
import re
from typing import TYPE_CHECKING

from report import source_lines
from report.source_lines import Position

if TYPE_CHECKING:
    from tokens import Token

# What gcc and clang call a lambda.
LAMBDA = re.compile(r"\{lambda\(|'lambda[0-9]*'|\$_[0-9]+\b")
OPERATOR = re.compile(r"operator\s*(?:<=>|<<=|>>=|->\*|<<|>>|<=|>=|->|<|>)")
# Longer arguments of a template are folded.
MOST_ARGUMENTS, FOLDED = 12, "<..>"
# Words before an opening square bracket that don't make it a subscript.
BEFORE_LAMBDA = {"return", "co_return", "co_yield", "case", "else", "do"}


def without_arguments(name: str) -> str:
    made, at = [], 0
    while at < len(name):
        operator = OPERATOR.match(name, at)
        end = operator.end() if operator else source_lines.after_brackets(name, at, "<", ">")
        is_folded = not operator and end - at > MOST_ARGUMENTS
        end = max(end if operator or is_folded else 0, at + 1)
        made.append(FOLDED if is_folded else name[at:end])
        at = end
    return "".join(made)


def function_of(position: Position) -> str:
    """What the text calls the function of a position."""
    name = without_arguments(position.function)
    lambdas = list(LAMBDA.finditer(name))
    if not lambdas or "operator()" not in name[lambdas[-1].start() :]:
        return name
    line, outer = line_of_lambda(position), name[: lambdas[0].start()].rstrip(":")
    outer = outer.removeprefix("decltype(auto) ").removeprefix("auto ")
    if line:
        return f"lambda at {os.path.basename(position.file)}:{line}"
    # Where the source has none, it is the body of a cilk_for.
    return outer if source_lines.lines_of(position.file) else f"lambda in {outer}"


def line_of_lambda(position: Position) -> int | None:
    """Where the innermost lambda around a line begins, or None."""
    around = [first for first, last in lambdas_of(position.file) if first <= position.line <= last]
    return max(around, default=None)


@functools.lru_cache
def lambdas_of(file: str) -> list[tuple[int, int]]:
    """The first and the last line of each lambda of a source."""
    from tokens import after_lambda, tokens_of

    tokens = tokens_of(source_lines.without_comments("\n".join(source_lines.lines_of(file))))
    ends = ((token, after_lambda(tokens, at)) for at, token in enumerate(tokens) if may_begin_lambda(tokens, at))
    return [(token.line, tokens[end - 1].line) for token, end in ends if end is not None]


def may_begin_lambda(tokens: list[Token], at: int) -> bool:
    """Whether this is a square bracket behind no operand."""
    before = tokens[at - 1] if at > 0 else None
    is_behind_word = before and before.kind == "word" and before.text not in BEFORE_LAMBDA
    return tokens[at].text == "[" and not is_behind_word and not (before and before.text in (")", "]", "["))
