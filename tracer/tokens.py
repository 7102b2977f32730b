"""The tokens of a preprocessed source in C or C++, and what can be told of statements and calls by them alone; and the
source without what its strings hold, for steps that read it as a text."""
from __future__ import annotations

import functools
import itertools
import re
from collections.abc import Iterable, Iterator

from line_markers import Files

TOKEN = re.compile(
    r"(?P<marker>^\#[^\n]*\n)"
    r"|(?P<space>[ \t\f\v\r]+|\n)"
    r"|(?P<raw>(?:u8|[uUL])?R\"(?P<delimiter>[^()\\\s]{0,16})\((?:.|\n)*?\)(?P=delimiter)\")"
    r"|(?P<string>\"(?:\\.|[^\"\\\n])*\")"
    r"|(?P<character>'(?:\\.|[^'\\\n])*')"
    r"|(?P<number>\.?[0-9](?:[eEpP][+-]|'(?=\w)|[0-9A-Za-z_.])*)"
    # Of letters, digits, `_` and `$`, and of all that isn't ASCII: said so, it is compiled quickly.
    r"|(?P<word>[^\x00-#%-@\[-^`{-\x7f][^\x00-#%-/:-@\[-^`{-\x7f]*)"
    r"|(?P<mark><%|%>|<:(?!:[^:>])|:>|\.\.\.|<<=|>>=|->|\+\+|--|<<|>>|[-+*/%&|^=!<>]=|&&|::|\|\||.)",
    re.MULTILINE,
)
ASSIGNMENTS = {"=", "+=", "-=", "*=", "/=", "%=", "&=", "|=", "^=", "<<=", ">>="}
PARTNERS = {")": "(", "]": "[", "}": "{"}
DIGRAPHS = {"<%": "{", "%>": "}", "<:": "[", ":>": "]"}
# It begins with one of few signs, which are found quickly.
QUOTE_OR_DIGRAPH = re.compile(r"[\"'<%:](?:(?<=[\"'])|(?<=<)%|(?<=%)>|(?<=<):(?!:[^:>])|(?<=:)>)")
BRACKET = re.compile(r"[()\[\]{}]")
LITERAL = re.compile(r"\"(?:\\.|[^\"\\\n])*\"|'(?:\\.|[^'\\\n])*'")
RAW = re.compile(r"\"(?P<delimiter>[^()\\\s]{0,16})\((?s:.*?)\)(?P=delimiter)\"")
# What stands before the mark of a raw string, and before one inside of a number.
RAW_PREFIX = re.compile(r"(?<![\w$])(?:u8|[uUL])?R\Z")
IN_NUMBER = re.compile(r"(?<![\w$.'])\.?[0-9][\w.']*\Z")
CONTROLS = {"if", "for", "while", "switch", "_Cilk_for"}


TYPE_CHECKING = False
if TYPE_CHECKING:
    from typing import Any, NoReturn

    # What is put in place of tokens, by the first and the last; or behind one.
    Edit = tuple[Any, ...]


class Refused(Exception):
    """What can't be rewritten, and why."""

    def __init__(self, token: Token, why: str) -> None:
        super().__init__(why)
        self.token = token


class Token:
    __slots__ = ("kind", "text", "start", "end", "files", "partner", "around")

    def __init__(self, kind: str, text: str, start: int, files: Files) -> None:
        self.kind, self.text, self.start, self.files = kind, DIGRAPHS.get(text, text), start, files
        self.end = start + len(text)
        self.partner: Any = None  # of a bracket: the index of the other one, or None
        self.around: Any = None  # the index of the innermost bracket around it, or None

    @property
    def line(self) -> int:
        return self.files.place(self.start)[1]

    def where(self) -> str:
        """Its line in the source."""
        return "{}:{}".format(*self.files.place(self.start))

    def is_of_system(self) -> bool:
        """Whether it stands in a header of the system."""
        return self.files.at(self.start)[1]

    def marker(self, flags: str = "") -> str:
        """Puts what follows on this token's line of the program."""
        name, line = self.files.place(self.start)
        return f'\n# {line} "{name}"{flags}\n'

    def place(self) -> str:
        """Its line in the source, and its column there, as a compiler counts it, if the line has the word once."""
        name, number = self.files.place(self.start)
        try:
            with open(name, encoding="utf-8", errors="replace") as source:
                line = next(itertools.islice(source, number - 1, None), "")
        except OSError:
            line = ""
        word = re.escape(self.text).replace("_Cilk_", "_?[cC]ilk_", 1)
        found = [match.start() for match in re.finditer(rf"\b{word}\b", line)]
        return f"{name}:{number}" + (f":{len(line[:found[0]].expandtabs()) + 1}" if len(found) == 1 else "")


def tokens_of(text: str, parts: Iterable[tuple[int, int]] | None = None) -> list[Token]:
    """The tokens of C; of these parts of the text alone, each of which begins with a line that names a file."""
    files = Files(text)
    tokens = [
        Token(match.lastgroup or "", match.group(), match.start(), files)
        for start, end in parts or [(0, len(text))]
        for match in TOKEN.finditer(text, start, end)
        if match.lastgroup not in ("marker", "space")
    ]
    match_brackets(tokens)
    return tokens


def literal_at(text: str, at: int) -> re.Match[str] | None:
    """The string or character that this mark begins, or None: it may separate digits, or stand in a directive."""
    if text[at] == "'" and IN_NUMBER.search(text, max(at - 40, 0), at):
        return None
    return (RAW if text[at] == '"' and RAW_PREFIX.search(text, max(at - 3, 0), at) else LITERAL).match(text, at)


@functools.lru_cache(1)
def blanked(text: str) -> str:
    """The text with spaces in place of what strings and characters hold, and with brackets in place of digraphs. It has
    the same places and lines."""
    return replaced(text, blanks_of(text))


def blanks_of(text: str) -> Iterator[tuple[int, int, str]]:
    end = 0
    while mark := QUOTE_OR_DIGRAPH.search(text, end):
        bracket, start, end = DIGRAPHS.get(mark[0]), mark.start(), mark.end()
        if bracket:
            yield start, end, bracket + " "
        elif literal := literal_at(text, start):
            end = literal.end()
            yield start + 1, end - 1, re.sub(r"[^\n]", " ", literal[0][1:-1])


def replaced(text: str, parts: Iterable[tuple[int, int, str]]) -> str:
    """The text with another in place of each of these parts, from a place to an end, which come in their order."""
    made, done = [], 0
    for start, end, instead in parts:
        made += [text[done:start], instead]
        done = end
    return "".join(made) + text[done:]


def without(text: str, pattern: re.Pattern[str]) -> str:
    """The text without what this matches outside of strings."""
    return replaced(text, ((*found.span(), "") for found in pattern.finditer(blanked(text))))


def after_bracket(bare: str, opening: int) -> int | None:
    """The place in a blanked text behind the bracket that closes this one, or None."""
    depth = 0
    for found in BRACKET.finditer(bare, opening):
        depth += 1 if found[0] in PARTNERS.values() else -1
        if depth == 0:
            return found.end()
    return None


def match_brackets(tokens: list[Token]) -> None:
    opened: list[int] = []
    for at, token in enumerate(tokens):
        if token.kind == "mark" and token.text in PARTNERS:
            if opened and tokens[opened[-1]].text == PARTNERS[token.text]:
                token.partner = opened.pop()
                tokens[token.partner].partner = at
        token.around = opened[-1] if opened else None
        if token.kind == "mark" and token.text in PARTNERS.values():
            opened.append(at)


def ends_label(tokens: list[Token], colon: int) -> bool:
    """Whether this colon ends a label, and isn't the second half of `? :`."""
    before = colon - 1
    if tokens[before].text == "default":
        return True
    if tokens[before].kind == "word" and tokens[before - 1].text in ("{", "}", ";", ":", ")", "else", "do"):
        return True
    while before >= 0 and tokens[before].text not in ("{", "}", ";", "?"):
        if tokens[before].text == "case":
            return True
        before -= 1
    return False


def is_in_block(tokens: list[Token], at: int) -> bool:
    around = tokens[at].around
    return around is not None and tokens[around].text == "{"


def statement_start(tokens: list[Token], spawn: int) -> int:
    """The index of the first token of the statement in which this spawn stands."""
    first = spawn
    while first > 0:
        before = tokens[first - 1]
        if before.text in ("{", "}", ";", "else", "do"):
            break
        if before.text == ":" and ends_label(tokens, first - 1):
            break
        if before.text in (")", "]") and before.partner is not None:
            if tokens[before.partner - 1].text in CONTROLS:
                break
            first = before.partner
        else:
            first -= 1
    return first


def after_postfixes(tokens: list[Token], at: int) -> tuple[int, list[int]]:
    """The end of the operators `(..)`, `[..]`, `.x` and `->x` from here on, and where each begins."""
    found = []
    while at < len(tokens) and tokens[at].text in ("(", "[", ".", "->"):
        is_bracket = tokens[at].text in ("(", "[")
        if is_bracket and tokens[at].partner is None:
            break
        found.append(at)
        at = tokens[at].partner + 1 if is_bracket else at + 2
    return at, found


def call_after(tokens: list[Token], before: int) -> int | None:
    """The parenthesis that opens the arguments of the call after this token, where a semicolon ends it; or None."""
    first = tokens[before + 1]
    if first.text == "(" and first.partner is not None:
        at = first.partner + 1
    elif first.kind == "word":
        at = before + 2
    else:
        return None
    end, operators = after_postfixes(tokens, at)
    is_call = operators and tokens[operators[-1]].text == "(" and tokens[end].text == ";"
    return operators[-1] if is_call else None


def after_lambda(tokens: list[Token], at: int) -> int | None:
    """The token behind a lambda that begins here, or None."""
    while at < len(tokens) and tokens[at].text not in ("{", "}", ";", ")", "]", "="):
        at = tokens[at].partner + 1 if tokens[at].text in ("(", "[") and tokens[at].partner else at + 1
    return tokens[at].partner + 1 if at < len(tokens) and tokens[at].text == "{" and tokens[at].partner else None


def after_angles(tokens: list[Token], at: int) -> int | None:
    """The token behind the template's arguments that begin here, or None where none do."""
    deep = 0
    while at < len(tokens) and tokens[at].text not in (";", "{", "}", ")", "]"):
        text = tokens[at].text
        deep += {"<": 1, ">": -1, ">>": -2}.get(text, 0)
        if deep <= 0:
            return at + 1 if deep == 0 else None
        at = tokens[at].partner + 1 if text in ("(", "[") and tokens[at].partner else at + 1
    return None


def outside(tokens: list[Token], first: int, end: int) -> Iterator[int]:
    """The indexes of those of these tokens that stand in no brackets, and in no template's arguments."""
    at = first
    while at < end:
        yield at
        if tokens[at].text == "<":
            at = after_angles(tokens, at) or at + 1
        else:
            at = tokens[at].partner + 1 if tokens[at].text in ("(", "[", "{") and tokens[at].partner else at + 1


def own_words(tokens: list[Token], first: int, name: int) -> list[Token]:
    """The tokens of a declaration that say of the variable itself, and not of what it points to, how it is."""
    direct = list(outside(tokens, first, name))
    behind = max((at for at in direct if tokens[at].text == "*"), default=first)
    return [tokens[at] for at in direct if at >= behind]


def own_constants(tokens: list[Token], first: int, name: int) -> list[Token]:
    """The words by which such a variable is constant: no hook sees the read of one."""
    return [token for token in own_words(tokens, first, name) if token.text == "const"]


def arguments_of(tokens: list[Token], opening: int) -> list[tuple[int, int]]:
    """The first and last index of each argument."""
    arguments, first = [], opening + 1
    for at in range(opening + 1, tokens[opening].partner + 1):
        ends = at == tokens[opening].partner
        if (ends or (tokens[at].text == "," and tokens[at].around == opening)) and first < at:
            arguments.append((first, at - 1))
            first = at + 1
    return arguments


def is_lvalue(tokens: list[Token], first: int, end: int) -> bool:
    """Whether these tokens name memory, as `*a[i].x` does; otherwise they declare a variable."""
    if tokens[first].text in ("*", "("):
        return True
    stop, operators = after_postfixes(tokens, first + 1)
    return stop == end and not (operators and tokens[operators[-1]].text == "(")


class Construct:
    """A keyword of Cilk in a source, and what is rewritten with it."""

    def __init__(self, text: str, tokens: list[Token], at: int) -> None:
        self.text, self.tokens, self.at = text, tokens, at
        # Puts what follows on the keyword's line of the program.
        self.here = tokens[at].marker(" 3")

    def refuse(self, why: str) -> NoReturn:
        raise Refused(self.tokens[self.at], why)

    def piece(self, first: int, last: int, without: Iterable[Token] = ()) -> str:
        """The program's text from one token to another, on its own lines, with space in place of some tokens."""
        start, found = self.tokens[first].start, self.text[self.tokens[first].start : self.tokens[last].end]
        for token in without:
            found = found[: token.start - start] + " " * len(token.text) + found[token.end - start :]
        return self.tokens[first].marker() + found + self.here
