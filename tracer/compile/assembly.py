"""Tells of a preprocessed source's assembly outside of functions, and of functions whose whole code is assembly: the
compilers' plugins, which see other assembly, don't see where it is, and say of its text whether they understand it."""
from __future__ import annotations

import re

from line_markers import Files
from tokens import BRACKET, CONTROLS, PARTNERS, after_bracket, blanked

ASM = re.compile(
    r"\b(?:asm|__asm__|__asm)\s*((?:(?:volatile|__volatile__|__volatile|inline|__inline__|__inline|goto)\s*)*)\("
)
DIRECTIVE = re.compile(r"^#[^\n]*", re.MULTILINE)
# What a statement follows; and the words before a bracket that one follows.
BEFORE_STATEMENT = re.compile(r"(?:^|[;{}:]|\b(?:else|do|__extension__)|\]\s*\])\Z")
WORD_BEFORE = re.compile(r"(\w*)\s*\Z")
STRINGS = re.compile(r'(?:\s|R?"\s*")+')
# How far back something is looked for.
NEAR = 5000
# A brace that isn't of a function, or of one whose whole code is assembly.
OUTER = re.compile(r'(?:\bnamespace\b[^;{}()]*|\bextern\s*"[^"]*"\s*|\b(?:__)?naked(?:__)?\b[^;{}]*)\Z')


class Source:
    """A preprocessed source without what stands in its strings and in its directives, whose brackets are read from its
    start on."""

    def __init__(self, text: str) -> None:
        self.bare = DIRECTIVE.sub(lambda line: " " * len(line[0]), blanked(text))
        # The brackets that stand open up to here; and where each of the others was opened.
        self.read, self.open = 0, list[int]()
        self.openings: dict[int, int] = {}

    def read_to(self, end: int) -> None:
        for found in BRACKET.finditer(self.bare, self.read, end):
            if found[0] not in PARTNERS:
                self.open.append(found.start())
            elif self.open and self.bare[self.open[-1]] == PARTNERS[found[0]]:
                self.openings[found.start()] = self.open.pop()
        self.read = end

    def is_in_function(self) -> bool:
        """Whether a statement may stand here: in a function, other than one whose whole code is assembly."""
        braces = (at for at in self.open if self.bare[at] == "{")
        return any(not OUTER.search(self.bare, max(at - NEAR, 0), at) for at in braces)

    def begins_statement(self, at: int) -> bool:
        """Whether what stands here is a statement, and no name that a declaration gives."""
        before = self.bare[max(at - NEAR, 0) : at].rstrip()
        if not before.endswith(")"):
            return bool(BEFORE_STATEMENT.search(before))
        closing = max(at - NEAR, 0) + len(before) - 1
        opening = self.openings.get(closing, closing)
        word = WORD_BEFORE.search(self.bare, max(opening - NEAR, 0), opening)
        if word and word[1].startswith("__attribute"):
            return self.begins_statement(word.start())
        return word is not None and (word[1] in CONTROLS or word[1] == "constexpr")


def outside(text: str) -> str:
    """The source with what tells of such assembly: its place, and its text if that is strings alone."""
    source, files, told = Source(text), Files(text), list[str]()
    for found in ASM.finditer(source.bare):
        source.read_to(found.start())
        end = after_bracket(source.bare, found.end() - 1)
        if end and (found[1] or source.begins_statement(found.start())) and not source.is_in_function():
            given = text[found.end() : end - 1] if STRINGS.fullmatch(source.bare, found.end(), end - 1) else "0"
            told.append(
                f"\n__attribute__((__constructor__)) static void __spbags_asm_of_{len(told)}(void) {{ "
                f'__spbags_asm_outside("{":".join(map(str, files.place(found.start())))}", __extension__({given})); }}\n'
            )
    return text + "".join(told)
