"""In C++ gcc leaves out a call by a pointer to a function that is said to do nothing but compute, though its hooks are
called: so the attribute that says so gives way to one that does nothing."""
from __future__ import annotations

import re
from collections.abc import Iterator

from line_markers import Files
from tokens import after_bracket, blanked, replaced

ATTRIBUTE = re.compile(r"(?<![\w$])__attribute(?:__)?\s*\(|\[(?=\s*\[)")
CONST = re.compile(r"(?:[(,:]\s*)((?:__)?const(?:__)?)(?=\s*[,)\]])")


def without_const(text: str) -> str:
    return replaced(text, words_of(text))


def words_of(text: str) -> Iterator[tuple[int, int, str]]:
    for begin, end in Files(text).own():
        bare = blanked(text[begin:end])
        for attribute in ATTRIBUTE.finditer(bare):
            close = after_bracket(bare, attribute.end() - 1) or attribute.end()
            for word in CONST.finditer(bare, attribute.end() - 1, close):
                yield begin + word.start(1), begin + word.end(1), "__unused__"
