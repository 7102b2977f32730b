"""The reducers of OpenCilk in a preprocessed source, `T _Hyperobject(identity, reduce) name`: gcc gets an attribute in
place of the keyword, which its plugin reads."""
from __future__ import annotations

import re
from collections.abc import Iterator

from tokens import after_bracket, blanked, replaced

KEYWORD = re.compile(r"\b_Hyperobject\b(\s*\()?")


def rewritten(text: str) -> str:
    """The source with the attribute, in which a call has the functions: in C++ it chooses among those of one name."""
    return replaced(text, keywords_of(text, blanked(text)))


def keywords_of(text: str, bare: str) -> Iterator[tuple[int, int, str]]:
    for found in KEYWORD.finditer(bare):
        end = found[1] and after_bracket(bare, found.end() - 1) or found.end()
        given = f"(__spbags_functions{text[found.end() - 1:end]})" if found[1] else ""
        yield found.start(), end, f"__attribute__((spbags_reducer{given}))"
