"""The files that a preprocessed source is made of, by the lines that name them."""
from __future__ import annotations

import re
from collections.abc import Iterator
from bisect import bisect_right

RAW = re.compile(r'R"[^()\\\s"]{0,16}\(')
# Before and behind the text is a line feed.
MARKER = re.compile(r'\n#(?:line)? *(\d+) *"((?:\\.|[^"\\\n])*)"([ 0-9]*)(?=\n)')


class Files:
    def __init__(self, text: str) -> None:
        self.text = text
        self.starts, self.lines, self.names = [0], [2], ["?"]
        self.flags: list[list[str]] = [[]]
        for marker in markers(text):
            self.starts.append(marker.start())
            self.lines.append(int(marker[1]))
            self.names.append(marker[2])
            self.flags.append(marker[3].split())

    def at(self, place: int) -> tuple[str, bool]:
        """The file, and whether it is a header of the system."""
        number = bisect_right(self.starts, place) - 1
        return self.names[number], "3" in self.flags[number]

    def place(self, place: int) -> tuple[str, int]:
        """The file and the line."""
        number = bisect_right(self.starts, place) - 1
        return self.names[number], self.lines[number] + self.text.count("\n", self.starts[number], place) - 1

    def names_file(self, place: int) -> bool:
        number = bisect_right(self.starts, place) - 1
        return number > 0 and self.starts[number] == place

    def own(self) -> Iterator[tuple[int, int]]:
        """Where the parts begin and end that stand in no header of the system, nor in what one includes."""
        around: list[bool] = []
        begin = 0
        for start, flags in zip(self.starts, self.flags):
            was_system = any(around)
            if "1" in flags:
                around.append("3" in flags)
            elif "2" in flags and around:
                around.pop()
            if any(around) and not was_system:
                yield begin, start
            elif was_system and not any(around):
                begin = start
        if not any(around):
            yield begin, len(self.text)


def has_raw_strings(text: str) -> bool:
    """Whether there may be some. They may hold whole lines."""
    return bool(RAW.search(text))


def markers(text: str) -> Iterator[re.Match[str]]:
    """The places of these lines are those in the text."""
    found = MARKER.finditer(f"\n{text}\n")
    if not has_raw_strings(text):
        return found
    from tokens import blanked

    bare = blanked(text)
    return (marker for marker in found if bare.startswith("#", marker.start()))
