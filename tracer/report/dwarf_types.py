"""The types of a program's DWARF: their sizes, and which members and elements some of their bytes are of."""
import functools
from collections.abc import Iterable, Iterator
from itertools import islice
from typing import NamedTuple

from report.dwarf import Dwarf, Entry

# Tags.
ARRAY, CLASS, MEMBER, POINTER, REFERENCE, STRUCTURE, TYPEDEF, UNION = 0x01, 0x02, 0x0D, 0x0F, 0x10, 0x13, 0x16, 0x17
INHERITANCE, SUBRANGE, CONST, VOLATILE, RESTRICT, RIGHT_REFERENCE, ATOMIC = 0x1C, 0x21, 0x26, 0x35, 0x37, 0x42, 0x47
RENAMING = {TYPEDEF, CONST, VOLATILE, RESTRICT, ATOMIC}
CLASSES, REFERENCES = {CLASS, STRUCTURE}, {REFERENCE, RIGHT_REFERENCE}
POINTER_SIZE = 8
WITH_MEMBERS = CLASSES | {UNION}

# Attributes.
BYTE_SIZE, BIT_OFFSET, BIT_SIZE, UPPER_BOUND, COUNT = 0x0B, 0x0C, 0x0D, 0x2F, 0x37
MEMBER_LOCATION, DECLARATION, TYPE, DATA_BITS = 0x38, 0x3C, 0x49, 0x6B


class Part(NamedTuple):
    """A part of a type that has no parts of its own which are known: the path to it, its first byte and its size, and
    whether it is a scalar."""

    path: str
    first: int
    size: int | None
    is_scalar: bool


# Some bytes of a variable, from a first one to an end.
Run = tuple[int, int]


class Elements(Entry):
    """The type of memory that has elements of one type: of as many bytes."""

    def __init__(self, element: Entry, size: int) -> None:
        # No entry of the program begins there.
        super().__init__(element.unit, -(element.at << 48 | size), ARRAY, False, values={BYTE_SIZE: (0, size)})
        self.element = element


class Shapes:
    def __init__(self, dwarf: Dwarf) -> None:
        self.dwarf = dwarf

    @functools.cache
    def type_of(self, entry: Entry | None) -> Entry | None:
        """The type of a variable, a member or an element, behind its other names."""
        found = self.dwarf.inherited(entry, TYPE)
        found = found and self.dwarf.referred(found, TYPE)
        while found and found.tag in RENAMING:
            found = self.dwarf.referred(found, TYPE)
        return found

    @functools.cache
    def size(self, kind: Entry | None) -> int | None:
        if kind is None:
            return None
        own = kind.number(BYTE_SIZE)
        if own is not None or kind.tag != ARRAY:
            return POINTER_SIZE if own is None and kind.tag in REFERENCES | {POINTER} else own
        size = self.size(self.type_of(kind))
        for count in self.counts(kind):
            size = size and count and size * count
        return size or None

    @functools.cache
    def counts(self, array: Entry) -> list[int | None]:
        """How many elements an array has in each dimension; None where that isn't known."""
        found = []
        for child in self.dwarf.each_child(array):
            if child.tag == SUBRANGE:
                last, count = child.number(UPPER_BOUND), child.number(COUNT)
                found.append(last + 1 if count is None and last is not None else count)
        return found

    # ---- Parts ----

    def part(self, kind: Entry | None, offset: int) -> Part:
        return next(self.parts(kind, offset, offset + 1))

    def parts(self, kind: Entry | None, first: int, end: int) -> Iterator[Part]:
        if kind and kind.tag == ARRAY:
            return self.parts_of_array(kind, first, end)
        if kind and kind.tag in WITH_MEMBERS:
            return self.parts_of_members(kind, first, end)
        return iter([Part("", 0, self.size(kind), True)])

    def whole(self, kind: Entry) -> Part:
        return Part("", 0, self.size(kind), False)

    def parts_of_array(self, array: Entry, first: int, end: int) -> Iterator[Part]:
        element, size, counts = self.dimensions(array)
        if not size:
            yield self.whole(array)
            return
        for number in range(first // size, -(-end // size)):
            start, index = number * size, number
            indices: list[int] = []
            for count in reversed(counts):
                index, last = divmod(index, count)
                indices.append(last)
            path = "".join(f"[{at}]" for at in (index, *reversed(indices)))
            for part in self.parts(element, max(first - start, 0), min(end - start, size)):
                yield part._replace(path=path + part.path, first=start + part.first)

    def dimensions(self, array: Entry) -> tuple[Entry | None, int | None, list[int]]:
        """An array's elements, their size, and how many there are in each dimension but the first; no size where these
        aren't known."""
        if isinstance(array, Elements):
            return array.element, self.size(array.element), []
        element, counts = self.type_of(array), self.counts(array)
        inner = [count for count in counts[1:] if count is not None]
        return element, self.size(element) if counts and len(inner) == len(counts) - 1 else None, inner

    def parts_of_members(self, kind: Entry, first: int, end: int) -> Iterator[Part]:
        members = self.touched(kind, first, end)
        if not members:
            yield self.whole(kind)
        for member, start, size in members:
            name = self.dwarf.name(member) if member.tag == MEMBER else None
            for part in self.parts(self.type_of(member), max(first - start, 0), min(end - start, size)):
                yield part._replace(path=(f".{name}" if name else "") + part.path, first=start + part.first)

    def touched(self, kind: Entry, first: int, end: int) -> list[tuple[Entry, int, int]]:
        """The members with these bytes, or none where two have the same."""
        found = [
            (member, start, size)
            for member, start, size in self.members(kind)
            if size and start < end and first < start + size
        ]
        found.sort(key=lambda member: member[1])
        return [] if any(one[1] + one[2] > other[1] for one, other in zip(found, found[1:])) else found

    def count(self, kind: Entry | None, first: int, end: int) -> int:
        """How many parts there are with these bytes."""
        is_whole = kind is not None and first == 0 and end == self.size(kind)
        return self.count_all(kind) if is_whole else self.counted(kind, first, end)

    @functools.cache
    def count_all(self, kind: Entry | None) -> int:
        return self.counted(kind, 0, self.size(kind) or 0)

    def counted(self, kind: Entry | None, first: int, end: int) -> int:
        if kind and kind.tag in WITH_MEMBERS:
            members = self.touched(kind, first, end)
            parts = ((self.type_of(at), max(first - start, 0), min(end - start, size)) for at, start, size in members)
            return sum(self.count(*part) for part in parts) or 1
        element, size, _ = self.dimensions(kind) if kind and kind.tag == ARRAY else (None, None, None)
        if not size:
            return 1
        number, last = first // size, (end - 1) // size
        inner = {at: (max(first - at * size, 0), min(end - at * size, size)) for at in (number, last)}
        ends = sum(self.count(element, *part) for part in inner.values())
        return ends + max(last - number - 1, 0) * self.count(element, 0, size)

    def gathered(self, kind: Entry | None, runs: Iterable[Run], most: int) -> tuple[list[str], int]:
        """Of these runs of bytes so many paths to their parts, and the number of parts."""
        paths: list[str] = []
        number = before = 0
        for first, end in joined(runs):
            # Whether the run before ends in the part with which this one begins.
            goes_on = self.part(kind, first).first < before
            number += self.count(kind, first, end) - goes_on
            if len(paths) < most:
                parts = islice(self.parts(kind, first, end), goes_on, goes_on + most - len(paths))
                paths += (part.path for part in parts)
            before = end
        return paths, number

    def fields(self, kind: Entry) -> Iterator[Entry]:
        """The members and the bases of a struct, class or union."""
        of_objects = (child for child in self.dwarf.each_child(kind) if not child.number(DECLARATION))
        return (child for child in of_objects if child.tag in (MEMBER, INHERITANCE))

    @functools.cache
    def members(self, kind: Entry) -> list[tuple[Entry, int, int | None]]:
        """With the bytes that they touch."""
        found = []
        for child in self.fields(kind):
            first = child.number(MEMBER_LOCATION) if MEMBER_LOCATION in child.values else 0
            if first is not None:
                found.append((child, *self.bytes_of(child, first)))
        return found

    def bytes_of(self, member: Entry, first: int) -> tuple[int, int | None]:
        """The first byte that a member touches, and how many: it begins in this byte, or has some bits from there
        on."""
        size, bits = self.size(self.type_of(member)), member.number(BIT_SIZE)
        if not bits:
            return first, size
        start = member.number(DATA_BITS)
        if start is None:
            # DWARF 4 counts from the other end of what holds the bits.
            start = 8 * (first + (member.number(BYTE_SIZE) or size or 0)) - (member.number(BIT_OFFSET) or 0) - bits
        return start // 8, (start % 8 + bits + 7) // 8


def joined(runs: Iterable[Run]) -> list[Run]:
    """The runs in their order, with one for those that touch."""
    made: list[Run] = []
    for first, end in sorted(runs):
        if made and first <= made[-1][1]:
            made[-1] = made[-1][0], max(made[-1][1], end)
        else:
            made.append((first, end))
    return made
