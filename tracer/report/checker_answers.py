"""Answers of `spbags`, and the code addresses of a trace's places."""
import bisect
import mmap
import os
import re
import struct
from array import array
from collections.abc import Iterable, Sequence
from itertools import accumulate
from typing import BinaryIO, NamedTuple

from report.failure import Failure

HEAD = re.compile(r"(races|pairs) ([0-9]+)\n")
RACE = re.compile(r"(?:race ([0-9]+)|pair) (read|write) ([0-9]+) (read|write) ([0-9]+)\n")
# The races of an answer of `pairs` are all of the location that was asked for, which it doesn't say.
NO_LOCATION = -1


class Access(NamedTuple):
    kind: str
    place: int


class Race(NamedTuple):
    location: int
    first: Access
    second: Access

    @property
    def accesses(self) -> tuple[Access, Access]:
        return self.first, self.second


def races_of(lines: list[str]) -> list[Race]:
    head = HEAD.fullmatch(lines[0]) if lines else None
    if not head:
        raise Failure(
            "the report has no first line `races N'" if lines else "the report is empty: did spbags find a fault?"
        )
    races = [race_of(line, number) for number, line in enumerate(lines[1:], 2)]
    if len(races) != int(head[2]):
        raise Failure(f"report line {len(lines) + 1}: bad")
    return races


# Where a unit is divided into its bytes, their locations begin here, in turn by unit. Bytes of the stack that another
# variable has now are in units of their own, from that location on.
FIRST_BYTE, BYTES, FIRST_FRESH = 1 << 60, 8, 1 << 56


def unit_of(location: int) -> int:
    """The location of the unit that a location of a byte is in."""
    return (location - FIRST_BYTE) // BYTES if location >= FIRST_BYTE else location


def units_of(races: Iterable[Race]) -> set[int]:
    return {unit_of(race.location) for race in races}


def address_of(location: int, unit: int) -> int:
    """That of a location that isn't of the stack."""
    byte = (location - FIRST_BYTE) % BYTES if location >= FIRST_BYTE else 0
    return unit_of(location) // 2 * unit + byte


def race_of(line: str, number: int) -> Race:
    race = RACE.fullmatch(line)
    if not race:
        raise Failure(f"report line {number}: bad")
    location, kind, place, other_kind, other_place = race.groups()
    return Race(
        int(location) if location else NO_LOCATION, Access(kind, int(place)), Access(other_kind, int(other_place))
    )


# The number and the name of what an access held.
Guard = tuple[int, str]


class Site(NamedTuple):
    """What a record's place says: the code address, whether the access there doesn't fill its unit, and what was held,
    or None where that isn't known."""

    code: int
    is_narrow: bool
    guards: tuple[Guard, ...] | None


NO_SITE = 0xFFFF
# The first part of a site's word, and the list that isn't known.
CODE, NO_LIST = (1 << 48) - 1, 0x7FFF


def guard_of(text: str) -> Guard:
    number, _, name = text.partition(" ")
    return int(number, 16), name


class Block:
    """The numbers of a packed block, by hooks/records/packing.h and places.h; for how many records each stands; and what
    it is. What stands there already is copied as a whole, since it is many times as much as what is new."""

    # A site or a mark; how many more records there are; the last of what follows the mark of two sites, and before that
    # how much of it is left.
    OWN, MORE, LAST, FIRST = 0, 1, 2, 8
    # What follows a mark.
    MARKS = {0xFFFD: FIRST, 0xFFFE: MORE}
    STEP = 256

    def __init__(self, packed: Sequence[int]) -> None:
        self.numbers, self.counts, self.kinds = array("H"), array("H"), array("B")
        at, kind = 0, self.OWN
        while at < len(packed):
            end = at + 1 + packed[at]
            for number in packed[at + 1 : end]:
                kind = self.take(number, kind)
            if end < len(packed):
                kind = self.copy(packed[end], packed[end + 1], kind)
            at = end + 2
        steps = range(0, len(self.counts), self.STEP)
        self.sums = list(accumulate(sum(self.counts[start : start + self.STEP]) for start in steps))

    def take(self, number: int, kind: int) -> int:
        """A number that is this; what the next one is."""
        self.numbers.append(number)
        self.kinds.append(kind)
        if kind == self.OWN:
            self.counts.append(number not in self.MARKS)
            return self.MARKS.get(number, self.OWN)
        self.counts.append(number if kind == self.MORE else self.numbers[-5] if kind == self.LAST else 0)
        return kind - 1 if kind > self.LAST else self.OWN

    def copy(self, back: int, count: int, kind: int) -> int:
        """So many numbers that stand so far back, of which the first is this; what the next one is."""
        start = len(self.numbers) - back
        while count > 0 and (kind > self.MORE or self.kinds[start] != kind):
            kind = self.take(self.numbers[start], kind)
            start, count = start + 1, count - 1
        for every in (self.numbers, self.counts, self.kinds):
            again = every[start : start + count]
            every += again if count <= back else (again * (count // back + 1))[:count]
        return self.kinds[start + count] if count > 0 else kind

    def site(self, record: int) -> int:
        """The number of a record's site."""
        step = bisect.bisect_left(self.sums, record)
        record -= self.sums[step - 1] if step > 0 else 0
        ends = list(accumulate(self.counts[step * self.STEP : (step + 1) * self.STEP]))
        found = bisect.bisect_left(ends, record)
        at = step * self.STEP + found
        if self.kinds[at] == self.LAST:
            *two, count, first, second, third, fourth = self.numbers[at - 6 : at + 1]
            bits = first | second << 16 | third << 32 | fourth << 48
            return two[bits >> record - 1 - (ends[found] - count) & 1]
        while self.kinds[at] == self.MORE:
            at -= 2
        return self.numbers[at]


class Places:
    """A run's file of places: packed blocks of numbers of 2 bytes, by hooks/records/places.h; where each block ends, as
    how many records and how many packed numbers stand before; the sites, the lists of guards, the lines of the report;
    and how many of all these there are."""

    END = struct.Struct("<QQQQQQ8s")
    MARK = b"spbplace"

    def __init__(self, file: BinaryIO, name: str) -> None:
        self.name = name
        size = os.fstat(file.fileno()).st_size
        self.bytes: mmap.mmap | bytes = mmap.mmap(file.fileno(), 0, access=mmap.ACCESS_READ) if size > 0 else b""
        if size < self.END.size or self.bytes[-8:] != self.MARK:
            raise Failure(f"{name} is incomplete: did the run end early?")
        self.count, numbers, marks, sites, lists, notes, _ = self.END.unpack_from(self.bytes, size - self.END.size)
        starts = list(accumulate((2 * numbers, 16 * marks, 8 * sites, lists, notes)))
        if starts[-1] != size - self.END.size:
            raise Failure(f"{name}: this isn't a file of places")
        self.marks = [(0, 0), *struct.iter_unpack("<QQ", self.bytes[starts[0] : starts[1]])]
        words = struct.unpack_from(f"<{sites}Q", self.bytes, starts[1])
        held = [(), *(tuple(map(guard_of, line.split("\t"))) for line in self.text(*starts[2:4]))]
        numbers_held = ((word, word >> 48 & NO_LIST) for word in words)
        self.sites = [
            Site(word & CODE, word >> 63 == 1, held[number] if number != NO_LIST else None)
            for word, number in numbers_held
        ]
        self.notes = self.text(*starts[3:5])
        # The newest part that was read, and which that is; and the numbers of records that were looked up.
        self.part: int | None = None
        self.block = Block(())
        self.found: dict[int, int] = {}

    def text(self, start: int, end: int) -> list[str]:
        return self.bytes[start:end].decode(errors="replace").splitlines()

    def need(self, wanted: Iterable[int]) -> None:
        """All these places are of this trace. They are looked up together, in their order."""
        for place in sorted(wanted):
            if not 0 < place <= self.count:
                raise Failure(f"{self.name} has no place {place}: does the report belong to another trace?")
            self.found[place] = self.number(place)

    def number(self, place: int) -> int:
        part = bisect.bisect_left(self.marks, (place,)) - 1
        (before, first), (_, end) = self.marks[part : part + 2]
        if part != self.part:
            self.part, self.block = part, Block(memoryview(self.bytes)[2 * first : 2 * end].cast("H"))
        return self.block.site(place - before)

    def site(self, place: int) -> Site | None:
        """None where it isn't known."""
        if not 0 < place <= self.count:
            return None
        number = self.found[place] if place in self.found else self.number(place)
        return self.sites[number] if number != NO_SITE else None

    def codes(self, wanted: Iterable[int]) -> dict[int, int]:
        """The code address of each of these places, or 0 where it isn't known."""
        wanted = set(wanted)
        self.need(wanted)
        sites = {place: self.site(place) for place in wanted}
        return {place: site.code if site else 0 for place, site in sites.items()}


def places_of(name: str) -> Places:
    with open(name, "rb") as file:
        return Places(file, name)
