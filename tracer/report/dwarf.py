"""The entries of a program's DWARF, of versions 4 and 5, as gcc and clang write them. An entry is read where somebody
asks for it: all of a large program would take seconds."""
import bisect
import contextlib
import functools
import struct
from collections.abc import Iterator
from dataclasses import dataclass, field
from typing import Any

from elf import UNREADABLE, Elf, text_at

# Forms by their size; those of another kind are read by a function of their own below.
FORMS_OF_SIZE = {
    0: (0x19,),
    1: (0x0B, 0x0C, 0x11, 0x25, 0x29),
    2: (0x05, 0x12, 0x26, 0x2A),
    3: (0x27, 0x2B),
    4: (0x06, 0x0E, 0x10, 0x13, 0x17, 0x1C, 0x1D, 0x1F, 0x28, 0x2C, 0x1F20, 0x1F21),
    8: (0x01, 0x07, 0x14, 0x20, 0x24),
    16: (0x1E,),
}
SIZES = {form: size for size, forms in FORMS_OF_SIZE.items() for form in forms}
NUMBERS = {0x0F, 0x15, 0x1A, 0x1B, 0x22, 0x23, 0x1F01, 0x1F02}
BLOCKS = {0x03: 2, 0x04: 4, 0x09: 0, 0x0A: 1, 0x18: 0}
STRING, SIGNED, IMPLICIT, INDIRECT = 0x08, 0x0D, 0x21, 0x16
STRP, LINE_STRP = 0x0E, 0x1F
INDEXED_STRINGS, INDEXED_ADDRESSES = {0x1A, 0x25, 0x26, 0x27, 0x28}, {0x1B, 0x29, 0x2A, 0x2B, 0x2C}
REFERENCES, GLOBAL_REFERENCE = {0x11, 0x12, 0x13, 0x14, 0x15}, 0x10
INDEXED_LIST = 0x22

# Attributes.
SIBLING, LOCATION, NAME, SPECIFICATION, ORIGIN = 0x01, 0x02, 0x03, 0x47, 0x31
STRINGS_BASE, ADDRESSES_BASE, LOCATIONS_BASE = 0x72, 0x73, 0x8C


def uleb(data: bytes, at: int) -> tuple[int, int]:
    value = shift = 0
    while True:
        byte = data[at]
        at += 1
        value |= (byte & 127) << shift
        shift += 7
        if byte < 128:
            return value, at


def sleb(data: bytes, at: int) -> tuple[int, int]:
    value, end = uleb(data, at)
    bits = 7 * (end - at)
    return value - (1 << bits if value >> (bits - 1) & 1 else 0), end


# Of an entry with some number: the tag, whether there are children, and each attribute with its form and, if all
# entries with this number have the same value, that.
Abbreviation = tuple[int, bool, list[tuple[int, int, int | None]]]


@dataclass(eq=False)
class Unit:
    """A compile unit: where it, its entries and its abbreviations begin."""

    start: int
    first: int
    end: int
    version: int
    abbreviations: int


@dataclass(unsafe_hash=True)
class Entry:
    """An entry, with the form and the value of each attribute: a number, or a block."""

    unit: Unit = field(compare=False)
    at: int
    tag: int
    has_children: bool
    end: int = field(default=0, compare=False)
    values: dict[int, tuple[int, Any]] = field(default_factory=dict, compare=False)

    def value(self, attribute: int) -> Any:
        return self.values.get(attribute, (0, None))[1]

    def number(self, attribute: int) -> int | None:
        found = self.value(attribute)
        return found if isinstance(found, int) else None


class Dwarf:
    def __init__(self, elf: Elf) -> None:
        self.section = functools.cache(elf.section)
        self.info = self.abbrev = b""
        self.units: list[Unit] = []
        with contextlib.suppress(*UNREADABLE):
            self.info, self.abbrev = self.section(".debug_info"), self.section(".debug_abbrev")
            self.units = list(self.read_units())
        self.starts = [unit.start for unit in self.units]

    def read_units(self) -> Iterator[Unit]:
        at = 0
        while at < len(self.info):
            length, version = struct.unpack_from("<IH", self.info, at)
            if length >= 0xFFFFFFF0:
                return
            kind = 1
            if version == 5:
                kind, _, abbreviations = struct.unpack_from("<BBI", self.info, at + 6)
            else:
                abbreviations, _ = struct.unpack_from("<IB", self.info, at + 6)
            if version in (4, 5) and kind == 1:
                yield Unit(at, at + (12 if version == 5 else 11), at + 4 + length, version, abbreviations)
            at += 4 + length

    def unit_at(self, at: int) -> Unit | None:
        number = bisect.bisect_right(self.starts, at) - 1
        return self.units[number] if number >= 0 and at < self.units[number].end else None

    @functools.cache
    def table(self, start: int) -> dict[int, Abbreviation]:
        """The abbreviations that begin here, by their numbers."""
        table: dict[int, Abbreviation] = {}
        at = start
        while self.abbrev[at] != 0:
            number, at = uleb(self.abbrev, at)
            tag, at = uleb(self.abbrev, at)
            attributes, end = self.attributes(at + 1)
            table[number] = (tag, self.abbrev[at] == 1, attributes)
            at = end
        return table

    def attributes(self, at: int) -> tuple[list[tuple[int, int, int | None]], int]:
        found: list[tuple[int, int, int | None]] = []
        while self.abbrev[at : at + 2] != b"\0\0":
            attribute, at = uleb(self.abbrev, at)
            form, at = uleb(self.abbrev, at)
            constant, at = sleb(self.abbrev, at) if form == IMPLICIT else (None, at)
            found.append((attribute, form, constant))
        return found, at + 2

    def value(self, form: int, at: int) -> tuple[int | bytes, int]:
        """The value of this form, and what follows it; of a text in the entry where it begins."""
        info = self.info
        if form in SIZES:
            end = at + SIZES[form]
            return int.from_bytes(info[at:end], "little"), end
        if form in NUMBERS:
            return uleb(info, at)
        if form == SIGNED:
            return sleb(info, at)
        if form == STRING:
            return at, info.index(b"\0", at) + 1
        start = at + BLOCKS[form]
        size, start = (int.from_bytes(info[at:start], "little"), start) if start > at else uleb(info, at)
        return info[start : start + size], start + size

    def entry(self, unit: Unit, at: int) -> Entry:
        number, end = uleb(self.info, at)
        tag, has_children, attributes = self.table(unit.abbreviations)[number]
        entry = Entry(unit, at, tag, has_children)
        for attribute, form, constant in attributes:
            if form == INDIRECT:
                form, end = uleb(self.info, end)
            value, end = self.value(form, end) if constant is None else (constant, end)
            entry.values[attribute] = form, value
        entry.end = end
        return entry

    @functools.cache
    def root(self, unit: Unit) -> Entry:
        return self.entry(unit, unit.first)

    @functools.cache
    def children(self, entry: Entry) -> list[int]:
        return self.read_children(entry)[0] if entry.has_children else []

    def read_children(self, entry: Entry) -> tuple[list[int], int]:
        """Where they begin, and where they end, which a zero says."""
        starts: list[int] = []
        at = entry.end
        while at < entry.unit.end and self.info[at] != 0:
            starts.append(at)
            child = self.entry(entry.unit, at)
            sibling = child.number(SIBLING)
            if sibling:
                at = entry.unit.start + sibling
            else:
                at = self.read_children(child)[1] if child.has_children else child.end
        return starts, at + 1

    def each_child(self, entry: Entry) -> Iterator[Entry]:
        return (self.entry(entry.unit, at) for at in self.children(entry))

    def entry_around(self, at: int) -> Entry | None:
        """The entry in whose attributes this is."""
        unit = self.unit_at(at)
        found = self.root(unit) if unit else None
        while found and at >= found.end:
            starts = self.children(found)
            number = bisect.bisect_right(starts, at) - 1
            found = self.entry(found.unit, starts[number]) if number >= 0 else None
        return found

    def referred(self, entry: Entry, attribute: int) -> Entry | None:
        """The entry to which an attribute refers."""
        form, value = entry.values.get(attribute, (0, 0))
        if form in REFERENCES:
            return self.entry(entry.unit, entry.unit.start + value)
        unit = self.unit_at(value) if form == GLOBAL_REFERENCE else None
        return self.entry(unit, value) if unit else None

    def inherited(self, entry: Entry | None, attribute: int) -> Entry | None:
        """The entry that has this attribute: this one, or what it completes."""
        for _ in range(8):
            if entry is None or attribute in entry.values:
                return entry
            entry = self.referred(entry, ORIGIN) or self.referred(entry, SPECIFICATION)
        return None

    def name(self, entry: Entry) -> str | None:
        named = self.inherited(entry, NAME)
        if named is None:
            return None
        form, value = named.values[NAME]
        if form == STRING:
            return text_at(self.info, value)
        if form in INDEXED_STRINGS:
            base = self.base(named.unit, STRINGS_BASE, 8)
            (value,) = struct.unpack_from("<I", self.section(".debug_str_offsets"), base + 4 * value)
        elif form not in (STRP, LINE_STRP):
            return None
        return text_at(self.section(".debug_line_str" if form == LINE_STRP else ".debug_str"), value)

    def base(self, unit: Unit, attribute: int, otherwise: int) -> int:
        """Where the unit's part of a table begins, whose numbers its entries have."""
        found = self.root(unit).number(attribute)
        return otherwise if found is None else found

    def address(self, entry: Entry, attribute: int) -> int | None:
        form, value = entry.values.get(attribute, (0, None))
        return self.indexed_address(entry.unit, value) if form in INDEXED_ADDRESSES else value

    def indexed_address(self, unit: Unit, number: int) -> int:
        (found,) = struct.unpack_from(
            "<Q", self.section(".debug_addr"), self.base(unit, ADDRESSES_BASE, 8) + 8 * number
        )
        return int(found)

    def expressions(self, entry: Entry) -> list[bytes]:
        form, value = entry.values.get(LOCATION, (0, None))
        if not isinstance(value, int):
            return [value] if value is not None else []
        if entry.unit.version == 4:
            return list(self.old_list(value))
        if form == INDEXED_LIST:
            base = self.base(entry.unit, LOCATIONS_BASE, 12)
            value = base + struct.unpack_from("<I", self.section(".debug_loclists"), base + 4 * value)[0]
        return list(self.new_list(value))

    def old_list(self, at: int) -> Iterator[bytes]:
        data = self.section(".debug_loc")
        while True:
            first, end = struct.unpack_from("<QQ", data, at)
            at += 16
            if first == end == 0:
                return
            if first != 0xFFFFFFFFFFFFFFFF:
                (size,) = struct.unpack_from("<H", data, at)
                yield data[at + 2 : at + 2 + size]
                at += 2 + size

    def new_list(self, at: int) -> Iterator[bytes]:
        # By its kind, what an item of a list has before its expression: numbers, and addresses.
        before = {1: (1, 0), 2: (2, 0), 3: (2, 0), 4: (2, 0), 5: (0, 0), 6: (0, 1), 7: (0, 2), 8: (1, 1), 9: (2, 0)}
        data = self.section(".debug_loclists")
        while data[at] != 0:
            kind = data[at]
            numbers, addresses = before[kind]
            at += 1 + 8 * addresses
            for _ in range(numbers):
                _, at = uleb(data, at)
            if kind not in (1, 6, 9):
                size, at = uleb(data, at)
                yield data[at : at + size]
                at += size
