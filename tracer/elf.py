"""The sections, the symbols and the code of objects, libraries and programs, 64-bit ELF of little endian; and the
members of archives. `nm` would load the plugins of all compilers that are here, for each call."""
from __future__ import annotations

import bisect
import contextlib
import mmap
import os
import struct
import zlib
from collections import namedtuple
from collections.abc import Iterable, Iterator

# What a symbol is, as nm calls it: code, a weak function, data, weak data, or not defined.
CODE, WEAK_CODE, DATA, WEAK_DATA, UNDEFINED = "T", "W", "D", "V", "U"
SYMBOLS, DYNAMIC_SYMBOLS, LONG_INDEXES = 2, 11, 18
# Bindings and kinds of symbols: an object, a function, an object of each thread, and a function by a function.
WEAK, OBJECT, FUNCTION, THREAD_LOCAL, FUNCTION_BY_FUNCTION = 2, 1, 2, 6, 10
EXECUTED, COMPRESSED = 4, 0x800
# Where the section's number is none, or stands elsewhere.
NO_SECTION, ELSEWHERE = 0xFF00, 0xFFFF
# The section of a program that has the hooks' code.
HOOKS = "spbags_hooks"
# What comes of bytes that are no ELF or DWARF.
UNREADABLE = (ValueError, LookupError, TypeError, AttributeError, RecursionError, struct.error, zlib.error)

Bytes = bytes | mmap.mmap
Section = namedtuple("Section", "name kind flags address at size link first")
Symbol = namedtuple("Symbol", "start end name")


def opened(file: str) -> mmap.mmap:
    with open(file, "rb") as read:
        return mmap.mmap(read.fileno(), 0, access=mmap.ACCESS_READ)


def text_at(data: Bytes, at: int) -> str:
    return data[at : data.find(b"\0", at)].decode(errors="surrogateescape")


def sections_of(data: Bytes) -> list[Section]:
    (start,) = struct.unpack_from("<Q", data, 0x28) if data[:4] == b"\x7fELF" else (0,)
    if start == 0:
        return []
    size, count = struct.unpack_from("<HH", data, 0x3A)
    count = count or struct.unpack_from("<Q", data, start + 32)[0]
    return [Section(*struct.unpack_from("<IIQQQQII", data, start + size * number)) for number in range(count)]


def contents(data: Bytes, section: Section) -> bytes:
    return data[section.at : section.at + section.size]


def symbols_of(data: Bytes, is_dynamic: bool = False) -> Iterator[tuple[str, str]]:
    """The name of each global symbol, and what it is."""
    sections = sections_of(data)
    long = next((contents(data, section) for section in sections if section.kind == LONG_INDEXES), b"")
    for table in sections:
        if table.kind == (DYNAMIC_SYMBOLS if is_dynamic else SYMBOLS):
            texts = contents(data, sections[table.link])
            rows = struct.iter_unpack("<IBBHQQ", contents(data, table)[24 * table.first :])
            for number, (name, about, _, section, _, _) in enumerate(rows, table.first):
                if section == ELSEWHERE:
                    (section,) = struct.unpack_from("<I", long, 4 * number)
                elif section >= NO_SECTION:
                    section = len(sections)
                yield text_at(texts, name), what(about, section, sections)


def what(about: int, section: int, sections: list[Section]) -> str:
    binding, kind = about >> 4, about & 15
    if section == 0:
        return UNDEFINED
    if binding == WEAK:
        return WEAK_DATA if kind in (OBJECT, THREAD_LOCAL) else WEAK_CODE
    is_code = kind == FUNCTION_BY_FUNCTION or section < len(sections) and sections[section].flags & EXECUTED
    return CODE if is_code else DATA


def members_of(file: str) -> Iterator[tuple[str, bytes]]:
    """The name and the bytes of each member of an archive. Those of a thin one are files of their own for the
    linker."""
    data, at, names = opened(file), len("!<arch>\n"), b""
    while at + 60 <= len(data):
        name, size = data[at : at + 16].rstrip(), int(data[at + 48 : at + 58])
        text = data[at + 60 : at + 60 + size]
        at += 60 + size + size % 2
        if name == b"//":
            names = text
        elif name not in (b"/", b"/SYM64/"):
            if name[:1] == b"/":
                start = int(name[1:])
                name = names[start : names.index(b"\n", start)]
            yield os.fsdecode(name.removesuffix(b"/")), text


class Symbols:
    """Those of some kinds that a program has itself, by their addresses."""

    def __init__(self, symbols: Iterable[Symbol] = ()) -> None:
        self.all = sorted(symbols)
        self.starts = [symbol.start for symbol in self.all]

    def at(self, address: int) -> Symbol | None:
        """The one that holds this address."""
        number = bisect.bisect_right(self.starts, address) - 1
        return self.all[number] if number >= 0 and address < self.all[number].end else None


class Elf:
    """A program; what can't be read of it is missing."""

    def __init__(self, program: str) -> None:
        self.bytes = opened(program)
        self.sections: dict[str, Section] = {}
        self.functions = self.variables = Symbols()
        with contextlib.suppress(*UNREADABLE):
            sections = sections_of(self.bytes)
            (names,) = struct.unpack_from("<H", self.bytes, 0x3E)
            self.sections = {text_at(self.bytes, sections[names].at + section.name): section for section in sections}
            self.functions = Symbols(self.symbols(FUNCTION))
            self.variables = Symbols(self.symbols(OBJECT, THREAD_LOCAL))

    def section(self, name: str) -> bytes:
        """The bytes of a section; none where the program lacks it."""
        if name not in self.sections:
            return b""
        data = contents(self.bytes, self.sections[name])
        return zlib.decompress(data[24:]) if self.sections[name].flags & COMPRESSED else data

    def symbols(self, *kinds: int) -> Iterator[Symbol]:
        texts = self.section(".strtab")
        for name, about, _, section, start, size in struct.iter_unpack("<IBBHQQ", self.section(".symtab")):
            if about & 15 in kinds and section != 0 and size > 0:
                yield Symbol(start, start + size, text_at(texts, name))

    def code_at(self, address: int, size: int) -> bytes:
        text = self.sections[".text"]
        inside = address - text.address
        return self.bytes[text.at + inside : text.at + inside + size] if 0 <= inside <= text.size - size else b""
