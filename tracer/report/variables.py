"""The names of variables and of their parts, such as `params[0].flag`, by a program's symbols and its DWARF. What these
don't tell has no name: a location that the reader doesn't know for sure, or DWARF that can't be read."""
import functools
import re
import struct
from collections.abc import Callable, Iterator
from typing import Any, NamedTuple, TypeVar, cast

from elf import HOOKS, UNREADABLE, Elf
from report import source_lines
from report.dwarf import Dwarf, Entry, Unit, sleb, uleb
from report.dwarf_types import Run, Shapes


class Global(NamedTuple):
    """A variable that isn't a function's by its symbol, a byte of it by its offset, and its size."""

    name: str
    offset: int
    size: int


class Named(NamedTuple):
    """A variable by what the DWARF has of it, with the same; and the part with that byte, as an expression of C. Where
    that is no scalar, the rest is the offset in it, and its size."""

    entry: Entry
    name: str
    offset: int
    size: int | None
    expression: str
    rest: tuple[int, int] | None


# The memory that a function has: of its frame, from its end on, or from where clang has aligned it; of the data that it
# is handed; a thread's; or a global. And where there something is.
FRAME, ALIGNED, DATA, THREAD, GLOBAL = "frame", "aligned", "data", "thread", "global"
Storage = tuple[str, int]

# Tags.
PARAMETER, BLOCK, INLINED, FUNCTION, VARIABLE, NAMESPACE = 0x05, 0x0B, 0x1D, 0x2E, 0x34, 0x39
HOLDS_VARIABLES = {BLOCK, INLINED}
# Attributes.
LOW_PC, FRAME_BASE = 0x11, 0x40

# Operations of an expression. Register 5 has a function's first argument where the function begins, and 6 its frame; 3
# has what clang has aligned of that.
ADDR, DEREF, PLUS, ARGUMENT, FRAME_POINTER, FRAME_OFFSET, ADDRX = 0x03, 0x06, 0x23, 0x75, 0x76, 0x91, 0xA1
ALIGNED_POINTER = 0x73
CONSTANT, IN_THREAD, AT_ENTRY = 0x0E, {0x9B, 0xE0}, {0xA3, 0xF3}
# The frame pointer is so far below the frame's end, and so is what clang means by its frame.
BELOW = 16
BASES = {b"\x9c": 0, b"\x56": -BELOW}
# How a function begins that aligns its frame: it saves registers, aligns the stack, makes room, and keeps that place.
ALIGNS = re.compile(
    rb"\x55\x48\x89\xe5((?:\x41?[\x50-\x57])*)\x48(?:\x83\xe4(.)|\x81\xe4(.{4}))"
    rb"\x48(?:\x83\xec(.)|\x81\xec(.{4}))\x48\x89\xe3",
    re.DOTALL,
)
LONGEST_START, PUSH = 48, re.compile(rb"\x41?[\x50-\x57]")
OWN = re.compile("__spbags_")
# The name of a hook that is called beside an access ends with how many bytes that has.
WIDTH = re.compile("_(?:read|write)([0-9]+)$")
# A call, and the jump that calls of a hook share, before which the assembler may put some bytes.
CALL, CALL_SIZE, JUMP = 0xE8, 5, re.compile(rb"[^\xe9]{0,5}\xe9(.{4})", re.DOTALL)
OUTLINED = re.compile(r"\._omp_(?:cpy)?fn\.[0-9]+$")
# The lock of a critical region of OpenMP: gcc's, and clang's, which has one too if the region has no name.
CRITICAL = re.compile(r"\.gomp_critical_user_(.*?)(?:\.var)?")

Method = TypeVar("Method", bound=Callable[..., Any])


def readable(method: Method) -> Method:
    """What a method finds, or nothing where the DWARF can't be read."""

    def found(*words: Any) -> Any:
        try:
            return method(*words)
        except UNREADABLE:
            return None

    return cast(Method, found)


class Names:
    def __init__(self, program: str) -> None:
        self.elf = Elf(program)
        self.dwarf = Dwarf(self.elf)
        self.shapes = Shapes(self.dwarf)

    @functools.cached_property
    def demangled(self) -> dict[str, str]:
        return source_lines.demangled(symbol.name for symbol in self.elf.variables.all)

    def has_any(self) -> bool:
        return bool(self.dwarf.units)

    def symbol(self, address: int) -> Global | None:
        """The global or static at an address; of a thread's variable its place in the thread's memory is said."""
        found = self.elf.variables.at(address)
        if not found:
            return None
        return Global(name_of_symbol(self.demangled[found.name]), address - found.start, found.end - found.start)

    @readable
    def in_frame(self, code: int, offset: int, address: int) -> Named | None:
        """The variable of the function with this code that is so far from its frame's end, at this address."""
        aligned = self.aligned(code, address - offset)
        found = self.local(code, FRAME, offset)
        return self.local(code, ALIGNED, address - aligned) if aligned and not found else found

    @readable
    def in_data(self, code: int, offset: int, _: int) -> Named | None:
        """The variable that is so far in the data which OpenMP hands to the function with this code."""
        return self.local(code, DATA, offset)

    @readable
    def at(self, start: int, offset: int, in_thread: bool = False) -> Named | None:
        """The part of a global that begins here; of a thread's variable its place in the thread's memory is said."""
        found = self.global_in(THREAD if in_thread else GLOBAL, start)
        return self.named(found, offset) if found else None

    @functools.cache
    def global_in(self, kind: str, start: int) -> Entry | None:
        text = struct.pack("<BQ", CONSTANT if kind == THREAD else ADDR, start)
        return self.entry_with(text, lambda entry: (kind, start) in self.places(entry, None))

    @readable
    def width(self, code: int) -> int | None:
        """How many bytes the access has whose hook returns to this code."""
        call, hooks = self.elf.code_at(code - CALL_SIZE, CALL_SIZE), self.elf.sections[HOOKS]
        to = code + int.from_bytes(call[1:], "little", signed=True) if call[:1] == bytes([CALL]) else 0
        jump = JUMP.match(self.elf.code_at(to, 2 * CALL_SIZE))
        to += jump.end() + int.from_bytes(jump[1], "little", signed=True) if jump else 0
        hook = self.elf.functions.at(to) if 0 <= to - hooks.address < hooks.size else None
        found = hook and WIDTH.search(hook.name)
        return int(found[1]) if found else None

    def local(self, code: int, kind: str, offset: int) -> Named | None:
        """Where two variables may be meant, none is."""
        found = [
            self.named(entry, offset - place[1])
            for place, size, entry in self.variables_of(code)
            if place[0] == kind and 0 <= offset - place[1] < size
        ]
        return found[0] if len({one and one[1:] for one in found}) == 1 else None

    def aligned(self, code: int, end: int) -> int | None:
        """Where the function with this code has its locals, if it aligns its frame, which ends here."""
        function = self.elf.functions.at(code)
        found = function and ALIGNS.match(self.elf.code_at(function.start, LONGEST_START))
        if not found:
            return None
        mask, size = (int.from_bytes(found[at] or found[at + 1], "little", signed=True) for at in (2, 4))
        return (end - BELOW - 8 * len(PUSH.findall(found[1])) & mask) - size

    def entry_with(self, text: bytes, is_wanted: Callable[[Entry], bool]) -> Entry | None:
        """The entry with these bytes among its values for which this holds."""
        dwarf, at = self.dwarf, -1
        while (at := dwarf.info.find(text, at + 1)) >= 0:
            entry = dwarf.entry_around(at)
            if entry and is_wanted(entry):
                return entry
        if not dwarf.section(".debug_addr"):
            return None
        # clang's addresses are in a table of their own.
        return next((entry for unit in dwarf.units for entry in self.below(dwarf.root(unit)) if is_wanted(entry)), None)

    def below(self, entry: Entry) -> Iterator[Entry]:
        for child in self.dwarf.each_child(entry):
            yield child
            if child.tag in (FUNCTION, BLOCK, NAMESPACE):
                yield from self.below(child)

    # ---- Locals ----

    def variables_of(self, code: int) -> list[tuple[Storage, int, Entry]]:
        """The variables of the function with this code, each with a place where it may be, and its size."""
        found = self.elf.functions.at(code)
        return self.variables_in(found.start, OUTLINED.search(found.name) is not None) if found else []

    @functools.cache
    def variables_in(self, start: int, is_outlined: bool) -> list[tuple[Storage, int, Entry]]:
        function = self.function_at(start)
        return list(self.placed(function, function, is_outlined)) if function else []

    def function_with(self, code: int) -> Entry | None:
        found = self.elf.functions.at(code)
        return self.function_at(found.start) if found else None

    @functools.cache
    def function_at(self, start: int) -> Entry | None:
        return self.entry_with(
            struct.pack("<Q", start),
            lambda entry: entry.tag == FUNCTION and self.dwarf.address(entry, LOW_PC) == start,
        )

    def placed(self, entry: Entry, function: Entry, is_outlined: bool) -> Iterator[tuple[Storage, int, Entry]]:
        for child in self.dwarf.each_child(entry):
            if child.tag in (VARIABLE, PARAMETER):
                for place in self.places(child, function, is_outlined):
                    yield place, self.shapes.size(self.shapes.type_of(child)) or 0, child
            elif child.tag in HOLDS_VARIABLES:
                yield from self.placed(child, function, is_outlined)

    def places(self, entry: Entry, function: Entry | None, is_outlined: bool = False) -> set[Storage]:
        base = BASES.get(function.value(FRAME_BASE)) if function else None
        found = (
            self.place(expression, entry.unit, base, is_outlined and number == 0, is_outlined)
            for number, expression in enumerate(self.dwarf.expressions(entry))
        )
        return {place for place in found if place}

    def place(
        self, expression: bytes, unit: Unit, base: int | None, is_at_entry: bool, is_outlined: bool
    ) -> Storage | None:
        """What an expression says as a whole, or None. An outlined function has its data's address as its argument; gcc
        without optimisation keeps that in the frame."""
        operation, rest = expression[0], expression[1:]
        if operation == ADDR and len(rest) == 8:
            return GLOBAL, struct.unpack("<Q", rest)[0]
        if operation == ADDRX:
            number, end = uleb(rest, 0)
            return (GLOBAL, self.dwarf.indexed_address(unit, number)) if end == len(rest) else None
        if operation == CONSTANT and len(rest) == 9 and rest[8] in IN_THREAD:
            return THREAD, struct.unpack("<Q", rest[:8])[0]
        if operation in AT_ENTRY:
            return in_argument(rest[2:]) if is_outlined and rest[:2] == bytes([1, 0x55]) else None
        if operation not in (ARGUMENT, FRAME_POINTER, FRAME_OFFSET, ALIGNED_POINTER):
            return None
        offset, end = sleb(rest, 0)
        if operation == ALIGNED_POINTER:
            return (ALIGNED, offset) if end == len(rest) else None
        if operation == ARGUMENT:
            return in_argument(rest[end:], offset) if is_at_entry else None
        if is_outlined and rest[end : end + 1] == bytes([DEREF]):
            return in_argument(rest[end + 1 :])
        start = -BELOW if operation == FRAME_POINTER else base
        return (FRAME, start + offset) if end == len(rest) and start is not None else None

    # ---- By their names ----

    def locals_named(self, code: int, name: str) -> list[Entry]:
        """The variables of this name that the function with this code has."""
        function = self.function_with(code)
        return self.by_name(function, *HOLDS_VARIABLES).get(name, []) if function else []

    def globals_named(self, code: int, name: str) -> list[Entry]:
        """The same of the unit of compilation."""
        function = self.function_with(code)
        return self.by_name(self.dwarf.root(function.unit), NAMESPACE).get(name, []) if function else []

    @functools.cache
    def by_name(self, entry: Entry, *holders: int) -> dict[str | None, list[Entry]]:
        """The variables of an entry and of those of these kinds in it."""
        found: dict[str | None, list[Entry]] = {}
        entries = [entry]
        for holder in entries:
            for child in self.dwarf.each_child(holder):
                if child.tag in (VARIABLE, PARAMETER):
                    found.setdefault(self.dwarf.name(child), []).append(child)
                elif child.tag in holders:
                    entries.append(child)
        return found

    # ---- Parts ----

    def named(self, entry: Entry, offset: int) -> Named | None:
        """The part of a variable; what the tracer puts into a program has no name."""
        name, kind = self.dwarf.name(entry), self.shapes.type_of(entry)
        if not name or OWN.match(name):
            return None
        part = self.shapes.part(kind, offset)
        # The size of a class may not be known.
        rest = (offset - part.first, part.size) if part.size and not part.is_scalar else None
        return Named(entry, name, offset, self.shapes.size(kind), name + part.path, rest)

    @readable
    def parts(self, entry: Entry, name: str, runs: list[Run], most: int) -> tuple[list[str], int] | None:
        """Of the parts of a variable with these runs of bytes so many expressions, and their number."""
        paths, number = self.shapes.gathered(self.shapes.type_of(entry), runs, most)
        return [name + path for path in paths], number


def in_argument(rest: bytes, offset: int = 0) -> Storage | None:
    """Memory at this offset of the data, if no more is said than one number to add."""
    if rest[:1] == bytes([PLUS]):
        more, end = uleb(rest, 1)
        offset, rest = offset + more, rest[end:]
    return None if rest else (DATA, offset)


def name_of_symbol(symbol: str) -> str:
    """What the source calls it: a static of a function has a number behind its name with gcc, and the function before
    it with clang; and a library's variable has the library's version."""
    critical = CRITICAL.fullmatch(symbol)
    if critical:
        return critical[1] or "without a name"
    name = re.sub(r"\.[0-9]+$", "", symbol.partition("@")[0])
    return name.rpartition(".")[2] or name
