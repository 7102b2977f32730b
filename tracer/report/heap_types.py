"""What a block of the heap is made of, so that its parts have names such as `p[1].pos[1]` or `node->sum`: by the lines
that allocate and access it, and by the types of the variables that these lines name. Where a doubt is left there is no
name."""
import re
from collections.abc import Iterable, Sequence
from typing import NamedTuple

from report.dwarf import Entry
from report.dwarf_types import ARRAY, CLASSES, MEMBER, POINTER, REFERENCES, TYPE, Elements, Part, Run
from report.expressions import Use, uses_of
from report.function_names import without_arguments
from report.variables import Names, readable


class Reached(NamedTuple):
    """What an expression leads to by its last pointer: that pointer's text, where that is sure, and its form, the type
    and its name, the path in it, and whether what is there has parts."""

    pointer: str | None
    form: str
    kind: Entry
    name: str | None
    path: str
    has_parts: bool


class Line(NamedTuple):
    """A line, which a block's allocation or an access to it is in: the code, the text, and of an access its kind and
    its bytes, if these are known."""

    code: int
    text: str
    kind: str | None = None
    width: int | None = None


class Made(NamedTuple):
    """What a block is of, and what its parts are named by, in which form: `p->x`, `p[1].x`, or `x` alone and
    `particle.x`."""

    kind: Entry
    name: str
    form: str


# An expression's type; what its last pointer leads to; and its text.
Followed = tuple[Entry | None, Reached | None, str]
POINTED, INDEXED, DIRECT = "pointed", "indexed", "direct"
# Classes that lead to memory of the heap as a pointer does, by the beginning of their names and the operators for that;
# and the parameter of these templates that is the type there.
LEADING, PARAMETER, PARAMETER_NAME = (("vector<", ("[]",)), ("unique_ptr<", ("*", "->"))), 0x2F, "_Tp"
# The class of the library that a function is of.
MEMBER_OF = re.compile(r"\bstd::(?:__cxx11::)?(\w+)<[^<>]*>::")
# The sizes of objects of which so many fill the 8 bytes that C++ may put before an array.
DIVISORS = {1, 2, 4, 8}


class Expressions:
    """What the expressions of a program's lines are, by its names."""

    def __init__(self, names: Names) -> None:
        self.names, self.dwarf, self.shapes = names, names.dwarf, names.shapes

    def reached(self, use: Use, code: int) -> Reached | None:
        """What this leads to by its last pointer, in the function with this code; None where that isn't known."""
        return self.only(
            found._replace(has_parts=kind.tag in CLASSES or kind.tag == ARRAY)
            for kind, found, _ in self.followed(use, code)
            if kind and found
        )

    def assigned(self, use: Use, code: int) -> Reached | None:
        """What a pointer leads to that is given a value here, or a vector that is named."""
        names_vector = use.steps[:1] == ("()",) or use.steps[1:] == ("()",)
        is_given = use.writes and not use.reads
        found = []
        for kind, _, text in self.followed(use._replace(steps=()) if names_vector else use, code):
            for step in ("[]", "->") if is_given else ("[]",):
                pointer = self.pointer_of(kind, step) if kind else None
                if kind and pointer and (is_given or pointer is not kind):
                    found.append(self.pointed(pointer, text, self.form_of(kind)))
        return self.only(filter(None, found))

    def form_of(self, kind: Entry) -> str:
        """Of what a pointer leads to, or a class that is like one."""
        return INDEXED if kind.tag in CLASSES and (self.dwarf.name(kind) or "").startswith("vector<") else POINTED

    def of_class(self, use: Use, code: int, name: str) -> str | None:
        """The text of the longest beginning of this that is an object of a class whose name begins so, or None."""
        for count in range(len(use.steps), -1, -1):
            for kind, _, text in self.followed(use._replace(steps=use.steps[:count]), code):
                if kind and kind.tag in CLASSES and (self.dwarf.name(kind) or "").startswith(name):
                    return text
        return None

    def only(self, found: Iterable[Reached]) -> Reached | None:
        known = {(one.pointer, one.path, self.identity(one)): one for one in found}
        return known.popitem()[1] if len(known) == 1 else None

    def identity(self, reached: Reached) -> tuple[str | int, int | None]:
        return reached.name or reached.kind.at, self.shapes.size(reached.kind)

    def followed(self, use: Use, code: int) -> list[Followed]:
        """What an expression may be: that of a local, of a member of `this`, or of a global."""
        entries = self.names.locals_named(code, use.base)
        if not entries:
            this = use._replace(base="this", steps=("->" + use.base, *use.steps))
            entries = self.names.locals_named(code, "this")
            found = [one for one in (self.follow(self.shapes.type_of(entry), this) for entry in entries) if one[0]]
            if found:
                return found
            entries = self.names.globals_named(code, use.base)
        return [self.follow(self.shapes.type_of(entry), use) for entry in entries]

    def follow(self, kind: Entry | None, use: Use) -> Followed:
        found: Reached | None = None
        text, indexes = use.base, 0
        if kind and kind.tag in REFERENCES:
            found = self.pointed(kind, text, DIRECT)
            kind = found and found.kind
        for step in use.steps:
            if step == "()" or kind is None:
                return None, None, text
            pointer = self.pointer_of(kind, step)
            if pointer:
                found = self.pointed(pointer, text, self.form_of(kind))
                kind = found and found.kind
            elif step in ("[]", "*") and kind.tag == ARRAY:
                indexes += 1
                found = found and found._replace(path=found.path + "[]")
                if indexes == len(self.shapes.counts(kind)):
                    kind, indexes = self.shapes.type_of(kind), 0
            elif step[0] != ".":
                # An operator of a class.
                return None, None, text
            if step[0] in ".-":
                name = step.lstrip(".->")
                kind, found = kind and self.member(kind, name), found and found._replace(path=f"{found.path}.{name}")
            text += {"[]": "[..]", "*": ""}.get(step, step)
        return kind, found, text

    def pointed(self, pointer: Entry, text: str, form: str) -> Reached | None:
        """What a pointer leads to, with its names."""
        kind = self.shapes.type_of(pointer)
        return Reached(text, form, kind, self.type_name(pointer), "", False) if kind else None

    def type_name(self, entry: Entry) -> str | None:
        """The first name of the type that an entry has."""
        found = self.dwarf.referred(entry, TYPE)
        while found and not self.dwarf.name(found):
            found = self.dwarf.referred(found, TYPE)
        return self.dwarf.name(found) if found else None

    def pointer_of(self, kind: Entry, step: str) -> Entry | None:
        """The pointer that this step follows, if it does; of a class that is like one what says the type."""
        if kind.tag == POINTER and step[0] != ".":
            return kind
        name = (self.dwarf.name(kind) or "") if kind.tag in CLASSES else ""
        leads = any(name.startswith(one) and step.startswith(operators) for one, operators in LEADING)
        parameters = (child for child in self.dwarf.each_child(kind) if child.tag == PARAMETER) if leads else ()
        return next((child for child in parameters if self.dwarf.name(child) == PARAMETER_NAME), None)

    def member(self, kind: Entry, name: str) -> Entry | None:
        """The type of a member, of a base or of a member without a name too."""
        for member in self.shapes.fields(kind):
            own = self.dwarf.name(member) if member.tag == MEMBER else None
            found = self.shapes.type_of(member)
            if own != name:
                found = self.member(found, name) if found and own is None else None
            if found:
                return found
        return None


class HeapTypes:
    def __init__(self, names: Names) -> None:
        self.names, self.shapes, self.expressions = names, names.shapes, Expressions(names)

    @readable
    def named(
        self, offset: int, size: int, allocations: Sequence[Line], accesses: Sequence[Line]
    ) -> tuple[Made, str] | None:
        """What a block of this size is of, and what the part at this offset is called; by the lines that lead to its
        allocation, and by those of the two accesses."""
        made = self.made(offset, size, allocations, accesses)
        parts = made and self.parts(made, [(offset, offset + 1)], size, 1)
        return (made, parts[0][0]) if made and parts else None

    @readable
    def owner(self, function: str, line: Line) -> str | None:
        """The object on a line whose member function of the library allocates."""
        of_class = MEMBER_OF.findall(without_arguments(function))
        if not of_class:
            return None
        found = {self.expressions.of_class(use, line.code, of_class[-1] + "<") for use in uses_of(line.text)} - {None}
        return found.pop() if len(found) == 1 else None

    def made(self, offset: int, size: int, allocations: Sequence[Line], accesses: Sequence[Line]) -> Made | None:
        by_access = [found for found in (self.by_access(line, offset, size) for line in accesses) if found]
        allocated = self.by_allocation(allocations, offset, size, accesses)
        known = [*by_access, *([allocated] if allocated else [])]
        if len({self.expressions.identity(found) for found in known}) != 1:
            return None
        kind = known[0].kind
        element = self.shapes.size(kind) or 1
        is_single = element == size or size % element != 0
        named = {(found.pointer, found.form) for found in by_access if is_single or found.form == INDEXED}
        pointer, form = named.pop() if len(named) == 1 else (None, POINTED)
        if pointer and not (allocated and pointer == "this"):
            return Made(kind, pointer, form)
        if allocated and allocated.pointer:
            return Made(kind, allocated.pointer, allocated.form if is_single else INDEXED)
        name = known[0].name if kind.tag in CLASSES else None
        return Made(kind, name, DIRECT) if name else None

    @readable
    def parts(self, made: Made, runs: list[Run], size: int, most: int) -> tuple[list[str], int] | None:
        """Of the parts with these runs of bytes so many expressions, and their number."""
        paths, number = self.shapes.gathered(Elements(made.kind, size), runs, most)
        return [spelled(made, path) for path in paths], number

    def by_access(self, line: Line, offset: int, size: int) -> Reached | None:
        """What a line accesses there, or None."""
        found = {}
        for use in uses_of(line.text):
            fits = use.is_handed or (use.writes if line.kind == "write" else use.reads)
            reached = self.expressions.reached(use, line.code) if fits else None
            if reached and self.is_there(reached, offset, size, line.width):
                found[self.expressions.identity(reached), reached.pointer] = reached
        kinds = {identity for identity, _ in found}
        if len(kinds) != 1:
            return None
        _, reached = found.popitem()
        return reached._replace(pointer=None) if found else reached

    def is_there(self, reached: Reached, offset: int, size: int, width: int | None) -> bool:
        """Whether the path is that of this byte."""
        part = self.part_at(reached.kind, offset, size, width)
        path = re.sub(r"\[[0-9]+\]", "[]", part.path) if part else None
        return path is not None and (path == reached.path or (reached.has_parts and path.startswith(reached.path)))

    def part_at(self, kind: Entry, offset: int, size: int, width: int | None) -> Part | None:
        """The part at this byte of a block of elements of this type, or of one with more behind it, or None where there
        can't be such an access."""
        element = self.shapes.size(kind)
        if not element or element > size or (size % element != 0 and offset >= element):
            return None
        part = self.shapes.part(kind, offset % element)
        is_inside = not width or not part.is_scalar or offset % element - part.first + width <= (part.size or 0)
        return part if is_inside else None

    def by_allocation(self, lines: Sequence[Line], offset: int, size: int, accesses: Sequence[Line]) -> Reached | None:
        """What the first line allocates that says it, or None."""
        for line in lines:
            found = [one for one in (self.expressions.assigned(use, line.code) for use in uses_of(line.text)) if one]
            if found:
                reached = self.expressions.only(found)
                parts = (reached and self.part_at(reached.kind, offset, size, access.width) for access in accesses)
                return reached if reached and self.has_all(reached.kind, size, line) and all(parts) else None
        return None

    def has_all(self, kind: Entry, size: int, line: Line) -> bool:
        """Whether a block that this line allocates has elements of this type alone."""
        element = self.shapes.size(kind) or 0
        may_have_cookie = kind.tag in CLASSES and element in DIVISORS and re.search(r"\bnew\b", line.text)
        return element > 0 and size % element == 0 and not may_have_cookie


def spelled(made: Made, path: str) -> str:
    if made.form == INDEXED:
        return made.name + path
    # A block that nobody names may have something before its elements.
    inside = re.sub(r"^\[[0-9]+\]", "", path)
    if made.form == DIRECT:
        return made.name + inside
    if inside.startswith("."):
        return f"{made.name}->{inside[1:]}"
    return f"(*{made.name}){inside}" if inside else f"*{made.name}"
