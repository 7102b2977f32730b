"""Pairs of source positions that race: both accesses with their stacks, the variable, and what orders them."""
from __future__ import annotations

from collections.abc import Iterable
from dataclasses import dataclass, field
from typing import TYPE_CHECKING, Any, NamedTuple

from report import source_lines
from report.result import UNKNOWN_GUARD
from report.source_lines import Position
from report.stack_rows import Frame

if TYPE_CHECKING:
    from report.dwarf import Entry
    from report.dwarf_types import Run
    from report.heap_types import Made


@dataclass
class Side:
    """One access of a race, and the stack, from the access to main."""

    kind: str
    atomic: bool
    stack: list[Frame]

    def lead(self) -> Position:
        return source_lines.leading([frame.position for frame in self.stack])

    def at(self, depth: int) -> Frame | None:
        """The frame of the function so deep on the stack, where it leads on."""
        return next((frame for frame in reversed(self.stack) if frame.depth == depth), None)


@dataclass
class Variable:
    """What the location is: a `global`, a `local` of a function, something of the `stack`, a block of the `heap`, a
    `stream`, or other `memory`. A variable or a block has a byte by its offset; its part with that is an expression of
    C, and where that is no scalar, the rest is the offset in it and its size."""

    kind: str
    function: str | None = None
    name: str | None = None
    offset: int = 0
    size: int | None = None
    address: int | None = None
    thread_local: bool | None = None
    expression: str | None = None
    rest: tuple[int, int] | None = None
    # Of a block: the bytes of an access, if it may have such elements; its allocation; and the object that has it.
    element: int | None = None
    stack: list[Frame] = field(default_factory=list)
    owner: str | None = None
    # Some of the parts that race, if they are several, and their number.
    parts: list[str] = field(default_factory=list)
    parts_count: int = 0
    # What the DWARF has of it, or what a block is of.
    whole: Entry | Made | None = None

    def start(self) -> int:
        return (self.address or 0) - self.offset

    def allocation(self) -> Position:
        """The line that allocates a block."""
        return source_lines.leading([frame.position for frame in self.stack])

    def identity(self) -> tuple[Any, ...]:
        """What tells a variable from others: blocks of the heap that come from one line count as one."""
        if self.kind == "global":
            return self.kind, self.start()
        if self.kind == "heap":
            return self.kind, self.allocation()
        return self.kind, self.function or "", self.name or ""

    def called(self) -> str | None:
        """Its name, a local's by its function as gdb has it, or None."""
        return f"{self.function}::{self.name}" if self.name and self.function is not None else self.name


class MissingSync(NamedTuple):
    """The function in which both accesses meet: where it spawns the first, where it goes on to the second without a
    sync, and where it waits then."""

    function: str
    construct: str
    spawn: Position
    continues_at: Position
    next_sync: Position | None = None
    syncs_at_return: bool = False


class Siblings(NamedTuple):
    """The construct of OpenMP or of another library whose children race, and of its shares the first and the last
    iteration or section of each."""

    construct: str
    position: Position
    first: list[int] | None = None
    second: list[int] | None = None


@dataclass(eq=False)
class Pair:
    """Two source positions, and the first of their races."""

    races: int
    location: int
    sides: list[Side]
    variable: Variable
    missing_sync: MissingSync | None = None
    guard: str | None = None
    siblings: Siblings | None = None
    # What may be missing between them.
    suggested: tuple[str, ...] = ()
    # Whether it may be of neighbours: an access doesn't fill its unit, and nothing tells the bytes apart.
    neighbours: bool = False
    # Whether the stacks may be those of a race of another variable.
    borrowed: bool = False
    # Whether the variable is a reducer, of which an update is a read, and any use of the value a write.
    reducer: bool = False
    # A lock that the first access held, and then, before the second one, the thread of that: so they are in order.
    held_before: str | None = None
    # The bytes of the variable that race.
    runs: list[Run] = field(default_factory=list)

    def __post_init__(self) -> None:
        self.kinds = tuple({side.kind} for side in self.sides)

    def key(self) -> tuple[Any, ...]:
        return (*sorted(side.lead() for side in self.sides), self.guard or "", self.identity())

    def identity(self) -> tuple[Any, ...]:
        return self.variable.identity()

    def variable_names(self) -> set[str]:
        names = {name for name in (self.variable.name, self.variable.expression) if name}
        return names | {f"{self.variable.function}::{name}" for name in names if self.variable.function is not None}

    def names_on_stacks(self) -> set[str]:
        """Those of functions and of files."""
        positions = {frame.position for side in self.sides for frame in side.stack}
        return {name for position in positions for name in (position.function, position.file)}

    def lines(self) -> list[tuple[str, int]]:
        return sorted((side.lead().file, side.lead().line) for side in self.sides)

    def suppression(self) -> str | None:
        """The line that leaves out this pair alone; None where a line isn't known."""
        (file, line), (other, other_line) = self.lines()
        named = self.variable.called()
        return f"pair:{file}:{line} {other}:{other_line}{' ' + named if named else ''}" if line and other_line else None

    def is_guarded(self) -> bool:
        """Whether it is known that it is no data race."""
        return self.guard not in (None, UNKNOWN_GUARD)

    def add(self, other: Pair) -> None:
        self.races += other.races
        self.neighbours |= other.neighbours
        if self.variable.whole == other.variable.whole:
            self.runs += other.runs
        swapped = self.sides[0].lead() != other.sides[0].lead()
        for kinds, side in zip(self.kinds, reversed(other.sides) if swapped else other.sides):
            kinds.add(side.kind)


def merged(pairs: Iterable[Pair]) -> list[Pair]:
    """One pair for each pair of source positions, what guards it and the variable."""
    found: dict[tuple[Any, ...], Pair] = {}
    for pair in pairs:
        known = found.setdefault(pair.key(), pair)
        if known is not pair:
            known.add(pair)
    return list(found.values())


def in_order(pairs: list[Pair]) -> list[Pair]:
    """Those of one variable stand together. The most frequent come first, and the guarded last."""
    races: dict[tuple[Any, ...], int] = {}
    guarded: dict[tuple[Any, ...], bool] = {}
    for pair in pairs:
        identity = pair.identity()
        races[identity] = races.get(identity, 0) + pair.races
        guarded[identity] = guarded.get(identity, True) and pair.is_guarded()

    def order(pair: Pair) -> tuple[Any, ...]:
        identity = pair.identity()
        return guarded[identity], -races[identity], identity, pair.is_guarded(), -pair.races, pair.key()

    return sorted(pairs, key=order)
