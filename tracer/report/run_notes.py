"""What a run noted that looked at the places of a report: a line for each thing, whose first word says what."""
import re
from dataclasses import dataclass, field
from typing import NamedTuple

from report.checker_answers import Guard, Race
from report.dwarf_types import Run
from report.failure import Failure
from report.result import UNKNOWN_GUARD

# What the guard of a stream's uses is called, and the bytes there that stand for the stream.
STREAM_GUARD = re.compile("the lock of (stdin|stdout|stderr|the stream|the descriptor)")
STREAM_BYTES = 8


class Access(NamedTuple):
    """The kind of an access, and its stack in words: code addresses, with `spawn` behind one that spawned."""

    kind: str
    atomic: bool
    stack: list[str]


class Stretch(NamedTuple):
    """So many units from an address on. Of the stack there is the code of the function whose frame it is in, and how
    far from the frame's end; and of the function that OpenMP hands data there, and how far in them. The stacks may be
    borrowed from a race of another variable."""

    location: int
    units: int
    address: int
    code: int
    offset: int
    data_code: int
    data_offset: int
    borrowed: bool


class Child(NamedTuple):
    """A task, or a share of a loop or of sections: where it is made, and the counter in its first and its last
    iteration."""

    of: str
    code: int
    first: int
    last: int


class Wait(NamedTuple):
    """Where a function waits for its children, and whether it ends with that."""

    code: int
    ends: bool


class Block(NamedTuple):
    """A block of the heap, and the stack of its allocation."""

    address: int
    size: int
    stack: list[str]


@dataclass
class Noted:
    """A pair of code addresses as the run noted it."""

    races: int
    location: int
    address: int
    meeting: int
    is_narrow: bool
    sides: list[Access] = field(default_factory=list)
    # Of each side the child that holds it, of those of the function where both meet; None for a child of Cilk.
    children: list[Child | None] = field(default_factory=list)
    # What races, but in blocks of the heap.
    stretches: list[Stretch] = field(default_factory=list)
    waits: Wait | None = None
    guard: Guard | None = None
    # What the first access held, and the second one's procedure held before it and after that.
    before: Guard | None = None
    block: Block | None = None
    # Whether it is of a reducer.
    reducer: bool = False
    # Of blocks of the heap the bytes that race.
    held: list[Run] = field(default_factory=list)

    def take(self, words: list[str]) -> None:
        match words:
            case "first" | "second", kind, atomic, *stack:
                self.sides.append(Access(kind, atomic == "1", stack))
                self.children.append(None)
            case "child", of, code, first, last:
                self.children[-1] = Child(of, int(code, 16), int(first), int(last))
            case "waits" | "ends" as name, code:
                self.waits = Wait(int(code, 16), name == "ends")
            case ("reducer",):
                self.reducer = True
            case "guard", number, *named:
                self.guard = int(number, 16), " ".join(named)
            case "before", number, *named:
                self.before = int(number, 16), " ".join(named)
            case "block", address, size, *stack:
                self.block = Block(int(address, 16), int(size), stack)
            case _:
                raise Failure(f"the second run noted {words[0]}, which means nothing")

    def codes(self) -> list[int]:
        """All code addresses in it."""
        stacks = [*(side.stack for side in self.sides), *([self.block.stack] if self.block else [])]
        return [
            *(int(word, 16) for stack in stacks for word in stack if word != "spawn"),
            *([self.waits.code] if self.waits else []),
            *(child.code for child in self.children if child),
            *(code for at in self.stretches for code in (at.code, at.data_code) if code),
        ]


def is_stream(guard: Guard | None, address: int) -> bool:
    """Whether what stands there is the stream that has this guard: only its order isn't determined then."""
    return guard is not None and STREAM_GUARD.fullmatch(guard[1]) is not None and 0 <= address - guard[0] < STREAM_BYTES


class Notes:
    def __init__(self, lines: list[str]) -> None:
        self.pairs: list[Noted] = []
        self.ordered: list[Noted] = []
        # The units that accesses of races don't fill: where neighbours may race, and where none do in this run.
        self.narrow: set[int] = set()
        self.part: set[int] = set()
        # The place where the run went another way, and what was there.
        self.astray: tuple[int, str] | None = None
        self.left = self.thread = 0
        for line in lines[:-1]:
            self.take(line.split(" "))
        if not lines or lines[-1] != "end":
            raise Failure("the second run ended before it had written its notes")

    def take(self, words: list[str]) -> None:
        """What is of no pair, or of one that comes by its number; or begins one, which the other words are of."""
        match words:
            case "pair", races, location, address, meeting, narrow:
                self.pairs.append(Noted(int(races), int(location), int(address, 16), int(meeting), narrow == "1"))
            case "at" | "other" as name, pair, location, units, address, code, offset, data_code, data_offset:
                frame, data = (int(code, 16), int(offset)), (int(data_code, 16), int(data_offset))
                found = Stretch(int(location), int(units), int(address, 16), *frame, *data, name == "other")
                self.pairs[int(pair) - 1].stretches.append(found)
            case "held", pair, first, size:
                self.pairs[int(pair) - 1].held.append((int(first), int(first) + int(size)))
            case "astray", place, *found:
                self.astray = int(place), " ".join(found)
            case "narrow", location:
                self.narrow.add(int(location))
            case "part", location:
                self.part.add(int(location))
            case "left", races:
                self.left = int(races)
            case "thread", address:
                self.thread = int(address, 16)
            case _:
                self.pairs[-1].take(words)

    def has(self, race: Race) -> bool:
        """Whether it was noted: both accesses come before the place where the run went astray."""
        return not self.astray or max(access.place for access in race.accesses) < self.astray[0]

    def leave_out_order(self) -> None:
        """Pairs of which only the order of a stream isn't determined are apart."""
        self.ordered = [noted for noted in self.pairs if is_stream(noted.guard, noted.address)]
        self.pairs = [noted for noted in self.pairs if not is_stream(noted.guard, noted.address)]

    def forget_guards(self) -> None:
        """It isn't known what was held in the run that had these races."""
        for noted in self.pairs:
            noted.guard, noted.before = noted.guard and (0, UNKNOWN_GUARD), None

    def codes(self) -> list[int]:
        return [code for noted in (*self.pairs, *self.ordered) for code in noted.codes()]
