"""The pairs of source positions of a program's races: their stacks, their variables, and what orders them."""
from collections.abc import Iterable, Iterator, Sequence
from itertools import takewhile

from installation import is_own
from report import advice, checker_answers, source_lines
from report.checker_answers import Guard
from report.dwarf_types import Run
from report.heap_types import HeapTypes, Line, Made
from report.pairs import MissingSync, Pair, Siblings, Side, Variable, in_order, merged
from report.result import THREAD_LOCAL
from report.run_notes import STREAM_GUARD, Block, Noted, Notes, Stretch, is_stream
from report.sites import Sites, common_guard
from report.source_lines import UNKNOWN, Position
from report.stack_rows import Frame
from report.variables import Names

# So many parts of a variable are named.
MOST_PARTS = 20


class Pieces:
    """Races by their variables: the units of a row one by one, and those of bytes once."""

    def __init__(self) -> None:
        self.pieces: dict[tuple[object, ...], tuple[int, list[int], set[int], Variable, list[Run]]] = {}

    def add(self, location: int, units: int, variable: Variable, run: Run) -> None:
        """Of so many units from this location on, which are this run of the variable's bytes."""
        _, rows, single, _, runs = self.pieces.setdefault(variable.identity(), (location, [], set(), variable, []))
        runs.append(run)
        if units == 1:
            single.add(location)
        else:
            rows.append(units)

    def found(self) -> list[tuple[int, int, Variable, list[Run]]]:
        """Of each variable the location of the first race, the number of races, and the runs of its bytes."""
        return [
            (location, sum(rows) + len(single), variable, runs)
            for location, rows, single, variable, runs in self.pieces.values()
        ]


class Program:
    """A program whose races are those that a run noted, or None, and those of these sites."""

    def __init__(self, name: str, unit: int, notes: Notes | None, groups: Iterable[list[Sites]]) -> None:
        codes = [code for group in groups for sites in group for code in sites.codes()]
        self.positions = source_lines.positions_of(name, [*codes, *(notes.codes() if notes else ())])
        self.positions[0] = [UNKNOWN]
        # Where the memory begins that a thread has of its own.
        self.names, self.unit, self.thread = Names(name), unit, notes.thread if notes else 0
        self.heap_types = HeapTypes(self.names)

    # ---- Stacks ----

    def stack(self, role: str, words: Sequence[str]) -> list[Frame]:
        """The frames of these words, from the innermost on; `spawn` stands behind a position that spawned. What stands
        in the tracer's own headers is done by whoever calls them."""
        return self.frames(role, words, False) or self.frames(role, words, True)

    def frames(self, role: str, words: Sequence[str], shows_own: bool) -> list[Frame]:
        frames: list[Frame] = []
        depth, spawns, part = sum(word != "spawn" for word in words), False, None
        for word, behind in zip(words, [*words[1:], ""]):
            if word == "spawn":
                continue
            there = self.positions[int(word, 16)]
            positions = [position for position in there if shows_own or not is_own(position.file)]
            spawns |= behind == "spawn"
            before, part = part, there[0].part
            if frames and not spawns and (before == Position.STATEMENT or part == Position.WAY):
                # A statement that spawns is a function of its own in C++, and so is what it calls then.
                positions = []
                frames[-1] = frames[-1]._replace(depth=depth) if before == Position.STATEMENT else frames[-1]
            if frames:
                role = "spawn" if spawns else "call"
            for position in positions:
                frames.append(Frame(role, position, depth))
                role = "call"
            if positions and len(frames) == len(positions) and spawns:
                # The child has no function of its own: it stores a result, or is a function of the library.
                frames.append(Frame("spawn", positions[0], depth))
            spawns &= not positions
            depth -= 1
        return frames

    # ---- Pairs ----

    def of_notes(self, noted: Iterable[Noted]) -> list[Pair]:
        # Those of a variable whose stacks are its own come first.
        return self.whole(sorted((pair for one in noted for pair in self.pairs(one)), key=lambda pair: pair.borrowed))

    def of_sites(self, groups: Iterable[Sites]) -> list[Pair]:
        return self.whole(pair for group in groups for pair in self.pairs_without_stacks(group))

    def whole(self, pairs: Iterable[Pair]) -> list[Pair]:
        return list(map(self.complete, in_order(merged(pairs))))

    def pairs(self, noted: Noted) -> Iterator[Pair]:
        """One pair for each variable, with the stacks of the first race."""
        sides = [Side(access.kind, access.atomic, self.stack(access.kind, access.stack)) for access in noted.sides]
        siblings = self.siblings(noted)
        barrier = missing_barrier(siblings, sides)
        siblings = None if barrier else siblings
        missing_sync, before = barrier or self.missing_sync(noted, sides), self.guard_name(noted.before)
        for location, races, variable, runs, is_borrowed in self.pieces(noted):
            named, held = named_by(noted.guard, variable), self.guard(noted.guard, variable)
            suggested = advice.of_openmp(noted, siblings, variable)
            more = (suggested, noted.is_narrow, is_borrowed, noted.reducer, before, runs)
            yield Pair(races, location, sides, named, missing_sync, held, siblings, *more)

    def pairs_without_stacks(self, group: Sites) -> Iterator[Pair]:
        """The same of races of which only places are known."""
        sides = [
            Side(kind, is_atomic, self.stack(kind, [f"{code:x}"]))
            for kind, code, is_atomic in zip(group.kinds, group.codes(), group.is_atomic())
        ]
        pieces, guard = Pieces(), common_guard(group.sites)
        for location in group.locations:
            unit = checker_answers.unit_of(location)
            address = checker_answers.address_of(location, self.unit)
            variable = Variable("stack") if unit % 2 == 1 else self.named(address)
            size = self.unit if location < checker_answers.FIRST_BYTE else 1
            pieces.add(unit, 1, variable, (variable.offset, variable.offset + size))
        for location, races, variable, runs in pieces.found():
            named, held = named_by(guard, variable), self.guard(guard, variable)
            yield Pair(races, location, sides, named, None, held, neighbours=group.is_narrow(), runs=runs)

    def complete(self, pair: Pair) -> Pair:
        """With the parts that race, and with what Cilk has for the pair."""
        variable = pair.variable
        if variable.kind == "global" and variable.name:
            start = variable.start() - (self.thread if variable.thread_local else 0)
            part = self.names.at(start, variable.offset, bool(variable.thread_local))
            if part:
                variable.expression, variable.rest = variable.name + part.expression[len(part.name) :], part.rest
                variable.whole = part.entry
        self.name_parts(pair)
        if advice.is_of_cilk(pair):
            pair.suggested = advice.of_cilk(pair, self.unit)
        return pair

    def name_parts(self, pair: Pair) -> None:
        variable, whole = pair.variable, pair.variable.whole
        if not whole or pair.reducer or not variable.expression or not variable.size:
            return
        size = variable.size
        runs = [(first, first + 1 if pair.neighbours else min(end, size)) for first, end in pair.runs if first < size]
        if isinstance(whole, Made):
            found = self.heap_types.parts(whole, runs, size, MOST_PARTS)
        else:
            found = self.names.parts(whole, variable.name or "", runs, MOST_PARTS)
        if found and found[1] > 1:
            variable.parts, variable.parts_count = found

    # ---- Variables ----

    def pieces(self, noted: Noted) -> list[tuple[int, int, Variable, list[Run], bool]]:
        """Of each variable the location of the first race, the number of races, the runs of its bytes, and whether the
        stacks are borrowed."""
        if noted.block:
            return [(noted.location, noted.races, self.block(noted, noted.block), noted.held, False)]
        own, others = Pieces(), Pieces()
        for stretch in sorted(noted.stretches, key=lambda one: checker_answers.unit_of(one.location) != noted.location):
            for piece in self.split(stretch):
                (others if stretch.borrowed else own).add(*piece)
        return [(*piece, pieces is others) for pieces in (own, others) for piece in pieces.found()]

    def split(self, stretch: Stretch) -> Iterator[tuple[int, int, Variable, Run]]:
        """The variables that stand there one after the other, each with its first location, its number of units, and
        which of its bytes these are."""
        done = 0
        while done < stretch.units:
            variable = self.variable(stretch, done * self.unit)
            first, units = variable.offset, 1
            if variable.size is not None:
                units = min(-(-(variable.size - first) // self.unit), stretch.units - done)
            size = (
                1 if stretch.location >= checker_answers.FIRST_BYTE else units * self.unit - stretch.address % self.unit
            )
            yield checker_answers.unit_of(stretch.location) + 2 * done, units, variable, (first, first + size)
            done += units

    def variable(self, stretch: Stretch, behind: int) -> Variable:
        """What stands so many bytes behind the first address."""
        for code, offset, find in (
            (stretch.data_code, stretch.data_offset, self.names.in_data),
            (stretch.code, stretch.offset, self.names.in_frame),
        ):
            found = find(code - 1, offset + behind, stretch.address + behind) if code else None
            if found:
                function, part = self.positions[code][-1].function, (found.expression, found.rest)
                known = (found.name, found.offset, found.size, None, None, *part)
                return Variable("local", function, *known, whole=found.entry)
        if stretch.code:
            return Variable("local", self.positions[stretch.code][-1].function)
        return self.named(stretch.address + behind)

    def named(self, address: int) -> Variable:
        """What neither a block nor a function holds."""
        in_thread = address - self.thread if address >= self.thread > 0 else None
        for place, is_thread in ((address, False), (in_thread, True)):
            found = self.names.symbol(place) if place is not None else None
            if found:
                return Variable("global", None, found.name, found.offset, found.size, address, is_thread)
        return Variable("memory", address=address)

    def guard(self, guard: Guard | None, variable: Variable) -> str | None:
        """The name of what both accesses of this variable hold; a lock is named by its variable."""
        return THREAD_LOCAL if guard is None and variable.thread_local else self.guard_name(guard)

    def guard_name(self, guard: Guard | None) -> str | None:
        if guard is None:
            return None
        number, name = guard
        if not name.endswith(" "):
            return name
        found = self.names.symbol(number)
        return name + (found.name if found else f"at {number:#x}")

    # ---- Blocks of the heap ----

    def block(self, noted: Noted, block: Block) -> Variable:
        offset, lines = noted.address - block.address, [self.line_of(side.kind, side.stack) for side in noted.sides]
        width, other = (line.width for line in lines)
        fits = width and width == other and block.size % width == offset % width == 0
        stack = self.stack("allocation", block.stack)
        variable = Variable("heap", offset=offset, size=block.size, element=width if fits else None, stack=stack)
        codes = [int(word, 16) for word in block.stack if word != "spawn"]
        there = [(code, position) for code in codes for position in self.positions[code]]
        inside = list(takewhile(source_lines.is_system, (position for _, position in there)))
        own = [Line(code - 1, source_lines.text_of(at)) for code, at in there if not source_lines.is_system(at)]
        found = self.heap_types.named(offset, block.size, own, lines)
        if found:
            variable.whole, variable.expression = found
        elif inside and own:
            # The library allocates it for what stands on the line that calls it.
            variable.owner = self.heap_types.owner(inside[-1].function, own[0])
        return variable

    def line_of(self, kind: str, words: Sequence[str]) -> Line:
        """The line that accesses a block; what the library does there has no text."""
        code = int(words[0], 16)
        position = self.positions[code][0]
        text = "" if source_lines.is_system(position) else source_lines.text_of(position)
        return Line(code - 1, text, kind, self.names.width(code))

    # ---- Order ----

    def missing_sync(self, noted: Noted, sides: list[Side]) -> MissingSync | None:
        spawn, continues_at = (side.at(noted.meeting) for side in sides)
        child = noted.children[0]
        if not spawn or not continues_at or spawn.role != "spawn" or (child and child.of == "region"):
            return None
        function = spawn.position.function
        # A function of OpenMP doesn't wait at its end.
        ends = noted.waits is not None and noted.waits.ends
        waits = source_lines.leading(self.positions[noted.waits.code]) if noted.waits else None
        if waits and (waits.function != function or (ends and child)):
            waits = None
        construct, at_return = child.of if child else "spawn", ends and child is None
        return MissingSync(function, construct, spawn.position, continues_at.position, waits, at_return)

    def siblings(self, noted: Noted) -> Siblings | None:
        """Two threads of one region, two tasks from one place, or two shares of one loop or of the same sections."""
        first, second = noted.children
        if not first or not second or first.of != second.of:
            return None
        position = source_lines.leading(self.positions[first.code])
        if first.of in ("task", "task_group", "region"):
            is_same = position == source_lines.leading(self.positions[second.code])
            return Siblings(first.of, position) if is_same else None
        is_same = first.code == second.code
        return Siblings(first.of, position, [first.first, first.last], [second.first, second.last]) if is_same else None


def missing_barrier(siblings: Siblings | None, sides: list[Side]) -> MissingSync | None:
    """Of threads of one region, each in a child of its own: the places where both begin, if these are two."""
    if not siblings or siblings.construct != "region":
        return None
    first, second = (spawn_inside(side, siblings.position) for side in sides)
    return MissingSync(first.function, "part", first, second) if first and second and first != second else None


def spawn_inside(side: Side, region: Position) -> Position | None:
    """The outermost spawn of a stack inside a region, or None."""
    spawns = [frame.position for frame in side.stack if frame.role == "spawn"]
    inside = spawns[: -1 - spawns[::-1].index(region)] if region in spawns else []
    return inside[-1] if inside else None


def named_by(guard: Guard | None, variable: Variable) -> Variable:
    """A stream is named by its lock, unless it is a block of the heap, which is known by its allocation."""
    found = STREAM_GUARD.fullmatch(guard[1]) if guard and is_stream(guard, variable.address or 0) else None
    return Variable("stream", name=found[1]) if found else variable
