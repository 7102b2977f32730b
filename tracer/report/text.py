"""The report of `spbags-run` as plain text, whose lines are no wider than what shows them."""
from __future__ import annotations

import re
from collections.abc import Iterable, Iterator
from itertools import groupby
from typing import TYPE_CHECKING

from report import advice, source_lines
from report.ending import INDENT, LEAST_WIDTH, Ending, many, wrapped
from report.function_names import function_of
from report.result import NO_OPENMP, THREAD_LOCAL, UNKNOWN_GUARD
from report.stack_rows import BOTH, Frame, Row, access_rows, allocation_rows, common_tail, place, rows, without_regions

if TYPE_CHECKING:
    from report.pairs import MissingSync, Pair, Siblings, Variable

# What is told of a reducer.
OF_REDUCER = {"read": "update", "write": "value"}
# What the tracer's reducers and classes of libstdc++ have inside.
INNER = re.compile(r"\.(?:__spbags|_M)_")
# So many elements of a variable are named, and else the first alone.
MOST_NAMED = 4
BASE, ELEMENT = re.compile(r"[(*]*[\w:]+"), re.compile(r"(?:\[[0-9]+\])+")
GAP = "  "
CUT = ".."


def in_middle(text: str, width: int) -> str:
    """A text without its middle, where it is wider."""
    first = (width - len(CUT) + 1) // 2
    return text if len(text) <= width else text[:first] + CUT + text[len(text) - (width - len(CUT) - first) :]


def at_start(text: str, width: int) -> str:
    return text if len(text) <= width else CUT + text[len(CUT) - width :]


def at_end(text: str, width: int) -> str:
    return text if len(text) <= width else text[: max(width - len(CUT), 0)] + CUT


def stacks_of(pair: Pair) -> list[list[Frame]]:
    is_of_openmp = pair.suggested and not advice.is_of_cilk(pair)
    stacks = [without_regions(side.stack) if is_of_openmp else side.stack for side in pair.sides]
    return [[stack[0]._replace(role=kind_of(stack[0].role, pair)), *stack[1:]] for stack in stacks]


def by_variable(pairs: Iterable[Pair]) -> list[list[Pair]]:
    return [list(alike) for _, alike in groupby(pairs, key=lambda pair: pair.identity())]


class Text(Ending):
    """With each pair before that."""

    def lines(self) -> Iterator[str]:
        groups = by_variable(self.report.pairs)
        has_headings = len(groups) < len(self.report.pairs)
        for pairs in groups:
            if has_headings:
                yield from self.wrapped(heading(pairs), "1;36")
            for pair in pairs:
                yield from self.block(pair)
                yield ""
        if has_headings and len(groups) > 1:
            yield "by variable:"
            for pairs in groups:
                yield INDENT + at_end(heading(pairs), self.width - len(INDENT))
            yield ""
        yield from super().lines()

    # ---- A pair ----

    def block(self, pair: Pair) -> Iterator[str]:
        yield from self.wrapped(headline(pair), "1;31")
        stacks = stacks_of(pair)
        tail = common_tail(*stacks)
        own = ((stack[: len(stack) - tail], side.lead()) for side, stack in zip(pair.sides, stacks))
        shown = [row for stack, lead in own for row in access_rows(stack, lead)]
        if tail > 0:
            shown += [Row(BOTH), *rows(stacks[0][len(stacks[0]) - tail :])]
        owner = allocation_rows(pair.variable.stack) if pair.variable.stack else []
        label = max(len(row.label) for row in [*shown, *owner])
        widths = self.widths([*shown, *owner], label)
        yield from (self.row(row, widths) for row in shown)
        yield from self.prose("variable", variable_line(pair.variable, self.report.unit), label)
        yield from (self.row(row, widths) for row in owner)
        for name, text in order_rows(pair):
            yield from self.prose(name, text, label)

    def widths(self, rows: list[Row], label: int) -> list[int]:
        """Of the label, the place and the function, so that there is room for the text."""
        room = (self.width - len(INDENT) - label - 3 * len(GAP)) * 2 // 5
        functions = (len(row.function) for row in rows if row.text)
        return [label, min(max(len(row.place) for row in rows), room), min(max(functions, default=0), room)]

    def row(self, row: Row, widths: list[int]) -> str:
        """A function without a text has the room of both."""
        behind = row.behind and f"{GAP}({row.behind})"
        line = f"{INDENT}{row.label:{widths[0]}}{GAP}{at_start(row.place, widths[1]):{widths[1]}}{GAP}"
        if not row.text:
            return (line + in_middle(row.function, self.width - len(line) - len(behind)) + behind).rstrip()
        line += f"{in_middle(row.function, widths[2]):{widths[2]}}{GAP}"
        return (line + at_end(row.text, self.width - len(line) - len(behind)) + behind).rstrip()

    def prose(self, label: str, text: str, width: int) -> list[str]:
        start = f"{INDENT}{label:{width}}{GAP}"
        return wrapped(text, self.width, start, " " * len(start))


# ---- What is said of the whole ----


def heading(pairs: list[Pair]) -> str:
    races = many(sum(pair.races for pair in pairs), "location")
    return f"{whole_name(pairs[0].variable)}: {races} in {many(len(pairs), 'pair')} of lines"


# ---- What is said of a pair ----


def kind_of(kind: str, pair: Pair) -> str:
    return OF_REDUCER.get(kind, kind) if pair.reducer else kind


def kinds_of(pair: Pair) -> str:
    kinds = " races with ".join(" or ".join(sorted(kind_of(kind, pair) for kind in kinds)) for kinds in pair.kinds)
    kinds += " of a reducer" if pair.reducer else ""
    kinds += "; maybe only of neighbours" if pair.neighbours else ""
    return kinds + ("; the stacks may be of another variable" if pair.borrowed else "")


def guarded(guard: str | None) -> str:
    if guard is None:
        return ""
    if guard == UNKNOWN_GUARD:
        return "; what both hold isn't known, so it may be no data race"
    if guard == THREAD_LOCAL:
        return "; each thread has its own, so it is no data race, unless by a pointer to another thread's"
    held = "both are atomic" if guard == "atomic" else f"both hold {guard}"
    return f"; {held}, so it is no data race, but either may come first"


def headline_kinds(pair: Pair) -> str:
    return kinds_of(pair) + guarded(pair.guard)


def headline(pair: Pair) -> str:
    return f"{many(pair.races, 'location')}: {headline_kinds(pair)}"


def owned(variable: Variable, name: str, before: str = "") -> str:
    """A variable with what tells it from others of its name."""
    if variable.kind == "local":
        return f"{name}, {before}a local of {function_named(variable)}"
    return name + (", thread-local" if variable.thread_local else "")


def function_named(variable: Variable) -> str:
    return function_of(source_lines.UNKNOWN._replace(function=variable.function or "?"))


def whole_name(variable: Variable) -> str:
    """What a heading calls a variable."""
    if variable.name:
        return owned(variable, variable.name)
    if variable.kind == "heap":
        return f"blocks of the heap from {place(variable.allocation())}"
    if variable.kind == "local":
        return f"locals of {function_named(variable)}"
    return "locals" if variable.kind == "stack" else "other memory"


def byte_of(offset: int, size: int | None) -> str:
    return f", byte {offset} of {size}"


def variable_line(variable: Variable, unit: int) -> str:
    """The part of a variable with the location."""
    kind, byte = variable.kind, byte_of(variable.offset, variable.size)
    if kind == "heap":
        if variable.expression:
            return f"{parts_named(variable)}, in a block of the heap{byte}"
        element, size = variable.element, variable.size or 0
        elements = f", or element {variable.offset // element} of {size // element}" if element else ""
        owner = f" that {variable.owner} has" if variable.owner else ""
        return f"a block of the heap{owner}{byte}{elements}"
    if len(parts_of(variable)) > 1:
        return owned(variable, parts_named(variable), "of ")
    if variable.expression:
        expression, rest = without_inner(variable.expression), variable.rest
        is_whole = expression == variable.expression and rest and all(rest)
        return owned(variable, expression + (byte_of(*rest) if is_whole and rest else ""))
    if kind == "stream" and variable.name:
        return variable.name
    if variable.name:
        return owned(variable, variable.name + ("" if (variable.size or 0) <= unit else byte))
    if kind == "local":
        return f"a local of {function_named(variable)}"
    return "a local" if kind == "stack" else f"memory at {variable.address:#x}"


def order_rows(pair: Pair) -> list[tuple[str, str]]:
    """What is said of the order of both accesses: a label and a text each. Something is missing between them, and of
    OpenMP, what it may be."""
    siblings, missing_sync, said = pair.siblings, pair.missing_sync, []
    advised = f". {advice.sentence(pair)}" if pair.suggested else ""
    if siblings:
        said.append(("no order", siblings_line(siblings) + advised))
    elif missing_sync:
        is_spawn = missing_sync.construct == "spawn"
        said.append(("no sync" if is_spawn else "no order", missing_sync_line(missing_sync) + advised))
    if pair.held_before:
        held = f"in this run the later access comes after its thread held {pair.held_before}, which the first one holds"
        said.append(("lock", held))
    return said


def without_inner(expression: str) -> str:
    """Without what only the tracer or the library has a name for."""
    return INNER.split(expression)[0]


def parts_of(variable: Variable) -> list[str]:
    return list(dict.fromkeys(map(without_inner, variable.parts or filter(None, [variable.expression]))))


def parts_named(variable: Variable) -> str:
    """All parts that race; or of elements, if they are more than a few, the first and their number."""
    parts = parts_of(variable)
    if len(parts) == 1:
        return parts[0]
    are_all = len(variable.parts) == variable.parts_count
    if len(parts) <= MOST_NAMED or (are_all and not any("[" in part for part in parts)):
        return f"{', '.join(parts[:-1])} and {parts[-1]}"
    base = BASE.match(parts[0])
    name = variable.name or (base[0] if base else "")
    kind = "element" if all(ELEMENT.fullmatch(part[len(name) :]) for part in parts) else "part"
    return f"{parts[0]} and {(len(parts) if are_all else variable.parts_count) - 1} more {kind}s of {name}"


def siblings_line(siblings: Siblings) -> str:
    where, construct = place(siblings.position), siblings.construct
    if construct in ("task", "task_group"):
        return f"tasks from {where} may run at once"
    if construct == "region":
        return f"threads of the region at {where} may do this at once"
    both = (dict.fromkeys(numbers) for numbers in (siblings.first or [], siblings.second or []))
    numbers = " and ".join(" to ".join(map(str, one)) for one in both)
    if construct == "sections":
        return f"sections {numbers} may run at once"
    parts = {"parallel_invoke": "functions", "algorithm": "elements", "parallel_sort": "parts"}.get(
        construct, "iterations"
    )
    return f"{parts} {numbers} of the {construct if construct in NO_OPENMP else 'loop'} at {where} may run at once"


def missing_sync_line(missing_sync: MissingSync) -> str:
    again = missing_sync.spawn == missing_sync.continues_at
    before = "what comes next on that line" if again else place(missing_sync.continues_at)
    function = function_of(missing_sync.spawn)
    spawn = f"the {missing_sync.construct} at {place(missing_sync.spawn)}"
    line = f"in {function} between {spawn} and {before}"
    if missing_sync.syncs_at_return:
        return f"{line}: {function} waits only when it returns"
    return line + (f": it waits next at {place(missing_sync.next_sync)}" if missing_sync.next_sync else "")


# ---- Other lines of `spbags-run` ----


def told(what: str, width: int) -> list[str]:
    """A line of `spbags-run`, in rows that are as wide."""
    return wrapped(f"spbags-run: {what}", max(width, LEAST_WIDTH))


def stack_rows(program: str, codes: list[int]) -> list[str]:
    """A row for each function on a stack, as far as it isn't of the system's headers, and for the innermost in any
    case."""
    found = source_lines.positions_of(program, [code + 1 for code in codes])
    known = [position for code in codes for position in found[code + 1] if position.line > 0]
    shown = [position for number, position in enumerate(known) if number == 0 or not source_lines.is_system(position)]
    cells = [(place(position), function_of(position), source_lines.text_of(position)) for position in shown]
    widths = [max((len(row[column]) for row in cells), default=0) for column in range(2)]
    return [INDENT + GAP.join(f"{cell:{width}}" for cell, width in zip(row, [*widths, 0])).rstrip() for row in cells]


def suppressions(pairs: Iterable[Pair]) -> Iterator[str]:
    """Lines that leave out each of these, with a comment before each that says which."""

    def line_of(pair: Pair) -> str:
        return pair.suppression() or ""

    for line, alike in groupby(sorted(pairs, key=line_of), key=line_of):
        for pair in alike:
            first, second = (place(side.lead()) for side in pair.sides)
            yield f"# {many(pair.races, 'location')}: {kinds_of(pair)}, {first} and {second}"
        yield line or "# Nothing there has a name that a line could match."
