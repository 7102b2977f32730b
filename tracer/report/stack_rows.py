"""The rows that show a stack: one for each frame, with one for those that come again and again, and one for those of
headers of the system that follow one another."""
import os
from itertools import groupby
from typing import NamedTuple

from report import source_lines
from report.function_names import function_of
from report.source_lines import Position

LABELS = {"spawn": "  spawned at", "call": "  called at", "allocation": "  allocated at"}
INSIDE, BOTH, LEFT_OUT = "  inside", "both", "  .."
# So many rows of a stack are shown at its beginning and at its end.
FEW = 20
# The longest cycle of rows that is looked for.
LONGEST_CYCLE = 8


class Frame(NamedTuple):
    """A position on the stack, and what stands there: `write` or `read`, `spawn`, `call` or `allocation`. The depth is
    how many functions stand on the stack up to here."""

    role: str
    position: Position
    depth: int


class Row(NamedTuple):
    """A line of a stack. What stands behind the text isn't cut."""

    label: str
    place: str = ""
    function: str = ""
    text: str = ""
    behind: str = ""


def place(position: Position) -> str:
    return f"{position.file}:{position.line}" if position.line > 0 else position.file


def short_place(position: Position) -> str:
    """Without the folder of a header of the system."""
    return place(
        position._replace(file=os.path.basename(position.file)) if source_lines.is_system(position) else position
    )


def row_of(label: str, position: Position) -> Row:
    return Row(label, place(position), function_of(position), source_lines.text_of(position))


def common_tail(one: list[Frame], other: list[Frame]) -> int:
    """How many frames at the end of both stacks are alike, but for the accesses themselves."""
    alike = 0
    for frame, another in zip(reversed(one[1:]), reversed(other[1:])):
        if frame[:2] != another[:2]:
            break
        alike += 1
    return alike


def without_regions(stack: list[Frame]) -> list[Frame]:
    """A region of OpenMP is called by its own line, where its loop or its task is made too."""
    return stack[:1] + [
        frame
        for before, frame in zip(stack, stack[1:])
        if (before.role, frame.role) != ("spawn", "call") or before.position != frame.position
    ]


def access_rows(stack: list[Frame], lead: Position) -> list[Row]:
    """The user's own code comes first, where the access is in a header of the system."""
    if stack[0].position == lead:
        return rows(stack)
    return [row_of(stack[0].role, lead), *rows([stack[0]._replace(role="header"), *stack[1:]])]


def allocation_rows(stack: list[Frame]) -> list[Row]:
    """Functions of the library stand behind the line that calls them."""
    lead = source_lines.leading([frame.position for frame in stack])
    inside = next(number for number, frame in enumerate(stack) if frame.position == lead)
    if inside == 0:
        return rows(stack)
    return [
        row_of(LABELS["allocation"], lead),
        *rows([stack[0]._replace(role="header"), *stack[1:inside]], False),
        *rows(stack[inside + 1 :]),
    ]


def rows(stack: list[Frame], shows_innermost: bool = True) -> list[Row]:
    """Of a stack's frames; of what is in headers of the system the innermost has a row of its own."""
    found: list[Row] = []
    for is_system, group in groupby(stack, key=lambda frame: source_lines.is_system(frame.position)):
        frames = list(group)
        if is_system and len(frames) > 1:
            found += system_rows(frames, shows_innermost and not found)
        else:
            found += (frame_row(frame.role, frame.position) for frame in frames)
    return without_middle(folded(found), FEW)


def without_middle(found: list[Row], few: int) -> list[Row]:
    """So many rows at the beginning and at the end, and how many others there are."""
    left = len(found) - 2 * few
    return found if left <= 1 else [*found[:few], Row(LEFT_OUT, f"{left} more"), *found[-few:]]


def label_of(role: str) -> str:
    return INSIDE if role == "header" else LABELS.get(role, role)


def frame_row(role: str, position: Position) -> Row:
    return row_of(label_of(role), position)._replace(place=short_place(position))


def system_rows(frames: list[Frame], is_innermost: bool) -> list[Row]:
    """The function of the library that does the access, if it is the stack's innermost, and the one that other code
    calls."""
    inner = [frame_row(frames[0].role, frames[0].position)] if is_innermost else []
    outer, left = frames[-1], len(frames) - 1 - len(inner)
    label = label_of(outer.role if inner else frames[0].role)
    return [
        *inner,
        Row(label, short_place(outer.position), function_of(outer.position), "", f"and {left} more" if left else ""),
    ]


def folded(found: list[Row]) -> list[Row]:
    """With a row, or a cycle of rows, once where it comes again and again, and how often."""
    made: list[Row] = []
    at = 0
    while at < len(found):
        length, times = cycle_at(found, at)
        *before, last = folded(found[at : at + length]) if length > 1 else found[at : at + 1]
        if times > 1:
            said = f"these {len(before) + 1} rows {times} times" if before else f"{times} times"
            last = last._replace(behind="; ".join(filter(None, (last.behind, said))))
        made += [*before, last]
        at += length * times
    return made


def cycle_at(found: list[Row], at: int) -> tuple[int, int]:
    """The length and the number of the cycles here that take most rows."""
    best = 1, 1
    for length in range(1, min(LONGEST_CYCLE, (len(found) - at) // 2) + 1):
        times = 1
        while found[at + times * length : at + (times + 1) * length] == found[at : at + length]:
            times += 1
        if times > 1 and length * times > best[0] * best[1]:
            best = length, times
    return best
