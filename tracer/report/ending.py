"""What the text of a report says of the whole: all that there is to say of a run without a race."""
from __future__ import annotations

TYPE_CHECKING = False
if TYPE_CHECKING:
    from collections.abc import Iterator

    from report.outcome import Unseen
    from report.result import Report
    from report.suppressions import Used

INDENT = " " * 4
LEAST_WIDTH = 60


def many(number: int, name: str) -> str:
    return f"{number} {name}{'' if number == 1 else 's'}"


def spelled(number: int, name: str) -> str:
    return f"{number:,} {name}{'' if number == 1 else 'es' if name.endswith('s') else 's'}"


def wrapped(text: str, width: int, first: str = "", indent: str = INDENT) -> list[str]:
    if not first and text.isprintable() and 0 < len(text) <= width:
        return [text]
    import textwrap

    return textwrap.wrap(text, width, initial_indent=first, subsequent_indent=indent, break_on_hyphens=False)


class Ending:
    """With colours where it goes to a terminal."""

    def __init__(self, report: Report, colours: bool, width: int) -> None:
        self.report, self.colours, self.width = report, colours, max(width, LEAST_WIDTH)

    def coloured(self, text: str, colour: str) -> str:
        return f"\033[{colour}m{text}\033[0m" if self.colours else text

    def wrapped(self, text: str, colour: str) -> list[str]:
        return [self.coloured(line, colour) for line in wrapped(text, self.width)]

    def lines(self) -> Iterator[str]:
        for note in self.report.notes:
            yield from self.wrapped(note, "1")
        for line in left_out_lines(self.report):
            yield from self.wrapped(line, "1;33")
        for used in self.report.suppressions:
            yield from self.wrapped(suppression_line(used), "1")
        yield from wrapped(last_line(self.report), self.width)


def left_out_lines(report: Report) -> list[str]:
    return [*report.incomplete, *map(unseen_line, report.unseen)]


def last_line(report: Report) -> str:
    shown = len(report.pairs) + report.not_shown.pairs
    parts = [f"races {report.races - report.suppressed.races - report.guarded.races}, pairs of lines {shown}"]
    if report.spawns is not None and report.accesses is not None:
        parts[0] += f", {spelled(report.spawns, 'spawn')}, {spelled(report.accesses, 'access')}"
    counts = {"not shown": report.not_shown, "suppressed": report.suppressed, "no data race": report.guarded}
    for what, left in counts.items():
        if left.pairs > 0:
            parts.append(f"{what}: {many(left.races, 'race')} of {many(left.pairs, 'pair')}")
    guarded_pairs = sum(pair.is_guarded() for pair in report.pairs)
    if guarded_pairs > 0:
        parts.append(f"no data race, which --data-races leaves out: {many(guarded_pairs, 'pair')}")
    lines = len(left_out_lines(report))
    if lines > 0:
        parts.append(f"not all was seen or modelled: {many(lines, 'line')} above")
    return "; ".join(parts)


def unseen_line(unseen: Unseen) -> str:
    return f"not seen: {unseen.function} ({unseen.library}), called {many(unseen.calls, 'time')}"


def suppression_line(used: Used) -> str:
    if used.pairs == 0:
        return f"{used.line} suppresses nothing"
    return f"{used.line} suppresses {many(used.races, 'race')} of {many(used.pairs, 'pair')}"
