"""Says where in the program the places of an answer of `spbags` are:

    spbags check run.trace | spbags-lines [--brief] ./program run.trace
    spbags explain run.trace 1000 | spbags-lines ./program run.trace
    spbags confirm run.trace report | spbags-lines ./program run.trace - report

It adds their source lines to the answer:

- a report of `check` or `pairs`: a paragraph for each pair of source lines; with --brief one line, its number of races
  and both source lines;
- an answer of `explain`: the source lines of each line's places;
- `no N` of `confirm`: the source lines of that entry, if the last word names the report.

The exit status is that of the answer: 1 if there is a race or `confirm` says no, 0 otherwise, and 2 if there is no
answer."""
import argparse
import os
import re
import sys
from collections.abc import Iterable, Iterator

from installation import VERSION
from report import checker_answers, sites, source_lines
from report.checker_answers import Race
from report.ending import INDENT, many
from report.failure import Failure, reason_of
from report.function_names import function_of
from report.messages import with_lines
from report.pairs import Pair
from report.source_lines import Position

EXPLAINED = re.compile(r"(?:race|meet|first|second|joined) .*\n")
# An opener, an access, or in the lines `meet` and `joined` a bare place.
WORD = re.compile(r"(?:(spawn|call|read|write) )?([0-9]+)")
CONFIRMED = re.compile(r"(?:yes|no ([0-9]+))\n")


class Places:
    def __init__(self, program: str, trace: str) -> None:
        name = trace if trace.endswith(".places") else trace + ".places"
        self.program, self.places = program, checker_answers.places_of(name)
        if os.path.getmtime(program) > os.path.getmtime(name):
            warn(f"{program} is newer than {name}")

    def positions(self, places: Iterable[int]) -> dict[int, Position]:
        """The leading position of each of these places."""
        codes = self.places.codes(places)
        found = source_lines.positions_of(self.program, codes.values())
        positions = {place: source_lines.leading(found[code]) for place, code in codes.items()}
        self.warn_of_newer(positions.values())
        return positions

    def pairs(self, races: list[Race]) -> list[Pair]:
        self.places.need({access.place for race in races for access in race.accesses})
        pairs = sites.by_lines(self.program, races, self.places)
        self.warn_of_newer(side.lead() for pair in pairs for side in pair.sides)
        return pairs

    def warn_of_newer(self, positions: Iterable[Position]) -> None:
        for file in sorted({position.file for position in positions}):
            if source_lines.is_newer(file, self.program):
                warn(f"{file} is newer than {self.program}")


def warn(message: str) -> None:
    print(f"spbags-lines: warning: {message}", file=sys.stderr)


def show(lines: Iterable[str]) -> None:
    for line in lines:
        print(line)


def source_line(position: Position) -> str:
    return f"{position.file}:{position.line}"


def side_lines(sides: list[tuple[Position, str]]) -> Iterator[str]:
    """Each side is a position and what happens there."""
    width = max(len(source_line(position)) for position, _ in sides)
    for position, what in sides:
        yield (
            f"{INDENT}{source_line(position):{width}}  {what:5}  in {function_of(position)}:  "
            f"{source_lines.text_of(position)}"
        ).rstrip()


def pair_lines(pairs: list[Pair]) -> Iterator[str]:
    """A paragraph for each pair; a race alone has its location, if the answer says it."""
    yield f"races {sum(pair.races for pair in pairs)}, pairs of lines {len(pairs)}"
    for pair in pairs:
        named = f" of location {pair.location}" if pair.races == 1 and pair.location >= 0 else ""
        yield f"\n{many(pair.races, 'race')}{named}"
        yield from side_lines(
            [(side.lead(), " or ".join(sorted(kinds))) for side, kinds in zip(pair.sides, pair.kinds)]
        )


def brief_lines(pairs: list[Pair]) -> Iterator[str]:
    for pair in pairs:
        yield " ".join([str(pair.races), *(source_line(side.lead()) for side in pair.sides)])


def explain(lines: list[str], places: Places) -> None:
    """Each line of the explanation, and below it where its places are. The root has none, nor has its end."""
    rows = []
    for line in lines:
        told = line.split(" ", 2)[2] if line.startswith("race ") else line.split(" ", 1)[1]
        rows.append((line, [(word[1] or "", int(word[2])) for word in WORD.finditer(told) if word[2] != "0"]))
    positions = places.positions({place for _, words in rows for _, place in words})
    for line, words in rows:
        print(line, end="")
        sides = [(positions[place], what) for what, place in words if positions[place].line > 0]
        if sides:
            show(side_lines(sides))


def confirm(entry: int | None, places: Places, report: str | None) -> None:
    print("every entry is a race" if entry is None else f"entry {entry} is no race")
    if entry is None or report is None:
        return
    with open(report) as file:
        races = checker_answers.races_of(file.readlines())
    if not 1 <= entry <= len(races):
        raise Failure(f"{report} has no entry {entry}: does the answer belong to another report?")
    race = races[entry - 1]
    positions = places.positions({access.place for access in race.accesses})
    show(side_lines([(positions[access.place], access.kind) for access in race.accesses]))


def answer(lines: list[str], brief: bool, places: Places, report: str | None) -> int:
    confirmed = CONFIRMED.fullmatch("".join(lines))
    if confirmed:
        confirm(int(confirmed[1]) if confirmed[1] else None, places, report)
        return 1 if confirmed[1] else 0
    if lines == ["no race\n"]:
        print("no race")
        return 0
    if len(lines) == 5 and all(map(EXPLAINED.fullmatch, lines)) and lines[1].startswith("meet"):
        explain(lines, places)
        return 1
    races = checker_answers.races_of(lines)
    show((brief_lines if brief else pair_lines)(places.pairs(races)))
    for note in with_lines(places.program, places.places.notes):
        print("note:", note)
    return 1 if races else 0


def options() -> argparse.ArgumentParser:
    parser = argparse.ArgumentParser(
        prog="spbags-lines", description=__doc__, formatter_class=argparse.RawDescriptionHelpFormatter
    )
    parser.add_argument("--version", action="version", version=f"spbags-lines {VERSION}")
    parser.add_argument("--brief", action="store_true", help="one line for each pair of source lines")
    parser.add_argument("program", metavar="PROGRAM", help="the program that wrote the trace")
    parser.add_argument(
        "trace", metavar="TRACE", help="the trace, whose source lines come from TRACE.places; or that file itself"
    )
    parser.add_argument(
        "answer", metavar="ANSWER", nargs="?", default="-", help="the answer; - is standard input (default -)"
    )
    parser.add_argument("report", metavar="REPORT", nargs="?", help="the report that `confirm` was asked about")
    return parser


def status_of(chosen: argparse.Namespace) -> int:
    with open(chosen.answer) if chosen.answer != "-" else sys.stdin as file:
        lines = file.readlines()
    status = answer(lines, chosen.brief, Places(chosen.program, chosen.trace), chosen.report)
    sys.stdout.flush()
    return status


def main() -> int:
    try:
        return status_of(options().parse_args())
    except (Failure, OSError) as error:
        print(f"spbags-lines: {reason_of(error)}", file=sys.stderr)
        return 2
