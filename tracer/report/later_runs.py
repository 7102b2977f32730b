"""What later runs of a program say of the races that its first run has: their stacks, and which of them are none. It is
of use only where there are races."""
from typing import BinaryIO

from report import result, source_lines, text
from report.checker_answers import FIRST_FRESH, Places, Race, address_of, races_of, unit_of, units_of
from report.ending import many
from report.failure import Failure, reason_of
from report.options import Options
from report.outcome import Run
from report.pairs import Pair, in_order, merged
from report.program import Program
from report.program_input import disk_file
from report.run_notes import Notes, is_stream
from report.runs import Runner, file_of
from report.sites import by_sites, common_guard
from report.stack_rows import place

# So many sources are named that are newer than the program.
MOST_NEWER = 3


class Found:
    """What came of a run: its races, and those of the order of streams, if they aren't asked for and it is known; its
    places, or None if it has none; the file of the units whose bytes it told apart, or None; and whether some races may
    be of neighbours."""

    def __init__(self, run: Run, places: BinaryIO | None, divided: BinaryIO | None, unit: int, streams: bool) -> None:
        self.run, self.divided, self.is_doubtful = run, divided, False
        self.places: Places | None = None
        try:
            self.places = Places(places, "the places") if places else None
        except (Failure, OSError):
            pass
        races = races_of(run.lines(keepends=True))
        if self.places:
            self.places.need(
                access.place for race in races for access in race.accesses if access.place <= self.places.count
            )
        self.ordered = [] if streams else [race for race in races if self.is_of_order(race, unit)]
        ordered = set(self.ordered)
        self.races = [race for race in races if race not in ordered]

    def is_of_order(self, race: Race, unit: int) -> bool:
        """Whether only the order of a stream isn't determined there."""
        if not self.places or race.location % 2 == 1:
            return False
        guard = common_guard(self.places.site(access.place) for access in race.accesses)
        return is_stream(guard, address_of(race.location, unit))

    def narrow(self, notes: Notes | None) -> set[int]:
        """The units whose races may be of neighbours: an access doesn't fill the unit, or it isn't known that it
        does."""
        if not self.run.words("unit"):
            return set()
        return units_of(race for race in self.races if not self.is_whole(race, notes))

    def is_whole(self, race: Race, notes: Notes | None) -> bool:
        """Whether both accesses of a race fill the unit."""
        if self.places:
            sites = [self.places.site(access.place) for access in race.accesses]
            return all(site is not None and not site.is_narrow for site in sites)
        return notes is not None and notes.has(race) and unit_of(race.location) not in notes.narrow

    def has_course_of(self, first: "Found", divided: set[int]) -> bool:
        """Whether this run did the same as that one, whose units of these locations it has divided."""
        units, course = {unit for unit in units_of(self.races) if unit < FIRST_FRESH}, self.run.words("course")
        return (
            bool(course) and course == first.run.words("course") and units - divided == units_of(first.races) - divided
        )


class LaterRuns:
    """The pairs of source positions, how many races they have and how many of these have no stacks, and what is to be
    said beside them."""

    def __init__(self, runner: Runner, chosen: Options, unit: int) -> None:
        self.runner, self.chosen, self.unit = runner, chosen, unit
        self.pairs: list[Pair] = []
        self.races = self.without_stacks = 0
        self.notes: list[str] = []
        # Runs that saw what the first one couldn't see.
        self.more: list[Run] = []
        self.has_dwarf = True
        # Why the newest run that looked took another path, or None; and whether it was unlike the one before in any
        # way.
        self.astray: str | None = None
        self.differs = False

    def found(self, run: Run, places: BinaryIO | None = None, divided: BinaryIO | None = None) -> Found:
        return Found(run, places, divided, self.unit, self.chosen.streams)

    def another(
        self, divided: BinaryIO | None, settings: dict[str, str], keeps_places: bool = False, again: bool = False
    ) -> Found:
        """What one more run finds; AGAIN says that others follow it if it finds races."""
        files = files_of(divided)
        if not keeps_places:
            return self.found(self.runner.found(None, True, files, settings, again), None, divided)
        with disk_file() as places:
            run = self.runner.found(None, True, {**files, "SPBAGS_PLACES": places.fileno()}, settings)
            return self.found(run, places, divided)

    def find_more(self, run: Run, which: str) -> Run | None:
        """What the first run couldn't see and another one does; that, if there may be one and it is whole."""
        try:
            more = self.another(None, {}, again=True) if run.is_whole() and not self.chosen.one_run else None
        except (Failure, OSError):
            more = None
        before = len(self.pairs)
        if more:
            self.more.append(more.run)
            self.find_pairs(more)
        if len(self.pairs) > before:
            self.notes.append(
                f"{many(len(self.pairs) - before, 'pair')} of lines came of one more run, in which {which}. A "
                "location may count in both"
            )
        return more.run if more and more.run.is_whole() else None

    def find_behind(self, run: Run) -> bool:
        """What stands behind taskwaits, by a run in which their tasks are parts of their parents. Whether that did the
        same: otherwise the lines about that stay."""
        behind = self.find_more(run, "a task that a taskwait waits for is a part of its parent")
        return behind is not None and not behind.waits

    def find_by_others(self, run: Run) -> bool:
        """What threads have of their own, by a run in which another thread does what any may do. Whether that leaves
        nothing of the kind."""
        self.runner.settings["SPBAGS_OTHERS"] = ",".join(run.constructs)
        found = self.find_more(run, "another thread does what any may do")
        del self.runner.settings["SPBAGS_OTHERS"]
        return found is not None and all(map(self.is_of_race, found.others))

    def is_of_race(self, line: str) -> bool:
        """Whether a line begins with the place of an access that is known to race."""
        stacks = (side.stack for pair in self.pairs for side in pair.sides)
        return any(line.startswith(f"{at.position.file}:{at.position.line}: ") for stack in stacks for at in stack)

    def find_pairs(self, found: Found) -> None:
        """The pairs of these races: with stacks where another run had the same accesses, and else as they are known."""
        notes, looked = (None, None) if found.places else (self.notes_of(found), found)
        narrow = found.narrow(notes)
        if narrow:
            found = self.tell_apart(found, narrow, looked is not None and self.differs)
        if looked is not found:
            notes = self.notes_of(found)
        rest = [race for race in found.races if not (notes and notes.has(race))]
        start = self.from_start(found) if rest and not found.places and not self.chosen.one_run else None
        self.add(found, notes, rest, start)

    def tell_order(self, ordered: list[Pair]) -> None:
        """Where the order of output or of input isn't determined, in one line."""
        if not ordered:
            return
        first, *others = ordered
        lines = " and ".join(place(side.lead()) for side in first.sides)
        more = f", and {many(len(others), 'more pair')}" if others else ""
        self.notes.append(
            f"the order in which children use {text.whole_name(first.variable)} isn't determined: "
            f"{lines}{more}. --streams reports this"
        )

    def tell_apart(self, first: Found, narrow: set[int], differs: bool) -> Found:
        """Where races of these units may be of neighbours: what a run finds that tells their bytes apart, unless
        another one was unlike the first."""
        where = f"{many(len(narrow), 'location')}, in units of {self.unit} bytes"
        reason = (
            "isn't made, as --one-run says" if self.chosen.one_run else "would take another path" if differs else None
        )
        again = first
        try:
            if not reason:
                again = self.another(file_of(sorted(narrow)), last_of(first.run))
                reason = None if again.has_course_of(first, narrow) else "took another path"
        except (Failure, OSError) as error:
            reason = f"has no answer: {reason_of(error)}"
        if reason:
            self.notes.append(f"maybe only neighbours race at {where}: the run that tells their bytes apart {reason}")
            first.is_doubtful = True
            return first
        left = narrow - units_of(again.races)
        if left:
            self.notes.append(
                f"{many(len(left), 'location')} {'is' if len(left) == 1 else 'are'} left out: only "
                f"neighbours meet there in a unit of {self.unit} bytes"
            )
        return again

    def notes_of(self, found: Found) -> Notes | None:
        """What a run notes that looks at these races, or None where there are no notes."""
        self.astray, self.differs, run = None, False, None
        if not found.races or self.chosen.one_run:
            return None
        try:
            run = self.runner.looked(found.races, files_of(found.divided), last_of(found.run))
            notes = Notes(run.lines())
        except (Failure, OSError) as error:
            self.astray, self.differs = run.faults[0] if run and run.faults else reason_of(error), True
            return None
        if not self.chosen.streams:
            notes.leave_out_order()
        if notes.astray:
            place, what = notes.astray
            self.astray, self.differs = f"record {place}, an access of the first run, is {what} in the second", True
        self.compare(found.run, run, notes)
        return notes

    def compare(self, run: Run, second: Run, notes: Notes) -> None:
        """Notes of a run that had the same accesses, but did or held something else than the first."""
        first, other = run.words("course"), second.words("course")
        if notes.narrow or not first or first != other:
            notes.narrow |= notes.part
        if not first or not other or first == other:
            return
        if not self.astray and run.is_whole():
            self.differs = True
            self.notes.append(
                "the second run did something else than the first, though not at the accesses of a race: "
                "their lines and stacks are the second's"
            )
        if first[2] != other[2]:
            notes.forget_guards()

    def from_start(self, found: Found) -> Found | None:
        """A run that looks from its start, so that each of its races has its lines."""
        try:
            return self.another(found.divided, last_of(found.run), keeps_places=True)
        except (Failure, OSError) as error:
            self.notes.append(f"a run that looks from its start has no answer: {reason_of(error)}")
            return None

    def add(self, found: Found, notes: Notes | None, rest: list[Race], start: Found | None) -> None:
        """The pairs of the races that were noted; of the rest that a run from the start had too, and of those that it
        has beside; and of those that none had again."""
        of_start, ordered = (start.races, start.ordered) if start else ([], found.ordered)
        first, left = ({race.location for race in races} for races in (found.races, rest))
        had = {race.location for race in of_start + ordered}
        again = [race for race in of_start if race.location in left]
        beside = [race for race in of_start if race.location not in first]
        lost = [race for race in rest if race.location not in had]
        places = start.places if start else found.places
        self.runner.progress.begin("looking up source lines")
        known = [
            by_sites(*group) for group in ((again, places), (lost, found.places), (beside, places), (ordered, places))
        ]
        program = Program(self.runner.words[0], self.unit, notes, known)
        self.has_dwarf = program.names.has_any()
        earlier = {pair.key() for pair in self.pairs}
        noted, of_order = (notes.pairs, notes.ordered) if notes else ([], [])
        new = merged([*program.of_notes(noted), *program.of_sites(known[0]), *program.of_sites(known[1])])
        keys = earlier | {pair.key() for pair in new}
        more = [pair for pair in program.of_sites(known[2]) if pair.key() not in keys]
        new = [pair for pair in new if pair.key() not in earlier] + more
        for pair in new:
            pair.neighbours &= found.is_doubtful
        self.tell_order(program.of_notes(of_order) or program.of_sites(known[3]))
        self.pairs = in_order(self.pairs + new)
        self.races += sum(pair.races for pair in new) + (notes.left if notes else 0)
        count = result.count(more).races
        self.without_stacks += len(units_of(again + lost)) + count
        self.tell_rest(len(units_of(again)), count, 0 if found.places else len(units_of(lost)))
        self.tell_unplaced(lost, found.places)
        if notes and notes.left > 0:
            self.notes.append(f"{notes.left} more races are of other pairs, for which a run has no room")

    def tell_unplaced(self, races: list[Race], places: Places | None) -> None:
        lost = sum(not all(places.site(access.place) for access in race.accesses) for race in races) if places else 0
        if lost > 0:
            self.notes.append(
                f"{many(lost, 'race')} {'has' if lost == 1 else 'have'} no lines: there was no room for "
                "all places of the first run"
            )

    def tell_rest(self, again: int, beside: int, lost: int) -> None:
        """Which races have no stacks, where another run took another path, and whose lines they have."""
        if self.astray:
            self.notes.append(
                f"the second run took another path: {self.astray}; lines without stacks: "
                f"{self.without_stacks} of {many(self.races, 'race')}"
            )
        if again + beside > 0:
            self.notes.append(
                f"one more run looked from its start: {many(again, 'race')} of the first run "
                f"{'has' if again == 1 else 'have'} its lines, and {many(beside, 'more race')} "
                f"{'is' if beside == 1 else 'are'} its own"
            )
        if lost > 0:
            self.notes.append(
                f"{many(lost, 'race')} of the first run came in no later one, and "
                f"{'has' if lost == 1 else 'have'} no lines: this program can't be repeated. Remove what a "
                "run leaves, such as files, and fix what comes of time or of random numbers; or use "
                "--one-run, by which each race has its lines"
            )

    def hints(self) -> list[str]:
        """What would make the report better."""
        if not self.pairs:
            return []
        if not self.has_dwarf:
            return [
                "the program has no debug information, so lines and variables aren't known: don't strip it, and don't "
                "link it with -s"
            ]
        return newer_hint(self.newer())

    def newer(self) -> list[str]:
        """The sources of the report that are newer than the program."""
        stacks = (stack for pair in self.pairs for stack in (*(side.stack for side in pair.sides), pair.variable.stack))
        files = {frame.position.file for stack in stacks for frame in stack}
        return sorted(file for file in files if source_lines.is_newer(file, self.runner.words[0]))


def newer_hint(files: list[str]) -> list[str]:
    if not files:
        return []
    more = [f"{len(files) - MOST_NEWER} more"] if len(files) > MOST_NEWER else []
    *others, last = [*files[:MOST_NEWER], *more]
    named = f"{', '.join(others)} and {last} are" if others else f"{last} is"
    return [f"{named} newer than the program: the text of lines, and names by it, may be wrong. Compile it again"]


def files_of(divided: BinaryIO | None) -> dict[str, int]:
    """What a run gets that tells bytes of some units apart."""
    return {"SPBAGS_DIVIDE": divided.fileno()} if divided else {}


def last_of(run: Run) -> dict[str, str]:
    """The setting that ends another run where this one ended, unless it is whole."""
    course = run.words("course")
    return {} if run.is_whole() or not course else {"SPBAGS_LAST": course[0]}
