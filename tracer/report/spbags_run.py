"""Runs a program that `spbags-cc` has compiled, and reports its races with the stacks of both accesses.

    spbags-cc -o fib fib.c
    spbags-run -- ./fib 20

The exit status:

    0  no race, and everything was seen and modelled
    1  the report has races
    2  no answer
    3  no race, but something wasn't seen or modelled: a warning says what

The page tracer/RUN.md explains the report."""
from __future__ import annotations

import os
import sys

from processes import memory_file
from report import runs
from report.failure import Failure, reason_of
from report.options import Options, parsed
from report.program_input import disk_file
from report.progress import Progress
from report.root import Root

# What is of use only for some answers is imported where they are made, and what is of use only behind a run there: the
# program waits for no more.
TYPE_CHECKING = False
if TYPE_CHECKING:
    from typing import BinaryIO, TextIO

    from report.later_runs import LaterRuns
    from report.outcome import Run, Unseen
    from report.result import Report


class Session:
    """The runs of one command."""

    def __init__(self, chosen: Options) -> None:
        self.chosen, self.progress = chosen, Progress()
        self.unit = os.environ.get("SPBAGS_UNIT") or "4"
        # A trace that is kept has streams only if they are asked for, since `spbags` doesn't know them from the rest.
        settings = {
            "SPBAGS_UNIT": self.unit,
            "SPBAGS_STREAMS": "1" if chosen.streams or not chosen.keep else "0",
            **({"SPBAGS_REPEATS": "1"} if chosen.repeats else {}),
        }
        output = {1: 2} if (chosen.json or chosen.sarif) and not chosen.output else {}
        self.runner = runs.Runner(
            chosen.command,
            ["--shards", chosen.shards],
            settings,
            output,
            chosen.timeout,
            self.tell_stuck,
            self.progress,
        )
        self.later: LaterRuns | None = None

    def tell_stuck(self, line: str) -> None:
        """The program may wait for ever, so this line doesn't wait for the report."""
        from report import messages, text

        record = messages.record_of(line)
        try:
            rows = text.stack_rows(self.runner.words[0], [int(code, 16) for code in record.words])
        except Failure:
            rows = []
        self.progress.erase()
        print("\n".join([*text.told(record.text, width()), *rows]), file=sys.stderr, flush=True)

    def traced(self) -> tuple[Run, BinaryIO | None]:
        """The first run, which alone prints, and the file of its places: it keeps them beside a trace that is kept, and
        where there is no other run."""
        keep = self.chosen.keep and os.path.abspath(self.chosen.keep)
        if keep:
            run = self.runner.found(keep, False, {}, {})
            return run, open(keep + ".places", "rb")
        if not self.chosen.one_run:
            return self.runner.found(None, False, {}, {}, again=True), None
        places = disk_file()
        return self.runner.found(None, False, {"SPBAGS_PLACES": places.fileno()}, {}), places

    def find(self) -> Report:
        """The races, and the pairs of source positions. All that the first run found is reported, whatever comes of
        later ones, unless one with the same course shows that it is none."""
        with memory_file() as waited:
            files = {"SPBAGS_WAITED": waited.fileno()}
            self.runner.files = files
            run, places = self.traced()
            self.runner.files = {}
            if run.has_races():
                later = self.later_runs()
                later.find_pairs(later.found(run, places))
            notes = self.notes_of(run)
            self.runner.files = files
            waits = [] if not run.waits or self.later_runs().find_behind(run) else run.waits
            self.runner.files = {}
        others = [] if not run.others or self.later_runs().find_by_others(run) else run.others
        return self.report(run, notes, run.incomplete + waits + others + self.incomplete_later(run))

    def runs_that_saw_more(self) -> list[Run]:
        return self.later.more if self.later else []

    def incomplete_later(self, run: Run) -> list[str]:
        """What only a run that saw more says; of what the first one says too it is known whether it still holds."""
        known = run.incomplete + run.waits + run.others
        every = dict.fromkeys(line for more in self.runs_that_saw_more() for line in more.incomplete)
        return [line for line in every if line not in known]

    def unseen(self, run: Run) -> list[Unseen]:
        """Functions that nothing is known of, each once."""
        every = [unseen for each in [run, *self.runs_that_saw_more()] for unseen in each.unseen]
        return list({unseen.function: unseen for unseen in reversed(every)}.values())[::-1]

    def later_runs(self) -> LaterRuns:
        if not self.later:
            from report.later_runs import LaterRuns

            self.later = LaterRuns(self.runner, self.chosen, int(self.unit))
        return self.later

    def is_silenced(self, function: str) -> bool:
        """Whether --unseen-ok names it; the words of a C++ function needn't be there."""
        import re

        from report.source_lines import pattern

        shapes, patterns = (function, function.partition("(")[0]), map(pattern, self.chosen.unseen_ok)
        return any(re.fullmatch(named, shape) for named in patterns for shape in shapes)

    def notes_of(self, run: Run) -> list[str]:
        """What is to be said of the first run's end; without a race only a whole run has an answer."""
        has_races = self.later is not None and self.later.races > 0
        notes = list(run.seeming) if has_races else []
        if not run.is_whole() and not has_races:
            raise Failure(f"{run.ending()}: there was no race up to that point")
        if not run.is_whole():
            notes.append(f"{run.ending()}: this is the run up to that point")
        elif run.status != 0:
            notes.append(f"the program ended with status {run.status}")
        return notes

    def report(self, run: Run, notes: list[str], incomplete: list[str]) -> Report:
        from report import ending, result

        chosen, later = self.chosen, self.later
        found, races, without_stacks = (later.pairs, later.races, later.without_stacks) if later else ([], 0, 0)
        ignored = None
        if found or chosen.suppress:
            from report.suppressions import Suppressions

            ignored = Suppressions(chosen.suppress)
        suppressed = [pair for pair in found if ignored and ignored.match(pair)]
        rest = [pair for pair in found if pair not in suppressed]
        guarded = [pair for pair in rest if chosen.data_races and pair.is_guarded()]
        rest = [pair for pair in rest if pair not in guarded]
        own = sum(pair.guard == result.THREAD_LOCAL for pair in guarded)
        if own > 0:
            notes.append(
                f"{ending.many(own, 'pair')} of thread-local variables left out: a data race if one child "
                "reaches another thread's by a pointer"
            )
        ran = run.words("ran")
        spawns, accesses = (int(ran[0]), int(ran[1])) if ran else (None, None)
        status, signal = (run.status, None) if run.status >= 0 else (None, -run.status)
        ended = result.Ended(status, signal, run.is_whole())
        return result.Report(
            chosen.command,
            int(self.unit),
            ended,
            spawns,
            accesses,
            races,
            rest[: chosen.most],
            result.count(rest[chosen.most :]),
            result.count(suppressed),
            result.count(guarded),
            without_stacks,
            notes + (later.notes + later.hints() if later else []),
            incomplete,
            [one for one in self.unseen(run) if not self.is_silenced(one.function)],
            ignored.told() if ignored else [],
        )


def has_colours(chosen: Options, output: TextIO) -> bool:
    is_asked = chosen.color == "auto" and output.isatty() and not os.environ.get("NO_COLOR")
    return is_asked or chosen.color == "always"


def text_of(found: Report, chosen: Options, output: TextIO) -> str:
    if chosen.json or chosen.sarif:
        import json

        if chosen.sarif:
            from installation import VERSION
            from report import sarif

            return json.dumps(sarif.as_object(found, VERSION), indent=1)
        from report import objects

        return json.dumps(objects.as_object(found), indent=1)
    from report import ending

    colours = has_colours(chosen, output)
    if not found.pairs and not chosen.gen_suppressions:
        return "\n".join(ending.Ending(found, colours, width()).lines())
    from report import text

    shown = text.suppressions(found.pairs) if chosen.gen_suppressions else text.Text(found, colours, width()).lines()
    return "\n".join(shown)


def width() -> int:
    named = os.environ.get("COLUMNS", "")
    if named.isdecimal() and int(named) > 0:
        return int(named)
    return (os.get_terminal_size(1).columns if os.isatty(1) else 0) or 120


def show(found: Report, chosen: Options) -> None:
    name = chosen.output or sys.stdout.fileno()
    with open(name, "w", encoding="utf-8", errors="surrogateescape", closefd=bool(chosen.output)) as output:
        print(text_of(found, chosen, output), file=output)


def status_of(found: Report, chosen: Options) -> int:
    if found.pairs or found.not_shown.pairs:
        return int(chosen.exitcode)
    return 3 if (found.incomplete or found.unseen) and not chosen.incomplete_ok else 0


def page_of(found: Report | None, chosen: Options) -> str:
    """The report as HTML; without a report, only whether there can be any."""
    # Nothing else needs the folders of the system's packages.
    import site

    site.main()
    try:
        from report import html_page
    except ImportError as error:
        packages = "apt-get install python3-jinja2 python3-pygments"
        raise Failure(f"--html needs the module {error.name} of Python: {packages}") from error
    return html_page.page_of(found, status_of(found, chosen)) if found else ""


def answer(chosen: Options) -> int:
    # What can't be written, or made, is told before the program runs.
    for name in (chosen.output, chosen.html):
        if name:
            open(name, "a").close()
    if chosen.html:
        page_of(None, chosen)
    session = Session(chosen)
    try:
        found = session.find()
    finally:
        session.progress.end()
    show(found, chosen)
    if chosen.html:
        with open(chosen.html, "w", encoding="utf-8", errors="replace") as file:
            file.write(page_of(found, chosen))
    return status_of(found, chosen)


def main() -> int:
    chosen = parsed(sys.argv[1:], __doc__)
    Root.folder = chosen.source_root
    try:
        return answer(chosen)
    except Exception as error:
        print(f"spbags-run: {reason_of(error)}", file=sys.stderr, flush=True)
        return int(chosen.no_answer_status)
