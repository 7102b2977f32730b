"""Runs of a traced program: with its trace into `spbags check`, and with a look at the races' places."""
from __future__ import annotations

import os
import time
from _thread import TIMEOUT_MAX

from processes import USUAL, Process, fix_addresses, memory_file, signal
from report.failure import Failure
from report.program_input import Input
from report.progress import Progress
from report.record_pipe import RecordPipe

TYPE_CHECKING = False
if TYPE_CHECKING:
    from collections.abc import Callable, Iterable
    from typing import BinaryIO

    from report.checker_answers import Race
    from report.outcome import Run

# What each report needs is imported while the program runs, so that nobody waits for it.
MEANWHILE = ("report.outcome", "report.result", "report.ending")
# What the hooks of a program have in them that says such records, and those with the detector inside.
MARK, INSIDE = b"SPBAGS_RECORDS", b"SPBAGS_INSIDE"
MOST_DEPTH = "1000000"
# What the environment of each run has.
OWN = "PLACES TRACE REPORT EXITCODE LOOK DIVIDE LAST WAITED OTHERS PROGRESS HELP ROOM"
OURS = [f"SPBAGS_{name}" for name in OWN.split()]


def checker() -> str:
    """The program `spbags`, which SPBAGS names, or else the one that is built or installed here."""
    import installation

    named = os.environ.get("SPBAGS") or installation.PROGRAM
    if not os.access(named, os.X_OK) or not os.path.isfile(named):
        raise Failure(
            "spbags isn't built: run ./build in its repository, which takes some ten minutes, or set SPBAGS to "
            "the program"
        )
    return os.path.realpath(named)


def program_named(name: str) -> str | None:
    """The file that a command of this name starts, or None."""
    names = [name] if os.path.dirname(name) else [os.path.join(folder, name) for folder in os.get_exec_path()]
    return next((found for found in names if os.path.isfile(found) and os.access(found, os.X_OK)), None)


def traceable(name: str) -> tuple[str, bool]:
    """The program of this name, if spbags-cc has compiled it, and whether the detector is inside."""
    found = program_named(name)
    if not found:
        raise Failure(f"{name}: there is no such program")
    with open(found, "rb") as file:
        code = file.read()
    if MARK not in code:
        raise Failure(f"{name}: this isn't a program that spbags-cc has compiled")
    return found, INSIDE in code


def length_of(environment: Iterable[tuple[str, str]]) -> int:
    return sum(len(os.fsencode(name)) + len(os.fsencode(value)) + 2 for name, value in environment)


# What may come while a process runs. It is pending until it is asked for. A terminal's signals are the program's too.
AWAITED = {signal.SIGCHLD, signal.SIGINT, signal.SIGTERM}
# What may be ignored here: Python does that, and who starts a command in the background.
HANDLED = (*USUAL, signal.SIGINT)


def wait_for(
    process: Process,
    seconds: float | None = None,
    hears: Callable[[signal.struct_siginfo], bool] = lambda came: came.si_code <= 0,
) -> int | None:
    """Waits until the process has ended, which gives None; until such a signal has come, which gives its number; or, as
    0, until the time is over."""
    end = time.monotonic() + (TIMEOUT_MAX if seconds is None else seconds)
    while process.poll() is None:
        left = end - time.monotonic()
        if left <= 0:
            return 0
        came = signal.sigtimedwait(AWAITED, left)
        if came and came.si_signo != signal.SIGCHLD and hears(came):
            return came.si_signo
    return None


def file_of(numbers: list[int]) -> BinaryIO:
    """A file with these, of 8 bytes each."""
    import struct

    file = memory_file()
    file.write(struct.pack(f"<{len(numbers)}Q", *numbers))
    file.flush()
    return file


def stops_of(races: Iterable[Race]) -> BinaryIO:
    """The races as a program takes them that looks at their places: the number of races, then by locations the location
    and twice the place of each access, and one more if it writes; then of each access, by places, the place and the
    number of its race."""
    ordered = sorted(races)
    numbers = [len(ordered)]
    for race in ordered:
        numbers += [race.location, *(2 * access.place + (access.kind == "write") for access in race.accesses)]
    stops = sorted((access.place, number) for number, race in enumerate(ordered) for access in race.accesses)
    return file_of([*numbers, *(number for stop in stops for number in stop)])


class Runner:
    """Runs one program, again and again with the same words and the same input."""

    ROOM = 1 << 14
    # What ends a program that others don't end: the hooks' own signal, and the system's; and how many seconds it has.
    OTHER_ENDS = ((63, 60), (signal.SIGKILL, None))
    PATIENCE = 5

    def __init__(
        self,
        words: list[str],
        checking: list[str],
        settings: dict[str, str],
        output: dict[int, int],
        seconds: float | None,
        tell: Callable[[str], None],
        progress: Progress,
    ) -> None:
        """The program may run for so many seconds, or for ever; its lines that can't wait go to the function `tell`. By
        their numbers, its output goes to other descriptors."""
        program, self.is_inside = traceable(words[0])
        self.words, self.settings, self.output = [program, *words[1:]], settings, output
        self.checking, self.tell, self.progress = checking, tell, progress
        self.limit = seconds
        self.mask = signal.pthread_sigmask(signal.SIG_BLOCK, AWAITED)
        fix_addresses()
        self.input = Input()
        self.has_run, self.number = False, 0
        # What each run gets beside its own files.
        self.files: dict[str, int] = {}

    def execute(
        self,
        pipe: RecordPipe,
        files: dict[str, int],
        silent: bool,
        settings: dict[str, str],
        races: int = 0,
        again: bool = False,
    ) -> Process:
        """Starts the program, whose lines about the run go into a pipe. It gets descriptors of these files, by the
        variables that name them. It looks at so many races; AGAIN says that another run follows if it finds some."""
        self.number += 1
        self.progress.begin(f"run {self.number}", f" of at least {self.number + 1}" if again else "", races)
        shown = {} if self.progress.file is None else {"SPBAGS_PROGRESS": self.progress.file}
        files = {**self.files, **files, **shown}
        given, nowhere = self.input.begin(), os.open(os.devnull, os.O_WRONLY)
        own = {0: given, **({1: nowhere, 2: nowhere} if silent else self.output)}
        passed = {file: file for file in (pipe.into, *files.values())}
        try:
            program = Process(
                self.words, {**own, **passed}, self.environment(pipe, files, settings), self.mask, HANDLED
            )
        except OSError as error:
            raise Failure(f"{self.words[0]}: {error.strerror}") from error
        finally:
            os.close(given)
            os.close(nowhere)
        pipe.start()
        for module in MEANWHILE:
            __import__(module)
        return program

    def environment(self, pipe: RecordPipe, files: dict[str, int], settings: dict[str, str]) -> dict[str, str]:
        """All runs have as long an environment, of as many variables: the program's words lie before it, and setenv
        makes a copy. The program's own come first, so that they lie at the same addresses."""
        ours = {
            "SPBAGS_MAX_BYTES": os.environ.get("SPBAGS_MAX_BYTES", ""),
            **dict.fromkeys(OURS, ""),
            **self.settings,
            **settings,
            "SPBAGS_SAYS": f"fd:{pipe.into}",
            **{variable: f"fd:{file}" for variable, file in files.items()},
        }
        wanted = {**{name: value for name, value in os.environ.items() if name not in ours}, **ours}
        return {**wanted, "SPBAGS_ROOM": "." * (self.ROOM + length_of(os.environ.items()) - length_of(wanted.items()))}

    def wait(self, program: Process, pipe: RecordPipe, answer: BinaryIO) -> Run:
        """The run, when the program has ended; but the answer may not be there yet."""
        from report.outcome import Run

        began = time.monotonic()
        number = wait_for(program, self.limit)
        cut = self.cut(number)
        # Other runs may take longer than the first one, but not for ever, which they may on another course.
        if not self.has_run:
            taken = time.monotonic() - began
            self.limit, self.has_run = 4 * taken + 10 if cut else 20 * taken + 60, True
        for end, patience in ((number or signal.SIGTERM, self.PATIENCE), *self.OTHER_ENDS):
            if program.returncode is None:
                program.send_signal(end)
                wait_for(program, patience, lambda came: False)
        self.input.end()
        return Run(program.wait(), cut, pipe.end(), answer, self.words[0])

    def cut(self, number: int | None) -> str | None:
        """Why the program is ended, by what `wait_for` gives."""
        if number is None:
            return None
        if number == 0:
            why = "which is much longer than the first run" if self.has_run else "as --timeout says"
            return f"the program was ended after {self.limit:.4g} seconds, {why}"
        return f"the program was ended by signal {number} ({signal.strsignal(number)}), which was sent to spbags-run"

    def found(
        self, keep: str | None, silent: bool, files: dict[str, int], settings: dict[str, str], again: bool = False
    ) -> Run:
        """A run and its report: by the detector inside, or where there is none or the trace is kept, by `spbags check`.
        Where the trace isn't kept, these files go to the program."""
        if keep:
            return self.kept(keep, silent, settings)
        if self.is_inside:
            return self.reported(silent, files, settings, again)
        return self.checked(silent, files, settings)

    def reported(self, silent: bool, files: dict[str, int], settings: dict[str, str], again: bool) -> Run:
        """A run whose detector is inside, and its report."""
        pipe, answer = RecordPipe(self.tell), memory_file()
        files = {"SPBAGS_REPORT": answer.fileno(), **files}
        run = self.wait(self.execute(pipe, files, silent, settings, again=again), pipe, answer)
        refuse_broken(run)
        if os.fstat(answer.fileno()).st_size == 0:
            how = run.ending() if run.status < 0 else f"the program ended with status {run.status}"
            raise Failure(f"{how}, and there is no report")
        return run

    def check(self, trace: str, source: int | None, answer: BinaryIO, faults: BinaryIO) -> Process:
        """`spbags check` of a trace, and the files of its report and of its faults."""
        command = [checker(), "check", "--depth", MOST_DEPTH, *self.checking, trace]
        files = {1: answer.fileno(), 2: faults.fileno(), **({} if source is None else {0: source})}
        return Process(command, files, os.environ, AWAITED, HANDLED)

    def kept(self, trace: str, silent: bool, settings: dict[str, str]) -> Run:
        """A run whose trace and places are kept, and the report."""
        pipe, answer, faults = RecordPipe(self.tell), memory_file(), memory_file()
        checker()
        settings = {**settings, "SPBAGS_TRACE": trace, "SPBAGS_PLACES": trace + ".places"}
        run = self.wait(self.execute(pipe, {}, silent, settings), pipe, answer)
        refuse_broken(run)
        return answered(run, self.check(trace, None, answer, faults), faults)

    def checked(self, silent: bool, files: dict[str, int], settings: dict[str, str]) -> Run:
        """A run whose trace goes through a pipe, and the report."""
        pipe, answer, faults = RecordPipe(self.tell), memory_file(), memory_file()
        out, into = os.pipe()
        check = self.check("-", out, answer, faults)
        os.close(out)
        program = self.execute(pipe, {"SPBAGS_TRACE": into, **files}, silent, settings)
        os.close(into)
        return answered(self.wait(program, pipe, answer), check, faults)

    def looked(self, races: list[Race], files: dict[str, int], settings: dict[str, str]) -> Run:
        """A run that looks at the places of these races, and its notes."""
        pipe, notes = RecordPipe(self.tell), memory_file()
        settings = {"SPBAGS_MAX_BYTES": str(1 << 62), **settings}
        with stops_of(races) as stops:
            files = {"SPBAGS_TRACE": notes.fileno(), "SPBAGS_LOOK": stops.fileno(), **files}
            program = self.execute(pipe, files, True, settings, races=len(races))
        return self.wait(program, pipe, notes)


def answered(run: Run, check: Process, faults: BinaryIO) -> Run:
    """The run with its report, when its checker has ended."""
    number = wait_for_checker(check)
    if number:
        raise Failure(f"{signal.strsignal(number)}: spbags was ended before it had an answer")
    faults.seek(0)
    fault = faults.read().decode(errors="replace").strip()
    if check.returncode not in (0, 1):
        explain_fault(run, fault or f"spbags ended with status {check.returncode}")
    return run


def wait_for_checker(check: Process) -> int | None:
    """A signal that comes meanwhile ends it, and gives its number."""
    while signal.sigtimedwait(AWAITED, 0):
        pass
    number = wait_for(check, None, lambda came: True)
    if number:
        check.send_signal(signal.SIGKILL)
        check.wait()
    return number


def refuse_broken(run: Run) -> None:
    """What a program that failed leaves in a file is no trace, and may be no file."""
    if run.faults:
        raise Failure(run.faults[0])


def explain_fault(run: Run, fault: str) -> None:
    """The program's fault says why the trace isn't whole; but not where the checker ended first."""
    own = [text for text in run.faults if text not in run.closed]
    if own:
        raise Failure(own[0])
    raise Failure(f"{run.ending()}, and its trace is incomplete" if run.status < 0 and not run.faults else fault)
