#!/usr/bin/env python3
"""The detector inside: how a run ends, memory that is refused, the library alone, and where the report goes."""
import itertools
import os
import re
import signal
import sys

sys.dont_write_bytecode = True
import cases
from cases import CC, TESTS, TRACER, TracerTest, needs_detector, size_of
from report import checker_answers

BEFORE = ", and the report has what came before"
FAULT, ABORT, TRAP, TERMINATE, KILL = (-number for number in (signal.SIGSEGV, signal.SIGABRT, signal.SIGILL,
                                                              signal.SIGTERM, signal.SIGKILL))
# The ways of tests/ends.c to end: the status, and a line.
ENDS = {"fault": (FAULT, f"the program ends by signal 11 (Segmentation fault){BEFORE}"),
        "abort": (ABORT, f"the program ends by signal 6 (Aborted){BEFORE}"),
        "trap": (TRAP, f"the program ends by signal 4 (Illegal instruction){BEFORE}"),
        "terminate": (TERMINATE, f"the program ends by signal 15 (Terminated){BEFORE}"),
        "usual": (TERMINATE, f"the program ends by signal 15 (Terminated){BEFORE}"),
        "thread": (0, ""), "daemon": (0, f"the program becomes a daemon{BEFORE}"), "_exit": (3, ""), "_Exit": (3, ""),
        "quick_exit": (3, ""), "exec": (3, f"the program becomes another one by exec{BEFORE}"),
        "no_exec": (0, "the exec failed, and what comes after it isn't in the report"), "nest": (0, ""),
        "copy": (0, "")}
# Those of tests/ways_out.c.
WAYS = {"exit": (3, ""), "fork": (0, "the program forks, and the report is of its first process only")}
# What tests/steps.c prints, by the definitions.
STEPS = """races 1
race 5 write 2 write 4
races 1
race 18446744073709551615 write 2 write 4
races 1
race 5 write 2 write 4
races 2
race 128 write 2 read 5
race 254 write 3 read 68
races 1
race 130 write 4 write 8
"""
# Units whose sites take turns, some more than others, with some left out.
TURNS = """#include <cilk/cilk.h>
static int cells[6001];
static long long wide[3000];
static void set(unsigned random, int step) {
    for (int i = 0; i < 6000; i += step) {
        random = 1664525 * random + 1013904223;
        if (random >> 30 < step)
            cells[i] = 1;
        else if (random >> 28 < 15)
            cells[i] = 2;
        else if (random >> 26 < 62 || i < 3000)
            cells[i + 1] = 3;
        else
            cells[i] = 4;
        if (random >> 31)
            wide[i / 2] = i;
        else if (random >> 29 & 1)
            wide[i / 2] += wide[i / 3];
    }
}
int main(void) {
    for (int step = 1; step < 4; step++) {
        cilk_spawn set(step, step);
        cilk_sync;
    }
}
"""


@needs_detector
class InsideTest(TracerTest):
    def is_trace_report(self, program, way, status, line):
        """The run ends so with a trace and with a report, which is that of the trace."""
        traced = self.run_command(program, way, SPBAGS_TRACE="run.trace", SPBAGS_PLACES="", SPBAGS_REPORT="")
        self.assertEqual(status, traced.status)
        wanted = self.run_command(os.environ["SPBAGS"], "check", "--depth", "1000000", "run.trace").out
        self.assertTrue(wanted)
        self.ends_with(status, re.escape(line), program, way, SPBAGS_TRACE="", SPBAGS_PLACES="",
                       SPBAGS_REPORT="run.races")
        self.assertEqual(wanted, self.read("run.races"))

    def has_no_report(self, status, pattern, *words, **settings):
        self.ends_with(status, pattern, *words, SPBAGS_REPORT="report", **settings)
        self.assertEqual(0, size_of("report"))


class EndsTest(InsideTest):
    def setUp(self):
        super().setUp()
        self.build("ends", os.path.join(TESTS, "ends.c"), "-w")
        self.build("ways", os.path.join(TESTS, "ways_out.c"), "-w")

    def test_ends(self):
        for program, ways in (("./ends", ENDS), ("./ways", WAYS)):
            for way, (status, line) in ways.items():
                with self.subTest(way):
                    self.is_trace_report(program, way, status, line)
        with self.subTest("a thread"):
            self.has_no_report(2, "the program starts a thread", "./ways", "thread")

    def test_used_up_stack(self):
        """It may be used up inside the detector too, and then there is no report."""
        done = self.ends_with(FAULT, "the program needs more stack than its limit", "./ends", "stack",
                              SPBAGS_REPORT="report")
        if "by signal 11 (Segmentation fault) inside the detector, so there is no report" in done.errors:
            self.assertEqual(0, size_of("report"))
        else:
            self.assertIn("and the report has what came before", done.errors)
            self.assertEqual("races 1", self.read("report").partition("\n")[0])

    def test_used_up_stack_at_wait(self):
        """The detector has got a bundle then, and the next one isn't there yet."""
        self.succeeds(CC, "-shared", "-fPIC", "-o", "deep_wait.so", "tracer/tests/deep_wait.c")
        for places in ("run.places", ""):
            with self.subTest(places=places):
                self.has_no_report(FAULT, "inside the detector, so there is no report", "./ends", "filled",
                                   LD_PRELOAD=os.path.abspath("deep_wait.so"), SPBAGS_PLACES=places)

    def test_statuses(self):
        """The race gives the status that SPBAGS_EXITCODE says, however the program ends."""
        for way in ("return", "fault", "abort", "trap", "terminate", "thread", "daemon", "_exit", "_Exit", "quick_exit",
                    "exec", "no_exec", "copy"):
            with self.subTest(way):
                self.ends_with(77, "", "./ends", way, SPBAGS_EXITCODE="77", SPBAGS_REPORT="run.races")
                self.assertEqual("races 1", self.read("run.races").partition("\n")[0])
        with self.subTest("zero"):
            self.ends_with(0, "", "./ends", "_exit", SPBAGS_EXITCODE="0", SPBAGS_REPORT="run.races")
        with self.subTest("no race"):
            self.write("seven.c", "int main(void) { return 7; }\n")
            self.build("seven", "seven.c")
            self.ends_with(7, "", "./seven", SPBAGS_EXITCODE="77", SPBAGS_REPORT="run.races")
        with self.subTest("no report"):
            self.ends_with(2, "", "./ways", "thread", SPBAGS_EXITCODE="77", SPBAGS_REPORT="run.races")
        for status in ("-1", "256", "x"):
            with self.subTest(status):
                self.ends_with(2, f"SPBAGS_EXITCODE={status}: expected a status from 0 to 255", "./ends",
                               SPBAGS_EXITCODE=status)

    def ended_by(self, number, after):
        """The status, and the report's first line."""
        self.write("report", "")
        status = self.ended_from_outside(number, after, "./ends", "late.places", SPBAGS_REPORT="report",
                                         SPBAGS_PLACES="late.places")
        return status, self.read("report").partition("\n")[0]

    def test_signals(self):
        for after in (0, 0.01, 0.02, 0.03):
            with self.subTest(after):
                self.assertEqual((TERMINATE, "races 1"), self.ended_by(signal.SIGTERM, after))
        with self.subTest("kill"):
            self.assertEqual((KILL, ""), self.ended_by(signal.SIGKILL, 0))

    def test_signal_among_blocks(self):
        """The program's heap may be locked then."""
        self.ends_among_blocks("./ends", SPBAGS_REPORT="blocks.races")


class RefusedTest(InsideTest):
    LINE = ("spbags: out of memory: the detector needs more than the system gives, so the run ends here without a "
            "report\n")

    def setUp(self):
        super().setUp()
        self.build("racy", "fib.c", "-DRACY")
        refusing = os.path.join(TRACER, "..", "checks", "refusing.c")
        self.succeeds(CC, "-shared", "-fPIC", "-o", "refusing.so", refusing, "-ldl")

    def run_refused(self, *settings):
        """With a letter for each growth in a file of the descriptor 3. The program alone gets the settings."""
        return self.run_command("bash", "-c", 'exec "$@" 3>letters', "bash", "env", "LD_PRELOAD=./refusing.so",
                                "SPBAGS_REPORT=report", *settings, "./racy")

    def test_memory(self):
        """Each growth is refused in turn, up to the run that asks for no more. A run that met a refusal ends with a
        line and without a report; or the detector could do without, and the report is whole."""
        self.run_command("./racy", SPBAGS_REPORT="wanted")
        wanted, refused = self.read("wanted"), 0
        for growth in itertools.count(1):
            self.write("report", "")
            done = self.run_refused(f"REFUSED_FROM={growth}", f"REFUSED_TO={growth}")
            if done.status == 2:
                self.assertEqual(("", self.LINE), (self.read("report"), done.errors))
                refused += 1
                continue
            self.assertEqual((0, wanted), (done.status, self.read("report")))
            if "w" not in self.read("letters"):
                break
        self.assertGreater(refused, 3)

    def test_thread(self):
        self.write("report", "")
        done = self.run_refused("REFUSED_START=1")
        self.assertEqual(2, done.status)
        self.assertRegex(done.errors, "the thread of the detector can.t be started: Resource temporarily unavailable")
        self.assertEqual(0, size_of("report"))


class InterruptedTest(InsideTest):
    """A handler of a signal after each instruction of an access or of a function's entry: its write has a race, and
    there is no other, or the run says that it ends."""
    REFUSED = re.compile("a signal handler of the program interrupted the (detector|tracer), so the run ends here|"
                         "inside the detector, so there is no report")
    PLACES = ("", "/dev/null")
    # What a run says whose handler didn't run.
    NONE = (0, "races 0", False)
    # A shell starts so many runs in less time than Python.
    AT_ONCE = 50
    EACH = 'for step in $(seq "$1" "$2"); do ./interrupted "$3" "$step" "${@:4}" 2>&1; echo "status $?"; done'

    def setUp(self):
        super().setUp()
        source = os.path.join(TESTS, "interrupted.c")
        self.succeeds(CC, "-O1", "-mno-red-zone", "-DPLAIN", "-c", "-o", "plain.o", source)
        self.build("interrupted", source, "plain.o")

    def said_at(self, word, steps, *more, **settings):
        """What each of the runs with these steps says, and its status."""
        done = self.run_command("bash", "-c", self.EACH, "bash", str(steps[0]), str(steps[-1]), word, *more, **settings)
        found = re.findall("(.*?)status ([0-9]+)\n", done.out, re.DOTALL)
        self.assertEqual(len(steps), len(found), done.errors)
        return [(said, int(status) if int(status) < 128 else 128 - int(status)) for said, status in found]

    def runs_of(self, word, steps, *more, places):
        """What comes of so many steps, or of fewer where nothing is left to interrupt, time and again."""
        found = set()
        for first in range(0, steps, self.AT_ONCE):
            some = self.said_at(word, range(steps)[first:first + self.AT_ONCE], *more, SPBAGS_PLACES=places)
            runs = {(status, *re.findall("^races .*", said, re.MULTILINE), bool(self.REFUSED.search(said)))
                    for said, status in some}
            found |= runs
            if runs == {self.NONE}:
                break
        return found

    def test_steps(self):
        for word, steps in (("one", 400), ("two", 400), ("local", 400), ("end", 60)):
            for places in self.PLACES:
                with self.subTest(word, places=places):
                    runs = self.runs_of(word, steps, places=places)
                    self.assertEqual({(1, "races 1", False)}, runs - {self.NONE, (2, True)})

    def test_ends(self):
        """The handler ends the program, with a report of what came before or without one."""
        for way, status in (("exit", 7), ("abort", ABORT), ("trap", TRAP), ("stack", FAULT)):
            for places in self.PLACES:
                with self.subTest(way, places=places):
                    runs = self.runs_of("end", 300, way, places=places)
                    self.assertLessEqual(runs, {(status, "races 0", False), (status, True), (2, True)})
                    self.assertLess({(status, "races 0", False)}, runs)

    def test_jumps(self):
        """An access that a jump leaves behind may hide another one, and a line says so."""
        for said, _ in self.said_at("any", range(100), "jump"):
            self.assertIn("this jump leaves the handler of a signal", said)


class LibraryTest(InsideTest):
    def test_steps(self):
        archive = os.path.join(TRACER, "..", "crates", "inside", "out", "libinside.a")
        self.succeeds(CC, "-o", "steps", "tracer/tests/steps.c", archive)
        self.assertEqual(STEPS, self.run_command("./steps").out)

    def test_memory_of_locals(self):
        """The locals of a million calls have had their turn, and few at once: the run has less than 24 MB."""
        self.build("locals", "fib.c", "-DN=30")
        self.assertLess(self.peak("./locals", SPBAGS_REPORT="/dev/null"), 24000)


class OutputsTest(InsideTest):
    def setUp(self):
        super().setUp()
        self.build("racy", "fib.c", "-DRACY")
        self.run_command("./racy", SPBAGS_REPORT="wanted")
        self.wanted = self.read("wanted")

    def sites_of(self, program, output, **settings):
        """The code of each record, and whether it is a narrow access."""
        self.run_command("./" + program, SPBAGS_PLACES="run.places", **{output: "/dev/null"}, **settings)
        places = checker_answers.places_of("run.places")
        return [places.site(place)[:2] for place in range(1, places.count + 1)]

    def test_sites(self):
        """A record has one site, whoever keeps it: the detector's thread, as the program goes the short way or not, or
        who writes the trace."""
        self.write("turns.c", TURNS)
        for program in ("cilksort", "fib", "traps", "turns"):
            self.build(program, program + ".c", "-w", "-DRACY")
            with self.subTest(program):
                wanted = self.sites_of(program, "SPBAGS_TRACE", SPBAGS_LAST="1000000000")
                self.assertLess(100, len(wanted))
                self.assertEqual(wanted, self.sites_of(program, "SPBAGS_TRACE"))
                self.assertEqual(wanted, self.sites_of(program, "SPBAGS_REPORT"))

    def test_outputs(self):
        with self.subTest("a file"):
            self.assertEqual("races 88", self.wanted.partition("\n")[0])
        for name, words, settings in (("a descriptor", '"$@" 3>&1 >/dev/null', {"SPBAGS_REPORT": "fd:3"}),
                                      ("standard output", '"$@" 2>/dev/null', {"SPBAGS_REPORT": "-"})):
            with self.subTest(name):
                self.assertEqual(self.wanted, self.run_command("bash", "-c", words, "bash", "./racy", **settings).out)
        with self.subTest("source lines"):
            self.run_command("./racy", SPBAGS_REPORT="report", SPBAGS_PLACES="run.places")
            said = self.run_command(cases.SPBAGS_LINES, "--brief", "./racy", "run.places", "report").out
            self.assertEqual(cases.Example("fib.c").races(), said.replace("fib.c:", "").splitlines())
        with self.subTest("SPBAGS_TRACE still writes the trace"):
            os.unlink("report")
            self.run_command("./racy", SPBAGS_REPORT="report", SPBAGS_TRACE="run.trace")
            self.assertEqual(self.wanted, self.run_command(os.environ["SPBAGS"], "check", "run.trace").out)
            self.assertFalse(os.path.exists("report"))

    def test_standard_error(self):
        """It has 20 races and the number of the others, and behind them the command that shows the source lines."""
        lines, last = self.wanted.splitlines(), "spbags: for the source lines: spbags-run -- ./"
        for words, wanted in ((["./racy"], last + "racy"), (["./racy", "12"], last + "racy ..")):
            self.assertEqual([*lines[:21], "spbags: 68 more races: SPBAGS_REPORT=FILE writes all into a file", wanted],
                             self.run_command(*words).errors.splitlines())
        self.build("few", "fib.c", "-DRACY", "-DN=4")
        self.run_command("./few", SPBAGS_REPORT="few.races")
        self.assertEqual([*self.read("few.races").splitlines(), last + "few"], self.run_command("./few").errors.splitlines())

    def test_silence(self):
        """Where nothing was a child the report says something only if it is asked for, or beside a line."""
        self.write("serial.c", "#include <stdlib.h>\nint main(int count, char **words) {\n"
                               "    char at[] = {'0', 0};\n"
                               "    count > 1 ? abort() : exit(*words[0] - '.' + at[1]);\n}\n")
        self.build("serial", "serial.c")
        with self.subTest("nothing"):
            self.assertEqual((0, "", ""), self.run_command("./serial"))
        with self.subTest("a report that is asked for"):
            self.assertEqual("races 0\n", self.run_command("./serial", SPBAGS_REPORT="-").out)
        with self.subTest("a line"):
            self.ends_with(ABORT, rf"by signal 6 \(Aborted\){BEFORE}\nraces 0\n$", "./serial", "abort")
        with self.subTest("a child without a race"):
            self.build("clean", "fib.c")
            self.assertEqual("races 0\n", self.run_command("./clean").errors)

    def test_failing(self):
        for name, pattern in (("/dev/full", "cannot write /dev/full: No space left on device"),
                              ("./no/report", "cannot open ./no/report"),
                              ("fd:9", "SPBAGS_REPORT: descriptor 9: Bad file descriptor")):
            with self.subTest(name):
                self.ends_with(2, pattern, "./racy", SPBAGS_REPORT=name)
        with self.subTest("a closed pipe"):
            self.ends_with(2, "cannot write fd:3: Broken pipe", "bash", "-c", 'exec 3> >(exec true); wait $!; "$@"',
                           "bash", "./racy", SPBAGS_REPORT="fd:3")
        with self.subTest("a file that is too large"):
            self.ends_with(2, "cannot write report: File too large", "bash", "-c", 'ulimit -f 1; "$@"', "bash",
                           "./racy", SPBAGS_REPORT="report")
            self.assertNotEqual(0, self.run_command(os.environ["SPBAGS"], "merge", "report").status)


if __name__ == "__main__":
    cases.main()
