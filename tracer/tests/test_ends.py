#!/usr/bin/env python3
"""A program that writes its trace: where that goes, what fails, and all ways to end."""
import os
import re
import signal
import subprocess
import sys
import time
from collections import Counter

sys.dont_write_bytecode = True
import cases
from cases import CC, SPBAGS_LINES, TESTS, TRACER, TracerTest, line_of, size_of

ENDS, WAYS_OUT, MANY = (os.path.join(TESTS, name + ".c") for name in ("ends", "ways_out", "many"))
BEFORE = ", and the trace has what came before"
FAULT, ABORT, TRAP, TERMINATE = (-number for number in (signal.SIGSEGV, signal.SIGABRT, signal.SIGILL, signal.SIGTERM))
# The ways of tests/ends.c to end: the status, and a line. Main calls run, which spawns end, which calls nest, and that
# spawns 70,000 more, each in the one before.
WAYS = {"fault": (FAULT, f"the program ends by signal 11 (Segmentation fault){BEFORE}"),
        "abort": (ABORT, f"the program ends by signal 6 (Aborted){BEFORE}"),
        "trap": (TRAP, f"the program ends by signal 4 (Illegal instruction){BEFORE}"),
        "stack": (FAULT, "the program needs more stack than its limit"),
        "deep": (FAULT, "the program needs more stack than its limit"),
        "terminate": (TERMINATE, f"the program ends by signal 15 (Terminated){BEFORE}"),
        "usual": (TERMINATE, f"the program ends by signal 15 (Terminated){BEFORE}"),
        "thread": (0, ""), "daemon": (0, f"the program becomes a daemon{BEFORE}"), "_exit": (3, ""), "_Exit": (3, ""),
        "quick_exit": (3, ""), "exec": (3, f"the program becomes another one by exec{BEFORE}"),
        "no_exec": (0, "the exec failed, and what comes after it isn't in the trace"),
        "nest": (0, "procedures nest 70003 deep, so spbags needs --depth 70003"), "copy": (0, "")}
# So many locations are written equally often in its way `filled`.
CELLS = 1 << 13
LIMIT = 100000


class TraceTest(TracerTest):
    def check(self, *words):
        return self.run_command(os.environ["SPBAGS"], "check", *words)

    def is_no_trace(self, name):
        self.assertEqual(2, self.check(name).status)

    def printed_by(self, words, **settings):
        """What a command of bash prints that gets the program as its first word."""
        done = subprocess.run(["bash", "-c", words, "bash", "./many"], stdout=subprocess.PIPE,
                              env={**os.environ, **settings})
        return done.stdout


class OutputsTest(TraceTest):
    def setUp(self):
        super().setUp()
        self.build("many", MANY, "-w")

    def test_failing(self):
        for pattern, settings in (
                ("cannot write /dev/full: No space left on device", {"SPBAGS_TRACE": "/dev/full", "SPBAGS_PLACES": ""}),
                ("cannot open ./no/run.trace", {"SPBAGS_TRACE": "./no/run.trace"}),
                ("SPBAGS_TRACE: descriptor 9: Bad file descriptor", {"SPBAGS_TRACE": "fd:9"}),
                ("expected fd:N, with the number N of an open descriptor above 2", {"SPBAGS_TRACE": "fd:1"}),
                ("SPBAGS_UNIT=3: expected 1, 2, 4 or 8", {"SPBAGS_TRACE": "run.trace", "SPBAGS_UNIT": "3"}),
                ("SPBAGS_VERSION=3: expected 1 or 2", {"SPBAGS_TRACE": "run.trace", "SPBAGS_VERSION": "3"}),
                ("SPBAGS_MAX_BYTES=0: expected a number of bytes, at least 1",
                 {"SPBAGS_TRACE": "run.trace", "SPBAGS_MAX_BYTES": "0"})):
            with self.subTest(pattern):
                self.ends_with(2, pattern, "./many", **settings)

    def test_cut_traces(self):
        with self.subTest("a full device for the places"):
            self.ends_with(2, "cannot write /dev/full: No space left on device", "./many", SPBAGS_TRACE="run.trace",
                           SPBAGS_PLACES="/dev/full")
            self.is_no_trace("run.trace")
        with self.subTest("a closed pipe"):
            self.ends_with(2, "cannot write fd:3: Broken pipe", "bash", "-c", '"$1" 3> >(exec head -c 1 >/dev/null)',
                           "bash", "./many", SPBAGS_TRACE="fd:3")
        with self.subTest("a file that is too large"):
            self.ends_with(2, "cannot write short.trace.*: File too large", "bash", "-c", 'ulimit -f 100; "$1"', "bash",
                           "./many", SPBAGS_TRACE="short.trace")
            self.is_no_trace("short.trace")

    def test_pipes(self):
        """A trace comes through a pipe as it comes into a file."""
        self.run_command("./many", SPBAGS_TRACE="run.trace")
        with open("run.trace", "rb") as file:
            trace = file.read()
        with self.subTest("a descriptor"):
            self.assertEqual(trace, self.printed_by('"$1" 3>&1 >/dev/null', SPBAGS_TRACE="fd:3"))
        with self.subTest("standard output"):
            self.assertEqual(trace, self.printed_by('"$1"', SPBAGS_TRACE="-"))

    def test_settings(self):
        with self.subTest("help"):
            rows = [self.run_command(os.path.join(TRACER, "settings"), *words).out for words in ((), ("openmp",))]
            wanted = re.findall(r"^\| `(SPBAGS_\w+)`.*\| (.*) \|$", "".join(rows), re.MULTILINE)
            said = re.findall("^(SPBAGS_\\w+): (.*)$", self.run_command("./many", SPBAGS_HELP="1").out, re.MULTILINE)
            self.assertEqual(wanted, said)
        self.build("traced", MANY, "-w", "--trace")
        with self.subTest("no trace"):
            self.ends_with(0, "SPBAGS_TRACE isn't set", "./traced")
        with self.subTest("no trace and no report"):
            self.ends_with(2, "no detector inside: link without --trace", "./traced", SPBAGS_EXITCODE="1")
        with self.subTest("accesses narrower than the unit"):
            # Else one hook notes all that the loop accesses, which fills the units.
            self.build("single", MANY, "-w", "-O0")
            self.ends_with(0, "accesses .* SPBAGS_UNIT=4", "./single", SPBAGS_TRACE="run.trace", SPBAGS_UNIT="8")


class WaysOutTest(TraceTest):
    def setUp(self):
        super().setUp()
        self.build("ways_out", WAYS_OUT, "-w")

    def test_source_lines(self):
        """Those of a trace that went through a pipe."""
        words = f'./ways_out 2>/dev/null | "$SPBAGS" check - | {SPBAGS_LINES} --brief ./ways_out run.places'
        said = self.run_command("bash", "-c", words, SPBAGS_TRACE="-", SPBAGS_PLACES="run.places").out
        one, other = (f"{WAYS_OUT}:{line_of(WAYS_OUT, tag)}" for tag in ("[child]", "[parent]"))
        self.assertEqual(f"1 {one} {other}\n", said)

    def test_ways(self):
        with self.subTest("exit inside a child"):
            self.ends_with(3, "", "./ways_out", "exit", SPBAGS_TRACE="run.trace")
            self.assertEqual(0, self.check("run.trace").status)
        with self.subTest("a thread"):
            self.ends_with(2, "the program starts a thread", "./ways_out", "thread", SPBAGS_TRACE="run.trace")
            self.is_no_trace("run.trace")
        with self.subTest("a copy of the process"):
            self.ends_with(0, "", "./ways_out", "fork", SPBAGS_TRACE="run.trace")
            self.assertEqual("races 1", self.check("run.trace").out.partition("\n")[0])


class EndsTest(TraceTest):
    def setUp(self):
        super().setUp()
        self.build("ends", ENDS, "-w")

    def has_race(self, *words):
        checked = self.check(*words, "run.trace")
        self.assertEqual(1, checked.status, checked.errors)
        self.write("report", checked.out)
        said = self.run_command(SPBAGS_LINES, "--brief", "./ends", "run.trace", "report").out
        one, other = (f"{ENDS}:{line_of(ENDS, tag)}" for tag in ("[first]", "[second]"))
        self.assertEqual(f"1 {one} {other}\n", said)

    def test_ways(self):
        for way, (status, line) in WAYS.items():
            with self.subTest(way):
                self.ends_with(status, re.escape(line), "./ends", way, SPBAGS_TRACE="run.trace")
                self.has_race(*(("--depth", "70003") if way == "nest" else ()))

    def test_ways_of_plain_runs(self):
        for way, (status, line) in WAYS.items():
            with self.subTest(way):
                self.ends_with(status, re.escape(line), "./ends", way, SPBAGS_TRACE="run.trace", SPBAGS_PLACES="")
                checked = self.check("--depth", "70003", "run.trace")
                self.assertEqual("races 1", checked.out.partition("\n")[0], checked.errors)

    def test_last_strand(self):
        """All of its records go out where there is no stack for that, and as many places."""
        for places in ("run.trace.places", ""):
            with self.subTest(places=places):
                self.ends_with(*WAYS["stack"], "./ends", "filled", SPBAGS_TRACE="run.trace", SPBAGS_PLACES=places)
                with open("run.trace", encoding="ascii") as trace:
                    times = Counter(trace)
                often, cells = Counter(times.values()).most_common(1)[0]
                self.assertLess(1, often)
                self.assertLessEqual(CELLS, cells)
                if places:
                    with open(places, "rb") as file:
                        file.seek(-56, os.SEEK_END)
                        self.assertEqual(times.total() - 1, int.from_bytes(file.read(8), "little"))

    def test_signals(self):
        """Again and again, since one may come at any point."""
        for after in (0, 0.01, 0.02, 0.03, 0.04, 0.05):
            for places in ("late.trace.places", ""):
                with self.subTest(after, places=places):
                    self.assertEqual(TERMINATE, self.ended_from_outside(signal.SIGTERM, after, "./ends", "late.trace",
                                                                        SPBAGS_MAX_BYTES="1000000000",
                                                                        SPBAGS_TRACE="late.trace",
                                                                        SPBAGS_PLACES=places))
                    self.assertEqual(1, self.check("late.trace").status)

    def test_slow_children(self):
        """In a plain run. The timer finds the program in the same place again and again."""
        done = self.ends_with(0, "", "./ends", "compute", SPBAGS_TRACE="run.trace", SPBAGS_PLACES="",
                              SPBAGS_PATIENCE="1")
        self.assertNotIn("has touched no new memory", done.errors)

    def test_signal_among_blocks(self):
        self.ends_among_blocks("./ends", SPBAGS_TRACE="blocks.trace")

    def test_endless_waits(self):
        """The line has a command that prints where the program waits."""
        for way, tag in (("spin", "[spins]"), ("wait", "[waits]")):
            with self.subTest(way):
                self.assertEqual(line_of(ENDS, tag), self.line_of_wait(way))

    def line_of_wait(self, way):
        env = {**os.environ, "SPBAGS_PATIENCE": "1", "SPBAGS_TRACE": "run.trace"}
        line = re.compile("for ever, since the run is serial. It is here: (.*)\n")
        with open("errors", "w", encoding="utf-8") as errors, \
                subprocess.Popen(["./ends", way], stderr=errors, env=env) as run:
            end = time.monotonic() + cases.LONG
            while not (found := line.search(self.read("errors"))):
                self.assertLess(time.monotonic(), end)
                time.sleep(0.01)
            run.kill()
        return int(re.search("ends.c:([0-9]+)", self.run_command(*found[1].split()).out)[1])

    def test_limits(self):
        self.succeeds(CC, "-shared", "-fPIC", "-o", "small_disk.so", "tracer/tests/small_disk.c")
        for name, settings in (("SPBAGS_MAX_BYTES", {"SPBAGS_MAX_BYTES": str(LIMIT)}),
                               ("a quarter of the free space", {"LD_PRELOAD": os.path.abspath("small_disk.so")})):
            with self.subTest(name):
                self.ends_with(2, f"the trace has reached its limit of {LIMIT} bytes", "./ends", "long",
                               SPBAGS_TRACE="run.trace", **settings)
                self.has_race()
                self.assertAlmostEqual(LIMIT, size_of("run.trace"), delta=100)


if __name__ == "__main__":
    cases.main()
