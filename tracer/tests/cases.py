"""What files of tests share: commands, the lines that tags name, the races of a program, and the count. Each test runs
in a folder of its own with the examples in it. Each `subTest` counts; one that fails is named with its last command.
SPBAGS names the checker, CC the compiler, LEVEL its level of optimization, INSIDE is set if the library of the
detector is there, and PROGRAMS names a folder for programs that several lists of tests have."""
import collections
import contextlib
import functools
import glob
import hashlib
import json
import os
import re
import shlex
import shutil
import signal
import subprocess
import sys
import tempfile
import time
import unittest

TESTS = os.path.dirname(os.path.realpath(__file__))
TRACER = os.path.dirname(TESTS)
# The modules of the tracer itself.
sys.path.insert(0, TRACER)
CC, LEVEL, INSIDE = os.environ.get("CC", "gcc"), os.environ.get("LEVEL", "-O1"), bool(os.environ.get("INSIDE"))
# What makes spbags-cc leave out a detector that isn't there.
DETECTOR = [] if INSIDE else ["--trace"]
# What is left out so isn't counted: tracer/check counts a detector that it wants and that isn't there.
WITHOUT_DETECTOR = "the program has no detector"
needs_detector = unittest.skipUnless(INSIDE, WITHOUT_DETECTOR)
# What is compiled without a level of its own is tried with the first one.
WITHOUT_LEVEL = "it is the same with each level"
once_of_levels = unittest.skipUnless(LEVEL == "-O1", WITHOUT_LEVEL)
SPBAGS_CC, SPBAGS_CPLUSPLUS, SPBAGS_RUN, SPBAGS_LINES = (
    os.path.join(TRACER, name) for name in ("spbags-cc", "spbags-c++", "spbags-run", "spbags-lines"))
Done = collections.namedtuple("Done", "status out errors")
# What the last line of a report says of how much there was.
EXTENT = re.compile(", [0-9,]+ spawns?, [0-9,]+ access(?:es)?")
# The even locations of a block.
BLOCK = 64
PEAK = """import resource, subprocess, sys
subprocess.run(sys.argv[1:], stdout=subprocess.DEVNULL, stderr=subprocess.DEVNULL, check=True)
print(resource.getrusage(resource.RUSAGE_CHILDREN).ru_maxrss)"""
# So many seconds pass only where something hangs, however busy the machine is.
LONG = 600


@functools.cache
def schema():
    """What each report in JSON is held against, if the library for it is here."""
    try:
        import jsonschema
    except ImportError:
        return None
    with open(os.path.join(TRACER, "report.schema.json"), encoding="utf-8") as file:
        return jsonschema.Draft202012Validator(json.load(file))


@functools.cache
def own_programs():
    return tempfile.TemporaryDirectory()


def kept_program(*command):
    """Where a program is, or is to be, that is compiled so."""
    made_by = [os.environ.get(name, "") for name in ("CC", "SPBAGS_CXX")]
    name = hashlib.sha256(" ".join([*made_by, *DETECTOR, *command]).encode()).hexdigest()
    return os.path.join(os.environ.get("PROGRAMS") or own_programs().name, name)


def size_of(name):
    return os.path.getsize(name) if os.path.exists(name) else 0


def lines_of(source, text):
    """The numbers of the lines that have this text."""
    with open(source, encoding="utf-8") as file:
        return [number for number, line in enumerate(file, 1) if text in line]


def last_line(text):
    """Without how much there was."""
    return EXTENT.sub("", text.splitlines()[-1])


def line_of(source, text):
    number, = lines_of(source, text)
    return number


@functools.cache
def lines_of_tags(source):
    with open(source, encoding="utf-8") as file:
        return {tag: number for number, text in enumerate(file, 1) for tag in re.findall(r"/\* (\[.*?\]) \*/", text)}


def compiler_of(source):
    return SPBAGS_CPLUSPLUS if source.endswith(".cpp") else SPBAGS_CC


def as_races(rows):
    """These numbers of locations and pairs of lines as `races_in` gives them."""
    return sorted(f"{many} {min(lines)} {max(lines)}" for many, *lines in rows)


def tagged_races(source, names="[a-z_]+"):
    """Those of a source by its tags `[BYTES NAME first]` and `[BYTES NAME second]` with such names."""
    with open(source, encoding="utf-8") as file:
        tags = [(number, *tag) for number, line in enumerate(file, 1)
                for tag in re.findall(rf"\[([0-9]+) ({names}) (first|second)\]", line)]
    many = {name: many for _, many, name, _ in tags}
    line = {(name, which): number for number, _, name, which in tags}
    return as_races((many[name], line[name, "first"], line[name, "second"]) for name in many)


def races_of_report(report):
    """The number of locations and the two lines of each pair of a report in JSON."""
    races = collections.Counter()
    for pair in report["pairs"]:
        frames = [pair[side]["user_frame"] for side in ("first", "second")]
        races[tuple(sorted((frame["file"], frame["line"]) for frame in frames))] += pair["races"]
    return sorted((many, *lines) for lines, many in races.items())


def race_of(line):
    """One of `spbags-lines --brief`, in the same form."""
    many, *places = line.split()
    return int(many), *((file, int(line)) for file, _, line in (place.rpartition(":") for place in places))


def by_call(source, races):
    """The number of races of each call: their places but for that of the parent, which is in this source."""
    parents = {(source, line_of(source, tag)) for tag in ("[write]", "[read]")}
    found = collections.Counter()
    for many, *places in races:
        parent = next((place for place in places if place in parents), None)
        found[tuple(place for place in places if place is not parent)] += many
    return +found


class Example:
    """What examples/expected says of one."""

    def __init__(self, source):
        self.source = source
        with open(os.path.join(TRACER, "examples", "expected"), encoding="utf-8") as file:
            rows = [line.split(maxsplit=2) for line in file if line.startswith(os.path.splitext(source)[0] + " ")]
        self.unit = rows[0][1]
        self.notes = [text.strip() for _, kind, text in rows if kind == "note"]
        self.rows = [text.split() for _, kind, text in rows if kind != "note"]

    def races(self, but=()):
        """As `races_in` gives them, without those whose second tag is one of these."""
        return as_races((many, line_of(self.source, one), line_of(self.source, other))
                        for many, one, other in self.rows if other not in but)


def examples(pattern):
    """The sources whose names match, in the order of examples/expected."""
    with open(os.path.join(TRACER, "examples", "expected"), encoding="utf-8") as file:
        names = dict.fromkeys(line.split()[0] for line in file if not line.startswith("#"))
    files = set(os.listdir(os.path.join(TRACER, "examples")))
    return [name + end for name in names for end in (".c", ".cpp") if name + end in files
            and re.fullmatch(pattern, name + end)]


class TracerTest(unittest.TestCase):
    def setUp(self):
        folder = tempfile.TemporaryDirectory()
        self.addCleanup(folder.cleanup)
        self.addCleanup(os.chdir, os.getcwd())
        os.chdir(folder.name)
        for name in glob.glob(os.path.join(TRACER, "examples", "*.c*")):
            shutil.copy(name, ".")
        os.symlink(TRACER, "tracer")
        self.command = ""

    @staticmethod
    def read(name):
        with open(name, encoding="utf-8", errors="replace") as file:
            return file.read()

    @staticmethod
    def write(name, text):
        with open(name, "w", encoding="utf-8") as file:
            file.write(text)

    def run_command(self, *words, given=None, stdin=subprocess.DEVNULL, **settings):
        """Its status and what it says, with this input and these environment variables."""
        if words[0] in (SPBAGS_CC, SPBAGS_CPLUSPLUS):
            words = (words[0], *DETECTOR, *words[1:])
        self.command = shlex.join([*(f"{name}={value}" for name, value in settings.items()), *words])
        standard_input = {"stdin": stdin} if given is None else {"input": given}
        done = subprocess.run(words, capture_output=True, text=True, errors="replace", timeout=3600,
                              env={**os.environ, **settings}, **standard_input)
        return Done(done.returncode, done.stdout, done.stderr)

    def succeeds(self, *words, **settings):
        done = self.run_command(*words, **settings)
        self.assertEqual((0, ""), (done.status, "" if done.status == 0 else done.errors))
        return done

    def ends_with(self, status, pattern, *words, **settings):
        """The command ends with this status, and says this on standard error."""
        done = self.run_command(*words, **settings)
        self.assertEqual(status, done.status, done.errors)
        if pattern:
            self.assertRegex(done.errors, pattern)
        return done

    def refused_lines(self, pattern, compiler, *words):
        """The lines of a source about which the compiler says this, and it makes nothing then."""
        done = self.run_command(compiler, *words, "-c", "-o", "refused.o")
        self.assertEqual((1, False), (done.status, os.path.exists("refused.o")), done.errors)
        found = re.findall(rf"(?m)^\S*{re.escape(words[-1])}:([0-9]+):.*{pattern}", done.errors)
        return sorted({int(line) for line in found})

    def reports(self, status, text, *words, **settings):
        """spbags-run with these words has this status, and this in its report; gives the report."""
        done = self.run_command(SPBAGS_RUN, *words, **settings)
        said = done.out + done.errors
        self.assertEqual(status, done.status, said)
        self.assertIn(text, " ".join(said.split()))
        return said

    def compiles_with_macros(self, compiler, name, text, words):
        """What comes before the source has no name that a macro of its own may have."""
        self.write(name, text)
        self.succeeds(compiler, *(f"-D{word}=1 +" for word in words.split()), "-o", "macros", name)
        self.succeeds("./macros", SPBAGS_TRACE="run.trace")

    def prints_its_texts(self, compiler, plain, *options):
        """A program's strings are what another compiler makes of them."""
        source = os.path.join(TESTS, "texts.c")
        self.succeeds(plain, "-w", "-D_Cilk_for=for", f"-I{TRACER}/include", "-o", "plain", source, *options)
        self.succeeds(compiler, "-w", "-o", "texts", source, *options)
        self.assertEqual(self.run_command("./plain"), self.run_command("./texts", SPBAGS_TRACE="run.trace"))

    def build(self, name, source, *words, compiler=""):
        """A program under this name, which is compiled once for all tests that have it; or a new one, where the source
        is of this folder, since its debug information names that."""
        command = (compiler or compiler_of(source), *words, source)
        kept = kept_program(*command)
        is_kept = os.path.isabs(source)
        if is_kept and os.path.exists(kept):
            os.link(kept, name)
            return
        self.succeeds(*command, "-o", name)
        if is_kept:
            # Another process may have been faster.
            with contextlib.suppress(FileExistsError):
                os.link(name, kept)

    def report_of(self, *words, options=(), **settings):
        """The status and the report of spbags-run with the program of these words."""
        done = self.run_command(SPBAGS_RUN, "--json", *options, "--", *words, **settings)
        return done.status, self.as_report(done)

    def as_report(self, done):
        self.assertTrue(done.out, (done.status, done.errors))
        report = json.loads(done.out)
        if schema():
            schema().validate(report)
        return report

    def races_of(self, *words, options=(), **settings):
        """What spbags-run finds."""
        done = self.run_command(SPBAGS_RUN, "--json", "--most", "100000", *options, "--", *words, **settings)
        self.assertIn(done.status, (0, 1, 3), done.errors)
        return races_of_report(json.loads(done.out))

    def races_in(self, source, *words, options=(), **settings):
        """The same with the lines' numbers, which are all of this source."""
        return self.lines_in(source, self.races_of(*words, options=options, **settings))

    def lines_in(self, source, races):
        self.assertEqual({source} if races else set(), {file for _, *lines in races for file, _ in lines})
        return as_races((many, one, other) for many, (_, one), (_, other) in races)

    def peak(self, *words, **settings):
        """The most memory that a run has, in KB. What starts it counts too, so that is a small process."""
        return int(self.succeeds(sys.executable, "-S", "-c", PEAK, *words, **settings).out)

    def check(self, *words):
        return self.run_command(os.environ["SPBAGS"], "check", *words)

    def traced_races(self, program, *words):
        """Those of run.trace by `spbags check` and spbags-lines, and the notes."""
        checked = self.check(*words, "run.trace")
        self.assertIn(checked.status, (0, 1), checked.errors)
        self.write("report", checked.out)
        said = self.run_command(SPBAGS_LINES, "--brief", program, "run.trace", "report")
        self.assertEqual(checked.status, said.status, said.errors)
        notes = [line for line in said.out.splitlines() if line.startswith("note: ")]
        return [race_of(line) for line in said.out.splitlines() if line not in notes], notes

    def ended_from_outside(self, number, after, program, grows, **settings):
        """The status of a run that a signal ends so many seconds after the first records, which make a file grow."""
        if os.path.exists(grows):
            os.unlink(grows)
        with subprocess.Popen([program, "never"], stderr=subprocess.DEVNULL, env={**os.environ, **settings}) as run:
            end = time.monotonic() + LONG
            # The header alone comes with the first record.
            while size_of(grows) <= 1000 and time.monotonic() < end:
                time.sleep(0.01)
            time.sleep(after)
            run.send_signal(number)
        return run.returncode

    def ends_among_blocks(self, program, **settings):
        """A signal comes while the program takes memory, whose heap may be locked then."""
        for _ in range(20):
            with subprocess.Popen([program, "blocks"], stderr=subprocess.DEVNULL,
                                  env={**os.environ, **settings}) as run:
                time.sleep(0.03)
                run.terminate()
                try:
                    run.wait(LONG)
                except subprocess.TimeoutExpired:
                    run.kill()
            self.assertEqual(-signal.SIGTERM, run.returncode)

    def has_same_report(self, *words, **settings):
        """The detector inside reports what `spbags check` does of the trace, and both runs end with one status. Their
        environments have one length: the program's words lie before it."""
        for repeats in "01":
            traced = self.run_command(*words, SPBAGS_TRACE="run.trace", SPBAGS_PLACES="", SPBAGS_REPORT="",
                                      SPBAGS_REPEATS=repeats, **settings)
            wanted = subprocess.run([os.environ["SPBAGS"], "check", "--depth", "1000000", "run.trace"],
                                    capture_output=True, text=True).stdout
            inside = self.run_command(*words, SPBAGS_TRACE="", SPBAGS_PLACES="", SPBAGS_REPORT="run.races",
                                      SPBAGS_REPEATS=repeats, **settings)
            self.assertEqual(traced.status, inside.status, inside.errors)
            self.assertTrue(wanted)
            self.assertEqual(wanted, self.read("run.races"))

    def is_same_without_repeats(self, *words, jumps=False, most_blocks=4096, **settings):
        """The trace without repeats has the same races, and the other's records in its own order. If the program jumps
        a strand may begin without a record. A strand goes out in parts of so many blocks."""
        for name, repeats in (("run.trace", "0"), ("all.trace", "1")):
            self.run_command(*words, SPBAGS_TRACE=name, SPBAGS_REPEATS=repeats, SPBAGS_REUSE="0", **settings)

        found, wanted = records_of("run.trace"), ordered(records_of("all.trace"), most_blocks)
        self.assertEqual(wanted, ordered(found, most_blocks) if jumps else found)
        self.assertEqual(racy_locations("all.trace"), racy_locations("run.trace"))


def records_of(name):
    with open(name, encoding="utf-8") as file:
        return file.read().splitlines()


def racy_locations(trace):
    said = subprocess.run([os.environ["SPBAGS"], "check", trace], capture_output=True, text=True).stdout
    return [line.split()[:2] for line in said.splitlines()]


def access_of(record):
    """The kind and the location of an access, or None."""
    kind, _, location = record.partition(" ")
    return (kind, int(location)) if kind in ("read", "write") else None


class Part:
    """What a strand has accessed, but for even locations of parts that have gone out."""

    def __init__(self):
        self.touched, self.wrote, self.blocks = set(), set(), {}

    def is_repeat(self, kind, location):
        """Whether the strand has written there before, or read where it reads; and it's no longer news then."""
        repeats = location in (self.wrote if kind == "write" else self.touched)
        self.touched.add(location)
        if kind == "write":
            self.wrote.add(location)
        return repeats

    def put(self):
        """Its blocks' records as they go out."""
        records = [record for block in self.blocks.values() for _, record in sorted(block)]
        self.blocks.clear()
        for done in (self.touched, self.wrote):
            done.difference_update([location for location in done if location % 2 == 0])
        return records


def ordered(records, most_blocks):
    """Each strand's without repeats in the order in which they go out: those of odd locations at once; all others at its
    end by blocks in the order of their first touch, and of each the reads, by location, and then the writes."""
    made, part = [], Part()
    for record in records:
        access = access_of(record)
        block = access and access[1] // (2 * BLOCK)
        is_full = access and access[1] % 2 == 0 and block not in part.blocks and len(part.blocks) == most_blocks
        if not access or is_full:
            made += part.put()
        if not access:
            part = Part()
            made.append(record)
        elif part.is_repeat(*access):
            continue
        elif access[1] % 2 == 1:
            made.append(record)
        else:
            part.blocks.setdefault(block, []).append((access, record))
    return made


class Count(unittest.TestResult):
    """Counts each part of a test, or a test that has none."""

    def __init__(self):
        super().__init__()
        self.passed, self.failed, self.lacking, self.parts = 0, 0, 0, 0

    def startTest(self, test):
        super().startTest(test)
        self.parts = 0

    def count(self, test, error):
        self.parts += 1
        self.passed += error is None
        self.failed += error is not None
        if error:
            case = getattr(test, "test_case", test)
            command = getattr(case, "command", "")
            print(f"{test}: after {command}\n{self._exc_info_to_string(error, case)}", file=sys.stderr)

    def addSubTest(self, test, subtest, error):
        self.count(subtest, error)

    def addSuccess(self, test):
        if self.parts == 0:
            self.count(test, None)

    def addFailure(self, test, error):
        self.count(test, error)

    addError = addFailure

    def addSkip(self, test, reason):
        super().addSkip(test, reason)
        if reason not in (WITHOUT_DETECTOR, WITHOUT_LEVEL):
            self.lacking += 1
            print(f"{test}: skipped: {reason}", file=sys.stderr)


def main():
    """Runs the tests of the classes that are named, or of all."""
    os.environ["SPBAGS"] = os.path.realpath(os.environ.get("SPBAGS", os.path.join(TRACER, "..", "spbags")))
    result = Count()
    module, loader = sys.modules["__main__"], unittest.defaultTestLoader
    named = sys.argv[1:]
    (loader.loadTestsFromNames(named, module) if named else loader.loadTestsFromModule(module)).run(result)
    print(f"{result.passed} passed, {result.failed} failed, {result.lacking} skipped")
    sys.exit(result.failed > 0)
