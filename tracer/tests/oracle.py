#!/usr/bin/env python3
"""An oracle that shares nothing with the tracer. Programs of csmith in C, and random ones in C++, are compiled as they
are, with stores to marks in place of spawns, and run under lackey of valgrind, which prints each access of memory. From
the marks it builds the dag of the run, and by all pairs of accesses it finds the bytes of globals and of some blocks of
the heap that race. The reports of the traced programs have to have the same, in units of one byte and of four: by gcc
with -O0 and -O1, by clang, by the detector inside and by a trace. A program whose answers differ is printed.

    oracle [--count 50] [--seed 1] [--keep FOLDER]

The last line says how many programs it tried, how many comparisons it made, and how many of those differ."""
import argparse
import bisect
import os
import re
import shutil
import subprocess
import sys
import tempfile
from collections import defaultdict

TESTS = os.path.dirname(os.path.realpath(__file__))
TRACER = os.path.dirname(TESTS)
sys.dont_write_bytecode = True
sys.path[:0] = [TESTS, TRACER]
import oracle_programs
SPBAGS = os.path.realpath(os.environ.get("SPBAGS", os.path.join(TRACER, "..", "spbags")))
UNITS = (1, 4)
# What a program of csmith may take by itself, and under lackey.
QUICK, SECONDS = 2, 120
# What is compiled with each compiler: the level, and whether it is tried by a trace too.
WAYS = {"gcc": (("-O0", True), ("-O1", False)), "clang": (("-O0", False), ("-O1", False)),
        "g++": (("-O0", True), ("-O1", False))}
INCLUDED = ["-w", f"-I{TESTS}", "-I/usr/include/csmith"]
# The functions of headers have no marks, since no spawn is in them.
PLAIN = ["-DPLAIN", "-O0", "-fno-builtin", "-no-pie", "-static", "-finstrument-functions"]
PLAIN_GCC = ["-finstrument-functions-exclude-file-list=/usr/"]
ACCESS = re.compile(" ([LSM]) ([0-9a-f]+),([0-9]+)")
BLOCK = re.compile("block (\\w+) ([0-9]+) ([0-9]+)")
VARIABLE = re.compile(r"([0-9a-f]+) ([0-9a-f]+) [bBdDgGuV] (\S+)")


class Skipped(Exception):
    """Why a program isn't judged."""


def run(*command, **words):
    try:
        return subprocess.run(command, capture_output=True, text=True, errors="replace", **words)
    except subprocess.TimeoutExpired as error:
        raise Skipped(f"{os.path.basename(command[0])} takes longer than {error.timeout} seconds") from error


# ---- The dag ----

class Procedure:
    """What a spawn or a call begins: lists of strands and of inner procedures, one list up to each sync."""

    def __init__(self, is_child):
        self.is_child, self.blocks = is_child, [[]]

    def sync(self):
        self.blocks.append([])


def is_child(each):
    return isinstance(each, Procedure) and each.is_child


class Dag:
    """The strands of a run, by their numbers in serial order. Another serial order, in which each child comes after all
    that it is parallel to, has two strands the other way around if, and only if, they are parallel."""

    def __init__(self):
        self.count, self.stack = 0, [Procedure(False)]
        self.strand()

    def strand(self):
        self.now, self.count = self.count, self.count + 1
        self.stack[-1].blocks[-1].append(self.now)

    def open(self, is_child):
        procedure = Procedure(is_child)
        self.stack[-1].blocks[-1].append(procedure)
        self.stack.append(procedure)
        self.strand()

    def close(self):
        self.stack.pop()
        self.strand()

    def sync(self):
        self.stack[-1].sync()
        self.strand()

    def other_order(self):
        """By strand its place in the other order."""
        places, left = {}, [self.stack[0]]
        while left:
            one = left.pop()
            if isinstance(one, int):
                places[one] = len(places)
                continue
            for block in reversed(one.blocks):
                left += [each for each in block if is_child(each)]
                left += [each for each in reversed(block) if not is_child(each)]
        return places


class Marks:
    """What the stores to marks say: they build the dag."""

    def __init__(self, dag):
        self.dag, self.awaits_child, self.kinds, self.finished = dag, False, [], False

    def before_spawn(self):
        self.awaits_child = True

    def enter(self):
        self.kinds.append(self.awaits_child)
        self.dag.open(self.awaits_child)
        self.awaits_child = False

    def exit(self):
        """A child goes on, and stores its result, but its function's own children are done."""
        if self.kinds.pop():
            self.dag.sync()
        else:
            self.dag.close()

    def after_spawn(self):
        self.dag.close()

    end = after_spawn

    def sync(self):
        self.dag.sync()

    def begin(self):
        self.dag.open(False)

    def child(self):
        self.dag.open(True)


# ---- The plain run ----

class Variables:
    """The globals that the program names and its blocks, by their addresses."""

    def __init__(self, program, said, source):
        words = set(re.findall(r"\w+", source))
        rows = map(VARIABLE.fullmatch, run("nm", "-S", program).stdout.splitlines())
        found = [(int(row[1], 16), int(row[2], 16), own_name(row[3])) for row in rows if row]
        found = [row for row in found if row[2] in words]
        found += [(int(at), int(size), name) for name, at, size in BLOCK.findall(said)]
        self.rows = sorted(found)
        self.starts = [start for start, _, _ in self.rows]

    def at(self, address):
        """The name of a variable and a byte of it, or None."""
        number = bisect.bisect_right(self.starts, address) - 1
        start, size, name = self.rows[number] if number >= 0 else (0, 0, "")
        return (name, address - start) if address < start + size else None

    def whole(self, unit):
        """Those that no unit has together with another variable, which stands elsewhere in another program."""
        return {name for start, size, name in self.rows if start % unit == size % unit == 0}


def own_name(symbol):
    """A static of C++ has a mangled name, and one of a function a number behind it."""
    return re.sub(r"\.[0-9]+$", "", re.sub(r"^_ZL[0-9]+", "", symbol))


class Plain:
    """A plain run: what strands accessed each byte of the variables."""

    def __init__(self, compiler, name, source):
        program, trace = name + ".plain", name + ".trace"
        done = run(compiler, *PLAIN, *([] if compiler == "clang" else PLAIN_GCC), *INCLUDED, name, name + ".marks.o", "-o",
                   program, "-lm")
        if done.returncode != 0:
            raise Skipped(done.stderr)
        run(program, timeout=QUICK)
        done = run("valgrind", "--tool=lackey", "--trace-mem=yes", f"--log-file={trace}", program, timeout=SECONDS)
        if done.returncode != 0:
            raise Skipped(f"the program ended with status {done.returncode}")
        self.variables = Variables(program, done.stdout, source)
        rows = run("nm", program).stdout.splitlines()
        self.marks = {int(row.split()[0], 16): row.split()[2].removeprefix("mark_") for row in rows if " mark_" in row}
        self.accesses, self.dag = defaultdict(set), Dag()
        self.read(trace)
        self.order = self.dag.other_order()
        os.remove(trace)

    def read(self, trace):
        marks = Marks(self.dag)
        with open(trace) as file:
            for kind, at, size in ACCESS.findall(file.read()):
                address = int(at, 16)
                mark = self.marks.get(address)
                if mark == "finished":
                    return
                if mark:
                    getattr(marks, mark)()
                else:
                    self.add(kind, address, int(size))

    def add(self, kind, address, size):
        for byte in range(address, address + size):
            if self.variables.at(byte):
                self.accesses[byte] |= {(self.dag.now, writes) for writes in ((False, True) if kind == "M" else (kind == "S",))}

    def races(self, unit):
        """The bytes that are accessed, and those of them whose units race."""
        units = defaultdict(set)
        for byte, accesses in self.accesses.items():
            units[byte // unit] |= accesses
        racy = {number for number, accesses in units.items() if self.is_racy(accesses)}
        whole = self.variables.whole(unit)
        named = {byte: name for byte, name in ((byte, self.variables.at(byte)) for byte in self.accesses) if name[0] in whole}
        return set(named.values()), {name for byte, name in named.items() if byte // unit in racy}

    def is_racy(self, accesses):
        ordered = sorted(accesses)
        return any((writes or also) and before < strand and self.order[before] > self.order[strand]
                   for number, (strand, writes) in enumerate(ordered) for before, also in ordered[:number])


# ---- The traced runs ----

def traced(compiler, name, level, has_trace, source):
    """The runs of a traced program: the unit, the way, the bytes that race, and the variables that can be judged."""
    program = f"{name}.traced"
    variable = {"SPBAGS_CXX" if compiler == "g++" else "SPBAGS_CC": compiler}
    done = run(os.path.join(TRACER, "spbags-c++" if compiler == "g++" else "spbags-cc"), level, *INCLUDED, name, "-o", program,
               "-lm", env={**os.environ, **variable})
    if done.returncode != 0:
        raise Skipped(f"{compiler} {level}: {done.stderr}")
    for unit in UNITS:
        yield unit, "inside", *racy_bytes(program, unit, source, report_inside)
        if has_trace:
            yield unit, "trace", *racy_bytes(program, unit, source, report_of_trace)


def report_inside(program, settings):
    report = program + ".report"
    done = run(program, env=settings | {"SPBAGS_REPORT": report}, timeout=SECONDS)
    with open(report) as file:
        return file.read(), done.stdout


def report_of_trace(program, settings):
    done = run(program, env=settings | {"SPBAGS_TRACE": program + ".run", "SPBAGS_PLACES": ""}, timeout=SECONDS)
    return run(SPBAGS, "check", program + ".run").stdout, done.stdout


def racy_bytes(program, unit, source, report_of):
    report, said = report_of(program, {**os.environ, "SPBAGS_UNIT": str(unit)})
    if not report.startswith("races "):
        raise Skipped(f"{program}: no report")
    variables = Variables(program, said, source)
    units = (int(location) // 2 for location in re.findall("^race ([0-9]+)", report, re.MULTILINE) if int(location) % 2 == 0)
    found = {variables.at(byte) for number in units for byte in range(number * unit, (number + 1) * unit)}
    return found - {None}, variables.whole(unit)


# ---- The comparison ----

class Oracle:
    def __init__(self, folder):
        self.folder, self.programs, self.racy, self.compared, self.skipped, self.different = folder, 0, 0, 0, 0, 0

    def judge(self, number, source, compilers, ending):
        """Compares all ways of a program; the difference goes out with it."""
        name = os.path.join(self.folder, f"{number}{ending}")
        with open(name, "w") as file:
            file.write(source)
        found = []
        for compiler in compilers:
            try:
                found += self.differences(compiler, name, source)
            except Skipped as why:
                self.skipped += 1
                print(f"skipped: {number}{ending}: {str(why).strip().splitlines()[-1] if str(why).strip() else ''}")
        self.programs += 1
        self.different += len(found)
        if found:
            print(f"{source}\n{number}{ending} differs:", *found, sep="\n", flush=True)

    def differences(self, compiler, name, source):
        run("gcc", "-c", os.path.join(TESTS, "oracle_marks.c"), "-o", name + ".marks.o")
        plain = Plain(compiler, name, source)
        wanted = {unit: plain.races(unit) for unit in UNITS}
        self.racy += bool(wanted[1][1])
        for level, has_trace in WAYS[compiler]:
            for unit, way, found, whole in traced(compiler, name, level, has_trace, source):
                self.compared += 1
                # What the plain program doesn't touch, as the room between members, isn't judged.
                accessed, racy = ({byte for byte in bytes_ if byte[0] in whole} for bytes_ in wanted[unit])
                missed, more = racy - found, (found & accessed) - racy
                if missed or more:
                    yield f"{compiler} {level}, {way}, unit {unit}: missed {shown(missed)}; too many {shown(more)}"


def shown(names):
    return " ".join(f"{name}+{offset}" for name, offset in sorted(names)[:20]) or "none"


def main():
    parser = argparse.ArgumentParser(prog="oracle", description=__doc__, formatter_class=argparse.RawDescriptionHelpFormatter)
    parser.add_argument("--count", type=int, default=50)
    parser.add_argument("--seed", type=int, default=1)
    parser.add_argument("--keep", metavar="FOLDER", help="where the programs stay")
    words = parser.parse_args()
    missing = [name for name in ("csmith", "valgrind", "gcc", "g++", "clang") if not shutil.which(name)]
    if missing:
        print(f"0 programs: there is no {', '.join(missing)}")
        return 0
    with tempfile.TemporaryDirectory(prefix="spbags-oracle-") as folder:
        oracle = Oracle(words.keep or folder)
        for number in range(words.seed, words.seed + words.count):
            in_c = number % 2 == 0 and oracle_programs.c_program(number, folder)
            if in_c:
                oracle.judge(number, in_c, ("gcc", "clang"), ".c")
            else:
                oracle.judge(number, oracle_programs.cplusplus_program(number), ("g++",), ".cpp")
    print(f"{oracle.programs} programs, {oracle.racy} plain runs with races, {oracle.skipped} skipped, "
          f"{oracle.compared} comparisons, {oracle.different} differ")
    return 1 if oracle.different or not oracle.racy else 0


if __name__ == "__main__":
    sys.exit(main())
