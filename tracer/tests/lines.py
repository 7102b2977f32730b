#!/usr/bin/env python3
"""Whether the source lines of accesses are right. Random programs with plain variables, one statement in a line, and
the examples in C are compiled with -O0, where each line's code is its own, and with -O1. Each access of the second, by
its line, its kind and its variable, has to be one of the first: an optimization that moves an access to another line
shows here. A loop of stores, each of which has to have its line, comes first, and code of headers in C++, whose lines
have to be in its file. (tracer/check compares the lines of the examples' races with examples/expected at both levels.)

    lines.py [--count 6] [--seed 1] [SOURCE ..]

CC names the compiler. With sources it compares these instead. The last line says how many accesses it compared and how
many of them were wrong."""
import argparse
import bisect
import glob
import os
import random
import re
import subprocess
import sys
import tempfile

HERE = os.path.dirname(os.path.realpath(__file__))
TRACER = os.path.dirname(HERE)
sys.dont_write_bytecode = True
sys.path.insert(0, TRACER)
from report import checker_answers
from cases import DETECTOR

IS_GCC = os.environ.get("CC", "gcc") == "gcc"

LOOP = """\
int a, b, c, d, e;
int main(void) {
    for (int i = 0; i < 9; i++) {
        a = i;
        b += i;
        c = a + b;
        d = c;
        e = d;
    }
}
"""
# Each store of the loop: its line and its variable.
STORES = {(4, "write", "a"), (5, "write", "b"), (6, "write", "c"), (7, "write", "d"), (8, "write", "e")}

POINTER = """\
#include <memory>
int main() {
    std::shared_ptr<int> one = std::make_shared<int>(1), other = one;
    return *other - 1;
}
"""

HEAD = """\
struct pair { int one, other; };
int a, b, c, d, t[16], u[16];
double x, y;
struct pair p, q;
static int *at = &a;
"""
FUNCTIONS = 8
NUMBERS = ("a", "b", "c", "d", "p.one", "q.other", "t[i & 15]", "t[3]", "u[(i + 1) & 15]", "*at", "*r")


class Writer:
    """A program whose statements have a line each."""

    def __init__(self, seed):
        self.random, self.lines, self.functions = random.Random(seed), HEAD.splitlines(), 0

    def number(self):
        return self.random.choice(NUMBERS)

    def value(self):
        kind = self.random.randrange(7)
        one, other = self.number(), self.number()
        return (one, f"{one} + {other}", f"{one} * 3", "i", f"({one} > 2 ? {other} : 1)", f"({one} && {other})",
                f"{self.random.randrange(9)}")[kind]

    def statement(self, deep):
        kind, name, value = self.random.randrange(14), self.number(), self.value()
        if kind < 4:
            self.lines.append(f"{name} = {value};")
        elif kind < 7:
            self.lines.append(f"{name} {self.random.choice('+-^|')}= {value};")
        elif kind == 7:
            self.lines.append(self.random.choice(("p = q;", "q = p;", "x += a;", "y = x * 2;", "x = y + x;")))
        elif kind == 8 and self.functions > 0 and deep < 2:
            self.lines.append(f"{name} = f{self.random.randrange(self.functions)}(&{self.number()}, {value});")
        elif kind == 9:
            self.lines.append(self.random.choice((f"if ({value} == 1) return {value};", f"at = &{name};")))
        elif deep < 2:
            self.block(deep)

    def block(self, deep):
        value = self.value()
        head = self.random.choice((f"if ({value} > 1) {{", "for (int i = 0; i < 3; i++) {", "while (i++ < 4) {",
                                   f"switch ({value}) {{ case 1:;"))
        self.lines.append(head)
        self.statements(deep + 1)
        if self.random.random() < 0.4:
            self.lines.append("break; default:;" if head[0] == "s" else "} else {" if head[0:2] == "if" else
                              f"if ({self.value()} == 3) break;")
            self.statements(deep + 1)
        self.lines.append("}")

    def statements(self, deep):
        for _ in range(self.random.randint(1, 5)):
            self.statement(deep)

    def text(self):
        for at in range(FUNCTIONS):
            self.lines.append(f"static int f{at}(int *r, int i) {{")
            self.statements(0)
            self.statements(0)
            self.lines += [f"return {self.value()};", "}"]
            self.functions += 1
        calls = " ".join(f"f{at}(&{self.random.choice('tu')}[n], n);" for at in range(FUNCTIONS))
        self.lines.append(f"int main(void) {{ for (int n = 0; n < 4; n++) {{ {calls} }} }}")
        return "\n".join(self.lines) + "\n"


def run(*words, **settings):
    done = subprocess.run(words, capture_output=True, text=True, env={**os.environ, **settings})
    if words[0] != "./program" and done.returncode != 0:
        sys.exit(f"lines.py: {' '.join(words)}: {done.stderr}")
    return done.stdout


# What has no name here.
A_LOCAL, A_BLOCK = "a local", "a block"


class Globals:
    """The program's variables by address."""

    def __init__(self):
        found = re.findall(r"^([0-9a-f]+) ([0-9a-f]+) [BDbd] (\w+)", run("nm", "-S", "program"), re.MULTILINE)
        self.rows = sorted((int(start, 16), int(size, 16), name) for start, size, name in found)

    def of(self, location):
        if location % 2:
            return A_LOCAL
        address = location // 2 * 4
        at = bisect.bisect_right(self.rows, (address, 1 << 48, "")) - 1
        start, size, name = self.rows[at]
        return name if at >= 0 and address < start + size else A_BLOCK


def accesses(source, level):
    """The accesses of a run: their lines, kinds and variables."""
    openmp = ["-fopenmp"] if "openmp" in source else []
    run(os.path.join(TRACER, "spbags-cc"), *DETECTOR, "-w", "-fwrapv", "-DRACY", *openmp, level, "-o", "program",
        source, "-lm")
    run("./program", SPBAGS_TRACE="run.trace", SPBAGS_REPEATS="1", SPBAGS_MAX_BYTES="100000000")
    names, found, codes, places = Globals(), set(), {}, checker_answers.places_of("run.trace.places")
    with open("run.trace", encoding="ascii") as records:
        next(records)
        for place, record in enumerate(records, 1):
            code = places.site(place).code
            kind, _, location = record.strip().partition(" ")
            if location:
                codes.setdefault(code, set()).add((kind, names.of(int(location))))
    lines = run("addr2line", "-e", "program", *(hex(code - 1) for code in codes)).splitlines()
    for (code, about), line in zip(codes.items(), lines):
        number = line.split(" ")[0].rpartition(":")[2]
        found |= {(int(number) if number.isdigit() else 0, *each) for each in about}
    return found


def wrong(source):
    """How many accesses there are, and those that no line of the source makes. What OpenMP hands to a function is left
    out: without optimization gcc reads it where the function begins, and otherwise where it is used."""
    plain, optimized = accesses(source, "-O0"), accesses(source, "-O1")
    if "openmp" in source:
        optimized = {access for access in optimized if access[2] != A_LOCAL}
    return len(optimized), sorted(optimized - plain)


def check_the_loop():
    write("loop.c", LOOP)
    stores = {access for access in accesses("loop.c", "-O1") if access[1] == "write"}
    if stores != STORES:
        sys.exit(f"lines.py: the stores of the loop: wanted {sorted(STORES)}, found {sorted(stores)}")


def check_headers():
    """No line that its file doesn't have."""
    write("pointer.cpp", POINTER)
    run(os.path.join(TRACER, "spbags-c++"), *DETECTOR, "-o", "program", "pointer.cpp")
    codes = re.findall(r"^ +([0-9a-f]+):\tcall.*<__tsan_(?:read|write)", run("objdump", "-d", "--no-show-raw-insn",
                       "program"), re.MULTILINE)
    for found in run("addr2line", "-e", "program", *codes).splitlines():
        file, _, line = found.split(" ")[0].rpartition(":")
        with open(file, encoding="utf-8") as text:
            if int(line) > len(text.readlines()):
                sys.exit(f"lines.py: {found}: the file has no such line")
    return len(codes)


def has_reducers(source):
    """Only gcc traces them."""
    with open(source, encoding="utf-8") as text:
        return "cilk_reducer" in text.read()


def write(name, text):
    with open(name, "w", encoding="utf-8") as file:
        file.write(text)


def main():
    parser = argparse.ArgumentParser(description=__doc__, formatter_class=argparse.RawDescriptionHelpFormatter)
    parser.add_argument("--count", type=int, default=6)
    parser.add_argument("--seed", type=int, default=1)
    parser.add_argument("sources", nargs="*")
    words = parser.parse_args()
    sources = [os.path.abspath(source) for source in words.sources]
    compared = faults = 0
    with tempfile.TemporaryDirectory(prefix="spbags-lines-") as folder:
        os.chdir(folder)
        if not sources:
            check_the_loop()
            compared += check_headers() if IS_GCC else 0
            sources = [example for example in sorted(glob.glob(os.path.join(TRACER, "examples", "*.c")))
                       if IS_GCC or not ("openmp" in example or has_reducers(example))]
            for number in range(words.count):
                sources.append(f"random{number}.c")
                write(sources[-1], Writer(f"{words.seed} {number}").text())
        for source in sources:
            count, found = wrong(source)
            compared += count
            faults += len(found)
            for line, kind, name in found:
                text = open(source, encoding="utf-8").read().splitlines()
                print(f"{source}:{line}: no {kind} of {name} is here: {text[line - 1] if line else ''}", file=sys.stderr)
    print(f"{len(sources)} programs, {compared} accesses, {faults} wrong")
    return 1 if faults or compared == 0 else 0


sys.exit(main())
