#!/usr/bin/env python3
"""Random loops, alone and in each other, that a child runs beside its parent, which touches all that they may touch. With
-O1 one hook notes what a loop accesses, and with -O0 each access has its own: the racy locations have to be the same.

    random_loops.py [--count 200] [--seed 1]

SPBAGS names the checker. The last line says how many loops were compared, and how many of them were wrong."""
import argparse
import os
import random
import re
import subprocess
import sys
import tempfile
from concurrent.futures import ThreadPoolExecutor

HERE = os.path.dirname(os.path.realpath(__file__))
TRACER = os.path.dirname(HERE)
sys.dont_write_bytecode = True
sys.path.insert(0, TRACER)
from cases import DETECTOR

SPBAGS = os.path.realpath(os.environ.get("SPBAGS", os.path.join(TRACER, "..", "spbags")))
SIZE = 16384
HEAD = f"""\
#include <cilk/cilk.h>
#include <stdlib.h>
#include <string.h>
static int a[{SIZE}], b[{SIZE}];
static long wide[{SIZE // 2}];
static char narrow[{SIZE * 4}];
static double real[{SIZE // 2}];
static struct {{ int x, y; short z; }} parts[{SIZE // 4}];
static volatile int sink, ends[] = {{7, 5, 0, -3}};
static int identity(int i) {{ return i; }}
"""
TYPES = ("int", "long", "unsigned", "unsigned char", "short", "unsigned long")
BOUNDS = ("n", "m", "zero", "minus", "9", "1", "n * 2", "(i + 1)", "(m - 1)")


class Writer:
    """A function with loops in each other. Indices stay in the middle of the arrays."""

    def __init__(self, seed):
        self.random, self.lines = random.Random(seed), []

    def index(self, names, most):
        """An index between two ends of an array with so many elements."""
        parts = [f"{name} * {self.random.choice((1, 1, 1, 2, 3, -1, 8, 33))}" if self.random.random() < 0.8 else name
                 for name in self.random.sample(names, self.random.randint(1, len(names)))]
        text = " + ".join([*parts, str(most // 2 + self.random.randrange(-9, 9))])
        kind = self.random.random()
        if kind < 0.1:
            return f"(unsigned char)({text})"
        return f"({text}) & {most - 1}" if kind < 0.2 else text

    def target(self, names):
        name, size = self.random.choice((("a", SIZE), ("b", SIZE), ("wide", SIZE // 2), ("narrow", SIZE * 4),
                                         ("real", SIZE // 2), ("parts", SIZE // 4)))
        text = f"{name}[{self.index(names, size)}]"
        return text + self.random.choice((".x", ".y", ".z")) if name == "parts" else text

    def statement(self, names):
        kind, one = self.random.randrange(20), self.target(names)
        if kind < 8:
            return f"{one} = {self.random.choice(names)};"
        if kind < 15:
            return f"{one} += {self.target(names)};"
        if kind < 16:
            return f"if ({self.target(names)} == 3) {self.random.choice(('sum++', one + ' = 1', 'break', 'continue'))};"
        return f"sum += {one};" if kind < 18 else f"sum ^= (long){one};" if kind < 19 else f"{one} = identity({names[0]});"

    def loop(self, deep, names):
        name, kind = "ijk"[deep], self.random.choice(TYPES)
        bound = self.random.choice(BOUNDS if names else BOUNDS[:-2])
        step = self.random.choice((1, 1, 1, 2, 3))
        if "unsigned" in kind and bound == "minus":
            bound = "m"
        up = self.random.random() < 0.7 or "unsigned" in kind
        head = f"for ({kind} {name} = 0; {name} < {bound}; {name} += {step}) {{" if up else \
            f"for ({kind} {name} = {bound}; {name} > 0; {name} -= {step}) {{"
        if self.random.random() < 0.1 and up:
            head = f"for ({kind} {name} = 0; {name} != 6; {name} += 1) {{"
        self.lines.append(head)
        if self.random.random() < 0.2:
            # It ends in its middle.
            self.lines[-1] = f"for ({kind} {name} = 0;; {name}++) {{"
            self.lines += [self.statement([*names, name]), f"if ({name} == {self.random.choice(('n', 'm', 'zero'))}) break;"]
        for _ in range(self.random.randint(1, 3)):
            self.lines.append(self.statement([*names, name]))
        if deep < 2 and self.random.random() < 0.6:
            self.loop(deep + 1, [*names, name])
            if self.random.random() < 0.3:
                self.lines.append(self.statement([*names, name]))
        self.lines.append("}")

    def text(self, number):
        self.lines = [f"static void f{number}(int n, int m, int zero, int minus) {{ long sum = zero;"]
        self.loop(0, [])
        if self.random.random() < 0.3:
            self.loop(0, [])
        self.lines += ["sink = (int)sum;", "}"]
        return self.lines


def program(count, seed):
    lines = HEAD.splitlines()
    for number in range(count):
        lines += Writer(f"{seed} {number}").text(number)
    cases = " ".join(f"case {number}: f{number}(ends[0], ends[1], ends[2], ends[3]); break;" for number in range(count))
    arrays = "a", "b", "wide", "narrow", "real", "parts"
    touched = " ".join(f"for (unsigned at = 0; at < sizeof {name}; at++) " + "{ if (writes) ((volatile char *)" +
                       f"{name})[at] = 0; else sink = ((volatile char *){name})[at]; }}" for name in arrays)
    lines += [f"static void child(int number) {{ switch (number) {{ {cases} }} }}",
              f"int main(int count, char **words) {{ int writes = atoi(words[2]); cilk_spawn child(atoi(words[1])); {touched}",
              "cilk_sync; return count == 0; }"]
    return "\n".join(lines) + "\n"


def run(*words, **settings):
    return subprocess.run(words, capture_output=True, text=True, env={**os.environ, **settings})


def build(level):
    done = run(os.path.join(TRACER, "spbags-cc"), *DETECTOR, "-w", "-fwrapv", level, "-o", "loops" + level, "loops.c")
    if done.returncode != 0:
        sys.exit(f"random_loops.py: {done.stderr}")
    return int(re.search(r"^([0-9a-f]+) \w a$", run("nm", "loops" + level).stdout, re.MULTILINE)[1], 16)


def racy(number, writes, level, start):
    """The racy bytes, counted from one array on; or None where the program ends early."""
    trace = f"{number}{writes}{level}"
    done = run("./loops" + level, str(number), str(writes), SPBAGS_TRACE=trace, SPBAGS_PLACES="", SPBAGS_UNIT="1")
    if done.returncode != 0:
        return None
    found = re.findall(r"^race (\d+) ", run(SPBAGS, "check", trace).stdout, re.MULTILINE)
    os.remove(trace)
    return {int(location) // 2 - start for location in found if int(location) % 2 == 0}


def arrays_of(level, start):
    """The other arrays' places may differ."""
    rows = re.findall(r"^([0-9a-f]+) [0-9a-f]+ \w (a|b|wide|narrow|real|parts|sink)$", run("nm", "-S", "loops" + level).stdout,
                      re.MULTILINE)
    return sorted((int(place, 16) - start, name) for place, name in rows)


def named(bytes_found, rows):
    """By array and place in it."""
    if bytes_found is None:
        return None
    found = set()
    for byte in bytes_found:
        place, name = max(row for row in rows if row[0] <= byte)
        if name != "sink":
            found.add((name, byte - place))
    return found


def main():
    parser = argparse.ArgumentParser(description=__doc__, formatter_class=argparse.RawDescriptionHelpFormatter)
    parser.add_argument("--count", type=int, default=200)
    parser.add_argument("--seed", type=int, default=1)
    words = parser.parse_args()
    with tempfile.TemporaryDirectory(prefix="spbags-loops-") as folder:
        os.chdir(folder)
        with open("loops.c", "w", encoding="utf-8") as file:
            file.write(program(words.count, words.seed))
        starts = {level: build(level) for level in ("-O0", "-O1")}
        rows = {level: arrays_of(level, start) for level, start in starts.items()}

        def compare(number):
            return [[named(racy(number, writes, level, start), rows[level]) for level, start in starts.items()]
                    for writes in (0, 1)]
        with ThreadPoolExecutor(2) as pool:
            results = list(pool.map(compare, range(words.count)))
        wrong = [number for number, result in enumerate(results) if any(one != other for one, other in result)]
        some = sum(any(one for one, _ in result) for result in results)
        for number in wrong:
            print(f"loops {number}:\n" + "\n".join(Writer(f"{words.seed} {number}").text(number)), file=sys.stderr)
            for one, other in results[number]:
                if one is not None and other is not None:
                    print(sorted(one - other)[:9], sorted(other - one)[:9], file=sys.stderr)
    print(f"{words.count} loops, {some} with races, {len(wrong)} wrong")
    return 1 if wrong or some == 0 else 0


sys.exit(main())
