#!/usr/bin/env python3
"""Random Cilk programs, traced and judged. Each is written twice: as a program in C for spbags-cc, and as one that
tells judge.h what it does, which says by definition which variables race. Their names have to be those of the locations
that `spbags check` reports of the trace at each level of optimization, with repeats and without, and both reports have to
name the same locations if memory doesn't come again; if it does, what dies in its strand isn't in the trace, and the
names are the same.
With --c++ they are of C++, and spawn members, lambdas, templates, what is handed over by reference and what throws.

    random_cilk.py [--count 200] [--seed 1] [--c++]

CC names the compiler of C and SPBAGS the checker. INSIDE is set if the programs have the detector inside; then its
report of each run has to be the checker's. The last line says how many programs it tried and how many of them were
wrong."""
import argparse
import collections
import os
import random
import subprocess
import sys
import tempfile

HERE = os.path.dirname(os.path.realpath(__file__))
TRACER = os.path.dirname(HERE)
sys.dont_write_bytecode = True
sys.path.insert(0, TRACER)
from report import checker_answers
from cases import DETECTOR, INSIDE
SPBAGS = os.path.realpath(os.environ.get("SPBAGS", os.path.join(TRACER, "..", "spbags")))
# Only gcc traces reducers.
REDUCER = "" if "clang" in os.environ.get("CC", "") else "cilk_reducer(zero, add)"
BATCH, GLOBALS, MOST_STEPS = 25, 4, 400
LEVELS = "-O1", "-O0"
WAYS = {}, {"SPBAGS_REUSE": "0"}, {"SPBAGS_REUSE": "0", "SPBAGS_REPEATS": "1"}
# Of a loop with two iterations, with the numbers 0 and 1.
HEADERS = ("int i = 0; i < 2; i++", "long i = 1; i >= 0; --i", "unsigned i = 0; 2 != i; i += 1", "short i = 1; i > -1; i -= 1")

HEAD = """\
#include <cilk/cilk.h>
#include <stdlib.h>
#include <string.h>
typedef volatile int number;
static void zero(void *view) { *(int *)view = 0; }
static void add(void *left, void *right) { *(int *)left += *(int *)right; }
static void add_to(int *sum, int n) { *sum += n; }
/* So many blocks of one size that a span is full of them. */
static void fill_spans(void) {
    for (int at = 0; at < 5000; at++)
        free(malloc(sizeof(number)));
}
"""
# What a child of C++ does: it writes what it gets by reference, and by a pointer that it gets in an object.
CPLUSPLUS_HEAD = HEAD + """\
static void by_value(int) {}
static void by_reference(number &to) { to = 1; }
static void throwing(number &to) { to = 1; throw 1; }
static int by_constant(const number &from) { return from; }
template <class T> static void any(T) {}
static void over(int, long) {}
static void over(int, char *) {}
struct Holder {
    number *at;
    explicit Holder(number *at) : at(at) {}
    Holder(Holder &&from) : at(from.at) { from.at = 0; }
    ~Holder() { if (at) (void)*at; }
    void put(int n) { *at = n; }
    virtual void set(int n) { *at += n; }
};
struct Other : Holder {
    using Holder::Holder;
    void set(int n) override { *at = n; }
};
static void take(Holder by) { *by.at = 1; }
static Holder made(number *at) { return Holder(at); }
static Holder thrown(number *at) { *at = 1; throw 1; }
"""


class Writer:
    """One program in both forms: lines of Cilk C, and what they do, told to the judge."""

    def __init__(self, number, source, function):
        self.random, self.number, self.function = source, number, function
        self.cilk, self.judged = [], []
        # Whether what is free is used. In all others the memory comes again.
        self.uses_freed = source.random() < 0.5
        self.steps = []  # by function: how many steps a call of it takes
        self.tags = {}   # by line of `cilk`: the variable whose first access it is

    def line(self, cilk, judged):
        self.cilk.append(cilk)
        self.judged.append(judged)

    def tagged(self, name, cilk, judged):
        self.tags[len(self.cilk)] = name
        self.line(cilk, judged)

    def write(self):
        count = self.random.randint(2, 5)
        names = [f"p{self.number}_g{at}" for at in range(GLOBALS)]
        self.line(f"static number {', '.join(names)};", f"static int {', '.join(names)};")
        sum = f"p{self.number}_sum"
        self.line(f"static int {REDUCER} {sum};", f"static int {sum};")
        for at in range(count):
            self.function(self, at, names, sum).write()
        self.line(f"static void p{self.number}(void) {{", f"static void p{self.number}(void) {{ begin_program();")
        for name in (*names, sum):
            self.tagged(name, f"{name} = 0;", f'{name} = variable("{name}"); touch({name}, true);')
        last = f"p{self.number}_f{count - 1}"
        self.line(f"{last}(&{names[0]}, &{names[1]}); }}",
                  f"{last}({names[0]}, {names[1]}); end_program({self.number}); }}")


class Function:
    """A function of the program; it calls those before it."""

    def __init__(self, writer, at, names, sum):
        self.writer, self.random, self.at, self.globals = writer, writer.random, at, names
        self.name = f"p{writer.number}_f{at}"
        self.locals, self.names, self.steps, self.sums = [], 0, 0, [sum]
        # By the names of those on the heap.
        self.tags = {}

    def variable(self):
        """A variable: its address in C, itself in C, and for the judge."""
        kind = self.random.randrange(8)
        if kind < 2:
            name = self.random.choice("qr")
            return name, "*" + name, name
        if kind < 4:
            name = self.random.choice(self.globals)
            return "&" + name, name, name
        name, on_heap = self.random.choice(self.locals or [(self.random.choice(self.globals), False)])
        return (name, "*" + name, name) if on_heap else ("&" + name, name, name)

    def new_name(self):
        self.names += 1
        return f"v{self.names}"

    def declare(self):
        for _ in range(self.random.randint(1, 3)):
            name, on_heap = self.new_name(), self.random.random() < 0.3
            tag = f"{self.name}.{len(self.writer.cilk)}.{name}"
            if on_heap:
                self.writer.line(f"number *{name} = (number *)malloc(sizeof *{name});", "")
                made = f"*{name} = 0;"
            else:
                made = f"number {name} = 0;"
            self.writer.tagged(tag, made, f'int {name} = variable("{tag}"); touch({name}, true);')
            self.locals.append((name, on_heap))
            if on_heap:
                self.tags[name] = tag
        if REDUCER and self.random.random() < 0.3:
            name = f"w{len(self.sums)}"
            tag = f"{self.name}.{len(self.writer.cilk)}.{name}"
            self.writer.tagged(tag, f"int {REDUCER} {name} = 0;",
                               f'int {name} = variable("{tag}"); touch({name}, true);')
            self.sums.append(name)

    def ends(self, known):
        """What the judge is told at the end of a block for its reducers: all but so many."""
        told = "".join(f"touch({name}, true); " for name in self.sums[known:])
        del self.sums[known:]
        return told

    def free(self, known=0):
        """Some blocks of the heap, of those behind so many locals. Who got the address may use them still, as may the
        children, and this function."""
        for name, on_heap in list(self.locals[known:]):
            if on_heap and name in self.tags and self.random.random() < 0.4:
                self.writer.tagged(self.tags.pop(name), f"free((void *){name});", f"touch({name}, true);")
                if not self.writer.uses_freed:
                    self.locals.remove((name, True))
        if not self.writer.uses_freed and self.random.random() < 0.4:
            self.writer.line("fill_spans();", "")

    def reduce(self):
        """An update of a reducer is a read of it, and all else a write."""
        if not REDUCER:
            return
        name, kind, number = self.random.choice(self.sums), self.random.randrange(9), self.random.randrange(6)
        _, this, judged = self.variable()
        update, value = f"touch({name}, false);", f"touch({name}, true);"
        self.writer.line(*(
            (f"{name} += {number};", update), (f"{name}++;", update), (f"{name} = {number} + {name};", update),
            (f"if ({name} < {number}) {name} = {number};", update), (f"add_to(&{name}, {number});", update),
            (f"cilk_spawn add_to(&{name}, {number});", f"{update} spawn(); {update} spawned();"),
            (f"{{ int got = {name}; (void)got; }}", value), (f"{this} = {name};", f"{value} touch({judged}, true);"),
            (f"{name} = {number};", value))[kind])

    def access(self):
        (at, this, judged), kind = self.variable(), self.random.randrange(6)
        other_at, _, other = self.variable()
        read, wrote = f"touch({judged}, false);", f"touch({judged}, true);"
        self.writer.line(*(
            (f"(void)+{this};", read), (f"{this} = {kind};", wrote), (f"{this} += {kind};", read + wrote),
            (f"if ({this} == 1) {this} = 1; else {this} = 2;", read + wrote),
            (f"memmove((void *)({at}), (void *)({other_at}), sizeof(number));", f"touch({other}, false); {wrote}"),
            (f"memset((void *)({at}), 1, sizeof(number));", wrote))[kind])

    def call(self, spawns):
        callee = self.random.randrange(self.at)
        (_, this, judged), (a, _, judged_a), (b, _, judged_b) = (self.variable() for _ in range(3))
        stores = self.random.random() < 0.5
        sign = self.random.choice(("=", "+=")) if spawns else "="
        call = f"{'cilk_spawn ' if spawns else ''}p{self.writer.number}_f{callee}({a}, {b});"
        told = f"p{self.writer.number}_f{callee}({judged_a}, {judged_b});"
        told += f" touch({judged}, true);" if stores else ""
        self.writer.line(f"{this} {sign} {call}" if stores else call, f"spawn(); {told} spawned();" if spawns else told)
        self.steps += self.writer.steps[callee]

    def statement(self, deep):
        kind = self.random.randrange(12)
        may_call = self.at > 0 and self.steps < MOST_STEPS
        if kind < 4 and may_call:
            self.call(True)
        elif kind < 6 and may_call:
            self.call(False)
        elif kind == 6:
            self.sync()
        elif kind == 8:
            self.reduce()
        elif kind == 7 and deep < 2:
            self.random.choice(self.blocks())(deep + 1)
        else:
            self.access()
        self.steps += 1

    def blocks(self):
        return self.loop, self.parallel_loop, self.scope

    def statements(self, deep):
        for _ in range(self.random.randint(1, 3)):
            self.statement(deep)

    def sync(self):
        self.writer.line("cilk_sync;", "sync_children();")

    def loop(self, deep):
        before = self.steps
        self.writer.line("for (int i = 0; i < 2; i++) {", "for (int i = 0; i < 2; i++) {")
        self.statements(deep)
        self.writer.line("}", "}")
        self.steps += self.steps - before

    def parallel_loop(self, deep, iteration=None):
        """Each iteration is a child, with a function's locals and syncs, and the loop is a function that is called."""
        before, known, known_sums = self.steps, len(self.locals), len(self.sums)
        header = self.random.choice(HEADERS)
        self.writer.line("#pragma cilk grainsize 2", "")
        self.writer.line(f"cilk_for ({header}) {{", f"enter(); for ({header}) {{ spawn(); enter();")
        self.declare()
        (iteration or self.statements)(deep)
        if not iteration:
            self.free(known)
        self.writer.line("}", self.ends(known_sums) + "leave(); spawned(); } leave();")
        del self.locals[known:]
        self.steps += self.steps - before

    def scope(self, deep):
        self.writer.line("cilk_scope {", "enter(); {")
        self.statements(deep)
        self.writer.line("}", "} leave();")

    def write(self):
        self.writer.line(f"static int {self.name}(number *q, number *r) {{",
                         f"static void {self.name}(int q, int r) {{ enter();")
        self.declare()
        for _ in range(self.random.randint(2, 8)):
            self.statement(0)
            if self.random.random() < 0.15:
                self.free()
        self.free()
        self.writer.line("return 1; }", self.ends(1) + "leave(); }")
        self.writer.steps.append(self.steps + 1)


class CplusplusFunction(Function):
    """A function with spawns as C++ alone has them."""
    deep = 0
    # Where a sync goes to for the judge, if a child of the same block has thrown.
    handler = ""

    def statement(self, deep):
        self.deep = deep
        super().statement(deep)

    def blocks(self):
        return *super().blocks(), self.holder

    def sync(self):
        self.writer.line("cilk_sync;", f"sync_children(); {self.handler}")

    def parallel_loop(self, deep, iteration=None):
        """What leaves an iteration is thrown again behind the loop."""
        outer, self.handler = self.handler, ""
        iteration = self.random.choice((None, self.throwing_iteration, self.iteration_of_thrower))
        if not iteration:
            super().parallel_loop(deep)
        else:
            self.writer.line("try {", "{")
            super().parallel_loop(deep, iteration)
            self.writer.line("} catch (int) {", "} {")
            self.handler = outer
            self.access()
            self.writer.line("}", "}")
        self.handler = outer

    def throwing_iteration(self, deep):
        """One of them ends in its middle."""
        label, number = f"next_{len(self.writer.cilk)}", self.random.randrange(2)
        self.statements(deep)
        self.writer.line(f"if (i == {number}) throw 1;", f"if (i == {number}) goto {label};")
        self.statements(deep)
        self.writer.line("", f"{label}:;")

    def iteration_of_thrower(self, deep):
        """A child throws, and so its sync does."""
        label = f"next_{len(self.writer.cilk)}"
        self.handler = f"goto {label};"
        self.writer.line(*self.thrower())
        self.statements(deep)
        self.writer.line("", f"{label}:;")

    def thrower(self):
        """A child writes and throws, in place of a result that has no default, or of none."""
        at, this, judged = self.variable()
        spawn = self.random.choice((f"cilk_spawn throwing({this});", f"Holder kept = cilk_spawn thrown({at});"))
        return spawn, f"spawn(); touch({judged}, true); spawned();"

    def writes(self):
        _, this, judged = self.variable()
        return f"cilk_spawn by_reference({this});", f"spawn(); touch({judged}, true); spawned();"

    def call(self, spawns):
        if spawns and self.random.random() < 0.7:
            self.random.choice((self.spawn_lambda, self.spawn_argument, self.spawn_member, self.spawn_result))()
        else:
            super().call(spawns)

    def spawn_lambda(self):
        """A function of its own, which may spawn: it waits for its own children."""
        callee = self.random.randrange(self.at)
        (_, this, judged), (_, other, judged_other), (a, _, judged_a) = (self.variable() for _ in range(3))
        name = f"p{self.writer.number}_f{callee}"
        call, told = f"{name}({a}, {a})", f"{name}({judged_a}, {judged_a});"
        wrote, wrote_other = f"touch({judged}, true);", f"touch({judged_other}, true);"
        child = self.random.choice((
            (f"[&] {{ {this} = {call}; {other} = 1; }}()", f"{told} {wrote} {wrote_other}"),
            (f"[&] {{ cilk_spawn by_reference({this}); {other} = {call}; }}()",
             f"spawn(); {wrote} spawned(); {told} {wrote_other}"),
            (f"[&](int n) {{ {this} = n; }}({other})", None)))
        judged_child = f"spawn(); enter(); {child[1]} leave(); spawned();" if child[1] else \
            f"touch({judged_other}, false); spawn(); {wrote} spawned();"
        self.writer.line(f"cilk_spawn {child[0]};", judged_child)
        self.steps += self.writer.steps[callee]

    def spawn_argument(self):
        """The parent reads what is handed over by value, and moves what is moved."""
        at, this, judged = self.variable()
        read, wrote = f"touch({judged}, false);", f"touch({judged}, true);"
        call, before, child = self.random.choice((
            (f"by_value({this})", read, ""), (f"any({this})", read, ""), (f"over({this}, 1L)", read, ""),
            (f"by_reference({this})", "", wrote), (f"by_constant({this})", "", read),
            (f"take(Holder({at}))", "", wrote + read), ("take(static_cast<Holder &&>(moved))", "", wrote + read)))
        declared = f"Holder moved({at}); " if "moved" in call else ""
        self.writer.line(f"{{ {declared}cilk_spawn {call}; }}", f"{before} spawn(); {child} spawned();")

    def spawn_member(self):
        """Of an object that the child destroys, or of one that stays."""
        at, this, judged = self.variable()
        read, wrote = f"touch({judged}, false);", f"touch({judged}, true);"
        spawn, child, behind = self.random.choice((
            (f"cilk_spawn Holder({at}).put(1);", wrote + read, ""),
            (f"cilk_spawn made({at}).set(1);", read + wrote + read, ""),
            (f"Other kept({at}); Holder *some = &kept; cilk_spawn some->set(1); cilk_sync;", wrote,
             f"sync_children(); {read} {self.handler}")))
        self.writer.line(f"{{ {spawn} }}", f"spawn(); {child} spawned(); {behind}")

    def holder(self, deep):
        """A child's result that has no default is destroyed behind a sync, also if that throws."""
        at, _, judged = self.variable()
        outer, end = self.handler, f"touch({judged}, false);"
        self.writer.line(f"{{ Holder kept = cilk_spawn made({at});", "{ spawn(); spawned();")
        self.handler = outer and f"{{ {end} {outer} }}"
        self.statements(deep)
        self.sync()
        self.handler = outer
        self.writer.line("}", f"{end} }}")

    def spawn_result(self):
        """The child stores into a variable that begins with that."""
        if self.deep > 0:
            self.spawn_argument()
            return
        callee, (a, _, judged_a) = self.random.randrange(self.at), self.variable()
        name = self.new_name()
        tag = f"{self.name}.{len(self.writer.cilk)}.{name}"
        told = f"p{self.writer.number}_f{callee}({judged_a}, {judged_a});"
        self.writer.tagged(tag, f"number {name} = cilk_spawn p{self.writer.number}_f{callee}({a}, {a});",
                           f'int {name} = variable("{tag}"); spawn(); {told} touch({name}, true); spawned();')
        self.locals.append((name, False))
        self.steps += self.writer.steps[callee]

    def scope(self, deep):
        """A block of `try` with a spawn waits before its handler, and throws what a child has thrown where it waits."""
        child_throws = self.random.random() < 0.3
        throws = not child_throws and self.random.random() < 0.5
        outer, label = self.handler, f"out_{len(self.writer.cilk)}"
        self.handler = f"goto {label};" if child_throws else ""
        spawn, told = self.thrower() if child_throws else self.writes()
        self.writer.line(f"try {{ {spawn}", f"enter(); {told} {{")
        self.statements(deep)
        self.writer.line(f"{'throw 1; ' if throws else ''}}} catch (int) {{",
                         f"}} {label}: leave(); if ({int(child_throws or throws)}) {{")
        self.handler = outer
        self.access()
        self.writer.line("}", "}")


class Batch:
    """Some programs in one file, built both ways."""

    def __init__(self, folder, first, count, seed, is_cplusplus):
        self.name = os.path.join(folder, f"b{first}")
        self.numbers, self.tags, self.differ = range(first, first + count), {}, set()
        self.compiler, self.ending = ("spbags-c++", ".cpp") if is_cplusplus else ("spbags-cc", ".c")
        cilk = (CPLUSPLUS_HEAD if is_cplusplus else HEAD).splitlines()
        judged = ['#include "judge.h"']
        for number in self.numbers:
            writer = Writer(number, random.Random(f"{seed} {number}"), CplusplusFunction if is_cplusplus else Function)
            writer.write()
            self.tags.update({len(cilk) + line + 1: tag for line, tag in writer.tags.items()})
            cilk += writer.cilk
            judged += writer.judged
        calls = " ".join(f"case {number}: p{number}(); break;" for number in self.numbers)
        cilk.append(f"int main(int count, char **words) {{ switch (atoi(words[1])) {{ {calls} }} }}")
        judged.append(f"int main(void) {{ {' '.join(f'p{number}();' for number in self.numbers)} }}")
        self.write(self.ending, cilk)
        self.write("_judged.c", judged)

    def write(self, ending, lines):
        with open(self.name + ending, "w", encoding="utf-8") as file:
            file.write("\n".join(lines) + "\n")

    def run(self, *words, **settings):
        done = subprocess.run(words, capture_output=True, text=True, env={**os.environ, **settings})
        if done.returncode not in (0, 1) or (done.returncode and words[0] != SPBAGS):
            sys.exit(f"random_cilk.py: {' '.join(words)}: {done.stderr}")
        return done.stdout

    def build(self):
        batch = self.numbers[0] // BATCH
        ways = ([], ["--no-inline-checks"])[batch % 2]
        limits = " -DFREE_SPANS=0" + ("", " -DSTRAND_MOST_BLOCKS=3 -DPERIOD_SHIFT=61")[batch // 2 % 2]
        for level in LEVELS:
            self.run(os.path.join(TRACER, self.compiler), *DETECTOR, level, *ways, "-w", "-o", self.name + level,
                     self.name + self.ending, CC=os.environ.get("CC", "gcc") + limits)
        self.run("gcc" if not os.environ.get("CC") else os.environ["CC"], "-w", "-O1", "-I" + HERE, "-o",
                 self.name + "_judged", self.name + "_judged.c")
        told = self.run(self.name + "_judged")
        self.wanted = {int(words[0]): collections.Counter(words[1:]) for words in map(str.split, told.splitlines())}

    def racy(self, program, number, way):
        """The racy locations of a traced run, and the code of the first access of each."""
        trace = f"{self.name}.{number}"
        settings = {**way, "SPBAGS_VERSION": str(1 + number % 2)}
        self.run(program, str(number), SPBAGS_TRACE=trace, SPBAGS_REPORT="", **settings)
        report = self.run(SPBAGS, "check", trace)
        if INSIDE and report != self.own_report(program, number, trace[:-1] + "~", settings):
            print(f"program {number}: the report of the detector inside isn't the checker's", file=sys.stderr)
            self.differ.add(number)
        racy = {line.split()[1] for line in report.splitlines()[1:]}
        codes = {}
        places = checker_answers.places_of(trace + ".places")
        with open(trace, encoding="ascii") as records:
            next(records)
            for place, record in enumerate(records, 1):
                location = record[:-1].rpartition(" ")[2]
                if location in racy:
                    codes.setdefault(location, places.site(place).code - 1)
        os.remove(trace)
        os.remove(trace + ".places")
        return codes

    def own_report(self, program, number, name, settings):
        """That of the detector inside. The environment is as long as in the traced run: the program's words lie before
        it."""
        self.run(program, str(number), SPBAGS_TRACE="", SPBAGS_REPORT=name, **settings)
        with open(name, encoding="ascii") as file:
            return file.read()

    def names(self, program, codes):
        """By code the variable whose first access it is."""
        ordered = sorted(codes)
        if not ordered:
            return {}
        lines = self.run("addr2line", "-e", program, *map(hex, ordered)).splitlines()
        numbers = [int(line.split(" ")[0].rpartition(":")[2]) for line in lines]
        return {code: self.tags.get(line, f"line {line}") for code, line in zip(ordered, numbers)}

    def wrong(self):
        """The numbers of the programs whose races aren't those that the judge names, at each level."""
        self.build()
        return self.differ.union(*map(self.wrong_at, LEVELS))

    def wrong_at(self, level):
        program, wrong = self.name + level, []
        runs = {number: [self.racy(program, number, way) for way in WAYS] for number in self.numbers}
        names = self.names(program, {code for run in runs.values() for codes in run for code in codes.values()})
        for number, (left_out, codes, all_codes) in runs.items():
            found = [collections.Counter(names[code] for code in run.values()) for run in (left_out, codes)]
            if found != 2 * [self.wanted[number]] or codes != all_codes:
                print(f"program {number} {level}: wanted {dict(self.wanted[number])}, found {found}", file=sys.stderr)
                wrong.append(number)
        return wrong


def main():
    parser = argparse.ArgumentParser(description=__doc__, formatter_class=argparse.RawDescriptionHelpFormatter)
    for name, value in (("count", 200), ("seed", 1)):
        parser.add_argument("--" + name, type=int, default=value)
    parser.add_argument("--c++", action="store_true", dest="is_cplusplus")
    words = parser.parse_args()
    wrong, racy = 0, 0
    with tempfile.TemporaryDirectory(prefix="spbags-random-") as folder:
        for first in range(0, words.count, BATCH):
            batch = Batch(folder, first, min(BATCH, words.count - first), words.seed, words.is_cplusplus)
            wrong += len(batch.wrong())
            racy += sum(bool(names) for names in batch.wanted.values())
    print(f"{words.count} programs, {racy} with races, {wrong} wrong")
    return 1 if wrong or not racy else 0


sys.exit(main())
