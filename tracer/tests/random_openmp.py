#!/usr/bin/env python3
"""Random OpenMP programs, traced and judged. Each is a parallel region that is written as C for spbags-cc, and run by a
model of its own: that does what each thread does, keeps the dag of the strands with all its paths, and says by
definition which variables race. The model knows nothing of traces, bags or stacks; their names have to be those of the
locations that `spbags check` reports at each level of optimization. If accesses are under critical regions, locks or
atomic, and all races of a variable are of two under one of these, or none is, then `spbags-run` has to say so. With
`depend` a program is judged twice, by SPBAGS_DEPEND=order and =ignore, and what the program itself has must be between
both. Where tasks outlive a taskwait the run after the first must find the rest. With --c++ they are compiled as C++.

    random_openmp.py [--count 200] [--seed 1] [--c++]

SPBAGS names the checker. INSIDE is set if the programs have the detector inside; then its report of each run has to be
the checker's. The last line says how many programs it tried and how many of them were wrong."""
import argparse
import json
import os
import random
import subprocess
import sys
import tempfile

HERE = os.path.dirname(os.path.realpath(__file__))
TRACER = os.path.dirname(HERE)
sys.dont_write_bytecode = True
from cases import DETECTOR, INSIDE
SPBAGS = os.path.realpath(os.environ.get("SPBAGS", os.path.join(TRACER, "..", "spbags")))
BATCH, GLOBALS, MANY, SLOTS = 25, 4, 16, 16
LEVELS = "-O1", "-O0"

HEAD = """\
#include <omp.h>
#include <stdlib.h>
typedef volatile int number;
static number *shown;
static omp_lock_t locks[2];
static void use(int value) { if (value == -77) abort(); }
"""


# ---- The model ----

class Dag:
    """Strands, each with the set of those before it, as the bits of a number; and what they access."""

    def __init__(self, way):
        self.before, self.accesses, self.way = [], {}, way

    def strand(self, *after, but=()):
        bits = 1 << len(self.before)
        for one in after:
            if one not in but:
                bits |= self.before[one]
        self.before.append(bits)
        return len(self.before) - 1

    def access(self, strand, variable, writes, guard):
        self.accesses.setdefault(variable, set()).add((strand, writes, guard))

    def racy(self):
        """By variable the guards of its races, where None is a race of two that share none."""
        found = {variable: {one[2] if one[2] == other[2] else None
                            for one in accesses for other in accesses if self.race(one, other)}
                 for variable, accesses in self.accesses.items()}
        return {variable: guards for variable, guards in found.items() if guards}

    def race(self, one, other):
        first, second = one[0], other[0]
        is_path = self.before[first] >> second & 1 or self.before[second] >> first & 1
        return (one[1] or other[1]) and not is_path


class Procedure:
    """What runs now, and the last strands of its children that nothing has waited for; of those that are tasks with
    `depend`, whether they write a variable, and their own last strand."""

    def __init__(self, dag, now):
        self.dag, self.now, self.children, self.tasks, self.named = dag, now, [], 0, []
        self.has_master = False
        # Where tasks outlive their parents: the ends of those that do, and of the children that are tasks.
        self.outliving, self.task_ends = [], []

    def access(self, variable, writes, guard=None):
        self.dag.access(self.now, variable, writes, guard)

    def spawn(self, does, *words, after=()):
        child = Procedure(self.dag, self.dag.strand(self.now, *after))
        self.now = self.dag.strand(self.now)
        does(child, *words)
        ended = child.now
        if self.dag.way == "outliving":
            self.outliving += child.children + child.outliving
        else:
            child.sync()
        self.children.append(child.now)
        return ended

    def sync(self):
        self.now = self.dag.strand(self.now, *self.children, *self.outliving)
        self.children, self.tasks, self.named, self.outliving, self.task_ends = [], 0, [], [], []

    def wait_for_tasks(self):
        if self.dag.way != "outliving":
            self.sync()
            return
        self.now = self.dag.strand(self.now, *self.task_ends)
        self.children = [end for end in self.children if end not in self.task_ends]
        self.tasks, self.named, self.task_ends = 0, [], []

    def ends(self):
        return {*self.children, *self.outliving, *self.task_ends}

    def end_group(self, older):
        """Waits for all but these older ends."""
        self.now = self.dag.strand(self.now, *self.children, *self.outliving, but=older)
        self.children, self.outliving, self.task_ends = ([end for end in ends if end in older] for ends in
                                                         (self.children, self.outliving, self.task_ends))
        self.tasks = len(self.task_ends)

    def task(self, does, depend):
        """A task that names these variables. The way says what `depend` does, or is None for what it means."""
        older = [ended for name, writes, ended in self.named
                 if any(name == other and (writes or also) for other, also in depend)]
        if older and self.dag.way == "order" and self.tasks > 0:
            self.sync()
        ended = self.spawn(does, after=older if self.dag.way in (None, "outliving") else ())
        self.task_ends.append(ended)
        self.named += [(name, writes, ended) for name, writes in depend]
        self.tasks += 1


class Team:
    """Runs a region's items by its members, from barrier to barrier."""

    def __init__(self, dag, around, size):
        self.dag, self.around, self.size = dag, around, size
        self.asks, self.before = False, None

    def run(self, items):
        """Each member's items are a generator that stops at barriers."""
        members = [Member(self, number, items) for number in range(self.size)]
        parts = [member.steps() for member in members]
        while parts:
            parts = [part for part, member in zip(list(parts), [member for member in members if not member.ended])
                     if self.step(part, member)]
            self.around.sync()
            self.before = None

    def step(self, part, member):
        def run_part(child):
            member.part = child
            member.ended = next(part, "end") == "end"
        self.around.spawn(run_part)
        return not member.ended


class Member:
    """One thread of a team. Single regions, and loops but those in blocks, are done by the first one that doesn't leave
    them to others: who is behind a master region does, and in a region that asks for numbers all but the last one."""

    def __init__(self, team, number, items):
        self.team, self.number, self.items, self.part, self.ended = team, number, items, None, False

    def steps(self):
        for item in self.items:
            yield from getattr(self, item.kind)(item)

    def do(self, procedure, item):
        """What has no barrier, in a part of this member or in a child."""
        if item.kind == "task":
            procedure.task(lambda child: [self.do(child, inner) for inner in item.inner], item.depend)
        elif item.kind == "taskwait" and procedure.tasks > 0:
            procedure.wait_for_tasks()
        elif item.kind == "access":
            procedure.access(self.place(item.variable, 0), item.writes, item.guard)
        elif item.kind == "guarded":
            for inner in item.inner:
                self.do(procedure, inner)

    def place(self, variable, iteration):
        array = variable.partition("[")
        if array[1]:
            return f"{array[0]}[{self.number if 'thread' in array[2] else iteration + (1 if '+' in array[2] else 0)}]"
        return variable

    def access(self, item):
        self.team.asks |= "thread" in item.variable
        self.do(self.part, item)
        yield from ()

    def task(self, item):
        self.do(self.part, item)
        yield from ()

    taskwait = guarded = task

    def group(self, item):
        """Its end waits for tasks, and in the trace for all that its thread made in it."""
        older = self.part.ends()
        for inner in item.inner:
            yield from getattr(self, inner.kind)(inner)
        self.part.end_group(older)

    def numbered(self, item):
        """What only the thread of a number does."""
        self.team.asks = True
        if self.number == item.number:
            self.do(self.part, item.inner[0])
        yield from ()

    def barrier(self, _):
        yield

    def is_last(self):
        return self.number + 1 == self.team.size

    def does(self, item):
        """Whether this member does most of it, or the first block."""
        if self.number == 0:
            item.first = None
        leaves = not self.is_last() and (self.part.has_master or self.team.asks)
        if item.first is None and not leaves:
            item.first = self.number
        return item.first == self.number

    def share(self, item, count):
        """What this member does of a loop or of sections that aren't in blocks: the last one has the last two."""
        rest = count - min(count // 2, 2)
        first = 0 if item.first == self.number else rest
        return range(first, count) if self.is_last() else range(first, rest)

    def single(self, item):
        if self.does(item):
            self.part.spawn(lambda child: [self.do(child, inner) for inner in item.inner])
        if not item.nowait:
            yield

    def master(self, item):
        if self.number == 0:
            self.part.has_master = True
            for inner in item.inner:
                self.do(self.part, inner)
        yield from ()

    def sections(self, item):
        self.does(item)
        if self.number == 0:
            item.in_blocks = self.team.asks
        if item.in_blocks:
            item.first = 0
        if item.in_blocks:
            for at in self.block(item, len(item.inner)):
                self.do(self.part, item.inner[at])
        else:
            for at in self.share(item, len(item.inner)):
                self.part.spawn(lambda child, inner=item.inner[at]: self.do(child, inner))
        if not item.nowait:
            yield

    def block(self, item, count):
        """Members before the first have none, and the last one has the rest."""
        sizes = [(count // self.team.size + (number < count % self.team.size)) * (number >= item.first)
                 for number in range(self.team.size)]
        first = sum(sizes[:self.number])
        return range(first, count if self.is_last() else first + sizes[self.number])

    def iteration(self, procedure, item, at):
        for inner in item.inner:
            if inner.kind == "access":
                procedure.access(self.place(inner.variable, at), inner.writes)
            else:
                self.do(procedure, inner)

    def loop(self, item):
        asks, does = any("thread" in inner.variable for inner in item.inner if inner.kind == "access"), self.does(item)
        if self.number == 0:
            before = self.team.before
            alike = before and before.in_blocks and before.static and item.static and before.count == item.count
            item.in_blocks = self.team.asks or (item.static and item.nowait) or bool(alike)
            item.is_made_so = asks and not item.in_blocks
            self.team.before = item
        if item.in_blocks and not item.is_made_so:
            item.first = 0
        item.in_blocks |= asks and does
        self.team.asks |= asks and does
        if item.in_blocks:
            for at in self.block(item, item.count):
                self.iteration(self.part, item, at)
            if item.is_made_so and self.number == item.first:
                self.part.sync()
        else:
            for at in self.share(item, item.count):
                self.part.spawn(self.iteration, item, at)
        if item.sum and self.is_last():
            self.part.spawn(self.combine, item.sum)
        if not item.nowait:
            yield

    @staticmethod
    def combine(child, variable):
        child.access(variable, False, "atomic")
        child.access(variable, True, "atomic")


# ---- Programs ----

class Item:
    def __init__(self, kind, **more):
        self.kind = kind
        self.__dict__.update(more)


class Writer:
    """A random program: its items, and their lines in C."""

    def __init__(self, number, source):
        self.random, self.number, self.lines = source, number, []
        self.has_guards = self.has_depend = False
        # Of some programs the most is done by tasks, which rarely meet.
        self.has_tasks = self.chance(0.4)
        self.globals = [f"p{number}_g{at}" for at in range(MANY if self.has_tasks else GLOBALS)]
        self.slots, self.local = f"p{number}_s", "local"

    def chance(self, of):
        return self.random.random() < of

    def write(self):
        self.threads = self.random.randint(2, 4)
        self.line(f"static number {', '.join(self.globals)}, {self.slots}[{SLOTS}];")
        self.items = [self.make_single()] if self.has_tasks else \
            [self.item(deep=0) for _ in range(self.random.randint(1, 7))]
        inner, self.lines = self.lines[1:], self.lines[:1]
        # gcc copies a variable without an address into a region and back.
        self.line(f"static void p{self.number}(void) {{ int value; number local; shown = &local;")
        self.line(f"#pragma omp parallel num_threads({self.threads}) private(value)")
        self.line("{")
        self.lines += inner
        self.line("}")
        self.line("}")

    def line(self, text):
        self.lines.append(text)

    def variable(self, index=None):
        kind = self.random.randrange(8)
        if kind < 5:
            return self.random.choice(self.globals)
        if kind == 5:
            return self.local
        if index is not None and kind == 6:
            return f"{self.slots}[{index}{self.random.choice(('', ' + 1'))}]"
        return f"{self.slots}[thread]" if self.chance(0.4) else self.random.choice(self.globals)

    def access(self, index=None, in_child=False, guard=None):
        variable, writes = self.variable(index), self.chance(0.4)
        if in_child and "thread" in variable:
            variable = self.globals[0]
        name = variable.replace("thread", "omp_get_thread_num()")
        if in_child and guard is None and self.chance(0.1):
            guard, self.has_guards = "atomic", True
            self.line(f"#pragma omp atomic {'write' if writes else 'read'}")
            self.line(f"{name} = 1;" if writes else f"value = {name};")
        else:
            self.line(f"{name} = 1;" if writes else f"use({name});")
        return Item("access", variable=variable, writes=writes, guard=guard)

    def guarded(self, deep):
        """Accesses under a critical region or a lock, and maybe a task, which isn't."""
        guard, self.has_guards = self.random.choice(("critical", "critical(a)", "locks[0]", "locks[1]")), True
        is_lock = guard.startswith("locks")
        self.line(f"omp_set_lock(&{guard});" if is_lock else f"#pragma omp {guard}")
        self.line("{")
        inner = [self.access(in_child=True, guard=guard) for _ in range(self.random.randint(1, 2))]
        if deep < 2 and self.chance(0.3):
            inner.append(self.task(2))
        self.line("}")
        self.lines += [f"omp_unset_lock(&{guard});"] * is_lock
        return Item("guarded", inner=inner)

    def inner(self, count, deep, tasks=0.2):
        """What a child does: accesses and tasks."""
        return [self.task(deep + 1) if deep < 2 + self.has_tasks and self.chance(tasks) else
                self.taskwait() if self.chance(0.3 if self.has_tasks else 0.1) else
                self.guarded(deep) if deep < 2 and self.chance(0.15) else
                self.access(in_child=True) for _ in range(count)]

    def task(self, deep):
        names = self.random.sample(self.globals[:2], self.random.randint(1, 2))
        kinds = {name: self.random.choice(("in", "in", "out", "inout")) for name in names
                 if self.chance(0.1 if self.has_tasks else 0.4)}
        self.has_depend |= bool(kinds)
        self.line("#pragma omp task shared(local)" + "".join(f" depend({kinds[name]} : {name})" for name in kinds))
        self.line("{ int value;")
        item = Item("task", depend=[(name, kind != "in") for name, kind in kinds.items()],
                    inner=self.inner(self.random.randint(1, 3), deep, 0.4))
        self.line("}")
        return item

    def taskwait(self):
        self.line("#pragma omp taskwait")
        return Item("taskwait")

    def item(self, deep):
        kind = self.random.choice(("access", "access", "barrier", "single", "master", "loop", "loop", "sections", "task",
                                   "taskwait", "numbered", "guarded", *["group"] * (deep < 2)))
        return {"access": self.access, "taskwait": self.taskwait, "task": lambda: self.task(deep),
                "group": lambda: self.make_group(deep),
                "guarded": lambda: self.guarded(deep)}.get(kind, getattr(self, "make_" + kind, None))()

    def make_group(self, deep):
        self.line("#pragma omp taskgroup")
        self.line("{")
        item = Item("group", inner=[self.item(deep + 1) for _ in range(self.random.randint(1, 3))])
        self.line("}")
        return item

    def make_barrier(self):
        self.line("#pragma omp barrier")
        return Item("barrier")

    def make_single(self):
        nowait = self.chance(0.5)
        self.line("#pragma omp single" + " nowait" * nowait)
        self.line("{")
        item = Item("single", nowait=nowait, inner=self.inner(self.random.randint(2, 8 if self.has_tasks else 4), 0, 0.6))
        self.line("}")
        return item

    def make_master(self):
        self.line("#pragma omp master")
        self.line("{")
        item = Item("master", inner=self.inner(2, 0))
        self.line("}")
        return item

    def make_numbered(self):
        number = self.random.randrange(self.threads)
        self.line(f"if (omp_get_thread_num() == {number})")
        return Item("numbered", number=number, inner=[self.access(in_child=True)])

    def make_sections(self):
        nowait = self.chance(0.4)
        self.line("#pragma omp sections" + " nowait" * nowait)
        self.line("{")
        inner = []
        for _ in range(self.random.randint(1, 3)):
            self.line("#pragma omp section")
            inner.append(self.access(in_child=True))
        self.line("}")
        return Item("sections", nowait=nowait, inner=inner)

    def make_loop(self):
        nowait, count = self.chance(0.4), self.random.choice((1, 4, 5))
        schedule = self.random.choice(("", "static", "static", "dynamic", "guided"))
        sum = self.random.choice(self.globals) if self.chance(0.15) else None
        self.line("#pragma omp for" + f" schedule({schedule})" * bool(schedule) + " nowait" * nowait
                  + (f" reduction(+ : {sum})" if sum else ""))
        self.line(f"for (int i = 0; i < {count}; i++) {{")
        begun = len(self.lines)
        inner = [self.access("i") for _ in range(self.random.randint(1, 2))]
        if sum:
            inner = [item for item in inner if item.variable != sum]
            self.lines[begun:] = [line for line in self.lines[begun:] if sum not in line] + [f"{sum}++;"]
        self.line("}")
        return Item("loop", nowait=nowait, count=count, static=schedule == "static", sum=sum, inner=inner)

    def racy(self, way):
        dag = Dag(way)
        around = Procedure(dag, dag.strand())
        Team(dag, around, self.threads).run(self.items)
        return dag.racy()


# ---- Both ----

class Batch:
    """Some programs in one file."""

    def __init__(self, folder, first, count, seed, is_cplusplus):
        self.name = os.path.join(folder, f"b{first}")
        self.compiler, self.ending = ("spbags-c++", ".cpp") if is_cplusplus else ("spbags-cc", ".c")
        self.writers = [Writer(number, random.Random(f"{seed} {number}")) for number in range(first, first + count)]
        lines = HEAD.splitlines()
        for writer in self.writers:
            writer.write()
            lines += writer.lines
        calls = " ".join(f"case {writer.number}: p{writer.number}(); break;" for writer in self.writers)
        lines.append("int main(int count, char **words) { omp_init_lock(locks); omp_init_lock(locks + 1); "
                     f"switch (atoi(words[1])) {{ {calls} }} }}")
        with open(self.name + self.ending, "w", encoding="utf-8") as file:
            file.write("\n".join(lines) + "\n")

    def run(self, *words, statuses=(0,), files=None, **settings):
        numbers = {name: file.fileno() for name, file in (files or {}).items()}
        settings |= {name: f"fd:{number:05}" for name, number in numbers.items()}
        done = subprocess.run(words, capture_output=True, text=True, env={**os.environ, **settings},
                              pass_fds=numbers.values())
        if done.returncode not in statuses:
            sys.exit(f"random_openmp.py: {' '.join(words)}: {done.stderr}")
        return done.stdout

    def build(self, level):
        self.run(os.path.join(TRACER, self.compiler), *DETECTOR, "-fopenmp", level, "-w", "-o", self.name,
                 self.name + self.ending)
        symbols = map(str.split, self.run("nm", "-C", self.name).splitlines())
        self.addresses = {words[2]: int(words[0], 16) for words in symbols if words[1:2] == ["b"]}

    def names(self, writer):
        """By location. All of the stack is the local variable."""
        places = {**{name: (name, 0) for name in writer.globals},
                  **{f"{writer.slots}[{at}]": (writer.slots, 4 * at) for at in range(SLOTS)}}
        # The program has no variable that it doesn't use.
        found = {(self.addresses[of] + offset) // 4 * 2: name for name, (of, offset) in places.items()
                 if of in self.addresses}
        return lambda location: writer.local if location % 2 else found.get(location, "?")

    def found(self, writer, way):
        """The variables that race in the first run; those that race there or in the run behind taskwaits; whether both see
        all; and whether there was another run."""
        settings = {"SPBAGS_TEAM": str(writer.threads), "SPBAGS_DEPEND": way}
        with tempfile.TemporaryFile() as waited, tempfile.TemporaryFile() as said:
            files = {"SPBAGS_WAITED": waited, "SPBAGS_SAYS": said}
            first = both = self.races(writer, way, settings, files)
            if again := os.fstat(waited.fileno()).st_size > 0:
                both = {*first, *self.races(writer, way, settings, files)}
            said.seek(0)
            kinds = [line.partition(b":")[0] for line in said]
        return first, set(both), kinds.count(b"waits") < 2 and b"incomplete" not in kinds, again

    def races(self, writer, way, settings, files):
        trace, is_second = f"{self.name}.{writer.number}", os.fstat(files["SPBAGS_WAITED"].fileno()).st_size > 0
        self.run(self.name, str(writer.number), files=files, SPBAGS_TRACE=trace, SPBAGS_REPORT="", **settings)
        report = self.run(SPBAGS, "check", trace, statuses=(0, 1))
        if INSIDE:
            with tempfile.TemporaryFile() as waited, tempfile.TemporaryFile() as said:
                again = {"SPBAGS_WAITED": files["SPBAGS_WAITED"] if is_second else waited, "SPBAGS_SAYS": said}
                if report != self.own_report(writer, trace[:-1] + "~", settings, again):
                    self.differing.append(way)
        os.remove(trace)
        os.remove(trace + ".places")
        return sorted(map(self.names(writer), (int(line.split()[1]) for line in report.splitlines()[1:])))

    def own_report(self, writer, name, settings, files):
        """That of the detector inside. The environment is as long as in the traced run: the program's words lie before
        it."""
        self.run(self.name, str(writer.number), files=files, SPBAGS_TRACE="", SPBAGS_REPORT=name, **settings)
        with open(name, encoding="ascii") as file:
            return file.read()

    def falsely_guarded(self, writer):
        """The variables that have races under one guard only, and aren't told so, or no such races, and are."""
        report = self.run(os.path.join(TRACER, "spbags-run"), "--json", "--most", "1000", "--", self.name,
                          str(writer.number), statuses=(0, 1, 3), SPBAGS_TEAM=str(writer.threads),
                          SPBAGS_DEPEND="ignore")
        wanted, name_of = writer.racy("ignore"), self.names(writer)
        told = [(name_of(pair["location"]), pair["guard"] is not None) for pair in json.loads(report)["pairs"]]
        return [name for name, is_guarded in told
                if (None not in wanted[name] and not is_guarded) or (wanted[name] == {None} and is_guarded)]

    def faults(self, writer):
        """What the runs say and the model doesn't."""
        ways, self.differing = ("order", "ignore") if writer.has_depend else ("ignore",), []
        wanted, runs = [sorted(writer.racy(way)) for way in ways], [self.found(writer, way) for way in ways]
        found, (_, both, sees_all, again) = [first for first, *_ in runs], runs[0]
        if again:
            self.again.add(writer.number)
        own, outliving = set(writer.racy(None)), set(writer.racy("outliving"))
        if not both <= outliving or sees_all and not outliving <= both:
            yield f"with tasks that outlive others it has {sorted(outliving)}, found {sorted(both)}, all: {sees_all}"
        if self.differing:
            yield f"by {self.differing} the report of the detector inside isn't the checker's"
        if wanted != found:
            yield f"wanted {wanted}, found {found}"
        if not own <= set(found[-1]) or (writer.has_depend and not set(found[0]) <= own):
            yield f"the program has {sorted(own)}, found {found}"
        # It runs such a program twice, and takes long.
        is_asked = writer.has_guards and writer.number % 4 == 0 and wanted == found and not again
        if is_asked and (names := self.falsely_guarded(writer)):
            yield f"the guards of {names}"

    def wrong(self):
        """The programs whose races aren't those that the model names, at each level."""
        self.racy, self.again = sum(bool(writer.racy(None)) for writer in self.writers), set()
        return set().union(*map(self.wrong_at, LEVELS))

    def wrong_at(self, level):
        self.build(level)
        wrong = []
        for writer in self.writers:
            if faults := list(self.faults(writer)):
                print("\n".join(writer.lines), file=sys.stderr)
                print(f"program {writer.number} {level}: {'; '.join(faults)}", file=sys.stderr)
                wrong.append(writer.number)
        return wrong


def main():
    parser = argparse.ArgumentParser(description=__doc__, formatter_class=argparse.RawDescriptionHelpFormatter)
    for name, value in (("count", 200), ("seed", 1)):
        parser.add_argument("--" + name, type=int, default=value)
    parser.add_argument("--c++", action="store_true", dest="is_cplusplus")
    words = parser.parse_args()
    wrong, racy, again = 0, 0, 0
    with tempfile.TemporaryDirectory(prefix="spbags-random-") as folder:
        for first in range(0, words.count, BATCH):
            batch = Batch(folder, first, min(BATCH, words.count - first), words.seed, words.is_cplusplus)
            wrong += len(batch.wrong())
            racy += batch.racy
            again += len(batch.again)
    print(f"{words.count} programs, {racy} with races, {again} with a run behind taskwaits, {wrong} wrong")
    return 1 if wrong or not racy else 0


sys.exit(main())
