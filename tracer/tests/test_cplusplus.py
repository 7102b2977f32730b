#!/usr/bin/env python3
"""C++, with OpenMP and with Cilk: for each level, and for clang++ what it compiles. The races are those of the tags."""
import os
import re
import signal
import subprocess
import sys
import time

sys.dont_write_bytecode = True
import cases
from cases import (INSIDE, LEVEL, SPBAGS_CPLUSPLUS, SPBAGS_RUN, TESTS, TRACER, TracerTest, by_call, line_of, lines_of,
                   once_of_levels, tagged_races)

CLASSES, SHARED, LOOPS, SPAWNS, COPIES, CONTAINERS, REFUSED = (os.path.join(TESTS, name + ".cpp") for name in (
    "openmp", "cplusplus", "loops", "spawns", "copies", "containers", "refused"))
IS_CLANG = os.environ.get("SPBAGS_CXX") == "clang++"
SERIAL = ("-D_Cilk_spawn=", "-D_Cilk_sync=", "-D_Cilk_scope=", f"-I{TRACER}/include")
# libstdc++ counts a pointer's owners without atomic operations where a process has one thread.
POINTER = """#include <memory>
int main() {
    auto all = std::make_shared<int>(1);
#pragma omp parallel for
    for (int i = 0; i < 4; i++) {
        std::shared_ptr<int> one = all;
        if (*one != 1)
            one.reset();
    }
}
"""
EARLY = """static int shared;
static struct Early {
    Early() {
#pragma omp task
        shared = 1;
        shared = 2;
#pragma omp taskwait
    }
} early;
int main() {}
"""
# What a task calls once fails, and then it holds the flag no more.
FAILED_ONCE = """#include <mutex>
static std::once_flag is_done;
static int shared;
int main() {
    for (int i = 0; i < 2; i++)
#pragma omp task
    {
        try {
            std::call_once(is_done, [] { throw 1; });
        } catch (int) {
            shared++;
        }
    }
#pragma omp taskwait
}
"""
# Whoever comes first initialises a local static. The word names a way.
STATICS = """#include <cstdlib>
#include <map>
#include <string>
#include <vector>
static int next_number, seen[4];
static int *shared;
struct Filled {
    std::string text = "a text that has memory of its own";
    std::vector<int> many;
    std::map<int, std::string> tree;
    int own[3];
    Filled() {
        for (int i = 0; i < 3; i++) {
            many.push_back(i);
            tree[i] = text;
            own[i] = i;
        }
    }
};
static Filled &filled() { static Filled one; return one; }
static const std::string &named() {
    static const std::string &text = std::string(40, 'x');
    return text;
}
template <class Value> static Value &of_template() { static Value value(3, 7); return value; }
static int uses(int i) {
    static std::vector<int> here(20, i);
    auto text = [] { static std::string inner(100, 'x'); return inner; }();
    return filled().many[i] + filled().own[i] + (int)(filled().text.size() + filled().tree[i].size() + named().size()) +
           of_template<std::vector<int>>()[i] + here[i] + (int)text.size();
}
static int number() {
    static int id = ++next_number; // [number]
    return id;
}
static int from_before() {
    static int value = *shared = 1; // [from before]
    return value;
}
static int &made() { static int &value = *new int(1); return value; }
static int uses_made() {
    static int value = made()++; // [uses made]
    return value;
}
static int left() {
    static int value = (std::exit(0), 1);
    return value;
}
static int spawned() {
    static int value = [] {
        int sum = 0;
#pragma omp task shared(sum)
        sum++;
#pragma omp taskwait
        return sum;
    }();
    return value;
}
static int thrown() {
    static int value = [] {
        if (next_number++ == 0) // [thrown]
            throw 1;
        return 2;
    }();
    return value;
}
static int tried() try { return thrown(); } catch (int) { return 0; }
int main(int, char **words) {
    const std::string way = words[1];
    shared = new int(0);
    for (int i = 0; i < 3; i++)
#pragma omp task firstprivate(i)
        seen[i] = way == "own" ? uses(i) : way == "thrown" ? tried() : 0;
#pragma omp taskwait
#pragma omp task
    seen[0] = way == "number" ? number() : way == "before" ? from_before() : way == "inner" ? uses_made() : 0;
    if (way == "number")
        seen[1] = next_number; // [beside number]
    if (way == "before")
        seen[1] = *shared; // [beside before]
    if (way == "inner")
        seen[1] = made(); // [beside made]
#pragma omp taskwait
#pragma omp task
    if (way == "after")
        filled().own[1] = 1; // [after]
    if (way == "after")
        filled().own[1]++; // [beside after]
#pragma omp taskwait
    if (way == "left")
        left();
    if (way == "spawned")
        spawned();
}
"""
# A task waits for what comes later in the serial order.
FUTURE = """#include <future>
int main() {
    std::promise<int> promise;
    auto future = promise.get_future();
#pragma omp task shared(future)
    future.get();
    promise.set_value(3);
}
"""
THROWN = "int main() {\ntry {\ncilk_for (int i = 0; i < 2; i++) throw i;\n} catch (int) {}\n}\n"
# The library's function calls one that spawns, and that waits when it returns.
CALLED_BACK = """#include <cilk/cilk.h>
#include <algorithm>
#include <vector>
int last;
void set(int value) { last = value; }
int main() {
    std::vector<int> values(2);
    std::for_each(values.begin(), values.end(), [](int value) { cilk_spawn set(value); });
}
"""
# libstdc++ keeps in a table what it has narrowed.
NARROWED = """#include <cilk/cilk.h>
#include <locale>
static const std::ctype<char> *kind;
static char narrow(char one) { return kind->narrow(one, '?'); }
int main() {
    kind = &std::use_facet<std::ctype<char>>(std::locale::classic());
    cilk_spawn narrow('x');
    narrow('x');
    cilk_sync;
}
"""
# The compiler might leave out the call.
BY_POINTER = """#include <cilk/cilk.h>
static int asked;
static int ask(int about) { return asked = about; }
typedef int (*asking)(int) __attribute__((const));
static void ask_by(asking one) { one(1); }
int main() {
    cilk_spawn ask_by((asking)ask);
    asked = 2;
    cilk_sync;
}
"""
# Whoever comes first makes the object of its thread, beside which the compiler keeps whether it is made.
OWN_OBJECT = """#include <cilk/cilk.h>
struct Counter {
    int value;
    Counter() : value(first()) {}
    static int first() { return 1; }
};
static thread_local Counter counter;
static int seen[2];
static void see(int at) {
    static thread_local Counter local;
    seen[at] = counter.value + local.value;
}
int main() {
    cilk_spawn see(0);
    see(1);
    cilk_sync;
}
"""
# Whoever comes first initialises a local static; what else that writes is shared.
STATIC_IN_CHILD = """#include <cilk/cilk.h>
#include <string>
static int next_number, seen[2];
static const std::string &text() {
    static const std::string value = std::string(40, 'x') + std::to_string(++next_number); // [number]
    return value;
}
static void see(int at) { seen[at] = text()[at]; }
int main() {
    cilk_spawn see(0);
    see(1);
    seen[1] = next_number; // [beside number]
    cilk_sync;
}
"""
# A template of several lines, and one of which a line is like a directive.
ASSEMBLY = """#include <cilk/cilk.h>
int count, other;
static void up() {
    asm volatile(R"(
        lock
        incl %0 # [first]
    )" : "+m"(count));
    asm volatile(R"x(
#pragma omp parallel
    incl %0)x" : "+r"(::other));
}
int main() {
    cilk_spawn up();
    count = 1; // [second]
    other = 1; // [third]
}
"""
# Names that the tracer's own headers once had, and the library's hasn't.
MACROS = """A C COUNT Call Child Declared F Function Left Member More O Object One P R Right Seen Signature Statement T TYPE
    Taken Text Unseen argument arguments callee code ended exists has_default has_empty is_copied is_made_ leaves locked
    n passed place result_size scale shown statement taken throw_again thrown unseen unwinds views whole writes"""
UNIT = {"SPBAGS_UNIT": "1"}


class CPlusPlusTest(TracerTest):
    def build(self, name, source, *flags, compiler=""):
        super().build(name, source, *([] if compiler else [LEVEL]), *flags, compiler=compiler)

    def has_tagged_races(self, source, program, **settings):
        self.assertEqual(tagged_races(source), self.races_in(source, program, "racy", **UNIT, **settings))

    def has_no_race(self, wanted, program, **settings):
        """The clean way prints this too."""
        traced = self.succeeds(program, "clean", SPBAGS_TRACE="run.trace", **UNIT, **settings)
        self.assertEqual(wanted, traced.out)
        self.assertEqual("races 0\n", self.check("run.trace").out)

    def prints(self, wanted, status, *words):
        """Of what spbags-run shows, without the last line of its report."""
        said = self.reports(status, "", "--", *words).splitlines()
        self.assertEqual(wanted, [line for line in said if not line.startswith("races")])


class OpenMPTest(CPlusPlusTest):
    def test_library(self):
        self.build("cplusplus", SHARED, "-fopenmp")
        with self.subTest("racy"):
            self.has_tagged_races(SHARED, "./cplusplus")
        with self.subTest("clean"):
            self.has_no_race("early late: two threw, 24 letters, 4 sides\n", "./cplusplus")

    def test_shared_pointer(self):
        """Its counter is atomic."""
        self.write("shared.cpp", POINTER)
        self.build("shared", "shared.cpp", "-fopenmp")
        said = self.run_command(SPBAGS_RUN, "--json", "--", "./shared").out
        self.assertEqual(['"guard": "atomic"'], sorted(set(re.findall('"guard": [^,]*', said))))

    def test_failed_once(self):
        self.write("failed.cpp", FAILED_ONCE)
        self.build("failed", "failed.cpp", "-fopenmp")
        status, report = self.report_of("./failed", options=["--data-races"])
        self.assertEqual((1, ["1 11 11"]), (status, self.lines_in("failed.cpp", cases.races_of_report(report))))
        self.assertEqual([(None, None)], [(pair["guard"], pair["held_before"]) for pair in report["pairs"]])

    def test_statics(self):
        """What an initialiser accesses is seen, but for the static itself and what is allocated meanwhile."""
        self.write("statics.cpp", STATICS)
        self.build("statics", "statics.cpp", "-fopenmp")
        for way, *tags in (("own",), ("number", "number", "beside number"), ("before", "from before", "beside before"),
                           ("inner", "uses made", "beside made"), ("after", "after", "beside after"),
                           ("thrown", "thrown", "thrown")):
            wanted = [f"1 {' '.join(str(line_of('statics.cpp', f'[{tag}]')) for tag in tags)}"] if tags else []
            with self.subTest(way):
                status, report = self.report_of("./statics", way)
                self.assertEqual(wanted, self.lines_in("statics.cpp", cases.races_of_report(report)))
                self.assertEqual((int(bool(tags)), []), (status, report["incomplete"]))
            with self.subTest("a trace", way=way):
                self.succeeds("./statics", way, SPBAGS_TRACE="run.trace")
                self.assertEqual(wanted, self.lines_in("statics.cpp", self.traced_races("./statics")[0]))
        self.reports(3, "the run's end has left what initialises a local static", "--", "./statics", "left")
        self.reports(3, "the initialisation of a local static spawns", "--", "./statics", "spawned")

    def test_before_main(self):
        self.write("early.cpp", EARLY)
        self.build("early", "early.cpp", "-fopenmp")
        self.assertEqual(["1 5 6"], self.races_in("early.cpp", "./early"))

    @once_of_levels
    def test_strings(self):
        self.prints_its_texts(SPBAGS_CPLUSPLUS, os.environ.get("SPBAGS_CXX", "g++"), "-fopenmp", "-DOPENMP")

    @once_of_levels
    def test_refused(self):
        with self.subTest("a delete of its own"):
            self.write("own_delete.cpp", "void operator delete(void *block) noexcept { }\n"
                                         "int main() { delete new int; }\n")
            self.ends_with(1, "leave out the program.s", SPBAGS_CPLUSPLUS, "-o", "own_delete", "own_delete.cpp")
        with self.subTest("std::thread"):
            self.write("thread.cpp", "#include <thread>\nint main() { std::thread([] {}).join(); }\n")
            self.succeeds(SPBAGS_CPLUSPLUS, "-o", "thread", "thread.cpp")
            self.ends_with(2, "the program starts a thread", "./thread", SPBAGS_TRACE="run.trace")

    @once_of_levels
    def test_future(self):
        """It waits without end, and a line says so."""
        self.write("future.cpp", FUTURE)
        self.succeeds(SPBAGS_CPLUSPLUS, "-fopenmp", "-o", "future", "future.cpp")
        with open("errors", "w", encoding="utf-8") as errors, subprocess.Popen(
                ["./future"], stderr=errors, env={**os.environ, "SPBAGS_TRACE": "run.trace"}) as run:
            end = time.monotonic() + cases.LONG
            while "and so for ever" not in self.read("errors") and time.monotonic() < end:
                time.sleep(0.01)
            run.send_signal(signal.SIGTERM)
        self.assertIn("and so for ever", self.read("errors"))


class ClassesTest(CPlusPlusTest):
    """Those that OpenMP copies, and exceptions. What a program prints doesn't depend on the number of threads."""

    def test_classes(self):
        options = ["-fopenmp", "-std=c++17"]
        self.build("plain", CLASSES, "-w", *options, compiler="g++")
        options += ["-fopenmp-version=51"] if IS_CLANG else []
        self.build("classes", CLASSES, "-Wall", "-Wextra", "-Werror", *options)
        with self.subTest("clean"):
            self.has_no_race(self.run_command("./plain", "clean").out, "./classes")
        with self.subTest("racy"):
            self.has_tagged_races(CLASSES, "./classes")


class CilkTest(CPlusPlusTest):
    def test_loops(self):
        self.build("loops", LOOPS)
        with self.subTest("clean"):
            self.assertEqual([], self.races_in(LOOPS, "./loops", "clean"))
        with self.subTest("racy"):
            wanted = [line_of(LOOPS, f"[{tag}]") for tag in ("last", "shared", "step", "thrower")]
            self.assertEqual(sorted(wanted), sorted(int(race.split()[2])
                                                    for race in self.races_in(LOOPS, "./loops", "racy")))
        with self.subTest("exceptions that loops throw again"):
            self.prints(["218 2222 10"], 0, "./loops", "thrown")

    def test_thrown(self):
        self.write("thrown.cpp", THROWN)
        with self.subTest("C++11"):
            self.build("loops", "thrown.cpp", "-std=c++11", "-include", "cilk/cilk.h")
            self.reports(0, "", "--", "./loops")
        with self.subTest("without Cilk's header"):
            self.build("loops", "thrown.cpp", "-Dcilk_for=_Cilk_for")
            self.reports(3, "thrown.cpp:3: an exception leaves a child here", "--", "./loops")

    def test_library_keeps(self):
        self.write("narrowed.cpp", NARROWED)
        self.build("narrowed", "narrowed.cpp")
        self.reports(0, "race:^std::ctype<char>::narrow( suppresses 1 race of 1 pair", "--unseen-ok", "*", "--",
                     "./narrowed")

    def test_by_pointer(self):
        self.write("by_pointer.cpp", BY_POINTER)
        self.succeeds(SPBAGS_CPLUSPLUS, LEVEL, "-w", "-o", "by_pointer", "by_pointer.cpp")
        self.assertEqual(["1 3 8"], self.races_in("by_pointer.cpp", "./by_pointer"))

    def test_own_object(self):
        self.write("own.cpp", OWN_OBJECT)
        self.build("own", "own.cpp")
        self.assertNotRegex(self.reports(1, "each thread has its own", "--", "./own"), "__tls_guard|guard variable")
        self.reports(0, "", "--data-races", "--", "./own")

    def test_static_in_child(self):
        self.write("statics.cpp", STATIC_IN_CHILD)
        self.build("statics", "statics.cpp")
        lines = (line_of("statics.cpp", f"[{tag}]") for tag in ("number", "beside number"))
        self.assertEqual([f"1 {' '.join(map(str, lines))}"], self.races_in("statics.cpp", "./statics"))

    @once_of_levels
    def test_macros(self):
        text = "#include <cilk/cilk.h>\nstatic int f() { return 0; }\n" \
               "int main() { try { int x = cilk_spawn f(); cilk_sync; return x; } catch (int) {} }\n"
        self.compiles_with_macros(SPBAGS_CPLUSPLUS, "macros.cpp", text, MACROS)

    @once_of_levels
    def test_strings(self):
        self.prints_its_texts(SPBAGS_CPLUSPLUS, "g++")

    def test_assembly(self):
        self.write("assembly.cpp", ASSEMBLY)
        self.build("assembly", "assembly.cpp")
        found = {race.split()[2] for race in self.races_in("assembly.cpp", "./assembly")}
        self.assertEqual({str(line_of("assembly.cpp", f"[{tag}]")) for tag in ("second", "third")}, found)
        self.reports(1, "races 2, pairs of lines 2", "--", "./assembly")

    def test_inlined(self):
        """The library's functions are, into each other, and none of the program's."""
        self.write("called_back.cpp", CALLED_BACK)
        self.build("called_back", "called_back.cpp")
        self.reports(0, "races 0", "--", "./called_back")
        has_increment = "::operator++()" in self.succeeds("nm", "-C", "called_back").out
        self.assertEqual(LEVEL == "-O0", has_increment)

    def test_spawns(self):
        """They do what the serial program does."""
        self.build("spawns", SPAWNS, "-Wall", "-Wextra", "-Werror")
        self.build("plain", SPAWNS, "-w", *SERIAL, compiler="g++")
        printed = self.run_command("./plain", "clean").out
        for version in "12":
            with self.subTest("clean", version=version):
                self.has_no_race(printed, "./spawns", SPBAGS_VERSION=version)
            with self.subTest("racy", version=version):
                self.has_tagged_races(SPAWNS, "./spawns", SPBAGS_VERSION=version)
        with self.subTest("the same without repeats"):
            self.is_same_without_repeats("setarch", "-R", "./spawns", "racy", **UNIT)
        with self.subTest("an exception"):
            self.reports(3, f"{SPAWNS}:{line_of(SPAWNS, '[thrown]')}: an exception leaves a child here", "--",
                         "./spawns", "thrown")
        with self.subTest("exceptions that a sync throws again"):
            self.prints(["22 221 221 15 7 1 8 6 10", "1"], 0, "./spawns", "kept")
        if INSIDE:
            with self.subTest("the report of the detector inside"):
                self.has_same_report("./spawns", "racy", **UNIT)


# The first constructor writes what a cast reads.
CAST = """#include <new>
struct Base { Base() {} virtual ~Base() = default; };
struct Derived : Base {};
alignas(Derived) static char room[sizeof(Derived)];
static volatile bool is_derived;
int main() {
    Base *at = new (room) Derived;
#pragma omp parallel
#pragma omp single
    {
#pragma omp task
        is_derived = dynamic_cast<Derived *>(at);
        new (room) Derived;
    }
}
"""


class CopiesTest(CPlusPlusTest):
    def test_cast(self):
        self.write("cast.cpp", CAST)
        self.build("cast", "cast.cpp", "-fopenmp")
        self.assertEqual(["2 2 12"], self.races_in("cast.cpp", "./cast"))

    def test_copies(self):
        """Structs that calls take or give, by the line of each."""
        for options in ([], ["-march=native"], ["-masm=intel"], ["-fPIC"]):
            with self.subTest(options):
                self.build("copies", COPIES, "-fopenmp", *options)
                wanted = by_call(COPIES, map(cases.race_of, self.run_command("./copies").out.splitlines()))
                self.assertTrue(wanted)
                self.assertEqual(wanted, by_call(COPIES, self.races_of("./copies", **UNIT)))


class ContainersTest(CPlusPlusTest):
    def test_containers(self):
        """What the library has of them is seen, and does what the library's own does."""
        self.build("containers", CONTAINERS, "-fopenmp")
        self.succeeds("g++", "-o", "plain", CONTAINERS)
        with self.subTest("the same output, and nothing that isn't seen"):
            self.prints(self.run_command("./plain").out.splitlines(), 0, "./containers")
        with self.subTest("races"):
            wanted = [f"{line_of(CONTAINERS, f'[{tag}]')} {line_of(CONTAINERS, f'[into {tag}]')}"
                      for tag in ("list", "tree")]
            found = self.races_in(CONTAINERS, "./containers", "racy")
            self.assertEqual(sorted(wanted), sorted(race.partition(" ")[2] for race in found))


class RefusedTest(CPlusPlusTest):
    def test_spawns(self):
        with self.subTest("what can't be rewritten"):
            self.assertEqual(lines_of(REFUSED, "// [refused]"),
                             self.refused_lines("error: ", SPBAGS_CPLUSPLUS, REFUSED))
        with self.subTest("operators that are built in"):
            self.assertEqual(lines_of(REFUSED, "// [built in]"), self.refused_lines(
                " error: .*: a spawn has to be a call, ", SPBAGS_CPLUSPLUS, "-DBUILT_IN", REFUSED))
        with self.subTest("C++11"):
            self.ends_with(1, "error: a spawn needs C..14", SPBAGS_CPLUSPLUS, "-std=c++11", "-c", REFUSED)


class ClangTest(CPlusPlusTest):
    def test_refused(self):
        """What clang++ doesn't compile."""
        for name, text, pattern in (
                ("cilk.cpp", "#include <cilk/cilk.h>\nvoid f();\nvoid g() {\ncilk_spawn f();\n}\n",
                 r"cilk.cpp:4:1: error: Cilk in C\+\+ can be traced only with g\+\+"),
                ("tbb.cpp", "#include <tbb/parallel_for.h>\n", r"can be traced only with g\+\+")):
            with self.subTest(name):
                self.write(name, text)
                self.ends_with(1, pattern, SPBAGS_CPLUSPLUS, "-c", name, SPBAGS_CXX="clang++", CC="clang")


if __name__ == "__main__":
    cases.main()
