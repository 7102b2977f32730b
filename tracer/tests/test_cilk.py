#!/usr/bin/env python3
"""What spbags-cc makes of Cilk in C, for each compiler."""
import os
import re
import subprocess
import sys

sys.dont_write_bytecode = True
import cases
from cases import (CC, INSIDE, SPBAGS_CC, SPBAGS_RUN, TESTS, TRACER, TracerTest, by_call, line_of, lines_of, race_of)

INTEL = r"""#include <cilk/cilk.h>
#include <stdio.h>
int cell;
static void up(void) {
    __asm__ volatile("inc DWORD PTR cell" : : : "memory"); /* [unseen] */
    int own = 1;
    __asm__ volatile("{incl %0|inc DWORD PTR cell}" : "+r"(own)); /* [unseen] */
    __asm__ volatile("{incl cell|inc %0}" : "+r"(own));
    __asm__ volatile("{addl %1, %0|add %0, %1}" : "+r"(own) : "r"(own));
}
int main(void) {
    cilk_spawn up();
    cilk_sync;
    printf("%d\n", cell + 1);
}
"""
# Names that the tracer's own headers once had.
MACROS = """T a at b bits builtin byte call callee count each element file flag format from function index kind line list locked
    mask n note number object piece place result room scale set shown sign size stream to type value view views whole
    wide writes"""
ENDLESS = """#include <cilk/cilk.h>
#include <stdlib.h>
int cell;
static void put(void) { cell = 1; }
static void leave(void) { cell = 2; exit(0); }
int main(void) {
    cilk_spawn put();
    leave();
}
"""
# The race's second access is that of the third block in its strand.
FULL = """#include <cilk/cilk.h>
static volatile struct { _Alignas(256) int first; } blocks[4];
static void put(void) { blocks[2].first = 1; }
int main(void) {
    cilk_spawn put();
    for (int at = 0; at < 3; at++)
        blocks[at].first = 2;
    cilk_sync; /* [wait] */
    blocks[3].first = 1;
    cilk_spawn put();
    cilk_sync;
}
"""
# Each child is as the other, and with its option gcc would make one of both.
ALIKE = """#include <cilk/cilk.h>
static int cells[2];
static void put(int *at) { *at = 1; }
static void put_same(int *at) { *at = 1; }
void (*volatile children[])(int *) = {put, put_same};
int main(void) {
    for (int at = 0; at < 2; at++)
        cilk_spawn children[at](cells + at);
    cells[0] = 2;
    cells[1] = 2;
    cilk_sync;
}
"""
CALLER = """#include <cilk/cilk.h>
int index(int *at);
static int x;
int main(void) {
    cilk_spawn index(&x);
    x = 2;
    cilk_sync;
}
"""
# One name of the library's is also called by the hooks, and one is of a part that calls it for OpenMP alone.
NAMED = """int index(int *at) { return *at = 1; }
void tell_report(void) {}
unsigned long strlen(const char *at) { unsigned long n = 0; while (at[n]) n++; return n; }
"""
NONE = "int __isoc23_strtol(void);\nint strlcat(void);\nint main(void) { return strlcat() + __isoc23_strtol(); }\n"


class TraceTest(TracerTest):
    def test_calls(self):
        """Of fib.c's calls with n of 2 or more, 88 for n = 10, each spawns one, and 34 are called: that of main, and in
        the others that of n - 2 where it is 2 or more. Main calls, that one spawns, and so on down to n = 1: that is 10
        deep."""
        self.succeeds(SPBAGS_CC, "-o", "fib", "fib.c")
        self.run_command("./fib", SPBAGS_TRACE="run.trace")
        records = cases.records_of("run.trace")
        with self.subTest("the version where none is named, and calls"):
            self.assertEqual(("trace 2", 34), (records[0], records.count("call")))
        with self.subTest("spawns and depth"):
            said = self.run_command(os.environ["SPBAGS"], "measure", "run.trace").out
            self.assertEqual(["spawns 88", "depth 10"], said.splitlines()[-2:])

    def test_strands(self):
        """With so few numbers for strands they run out again and again."""
        for source, jumps, unit in (("fib.c", False, "4"), ("traps.c", True, "1")):
            with self.subTest(source):
                self.succeeds(SPBAGS_CC, "-DRACY", "-o", "strands", source, CC=f"{CC} -DMARK_MOST_STRANDS=20")
                self.is_same_without_repeats("./strands", jumps=jumps, SPBAGS_UNIT=unit)

    def test_parts(self):
        """With so few blocks strands go out in parts."""
        few = {"CC": f"{CC} -DSTRAND_MOST_BLOCKS=2"}
        self.succeeds(SPBAGS_CC, "-DRACY", "-o", "strands", "matmul.c", **few)
        with self.subTest("the same without repeats"):
            self.is_same_without_repeats("./strands", most_blocks=2)
        with self.subTest("spbags-run"):
            self.assertEqual(cases.Example("matmul.c").races(), self.races_in("matmul.c", "./strands"))
        if INSIDE:
            with self.subTest("inside"):
                self.has_same_report("./strands")
        with self.subTest("the next wait behind the first access of a part"):
            self.write("full.c", FULL)
            self.succeeds(SPBAGS_CC, "-o", "full", "full.c", **few)
            self.reports(1, f"it waits next at full.c:{line_of('full.c', '[wait]')}", "--", "./full")

    def test_endless(self):
        """A function that doesn't return has its accesses."""
        self.write("endless.c", ENDLESS)
        self.succeeds(SPBAGS_CC, "-w", "-o", "endless", "endless.c")
        self.assertEqual(cases.as_races([(1, 4, 5)]), self.races_in("endless.c", "./endless"))

    def test_alike(self):
        self.write("alike.c", ALIKE)
        self.succeeds(SPBAGS_CC, *["-fipa-icf"] * (CC == "gcc"), "-o", "alike", "alike.c")
        self.assertEqual(cases.as_races([(1, 3, 9), (1, 4, 10)]), self.races_in("alike.c", "./alike"))

    def test_stores(self):
        source = os.path.join(TESTS, "stores.c")
        self.succeeds(CC, "-w", "-o", "plain", source)
        self.succeeds(SPBAGS_CC, "-w", "-o", "stores", source)
        self.assertEqual(self.run_command("./plain").out,
                         self.run_command("./stores", SPBAGS_TRACE="run.trace", SPBAGS_UNIT="1").out)


class ValuesTest(TracerTest):
    UNIT = {"SPBAGS_UNIT": "1"}

    def check_level(self, level):
        source = "tracer/tests/values.c"
        self.succeeds(SPBAGS_CC, level, "-w", "-o", "values", source)
        self.succeeds("./values", "wanted", SPBAGS_TRACE="run.trace", **self.UNIT)
        wanted = by_call(source, map(race_of, self.read("wanted").splitlines()))
        self.assertTrue(wanted)
        with self.subTest("spbags-lines", level=level):
            self.assertEqual(wanted, by_call(source, self.traced_races("./values")[0]))
        with self.subTest("spbags-run", level=level):
            self.assertEqual(wanted, by_call(source, self.races_of("./values", "again", **self.UNIT)))

    def test_unoptimized(self):
        self.check_level("-O0")

    def test_optimized(self):
        self.check_level("-O1")


INLINE = """inline void set(int *at) { *at = 1; }
static int cell;
static void child(void) { set(&cell); }
int main(void) { _Cilk_spawn child(); set(&cell); return 0; }
"""


class CompileTest(TracerTest):
    def test_refused(self):
        source = os.path.join(TESTS, "refused.c")
        with self.subTest("each tagged line, and nothing else"):
            said = self.run_command(SPBAGS_CC, "-c", "-o", "refused.o", source).errors
            found = re.findall(r"refused\.c:([0-9]+):(?:[0-9]+:)? error: ", said)
            self.assertEqual(lines_of(source, "/* [refused] */"), sorted(set(map(int, found))))
        with self.subTest("nothing is compiled"):
            self.assertFalse(os.path.exists("refused.o"))
        with self.subTest("no cilk.h"):
            self.write("no_header.c", "int main(void) {\ncilk_sync;\n}\n")
            self.ends_with(1, "(?m)^no_header.c:2:1: error: .*write .#include <cilk/cilk.h>'", SPBAGS_CC, "no_header.c")
        with self.subTest("a malloc of its own"):
            self.write("own_malloc.c", "void *malloc(unsigned long size) { return 0; }\nint main(void) {}\n")
            self.ends_with(1, "leave out the program.s, or give it another name, as with -Dmalloc=", SPBAGS_CC,
                           "own_malloc.c")
        with self.subTest("a source in C++"):
            self.ends_with(1, r"this is C\+\+: compile it with spbags-c\+\+", SPBAGS_CC, "-c", "other.cpp")

    def test_names(self):
        self.write("caller.c", CALLER)
        self.write("named.c", NAMED)
        with self.subTest("functions with names of the library's"):
            self.succeeds(SPBAGS_CC, "-w", "-o", "named", "caller.c", "named.c")
            self.assertEqual([(1, ("caller.c", 6), ("named.c", 1))], self.races_of("./named"))
        with self.subTest("functions that the library lacks"):
            self.write("none.c", NONE)
            if self.run_command(CC, "-w", "-o", "none", "none.c").status != 0:
                self.ends_with(1, "undefined reference to", SPBAGS_CC, "-w", "-o", "none", "none.c")

    def test_inline(self):
        """A function that needs no definition elsewhere, since a compiler puts it into its callers."""
        self.write("inline.c", INLINE)
        self.succeeds(CC, "-O1", "-o", "plain", "-D_Cilk_spawn=", "inline.c")
        self.succeeds(SPBAGS_CC, "-O1", "-o", "inline", "inline.c")
        self.assertEqual([(1, ("inline.c", 1), ("inline.c", 1))], self.races_of("./inline"))

    def test_library_of_mathematics(self):
        """A program links without it if a compiler needs no call."""
        self.write("math.c", "#include <math.h>\nint main(int n, char **words) { return fabsf(n - 3) != 2 || !words; }\n")
        self.succeeds(CC, "-o", "plain", "math.c")
        self.succeeds(SPBAGS_CC, "-o", "math", "math.c")
        self.succeeds("./math")

    def test_macros(self):
        text = "#include <cilk/cilk.h>\nstatic void f(void) {}\nint main(void) { cilk_spawn f(); cilk_sync; return 0; }\n"
        self.compiles_with_macros(SPBAGS_CC, "macros.c", text, MACROS)

    def test_strings(self):
        self.prints_its_texts(SPBAGS_CC, CC)

    def tells_of_assembly(self, printed, source):
        """What isn't known there has the tag, and all else is known."""
        self.assertEqual((3, printed), self.run_command(SPBAGS_RUN, "--output", "report", "--", "./assembly")[:2])
        found = re.findall(rf"(?m){source}:([0-9]+): the assembly here may access memory", self.read("report"))
        self.assertEqual(lines_of(source, "[unseen]"), sorted(map(int, found)))

    def test_assembly(self):
        source = "tracer/tests/assembly.c"
        for level in ("-O0", "-O1"):
            self.succeeds(SPBAGS_CC, "-w", level, "-o", "assembly", source)
            with self.subTest("what isn't known", level=level):
                self.tells_of_assembly("7 9\n", source)
            with self.subTest("operands", level=level):
                self.assertEqual(cases.tagged_races(source),
                                 self.races_in(source, "./assembly", "races", SPBAGS_UNIT="1"))

    def test_other_syntax(self):
        self.write("intel.c", INTEL)
        self.succeeds(SPBAGS_CC, "-masm=intel", "-o", "assembly", "intel.c")
        self.tells_of_assembly("3\n", "intel.c")


@cases.needs_detector
class FirstUseTest(TracerTest):
    """The first commands of a page print what it says."""

    def setUp(self):
        super().setUp()
        os.symlink(os.environ["SPBAGS"], "spbags")

    def indented(self, page, first, last):
        part = self.read(page).partition(first)[2].partition(last)[0]
        return "\n".join(line[4:] for line in part.splitlines() if line.startswith("    "))

    def printed_by(self, commands):
        done = subprocess.run(["bash", "-c", commands], stdout=subprocess.PIPE, text=True)
        return [line for line in done.stdout.splitlines() if line]

    def test_repository(self):
        page = os.path.join(TRACER, "..", "README.md")
        text = self.read(page)
        self.write("fib.c", re.search("^```c\n(.*?)^```$", text, re.MULTILINE | re.DOTALL)[1])
        printed = self.indented(page, "\ncompile ", "\n## ")
        commands = self.indented(page, "\n```\n", "\ncompile ")
        self.assertTrue(commands)
        self.assertEqual([line for line in printed.splitlines() if line], self.printed_by(commands))

    def test_tracer(self):
        page = os.path.join(TRACER, "README.md")
        commands = self.indented(page, "## Three commands", "The last prints")
        printed = self.indented(page, "The last prints", "\n## ")
        self.assertTrue(commands)
        self.assertEqual([line for line in printed.splitlines() if line], self.printed_by(commands)[1:])


if __name__ == "__main__":
    cases.main()
