#!/usr/bin/env python3
"""The examples, for each level and, in C with Cilk, for each compiler. A program does what the plain one does, and its
races are those of examples/expected: by the trace, by spbags-run, and by the detector inside."""
import os
import re
import sys

sys.dont_write_bytecode = True
import cases
from cases import CC, INSIDE, LEVEL, TRACER, Example, TracerTest, compiler_of

SERIAL = ("-D_Cilk_spawn=", "-D_Cilk_sync=", "-D_Cilk_for=for", "-D_Cilk_scope=", "-D_Hyperobject(...)=",
          f"-I{TRACER}/include")
# What those in C++ with Cilk print.
PRINTED = {"queens_for.cpp": "10 boards, the first 0 2", "search_for.cpp": "6 after 32 looks",
           "cholesky_for.cpp": "17.5914", "fft_for.cpp": "336.0", "knapsack_for.cpp": "13 in 10",
           "strassen_for.cpp": "30"}


class ExampleTest(TracerTest):
    # Those of the example, which has races with -DRACY.
    FLAGS = ()

    def build_example(self, example, *flags):
        self.flags = (LEVEL, *flags, *self.FLAGS)
        self.settings = {"SPBAGS_UNIT": example.unit}
        self.wanted = example.races() if self.FLAGS else []
        self.succeeds(compiler_of(example.source), *self.flags, "-c", "-o", "program.o", example.source)
        self.succeeds(compiler_of(example.source), "-o", "program", "program.o")

    def has_races(self, example):
        """Those that are wanted, of run.trace; and gives its notes."""
        races, notes = self.traced_races("./program")
        self.assertEqual(self.wanted, self.lines_in(example.source, races))
        return notes

    def has_them_every_way(self, example, jumps=False):
        """The trace without repeats, spbags-run and the detector inside have them too."""
        with self.subTest("the same without repeats"):
            self.is_same_without_repeats("./program", jumps=jumps, **self.settings)
        with self.subTest("spbags-run"):
            self.assertEqual(self.wanted, self.races_in(example.source, "./program", **self.settings))
        if INSIDE:
            self.is_same_inside(example)

    def is_same_inside(self, example):
        """The report of the detector inside is that of the trace, with the checks in the program and without; and
        spbags-run finds the same races by the trace of a program that has no detector."""
        compiler = compiler_of(example.source)
        self.succeeds(compiler, "--no-inline-checks", *self.flags, "-o", "unchecked", example.source)
        self.succeeds(compiler, "--trace", "-o", "traced", "program.o")
        for name in ("program", "unchecked"):
            with self.subTest("the report of the detector inside", name=name):
                self.has_same_report(f"./{name}", **self.settings)
        with self.subTest("spbags-run by a trace"):
            self.assertEqual(self.wanted, self.races_in(example.source, "./traced", **self.settings))


class CilkTest(ExampleTest):
    def check_example(self, source):
        example = Example(source)
        self.build_example(example)
        self.succeeds(CC, *self.flags, *SERIAL, "-o", "plain", source)
        printed = self.run_command("./plain").out
        for version in "12":
            with self.subTest("run", version=version):
                run = self.succeeds("./program", SPBAGS_VERSION=version, SPBAGS_TRACE="run.trace", **self.settings)
                self.assertEqual(printed, run.out)
            with self.subTest("races", version=version):
                told = [re.sub(rf"^note: {source}:[0-9]+: ", "", note) for note in self.has_races(example)]
                self.assertEqual(example.notes, told)
        # The longjmp in traps.c begins a strand without a record.
        self.has_them_every_way(example, jumps=source == "traps.c")


class OpenMPTest(ExampleTest):
    def check_example(self, source):
        example = Example(source)
        self.build_example(example, "-fopenmp")
        with self.subTest("run"):
            self.succeeds("./program", SPBAGS_TRACE="run.trace", **self.settings)
        with self.subTest("races"):
            self.has_races(example)
        self.has_them_every_way(example)


class CPlusPlusTest(ExampleTest):
    def check_example(self, source):
        example = Example(source)
        self.build_example(example, "-Wall", "-Wextra")
        with self.subTest("races"):
            self.assertEqual(self.wanted, self.races_in(source, "./program"))
        if not self.FLAGS:
            with self.subTest("what it prints"):
                run = self.run_command("./program", SPBAGS_TRACE="run.trace")
                self.assertEqual(PRINTED[source] + "\n", run.out)


def add_tests(case, pattern):
    """One for each of these examples."""
    for source in cases.examples(pattern):
        with open(os.path.join(TRACER, "examples", source), encoding="utf-8") as file:
            if CC == "clang" and "cilk_reducer" in file.read():
                continue  # Only gcc traces reducers.

        def test(self, source=source):
            self.check_example(source)
        setattr(case, re.sub(r"\W+", "_", f"test_{source}"), test)


add_tests(CilkTest, r"(?!openmp_).*\.c")
add_tests(OpenMPTest, r"openmp_.*")
add_tests(CPlusPlusTest, r"(?!openmp_).*\.cpp")


class RacyCilkTest(CilkTest):
    FLAGS = ("-DRACY",)


class RacyOpenMPTest(OpenMPTest):
    FLAGS = ("-DRACY",)


class RacyCPlusPlusTest(CPlusPlusTest):
    FLAGS = ("-DRACY",)


if __name__ == "__main__":
    cases.main()
