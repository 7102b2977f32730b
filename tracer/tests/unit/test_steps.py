#!/usr/bin/env python3
"""The steps that a preprocessed source takes, and those that are short."""
import contextlib
import io
import os
import sys
import unittest

sys.dont_write_bytecode = True
sys.path.insert(0, os.path.dirname(os.path.dirname(os.path.realpath(__file__))))
import cases
from compile import assembly, attributes, reducers, steps
from compile.steps import Target

C, CPLUSPLUS, CLANG = Target(False, False, False), Target(True, False, False), Target(False, True, False)
OPENMP = Target(False, False, True)
OWN, SYSTEM = '# 1 "own.c"\n', '# 1 "/usr/include/x.h" 1 3\n'
PARALLEL_LOOP = "#pragma omp parallel for\nfor (int i = 0; i < 8; i++) f(i);\n"


def names(text: str, target: Target) -> list[str]:
    return [step.name for step, *_ in steps.taken(OWN + text, target)]


class TakenTest(unittest.TestCase):
    def test_steps(self) -> None:
        for text, target, wanted in (
            ("int main(void) { return 0; }\n", C, []),
            ('int f(void) __asm__("g");\n', C, []),
            ('void f(void);\nasm("incl cell");\n', C, ["assembly"]),
            ("void f(void) { _Cilk_spawn g(); _Cilk_sync; }\n", C, ["Cilk"]),
            (PARALLEL_LOOP, OPENMP, ["OpenMP"]),
            (PARALLEL_LOOP, Target(False, False, False, warns=False), []),
            ("int (*f)(int) __attribute__((const));\n", C, []),
            ("int (*f)(int) __attribute__((const));\n", CPLUSPLUS, ["attributes"]),
            ("int _Hyperobject(a, b) sum;\nvoid f(void) { _Cilk_sync; }\n", C, ["reducers", "Cilk"]),
        ):
            with self.subTest(text):
                self.assertEqual(wanted, names(text, target))

    def test_ignored(self) -> None:
        """A warning, which the command may silence."""
        for target, wanted in ((C, "own.c:1: warning: "), (OPENMP, ""), (Target(False, False, False, warns=False), "")):
            with contextlib.redirect_stderr(io.StringIO()) as said:
                names(PARALLEL_LOOP, target)
            self.assertEqual(wanted, said.getvalue()[: len("own.c:1: warning: ")])

    def test_faults(self) -> None:
        """Each step tells of what it can't trace, whatever the others do."""
        text = OWN + "int _Hyperobject(a, b) sum;\nvoid f(void) {\nif (_Cilk_spawn g()) h();\n}\n"
        faults = [fault for *_, found in steps.taken(text, CLANG) for fault in found]
        self.assertEqual(["own.c:1", "own.c:3"], [fault.partition(": ")[0] for fault in faults])

    def test_refused(self) -> None:
        for target, why in ((OPENMP, "together with OpenMP"), (Target(True, True, False), "only with g++")):
            with self.subTest(why):
                text, faults = steps.with_spawns(OWN + "void f() { _Cilk_spawn g(); }\n", target)
                self.assertIn(why, faults[0])

    def test_tasks(self) -> None:
        """gcc compiles loops of Cilk in C as tasks, and nothing else."""
        loop, sync = "void f(void) { _Cilk_for (int i = 0; i < 2; i++) g(i); }\n", "void f(void) { _Cilk_sync; }\n"
        for text, target, wanted in ((loop, C, True), (sync, C, False), (loop, CLANG, False), (loop, CPLUSPLUS, False)):
            with self.subTest(text):
                self.assertEqual(wanted, steps.has_tasks(steps.with_spawns(OWN + text, target)[0]))


class AssemblyTest(unittest.TestCase):
    def told(self, text: str) -> list[str]:
        made = assembly.outside(OWN + text)[len(OWN + text) :]
        return [line.partition("__spbags_asm_outside(")[2].rpartition(");")[0] for line in made.splitlines() if line]

    def test_outside(self) -> None:
        for text, wanted in (
            ('asm("nop");', ['"own.c:1", __extension__("nop")']),
            ('\nasm("nop" "; ret");', ['"own.c:2", __extension__("nop" "; ret")']),
            ('extern "C" { asm("nop"); }', ['"own.c:1", __extension__("nop")']),
            ('namespace n { asm("nop"); }', ['"own.c:1", __extension__("nop")']),
            ('void f(void) { asm("nop"); if (x) asm("nop"); }', []),
            ('__attribute__((naked)) void f(void) { asm("ret"); }', ['"own.c:1", __extension__("ret")']),
            ('__attribute__((naked)) void f(void) { asm("incl %c0" : : "i"(&x)); }', ['"own.c:1", __extension__(0)']),
            ('void f(void) <% asm("nop"); if (x<:1:>) <% asm("nop"); %> %>', []),
            ('int f(void) asm("g");', []),
            ('const char *s = "asm(";', []),
        ):
            with self.subTest(text):
                self.assertEqual(wanted, self.told(text))


class AttributesTest(unittest.TestCase):
    def test_const(self) -> None:
        for text, wanted in (
            ("int (*f)(int) __attribute__((nothrow, const));", "int (*f)(int) __attribute__((nothrow, __unused__));"),
            ("[[gnu::__const__]] int f(int const, const int);", "[[gnu::__unused__]] int f(int const, const int);"),
            ("int f() __attribute__((aligned(alignof(int const))));", None),
            ('auto g = f("(const)", x(const));', None),
        ):
            with self.subTest(text):
                self.assertEqual(OWN + (wanted or text), attributes.without_const(OWN + text))

    def test_system(self) -> None:
        """The library's functions have no hooks."""
        text = SYSTEM + "int f(int) __attribute__((const));\n"
        self.assertEqual(text, attributes.without_const(text))


class ReducersTest(unittest.TestCase):
    def test_attribute(self) -> None:
        self.assertEqual(
            "int __attribute__((spbags_reducer(__spbags_functions(zero, add)))) sum; // 2",
            reducers.rewritten("int _Hyperobject(zero, add) sum; // 2"),
        )
        self.assertEqual("int __attribute__((spbags_reducer)) *view;", reducers.rewritten("int _Hyperobject *view;"))
        self.assertEqual('"_Hyperobject"', reducers.rewritten('"_Hyperobject"'))


if __name__ == "__main__":
    cases.main()
