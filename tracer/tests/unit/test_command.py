#!/usr/bin/env python3
"""The command line of spbags-cc, what it says of a link's files, and the table of the library's functions."""
import contextlib
import io
import os
import sys
import tempfile
import unittest
import unittest.mock

sys.dont_write_bytecode = True
sys.path.insert(0, os.path.dirname(os.path.dirname(os.path.realpath(__file__))))
import cases
from compile.compiler import MARK
from compile.library import Function, split_at
from compile.link_inputs import Linked, Part, stubs
from compile.options import Words, expanded, words_of
from elf import CODE, UNDEFINED, WEAK_CODE


class WordsTest(unittest.TestCase):
    def test_places(self) -> None:
        words = Words("-I a -DX -O2 -flto a.c -lm -L b -MF c.d -MD -o out -fPIC other.o libomp.a".split())
        self.assertEqual(
            (["-I", "a", "-DX", "-fPIC"], ["a.c", "-lm", "-L", "b", "other.o"], ["-MF", "c.d", "-MD"], ["a.c"]),
            (words.compiling, words.linking, words.dependencies, words.sources),
        )
        self.assertEqual(("out", "-O1", None), (words.output, words.level, words.ends_with))

    def test_own(self) -> None:
        self.assertEqual((True, True, False), self.own_of(""))
        self.assertEqual((False, True, False), self.own_of("--trace"))
        self.assertEqual((True, False, True), self.own_of("--no-inline-checks --steps"))

    def own_of(self, options: str) -> tuple[bool, bool, bool]:
        words = Words([*options.split(), "a.c"])
        return words.inside, words.inline_checks, words.shows_steps

    def test_levels(self) -> None:
        for options, level in (("-O0", "-O0"), ("-O3", "-O1"), ("-O2 -O0", "-O0"), ("-O0 -Os", "-O1")):
            with self.subTest(options):
                self.assertEqual(level, Words(options.split()).level)

    def test_openmp(self) -> None:
        for option, wanted in (("-fopenmp", True), ("-fopenmp=libomp", True), ("-fopenmp-simd", False)):
            with self.subTest(option):
                self.assertEqual(wanted, bool(Words([option]).openmp))

    def test_refused(self) -> None:
        for words in (["-o"], ["a.cpp"], ["a.txt"], ["-x", "fortran", "a.c"]):
            with self.subTest(words), self.assertRaises(SystemExit), contextlib.redirect_stderr(io.StringIO()):
                Words(words)

    def test_files(self) -> None:
        """A backslash is before any letter, in quotes too."""
        self.assertEqual(["a b", 'c"d', "e'f", "", "g\\h", "ij"], words_of("'a b' \"c\\\"d\" 'e\\'f' '' g\\\\h\n i\\j"))
        with tempfile.NamedTemporaryFile("w") as file:
            file.write("-c 'a b.c'\n")
            file.flush()
            self.assertEqual(["-g", "-c", "a b.c", "@none"], list(expanded(["-g", "@" + file.name, "@none"])))


def part(file: str, place: int, *symbols: tuple[str, str], member: str | None = None) -> Part:
    made = Part(file, member, file.endswith(".so"), place)
    for name, kind in symbols:
        made.add(name, kind)
    return made


TRACED = (MARK, UNDEFINED)


class LinkedTest(unittest.TestCase):
    def test_unknown(self) -> None:
        """What traced files call, and only another file has, unless that is a known one of the system's."""
        own = part(
            "a.o",
            0,
            TRACED,
            ("f", UNDEFINED),
            ("g", UNDEFINED),
            ("strlen", UNDEFINED),
            ("data", UNDEFINED),
            ("own", CODE),
        )
        other = part("b.o", 1, ("f", CODE), ("unused", CODE), ("data", "D"))
        library, system = part("libx.so", 2, ("g", WEAK_CODE)), part("libc.so", 3, ("strlen", CODE))
        system.is_system = True
        linked = Linked([own, other, library, system])
        self.assertEqual(
            [("f", "b.o", True), ("g", "libx.so", True)],
            [(found.name, found.library, found.always) for found in linked.unknown({"strlen"}, set())],
        )
        self.assertEqual(["f", "g", "strlen"], [found.name for found in linked.unknown(set(), set())])
        self.assertEqual(["g"], [found.name for found in linked.unknown({"strlen"}, {"f"})])

    def test_faults(self) -> None:
        own = part("a.o", 1, TRACED, ("f", WEAK_CODE))
        cases_of: list[tuple[Part, list[str]]] = [
            (part("b.o", 0, ("g", CODE)), []),
            (part("b.o", 0, ("GOMP_parallel", UNDEFINED)), ["parallel code (GOMP_parallel)"]),
            (part("b.o", 0, ("__tsan_read4", UNDEFINED)), ["an older spbags-cc"]),
            (part("b.o", 0, ("strlen", CODE)), ["its strlen would be taken for the C library's"]),
            (part("b.o", 0, ("f", WEAK_CODE)), ["its f is used in place of that of a.o"]),
            (part("b.o", 2, ("f", WEAK_CODE)), []),
            (part("b.o", 2, ("f", CODE)), ["its f is used in place of that of a.o"]),
        ]
        for found, wanted in cases_of:
            with self.subTest(wanted), unittest.mock.patch.object(Part, "texts", lambda _: [b""]):
                faults = Linked([own, found]).faults({"strlen"})
                self.assertEqual(len(wanted), len(faults))
                self.assertTrue(all(text in fault for text, fault in zip(wanted, faults)), faults)

    def test_openmp(self) -> None:
        self.assertTrue(Linked([part("a.o", 0, TRACED, ("GOMP_barrier", UNDEFINED))]).asks_for_openmp())
        self.assertFalse(Linked([part("a.o", 0, ("GOMP_barrier", UNDEFINED))]).asks_for_openmp())

    def test_stubs(self) -> None:
        """A row for each function, and behind them one for each class."""
        own = part("a.o", 0, TRACED, ("f", UNDEFINED), ("g", UNDEFINED))
        found = Linked([own, part("b.o", 1, ("f", CODE), ("g", CODE))]).unknown(set(), set())
        self.assertEqual(
            ['function f, "f", "b.o", 1', 'function g, "g", "b.o", 1', r'row "", "n::operator\"\"", "", 0'],
            stubs(found, ['n::operator""']).splitlines()[1:-1],
        )


class LibraryTest(unittest.TestCase):
    def test_wrappers(self) -> None:
        """What is read and written before the call stands before it, and what names the result behind."""
        text = Function("void *f(const char *from, char *to) | from, 4 | to, 8; result, 2 |").wrapper("f")
        places = [
            text.index(part)
            for part in (
                "void *__wrap_f(const char *from, char *to) {",
                "NOTE_READ(from, 4, __wrap_f);",
                "NOTE_WRITE(to, 8, __wrap_f);",
                "void * result = __real_f(from, to);",
                "NOTE_WRITE(result, 2, __wrap_f);",
                "return result;",
            )
        ]
        self.assertEqual(sorted(places), places)

    def test_lists(self) -> None:
        """A function with more arguments calls the one that takes a list."""
        text = Function("int printf(const char *format, ...) | strings of format | |").wrapper("printf")
        self.assertIn("__real_vprintf(format, list)", text)
        self.assertIn("va_copy(copy, list)", text)

    def test_parts(self) -> None:
        self.assertEqual(["a", "f(b, c)", "d"], split_at(",", "a, f(b, c), d"))


if __name__ == "__main__":
    cases.main()
