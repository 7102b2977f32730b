#!/usr/bin/env python3
"""Modules of the report, each by itself: no program is traced. What has to come out is written here by hand."""
import os
import sys
import unittest.mock

sys.dont_write_bytecode = True
sys.path.insert(0, os.path.dirname(os.path.dirname(os.path.realpath(__file__))))
import cases
from cases import TracerTest
from report import checker_answers, expressions, function_names, later_runs, stack_rows, text
from report.checker_answers import Site
from elf import Elf
from report.failure import Failure
from report.pairs import Variable
from report.program import Program
from report.run_notes import Notes
from report.sites import Sites
from report.source_lines import Position
from report.stack_rows import Frame
from report.variables import Named, Names, name_of_symbol

# With -g, and without a hook: `table` has elements of 104 bytes, whose `inner` begin at byte 4 and are of 24 bytes.
TYPES = """#include <unistd.h>
struct inner { int rows[2][3]; };
struct outer { char kind; struct inner inner[4]; unsigned low : 3, high : 5; } table[5];
int main(void) {
    static int calls;
    return ++calls + table[1].low + optind;
}
"""


def part_of(names: Names, start: int, offset: int) -> Named:
    found = names.at(start, offset)
    assert found
    return found


class RowsTest(TracerTest):
    def test_innermost(self) -> None:
        """Of a stack in the library's headers the function that does the access has a row, and so has the outermost."""
        at = [
            Position(*words)
            for words in (
                ("/usr/include/c++/store.h", 3, "store"),
                ("/usr/include/c++/pass.h", 5, "pass"),
                ("/usr/include/c++/sort.h", 7, "sort"),
                ("own.cpp", 9, "main"),
            )
        ]
        shown = stack_rows.rows([Frame(role, position, 1) for role, position in zip(("header", *["call"] * 3), at)])
        self.assertEqual(
            [("store.h:3", "store", ""), ("sort.h:7", "sort", "and 1 more"), ("own.cpp:9", "main", "")],
            [(row.place, row.function, row.behind) for row in shown],
        )
        positions = {code + 1: [one] for code, one in enumerate(at)}
        with unittest.mock.patch("report.source_lines.positions_of", lambda *_: positions):
            self.assertEqual(
                ["/usr/include/c++/store.h:3", "own.cpp:9"],
                [row.split()[0] for row in text.stack_rows("program", list(range(len(at))))],
            )

    def test_cycles(self) -> None:
        """Rows that come again and again in turn are shown once, with their number."""
        lines = [*[1, 2, 3, 2, 3, 2, 3], *[4, 4, 5, 4, 4, 5], *[6, 6], 7]
        shown = stack_rows.rows([Frame("call", Position("own.c", line, "f"), 1) for line in lines])
        self.assertEqual(
            [
                ("own.c:1", ""),
                ("own.c:2", ""),
                ("own.c:3", "these 2 rows 3 times"),
                ("own.c:4", "2 times"),
                ("own.c:5", "these 2 rows 2 times"),
                ("own.c:6", "2 times"),
                ("own.c:7", ""),
            ],
            [(row.place, row.behind) for row in shown],
        )

    def test_long(self) -> None:
        """The first rows and the last ones are shown; one that would be left out alone is."""
        for count, wanted in ((41, None), (42, "2 more")):
            rows = stack_rows.rows([Frame("call", Position("own.c", line, "f"), 1) for line in range(1, count + 1)])
            self.assertEqual((41, wanted), (len(rows), rows[20].place if rows[20].label == "  .." else None))


class WordsTest(TracerTest):
    def test_functions(self) -> None:
        """A lambda is named by its line, and long arguments of templates are folded."""
        self.write(
            "lambdas.cpp",
            "// don't [\nint main() {\n    int a[2];\n    auto f = [&](int i) {\n        a[i] = 1;\n"
            "        auto g = [=]() mutable -> int {\n            return a[i];\n        };\n"
            "        return g();\n    };\n    return f(1);\n}\n",
        )
        gcc, clang = (
            "main::{lambda(std::pair<int, long> const&)#1}::operator()(int) const",
            "main::$_0::operator()(int) const",
        )
        deep = "auto main::{lambda(auto:1&)#1}::operator()<int>(int&) const"
        for line, function, wanted in (
            (5, gcc, "lambda at lambdas.cpp:4"),
            (5, clang, "lambda at lambdas.cpp:4"),
            (7, gcc, "lambda at lambdas.cpp:6"),
            (9, deep, "lambda at lambdas.cpp:4"),
            (11, gcc, "main"),
            (
                5,
                "Table<std::pair<int, int>, double>::add(std::vector<int> const&)",
                "Table<..>::add(std::vector<int> const&)",
            ),
            (5, "std::operator<< <std::char_traits<char> >(char)", "std::operator<< <..>(char)"),
            (5, "bool operator<(Key<int> const&)", "bool operator<(Key<int> const&)"),
        ):
            with self.subTest(function, line=line):
                self.assertEqual(wanted, function_names.function_of(Position("lambdas.cpp", line, function)))
        self.assertEqual("lambda in main", function_names.function_of(Position("none.cpp", 5, gcc)))

    def test_parts(self) -> None:
        """All members are named; of many elements one, and the number of the others."""
        for parts, number, wanted in (
            ([f"s.{name}" for name in "abcde"], 5, "s.a, s.b, s.c, s.d and s.e"),
            (["s[0]", "s[7]"], 2, "s[0] and s[7]"),
            ([f"s[{at}]" for at in range(5)], 5, "s[0] and 4 more elements of s"),
            ([f"s[{at}].x" for at in range(20)], 60, "s[0].x and 59 more parts of s"),
            (["s._M_a.b", "s._M_c"], 2, "s"),
        ):
            with self.subTest(wanted):
                self.assertEqual(
                    wanted, text.parts_named(Variable("global", name="s", parts=parts, parts_count=number))
                )

    def test_told(self) -> None:
        """What can't wait for the report is as wide."""
        words = "for 30 seconds the program has touched no new memory and started no task. It goes on, since it may"
        self.assertEqual(
            [
                "spbags-run: for 30 seconds the program has touched no new memory",
                "    and started no task. It goes on, since it may",
            ],
            text.told(words, 67),
        )

    def test_updates(self) -> None:
        """A line that makes of a variable what it was and more, whatever else stands there."""
        for line, wanted in (
            ("sum += x;", True),
            ("sum = x;", False),
            ("++n, sum -= x;", True),
            ("n++, out = x;", False),
            ("best = std::max(best, x);", True),
            ("best = x > best ? x : best;", True),
            ("if (x > best) best = x;", True),
            ("*out++ = *in++;", False),
            ("a[n++] = x;", False),
            ("int x = cilk_spawn fib(n - 1);", False),
            ("auto up = [n] { n[3]++; };", True),
            ("int slot = next++;", False),
            ("return sum += x;", False),
            ("f(n++);", False),
            ("for (;;) sum += x;", True),
            ("fill(a->text, n);", False),
            ("return x + y; // x++", False),
        ):
            with self.subTest(line):
                self.assertEqual(wanted, expressions.updates(line))

    def test_newer(self) -> None:
        self.assertEqual([], later_runs.newer_hint([]))
        for files, wanted in (
            ("a.c", "a.c is"),
            ("a.c b.c", "a.c and b.c are"),
            ("a.c b.c c.c d.c e.c", "a.c, b.c, c.c and 2 more are"),
        ):
            [line] = later_runs.newer_hint(files.split())
            self.assertEqual(f"{wanted} newer than the program", line.partition(":")[0])


class NamesTest(TracerTest):
    def test_symbols(self) -> None:
        for symbol, wanted in (
            ("calls.0", "calls"),
            ("main.calls", "calls"),
            ("one::two", "one::two"),
            ("optind@GLIBC_2.2.5", "optind"),
            (".gomp_critical_user_name", "name"),
            (".gomp_critical_user_name.var", "name"),
            (".gomp_critical_user_.var", "without a name"),
        ):
            self.assertEqual(wanted, name_of_symbol(symbol))

    def test_globals(self) -> None:
        """The parts of a global, by DWARF of each version; two bit-fields in one byte have no name of their own. A
        variable of the library that the program has a copy of has the library's name."""
        self.write("types.c", TYPES)
        for version in ("4", "5"):
            self.succeeds("gcc", "-g", "-gdwarf-" + version, "-no-pie", "-o", "types", "types.c")
            names = Names("types")
            known = [(names.symbol(symbol.start), symbol.start) for symbol in names.elf.variables.all]
            starts = {found.name: start for found, start in known if found}
            table = starts["table"]
            with self.subTest(version):
                self.assertLessEqual({"calls", "optind"}, set(starts))
                for offset, wanted, rest in (
                    (256, "table[2].inner[1].rows[1][2]", None),
                    (104, "table[1].kind", None),
                    (204, "table[1]", (100, 104)),
                ):
                    part = part_of(names, table, offset)
                    self.assertEqual((wanted, rest, 520), (part.expression, part.rest, part.size))
                rows = [f"table[0].inner[0].rows[{row}][{column}]" for row in range(2) for column in range(3)]
                entry, runs = part_of(names, table, 0).entry, [(104 * at + 4, 104 * at + 100) for at in range(5)]
                self.assertEqual((rows, 6), names.parts(entry, "table", [(4, 12), (12, 28)], 20))
                self.assertEqual((rows[:2], 20 * 6), names.parts(entry, "table", runs, 2))

    def test_bit_fields(self) -> None:
        """DWARF 4 counts bits from the end of what holds them, and 5 from the beginning of the struct."""
        self.write(
            "bits.c",
            "struct { unsigned short first : 9, second : 7; unsigned last; } bits;\n"
            "int main(void) { return bits.last; }\n",
        )
        for version in ("4", "5"):
            self.succeeds("gcc", "-g", "-gdwarf-" + version, "-no-pie", "-o", "bits", "bits.c")
            names = Names("bits")
            [start] = [symbol.start for symbol in names.elf.variables.all if symbol.name == "bits"]
            self.assertEqual(
                ["bits.first", "bits", "bits.last"], [part_of(names, start, at).expression for at in (0, 1, 4)]
            )


class NotesTest(TracerTest):
    LINES = [
        "thread 7f00",
        "pair 3 14 1c 1 0",
        "first write 1 4011 4022 spawn",
        "child loop 4033 0 4",
        "second read 0 4044",
        "child loop 4033 5 9",
        "waits 4055",
        "guard 9 the lock ",
        "block 1000 24 4066",
        "at 1 14 2 1c 0 0 4088 -8",
        "other 1 18 1 24 4099 -16 0 0",
        "held 1 4 8",
        "narrow 14",
        "part 18",
        "left 2",
        "astray 7 a read of location 5",
    ]

    def test_pair(self) -> None:
        """What hooks/look.c writes: addresses as hexadecimal numbers, `spawn` behind what spawned."""
        notes = Notes([*self.LINES, "end"])
        [noted] = notes.pairs
        self.assertEqual(
            (3, 14, 0x1C, 1, False), (noted.races, noted.location, noted.address, noted.meeting, noted.is_narrow)
        )
        self.assertEqual([("write", True, ["4011", "4022", "spawn"]), ("read", False, ["4044"])], noted.sides)
        self.assertEqual([("loop", 0x4033, 0, 4), ("loop", 0x4033, 5, 9)], noted.children)
        self.assertEqual(
            ((0x4055, False), (9, "the lock "), (0x1000, 24, ["4066"]), [(4, 12)]),
            (noted.waits, noted.guard, noted.block, noted.held),
        )
        self.assertEqual(
            [(14, 2, 0x1C, 0, 0, 0x4088, -8, False), (18, 1, 0x24, 0x4099, -16, 0, 0, True)], noted.stretches
        )
        self.assertEqual(
            (0x7F00, {14}, {18}, 2, (7, "a read of location 5")),
            (notes.thread, notes.narrow, notes.part, notes.left, notes.astray),
        )
        self.assertEqual({0x4011, 0x4022, 0x4044, 0x4033, 0x4055, 0x4066, 0x4088, 0x4099}, set(notes.codes()))

    def test_faults(self) -> None:
        for lines in ([], self.LINES, [*self.LINES, "unknown 1", "end"]):
            self.assertRaises(Failure, Notes, lines)


class ProgramTest(TracerTest):
    """Pairs of a program without hooks, from notes and sites as hooks would write them."""

    TEXT = "static int table[4];\nvoid set(void) { table[1] = 1; }\nint main(void) { set(); table[2] = 3; return table[0]; }\n"

    def setUp(self) -> None:
        super().setUp()
        self.write("plain.c", self.TEXT)
        self.succeeds("gcc", "-g", "-no-pie", "-o", "plain", "plain.c")
        elf = Elf("plain")
        # An address is that behind a call.
        self.set, self.main = (
            next(one.start for one in elf.functions.all if one.name == name) + 1 for name in ("set", "main")
        )
        [table] = [one.start for one in elf.variables.all if one.name == "table"]
        self.address, self.location = table + 4, 2 * ((table + 4) // 4)

    def test_notes(self) -> None:
        notes = Notes(
            [
                f"pair 2 {self.location} {self.address:x} 1 0",
                f"first write 0 {self.set:x} {self.main:x} spawn",
                f"second write 0 {self.main:x}",
                f"waits {self.main:x}",
                f"at 1 {self.location} 2 {self.address:x} 0 0 0 0",
                "end",
            ]
        )
        [pair] = Program("plain", 4, notes, []).of_notes(notes.pairs)
        self.assertEqual(
            (2, self.location, "global", "table", 4, 16, "table[1]", ["table[1]", "table[2]"], 2),
            (
                pair.races,
                pair.location,
                pair.variable.kind,
                pair.variable.name,
                pair.variable.offset,
                pair.variable.size,
                pair.variable.expression,
                pair.variable.parts,
                pair.variable.parts_count,
            ),
        )
        self.assertEqual(
            [[("write", 2, "set", 2), ("spawn", 3, "main", 1)], [("write", 3, "main", 1)]],
            [
                [(frame.role, frame.position.line, frame.position.function, frame.depth) for frame in side.stack]
                for side in pair.sides
            ],
        )
        main = pair.sides[1].lead()
        self.assertEqual(("main", "spawn", main, main, main, False), pair.missing_sync)
        self.assertEqual(("cilk_sync",), pair.suggested)
        self.assertEqual("pair:plain.c:2 plain.c:3 table", pair.suppression())

    def test_sites(self) -> None:
        """Both hold a lock but for one of two: without it the race is another."""
        free, held = (Site(self.set, False, guards) for guards in ((), ((8, "the lock m"),)))
        groups = [Sites(("write", "write"), (site, held), [self.location, self.location + 2]) for site in (free, held)]
        found = Program("plain", 4, None, [groups]).of_sites(groups)
        self.assertEqual(
            [(None, 2, "table[1]"), ("the lock m", 2, "table[1]")],
            [(pair.guard, pair.races, pair.variable.expression) for pair in found],
        )


class AnswersTest(TracerTest):
    def test_locations(self) -> None:
        """A byte of a unit has a location of its own: its unit is that of the heap or, if it is odd, of the stack."""
        byte = checker_answers.FIRST_BYTE + 8 * 14 + 3
        self.assertEqual(
            (14, 14, 7 * 4, 7 * 4 + 3),
            (
                checker_answers.unit_of(14),
                checker_answers.unit_of(byte),
                checker_answers.address_of(14, 4),
                checker_answers.address_of(byte, 4),
            ),
        )

    def test_packed(self) -> None:
        """So many new numbers, and then so many that repeat the last ones; and what these say of records."""
        two, repeat = 0xFFFD, 0xFFFE
        for packed, sites in (
            ([3, 7, 8, 9, 2, 3, 1, 6], [7, 8, 9, 8, 9, 8, 6]),
            ([4, 7, repeat, 2, 8, 4, 6, 1, 5], [7] * 3 + [8] + [7] * 3 + [8] + [7] * 6),
            # The count is a copy of a site, and what comes behind that is the mark again.
            ([3, 2, 9, repeat, 3, 3, 1, 4], [2] + [9] * 8),
            ([5, 7, repeat, 2, repeat, 1], [7] * 4),
            ([10, 6, two, 10, 11, 5, 0b10110, 0, 0, 0, 0xFFFF], [6, 10, 11, 11, 10, 11, 0xFFFF]),
            ([9, two, 10, 11, 2, 0b10, 0, 0, 0, 6, 9, 17, 0], [10, 11, 6] * 2 + [10, 11]),
            # The copy is of the end of what follows another mark.
            ([13, two, 10, 11, 2, 0b10, 0, 0, 0, two, 10, 11, 3, 0b100, 8, 3, 1, 6], [10, 11, 10, 10, 11, 6]),
            ([1, 7, 1, 1000, 2, repeat, 60000], [7] * 61001),
        ):
            with self.subTest(packed):
                block = checker_answers.Block(packed)
                self.assertEqual(sites, [block.site(record) for record in range(1, len(sites) + 1)])


if __name__ == "__main__":
    cases.main()
