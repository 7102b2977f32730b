#!/usr/bin/env python3
"""What stands for the directives of OpenMP, and which of them are refused."""
import os
import re
import sys
import unittest

sys.dont_write_bytecode = True
sys.path.insert(0, os.path.dirname(os.path.dirname(os.path.realpath(__file__))))
import cases
from compile import openmp

HEAD = '# 1 "own.c"\n'


def rewritten(text: str, is_clang: bool = False) -> str:
    """Without the lines that name files."""
    made, faults = openmp.rewritten(HEAD + text, is_clang)
    assert not faults, faults
    return re.sub(r"(?m)^# .*\n", "", made)


class DirectivesTest(unittest.TestCase):
    def test_schedules(self) -> None:
        """The size is 1, and more by 2 for `static`, by 4 for `nowait`, by 8 for `lastprivate`, and by 16 for variables
        of each thread."""
        for clauses, size in (
            ("", 1),
            (" schedule(static, 4)", 3),
            (" schedule(monotonic: static)", 3),
            (" schedule(guided) nowait", 5),
            (" lastprivate(x)", 25),
            (" private(x)", 17),
            (" reduction(+: x) nowait schedule(static)", 23),
        ):
            with self.subTest(clauses):
                made = rewritten(f"#pragma omp for{clauses}\n;\n")
                self.assertEqual([f"schedule(dynamic,{size})"], re.findall(r"schedule\([^)]*\)", made))

    def test_bodies(self) -> None:
        """Each says its kind before it, in the order of the hooks' list."""
        for directive, kind in (("parallel", 0), ("single", 1), ("master", 2), ("masked", 2), ("simd", 3)):
            with self.subTest(directive):
                self.assertEqual(
                    [str(kind)], re.findall(r"__spbags_body\((\d)\)", rewritten(f"#pragma omp {directive}\n;\n"))
                )
        self.assertNotIn("__spbags_body", rewritten("#pragma omp task\n;\n#pragma omp taskwait\n"))

    def test_sections(self) -> None:
        """clang calls no runtime for a section, and the first has no directive."""
        text = "#pragma omp sections\n{\na();\n#pragma omp section\nb();\n}\n"
        self.assertEqual(0, rewritten(text).count("__spbags_body(4)"))
        self.assertEqual(2, rewritten(text, is_clang=True).count("__spbags_body(4)"))

    def test_lines(self) -> None:
        """What follows a directive is on its own line, by the last line that names one."""
        made, _ = openmp.rewritten(HEAD + "\n#pragma omp single\nx();\n", False)
        before = made[: made.index("x();")]
        number, behind = re.findall(
            r'(?m)^# (\d+) "own\.c"\n((?:.*\n)*)\Z', before[before.rindex("\n# ") :].lstrip("\n")
        )[0]
        self.assertEqual(3, int(number) + behind.count("\n"))

    def test_strings(self) -> None:
        for text in ('s = "\\n#pragma omp for";\n', 's = R"(\n#pragma omp for\n)";\n'):
            with self.subTest(text):
                self.assertEqual((HEAD + text, []), openmp.rewritten(HEAD + text))

    def test_filter(self) -> None:
        self.assertIn("filter(__spbags_filter(n + 1))", rewritten("#pragma omp masked filter(n + 1)\n;\n"))

    def test_scopes(self) -> None:
        """The hooks wait in place of one whose threads combine their variables."""
        for clauses, kinds in (
            (" reduction(+: x)", ["6", "8"]),
            (" reduction(+: x) nowait", ["7", "8"]),
            (" private(x)", []),
            (" reduction(task, +: x)", []),
        ):
            with self.subTest(clauses):
                made = rewritten(f"#pragma omp scope{clauses}\n;\n")
                self.assertEqual(kinds, re.findall(r"__spbags_body\((\d)\)", made))
                self.assertEqual(bool(kinds) or "nowait" in clauses, "nowait" in made)


class RefusedTest(unittest.TestCase):
    def refused(self, text: str, is_clang: bool = False) -> str:
        faults = openmp.rewritten(HEAD + text, is_clang)[1]
        return " ".join(fault.partition("OpenMP's ")[2].partition(" can't")[0] for fault in faults)

    def test_directives(self) -> None:
        for directive, wanted in (
            ("target teams", "target"),
            ("parallel loop", "loop (write `for')"),
            ("metadirective when(a: b)", "metadirective"),
            ("for reduction(inscan, +: x)", "scan"),
            ("task detach(e)", "detach"),
            ("ordered depend(source)", "depend"),
            ("ordered", ""),
            ("task depend(in: x)", ""),
            ("parallel num_threads(target)", ""),
        ):
            with self.subTest(directive):
                self.assertEqual(wanted, self.refused(f"#pragma omp {directive}\n;\n"))

    def test_places(self) -> None:
        self.assertEqual(
            ["own.c:2: error: OpenMP's target can't be traced: #pragma omp target"],
            openmp.rewritten(HEAD + "\n#pragma omp target\n;\n")[1],
        )

    def test_attributes(self) -> None:
        self.assertIn("write #pragma omp", openmp.rewritten(HEAD + "[[omp::directive(single)]] ;\n")[1][0])
        self.assertEqual([], openmp.rewritten(HEAD + 's = "[[omp::";\n')[1])

    def test_nests(self) -> None:
        """gcc has no schedule for loops of which an inner one goes by the variable of an outer one."""
        collapsed = "#pragma omp for collapse(2)\nfor (int i = 0; i < 4; i++)\nfor (int j = {}; j < 4; j++) f();\n"
        self.assertEqual("", self.refused(collapsed.format("0")))
        self.assertEqual("collapse by gcc of loops that aren't rectangular", self.refused(collapsed.format("i")))
        self.assertEqual("", self.refused(collapsed.format("i"), is_clang=True))
        self.assertEqual("", self.refused(collapsed.format("i").replace(" collapse(2)", "")))


class MessagesTest(unittest.TestCase):
    def test_ignored(self) -> None:
        text = "#pragma omp simd\n;\n#pragma omp parallel for\n;\n"
        self.assertEqual([("own.c", 3)], list(openmp.ignored(HEAD + text)))
        self.assertEqual([], list(openmp.ignored('# 1 "/usr/include/x.h" 1 3\n' + text)))

    def test_unknown(self) -> None:
        said = (
            "/usr/bin/ld: x.o: in function `main':\nx.c:3: undefined reference to `omp_fulfill_event'\n"
            "x.c:4: undefined reference to `other'\n"
        )
        self.assertEqual(["x.c:3: omp_fulfill_event can't be traced: it is OpenMP's detach"], openmp.unknown(said))


if __name__ == "__main__":
    cases.main()
