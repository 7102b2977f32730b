#!/usr/bin/env python3
"""What stands for the spawns, syncs, loops and scopes of Cilk, and which of them are refused."""
import os
import re
import sys
import unittest

sys.dont_write_bytecode = True
sys.path.insert(0, os.path.dirname(os.path.dirname(os.path.realpath(__file__))))
import cases
from compile import loops, operators, spawns
from compile.spawns_cplusplus import Postfix, waits_at
from tokens import Refused, tokens_of

HEAD = '# 1 "own.c"\n'
# What the headers have for C++14.
CPLUSPLUS = HEAD + "struct __spbags_spawned; class __spbags_frame;\n"


def in_function(body: str, language: str = "gcc") -> tuple[str, list[str]]:
    """The body, on one line, and a line for each fault."""
    head = CPLUSPLUS if language == "c++" else HEAD
    made, faults = spawns.rewritten(f"{head}void f(void) {{\n{body}\n}}\n", language)
    return re.sub(r"\s+", " ", re.sub(r"(?m)^#.*\n", " ", made)), faults


def refused(body: str, language: str = "gcc") -> str:
    """Why, or nothing."""
    return " ".join(fault.partition("error: ")[2] for fault in in_function(body, language)[1])


class SpawnsTest(unittest.TestCase):
    def test_forms(self) -> None:
        """The parent evaluates the function, the arguments and the target, in this order, before the child begins."""
        made, faults = in_function("x[i()] += _Cilk_spawn g(a, 1, h());")
        self.assertEqual([], faults)
        places = [
            made.index(text)
            for text in (
                "( g )",
                "( a )",
                "( h() )",
                "&( x[i()] )",
                "__spbags_spawn(",
                "__spbags_g(__spbags_0, 1, __spbags_2)",
                "*__spbags_target += __spbags_result",
            )
        ]
        self.assertEqual(sorted(places), places)

    def test_declarations(self) -> None:
        """The variable is declared before, and isn't constant."""
        made, _ = in_function("const int x = _Cilk_spawn g();")
        self.assertRegex(made, r"{ +int x ;.*__spbags_target = &\( x \)")

    def test_nothing(self) -> None:
        """What is no statement of Cilk stays as it is."""
        text = HEAD + 'void f(void) { g("_Cilk_sync", 1); }\n'
        self.assertEqual((text, []), spawns.rewritten(text, "gcc"))

    def test_refused(self) -> None:
        for body, wanted in (
            ("_Cilk_spawn g();", ""),
            ("x = _Cilk_spawn g();", ""),
            ("(void)_Cilk_spawn g();", ""),
            ("*p->q[1] -= _Cilk_spawn g();", ""),
            ("if (a) _Cilk_spawn g();", ""),
            ("if (_Cilk_spawn g()) h();", "larger expression"),
            ("x = y = _Cilk_spawn g();", "larger expression"),
            ("x = _Cilk_spawn g() + 1;", "larger expression"),
            ("return _Cilk_spawn g();", "larger expression"),
            ("_Cilk_spawn x;", "larger expression"),
            ("_Cilk_spawn g(_Cilk_spawn h());", "inside another one"),
            ("static int x = _Cilk_spawn g();", "in this declaration"),
            ("int x[] = _Cilk_spawn g();", "declaration"),
            ("cilk_spawn g();", "no keyword here"),
            ("cilk_sync;", "no keyword here"),
        ):
            with self.subTest(body):
                self.assertIn(wanted, refused(body))
                self.assertEqual(wanted == "", refused(body) == "")

    def test_places(self) -> None:
        """A fault has the line of the program."""
        _, faults = spawns.rewritten('# 7 "own.c"\nvoid f(void) {\ng(_Cilk_spawn h());\n}\n', "gcc")
        self.assertEqual(["own.c:8"], [fault.partition(": ")[0] for fault in faults])

    def test_digraphs(self) -> None:
        text = "void f(void) { x[1] = _Cilk_spawn g(); _Cilk_for (int i = 0; i < 2; i++) { h[i] = 1; } }\n"
        digraphs = text.replace("{", "<%").replace("}", "%>").replace("[", "<:").replace("]", ":>")
        made, faults = spawns.rewritten(HEAD + digraphs, "gcc")
        self.assertEqual([], faults)
        self.assertEqual(
            [token.text for token in tokens_of(spawns.rewritten(HEAD + text, "gcc")[0])],
            [token.text for token in tokens_of(made)],
        )


class LoopsTest(unittest.TestCase):
    def test_language(self) -> None:
        loop = "_Cilk_for (long i = 0; i < n(); i += step()) g(i);"
        for language, wanted in (
            ("gcc", "#pragma omp task"),
            ("clang", "#pragma clang __debug captured"),
            ("c++", "[&, i,"),
        ):
            with self.subTest(language):
                made, faults = spawns.rewritten(f"{CPLUSPLUS}void f(void) {{ {loop} }}\n", language)
                self.assertEqual(([], True), (faults, wanted in made))

    def test_header(self) -> None:
        """The end and the step are evaluated once, by the parent, and before the first iteration."""
        made, _ = in_function("_Cilk_for (long i = 9; i >= n(); i -= step()) g(i);")
        self.assertRegex(
            made,
            r"long i = 9 ;.*__spbags_end = \(\(void\)0, \( n\(\) \)\);.*__spbags_step = .*step\(\).*"
            r"for \(; i >= __spbags_end; i-= __spbags_step",
        )

    def test_refused(self) -> None:
        for header, body, wanted in (
            ("int i = 0; i < 9; i++", "g(i);", ""),
            ("int i = 0; 9 > i; i++", ";", ""),
            ("i = 0; i < 9; i++", ";", "has to be declared"),
            ("int i = 0, j = 0; i < 9; i++", ";", "more than one"),
            ("static int i = 0; i < 9; i++", ";", "plain automatic"),
            ("int i = 0; i < 9", ";", "expected an init"),
            ("int i = 0; ; i++", ";", "missing loop condition"),
            ("int i = 0; j < 9; i++", ";", "does not test"),
            ("int i = 0; i < 9 && j; i++", ";", "one comparison"),
            ("int i = 0; i < 9; j++", ";", "does not modify"),
            ("int i = 0; i < 9; i *= 2", ";", "increment operator"),
            ("int i = 0; i < 9; i--", ";", "positive stride"),
            ("int i = 0; i < 9; i += i", ";", "doesn't name"),
            ("int i = 0; i < 9; i++", "break;", "cannot break"),
            ("int i = 0; i < 9; i++", "return;", "cannot return"),
            ("int i = 0; i < 9; i++", "{ goto out; } out: ;", "cannot jump out"),
            ("int i = 0; i < 9; i++", "{ for (;;) break; switch (i) { case 1: break; } }", ""),
        ):
            with self.subTest(f"{header} {body}"):
                found = refused(f"_Cilk_for ({header}) {body}")
                self.assertIn(wanted, found)
                self.assertEqual(wanted == "", found == "")

    def test_scopes(self) -> None:
        made, faults = in_function("_Cilk_scope { g(); }")
        self.assertEqual([], faults)
        self.assertRegex(made, r"{ __attribute__\(\(cleanup\(__spbags_leave\).* { g\(\); } }")
        self.assertIn("expected '{'", refused("_Cilk_scope g();"))
        self.assertIn("cannot jump into", refused("goto in; _Cilk_scope { in: g(); }"))

    def test_statement_ends(self) -> None:
        for text, last in (
            ("if (a) b(); else { c(); } X", "}"),
            ("do x(); while (1); X", ";"),
            ("l: case 1: y(); X", ";"),
            ("for (;;) if (a) { } X", "}"),
            ("try { } catch (int) { } X", "}"),
        ):
            with self.subTest(text):
                tokens = tokens_of(text)
                end = loops.statement_end(tokens, 0)
                self.assertEqual((last, "X"), (tokens[end].text, tokens[end + 1].text))
        with self.assertRaises(Refused):
            loops.statement_end(tokens_of("x()"), 0)

    def test_functions(self) -> None:
        """Which braces begin the body of a function or of a lambda."""
        for text, wanted in (
            ("void f() {", True),
            ("[&](int x) mutable {", True),
            ("[x] {", True),
            ("a() : x{1} {", True),
            ("auto f() -> int {", True),
            ("if (a) {", False),
            ("else {", False),
            ("try {", False),
            ("struct s {", False),
            ("int x = {", False),
        ):
            with self.subTest(text):
                tokens = tokens_of("; " + text + " } }")
                opening = max(at for at, token in enumerate(tokens) if token.text == "{")
                self.assertEqual(wanted, loops.begins_function(tokens, opening))


class CPlusPlusTest(unittest.TestCase):
    def test_refused(self) -> None:
        for body, wanted in (
            ("_Cilk_spawn g(a);", ""),
            ("int x = _Cilk_spawn o->m<int>(1);", ""),
            ("x += _Cilk_spawn g();", ""),
            ("auto x = _Cilk_spawn [&] { return 1; }();", ""),
            ("_Cilk_spawn a << b;", ""),
            ("g(_Cilk_spawn h());", "larger expression"),
            ("x = _Cilk_spawn a ? b : c;", "larger expression"),
            ("static int x = _Cilk_spawn g();", "in this declaration"),
            ("auto &x = _Cilk_spawn g();", "in this declaration"),
        ):
            with self.subTest(body):
                self.assertIn(wanted, refused(body, "c++"))
                self.assertEqual(wanted == "", refused(body, "c++") == "")

    def test_old(self) -> None:
        _, faults = spawns.rewritten(HEAD + "void f() { _Cilk_spawn g(); }\n", "c++")
        self.assertIn("C++14", faults[0])

    def test_expressions(self) -> None:
        """Where the expression ends, what it calls, and the member that this is of."""
        for text, end, call, member in (
            ("f(a)[1](b) ;", 10, 7, None),
            ("o.m(a) ;", 6, 3, 1),
            ("p->q.m<int>(a) ;", 11, 8, 3),
            ("n::f<a, b>(c) ;", 11, 8, None),
            ("o.m(a)(b) ;", 9, 6, None),
            ("(*p)(a) ;", 7, 4, None),
            ("operator+(a, b) ;", 7, 2, None),
        ):
            with self.subTest(text):
                found = Postfix(tokens_of(text), 0)
                self.assertEqual((end, call, member), (found.end, found.call, found.member))

    def test_operators(self) -> None:
        """The one that an expression is of."""
        for text, wanted in (
            ("a + b * c", "+"),
            ("a << b + c", "<<"),
            ("a - b - c", "-"),
            ("a = b + c", "="),
            ("a += b", "+="),
            ("a ? b : c", None),
            ("a, b", None),
            ("a->b << c", "<<"),
        ):
            with self.subTest(text):
                tokens = tokens_of(text)
                sign = operators.loosest(tokens, operators.operators_of(tokens, 0, len(tokens)))
                self.assertEqual(wanted, sign and tokens[sign].text)
        tokens = tokens_of("a - b - c")
        self.assertEqual(3, operators.loosest(tokens, operators.operators_of(tokens, 0, 5)))

    def test_waits(self) -> None:
        """What waits for a child that is spawned at X: the innermost function, scope, `try` block or iteration."""
        for text, before in (
            ("void f() { X; }", ")"),
            ("void f() { if (a) { X; } }", ")"),
            ("void f() { try { X; } }", "try"),
            ("void f() { _Cilk_scope { X; } }", "_Cilk_scope"),
            ("void f() { g([&] { X; }); }", "]"),
        ):
            with self.subTest(text):
                tokens = tokens_of(text)
                start = waits_at(tokens, next(at for at, token in enumerate(tokens) if token.text == "X"))
                self.assertEqual(before, tokens[(start or 0) - 1].text)


if __name__ == "__main__":
    cases.main()
