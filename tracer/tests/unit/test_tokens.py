#!/usr/bin/env python3
"""The tokens of a source, and what is told by them and by the lines that name files."""
import os
import re
import sys
import tempfile
import unittest

sys.dont_write_bytecode = True
sys.path.insert(0, os.path.dirname(os.path.dirname(os.path.realpath(__file__))))
import cases
from line_markers import Files
from tokens import (
    arguments_of,
    blanked,
    call_after,
    ends_label,
    is_lvalue,
    own_constants,
    statement_start,
    tokens_of,
    without,
)


MARKED = '# 1 "own.c"\nint one;\n# 1 "/usr/include/x.h" 1 3\nint system;\n# 2 "own.c" 2\nint two;\nint three;\n'


def texts(text: str) -> list[str]:
    return [token.text for token in tokens_of(text)]


def at(text: str, word: str) -> int:
    return texts(text).index(word)


class TokensTest(unittest.TestCase):
    def test_texts(self) -> None:
        for text, wanted in (
            ("a->b >>= .5e-3 ... 'x'", ["a", "->", "b", ">>=", ".5e-3", "...", "'x'"]),
            ("n = 1'000'000;", ["n", "=", "1'000'000", ";"]),
            ('s = R"(a " b)" u8"c";', ["s", "=", 'R"(a " b)"', "u8", '"c"', ";"]),
            ("t <:0:> <% %>", ["t", "[", "0", "]", "{", "}"]),
            ("f<::g>();", ["f", "<", "::", "g", ">", "(", ")", ";"]),
        ):
            with self.subTest(text):
                self.assertEqual(wanted, texts(text))

    def test_places(self) -> None:
        """Each token has its line of the program, and knows a header of the system."""
        found = {token.text: (token.place(), token.is_of_system()) for token in tokens_of(MARKED)}
        self.assertEqual(
            {"one": ("own.c:1", False), "system": ("/usr/include/x.h:1", True), "three": ("own.c:3", False)},
            {name: found[name] for name in ("one", "system", "three")},
        )

    def test_columns(self) -> None:
        """That of a keyword of Cilk is the one that the source has in its place; of a word that the line has twice none is
        known. A tab goes to the next place behind a multiple of 8."""
        with tempfile.NamedTemporaryFile("w", suffix=".c") as source:
            source.write("x = cilk_spawn f();\n\tg(x, y, x);\n")
            source.flush()
            found = tokens_of(f'# 1 "{source.name}"\nx = _Cilk_spawn f();\n g(x, y, x);\n')
            places = {token.text: token.place().removeprefix(source.name) for token in found}
        self.assertEqual((":1:5", ":2:14", ":2"), (places["_Cilk_spawn"], places["y"], places["x"]))

    def test_lines(self) -> None:
        """A string may hold some."""
        self.assertEqual(3, tokens_of('R"(\n\n)" x')[1].line)

    def test_brackets(self) -> None:
        tokens = tokens_of("f(a[1], g(b));")
        self.assertEqual([11, None], [tokens[1].partner, tokens[1].around])
        self.assertEqual([(2, 5), (7, 10)], arguments_of(tokens, 1))

    def test_unmatched(self) -> None:
        self.assertEqual([None, None, None], [token.partner for token in tokens_of("( ] (")])

    def test_statements(self) -> None:
        """Where the statement of the word X begins."""
        for text, first in (
            ("{ a(); x = X; }", "x"),
            ("{ if (a) X; }", "X"),
            ("{ one: X; }", "X"),
            ("{ case 1: x = X; }", "x"),
            ("{ n = a ? b : X; }", "n"),
            ("{ for (;;) (void)X; }", "("),
        ):
            with self.subTest(text):
                tokens = tokens_of(text)
                self.assertEqual(first, tokens[statement_start(tokens, at(text, "X"))].text)

    def test_labels(self) -> None:
        for text, wanted in (
            ("{ here: ;", True),
            ("{ default: ;", True),
            ("{ case 1: ;", True),
            ("{ a ? b : c;", False),
        ):
            with self.subTest(text):
                self.assertEqual(wanted, ends_label(tokens_of(text), at(text, ":")))

    def test_calls(self) -> None:
        for text, wanted in (("X f(a)(b);", "( b"), ("X (*p)(c);", "( c"), ("X f(a) + 1;", None), ("X f;", None)):
            with self.subTest(text):
                tokens = tokens_of(text)
                opening = call_after(tokens, 0)
                self.assertEqual(wanted, opening and f"{tokens[opening].text} {tokens[opening + 1].text}")

    def test_lvalues(self) -> None:
        for text, wanted in (
            ("*p", True),
            ("a[i].x", True),
            ("a->b", True),
            ("(a)", True),
            ("int x", False),
            ("f(a)", False),
        ):
            with self.subTest(text):
                self.assertEqual(wanted, is_lvalue(tokens_of(text + " ="), 0, len(texts(text))))

    def test_constants(self) -> None:
        """A pointer to what is constant isn't constant itself."""
        for text, wanted in (
            ("const int x", 1),
            ("const int *x", 0),
            ("int *const x", 1),
            ("const T<int *> x", 1),
            ("int *const *x", 0),
        ):
            with self.subTest(text):
                tokens = tokens_of(text)
                self.assertEqual(wanted, len(own_constants(tokens, 0, len(tokens) - 1)))


class BlankedTest(unittest.TestCase):
    def test_strings(self) -> None:
        for text, wanted in (
            ("f(\"(a\", '}', 1);", "f(\"  \", ' ', 1);"),
            (r'"\"(" )', '"   " )'),
            ('R"x(")")x" (', 'R"       " ('),
            ("1'000'0 '('", "1'000'0 ' '"),
            ("<% <::a %>", "{  <::a } "),
        ):
            with self.subTest(text):
                self.assertEqual(wanted, blanked(text))

    def test_places(self) -> None:
        text = 'a R"(\n(\n)" b'
        self.assertEqual(
            (len(text), 2, text.index("b")), (len(blanked(text)), blanked(text).count("\n"), blanked(text).index("b"))
        )

    def test_without(self) -> None:
        self.assertEqual('f("no x"); ', without('f("no x"); x', re.compile("x")))


class FilesTest(unittest.TestCase):
    def test_places(self) -> None:
        files = Files(MARKED)
        self.assertEqual(
            [("own.c", 1), ("/usr/include/x.h", 1), ("own.c", 3)],
            [files.place(MARKED.index(word)) for word in ("one", "system", "three")],
        )
        self.assertEqual([False, True], [files.at(MARKED.index(word))[1] for word in ("one", "system")])

    def test_own(self) -> None:
        """What a header of the system includes isn't the program's, whatever its flags say."""
        header = '# 1 "/usr/include/x.h" 1 3\nB\n# 1 "y.h" 1\nC\n# 2 "/usr/include/x.h" 2 3\nD\n'
        text = f'# 1 "own.c"\nA\n{header}# 2 "own.c" 2\nE\n'
        own = "".join(text[begin:end] for begin, end in Files(text).own())
        self.assertEqual([True, False, False, False, True], [letter in own.replace('"', "") for letter in "ABCDE"])

    def test_raw_strings(self) -> None:
        """A line in one names no file."""
        text = '# 1 "own.c"\nR"(\n# 7 "other.c"\n)" x\n'
        self.assertEqual(("own.c", 3), Files(text).place(text.index("x")))


if __name__ == "__main__":
    cases.main()
