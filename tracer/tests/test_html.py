#!/usr/bin/env python3
"""The page that spbags-run --html writes, as a browser shows it: what it says, its links, what folds, by keyboard, on a
phone, light and dark, without a message; and how fast it opens."""
import html
import json
import os
import re
import shutil
import sys
import unittest

sys.dont_write_bytecode = True
import browser
import cases
from cases import SPBAGS_CC, SPBAGS_RUN, TESTS, TRACER, TracerTest
from report import html_page
from report.pairs import Pair, Side, Variable
from report import result
from report.source_lines import Position
from report.stack_rows import Frame

# The name of a file and the text of a program that would do something in a page.
EVIL = "<script>alert(1)<!--.c"
TEXT = """#include <cilk/cilk.h>
static int x, y; /* </pre><script>document.title = "taken"</script> &amp; */
static void set(void) {
    x = '<';
    y = 1;
}
int main(int count, char **words) {
    (void)words;
    cilk_spawn set();
    x = count; /* <img src=none onerror="document.title = 'taken'"> */
    y = 2;
    cilk_sync;
}
"""
# The folders of the tracer that the page doesn't need.
OTHER_FOLDERS = ("compile", "hooks", "include", "examples", "measure", "out", "plugins", "tests", "__pycache__")
PHONE, DESK = (390, 800), (1280, 900)
NO_PAIRS = result.Count(0, 0)


def report_of(count):
    """One with so many pairs of lines of run.c, 50 of a variable."""
    file, found = os.path.join(TESTS, "run.c"), []
    for number in range(count):
        first, second, name = 20 + number % 100, 30 + number // 100, f"table{number // 50}"
        ways = [[Frame("write", Position(file, first, "set"), 3), Frame("spawn", Position(file, 7, "meet"), 2)],
                [Frame("write", Position(file, second, "other"), 3), Frame("call", Position(file, 8, "meet"), 2)]]
        variable = Variable("global", name=name, size=4, address=number // 50 * 4, thread_local=False, expression=name)
        sides = [Side("write", False, [*way, Frame("call", Position(file, 9, "main"), 1)]) for way in ways]
        found.append(Pair(1, number, sides, variable))
    ended = result.Ended(0, None, True)
    return result.Report(["./run"], 4, ended, 1, 2, count, found, NO_PAIRS, NO_PAIRS, NO_PAIRS, 0, [], [], [], [])


class EvilTest(TracerTest):
    def setUp(self):
        super().setUp()
        self.write(EVIL, TEXT)
        self.succeeds(SPBAGS_CC, "-w", "-o", "program", EVIL)


class PageTest(EvilTest):
    def test_page(self):
        """The report goes into the page too, and all text of the program is escaped."""
        done = self.run_command(SPBAGS_RUN, "--html", "page.html", "--", "./program", "<b>")
        self.assertEqual(1, done.status, done.errors)
        self.assertEqual("races 2, pairs of lines 2", cases.last_line(done.out))
        page = self.read("page.html")
        self.assertNotIn("<script", page)
        self.assertNotIn("<img", page)
        for line in (4, 5, 10, 11):
            self.assertIn(f"{html.escape(EVIL)}:{line}", page)
        self.assertIn(html.escape("'<b>'", quote=True).replace("&#x27;", "&#39;"), page)
        self.assertIn("1: the report has races", page)
        self.assertNotIn("is newer than", page)

    def test_newer_source(self):
        later = os.path.getmtime("program") + 1
        os.utime(EVIL, (later, later))
        self.run_command(SPBAGS_RUN, "--html", "page.html", "--", "./program")
        self.assertIn(f"{html.escape(EVIL)} is newer than the program", self.read("page.html"))

    def test_without_modules(self):
        """A line names the packages before the program runs."""
        for name in ("jinja2", "pygments"):
            with self.subTest(name):
                shutil.copytree(TRACER, "copied", ignore=shutil.ignore_patterns(*OTHER_FOLDERS))
                self.write(f"copied/{name}.py", f"raise ModuleNotFoundError(name='{name}')\n")
                done = self.run_command("copied/spbags-run", "--html", "page.html", "--", "./program")
                self.assertEqual((2, "", f"spbags-run: --html needs the module {name} of Python: apt-get install "
                                  "python3-jinja2 python3-pygments\n"), done)
                shutil.rmtree("copied")
        self.assertEqual("", self.read("page.html"))


@unittest.skipUnless(browser.is_there(), "there is no chromium, so no page is opened")
class BrowserTest(EvilTest):
    @classmethod
    def setUpClass(cls):
        cls.browser = browser.Browser()
        cls.addClassCleanup(cls.browser.close)

    def opened(self, size=DESK, scheme="light"):
        self.run_command(SPBAGS_RUN, "--html", "page.html", "--", "./program", "<b>")
        self.browser.show_as(*size, scheme)
        self.browser.open("page.html")
        return self.browser.value

    def test_page(self):
        """What a reader sees is there: the title, both sources with ten lines round each access, and the way."""
        value = self.opened()
        self.assertEqual("spbags: program: races 2, pairs of lines 2",
                         value("document.title").partition(", 1 spawn")[0])
        self.assertEqual([2, 4, 0], json.loads(value(
            "JSON.stringify(['article', 'article pre', 'script'].map(name => document.querySelectorAll(name).length))")))
        marked = json.loads(value("JSON.stringify([...document.querySelectorAll('#p1 mark')].map(mark => mark.innerText))"))
        lines = TEXT.splitlines()
        self.assertEqual([f"{number:2}  {lines[number - 1]}" for number in map(int, (text.split()[0] for text in marked))],
                         marked)
        self.assertEqual(len(lines), value("document.querySelector('#p1 pre').innerText.split('\\n').length"))
        drawn = value("document.querySelector('#p1 .way').textContent")
        self.assertLess(drawn.index("both meet here"), drawn.index("spawns"))
        self.assertRegex(drawn, r"main\s*\S*:9 spawns\s*set\s*\S*:[45] write\s*main\s*\S*:1[01] write")
        self.assertEqual([], self.browser.messages())

    def test_links(self):
        value = self.opened()
        self.assertEqual("[]", value("JSON.stringify([...document.links].filter(link => "
                                     "!document.getElementById(link.hash.slice(1))).map(link => link.href))"))
        value("document.querySelector('a[href=\"#p2\"]').click()")
        self.assertEqual("p2", value("document.querySelector(':target').id"))

    def test_keyboard(self):
        """Tab reaches what folds, and Enter opens and closes it."""
        value = self.opened()
        self.assertFalse(value("document.querySelector('details').open"))
        for _ in range(20):
            self.browser.press("Tab", 9)
            if value("document.activeElement.tagName") == "SUMMARY":
                break
        for is_open in (True, False):
            self.browser.press("Enter", 13, "\r")
            self.assertEqual(is_open, value("document.activeElement.parentElement.open"))

    def test_phone(self):
        """Nothing but sources and drawings is wider than the screen; and sources stand one below the other."""
        value = self.opened(PHONE)
        self.assertEqual(PHONE[0], value("document.documentElement.scrollWidth"))
        self.assertEqual(1, value("new Set([...document.querySelectorAll('#p1 figure')].map("
                                  "figure => figure.getBoundingClientRect().left)).size"))

    def test_schemes(self):
        """Text has at least the contrast 4.5 to 1 with what is behind it, light and dark."""
        for scheme in ("light", "dark"):
            value = self.opened(scheme=scheme)
            for name in ("h1", "h3", "pre", "pre span", "mark", "a", "figcaption"):
                with self.subTest(scheme, name=name):
                    self.assertLess(4.5, contrast(*(value(f"{expression}(document.querySelector('{name}'))") for expression in
                                                    ("(at => getComputedStyle(at).color)", BEHIND))))
        with self.subTest("a picture"):
            self.assertEqual(b"\x89PNG", self.browser.picture()[:4])

    def test_many(self):
        """10,000 pairs open in less than two seconds of processor time, in a browser that has shown nothing yet."""
        self.browser = browser.Browser()
        self.addCleanup(self.browser.close)
        self.write("page.html", html_page.page_of(report_of(10000), 1))
        self.browser.show_as(*DESK, "light")
        self.browser.open("page.html")
        self.assertEqual(10000, self.browser.value("document.querySelectorAll('td:first-child').length"))
        self.assertLess(self.browser.seconds(), 2)


# What stands behind an element: the background of the nearest that has one.
BEHIND = """(at => {
    while (at.parentElement && getComputedStyle(at).backgroundColor === 'rgba(0, 0, 0, 0)')
        at = at.parentElement;
    return getComputedStyle(at).backgroundColor;
})"""


def luminance(colour):
    parts = [int(part) / 255 for part in re.findall("[0-9]+", colour)[:3]]
    red, green, blue = (part / 12.92 if part <= 0.04045 else ((part + 0.055) / 1.055) ** 2.4 for part in parts)
    return 0.2126 * red + 0.7152 * green + 0.0722 * blue


def contrast(*colours):
    darker, lighter = sorted(map(luminance, colours))
    return (lighter + 0.05) / (darker + 0.05)


if __name__ == "__main__":
    cases.main()
