#!/usr/bin/env python3
"""Memory of the heap: what dies in its strand, what outlives it, and what comes again."""
import json
import os
import sys

sys.dont_write_bytecode = True
import cases
from cases import CC, SPBAGS_RUN, TESTS, TracerTest, line_of, needs_detector

SOURCE = os.path.join(TESTS, "heap.c")
# The pairs of tags whose lines race.
RACES = {
    "used": [("[end]", "[use]"), ("[give]", "[take]")],
    "bytes": [("[end]", "[bytes]"), ("[give]", "[take bytes]")],
    "sum": [("[end of sum]", "[set]"), ("[give sum]", "[take sum]")],
    "later": [],
    "ended": [("[end of another's]", "[read]")],
    "moved": [("[move]", "[read of moved]")],
    "library": [("[library's]", "[use of library's]"), ("[give to library]", "[use of library's]")],
    "strands": [],
    "vast": [],
    "outlive": [],
    "later life": [("[fill]", "[beside]")],
    "large": [],
    "mapped": [],
    "first": [],
}
# What a run of these may take, in KB: with memory that doesn't come again each takes more.
MOST = {"strands": 40000, "vast": 40000, "outlive": 20000, "large": 40000}


class HeapTest(TracerTest):
    def setUp(self):
        super().setUp()
        self.build("heap", SOURCE, "-Wall", "-Wextra", "-Werror")

    def lines(self, word, **settings):
        races = self.races_of("./heap", "part", word, **settings)
        return sorted(tuple(sorted(line for _, line in lines)) for _, *lines in races)

    def test_races(self):
        """The same with memory that comes again and without."""
        for word, tags in RACES.items():
            if word == "sum" and CC == "clang":
                continue
            wanted = sorted(tuple(sorted(line_of(SOURCE, tag) for tag in pair)) for pair in tags)
            for reuse in "10":
                with self.subTest(word, reuse=reuse):
                    self.assertEqual(wanted, self.lines(word, SPBAGS_REUSE=reuse))

    def block_of(self, word):
        """The block that a pair names: the offset of the race, the size, and the line of the allocation."""
        done = self.run_command(SPBAGS_RUN, "--json", "--", "./heap", "part", word)
        self.assertEqual(1, done.status, done.errors)
        block, = (pair["variable"] for pair in json.loads(done.out)["pairs"] if pair["variable"]["kind"] == "heap")
        return block["offset"], block["size"], block["stack"][0]["line"]

    def test_names(self):
        for word, offset, size, tag in (("used", 12, 40, "[given]"), ("bytes", 5, 40, "[given]"),
                                        ("ended", 16, 40, "[parent's]"),
                                        ("later life", 20, 4000, "[later]")):
            with self.subTest(word):
                self.assertEqual((offset, size, line_of(SOURCE, tag)), self.block_of(word))

    def test_promises(self):
        self.assertEqual(0, self.run_command("./heap", "part", "promises", SPBAGS_TRACE="/dev/null").status)

    @needs_detector
    def test_reports(self):
        for word in RACES:
            for reuse in "10":
                with self.subTest(word, reuse=reuse):
                    self.has_same_report("./heap", "part", word, SPBAGS_REUSE=reuse)

    @needs_detector
    def test_memory(self):
        """The most that is resident, with and without memory that comes again."""
        for word, most in MOST.items():
            with self.subTest(word):
                used = [self.peak("./heap", word, SPBAGS_REPORT="report", SPBAGS_REUSE=reuse) for reuse in "10"]
                self.assertLess(used[0], most)
                self.assertGreater(used[1], most)


if __name__ == "__main__":
    cases.main()
