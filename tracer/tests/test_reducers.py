#!/usr/bin/env python3
"""Reducers, for each level, by gcc: in C and in C++."""
import os
import shutil
import sys

sys.dont_write_bytecode = True
import cases
from cases import INSIDE, LEVEL, SPBAGS_CC, TESTS, TracerTest, line_of, lines_of, once_of_levels

C, CPLUSPLUS = (os.path.join(TESTS, name) for name in ("reducers.c", "reducers.cpp"))
PRINTED = """out 7 12 3 4 26 10
10 15 10 4 10
21 20 12 20
10 24 4 4 5
11 13 3 15
11 24 f0 7 4 4 1 1 6 4
 and 8
4 eeeeeeeeeeeeeeeeeeee tbbbbbbbbbbccccccccccddddddddddeeeeeeeeee
"""


class ReducersTest(TracerTest):
    def lines(self, source, *words):
        """The pairs of lines that race, without the number of locations."""
        return sorted(race.partition(" ")[2] for race in self.races_in(source, *words))

    def says(self, wanted, *words, status=0):
        """A program prints this, and no race and nothing else is reported."""
        said = self.reports(status, "", *words).splitlines()
        self.assertEqual(wanted, [line for line in said if not line.startswith(("races", "not seen"))])


def twice(number):
    return f"{number} {number}"


class CTest(ReducersTest):
    def setUp(self):
        super().setUp()
        self.build("reducers", C, LEVEL, "-Wall", "-Wextra", "-Werror")

    def racy_lines(self):
        """The line of the value is two above that of the update."""
        of_struct = line_of(C, "counts.all; /*")
        yield from (f"{line} {line + 2}" for line in lines_of(C, "[value]") if line != of_struct)
        yield f"{line_of(C, '[handed]')} {line_of(C, '[before sync]')}"
        yield from (twice(line_of(C, tag)) for tag in ("[ends]", "[array ends]"))
        yield f"{line_of(C, '[set by child]')} {line_of(C, '[beside child]')}"
        yield from (twice(line_of(C, tag)) for tag in ("[shadowed]", "[other struct]"))

    def test_races(self):
        with self.subTest("clean"):
            self.says(["6 8 4 3 4", "6", "6 4 4 -4", "2 4 13 2", "12 7", "7 -4 7 4 10", "6", "6 3", "12 2 3 2"],
                      "--", "./reducers", "clean")
        with self.subTest("racy"):
            self.assertEqual(sorted(self.racy_lines()), self.lines(C, "./reducers", "racy"))
        with self.subTest("the same without repeats"):
            self.is_same_without_repeats("./reducers")
        if INSIDE:
            with self.subTest("the report of the detector inside"):
                self.has_same_report("./reducers")

    def test_structs(self):
        with self.subTest("clean"):
            self.reports(3, "what add_counts does for the reducer counts in another schedule",
                         "--", "./reducers", "struct")
        with self.subTest("racy"):
            value = line_of(C, "counts.all; /*")
            self.assertEqual([f"{value} {value + 2}"], self.lines(C, "./reducers", "struct", "racy"))

    def test_views(self):
        kept = f"{line_of(C, '[kept]')}: what is done by this address of the reducer total"
        for word, text in (("list", "what join does for the reducer list in another schedule"), ("kept", kept),
                           ("child", "an update of a reducer spawns, and what its children access isn't seen")):
            with self.subTest(word):
                self.reports(3, text, "--", "./reducers", word)
        with self.subTest("an argument that is evaluated before"):
            self.assertEqual([twice(line_of(C, "[number]"))], self.lines(C, "./reducers", "arguments"))

    @once_of_levels
    def test_refused(self):
        start = "#include <cilk/cilk.h>\nvoid zero(void *);\nvoid add(void *, void *);\n"
        no_place = "this reducer cannot be traced: declare a variable, a member or a pointer"
        for text, why in (("void f(int cilk_reducer(zero, add) by_value);", no_place),
                          ("typedef int cilk_reducer(zero, add) named;", no_place),
                          ("struct { int x; } cilk_reducer(zero, add) made;", no_place),
                          ("_Thread_local int cilk_reducer(zero, add) own;", "local to a thread"),
                          ("int cilk_reducer(zero, add) sum; int *at = &sum;", "cannot be traced in a constant")):
            with self.subTest(text):
                self.write("place.c", start + text)
                self.ends_with(1, f"(?m)^place.c:4:.* error: .*{why}", SPBAGS_CC, "-c", "place.c")
        with self.subTest("another compiler"):
            if not shutil.which("clang"):
                return
            self.write("place.c", start + "int cilk_reducer(zero, add) sum;")
            self.ends_with(1, "(?m)^place.c:4: error: reducers can be traced only with gcc$", SPBAGS_CC, "-c", "place.c",
                           CC="clang")


class CPlusPlusTest(ReducersTest):
    def test_reducers(self):
        self.build("reducers", CPLUSPLUS, LEVEL, "-Wall", "-Wextra", "-Werror")
        with self.subTest("clean"):
            self.says(PRINTED.splitlines(), "--unseen-ok", "std::allocator*", "--", "./reducers", "clean")
        with self.subTest("racy"):
            self.assertEqual(sorted(f"{line} {line + 1}" for line in lines_of(CPLUSPLUS, "[update]")),
                             self.lines(CPLUSPLUS, "./reducers", "racy"))
        with self.subTest("a monoid of its own"):
            self.reports(3, "what the monoid Union does in another schedule", "--", "./reducers", "own")
        with self.subTest("views with more memory elsewhere"):
            said = self.reports(3, "what join does for the reducer all in another schedule", "--unseen-ok", "std*", "--",
                                "./reducers", "views")
            self.assertLess({"16", "24"}, set(said.splitlines()))


if __name__ == "__main__":
    cases.main()
