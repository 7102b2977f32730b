#!/usr/bin/env python3
"""What a report says of a team, for each compiler."""
import os
import sys

sys.dont_write_bytecode = True
import cases
from cases import CC, SPBAGS_CC, SPBAGS_RUN, TESTS, TracerTest, line_of

SOURCE = os.path.join(TESTS, "openmp.c")


# With a second word the second thread's access is a plain one.
ATOMICS = """
#include <omp.h>
#include <stdlib.h>
#include <string.h>
static volatile double real;
static volatile float small;
static volatile int whole = 1;
static volatile unsigned char byte;
static void use(double value) { if (value == -77) abort(); }
static void is_real(void) {
#pragma omp atomic
    real += 2.0;
}
static void is_small(void) {
#pragma omp atomic
    small -= 1;
}
static void is_whole(void) {
#pragma omp atomic
    whole *= 3;
}
static void is_byte(void) {
#pragma omp atomic
    byte |= 3;
}
static void is_captured(void) {
    double value;
#pragma omp atomic capture
    value = real += 2;
    use(value);
}
static void is_written(void) {
#pragma omp atomic write
    real = 2;
}
static const struct {
    const char *name;
    void (*run)(void);
} kinds[] = {{"real", is_real}, {"small", is_small}, {"whole", is_whole}, {"byte", is_byte},
             {"captured", is_captured}, {"written", is_written}};
int main(int count, char **words) {
    for (size_t at = 0; at < sizeof kinds / sizeof *kinds; at++)
        if (strcmp(words[1], kinds[at].name) == 0) {
#pragma omp parallel num_threads(2)
            {
                if (count > 2 && omp_get_thread_num() == 1)
                    use(real + small + whole + byte);
                else
                    kinds[at].run();
            }
        }
}
"""
# gcc has a lock for this, and writes back what it reads.
WIDE = """
static long double sum;
static void use(long double value) { if (value == -77) __builtin_abort(); }
int main(void) {
#pragma omp parallel num_threads(2)
    {
        long double copy;
#pragma omp atomic read
        copy = sum;
        use(copy);
    }
}
"""


class AtomicTest(TracerTest):
    """Two atomic accesses are no data race, and one beside a plain one is."""

    def test_atomic(self):
        self.write("atomics.c", ATOMICS)
        self.succeeds(SPBAGS_CC, "-fopenmp", "-w", "-o", "atomics", "atomics.c")
        for name in ("real", "small", "whole", "byte", "captured", "written"):
            with self.subTest(name):
                self.ends_with(1, "", SPBAGS_RUN, "--", "./atomics", name)
                self.ends_with(0, "", SPBAGS_RUN, "--data-races", "--", "./atomics", name)
                self.ends_with(1, "", SPBAGS_RUN, "--data-races", "--", "./atomics", name, "plain")

    def test_wide(self):
        self.write("wide.c", WIDE)
        self.succeeds(SPBAGS_CC, "-fopenmp", "-o", "wide", "wide.c", *["-latomic"] * (CC == "clang"))
        self.ends_with(0, "", SPBAGS_RUN, "--", "./wide")


class NoteTest(TracerTest):
    def setUp(self):
        super().setUp()
        version = ["-fopenmp-version=51"] if CC == "clang" else []
        self.build("ways", SOURCE, "-fopenmp", *version, "-Wall", "-Werror")

    def test_team_of_one(self):
        """What the other threads do isn't run, and one thread that asks for its number may do less than they would."""
        with self.subTest("fewer than the program wants"):
            told = f"{SOURCE}:{line_of(SOURCE, '[wants]')}: this parallel region has 1 threads, and asks"
            self.reports(3, told, "--", "./ways", "wants_more", SPBAGS_TEAM="1")
        with self.subTest("as many as the user wants"):
            self.assertNotIn("asks", self.reports(3, "nothing ran in parallel", "--", "./ways", "by_number", SPBAGS_TEAM="1"))

    def test_left(self):
        """A group's end waits for tasks alone."""
        self.reports(3, "this wait doesn't wait for 4 tasks, iterations or other parts", "--", "./ways",
                     "left_by_groups")

    def test_waited_for(self):
        self.reports(0, "races 0, pairs of lines 0", "--", "./ways", "groups_wait")


if __name__ == "__main__":
    cases.main()
