#!/usr/bin/env python3
"""oneTBB and the parallel algorithms of C++, for each level."""
import os
import re
import sys

sys.dont_write_bytecode = True
import cases
from cases import LEVEL, SPBAGS_CPLUSPLUS, SPBAGS_RUN, TESTS, TracerTest, line_of, lines_of, tagged_races

TBB, CONTAINERS, EXECUTION = (os.path.join(TESTS, name + ".cpp") for name in ("tbb", "tbb_containers", "execution"))
QUEUE = """#include <tbb/concurrent_queue.h>
int main() { tbb::concurrent_bounded_queue<int> q; int i; q.pop(i); }
"""


class ParallelTest(TracerTest):
    def check_program(self, source):
        """Its tags say what races, and where a line says what isn't run. It prints the same with races and without."""
        self.build("program", source, LEVEL)
        with self.subTest("races"):
            self.assertEqual(tagged_races(source), self.races_in(source, "./program", "racy", SPBAGS_UNIT="1"))
        run = self.run_command(SPBAGS_RUN, "--output", "report", "--", "./program", "clean", COLUMNS="200")
        *told, last = self.read("report").splitlines()
        with self.subTest("no race"):
            self.assertEqual((3, "races 0,"), (run.status, last[:8]))
        with self.subTest("what isn't run"):
            found = [re.fullmatch(rf".*{source}:([0-9]+): .* which isn't run", line) for line in told]
            self.assertEqual(lines_of(source, "// [told]"), sorted(int(line[1]) for line in found if line))
            self.assertNotIn(None, found)
        with self.subTest("the same output"):
            self.assertEqual(run.out, self.run_command(SPBAGS_RUN, "--output", "report", "--", "./program", "racy").out)

    def tells(self, source, tag, line, *words):
        self.reports(3, f"{source}:{line_of(source, f'[{tag}]')}: {line}", "--", "./program", *words)


class TBBTest(ParallelTest):
    def test_constructs(self):
        self.check_program(TBB)
        for tag, line in (("leaves", "an exception leaves a child"),
                          ("leaves too", "an exception leaves a task of this group")):
            with self.subTest(line):
                self.tells(TBB, tag, line, "thrown")

    def test_containers(self):
        """What two hold that race, whose tag has a name with held, makes it no data race."""
        self.check_program(CONTAINERS)
        with self.subTest("data races"):
            self.assertEqual(tagged_races(CONTAINERS, names="(?!held)[a-z_]+"), self.races_in(
                CONTAINERS, "./program", "racy", options=["--data-races"], SPBAGS_UNIT="1"))
        with self.subTest("a lock's name"):
            self.reports(1, "both hold the lock lock, so it is no data race", "--", "./program", "racy")


class GroupsTest(ParallelTest):
    def test_groups(self):
        """What the trace can't say."""
        self.build("program", TBB, LEVEL)
        for tag, line in (("mixed", "a task begins in one group while"),
                          ("outlives", "tasks outlive the child here")):
            with self.subTest(line):
                self.tells(TBB, tag, line, "mixed")
        with self.subTest("version 1"):
            self.ends_with(2, "a group of tasks needs version 2", "./program", "clean", SPBAGS_VERSION="1",
                           SPBAGS_TRACE="run.trace")

    def test_refused(self):
        for header, text, pattern in (
                ("parallel_pipeline", "int main() {}", "can.t be traced"),
                ("flow_graph", "int main() {}", "can.t be traced"),
                ("task_arena", "int main() { tbb::task_arena().enqueue([] {}); }",
                 "task_arena::enqueue can.t be traced")):
            with self.subTest(header):
                self.write("refused.cpp", f"#include <tbb/{header}.h>\n{text}\n")
                self.ends_with(1, pattern, SPBAGS_CPLUSPLUS, "-c", "refused.cpp")

    def test_queue(self):
        """A serial run waits for ever there."""
        self.write("waits.cpp", QUEUE)
        self.succeeds(SPBAGS_CPLUSPLUS, "-o", "waits", "waits.cpp")
        self.reports(2, "waits for another task or thread, and so for ever", "--timeout", "2", "--", "./waits")

    def test_standard(self):
        """That which a program asks for."""
        self.write("older.cpp", "#include <tbb/tbb.h>\nint main() { tbb::parallel_for(0, 3, [](int) {}); }\n")
        self.succeeds(SPBAGS_CPLUSPLUS, "-std=c++11", "-Wall", "-Wextra", "-Werror", "-o", "older", "older.cpp")
        self.reports(0, "", "--", "./older")


class ExecutionTest(ParallelTest):
    def test_algorithms(self):
        self.check_program(EXECUTION)
        with self.subTest("what is run as one part"):
            self.tells(EXECUTION, "one part", "nth_element is run as one part", "one")


if __name__ == "__main__":
    cases.main()
