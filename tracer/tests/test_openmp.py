#!/usr/bin/env python3
"""OpenMP, for gcc and clang: what a report says of the ways of tests/openmp.c, for each level the members of a team of
tests/teams.c, and what is refused. The examples are in test_examples.py, and classes in test_cplusplus.py."""
import json
import os
import re
import sys

sys.dont_write_bytecode = True
import cases
from report import checker_answers
from cases import CC, LEVEL, SPBAGS_CC, SPBAGS_RUN, TESTS, Example, TracerTest, line_of, lines_of

WAYS, TEAMS = (os.path.join(TESTS, name + ".c") for name in ("openmp", "teams"))
IS_CLANG = CC == "clang"
# clang has `masked` in a later version of OpenMP than its usual one.
OPENMP = ["-fopenmp", *(["-fopenmp-version=51"] if IS_CLANG else [])]
EACH, BLOCKS = '"construct": "region"', "threads does a block of this loop"
INNER = "a team inside another one has one thread"
TWO = "this parallel region has 2 threads, and asks"
# The first section may have no directive.
SECTIONS = """int x, y;
int main(void) {
#pragma omp parallel sections
    { x = 1;
#pragma omp section
        { y = 1; x++; }
    }
#pragma omp parallel
    {
#pragma omp sections
        {
            { x = 2; }
#pragma omp section
            y = 2;
        }
    }
}
"""


def at(tag):
    """The line of tests/openmp.c with this tag, as reports name it."""
    return f"openmp.c:{line_of(WAYS, f'[{tag}]')}"


class OpenMPTest(TracerTest):
    def build(self, name, source, *flags):
        super().build(name, source, *OPENMP, "-Wall", "-Werror", *flags)

    def pair(self, one, other, many=1):
        return [f"{many} {line_of(WAYS, f'[{one}]')} {line_of(WAYS, f'[{other}]')}"] if one else []


class TraceTest(OpenMPTest):
    """A program that writes its trace says what it doesn't model on standard error, and spbags-lines in its notes."""

    def setUp(self):
        super().setUp()
        self.build("ways", WAYS)
        self.wait = rf"{at('waits')}.* wait for 2 .* from .*{at('makes')}"

    def says(self, way, status, line, wanted, **settings):
        with self.subTest(f"{way}: {line}", **settings):
            self.ends_with(status, line, "./ways", way, SPBAGS_TRACE="run.trace", **settings)
        with self.subTest(f"{way}: races", **settings):
            races, notes = self.traced_races("./ways")
            self.assertEqual(wanted, self.lines_in(WAYS, races))
        if line:
            with self.subTest(f"{way}: the report says it too", **settings):
                self.assertRegex("\n".join(notes), f"note: .*{line}")

    def test_waits(self):
        self.says("outlives", 0, self.wait, self.pair("waited for", "waited for"))
        self.says("left_by_groups", 3, "this wait doesn.t wait for 4 ", [], SPBAGS_EXITCODE="9")
        self.says("grouped", 0, "", [])
        self.says("no_barrier", 0, rf"{at('waits_on')}.* wait for 4 ", [])

    def test_blocks(self):
        self.says("neighbours", 0, "", self.pair("turn", "turn", 4))
        self.says("neighbours", 0, "SPBAGS_ITERATIONS=2 makes", [], SPBAGS_ITERATIONS="2")
        self.says("numbered", 0, "", self.pair("numbered", "numbered"), SPBAGS_TEAM="1")
        self.says("numbered", 0, f"each of 3 {BLOCKS}", [], SPBAGS_TEAM="3")
        self.says("thread_memory", 0, "", [])

    def test_notes(self):
        """A trace that is kept has them behind its places. By records they go out once."""
        with self.subTest("spbags-run --keep"):
            self.reports(1, "", "--keep", "run.trace", "--", "./ways", "outlives")
            self.assertRegex("\n".join(self.traced_races("./ways")[1]), f"note: .*{self.wait}")
        with self.subTest("records"):
            self.succeeds("bash", "-c", "./ways outlives 3>said 4>run.places", SPBAGS_TRACE="run.trace",
                          SPBAGS_SAYS="fd:3", SPBAGS_PLACES="fd:4")
            self.assertIn("\nincomplete: ", "\n" + self.read("said"))
            self.assertEqual([], checker_answers.places_of("run.places").notes)

    def test_statuses(self):
        way = "left_by_groups"
        for words, settings, status in (([way], {"SPBAGS_INCOMPLETE_OK": "1"}, 0), ([way, "5"], {}, 5)):
            with self.subTest(status):
                self.ends_with(status, "", "./ways", *words, SPBAGS_TRACE="run.trace", SPBAGS_EXITCODE="9", **settings)
        for words, status in ((["--"], 3), (["--incomplete-ok", "--"], 0)):
            with self.subTest(words):
                said = self.reports(status, "", *words, "./ways", way)
                self.assertRegex(" ".join(said.split()), "this wait doesn.t wait for 4 ")
        with self.subTest("races, and what isn't modelled"):
            self.reports(1, "SPBAGS_ITERATIONS=4 makes", "--", "./ways", "numbered", SPBAGS_TEAM="1",
                         SPBAGS_ITERATIONS="4")
        with self.subTest("no trace"):
            self.succeeds("./ways", way)

    def test_refused(self):
        for way, line, settings in (
                ("lock", "waits for a lock that is never unset", {}),
                ("grouped", "leave out SPBAGS_VERSION=1", {"SPBAGS_VERSION": "1"}),
                ("grouped", "SPBAGS_TEAM=0: expected a number of threads", {"SPBAGS_TEAM": "0"}),
                ("by_number", "OMP_NUM_THREADS=2,0: expected numbers", {"OMP_NUM_THREADS": "2,0"}),
                ("depends", "openmp.c:.* what depend orders can't be traced", {}),
                ("depends", "SPBAGS_DEPEND=all: expected ignore or order", {"SPBAGS_DEPEND": "all"})):
            with self.subTest(line):
                self.ends_with(2, line, "./ways", way, SPBAGS_TRACE="run.trace", **settings)


# Each way with the status of spbags-run, a line that its report has or nothing if all was modelled, the tags of both
# lines that race, and settings.
ANSWERS = [
    ("each_thread", 1, EACH, "each", "each", {}),
    ("each_task", 1, EACH, "each task", "each task", {}),
    ("each_inner", 1, EACH, "each inner", "each inner", {}),
    ("late_thread", 1, "", "late", "single", {}),
    ("single_nowait", 1, "", "nowait", "beside nowait", {}),
    ("master", 1, "", "master", "beside master", {}),
    ("master_loop", 1, "", "masked", "beside masked", {}),
    ("summed_nowait", 1, "", "summed", "sum", {}),
    ("no_race", 0, "", "", "", {}),
    ("by_number", 3, TWO, "", "", {}),
    ("by_number", 0, "", "", "", {"SPBAGS_TEAM": "2"}),
    ("by_number", 0, "", "", "", {"OMP_NUM_THREADS": "2"}),
    ("by_number", 3, TWO, "", "", {"OMP_NUM_THREADS": "9"}),
    ("by_number", 3, "has one thread by OMP_NUM_THREADS", "", "", {"SPBAGS_TEAM": "9", "OMP_NUM_THREADS": "1"}),
    ("wants_more", 3, f"{at('wants')}: this parallel region has 2 threads", "", "", {}),
    ("wants_four", 3, f"{at('wants four')}: this parallel region wants 4 threads", "", "", {}),
    ("sets_four", 3, f"{at('sets four')}: this parallel region wants 4 threads", "", "", {}),
    ("sums_section", int(IS_CLANG), "", *(2 * ["sums section"] if IS_CLANG else ["", ""]), {}),
    ("asks_how_many", 3, f"{at('asks how many')}: this parallel region has 2 threads, and asks", "", "", {}),
    ("reaches_local_often", 1, "", "reaches local", "reaches local", {}),
    ("reaches_local_once", 1, "", "reaches local", "reaches local", {}),
    ("first_reach", 1, "", "some reach", "some reach", {}),
    ("middle_reach", 1, "", "some reach", "some reach", {}),
    ("last_reach", 1, "", "some reach", "some reach", {}),
    ("named_once", 3, f"{at('beside name')}: this accesses a variable", "", "", {}),
    ("named_before", 3, f"{at('beside name')}: this accesses a variable", "", "", {}),
    ("last_by_name", 1, "", "last by name", "beside last name", {}),
    ("taken_reach", 1, "", "hidden reach", "hidden reach", {}),
    ("unaligned_reach", 1, "", "hidden reach", "hidden reach", {}),
    ("inverted_reach", 1, "", "hidden reach", "hidden reach", {}),
    ("ordered_reach", 1, "", "ordered reach", "ordered reach", {}),
    ("last_by_last", 1, "", "last by last", "last by last", {}),
    ("scratch", 0, "", "", "", {}),
    ("static_by_static", 0, "", "", "", {}),
    ("single_by_single", 1, "", "single by single", "beside single by single", {}),
    ("single_behind_scratch", 1, "", "single behind scratch", "beside single behind scratch", {}),
    ("handed", 3, f"{at('handed')}: this accesses a variable", "", "", {}),
    ("single_first", 1, "", "in single", "beside construct", {}),
    ("single_others", 1, "", "in single", "beside construct", {}),
    ("single_before", 0, "", "", "", {}),
    ("single_own", 0, "", "", "", {}),
    ("single_with_lanes", 3, f"{at('lanes of single')}: a loop with simd alone", "", "", {}),
    ("two_singles", 1, "", "in other single", "in single", {}),
    ("section_first", 1, "", "in section", "beside construct", {}),
    ("section_others", 1, "", "in section", "beside construct", {}),
    ("iteration_first", 1, "", "in iteration", "beside construct", {}),
    ("iteration_others", 1, "", "in iteration", "beside construct", {}),
    ("iteration_own", 0, "", "", "", {}),
    ("master_first", 0, "", "", "", {}),
    ("master_others", 1, "", "in master", "beside construct", {}),
    ("task_first", 1, f"{at('beside construct')}: this accesses a variable", "in task", "beside construct", {}),
    ("task_others", 1, "", "in task", "beside construct", {}),
    ("across_loop", 1, "", "before loop", "behind loop", {}),
    ("same_byte", 1, "", "first only", "byte of master", {}),
    ("next_byte", 0, "1 location is left out: only neighbours meet there", "", "", {}),
    ("byte_of_other_iteration", 1, "", "by turns", "byte of master", {}),
    ("byte_behind_other", 1, "", "third first", "byte of master", {}),
    ("byte_between", 0, "1 location is left out: only neighbours meet there", "", "", {}),
    ("byte_of_all", 1, "", "then all", "byte of master", {}),
    ("task_of_single", 3, f"{at('beside task of single')}: this accesses a variable", "", "", {}),
    ("reaches_own", 3, f"{at('reaches own')}: this accesses what another", "", "", {}),
    ("reaches_own_in_loop", 1, f"{at('reaches own in loop')}: this accesses what another", "reaches own in loop",
     "reaches own in loop", {}),
    ("once", 1, '"held_before": "the once flag is_done"', "once", "after once", {}),
    ("beside_once", 1, '"held_before": null', "once", "beside once", {}),
    ("copies_own", 0, "", "", "", {}),
    ("exits", 3, f"{at('exits')}: the run ends inside", "", "", {}),
    ("two_masters", 0, "", "", "", {"SPBAGS_TEAM": "2"}),
    ("both_masked", 3, f"{at('both masked')}: the thread of this master region also", "", "", {}),
    ("copied", 1, "", "copied", "beside copied", {}),
    ("last_of_blocks", 1, f"each of 2 {BLOCKS}", "last", "beside last", {}),
    ("beside_number", 1, f"{at('asks')}: this parallel region asks", "by number", "beside number", {}),
    ("task_reads", 1, "", "task reads", "beside task reads", {}),
    ("task_has_read", 0, "", "", "", {}),
    ("tasks_sum", 0, "", "", "", {}),
    ("masked_out", 3, f"{at('masked out')}: this region is for thread 5", "", "", {}),
    ("cancels", 0, "", "", "", {}),
    ("cancels", 3, f"{at('cancels')}: OMP_CANC", "", "", {"OMP_CANCELLATION": "true"}),
    ("after_ordered", 3, f"{at('after ordered')}: this access", "", "", {}),
    ("ordered_last", 0, "", "", "", {}),
    ("no_barrier", 0, "", "", "", {}),
    ("outlives_twice", 1, "1 pair of lines came of one more run", "left", "behind both", {}),
    ("goes_astray", 3, "this wait doesn't wait for 1 tasks", "", "", {}),
    ("ordered_tasks", 3, f"wait for 4 tasks, iterations or other parts, the first from {TESTS}/{at('beside ordered')}",
     "", "", {}),
    ("alike", 3, f"each of 2 {BLOCKS}, since with schedule", "", "", {}),
    ("lanes", 3, f"{at('lanes')}: a loop with simd alone", "", "", {}),
    ("task_number", 0, "", "", "", {}),
    ("numbered", 3, f"each of 2 {BLOCKS}, since its region asks", "", "", {}),
    ("nested", 3, INNER, "", "", {}),
    ("nested", 1, "", "inner thread", "inner thread", {"SPBAGS_NESTED": "1"}),
    ("each_inner", 1, INNER, "each inner", "each inner", {"OMP_NUM_THREADS": "2,2"}),
    ("nested", 3, "has one thread by OMP_NUM_THREADS", "", "", {"OMP_NUM_THREADS": "2,1", "SPBAGS_NESTED": "1"}),
    ("numbered", 1, f"{at('numbered')}: a task or an iteration", "numbered", "numbered", {"SPBAGS_TEAM": "1"}),
    ("numbered", 0, "", "", "", {"SPBAGS_TEAM": "8"}),
    ("depends", 1, "nothing waits for data", "reads first", "writes last", {"SPBAGS_DEPEND": "ignore"}),
    ("depends", 3, "this depends on a task, and waits for all before it", "", "", {"SPBAGS_DEPEND": "order"}),
    ("depends_on_none", 1, "", "apart", "apart", {"SPBAGS_DEPEND": "order"}),
    ("depends_on_freed", 1, "", "freed", "freed", {"SPBAGS_DEPEND": "order"}),
    ("depends_on_one", 3, "this depends on a task", "", "", {"SPBAGS_DEPEND": "order"})]


class AnswersTest(OpenMPTest):
    def setUp(self):
        super().setUp()
        self.build("ways", WAYS)

    def answer(self, status, *words, **settings):
        done = self.run_command(SPBAGS_RUN, "--json", *words, **settings)
        self.assertEqual(status, done.status, done.errors)
        return json.loads(done.out)

    def races(self, report):
        return self.lines_in(WAYS, cases.races_of_report(report))

    def test_ways(self):
        for way, status, line, one, other, settings in ANSWERS:
            with self.subTest(way, **settings):
                report = self.answer(status, "--", "./ways", way, **settings)
                self.assertEqual(self.pair(one, other), self.races(report))
                if line:
                    self.assertIn(line, json.dumps(report))
                else:
                    self.assertEqual([], report["incomplete"])

    def test_one_run(self):
        """There is no other run, so its lines stay."""
        self.reports(3, "Where another thread does that, by a pointer", "--one-run", "--", "./ways", "single_own")
        self.reports(0, "", "--one-run", "--", "./ways", "of_iteration")

    def test_guards(self):
        with self.subTest("what is held"):
            guards = [pair["guard"] for pair in self.answer(1, "--", "./ways", "guarded")["pairs"]]
            self.assertEqual(["atomic", "the critical region without a name", "the lock "],
                             sorted(re.sub("at 0x[0-9a-f]*", "", guard) for guard in guards))
        with self.subTest("no data race"):
            self.answer(0, "--data-races", "--", "./ways", "guarded")
        with self.subTest("a task doesn't hold what its thread held"):
            report = self.answer(1, "--data-races", "--", "./ways", "task_of_critical")
            self.assertEqual(self.pair("in a task", "in a task"), self.races(report))


class TeamsTest(OpenMPTest):
    def setUp(self):
        super().setUp()
        self.build("teams", TEAMS, LEVEL)

    def test_ways(self):
        """A program aborts if a thread sees what it mustn't."""
        ways = [row.split() for row in self.succeeds("./teams").out.splitlines()]
        self.assertTrue(ways)
        for threads in "23":
            for way, race in ways:
                with self.subTest(way, threads=threads):
                    self.succeeds("timeout", "60", "./teams", way, SPBAGS_TEAM=threads, SPBAGS_TRACE="run.trace")
                    self.assertEqual(race != "none", self.check("run.trace").status)

    def constructs(self):
        """What stands behind each call that asks for iterations, sections or a single region."""
        asks = r"<(?:GOMP_(?:loop|sections|single)|__kmpc_(?:dispatch|for_static|single))\w*>\n +([0-9a-f]+):"
        code = self.succeeds("objdump", "-d", "--no-show-raw-insn", "teams").out
        return ",".join(str(int(one, 16)) for one in re.findall(asks, code))

    def test_others(self):
        """Where other threads do the parts of each construct, nothing of what these are for is lacking."""
        others = self.constructs()
        self.assertTrue(others)
        for threads in "23":
            for way in self.succeeds("./teams").out.splitlines():
                with self.subTest(way, threads=threads):
                    self.succeeds("timeout", "60", "./teams", way.split()[0], SPBAGS_TEAM=threads,
                                  SPBAGS_TRACE="run.trace", SPBAGS_OTHERS=others)

    def test_answers(self):
        with self.subTest("threads of a region in the report"):
            said = self.reports(1, "", "--", "./teams", "every_thread", SPBAGS_TEAM="2")
            self.assertRegex(" ".join(said.split()), "threads of the region at .* may do this at once")
        with self.subTest("a lock of two members"):
            self.reports(0, "", "--data-races", "--", "./teams", "in_lock", SPBAGS_TEAM="2")
        with self.subTest("a thread held the lock before"):
            said = self.reports(1, "", "--data-races", "--", "./teams", "after_lock", SPBAGS_TEAM="2")
            self.assertIn("the later access comes after its thread held the lock", " ".join(said.split()))
        with self.subTest("a thread holds the lock only later"):
            self.assertNotIn("held the lock",
                             self.reports(1, "", "--data-races", "--", "./teams", "before_lock", SPBAGS_TEAM="2"))
        with self.subTest("too large a team"):
            self.ends_with(2, "a team has at most 64 threads", "./teams", "every_thread", SPBAGS_TEAM="65",
                           SPBAGS_TRACE="run.trace")


class SectionsTest(OpenMPTest):
    def test_first(self):
        self.write("sections.c", SECTIONS)
        self.succeeds(SPBAGS_CC, "-fopenmp", "-o", "sections", "sections.c")
        self.assertEqual(["1 4 6"], self.races_in("sections.c", "./sections"))


class ExamplesTest(OpenMPTest):
    """Those for gcc alone."""

    def test_outputs(self):
        """The answers of those that have no race are the serial ones."""
        for source in ("openmp_fib.c", "openmp_stencil.c", "openmp_nqueens.cpp"):
            with self.subTest(source):
                self.succeeds(cases.compiler_of(source), "-fopenmp", "-o", "program", source)
                self.succeeds("g++" if source.endswith(".cpp") else "gcc", "-o", "plain", source)
                traced = self.succeeds("./program", SPBAGS_TRACE="run.trace")
                self.assertEqual(self.run_command("./plain").out, traced.out)

    def test_guards(self):
        """With --data-races what both do under one guard is left out."""
        self.succeeds(SPBAGS_CC, "-fopenmp", "-DRACY", "-o", "guarded", "openmp_traps.c")
        self.assertEqual(Example("openmp_traps.c").races(but=("[critical]", "[atomic]", "[locked]")),
                         self.races_in("openmp_traps.c", "./guarded", options=["--data-races"]))


class RefusedTest(OpenMPTest):
    def test_directives(self):
        source = "tracer/tests/openmp_refused.c"
        self.assertEqual(lines_of(source, "/* [refused] */"),
                         self.refused_lines("error: OpenMP", SPBAGS_CC, "-fopenmp", source))

    def test_functions(self):
        for name, parameter in (("omp_display_env", "int"), ("__kmpc_begin", "void")):
            with self.subTest(name):
                self.write("unknown.c", f"void {name}({parameter});\nint main(void) {{\n"
                                        f"{name}({'0' if parameter == 'int' else ''});\n}}\n")
                self.ends_with(1, f"unknown.c:3: {name} can.t be traced: it is a part of OpenMP", SPBAGS_CC,
                               "-fopenmp", "-o", "unknown", "unknown.c")

    def test_ignored(self):
        """Without -fopenmp a warning says that the program is serial."""
        self.write("ignored.c", "void f(int *at) {\n#pragma omp simd\nfor (int i = 0; i < 8; i++) at[i] = i;\n"
                                "#pragma omp parallel for\nfor (int i = 0; i < 8; i++) at[i]++;\n}\n")
        for options, lines in (((), ["4"]), (("-fopenmp",), []), (("-Wno-unknown-pragmas",), [])):
            with self.subTest(options):
                done = self.succeeds(SPBAGS_CC, *options, "-c", "ignored.c")
                self.assertEqual(lines, re.findall("ignored.c:([0-9]+): warning: without -fopenmp", done.errors))

    def test_cilk(self):
        self.ends_with(1, "fib.c:8:13: error: Cilk can.t be traced together with OpenMP", SPBAGS_CC, "-fopenmp", "-c",
                       "fib.c")


if __name__ == "__main__":
    cases.main()
