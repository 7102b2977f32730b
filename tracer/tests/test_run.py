#!/usr/bin/env python3
"""What spbags-run says of run.c, and of programs and files that go wrong. What has to come out is written here by hand,
with the lines that tags in the source name."""
import contextlib
import json
import os
import pty
import re
import signal
import subprocess
import sys
import time
import urllib.parse
from concurrent.futures import ThreadPoolExecutor

sys.dont_write_bytecode = True
import cases
from cases import (DETECTOR, INSIDE, SPBAGS_CC, SPBAGS_LINES, SPBAGS_RUN, TESTS, TRACER, TracerTest, last_line,
                   lines_of_tags)
from report import checker_answers
from report import source_lines

SOURCE = os.path.join(TESTS, "run.c")
TAGS = lines_of_tags(SOURCE)
MAIN = ("call", "[run]")
# Stands in for a program that spbags-cc compiled, and says the lines that are its words.
SAYS = """#!/usr/bin/env python3
# SPBAGS_RECORDS
import os, sys
os.write(int(os.environ["SPBAGS_TRACE"][3:]), b"trace 2\\nreturn\\n")
os.write(int(os.environ["SPBAGS_SAYS"][3:]), "".join(line + "\\n" for line in sys.argv[1:]).encode())
"""
# With a word three children access a location each.
EXTENT = """#include <cilk/cilk.h>
static volatile int at[4];
static void set(int number) {
    at[number] = 1;
}
int main(int count, char **words) {
    (void)words;
    set(3);
    if (count > 1) {
        cilk_spawn set(0);
        cilk_spawn set(1);
        cilk_spawn set(2);
    }
}
"""
FAULTS = "int main(void) { *(volatile int *)8 = 1; }\n"
TAKES = """#include <signal.h>
#include <stdio.h>
#include <stdlib.h>
#include <unistd.h>
static void take(int number) { _exit(number - number); }
int main(void) { signal(SIGTERM, take); puts("taking"); fflush(stdout); for (;;) pause(); }
"""


def stack_of(frames):
    return [(frame["role"], tag_of(frame)) for frame in frames]


def tag_of(position):
    """The tag of a position in run.c, or the name of another file."""
    if not position["file"].endswith("run.c"):
        return position["file"]
    return next((tag for tag, line in TAGS.items() if line == position["line"]), position["line"])


def sides_of(pair):
    return [stack_of(pair[name]["stack"]) for name in ("first", "second")]


def missing_sync_of(pair):
    missing_sync = pair["missing_sync"]
    names = [missing_sync[name] and tag_of(missing_sync[name]) for name in ("spawn", "continues_at", "next_sync")]
    return (missing_sync["function"], *names, missing_sync["syncs_at_return"])


def of_variable(pair, *names):
    return tuple(pair["variable"][name] for name in names)


class RunTest(TracerTest):
    SOURCES, OPTIONS = ("run",), ("-w",)

    def setUp(self):
        super().setUp()
        for name in self.SOURCES:
            self.build(name, os.path.join(TESTS, name + ".c"), *self.OPTIONS)

    def build_text(self, name, text):
        self.write(name + ".c", text)
        self.build(name, name + ".c", "-w")

    def write_script(self, name, text):
        self.write(name, text)
        os.chmod(name, 0o755)

    def found(self, *words, **others):
        """What is found in run.c with these words."""
        return self.report_of("./run", *words, **others)

    def found_at_first(self, *words, **others):
        """What is found where no run has left a file."""
        if os.path.exists("ran"):
            os.remove("ran")
        return self.found(*words, **others)

    def text_of(self, *words):
        """The report of run.c with these words of spbags-run and of the program."""
        return self.run_command(SPBAGS_RUN, *words).out

    def start(self, *words, stdin=subprocess.DEVNULL, start_new_session=False, **settings):
        """spbags-run, which soon says where a program waits."""
        self.command = " ".join(words)
        return subprocess.Popen([SPBAGS_RUN, *words], text=True, stdin=stdin, stdout=subprocess.PIPE,
                                stderr=subprocess.PIPE, env={**os.environ, "SPBAGS_PATIENCE": "1", **settings},
                                start_new_session=start_new_session)

    def spbags(self, *words):
        return self.run_command(os.environ["SPBAGS"], *words).out

    def fails_with(self, line, *words, before="", **settings):
        """Status 2, this line, and nothing else."""
        command = [SPBAGS_RUN, *words]
        if before:
            command = ["bash", "-c", before + '; exec "$@"', "bash", *command]
        done = self.run_command(*command, **settings)
        self.assertEqual((2, ""), (done.status, done.out), done.errors)
        self.assertRegex(done.errors, rf"\Aspbags-run: {line}\n\Z")


class ReportTest(RunTest):
    """What a report has."""

    def test_global(self):
        status, report = self.found("global")
        self.assertEqual((1, 3, 1, 4, True),
                         (status, report["version"], report["races"], report["unit"], report["stacks"]))
        self.assertEqual({"status": 1, "signal": None, "complete": True}, report["ended"])
        self.assertEqual(["the program ended with status 1"], report["notes"])
        [pair] = report["pairs"]
        self.assertEqual([[("write", "[set]"), ("call", "[set below]"), ("spawn", "[spawn global]"), MAIN],
                          [("write", "[global]"), MAIN]], sides_of(pair))
        self.assertEqual(("write", "write", False, False, None, 1),
                         (*(pair[side][name] for name in ("kind", "atomic") for side in ("first", "second")),
                          pair["guard"], pair["races"]))
        self.assertEqual(("global", "table", 8, 40, "table[2]", None, False),
                         of_variable(pair, "kind", "name", "offset", "size", "expression", "rest", "thread_local"))
        self.assertEqual(("of_a_global", "[spawn global]", "[global]", "[sync global]", False), missing_sync_of(pair))
        self.assertEqual(("set", "static void set(int *at) { *at = 1; } /* [set] */"),
                         tuple(pair["first"]["user_frame"][name] for name in ("function", "text")))

    def test_without_nm(self):
        """Symbols are read without `nm`, which takes 110 MB for the plugins of compilers."""
        self.write_script("nm", "#!/bin/sh\nexit 1\n")
        [pair] = self.found("global", PATH=f"{os.getcwd()}:{os.environ['PATH']}")[1]["pairs"]
        self.assertEqual(("table", "table[2]"), of_variable(pair, "name", "expression"))

    def test_static(self):
        [pair] = self.found("static")[1]["pairs"]
        child = [("write", "[count]"), ("spawn", "[spawn static]"), MAIN]
        self.assertEqual([child, child], sides_of(pair))
        self.assertEqual(("global", "calls", 0, 4, "calls"),
                         of_variable(pair, "kind", "name", "offset", "size", "expression"))
        function, spawn, continues_at, _, ends = missing_sync_of(pair)
        self.assertEqual(("of_a_static", "[spawn static]", "[spawn static]", True),
                         (function, spawn, continues_at, ends))

    def test_heap(self):
        [pair] = self.found("heap")[1]["pairs"]
        self.assertEqual([[("write", "[set]"), ("spawn", "[spawn heap]"), MAIN], [("write", "[heap]"), MAIN]],
                         sides_of(pair))
        variable = pair["variable"]
        self.assertEqual(("heap", 12, 24), tuple(variable[name] for name in ("kind", "offset", "size")))
        self.assertEqual([("allocation", "[make]"), ("call", "[made]"), MAIN], stack_of(variable["stack"]))

    def test_local(self):
        [pair] = self.found("local")[1]["pairs"]
        self.assertEqual([[("write", "[set]"), ("spawn", "[spawn local]"), ("call", "[run local]")],
                          [("read", "[local]"), ("call", "[run local]")]], sides_of(pair))
        self.assertEqual({"kind": "local", "function": "main", "name": "local", "offset": 0, "size": 4,
                          "expression": "local", "rest": None}, pair["variable"])

    def test_library(self):
        """Stacks through a library, and a child that is a function of the library. A text of five bytes is in two
        units."""
        order, copy = sorted(self.found("library")[1]["pairs"], key=lambda pair: pair["variable"]["kind"])
        self.assertEqual((1, 2), (order["races"], copy["races"]))
        sorts = [("call", "[sort]"), ("spawn", "[spawn sort]"), MAIN]
        self.assertEqual(sorts, sides_of(order)[0][1:])
        self.assertEqual([("call", "[sort]"), ("call", "[sorts]"), MAIN], sides_of(order)[1][1:])
        self.assertEqual({"[order]"}, {side[0][1] for side in sides_of(order)})
        self.assertEqual([[("write", "[spawn copy]"), ("spawn", "[spawn copy]"), MAIN], [("write", "[copy]"), MAIN]],
                         sides_of(copy))
        self.assertEqual((5, [("allocation", "[dup]"), MAIN]),
                         (copy["variable"]["size"], stack_of(copy["variable"]["stack"])))

    def test_thousand(self):
        status, report = self.found("thousand")
        self.assertEqual((1, 1000, [1000]), (status, report["races"], [pair["races"] for pair in report["pairs"]]))
        self.assertEqual([[("write", "[set all]"), ("spawn", "[spawn all]"), MAIN], [("write", "[all]"), MAIN]],
                         sides_of(report["pairs"][0]))

    def test_many_variables(self):
        """Each of them that one instruction writes has its own stacks, up to 65 of 70, or the report says that it may
        not. With checks inline a write is told in two places."""
        functions = "".join(f"static int x{number};\nstatic void set_x{number}(void) {{ set(&x{number}); }}\n"
                            for number in range(70))
        calls = "".join(f"cilk_spawn set_x{number}();\nset_x{number}();\n" for number in range(70))
        self.write("variables.c", "#include <cilk/cilk.h>\nstatic void set(int *at) { *at = 1; }\n"
                                  f"{functions}int main(void) {{\n{calls}}}\n")
        self.succeeds(SPBAGS_CC, "-w", "--no-inline-checks", "-o", "variables", "variables.c")
        report = self.report_of("./variables", options=("--most", "100"))[1]
        own = [pair for pair in report["pairs"] if not pair["borrowed"]]
        self.assertEqual((70, 65), (len(report["pairs"]), len(own)))
        for pair in own:
            self.assertEqual({"set_" + pair["variable"]["name"]},
                             {pair[side]["stack"][1]["function"] for side in ("first", "second")})

    def test_header(self):
        """The user's own code leads, and the whole stack is there."""
        report = self.found("header")[1]
        [pair] = report["pairs"]
        header = ("write", "/usr/include/own.h")
        self.assertEqual([[header, ("spawn", "[spawn header]"), MAIN], [header, ("call", "[header]"), MAIN]],
                         sides_of(pair))
        self.assertEqual(["[spawn header]", "[header]"],
                         [tag_of(pair[side]["user_frame"]) for side in ("first", "second")])
        text = self.text_of("--", "./run", "header")
        self.assertEqual(["write", "inside", "spawned at", "write", "inside", "called at", "both", "called at"],
                         re.findall("^    (?:  )?(write|inside|spawned at|called at|both)(?:  |$)", text, re.MULTILINE))

    def test_missing_syncs(self):
        """Where procedures part is what `spbags explain` says of the trace that is kept."""
        self.build("traps", "traps.c", "-w", "-DRACY")
        for command in (["./run", "global", "static", "heap", "library", "thousand"], ["./traps"]):
            for pair in self.report_of(*command, options=("--keep", "run.trace"))[1]["pairs"]:
                missing_sync = pair["missing_sync"]
                wanted = self.explained(command[0], pair["location"], missing_sync["function"])
                self.assertEqual(wanted,
                                 [missing_sync[name] and missing_sync[name]["line"] if line else line
                                  for name, line in zip(("spawn", "continues_at", "next_sync"), wanted)])

    def explained(self, program, location, function):
        """The lines of the first child's spawn, of the way to the second access and of the next wait, where they are in
        this function."""
        said = self.spbags("explain", "run.trace", str(location)).splitlines()
        places = [int(said[number].split()[at]) for number, at in ((2, 2), (3, 2), (4, 1))]
        self.assertEqual("first spawn", said[2].rpartition(" ")[0][:11])
        codes = checker_answers.places_of("run.trace.places").codes(places)
        found = source_lines.positions_of(program, codes.values())
        positions = [source_lines.leading(found[codes[place]]) for place in places]
        return [position.line if position.function == function else None for position in positions]

    def test_most(self):
        """The most frequent come first, and what isn't shown is counted."""
        words = ("global", "static", "heap", "thousand")
        report = self.found(*words, options=("--most", "1"))[1]
        self.assertEqual(([1000], 1003, {"pairs": 3, "races": 3}),
                         ([pair["races"] for pair in report["pairs"]], report["races"], report["not_shown"]))
        text = self.text_of("--most", "0", "--", "./run", *words)
        self.assertEqual("races 1003, pairs of lines 4; not shown: 1003 races of 4 pairs", last_line(text))

    def test_extent(self):
        """The last line says how much there was, and a run without anything in parallel has no answer to be sure of."""
        self.write("extent.c", EXTENT)
        self.succeeds(SPBAGS_CC, *DETECTOR, "-o", "extent", "extent.c")
        for word, status, spawns, accesses in (("", 3, 0, 1), ("three", 0, 3, 4)):
            done = self.run_command(SPBAGS_RUN, "--json", "--", "./extent", *word.split())
            found = json.loads(done.out)
            with self.subTest(word):
                self.assertEqual((status, status == 3),
                                 (done.status, "nothing ran in parallel" in "".join(found["incomplete"])))
                self.assertEqual((spawns, accesses) if INSIDE else (None, None), (found["spawns"], found["accesses"]))
        if INSIDE:
            self.assertEqual("races 0, pairs of lines 0, 3 spawns, 4 accesses",
                             self.run_command(SPBAGS_RUN, "--", "./extent", "three").out.splitlines()[-1])

    def test_newer_source(self):
        """A note says that the lines may not be those that ran, whatever shows them; the status is that of the races."""
        self.write("own.c", SarifTest.TEXT)
        self.succeeds(SPBAGS_CC, *DETECTOR, "-w", "-o", "own", "own.c")
        self.run_command(SPBAGS_RUN, "--keep", "run.trace", "--", "./own")
        self.write("answer", self.spbags("check", "run.trace"))
        for later, is_newer in ((-1, False), (1, True)):
            time = os.path.getmtime("own") + later
            os.utime("own.c", (time, time))
            with self.subTest(is_newer=is_newer):
                wanted = [("note", "own.c is newer than the program")] if is_newer else []
                done = self.run_command(SPBAGS_RUN, "--", "./own")
                self.assertEqual((1, is_newer), (done.status, "own.c is newer than the program: the text" in done.out))
                self.assertEqual([text for _, text in wanted], [note.partition(":")[0] for note in
                                                                self.report_of("./own")[1]["notes"]])
                [log] = json.loads(self.run_command(SPBAGS_RUN, "--sarif", "--", "./own").out)["runs"]
                self.assertEqual(wanted, [(note["level"], note["message"]["text"].partition(":")[0]) for note in
                                          log["invocations"][0]["toolExecutionNotifications"]])
                said = self.run_command(SPBAGS_LINES, "./own", "run.trace", "answer").errors
                self.assertEqual("spbags-lines: warning: own.c is newer than ./own\n" if is_newer else "", said)

    def test_no_race(self):
        status, report = self.found()
        self.assertEqual((3, 0, []), (status, report["races"], report["pairs"]))
        said = self.run_command(sys.executable, "-ISX", "importtime", SPBAGS_RUN, "--", "./run").errors
        modules = set(re.findall(r"(?m)\| +([\w.]+)$", said))
        self.assertIn("report.runs", modules)
        self.assertEqual(set(), modules & {"report.text", "report.pairs", "argparse", "ctypes", "dataclasses", "enum", "re",
                                           "subprocess", "threading", "typing"})


def text_object(required=("text",)):
    return {"type": "object", "required": list(required), "properties": {"text": {"type": "string", "minLength": 1}}}


# What the standard demands of a log: what has to be there, and of which form. Of an artifact the URI has no bare letter
# that none may have, and is absolute or has a base.
ARTIFACT = {"type": "object", "required": ["uri"], "properties": {"uri": {"pattern": r"^[\w.~%!$&'()*+,;=:@/-]*$"}},
            "if": {"required": ["uriBaseId"]}, "then": {"properties": {"uri": {"pattern": "^(?!/|[a-z]+:)"}}},
            "else": {"properties": {"uri": {"pattern": "^file:///"}}}}
LOCATION = {"type": "object", "properties": {
    "id": {"type": "integer", "minimum": 0}, "message": text_object(),
    "logicalLocations": {"items": {"required": ["name"]}},
    "physicalLocation": {"required": ["artifactLocation"], "properties": {
        "artifactLocation": ARTIFACT,
        "region": {"required": ["startLine"], "properties": {"startLine": {"type": "integer", "minimum": 1}}}}}}}
RESULT = {"type": "object", "required": ["message", "ruleId", "partialFingerprints"], "properties": {
    "message": text_object(), "level": {"enum": ["none", "note", "warning", "error"]},
    "locations": {"items": LOCATION}, "relatedLocations": {"items": LOCATION},
    "partialFingerprints": {"minProperties": 1, "additionalProperties": {"type": "string"}},
    "stacks": {"items": {"required": ["frames"], "properties": {
        "message": text_object(), "frames": {"items": {"properties": {"location": LOCATION}}}}}}}}
RULE = {"type": "object", "required": ["id", "helpUri"], "properties": {
    "shortDescription": text_object(), "helpUri": {"pattern": "^https://[^ ]+$"}}}
SARIF = {"type": "object", "required": ["version", "runs"], "properties": {
    "version": {"const": "2.1.0"},
    "runs": {"items": {"required": ["tool", "results", "originalUriBaseIds"], "properties": {
        "tool": {"required": ["driver"], "properties": {"driver": {
            "required": ["name"], "properties": {"name": {"type": "string"}, "rules": {"items": RULE}}}}},
        "originalUriBaseIds": {"additionalProperties": {"properties": {"uri": {"pattern": "^file:///.*/$"}}}},
        "invocations": {"items": {"required": ["executionSuccessful"]}}, "results": {"items": RESULT}}}}}}


class SarifTest(RunTest):
    """The log, read back as those do who show it."""

    # The child's write and the parent's are two lines below each other.
    TEXT = "#include <cilk/cilk.h>\nstatic int cell;\nstatic void set(void) {\n    cell = 1;\n}\n"\
           "int main(void) {\n    cilk_spawn set();\n    cell = 2;\n}\n"

    def log_of(self, *words, options=()):
        status, said, errors = self.run_command(SPBAGS_RUN, "--sarif", *options, "--", *words)
        log = json.loads(said)
        try:
            import jsonschema
        except ImportError:
            return status, log["runs"][0]
        jsonschema.validate(log, SARIF)
        [run] = log["runs"]
        self.assertLessEqual({result["ruleId"] for result in run["results"]},
                             {rule["id"] for rule in run["tool"]["driver"]["rules"]}, errors)
        return status, run

    @staticmethod
    def line_of(run, location):
        """The text of the line, in the file that the URI names."""
        artifact, region = (location["physicalLocation"][name] for name in ("artifactLocation", "region"))
        base = run["originalUriBaseIds"][artifact["uriBaseId"]]["uri"] if "uriBaseId" in artifact else ""
        url = urllib.parse.urlparse(base + artifact["uri"])
        with open(urllib.parse.unquote(url.path), encoding="utf-8") as file:
            return file.read().splitlines()[region["startLine"] - 1].strip()

    def test_places(self):
        """A result has the line of the second access, and beside it that of the first. A file of the folder is named
        from it, whatever its name, and any other by its whole name."""
        os.mkdir("a folder")
        self.write("a folder/100%#ä.c", self.TEXT)
        self.succeeds(SPBAGS_CC, "-w", "-o", "own", os.path.abspath("a folder/100%#ä.c"))
        for word, is_own, wanted in (("./own", True, ["cell = 2;", "cell = 1;"]), ("./run", False, None)):
            status, run = self.log_of(word, "global")
            [result] = run["results"]
            self.assertEqual((1, "determinacy-race", "error"), (status, result["ruleId"], result["level"]))
            locations = [result[name][0] for name in ("locations", "relatedLocations")]
            wanted = wanted or ["table[2] = 2; /* [global] */", "static void set(int *at) { *at = 1; } /* [set] */"]
            self.assertEqual(wanted, [self.line_of(run, location) for location in locations])
            self.assertEqual([is_own] * 2, ["uriBaseId" in location["physicalLocation"]["artifactLocation"]
                                            for location in locations])
            frames = [self.line_of(run, frame["location"]) for stack in result["stacks"] for frame in stack["frames"]]
            self.assertEqual(wanted[1], frames[0])
        with self.subTest("another root"):
            run = self.log_of("./own", options=("--source-root", "a folder"))[1]
            location = run["results"][0]["locations"][0]
            self.assertEqual("100%25%23%C3%A4.c", location["physicalLocation"]["artifactLocation"]["uri"])
            self.assertEqual("cell = 2;", self.line_of(run, location))

    def test_fingerprints(self):
        """A pair keeps its own where lines move, and no other has it, even of lines that are alike."""
        found = []
        for before in ("", "\n\n"):
            self.write("own.c", before + "#include <cilk/cilk.h>\nint cells[3], at;\nvoid set(void) {\n"
                       "    cells[0] = cells[1] = cells[2] = 1;\n}\nint main(void) {\n    cilk_spawn set();\n"
                       "    cells[at++] = 2;\n    cells[at++] = 2;\n    cells[at] = 3;\n}\n")
            self.succeeds(SPBAGS_CC, "-w", "-o", "own", "own.c")
            results = self.log_of("./own")[1]["results"]
            found.append([result["partialFingerprints"]["spbagsLines/v1"] for result in results])
        self.assertEqual(found[0], found[1])
        self.assertEqual((3, 2), (len(set(found[0])), len({one.partition(":")[0] for one in found[0]})))

    def test_notifications(self):
        self.write_script("says", SAYS)
        status, run = self.log_of("./says", "incomplete: one thing")
        self.assertEqual((3, [("warning", "one thing")]),
                         (status, [(note["level"], note["message"]["text"])
                                   for note in run["invocations"][0]["toolExecutionNotifications"]]))


class SecondRunTest(RunTest):
    def test_another_course(self):
        status, report = self.found("course")
        self.assertEqual((1, 1, False), (status, report["races"], report["stacks"]))
        [pair] = report["pairs"]
        self.assertEqual([[("write", "[set]")], [("write", "[global]")]], sides_of(pair))
        self.assertEqual("table", pair["variable"]["name"])
        self.assertIn("the second run took another path", "".join(report["notes"]))
        kept = self.found("course", options=("--keep", "run.trace"))[1]
        self.assertEqual([[("write", "[set]")], [("write", "[global]")]], sides_of(kept["pairs"][0]))

    def test_addresses(self):
        """What the program has in its environment, and what it maps, lies at the same addresses in all runs."""
        for name, words in (("environment", "nine"), ("environment", "ninety"), ("environment", "nine and ninety"),
                            ("mapped", "")):
            report = self.found(name, WORDS=words)[1]
            self.assertEqual((1, True), (report["races"], report["stacks"]), (name, words))
            self.assertNotIn("the second run", "".join(report["notes"]), (name, words))

    def test_program_that_keeps_a_file(self):
        """The first run's races are reported: with its own lines if its trace is kept, or it alone looks; else without
        any."""
        lines = [[("write", "[set]")], [("write", "[global]")]], None
        for options, many, (sides, guard) in (((), 3, ([[("write", "?")], [("write", "?")]], "unknown")),
                                              (("--keep", "run.trace"), 2, lines), (("--one-run",), 1, lines)):
            status, report = self.found_at_first("file", options=options)
            self.assertEqual((1, 1, 1, False, many), (status, report["races"], report["without_stacks"],
                                                      report["stacks"], os.path.getsize("ran")))
            [pair] = report["pairs"]
            self.assertEqual((sides, 1, "table", 8, guard),
                             (sides_of(pair), pair["races"], *of_variable(pair, "name", "offset"), pair["guard"]))
        os.remove("ran")
        text = self.text_of("--", "./run", "file")
        self.assertEqual("races 1, pairs of lines 1", last_line(text))
        self.assertRegex(" ".join(text.split()),
                         "the second run took another path: record [0-9]+, an access of the first run, is .* in the "
                         "second; lines without stacks: 1 of 1 race 1 race of the first run came in no later one, and "
                         "has no lines: this program can't be repeated")

    def test_number_of_runs(self):
        for many, *words in ((1, "file alone"), (2, "file alone", "global")):
            self.found_at_first(*words)
            self.assertEqual(many, os.path.getsize("ran"))

    def test_races_of_a_later_run(self):
        """A run that looks from its start has another race, which is reported beside that of the first."""
        status, report = self.found_at_first("others file")
        self.assertEqual((1, 2, 2, 3), (status, report["races"], report["without_stacks"], os.path.getsize("ran")))
        self.assertEqual({"table": [[("write", "?")], [("write", "?")]],
                          "calls": [[("write", "[count]")], [("write", "[count]")]]},
                         {pair["variable"]["name"]: sides_of(pair) for pair in report["pairs"]})

    def test_later_course(self):
        """What the second run meets before it goes astray has its stacks."""
        status, report = self.found_at_first("later", "global")
        self.assertEqual((1, 2, True, 1), (status, report["races"], report["stacks"], report["without_stacks"]))
        whole, bare = sorted(report["pairs"], key=lambda pair: pair["variable"]["name"], reverse=True)
        self.assertEqual([("write", "[set]"), ("call", "[set below]"), ("spawn", "[spawn global]")],
                         sides_of(whole)[0][:3])
        self.assertEqual([[("write", "?")], [("write", "?")]], sides_of(bare))
        self.assertEqual("calls", bare["variable"]["name"])

    def test_guards_of_another_course(self):
        """What was held in the first run isn't known by what later ones hold, so it may be a data race."""
        for word, sides in (("guards file", [[("write", "?")], [("write", "?")]]),
                            ("locks file", [[("write", "[turn later]")], [("write", "[turn later]")]])):
            status, report = self.found_at_first(word, options=("--data-races",))
            [pair] = [pair for pair in report["pairs"] if pair["variable"]["name"] == "guarded"]
            self.assertEqual((1, "unknown", sides), (status, pair["guard"], [side[:1] for side in sides_of(pair)]))

    def test_guards_of_one_run(self):
        status, report = self.found_at_first("guards file", options=("--one-run",))
        self.assertEqual((1, ["atomic", "the lock lock"], False),
                         (status, [pair["guard"] for pair in report["pairs"]], report["stacks"]))
        self.assertEqual([(True, True), (False, False)],
                         [(pair["first"]["atomic"], pair["second"]["atomic"]) for pair in report["pairs"]])
        self.assertEqual(0, self.found_at_first("guards file", options=("--one-run", "--data-races"))[0])

    def test_small_disk(self):
        """Races whose places have no room have no lines, and it isn't known whether they are data races."""
        for options in ((), ("--data-races",)):
            done = self.run_command("bash", "-c", 'rm -f ran; ulimit -f 400; exec "$@"', "bash", SPBAGS_RUN, "--json",
                                    "--one-run", *options, "--", "./run", "small disk")
            status, report = done.status, self.as_report(done)
            self.assertEqual((1, 1002, 1002), (status, report["races"], report["without_stacks"]))
            pairs = {pair["variable"]["name"]: pair for pair in report["pairs"]}
            self.assertEqual({"table": (1, None), "cells": (1000, None), "guarded": (1, "unknown")},
                             {name: (pair["races"], pair["guard"]) for name, pair in pairs.items()})
            self.assertEqual([[("write", "[set]")], [("write", "[global]")]], sides_of(pairs["table"]))
            self.assertEqual([[("write", "?")], [("write", "?")]], sides_of(pairs["guarded"]))
            self.assertRegex("\n".join(report["notes"]), "(?m)^1 race has no lines")

    def test_input(self):
        """A file and a pipe go to both runs; the pipe's end may come later."""
        self.write("letters", "passed over\nab\ncde\n")
        wanted = [[("write", "[set]"), ("spawn", "[spawn input]"), MAIN], [("write", "[input]"), MAIN]]
        with open("letters") as file:
            os.lseek(file.fileno(), 12, os.SEEK_SET)
            of_file = self.found("input", stdin=file)[1]
        slow = f"(echo ab; sleep 0.8; echo cde) | {SPBAGS_RUN} --json -- ./run input"
        of_pipes = self.found("input", given="ab\ncde\n")[1], self.as_report(self.run_command("bash", "-c", slow))
        for report in (of_file, *of_pipes):
            self.assertEqual((5, True, [5]),
                             (report["races"], report["stacks"], [pair["races"] for pair in report["pairs"]]))
            self.assertEqual(wanted, sides_of(report["pairs"][0]))

    def test_open_pipe(self):
        """A program that doesn't read its input doesn't wait for its end."""
        out, into = os.pipe()
        process = self.start("--", "./run", "global", stdin=out)
        process.communicate(timeout=cases.LONG)
        os.close(out)
        os.close(into)
        self.assertEqual(1, process.returncode)

    def test_no_file_is_left(self):
        os.mkdir("temporary")
        self.found("input", given="abc\n", TMPDIR=os.path.abspath("temporary"))
        self.found("course", TMPDIR=os.path.abspath("temporary"))
        self.assertEqual([], os.listdir("temporary"))

    def test_neighbours(self):
        """Those of a global, of the heap, of a local and of children's results."""
        for options in ((), ("--keep", "run.trace"), ("--repeats",)):
            status, report = self.found("neighbours", "more neighbours", options=options)
            self.assertEqual((0, 0, 4), (status, report["races"], report["unit"]))
            self.assertIn("5 locations are left out: only neighbours meet there in a unit of 4 bytes", report["notes"])

    def test_byte_beside_neighbours(self):
        status, report = self.found("letter")
        self.assertEqual((1, 1, 4, True), (status, report["races"], report["unit"], report["stacks"]))
        self.assertEqual([[("write", "[letter]"), ("spawn", "[spawn letter]"), MAIN],
                          [("write", "[letter]"), ("call", "[calls letter]"), MAIN]],
                         sides_of(report["pairs"][0]))
        self.assertEqual(("letters", 5, False),
                         (*of_variable(report["pairs"][0], "name", "offset"), report["pairs"][0]["neighbours"]))
        status, report = self.found("flags", "global")
        self.assertEqual((1, 2), (status, report["races"]))
        [pair] = [pair for pair in report["pairs"] if pair["variable"]["name"] == "flags"]
        self.assertEqual([[("write", "[flag]"), ("spawn", "[spawn flag]"), MAIN],
                          [("write", "[flag]"), ("call", "[calls flag]"), MAIN]],
                         sides_of(pair))
        self.assertEqual((1, 2), (pair["races"], pair["variable"]["offset"]))

    def test_byte_alone(self):
        """Where no neighbours are accessed the second run says so, and no other is made."""
        status, report = self.found_at_first("byte alone")
        self.assertEqual((1, 1, True, 2), (status, report["races"], report["stacks"], os.path.getsize("ran")))
        [pair] = report["pairs"]
        self.assertEqual([[("write", "[letter]"), ("spawn", "[spawn byte]"), MAIN],
                          [("write", "[letter]"), ("call", "[calls byte]"), MAIN]], sides_of(pair))
        self.assertEqual(("letters", 5, False),
                         (pair["variable"]["name"], pair["variable"]["offset"], pair["neighbours"]))

    def test_units_beside_neighbours(self):
        """Each half of a double is one location, beside neighbours too."""
        for words in (("doubles",), ("doubles", "neighbours")):
            status, report = self.found(*words)
            self.assertEqual((1, 16, [16]), (status, report["races"], [pair["races"] for pair in report["pairs"]]))

    def test_neighbours_of_another_course(self):
        """A race that may be of neighbours stays, if the run that tells them apart isn't like the first."""
        status, report = self.found_at_first("letters file")
        self.assertEqual((1, 1, [(True, 1)]),
                         (status, report["races"], [(pair["neighbours"], pair["races"]) for pair in report["pairs"]]))
        self.assertRegex("\n".join(report["notes"]), "(?m)^maybe only neighbours race at 1 location")
        self.assertEqual(2, os.path.getsize("ran"))
        status, report = self.found_at_first("fourth")
        self.assertEqual(5, os.path.getsize("ran"))
        self.assertEqual((1, 1, False, 1), (status, report["races"], report["stacks"], report["without_stacks"]))
        [pair] = report["pairs"]
        self.assertEqual([[("write", "?")], [("write", "?")]], sides_of(pair))
        self.assertEqual(("letters", 5, False),
                         (pair["variable"]["name"], pair["variable"]["offset"], pair["neighbours"]))

    def test_programs_without_a_race(self):
        for name, status in (("many", 0), ("stores", 3)):
            self.build(name, os.path.join(TESTS, name + ".c"), "-w")
            self.reports(status, "races 0", "--", "./" + name)


class OutputTest(RunTest):
    """Where the report goes, and its other forms."""

    def test_output(self):
        """What the program prints comes once, and with --json on standard error."""
        status, said, errors = self.run_command(SPBAGS_RUN, "--", "./run", "local")
        self.assertEqual((1, "1", ""), (status, said.splitlines()[0], errors))
        self.assertEqual(1, said.count("\n1\n") + said.startswith("1\n"))
        self.assertEqual("1\n", self.run_command(SPBAGS_RUN, "--json", "--", "./run", "local").errors)

    @staticmethod
    def said_on_terminal(**settings):
        control, terminal = pty.openpty()
        subprocess.run([SPBAGS_RUN, "--", "./run", "global"], stdin=subprocess.DEVNULL, stdout=terminal,
                       env={**os.environ, **settings})
        os.close(terminal)
        said = os.read(control, 1 << 16)
        os.close(control)
        return said

    def test_colours(self):
        """A terminal gets some, unless NO_COLOR is set; anything else only where they are asked for."""
        self.assertEqual((True, False),
                         tuple(b"\033[" in self.said_on_terminal(**settings) for settings in ({}, {"NO_COLOR": "1"})))
        asked = [self.text_of(*words, "--", "./run", "global") for words in ((), ("--color", "always"))]
        self.assertEqual([False, True], ["\033[" in said for said in asked])

    def test_keep(self):
        """The trace that is kept goes with spbags-lines, whose answers are the same."""
        self.found("global", "heap", options=("--keep", "run.trace"))
        report = self.spbags("check", "run.trace")
        brief = self.run_command(SPBAGS_LINES, "--brief", "./run", "run.trace", given=report).out
        self.assertEqual([f"1 {SOURCE}:{TAGS['[set]']} {SOURCE}:{TAGS[tag]}" for tag in ("[global]", "[heap]")],
                         brief.splitlines())

    def test_answers_of_explain(self):
        """Each line of the explanation has the source lines of its places below it."""
        self.found("global", options=("--keep", "run.trace"))
        location = self.spbags("check", "run.trace").splitlines()[1].split()[1]
        status, said = self.lines_of(self.spbags("explain", "run.trace", location))
        self.assertEqual((1, ["race", "[set]", "[global]", "meet", "[spawn global]", "first", "[spawn global]", "[set]",
                              "second", "[global]", "joined", "[sync global]"]),
                         (status, said))
        self.assertEqual((0, ["no race"]), self.lines_of(self.spbags("explain", "run.trace", "1")))

    def test_answers_of_confirm(self):
        self.found("global", options=("--keep", "run.trace"))
        report = self.spbags("check", "run.trace")
        wrong = report.replace("write", "read", 1)
        for text, wanted in ((report, (0, ["every"])), (wrong, (1, ["entry", "[set]", "[global]"]))):
            self.write("report", text)
            self.assertEqual(wanted, self.lines_of(self.spbags("confirm", "run.trace", "report"), "-", "report"))

    def lines_of(self, answer, *words):
        """What spbags-lines says of an answer: its status, and the tags in its lines or else their first words."""
        status, said, _ = self.run_command(SPBAGS_LINES, "./run", "run.trace", *words, given=answer)
        if said == "no race\n":
            return status, ["no race"]
        tags = {str(line): tag for tag, line in TAGS.items()}
        found = (re.search(r"run\.c:([0-9]+)", line) for line in said.splitlines())
        return status, [tags[match[1]] if match else line.split()[0] for match, line in zip(found, said.splitlines())]

    def test_options(self):
        self.assertEqual(1, self.found("global", options=("--shards", "2"))[0])
        self.found("global", options=("--keep", "run.trace"))
        few = os.path.getsize("run.trace")
        self.found("global", options=("--keep", "run.trace", "--repeats"))
        self.assertGreaterEqual(os.path.getsize("run.trace"), few)
        for command, example in (("spbags-run", "spbags-cc -o fib fib.c"), ("spbags-cc", "spbags-cc -o fib fib.c"),
                                 ("spbags-lines", "spbags-lines ./program run.trace")):
            with self.subTest(command):
                self.assertIn(example, self.succeeds("tracer/" + command, "--help").out)
        with self.subTest("too few words"):
            self.assertEqual(2, self.run_command(SPBAGS_LINES, "./run").status)

    def test_command_line(self):
        """A name may be shortened, and what it takes may follow `=`; behind `--` all is the program's."""
        self.write("words.c", """#include <stdio.h>
int main(int count, char **words) {
    for (int at = 1; at < count; at++)
        printf("%s%s", at > 1 ? " " : "", words[at]);
    puts("");
}
""")
        self.succeeds(SPBAGS_CC, *DETECTOR, "-w", "-o", "words", "words.c")
        for words, wanted in ((("--one", "./words", "a"), "a"), (("--", "./words", "--json"), "--json"),
                              (("--most=3", "--", "./words", "--json"), "--json"), (("--no-answer=4", "./words"), "")):
            with self.subTest(words):
                self.assertEqual(wanted, self.run_command(SPBAGS_RUN, *words).out.split("\n")[0])
        for words, why in ((("--most", "few"), "argument --most: expected a number, 0 or more"),
                           (("--exitcode=256",), "argument --exitcode: expected a status from 0 to 255"),
                           (("--timeout", "0"), "argument --timeout: expected a number of seconds"),
                           (("--json", "--sarif"), "argument --sarif: not allowed with argument --json")):
            with self.subTest(words):
                said = self.run_command(SPBAGS_RUN, *words, "--", "./words")
                self.assertEqual((2, "", f"spbags-run: error: {why}"),
                                 (said.status, said.out, said.errors.split("\n")[-2]))
        self.assertEqual(2, self.run_command(SPBAGS_RUN, "--json", "--").status)

    def test_help(self):
        """RUN.md has its options and statuses, in its words."""
        said = self.succeeds(SPBAGS_RUN, "--help", COLUMNS="1000").out.replace("`", "")
        page = re.sub(r"`|\[(.*?)\]\(.*?\)", r"\1", self.read(os.path.join(TRACER, "RUN.md")))
        for name in (r"--(?!version)[a-z-]+(?: [A-Z]+)?", "[0-9]"):
            with self.subTest(name):
                wanted = re.findall(rf"(?m)^ +({name}) +(.*)$", said)
                self.assertTrue(wanted)
                self.assertEqual(wanted, re.findall(rf"(?m)^\| ({name}) \| (.*) \|$", page))

    def test_versions(self):
        """Each command's own line is the last one; a compiler's comes first."""
        newest = re.search(r"(?m)^## \[([0-9][^]]*)\]", self.read(os.path.join(TRACER, "..", "CHANGELOG.md")))[1]
        for command, first in (("spbags-run", []), ("spbags-lines", []), ("spbags-cc", [cases.CC]), ("spbags-c++", ["g++"])):
            with self.subTest(command):
                said = self.succeeds("tracer/" + command, "--version").out
                before = self.succeeds(*first, "--version").out if first else ""
                self.assertEqual(f"{before.rstrip()}\n{command} {newest}\n".lstrip(), said)


class ProgressTest(TracerTest):
    """What a terminal shows of a long run."""
    TEXT = """#include <cilk/cilk.h>
#include <unistd.h>
static int cells[1 << 20], racy;
static void child(void) { racy = 1; }
int main(int count, char **words) {
    cilk_spawn child();
#ifndef CLEAN
    racy = 2;
#endif
    cilk_sync;
    for (int i = 0; i < 1 << 20; i++)
        cells[i] = i;
    cilk_spawn child();
    cilk_sync;
    sleep(count > 1 ? *words[1] - '0' : 0);
}
"""

    def setUp(self):
        super().setUp()
        self.write("slow.c", self.TEXT)
        self.succeeds(SPBAGS_CC, "-w", "-o", "slow", "slow.c")
        self.succeeds(SPBAGS_CC, "-w", "-DCLEAN", "-o", "clean", "slow.c")

    def shown(self, *words, **settings):
        """What standard error gets, if it is a terminal."""
        self.command = " ".join(words)
        control, terminal = pty.openpty()
        with subprocess.Popen(words, stdin=subprocess.DEVNULL, stdout=subprocess.DEVNULL, stderr=terminal,
                              env={**os.environ, "TERM": "xterm", **settings}):
            os.close(terminal)
            said = b""
            with contextlib.suppress(OSError):
                while piece := os.read(control, 1 << 16):
                    said += piece
        os.close(control)
        return said.decode()

    def test_terminal(self):
        """A line says how far each run is, and is gone at the end."""
        with ThreadPoolExecutor() as pool:
            once = pool.submit(self.shown, SPBAGS_RUN, "--one-run", "--", "./slow", "4")
            none = pool.submit(self.shown, SPBAGS_RUN, "--", "./clean", "4")
            said = self.shown(SPBAGS_RUN, "--", "./slow", "4")
        accesses = ", 1\\.0 million accesses" if INSIDE else ""
        again, races = (" of at least 2", ", 1 race") if INSIDE else ("", "")
        self.assertRegex(said, rf"run 1{again}: [23] s{accesses}{races}\033")
        self.assertRegex(said, r"run 2: [0-9]+ s, 1 race\033")
        self.assertRegex(said, r"\033\[J\Z")
        self.assertEqual("", re.sub(r"\033(?:[DM78]|\[J|\[[02]m)|\r*\n|(?:run [12][a-z2 ]*|looking up source lines): [0-9]+ s[\w,. ]*",
                                    "", said))
        self.assertRegex(once.result(), rf"run 1: [23] s{accesses}{races}\033")
        self.assertRegex(none.result(), rf"run 1: [23] s{accesses}{races.replace('1 race', '0 races')}\033")

    def test_elsewhere(self):
        """A short run shows nothing, nor does a pipe, a file, or a terminal that can't erase."""
        slow = [SPBAGS_RUN, "--", "./slow", "3"]
        self.assertEqual("", self.shown(*slow[:-1]))
        with ThreadPoolExecutor() as pool:
            dumb = pool.submit(self.shown, *slow, TERM="dumb")
            pipe = pool.submit(self.run_command, *slow)
            self.succeeds("bash", "-c", 'exec 2>errors; "$@" || [ $? = 1 ]', "bash", *slow)
        self.assertEqual(("", "", ""), (dumb.result(), pipe.result().errors, self.read("errors")))


class StatusTest(RunTest):
    """What wasn't seen, and the statuses."""
    SOURCES = ("run", "ways_out")

    def setUp(self):
        super().setUp()
        self.write_script("says", SAYS)

    def said_with(self, *lines, options=()):
        """The status, the lines and the report of a run whose hooks say these lines."""
        done = self.run_command(SPBAGS_RUN, *options, "--", "./says", *lines)
        status, report = self.report_of("./says", *lines, options=options)
        self.assertEqual(done.status, status)
        return status, done.out.splitlines()[:-1], report

    def test_what_was_not_seen(self):
        """No race where something wasn't seen or modelled has a status of its own."""
        region = "main.c:3: the code of this region runs once"
        lines = (f"incomplete: {region}", "unseen 12 libblas.so.3: cblas_dgemm", "unseen 1 a b.so: _ZN3own3runEi")
        shown = [region, "not seen: cblas_dgemm (libblas.so.3), called 12 times",
                 "not seen: own::run(int) (a b.so), called 1 time"]
        functions = [{"function": "cblas_dgemm", "library": "libblas.so.3", "calls": 12},
                     {"function": "own::run(int)", "library": "a b.so", "calls": 1}]
        status, text, report = self.said_with(*lines)
        self.assertEqual((3, shown, [region], functions), (status, text, report["incomplete"], report["unseen"]))
        self.assertEqual((0, shown), self.said_with(*lines, options=("--incomplete-ok",))[:2])
        for names, left in (("cblas_*", [0, 2]), ("own::run", [0, 1]), ("cblas_dgemm,own::*", [0]),
                            ("dgemm,blas*", [0, 1, 2])):
            status, text, report = self.said_with(*lines, options=("--unseen-ok", names))
            self.assertEqual((3, [shown[at] for at in left]), (status, text))
            self.assertEqual([functions[at - 1] for at in left[1:]], report["unseen"])
        self.assertEqual((0, []), self.said_with(*lines[1:], options=("--unseen-ok", "*"))[:2])

    def test_statuses(self):
        for wanted, word, *words in ((77, "77", "global"), (0, "0", "global"), (3, "77")):
            with self.subTest(word, words=words):
                done = self.run_command(SPBAGS_RUN, "--exitcode", word, "--", "./run", *words)
                self.assertEqual(wanted, done.status)
        statuses = ("--exitcode", "77", "--no-answer-status", "125")
        self.assertEqual(3, self.said_with("incomplete: a line", options=statuses)[0])
        self.build_text("faults", FAULTS)
        for words in (("./none",), ("./ways_out", "thread"), ("./faults",)):
            with self.subTest(words):
                done = self.run_command(SPBAGS_RUN, "--exitcode", "77", "--no-answer-status", "125", "--", *words)
                self.assertEqual((125, ""), (done.status, done.out))
        for word in ("256", "-1", "x", ""):
            with self.subTest(word):
                self.assertEqual(2, self.run_command(SPBAGS_RUN, f"--exitcode={word}", "--", "./run").status)

    def test_many_lines(self):
        """More of them than a pipe takes."""
        lines = [f"incomplete: {'a' * 900} {number}" for number in range(100)]
        status, report = self.report_of("./says", *lines)
        self.assertEqual((3, [line.partition(": ")[2] for line in lines]), (status, report["incomplete"]))

    def test_version(self):
        released = re.search(r"(?m)^## \[([0-9.]+)\]", self.read(os.path.join(TRACER, "..", "CHANGELOG.md")))[1]
        self.assertEqual((0, f"spbags-run {released}\n", ""), self.run_command(SPBAGS_RUN, "--version"))


class SuppressedTest(RunTest):
    """What is no news."""

    def test_suppressed(self):
        words = ("global", "heap", "thousand")
        for line, left in (("race:set_below", 2), ("race:^set$", 1), ("race:*_thousand", 2), ("race:run.c", 0),
                           ("race:no such", 3), ("race:^below", 3), ("# race:main\nmutex:main\n\n", 3)):
            with self.subTest(line):
                self.write("suppressed", line + "\n")
                status, report = self.found(*words, options=("--suppress", "suppressed"))
                self.assertEqual((left > 0, left, 3 - left),
                                 (status == 1, len(report["pairs"]), report["suppressed"]["pairs"]))
        with self.subTest("the text"):
            self.write("suppressed", "race:set_all\n")
            text = self.text_of("--suppress", "suppressed", "--", "./run", *words)
            self.assertEqual("races 2, pairs of lines 2; suppressed: 1000 races of 1 pair", last_line(text))
        with self.subTest("another line"):
            self.write("suppressed", "races:main\n")
            self.fails_with("suppressed:1: expected race:FUNCTION, race:FILE, variable:NAME or pair:FILE:LINE FILE:LINE NAME",
                            "--suppress", "suppressed", "--", "./run")

    def test_guards(self):
        status, report = self.found("guards", "global")
        self.assertEqual((1, [None, "atomic", "the lock lock"]), (status, [pair["guard"] for pair in report["pairs"]]))
        self.assertEqual([(False, False), (True, True), (False, False)],
                         [(pair["first"]["atomic"], pair["second"]["atomic"]) for pair in report["pairs"]])
        status, report = self.found("guards", "global", options=("--data-races",))
        self.assertEqual((1, 1, {"pairs": 2, "races": 2}), (status, len(report["pairs"]), report["guarded"]))
        self.assertEqual(0, self.found("guards", options=("--data-races",))[0])
        said = self.run_command(SPBAGS_RUN, "--", "./run", "guards").out
        self.assertEqual("races 2, pairs of lines 2; no data race, which --data-races leaves out: 2 pairs", last_line(said))
        status, report = self.found("one guard", options=("--data-races",))
        self.assertEqual((1, [None]), (status, [pair["guard"] for pair in report["pairs"]]))

    def test_guards_in_one_strand(self):
        """An access has the guards and the stack of its strand's first access to that location, though it goes out
        later."""
        first = [("write", "[turn]"), ("call", "[turn first]")]
        last = [("call", "[turns first]"), MAIN]
        report = self.found("one strand")[1]
        self.assertEqual({"guarded": "the lock lock", "table": None},
                         {pair["variable"]["name"]: pair["guard"] for pair in report["pairs"]})
        [pair] = [pair for pair in report["pairs"] if pair["guard"]]
        self.assertEqual([[*first, ("spawn", "[spawn turn first]"), MAIN], [*first, *last]], sides_of(pair))
        self.assertEqual(1, len(self.found("one strand", options=("--data-races",))[1]["pairs"]))
        self.assertEqual(2, len(self.found("one strand", options=("--data-races", "--repeats"))[1]["pairs"]))


class FaultsTest(RunTest):
    """What goes wrong."""
    SOURCES = ("run", "ends", "ways_out")

    def test_programs_that_go_wrong(self):
        self.fails_with("/bin/true: this isn't a program that spbags-cc has compiled", "--", "/bin/true")
        self.fails_with("./none: there is no such program", "--", "./none")
        self.fails_with("the program starts a thread, and only a serial run can be traced", "--", "./ways_out",
                        "thread")
        self.fails_with("the program forks, and only one process can be traced", "--", "./ways_out", "fork")

    @cases.needs_detector
    def test_no_checker(self):
        """With the detector inside there is none."""
        self.assertEqual(1, self.found("global", SPBAGS="./none")[0])

    def test_no_room(self):
        self.fails_with("out of memory: .*", "--", "./run", before="ulimit -v 120000")
        self.fails_with("cannot write .*: No space left on device", "--keep", "/dev/full", "--", "./run")
        self.fails_with("No space left on device", "--", "./run", "global", before="exec >/dev/full")

    def test_signals(self):
        """A run that ends by a signal is judged up to that point."""
        status, report = self.report_of("./ends", "fault")
        self.assertEqual((1, 11, False, 1),
                         (status, report["ended"]["signal"], report["ended"]["complete"], len(report["pairs"])))
        self.assertTrue(report["stacks"])
        self.assertIn("signal 11 (Segmentation fault)", report["notes"][-1])
        self.build_text("faults", FAULTS)
        self.fails_with(r"the program ended by signal 11 \(Segmentation fault\): there was no race up to that point",
                        "--", "./faults")
        status, report = self.report_of("./ends", "exec")
        self.assertEqual((1, False), (status, report["ended"]["complete"]))

    def test_signal_from_outside(self):
        """The second run ends where the first one was ended."""
        process = self.start("--json", "--keep", "late.trace", "--", "./ends", "never", start_new_session=True)
        while not os.path.exists("late.trace") or os.path.getsize("late.trace") < 1000:
            time.sleep(0.01)
        os.killpg(process.pid, signal.SIGINT)
        report = json.loads(process.communicate(timeout=cases.LONG)[0])
        self.assertEqual((1, 2, True, 1),
                         (process.returncode, report["ended"]["signal"], report["stacks"], len(report["pairs"])))


class EndlessTest(RunTest):
    """What doesn't end by itself."""
    SOURCES = ("run", "ends")

    @staticmethod
    def lines_in(name, text):
        """The tags of this file's lines that stand at the beginning of a text's lines."""
        tags = {str(number): tag for tag, number in lines_of_tags(os.path.join(TESTS, name)).items()}
        found = re.findall(rf"^    \S*{re.escape(name)}:([0-9]+)  ", text, re.MULTILINE)
        return [tags.get(line, line) for line in found]

    def ended_while_it_waits(self, way, number, rows):
        """What is told of the wait, and after this signal the status and the report."""
        process = self.start("--json", "--", "./ends", way, COLUMNS="1000")
        told = [process.stderr.readline() for _ in range(1 + rows)]
        process.send_signal(number)
        report = json.loads(process.communicate(timeout=cases.LONG)[0])
        return told, process.returncode, report

    def test_waits_without_end(self):
        """A line says where the program waits. A signal for spbags-run alone ends it, and what came before is
        reported."""
        tail = ["[for ever]", "[spawn end]"]
        ways = (("spin", signal.SIGINT, "it waits for ever", ["[spins]"]),
                ("wait", signal.SIGTERM, "and so for ever", ["[waits]"]),
                ("lock", signal.SIGTERM, "and so for ever", ["[locks]"]),
                ("condition", signal.SIGTERM, "and so for ever", ["[wants]"]),
                ("barrier", signal.SIGTERM, "and so for ever", ["[meets]"]),
                ("share", signal.SIGTERM, "and so for ever", ["[shares]"]),
                ("futex", signal.SIGTERM, "and so for ever", ["[sleeps]"]),
                ("doze", signal.SIGTERM, "it waits for ever", ["[dozes]", "[calls doze]"]))
        with ThreadPoolExecutor(len(ways)) as pool:
            ended = [pool.submit(self.ended_while_it_waits, way, number, len(stack) + len(tail))
                     for way, number, _, stack in ways]
        for (way, number, said, stack), one in zip(ways, ended):
            with self.subTest(way):
                (line, *rows), status, report = one.result()
                self.assertIn(said, line)
                self.assertEqual([*stack, *tail], self.lines_in("ends.c", "".join(rows)))
                self.assertEqual((1, number, True, 1),
                                 (status, report["ended"]["signal"], report["stacks"], report["races"]))
                self.assertRegex(report["notes"][0], rf"signal {number} \(.*\), which was sent to spbags-run")

    def test_spins_in_header(self):
        """The loop's own place comes first."""
        (_, header, *rows), _, _ = self.ended_while_it_waits("header", signal.SIGTERM, 4)
        self.assertRegex(header, "^    /usr/include/spins.h:4[23] +spin_in_header")
        self.assertEqual(["[calls header]", "[for ever]", "[spawn end]"], self.lines_in("ends.c", "".join(rows)))

    def test_control_c(self):
        """A terminal's signal is the program's too, so it isn't sent on."""
        process, terminal = pty.fork()
        if process == 0:
            os.execl(SPBAGS_RUN, SPBAGS_RUN, "--json", "--output", "interrupted", "--", "./ends", "wait")
        said = b""
        while b"for ever" not in said:
            said += os.read(terminal, 1 << 12)
        os.write(terminal, b"\x03")
        with contextlib.suppress(OSError):
            while os.read(terminal, 1 << 12):
                continue
        status = os.waitstatus_to_exitcode(os.waitpid(process, 0)[1])
        os.close(terminal)
        report = json.loads(self.read("interrupted"))
        self.assertEqual((1, 2, 1), (status, report["ended"]["signal"], report["races"]))
        self.assertEqual("the program ended by signal 2 (Interrupt): this is the run up to that point",
                         report["notes"][0])

    def test_program_that_takes_the_signal(self):
        """It ends with status 0 then, but that is no answer."""
        self.build_text("takes", TAKES)
        process = self.start("--", "./takes")
        self.assertEqual("taking\n", process.stdout.readline())
        process.send_signal(signal.SIGTERM)
        said, errors = process.communicate(timeout=cases.LONG)
        self.assertEqual((2, "", "spbags-run: the program was ended by signal 15 (Terminated), which was sent to "
                          "spbags-run: there was no race up to that point\n"),
                         (process.returncode, said, errors))

    def test_wait_for_input(self):
        """That isn't said to be without end; nor is any where none is."""
        out, into = os.pipe()
        process = self.start("--", "./ends", "input", stdin=out)
        time.sleep(3)
        os.close(into)
        errors = process.communicate(timeout=cases.LONG)[1]
        os.close(out)
        self.assertEqual((1, ""), (process.returncode, errors))
        done = self.run_command(SPBAGS_RUN, "--timeout", "100", "--", "./run", "global", SPBAGS_PATIENCE="1")
        self.assertEqual("", done.errors)

    def test_timeouts(self):
        self.build_text("endless", "int main(void) { for (;;) continue; }\n")
        self.fails_with("the program was ended after 1.5 seconds, as --timeout says: there was no race up to that "
                        "point", "--timeout", "1.5", "--", "./endless")
        done = self.run_command(SPBAGS_RUN, "--timeout", "1.5", "--no-answer-status", "125", "--", "./endless")
        self.assertEqual(125, done.status)
        status, report = self.report_of("./ends", "stubborn", options=("--timeout", "2"))
        ended = report["ended"]
        self.assertEqual((1, 63, False, 1), (status, ended["signal"], ended["complete"], report["races"]))
        self.assertEqual(["the program was ended after 2 seconds, as --timeout says: this is the run up to that point"],
                         report["notes"])
        for word in ("0", "-1", "x", "nan", "inf"):
            with self.subTest(word):
                self.assertEqual(2, self.run_command(SPBAGS_RUN, "--timeout", word, "--", "./run").status)


class CheckerTest(RunTest):
    """What the checker does wrong, which checks the trace of a program without a detector inside."""
    OPTIONS = ("-w", "--trace")

    def test_none(self):
        self.fails_with("spbags isn't built: .*", "--", "./run", SPBAGS="./none")

    def test_no_memory(self):
        self.write_script("without_memory", "#!/bin/sh\necho 'spbags: out of memory' >&2\nexit 2\n")
        self.fails_with("spbags: out of memory", "--", "./run", "thousand", SPBAGS="./without_memory")

    def test_no_answer(self):
        """What spbags-run doesn't expect is no race."""
        self.write_script("silent", "#!/bin/sh\nexec cat >/dev/null\n")
        done = self.run_command(SPBAGS_RUN, "--no-answer-status", "125", "--", "./run", SPBAGS="./silent")
        self.assertEqual((125, ""), (done.status, done.out))
        self.assertIn("the report is empty", done.errors)

    def test_signal(self):
        """While it reads the rest of a trace there is no program to end."""
        self.write_script("slow", "#!/bin/sh\ncat >/dev/null\ntouch read\nexec sleep 100\n")
        process = self.start("--", "./run", "global", SPBAGS="./slow")
        while not os.path.exists("read"):
            time.sleep(0.01)
        time.sleep(0.5)
        process.send_signal(signal.SIGTERM)
        said, errors = process.communicate(timeout=cases.LONG)
        self.assertEqual((2, "", "spbags-run: Terminated: spbags was ended before it had an answer\n"),
                         (process.returncode, said, errors))


if __name__ == "__main__":
    cases.main()
