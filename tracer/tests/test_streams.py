#!/usr/bin/env python3
"""What spbags-run says of streams and descriptors that several children use, in streams.c, for each compiler, and in
streams.cpp. What has to come out is written here by hand."""
import os
import sys

sys.dont_write_bytecode = True
import cases
from cases import TESTS, TracerTest, lines_of_tags


class StreamsTest(TracerTest):
    SOURCE, OPTIONS = os.path.join(TESTS, "streams.c"), ()

    def setUp(self):
        super().setUp()
        self.build("streams", self.SOURCE, *self.OPTIONS)

    def found(self, *words, options=()):
        """The status; of each pair what both hold, the kind and the name of its variable, and the tags of its lines;
        and the notes."""
        status, report = self.report_of("./streams", *words, options=options)
        tags = {line: tag for tag, line in lines_of_tags(self.SOURCE).items()}
        pairs = [(pair["guard"], pair["variable"]["kind"], pair["variable"].get("name"),
                  *(tags.get(pair[side]["user_frame"]["line"]) for side in ("first", "second")))
                 for pair in report["pairs"]]
        return status, pairs, report["notes"]

    def place_of(self, tag):
        return f"{self.SOURCE}:{lines_of_tags(self.SOURCE)[tag]}"

    def try_order(self, word, stream, variable):
        """Without --streams a line says it, and with it there is a race, which is no data race; one after the other
        there is nothing. VARIABLE is its kind and name."""
        tags = 2 * [f"[{word}]"]
        lines = " and ".join(map(self.place_of, tags))
        note = f"the order in which children use {stream} isn't determined: {lines}. --streams reports this"
        self.assertEqual((0, [], [note]), self.found(word))
        guard = "the lock of " + (variable[1] or "the stream")
        self.assertEqual((1, [(guard, *variable, *tags)], []), self.found(word, options=("--streams",)))
        self.assertEqual(0, self.found(word, options=("--streams", "--data-races"))[0])
        self.assertEqual((0, [], []), self.found(word, "order", options=("--streams",)))


class CTest(StreamsTest):
    def test_standard_streams(self):
        for word in ("printf", "putchar"):
            with self.subTest(word):
                self.try_order(word, "stdout", ("stream", "stdout"))

    def test_other_streams(self):
        """They are blocks of the heap, which the library allocates."""
        for word in ("file", "fread", "flockfile"):
            with self.subTest(word):
                status, _, [note] = self.found(word)
                self.assertEqual((0, 2), (status, note.count(self.place_of(f"[{word}]"))))
                status, pairs, notes = self.found(word, options=("--streams",))
                self.assertEqual((1, {("the lock of the stream", "heap", None, f"[{word}]", f"[{word}]")}, []),
                                 (status, set(pairs), notes))
                self.assertEqual((0, [], []), self.found(word, "order", options=("--streams",)))

    def test_what_a_stream_guards(self):
        """A variable under a stream's lock is no stream."""
        self.assertEqual((1, [("the lock of stdout", "global", "global", "[global]", "[global]")], []),
                         self.found("global"))

    def test_descriptors(self):
        self.try_order("write", "the descriptor", ("stream", "the descriptor"))

    def test_what_takes_no_lock(self):
        """Whoever takes no lock, or closes the stream, has a data race with the others."""
        for word, tags in (("unlocked", 2 * ["[unlocked]"]), ("mix", ["[locked of mix]", "[unlocked of mix]"]),
                           ("fclose", ["[last]", "[fclose]"])):
            with self.subTest(word):
                status, pairs, notes = self.found(word)
                self.assertEqual((1, {(None, "heap", None, *tags)}, []), (status, set(pairs), notes))
                self.assertEqual((0, [], []), self.found(word, "order"))

    def test_streams_of_memory(self):
        status, report = self.report_of("./streams", "memory", "order")
        self.assertEqual(3, status)
        self.assertEqual(["fmemopen makes a stream of the program's memory, and what it does there later isn't seen"],
                         report["incomplete"])

    def test_streams_of_their_own(self):
        for word in ("own file", "own descriptor", "own streams"):
            with self.subTest(word):
                self.assertEqual((0, [], []), self.found(word, options=("--streams",)))

    def test_kept_trace(self):
        """It has streams only where they are asked for."""
        self.assertEqual((0, [], []), self.found("printf", options=("--keep", "run.trace")))
        self.assertEqual(1, self.found("printf", options=("--keep", "run.trace", "--streams"))[0])


class CPlusPlusTest(StreamsTest):
    SOURCE, OPTIONS = os.path.join(TESTS, "streams.cpp"), ("-fopenmp",)

    def test_standard_streams(self):
        for word, stream in (("cout", "stdout"), ("text", "stdout"), ("endl", "stdout"), ("critical", "stdout"),
                             ("double", "stderr"), ("mix", "stdout")):
            with self.subTest(word):
                self.try_order(word, stream, ("stream", stream))

    def test_objects(self):
        """A stream of the program's own has no lock."""
        for word, name in (("string", "shared"), ("file", "file")):
            with self.subTest(word):
                status, pairs, _ = self.found(word)
                self.assertEqual((1, {(None, "global", name, f"[{word}]", f"[{word}]")}), (status, set(pairs)))
                self.assertEqual((0, [], []), self.found(word, "order"))

    def test_objects_of_the_library(self):
        """Nor has a standard one that isn't shared with C."""
        with self.subTest("unsynced"):
            status, [pair], _ = self.found("unsynced")
            self.assertEqual((1, None, "[unsynced]", "[unsynced]"), (status, pair[0], *pair[3:]))
        with self.subTest("set"):
            status, pairs, _ = self.found("set")
            self.assertEqual((1, {("global", "text"), ("heap", None)}), (status, {pair[1:3] for pair in pairs}))
            self.assertEqual({"[set]"}, {tag for pair in pairs for tag in pair[3:]})


if __name__ == "__main__":
    cases.main()
