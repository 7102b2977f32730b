#!/usr/bin/env python3
"""What calls of the C library and single instructions access, for each compiler and level; and what is made of
library.table and of the settings."""
import glob
import gzip
import os
import re
import subprocess
import sys

sys.dont_write_bytecode = True
import cases
from compile import library
from cases import INSIDE, LEVEL, SPBAGS_CC, TESTS, TRACER, TracerTest, by_call, race_of

LIBRARY, VECTORS = (os.path.join(TESTS, name + ".c") for name in ("library", "vectors"))
VECTOR_OPTIONS = ("avx512f", "avx512vl", "avx512bw", "avx512dq", "xsave")
# Newer libraries have those of C23 and these two. test_streams.py and test_cplusplus.py try those of C++.
WITHOUT_A_CASE = re.compile("strlcpy|strlcat|_Z.*|__dynamic_cast|.*isoc23.*")


class CallsTest(TracerTest):
    def wanted(self, source, name):
        """The races by call as the program itself counted them."""
        wanted = by_call(source, map(race_of, self.read(name).splitlines()))
        self.assertTrue(wanted)
        return wanted


class LibraryTest(CallsTest):
    SETTINGS = {"SPBAGS_STREAMS": "1", "SPBAGS_UNIT": "1"}

    def setUp(self):
        super().setUp()
        self.build("library.o", LIBRARY, LEVEL, "-w", "-c")

    def test_races(self):
        self.succeeds(SPBAGS_CC, "-o", "library", "library.o", "-lm")
        self.succeeds("./library", "wanted", SPBAGS_TRACE="run.trace", **self.SETTINGS)
        wanted = self.wanted(LIBRARY, "wanted")
        with self.subTest("spbags-lines"):
            self.assertEqual(wanted, by_call(LIBRARY, self.traced_races("./library")[0]))
        with self.subTest("spbags-run"):
            self.assertEqual(wanted, by_call(LIBRARY, self.races_of("./library", "again", **self.SETTINGS)))
        if INSIDE:
            # What the C library keeps is where the system puts that library.
            with self.subTest("the report of the detector inside"):
                self.has_same_report("setarch", "-R", "./library", "counted", **self.SETTINGS)

    def test_cases(self):
        """There is one for each function."""
        names = self.succeeds(f"{TRACER}/tables", "names").out.split()
        called = set(self.succeeds("nm", "-u", "library.o").out.split())
        self.assertTrue(names)
        self.assertEqual([], [name for name in names if name not in called and not WITHOUT_A_CASE.fullmatch(name)])


# Both children take arguments out of one list.
LISTS = """
#include <cilk/cilk.h>
#include <stdarg.h>
#include <stdio.h>
static char out[2][8];
static void print(int at, va_list *list) {
    vsnprintf(out[at], sizeof *out, "%d", *list);
}
static void print_both(int count, ...) {
    va_list list;
    va_start(list, count);
    cilk_spawn print(0, &list);
    print(1, &list);
    cilk_sync;
    va_end(list);
}
int main(void) {
    print_both(2, 1, 2);
}
"""


# What one child sets the other one asks for.
ENVIRONMENT = """
#include <cilk/cilk.h>
#include <locale.h>
#include <stdio.h>
#include <stdlib.h>
#include <string.h>
#include <time.h>
static void set(const char *word) {
    if (strcmp(word, "printf") == 0)
        setlocale(LC_ALL, "C");
    else
        setenv("TZ", "UTC", 1);
}
static void ask(const char *word) {
    time_t now = 0;
    struct tm day = {.tm_mday = 1};
    char text[40];
    if (strcmp(word, "localtime") == 0)
        localtime(&now);
    else if (strcmp(word, "mktime") == 0)
        mktime(&day);
    else if (strcmp(word, "strftime") == 0)
        strftime(text, sizeof text, "%Z", &day);
    else if (strcmp(word, "system") == 0)
        system(":");
    else
        snprintf(text, sizeof text, "%f", 1.5);
}
int main(int count, char **words) {
    cilk_spawn set(words[1]);
    ask(words[1]);
    cilk_sync;
}
"""


# Variables that functions of the library set, and what each thread has of its own. With QUIET nothing uses these directly.
VARIABLES = """
#include <cilk/cilk.h>
#include <error.h>
#include <math.h>
#include <pthread.h>
#include <stdlib.h>
#include <string.h>
#include <time.h>
#include <unistd.h>
static pthread_key_t key;
static double (*volatile gamma_of)(double) = lgamma;
static int is(const char *word, const char *other) { return strcmp(word, other) == 0; }
static void set(const char *word) {
    time_t now = 0;
    struct tm day = {.tm_mday = 1};
    if (is(word, "environ")) setenv("A", "b", 1);
    if (is(word, "getenv")) getenv("A");
    if (is(word, "tzname")) tzset();
    if (is(word, "timezone")) mktime(&day);
    if (is(word, "daylight")) localtime_r(&now, &day);
    if (is(word, "error_message_count")) error(0, 0, "one");
    if (is(word, "signgam")) gamma_of(.5);
    if (is(word, "key")) pthread_setspecific(key, &key);
}
#ifdef QUIET
#define ask set
#else
static long got;
static void ask(const char *word) {
    if (is(word, "environ")) got = environ[0] != NULL;
    if (is(word, "getenv")) environ++;
    if (is(word, "tzname")) got = *tzname[0];
    if (is(word, "timezone")) got = timezone;
    if (is(word, "daylight")) got = daylight;
    if (is(word, "error_message_count")) got = error_message_count;
    if (is(word, "signgam")) got = signgam;
    if (is(word, "key")) got = pthread_getspecific(key) != NULL;
}
#endif
int main(int count, char **words) {
    pthread_key_create(&key, NULL);
    cilk_spawn set(words[1]);
    ask(words[1]);
    cilk_sync;
}
"""


class ListsTest(TracerTest):
    def test_environment(self):
        self.write("environment.c", ENVIRONMENT)
        self.succeeds(SPBAGS_CC, LEVEL, "-w", "-o", "environment", "environment.c")
        for word in ("localtime", "mktime", "strftime", "system"):
            with self.subTest(word):
                self.reports(1, "", "--", "./environment", word)
        with self.subTest("the locale"):
            self.reports(3, "setlocale is called where something else may run", "--", "./environment", "printf")

    def test_variables(self):
        """A function sets them unseen in a program that doesn't use them itself."""
        self.write("variables.c", VARIABLES)
        quiet = ["getenv", "tzname", "timezone", "daylight", "error_message_count"]
        for options, words, status in ((["-D_GNU_SOURCE"], [*quiet, "environ", "signgam", "key"], 1),
                                       (["-D_GNU_SOURCE", "-DQUIET"], quiet, 0)):
            self.succeeds(SPBAGS_CC, LEVEL, "-w", *options, "-o", "variables", "variables.c", "-lm")
            for word in words:
                with self.subTest(word, options=options):
                    self.reports(status, "", "--", "./variables", word)

    def test_shared(self):
        self.write("lists.c", LISTS)
        self.succeeds(SPBAGS_CC, LEVEL, "-o", "lists", "lists.c")
        self.assertEqual(["6 7 7"], self.races_in("lists.c", "./lists"))


class VectorsTest(CallsTest):
    def setUp(self):
        super().setUp()
        has = self.read("/proc/cpuinfo").split()
        if not set(VECTOR_OPTIONS) <= set(has):
            self.skipTest("the processor lacks such instructions")
        options = [f"-m{option}" for option in VECTOR_OPTIONS]
        self.build("vectors", VECTORS, LEVEL, *options)

    def test_races(self):
        found = self.races_of("./vectors", "wanted", SPBAGS_UNIT="1")
        self.assertEqual(self.wanted(VECTORS, "wanted"), by_call(VECTORS, found))

    def test_unknown(self):
        said = self.reports(3, "", "--", "./vectors", "unknown")
        self.assertRegex(" ".join(said.split()), "the instruction here, in .*, may access")


# The rows of a manual page's attributes: the functions' names, and how safe they are for threads.
SAFETY = re.compile(r"^T\{\n(.*?)T\}\tThread safety\t(?:T\{\n(.*?)\nT\}|(.*?)$)", re.DOTALL | re.MULTILINE)


def shared_by_manual():
    """What each function shares by the manual pages that are here: the words `race` and `const` of its attributes."""
    found = {}
    for name in glob.glob("/usr/share/man/man[23]/*.gz"):
        with gzip.open(name, "rt", errors="replace") as page:
            text = re.sub(r"\\f.|\\[&:%|]", "", page.read()).replace(r"\-", "-")
        for functions, *safety in SAFETY.findall(re.sub(r"^\.(?:ad|na|nh|hy).*\n", "", text, flags=re.MULTILINE)):
            words = [word for word in "".join(safety).split() if re.match("race|const:", word)]
            for function in re.findall(r"(\w+)\s*\(", re.sub('^\\.BR? |"', "", functions, flags=re.MULTILINE)):
                found.setdefault(function, words)
    return found


class PagesTest(TracerTest):
    def test_manual(self):
        """library.table has what the manual says that functions share, each function for itself."""
        manual = shared_by_manual()
        if not manual.get("mbrtowc"):
            self.skipTest("there are no manual pages of the C library")
        shared = {word: found.split(",") for sign in "=+" for word, found in library.words(sign)}
        shared |= {name: function.shared for function in library.functions() for name in function.names}
        names = [name for name in [*library.names(), *library.silent()] if name in manual]
        self.assertEqual({name: manual[name] for name in names if manual[name]},
                         {name: words for name, words in shared.items() if name in names and any(words)})

    def said_by(self, script, *words):
        return subprocess.run([f"{TRACER}/{script}", *words], stdout=subprocess.PIPE, text=True, check=True).stdout

    def test_tables(self):
        self.assertEqual(self.said_by("tables", "library"), self.read(f"{TRACER}/LIBRARY.md"))

    def test_settings(self):
        for page, words in (("README.md", "settings"), ("OPENMP.md", "openmp")):
            with self.subTest(page):
                rows = self.said_by("tables", words).splitlines()
                self.assertEqual([], [row for row in rows if row not in self.read(f"{TRACER}/{page}").splitlines()])


if __name__ == "__main__":
    cases.main()
