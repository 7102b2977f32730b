#!/usr/bin/env python3
"""What is linked: code that spbags-cc didn't compile, and shared libraries; and the compiler's options. The compiler is
gcc."""
import glob
import os
import re
import shlex
import shutil
import signal
import subprocess
import sys

sys.dont_write_bytecode = True
import cases
from cases import SPBAGS_CC, SPBAGS_CPLUSPLUS, SPBAGS_RUN, TESTS, TRACER, TracerTest

LINK = os.path.join(TESTS, "link")
HERE_AT_RUN_TIME = "-Wl,-rpath,."
OUTSIDE = ("outside_calls (outside.o)", "outside_jump (outside.o)", "outside_library (liboutside.so)",
           "outside_member (libmember.a)", "outside_struct (outside.o)", "outside_words (outside.o)")
KNOWN = """#include <cilk/cilk.h>
#include <math.h>
#include <stdio.h>
#include <string.h>
#include <time.h>
static double table[2];
static void child(int n) { table[n] = sin(n) * pow(n, 2.5) + clock() + hypot(n, 1) + strlen("word"); }
int main(void) {
    cilk_spawn child(0);
    child(1);
    cilk_sync;
    printf("%g\\n", table[1]);
}
"""
KNOWN_CPLUSPLUS = """#include <iostream>
#include <map>
#include <sstream>
#include <vector>
static std::string texts[2];
int main(int count, char **) {
    std::vector<int> numbers(2);
#pragma omp parallel for
    for (int i = 0; i < 2; i++) {
        numbers[i] = i;
        if (count > 1) {
            std::ostringstream text;
            text << i;
            texts[i] = text.str();
        }
    }
    std::cout << numbers[0] + numbers[1] << std::endl;
}
"""
FILLS_ITSELF = """#include <omp.h>
void fill(int *at) {
#pragma omp parallel num_threads(3)
    at[omp_get_thread_num()] = omp_get_num_threads();
}
"""
FILLS_BOTH = """void fill(int *);
int a[4];
int main(void) {
#pragma omp parallel for
    for (int i = 0; i < 4; i++)
        a[i] = i;
    fill(a);
    return a[0] != 3 || a[1] != 3 || a[2] != 3 || a[3] != 3;
}
"""
FILL = """void fill(int *at) {
#pragma omp parallel for
    for (int i = 0; i < 9; i++)
        at[i] = i;
}
"""
THREE = """.globl three
.type three, @function
three: .byte 0xb8, 3, 0, 0, 0, 0xc3
.section .note.GNU-stack,"",@progbits
"""
MESON = """project('adds', 'c')
adding = shared_library('adding', 'cmake/adding.c')
executable('adds', 'cmake/main.c', 'cmake/still.c', link_with: adding, dependencies: dependency('openmp'))
"""


class LinkTest(TracerTest):
    def not_seen(self, *words):
        """The lines of a report about functions that weren't seen."""
        done = self.run_command(SPBAGS_RUN, *words)
        return [line for line in (done.out + done.errors).splitlines() if line.startswith(("not seen", "spbags"))]

    def compile(self, name, text, *words, by="gcc"):
        """Writes a source, and makes an object of it."""
        self.write(name, text)
        self.succeeds(by, *words, "-c", name)

    def tracer_beside(self, build):
        """A copy of the tracer, and of the plugins that it has built, that builds the detector by this script."""
        shutil.copytree(TRACER, "there/tracer", ignore=shutil.ignore_patterns("out", "tests", "examples", "measure"))
        os.makedirs("there/tracer/out")
        for plugin in glob.glob(f"{TRACER}/out/plugin_*.so"):
            shutil.copy(plugin, "there/tracer/out")
        os.mkdir("there/crates")
        self.write("there/build", f"#!/bin/sh\n{build}\n")
        os.chmod("there/build", 0o755)
        return "there/tracer/spbags-cc"

    def is_not_linked(self, pattern, *words):
        self.ends_with(1, pattern, *words, "-o", "no_program")
        self.assertFalse(os.path.exists("no_program"))


class UnknownTest(LinkTest):
    def test_functions(self):
        self.succeeds("gcc", "-c", f"{LINK}/outside.c", f"{LINK}/member.c")
        self.succeeds("ar", "rc", "libmember.a", "member.o")
        self.succeeds("gcc", "-shared", "-fPIC", "-o", "liboutside.so", f"{LINK}/library.c")
        parts = [f"{LINK}/main.c", "outside.o", "-L.", "-lmember", "-loutside", "-lm", HERE_AT_RUN_TIME]
        with self.subTest("compile"):
            self.succeeds("gcc", "-D_Cilk_spawn=", "-D_Cilk_sync=", f"-I{TRACER}/include", "-o", "plain", *parts)
            self.succeeds(SPBAGS_CC, "-o", "linked", *parts)
        with self.subTest("what the program prints"):
            traced = self.run_command("./linked", SPBAGS_TRACE="run.trace")
            self.assertEqual(self.run_command("./plain").out, traced.out)
        with self.subTest("lines"):
            self.assertEqual([f"not seen: {name}, called 2 times" for name in OUTSIDE], self.not_seen("--", "./linked"))
        with self.subTest("status"):
            self.ends_with(3, "", SPBAGS_RUN, "--", "./linked")
        with self.subTest("what dlsym finds"):
            self.assertEqual(["not seen: dlsym (libc.so.6), called 1 time"],
                             self.not_seen("--unseen-ok", "outside_*", "--", "./linked", "word"))

    def test_main(self):
        self.compile("called.c", "int called(void) { return 0; }\n", by=SPBAGS_CC)
        self.compile("calls.c", "int called(void); int main(void) { return called(); }\n")
        self.succeeds(SPBAGS_CC, "-o", "calls", "calls.o", "called.o")
        self.assertEqual(["not seen: main (calls.o), called 1 time"], self.not_seen("--", "./calls"))

    def test_virtual(self):
        self.write("shape.h", "struct shape { virtual int sides(); };\n")
        self.compile("shape.cpp", '#include "shape.h"\nint shape::sides() { return 0; }\n', by="g++")
        self.write("draws.cpp", '#include "shape.h"\nint main() { return (new shape)->sides(); }\n')
        self.succeeds(SPBAGS_CPLUSPLUS, "-o", "draws", "draws.cpp", "shape.o")
        self.reports(3, "calls to the virtual functions of shape aren't seen", "--", "./draws")

    def test_library_with_openmp(self):
        self.write("fill_itself.c", FILLS_ITSELF)
        self.write("fills_both.c", FILLS_BOTH)
        self.succeeds("gcc", "-fopenmp", "-shared", "-fPIC", "-o", "libfill_itself.so", "fill_itself.c")
        self.succeeds(SPBAGS_CC, "-fopenmp", "-o", "both", "fills_both.c", "-L.", "-lfill_itself", HERE_AT_RUN_TIME)
        self.reports(3, "", "--", "./both")


class KnownTest(LinkTest):
    def test_mathematics(self):
        self.write("known.c", KNOWN)
        self.succeeds(SPBAGS_CC, "-o", "known", "known.c", "-lm")
        self.reports(0, "", "--", "./known")

    def test_libstdcplusplus(self):
        line = ("not seen: std::__cxx11::basic_ostringstream<char, std::char_traits<char>, std::allocator<char> >"
                "::str() const")
        self.write("known.cpp", KNOWN_CPLUSPLUS)
        self.succeeds(SPBAGS_CPLUSPLUS, "-fopenmp", "-o", "known", "known.cpp")
        with self.subTest("streams are used when all else is done"):
            self.reports(0, "", "--", "./known")
        with self.subTest("a function"):
            self.assertTrue(any(line in said for said in self.not_seen("--", "./known", "word")))
        with self.subTest("the program runs by itself"):
            self.assertIn(f"spbags: {line}", self.run_command("./known", "word", SPBAGS_TRACE="run.trace").errors)


class RefusedTest(LinkTest):
    def setUp(self):
        super().setUp()
        self.write("fills.c", "void fill(int *); int a[9]; int main(void) { fill(a); }\n")

    def test_openmp(self):
        self.compile("fill.c", FILL, "-fopenmp")
        self.succeeds("ar", "rc", "libfill.a", "fill.o")
        with self.subTest("an object"):
            self.is_not_linked("fill.o: spbags-cc didn.t compile this, and it has parallel", SPBAGS_CC, "fills.c",
                               "fill.o")
        with self.subTest("an archive"):
            self.is_not_linked(r"libfill.a\(fill.o\): spbags-cc didn.t compile this, and it has par", SPBAGS_CC,
                               "-fopenmp", "fills.c", "libfill.a")

    def test_forms(self):
        for words, text in (
                (("-fsanitize=thread",), "an older spbags-cc, or another compiler with -fsanitize=thread"),
                (("-flto", "-fno-fat-lto-objects"), "spbags-cc didn.t compile this, and what it does isn.t known")):
            with self.subTest(words):
                self.compile("fill.c", FILL, *words)
                self.is_not_linked(f"fill.o: {text}", SPBAGS_CC, "fills.c", "fill.o")

    def test_functions(self):
        self.compile("copy.c", "void *memcpy(void *to, const void *from, unsigned long n) { return to; }\n"
                               "void fill(int *at) {}\n", "-w")
        with self.subTest("another memcpy"):
            self.is_not_linked("copy.o: spbags-cc didn.t compile this, and its memcpy would be taken", SPBAGS_CC,
                               "fills.c", "copy.o")
        with self.subTest("code of two compilers in one object"):
            self.succeeds(SPBAGS_CC, "-c", "-o", "fills.o", "fills.c")
            self.is_not_linked("copy.o: spbags-cc didn.t compile this, and one object can.t hold it", SPBAGS_CC, "-r",
                               "fills.o", "copy.o")

    def test_inline(self):
        shared = "inline int shared(int n) { return n + 1; }\n"
        self.compile("one.cpp", shared + "int one(int n) { return shared(n); }\n", by="g++")
        self.compile("two.cpp", shared + "int one(int);\nint main() { return shared(one(-2)); }\n", by=SPBAGS_CPLUSPLUS)
        with self.subTest("before"):
            self.is_not_linked("one.o: spbags-cc didn.t compile this, and its _Z6sharedi is used in place of that of "
                               "two.o", SPBAGS_CPLUSPLUS, "one.o", "two.o")
        with self.subTest("behind"):
            self.succeeds(SPBAGS_CPLUSPLUS, "-o", "twice", "two.o", "one.o")
            self.succeeds("./twice")


class OpenMPTest(LinkTest):
    def test_object(self):
        """OpenMP in an object, without -fopenmp at the link, and with a path of libgomp as CMake gives it."""
        libgomp = self.run_command("gcc", "-print-file-name=libgomp.so").out.strip()
        with self.subTest("compile"):
            self.succeeds(SPBAGS_CC, "-fopenmp", "-DRACY", "-c", "openmp_fib.c")
            self.succeeds(SPBAGS_CC, "-o", "fib", "openmp_fib.o", libgomp)
            self.assertIn(" T GOMP_task\n", self.run_command("nm", "fib").out)
        with self.subTest("races"):
            self.assertEqual(cases.Example("openmp_fib.c").races(),
                             self.races_in("openmp_fib.c", "./fib", SPBAGS_UNIT="4"))


class OptionsTest(LinkTest):
    def answer(self, compiler, words):
        done = self.run_command(compiler, *words)
        return [line for line in (done.out + done.errors).splitlines()
                if not re.search("COLLECT|^collect2|/tmp", line)]

    def test_answers(self):
        """What the compiler says of each of these, in its own words."""
        for words in (["-dumpversion"], ["-dumpmachine"], ["-dumpspecs"], ["-print-multiarch"], ["-print-prog-name=ld"],
                      ["-print-search-dirs"], ["-v"], ["-E", "-dM", "-xc", "/dev/null"], ["-Wl,--version"]):
            with self.subTest(words):
                self.assertEqual(self.answer("gcc", words), self.answer(SPBAGS_CC, words))

    def test_file(self):
        self.write("words", """-DTEXT='"a b"'\n-o "from file"\nfil\\e.c\n""")
        self.write("file.c", "#include <stdio.h>\nint main(void) { puts(TEXT); }\n")
        self.succeeds(SPBAGS_CC, "@words")
        self.assertEqual("a b\n", self.run_command("./from file", SPBAGS_TRACE="run.trace").out)

    def test_steps(self):
        """They are printed, and nothing is made."""
        said = self.succeeds(SPBAGS_CC, "--steps", "-o", "fib", "fib.c").out
        self.assertEqual(["preprocess", "Cilk", "compile"], [line.split(": ")[1] for line in said.splitlines()])
        self.assertFalse(os.path.exists("fib"))

    def test_syntax_only(self):
        self.succeeds(SPBAGS_CC, "-fsyntax-only", "-DTEXT=", "fib.c")
        self.assertFalse(os.path.exists("fib.o") or os.path.exists("a.out"))
        self.write("wrong.c", "int f( { }\n")
        with self.subTest("of what is wrong"):
            self.assertNotEqual(0, self.run_command(SPBAGS_CC, "-fsyntax-only", "wrong.c").status)

    def test_modules(self):
        """A small source waits for no more than what it needs, nor does its link."""
        self.write("small.c", "#include <stdio.h>\nint main(void) { return 0; }\n")
        said = self.succeeds(sys.executable, "-IS", "-X", "importtime", SPBAGS_CC, *cases.DETECTOR, "-o", "small",
                             "small.c").errors
        modules = {line.rpartition("|")[2].strip() for line in said.splitlines()}
        needed, others = {"compile.steps", "compile.link_inputs"}, {"compile.spawns", "tokens", "typing", "subprocess", "tempfile"}
        self.assertEqual(needed, modules & (needed | others))

    def test_standard_input(self):
        self.succeeds("bash", "-c", '"$@" -xc -o from_input - <fib.c', "bash", SPBAGS_CC, *cases.DETECTOR)
        self.assertEqual("55\n", self.run_command("./from_input", SPBAGS_TRACE="run.trace").out)
        self.assertEqual("trace 2", cases.records_of("run.trace")[0])

    def test_preprocessed(self):
        self.succeeds(SPBAGS_CC, "-E", "-o", "ready.i", "fib.c")
        self.succeeds(SPBAGS_CC, *cases.DETECTOR, "-o", "ready", "ready.i")
        self.assertEqual("55\n", self.run_command("./ready", SPBAGS_TRACE="run.trace").out)
        self.assertEqual("trace 2", cases.records_of("run.trace")[0])

    def test_assembler(self):
        self.write("three.S", THREE)
        self.write("calls_three.c", "int three(void); int main(void) { return three() - 3; }\n")
        self.succeeds(SPBAGS_CC, "-c", "three.S")
        self.succeeds(SPBAGS_CC, "-o", "three", "calls_three.c", "three.S")
        self.reports(3, "not seen: three (three.o), called 1 time", "--", "./three")


class DetectorTest(LinkTest):
    def setUp(self):
        super().setUp()
        self.succeeds(SPBAGS_CC, "-DRACY", "-c", "fib.c")

    @cases.needs_detector
    def test_words(self):
        """An object is the same with both: the link goes by them."""
        for words, has in (([], True), (["--trace"], False)):
            with self.subTest(words):
                self.succeeds(SPBAGS_CC, *words, "-o", "fib", "fib.o")
                self.assertEqual(has, " T spbags_new\n" in self.run_command("nm", "fib").out)
        with self.subTest("an object that was compiled with --trace"):
            self.succeeds(SPBAGS_CC, "--trace", "-DRACY", "-c", "fib.c")
            self.succeeds(SPBAGS_CC, "-o", "fib", "fib.o")
            self.ends_with(0, "^races 88\n", "./fib")

    def test_not_built(self):
        compiler = self.tracer_beside("echo it has no rt >&2; exit 2")
        with self.subTest("the link"):
            self.is_not_linked("^it has no rt\nspbags-cc: the detector isn.t built, .*--trace", compiler, "fib.o")
        with self.subTest("what needs none"):
            self.succeeds(compiler, "-c", "-o", "other.o", "fib.c")
            self.succeeds(compiler, "--trace", "-o", "fib", "fib.o")
            self.reports(1, "races 88, pairs of lines 1", "--", "./fib")


class HooksTest(LinkTest):
    """The hooks are compiled once. The tracer here has a few, which do for a library."""
    HOOKS = {"program/accesses.c", "records/look.c", "openmp/loops.c"}
    SETTINGS = {"SPBAGS_CC": "gcc", "SPBAGS_CXX": "g++"}

    def setUp(self):
        super().setUp()
        self.compiler = self.tracer_beside("exit 2")
        for name in glob.glob("there/tracer/hooks/**/*.c", recursive=True):
            if os.path.relpath(name, "there/tracer/hooks") not in self.HOOKS:
                os.unlink(name)
        self.succeeds(self.compiler, "-fPIC", "-c", "fib.c")
        self.link = [self.compiler, "--trace", "-shared", "fib.o", "-o", "libfib.so"]

    def begin(self, *words):
        """A command that has begun, in a session of its own."""
        return subprocess.Popen(words, stderr=subprocess.PIPE, text=True, start_new_session=True,
                                env={**os.environ, **self.SETTINGS})

    def test_at_once(self):
        links = [self.begin(*self.link[:-1], f"lib{number}.so") for number in range(3)]
        said = [link.communicate()[1] for link in links]
        self.assertEqual([0] * 3, [link.returncode for link in links], said)
        self.assertRegex("".join(said), r"^spbags-cc: compiling the hooks for gcc --trace, in .* processor time, once\n$")
        with self.subTest("later"):
            self.assertEqual("", self.succeeds(*self.link, **self.SETTINGS).errors)

    def test_killed(self):
        link = self.begin(*self.link)
        self.assertIn("compiling the hooks", link.stderr.readline())
        os.killpg(link.pid, signal.SIGKILL)
        link.communicate()
        self.ends_with(0, "compiling the hooks", "timeout", "60", *self.link, **self.SETTINGS)

    def test_ahead(self):
        ahead = [self.compiler, "--compile-hooks"]
        made = self.succeeds(*ahead, **self.SETTINGS)
        self.assertEqual(4, made.errors.count("compiling the hooks"), made.errors)
        # And the plugin.
        self.assertEqual([True] * 5, [os.path.exists(name) for name in made.out.splitlines()])
        for words in (ahead, self.link, [*self.link, "-fopenmp"], ["there/tracer/spbags-c++", *self.link[1:]]):
            with self.subTest(words):
                self.assertEqual("", self.succeeds(*words, **self.SETTINGS).errors)

    def test_not_kept(self):
        """An installed tracer has no crates beside it."""
        os.rmdir("there/crates")
        self.write("no_folder", "")
        settings = {**self.SETTINGS, "XDG_CACHE_HOME": os.path.abspath("no_folder")}
        with self.subTest("a cache that can't be written"):
            self.ends_with(0, "as in each link: .*no_folder/spbags can't be written .*XDG_CACHE_HOME", *self.link, **settings)
        with self.subTest("hooks that are compiled ahead are there for all users"):
            self.succeeds(self.compiler, "--compile-hooks", **settings)
            self.assertEqual("", self.succeeds(*self.link, **settings).errors)

    def test_processors(self):
        """With one processor no two processes compile."""
        self.write("gcc", '#!/bin/sh\nmkdir "$0.runs" || echo "$*" >>"$0.twice"\n/usr/bin/gcc "$@"\nstatus=$?\n'
                          'rmdir "$0.runs"\nexit $status\n')
        os.chmod("gcc", 0o755)
        self.succeeds("taskset", "-c", str(min(os.sched_getaffinity(0))), *self.link, SPBAGS_CC=os.path.abspath("gcc"))
        self.assertFalse(os.path.exists("gcc.twice"))


class SharedLibrariesTest(LinkTest):
    RACES = [(1, ("adding.c", 3), ("adding.c", 3))]

    def setUp(self):
        """A library that needs another one, and begins before the program."""
        super().setUp()
        self.write("adding.c", "int total;\nvoid add(int n) {\n    total += n;\n}\n")
        self.write("twice.c", "void add(int);\nvoid twice(int n) {\n    add(n);\n    add(n);\n}\n")
        self.write("adds.c", "#include <cilk/cilk.h>\nvoid twice(int);\nint main(void) {\n cilk_spawn twice(1);\n"
                             " twice(2);\n}\n")
        self.succeeds(SPBAGS_CC, "-fPIC", "-c", "adding.c")
        self.succeeds(SPBAGS_CC, "-shared", "-Wl,-soname,libadding.so.1", "-o", "libadding.so", "adding.o")
        self.succeeds(SPBAGS_CC, "-fPIC", "-shared", "-Wl,-z,defs", "-o", "libtwice.so", "twice.c", "-L.", "-ladding")

    def test_link(self):
        with self.subTest("a name of its own"):
            self.assertIn("soname: [libadding.so.1]", self.run_command("readelf", "-d", "libadding.so").out)
        with self.subTest("compile"):
            self.succeeds(SPBAGS_CC, "-o", "adds", "adds.c", "-L.", "-ltwice")
        with self.subTest("races"):
            self.assertEqual(self.RACES, self.races_of("./adds"))

    def test_moved(self):
        os.mkdir("moved")
        for name in ("libadding.so", "libtwice.so"):
            os.rename(name, os.path.join("moved", name))
        with self.subTest("races"):
            self.succeeds(SPBAGS_CC, "-o", "adds", "adds.c", "moved/libtwice.so")
            self.assertEqual(self.RACES, self.races_of("./adds"))
        with self.subTest("one that lacks another"):
            os.unlink("moved/libadding.so")
            self.is_not_linked("moved/libtwice.so needs .*/libadding.so, which isn.t found", SPBAGS_CC, "adds.c",
                               "moved/libtwice.so")

    def test_dlopen(self):
        self.write("opens.c", '#include <dlfcn.h>\nint main(void) { return !!dlopen("./libtwice.so", RTLD_LAZY); }\n')
        self.succeeds(SPBAGS_CC, "-o", "opens", "opens.c")
        self.ends_with(0, "", "./opens", SPBAGS_TRACE="run.trace")


class BuildTest(LinkTest):
    """Programs that CMake and Meson build."""
    RACES = [(1, ("cmake/adding.c", 3), ("cmake/adding.c", 3))]
    COMPILERS = {name: shlex.join([compiler, *cases.DETECTOR])
                 for name, compiler in (("CC", SPBAGS_CC), ("CXX", SPBAGS_CPLUSPLUS))}

    def setUp(self):
        super().setUp()
        shutil.copytree(f"{LINK}/cmake", "cmake")

    def need(self, tool):
        if not shutil.which(tool):
            self.skipTest(f"there is no {tool}")

    def test_cmake(self):
        self.need("cmake")
        said = self.succeeds("cmake", "-S", "cmake", "-B", "made", **self.COMPILERS)
        self.succeeds("cmake", "--build", "made", **self.COMPILERS)
        with self.subTest("CMAKE_INTERPROCEDURAL_OPTIMIZATION"):
            self.assertIn("whole programs: YES", said.out)
        if cases.INSIDE:
            with self.subTest("a program that CMake runs prints what it prints without the tracer"):
                self.assertIn("ended 0, said 8\n\n", said.out)
        with self.subTest("no file of the tracer is taken for a part of C"):
            self.assertNotIn(TRACER, re.search("taken for C: (.*)", said.out)[1])
        for program in ("in_c", "in_cplusplus"):
            with self.subTest(program):
                self.assertEqual(self.RACES, self.races_of(f"made/{program}"))
        with self.subTest("an installed program"):
            self.succeeds("cmake", "--install", "made", "--prefix", os.path.abspath("installed"))
            self.assertEqual(self.RACES, self.races_of("installed/bin/in_cplusplus"))

    def test_meson(self):
        self.need("meson")
        self.write("meson.build", MESON)
        self.succeeds("meson", "setup", "meson", CC=self.COMPILERS["CC"])
        self.succeeds("meson", "compile", "-C", "meson", CC=self.COMPILERS["CC"])
        self.assertEqual(self.RACES, self.races_of("meson/adds"))


if __name__ == "__main__":
    cases.main()
