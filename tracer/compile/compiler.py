"""The compiler by which a source is compiled, and its options and plugin."""
from __future__ import annotations

import functools
import os
import sys

import cache
from compile.options import ASSEMBLY, IS_CPLUSPLUS, LANGUAGE, Words, fail, run, say, text_of, write
from installation import HERE
from processes import answer

TYPE_CHECKING = False
if TYPE_CHECKING:
    from compile import steps

# The headers of oneTBB have two names, tbb/NAME and oneapi/tbb/NAME.
INCLUDES = [f"-I{HERE}/include", f"-I{HERE}/include/oneapi"]
# addr2line of binutils 2.40 takes some files of DWARF 5 for others.
PLAIN = "-g -gdwarf-4 -fno-inline -fno-omit-frame-pointer -fno-optimize-sibling-calls -fno-builtin -fno-lto".split()
# Some processors are slow where a branch crosses such a boundary.
ALIGNED, ALIGNED_CLANG = "-Wa,-mbranches-within-32B-boundaries", "-mbranches-within-32B-boundaries"
# Each variable keeps memory of its own, and arguments on the stack are pushed for each call. What the plugin puts there
# calls hooks, which gcc doesn't know: so nothing is kept below the stack's end, and that moves right before a call
# alone. Each function keeps code of its own, too.
STACK_GCC = "-fno-ipa-icf -mno-accumulate-outgoing-args -mno-red-zone -fno-combine-stack-adjustments -fno-defer-pop"
TRACED_GCC = [*PLAIN, "-fstack-reuse=none", *STACK_GCC.split()]
TRACED_CLANG = [*PLAIN, "-mllvm", "-no-stack-coloring", "-Qunused-arguments"]
# With OpenMP clang has to say where a variable's life ends, which else it does where it optimizes.
LIVES_CLANG = ["-Xclang", "-fsanitize-address-use-after-scope"]
COMPILERS = [["g++"], ["clang++"]] if IS_CPLUSPLUS else [["gcc"], ["clang"]]
# What each source asks for, and what the hooks define. No tool takes it out of an object.
MARK = "__spbags_traced"
MARKED = f'__asm__(".pushsection .spbags,\\"\\",@progbits\\n\\t.quad {MARK}\\n\\t.popsection");\n'


class Compiler:
    def __init__(self, words: Words | None, ahead_by: list[str] | None = None) -> None:
        """The compiler that is chosen, or the one by whose command hooks are compiled ahead of all links."""
        self.words, self.kept = words or Words([]), cache.Kept(say, fail, bool(ahead_by))
        self.command = ahead_by or named_compiler() or COMPILERS[0]
        if self.command[0].endswith("++") != IS_CPLUSPLUS:
            fail(f"{self.command[0]}: expected a compiler for {'C++' if IS_CPLUSPLUS else 'C'}")

    @functools.cached_property
    def about(self) -> str:
        """What it says of itself."""
        try:
            return answer(*self.command, "--version")[1]
        except OSError as error:
            return fail(f"{self.command[0]}: {error.strerror}")

    @property
    def is_clang(self) -> bool:
        return "clang" in self.about

    @property
    def aligned(self) -> str:
        return ALIGNED_CLANG if self.is_clang else ALIGNED

    @property
    def target(self) -> steps.Target:
        from compile import steps

        warns = not {"-w", "-Wno-unknown-pragmas"} & set(self.words.compiling)
        return steps.Target(IS_CPLUSPLUS, self.is_clang, bool(self.words.openmp), warns)

    @staticmethod
    def text_name(source: str, folder: str) -> str:
        return os.path.join(folder, os.path.basename(source) + (".ii" if IS_CPLUSPLUS else ".i"))

    def preprocessed(self, source: str, text_name: str, object_name: str | None) -> str:
        dependencies = list(self.words.dependencies)
        if dependencies and object_name and "-MF" not in dependencies:
            dependencies += ["-MF", os.path.splitext(object_name)[0] + ".d"]
        if dependencies and object_name and "-MT" not in dependencies and "-MQ" not in dependencies:
            dependencies += ["-MT", object_name]
        header = os.path.join(HERE, "spbags_cilk.h")
        command = [*self.command, "-E", *INCLUDES, "-include", header, "-D__cilk=300", *self.words.compiling]
        command += [*self.words.openmp, self.words.level, "-U_FORTIFY_SOURCE", *dependencies]
        # The compiler would leave out what is preprocessed already.
        command += ["-x", LANGUAGE] if self.words.named_language or source.endswith((".i", ".ii")) else []
        run(*command, source, "-o", text_name)
        return text_of(text_name)

    def compile(self, source: str, object_name: str | None, folder: str) -> None:
        """Rewrites a source and compiles it. One in the assembler's language stays as it is."""
        if source.endswith(ASSEMBLY):
            if object_name and self.words.ends_with in (None, "-c"):
                run(*self.command, *self.words.compiling, "-c", source, "-o", object_name)
            return
        from compile import steps

        faults: list[str] = []
        text_name = self.text_name(source, folder)
        text = self.preprocessed(source, text_name, object_name)
        for _, text, found in steps.taken(text, self.target):
            faults += found
        if faults:
            print("\n".join(faults), file=sys.stderr)
            sys.exit(1)
        write(text_name, text + MARKED)
        self.compile_rewritten(text_name, steps.has_tasks(text), self.words.ends_with or "-c", object_name, folder)

    def steps_of(self, source: str, folder: str) -> list[str]:
        """A line for each step that the source takes."""
        if source.endswith(ASSEMBLY):
            return ["compile: as it is"]
        from compile import steps

        text = self.preprocessed(source, self.text_name(source, folder), None)
        rewritten = [f"{step.name}: {step.rewrite.__doc__}" for step, *_ in steps.taken(text, self.target)]
        return ["preprocess: with the tracer's headers", *rewritten, "compile: a plugin puts hooks into the code"]

    def compile_rewritten(self, text_name: str, has_tasks: bool, ends_with: str, to: str | None, folder: str) -> None:
        """Compiles a rewritten source into what ends here. The plugin puts the hooks into its code. Tasks stand for
        Cilk's children, whatever the command says of OpenMP."""
        from compile import plugin

        openmp = ["-fopenmp"] if has_tasks else self.words.openmp
        lives = bool(openmp) and not has_tasks
        command = [*self.command, *self.words.compiling, *openmp, self.words.level]
        command += TRACED_CLANG if self.is_clang else TRACED_GCC
        command += LIVES_CLANG if self.is_clang and lives else []
        checks = self.words.inline_checks and bool(to)
        command += plugin.options(self.plugin(folder), self.is_clang, checks, lives)
        command += [self.aligned, "-Wa,--no-warn"] if checks else []
        run(*command, ends_with, text_name, *(["-o", to] if to else []))

    def plugin(self, folder: str) -> str:
        """The plugin for this compiler. A compiler of C++ has that of the compiler of C beside it."""
        from compile import plugin

        name = f"plugin_{plugin.digest(self.about.replace('g++', 'gcc'), self.is_clang)}.so"
        doing = f"building the plugin for {self.command[0]}, in some 20 s of processor time"
        return self.kept.file(name, lambda: plugin.build(self.command, self.is_clang, folder), doing)


def named_compiler() -> list[str] | None:
    """The command that the environment names, if any. A Makefile hands its CC on, which may be this very program."""
    for variable in ("SPBAGS_CXX", "CXX") if IS_CPLUSPLUS else ("SPBAGS_CC", "CC"):
        command = os.environ.get(variable, "").split()
        if command and os.path.basename(command[0]) not in ("spbags-cc", "spbags-c++"):
            return command
    return None
