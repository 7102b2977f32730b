"""The objects of the hooks and of the detector, which are made once for all links."""
from __future__ import annotations

import functools
import os

import cache
from compile import link_inputs
from compile.compiler import Compiler
from compile.options import TRACE, fail, run, write
from elf import HOOKS
from installation import ARCHIVE, CRATES, HERE, IS_INSTALLED
from processes import Process

# What the hooks define in place of the library.
OWN = set("malloc calloc realloc free aligned_alloc memalign valloc pvalloc posix_memalign malloc_usable_size".split())
# How the other names begin that the hooks define for programs and for the detector.
FOR_PROGRAMS = ("_*", "GOMP_*", "omp_*", "rattle_*")
# Where an exception of the program may leave a hook that has something to do then.
UNWOUND = ("hooks/library/locks.c",)
# What the objects depend on, beside the sources.
BESIDE = ("spbags_cilk.h", "include/spbags_inside.h", "library.table", "compile/library.py", "compile/hooks.py")
# Proves and builds the detector's library from its crate.
BUILD = os.path.join(CRATES, "..", "build")


def files_of_hooks() -> list[str]:
    """As the tracer's folder has them, such as hooks/base/tell.c."""
    folders = os.walk(os.path.join(HERE, "hooks"))
    return sorted(os.path.relpath(os.path.join(folder, name), HERE) for folder, _, names in folders for name in names)


def is_built() -> bool:
    with open(os.devnull, "rb") as nothing:
        return Process([BUILD, "inside"], {0: nothing.fileno()}).wait() == 0


def detector_library() -> str:
    """The name of the detector's library, where it is built or can be."""
    if not (os.path.exists(ARCHIVE) if IS_INSTALLED else is_built()):
        fail(
            "the detector isn't built, and can't be here. With --trace this works without it: then the program only "
            "writes traces, and spbags-run has spbags check them"
        )
    return ARCHIVE


class Hooks:
    """Those of one link, in the form that its words ask for. A compiler of C++ has those of the compiler of C beside
    it."""

    def __init__(self, compiler: Compiler, folder: str) -> None:
        self.compiler, self.words, self.folder = compiler, compiler.words, folder
        self.flags = ["-O2", compiler.aligned, *"-fno-pie -fno-builtin -fomit-frame-pointer -x c".split()]
        form = list(compiler.command)
        if self.words.openmp:
            self.flags.append("-DSPBAGS_OPENMP")
            form.append("-fopenmp")
        if self.words.inside:
            self.flags.append("-DSPBAGS_INSIDE")
        else:
            form.append(TRACE)
        self.flags += os.environ.get("SPBAGS_HOOKS_FLAGS", "").split()
        doing = f"compiling the hooks for {' '.join(form)}, in some 20 s of processor time"
        self.object = compiler.kept.file(f"hooks-{self.digest()}.o", self.compile, doing)

    def digest(self) -> str:
        about = repr((self.compiler.command, self.compiler.about)).replace("clang++", "clang").replace("g++", "gcc")
        names = [*files_of_hooks(), *BESIDE]
        return cache.digest((about, self.flags, names), [os.path.join(HERE, name) for name in names])

    def compile_source(self, name: str) -> str:
        made = os.path.join(self.folder, name.replace("/", "-") + ".o")
        flags = [*self.flags, "-fexceptions"] if name in UNWOUND else self.flags
        command = [*self.compiler.command, *flags, f"-I{self.folder}", f"-I{HERE}/hooks", "-c"]
        run(*command, os.path.join(HERE, name), "-o", made)
        return made

    def compile(self) -> str:
        from concurrent.futures import ThreadPoolExecutor

        from compile import library

        write(os.path.join(self.folder, "library_names.h"), library.declarations())
        write(os.path.join(self.folder, "library_wrappers.h"), library.wrappers())
        names = [name for name in files_of_hooks() if name.endswith(".c")]
        if not self.words.openmp:
            names = [name for name in names if not name.startswith("hooks/openmp/")]
        with ThreadPoolExecutor(len(os.sched_getaffinity(0))) as pool:
            objects = list(pool.map(self.compile_source, names))
        made = os.path.join(self.folder, "hooks.o")
        run("ld", "-r", *objects, "-o", made)
        # What the compiler itself calls there is no call of the program. The hooks know their code by a section. And
        # where code comes from has a stub, also if the hooks see what is read there. The names by which the hooks'
        # files know each other are none of the program's.
        run(
            "objcopy",
            "--wildcard",
            *[f"--weaken-symbol=__wrap_{name}" for name in link_inputs.GIVES_CODE],
            *[f"--keep-global-symbol={name}" for name in (*FOR_PROGRAMS, *sorted(OWN))],
            *[f"--redefine-sym={name}=__real_{name}" for name in ("memcpy", "memmove", "memset")],
            *[f"--rename-section=.text{part}={HOOKS}" for part in ("", ".unlikely", ".startup", ".exit")],
            made,
        )
        return made

    @functools.cached_property
    def names(self) -> set[str]:
        return link_inputs.names_of(self.object)

    @functools.cached_property
    def wrapped(self) -> list[str]:
        """The functions of libraries that the hooks stand in for."""
        return sorted(name.removeprefix("__wrap_") for name in self.names if name.startswith("__wrap_"))

    def detector(self, library: str) -> str:
        """The detector's object. What its compiler calls there is no call of the program."""

        def make() -> str:
            made = os.path.join(self.folder, "inside.o")
            # CMake takes an archive for a part of the language, which it would link by other compilers too.
            run("ld", "-r", "--whole-archive", library, "-o", made)
            run("objcopy", *[f"--redefine-sym={name}=__real_{name}" for name in self.wrapped], made)
            return made

        return self.compiler.kept.file(f"inside-{cache.digest(self.wrapped, [library])}.o", make)
