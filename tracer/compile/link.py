"""Links what spbags-cc has compiled with the hooks and the detector."""
from __future__ import annotations

import os
import re
import sys

from compile import link_inputs
from compile import shared_libraries
from compile.options import NAME, TRACE, Words, fail, run, say, write
from compile.compiler import COMPILERS, Compiler, named_compiler
from compile.hooks import OWN, Hooks, detector_library
from installation import ARCHIVE, HERE
from processes import Folder, answer, heard


class Link:
    """A link of these objects, by the names of their sources, and of what else the command line names."""

    def __init__(self, compiler: Compiler, objects: dict[str, str], folder: str) -> None:
        self.compiler, self.words, self.folder = compiler, compiler.words, folder
        self.command = [*compiler.command, *self.words.compiling]
        self.items = [objects.get(item, item) for item in self.words.linking]
        self.output = self.words.output or "a.out"

    def make(self) -> None:
        if self.words.relocatable:
            self.make_object()
        elif self.words.shared:
            self.make_library()
        else:
            self.make_program()

    def looked(self, items: list[str]) -> tuple[list[str], list[link_inputs.Part] | None]:
        """The words of a link with the objects of shared libraries in their place, and what the linker takes by
        them."""
        libraries = shared_libraries.Libraries(self.folder)
        parts = link_inputs.parts_of([*self.command, "-no-pie", *items], self.folder)
        for part in parts or []:
            if part.is_shared and shared_libraries.has_objects(part.file):
                libraries.add(part.file)
        if libraries.archives:
            items = libraries.items(items)
            parts = link_inputs.parts_of([*self.command, "-no-pie", *items], self.folder)
        return items, parts

    @staticmethod
    def refuse(found: link_inputs.Linked, hooks: Hooks) -> None:
        faults = found.faults(set(hooks.wrapped))
        if faults:
            print("\n".join(f"{NAME}: {line}" for line in faults), file=sys.stderr)
            sys.exit(1)

    def stubs(self, found: link_inputs.Linked, hooks: Hooks) -> list[str]:
        """The words that have calls of unknown functions counted."""
        from compile import library

        unknown = found.unknown(library.silent(), hooks.names.union(hooks.wrapped))
        virtual = found.virtual()
        if not unknown and not virtual:
            return []
        text, made = os.path.join(self.folder, "unknown.s"), os.path.join(self.folder, "unknown.o")
        write(text, link_inputs.stubs(unknown, virtual))
        run("as", f"-I{HERE}/hooks/library", text, "-o", made)
        return [made, *["-Wl,--wrap=" + function.name for function in unknown]]

    def make_program(self) -> None:
        library = detector_library() if self.words.inside else None
        # What the compiler itself puts in place of a call, as of fabs, is here a call of the library.
        items, parts = self.looked([*self.items, "-lm"])
        found = link_inputs.Linked(parts or [])
        if found.asks_for_openmp():
            self.words.openmp = self.words.openmp or ["-fopenmp"]
        hooks = Hooks(self.compiler, self.folder)
        self.refuse(found, hooks)
        own = [*self.stubs(found, hooks), *link_inputs.wrapping(found, hooks.wrapped, self.folder)]
        detector = [hooks.detector(library), "-lpthread"] if library else []
        link = [*self.command, "-no-pie", *own, *items, hooks.object, *detector, "-ldl"]
        status, said = heard([*link, "-o", self.output], 2, {})
        sys.stderr.write(said)
        explain(said)
        if status == 0 and parts is None:
            os.unlink(self.output)
            fail("the linker doesn't list the files that it links, so code that isn't traced couldn't be reported")
        if status != 0:
            sys.exit(1)

    def make_library(self) -> None:
        """A shared library, for which the tracer's functions are those of the program."""
        link = [*self.command, "-shared", *self.items]
        parts = link_inputs.parts_of(link, self.folder) or []
        self.refuse(link_inputs.Linked(parts), Hooks(self.compiler, self.folder))
        run(*link, "-Wl,-z,now,--unresolved-symbols=ignore-all", "-o", self.output)
        shared_libraries.keep(self.output, parts, self.folder)

    def make_object(self) -> None:
        """One object of several."""
        link = [*self.command, "-r", *self.items]
        found = link_inputs.Linked(link_inputs.parts_of(link, self.folder) or [])
        other = next((part for part in found.others if not part.is_system), None)
        if other and found.traced:
            fail(
                f"{other.name()}: spbags-cc didn't compile this, and one object can't hold it together with traced "
                "code: compile it with spbags-cc, or leave it out here"
            )
        run(*link, "-o", self.output)


def explain(errors: str) -> None:
    """What is wrong where a link fails, in the tracer's words."""
    own = sorted(OWN & set(re.findall("multiple definition of [`']([a-z_]+)'", errors)))
    if re.search("multiple definition of [`']operator delete", errors):
        fail("the tracer has its own operator delete, so that no memory is used again: leave out the program's")
    if "undefined reference" in errors:
        from compile import openmp

        for line in openmp.unknown(errors):
            say(line)
    if own:
        fail(
            f"the tracer has its own {own[0]}, so that no memory is used again: leave out the program's, or "
            f"give it another name, as with -D{own[0]}=own_{own[0]}"
        )


def has_openmp(compiler: Compiler) -> bool:
    return answer(*compiler.command, "-fsyntax-only", "-include", "omp.h", "-xc", os.devnull)[0] == 0


def compile_hooks() -> None:
    """Makes ahead what links share, in each form that the compilers here allow, or the one that the environment names.
    Prints the files' names."""
    import itertools
    import shutil

    from compile import plugin

    named = named_compiler()
    commands = [named] if named else [words for words in COMPILERS if shutil.which(words[0])]
    for command, *form in itertools.product(commands, ("", "-fopenmp"), ("", TRACE)):
        options = list(filter(None, form))
        compiler = Compiler(Words(options), command)
        lacks = plugin.lacks(compiler.command, compiler.is_clang)
        if lacks and compiler.is_clang and not named:
            if not options:
                say(lacks)
            continue
        if form[0] and not has_openmp(compiler):
            continue
        with Folder() as folder:
            hooks = Hooks(compiler, folder)
            made = [hooks.object, *([] if options else [compiler.plugin(folder)])]
            if compiler.words.inside and os.path.exists(ARCHIVE):
                made.append(hooks.detector(ARCHIVE))
            print(*made, sep="\n", flush=True)
