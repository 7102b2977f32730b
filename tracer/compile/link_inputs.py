"""What goes into a link: which of its files spbags-cc compiled, and which functions nothing is known of."""
from __future__ import annotations

import functools
import os
import re
from collections.abc import Iterable, Iterator
from collections import namedtuple

from compile.compiler import MARK
from compile.options import run, write
from elf import CODE, UNDEFINED, WEAK_CODE, Bytes, members_of, opened, symbols_of
from processes import answer

# The libraries of the C compiler itself.
SYSTEM = re.compile(
    r"(?:lib(?:c|m|mvec|pthread|dl|rt|util|resolv|crypt|nsl|anl|stdc\+\+|stdc\+\+fs|supc\+\+|gcc|"
    r"gcc_s|gcc_eh|gcov|ssp|atomic|quadmath|c_nonshared|pthread_nonshared|ssp_nonshared)|ld-linux-x86-64)"
    r"[-.0-9]*\.(?:so|a)\b.*|crt\w+\.o|[gmSr]*crt1\.o"
)
# What these give out is code that nothing is known of either.
GIVES_CODE = {"dlsym", "dlvsym"}
PARALLEL = re.compile("GOMP_|GOACC_|__kmpc_")
OPENMP = re.compile("GOMP_|__kmpc_|omp_|__spbags_(thread_num|num_threads)$")
FUNCTIONS = CODE + WEAK_CODE
OBJECT, SHARED = 1, 3
# What the names of the compiler's sections begin with.
LTO = b".gnu.lto_"
MEMBER = re.compile(r"\((.+)\)([^()]+)")

AGAIN = "compile it with spbags-cc"

# A function, its name in the source, the file that has it, and whether each call counts; the others count where
# something may run beside them.
Unknown = namedtuple("Unknown", "name shown library always")


class Part:
    """An object of the link, by itself or as a member of an archive, or a shared library."""

    def __init__(self, file: str, member: str | None, is_shared: bool, place: int) -> None:
        self.file, self.member, self.is_shared, self.place = file, member, is_shared, place
        self.defined: dict[str, str] = {}
        self.wanted: set[str] = set()
        self.is_system = False

    def is_traced(self) -> bool:
        return MARK in self.wanted

    def name(self) -> str:
        return f"{self.file}({self.member})" if self.member else self.file

    def title(self) -> str:
        """Its name in a report: that by which a program finds a library."""
        said = answer("readelf", "-d", self.file)[1] if self.is_shared else ""
        named = re.search(r"\(SONAME\).*\[(.*)\]", said)
        return named[1] if named else os.path.basename(self.file)

    def is_for_lto(self) -> bool:
        """Whether the linker is to compile it."""
        return any(data.find(LTO) >= 0 for data in self.texts())

    def texts(self) -> list[Bytes]:
        """The bytes of the object; an archive may have several members of this name."""
        if not self.member:
            return [opened(self.file)]
        return [data for name, data in members_of(self.file) if name == self.member]

    def add(self, name: str, kind: str) -> None:
        if kind == UNDEFINED:
            self.wanted.add(name)
        else:
            self.defined[name] = kind

    def functions(self) -> set[str]:
        return {name for name, kind in self.defined.items() if kind in FUNCTIONS}

    def is_taken_for(self, name: str, other: Part) -> bool:
        """Whether the linker takes this function and not the other's, if it takes one: the first, or the one that isn't
        weak."""
        kinds = self.defined[name] + other.defined[name]
        return kinds == CODE + WEAK_CODE or kinds == 2 * WEAK_CODE and self.place < other.place


def kind_of_elf(file: str) -> int | None:
    """OBJECT, SHARED, or None for what is no file of that form."""
    try:
        with open(file, "rb") as read:
            head = read.read(18)
    except OSError:
        return None
    return head[16] if head[:4] == b"\x7fELF" and len(head) == 18 and head[16] in (OBJECT, SHARED) else None


def parts_of(link: list[str], folder: str) -> list[Part] | None:
    """What the linker takes where it links by this command, or None where it can't: the link itself will say why."""
    status, said = answer(*link, "-Wl,-t,-t,-S,--unresolved-symbols=ignore-all", "-o", os.path.join(folder, "looked"))
    if status != 0:
        return None
    parts: dict[tuple[str, str | None], Part] = {}
    for line in said.splitlines():
        member = MEMBER.fullmatch(line)
        key = (member[1], member[2]) if member else (line, None)
        kind = OBJECT if member else kind_of_elf(line)
        if kind:
            parts.setdefault(key, Part(*key, kind == SHARED, len(parts)))
    read_symbols(parts)
    for part in parts.values():
        part.is_system = bool(SYSTEM.fullmatch(os.path.basename(part.file))) and is_in(part.file, folders_of(link[0]))
    return list(parts.values())


@functools.lru_cache
def folders_of(compiler: str) -> list[str]:
    """Where the compiler's own libraries are."""
    _, said = answer(compiler, "-print-search-dirs")
    found = re.search("^libraries: =?(.*)$", said, re.MULTILINE)
    return [os.path.realpath(name) for name in found[1].split(":")] if found else []


def is_in(file: str, folders: list[str]) -> bool:
    return os.path.dirname(os.path.realpath(file)) in folders or os.path.realpath(os.path.dirname(file)) in folders


def names_of(object_name: str) -> set[str]:
    return {name for name, kind in symbols_of(opened(object_name)) if kind != UNDEFINED}


def read_symbols(parts: dict[tuple[str, str | None], Part]) -> None:
    for file in dict.fromkeys(file for file, _ in parts):
        is_object = (file, None) in parts
        members: Iterable[tuple[str | None, Bytes]] = [(None, opened(file))] if is_object else members_of(file)
        for member, data in members:
            part = parts.get((file, member))
            if part:
                for name, kind in symbols_of(data, part.is_shared):
                    part.add(name, kind)


class Linked:
    def __init__(self, parts: list[Part]) -> None:
        objects = [part for part in parts if not part.is_shared]
        self.traced = [part for part in objects if part.is_traced()]
        self.others = [part for part in objects if not part.is_traced()]
        self.libraries = [part for part in parts if part.is_shared]
        self.own = {name for part in objects for name in part.defined}

    def asks_for_openmp(self) -> bool:
        return any(OPENMP.match(name) for part in self.traced for name in part.wanted - self.own)

    def faults(self, wrapped: set[str]) -> list[str]:
        """A line for each file that can't be traced: code that isn't seen where it would be taken for what is."""
        return [line for part in self.others if not part.is_system for line in self.faults_of(part, wrapped)]

    def faults_of(self, part: Part, wrapped: set[str]) -> Iterator[str]:
        parallel = next((name for name in sorted(part.wanted) if PARALLEL.match(name)), None)
        if any(name.startswith("__tsan_") for name in part.wanted):
            older = "an older spbags-cc, or another compiler with -fsanitize=thread, compiled this"
            yield f"{part.name()}: {older}: compile it again with spbags-cc"
        elif parallel:
            yield f"{part.name()}: spbags-cc didn't compile this, and it has parallel code ({parallel}): {AGAIN}"
        elif part.is_for_lto():
            unknown = "spbags-cc didn't compile this, and what it does isn't known before the link"
            yield f"{part.name()}: {unknown}: {AGAIN}, or without -flto"
        else:
            yield from (
                f"{part.name()}: spbags-cc didn't compile this, and its {line}" for line in self.doubles(part, wrapped)
            )

    def doubles(self, part: Part, wrapped: set[str]) -> Iterator[str]:
        """Functions that this file has and others take for their own, or that would be taken for the library's."""
        for name in sorted(wrapped & part.functions()):
            yield f"{name} would be taken for the C library's: {AGAIN}"
        for other in self.traced:
            taken = [name for name in part.functions() & other.functions() if part.is_taken_for(name, other)]
            if taken:
                yield f"{min(taken)} is used in place of that of {other.name()}: {AGAIN}, or put it after the other one"

    def unknown(self, known: set[str], hooks: set[str]) -> list[Unknown]:
        """The functions that traced files call and nothing is known of. KNOWN are those of the system's libraries, and
        HOOKS those that the hooks stand in for."""
        wanted = {name for part in self.traced for name in part.wanted if "__wrap_" + name not in self.own} | {"main"}
        wanted -= (hooks - GIVES_CODE).union(*(part.defined for part in self.traced))
        having: dict[str, Part] = {}
        for part in [*self.others, *self.libraries]:
            for name in wanted & part.defined.keys():
                having.setdefault(name, part)
        found = [
            (name, part)
            for name, part in sorted(having.items())
            if part.defined[name] in FUNCTIONS and not (part.is_system and name in known)
        ]
        shown = demangled([name for name, _ in found])
        return [
            Unknown(name, text, part.title(), not part.is_system or name in GIVES_CODE)
            for (name, part), text in zip(found, shown)
        ]

    def virtual(self) -> list[str]:
        """The classes of virtual functions that nothing is known of, which a program may call without a name."""
        asked = {name for part in self.traced for name in part.wanted if name.startswith("_ZTV")}
        having = [part for part in [*self.others, *self.libraries] if not part.is_system]
        tables = {name for part in having for name in asked & part.defined.keys()}
        return [name.removeprefix("vtable for ") for name in demangled(sorted(tables))]


def demangled(names: list[str]) -> list[str]:
    if not names:
        return []
    return answer("c++filt", *names)[1].splitlines()


def wrapping(found: Linked, names: list[str], folder: str) -> list[str]:
    """The words that have the hooks called in place of these functions of the library. One of them that the program
    has itself isn't the library's, so it is called itself, by the hooks too. What else the program calls has to be
    there, as without hooks, which alone don't want it."""
    own = {name for part in found.traced for name in part.defined}
    called = {name for part in [*found.traced, *found.others] if not part.is_system for name in part.wanted} - own
    text, made = os.path.join(folder, "called.s"), os.path.join(folder, "called.o")
    # By --require-defined ld 2.40 finds no function of two versions, such as lgamma.
    needed = [f"\t.globl __real_{name}\n" for name in names if name in called]
    write(text, "".join([*needed, '\t.section .note.GNU-stack,"",@progbits\n']))
    run("as", "-o", made, text)
    return [made, *[f"-Wl,--defsym=__real_{name}={name}" if name in own else f"-Wl,--wrap={name}" for name in names]]


def stubs(unknown: list[Unknown], virtual: list[str]) -> str:
    """In the assembler's language, by the macros of hooks/library/unknown_calls.s: what is called in place of each, and
    the table of all. Behind them stand the classes of virtual functions."""
    functions = [
        f"function {row.name}, {quoted(row.shown)}, {quoted(row.library)}, {int(row.always)}" for row in unknown
    ]
    classes = [f'row "", {quoted(name)}, "", 0' for name in virtual]
    return "\n".join(['.include "unknown_calls.s"', *functions, *classes, "__spbags_unknown_end:", ""])


def quoted(text: str) -> str:
    return '"' + text.replace("\\", "\\\\").replace('"', '\\"') + '"'
