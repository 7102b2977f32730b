"""The command line of spbags-cc: the compiler's words, each where it belongs."""
from __future__ import annotations

import os
import re
import sys
from collections.abc import Iterable, Iterator

from processes import Process

TYPE_CHECKING = False
if TYPE_CHECKING:
    from typing import NoReturn

# spbags-c++ is this program under that name.
NAME = os.environ.pop("SPBAGS_NAME", os.path.basename(sys.argv[0]))
IS_CPLUSPLUS = NAME.endswith("++")

LANGUAGE = "c++" if IS_CPLUSPLUS else "c"
# Options after which nothing is linked, and the endings of what they make.
ENDINGS = {"-c": ".o", "-S": ".s", "-fsyntax-only": None}

# Options that aren't the compiler's: to leave the detector out; not to test at each access, inline, whether it is a
# repeat; and to compile nothing, but to print the steps that each source takes.
OWN_OPTIONS = TRACE, NO_INLINE_CHECKS, STEPS = "--trace", "--no-inline-checks", "--steps"
# This stands alone.
COMPILE_HOOKS = "--compile-hooks"
PLAIN_LANGUAGES = {"c-header", "c++-header", "assembler", "assembler-with-cpp"}
DROPPED = tuple(
    "-O -flto -fsanitize -fno-sanitize -fopencilk -fcilkplus -ftapir -fcilktool -finline -fomit-frame-pointer "
    "-foptimize-sibling-calls -fuse-ld".split()
)
# In a static program the library's own calls would be taken for the program's.
DROPPED_WORDS = set(
    "-static -static-pie -lcilkrts -lgomp -lomp -liomp5 -ltbb -pie -no-pie -g0 -fno-lto -gsplit-dwarf "
    "-momit-leaf-frame-pointer -fverbose-asm -dA -dp -dP".split()
)
DROPPED_FILES = re.compile(r"lib(?:gomp|omp|iomp5)\.(?:a|so\b.*)")
WITH_VALUE = set(
    "-I -D -U -include -imacros -isystem -iquote -idirafter -Xpreprocessor -Xclang -mllvm --param -arch -target".split()
)
LINK_VALUE, DEPENDENCY_VALUE = set("-L -l -Xlinker -T -u -z -e".split()), {"-MF", "-MT", "-MQ"}
# Options that only say something.
FLAGS = {
    TRACE: ("inside", False),
    NO_INLINE_CHECKS: ("inline_checks", False),
    STEPS: ("shows_steps", True),
    "-shared": ("shared", True),
    "--shared": ("shared", True),
    "-r": ("relocatable", True),
}
CPLUSPLUS = (".cc", ".cpp", ".cxx", ".c++", ".C", ".CPP", ".ii", ".hpp")
ASSEMBLY = (".s", ".S", ".sx")
OBJECTS = (".o", ".a", ".so", ".lo", ".obj")


def say(message: str) -> None:
    print(f"{NAME}: {message}", file=sys.stderr)


def fail(message: str, status: int = 1) -> NoReturn:
    say(message)
    sys.exit(status)


def run(*words: str) -> None:
    """Ends this command where that one fails."""
    try:
        status = Process([*words], {}).wait()
    except OSError as error:
        fail(f"{words[0]}: {error.strerror}")
    if status != 0:
        sys.exit(status if status > 0 else 1)


class Words:
    def __init__(self, words: Iterable[str]) -> None:
        self.compiling: list[str] = []
        self.linking: list[str] = []
        self.dependencies: list[str] = []
        self.sources: list[str] = []
        self.openmp: list[str] = []
        self.output: str | None = None
        self.ends_with: str | None = None
        self.level = "-O1"
        self.inside = self.inline_checks = True
        self.shared = self.relocatable = self.shows_steps = False
        # Whether a file is named, and whether the compiler itself takes them all.
        self.names_files = self.plain = False
        self.named_language: str | None = None
        with_value = ((WITH_VALUE, self.compiling), (LINK_VALUE, self.linking), (DEPENDENCY_VALUE, self.dependencies))
        rest = iter(words)
        for word in rest:
            kept = next((kept for words, kept in with_value if word in words), None)
            if kept is not None:
                kept += [word, self.value(word, rest)]
            elif word == "-o":
                self.output = self.value(word, rest)
            elif word == "-x":
                self.language(self.value(word, rest))
            elif word.startswith("-"):
                self.option(word)
            else:
                self.file(word)

    @staticmethod
    def value(word: str, rest: Iterator[str]) -> str:
        found = next(rest, None)
        return found if found is not None else fail(f"{word} needs a value")

    def language(self, name: str) -> None:
        self.plain |= name in PLAIN_LANGUAGES
        if name not in (LANGUAGE, "none", *PLAIN_LANGUAGES):
            fail(f"the language {name} can't be traced by {NAME}, only {'C++' if IS_CPLUSPLUS else 'C'}")
        self.named_language = name if name == LANGUAGE else None

    def option(self, word: str) -> None:
        if word in ENDINGS:
            self.ends_with = word
        elif word in FLAGS:
            setattr(self, *FLAGS[word])
        elif word == "-":
            self.file(word)
        elif word.startswith("-x"):
            self.language(word[2:])
        elif word.startswith("-fopenmp") and not word.startswith(("-fopenmp-simd", "-fopenmp-version")):
            asked = [f"-Domp_get_{name}=__spbags_{name}" for name in ("thread_num", "num_threads")]
            self.openmp = ["-fopenmp", *asked, "-Wno-misleading-indentation"]
        elif word.startswith(DROPPED) or word in DROPPED_WORDS:
            if word.startswith("-O"):
                self.level = "-O0" if word == "-O0" else "-O1"
        elif word.startswith("-M"):
            self.dependencies.append(word)
        elif word.startswith(("-l", "-L", "-Wl,")) or word in ("-s", "-rdynamic"):
            self.linking.append(word)
        else:
            self.compiling.append(word)

    def file(self, name: str) -> None:
        self.names_files = True
        if DROPPED_FILES.fullmatch(os.path.basename(name)):
            return
        if name.endswith(CPLUSPLUS) and not IS_CPLUSPLUS:
            fail(f"{name}: this is C++: compile it with spbags-c++")
        if name.endswith((".c", ".i", *ASSEMBLY, *(CPLUSPLUS if IS_CPLUSPLUS else ()))) or self.named_language:
            self.sources.append(name)
        elif not (name.endswith(OBJECTS) or ".so." in name):
            fail(f"{name}: this isn't a source, an object or a library")
        self.linking.append(name)


def text_of(name: str) -> str:
    with open(name, encoding="utf-8", errors="surrogateescape") as file:
        return file.read()


def write(name: str, text: str) -> None:
    with open(name, "w", encoding="utf-8", errors="surrogateescape") as file:
        file.write(text)


QUOTED = re.compile(r"""\"((?:\\.|[^\"\\])*)\"?|'((?:\\.|[^'\\])*)'?|\\(.?)""", re.DOTALL)
WORD = re.compile(rf"(?:{QUOTED.pattern}|[^\s\"'\\])+", re.DOTALL)


def expanded(words: Iterable[str]) -> Iterator[str]:
    """The words, with those of a file in place of @file, as the compiler takes them."""
    for word in words:
        try:
            yield from expanded(words_of(text_of(word[1:]))) if word.startswith("@") else [word]
        except OSError:
            yield word


def words_of(text: str) -> list[str]:
    """The words of a text: quotes hold spaces, and a backslash any letter."""

    def plain(found: re.Match[str]) -> str:
        return re.sub(r"\\(.)", r"\1", found[1] or found[2] or "", flags=re.DOTALL) or found[3] or ""

    return [QUOTED.sub(plain, word[0]) for word in WORD.finditer(text)]
