"""Compiles a program with Cilk or OpenMP into one that reports its races. It takes a compiler's options:

    spbags-cc -o fib fib.c
    spbags-run -- ./fib 20

    spbags-cc -fopenmp -o program main.c -lm
    spbags-c++ -fopenmp -o program main.cpp

The first link proves and builds the detector that each program gets, in some ten minutes. --trace leaves it out: then
the program only writes traces. --no-inline-checks makes a smaller program, which is slower. --steps prints which steps
each source takes, and compiles nothing. --compile-hooks, alone, compiles ahead what else the first links would.

The compiler of spbags-cc is gcc, or what the environment variable SPBAGS_CC or else CC names, for example CC=clang;
that of spbags-c++ is g++, or what SPBAGS_CXX or else CXX names. The page tracer/README.md says what is supported of
Cilk and OpenMP, and has the settings."""
from __future__ import annotations

import os
import re
import sys

from compile.compiler import INCLUDES, Compiler
from compile.options import COMPILE_HOOKS, ENDINGS, NAME, OWN_OPTIONS, Words, expanded, fail
from installation import VERSION
from processes import Folder

TYPE_CHECKING = False
if TYPE_CHECKING:
    from typing import NoReturn

# What is of use only for some sources or links is imported where that is done: a small command waits for each module.

# The compiler itself answers these.
ASKS = re.compile(
    r"-E|-M|-MM|-###|--?print-.*|-dump(?:version|fullversion|machine|specs)|--version|" r"--help(?:=.*)?|--target-help"
)


def become_compiler(words: list[str]) -> NoReturn:
    command = Compiler(None).command
    try:
        os.execvp(command[0], [*command, *INCLUDES, *[word for word in words if word not in OWN_OPTIONS]])
    except OSError as error:
        fail(f"{command[0]}: {error.strerror}")


def made_of(source: str, words: Words, folder: str) -> str | None:
    """The name of what comes of a source, or None where nothing comes. An object to be linked stands in this folder."""
    ending = ENDINGS[words.ends_with] if words.ends_with else ".o"
    if not ending:
        return None
    made = os.path.splitext(os.path.basename(source))[0] + ending
    if not words.ends_with:
        return os.path.join(folder, made)
    return words.output if words.output and len(words.sources) == 1 else made


def show_steps(compiler: Compiler, folder: str) -> None:
    for source in compiler.words.sources:
        print(*(f"{source}: {step}" for step in compiler.steps_of(source, folder)), sep="\n")


def build(compiler: Compiler, folder: str) -> None:
    words = compiler.words
    objects: dict[str, str] = {}
    for number, source in enumerate(words.sources):
        own = os.path.join(folder, str(number))
        os.mkdir(own)
        made = made_of(source, words, own)
        compiler.compile(source, made, folder)
        if made:
            objects[source] = made
    if not words.ends_with:
        from compile import link

        link.Link(compiler, objects, folder).make()


def main() -> int:
    words = list(expanded(sys.argv[1:]))
    if not words or words == ["--help"]:
        print(__doc__)
        return 0 if words else 2
    if words == [COMPILE_HOOKS]:
        from compile import link

        link.compile_hooks()
        return 0
    if words == ["--version"]:
        # Tools go by the compiler's own first line.
        print(Compiler(None).about.rstrip(), f"{NAME} {VERSION}", sep="\n")
        return 0
    chosen = None if any(map(ASKS.fullmatch, words)) else Words(words)
    if not chosen or chosen.plain or not chosen.names_files:
        become_compiler(words)
    compiler = Compiler(chosen)
    with Folder() as folder:
        (show_steps if chosen.shows_steps else build)(compiler, folder)
    return 0
