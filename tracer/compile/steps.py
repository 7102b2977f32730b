"""The steps by which a preprocessed source is rewritten, in their order: which sources take each, and a function from
text to text, whose own text `spbags-cc --steps` prints. Most sources need few of them, so a module is imported where
one does."""
from __future__ import annotations

import re
import sys
from collections import namedtuple
from collections.abc import Iterator

ASM = re.compile(r"\b(?:asm|__asm__|__asm)\s*(?:\w+\s*)*\(")
# How far back the end of what stands before is looked for.
NEAR = 5000
# What asks for a step. All begin with letters or signs, which are found quickly.
# The end of an attribute; many sources have it elsewhere too.
CONST = re.compile(r"const(?:__)?\s*[,)\]]")
OPENMP = re.compile(r"#[ \t]*pragma[ \t]+omp\b|\[\[\s*(?:using\s+)?omp\b")
CILK = re.compile("_Cilk_|cilk_(?:spawn|sync|for|scope)")
# gcc calls its runtime for a task, as the body of a loop of Cilk is one, and here the hooks.
INSTEAD_OF_TASK = '\n__asm__("GOMP_task = __spbags_task");\n'


# What a source is compiled for, and whether OpenMP that is ignored is told.
Target = namedtuple("Target", "is_cplusplus is_clang has_openmp warns", defaults=[True])


# The source that a step makes, and a line for each thing that can't be traced.
Made = tuple[str, list[str]]
# A function, whose text says what it does to a source, and which sources it is for.
Step = namedtuple("Step", "name is_taken rewrite")


# ---- Assembly ----


def may_have_assembly(text: str) -> bool:
    """Whether the assembler's word stands anywhere but in a declaration, which most sources have."""
    at = text.find("asm")
    while at >= 0:
        found = ASM.match(text, at - 2 if text.startswith("__", at - 2) else at)
        if found and begins(text, found.start()):
            return True
        at = text.find("asm", at + 3)
    return False


def begins(text: str, at: int) -> bool:
    """Whether this is behind the end of something else; a line that names a file may stand between."""
    before = text[max(at - NEAR, 0) : at].rstrip()
    while before.startswith("#", before.rfind("\n") + 1):
        before = before[: before.rfind("\n") + 1].rstrip()
    return before[-1:] in ("", ";", "{", "}")


def with_assembly(text: str, _: Target) -> Made:
    """tells where it stands outside of functions"""
    from compile import assembly

    return assembly.outside(text), []


# ---- OpenMP ----


def with_warning(text: str, _: Target) -> Made:
    """warns that the program is serial without -fopenmp"""
    from compile import openmp

    place = next(openmp.ignored(text), None)
    if place:
        print(
            "{}:{}: warning: without -fopenmp this OpenMP is ignored, so the program is serial".format(*place),
            file=sys.stderr,
        )
    return text, []


def with_openmp(text: str, target: Target) -> Made:
    """loops ask the runtime for each iteration, and bodies say where they begin"""
    from compile import openmp

    return openmp.rewritten(text, target.is_clang)


# ---- Cilk ----


def with_reducers(text: str, target: Target) -> Made:
    """an attribute, which gcc's plugin reads, stands in place of the keyword"""
    from compile import reducers, spawns

    if target.is_clang:
        return text, spawns.refused(text, "_Hyperobject", "reducers can be traced only with gcc")
    return reducers.rewritten(text), []


def without_const(text: str, _: Target) -> Made:
    """no call is left out of a function that is said to do nothing but compute"""
    from compile import attributes

    return attributes.without_const(text), []


def with_spawns(text: str, target: Target) -> Made:
    """spawns, syncs, loops and scopes become calls of hooks"""
    from compile import spawns

    if target.has_openmp:
        return text, spawns.refused(text, "_Cilk_", "Cilk can't be traced together with OpenMP")
    if target.is_clang and target.is_cplusplus:
        return text, spawns.refused(text, "_Cilk_", "Cilk in C++ can be traced only with g++")
    language = "c++" if target.is_cplusplus else "clang" if target.is_clang else "gcc"
    made, faults = spawns.rewritten(text, language)
    return made + INSTEAD_OF_TASK * (language == "gcc" and "_Cilk_for" in text), faults


STEPS = [
    Step("assembly", lambda text, _: may_have_assembly(text), with_assembly),
    Step("ignored OpenMP", lambda text, to: to.warns and not to.has_openmp and OPENMP.search(text), with_warning),
    Step("OpenMP", lambda text, target: target.has_openmp and OPENMP.search(text), with_openmp),
    Step("reducers", lambda text, _: "_Hyperobject" in text, with_reducers),
    Step("attributes", lambda text, to: to.is_cplusplus and not to.is_clang and CONST.search(text), without_const),
    Step("Cilk", lambda text, _: CILK.search(text), with_spawns),
]


def taken(text: str, target: Target) -> Iterator[tuple[Step, str, list[str]]]:
    """Each step that the source takes, and what it makes."""
    for step in STEPS:
        if step.is_taken(text, target):
            text, faults = step.rewrite(text, target)
            yield step, text, faults


def has_tasks(text: str) -> bool:
    """Whether the rewritten source is compiled with OpenMP, whatever the command says."""
    return text.endswith(INSTEAD_OF_TASK)
