"""The plugins by which gcc and clang put the hooks into a program's code. Each is built once for each compiler, and
kept."""
from __future__ import annotations

import os
import re

import cache
from compile.options import fail, run, write
from installation import HERE
from processes import answer

PLUGINS = os.path.join(HERE, "plugins")
FLAGS = ["-std=c++17", "-O1", "-fPIC", "-fno-rtti"]


def asked(compiler: list[str], question: str) -> str:
    return answer(*compiler, question)[1].strip()


def headers_of(compiler: list[str], is_clang: bool) -> str:
    """The folder of the compiler's own headers, which are in a package of their own."""
    if is_clang:
        return os.path.join(asked(compiler, "-print-resource-dir"), "..", "..", "..", "include")
    return os.path.join(asked(compiler, "-print-file-name=plugin"), "include")


def lacks(compiler: list[str], is_clang: bool) -> str | None:
    """A line that says which package is missing, or None."""
    known, package = ("llvm/Passes/PassPlugin.h", "llvm-{}-dev") if is_clang else ("gcc-plugin.h", "gcc-{}-plugin-dev")
    if os.path.exists(os.path.join(headers_of(compiler, is_clang), known)):
        return None
    number = asked(compiler, "-dumpversion").partition(".")[0]
    return f"{compiler[0]}: the headers for its plugins aren't here: install {package.format(number)}"


def cplusplus_of(compiler: list[str]) -> str:
    """A compiler of C++, of the same version if there is one."""
    import shutil

    name = re.sub(r"gcc(?=(-[\d.]+)?$)", "g++", re.sub(r"clang(?=(-[\d.]+)?$)", "clang++", compiler[0]))
    return next(filter(shutil.which, (name, "g++", "c++", "clang++")), "g++")


def files_of(is_clang: bool, ending: str) -> list[str]:
    """Those that the plugin is made of; some are of both."""
    folders = (os.path.join(PLUGINS, "llvm" if is_clang else "gcc"), PLUGINS)
    return sorted(
        os.path.join(folder, name) for folder in folders for name in os.listdir(folder) if name.endswith(ending)
    )


def digest(about: str, is_clang: bool) -> str:
    """A hash of what the plugin for a compiler that says this about itself is made of."""
    return cache.digest((about, FLAGS), (*files_of(is_clang, ".cc"), *files_of(is_clang, ".h")))


def build(compiler: list[str], is_clang: bool, folder: str) -> str:
    """Builds it in a folder. The compiler's headers, which take the time, are read once for all sources."""
    missing = lacks(compiler, is_clang)
    if missing:
        fail(missing)
    whole, made = os.path.join(folder, "whole.cc"), os.path.join(folder, "spbags.so")
    write(whole, "".join(f'#include "{source}"\n' for source in files_of(is_clang, ".cc")))
    run(cplusplus_of(compiler), *FLAGS, "-isystem", headers_of(compiler, is_clang), "-shared", whole, "-o", made)
    return made


def options(built: str, is_clang: bool, checks: bool, lives: bool) -> list[str]:
    """The compiler's words for the plugin, and whether tests are to stand inline, and where lives end be told."""
    if not is_clang:
        name = os.path.splitext(os.path.basename(built))[0]
        asked_for = [word for word, wanted in (("checks", checks), ("lives", lives)) if wanted]
        return ["-fplugin=" + built, *(f"-fplugin-arg-{name}-{word}" for word in asked_for)]
    early = ["-Xclang", "-load", "-Xclang", built, "-mllvm", "-spbags-checks"]
    return ["-fpass-plugin=" + built, *(early if checks else [])]
