#!/usr/bin/env python3
"""The plugins of gcc and clang: what each sees, with which versions, and what is said where it can't be built."""
import os
import shutil
import subprocess
import sys

sys.dont_write_bytecode = True
import cases
from cases import CC, SPBAGS_CC, TESTS, TracerTest, tagged_races

TEXT, COPY = os.path.join(TESTS, "text.c"), "text.c"
# The versions that are tried beside its own, what has each one's headers, and where the compiler says that they are.
VERSIONS, PACKAGE, ASKS, KNOWN = {
    "gcc": (("gcc-11", "gcc-12"), "gcc-{}-plugin-dev", "-print-file-name=plugin", "include/gcc-plugin.h"),
    "clang": (("clang-14", "clang-16", "clang-19"), "llvm-{}-dev", "-print-resource-dir",
              "../../../include/llvm/Passes/PassPlugin.h")}[CC]
# A compiler that no plugin was built for, without the headers that this takes.
BARE = f"""#!/bin/sh
case "$*" in
*{ASKS}*) echo plugin ;;
--version) {CC} --version && echo bare ;;
*) exec {CC} "$@" ;;
esac
"""


def version_of(compiler):
    said = subprocess.run([compiler, "-dumpversion"], stdout=subprocess.PIPE, text=True).stdout
    return said.strip().partition(".")[0]


def has_headers(compiler):
    if not shutil.which(compiler):
        return False
    found = subprocess.run([compiler, ASKS], stdout=subprocess.PIPE, text=True).stdout.strip()
    return os.path.exists(os.path.join(found, KNOWN))


class TextTest(TracerTest):
    def setUp(self):
        super().setUp()
        shutil.copyfile(TEXT, COPY)
        # Nested functions are gcc's alone.
        self.wanted = tagged_races(COPY, "[a-z_]+" if CC == "gcc" else "(?!nested)[a-z_]+")

    def has_races_of_text(self, *words, **settings):
        self.succeeds(SPBAGS_CC, "-w", *words, "-o", "text", COPY, **settings)
        self.assertEqual(self.wanted, self.races_in(COPY, "./text", SPBAGS_UNIT="1"))


class PluginTest(TextTest):
    def test_text(self):
        """Each level, and each way to put hooks there."""
        for words in (["-O0"], ["-O1"], ["-O1", "--no-inline-checks"], ["-O1", "-fPIC"], ["-O1", "-masm=intel"],
                      ["-O1", "-march=native"]):
            with self.subTest(words):
                self.has_races_of_text(*words)

    def test_without_headers(self):
        self.write(CC, BARE)
        os.chmod(CC, 0o755)
        self.ends_with(1, f"install {PACKAGE.format(version_of(CC))}$", SPBAGS_CC, "-c", "fib.c", CC=os.path.abspath(CC))
        self.assertFalse(os.path.exists("fib.o"))


class VersionsTest(TextTest):
    def test_versions(self):
        own = f"{CC}-{version_of(CC)}"
        for version in VERSIONS:
            if version != own and has_headers(version):
                with self.subTest(version):
                    self.has_races_of_text("-O1", CC=version)


if __name__ == "__main__":
    cases.main()
