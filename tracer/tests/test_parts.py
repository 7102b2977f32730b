#!/usr/bin/env python3
"""Parts of the hooks alone, for each compiler; what the compiler leaves undefined ends them."""
import os
import sys

sys.dont_write_bytecode = True
import cases
from cases import CC, TESTS, TRACER, TracerTest

# Limits of a strand, of the number of strands, which come again and again then, and of memory that stays free.
LIMITS = ("-DMARK_MOST_STRANDS=20", "-DSTRAND_MOST_BLOCKS=4", "-DFREE_SPANS=1")
UNDEFINED = ("-fsanitize=undefined", "-fsanitize-undefined-trap-on-error")
HOOKS = os.path.join(TRACER, "hooks")
BESIDE = [f"{HOOKS}/{name}.c" for name in (
    "base/changes", "base/memory", "base/output", "base/settings", "base/tell", "library/formats", "records/course",
    "records/guards", "records/lines", "records/packing", "records/steps", "records/strands", "shadow/blocks",
    "shadow/granules", "shadow/marks", "shadow/own", "shadow/stacks")]


class PartsTest(TracerTest):
    def test_parts(self):
        # The library's functions are the real ones here.
        self.write("library_names.h", "")
        self.succeeds(CC, "-w", "-O1", "-fno-builtin", *UNDEFINED, *LIMITS, "-DSPBAGS_INSIDE", "-I.", f"-I{HOOKS}",
                      "-o", "parts", os.path.join(TESTS, "parts.c"), *BESIDE)
        names = self.succeeds("./parts").out.split()
        self.assertTrue(names)
        for name in names:
            with self.subTest(name):
                done = self.run_command("timeout", "60", "./parts", name)
                self.assertEqual((0, ""), (done.status, done.out))


if __name__ == "__main__":
    cases.main()
