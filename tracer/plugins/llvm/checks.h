/* The inline tests in place of calls of hooks, whose text for the assembler is in inline_checks.h. */
#ifndef SPBAGS_CHECKS_H
#define SPBAGS_CHECKS_H

#include "hooks.h"

/* Reads the tests' macros, if there are to be tests. They come before all code. */
void checks_begin(llvm::Module &module);
/* Puts a test in place of each call that has one. */
void checks_put(llvm::Function &function, const llvm::BlockFrequencyInfo &frequencies);
/* Puts the hook or the test of a function's entry, or of an exit, before an instruction. */
void check_of_entry(llvm::Instruction *before);
void check_of_exit(llvm::Instruction *before);

#endif
