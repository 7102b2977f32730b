/* Ranges: one hook behind a loop, or behind several in each other, in place of one at each access that they make. */
#ifndef SPBAGS_RANGES_H
#define SPBAGS_RANGES_H

#include "hooks.h"

#include "llvm/IR/PassManager.h"

/* Where a loop has nothing but accesses whose addresses grow evenly, and that it makes as often as is known before. */
void ranges_put(llvm::Function &function, llvm::FunctionAnalysisManager &analyses);

#endif
