/* The hooks of a function's entry and of its exits. */
#ifndef SPBAGS_FRAMES_H
#define SPBAGS_FRAMES_H

#include "hooks.h"

/* Puts them, also where an exception leaves, if the function calls anything. What was inlined has none. */
void frames_put(llvm::Function &function);

#endif
