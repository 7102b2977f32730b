/* What a call accesses by itself: its arguments in memory, and what the compiler knows of it. */
#ifndef SPBAGS_CALLS_H
#define SPBAGS_CALLS_H

#include "accesses.h"

void find_in_call(accesses &all, llvm::CallBase *call);

#endif
