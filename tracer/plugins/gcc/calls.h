/* What a call accesses by itself: its arguments and its result in memory, and what the compiler may put in its place. */
#ifndef SPBAGS_CALLS_H
#define SPBAGS_CALLS_H

#include "accesses.h"

void find_in_call(accesses &all, gcall *call);

#endif
