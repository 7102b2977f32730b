/* What a builtin of the machine accesses: an instruction that goes to memory by a pointer. */
#ifndef SPBAGS_VECTORS_H
#define SPBAGS_VECTORS_H

#include "accesses.h"

void find_in_instruction(accesses &all, gcall *call);

#endif
