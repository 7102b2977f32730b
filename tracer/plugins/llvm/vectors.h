/* What an instruction of the machine accesses by a pointer. */
#ifndef SPBAGS_VECTORS_H
#define SPBAGS_VECTORS_H

#include "accesses.h"

void find_in_instruction(accesses &all, llvm::IntrinsicInst *call);

#endif
