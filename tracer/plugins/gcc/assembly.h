/* What a statement of the assembler accesses. */
#ifndef SPBAGS_ASSEMBLY_H
#define SPBAGS_ASSEMBLY_H

#include "accesses.h"

void find_in_assembly(accesses &all, gasm *assembly);

/* A call that tells of assembly outside of functions: it tells nothing if the text is understood. */
void judge_assembly_outside(gcall *call);

#endif
