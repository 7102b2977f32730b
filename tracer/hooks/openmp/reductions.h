/* Reductions that tasks take part in. gcc hands over an array of words: how many variables there are, the size of a
   thread's copies, their alignment, which gives way to where they are, then the next such array, and their end; and for
   each variable its address and that of its copy among them. A copy is no shared memory, so it isn't recorded; what is
   combined from it is. */
#ifndef SPBAGS_OPENMP_REDUCTIONS_H
#define SPBAGS_OPENMP_REDUCTIONS_H

#include "openmp/scopes.h"

enum reduction_word {
    REDUCTION_VARIABLES = 0,
    REDUCTION_SIZE = 1,
    REDUCTION_MEMORY = 2,
    REDUCTION_NEXT_ARRAY = 4,
    REDUCTION_END = 6,
    REDUCTION_FIRST = 7,
    REDUCTION_WORDS_EACH = 3
};

void reductions_start(void);
/* This scope has these. REDUCTION_FIRST are the first thread's, or NULL. */
void reductions_register(struct scope *scope, uintptr_t *data, const uintptr_t *first);
/* The variable that a task here reduces at this address, and its array. */
uintptr_t *reductions_find(uintptr_t address, uintptr_t **array);
/* This thread's copy of a variable. */
uintptr_t reductions_copy_of(const uintptr_t *array, const uintptr_t *variable);

#endif
