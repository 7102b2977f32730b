/* The blocks of the heap that have a race, and who allocates each, in a run that looks. */
#ifndef SPBAGS_RECORDS_LOOK_HEAP_H
#define SPBAGS_RECORDS_LOOK_HEAP_H

#include "base/common.h"

struct look_allocation {
    uintptr_t address;
    size_t size;
    uintptr_t code;
    uint32_t node;
    /* Alike where the same calls led to the allocation. */
    uint64_t site;
};

void look_heap_begin(void);
/* A block begins, for which DEAD stands if it dies in the strand of its birth, or 0. */
void look_heap_note(uintptr_t address, size_t size, uint64_t dead, uintptr_t stack_pointer, uintptr_t code);
/* The noted block with this address, or null. */
const struct look_allocation *look_heap_of(uintptr_t address);

#endif
