/* The heap of the program: malloc and its like. */
#ifndef SPBAGS_PROGRAM_HEAP_H
#define SPBAGS_PROGRAM_HEAP_H

#include "base/caller.h"

/* Whether memory comes again, and what lives and dies in one strand may be left out. */
extern bool heap_reuses;

/* What is allocated between these has other memory, so much of the hooks' own, and none of the spans. */
void heap_begin_aside(size_t size);
void heap_end_aside(void);

/* Whoever may still use a block that the program gives back has a race, as if all of it were written. */
void heap_end_block(void *block, __spbags_function self, uintptr_t stack_pointer, uintptr_t code);

/* Which local static was being initialised when the block with this address was born, or 0. */
uint32_t heap_static_of(uintptr_t address);

/* An access of a block that died in the strand of its birth. */
void heap_use_dead(bool writes, uintptr_t address, uintptr_t code);

#endif
