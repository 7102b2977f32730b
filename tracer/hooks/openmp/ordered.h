/* Ordered loops. An ordered region comes after those of all earlier iterations. So each share is nested in the next
   one, which waits for it where its ordered region begins. */
#ifndef SPBAGS_OPENMP_ORDERED_H
#define SPBAGS_OPENMP_ORDERED_H

#include "base/caller.h"
#include "openmp/loops.h"

void ordered_begin_loop(struct loop loop, uintptr_t code);
#define BEGIN_ORDERED(LOOP) ordered_begin_loop(LOOP, CODE)
/* It waits for earlier iterations, and not for tasks that they or this one made. */
void ordered_begin_region(uintptr_t code);
void ordered_end_region(void);

#endif
