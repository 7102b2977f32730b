/* Shares of loops. The wrapper gives every loop the schedule `dynamic`, so that gcc asks for each iteration here: then
   the share before ends, and a new one begins. The first member of a team that comes does all but the last two, which
   another one does; if the region is nothing but the loop, mostly it does all. In a run for others it does these two,
   and another one the rest. Variables of a thread are private to each share, so all stack memory below its region's
   loses its numbers between two. */
#ifndef SPBAGS_OPENMP_SHARES_H
#define SPBAGS_OPENMP_SHARES_H

#include "openmp/loops.h"
#include "openmp/team.h"

/* The thread comes to its loop by this code; then how many iterations are left for it, of its block if it has one. The
   others it leaves to others. */
void shares_come_to_loop(const struct scope *thread, uintptr_t code);
uint64_t shares_left(const struct scope *thread);
void shares_note_long(const struct scope *thread, uint64_t size);

/* Gives the next share's first counter and its end, where one is left. */
bool shares_take(uint64_t *first, uint64_t *end, uintptr_t stack_pointer, uintptr_t code);
/* The same; where none is left what the compiler put behind the loop begins. */
bool shares_next(uint64_t *first, uint64_t *end, uintptr_t stack_pointer, uintptr_t code);
/* The number of the next section, or 0. */
unsigned shares_next_section(uintptr_t stack_pointer, uintptr_t code);

/* What the compiler puts between the last share and the loop's end, as a reduction's sums and last values, is no code
   of the program's: it is done beside that, as a share is. But a last value behind a block is one of that thread's. */
void shares_begin_following(const struct scope *thread, uintptr_t stack_pointer, uintptr_t code);
void shares_end_following(uintptr_t code);

/* The same behind a scope, of which each thread has a sum. */
void shares_begin_combining(uintptr_t stack_pointer, uintptr_t code);

/* The loop or the scope ends, with a barrier. */
void shares_end_loop(uintptr_t code);

#endif
