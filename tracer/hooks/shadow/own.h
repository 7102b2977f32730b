/* What each thread has of its own: its errno; in OpenMP the program's variables that are local to a thread; and copies
   for reductions. */
#ifndef SPBAGS_SHADOW_OWN_H
#define SPBAGS_SHADOW_OWN_H

#include "base/common.h"

struct own_memory {
    uintptr_t first, end;
};
enum { OWN_ERRNO, OWN_VARIABLES, OWN_PARTS };
/* That of the thread that calls: its errno, and whatever is thread_local, or threadprivate, in the program itself. */
struct own_of_thread {
    struct own_memory part[OWN_PARTS];
};
struct own_of_thread own_find(void);
/* Where the program's own variables begin that are local to this thread. */
uintptr_t own_first_of_thread(void);

/* Copies for reductions, of all threads. */
extern struct own_memory own_copies;

/* Of the run's first thread nothing in its errno is recorded from here on. */
void own_begin(void);
/* Nothing in this memory is recorded. */
void own_add(struct own_memory memory);
/* Another thread runs from now on: what this one has is recorded then, and what that one has isn't. */
void own_leave(const struct own_of_thread *of);
void own_enter(const struct own_of_thread *of);

/* Whether this granule is such a thread's; or the running thread's, or copies. */
bool own_is_of(const struct own_of_thread *of, uintptr_t granule);
bool own_has(uintptr_t granule);
/* Whether the program has variables that are local to a thread. */
bool own_has_variables(void);
/* Which granules of the block with this address are the running thread's own. */
uint64_t own_granules(uintptr_t address);

#endif
