/* Pointers that lead other threads to variables of a region: those in memory that isn't the thread's own, as the
   program reads it. In a run for others one part may have handed such a pointer to another one, and the same thread does
   both, as in the first run. */
#ifndef SPBAGS_OPENMP_REACHED_H
#define SPBAGS_OPENMP_REACHED_H

#include "openmp/team.h"
#include "shadow/stacks.h"

/* What has been read since a strand began is looked at now, while no code of the program runs. */
void reached_begin(void);

/* Whether the member has a variable of its own at this address. */
static inline bool reached_lies_in(const struct member *member, uintptr_t address) {
    return address - member->stack->first < member->scope.stack_end - member->stack->first;
}

/* Whether such a pointer leads to this thread's variables from this address on. */
static inline bool reached_has(const struct scope *thread, uintptr_t first) {
    return thread->kind == SCOPE_MEMBER && thread->member->reached >= first;
}

#endif
