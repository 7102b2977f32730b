/* What the report of a run with OpenMP has to say beside the races. Where it says something once, this has the code of
   the first place, or 0. */
#ifndef SPBAGS_OPENMP_NOTES_H
#define SPBAGS_OPENMP_NOTES_H

#include "openmp/scopes.h"

extern struct notes {
    /* A task's children that outlive it are joined where it ends. Where a wait doesn't wait for them, what follows may
       run beside them, and no race of those is seen: how many these are, the wait, and where the first came from. */
    uint64_t outlived;
    uintptr_t outlived_wait, outlived_code;
    /* A region that has one thread by OMP_NUM_THREADS; and one that wants several in another region, and has one. */
    uintptr_t alone_by_variable, inner_team;
    /* A region that wanted more threads than it got, or the first of those that asked for a thread's number; how many
       it has, and how many it wanted. */
    uintptr_t small_team;
    uint64_t small_team_has, small_team_wants;
    bool small_team_asks;
    /* A region that asks for a thread's number, where the last one does a single region, or its sums alone are
       recorded. */
    uintptr_t last_does;
    /* A master region whose thread does what any may do beside it. */
    uintptr_t master_does_more;
    /* A masked region for a thread that its team doesn't have; which thread, and how many there are. */
    uintptr_t masked_out;
    int masked_thread, masked_team;
    /* A loop whose threads have blocks, how many these are, and whether they ask for their numbers. */
    uintptr_t blocks_of;
    unsigned blocks_team;
    bool blocks_asked;
    /* A loop had shares of several iterations. */
    bool has_long_shares;
    uintptr_t simd_loop;
    /* A task that asks for its thread's number, which may be any; or an iteration, if its team has one thread. */
    uintptr_t task_asks;
    /* An access to shared memory after an ordered region. */
    uintptr_t after_ordered;
    /* A task that waited for all before it by its `depend`; and one whose `depend` was ignored. */
    uintptr_t depend_wait, depend_ignored;
    /* An access of what another thread has of its own. */
    uintptr_t others_own;
    /* An access of a variable of the region that shares access by its name, and others in another thread by a pointer;
       and one of a variable that a task accesses too, which a share has left. */
    uintptr_t beside_name, beside_task;
    /* A region that OpenMP would cancel. */
    uintptr_t cancelled;
} notes;

static inline void notes_keep(uintptr_t *first, uintptr_t code) {
    if (*first == 0)
        *first = code;
}

/* So many more outlive this wait. */
void notes_add_outlived(uint64_t count, uintptr_t wait, uintptr_t code);
/* The body of the region with this code begins here, which is a better place to name it by. */
void notes_name_region(uintptr_t region, uintptr_t code);

#endif
