/* The pairs of code addresses of a run that looks: races of the same two are one, whose first race stands for it. */
#ifndef SPBAGS_RECORDS_LOOK_PAIRS_H
#define SPBAGS_RECORDS_LOOK_PAIRS_H

#include "records/look_races.h"

struct look_pair {
    const struct look_race *race;
    /* How many units race. */
    uint64_t count;
    const struct guard *guard;
    /* Of a block of the heap, where that was allocated, or 0. */
    uint64_t site;
    /* The newest of the others with other stacks that went out for it, and how many these are. */
    uint32_t newest;
    uint32_t more;
    /* Of a block, what went out last: where its races begin, and of how many bytes they are. */
    uintptr_t begin;
    size_t length;
    /* An access of one of its races doesn't fill its unit, so maybe it is of neighbours. */
    bool is_narrow;
};
enum { LOOK_PAIRS_MOST = 1 << 16 };
/* By their numbers, from 1 on. */
extern struct look_pair *look_pairs;
extern uint32_t look_pairs_last;
/* The races of further pairs. */
extern uint64_t look_pairs_left_out;

void look_pairs_begin(void);
/* Both accesses of a race have gone out. */
void look_pairs_add(struct look_race *race);

/* This race waits for the function in which its accesses meet; or no longer. */
void look_pairs_wait(struct look_race *race);
void look_pairs_leave(const struct look_race *race);

#endif
