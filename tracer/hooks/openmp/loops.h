/* The loops of teams, and their sections, which are iterations that are numbered from 1 on. */
#ifndef SPBAGS_OPENMP_LOOPS_H
#define SPBAGS_OPENMP_LOOPS_H

#include "base/common.h"

/* Its counter's first value, step and end; how many iterations it has, how many have begun, and how many of the first
   ones have their turn behind all others; and the most iterations of a share. */
struct loop {
    uint64_t start, step, end, count, begun, put_off, most;
    bool ordered, is_sections;
    /* Where it begins, and whether other threads do its parts than in the first run. */
    uintptr_t code;
    bool by_others;
    bool is_static, has_no_barrier;
    /* No barrier comes before what reads its lastprivate variables. */
    bool has_late_last;
    /* Each thread has variables of its own beside, which may be objects. */
    bool has_private;
    /* Each member of the team does a block of its iterations, as one share. */
    bool in_blocks;
    /* The first member's reductions, and its memory for all. */
    uintptr_t *reductions;
    void *memory;
};

/* Those of the teams that there are now: all, and where the next one will stand. */
extern struct loops {
    struct loop *first, *next;
    /* SPBAGS_ITERATIONS makes so many iterations one share. */
    uint64_t iterations;
} loops;

void loops_start(void);
/* A place for the loops of a thread that is all of its team. */
struct loop *loops_of_thread(void);
/* The loops from this one on have ended. */
static inline void loops_end_from(struct loop *first) { loops.next = first; }

/* The thread that runs comes to this loop: its own is that one, which another member may have begun. */
void loops_begin(struct loop loop);

/* By what others_do knows it. With schedule(static) a thread may rely on what it did in a loop like that. */
static inline uintptr_t loops_construct(const struct loop *loop) {
    enum { ALL_STATIC = 1 };
    return loop->is_static ? ALL_STATIC : loop->code;
}

/* The number of the iteration that has begun last. */
static inline uint64_t loops_newest(const struct loop *loop) {
    const uint64_t behind = loop->begun + loop->put_off;
    return (behind > loop->count ? behind - loop->count : behind) - 1;
}

static inline uint64_t loops_steps(uint64_t distance, uint64_t step) {
    return distance / step + (distance % step != 0);
}

/* What gcc hands over; MOST has the loop's clauses, which the wrapper puts there. */
struct loop loops_signed(long start, long end, long step, long most);
struct loop loops_unsigned(bool up, uint64_t start, uint64_t end, uint64_t step, long most);
struct loop loops_sections(unsigned count);

#endif
