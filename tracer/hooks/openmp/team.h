/* A team of several threads: its members, of which one runs at a time. */
#ifndef SPBAGS_OPENMP_TEAM_H
#define SPBAGS_OPENMP_TEAM_H

#include "openmp/scopes.h"

/* What the threads of a team do. */
struct region {
    void (*run)(void *);
    void *data;
    /* The loop or the sections that are all of it, or NULL. */
    const struct loop *whole;
    /* How many functions of the program its body lies in. */
    unsigned functions;
};

struct stack;

struct member {
    struct stack *stack;
    /* Its scope, while it waits; and its part's frame, and how deep procedures nest in its part. */
    struct scope scope;
    struct frame *base;
    uint32_t depth;
    bool has_ended;
    /* The highest address in its stack of a variable that others may know a pointer to; and the stack pointer where the
       body begins, from which each member's variables are equally far. */
    uintptr_t reached, body;
};

struct team {
    struct region region;
    uintptr_t code;
    /* The frame of the region. */
    const struct frame *frame;
    struct member *members;
    unsigned size;
    /* How many threads the program wants it to have, or 0. */
    uint64_t wanted;
    /* The loops that have begun in this phase are those from here on; how many single regions have; and, by their bits,
       of which members it is known that they do a master region. */
    struct loop *first_loop;
    uint32_t singles;
    uint64_t masters;
    /* What it does up to the next barrier; no other phase has this number. */
    uint64_t phase;
    /* A member has asked for its number. */
    bool asks;
    /* What a single region hands to the other members. */
    void *copied;
};

static inline bool team_is_last(const struct scope *thread) { return thread->thread + 1 == (int)thread->size; }

/* Whether a later member of the team may do a part of a loop too: one that does no master region. */
static inline bool team_has_later(const struct scope *thread) {
    const struct team *team = thread->team;
    const uint64_t all = UINT64_MAX >> (64 - thread->size), later = -((uint64_t)2 << thread->thread);
    return (all & later & ~team->masters) != 0;
}

#endif
