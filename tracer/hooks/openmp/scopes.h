/* A task runs at once, where it is made, and so does an iteration of a loop; each is a spawned child, and so is what a
   member of a team does between two barriers. Nothing syncs at a function's end here.

   A scope is what a wait may be about: a team, a member of it, a task, a group, or a share of a loop. */
#ifndef SPBAGS_OPENMP_SCOPES_H
#define SPBAGS_OPENMP_SCOPES_H

#include "base/common.h"
#include "shadow/frames.h"

enum scope_kind { SCOPE_TEAM, SCOPE_MEMBER, SCOPE_TASK, SCOPE_GROUP, SCOPE_SHARE };

struct loop;
struct team;
struct member;

struct scope {
    enum scope_kind kind;
    /* A procedure of the trace is its own. */
    bool owns;
    /* Of a team: it has one thread by the program's own wish, so nothing in its loops is parallel. Of a task: all in it
       is done at once. */
    bool alone, final;
    /* What omp_set_num_threads said last in this task, or around it. */
    int threads_wanted;
    /* Of a team, how many threads the program wants it to have, or 0. */
    uint64_t team_wanted;
    /* Of what this scope made and no sync has joined: the children, what a taskwait doesn't wait for, and what the
       compiler put behind loops. */
    uint64_t children, others, following;
    /* Of the others, what a group's end doesn't wait for either. */
    uint64_t shares_left;
    /* Where the first of the others came from. */
    uintptr_t others_code;
    /* What it does between two waits; no other period has this number. */
    uint64_t period;
    /* The reductions that its tasks take part in. */
    uintptr_t *reductions;
    /* Whether what is done here stands after an ordered region. */
    bool is_watched;
    /* Of a share: whether it is what follows a loop, up to its end. */
    bool follows_loop;
    /* Of a team: how many threads it has; its members, if they are several; and where it begins, if not. */
    unsigned size;
    struct team *team;
    uintptr_t code;
    /* Of a thread, which is a member or all of a team: its number, and which member it is. The stack memory below is
       its own. Its loop, how many shares and iterations of that it has begun, and the loops and single regions that it
       has met in this phase. Where it has begun a master region in this phase, or 0. */
    int thread;
    struct member *member;
    uintptr_t stack_end;
    struct loop *loop;
    uint64_t shares, taken;
    uint32_t loops_met, singles_met;
    uintptr_t master;
    /* Of a share, and of a member: which variables are its thread's own; and the stack's quick end before. */
    uintptr_t own_first, own_end, quick_end;
    /* Of a share: whose part it is, or 0; how many locals are those of shares around, and the last number before. Of a
       thread: the single region that it has come to. */
    uintptr_t construct;
    size_t locals;
    uint64_t last_number;
    /* Of a member: marks from this one on are of this phase. */
    uint32_t phase_mark;
    /* It is in the program's own code of its region; its next barrier is clang's alone. */
    bool in_body, skips_barrier;
    /* No other scope has this number. */
    uint64_t number;
};

enum { SCOPE_MOST = FRAME_MOST_DEPTH + 3 };

/* Those that stand open, from the program's beginning, which is a team too, to the newest; and how many have begun. */
extern struct scopes {
    struct scope *first, *newest;
    uint64_t begun;
    /* How many tasks have been made, and how often a thread has begun what it does up to a barrier. */
    uint64_t events;
    /* How often a team with several members has begun, or has come to a barrier. */
    uint64_t phases;
} scopes;

/* The program's beginning. */
void scopes_start(void);
struct scope *scopes_push(enum scope_kind kind, bool owns);
struct scope *scopes_pop(void);
/* Accesses are looked at as the newest scope says. */
void scopes_follow(void);

static inline uint64_t scopes_new_number(void) { return ++scopes.begun; }
static inline void scopes_end_period(struct scope *task) { task->period = scopes_new_number(); }

static inline bool scopes_is_thread(const struct scope *scope) {
    return scope->kind == SCOPE_TEAM || scope->kind == SCOPE_MEMBER;
}

/* The thread that does what is done here. */
static inline struct scope *scopes_thread(void) {
    struct scope *at = scopes.newest;
    while (!scopes_is_thread(at))
        at--;
    return at;
}

/* The newest scope but for the groups in it. */
static inline struct scope *scopes_holder(void) {
    struct scope *at = scopes.newest;
    while (at->kind == SCOPE_GROUP)
        at--;
    return at;
}

static inline struct scope *scopes_team(void) {
    struct scope *thread = scopes_thread();
    return thread->kind == SCOPE_MEMBER ? thread - 1 : thread;
}

/* A share of a loop is a part of its thread's task. */
static inline struct scope *scopes_task(void) {
    struct scope *at = scopes.newest;
    while (at->kind != SCOPE_TASK && !scopes_is_thread(at))
        at--;
    return at;
}

/* The teams around, and of those the ones that could have several threads. */
int scopes_level(bool active);

static inline uint64_t scopes_unsynced(const struct scope *scope) {
    return scope->children + scope->others + scope->following;
}

#endif
