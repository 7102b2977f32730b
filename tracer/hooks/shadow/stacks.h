/* The stacks of the program's threads: its own, and below that those of a team's members, so that all lie in one range.
   One of them runs at a time. While it does, what is known of it stands in variables of the hooks. */
#ifndef SPBAGS_SHADOW_STACKS_H
#define SPBAGS_SHADOW_STACKS_H

#include "base/common.h"

enum { STACK_MOST = 64 };
/* Between two stacks is so much that belongs to none. */
static const size_t stacks_gap = (size_t)1 << 20;

struct frame;
struct frame_part;
struct body;
struct turn;

struct stack {
    uintptr_t first, end;
    /* What is done from the first of these on up to the second isn't noted quickly. */
    uintptr_t quick_end, own_end;
    /* No mark of it stands below this address. */
    uintptr_t lowest;
    struct frame *frames, *frames_end, *top, *grouped, *silent_frame;
    struct frame_part *parts;
    struct body *bodies, *newest_body;
    unsigned hidden, hidden_updates, statics;
    /* Of a member's: its thread waits here for its turn, and then does this for the member. */
    sem_t turn;
    const struct turn *does;
    struct member *member;
};
extern struct stack stacks[STACK_MOST];
extern unsigned stacks_count;
/* The one that runs, its memory below its quick end and above its own end, and the thread that has it, by its
   pointer. */
extern struct stack *stacks_running;
extern uintptr_t stacks_running_first, stacks_running_size, stacks_above_first, stacks_above_size;
/* No mark of it stands below this address, which begins a granule. */
extern uintptr_t stacks_lowest __asm__("__spbags_lowest");
extern void *stacks_running_thread;

/* The memory of all stacks, and what lies between them. */
extern uintptr_t stacks_first, stacks_size;
static inline bool stacks_have(uintptr_t address) { return address - stacks_first < stacks_size; }

/* All that lies between a stack's end and its limit grows by itself, so a fault there is beyond the limit. */
static inline bool stacks_are_near(const void *address) {
    return (uintptr_t)address - (stacks_first - stacks_gap) < stacks_size + stacks_gap;
}

/* The one with this address, or null. */
static inline struct stack *stacks_find(uintptr_t address) {
    unsigned at = 0;
    while (at < stacks_count && address - stacks[at].first >= stacks[at].end - stacks[at].first)
        at++;
    return at < stacks_count ? &stacks[at] : NULL;
}

/* What is noted quickly is so from now on. */
static inline void stacks_follow_running(void) {
    stacks_running_first = stacks_running->first;
    stacks_running_size = stacks_running->quick_end - stacks_running->first;
    stacks_above_first = stacks_running->own_end;
    stacks_above_size = stacks_running->end - stacks_running->own_end;
}

static inline void stacks_set_quick_end(uintptr_t address) {
    stacks_running->quick_end = address;
    stacks_follow_running();
}

/* A granule that isn't noted quickly has a number from now on. */
__attribute__((cold)) void stacks_lower_other(uintptr_t address);

/* Whether it is the running one's, and noted quickly. */
static inline bool stacks_is_of_running(uintptr_t address) {
#ifdef SPBAGS_OPENMP
    if (address - stacks_above_first < stacks_above_size)
        return true;
#endif
    return address - stacks_running_first < stacks_running_size;
}

/* A granule of the stack has a number from now on, of the one that runs or of any. */
static inline void stacks_lower_running(uintptr_t address) {
    if (address < stacks_lowest)
        stacks_lowest = address;
}

static inline void stacks_lower(uintptr_t address) {
    if (__builtin_expect(stacks_is_of_running(address), 1))
        stacks_lower_running(address);
    else
        stacks_lower_other(address);
}

/* The signals have a stack of their own, since the program's may be used up. */
extern char stacks_for_signals[1 << 18];

#endif
