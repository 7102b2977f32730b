/* The stacks of a team's members. A member keeps its functions over a barrier, so each has a stack and a thread of its
   own, but for the first one, which goes on where the region begins. One of these threads runs at a time. */
#ifndef SPBAGS_OPENMP_TURNS_H
#define SPBAGS_OPENMP_TURNS_H

#include "shadow/own.h"
#include "shadow/stacks.h"

extern struct turns {
    /* The size of each stack, and how many have a member now. */
    size_t stack_size;
    unsigned stacks_used;
    /* What the thread of each stack has of its own. */
    struct own_of_thread own[STACK_MOST];
} turns;

/* What a member does, whose stack memory ends here; and the stack whose turn comes then. */
struct turn {
    void (*run)(struct member *member, uintptr_t stack_end);
    struct stack *(*next)(const struct member *member);
};

/* The stack of a team's next member, with nothing on it but what the region's is, which stands for this node. */
struct stack *turns_next_stack(const struct turn *turn, struct member *member, uint32_t node);
/* The thread of another stack goes on, and this one waits for its turn. No signal comes to it meanwhile. */
void turns_switch_to(struct stack *next);

#endif
