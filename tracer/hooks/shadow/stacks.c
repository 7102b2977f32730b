#include "shadow/stacks.h"

struct stack stacks[STACK_MOST];
unsigned stacks_count = 1;
struct stack *stacks_running = stacks;
uintptr_t stacks_running_first, stacks_running_size, stacks_above_first, stacks_above_size, stacks_lowest, stacks_first,
    stacks_size;
void *stacks_running_thread;
_Alignas(16) char stacks_for_signals[1 << 18];

void stacks_lower_other(uintptr_t address) {
    struct stack *stack = stacks_find(address);
    if (stack == stacks_running)
        stacks_lower_running(address);
    else if (stack && address < stack->lowest)
        stack->lowest = address;
}
