#include "shadow/marks.h"

#include "shadow/blocks.h"
#include "base/callbacks.h"
#include "base/memory.h"
#include "base/tell.h"

uint32_t marks_read = MARK_FIRST_READ, marks_again;
uintptr_t marks_of_stack, marks_numbers;

/* The usual granule has as many bytes as its mark. */
static void name_marks(size_t region) {
    intptr_t behind = (intptr_t)marks_at(region << BLOCK_REGION_BITS) - (intptr_t)(region << BLOCK_REGION_BITS);
    if (behind >= 0)
        tell_fault("the system has no memory for the hooks below the stack");
    blocks_regions[region] = behind;
}

void marks_begin(uintptr_t first, uintptr_t end) {
    size_t first_region = blocks_region_of(first - (MARK_CLEARED << granules_shift)),
           count = blocks_region_of(end) - first_region + 1;
    uintptr_t marks = (uintptr_t)memory_reserve((count << BLOCK_REGION_BITS >> granules_shift) * sizeof(uint32_t));
    marks_of_stack = marks - (first_region << BLOCK_REGION_BITS >> granules_shift) * sizeof(uint32_t);
    blocks_begin_stack(first_region, count);
    for (size_t region = first_region; region < first_region + count; region++)
        name_marks(region);
    stacks_lowest = end & ~granules_mask;
    const uintptr_t numbers = (uintptr_t)memory_reserve((stacks_size >> granules_shift) * sizeof(uint64_t));
    marks_numbers = numbers - 2 * (uintptr_t)marks_at(stacks_first);
}

/* A granule of the stack keeps its number. */
static void forget_stack(const struct stack *stack) {
    uintptr_t from = stack == stacks_running ? stacks_lowest : stack->lowest;
    for (uint32_t *mark = marks_at(from); mark < marks_at(stack->end); mark++)
        if (*mark != MARK_UNTOUCHED && *mark != marks_own)
            *mark = MARK_TOUCHED;
}

/* What was touched stays touched, since that says that a granule has its number. */
void marks_begin_again(void) {
    for (unsigned number = 0; number < stacks_count; number++)
        forget_stack(&stacks[number]);
    callbacks.forget_strands();
    marks_read = MARK_FIRST_READ - 2;
    marks_again++;
}
