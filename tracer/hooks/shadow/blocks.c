#include "shadow/blocks.h"

#include "base/memory.h"
#include "base/tell.h"

intptr_t blocks_regions[BLOCK_REGIONS];
uint64_t blocks_period;
/* What the accesses remember. A program may have none that do. */
extern char __start_spbags_sites[] __attribute__((weak)), __stop_spbags_sites[] __attribute__((weak));

void blocks_begin_periods_again(void) {
    if (__start_spbags_sites)
        memset(__start_spbags_sites, 0, (size_t)(__stop_spbags_sites - __start_spbags_sites));
}

/* The regions of the stack, whose other memory has bytes too. */
static size_t stack_region, stack_regions_count;
static intptr_t *rows_beside_stack;

void blocks_begin_stack(size_t region, size_t count) {
    stack_region = region;
    stack_regions_count = count;
    rows_beside_stack = memory_reserve(count * sizeof *rows_beside_stack);
}

static intptr_t make_row(size_t region) {
    size_t size = blocks_region_bytes(), blocks = size / BLOCK_GRANULES;
    intptr_t row = (intptr_t)memory_reserve(size + blocks * sizeof(struct block));
    row -= (intptr_t)(region << BLOCK_REGION_BITS >> granules_shift);
    if (row <= 0 && granules_shift == GRANULE_USUAL_SHIFT)
        tell_fault("the system has no memory for the hooks at high addresses");
    return row;
}

intptr_t blocks_other_row(size_t region) {
    bool is_of_stack = region - stack_region < stack_regions_count;
    intptr_t *row = is_of_stack ? &rows_beside_stack[region - stack_region] : &blocks_regions[region];
    if (*row == 0)
        *row = make_row(region);
    return *row;
}

struct block_touched blocks_dead(size_t span, size_t number) {
    intptr_t row = blocks_row_of(granules_span_first(span));
    size_t at = (span % BLOCK_REGION_SPANS * BLOCK_DEAD_BLOCKS + number / BLOCK_GRANULES) * BLOCK_GRANULES;
    uint8_t *done = (uint8_t *)row + ((granules_span_first(span) & ~blocks_region_mask) >> granules_shift) +
                    blocks_region_granules() + at;
    uint64_t location =
        2 * ((granules_name_of_dead(span) >> granules_shift) + (number & ~(size_t)(BLOCK_GRANULES - 1)));
    return (struct block_touched){blocks_of_row(row, granules_span_first(span), done), done, location, 0};
}
