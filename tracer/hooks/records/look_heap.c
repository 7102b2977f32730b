#include "records/look_heap.h"

#include "base/memory.h"
#include "records/look_races.h"

/* By their addresses. */
static struct look_allocation *allocations;
static size_t allocations_count;

void look_heap_begin(void) { allocations = memory_reserve((look_races_count + 1) * sizeof *allocations); }

static uint64_t site_of(uintptr_t code, uint32_t node) {
    enum { MOST_CALLS = 16 };
    uint64_t site = code;
    for (unsigned calls = 0; node != 0 && calls < MOST_CALLS; node = look_stacks_nodes[node].parent, calls++)
        site = (site ^ look_stacks_nodes[node].code) * 0x9e3779b97f4a7c15u;
    return site | 1;
}

/* Of those with a race alone. A function that longjmp left is no caller. */
void look_heap_note(uintptr_t address, size_t size, uint64_t dead, uintptr_t stack_pointer, uintptr_t code) {
    uint64_t first = 2 * (granules_name(address) >> granules_shift);
    address = granules_name(address);
    if (size == 0 ||
        !(look_races_are_in(first, 2 * ((address + size - 1) >> granules_shift)) || look_races_are_in(dead, dead)))
        return;
    size_t frame = look_stacks_top(), at = allocations_count++;
    while (frames_all[frame].end <= stack_pointer)
        frame--;
    for (; at > 0 && allocations[at - 1].address > address; at--)
        allocations[at] = allocations[at - 1];
    struct look_allocation allocation = {
        .address = address, .size = size, .code = look_stacks_code_in(frame, code), .node = look_stacks_node_of(frame)};
    allocation.site = site_of(allocation.code, allocation.node);
    allocations[at] = allocation;
}

const struct look_allocation *look_heap_of(uintptr_t address) {
    size_t first = 0, end = allocations_count;
    while (first < end) {
        size_t middle = first + (end - first) / 2;
        if (allocations[middle].address <= address)
            first = middle + 1;
        else
            end = middle;
    }
    return first > 0 && address - allocations[first - 1].address < allocations[first - 1].size ? &allocations[first - 1]
                                                                                               : NULL;
}
