#include "program/locations.h"

#include "records/byte_granular.h"
#include "shadow/own.h"
#include "shadow/frames.h"
#include "base/callbacks.h"
#include "base/openmp.h"

/* Accesses that don't fill their granules, and the bits of their addresses and sizes. */
static uint64_t partial_accesses;
static uintptr_t partial_bits;

struct location_ended locations_ended[LOCATION_ENDED_GROUPS];

static void begin_group(struct location_ended *ended, uint64_t group) {
    if (ended->members != 0)
        recent_end_numbers(2 * (ended->group << STEPS_GROUP_NUMBERS | ended->members) + 1);
    *ended = (struct location_ended){.group = group};
}

static inline void end_number(uint64_t number) {
    struct location_ended *ended = locations_place_of_ended(number);
    if (number / STEPS_GROUP_NUMBERS != ended->group)
        begin_group(ended, number / STEPS_GROUP_NUMBERS);
    ended->members |= 1u << number % STEPS_GROUP_NUMBERS;
}

void locations_end_numbers(const uint32_t *marks, unsigned granules) {
    for (; granules != 0; granules &= granules - 1) {
        const uint64_t number = *marks_number(marks + __builtin_ctz(granules));
        const bool dies = steps_dies(number);
        if (DOING_HAS_DETECTOR && !dies)
            end_number(number);
    }
}

static void clear_mark(uint32_t *mark) {
    if (locations_count_ends() && *mark != MARK_UNTOUCHED)
        locations_end_at_hand(mark, 1);
    *mark = MARK_UNTOUCHED;
}

/* That of a granule that has been accessed. */
static uint64_t location_of(uintptr_t granule) {
    return stacks_have(granule) ? 2 * *marks_number(marks_at(granule)) + 1 : blocks_location(granule);
}

static void clear_parts(uintptr_t address, uintptr_t end) {
    if (byte_granular_any)
        byte_granular_clear(address, end);
    if (doing.looking) {
        look_note_part(location_of(address & ~granules_mask), 0);
        look_note_part(location_of(end & ~granules_mask), 0);
    }
}

/* A granule that is partly another variable's keeps its number. */
void locations_clear(uintptr_t address, size_t size) {
    uintptr_t first = (address + granules_mask) & ~granules_mask, end = (address + size) & ~granules_mask;
    if (((address | size) & granules_mask) != 0)
        clear_parts(address, address + size);
    if (end - stacks_first <= stacks_size)
        for (; first < end; first += granules_mask + 1)
            clear_mark(marks_at(first));
    if (steps_any_dies())
        recent_leave_out_dying(0);
}

void locations_note_stack(bool writes, uintptr_t address, uint32_t *mark, unsigned shift, uintptr_t code) {
    bool marks_write = writes;
    if (!stacks_is_of_running(address) && openmp_note_stack(writes, address, mark, code))
        return;
    if (__builtin_expect(views_any, 0)) {
        enum view_update update = views_update_of(address, shift, marks_is_repeat(false, *mark));
        if (update != VIEW_NO_UPDATE && marks_is_repeat(false, *mark))
            return;
        writes = writes && update == VIEW_NO_UPDATE;
        marks_write = update == VIEW_NO_UPDATE ? writes : update == VIEW_UPDATES_GRANULE;
    }
    uint64_t location = locations_of_stack(address, mark);
    *mark = marks_new(marks_write);
    records_put_access(writes, location, address, code);
}

void locations_note_granule(bool writes, const struct block_touched *in, unsigned granule, uintptr_t address,
                            uintptr_t code) {
    const uint64_t bit = (uint64_t)1 << granule;
    if ((in->block->dead & bit) != 0) {
        callbacks.use_dead(writes, address, code);
        return;
    }
    if (in->block->has_own)
        openmp_note_other(address, code);
    if (views_any) {
        bool repeats = blocks_was_done(false, in->done[granule]);
        enum view_update update = views_update_of(address, granules_shift, repeats);
        if (update != VIEW_NO_UPDATE && repeats)
            return;
        writes = writes && update == VIEW_NO_UPDATE;
    }
    records_put_in_block(writes, in, granule, address, code);
}

/* A block in which something may have been accessed is noted quickly from now on. */
static void note_quickly(const struct block_touched *in) { blocks_set(in->done, ~in->block->dead, BLOCK_QUICK); }

/* Granules of a block, of which the first one begins at this address. */
__attribute__((noinline)) static void note_granules(bool writes, uintptr_t address, struct block_part part,
                                                    uintptr_t code) {
    uint64_t granules = blocks_new(writes, part.in.done, part.granules);
    const struct block *block = part.in.block;
    if (granules != 0 && strands_noted_quickly && (granules & block->dead) == 0 && !block->has_own &&
        !locations_is_looked_at(&part.in) && !(doing.keeping_places && granules_partial.end != 0)) {
        records_note_in_block(writes, &part.in, granules, code);
        if (!doing.keeping_places)
            note_quickly(&part.in);
        return;
    }
    for (; granules != 0; granules &= granules - 1) {
        unsigned granule = (unsigned)__builtin_ctzll(granules);
        locations_note_granule(writes, &part.in, granule,
                               (address & ~(blocks_size() - 1)) + ((uintptr_t)granule << granules_shift), code);
    }
}

/* Those that this memory of the stack touches; what isn't of the stack any more. */
static uintptr_t touch_stack(bool writes, uintptr_t granule, uintptr_t end, uintptr_t code) {
    for (uint32_t *mark = marks_at(granule); granule < end && stacks_have(granule);
         granule += granules_mask + 1, mark++)
        if (!marks_is_repeat(writes, *mark))
            locations_note_stack_granule(writes, granule, mark, granules_shift, code);
    return granule;
}

uintptr_t locations_touch_block(bool writes, uintptr_t granule, uintptr_t end, uintptr_t code) {
    struct block_part part = blocks_part_from(granule, end);
    note_granules(writes, granule, part, code);
    return part.end;
}

/* The bytes that the access at hand reaches of a granule, if it doesn't fill it. */
static void note_part(uintptr_t granule) {
    const unsigned left_out = granules_bytes_left_out(granule), all = (1u << (granules_mask + 1)) - 1;
    if (left_out == 0)
        return;
    if (doing.looking)
        look_note_part(location_of(granule), all & ~left_out);
    if (stacks_have(granule) && !stacks_is_of_running(granule))
        openmp_note_part(granule);
}

/* No memory of the program reaches further than its addresses do. What a function doesn't touch lies nowhere. */
void locations_touch(bool writes, uintptr_t address, size_t size, uintptr_t code) {
    const uintptr_t most = (uintptr_t)1 << 47;
    if (size == 0 || address == 0 || address >= most || size > most - address)
        return;
    if (((address | size) & granules_mask) != 0) {
        partial_accesses++;
        partial_bits |= address | size;
        if (!own_has(address))
            course_partial(writes, address, size);
        granules_partial.first = address;
        granules_partial.end = address + size;
    }
    if (__builtin_expect(openmp_watches, 0))
        openmp_watch_access(writes, address, size, code);
    uintptr_t granule = address & ~granules_mask;
    while (granule < address + size)
        granule = (stacks_have(granule) ? touch_stack : locations_touch_block)(writes, granule, address + size, code);
    if ((doing.looking || openmp_is_here) && granules_partial.end != 0) {
        note_part(address & ~granules_mask);
        note_part((address + size - 1) & ~granules_mask);
    }
    granules_partial.end = 0;
}

void locations_tell_partial(void) {
    if (partial_accesses == 0)
        return;
    unsigned granule = 1u << __builtin_ctzl(partial_bits);
    tell_record(
        tell_numbered("unit", granule).text,
        "%llu access%s less than a unit of %u bytes, so races may be only of neighbours: SPBAGS_UNIT=%u separates "
        "them",
        (unsigned long long)partial_accesses, partial_accesses == 1 ? " touches" : "es touch", 1u << granules_shift,
        granule);
}
