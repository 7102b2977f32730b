#include "records/byte_granular.h"

#include "base/memory.h"
#include "records/strands.h"
#include "shadow/marks.h"

bool byte_granular_any;

struct byte_granular {
    /* The granule's location, or 0. */
    uint64_t location;
    /* Of the granule, as if it weren't byte-granular, and of its bytes. */
    uint64_t mark;
    uint32_t marks[GRANULE_MOST_BYTES];
    /* Of each byte: what stands for the granule's location, where another variable has the byte now; or 0. */
    uint64_t fresh[GRANULE_MOST_BYTES];
};
static struct byte_granular *table;
static size_t table_slots;
static uint64_t last_fresh = ((uint64_t)1 << 56) - 1;

/* The granule with this location, or the free slot where it belongs. */
static struct byte_granular *slot_of_granule(uint64_t location) {
    size_t slot = (location * 0x9e3779b97f4a7c15u >> 20) & (table_slots - 1);
    while (table[slot].location != location && table[slot].location != 0)
        slot = (slot + 1) & (table_slots - 1);
    return &table[slot];
}

bool byte_granular_has(uint64_t location) {
    return byte_granular_any && slot_of_granule(location)->location == location;
}

static uint64_t location_of_byte(const struct byte_granular *granule, size_t byte) {
    uint64_t around = granule->fresh[byte] != 0 ? granule->fresh[byte] : granule->location;
    return granules_first_byte + GRANULE_MOST_BYTES * around + byte;
}

/* Granules of blocks have no repeats in one part of a strand. */
static void follow_granule(struct byte_granular *granule, bool writes) {
    const uint64_t mark = strands_gather(granule->location) ? 2 * course_part_now() : marks_read;
    if (granule->mark >= mark + writes)
        return;
    granule->mark = mark + writes;
    course_granule(writes, granule->location);
}

bool byte_granular_access(bool writes, const struct block_touched *in, uint64_t location, uintptr_t address,
                          uintptr_t code, byte_granular_put *put) {
    struct byte_granular *granule = slot_of_granule(location);
    if (granule->location == 0)
        return false;
    if (in) {
        strands_list(in);
        in->block->is_byte_granular = true;
    } else {
        *marks_at(address) = MARK_TOUCHED;
    }
    follow_granule(granule, writes);
    unsigned left_out = granules_bytes_left_out(address);
    for (size_t byte = 0; byte <= granules_mask; byte++)
        if ((left_out >> byte & 1) == 0 && !marks_is_repeat(writes, granule->marks[byte])) {
            granule->marks[byte] = marks_new(writes);
            put(writes, location_of_byte(granule, byte), address + byte, code);
        }
    return true;
}

void byte_granular_clear(uintptr_t address, uintptr_t end) {
    for (; address - stacks_first < stacks_size && address < end; address++) {
        uintptr_t at = address - stacks_first;
        struct byte_granular *granule = slot_of_granule(2 * *marks_number(marks_at(address)) + 1);
        if (granule->location != 0 && *marks_at(address) != MARK_UNTOUCHED) {
            granule->marks[at & granules_mask] = MARK_UNTOUCHED;
            granule->fresh[at & granules_mask] = last_fresh += 2;
        }
    }
}

void byte_granular_forget(void) {
    for (size_t slot = 0; slot < table_slots; slot++) {
        table[slot].mark = 0;
        memset(table[slot].marks, MARK_UNTOUCHED, sizeof table[slot].marks);
    }
}

void byte_granular_begin(int file) {
    size_t count;
    const uint64_t *locations = memory_read_numbers(SETTING_DIVIDE, file, &count);
    for (table_slots = 2; table_slots < 2 * count; table_slots *= 2)
        continue;
    table = memory_reserve(table_slots * sizeof *table);
    for (size_t at = 0; at < count; at++)
        slot_of_granule(locations[at])->location = locations[at];
    byte_granular_any = count > 0;
}
