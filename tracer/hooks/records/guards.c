#include "records/guards.h"

#include "base/memory.h"

struct guard guards[GUARD_MOST];
unsigned guards_held;
bool guards_noted;

struct guard_list *guards_lists;
struct guard *guards_listed;
uint32_t guards_lists_count = 1, guards_listed_count, guards_last_list;
static uint32_t *list_slots;

void guards_begin(void) {
    guards_lists = memory_reserve((GUARD_MOST_LISTS + 1) * sizeof *guards_lists);
    guards_listed = memory_reserve((GUARD_MOST_LISTED + 1) * sizeof *guards_listed);
    list_slots = memory_reserve(GUARD_LIST_SLOTS * sizeof *list_slots);
    guards_listed[GUARD_MOST_LISTED] = (struct guard){GUARD_UNKNOWN, "unknown"};
    guards_lists[GUARD_UNKNOWN_LIST] = (struct guard_list){GUARD_MOST_LISTED, 1};
    guards_noted = true;
}

void guards_enter_first(uintptr_t id, const char *name) {
    course_guard(id);
    if (!guards_noted || guards_held == GUARD_MOST)
        return;
    memmove(guards + 1, guards, guards_held++ * sizeof *guards);
    guards[0] = (struct guard){granules_name(id), name};
    blocks_leave_quick_sites();
}

static uint32_t add_list(void) {
    if (guards_lists_count == GUARD_MOST_LISTS || guards_listed_count + guards_held > GUARD_MOST_LISTED)
        return GUARD_UNKNOWN_LIST;
    memcpy(guards_listed + guards_listed_count, guards, guards_held * sizeof *guards);
    guards_lists[guards_lists_count] = (struct guard_list){guards_listed_count, guards_held};
    guards_listed_count += guards_held;
    return guards_lists_count++;
}

uint32_t guards_find_list(void) {
    uint64_t mixed = guards_held;
    for (unsigned at = 0; at < guards_held; at++)
        mixed = (mixed ^ guards[at].id) * 0x9e3779b97f4a7c15u;
    size_t slot = mixed >> 46;
    while (list_slots[slot] != 0 && !guards_is_list_held(list_slots[slot]))
        slot = (slot + 1) % GUARD_LIST_SLOTS;
    if (list_slots[slot] == 0) {
        uint32_t list = add_list();
        if (list == GUARD_UNKNOWN_LIST)
            return list;
        list_slots[slot] = list;
    }
    return guards_last_list = list_slots[slot];
}

/* A lock for readers too has two guards: its address, and that with this bit for a reader. What one reader holds
   excludes no other one. */
enum { READER = 1 };

static bool excludes(uintptr_t one, uintptr_t other) {
    return one == other ? one == GUARD_ATOMIC || !(one & READER)
                        : (one ^ other) == READER && (one & ~(uintptr_t)READER) != 0;
}

const struct guard *guards_find(uint32_t list, uintptr_t id) {
    const struct guard *guard = guards_listed + guards_lists[list].first, *end = guard + guards_lists[list].length;
    while (guard < end && guard->id != id)
        guard++;
    return guard < end ? guard : NULL;
}

const struct guard *guards_excluded(uint32_t list, uintptr_t id) {
    const struct guard *guard = guards_listed + guards_lists[list].first, *end = guard + guards_lists[list].length;
    while (guard < end && !excludes(guard->id, id))
        guard++;
    return guard < end ? guard : NULL;
}

const struct guard *guards_common(uint32_t list, uint32_t other) {
    if (list != 0 && other != 0 && (list == GUARD_UNKNOWN_LIST || other == GUARD_UNKNOWN_LIST))
        return &guards_listed[GUARD_MOST_LISTED];
    const struct guard *guard = guards_listed + guards_lists[list].first, *end = guard + guards_lists[list].length;
    while (guard < end && !guards_excluded(other, guard->id))
        guard++;
    return guard < end ? guard : NULL;
}

/* ---- Who has entered them ---- */

uint64_t guards_filter[GUARD_FILTER / 64];
static struct guard_procedures procedures;

/* In the order of the run. Beyond so many no more are noted. */
enum { MOST_ENTRIES = 1 << 20 };
struct held_entry {
    uintptr_t guard;
    uint32_t procedure;
};
static struct held_entry *entries;
static uint32_t entries_count;

void guards_begin_entries(struct guard_procedures given) { procedures = given; }

uint32_t guards_want_entries(uint32_t list) {
    const struct guard *guard = guards_listed + guards_lists[list].first, *end = guard + guards_lists[list].length;
    for (; guard < end; guard++)
        if (guard->id > GUARD_UNKNOWN)
            guards_filter[guards_filter_bit(guard->id) / 64] |= (uint64_t)1 << guards_filter_bit(guard->id) % 64;
    return entries_count;
}

void guards_note_entry(uintptr_t id) {
    if (!entries)
        entries = memory_reserve(MOST_ENTRIES * sizeof *entries);
    if (entries_count < MOST_ENTRIES)
        entries[entries_count++] = (struct held_entry){id, procedures.now()};
}

const struct guard *guards_entered_since(uint32_t noted, uint32_t list, uint32_t node) {
    /* So a search among many is short. */
    enum { MOST_SEARCHED = 1 << 12 };
    uint32_t first = entries_count - noted > MOST_SEARCHED ? entries_count - MOST_SEARCHED : noted;
    for (uint32_t at = entries_count; at > first; at--) {
        const struct guard *guard = guards_excluded(list, entries[at - 1].guard);
        if (guard && procedures.has(node, entries[at - 1].procedure))
            return guard;
    }
    return NULL;
}
