/* What the program holds now: locks, critical regions, and of an atomic access itself. It is noted beside an access by
   a run that looks and by one that keeps its places: two accesses that hold one same guard aren't a data race, though
   either may come first. */
#ifndef SPBAGS_RECORDS_GUARDS_H
#define SPBAGS_RECORDS_GUARDS_H

#include "records/course.h"
#include "shadow/granules.h"

enum { GUARD_MOST = 16 };

/* Every atomic access holds the first of these, and the second is what can't be told. All others are named by
   addresses. */
enum { GUARD_ATOMIC = 1, GUARD_UNKNOWN = 2 };

struct guard {
    uintptr_t id;
    const char *name;
};

/* Those that are held, the newest last, if the run notes them. */
extern struct guard guards[GUARD_MOST];
extern unsigned guards_held;
extern bool guards_noted;

/* Reserves what the run notes them in. */
void guards_begin(void);

/* ---- Who has entered them ---- */

/* In a later run of spbags-run: what a procedure entered after the first access of a race that held it. A second access
   that this procedure makes then comes after the first one in this run, by the lock. That run knows the procedure that
   runs, and whether a node is of a procedure. */
struct guard_procedures {
    uint32_t (*now)(void);
    bool (*has)(uint32_t node, uint32_t procedure);
};
void guards_begin_entries(struct guard_procedures procedures);

/* Most guards that no first access held have no bit here. */
enum { GUARD_FILTER = 1 << 12 };
extern uint64_t guards_filter[GUARD_FILTER / 64];

static inline size_t guards_filter_bit(uintptr_t id) { return (id >> 1) * 0x9e3779b97f4a7c15u >> 52; }

static inline bool guards_is_wanted(uintptr_t id) {
    return (guards_filter[guards_filter_bit(id) / 64] >> guards_filter_bit(id) % 64 & 1) != 0;
}

/* From here on each entry of these guards, but for atomic accesses, is noted. How many were noted before. */
uint32_t guards_want_entries(uint32_t list);
/* The running procedure enters this guard. */
void guards_note_entry(uintptr_t id);
/* The newest guard of a list that the procedures of this node have entered since so many were noted, or null. */
const struct guard *guards_entered_since(uint32_t noted, uint32_t list, uint32_t node);

/* ---- Entering and leaving ---- */

/* The guard with this number is held from here on; one that is entered twice is left twice. The name stays where it is;
   where it ends with a space the report adds the name of the variable whose address the number is. Beyond so many that
   are held at once no more are noted. */
static inline void guards_enter(uintptr_t id, const char *name) {
    course_guard(id);
    if (!guards_noted)
        return;
    id = granules_name(id);
    if (guards_is_wanted(id))
        guards_note_entry(id);
    if (guards_held < GUARD_MOST)
        guards[guards_held++] = (struct guard){id, name};
    blocks_leave_quick_sites();
}

/* Before all others, so that it is the one that is told where two accesses hold several. */
void guards_enter_first(uintptr_t id, const char *name);

/* The last entry of it is left; of what isn't held nothing is. */
static inline void guards_leave(uintptr_t id) {
    course_guard(~id);
    unsigned at = guards_held;
    if (at > 0)
        id = granules_name(id);
    while (at > 0 && guards[at - 1].id != id)
        at--;
    if (at == 0)
        return;
    memmove(guards + at - 1, guards + at, (guards_held - at) * sizeof *guards);
    guards_held--;
}

/* ---- Lists ---- */

/* What was held at once, each list once. The list 0 is empty. Where there are too many, what is held can't be told. */
enum {
    GUARD_MOST_LISTS = 1 << 17,
    GUARD_LIST_SLOTS = 2 * GUARD_MOST_LISTS,
    GUARD_UNKNOWN_LIST = GUARD_MOST_LISTS,
    GUARD_MOST_LISTED = 1 << 21
};
struct guard_list {
    uint32_t first, length;
};
extern struct guard_list *guards_lists;
extern struct guard *guards_listed;
extern uint32_t guards_lists_count, guards_listed_count, guards_last_list;

static inline bool guards_is_list_held(uint32_t list) {
    return guards_lists[list].length == guards_held &&
           memcmp(guards_listed + guards_lists[list].first, guards, guards_held * sizeof *guards) == 0;
}

uint32_t guards_find_list(void);

/* The list of what is held now. */
static inline uint32_t guards_now(void) {
    if (__builtin_expect(guards_held == 0, 1))
        return 0;
    return guards_is_list_held(guards_last_list) ? guards_last_list : guards_find_list();
}

/* This guard in a list, or null. */
const struct guard *guards_find(uint32_t list, uintptr_t id);
/* The first of a list that this guard excludes, or null. */
const struct guard *guards_excluded(uint32_t list, uintptr_t id);
/* What both hold: null where there is none, and the unknown one where that can't be told. */
const struct guard *guards_common(uint32_t list, uint32_t other);

#endif
