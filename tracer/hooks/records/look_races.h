/* The races of the first run, by locations and by places, and what a run that looks has noted of each. */
#ifndef SPBAGS_RECORDS_LOOK_RACES_H
#define SPBAGS_RECORDS_LOOK_RACES_H

#include "records/guards.h"
#include "records/look_stacks.h"

/* An access of a race: its place and kind as the report says them, and what was noted there. */
struct look_access {
    uint64_t place;
    /* The part of a strand that has the last access that may be this one; of that part it is the first. */
    uint64_t part;
    uintptr_t code;
    uint32_t node, guards;
    bool writes, is_narrow;
};

struct look_race {
    uint64_t location;
    struct look_access first, second;
    /* The pair that it was added to; its address; and the function whose frame holds that, or the one that is handed
       data there. */
    uint32_t pair;
    uintptr_t address;
    struct look_owner frame, data;
    /* The bytes that those accesses reach that don't fill the unit; and whether they differ in these, or another life
       began meanwhile. */
    uint8_t part;
    bool has_parts;
    /* Whether it is of a reducer's view. */
    bool is_view;
    /* How many entries of guards were noted before the first access; and the one of its guards that the second one's
       procedure has entered since, if it has. */
    uint32_t noted;
    const struct guard *held_before;
    /* The function in which both accesses meet; where it waits next, the code address; and whether it ends there. */
    uint32_t meeting;
    uintptr_t waits;
    bool ends;
    /* The next race that waits for the same function, and the next one that may be pending. */
    struct look_race *next, *next_pending;
};
extern struct look_race *look_races;
extern size_t look_races_count;

/* Their accesses by place. */
struct look_stop {
    uint64_t place;
    struct look_race *race;
};
extern struct look_stop *look_races_stops;
extern size_t look_races_stops_count;

void look_races_read(int file);
/* The race of this location, or null. */
struct look_race *look_races_of(uint64_t location);
/* Whether a race is of a unit's location up to that of another one, or of a byte of them, and not of the stack. */
bool look_races_are_in(uint64_t first, uint64_t last);

/* ---- The bytes of a race ---- */

static inline bool look_races_is_narrow(const struct look_race *race) {
    return race->first.is_narrow || race->second.is_narrow;
}

/* Those that each access of the unit reaches, where some don't fill it: no neighbours race there. Or none. */
static inline unsigned look_races_part_of(const struct look_race *race) {
    return look_races_is_narrow(race) && !race->has_parts ? race->part : 0;
}

static inline uintptr_t look_races_address_of(const struct look_race *race) {
    const unsigned part = look_races_part_of(race);
    return race->address + (part != 0 ? (unsigned)__builtin_ctz(part) : 0);
}

#endif
