#include "records/look_pairs.h"

#include "base/memory.h"
#include "records/look_heap.h"

enum { SLOTS = 4 * LOOK_PAIRS_MOST };
struct look_pair *look_pairs;
uint32_t look_pairs_last;
uint64_t look_pairs_left_out;
static uint32_t *slots;

void look_pairs_begin(void) {
    look_pairs = memory_reserve(LOOK_PAIRS_MOST * sizeof *look_pairs);
    slots = memory_reserve(SLOTS * sizeof *slots);
}

static bool is_pair(const struct look_pair *pair, const struct look_race *race, const struct guard *guard,
                    uint64_t site) {
    const struct look_race *other = pair->race;
    return pair->site == site && race->first.code == other->first.code && race->second.code == other->second.code &&
           race->first.writes == other->first.writes && race->second.writes == other->second.writes &&
           (guard ? guard->id : 0) == (pair->guard ? pair->guard->id : 0);
}

static uint32_t *slot_of(const struct look_race *race, const struct guard *guard, uint64_t site) {
    uint64_t mixed = (race->first.code * 31 + race->second.code + site) * 0x9e3779b97f4a7c15u;
    size_t at = mixed >> 46;
    while (slots[at] != 0 && !is_pair(&look_pairs[slots[at]], race, guard, site))
        at = (at + 1) % SLOTS;
    return &slots[at];
}

/* Whether another byte of the race's unit was added to this pair. Those of one unit stand together. */
static bool is_counted(const struct look_race *race, uint32_t pair) {
    const struct look_race *at = race;
    while (at > look_races && granules_of(at[-1].location) == granules_of(race->location))
        at--;
    for (; at < look_races + look_races_count && granules_of(at->location) == granules_of(race->location); at++)
        if (at->pair == pair)
            return true;
    return false;
}

void look_pairs_wait(struct look_race *race) {
    race->next = look_stacks_nodes[race->meeting].race;
    look_stacks_nodes[race->meeting].race = race;
}

/* Of a function's races only those of this strand may stand before one that is pending. */
void look_pairs_leave(const struct look_race *race) {
    struct look_race **at = &look_stacks_nodes[race->meeting].race;
    while (*at && *at != race)
        at = &(*at)->next;
    if (*at)
        *at = race->next;
}

void look_pairs_add(struct look_race *race) {
    const struct guard *guard = guards_common(race->first.guards, race->second.guards);
    const struct look_allocation *allocation = look_heap_of(race->address);
    uint64_t site = allocation ? allocation->site : 0;
    uint32_t *slot = slot_of(race, guard, site);
    if (*slot == 0 && look_pairs_last + 1 == LOOK_PAIRS_MOST) {
        look_pairs_left_out++;
        return;
    }
    if (*slot == 0) {
        *slot = ++look_pairs_last;
        look_pairs[look_pairs_last] = (struct look_pair){.race = race, .guard = guard, .site = site};
        if (race->waits == 0)
            look_pairs_wait(race);
    }
    look_pairs[*slot].count += !is_counted(race, *slot);
    look_pairs[*slot].is_narrow |= look_races_is_narrow(race);
    race->pair = *slot;
}
