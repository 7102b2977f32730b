#include "records/look_text.h"

#include "base/memory.h"
#include "base/output.h"
#include "records/course.h"
#include "records/look_heap.h"
#include "records/look_pairs.h"
#include "shadow/own.h"

/* A row of races with stacks of its own, of so many units. */
struct row {
    const struct look_race *race;
    size_t units;
    uint32_t pair;
    uint32_t before;
};
enum { MOST_ROWS = 64 };
static struct row *rows;
static uint32_t last_row, pairs_put;
/* Where the program's own variables that are local to a thread begin. */
static uintptr_t thread_first;

void look_text_begin(void) {
    rows = memory_reserve(LOOK_PAIRS_MOST * sizeof *rows);
    thread_first = own_first_of_thread();
}

__attribute__((format(__printf__, 1, 2))) static void put(const char *format, ...) {
    va_list rest;
    va_start(rest, format);
    int length = vsnprintf(output_room(&output_of_run), OUTPUT_LONGEST, format, rest);
    va_end(rest);
    output_of_run.used += (size_t)(length < OUTPUT_LONGEST ? length : OUTPUT_LONGEST - 1);
}

static void put_text(const char *text) {
    for (; *text != '\0'; text++)
        put("%c", *text);
}

/* From the innermost function to the outermost: where it is, and `spawn` where it spawned what comes before. */
static void put_stack(const char *name, uintptr_t code, uint32_t node) {
    put("%s %lx", name, code);
    for (; node != 0; node = look_stacks_nodes[node].parent) {
        if (look_stacks_nodes[node].is_shown)
            put(" %lx", look_stacks_nodes[node].code);
        if (look_stacks_nodes[node].is_child && !look_stacks_nodes[node].part.is_hidden)
            put(" spawn");
    }
    put("\n");
}

/* The child that holds this access, of those of the function where both meet. */
static void put_child(uint32_t node, uint32_t meets) {
    while (node > meets && look_stacks_nodes[node].parent != meets)
        node = look_stacks_nodes[node].parent;
    const struct frame_part *part = &look_stacks_nodes[node].part;
    if (node <= meets || !look_stacks_nodes[node].is_child || !part->of)
        return;
    put("child %s", part->of);
    put(" %lx", look_stacks_nodes[node].code);
    put(" %" PRId64, (int64_t)part->first);
    put(" %" PRId64 "\n", (int64_t)part->last);
}

static void put_side(const char *name, const struct look_access *access, uint32_t meets) {
    put("%s %s", name, access->writes ? "write" : "read");
    put(" %d", guards_find(access->guards, GUARD_ATOMIC) != NULL);
    put_stack("", access->code, access->node);
    put_child(access->node, meets);
}

static void put_owner(struct look_owner owner, unsigned byte) {
    put(" %lx", owner.code);
    put(" %" PRIdPTR, owner.offset + (intptr_t)byte);
}

static bool owner_goes_on(struct look_owner before, struct look_owner owner) {
    return owner.code == before.code &&
           (owner.code == 0 || owner.offset == before.offset + (intptr_t)granules_mask + 1);
}

static bool has_stacks_of(const struct look_race *race, const struct look_race *other) {
    return look_stacks_are_alike(race->first.node, other->first.node) &&
           look_stacks_are_alike(race->second.node, other->second.node);
}

/* Whether this race is of the unit behind that of the one before, in one pair. */
static bool goes_on(const struct look_race *before, const struct look_race *race) {
    return !granules_is_byte(race->location) && look_races_part_of(before) == 0 && look_races_part_of(race) == 0 &&
           race->pair == before->pair && race != look_pairs[race->pair].race &&
           race->address == before->address + granules_mask + 1 && owner_goes_on(before->frame, race->frame) &&
           owner_goes_on(before->data, race->data) && has_stacks_of(before, race);
}

static void put_guard(const char *name, const struct guard *guard) {
    if (!guard)
        return;
    put("%s %lx ", name, guard->id);
    put_text(guard->name);
    put("\n");
}

/* A pair with the stacks of one of its races. */
static void put_pair(const struct look_pair *pair, const struct look_race *race) {
    const struct look_allocation *allocation = look_heap_of(race->address);
    uint32_t meets = look_stacks_meeting(race->first.node, race->second.node);
    put("pair %" PRIu64, pair->count);
    put(" %" PRIu64, granules_of(race->location));
    put(" %lx", look_races_address_of(race));
    put(" %u", look_stacks_nodes[meets].functions);
    put(" %d\n", pair->is_narrow);
    put_side("first", &race->first, meets);
    put_side("second", &race->second, meets);
    if (race->is_view)
        put("reducer\n");
    if (pair->race->waits != 0 && meets == pair->race->meeting)
        put("%s %lx\n", pair->race->ends ? "ends" : "waits", pair->race->waits);
    put_guard("guard", pair->guard);
    if (!pair->guard)
        put_guard("before", race->held_before);
    if (allocation) {
        put("block %lx", allocation->address);
        put(" %zu", allocation->size);
        put_stack("", allocation->code, allocation->node);
    }
}

static bool is_same_owner(struct look_owner one, struct look_owner other) {
    return one.code == other.code && one.offset == other.offset;
}

/* Whether these are the same locals, of maybe another call of their function. */
static bool are_same_locals(const struct look_race *race, size_t units, const struct row *other) {
    return (race->frame.code != 0 || race->data.code != 0) && units == other->units &&
           is_same_owner(race->frame, other->race->frame) && is_same_owner(race->data, other->race->data);
}

/* The number of the pair for a row of races. If they have other stacks than the pair's first race, as races of another
   variable may, that is one of their own. A pair has few such: then it is 0. */
static uint32_t pair_for(const struct look_race *race, size_t units) {
    struct look_pair *pair = &look_pairs[race->pair];
    if (has_stacks_of(race, pair->race))
        return race->pair;
    for (uint32_t at = pair->newest; at != 0; at = rows[at].before)
        if (are_same_locals(race, units, &rows[at]))
            return rows[at].pair;
    if (pair->more == MOST_ROWS || last_row + 1 == LOOK_PAIRS_MOST)
        return 0;
    pair->more++;
    put_pair(pair, race);
    rows[++last_row] = (struct row){race, units, ++pairs_put, pair->newest};
    pair->newest = last_row;
    return pairs_put;
}

/* Which bytes of a block race: of blocks with the same ones that follow one another the first says it. */
static void put_in_block(const struct look_race *race, size_t units) {
    struct look_pair *pair = &look_pairs[race->pair];
    const struct look_allocation *allocation = look_heap_of(race->address);
    size_t unit = granules_mask + 1;
    uintptr_t begin = allocation ? look_races_address_of(race) - allocation->address : 0;
    size_t length = granules_is_byte(race->location) ? 1
                    : look_races_part_of(race) != 0  ? course_count(look_races_part_of(race))
                                                     : units * unit - race->address % unit;
    if (!allocation || (begin == pair->begin && length == pair->length))
        return;
    pair->begin = begin;
    pair->length = length;
    put("held %u", race->pair);
    put(" %" PRIuPTR, begin);
    put(" %zu\n", length);
}

static void put_row(const struct look_race *race, uint32_t pair, uint64_t location, size_t units, unsigned byte) {
    put(pair != 0 ? "at %u" : "other %u", pair != 0 ? pair : race->pair);
    put(" %" PRIu64, location);
    put(" %zu", units);
    put(" %lx", race->address + byte);
    put_owner(race->frame, byte);
    put_owner(race->data, byte);
    put("\n");
}

static void put_bytes(const struct look_race *race, uint32_t pair) {
    for (unsigned part = look_races_part_of(race); part != 0; part &= part - 1) {
        const unsigned byte = (unsigned)__builtin_ctz(part);
        put_row(race, pair, granules_first_byte + GRANULE_MOST_BYTES * race->location + byte, 1, byte);
    }
}

/* What races in each pair: a row of units, or a byte. */
static void put_addresses(void) {
    for (size_t at = 0, end; at < look_races_count; at = end) {
        const struct look_race *race = &look_races[at];
        for (end = at + 1; end < look_races_count && goes_on(&look_races[end - 1], &look_races[end]);)
            end++;
        if (race->pair == 0)
            continue;
        if (look_pairs[race->pair].site != 0) {
            put_in_block(race, end - at);
            continue;
        }
        uint32_t pair = pair_for(race, end - at);
        if (look_races_part_of(race) == 0)
            put_row(race, pair, race->location, end - at, 0);
        else
            put_bytes(race, pair);
    }
}

/* The units that accesses of races don't fill; and whether neighbours may race there, if the first run did the same. */
static void put_narrow(void) {
    for (const struct look_race *race = look_races; race < look_races + look_races_count; race++)
        if (race->pair != 0 && look_races_is_narrow(race))
            put(look_races_part_of(race) == 0 ? "narrow %" PRIu64 "\n" : "part %" PRIu64 "\n",
                granules_of(race->location));
}

void look_text_put(const struct look_stop *missed, const char *instead) {
    if (missed) {
        put("astray %" PRIu64 " ", missed->place);
        put_text(instead);
        put("\n");
    }
    put("thread %lx\n", thread_first);
    for (pairs_put = 0; pairs_put < look_pairs_last;) {
        const struct look_pair *pair = &look_pairs[++pairs_put];
        put_pair(pair, pair->race);
    }
    put_addresses();
    put_narrow();
    put("left %" PRIu64 "\nend\n", look_pairs_left_out);
}
