#include "records/look.h"

#include "base/callbacks.h"
#include "records/course.h"
#include "records/look_heap.h"
#include "records/look_pairs.h"
#include "records/look_text.h"
#include "records/steps.h"

uint64_t look_place_now, look_next_place = UINT64_MAX, look_blocks[(1 << LOOK_BLOCK_BITS) / 64];
bool look_is_pending;

/* How many of the races' accesses were met as the report says; and what stood at a place instead, in a run that took
   another course. */
static size_t stops_met;
static char astray[80];

/* ---- Accesses of races ---- */

static struct look_race *newest_pending;

static void take_look(struct look_race *race, struct look_access *look, uintptr_t address, uintptr_t code) {
    look->node = look_stacks_node_of(look_stacks_top());
    look->code = look_stacks_code_in(look_stacks_top(), code);
    look->guards = guards_now();
    look->is_narrow = granules_bytes_left_out(address) != 0;
    if (look == &race->first) {
        race->noted = guards_want_entries(look->guards);
        return;
    }
    race->held_before = guards_entered_since(race->noted, race->first.guards, look->node);
    race->address = granules_name(address);
    race->frame = look_stacks_frame_owner(address, look->code, look->node);
    race->data = look_stacks_data_owner(address, look->code, look->node);
    race->is_view = callbacks.is_of_view(address);
    race->meeting = look_stacks_meeting(race->first.node, look->node);
    race->waits = 0;
}

void look_note_part(uint64_t location, unsigned bytes) {
    struct look_race *race = look_races_of(location);
    if (!race)
        return;
    race->has_parts |= bytes == 0 || (race->part != 0 && race->part != bytes);
    race->part |= bytes;
}

/* It may be one of the report, if that has its location and its kind at one of the places that what is pending gets. */
void look_note_pending(bool writes, uint64_t location, uintptr_t address, uintptr_t code) {
    struct look_race *race = look_races_of(location);
    if (!race)
        return;
    steps_put_rest();
    struct look_access *look = race->first.place > look_place_now ? &race->first : &race->second;
    if (look->writes != writes || look->place <= look_place_now || look->part == course_part_now())
        return;
    look->part = course_part_now();
    look_is_pending = true;
    take_look(race, look, address, code);
    if (look == &race->second) {
        race->next_pending = newest_pending;
        newest_pending = race;
        look_pairs_wait(race);
    }
}

/* All that is pending goes out. */
void look_forget_pending(void) {
    look_is_pending = false;
    for (; newest_pending; newest_pending = newest_pending->next_pending)
        look_pairs_leave(newest_pending);
}

/* This race goes out, and others may be pending. */
static void forget_one_pending(const struct look_race *race) {
    struct look_race **at = &newest_pending;
    while (*at && *at != race)
        at = &(*at)->next_pending;
    if (!*at)
        return;
    *at = race->next_pending;
    look_pairs_leave(race);
}

/* ---- Places ---- */

__attribute__((format(__printf__, 1, 2))) static void go_astray(const char *format, ...) {
    va_list rest;
    va_start(rest, format);
    vsnprintf(astray, sizeof astray, format, rest);
    va_end(rest);
    look_next_place = UINT64_MAX;
}

static void next_stop(void) {
    if (astray[0] == '\0')
        look_next_place = ++stops_met < look_races_stops_count ? look_races_stops[stops_met].place : UINT64_MAX;
    if (look_next_place == UINT64_MAX && course_last_record != UINT64_MAX)
        callbacks.end_run();
}

void look_at_structure(void) {
    go_astray("neither a read nor a write");
    next_stop();
}

void look_at_access(bool writes, uint64_t location) {
    struct look_race *race = look_races_stops[stops_met].race;
    struct look_access *look = race->first.place == look_place_now ? &race->first : &race->second;
    if (look->writes != writes || race->location != location) {
        go_astray("a %s of location %" PRIu64, writes ? "write" : "read", location);
    } else {
        if (look == &race->second) {
            forget_one_pending(race);
            look_pairs_add(race);
        }
    }
    next_stop();
}

void look_at_wait(const struct frame *frame, uintptr_t code, bool ends) {
    struct look_race **race = &look_stacks_nodes[frame->node].race;
    for (; *race; *race = (*race)->next) {
        (*race)->waits = code;
        (*race)->ends = ends;
    }
}

void look_put_notes(void) {
    const bool missed = stops_met < look_races_stops_count;
    look_text_put(missed ? &look_races_stops[stops_met] : NULL,
                  astray[0] != '\0' ? astray : "nothing, since the run had ended");
}

void look_begin(int file) {
    look_races_read(file);
    for (const struct look_race *race = look_races; race < look_races + look_races_count; race++) {
        uint64_t block = look_block_bit(granules_of(race->location) & ~(uint64_t)(2 * BLOCK_GRANULES - 1));
        look_blocks[block / 64] |= (uint64_t)1 << block % 64;
    }
    look_next_place = look_races_stops[0].place;
    look_stacks_begin();
    look_heap_begin();
    look_pairs_begin();
    look_text_begin();
    guards_begin();
    guards_begin_entries((struct guard_procedures){look_stacks_procedure_now, look_stacks_is_in});
    doing.looking = true;
}
