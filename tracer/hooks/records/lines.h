/* What goes out for a record: a line of the trace, its place, or in a run that looks nothing but its number. */
#ifndef SPBAGS_RECORDS_LINES_H
#define SPBAGS_RECORDS_LINES_H

#include "base/changes.h"
#include "base/output.h"
#include "records/look.h"
#include "records/places.h"
#include "records/steps.h"

/* Their memory is the steps' then, where no detector has other memory for them. */
void lines_begin(void);
/* What hasn't gone out of the steps never does, and what is open is so in what has. */
void lines_drop(void);

/* ---- The text ---- */

/* A line of the structure has at most eight bytes. So many are copied, since a copy of a fixed size is quick, and the
   next line goes over those that aren't of this one. What isn't in the trace has no length. */
extern const struct line {
    char bytes[8];
    size_t length;
} lines_of_structure[8];

static inline size_t lines_structure(char *line, unsigned kind) {
    __builtin_memcpy(line, lines_of_structure[kind].bytes, sizeof lines_of_structure[kind].bytes);
    return lines_of_structure[kind].length;
}

/* Lines of the accesses to a hundred locations from this one on, of reads and of writes: as they are where the location
   ends in 00. No location is as great as the first of none. */
extern struct line_hundred {
    uint64_t first;
    size_t length;
    char line[OUTPUT_LONGEST];
} lines_hundreds[2];
/* From 00 to 99. */
extern char lines_two_digits[100][2];

void lines_make_hundred(struct line_hundred *made, bool writes, uint64_t number);

/* The line of an access goes here; its length. So many bytes are copied that the size is fixed. */
static inline size_t lines_access(char *line, bool writes, uint64_t location) {
    struct line_hundred *hundred = &lines_hundreds[writes];
    uint64_t rest = location - hundred->first;
    if (rest >= 100) {
        if (location < 100)
            return (size_t)sprintf(line, "%s %u\n", writes ? "write" : "read", (unsigned)location);
        lines_make_hundred(hundred, writes, location / 100);
        rest = location % 100;
    }
    const size_t length = hundred->length;
    __builtin_memcpy(line, hundred->line, sizeof hundred->line);
    __builtin_memcpy(line + length - 3, lines_two_digits[rest], 2);
    return length;
}

static inline void lines_end(size_t length) {
    changes_in_order();
    output_of_run.used += length;
    changes_in_order();
}

/* ---- Records ---- */

/* Whether records are lines of a trace. */
static inline bool lines_are_written(void) { return !doing_detects() && !doing.looking; }

static inline void lines_write_access(bool writes, uint64_t location) {
    lines_end(lines_access(output_room(&output_of_run), writes, location));
}

/* The place of this record is looked at, or not. */
static inline void lines_pass_place(uint64_t record) {
    const unsigned kind = record & 7;
    if (kind == steps_numbers_end || ++look_place_now != look_next_place)
        return;
    if (kind == SPBAGS_READ || kind == SPBAGS_WRITE)
        look_at_access(kind == SPBAGS_WRITE, record >> 3);
    else
        look_at_structure();
}

/* The record's place goes out when its line is there, so that there are as many of both whatever ends the run. */
static inline void lines_put_access(bool writes, uint64_t location, uint16_t site) {
    if (doing.looking)
        lines_pass_place(location << 3 | (writes ? SPBAGS_WRITE : SPBAGS_READ));
    const size_t length = lines_are_written() ? lines_access(output_room(&output_of_run), writes, location) : 0;
    if (doing.keeping_places)
        places_put(site, 1);
    lines_end(length);
}

#endif
