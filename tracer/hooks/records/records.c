#include "records/records.h"

#include "records/byte_granular.h"
#include "records/lines.h"
#include "shadow/frames.h"
#include "shadow/marks.h"

/* How many records there were, but for those of the stack's memory, which each call of a function has anew. */
static uint64_t news;

void records_structure(enum spbags_kind kind, uintptr_t code) {
    strands_put();
    news++;
    course_structure(kind, code);
    if (doing.looking)
        lines_pass_place(kind);
    const size_t length = lines_are_written() ? lines_structure(output_room(&output_of_run), kind) : 0;
    if (doing.keeping_places)
        places_put(places_site_number(code), 1);
    frames_procedures += frames_procedures_opened_by(kind);
    lines_end(length);
    recent_step(spbags_record(kind, 0));
}

/* The access is new in its block, which has its place. */
static void keep_access(bool writes, const struct block_touched *in, unsigned granule, uint64_t site) {
    if (doing.keeping_places)
        strands_note_sites(writes, in, (uint64_t)1 << granule, site);
    in->done[granule] |= writes ? BLOCK_WROTE : BLOCK_READ;
}

/* The access of a granule, or of a byte; its block, or null for one that goes out at once. */
static inline void begin_access(bool writes, const struct block_touched *in, uint64_t location, uintptr_t address,
                                uintptr_t code, uint64_t site) {
    if (in)
        strands_list(in);
    if (doing.looking)
        look_note_pending(writes, location, address, code);
    if (in)
        keep_access(writes, in, (location - in->location) / 2, site);
    else
        recent_keep(spbags_record(writes ? SPBAGS_WRITE : SPBAGS_READ, location),
                    doing.keeping_places ? places_site_number(site) : PLACES_NO_SITE);
}

/* That of a byte of a granule that is byte-granular. */
static void begin_byte(bool writes, uint64_t location, uintptr_t address, uintptr_t code) {
    begin_access(writes, NULL, location, address, code, places_site_word(true, code));
}

void records_access(bool writes, const struct block_touched *in, uint64_t location, uintptr_t address, uintptr_t code) {
    recent_begin_one();
    news += in != NULL;
    if (!__builtin_expect(byte_granular_any, 0) ||
        !byte_granular_access(writes, in, location, address, code, begin_byte)) {
        uint64_t site = doing.keeping_places ? records_site(address, code) : 0;
        course_granule(writes, location);
        begin_access(writes, in, location, address, code, site);
    }
    if (doing.writing_repeats) {
        strands_put();
        marks_begin_strand();
    }
    changes_end();
    recent_end_at_last();
}

/* ---- What others ask ---- */

void records_drop(void) {
    strands_drop();
    recent_drop();
    if (doing.plain)
        lines_drop();
}

/* What the strand has accessed in blocks. */
static uint64_t granules_touched(void) {
    uint64_t count = 0;
    for (size_t at = 0; at < strands_part.used; at++) {
        const uint8_t *done = strands_part.list[at].done;
        count += (uint64_t)__builtin_popcountll(blocks_granules_with(done, BLOCK_READ));
        count += (uint64_t)__builtin_popcountll(blocks_granules_with(done, BLOCK_WROTE));
    }
    return count;
}

bool records_have_new(void) {
    static uint64_t seen, touched;
    const uint64_t seen_before = seen, touched_before = touched;
    seen = news;
    touched = granules_touched();
    return touched != touched_before || (doing.plain ? steps_have_new() : seen != seen_before);
}
