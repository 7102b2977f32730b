/* What is done for each record of a run as it comes: it goes out when its strand ends, or at once. */
#ifndef SPBAGS_RECORDS_RECORDS_H
#define SPBAGS_RECORDS_RECORDS_H

#include "base/tell.h"
#include "records/course.h"
#include "records/look.h"
#include "records/places.h"
#include "records/recent.h"
#include "records/strands.h"

/* What is done for one in a run that isn't plain, where byte_granular.h and look.h have their part. */
void records_structure(enum spbags_kind kind, uintptr_t code);
void records_access(bool writes, const struct block_touched *in, uint64_t location, uintptr_t address, uintptr_t code);

static inline uint64_t records_site(uintptr_t granule, uintptr_t code) {
    return places_site_word(granules_bytes_left_out(granule) != 0, code);
}

/* Whether the site of the access at hand is its code alone, or isn't kept: it fills its granule, and holds nothing. */
ALWAYS_INLINE bool records_site_is_code(void) {
    return !doing.keeping_places || (guards_held == 0 && granules_partial.end == 0);
}

/* Of such an access. */
ALWAYS_INLINE bool records_find_access_bits(uintptr_t code, uint64_t *bits) {
    return places_find_site_bits(code, bits) && records_site_is_code();
}

static inline void records_step(bool writes, uint64_t location, uintptr_t address, uintptr_t code) {
    recent_begin();
    if (__builtin_expect(doing.looking, 0))
        look_note_pending(writes, location, address, code);
    course_stack(writes, location);
    steps_put_at(writes ? SPBAGS_WRITE : SPBAGS_READ, location,
                 __builtin_expect(doing.keeping_places, 0) ? places_site_bits(records_site(address, code)) : 0);
    recent_finish();
}

/* These granules of a block have been accessed, in a plain run. None of them is accessed in part if places are kept;
   then sites are noted there quickly from now on. */
static inline void records_note_in_block(bool writes, const struct block_touched *in, uint64_t granules,
                                         uintptr_t code) {
    recent_begin();
    strands_list(in);
    if (__builtin_expect(doing.keeping_places, 0)) {
        strands_note_sites(writes, in, granules, places_site_word(false, code));
        in->block->quick_place = in->block->dead == 0 ? in->block->place : 0;
    }
    blocks_set(in->done, granules, writes ? BLOCK_WROTE : BLOCK_READ);
    recent_finish();
}

static inline void records_note_one(bool writes, const struct block_touched *in, unsigned granule, uintptr_t address,
                                    uintptr_t code) {
    recent_begin();
    strands_list(in);
    if (__builtin_expect(doing.looking, 0))
        look_note_pending(writes, in->location + 2 * granule, address, code);
    if (__builtin_expect(doing.keeping_places, 0))
        strands_note_sites(writes, in, (uint64_t)1 << granule, records_site(address, code));
    blocks_set_bit(&in->done[granule], writes ? BLOCK_WROTE : BLOCK_READ);
    recent_finish();
}

static inline void records_put_access(bool writes, uint64_t location, uintptr_t address, uintptr_t code) {
    if (__builtin_expect(doing.plain, 1))
        records_step(writes, location, address, code);
    else
        records_access(writes, NULL, location, address, code);
}

/* Of the granule in its block. */
static inline void records_put_in_block(bool writes, const struct block_touched *in, unsigned granule,
                                        uintptr_t address, uintptr_t code) {
    if (__builtin_expect(doing.plain, 1))
        records_note_one(writes, in, granule, address, code);
    else
        records_access(writes, in, in->location + 2 * granule, address, code);
}

/* What hasn't gone out never does, and what is open is so in what has. */
void records_drop(void);
/* Whether there was a record since this was asked last, other than of the stack's memory. */
bool records_have_new(void);

#endif
