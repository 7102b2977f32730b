/* The course of a run, by which spbags-run knows whether two runs of a program did the same, whatever else they do:
   write a trace, detect, look, or tell bytes apart. Each run follows its own: which granules each strand accesses, what
   lies between strands and where, the bytes of accesses that don't fill their granules, and what is held.

   A plain run doesn't see each access of a block. So the accesses to blocks are added up, in any order, and go into the
   digest where the strand, or a part of it, goes out. All else goes there as it comes. */
#ifndef SPBAGS_RECORDS_COURSE_H
#define SPBAGS_RECORDS_COURSE_H

#include "shadow/blocks.h"

#include "../include/spbags_inside.h"

extern struct course {
    /* How many records, with those that were left out; in a plain run without what the strand has done in blocks. */
    uint64_t records;
    uint64_t digest;
    /* The same of what was held, in which strands; and before the newest strand in which that changed. */
    uint64_t guards, guards_before, guards_strand;
    /* Of the blocks of a part of a strand. */
    unsigned __int128 granules;
    /* How many parts of strands have gone out. */
    uint64_t parts;
} course;
/* A run that isn't plain ends behind so many records. */
extern uint64_t course_last_record;

/* For spbags-run a record says what it was. */
void course_tell(void);

/* A polynomial of all that came, whose factor is odd. */
static inline void course_mix(uint64_t *digest, uint64_t what) { *digest = *digest * 0x9e3779b97f4a7c15u + what; }

static inline void course_structure(enum spbags_kind kind, uintptr_t code) {
    course.records++;
    course_mix(&course.digest, code << 3 | kind);
}

/* The strand, or a part of it, has gone out. */
static inline void course_part(void) {
    if (course.granules != 0) {
        course_mix(&course.digest, (uint64_t)course.granules);
        course_mix(&course.digest, (uint64_t)(course.granules >> 64));
        course.granules = 0;
    }
    course.parts++;
}

/* The number of the part at hand. */
static inline uint64_t course_part_now(void) { return course.parts + 1; }

static inline void course_stack(bool writes, uint64_t location) {
    course.records++;
    course_mix(&course.digest, location << 3 | (writes ? SPBAGS_WRITE : SPBAGS_READ));
}

static inline unsigned course_count(uint64_t granules) {
    if (granules + 1 <= 1)
        return (unsigned)granules & BLOCK_GRANULES;
    const uint64_t ones = UINT64_MAX / 15;
    granules -= granules >> 1 & 5 * ones;
    granules = (granules & 3 * ones) + (granules >> 2 & 3 * ones);
    return (unsigned)(((granules + (granules >> 4)) & UINT64_MAX / 17) * (UINT64_MAX / 255) >> 56);
}

/* That of a block's reads, by its location; and of its writes. */
static inline uint64_t course_factor(bool writes, uint64_t block) {
    uint64_t factor = (block | 1) * 0x9e3779b97f4a7c15u;
    factor ^= factor >> 29;
    return writes ? factor ^ 0xbf58476d1ce4e5b8u : factor;
}

/* Granules of the block that has this location. A sum of single granules is that of all together. */
static inline void course_granules(uint64_t block, uint64_t reads, uint64_t writes) {
    course.granules += (unsigned __int128)course_factor(false, block) * reads;
    course.granules += (unsigned __int128)course_factor(true, block) * writes;
    course.records += course_count(reads) + course_count(writes);
}

/* A granule with this location. */
static inline void course_granule(bool writes, uint64_t location) {
    const unsigned granule = location / 2 % BLOCK_GRANULES;
    if (location % 2 == 1)
        course_stack(writes, location);
    else
        course_granules(location & ~(uint64_t)(2 * BLOCK_GRANULES - 1), (uint64_t)!writes << granule,
                        (uint64_t)writes << granule);
}

/* An access, be it a repeat or not, that doesn't fill its granules, to what isn't a thread's own. */
static inline void course_partial(bool writes, uintptr_t address, size_t size) {
    course_mix(&course.digest, address << 1 | writes);
    course_mix(&course.digest, size);
}

/* What has this number is held from here on, or it isn't any more. */
void course_guard(uintptr_t id);

#endif
