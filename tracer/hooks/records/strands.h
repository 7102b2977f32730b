/* The accesses of a strand to even locations, which aren't of the stack, go out when it has ended, in blocks of 64
   locations: the blocks in the order of their first touch, and of each first the reads, by ascending location, and then
   the writes. Those to odd locations go out at once. A strand with so many blocks goes out in parts. All kinds of runs
   have their records in this order. */
#ifndef SPBAGS_RECORDS_STRANDS_H
#define SPBAGS_RECORDS_STRANDS_H

#include "base/common.h"

#include "base/doing.h"
#include "records/course.h"
#include "shadow/blocks.h"

#ifndef STRAND_MOST_BLOCKS
#define STRAND_MOST_BLOCKS 4096
#endif

static inline bool strands_gather(uint64_t location) { return location % 2 == 0 && !granules_is_byte(location); }

/* So many blocks before one goes out, it is looked for. */
enum { STRAND_AHEAD = 8 };

/* The site of a block's reads, or of its writes: none, the word of the only one, or that there are several. Then each
   granule has a short one, by places.h. */
enum { STRAND_NO_SITES = 0, STRAND_SEVERAL_SITES = 1 };

/* The part at hand: its blocks, without one where that has gone out alone, and the sites of their accesses where these
   are kept. */
extern struct strand_part {
    size_t used;
    /* Whether something was left out. */
    bool has_gaps;
    struct block_touched list[STRAND_MOST_BLOCKS + STRAND_AHEAD];
    uint64_t only_sites[STRAND_MOST_BLOCKS][2];
    _Alignas(16) uint32_t sites[STRAND_MOST_BLOCKS][2][BLOCK_GRANULES];
} strands_part;

static inline void strands_place(const struct block_touched *touched) {
    _Static_assert(STRAND_MOST_BLOCKS <= UINT16_MAX, "a place has no room for its number");
    strands_part.list[strands_part.used] = *touched;
    touched->block->place = (uint16_t)++strands_part.used;
}

/* Makes room for another block; or what the strand has done so far goes out. */
__attribute__((cold)) void strands_make_room(void);

/* The block has its place then. */
static inline void strands_list(const struct block_touched *touched) {
    if (__builtin_expect(touched->block->place != 0, 1))
        return;
    if (__builtin_expect(strands_part.used == STRAND_MOST_BLOCKS, 0))
        strands_make_room();
    strands_place(touched);
}

/* A block that has got its place has this only site, and sites are noted there quickly. */
static inline void strands_begin_quick_sites(bool writes, const struct block_touched *in, uint64_t site) {
    in->block->quick_place = in->block->place;
    strands_part.only_sites[in->block->place - 1][writes] = site;
}
/* The site of these granules, which are new in a block that has its place. */
void strands_note_sites(bool writes, const struct block_touched *in, uint64_t granules, uint64_t word);
/* Those of the block with this number in the list have gone out, if there were any. */
static inline void strands_forget_sites(size_t number) {
    if (doing.keeping_places)
        strands_part.only_sites[number][false] = strands_part.only_sites[number][true] = STRAND_NO_SITES;
}

/* Without views of reducers, if the run is plain, a granule is noted quickly. A run that looks needs the location of
   each granule of the stack, and those of blocks that have a race. */
extern bool strands_noted_quickly, strands_stack_noted_quickly;
/* After a change of whether there are views. */
void strands_follow_views(bool are_there);

/* ---- What goes out ---- */

/* A strand ends, or a part of it. Where the run ends meanwhile, as a signal handler may end it, the rest goes out
   then. */
void strands_put(void);
/* What hasn't gone out never does. */
void strands_drop(void);

/* The end of a lifetime: the span, how many blocks of locations stand for what died in one strand, and whether such a
   block was used then. If it wasn't, none of these locations has another access. */
struct strand_lifetime_end {
    size_t span;
    unsigned dead;
    bool is_dead_used;
};

/* A span begins another lifetime. */
void strands_end_lifetime(struct strand_lifetime_end end);
/* This memory of a heap block dies in the strand of its birth: its accesses are left out, as far as they haven't gone
   out. */
void strands_set_dead(uintptr_t address, uintptr_t end);

#endif
