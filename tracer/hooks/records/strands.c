#include "records/strands.h"

#include "base/openmp.h"
#include "records/lines.h"
#include "records/look.h"
#include "records/places.h"
#include "records/recent.h"
#include "records/steps.h"
#include "shadow/frames.h"
#include "shadow/own.h"

struct strand_part strands_part;
bool strands_noted_quickly, strands_stack_noted_quickly;

static bool is_left(struct block_touched touched) {
    if (!touched.block)
        return false;
    touched.block->place = touched.block->quick_place = 0;
    return (blocks_granules_with(touched.done, BLOCK_READ) | blocks_granules_with(touched.done, BLOCK_WROTE)) != 0 ||
           touched.block->is_byte_granular;
}

/* The blocks of which nothing is left make room for others. */
static void drop_empty(void) {
    size_t used = strands_part.used;
    strands_part.used = 0;
    strands_part.has_gaps = false;
    for (size_t at = 0; at < used; at++) {
        if (!is_left(strands_part.list[at])) {
            memset(strands_part.list[at].done, 0, strands_part.list[at].block ? BLOCK_GRANULES : 0);
            strands_forget_sites(at);
            continue;
        }
        if (strands_part.used < at && doing.keeping_places) {
            memcpy(strands_part.only_sites[strands_part.used], strands_part.only_sites[at],
                   sizeof *strands_part.only_sites);
            memcpy(strands_part.sites[strands_part.used], strands_part.sites[at], sizeof *strands_part.sites);
            strands_forget_sites(at);
        }
        strands_place(&strands_part.list[at]);
    }
}

void strands_make_room(void) {
    frames_leave_short_way();
    blocks_leave_quick_sites();
    if (strands_part.has_gaps)
        drop_empty();
    frames_find_short_way();
    if (strands_part.used > STRAND_MOST_BLOCKS / 4 * 3)
        strands_put();
}

static void set_sites(uint32_t *sites, uint64_t granules, uint64_t word) {
    const uint32_t site = places_short_site(word);
    for (; granules != 0; granules &= granules - 1)
        sites[__builtin_ctzll(granules)] = site;
}

/* Where the only one was another, each granule has its own from now on. */
void strands_note_sites(bool writes, const struct block_touched *in, uint64_t granules, uint64_t word) {
    const size_t number = in->block->place - 1u;
    uint64_t *only = &strands_part.only_sites[number][writes];
    uint32_t *sites = strands_part.sites[number][writes];
    if (*only == STRAND_NO_SITES)
        *only = word;
    if (*only == word)
        return;
    if (*only != STRAND_SEVERAL_SITES) {
        blocks_leave_quick_sites();
        memset(sites, 0, BLOCK_GRANULES * sizeof *sites);
        set_sites(sites, blocks_granules_with(in->done, writes ? BLOCK_WROTE : BLOCK_READ), *only);
        *only = STRAND_SEVERAL_SITES;
    }
    set_sites(sites, granules, word);
}

void strands_follow_views(bool are_there) {
    strands_noted_quickly = doing.plain && !are_there;
    strands_stack_noted_quickly = strands_noted_quickly && !doing.looking;
    frames_leave_short_way();
    blocks_leave_quick_sites();
    for (size_t at = 0; at < strands_part.used && !strands_noted_quickly; at++)
        if (strands_part.list[at].block) {
            blocks_clear(strands_part.list[at].done, UINT64_MAX, BLOCK_QUICK);
            strands_part.list[at].block->quick_place = 0;
        }
    frames_find_short_way();
}

/* What a plain run has done with these granules, which doesn't go out, is of its course. */
static void follow(const struct block_touched *touched, uint64_t granules) {
    course_granules(touched->location, blocks_granules_with(touched->done, BLOCK_READ) & granules,
                    blocks_granules_with(touched->done, BLOCK_WROTE) & granules);
}

void strands_set_dead(uintptr_t address, uintptr_t end) {
    strands_part.has_gaps = true;
    blocks_leave_quick_sites();
    while (address < end) {
        struct block_part part = blocks_part_from(address, end);
        if (doing.plain)
            follow(&part.in, part.granules);
        memset(part.in.done + blocks_granule_at(address), 0, (part.end - address + granules_mask) >> granules_shift);
        part.in.block->dead |= part.granules;
        part.in.block->quick_place = 0;
        address = part.end;
    }
}

/* ---- What goes out when the strand has ended ---- */

/* The block that goes out or null, whether the detector hasn't got it, and its granules whose accesses haven't gone.
   Where the run ends meanwhile, as without room on the stack, they go out then. */
static struct {
    const struct block_touched *block;
    bool waits_for_detector;
    uint64_t granules[2];
} going_out;

static void forget_sites_of(const struct block_touched *touched) {
    strands_forget_sites((size_t)(touched - strands_part.list));
}

/* The only site of the block that goes out, or whether it has several, which are its granules'. */
static uint64_t only_site(bool writes) { return strands_part.only_sites[going_out.block - strands_part.list][writes]; }

static const uint32_t *sites_of_granules(bool writes) {
    return strands_part.sites[going_out.block - strands_part.list][writes];
}

static uint16_t number_of_only(uint64_t only) {
    return only == STRAND_NO_SITES ? PLACES_NO_SITE : places_site_number(only);
}

static uint16_t number_of_granule(bool writes, unsigned granule) {
    const uint64_t only = only_site(writes);
    return only == STRAND_SEVERAL_SITES ? places_number_of_short(sites_of_granules(writes)[granule])
                                        : number_of_only(only);
}

static void put_accesses(bool writes) {
    const struct block_touched *touched = going_out.block;
    for (uint64_t granules = going_out.granules[writes]; granules != 0;
         going_out.granules[writes] = granules &= granules - 1) {
        unsigned granule = (unsigned)__builtin_ctzll(granules);
        uint64_t location = touched->location + 2 * granule;
        if (doing.plain && !doing.looking && !doing.keeping_places)
            lines_write_access(writes, location);
        else
            lines_put_access(writes, location,
                             doing.keeping_places ? number_of_granule(writes, granule) : PLACES_NO_SITE);
    }
}

/* A record with more words. Where the run isn't plain, it is a step too. */
static void step_words(unsigned kind, uint64_t location, const uint64_t *words, size_t count) {
    if (!doing.plain)
        changes_begin_step();
    steps_put_words(spbags_record(kind, location), words, count);
    if (!doing.plain)
        changes_end_step();
}

static inline __m128i four_like(const uint32_t *sites, const uint32_t *others) {
    return _mm_cmpeq_epi32(_mm_load_si128((const void *)sites), _mm_loadu_si128((const void *)others));
}

/* The block's granules whose sites are like the others, which are so far apart for each four. */
static inline uint64_t granules_like(const uint32_t *sites, const uint32_t *others, unsigned apart) {
    uint64_t granules = 0;
    for (unsigned part = 0; part < BLOCK_GRANULES; part += 16, sites += 16, others += 4 * apart) {
        const __m128i first = _mm_packs_epi32(four_like(sites, others), four_like(sites + 4, others + apart)),
                      last = _mm_packs_epi32(four_like(sites + 8, others + 2 * apart),
                                             four_like(sites + 12, others + 3 * apart));
        granules |= (uint64_t)(unsigned)_mm_movemask_epi8(_mm_packs_epi16(first, last)) << part;
    }
    return granules;
}

static uint64_t granules_of_site(const uint32_t *sites, uint32_t site) {
    const uint32_t four[] = {site, site, site, site};
    return granules_like(sites, four, 0);
}

/* Those of these granules that don't have the site of one of them right before. */
static uint64_t first_of_runs(const uint32_t *sites, uint64_t granules) {
    return granules & ~(granules_like(sites, sites - 1, 4) & granules << 1);
}

/* A bit for each of these granules, one behind the other: whether it is one of those. */
static uint64_t bits_among(uint64_t granules, uint64_t those) {
    uint64_t bits = 0;
    if (granules == UINT64_MAX)
        return those;
    for (unsigned count = 0; granules != 0; granules &= granules - 1, count++)
        bits |= (those >> __builtin_ctzll(granules) & 1) << count;
    return bits;
}

static uint64_t *put_runs(uint64_t *at, const uint32_t *sites, uint64_t granules, uint64_t firsts) {
    while (firsts != 0) {
        const uint32_t site = sites[__builtin_ctzll(firsts)];
        firsts &= firsts - 1;
        const uint64_t rest = firsts != 0 ? granules & -(firsts & -firsts) : 0;
        *at++ = (uint64_t)course_count(granules ^ rest) << 16 | places_number_of_short(site);
        granules = rest;
    }
    return at;
}

/* For the detector's thread: how many records one after another have one site, or two that take turns. */
static uint64_t *put_sites(uint64_t *at, bool writes) {
    enum { FEW_RUNS = 6 };
    const uint64_t granules = going_out.granules[writes];
    if (granules == 0)
        return at;
    const uint64_t only = only_site(writes), count = course_count(granules);
    if (only != STRAND_SEVERAL_SITES) {
        *at++ = count << 16 | number_of_only(only);
        return at;
    }
    const uint32_t *sites = sites_of_granules(writes), first = sites[__builtin_ctzll(granules)];
    const uint64_t firsts = first_of_runs(sites, granules);
    if (course_count(firsts) <= FEW_RUNS)
        return put_runs(at, sites, granules, firsts);
    const uint64_t others = granules & ~granules_of_site(sites, first);
    const uint32_t other = others == 0 ? first : sites[__builtin_ctzll(others)];
    if ((others & ~granules_of_site(sites, other)) != 0)
        return put_runs(at, sites, granules, firsts);
    const uint64_t bits = bits_among(granules, others);
    *at++ = PLACES_TURNS | count << 32 | (uint64_t)places_number_of_short(other) << 16 | places_number_of_short(first);
    *at++ = bits;
    return at;
}

static void step_block(void) {
    uint64_t words[3 + 2 * BLOCK_GRANULES], *end = words + 2;
    words[0] = going_out.granules[false];
    words[1] = going_out.granules[true];
    if (doing.plain && doing.keeping_places) {
        end = put_sites(put_sites(end + 1, false), true);
        words[2] = (uint64_t)(end - words) - 3;
    }
    step_words(steps_block_follows, going_out.block->location, words, (size_t)(end - words));
}

/* Whether none of the block's places is looked at; then they have passed. */
static bool passes_by(void) {
    unsigned count = course_count(going_out.granules[false]) + course_count(going_out.granules[true]);
    if (!doing.looking || look_next_place - look_place_now <= count)
        return false;
    look_place_now += count;
    return true;
}

static void put_rest_of_block(void) {
    if (going_out.waits_for_detector)
        step_block();
    going_out.waits_for_detector = false;
    if (!doing_only_detects() && !passes_by()) {
        put_accesses(false);
        put_accesses(true);
    }
    forget_sites_of(going_out.block);
    going_out.block = NULL;
}

/* The granules of a block, which is empty then: those that were read, and those that were written. */
static inline void take(const struct block_touched *touched, uint64_t masks[2]) {
    struct block *block = touched->block;
    const uint64_t own_mask = block->has_own ? own_granules(touched->location / 2 << granules_shift) : 0;
    block->place = block->quick_place = 0;
    masks[false] = blocks_granules_with(touched->done, BLOCK_READ);
    masks[true] = blocks_granules_with(touched->done, BLOCK_WROTE) & ~own_mask;
    __builtin_memset(touched->done, 0, BLOCK_GRANULES);
    blocks_set(touched->done, own_mask, BLOCK_WROTE);
    block->is_byte_granular = false;
    block->has_gone_out |= (masks[false] | masks[true]) != 0;
}

static void put_block(const struct block_touched *touched) {
    if (!touched->block)
        return;
    take(touched, going_out.granules);
    if (doing.plain)
        course_granules(touched->location, going_out.granules[false], going_out.granules[true]);
    if ((going_out.granules[false] | going_out.granules[true]) == 0) {
        forget_sites_of(touched);
        return;
    }
    going_out.waits_for_detector = doing_detects();
    going_out.block = touched;
    put_rest_of_block();
}

static void seek_in(const struct block_touched *touched) {
    if (touched->block && touched->address != 0)
        openmp_seek_in_block(touched->address, blocks_granules_with(touched->done, BLOCK_READ));
}

static void put_blocks(void) {
    static size_t at;
    const bool seeks = openmp_seeks && openmp_seeks_in_blocks();
    frames_leave_short_way();
    blocks_leave_quick_sites();
    if (going_out.block)
        put_rest_of_block();
    for (; at < strands_part.used; at++) {
        __builtin_prefetch(strands_part.list[at + STRAND_AHEAD].done);
        __builtin_prefetch(strands_part.list[at + STRAND_AHEAD].block);
        if (seeks)
            seek_in(&strands_part.list[at]);
        put_block(&strands_part.list[at]);
    }
    at = strands_part.used = 0;
    strands_part.has_gaps = false;
    frames_find_short_way();
}

void strands_put(void) {
    recent_end();
    steps_put_rest();
    if (doing.looking)
        look_forget_pending();
    if (strands_part.used > 0)
        put_blocks();
    course_part();
}

/* ---- The end of a span's lifetime ---- */

/* A block that goes out before the others. */
static void put_alone(struct block *block) {
    if (block->place == 0)
        return;
    struct block_touched *touched = &strands_part.list[block->place - 1];
    put_block(touched);
    touched->block = NULL;
    strands_part.has_gaps = true;
}

/* Some blocks in a row go out, at most 64, and the detector is told which of them it has. */
static void end_blocks(struct block_touched first, size_t count) {
    uint64_t ended_bits = 0;
    for (size_t at = 0; at < count; at++) {
        struct block *block = &first.block[at];
        put_alone(block);
        ended_bits |= (uint64_t)block->has_gone_out << at;
        block->has_gone_out = false;
        block->dead = 0;
    }
    if (doing_detects() && ended_bits != 0)
        step_words(steps_numbers_end, first.location, &ended_bits, 1);
}

static void end_span_blocks(size_t span) {
    size_t count = granules_span_size / blocks_size();
    for (size_t at = 0; at < count; at += BLOCK_GRANULES)
        end_blocks(blocks_at(granules_span_first(span) + at * blocks_size()), least(count, BLOCK_GRANULES));
}

/* If nothing was used after its death, nobody else has accessed these. */
static void end_dead_blocks(struct strand_lifetime_end end) {
    struct block_touched first = blocks_dead(end.span, 0), at = first;
    for (; !end.is_dead_used && at.block < first.block + end.dead; at.block++) {
        if (doing.plain)
            follow(&at, UINT64_MAX);
        memset(at.done, 0, BLOCK_GRANULES);
        at.done += BLOCK_GRANULES;
        at.location += 2 * BLOCK_GRANULES;
    }
    end_blocks(first, end.dead);
}

void strands_end_lifetime(struct strand_lifetime_end end) {
    recent_begin();
    recent_end();
    steps_put_rest();
    frames_leave_short_way();
    blocks_leave_quick_sites();
    end_span_blocks(end.span);
    end_dead_blocks(end);
    frames_find_short_way();
    recent_finish();
    granules_begin_lifetime(end.span);
}

void strands_drop(void) {
    strands_part.used = 0;
    going_out.block = NULL;
}
