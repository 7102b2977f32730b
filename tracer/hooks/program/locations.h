/* Accesses are told in granules. Stack memory comes again for other variables, so a granule of it gets a fresh number
   at its first touch, and loses it when its frame ends: an odd location. Other memory has an even one: twice the
   address in granules, by which that of the heap is named as it goes out. */
#ifndef SPBAGS_PROGRAM_LOCATIONS_H
#define SPBAGS_PROGRAM_LOCATIONS_H

#include "base/openmp.h"
#include "records/look.h"
#include "records/records.h"
#include "records/views.h"
#include "shadow/marks.h"

/* Of the granule of the stack that begins at this address. A signal's handler that gave a number meanwhile would give
   the same one. */
static inline uint64_t locations_of_stack(uintptr_t address, const uint32_t *mark) {
    uint64_t *number = marks_number(mark);
    if (*mark == MARK_UNTOUCHED) {
        if (__builtin_expect(steps_is_window_full(), 0))
            recent_end_window();
        recent_begin();
        *number = ++steps_last_number;
        stacks_lower(address);
        recent_finish();
    }
    return 2 * *number + 1;
}

/* ---- Memory that has no variable any more ---- */

/* Groups of which numbers have ended, each at the remainder of its own, and which of its numbers have. They go out when
   another group has this place. */
enum { LOCATION_ENDED_GROUPS = 8 };
extern struct location_ended {
    uint64_t group;
    unsigned members;
} locations_ended[LOCATION_ENDED_GROUPS];

static inline struct location_ended *locations_place_of_ended(uint64_t number) {
    return &locations_ended[number / STEPS_GROUP_NUMBERS % LOCATION_ENDED_GROUPS];
}

/* Those of the granules with these marks whose bits are set, which may die within their window. */
void locations_end_numbers(const uint32_t *marks, unsigned granules);

/* Without a call where they are older, and of groups at hand. */
static inline void locations_end_at_hand(const uint32_t *marks, unsigned granules) {
    for (; granules != 0; granules &= granules - 1) {
        const uint64_t number = *marks_number(marks + __builtin_ctz(granules));
        struct location_ended *ended = locations_place_of_ended(number);
        if (!DOING_HAS_DETECTOR || number > steps_window_number || number / STEPS_GROUP_NUMBERS != ended->group) {
            locations_end_numbers(marks, granules);
            return;
        }
        ended->members |= 1u << number % STEPS_GROUP_NUMBERS;
    }
}

static inline __m128i locations_untouched_four(const uint32_t *marks) {
    return _mm_cmpeq_epi32(_mm_loadu_si128((const void *)marks), _mm_setzero_si128());
}

/* A bit for each of so many marks that says that its granule is touched. */
static inline unsigned locations_touched_among(const uint32_t *marks) {
    __m128i first = _mm_packs_epi32(locations_untouched_four(marks), locations_untouched_four(marks + 4)),
            last = _mm_packs_epi32(locations_untouched_four(marks + 8), locations_untouched_four(marks + 12));
    return (unsigned)_mm_movemask_epi8(_mm_packs_epi16(first, last)) ^ ((1u << MARK_CLEARED) - 1);
}

/* Whether the end of a number matters: to the detector, or since its accesses may be left out. Where there is a
   detector ends are in the window of any run, since all runs of a program leave out the same. */
static inline bool locations_count_ends(void) {
    return doing_detects() || (steps_may_leave_out && (DOING_HAS_DETECTOR || steps_last_number > steps_window_number));
}

/* Down to the lowest of these marks, and so many together that those below may be among them. */
static inline void locations_clear_marks(const uint32_t *lowest_mark, uint32_t *end) {
    while (end > lowest_mark) {
        unsigned granules = locations_touched_among(end -= MARK_CLEARED);
        if (granules == 0)
            continue;
        if (locations_count_ends())
            locations_end_at_hand(end, granules);
        __builtin_memset(end, MARK_UNTOUCHED, MARK_CLEARED * sizeof *end);
    }
}

/* So much memory from this address on; of granules that are byte-granular, bytes. */
void locations_clear(uintptr_t address, size_t size);

/* ---- Accesses ---- */

/* A granule of the stack that is accessed, by its first address and its mark: it is no repeat. An update of a view
   counts as a read; where another variable has a part of the granule, the mark is that of a read too. */
void locations_note_stack(bool writes, uintptr_t address, uint32_t *mark, unsigned shift, uintptr_t code);

/* Whether there is nothing else to do. */
ALWAYS_INLINE bool locations_is_noted_quickly(uintptr_t address, const uint32_t *mark) {
    return strands_stack_noted_quickly && stacks_is_of_running(address) &&
           !(*mark == MARK_UNTOUCHED && steps_is_window_full());
}

/* Then this is done in a step; the location, whose record comes now. */
ALWAYS_INLINE uint64_t locations_quick(bool writes, uintptr_t address, uint32_t *mark) {
    uint64_t *number = marks_number(mark);
    if (*mark == MARK_UNTOUCHED) {
        *number = ++steps_last_number;
        stacks_lower_running(address);
    }
    const uint64_t location = 2 * *number + 1;
    *mark = marks_new(writes);
    course_stack(writes, location);
    return location;
}

/* Without calls on the way where there is nothing else to do. */
ALWAYS_INLINE void locations_note_stack_granule(bool writes, uintptr_t address, uint32_t *mark, unsigned shift,
                                                uintptr_t code) {
    uint64_t site;
    if (__builtin_expect(openmp_seeks, 0) && !writes)
        openmp_seek_in_stack(address);
    if (__builtin_expect(!locations_is_noted_quickly(address, mark) || !records_find_access_bits(code, &site), 0)) {
        locations_note_stack(writes, address, mark, shift, code);
        return;
    }
    changes_begin_step();
    steps_put_at(writes ? SPBAGS_WRITE : SPBAGS_READ, locations_quick(writes, address, mark), site);
    changes_end_step();
}

/* A granule of a block that is accessed. That of a heap block that has died is the heap's matter. */
void locations_note_granule(bool writes, const struct block_touched *in, unsigned granule, uintptr_t address,
                            uintptr_t code);

/* Nothing of the block has been accessed, and it is the program's alone. From now on the first accesses to its granules
   are noted quickly, or the sites there, and these are noted. */
static inline void locations_begin_quick(bool writes, const struct block_touched *in, unsigned first, size_t count,
                                         uintptr_t code) {
    recent_begin();
    strands_list(in);
    if (doing.keeping_places)
        strands_begin_quick_sites(writes, in, code);
    else
        blocks_set_in_all(in->done, BLOCK_QUICK);
    for (size_t at = 0; at < count; at++)
        blocks_set_bit(&in->done[first + at], writes ? BLOCK_WROTE : BLOCK_READ);
    recent_finish();
}

static inline bool locations_is_looked_at(const struct block_touched *in) {
    return __builtin_expect(doing.looking, 0) && look_has_race_in(in->location);
}

static inline bool locations_may_begin_quick(const struct block_touched *in) {
    const struct block *block = in->block;
    return strands_noted_quickly && block->place == 0 && block->dead == 0 && !block->has_own &&
           !locations_is_looked_at(in) && records_site_is_code();
}

/* What this memory touches of the block in which it begins; the end of that. */
uintptr_t locations_touch_block(bool writes, uintptr_t granule, uintptr_t end, uintptr_t code);
/* One record for each granule that the access touches, but for repeats. */
void locations_touch(bool writes, uintptr_t address, size_t size, uintptr_t code);
/* Accesses that don't fill their granules may race with neighbours. */
void locations_tell_partial(void);

#endif
