/* The hooks of accesses. */
#include "program/procedures.h"
#include "records/guards.h"
#include "program/locations.h"
#include "program/statics.h"
#include "program/accesses.h"

/* An atomic access is made. */
static bool is_atomic;

__attribute__((noinline)) static void other_access(bool writes, uintptr_t at, size_t size, __spbags_function self,
                                                   uintptr_t stack_pointer, uintptr_t code) {
    if (!doing.tracing || frames_hidden > 0)
        return;
    procedures_leave_jumped(stack_pointer, code);
    if (is_atomic && frames_top <= frames_silent) {
        frames_left_out_update = true;
        return;
    }
    if (!frames_is_on_the_way(self) && !statics_have(at, size))
        locations_touch(writes, at, size, code);
}

static inline void any_access(bool writes, uintptr_t at, size_t size, __spbags_function self, uintptr_t stack_pointer,
                              uintptr_t code) {
    if (!doing.tracing || (frames_is_on_the_way(self) && stack_pointer < frames_top->end))
        return;
    other_access(writes, at, size, self, stack_pointer, code);
}

void accesses_note(bool writes, uintptr_t at, size_t size, __spbags_function self, uintptr_t stack_pointer,
                   uintptr_t code) {
    any_access(writes, at, size, self, stack_pointer, code);
}

/* Of the short way: these granules aren't all repeats. */
__attribute__((noinline)) static void note_stack_granules(bool writes, uintptr_t at, size_t size, uintptr_t code) {
    uint32_t *mark = marks_at(at);
    for (uintptr_t granule = at; granule < at + size; granule += 1 << GRANULE_USUAL_SHIFT, mark++)
        if (!marks_is_repeat(writes, *mark))
            locations_note_stack_granule(writes, granule, mark, GRANULE_USUAL_SHIFT, code);
}

/* A region of the stack has other memory too. */
ALWAYS_INLINE void note_usual_marks(bool writes, uintptr_t at, size_t size, uint32_t *mark, uintptr_t code) {
    if (stacks_is_of_running(at) && size >> GRANULE_USUAL_SHIFT == 1)
        locations_note_stack_granule(writes, at, mark, GRANULE_USUAL_SHIFT, code);
    else if (stacks_have(at))
        note_stack_granules(writes, at, size, code);
    else
        locations_touch_block(writes, at, at + size, code);
}

static inline bool are_repeats(bool writes, const uint32_t *mark, size_t granules) {
    const uint32_t least_mark = marks_new(writes);
#pragma GCC unroll 4
    for (size_t granule = 0; granule < granules; granule++)
        if (mark[granule] < least_mark)
            return false;
    return true;
}

static inline bool are_done(bool writes, const uint8_t *done, size_t granules) {
#pragma GCC unroll 4
    for (size_t granule = 0; granule < granules; granule++)
        if (!blocks_was_done(writes, done[granule]))
            return false;
    return true;
}

/* Some granules of the usual size in one block, or of the stack. */
static inline void usual_granules(bool writes, uintptr_t at, size_t size, uintptr_t code) {
    intptr_t row = blocks_regions[blocks_region_of(at)];
    if (row < 0) {
        uint32_t *mark = (uint32_t *)((intptr_t)at + row);
        if (__builtin_expect(!are_repeats(writes, mark, size >> GRANULE_USUAL_SHIFT), 0))
            note_usual_marks(writes, at, size, mark, code);
    } else if (row == 0 ||
               !are_done(writes, (uint8_t *)row + (at >> GRANULE_USUAL_SHIFT), size >> GRANULE_USUAL_SHIFT)) {
        locations_touch_block(writes, at, at + size, code);
    }
}

/* An access of the program that doesn't go the short way. */
__attribute__((noinline)) static void long_way(bool writes, uintptr_t at, size_t size, uintptr_t stack_pointer,
                                               uintptr_t code) {
    any_access(writes, at, size, NULL, stack_pointer, code);
}

/* The short way of most accesses: the granule is the usual one, and they fill one or several granules. */
static inline void usual_access(bool writes, uintptr_t at, size_t size, uintptr_t stack_pointer, uintptr_t code) {
    if (size >> GRANULE_USUAL_SHIFT == 0 || stack_pointer >= frames_short_way_end || (at & (size - 1)) != 0)
        long_way(writes, at, size, stack_pointer, code);
    else
        usual_granules(writes, at, size, code);
}

/* The linker's name for the end of what is only read in the program. */
extern char __init_array_start[];

/* Constants as a format aren't recorded, since nothing writes them; they would be told as partial accesses. */
void accesses_note_read(uintptr_t at, size_t size, __spbags_function self, uintptr_t stack_pointer, uintptr_t code) {
    if (at < (uintptr_t)__executable_start || at >= (uintptr_t)__init_array_start)
        any_access(false, at, size, self, stack_pointer, code);
}

void accesses_note_write(uintptr_t at, size_t size, __spbags_function self, uintptr_t stack_pointer, uintptr_t code) {
    any_access(true, at, size, self, stack_pointer, code);
}

#define OFTEN(WRITES, AT, SIZE) usual_access(WRITES, (uintptr_t)(AT), SIZE, STACK_POINTER, CODE)
#define ACCESS(WRITES, AT, SIZE) any_access(WRITES, (uintptr_t)(AT), SIZE, NULL, STACK_POINTER, CODE)
#define READ(AT, SIZE) ACCESS(false, AT, SIZE)
#define WRITE(AT, SIZE) ACCESS(true, AT, SIZE)

#define ACCESSES(SIZE) \
    void __tsan_read##SIZE(void *at) { OFTEN(false, at, SIZE); } \
    void __tsan_write##SIZE(void *at) { OFTEN(true, at, SIZE); }
ACCESSES(1)
ACCESSES(2)
ACCESSES(4)
ACCESSES(8)
ACCESSES(16)

/* The first of some granules that aren't noted quickly. */
static inline void first_granules(bool writes, uintptr_t at, size_t size, uintptr_t code) {
    struct block_touched in = blocks_at(at);
    unsigned granule = blocks_granule_at(at);
    if (__builtin_expect(locations_may_begin_quick(&in), 1))
        locations_begin_quick(writes, &in, granule, size >> GRANULE_USUAL_SHIFT, code);
    else if (in.block->quick_place != 0 && records_site_is_code())
        records_note_in_block(
            writes, &in, blocks_new(writes, in.done, blocks_granules_from(granule, size >> GRANULE_USUAL_SHIFT)), code);
    else if (strands_noted_quickly)
        locations_touch_block(writes, at, at + size, code);
    else
        for (uintptr_t part = at; part < at + size; part += 1 << GRANULE_USUAL_SHIFT, granule++)
            if (!blocks_was_done(writes, in.done[granule]))
                locations_note_granule(writes, &in, granule, part, code);
}

/* This is all where sites are noted quickly, for the granules of an access of which the first one that isn't noted has
   this byte: it has the only site or one of several, and remembers which. If a signal ends the run before the site stands
   there, it isn't known. */
static inline bool has_quick_site(bool writes, uintptr_t at, size_t size, uint8_t *done, uintptr_t code,
                                  uint64_t *remembered) {
    /* Of this period, whatever a handler of a signal makes of that. */
    const uint64_t block = blocks_remembered(done);
    changes_in_order();
    uint64_t place = *remembered ^ block, only = STRAND_SEVERAL_SITES;
    if (place == 0 || place >= BLOCK_GRANULES) {
        place = blocks_of_row(blocks_regions[blocks_region_of(at)], at, done)->quick_place;
        if (place == 0 || guards_held > 0)
            return false;
        only = strands_part.only_sites[place - 1][writes];
    }
    uint32_t *site = &strands_part.sites[place - 1][writes][(uintptr_t)done % BLOCK_GRANULES];
    const bool has_two =
        size >> GRANULE_USUAL_SHIFT == 2 && (uintptr_t)done % 2 == 0 && !blocks_was_done(writes, done[1]);
    if (only == code) {
        *remembered = block;
    } else if (only == STRAND_SEVERAL_SITES) {
        if (place < BLOCK_GRANULES)
            *remembered = block | place;
        site[0] = site[has_two] = (uint32_t)code;
    } else {
        return false;
    }
    if (has_two)
        blocks_set_bit(&done[1], writes ? BLOCK_WROTE : BLOCK_READ);
    return true;
}

/* What the text in inline_checks.h calls for such an access that isn't noted quickly, with the byte of the first
   granule that isn't, which says already that this is done, and what the access remembers; of the stack, where it is no
   repeat, with the mark; and for the rest. */
__attribute__((noinline)) static void note_first(bool writes, uintptr_t at, size_t size, uint8_t *done, uintptr_t code,
                                                 uint64_t *remembered) {
    blocks_clear_bit(done, writes ? BLOCK_WROTE : BLOCK_READ);
    first_granules(writes, at, size, code);
    if (doing.keeping_places)
        has_quick_site(writes, at, size, done, code, remembered);
}

#define BEHIND_TEST(KIND, WRITES, SIZE) \
    void __spbags_block_##KIND##SIZE(uintptr_t at, uint8_t *done, uint64_t *remembered) { \
        if (!has_quick_site(WRITES, at, SIZE, done, CODE, remembered)) \
            note_first(WRITES, at, SIZE, done, CODE, remembered); \
    } \
    void __spbags_stack_##KIND##SIZE(uintptr_t at, uint32_t *mark) { note_usual_marks(WRITES, at, SIZE, mark, CODE); } \
    void __spbags_long_##KIND##SIZE(void *at) { OFTEN(WRITES, at, SIZE); }
BEHIND_TEST(read, false, 4)
BEHIND_TEST(read, false, 8)
BEHIND_TEST(write, true, 4)
BEHIND_TEST(write, true, 8)

void __tsan_read_range(void *at, size_t size) { READ(at, size); }
void __tsan_write_range(void *at, size_t size) { WRITE(at, size); }

/* The run has one thread, so plain operations do. A determinacy race doesn't ask whether accesses are atomic. */
#define ATOMICALLY(ACCESSES) \
    do { \
        guards_enter(GUARD_ATOMIC, "atomic"); \
        is_atomic = true; \
        ACCESSES; \
        is_atomic = false; \
        guards_leave(GUARD_ATOMIC); \
    } while (false)
/* Beside an operation that the program makes itself: an access; or what the operation writes if it finds
   what it expects there, and else perhaps where that was. */
void __spbags_atomic(const volatile void *at, unsigned long size, long writes) {
    ATOMICALLY(ACCESS(writes != 0, at, size));
}
void __spbags_compare(const volatile void *at, const void *expected, unsigned long size, long is_stored) {
    ATOMICALLY(READ(at, size));
    if (memcmp((const void *)at, expected, size) == 0)
        ATOMICALLY(WRITE(at, size));
    else if (is_stored)
        WRITE(expected, size);
}
