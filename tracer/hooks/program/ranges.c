/* The hooks of accesses that a loop makes, or loops around each other: SIZE bytes at AT and at so many steps from
   there, in up to three dimensions. All are of one strand, so their order is free: the smallest step comes first, and
   what lies one behind the other is one piece. */
#include "shadow/frames.h"
#include "program/locations.h"
#include "program/accesses.h"

struct dimension {
    intptr_t step;
    size_t count;
};
enum { MOST_DIMENSIONS = 3 };

/* What all accesses of a range have in common. */
struct accesses {
    bool writes;
    /* Whether they go the short way, and fill granules of the usual size. */
    bool is_short, is_usual;
    size_t size;
    uintptr_t stack_pointer, code;
};

/* Granules of the usual size, one behind the other. */
static void note_granules(bool writes, uintptr_t at, uintptr_t end, uintptr_t code) {
    const uint8_t bit = writes ? BLOCK_WROTE : BLOCK_READ;
    while (at < end) {
        intptr_t row = blocks_regions[blocks_region_of(at)];
        if (row <= 0) {
            locations_touch(writes, at, end - at, code);
            return;
        }
        uintptr_t block_end = (at | (blocks_size() - 1)) + 1, last = end < block_end ? end : block_end;
        uint8_t *done =
            (uint8_t *)((uintptr_t)(row + (intptr_t)(at >> GRANULE_USUAL_SHIFT)) & ~(uintptr_t)(BLOCK_GRANULES - 1));
        uint64_t granules = blocks_granules_from(blocks_granule_at(at), (last - at) >> GRANULE_USUAL_SHIFT),
                 new = blocks_new(writes, done, granules);
        if (new != 0 && (blocks_granules_without(done, BLOCK_QUICK) & new) == 0)
            blocks_set(done, new, bit);
        else if (new != 0)
            locations_touch_block(writes, at, last, code);
        at = last;
    }
}

static inline void note_piece(const struct accesses *all, uintptr_t at, size_t size) {
    if (all->is_short && all->is_usual)
        note_granules(all->writes, at, at + size, all->code);
    else
        accesses_note(all->writes, at, size, NULL, all->stack_pointer, all->code);
}

static void note_dimensions(const struct accesses *all, uintptr_t at, size_t piece, const struct dimension *list,
                            unsigned count) {
    if (count == 0) {
        note_piece(all, at, piece);
        return;
    }
    const struct dimension *last = &list[count - 1];
    for (size_t number = 0; number < last->count; number++)
        note_dimensions(all, at + number * (uintptr_t)last->step, piece, list, count - 1);
}

/* The dimensions in which there are several places, by ascending steps, of which none is negative then; how many there
   are, or -1 where nothing is accessed. */
static int in_order_of_steps(uintptr_t *at, const struct dimension *given, unsigned count, struct dimension *list) {
    int used = 0;
    for (unsigned from = 0; from < count; from++) {
        struct dimension dimension = given[from];
        if (dimension.count == 0)
            return -1;
        if (dimension.step == 0 || dimension.count == 1)
            continue;
        if (dimension.step < 0) {
            *at += (dimension.count - 1) * (uintptr_t)dimension.step;
            dimension.step = -dimension.step;
        }
        int place = used++;
        for (; place > 0 && list[place - 1].step > dimension.step; place--)
            list[place] = list[place - 1];
        list[place] = dimension;
    }
    return used;
}

static void note_range(bool writes, uintptr_t at, size_t size, const struct dimension *given, unsigned count,
                       uintptr_t stack_pointer, uintptr_t code) {
    struct dimension list[MOST_DIMENSIONS];
    int used = doing.tracing ? in_order_of_steps(&at, given, count, list) : -1, first = 0;
    if (used < 0)
        return;
    size_t piece = size;
    while (first < used && (size_t)list[first].step == piece)
        piece *= list[first++].count;
    const uintptr_t mask = ((uintptr_t)1 << GRANULE_USUAL_SHIFT) - 1;
    struct accesses all = {writes, stack_pointer < frames_short_way_end, ((at | size) & mask) == 0, size, stack_pointer,
                           code};
    for (int number = first; number < used; number++)
        all.is_usual &= ((uintptr_t)list[number].step & mask) == 0;
    note_dimensions(&all, at, piece, list + first, (unsigned)(used - first));
}

#define RANGES(KIND, WRITES) \
    void __spbags_##KIND##_range1(uintptr_t at, size_t size, intptr_t step1, size_t count1) { \
        struct dimension list[] = {{step1, count1}}; \
        note_range(WRITES, at, size, list, 1, STACK_POINTER, CODE); \
    } \
    void __spbags_##KIND##_range2(uintptr_t at, size_t size, intptr_t step1, size_t count1, intptr_t step2, \
                                  size_t count2) { \
        struct dimension list[] = {{step1, count1}, {step2, count2}}; \
        note_range(WRITES, at, size, list, 2, STACK_POINTER, CODE); \
    } \
    void __spbags_##KIND##_range3(uintptr_t at, size_t size, intptr_t step1, size_t count1, intptr_t step2, \
                                  size_t count2, intptr_t step3, size_t count3) { \
        struct dimension list[] = {{step1, count1}, {step2, count2}, {step3, count3}}; \
        note_range(WRITES, at, size, list, 3, STACK_POINTER, CODE); \
    }
RANGES(read, false)
RANGES(write, true)
