/* These stand in for the library's own, in the libraries too. A block's memory comes again when all blocks of its span
   are free, and so many spans behind it. */
#include "program/heap.h"

#include "program/procedures.h"
#include "program/locations.h"
#include "program/statics.h"
#include "records/look_heap.h"
#include "base/memory.h"
#include "program/accesses.h"

int __real_munmap(void *at, size_t size);

enum { HEAD = 16, CHUNK = 64 << 20, FREE_WIDE = 16, FREE_WIDE_SPANS = 512 };
#ifndef FREE_SPANS
#define FREE_SPANS 16
#endif

/* Before each block stands its size; and where its step in the span begins, which may be before that, the strand of its
   birth, with the number of the local static to which it belongs: or that this is none, or that the block is free, or
   that it dies in that strand and will be free. */
struct head {
    size_t size;
    uint64_t born;
};
enum { NOT_IN_STRAND = 0, FREED = 1, DYING = 2, STRAND_BITS = 44 };
_Static_assert((int)DYING < (int)MARK_FIRST_READ && (uint64_t)STATIC_NUMBERS << STRAND_BITS == 0,
               "a strand has the number of none, or a static's has no room");

static struct head *head_of(const void *block) { return (struct head *)block - 1; }

/* A span with blocks, which are so far from each other; a block of several spans has 0, and its spans say how many of
   them stand before. */
struct span {
    uint32_t step, before;
    /* How many are in use, and whether more may come. */
    uint32_t blocks;
    bool is_open;
    /* Whether a block died in the strand of its birth, and whether such a one was used then. */
    bool has_dead, is_dead_used;
    /* The next of the free ones. */
    uint32_t next;
};
static struct span *spans;
/* How many have memory, and how many have been taken. */
static size_t spans_mapped, spans_taken;
/* Whether something else has the addresses of more spans. */
static bool has_no_spans;
/* The free ones, in the order in which they became so. */
static uint32_t free_first, free_last, free_count;
/* Free blocks of several spans, which come no more, and which the system gets later: the first span of each, and how
   many it has; which of them is the oldest, how many there are, and how many spans they have. */
static struct wide_block { size_t first, spans; } free_wide[FREE_WIDE];
static size_t oldest_wide, free_wide_count, free_wide_spans;

/* Blocks of one size, each in its step, come one behind another in a span. */
struct bump {
    uintptr_t at, end;
};
enum { CLASSES = 34 };
static struct bump bumps[CLASSES];
/* Memory that is in no span, and never comes again. */
static struct bump aside;
static bool is_aside;

/* A library may have threads of its own, by which no memory comes again: they aren't the one that runs the program. */
static bool heap_locked;
bool heap_reuses = true;

static bool is_of_run(void) { return __builtin_thread_pointer() == stacks_running_thread; }

/* ---- Spans ---- */

static void *map_chunk(uintptr_t wish, size_t size) {
    int flags = MAP_PRIVATE | MAP_ANONYMOUS | MAP_NORESERVE;
    return mmap((void *)wish, size, PROT_READ | PROT_WRITE, flags, -1, 0);
}

/* At addresses of our own where the system has them free, so that runs are alike and locations have few digits. */
static bool map_spans(size_t count) {
    uintptr_t wish = granules_span_first(spans_mapped);
    size_t size = (count * granules_span_size + CHUNK - 1) & ~(size_t)(CHUNK - 1);
    if (has_no_spans || spans_mapped + size / granules_span_size > GRANULE_SPANS)
        return false;
    if (!spans && !(granules_begin_lifetimes() && (spans = memory_reserve_or_none(GRANULE_SPANS * sizeof *spans))))
        return false;
    void *chunk = map_chunk(wish, size);
    if (chunk == MAP_FAILED)
        return false;
    if ((uintptr_t)chunk != wish) {
        has_no_spans = true;
        __real_munmap(chunk, size);
        return false;
    }
    spans_mapped += size / granules_span_size;
    return true;
}

/* The first of so many that were never taken, or GRANULE_SPANS. */
static size_t new_spans(size_t count) {
    size_t missing = spans_taken + count > spans_mapped ? spans_taken + count - spans_mapped : 0;
    if (count >= GRANULE_SPANS || (missing > 0 && !map_spans(missing)))
        return GRANULE_SPANS;
    spans_taken += count;
    return spans_taken - count;
}

static struct strand_lifetime_end end_of_lifetime(size_t span) {
    const struct span *of = &spans[span];
    size_t most = of->step > 0 ? granules_span_size / of->step : 1;
    return (struct strand_lifetime_end){.span = span,
                                        .dead =
                                            of->has_dead ? (unsigned)((most + BLOCK_GRANULES - 1) / BLOCK_GRANULES) : 0,
                                        .is_dead_used = of->is_dead_used};
}

/* No granule of the span has an access any more. */
static void end_span(size_t span) {
    if (doing.tracing)
        strands_end_lifetime(end_of_lifetime(span));
    else
        granules_begin_lifetime(span);
    spans[span] = (struct span){0};
}

/* One that comes again, or GRANULE_SPANS. */
static size_t old_span(void) {
    if (free_count <= FREE_SPANS || !is_of_run() || granules_lifetimes.newest == UINT32_MAX)
        return GRANULE_SPANS;
    size_t span = free_first;
    free_first = spans[span].next;
    free_count--;
    end_span(span);
    return span;
}

static void free_span(size_t span) {
    if (free_count++ == 0)
        free_first = (uint32_t)span;
    else
        spans[free_last].next = (uint32_t)span;
    free_last = (uint32_t)span;
}

static void leave_span(size_t span) {
    if (heap_reuses && !spans[span].is_open && spans[span].blocks == 0)
        free_span(span);
}

/* ---- New blocks ---- */

/* By the size with the head: up to 128 bytes a multiple of 16, and then four sizes up to each power of two, up to an
   eighth of a span; or a whole span. */
static size_t step_of(size_t size, unsigned *number) {
    unsigned shift = size <= 128 ? 4 : 61 - (unsigned)__builtin_clzll(size - 1);
    size_t steps = (size - 1) / ((size_t)1 << shift) + 1;
    *number = (shift - 4) * 4 + (unsigned)steps;
    if (steps << shift <= granules_span_size / 8)
        return steps << shift;
    *number = CLASSES - 1;
    return granules_span_size;
}

static bool open_span(struct bump *bump, size_t step) {
    size_t span = old_span();
    if (span == GRANULE_SPANS)
        span = new_spans(1);
    if (bump->end != 0) {
        size_t full = granules_span_at(bump->end - 1);
        spans[full].is_open = false;
        leave_span(full);
    }
    *bump = (struct bump){0};
    if (span == GRANULE_SPANS)
        return false;
    spans[span].step = (uint32_t)step;
    spans[span].is_open = true;
    *bump = (struct bump){granules_span_first(span), granules_span_first(span) + granules_span_size};
    return true;
}

/* So many bytes, or 0. */
static uintptr_t take_small(size_t size) {
    unsigned number;
    size_t step = step_of(size, &number);
    struct bump *bump = &bumps[number];
    if (bump->end - bump->at < step && !open_span(bump, step))
        return 0;
    spans[granules_span_at(bump->at)].blocks++;
    bump->at += step;
    return bump->at - step;
}

static uintptr_t take_large(size_t size) {
    size_t count = (size - 1) / granules_span_size + 1, first = new_spans(count);
    if (first == GRANULE_SPANS)
        return 0;
    for (size_t at = 0; at < count; at++)
        spans[first + at] = (struct span){.before = (uint32_t)at, .blocks = 1};
    return granules_span_first(first);
}

static uintptr_t take_aside(size_t size) {
    if (aside.end - aside.at < size) {
        size_t wanted = (size + CHUNK) & ~(size_t)4095;
        void *chunk = wanted < size ? MAP_FAILED : map_chunk(0, wanted);
        if (chunk == MAP_FAILED)
            return 0;
        aside = (struct bump){(uintptr_t)chunk, (uintptr_t)chunk + wanted};
    }
    aside.at += (size + HEAD - 1) & ~(size_t)(HEAD - 1);
    return aside.at - ((size + HEAD - 1) & ~(size_t)(HEAD - 1));
}

void heap_begin_aside(size_t size) {
    aside.at = (uintptr_t)memory_reserve(size);
    aside.end = aside.at + size;
    is_aside = true;
}

void heap_end_aside(void) { is_aside = false; }

static uintptr_t take_bytes(size_t size) {
    uintptr_t taken = is_aside ? 0 : size <= granules_span_size ? take_small(size) : take_large(size);
    return taken != 0 ? taken : take_aside(size);
}

static void lock_heap(void) {
    while (__atomic_test_and_set(&heap_locked, __ATOMIC_ACQUIRE))
        continue;
}

static void unlock_heap(void) { __atomic_clear(&heap_locked, __ATOMIC_RELEASE); }

/* With room for a head, and for the block behind it at a multiple of the alignment; or 0. */
static uintptr_t locked_bytes(size_t size, size_t alignment) {
    const size_t most = (size_t)1 << 47;
    if (size > most || alignment > most)
        return 0;
    lock_heap();
    uintptr_t taken = take_bytes(HEAD + alignment + size);
    unlock_heap();
    return taken;
}

static uint64_t strand_now(void) { return marks_strand_now() << (64 - STRAND_BITS) >> (64 - STRAND_BITS); }

static void *new_block(size_t alignment, size_t size) {
    if ((alignment & (alignment - 1)) != 0) {
        errno = EINVAL;
        return NULL;
    }
    alignment = alignment <= HEAD ? 0 : alignment;
    uintptr_t taken = locked_bytes(size > 0 ? size : 1, alignment);
    if (taken == 0) {
        errno = ENOMEM;
        return NULL;
    }
    uintptr_t block = taken + HEAD;
    if (alignment > 0)
        block = (block + alignment - 1) & ~(alignment - 1);
    bool is_in_strand = doing.tracing && is_of_run();
    head_of((void *)block)->size = size;
    ((struct head *)taken)->born =
        is_in_strand ? (uint64_t)statics_newest() << STRAND_BITS | strand_now() : NOT_IN_STRAND;
    return (void *)block;
}

/* ---- Blocks that end ---- */

static size_t span_of_block(uintptr_t address) {
    size_t span = granules_span_at(address);
    return span < GRANULE_SPANS ? span - spans[span].before : GRANULE_SPANS;
}

/* Which of the span's blocks has this address. */
static size_t block_in(size_t span, uintptr_t address) {
    return spans[span].step > 0 ? (uint32_t)(address % granules_span_size) / spans[span].step : 0;
}

static uint64_t *born_at(size_t span, uintptr_t address) {
    return &((struct head *)(granules_span_first(span) + block_in(span, address) * spans[span].step))->born;
}

/* What stands for the block with this address, if it dies in the strand of its birth; or 0. */
static uint64_t location_if_dead(uintptr_t address) {
    size_t span = span_of_block(address), number = span < GRANULE_SPANS ? block_in(span, address) : 0;
    return span < GRANULE_SPANS ? blocks_dead(span, number).location + 2 * (number % BLOCK_GRANULES) : 0;
}

/* An access of that location. */
static void note_dead(bool writes, uintptr_t address, uintptr_t code) {
    size_t span = span_of_block(address), number = block_in(span, address);
    struct block_touched in = blocks_dead(span, number);
    if (!blocks_was_done(writes, in.done[number % BLOCK_GRANULES]))
        records_put_in_block(writes, &in, number % BLOCK_GRANULES, address, code);
}

void heap_use_dead(bool writes, uintptr_t address, uintptr_t code) {
    spans[span_of_block(address)].is_dead_used = true;
    note_dead(writes, address, code);
}

/* The bytes of a block, up to the end of a granule. */
static size_t whole_size(const void *block) { return (head_of(block)->size + 7) & ~(size_t)7; }

/* Whether the block was born in the strand that runs. */
static bool is_of_strand(uintptr_t block) {
    size_t span = span_of_block(block);
    return doing.tracing && steps_may_leave_out && is_of_run() && span < GRANULE_SPANS &&
           (*born_at(span, block) ^ strand_now()) << (64 - STRAND_BITS) == 0;
}

uint32_t heap_static_of(uintptr_t address) {
    bool is_in_span = granules_span_at(address) < spans_taken;
    return is_in_span ? (uint32_t)(*born_at(span_of_block(address), address) >> STRAND_BITS) : 0;
}

/* The block dies in the strand of its birth. */
static void die(uintptr_t block, size_t size) {
    *born_at(span_of_block(block), block) = DYING;
    spans[span_of_block(block)].has_dead = true;
    strands_set_dead(block, block + size);
}

void heap_end_block(void *block, __spbags_function self, uintptr_t stack_pointer, uintptr_t code) {
    if (!block || !doing.tracing || frames_hidden > 0 ||
        (frames_is_on_the_way(self) && stack_pointer < frames_top->end))
        return;
    procedures_leave_jumped(stack_pointer, code);
    if (frames_is_on_the_way(self))
        return;
    uintptr_t address = (uintptr_t)block;
    if (statics_have(address, 0))
        return;
    if (!is_of_strand(address)) {
        locations_touch(true, address, whole_size(block), code);
    } else if (whole_size(block) > 0) {
        die(address, whole_size(block));
        note_dead(true, address, code);
    }
}

static void give_back_pages(void *first, void *end) {
    const uintptr_t page = 4096;
    uintptr_t from = ((uintptr_t)first + page - 1) & ~(page - 1), to = (uintptr_t)end & ~(page - 1);
    if (from < to)
        madvise((void *)from, to - from, MADV_DONTNEED);
}

/* The memory of a block that has several spans goes back to the system, and so does what is known of it. */
static void give_back_wide(struct wide_block block) {
    for (size_t span = block.first; span < block.first + block.spans; span++) {
        end_span(span);
        struct block_touched first = blocks_at(granules_span_first(span));
        give_back_pages(first.done, first.done + (granules_span_size >> granules_shift));
        give_back_pages(first.block, first.block + granules_span_size / blocks_size());
    }
    give_back_pages((void *)granules_span_first(block.first), (void *)granules_span_first(block.first + block.spans));
}

static void give_back_oldest(void) {
    struct wide_block oldest = free_wide[oldest_wide];
    oldest_wide = (oldest_wide + 1) % FREE_WIDE;
    free_wide_count--;
    free_wide_spans -= oldest.spans;
    give_back_wide(oldest);
}

static void free_wide_block(struct wide_block block) {
    if (free_wide_count == FREE_WIDE)
        give_back_oldest();
    free_wide[(oldest_wide + free_wide_count++) % FREE_WIDE] = block;
    free_wide_spans += block.spans;
    while (free_wide_spans > FREE_WIDE_SPANS)
        give_back_oldest();
}

static void free_block(size_t span, uintptr_t end) {
    lock_heap();
    spans[span].blocks--;
    if (spans[span].step > 0)
        leave_span(span);
    else if (heap_reuses)
        free_wide_block((struct wide_block){span, (end - 1 - granules_span_first(span)) / granules_span_size + 1});
    unlock_heap();
}

/* Of who gave it back nothing is known, so what a library frees has died in no strand, and its accesses stay. What is
   free already stays so. */
static void give_back(void *block) {
    uintptr_t address = (uintptr_t)block;
    size_t span = span_of_block(address);
    if (!is_of_run() || span >= GRANULE_SPANS || *born_at(span, address) == FREED)
        return;
    *born_at(span, address) = FREED;
    free_block(span, address + head_of(block)->size);
}

/* ---- The library's functions ---- */

/* For who called the hook. */
#define BLOCK(ALIGNMENT, SIZE) seen_block(new_block(ALIGNMENT, SIZE), SIZE, STACK_POINTER, CODE)
static inline void *seen_block(void *block, size_t size, uintptr_t stack_pointer, uintptr_t code) {
    if (__builtin_expect(doing.looking, 0) && block)
        look_heap_note((uintptr_t)block, size, location_if_dead((uintptr_t)block), stack_pointer, code);
    return block;
}

size_t malloc_usable_size(void *block) { return block ? head_of(block)->size : 0; }

void *malloc(size_t size) { return BLOCK(0, size); }

static bool is_zero(uintptr_t block) {
    return granules_span_at(block) >= GRANULE_SPANS || granules_lifetimes.of[granules_span_at(block)] == 0;
}

void *calloc(size_t count, size_t size) {
    size_t whole;
    if (__builtin_mul_overflow(count, size, &whole))
        whole = SIZE_MAX;
    void *block = BLOCK(0, whole);
    if (block && !is_zero((uintptr_t)block))
        memset(block, 0, whole);
    return block;
}

void free(void *block) {
    if (block)
        give_back(block);
}

/* The moved block, or null; then the other one stays. */
static void *move_block(void *block, void *moved) {
    if (moved && block) {
        size_t before = malloc_usable_size(block), size = malloc_usable_size(moved);
        memcpy(moved, block, before < size ? before : size);
        give_back(block);
    }
    return moved;
}

void *realloc(void *block, size_t size) { return move_block(block, BLOCK(0, size)); }

void *aligned_alloc(size_t alignment, size_t size) { return BLOCK(alignment, size); }
void *memalign(size_t alignment, size_t size) { return BLOCK(alignment, size); }
void *valloc(size_t size) { return BLOCK(4096, size); }
void *pvalloc(size_t size) { return BLOCK(4096, (size + 4095) & ~(size_t)4095); }

int posix_memalign(void **block, size_t alignment, size_t size) {
    void *made = BLOCK(alignment, size);
    if (!made)
        return errno;
    if (doing.tracing && caller_is_program(CODE))
        NOTE_WRITE(block, sizeof *block, posix_memalign);
    *block = made;
    return 0;
}

#define END_BLOCK(BLOCK, SELF) heap_end_block(BLOCK, (__spbags_function)SELF, STACK_POINTER, CODE)

void __wrap_free(void *block) {
    END_BLOCK(block, __wrap_free);
    free(block);
}

#define REALLOC(SELF) \
    void *moved = BLOCK(0, size); \
    if (moved) \
        END_BLOCK(block, SELF); \
    return move_block(block, moved)

void *__wrap_realloc(void *block, size_t size) { REALLOC(__wrap_realloc); }

void *__wrap_reallocarray(void *block, size_t count, size_t each) {
    size_t size;
    if (__builtin_mul_overflow(count, each, &size))
        size = SIZE_MAX;
    REALLOC(__wrap_reallocarray);
}
