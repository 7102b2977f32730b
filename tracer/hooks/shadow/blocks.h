/* Memory that isn't the stack's lies in blocks of 64 granules. A byte for each granule says what the current strand has
   done with it that hasn't gone out: in one strand an access of a granule that was written before, or a read where it
   was read before, is a repeat, which makes no race of any location and unmakes none. A read behind a write isn't
   noted. Where the block has its place in the strand's list, BLOCK_QUICK says that nothing else is to be done at an
   access. A thread's own granules count as written in each strand. */
#ifndef SPBAGS_SHADOW_BLOCKS_H
#define SPBAGS_SHADOW_BLOCKS_H

#include "base/doing.h"
#include "shadow/granules.h"

enum { BLOCK_BITS = 6, BLOCK_GRANULES = 1 << BLOCK_BITS };
enum { BLOCK_READ = 1, BLOCK_WROTE = 2, BLOCK_QUICK = 0x80 };

struct block {
    /* The granules of heap blocks that died in the strands of their births. */
    uint64_t dead;
    /* From 1 on the place in the list of the strand; and the same while sites are noted there quickly, in a run that
       keeps places. Or 0. */
    uint16_t place, quick_place;
    /* Whether granules are a thread's own, which never go out; whether the block has gone out in the lifetime that its
       memory has; and whether accesses of it were byte-granular, and it has its place for these. */
    bool has_own, has_gone_out, is_byte_granular;
};

/* What is known of a region of memory comes with its first access: a byte for each granule, and for each heap block
   that may die in the strand of its birth, so many blocks of them for each span; and then these blocks. */
enum {
    BLOCK_REGION_BITS = 24,
    BLOCK_REGIONS = 1 << 23,
    BLOCK_REGION_SPANS = 1 << (BLOCK_REGION_BITS - GRANULE_SPAN_BITS),
    BLOCK_DEAD_BLOCKS = 64
};
static const uintptr_t blocks_region_mask = ((uintptr_t)1 << BLOCK_REGION_BITS) - 1;

/* Where the byte of the granule 0 would stand, if a region's bytes went on; or 0 where it has none. Of a region of the
   stack, which has marks, how many bytes behind the memory these begin: they are below it. */
extern intptr_t blocks_regions[BLOCK_REGIONS] __asm__("__spbags_regions");
/* That of the first access of a region, whose memory comes then, or of other memory in a region of the stack. */
__attribute__((cold)) intptr_t blocks_other_row(size_t region);
/* So many regions from this one on are of the stack. */
void blocks_begin_stack(size_t region, size_t count);

static inline size_t blocks_region_of(uintptr_t address) {
    return (address >> BLOCK_REGION_BITS) & (BLOCK_REGIONS - 1);
}

static inline size_t blocks_region_granules(void) { return ((size_t)1 << BLOCK_REGION_BITS) >> granules_shift; }

static inline size_t blocks_region_bytes(void) {
    return blocks_region_granules() + (size_t)BLOCK_REGION_SPANS * BLOCK_DEAD_BLOCKS * BLOCK_GRANULES;
}

static inline intptr_t blocks_row_of(uintptr_t address) {
    intptr_t row = blocks_regions[blocks_region_of(address)];
    return __builtin_expect(row > 0, 1) ? row : blocks_other_row(blocks_region_of(address));
}

/* In a run that keeps places an access of the program's text remembers the block that it alone reads, or writes, as far
   as sites are noted quickly there: by the address of the block's bytes, and the period in the first bits. Of a block
   with several sites it remembers the place in the last bits, if that is one of the first. When that may be so no more,
   another period begins. */
#ifndef PERIOD_SHIFT
#define PERIOD_SHIFT 47
#endif
extern uint64_t blocks_period __asm__("__spbags_period");
/* All periods have been. */
__attribute__((cold)) void blocks_begin_periods_again(void);

static inline void blocks_leave_quick_sites(void) {
    if (!doing.keeping_places)
        return;
    blocks_period += (uint64_t)1 << PERIOD_SHIFT;
    if (__builtin_expect(blocks_period == 0, 0))
        blocks_begin_periods_again();
}

static inline uint64_t blocks_remembered(const uint8_t *done) {
    return ((uintptr_t)done & ~(uintptr_t)(BLOCK_GRANULES - 1)) | blocks_period;
}

/* A block with its bytes, the location of its first granule, and the address of that, or 0 of a heap block that has
   died. */
struct block_touched {
    struct block *block;
    uint8_t *done;
    uint64_t location;
    uintptr_t address;
};

/* The block of these bytes, in the row of this region's address. */
static inline struct block *blocks_of_row(intptr_t row, uintptr_t address, const uint8_t *done) {
    uintptr_t first = (uintptr_t)row + ((address & ~blocks_region_mask) >> granules_shift);
    return (struct block *)(first + blocks_region_bytes()) + ((uintptr_t)done - first) / BLOCK_GRANULES;
}

/* The location of the granule with this address, in the lifetime that its memory has. */
static inline uint64_t blocks_location(uintptr_t address) { return 2 * (granules_name(address) >> granules_shift); }

static inline uintptr_t blocks_size(void) { return (uintptr_t)BLOCK_GRANULES << granules_shift; }

static inline struct block_touched blocks_at(uintptr_t address) {
    intptr_t row = blocks_row_of(address);
    uint8_t *done =
        (uint8_t *)((uintptr_t)(row + (intptr_t)(address >> granules_shift)) & ~(uintptr_t)(BLOCK_GRANULES - 1));
    const uintptr_t first = address & ~(blocks_size() - 1);
    return (struct block_touched){blocks_of_row(row, address, done), done, blocks_location(first), first};
}

/* The block of this heap block of a span, where that has died in the strand of its birth. */
struct block_touched blocks_dead(size_t span, size_t number);

/* A bit for each of a block's granules whose byte has none of these; and for each that has one. */
static inline uint64_t blocks_granules_without(const uint8_t *done, uint8_t bits) {
    const __m128i wanted = _mm_set1_epi8((char)bits);
    uint64_t granules = 0;
#pragma GCC unroll 4
    for (unsigned part = 0; part < BLOCK_GRANULES; part += 16) {
        __m128i has = _mm_and_si128(_mm_load_si128((const void *)(done + part)), wanted);
        granules |= (uint64_t)(unsigned)_mm_movemask_epi8(_mm_cmpeq_epi8(has, _mm_setzero_si128())) << part;
    }
    return granules;
}

static inline uint64_t blocks_granules_with(const uint8_t *done, uint8_t bits) {
    return ~blocks_granules_without(done, bits);
}

/* What makes an access of a granule a repeat. */
static inline uint8_t blocks_repeated_by(bool writes) { return writes ? BLOCK_WROTE : BLOCK_READ | BLOCK_WROTE; }

static inline bool blocks_was_done(bool writes, uint8_t done) { return (done & blocks_repeated_by(writes)) != 0; }

/* What isn't a repeat of these. */
static inline uint64_t blocks_new(bool writes, const uint8_t *done, uint64_t granules) {
    return granules & blocks_granules_without(done, blocks_repeated_by(writes));
}

/* Each in one step, so that what a handler of a signal sets meanwhile stays. */
static inline void blocks_set_bit(uint8_t *done, uint8_t bit) {
    __asm__ volatile("orb %1, %0" : "+m"(*done) : "qi"(bit) : "cc");
}

static inline void blocks_clear_bit(uint8_t *done, uint8_t bit) {
    __asm__ volatile("andb %1, %0" : "+m"(*done) : "qi"((uint8_t)~bit) : "cc");
}

static inline void blocks_set_in_all(uint8_t *done, uint8_t bit) {
    const uint64_t bits = bit * (UINT64_MAX / UINT8_MAX);
    for (unsigned part = 0; part < BLOCK_GRANULES; part += sizeof bits)
        __asm__ volatile("orq %1, %0" : "+m"(*(uint64_t *)(done + part)) : "r"(bits) : "cc");
}

static inline void blocks_clear_in_all(uint8_t *done, uint8_t bit) {
    const uint64_t bits = bit * (UINT64_MAX / UINT8_MAX);
    for (unsigned part = 0; part < BLOCK_GRANULES; part += sizeof bits)
        __asm__ volatile("andq %1, %0" : "+m"(*(uint64_t *)(done + part)) : "r"(~bits) : "cc");
}

static inline void blocks_set(uint8_t *done, uint64_t granules, uint8_t bit) {
    if (granules == UINT64_MAX) {
        blocks_set_in_all(done, bit);
        return;
    }
    for (; granules != 0; granules &= granules - 1)
        blocks_set_bit(&done[__builtin_ctzll(granules)], bit);
}

static inline void blocks_clear(uint8_t *done, uint64_t granules, uint8_t bit) {
    if (granules == UINT64_MAX) {
        blocks_clear_in_all(done, bit);
        return;
    }
    for (; granules != 0; granules &= granules - 1)
        blocks_clear_bit(&done[__builtin_ctzll(granules)], bit);
}

/* ---- The blocks of some memory ---- */

/* From 1 to 64 granules, from this one on. */
static inline uint64_t blocks_granules_from(unsigned first, size_t count) {
    return UINT64_MAX >> (BLOCK_GRANULES - count) << first;
}

static inline unsigned blocks_granule_at(uintptr_t address) { return address >> granules_shift & (BLOCK_GRANULES - 1); }

/* The granules of a block that some memory has, which begins with one of them: as many as begin before its end. The
   part ends where the block does, or before. */
struct block_part {
    struct block_touched in;
    uint64_t granules;
    uintptr_t end;
};

static inline struct block_part blocks_part_from(uintptr_t address, uintptr_t end) {
    uintptr_t block_end = (address | (blocks_size() - 1)) + 1, last = end < block_end ? end : block_end;
    size_t count = (last - address + granules_mask) >> granules_shift;
    return (struct block_part){blocks_at(address), blocks_granules_from(blocks_granule_at(address), count), last};
}

#endif
