/* Accesses are told in granules of some bytes, and where neighbours may race in bytes. The heap lies in spans of 64 KB,
   which have a range of addresses of their own. A span whose blocks are all free comes again for other blocks: it
   begins another lifetime then, and in each its granules have other locations. */
#ifndef SPBAGS_SHADOW_GRANULES_H
#define SPBAGS_SHADOW_GRANULES_H

#include "base/common.h"

/* ---- Granules ---- */

/* A granule is 1 << granules_shift bytes, and the usual one 1 << GRANULE_USUAL_SHIFT. */
extern unsigned granules_shift;
extern uintptr_t granules_mask;
enum { GRANULE_USUAL_SHIFT = 2 };

/* The bytes of the access at hand, where it doesn't fill all its granules; an end of 0 where it does. */
extern struct granules_range { uintptr_t first, end; } granules_partial;

/* A bit for each byte of this granule that the access at hand leaves out. */
static inline unsigned granules_bytes_left_out(uintptr_t granule) {
    if (__builtin_expect(granules_partial.end == 0, 1))
        return 0;
    unsigned size = (unsigned)granules_mask + 1, bytes = 0;
    if (granules_partial.first > granule)
        bytes |= (1u << (granules_partial.first - granule)) - 1;
    if (granules_partial.end < granule + size)
        bytes |= (1u << size) - (1u << (granules_partial.end - granule));
    return bytes;
}

/* Each byte of a granule that is byte-granular has a location of its own, above all others. */
enum { GRANULE_MOST_BYTES = 8 };
static const uint64_t granules_first_byte = (uint64_t)1 << 60;

static inline bool granules_is_byte(uint64_t location) { return location >= granules_first_byte; }

/* The location of the granule. */
static inline uint64_t granules_of(uint64_t location) {
    return granules_is_byte(location) ? (location - granules_first_byte) / GRANULE_MOST_BYTES : location;
}

/* ---- Lifetimes ---- */

enum { GRANULE_SPAN_BITS = 16, GRANULE_SPANS = 1 << 24 };
static const uintptr_t granules_first_span = (uintptr_t)1 << 32, granules_span_size = (uintptr_t)1 << GRANULE_SPAN_BITS;

/* The lifetime of each span, or 0 in its first; and the newest, since each lifetime has a number of its own. */
struct lifetimes {
    uint32_t *of, newest;
};

extern struct lifetimes granules_lifetimes;

/* Makes room for them where there is none: whether there is some then; or the run ends. */
bool granules_begin_lifetimes(void);
void granules_need_lifetimes(void);

/* The number of the span that has this address, or GRANULE_SPANS or more where none has. */
static inline size_t granules_span_at(uintptr_t address) {
    return (address - granules_first_span) >> GRANULE_SPAN_BITS;
}

static inline uintptr_t granules_span_first(size_t span) {
    return granules_first_span + ((uintptr_t)span << GRANULE_SPAN_BITS);
}

static inline void granules_begin_lifetime(size_t span) { granules_lifetimes.of[span] = ++granules_lifetimes.newest; }

/* By this address the memory is named in its lifetime: in the first by its own, and later by one that no memory has. */
static inline uintptr_t granules_name(uintptr_t address) {
    const uintptr_t first_lifetime = (uintptr_t)1 << 47;
    size_t span = granules_span_at(address);
    if (span >= GRANULE_SPANS || granules_lifetimes.of[span] == 0)
        return address;
    return first_lifetime + ((uintptr_t)granules_lifetimes.of[span] << GRANULE_SPAN_BITS) +
           address % granules_span_size;
}

/* The accesses of a block that died in the strand in which it was born are left out. Where it is used nevertheless,
   that and its end are accesses of one location, which stands for the whole block: of those of a span the first has
   this address. */
static inline uintptr_t granules_name_of_dead(size_t span) {
    const uintptr_t dead = (uintptr_t)1 << 49;
    return dead + granules_name(granules_span_first(span));
}

#endif
