#include "records/packing.h"

/* Mostly there are few. */
static uint16_t *put_new(uint16_t *to, const uint16_t *first, const uint16_t *end) {
    *to++ = (uint16_t)(end - first);
    while (first < end)
        *to++ = *first++;
    return to;
}

enum { FOUR = 4 };

static inline uint64_t four_at(const uint16_t *at) {
    uint64_t four;
    __builtin_memcpy(&four, at, sizeof four);
    return four;
}

/* The end of what stands so far back too. */
static const uint16_t *end_of_same(const uint16_t *at, const uint16_t *end, ptrdiff_t back) {
    while (end - at >= FOUR && four_at(at) == four_at(at - back))
        at += FOUR;
    while (at < end && *at == at[-back])
        at++;
    return at;
}

/* Where four numbers stand again, as many as do behind them are taken together: so they take one number less at least. */
size_t packing_pack(const uint16_t *numbers, size_t count, uint16_t *packed) {
    enum { SLOT_BITS = 12 };
    static uint16_t newest[1 << SLOT_BITS];
    const uint16_t *end = numbers + count, *first = numbers, *at = numbers;
    uint16_t *to = packed;
    memset(newest, 0, sizeof newest);
    while (end - at >= FOUR) {
        const uint64_t four = four_at(at);
        uint16_t *slot = &newest[four * 0x9e3779b97f4a7c15u >> (64 - SLOT_BITS)];
        const ptrdiff_t back = at - numbers - *slot;
        *slot = (uint16_t)(at - numbers);
        if (back == 0 || four_at(at - back) != four) {
            at++;
            continue;
        }
        to = put_new(to, first, at);
        first = at;
        at = end_of_same(at + FOUR, end, back);
        *to++ = (uint16_t)back;
        *to++ = (uint16_t)(at - first);
        first = at;
    }
    return (size_t)(put_new(to, first, end) - packed);
}
