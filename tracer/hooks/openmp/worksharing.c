/* Loops and sections as gcc compiles them. */
#include "openmp/ordered.h"
#include "openmp/shares.h"
#include "openmp/teams.h"

#pragma GCC visibility push(hidden)

#define NEXT(NAME, TYPE) \
    bool NAME##_next(TYPE *first, TYPE *end) { \
        return shares_next((uint64_t *)first, (uint64_t *)end, STACK_POINTER, CODE); \
    }
#define LOOP(NAME, BEGIN) \
    bool NAME##_start(long start, long end, long step, long most, long *first, long *first_end) { \
        BEGIN(loops_signed(start, end, step, most)); \
        return shares_next((uint64_t *)first, (uint64_t *)first_end, STACK_POINTER, CODE); \
    } \
    NEXT(NAME, long)
#define UNSIGNED_LOOP(NAME, BEGIN) \
    bool NAME##_start(bool up, unsigned long long start, unsigned long long end, unsigned long long step, \
                      unsigned long long most, unsigned long long *first, unsigned long long *first_end) { \
        BEGIN(loops_unsigned(up, start, end, step, (long)most)); \
        return shares_next((uint64_t *)first, (uint64_t *)first_end, STACK_POINTER, CODE); \
    } \
    NEXT(NAME, unsigned long long)
LOOP(GOMP_loop_dynamic, loops_begin)
LOOP(GOMP_loop_nonmonotonic_dynamic, loops_begin)
LOOP(GOMP_loop_ordered_dynamic, BEGIN_ORDERED)
UNSIGNED_LOOP(GOMP_loop_ull_dynamic, loops_begin)
UNSIGNED_LOOP(GOMP_loop_ull_nonmonotonic_dynamic, loops_begin)
UNSIGNED_LOOP(GOMP_loop_ull_ordered_dynamic, BEGIN_ORDERED)

#define PARALLEL_LOOP(NAME) \
    void NAME(void (*run)(void *), void *data, unsigned threads, long start, long end, long step, long most, \
              unsigned flags) { \
        (void)flags; \
        struct loop whole = loops_signed(start, end, step, most); \
        teams_do((struct region){run, data, &whole, 1}, threads, STACK_POINTER, CODE); \
    }
PARALLEL_LOOP(GOMP_parallel_loop_dynamic)
PARALLEL_LOOP(GOMP_parallel_loop_nonmonotonic_dynamic)

void GOMP_loop_end(void) { shares_end_loop(CODE); }
bool GOMP_loop_end_cancel(void) {
    shares_end_loop(CODE);
    return false;
}
void GOMP_loop_end_nowait(void) { shares_end_following(CODE); }

/* ---- Sections ---- */

unsigned GOMP_sections_start(unsigned count) {
    loops_begin(loops_sections(count));
    return shares_next_section(STACK_POINTER, CODE);
}

unsigned GOMP_sections_next(void) { return shares_next_section(STACK_POINTER, CODE); }

void GOMP_parallel_sections(void (*run)(void *), void *data, unsigned threads, unsigned count, unsigned flags) {
    (void)flags;
    struct loop whole = loops_sections(count);
    whole.has_private = true;
    teams_do((struct region){run, data, &whole, 1}, threads, STACK_POINTER, CODE);
}

void GOMP_sections_end(void) { shares_end_loop(CODE); }
bool GOMP_sections_end_cancel(void) {
    shares_end_loop(CODE);
    return false;
}
void GOMP_sections_end_nowait(void) { shares_end_following(CODE); }

#pragma GCC visibility pop
