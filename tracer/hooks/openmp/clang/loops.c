/* Loops as clang compiles them, whose iterations count from 0 by 1; and sections, of which a thread gets all that it
   has at once. */
#include "openmp/bodies.h"
#include "openmp/barriers.h"
#include "openmp/clang/clang.h"
#include "openmp/critical.h"
#include "openmp/ordered.h"
#include "openmp/shares.h"
#include "openmp/silence.h"

#pragma GCC visibility push(hidden)

/* The kinds of schedules with `ordered` are those between, without the bits of their modifiers. */
static bool is_ordered(int32_t schedule) { return (schedule & 0xff) > 64 && (schedule & 0xff) < 160; }

static void begin_dispatch(struct loop loop, int32_t schedule, uintptr_t code) {
    if (is_ordered(schedule))
        ordered_begin_loop(loop, code);
    else
        loops_begin(loop);
}

/* With nowait the last values are stored behind the shares, up to a barrier that is clang's alone. */
static void end_shares(uintptr_t stack_pointer, uintptr_t code) {
    struct scope *thread = scopes_thread();
    silence_follow_body();
    thread->skips_barrier = thread->loop->has_late_last;
    if (thread->skips_barrier)
        shares_begin_following(thread, stack_pointer, code);
}

#define DISPATCH(SUFFIX, TYPE, STEP, LOOP) \
    void __kmpc_dispatch_init_##SUFFIX(CLANG, int32_t schedule, TYPE first, TYPE last, STEP step, STEP most) { \
        IGNORE, begin_dispatch(LOOP, schedule, CODE); \
    } \
    int32_t __kmpc_dispatch_next_##SUFFIX(CLANG, int32_t *is_last, TYPE *first, TYPE *last, STEP *step) { \
        uint64_t begin, end; \
        IGNORE; \
        if (!shares_take(&begin, &end, STACK_POINTER, CODE)) { \
            end_shares(STACK_POINTER, CODE); \
            return 0; \
        } \
        const struct loop *loop = scopes_thread()->loop; \
        *first = (TYPE)begin; \
        *last = (TYPE)(loop->start + loops_newest(loop) * loop->step); \
        *step = (STEP)loop->step; \
        *is_last = loops_newest(loop) + 1 == loop->count; \
        return 1; \
    } \
    void __kmpc_dispatch_fini_##SUFFIX(CLANG) { IGNORE; }
#define BY_SIGN loops_signed(first, (long)last + (step > 0 ? 1 : -1), step, most)
#define UPWARDS loops_unsigned(true, first, (uint64_t)last + 1, (uint64_t)step, most)
DISPATCH(4, int32_t, int32_t, BY_SIGN)
DISPATCH(4u, uint32_t, int32_t, UPWARDS)
DISPATCH(8, int64_t, int64_t, BY_SIGN)
DISPATCH(8u, uint64_t, int64_t, UPWARDS)

void __kmpc_for_static_init_4(CLANG, int32_t schedule, int32_t *is_last, int32_t *first, int32_t *last, int32_t *step,
                              int32_t by, int32_t most) {
    IGNORE, (void)schedule, (void)step, (void)by, (void)most;
    loops_begin(loops_sections((unsigned)(*last + 1)));
    struct scope *thread = scopes_thread();
    struct loop *loop = thread->loop;
    shares_come_to_loop(thread, CODE);
    uint64_t size = shares_left(thread);
    loop->has_late_last = bodies.newest->kind == BODY_LAST;
    loop->begun += size;
    *last = (int32_t)loops_newest(loop);
    *first = *last - (int32_t)size + 1;
    thread->taken += size;
    *is_last = size > 0 && loops_newest(loop) + 1 == loop->count;
    if (loop->in_blocks)
        shares_note_long(thread, size);
}
void __kmpc_for_static_fini(CLANG) { IGNORE, end_shares(STACK_POINTER, CODE); }

/* ---- Sums: each thread combines its own, under the guard of the runtime ---- */

static int32_t begin_sum(uintptr_t stack_pointer, uintptr_t code) {
    shares_begin_following(scopes_thread(), stack_pointer, code);
    critical_begin_combining();
    return 1;
}

static void end_sum(uintptr_t code) {
    critical_end_combining();
    if (!scopes_thread()->skips_barrier)
        shares_end_following(code);
}

#define SUMS CLANG, int32_t count, size_t size, void *data, void (*combine)(void *, void *), void *lock
int32_t __kmpc_reduce(SUMS) {
    IGNORE, (void)count, (void)size, (void)data, (void)combine, (void)lock;
    return begin_sum(STACK_POINTER, CODE);
}
int32_t __kmpc_reduce_nowait(SUMS) {
    IGNORE, (void)count, (void)size, (void)data, (void)combine, (void)lock;
    return begin_sum(STACK_POINTER, CODE);
}
void __kmpc_end_reduce(CLANG, void *lock) {
    IGNORE, (void)lock, end_sum(CODE);
    barriers_join_team(CODE);
}
void __kmpc_end_reduce_nowait(CLANG, void *lock) { IGNORE, (void)lock, end_sum(CODE); }

#pragma GCC visibility pop
