/* Regions, barriers, and what one thread does, as clang compiles them. */
#include "openmp/clang/clang.h"

#include "records/guards.h"
#include "openmp/barriers.h"
#include "openmp/cancel.h"
#include "openmp/critical.h"
#include "openmp/members.h"
#include "openmp/ordered.h"
#include "openmp/parts.h"
#include "openmp/shares.h"
#include "openmp/teams.h"

#pragma GCC visibility push(hidden)

int32_t __kmpc_global_thread_num(const void *place) {
    (void)place;
    return scopes_thread()->thread;
}

/* ---- Regions. What they share comes as arguments, which a function that has fewer of them doesn't look at ---- */

enum { MOST_SHARED = 32 };
struct microtask {
    void (*run)(int32_t *, int32_t *, ...);
    void *shared[MOST_SHARED];
};

#define FOUR(OF, AT) OF[AT], OF[AT + 1], OF[AT + 2], OF[AT + 3]
#define SIXTEEN(OF, AT) FOUR(OF, AT), FOUR(OF, AT + 4), FOUR(OF, AT + 8), FOUR(OF, AT + 12)

static void run_microtask(void *data) {
    const struct microtask *this = data;
    int32_t thread = scopes_thread()->thread, bound = 0;
    this->run(&thread, &bound, SIXTEEN(this->shared, 0), SIXTEEN(this->shared, 16));
}

/* How many threads the next region wants, or 0. */
static unsigned pushed_threads;

void __kmpc_push_num_threads(CLANG, int32_t threads) {
    IGNORE;
    pushed_threads = threads > 0 ? (unsigned)threads : 0;
}

void __kmpc_push_proc_bind(CLANG, int32_t bind) { IGNORE, (void)bind; }

void __kmpc_fork_call(const void *place, int32_t count, void (*run)(int32_t *, int32_t *, ...), ...) {
    struct microtask task = {.run = run};
    unsigned threads = pushed_threads;
    va_list shared;
    (void)place;
    if (count > MOST_SHARED)
        tell_fault("a parallel region shares more than %d variables", MOST_SHARED);
    va_start(shared, run);
    for (int32_t at = 0; at < count; at++)
        task.shared[at] = va_arg(shared, void *);
    va_end(shared);
    pushed_threads = 0;
    teams_do((struct region){run_microtask, &task, NULL, 2}, threads, STACK_POINTER, CODE);
}

/* The caller does the region itself, since its `if` is false. */
void __kmpc_serialized_parallel(CLANG) {
    IGNORE;
    pushed_threads = 0;
    teams_begin(1, NULL, STACK_POINTER, CODE);
    parts_stay_in_function();
}

void __kmpc_end_serialized_parallel(CLANG) { IGNORE, teams_end(STACK_POINTER, CODE); }

/* ---- Barriers, and what one thread does ---- */

/* clang puts one behind a loop that has a lastprivate variable, also with nowait. */
void __kmpc_barrier(CLANG) {
    struct scope *thread = scopes_thread();
    IGNORE;
    if (thread->skips_barrier)
        shares_end_following(CODE);
    else
        barriers_wait(CODE);
    thread->skips_barrier = false;
}

int32_t __kmpc_cancel_barrier(CLANG) {
    IGNORE, barriers_wait(CODE);
    return 0;
}

int32_t __kmpc_cancel(CLANG, int32_t what) {
    IGNORE, (void)what;
    cancel_note(CODE);
    return 0;
}

int32_t __kmpc_cancellationpoint(CLANG, int32_t what) {
    IGNORE, (void)what;
    return 0;
}

int32_t __kmpc_master(CLANG) {
    IGNORE;
    return scopes_thread()->thread == 0;
}
void __kmpc_end_master(CLANG) { IGNORE; }

int32_t __kmpc_masked(CLANG, int32_t filter) {
    IGNORE;
    return scopes_thread()->thread == filter;
}
void __kmpc_end_masked(CLANG) { IGNORE; }

int32_t __kmpc_single(CLANG) {
    IGNORE;
    return barriers_does_single(CODE);
}
void __kmpc_end_single(CLANG) { IGNORE; }

void __kmpc_copyprivate(CLANG, size_t size, void *data, void (*copy)(void *, void *), int32_t is_own) {
    IGNORE, (void)size;
    if (scopes_thread()->kind != SCOPE_MEMBER)
        return;
    if (is_own)
        scopes_team()->team->copied = data;
    members_wait(CODE);
    if (!is_own)
        copy(data, scopes_team()->team->copied);
    members_wait(CODE);
}

void __kmpc_critical(CLANG, void *name) { IGNORE, critical_enter(name); }
void __kmpc_critical_with_hint(CLANG, void *name, uint32_t hint) { IGNORE, (void)hint, critical_enter(name); }
void __kmpc_end_critical(CLANG, void *name) { IGNORE, guards_leave((uintptr_t)name); }
void __kmpc_ordered(CLANG) { IGNORE, ordered_begin_region(CODE); }
void __kmpc_end_ordered(CLANG) { IGNORE, ordered_end_region(); }
void __kmpc_flush(const void *place, ...) { (void)place; }

#pragma GCC visibility pop
