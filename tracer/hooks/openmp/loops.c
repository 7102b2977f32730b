#include "openmp/loops.h"

#include "base/memory.h"
#include "openmp/team.h"
#include "base/tell.h"

enum { MOST_LOOPS = 1 << 20 };
struct loops loops;

void loops_start(void) { loops.first = loops.next = memory_reserve(MOST_LOOPS * sizeof *loops.first); }

static struct loop *new_loop(struct loop loop) {
    if (loops.next == loops.first + MOST_LOOPS)
        tell_fault("there are more than %d loops without a barrier between them", MOST_LOOPS);
    *loops.next = loop;
    return loops.next++;
}

struct loop *loops_of_thread(void) {
    return new_loop((struct loop){0});
}

/* Of two loops with schedule(static) and the same iterations each thread has the same in both. */
static bool are_alike(const struct loop *one, const struct loop *other) {
    return one->is_static && other->is_static && one->start == other->start && one->step == other->step &&
           one->count == other->count;
}

/* OpenMP says which thread does what, and maybe the program relies on it. BEFORE is the loop before, or NULL. */
static bool is_promised(const struct loop *before, const struct loop *loop) {
    return (loop->is_static && loop->has_no_barrier) || (before && before->in_blocks && are_alike(before, loop));
}

/* The loop that the thread comes to: the next of its team's. */
static struct loop *loop_of_team(struct scope *thread, struct loop loop) {
    struct loop *met = thread->team->first_loop + thread->loops_met++;
    if (met < loops.next)
        return met;
    const struct loop *before = met > thread->team->first_loop ? met - 1 : NULL;
    loop.in_blocks = !loop.ordered && (thread->team->asks || is_promised(before, &loop));
    return new_loop(loop);
}

void loops_begin(struct loop loop) {
    struct scope *thread = scopes_thread();
    thread->shares = thread->taken = 0;
    if (thread->kind == SCOPE_MEMBER) {
        thread->loop = loop_of_team(thread, loop);
        return;
    }
    loop.in_blocks = !thread->alone && !loop.ordered && is_promised(thread->loop, &loop);
    *thread->loop = loop;
}

/* What the wrapper makes of a loop's clauses, beside 1. PRIVATE is any of those that give each thread a variable. */
enum clause { STATIC = 2, NOWAIT = 4, LAST = 8, PRIVATE = 16 };

static bool has_clauses(long most, long clauses) { return (most & clauses) == clauses; }

static struct loop loop_of(uint64_t start, uint64_t end, uint64_t step, uint64_t count, long most) {
    return (struct loop){.start = start,
                         .step = step,
                         .end = end,
                         .count = count,
                         .most = loops.iterations,
                         .is_static = has_clauses(most, STATIC),
                         .has_no_barrier = has_clauses(most, STATIC | NOWAIT),
                         .has_late_last = has_clauses(most, NOWAIT | LAST),
                         .has_private = has_clauses(most, PRIVATE)};
}

struct loop loops_signed(long start, long end, long step, long most) {
    uint64_t first = (uint64_t)start, last = (uint64_t)end, size = (uint64_t)step, count = 0;
    if (step > 0 && start < end)
        count = loops_steps(last - first, size);
    if (step < 0 && start > end)
        count = loops_steps(first - last, -size);
    return loop_of(first, last, size, count, most);
}

struct loop loops_unsigned(bool up, uint64_t start, uint64_t end, uint64_t step, long most) {
    uint64_t count = 0;
    if (up && start < end)
        count = loops_steps(end - start, step);
    if (!up && start > end)
        count = loops_steps(start - end, -step);
    return loop_of(start, end, step, count, most);
}

struct loop loops_sections(unsigned count) {
    return (struct loop){.start = 1, .step = 1, .end = count + 1, .count = count, .most = 1, .is_sections = true};
}
