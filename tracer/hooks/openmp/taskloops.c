#include "openmp/taskloops.h"

#include "base/caller.h"
#include "openmp/children.h"
#include "openmp/notes.h"
#include "openmp/reductions.h"

struct taskloop {
    uint64_t start, step, end, count, tasks;
    /* Of a task: its iterations, where that is strict; otherwise tasks are alike but for one iteration. */
    uint64_t strict_size;
};

static uint64_t tasks_of(uint64_t count, unsigned flags, uint64_t wanted) {
    if (wanted == 0)
        return loops_steps(count, loops.iterations);
    if ((flags & TASK_GRAIN_SIZE) == 0)
        return least(count, wanted);
    if ((flags & TASK_STRICT_SIZE) != 0)
        return loops_steps(count, wanted);
    return count < wanted ? 1 : count / wanted;
}

static void run_taskloop(const struct task *task, struct taskloop loop, uintptr_t stack_pointer, uintptr_t code) {
    uint64_t begun = 0;
    for (uint64_t number = 0; number < loop.tasks; number++) {
        uint64_t size = loop.count / loop.tasks + (number < loop.count % loop.tasks);
        if (loop.strict_size > 0)
            size = least(loop.strict_size, loop.count - begun);
        struct task_bounds bounds = {.first = loop.start + begun * loop.step, .end = loop.end};
        begun += size;
        bounds.last = loop.start + (begun - 1) * loop.step;
        if (begun < loop.count)
            bounds.end = bounds.last + loop.step;
        tasks_run(task, &bounds, stack_pointer, code);
    }
}

void taskloops_do(const struct task *task, struct loop loop, unsigned flags, uint64_t wanted, uintptr_t stack_pointer,
                  uintptr_t code) {
    bool has_group = (flags & TASK_NO_GROUP) == 0;
    /* The two bounds come first, and then the reductions. */
    uintptr_t *reductions = (flags & TASK_REDUCTION) != 0 && has_group ? ((uintptr_t **)task->data)[2] : NULL;
    if (loop.count == 0) {
        if (reductions)
            reductions[REDUCTION_MEMORY] = 0;
        return;
    }
    struct taskloop split = {loop.start, loop.step, loop.end, loop.count, tasks_of(loop.count, flags, wanted), 0};
    if ((flags & TASK_GRAIN_SIZE) != 0 && (flags & TASK_STRICT_SIZE) != 0)
        split.strict_size = wanted;
    notes.has_long_shares |= wanted == 0 && split.tasks < split.count;
    if (has_group)
        scopes_push(SCOPE_GROUP, false);
    if (reductions)
        reductions_register(scopes.newest, reductions, NULL);
    run_taskloop(task, split, stack_pointer, code);
    if (has_group)
        children_end_waiting(code);
}

#pragma GCC visibility push(hidden)

#define TASKLOOP(NAME, LOOP, ...) \
    void NAME(void (*run)(void *), void *data, void (*copy)(void *, void *), long size, long alignment, \
              unsigned flags, unsigned long wanted, int priority, __VA_ARGS__) { \
        (void)priority; \
        struct task task = {run, \
                            data, \
                            copy, \
                            (size_t)size, \
                            (size_t)alignment, \
                            (flags & TASK_DEFERRED) != 0, \
                            (flags & TASK_FINAL) != 0}; \
        taskloops_do(&task, LOOP, flags, wanted, STACK_POINTER, CODE); \
    }
TASKLOOP(GOMP_taskloop, loops_signed(start, end, step, 0), long start, long end, long step)
TASKLOOP(GOMP_taskloop_ull, loops_unsigned((flags & TASK_COUNTS_UP) != 0, start, end, step, 0),
         unsigned long long start, unsigned long long end, unsigned long long step)

#pragma GCC visibility pop
