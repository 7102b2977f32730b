/* Tasks. Each runs at once, where it is made. */
#ifndef SPBAGS_OPENMP_TASKS_H
#define SPBAGS_OPENMP_TASKS_H

#include "base/common.h"

/* What gcc says of a task or a loop of tasks. */
enum task_flag {
    TASK_FINAL = 1 << 1,
    TASK_DEPEND = 1 << 3,
    TASK_COUNTS_UP = 1 << 8,
    TASK_GRAIN_SIZE = 1 << 9,
    TASK_DEFERRED = 1 << 10,
    TASK_NO_GROUP = 1 << 11,
    TASK_REDUCTION = 1 << 12,
    TASK_STRICT_SIZE = 1 << 14
};

struct task {
    void (*run)(void *);
    void *data;
    void (*copy)(void *, void *);
    size_t size, alignment;
    bool deferred, final;
};

/* The iterations of a task: the counter's first value, its end, and its last value. */
struct task_bounds {
    uint64_t first, end, last;
};

/* Copies the data of a task, and runs it. With BOUNDS the first two words of the data are those. */
void tasks_run(const struct task *task, const struct task_bounds *bounds, uintptr_t stack_pointer, uintptr_t code);
/* A task that isn't deferred, or stands in a final one, runs as a part of the task that makes it. It ends. */
void tasks_end_included(uintptr_t code);
/* Whether there was a task to wait for. */
bool tasks_wait(uintptr_t code);
/* A group ends, which doesn't wait for shares of loops. */
void tasks_note_shares_left(uintptr_t code);

#endif
