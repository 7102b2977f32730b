/* Tasks as clang compiles them. The program fills in a block that it gets here. */
#include "openmp/clang/clang.h"
#include "openmp/depend.h"
#include "openmp/parts.h"
#include "openmp/scopes.h"
#include "openmp/taskloops.h"

#pragma GCC visibility push(hidden)

enum clang_task_flag { CLANG_FINAL = 2, HAS_DESTRUCTORS = 8 };
struct clang_task {
    void *shared;
    int32_t (*run)(int32_t, struct clang_task *);
    int32_t part;
    int32_t (*destroy)(int32_t, struct clang_task *);
    void *priority;
    uint64_t first, last, step;
    int32_t has_last;
};

/* Before such a block. */
struct clang_header {
    uint32_t size;
    int32_t flags;
    uint64_t unused;
};

static struct clang_header *header_of(struct clang_task *task) { return (struct clang_header *)task - 1; }

/* A new block, with the shared variables' addresses behind it. */
static struct clang_task *clang_block(size_t size, int32_t flags) {
    struct clang_header *header = malloc(sizeof *header + size);
    if (!header)
        tell_fault("out of memory for a task");
    *header = (struct clang_header){.size = (uint32_t)size, .flags = flags};
    return (struct clang_task *)(header + 1);
}

struct clang_task *__kmpc_omp_task_alloc(CLANG, int32_t flags, size_t size, size_t shared,
                                         int32_t (*run)(int32_t, struct clang_task *)) {
    IGNORE;
    size_t begin = (size + 15) & ~(size_t)15;
    struct clang_task *task = clang_block(begin + shared, flags);
    task->shared = (char *)task + begin;
    task->run = run;
    return task;
}

/* The data of a task as the hooks copy them: the iterations where it is of a loop, its block, and what copies that. */
struct clang_data {
    struct task_bounds bounds;
    struct clang_task *task;
    void (*copy)(struct clang_task *, struct clang_task *, int32_t);
};

static void end_clang_task(struct clang_task *task) {
    if ((header_of(task)->flags & HAS_DESTRUCTORS) != 0)
        task->destroy(scopes_thread()->thread, task);
    free(header_of(task));
}

static void run_clang_task(void *of) {
    const struct clang_data *data = of;
    data->task->run(scopes_thread()->thread, data->task);
    end_clang_task(data->task);
}

static void do_clang_task(struct clang_task *block, uintptr_t stack_pointer, uintptr_t code) {
    struct clang_data data = {.task = block};
    struct task task = {.run = run_clang_task,
                        .data = &data,
                        .size = sizeof data,
                        .alignment = 16,
                        .deferred = true,
                        .final = (header_of(block)->flags & CLANG_FINAL) != 0};
    tasks_run(&task, NULL, stack_pointer, code);
}

int32_t __kmpc_omp_task(CLANG, struct clang_task *task) {
    IGNORE, do_clang_task(task, STACK_POINTER, CODE);
    return 0;
}

/* The caller does the task itself. */
void __kmpc_omp_task_begin_if0(CLANG, struct clang_task *task) {
    IGNORE;
    bool is_final = scopes_task()->final || (header_of(task)->flags & CLANG_FINAL) != 0;
    parts_forget_below(STACK_POINTER);
    scopes_push(SCOPE_TASK, false)->final = is_final;
    parts_open(FRAME_CALLED, STACK_POINTER, CODE);
    parts_stay_in_function();
    frames_note_part((struct frame_part){.of = "task"});
}

void __kmpc_omp_task_complete_if0(CLANG, struct clang_task *task) {
    IGNORE, end_clang_task(task);
    parts_close(CODE);
    tasks_end_included(CODE);
    parts_forget_below(STACK_POINTER);
}

int32_t __kmpc_omp_taskwait(CLANG) {
    IGNORE, tasks_wait(CODE);
    return 0;
}

int32_t __kmpc_omp_taskyield(CLANG, int32_t part) {
    IGNORE, (void)part;
    return 0;
}

/* ---- Tasks that wait for data ---- */

struct clang_dependence {
    uintptr_t address;
    size_t size;
    uint8_t flags;
};

static void follow_clang_depend(int32_t count, const struct clang_dependence *list, bool is_named, uintptr_t code) {
    enum { READS = 1 };
    struct depend_named names[count + 1];
    for (int32_t at = 0; at < count; at++)
        names[at] = (struct depend_named){list[at].address, list[at].flags != READS};
    depend_follow(names, (size_t)count, is_named, code);
}

#define DEPENDENCES int32_t count, const struct clang_dependence *list, int32_t others_count, const void *others
int32_t __kmpc_omp_task_with_deps(CLANG, struct clang_task *task, DEPENDENCES) {
    IGNORE, (void)others_count, (void)others;
    follow_clang_depend(count, list, true, CODE);
    do_clang_task(task, STACK_POINTER, CODE);
    return 0;
}
void __kmpc_omp_wait_deps(CLANG, DEPENDENCES) {
    IGNORE, (void)others_count, (void)others;
    follow_clang_depend(count, list, false, CODE);
}

/* An object for `depend` is a list in a block. */
void *__kmpc_alloc(int32_t number, size_t size, void *allocator) {
    (void)number, (void)allocator;
    return malloc(size);
}
void __kmpc_free(int32_t number, void *block, void *allocator) {
    (void)number, (void)allocator;
    free(block);
}

/* ---- Loops of tasks. The last of the bounds is that of the loop's last iteration ---- */

static void copy_clang_data(void *to, void *from) {
    struct clang_data *data = to;
    const struct clang_data *old = from;
    const struct clang_header *header = header_of(old->task);
    *data = *old;
    data->task = clang_block(header->size, header->flags);
    memcpy(data->task, old->task, header->size);
    if (old->copy)
        old->copy(data->task, old->task, 0);
}

static void run_clang_loop_task(void *of) {
    const struct clang_data *data = of;
    data->task->first = data->bounds.first;
    data->task->last = data->bounds.end - 1;
    data->task->has_last = data->task->last == data->bounds.last;
    run_clang_task(of);
}

void __kmpc_taskloop(CLANG, struct clang_task *block, int32_t is_deferred, const uint64_t *first, const uint64_t *last,
                     int64_t step, int32_t has_no_group, int32_t says, uint64_t wanted,
                     void (*copy)(struct clang_task *, struct clang_task *, int32_t)) {
    enum { SAYS_SIZE = 1 };
    struct clang_data data = {.bounds.last = *last, .task = block, .copy = copy};
    struct task task = {.run = run_clang_loop_task,
                        .data = &data,
                        .copy = copy_clang_data,
                        .size = sizeof data,
                        .alignment = 16,
                        .deferred = is_deferred != 0,
                        .final = (header_of(block)->flags & CLANG_FINAL) != 0};
    unsigned flags = (has_no_group ? TASK_NO_GROUP : 0) | (says == SAYS_SIZE ? TASK_GRAIN_SIZE : 0);
    IGNORE;
    taskloops_do(&task, loops_unsigned(true, *first, *last + 1, (uint64_t)step, 0), flags, wanted, STACK_POINTER, CODE);
    parts_open(FRAME_CALLED, STACK_POINTER, CODE);
    end_clang_task(block);
    parts_close(CODE);
}

#pragma GCC visibility pop
