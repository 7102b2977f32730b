/* What the headers of include/tbb and include/execution call: the children of oneTBB's algorithms and of C++'s own
   parallel ones, and the tasks of oneTBB's groups. */
#include "program/parallel.h"

#include "program/procedures.h"
#include "records/guards.h"
#include "records/look.h"
#include "base/memory.h"
#include "program/accesses.h"
#include "base/source_line.h"
#include "program/watch.h"

/* How many children of these have begun; a child's frame has its number in place of what a function has called. */
static uint32_t parts_begun;

/* A child of the function or scope that calls this begins: one of a construct, at this code of the program's, with
   these as its first and its last iteration. It returns by __spbags_return. */
void __spbags_part(const char *of, const void *code, long first, long last) {
    if (!doing.tracing)
        return;
    procedures_begin_child((__spbags_function)__spbags_counter, STACK_POINTER, CODE);
    frames_top->code = code ? (uintptr_t)code : CODE;
    frames_top->called = ++parts_begun;
    frames_note_part((struct frame_part){.of = of, .first = (uint64_t)first, .last = (uint64_t)last});
}

/* The number of the child around, which no other one has; 0 in the root. */
unsigned long __spbags_child_number(void) {
    const struct frame *frame = frames_top;
    while (frame > frames_all && (frame->kind != FRAME_CHILD || frame->called == 0))
        frame--;
    return doing.tracing && frame->kind == FRAME_CHILD ? frame->called : 0;
}

/* ---- Lines of the report ---- */

/* Each place of the source is told once for one reason. To ask for a line takes long, so each code asks once. */
enum { MOST_TOLD = 1000 };
static struct telling {
    const char *what;
    uintptr_t code;
    char line[400];
} tellings[MOST_TOLD];
static unsigned told_count;

static bool is_told(uintptr_t code, const char *what) {
    for (unsigned at = 0; at < told_count; at++)
        if (tellings[at].code == code && strcmp(tellings[at].what, what) == 0)
            return true;
    return false;
}

static bool is_line_told(const char *line, const char *what) {
    for (unsigned at = 0; at < told_count; at++)
        if (strcmp(tellings[at].what, what) == 0 && strcmp(tellings[at].line, line) == 0)
            return true;
    return false;
}

static void tell_at(uintptr_t code, const char *what) {
    if (told_count == MOST_TOLD || is_told(code, what))
        return;
    struct telling *this = &tellings[told_count];
    source_line(code, this->line, sizeof this->line);
    if (!is_line_told(this->line, what))
        tell_incomplete("%s: %s", this->line, what);
    this->what = what;
    this->code = code;
    if (++told_count == MOST_TOLD)
        tell_incomplete("more places like these %d aren't listed", MOST_TOLD);
}

/* Something isn't modelled here, or at this code of the program's. */
void __spbags_tell(const char *what, const void *code) {
    if (doing.tracing)
        tell_at(code ? (uintptr_t)code : CODE, what);
}

static const char leaves_child[] = "an exception leaves a child here, and what comes until it is waited for isn't run";

/* The end of a scope that __spbags_enter began. */
void __spbags_leave_parallel(const char *const *unused) {
    (void)unused;
    if (!doing.tracing)
        return;
    procedures_leave_jumped(STACK_POINTER, CODE);
    if (frames_top->kind == FRAME_CHILD)
        tell_at(frames_top->code ? frames_top->code : CODE, leaves_child);
    procedures_leave_children(CODE);
    if (frames_top->kind == FRAME_SCOPE)
        procedures_leave_top(CODE);
}

/* ---- Groups of tasks ---- */

/* A group has a `call` of the trace from its first task to its wait, and its tasks are the children of that. A task may
   be run by any function, and isn't waited for at that one's end, but at the end of the child around: HOLDER is that
   child's function, or a scope in it. */
struct task_group {
    const void *id;
    struct frame *holder;
    uint32_t procedure;
    /* The holder has it for a procedure with its children, so that its end comes to leave_groups. */
    bool marks;
};
static struct task_group *task_groups;
static size_t newest_group;

static struct frame *holder_now(void) {
    struct frame *frame = frames_top;
    while (frame->kind == FRAME_FUNCTION && frames_is_of_function(frame - 1))
        frame--;
    return frame;
}

static void open_group(const void *id, struct frame *holder, uintptr_t code) {
    if (doing.version == 1)
        tell_fault("a group of tasks needs version 2 of the trace: leave out SPBAGS_VERSION=1");
    if (!task_groups)
        task_groups = memory_reserve(FRAME_MOST_DEPTH * sizeof *task_groups);
    if (++newest_group == FRAME_MOST_DEPTH)
        tell_fault("groups of tasks nest deeper than %d", FRAME_MOST_DEPTH);
#ifdef SPBAGS_OPENMP
    tell_at(code, "a group of tasks in a program with OpenMP: a wait of the one may be taken for a wait of the other");
#endif
    bool marks = holder->children == FRAME_NONE;
    if (marks)
        holder->children = frames_procedures;
    procedures_open(SPBAGS_CALL, code);
    task_groups[newest_group] = (struct task_group){id, holder, frames_procedures, marks};
    frames_grouped = holder;
}

static void close_group(uintptr_t code) {
    const struct task_group *group = &task_groups[newest_group--];
    while (frames_procedures >= group->procedure)
        procedures_close(code);
    if (group->marks)
        group->holder->children = FRAME_NONE;
    frames_grouped = newest_group > 0 ? task_groups[newest_group].holder : NULL;
}

/* Whether what holds the group is itself one of its tasks. Then whoever waits for that waits for these too. */
static bool is_in_own_task(const struct task_group *group) {
    return group->holder[-1].kind == FRAME_CHILD && group->holder[-1].callee == (__spbags_function)group->id;
}

void parallel_leave_groups(uintptr_t code) {
    while (newest_group > 0 && task_groups[newest_group].holder >= frames_top) {
        if (!is_in_own_task(&task_groups[newest_group]) && task_groups[newest_group].holder[-1].kind == FRAME_CHILD)
            tell_at(
                task_groups[newest_group].holder[-1].code,
                "tasks outlive the child here that runs them in a group from outside, and in the trace end with it: "
                "races with what follows aren't seen");
        close_group(code);
    }
}

/* The number of this group in what the holder holds, or 0. */
static size_t group_at(const void *id, const struct frame *holder) {
    size_t at = newest_group;
    while (at > 0 && task_groups[at].holder == holder && task_groups[at].id != id)
        at--;
    return at > 0 && task_groups[at].holder == holder ? at : 0;
}

/* A task of a group begins, as a child. */
void __spbags_group_run(const void *id, const char *of, const void *code, long first, long last) {
    if (!doing.tracing)
        return;
    uintptr_t stack_pointer = STACK_POINTER, here = code ? (uintptr_t)code : CODE;
    procedures_back_to_function(stack_pointer, CODE);
    struct frame *holder = holder_now();
    size_t at = group_at(id, holder);
    if (at == 0)
        open_group(id, holder, CODE);
    else if (at < newest_group)
        tell_at(here,
                "a task begins in one group while a newer one hasn't been waited for, and the wait for that one waits "
                "for it too: races after it aren't seen");
    procedures_open(SPBAGS_SPAWN, CODE);
    procedures_push(FRAME_CHILD, frames_top->end - 1);
    frames_top->stack_pointer = stack_pointer;
    frames_top->callee = (__spbags_function)id;
    frames_top->code = here;
    frames_top->called = ++parts_begun;
    frames_note_part((struct frame_part){.of = of, .first = (uint64_t)first, .last = (uint64_t)last});
}

static void wait_for_group(const void *id, uintptr_t code) {
    size_t at = group_at(id, holder_now());
    if (at == 0)
        return;
    if (at < newest_group)
        tell_at(code,
                "a newer group hasn't been waited for, and this wait waits for it too: races after it aren't seen");
    if (frames_top->node != FRAME_NONE)
        look_at_wait(frames_top, code, false);
    while (newest_group >= at)
        close_group(code);
}

/* Waits for the tasks of a group. */
void __spbags_group_wait(const void *id) {
    if (!doing.tracing)
        return;
    procedures_back_to_function(STACK_POINTER, CODE);
    wait_for_group(id, CODE);
}

/* The same at the end of a scope. */
void __spbags_leave_group(const void *const *id) {
    if (!doing.tracing)
        return;
    procedures_leave_jumped(STACK_POINTER, CODE);
    if (frames_top->kind == FRAME_CHILD)
        tell_at(frames_top->code ? frames_top->code : CODE, leaves_child);
    procedures_leave_children(CODE);
    wait_for_group(*id, CODE);
}

/* ---- What the headers do themselves ---- */

/* From here on nothing is recorded, or again: MORE is 1 or -1. */
void __spbags_pause(int change) {
    frames_hidden += (unsigned)change;
    if (doing.tracing)
        frames_find_short_way();
}

/* An access of what stands for a container's state. */
void __spbags_touch(const volatile void *at, unsigned long size, int writes) {
    accesses_note(writes != 0, (uintptr_t)at, size, (__spbags_function)__spbags_touch, STACK_POINTER, CODE);
}

void __spbags_hold(const volatile void *guard, const char *name) { guards_enter((uintptr_t)guard, name); }
void __spbags_release(const volatile void *guard) { guards_leave((uintptr_t)guard); }

/* A lock that is held already is held by a task around this, which can't go on. */
void __spbags_endless_wait(void) { watch_tell_endless(); }
