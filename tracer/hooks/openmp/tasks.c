#include "openmp/tasks.h"

#include "records/guards.h"
#include "openmp/children.h"
#include "openmp/notes.h"
#include "openmp/parts.h"
#include "openmp/waits.h"

void tasks_end_included(uintptr_t code) {
    const struct scope *task = scopes.newest;
    if (task->owns && scopes_unsynced(task) > 0)
        notes_add_outlived(scopes_unsynced(task), code, code);
    children_end_leaving(code);
}

/* Objects of C++ are copied by a function of the program. */
static void copy_data(const struct task *task, void *to, uintptr_t stack_pointer, uintptr_t code) {
    if (!task->copy) {
        memcpy(to, task->data, task->size);
        return;
    }
    parts_open(FRAME_CALLED, stack_pointer, code);
    task->copy(to, task->data);
    parts_close(code);
}

/* What its caller has below the stack pointer is dead before and after, and a task that may run later holds none of the
   caller's locks. */
void tasks_run(const struct task *task, const struct task_bounds *bounds, uintptr_t stack_pointer, uintptr_t code) {
    parts_forget_below(stack_pointer);
    bool is_final = scopes_task()->final;
    char room[task->size + task->alignment];
    char *data = room + task->alignment - (uintptr_t)room % task->alignment;
    copy_data(task, data, stack_pointer, code);
    if (bounds)
        memcpy(data, bounds, offsetof(struct task_bounds, last));
    bool deferred = task->deferred && !is_final;
    bool is_child = deferred && !waits_is_part(scopes_holder()->period);
    unsigned held = deferred ? guards_held : 0;
    struct guard kept[held + 1];
    memcpy(kept, guards, held * sizeof *kept);
    guards_held -= held;
    struct scope *scope = is_child ? children_open(SCOPE_TASK, code) : scopes_push(SCOPE_TASK, false);
    scope->final = is_final || task->final;
    parts_open(is_child ? FRAME_TASK_PART : FRAME_CALLED, stack_pointer, code);
    frames_note_part((struct frame_part){(uintptr_t)data, bounds ? "taskloop" : "task", bounds ? bounds->first : 0,
                                         bounds ? bounds->last : 0, false});
    task->run(data);
    parts_close(code);
    if (is_child)
        children_close(code);
    else
        tasks_end_included(code);
    memcpy(guards, kept, held * sizeof *kept);
    guards_held = deferred ? held : guards_held;
    blocks_leave_quick_sites();
    parts_forget_below(stack_pointer);
}

bool tasks_wait(uintptr_t code) {
    uint64_t children = 0, others = 0;
    uintptr_t others_code = 0;
    struct scope *at = scopes.newest + 1;
    do {
        at--;
        children += at->children;
        others += at->others;
        others_code = at->others > 0 ? at->others_code : others_code;
    } while (at->kind == SCOPE_GROUP);
    waits_note(at->period);
    scopes_end_period(at);
    if (children == 0)
        return false;
    children_join_from(at, code);
    if (others > 0 || waits_is_second)
        notes_add_outlived(others + waits_is_second, code, others_code);
    return true;
}

void tasks_note_shares_left(uintptr_t code) {
    const struct scope *group = scopes.newest;
    if (group->shares_left > 0)
        notes_add_outlived(group->shares_left, code, group->others_code);
}

#pragma GCC visibility push(hidden)

void GOMP_taskwait(void) { tasks_wait(CODE); }

void GOMP_taskyield(void) {}

void GOMP_taskgroup_start(void) { scopes_push(SCOPE_GROUP, false); }

void GOMP_taskgroup_end(void) {
    tasks_note_shares_left(CODE);
    children_end_waiting(CODE);
}

#pragma GCC visibility pop
