#include "openmp/children.h"

#include "records/look.h"
#include "openmp/waits.h"
#include "program/procedures.h"

/* Whether something older than the newest scope is unsynced in its procedure. */
static bool has_older(void) {
    for (const struct scope *at = scopes.newest; !at->owns; at--)
        if (scopes_unsynced(at - 1) > 0)
            return true;
    return false;
}

/* The function that calls the hooks here waits. */
static void write_sync(uintptr_t code) {
    if (doing.tracing)
        procedures_sync(code);
}

static void note_wait(uintptr_t code) {
    if (doing.tracing && frames_top->node != FRAME_NONE)
        look_at_wait(frames_top, code, false);
}

static void write_open(enum spbags_kind kind, uintptr_t code) {
    if (doing.tracing)
        procedures_open(kind, code);
}

static void write_return(uintptr_t code) {
    if (doing.tracing)
        procedures_close(code);
}

struct scope *children_open(enum scope_kind kind, uintptr_t code) {
    struct scope *parent = scopes.newest;
    bool waits = parent->kind != SCOPE_TASK || !waits_is_second;
    if (waits && scopes_unsynced(parent) == 0 && has_older()) {
        if (doing.version == 1)
            tell_fault(
                "tasks of one group may run at once with older ones, which only version 2 of the trace can show: "
                "leave out SPBAGS_VERSION=1");
        write_open(SPBAGS_CALL, code);
        parent->owns = true;
    }
    write_open(SPBAGS_SPAWN, code);
    scopes.events += kind == SCOPE_TASK;
    return scopes_push(kind, true);
}

/* These weren't waited for when the child ended; the newest scope has them now. */
static void leave_others(uint64_t count, uintptr_t code) {
    struct scope *scope = scopes.newest;
    if (scope->others == 0)
        scope->others_code = code;
    scope->others += count;
}

/* A taskwait waits for tasks alone, and not for the shares of a loop without a barrier. */
void children_close(uintptr_t code) {
    const struct scope *child = scopes_pop();
    bool is_task = child->kind == SCOPE_TASK, is_other = !is_task && !child->follows_loop;
    write_return(code);
    scopes.newest->children += is_task;
    scopes.newest->following += child->follows_loop;
    scopes.newest->shares_left += child->shares_left + is_other;
    leave_others(scopes_unsynced(child) + is_other, code);
}

void children_join_from(struct scope *first, uintptr_t code) {
    uint64_t left = 0;
    note_wait(code);
    for (struct scope *at = scopes.newest + 1; at > first; at--) {
        struct scope *scope = at - 1;
        left += scopes_unsynced(scope);
        scope->children = scope->others = scope->following = scope->shares_left = 0;
        if (scope > first && scope->owns) {
            write_return(code);
            scope->owns = false;
            left = 0;
        }
    }
    if (left > 0)
        write_sync(code);
}

void children_end_waiting(uintptr_t code) {
    const struct scope *scope = scopes.newest;
    note_wait(code);
    if (scope->owns)
        write_return(code);
    else if (scopes_unsynced(scope) > 0)
        write_sync(code);
    scopes_pop();
}

void children_end_leaving(uintptr_t code) {
    const struct scope *scope = scopes_pop();
    if (scope->owns)
        write_return(code);
    else
        leave_others(scopes_unsynced(scope), code);
}
