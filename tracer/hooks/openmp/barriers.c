#include "openmp/barriers.h"

#include "openmp/children.h"
#include "openmp/locals.h"
#include "openmp/loops.h"
#include "openmp/members.h"
#include "openmp/notes.h"
#include "openmp/others.h"

void barriers_join_team(uintptr_t code) {
    if (scopes_holder()->kind == SCOPE_MEMBER) {
        members_wait(code);
        return;
    }
    struct scope *thread = scopes_thread();
    children_join_from(thread, code);
    thread->loop->is_static = false;
    thread->master = 0;
    scopes_end_period(thread);
}

/* Where a loop's variable is private first and shared at its end, gcc puts a barrier into the loop's first share. */
void barriers_wait(uintptr_t code) {
    const struct scope newest = *scopes.newest;
    bool is_share = newest.kind == SCOPE_SHARE, in_share = is_share && !scopes_thread()->loop->ordered;
    if (in_share)
        locals_end_share(code);
    if (in_share || !is_share)
        barriers_join_team(code);
    if (!in_share)
        return;
    children_open(SCOPE_SHARE, code);
    locals_begin_share(newest.construct, newest.own_first);
}

bool barriers_leaves_to_others(const struct scope *thread) {
    bool asks = thread->team && thread->team->asks;
    if (!team_is_last(thread))
        return thread->master != 0 || asks;
    if (thread->master != 0)
        notes_keep(&notes.master_does_more, thread->master);
    if (asks)
        notes_keep(&notes.last_does, thread->team->code);
    return false;
}

bool barriers_does_single(uintptr_t code) {
    struct scope *thread = scopes_thread();
    thread->construct = code;
    if (thread->kind != SCOPE_MEMBER)
        return !barriers_leaves_to_others(thread);
    bool does = thread->singles_met++ == thread->team->singles;
    if (does && others_do(code))
        does = team_is_last(thread) || barriers_leaves_to_others(thread);
    else if (does)
        does = !barriers_leaves_to_others(thread);
    thread->team->singles += does;
    return does;
}

#pragma GCC visibility push(hidden)

void GOMP_barrier(void) { barriers_wait(CODE); }
bool GOMP_barrier_cancel(void) {
    barriers_wait(CODE);
    return false;
}

bool GOMP_single_start(void) { return barriers_does_single(CODE); }

void *GOMP_single_copy_start(void) {
    if (barriers_does_single(CODE))
        return NULL;
    members_wait(CODE);
    return scopes_team()->team->copied;
}

void GOMP_single_copy_end(void *data) {
    if (scopes_thread()->kind != SCOPE_MEMBER)
        return;
    scopes_team()->team->copied = data;
    members_wait(CODE);
}

#pragma GCC visibility pop
