#include "openmp/ordered.h"

#include "base/openmp.h"
#include "openmp/children.h"
#include "openmp/notes.h"
#include "openmp/shares.h"
#include "shadow/granules.h"
#include "shadow/own.h"
#include "shadow/stacks.h"

void ordered_begin_loop(struct loop loop, uintptr_t code) {
    loop.ordered = true;
    loops_begin(loop);
    const struct scope *thread = scopes_thread();
    if (thread->alone || thread->loop->begun > 0)
        return;
    shares_come_to_loop(thread, code);
    for (uint64_t share = loops_steps(shares_left(thread), thread->loop->most); share > 0; share--)
        children_open(SCOPE_SHARE, code);
}

void ordered_begin_region(uintptr_t code) {
    const struct scope *share = scopes.newest;
    if (share->kind != SCOPE_SHARE)
        return;
    uint64_t tasks = scopes_unsynced(share) - share->shares_left;
    if (tasks > 0)
        notes_add_outlived(tasks, code, share->others_code);
    children_join_from(scopes.newest, code);
}

void ordered_end_region(void) {
    struct scope *scope = scopes.newest;
    if (scope->kind == SCOPE_SHARE && scopes_thread()->loop->ordered)
        scope->is_watched = true;
    scopes_follow();
}

void openmp_watch_access(bool writes, uintptr_t address, size_t size, uintptr_t code) {
    (void)writes, (void)size;
    bool is_on_own_stack = address >= stacks_running_first && address < scopes_thread()->stack_end;
    if (!is_on_own_stack && notes.after_ordered == 0 && !own_has(address & ~granules_mask))
        notes.after_ordered = code;
}

#pragma GCC visibility push(hidden)

void GOMP_ordered_start(void) { ordered_begin_region(CODE); }
void GOMP_ordered_end(void) { ordered_end_region(); }

#pragma GCC visibility pop
