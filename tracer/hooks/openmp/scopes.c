#include "openmp/scopes.h"

#include "base/memory.h"
#include "base/openmp.h"

struct scopes scopes;
bool openmp_watches;

void scopes_start(void) {
    scopes.first = scopes.newest = memory_reserve(SCOPE_MOST * sizeof *scopes.first);
    *scopes.first = (struct scope){.kind = SCOPE_TEAM, .owns = true, .alone = true, .size = 1};
}

void scopes_follow(void) {
    bool wanted = doing.tracing && scopes.newest->is_watched;
    if (wanted == openmp_watches)
        return;
    openmp_watches = wanted;
    frames_find_short_way();
}

struct scope *scopes_push(enum scope_kind kind, bool owns) {
    const struct scope *around = scopes.newest++;
    if (scopes.newest == scopes.first + SCOPE_MOST)
        tell_fault("tasks nest deeper than %d", SCOPE_MOST);
    uint64_t number = scopes_new_number();
    *scopes.newest = (struct scope){.kind = kind,
                                    .owns = owns,
                                    .number = number,
                                    .period = number,
                                    .threads_wanted = around->threads_wanted,
                                    .is_watched = kind != SCOPE_SHARE && around->is_watched};
    scopes_follow();
    return scopes.newest;
}

struct scope *scopes_pop(void) {
    struct scope *popped = scopes.newest--;
    scopes_follow();
    return popped;
}

int scopes_level(bool active) {
    int count = 0;
    for (const struct scope *at = scopes.newest; at > scopes.first; at--)
        count += at->kind == SCOPE_TEAM && !(active && at->alone);
    return count;
}

bool openmp_has_beside(void) {
    return scopes.newest > scopes.first || scopes.first->children + scopes.first->others > 0;
}
