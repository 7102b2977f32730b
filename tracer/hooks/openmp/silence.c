#include "openmp/silence.h"

#include "openmp/team.h"

void silence_from(struct frame *frame) {
    const struct scope *thread = scopes_thread();
    if (thread->kind == SCOPE_MEMBER && !team_is_last(thread))
        frames_silent = frame;
}

void silence_follow_body(void) {
    const struct scope *thread = scopes_thread();
    bool is_silent = thread->kind == SCOPE_MEMBER && !thread->in_body;
    silence_from(is_silent ? thread->member->base + thread->team->region.functions : NULL);
}

void silence_combining(int change) {
    if (frames_top > frames_silent)
        return;
    frames_left_out_update = true;
    frames_hidden += (unsigned)change;
    frames_find_short_way();
}
