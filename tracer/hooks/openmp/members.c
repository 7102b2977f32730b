#include "openmp/members.h"

#include "base/openmp.h"
#include "records/look.h"
#include "records/look_stacks.h"
#include "openmp/children.h"
#include "openmp/locals.h"
#include "openmp/loops.h"
#include "openmp/notes.h"
#include "openmp/others.h"
#include "openmp/parts.h"
#include "openmp/silence.h"
#include "openmp/turns.h"
#include "program/procedures.h"

static void begin_part(struct member *member, uintptr_t code) {
    *children_open(SCOPE_MEMBER, code) = member->scope;
    member->depth = frames_procedures;
    locals_begin_thread(scopes.newest);
    scopes_follow();
}

/* A `call` that a function has open ends here, and what the function spawns later needs another one. */
static void close_calls(const struct member *member, uintptr_t code) {
    if (frames_procedures == member->depth)
        return;
    while (frames_procedures > member->depth)
        procedures_close(code);
    for (struct frame *frame = member->base; frame <= frames_top; frame++)
        if (frames_is_of_function(frame)) {
            frame->called = false;
            frame->children = FRAME_NONE;
        }
}

static void end_part(uintptr_t code) {
    const struct scope *scope = scopes.newest;
    struct member *member = scope->member;
    if (frames_left_out_update && scope->team->asks)
        notes_keep(&notes.last_does, scope->team->code);
    frames_left_out_update = false;
    if (doing.tracing)
        close_calls(member, code);
    locals_end_thread(scope);
    member->scope = *scope;
    member->scope.children = member->scope.others = member->scope.following = 0;
    member->scope.master = 0;
    scopes_end_period(&member->scope);
    children_close(code);
}

/* The first from this number on that hasn't ended, or NULL. */
static struct member *member_from(const struct team *team, unsigned number) {
    while (number < team->size && team->members[number].has_ended)
        number++;
    return number < team->size ? &team->members[number] : NULL;
}

/* All members have come to the barrier. */
static void join_members(struct team *team, uintptr_t code) {
    if (doing.looking && doing.tracing)
        look_at_wait(team->frame, code, false);
    children_join_from(scopes.newest, code);
    team->phase = ++scopes.phases;
    team->singles = 0;
    team->masters = 0;
    loops_end_from(team->first_loop);
    for (unsigned number = 0; number < team->size; number++)
        team->members[number].scope.loops_met = team->members[number].scope.singles_met = 0;
}

/* The member whose turn comes behind this one's; where all have ended, the first. */
static struct member *member_after(const struct member *member, uintptr_t code) {
    struct team *team = member->scope.team;
    struct member *next = member_from(team, (unsigned)(member - team->members) + 1);
    if (next)
        return next;
    join_members(team, code);
    next = member_from(team, 0);
    return next ? next : team->members;
}

static struct stack *next_stack(const struct member *member) {
    return member_after(member, member->scope.team->code)->stack;
}

void members_wait(uintptr_t code) {
    struct scope *thread = scopes_thread();
    size_t groups = (size_t)(scopes.newest - thread);
    struct scope kept[groups + 1];
    memcpy(kept, thread, sizeof kept);
    while (scopes.newest > thread)
        children_end_leaving(code);
    struct member *member = thread->member;
    end_part(code);
    struct member *next = member_after(member, code);
    if (next != member)
        turns_switch_to(next->stack);
    begin_part(member, code);
    for (size_t group = 1; group <= groups; group++)
        scopes_push(SCOPE_GROUP, false)->reductions = kept[group].reductions;
}

static void run_member(struct member *member, uintptr_t stack_end) {
    const struct team *team = member->scope.team;
    const struct region *region = &team->region;
    if (member->scope.thread > 0)
        member->scope.stack_end = stack_end;
    member->scope.own_end = member->scope.stack_end;
    begin_part(member, team->code);
    procedures_push(FRAME_TASK_PART, stack_end);
    frames_top->code = team->code;
    frames_note_part((struct frame_part){(uintptr_t)region->data, look_stacks_region, (uint64_t)member->scope.thread,
                                         (uint64_t)member->scope.thread, region->whole != NULL});
    member->base = frames_top;
    silence_follow_body();
    if (region->whole)
        loops_begin(*region->whole);
    region->run(region->data);
    silence_from(NULL);
    parts_close(team->code);
    end_part(team->code);
    member->has_ended = true;
    parts_forget_below(stack_end);
}

/* Where the loop is all of the region the other members have nothing to do once the first one has done it, but for what
   objects of their own do. */
static bool is_done(const struct team *team) {
    const struct loop *loop = team->first_loop;
    return team->region.whole && loop->begun == loop->count && !loop->has_private;
}

static const struct turn turn_of_member = {run_member, next_stack};

/* Makes the member of this number, whose scope AROUND is that of its team. */
static void make_member(struct team *team, unsigned number, const struct scope *around, uint32_t node) {
    struct member *member = &team->members[number];
    *member = (struct member){.stack = number == 0 ? stacks_running : turns_next_stack(&turn_of_member, member, node)};
    uint64_t scope = scopes_new_number();
    member->scope = (struct scope){.kind = SCOPE_MEMBER,
                                   .owns = true,
                                   .size = team->size,
                                   .team = team,
                                   .member = member,
                                   .thread = (int)number,
                                   .stack_end = number == 0 ? around->stack_end : member->stack->first,
                                   .own_first = member->stack->first,
                                   .threads_wanted = around->threads_wanted,
                                   .period = scope,
                                   .number = scope};
}

static bool is_in_share(void) {
    const struct scope *at = scopes.newest;
    while (at->kind != SCOPE_SHARE && !scopes_is_thread(at))
        at--;
    return at->kind == SCOPE_SHARE;
}

/* The compiler's own code before the body, as of copyin, has a barrier behind it. */
void openmp_note_other(uintptr_t address, uintptr_t code) {
    const struct scope *thread = scopes_thread();
    bool is_of_program = thread->in_body || is_in_share();
    for (unsigned at = 0; at < turns.stacks_used && is_of_program; at++)
        if (&stacks[at] != stacks_running && own_is_of(&turns.own[at], address))
            notes_keep(&notes.others_own, code);
}

void members_do_region(struct team *team) {
    frames_note_part((struct frame_part){.of = look_stacks_region, .is_hidden = !team->region.whole});
    uint32_t node = doing.looking ? look_stacks_node_of(look_stacks_top()) : FRAME_NONE;
    unsigned used = turns.stacks_used;
    const bool sought = openmp_seeks;
    const struct scope *around = scopes.newest;
    openmp_seeks |= others_are_named && !team->region.whole;
    team->phase = ++scopes.phases;
    for (unsigned number = 0; number < team->size; number++)
        make_member(team, number, around, node);
    run_member(team->members, frames_top->end - 1);
    for (unsigned number = 1; number < team->size && is_done(team); number++)
        team->members[number].has_ended = true;
    struct member *next = member_after(team->members, team->code);
    if (next != team->members)
        turns_switch_to(next->stack);
    turns.stacks_used = used;
    openmp_seeks = sought;
}
