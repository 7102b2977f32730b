/* The hooks that spbags-cc puts before bodies. */
#include "openmp/bodies.h"
#include "openmp/children.h"
#include "openmp/locals.h"
#include "openmp/loops.h"
#include "openmp/notes.h"
#include "openmp/parts.h"
#include "openmp/shares.h"
#include "openmp/silence.h"
#include "openmp/team.h"

/* The compiler may give the call of the runtime another line than the body has. clang makes two functions of a body. */
static void name_part(uintptr_t code) {
    struct frame *part = frames_top - 1;
    part -= part->kind < FRAME_CALLED;
    if (part->kind < FRAME_CALLED)
        return;
    notes_name_region(part->code, code);
    part->code = code;
}

static void begin_parallel_body(uintptr_t stack_pointer, uintptr_t code) {
    struct scope *thread = scopes.newest;
    if (thread->kind == SCOPE_MEMBER)
        thread->member->body = stack_pointer;
    if (doing.tracing)
        name_part(code);
    *(thread->kind == SCOPE_MEMBER ? &thread->team->code : &thread->code) = code;
    thread->in_body = true;
    silence_follow_body();
}

static void end_parallel_body(void) {
    scopes.newest->in_body = false;
    silence_follow_body();
}

/* The thread of this number does, or will do, a master region. */
static void note_master(int number) {
    const struct scope *thread = scopes_thread();
    if (thread->kind == SCOPE_MEMBER && number >= 0 && number < (int)thread->size)
        thread->team->masters |= (uint64_t)1 << number;
}

/* One thread of the team does this, beside what the others do. A master region is a part of what its thread does. */
static void begin_child_body(struct body *body, uintptr_t stack_pointer, uintptr_t code) {
    struct scope *thread = scopes_holder();
    bool is_of_team = scopes_is_thread(thread) && !thread->alone;
    silence_from(NULL);
    if (body->kind == BODY_MASTER && is_of_team) {
        thread->master = code;
        note_master(thread->thread);
    }
    body->is_child = is_of_team && body->kind != BODY_MASTER && (body->kind == BODY_SINGLE || !thread->loop->in_blocks);
    if (!body->is_child)
        return;
    children_open(SCOPE_SHARE, code);
    locals_begin_share(body->kind == BODY_SECTION ? loops_construct(thread->loop) : thread->construct, stack_pointer);
    parts_open(FRAME_LOOP_PART, stack_pointer, code);
    uint64_t number = body->kind == BODY_SECTION ? ++thread->shares : 0;
    frames_note_part((struct frame_part){.of = number > 0 ? "sections" : "single", .first = number, .last = number});
}

static void end_child_body(const struct body *body, uintptr_t code) {
    if (body->is_child) {
        parts_close(code);
        parts_forget_below(locals_end_share(code));
    }
    silence_follow_body();
}

static void end_of_scope(enum body_kind kind, uintptr_t stack_pointer, uintptr_t code) {
    if (kind == BODY_SCOPED)
        shares_begin_combining(stack_pointer, code);
    else if (kind == BODY_SCOPE)
        shares_end_loop(code);
    else
        shares_end_following(code);
}

#pragma GCC visibility push(hidden)

void __spbags_body(int kind) {
    if (++bodies.newest == bodies.first + SCOPE_MOST)
        tell_fault("parallel regions nest deeper than %d", SCOPE_MOST);
    *bodies.newest = (struct body){.kind = (enum body_kind)kind};
}

/* A masked region is for the thread of this number. One that the program's own wish leaves out is done by nobody. */
int __spbags_filter(int number) {
    const struct scope *team = scopes_team();
    bool has_it = number < (int)team->size || team->alone;
    note_master(number);
    if (!has_it && notes.masked_out == 0 && (team->team_wanted == 0 || (uint64_t)number < team->team_wanted)) {
        notes.masked_out = CODE;
        notes.masked_thread = number;
        notes.masked_team = (int)team->size;
    }
    return number;
}

int __spbags_goes_on(void) {
    struct body *body = bodies.newest;
    bool begins = !body->begun;
    body->begun = true;
    if (body->kind == BODY_PARALLEL && begins)
        begin_parallel_body(STACK_POINTER, CODE);
    else if (body->kind == BODY_PARALLEL)
        end_parallel_body();
    else if (body->kind == BODY_SIMD)
        notes_keep(&notes.simd_loop, CODE);
    else if (body->kind >= BODY_SCOPE && !begins)
        end_of_scope(body->kind, STACK_POINTER, CODE);
    else if (begins && body->kind < BODY_LAST)
        begin_child_body(body, STACK_POINTER, CODE);
    else if (body->kind < BODY_LAST)
        end_child_body(body, CODE);
    bodies.newest -= !begins;
    return begins;
}

#pragma GCC visibility pop
