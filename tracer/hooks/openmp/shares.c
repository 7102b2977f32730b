#include "openmp/shares.h"

#include "openmp/barriers.h"
#include "openmp/children.h"
#include "openmp/locals.h"
#include "openmp/notes.h"
#include "openmp/others.h"
#include "openmp/parts.h"
#include "openmp/silence.h"
#include "shadow/own.h"
#include "shadow/stacks.h"

/* How many iterations the thread's block still has, of those that are left. The last thread's has all. */
static uint64_t left_of_block(const struct scope *thread, uint64_t left) {
    uint64_t number = (uint64_t)thread->thread, count = thread->loop->count;
    uint64_t block = count / thread->size + (number < count % thread->size);
    return number + 1 == thread->size ? left : least(block - least(block, thread->taken), left);
}

/* Two members do a loop, so that what one reaches of another is seen. Of a region that is nothing but a loop that is
   only what threads have of their own, and ordered iterations follow one another. */
static bool is_shared_out(const struct scope *thread) {
    return thread->kind == SCOPE_MEMBER && !thread->loop->ordered &&
           (!thread->team->region.whole || own_has_variables());
}

/* How many of the last iterations another thread does: two of them may race with each other. */
static uint64_t kept_for_later(const struct scope *thread) {
    return is_shared_out(thread) && team_has_later(thread) ? least(thread->loop->count / 2, 2) : 0;
}

/* Where others do what any may do: the first thread that comes did all of the loop but what it kept for later, or it
   had to leave all to others. */
static uint64_t left_for_others(const struct scope *thread, uint64_t left) {
    const struct loop *loop = thread->loop;
    const bool is_first = loop->begun == thread->taken;
    if (!is_first || team_is_last(thread) || barriers_leaves_to_others(thread))
        return left;
    return loop->put_off > 0 ? loop->count - loop->put_off - thread->taken : 0;
}

void shares_come_to_loop(const struct scope *thread, uintptr_t code) {
    struct loop *loop = thread->loop;
    if (loop->code != 0)
        return;
    loop->code = code;
    loop->by_others = others_do(loops_construct(loop));
    if (loop->by_others && !team_is_last(thread) && !barriers_leaves_to_others(thread) && kept_for_later(thread) > 0)
        loop->put_off = loop->count - kept_for_later(thread);
}

uint64_t shares_left(const struct scope *thread) {
    const struct loop *loop = thread->loop;
    uint64_t left = loop->count - loop->begun;
    if (loop->in_blocks)
        return left_of_block(thread, left);
    if (loop->by_others)
        return left_for_others(thread, left);
    if (left > 0 && barriers_leaves_to_others(thread))
        return 0;
    return left - least(kept_for_later(thread), left);
}

/* How many consecutive iterations the thread has next. gcc asks for each section. */
static uint64_t next_size(const struct scope *thread) {
    const struct loop *loop = thread->loop;
    const uint64_t left = shares_left(thread), behind = loop->begun + loop->put_off;
    const uint64_t consecutive = behind < loop->count ? least(loop->count - behind, left) : left;
    return loop->in_blocks && !loop->is_sections ? consecutive : least(loop->most, consecutive);
}

/* What the thread does behind a block comes after that. */
static void end_share(const struct scope *thread, uintptr_t code) {
    parts_close(code);
    uintptr_t stack_pointer = locals_end_share(code);
    if (thread->loop->in_blocks)
        children_join_from(scopes.newest, code);
    parts_forget_below(stack_pointer);
}

/* The iterations of the share that has begun now go from this one to the newest. */
static void note_share(const struct loop *loop, uint64_t first) {
    frames_note_part((struct frame_part){.of = loop->is_sections ? "sections" : "loop",
                                         .first = first,
                                         .last = loop->start + loops_newest(loop) * loop->step});
}

/* A block is no child, but a part of what its thread does. */
static void begin_share(const struct scope *thread, uint64_t first, uintptr_t stack_pointer) {
    struct loop *loop = thread->loop;
    silence_from(NULL);
    if (thread->alone || loop->in_blocks)
        return;
    if (!loop->ordered)
        children_open(SCOPE_SHARE, loop->code);
    locals_begin_share(loops_construct(loop), stack_pointer);
    parts_open(FRAME_LOOP_PART, stack_pointer, loop->code);
    note_share(loop, first);
}

static bool may_have_following(const struct scope *thread) {
    return thread->in_body && !thread->alone && scopes_is_thread(scopes_holder());
}

static bool has_following(const struct scope *thread) {
    const struct loop *loop = thread->loop;
    if (!may_have_following(thread))
        return false;
    return loop->in_blocks ? team_is_last(thread) && !loop->has_late_last : team_is_last(thread) || thread->shares > 0;
}

static void begin_following(bool is_child, uintptr_t stack_pointer, uintptr_t code) {
    if (is_child) {
        children_open(SCOPE_SHARE, code)->follows_loop = true;
        locals_begin_share(0, stack_pointer);
        parts_open(FRAME_LOOP_PART, stack_pointer, code);
        frames_note_part((struct frame_part){.of = "reduction"});
    }
    silence_from(frames_top);
}

void shares_begin_following(const struct scope *thread, uintptr_t stack_pointer, uintptr_t code) {
    begin_following(has_following(thread), stack_pointer, code);
}

void shares_begin_combining(uintptr_t stack_pointer, uintptr_t code) {
    const struct scope *thread = scopes_thread();
    begin_following(may_have_following(thread) && team_is_last(thread), stack_pointer, code);
}

void shares_end_following(uintptr_t code) {
    if (scopes.newest->follows_loop) {
        parts_close(code);
        parts_forget_below(locals_end_share(code));
    }
    silence_follow_body();
}

void shares_note_long(const struct scope *thread, uint64_t size) {
    if (thread->alone || size < 2)
        return;
    if (thread->loop->in_blocks && notes.blocks_of == 0) {
        notes.blocks_of = thread->loop->code;
        notes.blocks_team = thread->size;
        notes.blocks_asked = thread->team && thread->team->asks;
    }
    notes.has_long_shares |= !thread->loop->in_blocks;
}

/* A loop may become one of blocks in its first share, which goes on then as a block. */
bool shares_take(uint64_t *first, uint64_t *end, uintptr_t stack_pointer, uintptr_t code) {
    struct scope *thread = scopes_thread();
    struct loop *loop = thread->loop;
    shares_come_to_loop(thread, code);
    uint64_t size = next_size(thread);
    bool goes_on = loop->in_blocks && size > 0;
    if (thread->shares > 0 && !goes_on && scopes.newest->kind == SCOPE_SHARE) {
        end_share(thread, code);
        size = next_size(thread);
    }
    if (size == 0)
        return false;
    loop->begun += size;
    const uint64_t behind = loops_newest(loop) + 1;
    *first = loop->start + (behind - size) * loop->step;
    *end = behind == loop->count ? loop->end : loop->start + behind * loop->step;
    if (thread->shares++ == 0 || !goes_on)
        begin_share(thread, *first, stack_pointer);
    thread->taken += size;
    shares_note_long(thread, loop->in_blocks ? thread->taken : size);
    return true;
}

bool shares_next(uint64_t *first, uint64_t *end, uintptr_t stack_pointer, uintptr_t code) {
    bool is_left = shares_take(first, end, stack_pointer, code);
    if (!is_left)
        shares_begin_following(scopes_thread(), stack_pointer, code);
    return is_left;
}

unsigned shares_next_section(uintptr_t stack_pointer, uintptr_t code) {
    uint64_t section, end;
    return shares_next(&section, &end, stack_pointer, code) ? (unsigned)section : 0;
}

void shares_end_loop(uintptr_t code) {
    shares_end_following(code);
    barriers_join_team(code);
}
