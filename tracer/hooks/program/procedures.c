#include "program/procedures.h"

#include "base/callbacks.h"
#include "base/openmp.h"
#include "program/hidden.h"
#include "program/locations.h"
#include "program/statics.h"
#include "records/look.h"

/* The address right above the stack memory of the function that called the hook: it keeps its frame pointer, which the
   hook finds saved in its own frame. */
#define FRAME_END (*(uintptr_t *)__builtin_frame_address(0) + 16)

__attribute__((noinline)) static void clear_from_lowest(uintptr_t address) {
    locations_clear_marks(marks_at(stacks_lowest), marks_at(address));
    stacks_lowest = address & ~granules_mask;
    if (__builtin_expect(steps_any_dies(), 0))
        recent_leave_out_dying(frames_top->position);
}

/* The stack memory below this address has no variable any more. What had one began after the newest frame. */
ALWAYS_INLINE void clear_below(uintptr_t address) {
    if (stacks_lowest < address)
        clear_from_lowest(address);
}

void procedures_forget_below(uintptr_t address) { clear_below(address); }

static void plain_structure(enum spbags_kind kind, uintptr_t code, bool has_pending, uint64_t site) {
    changes_begin_step();
    if (strands_part.used > 0 || has_pending)
        strands_put();
    course_structure(kind, code);
    frames_procedures += frames_procedures_opened_by(kind);
    steps_put_at(kind, 0, site);
    steps_begin_window();
    changes_end_step();
}

/* With each record of the structure a strand ends and another begins. */
__attribute__((noinline)) static void structure(enum spbags_kind kind, uintptr_t code) {
    if (doing.plain) {
        plain_structure(kind, code, look_is_pending, doing.keeping_places ? places_site_bits(code) : 0);
    } else {
        recent_begin_one();
        records_structure(kind, code);
        changes_end();
        recent_end_at_last();
    }
    marks_begin_strand();
}

/* So many records of the structure may go the short way: beside them nothing is to be done, and nothing is under
   way. */
ALWAYS_INLINE bool goes_short_way(unsigned records) {
    return frames_short_way_structure && !changes_stepping && strands_part.used == 0 &&
           steps_pause - steps_next > (ptrdiff_t)records;
}

/* One of them, in a step. Behind it the compiler doesn't go on with what it has in registers, which would be too
   many. */
ALWAYS_INLINE void quick_structure(enum spbags_kind kind, uintptr_t code, uint64_t site) {
    course_structure(kind, code);
    frames_procedures += frames_procedures_opened_by(kind);
    steps_put_quickly(kind, 0, site);
    steps_begin_window();
    marks_read += 2;
    changes_in_order();
}

__attribute__((noinline, cold)) static void nest_deeper(void) {
    frames_procedures_most = frames_procedures;
    if (frames_procedures > FRAME_MOST_DEPTH + 1)
        tell_fault("procedures nest deeper than %d", FRAME_MOST_DEPTH);
}

void procedures_open(enum spbags_kind kind, uintptr_t code) {
    structure(kind, code);
    frames_procedures_owners[frames_procedures] = NULL;
    if (frames_procedures > frames_procedures_most)
        nest_deeper();
    if (__builtin_expect(frames_statics > 0, 0) && kind == SPBAGS_SPAWN)
        statics_tell_child();
}

void procedures_sync(uintptr_t code) { structure(SPBAGS_SYNC, code); }

void procedures_close(uintptr_t code) { structure(SPBAGS_RETURN, code); }

bool procedures_run_beside(void) {
    return doing.tracing && (frames_procedures > 1 || frames_procedures_owners[1] != NULL || openmp_has_beside());
}

/* In version 1 procedures may have been opened above the one that holds these children; they end here. */
static void sync_children(struct frame *frame, uintptr_t code) {
    if (frame->children == FRAME_NONE)
        return;
    if (__builtin_expect(frame->node != FRAME_NONE, 0))
        look_at_wait(frame, code, false);
    while (frames_procedures > frame->children)
        procedures_close(code);
    structure(SPBAGS_SYNC, code);
    frames_procedures_owners[frames_procedures] = NULL;
    frame->children = FRAME_NONE;
}

void procedures_leave_top(uintptr_t code) {
    if (__builtin_expect(frames_top <= frames_grouped, 0))
        callbacks.leave_groups(code);
    if (__builtin_expect(frames_top->node != FRAME_NONE, 0))
        look_at_wait(frames_top, code, true);
    if (frames_top->kind == FRAME_CHILD || frames_top->called)
        structure(SPBAGS_RETURN, code);
    else
        sync_children(frames_top, code);
    frames_top--;
    frames_follow_top();
}

/* In a step this frame ends the short way, which is the newest one and a procedure, and has no children. */
ALWAYS_INLINE void quick_return(struct frame *frame, uintptr_t code, uint64_t site) {
    quick_structure(SPBAGS_RETURN, code, site);
    frames_top = frame - 1;
    frames_follow_top();
}

void procedures_leave_left(uintptr_t address, uintptr_t code) {
    procedures_leave_below(address, code);
    procedures_leave_children(code);
    recent_begin();
    strands_put();
    recent_finish();
    marks_begin_strand();
    /* Which has no record. */
    steps_pause = steps_next;
}

void procedures_push(enum frame_kind kind, uintptr_t end) { frames_push_at(kind, end, recent_so_far()); }

/* A function or a scope right in another one, which isn't a procedure yet. */
static inline bool is_unopened(const struct frame *frame) {
    return frames_is_of_function(frame) && frames_is_of_function(frame - 1) && !frame->called;
}

/* The newest procedure holds the children of this frame. */
ALWAYS_INLINE void hold_children(struct frame *frame) {
    frames_procedures_owners[frames_procedures] = frame;
    if (frame->children == FRAME_NONE)
        frame->children = frames_procedures;
}

/* A sync waits for the children of its own function or scope, and a procedure of the trace waits for all its own. So a
   function that was called, or a scope, has to be a procedure of its own where what is around it may have children.
   Version 2 has a record for that. Version 1 hasn't: there a spawn is put in, whose procedure holds the rest of the
   function, and of its callers up to the sync of the one that has children now. */
static void become_procedure(uintptr_t code) {
    if (doing.version == 2) {
        if (is_unopened(frames_top)) {
            procedures_open(SPBAGS_CALL, code);
            frames_top->called = true;
        }
    } else if (frames_procedures_owners[frames_procedures] && frames_procedures_owners[frames_procedures] != frames_top)
        procedures_open(SPBAGS_SPAWN, code);
    hold_children(frames_top);
}

ALWAYS_INLINE void push_child(__spbags_function callee, uintptr_t stack_pointer, uintptr_t position) {
    frames_push_there(FRAME_CHILD, frames_top->end - 1, position);
    frames_top->stack_pointer = stack_pointer;
    frames_top->callee = callee;
    frames_top->code = 0;
}

void procedures_begin_child(__spbags_function callee, uintptr_t stack_pointer, uintptr_t code) {
    procedures_back_to_function(stack_pointer, code);
    become_procedure(code);
    procedures_open(SPBAGS_SPAWN, code);
    frames_need_one();
    push_child(callee, stack_pointer, recent_so_far());
    if (__builtin_expect(frames_hidden > 0, 0))
        hidden_tell_child();
}

__attribute__((noinline)) static __spbags_function spawn(__spbags_function callee, uintptr_t stack_pointer,
                                                         uintptr_t code) {
    if (doing.tracing)
        procedures_begin_child(callee, stack_pointer, code);
    return callee;
}

/* The same the short way, where the newest frame is that of the function itself. */
__spbags_function __spbags_spawn(__spbags_function callee) {
    struct frame *frame = frames_top;
    uint64_t site;
    if (!goes_short_way(2) || frames_procedures_most - frames_procedures < 2 || frame + 1 == frames_end ||
        frame->end <= STACK_POINTER || frame->kind == FRAME_CHILD || !places_find_site_bits(CODE, &site))
        return spawn(callee, STACK_POINTER, CODE);
    changes_begin_only_step();
    if (is_unopened(frame)) {
        quick_structure(SPBAGS_CALL, CODE, site);
        frame->called = true;
    }
    hold_children(frame);
    quick_structure(SPBAGS_SPAWN, CODE, site);
    push_child(callee, STACK_POINTER, steps_so_far());
    changes_end_step();
    return callee;
}

/* Arguments that pass on the stack stood below the stack pointer at the spawn. */
__attribute__((noinline)) static void return_child(const volatile void *result, unsigned long size,
                                                   uintptr_t stack_pointer, uintptr_t code) {
    if (!doing.tracing)
        return;
    procedures_leave_below(stack_pointer, code);
    if (frames_top->kind != FRAME_CHILD)
        return;
    clear_below(frames_top->stack_pointer);
    if (result)
        locations_clear((uintptr_t)result, size);
    procedures_leave_top(code);
}

/* Whether this child, which is the newest frame, returns the short way with so many records. */
ALWAYS_INLINE bool returns_short_way(const struct frame *frame, const volatile void *result, uintptr_t stack_pointer,
                                     unsigned records) {
    return goes_short_way(records) && !result && frame->kind == FRAME_CHILD && frame->end > stack_pointer &&
           stacks_lowest >= frame->stack_pointer && frame > frames_grouped;
}

ALWAYS_INLINE void return_somehow(const volatile void *result, unsigned long size, uintptr_t stack_pointer,
                                  uintptr_t code) {
    struct frame *frame = frames_top;
    uint64_t site;
    if (!returns_short_way(frame, result, stack_pointer, 1) || !places_find_site_bits(code, &site)) {
        return_child(result, size, stack_pointer, code);
        return;
    }
    changes_begin_only_step();
    quick_return(frame, code, site);
    changes_end_step();
}

void __spbags_return(const volatile void *result, unsigned long size) {
    return_somehow(result, size, STACK_POINTER, CODE);
}

__attribute__((noinline)) static void store_and_return(uintptr_t at, unsigned long size, const volatile void *result,
                                                       unsigned long result_size, uintptr_t stack_pointer,
                                                       uintptr_t code) {
    if (doing.tracing)
        locations_touch(true, at, size, code);
    return_somehow(result, result_size, stack_pointer, code);
}

ALWAYS_INLINE void store_somehow(uintptr_t granule, unsigned long size, const volatile void *result,
                                 unsigned long result_size, uintptr_t stack_pointer, uintptr_t code) {
    struct frame *frame = frames_top;
    uint32_t *mark = marks_at_usual(granule);
    uint64_t site;
    if (!returns_short_way(frame, result, stack_pointer, 2) || frames_short_way_bits == 0 ||
        size != 1 << GRANULE_USUAL_SHIFT || (granule & (size - 1)) != 0 || !locations_is_noted_quickly(granule, mark) ||
        !records_find_access_bits(code, &site)) {
        store_and_return(granule, size, result, result_size, stack_pointer, code);
        return;
    }
    changes_begin_only_step();
    if (!marks_is_repeat(true, *mark))
        steps_put_quickly(SPBAGS_WRITE, locations_quick(true, granule, mark), site);
    quick_return(frame, code, site);
    changes_end_step();
}

/* Apart, so that other runs have fewer registers to keep. */
__attribute__((noinline)) static void store_with_site(uintptr_t granule, unsigned long size,
                                                      const volatile void *result, unsigned long result_size,
                                                      uintptr_t stack_pointer, uintptr_t code) {
    store_somehow(granule, size, result, result_size, stack_pointer, code);
}

void __spbags_stored(const volatile void *at, unsigned long size, const volatile void *result,
                     unsigned long result_size) {
    if (__builtin_expect(doing.keeping_places, 0))
        store_with_site((uintptr_t)at, size, result, result_size, STACK_POINTER, CODE);
    else
        store_somehow((uintptr_t)at, size, result, result_size, STACK_POINTER, CODE);
}

__attribute__((noinline)) static void sync_function(uintptr_t stack_pointer, uintptr_t code) {
    if (!doing.tracing)
        return;
    procedures_back_to_function(stack_pointer, code);
    if (__builtin_expect(frames_top <= frames_grouped, 0))
        callbacks.leave_groups(code);
    sync_children(frames_top, code);
}

void __spbags_sync(void) {
    struct frame *frame = frames_top;
    uint64_t site;
    if (!goes_short_way(1) || frame->children != frames_procedures || frame->kind == FRAME_CHILD ||
        frame->end <= STACK_POINTER || frame <= frames_grouped || !places_find_site_bits(CODE, &site)) {
        sync_function(STACK_POINTER, CODE);
        return;
    }
    changes_begin_only_step();
    quick_structure(SPBAGS_SYNC, CODE, site);
    frames_procedures_owners[frames_procedures] = NULL;
    frame->children = FRAME_NONE;
    changes_end_step();
}

void __tsan_func_entry(void *caller) {
    (void)caller;
    if (!doing.tracing)
        return;
    uintptr_t end = FRAME_END;
    if (end - stacks_first > stacks_size)
        tell_fault("the program runs on a stack of its own, or on more than %zu bytes of stack", (size_t)stacks_size);
    procedures_leave_jumped(end, CODE);
    clear_below(end);
    frames_push_at(FRAME_FUNCTION, end, recent_so_far());
}

/* A function is of kind 0. */
static inline bool is_alone(const struct frame *frame) { return (frame->kind | frame->children | frame->node) == 0; }

__attribute__((noinline)) static void leave_function(uintptr_t end, uintptr_t code) {
    procedures_leave_below(end, code);
    clear_below(end);
}

void __tsan_func_exit(void) {
    if (!doing.tracing)
        return;
    uintptr_t end = FRAME_END;
    uint64_t site = 0;
    if (end != frames_top->end || !is_alone(frames_top) ||
        (frames_top->called &&
         (!goes_short_way(1) || frames_top <= frames_grouped || !places_find_site_bits(CODE, &site)))) {
        leave_function(end, CODE);
        return;
    }
    if (frames_top->called) {
        changes_begin_only_step();
        quick_return(frames_top, CODE, site);
        changes_end_step();
        clear_below(end);
    } else {
        clear_below(end);
        frames_top--;
        frames_follow_top();
    }
}
