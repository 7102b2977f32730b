/* The procedures of the trace, which functions become that spawn, and the children; and how frames begin and end. */
#ifndef SPBAGS_PROGRAM_PROCEDURES_H
#define SPBAGS_PROGRAM_PROCEDURES_H

#include "shadow/frames.h"

/* ---- Procedures ---- */

void procedures_open(enum spbags_kind kind, uintptr_t code);
void procedures_sync(uintptr_t code);
void procedures_close(uintptr_t code);

/* Whether something may run beside what the program does now: where all else is done, or comes later, that races with
   nothing. For code that may have something in any register. */
__attribute__((no_caller_saved_registers, target("general-regs-only"))) bool procedures_run_beside(void);

/* ---- Frames ---- */

/* Behind all records so far. */
void procedures_push(enum frame_kind kind, uintptr_t end);
void procedures_begin_child(__spbags_function callee, uintptr_t stack_pointer, uintptr_t code);
void procedures_leave_top(uintptr_t code);

/* Leaves the frames that ended at or below this address. */
static inline void procedures_leave_below(uintptr_t address, uintptr_t code) {
    while (frames_top->end <= address)
        procedures_leave_top(code);
}

static inline void procedures_leave_children(uintptr_t code) {
    while (frames_top->kind == FRAME_CHILD)
        procedures_leave_top(code);
}

/* Leaves the frames that a longjmp left, and the children among them; a strand begins then. */
__attribute__((noinline, cold)) void procedures_leave_left(uintptr_t address, uintptr_t code);

static inline void procedures_leave_jumped(uintptr_t address, uintptr_t code) {
    if (__builtin_expect(frames_top->end <= address, 0))
        procedures_leave_left(address, code);
}

/* A spawn and a sync are in a function itself: a child that is still open above it was left by a longjmp. */
static inline void procedures_back_to_function(uintptr_t stack_pointer, uintptr_t code) {
    procedures_leave_jumped(stack_pointer, code);
    procedures_leave_children(code);
}

/* The stack memory below this address has no variable any more. */
void procedures_forget_below(uintptr_t address);

#endif
