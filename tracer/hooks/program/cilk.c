/* The scopes and the loops of Cilk. A scope waits at its end for its own children, and so does a loop, each of whose
   iterations is a child. */
#include "program/procedures.h"

/* A scope of the function that calls this; it ends with the function at the latest. */
const char *__spbags_enter(const char *place) {
    if (doing.tracing) {
        procedures_back_to_function(STACK_POINTER, CODE);
        procedures_push(FRAME_SCOPE, frames_top->kind == FRAME_SCOPE ? frames_top->end : frames_top->end - 1);
    }
    return place;
}

void __spbags_leave(const char *const *place) {
    if (!doing.tracing)
        return;
    procedures_leave_jumped(STACK_POINTER, CODE);
    if (frames_top->kind == FRAME_CHILD)
        tell_incomplete("%s: an exception leaves a child here, and what comes until it is waited for isn't run",
                        *place);
    procedures_leave_children(CODE);
    if (frames_top->kind == FRAME_SCOPE)
        procedures_leave_top(CODE);
}

/* Of the iteration that begins. */
static long counter;

void __spbags_iteration(long value, long shown) {
    counter = value;
    if (!doing.tracing)
        return;
    uintptr_t code = CODE;
    /* No library function is the child itself. */
    procedures_begin_child((__spbags_function)__spbags_counter, STACK_POINTER, code);
    frames_top->code = code;
    frames_note_part((struct frame_part){.of = "cilk_for", .first = (uint64_t)shown, .last = (uint64_t)shown});
}

long __spbags_counter(void) { return counter; }

/* gcc makes a function of an iteration's body, and calls this in its place: the data are the addresses of variables.
   The copy is the iteration's own, as the next one's data lie where these did. */
void __spbags_task(void (*body)(void *), const void *data, void (*copy)(void *, void *), long size, long alignment) {
    (void)copy, (void)alignment;
    max_align_t copied[(size_t)size / sizeof(max_align_t) + 1];
    memcpy(copied, data, (size_t)size);
    body(copied);
}
