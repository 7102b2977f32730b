#include "openmp/parts.h"

#include "program/procedures.h"

void parts_open(enum frame_kind kind, uintptr_t stack_pointer, uintptr_t code) {
    if (!doing.tracing)
        return;
    procedures_leave_jumped(stack_pointer, code);
    procedures_push(kind, kind == FRAME_LOOP_PART ? frames_top->end - 1 : stack_pointer);
    frames_top->code = code;
    frames_note_part((struct frame_part){0});
}

void parts_close(uintptr_t code) {
    if (!doing.tracing)
        return;
    while (frames_top > frames_all && frames_top->kind < FRAME_CALLED)
        procedures_leave_top(code);
    procedures_leave_top(code);
}

void parts_stay_in_function(void) {
    if (!doing.tracing)
        return;
    frames_top->end = frames_top[-1].end - 1;
    frames_follow_top();
}

void parts_forget_below(uintptr_t address) {
    if (doing.tracing)
        procedures_forget_below(address);
}
