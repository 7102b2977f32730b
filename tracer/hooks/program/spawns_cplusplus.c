/* The spawns of C++, for include/spbags/spawn.h, which has the code that these are called for. */
#include "program/procedures.h"
#include "program/locations.h"
#include "program/accesses.h"
#include "program/statics.h"

/* The arguments that the parent has read, and the end of the statement's frame once that is a child. A copy of one for
   the call is no access of the child's. */
enum { MOST_PASSED = 16 };
static struct { uintptr_t first, end; } passed[MOST_PASSED];
static unsigned passed_count;
static uintptr_t passing;

/* Whether this is an argument that the parent has read. */
static bool is_passed(uintptr_t at, size_t size) {
    for (unsigned number = 0; number < passed_count && passing == frames_top->end; number++)
        if (at >= passed[number].first && at + size <= passed[number].end)
            return true;
    return false;
}

void __spbags_passed(const volatile void *at, unsigned long size, const void *code) {
    if (!doing.tracing)
        return;
    if (passing != 0 || passed_count == MOST_PASSED)
        passing = passed_count = 0;
    passed[passed_count].first = (uintptr_t)at;
    passed[passed_count++].end = (uintptr_t)at + size;
    accesses_note(false, (uintptr_t)at, size, NULL, STACK_POINTER, (uintptr_t)code);
}

/* The copy of an argument in memory for a call. */
void __spbags_argument(const volatile void *at, unsigned long size) {
    if (!is_passed((uintptr_t)at, size))
        NOTE(false, at, size);
}

/* A statement that spawns is a function of its own in C++, and becomes a child once it has evaluated the arguments. It
   has no children itself. */
void __spbags_detach(const void *code) {
    if (!doing.tracing)
        return;
    procedures_leave_jumped(STACK_POINTER, (uintptr_t)code);
    uintptr_t end = frames_top->end;
    frames_top--;
    procedures_begin_child(NULL, end, (uintptr_t)code);
    procedures_push(FRAME_FUNCTION, end);
    passed_count = passing == 0 ? passed_count : 0;
    passing = end;
}

void __spbags_stored_by(const volatile void *at, unsigned long size, const void *code) {
    if (doing.tracing && frames_hidden == 0 && !statics_have((uintptr_t)at, size))
        locations_touch(true, (uintptr_t)at, size, (uintptr_t)code);
}

/* What the statement evaluates may have thrown before there was a child. */
static bool end_child(const volatile void *function, unsigned long size, uintptr_t stack_pointer, uintptr_t code) {
    passing = passed_count = 0;
    procedures_leave_below(stack_pointer, code);
    bool is_child = frames_top->kind == FRAME_CHILD;
    if (is_child) {
        procedures_forget_below(frames_top->stack_pointer);
        procedures_leave_top(code);
    }
    locations_clear((uintptr_t)function, size);
    return is_child;
}

void __spbags_end_child(const volatile void *function, unsigned long size, const void *code) {
    if (doing.tracing)
        end_child(function, size, STACK_POINTER, (uintptr_t)code);
}

int __spbags_left_child(const volatile void *function, unsigned long size, const void *code) {
    return !doing.tracing || end_child(function, size, STACK_POINTER, (uintptr_t)code);
}

void __spbags_leave_child(const volatile void *function, unsigned long size, const char *place, const void *code) {
    if (doing.tracing && end_child(function, size, STACK_POINTER, (uintptr_t)code))
        tell_incomplete("%s: an exception leaves a child here, and what comes until it is waited for isn't run", place);
}
