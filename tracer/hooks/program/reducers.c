/* The hooks of reducers. */
#include "program/hidden.h"
#include "program/locations.h"
#include "program/procedures.h"
#include "program/statics.h"
#include "records/views.h"

/* No granule of the stack's memory that is all the view's has been written, whatever its mark says. */
static void forget_updates(const struct view *view) {
    uintptr_t granule = (view->first + granules_mask) & ~granules_mask;
    for (; stacks_have(granule) && granule + granules_mask < view->end; granule += granules_mask + 1)
        if (*marks_at(granule) >= MARK_FIRST_READ)
            *marks_at(granule) = MARK_TOUCHED;
}

static void write_view(struct view *view, uintptr_t code) {
    if (view->wrote == marks_new(true))
        return;
    if (view->wrote != VIEW_BEGINS)
        forget_updates(view);
    view->wrote = marks_new(true);
    views_are_written = true;
    locations_touch(true, view->first, view->end - view->first, code);
    views_are_written = false;
}

static struct view *add_view(uintptr_t first, size_t size, const char *note) {
    struct view *view = views_add(first, size);
    if (stacks_have(first)) {
        uint32_t *mark = marks_at(first);
        locations_of_stack(first & ~granules_mask, mark);
        *mark = *mark == MARK_UNTOUCHED ? MARK_TOUCHED : *mark;
    }
    views_set_number(view);
    if (note)
        hidden_tell_not_run(note);
    return view;
}

static struct view *known_view(uintptr_t first, size_t size, const char *note) {
    struct view *view = views_at(first);
    return view && view->first == first && view->end == first + size ? view : add_view(first, size, note);
}

static bool is_recorded(uintptr_t first, size_t size) {
    return doing.tracing && frames_hidden == hidden_updates && !statics_have(first, size);
}

void __spbags_reducer(const volatile void *at, unsigned long size, const char *note) {
    if (!doing.tracing || size == 0)
        return;
    procedures_leave_jumped(STACK_POINTER, CODE);
    struct view *view = add_view((uintptr_t)at, size, note);
    if (is_recorded((uintptr_t)at, size))
        write_view(view, CODE);
}

/* One that never began, as a global one or an element, begins now. */
static void *update(uintptr_t at, size_t size, const char *note, uintptr_t stack_pointer, uintptr_t code) {
    enum { FIRST_BYTES = 8 };
    if (size > 0 && is_recorded(at, size)) {
        procedures_leave_jumped(stack_pointer, code);
        known_view(at, size, note);
        locations_touch(false, at, size < FIRST_BYTES ? size : FIRST_BYTES, code);
    }
    return (void *)at;
}

static void *value(uintptr_t at, size_t size, const char *note, uintptr_t stack_pointer, uintptr_t code) {
    if (size > 0 && is_recorded(at, size)) {
        procedures_leave_jumped(stack_pointer, code);
        write_view(known_view(at, size, note), code);
    }
    return (void *)at;
}

void *__spbags_update(const volatile void *at, unsigned long size, const char *note) {
    return update((uintptr_t)at, size, note, STACK_POINTER, CODE);
}

void *__spbags_value(const volatile void *at, unsigned long size, const char *note) {
    return value((uintptr_t)at, size, note, STACK_POINTER, CODE);
}

static void end_view(struct view *view, uintptr_t code) {
    if (is_recorded(view->first, view->end - view->first))
        write_view(view, code);
    views_remove(view);
}

void __spbags_reducers_end(const volatile void *at, unsigned long size) {
    if (!doing.tracing)
        return;
    procedures_leave_jumped(STACK_POINTER, CODE);
    for (struct view *view; (view = views_over((uintptr_t)at, size));)
        end_view(view, CODE);
}
