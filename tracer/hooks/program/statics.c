#include "program/statics.h"

#include "base/callbacks.h"
#include "program/hidden.h"
#include "shadow/stacks.h"

/* A part of a static, the newest last: memory of its own; or where that has no end, the blocks with this number. Of
   what has no room nothing is left out. */
enum { MOST_PARTS = 32 };
static struct part {
    const void *guard;
    const struct stack *stack;
    uintptr_t first, end;
    uint32_t number;
} parts[MOST_PARTS];
static unsigned parts_count;
static uint32_t last_number;

static void add(struct part part) {
    if (parts_count < MOST_PARTS)
        parts[parts_count++] = part;
}

static void remove_all(const void *guard) {
    unsigned left = 0;
    for (unsigned at = 0; at < parts_count; at++)
        if (parts[at].guard != guard)
            parts[left++] = parts[at];
    parts_count = left;
}

/* Before the guard is acquired. */
void __spbags_static(const volatile void *guard, const volatile void *object, unsigned long size) {
    add((struct part){(const void *)guard, stacks_running, (uintptr_t)object, (uintptr_t)object + size, 0});
}

static void change(unsigned by) {
    frames_statics += by;
    if (doing.tracing)
        frames_find_short_way();
}

void statics_enter(const void *guard, bool is_first) {
    if (!is_first) {
        remove_all(guard);
        return;
    }
    last_number += last_number < STATIC_NUMBERS;
    add((struct part){guard, stacks_running, 0, 0, last_number % STATIC_NUMBERS});
    change(1);
}

void statics_leave(const void *guard) {
    remove_all(guard);
    change(-1u);
}

void statics_tell_child(void) {
    hidden_tell_not_run(
        "the initialisation of a local static spawns, and what its children access of that static isn't seen");
}

uint32_t statics_find_newest(void) {
    unsigned at = parts_count;
    while (at > 0 && (parts[at - 1].stack != stacks_running || parts[at - 1].end != 0))
        at--;
    return at > 0 && parts_count < MOST_PARTS ? parts[at - 1].number : 0;
}

static bool is_in(const struct part *part, uintptr_t at, size_t size, uint32_t number) {
    return part->end != 0 ? at >= part->first && at + size <= part->end : number != 0 && number == part->number;
}

bool statics_find(uintptr_t at, size_t size) {
    const uint32_t number = callbacks.static_of(at);
    for (const struct part *part = parts; part < parts + parts_count; part++)
        if (part->stack == stacks_running && is_in(part, at, size, number))
            return true;
    return false;
}
