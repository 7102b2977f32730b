#include "openmp/depend.h"

#include "base/caller.h"
#include "base/memory.h"
#include "openmp/notes.h"
#include "openmp/scopes.h"
#include "openmp/tasks.h"
#include "base/settings.h"
#include "base/source_line.h"
#include "shadow/granules.h"

/* What tasks of one parent name: whether one of them writes it in a period of the parent. */
enum { DEPENDENCE_BITS = 22, MOST_DEPENDENCES = 1 << DEPENDENCE_BITS };
struct dependence {
    uintptr_t address;
    uint64_t parent, period;
    bool is_used, writes;
};

static struct {
    enum { REFUSED, IGNORED, ORDERED } way;
    struct dependence *table;
    size_t used;
} depend;

void depend_read_settings(void) {
    if (settings_is(SETTING_DEPEND, "ignore"))
        depend.way = IGNORED;
    if (!settings_is(SETTING_DEPEND, "order"))
        return;
    depend.way = ORDERED;
    depend.table = memory_reserve(MOST_DEPENDENCES * sizeof *depend.table);
}

static struct dependence *dependence_of(uintptr_t address, uint64_t parent) {
    const uint64_t mixing = 0x9e3779b97f4a7c15u;
    size_t slot = (address + parent * mixing) * mixing >> (64 - DEPENDENCE_BITS);
    while (depend.table[slot].is_used && (depend.table[slot].address != address || depend.table[slot].parent != parent))
        slot = (slot + 1) % MOST_DEPENDENCES;
    return &depend.table[slot];
}

static bool depends_on_older(const struct depend_named *names, size_t count, const struct scope *parent) {
    for (size_t at = 0; at < count; at++) {
        const struct dependence *older = dependence_of(names[at].address, parent->number);
        if (older->is_used && older->period == parent->period && (names[at].writes || older->writes))
            return true;
    }
    return false;
}

static void name_all(const struct depend_named *names, size_t count, const struct scope *parent) {
    for (size_t at = 0; at < count; at++) {
        struct dependence *older = dependence_of(names[at].address, parent->number);
        if (!older->is_used && ++depend.used > MOST_DEPENDENCES / 2)
            tell_fault("tasks depend on more than %d addresses", MOST_DEPENDENCES / 2);
        bool writes = names[at].writes || (older->is_used && older->period == parent->period && older->writes);
        *older = (struct dependence){names[at].address, parent->number, parent->period, true, writes};
    }
}

void depend_follow(struct depend_named *names, size_t count, bool is_named, uintptr_t code) {
    char line[400];
    if (!doing.tracing)
        return;
    if (depend.way == REFUSED)
        tell_fault(
            "%s: what depend orders can't be traced: SPBAGS_DEPEND=ignore leaves it out, and with SPBAGS_DEPEND=order "
            "a task that depends on another one waits for all before it",
            source_line(code, line, sizeof line));
    if (depend.way == IGNORED) {
        notes_keep(&notes.depend_ignored, code);
        return;
    }
    for (size_t at = 0; at < count; at++)
        names[at].address = granules_name(names[at].address);
    const struct scope *parent = scopes_holder();
    if (depends_on_older(names, count, parent) && tasks_wait(code))
        notes_keep(&notes.depend_wait, code);
    if (is_named)
        name_all(names, count, parent);
}

/* gcc's list has one of two forms. One has the number of all and that of those that are written, before the addresses.
   The other one begins with 0, the number of all, and how many are written, are exclusive, and are read; what comes
   then are objects, of which each has an address and whether it is read. */
static struct depend_named named_at(void **list, size_t at) {
    const size_t *counts = (const size_t *)list;
    if (counts[0] != 0)
        return (struct depend_named){(uintptr_t)list[2 + at], at < counts[1]};
    const uintptr_t *object = list[5 + at];
    if (at < counts[2] + counts[3] + counts[4])
        return (struct depend_named){(uintptr_t)object, at < counts[2] + counts[3]};
    return (struct depend_named){object[0], object[1] != 1};
}

static void follow_list(void **list, bool is_named, uintptr_t code) {
    size_t count = (size_t)(list[0] ? list[0] : list[1]);
    struct depend_named names[count + 1];
    for (size_t at = 0; at < count; at++)
        names[at] = named_at(list, at);
    depend_follow(names, count, is_named, code);
}

#pragma GCC visibility push(hidden)

void GOMP_task(void (*run)(void *), void *data, void (*copy)(void *, void *), long size, long alignment, bool deferred,
               unsigned flags, void **depend_list, int priority, void *detach) {
    (void)priority, (void)detach;
    struct task task = {run, data, copy, (size_t)size, (size_t)alignment, deferred, (flags & TASK_FINAL) != 0};
    if ((flags & TASK_DEPEND) != 0)
        follow_list(depend_list, deferred, CODE);
    tasks_run(&task, NULL, STACK_POINTER, CODE);
}

void GOMP_taskwait_depend(void **list) { follow_list(list, false, CODE); }

#pragma GCC visibility pop
