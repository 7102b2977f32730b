#include "records/views.h"

#include "base/memory.h"
#include "base/tell.h"
#include "records/strands.h"
#include "shadow/granules.h"
#include "shadow/marks.h"

bool views_any, views_are_written;

enum { MOST_VIEWS = 1 << 24 };
/* By their addresses. */
static struct view *views;
static size_t views_count;

/* The first view that ends above this address. */
static size_t view_above(uintptr_t address) {
    size_t first = 0, end = views_count;
    while (first < end) {
        size_t middle = first + (end - first) / 2;
        if (views[middle].end <= address)
            first = middle + 1;
        else
            end = middle;
    }
    return first;
}

void views_follow(void) { strands_follow_views(views_any); }

static void remove_at(size_t at) {
    memmove(views + at, views + at + 1, (views_count - at - 1) * sizeof *views);
    views_any = --views_count > 0;
    views_follow();
}

void views_remove(const struct view *view) { remove_at((size_t)(view - views)); }

/* The number of the stack's granule with this address, which has none if nothing has touched it. */
static uint64_t stack_number(uintptr_t address) {
    const uint32_t *mark = marks_at(address);
    return *mark == MARK_UNTOUCHED ? 0 : *marks_number(mark);
}

static uint64_t number_at(uintptr_t address) {
    return stacks_have(address) ? stack_number(address) : granules_name(address);
}

void views_set_number(struct view *view) { view->number = number_at(view->first); }

struct view *views_at(uintptr_t address) {
    for (;;) {
        size_t at = view_above(address);
        if (at == views_count || views[at].first > address)
            return NULL;
        if (number_at(views[at].first) == views[at].number)
            return &views[at];
        remove_at(at);
    }
}

bool views_have(uintptr_t address) { return views_at(address) != NULL; }

struct view *views_over(uintptr_t first, size_t size) {
    for (;;) {
        size_t at = view_above(first);
        if (at == views_count || views[at].first >= first + size)
            return NULL;
        struct view *view = views_at(views[at].first);
        if (view)
            return view;
    }
}

struct view *views_add(uintptr_t first, size_t size) {
    if (!views)
        views = memory_reserve(MOST_VIEWS * sizeof *views);
    if (views_count == MOST_VIEWS)
        tell_fault("there are more than %d reducers at once", MOST_VIEWS);
    size_t at = view_above(first);
    while (at < views_count && views[at].first < first + size)
        remove_at(at);
    memmove(views + at + 1, views + at, (views_count - at) * sizeof *views);
    views[at] = (struct view){.first = first, .end = first + size};
    views_count++;
    views_any = true;
    views_follow();
    return &views[at];
}

enum view_update views_update_of(uintptr_t granule, unsigned shift, bool repeats) {
    uintptr_t first = granule, end = granule + ((uintptr_t)1 << shift);
    if (granules_partial.end != 0) {
        first = granules_partial.first > first ? granules_partial.first : first;
        end = granules_partial.end < end ? granules_partial.end : end;
    }
    struct view *view = views_are_written ? NULL : views_at(first);
    if (!view || end > view->end)
        return VIEW_NO_UPDATE;
    if (!repeats && view->wrote == VIEW_BEGINS)
        view->wrote = MARK_TOUCHED;
    return view->first <= granule && granule + ((uintptr_t)1 << shift) <= view->end ? VIEW_UPDATES_GRANULE
                                                                                    : VIEW_UPDATES_PART;
}

void views_forget(void) {
    for (size_t at = 0; at < views_count; at++)
        views[at].wrote = MARK_TOUCHED;
}
