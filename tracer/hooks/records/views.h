/* Reducers of Cilk. The serial run has one view of each, in the program's memory. Whatever touches it there is an
   update, and counts as a read of the view, so that updates don't race with each other; a read of the value counts as a
   write of the whole view, and so do a set, the reducer's beginning and its end. So a view's granules have locations as
   all memory has; on the stack a mark of a write says there that the strand has updated it. */
#ifndef SPBAGS_RECORDS_VIEWS_H
#define SPBAGS_RECORDS_VIEWS_H

#include "base/common.h"

struct view {
    uintptr_t first, end;
    /* Of a view on the stack the number of its first granule, and of any other the name of its memory: another variable
       there has another one. */
    uint64_t number;
    /* The mark of the strand that wrote the view last; or that no access has been an update yet. */
    uint32_t wrote;
};
enum { VIEW_BEGINS = 0 };

/* Whether there are views: then granules are noted otherwise; and whether one is being written. */
extern bool views_any, views_are_written;
/* Granules are noted as the views say. */
void views_follow(void);

/* The view with this byte, or null. One whose memory has ended is none any more. */
struct view *views_at(uintptr_t address);
bool views_have(uintptr_t address);
/* The first one that has a part of this memory, or null. */
struct view *views_over(uintptr_t first, size_t size);
/* One more, in place of those there, whose number is set when its memory has one. */
struct view *views_add(uintptr_t first, size_t size);
void views_set_number(struct view *view);
void views_remove(const struct view *view);

/* Whether an access of this granule is an update of a view, which has a part of the granule or all of it; and whether
   it is a repeat of a read. */
enum view_update { VIEW_NO_UPDATE, VIEW_UPDATES_PART, VIEW_UPDATES_GRANULE };
enum view_update views_update_of(uintptr_t granule, unsigned shift, bool repeats);
/* Numbers of strands begin again. */
void views_forget(void);

#endif
