/* Where the records of any run begin and end. The newest ones of a run that isn't plain are kept here: it does more for
   each record than the steps have room for. */
#ifndef SPBAGS_RECORDS_RECENT_H
#define SPBAGS_RECORDS_RECENT_H

#include "base/callbacks.h"
#include "base/changes.h"
#include "records/course.h"
#include "records/steps.h"

/* The run may end behind the newest record. */
static inline void recent_end_at_last(void) {
    if (__builtin_expect(course.records >= course_last_record, 0))
        callbacks.end_run();
}

static inline void recent_begin_one(void) {
    if (__builtin_expect(changes > 0, 0) && doing.tracing)
        changes_refuse_handler();
    changes_begin();
}

/* The newest records in a run that isn't plain, packed as in the others, with the numbers of their sites; how many
   have gone out, and how many went before. */
extern struct recent_records {
    struct recent {
        uint64_t record;
        uint16_t site;
    } list[STEPS_WINDOW];
    size_t used, gone;
    uintptr_t before;
} recent_records;

/* How many records went before, but for those that are left out. */
static inline uintptr_t recent_so_far(void) {
    return __builtin_expect(doing.plain, 1) ? steps_so_far() : recent_records.before + recent_records.used;
}

/* Between these two records are put, or blocks. */
static inline void recent_begin(void) {
    if (__builtin_expect(doing.plain, 1))
        changes_begin_step();
    else
        recent_begin_one();
}

static inline void recent_finish(void) {
    if (__builtin_expect(doing.plain, 1))
        changes_end_step();
    else
        changes_end();
}

/* In a run that isn't plain: a record is a step too. A place may have gone out before. So no call of this one comes
   between, for which the stack may have no room. */
ALWAYS_INLINE void recent_step(uint64_t record) {
    if (!doing_detects())
        return;
    changes_begin_step();
    steps_put(record & 7, record >> 3);
    changes_end_step();
}

/* One more record. */
void recent_keep(uint64_t record, uint16_t site);
/* What is in its window goes on, and another one begins; or it never does. */
void recent_pass_on(void);
void recent_drop(void);

/* What is in the window can't be left out any more, where records are put. */
static inline void recent_end(void) {
    if (doing.plain)
        steps_begin_window();
    else if (recent_records.used > 0)
        recent_pass_on();
    else
        steps_window_number = steps_last_number;
}

/* The same where none is. */
void recent_end_window(void);
/* The accesses of the numbers that die are left out; before so many records there are none. */
void recent_leave_out_dying(uintptr_t before);
/* Some numbers of the stack have ended. */
void recent_end_numbers(uint64_t location);

#endif
