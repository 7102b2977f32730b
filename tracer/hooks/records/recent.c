#include "records/recent.h"

#include "records/lines.h"
#include "shadow/granules.h"

struct recent_records recent_records;

/* The detector may wait for room then, and the record has gone out before. */
static void pass_record(const struct recent *passed) {
    if ((passed->record & 7) != steps_numbers_end)
        lines_put_access((passed->record & 7) == SPBAGS_WRITE, passed->record >> 3, passed->site);
    recent_records.gone++;
    recent_step(passed->record);
}

void recent_pass_on(void) {
    while (recent_records.gone < recent_records.used)
        pass_record(&recent_records.list[recent_records.gone]);
    recent_records.before += recent_records.used;
    recent_records.used = recent_records.gone = 0;
    steps_window_number = steps_last_number;
}

void recent_drop(void) { recent_records.used = recent_records.gone = 0; }

void recent_keep(uint64_t record, uint16_t site) {
    recent_records.list[recent_records.used++] = (struct recent){record, site};
    if (recent_records.used == STEPS_WINDOW)
        recent_pass_on();
}

static void leave_out_recent(uintptr_t before) {
    size_t to = before > recent_records.before ? before - recent_records.before : 0;
    to = to <= recent_records.used ? to : 0;
    for (size_t from = to; from < recent_records.used; from++) {
        uint64_t record = recent_records.list[from].record, location = granules_of(record >> 3);
        recent_records.list[to] = recent_records.list[from];
        to += !((record & 7) != steps_numbers_end && location % 2 == 1 && steps_is_dying(location / 2));
    }
    recent_records.used = to;
}

/* ---- In any run ---- */

void recent_end_window(void) {
    recent_begin();
    recent_end();
    recent_finish();
}

void recent_leave_out_dying(uintptr_t before) {
    recent_begin();
    if (doing.plain)
        steps_leave_out(before);
    else
        leave_out_recent(before);
    recent_finish();
    steps_end_dying();
}

void recent_end_numbers(uint64_t location) {
    recent_begin();
    if (doing.plain)
        steps_put(steps_numbers_end, location);
    else
        recent_keep(location << 3 | steps_numbers_end, PLACES_NO_SITE);
    recent_finish();
}
