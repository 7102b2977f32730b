#include "records/course.h"

#include "shadow/marks.h"
#include "base/tell.h"

struct course course;
uint64_t course_last_record = UINT64_MAX;

/* A run that is cut short may end on other ways to and from what it holds then. So the newest strand doesn't count. */
void course_guard(uintptr_t id) {
    if (course.guards_strand != marks_strand_now()) {
        course.guards_strand = marks_strand_now();
        course.guards_before = course.guards;
    }
    course_mix(&course.guards, id);
    course_mix(&course.guards, marks_strand_now());
}

void course_tell(void) {
    char line[100];
    snprintf(line, sizeof line, "course %" PRIu64 " %" PRIx64 " %" PRIx64, course.records, course.digest,
             course.guards_strand == marks_strand_now() ? course.guards_before : course.guards);
    if (tell_by_records())
        tell_text(line, "");
}
