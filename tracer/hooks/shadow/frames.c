#include "shadow/frames.h"

#include "base/memory.h"
#include "base/openmp.h"
#include "shadow/granules.h"
#include "shadow/stacks.h"

/* By these numbers the text in inline_checks.h knows a frame. */
_Static_assert(offsetof(struct frame, end) == 0 && offsetof(struct frame, kind) == 8 &&
                   offsetof(struct frame, called) == 12 && offsetof(struct frame, children) == 16 &&
                   offsetof(struct frame, node) == 20 && offsetof(struct frame, position) == 24 &&
                   sizeof(struct frame) == 56 && FRAME_FUNCTION == 0 && FRAME_CHILD == 2 && FRAME_NONE == 0,
               "inline_checks.h takes a frame for another one");

struct frame *frames_all, *frames_end, *frames_top, *frames_silent, *frames_grouped, **frames_procedures_owners;
uint32_t frames_procedures, frames_procedures_most;
unsigned frames_hidden, frames_statics;
bool frames_left_out_update;
uintptr_t frames_short_way_end, frames_short_way_bits, frames_short_way_first;
bool frames_short_way_structure;
struct frame_part *frames_parts;

void frames_begin(size_t size) {
    /* A frame has at least its return address and its frame pointer, and at most one open child. */
    size_t most_frames = size / 16 * 2;
    frames_top = frames_all = memory_reserve(most_frames * sizeof *frames_all);
    frames_end = frames_all + most_frames;
    if (doing.looking)
        frames_parts = memory_reserve(most_frames * sizeof *frames_parts);
    frames_procedures_owners = memory_reserve((FRAME_MOST_DEPTH + 3) * sizeof *frames_procedures_owners);
    *frames_top = (struct frame){.kind = FRAME_ROOT, .end = UINTPTR_MAX};
    frames_procedures = frames_procedures_most = 1;
}

void frames_find_short_way(void) {
    bool records = doing.tracing && (frames_hidden | frames_statics) == 0;
    frames_short_way_bits = records && !openmp_watches && granules_shift == GRANULE_USUAL_SHIFT ? UINTPTR_MAX : 0;
    frames_short_way_first = doing.plain && frames_short_way_bits != 0 ? stacks_first : UINTPTR_MAX;
    frames_short_way_structure = records && doing.plainest;
    frames_follow_top();
}
