/* The frames of the functions that are active and of the children that were spawned, and which procedures they are. */
#ifndef SPBAGS_SHADOW_FRAMES_H
#define SPBAGS_SHADOW_FRAMES_H

#include "base/common.h"

#include "../include/spbags_inside.h"
#include "base/caller.h"
#include "base/changes.h"
#include "base/doing.h"
#include "base/tell.h"

/* No checker reads a trace that nests deeper, and that alone without being told. */
enum { FRAME_MOST_DEPTH = 1000000, FRAME_DEFAULT_DEPTH = 65536 };

/* A scope is a part of a function that waits for its own children. The last three are parts of OpenMP, whose procedures
   are no matter of frames: a function that the hooks call, a task, and some iterations of a loop. */
enum frame_kind {
    FRAME_FUNCTION,
    FRAME_ROOT,
    FRAME_CHILD,
    FRAME_SCOPE,
    FRAME_CALLED,
    FRAME_TASK_PART,
    FRAME_LOOP_PART
};
enum { FRAME_NONE = 0 };

/* An active function, or a child that was spawned: the child's frame stands below the frame of the function that it
   calls, and is left by __spbags_return. */
struct frame {
    /* Right above its stack memory. A child has none of its own, and ends with its parent. */
    uintptr_t end;
    enum frame_kind kind;
    /* Whether a `call` stands open for this function. */
    uint32_t called;
    /* The procedure which holds the unsynced children of this function, or FRAME_NONE. */
    uint32_t children;
    /* In a run that looks, what stands for it there, or FRAME_NONE. */
    uint32_t node;
    /* How many records went before it. */
    uintptr_t position;
    /* Of a child: its parent's stack pointer at the spawn, and what it calls. */
    uintptr_t stack_pointer;
    __spbags_function callee;
    /* Of a part: where the program is, which isn't in the part itself. Of a child that is an iteration of a loop: where
       that is; of any other child, 0. */
    uintptr_t code;
};

/* That of the root begins. There is room for as many as a stack of this size has. */
void frames_begin(size_t size);
/* All, and the newest one. */
extern struct frame *frames_all, *frames_end __asm__("__spbags_frames_end"), *frames_top __asm__("__spbags_top");
/* What the function of this frame and those around it update atomically isn't recorded, but what they call is. Or
   NULL. */
extern struct frame *frames_silent;
/* Whether such an update was left out. */
extern bool frames_left_out_update;
/* What holds the newest group of tasks, or NULL. */
extern struct frame *frames_grouped;
/* How much is under way of which nothing is recorded, such as updates of reducers; and how many local statics of C++
   are being initialised, while not all is. */
extern unsigned frames_hidden, frames_statics;

static inline bool frames_is_of_function(const struct frame *frame) {
    return frame->kind == FRAME_FUNCTION || frame->kind == FRAME_SCOPE;
}

/* An access goes the short way where the stack pointer is below this: accesses are recorded by the usual granule and
   not watched, no child waits for what it calls, and the newest frame hasn't ended. */
extern uintptr_t frames_short_way_end __asm__("__spbags_short_way_end");
/* All bits, or none if no access goes the short way. */
extern uintptr_t frames_short_way_bits;
/* A function's entry and its end go the short way, in inline_checks.h, where its stack memory ends here or above: none
   where no access does, or where records don't only go to the detector. */
extern uintptr_t frames_short_way_first __asm__("__spbags_short_way_first");
/* Whether records of the structure may go the short way: they only go to the detector, or into a trace. */
extern bool frames_short_way_structure;

static inline void frames_follow_top(void) {
    frames_short_way_end = frames_top->kind != FRAME_CHILD ? frames_top->end & frames_short_way_bits : 0;
}
/* After a change of what is recorded. */
void frames_find_short_way(void);

/* While blocks go out nothing goes the short way, up to frames_find_short_way: where a handler of a signal makes a new
   access, the run ends. */
static inline void frames_leave_short_way(void) {
    frames_short_way_bits = frames_short_way_end = 0;
    frames_short_way_first = UINTPTR_MAX;
    changes_in_order();
}

static inline void frames_need_one(void) {
    if (__builtin_expect(frames_top + 1 == frames_end, 0))
        tell_fault("functions nest too deep");
}

/* Where there is room for one. Until it is the newest one a handler of a signal may have its own there. */
static inline void frames_push_there(enum frame_kind kind, uintptr_t end, uintptr_t position) {
    frames_top[1].end = end;
    changes_in_order();
    frames_top++;
    changes_in_order();
    frames_top->end = end;
    frames_top->kind = kind;
    frames_top->called = false;
    frames_top->children = frames_top->node = FRAME_NONE;
    frames_top->position = position;
    frames_follow_top();
}

static inline void frames_push_at(enum frame_kind kind, uintptr_t end, uintptr_t position) {
    frames_need_one();
    frames_push_there(kind, end, position);
}

/* Between a spawn and the entry of what it calls, and between its exit and the return, compilers copy arguments and the
   result through memory of the parent's frame, which no program sees. A library function that is the child itself says
   so by its name. */
static inline bool frames_is_on_the_way(__spbags_function self) {
    return frames_top->kind == FRAME_CHILD && frames_top->callee != self;
}

/* ---- Procedures ---- */

/* Those that stand open in the trace, from 1, the root's. Each has the frame whose unsynced children it holds, or none:
   that of the root, which spawns nothing. In version 2 only the root's is asked for, and others may have an older
   one. */
extern struct frame **frames_procedures_owners;
extern uint32_t frames_procedures, frames_procedures_most;
/* How many more there are after such a record. */
static inline uint32_t frames_procedures_opened_by(enum spbags_kind kind) {
    return kind == SPBAGS_RETURN ? -1u : kind <= SPBAGS_CALL;
}

/* Where nothing was a child no access has another one beside it. */
static inline bool frames_had_children(void) { return frames_procedures_most > 1; }

/* ---- Parts ---- */

/* What the function of a part of OpenMP has: the address of its data; whether it is a region, or of a child, what it is
   one of, such as `loop`; and the counter's values in its first and its last iteration. By the number of the part's
   frame. */
struct frame_part {
    uintptr_t data;
    const char *of;
    uint64_t first, last;
    /* Of a region and its members one has a row in a stack. */
    bool is_hidden;
};
extern struct frame_part *frames_parts;

/* Of the part that the newest frame is. */
static inline void frames_note_part(struct frame_part part) {
    if (__builtin_expect(doing.looking, 0))
        frames_parts[frames_top - frames_all] = part;
}

#endif
