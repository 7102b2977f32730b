/* Local statics of C++ that are being initialised. Nothing is recorded of what such a static has until its guard is
   released: its own memory, and the heap blocks that were allocated since. Nobody else reaches that before, but by a
   pointer elsewhere, which is recorded. */
#ifndef SPBAGS_PROGRAM_STATICS_H
#define SPBAGS_PROGRAM_STATICS_H

#include "shadow/frames.h"

/* The guard has been acquired, by who comes first or later; and it is left. */
void statics_enter(const void *guard, bool is_first);
void statics_leave(const void *guard);
/* What is spawned then may reach that too. */
void statics_tell_child(void);

/* A heap block that is allocated now belongs to the static with this number, or to none by 0. */
enum { STATIC_NUMBERS = 1 << 20 };
uint32_t statics_find_newest(void);
static inline uint32_t statics_newest(void) {
    return __builtin_expect(frames_statics > 0, 0) ? statics_find_newest() : 0;
}

/* Whether this is memory of a static that the running thread initialises. */
bool statics_find(uintptr_t at, size_t size);
static inline bool statics_have(uintptr_t at, size_t size) {
    return __builtin_expect(frames_statics > 0, 0) && statics_find(at, size);
}

#endif
