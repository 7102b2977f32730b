/* The second run of `spbags-run`. It writes no trace, but counts the records; and at the places of the first run's
   races it notes the code address, what stands on the stack and what is held. Races of the same two code addresses are
   one pair, whose first race stands for it. SPBAGS_LOOK names the file of the races, and the notes go where a trace
   would. */
#ifndef SPBAGS_RECORDS_LOOK_H
#define SPBAGS_RECORDS_LOOK_H

#include "shadow/frames.h"

/* Whether an access was noted whose record hasn't gone out. */
extern bool look_is_pending;
/* Most blocks without a race have no bit here: by the locations of their first units. */
enum { LOOK_BLOCK_BITS = 18 };
extern uint64_t look_blocks[(1 << LOOK_BLOCK_BITS) / 64];

static inline uint64_t look_block_bit(uint64_t location) {
    return location * 0x9e3779b97f4a7c15u >> (64 - LOOK_BLOCK_BITS);
}

static inline bool look_has_race_in(uint64_t block) {
    const uint64_t bit = look_block_bit(block);
    return (look_blocks[bit / 64] >> bit % 64 & 1) != 0;
}

/* How many records such a run would have written so far, and the place of the next that is looked at. */
extern uint64_t look_place_now, look_next_place;

void look_begin(int file);
__attribute__((cold)) void look_at_structure(void);
__attribute__((cold)) void look_at_access(bool writes, uint64_t location);
/* This function waits for its children, and maybe ends with that. */
void look_at_wait(const struct frame *frame, uintptr_t code, bool ends);
/* An access that goes out later, and all such go out. */
void look_note_pending(bool writes, uint64_t location, uintptr_t address, uintptr_t code);
void look_forget_pending(void);
/* An access reaches these bytes of a unit and not all; or some begin another life, which has none. */
void look_note_part(uint64_t location, unsigned bytes);
void look_put_notes(void);

#endif
