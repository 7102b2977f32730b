/* The newest records of a strand haven't gone out, in any kind of run. Of the granules of the stack that got their
   numbers among them, and whose numbers end among them, no other strand knows: their accesses are left out. So many
   records or numbers make a window, and a strand that has more has several.

   In a run that doing_detects or writes a trace, and that is all, the newest records lie one after another in memory,
   where a part of them is the window. They are packed as the detector takes them, and in a run that doing_detects they
   lie in its bundles. */
#ifndef SPBAGS_RECORDS_STEPS_H
#define SPBAGS_RECORDS_STEPS_H

#include "base/common.h"

#include "../include/spbags_inside.h"
#include "base/doing.h"

/* ---- The window ---- */

enum { STEPS_WINDOW = 512, STEPS_WINDOW_NUMBERS = 2048 };

/* Numbers of the stack's granules, and the last one from before the window. */
extern uint64_t steps_last_number, steps_window_number;
/* Whether what lives and dies in one strand is left out. */
extern bool steps_may_leave_out;

/* Those of the window that end now, by how far they are behind its beginning. */
extern struct steps_dying { uint64_t members[STEPS_WINDOW_NUMBERS / 64], first, last; } steps_dying;

static inline uint64_t steps_in_window(uint64_t number) { return number - steps_window_number - 1; }

static inline bool steps_is_window_full(void) {
    return steps_last_number - steps_window_number >= STEPS_WINDOW_NUMBERS;
}

/* Whether the number is of the window, and then it dies. A handler of a signal may have given one more number than the
   window has. */
static inline bool steps_dies(uint64_t number) {
    uint64_t at = steps_in_window(number);
    if (at >= STEPS_WINDOW_NUMBERS || !steps_may_leave_out)
        return false;
    steps_dying.members[at / 64] |= (uint64_t)1 << at % 64;
    steps_dying.first = at < steps_dying.first ? at : steps_dying.first;
    steps_dying.last = at > steps_dying.last ? at : steps_dying.last;
    return true;
}

static inline bool steps_any_dies(void) { return steps_dying.first < STEPS_WINDOW_NUMBERS; }

static inline bool steps_is_dying(uint64_t number) {
    uint64_t at = steps_in_window(number);
    return at < STEPS_WINDOW_NUMBERS && (steps_dying.members[at / 64] >> at % 64 & 1) != 0;
}

static inline void steps_end_dying(void) {
    for (uint64_t word = steps_dying.first / 64; word <= steps_dying.last / 64; word++)
        steps_dying.members[word] = 0;
    steps_dying.first = STEPS_WINDOW_NUMBERS;
    steps_dying.last = 0;
}

/* ---- The records in memory ---- */

/* Where the next record goes, and how far a record in memory is from its place among all that went before. */
extern uint64_t *steps_next __asm__("__spbags_next_record");
extern uintptr_t steps_origin __asm__("__spbags_records_origin");
/* Where the window begins, and where the memory at hand ends; and up to where nothing is to be done but to put records:
   no further than the end of either, though perhaps of a window before, or than there are numbers of strands. */
extern uint64_t *steps_window, *steps_end, *steps_pause;

/* Beside records of the run the detector's thread gets this kind of record, with the location of a block's first
   granule: its masks of reads and of writes follow. */
static const unsigned steps_block_follows = SPBAGS_WRITE + 1;
/* And this kind where locations have ended. No access of them comes any more, so what the detector keeps of them is of
   no use, at once or later. With an odd location they are some numbers of the stack of one group, with a bit for each.
   With an even one a mask follows, with a bit for each of the blocks from that one on. */
static const unsigned steps_numbers_end = SPBAGS_WRITE + 2;
enum { STEPS_GROUP_NUMBERS = 16 };

/* The memory at hand is this from now on, of so many records, and empty. What nobody else reads stays in the
   processor's nearest cache. What it has goes on, up to here, where HAND_OVER has the memory at hand then. */
enum { STEPS_AT_HAND = DOING_HAS_DETECTOR ? 1 << 13 : 1 << 11 };
typedef uint64_t *steps_hand_over(const uint64_t *end);
void steps_begin(uint64_t *memory, steps_hand_over *hand_over);

/* What went before can't be left out any more. */
static inline void steps_pass(void) { steps_window = steps_next; }

static inline void steps_begin_window(void) {
    steps_pass();
    steps_window_number = steps_last_number;
}

/* The window has as many records as it may have, or the memory at hand, or neither. */
void steps_look_on(void);
/* What stands before the window goes on; and the same only where it goes into the trace, or is looked at. */
void steps_pass_on(void);
void steps_put_rest(void);

/* In a run that keeps places the number of its site is in a record's first bits. */
enum { STEPS_SITE_SHIFT = 48 };
static const uint64_t steps_without_site = ((uint64_t)1 << STEPS_SITE_SHIFT) - 1;

/* Before the pause; with the bits of the site. */
static inline void steps_put_quickly(unsigned kind, uint64_t location, uint64_t site) {
    *steps_next++ = spbags_record(kind, location) | site;
}

static inline void steps_put_at(unsigned kind, uint64_t location, uint64_t site) {
    steps_put_quickly(kind, location, site);
    if (__builtin_expect(steps_next >= steps_pause, 0))
        steps_look_on();
}

static inline void steps_put(unsigned kind, uint64_t location) { steps_put_at(kind, location, 0); }

/* A record for the detector with words behind it. Nothing before it can be left out any more. */
void steps_put_words(uint64_t record, const uint64_t *words, size_t count);

/* How many records went before, but for those that are left out. */
static inline uintptr_t steps_so_far(void) { return (uintptr_t)steps_next - steps_origin; }

/* The accesses of the numbers that die are left out; before so many records there are none. */
void steps_leave_out(uintptr_t before);
/* Whether a record came, since this was asked last, that isn't an access of the stack's memory, whose locations are
   odd. */
bool steps_have_new(void);

#endif
