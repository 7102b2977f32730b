/* The detector inside the program, which spbags-cc links. It takes each record in place of a line of the trace, and at
   the end gives the report. */
#ifndef SPBAGS_RUN_DETECTOR_H
#define SPBAGS_RUN_DETECTOR_H

#include "base/common.h"

#ifdef SPBAGS_INSIDE
/* The detector has a thread of its own, which alone calls it. The program's thread hands it the records in bundles, and
   fills one while the detector goes through those before. */
enum { DETECTOR_BUNDLES = 8 };
/* Whether the report, once it is made, is more than the line `races 0`; and then, how many spawns and accesses the
   detector has taken. */
extern bool detector_has_races;
extern uint64_t detector_spawns, detector_accesses;

/* The detector begins, and its thread, for which the heap has memory aside. */
void detector_begin(void);
/* From now on this file of spbags-run has how much was taken, and is closed here. */
void detector_share_progress(int file);
/* Hands over what is left, and waits until the report is made. */
void detector_end(bool has_more_to_say);
/* Behind a report for a user's eyes: how many races it leaves out, and the command that shows the source lines. */
void detector_tell_next(void);
#else
enum { detector_has_races = false, detector_spawns = 0, detector_accesses = 0 };
static inline void detector_begin(void) {}
static inline void detector_share_progress(int file) { close(file); }
static inline void detector_end(bool has_more_to_say) { (void)has_more_to_say; }
static inline void detector_tell_next(void) {}
#endif

#endif
