/* What the run does. */
#ifndef SPBAGS_BASE_DOING_H
#define SPBAGS_BASE_DOING_H

#include "base/common.h"

extern struct doing {
    /* From the beginning of the run to its end, in its own process. */
    bool tracing;
    /* Its records go to the detector; or it looks at the places of races. Else it writes a trace. */
    bool detecting, looking;
    /* A record goes to the detector or into the trace, or is counted by a run that looks, and that is all. Few runs do
       anything else. */
    bool plain;
    /* And it neither looks nor writes version 1. */
    bool plainest;
    /* Each record's place is kept, as long as there is room. */
    bool keeping_places;
    /* Each record of an access begins a strand, so that there are no repeats. */
    bool writing_repeats;
    /* The version of the trace's text. */
    unsigned version;
} doing;

#ifdef SPBAGS_INSIDE
enum { DOING_HAS_DETECTOR = true };
#else
enum { DOING_HAS_DETECTOR = false };
#endif
static inline bool doing_detects(void) { return DOING_HAS_DETECTOR && doing.detecting; }
static inline bool doing_only_detects(void) { return doing_detects() && doing.plain; }
/* What it makes. */
static inline const char *doing_outcome_name(void) { return doing_detects() ? "report" : "trace"; }

#endif
