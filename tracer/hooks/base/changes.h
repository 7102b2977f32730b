/* Records as a handler of a signal sees them. */
#ifndef SPBAGS_BASE_CHANGES_H
#define SPBAGS_BASE_CHANGES_H

#include "base/common.h"

#include "base/doing.h"

/* A signal may come between any two instructions, and then the trace is closed by its handler. Not while bytes are on
   their way out, nor between a record of the structure and the count of what is open: there it waits. */
extern volatile sig_atomic_t changes, changes_waiting_signal;
/* So it is while a record of a plain run is put, of which there are many: a count would take longer. */
extern volatile sig_atomic_t changes_stepping;
static inline bool changes_are_amid_record(void) { return changes > 0 || changes_stepping; }

/* What stands before it in the text is done before what stands behind it, as a handler sees it. */
static inline void changes_in_order(void) { __atomic_signal_fence(__ATOMIC_SEQ_CST); }

/* A signal has waited: it ends the run, where none has to wait any more. */
__attribute__((cold)) void changes_let_signal_end(void);

static inline void changes_let_waiting_end(void) {
    if (__builtin_expect(changes_waiting_signal != 0, 0))
        changes_let_signal_end();
}

static inline void changes_begin(void) {
    changes++;
    changes_in_order();
}

static inline void changes_end(void) {
    changes_in_order();
    changes--;
    changes_let_waiting_end();
}

/* A handler of a signal makes a record while one is put. */
__attribute__((noreturn, cold)) void changes_refuse_handler(void);

/* Where none is put. */
static inline void changes_begin_only_step(void) {
    changes_stepping = true;
    changes_in_order();
}

static inline void changes_begin_step(void) {
    if (__builtin_expect(changes_stepping, 0) && doing.tracing)
        changes_refuse_handler();
    changes_begin_only_step();
}

static inline void changes_end_step(void) {
    changes_in_order();
    changes_stepping = false;
    changes_let_waiting_end();
}

#endif
