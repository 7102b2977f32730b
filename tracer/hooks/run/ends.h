/* How the run ends. Whatever is open in the trace returns then, so that what came before can be judged. Where the run
   doesn't end by itself, a warning says how. */
#ifndef SPBAGS_RUN_ENDS_H
#define SPBAGS_RUN_ENDS_H

#include "base/common.h"

/* ---- The trace or the report ends ---- */

/* Nothing is recorded from here on. */
void ends_stop(void);
/* The trace or the report ends here, and the run does. */
__attribute__((cold)) void ends_end_run(void);
/* The trace has reached its limit. */
void ends_at_limit(void);

/* ---- The program ends ---- */

/* The status of a run whose report has races, or that it is the program's own. */
enum { ENDS_PROGRAMS_OWN = -1 };
extern int ends_racy_status;

void ends_read_settings(void);
/* From here on the ends of this process are seen. */
void ends_begin(void);

/* Whether this is the process that is traced, and not one that fork or vfork made. */
bool ends_is_traced(void);
/* The trace or the report ends here, and so does a program that doesn't end by itself, if its status isn't its own. */
void ends_racy(void);

/* In the way of spbags-run there is no answer where the program forks. */
void ends_refuse_fork(void);

#endif
