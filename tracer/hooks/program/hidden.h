/* Updates of reducers whose accesses aren't recorded, and what else of reducers isn't run. */
#ifndef SPBAGS_PROGRAM_HIDDEN_H
#define SPBAGS_PROGRAM_HIDDEN_H

#include "base/common.h"

/* How many such updates are going on. They count among what is hidden too. */
extern unsigned hidden_updates;

void hidden_set(unsigned count);
/* What is spawned in such an update isn't recorded either. */
void hidden_tell_child(void);
/* A warning of what another schedule would do beside, once for each text. */
void hidden_tell_not_run(const char *text);

#endif
