/* A taskwait doesn't wait for what the tasks that it waits for leave behind, and in a trace that ends with those. Where
   this makes a difference spbags-run has the program run once more. Then each task that a taskwait waits for is a part
   of its parent, and no taskwait is a sync: what the tasks leave stays unsynced. Both traces have all order that OpenMP
   makes. Beyond it the first has what a task leaves before what stands behind the taskwait, and the other one only the
   task itself before what its parent does up to there; so two accesses without an order have none in one of both. */
#ifndef SPBAGS_OPENMP_WAITS_H
#define SPBAGS_OPENMP_WAITS_H

#include "base/common.h"

/* Whether this is the second run. */
extern bool waits_is_second;

/* A taskwait ends this period of the task that waits. */
void waits_note(uint64_t period);
/* Whether tasks of this period are parts of their parent. */
bool waits_is_part(uint64_t period);
/* Whether the second run has begun another number of scopes than the first. */
bool waits_is_astray(uint64_t scopes);
/* Whether there is a file that has all now that the second run needs. */
bool waits_write(uint64_t scopes);

#endif
