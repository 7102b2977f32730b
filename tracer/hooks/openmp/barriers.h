/* Barriers, and what one thread does. */
#ifndef SPBAGS_OPENMP_BARRIERS_H
#define SPBAGS_OPENMP_BARRIERS_H

#include "openmp/team.h"

/* The thread waits for its team; also where it is in a share of a loop. */
void barriers_join_team(uintptr_t code);
void barriers_wait(uintptr_t code);

/* What any thread may do may be beside a master region of this one, or beside what it does by its number. So it leaves
   that to a later one, if there is one. */
bool barriers_leaves_to_others(const struct scope *thread);
/* Whether the thread that runs does the single region with this code: the first that comes does it, and doesn't leave it
   to others. */
bool barriers_does_single(uintptr_t code);

#endif
