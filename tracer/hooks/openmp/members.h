/* The members of a team. Each does what comes up to the next barrier, in the order of their numbers, and what it does
   there, its part, is a spawned child; at the barrier all of them are joined. */
#ifndef SPBAGS_OPENMP_MEMBERS_H
#define SPBAGS_OPENMP_MEMBERS_H

#include "openmp/team.h"

/* The newest scope's team does its region. */
void members_do_region(struct team *team);
/* The member that runs comes to a barrier. The tasks of its groups are done too, and the groups go on after it. */
void members_wait(uintptr_t code);

#endif
