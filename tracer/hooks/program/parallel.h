/* Groups of tasks. */
#ifndef SPBAGS_PROGRAM_PARALLEL_H
#define SPBAGS_PROGRAM_PARALLEL_H

#include "base/common.h"

/* Those end whose frames end with the newest one. */
__attribute__((cold)) void parallel_leave_groups(uintptr_t code);

#endif
