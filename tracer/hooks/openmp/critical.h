/* Critical regions, and what is updated atomically. */
#ifndef SPBAGS_OPENMP_CRITICAL_H
#define SPBAGS_OPENMP_CRITICAL_H

#include "base/common.h"

/* The critical region of this name begins. */
void critical_enter(void **name);
/* What combines a reduction's copies, under the guard of the runtime. */
void critical_begin_combining(void);
void critical_end_combining(void);

#endif
