/* Variables of a region that its threads access in shares: iterations of loops, sections and single regions. Any thread
   may do a share, with its own variables: so in each share these have locations that nothing else has. But if a pointer
   leads another thread to them, there is a race with what this thread does there. So when a share has ended, what it
   accessed is noted once more, as accesses of its thread, with the usual locations. */
#ifndef SPBAGS_OPENMP_LOCALS_H
#define SPBAGS_OPENMP_LOCALS_H

#include "openmp/scopes.h"

/* The member that runs begins what it does up to its next barrier, and ends that. */
void locals_begin_thread(struct scope *thread);
void locals_end_thread(const struct scope *thread);

/* The newest scope is a share of this construct that has begun, in a function with this stack pointer; or of none, where
   the compiler put it there. Then it ends, and is closed; gives that stack pointer. */
void locals_begin_share(uintptr_t construct, uintptr_t stack_pointer);
uintptr_t locals_end_share(uintptr_t code);

#endif
