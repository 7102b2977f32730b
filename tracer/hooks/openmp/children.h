/* What scopes make and wait for. A scope that wasn't spawned is no procedure of the trace as long as it needs none. A
   `call` is opened for it where it makes its first child while something older is unsynced in the same procedure: then
   a wait for its children isn't a wait for those. */
#ifndef SPBAGS_OPENMP_CHILDREN_H
#define SPBAGS_OPENMP_CHILDREN_H

#include "openmp/scopes.h"

/* The newest scope makes a child, which is the newest one up to its end. */
struct scope *children_open(enum scope_kind kind, uintptr_t code);
void children_close(uintptr_t code);

/* Joins all that these scopes made, from the first one to the newest. Where a `call` was opened it returns. */
void children_join_from(struct scope *first, uintptr_t code);
/* The newest scope ends: it waits for all that was made in it, or leaves that to the one around where it can. */
void children_end_waiting(uintptr_t code);
void children_end_leaving(uintptr_t code);

#endif
