/* Constructs of which another run gives each part to another thread: a part is a single region, a section or an
   iteration of a loop. The thread that does it accesses its own variables there, by their names or by pointers; by a
   pointer another thread reaches the same variable. So where a part and something beside it access one variable, of
   which the other part may be another thread's, spbags-run has one more run, in which other threads do the parts of
   this construct. A construct is named by the code that asks for its parts. */
#ifndef SPBAGS_OPENMP_OTHERS_H
#define SPBAGS_OPENMP_OTHERS_H

#include "base/common.h"

/* Whether this is that run. */
extern bool others_are_named;

void others_start(void);
/* This code accesses a variable that a part of this construct and something beside it access; 0 is none. */
void others_note(uintptr_t construct, uintptr_t code);
/* Whether other threads do the parts of this construct than in the first run. */
bool others_do(uintptr_t construct);
void others_tell(void);

#endif
