/* One hook for all accesses that a statement makes in a loop, or in loops around each other. */
#ifndef SPBAGS_RANGES_H
#define SPBAGS_RANGES_H

#include "hooks.h"

/* Puts it behind the loop in place of the hooks inside, where these are of one strand, and it is known at which addresses
   they are called and how often. */
void ranges_put(function *fun);

#endif
