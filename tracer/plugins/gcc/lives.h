/* The lives of variables that each iteration or section has of its own, in OpenMP. */
#ifndef SPBAGS_LIVES_H
#define SPBAGS_LIVES_H

#include "hooks.h"

/* Whether the hooks are told where lives end: of OpenMP, and not of the tasks that stand for Cilk's children. */
extern bool lives_are_wanted;

/* Before regions become functions: at an iteration's end a hook says which of its variables have none any more. What
   tasks share is one variable, and not a copy. */
void lives_put(function *fun);

#endif
