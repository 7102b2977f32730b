/* The hooks of a function's entry and of its exits. */
#ifndef SPBAGS_FRAMES_H
#define SPBAGS_FRAMES_H

#include "hooks.h"

/* Before the code has a graph: marks each way out of the function, also that of an exception; and lets functions of the
   C++ library's headers go into each other. */
void frames_mark(function *fun);
/* At last: puts the hooks there, if the function calls anything or has other hooks. What was inlined has none. */
void frames_put(function *fun);

#endif
