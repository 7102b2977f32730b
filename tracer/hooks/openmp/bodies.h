/* What spbags-cc puts before some parts of OpenMP: `for (__spbags_body(KIND); __spbags_goes_on();)`, before a parallel
   region, a single one, and a master's, a loop with simd alone, and with clang a section, and sections with nowait and
   lastprivate. A scope with reductions has one around it and one inside, between whose ends these are combined. */
#ifndef SPBAGS_OPENMP_BODIES_H
#define SPBAGS_OPENMP_BODIES_H

#include "base/common.h"

enum body_kind {
    BODY_PARALLEL,
    BODY_SINGLE,
    BODY_MASTER,
    BODY_SIMD,
    BODY_SECTION,
    BODY_LAST,
    BODY_SCOPE,
    BODY_SCOPE_NOWAIT,
    BODY_SCOPED
};

/* Whether it has begun, and is a child. */
struct body {
    enum body_kind kind;
    bool begun, is_child;
};

/* Those of the stack that runs, the newest last, from the second on. */
extern struct bodies { struct body *first, *newest; } bodies;

void bodies_start(void);
/* Room for those of a stack. */
struct body *bodies_reserve(void);

#endif
