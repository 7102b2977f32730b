/* Order by data. By `depend` a task waits for some of those that its parent made before, which no spawn and no sync can
   say. SPBAGS_DEPEND says what is done instead. With `ignore` nothing waits: what `depend` orders may look like a race,
   and where there is none the program has none. With `order` a task that depends on another one waits for all that its
   parent made before: each race is one of the program's, and others aren't seen. */
#ifndef SPBAGS_OPENMP_DEPEND_H
#define SPBAGS_OPENMP_DEPEND_H

#include "base/common.h"

void depend_read_settings(void);

/* What a task names. */
struct depend_named {
    uintptr_t address;
    bool writes;
};

/* What begins here depends on earlier tasks by these; and if it IS_NAMED later ones may depend on it. */
void depend_follow(struct depend_named *names, size_t count, bool is_named, uintptr_t code);

#endif
