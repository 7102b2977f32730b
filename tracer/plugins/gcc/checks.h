/* The inline tests in place of calls of hooks, whose text for the assembler is in inline_checks.h. */
#ifndef SPBAGS_CHECKS_H
#define SPBAGS_CHECKS_H

#include "hooks.h"

/* There are tests. Else hooks are called. */
void checks_begin(const char *plugin);

/* Drops the hooks of variables of the function whose address nobody else gets, once that is known. Whether there were
   any. */
bool checks_drop_own(function *fun);
/* Puts a test in place of each call that has one. */
void checks_put(function *fun);
/* The tests call hooks, which the compiler doesn't know: has the code keep its stack as for calls. Once it has that. */
void checks_keep_stack(function *fun);
gimple_seq check_of_entry(location_t location);
gimple_seq check_of_exit(location_t location);

#endif
