/* Functions that are plain: they touch nothing else than their variables and what they get. */
#ifndef SPBAGS_PLAIN_H
#define SPBAGS_PLAIN_H

#include "compiler.h"

/* Before a source is read. */
void plain_begin(const char *plugin);
/* Functions are looked at from here on. */
extern bool plain_is_asked;

/* Whether an expression names functions, and plain ones alone, some of which may compute addresses of what they get. To
   ask once all functions of the source are read; what is asked before sees those that are known already. */
bool plain_is(tree *expression, bool may_compute_addresses);

/* Answers what a function asks by `__spbags_is_plain`. */
void plain_put(function *fun);

#endif
