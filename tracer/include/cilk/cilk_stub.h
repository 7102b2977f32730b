/* For programs that are to be serial: they include this, and the keywords of Cilk mean nothing. */
#ifndef CILK_CILK_STUB_H
#define CILK_CILK_STUB_H

#include <cilk/cilk.h>

#define _Cilk_spawn
#define _Cilk_sync
#define _Cilk_for for
#define _Cilk_scope

#endif
