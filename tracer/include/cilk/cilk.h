/* The keywords of Cilk, for programs that `spbags-cc` compiles, which rewrites them. */
#ifndef CILK_CILK_H
#define CILK_CILK_H

#define cilk_spawn _Cilk_spawn
#define cilk_sync _Cilk_sync
#define cilk_for _Cilk_for
#define cilk_scope _Cilk_scope
#define cilk_reducer _Hyperobject

#if defined __cplusplus && defined SPBAGS_SPAWN_H
#include <spbags/exceptions.h>
#endif

#endif
