/* What a rewritten spawn or sync calls. `spbags-cc` includes this before each source; programs needn't. Macros of a
   program may have any name but a reserved one, so all names here are. */
#ifndef SPBAGS_CILK_H
#define SPBAGS_CILK_H

#ifdef __cplusplus
extern "C" {
#endif

typedef void (*__spbags_function)(void);

/* Opens a child that is about to call this function. The same function comes back, which the compiler doesn't know: so
   it can't put the child's code and variables into its parent. */
__spbags_function __spbags_spawn(__spbags_function __callee);

/* The child returns; what held its result on the way, if anything, is of no use any more. */
void __spbags_return(const volatile void *__result, unsigned long __size);

/* The same of one that has stored its result here. */
void __spbags_stored(const volatile void *__at, unsigned long __size, const volatile void *__result,
                     unsigned long __result_size);

void __spbags_sync(void);

/* A scope begins at this place of the source. Its end is called with the address of what this gives; it waits for its
   own children. */
const char *__spbags_enter(const char *__place);
void __spbags_leave(const char *const *__place);

/* An iteration of a loop begins, with this value of the loop's variable, and this number to show. It returns as a child
   does. Its body asks for the value, since it has a variable of its own. */
void __spbags_iteration(long __value, long __shown);
long __spbags_counter(void);

/* A reducer's view, of so many bytes, begins; is updated; has its value read or set; or ends. If what another schedule
   would do beside isn't known, the note says so. Between the last two an update accesses what else the view has. */
void __spbags_reducer(const volatile void *__view, unsigned long __size, const char *__note);
/* All that are in so many bytes end. */
void __spbags_reducers_end(const volatile void *__views, unsigned long __size);
void *__spbags_update(const volatile void *__view, unsigned long __size, const char *__note);
void *__spbags_value(const volatile void *__view, unsigned long __size, const char *__note);
/* The functions that a reducer gets; nothing calls this. */
void __spbags_functions(void (*__identity)(void *), void (*__reduce)(void *, void *));
void __spbags_not_seen(const char *__note);
void __spbags_hide(void);
void __spbags_show(void);

/* Assembly outside of functions, or that is a whole function, stands at this place of the source. Its text is null if it
   has operands. */
void __spbags_asm_outside(const char *__place, const char *__text);

/* What stands before the body of a parallel, single or master region of OpenMP, and before a loop with simd: `for (__spbags_body(KIND);
   __spbags_goes_on();)`. */
void __spbags_body(int __kind);
int __spbags_goes_on(void);
/* What stands around the number of a masked region's thread. */
int __spbags_filter(int __number);

#ifdef __cplusplus
}

/* The number to show of an iteration: the value of its loop's variable, or which one it is where that is no integer. */
template <class __T> static inline long __spbags_shown(const __T &, long __number) { return __number; }
#define __SPBAGS_SHOWN(__TYPE) static inline long __spbags_shown(const __TYPE &__value, long) { return (long)__value; }
__SPBAGS_SHOWN(int) __SPBAGS_SHOWN(unsigned) __SPBAGS_SHOWN(long) __SPBAGS_SHOWN(unsigned long)
__SPBAGS_SHOWN(long long) __SPBAGS_SHOWN(unsigned long long) __SPBAGS_SHOWN(short) __SPBAGS_SHOWN(unsigned short)
#undef __SPBAGS_SHOWN

/* A part of the program in which a view that has more memory elsewhere is updated. */
struct __spbags_hidden {
    __spbags_hidden() { __spbags_hide(); }
    ~__spbags_hidden() { __spbags_show(); }
};

#include "include/spbags/spawn.h"
#elif !defined __clang__
/* The reducer itself, and not its view. */
#define __builtin_addressof(__REDUCER) (&(__REDUCER))
#endif

#endif
