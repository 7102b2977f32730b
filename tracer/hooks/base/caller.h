/* Who called a hook. */
#ifndef SPBAGS_BASE_CALLER_H
#define SPBAGS_BASE_CALLER_H

#include "base/common.h"

#include "../spbags_cilk.h"

/* Of the function that called the hook: its stack pointer at the call, and the address after the call. */
#define STACK_POINTER ((uintptr_t)__builtin_dwarf_cfa())
#define CODE ((uintptr_t)__builtin_return_address(0))

/* With the function that was called in truth, if that may be a child itself. */
struct caller {
    __spbags_function self;
    uintptr_t stack_pointer, code;
};
#define BY(SELF) ((struct caller){(__spbags_function)SELF, STACK_POINTER, CODE})

/* The linker's names for the program's code, and for that of the hooks. */
extern char __executable_start[], etext[], __start_spbags_hooks[], __stop_spbags_hooks[];

static inline bool caller_is_between(uintptr_t code, const char *first, const char *end) {
    return code >= (uintptr_t)first && code < (uintptr_t)end;
}

static inline bool caller_is_program(uintptr_t code) {
    return caller_is_between(code, __executable_start, etext) &&
           !caller_is_between(code, __start_spbags_hooks, __stop_spbags_hooks);
}

#endif
