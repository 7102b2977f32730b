/* What programs in C++ call beside the rest. */
#include "program/heap.h"
#include "program/statics.h"
#include "library/library.h"

/* The library's operator new calls malloc. Whoever may still use what is deleted has a race, as with free. All that
   follow the block are of no matter: its size, its alignment, and that nothing is thrown. */
#define DELETE(NAME) \
    void NAME(void *block) { \
        if (caller_is_program(CODE)) \
            heap_end_block(block, (__spbags_function)NAME, STACK_POINTER, CODE); \
        free(block); \
    }
DELETE(_ZdlPv)
DELETE(_ZdlPvm)
DELETE(_ZdlPvSt11align_val_t)
DELETE(_ZdlPvmSt11align_val_t)
DELETE(_ZdlPvRKSt9nothrow_t)
DELETE(_ZdlPvSt11align_val_tRKSt9nothrow_t)
DELETE(_ZdaPv)
DELETE(_ZdaPvm)
DELETE(_ZdaPvSt11align_val_t)
DELETE(_ZdaPvmSt11align_val_t)
DELETE(_ZdaPvRKSt9nothrow_t)
DELETE(_ZdaPvSt11align_val_tRKSt9nothrow_t)

/* A local static is initialised by whoever comes first, and all others wait for that. A trace has no way to say so. */
#define LEAVES_GUARD(NAME) \
    __attribute__((weak)) void __real_##NAME(void *guard); \
    void __wrap_##NAME(void *guard) { \
        __real_##NAME(guard); \
        statics_leave(guard); \
    }
LEAVES_GUARD(__cxa_guard_release)
LEAVES_GUARD(__cxa_guard_abort)

__attribute__((weak)) int __real___cxa_guard_acquire(void *guard);
int __wrap___cxa_guard_acquire(void *guard) {
    int first = __real___cxa_guard_acquire(guard);
    statics_enter(guard, first != 0);
    return first;
}

/* std::thread, which the library starts itself. */
#define START_THREAD _ZNSt6thread15_M_start_threadESt10unique_ptrINS_6_StateESt14default_deleteIS1_EEPFvvE
__attribute__((weak)) void REAL(START_THREAD)(void *thread, void *state, void (*depends)(void));
void WRAP(START_THREAD)(void *thread, void *state, void (*depends)(void)) {
    library_refuse_thread();
    REAL(START_THREAD)(thread, state, depends);
}
