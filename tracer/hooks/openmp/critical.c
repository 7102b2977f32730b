#include "openmp/critical.h"

#include "records/guards.h"
#include "openmp/silence.h"

/* An even address, as those of locks are. */
static const _Alignas(2) char critical_name[] = "the critical region ";

void critical_enter(void **name) { guards_enter((uintptr_t)name, critical_name); }

void critical_begin_combining(void) {
    guards_enter(GUARD_ATOMIC, "atomic");
    silence_combining(1);
}

void critical_end_combining(void) {
    silence_combining(-1);
    guards_leave(GUARD_ATOMIC);
}

#pragma GCC visibility push(hidden)

void GOMP_critical_start(void) { guards_enter((uintptr_t)critical_name, "the critical region without a name"); }
void GOMP_critical_end(void) { guards_leave((uintptr_t)critical_name); }
void GOMP_critical_name_start(void **name) { critical_enter(name); }
void GOMP_critical_name_end(void **name) { guards_leave((uintptr_t)name); }
void GOMP_atomic_start(void) { critical_begin_combining(); }
void GOMP_atomic_end(void) { critical_end_combining(); }

#pragma GCC visibility pop
