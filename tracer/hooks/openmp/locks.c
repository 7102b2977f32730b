/* The locks of omp.h. Who waits for one that isn't free would wait for ever. */
#include "records/guards.h"
#include "openmp/scopes.h"

struct lock {
    int count;
};

/* One that its owner may set again: a task, by its number. That of LLVM's omp.h has eight bytes. */
struct nested_lock {
    uint64_t owner : 48, count : 16;
};

static const char lock_name[] = "the lock ";

__attribute__((noreturn)) static void wait_for_ever(void) {
    tell_fault(
        "the program waits for a lock that is never unset: a task runs to its end where it is made, so what holds "
        "the lock can't go on");
}

#pragma GCC visibility push(hidden)

void omp_init_lock(struct lock *lock) { lock->count = 0; }
void omp_init_lock_with_hint(struct lock *lock, int hint) { (void)hint, omp_init_lock(lock); }
void omp_destroy_lock(struct lock *lock) { (void)lock; }

int omp_test_lock(struct lock *lock) {
    if (lock->count > 0)
        return 0;
    lock->count = 1;
    guards_enter((uintptr_t)lock, lock_name);
    return 1;
}

void omp_set_lock(struct lock *lock) {
    if (!omp_test_lock(lock))
        wait_for_ever();
}

void omp_unset_lock(struct lock *lock) {
    lock->count = 0;
    guards_leave((uintptr_t)lock);
}

void omp_init_nest_lock(struct nested_lock *lock) { lock->count = 0; }
void omp_init_nest_lock_with_hint(struct nested_lock *lock, int hint) { (void)hint, omp_init_nest_lock(lock); }
void omp_destroy_nest_lock(struct nested_lock *lock) { (void)lock; }

int omp_test_nest_lock(struct nested_lock *lock) {
    if (lock->count > 0 && lock->owner != scopes_task()->number)
        return 0;
    if (lock->count == UINT16_MAX)
        tell_fault("one lock is set more than %d times", UINT16_MAX);
    lock->owner = scopes_task()->number;
    lock->count++;
    guards_enter((uintptr_t)lock, lock_name);
    return lock->count;
}

void omp_set_nest_lock(struct nested_lock *lock) {
    if (omp_test_nest_lock(lock) == 0)
        wait_for_ever();
}

void omp_unset_nest_lock(struct nested_lock *lock) {
    lock->count--;
    guards_leave((uintptr_t)lock);
}

#pragma GCC visibility pop
