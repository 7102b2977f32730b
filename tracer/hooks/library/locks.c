/* Locks. A serial run waits for none, and an access under one has it for a guard. */
#include "records/guards.h"
#include "program/watch.h"

#define LOCKS(NAME, TYPE) \
    __attribute__((weak)) int __real_##NAME(TYPE *lock); \
    int __wrap_##NAME(TYPE *lock) { return enter_lock(__real_##NAME(lock), lock); }
/* What is held here already is held by a task around this, which can't go on. */
#define WAITING_LOCKS(NAME, TRY, TYPE, BUSY) \
    __attribute__((weak)) int __real_##NAME(TYPE *lock); \
    int __wrap_##NAME(TYPE *lock) { \
        int answer = __real_##TRY(lock); \
        if (answer == BUSY) { \
            watch_tell_endless(); \
            answer = __real_##NAME(lock); \
        } \
        return enter_lock(answer, lock); \
    }
#define UNLOCKS(NAME, TYPE) \
    __attribute__((weak)) int __real_##NAME(TYPE *lock); \
    int __wrap_##NAME(TYPE *lock) { \
        guards_leave((uintptr_t)lock); \
        return __real_##NAME(lock); \
    }
static int enter_lock(int answer, const volatile void *lock) {
    if (answer == 0)
        guards_enter((uintptr_t)lock, "the lock ");
    return answer;
}

LOCKS(pthread_mutex_trylock, pthread_mutex_t)
WAITING_LOCKS(pthread_mutex_lock, pthread_mutex_trylock, pthread_mutex_t, EBUSY)
UNLOCKS(pthread_mutex_unlock, pthread_mutex_t)
LOCKS(pthread_spin_lock, pthread_spinlock_t)
LOCKS(pthread_spin_trylock, pthread_spinlock_t)
UNLOCKS(pthread_spin_unlock, pthread_spinlock_t)
LOCKS(mtx_trylock, mtx_t)
WAITING_LOCKS(mtx_lock, mtx_trylock, mtx_t, thrd_busy)
UNLOCKS(mtx_unlock, mtx_t)

/* One that has no time to wait says whether it would. The library may lack these. */
#pragma weak pthread_rwlock_timedrdlock
#pragma weak pthread_rwlock_timedwrlock
#define WAITING_SHARED_LOCKS(NAME, TIMED) \
    __attribute__((weak)) int __real_##NAME(pthread_rwlock_t *lock); \
    int __wrap_##NAME(pthread_rwlock_t *lock) { \
        const struct timespec past = {0}; \
        int answer = TIMED(lock, &past); \
        if (answer != ETIMEDOUT) \
            return answer; \
        watch_tell_endless(); \
        return __real_##NAME(lock); \
    }
WAITING_SHARED_LOCKS(pthread_rwlock_rdlock, pthread_rwlock_timedrdlock)
WAITING_SHARED_LOCKS(pthread_rwlock_wrlock, pthread_rwlock_timedwrlock)

/* Who comes first holds the flag while it calls the routine, which an exception may leave. Who comes later has held it
   too. */
static const volatile void *enter_flag(const volatile void *flag) {
    guards_enter((uintptr_t)flag, "the once flag ");
    return flag;
}
static void leave_flag(const volatile void **flag) { guards_leave((uintptr_t)*flag); }

#define ONCE(ANSWER, NAME, TYPE) \
    __attribute__((weak)) ANSWER __real_##NAME(TYPE *flag, void (*routine)(void)); \
    ANSWER __wrap_##NAME(TYPE *flag, void (*routine)(void)) { \
        __attribute__((cleanup(leave_flag), unused)) const volatile void *held = enter_flag(flag); \
        return __real_##NAME(flag, routine); \
    }
ONCE(int, pthread_once, pthread_once_t)
ONCE(void, call_once, once_flag)
