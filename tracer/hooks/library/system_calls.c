/* System calls by their numbers. Nothing is known of most, so a report says that they were called. */
#include "program/procedures.h"
#include "program/accesses.h"
#include "library/unknown.h"
#include "program/watch.h"

/* It waits until another thread changes a word, if the word is what the caller says. */
static bool waits_for_word(long operation) {
    long kind = operation & FUTEX_CMD_MASK;
    return kind == FUTEX_WAIT || kind == FUTEX_WAIT_BITSET;
}

static bool is_silent_call(long number, long operation) {
    if (number == SYS_futex)
        return waits_for_word(operation) || (operation & FUTEX_CMD_MASK) == FUTEX_WAKE;
    return number == SYS_gettid || number == SYS_getpid || number == SYS_sched_yield || number == SYS_membarrier;
}

long __wrap_syscall(long number, long a, long b, long c, long d, long e, long f) {
    unknown_system_calls.calls += !is_silent_call(number, b) && procedures_run_beside();
    if (number != SYS_futex || !waits_for_word(b))
        return __real_syscall(number, a, b, c, d, e, f);
    const volatile uint32_t *word = (const volatile uint32_t *)a;
    const struct timespec *end = (const struct timespec *)d;
    if (doing.tracing) {
        NOTE_READ(word, sizeof *word, __wrap_syscall);
        NOTE_READ(end, end ? sizeof *end : 0, __wrap_syscall);
    }
    if (!end && *word == (uint32_t)c)
        watch_tell_endless();
    uint64_t began = watch_time();
    long answer = __real_syscall(number, a, b, c, d, e, f);
    if (end)
        watch_end_sleep(began);
    return answer;
}
