/* A run is serial, so a wait for another task or thread never ends. Of a program that goes on and does nothing new a
   line says where it is: after SPBAGS_PATIENCE seconds of its processor time and of its sleep, for it may be computing,
   and what waits for its input takes neither. A timer of that processor time looks at the newest records. It interrupts
   no system call that waits. */
#include "program/watch.h"

#include "base/doing.h"
#include "program/accesses.h"
#include "records/records.h"
#include "base/settings.h"
#include "base/tell.h"

/* The timer's signal. spbags-run ends by it a program that others don't end. */
enum { WATCH_SIGNAL = 63 };
static int watch_timer = -1;
static uint64_t patience;

/* How long the program has slept, and when it did something new last; times are in nanoseconds. */
static uint64_t slept, new_at;
enum { SECOND = 1000000000 };

void watch_set_patience(void) {
    uint64_t seconds = settings_number(SETTING_PATIENCE);
    patience = (seconds < SECOND ? seconds : SECOND) * SECOND;
}

static uint64_t time_of(clockid_t clock) {
    struct timespec now;
    clock_gettime(clock, &now);
    return (uint64_t)now.tv_sec * SECOND + (uint64_t)now.tv_nsec;
}

uint64_t watch_time(void) { return time_of(CLOCK_MONOTONIC); }

/* ---- Where the program is ---- */

struct rest_of_line {
    char *at, *end;
};

static _Unwind_Reason_Code add_call(struct _Unwind_Context *context, void *with) {
    struct rest_of_line *rest = with;
    int is_next = 0;
    uintptr_t code = _Unwind_GetIPInfo(context, &is_next);
    if (!caller_is_program(code))
        return _URC_NO_REASON;
    int length = snprintf(rest->at, (size_t)(rest->end - rest->at), " %#zx", (size_t)code - !is_next);
    if (length >= rest->end - rest->at) {
        *rest->at = '\0';
        return _URC_END_OF_STACK;
    }
    rest->at += length;
    return _URC_NO_REASON;
}

/* A command prints the stack; spbags-run gets the codes and prints it itself. */
static void tell_where(const char *what) {
    char program[300], record[600] = "stuck", *codes = record + strlen(record), text[1000];
    ssize_t length = readlink("/proc/self/exe", program, sizeof program - 1);
    program[length < 0 ? 0 : length] = '\0';
    _Unwind_Backtrace(add_call, &(struct rest_of_line){codes, record + sizeof record});
    if (tell_by_records())
        snprintf(text, sizeof text, "%s. It is here:", what);
    else
        snprintf(text, sizeof text, "%s. It is here: addr2line -Cfpie %s%s", what, program, codes);
    tell_text(record, text);
}

/* ---- Nothing new for a long time ---- */

static void look_for_progress(void) {
    uint64_t now = time_of(CLOCK_THREAD_CPUTIME_ID) + slept;
    if (records_have_new())
        new_at = now;
    if (now - new_at < patience)
        return;
    patience *= 4;
    char what[300];
    snprintf(what, sizeof what,
             "for %llu seconds the program has touched no new memory and started no task. It goes on, since it may be "
             "computing; but if it waits for another task or thread it waits for ever, since the run is serial",
             (unsigned long long)((now - new_at) / SECOND));
    tell_where(what);
}

bool watch_is_signal(int number, const siginfo_t *about) {
    return number == WATCH_SIGNAL && about->si_code == SI_TIMER && about->si_value.sival_ptr == &watch_timer;
}

void watch_look(void) {
    int error = errno;
    if (doing.tracing)
        look_for_progress();
    errno = error;
}

/* By the system's calls, since an older C library has these functions in a library of their own. */
void watch_begin(void) {
    struct sigevent event = {.sigev_notify = SIGEV_THREAD_ID,
                             .sigev_signo = WATCH_SIGNAL,
                             .sigev_value.sival_ptr = &watch_timer,
                             ._sigev_un._tid = (int)__real_syscall(SYS_gettid)};
    struct timespec part = {.tv_sec = (time_t)(patience / 4 / SECOND), .tv_nsec = (long)(patience / 4 % SECOND)};
    if (__real_syscall(SYS_timer_create, CLOCK_THREAD_CPUTIME_ID, &event, &watch_timer) == 0)
        __real_syscall(SYS_timer_settime, watch_timer, 0, &(struct itimerspec){part, part}, NULL);
}

void watch_leave_signal(int number) {
    if (number != WATCH_SIGNAL || watch_timer < 0)
        return;
    __real_syscall(SYS_timer_delete, watch_timer);
    watch_timer = -1;
}

/* ---- Sleep, also for another thread, and waits ---- */

void watch_end_sleep(uint64_t began) {
    int error = errno;
    slept += watch_time() - began;
    if (doing.tracing)
        look_for_progress();
    errno = error;
}

#define SLEEPS(TYPE, NAME, PARAMETERS, ARGUMENTS) \
    __attribute__((weak)) TYPE __real_##NAME PARAMETERS; \
    TYPE __wrap_##NAME PARAMETERS { \
        uint64_t began = watch_time(); \
        TYPE answer = __real_##NAME ARGUMENTS; \
        watch_end_sleep(began); \
        return answer; \
    }
/* The layout takes the pointers in these parameters for products. */
/* clang-format off */
SLEEPS(unsigned, sleep, (unsigned seconds), (seconds))
SLEEPS(int, usleep, (useconds_t time), (time))
SLEEPS(int, sem_timedwait, (sem_t *semaphore, const struct timespec *end), (semaphore, end))
SLEEPS(int, cnd_timedwait, (cnd_t *condition, mtx_t *lock, const struct timespec *end), (condition, lock, end))
SLEEPS(int, pthread_cond_timedwait, (pthread_cond_t *condition, pthread_mutex_t *lock, const struct timespec *end),
       (condition, lock, end))
SLEEPS(int, pthread_cond_clockwait,
       (pthread_cond_t *condition, pthread_mutex_t *lock, clockid_t clock, const struct timespec *end),
       (condition, lock, clock, end))
/* clang-format on */

/* Where the sleep is cut short, what was left of it is written. */
#define SLEEPS_BY(NAME, PARAMETERS, ARGUMENTS) \
    __attribute__((weak)) int __real_##NAME PARAMETERS; \
    int __wrap_##NAME PARAMETERS { \
        if (doing.tracing) \
            NOTE_READ(time, sizeof *time, __wrap_##NAME); \
        uint64_t began = watch_time(); \
        int answer = __real_##NAME ARGUMENTS; \
        watch_end_sleep(began); \
        if (doing.tracing && answer != 0 && left) \
            NOTE_WRITE(left, sizeof *left, __wrap_##NAME); \
        return answer; \
    }
SLEEPS_BY(nanosleep, (const struct timespec *time, struct timespec *left), (time, left))
SLEEPS_BY(thrd_sleep, (const struct timespec *time, struct timespec *left), (time, left))
SLEEPS_BY(clock_nanosleep, (clockid_t clock, int flags, const struct timespec *time, struct timespec *left),
          (clock, flags, time, left))

void watch_tell_endless(void) {
    static bool told;
    if (!doing.tracing || told)
        return;
    told = true;
    tell_where("the program waits for another task or thread, and so for ever, since the run is serial");
}

#define WAITS(NAME, PARAMETERS, ARGUMENTS) \
    __attribute__((weak)) int __real_##NAME PARAMETERS; \
    int __wrap_##NAME PARAMETERS { \
        watch_tell_endless(); \
        return __real_##NAME ARGUMENTS; \
    }
/* clang-format off */
WAITS(pthread_cond_wait, (pthread_cond_t *condition, pthread_mutex_t *lock), (condition, lock))
WAITS(cnd_wait, (cnd_t *condition, mtx_t *lock), (condition, lock))
/* clang-format on */

/* That of std::condition_variable. */
__attribute__((weak)) void __real__ZNSt18condition_variable4waitERSt11unique_lockISt5mutexE(void *, void *);
void __wrap__ZNSt18condition_variable4waitERSt11unique_lockISt5mutexE(void *condition, void *lock) {
    watch_tell_endless();
    __real__ZNSt18condition_variable4waitERSt11unique_lockISt5mutexE(condition, lock);
}

/* That of std::future, which waits while the word has this value. */
#define WAIT_FOR_FUTURE \
    _ZNSt28__atomic_futex_unsigned_base19_M_futex_wait_untilEPjjbNSt6chrono8durationIlSt5ratioILl1ELl1EEEENS2_IlS3_ILl1ELl1000000000EEEE
__attribute__((weak)) bool REAL(WAIT_FOR_FUTURE)(void *, unsigned *, unsigned, bool, long, long);
bool WRAP(WAIT_FOR_FUTURE)(void *future, unsigned *word, unsigned value, bool has_end, long seconds, long rest) {
    if (!has_end && __atomic_load_n(word, __ATOMIC_RELAXED) == value)
        watch_tell_endless();
    return REAL(WAIT_FOR_FUTURE)(future, word, value, has_end, seconds, rest);
}

int __wrap_sem_wait(sem_t *semaphore) {
    int free = 0;
    if (sem_getvalue(semaphore, &free) == 0 && free == 0)
        watch_tell_endless();
    return __real_sem_wait(semaphore);
}

/* The third number of the C library's barrier says how many threads it waits for. */
__attribute__((weak)) int __real_pthread_barrier_wait(pthread_barrier_t *barrier);
int __wrap_pthread_barrier_wait(pthread_barrier_t *barrier) {
    if (((const unsigned *)barrier)[2] > 1)
        watch_tell_endless();
    return __real_pthread_barrier_wait(barrier);
}
