#include "run/ends.h"

#include "base/openmp.h"
#include "base/output.h"
#include "base/settings.h"
#include "base/tell.h"
#include "library/unknown.h"
#include "program/hidden.h"
#include "program/locations.h"
#include "records/course.h"
#include "records/look.h"
#include "records/places.h"
#include "records/records.h"
#include "run/detector.h"
#include "program/procedures.h"

/* ---- The trace or the report ends ---- */

void ends_stop(void) {
    doing.tracing = false;
    frames_find_short_way();
}

/* How much was there, for spbags-run. Builds run programs in which nothing is, and read what they print. */
static void tell_extent(void) {
    char record[100];
    snprintf(record, sizeof record, "ran %" PRIu64 " %" PRIu64, detector_spawns, detector_accesses);
    if (doing_detects() && tell_by_records())
        tell_text(record, "");
}

static void tell_notes(void) {
    if (frames_had_children())
        locations_tell_partial();
    else if (tell_by_records())
        tell_incomplete("nothing ran in parallel: the program made no spawn, task or iteration");
    if (frames_procedures_most > FRAME_DEFAULT_DEPTH + 1 && !doing_detects())
        tell_record(tell_numbered("depth", frames_procedures_most - 1).text,
                    "procedures nest %u deep, so spbags needs --depth %u or more", frames_procedures_most - 1,
                    frames_procedures_most - 1);
    if (frames_statics > 0)
        tell_incomplete("a jump or the run's end has left what initialises a local static: nothing of that static is "
                        "recorded, nor of the heap blocks that were allocated since");
    if (frames_hidden > hidden_updates)
        tell_incomplete("a jump or the run's end has left an operation of a library's header: nothing behind its "
                        "beginning is recorded");
    openmp_tell_notes();
    unknown_tell();
}

static void end_outcome(void) {
    sigset_t all, before;
    sigfillset(&all);
    sigprocmask(SIG_BLOCK, &all, &before);
    ends_stop();
    strands_put();
    steps_put_rest();
    course_tell();
    output_of_run.most = look_next_place = course_last_record = UINT64_MAX;
    while (frames_procedures > 0)
        procedures_close(0);
    steps_put_rest();
    if (doing.looking)
        look_put_notes();
    tell_notes();
    if (doing_detects())
        detector_end(frames_had_children() || tell_has_told);
    tell_extent();
    places_end();
    output_close(&output_of_run);
    detector_tell_next();
    sigprocmask(SIG_SETMASK, &before, NULL);
}

void ends_end_run(void) {
    end_outcome();
    __real__exit(0);
}

void ends_at_limit(void) {
    uint64_t most = output_of_run.most;
    records_drop();
    end_outcome();
    tell_fault_by(
        tell_numbered("end limit", most).text,
        "the trace has reached its limit of %llu bytes, so the run ends here, and the trace has what came before: "
        "SPBAGS_MAX_BYTES sets another limit",
        (unsigned long long)most);
}

/* ---- The program ends ---- */

static pid_t traced_process;

bool ends_is_traced(void) { return doing.tracing && getpid() == traced_process; }

/* SPBAGS_EXITCODE is the status of a run whose report has races, and makes that of one with none say where something
   wasn't seen or modelled, unless SPBAGS_INCOMPLETE_OK accepts that. Without it the status is the program's. */
enum { NOT_ALL_SEEN = 3 };
int ends_racy_status = ENDS_PROGRAMS_OWN;
static bool is_incomplete_ok;

void ends_read_settings(void) {
    is_incomplete_ok = settings_is(SETTING_INCOMPLETE_OK, "1");
    ends_racy_status = settings_status(SETTING_EXITCODE);
}

/* That with which the program would end by itself, as far as it is known. */
static int own_status = ENDS_PROGRAMS_OWN;

/* The status with which the program is to end, which would end with this one. */
static int end_trace_of(int status) {
    end_outcome();
    if (ends_racy_status == ENDS_PROGRAMS_OWN)
        return status;
    if (detector_has_races)
        return ends_racy_status;
    return status == 0 && tell_incomplete_lines > 0 && !is_incomplete_ok ? NOT_ALL_SEEN : status;
}

/* Where the program doesn't end by itself it has no status of its own. */
void ends_racy(void) {
    int status = end_trace_of(ENDS_PROGRAMS_OWN);
    if (status != ENDS_PROGRAMS_OWN)
        __real__exit(status);
}

/* Before the program ends by itself or becomes another one: a handler of its own may do that while a record is put. */
static void refuse_amid_record(void) {
    if (changes_are_amid_record())
        changes_refuse_handler();
}

static int end_by_itself(int status) {
    refuse_amid_record();
    return end_trace_of(status);
}

/* ---- Ends without handlers ---- */

void __wrap__exit(int status) { __real__exit(ends_is_traced() ? end_by_itself(status) : status); }

void __wrap__Exit(int status) { __wrap__exit(status); }

/* Handlers of exit and quick_exit aren't told the status. */
static int end_trace_of_own(void) { return ends_is_traced() ? end_by_itself(own_status) : own_status; }

static void quick_end(void) {
    int status = end_trace_of_own();
    if (status != own_status)
        __real__exit(status);
}

static void keep_status(int status, void *nothing) {
    (void)nothing;
    own_status = status & 0xff;
}

__attribute__((noreturn)) void __real_quick_exit(int status);
void __wrap_quick_exit(int status) {
    keep_status(status, NULL);
    __real_quick_exit(status);
}

/* Another program takes this one's place, unless that fails. */
static bool end_before_exec(void) {
    bool traced = ends_is_traced();
    if (traced) {
        refuse_amid_record();
        tell_record("end exec", "the program becomes another one by exec, and the %s has what came before",
                    doing_outcome_name());
        ends_racy();
    }
    return traced;
}

static int after_exec(bool traced, int answer) {
    if (traced)
        tell("the exec failed, and what comes after it isn't in the %s", doing_outcome_name());
    return answer;
}

#define EXEC(NAME, PARAMETERS, ARGUMENTS) \
    int __real_##NAME PARAMETERS; \
    int __wrap_##NAME PARAMETERS { \
        bool traced = end_before_exec(); \
        return after_exec(traced, __real_##NAME ARGUMENTS); \
    }
EXEC(execv, (const char *path, char *const words[]), (path, words))
EXEC(execve, (const char *path, char *const words[], char *const settings[]), (path, words, settings))
EXEC(execvp, (const char *name, char *const words[]), (name, words))
EXEC(execvpe, (const char *name, char *const words[], char *const settings[]), (name, words, settings))
EXEC(fexecve, (int file, char *const words[], char *const settings[]), (file, words, settings))
EXEC(execveat, (int folder, const char *path, char *const words[], char *const settings[], int flags),
     (folder, path, words, settings, flags))

/* Those that take the words one by one, up to a null pointer. */
static size_t count_words(va_list rest) {
    size_t count = 0;
    while (va_arg(rest, char *))
        count++;
    return count;
}

#define EXEC_LIST(NAME, VECTOR, MORE) \
    int __wrap_##NAME(const char *program, const char *first, ...) { \
        va_list rest; \
        va_start(rest, first); \
        char *words[count_words(rest) + 2], **last = words; \
        va_end(rest); \
        va_start(rest, first); \
        for (*last = (char *)first; *last; *++last = va_arg(rest, char *)) \
            continue; \
        int answer = __wrap_##VECTOR(program, words MORE); \
        va_end(rest); \
        return answer; \
    }
#define NO_ENVIRONMENT
#define WITH_ENVIRONMENT , va_arg(rest, char *const *)
EXEC_LIST(execl, execv, NO_ENVIRONMENT)
EXEC_LIST(execlp, execvp, NO_ENVIRONMENT)
EXEC_LIST(execle, execve, WITH_ENVIRONMENT)

/* Its first process ends in the library. */
int __real_daemon(int stays, int keeps);
int __wrap_daemon(int stays, int keeps) {
    if (ends_is_traced()) {
        refuse_amid_record();
        tell_record("end daemon", "the program becomes a daemon, and the %s has what came before",
                    doing_outcome_name());
        ends_racy();
    }
    return __real_daemon(stays, keeps);
}

/* ---- Forks ---- */

/* In the way of spbags-run there is no answer where the program forks. */
void ends_refuse_fork(void) {
    if (doing.tracing)
        tell_fault("the program forks, and only one process can be traced");
}

static void tell_fork(void) {
    static bool told;
    if (!doing.tracing || !doing_detects() || told)
        return;
    tell("the program forks, and the report is of its first process only");
    told = true;
}

/* This fork calls no handlers. */
pid_t __real__Fork(void);
pid_t __wrap__Fork(void) {
    if (tell_by_records())
        ends_refuse_fork();
    tell_fork();
    pid_t child = __real__Fork();
    if (child == 0)
        ends_stop();
    return child;
}

/* ---- The end by itself ---- */

/* The program's thread may end before the process, by pthread_exit. Without the threads of the detector and of a team's
   members the process would end with it. So it ends behind the program's own destructors. */
static pthread_key_t thread_end;

static void end_with_thread(void *key) {
    static int rounds;
    if (ends_is_traced() && ++rounds < PTHREAD_DESTRUCTOR_ITERATIONS)
        pthread_setspecific(thread_end, key);
    else if (ends_is_traced())
        exit(0);
}

static void watch_thread_end(void) {
    pthread_key_create(&thread_end, end_with_thread);
    pthread_setspecific(thread_end, &thread_end);
}

void ends_begin(void) {
    traced_process = getpid();
    watch_thread_end();
    pthread_atfork(tell_fork, NULL, ends_stop);
    at_quick_exit(quick_end);
    on_exit(keep_status, NULL);
}

/* After the program's own handlers. */
__attribute__((destructor(101))) static void finish(void) {
    int status = end_trace_of_own();
    if (status != own_status) {
        fflush(NULL);
        __real__exit(status);
    }
}
