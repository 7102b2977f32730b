#include "run/signals.h"

#include "base/caller.h"
#include "base/changes.h"
#include "base/doing.h"
#include "run/ends.h"
#include "shadow/stacks.h"
#include "base/tell.h"
#include "program/accesses.h"
#include "program/watch.h"

enum { LAST_SIGNAL = 64 };

/* What the program itself causes, and can't go on. */
static bool is_fault(int number, const siginfo_t *about) {
    bool may_be = number == SIGSEGV || number == SIGBUS || number == SIGFPE || number == SIGILL || number == SIGTRAP ||
                  number == SIGSYS;
    return may_be && about->si_code > 0;
}

/* That of abort, which goes on to its end whatever a handler does. */
static bool is_abort(int number, const siginfo_t *about) { return number == SIGABRT && about->si_code == SI_TKILL; }

sighandler_t __real_signal(int number, sighandler_t wanted);
int __real_sigaction(int number, const struct sigaction *wanted, struct sigaction *before);

static void die_by(int number) {
    sigset_t one;
    sigemptyset(&one);
    sigaddset(&one, number);
    __real_signal(number, SIG_DFL);
    raise(number);
    sigprocmask(SIG_UNBLOCK, &one, NULL);
}

/* strsignal may take memory. */
static const char *name_of(int number) {
    const char *name = sigdescr_np(number);
    return name ? name : "a real-time signal";
}

void signals_end_run(int number) {
    changes_waiting_signal = 0;
    tell_record(tell_numbered("end signal", (uint64_t)number).text,
                "the program ends by signal %d (%s), and the %s has what came before", number, name_of(number),
                doing_outcome_name());
    ends_racy();
    die_by(number);
}

/* The handler returns, and the run goes on at its end, there and with all signals blocked: no handler calls the
   detector. */
static void end_after_handler(int number, ucontext_t *context) {
    enum { DIRECTION = 1 << 10 };
    greg_t *registers = context->uc_mcontext.gregs;
    registers[REG_RIP] = (greg_t)signals_end_run;
    registers[REG_RDI] = number;
    registers[REG_RSP] = (greg_t)(stacks_for_signals + sizeof stacks_for_signals - 8);
    registers[REG_EFL] &= ~DIRECTION;
    sigfillset(&context->uc_sigmask);
}

/* The detector was at work, and can't go on. */
static void die_inside(int number) {
    tell("the program ends by signal %d (%s) inside the detector, so there is no report", number, name_of(number));
    die_by(number);
}

/* The record in whose midst this is can't go on. It says how far it has come where the hooks have no stack for the
   rest; for anything else a handler of the program's own is the cause. */
static void end_now(int number, const siginfo_t *about, ucontext_t *context) {
    bool needs_stack = number == SIGSEGV && is_fault(number, about) && stacks_are_near(about->si_addr);
    bool is_of_handler = !needs_stack || caller_is_program((uintptr_t)context->uc_mcontext.gregs[REG_RIP]);
    if (needs_stack)
        tell("the program needs more stack than its limit, which ulimit -s sets");
    if (changes_stepping && doing_detects())
        die_inside(number);
    else if (changes_are_amid_record() && is_of_handler)
        changes_refuse_handler();
    else
        end_after_handler(number, context);
}

/* Where the trace can't be closed at once, since its reader doesn't read, signals that come again are of use. */
static void on_signal(int number, siginfo_t *about, void *context) {
    enum { ENOUGH = 4 };
    static int came;
    if (watch_is_signal(number, about)) {
        watch_look();
        return;
    }
    came++;
    if (!ends_is_traced() || came == ENOUGH)
        die_by(number);
    else if (!changes_are_amid_record() || is_fault(number, about) || is_abort(number, about))
        end_now(number, about, context);
    else
        changes_waiting_signal = number;
}

/* Signals that end no program by themselves. */
static bool is_harmless(int number) {
    static const int harmless[] = {SIGCHLD, SIGCONT, SIGSTOP, SIGTSTP, SIGTTIN, SIGTTOU, SIGURG, SIGWINCH};
    for (size_t at = 0; at < sizeof harmless / sizeof *harmless; at++)
        if (harmless[at] == number)
            return true;
    return false;
}

static int catch_signal(int number, struct sigaction *before) {
    struct sigaction caught = {.sa_sigaction = on_signal, .sa_flags = SA_SIGINFO | SA_ONSTACK | SA_RESTART};
    sigfillset(&caught.sa_mask);
    return __real_sigaction(number, &caught, before);
}

void signals_catch(void) {
    struct sigaction before;
    sigaltstack(&(stack_t){.ss_sp = stacks_for_signals, .ss_size = sizeof stacks_for_signals}, NULL);
    for (int number = 1; number <= LAST_SIGNAL; number++)
        if (!is_harmless(number) && __real_sigaction(number, NULL, &before) == 0 && before.sa_handler == SIG_DFL)
            catch_signal(number, NULL);
}

/* ---- The program's own handlers ---- */

bool signals_have_handler;

static void follow_handler(int number, sighandler_t wanted) {
    watch_leave_signal(number);
    if (wanted != SIG_DFL && wanted != SIG_IGN)
        signals_have_handler = true;
}

/* For the program the handler above is the system's own end by a signal, and where it wants that, it gets the
   handler. */
static int set_action(int number, const struct sigaction *wanted, struct sigaction *before) {
    bool ends = wanted && wanted->sa_handler == SIG_DFL && ends_is_traced() && !is_harmless(number);
    if (wanted && !ends)
        follow_handler(number, wanted->sa_handler);
    int answer = ends ? catch_signal(number, before) : __real_sigaction(number, wanted, before);
    if (answer == 0 && before && before->sa_sigaction == on_signal)
        *before = (struct sigaction){.sa_handler = SIG_DFL};
    return answer;
}

int __wrap_sigaction(int number, const struct sigaction *wanted, struct sigaction *before) {
    if (doing.tracing)
        NOTE_READ(wanted, wanted ? sizeof *wanted : 0, __wrap_sigaction);
    int answer = set_action(number, wanted, before);
    if (doing.tracing)
        NOTE_WRITE(before, answer == 0 && before ? sizeof *before : 0, __wrap_sigaction);
    return answer;
}

static sighandler_t set_handler(sighandler_t set(int, sighandler_t), int number, sighandler_t wanted) {
    struct sigaction usual = {.sa_handler = SIG_DFL}, before;
    if (wanted == SIG_DFL)
        return set_action(number, &usual, &before) == 0 ? before.sa_handler : SIG_ERR;
    follow_handler(number, wanted);
    sighandler_t replaced = set(number, wanted);
    return (void *)replaced == (void *)on_signal ? SIG_DFL : replaced;
}

sighandler_t __wrap_signal(int number, sighandler_t wanted) { return set_handler(__real_signal, number, wanted); }

/* That of a program compiled as strict ISO C. */
sighandler_t __real___sysv_signal(int number, sighandler_t wanted);
sighandler_t __wrap___sysv_signal(int number, sighandler_t wanted) {
    return set_handler(__real___sysv_signal, number, wanted);
}
