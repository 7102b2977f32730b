#include "base/changes.h"

#include "base/callbacks.h"
#include "base/tell.h"

volatile sig_atomic_t changes, changes_stepping, changes_waiting_signal;

void changes_let_signal_end(void) {
    if (!changes_are_amid_record())
        callbacks.end_by_signal(changes_waiting_signal);
}

void changes_refuse_handler(void) {
    tell_fault("a signal handler of the program interrupted the %s, so the run ends here without a %s",
               doing_only_detects() ? "detector" : "tracer", doing_outcome_name());
}
