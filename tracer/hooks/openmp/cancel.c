#include "openmp/cancel.h"

#include "base/caller.h"
#include "openmp/notes.h"

bool cancel_is_allowed;

void cancel_note(uintptr_t code) {
    if (cancel_is_allowed)
        notes_keep(&notes.cancelled, code);
}

#pragma GCC visibility push(hidden)

int omp_get_cancellation(void) { return cancel_is_allowed; }

bool GOMP_cancel(int what, bool cancels) {
    (void)what;
    if (cancels)
        cancel_note(CODE);
    return false;
}

bool GOMP_cancellation_point(int what) {
    (void)what;
    return false;
}

#pragma GCC visibility pop
