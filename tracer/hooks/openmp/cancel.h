/* Cancellation: all is done as where nothing is cancelled. */
#ifndef SPBAGS_OPENMP_CANCEL_H
#define SPBAGS_OPENMP_CANCEL_H

#include "base/common.h"

/* Whether OMP_CANCELLATION allows it. */
extern bool cancel_is_allowed;

/* The program cancels a region here. */
void cancel_note(uintptr_t code);

#endif
