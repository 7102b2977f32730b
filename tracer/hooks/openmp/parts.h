/* Parts of functions in the frames: what follows stands in a part of its own on the stack, above the function that
   calls the hooks here. */
#ifndef SPBAGS_OPENMP_PARTS_H
#define SPBAGS_OPENMP_PARTS_H

#include "shadow/frames.h"

void parts_open(enum frame_kind kind, uintptr_t stack_pointer, uintptr_t code);
void parts_close(uintptr_t code);
/* The caller itself goes on in the part that has begun. */
void parts_stay_in_function(void);
/* What the program has on the stack below this address is dead. */
void parts_forget_below(uintptr_t address);

#endif
