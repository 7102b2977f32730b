/* What the compiler puts beside the program's own code each member does, as the sums of reductions. Those of the last
   member alone are recorded. */
#ifndef SPBAGS_OPENMP_SILENCE_H
#define SPBAGS_OPENMP_SILENCE_H

#include "base/common.h"

struct frame;

/* FRAME is that of the function with such code, or NULL where the program's own begins. */
void silence_from(struct frame *frame);
/* Outside of a region's body its function is silent. */
void silence_follow_body(void);
/* What combines a reduction's copies begins, by 1, or ends, by -1. Where it is silent not even functions are
   recorded. */
void silence_combining(int change);

#endif
