/* The heap of the detector inside. */
#ifndef SPBAGS_RUN_DETECTOR_HEAP_H
#define SPBAGS_RUN_DETECTOR_HEAP_H

#include "base/common.h"

void detector_heap_begin(void);

#endif
