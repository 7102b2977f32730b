/* Numbers of 2 bytes that repeat themselves take less room: how many are new, these, and then how far back others stand
   already and how many those are; again and again. */
#ifndef SPBAGS_RECORDS_PACKING_H
#define SPBAGS_RECORDS_PACKING_H

#include "base/common.h"

enum { PACKING_MOST = UINT16_MAX };

/* Packs so many, at most PACKING_MOST. How many numbers that takes: one more at most. */
size_t packing_pack(const uint16_t *numbers, size_t count, uint16_t *packed);

#endif
