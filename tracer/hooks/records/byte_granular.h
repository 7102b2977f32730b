/* Where races may be of neighbours, another run tells the bytes apart: SPBAGS_DIVIDE names a file with the locations of
   those granules, 8 bytes each. Each byte of such a granule has a location of its own, above all others, and a mark.
   The granule itself is never marked as a repeat, but still takes its number on the stack, so that all others have the
   numbers that they had. */
#ifndef SPBAGS_RECORDS_BYTE_GRANULAR_H
#define SPBAGS_RECORDS_BYTE_GRANULAR_H

#include "shadow/blocks.h"

/* Whether there are such granules. */
extern bool byte_granular_any;

void byte_granular_begin(int file);
/* Whether the granule with this location is one of them. */
bool byte_granular_has(uint64_t location);
/* What puts the record of a byte. */
typedef void byte_granular_put(bool writes, uint64_t location, uintptr_t address, uintptr_t code);
/* Whether the granule with this location is byte-granular, and then the record of each of its bytes is put. */
bool byte_granular_access(bool writes, const struct block_touched *in, uint64_t location, uintptr_t address,
                          uintptr_t code, byte_granular_put *put);
/* Memory of the stack that has no variable any more, and whose granule has: those bytes get other locations. */
__attribute__((cold)) void byte_granular_clear(uintptr_t address, uintptr_t end);
/* Numbers of strands begin again. */
void byte_granular_forget(void);

#endif
