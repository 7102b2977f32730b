/* Memory of the hooks' own. */
#ifndef SPBAGS_BASE_MEMORY_H
#define SPBAGS_BASE_MEMORY_H

#include "base/common.h"
#include "base/settings.h"

/* At addresses of our own where the system has them free: what the program maps lies where it lies in other runs. */
void *memory_reserve(size_t size);
/* The same, or NULL. */
void *memory_reserve_or_none(size_t size);
/* The numbers of a file that spbags-run hands to a run by this setting. They aren't mapped, since then what the program
   maps would lie elsewhere. */
const uint64_t *memory_read_numbers(enum setting setting, int file, size_t *count);

#endif
