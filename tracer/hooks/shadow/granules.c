#include "shadow/granules.h"

#include "base/memory.h"
#include "base/tell.h"

unsigned granules_shift;
uintptr_t granules_mask;
struct granules_range granules_partial;

struct lifetimes granules_lifetimes;

bool granules_begin_lifetimes(void) {
    if (!granules_lifetimes.of)
        granules_lifetimes.of = memory_reserve_or_none(GRANULE_SPANS * sizeof *granules_lifetimes.of);
    return granules_lifetimes.of != NULL;
}

void granules_need_lifetimes(void) {
    if (!granules_begin_lifetimes())
        tell_fault("out of memory: %s", strerror(errno));
}
