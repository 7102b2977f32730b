#include "openmp/bodies.h"

#include "base/memory.h"
#include "openmp/scopes.h"

struct bodies bodies;

struct body *bodies_reserve(void) {
    return memory_reserve(SCOPE_MOST * sizeof(struct body));
}

void bodies_start(void) { bodies.first = bodies.newest = bodies_reserve(); }
