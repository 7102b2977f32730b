/* A race at the end of any program that is linked with this. */
#include <cilk/cilk.h>

static int cell;

static void set(void) { cell = 1; }

__attribute__((destructor)) static void race(void) {
    cilk_spawn set();
    set();
}
