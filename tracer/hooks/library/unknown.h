/* Functions that nothing is known of. */
#ifndef SPBAGS_LIBRARY_UNKNOWN_H
#define SPBAGS_LIBRARY_UNKNOWN_H

#include "base/common.h"

/* A function; or without a name and a library a class whose virtual functions nothing is known of. */
struct unknown {
    const char *name, *shown, *library;
    /* Each call counts, also where nothing may run beside it. */
    uint64_t always, calls;
};

/* The system calls by number of which nothing is known. */
extern struct unknown unknown_system_calls;

void unknown_tell(void);

#endif
