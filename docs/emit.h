/* Writes a trace of version 2, as TRACE.md describes it. The program runs on one thread, by the serial schedule. */
#include <stdint.h>
#include <stdio.h>
#include <stdlib.h>

/* The bytes of one location: 1, 2, 4 or 8, as the program accesses memory. A wider access needs a call for each. */
#ifndef TRACE_UNIT
#define TRACE_UNIT 1
#endif

static FILE *trace_file;

static inline void trace_check(int result) {
    if (result < 0) {
        perror("trace");
        exit(2);
    }
}

/* Before the root procedure runs. */
static inline void trace_open(const char *name) {
    trace_file = fopen(name, "wb");
    trace_check(trace_file ? 0 : -1);
    trace_check(fputs("trace 2\n", trace_file));
}

static inline void trace_spawn(void) { trace_check(fputs("spawn\n", trace_file)); }
/* Before an ordinary call of a function that may spawn, which calls trace_return at its end, as a child does. */
static inline void trace_call(void) { trace_check(fputs("call\n", trace_file)); }
static inline void trace_sync(void) { trace_check(fputs("sync\n", trace_file)); }
static inline void trace_return(void) { trace_check(fputs("return\n", trace_file)); }
static inline void trace_access(const char *kind, const volatile void *at) {
    trace_check(fprintf(trace_file, "%s %llu\n", kind, (unsigned long long)(uintptr_t)at / TRACE_UNIT));
}
static inline void trace_read(const volatile void *at) { trace_access("read", at); }
static inline void trace_write(const volatile void *at) { trace_access("write", at); }

/* After the root procedure has called trace_return. */
static inline void trace_close(void) { trace_check(fclose(trace_file) ? -1 : 0); }
