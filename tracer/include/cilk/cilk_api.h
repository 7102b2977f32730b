/* What a serial run on one worker answers. */
#ifndef CILK_CILK_API_H
#define CILK_CILK_API_H

static inline int __cilkrts_get_nworkers(void) { return 1; }
static inline int __cilkrts_get_total_workers(void) { return 1; }
static inline int __cilkrts_get_worker_number(void) { return 0; }
static inline int __cilkrts_set_param(const char *name, const char *value) { return (void)name, (void)value, 0; }
static inline int __cilkrts_is_initialized(void) { return 1; }
static inline int __cilkrts_running_on_workers(void) { return 1; }
static inline void __cilkrts_init(void) {}
static inline void __cilkrts_end_cilk(void) {}

#endif
