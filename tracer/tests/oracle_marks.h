/* A spawn, a sync, a scope and a loop: as Cilk, or in a plain program as stores that tests/oracle.py finds among its
   accesses. Each mark has an address of its own. */
#ifdef PLAIN
#ifdef __cplusplus
extern "C" {
#endif
extern volatile char mark_before_spawn, mark_after_spawn, mark_sync, mark_begin, mark_end, mark_child, mark_enter,
    mark_exit, mark_finished;
#ifdef __cplusplus
}
#endif
#define SPAWN(RESULT, CALL) \
    do { \
        mark_before_spawn = 1; \
        RESULT CALL; \
        mark_after_spawn = 1; \
    } while (0)
#define SYNC mark_sync = 1
#define SCOPE { mark_begin = 1; {
#define SCOPE_END } mark_end = 1; }
#define LOOP(HEADER) mark_begin = 1; for HEADER { mark_child = 1; {
#define LOOP_END } mark_end = 1; } mark_end = 1;
#define FINISHED mark_finished = 1
#else
#include <cilk/cilk.h>
#define SPAWN(RESULT, CALL) \
    do { \
        RESULT cilk_spawn CALL; \
    } while (0)
#define SYNC cilk_sync
#define SCOPE cilk_scope {
#define SCOPE_END }
#define LOOP(HEADER) cilk_for HEADER {
#define LOOP_END }
#define FINISHED
#endif
/* A block of the heap, whose place the program prints where all is done. */
#define PRINT_BLOCK(NAME, AT, SIZE) printf("block " NAME " %lu %lu\n", (unsigned long)(AT), (unsigned long)(SIZE))
