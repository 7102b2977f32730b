/* Ends in the way that its first word names, after a race. */
#include <cilk/cilk.h>
#include <linux/futex.h>
#include <pthread.h>
#include <semaphore.h>
#include <signal.h>
#include <stdint.h>
#include <stdlib.h>
#include <string.h>
#include <sys/resource.h>
#include <sys/syscall.h>
#include <time.h>
#include <unistd.h>

enum { CELLS = 1 << 13 };

static volatile int cell;
static volatile char *volatile nowhere;
static pthread_cond_t condition = PTHREAD_COND_INITIALIZER;

static void set(void) { cell = 1; } /* [first] */

static int fill(int depth) {
    volatile char much[4096];
    much[0] = (char)depth;
    return fill(depth + 1) + much[0];
}

static int nest(int depth) {
    if (depth == 0)
        return 0;
    int below = cilk_spawn nest(depth - 1);
    cilk_sync;
    return below + 1;
}

static void put(int *first, int *last, int depth) {
    *first = depth;
    *last = depth;
}

static int nest_for_ever(int depth, int *above, int *first) {
    static int of_all[1 << 20];
    int own[60] = {depth};
    *above = depth;
    cilk_spawn put(first, &of_all[depth * 64 % (1 << 20)], depth);
    cilk_sync;
    return nest_for_ever(depth + 1, own, first) + own[0];
}

/* Each call has more records than go out at once, and nothing needs more stack than they do. */
static int cells[CELLS];
static int fill_for_ever(int value) {
    for (int at = 0; at < CELLS; at++)
        cells[at] = value;
    cilk_spawn set();
    cilk_sync;
    return fill_for_ever(value + 1) + cells[0];
}

extern char **environ;
/* With little of the stack left, which begins behind the settings. */
static int fill_at_the_end(void) {
    struct rlimit limit;
    getrlimit(RLIMIT_STACK, &limit);
    char taken[limit.rlim_cur - ((uintptr_t)environ - (uintptr_t)__builtin_frame_address(0)) - (1 << 14)];
    __asm__ volatile("" : : "r"(taken) : "memory");
    return fill_for_ever(0) + (taken == nowhere);
}

/* Nearly all of the time is in the child. */
static void compute(int *to) {
    unsigned sum = 1;
    for (int step = 0; step < 1000000; step++)
        sum = sum * 1664525 + 1013904223;
    *to = (int)sum;
}

static void compute_often(int count) {
    static int sum, own;
    for (int i = 0; i < count; i++) {
        cilk_spawn compute(&sum);
        own = 2;
        cilk_sync;
    }
}

static void nest_often(int count) {
    for (int i = 0; i < count; i++)
        nest(1);
}

static void doze(void) {
    struct timespec little = {.tv_nsec = 100000};
    nanosleep(&little, NULL); /* [dozes] */
}

static void spin_in_header(void);

/* What could end these comes later in the serial order. */
static void wait_for_ever(const char *way) {
    sem_t semaphore;
    sem_init(&semaphore, 0, 0);
    if (strcmp(way, "stubborn") == 0)
        signal(SIGTERM, SIG_IGN);
    if (strcmp(way, "spin") == 0 || strcmp(way, "stubborn") == 0)
        while (cell == 2) /* [spins] */
            continue;
    while (strcmp(way, "doze") == 0)
        doze(); /* [calls doze] */
    if (strcmp(way, "header") == 0)
        spin_in_header(); /* [calls header] */
    if (strcmp(way, "wait") == 0)
        sem_wait(&semaphore); /* [waits] */
    pthread_mutex_t mutex = PTHREAD_MUTEX_INITIALIZER;
    pthread_mutex_lock(&mutex);
    if (strcmp(way, "lock") == 0)
        pthread_mutex_lock(&mutex); /* [locks] */
    if (strcmp(way, "condition") == 0)
        pthread_cond_wait(&condition, &mutex); /* [wants] */
    pthread_barrier_t barrier;
    pthread_barrier_init(&barrier, NULL, 2);
    if (strcmp(way, "barrier") == 0)
        pthread_barrier_wait(&barrier); /* [meets] */
    pthread_rwlock_t shared = PTHREAD_RWLOCK_INITIALIZER;
    pthread_rwlock_rdlock(&shared);
    pthread_rwlock_rdlock(&shared);
    if (strcmp(way, "share") == 0)
        pthread_rwlock_wrlock(&shared); /* [shares] */
    int word = 1;
    if (strcmp(way, "futex") == 0)
        syscall(SYS_futex, &word, FUTEX_WAIT_PRIVATE, 1, NULL); /* [sleeps] */
}

static void end(const char *way) {
    cell = 2; /* [second] */
    if (strcmp(way, "fault") == 0)
        *nowhere = 1;
    if (strcmp(way, "abort") == 0)
        abort();
    if (strcmp(way, "trap") == 0)
        __builtin_trap();
    if (strcmp(way, "stack") == 0)
        cell = fill(0);
    if (strcmp(way, "deep") == 0)
        cell = nest_for_ever(0, &(int){0}, &(int){0});
    if (strcmp(way, "filled") == 0)
        cell = fill_at_the_end();
    if (strcmp(way, "compute") == 0)
        compute_often(3000);
    if (strcmp(way, "terminate") == 0)
        raise(SIGTERM);
    if (strcmp(way, "usual") == 0) {
        signal(SIGTERM, SIG_DFL);
        raise(SIGTERM);
    }
    while (strcmp(way, "blocks") == 0)
        free(malloc(1));
    if (strcmp(way, "thread") == 0)
        pthread_exit(NULL);
    if (strcmp(way, "daemon") == 0)
        daemon(1, 1);
    if (strcmp(way, "_exit") == 0)
        _exit(3);
    if (strcmp(way, "_Exit") == 0)
        _Exit(3);
    if (strcmp(way, "quick_exit") == 0)
        quick_exit(3);
    if (strcmp(way, "exec") == 0)
        execl("/bin/sh", "sh", "-c", "exit 3", (char *)NULL);
    if (strcmp(way, "no_exec") == 0)
        execlp("./no/program", "program", (char *)NULL);
    if (strcmp(way, "nest") == 0)
        nest(70000);
    if (strcmp(way, "long") == 0)
        nest_often(100000);
    while (strcmp(way, "never") == 0)
        nest(1);
    wait_for_ever(way); /* [for ever] */
    if (strcmp(way, "input") == 0)
        cell = (int)read(STDIN_FILENO, &(char){0}, 1);
    if (strcmp(way, "copy") == 0 && vfork() == 0)
        _exit(0);
}

static void run(const char *way) {
    cilk_spawn set();
    cilk_spawn end(way); /* [spawn end] */
}

int main(int count, char **words) { run(count > 1 ? words[1] : ""); }

/* As if a header of the system had it. */
#line 41 "/usr/include/spins.h"
static void spin_in_header(void) {
    while (cell == 2)
        continue;
}
