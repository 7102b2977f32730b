/* Preloaded into a program, this refuses it memory or a thread, as a system does that has none left: malloc, calloc and
   realloc answer NULL with ENOMEM, and pthread_create answers EAGAIN. The growths from number REFUSED_FROM to number
   REFUSED_TO are refused, and the start of thread number REFUSED_START. Numbers count from 1 over all threads, and
   from the program's own beginning: what the loader takes before isn't counted. Descriptor 3 gets a letter for each
   of these:

       m   a growth was refused in the main thread
       w   a growth was refused in another thread
       t   a start was refused, or a growth inside of pthread_create
       a   a thread whose growth was refused asked next for no more than that, and got it
       s   a thread was started
       j   a thread was joined */
#define _GNU_SOURCE
#include <dlfcn.h>
#include <errno.h>
#include <pthread.h>
#include <stdatomic.h>
#include <stdbool.h>
#include <stdlib.h>
#include <unistd.h>

enum { TOLD = 3 };

static void *(*next_malloc)(size_t);
static void *(*next_calloc)(size_t, size_t);
static void *(*next_realloc)(void *, size_t);
static int (*next_create)(pthread_t *, const pthread_attr_t *, void *(*)(void *), void *);
static int (*next_join)(pthread_t, void **);

static long from, to, start;
static bool counting;
static atomic_long growths, starts;

static _Thread_local bool is_main, is_starting;
/* The bytes of the growth that this thread was refused last, until its next growth. */
static _Thread_local size_t refused;

static void find_next(void) {
    next_malloc = dlsym(RTLD_NEXT, "malloc");
    next_calloc = dlsym(RTLD_NEXT, "calloc");
    next_realloc = dlsym(RTLD_NEXT, "realloc");
    next_create = dlsym(RTLD_NEXT, "pthread_create");
    next_join = dlsym(RTLD_NEXT, "pthread_join");
}

static long number(const char *name) {
    const char *digits = getenv(name);
    return digits ? atol(digits) : 0;
}

/* The loader calls this last, right before the program begins. */
__attribute__((constructor)) static void begin(void) {
    find_next();
    from = number("REFUSED_FROM");
    to = number("REFUSED_TO");
    start = number("REFUSED_START");
    is_main = true;
    counting = true;
}

static void tell(char letter) {
    int before = errno;
    if (write(TOLD, &letter, 1) != 1)
        abort();
    errno = before;
}

static bool refuses(size_t size) {
    if (next_malloc == NULL)
        find_next();
    if (!counting)
        return false;
    long growth = atomic_fetch_add(&growths, 1) + 1;
    if (from <= growth && growth <= to) {
        tell(is_starting ? 't' : is_main ? 'm' : 'w');
        refused = size;
        errno = ENOMEM;
        return true;
    }
    if (refused != 0 && size <= refused)
        tell('a');
    refused = 0;
    return false;
}

void *malloc(size_t size) {
    return refuses(size) ? NULL : next_malloc(size);
}

void *calloc(size_t count, size_t size) {
    return refuses(count * size) ? NULL : next_calloc(count, size);
}

void *realloc(void *old, size_t size) {
    return refuses(size) ? NULL : next_realloc(old, size);
}

int pthread_create(pthread_t *thread, const pthread_attr_t *attributes, void *(*run)(void *), void *with) {
    if (atomic_fetch_add(&starts, 1) + 1 == start) {
        tell('t');
        return EAGAIN;
    }
    is_starting = true;
    int failure = next_create(thread, attributes, run, with);
    is_starting = false;
    if (failure == 0)
        tell('s');
    return failure;
}

int pthread_join(pthread_t thread, void **result) {
    int failure = next_join(thread, result);
    if (failure == 0)
        tell('j');
    return failure;
}
