/* A wait that needs much of the stack: compiled by the plain compiler into a library that is loaded before the C
   library. */
#define _GNU_SOURCE
#include <dlfcn.h>
#include <semaphore.h>

enum { MUCH = 1 << 16 };

static int (*usual_wait)(sem_t *);

__attribute__((constructor)) static void find_usual_wait(void) {
    usual_wait = (int (*)(sem_t *))dlsym(RTLD_NEXT, "sem_wait");
}

int sem_wait(sem_t *semaphore) {
    volatile char much[MUCH];
    much[0] = 0;
    return usual_wait(semaphore) + much[0];
}
