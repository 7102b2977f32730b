/* Ends in the way that its first word names. */
#include <cilk/cilk.h>
#include <pthread.h>
#include <stdio.h>
#include <stdlib.h>
#include <string.h>
#include <sys/wait.h>
#include <unistd.h>

static int cell;

static void at_exit(void) { cell++; } /* [handler] */

static void *thread(void *with) { return with; }

static void child(const char *way) {
    cell = 1; /* [child] */
    pthread_t started;
    if (strcmp(way, "exit") == 0)
        exit(3);
    if (strcmp(way, "thread") == 0)
        pthread_create(&started, NULL, thread, NULL);
    if (strcmp(way, "fork") == 0 && fork() == 0)
        exit(cell);
    wait(NULL);
}

int main(int count, char **words) {
    atexit(at_exit);
    printf("%d words\n", count);
    cilk_spawn child(count > 1 ? words[1] : "");
    cell = 2; /* [parent] */
}
