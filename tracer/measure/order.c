/* Each child changes the number under a lock; what comes out depends on which comes first. */
#include "measured.h"

static int number = 1;
static pthread_mutex_t lock = PTHREAD_MUTEX_INITIALIZER;

static void *twice(void *with) {
    pthread_mutex_lock(&lock);
    number = number * 2;
    pthread_mutex_unlock(&lock);
    return with;
}

static void *one_more(void *with) {
    pthread_mutex_lock(&lock);
    number = number + 1;
    pthread_mutex_unlock(&lock);
    return with;
}

int main(void) {
    CHILD(first);
    CHILD(second);
    SPAWN(first, twice, NULL);
    SPAWN(second, one_more, NULL);
    SYNC(first);
    SYNC(second);
    printf("%d\n", number);
}
