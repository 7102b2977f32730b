/* One child writes the number before it takes the lock, and the other reads it after that: in most runs the lock
   happens to put the one before the other. */
#include "measured.h"

static int number, turns;
static pthread_mutex_t lock = PTHREAD_MUTEX_INITIALIZER;

static void take_turn(void) {
    pthread_mutex_lock(&lock);
    turns++;
    pthread_mutex_unlock(&lock);
}

static void *set(void *with) {
    number = 1;
    take_turn();
    return with;
}

static void *use(void *with) {
    take_turn();
    *(int *)with = number;
    return with;
}

int main(void) {
    CHILD(first);
    CHILD(second);
    int used;
    SPAWN(first, set, NULL);
    SPAWN(second, use, &used);
    SYNC(first);
    SYNC(second);
    printf("%d\n", used);
}
