/* Two children count in one variable. */
#include "measured.h"

static int counter;

static void *count(void *with) {
    for (int i = 0; i < 100; i++)
        counter++;
    return with;
}

int main(void) {
    CHILD(first);
    CHILD(second);
    SPAWN(first, count, NULL);
    SPAWN(second, count, NULL);
    SYNC(first);
    SYNC(second);
    printf("%d\n", counter);
}
