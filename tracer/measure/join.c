/* The parent reads what its child writes, and waits too late. */
#include "measured.h"

static int answer;

static void *find(void *with) {
    answer = 42;
    return with;
}

int main(void) {
    CHILD(finder);
    SPAWN(finder, find, NULL);
    int found = answer;
    SYNC(finder);
    printf("%d\n", found);
}
