/* So many parallel regions, or so many barriers of one: the words say which, and how many. */
#include <stdlib.h>

static volatile int done;

static void region(void) {
#pragma omp parallel
    (void)done;
}

static void barriers(int count) {
#pragma omp parallel
    for (int at = 0; at < count; at++) {
#pragma omp barrier
    }
}

int main(int words, char **word) {
    int count = words > 2 ? atoi(word[2]) : 0;
    if (words > 1 && *word[1] == 'b')
        barriers(count);
    else
        for (int at = 0; at < count; at++)
            region();
    return 0;
}
