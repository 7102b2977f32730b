/* 100,000 accesses without a race, no two alike in one strand, and more than what is written at once. */
#include <cilk/cilk.h>
#include <stdlib.h>

static volatile int cells[2][25000];

static void count(int at) {
    for (int i = 0; i < 25000; i++)
        cells[at][i]++;
}

int main(void) {
    cilk_spawn count(0);
    count(1);
}
