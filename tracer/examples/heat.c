/* Heat spreads over a plate: in each step a place gets the mean of its four neighbours, by bands of rows at once. RACY:
   the step writes into the grid that it reads, so a band may read the old or the new numbers of the bands beside it. */
#include <cilk/cilk.h>
#include <stdio.h>

#ifndef ROWS
#define ROWS 10
#define COLUMNS 8
#define BAND 2
#define STEPS 3
#endif

static float grids[2][ROWS][COLUMNS];

static void spread(float (*to)[COLUMNS], float (*from)[COLUMNS], int first, int end) {
    if (end - first > BAND) {
        int middle = (first + end) / 2;
        cilk_spawn spread(to, from, first, middle);
        spread(to, from, middle, end);
        return;
    }
    for (int i = first; i < end; i++)
        for (int j = 1; j < COLUMNS - 1; j++)
            to[i][j] = (from[i - 1][j] + from[i + 1][j] + from[i][j - 1] + from[i][j + 1]) / 4; /* [mean] */
}

int main(void) {
    for (int i = 0; i < ROWS; i++)
        grids[0][i][0] = grids[1][i][0] = 100;
    int old = 0;
    for (int step = 0; step < STEPS; step++) {
#ifdef RACY
        int new = old;
#else
        int new = 1 - old;
#endif
        spread(grids[new], grids[old], 1, ROWS - 1);
        old = new;
    }
    printf("%g\n", grids[old][ROWS / 2][1]);
}
