/* The program heat of the examples with a loop: each row of a step is an iteration. */
#include <cilk/cilk.h>
#include <stdio.h>

static float grids[2][ROWS][COLUMNS];

int main(void) {
    for (int i = 0; i < ROWS; i++)
        grids[0][i][0] = grids[1][i][0] = 100;
    for (int step = 0; step < STEPS; step++) {
        float(*from)[COLUMNS] = grids[step % 2], (*to)[COLUMNS] = grids[1 - step % 2];
        cilk_for (int i = 1; i < ROWS - 1; i++)
            for (int j = 1; j < COLUMNS - 1; j++)
                to[i][j] = (from[i - 1][j] + from[i + 1][j] + from[i][j - 1] + from[i][j + 1]) / 4;
    }
    printf("%g\n", grids[STEPS % 2][ROWS / 2][1]);
}
