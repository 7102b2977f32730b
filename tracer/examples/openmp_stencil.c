/* Heat spreads over a plate: in each step a place gets the mean of its four neighbours, by rows at once; and then the
   greatest change of the last step is found. RACY: the step writes into the grid that it reads. */
#include <stdio.h>

enum { ROWS = 10, COLUMNS = 8, STEPS = 3 };

static float grids[2][ROWS][COLUMNS];

int main(void) {
    float greatest = 0;
    int old = 0;
    for (int i = 0; i < ROWS; i++)
        grids[0][i][0] = grids[1][i][0] = 100;
    for (int step = 0; step < STEPS; step++) {
#ifdef RACY
        int new = old;
#else
        int new = 1 - old;
#endif
#pragma omp parallel for schedule(static)
        for (int i = 1; i < ROWS - 1; i++)
            for (int j = 1; j < COLUMNS - 1; j++)
                grids[new][i][j] = (grids[old][i - 1][j] + grids[old][i + 1][j] + /* [above] */
                                    grids[old][i][j - 1] + grids[old][i][j + 1]) / 4;
        old = new;
    }
#pragma omp parallel for reduction(max : greatest) collapse(2)
    for (int i = 1; i < ROWS - 1; i++)
        for (int j = 1; j < COLUMNS - 1; j++)
            if (grids[old][i][j] - grids[1 - old][i][j] > greatest)
                greatest = grids[old][i][j] - grids[1 - old][i][j];
    printf("%g %g\n", grids[old][ROWS / 2][1], greatest);
}
