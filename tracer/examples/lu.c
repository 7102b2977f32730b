/* Divides a matrix into a lower and an upper triangle, in place: step k takes multiples of row k from all rows below
   it, at once. RACY: the sync between two steps is lost. */
#include <cilk/cilk.h>
#include <stdio.h>

enum { SIZE = 6 };

static float matrix[SIZE][SIZE];

static void eliminate(float *row, const float *pivot, int k) {
    row[k] /= pivot[k]; /* [scale] */
    for (int j = k + 1; j < SIZE; j++)
        row[j] -= row[k] * pivot[j]; /* [subtract] */
}

static void divide(void) {
    for (int k = 0; k < SIZE - 1; k++) {
        for (int i = k + 1; i < SIZE; i++)
            cilk_spawn eliminate(matrix[i], matrix[k], k);
#ifndef RACY
        cilk_sync;
#endif
    }
}

int main(void) {
    for (int i = 0; i < SIZE; i++)
        for (int j = 0; j < SIZE; j++)
            matrix[i][j] = (float)(i == j ? 20 : (i * 3 + j * 5) % 7);
    divide();
    printf("%g\n", matrix[SIZE - 1][SIZE - 1]);
}
