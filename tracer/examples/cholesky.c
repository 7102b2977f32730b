/* Divides a symmetric matrix into L D L', in place below the diagonal: step k takes multiples of column k from all
   columns behind it, the rows at once. RACY: the sync between two steps is lost. */
#include <cilk/cilk.h>
#include <stdio.h>

enum { SIZE = 6 };

static float matrix[SIZE][SIZE];

static void update(int i, int k) {
    for (int j = k + 1; j <= i; j++)
        matrix[i][j] -= matrix[i][k] * matrix[j][k] * matrix[k][k]; /* [update] */
}

static void divide(void) {
    for (int k = 0; k < SIZE; k++) {
        for (int i = k + 1; i < SIZE; i++)
            matrix[i][k] /= matrix[k][k]; /* [scale] */
        for (int i = k + 1; i < SIZE; i++)
            cilk_spawn update(i, k);
#ifndef RACY
        cilk_sync;
#endif
    }
}

int main(void) {
    for (int i = 0; i < SIZE; i++)
        for (int j = 0; j <= i; j++)
            matrix[i][j] = (float)(i == j ? 20 : (i * 3 + j * 5) % 7);
    divide();
    printf("%g\n", matrix[SIZE - 1][SIZE - 1]);
}
