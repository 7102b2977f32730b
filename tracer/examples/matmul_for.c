/* The product of two matrices by loops. RACY: the inner loop is parallel too, whose iterations add to one number. */
#include <cilk/cilk.h>
#include <stdio.h>

enum { SIZE = 6 };

static float a[SIZE][SIZE], b[SIZE][SIZE], c[SIZE][SIZE];

#ifdef RACY
#define INNER_FOR cilk_for
#else
#define INNER_FOR for
#endif

static void multiply(void) {
    cilk_for (int i = 0; i < SIZE; i++) {
        cilk_for (int j = 0; j < SIZE; j++) {
            INNER_FOR (int k = 0; k < SIZE; k++)
                c[i][j] += a[i][k] * b[k][j]; /* [add] */
        }
    }
}

int main(void) {
    for (int i = 0; i < SIZE; i++)
        for (int j = 0; j < SIZE; j++)
            a[i][j] = b[j][i] = (float)((i * 5 + j) % 4);
    multiply();
    float trace = 0;
    for (int i = 0; i < SIZE; i++)
        trace += c[i][i];
    printf("%g\n", trace);
}
