/* The product of two matrices by quarters: each quarter of it is the sum of two products. RACY: the sync between the
   two halves of the sum is lost, so both add to the same numbers at once. */
#include <cilk/cilk.h>
#include <stdio.h>

#ifndef SIZE
#define SIZE 8
#define FEW 2
#endif

static float a[SIZE * SIZE], b[SIZE * SIZE], c[SIZE * SIZE];

static void add_product(float *to, const float *left, const float *right, int size) {
    if (size <= FEW) {
        for (int i = 0; i < size; i++)
            for (int j = 0; j < size; j++)
                for (int k = 0; k < size; k++)
                    to[i * SIZE + j] += left[i * SIZE + k] * right[k * SIZE + j]; /* [add] */
        return;
    }
    int half = size / 2, down = half * SIZE;
    cilk_spawn add_product(to, left, right, half);
    cilk_spawn add_product(to + half, left, right + half, half);
    cilk_spawn add_product(to + down, left + down, right, half);
    cilk_spawn add_product(to + down + half, left + down, right + half, half);
#ifndef RACY
    cilk_sync;
#endif
    cilk_spawn add_product(to, left + half, right + down, half);
    cilk_spawn add_product(to + half, left + half, right + down + half, half);
    cilk_spawn add_product(to + down, left + down + half, right + down, half);
    cilk_spawn add_product(to + down + half, left + down + half, right + down + half, half);
}

int main(void) {
    for (int i = 0; i < SIZE * SIZE; i++) {
        a[i] = (float)(i % 5);
        b[i] = (float)(i % 3);
    }
    add_product(c, a, b, SIZE);
    float trace = 0;
    for (int i = 0; i < SIZE; i++)
        trace += c[i * SIZE + i];
    printf("%g\n", trace);
}
