/* The product of two matrices by Strassen's seven products of quarters. RACY: no sync before these are added up. */
#include <cilk/cilk.h>
#include <stdio.h>

enum { SIZE = 8, HALF = SIZE / 2, PRODUCTS = 7 };

static float a[SIZE * SIZE], b[SIZE * SIZE], c[SIZE * SIZE];

/* For each product the quarters of both matrices that it is of, and their signs. */
static const int left_signs[PRODUCTS][4] = {{1, 0, 0, 1}, {0, 0, 1, 1}, {1, 0, 0, 0}, {0, 0, 0, 1},
                                            {1, 1, 0, 0}, {-1, 0, 1, 0}, {0, 1, 0, -1}};
static const int right_signs[PRODUCTS][4] = {{1, 0, 0, 1}, {1, 0, 0, 0}, {0, 1, 0, -1}, {-1, 0, 1, 0},
                                             {0, 0, 0, 1}, {1, 1, 0, 0}, {0, 0, 1, 1}};

static void add_quarters(float *sum, const float *matrix, const int *signs) {
    for (int i = 0; i < HALF * HALF; i++) {
        const float *at = matrix + i / HALF * SIZE + i % HALF;
        sum[i] = (float)signs[0] * at[0] + (float)signs[1] * at[HALF] + (float)signs[2] * at[HALF * SIZE] +
                 (float)signs[3] * at[HALF * SIZE + HALF];
    }
}

static void multiply(float *product, int number) {
    float left[HALF * HALF], right[HALF * HALF];
    add_quarters(left, a, left_signs[number]);
    add_quarters(right, b, right_signs[number]);
    for (int i = 0; i < HALF; i++)
        for (int j = 0; j < HALF; j++) {
            float sum = 0;
            for (int k = 0; k < HALF; k++)
                sum += left[i * HALF + k] * right[k * HALF + j];
            product[i * HALF + j] = sum; /* [product] */
        }
}

static void strassen(void) {
    float m[PRODUCTS][HALF * HALF];
    for (int number = 0; number < PRODUCTS; number++)
        cilk_spawn multiply(m[number], number);
#ifndef RACY
    cilk_sync;
#endif
    for (int i = 0; i < HALF * HALF; i++) {
        float *to = c + i / HALF * SIZE + i % HALF, p[PRODUCTS];
        for (int number = 0; number < PRODUCTS; number++)
            p[number] = m[number][i]; /* [combine] */
        to[0] = p[0] + p[3] - p[4] + p[6];
        to[HALF] = p[2] + p[4];
        to[HALF * SIZE] = p[1] + p[3];
        to[HALF * SIZE + HALF] = p[0] - p[1] + p[2] + p[5];
    }
    cilk_sync;
}

int main(void) {
    for (int i = 0; i < SIZE * SIZE; i++) {
        a[i] = (float)(i % 5);
        b[i] = (float)(i % 3);
    }
    strassen();
    float trace = 0;
    for (int i = 0; i < SIZE; i++)
        trace += c[i * SIZE + i];
    printf("%g\n", trace);
}
