// The product of two matrices by Strassen's seven products of quarters: each is an iteration, and then each place of a
// quarter is one. A reducer adds up the diagonal. RACY: the iterations of the products add to the result.
#include <cilk/cilk.h>
#include <cstdio>

enum { SIZE = 4, HALF = SIZE / 2, PRODUCTS = 7 };

template <int size> struct Matrix {
    float rows[size][size] = {};
    float &at(int i, int j) { return rows[i][j]; }
};
using Whole = Matrix<SIZE>;
using Quarter = Matrix<HALF>;

// For each product the signs of the quarters of both matrices that it is of, and of the quarters that it is added to.
struct Signs {
    int left[4], right[4], result[4];
};
static const Signs signs[PRODUCTS] = {
    {{1, 0, 0, 1}, {1, 0, 0, 1}, {1, 0, 0, 1}},   {{0, 0, 1, 1}, {1, 0, 0, 0}, {0, 0, 1, -1}},
    {{1, 0, 0, 0}, {0, 1, 0, -1}, {0, 1, 0, 1}},  {{0, 0, 0, 1}, {-1, 0, 1, 0}, {1, 0, 1, 0}},
    {{1, 1, 0, 0}, {0, 0, 0, 1}, {-1, 1, 0, 0}},  {{-1, 0, 1, 0}, {1, 1, 0, 0}, {0, 0, 0, 1}},
    {{0, 1, 0, -1}, {0, 0, 1, 1}, {1, 0, 0, 0}}};

static float sum_of(Whole &matrix, const int *signs, int i, int j) {
    float sum = 0;
    for (int quarter = 0; quarter < 4; quarter++)
        sum += static_cast<float>(signs[quarter]) * matrix.at(quarter / 2 * HALF + i, quarter % 2 * HALF + j);
    return sum;
}

static void multiply(Quarter &product, Whole &left, Whole &right, const Signs &of) {
    for (int i = 0; i < HALF; i++)
        for (int j = 0; j < HALF; j++)
            for (int k = 0; k < HALF; k++)
                product.at(i, j) += sum_of(left, of.left, i, k) * sum_of(right, of.right, k, j);
}

// Adds a number of a product to the quarters of the result.
static void add(Whole &result, Quarter &product, const Signs &to, int i, int j) {
    for (int quarter = 0; quarter < 4; quarter++)
        if (to.result[quarter] != 0)
            result.at(quarter / 2 * HALF + i, quarter % 2 * HALF + j) += /* [add] */
                static_cast<float>(to.result[quarter]) * product.at(i, j);
}

static void strassen(Whole &result, Whole &left, Whole &right) {
    Quarter products[PRODUCTS];
    cilk_for (int number = 0; number < PRODUCTS; number++) {
        multiply(products[number], left, right, signs[number]);
#ifdef RACY
        for (int at = 0; at < HALF * HALF; at++)
            add(result, products[number], signs[number], at / HALF, at % HALF);
#endif
    }
#ifndef RACY
    cilk_for (int at = 0; at < HALF * HALF; at++)
        for (int number = 0; number < PRODUCTS; number++)
            add(result, products[number], signs[number], at / HALF, at % HALF);
#endif
}

static void zero(void *view) { *static_cast<float *>(view) = 0; }
static void plus(void *left, void *right) { *static_cast<float *>(left) += *static_cast<float *>(right); }

int main() {
    Whole left, right, result;
    float cilk_reducer(zero, plus) trace = 0;
    for (int i = 0; i < SIZE; i++)
        for (int j = 0; j < SIZE; j++) {
            left.at(i, j) = static_cast<float>((i * SIZE + j) % 5);
            right.at(i, j) = static_cast<float>((i * SIZE + j) % 3);
        }
    strassen(result, left, right);
    cilk_for (int i = 0; i < SIZE; i++)
        trace += result.at(i, i);
    std::printf("%g\n", trace);
}
