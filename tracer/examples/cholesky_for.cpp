// Divides a symmetric matrix into L D L', in place below the diagonal: step k takes multiples of column k from all
// columns behind it, the rows at once. RACY: a row scales its own number of the column, which other rows read.
#include <cilk/cilk.h>
#include <cstdio>
#include <vector>

enum { SIZE = 6 };

struct Matrix {
    std::vector<float> numbers = std::vector<float>(SIZE * SIZE);
    float &operator()(int i, int j) { return numbers[i * SIZE + j]; }

    void scale(int i, int k) { (*this)(i, k) /= (*this)(k, k); } /* [scale] */

    void step(int k) {
#ifndef RACY
        for (int i = k + 1; i < SIZE; i++)
            scale(i, k);
#endif
        cilk_for (int i = k + 1; i < SIZE; i++) {
#ifdef RACY
            scale(i, k);
#endif
            for (int j = k + 1; j <= i; j++)
                (*this)(i, j) -= (*this)(i, k) * (*this)(j, k) * (*this)(k, k); /* [update] */
        }
    }
};

int main() {
    Matrix matrix;
    for (int i = 0; i < SIZE; i++)
        for (int j = 0; j <= i; j++)
            matrix(i, j) = static_cast<float>(i == j ? 20 : (i * 3 + j * 5) % 7);
    for (int k = 0; k < SIZE; k++)
        matrix.step(k);
    std::printf("%g\n", matrix(SIZE - 1, SIZE - 1));
}
