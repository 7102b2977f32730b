/* The Fourier transform of a signal: those of its even and its odd places, combined. RACY: no sync before that. */
#include <cilk/cilk.h>
#include <stdio.h>

enum { SIZE = 8 };

/* A root of unity's powers, so that no library computes them. */
static const float cosines[SIZE / 2] = {1, 0.70710678f, 0, -0.70710678f};
static const float sines[SIZE / 2] = {0, -0.70710678f, -1, -0.70710678f};
static float signal[SIZE], re[SIZE], im[SIZE];

static void transform(int to, int from, int count, int stride) {
    if (count == 1) {
        re[to] = signal[from], im[to] = 0; /* [leaf] */
        return;
    }
    int half = count / 2;
    cilk_spawn transform(to, from, half, 2 * stride);
    transform(to + half, from + stride, half, 2 * stride);
#ifndef RACY
    cilk_sync;
#endif
    for (int k = to; k < to + half; k++) {
        float cosine = cosines[(k - to) * stride], sine = sines[(k - to) * stride];
        float more_re = cosine * re[k + half] - sine * im[k + half];
        float more_im = cosine * im[k + half] + sine * re[k + half];
        re[k + half] = re[k] - more_re, im[k + half] = im[k] - more_im; /* [combine] */
        re[k] += more_re, im[k] += more_im;
    }
}

int main(void) {
    for (int i = 0; i < SIZE; i++)
        signal[i] = (float)(i * i % 7);
    transform(0, 0, SIZE, 1);
    float power = 0;
    for (int i = 0; i < SIZE; i++)
        power += re[i] * re[i] + im[i] * im[i];
    printf("%.1f\n", power);
}
