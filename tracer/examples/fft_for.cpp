// The Fourier transform of a signal: those of its even and its odd places, whose pairs a loop combines; a reducer adds
// up the power. RACY: each place is an iteration, which stores what another one reads.
#include <cilk/cilk.h>
#include <cilk/reducer_opadd.h>
#include <cstdio>
#include <vector>

enum { SIZE = 8 };

struct Complex {
    float re, im;
};

// A root of unity's powers, so that no library computes them.
static const Complex roots[SIZE / 2] = {
    {1, 0}, {0.70710678f, -0.70710678f}, {0, -1}, {-0.70710678f, -0.70710678f}};

static Complex combined(Complex one, Complex other, Complex root) {
    return {one.re + root.re * other.re - root.im * other.im, one.im + root.re * other.im + root.im * other.re};
}

static void transform(Complex *to, const float *from, int count, int stride) {
    if (count == 1) {
        *to = {*from, 0};
        return;
    }
    int half = count / 2;
    cilk_spawn transform(to, from, half, 2 * stride);
    transform(to + half, from + stride, half, 2 * stride);
    cilk_sync;
#ifdef RACY
    cilk_for (int at = 0; at < count; at++) {
#else
    cilk_for (int at = 0; at < half; at++) {
#endif
        int k = at % half;
        Complex one = to[k], other = to[k + half], root = roots[k * stride]; /* [read] */
        Complex sum = combined(one, other, root), difference = combined(one, other, {-root.re, -root.im});
        if (at < half)
            to[k] = sum; /* [low] */
#ifdef RACY
        else
#endif
            to[k + half] = difference; /* [high] */
    }
}

int main() {
    std::vector<float> signal(SIZE);
    std::vector<Complex> spectrum(SIZE);
    cilk::reducer_opadd<float> power;
    for (int i = 0; i < SIZE; i++)
        signal[i] = static_cast<float>(i * i % 7);
    transform(spectrum.data(), signal.data(), SIZE, 1);
    cilk_for (auto at = spectrum.begin(); at != spectrum.end(); ++at)
        power += at->re * at->re + at->im * at->im;
    std::printf("%.1f\n", power.get_value());
}
