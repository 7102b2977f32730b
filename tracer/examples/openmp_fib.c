/* The n-th Fibonacci number, the slow way, by tasks. RACY: the taskwait is lost, so the sum may read x before the task
   stores it. */
#include <stdio.h>

static int fib(int n) {
    if (n < 2)
        return n;
    int x, y;
#pragma omp task shared(x)
    x = fib(n - 1); /* [store] */
    y = fib(n - 2);
#ifndef RACY
#pragma omp taskwait
#endif
    return x + y; /* [sum] */
}

int main(void) {
    int result;
#pragma omp parallel
#pragma omp single
    result = fib(10);
    printf("%d\n", result);
}
