/* The n-th Fibonacci number, the slow way. RACY: the sync is lost, so the sum may read x before the child stores it. */
#include <cilk/cilk.h>
#include <stdio.h>

static int fib(int n) {
    if (n < 2)
        return n;
    int x = cilk_spawn fib(n - 1); /* [store] */
    int y = fib(n - 2);
#ifndef RACY
    cilk_sync;
#endif
    return x + y; /* [sum] */
}

#ifndef N
#define N 10
#endif

int main(void) {
    printf("%d\n", fib(N));
}
