/* Calls code that spbags-cc didn't compile, beside other children, in all the ways that a call may take. */
#include <cilk/cilk.h>
#include <dlfcn.h>
#include <math.h>
#include <setjmp.h>
#include <stdio.h>

struct many {
    double one, other;
    int numbers[8];
};

double outside_words(int *at, int count, ...);
struct many outside_struct(struct many given, long a, long b, long c, long d, long e, long f, long double g);
void outside_calls(void (*back)(int), int n);
int outside_member(int n);
int outside_library(int *at);
void outside_never(void);
int outside_jump(jmp_buf *to);
extern int outside_data;

static int table[4], seen[4];

static void back(int n) { seen[n]++; }

static void child(int n) {
    struct many given = {.one = n, .numbers = {n, 1, 2, 3}};
    int (*member)(int) = outside_member;
    jmp_buf to;
    double words = outside_words(&table[n], 3, 1.5, 2.5, 3.0);
    given = outside_struct(given, 1, 2, 3, 4, 5, 6, 7.0L);
    outside_calls(back, n);
    if (setjmp(to) == 0)
        outside_jump(&to);
    printf("%g %g %g %d %d %d %d\n", words, given.one, given.other, given.numbers[1], member(n),
           outside_library(&table[n]) + outside_data, (int)sqrt(seen[n]));
}

int main(int count, char **words) {
    (void)words;
    if (count > 1 && !dlsym(RTLD_DEFAULT, "printf"))
        return 1;
    cilk_spawn child(0);
    child(1);
    cilk_sync;
    if (table[0] == 77)
        outside_never();
    return 0;
}
