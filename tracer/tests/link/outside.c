#include <setjmp.h>
#include <stdarg.h>

struct many {
    double one, other;
    int numbers[8];
};

int outside_data = 1;

double outside_words(int *at, int count, ...) {
    va_list list;
    double sum = 0;
    va_start(list, count);
    while (count-- > 0)
        sum += va_arg(list, double);
    va_end(list);
    *at += 1;
    return sum;
}

struct many outside_struct(struct many given, long a, long b, long c, long d, long e, long f, long double g) {
    given.other = a + b + c + d + e + f + (double)g;
    given.numbers[1] = given.numbers[0] + 10;
    return given;
}

void outside_calls(void (*back)(int), int n) { back(n); }

void outside_jump(jmp_buf *to) { longjmp(*to, 1); }

void outside_never(void) {}
