/* Strings that hold what the tracer rewrites, or refuses, where it is the program's own. The program prints them. */
#include <cilk/cilk.h>
#include <stdio.h>

static const char *const texts[] = {
    "asm volatile(\"lock; incl %0\" : \"+m\"(count)); asm(\"incl count\");",
    "__builtin_ia32_movnti (p, 3), __builtin_ia32_movnti(p, 3)",
    "cilk_spawn f(); _Cilk_spawn f(); __attribute__((no_sanitize(\"thread\"), always_inline))",
    "'", "\"", "\\", "it's asm(\"incl %0\" : \"+m\"(count))",
#if defined __cplusplus || !defined __clang__
    R"(" asm volatile("incl %0" : "+m"(count)); ")",
    R"x(
    asm("incl %0" : "+m"(count)); )" __builtin_ia32_movnti(p, 3);
    )x",
    R"(
#pragma omp parallel for
    for (int i = 0; i < 4; i++) sum += i;
#pragma omp target
#pragma cilk grainsize 3
    [[omp::directive(parallel)]]
)",
    R"(
# 1 "/usr/include/c++/12/vector" 1 3
int x;
# 2 "texts.c" 2
extern template class basic_string<char>; try { } catch (...) { }
)",
#endif
};

int main(void) {
    int number[3] = {'\'', '"', 1};
#ifdef OPENMP
#pragma omp parallel for
    for (int i = 0; i < 3; i++)
        number[i]++;
#else
    cilk_for (int i = 0; i < 3; i++)
        number[i]++;
#endif
    for (unsigned long i = 0; i < sizeof texts / sizeof *texts; i++)
        puts(texts[i]);
    printf("%d %d %d\n", number[0], number[1], number[2]);
    return 0;
}
