/* What a tracer gets wrong easily: memory that comes again, procedures that aren't spawned, ways out of a function,
   values that pass in memory. Each function here is one trap. RACY: its sync is lost, and it has one race. Here are
   chars too, so the unit is 1 byte. */
#include <cilk/cilk.h>
#include <setjmp.h>
#include <stdarg.h>
#include <stdatomic.h>
#include <stdio.h>
#include <stdlib.h>
#include <string.h>

#ifdef RACY
#define SYNC
#else
#define SYNC cilk_sync
#endif

enum { MANY = 8 };

static void set(int *at, int value) { *at = value; } /* [set] */

/* The children's variables have the same addresses. */
static int on_the_stack(int value) {
    int own[4];
    cilk_spawn set(&own[0], value);
    set(&own[1], value + 1);
    cilk_sync;
    return own[0] + own[1];
}

static int siblings_on_the_stack(void) {
    int sums[MANY], sum = 0;
    for (int i = 0; i < MANY; i++)
        sums[i] = cilk_spawn on_the_stack(i); /* [sibling] */
    SYNC;
    for (int i = 0; i < MANY; i++)
        sum += sums[i]; /* [sum_of_siblings] */
    return sum;
}

/* A block that was given back could come again for another child. */
static int on_the_heap(int value) {
    int *own = malloc(4 * sizeof *own);
    own[0] = own[3] = value;
    own = realloc(own, 64 * sizeof *own);
    own[63] = own[0] + own[3];
    int answer = own[63];
    free(own);
    return answer;
}

struct pair {
    int left, right;
};

static int siblings_on_the_heap(void) {
    struct pair sums;
    sums.left = cilk_spawn on_the_heap(1); /* [left] */
    sums.right = on_the_heap(2);
    SYNC;
    return sums.left + sums.right; /* [sum_of_pair] */
}

/* Freeing is an access of the whole block. */
static void free_too_early(void) {
    int *block = malloc(sizeof *block);
    cilk_spawn set(block, 3);
    SYNC;
    free(block); /* [free] */
}

/* A child that goes back over functions of its own. */
static jmp_buf way_back;

static void go_back(int depth) {
    volatile int mark = depth;
    if (mark == 0)
        longjmp(way_back, 1);
    if (mark > 0)
        go_back(depth - 1);
}

static void jump(int *at) {
    if (setjmp(way_back) == 0)
        go_back(5);
    *at = 1; /* [jump] */
}

static int jumps(void) {
    int a = 0, b = 0;
    jump(&a);
    cilk_spawn jump(&b);
    SYNC;
    return a + b; /* [sum_of_jumps] */
}

/* A called function that spawns has children of its own; its sync, or its end, waits for those alone. So it may
   not become a part of its caller. */
__attribute__((always_inline)) static inline void two_children(int *at, int early) {
    cilk_spawn set(&at[0], 1);
    cilk_spawn set(&at[1], 2);
    if (early)
        return;
    cilk_sync;
    at[0] += at[1];
}

static int calls(void) {
    int mine = 0, theirs[4];
    cilk_spawn set(&mine, 1);
    two_children(&theirs[0], 0);
    two_children(&theirs[2], 1);
    int sum = theirs[0] + theirs[1] + theirs[2] + theirs[3];
    SYNC;
    return mine + sum; /* [sum_of_calls] */
}

/* Structs that pass in memory, as an argument and as a result, and more arguments than there are registers. */
struct large {
    long numbers[8];
};
struct medium {
    int numbers[3];
};

static struct large grow(struct large given, struct medium step) {
    for (int i = 0; i < 8; i++)
        given.numbers[i] += step.numbers[i % 3];
    return given;
}

static long many(long a, long b, long c, long d, long e, long f, long g, struct large h, long i) {
    long *last = &i;
    *last += g;
    h.numbers[0] += *last;
    return a + b + c + d + e + f + h.numbers[0];
}

static long structs(void) {
    static struct large results[3];
    struct large given = {{1, 2, 3, 4, 5, 6, 7, 8}};
    struct medium step = {{1, 2, 3}};
    long sums[3];
    for (int i = 0; i < 3; i++)
        results[i] = cilk_spawn grow(given, step); /* [grow] */
    for (int i = 0; i < 3; i++)
        sums[i] = cilk_spawn many(1, 2, 3, 4, 5, 6, 7, given, i);
    for (int i = 0; i < 3; i++)
        cilk_spawn grow(given, step);
    given = grow(given, step);
    SYNC;
    long answer = results[2].numbers[7]; /* [grown] */
    cilk_sync;
    return answer + sums[1] + given.numbers[0];
}

/* A struct that an ordinary call gives is stored like any other. */
static struct large kept;

static long look(const struct large *at) { return at->numbers[3]; } /* [look] */

static long kept_struct(void) {
    long before = cilk_spawn look(&kept);
    SYNC;
    kept = grow(kept, (struct medium){{1, 2, 3}}); /* [keep] */
    cilk_sync;
    return before + kept.numbers[3];
}

/* The library's functions aren't compiled with hooks. */
static int by_number(const void *a, const void *b) { return *(const int *)a - *(const int *)b; }

static int library(void) {
    int left[8] = {4, 7, 1, 6, 0, 5, 3, 2}, right[8];
    char letters[12];
    memmove(right, left, sizeof left);
    cilk_spawn memset(letters, 'a', 5);
    memset(letters + 5, 'b', 5);
    cilk_spawn qsort(left, 8, sizeof *left, by_number); /* [qsort] */
    qsort(right, 8, sizeof *right, by_number);
    SYNC;
    int answer = left[0]; /* [least] */
    cilk_sync;
    memcpy(letters + 7, letters, 5);
    return answer + right[7] + letters[11];
}

/* A child that takes its turn at an atomic counter still takes it sooner or later. */
static atomic_int turns;

static int take_turn(void) { return atomic_fetch_add(&turns, 1); } /* [turn] */

static int atomics(void) {
    int first = cilk_spawn take_turn();
    SYNC;
    int second = take_turn();
    cilk_sync;
    return first + 10 * second;
}

/* A child is called through a pointer, or takes any number of arguments. */
static int sum_of(int count, ...) {
    int sum = 0;
    va_list numbers;
    va_start(numbers, count);
    while (count-- > 0)
        sum += va_arg(numbers, int);
    va_end(numbers);
    return sum;
}

static int pointers(void) {
    int (*functions[2])(int) = {on_the_stack, on_the_heap};
    int sum, *at = &sum;
    struct pair sums, *both = &sums;
    both->left = cilk_spawn functions[0](1);
    (*both).right = cilk_spawn (*functions[1])(2);
    *at = cilk_spawn sum_of(9, 1, 2, 3, 4, 5, 6, 7, 8, 9); /* [sum] */
    SYNC;
    int answer = sum; /* [its_use] */
    cilk_sync;
    return answer + sums.left + sums.right;
}

/* A spawn is a statement wherever a statement may stand. */
static int shapes(int which) {
    int sums[5] = {0};
    if (which > 0)
        cilk_spawn set(&sums[0], 1);
    else
        cilk_spawn set(&sums[0], 2);
    for (int i = 1; i < 3; i++)
        sums[i] = cilk_spawn on_the_stack(
            i);
    switch (which) {
    case 1: sums[3] = cilk_spawn on_the_heap(1); /* [case] */ goto end;
    default: cilk_spawn set(&sums[4], 1); cilk_spawn set(&sums[3], 4);
    }
end:
    SYNC;
    int answer = sums[3]; /* [after_case] */
    cilk_sync;
    return answer + sums[0] + sums[1] + sums[2] + sums[4];
}

/* One below the other. */
static int deep(int depth) {
    if (depth == 0)
        return 0;
    int below = cilk_spawn deep(depth - 1);
    cilk_sync;
    return below + 1;
}

int main(void) {
    int first = cilk_spawn on_the_stack(1);
    printf("%d %d\n", siblings_on_the_stack(), siblings_on_the_heap());
    free_too_early();
    printf("%d %d %ld\n", jumps(), calls(), structs());
    printf("%d %d %d\n", library(), atomics(), pointers());
    printf("%ld\n", kept_struct());
    printf("%d %d %d\n", shapes(1), shapes(0), deep(1000));
    cilk_sync;
    printf("%d\n", first);
}
