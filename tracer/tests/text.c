/* Accesses of the text that a compiler optimizes away, or that are no plain load or store. In each case a child and its parent
   access the same bytes, as the tags say. */
#include <cilk/cilk.h>
#include <stdarg.h>

static int table[16], once, unused, unread, expected, swapped = 1, barrier, hidden, waited;
static volatile int sink;
static void *buffer[5];

static int search(const int *at, int what) {
    for (int i = 0; i < 16; i++)
        if (at[i] == what) /* [64 searched first] */
            return i;
    return -1;
}

__attribute__((target("general-regs-only"))) static void write_twice(void) {
    once = 1; /* [4 overwritten first] */
    once = 2;
}

static void read_in_vain(void) {
    int copy = unused; /* [4 unused first] */
    (void)copy;
}

static void write_unread(void) {
    unread = 1; /* [4 unread first] */
}

static void read_shared(const int *at) {
    sink = *at; /* [4 last first] */
}

static void store_last(void) {
    int shared = 1;
    cilk_spawn read_shared(&shared);
    shared = 2; /* [4 last second] */
    cilk_sync;
}

static void mark(void) {
    if (__builtin_setjmp(buffer)) /* [40 jump first] [40 jump second] */
        return;
}

/* Of the list what says how many registers are used up. */
static void take(va_list *list) {
    (void)va_arg(*list, int); /* [4 list first] [4 list second] */
}

static void take_both(int count, ...) {
    va_list list;
    va_start(list, count);
    cilk_spawn take(&list);
    take(&list);
    cilk_sync;
    va_end(list);
}

/* The value that is found isn't the expected one, so it is stored there. */
static void swap(void) {
    __atomic_compare_exchange_n(&swapped, &expected, 2, 0, 0, 0); /* [4 expected first] */
}

static void hold(void) {
    __asm__ volatile("" : "+r"(barrier)); /* [4 barrier first] [4 barrier second] */
}

/* Attributes by which a sanitizer would leave a function out. */
__attribute__((no_sanitize("thread"), disable_sanitizer_instrumentation)) static void hide(void) {
    hidden = 1; /* [4 hidden first] */
}

/* Attributes by which a function would go into another one, and so wouldn't wait for its child. */
__attribute__((always_inline)) static inline void spawn_inside(void) { cilk_spawn read_shared(&waited); }
__attribute__((flatten)) static void write_behind(void) {
    spawn_inside();
    waited = 1;
}

#ifndef __clang__
/* What only a part of its caller knows. */
__attribute__((always_inline)) static inline int say(const char *what, ...) {
    return __builtin_printf(what, __builtin_va_arg_pack());
}

static void around(void) {
    int sum = 0;
    void add(int more) {
        sum += more; /* [4 nested first] [4 nested second] */
    }
    cilk_spawn add(1);
    add(2);
    cilk_sync;
    sink = sum;
}
#endif

int main(void) {
    cilk_spawn search(table, 1);
    for (int i = 0; i < 16; i++)
        table[i] = 2; /* [64 searched second] */
    cilk_spawn write_twice();
    sink = once; /* [4 overwritten second] */
    cilk_spawn read_in_vain();
    unused = 3; /* [4 unused second] */
    cilk_spawn write_unread();
    unread = 4; /* [4 unread second] */
    store_last();
    cilk_spawn mark();
    mark();
    take_both(2, 3, 4);
    cilk_spawn swap();
    sink = expected; /* [4 expected second] */
    cilk_spawn hold();
    hold();
    cilk_spawn hide();
    hidden = 2; /* [4 hidden second] */
    write_behind();
#ifndef __clang__
    around();
    say("%s", "");
#endif
}
