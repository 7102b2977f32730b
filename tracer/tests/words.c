/* Races whose variables test_words.py knows by their names: the first word says which. The tags name lines. */
#include <cilk/cilk.h>
#include <stdio.h>
#include <stdlib.h>
#include <string.h>

struct param {
    int first;
    short halves[4];
    union {
        int whole;
        double real;
    } kind;
    struct {
        int rows[2][3];
    } inner;
    unsigned bit : 1, others : 31;
    unsigned flag;
};
struct param params[4];
int grid[5][8];
_Thread_local int before_mine, mine;
int line, file;

static void set(volatile int *at) { *at = 1; } /* [set] */

static void of_a_member(void) {
    cilk_spawn set(&params[2].inner.rows[1][2]);
    params[2].inner.rows[1][2] = 2;
}

static void of_a_union(void) {
    cilk_spawn set(&params[1].kind.whole);
    params[1].kind.whole = 2;
}

static void set_half(short *at) { *at = 1; }

static void of_a_half(void) {
    cilk_spawn set_half(&params[3].halves[1]);
    params[3].halves[1] = 2;
}

static void of_a_grid(void) {
    cilk_spawn set(&grid[3][7]);
    grid[3][7] = 2;
}

static void of_a_flag(void) {
    cilk_spawn set((int *)&params[0].flag);
    params[0].flag = 2;
}

/* Two members have bits in the first byte. */
static void set_bits(void) { params[1].others = 1; }

static void of_bits(void) {
    cilk_spawn set_bits();
    set_bits();
}

static void of_an_own_member(void) {
    struct param own[2];
    cilk_spawn set(&own[1].inner.rows[0][1]);
    set(&own[1].inner.rows[0][1]);
}

static void of_an_aligned(void) {
    _Alignas(64) int wide[16];
    cilk_spawn set(&wide[5]);
    set(&wide[5]);
}

static void of_an_argument(int given) {
    cilk_spawn set(&given);
    set(&given);
}

/* Its size isn't known before the run. */
static void of_a_local_array(int many) {
    int own[many];
    cilk_spawn set(&own[3]);
    set(&own[3]);
}

static void set_mine(void) { mine = 1; }

static void of_a_thread(void) {
    before_mine = 0;
    cilk_spawn set_mine();
    mine = 2;
}

static void add(double *at) { *at += 1; } /* [add] */

static void of_the_heap(void) {
    double *numbers = calloc(20, sizeof *numbers); /* [numbers] */
    cilk_spawn add(&numbers[4]);
    add(&numbers[4]);
}

/* One line races on two variables. */
#define NOTE() (line = __LINE__, file = 2)

static void note(void) {
    NOTE(); /* [note] */
}

static void of_two_on_a_line(void) {
    cilk_spawn note();
    note();
}

/* Three pairs of one variable: of 40, 10 and 5 locations. */
static void set_row(int from, int end) {
    for (int i = from; i < end; i++)
        grid[i / 8][i % 8] = i; /* [set row] */
}

static void of_pairs(void) {
    cilk_spawn set_row(0, 40); /* [spawn row] */
    for (int i = 0; i < 10; i++)
        grid[i / 8][i % 8] = 1; /* [ten] */
    for (int i = 10; i < 15; i++)
        grid[i / 8][i % 8] = 2; /* [five] */
    set_row(15, 40); /* [calls row] */
}

/* The same code for four variables: locations 1, 1, 3 and 1. */
static void set_all(int *one, int *other, int *three, int *own) {
    set(one);   /* [set line] */
    set(other); /* [set file] */
    for (int i = 0; i < 3; i++)
        set(three + i); /* [set grid] */
    set(own);           /* [set own] */
}

static void of_pointers(void) {
    int own;
    cilk_spawn set_all(&line, &file, grid[1], &own);
    set_all(&line, &file, grid[1], &own);
}

static const struct {
    const char *name;
    void (*run)(void);
} all[] = {
    {"member", of_a_member},    {"union", of_a_union},     {"half", of_a_half},
    {"grid", of_a_grid},        {"own", of_an_own_member}, {"aligned", of_an_aligned},
    {"thread", of_a_thread},    {"heap", of_the_heap},     {"two", of_two_on_a_line},
    {"pairs", of_pairs},        {"pointers", of_pointers}, {"flag", of_a_flag},
    {"bits", of_bits},
};

int main(int count, char **words) {
    const char *word = count > 1 ? words[1] : "";
    for (size_t at = 0; at < sizeof all / sizeof *all; at++)
        if (strcmp(word, all[at].name) == 0)
            all[at].run(); /* [run] */
    if (strcmp(word, "argument") == 0)
        of_an_argument(count);
    if (strcmp(word, "array") == 0)
        of_a_local_array(count * 3);
    return 0;
}
