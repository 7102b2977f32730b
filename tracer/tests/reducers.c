/* Reducers in C, of OpenCilk and of the older library. Iterations update each at once, which is no race; with the word
   `racy` at the end one of them reads or sets the value instead, on a line with a tag, two above the update's. The words
   `list`, `arguments` and `child` are for a view that has more memory elsewhere, and `kept` for an address that is
   kept. */
#include <cilk/cilk.h>
#include <cilk/reducer_max.h>
#include <cilk/reducer_min.h>
#include <cilk/reducer_opadd.h>
#include <stdio.h>
#include <stdlib.h>
#include <string.h>

struct counts {
    int of[3];
    double all;
};

static void zero(void *view) { *(int *)view = 0; }
static void add(void *left, void *right) { *(int *)left += *(int *)right; }
static void least(void *view) { *(int *)view = -1; }
static void greatest(void *left, void *right) {
    int *one = left, *other = right;
    if (*other > *one)
        *one = *other;
}
static void no_counts(void *view) { memset(view, 0, sizeof(struct counts)); }
static void add_counts(void *left, void *right) {
    struct counts *one = left, *other = right;
    one->all += other->all;
}

static int cilk_reducer(zero, add) total = 0;
extern int cilk_reducer(least, greatest) best;
int cilk_reducer(least, greatest) best = -1;
static int racy, kept;

static void add_to(int *sum, int n) { *sum += n; }

static void scalars(void) {
    static int cilk_reducer(zero, add) calls;
    int cilk_reducer(zero, add) sum = 1;
#pragma cilk grainsize 1
    cilk_for (int i = 0; i < 4; i++)
        if (racy && i == 2)
            kept = total; /* [value] */
        else
            total += i;
    cilk_for (int i = 0; i < 4; i++)
        if (racy && i == 2)
            sum = 4; /* [value] */
        else
            sum = sum + i;
    cilk_for (int i = 0; i < 4; i++)
        if (racy && i == 2)
            printf("%d\n", calls); /* [value] */
        else
            calls++;
    cilk_for (int i = 0; i < 4; i++)
        if (racy && i == 2)
            kept = -best; /* [value] */
        else {
            if (i > best)
                best = i;
        }
    for (int total = 0; total < 2; total++)
        sum += total;
    printf("%d %d %d %d %zu\n", total, sum, calls, best, sizeof total);
}

/* A child gets the address, and the reducer ends before a sync. */
static void addresses(void) {
    int cilk_reducer(zero, add) sum = 1;
    cilk_spawn add_to(&sum, 2); /* [handed] */
    add_to(&sum, 3);
    if (racy)
        kept = sum; /* [before sync] */
    cilk_sync;
    { int cilk_reducer(zero, add) inner = 0; cilk_spawn add_to(&inner, 2); if (!racy) cilk_sync; } /* [ends] */
    cilk_sync;
    printf("%d\n", sum);
}

/* Variables of the same name. */
static int shadowed(void) {
    int total = 0;
    cilk_for (int i = 0; i < 4; i++)
        total += i; /* [shadowed] */
    return total;
}

static long same_names(long n) {
    long made = n, total = 2;
    for (long i = 0, total = 2; i < total; i++)
        made += total;
    __typeof__(n) best = 3;
    return made + total + best;
}

/* Members, and another struct with a member of that name. */
struct tally {
    int cilk_reducer(zero, add) sum;
    int cilk_reducer(zero, add) of[3];
};
typedef struct {
    int cilk_reducer(zero, add) sum;
    struct tally inner;
} nested;

static void members(void) {
    struct plain {
        int sum;
    } plain = {0};
    struct tally one = {0}, *two = calloc(2, sizeof *two);
    nested outer = {0};
    cilk_for (int i = 0; i < 4; i++)
        if (racy && i == 2)
            kept = one.sum; /* [value] */
        else
            one.sum += i;
    cilk_for (int i = 0; i < 4; i++)
        if (racy && i == 2)
            two[1].sum = 3; /* [value] */
        else
            (two + 1)->sum++;
    cilk_for (int i = 0; i < 4; i++)
        if (racy && i == 2)
            kept = two->of[1]; /* [value] */
        else
            two->of[i % 2] = two->of[i % 2] + i;
    cilk_for (int i = 0; i < 4; i++)
        if (racy && i == 2)
            kept = outer.inner.sum + outer.sum; /* [value] */
        else
            outer.inner.sum -= 1;
    if (racy)
        cilk_for (int i = 0; i < 4; i++)
            plain.sum += i; /* [other struct] */
    printf("%d %d %d %d\n", one.sum, two[1].sum, two->of[1], outer.inner.sum);
    free(two);
}

static int cilk_reducer(zero, add) table[2][3];

/* Each element is a reducer of its own. */
static void arrays(void) {
    int cilk_reducer(zero, add) local[2] = {1, 2};
    cilk_for (int i = 0; i < 4; i++)
        if (racy && i == 2)
            table[1][0] = table[1][1]; /* [value] */
        else
            table[1][i % 2] += i;
    cilk_for (int i = 0; i < 4; i++)
        if (racy && i == 2)
            kept = local[1]; /* [value] */
        else
            local[i / 2] += i;
    cilk_for (int i = 0; i < 4; i++)
        if (i == 2)
            kept = local[0];
        else
            local[1] += i;
    { int cilk_reducer(zero, add) of[2] = {0}; cilk_spawn add_to(&of[1], 2); if (!racy) cilk_sync; } /* [array ends] */
    cilk_sync;
    printf("%d %d %d %zu\n", table[1][0], table[1][1], local[0] + local[1], sizeof local / sizeof *local);
}

/* Pointers to reducers. */
static void count_down(int cilk_reducer(zero, add) *sum, int n) {
    if (n > 0) {
        cilk_spawn count_down(sum, n - 1);
        *sum += n;
        cilk_sync;
    }
}

static void add_one(struct counts cilk_reducer(no_counts, add_counts) *, int, int _Hyperobject *sum);
static void add_one(struct counts cilk_reducer(no_counts, add_counts) *to, int n, int _Hyperobject *sum) {
    to->of[0] += n;
    sum[0] += n;
}

static void pointers(void) {
    int cilk_reducer(zero, add) sum = 0;
    int cilk_reducer(zero, add) of[2] = {0};
    int cilk_reducer(zero, add) *at = __builtin_addressof(sum);
    cilk_for (int i = 0; i < 4; i++)
        if (racy && i == 2)
            kept = *at; /* [value] */
        else
            *at = *at + i;
    count_down(at, 3);
    at = __builtin_addressof(of[1]);
    cilk_for (int i = 0; i < 4; i++)
        if (racy && i == 2)
            at[0] = 3; /* [value] */
        else
            (*at)++;
    count_down(at, 2);
    printf("%d %d\n", sum, of[1]);
}

static int cilk_reducer(zero, add) first, others[2] = {2, 3};
struct linked {
    struct {
        int cilk_reducer(zero, add) n;
    } inner;
    int cilk_reducer(zero, add) *to;
};
static int four(void) { return 4; }

/* Several in a declaration, in an inner struct, by pointers to pointers, in a loop's header, and what a child sets. */
static void places(void) {
    struct linked one = {{1}, &first};
    int cilk_reducer(zero, add) **twice = &one.to, child = 0;
    cilk_for (int i = 0; i < 4; i++)
        if (racy && i == 2)
            kept = first; /* [value] */
        else
            **twice += i;
    cilk_for (int i = 0; i < 4; i++)
        if (racy && i == 2)
            kept = *others; /* [value] */
        else
            *others -= i;
    cilk_for (int i = 0; i < 4; i++)
        if (racy && i == 2)
            kept = one.inner.n; /* [value] */
        else
            add_to(&one.inner.n, i);
    for (int cilk_reducer(zero, add) i = 0; i < 2; i++)
        first += i;
    child = cilk_spawn four(); /* [set by child] */
    if (racy)
        child++; /* [beside child] */
    cilk_sync;
    printf("%d %d %d %d %ld\n", first, others[0], one.inner.n, child, same_names(1));
}

/* A function inside of another has its variables. */
static void inner_functions(void) {
    int cilk_reducer(zero, add) sum = 0;
    void up(int i) {
        if (racy && i == 2)
            kept = sum; /* [value] */
        else
            sum += i;
    }
    cilk_for (int i = 0; i < 4; i++)
        up(i);
    printf("%d\n", sum);
}

static void structs(void) {
    struct counts cilk_reducer(no_counts, add_counts) counts = {.all = 1};
    cilk_for (int i = 0; i < 4; i++)
        if (racy && i == 2)
            kept = (int)counts.all; /* [value] */
        else
            counts.of[i % 3] += i;
    int cilk_reducer(zero, add) sum = 0;
    cilk_for (int i = 0; i < 4; i++)
        add_one(__builtin_addressof(counts), 2, __builtin_addressof(sum));
    printf("%d %g %d %d\n", counts.of[1], counts.all, counts.of[0], sum);
}

static void older(void) {
    CILK_C_REDUCER_OPADD(sum, double, 0);
    CILK_C_REDUCER_MAX(most, int, 0);
    CILK_C_REGISTER_REDUCER(sum);
    cilk_for (int i = 0; i < 4; i++)
        if (racy && i == 2)
            kept = (int)REDUCER_VIEW(sum); /* [value] */
        else
            REDUCER_VIEW(sum) += i;
    cilk_for (int i = 0; i < 4; i++)
        if (racy && i == 2)
            kept = most.value; /* [value] */
        else
            CILK_C_REDUCER_MAX_CALC(most, i);
    CILK_C_UNREGISTER_REDUCER(sum);
    printf("%g %d\n", sum.value, REDUCER_VIEW(most));
    CILK_C_REDUCER_MAX_INDEX(last, int, -1);
    CILK_C_REDUCER_MIN_INDEX(first, double, 10);
    cilk_for (int i = 0; i < 4; i++)
        if (racy && i == 2)
            kept = (int)REDUCER_VIEW(last).index; /* [value] */
        else
            CILK_C_REDUCER_MAX_INDEX_CALC(last, i + 10, i % 3);
    cilk_for (int i = 0; i < 4; i++)
        if (racy && i == 2)
            kept = (int)first.value.value; /* [value] */
        else
            CILK_C_REDUCER_MIN_INDEX_CALC(first, i, 5 - i);
    printf("%d %d %d %g\n", (int)REDUCER_VIEW(last).index, last.value.value, (int)first.value.index,
           REDUCER_VIEW(first).value);
}

struct node {
    struct node *next;
    int n;
};
typedef struct node *nodes;

static void no_nodes(void *view) { *(nodes *)view = NULL; }
static void join(void *left, void *right) { (void)left, (void)right; }
static nodes cilk_reducer(no_nodes, join) list = NULL;

/* It changes the element before too. */
static void push(nodes *to, int n) {
    nodes made = malloc(sizeof *made);
    *made = (struct node){.next = *to, .n = n};
    if (*to)
        (*to)->n += 1;
    *to = made;
}

static void lists(int keeps) {
    static int numbers[4];
    cilk_for (int i = 0; i < 4; i++) {
        numbers[keeps ? 0 : i] = i; /* [number] */
        push(&list, numbers[keeps ? 0 : i]);
    }
    int sum = 0;
    for (nodes at = list; at; at = at->next)
        sum += at->n;
    printf("%d\n", sum);
}

static void push_by_child(nodes *to, int n) { cilk_spawn push(to, n); }

static void children(void) {
    cilk_for (int i = 0; i < 2; i++) {
        push_by_child(&list, i);
    }
}

static void keep(void) {
    cilk_for (int i = 0; i < 4; i++) {
        int *at = &total; /* [kept] */
        *at += i;
    }
}

int main(int count, char **words) {
    /* Without words what it does is racy too, and it reads none. */
    const char *word = count > 1 ? words[1] : "";
    racy = count != 2 || strcmp(words[1], "racy") == 0;
    if (strcmp(word, "list") == 0) {
        lists(0);
    } else if (strcmp(word, "arguments") == 0) {
        lists(1);
    } else if (strcmp(word, "child") == 0) {
        children();
    } else if (strcmp(word, "kept") == 0) {
        keep();
    } else if (strcmp(word, "struct") == 0) {
        structs();
    } else {
        scalars();
        addresses();
        members();
        arrays();
        pointers();
        places();
        inner_functions();
        older();
        if (racy)
            printf("%d\n", shadowed());
    }
}
