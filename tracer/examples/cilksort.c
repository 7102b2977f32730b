/* Sorts by quarters: all four are sorted at once, then both pairs are merged at once, and then the halves. RACY: the
   last sync is lost, so the last merge may run beside the first one. */
#include <cilk/cilk.h>
#include <stdio.h>

#ifndef COUNT
#define COUNT 64
#define FEW 4
#endif

static int data[COUNT], spare[COUNT];

static void merge(const int *a, const int *a_end, const int *b, const int *b_end, int *to) {
    while (a < a_end || b < b_end)
        *to++ = b == b_end || (a < a_end && *a <= *b) ? *a++ : *b++; /* [merge] */
}

static void insertion_sort(int *first, int count) {
    for (int i = 1; i < count; i++)
        for (int j = i; j > 0 && first[j] < first[j - 1]; j--) {
            int less = first[j];
            first[j] = first[j - 1];
            first[j - 1] = less;
        }
}

static void sort(int *first, int *beside, int count) {
    if (count <= FEW) {
        insertion_sort(first, count);
        return;
    }
    int quarter = count / 4;
    int *b = first + quarter, *c = b + quarter, *d = c + quarter, *end = first + count;
    cilk_spawn sort(first, beside, quarter);
    cilk_spawn sort(b, beside + quarter, quarter);
    cilk_spawn sort(c, beside + 2 * quarter, quarter);
    sort(d, beside + 3 * quarter, count - 3 * quarter);
    cilk_sync;
    cilk_spawn merge(first, b, b, c, beside);
    merge(c, d, d, end, beside + 2 * quarter);
#ifndef RACY
    cilk_sync;
#endif
    merge(beside, beside + 2 * quarter, beside + 2 * quarter, beside + count, first);
}

int main(void) {
    for (int i = 0; i < COUNT; i++)
        data[i] = (i * 37 + 11) % COUNT;
    sort(data, spare, COUNT);
    for (int i = 0; i < COUNT; i++)
        if (data[i] != i)
            printf("%d stands at %d\n", data[i], i);
}
