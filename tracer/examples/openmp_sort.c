/* Sorts by halves, which are two tasks of one group, and merges them. RACY: the group is lost, so the merge may read a
   half before it is sorted. */
#include <stdio.h>
#include <string.h>

enum { COUNT = 64, FEW = 8 };

static int data[COUNT], spare[COUNT];

static void insertion_sort(int *first, int count) {
    for (int i = 1; i < count; i++)
        for (int j = i; j > 0 && first[j] < first[j - 1]; j--) {
            int less = first[j];
            first[j] = first[j - 1]; /* [later] */
            first[j - 1] = less;     /* [earlier] */
        }
}

static void merge(const int *a, const int *b, int half, int *to) {
    const int *a_end = a + half, *b_end = b + half;
    while (a < a_end || b < b_end)
        *to++ = b == b_end || (a < a_end && *a <= *b) ? *a++ : *b++; /* [merge] */
}

static void sort(int *first, int *beside, int count) {
    int half = count / 2;
    if (count <= FEW) {
        insertion_sort(first, count);
        return;
    }
#ifndef RACY
#pragma omp taskgroup
#endif
    {
#pragma omp task
        sort(first, beside, half);
#pragma omp task
        sort(first + half, beside + half, half);
    }
    merge(first, first + half, half, beside);
    memcpy(first, beside, (size_t)count * sizeof *first);
}

int main(void) {
    for (int i = 0; i < COUNT; i++)
        data[i] = COUNT - i;
#pragma omp parallel master
    sort(data, spare, COUNT);
    for (int i = 0; i < COUNT; i++)
        if (data[i] != i + 1)
            printf("%d stands at %d\n", data[i], i);
}
