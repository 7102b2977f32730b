/* A merge sort without a race. Halves above a size are children. */
#include "measured.h"

enum { CHILD_SIZE = 20000, FEW = 16 };

struct part {
    int *first, *beside;
    int count;
};

static void merge(struct part low, struct part high) {
    int *to = low.beside, all = low.count + high.count;
    for (int i = 0, j = 0; i + j < all;)
        if (j == high.count || (i < low.count && low.first[i] <= high.first[j])) {
            to[i + j] = low.first[i];
            i++;
        } else {
            to[i + j] = high.first[j];
            j++;
        }
    for (int i = 0; i < all; i++)
        low.first[i] = to[i];
}

static void insertion_sort(int *first, int count) {
    for (int i = 1; i < count; i++)
        for (int j = i; j > 0 && first[j] < first[j - 1]; j--) {
            int less = first[j];
            first[j] = first[j - 1];
            first[j - 1] = less;
        }
}

static void *sort(void *with) {
    struct part whole = *(struct part *)with;
    if (whole.count <= FEW) {
        insertion_sort(whole.first, whole.count);
        return with;
    }
    int half = whole.count / 2;
    struct part low = {whole.first, whole.beside, half};
    struct part high = {whole.first + half, whole.beside + half, whole.count - half};
    if (whole.count > CHILD_SIZE) {
        CHILD(child);
        SPAWN(child, sort, &low);
        sort(&high);
        SYNC(child);
    } else {
        sort(&low);
        sort(&high);
    }
    merge(low, high);
    return with;
}

int main(int count, char **words) {
    int size = count > 1 ? atoi(words[1]) : 200000;
    struct part whole = {malloc(sizeof(int) * (size_t)size), malloc(sizeof(int) * (size_t)size), size};
    for (int i = 0; i < size; i++)
        whole.first[i] = (int)((long)i * 7919 % size);
    sort(&whole);
    for (int i = 1; i < size; i++)
        if (whole.first[i - 1] > whole.first[i])
            printf("%d is wrong\n", i);
}
