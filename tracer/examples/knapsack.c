/* The most that a knapsack can hold, by trying each item both ways. RACY: the best value so far is shared, to give up
   branches that can't reach it. */
#include <cilk/cilk.h>
#include <stdio.h>

enum { ITEMS = 6, CAPACITY = 100 };

struct item {
    int value, weight;
};

static const struct item items[ITEMS] = {{60, 10}, {100, 20}, {120, 30}, {40, 15}, {30, 5}, {70, 25}};

#ifdef RACY
static int best;

static int most_of(int first) {
    int sum = 0;
    for (int i = first; i < ITEMS; i++)
        sum += items[i].value;
    return sum;
}
#endif

static int pack(int first, int capacity, int value) {
    if (capacity < 0)
        return 0;
    if (first == ITEMS)
        return value;
#ifdef RACY
    if (value + most_of(first) < best) /* [bound] */
        return 0;
#endif
    int without = cilk_spawn pack(first + 1, capacity, value);
    int with = pack(first + 1, capacity - items[first].weight, value + items[first].value);
    cilk_sync;
    int better = with > without ? with : without;
#ifdef RACY
    if (better > best) /* [compare] */
        best = better; /* [raise] */
#endif
    return better;
}

int main(void) {
    printf("%d\n", pack(0, CAPACITY, 0));
}
