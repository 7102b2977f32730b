// The most that a knapsack can hold: item by item, a loop over all capacities makes a new row of the best values from
// the one before. RACY: there is one row alone.
#include <algorithm>
#include <cilk/cilk.h>
#include <cilk/reducer_max.h>
#include <cstdio>
#include <vector>

enum { CAPACITY = 10 };

struct Item {
    int value, weight;
};

static std::vector<int> best_values(const std::vector<Item> &items) {
    std::vector<int> row(CAPACITY + 1);
    for (const Item &item : items) {
#ifdef RACY
        std::vector<int> &next = row;
#else
        std::vector<int> next(row);
#endif
        cilk_for (int room = item.weight; room <= CAPACITY; room++)
            next[room] = std::max(row[room], row[room - item.weight] + item.value); /* [take] */
        row = next;
    }
    return row;
}

int main() {
    std::vector<int> best = best_values({{4, 3}, {5, 4}, {8, 6}});
    cilk::reducer<cilk::op_max_index<int, int>> most;
    cilk_for (int room = 0; room <= CAPACITY; room++)
        most->calc_max(room, best[room]);
    std::printf("%d in %d\n", most.get_value().second, most.get_value().first);
}
