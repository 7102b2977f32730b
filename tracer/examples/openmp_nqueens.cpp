// Counts the ways to place queens on a board. Each task has a board of its own, a copy with one queen more, and adds to
// an element of its parent's vector. RACY: all count in one variable.
#include <cstdio>
#include <cstdlib>
#include <vector>

static const int QUEENS = 5;

#ifdef RACY
static int solutions;
#endif

class Board {
    std::vector<int> columns;

public:
    int row() const { return static_cast<int>(columns.size()); }

    bool is_safe(int column) const {
        for (int i = 0; i < row(); i++)
            if (columns[i] == column || std::abs(columns[i] - column) == row() - i)
                return false;
        return true;
    }

    void place(int column) { columns.push_back(column); }
};

static int place(const Board &board) {
    if (board.row() == QUEENS) {
#ifdef RACY
        solutions++; // [count]
#endif
        return 1;
    }
    std::vector<int> counts(QUEENS);
    for (int column = 0; column < QUEENS; column++)
        if (board.is_safe(column)) {
            Board next = board;
            next.place(column);
#pragma omp task firstprivate(next, column) shared(counts)
            counts[column] = place(next);
        }
#pragma omp taskwait
    int sum = 0;
    for (int count : counts)
        sum += count;
    return sum;
}

int main() {
    int found = 0;
#pragma omp parallel
#pragma omp single
    found = place(Board());
#ifdef RACY
    std::printf("%d\n", solutions);
#endif
    std::printf("%d\n", found);
}
