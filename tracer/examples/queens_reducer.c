/* Counts the ways to place queens on a board, in a reducer. RACY: the count is read before the sync. */
#include <cilk/cilk.h>
#include <stdio.h>

enum { QUEENS = 5 };

struct board {
    int columns[QUEENS];
};

static void zero(void *view) { *(int *)view = 0; }
static void add(void *left, void *right) { *(int *)left += *(int *)right; }
static int cilk_reducer(zero, add) solutions = 0;

static int is_safe(const struct board *board, int row, int column) {
    for (int i = 0; i < row; i++) {
        int apart = column - board->columns[i];
        if (apart == 0 || apart == row - i || apart == i - row)
            return 0;
    }
    return 1;
}

static void place(const struct board *before, int row, int column) {
    struct board board = *before;
    board.columns[row] = column;
    if (row + 1 == QUEENS) {
        solutions++; /* [count] */
        return;
    }
    for (int next = 0; next < QUEENS; next++)
        if (is_safe(&board, row + 1, next))
            cilk_spawn place(&board, row + 1, next);
    cilk_sync;
}

int main(void) {
    struct board empty = {{0}};
    for (int column = 0; column < QUEENS; column++)
        cilk_spawn place(&empty, 0, column);
#ifndef RACY
    cilk_sync;
#endif
    int found = solutions; /* [early] */
    cilk_sync;
    printf("%d\n", found);
}
