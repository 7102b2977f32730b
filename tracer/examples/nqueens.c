/* Counts the ways to place queens on a board. Each child has a board of its own, a copy with one queen more, and stores
   its count in an element of its parent's array. RACY: all count in one variable. */
#include <alloca.h>
#include <cilk/cilk.h>
#include <stdio.h>
#include <string.h>

enum { QUEENS = 5 };

#ifdef RACY
static int solutions;
#endif

static int is_safe(const int *board, int row, int column) {
    for (int i = 0; i < row; i++)
        if (board[i] == column || board[i] - column == row - i || column - board[i] == row - i)
            return 0;
    return 1;
}

static int place(const int *board, int row) {
    int counts[QUEENS] = {0}, sum = 0;
    if (row == QUEENS) {
#ifdef RACY
        solutions++; /* [count] */
#endif
        return 1;
    }
    for (int column = 0; column < QUEENS; column++)
        if (is_safe(board, row, column)) {
            int *next = alloca(QUEENS * sizeof *next);
            memcpy(next, board, (size_t)row * sizeof *next);
            next[row] = column;
            counts[column] = cilk_spawn place(next, row + 1);
        }
    cilk_sync;
    for (int column = 0; column < QUEENS; column++)
        sum += counts[column];
    return sum;
}

int main(void) {
    int empty[QUEENS] = {0};
    printf("%d\n", place(empty, 0));
#ifdef RACY
    printf("%d\n", solutions);
#endif
}
