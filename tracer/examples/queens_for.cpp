// Places queens on a board, by loops: the boards go into a list in the serial order. RACY: an iteration asks for the list
// while others may add to it.
#include <array>
#include <cilk/cilk.h>
#include <cilk/reducer_list.h>
#include <cstdio>
#include <cstdlib>

enum { QUEENS = 5 };
using Board = std::array<int, QUEENS>;

static cilk::reducer<cilk::op_list_append<Board>> boards;

static bool is_safe(const Board &board, int row, int column) {
    for (int i = 0; i < row; i++)
        if (board[i] == column || std::abs(board[i] - column) == row - i)
            return false;
    return true;
}

static void place(const Board &before, int row) {
    if (row == QUEENS) {
        boards->push_back(before); /* [add] */
        return;
    }
    cilk_for (int column = 0; column < QUEENS; column++) {
        if (is_safe(before, row, column)) {
            Board board = before;
            board[row] = column;
            place(board, row + 1);
        }
    }
#ifdef RACY
    if (row == 1 && before[0] == 0)
        boards.get_value(); /* [ask] */
#endif
}

int main() {
    place(Board(), 0);
    std::printf("%zu boards, the first %d %d\n", boards.get_value().size(), boards.get_value().front()[0],
                boards.get_value().front()[1]);
}
