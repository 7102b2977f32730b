/* Adds the product of two matrices that aren't square, by halves of the longest side; both halves of the inner side add
   to the same numbers. RACY: these go at once. */
#include <cilk/cilk.h>
#include <stdio.h>

enum { ROWS = 4, INNER = 8, COLUMNS = 4, FEW = 2 };

static float a[ROWS][INNER], b[INNER][COLUMNS], c[ROWS][COLUMNS];

static void add_product(int row, int inner, int column, int rows, int inners, int columns) {
    if (rows <= FEW && inners <= FEW && columns <= FEW) {
        for (int i = row; i < row + rows; i++)
            for (int j = column; j < column + columns; j++)
                for (int k = inner; k < inner + inners; k++)
                    c[i][j] += a[i][k] * b[k][j]; /* [add] */
    } else if (inners >= rows && inners >= columns) {
        int half = inners / 2;
        cilk_spawn add_product(row, inner, column, rows, half, columns);
#ifndef RACY
        cilk_sync;
#endif
        add_product(row, inner + half, column, rows, inners - half, columns);
    } else if (rows >= columns) {
        int half = rows / 2;
        cilk_spawn add_product(row, inner, column, half, inners, columns);
        add_product(row + half, inner, column, rows - half, inners, columns);
    } else {
        int half = columns / 2;
        cilk_spawn add_product(row, inner, column, rows, inners, half);
        add_product(row, inner, column + half, rows, inners, columns - half);
    }
}

int main(void) {
    for (int i = 0; i < ROWS; i++)
        for (int k = 0; k < INNER; k++)
            a[i][k] = b[k][i] = (float)((i * 5 + k) % 4);
    add_product(0, 0, 0, ROWS, INNER, COLUMNS);
    float sum = 0;
    for (int i = 0; i < ROWS; i++)
        for (int j = 0; j < COLUMNS; j++)
            sum += c[i][j];
    printf("%g\n", sum);
}
