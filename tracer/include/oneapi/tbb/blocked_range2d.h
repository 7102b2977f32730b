#ifndef SPBAGS_TBB_BLOCKED_RANGE2D_H
#define SPBAGS_TBB_BLOCKED_RANGE2D_H
#pragma GCC system_header

#include "blocked_range.h"

namespace tbb {
inline namespace v1 {

template <class Row, class Column = Row> class blocked_range2d {
public:
    using row_range_type = blocked_range<Row>;
    using col_range_type = blocked_range<Column>;

    blocked_range2d(Row row_begin, Row row_end, std::size_t row_grain, Column col_begin, Column col_end,
                    std::size_t col_grain)
        : row(row_begin, row_end, row_grain), column(col_begin, col_end, col_grain) {}
    blocked_range2d(Row row_begin, Row row_end, Column col_begin, Column col_end)
        : row(row_begin, row_end), column(col_begin, col_end) {}
    blocked_range2d(blocked_range2d &other, split) : row(other.row), column(other.column) {
        if (other.splits_rows())
            row = blocked_range<Row>(other.row, split());
        else
            column = blocked_range<Column>(other.column, split());
    }
    blocked_range2d(blocked_range2d &other, proportional_split &) : blocked_range2d(other, split()) {}
    bool empty() const { return row.empty() || column.empty(); }
    bool is_divisible() const { return row.is_divisible() || column.is_divisible(); }
    const row_range_type &rows() const { return row; }
    const col_range_type &cols() const { return column; }

private:
    row_range_type row;
    col_range_type column;

    /* The side that is longer by its own grain is split. */
    bool splits_rows() const {
        return !(double(row.size()) * double(column.grainsize()) < double(column.size()) * double(row.grainsize()));
    }
};

} // namespace v1
} // namespace tbb

#endif
