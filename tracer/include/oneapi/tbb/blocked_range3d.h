#ifndef SPBAGS_TBB_BLOCKED_RANGE3D_H
#define SPBAGS_TBB_BLOCKED_RANGE3D_H
#pragma GCC system_header

#include "blocked_range2d.h"

namespace tbb {
inline namespace v1 {

template <class Page, class Row = Page, class Column = Row> class blocked_range3d {
public:
    using page_range_type = blocked_range<Page>;
    using row_range_type = blocked_range<Row>;
    using col_range_type = blocked_range<Column>;

    blocked_range3d(Page page_begin, Page page_end, Row row_begin, Row row_end, Column col_begin, Column col_end)
        : page(page_begin, page_end), rest(row_begin, row_end, col_begin, col_end) {}
    blocked_range3d(Page page_begin, Page page_end, std::size_t page_grain, Row row_begin, Row row_end,
                    std::size_t row_grain, Column col_begin, Column col_end, std::size_t col_grain)
        : page(page_begin, page_end, page_grain),
          rest(row_begin, row_end, row_grain, col_begin, col_end, col_grain) {}
    blocked_range3d(blocked_range3d &other, split) : page(other.page), rest(other.rest) {
        if (other.splits_pages())
            page = blocked_range<Page>(other.page, split());
        else
            rest = blocked_range2d<Row, Column>(other.rest, split());
    }
    blocked_range3d(blocked_range3d &other, proportional_split &) : blocked_range3d(other, split()) {}
    bool empty() const { return page.empty() || rest.empty(); }
    bool is_divisible() const { return page.is_divisible() || rest.is_divisible(); }
    const page_range_type &pages() const { return page; }
    const row_range_type &rows() const { return rest.rows(); }
    const col_range_type &cols() const { return rest.cols(); }

private:
    page_range_type page;
    blocked_range2d<Row, Column> rest;

    template <class Range> static double share(const Range &range) {
        return double(range.size()) / double(range.grainsize());
    }
    bool splits_pages() const { return share(page) >= share(rows()) && share(page) >= share(cols()); }
};

} // namespace v1
} // namespace tbb

#endif
