/* A sort whose parts are children: the lower elements beside the others, or for a stable one two halves. */
#ifndef SPBAGS_SORTING_H
#define SPBAGS_SORTING_H
#pragma GCC system_header

#include <algorithm>

#include <spbags/parallel.h>

namespace spbags {

template <bool stable, class Iterator, class Compare> struct Sort {
    Compare &compare;
    const char *of;
    const void *code;

    void run(Iterator first, Iterator last, long from) const {
        enum { FEW = 4 };
        if (last - first < FEW) {
            insert_all(first, last);
            return;
        }
        Iterator middle = first + (last - first) / 2;
        if (!stable)
            std::nth_element(first, middle, last, compare);
        run_halves(first, middle, last, from);
        if (stable)
            std::inplace_merge(first, middle, last, compare);
    }
    /* Stable too. */
    void insert_all(Iterator first, Iterator last) const {
        for (Iterator end = first; end != last; ++end)
            std::rotate(std::upper_bound(first, end, *end, compare), end, end + 1);
    }
    void run_halves(Iterator first, Iterator middle, Iterator last, long from) const {
        SPBAGS_SCOPE;
        long done = static_cast<long>(middle - first);
        __spbags_part(of, code, from, from + done - 1);
        run(first, middle, from);
        __spbags_return(nullptr, 0);
        __spbags_part(of, code, from + done, from + static_cast<long>(last - first) - 1);
        run(middle, last, from + done);
        __spbags_return(nullptr, 0);
    }
};

template <bool stable, class Iterator, class Compare>
void sort(Iterator first, Iterator last, Compare &compare, const char *of, const void *code) {
    Sort<stable, Iterator, Compare>{compare, of, code}.run(first, last, 0);
}

} // namespace spbags

#endif
