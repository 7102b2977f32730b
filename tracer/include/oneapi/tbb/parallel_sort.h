#ifndef SPBAGS_TBB_PARALLEL_SORT_H
#define SPBAGS_TBB_PARALLEL_SORT_H
#pragma GCC system_header

#include <functional>

#include <spbags/sorting.h>
#include "task_group.h"

namespace tbb {
namespace spbags_detail {

struct Less {
    template <class One, class Other> bool operator()(const One &one, const Other &other) const { return one < other; }
};
template <class Type> using If_iterator = typename std::iterator_traits<Type>::iterator_category;

} // namespace spbags_detail

inline namespace v1 {

/* The lower elements are sorted beside the others, down to a few. */
template <class Iterator, class Compare, class = spbags_detail::If_iterator<Iterator>>
SPBAGS_INLINE void parallel_sort(Iterator first, Iterator last, const Compare &compare) {
    ::spbags::sort<false>(first, last, compare, "parallel_sort", ::spbags::here());
}
template <class Iterator, class = spbags_detail::If_iterator<Iterator>>
SPBAGS_INLINE void parallel_sort(Iterator first, Iterator last) {
    spbags_detail::Less less;
    ::spbags::sort<false>(first, last, less, "parallel_sort", ::spbags::here());
}
template <class Range, class Compare, class = decltype(std::begin(std::declval<Range &>())), class = void>
SPBAGS_INLINE void parallel_sort(Range &&range, const Compare &compare) {
    ::spbags::sort<false>(std::begin(range), std::end(range), compare, "parallel_sort", ::spbags::here());
}
template <class Range> SPBAGS_INLINE void parallel_sort(Range &&range) {
    spbags_detail::Less less;
    ::spbags::sort<false>(std::begin(range), std::end(range), less, "parallel_sort", ::spbags::here());
}

} // namespace v1
} // namespace tbb

#endif
