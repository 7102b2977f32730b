#ifndef SPBAGS_TBB_PARALLEL_FOR_H
#define SPBAGS_TBB_PARALLEL_FOR_H
#pragma GCC system_header

#include "blocked_range.h"
#include "partitioner.h"
#include "task_group.h"

namespace tbb {
inline namespace v1 {

/* Each part of the range that can't be split any more is a child. */
template <class Range, class Body, class... Settings, spbags_detail::If_settings<Settings...> = 0,
          spbags_detail::If_range<Range> = 0>
SPBAGS_INLINE void parallel_for(const Range &range, const Body &body, Settings &&...) {
    SPBAGS_SCOPE;
    spbags::Leaves<Range, split> leaves(range);
    for (long number = 0; leaves.next(); number++) {
        spbags::Box<Range> leaf(leaves.front());
        __spbags_part("parallel_for", nullptr, spbags::first_of(leaf.object, range, number, 0),
                      spbags::last_of(leaf.object, range, number, 0));
        spbags::call_with_own(body, leaf);
        __spbags_return(&leaf, sizeof leaf);
        leaves.pop();
    }
}

/* Each iteration is a child. */
template <class Index, class Function, class... Settings, spbags_detail::If_settings<Settings...> = 0>
SPBAGS_INLINE void parallel_for(Index first, Index last, Index step, const Function &function, Settings &&...) {
    SPBAGS_SCOPE;
    if (!(first < last))
        return;
    Index count = (last - first - Index(1)) / step + Index(1);
    for (Index number = Index(0); number < count; number = number + Index(1)) {
        Index index = first + number * step;
        __spbags_part("parallel_for", nullptr, static_cast<long>(index), static_cast<long>(index));
        spbags::call<const Function, Index>(function, index);
        __spbags_return(nullptr, 0);
    }
}

template <class Index, class Function, class... Settings, spbags_detail::If_settings<Settings...> = 0>
SPBAGS_INLINE void parallel_for(Index first, Index last, const Function &function, Settings &&...) {
    parallel_for(first, last, Index(1), function);
}

} // namespace v1
} // namespace tbb

#endif
