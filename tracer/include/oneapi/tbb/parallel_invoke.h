#ifndef SPBAGS_TBB_PARALLEL_INVOKE_H
#define SPBAGS_TBB_PARALLEL_INVOKE_H
#pragma GCC system_header

#include "task_group.h"

namespace tbb {
namespace spbags_detail {

SPBAGS_INLINE void invoke(int) {}
SPBAGS_INLINE void invoke(int, task_group_context &) {}
template <class Function, class... Rest>
SPBAGS_INLINE void invoke(int number, const Function &function, Rest &&...rest) {
    __spbags_part("parallel_invoke", nullptr, number, number);
    spbags::call(function);
    __spbags_return(nullptr, 0);
    invoke(number + 1, std::forward<Rest>(rest)...);
}

} // namespace spbags_detail

inline namespace v1 {

/* Each function is a child. */
template <class Function, class Other, class... Rest>
SPBAGS_INLINE void parallel_invoke(const Function &function, const Other &other, Rest &&...rest) {
    SPBAGS_SCOPE;
    spbags_detail::invoke(0, function, other, std::forward<Rest>(rest)...);
}

} // namespace v1
} // namespace tbb

#endif
