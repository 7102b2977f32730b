#ifndef SPBAGS_TBB_SPLIT_H
#define SPBAGS_TBB_SPLIT_H
#pragma GCC system_header

#include <cstddef>
#include <type_traits>

namespace tbb {
inline namespace v1 {

class split {};

class proportional_split {
    std::size_t lefts, rights;

public:
    explicit proportional_split(std::size_t left = 1, std::size_t right = 1) : lefts(left), rights(right) {}
    std::size_t left() const { return lefts; }
    std::size_t right() const { return rights; }
    explicit operator split() const { return split(); }
};

/* Partitioners say how a range is divided. Here it always is as far as it can be. */
class simple_partitioner {};
class auto_partitioner {};
class static_partitioner {};
class affinity_partitioner {
public:
    affinity_partitioner() {}
    affinity_partitioner(const affinity_partitioner &) = delete;
    affinity_partitioner &operator=(const affinity_partitioner &) = delete;
};

} // namespace v1
} // namespace tbb

namespace oneapi {
namespace tbb = ::tbb;
}

#endif
