#ifndef SPBAGS_TBB_BLOCKED_RANGE_H
#define SPBAGS_TBB_BLOCKED_RANGE_H
#pragma GCC system_header

#include "detail_split.h"

namespace tbb {
inline namespace v1 {

template <class Value> class blocked_range {
    Value last, first;
    std::size_t grain;

    template <class, class> friend class blocked_range2d;
    template <class, class, class> friend class blocked_range3d;

public:
    using const_iterator = Value;
    using size_type = std::size_t;

    blocked_range(Value begin, Value end, size_type grainsize = 1) : last(end), first(begin), grain(grainsize) {}
    /* The second half of a range, which keeps the first one. */
    blocked_range(blocked_range &other, split) : last(other.last), first(other.middle()), grain(other.grain) {
        other.last = first;
    }
    blocked_range(blocked_range &other, proportional_split &) : blocked_range(other, split()) {}
    const_iterator begin() const { return first; }
    const_iterator end() const { return last; }
    size_type size() const { return static_cast<size_type>(last - first); }
    size_type grainsize() const { return grain; }
    bool empty() const { return !(first < last); }
    bool is_divisible() const { return grain < size(); }

private:
    Value middle() const { return first + (last - first) / 2u; }
};

} // namespace v1
} // namespace tbb

#endif
