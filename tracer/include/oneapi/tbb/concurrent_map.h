#ifndef SPBAGS_TBB_CONCURRENT_ORDERED_H
#define SPBAGS_TBB_CONCURRENT_ORDERED_H
#pragma GCC system_header

#include "detail_keyed.h"

/* What the order gives depends on all keys. */
#define SPBAGS_BOUND(NAME) \
    typename Base::iterator NAME(const Key &key) { \
        spbags_detail::read_argument(key); \
        this->look_at_all(); \
        Paused paused; \
        return this->all.NAME(key); \
    }
#define SPBAGS_BOUNDS SPBAGS_BOUND(lower_bound) SPBAGS_BOUND(upper_bound)

namespace tbb {
inline namespace v1 {

template <class Key, class Value, class Compare = std::less<Key>, class Allocator = cache_aligned_allocator<Key>>
class concurrent_map : public spbags_detail::Mapped<std::map<Key, Value, Compare>, spbags_detail::Ordered_cells<Key, Compare>> {
    using Base = spbags_detail::Mapped<std::map<Key, Value, Compare>, spbags_detail::Ordered_cells<Key, Compare>>;
    using Paused = spbags_detail::Paused;

public:
    SPBAGS_CONTAINER(concurrent_map)
    SPBAGS_BOUNDS
};

template <class Key, class Value, class Compare = std::less<Key>, class Allocator = cache_aligned_allocator<Key>>
class concurrent_multimap : public spbags_detail::Keyed<std::multimap<Key, Value, Compare>, spbags_detail::Ordered_cells<Key, Compare>> {
    using Base = spbags_detail::Keyed<std::multimap<Key, Value, Compare>, spbags_detail::Ordered_cells<Key, Compare>>;
    using Paused = spbags_detail::Paused;

public:
    SPBAGS_CONTAINER(concurrent_multimap)
    SPBAGS_BOUNDS
};

template <class Key, class Compare = std::less<Key>, class Allocator = cache_aligned_allocator<Key>>
class concurrent_set : public spbags_detail::Keyed<std::set<Key, Compare>, spbags_detail::Ordered_cells<Key, Compare>> {
    using Base = spbags_detail::Keyed<std::set<Key, Compare>, spbags_detail::Ordered_cells<Key, Compare>>;
    using Paused = spbags_detail::Paused;

public:
    SPBAGS_CONTAINER(concurrent_set)
    SPBAGS_BOUNDS
};

template <class Key, class Compare = std::less<Key>, class Allocator = cache_aligned_allocator<Key>>
class concurrent_multiset : public spbags_detail::Keyed<std::multiset<Key, Compare>, spbags_detail::Ordered_cells<Key, Compare>> {
    using Base = spbags_detail::Keyed<std::multiset<Key, Compare>, spbags_detail::Ordered_cells<Key, Compare>>;
    using Paused = spbags_detail::Paused;

public:
    SPBAGS_CONTAINER(concurrent_multiset)
    SPBAGS_BOUNDS
};

#undef SPBAGS_BOUNDS
#undef SPBAGS_BOUND

} // namespace v1
} // namespace tbb

#endif
