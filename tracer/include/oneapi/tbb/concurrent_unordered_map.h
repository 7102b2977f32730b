#ifndef SPBAGS_TBB_CONCURRENT_UNORDERED_H
#define SPBAGS_TBB_CONCURRENT_UNORDERED_H
#pragma GCC system_header

#include "detail_keyed.h"

namespace tbb {
inline namespace v1 {

template <class Key, class Value, class Hash = std::hash<Key>, class Equal = std::equal_to<Key>,
          class Allocator = cache_aligned_allocator<std::pair<const Key, Value>>>
class concurrent_unordered_map : public spbags_detail::Mapped<std::unordered_map<Key, Value, Hash, Equal>,
                                                              spbags_detail::Hashed_cells<Key, Hash, Equal>> {
    using Base = spbags_detail::Mapped<std::unordered_map<Key, Value, Hash, Equal>,
                                       spbags_detail::Hashed_cells<Key, Hash, Equal>>;
    using Paused = spbags_detail::Paused;

public:
    using hasher = Hash;
    using key_equal = Equal;
    SPBAGS_CONTAINER(concurrent_unordered_map)
    explicit concurrent_unordered_map(std::size_t count, const Hash &hash = Hash(), const Equal &equal = Equal())
        : Base("the concurrent_unordered_map ", std::unordered_map<Key, Value, Hash, Equal>(count, hash, equal),
               spbags_detail::Hashed_cells<Key, Hash, Equal>(count, hash, equal)) {}
};

template <class Key, class Value, class Hash = std::hash<Key>, class Equal = std::equal_to<Key>,
          class Allocator = cache_aligned_allocator<std::pair<const Key, Value>>>
class concurrent_unordered_multimap : public spbags_detail::Keyed<std::unordered_multimap<Key, Value, Hash, Equal>,
                                                                  spbags_detail::Hashed_cells<Key, Hash, Equal>> {
    using Base = spbags_detail::Keyed<std::unordered_multimap<Key, Value, Hash, Equal>,
                                      spbags_detail::Hashed_cells<Key, Hash, Equal>>;
    using Paused = spbags_detail::Paused;

public:
    using mapped_type = Value;
    SPBAGS_CONTAINER(concurrent_unordered_multimap)
};

template <class Key, class Hash = std::hash<Key>, class Equal = std::equal_to<Key>,
          class Allocator = cache_aligned_allocator<Key>>
class concurrent_unordered_set : public spbags_detail::Keyed<std::unordered_set<Key, Hash, Equal>,
                                                             spbags_detail::Hashed_cells<Key, Hash, Equal>> {
    using Base = spbags_detail::Keyed<std::unordered_set<Key, Hash, Equal>,
                                      spbags_detail::Hashed_cells<Key, Hash, Equal>>;
    using Paused = spbags_detail::Paused;

public:
    using hasher = Hash;
    using key_equal = Equal;
    SPBAGS_CONTAINER(concurrent_unordered_set)
    explicit concurrent_unordered_set(std::size_t count, const Hash &hash = Hash(), const Equal &equal = Equal())
        : Base("the concurrent_unordered_set ", std::unordered_set<Key, Hash, Equal>(count, hash, equal),
               spbags_detail::Hashed_cells<Key, Hash, Equal>(count, hash, equal)) {}
};

template <class Key, class Hash = std::hash<Key>, class Equal = std::equal_to<Key>,
          class Allocator = cache_aligned_allocator<Key>>
class concurrent_unordered_multiset : public spbags_detail::Keyed<std::unordered_multiset<Key, Hash, Equal>,
                                                                  spbags_detail::Hashed_cells<Key, Hash, Equal>> {
    using Base = spbags_detail::Keyed<std::unordered_multiset<Key, Hash, Equal>,
                                      spbags_detail::Hashed_cells<Key, Hash, Equal>>;
    using Paused = spbags_detail::Paused;

public:
    SPBAGS_CONTAINER(concurrent_unordered_multiset)
};

} // namespace v1
} // namespace tbb

#endif
