#ifndef SPBAGS_TBB_ALLOCATORS_H
#define SPBAGS_TBB_ALLOCATORS_H
#pragma GCC system_header

#include <cstddef>
#include <cstdlib>
#include <memory>
#include <new>
#include <utility>

#include "detail_split.h"

extern "C" {
static inline __attribute__((unused)) void *scalable_malloc(std::size_t size) { return std::malloc(size); }
static inline __attribute__((unused)) void scalable_free(void *block) { std::free(block); }
static inline __attribute__((unused)) void *scalable_realloc(void *block, std::size_t size) {
    return std::realloc(block, size);
}
static inline __attribute__((unused)) void *scalable_calloc(std::size_t count, std::size_t size) {
    return std::calloc(count, size);
}
static inline __attribute__((unused)) void *scalable_aligned_malloc(std::size_t size, std::size_t alignment) {
    void *block = nullptr;
    return posix_memalign(&block, alignment, size) == 0 ? block : nullptr;
}
static inline __attribute__((unused)) void scalable_aligned_free(void *block) { std::free(block); }
}

namespace tbb {
inline namespace v1 {

/* Blocks that share no cache line; memory never comes again here. */
template <class Type> class cache_aligned_allocator {
public:
    using value_type = Type;
    using propagate_on_container_move_assignment = std::true_type;
    using is_always_equal = std::true_type;

    cache_aligned_allocator() {}
    template <class Other> cache_aligned_allocator(const cache_aligned_allocator<Other> &) {}
    Type *allocate(std::size_t count) {
        enum { LINE = 128 };
        void *block = nullptr;
        if (posix_memalign(&block, LINE, count * sizeof(Type)) != 0)
            throw std::bad_alloc();
        return static_cast<Type *>(block);
    }
    void deallocate(Type *block, std::size_t) { std::free(block); }
    std::size_t max_size() const { return ~std::size_t(0) / sizeof(Type); }
    template <class Other> bool operator==(const cache_aligned_allocator<Other> &) const { return true; }
    template <class Other> bool operator!=(const cache_aligned_allocator<Other> &) const { return false; }
};

template <class Type> using scalable_allocator = cache_aligned_allocator<Type>;

template <class Type> class tbb_allocator : public cache_aligned_allocator<Type> {
public:
    enum malloc_type { scalable, standard };
    tbb_allocator() {}
    template <class Other> tbb_allocator(const tbb_allocator<Other> &) {}
    template <class Other> struct rebind { using other = tbb_allocator<Other>; };
    static malloc_type allocator_type() { return standard; }
};

} // namespace v1
} // namespace tbb

#endif
