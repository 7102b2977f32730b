#ifndef SPBAGS_TBB_CONCURRENT_QUEUE_H
#define SPBAGS_TBB_CONCURRENT_QUEUE_H
#pragma GCC system_header

#include <queue>
#include <unistd.h>
#include <vector>

#include "cache_aligned_allocator.h"
#include "detail_containers.h"

namespace tbb {
namespace spbags_detail {

/* All operations on a queue may change what the others give. */
template <class Type, class Queue> class Queued {
protected:
    Queue elements;
    mutable State state;
    const char *name;

    explicit Queued(const char *called) : name(called) {}
    Queued(const char *called, Queue &&filled) : elements(std::move(filled)), name(called) {}

    std::size_t count() const {
        Paused paused;
        return elements.size();
    }
    template <class... Arguments> void add(Arguments &&...arguments) {
        Held held(this, name);
        state.read();
        state.write();
        read_arguments(arguments...);
        Paused paused;
        elements.emplace(std::forward<Arguments>(arguments)...);
    }
    static Type &next(std::queue<Type> &queue) { return queue.front(); }
    template <class Other> static Type &next(Other &queue) { return const_cast<Type &>(queue.top()); }
    bool take(Type &to) {
        Held held(this, name);
        state.read();
        if (count() == 0)
            return false;
        state.write();
        __spbags_touch(&to, sizeof to, 1);
        Paused paused;
        to = std::move(next(elements));
        elements.pop();
        return true;
    }

public:
    using value_type = Type;
    using size_type = std::size_t;
    using difference_type = std::ptrdiff_t;
    using reference = Type &;
    using const_reference = const Type &;

    std::size_t look_at_size() const {
        Held held(this, name);
        state.read();
        return count();
    }
    bool empty() const { return look_at_size() == 0; }
    void clear() {
        state.write();
        Paused paused;
        elements = Queue();
    }
};

} // namespace spbags_detail

inline namespace v1 {

template <class Type, class Allocator = cache_aligned_allocator<Type>>
class concurrent_queue : public spbags_detail::Queued<Type, std::queue<Type>> {
    using Base = spbags_detail::Queued<Type, std::queue<Type>>;

public:
    using allocator_type = Allocator;
    concurrent_queue() : Base("the concurrent_queue ") {}
    template <class Input> concurrent_queue(Input first, Input last) : concurrent_queue() {
        for (; first != last; ++first)
            push(*first);
    }
    void push(const Type &value) { this->add(value); }
    void push(Type &&value) { this->add(std::move(value)); }
    template <class... Arguments> void emplace(Arguments &&...arguments) {
        this->add(Type(std::forward<Arguments>(arguments)...));
    }
    bool try_pop(Type &to) { return this->take(to); }
    std::size_t unsafe_size() const { return this->look_at_size(); }
};

template <class Type, class Allocator = cache_aligned_allocator<Type>>
class concurrent_bounded_queue : public spbags_detail::Queued<Type, std::queue<Type>> {
    using Base = spbags_detail::Queued<Type, std::queue<Type>>;
    std::ptrdiff_t most = ~std::size_t(0) / 2 / sizeof(void *);

    bool is_full() const { return static_cast<std::ptrdiff_t>(this->count()) >= most; }
    /* In a serial run nobody comes. */
    static void wait_for_ever() {
        __spbags_endless_wait();
        for (;;)
            ::pause();
    }

public:
    using size_type = std::ptrdiff_t;
    using allocator_type = Allocator;
    concurrent_bounded_queue() : Base("the concurrent_bounded_queue ") {}
    void push(const Type &value) {
        if (is_full())
            wait_for_ever();
        this->add(value);
    }
    void push(Type &&value) {
        if (is_full())
            wait_for_ever();
        this->add(std::move(value));
    }
    template <class... Arguments> void emplace(Arguments &&...arguments) {
        push(Type(std::forward<Arguments>(arguments)...));
    }
    bool try_push(const Type &value) {
        bool fits = !is_full();
        if (fits)
            this->add(value);
        return fits;
    }
    bool try_push(Type &&value) {
        bool fits = !is_full();
        if (fits)
            this->add(std::move(value));
        return fits;
    }
    void pop(Type &to) {
        if (!this->take(to))
            wait_for_ever();
    }
    bool try_pop(Type &to) { return this->take(to); }
    size_type size() const { return static_cast<size_type>(this->look_at_size()); }
    size_type capacity() const { return most; }
    void set_capacity(size_type number) { most = number; }
    void abort() {}
};

template <class Type, class Compare = std::less<Type>, class Allocator = cache_aligned_allocator<Type>>
class concurrent_priority_queue
    : public spbags_detail::Queued<Type, std::priority_queue<Type, std::vector<Type>, Compare>> {
    using Queue = std::priority_queue<Type, std::vector<Type>, Compare>;
    using Base = spbags_detail::Queued<Type, Queue>;

public:
    using allocator_type = Allocator;
    concurrent_priority_queue() : Base("the concurrent_priority_queue ") {}
    explicit concurrent_priority_queue(std::size_t) : concurrent_priority_queue() {}
    explicit concurrent_priority_queue(const Compare &compare)
        : Base("the concurrent_priority_queue ", Queue(compare)) {}
    concurrent_priority_queue(std::size_t, const Compare &compare) : concurrent_priority_queue(compare) {}
    template <class Input> concurrent_priority_queue(Input first, Input last) : concurrent_priority_queue() {
        for (; first != last; ++first)
            push(*first);
    }
    void push(const Type &value) { this->add(value); }
    void push(Type &&value) { this->add(std::move(value)); }
    template <class... Arguments> void emplace(Arguments &&...arguments) {
        this->add(Type(std::forward<Arguments>(arguments)...));
    }
    bool try_pop(Type &to) { return this->take(to); }
    std::size_t size() const { return this->look_at_size(); }
};

} // namespace v1
} // namespace tbb

#endif
