/* What each thread has of its own. Any tasks may be of one thread or of two, so what one child touches there races with
   nothing that another one does; and what is gathered at the end are the values of all. Here each child of the program's
   that asks has a value of its own. */
#ifndef SPBAGS_TBB_THREAD_SPECIFIC_H
#define SPBAGS_TBB_THREAD_SPECIFIC_H
#pragma GCC system_header

#include <deque>
#include <functional>
#include <iterator>
#include <unordered_map>
#include <vector>

#include "blocked_range.h"
#include "cache_aligned_allocator.h"
#include "detail_containers.h"

extern "C" unsigned long __spbags_child_number(void);

namespace tbb {
namespace spbags_detail {

/* The value of a child, by the number that no other child has. */
template <class Type> class Own_values {
protected:
    struct Own {
        unsigned long child;
        Type value;
        template <class Made> Own(unsigned long of, Made &&made) : child(of), value(std::forward<Made>(made)) {}
    };
    using Stored = std::deque<std::unique_ptr<Own>>;
    Stored values;
    std::unordered_map<unsigned long, Own *> by_child;
    std::function<Type()> make;

    explicit Own_values(std::function<Type()> by) : make(std::move(by)) {}

    Own *find(unsigned long child) const {
        Paused paused;
        auto found = by_child.find(child);
        return found == by_child.end() ? nullptr : found->second;
    }
    void copy(const Own_values &other) {
        for (auto &own : other.values) {
            values.emplace_back(new Own(own->child, own->value));
            by_child.emplace(own->child, values.back().get());
        }
    }
    /* The value is made by the program's own code, which is seen. */
    Type &local_value(bool &exists) {
        unsigned long child = __spbags_child_number();
        Own *own = find(child);
        exists = own != nullptr;
        if (!own) {
            own = new Own(child, make());
            Paused paused;
            values.emplace_back(own);
            by_child.emplace(child, own);
        }
        return own->value;
    }

public:
    Own_values(const Own_values &other) : make(other.make) {
        copy(other);
    }
    Own_values &operator=(const Own_values &other) {
        if (this != &other) {
            clear();
            copy(other);
        }
        return *this;
    }
    Type &local() {
        bool exists;
        return local_value(exists);
    }
    Type &local(bool &exists) { return local_value(exists); }
    void clear() {
        Paused paused;
        values.clear();
        by_child.clear();
    }
    template <class Join> Type combine(Join join) {
        if (values.empty())
            return make();
        Type all = values[0]->value;
        for (std::size_t at = 1; at < values.size(); at++)
            all = join(all, values[at]->value);
        return all;
    }
    template <class Function> void combine_each(Function function) {
        for (auto &own : values)
            function(own->value);
    }
};

} // namespace spbags_detail

inline namespace v1 {

template <class Type> class combinable : public spbags_detail::Own_values<Type> {
    using Base = spbags_detail::Own_values<Type>;

public:
    combinable() : Base([] { return Type(); }) {}
    template <class Make, class = decltype(std::declval<Make &>()())> explicit combinable(Make make) : Base(make) {}
};

enum ets_key_usage_type { ets_key_per_instance, ets_no_key, ets_suspend_aware };

template <class Type, class Allocator = cache_aligned_allocator<Type>, ets_key_usage_type = ets_no_key>
class enumerable_thread_specific : public spbags_detail::Own_values<Type> {
    using Base = spbags_detail::Own_values<Type>;

    template <class Inner, class Value> struct Values : Inner {
        using value_type = Type;
        using reference = Value &;
        using pointer = Value *;
        Values() {}
        Values(Inner inner) : Inner(inner) {}
        template <class Other, class Else> Values(const Values<Other, Else> &other) : Inner(other) {}
        reference operator*() const { return Inner::operator*()->value; }
        pointer operator->() const { return &**this; }
    };

public:
    using value_type = Type;
    using reference = Type &;
    using const_reference = const Type &;
    using pointer = Type *;
    using size_type = std::size_t;
    using difference_type = std::ptrdiff_t;
    using iterator = Values<typename Base::Stored::iterator, Type>;
    using const_iterator = Values<typename Base::Stored::const_iterator, const Type>;
    using range_type = blocked_range<iterator>;

    enumerable_thread_specific() : Base([] { return Type(); }) {}
    template <class Make, class = decltype(static_cast<Type>(std::declval<Make &>()()))>
    explicit enumerable_thread_specific(Make make) : Base(make) {}
    explicit enumerable_thread_specific(const Type &value) : Base([value] { return value; }) {}
    explicit enumerable_thread_specific(Type &&value) : Base([value] { return value; }) {}
    size_type size() const { return this->values.size(); }
    bool empty() const { return this->values.empty(); }
    iterator begin() { return this->values.begin(); }
    iterator end() { return this->values.end(); }
    const_iterator begin() const { return this->values.begin(); }
    const_iterator end() const { return this->values.end(); }
};

/* All elements of containers in a container. */
template <class Container> class flattened2d {
    using Inner = typename Container::value_type;
    Container &outer;
    std::vector<typename Inner::value_type *> places;

public:
    using value_type = typename Inner::value_type;
    explicit flattened2d(Container &of) : outer(of) {
        for (auto &inner : outer)
            for (auto &value : inner)
                places.push_back(&value);
    }
    struct iterator {
        using iterator_category = std::forward_iterator_tag;
        using value_type = typename Inner::value_type;
        using difference_type = std::ptrdiff_t;
        using pointer = value_type *;
        using reference = value_type &;
        typename std::vector<value_type *>::iterator at;
        reference operator*() const { return **at; }
        pointer operator->() const { return *at; }
        iterator &operator++() { return ++at, *this; }
        iterator operator++(int) { return iterator{at++}; }
        bool operator==(const iterator &other) const { return at == other.at; }
        bool operator!=(const iterator &other) const { return at != other.at; }
    };
    iterator begin() { return iterator{places.begin()}; }
    iterator end() { return iterator{places.end()}; }
    std::size_t size() const { return places.size(); }
};
template <class Container> flattened2d<Container> flatten2d(Container &container) {
    return flattened2d<Container>(container);
}

} // namespace v1
} // namespace tbb

#endif
