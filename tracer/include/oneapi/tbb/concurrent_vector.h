#ifndef SPBAGS_TBB_CONCURRENT_VECTOR_H
#define SPBAGS_TBB_CONCURRENT_VECTOR_H
#pragma GCC system_header

#include <algorithm>
#include <iterator>
#include <stdexcept>

#include "blocked_range.h"
#include "cache_aligned_allocator.h"
#include "detail_containers.h"

namespace tbb {
namespace spbags_detail {

/* Elements keep their places: each block is twice as large as the one before. */
template <class Type> class Blocks {
    enum { BITS = 8 * sizeof(std::size_t) };
    Type *blocks[BITS] = {};
    std::size_t count = 0;

    SPBAGS_UNTRACED static int block_of(std::size_t at) { return BITS - 1 - __builtin_clzl(at + 1); }

public:
    SPBAGS_UNTRACED Type *place(std::size_t at) const {
        int block = block_of(at);
        return blocks[block] + (at + 1 - (std::size_t(1) << block));
    }
    /* Room for so many; gives how many there were. */
    SPBAGS_UNTRACED std::size_t grow(std::size_t more) {
        std::size_t was = count;
        count += more;
        for (int block = 0; count > 0 && block <= block_of(count - 1); block++)
            if (!blocks[block])
                blocks[block] = static_cast<Type *>(::operator new(sizeof(Type) << block));
        return was;
    }
    SPBAGS_UNTRACED std::size_t size() const { return count; }
    SPBAGS_UNTRACED void shrink(std::size_t to) { count = to; }
    SPBAGS_UNTRACED void swap(Blocks &other) { std::swap(blocks, other.blocks), std::swap(count, other.count); }
};

template <class Vector, class Value> class Place {
    Vector *vector = nullptr;
    std::size_t at = 0;
    template <class, class> friend class Place;

public:
    using iterator_category = std::random_access_iterator_tag;
    using value_type = typename std::remove_const<Value>::type;
    using difference_type = std::ptrdiff_t;
    using pointer = Value *;
    using reference = Value &;

    Place() {}
    Place(Vector *of, std::size_t number) : vector(of), at(number) {}
    template <class Other, class Type, class = typename std::enable_if<std::is_convertible<Type *, Value *>::value>::type>
    Place(const Place<Other, Type> &other) : vector(other.vector), at(other.at) {}
    reference operator*() const { return (*vector)[at]; }
    pointer operator->() const { return &(*vector)[at]; }
    reference operator[](difference_type number) const { return (*vector)[at + number]; }
    Place &operator++() { return ++at, *this; }
    Place &operator--() { return --at, *this; }
    Place operator++(int) { return Place(vector, at++); }
    Place operator--(int) { return Place(vector, at--); }
    Place &operator+=(difference_type more) { return at += more, *this; }
    Place &operator-=(difference_type less) { return at -= less, *this; }
    friend Place operator+(Place place, difference_type more) { return place += more; }
    friend Place operator+(difference_type more, Place place) { return place += more; }
    friend Place operator-(Place place, difference_type less) { return place -= less; }
    template <class O, class T> difference_type operator-(const Place<O, T> &other) const {
        return static_cast<difference_type>(at) - static_cast<difference_type>(other.at);
    }
    template <class O, class T> bool operator==(const Place<O, T> &other) const { return at == other.at; }
    template <class O, class T> bool operator!=(const Place<O, T> &other) const { return at != other.at; }
    template <class O, class T> bool operator<(const Place<O, T> &other) const { return at < other.at; }
    template <class O, class T> bool operator>(const Place<O, T> &other) const { return at > other.at; }
    template <class O, class T> bool operator<=(const Place<O, T> &other) const { return at <= other.at; }
    template <class O, class T> bool operator>=(const Place<O, T> &other) const { return at >= other.at; }
};

/* A range of a container's elements, for the algorithms. */
template <class Iterator> class Elements : public blocked_range<Iterator> {
public:
    using iterator = Iterator;
    using value_type = typename std::iterator_traits<Iterator>::value_type;
    using reference = typename std::iterator_traits<Iterator>::reference;
    using difference_type = typename std::iterator_traits<Iterator>::difference_type;
    Elements(Iterator first, Iterator last, std::size_t grain = 1) : blocked_range<Iterator>(first, last, grain) {}
    Elements(Elements &other, split) : blocked_range<Iterator>(other, split()) {}
};

} // namespace spbags_detail

inline namespace v1 {

template <class Type, class Allocator = cache_aligned_allocator<Type>> class concurrent_vector {
    spbags_detail::Blocks<Type> blocks;
    mutable spbags_detail::State state;

    static const char *name() { return "the concurrent_vector "; }
    std::size_t grow(std::size_t more) {
        spbags_detail::Held held(this, name());
        state.read();
        if (more > 0)
            state.write();
        return blocks.grow(more);
    }
    void end_from(std::size_t size) {
        state.write();
        for (std::size_t at = blocks.size(); at > size; at--)
            blocks.place(at - 1)->~Type();
        blocks.shrink(size);
    }

public:
    using value_type = Type;
    using size_type = std::size_t;
    using difference_type = std::ptrdiff_t;
    using allocator_type = Allocator;
    using reference = Type &;
    using const_reference = const Type &;
    using pointer = Type *;
    using const_pointer = const Type *;
    using iterator = spbags_detail::Place<concurrent_vector, Type>;
    using const_iterator = spbags_detail::Place<const concurrent_vector, const Type>;
    using reverse_iterator = std::reverse_iterator<iterator>;
    using const_reverse_iterator = std::reverse_iterator<const_iterator>;
    using range_type = spbags_detail::Elements<iterator>;
    using const_range_type = spbags_detail::Elements<const_iterator>;

    concurrent_vector() {}
    explicit concurrent_vector(const Allocator &) {}
    explicit concurrent_vector(size_type count) { grow_by(count); }
    concurrent_vector(size_type count, const Type &value) { grow_by(count, value); }
    template <class Input, class = typename std::iterator_traits<Input>::iterator_category>
    concurrent_vector(Input first, Input last) { grow_by(first, last); }
    concurrent_vector(std::initializer_list<Type> values) { grow_by(values); }
    concurrent_vector(const concurrent_vector &other) { grow_by(other.begin(), other.end()); }
    concurrent_vector(concurrent_vector &&other) { swap(other); }
    ~concurrent_vector() { end_from(0); }
    concurrent_vector &operator=(const concurrent_vector &other) {
        if (this != &other)
            assign(other.begin(), other.end());
        return *this;
    }
    concurrent_vector &operator=(concurrent_vector &&other) {
        end_from(0);
        swap(other);
        return *this;
    }
    concurrent_vector &operator=(std::initializer_list<Type> values) {
        assign(values.begin(), values.end());
        return *this;
    }
    template <class Input, class = typename std::iterator_traits<Input>::iterator_category>
    void assign(Input first, Input last) {
        end_from(0);
        grow_by(first, last);
    }
    void assign(size_type count, const Type &value) {
        end_from(0);
        grow_by(count, value);
    }

    /* ---- Side by side with others ---- */

    template <class... Arguments> iterator emplace_back(Arguments &&...arguments) {
        std::size_t at = grow(1);
        new (blocks.place(at)) Type(std::forward<Arguments>(arguments)...);
        return iterator(this, at);
    }
    iterator push_back(const Type &value) { return emplace_back(value); }
    iterator push_back(Type &&value) { return emplace_back(std::move(value)); }
    iterator grow_by(size_type count) {
        std::size_t first = grow(count);
        for (std::size_t at = first; at < first + count; at++)
            new (blocks.place(at)) Type();
        return iterator(this, first);
    }
    iterator grow_by(size_type count, const Type &value) {
        std::size_t first = grow(count);
        for (std::size_t at = first; at < first + count; at++)
            new (blocks.place(at)) Type(value);
        return iterator(this, first);
    }
    template <class Input, class = typename std::iterator_traits<Input>::iterator_category>
    iterator grow_by(Input first, Input last) {
        std::size_t from = grow(static_cast<std::size_t>(std::distance(first, last))), at = from;
        for (; first != last; ++first)
            new (blocks.place(at++)) Type(*first);
        return iterator(this, from);
    }
    iterator grow_by(std::initializer_list<Type> values) { return grow_by(values.begin(), values.end()); }
    iterator grow_to_at_least(size_type count) {
        std::size_t had = size();
        return had < count ? grow_by(count - had) : iterator(this, had);
    }
    iterator grow_to_at_least(size_type count, const Type &value) {
        std::size_t had = size();
        return had < count ? grow_by(count - had, value) : iterator(this, had);
    }
    reference operator[](size_type at) { return *blocks.place(at); }
    const_reference operator[](size_type at) const { return *blocks.place(at); }
    reference at(size_type at) {
        if (at >= size())
            throw std::out_of_range("tbb::concurrent_vector::at");
        return *blocks.place(at);
    }
    const_reference at(size_type at) const { return const_cast<concurrent_vector *>(this)->at(at); }
    reference front() { return *blocks.place(0); }
    const_reference front() const { return *blocks.place(0); }
    reference back() { return *blocks.place(size() - 1); }
    const_reference back() const { return *blocks.place(size() - 1); }
    size_type size() const {
        spbags_detail::Held held(this, name());
        state.read();
        return blocks.size();
    }
    bool empty() const { return size() == 0; }
    size_type capacity() const { return blocks.size(); }
    size_type max_size() const { return ~size_type(0) / sizeof(Type); }
    iterator begin() { return iterator(this, 0); }
    iterator end() { return iterator(this, size()); }
    const_iterator begin() const { return const_iterator(this, 0); }
    const_iterator end() const { return const_iterator(this, size()); }
    const_iterator cbegin() const { return begin(); }
    const_iterator cend() const { return end(); }
    reverse_iterator rbegin() { return reverse_iterator(end()); }
    reverse_iterator rend() { return reverse_iterator(begin()); }
    const_reverse_iterator rbegin() const { return const_reverse_iterator(end()); }
    const_reverse_iterator rend() const { return const_reverse_iterator(begin()); }
    range_type range(size_type grain = 1) { return range_type(begin(), end(), grain); }
    const_range_type range(size_type grain = 1) const { return const_range_type(begin(), end(), grain); }

    /* ---- Alone ---- */

    void reserve(size_type) {}
    void shrink_to_fit() {}
    void clear() { end_from(0); }
    void resize(size_type count) { count < blocks.size() ? end_from(count) : void(grow_by(count - blocks.size())); }
    void resize(size_type count, const Type &value) {
        count < blocks.size() ? end_from(count) : void(grow_by(count - blocks.size(), value));
    }
    void swap(concurrent_vector &other) {
        state.write();
        other.state.write();
        blocks.swap(other.blocks);
    }
    allocator_type get_allocator() const { return allocator_type(); }
};

template <class Type, class A, class B>
bool operator==(const concurrent_vector<Type, A> &one, const concurrent_vector<Type, B> &other) {
    return one.size() == other.size() && std::equal(one.begin(), one.end(), other.begin());
}
template <class Type, class A, class B>
bool operator!=(const concurrent_vector<Type, A> &one, const concurrent_vector<Type, B> &other) {
    return !(one == other);
}

} // namespace v1
} // namespace tbb

#endif
