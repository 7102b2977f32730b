#ifndef SPBAGS_TBB_CONCURRENT_HASH_MAP_H
#define SPBAGS_TBB_CONCURRENT_HASH_MAP_H
#pragma GCC system_header

#include "detail_keyed.h"

namespace tbb {
inline namespace v1 {

template <class Key> struct tbb_hash_compare {
    std::size_t hash(const Key &key) const { return std::hash<Key>()(key); }
    bool equal(const Key &one, const Key &other) const { return one == other; }
};

} // namespace v1

namespace spbags_detail {

template <class Key, class Compare> struct Hash_of {
    Compare compare;
    std::size_t operator()(const Key &key) const { return compare.hash(key); }
};
template <class Key, class Compare> struct Equal_of {
    Compare compare;
    bool operator()(const Key &one, const Key &other) const { return compare.equal(one, other); }
};

/* An element, which an accessor holds. */
template <class Key, class Value> struct Element {
    std::pair<const Key, Value> pair;
    Two_kinds kinds;
    template <class... Arguments> explicit Element(const Key &key, Arguments &&...arguments)
        : pair(std::piecewise_construct, std::forward_as_tuple(key),
               std::forward_as_tuple(std::forward<Arguments>(arguments)...)) {}
};

/* Goes through the elements of a table. */
template <class Inner, class Pair> struct Pair_iterator : Inner {
    using value_type = Pair;
    using reference = Pair &;
    using pointer = Pair *;
    Pair_iterator() {}
    Pair_iterator(Inner inner) : Inner(inner) {}
    template <class Other, class Type> Pair_iterator(const Pair_iterator<Other, Type> &other) : Inner(other) {}
    reference operator*() const { return Inner::operator*().second->pair; }
    pointer operator->() const { return &**this; }
    Pair_iterator &operator++() { return Inner::operator++(), *this; }
    Pair_iterator operator++(int) {
        Pair_iterator was(*this);
        ++*this;
        return was;
    }
};

} // namespace spbags_detail

inline namespace v1 {

template <class Key, class Value, class Compare = tbb_hash_compare<Key>,
          class Allocator = cache_aligned_allocator<std::pair<const Key, Value>>>
class concurrent_hash_map
    : protected spbags_detail::Keyed<
          std::unordered_map<Key, std::shared_ptr<spbags_detail::Element<Key, Value>>, spbags_detail::Hash_of<Key, Compare>,
                             spbags_detail::Equal_of<Key, Compare>>,
          spbags_detail::Hashed_cells<Key, spbags_detail::Hash_of<Key, Compare>, spbags_detail::Equal_of<Key, Compare>>> {
    using Hash = spbags_detail::Hash_of<Key, Compare>;
    using Equal = spbags_detail::Equal_of<Key, Compare>;
    using Element = spbags_detail::Element<Key, Value>;
    using Std = std::unordered_map<Key, std::shared_ptr<Element>, Hash, Equal>;
    using Cells = spbags_detail::Hashed_cells<Key, Hash, Equal>;
    using Base = spbags_detail::Keyed<Std, Cells>;
    using Held = spbags_detail::Held;
    using Paused = spbags_detail::Paused;

public:
    using key_type = Key;
    using mapped_type = Value;
    using value_type = std::pair<const Key, Value>;
    using size_type = std::size_t;
    using difference_type = std::ptrdiff_t;
    using reference = value_type &;
    using const_reference = const value_type &;
    using iterator = spbags_detail::Pair_iterator<typename Std::iterator, value_type>;
    using const_iterator = spbags_detail::Pair_iterator<typename Std::const_iterator, const value_type>;
    using range_type = spbags_detail::Parts<iterator>;
    using const_range_type = spbags_detail::Parts<const_iterator>;

    class const_accessor {
        friend class concurrent_hash_map;
        Element *element = nullptr;

    protected:
        bool writes = false;

        void take(Element *which) {
            release();
            which->kinds.take(writes, "an accessor of the element");
            element = which;
        }
        std::pair<const Key, Value> &pair() const { return element->pair; }

    public:
        using value_type = const std::pair<const Key, Value>;
        const_accessor() {}
        const_accessor(const const_accessor &) = delete;
        const_accessor &operator=(const const_accessor &) = delete;
        ~const_accessor() { release(); }
        bool empty() const { return !element; }
        void release() {
            if (element)
                element->kinds.give(writes);
            element = nullptr;
        }
        value_type &operator*() const { return pair(); }
        value_type *operator->() const { return &pair(); }
    };
    class accessor : public const_accessor {
    public:
        using value_type = std::pair<const Key, Value>;
        accessor() { this->writes = true; }
        value_type &operator*() const { return this->pair(); }
        value_type *operator->() const { return &this->pair(); }
    };

    concurrent_hash_map() : Base("the concurrent_hash_map ") {}
    explicit concurrent_hash_map(const Allocator &) : concurrent_hash_map() {}
    explicit concurrent_hash_map(const Compare &compare)
        : Base("the concurrent_hash_map ", Std(0, Hash{compare}, Equal{compare}), Cells(0, Hash{compare}, Equal{compare})) {
    }
    explicit concurrent_hash_map(size_type, const Compare &compare = Compare()) : concurrent_hash_map(compare) {}
    template <class Input, class = typename std::iterator_traits<Input>::iterator_category>
    concurrent_hash_map(Input first, Input last) : concurrent_hash_map() { insert(first, last); }
    concurrent_hash_map(std::initializer_list<value_type> values) : concurrent_hash_map() {
        insert(values.begin(), values.end());
    }
    concurrent_hash_map(const concurrent_hash_map &other) : concurrent_hash_map() { insert(other.begin(), other.end()); }
    concurrent_hash_map &operator=(const concurrent_hash_map &other) {
        if (this != &other) {
            clear();
            insert(other.begin(), other.end());
        }
        return *this;
    }

    /* ---- Side by side with others ---- */

    bool insert(accessor &to, const Key &key) { return put(&to, key); }
    bool insert(const_accessor &to, const Key &key) { return put(&to, key); }
    bool insert(accessor &to, const value_type &value) { return put(&to, value.first, value.second); }
    bool insert(const_accessor &to, const value_type &value) { return put(&to, value.first, value.second); }
    bool insert(const value_type &value) { return put(nullptr, value.first, value.second); }
    template <class Input, class = typename std::iterator_traits<Input>::iterator_category>
    void insert(Input first, Input last) {
        for (; first != last; ++first)
            insert(*first);
    }
    template <class First, class... Arguments> bool emplace(accessor &to, First &&key, Arguments &&...arguments) {
        return put(&to, Key(std::forward<First>(key)), std::forward<Arguments>(arguments)...);
    }
    template <class First, class... Arguments> bool emplace(First &&key, Arguments &&...arguments) {
        return put(nullptr, Key(std::forward<First>(key)), std::forward<Arguments>(arguments)...);
    }
    bool find(accessor &to, const Key &key) { return get(to, key); }
    bool find(const_accessor &to, const Key &key) const { return const_cast<concurrent_hash_map *>(this)->get(to, key); }
    size_type count(const Key &key) const { return Base::count(key); }
    bool erase(const Key &key) {
        this->look(key);
        Element *found = element_of(key);
        return found && remove(key, found);
    }
    bool erase(accessor &from) { return erase_held(from); }
    bool erase(const_accessor &from) { return erase_held(from); }
    size_type size() const { return Base::size(); }
    bool empty() const { return Base::empty(); }
    size_type max_size() const { return ~size_type(0); }
    size_type bucket_count() const { return Base::count(); }

    /* ---- Alone ---- */

    iterator begin() { return iterator(Base::begin()); }
    iterator end() { return iterator(Base::end()); }
    const_iterator begin() const { return const_iterator(Base::begin()); }
    const_iterator end() const { return const_iterator(Base::end()); }
    range_type range(size_type = 1) { return range_type(begin(), end(), Base::count()); }
    const_range_type range(size_type = 1) const { return const_range_type(begin(), end(), Base::count()); }
    void clear() { Base::clear(); }
    void rehash(size_type = 0) {}
    void swap(concurrent_hash_map &other) {
        this->touch_all(1);
        other.touch_all(1);
        Paused paused;
        std::swap(this->all, other.all);
    }

private:
    Element *element_of(const Key &key) const {
        Paused paused;
        auto found = this->all.find(key);
        return found == this->all.end() ? nullptr : found->second.get();
    }
    template <class... Arguments> bool put(const_accessor *to, const Key &key, Arguments &&...arguments) {
        spbags_detail::read_arguments(arguments...);
        this->look(key);
        Element *found = element_of(key);
        bool is_new = !found;
        if (is_new) {
            Held held(this, this->name);
            this->touch(key, 1);
            Paused paused;
            found = new Element(key, std::forward<Arguments>(arguments)...);
            this->all.emplace(key, std::shared_ptr<Element>(found));
        }
        if (to)
            to->take(found);
        return is_new;
    }
    bool get(const_accessor &to, const Key &key) {
        this->look(key);
        Element *found = element_of(key);
        to.release();
        if (found)
            to.take(found);
        return found != nullptr;
    }
    bool remove(const Key &key, Element *) {
        Held held(this, this->name);
        this->touch(key, 1);
        Paused paused;
        return this->all.erase(key) > 0;
    }
    bool erase_held(const_accessor &from) {
        Element *element = from.element;
        from.release();
        Key key(element->pair.first);
        return remove(key, element);
    }
};

} // namespace v1
} // namespace tbb

#endif
