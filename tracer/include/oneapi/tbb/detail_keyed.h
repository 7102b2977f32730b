/* The containers of keys, upon those of the library. */
#ifndef SPBAGS_TBB_KEYED_H
#define SPBAGS_TBB_KEYED_H
#pragma GCC system_header

#include <map>
#include <set>
#include <unordered_map>
#include <unordered_set>

#include "blocked_range.h"
#include "cache_aligned_allocator.h"
#include "detail_containers.h"

namespace tbb {
namespace spbags_detail {

template <class Key, class Value> const Key &key_of(const std::pair<const Key, Value> &element, const Key *) {
    return element.first;
}
template <class Key> const Key &key_of(const Key &element, const Key *) { return element; }

/* Parts of a container are single elements. */
template <class Iterator> class Parts {
    Iterator first, last;
    std::size_t count;

public:
    using iterator = Iterator;
    Parts(Iterator from, Iterator to, std::size_t number) : first(from), last(to), count(number) {}
    Parts(Parts &other, split) : first(std::next(other.first, other.count / 2)), last(other.last), count(other.count - other.count / 2) {
        other.last = first;
        other.count /= 2;
    }
    Iterator begin() const { return first; }
    Iterator end() const { return last; }
    bool empty() const { return count == 0; }
    bool is_divisible() const { return count > 1; }
    std::size_t grainsize() const { return 1; }
};

/* STD is the library's container, and CELLS its map from a key to the number of what says whether the key is there. */
template <class Std, class Cells> class Keyed {
protected:
    Std all;
    mutable Cells cells;
    mutable Presence presence;
    const char *name;

    explicit Keyed(const char *called) : name(called) {}
    Keyed(const char *called, Std &&with, Cells &&numbers)
        : all(std::move(with)), cells(std::move(numbers)), name(called) {}

    using Key = typename Std::key_type;
    /* What an insertion gives: a place, and of containers that have each key once whether it is new. */
    using Made = decltype(std::declval<Std &>().insert(std::declval<const typename Std::value_type &>()));

    unsigned char *cell_of(const Key &key) const {
        Paused paused;
        auto found = cells.find(key);
        if (found == cells.end())
            found = cells.emplace(key, presence.add()).first;
        return presence.cell(found->second);
    }
    void touch(const Key &key, int writes) const { __spbags_touch(cell_of(key), 8, writes); }
    void touch_all(int writes) const { presence.touch_all(writes); }

public:
    using key_type = Key;
    using value_type = typename Std::value_type;
    using size_type = std::size_t;
    using difference_type = std::ptrdiff_t;
    using reference = value_type &;
    using const_reference = const value_type &;
    using pointer = value_type *;
    using const_pointer = const value_type *;
    using iterator = typename Std::iterator;
    using const_iterator = typename Std::const_iterator;
    using range_type = Parts<iterator>;
    using const_range_type = Parts<const_iterator>;

    /* ---- Side by side with others ---- */

    template <class... Arguments> Made emplace(Arguments &&...arguments) {
        read_arguments(arguments...);
        Held held(this, name);
        std::size_t had = count();
        Made made = emplaced(std::forward<Arguments>(arguments)...);
        const Key &key = key_of(*place_of(made), static_cast<const Key *>(nullptr));
        touch(key, 0);
        if (count() != had)
            touch(key, 1);
        return made;
    }
    Made insert(const value_type &value) { return emplace(value); }
    Made insert(value_type &&value) { return emplace(std::move(value)); }
    template <class Pair, class = typename std::enable_if<std::is_constructible<value_type, Pair &&>::value>::type>
    Made insert(Pair &&pair) {
        return emplace(std::forward<Pair>(pair));
    }
    iterator insert(const_iterator, const value_type &value) { return place_of(emplace(value)); }
    template <class Input, class = typename std::iterator_traits<Input>::iterator_category>
    void insert(Input first, Input last) {
        for (; first != last; ++first)
            emplace(*first);
    }
    void insert(std::initializer_list<value_type> values) { insert(values.begin(), values.end()); }
    iterator find(const Key &key) {
        look(key);
        Paused paused;
        return all.find(key);
    }
    const_iterator find(const Key &key) const {
        look(key);
        Paused paused;
        return const_cast<const Std &>(all).find(key);
    }
    size_type count(const Key &key) const {
        look(key);
        Paused paused;
        return all.count(key);
    }
    bool contains(const Key &key) const { return count(key) > 0; }
    std::pair<iterator, iterator> equal_range(const Key &key) {
        look(key);
        Paused paused;
        return all.equal_range(key);
    }
    iterator begin() {
        look_at_all();
        Paused paused;
        return all.begin();
    }
    const_iterator begin() const {
        look_at_all();
        Paused paused;
        return const_cast<const Std &>(all).begin();
    }
    iterator end() { return all.end(); }
    const_iterator end() const { return const_cast<const Std &>(all).end(); }
    const_iterator cbegin() const { return begin(); }
    const_iterator cend() const { return end(); }
    size_type size() const {
        look_at_all();
        return count();
    }
    bool empty() const { return size() == 0; }
    range_type range() { return range_type(begin(), end(), count()); }
    const_range_type range() const { return const_range_type(begin(), end(), count()); }

    /* ---- Alone ---- */

    size_type unsafe_erase(const Key &key) {
        read_argument(key);
        touch(key, 1);
        Paused paused;
        return all.erase(key);
    }
    iterator unsafe_erase(iterator at) {
        touch(key_of(*at, static_cast<const Key *>(nullptr)), 1);
        Paused paused;
        return all.erase(at);
    }
    void clear() {
        touch_all(1);
        Paused paused;
        all.clear();
    }

protected:
    std::size_t count() const {
        Paused paused;
        return all.size();
    }
    void look(const Key &key) const {
        read_argument(key);
        Held held(this, name);
        touch(key, 0);
    }
    void look_at_all() const {
        Held held(this, name);
        touch_all(0);
    }
    template <class... Arguments> Made emplaced(Arguments &&...arguments) {
        Paused paused;
        return all.emplace(std::forward<Arguments>(arguments)...);
    }
    static iterator place_of(const std::pair<iterator, bool> &made) { return made.first; }
    static iterator place_of(const iterator &made) { return made; }
};

/* What maps have beside sets. */
template <class Std, class Cells> class Mapped : public Keyed<Std, Cells> {
    using Base = Keyed<Std, Cells>;

public:
    using mapped_type = typename Std::mapped_type;
    using Base::Base;
    mapped_type &operator[](const typename Base::Key &key) {
        read_argument(key);
        Held held(this, this->name);
        std::size_t had = this->count();
        Paused paused;
        mapped_type &value = this->all[key];
        unsigned char *cell = this->cell_of(key);
        __spbags_pause(-1);
        __spbags_touch(cell, 8, 0);
        if (this->count() != had)
            __spbags_touch(cell, 8, 1);
        __spbags_pause(1);
        return value;
    }
    mapped_type &at(const typename Base::Key &key) {
        this->look(key);
        Paused paused;
        return this->all.at(key);
    }
    const mapped_type &at(const typename Base::Key &key) const { return const_cast<Mapped *>(this)->at(key); }
};

template <class Key, class Hash, class Equal> using Hashed_cells = std::unordered_map<Key, std::size_t, Hash, Equal>;
template <class Key, class Compare> using Ordered_cells = std::map<Key, std::size_t, Compare>;

/* The constructors and assignments of a container upon a base of these arguments. */
#define SPBAGS_CONTAINER(NAME) \
    NAME() : Base("the " #NAME " ") {} \
    template <class Input, class = typename std::iterator_traits<Input>::iterator_category> \
    NAME(Input first, Input last) : NAME() { \
        this->insert(first, last); \
    } \
    NAME(std::initializer_list<typename Base::value_type> values) : NAME() { this->insert(values); } \
    NAME(const NAME &other) : NAME() { *this = other; } \
    NAME(NAME &&other) : NAME() { swap(other); } \
    NAME &operator=(const NAME &other) { \
        if (this != &other) { \
            this->clear(); \
            this->insert(other.begin(), other.end()); \
        } \
        return *this; \
    } \
    NAME &operator=(NAME &&other) { \
        this->clear(); \
        swap(other); \
        return *this; \
    } \
    void swap(NAME &other) { \
        this->touch_all(1); \
        other.touch_all(1); \
        Paused paused; \
        std::swap(this->all, other.all); \
    }

} // namespace spbags_detail
} // namespace tbb

#endif
