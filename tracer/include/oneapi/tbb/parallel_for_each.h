#ifndef SPBAGS_TBB_PARALLEL_FOR_EACH_H
#define SPBAGS_TBB_PARALLEL_FOR_EACH_H
#pragma GCC system_header

#include "task_group.h"

namespace tbb {
inline namespace v1 {

template <class Item> class feeder {
    typedef void (*Process)(feeder &, ::spbags::Box<Item> &);
    Process run;

protected:
    explicit feeder(Process with) : run(with) {}
    ~feeder() {}

public:
    feeder(const feeder &) = delete;
    feeder &operator=(const feeder &) = delete;
    /* What is added is a task beside the rest of whoever adds it. */
    template <class From> SPBAGS_INLINE void add(From &&item) {
        ::spbags::Box<Item> box(std::forward<From>(item));
        __spbags_group_run(this, "parallel_for_each", nullptr, 0, 0);
        run(*this, box);
        __spbags_return(&box, sizeof box);
    }
};

} // namespace v1

namespace spbags_detail {

/* Some bodies take the feeder too. */
template <class Body, class Argument, class Item>
auto process(const Body &body, Argument &&argument, feeder<Item> &feed, int)
    -> decltype(body(std::forward<Argument>(argument), feed), void()) {
    body(std::forward<Argument>(argument), feed);
}
template <class Body, class Argument, class Item>
auto process(const Body &body, Argument &&argument, feeder<Item> &, long)
    -> decltype(body(std::forward<Argument>(argument)), void()) {
    body(std::forward<Argument>(argument));
}
/* A body that changes its items takes no temporary one. */
template <class Body, class Argument, class Item>
typename std::enable_if<!std::is_lvalue_reference<Argument>::value>::type process(const Body &body, Argument &&argument,
                                                                                  feeder<Item> &feed, ...) {
    process(body, argument, feed, 0);
}

template <class Body, class Item> class Feeder : public feeder<Item> {
    const Body &body;

    static SPBAGS_APART void process_box(feeder<Item> &self, ::spbags::Box<Item> &box) {
        process(static_cast<Feeder &>(self).body, std::move(box.object), self, 0);
        box.object.~Item();
    }

public:
    explicit Feeder(const Body &by) : feeder<Item>(process_box), body(by) {}

    template <class Iterator> SPBAGS_APART void process_at(Iterator at) {
        process(body, *at, static_cast<feeder<Item> &>(*this), 0);
    }
    /* What an input iterator gives is copied before the next one comes. */
    template <class Iterator> SPBAGS_INLINE void one(Iterator at, long number, std::forward_iterator_tag) {
        __spbags_group_run(this, "parallel_for_each", nullptr, number, number);
        process_at(at);
        __spbags_return(nullptr, 0);
    }
    template <class Iterator> SPBAGS_INLINE void one(Iterator at, long number, std::input_iterator_tag) {
        ::spbags::Box<Item> box(*at);
        __spbags_group_run(this, "parallel_for_each", nullptr, number, number);
        process_box(*this, box);
        __spbags_return(&box, sizeof box);
    }
};

} // namespace spbags_detail

inline namespace v1 {

/* Each item is a child, and so is each that is added. */
template <class Iterator, class Body, class... Settings, spbags_detail::If_settings<Settings...> = 0>
SPBAGS_INLINE void parallel_for_each(Iterator first, Iterator last, const Body &body, Settings &&...) {
    typedef typename std::iterator_traits<Iterator>::value_type Item;
    spbags_detail::Feeder<Body, Item> feeder(body);
    __attribute__((cleanup(__spbags_leave_group), unused)) const void *group = &feeder;
    for (long number = 0; first != last; ++first, ++number)
        feeder.one(first, number, typename std::iterator_traits<Iterator>::iterator_category());
}
template <class Container, class Body, class... Settings, spbags_detail::If_settings<Settings...> = 0>
SPBAGS_INLINE void parallel_for_each(Container &container, const Body &body, Settings &&...) {
    parallel_for_each(std::begin(container), std::end(container), body);
}
template <class Container, class Body, class... Settings, spbags_detail::If_settings<Settings...> = 0>
SPBAGS_INLINE void parallel_for_each(const Container &container, const Body &body, Settings &&...) {
    parallel_for_each(std::begin(container), std::end(container), body);
}

} // namespace v1
} // namespace tbb

#endif
