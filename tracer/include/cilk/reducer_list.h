/* Lists to whose end, or beginning, elements are put. */
#ifndef CILK_REDUCER_LIST_H
#define CILK_REDUCER_LIST_H

#include <cilk/reducer.h>
#include <list>

namespace cilk {

/* An element is copied first: what is done to the list then isn't recorded. */
template <class T> class list_view {
protected:
    std::list<T> value_;
    std::list<T> &updated() { return (__spbags_update(this, sizeof *this, 0), value_); }

public:
    typedef std::list<T> value_type;
    list_view() {}
    explicit list_view(const std::list<T> &value) : value_(value) {}
    const std::list<T> &view_get_value() const { return value_; }
    void view_set_value(const std::list<T> &value) { value_ = value; }
    void view_move_in(std::list<T> &value) {
        value_.clear();
        value_.swap(value);
    }
    void view_move_out(std::list<T> &value) {
        value.clear();
        value.swap(value_);
    }
};

template <class T> class op_list_append_view : public list_view<T> {
public:
    using list_view<T>::list_view;
    op_list_append_view() {}
    void push_back(const T &element) {
        T copy(element);
        std::list<T> &list = this->updated();
        __spbags_hidden hidden;
        list.push_back(std::move(copy));
    }
    void insert_back(const std::list<T> &more) {
        std::list<T> copy(more), &list = this->updated();
        __spbags_hidden hidden;
        list.splice(list.end(), copy);
    }
    void splice_back(std::list<T> &more) {
        insert_back(more);
        more.clear();
    }
    void reduce(op_list_append_view *) {}
};

template <class T> class op_list_prepend_view : public list_view<T> {
public:
    using list_view<T>::list_view;
    op_list_prepend_view() {}
    void push_front(const T &element) {
        T copy(element);
        std::list<T> &list = this->updated();
        __spbags_hidden hidden;
        list.push_front(std::move(copy));
    }
    void insert_front(const std::list<T> &more) {
        std::list<T> copy(more), &list = this->updated();
        __spbags_hidden hidden;
        list.splice(list.begin(), copy);
    }
    void splice_front(std::list<T> &more) {
        insert_front(more);
        more.clear();
    }
    void reduce(op_list_prepend_view *) {}
};

template <class T, class Allocator = void, bool ALIGN = false>
class op_list_append : public own_monoid<op_list_append_view<T> > {};
template <class T, class Allocator = void, bool ALIGN = false>
class op_list_prepend : public own_monoid<op_list_prepend_view<T> > {};

template <class T> class reducer_list_append : public reducer<op_list_append<T> > {
public:
    using reducer<op_list_append<T> >::reducer;
    reducer_list_append() {}
    void push_back(const T &element) { this->view().push_back(element); }
};

template <class T> class reducer_list_prepend : public reducer<op_list_prepend<T> > {
public:
    using reducer<op_list_prepend<T> >::reducer;
    reducer_list_prepend() {}
    void push_front(const T &element) { this->view().push_front(element); }
};

} // namespace cilk
#endif
