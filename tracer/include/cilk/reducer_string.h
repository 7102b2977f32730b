/* Strings to whose end more is put. */
#ifndef CILK_REDUCER_STRING_H
#define CILK_REDUCER_STRING_H

#include <cilk/reducer.h>
#include <string>

namespace cilk {

/* What is put there is copied first: what is done to the string then isn't recorded. */
template <class Char> class op_basic_string_view {
    typedef std::basic_string<Char> string;
    string value_;

public:
    typedef string value_type;
    op_basic_string_view() {}
    template <class First, class... More>
    explicit op_basic_string_view(const First &first, const More &...more) : value_(first, more...) {}
    const string &view_get_value() const { return value_; }
    void view_set_value(const string &value) { value_ = value; }
    void view_move_in(string &value) {
        value_.clear();
        value_.swap(value);
    }
    void view_move_out(string &value) {
        value.clear();
        value.swap(value_);
    }
    template <class... More> op_basic_string_view &append(const More &...more) {
        string copy;
        copy.append(more...);
        __spbags_update(this, sizeof *this, 0);
        __spbags_hidden hidden;
        value_.append(copy);
        return *this;
    }
    op_basic_string_view &operator+=(const string &more) { return append(more); }
    op_basic_string_view &operator+=(const Char *more) { return append(more); }
    op_basic_string_view &operator+=(Char letter) { return append(1, letter); }
    void push_back(Char letter) { append(1, letter); }
    void reduce(op_basic_string_view *) {}
};

template <class Char> class op_basic_string : public own_monoid<op_basic_string_view<Char> > {};
typedef op_basic_string<char> op_string;
typedef op_basic_string<wchar_t> op_wstring;

template <class Char> class reducer_basic_string : public reducer<op_basic_string<Char> > {
public:
    using reducer<op_basic_string<Char> >::reducer;
    reducer_basic_string() {}
    template <class... More> reducer_basic_string &append(const More &...more) {
        return (this->view().append(more...), *this);
    }
    template <class More> reducer_basic_string &operator+=(const More &more) { return (this->view() += more, *this); }
    void push_back(Char letter) { this->view().push_back(letter); }
};
typedef reducer_basic_string<char> reducer_string;
typedef reducer_basic_string<wchar_t> reducer_wstring;

} // namespace cilk
#endif
