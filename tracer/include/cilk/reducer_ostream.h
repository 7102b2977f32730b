/* A stream to which all write, in the serial order. What streams keep isn't seen. */
#ifndef CILK_REDUCER_OSTREAM_H
#define CILK_REDUCER_OSTREAM_H

#include <cilk/reducer.h>
#include <ostream>

namespace cilk {

template <class Char, class Traits = std::char_traits<Char> > class op_basic_ostream_view {
    typedef std::basic_ostream<Char, Traits> stream;
    stream *stream_;

public:
    typedef stream value_type;
    explicit op_basic_ostream_view(stream &to) : stream_(&to) {}
    const stream &view_get_value() const { return *stream_; }
    template <class T> op_basic_ostream_view &operator<<(const T &value) { return (*stream_ << value, *this); }
    op_basic_ostream_view &operator<<(stream &(*change)(stream &)) { return (change(*stream_), *this); }
    void reduce(op_basic_ostream_view *) {}
};

template <class Char, class Traits = std::char_traits<Char> >
class op_basic_ostream : public own_monoid<op_basic_ostream_view<Char, Traits> > {};
typedef op_basic_ostream<char> op_ostream;
typedef op_basic_ostream<wchar_t> op_wostream;

template <class Char, class Traits = std::char_traits<Char> >
class reducer_basic_ostream : public reducer<op_basic_ostream<Char, Traits> > {
    typedef std::basic_ostream<Char, Traits> stream;

public:
    explicit reducer_basic_ostream(stream &to) : reducer<op_basic_ostream<Char, Traits> >(to) {}
    template <class T> reducer_basic_ostream &operator<<(const T &value) { return (this->view() << value, *this); }
    reducer_basic_ostream &operator<<(stream &(*change)(stream &)) { return (this->view() << change, *this); }
};
typedef reducer_basic_ostream<char> reducer_ostream;
typedef reducer_basic_ostream<wchar_t> reducer_wostream;

} // namespace cilk
#endif
