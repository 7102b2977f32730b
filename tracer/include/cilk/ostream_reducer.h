/* OpenCilk's stream in C++. */
#ifndef CILK_OSTREAM_REDUCER_H
#define CILK_OSTREAM_REDUCER_H

#include <cilk/reducer_ostream.h>

namespace cilk {
template <class Char, class Traits = std::char_traits<Char> >
using ostream_reducer = reducer_basic_ostream<Char, Traits>;
} // namespace cilk
#endif
