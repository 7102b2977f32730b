/* OpenCilk's sum in C++. */
#ifndef CILK_OPADD_REDUCER_H
#define CILK_OPADD_REDUCER_H

#include <cilk/cilk.h>

namespace cilk {

template <class T> static void zero(void *view) { *static_cast<T *>(view) = static_cast<T>(0); }
template <class T> static void plus(void *left, void *right) { *static_cast<T *>(left) += *static_cast<T *>(right); }

template <class T> class opadd_reducer {
    T __spbags_view;
    T &updated() { return *(T *)__spbags_update(&__spbags_view, sizeof(T), 0); }
    T &value() const { return *(T *)__spbags_value(&__spbags_view, sizeof(T), 0); }

public:
    opadd_reducer(const T &value = T()) : __spbags_view(value) { __spbags_reducer(&__spbags_view, sizeof(T), 0); }
    opadd_reducer(const opadd_reducer &) = delete;
    ~opadd_reducer() { __spbags_reducers_end(&__spbags_view, sizeof __spbags_view); }
    operator T() const { return value(); }
    opadd_reducer &operator=(const T &other) { return (value() = other, *this); }
    opadd_reducer &operator=(const opadd_reducer &other) { return *this = static_cast<T>(other); }
    opadd_reducer &operator+=(const T &other) { return (updated() += other, *this); }
    opadd_reducer &operator-=(const T &other) { return (updated() -= other, *this); }
    opadd_reducer &operator++() { return (++updated(), *this); }
    opadd_reducer &operator--() { return (--updated(), *this); }
    void operator++(int) { ++updated(); }
    void operator--(int) { --updated(); }
    T *operator&() { return &updated(); }
};

} // namespace cilk
#endif
