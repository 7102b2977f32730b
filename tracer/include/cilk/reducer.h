/* Reducers of the older library: classes in C++, macros in C. The run is serial, and a reducer has one view. It is
   registered with the hooks, which take an access of its memory for an update; all else says what it is. */
#ifndef CILK_REDUCER_H
#define CILK_REDUCER_H

#include <cilk/cilk.h>

#ifdef __cplusplus
#include <cstddef>
#include <cstring>
#include <new>
#include <utility>

namespace cilk {

/* What monoids have from the library. A monoid of the program's own may have another identity, and has a reduce. */
template <class Value, class View = Value> class monoid_base {
public:
    typedef Value value_type;
    typedef View view_type;
    enum { IS_OWN = false };
    void identity(View *view) const { ::new ((void *)view) View(); }
    void destroy(View *view) const { view->~View(); }
    void *allocate(std::size_t size) const { return ::operator new(size); }
    void deallocate(void *view) const { ::operator delete(view); }
};

template <class View> class monoid_with_view : public monoid_base<typename View::value_type, View> {
public:
    void reduce(View *left, View *right) const { left->reduce(right); }
};

/* The library's own, whose reduce touches nothing but views. */
template <class View> class own_monoid : public monoid_with_view<View> {
public:
    enum { IS_OWN = true };
};

/* The value of a view: that of the library's has functions for it, and any other is its value. */
template <class Value, class View> struct value_in {
    static const Value &get(const View &view) { return view.view_get_value(); }
    static void set(View &view, const Value &value) { view.view_set_value(value); }
    static void move_in(View &view, Value &value) { view.view_move_in(value); }
    static void move_out(View &view, Value &value) { view.view_move_out(value); }
};
template <class Value> struct value_in<Value, Value> {
    static const Value &get(const Value &view) { return view; }
    static void set(Value &view, const Value &value) { view = value; }
    static void move_in(Value &view, Value &value) { view = std::move(value); }
    static void move_out(Value &view, Value &value) { value = std::move(view); }
};

/* What `->` gives of a view of the program's own. What is done to it in that expression isn't recorded, since the view
   may have more memory elsewhere. */
template <class View> class view_pointer : __spbags_hidden {
    View *view_;

public:
    explicit view_pointer(View *view) : view_(view) {}
    View *operator->() const { return view_; }
};

template <class View, bool IS_OWN> struct pointer_to { typedef view_pointer<View> type; };
template <class View> struct pointer_to<View, true> { typedef View *type; };

template <class Monoid> class reducer {
public:
    typedef Monoid monoid_type;
    typedef typename Monoid::value_type value_type;
    typedef typename Monoid::view_type view_type;

private:
    typedef value_in<value_type, view_type> in;
    typedef typename pointer_to<view_type, Monoid::IS_OWN>::type pointer;
    Monoid monoid_;
    alignas(view_type) mutable unsigned char __spbags_view[sizeof(view_type)];

    view_type *at() const { return reinterpret_cast<view_type *>(__spbags_view); }
    view_type *updated() const { return (__spbags_update(__spbags_view, sizeof(view_type), 0), at()); }
    view_type *valued() const { return (__spbags_value(__spbags_view, sizeof(view_type), 0), at()); }
    void begin() { __spbags_reducer(__spbags_view, sizeof(view_type), Monoid::IS_OWN ? 0 : note()); }

    /* The monoid's name is in that of the function. */
    static const char *note() {
        static char text[400];
        __spbags_hidden hidden;
        const char *name = std::strstr(__PRETTY_FUNCTION__, "Monoid = ");
        name = name ? name + 9 : "]";
        std::strcpy(text, "what the monoid ");
        std::strncat(text, name, std::strcspn(name, ";]") < 200 ? std::strcspn(name, ";]") : 200);
        std::strcat(text, " does in another schedule isn't run, nor is all seen that updates of its views access");
        return text;
    }

public:
    reducer() : monoid_() {
        monoid_.identity(at());
        begin();
    }
    explicit reducer(const Monoid &monoid) : monoid_(monoid) {
        monoid_.identity(at());
        begin();
    }
    template <class First, class... More> explicit reducer(const First &first, const More &...more) : monoid_() {
        ::new ((void *)at()) view_type(first, more...);
        begin();
    }
    template <class First, class... More>
    reducer(const Monoid &monoid, const First &first, const More &...more) : monoid_(monoid) {
        ::new ((void *)at()) view_type(first, more...);
        begin();
    }
    template <class First> explicit reducer(First &first) : monoid_() {
        ::new ((void *)at()) view_type(first);
        begin();
    }
    reducer(const reducer &) = delete;
    reducer &operator=(const reducer &) = delete;
    ~reducer() {
        __spbags_reducers_end(__spbags_view, sizeof __spbags_view);
        monoid_.destroy(at());
    }

    view_type &view() { return *updated(); }
    const view_type &view() const { return *updated(); }
    view_type &operator*() { return *updated(); }
    const view_type &operator*() const { return *updated(); }
    view_type &operator()() { return *updated(); }
    pointer operator->() { return pointer(updated()); }
    const Monoid &monoid() const { return monoid_; }
    Monoid &monoid() { return monoid_; }

    const value_type &get_value() const { return in::get(*valued()); }
    void set_value(const value_type &value) { in::set(*valued(), value); }
    void move_in(value_type &value) { in::move_in(*valued(), value); }
    void move_out(value_type &value) { in::move_out(*valued(), value); }
    void swap(value_type &value) {
        value_type other(get_value());
        set_value(value);
        value = other;
    }
    const value_type &get_reference() const { return get_value(); }
};

/* A view that is one value. */
template <class T> class scalar_view {
protected:
    T value_;

public:
    typedef T value_type;
    scalar_view() : value_() {}
    explicit scalar_view(const T &value) : value_(value) {}
    const T &view_get_value() const { return value_; }
    void view_set_value(const T &value) { value_ = value; }
    void view_move_in(T &value) { value_ = std::move(value); }
    void view_move_out(T &value) { value = std::move(value_); }
};

/* What `*reducer = *reducer + x` assigns: only an operator of a view makes one. */
template <class T> struct changed_value {
    T value;
};

/* A view of one value with these operators, and a reducer whose view it is, in both spellings. */
#define __SPBAGS_VIEW(NAME, OLDER, IDENTITY, OPERATORS, OLDER_OPERATORS) \
    template <class T> class NAME##_view : public scalar_view<T> { \
    public: \
        NAME##_view() : scalar_view<T>(IDENTITY) {} \
        explicit NAME##_view(const T &value) : scalar_view<T>(value) {} \
        NAME##_view &operator=(const changed_value<T> &changed) { return (this->value_ = changed.value, *this); } \
        void reduce(NAME##_view *) {} \
        OPERATORS \
    }; \
    template <class T, bool ALIGN = false> class NAME : public own_monoid<NAME##_view<T> > {}; \
    template <class T> class OLDER : public reducer<NAME<T> > { \
    public: \
        OLDER() {} \
        explicit OLDER(const T &value) : reducer<NAME<T> >(value) {} \
        OLDER &operator=(const changed_value<T> &changed) { return (this->view() = changed, *this); } \
        OLDER_OPERATORS \
    };
#define __SPBAGS_OPERATOR(NAME, SIGN) \
    NAME##_view &operator SIGN##=(const T &other) { return (this->value_ SIGN##= other, *this); } \
    friend changed_value<T> operator SIGN(const NAME##_view &view, const T &other) { \
        return changed_value<T>{static_cast<T>(view.value_ SIGN other)}; \
    } \
    friend changed_value<T> operator SIGN(const changed_value<T> &changed, const T &other) { \
        return changed_value<T>{static_cast<T>(changed.value SIGN other)}; \
    }
#define __SPBAGS_OLDER_OPERATOR(OLDER, SIGN) \
    OLDER &operator SIGN##=(const T &other) { return (this->view() SIGN##= other, *this); } \
    friend changed_value<T> operator SIGN(OLDER &older, const T &other) { return older.view() SIGN other; }
#define __SPBAGS_STEPS(CLASS) \
    CLASS &operator++() { return *this += 1; } \
    CLASS &operator--() { return *this -= 1; } \
    void operator++(int) { *this += 1; } \
    void operator--(int) { *this -= 1; }

} // namespace cilk

#else

/* In C a reducer of the older library is a member of a struct, `name.value`. */
typedef unsigned char __spbags_uchar;
typedef signed char __spbags_schar;
typedef unsigned short __spbags_ushort;
typedef unsigned int __spbags_uint;
typedef unsigned long __spbags_ulong;
typedef long long __spbags_longlong;
typedef unsigned long long __spbags_ulonglong;
typedef long double __spbags_longdouble;
typedef char __spbags_char;
typedef short __spbags_short;
typedef int __spbags_int;
typedef unsigned int __spbags_unsigned;
typedef long __spbags_long;
typedef float __spbags_float;
typedef double __spbags_double;

#define REDUCER_VIEW(name) ((name).value)
#define CILK_C_REGISTER_REDUCER(name) ((void)(name).value)
#define CILK_C_UNREGISTER_REDUCER(name) ((void)(name).value)
#define CILK_C_DECLARE_REDUCER(type) struct { type _Hyperobject value; }
#define CILK_C_INIT_REDUCER(type, reduce, identity, destroy, ...) {__VA_ARGS__}
#define __SPBAGS_C_REDUCER(name, type, ...) struct { __spbags_##type _Hyperobject(0, 0) value; } name = {__VA_ARGS__}

#endif
#endif
