/* What leaves a child of C++ as an exception: its parent throws it again where it waits for the child. */
#ifndef SPBAGS_EXCEPTIONS_H
#define SPBAGS_EXCEPTIONS_H
#pragma GCC system_header

#if __cplusplus >= 201103L && __cpp_exceptions
#include <exception>
#include <new>

/* A variable of each loop, and of each function, iteration, scope or `try` block that spawns. At a sync, or at its end,
   it throws the first exception of its children in the serial order. */
class __spbags_frame {
    std::exception_ptr __thrown_;
#if __cpp_lib_uncaught_exceptions
    const int __unwinding_ = std::uncaught_exceptions();
    bool __unwinds() const { return std::uncaught_exceptions() > __unwinding_; }
#else
    static bool __unwinds() { return std::uncaught_exception(); }
#endif

public:
    __spbags_frame() = default;
    __spbags_frame(const __spbags_frame &) = delete;
    /* The child of this statement has thrown, or what it evaluates before has, which is the parent's. */
    __SPBAGS_OUTSIDE void __keep(__spbags_ending &__ended) {
        if (!__ended.__leaves())
            throw;
        if (!__thrown_)
            __thrown_ = std::current_exception();
    }
    __SPBAGS_OUTSIDE void __throw_again() {
        std::exception_ptr __thrown;
        __thrown.swap(__thrown_);
        if (__thrown)
            std::rethrow_exception(__thrown);
    }
    __attribute__((__always_inline__)) ~__spbags_frame() noexcept(false) {
        if (__thrown_ && !__unwinds()) {
            __spbags_sync();
            __throw_again();
        }
    }
};

#if __cplusplus >= 201402L
/* The value of a variable whose child has thrown, until that is thrown again; or, of what can be copied as bytes, none. */
template <class __T, bool __has_default = __is_constructible(__T)> struct __spbags_empty {
    enum { __exists = true };
    __SPBAGS_OUTSIDE static __T __value() { return __T(); }
};
template <class __T> struct __spbags_empty<__T, false> {
    enum { __exists = __is_trivially_copyable(__T) && __is_constructible(__T, __T &&) };
    union __bytes {
        char __first[sizeof(__T)];
        __T __value;
        __bytes() : __first() {}
    };
    __SPBAGS_OUTSIDE static __T __value() { return static_cast<__T &&>(__bytes().__value); }
};

/* What a statement gives to the variable that it declares. */
template <class __T, bool __has_empty = __spbags_empty<__T>::__exists> struct __spbags_result {
    template <class __Statement>
    __SPBAGS_OUTSIDE static __T __of(__Statement &__statement, __spbags_ending &__ended, __spbags_frame &__frame) {
        try {
            return __statement({});
        } catch (...) {
            __frame.__keep(__ended);
        }
        return __spbags_empty<__T>::__value();
    }
};
template <class __T> struct __spbags_result<__T, false> {
    template <class __Statement>
    __SPBAGS_OUTSIDE static __T __of(__Statement &__statement, __spbags_ending &, __spbags_frame &) {
        return __statement({});
    }
};

/* The same, where the variable may be a reference: to room that has a value only if the child gives one. */
template <class __T, bool __has_empty = __spbags_empty<__T>::__exists> struct __spbags_room : __spbags_result<__T> {
    template <class __Declared> using __in = __Declared;
};
template <class __T> class __spbags_room<__T, false> {
    union {
        __T __value_;
    };
    bool __is_made_ = false;

public:
    template <class __Declared> using __in = __T &;
    __SPBAGS_OUTSIDE __spbags_room() {}
    __spbags_room(const __spbags_room &) = delete;
    template <class __Statement>
    __SPBAGS_OUTSIDE __T &__of(__Statement &__statement, __spbags_ending &__ended, __spbags_frame &__frame) {
        try {
            ::new (static_cast<void *>(__builtin_addressof(__value_))) __T(__statement({}));
            __is_made_ = true;
        } catch (...) {
            __frame.__keep(__ended);
        }
        return __value_;
    }
    __SPBAGS_OUTSIDE ~__spbags_room() {
        if (__is_made_)
            __value_.~__T();
    }
};
template <class __Declared>
using __spbags_in_room = typename __spbags_room<typename __spbags_plain<__Declared>::__type>::template __in<__Declared>;
#endif
#endif
#endif
