/* The greatest or the least value, or that with its index. */
#ifndef CILK_REDUCER_MIN_MAX_H
#define CILK_REDUCER_MIN_MAX_H

#include <cilk/reducer.h>

#ifdef __cplusplus
namespace cilk {

/* What `*reducer = max_of(*reducer, x)` assigns: the view has it already. */
template <class View> struct is_changed {};

#define __SPBAGS_BEST(WORD, SIGN) \
    template <class T> class op_##WORD##_view : public scalar_view<T> { \
        bool is_set_; \
    public: \
        op_##WORD##_view() : is_set_(false) {} \
        explicit op_##WORD##_view(const T &value) : scalar_view<T>(value), is_set_(true) {} \
        void calc_##WORD(const T &other) { \
            if (!is_set_ || other SIGN this->value_) \
                this->value_ = other; \
            is_set_ = true; \
        } \
        bool is_set() const { return is_set_; } \
        void view_set_value(const T &value) { this->value_ = value, is_set_ = true; } \
        op_##WORD##_view &operator=(is_changed<op_##WORD##_view>) { return *this; } \
        void reduce(op_##WORD##_view *) {} \
    }; \
    template <class T> is_changed<op_##WORD##_view<T> > WORD##_of(op_##WORD##_view<T> &view, const T &other) { \
        return (view.calc_##WORD(other), is_changed<op_##WORD##_view<T> >()); \
    } \
    template <class T, class Compare = void, bool ALIGN = false> \
    class op_##WORD : public own_monoid<op_##WORD##_view<T> > {}; \
    template <class T> class reducer_##WORD : public reducer<op_##WORD<T> > { \
    public: \
        reducer_##WORD() {} \
        explicit reducer_##WORD(const T &value) : reducer<op_##WORD<T> >(value) {} \
        void calc_##WORD(const T &other) { this->view().calc_##WORD(other); } \
        reducer_##WORD &operator=(is_changed<op_##WORD##_view<T> >) { return *this; } \
    }; \
    template <class T> is_changed<op_##WORD##_view<T> > WORD##_of(reducer_##WORD<T> &reducer, const T &other) { \
        return WORD##_of(reducer.view(), other); \
    } \
    template <class Index, class T> class op_##WORD##_index_view { \
        bool is_set_; \
        std::pair<Index, T> value_; \
    public: \
        typedef std::pair<Index, T> value_type; \
        op_##WORD##_index_view() : is_set_(false), value_() {} \
        op_##WORD##_index_view(const Index &index, const T &value) : is_set_(true), value_(index, value) {} \
        explicit op_##WORD##_index_view(const value_type &value) : is_set_(true), value_(value) {} \
        void calc_##WORD(const Index &index, const T &other) { \
            if (!is_set_ || other SIGN value_.second) \
                value_ = value_type(index, other); \
            is_set_ = true; \
        } \
        bool is_set() const { return is_set_; } \
        const value_type &view_get_value() const { return value_; } \
        void view_set_value(const value_type &value) { value_ = value, is_set_ = true; } \
        void view_move_in(value_type &value) { view_set_value(value); } \
        void view_move_out(value_type &value) { value = value_; } \
        op_##WORD##_index_view &operator=(is_changed<op_##WORD##_index_view>) { return *this; } \
        void reduce(op_##WORD##_index_view *) {} \
    }; \
    template <class Index, class T> \
    is_changed<op_##WORD##_index_view<Index, T> > WORD##_of(op_##WORD##_index_view<Index, T> &view, \
                                                            const Index &index, const T &other) { \
        return (view.calc_##WORD(index, other), is_changed<op_##WORD##_index_view<Index, T> >()); \
    } \
    template <class Index, class T, class Compare = void, bool ALIGN = false> \
    class op_##WORD##_index : public own_monoid<op_##WORD##_index_view<Index, T> > {}; \
    template <class Index, class T> class reducer_##WORD##_index : public reducer<op_##WORD##_index<Index, T> > { \
    public: \
        reducer_##WORD##_index() {} \
        reducer_##WORD##_index(const Index &index, const T &value) \
            : reducer<op_##WORD##_index<Index, T> >(std::pair<Index, T>(index, value)) {} \
        void calc_##WORD(const Index &index, const T &other) { this->view().calc_##WORD(index, other); } \
        Index get_index() const { return this->get_value().first; } \
    };
__SPBAGS_BEST(max, >)
__SPBAGS_BEST(min, <)
#undef __SPBAGS_BEST

} // namespace cilk
#else

#define CILK_C_REDUCER_MAX(name, type, value) __SPBAGS_C_REDUCER(name, type, value)
#define CILK_C_REDUCER_MIN(name, type, value) __SPBAGS_C_REDUCER(name, type, value)
#define CILK_C_REDUCER_MAX_CALC(name, other) __SPBAGS_BEST(name, other, >)
#define CILK_C_REDUCER_MIN_CALC(name, other) __SPBAGS_BEST(name, other, <)
#define __SPBAGS_BEST(name, other, SIGN) \
    do { \
        __typeof__(other) __spbags_other = (other); \
        if (__spbags_other SIGN (name).value) \
            (name).value = __spbags_other; \
    } while (0)

/* A value and its index. */
#define __SPBAGS_INDEXED(type) \
    typedef struct { \
        __PTRDIFF_TYPE__ index; \
        __spbags_##type value; \
    } __spbags_indexed_##type;
__SPBAGS_INDEXED(char) __SPBAGS_INDEXED(uchar) __SPBAGS_INDEXED(schar) __SPBAGS_INDEXED(short) __SPBAGS_INDEXED(ushort)
__SPBAGS_INDEXED(int) __SPBAGS_INDEXED(uint) __SPBAGS_INDEXED(unsigned) __SPBAGS_INDEXED(long) __SPBAGS_INDEXED(ulong)
__SPBAGS_INDEXED(longlong) __SPBAGS_INDEXED(ulonglong) __SPBAGS_INDEXED(float) __SPBAGS_INDEXED(double)
__SPBAGS_INDEXED(longdouble)
#undef __SPBAGS_INDEXED

#define CILK_C_REDUCER_MAX_INDEX(name, type, value) __SPBAGS_C_REDUCER(name, indexed_##type, {0, (value)})
#define CILK_C_REDUCER_MIN_INDEX(name, type, value) __SPBAGS_C_REDUCER(name, indexed_##type, {0, (value)})
#define CILK_C_REDUCER_MAX_INDEX_CALC(name, index, other) __SPBAGS_BEST_INDEX(name, index, other, >)
#define CILK_C_REDUCER_MIN_INDEX_CALC(name, index, other) __SPBAGS_BEST_INDEX(name, index, other, <)
#define __SPBAGS_BEST_INDEX(name, index, other, SIGN) \
    do { \
        __typeof__(other) __spbags_other = (other); \
        if (__spbags_other SIGN (name).value.value) \
            (name).value = (__typeof__((name).value)){(index), __spbags_other}; \
    } while (0)

#endif
#endif
