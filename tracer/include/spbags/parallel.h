/* What the headers of oneTBB and of C++'s parallel algorithms stand on. A child begins with a hook, is a call of a
   function, and returns with another hook. Nothing that a child shares with others is touched between the hooks and
   the call, since the tracer doesn't see it there. */
#ifndef SPBAGS_PARALLEL_H
#define SPBAGS_PARALLEL_H
#pragma GCC system_header
#ifdef __clang__
#error "oneTBB and C++'s parallel algorithms can be traced only with g++"
#endif

#include <cstddef>
#include <functional>
#include <iterator>
#include <list>
#include <new>
#include <type_traits>
#include <utility>

extern "C" {
void __spbags_part(const char *of, const void *code, long first, long last);
void __spbags_leave_parallel(const char *const *unused);
void __spbags_tell(const char *what, const void *code);
bool __spbags_is_plain(...);
void __spbags_group_run(const void *id, const char *of, const void *code, long first, long last);
void __spbags_group_wait(const void *id);
void __spbags_leave_group(const void *const *id);
void __spbags_pause(int more);
void __spbags_touch(const volatile void *at, unsigned long size, int writes);
void __spbags_hold(const volatile void *guard, const char *name);
void __spbags_release(const volatile void *guard);
void __spbags_endless_wait(void);
}

/* What the program calls is put into its caller, where the hooks find the line of the call; all else is a function. */
#define SPBAGS_INLINE __attribute__((always_inline)) inline
#define SPBAGS_APART __attribute__((noipa))
/* The children of what follows in this block are waited for at its end. */
#define SPBAGS_SCOPE \
    __attribute__((cleanup(__spbags_leave_parallel), unused)) const char *__spbags_scope = __spbags_enter("")

namespace spbags {

/* Where the function that calls this is, which its caller's line says. */
inline SPBAGS_APART const void *here() { return __builtin_return_address(0); }

template <class Function, class... Arguments>
SPBAGS_APART void call(Function &function, Arguments... arguments) { function(arguments...); }

/* An object that one child uses and ends. No unit of memory is shared with another one. */
template <class Object> union alignas(8) Box {
    Object object;
    template <class... Arguments> Box(Arguments &&...arguments) : object(std::forward<Arguments>(arguments)...) {}
    ~Box() {}
};

template <class Function, class Object>
SPBAGS_APART void call_with_own(Function &function, Box<Object> &own) {
    function(own.object);
    own.object.~Object();
}

/* ---- Functions that another schedule calls with other values, or beside something else ---- */

/* Whether a function has no members by which it would touch more than what it gets. */
template <class Function> struct Has_nothing : std::is_empty<Function> {};

template <class Function, class One, class Other>
auto call_any(Function &function, One &one, Other &other, int) -> decltype(void(function(one, other))) {
    function(one, other);
}
template <class Function, class One, class Other> void call_any(Function &function, One &one, Other &, long) {
    function(one);
}
template <class Function, class One, class Other> void call_with(Function &function, One &one, Other &other) {
    call_any(function, one, other, 0);
}

/* Whether the function only computes with numbers of these types, and so does the same beside anything: the plugin says
   which functions touch nothing else than their variables and what they get. */
template <class Function, class One, class Other>
using May_compute = std::integral_constant<bool, Has_nothing<Function>::value && std::is_arithmetic<One>::value &&
                                                     std::is_arithmetic<Other>::value>;
template <class Function, class One, class Other> bool computes(std::true_type) {
    return __spbags_is_plain(&call_with<Function, One, Other>);
}
template <class Function, class One, class Other> bool computes(std::false_type) { return false; }
template <class Function, class One, class Other> bool computes() {
    return computes<Function, One, Other>(May_compute<Function, One, Other>());
}

template <class Join, class One, class Other = One> void tell_join(const void *code) {
    if (!computes<Join, typename std::decay<One>::type, typename std::decay<Other>::type>())
        __spbags_tell("what joins parts here may access or compute something else in another grouping, which isn't run",
                      code);
}

template <class Function, class Iterator> void tell_moves(const void *code) {
    typedef typename std::iterator_traits<Iterator>::value_type Element;
    if (!computes<Function, Element, Element>())
        __spbags_tell("elements may be moved or copied here while the function looks at others, which isn't run", code);
}

/* ---- Ranges ---- */

/* The number of a range's first iteration, and of the one behind its last: the values of an integer, and else the
   numbers from the whole range's beginning on; of a range that has none, how many leaves came before. */
template <class Range>
auto first_of(const Range &range, const Range &, long, int)
    -> typename std::enable_if<std::is_integral<typename std::decay<decltype(range.begin())>::type>::value, long>::type {
    return static_cast<long>(range.begin());
}
template <class Range>
auto first_of(const Range &range, const Range &whole, long, long)
    -> typename std::enable_if<!std::is_integral<typename std::decay<decltype(range.begin())>::type>::value,
                               decltype(static_cast<long>(range.begin() - whole.begin()))>::type {
    return static_cast<long>(range.begin() - whole.begin());
}
template <class Range> long first_of(const Range &, const Range &, long number, ...) { return number; }

template <class Range>
auto last_of(const Range &range, const Range &, long, int)
    -> typename std::enable_if<std::is_integral<typename std::decay<decltype(range.end())>::type>::value, long>::type {
    return static_cast<long>(range.end()) - 1;
}
template <class Range>
auto last_of(const Range &range, const Range &whole, long, long)
    -> typename std::enable_if<!std::is_integral<typename std::decay<decltype(range.end())>::type>::value,
                               decltype(static_cast<long>(range.end() - whole.begin()))>::type {
    return static_cast<long>(range.end() - whole.begin()) - 1;
}
template <class Range> long last_of(const Range &, const Range &, long number, ...) { return number; }

/* The parts that a range is split into, one by one. */
template <class Range, class Split> class Leaves {
    std::list<Range> parts;

public:
    explicit Leaves(const Range &range) {
        if (!range.empty())
            parts.push_back(range);
    }
    /* Whether there is one more, which is the front then. */
    bool next() {
        if (parts.empty())
            return false;
        while (parts.front().is_divisible())
            parts.emplace(std::next(parts.begin()), parts.front(), Split());
        return true;
    }
    const Range &front() const { return parts.front(); }
    void pop() { parts.pop_front(); }
};

} // namespace spbags

#endif
