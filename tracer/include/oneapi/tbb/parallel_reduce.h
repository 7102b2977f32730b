#ifndef SPBAGS_TBB_PARALLEL_REDUCE_H
#define SPBAGS_TBB_PARALLEL_REDUCE_H
#pragma GCC system_header

#include "blocked_range.h"
#include "partitioner.h"
#include "task_group.h"

namespace tbb {
namespace spbags_detail {

/* A body for a half of a range, which a child makes and its parent joins and ends. */
template <class Body> struct Half {
    alignas(8) unsigned char memory[(sizeof(Body) + 7) / 8 * 8];
    Body *made = nullptr;
    ~Half() {
        if (made)
            made->~Body();
    }
};

template <class Range, class Body> struct Reduction {
    const Range &whole;
    const void *code;

    /* The body takes the first half while another one, split off it, takes the second. */
    void run(Range &range, Body &body) const {
        if (!range.is_divisible()) {
            body(range);
            return;
        }
        Range second(range, split());
        Half<Body> half;
        run_halves(range, second, body, half);
        body.join(*half.made);
    }
    void run_halves(Range &range, Range &second, Body &body, Half<Body> &half) const {
        SPBAGS_SCOPE;
        begin(range);
        run(range, body);
        __spbags_return(nullptr, 0);
        begin(second);
        run_second(second, body, half);
        __spbags_return(nullptr, 0);
    }
    SPBAGS_APART void run_second(Range &range, Body &body, Half<Body> &half) const {
        half.made = new (half.memory) Body(body, split());
        run(range, *half.made);
    }
    SPBAGS_INLINE void begin(const Range &range) const {
        __spbags_part("parallel_reduce", code, spbags::first_of(range, whole, 0, 0),
                      spbags::last_of(range, whole, 0, 0));
    }
};

template <class Range, class Value, class Function, class Join> class Sum {
    const Value &identity;
    const Function &function;
    const Join &reduction;
    Value value;

public:
    Sum(const Value &start, const Function &by, const Join &with)
        : identity(start), function(by), reduction(with), value(start) {}
    Sum(Sum &other, split)
        : identity(other.identity), function(other.function), reduction(other.reduction), value(other.identity) {}
    void operator()(const Range &range) { value = function(range, const_cast<const Value &>(value)); }
    void join(Sum &other) { value = reduction(const_cast<const Value &>(value), const_cast<const Value &>(other.value)); }
    Value &&result() { return std::move(value); }
};

template <class Range, class Body> void reduce(const Range &range, Body &body, const void *code) {
    if (range.empty())
        return;
    Range own(range);
    Reduction<Range, Body>{range, code}.run(own, body);
}

template <class Range, class Value, class Function, class Join>
Value sum(const Range &range, const Value &identity, const Function &function, const Join &join, const void *code) {
    Sum<Range, Value, Function, Join> body(identity, function, join);
    reduce(range, body, code);
    return body.result();
}

/* Another partitioner than the static one leaves a deterministic sum one grouping: that which is run. */
template <class... Settings> struct Is_fixed : std::true_type {};
template <class First, class... More>
struct Is_fixed<First, More...>
    : std::integral_constant<bool, !std::is_same<typename std::decay<First>::type, static_partitioner>::value &&
                                       Is_fixed<More...>::value> {};

} // namespace spbags_detail

inline namespace v1 {

/* Two halves of a range are two children, down to the parts that can't be split any more. */
template <class Range, class Body, class... Settings, spbags_detail::If_settings<Settings...> = 0>
SPBAGS_INLINE void parallel_reduce(const Range &range, Body &body, Settings &&...) {
    spbags_detail::tell_join<Body, Body>(range, spbags::here());
    spbags_detail::reduce(range, body, spbags::here());
}
template <class Range, class Value, class Function, class Join, class... Settings,
          spbags_detail::If_settings<Settings...> = 0>
SPBAGS_INLINE Value parallel_reduce(const Range &range, const Value &identity, const Function &function,
                                    const Join &join, Settings &&...) {
    spbags_detail::tell_join<Join, Value>(range, spbags::here());
    return spbags_detail::sum(range, identity, function, join, spbags::here());
}

template <class Range, class Body, class... Settings, spbags_detail::If_settings<Settings...> = 0>
SPBAGS_INLINE void parallel_deterministic_reduce(const Range &range, Body &body, Settings &&...) {
    if (!spbags_detail::Is_fixed<Settings...>::value)
        spbags_detail::tell_join<Body, Body>(range, spbags::here());
    spbags_detail::reduce(range, body, spbags::here());
}
template <class Range, class Value, class Function, class Join, class... Settings,
          spbags_detail::If_settings<Settings...> = 0>
SPBAGS_INLINE Value parallel_deterministic_reduce(const Range &range, const Value &identity, const Function &function,
                                                  const Join &join, Settings &&...) {
    if (!spbags_detail::Is_fixed<Settings...>::value)
        spbags_detail::tell_join<Join, Value>(range, spbags::here());
    return spbags_detail::sum(range, identity, function, join, spbags::here());
}

} // namespace v1
} // namespace tbb

#endif
