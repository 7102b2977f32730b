/* Of <execution>: algorithms that compare elements with one another. */
#ifndef SPBAGS_SORTS_H
#define SPBAGS_SORTS_H
#pragma GCC system_header

#include <spbags/sorting.h>

namespace spbags {

/* The first of the elements that no other is less than; or with LAST, the last of them. */
template <class Iterator, class Compare>
Iterator extreme(Iterator first, Iterator last, Compare takes_other, const void *code) {
    Numbered<Iterator> all(first, last);
    if (all.count == 0)
        return last;
    auto better = [&](Iterator one, Iterator other) { return takes_other(*one, *other) ? other : one; };
    return combined<Iterator>(all.count, [&](long at) { return all(at); }, better, 0, code);
}

/* The larger half is merged beside the smaller, down to single elements. */
template <class I, class J, class O, class Compare> struct Merge {
    Compare &compare;
    const void *code;

    void run(I first, I last, J other, J end, O to, long from) const noexcept {
        long ones = std::distance(first, last), others = std::distance(other, end);
        if (ones + others <= 1) {
            std::merge(first, last, other, end, to, compare);
            return;
        }
        I middle = std::next(first, ones / 2);
        J cut = std::next(other, others / 2);
        if (ones >= others)
            cut = std::lower_bound(other, end, *middle, compare);
        else
            middle = std::upper_bound(first, last, *cut, compare);
        long done = std::distance(first, middle) + std::distance(other, cut);
        if (done == 0) /* The middle one of the ones comes first of all. */
            run_one_first(first, last, other, end, to, from);
        else
            run_halves(first, middle, last, other, cut, end, to, from, done);
    }
    void run_one_first(I first, I last, J other, J end, O to, long from) const noexcept {
        bool takes_other = first == last || (other != end && compare(*other, *first));
        if (takes_other)
            run_halves(first, first, last, other, std::next(other), end, to, from, 1);
        else
            run_halves(first, std::next(first), last, other, other, end, to, from, 1);
    }
    void run_halves(I first, I middle, I last, J other, J cut, J end, O to, long from, long done) const noexcept {
        SPBAGS_SCOPE;
        long count = std::distance(first, last) + std::distance(other, end);
        __spbags_part("algorithm", code, from, from + done - 1);
        run(first, middle, other, cut, to, from);
        __spbags_return(nullptr, 0);
        __spbags_part("algorithm", code, from + done, from + count - 1);
        run(middle, last, cut, end, std::next(to, done), from + done);
        __spbags_return(nullptr, 0);
    }
};

} // namespace spbags

namespace std {

SPBAGS_POLICY(class I, class F = less<>) SPBAGS_RESULT(void) sort(Policy &&, I first, I last, F f = F()) {
    SPBAGS_SERIAL(std::sort(first, last, f))
        spbags::sort<false>(first, last, f, "algorithm", spbags::here());
}
SPBAGS_POLICY(class I, class F = less<>) SPBAGS_RESULT(void) stable_sort(Policy &&, I first, I last, F f = F()) {
    SPBAGS_SERIAL(std::stable_sort(first, last, f))
        spbags::sort<true>(first, last, f, "algorithm", spbags::here());
}
SPBAGS_POLICY(class I, class F = less<>) SPBAGS_RESULT(I) min_element(Policy &&, I first, I last, F f = F()) {
    SPBAGS_SERIAL(std::min_element(first, last, f))
        return spbags::extreme(first, last, [&f](auto &one, auto &other) { return f(other, one); }, spbags::here());
}
SPBAGS_POLICY(class I, class F = less<>) SPBAGS_RESULT(I) max_element(Policy &&, I first, I last, F f = F()) {
    SPBAGS_SERIAL(std::max_element(first, last, f))
        return spbags::extreme(first, last, [&f](auto &one, auto &other) { return f(one, other); }, spbags::here());
}
SPBAGS_POLICY(class I, class F = less<>)
SPBAGS_RESULT(pair<I, I>) minmax_element(Policy &&policy, I first, I last, F f = F()) {
    I least = min_element(policy, first, last, f);
    SPBAGS_SERIAL(std::minmax_element(first, last, f))
        return pair<I, I>(least, spbags::extreme(first, last, [&f](auto &one, auto &other) { return !f(other, one); },
                                                 spbags::here()));
}
SPBAGS_POLICY(class I, class J, class O, class F = less<>)
SPBAGS_RESULT(O) merge(Policy &&, I first, I last, J other, J end, O to, F f = F()) {
    SPBAGS_SERIAL(std::merge(first, last, other, end, to, f)) {
        spbags::Merge<I, J, O, F>{f, spbags::here()}.run(first, last, other, end, to, 0);
        return std::next(to, std::distance(first, last) + std::distance(other, end));
    }
}

/* ---- Those that are run as one part ---- */

#define SPBAGS_ONE(NAME, PARAMETERS, TYPES, ARGUMENTS) \
    template <class Policy, TYPES> SPBAGS_INLINE auto NAME PARAMETERS->enable_if_t<spbags::is_policy<Policy>, decltype(std::NAME ARGUMENTS)> { \
        if constexpr (!spbags::is_serial<Policy>) \
            SPBAGS_AS_ONE(#NAME); \
        return std::NAME ARGUMENTS; \
    }
#define SPBAGS_TYPES(...) __VA_ARGS__

SPBAGS_ONE(nth_element, (Policy &&, I first, I nth, I last), class I, (first, nth, last))
SPBAGS_ONE(nth_element, (Policy &&, I first, I nth, I last, F f), SPBAGS_TYPES(class I, class F), (first, nth, last, f))
SPBAGS_ONE(partial_sort, (Policy &&, I first, I nth, I last), class I, (first, nth, last))
SPBAGS_ONE(partial_sort, (Policy &&, I first, I nth, I last, F f), SPBAGS_TYPES(class I, class F), (first, nth, last, f))
SPBAGS_ONE(inplace_merge, (Policy &&, I first, I nth, I last), class I, (first, nth, last))
SPBAGS_ONE(inplace_merge, (Policy &&, I first, I nth, I last, F f), SPBAGS_TYPES(class I, class F), (first, nth, last, f))
SPBAGS_ONE(rotate, (Policy &&, I first, I nth, I last), class I, (first, nth, last))
SPBAGS_ONE(rotate_copy, (Policy &&, I first, I nth, I last, O to), SPBAGS_TYPES(class I, class O), (first, nth, last, to))
SPBAGS_ONE(partial_sort_copy, (Policy &&, I first, I last, J other, J end), SPBAGS_TYPES(class I, class J),
           (first, last, other, end))
SPBAGS_ONE(partial_sort_copy, (Policy &&, I first, I last, J other, J end, F f), SPBAGS_TYPES(class I, class J, class F),
           (first, last, other, end, f))
#define SPBAGS_TWO_RANGES(NAME) \
    SPBAGS_ONE(NAME, (Policy &&, I first, I last, J other, J end), SPBAGS_TYPES(class I, class J), (first, last, other, end)) \
    SPBAGS_ONE(NAME, (Policy &&, I first, I last, J other, J end, F f), SPBAGS_TYPES(class I, class J, class F), \
               (first, last, other, end, f))
#define SPBAGS_SET(NAME) \
    SPBAGS_ONE(NAME, (Policy &&, I first, I last, J other, J end, O to), SPBAGS_TYPES(class I, class J, class O), \
               (first, last, other, end, to)) \
    SPBAGS_ONE(NAME, (Policy &&, I first, I last, J other, J end, O to, F f), \
               SPBAGS_TYPES(class I, class J, class O, class F), (first, last, other, end, to, f))
SPBAGS_TWO_RANGES(includes)
SPBAGS_TWO_RANGES(search)
SPBAGS_TWO_RANGES(find_end)
SPBAGS_TWO_RANGES(lexicographical_compare)
SPBAGS_SET(set_union)
SPBAGS_SET(set_intersection)
SPBAGS_SET(set_difference)
SPBAGS_SET(set_symmetric_difference)
SPBAGS_ONE(search_n, (Policy &&, I first, I last, N count, const T &value), SPBAGS_TYPES(class I, class N, class T),
           (first, last, count, value))
SPBAGS_ONE(is_heap, (Policy &&, I first, I last), class I, (first, last))
SPBAGS_ONE(is_heap_until, (Policy &&, I first, I last), class I, (first, last))
#undef SPBAGS_SET
#undef SPBAGS_TWO_RANGES
#undef SPBAGS_TYPES
#undef SPBAGS_ONE

} // namespace std

#undef SPBAGS_SERIAL
#undef SPBAGS_RESULT
#undef SPBAGS_POLICY

#endif
