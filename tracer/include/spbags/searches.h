/* Of <execution>: algorithms that ask something of each element. Each answer is a child's; what is made of the answers
   comes behind all of them, and where elements are moved, in the order of a serial run. */
#ifndef SPBAGS_SEARCHES_H
#define SPBAGS_SEARCHES_H
#pragma GCC system_header

namespace spbags {

inline bool has(const Answers &answers, long count, long answer) {
    return std::find(answers.get(), answers.get() + count, answer) != answers.get() + count;
}

/* The first element with this answer, or the end. */
template <class Iterator> Iterator first_with(const Answers &answers, Iterator first, Iterator last, long answer) {
    for (long *at = answers.get(); first != last && *at != answer; at++)
        ++first;
    return first;
}

/* Keeps the elements without this answer, in their order; gives their end. */
template <class Iterator> Iterator without(const Answers &answers, Iterator first, Iterator last, long answer) {
    Iterator to = first;
    for (long *at = answers.get(); first != last; ++first)
        if (*at++ != answer) {
            if (to != first)
                *to = std::move(*first);
            ++to;
        }
    return to;
}

template <class Iterator, class Output>
SPBAGS_INLINE Output copy_with(const Answers &answers, Iterator first, Iterator last, Output to, long answer) {
    SPBAGS_SCOPE;
    auto copy = [](Iterator from, Output to) { *to = *from; };
    for (long number = 0; first != last; ++first, ++number)
        if (answers[number] == answer) {
            __spbags_part("algorithm", nullptr, number, number);
            at(copy, first, to);
            __spbags_return(nullptr, 0);
            ++to;
        }
    return to;
}

template <class Value> struct Equals {
    const Value &value;
    template <class Element> bool operator()(const Element &element) const { return element == value; }
};
template <class Value> struct Has_nothing<Equals<Value>> : std::is_arithmetic<Value> {};

/* Of each element but the last: what the function says of it and of the next. */
template <class Iterator, class Function>
SPBAGS_INLINE Answers of_neighbours(Iterator first, Iterator last, Function function) {
    return first == last ? Answers() : answers(function, first, std::next(first, std::distance(first, last) - 1), std::next(first));
}

} // namespace spbags

namespace std {

SPBAGS_POLICY(class I, class F) SPBAGS_RESULT(I) find_if(Policy &&, I first, I last, F f) {
    SPBAGS_SERIAL(std::find_if(first, last, f))
        return spbags::first_with(spbags::answers(std::ref(f), first, last), first, last, 1);
}
SPBAGS_POLICY(class I, class F) SPBAGS_RESULT(I) find_if_not(Policy &&, I first, I last, F f) {
    SPBAGS_SERIAL(std::find_if_not(first, last, f))
        return spbags::first_with(spbags::answers(std::ref(f), first, last), first, last, 0);
}
SPBAGS_POLICY(class I, class T) SPBAGS_RESULT(I) find(Policy &&policy, I first, I last, const T &value) {
    return find_if(policy, first, last, [&value](const auto &element) { return element == value; });
}
SPBAGS_POLICY(class I, class F) SPBAGS_RESULT(bool) any_of(Policy &&policy, I first, I last, F f) {
    return find_if(policy, first, last, f) != last;
}
SPBAGS_POLICY(class I, class F) SPBAGS_RESULT(bool) none_of(Policy &&policy, I first, I last, F f) {
    return find_if(policy, first, last, f) == last;
}
SPBAGS_POLICY(class I, class F) SPBAGS_RESULT(bool) all_of(Policy &&policy, I first, I last, F f) {
    return find_if_not(policy, first, last, f) == last;
}
SPBAGS_POLICY(class I, class F)
SPBAGS_RESULT(typename iterator_traits<I>::difference_type) count_if(Policy &&, I first, I last, F f) {
    SPBAGS_SERIAL(std::count_if(first, last, f)) {
        spbags::Answers found = spbags::answers(std::ref(f), first, last);
        return std::count(found.get(), found.get() + std::distance(first, last), 1);
    }
}
SPBAGS_POLICY(class I, class T)
SPBAGS_RESULT(typename iterator_traits<I>::difference_type) count(Policy &&policy, I first, I last, const T &value) {
    return count_if(policy, first, last, [&value](const auto &element) { return element == value; });
}
SPBAGS_POLICY(class I, class F) SPBAGS_RESULT(I) remove_if(Policy &&, I first, I last, F f) {
    SPBAGS_SERIAL(std::remove_if(first, last, f)) {
        spbags::tell_moves<F, I>(spbags::here());
        return spbags::without(spbags::answers(std::ref(f), first, last), first, last, 1);
    }
}
SPBAGS_POLICY(class I, class T) SPBAGS_RESULT(I) remove(Policy &&policy, I first, I last, const T &value) {
    const T own(value);
    return remove_if(policy, first, last, spbags::Equals<T>{own});
}
SPBAGS_POLICY(class I, class O, class F) SPBAGS_RESULT(O) copy_if(Policy &&, I first, I last, O to, F f) {
    SPBAGS_SERIAL(std::copy_if(first, last, to, f)) {
        spbags::tell_moves<F, I>(spbags::here());
        return spbags::copy_with(spbags::answers(std::ref(f), first, last), first, last, to, 1);
    }
}
SPBAGS_POLICY(class I, class O, class F) SPBAGS_RESULT(O) remove_copy_if(Policy &&, I first, I last, O to, F f) {
    SPBAGS_SERIAL(std::remove_copy_if(first, last, to, f)) {
        spbags::tell_moves<F, I>(spbags::here());
        return spbags::copy_with(spbags::answers(std::ref(f), first, last), first, last, to, 0);
    }
}
SPBAGS_POLICY(class I, class O, class T)
SPBAGS_RESULT(O) remove_copy(Policy &&policy, I first, I last, O to, const T &value) {
    return remove_copy_if(policy, first, last, to, spbags::Equals<T>{value});
}
SPBAGS_POLICY(class I, class O, class P, class F)
SPBAGS_RESULT(pair<O, P>) partition_copy(Policy &&, I first, I last, O to, P other, F f) {
    SPBAGS_SERIAL(std::partition_copy(first, last, to, other, f)) {
        spbags::Answers found = spbags::answers(std::ref(f), first, last);
        spbags::tell_moves<F, I>(spbags::here());
        O end = spbags::copy_with(found, first, last, to, 1);
        return pair<O, P>(end, spbags::copy_with(found, first, last, other, 0));
    }
}
SPBAGS_POLICY(class I, class F) SPBAGS_RESULT(I) stable_partition(Policy &&, I first, I last, F f) {
    SPBAGS_SERIAL(std::stable_partition(first, last, f)) {
        spbags::tell_moves<F, I>(spbags::here());
        spbags::Answers found = spbags::answers(std::ref(f), first, last);
        const long *answer = found.get();
        return std::stable_partition(first, last, [&answer](const auto &) { return *answer++ != 0; });
    }
}
SPBAGS_POLICY(class I, class F) SPBAGS_RESULT(I) partition(Policy &&policy, I first, I last, F f) {
    return stable_partition(policy, first, last, f);
}
SPBAGS_POLICY(class I, class F) SPBAGS_RESULT(bool) is_partitioned(Policy &&, I first, I last, F f) {
    SPBAGS_SERIAL(std::is_partitioned(first, last, f)) {
        spbags::Answers found = spbags::answers(std::ref(f), first, last);
        return std::is_partitioned(found.get(), found.get() + std::distance(first, last), [](long is) { return is != 0; });
    }
}
SPBAGS_POLICY(class I, class F = equal_to<>) SPBAGS_RESULT(I) adjacent_find(Policy &&, I first, I last, F f = F()) {
    SPBAGS_SERIAL(std::adjacent_find(first, last, f)) {
        spbags::Answers found = spbags::of_neighbours(first, last, std::ref(f));
        I before_last = first == last ? last : std::next(first, std::distance(first, last) - 1);
        I at = spbags::first_with(found, first, before_last, 1);
        return at == before_last ? last : at;
    }
}
SPBAGS_POLICY(class I, class F = less<>) SPBAGS_RESULT(I) is_sorted_until(Policy &&policy, I first, I last, F f = F()) {
    I at = adjacent_find(policy, first, last, [&f](const auto &one, const auto &next) { return f(next, one); });
    return at == last ? last : std::next(at);
}
SPBAGS_POLICY(class I, class F = less<>) SPBAGS_RESULT(bool) is_sorted(Policy &&policy, I first, I last, F f = F()) {
    return is_sorted_until(policy, first, last, f) == last;
}
SPBAGS_POLICY(class I, class F = equal_to<>) SPBAGS_RESULT(I) unique(Policy &&, I first, I last, F f = F()) {
    SPBAGS_SERIAL(std::unique(first, last, f)) {
        if (first == last)
            return last;
        spbags::tell_moves<F, I>(spbags::here());
        return spbags::without(spbags::of_neighbours(first, last, std::ref(f)), std::next(first), last, 1);
    }
}
SPBAGS_POLICY(class I, class O, class F = equal_to<>, class = typename iterator_traits<O>::iterator_category)
SPBAGS_RESULT(O) unique_copy(Policy &&policy, I first, I last, O to, F f = F()) {
    SPBAGS_SERIAL(std::unique_copy(first, last, to, f)) {
        if (first == last)
            return to;
        spbags::tell_moves<F, I>(spbags::here());
        spbags::Answers found = spbags::of_neighbours(first, last, std::ref(f));
        return spbags::copy_with(found, std::next(first), last, copy(policy, first, std::next(first), to), 0);
    }
}
SPBAGS_POLICY(class I, class J, class F = equal_to<>, class = decltype(declval<F>()(*declval<I>(), *declval<J>())))
SPBAGS_RESULT(pair<I, J>) mismatch(Policy &&, I first, I last, J other, F f = F()) {
    SPBAGS_SERIAL(std::mismatch(first, last, other, f)) {
        I at = spbags::first_with(spbags::answers(std::ref(f), first, last, other), first, last, 0);
        return pair<I, J>(at, std::next(other, std::distance(first, at)));
    }
}
SPBAGS_POLICY(class I, class J, class F = equal_to<>, class = decltype(declval<F>()(*declval<I>(), *declval<J>())))
SPBAGS_RESULT(pair<I, J>) mismatch(Policy &&policy, I first, I last, J other, J end, F f = F()) {
    auto shorter = std::min<long>(std::distance(first, last), std::distance(other, end));
    return mismatch(policy, first, std::next(first, shorter), other, f);
}
SPBAGS_POLICY(class I, class J, class F = equal_to<>, class = decltype(declval<F>()(*declval<I>(), *declval<J>())))
SPBAGS_RESULT(bool) equal(Policy &&policy, I first, I last, J other, F f = F()) {
    return mismatch(policy, first, last, other, f).first == last;
}
SPBAGS_POLICY(class I, class J, class F = equal_to<>, class = decltype(declval<F>()(*declval<I>(), *declval<J>())))
SPBAGS_RESULT(bool) equal(Policy &&policy, I first, I last, J other, J end, F f = F()) {
    return std::distance(first, last) == std::distance(other, end) && equal(policy, first, last, other, f);
}
SPBAGS_POLICY(class I, class J, class F = equal_to<>)
SPBAGS_RESULT(I) find_first_of(Policy &&policy, I first, I last, J other, J end, F f = F()) {
    return find_if(policy, first, last, [&](const auto &element) {
        return std::any_of(other, end, [&](const auto &wanted) { return f(element, wanted); });
    });
}

} // namespace std

#endif
