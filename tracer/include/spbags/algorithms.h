/* Of <execution>: what the parallel algorithms stand on, and those that do something with each element, or combine
   all. An exception that leaves a child ends the program, as the standard has it. */
#ifndef SPBAGS_ALGORITHMS_H
#define SPBAGS_ALGORITHMS_H
#pragma GCC system_header

namespace spbags {

template <class Policy> inline constexpr bool is_policy = std::is_execution_policy_v<std::decay_t<Policy>>;
template <class Policy>
inline constexpr bool is_serial = std::is_same_v<std::decay_t<Policy>, std::execution::sequenced_policy>;
template <class Policy, class Result> using If_policy = std::enable_if_t<is_policy<Policy>, Result>;

/* ---- For each element ---- */

template <class Function, class... Iterators> SPBAGS_APART void at(Function &function, Iterators... iterators) noexcept {
    function(iterators...);
}

/* Calls the function with the iterators of each element, as a child of the program's own function; gives the ends. */
template <class Function, class Iterator, class... Others>
SPBAGS_INLINE auto each(Function function, Iterator first, Iterator last, Others... others) {
    SPBAGS_SCOPE;
    for (long number = 0; first != last; number++) {
        __spbags_part("algorithm", nullptr, number, number);
        at(function, first, others...);
        __spbags_return(nullptr, 0);
        ++first, (void(++others), ...);
    }
    return std::tuple<Iterator, Others...>(first, others...);
}

template <class Function> SPBAGS_APART void at_number(Function &function, long number) noexcept { function(number); }

template <class Function> SPBAGS_INLINE void each_number(long count, Function function) {
    SPBAGS_SCOPE;
    for (long number = 0; number < count; number++) {
        __spbags_part("algorithm", nullptr, number, number);
        at_number(function, number);
        __spbags_return(nullptr, 0);
    }
}

/* An answer for each element, in memory of its own. */
using Answers = std::unique_ptr<long[]>;

template <class Function, class Iterator, class... Others>
SPBAGS_INLINE Answers answers(Function function, Iterator first, Iterator last, Others... others) {
    Answers made(new long[std::distance(first, last) + 1]());
    long *answer = made.get();
    each([&function](auto to, auto... iterators) { *to = static_cast<bool>(function(*iterators...)); }, answer,
         answer + std::distance(first, last), first, others...);
    return made;
}

/* ---- Trees ---- */

/* Elements by their numbers. */
template <class Iterator> class Numbered {
    static constexpr bool is_random =
        std::is_base_of_v<std::random_access_iterator_tag, typename std::iterator_traits<Iterator>::iterator_category>;
    std::vector<Iterator> places;

public:
    long count;
    Numbered(Iterator first, Iterator last) : count(std::distance(first, last)) {
        places.reserve(is_random ? 1 : count);
        for (; places.size() < (is_random ? 1u : std::size_t(count)); ++first)
            places.push_back(first);
    }
    Iterator operator()(long number) const {
        if constexpr (is_random)
            return places[0] + number;
        else
            return places[number];
    }
};

template <class Value> struct alignas(8) Slot {
    std::optional<Value> value;
};

/* The leaves from FIRST up to END are combined by pairs, two halves side by side. The part of a leaf to show is its
   number without SHIFT. */
template <class Value, class Leaf, class Combine> struct Tree {
    Leaf &leaf;
    Combine &combine;
    long shift;
    const void *code;

    void run(long first, long end, Slot<Value> &to) const noexcept {
        if (end - first == 1) {
            to.value.emplace(leaf(first));
            return;
        }
        Slot<Value> one, other;
        run_halves(first, first + (end - first) / 2, end, one, other);
        to.value.emplace(combine(std::move(*one.value), std::move(*other.value)));
    }
    void run_halves(long first, long middle, long end, Slot<Value> &one, Slot<Value> &other) const noexcept {
        SPBAGS_SCOPE;
        begin(first, middle);
        run(first, middle, one);
        __spbags_return(nullptr, 0);
        begin(middle, end);
        run(middle, end, other);
        __spbags_return(nullptr, 0);
    }
    SPBAGS_INLINE void begin(long first, long end) const {
        __spbags_part("algorithm", code, std::max(first - shift, 0L), std::max(end - 1 - shift, 0L));
    }
};

template <class Value, class Leaf, class Combine>
Value combined(long count, Leaf leaf, Combine combine, long shift, const void *code) {
    Slot<Value> all;
    Tree<Value, Leaf, Combine>{leaf, combine, shift, code}.run(0, count, all);
    return std::move(*all.value);
}

/* The sum of an initial value and of what the function gives of each number. */
template <class Value, class Operation, class Function>
Value sum(long count, Value &initial, Operation &operation, Function function, const void *code) {
    if (count > 1)
        tell_join<Operation, Value, decltype(function(0))>(code);
    auto leaf = [&](long number) -> Value {
        return number == 0 ? Value(std::move(initial)) : Value(function(number - 1));
    };
    auto combine = [&](Value &&one, Value &&other) -> Value { return operation(std::move(one), std::move(other)); };
    return combined<Value>(count + 1, leaf, combine, 1, code);
}

/* What isn't done side by side here. */
#define SPBAGS_AS_ONE(NAME) __spbags_tell(NAME " is run as one part, so what its parts access beside one another isn't seen", nullptr)

} // namespace spbags

namespace std {

#define SPBAGS_POLICY(...) template <class Policy, __VA_ARGS__>
#define SPBAGS_RESULT(...) SPBAGS_INLINE spbags::If_policy<Policy, __VA_ARGS__>
/* Where nothing is parallel, the algorithm without a policy does. */
#define SPBAGS_SERIAL(...) if constexpr (spbags::is_serial<Policy>) return __VA_ARGS__; else

SPBAGS_POLICY(class I, class F) SPBAGS_RESULT(void) for_each(Policy &&, I first, I last, F f) {
    SPBAGS_SERIAL(void(std::for_each(first, last, f)))
        spbags::each([&f](I at) { f(*at); }, first, last);
}
SPBAGS_POLICY(class I, class N, class F) SPBAGS_RESULT(I) for_each_n(Policy &&policy, I first, N count, F f) {
    I last = std::next(first, std::max<N>(count, 0));
    for_each(policy, first, last, f);
    return last;
}
SPBAGS_POLICY(class I, class O, class F) SPBAGS_RESULT(O) transform(Policy &&, I first, I last, O to, F f) {
    SPBAGS_SERIAL(std::transform(first, last, to, f))
        return get<1>(spbags::each([&f](I at, O to) { *to = f(*at); }, first, last, to));
}
SPBAGS_POLICY(class I, class J, class O, class F)
SPBAGS_RESULT(O) transform(Policy &&, I first, I last, J other, O to, F f) {
    SPBAGS_SERIAL(std::transform(first, last, other, to, f))
        return get<2>(spbags::each([&f](I at, J other, O to) { *to = f(*at, *other); }, first, last, other, to));
}
SPBAGS_POLICY(class I, class O) SPBAGS_RESULT(O) copy(Policy &&, I first, I last, O to) {
    return get<1>(spbags::each([](I at, O to) { *to = *at; }, first, last, to));
}
SPBAGS_POLICY(class I, class N, class O) SPBAGS_RESULT(O) copy_n(Policy &&policy, I first, N count, O to) {
    return copy(policy, first, std::next(first, std::max<N>(count, 0)), to);
}
SPBAGS_POLICY(class I, class O) SPBAGS_RESULT(O) move(Policy &&, I first, I last, O to) {
    return get<1>(spbags::each([](I at, O to) { *to = std::move(*at); }, first, last, to));
}
SPBAGS_POLICY(class I, class J) SPBAGS_RESULT(J) swap_ranges(Policy &&, I first, I last, J other) {
    return get<1>(spbags::each([](I at, J other) { std::iter_swap(at, other); }, first, last, other));
}
SPBAGS_POLICY(class I, class T) SPBAGS_RESULT(void) fill(Policy &&, I first, I last, const T &value) {
    spbags::each([&value](I at) { *at = value; }, first, last);
}
SPBAGS_POLICY(class I, class N, class T) SPBAGS_RESULT(I) fill_n(Policy &&policy, I first, N count, const T &value) {
    I last = std::next(first, std::max<N>(count, 0));
    fill(policy, first, last, value);
    return last;
}
SPBAGS_POLICY(class I, class F) SPBAGS_RESULT(void) generate(Policy &&, I first, I last, F f) {
    SPBAGS_SERIAL(std::generate(first, last, f))
        spbags::each([&f](I at) { *at = f(); }, first, last);
}
SPBAGS_POLICY(class I, class N, class F) SPBAGS_RESULT(I) generate_n(Policy &&policy, I first, N count, F f) {
    I last = std::next(first, std::max<N>(count, 0));
    generate(policy, first, last, f);
    return last;
}
SPBAGS_POLICY(class I, class F, class T)
SPBAGS_RESULT(void) replace_if(Policy &&, I first, I last, F f, const T &value) {
    SPBAGS_SERIAL(std::replace_if(first, last, f, value))
        spbags::each([&f, &value](I at) { if (f(*at)) *at = value; }, first, last);
}
SPBAGS_POLICY(class I, class T)
SPBAGS_RESULT(void) replace(Policy &&policy, I first, I last, const T &old, const T &value) {
    replace_if(policy, first, last, [&old](const auto &element) { return element == old; }, value);
}
SPBAGS_POLICY(class I, class O, class F, class T)
SPBAGS_RESULT(O) replace_copy_if(Policy &&, I first, I last, O to, F f, const T &value) {
    SPBAGS_SERIAL(std::replace_copy_if(first, last, to, f, value))
        return get<1>(spbags::each([&f, &value](I at, O to) { if (f(*at)) *to = value; else *to = *at; }, first, last, to));
}
SPBAGS_POLICY(class I, class O, class T)
SPBAGS_RESULT(O) replace_copy(Policy &&policy, I first, I last, O to, const T &old, const T &value) {
    return replace_copy_if(policy, first, last, to, [&old](const auto &element) { return element == old; }, value);
}
SPBAGS_POLICY(class I) SPBAGS_RESULT(void) reverse(Policy &&, I first, I last) {
    spbags::Numbered<I> all(first, last);
    spbags::each_number(all.count / 2, [&all](long at) { std::iter_swap(all(at), all(all.count - 1 - at)); });
}
SPBAGS_POLICY(class I, class O) SPBAGS_RESULT(O) reverse_copy(Policy &&policy, I first, I last, O to) {
    return copy(policy, std::make_reverse_iterator(last), std::make_reverse_iterator(first), to);
}
SPBAGS_POLICY(class I, class O, class F = minus<>)
SPBAGS_RESULT(O) adjacent_difference(Policy &&, I first, I last, O to, F f = F()) {
    SPBAGS_SERIAL(std::adjacent_difference(first, last, to, f)) {
        if (first == last)
            return to;
        spbags::each([](I at, O to) { *to = *at; }, first, std::next(first), to);
        return get<2>(spbags::each([&f](I at, I before, O to) { *to = f(*at, *before); }, std::next(first), last, first,
                                   std::next(to)));
    }
}
SPBAGS_POLICY(class I) SPBAGS_RESULT(void) destroy(Policy &&, I first, I last) {
    spbags::each([](I at) { std::destroy_at(std::addressof(*at)); }, first, last);
}
SPBAGS_POLICY(class I, class O) SPBAGS_RESULT(O) uninitialized_copy(Policy &&, I first, I last, O to) {
    typedef typename iterator_traits<O>::value_type V;
    return get<1>(spbags::each([](I at, O to) { ::new (static_cast<void *>(std::addressof(*to))) V(*at); }, first, last, to));
}
SPBAGS_POLICY(class I, class O) SPBAGS_RESULT(O) uninitialized_move(Policy &&, I first, I last, O to) {
    typedef typename iterator_traits<O>::value_type V;
    return get<1>(spbags::each([](I at, O to) { ::new (static_cast<void *>(std::addressof(*to))) V(std::move(*at)); },
                               first, last, to));
}
SPBAGS_POLICY(class I, class T) SPBAGS_RESULT(void) uninitialized_fill(Policy &&, I first, I last, const T &value) {
    typedef typename iterator_traits<I>::value_type V;
    spbags::each([&value](I at) { ::new (static_cast<void *>(std::addressof(*at))) V(value); }, first, last);
}

/* ---- Sums: those of a tree's halves are side by side ---- */

SPBAGS_POLICY(class I, class T, class F) SPBAGS_RESULT(T) reduce(Policy &&, I first, I last, T initial, F f) {
    SPBAGS_SERIAL(std::reduce(first, last, initial, f)) {
        spbags::Numbered<I> all(first, last);
        return spbags::sum(all.count, initial, f, [&all](long at) { return *all(at); }, spbags::here());
    }
}
SPBAGS_POLICY(class I, class T) SPBAGS_RESULT(T) reduce(Policy &&policy, I first, I last, T initial) {
    return reduce(policy, first, last, initial, plus<>());
}
SPBAGS_POLICY(class I)
SPBAGS_RESULT(typename iterator_traits<I>::value_type) reduce(Policy &&policy, I first, I last) {
    return reduce(policy, first, last, typename iterator_traits<I>::value_type{}, plus<>());
}
SPBAGS_POLICY(class I, class T, class F, class G)
SPBAGS_RESULT(T) transform_reduce(Policy &&, I first, I last, T initial, F f, G g) {
    SPBAGS_SERIAL(std::transform_reduce(first, last, initial, f, g)) {
        spbags::Numbered<I> all(first, last);
        return spbags::sum(all.count, initial, f, [&](long at) { return g(*all(at)); }, spbags::here());
    }
}
SPBAGS_POLICY(class I, class J, class T, class F, class G)
SPBAGS_RESULT(T) transform_reduce(Policy &&, I first, I last, J other, T initial, F f, G g) {
    SPBAGS_SERIAL(std::transform_reduce(first, last, other, initial, f, g)) {
        spbags::Numbered<I> all(first, last);
        spbags::Numbered<J> others(other, std::next(other, all.count));
        return spbags::sum(all.count, initial, f, [&](long at) { return g(*all(at), *others(at)); }, spbags::here());
    }
}
SPBAGS_POLICY(class I, class J, class T)
SPBAGS_RESULT(T) transform_reduce(Policy &&policy, I first, I last, J other, T initial) {
    return transform_reduce(policy, first, last, other, initial, plus<>(), multiplies<>());
}

} // namespace std

namespace spbags {

/* Each element is read by a child of its own, and so is each sum made. The sums before them are made one by one
   between, so an output may be the input. */
template <bool includes, class Value, class I, class O, class F, class G>
SPBAGS_INLINE O scan(I first, I last, O to, F &f, G &g, std::optional<Value> before) {
    std::vector<Slot<Value>> elements(std::distance(first, last)), sums(elements.size());
    if (elements.size() > 1)
        tell_join<F, Value, decltype(g(*first))>(here());
    each([&g](I at, Slot<Value> *slot) { slot->value.emplace(g(*at)); }, first, last, elements.data());
    for (std::size_t at = 0; at < elements.size(); at++) {
        sums[at].value = before;
        before = before ? Value(f(*before, *elements[at].value)) : *elements[at].value;
    }
    return std::get<2>(each(
        [&f](Slot<Value> *sum, Slot<Value> *element, O to) {
            if constexpr (!includes)
                *to = *sum->value;
            else
                *to = sum->value ? Value(f(*sum->value, *element->value)) : *element->value;
        },
        sums.data(), sums.data() + sums.size(), elements.data(), to));
}

} // namespace spbags

namespace std {

SPBAGS_POLICY(class I, class O, class F, class G)
SPBAGS_RESULT(O) transform_inclusive_scan(Policy &&, I first, I last, O to, F f, G g) {
    typedef std::decay_t<decltype(g(*first))> V;
    SPBAGS_SERIAL(std::transform_inclusive_scan(first, last, to, f, g))
        return spbags::scan<true, V>(first, last, to, f, g, optional<V>());
}
SPBAGS_POLICY(class I, class O, class F, class G, class T)
SPBAGS_RESULT(O) transform_inclusive_scan(Policy &&, I first, I last, O to, F f, G g, T initial) {
    SPBAGS_SERIAL(std::transform_inclusive_scan(first, last, to, f, g, initial))
        return spbags::scan<true, T>(first, last, to, f, g, optional<T>(initial));
}
SPBAGS_POLICY(class I, class O, class T, class F, class G)
SPBAGS_RESULT(O) transform_exclusive_scan(Policy &&, I first, I last, O to, T initial, F f, G g) {
    SPBAGS_SERIAL(std::transform_exclusive_scan(first, last, to, initial, f, g))
        return spbags::scan<false, T>(first, last, to, f, g, optional<T>(initial));
}
SPBAGS_POLICY(class I, class O, class F, class T)
SPBAGS_RESULT(O) inclusive_scan(Policy &&policy, I first, I last, O to, F f, T initial) {
    return transform_inclusive_scan(policy, first, last, to, f, [](const auto &element) { return element; }, initial);
}
SPBAGS_POLICY(class I, class O, class F)
SPBAGS_RESULT(O) inclusive_scan(Policy &&policy, I first, I last, O to, F f) {
    return transform_inclusive_scan(policy, first, last, to, f, [](const auto &element) { return element; });
}
SPBAGS_POLICY(class I, class O) SPBAGS_RESULT(O) inclusive_scan(Policy &&policy, I first, I last, O to) {
    return inclusive_scan(policy, first, last, to, plus<>());
}
SPBAGS_POLICY(class I, class O, class T, class F)
SPBAGS_RESULT(O) exclusive_scan(Policy &&policy, I first, I last, O to, T initial, F f) {
    return transform_exclusive_scan(policy, first, last, to, initial, f, [](const auto &element) { return element; });
}
SPBAGS_POLICY(class I, class O, class T)
SPBAGS_RESULT(O) exclusive_scan(Policy &&policy, I first, I last, O to, T initial) {
    return exclusive_scan(policy, first, last, to, initial, plus<>());
}

} // namespace std

#endif
