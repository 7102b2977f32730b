#ifndef SPBAGS_TBB_PARALLEL_SCAN_H
#define SPBAGS_TBB_PARALLEL_SCAN_H
#pragma GCC system_header

#include <deque>
#include <memory>

#include "blocked_range.h"
#include "partitioner.h"
#include "task_group.h"

namespace tbb {
inline namespace v1 {

struct pre_scan_tag {
    static bool is_final_scan() { return false; }
    operator bool() const { return is_final_scan(); }
};
struct final_scan_tag {
    static bool is_final_scan() { return true; }
    operator bool() const { return is_final_scan(); }
};

} // namespace v1

namespace spbags_detail {

/* First the parts are summed up side by side, and the first one is scanned; then the sums before each part are made, one
   by one; then the other parts are scanned side by side. */
template <class Range, class Body> class Scan {
    const Range &whole;
    Body &body;
    const void *code;
    std::deque<Range> parts;
    std::deque<std::unique_ptr<Body>> sums, scans;

    SPBAGS_APART void first() { body(parts[0], final_scan_tag()); }
    SPBAGS_APART void sum(std::size_t at) {
        sums[at].reset(new Body(body, split()));
        (*sums[at])(parts[at], pre_scan_tag());
    }
    SPBAGS_APART void scan(std::size_t at) { (*scans[at])(parts[at], final_scan_tag()); }
    void each(std::size_t from, bool is_final) {
        SPBAGS_SCOPE;
        for (std::size_t at = from; at < parts.size(); at++) {
            long number = static_cast<long>(at);
            __spbags_part("parallel_scan", code, ::spbags::first_of(parts[at], whole, number, 0),
                          ::spbags::last_of(parts[at], whole, number, 0));
            if (is_final)
                scan(at);
            else if (at == 0)
                first();
            else
                sum(at);
            __spbags_return(nullptr, 0);
        }
    }
    void join() {
        Body *before = &body;
        for (std::size_t at = 1; at < parts.size(); at++) {
            scans[at].reset(new Body(body, split()));
            scans[at]->reverse_join(*before);
            sums[at]->reverse_join(*before);
            before = sums[at].get();
        }
    }

public:
    Scan(const Range &range, Body &with, const void *from) : whole(range), body(with), code(from) {}
    void run() {
        ::spbags::Leaves<Range, split> leaves(whole);
        for (; leaves.next(); leaves.pop())
            parts.push_back(leaves.front());
        sums.resize(parts.size());
        scans.resize(parts.size());
        each(0, false);
        join();
        each(1, true);
        if (parts.size() > 1)
            body.assign(*scans.back());
    }
};

template <class Range, class Value, class Function, class Join> class Sums {
    const Value &identity;
    const Function &function;
    const Join &reverse;
    Value value;

public:
    Sums(const Value &start, const Function &by, const Join &with)
        : identity(start), function(by), reverse(with), value(start) {}
    Sums(Sums &other, split)
        : identity(other.identity), function(other.function), reverse(other.reverse), value(other.identity) {}
    template <class Tag> void operator()(const Range &range, Tag tag) { value = function(range, value, tag); }
    void reverse_join(Sums &before) { value = reverse(before.value, value); }
    void assign(Sums &other) { value = other.value; }
    Value &&result() { return std::move(value); }
};

template <class Range, class Body> void scan(const Range &range, Body &body, const void *code) {
    Scan<Range, Body>(range, body, code).run();
}
template <class Range, class Value, class Function, class Join>
Value scan(const Range &range, const Value &identity, const Function &function, const Join &reverse, const void *code) {
    Sums<Range, Value, Function, Join> body(identity, function, reverse);
    scan(range, body, code);
    return body.result();
}

} // namespace spbags_detail

inline namespace v1 {

template <class Range, class Body, class... Settings, spbags_detail::If_settings<Settings...> = 0>
SPBAGS_INLINE void parallel_scan(const Range &range, Body &body, Settings &&...) {
    spbags_detail::tell_join<Body, Body>(range, ::spbags::here());
    spbags_detail::scan(range, body, ::spbags::here());
}
template <class Range, class Value, class Function, class Join, class... Settings,
          spbags_detail::If_settings<Settings...> = 0>
SPBAGS_INLINE Value parallel_scan(const Range &range, const Value &identity, const Function &function,
                                  const Join &reverse, Settings &&...) {
    spbags_detail::tell_join<Join, Value>(range, ::spbags::here());
    return spbags_detail::scan(range, identity, function, reverse, ::spbags::here());
}

} // namespace v1
} // namespace tbb

#endif
