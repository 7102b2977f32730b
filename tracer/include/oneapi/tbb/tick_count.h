#ifndef SPBAGS_TBB_TICK_COUNT_H
#define SPBAGS_TBB_TICK_COUNT_H
#pragma GCC system_header

#include <chrono>

#include "detail_split.h"

namespace tbb {
inline namespace v1 {

class tick_count {
    std::chrono::steady_clock::time_point at;

public:
    class interval_t {
        double length;

    public:
        explicit interval_t(double seconds = 0) : length(seconds) {}
        double seconds() const { return length; }
        interval_t &operator+=(const interval_t &other) { return length += other.length, *this; }
        interval_t &operator-=(const interval_t &other) { return length -= other.length, *this; }
        friend interval_t operator+(const interval_t &one, const interval_t &other) {
            return interval_t(one.length + other.length);
        }
        friend interval_t operator-(const interval_t &one, const interval_t &other) {
            return interval_t(one.length - other.length);
        }
    };
    static tick_count now() {
        tick_count made;
        made.at = std::chrono::steady_clock::now();
        return made;
    }
    static double resolution() { return 1e-9; }
    friend interval_t operator-(const tick_count &one, const tick_count &other) {
        return interval_t(std::chrono::duration<double>(one.at - other.at).count());
    }
};

} // namespace v1
} // namespace tbb

#endif
