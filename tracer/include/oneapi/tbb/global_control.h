#ifndef SPBAGS_TBB_GLOBAL_CONTROL_H
#define SPBAGS_TBB_GLOBAL_CONTROL_H
#pragma GCC system_header

#include <cstddef>
#include <new>

#include "info.h"

namespace tbb {
inline namespace v1 {

class global_control {
public:
    enum parameter { max_allowed_parallelism, thread_stack_size, terminate_on_exception, scheduler_handle };
    global_control(parameter, std::size_t) {}
    global_control(const global_control &) = delete;
    static std::size_t active_value(parameter asked) {
        return asked == max_allowed_parallelism ? static_cast<std::size_t>(info::default_concurrency()) : 0;
    }
};

struct attach_scheduler {};
class task_scheduler_handle {
public:
    task_scheduler_handle() {}
    explicit task_scheduler_handle(::tbb::v1::attach_scheduler) {}
    explicit operator bool() const { return true; }
    void release() {}
};
inline void finalize(task_scheduler_handle &) {}
inline bool finalize(task_scheduler_handle &, const std::nothrow_t &) { return true; }

} // namespace v1
} // namespace tbb

#endif
