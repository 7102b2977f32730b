#ifndef SPBAGS_TBB_TASK_ARENA_H
#define SPBAGS_TBB_TASK_ARENA_H
#pragma GCC system_header

#include <vector>

#include "info.h"
#include "task_group.h"

namespace tbb {
inline namespace v1 {

struct attach {};

/* One thread does all, so an arena is where it is. */
class task_arena {
    int most;

public:
    enum class priority : int { low = 1, normal = 2, high = 3 };
    struct constraints {
        numa_node_id numa_id = -1;
        int max_concurrency = -1;
        core_type_id core_type = -1;
        int max_threads_per_core = -1;
        constraints(numa_node_id node = -1, int most = -1) : numa_id(node), max_concurrency(most) {}
        constraints &set_numa_id(numa_node_id node) { return numa_id = node, *this; }
        constraints &set_max_concurrency(int number) { return max_concurrency = number, *this; }
        constraints &set_core_type(core_type_id type) { return core_type = type, *this; }
        constraints &set_max_threads_per_core(int number) { return max_threads_per_core = number, *this; }
    };
    static const int automatic = -1;
    static const int not_initialized = -2;

    explicit task_arena(int concurrency = automatic, unsigned = 1, priority = priority::normal) : most(concurrency) {}
    explicit task_arena(const constraints &wanted, unsigned = 1, priority = priority::normal)
        : most(wanted.max_concurrency) {}
    explicit task_arena(attach) : most(automatic) {}
    task_arena(const task_arena &other) : most(other.most) {}
    void initialize() {}
    void initialize(int concurrency, unsigned = 1, priority = priority::normal) { most = concurrency; }
    void initialize(attach) {}
    void terminate() {}
    bool is_active() const { return true; }
    int max_concurrency() const { return most > 0 ? most : info::default_concurrency(); }
    template <class Function> auto execute(Function &&function) -> decltype(function()) { return function(); }
    template <class Function> void enqueue(Function &&) {
        static_assert(sizeof(Function) == 0, "task_arena::enqueue can't be traced: nothing waits for such a task; "
                                             "run it in a task_group");
    }
};

namespace this_task_arena {

inline int current_thread_index() { return 0; }
inline int max_concurrency() { return info::default_concurrency(); }
template <class Function> auto isolate(Function &&function) -> decltype(function()) { return function(); }
template <class Function> void enqueue(Function &&) {
    static_assert(sizeof(Function) == 0, "this_task_arena::enqueue can't be traced: nothing waits for such a task; "
                                         "run it in a task_group");
}

} // namespace this_task_arena
} // namespace v1
} // namespace tbb

#endif
