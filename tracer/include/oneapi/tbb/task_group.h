#ifndef SPBAGS_TBB_TASK_GROUP_H
#define SPBAGS_TBB_TASK_GROUP_H
#pragma GCC system_header

#include <exception>
#include <memory>

#include "detail_split.h"
#include <spbags/parallel.h>

namespace tbb {
inline namespace v1 {

class task_group_context {
    bool cancelled = false;

public:
    enum kind_type { isolated, bound };
    enum traits_type { fp_settings = 1, concurrent_wait = 4, default_traits = 0 };
    explicit task_group_context(kind_type = bound, unsigned = default_traits) {}
    task_group_context(const task_group_context &) = delete;
    task_group_context &operator=(const task_group_context &) = delete;
    SPBAGS_INLINE bool cancel_group_execution() {
        __spbags_tell("what this cancels may have begun, and is run or left out here as in a serial run", nullptr);
        bool first = !cancelled;
        cancelled = true;
        return first;
    }
    bool is_group_execution_cancelled() const { return cancelled; }
    void reset() { cancelled = false; }
    void capture_fp_settings() {}
};

enum task_group_status { not_complete, complete, canceled };

class task_group;

/* A function that run() takes later. */
class task_handle {
    struct Task {
        virtual ~Task() {}
        virtual void run() = 0;
    };
    template <class Function> struct TaskOf : Task {
        Function function;
        template <class From> explicit TaskOf(From &&from) : function(std::forward<From>(from)) {}
        void run() override { function(); }
    };
    std::unique_ptr<Task> task;
    friend class task_group;

public:
    task_handle() {}
    explicit operator bool() const { return static_cast<bool>(task); }
    bool operator==(std::nullptr_t) const { return !task; }
    bool operator!=(std::nullptr_t) const { return static_cast<bool>(task); }
};

class task_group {
    std::exception_ptr thrown;
    bool cancelled = false;

    /* What a group keeps for itself is no memory of the program's. */
    __attribute__((spbags_untraced)) bool is_cancelled() const { return cancelled; }
    __attribute__((spbags_untraced)) void cancel_rest() { cancelled = true; }
    void keep_exception() {
        __spbags_pause(1);
        if (!thrown)
            thrown = std::current_exception();
        cancel_rest();
        __spbags_pause(-1);
    }
    template <class Function> SPBAGS_APART void run_task(spbags::Box<Function> &box, const void *code) {
        try {
            if (!is_cancelled())
                box.object();
        } catch (...) {
            __spbags_tell("an exception leaves a task of this group, and what the group runs then isn't run", code);
            keep_exception();
        }
        box.object.~Function();
    }
    task_group_status end_wait() {
        __spbags_pause(1);
        std::exception_ptr found;
        std::swap(found, thrown);
        bool was_cancelled = cancelled;
        cancelled = false;
        __spbags_pause(-1);
        if (found)
            std::rethrow_exception(found);
        return was_cancelled ? canceled : complete;
    }
    struct Handled {
        task_handle handle;
        void operator()() { handle.task->run(); }
    };

public:
    task_group() {}
    explicit task_group(task_group_context &) {}
    task_group(const task_group &) = delete;
    task_group &operator=(const task_group &) = delete;
    ~task_group() { __spbags_group_wait(this); }

    template <class Function> SPBAGS_INLINE void run(Function &&function) {
        typedef typename std::decay<Function>::type Own;
        const void *code = spbags::here();
        spbags::Box<Own> box(std::forward<Function>(function));
        __spbags_group_run(this, "task_group", code, 0, 0);
        run_task(box, code);
        __spbags_return(&box, sizeof box);
    }
    SPBAGS_INLINE void run(task_handle &&handle) { run(Handled{std::move(handle)}); }
    template <class Function> task_handle defer(Function &&function) {
        task_handle made;
        made.task.reset(new task_handle::TaskOf<typename std::decay<Function>::type>(std::forward<Function>(function)));
        return made;
    }
    SPBAGS_INLINE task_group_status wait() {
        __spbags_group_wait(this);
        return end_wait();
    }
    template <class Function> SPBAGS_INLINE task_group_status run_and_wait(Function &&function) {
        run(std::forward<Function>(function));
        return wait();
    }
    SPBAGS_INLINE void cancel() {
        __spbags_tell("what this cancels may have begun, and is run or left out here as in a serial run", nullptr);
        cancel_rest();
    }
};

class isolated_task_group : public task_group {};

inline bool is_current_task_group_canceling() { return false; }

} // namespace v1

/* ---- What the algorithms take beside their own arguments, and has no meaning here ---- */

namespace spbags_detail {

template <class Type> struct is_setting : std::false_type {};
template <> struct is_setting<simple_partitioner> : std::true_type {};
template <> struct is_setting<auto_partitioner> : std::true_type {};
template <> struct is_setting<static_partitioner> : std::true_type {};
template <> struct is_setting<affinity_partitioner> : std::true_type {};
template <> struct is_setting<task_group_context> : std::true_type {};

template <class... Types> struct are_settings : std::true_type {};
template <class Type, class... Types>
struct are_settings<Type, Types...>
    : std::integral_constant<bool, is_setting<typename std::decay<Type>::type>::value && are_settings<Types...>::value> {
};

template <class... Settings> using If_settings = typename std::enable_if<are_settings<Settings...>::value, int>::type;
/* A type that can be split in two. */
template <class Range> using If_range = decltype(static_cast<bool>(std::declval<const Range &>().is_divisible()), 0);

/* Of what isn't split nothing is joined. */
template <class Join, class Value, class Range> void tell_join(const Range &range, const void *code) {
    if (!range.empty() && range.is_divisible())
        ::spbags::tell_join<Join, Value>(code);
}

} // namespace spbags_detail
} // namespace tbb

#endif
