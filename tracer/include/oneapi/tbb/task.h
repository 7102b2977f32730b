#pragma once
#include "task_group.h"
namespace tbb {
namespace task {
struct suspend_point {
    template <class Type> suspend_point(Type) {
        static_assert(sizeof(Type) == 0, "oneTBB's task::suspend can't be traced");
    }
};
template <class Function> void suspend(Function &&) {
    static_assert(sizeof(Function) == 0, "oneTBB's task::suspend can't be traced");
}
template <class Point> void resume(Point &&) {
    static_assert(sizeof(Point) == 0, "oneTBB's task::resume can't be traced");
}
} // namespace task
} // namespace tbb
