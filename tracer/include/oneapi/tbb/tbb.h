/* All of oneTBB that is traced. */
#ifndef SPBAGS_TBB_H
#define SPBAGS_TBB_H

#include "blocked_range.h"
#include "blocked_range2d.h"
#include "blocked_range3d.h"
#include "cache_aligned_allocator.h"
#include "combinable.h"
#include "concurrent_hash_map.h"
#include "concurrent_map.h"
#include "concurrent_queue.h"
#include "concurrent_unordered_map.h"
#include "concurrent_vector.h"
#include "enumerable_thread_specific.h"
#include "global_control.h"
#include "info.h"
#include "mutex.h"
#include "parallel_for.h"
#include "parallel_for_each.h"
#include "parallel_invoke.h"
#include "parallel_reduce.h"
#include "parallel_scan.h"
#include "parallel_sort.h"
#include "partitioner.h"
#include "task.h"
#include "task_arena.h"
#include "task_group.h"
#include "tick_count.h"
#include "version.h"

#endif
