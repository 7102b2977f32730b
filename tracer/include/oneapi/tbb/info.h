#ifndef SPBAGS_TBB_INFO_H
#define SPBAGS_TBB_INFO_H
#pragma GCC system_header

#include <vector>

#include "detail_split.h"

namespace tbb {
inline namespace v1 {

using numa_node_id = int;
using core_type_id = int;

namespace info {

inline std::vector<numa_node_id> numa_nodes() { return {-1}; }
inline std::vector<core_type_id> core_types() { return {-1}; }
/* More than one, so that a program takes its parallel course. */
inline int default_concurrency() { return 8; }
inline int default_concurrency(numa_node_id) { return 8; }

} // namespace info
} // namespace v1
} // namespace tbb

#endif
