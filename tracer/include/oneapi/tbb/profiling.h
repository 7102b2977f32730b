#ifndef SPBAGS_TBB_PROFILING_H
#define SPBAGS_TBB_PROFILING_H
#pragma GCC system_header

#include "detail_split.h"

namespace tbb {
namespace profiling {
inline void set_name(...) {}
} // namespace profiling
} // namespace tbb

#endif
