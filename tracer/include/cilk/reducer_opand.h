/* The bits that all have. */
#ifndef CILK_REDUCER_OPAND_H
#define CILK_REDUCER_OPAND_H

#include <cilk/reducer.h>

#ifdef __cplusplus
namespace cilk {
__SPBAGS_VIEW(op_and, reducer_opand, static_cast<T>(~T()), __SPBAGS_OPERATOR(op_and, &),
              __SPBAGS_OLDER_OPERATOR(reducer_opand, &))
} // namespace cilk
#else
#define CILK_C_REDUCER_OPAND(name, type, value) __SPBAGS_C_REDUCER(name, type, value)
#endif

#endif
