/* The bits that some have. */
#ifndef CILK_REDUCER_OPOR_H
#define CILK_REDUCER_OPOR_H

#include <cilk/reducer.h>

#ifdef __cplusplus
namespace cilk {
__SPBAGS_VIEW(op_or, reducer_opor, T(), __SPBAGS_OPERATOR(op_or, |),
              __SPBAGS_OLDER_OPERATOR(reducer_opor, |))
} // namespace cilk
#else
#define CILK_C_REDUCER_OPOR(name, type, value) __SPBAGS_C_REDUCER(name, type, value)
#endif

#endif
