/* The bits that an odd number has. */
#ifndef CILK_REDUCER_OPXOR_H
#define CILK_REDUCER_OPXOR_H

#include <cilk/reducer.h>

#ifdef __cplusplus
namespace cilk {
__SPBAGS_VIEW(op_xor, reducer_opxor, T(), __SPBAGS_OPERATOR(op_xor, ^),
              __SPBAGS_OLDER_OPERATOR(reducer_opxor, ^))
} // namespace cilk
#else
#define CILK_C_REDUCER_OPXOR(name, type, value) __SPBAGS_C_REDUCER(name, type, value)
#endif

#endif
