/* A product. */
#ifndef CILK_REDUCER_OPMUL_H
#define CILK_REDUCER_OPMUL_H

#include <cilk/reducer.h>

#ifdef __cplusplus
namespace cilk {
__SPBAGS_VIEW(op_mul, reducer_opmul, T(1), __SPBAGS_OPERATOR(op_mul, *),
              __SPBAGS_OLDER_OPERATOR(reducer_opmul, *))
} // namespace cilk
#else
#define CILK_C_REDUCER_OPMUL(name, type, value) __SPBAGS_C_REDUCER(name, type, value)
#endif

#endif
