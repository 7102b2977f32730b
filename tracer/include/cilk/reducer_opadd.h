/* A sum. */
#ifndef CILK_REDUCER_OPADD_H
#define CILK_REDUCER_OPADD_H

#include <cilk/reducer.h>

#ifdef __cplusplus
namespace cilk {
__SPBAGS_VIEW(op_add, reducer_opadd, T(),
              __SPBAGS_OPERATOR(op_add, +) __SPBAGS_OPERATOR(op_add, -) __SPBAGS_STEPS(op_add_view),
              __SPBAGS_OLDER_OPERATOR(reducer_opadd, +) __SPBAGS_OLDER_OPERATOR(reducer_opadd, -)
              __SPBAGS_STEPS(reducer_opadd))
} // namespace cilk
#else
#define CILK_C_REDUCER_OPADD(name, type, value) __SPBAGS_C_REDUCER(name, type, value)
#endif

#endif
