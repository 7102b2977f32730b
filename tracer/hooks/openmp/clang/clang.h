/* OpenMP as clang compiles it: the entries of LLVM's runtime that its code calls, by what gcc's code has here. Each
   begins with the place in the source and the thread's number, which aren't needed. */
#ifndef SPBAGS_OPENMP_CLANG_CLANG_H
#define SPBAGS_OPENMP_CLANG_CLANG_H

#include "base/caller.h"

#define CLANG const void *place, int32_t number
#define IGNORE (void)place, (void)number

#endif
