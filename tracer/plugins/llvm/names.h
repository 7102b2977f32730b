/* The names that functions have in a program's debug information. */
#ifndef SPBAGS_NAMES_H
#define SPBAGS_NAMES_H

#include "compiler.h"

/* Gives the parts that OpenMP makes of a function that function's name; and one of the tracer's to those which call such
   parts. Each of them stays a function. */
void names_put(llvm::Module &module);

#endif
