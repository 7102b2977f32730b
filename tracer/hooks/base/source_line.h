/* Where a call is in the source. */
#ifndef SPBAGS_BASE_SOURCE_LINE_H
#define SPBAGS_BASE_SOURCE_LINE_H

#include "base/common.h"

/* The file and the line of a call that returns to this address, as addr2line has it: "file:line". Where a function was
   put into its caller it is the caller's. spbags-run looks it up itself. */
const char *source_line(uintptr_t code, char *line, size_t size);

#endif
