/* What a format of printf or scanf has its arguments for. */
#ifndef SPBAGS_LIBRARY_FORMATS_H
#define SPBAGS_LIBRARY_FORMATS_H

#include "base/common.h"

/* Memory that an argument points to is read or written. */
typedef void formats_touch(bool writes, uintptr_t at, size_t size, const void *with);

/* What the conversions of printf read and, with %n, write. */
void formats_printed(const char *format, va_list *list, formats_touch *touch, const void *with);
/* What those of scanf wrote, so many of which stored what they read. */
void formats_scanned(const char *format, va_list *list, int stored, formats_touch *touch, const void *with);
/* A wide format in bytes; no letter of a conversion is any other character. */
char *formats_narrowed(const wchar_t *from, char *to, size_t room);

#endif
