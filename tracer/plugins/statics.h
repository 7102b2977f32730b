/* The names of what a local static of C++ has. */
#ifndef SPBAGS_STATICS_H
#define SPBAGS_STATICS_H

#include <string_view>

/* Whether a variable of this name is the static whose guard has that one, or an object to which it refers. */
bool statics_have(std::string_view guard, std::string_view name);

#endif
