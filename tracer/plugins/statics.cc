#include "statics.h"

/* As the ABI of C++ gives names: all have the same rest, behind which those of objects have a number too, and `_`. */
bool statics_have(std::string_view guard, std::string_view name) {
    if (guard.substr(0, 4) != "_ZGV")
        return false;
    const std::string_view rest = guard.substr(4);
    if (name.substr(0, 4) != "_ZGR")
        return name.substr(0, 2) == "_Z" && name.substr(2) == rest;
    return name.substr(4, rest.size()) == rest && name.find('_', 4 + rest.size()) == name.size() - 1;
}
