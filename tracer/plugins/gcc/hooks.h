/* Calls of the tracer's hooks in the code of a function. */
#ifndef SPBAGS_HOOKS_H
#define SPBAGS_HOOKS_H

#include "compiler.h"

/* Before the first call. */
void hooks_begin(const char *plugin);

tree number_of(HOST_WIDE_INT value);
/* An expression as a number, and what computes that. */
tree as_number(tree value, gimple_seq *sequence);

/* A call of the hook with this name. It accesses nothing that the compiler knows of and keeps no address: no variable
   escapes by it, values of memory stay known over it, and yet it stays where it is. */
gcall *call_hook(const char *name, std::initializer_list<tree> arguments);

/* The same of one that reads what its arguments point to, and may give a number. */
gcall *call_reading_hook(const char *name, std::initializer_list<tree> arguments);

/* A function of a library under its own name, which the compiler knows nothing of: it has the type of a builtin. */
tree library_function(tree builtin);

/* The name of the hook that is called, or null for any other statement. */
const char *called_hook(const gimple *statement);

/* `FILE:LINE`; the address of a constant with a text; and of one with that. */
std::string text_of_place(location_t location);
tree literal_of(const std::string &text);
tree place_of(location_t location);

/* The address of a variable that is made for this value. */
tree in_memory(tree value, gimple_seq *sequence);
/* That of what is named, an expression. */
tree address_of(tree reference);

/* All these statements have this place of the source. */
void locate(gimple_seq sequence, location_t location);

#endif
