/* The reducers of OpenCilk: the attribute `spbags_reducer(functions)` of a declaration, and the hooks at the uses of
   what is declared so. */
#ifndef SPBAGS_REDUCERS_H
#define SPBAGS_REDUCERS_H

#include "hooks.h"

/* Before a source is read. */
void reducers_begin(const char *plugin);
/* Puts the hooks into a function, whose code still has the program's own variables and blocks. */
void reducers_put(function *fun);

/* Whether the source has a reducer. */
extern bool reducer_types_any;

/* A variable or a member that is a reducer has the attribute, and so has the name of its type, a variant: so it is known
   what pointers and references to it point to. That of a type, or of an array's elements; and of what an expression
   names, a reducer or an array of some; or null. */
tree reducer_types_of(tree type);
tree reducer_types_attribute(tree named);
/* A pointer or a reference to a reducer. */
bool reducer_types_is_pointer(tree type);
/* Whether a view of this type may have more memory elsewhere. */
bool reducer_types_has_pointers(tree type);
/* What another schedule would do, and this run doesn't: a text, or a null pointer if all that is left out touches
   nothing but views. To ask once all functions of the source are read. */
tree reducer_types_note(tree decl, tree type, tree attribute);
std::string reducer_types_name(tree decl);
/* The compiler knows the attribute from here on. */
void reducer_types_begin(const char *plugin);

#endif
