/* What stands beside a statement of the assembler. */
#include "program/procedures.h"
#include "records/guards.h"
#include "program/accesses.h"
#include "base/tell.h"

void __spbags_asm(const volatile void *at, unsigned long size, int writes, int locked) {
    if (!doing.tracing)
        return;
    if (locked)
        guards_enter(GUARD_ATOMIC, "atomic");
    NOTE(writes, at, size);
    if (locked)
        guards_leave(GUARD_ATOMIC);
}

/* One outside of functions, or that is a whole function. Where the plugin understands the text there is no place. */
void __spbags_asm_outside(const char *place, const char *text) {
    (void)text;
    if (doing.tracing && place)
        tell_incomplete("%s: the assembly here may access memory, and isn't seen", place);
}

/* One that goes to memory by a register, or calls something. Each tells once, by its place in the source. */
void __spbags_asm_unseen(const char *place) {
    if (procedures_run_beside() && tell_is_first((uintptr_t)place))
        tell_incomplete("%s: the assembly here may access memory that none of its operands names", place);
}

/* A statement of the program that accesses memory in a way that has no hook. */
void __spbags_unseen(const char *place) {
    if (procedures_run_beside() && tell_is_first((uintptr_t)place))
        tell_incomplete("%s: an access of memory here isn't seen", place);
}
