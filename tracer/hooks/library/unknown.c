/* Functions that nothing is known of. The link puts a stub before each, which calls the hook here and goes on to the
   function. So a report can say which of them were called. */
#include "library/unknown.h"

#include "program/procedures.h"
#include "program/accesses.h"
#include "base/tell.h"

/* Each source that spbags-cc compiles asks for this. */
const char __spbags_traced = 1;

struct unknown unknown_system_calls = {.name = "syscall", .shown = "syscall", .library = "libc.so.6"};

/* The link's table, if it has one. */
extern struct unknown unknown_functions[] __asm__("__spbags_unknown") __attribute__((weak));
extern struct unknown unknown_end[] __asm__("__spbags_unknown_end") __attribute__((weak));

/* The function gets what its caller gave it, in whatever register, so this changes none and calls nothing. Before the
   program the hooks call some themselves. */
__attribute__((no_caller_saved_registers, target("general-regs-only"))) void
__spbags_count_call(struct unknown *function) {
    function->calls += doing.tracing && (function->always || procedures_run_beside());
}

void unknown_tell(void) {
    for (struct unknown *function = unknown_functions; function < unknown_end; function++)
        if (*function->library == '\0')
            tell_incomplete("calls to the virtual functions of %s aren't seen: spbags-cc didn't compile them",
                            function->shown);
        else if (function->calls > 0)
            tell_unseen(function->name, function->shown, function->library, function->calls);
    if (unknown_system_calls.calls > 0)
        tell_unseen(unknown_system_calls.name, unknown_system_calls.shown, unknown_system_calls.library,
                    unknown_system_calls.calls);
}
