/* What `va_arg` reads and sets of a list of arguments, where the compiler has one operation for it. */
#include "program/accesses.h"

/* A list, as the processor's binary interface has it: how far the registers of each kind are used up, of which these
   many bytes were saved, and where the next argument in memory is. */
struct list {
    uint32_t general, vectors;
    void *in_memory, *saved;
};
enum { GENERAL_BYTES = 6 * 8, VECTOR_BYTES = GENERAL_BYTES + 8 * 16 };
/* Where the next argument is expected. A small struct may have parts in both kinds of registers. */
enum frame_kind { IN_GENERAL, IN_VECTOR, IN_MEMORY, IN_ANY };

/* Registers of a kind, while there are some left. */
static bool take_registers(const uint32_t *used, uint32_t bytes, uintptr_t stack_pointer, uintptr_t code) {
    accesses_note(false, (uintptr_t)used, sizeof *used, NULL, stack_pointer, code);
    if (*used >= bytes)
        return false;
    accesses_note(true, (uintptr_t)used, sizeof *used, NULL, stack_pointer, code);
    return true;
}

void __spbags_next_argument(const struct list *list, long kind) {
    bool is_saved = false;
    if (kind == IN_GENERAL || kind == IN_ANY)
        is_saved |= take_registers(&list->general, GENERAL_BYTES, STACK_POINTER, CODE);
    if (kind == IN_VECTOR || kind == IN_ANY)
        is_saved |= take_registers(&list->vectors, VECTOR_BYTES, STACK_POINTER, CODE);
    if (is_saved)
        NOTE(false, &list->saved, sizeof list->saved);
    if (is_saved && kind != IN_ANY)
        return;
    NOTE(false, &list->in_memory, sizeof list->in_memory);
    NOTE(true, &list->in_memory, sizeof list->in_memory);
}
