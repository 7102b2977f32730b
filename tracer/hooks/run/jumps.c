/* The buffers of setjmp and longjmp, and jumps out of a signal's handler. */
#include "base/doing.h"
#include "program/hidden.h"
#include "program/accesses.h"
#include "base/source_line.h"
#include "base/tell.h"
#include "run/signals.h"

/* For the stubs below: with the address and the stack pointer of the call. */
__attribute__((used)) static void write_jump_buffer(void *at, uintptr_t code, uintptr_t stack_pointer) {
    if (doing.tracing)
        accesses_note(true, (uintptr_t)at, sizeof(jmp_buf), NULL, stack_pointer, code);
}

/* setjmp keeps where its caller is, so no function can call it for another one: a stub goes on to it. */
#define SETS(NAME) \
    __asm__(".text\n\t.globl __wrap_" NAME "\n\t.type __wrap_" NAME ", @function\n__wrap_" NAME ":\n" \
            "\t.cfi_startproc\n\tpushq %rdi\n\tpushq %rsi\n\tsubq $8, %rsp\n\t.cfi_adjust_cfa_offset 24\n" \
            "\tmovq 24(%rsp), %rsi\n\tleaq 32(%rsp), %rdx\n\tcall write_jump_buffer\n" \
            "\taddq $8, %rsp\n\tpopq %rsi\n\tpopq %rdi\n\t.cfi_adjust_cfa_offset -24\n\tjmp __real_" NAME "\n" \
            "\t.cfi_endproc\n");
SETS("setjmp")
SETS("_setjmp")
SETS("__sigsetjmp")

static _Unwind_Reason_Code find_interrupted(struct _Unwind_Context *context, void *is_interrupted) {
    int is_next = 0;
    _Unwind_GetIPInfo(context, &is_next);
    *(bool *)is_interrupted = is_next;
    return is_next ? _URC_END_OF_STACK : _URC_NO_REASON;
}

/* A hook that the signal interrupted doesn't go on, and its access may be marked as one that was noted: so it is too
   where the hook's call had no stack. */
static void tell_way_out(uintptr_t code) {
    bool is_in_handler = false;
    char line[300];
    _Unwind_Backtrace(find_interrupted, &is_in_handler);
    if (is_in_handler && tell_is_first(code))
        tell_incomplete(
            "%s: this jump leaves the handler of a signal, and what that interrupted may hide later accesses",
            source_line(code, line, sizeof line));
}

#define JUMPS(NAME) \
    __attribute__((noreturn)) void __real_##NAME(void *at, int value); \
    __attribute__((noreturn)) void __wrap_##NAME(void *at, int value) { \
        if (doing.tracing) \
            NOTE_READ(at, sizeof(jmp_buf), __wrap_##NAME); \
        if (doing.tracing && signals_have_handler) \
            tell_way_out(CODE); \
        hidden_set(0); \
        __real_##NAME(at, value); \
    }
JUMPS(longjmp)
JUMPS(_longjmp)
JUMPS(siglongjmp)
JUMPS(__longjmp_chk)
