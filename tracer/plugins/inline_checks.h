/* The tests that stand inline in place of calls of hooks, as macros of the assembler: each compiler's plugin puts the
   text before all code. */
#ifndef SPBAGS_INLINE_CHECKS_H
#define SPBAGS_INLINE_CHECKS_H

/* That for a repeat at an access. The address is in %rdi, and what a call may change is free. An access goes the short
   way, as in program/accesses.c, if the stack pointer is below the end of that way, and the address is a multiple of
   the size. A region of the stack has a row below 0, and marks there: then a repeat calls nothing. Others have a byte
   for each granule: then a repeat calls nothing, nor does the first access to granules whose bytes say BLOCK_QUICK,
   which is the sign, or to those of the block that this access remembers, by shadow/blocks.h. It says there what is
   done before it knows that, so that a handler of a signal between changes nothing; for all else `block` takes that
   back, `stack` is called where not all marks are of repeats, and `long` for the rest.

   What may become a part of a shared library, where the assembler knows __spbags_is_shared, has its addresses in a
   table. */
static const char inline_checks[] =
    R"(.macro __spbags_global BEFORE, NAME, BEHIND, FREE
.ifdef __spbags_is_shared
	movq \NAME@GOTPCREL(%rip), \FREE
	\BEFORE (\FREE)\BEHIND
.else
	\BEFORE \NAME(%rip)\BEHIND
.endif
.endm
# Calls go by a jump that those of an object share: so they need no relocation.
.macro __spbags_call HOOK
	call .L_spbags_\HOOK
.ifndef .L_spbags_\HOOK
	.pushsection .text, 1
.L_spbags_\HOOK:
	jmp \HOOK
	.popsection
.endif
.endm
# What an access remembers is 9: whether that is the block with this byte.
.macro __spbags_remembered
	leaq (%rsi,%rax), %rcx
	andq $-64, %rcx
	__spbags_global orq, __spbags_period, ", %rcx", %rdx
	cmpq %rcx, 9f(%rip)
.endm
.macro __spbags_inline_check KIND, SIZE, BIT, BITS, IS_REPEAT, IS_NONE
	__spbags_global cmpq, __spbags_short_way_end, ", %rsp", %rax
	jae 1f
	testb $\SIZE - 1, %dil
	jne 1f
	movq %rdi, %rax
	shrq $24, %rax
.ifdef __spbags_is_shared
	movq __spbags_regions@GOTPCREL(%rip), %rsi
	movq (%rsi,%rax,8), %rsi
.else
	movq __spbags_regions(,%rax,8), %rsi
.endif
	movq %rdi, %rax
	shrq $2, %rax
	testq %rsi, %rsi
	jle 4f
	movzbl (%rsi,%rax), %ecx
	testb $\BITS, %cl
.if \SIZE == 4
	jne 6f
	orb $\BIT, (%rsi,%rax)
	js 6f
.else
	jne 2f
	orb $\BIT, (%rsi,%rax)
	jns 7f
2:
	movzbl 1(%rsi,%rax), %ecx
	testb $\BITS, %cl
	jne 6f
	orb $\BIT, 1(%rsi,%rax)
	js 6f
	incq %rsi
.endif
	__spbags_remembered
	je 6f
3:
	addq %rax, %rsi
	leaq 9f(%rip), %rdx
	__spbags_call __spbags_block_\KIND\SIZE
	jmp 6f
.if \SIZE == 8
7:
	__spbags_remembered
	je 2b
	jmp 3b
.endif
4:
	je 1f
	addq %rdi, %rsi
	__spbags_global movl, __spbags_has_read, ", %eax", %rax
	cmpl %eax, (%rsi)
.if \SIZE == 8
	\IS_NONE 5f
	cmpl %eax, 4(%rsi)
.endif
	\IS_REPEAT 6f
5:
	__spbags_call __spbags_stack_\KIND\SIZE
	jmp 6f
1:
	__spbags_call __spbags_long_\KIND\SIZE
6:
	.pushsection spbags_sites, "aw", @nobits
	.balign 8
9:
	.zero 8
	.popsection
.endm
.macro __spbags_read SIZE
	__spbags_inline_check read, \SIZE, 1, 3, jae, jb
.endm
.macro __spbags_write SIZE
	__spbags_inline_check write, \SIZE, 2, 2, ja, jbe
.endm
)"
    /* The same of a variable of the function itself: it has marks, whose addresses are as far apart as those of the
       usual granules. */
    R"(.macro __spbags_local_check KIND, SIZE, IS_REPEAT, IS_NONE
	__spbags_global cmpq, __spbags_short_way_end, ", %rsp", %rax
	jae 1f
	__spbags_global movq, __spbags_marks, ", %rsi", %rax
	addq %rdi, %rsi
	__spbags_global movl, __spbags_has_read, ", %eax", %rax
	cmpl %eax, (%rsi)
.if \SIZE == 8
	\IS_NONE 5f
	cmpl %eax, 4(%rsi)
.endif
	\IS_REPEAT 6f
5:
	__spbags_call __spbags_stack_\KIND\SIZE
	jmp 6f
1:
	__spbags_call __spbags_long_\KIND\SIZE
6:
.endm
.macro __spbags_read_local SIZE
	__spbags_local_check read, \SIZE, jae, jb
.endm
.macro __spbags_write_local SIZE
	__spbags_local_check write, \SIZE, ja, jbe
.endm
)"
    /* The usual entry of a function, in place of the call of its hook: accesses go the short way, the newest frame
       hasn't ended, and nothing has a mark below this one's end. A frame has 56 bytes: its end; its kind, which is 2
       for a child, and three numbers, all of them 0 here; how many records went before it; and what only others have.
       Before the frame is the newest one, a handler of a signal may have its own there: so the rest is written then,
       and the end again. */
    R"(.macro __spbags_entry
	leaq 16(%rbp), %rcx
	__spbags_global movq, __spbags_top, ", %rax", %rax
	__spbags_global cmpq, __spbags_short_way_first, ", %rcx", %rdx
	jb 7f
	__spbags_global cmpq, __spbags_lowest, ", %rcx", %rdx
	ja 7f
	cmpq (%rax), %rcx
	jae 7f
	addq $56, %rax
	__spbags_global cmpq, __spbags_frames_end, ", %rax", %rdx
	je 7f
	__spbags_global movq, __spbags_next_record, ", %rdx", %rdx
	__spbags_global subq, __spbags_records_origin, ", %rdx", %rsi
	movq %rcx, (%rax)
	__spbags_global "movq %rax,", __spbags_top, "", %rsi
	movq %rcx, (%rax)
	movq $0, 8(%rax)
	movq $0, 16(%rax)
	movq %rdx, 24(%rax)
	__spbags_global "movq %rcx,", __spbags_short_way_end, "", %rsi
	jmp 6f
7:
	__spbags_call __tsan_func_entry
6:
.endm
)"
    /* And its usual exit: the newest frame is the function's, with nothing that stands open. */
    R"(.macro __spbags_exit
	leaq 16(%rbp), %rcx
	__spbags_global cmpq, __spbags_short_way_end, ", %rcx", %rdx
	jne 7f
	__spbags_global cmpq, __spbags_lowest, ", %rcx", %rdx
	ja 7f
	__spbags_global movq, __spbags_top, ", %rax", %rax
	movq 8(%rax), %rdx
	orq 16(%rax), %rdx
	jne 7f
	cmpl $2, -48(%rax)
	cmovneq -56(%rax), %rdx
	subq $56, %rax
	__spbags_global "movq %rax,", __spbags_top, "", %rsi
	__spbags_global "movq %rdx,", __spbags_short_way_end, "", %rsi
	jmp 6f
7:
	__spbags_call __tsan_func_exit
6:
.endm
)";

#endif
