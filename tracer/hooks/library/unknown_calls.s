# Macros for the functions of which nothing is known, in the order of their table, which a link writes and unknown.c
# reads. What is called in place of one counts the call and goes on to it, so that the function finds its words and
# returns as without this.
	.section .note.GNU-stack,"",@progbits
	.data
	.balign 8
	.globl __spbags_unknown, __spbags_unknown_end
__spbags_unknown:

	.macro row name, shown, library, always
	.quad .Lname\@, .Lshown\@, .Llibrary\@, \always, 0
	.section .rodata
.Lname\@:
	.string "\name"
.Lshown\@:
	.string "\shown"
.Llibrary\@:
	.string "\library"
	.data
	.endm

	.macro function name, shown, library, always
.Lrow\@:
	row \name, "\shown", "\library", \always
	.text
	.globl __wrap_\name
	.type __wrap_\name, @function
__wrap_\name:
	.cfi_startproc
	pushq %rdi
	.cfi_adjust_cfa_offset 8
	leaq .Lrow\@(%rip), %rdi
	call __spbags_count_call
	popq %rdi
	.cfi_adjust_cfa_offset -8
	jmp __real_\name
	.cfi_endproc
	.data
	.endm
