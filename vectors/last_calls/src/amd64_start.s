# Where the program begins: no .cfi, so that its section does not cover it. The argument is how many words the program
# was started with.
	.text
	.globl	_start
	.type	_start, @function
_start:
	movl	(%rsp), %edi
	movq	%rsp, %rbp
	call	begin
	.size	_start, .-_start
	.section	.note.GNU-stack,"",@progbits
