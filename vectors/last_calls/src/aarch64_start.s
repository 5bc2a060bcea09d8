// Where the program begins: no .cfi, so that its section does not cover it. The argument is how many words the program
// was started with.
	.text
	.align	2
	.globl	_start
	.type	_start, @function
_start:
	ldr	w0, [sp]
	mov	x29, sp
	bl	begin
	.size	_start, .-_start
	.section	.note.GNU-stack,"",@progbits
