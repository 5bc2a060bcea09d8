	.file	"outside.c"
	.text
	.globl	take
	.type	take, @function
take:
.LFB0:
	.cfi_startproc
	movl	4(%rdi), %eax
	ret
	.cfi_endproc
.LFE0:
	.size	take, .-take
	.section	.text.unlikely,"ax",@progbits
	.globl	abort
	.type	abort, @function
abort:
.LFB1:
	.cfi_startproc
	ud2
	.cfi_endproc
.LFE1:
	.size	abort, .-abort
	.ident	"GCC: (Debian 12.2.0-14+deb12u1) 12.2.0"
	.section	.note.GNU-stack,"",@progbits
