	.arch armv8-a
	.file	"outside.c"
	.text
	.align	2
	.global	take
	.type	take, %function
take:
.LFB0:
	.cfi_startproc
	ldr	w0, [x0, 4]
	ret
	.cfi_endproc
.LFE0:
	.size	take, .-take
	.section	.text.unlikely,"ax",@progbits
	.align	2
	.global	abort
	.type	abort, %function
abort:
.LFB1:
	.cfi_startproc
	brk #1000
	.cfi_endproc
.LFE1:
	.size	abort, .-abort
	.ident	"GCC: (Debian 14.2.0-19) 14.2.0"
	.section	.note.GNU-stack,"",@progbits
