	.arch armv8-a
	.file	"none.c"
	.text
	.align	2
	.global	between
	.type	between, %function
between:
.LFB0:
	.cfi_startproc
	stp	x29, x30, [sp, -32]!
	.cfi_def_cfa_offset 32
	.cfi_offset 29, -32
	.cfi_offset 30, -24
	mov	w2, w1
	add	x4, sp, 24
	ubfiz	x3, x2, 2, 1
	mov	x29, sp
	str	w1, [x4, x3]
	bl	within
	ldr	w1, [sp, 24]
	ldp	x29, x30, [sp], 32
	.cfi_restore 30
	.cfi_restore 29
	.cfi_def_cfa_offset 0
	add	w0, w0, w1
	ret
	.cfi_endproc
.LFE0:
	.size	between, .-between
	.ident	"GCC: (Debian 12.2.0-14+deb12u1) 12.2.0"
	.section	.note.GNU-stack,"",@progbits
