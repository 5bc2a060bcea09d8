	.arch armv8-a
	.file	"pac_ret_leaf.c"
	.text
	.align	2
	.global	signed_leaf
	.type	signed_leaf, %function
signed_leaf:
.LFB0:
	.cfi_startproc
	.cfi_b_key_frame
	hint	27 // pacibsp
	.cfi_window_save
	sub	sp, sp, #16
	.cfi_def_cfa_offset 16
	ubfiz	x2, x1, 2, 2
	mov	x3, sp
	str	w1, [x3, x2]
	ldr	w1, [sp, 4]
	str	w1, [x0]
	ldr	w0, [sp]
	add	sp, sp, 16
	.cfi_def_cfa_offset 0
	hint	31 // autibsp
	.cfi_window_save
	ret
	.cfi_endproc
.LFE0:
	.size	signed_leaf, .-signed_leaf
	.ident	"GCC: (Debian 12.2.0-14+deb12u1) 12.2.0"
	.section	.note.GNU-stack,"",@progbits
	.section	.note.gnu.property,"a"
	.align	3
	.word	4
	.word	16
	.word	5
	.string	"GNU"
	.word	3221225472
	.word	4
	.word	2
	.align	3
