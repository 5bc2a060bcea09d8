	.arch armv8-a
	.file	"pac_ret.c"
	.text
	.align	2
	.global	unsigned_leaf
	.type	unsigned_leaf, %function
unsigned_leaf:
.LFB0:
	.cfi_startproc
	str	w1, [x0]
	add	w0, w1, 1
	ret
	.cfi_endproc
.LFE0:
	.size	unsigned_leaf, .-unsigned_leaf
	.align	2
	.global	within
	.type	within, %function
within:
.LFB1:
	.cfi_startproc
	.cfi_b_key_frame
	lsl	w2, w1, 2
	hint	27 // pacibsp
	.cfi_window_save
	stp	x29, x30, [sp, -32]!
	.cfi_def_cfa_offset 32
	.cfi_offset 29, -32
	.cfi_offset 30, -24
	add	x2, x2, 15
	and	x2, x2, 8589934576
	mov	x29, sp
	.cfi_def_cfa_register 29
	str	x19, [sp, 16]
	.cfi_offset 19, -16
	sub	sp, sp, x2
	mov	w19, w1
	str	w1, [sp]
	cmp	w1, 4
	ble	.L3
	bl	unsigned_leaf
.L4:
	mov	sp, x29
	add	w0, w0, w19
	ldr	x19, [sp, 16]
	ldp	x29, x30, [sp], 32
	.cfi_remember_state
	.cfi_restore 30
	.cfi_restore 29
	.cfi_restore 19
	.cfi_def_cfa 31, 0
	hint	31 // autibsp
	.cfi_window_save
	ret
.L3:
	.cfi_restore_state
	bl	signed_leaf
	b	.L4
	.cfi_endproc
.LFE1:
	.size	within, .-within
	.align	2
	.global	begin
	.type	begin, %function
begin:
.LFB2:
	.cfi_startproc
	.cfi_b_key_frame
	hint	27 // pacibsp
	.cfi_window_save
	mov	w1, w0
	stp	x29, x30, [sp, -48]!
	.cfi_def_cfa_offset 48
	.cfi_offset 29, -48
	.cfi_offset 30, -40
	ubfiz	x0, x1, 2, 2
	add	x2, sp, 24
	mov	x29, sp
	str	w1, [x2, x0]
	mov	x0, 0
	bl	between
	ldr	w1, [sp, 28]
	ldp	x29, x30, [sp], 48
	.cfi_restore 30
	.cfi_restore 29
	.cfi_def_cfa_offset 0
	hint	31 // autibsp
	.cfi_window_save
	add	w0, w0, w1
	ret
	.cfi_endproc
.LFE2:
	.size	begin, .-begin
	.ident	"GCC: (Debian 12.2.0-14+deb12u1) 12.2.0"
	.section	.note.GNU-stack,"",@progbits
	.section	.note.gnu.property,"a"
	.align	3
	.word	4
	.word	16
	.word	5
	.string	"GNU"
	.word	3221225472
	.word	4
	.word	2
	.align	3
