	.arch armv8-a
	.file	"last_call.c"
	.text
	.align	2
	.global	halt
	.type	halt, %function
halt:
.LFB0:
	.cfi_startproc
	stp	x29, x30, [sp, -32]!
	.cfi_def_cfa_offset 32
	.cfi_offset 29, -32
	.cfi_offset 30, -24
	mov	x29, sp
	str	x19, [sp, 16]
	.cfi_offset 19, -16
	mov	x19, x0
	bl	take
	str	w0, [x19]
	brk #1000
	.cfi_endproc
.LFE0:
	.size	halt, .-halt
	.align	2
	.global	ends_in_abort
	.type	ends_in_abort, %function
ends_in_abort:
.LFB1:
	.cfi_startproc
	stp	x29, x30, [sp, -64]!
	.cfi_def_cfa_offset 64
	.cfi_offset 29, -64
	.cfi_offset 30, -56
	mov	x29, sp
	str	x19, [sp, 16]
	.cfi_offset 19, -48
	mov	w19, w0
	add	x0, sp, 40
	ubfiz	x1, x19, 2, 2
	str	w19, [x0, x1]
	bl	take
	cmp	w0, w19
	bne	.L4
	add	x0, sp, 44
	bl	take
	str	w0, [sp, 40]
.L4:
	bl	abort
	.cfi_endproc
.LFE1:
	.size	ends_in_abort, .-ends_in_abort
	.align	2
	.global	behind_abort
	.type	behind_abort, %function
behind_abort:
.LFB2:
	.cfi_startproc
	add	w0, w0, 1
	ret
	.cfi_endproc
.LFE2:
	.size	behind_abort, .-behind_abort
	.align	2
	.global	ends_in_halt
	.type	ends_in_halt, %function
ends_in_halt:
.LFB3:
	.cfi_startproc
	stp	x29, x30, [sp, -64]!
	.cfi_def_cfa_offset 64
	.cfi_offset 29, -64
	.cfi_offset 30, -56
	mov	w1, w0
	add	x0, sp, 24
	ubfiz	x2, x1, 2, 3
	mov	x29, sp
	str	w1, [x0, x2]
	bl	halt
	.cfi_endproc
.LFE3:
	.size	ends_in_halt, .-ends_in_halt
	.align	2
	.global	behind_halt
	.type	behind_halt, %function
behind_halt:
.LFB4:
	.cfi_startproc
	stp	x29, x30, [sp, -96]!
	.cfi_def_cfa_offset 96
	.cfi_offset 29, -96
	.cfi_offset 30, -88
	mov	w1, w0
	add	x0, sp, 16
	ubfiz	x2, x1, 2, 4
	mov	x29, sp
	str	w1, [x0, x2]
	bl	take
	ldr	w1, [sp, 16]
	ldp	x29, x30, [sp], 96
	.cfi_restore 30
	.cfi_restore 29
	.cfi_def_cfa_offset 0
	add	w0, w0, w1
	ret
	.cfi_endproc
.LFE4:
	.size	behind_halt, .-behind_halt
	.align	2
	.global	begin
	.type	begin, %function
begin:
.LFB5:
	.cfi_startproc
	stp	x29, x30, [sp, -16]!
	.cfi_def_cfa_offset 16
	.cfi_offset 29, -16
	.cfi_offset 30, -8
	mov	x29, sp
	cmp	w0, 4
	ble	.L12
	bl	ends_in_abort
.L12:
	bl	ends_in_halt
	.cfi_endproc
.LFE5:
	.size	begin, .-begin
	.ident	"GCC: (Debian 14.2.0-19) 14.2.0"
	.section	.note.GNU-stack,"",@progbits
