	.file	"last_call.c"
	.text
	.globl	halt
	.type	halt, @function
halt:
.LFB0:
	.cfi_startproc
	pushq	%rbx
	.cfi_def_cfa_offset 16
	.cfi_offset 3, -16
	movq	%rdi, %rbx
	call	take@PLT
	movl	%eax, (%rbx)
	ud2
	.cfi_endproc
.LFE0:
	.size	halt, .-halt
	.globl	ends_in_abort
	.type	ends_in_abort, @function
ends_in_abort:
.LFB1:
	.cfi_startproc
	pushq	%rbx
	.cfi_def_cfa_offset 16
	.cfi_offset 3, -16
	movl	%edi, %eax
	movl	%edi, %ebx
	andl	$3, %eax
	subq	$32, %rsp
	.cfi_def_cfa_offset 48
	movl	%edi, 8(%rsp,%rax,4)
	leaq	8(%rsp), %rdi
	call	take@PLT
	cmpl	%ebx, %eax
	jne	.L4
	leaq	12(%rsp), %rdi
	call	take@PLT
	movl	%eax, 8(%rsp)
.L4:
	call	abort@PLT
	.cfi_endproc
.LFE1:
	.size	ends_in_abort, .-ends_in_abort
	.globl	behind_abort
	.type	behind_abort, @function
behind_abort:
.LFB2:
	.cfi_startproc
	leal	1(%rdi), %eax
	ret
	.cfi_endproc
.LFE2:
	.size	behind_abort, .-behind_abort
	.globl	ends_in_halt
	.type	ends_in_halt, @function
ends_in_halt:
.LFB3:
	.cfi_startproc
	movl	%edi, %eax
	subq	$56, %rsp
	.cfi_def_cfa_offset 64
	andl	$7, %eax
	movl	%edi, 8(%rsp,%rax,4)
	leaq	8(%rsp), %rdi
	call	halt
	.cfi_endproc
.LFE3:
	.size	ends_in_halt, .-ends_in_halt
	.globl	behind_halt
	.type	behind_halt, @function
behind_halt:
.LFB4:
	.cfi_startproc
	movl	%edi, %eax
	subq	$88, %rsp
	.cfi_def_cfa_offset 96
	andl	$15, %eax
	movl	%edi, (%rsp,%rax,4)
	movq	%rsp, %rdi
	call	take@PLT
	addl	(%rsp), %eax
	addq	$88, %rsp
	.cfi_def_cfa_offset 8
	ret
	.cfi_endproc
.LFE4:
	.size	behind_halt, .-behind_halt
	.globl	begin
	.type	begin, @function
begin:
.LFB5:
	.cfi_startproc
	pushq	%rax
	.cfi_def_cfa_offset 16
	cmpl	$4, %edi
	jle	.L13
	call	ends_in_abort
.L13:
	call	ends_in_halt
	.cfi_endproc
.LFE5:
	.size	begin, .-begin
	.ident	"GCC: (Debian 12.2.0-14+deb12u1) 12.2.0"
	.section	.note.GNU-stack,"",@progbits
