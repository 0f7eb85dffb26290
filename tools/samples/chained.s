	# A function with an exception handler, and two chained parts of it, one within the other.
	.text
	.globl	start
	.def	start; .scl 2; .type 32; .endef
	.seh_proc start
start:
	pushq	%rbp
	.seh_pushreg %rbp
	subq	$64, %rsp
	.seh_stackalloc 64
	leaq	48(%rsp), %rbp
	.seh_setframe %rbp, 48
	.seh_endprologue
	testl	%ecx, %ecx
	je	.Lend
	.seh_startchained
	movq	%rsi, 32(%rsp)
	.seh_savereg %rsi, 32
	movaps	%xmm6, 16(%rsp)
	.seh_savexmm %xmm6, 16
	.seh_endprologue
	nop
	.seh_startchained
	movq	%rdi, 40(%rsp)
	.seh_savereg %rdi, 40
	.seh_endprologue
	nop
	.seh_endchained
	.seh_endchained
.Lend:
	addq	$64, %rsp
	popq	%rbp
	ret
	.seh_handler start, @unwind, @except
	.seh_handlerdata
	.long	1
	.long	start@IMGREL, .Lend@IMGREL, 1, .Lend@IMGREL
	.text
	.seh_endproc
