	# A function with two epilogs, in version 2.
	.text
	.globl	start
	.def	start; .scl 2; .type 32; .endef
	.seh_proc start
start:
	.seh_unwindversion 2
	pushq	%rsi
	.seh_pushreg %rsi
	pushq	%rdi
	.seh_pushreg %rdi
	subq	$40, %rsp
	.seh_stackalloc 40
	.seh_endprologue
	testl	%ecx, %ecx
	je	.Lother
	.seh_startepilogue
	addq	$40, %rsp
	.seh_unwindv2start
	popq	%rdi
	popq	%rsi
	retq
	.seh_endepilogue
	.fill	300, 1, 0x90
.Lother:
	movl	$1, %eax
	.seh_startepilogue
	addq	$40, %rsp
	.seh_unwindv2start
	popq	%rdi
	popq	%rsi
	retq
	.seh_endepilogue
	.seh_endproc
