# An image whose records lead along a chain: `more` by an odd address to the record of `part`, and the info of `part` to that of `start`.
	.text
	.globl	start
start:	pushq	%rbp
	subq	$64, %rsp
	leaq	48(%rsp), %rbp
	testl	%ecx, %ecx
	je	end
part:	movq	%rsi, 32(%rsp)
	movaps	%xmm6, 16(%rsp)
	nop
more:	movq	32(%rsp), %rsi
	movaps	16(%rsp), %xmm6
	nop
end:	addq	$64, %rsp
	popq	%rbp
	ret
last:	ret

	.section .xdata,"dr"
	.p2align 2
first:	.byte	1, end0 - start, 3, 0x35	# version 1, prolog, slots, frame register RBP with offset 48
	.byte	end0 - start, 0x03		# set frame
	.byte	5, 0x72				# alloc 64
	.byte	1, 0x50				# push RBP
	.byte	0, 0
second:	.byte	0x21, end1 - part, 4, 0x35	# chained
	.byte	end1 - part, 0x68, 1, 0		# save XMM6
	.byte	5, 0x64, 4, 0			# save RSI
	.long	start@IMGREL, part@IMGREL, first@IMGREL
	.set	end0, start + 10
	.set	end1, part + 10

	.section .pdata,"dr"
	.p2align 2
	.long	start@IMGREL, part@IMGREL, first@IMGREL
named:	.long	part@IMGREL, more@IMGREL, second@IMGREL
	.long	more@IMGREL, end@IMGREL, named@IMGREL + 1
	.long	end@IMGREL, last@IMGREL, first@IMGREL
