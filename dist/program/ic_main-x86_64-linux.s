/* The command program: numbered objects and collections at the command line, for Linux on x86_64.
   logic=proved functions=6 axioms=13 target=x86_64-unknown-linux-gnu threads=_exit,abort,free,malloc,pthread_attr_destroy,pthread_attr_init,pthread_attr_setguardsize,pthread_attr_setstacksize,pthread_create,pthread_detach,pthread_join,pthread_self,sched_yield,syscall main=Threads+Wait may-wait=2 sum=dac8208d650f15bf native=nat,char,string logic-built=trusted libraries-built=trusted statements=trusted incremental=trusted
   Licensed under Apache 2.0 or MIT. Made by tools/build-library: do not edit. */
	.section	.rodata.cst16,"aM",@progbits,16
	.p2align	4, 0x0
.LCPI0_0:
	.byte	0
	.byte	1
	.byte	2
	.byte	3
	.byte	4
	.byte	5
	.byte	6
	.byte	7
	.byte	8
	.byte	9
	.byte	10
	.byte	11
	.byte	12
	.byte	13
	.byte	14
	.byte	15
.LCPI0_1:
	.byte	16
	.byte	17
	.byte	18
	.byte	19
	.byte	20
	.byte	21
	.byte	22
	.byte	23
	.byte	24
	.byte	25
	.byte	26
	.byte	27
	.byte	28
	.byte	29
	.byte	30
	.byte	31
.LCPI0_2:
	.zero	16,10
	.section	.text.ic_main.run.fd625e2fe7ce0436,"ax",@progbits
	.p2align	4
	.type	ic_main.run.fd625e2fe7ce0436,@function
ic_main.run.fd625e2fe7ce0436:
	pushq	%rbp
	pushq	%r15
	pushq	%r14
	pushq	%r13
	pushq	%r12
	pushq	%rbx
	subq	$3072, %rsp
	movq	$0, (%rsp)
	subq	$3072, %rsp
	movq	$0, (%rsp)
	subq	$2856, %rsp
	movq	%rsi, 32(%rsp)
	movq	%rdi, 584(%rsp)
	pxor	%xmm0, %xmm0
	movdqa	%xmm0, 624(%rsp)
	movdqa	%xmm0, 608(%rsp)
	movdqa	%xmm0, 592(%rsp)
	movq	$0, 640(%rsp)
	leaq	744(%rsp), %rdi
	movl	$8256, %edx
	xorl	%esi, %esi
	callq	memset@PLT
	pxor	%xmm0, %xmm0
	movdqa	%xmm0, 544(%rsp)
	movdqa	%xmm0, 560(%rsp)
	movdqa	%xmm0, 64(%rsp)
	movq	$0, 80(%rsp)
	movq	%rsp, %r15
	movq	%r15, 144(%rsp)
	movdqu	%xmm0, 152(%rsp)
	movl	$1, %r14d
	xorl	%r12d, %r12d
	.p2align	4
.LBB0_1:
	pxor	%xmm0, %xmm0
	movdqa	%xmm0, 320(%rsp)
	movdqa	%xmm0, 304(%rsp)
	leaq	304(%rsp), %rsi
	movl	$32, %ebx
	movl	$32, %edx
	movq	%r14, %rdi
	callq	rattle_arg@PLT
	movq	%rax, %r13
	cmpq	$-1, %rax
	movl	$22, %eax
	movl	$36, %edi
	cmovel	%eax, %edi
	testq	%r13, %r13
	movl	$0, %eax
	cmovnsl	%eax, %edi
	callq	rattle_set_errno@PLT
	callq	rattle_errno@PLT
	testl	%eax, %eax
	jne	.LBB0_29
	xorl	%eax, %eax
	testq	%r13, %r13
	cmovgq	%r13, %rax
	cmpq	$32, %rax
	cmovlq	%rax, %rbx
	leaq	64(%rsp), %rdi
	leaq	304(%rsp), %rsi
	movq	%rbx, %rdx
	callq	core.str.utf8.from_utf8
	cmpb	$0, 64(%rsp)
	jne	.LBB0_41
	movq	72(%rsp), %r13
	movq	80(%rsp), %rbp
	testq	%rbp, %rbp
	je	.LBB0_11
	js	.LBB0_33
	movl	$1, %esi
	movq	%rbp, %rdi
	callq	rattle_alloc@PLT
	testb	$1, %al
	je	.LBB0_33
	movq	%rdx, %rbx
	movq	%rbx, %rcx
	subq	%r13, %rcx
	cmpq	%rbp, %rcx
	jae	.LBB0_12
.LBB0_7:
	xorl	%eax, %eax
	cmpq	$4, %rbp
	jb	.LBB0_20
	cmpq	$32, %rcx
	jb	.LBB0_20
	cmpq	$32, %rbp
	jae	.LBB0_13
	xorl	%eax, %eax
	jmp	.LBB0_17
	.p2align	4
.LBB0_11:
	movq	%rsp, %rbx
	movq	%rbx, %rcx
	subq	%r13, %rcx
	cmpq	%rbp, %rcx
	jb	.LBB0_7
.LBB0_12:
	movq	%rbx, %rdi
	movq	%r13, %rsi
	movq	%rbp, %rdx
	callq	memmove@PLT
	jmp	.LBB0_25
.LBB0_13:
	movq	%rbp, %rax
	andq	$-32, %rax
	xorl	%ecx, %ecx
	.p2align	4
.LBB0_14:
	movdqu	(%r13,%rcx), %xmm0
	movdqu	16(%r13,%rcx), %xmm1
	movdqu	%xmm0, (%rbx,%rcx)
	movdqu	%xmm1, 16(%rbx,%rcx)
	addq	$32, %rcx
	cmpq	%rcx, %rax
	jne	.LBB0_14
	cmpq	%rax, %rbp
	je	.LBB0_25
	testb	$28, %bpl
	je	.LBB0_20
.LBB0_17:
	movq	%rax, %rcx
	movq	%rbp, %rax
	andq	$-4, %rax
	.p2align	4
.LBB0_18:
	movl	(%r13,%rcx), %edx
	movl	%edx, (%rbx,%rcx)
	addq	$4, %rcx
	cmpq	%rcx, %rax
	jne	.LBB0_18
	cmpq	%rax, %rbp
	je	.LBB0_25
.LBB0_20:
	movq	%rbp, %rdx
	movq	%rax, %rcx
	andq	$3, %rdx
	je	.LBB0_23
	movq	%rax, %rcx
	.p2align	4
.LBB0_22:
	movzbl	(%r13,%rcx), %esi
	movb	%sil, (%rbx,%rcx)
	incq	%rcx
	decq	%rdx
	jne	.LBB0_22
.LBB0_23:
	subq	%rbp, %rax
	cmpq	$-4, %rax
	ja	.LBB0_25
	.p2align	4
.LBB0_24:
	movzbl	(%r13,%rcx), %eax
	movb	%al, (%rbx,%rcx)
	movzbl	1(%r13,%rcx), %eax
	movb	%al, 1(%rbx,%rcx)
	movzbl	2(%r13,%rcx), %eax
	movb	%al, 2(%rbx,%rcx)
	movzbl	3(%r13,%rcx), %eax
	movb	%al, 3(%rbx,%rcx)
	addq	$4, %rcx
	cmpq	%rcx, %rbp
	jne	.LBB0_24
	.p2align	4
.LBB0_25:
	cmpq	%r12, 160(%rsp)
	je	.LBB0_27
.LBB0_26:
	leaq	(%r12,%r12,2), %rax
	movq	%rbx, (%r15,%rax,8)
	movq	%rbp, 8(%r15,%rax,8)
	movq	%rbp, 16(%r15,%rax,8)
	incq	%r12
	movq	%r12, 152(%rsp)
	incq	%r14
	cmpq	$-1, %r14
	jne	.LBB0_1
	jmp	.LBB0_32
.LBB0_27:
	leaq	144(%rsp), %rdi
	callq	std_alloc.vec.Vec.grow_amortized.2f1185c89873501e
	testb	%al, %al
	je	.LBB0_269
	movq	144(%rsp), %r15
	movq	152(%rsp), %r12
	jmp	.LBB0_26
.LBB0_29:
	cmpl	$36, %eax
	jne	.LBB0_32
	movl	$24, %edi
	movl	$8, %esi
	callq	rattle_alloc@PLT
	testb	$1, %al
	je	.LBB0_43
	movq	%rdx, %rbx
	movq	%rsp, %rcx
	movq	%rcx, (%rdx)
	pxor	%xmm0, %xmm0
	movdqu	%xmm0, 8(%rdx)
	movl	$1, %r13d
	jmp	.LBB0_44
.LBB0_32:
	movq	144(%rsp), %rbp
	movq	160(%rsp), %rax
	movq	%r12, %r13
	movq	%rax, %r12
	jmp	.LBB0_58
.LBB0_33:
	movq	160(%rsp), %rbx
	testq	%r12, %r12
	je	.LBB0_38
	leaq	16(%r15), %r14
	jmp	.LBB0_36
	.p2align	4
.LBB0_35:
	addq	$24, %r14
	decq	%r12
	je	.LBB0_38
.LBB0_36:
	cmpq	$0, (%r14)
	je	.LBB0_35
	movq	-16(%r14), %rdi
	callq	rattle_dealloc@PLT
	jmp	.LBB0_35
.LBB0_38:
	testq	%rbx, %rbx
	je	.LBB0_278
	movq	%r15, %rdi
.LBB0_40:
	callq	rattle_dealloc@PLT
	jmp	.LBB0_278
.LBB0_41:
	movl	$24, %edi
	movl	$8, %esi
	callq	rattle_alloc@PLT
	testb	$1, %al
	je	.LBB0_49
	movq	%rdx, %rbx
	movq	%rsp, %rcx
	movq	%rcx, (%rdx)
	pxor	%xmm0, %xmm0
	movdqu	%xmm0, 8(%rdx)
	movl	$1, %r13d
	jmp	.LBB0_50
.LBB0_43:
	movq	%rsp, %rbx
	xorl	%r13d, %r13d
.LBB0_44:
	movl	%eax, %r14d
	andl	$1, %r14d
	movq	%r14, %rcx
	negq	%rcx
	movq	%rcx, 520(%rsp)
	andl	%eax, %r13d
	movq	160(%rsp), %rax
	movq	%rax, 16(%rsp)
	testq	%r12, %r12
	je	.LBB0_55
	leaq	16(%r15), %rbp
	jmp	.LBB0_47
	.p2align	4
.LBB0_46:
	addq	$24, %rbp
	decq	%r12
	je	.LBB0_55
.LBB0_47:
	cmpq	$0, (%rbp)
	je	.LBB0_46
	movq	-16(%rbp), %rdi
	callq	rattle_dealloc@PLT
	jmp	.LBB0_46
.LBB0_49:
	movq	%rsp, %rbx
	xorl	%r13d, %r13d
.LBB0_50:
	movl	%eax, %r14d
	andl	$1, %r14d
	movq	%r14, %rcx
	negq	%rcx
	movq	%rcx, 520(%rsp)
	andl	%eax, %r13d
	movq	160(%rsp), %rax
	movq	%rax, 16(%rsp)
	testq	%r12, %r12
	je	.LBB0_55
	leaq	16(%r15), %rbp
	jmp	.LBB0_53
	.p2align	4
.LBB0_52:
	addq	$24, %rbp
	decq	%r12
	je	.LBB0_55
.LBB0_53:
	cmpq	$0, (%rbp)
	je	.LBB0_52
	movq	-16(%rbp), %rdi
	callq	rattle_dealloc@PLT
	jmp	.LBB0_52
.LBB0_55:
	movq	520(%rsp), %rbp
	andq	%rbx, %rbp
	cmpq	$0, 16(%rsp)
	je	.LBB0_57
	movq	%r15, %rdi
	callq	rattle_dealloc@PLT
.LBB0_57:
	movq	%r13, %r12
	testq	%r14, %r14
	je	.LBB0_278
.LBB0_58:
	xorl	%edi, %edi
	xorl	%esi, %esi
	movl	$1, %edx
	callq	lseek@PLT
	movq	%rax, %rbx
	movl	$65536, %edi
	movl	$1, %esi
	callq	rattle_alloc@PLT
	testb	$1, %al
	je	.LBB0_208
	movq	%rdx, %r15
	notq	%rbx
	shrq	$63, %rbx
	movl	$65536, %edx
	movq	%r15, %rdi
	xorl	%esi, %esi
	callq	memset@PLT
	leaq	744(%rsp), %rdi
	movl	$8208, %edx
	xorl	%esi, %esi
	callq	memset@PLT
	movq	%rbx, 8952(%rsp)
	movq	%r15, 8960(%rsp)
	movq	$65536, 8968(%rsp)
	movq	$65536, 8976(%rsp)
	pxor	%xmm0, %xmm0
	movdqu	%xmm0, 8984(%rsp)
	movl	$8192, %edi
	movl	$1, %esi
	callq	rattle_alloc@PLT
	testb	$1, %al
	je	.LBB0_213
	movq	32(%rsp), %rax
	movq	%rax, 544(%rsp)
	movq	%rdx, 552(%rsp)
	movq	$0, 560(%rsp)
	movq	$8192, 568(%rsp)
	pxor	%xmm0, %xmm0
	movdqa	%xmm0, 688(%rsp)
	movq	$0, 704(%rsp)
	movdqa	%xmm0, 656(%rsp)
	movq	$0, 672(%rsp)
	cmpq	$3, %r13
	movq	%rbp, 520(%rsp)
	movq	%r12, 472(%rsp)
	je	.LBB0_221
	testq	%r13, %r13
	jne	.LBB0_254
	movdqa	%xmm0, 496(%rsp)
	movdqa	%xmm0, 480(%rsp)
	movl	$65536, %edi
	movl	$1, %esi
	callq	rattle_alloc@PLT
	movb	$1, %cl
	movq	%rcx, 56(%rsp)
	testb	$1, %al
	je	.LBB0_259
	movq	%rsp, %rax
	movq	%rax, 304(%rsp)
	pxor	%xmm0, %xmm0
	movdqu	%xmm0, 312(%rsp)
	movdqu	%xmm0, 328(%rsp)
	movq	$0, 344(%rsp)
	movq	%rax, 352(%rsp)
	movdqu	%xmm0, 360(%rsp)
	movq	%rax, 376(%rsp)
	movdqu	%xmm0, 384(%rsp)
	movq	%rax, 400(%rsp)
	movdqu	%xmm0, 408(%rsp)
	movq	%rdx, 424(%rsp)
	movq	$0, 432(%rsp)
	movq	$65536, 440(%rsp)
	movq	$0, 448(%rsp)
	movq	%rax, 112(%rsp)
	movdqu	%xmm0, 120(%rsp)
	movq	8984(%rsp), %rcx
	movq	8992(%rsp), %r11
	xorl	%r14d, %r14d
	xorl	%r12d, %r12d
.LBB0_64:
	pxor	%xmm0, %xmm0
	movdqa	%xmm0, 272(%rsp)
	movdqa	%xmm0, 256(%rsp)
	cmpq	%r11, %rcx
	movq	%r12, 24(%rsp)
	jae	.LBB0_66
	movq	%r14, 248(%rsp)
	jmp	.LBB0_74
.LBB0_66:
	leaq	8984(%rsp), %rax
	movdqu	%xmm0, (%rax)
	movq	8944(%rsp), %rdx
	movq	8968(%rsp), %rbx
	subq	%r14, %rdx
	jne	.LBB0_69
	xorl	%edi, %edi
	movq	%r15, %rsi
	movq	%rbx, %rdx
	callq	read@PLT
	testq	%rax, %rax
	js	.LBB0_123
	cmpq	%rbx, %rax
	cmovbq	%rax, %rbx
	jmp	.LBB0_73
.LBB0_69:
	cmpq	%rdx, %rbx
	cmovbq	%rbx, %rdx
	leaq	(%rsp,%r14), %rsi
	addq	$744, %rsi
	movq	%r15, %rax
	subq	%rsi, %rax
	movq	%r15, %rdi
	movq	%rdx, %rbx
	cmpq	%rdx, %rax
	jae	.LBB0_71
	callq	memcpy@PLT
	jmp	.LBB0_72
.LBB0_71:
	callq	memmove@PLT
.LBB0_72:
	addq	%rbx, %r14
	movq	%r14, 8936(%rsp)
.LBB0_73:
	movq	%rbx, %r11
	movq	%r14, 248(%rsp)
	movq	%rbx, 8992(%rsp)
	movq	8960(%rsp), %r15
	movq	8984(%rsp), %rcx
.LBB0_74:
	movq	%r11, %r12
	subq	%rcx, %r12
	movq	%r11, 16(%rsp)
	movq	%rcx, 32(%rsp)
	je	.LBB0_81
	leaq	(%r15,%rcx), %rbp
	pxor	%xmm0, %xmm0
	movdqa	%xmm0, 80(%rsp)
	movdqa	%xmm0, 64(%rsp)
	movdqa	%xmm0, 160(%rsp)
	movdqa	%xmm0, 144(%rsp)
	movq	120(%rsp), %r8
	testq	%r8, %r8
	movq	%r12, 8(%rsp)
	je	.LBB0_83
	cmpq	$31, %r12
	ja	.LBB0_84
	xorl	%r14d, %r14d
	.p2align	4
.LBB0_78:
	cmpb	$10, (%rbp,%r14)
	je	.LBB0_126
	incq	%r14
	cmpq	%r14, %r12
	jne	.LBB0_78
	movq	%r12, %r14
	movq	%r14, %rcx
	cmpq	$32, %r14
	jae	.LBB0_155
	jmp	.LBB0_170
.LBB0_81:
	movq	112(%rsp), %rdx
	movq	120(%rsp), %rcx
	leaq	256(%rsp), %rdi
	leaq	304(%rsp), %rsi
	leaq	544(%rsp), %r8
	callq	ic_program.session.Session.answer_lines.61c60e3f83b1098c
	cmpb	$0, 256(%rsp)
	je	.LBB0_121
	movq	280(%rsp), %rbp
	movzbl	264(%rsp), %ebx
	movzbl	272(%rsp), %eax
	jmp	.LBB0_176
.LBB0_83:
	xorl	%r8d, %r8d
	movq	%r12, %r14
	movq	%r14, %rcx
	cmpq	$32, %r14
	jae	.LBB0_155
	jmp	.LBB0_170
.LBB0_84:
	movq	%r8, %rsi
	leaq	(%r15,%rcx), %rax
	addq	$32, %rax
	movq	%r11, %rdx
	subq	%rcx, %rdx
	leaq	-64(%rdx), %rbx
	xorl	%edi, %edi
.LBB0_85:
	movq	%r12, %rcx
	subq	%rdi, %rcx
	cmpq	$191, %rcx
	jbe	.LBB0_97
	movdqa	.LCPI0_2(%rip), %xmm0
	movdqu	(%rbp,%rdi), %xmm1
	movdqu	16(%rbp,%rdi), %xmm2
	movdqu	32(%rbp,%rdi), %xmm3
	movdqu	48(%rbp,%rdi), %xmm4
	pcmpeqb	%xmm0, %xmm4
	pcmpeqb	%xmm0, %xmm3
	pcmpeqb	%xmm0, %xmm1
	pmovmskb	%xmm1, %ecx
	pcmpeqb	%xmm0, %xmm2
	pmovmskb	%xmm2, %r8d
	shll	$16, %r8d
	orl	%ecx, %r8d
	pmovmskb	%xmm3, %ecx
	shlq	$32, %rcx
	orq	%r8, %rcx
	pmovmskb	%xmm4, %r9d
	shlq	$48, %r9
	leaq	64(%rdi), %r8
	orq	%rcx, %r9
	jne	.LBB0_114
	movq	%r12, %rcx
	subq	%r8, %rcx
	cmpq	$128, %rcx
	jb	.LBB0_92
	subq	$-128, %rdi
	movq	%rdi, %r8
.LBB0_89:
	movdqu	-64(%rbp,%r8), %xmm8
	movdqu	-48(%rbp,%r8), %xmm7
	movdqu	-32(%rbp,%r8), %xmm6
	movdqu	-16(%rbp,%r8), %xmm3
	pcmpeqb	%xmm0, %xmm7
	pcmpeqb	%xmm0, %xmm8
	pcmpeqb	%xmm0, %xmm6
	pcmpeqb	%xmm0, %xmm3
	movdqu	(%rbp,%r8), %xmm5
	movdqu	16(%rbp,%r8), %xmm4
	pcmpeqb	%xmm0, %xmm4
	pcmpeqb	%xmm0, %xmm5
	movdqu	32(%rbp,%r8), %xmm2
	movdqu	48(%rbp,%r8), %xmm1
	pcmpeqb	%xmm0, %xmm1
	pcmpeqb	%xmm0, %xmm2
	movdqa	%xmm5, %xmm9
	por	%xmm2, %xmm9
	movdqa	%xmm4, %xmm10
	por	%xmm1, %xmm10
	movdqa	%xmm8, %xmm11
	por	%xmm6, %xmm11
	por	%xmm9, %xmm11
	movdqa	%xmm7, %xmm9
	por	%xmm3, %xmm9
	por	%xmm10, %xmm9
	por	%xmm11, %xmm9
	pmovmskb	%xmm9, %edi
	testl	%edi, %edi
	jne	.LBB0_117
	subq	$-128, %r8
	addq	$-128, %rcx
	cmpq	$127, %rcx
	ja	.LBB0_89
	addq	$-64, %r8
.LBB0_92:
	movq	%r8, %rdi
	cmpq	$32, %rcx
	jb	.LBB0_96
	movq	%rdx, %rcx
	subq	%rdi, %rcx
.LBB0_94:
	movdqu	(%rbp,%rdi), %xmm1
	movdqu	16(%rbp,%rdi), %xmm2
	pcmpeqb	%xmm0, %xmm1
	pmovmskb	%xmm1, %r9d
	pcmpeqb	%xmm0, %xmm2
	pmovmskb	%xmm2, %r8d
	shll	$16, %r8d
	orl	%r9d, %r8d
	jne	.LBB0_113
	addq	$-32, %rcx
	addq	$32, %rdi
	cmpq	$31, %rcx
	ja	.LBB0_94
.LBB0_96:
	movdqu	-32(%r15,%r11), %xmm1
	movdqu	-16(%r15,%r11), %xmm2
	pcmpeqb	%xmm0, %xmm1
	pmovmskb	%xmm1, %ecx
	pcmpeqb	%xmm0, %xmm2
	pmovmskb	%xmm2, %r9d
	jmp	.LBB0_111
.LBB0_97:
	cmpq	$64, %rcx
	jb	.LBB0_106
	.p2align	4
.LBB0_98:
	movdqu	-32(%rax,%rdi), %xmm4
	movdqu	-16(%rax,%rdi), %xmm3
	movdqu	(%rax,%rdi), %xmm2
	movdqu	16(%rax,%rdi), %xmm1
	movdqa	.LCPI0_2(%rip), %xmm0
	movdqa	%xmm3, %xmm5
	pcmpeqb	%xmm0, %xmm5
	movdqa	%xmm4, %xmm6
	pcmpeqb	%xmm0, %xmm6
	movdqa	%xmm1, %xmm7
	pcmpeqb	%xmm0, %xmm7
	por	%xmm5, %xmm7
	movdqa	%xmm2, %xmm5
	pcmpeqb	%xmm0, %xmm5
	por	%xmm6, %xmm5
	por	%xmm7, %xmm5
	pmovmskb	%xmm5, %r8d
	testl	%r8d, %r8d
	jne	.LBB0_100
	addq	$64, %rdi
	addq	$-64, %rcx
	cmpq	$63, %rcx
	ja	.LBB0_98
	jmp	.LBB0_106
.LBB0_100:
	cmpq	$64, %rcx
	jb	.LBB0_106
.LBB0_101:
	pcmpeqb	%xmm0, %xmm1
	pcmpeqb	%xmm0, %xmm2
	pcmpeqb	%xmm0, %xmm4
	pmovmskb	%xmm4, %ecx
	pcmpeqb	%xmm0, %xmm3
	pmovmskb	%xmm3, %r8d
	shll	$16, %r8d
	orl	%ecx, %r8d
	pmovmskb	%xmm2, %ecx
	shlq	$32, %rcx
	orq	%r8, %rcx
	pmovmskb	%xmm1, %r9d
	shlq	$48, %r9
	orq	%rcx, %r9
	jne	.LBB0_120
	movq	%rbx, %rcx
	subq	%rdi, %rcx
.LBB0_103:
	cmpq	$64, %rcx
	jb	.LBB0_105
	movdqu	32(%rax,%rdi), %xmm4
	movdqu	48(%rax,%rdi), %xmm3
	movdqu	64(%rax,%rdi), %xmm2
	movdqu	80(%rax,%rdi), %xmm1
	movdqa	%xmm3, %xmm5
	pcmpeqb	%xmm0, %xmm5
	movdqa	%xmm4, %xmm6
	pcmpeqb	%xmm0, %xmm6
	movdqa	%xmm1, %xmm7
	pcmpeqb	%xmm0, %xmm7
	por	%xmm5, %xmm7
	movdqa	%xmm2, %xmm5
	pcmpeqb	%xmm0, %xmm5
	por	%xmm6, %xmm5
	por	%xmm7, %xmm5
	pmovmskb	%xmm5, %r8d
	addq	$-64, %rcx
	addq	$64, %rdi
	testl	%r8d, %r8d
	je	.LBB0_103
	jmp	.LBB0_101
.LBB0_105:
	addq	$64, %rdi
.LBB0_106:
	cmpq	$32, %rcx
	jb	.LBB0_110
	movq	%rdx, %rcx
	subq	%rdi, %rcx
	.p2align	4
.LBB0_108:
	movdqu	(%rbp,%rdi), %xmm0
	movdqu	16(%rbp,%rdi), %xmm1
	movdqa	.LCPI0_2(%rip), %xmm2
	pcmpeqb	%xmm2, %xmm0
	pmovmskb	%xmm0, %r9d
	pcmpeqb	%xmm2, %xmm1
	pmovmskb	%xmm1, %r8d
	shll	$16, %r8d
	orl	%r9d, %r8d
	jne	.LBB0_113
	addq	$-32, %rcx
	addq	$32, %rdi
	cmpq	$31, %rcx
	ja	.LBB0_108
.LBB0_110:
	movdqu	-32(%r15,%r11), %xmm0
	movdqu	-16(%r15,%r11), %xmm1
	movdqa	.LCPI0_2(%rip), %xmm2
	pcmpeqb	%xmm2, %xmm0
	pmovmskb	%xmm0, %ecx
	pcmpeqb	%xmm2, %xmm1
	pmovmskb	%xmm1, %r9d
.LBB0_111:
	shll	$16, %r9d
	orl	%ecx, %r9d
	movl	%edi, %ecx
	subl	%r12d, %ecx
	addb	$32, %cl
	shrq	%cl, %r9
	movq	%rdi, %r8
	movq	%r12, %rcx
.LBB0_112:
	movq	%r8, %rdi
	movq	%rcx, %r8
	testq	%r9, %r9
	jne	.LBB0_114
	jmp	.LBB0_116
.LBB0_113:
	movl	%r8d, %r9d
	leaq	32(%rdi), %r8
	.p2align	4
.LBB0_114:
	rep		bsfq	%r9, %rcx
	leaq	(%rcx,%rdi), %r14
	cmpb	$10, (%rbp,%r14)
	je	.LBB0_127
	movq	$-2, %r10
	rolq	%cl, %r10
	andq	%r10, %r9
	jne	.LBB0_114
.LBB0_116:
	movq	%r8, %rdi
	cmpq	%r12, %r8
	jb	.LBB0_85
	jmp	.LBB0_169
.LBB0_117:
	pmovmskb	%xmm8, %ecx
	pmovmskb	%xmm7, %edi
	shll	$16, %edi
	orl	%ecx, %edi
	pmovmskb	%xmm6, %ecx
	shlq	$32, %rcx
	orq	%rdi, %rcx
	pmovmskb	%xmm3, %r9d
	shlq	$48, %r9
	orq	%rcx, %r9
	je	.LBB0_119
	leaq	-64(%r8), %rdi
	jmp	.LBB0_114
.LBB0_119:
	leaq	64(%r8), %rcx
	pmovmskb	%xmm5, %edi
	pmovmskb	%xmm4, %r9d
	shll	$16, %r9d
	orl	%edi, %r9d
	pmovmskb	%xmm2, %edi
	shlq	$32, %rdi
	orq	%r9, %rdi
	pmovmskb	%xmm1, %r9d
	shlq	$48, %r9
	orq	%rdi, %r9
	jmp	.LBB0_112
.LBB0_120:
	leaq	64(%rdi), %r8
	jmp	.LBB0_114
.LBB0_121:
	movb	$1, %r14b
	xorl	%r12d, %r12d
.LBB0_122:
	xorl	%ebx, %ebx
	jmp	.LBB0_196
.LBB0_123:
	callq	rattle_errno@PLT
	leaq	144(%rsp), %rdi
	movl	%eax, %esi
	callq	std_io.io.error.Error.from_raw_os_error
	movq	144(%rsp), %rax
	shrq	$8, %rax
	movaps	.LCPI0_0(%rip), %xmm0
	movaps	%xmm0, 144(%rsp)
	movdqa	.LCPI0_1(%rip), %xmm0
	movdqa	%xmm0, 160(%rsp)
	movabsq	$2820983053732684064, %rcx
	movq	%rcx, 176(%rsp)
	movb	$40, 184(%rsp)
	cmpb	$41, %al
	movq	%r14, 248(%rsp)
	jae	.LBB0_132
	andl	$63, %eax
	cmpb	$35, 144(%rsp,%rax)
	jne	.LBB0_132
	movb	$1, %r14b
	movq	$0, 16(%rsp)
	movq	$0, 32(%rsp)
	movb	$1, %r12b
	jmp	.LBB0_122
.LBB0_126:
	movq	%r8, %rsi
.LBB0_127:
	leaq	1(%r14), %rbx
	movq	128(%rsp), %r9
	movq	%r9, %rax
	movq	%rsi, %r8
	subq	%rsi, %rax
	cmpq	%rax, %rbx
	ja	.LBB0_166
.LBB0_128:
	movq	112(%rsp), %r10
	leaq	(%r10,%r8), %rdi
	movq	%rdi, %rax
	subq	%rbp, %rax
	cmpq	%rbx, %rax
	jae	.LBB0_131
	cmpq	$4, %rbx
	jb	.LBB0_130
	movq	32(%rsp), %rax
	addq	%r15, %rax
	movq	%rdi, %rcx
	subq	%rax, %rcx
	cmpq	$32, %rcx
	jae	.LBB0_135
.LBB0_130:
	xorl	%eax, %eax
.LBB0_144:
	movl	%r14d, %edx
	notl	%edx
	movq	%rax, %rcx
	testb	$3, %dl
	je	.LBB0_147
	leal	1(%r14), %edx
	andl	$3, %edx
	movq	%rax, %rcx
	.p2align	4
.LBB0_146:
	movzbl	(%rbp,%rcx), %esi
	movb	%sil, (%rdi,%rcx)
	incq	%rcx
	decq	%rdx
	jne	.LBB0_146
.LBB0_147:
	subq	%rax, %r14
	cmpq	$3, %r14
	jb	.LBB0_150
	movq	32(%rsp), %rax
	addq	%r15, %rax
	addq	$3, %rax
	leaq	(%r10,%r8), %rdx
	addq	$3, %rdx
	.p2align	4
.LBB0_149:
	movzbl	-3(%rax,%rcx), %esi
	movb	%sil, -3(%rdx,%rcx)
	movzbl	-2(%rax,%rcx), %esi
	movb	%sil, -2(%rdx,%rcx)
	movzbl	-1(%rax,%rcx), %esi
	movb	%sil, -1(%rdx,%rcx)
	movzbl	(%rax,%rcx), %esi
	movb	%sil, (%rdx,%rcx)
	addq	$4, %rcx
	cmpq	%rcx, %rbx
	jne	.LBB0_149
	jmp	.LBB0_150
.LBB0_131:
	movq	%rbp, %rsi
	movq	%rbx, %rdx
	movq	%r8, %r14
	movq	%r15, 104(%rsp)
	movq	%r9, %r15
	movq	%r10, %r12
	callq	memmove@PLT
	movq	%r12, %r10
	movq	%r15, %r9
	movq	104(%rsp), %r15
	movq	8(%rsp), %r12
	movq	%r14, %r8
.LBB0_150:
	addq	%rbx, %r8
	movq	%r8, 120(%rsp)
	movq	%r9, 128(%rsp)
	leaq	144(%rsp), %rdi
	leaq	304(%rsp), %rsi
	movq	%r8, %r14
	leaq	544(%rsp), %r8
	movq	%r10, %rdx
	movq	%r14, %rcx
	callq	ic_program.session.Session.answer_lines.61c60e3f83b1098c
	testq	%r14, %r14
	je	.LBB0_152
	movq	$0, 120(%rsp)
.LBB0_152:
	cmpb	$0, 144(%rsp)
	je	.LBB0_154
	movq	168(%rsp), %rbp
	movzbl	152(%rsp), %ebx
	movzbl	160(%rsp), %eax
	jmp	.LBB0_176
.LBB0_154:
	addq	%rbx, %rbp
	movq	%r12, %r14
	subq	%rbx, %r14
	xorl	%r8d, %r8d
	movq	%r14, %rcx
	cmpq	$32, %r14
	jb	.LBB0_170
.LBB0_155:
	movq	%r14, %rax
.LBB0_156:
	movdqu	-32(%rbp,%rax), %xmm1
	movdqu	-16(%rbp,%rax), %xmm2
	movdqa	.LCPI0_2(%rip), %xmm0
	pcmpeqb	%xmm0, %xmm1
	pmovmskb	%xmm1, %edx
	pcmpeqb	%xmm0, %xmm2
	pmovmskb	%xmm2, %ecx
	shll	$16, %ecx
	orl	%edx, %ecx
	je	.LBB0_160
	leaq	-32(%rax), %rdx
	movl	%ecx, %esi
	.p2align	4
.LBB0_158:
	bsrq	%rsi, %rcx
	leaq	(%rcx,%rdx), %rbx
	cmpb	$10, (%rbp,%rbx)
	je	.LBB0_165
	movq	$-2, %rdi
	rolq	%cl, %rdi
	andq	%rdi, %rsi
	jne	.LBB0_158
.LBB0_160:
	movq	%rax, %rdx
	.p2align	4
.LBB0_161:
	movq	%rdx, %rcx
	leaq	-32(%rdx), %rax
	cmpq	$128, %rax
	jb	.LBB0_163
	movdqu	-160(%rbp,%rcx), %xmm1
	movdqu	-144(%rbp,%rcx), %xmm2
	movdqu	-128(%rbp,%rcx), %xmm3
	movdqu	-112(%rbp,%rcx), %xmm4
	pcmpeqb	%xmm0, %xmm1
	pcmpeqb	%xmm0, %xmm2
	pcmpeqb	%xmm0, %xmm3
	por	%xmm1, %xmm3
	pcmpeqb	%xmm0, %xmm4
	por	%xmm2, %xmm4
	movdqu	-80(%rbp,%rcx), %xmm1
	movdqu	-96(%rbp,%rcx), %xmm2
	pcmpeqb	%xmm0, %xmm2
	pcmpeqb	%xmm0, %xmm1
	movdqu	-48(%rbp,%rcx), %xmm5
	movdqu	-64(%rbp,%rcx), %xmm6
	pcmpeqb	%xmm0, %xmm6
	por	%xmm2, %xmm6
	por	%xmm3, %xmm6
	pcmpeqb	%xmm0, %xmm5
	por	%xmm1, %xmm5
	por	%xmm4, %xmm5
	por	%xmm6, %xmm5
	pmovmskb	%xmm5, %esi
	leaq	-128(%rcx), %rdx
	testl	%esi, %esi
	je	.LBB0_161
.LBB0_163:
	cmpq	$31, %rax
	ja	.LBB0_156
	addq	$-32, %rcx
	jmp	.LBB0_170
.LBB0_165:
	movq	%r8, %r12
	incq	%rbx
	jmp	.LBB0_174
.LBB0_132:
	movb	$1, %bl
	movq	448(%rsp), %rbp
	movq	$0, 16(%rsp)
	movq	$0, 32(%rsp)
	xorl	%r14d, %r14d
	xorl	%r12d, %r12d
	movb	$1, %al
	movq	%rax, 8(%rsp)
	jmp	.LBB0_198
.LBB0_135:
	cmpq	$32, %rbx
	jae	.LBB0_137
	xorl	%eax, %eax
	jmp	.LBB0_141
.LBB0_137:
	movq	%rbx, %rax
	andq	$-32, %rax
	movq	32(%rsp), %rcx
	addq	%r15, %rcx
	addq	$16, %rcx
	leaq	(%r10,%r8), %rdx
	addq	$16, %rdx
	xorl	%esi, %esi
.LBB0_138:
	movdqu	-16(%rcx,%rsi), %xmm0
	movdqu	(%rcx,%rsi), %xmm1
	movdqu	%xmm0, -16(%rdx,%rsi)
	movdqu	%xmm1, (%rdx,%rsi)
	addq	$32, %rsi
	cmpq	%rsi, %rax
	jne	.LBB0_138
	cmpq	%rax, %rbx
	je	.LBB0_150
	testb	$28, %bl
	je	.LBB0_144
.LBB0_141:
	movq	%rax, %rcx
	movq	%rbx, %rax
	andq	$-4, %rax
.LBB0_142:
	movl	(%rbp,%rcx), %edx
	movl	%edx, (%rdi,%rcx)
	addq	$4, %rcx
	cmpq	%rcx, %rax
	jne	.LBB0_142
	cmpq	%rax, %rbx
	je	.LBB0_150
	jmp	.LBB0_144
.LBB0_166:
	leaq	112(%rsp), %rdi
	movq	%rbx, %rsi
	callq	std_alloc.vec.Vec.grow_amortized.3f7cc1ad5d64d7d7
	testb	%al, %al
	je	.LBB0_168
	movq	120(%rsp), %r8
	movq	128(%rsp), %r9
	jmp	.LBB0_128
.LBB0_168:
	movb	$3, %al
	movq	%rax, 8(%rsp)
	movb	$1, %bl
	xorl	%ebp, %ebp
	jmp	.LBB0_177
.LBB0_169:
	movq	%r12, %r14
	movq	%rsi, %r8
	movq	%r14, %rcx
	cmpq	$32, %r14
	jae	.LBB0_155
.LBB0_170:
	movq	%r8, %r12
	incq	%rcx
	.p2align	4
.LBB0_171:
	cmpq	$1, %rcx
	je	.LBB0_173
	leaq	-1(%rcx), %rbx
	cmpb	$10, -2(%rbp,%rcx)
	movq	%rbx, %rcx
	jne	.LBB0_171
	jmp	.LBB0_174
.LBB0_173:
	xorl	%ebx, %ebx
.LBB0_174:
	leaq	64(%rsp), %rdi
	leaq	304(%rsp), %rsi
	leaq	544(%rsp), %r8
	movq	%rbp, %rdx
	movq	%rbx, %rcx
	callq	ic_program.session.Session.answer_lines.61c60e3f83b1098c
	cmpb	$0, 64(%rsp)
	je	.LBB0_178
	movq	88(%rsp), %rbp
	movzbl	72(%rsp), %ebx
	movzbl	80(%rsp), %eax
.LBB0_176:
	movq	%rax, 8(%rsp)
.LBB0_177:
	xorl	%r14d, %r14d
	xorl	%r12d, %r12d
	jmp	.LBB0_198
.LBB0_178:
	subq	%rbx, %r14
	movq	128(%rsp), %r10
	movq	%r10, %rax
	movq	%r12, %r8
	subq	%r12, %rax
	cmpq	%rax, %r14
	movq	8(%rsp), %r12
	ja	.LBB0_193
.LBB0_179:
	leaq	(%rbx,%rbp), %rsi
	movq	112(%rsp), %rcx
	leaq	(%rcx,%r8), %rdi
	movq	%rdi, %rax
	subq	%rsi, %rax
	cmpq	%r14, %rax
	jae	.LBB0_182
	cmpq	$4, %r14
	jb	.LBB0_181
	cmpq	$32, %rax
	jae	.LBB0_185
.LBB0_181:
	xorl	%eax, %eax
	jmp	.LBB0_206
.LBB0_182:
	movq	%r14, %rdx
	movq	%r8, %rbx
	movq	%r10, %rbp
	callq	memmove@PLT
	movq	%rbp, %r10
	movq	%rbx, %r8
	jmp	.LBB0_207
.LBB0_185:
	cmpq	$32, %r14
	jae	.LBB0_187
	xorl	%eax, %eax
	jmp	.LBB0_191
.LBB0_187:
	movq	%r14, %rax
	andq	$-32, %rax
	leaq	(%rbx,%rbp), %rdx
	addq	$16, %rdx
	movq	%r8, %r9
	addq	%r8, %rcx
	addq	$16, %rcx
	xorl	%r8d, %r8d
.LBB0_188:
	movdqu	-16(%rdx,%r8), %xmm0
	movdqu	(%rdx,%r8), %xmm1
	movdqu	%xmm0, -16(%rcx,%r8)
	movdqu	%xmm1, (%rcx,%r8)
	addq	$32, %r8
	cmpq	%r8, %rax
	jne	.LBB0_188
	cmpq	%rax, %r14
	movq	%r9, %r8
	je	.LBB0_207
	testb	$28, %r14b
	je	.LBB0_206
.LBB0_191:
	movq	%rax, %rcx
	movq	%r14, %rax
	andq	$-4, %rax
.LBB0_192:
	movl	(%rsi,%rcx), %edx
	movl	%edx, (%rdi,%rcx)
	addq	$4, %rcx
	cmpq	%rcx, %rax
	jne	.LBB0_192
	jmp	.LBB0_205
.LBB0_193:
	leaq	112(%rsp), %rdi
	movq	%r14, %rsi
	callq	std_alloc.vec.Vec.grow_amortized.3f7cc1ad5d64d7d7
	testb	%al, %al
	je	.LBB0_195
	movq	120(%rsp), %r8
	movq	128(%rsp), %r10
	jmp	.LBB0_179
.LBB0_195:
	movb	$3, %al
	movq	%rax, 8(%rsp)
	movb	$1, %bl
	xorl	%r14d, %r14d
	xorl	%r12d, %r12d
	jmp	.LBB0_197
.LBB0_196:
	movq	$0, 8(%rsp)
.LBB0_197:
	xorl	%ebp, %ebp
.LBB0_198:
	pxor	%xmm0, %xmm0
	movdqa	%xmm0, 144(%rsp)
	movq	$0, 160(%rsp)
	movq	424(%rsp), %rdx
	movq	432(%rsp), %rcx
	leaq	144(%rsp), %rdi
	leaq	544(%rsp), %rsi
	callq	ic_program.writing.write_whole.40d1f5182270a21e
	cmpq	$0, 432(%rsp)
	je	.LBB0_200
	movq	$0, 432(%rsp)
.LBB0_200:
	cmpb	$0, 144(%rsp)
	jne	.LBB0_299
	testb	%r14b, %r14b
	je	.LBB0_315
	testb	%r12b, %r12b
	je	.LBB0_317
	pxor	%xmm0, %xmm0
	movdqa	%xmm0, 224(%rsp)
	movdqa	%xmm0, 208(%rsp)
	movdqa	%xmm0, 192(%rsp)
	movdqa	%xmm0, 176(%rsp)
	movdqa	%xmm0, 160(%rsp)
	movdqa	%xmm0, 144(%rsp)
	leaq	144(%rsp), %rdi
	leaq	544(%rsp), %rsi
	callq	std.io.buffered.BufWriter.flush_buf.3e795ebea2bd6aa3
	cmpb	$0, 144(%rsp)
	movq	24(%rsp), %r12
	jne	.LBB0_333
	incq	%r12
	cmpq	$-1, %r12
	movq	248(%rsp), %r14
	movq	16(%rsp), %r11
	movq	32(%rsp), %rcx
	jne	.LBB0_64
	jmp	.LBB0_335
	.p2align	4
.LBB0_205:
	cmpq	%rax, %r14
	je	.LBB0_207
.LBB0_206:
	movzbl	(%rsi,%rax), %ecx
	movb	%cl, (%rdi,%rax)
	incq	%rax
	jmp	.LBB0_205
.LBB0_207:
	addq	%r14, %r8
	movq	%r8, 120(%rsp)
	movq	8984(%rsp), %rax
	movq	8992(%rsp), %rdx
	movq	%rdx, 16(%rsp)
	subq	%rax, %rdx
	cmpq	%rdx, %r12
	cmovbq	%r12, %rdx
	movq	%r10, 128(%rsp)
	addq	%rax, %rdx
	movq	%rdx, 32(%rsp)
	movq	%rdx, 8984(%rsp)
	movb	$1, %r14b
	xorl	%ebx, %ebx
	movb	$1, %r12b
	jmp	.LBB0_196
.LBB0_208:
	pxor	%xmm0, %xmm0
	movdqa	%xmm0, 624(%rsp)
	movdqa	%xmm0, 608(%rsp)
	movdqa	%xmm0, 592(%rsp)
	movq	$0, 640(%rsp)
	testq	%r13, %r13
	je	.LBB0_218
	leaq	16(%rbp), %rbx
	jmp	.LBB0_211
	.p2align	4
.LBB0_210:
	addq	$24, %rbx
	decq	%r13
	je	.LBB0_218
.LBB0_211:
	cmpq	$0, (%rbx)
	je	.LBB0_210
	movq	-16(%rbx), %rdi
	callq	rattle_dealloc@PLT
	jmp	.LBB0_210
.LBB0_213:
	pxor	%xmm0, %xmm0
	movdqa	%xmm0, 624(%rsp)
	movdqa	%xmm0, 608(%rsp)
	movdqa	%xmm0, 592(%rsp)
	movq	$0, 640(%rsp)
	movq	%r15, %rdi
	callq	rattle_dealloc@PLT
	testq	%r13, %r13
	je	.LBB0_218
	leaq	16(%rbp), %rbx
	jmp	.LBB0_216
	.p2align	4
.LBB0_215:
	addq	$24, %rbx
	decq	%r13
	je	.LBB0_218
.LBB0_216:
	cmpq	$0, (%rbx)
	je	.LBB0_215
	movq	-16(%rbx), %rdi
	callq	rattle_dealloc@PLT
	jmp	.LBB0_215
.LBB0_218:
	testq	%r12, %r12
	je	.LBB0_220
	movq	%rbp, %rdi
	callq	rattle_dealloc@PLT
.LBB0_220:
	movq	584(%rsp), %rcx
	movw	$1, (%rcx)
	movw	$9729, 8(%rcx)
	pxor	%xmm0, %xmm0
	movdqu	%xmm0, 10(%rcx)
	jmp	.LBB0_297
.LBB0_221:
	cmpq	$7, 8(%rbp)
	jne	.LBB0_254
	movq	(%rbp), %rax
	movl	(%rax), %ecx
	movl	3(%rax), %eax
	shlq	$32, %rax
	orq	%rcx, %rax
	movabsq	$8318822973745295223, %rcx
	cmpq	%rcx, %rax
	jne	.LBB0_254
	movq	32(%rbp), %rcx
	testq	%rcx, %rcx
	je	.LBB0_254
	movq	24(%rbp), %rsi
	movabsq	$1844674407370955162, %rax
	xorl	%r15d, %r15d
	xorl	%edx, %edx
.LBB0_225:
	movzbl	(%rsi,%rdx), %edi
	addb	$-48, %dil
	cmpb	$9, %dil
	ja	.LBB0_230
	cmpq	%rax, %r15
	jae	.LBB0_254
	addq	%r15, %r15
	leaq	(%r15,%r15,4), %r8
	movzbl	%dil, %r15d
	addq	%r8, %r15
	jb	.LBB0_254
	incq	%rdx
	cmpq	%rdx, %rcx
	jne	.LBB0_225
	movq	%rcx, %rdx
.LBB0_230:
	leaq	-1(%rdx), %rsi
	cmpq	$20, %rsi
	setb	%dil
	cmpq	%rcx, %rdx
	sete	%cl
	xorl	%edx, %edx
	andb	%dil, %cl
	cmoveq	%rdx, %r15
	cmpq	$20, %rsi
	cmovaeq	%rdx, %r15
	cmpb	$1, %cl
	jne	.LBB0_254
	movq	56(%rbp), %rcx
	testq	%rcx, %rcx
	je	.LBB0_254
	movq	48(%rbp), %rsi
	xorl	%ebx, %ebx
	xorl	%edx, %edx
.LBB0_233:
	movzbl	(%rsi,%rdx), %edi
	addb	$-48, %dil
	cmpb	$9, %dil
	ja	.LBB0_238
	cmpq	%rax, %rbx
	jae	.LBB0_254
	addq	%rbx, %rbx
	leaq	(%rbx,%rbx,4), %r8
	movzbl	%dil, %ebx
	addq	%r8, %rbx
	jb	.LBB0_254
	incq	%rdx
	cmpq	%rdx, %rcx
	jne	.LBB0_233
	movq	%rcx, %rdx
.LBB0_238:
	leaq	-1(%rdx), %rax
	cmpq	$20, %rax
	setb	%sil
	cmpq	%rcx, %rdx
	sete	%cl
	xorl	%edx, %edx
	andb	%sil, %cl
	cmoveq	%rdx, %rbx
	cmpq	$20, %rax
	cmovaeq	%rdx, %rbx
	cmpb	$1, %cl
	jne	.LBB0_254
	leaq	-65(%r15), %rax
	cmpq	$-64, %rax
	jb	.LBB0_254
	cmpq	$1000000, %rbx
	ja	.LBB0_254
	pxor	%xmm0, %xmm0
	movdqa	%xmm0, 480(%rsp)
	movq	$0, 496(%rsp)
	movdqa	%xmm0, 352(%rsp)
	movdqa	%xmm0, 336(%rsp)
	movdqa	%xmm0, 320(%rsp)
	movdqa	%xmm0, 304(%rsp)
	movq	$0, 368(%rsp)
	leaq	8(,%rbx,8), %r14
	movl	$8, %esi
	movq	%r14, %rdi
	callq	rattle_alloc@PLT
	testb	$1, %al
	je	.LBB0_249
	movq	%rdx, %rbp
	testq	%rbx, %rbx
	je	.LBB0_244
	leaq	(,%rbx,8), %rdx
	movq	%rbp, %rdi
	xorl	%esi, %esi
	callq	memset@PLT
.LBB0_244:
	movq	$0, (%rbp,%rbx,8)
	movl	$8, %esi
	movq	%r14, %rdi
	callq	rattle_alloc@PLT
	testb	$1, %al
	je	.LBB0_247
	movq	%rdx, %r14
	movl	$1, %esi
	xorl	%edi, %edi
	callq	rattle_alloc@PLT
	movq	%rdx, 32(%rsp)
	testb	$1, %al
	jne	.LBB0_398
	movq	%r14, %rdi
	callq	rattle_dealloc@PLT
.LBB0_247:
	movq	%rbp, %rdi
.LBB0_248:
	callq	rattle_dealloc@PLT
.LBB0_249:
	cmpb	$0, .Lstatic.0(%rip)
	jne	.LBB0_686
	movb	$3, %al
	movb	$1, %bl
.LBB0_251:
	xorl	%r14d, %r14d
.LBB0_252:
	cmpb	$0, .Lstatic.0(%rip)
	movq	472(%rsp), %r12
	jne	.LBB0_686
	xorl	%r15d, %r15d
	testb	%bl, %bl
	movzbl	%al, %ebp
	cmovel	%r15d, %ebp
	cmoveq	%r15, %r14
	jmp	.LBB0_255
.LBB0_254:
	pxor	%xmm0, %xmm0
	movdqa	%xmm0, 304(%rsp)
	movq	$0, 320(%rsp)
	leaq	.Lstatic.90(%rip), %rdx
	leaq	304(%rsp), %rdi
	leaq	544(%rsp), %rsi
	movl	$14, %ecx
	callq	ic_program.writing.write_whole.40d1f5182270a21e
	movzbl	304(%rsp), %ebx
	xorl	%r14d, %r14d
	testb	%bl, %bl
	movl	312(%rsp), %ebp
	cmovel	%r14d, %ebp
	sete	%r15b
	cmovneq	320(%rsp), %r14
.LBB0_255:
	pxor	%xmm0, %xmm0
	movdqa	%xmm0, 384(%rsp)
	movdqa	%xmm0, 368(%rsp)
	movdqa	%xmm0, 352(%rsp)
	movdqa	%xmm0, 336(%rsp)
	movdqa	%xmm0, 320(%rsp)
	movdqa	%xmm0, 304(%rsp)
	leaq	304(%rsp), %rdi
	leaq	544(%rsp), %rsi
	callq	std.io.buffered.BufWriter.flush_buf.3e795ebea2bd6aa3
	cmpb	$0, 304(%rsp)
	je	.LBB0_268
	testb	%bl, %bl
	jne	.LBB0_268
	movzbl	313(%rsp), %eax
	movaps	.LCPI0_0(%rip), %xmm0
	movaps	%xmm0, 304(%rsp)
	movdqa	.LCPI0_1(%rip), %xmm0
	movdqa	%xmm0, 320(%rsp)
	movabsq	$2820983053732684064, %rcx
	movq	%rcx, 336(%rsp)
	movb	$40, 344(%rsp)
	cmpb	$41, %al
	jae	.LBB0_266
	cmpb	$38, 304(%rsp,%rax)
	sete	%bpl
	orb	$2, %bpl
	jmp	.LBB0_267
.LBB0_259:
	movb	$3, %bl
	xorl	%r15d, %r15d
.LBB0_260:
	xorl	%ebp, %ebp
.LBB0_261:
	pxor	%xmm0, %xmm0
	movdqa	%xmm0, 384(%rsp)
	movdqa	%xmm0, 368(%rsp)
	movdqa	%xmm0, 352(%rsp)
	movdqa	%xmm0, 336(%rsp)
	movdqa	%xmm0, 320(%rsp)
	movdqa	%xmm0, 304(%rsp)
	leaq	304(%rsp), %rdi
	leaq	544(%rsp), %rsi
	callq	std.io.buffered.BufWriter.flush_buf.3e795ebea2bd6aa3
	cmpb	$0, 304(%rsp)
	je	.LBB0_265
	movq	56(%rsp), %rcx
	testb	%cl, %cl
	jne	.LBB0_281
	movzbl	313(%rsp), %eax
	movaps	.LCPI0_0(%rip), %xmm0
	movaps	%xmm0, 304(%rsp)
	movdqa	.LCPI0_1(%rip), %xmm0
	movdqa	%xmm0, 320(%rsp)
	movabsq	$2820983053732684064, %rcx
	movq	%rcx, 336(%rsp)
	movb	$40, 344(%rsp)
	cmpb	$41, %al
	jae	.LBB0_279
	cmpb	$38, 304(%rsp,%rax)
	sete	%bl
	orb	$2, %bl
	jmp	.LBB0_280
.LBB0_265:
	movq	56(%rsp), %rcx
	jmp	.LBB0_281
.LBB0_266:
	movb	$2, %bpl
.LBB0_267:
	movb	$1, %bl
	xorl	%r15d, %r15d
	xorl	%r14d, %r14d
.LBB0_268:
	movzbl	%bpl, %eax
	movb	%bl, 656(%rsp)
	movb	%r15b, 657(%rsp)
	movq	%rax, 664(%rsp)
	movq	%r14, 672(%rsp)
	leaq	656(%rsp), %rdi
	jmp	.LBB0_282
.LBB0_269:
	testq	%rbp, %rbp
	je	.LBB0_271
	movq	%rbx, %rdi
	callq	rattle_dealloc@PLT
.LBB0_271:
	movq	144(%rsp), %rbx
	movq	152(%rsp), %r15
	movq	160(%rsp), %r14
	testq	%r15, %r15
	je	.LBB0_276
	leaq	16(%rbx), %r12
	jmp	.LBB0_274
	.p2align	4
.LBB0_273:
	addq	$24, %r12
	decq	%r15
	je	.LBB0_276
.LBB0_274:
	cmpq	$0, (%r12)
	je	.LBB0_273
	movq	-16(%r12), %rdi
	callq	rattle_dealloc@PLT
	jmp	.LBB0_273
.LBB0_276:
	testq	%r14, %r14
	je	.LBB0_278
	movq	%rbx, %rdi
	jmp	.LBB0_40
.LBB0_278:
	movq	584(%rsp), %rax
	movw	$1, (%rax)
	movw	$9729, 8(%rax)
	pxor	%xmm0, %xmm0
	movdqu	%xmm0, 10(%rax)
	movdqu	%xmm0, 26(%rax)
	movdqu	%xmm0, 42(%rax)
	movdqu	%xmm0, 58(%rax)
	movdqu	%xmm0, 74(%rax)
	movq	$0, 88(%rax)
	jmp	.LBB0_298
.LBB0_279:
	movb	$2, %bl
.LBB0_280:
	movb	$1, %cl
	xorl	%r15d, %r15d
	xorl	%ebp, %ebp
.LBB0_281:
	movzbl	%bl, %eax
	movb	%cl, 688(%rsp)
	movb	%r15b, 689(%rsp)
	movq	%rax, 696(%rsp)
	movq	%rbp, 704(%rsp)
	leaq	688(%rsp), %rdi
.LBB0_282:
	callq	ic_program.program.status_of.4e9da720f7635e46
	movl	%eax, %ebx
	cmpb	$0, .Lstatic.0(%rip)
	movq	520(%rsp), %r15
	jne	.LBB0_686
	movdqa	544(%rsp), %xmm0
	movdqa	560(%rsp), %xmm1
	movdqa	%xmm0, 144(%rsp)
	movdqa	%xmm1, 160(%rsp)
	leaq	304(%rsp), %rdi
	leaq	144(%rsp), %rsi
	callq	std.io.buffered.BufWriter.flush_buf.3e795ebea2bd6aa3
	cmpq	$0, 168(%rsp)
	je	.LBB0_285
	movq	152(%rsp), %rdi
	callq	rattle_dealloc@PLT
.LBB0_285:
	movq	8936(%rsp), %rsi
	subq	8944(%rsp), %rsi
	je	.LBB0_287
	xorl	%edi, %edi
	movl	$1, %edx
	callq	lseek@PLT
.LBB0_287:
	cmpq	$0, 8976(%rsp)
	je	.LBB0_289
	movq	8960(%rsp), %rdi
	callq	rattle_dealloc@PLT
.LBB0_289:
	testq	%r13, %r13
	je	.LBB0_294
	leaq	16(%r15), %r14
	jmp	.LBB0_292
	.p2align	4
.LBB0_291:
	addq	$24, %r14
	decq	%r13
	je	.LBB0_294
.LBB0_292:
	cmpq	$0, (%r14)
	je	.LBB0_291
	movq	-16(%r14), %rdi
	callq	rattle_dealloc@PLT
	jmp	.LBB0_291
.LBB0_294:
	testq	%r12, %r12
	je	.LBB0_296
	movq	%r15, %rdi
	callq	rattle_dealloc@PLT
.LBB0_296:
	movq	584(%rsp), %rcx
	movb	$0, (%rcx)
	movb	%bl, 1(%rcx)
	pxor	%xmm0, %xmm0
	movdqu	%xmm0, 8(%rcx)
.LBB0_297:
	movdqu	%xmm0, 24(%rcx)
	movdqa	592(%rsp), %xmm0
	movdqa	608(%rsp), %xmm1
	movaps	624(%rsp), %xmm2
	movdqu	%xmm0, 40(%rcx)
	movdqu	%xmm1, 56(%rcx)
	movups	%xmm2, 72(%rcx)
	movq	640(%rsp), %rax
	movq	%rax, 88(%rcx)
.LBB0_298:
	addq	$9000, %rsp
	popq	%rbx
	popq	%r12
	popq	%r13
	popq	%r14
	popq	%r15
	popq	%rbp
	retq
.LBB0_299:
	movzbl	152(%rsp), %eax
	movq	%rax, 8(%rsp)
	movq	160(%rsp), %rbp
	cmpq	$0, 128(%rsp)
	je	.LBB0_301
	movq	112(%rsp), %rdi
	callq	rattle_dealloc@PLT
.LBB0_301:
	movq	304(%rsp), %rdi
	movups	344(%rsp), %xmm0
	movaps	%xmm0, 480(%rsp)
	movdqu	360(%rsp), %xmm0
	movdqa	%xmm0, 496(%rsp)
	movq	376(%rsp), %r14
	movq	392(%rsp), %r15
	movq	400(%rsp), %rbx
	movq	408(%rsp), %r12
	movq	416(%rsp), %rax
	movq	%rax, 32(%rsp)
	cmpq	$0, 320(%rsp)
	je	.LBB0_303
	callq	rattle_dealloc@PLT
.LBB0_303:
	leaq	488(%rsp), %rdi
	callq	std_alloc.vec.Vec.drop.3580eecdd8931e03
	testq	%r15, %r15
	je	.LBB0_305
	movq	%r14, %rdi
	callq	rattle_dealloc@PLT
.LBB0_305:
	testq	%r12, %r12
	je	.LBB0_310
	leaq	16(%rbx), %r14
	jmp	.LBB0_308
.LBB0_307:
	addq	$24, %r14
	decq	%r12
	je	.LBB0_310
.LBB0_308:
	cmpq	$0, (%r14)
	je	.LBB0_307
	movq	-16(%r14), %rdi
	callq	rattle_dealloc@PLT
	jmp	.LBB0_307
.LBB0_310:
	cmpq	$0, 32(%rsp)
	je	.LBB0_312
	movq	%rbx, %rdi
	callq	rattle_dealloc@PLT
.LBB0_312:
	cmpq	$0, 440(%rsp)
	movq	472(%rsp), %r12
	je	.LBB0_314
	movq	424(%rsp), %rdi
	callq	rattle_dealloc@PLT
.LBB0_314:
	xorl	%r15d, %r15d
	movq	8(%rsp), %rbx
	jmp	.LBB0_261
.LBB0_315:
	testb	%bl, %bl
	je	.LBB0_368
	movb	$1, %al
	movq	%rax, 56(%rsp)
	xorl	%r15d, %r15d
	jmp	.LBB0_382
.LBB0_317:
	cmpq	$0, 128(%rsp)
	je	.LBB0_319
	movq	112(%rsp), %rdi
	callq	rattle_dealloc@PLT
.LBB0_319:
	movq	304(%rsp), %rdi
	movups	344(%rsp), %xmm0
	movaps	%xmm0, 480(%rsp)
	movdqu	360(%rsp), %xmm0
	movdqa	%xmm0, 496(%rsp)
	movq	376(%rsp), %r14
	movq	392(%rsp), %rbp
	movq	400(%rsp), %rbx
	movq	408(%rsp), %r12
	movq	416(%rsp), %r15
	cmpq	$0, 320(%rsp)
	je	.LBB0_321
	callq	rattle_dealloc@PLT
.LBB0_321:
	leaq	488(%rsp), %rdi
	callq	std_alloc.vec.Vec.drop.3580eecdd8931e03
	testq	%rbp, %rbp
	je	.LBB0_323
	movq	%r14, %rdi
	callq	rattle_dealloc@PLT
.LBB0_323:
	testq	%r12, %r12
	je	.LBB0_328
	leaq	16(%rbx), %r14
	jmp	.LBB0_326
.LBB0_325:
	addq	$24, %r14
	decq	%r12
	je	.LBB0_328
.LBB0_326:
	cmpq	$0, (%r14)
	je	.LBB0_325
	movq	-16(%r14), %rdi
	callq	rattle_dealloc@PLT
	jmp	.LBB0_325
.LBB0_328:
	testq	%r15, %r15
	je	.LBB0_330
	movq	%rbx, %rdi
	callq	rattle_dealloc@PLT
.LBB0_330:
	cmpq	$0, 440(%rsp)
	movq	472(%rsp), %r12
	je	.LBB0_332
	movq	424(%rsp), %rdi
	callq	rattle_dealloc@PLT
.LBB0_332:
	movq	$0, 56(%rsp)
	xorl	%r15d, %r15d
	xorl	%ebx, %ebx
	jmp	.LBB0_260
.LBB0_333:
	movzbl	153(%rsp), %eax
	movaps	.LCPI0_0(%rip), %xmm0
	movaps	%xmm0, 144(%rsp)
	movaps	.LCPI0_1(%rip), %xmm0
	movaps	%xmm0, 160(%rsp)
	movabsq	$2820983053732684064, %rcx
	movq	%rcx, 176(%rsp)
	movb	$40, 184(%rsp)
	cmpq	$41, %rax
	jae	.LBB0_351
	cmpb	$38, 144(%rsp,%rax)
	sete	%al
	orb	$2, %al
	jmp	.LBB0_352
.LBB0_335:
	movq	448(%rsp), %rbp
	cmpq	$0, 128(%rsp)
	je	.LBB0_337
	movq	112(%rsp), %rdi
	callq	rattle_dealloc@PLT
.LBB0_337:
	movq	304(%rsp), %rdi
	movups	344(%rsp), %xmm0
	movaps	%xmm0, 480(%rsp)
	movdqu	360(%rsp), %xmm0
	movdqa	%xmm0, 496(%rsp)
	movq	376(%rsp), %r14
	movq	392(%rsp), %r15
	movq	400(%rsp), %rbx
	movq	408(%rsp), %r12
	movq	416(%rsp), %rax
	movq	%rax, 32(%rsp)
	cmpq	$0, 320(%rsp)
	je	.LBB0_339
	callq	rattle_dealloc@PLT
.LBB0_339:
	leaq	488(%rsp), %rdi
	callq	std_alloc.vec.Vec.drop.3580eecdd8931e03
	testq	%r15, %r15
	je	.LBB0_341
	movq	%r14, %rdi
	callq	rattle_dealloc@PLT
.LBB0_341:
	testq	%r12, %r12
	je	.LBB0_346
	leaq	16(%rbx), %r14
	jmp	.LBB0_344
.LBB0_343:
	addq	$24, %r14
	decq	%r12
	je	.LBB0_346
.LBB0_344:
	cmpq	$0, (%r14)
	je	.LBB0_343
	movq	-16(%r14), %rdi
	callq	rattle_dealloc@PLT
	jmp	.LBB0_343
.LBB0_346:
	cmpq	$0, 32(%rsp)
	je	.LBB0_348
	movq	%rbx, %rdi
	callq	rattle_dealloc@PLT
.LBB0_348:
	movb	$1, %al
	movq	%rax, 56(%rsp)
	cmpq	$0, 440(%rsp)
	movq	472(%rsp), %r12
	je	.LBB0_350
	movq	424(%rsp), %rdi
	callq	rattle_dealloc@PLT
.LBB0_350:
	xorl	%r15d, %r15d
	movb	$1, %bl
	jmp	.LBB0_261
.LBB0_351:
	movb	$2, %al
.LBB0_352:
	movq	%rax, 8(%rsp)
	cmpq	$0, 128(%rsp)
	je	.LBB0_354
	movq	112(%rsp), %rdi
	callq	rattle_dealloc@PLT
.LBB0_354:
	movq	304(%rsp), %rdi
	movups	344(%rsp), %xmm0
	movaps	%xmm0, 480(%rsp)
	movdqu	360(%rsp), %xmm0
	movdqa	%xmm0, 496(%rsp)
	movq	376(%rsp), %r14
	movq	392(%rsp), %rbp
	movq	400(%rsp), %rbx
	movq	408(%rsp), %r12
	movq	416(%rsp), %r15
	cmpq	$0, 320(%rsp)
	je	.LBB0_356
	callq	rattle_dealloc@PLT
.LBB0_356:
	leaq	488(%rsp), %rdi
	callq	std_alloc.vec.Vec.drop.3580eecdd8931e03
	testq	%rbp, %rbp
	je	.LBB0_358
	movq	%r14, %rdi
	callq	rattle_dealloc@PLT
.LBB0_358:
	testq	%r12, %r12
	je	.LBB0_363
	leaq	16(%rbx), %r14
	jmp	.LBB0_361
.LBB0_360:
	addq	$24, %r14
	decq	%r12
	je	.LBB0_363
.LBB0_361:
	cmpq	$0, (%r14)
	je	.LBB0_360
	movq	-16(%r14), %rdi
	callq	rattle_dealloc@PLT
	jmp	.LBB0_360
.LBB0_363:
	testq	%r15, %r15
	je	.LBB0_365
	movq	%rbx, %rdi
	callq	rattle_dealloc@PLT
.LBB0_365:
	cmpq	$0, 440(%rsp)
	movq	472(%rsp), %r12
	je	.LBB0_367
	movq	424(%rsp), %rdi
	callq	rattle_dealloc@PLT
.LBB0_367:
	xorl	%r15d, %r15d
	xorl	%ebp, %ebp
	movq	8(%rsp), %rbx
	jmp	.LBB0_261
.LBB0_368:
	movq	448(%rsp), %rbx
	pxor	%xmm0, %xmm0
	movdqa	%xmm0, 64(%rsp)
	movq	$0, 80(%rsp)
	movdqa	%xmm0, 256(%rsp)
	movq	$0, 272(%rsp)
	leaq	.Lstatic.85(%rip), %rdx
	leaq	256(%rsp), %rdi
	leaq	544(%rsp), %rsi
	movl	$5, %ecx
	callq	ic_program.writing.write_whole.40d1f5182270a21e
	cmpb	$0, 256(%rsp)
	jne	.LBB0_380
	pxor	%xmm0, %xmm0
	movdqa	%xmm0, 160(%rsp)
	movdqa	%xmm0, 144(%rsp)
	movq	$0, 176(%rsp)
	movl	$40, %esi
	cmpq	$10000, %rbx
	jb	.LBB0_371
.LBB0_370:
	movabsq	$3777893186295716171, %rcx
	movq	%rbx, %rax
	mulq	%rcx
	shrq	$11, %rdx
	imull	$10000, %edx, %eax
	movl	%ebx, %ecx
	subl	%eax, %ecx
	imull	$5243, %ecx, %eax
	shrl	$19, %eax
	imull	$100, %eax, %edi
	subl	%edi, %ecx
	movzwl	%cx, %ecx
	leaq	.Lstatic.39(%rip), %rdi
	movzwl	(%rdi,%rcx,2), %ecx
	movw	%cx, 142(%rsp,%rsi)
	movzwl	(%rdi,%rax,2), %eax
	movw	%ax, 140(%rsp,%rsi)
	addq	$-4, %rsi
	cmpq	$99999999, %rbx
	movq	%rdx, %rbx
	ja	.LBB0_370
	jmp	.LBB0_372
.LBB0_371:
	movq	%rbx, %rdx
.LBB0_372:
	cmpq	$99, %rdx
	ja	.LBB0_375
	cmpq	$9, %rdx
	ja	.LBB0_377
	orb	$48, %dl
	movb	%dl, 143(%rsp,%rsi)
	decq	%rsi
	jmp	.LBB0_379
.LBB0_375:
	movl	%edx, %eax
	shrl	$2, %eax
	movzwl	%ax, %eax
	imull	$5243, %eax, %eax
	shrl	$17, %eax
	imull	$100, %eax, %ecx
	movl	%edx, %edi
	subl	%ecx, %edi
	movzwl	%di, %edi
	leaq	.Lstatic.39(%rip), %rcx
	movzwl	(%rcx,%rdi,2), %edi
	movw	%di, 142(%rsp,%rsi)
	cmpq	$999, %rdx
	ja	.LBB0_378
	orb	$48, %al
	movb	%al, 141(%rsp,%rsi)
	addq	$-3, %rsi
	jmp	.LBB0_379
.LBB0_377:
	leaq	.Lstatic.39(%rip), %rax
	movzwl	(%rax,%rdx,2), %eax
	movw	%ax, 142(%rsp,%rsi)
	addq	$-2, %rsi
	jmp	.LBB0_379
.LBB0_378:
	movzwl	%ax, %eax
	movzwl	(%rcx,%rax,2), %eax
	movw	%ax, 140(%rsp,%rsi)
	addq	$-4, %rsi
.LBB0_379:
	leaq	(%rsp,%rsi), %rdx
	addq	$144, %rdx
	movl	$40, %ecx
	subq	%rsi, %rcx
	leaq	256(%rsp), %rdi
	leaq	544(%rsp), %rsi
	callq	ic_program.writing.write_whole.40d1f5182270a21e
	cmpb	$0, 256(%rsp)
	je	.LBB0_397
.LBB0_380:
	movq	272(%rsp), %rax
	movb	$1, %dl
	movzbl	264(%rsp), %ecx
.LBB0_381:
	xorl	%ebp, %ebp
	movq	%rdx, 56(%rsp)
	testb	%dl, %dl
	sete	%r15b
	movzbl	%cl, %ecx
	cmovel	%ebp, %ecx
	movq	%rcx, 8(%rsp)
	cmovneq	%rax, %rbp
.LBB0_382:
	cmpq	$0, 128(%rsp)
	je	.LBB0_384
	movq	112(%rsp), %rdi
	callq	rattle_dealloc@PLT
.LBB0_384:
	movq	304(%rsp), %rdi
	movups	344(%rsp), %xmm0
	movaps	%xmm0, 480(%rsp)
	movdqu	360(%rsp), %xmm0
	movdqa	%xmm0, 496(%rsp)
	movq	376(%rsp), %r14
	movq	392(%rsp), %rbx
	movq	400(%rsp), %rax
	movq	%rax, 32(%rsp)
	movq	408(%rsp), %r12
	movq	416(%rsp), %rax
	movq	%rax, 16(%rsp)
	cmpq	$0, 320(%rsp)
	je	.LBB0_386
	callq	rattle_dealloc@PLT
.LBB0_386:
	leaq	488(%rsp), %rdi
	callq	std_alloc.vec.Vec.drop.3580eecdd8931e03
	testq	%rbx, %rbx
	je	.LBB0_388
	movq	%r14, %rdi
	callq	rattle_dealloc@PLT
.LBB0_388:
	testq	%r12, %r12
	movq	8(%rsp), %rbx
	je	.LBB0_393
	movq	32(%rsp), %rax
	leaq	16(%rax), %r14
	jmp	.LBB0_391
.LBB0_390:
	addq	$24, %r14
	decq	%r12
	je	.LBB0_393
.LBB0_391:
	cmpq	$0, (%r14)
	je	.LBB0_390
	movq	-16(%r14), %rdi
	callq	rattle_dealloc@PLT
	jmp	.LBB0_390
.LBB0_393:
	cmpq	$0, 16(%rsp)
	je	.LBB0_395
	movq	32(%rsp), %rdi
	callq	rattle_dealloc@PLT
.LBB0_395:
	cmpq	$0, 440(%rsp)
	movq	472(%rsp), %r12
	je	.LBB0_261
	movq	424(%rsp), %rdi
	callq	rattle_dealloc@PLT
	jmp	.LBB0_261
.LBB0_397:
	leaq	.Lstatic.86(%rip), %rdx
	leaq	64(%rsp), %rdi
	leaq	544(%rsp), %rsi
	movl	$13, %ecx
	callq	ic_program.writing.write_whole.40d1f5182270a21e
	movzbl	64(%rsp), %edx
	movzbl	72(%rsp), %ecx
	movq	80(%rsp), %rax
	jmp	.LBB0_381
.LBB0_398:
	xorl	%eax, %eax
	cmpq	$3, %rbx
	jb	.LBB0_403
	movq	%r14, %rcx
	subq	%rbp, %rcx
	cmpq	$32, %rcx
	jb	.LBB0_403
	leaq	1(%rbx), %rax
	andl	$2097148, %eax
	xorl	%ecx, %ecx
.LBB0_401:
	movdqu	(%rbp,%rcx,8), %xmm0
	movdqu	16(%rbp,%rcx,8), %xmm1
	movdqu	%xmm0, (%r14,%rcx,8)
	movdqu	%xmm1, 16(%r14,%rcx,8)
	addq	$4, %rcx
	cmpq	%rcx, %rax
	jne	.LBB0_401
	leaq	1(%rbx), %rcx
	cmpq	%rax, %rcx
	je	.LBB0_409
.LBB0_403:
	movq	%rbx, %rcx
	subq	%rax, %rcx
	movl	%ebx, %edx
	notl	%edx
	testb	$3, %dl
	je	.LBB0_406
	leal	1(%rbx), %edx
	andl	$3, %edx
.LBB0_405:
	movq	(%rbp,%rax,8), %rsi
	movq	%rsi, (%r14,%rax,8)
	incq	%rax
	decq	%rdx
	jne	.LBB0_405
.LBB0_406:
	cmpq	$3, %rcx
	jb	.LBB0_409
	leaq	24(,%rax,8), %rcx
	addq	%rbp, %rcx
	leaq	(%r14,%rax,8), %rdx
	addq	$24, %rdx
	movq	%rbx, %rsi
	subq	%rax, %rsi
	movq	$-1, %rax
.LBB0_408:
	movq	-16(%rcx,%rax,8), %rdi
	movq	%rdi, -16(%rdx,%rax,8)
	movq	-8(%rcx,%rax,8), %rdi
	movq	%rdi, -8(%rdx,%rax,8)
	movq	(%rcx,%rax,8), %rdi
	movq	%rdi, (%rdx,%rax,8)
	movq	8(%rcx,%rax,8), %rdi
	movq	%rdi, 8(%rdx,%rax,8)
	addq	$4, %rax
	cmpq	%rax, %rsi
	jne	.LBB0_408
.LBB0_409:
	movq	%rbp, %rdi
	callq	rattle_dealloc@PLT
	movq	%rsp, %rbp
	movq	%rbp, 144(%rsp)
	pxor	%xmm0, %xmm0
	movdqu	%xmm0, 152(%rsp)
	leaq	144(%rsp), %rdi
	movq	%r15, %rsi
	callq	std_alloc.vec.Vec.grow_amortized.475ef6a323907ad9
	testb	%al, %al
	je	.LBB0_413
.LBB0_410:
	#APP
	#NO_APP
	movq	(%r14), %rax
	#APP
	#NO_APP
	movq	152(%rsp), %r12
	incq	%r12
	movq	%r12, 152(%rsp)
	decq	%r15
	jne	.LBB0_410
	movq	144(%rsp), %rax
	movq	%rax, 56(%rsp)
	movq	160(%rsp), %rax
	movq	%rax, 8(%rsp)
	movq	%r14, 304(%rsp)
	movq	32(%rsp), %rax
	movq	%rax, 312(%rsp)
	leaq	1(%rbx), %rcx
	movq	%rcx, 320(%rsp)
	movq	$0, 328(%rsp)
	movq	%r14, 336(%rsp)
	movq	%rcx, 344(%rsp)
	movq	%rax, 352(%rsp)
	movq	$0, 360(%rsp)
	movq	%rbx, 368(%rsp)
	movq	%rbp, 144(%rsp)
	pxor	%xmm0, %xmm0
	movdqu	%xmm0, 152(%rsp)
	testq	%rbx, %rbx
	je	.LBB0_427
	movq	%rsp, %rax
	movl	$8, %r14d
	movq	$0, 32(%rsp)
	xorl	%r15d, %r15d
	jmp	.LBB0_419
.LBB0_413:
	cmpq	$0, 160(%rsp)
	je	.LBB0_415
	movq	144(%rsp), %rdi
	callq	rattle_dealloc@PLT
.LBB0_415:
	movq	%r14, %rdi
	callq	rattle_dealloc@PLT
	movq	32(%rsp), %rdi
	jmp	.LBB0_248
.LBB0_416:
	movq	144(%rsp), %rax
	movq	152(%rsp), %rcx
	movq	%rcx, 32(%rsp)
.LBB0_417:
	movq	32(%rsp), %rcx
	movq	%r14, (%rax,%rcx,8)
	incq	%rcx
	movq	%rcx, 32(%rsp)
	movq	%rcx, 152(%rsp)
.LBB0_418:
	incq	%r15
	addq	$8, %r14
	cmpq	%r15, %rbx
	je	.LBB0_426
.LBB0_419:
	movq	%r15, %rcx
	shrq	$32, %rcx
	jne	.LBB0_418
	movq	32(%rsp), %rcx
	cmpq	%rcx, 160(%rsp)
	jne	.LBB0_417
	leaq	144(%rsp), %rdi
	callq	std_alloc.vec.Vec.grow_amortized.34b4ac368a9081d8
	testb	%al, %al
	jne	.LBB0_416
	cmpq	$0, 160(%rsp)
	je	.LBB0_424
	movq	144(%rsp), %rdi
	callq	rattle_dealloc@PLT
.LBB0_424:
	cmpq	$0, 8(%rsp)
	je	.LBB0_683
	movq	56(%rsp), %rdi
	jmp	.LBB0_682
.LBB0_426:
	movq	144(%rsp), %rax
	movq	%rax, 248(%rsp)
	cmpq	$0, 160(%rsp)
	sete	7(%rsp)
	jmp	.LBB0_428
.LBB0_427:
	movq	$0, 32(%rsp)
	movb	$1, 7(%rsp)
	movq	%rbp, 248(%rsp)
.LBB0_428:
	movq	%rbp, 64(%rsp)
	pxor	%xmm0, %xmm0
	movdqu	%xmm0, 72(%rsp)
	testq	%r12, %r12
	je	.LBB0_447
	movq	%rsp, %r15
	movq	$0, 16(%rsp)
.LBB0_430:
	movq	%rsp, %rax
	movq	%rax, 144(%rsp)
	pxor	%xmm0, %xmm0
	leaq	152(%rsp), %rax
	movdqu	%xmm0, (%rax)
	movq	368(%rsp), %r14
	movabsq	$4294967296, %rax
	cmpq	%rax, %r14
	ja	.LBB0_491
	testq	%r14, %r14
	jne	.LBB0_435
	movq	%rsp, %rax
	movq	%rax, 24(%rsp)
	xorl	%r14d, %r14d
	xorl	%ebp, %ebp
.LBB0_433:
	pxor	%xmm0, %xmm0
	movdqa	%xmm0, 144(%rsp)
	movq	16(%rsp), %rax
	cmpq	%rax, 80(%rsp)
	je	.LBB0_445
.LBB0_434:
	decq	%r12
	movq	16(%rsp), %rdx
	movq	%rdx, %rax
	shlq	$6, %rax
	leaq	304(%rsp), %rcx
	movq	%rcx, (%r15,%rax)
	movq	248(%rsp), %rcx
	movq	%rcx, 8(%r15,%rax)
	movq	32(%rsp), %rcx
	movq	%rcx, 16(%r15,%rax)
	movq	24(%rsp), %rcx
	movq	%rcx, 24(%r15,%rax)
	movq	%rbp, 32(%r15,%rax)
	movq	%r14, 40(%r15,%rax)
	movdqa	144(%rsp), %xmm0
	movdqu	%xmm0, 48(%r15,%rax)
	incq	%rdx
	movq	%rdx, 16(%rsp)
	movq	%rdx, 72(%rsp)
	testq	%r12, %r12
	jne	.LBB0_430
	jmp	.LBB0_448
.LBB0_435:
	leaq	144(%rsp), %rdi
	movq	%r14, %rsi
	callq	std_alloc.vec.Vec.grow_amortized.aefd41eb74c3dbca
	testb	%al, %al
	je	.LBB0_489
	movq	144(%rsp), %rax
	movq	%rax, 24(%rsp)
	movq	152(%rsp), %rbp
	cmpq	$1, %r14
	je	.LBB0_444
	leaq	-1(%r14), %rcx
	addq	$-2, %r14
	movl	%ecx, %eax
	andl	$3, %eax
	cmpq	$3, %r14
	jb	.LBB0_441
	movq	%rbp, %rdx
	shlq	$4, %rdx
	movq	24(%rsp), %rsi
	addq	%rsi, %rdx
	addq	$56, %rdx
	andq	$-4, %rcx
	negq	%rcx
	xorl	%esi, %esi
.LBB0_439:
	movq	$1, -56(%rdx)
	movq	$0, -48(%rdx)
	movq	$1, -40(%rdx)
	movq	$0, -32(%rdx)
	movq	$1, -24(%rdx)
	movq	$0, -16(%rdx)
	movq	$1, -8(%rdx)
	movq	$0, (%rdx)
	addq	$64, %rdx
	addq	$-4, %rsi
	cmpq	%rsi, %rcx
	jne	.LBB0_439
	subq	%rsi, %rbp
	testq	%rax, %rax
	je	.LBB0_444
.LBB0_441:
	movq	%rbp, %rcx
	shlq	$4, %rcx
	movq	24(%rsp), %rdx
	addq	%rdx, %rcx
	addq	$8, %rcx
	negq	%rax
	xorl	%edx, %edx
.LBB0_442:
	movq	$1, -8(%rcx)
	movq	$0, (%rcx)
	decq	%rdx
	addq	$16, %rcx
	cmpq	%rdx, %rax
	jne	.LBB0_442
	subq	%rdx, %rbp
.LBB0_444:
	movq	%rbp, %rax
	shlq	$4, %rax
	movq	24(%rsp), %rcx
	movq	$1, (%rcx,%rax)
	movq	$0, 8(%rcx,%rax)
	incq	%rbp
	movq	160(%rsp), %r14
	jmp	.LBB0_433
.LBB0_445:
	leaq	64(%rsp), %rdi
	callq	std_alloc.vec.Vec.grow_amortized.97d0d6792c3fe7f4
	testb	%al, %al
	je	.LBB0_498
	movq	64(%rsp), %r15
	movq	72(%rsp), %rax
	movq	%rax, 16(%rsp)
	jmp	.LBB0_434
.LBB0_447:
	movq	$0, 16(%rsp)
.LBB0_448:
	cmpq	$0, 8(%rsp)
	je	.LBB0_450
	movq	56(%rsp), %rdi
	callq	rattle_dealloc@PLT
.LBB0_450:
	movq	64(%rsp), %rax
	movq	%rax, 56(%rsp)
	movq	80(%rsp), %rax
	movq	%rax, 296(%rsp)
	movq	$1, 456(%rsp)
	movq	$0, 464(%rsp)
	movq	%rsp, %rax
	movq	%rax, 8(%rsp)
	movq	%rax, 64(%rsp)
	pxor	%xmm0, %xmm0
	movdqu	%xmm0, 72(%rsp)
	cmpq	$0, 16(%rsp)
	je	.LBB0_463
	movq	56(%rsp), %rax
	leaq	104(%rax), %r14
	movq	$0, 24(%rsp)
	movq	$0, 104(%rsp)
.LBB0_452:
	movq	16(%rsp), %rbp
	movq	104(%rsp), %rcx
	leaq	1(%rcx), %rax
	movq	%rax, 104(%rsp)
	movq	%rbp, 32(%rsp)
	leaq	-1(%rbp), %rax
	movq	%rax, 16(%rsp)
	movq	%rcx, 648(%rsp)
	movq	%rcx, %rax
	shlq	$6, %rax
	movq	56(%rsp), %rcx
	movq	(%rcx,%rax), %r12
	movq	24(%rcx,%rax), %rdx
	movq	%rdx, 8(%rsp)
	movq	40(%rcx,%rax), %rdx
	movq	%rdx, 96(%rsp)
	movups	32(%rcx,%rax), %xmm0
	movaps	%xmm0, 528(%rsp)
	incq	24(%rsp)
	movups	8(%rcx,%rax), %xmm0
	movaps	%xmm0, 256(%rsp)
	movdqu	48(%rcx,%rax), %xmm0
	movdqa	%xmm0, 112(%rsp)
.LBB0_453:
	#APP
	#NO_APP
	movq	456(%rsp), %rax
	#APP
	#NO_APP
	movabsq	$9223372036854775807, %rcx
	cmpq	%rcx, %rax
	jae	.LBB0_513
	leaq	1(%rax), %rcx
	#APP
	#NO_APP
	lock		cmpxchgq	%rcx, 456(%rsp)
	#APP
	#NO_APP
	jne	.LBB0_453
	movl	$104, %edi
	callq	malloc@PLT
	testq	%rax, %rax
	je	.LBB0_511
	movq	%rax, %r15
	movq	%r12, 16(%rax)
	movaps	256(%rsp), %xmm0
	movups	%xmm0, 24(%rax)
	movq	8(%rsp), %rax
	movq	%rax, 40(%r15)
	movaps	528(%rsp), %xmm0
	movups	%xmm0, 48(%r15)
	movdqa	112(%rsp), %xmm0
	movdqu	%xmm0, 64(%r15)
	movq	24(%rsp), %rax
	movq	%rax, 80(%r15)
	leaq	.Lstatic.80(%rip), %rax
	movq	%rax, 88(%r15)
	leaq	456(%rsp), %rax
	movq	%rax, 96(%r15)
	movq	$0, 8(%r15)
	pxor	%xmm0, %xmm0
	movdqa	%xmm0, 192(%rsp)
	movdqa	%xmm0, 176(%rsp)
	movdqa	%xmm0, 160(%rsp)
	movdqa	%xmm0, 144(%rsp)
	leaq	144(%rsp), %rdi
	callq	pthread_attr_init@PLT
	testl	%eax, %eax
	jne	.LBB0_510
	leaq	144(%rsp), %rdi
	movl	$65536, %esi
	callq	pthread_attr_setguardsize@PLT
	testl	%eax, %eax
	jne	.LBB0_509
	leaq	core.scope.entry.5a45c0bf2caea352.thread.called.by.C.0(%rip), %rdx
	leaq	144(%rsp), %rbp
	movq	%r15, %rdi
	movq	%rbp, %rsi
	movq	%r15, %rcx
	callq	pthread_create@PLT
	movl	%eax, %r12d
	movq	%rbp, %rdi
	callq	pthread_attr_destroy@PLT
	testl	%r12d, %r12d
	jne	.LBB0_510
	movq	72(%rsp), %rcx
	movq	%rcx, %rax
	cmpq	%rcx, 80(%rsp)
	je	.LBB0_461
.LBB0_460:
	movq	64(%rsp), %rcx
	movq	%rcx, 8(%rsp)
	movq	%r15, (%rcx,%rax,8)
	incq	%rax
	movq	%rax, 24(%rsp)
	movq	%rax, 72(%rsp)
	addq	$64, %r14
	cmpq	$0, 16(%rsp)
	jne	.LBB0_452
	jmp	.LBB0_464
.LBB0_461:
	leaq	64(%rsp), %rdi
	callq	std_alloc.vec.Vec.grow_amortized.34b4ac368a9081d8
	testb	%al, %al
	je	.LBB0_521
	movq	72(%rsp), %rax
	jmp	.LBB0_460
.LBB0_463:
	movq	$0, 24(%rsp)
.LBB0_464:
	cmpq	$0, 296(%rsp)
	je	.LBB0_466
	movq	56(%rsp), %rdi
	callq	rattle_dealloc@PLT
.LBB0_466:
	movq	80(%rsp), %rax
	movq	%rax, 16(%rsp)
	pxor	%xmm0, %xmm0
	movdqa	%xmm0, 144(%rsp)
	movq	$0, 160(%rsp)
	movdqa	%xmm0, 720(%rsp)
	cmpq	$0, 24(%rsp)
	je	.LBB0_482
	movabsq	$230584300921369395, %rax
	cmpq	%rax, 24(%rsp)
	ja	.LBB0_479
	movq	24(%rsp), %rax
	leaq	(,%rax,8), %rax
	leaq	(%rax,%rax,4), %rdi
	movl	$8, %esi
	callq	rattle_alloc@PLT
	testb	$1, %al
	je	.LBB0_479
	movq	%rdx, 144(%rsp)
	movq	$0, 152(%rsp)
	movq	24(%rsp), %rax
	movq	%rax, 160(%rsp)
	xorl	%ebp, %ebp
	jmp	.LBB0_471
.LBB0_470:
	incq	%rbp
	movq	144(%rsp), %rdx
	movq	%rax, %rsi
	leaq	(%rax,%rax,4), %rax
	movq	%r12, (%rdx,%rax,8)
	movaps	32(%rsp), %xmm0
	movups	%xmm0, 8(%rdx,%rax,8)
	movdqa	720(%rsp), %xmm0
	movq	%rdx, 96(%rsp)
	movdqu	%xmm0, 24(%rdx,%rax,8)
	incq	%rsi
	movq	%rsi, 32(%rsp)
	movq	%rsi, 152(%rsp)
	cmpq	%rbp, 24(%rsp)
	je	.LBB0_483
.LBB0_471:
	movq	8(%rsp), %rax
	movq	(%rax,%rbp,8), %r15
	pxor	%xmm0, %xmm0
	movdqa	%xmm0, 112(%rsp)
	movdqa	%xmm0, 256(%rsp)
	movq	(%r15), %rdi
	xorl	%esi, %esi
	callq	pthread_join@PLT
	cmpb	$0, .Lstatic.0(%rip)
	jne	.LBB0_686
	testl	%eax, %eax
	jne	.LBB0_685
	#APP
	#NO_APP
	movq	8(%r15), %rax
	#APP
	#NO_APP
	cmpq	$1, %rax
	jne	.LBB0_685
	movq	16(%r15), %r12
	movq	32(%r15), %r14
	movups	24(%r15), %xmm0
	movaps	%xmm0, 32(%rsp)
	movups	40(%r15), %xmm0
	movaps	%xmm0, 256(%rsp)
	movq	%r15, %rdi
	callq	free@PLT
	movaps	256(%rsp), %xmm0
	movaps	%xmm0, 112(%rsp)
	cmpb	$0, .Lstatic.0(%rip)
	jne	.LBB0_686
	movaps	112(%rsp), %xmm0
	movaps	%xmm0, 720(%rsp)
	cmpb	$0, .Lstatic.0(%rip)
	jne	.LBB0_686
	movq	152(%rsp), %rcx
	movq	%rcx, %rax
	cmpq	%rcx, 160(%rsp)
	jne	.LBB0_470
	leaq	144(%rsp), %rdi
	callq	std_alloc.vec.Vec.grow_amortized.cc81737fef4b42c4
	testb	%al, %al
	je	.LBB0_687
	movq	152(%rsp), %rax
	jmp	.LBB0_470
.LBB0_479:
	cmpb	$0, .Lstatic.0(%rip)
	jne	.LBB0_686
	movq	8(%rsp), %rax
	movq	%rax, 144(%rsp)
	movq	24(%rsp), %rax
	movq	%rax, 152(%rsp)
	movq	16(%rsp), %rax
	movq	%rax, 160(%rsp)
	leaq	144(%rsp), %rdi
	callq	std_alloc.vec.Vec.drop.f70b3562b761e113
	cmpb	$0, .Lstatic.0(%rip)
	jne	.LBB0_686
	cmpb	$0, .Lstatic.0(%rip)
	je	.LBB0_537
	jmp	.LBB0_686
.LBB0_482:
	movq	%rsp, %rax
	movq	%rax, 96(%rsp)
	movq	$0, 32(%rsp)
.LBB0_483:
	cmpb	$0, .Lstatic.0(%rip)
	jne	.LBB0_686
	cmpb	$0, .Lstatic.0(%rip)
	jne	.LBB0_686
	cmpq	$0, 16(%rsp)
	je	.LBB0_487
	movq	8(%rsp), %rdi
	callq	rattle_dealloc@PLT
.LBB0_487:
	cmpb	$0, .Lstatic.0(%rip)
	jne	.LBB0_686
	movq	160(%rsp), %rax
	movq	%rax, 528(%rsp)
	movb	$1, %r14b
	cmpb	$0, .Lstatic.0(%rip)
	je	.LBB0_539
	jmp	.LBB0_686
.LBB0_489:
	cmpq	$0, 160(%rsp)
	je	.LBB0_491
	movq	144(%rsp), %rdi
	callq	rattle_dealloc@PLT
.LBB0_491:
	cmpq	$0, 8(%rsp)
	je	.LBB0_493
	movq	56(%rsp), %rdi
	callq	rattle_dealloc@PLT
.LBB0_493:
	movq	64(%rsp), %rbx
	movq	80(%rsp), %r14
	cmpq	$0, 16(%rsp)
	je	.LBB0_507
	leaq	40(%rbx), %r15
	jmp	.LBB0_496
.LBB0_495:
	addq	$64, %r15
	decq	16(%rsp)
	je	.LBB0_507
.LBB0_496:
	cmpq	$0, (%r15)
	je	.LBB0_495
	movq	-16(%r15), %rdi
	callq	rattle_dealloc@PLT
	jmp	.LBB0_495
.LBB0_498:
	testq	%r14, %r14
	je	.LBB0_500
	movq	24(%rsp), %rdi
	callq	rattle_dealloc@PLT
.LBB0_500:
	cmpq	$0, 8(%rsp)
	je	.LBB0_502
	movq	56(%rsp), %rdi
	callq	rattle_dealloc@PLT
.LBB0_502:
	movq	64(%rsp), %rbx
	movq	72(%rsp), %r15
	movq	80(%rsp), %r14
	testq	%r15, %r15
	je	.LBB0_507
	leaq	40(%rbx), %r12
	jmp	.LBB0_505
.LBB0_504:
	addq	$64, %r12
	decq	%r15
	je	.LBB0_507
.LBB0_505:
	cmpq	$0, (%r12)
	je	.LBB0_504
	movq	-16(%r12), %rdi
	callq	rattle_dealloc@PLT
	jmp	.LBB0_504
.LBB0_507:
	testq	%r14, %r14
	je	.LBB0_680
	movq	%rbx, %rdi
	jmp	.LBB0_679
.LBB0_509:
	leaq	144(%rsp), %rdi
	callq	pthread_attr_destroy@PLT
.LBB0_510:
	movq	%r15, %rdi
	callq	free@PLT
.LBB0_511:
	#APP
	#NO_APP
	lock		decq	456(%rsp)
	#APP
	#NO_APP
	jne	.LBB0_513
	#APP
	#NO_APP
	movl	$1, %eax
	xchgq	%rax, 464(%rsp)
	#APP
	#NO_APP
	movl	$202, %edi
	movl	$129, %edx
	movl	$1, %ecx
	leaq	464(%rsp), %rsi
	xorl	%r8d, %r8d
	xorl	%eax, %eax
	callq	syscall@PLT
.LBB0_513:
	cmpq	$0, 96(%rsp)
	je	.LBB0_515
	movq	8(%rsp), %rdi
	callq	rattle_dealloc@PLT
.LBB0_515:
	cmpq	$0, 16(%rsp)
	je	.LBB0_534
	movq	648(%rsp), %rax
	addq	32(%rsp), %rax
	cmpq	%rax, 104(%rsp)
	jae	.LBB0_534
	movl	$1, %r15d
	jmp	.LBB0_519
.LBB0_518:
	incq	%r15
	addq	$64, %r14
	cmpq	%r15, 32(%rsp)
	je	.LBB0_534
.LBB0_519:
	cmpq	$0, (%r14)
	je	.LBB0_518
	movq	-16(%r14), %rdi
	callq	rattle_dealloc@PLT
	jmp	.LBB0_518
.LBB0_521:
	#APP
	#NO_APP
	movl	$1, %eax
	xchgq	%rax, 8(%r15)
	#APP
	#NO_APP
	testq	%rax, %rax
	je	.LBB0_524
	movq	(%r15), %rdi
	xorl	%esi, %esi
	callq	pthread_join@PLT
	cmpb	$0, .Lstatic.0(%rip)
	jne	.LBB0_686
	movq	%r15, %rdi
	callq	free@PLT
.LBB0_524:
	cmpb	$0, .Lstatic.0(%rip)
	jne	.LBB0_686
	cmpb	$0, .Lstatic.0(%rip)
	jne	.LBB0_686
	cmpb	$0, .Lstatic.0(%rip)
	jne	.LBB0_686
	cmpb	$0, .Lstatic.0(%rip)
	jne	.LBB0_686
	cmpq	$0, 16(%rsp)
	je	.LBB0_534
	movq	648(%rsp), %rax
	addq	32(%rsp), %rax
	cmpq	%rax, 104(%rsp)
	jae	.LBB0_534
	movl	$1, %r15d
	jmp	.LBB0_532
.LBB0_531:
	incq	%r15
	addq	$64, %r14
	cmpq	%r15, 32(%rsp)
	je	.LBB0_534
.LBB0_532:
	cmpq	$0, (%r14)
	je	.LBB0_531
	movq	-16(%r14), %rdi
	callq	rattle_dealloc@PLT
	jmp	.LBB0_531
.LBB0_534:
	cmpq	$0, 296(%rsp)
	je	.LBB0_536
	movq	56(%rsp), %rdi
	callq	rattle_dealloc@PLT
.LBB0_536:
	leaq	64(%rsp), %rdi
	callq	std_alloc.vec.Vec.drop.f70b3562b761e113
.LBB0_537:
	cmpb	$0, .Lstatic.0(%rip)
	jne	.LBB0_686
	xorl	%r14d, %r14d
	movq	$0, 96(%rsp)
	movq	$0, 32(%rsp)
	movq	$0, 528(%rsp)
.LBB0_539:
	cmpb	$0, .Lstatic.0(%rip)
	jne	.LBB0_686
	cmpb	$0, .Lstatic.0(%rip)
	jne	.LBB0_686
	#APP
	#NO_APP
	lock		decq	456(%rsp)
	#APP
	#NO_APP
	jne	.LBB0_543
	#APP
	#NO_APP
	movl	$1, %eax
	xchgq	%rax, 464(%rsp)
	#APP
	#NO_APP
	movl	$202, %edi
	movl	$129, %edx
	movl	$1, %ecx
	leaq	464(%rsp), %rsi
	xorl	%r8d, %r8d
	xorl	%eax, %eax
	callq	syscall@PLT
.LBB0_543:
	movabsq	$9223372036854775807, %rax
	movq	%rax, 144(%rsp)
	movq	$0, 152(%rsp)
	leaq	144(%rsp), %r8
	movl	$202, %edi
	movl	$128, %edx
	leaq	464(%rsp), %rsi
	xorl	%ecx, %ecx
	xorl	%eax, %eax
	callq	syscall@PLT
	cmpb	$0, .Lstatic.0(%rip)
	jne	.LBB0_686
	cmpb	$0, .Lstatic.0(%rip)
	jne	.LBB0_686
	movabsq	$9223372036854775807, %rax
	movq	%rax, 144(%rsp)
	movq	$0, 152(%rsp)
	leaq	144(%rsp), %r8
	movl	$202, %edi
	movl	$128, %edx
	leaq	464(%rsp), %rsi
	xorl	%ecx, %ecx
	xorl	%eax, %eax
	callq	syscall@PLT
	cmpb	$0, .Lstatic.0(%rip)
	je	.LBB0_547
	jmp	.LBB0_686
.LBB0_546:
	callq	sched_yield@PLT
.LBB0_547:
	cmpb	$0, .Lstatic.0(%rip)
	jne	.LBB0_686
.LBB0_548:
	#APP
	#NO_APP
	movq	464(%rsp), %rax
	#APP
	#NO_APP
	testq	%rax, %rax
	je	.LBB0_546
	#APP
	#NO_APP
	xorl	%ecx, %ecx
	lock		cmpxchgq	%rcx, 464(%rsp)
	#APP
	#NO_APP
	jne	.LBB0_548
	cmpb	$0, .Lstatic.0(%rip)
	jne	.LBB0_686
	cmpb	$0, .Lstatic.0(%rip)
	jne	.LBB0_686
	cmpb	$0, .Lstatic.0(%rip)
	jne	.LBB0_686
	cmpb	$0, .Lstatic.0(%rip)
	jne	.LBB0_686
	cmpb	$0, .Lstatic.0(%rip)
	jne	.LBB0_686
	testb	%r14b, %r14b
	je	.LBB0_680
	movq	%rsp, %r12
	movq	%r12, 64(%rsp)
	pxor	%xmm0, %xmm0
	movdqu	%xmm0, 72(%rsp)
	movq	%r12, 256(%rsp)
	movdqu	%xmm0, 264(%rsp)
	cmpq	$0, 32(%rsp)
	je	.LBB0_575
	movq	96(%rsp), %rax
	addq	$56, %rax
	movq	%rax, 8(%rsp)
	movq	$0, 24(%rsp)
.LBB0_558:
	movq	24(%rsp), %rcx
	leaq	1(%rcx), %rax
	movq	%rax, 104(%rsp)
	movq	32(%rsp), %rax
	decq	%rax
	movq	%rax, 56(%rsp)
	leaq	(%rcx,%rcx,4), %rax
	movq	96(%rsp), %rcx
	movq	(%rcx,%rax,8), %r15
	movq	16(%rcx,%rax,8), %r14
	movq	24(%rcx,%rax,8), %r12
	movq	%rsp, %rax
	movq	%rax, 16(%rsp)
	movq	%rax, 144(%rsp)
	pxor	%xmm0, %xmm0
	leaq	152(%rsp), %rax
	movdqu	%xmm0, (%rax)
	testq	%r12, %r12
	je	.LBB0_565
	movq	%rsp, %rax
	xorl	%ebp, %ebp
	jmp	.LBB0_561
.LBB0_560:
	movq	%r12, (%rax,%rbp,8)
	incq	%rbp
	movq	%rbp, 152(%rsp)
	movq	-16(%r15,%r12,2), %r12
	testq	%r12, %r12
	je	.LBB0_564
.LBB0_561:
	cmpq	%rbp, 160(%rsp)
	jne	.LBB0_560
	leaq	144(%rsp), %rdi
	callq	std_alloc.vec.Vec.grow_amortized.34b4ac368a9081d8
	testb	%al, %al
	je	.LBB0_583
	movq	144(%rsp), %rax
	movq	152(%rsp), %rbp
	jmp	.LBB0_560
.LBB0_564:
	movq	144(%rsp), %rax
	movq	%rax, 16(%rsp)
	movq	160(%rsp), %rax
	movq	%rax, 296(%rsp)
	jmp	.LBB0_566
.LBB0_565:
	movq	$0, 296(%rsp)
	xorl	%ebp, %ebp
.LBB0_566:
	testq	%r14, %r14
	je	.LBB0_568
	movq	%r15, %rdi
	callq	rattle_dealloc@PLT
.LBB0_568:
	movq	72(%rsp), %r15
	cmpq	%r15, 80(%rsp)
	je	.LBB0_571
.LBB0_569:
	incq	%r15
	movq	%r15, 72(%rsp)
	movq	264(%rsp), %r14
	cmpq	%r14, 272(%rsp)
	je	.LBB0_573
.LBB0_570:
	movq	256(%rsp), %r12
	leaq	(%r14,%r14,2), %rax
	movq	16(%rsp), %rcx
	movq	%rcx, (%r12,%rax,8)
	movq	%rbp, 8(%r12,%rax,8)
	movq	296(%rsp), %rcx
	movq	%rcx, 16(%r12,%rax,8)
	incq	%r14
	movq	%r14, 264(%rsp)
	addq	$40, 8(%rsp)
	movq	104(%rsp), %rax
	movq	%rax, 24(%rsp)
	movq	56(%rsp), %rcx
	movq	%rcx, 32(%rsp)
	testq	%rcx, %rcx
	jne	.LBB0_558
	jmp	.LBB0_576
.LBB0_571:
	leaq	64(%rsp), %rdi
	callq	std_alloc.vec.Vec.grow_amortized.1ced78ec54a54abc
	testb	%al, %al
	je	.LBB0_645
	movq	72(%rsp), %r15
	jmp	.LBB0_569
.LBB0_573:
	leaq	256(%rsp), %rdi
	callq	std_alloc.vec.Vec.grow_amortized.2f1185c89873501e
	testb	%al, %al
	je	.LBB0_660
	movq	264(%rsp), %r14
	jmp	.LBB0_570
.LBB0_575:
	xorl	%r14d, %r14d
	xorl	%r15d, %r15d
.LBB0_576:
	cmpq	$0, 528(%rsp)
	je	.LBB0_578
	movq	96(%rsp), %rdi
	callq	rattle_dealloc@PLT
	movq	72(%rsp), %r15
	movq	256(%rsp), %r12
	movq	264(%rsp), %r14
.LBB0_578:
	movq	64(%rsp), %rdi
	movq	80(%rsp), %rax
	movq	272(%rsp), %rcx
	movq	%rcx, 8(%rsp)
	movq	304(%rsp), %rcx
	#APP
	#NO_APP
	movq	(%rcx), %rcx
	#APP
	#NO_APP
	testq	%r15, %r15
	je	.LBB0_600
	movq	%r15, %rcx
.LBB0_580:
	movq	304(%rsp), %rdx
	#APP
	#NO_APP
	movq	(%rdx), %rdx
	#APP
	#NO_APP
	movq	304(%rsp), %rdx
	#APP
	#NO_APP
	movq	(%rdx), %rdx
	#APP
	#NO_APP
	decq	%rcx
	jne	.LBB0_580
	movq	304(%rsp), %rcx
	#APP
	#NO_APP
	movq	(%rcx), %rcx
	#APP
	#NO_APP
.LBB0_582:
	movq	304(%rsp), %rcx
	#APP
	#NO_APP
	movq	(%rcx), %rcx
	#APP
	#NO_APP
	movq	304(%rsp), %rcx
	#APP
	#NO_APP
	movq	(%rcx), %rcx
	#APP
	#NO_APP
	decq	%r15
	jne	.LBB0_582
	jmp	.LBB0_601
.LBB0_583:
	cmpq	$0, 160(%rsp)
	je	.LBB0_585
	movq	144(%rsp), %rdi
	callq	rattle_dealloc@PLT
.LBB0_585:
	testq	%r14, %r14
	je	.LBB0_587
	movq	%r15, %rdi
	callq	rattle_dealloc@PLT
.LBB0_587:
	cmpq	$0, 56(%rsp)
	je	.LBB0_593
	movq	24(%rsp), %rax
	addq	32(%rsp), %rax
	cmpq	%rax, 104(%rsp)
	jae	.LBB0_593
	movl	$1, %ebx
	jmp	.LBB0_591
.LBB0_590:
	incq	%rbx
	addq	$40, 8(%rsp)
	cmpq	%rbx, 32(%rsp)
	je	.LBB0_593
.LBB0_591:
	movq	8(%rsp), %rax
	cmpq	$0, (%rax)
	je	.LBB0_590
	movq	8(%rsp), %rax
	movq	-16(%rax), %rdi
	callq	rattle_dealloc@PLT
	jmp	.LBB0_590
.LBB0_593:
	cmpq	$0, 528(%rsp)
	je	.LBB0_595
	movq	96(%rsp), %rdi
	callq	rattle_dealloc@PLT
.LBB0_595:
	movq	256(%rsp), %rbx
	movq	264(%rsp), %r15
	movq	272(%rsp), %r14
	testq	%r15, %r15
	je	.LBB0_675
	leaq	16(%rbx), %r12
	jmp	.LBB0_598
.LBB0_597:
	addq	$24, %r12
	decq	%r15
	je	.LBB0_675
.LBB0_598:
	cmpq	$0, (%r12)
	je	.LBB0_597
	movq	-16(%r12), %rdi
	callq	rattle_dealloc@PLT
	jmp	.LBB0_597
.LBB0_600:
	movq	304(%rsp), %rcx
	#APP
	#NO_APP
	movq	(%rcx), %rcx
	#APP
	#NO_APP
.LBB0_601:
	testq	%rax, %rax
	je	.LBB0_603
	callq	rattle_dealloc@PLT
.LBB0_603:
	cmpb	$0, 7(%rsp)
	jne	.LBB0_605
	movq	248(%rsp), %rdi
	callq	rattle_dealloc@PLT
.LBB0_605:
	cmpb	$0, .Lstatic.0(%rip)
	jne	.LBB0_686
	movq	336(%rsp), %rdi
	movq	352(%rsp), %r15
	callq	rattle_dealloc@PLT
	movq	%r15, %rdi
	callq	rattle_dealloc@PLT
	cmpb	$0, .Lstatic.0(%rip)
	jne	.LBB0_686
	movq	%rsp, %rax
	movq	%rax, 304(%rsp)
	pxor	%xmm0, %xmm0
	movdqu	%xmm0, 312(%rsp)
	leaq	8(%r12), %r15
	movq	%r14, %rax
	negq	%rax
	movq	%rax, 24(%rsp)
	movl	$1, %ebp
.LBB0_608:
	movq	24(%rsp), %rax
	addq	%rbp, %rax
	cmpq	$1, %rax
	je	.LBB0_611
	movq	-8(%r15), %rax
	movq	%rax, 32(%rsp)
	movq	(%r15), %rax
	movq	%rax, 16(%rsp)
	leaq	.Lstatic.89(%rip), %rsi
	leaq	.Lstatic.82(%rip), %r8
	leaq	304(%rsp), %rdi
	movl	$7, %edx
	movl	$1, %r9d
	movq	%rbp, %rcx
	callq	ic_program.answers.push_numbered.714b863a58920bda
	testb	%al, %al
	jne	.LBB0_625
	leaq	.Lstatic.38(%rip), %rcx
	leaq	304(%rsp), %rdi
	movl	$1, %r8d
	movq	32(%rsp), %rsi
	movq	16(%rsp), %rdx
	callq	ic_program.answers.push_items.714b863a58920bda
	addq	$24, %r15
	incq	%rbp
	testb	%al, %al
	je	.LBB0_608
	jmp	.LBB0_625
.LBB0_611:
	xorl	%ecx, %ecx
	testq	%rbx, %rbx
	je	.LBB0_624
	testq	%r14, %r14
	je	.LBB0_624
	xorl	%ecx, %ecx
	xorl	%eax, %eax
	jmp	.LBB0_615
.LBB0_614:
	cmpq	$2, %rdx
	sbbq	$-1, %rcx
	incq	%rax
	cmpq	%rbx, %rax
	je	.LBB0_624
.LBB0_615:
	xorl	%edx, %edx
	xorl	%esi, %esi
	jmp	.LBB0_618
.LBB0_616:
	incq	%rdx
.LBB0_617:
	incq	%rsi
	cmpq	%r14, %rsi
	je	.LBB0_614
.LBB0_618:
	leaq	(%rsi,%rsi,2), %r8
	movq	8(%r12,%r8,8), %rdi
	testq	%rdi, %rdi
	je	.LBB0_617
	movq	(%r12,%r8,8), %r8
	xorl	%r9d, %r9d
	jmp	.LBB0_621
.LBB0_620:
	movq	%r10, %rdi
	cmpq	%rdi, %r9
	jae	.LBB0_617
.LBB0_621:
	movq	%rdi, %r10
	subq	%r9, %r10
	shrq	%r10
	addq	%r9, %r10
	movq	(%r8,%r10,8), %r11
	shrq	$3, %r11
	decq	%r11
	cmpq	%rax, %r11
	je	.LBB0_616
	jae	.LBB0_620
	incq	%r10
	movq	%r10, %r9
	cmpq	%rdi, %r9
	jb	.LBB0_621
	jmp	.LBB0_617
.LBB0_624:
	leaq	.Lstatic.88(%rip), %rsi
	leaq	.Lstatic.38(%rip), %r8
	leaq	304(%rsp), %rdi
	movl	$8, %edx
	movl	$1, %r9d
	callq	ic_program.answers.push_numbered.714b863a58920bda
	testb	%al, %al
	je	.LBB0_635
.LBB0_625:
	cmpq	$0, 320(%rsp)
	je	.LBB0_627
	movq	304(%rsp), %rdi
	callq	rattle_dealloc@PLT
.LBB0_627:
	movb	$1, 480(%rsp)
	movq	$3, 488(%rsp)
	movq	$0, 496(%rsp)
	testq	%r14, %r14
	je	.LBB0_632
	leaq	16(%r12), %rbx
	jmp	.LBB0_630
.LBB0_629:
	addq	$24, %rbx
	decq	%r14
	je	.LBB0_632
.LBB0_630:
	cmpq	$0, (%rbx)
	je	.LBB0_629
	movq	-16(%rbx), %rdi
	callq	rattle_dealloc@PLT
	jmp	.LBB0_629
.LBB0_632:
	movb	$1, %bl
	cmpq	$0, 8(%rsp)
	je	.LBB0_634
	movq	%r12, %rdi
	callq	rattle_dealloc@PLT
	xorl	%r14d, %r14d
	movzbl	488(%rsp), %eax
	jmp	.LBB0_252
.LBB0_634:
	movb	$3, %al
	jmp	.LBB0_251
.LBB0_635:
	movq	304(%rsp), %rbx
	movq	312(%rsp), %rcx
	movq	320(%rsp), %r15
	leaq	480(%rsp), %rdi
	leaq	544(%rsp), %rsi
	movq	%rbx, %rdx
	callq	ic_program.writing.write_whole.40d1f5182270a21e
	testq	%r15, %r15
	je	.LBB0_637
	movq	%rbx, %rdi
	callq	rattle_dealloc@PLT
.LBB0_637:
	testq	%r14, %r14
	je	.LBB0_642
	leaq	16(%r12), %rbx
	jmp	.LBB0_640
.LBB0_639:
	addq	$24, %rbx
	decq	%r14
	je	.LBB0_642
.LBB0_640:
	cmpq	$0, (%rbx)
	je	.LBB0_639
	movq	-16(%rbx), %rdi
	callq	rattle_dealloc@PLT
	jmp	.LBB0_639
.LBB0_642:
	cmpq	$0, 8(%rsp)
	je	.LBB0_644
	movq	%r12, %rdi
	callq	rattle_dealloc@PLT
.LBB0_644:
	movzbl	480(%rsp), %ebx
	movzbl	488(%rsp), %eax
	movq	496(%rsp), %r14
	jmp	.LBB0_252
.LBB0_645:
	cmpq	$0, 296(%rsp)
	je	.LBB0_647
	movq	16(%rsp), %rdi
	callq	rattle_dealloc@PLT
.LBB0_647:
	cmpq	$0, 56(%rsp)
	je	.LBB0_653
	movq	24(%rsp), %rax
	addq	32(%rsp), %rax
	cmpq	%rax, 104(%rsp)
	jae	.LBB0_653
	movl	$1, %ebx
	jmp	.LBB0_651
.LBB0_650:
	incq	%rbx
	addq	$40, 8(%rsp)
	cmpq	%rbx, 32(%rsp)
	je	.LBB0_653
.LBB0_651:
	movq	8(%rsp), %rax
	cmpq	$0, (%rax)
	je	.LBB0_650
	movq	8(%rsp), %rax
	movq	-16(%rax), %rdi
	callq	rattle_dealloc@PLT
	jmp	.LBB0_650
.LBB0_653:
	cmpq	$0, 528(%rsp)
	je	.LBB0_655
	movq	96(%rsp), %rdi
	callq	rattle_dealloc@PLT
.LBB0_655:
	movq	256(%rsp), %rbx
	movq	264(%rsp), %r15
	movq	272(%rsp), %r14
	testq	%r15, %r15
	je	.LBB0_675
	leaq	16(%rbx), %r12
	jmp	.LBB0_658
.LBB0_657:
	addq	$24, %r12
	decq	%r15
	je	.LBB0_675
.LBB0_658:
	cmpq	$0, (%r12)
	je	.LBB0_657
	movq	-16(%r12), %rdi
	callq	rattle_dealloc@PLT
	jmp	.LBB0_657
.LBB0_660:
	cmpq	$0, 296(%rsp)
	je	.LBB0_662
	movq	16(%rsp), %rdi
	callq	rattle_dealloc@PLT
.LBB0_662:
	cmpq	$0, 56(%rsp)
	je	.LBB0_668
	movq	24(%rsp), %rax
	addq	32(%rsp), %rax
	cmpq	%rax, 104(%rsp)
	jae	.LBB0_668
	movl	$1, %ebx
	jmp	.LBB0_666
.LBB0_665:
	incq	%rbx
	addq	$40, 8(%rsp)
	cmpq	%rbx, 32(%rsp)
	je	.LBB0_668
.LBB0_666:
	movq	8(%rsp), %rax
	cmpq	$0, (%rax)
	je	.LBB0_665
	movq	8(%rsp), %rax
	movq	-16(%rax), %rdi
	callq	rattle_dealloc@PLT
	jmp	.LBB0_665
.LBB0_668:
	cmpq	$0, 528(%rsp)
	je	.LBB0_670
	movq	96(%rsp), %rdi
	callq	rattle_dealloc@PLT
.LBB0_670:
	movq	256(%rsp), %rbx
	movq	264(%rsp), %r15
	movq	272(%rsp), %r14
	testq	%r15, %r15
	je	.LBB0_675
	leaq	16(%rbx), %r12
	jmp	.LBB0_673
.LBB0_672:
	addq	$24, %r12
	decq	%r15
	je	.LBB0_675
.LBB0_673:
	cmpq	$0, (%r12)
	je	.LBB0_672
	movq	-16(%r12), %rdi
	callq	rattle_dealloc@PLT
	jmp	.LBB0_672
.LBB0_675:
	testq	%r14, %r14
	je	.LBB0_677
	movq	%rbx, %rdi
	callq	rattle_dealloc@PLT
.LBB0_677:
	cmpq	$0, 80(%rsp)
	je	.LBB0_680
	movq	64(%rsp), %rdi
.LBB0_679:
	callq	rattle_dealloc@PLT
.LBB0_680:
	cmpb	$0, 7(%rsp)
	jne	.LBB0_683
	movq	248(%rsp), %rdi
.LBB0_682:
	callq	rattle_dealloc@PLT
.LBB0_683:
	cmpb	$0, .Lstatic.0(%rip)
	jne	.LBB0_686
	movq	336(%rsp), %rdi
	movq	352(%rsp), %rbx
	callq	rattle_dealloc@PLT
	movq	%rbx, %rdi
	jmp	.LBB0_248
.LBB0_685:
	callq	abort@PLT
	movzbl	.Lstatic.0(%rip), %eax
.LBB0_686:
	ud2
.LBB0_687:
	testq	%r14, %r14
	je	.LBB0_686
	movq	%r12, %rdi
	callq	rattle_dealloc@PLT
	ud2
.Lfunc_end0:
	.size	ic_main.run.fd625e2fe7ce0436, .Lfunc_end0-ic_main.run.fd625e2fe7ce0436
	.section	.text.core.str.utf8.from_utf8,"ax",@progbits
	.p2align	4
	.type	core.str.utf8.from_utf8,@function
core.str.utf8.from_utf8:
	pushq	%r15
	pushq	%r14
	pushq	%r13
	pushq	%r12
	pushq	%rbx
	subq	$16, %rsp
	movq	%rdx, %r15
	movq	%rsi, %r14
	movq	%rdi, %rbx
	testq	%rdx, %rdx
	je	.LBB1_57
	movabsq	$-9187201950435737472, %r12
	leaq	-8(%r15), %r13
	xorl	%ecx, %ecx
	jmp	.LBB1_5
.LBB1_25:
	movl	$1, %edi
.LBB1_3:
	addq	%rcx, %rdi
.LBB1_4:
	movq	%rdi, %rcx
	cmpq	%r15, %rdi
	jae	.LBB1_57
.LBB1_5:
	movzbl	(%r14,%rcx), %esi
	testb	%sil, %sil
	sets	%dl
	movq	%r15, %rax
	subq	%rcx, %rax
	cmpq	$2, %rax
	setb	%dil
	orb	%dl, %dil
	jne	.LBB1_2
	cmpb	$0, 1(%r14,%rcx)
	js	.LBB1_25
	movq	%r14, (%rsp)
	movq	%r15, 8(%rsp)
	cmpq	$7, %rax
	ja	.LBB1_26
	cmpb	$0, (%r14,%rcx)
	js	.LBB1_36
	leaq	1(%rcx), %rdi
	cmpq	%r15, %rdi
	je	.LBB1_57
	cmpb	$0, (%r14,%rdi)
	js	.LBB1_4
	leaq	2(%rcx), %rdi
	cmpq	%r15, %rdi
	je	.LBB1_57
	cmpb	$0, (%r14,%rdi)
	js	.LBB1_4
	leaq	3(%rcx), %rdi
	cmpq	%r15, %rdi
	je	.LBB1_57
	cmpb	$0, (%r14,%rdi)
	js	.LBB1_4
	leaq	4(%rcx), %rdi
	cmpq	%r15, %rdi
	je	.LBB1_57
	cmpb	$0, (%r14,%rdi)
	js	.LBB1_4
	leaq	5(%rcx), %rdi
	cmpq	%r15, %rdi
	je	.LBB1_57
	cmpb	$0, (%r14,%rdi)
	js	.LBB1_4
	addq	$6, %rcx
	cmpq	%r15, %rcx
	je	.LBB1_57
	cmpb	$0, (%r14,%rcx)
	movq	%rcx, %rdi
	js	.LBB1_4
	jmp	.LBB1_57
	.p2align	4
.LBB1_2:
	movl	$1, %edi
	testb	%sil, %sil
	jns	.LBB1_3
	movl	$257, %edx
	cmpb	$-62, %sil
	jb	.LBB1_66
	cmpb	$-33, %sil
	ja	.LBB1_29
	cmpq	$2, %rax
	jb	.LBB1_58
	movzbl	1(%r14,%rcx), %r8d
	movl	$2, %edi
	cmpb	$-65, %r8b
	jle	.LBB1_3
	jmp	.LBB1_60
.LBB1_26:
	movq	(%r14,%rcx), %rax
	andq	%r12, %rax
	je	.LBB1_37
	rep		bsfq	%rax, %rax
	shrl	$3, %eax
	addq	%rcx, %rax
	addq	$8, %rcx
	movq	%rax, %rdi
	cmpq	%rcx, %rax
	jb	.LBB1_4
	movq	%r15, %rcx
	subq	%rax, %rcx
	cmpq	$32, %rcx
	jae	.LBB1_38
	jmp	.LBB1_40
.LBB1_29:
	cmpb	$-17, %sil
	ja	.LBB1_48
	cmpq	$3, %rax
	jb	.LBB1_55
	movzbl	1(%r14,%rcx), %r8d
	cmpb	$-65, %r8b
	jg	.LBB1_60
	cmpb	$-65, 2(%r14,%rcx)
	jg	.LBB1_60
	movzbl	%r8b, %edi
	movl	%esi, %r9d
	shll	$6, %r9d
	addl	%edi, %r9d
	addl	$-14464, %r9d
	cmpl	$32, %r9d
	jb	.LBB1_60
	xorl	%r8d, %r8d
	cmpl	$896, %r9d
	setae	%r10b
	movl	$3, %edi
	cmpl	$864, %r9d
	jb	.LBB1_3
	movb	%r10b, %r8b
	leaq	(%r8,%r8,2), %rdi
	testq	%rdi, %rdi
	jne	.LBB1_3
	jmp	.LBB1_54
.LBB1_36:
	movq	%rcx, %rdi
	jmp	.LBB1_4
.LBB1_37:
	addq	$8, %rcx
	movq	%rcx, %rax
	movq	%r15, %rcx
	subq	%rax, %rcx
	cmpq	$32, %rcx
	jb	.LBB1_40
	.p2align	4
.LBB1_38:
	movdqu	(%r14,%rax), %xmm0
	movdqu	16(%r14,%rax), %xmm1
	por	%xmm0, %xmm1
	pshufd	$238, %xmm1, %xmm0
	por	%xmm1, %xmm0
	movq	%xmm0, %rcx
	testq	%r12, %rcx
	jne	.LBB1_40
	addq	$32, %rax
	movq	%rsp, %rdi
	movq	%rax, %rsi
	movq	%r15, %rdx
	callq	core.slice.words.skip_far.52f9edcae2f82f51
	movq	%r15, %rcx
	subq	%rax, %rcx
	cmpq	$31, %rcx
	ja	.LBB1_38
.LBB1_40:
	movq	%r15, %rcx
	subq	%rax, %rcx
	jmp	.LBB1_43
	.p2align	4
.LBB1_41:
	rep		bsfq	%rdx, %rdi
	shrl	$3, %edi
	addq	%rax, %rdi
	addq	$8, %rax
	addq	$-8, %rcx
	cmpq	%rax, %rdi
	jb	.LBB1_4
.LBB1_43:
	cmpq	$9, %rcx
	jb	.LBB1_46
	movq	(%r14,%rax), %rdx
	andq	%r12, %rdx
	jne	.LBB1_41
	leaq	8(%rax), %rdi
	addq	$8, %rax
	addq	$-8, %rcx
	cmpq	%rax, %rdi
	jae	.LBB1_43
	jmp	.LBB1_4
.LBB1_46:
	movq	(%r14,%r13), %rax
	andq	%r12, %rax
	je	.LBB1_57
	rep		bsfq	%rax, %rdi
	shrl	$3, %edi
	addq	%r13, %rdi
	jmp	.LBB1_4
.LBB1_48:
	cmpq	$4, %rax
	jb	.LBB1_54
	movzbl	1(%r14,%rcx), %edi
	cmpb	$-65, %dil
	jg	.LBB1_54
	cmpb	$-65, 2(%r14,%rcx)
	jg	.LBB1_54
	cmpb	$-65, 3(%r14,%rcx)
	jg	.LBB1_54
	movl	%esi, %r8d
	shll	$6, %r8d
	leal	(%r8,%rdi), %r9d
	addl	$-15488, %r9d
	xorl	%edi, %edi
	cmpl	$272, %r9d
	setb	%r8b
	cmpl	$16, %r9d
	jb	.LBB1_54
	movb	%r8b, %dil
	shll	$2, %edi
	testq	%rdi, %rdi
	jne	.LBB1_3
.LBB1_54:
	cmpb	$-12, %sil
	ja	.LBB1_66
.LBB1_55:
	cmpq	$2, %rax
	jb	.LBB1_58
	movzbl	1(%r14,%rcx), %r8d
.LBB1_60:
	cmpl	$240, %esi
	sete	%dil
	shlb	$4, %dil
	orb	$-128, %dil
	cmpl	$224, %esi
	movzbl	%dil, %edi
	movl	$160, %r9d
	cmovnel	%edi, %r9d
	cmpl	$244, %esi
	movl	$143, %edi
	movl	$191, %r10d
	cmovel	%edi, %r10d
	cmpl	$237, %esi
	movl	$159, %esi
	cmovnel	%r10d, %esi
	cmpb	%r8b, %r9b
	ja	.LBB1_66
	cmpb	%sil, %r8b
	ja	.LBB1_66
	cmpq	$2, %rax
	jne	.LBB1_64
.LBB1_58:
	xorl	%edx, %edx
.LBB1_66:
	movq	$1, (%rbx)
	movq	%rcx, 8(%rbx)
	movq	%rdx, 16(%rbx)
	jmp	.LBB1_67
.LBB1_57:
	movq	$0, (%rbx)
	movq	%r14, 8(%rbx)
	movq	%r15, 16(%rbx)
.LBB1_67:
	addq	$16, %rsp
	popq	%rbx
	popq	%r12
	popq	%r13
	popq	%r14
	popq	%r15
	retq
.LBB1_64:
	movl	$513, %edx
	cmpb	$-65, 2(%r14,%rcx)
	jg	.LBB1_66
	xorl	%esi, %esi
	cmpq	$4, %rax
	movl	$769, %edx
	cmovbq	%rsi, %rdx
	jmp	.LBB1_66
.Lfunc_end1:
	.size	core.str.utf8.from_utf8, .Lfunc_end1-core.str.utf8.from_utf8
	.section	.text.core.slice.words.skip_far.52f9edcae2f82f51,"ax",@progbits
	.p2align	4
	.type	core.slice.words.skip_far.52f9edcae2f82f51,@function
core.slice.words.skip_far.52f9edcae2f82f51:
	movq	%rsi, %rax
	subq	%rsi, %rdx
	cmpq	$64, %rdx
	jb	.LBB2_4
	movq	(%rdi), %rcx
	.p2align	4
.LBB2_2:
	movdqu	(%rcx,%rax), %xmm0
	movdqu	16(%rcx,%rax), %xmm1
	movdqu	32(%rcx,%rax), %xmm2
	por	%xmm0, %xmm2
	movdqu	48(%rcx,%rax), %xmm0
	por	%xmm1, %xmm0
	por	%xmm2, %xmm0
	pshufd	$238, %xmm0, %xmm1
	por	%xmm0, %xmm1
	movq	%xmm1, %rsi
	movabsq	$-9187201950435737472, %rdi
	testq	%rdi, %rsi
	jne	.LBB2_4
	addq	$64, %rax
	addq	$-64, %rdx
	cmpq	$63, %rdx
	ja	.LBB2_2
.LBB2_4:
	retq
.Lfunc_end2:
	.size	core.slice.words.skip_far.52f9edcae2f82f51, .Lfunc_end2-core.slice.words.skip_far.52f9edcae2f82f51
	.section	.text.std_io.io.error.Error.from_raw_os_error,"ax",@progbits
	.p2align	4
	.type	std_io.io.error.Error.from_raw_os_error,@function
std_io.io.error.Error.from_raw_os_error:
	movb	$41, %al
	testl	%esi, %esi
	js	.LBB3_40
	leal	-1(%rsi), %ecx
	cmpl	$121, %ecx
	ja	.LBB3_40
	leaq	.LJTI3_0(%rip), %rdx
	movslq	(%rdx,%rcx,4), %rcx
	addq	%rdx, %rcx
	jmpq	*%rcx
.LBB3_3:
	movb	$1, %al
	jmp	.LBB3_40
.LBB3_24:
	movb	$36, %al
	jmp	.LBB3_40
.LBB3_36:
	movb	$4, %al
	jmp	.LBB3_40
.LBB3_33:
	movb	$7, %al
	jmp	.LBB3_40
.LBB3_39:
	movb	$26, %al
	jmp	.LBB3_40
.LBB3_37:
	movb	$39, %al
	jmp	.LBB3_40
.LBB3_28:
	movb	$9, %al
	jmp	.LBB3_40
.LBB3_27:
	movb	$8, %al
	jmp	.LBB3_40
.LBB3_22:
	movb	$30, %al
	jmp	.LBB3_40
.LBB3_18:
	movb	$25, %al
	jmp	.LBB3_40
.LBB3_20:
	movb	$32, %al
	jmp	.LBB3_40
.LBB3_23:
	movb	$33, %al
	jmp	.LBB3_40
.LBB3_34:
	movb	$22, %al
	jmp	.LBB3_40
.LBB3_11:
	movb	$31, %al
	jmp	.LBB3_40
.LBB3_15:
	movb	$29, %al
	jmp	.LBB3_40
.LBB3_26:
	movb	$18, %al
	jmp	.LBB3_40
.LBB3_29:
	movb	$10, %al
	jmp	.LBB3_40
.LBB3_9:
	movb	$28, %al
	jmp	.LBB3_40
.LBB3_12:
	movb	$14, %al
	jmp	.LBB3_40
.LBB3_10:
	movb	$12, %al
	jmp	.LBB3_40
.LBB3_30:
	movb	$5, %al
	jmp	.LBB3_40
.LBB3_32:
	movb	$3, %al
	jmp	.LBB3_40
.LBB3_4:
	xorl	%eax, %eax
	jmp	.LBB3_40
.LBB3_7:
	movb	$13, %al
	jmp	.LBB3_40
.LBB3_8:
	movb	$38, %al
	jmp	.LBB3_40
.LBB3_21:
	movb	$11, %al
	jmp	.LBB3_40
.LBB3_5:
	movb	$35, %al
	jmp	.LBB3_40
.LBB3_6:
	movb	$34, %al
	jmp	.LBB3_40
.LBB3_14:
	movb	$20, %al
	jmp	.LBB3_40
.LBB3_13:
	movb	$15, %al
	jmp	.LBB3_40
.LBB3_38:
	movb	$19, %al
	jmp	.LBB3_40
.LBB3_25:
	movb	$16, %al
	jmp	.LBB3_40
.LBB3_31:
	movb	$6, %al
	jmp	.LBB3_40
.LBB3_16:
	movb	$27, %al
	jmp	.LBB3_40
.LBB3_17:
	movb	$24, %al
	jmp	.LBB3_40
.LBB3_35:
	movb	$2, %al
	jmp	.LBB3_40
.LBB3_19:
	movb	$17, %al
.LBB3_40:
	movb	$0, (%rdi)
	movb	%al, 1(%rdi)
	movw	$0, 2(%rdi)
	movl	%esi, 4(%rdi)
	xorps	%xmm0, %xmm0
	movups	%xmm0, 8(%rdi)
	movups	%xmm0, 24(%rdi)
	movups	%xmm0, 40(%rdi)
	movups	%xmm0, 56(%rdi)
	movups	%xmm0, 72(%rdi)
	retq
.Lfunc_end3:
	.size	std_io.io.error.Error.from_raw_os_error, .Lfunc_end3-std_io.io.error.Error.from_raw_os_error
	.section	.rodata.std_io.io.error.Error.from_raw_os_error,"a",@progbits
	.p2align	2, 0x0
.LJTI3_0:
	.long	.LBB3_3-.LJTI3_0
	.long	.LBB3_4-.LJTI3_0
	.long	.LBB3_40-.LJTI3_0
	.long	.LBB3_5-.LJTI3_0
	.long	.LBB3_40-.LJTI3_0
	.long	.LBB3_40-.LJTI3_0
	.long	.LBB3_6-.LJTI3_0
	.long	.LBB3_40-.LJTI3_0
	.long	.LBB3_40-.LJTI3_0
	.long	.LBB3_40-.LJTI3_0
	.long	.LBB3_7-.LJTI3_0
	.long	.LBB3_8-.LJTI3_0
	.long	.LBB3_3-.LJTI3_0
	.long	.LBB3_40-.LJTI3_0
	.long	.LBB3_40-.LJTI3_0
	.long	.LBB3_9-.LJTI3_0
	.long	.LBB3_10-.LJTI3_0
	.long	.LBB3_11-.LJTI3_0
	.long	.LBB3_40-.LJTI3_0
	.long	.LBB3_12-.LJTI3_0
	.long	.LBB3_13-.LJTI3_0
	.long	.LBB3_14-.LJTI3_0
	.long	.LBB3_40-.LJTI3_0
	.long	.LBB3_40-.LJTI3_0
	.long	.LBB3_40-.LJTI3_0
	.long	.LBB3_15-.LJTI3_0
	.long	.LBB3_16-.LJTI3_0
	.long	.LBB3_17-.LJTI3_0
	.long	.LBB3_18-.LJTI3_0
	.long	.LBB3_19-.LJTI3_0
	.long	.LBB3_20-.LJTI3_0
	.long	.LBB3_21-.LJTI3_0
	.long	.LBB3_40-.LJTI3_0
	.long	.LBB3_40-.LJTI3_0
	.long	.LBB3_22-.LJTI3_0
	.long	.LBB3_23-.LJTI3_0
	.long	.LBB3_40-.LJTI3_0
	.long	.LBB3_24-.LJTI3_0
	.long	.LBB3_25-.LJTI3_0
	.long	.LBB3_26-.LJTI3_0
	.long	.LBB3_40-.LJTI3_0
	.long	.LBB3_40-.LJTI3_0
	.long	.LBB3_40-.LJTI3_0
	.long	.LBB3_40-.LJTI3_0
	.long	.LBB3_40-.LJTI3_0
	.long	.LBB3_40-.LJTI3_0
	.long	.LBB3_40-.LJTI3_0
	.long	.LBB3_40-.LJTI3_0
	.long	.LBB3_40-.LJTI3_0
	.long	.LBB3_40-.LJTI3_0
	.long	.LBB3_40-.LJTI3_0
	.long	.LBB3_40-.LJTI3_0
	.long	.LBB3_40-.LJTI3_0
	.long	.LBB3_40-.LJTI3_0
	.long	.LBB3_40-.LJTI3_0
	.long	.LBB3_40-.LJTI3_0
	.long	.LBB3_40-.LJTI3_0
	.long	.LBB3_40-.LJTI3_0
	.long	.LBB3_40-.LJTI3_0
	.long	.LBB3_40-.LJTI3_0
	.long	.LBB3_40-.LJTI3_0
	.long	.LBB3_40-.LJTI3_0
	.long	.LBB3_40-.LJTI3_0
	.long	.LBB3_40-.LJTI3_0
	.long	.LBB3_40-.LJTI3_0
	.long	.LBB3_40-.LJTI3_0
	.long	.LBB3_40-.LJTI3_0
	.long	.LBB3_40-.LJTI3_0
	.long	.LBB3_40-.LJTI3_0
	.long	.LBB3_40-.LJTI3_0
	.long	.LBB3_40-.LJTI3_0
	.long	.LBB3_40-.LJTI3_0
	.long	.LBB3_40-.LJTI3_0
	.long	.LBB3_40-.LJTI3_0
	.long	.LBB3_40-.LJTI3_0
	.long	.LBB3_40-.LJTI3_0
	.long	.LBB3_40-.LJTI3_0
	.long	.LBB3_40-.LJTI3_0
	.long	.LBB3_40-.LJTI3_0
	.long	.LBB3_40-.LJTI3_0
	.long	.LBB3_40-.LJTI3_0
	.long	.LBB3_40-.LJTI3_0
	.long	.LBB3_40-.LJTI3_0
	.long	.LBB3_40-.LJTI3_0
	.long	.LBB3_40-.LJTI3_0
	.long	.LBB3_40-.LJTI3_0
	.long	.LBB3_40-.LJTI3_0
	.long	.LBB3_40-.LJTI3_0
	.long	.LBB3_40-.LJTI3_0
	.long	.LBB3_40-.LJTI3_0
	.long	.LBB3_40-.LJTI3_0
	.long	.LBB3_40-.LJTI3_0
	.long	.LBB3_40-.LJTI3_0
	.long	.LBB3_40-.LJTI3_0
	.long	.LBB3_24-.LJTI3_0
	.long	.LBB3_40-.LJTI3_0
	.long	.LBB3_40-.LJTI3_0
	.long	.LBB3_27-.LJTI3_0
	.long	.LBB3_28-.LJTI3_0
	.long	.LBB3_29-.LJTI3_0
	.long	.LBB3_30-.LJTI3_0
	.long	.LBB3_40-.LJTI3_0
	.long	.LBB3_31-.LJTI3_0
	.long	.LBB3_32-.LJTI3_0
	.long	.LBB3_40-.LJTI3_0
	.long	.LBB3_40-.LJTI3_0
	.long	.LBB3_33-.LJTI3_0
	.long	.LBB3_40-.LJTI3_0
	.long	.LBB3_40-.LJTI3_0
	.long	.LBB3_34-.LJTI3_0
	.long	.LBB3_35-.LJTI3_0
	.long	.LBB3_40-.LJTI3_0
	.long	.LBB3_36-.LJTI3_0
	.long	.LBB3_40-.LJTI3_0
	.long	.LBB3_37-.LJTI3_0
	.long	.LBB3_38-.LJTI3_0
	.long	.LBB3_40-.LJTI3_0
	.long	.LBB3_40-.LJTI3_0
	.long	.LBB3_40-.LJTI3_0
	.long	.LBB3_40-.LJTI3_0
	.long	.LBB3_40-.LJTI3_0
	.long	.LBB3_39-.LJTI3_0
	.section	.text.ic_program.session.Session.answer_lines.61c60e3f83b1098c,"ax",@progbits
	.p2align	4
	.type	ic_program.session.Session.answer_lines.61c60e3f83b1098c,@function
ic_program.session.Session.answer_lines.61c60e3f83b1098c:
	pushq	%rbp
	pushq	%r15
	pushq	%r14
	pushq	%r13
	pushq	%r12
	pushq	%rbx
	subq	$136, %rsp
	movq	%r8, 128(%rsp)
	movq	%rdi, 56(%rsp)
	testq	%rcx, %rcx
	je	.LBB4_635
	movq	%rcx, %r15
	movq	%rdx, %r12
	movq	%rsi, %r11
	leaq	120(%rsi), %rax
	movq	%rax, 64(%rsp)
	leaq	128(%rsi), %r10
	movq	%rsi, 8(%rsp)
	.p2align	4
.LBB4_2:
	xorps	%xmm0, %xmm0
	movaps	%xmm0, 96(%rsp)
	movaps	%xmm0, 80(%rsp)
	movq	144(%r11), %rax
	movl	$1, %esi
	cmpq	$-1, %rax
	je	.LBB4_691
	incq	%rax
	movq	%rax, 144(%r11)
	movaps	%xmm0, 112(%rsp)
	cmpq	$8, %r15
	jb	.LBB4_631
	movq	(%r12), %rax
	movabsq	$5086515397048078976, %rcx
	imulq	%rax, %rcx
	shrq	$60, %rcx
	cmpq	$15, %rcx
	ja	.LBB4_631
	leaq	.LJTI4_0(%rip), %rdx
	movslq	(%rdx,%rcx,4), %rcx
	addq	%rdx, %rcx
	jmpq	*%rcx
.LBB4_6:
	movabsq	$72057594037927935, %rcx
	andq	%rax, %rcx
	movabsq	$9118758604727666, %rdx
	cmpq	%rdx, %rcx
	jne	.LBB4_631
	leaq	7(%r12), %rbp
	leaq	-7(%r15), %r14
	cmpq	$5, %r14
	jb	.LBB4_142
	shrq	$56, %rax
	addb	$-48, %al
	cmpb	$9, %al
	ja	.LBB4_142
	movzbl	%al, %ebx
	movzbl	8(%r12), %ecx
	addb	$-48, %cl
	movl	$1, %eax
	cmpb	$9, %cl
	ja	.LBB4_131
	movzbl	%cl, %eax
	movzbl	9(%r12), %ecx
	addb	$-48, %cl
	cmpb	$9, %cl
	ja	.LBB4_130
	movzbl	%cl, %ecx
	movzbl	10(%r12), %edx
	addb	$-48, %dl
	cmpb	$10, %dl
	jae	.LBB4_145
	movzbl	11(%r12), %esi
	addb	$-48, %sil
	cmpb	$10, %sil
	jb	.LBB4_142
	movzbl	%dl, %edx
	leaq	(%rbx,%rbx,4), %rsi
	leaq	(%rax,%rsi,2), %rax
	leaq	(%rax,%rax,4), %rax
	movl	%eax, %eax
	leaq	(%rcx,%rax,2), %rax
	leaq	(%rax,%rax,4), %rax
	leaq	(%rdx,%rax,2), %rbx
	movl	$4, %eax
	movzbl	(%rbp,%rax), %ecx
	cmpl	$32, %ecx
	jne	.LBB4_132
	jmp	.LBB4_133
.LBB4_14:
	cmpq	$10, %r15
	jb	.LBB4_631
	movabsq	$7161113044409611632, %rcx
	cmpq	%rcx, %rax
	jne	.LBB4_631
	movabsq	$2336070101635131507, %rax
	cmpq	%rax, 2(%r12)
	jne	.LBB4_631
	leaq	10(%r12), %rbx
	leaq	-10(%r15), %r14
	cmpq	$5, %r14
	jb	.LBB4_312
	movzbl	(%rbx), %eax
	addb	$-48, %al
	cmpb	$9, %al
	ja	.LBB4_312
	movzbl	%al, %r13d
	movzbl	11(%r12), %ecx
	addb	$-48, %cl
	movl	$1, %eax
	cmpb	$9, %cl
	ja	.LBB4_163
	movzbl	%cl, %eax
	movzbl	12(%r12), %ecx
	addb	$-48, %cl
	cmpb	$9, %cl
	ja	.LBB4_162
	movzbl	%cl, %ecx
	movzbl	13(%r12), %edx
	addb	$-48, %dl
	cmpb	$10, %dl
	jae	.LBB4_341
	movzbl	14(%r12), %esi
	addb	$-48, %sil
	cmpb	$10, %sil
	jb	.LBB4_312
	movzbl	%dl, %edx
	leaq	(,%r13,4), %rsi
	addq	%r13, %rsi
	leaq	(%rax,%rsi,2), %rax
	leaq	(%rax,%rax,4), %rax
	movl	%eax, %eax
	leaq	(%rcx,%rax,2), %rax
	leaq	(%rax,%rax,4), %rax
	leaq	(%rdx,%rax,2), %r13
	movl	$4, %eax
	movzbl	(%rbx,%rax), %ecx
	cmpl	$32, %ecx
	jne	.LBB4_164
	jmp	.LBB4_165
.LBB4_24:
	cmpq	$8, %r15
	je	.LBB4_631
	movabsq	$7738135659888537456, %rcx
	cmpq	%rcx, %rax
	jne	.LBB4_631
	movabsq	$2336070101635131507, %rax
	addq	$2044, %rax
	cmpq	%rax, 1(%r12)
	jne	.LBB4_631
	leaq	9(%r12), %rbp
	leaq	-9(%r15), %r14
	cmpq	$5, %r14
	jb	.LBB4_315
	movzbl	(%rbp), %eax
	addb	$-48, %al
	cmpb	$9, %al
	ja	.LBB4_315
	movzbl	%al, %ebx
	movzbl	10(%r12), %ecx
	addb	$-48, %cl
	movl	$1, %eax
	cmpb	$9, %cl
	ja	.LBB4_174
	movzbl	%cl, %eax
	movzbl	11(%r12), %ecx
	addb	$-48, %cl
	cmpb	$9, %cl
	ja	.LBB4_173
	movzbl	%cl, %ecx
	movzbl	12(%r12), %edx
	addb	$-48, %dl
	cmpb	$10, %dl
	jae	.LBB4_342
	movzbl	13(%r12), %esi
	addb	$-48, %sil
	cmpb	$10, %sil
	jb	.LBB4_315
	movzbl	%dl, %edx
	leaq	(%rbx,%rbx,4), %rsi
	leaq	(%rax,%rsi,2), %rax
	leaq	(%rax,%rax,4), %rax
	movl	%eax, %eax
	leaq	(%rcx,%rax,2), %rax
	leaq	(%rax,%rax,4), %rax
	leaq	(%rdx,%rax,2), %rbx
	movl	$4, %eax
	movzbl	(%rbp,%rax), %ecx
	cmpl	$32, %ecx
	jne	.LBB4_175
	jmp	.LBB4_176
.LBB4_34:
	cmpq	$14, %r15
	jb	.LBB4_631
	movabsq	$7088512373181607529, %rcx
	cmpq	%rcx, %rax
	jne	.LBB4_631
	movabsq	$2334397804646326879, %rax
	cmpq	%rax, 6(%r12)
	jne	.LBB4_631
	leaq	14(%r12), %rbx
	leaq	-14(%r15), %r14
	cmpq	$5, %r14
	jb	.LBB4_318
	movzbl	(%rbx), %eax
	addb	$-48, %al
	cmpb	$9, %al
	ja	.LBB4_318
	movzbl	%al, %r13d
	movzbl	15(%r12), %ecx
	addb	$-48, %cl
	movl	$1, %eax
	cmpb	$9, %cl
	ja	.LBB4_186
	movzbl	%cl, %eax
	movzbl	16(%r12), %ecx
	addb	$-48, %cl
	cmpb	$9, %cl
	ja	.LBB4_185
	movzbl	%cl, %ecx
	movzbl	17(%r12), %edx
	addb	$-48, %dl
	cmpb	$10, %dl
	jae	.LBB4_343
	movzbl	18(%r12), %esi
	addb	$-48, %sil
	cmpb	$10, %sil
	jb	.LBB4_318
	movzbl	%dl, %edx
	leaq	(,%r13,4), %rsi
	addq	%r13, %rsi
	leaq	(%rax,%rsi,2), %rax
	leaq	(%rax,%rax,4), %rax
	movl	%eax, %eax
	leaq	(%rcx,%rax,2), %rax
	leaq	(%rax,%rax,4), %rax
	leaq	(%rdx,%rax,2), %r13
	movl	$4, %eax
	movzbl	(%rbx,%rax), %ecx
	cmpl	$32, %ecx
	jne	.LBB4_187
	jmp	.LBB4_188
.LBB4_44:
	cmpq	$13, %r15
	jb	.LBB4_631
	movabsq	$7016454779143679593, %rcx
	cmpq	%rcx, %rax
	jne	.LBB4_631
	movabsq	$2338042707166977908, %rax
	cmpq	%rax, 5(%r12)
	jne	.LBB4_631
	leaq	13(%r12), %rbx
	leaq	-13(%r15), %r14
	cmpq	$5, %r14
	jb	.LBB4_321
	movzbl	(%rbx), %eax
	addb	$-48, %al
	cmpb	$9, %al
	ja	.LBB4_321
	movzbl	%al, %r13d
	movzbl	14(%r12), %ecx
	addb	$-48, %cl
	movl	$1, %eax
	cmpb	$9, %cl
	ja	.LBB4_197
	movzbl	%cl, %eax
	movzbl	15(%r12), %ecx
	addb	$-48, %cl
	cmpb	$9, %cl
	ja	.LBB4_196
	movzbl	%cl, %ecx
	movzbl	16(%r12), %edx
	addb	$-48, %dl
	cmpb	$10, %dl
	jae	.LBB4_344
	movzbl	17(%r12), %esi
	addb	$-48, %sil
	cmpb	$10, %sil
	jb	.LBB4_321
	movzbl	%dl, %edx
	leaq	(,%r13,4), %rsi
	addq	%r13, %rsi
	leaq	(%rax,%rsi,2), %rax
	leaq	(%rax,%rax,4), %rax
	movl	%eax, %eax
	leaq	(%rcx,%rax,2), %rax
	leaq	(%rax,%rax,4), %rax
	leaq	(%rdx,%rax,2), %r13
	movl	$4, %eax
	movzbl	(%rbx,%rax), %ecx
	cmpl	$32, %ecx
	jne	.LBB4_198
	jmp	.LBB4_199
.LBB4_54:
	cmpq	$11, %r15
	jb	.LBB4_631
	movabsq	$8030593645515339120, %rcx
	cmpq	%rcx, %rax
	jne	.LBB4_631
	movabsq	$2338615531451866984, %rax
	cmpq	%rax, 3(%r12)
	jne	.LBB4_631
	leaq	11(%r12), %rbx
	leaq	-11(%r15), %r14
	cmpq	$5, %r14
	jb	.LBB4_324
	movzbl	(%rbx), %eax
	addb	$-48, %al
	cmpb	$9, %al
	ja	.LBB4_324
	movzbl	%al, %r13d
	movzbl	12(%r12), %ecx
	addb	$-48, %cl
	movl	$1, %eax
	cmpb	$9, %cl
	ja	.LBB4_208
	movzbl	%cl, %eax
	movzbl	13(%r12), %ecx
	addb	$-48, %cl
	cmpb	$9, %cl
	ja	.LBB4_207
	movzbl	%cl, %ecx
	movzbl	14(%r12), %edx
	addb	$-48, %dl
	cmpb	$10, %dl
	jae	.LBB4_345
	movzbl	15(%r12), %esi
	addb	$-48, %sil
	cmpb	$10, %sil
	jb	.LBB4_324
	movzbl	%dl, %edx
	leaq	(,%r13,4), %rsi
	addq	%r13, %rsi
	leaq	(%rax,%rsi,2), %rax
	leaq	(%rax,%rax,4), %rax
	movl	%eax, %eax
	leaq	(%rcx,%rax,2), %rax
	leaq	(%rax,%rax,4), %rax
	leaq	(%rdx,%rax,2), %r13
	movl	$4, %eax
	movzbl	(%rbx,%rax), %ecx
	cmpl	$32, %ecx
	jne	.LBB4_209
	jmp	.LBB4_210
.LBB4_64:
	cmpq	$10, %r15
	jb	.LBB4_631
	movabsq	$7310028700202200941, %rcx
	cmpq	%rcx, %rax
	jne	.LBB4_631
	movabsq	$2339168598651528566, %rax
	cmpq	%rax, 2(%r12)
	jne	.LBB4_631
	leaq	10(%r12), %rbp
	leaq	-10(%r15), %r14
	cmpq	$5, %r14
	jb	.LBB4_327
	movzbl	(%rbp), %eax
	addb	$-48, %al
	cmpb	$9, %al
	ja	.LBB4_327
	movzbl	%al, %ebx
	movzbl	11(%r12), %ecx
	addb	$-48, %cl
	movl	$1, %eax
	cmpb	$9, %cl
	ja	.LBB4_219
	movzbl	%cl, %eax
	movzbl	12(%r12), %ecx
	addb	$-48, %cl
	cmpb	$9, %cl
	ja	.LBB4_218
	movzbl	%cl, %ecx
	movzbl	13(%r12), %edx
	addb	$-48, %dl
	cmpb	$10, %dl
	jae	.LBB4_346
	movzbl	14(%r12), %esi
	addb	$-48, %sil
	cmpb	$10, %sil
	jb	.LBB4_327
	movzbl	%dl, %edx
	leaq	(%rbx,%rbx,4), %rsi
	leaq	(%rax,%rsi,2), %rax
	leaq	(%rax,%rax,4), %rax
	movl	%eax, %eax
	leaq	(%rcx,%rax,2), %rax
	leaq	(%rax,%rax,4), %rax
	leaq	(%rdx,%rax,2), %rbx
	movl	$4, %eax
	movzbl	(%rbp,%rax), %ecx
	cmpl	$32, %ecx
	jne	.LBB4_220
	jmp	.LBB4_221
.LBB4_74:
	cmpq	$12, %r15
	jb	.LBB4_631
	movabsq	$7953187026309571954, %rcx
	cmpq	%rcx, %rax
	jne	.LBB4_631
	movabsq	$2338626483550905718, %rax
	cmpq	%rax, 4(%r12)
	jne	.LBB4_631
	leaq	12(%r12), %rbp
	leaq	-12(%r15), %r14
	cmpq	$5, %r14
	jb	.LBB4_330
	movzbl	(%rbp), %eax
	addb	$-48, %al
	cmpb	$9, %al
	ja	.LBB4_330
	movzbl	%al, %ebx
	movzbl	13(%r12), %ecx
	addb	$-48, %cl
	movl	$1, %eax
	cmpb	$9, %cl
	ja	.LBB4_227
	movzbl	%cl, %eax
	movzbl	14(%r12), %ecx
	addb	$-48, %cl
	cmpb	$9, %cl
	ja	.LBB4_226
	movzbl	%cl, %ecx
	movzbl	15(%r12), %edx
	addb	$-48, %dl
	cmpb	$10, %dl
	jae	.LBB4_347
	movzbl	16(%r12), %esi
	addb	$-48, %sil
	cmpb	$10, %sil
	jb	.LBB4_330
	movzbl	%dl, %edx
	leaq	(%rbx,%rbx,4), %rsi
	leaq	(%rax,%rsi,2), %rax
	leaq	(%rax,%rax,4), %rax
	movl	%eax, %eax
	leaq	(%rcx,%rax,2), %rax
	leaq	(%rax,%rax,4), %rax
	leaq	(%rdx,%rax,2), %rbx
	movl	$4, %eax
	movzbl	(%rbp,%rax), %ecx
	cmpl	$32, %ecx
	jne	.LBB4_228
	jmp	.LBB4_229
.LBB4_84:
	cmpq	$10, %r15
	jb	.LBB4_631
	movabsq	$8675461613202337645, %rcx
	cmpq	%rcx, %rax
	jne	.LBB4_631
	movabsq	$2338626483550905718, %rax
	cmpq	%rax, 2(%r12)
	jne	.LBB4_631
	leaq	10(%r12), %rbp
	leaq	-10(%r15), %r14
	cmpq	$5, %r14
	jb	.LBB4_333
	movzbl	(%rbp), %eax
	addb	$-48, %al
	cmpb	$9, %al
	ja	.LBB4_333
	movzbl	%al, %ebx
	movzbl	11(%r12), %ecx
	addb	$-48, %cl
	movl	$1, %eax
	cmpb	$9, %cl
	ja	.LBB4_235
	movzbl	%cl, %eax
	movzbl	12(%r12), %ecx
	addb	$-48, %cl
	cmpb	$9, %cl
	ja	.LBB4_234
	movzbl	%cl, %ecx
	movzbl	13(%r12), %edx
	addb	$-48, %dl
	cmpb	$10, %dl
	jae	.LBB4_348
	movzbl	14(%r12), %esi
	addb	$-48, %sil
	cmpb	$10, %sil
	jb	.LBB4_333
	movzbl	%dl, %edx
	leaq	(%rbx,%rbx,4), %rsi
	leaq	(%rax,%rsi,2), %rax
	leaq	(%rax,%rax,4), %rax
	movl	%eax, %eax
	leaq	(%rcx,%rax,2), %rax
	leaq	(%rax,%rax,4), %rax
	leaq	(%rdx,%rax,2), %rbx
	movl	$4, %eax
	movzbl	(%rbp,%rax), %ecx
	cmpl	$32, %ecx
	jne	.LBB4_236
	jmp	.LBB4_237
.LBB4_94:
	movabsq	$2338615488502986083, %rcx
	cmpq	%rcx, %rax
	jne	.LBB4_631
	leaq	8(%r12), %rbp
	leaq	-8(%r15), %r14
	cmpq	$5, %r14
	jb	.LBB4_300
	movzbl	(%rbp), %eax
	addb	$-48, %al
	cmpb	$9, %al
	ja	.LBB4_300
	movzbl	%al, %ebx
	movzbl	9(%r12), %ecx
	addb	$-48, %cl
	movl	$1, %eax
	cmpb	$9, %cl
	ja	.LBB4_147
	movzbl	%cl, %eax
	movzbl	10(%r12), %ecx
	addb	$-48, %cl
	cmpb	$9, %cl
	ja	.LBB4_146
	movzbl	%cl, %ecx
	movzbl	11(%r12), %edx
	addb	$-48, %dl
	cmpb	$10, %dl
	jae	.LBB4_339
	movzbl	12(%r12), %esi
	addb	$-48, %sil
	cmpb	$10, %sil
	jb	.LBB4_300
	movzbl	%dl, %edx
	leaq	(%rbx,%rbx,4), %rsi
	leaq	(%rax,%rsi,2), %rax
	leaq	(%rax,%rax,4), %rax
	movl	%eax, %eax
	leaq	(%rcx,%rax,2), %rax
	leaq	(%rax,%rax,4), %rax
	leaq	(%rdx,%rax,2), %rbx
	movl	$4, %eax
	movzbl	(%rbp,%rax), %ecx
	cmpl	$32, %ecx
	jne	.LBB4_148
	jmp	.LBB4_149
.LBB4_102:
	cmpq	$13, %r15
	jb	.LBB4_631
	movabsq	$6874009676333213042, %r13
	movabsq	$2335244403114730851, %rbp
	cmpq	%r13, %rax
	jne	.LBB4_415
	cmpq	%rbp, 5(%r12)
	jne	.LBB4_415
	leaq	13(%r12), %rbx
	leaq	-13(%r15), %r14
	cmpq	$5, %r14
	jb	.LBB4_409
	movzbl	(%rbx), %eax
	addb	$-48, %al
	cmpb	$9, %al
	ja	.LBB4_409
	movzbl	%al, %r8d
	movzbl	14(%r12), %ecx
	addb	$-48, %cl
	movl	$1, %eax
	cmpb	$9, %cl
	ja	.LBB4_387
	movzbl	%cl, %eax
	movzbl	15(%r12), %ecx
	addb	$-48, %cl
	cmpb	$9, %cl
	ja	.LBB4_386
	movzbl	%cl, %ecx
	movzbl	16(%r12), %edx
	addb	$-48, %dl
	cmpb	$10, %dl
	jae	.LBB4_462
	movzbl	17(%r12), %esi
	addb	$-48, %sil
	cmpb	$10, %sil
	jb	.LBB4_409
	movzbl	%dl, %edx
	leaq	(%r8,%r8,4), %rsi
	leaq	(%rax,%rsi,2), %rax
	leaq	(%rax,%rax,4), %rax
	movl	%eax, %eax
	leaq	(%rcx,%rax,2), %rax
	leaq	(%rax,%rax,4), %rax
	leaq	(%rdx,%rax,2), %r8
	movl	$4, %eax
	movzbl	(%rbx,%rax), %ecx
	cmpl	$32, %ecx
	jne	.LBB4_388
	jmp	.LBB4_389
.LBB4_112:
	movabsq	$2336361558317166439, %rcx
	cmpq	%rcx, %rax
	jne	.LBB4_631
	leaq	8(%r12), %rbp
	leaq	-8(%r15), %r14
	cmpq	$5, %r14
	jb	.LBB4_303
	movzbl	(%rbp), %eax
	addb	$-48, %al
	cmpb	$9, %al
	ja	.LBB4_303
	movzbl	%al, %ebx
	movzbl	9(%r12), %ecx
	addb	$-48, %cl
	movl	$1, %eax
	cmpb	$9, %cl
	ja	.LBB4_155
	movzbl	%cl, %eax
	movzbl	10(%r12), %ecx
	addb	$-48, %cl
	cmpb	$9, %cl
	ja	.LBB4_154
	movzbl	%cl, %ecx
	movzbl	11(%r12), %edx
	addb	$-48, %dl
	cmpb	$10, %dl
	jae	.LBB4_340
	movzbl	12(%r12), %esi
	addb	$-48, %sil
	cmpb	$10, %sil
	jb	.LBB4_303
	movzbl	%dl, %edx
	leaq	(%rbx,%rbx,4), %rsi
	leaq	(%rax,%rsi,2), %rax
	leaq	(%rax,%rax,4), %rax
	movl	%eax, %eax
	leaq	(%rcx,%rax,2), %rax
	leaq	(%rax,%rax,4), %rax
	leaq	(%rdx,%rax,2), %rbx
	movl	$4, %eax
	movzbl	(%rbp,%rax), %ecx
	cmpl	$32, %ecx
	jne	.LBB4_156
	jmp	.LBB4_157
.LBB4_120:
	cmpq	$10, %r15
	jb	.LBB4_631
	movabsq	$7957704850600390512, %rcx
	cmpq	%rcx, %rax
	jne	.LBB4_631
	movabsq	$2338615531451866984, %rax
	addq	$8, %rax
	cmpq	%rax, 2(%r12)
	jne	.LBB4_631
	leaq	10(%r12), %rbp
	leaq	-10(%r15), %r14
	cmpq	$5, %r14
	jb	.LBB4_336
	movzbl	(%rbp), %eax
	addb	$-48, %al
	cmpb	$9, %al
	ja	.LBB4_336
	movzbl	%al, %ebx
	movzbl	11(%r12), %ecx
	addb	$-48, %cl
	movl	$1, %eax
	cmpb	$9, %cl
	ja	.LBB4_245
	movzbl	%cl, %eax
	movzbl	12(%r12), %ecx
	addb	$-48, %cl
	cmpb	$9, %cl
	ja	.LBB4_244
	movzbl	%cl, %ecx
	movzbl	13(%r12), %edx
	addb	$-48, %dl
	cmpb	$10, %dl
	jae	.LBB4_349
	movzbl	14(%r12), %esi
	addb	$-48, %sil
	cmpb	$10, %sil
	jb	.LBB4_336
	movzbl	%dl, %edx
	leaq	(%rbx,%rbx,4), %rsi
	leaq	(%rax,%rsi,2), %rax
	leaq	(%rax,%rax,4), %rax
	movl	%eax, %eax
	leaq	(%rcx,%rax,2), %rax
	leaq	(%rax,%rax,4), %rax
	leaq	(%rdx,%rax,2), %rbx
	movl	$4, %eax
	movzbl	(%rbp,%rax), %ecx
	cmpl	$32, %ecx
	jne	.LBB4_246
	jmp	.LBB4_247
.LBB4_130:
	leaq	(%rbx,%rbx,4), %rcx
	leaq	(%rax,%rcx,2), %rbx
	movl	$2, %eax
.LBB4_131:
	movzbl	(%rbp,%rax), %ecx
	cmpl	$32, %ecx
	je	.LBB4_133
.LBB4_132:
	cmpl	$10, %ecx
	jne	.LBB4_142
.LBB4_133:
	addq	%rax, %rbp
	subq	%rax, %r14
	cmpb	$10, %cl
	jne	.LBB4_544
.LBB4_134:
	decq	%r14
	movb	$1, %r9b
	movb	$2, %bpl
	cmpq	%rbx, 80(%r11)
	jbe	.LBB4_358
.LBB4_135:
	movq	72(%r11), %rdx
	movl	4(%rdx,%rbx,8), %eax
	movl	$4294967295, %esi
	cmpq	%rsi, %rax
	je	.LBB4_358
	movl	(%rdx,%rbx,8), %ecx
	leaq	(%rcx,%rcx,2), %rcx
	movq	%rcx, %rsi
	shlq	$4, %rsi
	addq	48(%r11), %rsi
	movq	96(%r11), %rdx
	movq	(%rdx,%rcx,8), %rcx
	leaq	(%rax,%rax,2), %rax
	shlq	$4, %rax
	leaq	(%rcx,%rax), %rdx
	movzbl	8(%rcx,%rax), %eax
	leaq	.LJTI4_2(%rip), %rcx
	movslq	(%rcx,%rax,4), %rax
	addq	%rcx, %rax
	jmpq	*%rax
.LBB4_137:
	cmpb	$2, (%rsi)
	jne	.LBB4_699
	movq	32(%rdx), %rax
	movq	%rax, %rcx
	testq	%rax, %rax
	je	.LBB4_397
	movzbl	8(%rsi), %r11d
	movq	16(%rsi), %r10
	leaq	(%rcx,%rcx), %rax
	testb	%r11b, %r11b
	leaq	(%rcx,%rcx,2), %rdi
	leaq	-8(%r10,%rcx,2), %r8
	leaq	-24(%r10,%rdi), %r9
	cmoveq	%r8, %r9
	movq	(%r9), %r9
	movq	%rdi, %r8
	cmoveq	%rax, %r8
	movq	-16(%r10,%r8), %r8
	testq	%r9, %r9
	je	.LBB4_461
	testb	%r11b, %r11b
	je	.LBB4_467
	movq	%r9, %r11
	shrq	$3, %r11
	leaq	(%r11,%r11,2), %r11
	movq	%r8, -16(%r10,%r11,8)
	jmp	.LBB4_468
.LBB4_142:
	movq	%rbp, %rdi
	movq	%r14, %rsi
	callq	ic_program.argument.any_number
	movq	8(%rsp), %r11
	cmpb	$1, %al
	jne	.LBB4_631
	movq	%rdx, %rbx
	movq	%rbp, %rdi
	movq	%r14, %rsi
	callq	ic_program.text.after_word
	movq	%rax, %rbp
	testq	%rdx, %rdx
	je	.LBB4_543
	movq	%rdx, %r14
	movzbl	(%rbp), %ecx
	movq	8(%rsp), %r11
	leaq	128(%r11), %r10
	cmpb	$10, %cl
	je	.LBB4_134
	jmp	.LBB4_544
.LBB4_145:
	leaq	(%rbx,%rbx,4), %rdx
	leaq	(%rax,%rdx,2), %rax
	leaq	(%rax,%rax,4), %rax
	movl	%eax, %eax
	leaq	(%rcx,%rax,2), %rbx
	movl	$3, %eax
	movzbl	(%rbp,%rax), %ecx
	cmpl	$32, %ecx
	jne	.LBB4_132
	jmp	.LBB4_133
.LBB4_146:
	leaq	(%rbx,%rbx,4), %rcx
	leaq	(%rax,%rcx,2), %rbx
	movl	$2, %eax
.LBB4_147:
	movzbl	(%rbp,%rax), %ecx
	cmpl	$32, %ecx
	je	.LBB4_149
.LBB4_148:
	cmpl	$10, %ecx
	jne	.LBB4_300
.LBB4_149:
	addq	%rax, %rbp
	subq	%rax, %r14
	cmpb	$10, %cl
	jne	.LBB4_575
.LBB4_150:
	decq	%r14
	movb	$1, %r9b
	movb	$2, %bpl
	cmpq	%rbx, 80(%r11)
	jbe	.LBB4_358
.LBB4_151:
	movq	72(%r11), %rdx
	movl	4(%rdx,%rbx,8), %eax
	movl	$4294967295, %esi
	cmpq	%rsi, %rax
	je	.LBB4_358
	movl	(%rdx,%rbx,8), %ecx
	movq	96(%r11), %rdx
	leaq	(%rcx,%rcx,2), %rcx
	movq	(%rdx,%rcx,8), %rcx
	leaq	(%rax,%rax,2), %rdx
	shlq	$4, %rdx
	leaq	(%rcx,%rdx), %rax
	movzbl	8(%rcx,%rdx), %ecx
	leaq	.LJTI4_5(%rip), %rdx
	movslq	(%rdx,%rcx,4), %rcx
	addq	%rdx, %rcx
	jmpq	*%rcx
.LBB4_153:
	addq	$32, %rax
	jmp	.LBB4_311
.LBB4_154:
	leaq	(%rbx,%rbx,4), %rcx
	leaq	(%rax,%rcx,2), %rbx
	movl	$2, %eax
.LBB4_155:
	movzbl	(%rbp,%rax), %ecx
	cmpl	$32, %ecx
	je	.LBB4_157
.LBB4_156:
	cmpl	$10, %ecx
	jne	.LBB4_303
.LBB4_157:
	addq	%rax, %rbp
	subq	%rax, %r14
	cmpb	$10, %cl
	jne	.LBB4_578
.LBB4_158:
	decq	%r14
	movb	$1, %r9b
	cmpq	%rbx, 80(%r11)
	jbe	.LBB4_357
.LBB4_159:
	movq	72(%r11), %rdx
	movl	4(%rdx,%rbx,8), %eax
	movl	$4294967295, %esi
	cmpq	%rsi, %rax
	je	.LBB4_357
	movl	(%rdx,%rbx,8), %ecx
	movq	96(%r11), %rdx
	leaq	(%rcx,%rcx,2), %rcx
	movq	(%rdx,%rcx,8), %rcx
	leaq	(%rax,%rax,2), %rdx
	shlq	$4, %rdx
	leaq	(%rcx,%rdx), %rax
	movzbl	8(%rcx,%rdx), %ecx
	leaq	.LJTI4_6(%rip), %rdx
	movslq	(%rdx,%rcx,4), %rcx
	addq	%rdx, %rcx
	jmpq	*%rcx
.LBB4_161:
	movq	$0, 24(%rax)
	jmp	.LBB4_356
.LBB4_162:
	leaq	(,%r13,4), %rcx
	addq	%r13, %rcx
	leaq	(%rax,%rcx,2), %r13
	movl	$2, %eax
.LBB4_163:
	movzbl	(%rbx,%rax), %ecx
	cmpl	$32, %ecx
	je	.LBB4_165
.LBB4_164:
	cmpl	$10, %ecx
	jne	.LBB4_312
.LBB4_165:
	addq	%rax, %rbx
	subq	%rax, %r14
	cmpb	$32, %cl
	jne	.LBB4_581
.LBB4_166:
	incq	%rbx
	decq	%r14
	cmpq	$5, %r14
	jb	.LBB4_582
.LBB4_167:
	movzbl	(%rbx), %eax
	addb	$-48, %al
	cmpb	$9, %al
	ja	.LBB4_582
	movzbl	%al, %ecx
	movzbl	1(%rbx), %eax
	leal	-48(%rax), %esi
	movl	$1, %edx
	cmpb	$9, %sil
	ja	.LBB4_253
	movzbl	%sil, %edx
	movzbl	2(%rbx), %eax
	leal	-48(%rax), %esi
	cmpb	$9, %sil
	ja	.LBB4_252
	movzbl	%sil, %esi
	movzbl	3(%rbx), %eax
	leal	-48(%rax), %edi
	cmpb	$10, %dil
	jae	.LBB4_350
	movzbl	4(%rbx), %eax
	leal	-48(%rax), %r8d
	cmpb	$10, %r8b
	jb	.LBB4_582
	movzbl	%dil, %edi
	leaq	(%rcx,%rcx,4), %rcx
	leaq	(%rdx,%rcx,2), %rcx
	leaq	(%rcx,%rcx,4), %rcx
	movl	%ecx, %ecx
	leaq	(%rsi,%rcx,2), %rcx
	leaq	(%rcx,%rcx,4), %rcx
	leaq	(%rdi,%rcx,2), %rcx
	movl	$4, %edx
	cmpb	$32, %al
	jne	.LBB4_254
	jmp	.LBB4_255
.LBB4_173:
	leaq	(%rbx,%rbx,4), %rcx
	leaq	(%rax,%rcx,2), %rbx
	movl	$2, %eax
.LBB4_174:
	movzbl	(%rbp,%rax), %ecx
	cmpl	$32, %ecx
	je	.LBB4_176
.LBB4_175:
	cmpl	$10, %ecx
	jne	.LBB4_315
.LBB4_176:
	addq	%rax, %rbp
	subq	%rax, %r14
	cmpb	$10, %cl
	jne	.LBB4_590
.LBB4_177:
	decq	%r14
	movb	$1, %r9b
	movb	$2, %bpl
	cmpq	%rbx, 80(%r11)
	jbe	.LBB4_358
.LBB4_178:
	movq	72(%r11), %rax
	movl	4(%rax,%rbx,8), %edx
	movl	$4294967295, %esi
	cmpq	%rsi, %rdx
	je	.LBB4_358
	movl	(%rax,%rbx,8), %eax
	movq	96(%r11), %rcx
	leaq	(%rax,%rax,2), %rsi
	movq	(%rcx,%rsi,8), %rsi
	leaq	(%rdx,%rdx,2), %rdi
	shlq	$4, %rdi
	movzbl	8(%rsi,%rdi), %r8d
	leal	-1(%r8), %edx
	movb	$3, %r9b
	cmpb	$1, %dl
	ja	.LBB4_358
	movq	48(%r11), %rcx
	shlq	$4, %rax
	leaq	(%rax,%rax,2), %rdx
	addq	%rdi, %rsi
	leaq	32(%rsi), %rax
	cmpb	$2, %r8b
	jne	.LBB4_375
	movq	24(%rsi), %rdi
	testq	%rdi, %rdi
	je	.LBB4_463
	movzbl	(%rcx,%rdx), %r8d
	cmpl	$2, %r8d
	je	.LBB4_509
	cmpl	$1, %r8d
	movq	8(%rcx,%rdx), %r9
	movq	-8(%r9,%rdi), %r8
	testq	%r8, %r8
	je	.LBB4_553
	xorq	%rdi, -8(%r9,%r8)
	jmp	.LBB4_554
.LBB4_185:
	leaq	(,%r13,4), %rcx
	addq	%r13, %rcx
	leaq	(%rax,%rcx,2), %r13
	movl	$2, %eax
.LBB4_186:
	movzbl	(%rbx,%rax), %ecx
	cmpl	$32, %ecx
	je	.LBB4_188
.LBB4_187:
	cmpl	$10, %ecx
	jne	.LBB4_318
.LBB4_188:
	addq	%rax, %rbx
	subq	%rax, %r14
	cmpb	$32, %cl
	jne	.LBB4_593
.LBB4_189:
	incq	%rbx
	decq	%r14
	cmpq	$5, %r14
	jb	.LBB4_594
.LBB4_190:
	movzbl	(%rbx), %eax
	addb	$-48, %al
	cmpb	$9, %al
	ja	.LBB4_594
	movzbl	%al, %ecx
	movzbl	1(%rbx), %eax
	leal	-48(%rax), %esi
	movl	$1, %edx
	cmpb	$9, %sil
	ja	.LBB4_265
	movzbl	%sil, %edx
	movzbl	2(%rbx), %eax
	leal	-48(%rax), %esi
	cmpb	$9, %sil
	ja	.LBB4_264
	movzbl	%sil, %esi
	movzbl	3(%rbx), %eax
	leal	-48(%rax), %edi
	cmpb	$10, %dil
	jae	.LBB4_351
	movzbl	4(%rbx), %eax
	leal	-48(%rax), %r8d
	cmpb	$10, %r8b
	jb	.LBB4_594
	movzbl	%dil, %edi
	leaq	(%rcx,%rcx,4), %rcx
	leaq	(%rdx,%rcx,2), %rcx
	leaq	(%rcx,%rcx,4), %rcx
	movl	%ecx, %ecx
	leaq	(%rsi,%rcx,2), %rcx
	leaq	(%rcx,%rcx,4), %rcx
	leaq	(%rdi,%rcx,2), %rcx
	movl	$4, %edx
	cmpb	$32, %al
	jne	.LBB4_266
	jmp	.LBB4_267
.LBB4_196:
	leaq	(,%r13,4), %rcx
	addq	%r13, %rcx
	leaq	(%rax,%rcx,2), %r13
	movl	$2, %eax
.LBB4_197:
	movzbl	(%rbx,%rax), %ecx
	cmpl	$32, %ecx
	je	.LBB4_199
.LBB4_198:
	cmpl	$10, %ecx
	jne	.LBB4_321
.LBB4_199:
	addq	%rax, %rbx
	subq	%rax, %r14
	cmpb	$32, %cl
	jne	.LBB4_602
.LBB4_200:
	incq	%rbx
	decq	%r14
	cmpq	$5, %r14
	jb	.LBB4_603
.LBB4_201:
	movzbl	(%rbx), %eax
	addb	$-48, %al
	cmpb	$9, %al
	ja	.LBB4_603
	movzbl	%al, %ecx
	movzbl	1(%rbx), %eax
	leal	-48(%rax), %esi
	movl	$1, %edx
	cmpb	$9, %sil
	ja	.LBB4_275
	movzbl	%sil, %edx
	movzbl	2(%rbx), %eax
	leal	-48(%rax), %esi
	cmpb	$9, %sil
	ja	.LBB4_274
	movzbl	%sil, %esi
	movzbl	3(%rbx), %eax
	leal	-48(%rax), %edi
	cmpb	$10, %dil
	jae	.LBB4_352
	movzbl	4(%rbx), %eax
	leal	-48(%rax), %r8d
	cmpb	$10, %r8b
	jb	.LBB4_603
	movzbl	%dil, %edi
	leaq	(%rcx,%rcx,4), %rcx
	leaq	(%rdx,%rcx,2), %rcx
	leaq	(%rcx,%rcx,4), %rcx
	movl	%ecx, %ecx
	leaq	(%rsi,%rcx,2), %rcx
	leaq	(%rcx,%rcx,4), %rcx
	leaq	(%rdi,%rcx,2), %rcx
	movl	$4, %edx
	cmpb	$32, %al
	jne	.LBB4_276
	jmp	.LBB4_277
.LBB4_207:
	leaq	(,%r13,4), %rcx
	addq	%r13, %rcx
	leaq	(%rax,%rcx,2), %r13
	movl	$2, %eax
.LBB4_208:
	movzbl	(%rbx,%rax), %ecx
	cmpl	$32, %ecx
	je	.LBB4_210
.LBB4_209:
	cmpl	$10, %ecx
	jne	.LBB4_324
.LBB4_210:
	addq	%rax, %rbx
	subq	%rax, %r14
	cmpb	$32, %cl
	jne	.LBB4_611
.LBB4_211:
	incq	%rbx
	decq	%r14
	cmpq	$5, %r14
	jb	.LBB4_612
.LBB4_212:
	movzbl	(%rbx), %eax
	addb	$-48, %al
	cmpb	$9, %al
	ja	.LBB4_612
	movzbl	%al, %ecx
	movzbl	1(%rbx), %eax
	leal	-48(%rax), %esi
	movl	$1, %edx
	cmpb	$9, %sil
	ja	.LBB4_288
	movzbl	%sil, %edx
	movzbl	2(%rbx), %eax
	leal	-48(%rax), %esi
	cmpb	$9, %sil
	ja	.LBB4_287
	movzbl	%sil, %esi
	movzbl	3(%rbx), %eax
	leal	-48(%rax), %edi
	cmpb	$10, %dil
	jae	.LBB4_353
	movzbl	4(%rbx), %eax
	leal	-48(%rax), %r8d
	cmpb	$10, %r8b
	jb	.LBB4_612
	movzbl	%dil, %edi
	leaq	(%rcx,%rcx,4), %rcx
	leaq	(%rdx,%rcx,2), %rcx
	leaq	(%rcx,%rcx,4), %rcx
	movl	%ecx, %ecx
	leaq	(%rsi,%rcx,2), %rcx
	leaq	(%rcx,%rcx,4), %rcx
	leaq	(%rdi,%rcx,2), %rcx
	movl	$4, %edx
	cmpb	$32, %al
	jne	.LBB4_289
	jmp	.LBB4_290
.LBB4_218:
	leaq	(%rbx,%rbx,4), %rcx
	leaq	(%rax,%rcx,2), %rbx
	movl	$2, %eax
.LBB4_219:
	movzbl	(%rbp,%rax), %ecx
	cmpl	$32, %ecx
	je	.LBB4_221
.LBB4_220:
	cmpl	$10, %ecx
	jne	.LBB4_327
.LBB4_221:
	addq	%rax, %rbp
	subq	%rax, %r14
	cmpb	$10, %cl
	jne	.LBB4_620
.LBB4_222:
	decq	%r14
	movb	$1, %r9b
	movb	$2, %bpl
	cmpq	%rbx, 80(%r11)
	jbe	.LBB4_358
.LBB4_223:
	movq	72(%r11), %rdx
	movl	4(%rdx,%rbx,8), %eax
	movl	$4294967295, %esi
	cmpq	%rsi, %rax
	je	.LBB4_358
	movl	(%rdx,%rbx,8), %ecx
	movq	96(%r11), %rdx
	leaq	(%rcx,%rcx,2), %rsi
	movq	(%rdx,%rsi,8), %rcx
	leaq	(%rax,%rax,2), %rax
	shlq	$4, %rax
	cmpb	$0, 8(%rcx,%rax)
	je	.LBB4_273
	leaq	(%rcx,%rax), %rdi
	addq	$8, %rdi
	shlq	$4, %rsi
	addq	48(%r11), %rsi
	callq	ic_any_collection.any_collection.AnyCollection.move_prev.87ed5b954c3afc77
	jmp	.LBB4_241
.LBB4_226:
	leaq	(%rbx,%rbx,4), %rcx
	leaq	(%rax,%rcx,2), %rbx
	movl	$2, %eax
.LBB4_227:
	movzbl	(%rbp,%rax), %ecx
	cmpl	$32, %ecx
	je	.LBB4_229
.LBB4_228:
	cmpl	$10, %ecx
	jne	.LBB4_330
.LBB4_229:
	addq	%rax, %rbp
	subq	%rax, %r14
	cmpb	$10, %cl
	jne	.LBB4_623
.LBB4_230:
	decq	%r14
	movb	$1, %r9b
	movb	$2, %bpl
	cmpq	%rbx, 80(%r11)
	jbe	.LBB4_358
.LBB4_231:
	movq	72(%r11), %rdx
	movl	4(%rdx,%rbx,8), %eax
	movl	$4294967295, %esi
	cmpq	%rsi, %rax
	je	.LBB4_358
	movl	(%rdx,%rbx,8), %ecx
	movq	96(%r11), %rdx
	leaq	(%rcx,%rcx,2), %rsi
	movq	(%rdx,%rsi,8), %rbx
	leaq	(%rax,%rax,2), %rax
	shlq	$4, %rax
	movb	$3, %r9b
	cmpb	$0, 8(%rbx,%rax)
	jne	.LBB4_358
	shlq	$4, %rsi
	addq	48(%r11), %rsi
	addq	%rax, %rbx
	leaq	16(%rbx), %rdi
	movq	24(%rbx), %rax
	movq	%rax, 32(%rsp)
	leaq	32(%rsp), %rdx
	callq	ic_chain.edits.LinkListForwardOnly.remove_next_at.927dec3b43ebc9b0
	movq	8(%rsp), %r11
	movq	32(%rsp), %rcx
	movq	%rcx, 24(%rbx)
	jmp	.LBB4_242
.LBB4_234:
	leaq	(%rbx,%rbx,4), %rcx
	leaq	(%rax,%rcx,2), %rbx
	movl	$2, %eax
.LBB4_235:
	movzbl	(%rbp,%rax), %ecx
	cmpl	$32, %ecx
	je	.LBB4_237
.LBB4_236:
	cmpl	$10, %ecx
	jne	.LBB4_333
.LBB4_237:
	addq	%rax, %rbp
	subq	%rax, %r14
	cmpb	$10, %cl
	jne	.LBB4_626
.LBB4_238:
	decq	%r14
	movb	$1, %r9b
	movb	$2, %bpl
	cmpq	%rbx, 80(%r11)
	jbe	.LBB4_358
.LBB4_239:
	movq	72(%r11), %rdx
	movl	4(%rdx,%rbx,8), %eax
	movl	$4294967295, %esi
	cmpq	%rsi, %rax
	je	.LBB4_358
	movl	(%rdx,%rbx,8), %ecx
	leaq	(%rcx,%rcx,2), %rcx
	movq	%rcx, %rsi
	shlq	$4, %rsi
	addq	48(%r11), %rsi
	movq	96(%r11), %rdx
	movq	(%rdx,%rcx,8), %rcx
	leaq	(%rax,%rax,2), %rax
	shlq	$4, %rax
	leaq	(%rcx,%rax), %rdi
	addq	$8, %rdi
	callq	ic_any_collection.any_collection.AnyCollection.move_next.87ed5b954c3afc77
.LBB4_241:
	movq	8(%rsp), %r11
.LBB4_242:
	xorl	%ebx, %ebx
	movq	%r15, %rcx
	subq	%r14, %rcx
	cmovaeq	%rcx, %rbx
	movq	128(%r11), %r14
	cmpb	$1, %al
	je	.LBB4_446
	movl	$5, %ebp
	leaq	.Lstatic.22(%rip), %r13
	leaq	128(%r11), %r10
	jmp	.LBB4_563
.LBB4_244:
	leaq	(%rbx,%rbx,4), %rcx
	leaq	(%rax,%rcx,2), %rbx
	movl	$2, %eax
.LBB4_245:
	movzbl	(%rbp,%rax), %ecx
	cmpl	$32, %ecx
	je	.LBB4_247
.LBB4_246:
	cmpl	$10, %ecx
	jne	.LBB4_336
.LBB4_247:
	addq	%rax, %rbp
	subq	%rax, %r14
	cmpb	$10, %cl
	jne	.LBB4_629
.LBB4_248:
	decq	%r14
	movb	$1, %r9b
	movb	$2, %bpl
	cmpq	%rbx, 80(%r11)
	jbe	.LBB4_358
.LBB4_249:
	movq	72(%r11), %rdx
	movl	4(%rdx,%rbx,8), %eax
	movl	$4294967295, %esi
	cmpq	%rsi, %rax
	je	.LBB4_358
	movl	(%rdx,%rbx,8), %ecx
	leaq	(%rcx,%rcx,2), %rsi
	movq	96(%r11), %rcx
	movq	(%rcx,%rsi,8), %rcx
	shlq	$4, %rsi
	addq	48(%r11), %rsi
	leaq	(%rax,%rax,2), %rax
	shlq	$4, %rax
	leaq	(%rcx,%rax), %rbx
	movzbl	8(%rcx,%rax), %r9d
	movzbl	%r9b, %eax
	leaq	.LJTI4_7(%rip), %rdx
	movslq	(%rdx,%rax,4), %rax
	addq	%rdx, %rax
	jmpq	*%rax
.LBB4_251:
	leaq	16(%rbx), %rdi
	movq	$0, 32(%rsp)
	leaq	32(%rsp), %rdx
	callq	ic_chain.edits.LinkListForwardOnly.remove_next_at.927dec3b43ebc9b0
	movq	8(%rsp), %r11
	leaq	128(%r11), %r10
	movq	32(%rsp), %rcx
	movq	%rcx, 24(%rbx)
	jmp	.LBB4_525
.LBB4_252:
	leaq	(%rcx,%rcx,4), %rcx
	leaq	(%rdx,%rcx,2), %rcx
	movl	$2, %edx
.LBB4_253:
	cmpb	$32, %al
	je	.LBB4_255
.LBB4_254:
	movzbl	%al, %esi
	cmpl	$10, %esi
	jne	.LBB4_582
.LBB4_255:
	addq	%rdx, %rbx
	subq	%rdx, %r14
	leaq	8(,%rcx,8), %r8
	cmpb	$10, %al
	jne	.LBB4_586
.LBB4_256:
	decq	%r14
	movb	$1, %r9b
	movb	$2, %bpl
	cmpq	%r13, 80(%r11)
	jbe	.LBB4_358
.LBB4_257:
	movq	72(%r11), %rdx
	movl	4(%rdx,%r13,8), %eax
	movl	$4294967295, %esi
	cmpq	%rsi, %rax
	je	.LBB4_358
	movq	%r8, %rcx
	shrq	$3, %rcx
	decq	%rcx
	movb	$2, %bpl
	cmpq	8(%r11), %rcx
	jae	.LBB4_512
	movq	(%r11), %rsi
	shlq	$4, %rcx
	cmpb	$1, (%rsi,%rcx)
	jne	.LBB4_512
	movl	(%rdx,%r13,8), %ecx
	leaq	(%rcx,%rcx,2), %rsi
	movq	96(%r11), %rcx
	movq	(%rcx,%rsi,8), %rbx
	leaq	(%rax,%rax,2), %rax
	shlq	$4, %rax
	movzbl	8(%rbx,%rax), %edx
	leal	-1(%rdx), %edi
	movb	$3, %r9b
	cmpb	$1, %dil
	ja	.LBB4_358
	shlq	$4, %rsi
	addq	48(%r11), %rsi
	addq	%rax, %rbx
	cmpb	$2, %dl
	jne	.LBB4_481
	leaq	16(%rbx), %rdi
	movq	24(%rbx), %rcx
	xorl	%edx, %edx
	testq	%rcx, %rcx
	setne	%dl
	movq	$0, (%rsp)
	xorl	%r9d, %r9d
	callq	ic_chain.list.LinkList.insert_between.06e6478965f9faac
	movb	$9, %r9b
	testb	%al, %al
	je	.LBB4_508
	xorps	%xmm0, %xmm0
	jmp	.LBB4_505
.LBB4_264:
	leaq	(%rcx,%rcx,4), %rcx
	leaq	(%rdx,%rcx,2), %rcx
	movl	$2, %edx
.LBB4_265:
	cmpb	$32, %al
	je	.LBB4_267
.LBB4_266:
	movzbl	%al, %esi
	cmpl	$10, %esi
	jne	.LBB4_594
.LBB4_267:
	addq	%rdx, %rbx
	subq	%rdx, %r14
	leaq	8(,%rcx,8), %r8
	cmpb	$10, %al
	jne	.LBB4_598
.LBB4_268:
	decq	%r14
	movb	$1, %r9b
	movb	$2, %bpl
	cmpq	%r13, 80(%r11)
	jbe	.LBB4_358
.LBB4_269:
	movq	72(%r11), %rdx
	movl	4(%rdx,%r13,8), %eax
	movl	$4294967295, %esi
	cmpq	%rsi, %rax
	je	.LBB4_358
	movq	%r8, %rcx
	shrq	$3, %rcx
	decq	%rcx
	movb	$2, %bpl
	cmpq	8(%r11), %rcx
	jae	.LBB4_512
	movq	(%r11), %rsi
	shlq	$4, %rcx
	cmpb	$1, (%rsi,%rcx)
	jne	.LBB4_512
	movl	(%rdx,%r13,8), %ecx
	leaq	(%rcx,%rcx,2), %rcx
	movq	%rcx, %rsi
	shlq	$4, %rsi
	addq	48(%r11), %rsi
	movq	96(%r11), %rdx
	movq	(%rdx,%rcx,8), %rcx
	leaq	(%rax,%rax,2), %rax
	shlq	$4, %rax
	leaq	(%rcx,%rax), %r13
	movzbl	8(%rcx,%rax), %eax
	leaq	.LJTI4_3(%rip), %rcx
	movslq	(%rcx,%rax,4), %rax
	addq	%rcx, %rax
	jmpq	*%rax
.LBB4_273:
	movb	$3, %r9b
	jmp	.LBB4_358
.LBB4_274:
	leaq	(%rcx,%rcx,4), %rcx
	leaq	(%rdx,%rcx,2), %rcx
	movl	$2, %edx
.LBB4_275:
	cmpb	$32, %al
	je	.LBB4_277
.LBB4_276:
	movzbl	%al, %esi
	cmpl	$10, %esi
	jne	.LBB4_603
.LBB4_277:
	addq	%rdx, %rbx
	subq	%rdx, %r14
	leaq	8(,%rcx,8), %rcx
	cmpb	$10, %al
	jne	.LBB4_607
.LBB4_278:
	decq	%r14
	movb	$1, %r9b
	movb	$2, %bpl
	cmpq	%r13, 80(%r11)
	jbe	.LBB4_358
.LBB4_279:
	movq	72(%r11), %rdx
	movl	4(%rdx,%r13,8), %eax
	movl	$4294967295, %esi
	cmpq	%rsi, %rax
	je	.LBB4_358
	movq	%rcx, %rbx
	shrq	$3, %rbx
	leaq	-1(%rbx), %rsi
	movb	$2, %bpl
	cmpq	8(%r11), %rsi
	jae	.LBB4_512
	movq	(%r11), %rdi
	shlq	$4, %rsi
	cmpb	$1, (%rdi,%rsi)
	jne	.LBB4_512
	movl	(%rdx,%r13,8), %edx
	leaq	(%rdx,%rdx,2), %rdx
	movq	%rdx, %rsi
	shlq	$4, %rsi
	addq	48(%r11), %rsi
	movq	96(%r11), %rdi
	movq	(%rdi,%rdx,8), %rdx
	leaq	(%rax,%rax,2), %rax
	shlq	$4, %rax
	leaq	(%rdx,%rax), %r13
	movzbl	8(%rdx,%rax), %eax
	leaq	.LJTI4_4(%rip), %rdx
	movslq	(%rdx,%rax,4), %rax
	addq	%rdx, %rax
	jmpq	*%rax
.LBB4_283:
	movq	24(%r13), %rax
	movzbl	(%rsi), %r8d
	testq	%rax, %rax
	je	.LBB4_546
	leaq	8(%rsi), %rdx
	cmpl	$2, %r8d
	je	.LBB4_650
	cmpl	$1, %r8d
	movq	(%rdx), %r8
	movq	-8(%r8,%rax), %rdi
	jmp	.LBB4_549
.LBB4_287:
	leaq	(%rcx,%rcx,4), %rcx
	leaq	(%rdx,%rcx,2), %rcx
	movl	$2, %edx
.LBB4_288:
	cmpb	$32, %al
	je	.LBB4_290
.LBB4_289:
	movzbl	%al, %esi
	cmpl	$10, %esi
	jne	.LBB4_612
.LBB4_290:
	addq	%rdx, %rbx
	subq	%rdx, %r14
	leaq	8(,%rcx,8), %rcx
	cmpb	$10, %al
	jne	.LBB4_616
.LBB4_291:
	decq	%r14
	movb	$1, %r9b
	movb	$2, %bpl
	cmpq	%r13, 80(%r11)
	jbe	.LBB4_358
.LBB4_292:
	movq	72(%r11), %rsi
	movl	4(%rsi,%r13,8), %edx
	movl	$4294967295, %eax
	cmpq	%rax, %rdx
	je	.LBB4_358
	movq	%rcx, %rax
	shrq	$3, %rax
	leaq	-1(%rax), %r8
	movb	$2, %bpl
	cmpq	8(%r11), %r8
	jae	.LBB4_512
	movq	(%r11), %rdi
	shlq	$4, %r8
	cmpb	$1, (%rdi,%r8)
	jne	.LBB4_512
	movl	(%rsi,%r13,8), %esi
	leaq	(%rsi,%rsi,2), %rsi
	movq	96(%r11), %rdi
	movq	(%rdi,%rsi,8), %rdi
	shlq	$4, %rsi
	addq	48(%r11), %rsi
	leaq	(%rdx,%rdx,2), %rdx
	shlq	$4, %rdx
	leaq	(%rdi,%rdx), %rbx
	movzbl	8(%rdi,%rdx), %r9d
	movzbl	%r9b, %edx
	leaq	.LJTI4_8(%rip), %rdi
	movslq	(%rdi,%rdx,4), %rdx
	addq	%rdi, %rdx
	jmpq	*%rdx
.LBB4_296:
	movzbl	(%rsi), %edi
	movq	16(%rbx), %rdx
	cmpl	$2, %edi
	je	.LBB4_571
	cmpl	$1, %edi
	movq	8(%rsi), %rax
	movb	$9, %r9b
	cmpq	$1, -8(%rax,%rcx)
	jne	.LBB4_358
	movq	%rdx, -8(%rax,%rcx)
	jmp	.LBB4_665
.LBB4_300:
	movq	%rbp, %rdi
	movq	%r14, %rsi
	callq	ic_program.argument.any_number
	movq	8(%rsp), %r11
	cmpb	$1, %al
	jne	.LBB4_631
	movq	%rdx, %rbx
	movq	%rbp, %rdi
	movq	%r14, %rsi
	callq	ic_program.text.after_word
	movq	%rax, %rbp
	testq	%rdx, %rdx
	je	.LBB4_574
	movq	%rdx, %r14
	movzbl	(%rbp), %ecx
	movq	8(%rsp), %r11
	leaq	128(%r11), %r10
	cmpb	$10, %cl
	je	.LBB4_150
	jmp	.LBB4_575
.LBB4_303:
	movq	%rbp, %rdi
	movq	%r14, %rsi
	callq	ic_program.argument.any_number
	movq	8(%rsp), %r11
	cmpb	$1, %al
	jne	.LBB4_631
	movq	%rdx, %rbx
	movq	%rbp, %rdi
	movq	%r14, %rsi
	callq	ic_program.text.after_word
	movq	%rax, %rbp
	testq	%rdx, %rdx
	je	.LBB4_577
	movq	%rdx, %r14
	movzbl	(%rbp), %ecx
	movq	8(%rsp), %r11
	leaq	128(%r11), %r10
	cmpb	$10, %cl
	je	.LBB4_158
	jmp	.LBB4_578
.LBB4_306:
	leaq	16(%rdx), %rdi
	addq	$32, %rdx
	callq	ic_chain.edits.LinkListBidirectional.remove_at.d62ae654698fb858
	movq	8(%rsp), %r11
	leaq	128(%r11), %r10
	jmp	.LBB4_525
.LBB4_307:
	cmpb	$2, (%rsi)
	jne	.LBB4_699
	cmpb	$1, 8(%rsi)
	jne	.LBB4_699
	leaq	16(%rdx), %rdi
	addq	$24, %rdx
	addq	$16, %rsi
	callq	ic_rbtree.edits.RBTreeBidirectional.remove_at.b002bc248359831b
	movq	8(%rsp), %r11
	leaq	128(%r11), %r10
	jmp	.LBB4_525
.LBB4_310:
	addq	$24, %rax
.LBB4_311:
	movq	(%rax), %rdx
	xorl	%ebx, %ebx
	movq	%r15, %rax
	subq	%r14, %rax
	cmovaeq	%rax, %rbx
	movq	(%r10), %r14
	testq	%rdx, %rdx
	jne	.LBB4_526
	jmp	.LBB4_562
.LBB4_312:
	movq	%rbx, %rdi
	movq	%r14, %rsi
	callq	ic_program.argument.any_number
	movq	8(%rsp), %r11
	cmpb	$1, %al
	jne	.LBB4_631
	movq	%rdx, %r13
	movq	%rbx, %rdi
	movq	%r14, %rsi
	callq	ic_program.text.after_word
	movq	%rax, %rbx
	testq	%rdx, %rdx
	je	.LBB4_580
	movq	%rdx, %r14
	movzbl	(%rbx), %ecx
	movq	8(%rsp), %r11
	leaq	128(%r11), %r10
	cmpb	$32, %cl
	je	.LBB4_166
	jmp	.LBB4_581
.LBB4_315:
	movq	%rbp, %rdi
	movq	%r14, %rsi
	callq	ic_program.argument.any_number
	movq	8(%rsp), %r11
	cmpb	$1, %al
	jne	.LBB4_631
	movq	%rdx, %rbx
	movq	%rbp, %rdi
	movq	%r14, %rsi
	callq	ic_program.text.after_word
	movq	%rax, %rbp
	testq	%rdx, %rdx
	je	.LBB4_589
	movq	%rdx, %r14
	movzbl	(%rbp), %ecx
	movq	8(%rsp), %r11
	leaq	128(%r11), %r10
	cmpb	$10, %cl
	je	.LBB4_177
	jmp	.LBB4_590
.LBB4_318:
	movq	%rbx, %rdi
	movq	%r14, %rsi
	callq	ic_program.argument.any_number
	movq	8(%rsp), %r11
	cmpb	$1, %al
	jne	.LBB4_631
	movq	%rdx, %r13
	movq	%rbx, %rdi
	movq	%r14, %rsi
	callq	ic_program.text.after_word
	movq	%rax, %rbx
	testq	%rdx, %rdx
	je	.LBB4_592
	movq	%rdx, %r14
	movzbl	(%rbx), %ecx
	movq	8(%rsp), %r11
	leaq	128(%r11), %r10
	cmpb	$32, %cl
	je	.LBB4_189
	jmp	.LBB4_593
.LBB4_321:
	movq	%rbx, %rdi
	movq	%r14, %rsi
	callq	ic_program.argument.any_number
	movq	8(%rsp), %r11
	cmpb	$1, %al
	jne	.LBB4_631
	movq	%rdx, %r13
	movq	%rbx, %rdi
	movq	%r14, %rsi
	callq	ic_program.text.after_word
	movq	%rax, %rbx
	testq	%rdx, %rdx
	je	.LBB4_601
	movq	%rdx, %r14
	movzbl	(%rbx), %ecx
	movq	8(%rsp), %r11
	leaq	128(%r11), %r10
	cmpb	$32, %cl
	je	.LBB4_200
	jmp	.LBB4_602
.LBB4_324:
	movq	%rbx, %rdi
	movq	%r14, %rsi
	callq	ic_program.argument.any_number
	movq	8(%rsp), %r11
	cmpb	$1, %al
	jne	.LBB4_631
	movq	%rdx, %r13
	movq	%rbx, %rdi
	movq	%r14, %rsi
	callq	ic_program.text.after_word
	movq	%rax, %rbx
	testq	%rdx, %rdx
	je	.LBB4_610
	movq	%rdx, %r14
	movzbl	(%rbx), %ecx
	movq	8(%rsp), %r11
	leaq	128(%r11), %r10
	cmpb	$32, %cl
	je	.LBB4_211
	jmp	.LBB4_611
.LBB4_327:
	movq	%rbp, %rdi
	movq	%r14, %rsi
	callq	ic_program.argument.any_number
	movq	8(%rsp), %r11
	cmpb	$1, %al
	jne	.LBB4_631
	movq	%rdx, %rbx
	movq	%rbp, %rdi
	movq	%r14, %rsi
	callq	ic_program.text.after_word
	movq	%rax, %rbp
	testq	%rdx, %rdx
	je	.LBB4_619
	movq	%rdx, %r14
	movzbl	(%rbp), %ecx
	movq	8(%rsp), %r11
	leaq	128(%r11), %r10
	cmpb	$10, %cl
	je	.LBB4_222
	jmp	.LBB4_620
.LBB4_330:
	movq	%rbp, %rdi
	movq	%r14, %rsi
	callq	ic_program.argument.any_number
	movq	8(%rsp), %r11
	cmpb	$1, %al
	jne	.LBB4_631
	movq	%rdx, %rbx
	movq	%rbp, %rdi
	movq	%r14, %rsi
	callq	ic_program.text.after_word
	movq	%rax, %rbp
	testq	%rdx, %rdx
	je	.LBB4_622
	movq	%rdx, %r14
	movzbl	(%rbp), %ecx
	movq	8(%rsp), %r11
	leaq	128(%r11), %r10
	cmpb	$10, %cl
	je	.LBB4_230
	jmp	.LBB4_623
.LBB4_333:
	movq	%rbp, %rdi
	movq	%r14, %rsi
	callq	ic_program.argument.any_number
	movq	8(%rsp), %r11
	cmpb	$1, %al
	jne	.LBB4_631
	movq	%rdx, %rbx
	movq	%rbp, %rdi
	movq	%r14, %rsi
	callq	ic_program.text.after_word
	movq	%rax, %rbp
	testq	%rdx, %rdx
	je	.LBB4_625
	movq	%rdx, %r14
	movzbl	(%rbp), %ecx
	movq	8(%rsp), %r11
	leaq	128(%r11), %r10
	cmpb	$10, %cl
	je	.LBB4_238
	jmp	.LBB4_626
.LBB4_336:
	movq	%rbp, %rdi
	movq	%r14, %rsi
	callq	ic_program.argument.any_number
	movq	8(%rsp), %r11
	cmpb	$1, %al
	jne	.LBB4_631
	movq	%rdx, %rbx
	movq	%rbp, %rdi
	movq	%r14, %rsi
	callq	ic_program.text.after_word
	movq	%rax, %rbp
	testq	%rdx, %rdx
	je	.LBB4_628
	movq	%rdx, %r14
	movzbl	(%rbp), %ecx
	movq	8(%rsp), %r11
	leaq	128(%r11), %r10
	cmpb	$10, %cl
	je	.LBB4_248
	jmp	.LBB4_629
.LBB4_339:
	leaq	(%rbx,%rbx,4), %rdx
	leaq	(%rax,%rdx,2), %rax
	leaq	(%rax,%rax,4), %rax
	movl	%eax, %eax
	leaq	(%rcx,%rax,2), %rbx
	movl	$3, %eax
	movzbl	(%rbp,%rax), %ecx
	cmpl	$32, %ecx
	jne	.LBB4_148
	jmp	.LBB4_149
.LBB4_340:
	leaq	(%rbx,%rbx,4), %rdx
	leaq	(%rax,%rdx,2), %rax
	leaq	(%rax,%rax,4), %rax
	movl	%eax, %eax
	leaq	(%rcx,%rax,2), %rbx
	movl	$3, %eax
	movzbl	(%rbp,%rax), %ecx
	cmpl	$32, %ecx
	jne	.LBB4_156
	jmp	.LBB4_157
.LBB4_341:
	leaq	(,%r13,4), %rdx
	addq	%r13, %rdx
	leaq	(%rax,%rdx,2), %rax
	leaq	(%rax,%rax,4), %rax
	movl	%eax, %eax
	leaq	(%rcx,%rax,2), %r13
	movl	$3, %eax
	movzbl	(%rbx,%rax), %ecx
	cmpl	$32, %ecx
	jne	.LBB4_164
	jmp	.LBB4_165
.LBB4_342:
	leaq	(%rbx,%rbx,4), %rdx
	leaq	(%rax,%rdx,2), %rax
	leaq	(%rax,%rax,4), %rax
	movl	%eax, %eax
	leaq	(%rcx,%rax,2), %rbx
	movl	$3, %eax
	movzbl	(%rbp,%rax), %ecx
	cmpl	$32, %ecx
	jne	.LBB4_175
	jmp	.LBB4_176
.LBB4_343:
	leaq	(,%r13,4), %rdx
	addq	%r13, %rdx
	leaq	(%rax,%rdx,2), %rax
	leaq	(%rax,%rax,4), %rax
	movl	%eax, %eax
	leaq	(%rcx,%rax,2), %r13
	movl	$3, %eax
	movzbl	(%rbx,%rax), %ecx
	cmpl	$32, %ecx
	jne	.LBB4_187
	jmp	.LBB4_188
.LBB4_344:
	leaq	(,%r13,4), %rdx
	addq	%r13, %rdx
	leaq	(%rax,%rdx,2), %rax
	leaq	(%rax,%rax,4), %rax
	movl	%eax, %eax
	leaq	(%rcx,%rax,2), %r13
	movl	$3, %eax
	movzbl	(%rbx,%rax), %ecx
	cmpl	$32, %ecx
	jne	.LBB4_198
	jmp	.LBB4_199
.LBB4_345:
	leaq	(,%r13,4), %rdx
	addq	%r13, %rdx
	leaq	(%rax,%rdx,2), %rax
	leaq	(%rax,%rax,4), %rax
	movl	%eax, %eax
	leaq	(%rcx,%rax,2), %r13
	movl	$3, %eax
	movzbl	(%rbx,%rax), %ecx
	cmpl	$32, %ecx
	jne	.LBB4_209
	jmp	.LBB4_210
.LBB4_346:
	leaq	(%rbx,%rbx,4), %rdx
	leaq	(%rax,%rdx,2), %rax
	leaq	(%rax,%rax,4), %rax
	movl	%eax, %eax
	leaq	(%rcx,%rax,2), %rbx
	movl	$3, %eax
	movzbl	(%rbp,%rax), %ecx
	cmpl	$32, %ecx
	jne	.LBB4_220
	jmp	.LBB4_221
.LBB4_347:
	leaq	(%rbx,%rbx,4), %rdx
	leaq	(%rax,%rdx,2), %rax
	leaq	(%rax,%rax,4), %rax
	movl	%eax, %eax
	leaq	(%rcx,%rax,2), %rbx
	movl	$3, %eax
	movzbl	(%rbp,%rax), %ecx
	cmpl	$32, %ecx
	jne	.LBB4_228
	jmp	.LBB4_229
.LBB4_348:
	leaq	(%rbx,%rbx,4), %rdx
	leaq	(%rax,%rdx,2), %rax
	leaq	(%rax,%rax,4), %rax
	movl	%eax, %eax
	leaq	(%rcx,%rax,2), %rbx
	movl	$3, %eax
	movzbl	(%rbp,%rax), %ecx
	cmpl	$32, %ecx
	jne	.LBB4_236
	jmp	.LBB4_237
.LBB4_349:
	leaq	(%rbx,%rbx,4), %rdx
	leaq	(%rax,%rdx,2), %rax
	leaq	(%rax,%rax,4), %rax
	movl	%eax, %eax
	leaq	(%rcx,%rax,2), %rbx
	movl	$3, %eax
	movzbl	(%rbp,%rax), %ecx
	cmpl	$32, %ecx
	jne	.LBB4_246
	jmp	.LBB4_247
.LBB4_350:
	leaq	(%rcx,%rcx,4), %rcx
	leaq	(%rdx,%rcx,2), %rcx
	leaq	(%rcx,%rcx,4), %rcx
	movl	%ecx, %ecx
	leaq	(%rsi,%rcx,2), %rcx
	movl	$3, %edx
	cmpb	$32, %al
	jne	.LBB4_254
	jmp	.LBB4_255
.LBB4_351:
	leaq	(%rcx,%rcx,4), %rcx
	leaq	(%rdx,%rcx,2), %rcx
	leaq	(%rcx,%rcx,4), %rcx
	movl	%ecx, %ecx
	leaq	(%rsi,%rcx,2), %rcx
	movl	$3, %edx
	cmpb	$32, %al
	jne	.LBB4_266
	jmp	.LBB4_267
.LBB4_352:
	leaq	(%rcx,%rcx,4), %rcx
	leaq	(%rdx,%rcx,2), %rcx
	leaq	(%rcx,%rcx,4), %rcx
	movl	%ecx, %ecx
	leaq	(%rsi,%rcx,2), %rcx
	movl	$3, %edx
	cmpb	$32, %al
	jne	.LBB4_276
	jmp	.LBB4_277
.LBB4_353:
	leaq	(%rcx,%rcx,4), %rcx
	leaq	(%rdx,%rcx,2), %rcx
	leaq	(%rcx,%rcx,4), %rcx
	movl	%ecx, %ecx
	leaq	(%rsi,%rcx,2), %rcx
	movl	$3, %edx
	cmpb	$32, %al
	jne	.LBB4_289
	jmp	.LBB4_290
.LBB4_354:
	movq	$0, 32(%rax)
	jmp	.LBB4_356
.LBB4_355:
	xorps	%xmm0, %xmm0
	movups	%xmm0, 32(%rax)
.LBB4_356:
	xorl	%r9d, %r9d
.LBB4_357:
	leal	(%r9,%r9), %ebp
	jmp	.LBB4_358
.LBB4_375:
	cmpb	$2, (%rcx,%rdx)
	jne	.LBB4_699
	movq	24(%rsi), %rdi
	testq	%rdi, %rdi
	je	.LBB4_464
	movzbl	8(%rcx,%rdx), %r11d
	movq	16(%rcx,%rdx), %r9
	testb	%r11b, %r11b
	leaq	-8(%r9,%rdi,2), %r10
	leaq	(%rdi,%rdi,2), %r8
	leaq	-24(%r9,%r8), %rbx
	cmoveq	%r10, %rbx
	movq	(%rbx), %r10
	testq	%r10, %r10
	je	.LBB4_477
	testb	%r11b, %r11b
	je	.LBB4_513
	movq	%r10, %r11
	shrq	$3, %r11
	leaq	(%r11,%r11,2), %r11
	movq	$0, -16(%r9,%r11,8)
	jmp	.LBB4_514
.LBB4_380:
	cmpb	$2, (%rsi)
	jne	.LBB4_699
	movq	16(%rbx), %rcx
	testq	%rcx, %rcx
	je	.LBB4_465
	leaq	(%rcx,%rcx), %rax
	cmpb	$0, 8(%rsi)
	leaq	(%rcx,%rcx,2), %rdx
	movq	%rdx, %rdi
	cmoveq	%rax, %rdi
	movq	16(%rsi), %r8
	movq	-16(%r8,%rdi), %rdi
	movq	%rdi, 16(%rbx)
	testq	%rdi, %rdi
	je	.LBB4_478
	movq	16(%rsi), %r8
	cmpb	$0, 8(%rsi)
	je	.LBB4_519
	shrq	$3, %rdi
	leaq	(%rdi,%rdi,2), %rdi
	movq	$0, -24(%r8,%rdi,8)
	jmp	.LBB4_520
.LBB4_385:
	leaq	16(%rbx), %rdi
	callq	ic_chain.list.LinkList.pop_front.06e6478965f9faac
	movq	8(%rsp), %r11
	leaq	128(%r11), %r10
	xorl	%ecx, %ecx
	testb	$1, %al
	cmovneq	%rdx, %rcx
	movq	%rcx, %rdx
	xorps	%xmm0, %xmm0
	movups	%xmm0, 32(%rbx)
	jmp	.LBB4_525
.LBB4_386:
	leaq	(%r8,%r8,4), %rcx
	leaq	(%rax,%rcx,2), %r8
	movl	$2, %eax
.LBB4_387:
	movzbl	(%rbx,%rax), %ecx
	cmpl	$32, %ecx
	je	.LBB4_389
.LBB4_388:
	cmpl	$10, %ecx
	jne	.LBB4_409
.LBB4_389:
	addq	%rax, %rbx
	subq	%rax, %r14
	cmpb	$32, %cl
	jne	.LBB4_412
.LBB4_390:
	incq	%rbx
	decq	%r14
	cmpq	$5, %r14
	jb	.LBB4_414
.LBB4_391:
	movzbl	(%rbx), %eax
	addb	$-48, %al
	cmpb	$9, %al
	ja	.LBB4_414
	movzbl	%al, %ecx
	movzbl	1(%rbx), %eax
	leal	-48(%rax), %esi
	movl	$1, %edx
	cmpb	$9, %sil
	ja	.LBB4_399
	movzbl	%sil, %edx
	movzbl	2(%rbx), %eax
	leal	-48(%rax), %esi
	cmpb	$9, %sil
	ja	.LBB4_398
	movzbl	%sil, %esi
	movzbl	3(%rbx), %eax
	leal	-48(%rax), %edi
	cmpb	$10, %dil
	jae	.LBB4_466
	movzbl	4(%rbx), %eax
	movq	%r8, %r9
	leal	-48(%rax), %r8d
	cmpb	$10, %r8b
	movq	%r9, %r8
	jb	.LBB4_414
	movzbl	%dil, %edi
	leaq	(%rcx,%rcx,4), %rcx
	leaq	(%rdx,%rcx,2), %rcx
	leaq	(%rcx,%rcx,4), %rcx
	movl	%ecx, %ecx
	leaq	(%rsi,%rcx,2), %rcx
	leaq	(%rcx,%rcx,4), %rcx
	leaq	(%rdi,%rcx,2), %rcx
	movl	$4, %edx
	cmpb	$32, %al
	jne	.LBB4_400
	jmp	.LBB4_401
.LBB4_397:
	xorl	%eax, %eax
	leaq	128(%r11), %r10
	movq	%rcx, %rdx
	jmp	.LBB4_525
.LBB4_398:
	leaq	(%rcx,%rcx,4), %rcx
	leaq	(%rdx,%rcx,2), %rcx
	movl	$2, %edx
.LBB4_399:
	cmpb	$32, %al
	je	.LBB4_401
.LBB4_400:
	movzbl	%al, %esi
	cmpl	$10, %esi
	jne	.LBB4_414
.LBB4_401:
	addq	%rdx, %rbx
	subq	%rdx, %r14
	leaq	8(,%rcx,8), %rdi
	cmpb	$10, %al
	jne	.LBB4_671
.LBB4_402:
	decq	%r14
	movb	$1, %r9b
	movb	$2, %bpl
	cmpq	%r8, 80(%r11)
	jbe	.LBB4_358
.LBB4_403:
	movq	72(%r11), %rdx
	movl	4(%rdx,%r8,8), %eax
	movl	$4294967295, %esi
	cmpq	%rsi, %rax
	je	.LBB4_358
	movq	%rdi, %rcx
	shrq	$3, %rcx
	leaq	-1(%rcx), %rsi
	movb	$2, %bpl
	cmpq	8(%r11), %rsi
	jae	.LBB4_512
	movq	%rdi, 16(%rsp)
	movq	(%r11), %rdi
	shlq	$4, %rsi
	cmpb	$1, (%rdi,%rsi)
	jne	.LBB4_512
	movl	(%rdx,%r8,8), %edx
	leaq	(%rdx,%rdx,2), %rdx
	movq	%rdx, %rsi
	shlq	$4, %rsi
	addq	48(%r11), %rsi
	movq	96(%r11), %rdi
	movq	(%rdi,%rdx,8), %rdi
	leaq	(%rax,%rax,2), %rax
	shlq	$4, %rax
	leaq	(%rdi,%rax), %rdx
	movzbl	8(%rdi,%rax), %eax
	leaq	.LJTI4_1(%rip), %rdi
	movslq	(%rdi,%rax,4), %rax
	addq	%rdi, %rax
	jmpq	*%rax
.LBB4_407:
	cmpb	$2, (%rsi)
	jne	.LBB4_699
	leaq	32(%rdx), %rax
	addq	$8, %rsi
	movq	32(%rdx), %rbx
	addq	$16, %rdx
	movq	%rdx, %rdi
	movq	%rax, %rdx
	movq	16(%rsp), %rcx
	callq	ic_chain.edits.LinkListBidirectional.replace_at.10cc405e52586c83
	jmp	.LBB4_641
.LBB4_512:
	movb	$2, %r9b
	.p2align	4
.LBB4_358:
	xorl	%ebx, %ebx
	movq	%r15, %rax
	subq	%r14, %rax
	cmovaeq	%rax, %rbx
	movq	(%r10), %r14
	testb	%bpl, %bpl
	je	.LBB4_444
.LBB4_359:
	movzbl	%bpl, %eax
	cmpl	$2, %eax
	jne	.LBB4_562
	movzbl	%r9b, %eax
	leaq	.LJTI4_9(%rip), %rcx
	movslq	(%rcx,%rax,4), %rax
	addq	%rcx, %rax
	jmpq	*%rax
.LBB4_361:
	movl	$22, %ebp
	leaq	.Lstatic.23(%rip), %r13
	jmp	.LBB4_563
.LBB4_362:
	movl	$23, %ebp
	leaq	.Lstatic.34(%rip), %r13
	jmp	.LBB4_563
.LBB4_363:
	movl	$25, %ebp
	leaq	.Lstatic.27(%rip), %r13
	jmp	.LBB4_563
.LBB4_364:
	movl	$26, %ebp
	leaq	.Lstatic.35(%rip), %r13
	jmp	.LBB4_563
.LBB4_365:
	movl	$25, %ebp
	leaq	.Lstatic.32(%rip), %r13
	jmp	.LBB4_563
.LBB4_366:
	movl	$23, %ebp
	leaq	.Lstatic.25(%rip), %r13
	jmp	.LBB4_563
.LBB4_367:
	movl	$20, %ebp
	leaq	.Lstatic.26(%rip), %r13
	jmp	.LBB4_563
.LBB4_368:
	movl	$21, %ebp
	leaq	.Lstatic.30(%rip), %r13
	jmp	.LBB4_563
.LBB4_369:
	movl	$27, %ebp
	leaq	.Lstatic.24(%rip), %r13
	jmp	.LBB4_563
.LBB4_370:
	movl	$21, %ebp
	leaq	.Lstatic.28(%rip), %r13
	jmp	.LBB4_563
.LBB4_371:
	movl	$23, %ebp
	leaq	.Lstatic.36(%rip), %r13
	jmp	.LBB4_563
.LBB4_372:
	movl	$23, %ebp
	leaq	.Lstatic.29(%rip), %r13
	jmp	.LBB4_563
.LBB4_373:
	movl	$20, %ebp
	leaq	.Lstatic.33(%rip), %r13
	jmp	.LBB4_563
.LBB4_374:
	movl	$24, %ebp
	leaq	.Lstatic.31(%rip), %r13
	jmp	.LBB4_563
.LBB4_409:
	movq	%rbx, %rdi
	movq	%r14, %rsi
	callq	ic_program.argument.any_number
	movq	8(%rsp), %r11
	movq	%rdx, 24(%rsp)
	cmpb	$1, %al
	jne	.LBB4_415
	movq	%rbx, %rdi
	movq	%r14, %rsi
	callq	ic_program.text.after_word
	movq	%rax, %rbx
	testq	%rdx, %rdx
	je	.LBB4_689
	movq	%rdx, %r14
	movzbl	(%rbx), %ecx
	movq	8(%rsp), %r11
	leaq	128(%r11), %r10
	movq	24(%rsp), %r8
	cmpb	$32, %cl
	je	.LBB4_390
.LBB4_412:
	movq	%r8, 24(%rsp)
.LBB4_413:
	movq	%rbx, %rdi
	movq	%r14, %rsi
	callq	ic_program.text.without_space
	movq	%rax, %rbx
	movq	%rdx, %r14
	movq	8(%rsp), %r11
	leaq	128(%r11), %r10
	movq	24(%rsp), %r8
	cmpq	$5, %r14
	jae	.LBB4_391
.LBB4_414:
	movq	%r8, 24(%rsp)
	movq	%rbx, %rdi
	movq	%r14, %rsi
	callq	ic_program.argument.any_number
	movq	8(%rsp), %r11
	cmpb	$1, %al
	je	.LBB4_668
.LBB4_415:
	cmpq	$18, %r15
	jb	.LBB4_631
	movabsq	$8388367032813905262, %rax
	cmpq	%rax, 8(%r12)
	jne	.LBB4_631
	cmpq	%r13, (%r12)
	jne	.LBB4_631
	addq	$3861, %rbp
	cmpq	%rbp, 10(%r12)
	jne	.LBB4_631
	leaq	18(%r12), %rbx
	leaq	-18(%r15), %r14
	cmpq	$5, %r14
	jb	.LBB4_447
	movzbl	(%rbx), %eax
	addb	$-48, %al
	cmpb	$9, %al
	ja	.LBB4_447
	movzbl	%al, %edx
	movzbl	19(%r12), %ecx
	addb	$-48, %cl
	movl	$1, %eax
	cmpb	$9, %cl
	ja	.LBB4_427
	movzbl	%cl, %eax
	movzbl	20(%r12), %ecx
	addb	$-48, %cl
	cmpb	$9, %cl
	ja	.LBB4_426
	movzbl	%cl, %ecx
	movzbl	21(%r12), %esi
	addb	$-48, %sil
	cmpb	$10, %sil
	jae	.LBB4_459
	movzbl	22(%r12), %edi
	addb	$-48, %dil
	cmpb	$10, %dil
	jb	.LBB4_447
	movzbl	%sil, %esi
	leaq	(%rdx,%rdx,4), %rdx
	leaq	(%rax,%rdx,2), %rax
	leaq	(%rax,%rax,4), %rax
	movl	%eax, %eax
	leaq	(%rcx,%rax,2), %rax
	leaq	(%rax,%rax,4), %rax
	leaq	(%rsi,%rax,2), %rdx
	movl	$4, %eax
	movzbl	(%rbx,%rax), %ecx
	cmpl	$32, %ecx
	jne	.LBB4_428
	jmp	.LBB4_429
.LBB4_426:
	leaq	(%rdx,%rdx,4), %rcx
	leaq	(%rax,%rcx,2), %rdx
	movl	$2, %eax
.LBB4_427:
	movzbl	(%rbx,%rax), %ecx
	cmpl	$32, %ecx
	je	.LBB4_429
.LBB4_428:
	cmpl	$10, %ecx
	jne	.LBB4_447
.LBB4_429:
	addq	%rax, %rbx
	subq	%rax, %r14
	cmpb	$32, %cl
	jne	.LBB4_450
.LBB4_430:
	incq	%rbx
	decq	%r14
	cmpq	$5, %r14
	jb	.LBB4_452
.LBB4_431:
	movzbl	(%rbx), %eax
	addb	$-48, %al
	cmpb	$9, %al
	ja	.LBB4_452
	movzbl	%al, %ecx
	movzbl	1(%rbx), %eax
	leal	-48(%rax), %edi
	movl	$1, %esi
	cmpb	$9, %dil
	ja	.LBB4_438
	movzbl	%dil, %esi
	movzbl	2(%rbx), %eax
	leal	-48(%rax), %edi
	cmpb	$9, %dil
	ja	.LBB4_437
	movzbl	%dil, %edi
	movzbl	3(%rbx), %eax
	leal	-48(%rax), %r8d
	cmpb	$10, %r8b
	jae	.LBB4_460
	movzbl	4(%rbx), %eax
	leal	-48(%rax), %r9d
	cmpb	$10, %r9b
	jb	.LBB4_452
	movzbl	%r8b, %r8d
	leaq	(%rcx,%rcx,4), %rcx
	leaq	(%rsi,%rcx,2), %rcx
	leaq	(%rcx,%rcx,4), %rcx
	movl	%ecx, %ecx
	leaq	(%rdi,%rcx,2), %rcx
	leaq	(%rcx,%rcx,4), %rcx
	leaq	(%r8,%rcx,2), %rcx
	movl	$4, %esi
	cmpb	$32, %al
	jne	.LBB4_439
	jmp	.LBB4_440
.LBB4_437:
	leaq	(%rcx,%rcx,4), %rcx
	leaq	(%rsi,%rcx,2), %rcx
	movl	$2, %esi
.LBB4_438:
	cmpb	$32, %al
	je	.LBB4_440
.LBB4_439:
	movzbl	%al, %edi
	cmpl	$10, %edi
	jne	.LBB4_452
.LBB4_440:
	addq	%rsi, %rbx
	subq	%rsi, %r14
	leaq	8(,%rcx,8), %rcx
	cmpb	$10, %al
	jne	.LBB4_456
.LBB4_441:
	decq	%r14
.LBB4_442:
	leaq	112(%rsp), %rdi
	movq	%r11, %rsi
	callq	ic_world.world.World.replace_next_with.27dc223f7d016e2e
	movq	8(%rsp), %r11
	xorl	%ebx, %ebx
	movq	%r15, %rax
	subq	%r14, %rax
	cmovaeq	%rax, %rbx
	cmpb	$0, 112(%rsp)
	movq	128(%r11), %r14
	je	.LBB4_445
	movzbl	113(%rsp), %r9d
	movb	$2, %bpl
	leaq	128(%r11), %r10
	testb	%bpl, %bpl
	jne	.LBB4_359
	.p2align	4
.LBB4_444:
	movl	$3, %ebp
	leaq	.Lstatic.21(%rip), %r13
	jmp	.LBB4_563
.LBB4_445:
	movq	120(%rsp), %rdx
.LBB4_446:
	leaq	128(%r11), %r10
	jmp	.LBB4_526
.LBB4_447:
	movq	%rbx, %rdi
	movq	%r14, %rsi
	callq	ic_program.argument.any_number
	movq	8(%rsp), %r11
	cmpb	$1, %al
	jne	.LBB4_631
	movq	%rdx, %rbp
	movq	%rbx, %rdi
	movq	%r14, %rsi
	callq	ic_program.text.after_word
	movq	%rax, %rbx
	testq	%rdx, %rdx
	je	.LBB4_652
	movq	%rdx, %r14
	movzbl	(%rbx), %ecx
	movq	%rbp, %rdx
	movq	8(%rsp), %r11
	cmpb	$32, %cl
	je	.LBB4_430
.LBB4_450:
	movq	%rdx, %rbp
.LBB4_451:
	movq	%rbx, %rdi
	movq	%r14, %rsi
	callq	ic_program.text.without_space
	movq	%rax, %rbx
	movq	%rdx, %r14
	movq	%rbp, %rdx
	movq	8(%rsp), %r11
	cmpq	$5, %r14
	jae	.LBB4_431
.LBB4_452:
	movq	%rdx, %r13
	movq	%rbx, %rdi
	movq	%r14, %rsi
	callq	ic_program.argument.any_number
	movq	8(%rsp), %r11
	cmpb	$1, %al
	jne	.LBB4_631
	movq	%rdx, %rbp
	movq	%rbx, %rdi
	movq	%r14, %rsi
	callq	ic_program.text.after_word
	movq	8(%rsp), %r11
	movq	%rax, %rbx
	movq	%rbp, %rax
	shrq	$32, %rax
	jne	.LBB4_631
	movq	%rdx, %r14
	leaq	8(,%rbp,8), %rcx
	testq	%rdx, %rdx
	je	.LBB4_653
	movzbl	(%rbx), %eax
	movq	%r13, %rdx
	cmpb	$10, %al
	je	.LBB4_441
.LBB4_456:
	movq	%rcx, %rbp
	movq	%rdx, %r13
.LBB4_457:
	movq	%rbx, %rdi
	movq	%r14, %rsi
	callq	ic_program.text.other_line
	cmpb	$1, %al
	movq	8(%rsp), %r11
	jne	.LBB4_631
	subq	%rdx, %r14
	movq	%r13, %rdx
	movq	%rbp, %rcx
	jmp	.LBB4_442
.LBB4_459:
	leaq	(%rdx,%rdx,4), %rdx
	leaq	(%rax,%rdx,2), %rax
	leaq	(%rax,%rax,4), %rax
	movl	%eax, %eax
	leaq	(%rcx,%rax,2), %rdx
	movl	$3, %eax
	movzbl	(%rbx,%rax), %ecx
	cmpl	$32, %ecx
	jne	.LBB4_428
	jmp	.LBB4_429
.LBB4_460:
	leaq	(%rcx,%rcx,4), %rcx
	leaq	(%rsi,%rcx,2), %rcx
	leaq	(%rcx,%rcx,4), %rcx
	movl	%ecx, %ecx
	leaq	(%rdi,%rcx,2), %rcx
	movl	$3, %esi
	cmpb	$32, %al
	jne	.LBB4_439
	jmp	.LBB4_440
.LBB4_461:
	movq	%r8, 16(%rdx)
	jmp	.LBB4_468
.LBB4_462:
	leaq	(%r8,%r8,4), %rdx
	leaq	(%rax,%rdx,2), %rax
	leaq	(%rax,%rax,4), %rax
	movl	%eax, %eax
	leaq	(%rcx,%rax,2), %r8
	movl	$3, %eax
	movzbl	(%rbx,%rax), %ecx
	cmpl	$32, %ecx
	jne	.LBB4_388
	jmp	.LBB4_389
.LBB4_463:
	xorl	%ecx, %ecx
	jmp	.LBB4_560
.LBB4_464:
	xorl	%ecx, %ecx
	jmp	.LBB4_518
.LBB4_465:
	xorl	%eax, %eax
	jmp	.LBB4_524
.LBB4_466:
	leaq	(%rcx,%rcx,4), %rcx
	leaq	(%rdx,%rcx,2), %rcx
	leaq	(%rcx,%rcx,4), %rcx
	movl	%ecx, %ecx
	leaq	(%rsi,%rcx,2), %rcx
	movl	$3, %edx
	cmpb	$32, %al
	jne	.LBB4_400
	jmp	.LBB4_401
.LBB4_467:
	movq	%r8, -16(%r10,%r9,2)
.LBB4_468:
	testq	%r8, %r8
	movq	8(%rsp), %r11
	je	.LBB4_471
	movq	16(%rsi), %r10
	cmpb	$0, 8(%rsi)
	je	.LBB4_472
	movq	%r8, %r11
	shrq	$3, %r11
	leaq	(%r11,%r11,2), %r11
	movq	%r9, -24(%r10,%r11,8)
	movq	8(%rsp), %r11
	jmp	.LBB4_473
.LBB4_471:
	movq	%r9, 24(%rdx)
	jmp	.LBB4_473
.LBB4_472:
	movq	%r9, -8(%r10,%r8,2)
.LBB4_473:
	cmpb	$0, 8(%rsi)
	movq	16(%rsi), %rsi
	leaq	128(%r11), %r10
	je	.LBB4_475
	movq	$0, -8(%rsi,%rdi)
	jmp	.LBB4_476
.LBB4_475:
	movq	$1, -16(%rsi,%rax)
.LBB4_476:
	movq	%r8, 32(%rdx)
	movb	$1, %al
	movq	%rcx, %rdx
	jmp	.LBB4_525
.LBB4_477:
	movq	$0, 16(%rsi)
	jmp	.LBB4_514
.LBB4_478:
	movq	$0, 24(%rbx)
	jmp	.LBB4_520
.LBB4_479:
	leaq	16(%r13), %rdi
	movq	32(%r13), %rbx
	movq	40(%r13), %rcx
	movq	%rbx, %rdx
	movq	%rcx, 24(%rsp)
	callq	ic_chain.edits.LinkListBidirectional.insert_before_at.d62ae654698fb858
	movb	$9, %r9b
	testb	%al, %al
	je	.LBB4_508
	movq	%rbx, 32(%r13)
	movq	24(%rsp), %rax
	movq	%rax, 40(%r13)
	jmp	.LBB4_506
.LBB4_481:
	cmpb	$2, (%rsi)
	jne	.LBB4_699
	leaq	16(%rbx), %rdi
	addq	$8, %rsi
	xorl	%edx, %edx
	movq	%r8, %rcx
	callq	ic_chain.edits.LinkListBidirectional.insert_before_at.10cc405e52586c83
	movb	$9, %r9b
	testb	%al, %al
	je	.LBB4_508
	movq	$0, 32(%rbx)
	jmp	.LBB4_506
.LBB4_484:
	cmpb	$2, (%rsi)
	jne	.LBB4_699
	cmpb	$1, 8(%rsi)
	jne	.LBB4_699
	leaq	16(%r13), %rdi
	addq	$16, %rsi
	movq	24(%r13), %rbx
	movq	%rbx, %rdx
	movq	%r8, %rcx
	callq	ic_rbtree.edits.RBTreeBidirectional.insert_before_at.b002bc248359831b
	jmp	.LBB4_498
.LBB4_487:
	leaq	16(%r13), %rdi
	movups	32(%r13), %xmm0
	movaps	%xmm0, 32(%rsp)
	leaq	32(%rsp), %rdx
	callq	ic_chain.edits.LinkListCursorOps.insert_after_at.0649bf66f9d3822c
	testb	%al, %al
	je	.LBB4_507
	movaps	32(%rsp), %xmm0
	movups	%xmm0, 32(%r13)
	jmp	.LBB4_506
.LBB4_489:
	cmpb	$2, (%rsi)
	jne	.LBB4_699
	leaq	16(%r13), %rdi
	addq	$8, %rsi
	movq	32(%r13), %rbx
	movq	%rbx, %rdx
	movq	%r8, %rcx
	callq	ic_chain.edits.LinkListBidirectional.insert_before_at.10cc405e52586c83
	movb	$9, %r9b
	testb	%al, %al
	je	.LBB4_508
	movq	%rbx, 32(%r13)
	jmp	.LBB4_506
.LBB4_492:
	cmpb	$2, (%rsi)
	jne	.LBB4_699
	leaq	16(%rbx), %rdi
	addq	$8, %rsi
	movq	$0, 32(%rsp)
	leaq	32(%rsp), %rdx
	callq	ic_chain.edits.LinkListCursorOps.insert_after_at.ff97facb44bf5e09
	testb	%al, %al
	je	.LBB4_507
	movq	32(%rsp), %rax
	movq	%rax, 32(%rbx)
	jmp	.LBB4_506
.LBB4_495:
	cmpb	$2, (%rsi)
	jne	.LBB4_699
	cmpb	$1, 8(%rsi)
	jne	.LBB4_699
	leaq	16(%r13), %rdi
	addq	$16, %rsi
	movq	24(%r13), %rbx
	movq	%rbx, %rdx
	callq	ic_rbtree.edits.RBTreeCursorOps.insert_after_at.b002bc248359831b
.LBB4_498:
	movb	$9, %r9b
	testb	%al, %al
	je	.LBB4_508
	movq	%rbx, 24(%r13)
	jmp	.LBB4_506
.LBB4_500:
	cmpb	$2, (%rsi)
	jne	.LBB4_699
	leaq	16(%r13), %rdi
	addq	$8, %rsi
	movq	32(%r13), %rax
	movq	%rax, 32(%rsp)
	leaq	32(%rsp), %rdx
	callq	ic_chain.edits.LinkListCursorOps.insert_after_at.ff97facb44bf5e09
	testb	%al, %al
	je	.LBB4_507
	movq	32(%rsp), %rax
	movq	%rax, 32(%r13)
	jmp	.LBB4_506
.LBB4_503:
	leaq	16(%rbx), %rdi
	xorps	%xmm0, %xmm0
	movaps	%xmm0, 32(%rsp)
	leaq	32(%rsp), %rdx
	callq	ic_chain.edits.LinkListCursorOps.insert_after_at.0649bf66f9d3822c
	testb	%al, %al
	je	.LBB4_507
	movaps	32(%rsp), %xmm0
.LBB4_505:
	movups	%xmm0, 32(%rbx)
.LBB4_506:
	xorl	%ebp, %ebp
	xorl	%r9d, %r9d
	jmp	.LBB4_508
.LBB4_507:
	movb	$9, %r9b
.LBB4_508:
	movq	8(%rsp), %r11
	leaq	128(%r11), %r10
	jmp	.LBB4_358
.LBB4_509:
	cmpb	$0, 8(%rcx,%rdx)
	movq	16(%rcx,%rdx), %r9
	je	.LBB4_551
	movq	%rdi, %r8
	shrq	$3, %r8
	leaq	(%r8,%r8,2), %r8
	movq	-16(%r9,%r8,8), %r8
	testq	%r8, %r8
	je	.LBB4_553
	movq	%r8, %r10
	shrq	$3, %r10
	leaq	(%r10,%r10,2), %r10
	xorq	%rdi, -16(%r9,%r10,8)
	leaq	128(%r11), %r10
	jmp	.LBB4_554
.LBB4_513:
	movq	$0, -16(%r9,%r10,2)
.LBB4_514:
	movq	8(%rsp), %r11
	movq	%r10, 24(%rsi)
	cmpb	$0, 8(%rcx,%rdx)
	movq	16(%rcx,%rdx), %rcx
	je	.LBB4_516
	movq	$0, -8(%rcx,%r8)
	jmp	.LBB4_517
.LBB4_516:
	leaq	(%rdi,%rdi), %rdx
	movq	$1, -16(%rcx,%rdx)
.LBB4_517:
	movb	$1, %cl
.LBB4_518:
	leaq	128(%r11), %r10
	movq	$0, (%rax)
	xorl	%edx, %edx
	testb	%cl, %cl
	cmovneq	%rdi, %rdx
	jmp	.LBB4_561
.LBB4_519:
	movq	$0, -8(%r8,%rdi,2)
.LBB4_520:
	cmpb	$0, 8(%rsi)
	movq	16(%rsi), %rsi
	je	.LBB4_522
	movq	$0, -8(%rsi,%rdx)
	jmp	.LBB4_523
.LBB4_522:
	movq	$1, -16(%rsi,%rax)
.LBB4_523:
	movb	$1, %al
.LBB4_524:
	movq	$0, 32(%rbx)
	xorl	%edx, %edx
	testb	%al, %al
	cmovneq	%rcx, %rdx
.LBB4_525:
	xorl	%ebx, %ebx
	movq	%r15, %rcx
	subq	%r14, %rcx
	cmovaeq	%rcx, %rbx
	movq	(%r10), %r14
	cmpb	$1, %al
	jne	.LBB4_562
.LBB4_526:
	movq	%rdx, %rcx
	shrq	$3, %rcx
	decq	%rcx
	cmpq	$8007, %rdx
	ja	.LBB4_529
	movzwl	%cx, %eax
	imull	$52429, %eax, %esi
	shrl	$19, %esi
	leal	(%rsi,%rsi), %edi
	leal	(%rdi,%rdi,4), %edi
	subl	%edi, %ecx
	orb	$48, %cl
	cmpq	$88, %rdx
	jae	.LBB4_530
	movl	$9, %r13d
	movb	$10, %bpl
	xorl	%r9d, %r9d
	movl	%ecx, %r8d
	xorl	%ecx, %ecx
	jmp	.LBB4_533
.LBB4_529:
	leaq	.Lstatic.37(%rip), %rsi
	leaq	.Lstatic.38(%rip), %r8
	movl	$7, %edx
	movl	$1, %r9d
	movq	64(%rsp), %rdi
	callq	ic_program.answers.push_numbered.714b863a58920bda
	movq	8(%rsp), %r11
	leaq	128(%r11), %r10
	jmp	.LBB4_537
.LBB4_530:
	movzbl	%sil, %ebp
	imull	$205, %ebp, %esi
	shrl	$10, %esi
	andl	$-2, %esi
	leal	(%rsi,%rsi,4), %esi
	subb	%sil, %bpl
	orb	$48, %bpl
	cmpq	$808, %rdx
	jae	.LBB4_532
	movl	$10, %r13d
	xorl	%r9d, %r9d
	movl	%ebp, %r8d
	movl	%ecx, %ebp
	movb	$10, %cl
	jmp	.LBB4_533
.LBB4_532:
	shrl	$2, %eax
	imull	$5243, %eax, %r8d
	shrl	$17, %r8d
	orb	$48, %r8b
	movl	$11, %r13d
	movb	$10, %r9b
.LBB4_533:
	movq	136(%r11), %rax
	movq	%rax, %rsi
	subq	%r14, %rsi
	movq	%r14, %rdx
	cmpq	$10, %rsi
	jbe	.LBB4_541
.LBB4_534:
	leaq	11(%rdx), %rsi
	movq	120(%r11), %rdi
	movl	$1701470831, (%rdi,%rdx)
	movw	$29795, 4(%rdi,%rdx)
	movb	$32, 6(%rdi,%rdx)
	movb	%r8b, 7(%rdi,%rdx)
	movb	%bpl, 8(%rdi,%rdx)
	movb	%cl, 9(%rdi,%rdx)
	movb	%r9b, 10(%rdi,%rdx)
	movq	%rdi, 120(%r11)
	movq	%rsi, 128(%r11)
	movq	%rax, 136(%r11)
	addq	%r14, %r13
	cmpq	%r13, %rsi
	jbe	.LBB4_536
	movq	%r13, (%r10)
.LBB4_536:
	xorl	%eax, %eax
.LBB4_537:
	testb	%al, %al
	je	.LBB4_633
	jmp	.LBB4_538
.LBB4_541:
	movl	%r9d, 76(%rsp)
	movl	%r8d, 16(%rsp)
	movq	%rcx, 24(%rsp)
	movl	$11, %esi
	movq	64(%rsp), %rdi
	callq	std_alloc.vec.Vec.grow_amortized.3f7cc1ad5d64d7d7
	movq	8(%rsp), %r11
	leaq	128(%r11), %r10
	movl	%eax, %ecx
	movb	$1, %al
	testb	%cl, %cl
	je	.LBB4_537
	movq	128(%r11), %rdx
	movq	136(%r11), %rax
	movq	24(%rsp), %rcx
	movl	16(%rsp), %r8d
	movl	76(%rsp), %r9d
	jmp	.LBB4_534
.LBB4_543:
	xorl	%r14d, %r14d
.LBB4_544:
	movq	%rbp, %rdi
	movq	%r14, %rsi
	callq	ic_program.text.other_line
	cmpb	$1, %al
	movq	8(%rsp), %r11
	leaq	128(%r11), %r10
	jne	.LBB4_631
	subq	%rdx, %r14
	movb	$1, %r9b
	movb	$2, %bpl
	cmpq	%rbx, 80(%r11)
	ja	.LBB4_135
	jmp	.LBB4_358
.LBB4_546:
	movq	16(%r13), %rdi
	leaq	8(%rsi), %rdx
	cmpl	$2, %r8d
	je	.LBB4_654
	cmpl	$1, %r8d
	movq	(%rdx), %r8
.LBB4_549:
	movb	$9, %r9b
	cmpq	$1, -8(%r8,%rcx)
	jne	.LBB4_358
	movq	%rdi, -8(%r8,%rcx)
	jmp	.LBB4_658
.LBB4_551:
	movq	-16(%r9,%rdi,2), %r8
	testq	%r8, %r8
	je	.LBB4_553
	xorq	%rdi, -16(%r9,%r8,2)
	jmp	.LBB4_554
.LBB4_553:
	movq	$0, 16(%rsi)
	xorl	%r8d, %r8d
.LBB4_554:
	movq	%r8, 24(%rsi)
	movzbl	(%rcx,%rdx), %esi
	cmpl	$2, %esi
	je	.LBB4_556
	cmpl	$1, %esi
	movq	8(%rcx,%rdx), %rcx
	movq	$1, -8(%rcx,%rdi)
	jmp	.LBB4_559
.LBB4_556:
	cmpb	$0, 8(%rcx,%rdx)
	movq	16(%rcx,%rdx), %rcx
	je	.LBB4_558
	movq	%rdi, %rdx
	shrq	$3, %rdx
	leaq	(%rdx,%rdx,2), %rdx
	movq	$0, -8(%rcx,%rdx,8)
	jmp	.LBB4_559
.LBB4_558:
	movq	$1, -16(%rcx,%rdi,2)
.LBB4_559:
	movb	$1, %cl
.LBB4_560:
	xorl	%edx, %edx
	testb	%cl, %cl
	cmovneq	%rdi, %rdx
	xorps	%xmm0, %xmm0
	movups	%xmm0, (%rax)
.LBB4_561:
	xorl	%ebx, %ebx
	movq	%r15, %rax
	subq	%r14, %rax
	cmovaeq	%rax, %rbx
	movq	(%r10), %r14
	testb	%cl, %cl
	jne	.LBB4_526
	.p2align	4
.LBB4_562:
	movl	$5, %ebp
	leaq	.Lstatic.22(%rip), %r13
.LBB4_563:
	movq	136(%r11), %rax
	movq	%rax, %rdx
	subq	%r14, %rdx
	movq	%r14, %rcx
	cmpq	$31, %rdx
	jbe	.LBB4_569
.LBB4_564:
	movq	64(%rsp), %rdx
	movq	(%rdx), %rdx
	xorps	%xmm0, %xmm0
	movups	%xmm0, (%r10)
	leaq	(%rdx,%rcx), %rsi
	movq	%rsi, %rdi
	subq	%r13, %rdi
	cmpq	$31, %rdi
	ja	.LBB4_566
	movzbl	(%r13), %edi
	movb	%dil, (%rsi)
	movzbl	1(%r13), %edi
	movb	%dil, 1(%rsi)
	movzbl	2(%r13), %edi
	movb	%dil, 2(%rsi)
	movzbl	3(%r13), %edi
	movb	%dil, 3(%rsi)
	movzbl	4(%r13), %edi
	movb	%dil, 4(%rsi)
	movzbl	5(%r13), %edi
	movb	%dil, 5(%rsi)
	movzbl	6(%r13), %edi
	movb	%dil, 6(%rsi)
	movzbl	7(%r13), %edi
	movb	%dil, 7(%rsi)
	movzbl	8(%r13), %edi
	movb	%dil, 8(%rsi)
	movzbl	9(%r13), %edi
	movb	%dil, 9(%rsi)
	movzbl	10(%r13), %edi
	movb	%dil, 10(%rsi)
	movzbl	11(%r13), %edi
	movb	%dil, 11(%rsi)
	movzbl	12(%r13), %edi
	movb	%dil, 12(%rsi)
	movzbl	13(%r13), %edi
	movb	%dil, 13(%rsi)
	movzbl	14(%r13), %edi
	movb	%dil, 14(%rsi)
	movzbl	15(%r13), %edi
	movb	%dil, 15(%rsi)
	movzbl	16(%r13), %edi
	movb	%dil, 16(%rsi)
	movzbl	17(%r13), %edi
	movb	%dil, 17(%rsi)
	movzbl	18(%r13), %edi
	movb	%dil, 18(%rsi)
	movzbl	19(%r13), %edi
	movb	%dil, 19(%rsi)
	movzbl	20(%r13), %edi
	movb	%dil, 20(%rsi)
	movzbl	21(%r13), %edi
	movb	%dil, 21(%rsi)
	movzbl	22(%r13), %edi
	movb	%dil, 22(%rsi)
	movzbl	23(%r13), %edi
	movb	%dil, 23(%rsi)
	movzbl	24(%r13), %edi
	movb	%dil, 24(%rsi)
	movzbl	25(%r13), %edi
	movb	%dil, 25(%rsi)
	movzbl	26(%r13), %edi
	movb	%dil, 26(%rsi)
	movzbl	27(%r13), %edi
	movb	%dil, 27(%rsi)
	movzbl	28(%r13), %edi
	movb	%dil, 28(%rsi)
	movzbl	29(%r13), %edi
	movb	%dil, 29(%rsi)
	movzbl	30(%r13), %edi
	movb	%dil, 30(%rsi)
	movzbl	31(%r13), %edi
	movb	%dil, 31(%rsi)
	jmp	.LBB4_567
	.p2align	4
.LBB4_566:
	movups	(%r13), %xmm0
	movups	16(%r13), %xmm1
	movups	%xmm1, 16(%rsi)
	movups	%xmm0, (%rsi)
.LBB4_567:
	addq	$32, %rcx
	movq	%rdx, 120(%r11)
	movq	%rcx, 128(%r11)
	movq	%rax, 136(%r11)
	addq	%r14, %rbp
	cmpq	%rbp, %rcx
	jbe	.LBB4_633
	movq	%rbp, (%r10)
	jmp	.LBB4_633
.LBB4_569:
	movl	$32, %esi
	movq	64(%rsp), %rdi
	callq	std_alloc.vec.Vec.grow_amortized.3f7cc1ad5d64d7d7
	movq	8(%rsp), %r11
	leaq	128(%r11), %r10
	movq	(%r10), %rcx
	testb	%al, %al
	je	.LBB4_539
	movq	136(%r11), %rax
	jmp	.LBB4_564
.LBB4_571:
	cmpb	$0, 8(%rsi)
	movq	16(%rsi), %rsi
	je	.LBB4_663
	shlq	$3, %rax
	leaq	(%rax,%rax,2), %rax
	movb	$9, %r9b
	testb	$2, -8(%rsi,%rax)
	jne	.LBB4_358
	movq	$3, -8(%rsi,%rax)
	movq	%rdx, -16(%rsi,%rax)
	jmp	.LBB4_665
.LBB4_574:
	xorl	%r14d, %r14d
.LBB4_575:
	movq	%rbp, %rdi
	movq	%r14, %rsi
	callq	ic_program.text.other_line
	cmpb	$1, %al
	movq	8(%rsp), %r11
	leaq	128(%r11), %r10
	jne	.LBB4_631
	subq	%rdx, %r14
	movb	$1, %r9b
	movb	$2, %bpl
	cmpq	%rbx, 80(%r11)
	ja	.LBB4_151
	jmp	.LBB4_358
.LBB4_577:
	xorl	%r14d, %r14d
.LBB4_578:
	movq	%rbp, %rdi
	movq	%r14, %rsi
	callq	ic_program.text.other_line
	cmpb	$1, %al
	movq	8(%rsp), %r11
	leaq	128(%r11), %r10
	jne	.LBB4_631
	subq	%rdx, %r14
	movb	$1, %r9b
	cmpq	%rbx, 80(%r11)
	ja	.LBB4_159
	jmp	.LBB4_357
.LBB4_580:
	xorl	%r14d, %r14d
.LBB4_581:
	movq	%rbx, %rdi
	movq	%r14, %rsi
	callq	ic_program.text.without_space
	movq	%rax, %rbx
	movq	%rdx, %r14
	movq	8(%rsp), %r11
	leaq	128(%r11), %r10
	cmpq	$5, %r14
	jae	.LBB4_167
.LBB4_582:
	movq	%rbx, %rdi
	movq	%r14, %rsi
	callq	ic_program.argument.any_number
	movq	8(%rsp), %r11
	cmpb	$1, %al
	jne	.LBB4_631
	movq	%rdx, %rbp
	movq	%rbx, %rdi
	movq	%r14, %rsi
	callq	ic_program.text.after_word
	movq	8(%rsp), %r11
	leaq	128(%r11), %r10
	movq	%rax, %rbx
	movq	%rbp, %rax
	shrq	$32, %rax
	jne	.LBB4_631
	movq	%rdx, %r14
	leaq	8(,%rbp,8), %r8
	testq	%rdx, %rdx
	je	.LBB4_636
	movzbl	(%rbx), %eax
	cmpb	$10, %al
	je	.LBB4_256
.LBB4_586:
	movq	%r8, %rbp
.LBB4_587:
	movq	%rbx, %rdi
	movq	%r14, %rsi
	callq	ic_program.text.other_line
	cmpb	$1, %al
	movq	8(%rsp), %r11
	leaq	128(%r11), %r10
	jne	.LBB4_631
	subq	%rdx, %r14
	movq	%rbp, %r8
	movb	$1, %r9b
	movb	$2, %bpl
	cmpq	%r13, 80(%r11)
	ja	.LBB4_257
	jmp	.LBB4_358
.LBB4_589:
	xorl	%r14d, %r14d
.LBB4_590:
	movq	%rbp, %rdi
	movq	%r14, %rsi
	callq	ic_program.text.other_line
	cmpb	$1, %al
	movq	8(%rsp), %r11
	leaq	128(%r11), %r10
	jne	.LBB4_631
	subq	%rdx, %r14
	movb	$1, %r9b
	movb	$2, %bpl
	cmpq	%rbx, 80(%r11)
	ja	.LBB4_178
	jmp	.LBB4_358
.LBB4_592:
	xorl	%r14d, %r14d
.LBB4_593:
	movq	%rbx, %rdi
	movq	%r14, %rsi
	callq	ic_program.text.without_space
	movq	%rax, %rbx
	movq	%rdx, %r14
	movq	8(%rsp), %r11
	leaq	128(%r11), %r10
	cmpq	$5, %r14
	jae	.LBB4_190
.LBB4_594:
	movq	%rbx, %rdi
	movq	%r14, %rsi
	callq	ic_program.argument.any_number
	movq	8(%rsp), %r11
	cmpb	$1, %al
	jne	.LBB4_631
	movq	%rdx, %rbp
	movq	%rbx, %rdi
	movq	%r14, %rsi
	callq	ic_program.text.after_word
	movq	8(%rsp), %r11
	leaq	128(%r11), %r10
	movq	%rax, %rbx
	movq	%rbp, %rax
	shrq	$32, %rax
	jne	.LBB4_631
	movq	%rdx, %r14
	leaq	8(,%rbp,8), %r8
	testq	%rdx, %rdx
	je	.LBB4_637
	movzbl	(%rbx), %eax
	cmpb	$10, %al
	je	.LBB4_268
.LBB4_598:
	movq	%r8, %rbp
.LBB4_599:
	movq	%rbx, %rdi
	movq	%r14, %rsi
	callq	ic_program.text.other_line
	cmpb	$1, %al
	movq	8(%rsp), %r11
	leaq	128(%r11), %r10
	jne	.LBB4_631
	subq	%rdx, %r14
	movq	%rbp, %r8
	movb	$1, %r9b
	movb	$2, %bpl
	cmpq	%r13, 80(%r11)
	ja	.LBB4_269
	jmp	.LBB4_358
.LBB4_601:
	xorl	%r14d, %r14d
.LBB4_602:
	movq	%rbx, %rdi
	movq	%r14, %rsi
	callq	ic_program.text.without_space
	movq	%rax, %rbx
	movq	%rdx, %r14
	movq	8(%rsp), %r11
	leaq	128(%r11), %r10
	cmpq	$5, %r14
	jae	.LBB4_201
.LBB4_603:
	movq	%rbx, %rdi
	movq	%r14, %rsi
	callq	ic_program.argument.any_number
	movq	8(%rsp), %r11
	cmpb	$1, %al
	jne	.LBB4_631
	movq	%rdx, %rbp
	movq	%rbx, %rdi
	movq	%r14, %rsi
	callq	ic_program.text.after_word
	movq	8(%rsp), %r11
	leaq	128(%r11), %r10
	movq	%rax, %rbx
	movq	%rbp, %rax
	shrq	$32, %rax
	jne	.LBB4_631
	movq	%rdx, %r14
	leaq	8(,%rbp,8), %rcx
	testq	%rdx, %rdx
	je	.LBB4_638
	movzbl	(%rbx), %eax
	cmpb	$10, %al
	je	.LBB4_278
.LBB4_607:
	movq	%rcx, %rbp
.LBB4_608:
	movq	%rbx, %rdi
	movq	%r14, %rsi
	callq	ic_program.text.other_line
	cmpb	$1, %al
	movq	8(%rsp), %r11
	leaq	128(%r11), %r10
	jne	.LBB4_631
	subq	%rdx, %r14
	movq	%rbp, %rcx
	movb	$1, %r9b
	movb	$2, %bpl
	cmpq	%r13, 80(%r11)
	ja	.LBB4_279
	jmp	.LBB4_358
.LBB4_610:
	xorl	%r14d, %r14d
.LBB4_611:
	movq	%rbx, %rdi
	movq	%r14, %rsi
	callq	ic_program.text.without_space
	movq	%rax, %rbx
	movq	%rdx, %r14
	movq	8(%rsp), %r11
	leaq	128(%r11), %r10
	cmpq	$5, %r14
	jae	.LBB4_212
.LBB4_612:
	movq	%rbx, %rdi
	movq	%r14, %rsi
	callq	ic_program.argument.any_number
	movq	8(%rsp), %r11
	cmpb	$1, %al
	jne	.LBB4_631
	movq	%rdx, %rbp
	movq	%rbx, %rdi
	movq	%r14, %rsi
	callq	ic_program.text.after_word
	movq	8(%rsp), %r11
	leaq	128(%r11), %r10
	movq	%rax, %rbx
	movq	%rbp, %rax
	shrq	$32, %rax
	jne	.LBB4_631
	movq	%rdx, %r14
	leaq	8(,%rbp,8), %rcx
	testq	%rdx, %rdx
	je	.LBB4_639
	movzbl	(%rbx), %eax
	cmpb	$10, %al
	je	.LBB4_291
.LBB4_616:
	movq	%rcx, %rbp
.LBB4_617:
	movq	%rbx, %rdi
	movq	%r14, %rsi
	callq	ic_program.text.other_line
	cmpb	$1, %al
	movq	8(%rsp), %r11
	leaq	128(%r11), %r10
	jne	.LBB4_631
	subq	%rdx, %r14
	movq	%rbp, %rcx
	movb	$1, %r9b
	movb	$2, %bpl
	cmpq	%r13, 80(%r11)
	ja	.LBB4_292
	jmp	.LBB4_358
.LBB4_619:
	xorl	%r14d, %r14d
.LBB4_620:
	movq	%rbp, %rdi
	movq	%r14, %rsi
	callq	ic_program.text.other_line
	cmpb	$1, %al
	movq	8(%rsp), %r11
	leaq	128(%r11), %r10
	jne	.LBB4_631
	subq	%rdx, %r14
	movb	$1, %r9b
	movb	$2, %bpl
	cmpq	%rbx, 80(%r11)
	ja	.LBB4_223
	jmp	.LBB4_358
.LBB4_622:
	xorl	%r14d, %r14d
.LBB4_623:
	movq	%rbp, %rdi
	movq	%r14, %rsi
	callq	ic_program.text.other_line
	cmpb	$1, %al
	movq	8(%rsp), %r11
	leaq	128(%r11), %r10
	jne	.LBB4_631
	subq	%rdx, %r14
	movb	$1, %r9b
	movb	$2, %bpl
	cmpq	%rbx, 80(%r11)
	ja	.LBB4_231
	jmp	.LBB4_358
.LBB4_625:
	xorl	%r14d, %r14d
.LBB4_626:
	movq	%rbp, %rdi
	movq	%r14, %rsi
	callq	ic_program.text.other_line
	cmpb	$1, %al
	movq	8(%rsp), %r11
	leaq	128(%r11), %r10
	jne	.LBB4_631
	subq	%rdx, %r14
	movb	$1, %r9b
	movb	$2, %bpl
	cmpq	%rbx, 80(%r11)
	ja	.LBB4_239
	jmp	.LBB4_358
.LBB4_628:
	xorl	%r14d, %r14d
.LBB4_629:
	movq	%rbp, %rdi
	movq	%r14, %rsi
	callq	ic_program.text.other_line
	cmpb	$1, %al
	movq	8(%rsp), %r11
	leaq	128(%r11), %r10
	jne	.LBB4_631
	subq	%rdx, %r14
	movb	$1, %r9b
	movb	$2, %bpl
	cmpq	%rbx, 80(%r11)
	ja	.LBB4_249
	jmp	.LBB4_358
	.p2align	4
.LBB4_631:
	leaq	80(%rsp), %rdi
	movq	%r11, %rsi
	movq	%r12, %rdx
	movq	%r15, %rcx
	movq	%r11, %r14
	callq	ic_program.session.Session.answer_other.40a73cb1e87492e9
	movq	88(%rsp), %rbx
	cmpb	$0, 80(%rsp)
	jne	.LBB4_695
	leaq	128(%r14), %r10
	movq	%r14, %r11
.LBB4_633:
	xorps	%xmm0, %xmm0
	movaps	%xmm0, 96(%rsp)
	movaps	%xmm0, 80(%rsp)
	cmpq	$65536, (%r10)
	ja	.LBB4_696
.LBB4_634:
	addq	%rbx, %r12
	subq	%rbx, %r15
	jne	.LBB4_2
	jmp	.LBB4_635
.LBB4_696:
	leaq	80(%rsp), %rdi
	movq	%r11, %rsi
	movq	128(%rsp), %rdx
	callq	ic_program.session.Session.write_some.61c60e3f83b1098c
	movq	8(%rsp), %r11
	leaq	128(%r11), %r10
	cmpb	$0, 80(%rsp)
	je	.LBB4_634
	jmp	.LBB4_697
.LBB4_636:
	movq	%r8, %rbp
	xorl	%r14d, %r14d
	jmp	.LBB4_587
.LBB4_637:
	movq	%r8, %rbp
	xorl	%r14d, %r14d
	jmp	.LBB4_599
.LBB4_638:
	movq	%rcx, %rbp
	xorl	%r14d, %r14d
	jmp	.LBB4_608
.LBB4_639:
	movq	%rcx, %rbp
	xorl	%r14d, %r14d
	jmp	.LBB4_617
.LBB4_640:
	leaq	16(%rdx), %rdi
	movq	32(%rdx), %rbx
	addq	$32, %rdx
	movq	16(%rsp), %rcx
	callq	ic_chain.edits.LinkListBidirectional.replace_at.d62ae654698fb858
.LBB4_641:
	movq	%rbx, %rdx
	testq	%rbx, %rbx
	movq	8(%rsp), %r11
	leaq	128(%r11), %r10
	je	.LBB4_643
	testb	%al, %al
	jne	.LBB4_688
.LBB4_643:
	xorl	%eax, %eax
	testq	%rdx, %rdx
	setne	%al
	leal	(%rax,%rax,2), %r9d
	addl	$6, %r9d
	jmp	.LBB4_358
.LBB4_644:
	cmpb	$2, (%rsi)
	jne	.LBB4_699
	cmpb	$1, 8(%rsi)
	jne	.LBB4_699
	movq	24(%rdx), %rdi
	testq	%rdi, %rdi
	je	.LBB4_676
	movq	%rdi, %rax
	movq	16(%rsi), %r8
	shlq	$3, %rcx
	leaq	(%rcx,%rcx,2), %rdi
	movb	$9, %r9b
	testb	$2, -8(%r8,%rdi)
	jne	.LBB4_358
	movq	$3, -8(%r8,%rdi)
	movq	16(%rsi), %r11
	leaq	(%rax,%rax,2), %rcx
	movq	-8(%r11,%rcx), %r8
	movq	-24(%r11,%rcx), %r10
	movq	-16(%r11,%rcx), %r9
	cmpq	$8, %r8
	jae	.LBB4_680
	movq	16(%rsp), %r11
	movq	%r11, 16(%rdx)
	jmp	.LBB4_683
.LBB4_650:
	movzbl	8(%rsi), %r9d
	leaq	(%rax,%rax), %rdi
	testb	%r9b, %r9b
	movq	16(%rsi), %r8
	leaq	(%rax,%rax,2), %r10
	cmoveq	%rdi, %r10
	movq	-16(%r8,%r10), %rdi
	leaq	128(%r11), %r10
	jmp	.LBB4_655
.LBB4_652:
	xorl	%r14d, %r14d
	jmp	.LBB4_451
.LBB4_653:
	movq	%rcx, %rbp
	xorl	%r14d, %r14d
	jmp	.LBB4_457
.LBB4_654:
	movzbl	8(%rsi), %r9d
	movq	16(%rsi), %r8
.LBB4_655:
	testb	%r9b, %r9b
	je	.LBB4_661
	shlq	$3, %rbx
	leaq	(%rbx,%rbx,2), %rbx
	movb	$9, %r9b
	testb	$2, -8(%r8,%rbx)
	jne	.LBB4_358
	movq	$3, -8(%r8,%rbx)
	movq	%rdi, -16(%r8,%rbx)
	jmp	.LBB4_658
.LBB4_661:
	movb	$9, %r9b
	cmpq	$1, -16(%r8,%rcx,2)
	jne	.LBB4_358
	movq	%rdi, -16(%r8,%rcx,2)
.LBB4_658:
	testq	%rax, %rax
	je	.LBB4_667
	movzbl	(%rsi), %edi
	cmpl	$2, %edi
	je	.LBB4_674
	cmpl	$1, %edi
	movq	(%rdx), %rdx
	movq	%rcx, -8(%rdx,%rax)
	jmp	.LBB4_678
.LBB4_667:
	movq	%rcx, 16(%r13)
	jmp	.LBB4_678
.LBB4_663:
	movb	$9, %r9b
	cmpq	$1, -16(%rsi,%rcx,2)
	jne	.LBB4_358
	movq	%rdx, -16(%rsi,%rcx,2)
.LBB4_665:
	movq	%rcx, 16(%rbx)
	movq	$0, 24(%rbx)
	jmp	.LBB4_679
.LBB4_668:
	movq	%rbx, %rdi
	movq	%r14, %rsi
	movq	%rdx, 16(%rsp)
	callq	ic_program.text.after_word
	movq	8(%rsp), %r11
	leaq	128(%r11), %r10
	movq	%rax, %rbx
	movq	16(%rsp), %rcx
	movq	%rcx, %rax
	shrq	$32, %rax
	jne	.LBB4_415
	movq	%rdx, %r14
	leaq	8(,%rcx,8), %rdi
	testq	%rdx, %rdx
	je	.LBB4_690
	movzbl	(%rbx), %eax
	movq	24(%rsp), %r8
	cmpb	$10, %al
	je	.LBB4_402
.LBB4_671:
	movq	%rdi, 16(%rsp)
	movq	%r8, 24(%rsp)
.LBB4_672:
	movq	%rbx, %rdi
	movq	%r14, %rsi
	callq	ic_program.text.other_line
	cmpb	$1, %al
	movq	8(%rsp), %r11
	leaq	128(%r11), %r10
	jne	.LBB4_415
	subq	%rdx, %r14
	movq	24(%rsp), %r8
	movq	16(%rsp), %rdi
	movb	$1, %r9b
	movb	$2, %bpl
	cmpq	%r8, 80(%r11)
	jbe	.LBB4_358
	jmp	.LBB4_403
.LBB4_674:
	cmpb	$0, 8(%rsi)
	movq	16(%rsi), %rsi
	je	.LBB4_677
	movq	%rax, %rdx
	shrq	$3, %rdx
	leaq	(%rdx,%rdx,2), %rdx
	movq	%rcx, -16(%rsi,%rdx,8)
	jmp	.LBB4_678
.LBB4_676:
	movb	$6, %r9b
	jmp	.LBB4_358
.LBB4_677:
	movq	%rcx, -16(%rsi,%rax,2)
.LBB4_678:
	movq	%rax, 24(%r13)
.LBB4_679:
	xorl	%ebp, %ebp
	xorl	%r9d, %r9d
	jmp	.LBB4_358
.LBB4_680:
	movq	%r8, %rbx
	andq	$-8, %rbx
	leaq	(%rbx,%rbx,2), %rbx
	cmpq	%rax, -24(%r11,%rbx)
	jne	.LBB4_682
	movq	16(%rsp), %r13
	movq	%r13, -24(%r11,%rbx)
	jmp	.LBB4_683
.LBB4_682:
	movq	16(%rsp), %r13
	movq	%r13, -16(%r11,%rbx)
.LBB4_683:
	testq	%r10, %r10
	je	.LBB4_685
	movq	16(%rsi), %r11
	movq	%r10, %rbx
	shrq	$3, %rbx
	leaq	(%rbx,%rbx,2), %rbx
	movq	-8(%r11,%rbx,8), %r13
	andl	$7, %r13d
	orq	16(%rsp), %r13
	movq	%r13, -8(%r11,%rbx,8)
.LBB4_685:
	testq	%r9, %r9
	movq	16(%rsp), %rbp
	je	.LBB4_687
	movq	16(%rsi), %r11
	movq	%r9, %rbx
	shrq	$3, %rbx
	leaq	(%rbx,%rbx,2), %rbx
	movq	-8(%r11,%rbx,8), %r13
	andl	$7, %r13d
	orq	%rbp, %r13
	movq	%r13, -8(%r11,%rbx,8)
.LBB4_687:
	movq	16(%rsi), %r11
	movq	%r10, -24(%r11,%rdi)
	movq	16(%rsi), %r10
	movq	%r9, -16(%r10,%rdi)
	movq	16(%rsi), %r9
	andq	$-7, %r8
	orq	$2, %r8
	movq	%r8, -8(%r9,%rdi)
	movq	16(%rsi), %rsi
	movq	$0, -8(%rsi,%rcx)
	movq	%rbp, 24(%rdx)
	movq	%rax, %rdx
	movq	8(%rsp), %r11
	leaq	128(%r11), %r10
.LBB4_688:
	xorl	%ebx, %ebx
	movq	%r15, %rax
	subq	%r14, %rax
	cmovaeq	%rax, %rbx
	movq	(%r10), %r14
	jmp	.LBB4_526
.LBB4_689:
	xorl	%r14d, %r14d
	jmp	.LBB4_413
.LBB4_690:
	movq	%rdi, 16(%rsp)
	xorl	%r14d, %r14d
	jmp	.LBB4_672
.LBB4_635:
	movq	56(%rsp), %rax
	movb	$0, (%rax)
	xorps	%xmm0, %xmm0
	movups	%xmm0, 8(%rax)
	movq	$0, 24(%rax)
	jmp	.LBB4_694
.LBB4_691:
	movq	$-1, %rcx
	movl	$1, %eax
.LBB4_692:
	movq	56(%rsp), %rdx
.LBB4_693:
	movb	$1, (%rdx)
	movq	%rsi, 8(%rdx)
	movq	%rax, 16(%rdx)
	movq	%rcx, 24(%rdx)
.LBB4_694:
	addq	$136, %rsp
	popq	%rbx
	popq	%r12
	popq	%r13
	popq	%r14
	popq	%r15
	popq	%rbp
	retq
.LBB4_695:
	movq	104(%rsp), %rcx
	movzbl	96(%rsp), %eax
	movzbl	%bl, %esi
	jmp	.LBB4_692
.LBB4_538:
	movq	(%r10), %rcx
.LBB4_539:
	movl	$3, %eax
	cmpq	%r14, %rcx
	movq	56(%rsp), %rdx
	movl	$1, %esi
	jbe	.LBB4_698
	movq	%r14, (%r10)
	xorl	%ecx, %ecx
	jmp	.LBB4_693
.LBB4_697:
	movzbl	88(%rsp), %eax
	movzbl	96(%rsp), %ecx
	movq	104(%rsp), %rdx
	movq	56(%rsp), %rsi
	movb	$1, (%rsi)
	movq	%rax, 8(%rsi)
	movq	%rcx, 16(%rsi)
	movq	%rdx, 24(%rsi)
	jmp	.LBB4_694
.LBB4_698:
	xorl	%ecx, %ecx
	jmp	.LBB4_693
.LBB4_699:
	ud2
.Lfunc_end4:
	.size	ic_program.session.Session.answer_lines.61c60e3f83b1098c, .Lfunc_end4-ic_program.session.Session.answer_lines.61c60e3f83b1098c
	.section	.rodata.ic_program.session.Session.answer_lines.61c60e3f83b1098c,"a",@progbits
	.p2align	2, 0x0
.LJTI4_0:
	.long	.LBB4_54-.LJTI4_0
	.long	.LBB4_64-.LJTI4_0
	.long	.LBB4_94-.LJTI4_0
	.long	.LBB4_6-.LJTI4_0
	.long	.LBB4_74-.LJTI4_0
	.long	.LBB4_34-.LJTI4_0
	.long	.LBB4_14-.LJTI4_0
	.long	.LBB4_84-.LJTI4_0
	.long	.LBB4_102-.LJTI4_0
	.long	.LBB4_112-.LJTI4_0
	.long	.LBB4_631-.LJTI4_0
	.long	.LBB4_6-.LJTI4_0
	.long	.LBB4_631-.LJTI4_0
	.long	.LBB4_44-.LJTI4_0
	.long	.LBB4_24-.LJTI4_0
	.long	.LBB4_120-.LJTI4_0
.LJTI4_1:
	.long	.LBB4_273-.LJTI4_1
	.long	.LBB4_407-.LJTI4_1
	.long	.LBB4_640-.LJTI4_1
	.long	.LBB4_644-.LJTI4_1
.LJTI4_2:
	.long	.LBB4_273-.LJTI4_2
	.long	.LBB4_137-.LJTI4_2
	.long	.LBB4_306-.LJTI4_2
	.long	.LBB4_307-.LJTI4_2
.LJTI4_3:
	.long	.LBB4_273-.LJTI4_3
	.long	.LBB4_489-.LJTI4_3
	.long	.LBB4_479-.LJTI4_3
	.long	.LBB4_484-.LJTI4_3
.LJTI4_4:
	.long	.LBB4_283-.LJTI4_4
	.long	.LBB4_500-.LJTI4_4
	.long	.LBB4_487-.LJTI4_4
	.long	.LBB4_495-.LJTI4_4
.LJTI4_5:
	.long	.LBB4_310-.LJTI4_5
	.long	.LBB4_153-.LJTI4_5
	.long	.LBB4_153-.LJTI4_5
	.long	.LBB4_310-.LJTI4_5
.LJTI4_6:
	.long	.LBB4_161-.LJTI4_6
	.long	.LBB4_354-.LJTI4_6
	.long	.LBB4_355-.LJTI4_6
	.long	.LBB4_161-.LJTI4_6
.LJTI4_7:
	.long	.LBB4_251-.LJTI4_7
	.long	.LBB4_380-.LJTI4_7
	.long	.LBB4_385-.LJTI4_7
	.long	.LBB4_358-.LJTI4_7
.LJTI4_8:
	.long	.LBB4_296-.LJTI4_8
	.long	.LBB4_492-.LJTI4_8
	.long	.LBB4_503-.LJTI4_8
	.long	.LBB4_358-.LJTI4_8
.LJTI4_9:
	.long	.LBB4_361-.LJTI4_9
	.long	.LBB4_369-.LJTI4_9
	.long	.LBB4_366-.LJTI4_9
	.long	.LBB4_367-.LJTI4_9
	.long	.LBB4_363-.LJTI4_9
	.long	.LBB4_370-.LJTI4_9
	.long	.LBB4_372-.LJTI4_9
	.long	.LBB4_368-.LJTI4_9
	.long	.LBB4_374-.LJTI4_9
	.long	.LBB4_365-.LJTI4_9
	.long	.LBB4_373-.LJTI4_9
	.long	.LBB4_362-.LJTI4_9
	.long	.LBB4_364-.LJTI4_9
	.long	.LBB4_371-.LJTI4_9
	.section	.text.unlikely.ic_program.argument.any_number,"ax",@progbits
	.p2align	4
	.type	ic_program.argument.any_number,@function
ic_program.argument.any_number:
	subq	$40, %rsp
	movq	%rsi, %rdx
	movq	%rdi, %rsi
	xorps	%xmm0, %xmm0
	movaps	%xmm0, 16(%rsp)
	movaps	%xmm0, (%rsp)
	movq	%rsp, %rdi
	callq	ic_program.text.first_word
	movq	8(%rsp), %rax
	testq	%rax, %rax
	je	.LBB5_1
	movq	(%rsp), %rsi
	xorl	%edx, %edx
	xorl	%ecx, %ecx
	.p2align	4
.LBB5_3:
	movzbl	(%rsi,%rcx), %edi
	addb	$-48, %dil
	cmpb	$9, %dil
	ja	.LBB5_8
	movabsq	$1844674407370955161, %r8
	cmpq	%r8, %rdx
	ja	.LBB5_1
	addq	%rdx, %rdx
	leaq	(%rdx,%rdx,4), %r8
	movzbl	%dil, %edx
	addq	%r8, %rdx
	jb	.LBB5_1
	incq	%rcx
	cmpq	%rcx, %rax
	jne	.LBB5_3
	movq	%rax, %rcx
.LBB5_8:
	leaq	-1(%rcx), %rsi
	cmpq	$20, %rsi
	setb	%dil
	cmpq	%rax, %rcx
	sete	%al
	xorl	%ecx, %ecx
	andb	%dil, %al
	cmoveq	%rcx, %rdx
	cmpq	$20, %rsi
	cmovaeq	%rcx, %rdx
	addq	$40, %rsp
	retq
.LBB5_1:
	xorl	%eax, %eax
	xorl	%edx, %edx
	addq	$40, %rsp
	retq
.Lfunc_end5:
	.size	ic_program.argument.any_number, .Lfunc_end5-ic_program.argument.any_number
	.section	.text.unlikely.ic_program.text.first_word,"ax",@progbits
	.p2align	4
	.type	ic_program.text.first_word,@function
ic_program.text.first_word:
	pushq	%rbx
	testq	%rdx, %rdx
	je	.LBB6_3
	cmpb	$32, (%rsi)
	je	.LBB6_2
.LBB6_3:
	testq	%rdx, %rdx
	je	.LBB6_4
.LBB6_5:
	movq	%rdx, %rcx
	negq	%rcx
	xorl	%eax, %eax
	movq	%rdx, %r8
	jmp	.LBB6_6
	.p2align	4
.LBB6_10:
	cmpl	$10, %r9d
	je	.LBB6_14
.LBB6_12:
	incq	%rax
	decq	%r8
	movq	%rcx, %r9
	addq	%rax, %r9
	je	.LBB6_13
.LBB6_6:
	movzbl	(%rsi,%rax), %r9d
	cmpl	$32, %r9d
	je	.LBB6_14
	cmpq	$1, %r8
	je	.LBB6_10
	testq	%r8, %r8
	je	.LBB6_13
	cmpl	$13, %r9d
	jne	.LBB6_10
	cmpb	$10, 1(%rsi,%rax)
	jne	.LBB6_12
	jmp	.LBB6_14
.LBB6_13:
	movq	%rdx, %rax
	jmp	.LBB6_14
.LBB6_2:
	movq	%rdi, %rbx
	movq	%rsi, %rdi
	movq	%rdx, %rsi
	callq	ic_program.text.without_more_spaces
	movq	%rbx, %rdi
	movq	%rax, %rsi
	testq	%rdx, %rdx
	jne	.LBB6_5
.LBB6_4:
	xorl	%eax, %eax
.LBB6_14:
	movq	%rsi, %rcx
	addq	%rax, %rcx
	subq	%rax, %rdx
	movq	%rsi, (%rdi)
	movq	%rax, 8(%rdi)
	movq	%rcx, 16(%rdi)
	movq	%rdx, 24(%rdi)
	popq	%rbx
	retq
.Lfunc_end6:
	.size	ic_program.text.first_word, .Lfunc_end6-ic_program.text.first_word
	.section	.text.unlikely.ic_program.text.without_more_spaces,"ax",@progbits
	.p2align	4
	.type	ic_program.text.without_more_spaces,@function
ic_program.text.without_more_spaces:
	movq	%rsi, %rdx
	leaq	(%rdi,%rsi), %rax
	.p2align	4
.LBB7_1:
	cmpb	$32, (%rdi)
	jne	.LBB7_2
	incq	%rdi
	decq	%rdx
	jne	.LBB7_1
	xorl	%edx, %edx
	retq
.LBB7_2:
	movq	%rdi, %rax
	retq
.Lfunc_end7:
	.size	ic_program.text.without_more_spaces, .Lfunc_end7-ic_program.text.without_more_spaces
	.section	.text.unlikely.ic_program.text.after_word,"ax",@progbits
	.p2align	4
	.type	ic_program.text.after_word,@function
ic_program.text.after_word:
	subq	$40, %rsp
	movq	%rsi, %rdx
	movq	%rdi, %rsi
	xorps	%xmm0, %xmm0
	movaps	%xmm0, 16(%rsp)
	movaps	%xmm0, (%rsp)
	movq	%rsp, %rdi
	callq	ic_program.text.first_word
	movq	16(%rsp), %rax
	movq	24(%rsp), %rdx
	addq	$40, %rsp
	retq
.Lfunc_end8:
	.size	ic_program.text.after_word, .Lfunc_end8-ic_program.text.after_word
	.section	.text.unlikely.ic_program.text.without_space,"ax",@progbits
	.p2align	4
	.type	ic_program.text.without_space,@function
ic_program.text.without_space:
	movq	%rsi, %rdx
	movq	%rdi, %rax
	retq
.Lfunc_end9:
	.size	ic_program.text.without_space, .Lfunc_end9-ic_program.text.without_space
	.section	.text.unlikely.ic_program.text.other_line,"ax",@progbits
	.p2align	4
	.type	ic_program.text.other_line,@function
ic_program.text.other_line:
	pushq	%rbx
	testq	%rsi, %rsi
	je	.LBB10_3
	cmpb	$32, (%rdi)
	je	.LBB10_2
.LBB10_3:
	movq	%rsi, %rdx
	testq	%rdx, %rdx
	je	.LBB10_13
.LBB10_5:
	cmpq	$1, %rdx
	jne	.LBB10_8
	cmpb	$10, (%rdi)
	jne	.LBB10_7
	jmp	.LBB10_12
.LBB10_8:
	movzbl	(%rdi), %eax
	cmpl	$10, %eax
	je	.LBB10_12
	cmpl	$13, %eax
	jne	.LBB10_7
	cmpb	$10, 1(%rdi)
	jne	.LBB10_7
	addq	$-2, %rdx
	jmp	.LBB10_13
.LBB10_7:
	xorl	%eax, %eax
	xorl	%edx, %edx
	popq	%rbx
	retq
.LBB10_12:
	decq	%rdx
.LBB10_13:
	subq	%rdx, %rsi
	movl	$0, %edx
	cmovaeq	%rsi, %rdx
	movb	$1, %al
	popq	%rbx
	retq
.LBB10_2:
	movq	%rsi, %rbx
	callq	ic_program.text.without_more_spaces
	movq	%rbx, %rsi
	movq	%rax, %rdi
	testq	%rdx, %rdx
	jne	.LBB10_5
	jmp	.LBB10_13
.Lfunc_end10:
	.size	ic_program.text.other_line, .Lfunc_end10-ic_program.text.other_line
	.section	.text.ic_chain.edits.LinkListCursorOps.insert_after_at.2407d86d2fd71c01,"ax",@progbits
	.p2align	4
	.type	ic_chain.edits.LinkListCursorOps.insert_after_at.2407d86d2fd71c01,@function
ic_chain.edits.LinkListCursorOps.insert_after_at.2407d86d2fd71c01:
	movq	(%rdx), %rax
	movzbl	(%rsi), %r10d
	testq	%rax, %rax
	je	.LBB11_4
	leaq	8(%rsi), %r8
	cmpl	$2, %r10d
	je	.LBB11_8
	cmpl	$1, %r10d
	jne	.LBB11_12
	movq	8(%rsi), %r9
	movq	-8(%r9,%rax), %r9
	jmp	.LBB11_6
.LBB11_4:
	movq	(%rdi), %r9
	leaq	8(%rsi), %r8
	cmpl	$2, %r10d
	je	.LBB11_9
	cmpl	$1, %r10d
	jne	.LBB11_13
.LBB11_6:
	movq	(%r8), %r10
	cmpq	$1, -8(%r10,%rcx)
	je	.LBB11_14
	jmp	.LBB11_18
.LBB11_8:
	leaq	(%rax,%rax), %r9
	cmpb	$0, 8(%rsi)
	movq	16(%rsi), %r10
	leaq	(%rax,%rax,2), %r11
	cmoveq	%r9, %r11
	movq	-16(%r10,%r11), %r9
.LBB11_9:
	cmpb	$0, 8(%rsi)
	movq	16(%rsi), %r10
	je	.LBB11_19
	leaq	(%rcx,%rcx,2), %r11
	testb	$2, -8(%r10,%r11)
	jne	.LBB11_18
	movq	$3, -8(%r10,%r11)
	movq	%r9, -16(%r10,%r11)
	testq	%rax, %rax
	jne	.LBB11_15
.LBB11_21:
	movq	%rcx, (%rdi)
	movq	%rax, (%rdx)
	movb	$1, %al
	retq
.LBB11_12:
	movq	8(%rsi), %r9
	movq	-8(%r9,%rax), %r9
.LBB11_13:
	movq	(%r8), %r10
	cmpq	$1, -8(%r10,%rcx)
	jne	.LBB11_18
.LBB11_14:
	movq	%r9, -8(%r10,%rcx)
	testq	%rax, %rax
	je	.LBB11_21
.LBB11_15:
	movzbl	(%rsi), %edi
	cmpl	$2, %edi
	je	.LBB11_23
	cmpl	$1, %edi
	movq	(%r8), %rsi
	movq	%rcx, -8(%rsi,%rax)
	movq	%rax, (%rdx)
	movb	$1, %al
	retq
.LBB11_19:
	cmpq	$1, -16(%r10,%rcx,2)
	jne	.LBB11_18
	movq	%r9, -16(%r10,%rcx,2)
	testq	%rax, %rax
	jne	.LBB11_15
	jmp	.LBB11_21
.LBB11_18:
	xorl	%eax, %eax
	retq
.LBB11_23:
	cmpb	$0, 8(%rsi)
	movq	16(%rsi), %rsi
	je	.LBB11_26
	movq	%rax, %rdi
	shrq	$3, %rdi
	leaq	(%rdi,%rdi,2), %rdi
	movq	%rcx, -16(%rsi,%rdi,8)
	movq	%rax, (%rdx)
	movb	$1, %al
	retq
.LBB11_26:
	movq	%rcx, -16(%rsi,%rax,2)
	movq	%rax, (%rdx)
	movb	$1, %al
	retq
.Lfunc_end11:
	.size	ic_chain.edits.LinkListCursorOps.insert_after_at.2407d86d2fd71c01, .Lfunc_end11-ic_chain.edits.LinkListCursorOps.insert_after_at.2407d86d2fd71c01
	.section	.text.ic_chain.edits.LinkListCursorOps.insert_after_at.ff97facb44bf5e09,"ax",@progbits
	.p2align	4
	.type	ic_chain.edits.LinkListCursorOps.insert_after_at.ff97facb44bf5e09,@function
ic_chain.edits.LinkListCursorOps.insert_after_at.ff97facb44bf5e09:
	movq	(%rdx), %rax
	movzbl	(%rsi), %r10d
	movq	8(%rsi), %r9
	movq	%rdi, %r8
	testq	%rax, %rax
	je	.LBB12_2
	leaq	(%rax,%rax), %r8
	testb	%r10b, %r10b
	leaq	(%rax,%rax,2), %r11
	cmoveq	%r8, %r11
	leaq	(%r9,%r11), %r8
	addq	$-16, %r8
.LBB12_2:
	movq	(%r8), %r8
	testb	%r10b, %r10b
	je	.LBB12_7
	leaq	(%rcx,%rcx,2), %r10
	testb	$2, -8(%r9,%r10)
	jne	.LBB12_13
	movq	$3, -8(%r9,%r10)
	movq	%r8, -16(%r9,%r10)
	movq	%rax, -24(%r9,%r10)
	testq	%rax, %rax
	je	.LBB12_9
.LBB12_5:
	movq	8(%rsi), %r9
	cmpb	$0, (%rsi)
	je	.LBB12_14
	movq	%rax, %r10
	shrq	$3, %r10
	leaq	(%r10,%r10,2), %r10
	movq	%rcx, -16(%r9,%r10,8)
	testq	%r8, %r8
	je	.LBB12_15
.LBB12_10:
	movq	8(%rsi), %rdi
	cmpb	$0, (%rsi)
	je	.LBB12_16
	shrq	$3, %r8
	leaq	(%r8,%r8,2), %rsi
	movq	%rcx, -24(%rdi,%rsi,8)
	movq	%rax, (%rdx)
	movb	$1, %al
	retq
.LBB12_7:
	cmpq	$1, -16(%r9,%rcx,2)
	jne	.LBB12_13
	movq	%r8, -16(%r9,%rcx,2)
	movq	%rax, -8(%r9,%rcx,2)
	testq	%rax, %rax
	jne	.LBB12_5
.LBB12_9:
	movq	%rcx, (%rdi)
	testq	%r8, %r8
	jne	.LBB12_10
.LBB12_15:
	movq	%rcx, 8(%rdi)
	movq	%rax, (%rdx)
	movb	$1, %al
	retq
.LBB12_13:
	xorl	%eax, %eax
	retq
.LBB12_14:
	movq	%rcx, -16(%r9,%rax,2)
	testq	%r8, %r8
	jne	.LBB12_10
	jmp	.LBB12_15
.LBB12_16:
	movq	%rcx, -8(%rdi,%r8,2)
	movq	%rax, (%rdx)
	movb	$1, %al
	retq
.Lfunc_end12:
	.size	ic_chain.edits.LinkListCursorOps.insert_after_at.ff97facb44bf5e09, .Lfunc_end12-ic_chain.edits.LinkListCursorOps.insert_after_at.ff97facb44bf5e09
	.section	.text.ic_chain.edits.LinkListBidirectional.insert_before_at.10cc405e52586c83,"ax",@progbits
	.p2align	4
	.type	ic_chain.edits.LinkListBidirectional.insert_before_at.10cc405e52586c83,@function
ic_chain.edits.LinkListBidirectional.insert_before_at.10cc405e52586c83:
	testq	%rdx, %rdx
	je	.LBB13_6
	movzbl	(%rsi), %r9d
	movq	8(%rsi), %rax
	movq	%rdx, %r8
	shrq	$3, %r8
	testb	%r9b, %r9b
	leaq	(%r8,%r8,2), %r8
	leaq	-8(%rax,%rdx,2), %r10
	leaq	-24(%rax,%r8,8), %r8
	cmoveq	%r10, %r8
	movq	(%r8), %r8
	testb	%r9b, %r9b
	je	.LBB13_7
.LBB13_2:
	leaq	(%rcx,%rcx,2), %r9
	testb	$2, -8(%rax,%r9)
	jne	.LBB13_13
	movq	$3, -8(%rax,%r9)
	movq	%rdx, -16(%rax,%r9)
	movq	%r8, -24(%rax,%r9)
	testq	%r8, %r8
	je	.LBB13_9
.LBB13_4:
	movq	8(%rsi), %rax
	cmpb	$0, (%rsi)
	je	.LBB13_14
	shrq	$3, %r8
	leaq	(%r8,%r8,2), %r8
	movq	%rcx, -16(%rax,%r8,8)
	testq	%rdx, %rdx
	je	.LBB13_15
.LBB13_10:
	movq	8(%rsi), %rax
	cmpb	$0, (%rsi)
	je	.LBB13_16
	shrq	$3, %rdx
	leaq	(%rdx,%rdx,2), %rdx
	movq	%rcx, -24(%rax,%rdx,8)
	movb	$1, %al
	retq
.LBB13_6:
	leaq	8(%rdi), %r8
	movzbl	(%rsi), %r9d
	movq	8(%rsi), %rax
	movq	(%r8), %r8
	testb	%r9b, %r9b
	jne	.LBB13_2
.LBB13_7:
	cmpq	$1, -16(%rax,%rcx,2)
	jne	.LBB13_13
	movq	%rdx, -16(%rax,%rcx,2)
	movq	%r8, -8(%rax,%rcx,2)
	testq	%r8, %r8
	jne	.LBB13_4
.LBB13_9:
	movq	%rcx, (%rdi)
	testq	%rdx, %rdx
	jne	.LBB13_10
.LBB13_15:
	movq	%rcx, 8(%rdi)
	movb	$1, %al
	retq
.LBB13_13:
	xorl	%eax, %eax
	retq
.LBB13_14:
	movq	%rcx, -16(%rax,%r8,2)
	testq	%rdx, %rdx
	jne	.LBB13_10
	jmp	.LBB13_15
.LBB13_16:
	movq	%rcx, -8(%rax,%rdx,2)
	movb	$1, %al
	retq
.Lfunc_end13:
	.size	ic_chain.edits.LinkListBidirectional.insert_before_at.10cc405e52586c83, .Lfunc_end13-ic_chain.edits.LinkListBidirectional.insert_before_at.10cc405e52586c83
	.section	.text.ic_chain.edits.LinkListCursorOps.insert_after_at.0649bf66f9d3822c,"ax",@progbits
	.p2align	4
	.type	ic_chain.edits.LinkListCursorOps.insert_after_at.0649bf66f9d3822c,@function
ic_chain.edits.LinkListCursorOps.insert_after_at.0649bf66f9d3822c:
	pushq	%r15
	pushq	%r14
	pushq	%rbx
	subq	$16, %rsp
	movq	%rcx, %rbx
	movq	%rdx, %r14
	movq	(%rdx), %r15
	xorl	%edx, %edx
	testq	%r15, %r15
	setne	%al
	je	.LBB14_1
	movq	8(%r14), %rcx
	xorq	%r15, %rcx
	jmp	.LBB14_3
.LBB14_1:
	movq	(%rdi), %rcx
	testq	%rcx, %rcx
.LBB14_3:
	setne	%r8b
	movq	%rcx, (%rsp)
	movb	%al, %dl
	movzbl	%r8b, %r9d
	movq	%r15, %rcx
	movq	%rbx, %r8
	callq	ic_chain.list.LinkList.insert_between.06e6478965f9faac
	testb	%al, %al
	je	.LBB14_5
	xorq	%r15, %rbx
	movq	%r15, (%r14)
	movq	%rbx, 8(%r14)
.LBB14_5:
	addq	$16, %rsp
	popq	%rbx
	popq	%r14
	popq	%r15
	retq
.Lfunc_end14:
	.size	ic_chain.edits.LinkListCursorOps.insert_after_at.0649bf66f9d3822c, .Lfunc_end14-ic_chain.edits.LinkListCursorOps.insert_after_at.0649bf66f9d3822c
	.section	.text.ic_chain.list.LinkList.insert_between.06e6478965f9faac,"ax",@progbits
	.p2align	4
	.type	ic_chain.list.LinkList.insert_between.06e6478965f9faac,@function
ic_chain.list.LinkList.insert_between.06e6478965f9faac:
	pushq	%r14
	pushq	%rbx
	movq	24(%rsp), %rax
	movzbl	(%rsi), %r10d
	cmpl	$2, %r10d
	je	.LBB15_3
	cmpl	$1, %r10d
	movq	8(%rsi), %r10
	cmpq	$1, -8(%r10,%r8)
	jne	.LBB15_14
	xorl	%r11d, %r11d
	testb	%dl, %dl
	movq	%rcx, %rbx
	cmoveq	%r11, %rbx
	testb	%r9b, %r9b
	cmovneq	%rax, %r11
	xorq	%rbx, %r11
	movq	%r11, -8(%r10,%r8)
	cmpb	$1, %dl
	jne	.LBB15_10
.LBB15_6:
	movzbl	(%rsi), %r10d
	cmpl	$2, %r10d
	je	.LBB15_17
	cmpl	$1, %r10d
	movq	8(%rsi), %r10
	xorl	%r11d, %r11d
	testb	%r9b, %r9b
	cmovneq	%rax, %r11
	xorq	-8(%r10,%rcx), %r11
	xorq	%r8, %r11
	movq	%r11, -8(%r10,%rcx)
	jmp	.LBB15_11
.LBB15_3:
	cmpb	$0, 8(%rsi)
	movq	16(%rsi), %r10
	je	.LBB15_8
	leaq	(%r8,%r8,2), %r11
	testb	$2, -8(%r10,%r11)
	jne	.LBB15_14
	xorl	%ebx, %ebx
	testb	%dl, %dl
	movq	%rcx, %r14
	cmoveq	%rbx, %r14
	testb	%r9b, %r9b
	cmovneq	%rax, %rbx
	xorq	%r14, %rbx
	movq	$3, -8(%r10,%r11)
	movq	%rbx, -16(%r10,%r11)
	cmpb	$1, %dl
	je	.LBB15_6
.LBB15_10:
	movq	%r8, (%rdi)
.LBB15_11:
	cmpb	$1, %r9b
	jne	.LBB15_15
	movzbl	(%rsi), %edi
	cmpl	$2, %edi
	je	.LBB15_19
	cmpl	$1, %edi
	movq	8(%rsi), %rsi
	xorl	%edi, %edi
	testb	%dl, %dl
	cmoveq	%rdi, %rcx
	xorq	-8(%rsi,%rax), %rcx
	xorq	%r8, %rcx
	movq	%rcx, -8(%rsi,%rax)
	movb	$1, %al
	popq	%rbx
	popq	%r14
	retq
.LBB15_15:
	movq	%r8, 8(%rdi)
	movb	$1, %al
	popq	%rbx
	popq	%r14
	retq
.LBB15_8:
	cmpq	$1, -16(%r10,%r8,2)
	jne	.LBB15_14
	xorl	%r11d, %r11d
	testb	%dl, %dl
	movq	%rcx, %rbx
	cmoveq	%r11, %rbx
	testb	%r9b, %r9b
	cmovneq	%rax, %r11
	xorq	%rbx, %r11
	movq	%r11, -16(%r10,%r8,2)
	cmpb	$1, %dl
	je	.LBB15_6
	jmp	.LBB15_10
.LBB15_14:
	xorl	%eax, %eax
	popq	%rbx
	popq	%r14
	retq
.LBB15_17:
	cmpb	$0, 8(%rsi)
	movq	16(%rsi), %r10
	je	.LBB15_21
	movq	%rcx, %r11
	shrq	$3, %r11
	leaq	(%r11,%r11,2), %r11
	xorl	%ebx, %ebx
	testb	%r9b, %r9b
	cmovneq	%rax, %rbx
	xorq	-16(%r10,%r11,8), %rbx
	xorq	%r8, %rbx
	movq	%rbx, -16(%r10,%r11,8)
	jmp	.LBB15_11
.LBB15_19:
	cmpb	$0, 8(%rsi)
	movq	16(%rsi), %rsi
	je	.LBB15_22
	shrq	$3, %rax
	leaq	(%rax,%rax,2), %rax
	xorl	%edi, %edi
	testb	%dl, %dl
	cmoveq	%rdi, %rcx
	xorq	-16(%rsi,%rax,8), %rcx
	xorq	%r8, %rcx
	movq	%rcx, -16(%rsi,%rax,8)
	movb	$1, %al
	popq	%rbx
	popq	%r14
	retq
.LBB15_21:
	xorl	%r11d, %r11d
	testb	%r9b, %r9b
	cmovneq	%rax, %r11
	xorq	-16(%r10,%rcx,2), %r11
	xorq	%r8, %r11
	movq	%r11, -16(%r10,%rcx,2)
	jmp	.LBB15_11
.LBB15_22:
	xorl	%edi, %edi
	testb	%dl, %dl
	cmoveq	%rdi, %rcx
	xorq	-16(%rsi,%rax,2), %rcx
	xorq	%r8, %rcx
	movq	%rcx, -16(%rsi,%rax,2)
	movb	$1, %al
	popq	%rbx
	popq	%r14
	retq
.Lfunc_end15:
	.size	ic_chain.list.LinkList.insert_between.06e6478965f9faac, .Lfunc_end15-ic_chain.list.LinkList.insert_between.06e6478965f9faac
	.section	.text.ic_chain.edits.LinkListBidirectional.insert_before_at.d62ae654698fb858,"ax",@progbits
	.p2align	4
	.type	ic_chain.edits.LinkListBidirectional.insert_before_at.d62ae654698fb858,@function
ic_chain.edits.LinkListBidirectional.insert_before_at.d62ae654698fb858:
	testq	%rdx, %rdx
	je	.LBB16_1
	xorq	%rdx, %rcx
	movzbl	(%rsi), %eax
	cmpl	$2, %eax
	je	.LBB16_4
	cmpl	$1, %eax
	movq	8(%rsi), %rax
	addq	%rdx, %rax
	addq	$-8, %rax
	jmp	.LBB16_7
.LBB16_1:
	movq	8(%rdi), %rcx
	testq	%rcx, %rcx
	jmp	.LBB16_8
.LBB16_4:
	cmpb	$0, 8(%rsi)
	movq	16(%rsi), %rax
	je	.LBB16_5
	movq	%rdx, %r9
	shrq	$3, %r9
	leaq	(%r9,%r9,2), %r9
	leaq	(%rax,%r9,8), %rax
	addq	$-16, %rax
	jmp	.LBB16_7
.LBB16_5:
	leaq	(%rax,%rdx,2), %rax
	addq	$-16, %rax
.LBB16_7:
	xorq	(%rax), %rcx
.LBB16_8:
	setne	%al
	pushq	%rax
	xorl	%r9d, %r9d
	testq	%rdx, %rdx
	setne	%r9b
	movq	%rdx, (%rsp)
	movzbl	%al, %edx
	callq	ic_chain.list.LinkList.insert_between.06e6478965f9faac
	popq	%rcx
	retq
.Lfunc_end16:
	.size	ic_chain.edits.LinkListBidirectional.insert_before_at.d62ae654698fb858, .Lfunc_end16-ic_chain.edits.LinkListBidirectional.insert_before_at.d62ae654698fb858
	.section	.text.ic_rbtree.edits.RBTreeCursorOps.insert_after_at.b002bc248359831b,"ax",@progbits
	.p2align	4
	.type	ic_rbtree.edits.RBTreeCursorOps.insert_after_at.b002bc248359831b,@function
ic_rbtree.edits.RBTreeCursorOps.insert_after_at.b002bc248359831b:
	movq	%rcx, %r9
	movq	%rdx, %rcx
	movq	%rsi, %rax
	movq	%rdi, %rsi
	movq	%rdi, %rdx
	testq	%rcx, %rcx
	je	.LBB17_2
	movq	(%rax), %rdx
	movq	%rcx, %rdi
	shrq	$3, %rdi
	leaq	(%rdi,%rdi,2), %rdi
	leaq	(%rdx,%rdi,8), %rdx
	addq	$-16, %rdx
.LBB17_2:
	pushq	%rax
	movq	(%rdx), %rdx
	testq	%rdx, %rdx
	je	.LBB17_3
	movq	(%rax), %rdi
	.p2align	4
.LBB17_5:
	movq	%rdx, %rcx
	shrq	$3, %rdx
	leaq	(%rdx,%rdx,2), %rdx
	movq	-24(%rdi,%rdx,8), %rdx
	testq	%rdx, %rdx
	jne	.LBB17_5
	movb	$1, %dl
	xorl	%edi, %edi
	jmp	.LBB17_7
.LBB17_3:
	testq	%rcx, %rcx
	setne	%dl
	movb	$1, %dil
.LBB17_7:
	movzbl	%dl, %edx
	movzbl	%dil, %r8d
	movq	%rax, %rdi
	callq	ic_rbtree.linking.insert.bca35351c984244a
	popq	%rcx
	retq
.Lfunc_end17:
	.size	ic_rbtree.edits.RBTreeCursorOps.insert_after_at.b002bc248359831b, .Lfunc_end17-ic_rbtree.edits.RBTreeCursorOps.insert_after_at.b002bc248359831b
	.section	.text.ic_rbtree.linking.insert.bca35351c984244a,"ax",@progbits
	.p2align	4
	.type	ic_rbtree.linking.insert.bca35351c984244a,@function
ic_rbtree.linking.insert.bca35351c984244a:
	pushq	%r15
	pushq	%r14
	pushq	%rbx
	movq	(%rdi), %r11
	leaq	(%r9,%r9,2), %r10
	movq	-8(%r11,%r10), %rax
	testb	$2, %al
	jne	.LBB18_3
	movq	$3, -8(%r11,%r10)
	movq	(%rdi), %r11
	movq	$0, -24(%r11,%r10)
	movq	(%rdi), %r11
	movq	$0, -16(%r11,%r10)
	movq	(%rdi), %r11
	testb	%dl, %dl
	je	.LBB18_2
	movq	%rcx, %rdx
	orq	$2, %rdx
	movq	%rdx, -8(%r11,%r10)
	movq	(%rdi), %rdx
	leaq	(%rcx,%rcx,2), %r10
	testb	%r8b, %r8b
	je	.LBB18_5
	movq	%r9, -16(%rdx,%r10)
	jmp	.LBB18_7
.LBB18_2:
	movq	$3, -8(%r11,%r10)
	movq	%r9, (%rsi)
	jmp	.LBB18_3
.LBB18_5:
	movq	%r9, -24(%rdx,%r10)
.LBB18_7:
	movl	$67, %r11d
	xorl	%r8d, %r8d
	jmp	.LBB18_8
	.p2align	4
.LBB18_14:
	xorl	%ecx, %ecx
	cmpq	$8, -8(%rbx,%r8)
	setb	%cl
	movq	%r14, %r9
	orq	$1, %r9
	movq	%r9, -8(%rbx,%r10)
	movq	(%rdi), %r9
	orq	$1, -8(%r9,%r15)
	movq	(%rdi), %r9
	movq	-8(%r9,%r8), %r10
	andq	$-2, %r10
	orq	%rcx, %r10
	movq	%r10, -8(%r9,%r8)
	movq	(%rdi), %rcx
	shrq	$3, %r14
	leaq	(%r14,%r14,2), %r8
	movq	-8(%rcx,%r8,8), %rcx
	andq	$-8, %rcx
	sete	%r8b
	movq	%rdx, %r9
	decl	%r11d
	je	.LBB18_3
.LBB18_8:
	testb	$1, %r8b
	jne	.LBB18_3
	movq	(%rdi), %rbx
	leaq	(%rcx,%rcx,2), %r10
	movq	-8(%rbx,%r10), %r14
	testb	$1, %r14b
	jne	.LBB18_3
	movq	%r14, %rdx
	andq	$-8, %rdx
	je	.LBB18_3
	movq	%r14, %r8
	andq	$-8, %r8
	leaq	(%r8,%r8,2), %r8
	movq	-24(%rbx,%r8), %r15
	cmpq	%rcx, %r15
	jne	.LBB18_32
	movq	-16(%rbx,%r8), %r15
	testq	%r15, %r15
	je	.LBB18_15
	leaq	(%r15,%r15,2), %r15
	testb	$1, -8(%rbx,%r15)
	je	.LBB18_14
	jmp	.LBB18_15
	.p2align	4
.LBB18_32:
	testq	%r15, %r15
	je	.LBB18_34
	leaq	(%r15,%r15,2), %r15
	testb	$1, -8(%rbx,%r15)
	je	.LBB18_14
.LBB18_34:
	cmpq	%r9, -24(%rbx,%r10)
	jne	.LBB18_35
	leaq	(%r9,%r9,2), %r11
	movq	-16(%rbx,%r11), %r14
	movq	%r14, -24(%rbx,%r10)
	testq	%r14, %r14
	je	.LBB18_38
	movq	(%rdi), %rbx
	shrq	$3, %r14
	leaq	(%r14,%r14,2), %r14
	movq	-8(%rbx,%r14,8), %r15
	andl	$7, %r15d
	orq	%rcx, %r15
	movq	%r15, -8(%rbx,%r14,8)
.LBB18_38:
	movq	(%rdi), %rbx
	movq	%rdx, %r14
	orq	$2, %r14
	movq	%r14, -8(%rbx,%r11)
	movq	(%rdi), %rbx
	cmpq	%rcx, -24(%rbx,%r8)
	jne	.LBB18_40
	movq	%r9, -24(%rbx,%r8)
	jmp	.LBB18_41
.LBB18_15:
	cmpq	%r9, -24(%rbx,%r10)
	jne	.LBB18_17
	leaq	(%rcx,%rcx,2), %r11
	movq	%rcx, %r9
	jmp	.LBB18_23
.LBB18_35:
	movq	%r10, %r11
	movq	%rcx, %r9
	jmp	.LBB18_42
.LBB18_17:
	leaq	(%r9,%r9,2), %r11
	movq	-24(%rbx,%r11), %r14
	movq	%r14, -16(%rbx,%r10)
	testq	%r14, %r14
	je	.LBB18_19
	movq	(%rdi), %rbx
	shrq	$3, %r14
	leaq	(%r14,%r14,2), %r14
	movq	-8(%rbx,%r14,8), %r15
	andl	$7, %r15d
	orq	%rcx, %r15
	movq	%r15, -8(%rbx,%r14,8)
.LBB18_19:
	movq	(%rdi), %rbx
	movq	%rdx, %r14
	orq	$2, %r14
	movq	%r14, -8(%rbx,%r11)
	movq	(%rdi), %rbx
	cmpq	%rcx, -24(%rbx,%r8)
	jne	.LBB18_21
	movq	%r9, -24(%rbx,%r8)
	jmp	.LBB18_22
.LBB18_40:
	movq	%r9, -16(%rbx,%r8)
.LBB18_41:
	movq	(%rdi), %rbx
	movq	%rcx, -16(%rbx,%r11)
	movq	(%rdi), %rcx
	movq	%r9, %rbx
	orq	$2, %rbx
	movq	%rbx, -8(%rcx,%r10)
	movq	(%rdi), %rbx
.LBB18_42:
	movq	-24(%rbx,%r11), %r10
	movq	-8(%rbx,%r8), %rcx
	andq	$-8, %rcx
	movq	%r10, -16(%rbx,%r8)
	testq	%r10, %r10
	je	.LBB18_44
	movq	(%rdi), %rbx
	shrq	$3, %r10
	leaq	(%r10,%r10,2), %r10
	movq	-8(%rbx,%r10,8), %r14
	andl	$7, %r14d
	orq	%rdx, %r14
	movq	%r14, -8(%rbx,%r10,8)
.LBB18_44:
	movq	%rcx, %r10
	orq	$3, %r10
	movq	(%rdi), %rbx
	movq	%r10, -8(%rbx,%r11)
	testq	%rcx, %rcx
	je	.LBB18_48
	movq	(%rdi), %rsi
	leaq	(%rcx,%rcx,2), %rcx
	cmpq	%rdx, -24(%rsi,%rcx)
	jne	.LBB18_47
	movq	%r9, -24(%rsi,%rcx)
	jmp	.LBB18_49
.LBB18_48:
	movq	%r9, (%rsi)
	jmp	.LBB18_49
.LBB18_47:
	movq	%r9, -16(%rsi,%rcx)
.LBB18_49:
	movq	(%rdi), %rcx
	movq	%rdx, -24(%rcx,%r11)
	jmp	.LBB18_31
.LBB18_21:
	movq	%r9, -16(%rbx,%r8)
.LBB18_22:
	movq	(%rdi), %rbx
	movq	%rcx, -24(%rbx,%r11)
	movq	(%rdi), %rcx
	movq	%r9, %rbx
	orq	$2, %rbx
	movq	%rbx, -8(%rcx,%r10)
	movq	(%rdi), %rbx
.LBB18_23:
	movq	-16(%rbx,%r11), %r10
	movq	-8(%rbx,%r8), %rcx
	andq	$-8, %rcx
	movq	%r10, -24(%rbx,%r8)
	testq	%r10, %r10
	je	.LBB18_25
	movq	(%rdi), %rbx
	shrq	$3, %r10
	leaq	(%r10,%r10,2), %r10
	movq	-8(%rbx,%r10,8), %r14
	andl	$7, %r14d
	orq	%rdx, %r14
	movq	%r14, -8(%rbx,%r10,8)
.LBB18_25:
	movq	%rcx, %r10
	orq	$3, %r10
	movq	(%rdi), %rbx
	movq	%r10, -8(%rbx,%r11)
	testq	%rcx, %rcx
	je	.LBB18_29
	movq	(%rdi), %rsi
	leaq	(%rcx,%rcx,2), %rcx
	cmpq	%rdx, -24(%rsi,%rcx)
	jne	.LBB18_28
	movq	%r9, -24(%rsi,%rcx)
	jmp	.LBB18_30
.LBB18_29:
	movq	%r9, (%rsi)
	jmp	.LBB18_30
.LBB18_28:
	movq	%r9, -16(%rsi,%rcx)
.LBB18_30:
	movq	(%rdi), %rcx
	movq	%rdx, -16(%rcx,%r11)
.LBB18_31:
	movq	(%rdi), %rcx
	orq	$2, %r9
	movq	%r9, -8(%rcx,%r8)
.LBB18_3:
	testb	$2, %al
	sete	%al
	popq	%rbx
	popq	%r14
	popq	%r15
	retq
.Lfunc_end18:
	.size	ic_rbtree.linking.insert.bca35351c984244a, .Lfunc_end18-ic_rbtree.linking.insert.bca35351c984244a
	.section	.text.ic_rbtree.edits.RBTreeBidirectional.insert_before_at.b002bc248359831b,"ax",@progbits
	.p2align	4
	.type	ic_rbtree.edits.RBTreeBidirectional.insert_before_at.b002bc248359831b,@function
ic_rbtree.edits.RBTreeBidirectional.insert_before_at.b002bc248359831b:
	movq	%rcx, %r9
	movq	%rdx, %rcx
	movq	%rsi, %rax
	movq	%rdi, %rsi
	movq	%rdi, %rdx
	testq	%rcx, %rcx
	je	.LBB19_2
	movq	(%rax), %rdx
	movq	%rcx, %rdi
	shrq	$3, %rdi
	leaq	(%rdi,%rdi,2), %rdi
	leaq	(%rdx,%rdi,8), %rdx
	addq	$-24, %rdx
.LBB19_2:
	pushq	%rax
	movq	(%rdx), %rdx
	testq	%rdx, %rdx
	je	.LBB19_3
	movq	(%rax), %rdi
	.p2align	4
.LBB19_5:
	movq	%rdx, %rcx
	shrq	$3, %rdx
	leaq	(%rdx,%rdx,2), %rdx
	movq	-16(%rdi,%rdx,8), %rdx
	testq	%rdx, %rdx
	jne	.LBB19_5
	movb	$1, %dl
	movb	$1, %dil
	jmp	.LBB19_7
.LBB19_3:
	testq	%rcx, %rcx
	setne	%dl
	xorl	%edi, %edi
.LBB19_7:
	movzbl	%dl, %edx
	movzbl	%dil, %r8d
	movq	%rax, %rdi
	callq	ic_rbtree.linking.insert.bca35351c984244a
	popq	%rcx
	retq
.Lfunc_end19:
	.size	ic_rbtree.edits.RBTreeBidirectional.insert_before_at.b002bc248359831b, .Lfunc_end19-ic_rbtree.edits.RBTreeBidirectional.insert_before_at.b002bc248359831b
	.section	.text.ic_chain.edits.LinkListForwardOnly.remove_next_at.927dec3b43ebc9b0,"ax",@progbits
	.p2align	4
	.type	ic_chain.edits.LinkListForwardOnly.remove_next_at.927dec3b43ebc9b0,@function
ic_chain.edits.LinkListForwardOnly.remove_next_at.927dec3b43ebc9b0:
	movq	(%rdx), %rax
	movq	%rdi, %rcx
	testq	%rax, %rax
	je	.LBB20_5
	movzbl	(%rsi), %ecx
	cmpl	$2, %ecx
	je	.LBB20_3
	cmpl	$1, %ecx
	movq	8(%rsi), %rcx
	addq	%rax, %rcx
	addq	$-8, %rcx
	movq	(%rcx), %rcx
	testq	%rcx, %rcx
	jne	.LBB20_6
.LBB20_15:
	xorl	%eax, %eax
	movq	%rcx, %rdx
	retq
.LBB20_3:
	cmpb	$0, 8(%rsi)
	movq	16(%rsi), %rcx
	je	.LBB20_14
	movq	%rax, %r8
	shrq	$3, %r8
	leaq	(%r8,%r8,2), %r8
	leaq	(%rcx,%r8,8), %rcx
	addq	$-16, %rcx
.LBB20_5:
	movq	(%rcx), %rcx
	testq	%rcx, %rcx
	je	.LBB20_15
.LBB20_6:
	movzbl	(%rsi), %r8d
	cmpl	$2, %r8d
	je	.LBB20_8
	cmpl	$1, %r8d
	movq	8(%rsi), %r9
	leaq	(%r9,%rcx), %r10
	addq	$-8, %r10
	movq	(%r10), %r10
	testq	%rax, %rax
	je	.LBB20_17
.LBB20_10:
	cmpl	$2, %r8d
	je	.LBB20_12
	cmpl	$1, %r8d
	movq	8(%rsi), %rdi
	movq	%r10, -8(%rdi,%rax)
	movzbl	(%rsi), %edi
	cmpl	$2, %edi
	je	.LBB20_20
.LBB20_18:
	cmpl	$1, %edi
	movq	8(%rsi), %rsi
	movq	$1, -8(%rsi,%rcx)
	movq	%rax, (%rdx)
	movb	$1, %al
	movq	%rcx, %rdx
	retq
.LBB20_8:
	cmpb	$0, 8(%rsi)
	movq	16(%rsi), %r9
	je	.LBB20_16
	movq	%rcx, %r10
	shrq	$3, %r10
	leaq	(%r10,%r10,2), %r10
	leaq	(%r9,%r10,8), %r10
	addq	$-16, %r10
	movb	$1, %r9b
	movq	(%r10), %r10
	testq	%rax, %rax
	jne	.LBB20_10
.LBB20_17:
	movq	%r10, (%rdi)
	movzbl	(%rsi), %edi
	cmpl	$2, %edi
	jne	.LBB20_18
.LBB20_20:
	cmpb	$0, 8(%rsi)
	movq	16(%rsi), %rsi
	je	.LBB20_22
	movq	%rcx, %rdi
	shrq	$3, %rdi
	leaq	(%rdi,%rdi,2), %rdi
	movq	$0, -8(%rsi,%rdi,8)
	movq	%rax, (%rdx)
	movb	$1, %al
	movq	%rcx, %rdx
	retq
.LBB20_12:
	movq	16(%rsi), %rdi
	testb	%r9b, %r9b
	je	.LBB20_19
	movq	%rax, %r8
	shrq	$3, %r8
	leaq	(%r8,%r8,2), %r8
	movq	%r10, -16(%rdi,%r8,8)
	movzbl	(%rsi), %edi
	cmpl	$2, %edi
	jne	.LBB20_18
	jmp	.LBB20_20
.LBB20_14:
	leaq	(%rcx,%rax,2), %rcx
	addq	$-16, %rcx
	movq	(%rcx), %rcx
	testq	%rcx, %rcx
	jne	.LBB20_6
	jmp	.LBB20_15
.LBB20_16:
	leaq	(%r9,%rcx,2), %r10
	addq	$-16, %r10
	xorl	%r9d, %r9d
	movq	(%r10), %r10
	testq	%rax, %rax
	jne	.LBB20_10
	jmp	.LBB20_17
.LBB20_22:
	movq	$1, -16(%rsi,%rcx,2)
	movq	%rax, (%rdx)
	movb	$1, %al
	movq	%rcx, %rdx
	retq
.LBB20_19:
	movq	%r10, -16(%rdi,%rax,2)
	movzbl	(%rsi), %edi
	cmpl	$2, %edi
	jne	.LBB20_18
	jmp	.LBB20_20
.Lfunc_end20:
	.size	ic_chain.edits.LinkListForwardOnly.remove_next_at.927dec3b43ebc9b0, .Lfunc_end20-ic_chain.edits.LinkListForwardOnly.remove_next_at.927dec3b43ebc9b0
	.section	.text.ic_chain.list.LinkList.pop_front.c73f69cf4880bdd9,"ax",@progbits
	.p2align	4
	.type	ic_chain.list.LinkList.pop_front.c73f69cf4880bdd9,@function
ic_chain.list.LinkList.pop_front.c73f69cf4880bdd9:
	movq	(%rdi), %rdx
	testq	%rdx, %rdx
	je	.LBB21_1
	leaq	(%rdx,%rdx), %rax
	cmpb	$0, (%rsi)
	leaq	(%rdx,%rdx,2), %rcx
	movq	%rcx, %r8
	cmoveq	%rax, %r8
	movq	8(%rsi), %r9
	movq	-16(%r9,%r8), %r8
	movq	%r8, (%rdi)
	testq	%r8, %r8
	je	.LBB21_7
	movq	8(%rsi), %rdi
	cmpb	$0, (%rsi)
	je	.LBB21_5
	shrq	$3, %r8
	leaq	(%r8,%r8,2), %r8
	movq	$0, -24(%rdi,%r8,8)
	cmpb	$0, (%rsi)
	movq	8(%rsi), %rsi
	jne	.LBB21_10
	jmp	.LBB21_9
.LBB21_1:
	xorl	%eax, %eax
	retq
.LBB21_7:
	movq	$0, 8(%rdi)
	cmpb	$0, (%rsi)
	movq	8(%rsi), %rsi
	je	.LBB21_9
.LBB21_10:
	movq	$0, -8(%rsi,%rcx)
	movb	$1, %al
	retq
.LBB21_5:
	movq	$0, -8(%rdi,%r8,2)
	cmpb	$0, (%rsi)
	movq	8(%rsi), %rsi
	jne	.LBB21_10
.LBB21_9:
	movq	$1, -16(%rsi,%rax)
	movb	$1, %al
	retq
.Lfunc_end21:
	.size	ic_chain.list.LinkList.pop_front.c73f69cf4880bdd9, .Lfunc_end21-ic_chain.list.LinkList.pop_front.c73f69cf4880bdd9
	.section	.text.ic_chain.list.LinkList.pop_back.ec8c7c940301e4bd,"ax",@progbits
	.p2align	4
	.type	ic_chain.list.LinkList.pop_back.ec8c7c940301e4bd,@function
ic_chain.list.LinkList.pop_back.ec8c7c940301e4bd:
	movq	8(%rdi), %rdx
	testq	%rdx, %rdx
	je	.LBB22_1
	movzbl	(%rsi), %r9d
	movq	8(%rsi), %rcx
	testb	%r9b, %r9b
	leaq	-8(%rcx,%rdx,2), %r8
	leaq	(%rdx,%rdx,2), %rax
	leaq	-24(%rcx,%rax), %r10
	cmoveq	%r8, %r10
	movq	(%r10), %r8
	testq	%r8, %r8
	je	.LBB22_7
	testb	%r9b, %r9b
	je	.LBB22_5
	movq	%r8, %r9
	shrq	$3, %r9
	leaq	(%r9,%r9,2), %r9
	movq	$0, -16(%rcx,%r9,8)
	movq	%r8, 8(%rdi)
	cmpb	$0, (%rsi)
	movq	8(%rsi), %rcx
	jne	.LBB22_10
	jmp	.LBB22_9
.LBB22_1:
	xorl	%eax, %eax
	retq
.LBB22_7:
	movq	$0, (%rdi)
	movq	%r8, 8(%rdi)
	cmpb	$0, (%rsi)
	movq	8(%rsi), %rcx
	je	.LBB22_9
.LBB22_10:
	movq	$0, -8(%rcx,%rax)
	movb	$1, %al
	retq
.LBB22_5:
	movq	$0, -16(%rcx,%r8,2)
	movq	%r8, 8(%rdi)
	cmpb	$0, (%rsi)
	movq	8(%rsi), %rcx
	jne	.LBB22_10
.LBB22_9:
	leaq	(%rdx,%rdx), %rax
	movq	$1, -16(%rcx,%rax)
	movb	$1, %al
	retq
.Lfunc_end22:
	.size	ic_chain.list.LinkList.pop_back.ec8c7c940301e4bd, .Lfunc_end22-ic_chain.list.LinkList.pop_back.ec8c7c940301e4bd
	.section	.text.ic_chain.edits.LinkListBidirectional.remove_at.10cc405e52586c83,"ax",@progbits
	.p2align	4
	.type	ic_chain.edits.LinkListBidirectional.remove_at.10cc405e52586c83,@function
ic_chain.edits.LinkListBidirectional.remove_at.10cc405e52586c83:
	movq	%rdx, %rax
	movq	(%rdx), %rdx
	testq	%rdx, %rdx
	je	.LBB23_4
	pushq	%rbx
	movzbl	(%rsi), %ebx
	movq	8(%rsi), %r11
	leaq	(%rdx,%rdx), %rcx
	testb	%bl, %bl
	leaq	(%rdx,%rdx,2), %r8
	leaq	-8(%r11,%rdx,2), %r9
	leaq	-24(%r11,%r8), %r10
	cmoveq	%r9, %r10
	movq	(%r10), %r10
	movq	%r8, %r9
	cmoveq	%rcx, %r9
	movq	-16(%r11,%r9), %r9
	testq	%r10, %r10
	je	.LBB23_5
	testb	%bl, %bl
	je	.LBB23_8
	movq	%r10, %rbx
	shrq	$3, %rbx
	leaq	(%rbx,%rbx,2), %rbx
	movq	%r9, -16(%r11,%rbx,8)
	testq	%r9, %r9
	je	.LBB23_9
.LBB23_6:
	movq	8(%rsi), %rdi
	cmpb	$0, (%rsi)
	je	.LBB23_11
	movq	%r9, %r11
	shrq	$3, %r11
	leaq	(%r11,%r11,2), %r11
	movq	%r10, -24(%rdi,%r11,8)
	cmpb	$0, (%rsi)
	movq	8(%rsi), %rsi
	je	.LBB23_12
.LBB23_10:
	movq	$0, -8(%rsi,%r8)
	movq	%r9, (%rax)
	movb	$1, %al
	popq	%rbx
	retq
.LBB23_4:
	xorl	%eax, %eax
	retq
.LBB23_5:
	movq	%r9, (%rdi)
	testq	%r9, %r9
	jne	.LBB23_6
.LBB23_9:
	movq	%r10, 8(%rdi)
	cmpb	$0, (%rsi)
	movq	8(%rsi), %rsi
	jne	.LBB23_10
.LBB23_12:
	movq	$1, -16(%rsi,%rcx)
	movq	%r9, (%rax)
	movb	$1, %al
	popq	%rbx
	retq
.LBB23_8:
	movq	%r9, -16(%r11,%r10,2)
	testq	%r9, %r9
	jne	.LBB23_6
	jmp	.LBB23_9
.LBB23_11:
	movq	%r10, -8(%rdi,%r9,2)
	cmpb	$0, (%rsi)
	movq	8(%rsi), %rsi
	jne	.LBB23_10
	jmp	.LBB23_12
.Lfunc_end23:
	.size	ic_chain.edits.LinkListBidirectional.remove_at.10cc405e52586c83, .Lfunc_end23-ic_chain.edits.LinkListBidirectional.remove_at.10cc405e52586c83
	.section	.text.ic_chain.list.LinkList.pop_front.06e6478965f9faac,"ax",@progbits
	.p2align	4
	.type	ic_chain.list.LinkList.pop_front.06e6478965f9faac,@function
ic_chain.list.LinkList.pop_front.06e6478965f9faac:
	movq	(%rdi), %rdx
	testq	%rdx, %rdx
	je	.LBB24_1
	movzbl	(%rsi), %eax
	cmpl	$2, %eax
	je	.LBB24_5
	cmpl	$1, %eax
	movq	8(%rsi), %rax
	movq	-8(%rax,%rdx), %rax
	movq	%rax, (%rdi)
	testq	%rax, %rax
	jne	.LBB24_9
	jmp	.LBB24_14
.LBB24_1:
	xorl	%eax, %eax
	retq
.LBB24_5:
	cmpb	$0, 8(%rsi)
	movq	16(%rsi), %rax
	je	.LBB24_6
	movq	%rdx, %rcx
	shrq	$3, %rcx
	leaq	(%rcx,%rcx,2), %rcx
	movq	-16(%rax,%rcx,8), %rax
	movq	%rax, (%rdi)
	testq	%rax, %rax
	je	.LBB24_14
.LBB24_9:
	movzbl	(%rsi), %ecx
	cmpl	$2, %ecx
	je	.LBB24_11
	cmpl	$1, %ecx
	movq	8(%rsi), %rcx
	xorq	%rdx, -8(%rcx,%rax)
	movzbl	(%rsi), %eax
	cmpl	$2, %eax
	jne	.LBB24_16
	jmp	.LBB24_17
.LBB24_11:
	cmpb	$0, 8(%rsi)
	movq	16(%rsi), %rcx
	je	.LBB24_12
	shrq	$3, %rax
	leaq	(%rax,%rax,2), %rax
	xorq	%rdx, -16(%rcx,%rax,8)
	movzbl	(%rsi), %eax
	cmpl	$2, %eax
	jne	.LBB24_16
	jmp	.LBB24_17
.LBB24_6:
	movq	-16(%rax,%rdx,2), %rax
	movq	%rax, (%rdi)
	testq	%rax, %rax
	jne	.LBB24_9
.LBB24_14:
	movq	$0, 8(%rdi)
	movzbl	(%rsi), %eax
	cmpl	$2, %eax
	je	.LBB24_17
.LBB24_16:
	cmpl	$1, %eax
	movq	8(%rsi), %rax
	movq	$1, -8(%rax,%rdx)
	movb	$1, %al
	retq
.LBB24_12:
	xorq	%rdx, -16(%rcx,%rax,2)
	movzbl	(%rsi), %eax
	cmpl	$2, %eax
	jne	.LBB24_16
.LBB24_17:
	cmpb	$0, 8(%rsi)
	movq	16(%rsi), %rax
	je	.LBB24_18
	movq	%rdx, %rcx
	shrq	$3, %rcx
	leaq	(%rcx,%rcx,2), %rcx
	movq	$0, -8(%rax,%rcx,8)
	movb	$1, %al
	retq
.LBB24_18:
	movq	$1, -16(%rax,%rdx,2)
	movb	$1, %al
	retq
.Lfunc_end24:
	.size	ic_chain.list.LinkList.pop_front.06e6478965f9faac, .Lfunc_end24-ic_chain.list.LinkList.pop_front.06e6478965f9faac
	.section	.text.ic_chain.list.LinkList.pop_back.7fb09df028d12790,"ax",@progbits
	.p2align	4
	.type	ic_chain.list.LinkList.pop_back.7fb09df028d12790,@function
ic_chain.list.LinkList.pop_back.7fb09df028d12790:
	movq	8(%rdi), %rdx
	testq	%rdx, %rdx
	je	.LBB25_1
	movzbl	(%rsi), %eax
	cmpl	$2, %eax
	je	.LBB25_6
	cmpl	$1, %eax
	movq	8(%rsi), %rcx
	movq	-8(%rcx,%rdx), %rax
	testq	%rax, %rax
	je	.LBB25_11
	xorq	%rdx, -8(%rcx,%rax)
	jmp	.LBB25_12
.LBB25_1:
	xorl	%eax, %eax
	retq
.LBB25_6:
	cmpb	$0, 8(%rsi)
	movq	16(%rsi), %rcx
	je	.LBB25_7
	movq	%rdx, %rax
	shrq	$3, %rax
	leaq	(%rax,%rax,2), %rax
	movq	-16(%rcx,%rax,8), %rax
	testq	%rax, %rax
	je	.LBB25_11
	movq	%rax, %r8
	shrq	$3, %r8
	leaq	(%r8,%r8,2), %r8
	xorq	%rdx, -16(%rcx,%r8,8)
	jmp	.LBB25_12
.LBB25_7:
	movq	-16(%rcx,%rdx,2), %rax
	testq	%rax, %rax
	je	.LBB25_11
	xorq	%rdx, -16(%rcx,%rax,2)
	jmp	.LBB25_12
.LBB25_11:
	movq	$0, (%rdi)
	xorl	%eax, %eax
.LBB25_12:
	movq	%rax, 8(%rdi)
	movzbl	(%rsi), %eax
	cmpl	$2, %eax
	je	.LBB25_14
	cmpl	$1, %eax
	movq	8(%rsi), %rax
	movq	$1, -8(%rax,%rdx)
	movb	$1, %al
	retq
.LBB25_14:
	cmpb	$0, 8(%rsi)
	movq	16(%rsi), %rax
	je	.LBB25_15
	movq	%rdx, %rcx
	shrq	$3, %rcx
	leaq	(%rcx,%rcx,2), %rcx
	movq	$0, -8(%rax,%rcx,8)
	movb	$1, %al
	retq
.LBB25_15:
	movq	$1, -16(%rax,%rdx,2)
	movb	$1, %al
	retq
.Lfunc_end25:
	.size	ic_chain.list.LinkList.pop_back.7fb09df028d12790, .Lfunc_end25-ic_chain.list.LinkList.pop_back.7fb09df028d12790
	.section	.text.ic_chain.edits.LinkListBidirectional.remove_at.d62ae654698fb858,"ax",@progbits
	.p2align	4
	.type	ic_chain.edits.LinkListBidirectional.remove_at.d62ae654698fb858,@function
ic_chain.edits.LinkListBidirectional.remove_at.d62ae654698fb858:
	movq	%rdx, %rax
	movq	(%rdx), %rdx
	testq	%rdx, %rdx
	je	.LBB26_1
	movq	8(%rax), %r10
	movq	%r10, %rcx
	xorq	%rdx, %rcx
	movzbl	(%rsi), %r9d
	cmpl	$2, %r9d
	je	.LBB26_4
	cmpl	$1, %r9d
	movq	8(%rsi), %r11
	leaq	(%r11,%rdx), %r8
	addq	$-8, %r8
	pushq	%rbx
	movq	(%r8), %r8
	xorq	%rcx, %r8
	je	.LBB26_12
	jmp	.LBB26_8
.LBB26_1:
	xorl	%eax, %eax
	retq
.LBB26_4:
	cmpb	$0, 8(%rsi)
	movq	16(%rsi), %r8
	je	.LBB26_5
	movq	%rdx, %r11
	shrq	$3, %r11
	leaq	(%r11,%r11,2), %r11
	leaq	(%r8,%r11,8), %r8
	addq	$-16, %r8
	movb	$1, %r11b
	pushq	%rbx
	movq	(%r8), %r8
	xorq	%rcx, %r8
	jne	.LBB26_8
.LBB26_12:
	xorl	%r11d, %r11d
	movq	%rcx, (%rdi)
	movl	$0, %r9d
	cmpq	%rdx, %r10
	je	.LBB26_21
.LBB26_16:
	movzbl	(%rsi), %edi
	cmpl	$2, %edi
	je	.LBB26_18
	cmpl	$1, %edi
	movq	8(%rsi), %rdi
	movq	-8(%rdi,%rcx), %r10
	xorq	%rdx, %r10
	xorq	%r11, %r10
	movq	%r10, -8(%rdi,%rcx)
	movb	$1, %dil
	jmp	.LBB26_22
.LBB26_18:
	cmpb	$0, 8(%rsi)
	movq	16(%rsi), %rdi
	je	.LBB26_19
	movq	%rcx, %r10
	shrq	$3, %r10
	leaq	(%r10,%r10,2), %r10
	movq	-16(%rdi,%r10,8), %rbx
	xorq	%rdx, %rbx
	xorq	%r11, %rbx
	movq	%rbx, -16(%rdi,%r10,8)
	movb	$1, %dil
	jmp	.LBB26_22
.LBB26_5:
	leaq	(%r8,%rdx,2), %r8
	addq	$-16, %r8
	xorl	%r11d, %r11d
	pushq	%rbx
	movq	(%r8), %r8
	xorq	%rcx, %r8
	je	.LBB26_12
.LBB26_8:
	cmpl	$2, %r9d
	je	.LBB26_10
	cmpl	$1, %r9d
	movq	8(%rsi), %r9
	xorq	%r10, -8(%r9,%r8)
	jmp	.LBB26_14
.LBB26_10:
	movq	16(%rsi), %r9
	testb	%r11b, %r11b
	je	.LBB26_11
	movq	%r8, %r11
	shrq	$3, %r11
	leaq	(%r11,%r11,2), %r11
	xorq	%r10, -16(%r9,%r11,8)
	jmp	.LBB26_14
.LBB26_19:
	movq	-16(%rdi,%rcx,2), %r10
	xorq	%rdx, %r10
	xorq	%r11, %r10
	movq	%r10, -16(%rdi,%rcx,2)
	movb	$1, %dil
	jmp	.LBB26_22
.LBB26_11:
	xorq	%r10, -16(%r9,%r8,2)
.LBB26_14:
	movb	$1, %r9b
	movq	%r8, %r11
	cmpq	%rdx, %r10
	jne	.LBB26_16
.LBB26_21:
	movq	%r11, 8(%rdi)
	xorl	%edi, %edi
.LBB26_22:
	movzbl	(%rsi), %r10d
	cmpl	$2, %r10d
	je	.LBB26_24
	cmpl	$1, %r10d
	movq	8(%rsi), %r10
	movq	$1, -8(%r10,%rdx)
	xorl	%r11d, %r11d
	movl	$0, %r10d
	testb	%dil, %dil
	jne	.LBB26_28
	jmp	.LBB26_34
.LBB26_24:
	cmpb	$0, 8(%rsi)
	movq	16(%rsi), %r10
	je	.LBB26_25
	movq	%rdx, %r11
	shrq	$3, %r11
	leaq	(%r11,%r11,2), %r11
	movq	$0, -8(%r10,%r11,8)
	xorl	%r11d, %r11d
	movl	$0, %r10d
	testb	%dil, %dil
	jne	.LBB26_28
	jmp	.LBB26_34
.LBB26_25:
	movq	$1, -16(%r10,%rdx,2)
	xorl	%r11d, %r11d
	movl	$0, %r10d
	testb	%dil, %dil
	je	.LBB26_34
.LBB26_28:
	movzbl	(%rsi), %edi
	cmpl	$2, %edi
	je	.LBB26_30
	cmpl	$1, %edi
	xorl	%edi, %edi
	testb	%r9b, %r9b
	cmoveq	%rdi, %r8
	movq	8(%rsi), %rsi
	xorq	-8(%rsi,%rcx), %r8
	jmp	.LBB26_33
.LBB26_30:
	cmpb	$0, 8(%rsi)
	movq	16(%rsi), %rsi
	je	.LBB26_31
	movq	%rcx, %rdi
	shrq	$3, %rdi
	xorl	%r10d, %r10d
	testb	%r9b, %r9b
	cmoveq	%r10, %r8
	leaq	(%rdi,%rdi,2), %rdi
	xorq	-16(%rsi,%rdi,8), %r8
	jmp	.LBB26_33
.LBB26_31:
	xorl	%edi, %edi
	testb	%r9b, %r9b
	cmoveq	%rdi, %r8
	xorq	-16(%rsi,%rcx,2), %r8
.LBB26_33:
	movq	%r8, %r10
	xorq	%rcx, %r10
	movq	%rcx, %r11
.LBB26_34:
	movq	%r11, (%rax)
	movq	%r10, 8(%rax)
	movb	$1, %al
	popq	%rbx
	retq
.Lfunc_end26:
	.size	ic_chain.edits.LinkListBidirectional.remove_at.d62ae654698fb858, .Lfunc_end26-ic_chain.edits.LinkListBidirectional.remove_at.d62ae654698fb858
	.section	.text.ic_rbtree.edits.RBTreeBidirectional.remove_at.b002bc248359831b,"ax",@progbits
	.p2align	4
	.type	ic_rbtree.edits.RBTreeBidirectional.remove_at.b002bc248359831b,@function
ic_rbtree.edits.RBTreeBidirectional.remove_at.b002bc248359831b:
	movq	%rdx, %rax
	movq	(%rdx), %rdx
	testq	%rdx, %rdx
	je	.LBB27_3
	pushq	%rbp
	pushq	%r15
	pushq	%r14
	pushq	%r13
	pushq	%r12
	pushq	%rbx
	movq	(%rsi), %r8
	leaq	(%rdx,%rdx,2), %rbp
	movq	-16(%r8,%rbp), %r10
	testq	%r10, %r10
	je	.LBB27_4
	.p2align	4
.LBB27_2:
	movq	%r10, %r9
	shrq	$3, %r10
	leaq	(%r10,%r10,2), %r10
	movq	-24(%r8,%r10,8), %r10
	testq	%r10, %r10
	jne	.LBB27_2
	jmp	.LBB27_8
.LBB27_3:
	xorl	%eax, %eax
	retq
.LBB27_4:
	movq	%rdx, %r10
	movq	%rbp, %r11
	.p2align	4
.LBB27_5:
	movq	-8(%r8,%r11), %r11
	movq	%r11, %r9
	andq	$-8, %r9
	je	.LBB27_7
	andq	$-8, %r11
	leaq	(%r11,%r11,2), %r11
	cmpq	%r10, -16(%r8,%r11)
	movq	%r9, %r10
	je	.LBB27_5
	jmp	.LBB27_8
.LBB27_7:
	xorl	%r9d, %r9d
.LBB27_8:
	movq	%r9, (%rax)
	movq	(%rsi), %rbx
	movq	-24(%rbx,%rbp), %r8
	movq	-16(%rbx,%rbp), %r10
	testq	%r8, %r8
	je	.LBB27_17
	testq	%r10, %r10
	je	.LBB27_18
	movl	$64, %eax
	leaq	(%r10,%r10,2), %r9
	movq	-24(%rbx,%r9), %r8
	testq	%r8, %r8
	je	.LBB27_24
	.p2align	4
.LBB27_12:
	leaq	(%r8,%r8,2), %r9
	movq	-24(%rbx,%r9), %r10
	testq	%r10, %r10
	je	.LBB27_27
	leaq	(%r10,%r10,2), %r9
	movq	-24(%rbx,%r9), %r8
	testq	%r8, %r8
	je	.LBB27_24
	leaq	(%r8,%r8,2), %r9
	testl	%eax, %eax
	je	.LBB27_26
	movq	-24(%rbx,%r9), %r10
	testq	%r10, %r10
	je	.LBB27_27
	addl	$-4, %eax
	leaq	(%r10,%r10,2), %r9
	movq	-24(%rbx,%r9), %r8
	testq	%r8, %r8
	jne	.LBB27_12
.LBB27_24:
	leaq	(%rbx,%r9), %rax
	movq	%r10, %r8
	jmp	.LBB27_28
.LBB27_17:
	movq	%r10, %r8
.LBB27_18:
	movq	-8(%rbx,%rbp), %r11
	movq	%r11, %rax
	andq	$-8, %rax
	setne	%r10b
	je	.LBB27_21
	movq	%r11, %r9
	andq	$-8, %r9
	leaq	(%r9,%r9,2), %r9
	cmpq	%rdx, -24(%rbx,%r9)
	jne	.LBB27_22
	movq	%r8, -24(%rbx,%r9)
	xorl	%ebx, %ebx
	testq	%r8, %r8
	jne	.LBB27_23
	jmp	.LBB27_47
.LBB27_21:
	movq	%r8, (%rdi)
	xorl	%ebx, %ebx
	testq	%r8, %r8
	jne	.LBB27_23
	jmp	.LBB27_47
.LBB27_22:
	movq	%r8, -16(%rbx,%r9)
	movb	$1, %bl
	testq	%r8, %r8
	je	.LBB27_47
.LBB27_23:
	movq	(%rsi), %rdi
	shrq	$3, %r8
	leaq	(%r8,%r8,2), %r8
	orq	$3, %rax
	movq	%rax, -8(%rdi,%r8,8)
	jmp	.LBB27_129
.LBB27_27:
	leaq	(%rbx,%r9), %rax
.LBB27_28:
	movq	-16(%rax), %r14
.LBB27_29:
	movq	-8(%rax), %r11
	movq	%r11, %rax
	andq	$-8, %rax
	setne	%r10b
	je	.LBB27_32
	movq	%r11, %r15
	andq	$-8, %r15
	leaq	(%r15,%r15,2), %r15
	cmpq	%r8, -24(%rbx,%r15)
	jne	.LBB27_37
	movq	%r14, -24(%rbx,%r15)
	xorl	%ebx, %ebx
	testq	%r14, %r14
	jne	.LBB27_33
	jmp	.LBB27_34
.LBB27_32:
	movq	%r14, (%rdi)
	xorl	%ebx, %ebx
	testq	%r14, %r14
	je	.LBB27_34
.LBB27_33:
	movq	(%rsi), %r11
	shrq	$3, %r14
	leaq	(%r14,%r14,2), %r14
	movq	%rax, %r15
	orq	$3, %r15
	movq	%r15, -8(%r11,%r14,8)
	xorl	%r11d, %r11d
.LBB27_34:
	cmpq	%rdx, %r8
	je	.LBB27_47
	movq	(%rsi), %r13
	movq	-8(%r13,%rbp), %r14
	movq	-24(%r13,%rbp), %r12
	movq	-16(%r13,%rbp), %r15
	cmpq	$8, %r14
	jae	.LBB27_38
	movq	%r8, (%rdi)
	testq	%r12, %r12
	jne	.LBB27_43
	jmp	.LBB27_44
.LBB27_37:
	movq	%r14, -16(%rbx,%r15)
	movb	$1, %bl
	testq	%r14, %r14
	jne	.LBB27_33
	jmp	.LBB27_34
.LBB27_38:
	movq	%r14, %rbp
	andq	$-8, %rbp
	leaq	(%rbp,%rbp,2), %rbp
	cmpq	%rdx, -24(%r13,%rbp)
	jne	.LBB27_40
	movq	%r8, -24(%r13,%rbp)
	jmp	.LBB27_41
.LBB27_26:
	leaq	(%rbx,%r9), %rax
	movq	-24(%rbx,%r9), %r14
	testq	%r14, %r14
	jne	.LBB27_29
	jmp	.LBB27_28
.LBB27_40:
	movq	%r8, -16(%r13,%rbp)
.LBB27_41:
	leaq	(%rdx,%rdx,2), %rbp
	testq	%r12, %r12
	je	.LBB27_44
.LBB27_43:
	movq	(%rsi), %r13
	movq	%r12, %rbp
	shrq	$3, %rbp
	leaq	(%rbp,%rbp,2), %rbp
	movq	-8(%r13,%rbp,8), %rcx
	andl	$7, %ecx
	orq	%r8, %rcx
	movq	%rcx, -8(%r13,%rbp,8)
	leaq	(%rdx,%rdx,2), %rbp
.LBB27_44:
	testq	%r15, %r15
	je	.LBB27_46
	movq	(%rsi), %rcx
	movq	%r15, %r13
	shrq	$3, %r13
	leaq	(%r13,%r13,2), %r13
	movq	-8(%rcx,%r13,8), %rbp
	andl	$7, %ebp
	orq	%r8, %rbp
	movq	%rbp, -8(%rcx,%r13,8)
	leaq	(%rdx,%rdx,2), %rbp
.LBB27_46:
	movq	(%rsi), %rcx
	movq	%r12, -24(%rcx,%r9)
	movq	(%rsi), %rcx
	movq	%r15, -16(%rcx,%r9)
	movq	(%rsi), %rcx
	andq	$-7, %r14
	orq	$2, %r14
	movq	%r14, -8(%rcx,%r9)
	cmpq	%rdx, %rax
	cmoveq	%r8, %rax
.LBB27_47:
	testb	$1, %r11b
	je	.LBB27_129
	testb	%r10b, %r10b
	je	.LBB27_129
	movq	(%rsi), %r9
	movl	$67, %r10d
	.p2align	4
.LBB27_50:
	leaq	(%rax,%rax,2), %r8
	testb	$1, %bl
	je	.LBB27_58
	movq	-24(%r9,%r8), %r11
	testq	%r11, %r11
	je	.LBB27_129
	leaq	(%r11,%r11,2), %rbx
	testb	$1, -8(%r9,%rbx)
	jne	.LBB27_70
	movq	-16(%r9,%rbx), %r15
	movq	-8(%r9,%r8), %r14
	movq	%r15, -24(%r9,%r8)
	testq	%r15, %r15
	je	.LBB27_55
	movq	(%rsi), %rcx
	shrq	$3, %r15
	leaq	(%r15,%r15,2), %r9
	movq	-8(%rcx,%r9,8), %r15
	andl	$7, %r15d
	orq	%rax, %r15
	movq	%r15, -8(%rcx,%r9,8)
.LBB27_55:
	andq	$-8, %r14
	movq	%r14, %rcx
	orq	$3, %rcx
	movq	(%rsi), %r9
	movq	%rcx, -8(%r9,%rbx)
	testq	%r14, %r14
	je	.LBB27_65
	movq	(%rsi), %r9
	leaq	(%r14,%r14,2), %r14
	cmpq	%rax, -24(%r9,%r14)
	jne	.LBB27_67
	movq	%r11, -24(%r9,%r14)
	jmp	.LBB27_68
	.p2align	4
.LBB27_58:
	movq	-16(%r9,%r8), %r11
	testq	%r11, %r11
	je	.LBB27_129
	leaq	(%r11,%r11,2), %r14
	testb	$1, -8(%r9,%r14)
	jne	.LBB27_78
	movq	-24(%r9,%r14), %r15
	movq	-8(%r9,%r8), %rbx
	movq	%r15, -16(%r9,%r8)
	testq	%r15, %r15
	je	.LBB27_62
	movq	(%rsi), %rcx
	shrq	$3, %r15
	leaq	(%r15,%r15,2), %r9
	movq	-8(%rcx,%r9,8), %r15
	andl	$7, %r15d
	orq	%rax, %r15
	movq	%r15, -8(%rcx,%r9,8)
.LBB27_62:
	andq	$-8, %rbx
	movq	%rbx, %rcx
	orq	$3, %rcx
	movq	(%rsi), %r9
	movq	%rcx, -8(%r9,%r14)
	testq	%rbx, %rbx
	je	.LBB27_66
	movq	(%rsi), %r9
	leaq	(%rbx,%rbx,2), %rbx
	cmpq	%rax, -24(%r9,%rbx)
	jne	.LBB27_75
	movq	%r11, -24(%r9,%rbx)
	jmp	.LBB27_76
.LBB27_65:
	movq	%r11, (%rdi)
	jmp	.LBB27_68
.LBB27_66:
	movq	%r11, (%rdi)
	jmp	.LBB27_76
.LBB27_67:
	movq	%r11, -16(%r9,%r14)
.LBB27_68:
	movq	(%rsi), %rcx
	movq	%rax, -16(%rcx,%rbx)
	movq	(%rsi), %rcx
	orq	$2, %r11
	movq	%r11, -8(%rcx,%r8)
	movq	(%rsi), %r9
	movq	-24(%r9,%r8), %r11
	testq	%r11, %r11
	je	.LBB27_129
	leaq	(%r11,%r11,2), %rbx
.LBB27_70:
	movq	-24(%r9,%rbx), %r12
	testq	%r12, %r12
	je	.LBB27_72
	movq	%r12, %rcx
	shrq	$3, %rcx
	leaq	(%rcx,%rcx,2), %rcx
	movq	-8(%r9,%rcx,8), %r14
	testb	$1, %r14b
	je	.LBB27_97
.LBB27_72:
	movq	-16(%r9,%rbx), %r14
	testq	%r14, %r14
	je	.LBB27_74
	leaq	(%r14,%r14,2), %r15
	testb	$1, -8(%r9,%r15)
	je	.LBB27_95
.LBB27_74:
	andb	$-2, -8(%r9,%rbx)
	jmp	.LBB27_83
.LBB27_75:
	movq	%r11, -16(%r9,%rbx)
.LBB27_76:
	movq	(%rsi), %rcx
	movq	%rax, -24(%rcx,%r14)
	movq	(%rsi), %rcx
	orq	$2, %r11
	movq	%r11, -8(%rcx,%r8)
	movq	(%rsi), %r9
	movq	-16(%r9,%r8), %r11
	testq	%r11, %r11
	je	.LBB27_129
	leaq	(%r11,%r11,2), %r14
.LBB27_78:
	movq	-24(%r9,%r14), %rbx
	testq	%rbx, %rbx
	je	.LBB27_80
	leaq	(%rbx,%rbx,2), %r15
	testb	$1, -8(%r9,%r15)
	je	.LBB27_87
.LBB27_80:
	movq	-16(%r9,%r14), %rbx
	testq	%rbx, %rbx
	je	.LBB27_82
	leaq	(%rbx,%rbx,2), %r12
	movq	-8(%r9,%r12), %r13
	testb	$1, %r13b
	je	.LBB27_94
.LBB27_82:
	andb	$-2, -8(%r9,%r14)
.LBB27_83:
	movq	(%rsi), %r9
	movq	-8(%r9,%r8), %r11
	testb	$1, %r11b
	je	.LBB27_86
	movq	%r11, %r8
	andq	$-8, %r8
	je	.LBB27_129
	shrq	$3, %r11
	leaq	(%r11,%r11,2), %rcx
	cmpq	%rax, -24(%r9,%rcx,8)
	setne	%bl
	movq	%r8, %rax
	decl	%r10d
	jne	.LBB27_50
	jmp	.LBB27_129
.LBB27_86:
	orq	$1, %r11
	movq	%r11, -8(%r9,%r8)
	jmp	.LBB27_129
.LBB27_87:
	movq	-16(%r9,%r14), %r10
	testq	%r10, %r10
	je	.LBB27_89
	leaq	(%r10,%r10,2), %r12
	movq	-8(%r9,%r12), %r13
	testb	$1, %r13b
	je	.LBB27_94
.LBB27_89:
	movq	-16(%r9,%r15), %r12
	movq	-8(%r9,%r14), %r10
	andq	$-8, %r10
	movq	%r12, -24(%r9,%r14)
	testq	%r12, %r12
	je	.LBB27_91
	movq	(%rsi), %rcx
	shrq	$3, %r12
	leaq	(%r12,%r12,2), %r9
	movq	-8(%rcx,%r9,8), %r12
	andl	$7, %r12d
	orq	%r11, %r12
	movq	%r12, -8(%rcx,%r9,8)
.LBB27_91:
	movq	%r10, %rcx
	orq	$3, %rcx
	movq	(%rsi), %r9
	movq	%rcx, -8(%r9,%r15)
	testq	%r10, %r10
	je	.LBB27_117
	movq	(%rsi), %r9
	leaq	(%r10,%r10,2), %r10
	cmpq	%r11, -24(%r9,%r10)
	jne	.LBB27_118
	movq	%rbx, -24(%r9,%r10)
	jmp	.LBB27_119
.LBB27_94:
	movq	%r11, %rbx
	movq	%r14, %r15
	jmp	.LBB27_121
.LBB27_95:
	testq	%r12, %r12
	je	.LBB27_100
	movq	%r12, %rcx
	shrq	$3, %rcx
	leaq	(%rcx,%rcx,2), %rcx
	movq	-8(%r9,%rcx,8), %r14
.LBB27_97:
	testb	$1, %r14b
	je	.LBB27_105
	movq	-16(%r9,%rbx), %r14
	testq	%r14, %r14
	je	.LBB27_129
	leaq	(%r14,%r14,2), %r15
.LBB27_100:
	movq	-24(%r9,%r15), %r12
	movq	-8(%r9,%rbx), %r10
	andq	$-8, %r10
	movq	%r12, -16(%r9,%rbx)
	testq	%r12, %r12
	je	.LBB27_102
	movq	(%rsi), %rcx
	shrq	$3, %r12
	leaq	(%r12,%r12,2), %r9
	movq	-8(%rcx,%r9,8), %r12
	andl	$7, %r12d
	orq	%r11, %r12
	movq	%r12, -8(%rcx,%r9,8)
.LBB27_102:
	movq	%r10, %rcx
	orq	$3, %rcx
	movq	(%rsi), %r9
	movq	%rcx, -8(%r9,%r15)
	testq	%r10, %r10
	je	.LBB27_106
	movq	(%rsi), %r9
	leaq	(%r10,%r10,2), %r10
	cmpq	%r11, -24(%r9,%r10)
	jne	.LBB27_107
	movq	%r14, -24(%r9,%r10)
	jmp	.LBB27_108
.LBB27_105:
	movq	%r11, %r14
	movq	%rbx, %r15
	jmp	.LBB27_109
.LBB27_106:
	movq	%r14, (%rdi)
	jmp	.LBB27_108
.LBB27_107:
	movq	%r14, -16(%r9,%r10)
.LBB27_108:
	movq	(%rsi), %rcx
	movq	%r11, -24(%rcx,%r15)
	movq	(%rsi), %rcx
	movq	%r14, %r9
	orq	$2, %r9
	movq	%r9, -8(%rcx,%rbx)
	movq	(%rsi), %r9
	movq	-24(%r9,%r15), %r12
	testq	%r12, %r12
	je	.LBB27_129
.LBB27_109:
	movq	-8(%r9,%r8), %r10
	shrq	$3, %r12
	leaq	(%r12,%r12,2), %rcx
	orq	$1, -8(%r9,%rcx,8)
	andl	$1, %r10d
	movq	(%rsi), %rcx
	movq	-16(%rcx,%r15), %r11
	movq	-8(%rcx,%r8), %r9
	andq	$-8, %r9
	movq	%r11, -24(%rcx,%r8)
	testq	%r11, %r11
	je	.LBB27_111
	movq	(%rsi), %rcx
	shrq	$3, %r11
	leaq	(%r11,%r11,2), %r11
	movq	-8(%rcx,%r11,8), %rbx
	andl	$7, %ebx
	orq	%rax, %rbx
	movq	%rbx, -8(%rcx,%r11,8)
.LBB27_111:
	movq	(%rsi), %rcx
	addq	%r9, %r10
	addq	$2, %r10
	movq	%r10, -8(%rcx,%r15)
	testq	%r9, %r9
	je	.LBB27_114
	movq	(%rsi), %rdi
	leaq	(%r9,%r9,2), %r9
	cmpq	%rax, -24(%rdi,%r9)
	jne	.LBB27_115
	movq	%r14, -24(%rdi,%r9)
	jmp	.LBB27_116
.LBB27_114:
	movq	%r14, (%rdi)
	jmp	.LBB27_116
.LBB27_115:
	movq	%r14, -16(%rdi,%r9)
.LBB27_116:
	movq	(%rsi), %rcx
	movq	%rax, -16(%rcx,%r15)
	movq	(%rsi), %rax
	orq	$3, %r14
	movq	%r14, -8(%rax,%r8)
	jmp	.LBB27_129
.LBB27_117:
	movq	%rbx, (%rdi)
	jmp	.LBB27_119
.LBB27_118:
	movq	%rbx, -16(%r9,%r10)
.LBB27_119:
	movq	(%rsi), %rcx
	movq	%r11, -16(%rcx,%r15)
	movq	(%rsi), %rcx
	movq	%rbx, %r9
	orq	$2, %r9
	movq	%r9, -8(%rcx,%r14)
	movq	(%rsi), %r9
	movq	-16(%r9,%r15), %r10
	testq	%r10, %r10
	je	.LBB27_129
	leaq	(%r10,%r10,2), %r12
	movq	-8(%r9,%r12), %r13
.LBB27_121:
	movq	-8(%r9,%r8), %r10
	andl	$1, %r10d
	orq	$1, %r13
	movq	%r13, -8(%r9,%r12)
	movq	(%rsi), %rcx
	movq	-24(%rcx,%r15), %r11
	movq	-8(%rcx,%r8), %r9
	andq	$-8, %r9
	movq	%r11, -16(%rcx,%r8)
	testq	%r11, %r11
	je	.LBB27_123
	movq	(%rsi), %rcx
	shrq	$3, %r11
	leaq	(%r11,%r11,2), %r11
	movq	-8(%rcx,%r11,8), %r14
	andl	$7, %r14d
	orq	%rax, %r14
	movq	%r14, -8(%rcx,%r11,8)
.LBB27_123:
	movq	(%rsi), %rcx
	addq	%r9, %r10
	addq	$2, %r10
	movq	%r10, -8(%rcx,%r15)
	testq	%r9, %r9
	je	.LBB27_126
	movq	(%rsi), %rdi
	leaq	(%r9,%r9,2), %r9
	cmpq	%rax, -24(%rdi,%r9)
	jne	.LBB27_127
	movq	%rbx, -24(%rdi,%r9)
	jmp	.LBB27_128
.LBB27_126:
	movq	%rbx, (%rdi)
	jmp	.LBB27_128
.LBB27_127:
	movq	%rbx, -16(%rdi,%r9)
.LBB27_128:
	movq	(%rsi), %rcx
	movq	%rax, -24(%rcx,%r15)
	movq	(%rsi), %rax
	orq	$3, %rbx
	movq	%rbx, -8(%rax,%r8)
.LBB27_129:
	movq	(%rsi), %rax
	movq	$0, -8(%rax,%rbp)
	movb	$1, %al
	popq	%rbx
	popq	%r12
	popq	%r13
	popq	%r14
	popq	%r15
	popq	%rbp
	retq
.Lfunc_end27:
	.size	ic_rbtree.edits.RBTreeBidirectional.remove_at.b002bc248359831b, .Lfunc_end27-ic_rbtree.edits.RBTreeBidirectional.remove_at.b002bc248359831b
	.section	.text.unlikely.ic_rbtree.steps.end_from_null.9168104deb0006b5,"ax",@progbits
	.p2align	4
	.type	ic_rbtree.steps.end_from_null.9168104deb0006b5,@function
ic_rbtree.steps.end_from_null.9168104deb0006b5:
	cmpb	$1, %sil
	jne	.LBB28_1
	movq	%rdx, %rax
	movq	(%rdi), %rdx
	movzbl	%cl, %ecx
	leaq	(%rdx,%rcx,8), %rcx
	addq	$-24, %rcx
	.p2align	4
.LBB28_3:
	movq	%rax, %rdx
	shrq	$3, %rax
	leaq	(%rax,%rax,2), %rax
	movq	(%rcx,%rax,8), %rax
	testq	%rax, %rax
	jne	.LBB28_3
	movb	$1, %al
	retq
.LBB28_1:
	xorl	%edx, %edx
	xorl	%eax, %eax
	retq
.Lfunc_end28:
	.size	ic_rbtree.steps.end_from_null.9168104deb0006b5, .Lfunc_end28-ic_rbtree.steps.end_from_null.9168104deb0006b5
	.section	.text.ic_any_collection.any_collection.AnyCollection.move_next.87ed5b954c3afc77,"ax",@progbits
	.p2align	4
	.type	ic_any_collection.any_collection.AnyCollection.move_next.87ed5b954c3afc77,@function
ic_any_collection.any_collection.AnyCollection.move_next.87ed5b954c3afc77:
	pushq	%r14
	pushq	%rbx
	pushq	%rax
	movzbl	(%rdi), %eax
	leaq	.LJTI29_0(%rip), %rcx
	movslq	(%rcx,%rax,4), %rax
	addq	%rcx, %rax
	jmpq	*%rax
.LBB29_1:
	movq	16(%rdi), %rax
	testq	%rax, %rax
	je	.LBB29_2
	movzbl	(%rsi), %ecx
	cmpl	$2, %ecx
	je	.LBB29_5
	cmpl	$1, %ecx
	movq	8(%rsi), %rcx
	addq	%rcx, %rax
	addq	$-8, %rax
	movq	(%rax), %rdx
	jmp	.LBB29_37
.LBB29_13:
	movq	24(%rdi), %rax
	testq	%rax, %rax
	je	.LBB29_14
	movq	32(%rdi), %rcx
	xorl	%edx, %edx
	xorq	%rcx, %rax
	movl	$0, %r8d
	je	.LBB29_28
	movzbl	(%rsi), %edx
	cmpl	$2, %edx
	je	.LBB29_24
	cmpl	$1, %edx
	movq	8(%rsi), %rdx
	addq	%rax, %rdx
	addq	$-8, %rdx
	jmp	.LBB29_27
.LBB29_29:
	cmpb	$2, (%rsi)
	jne	.LBB29_39
	cmpb	$1, 8(%rsi)
	jne	.LBB29_39
	movq	16(%rdi), %rcx
	testq	%rcx, %rcx
	je	.LBB29_40
	movq	16(%rsi), %rax
	leaq	(%rcx,%rcx,2), %rsi
	movq	-16(%rax,%rsi), %r8
	testq	%r8, %r8
	je	.LBB29_34
	.p2align	4
.LBB29_33:
	movq	%r8, %rdx
	movq	%r8, %rcx
	shrq	$3, %rcx
	leaq	(%rcx,%rcx,2), %rcx
	movq	-24(%rax,%rcx,8), %r8
	testq	%r8, %r8
	jne	.LBB29_33
	jmp	.LBB29_37
	.p2align	4
.LBB29_36:
	andq	$-8, %rsi
	leaq	(%rsi,%rsi,2), %rsi
	cmpq	%rcx, -16(%rax,%rsi)
	movq	%rdx, %rcx
	jne	.LBB29_37
.LBB29_34:
	movq	-8(%rax,%rsi), %rsi
	movq	%rsi, %rdx
	andq	$-8, %rdx
	jne	.LBB29_36
	xorl	%edx, %edx
	jmp	.LBB29_37
.LBB29_9:
	cmpb	$2, (%rsi)
	jne	.LBB29_39
	movq	24(%rdi), %rax
	testq	%rax, %rax
	je	.LBB29_11
	movq	16(%rsi), %rcx
	leaq	(%rax,%rax), %rdx
	cmpb	$0, 8(%rsi)
	leaq	(%rax,%rax,2), %rax
	cmoveq	%rdx, %rax
	movq	-16(%rcx,%rax), %rdx
	movq	%rdx, 24(%rdi)
	jmp	.LBB29_38
.LBB29_5:
	cmpb	$0, 8(%rsi)
	movq	16(%rsi), %rcx
	je	.LBB29_6
	shrq	$3, %rax
	leaq	(%rax,%rax,2), %rax
	leaq	(%rcx,%rax,8), %rax
	addq	$-16, %rax
	movq	(%rax), %rdx
	jmp	.LBB29_37
.LBB29_24:
	cmpb	$0, 8(%rsi)
	movq	16(%rsi), %rdx
	je	.LBB29_25
	movq	%rax, %rsi
	shrq	$3, %rsi
	leaq	(%rsi,%rsi,2), %rsi
	leaq	(%rdx,%rsi,8), %rdx
	addq	$-16, %rdx
	jmp	.LBB29_27
.LBB29_6:
	leaq	(%rcx,%rax,2), %rax
	addq	$-16, %rax
	movq	(%rax), %rdx
	jmp	.LBB29_37
.LBB29_25:
	leaq	(%rdx,%rax,2), %rdx
	addq	$-16, %rdx
.LBB29_27:
	xorq	(%rdx), %rcx
	movq	%rax, %rdx
	movq	%rcx, %r8
.LBB29_28:
	movq	%rdx, 24(%rdi)
	movq	%r8, 32(%rdi)
	jmp	.LBB29_38
.LBB29_14:
	movq	8(%rdi), %rax
	movq	%rdi, %rbx
	movq	%rax, %rdi
	movq	%rsi, %r14
	callq	ic_chain.list.LinkList.head_from_null.634a9fa49d0f2abe
	movq	%rbx, %rdi
	movq	%rdx, %rcx
	xorl	%edx, %edx
	movl	$0, %r8d
	cmpb	$1, %al
	jne	.LBB29_28
	movq	%r14, %rsi
	movzbl	(%r14), %eax
	cmpl	$2, %eax
	je	.LBB29_17
	cmpl	$1, %eax
	movq	8(%rsi), %rax
	addq	%rcx, %rax
	addq	$-8, %rax
	jmp	.LBB29_20
.LBB29_2:
	movq	8(%rdi), %rax
	movq	%rdi, %rbx
	movq	%rax, %rdi
	callq	ic_chain.list.LinkList.head_from_null.634a9fa49d0f2abe
	movq	%rdx, %rcx
	xorl	%edx, %edx
	testb	$1, %al
	cmovneq	%rcx, %rdx
	movq	%rdx, 16(%rbx)
	jmp	.LBB29_38
.LBB29_11:
	movq	8(%rdi), %rax
	movq	%rdi, %rbx
	movq	%rax, %rdi
	callq	ic_chain.list.LinkList.head_from_null.634a9fa49d0f2abe
	movq	%rdx, %rcx
	xorl	%edx, %edx
	testb	$1, %al
	cmovneq	%rcx, %rdx
	movq	%rdx, 24(%rbx)
	jmp	.LBB29_38
.LBB29_40:
	movq	8(%rdi), %rdx
	xorl	%eax, %eax
	testq	%rdx, %rdx
	setne	%al
	addq	$16, %rsi
	movq	%rdi, %rbx
	movq	%rsi, %rdi
	movl	%eax, %esi
	xorl	%ecx, %ecx
	callq	ic_rbtree.steps.end_from_null.9168104deb0006b5
	movq	%rbx, %rdi
	movq	%rdx, %rcx
	xorl	%edx, %edx
	testb	%al, %al
	cmovneq	%rcx, %rdx
.LBB29_37:
	movq	%rdx, 16(%rdi)
.LBB29_38:
	testq	%rdx, %rdx
	setne	%al
	addq	$8, %rsp
	popq	%rbx
	popq	%r14
	retq
.LBB29_17:
	cmpb	$0, 8(%rsi)
	movq	16(%rsi), %rax
	je	.LBB29_18
	movq	%rcx, %rdx
	shrq	$3, %rdx
	leaq	(%rdx,%rdx,2), %rdx
	leaq	(%rax,%rdx,8), %rax
	addq	$-16, %rax
	jmp	.LBB29_20
.LBB29_18:
	leaq	(%rax,%rcx,2), %rax
	addq	$-16, %rax
.LBB29_20:
	movq	(%rax), %r8
	xorq	%rcx, %r8
	movq	%rcx, %rdx
	jmp	.LBB29_28
.LBB29_39:
	ud2
.Lfunc_end29:
	.size	ic_any_collection.any_collection.AnyCollection.move_next.87ed5b954c3afc77, .Lfunc_end29-ic_any_collection.any_collection.AnyCollection.move_next.87ed5b954c3afc77
	.section	.rodata.ic_any_collection.any_collection.AnyCollection.move_next.87ed5b954c3afc77,"a",@progbits
	.p2align	2, 0x0
.LJTI29_0:
	.long	.LBB29_1-.LJTI29_0
	.long	.LBB29_9-.LJTI29_0
	.long	.LBB29_13-.LJTI29_0
	.long	.LBB29_29-.LJTI29_0
	.section	.text.unlikely.ic_chain.list.LinkList.head_from_null.634a9fa49d0f2abe,"ax",@progbits
	.p2align	4
	.type	ic_chain.list.LinkList.head_from_null.634a9fa49d0f2abe,@function
ic_chain.list.LinkList.head_from_null.634a9fa49d0f2abe:
	testq	%rdi, %rdi
	setne	%al
	movq	%rdi, %rdx
	retq
.Lfunc_end30:
	.size	ic_chain.list.LinkList.head_from_null.634a9fa49d0f2abe, .Lfunc_end30-ic_chain.list.LinkList.head_from_null.634a9fa49d0f2abe
	.section	.text.ic_any_collection.any_collection.AnyCollection.move_prev.87ed5b954c3afc77,"ax",@progbits
	.p2align	4
	.type	ic_any_collection.any_collection.AnyCollection.move_prev.87ed5b954c3afc77,@function
ic_any_collection.any_collection.AnyCollection.move_prev.87ed5b954c3afc77:
	pushq	%rbx
	movzbl	(%rdi), %eax
	leaq	.LJTI31_0(%rip), %rcx
	movslq	(%rcx,%rax,4), %rax
	addq	%rcx, %rax
	jmpq	*%rax
.LBB31_1:
	cmpb	$2, (%rsi)
	jne	.LBB31_24
	movq	24(%rdi), %rax
	testq	%rax, %rax
	je	.LBB31_3
	movq	%rax, %rcx
	shrq	$3, %rcx
	cmpb	$0, 8(%rsi)
	movq	16(%rsi), %rdx
	leaq	(%rcx,%rcx,2), %rcx
	leaq	-8(%rdx,%rax,2), %rax
	leaq	-24(%rdx,%rcx,8), %rcx
	cmoveq	%rax, %rcx
	movq	(%rcx), %rdx
	movq	%rdx, 24(%rdi)
	testq	%rdx, %rdx
	setne	%al
	popq	%rbx
	retq
.LBB31_5:
	movq	24(%rdi), %rdx
	testq	%rdx, %rdx
	je	.LBB31_6
	movq	32(%rdi), %rax
	movzbl	(%rsi), %ecx
	cmpl	$2, %ecx
	je	.LBB31_9
	cmpl	$1, %ecx
	movq	8(%rsi), %rcx
	addq	%rdx, %rcx
	addq	$-8, %rcx
	jmp	.LBB31_12
.LBB31_14:
	cmpb	$2, (%rsi)
	jne	.LBB31_24
	cmpb	$1, 8(%rsi)
	jne	.LBB31_24
	movq	16(%rdi), %rcx
	testq	%rcx, %rcx
	je	.LBB31_25
	movq	16(%rsi), %rax
	leaq	(%rcx,%rcx,2), %rsi
	movq	-24(%rax,%rsi), %r8
	testq	%r8, %r8
	je	.LBB31_19
	.p2align	4
.LBB31_18:
	movq	%r8, %rdx
	movq	%r8, %rcx
	shrq	$3, %rcx
	leaq	(%rcx,%rcx,2), %rcx
	movq	-16(%rax,%rcx,8), %r8
	testq	%r8, %r8
	jne	.LBB31_18
	jmp	.LBB31_22
	.p2align	4
.LBB31_21:
	andq	$-8, %rsi
	leaq	(%rsi,%rsi,2), %rsi
	cmpq	%rcx, -24(%rax,%rsi)
	movq	%rdx, %rcx
	jne	.LBB31_22
.LBB31_19:
	movq	-8(%rax,%rsi), %rsi
	movq	%rsi, %rdx
	andq	$-8, %rdx
	jne	.LBB31_21
	xorl	%edx, %edx
	jmp	.LBB31_22
.LBB31_9:
	cmpb	$0, 8(%rsi)
	movq	16(%rsi), %rcx
	je	.LBB31_10
	movq	%rdx, %rsi
	shrq	$3, %rsi
	leaq	(%rsi,%rsi,2), %rsi
	leaq	(%rcx,%rsi,8), %rcx
	addq	$-16, %rcx
	jmp	.LBB31_12
.LBB31_10:
	leaq	(%rcx,%rdx,2), %rcx
	addq	$-16, %rcx
.LBB31_12:
	xorq	(%rcx), %rax
	xorq	%rax, %rdx
.LBB31_13:
	movq	%rdx, 24(%rdi)
	movq	%rax, 32(%rdi)
	testq	%rdx, %rdx
	setne	%al
	popq	%rbx
	retq
.LBB31_6:
	movq	16(%rdi), %rax
	movq	%rdi, %rbx
	movq	%rax, %rdi
	callq	ic_chain.list.LinkList.head_from_null.634a9fa49d0f2abe
	movq	%rbx, %rdi
	movq	%rdx, %rcx
	xorl	%edx, %edx
	testb	%al, %al
	cmovneq	%rcx, %rdx
	movq	%rdx, %rax
	jmp	.LBB31_13
.LBB31_3:
	movq	16(%rdi), %rax
	movq	%rdi, %rbx
	movq	%rax, %rdi
	callq	ic_chain.list.LinkList.head_from_null.634a9fa49d0f2abe
	movq	%rdx, %rcx
	xorl	%edx, %edx
	testb	%al, %al
	cmovneq	%rcx, %rdx
	movq	%rdx, 24(%rbx)
	testq	%rdx, %rdx
	setne	%al
	popq	%rbx
	retq
.LBB31_25:
	movq	8(%rdi), %rdx
	xorl	%eax, %eax
	testq	%rdx, %rdx
	setne	%al
	addq	$16, %rsi
	movq	%rdi, %rbx
	movq	%rsi, %rdi
	movl	%eax, %esi
	movl	$1, %ecx
	callq	ic_rbtree.steps.end_from_null.9168104deb0006b5
	movq	%rbx, %rdi
	movq	%rdx, %rcx
	xorl	%edx, %edx
	testb	%al, %al
	cmovneq	%rcx, %rdx
.LBB31_22:
	movq	%rdx, 16(%rdi)
	testq	%rdx, %rdx
	setne	%al
	popq	%rbx
	retq
.LBB31_24:
	ud2
.Lfunc_end31:
	.size	ic_any_collection.any_collection.AnyCollection.move_prev.87ed5b954c3afc77, .Lfunc_end31-ic_any_collection.any_collection.AnyCollection.move_prev.87ed5b954c3afc77
	.section	.rodata.ic_any_collection.any_collection.AnyCollection.move_prev.87ed5b954c3afc77,"a",@progbits
	.p2align	2, 0x0
.LJTI31_0:
	.long	.LBB31_24-.LJTI31_0
	.long	.LBB31_1-.LJTI31_0
	.long	.LBB31_5-.LJTI31_0
	.long	.LBB31_14-.LJTI31_0
	.section	.text.ic_world.calls.seek.SeekCollectionCall.is_placed.345c281869c73935,"ax",@progbits
	.p2align	4
	.type	ic_world.calls.seek.SeekCollectionCall.is_placed.345c281869c73935,@function
ic_world.calls.seek.SeekCollectionCall.is_placed.345c281869c73935:
	movzbl	(%rdi), %ecx
	movb	$1, %al
	testl	%ecx, %ecx
	je	.LBB32_10
	cmpl	$2, %ecx
	jne	.LBB32_2
	movq	8(%rdi), %r8
	movq	8(%rsi), %rcx
	shrq	$3, %r8
	decq	%r8
	cmpq	%rcx, %r8
	jae	.LBB32_9
	movq	(%rsi), %rdx
	shlq	$4, %r8
	cmpb	$1, (%rdx,%r8)
	jne	.LBB32_9
	cmpb	$0, 16(%rdi)
	je	.LBB32_10
	movq	24(%rdi), %rsi
	shrq	$3, %rsi
	decq	%rsi
	cmpq	%rcx, %rsi
	jae	.LBB32_9
	shlq	$4, %rsi
	cmpb	$1, (%rdx,%rsi)
	jne	.LBB32_9
	jmp	.LBB32_10
.LBB32_2:
	movq	8(%rdi), %rcx
	shrq	$3, %rcx
	decq	%rcx
	cmpq	8(%rsi), %rcx
	jae	.LBB32_9
	movq	(%rsi), %rdx
	shlq	$4, %rcx
	cmpb	$1, (%rdx,%rcx)
	je	.LBB32_10
.LBB32_9:
	xorl	%eax, %eax
.LBB32_10:
	retq
.Lfunc_end32:
	.size	ic_world.calls.seek.SeekCollectionCall.is_placed.345c281869c73935, .Lfunc_end32-ic_world.calls.seek.SeekCollectionCall.is_placed.345c281869c73935
	.section	.text.ic_world.calls.seek.seek_on.87ed5b954c3afc77,"ax",@progbits
	.p2align	4
	.type	ic_world.calls.seek.seek_on.87ed5b954c3afc77,@function
ic_world.calls.seek.seek_on.87ed5b954c3afc77:
	pushq	%rbp
	pushq	%r15
	pushq	%r14
	pushq	%r12
	pushq	%rbx
	movq	%rdx, %rbx
	movq	%rdi, %r14
	movzbl	(%rsi), %ebp
	cmpl	$2, %ebp
	je	.LBB33_3
	cmpl	$1, %ebp
	movq	8(%rsi), %rax
	cmpq	$1, -8(%rax,%rbx)
	jne	.LBB33_7
	jmp	.LBB33_2
.LBB33_3:
	cmpb	$0, 8(%rsi)
	movq	16(%rsi), %rcx
	je	.LBB33_4
	movq	%rbx, %rax
	shrq	$3, %rax
	leaq	(%rax,%rax,2), %rdi
	movb	$1, %al
	movb	$7, %dl
	testb	$2, -8(%rcx,%rdi,8)
	jne	.LBB33_7
	jmp	.LBB33_18
.LBB33_4:
	cmpq	$1, -16(%rcx,%rbx,2)
	je	.LBB33_2
	xorl	%eax, %eax
.LBB33_7:
	movq	%rax, %r15
	movq	%r14, %rdi
	movq	%rsi, %r12
	movq	%rbx, %rdx
	callq	ic_any_collection.any_collection.AnyCollection.contains.87ed5b954c3afc77
	testb	%al, %al
	je	.LBB33_2
	movzbl	(%r14), %eax
	leaq	.LJTI33_0(%rip), %rcx
	movslq	(%rcx,%rax,4), %rax
	addq	%rcx, %rax
	jmpq	*%rax
.LBB33_16:
	movq	%rbx, 16(%r14)
	jmp	.LBB33_17
.LBB33_2:
	movb	$1, %al
	movb	$7, %dl
	jmp	.LBB33_18
.LBB33_9:
	movq	%rbx, 24(%r14)
	jmp	.LBB33_17
.LBB33_10:
	cmpl	$2, %ebp
	je	.LBB33_12
	cmpl	$1, %ebp
	movq	8(%r12), %rax
	addq	%rbx, %rax
	addq	$-8, %rax
	jmp	.LBB33_15
.LBB33_12:
	movq	16(%r12), %rax
	testb	%r15b, %r15b
	je	.LBB33_13
	movq	%rbx, %rcx
	shrq	$3, %rcx
	leaq	(%rcx,%rcx,2), %rcx
	leaq	(%rax,%rcx,8), %rax
	addq	$-16, %rax
	jmp	.LBB33_15
.LBB33_13:
	leaq	(%rax,%rbx,2), %rax
	addq	$-16, %rax
.LBB33_15:
	movq	(%rax), %rax
	xorq	%rbx, %rax
	movq	%rbx, 24(%r14)
	movq	%rax, 32(%r14)
.LBB33_17:
	xorl	%edx, %edx
	xorl	%eax, %eax
.LBB33_18:
	popq	%rbx
	popq	%r12
	popq	%r14
	popq	%r15
	popq	%rbp
	retq
.Lfunc_end33:
	.size	ic_world.calls.seek.seek_on.87ed5b954c3afc77, .Lfunc_end33-ic_world.calls.seek.seek_on.87ed5b954c3afc77
	.section	.rodata.ic_world.calls.seek.seek_on.87ed5b954c3afc77,"a",@progbits
	.p2align	2, 0x0
.LJTI33_0:
	.long	.LBB33_16-.LJTI33_0
	.long	.LBB33_9-.LJTI33_0
	.long	.LBB33_10-.LJTI33_0
	.long	.LBB33_16-.LJTI33_0
	.section	.text.ic_any_collection.any_collection.AnyCollection.contains.87ed5b954c3afc77,"ax",@progbits
	.p2align	4
	.type	ic_any_collection.any_collection.AnyCollection.contains.87ed5b954c3afc77,@function
ic_any_collection.any_collection.AnyCollection.contains.87ed5b954c3afc77:
	movzbl	(%rdi), %eax
	leaq	.LJTI34_0(%rip), %rcx
	movslq	(%rcx,%rax,4), %rax
	addq	%rcx, %rax
	jmpq	*%rax
.LBB34_1:
	movq	8(%rdi), %rcx
	testq	%rcx, %rcx
	setne	%al
	sete	%dil
	cmpq	%rdx, %rcx
	sete	%r8b
	orb	%dil, %r8b
	jne	.LBB34_53
	movzbl	(%rsi), %eax
	cmpl	$2, %eax
	je	.LBB34_10
	cmpl	$1, %eax
	jne	.LBB34_4
	movq	8(%rsi), %rsi
	.p2align	4
.LBB34_8:
	movq	-8(%rsi,%rcx), %rcx
	testq	%rcx, %rcx
	setne	%al
	cmpq	%rdx, %rcx
	je	.LBB34_53
	testq	%rcx, %rcx
	jne	.LBB34_8
.LBB34_53:
	retq
.LBB34_22:
	movq	8(%rdi), %rcx
	testq	%rcx, %rcx
	setne	%al
	sete	%dil
	cmpq	%rdx, %rcx
	sete	%r8b
	orb	%dil, %r8b
	jne	.LBB34_53
	movzbl	(%rsi), %eax
	cmpl	$2, %eax
	je	.LBB34_31
	cmpl	$1, %eax
	jne	.LBB34_25
	movq	8(%rsi), %rsi
	xorl	%edi, %edi
	.p2align	4
.LBB34_29:
	movq	%rdi, %r8
	xorq	-8(%rsi,%rcx), %r8
	setne	%al
	je	.LBB34_53
	movq	%rcx, %rdi
	movq	%r8, %rcx
	cmpq	%rdx, %r8
	jne	.LBB34_29
	jmp	.LBB34_53
.LBB34_38:
	cmpb	$2, (%rsi)
	jne	.LBB34_54
	cmpb	$1, 8(%rsi)
	jne	.LBB34_54
	movq	16(%rsi), %rcx
	movq	%rdx, %rax
	shrq	$3, %rax
	leaq	(%rax,%rax,2), %rax
	movq	-8(%rcx,%rax,8), %rax
	testb	$2, %al
	jne	.LBB34_41
.LBB34_52:
	xorl	%eax, %eax
	retq
.LBB34_15:
	cmpb	$2, (%rsi)
	jne	.LBB34_54
	movq	8(%rdi), %rcx
	testq	%rcx, %rcx
	setne	%al
	sete	%dil
	cmpq	%rdx, %rcx
	sete	%r8b
	orb	%dil, %r8b
	jne	.LBB34_53
	movq	16(%rsi), %rdi
	cmpb	$0, 8(%rsi)
	je	.LBB34_18
	.p2align	4
.LBB34_20:
	shrq	$3, %rcx
	leaq	(%rcx,%rcx,2), %rax
	movq	-16(%rdi,%rax,8), %rcx
	testq	%rcx, %rcx
	setne	%al
	cmpq	%rdx, %rcx
	je	.LBB34_53
	testq	%rcx, %rcx
	jne	.LBB34_20
	jmp	.LBB34_53
	.p2align	4
.LBB34_19:
	testq	%rcx, %rcx
	je	.LBB34_53
.LBB34_18:
	movq	-16(%rdi,%rcx,2), %rcx
	testq	%rcx, %rcx
	setne	%al
	cmpq	%rdx, %rcx
	jne	.LBB34_19
	jmp	.LBB34_53
.LBB34_41:
	movq	%rax, %r10
	andq	$-8, %r10
	je	.LBB34_42
	movq	24(%rsi), %rsi
	xorl	%r8d, %r8d
	jmp	.LBB34_45
	.p2align	4
.LBB34_51:
	cmpq	$64, %r8
	ja	.LBB34_52
.LBB34_50:
	incq	%r8
	movq	%r9, %rax
	shrq	$3, %rax
	leaq	(%rax,%rax,2), %rax
	movq	-8(%rcx,%rax,8), %rax
	movq	%rax, %r10
	movq	%r9, %rdx
	andq	$-8, %r10
	je	.LBB34_43
.LBB34_45:
	movq	%r10, %r9
	shrq	$3, %rax
	leaq	-1(%rax), %r10
	cmpq	%r10, %rsi
	jbe	.LBB34_52
	shlq	$3, %rax
	leaq	(%rax,%rax,2), %r10
	testb	$2, -8(%rcx,%r10)
	je	.LBB34_52
	cmpq	%rdx, -24(%rcx,%r10)
	je	.LBB34_51
	xorl	%eax, %eax
	cmpq	%rdx, -16(%rcx,%r10)
	jne	.LBB34_53
	cmpq	$65, %r8
	jb	.LBB34_50
	jmp	.LBB34_53
.LBB34_42:
	movq	%rdx, %r9
.LBB34_43:
	cmpq	%r9, 8(%rdi)
	sete	%al
	retq
.LBB34_31:
	cmpb	$0, 8(%rsi)
	movq	16(%rsi), %rsi
	je	.LBB34_35
	xorl	%edi, %edi
	.p2align	4
.LBB34_33:
	movq	%rcx, %rax
	shrq	$3, %rax
	leaq	(%rax,%rax,2), %rax
	movq	%rdi, %r8
	xorq	-16(%rsi,%rax,8), %r8
	setne	%al
	je	.LBB34_53
	movq	%rcx, %rdi
	movq	%r8, %rcx
	cmpq	%rdx, %r8
	jne	.LBB34_33
	jmp	.LBB34_53
.LBB34_10:
	cmpb	$0, 8(%rsi)
	movq	16(%rsi), %rsi
	je	.LBB34_11
	.p2align	4
.LBB34_13:
	shrq	$3, %rcx
	leaq	(%rcx,%rcx,2), %rax
	movq	-16(%rsi,%rax,8), %rcx
	testq	%rcx, %rcx
	setne	%al
	cmpq	%rdx, %rcx
	je	.LBB34_53
	testq	%rcx, %rcx
	jne	.LBB34_13
	jmp	.LBB34_53
	.p2align	4
.LBB34_12:
	testq	%rcx, %rcx
	je	.LBB34_53
.LBB34_11:
	movq	-16(%rsi,%rcx,2), %rcx
	testq	%rcx, %rcx
	setne	%al
	cmpq	%rdx, %rcx
	jne	.LBB34_12
	jmp	.LBB34_53
.LBB34_25:
	movq	8(%rsi), %rsi
	xorl	%edi, %edi
	.p2align	4
.LBB34_26:
	movq	%rdi, %r8
	xorq	-8(%rsi,%rcx), %r8
	setne	%al
	je	.LBB34_53
	movq	%rcx, %rdi
	movq	%r8, %rcx
	cmpq	%rdx, %r8
	jne	.LBB34_26
	jmp	.LBB34_53
.LBB34_4:
	movq	8(%rsi), %rsi
	.p2align	4
.LBB34_5:
	movq	-8(%rsi,%rcx), %rcx
	testq	%rcx, %rcx
	setne	%al
	cmpq	%rdx, %rcx
	je	.LBB34_53
	testq	%rcx, %rcx
	jne	.LBB34_5
	jmp	.LBB34_53
.LBB34_35:
	xorl	%edi, %edi
	.p2align	4
.LBB34_36:
	movq	%rdi, %r8
	xorq	-16(%rsi,%rcx,2), %r8
	setne	%al
	je	.LBB34_53
	movq	%rcx, %rdi
	movq	%r8, %rcx
	cmpq	%rdx, %r8
	jne	.LBB34_36
	jmp	.LBB34_53
.LBB34_54:
	ud2
.Lfunc_end34:
	.size	ic_any_collection.any_collection.AnyCollection.contains.87ed5b954c3afc77, .Lfunc_end34-ic_any_collection.any_collection.AnyCollection.contains.87ed5b954c3afc77
	.section	.rodata.ic_any_collection.any_collection.AnyCollection.contains.87ed5b954c3afc77,"a",@progbits
	.p2align	2, 0x0
.LJTI34_0:
	.long	.LBB34_1-.LJTI34_0
	.long	.LBB34_15-.LJTI34_0
	.long	.LBB34_22-.LJTI34_0
	.long	.LBB34_38-.LJTI34_0
	.section	.text.ic_world.calls.seek.seek_with.87ed5b954c3afc77,"ax",@progbits
	.p2align	4
	.type	ic_world.calls.seek.seek_with.87ed5b954c3afc77,@function
ic_world.calls.seek.seek_with.87ed5b954c3afc77:
	pushq	%rbp
	pushq	%r15
	pushq	%r14
	pushq	%r13
	pushq	%r12
	pushq	%rbx
	subq	$40, %rsp
	movq	%rcx, %rbx
	movq	%rsi, %r15
	movq	%rdi, %r14
	movzbl	(%rsi), %ebp
	cmpl	$2, %ebp
	je	.LBB35_3
	cmpl	$1, %ebp
	movq	8(%r15), %r13
	cmpq	$1, -8(%r13,%rbx)
	jne	.LBB35_7
	jmp	.LBB35_2
.LBB35_3:
	movzbl	8(%r15), %r13d
	movq	16(%r15), %rax
	testb	%r13b, %r13b
	je	.LBB35_4
	movq	%rbx, %rcx
	shrq	$3, %rcx
	leaq	(%rcx,%rcx,2), %rcx
	testb	$2, -8(%rax,%rcx,8)
	jne	.LBB35_7
	jmp	.LBB35_2
.LBB35_4:
	cmpq	$1, -16(%rax,%rbx,2)
	je	.LBB35_2
	xorl	%r13d, %r13d
.LBB35_7:
	movzbl	(%r14), %r10d
	leaq	.LJTI35_0(%rip), %rax
	movslq	(%rax,%r10,4), %rcx
	addq	%rax, %rcx
	jmpq	*%rcx
.LBB35_13:
	movq	8(%r14), %rax
	testq	%rax, %rax
	jne	.LBB35_14
	jmp	.LBB35_2
.LBB35_8:
	cmpl	$2, %ebp
	jne	.LBB35_40
	cmpb	$1, %r13b
	jne	.LBB35_40
	movq	8(%r14), %rsi
	testq	%rsi, %rsi
	je	.LBB35_2
	movq	16(%r15), %rcx
	.p2align	4
.LBB35_12:
	movq	%rsi, %rax
	shrq	$3, %rsi
	leaq	(%rsi,%rsi,2), %rsi
	movq	-24(%rcx,%rsi,8), %rsi
	testq	%rsi, %rsi
	jne	.LBB35_12
.LBB35_14:
	cmpq	%rbx, %rax
	jne	.LBB35_18
	xorl	%ecx, %ecx
	xorl	%esi, %esi
	cmpb	$1, %dl
	jne	.LBB35_23
.LBB35_17:
	movq	%rcx, %rdi
	testb	%r8b, %r8b
	je	.LBB35_25
.LBB35_27:
	movb	$1, %al
	movb	$8, %dl
	cmpb	$1, %sil
	jne	.LBB35_39
	cmpq	%rdi, %r9
	jne	.LBB35_39
	jmp	.LBB35_29
.LBB35_18:
	movq	%r10, 16(%rsp)
	movl	%edx, 36(%rsp)
	movl	%r8d, 12(%rsp)
	movq	%r9, 24(%rsp)
	movq	%r14, %rdi
	movq	%r15, %rsi
	xorl	%edx, %edx
	movq	%rax, %r8
	xorl	%ecx, %ecx
	movq	%rax, %r12
	callq	ic_any_collection.any_collection.AnyCollection.after.87ed5b954c3afc77
	movl	%eax, %ecx
	movq	%rdx, %rsi
	movb	$1, %al
	movb	$7, %dl
	cmpb	$1, %cl
	jne	.LBB35_39
	movq	%r12, %rcx
	movq	%rsi, %rdx
	.p2align	4
.LBB35_20:
	cmpq	%rbx, %rdx
	je	.LBB35_21
	movq	%rdx, %r12
	movq	%r14, %rdi
	movq	%r15, %rsi
	movl	$1, %edx
	movq	%r12, %r8
	callq	ic_any_collection.any_collection.AnyCollection.after.87ed5b954c3afc77
	movq	%r12, %rcx
	cmpb	$1, %al
	je	.LBB35_20
.LBB35_2:
	movb	$1, %al
	movb	$7, %dl
.LBB35_39:
	addq	$40, %rsp
	popq	%rbx
	popq	%r12
	popq	%r13
	popq	%r14
	popq	%r15
	popq	%rbp
	retq
.LBB35_21:
	movb	$1, %sil
	movq	24(%rsp), %r9
	movl	12(%rsp), %r8d
	movl	36(%rsp), %edx
	movq	16(%rsp), %r10
	cmpb	$1, %dl
	je	.LBB35_17
.LBB35_23:
	movzbl	%sil, %edx
	movq	%r14, %rdi
	movq	%r15, %rsi
	movq	%rcx, %r12
	movl	%r8d, 12(%rsp)
	movq	%rbx, %r8
	movq	%r9, 24(%rsp)
	movq	%r10, 16(%rsp)
	callq	ic_any_collection.any_collection.AnyCollection.after.87ed5b954c3afc77
	movq	16(%rsp), %r10
	movq	%r12, %rcx
	movl	12(%rsp), %r8d
	movq	24(%rsp), %r9
	movl	%eax, %esi
	movq	%rdx, %rdi
	testb	%r8b, %r8b
	jne	.LBB35_27
.LBB35_25:
	testb	%sil, %sil
	je	.LBB35_29
	movb	$1, %al
	movb	$8, %dl
	jmp	.LBB35_39
.LBB35_29:
	movl	%r10d, %eax
	leaq	.LJTI35_1(%rip), %rdx
	movslq	(%rdx,%rax,4), %rax
	addq	%rdx, %rax
	jmpq	*%rax
.LBB35_37:
	movq	%rbx, 16(%r14)
	jmp	.LBB35_38
.LBB35_30:
	movq	%rbx, 24(%r14)
	jmp	.LBB35_38
.LBB35_31:
	cmpl	$2, %ebp
	je	.LBB35_33
	cmpl	$1, %ebp
	movq	8(%r15), %rax
	addq	%rbx, %rax
	addq	$-8, %rax
	jmp	.LBB35_36
.LBB35_33:
	movq	16(%r15), %rax
	testb	%r13b, %r13b
	je	.LBB35_34
	movq	%rbx, %rdx
	shrq	$3, %rdx
	leaq	(%rdx,%rdx,2), %rdx
	leaq	(%rax,%rdx,8), %rax
	addq	$-16, %rax
	jmp	.LBB35_36
.LBB35_34:
	leaq	(%rax,%rbx,2), %rax
	addq	$-16, %rax
.LBB35_36:
	movq	(%rax), %rax
	xorq	%rbx, %rax
	xorq	%rcx, %rax
	movq	%rbx, 24(%r14)
	movq	%rax, 32(%r14)
.LBB35_38:
	xorl	%edx, %edx
	xorl	%eax, %eax
	jmp	.LBB35_39
.LBB35_40:
	ud2
.Lfunc_end35:
	.size	ic_world.calls.seek.seek_with.87ed5b954c3afc77, .Lfunc_end35-ic_world.calls.seek.seek_with.87ed5b954c3afc77
	.section	.rodata.ic_world.calls.seek.seek_with.87ed5b954c3afc77,"a",@progbits
	.p2align	2, 0x0
.LJTI35_0:
	.long	.LBB35_13-.LJTI35_0
	.long	.LBB35_13-.LJTI35_0
	.long	.LBB35_13-.LJTI35_0
	.long	.LBB35_8-.LJTI35_0
.LJTI35_1:
	.long	.LBB35_37-.LJTI35_1
	.long	.LBB35_30-.LJTI35_1
	.long	.LBB35_31-.LJTI35_1
	.long	.LBB35_37-.LJTI35_1
	.section	.text.ic_any_collection.any_collection.AnyCollection.after.87ed5b954c3afc77,"ax",@progbits
	.p2align	4
	.type	ic_any_collection.any_collection.AnyCollection.after.87ed5b954c3afc77,@function
ic_any_collection.any_collection.AnyCollection.after.87ed5b954c3afc77:
	pushq	%rax
	movzbl	(%rdi), %eax
	leaq	.LJTI36_0(%rip), %r9
	movslq	(%r9,%rax,4), %rax
	addq	%r9, %rax
	jmpq	*%rax
.LBB36_1:
	testq	%r8, %r8
	je	.LBB36_2
	movzbl	(%rsi), %eax
	cmpl	$2, %eax
	je	.LBB36_5
	cmpl	$1, %eax
	movq	8(%rsi), %rax
	addq	%r8, %rax
	addq	$-8, %rax
	movq	(%rax), %rcx
	jmp	.LBB36_24
.LBB36_11:
	movzbl	(%rsi), %eax
	cmpl	$2, %eax
	je	.LBB36_13
	cmpl	$1, %eax
	movq	8(%rsi), %rax
	xorl	%esi, %esi
	testb	%dl, %dl
	cmoveq	%rsi, %rcx
	xorq	-8(%rax,%r8), %rcx
	jmp	.LBB36_24
.LBB36_16:
	cmpb	$2, (%rsi)
	jne	.LBB36_25
	cmpb	$1, 8(%rsi)
	jne	.LBB36_25
	testq	%r8, %r8
	je	.LBB36_26
	movq	16(%rsi), %rax
	leaq	(%r8,%r8,2), %rdx
	movq	-16(%rax,%rdx), %rsi
	testq	%rsi, %rsi
	je	.LBB36_21
	.p2align	4
.LBB36_20:
	movq	%rsi, %rcx
	movq	%rsi, %rdx
	shrq	$3, %rdx
	leaq	(%rdx,%rdx,2), %rdx
	movq	-24(%rax,%rdx,8), %rsi
	testq	%rsi, %rsi
	jne	.LBB36_20
	jmp	.LBB36_24
	.p2align	4
.LBB36_23:
	andq	$-8, %rdx
	leaq	(%rdx,%rdx,2), %rdx
	cmpq	%r8, -16(%rax,%rdx)
	movq	%rcx, %r8
	jne	.LBB36_24
.LBB36_21:
	movq	-8(%rax,%rdx), %rdx
	movq	%rdx, %rcx
	andq	$-8, %rcx
	jne	.LBB36_23
	xorl	%ecx, %ecx
	jmp	.LBB36_24
.LBB36_8:
	cmpb	$2, (%rsi)
	jne	.LBB36_25
	testq	%r8, %r8
	je	.LBB36_2
	movq	16(%rsi), %rax
	leaq	(%r8,%r8), %rcx
	cmpb	$0, 8(%rsi)
	leaq	(%r8,%r8,2), %rdx
	cmoveq	%rcx, %rdx
	movq	-16(%rax,%rdx), %rcx
.LBB36_24:
	testq	%rcx, %rcx
	setne	%al
	movq	%rcx, %rdx
	popq	%rcx
	retq
.LBB36_13:
	cmpb	$0, 8(%rsi)
	movq	16(%rsi), %rax
	je	.LBB36_14
	shrq	$3, %r8
	leaq	(%r8,%r8,2), %rsi
	xorl	%edi, %edi
	testb	%dl, %dl
	cmoveq	%rdi, %rcx
	xorq	-16(%rax,%rsi,8), %rcx
	jmp	.LBB36_24
.LBB36_5:
	cmpb	$0, 8(%rsi)
	movq	16(%rsi), %rax
	je	.LBB36_6
	shrq	$3, %r8
	leaq	(%r8,%r8,2), %rcx
	leaq	(%rax,%rcx,8), %rax
	addq	$-16, %rax
	movq	(%rax), %rcx
	jmp	.LBB36_24
.LBB36_14:
	xorl	%esi, %esi
	testb	%dl, %dl
	cmoveq	%rsi, %rcx
	xorq	-16(%rax,%r8,2), %rcx
	jmp	.LBB36_24
.LBB36_6:
	leaq	(%rax,%r8,2), %rax
	addq	$-16, %rax
	movq	(%rax), %rcx
	jmp	.LBB36_24
.LBB36_2:
	movq	8(%rdi), %rdi
	callq	ic_chain.list.LinkList.head_from_null.634a9fa49d0f2abe
	xorl	%ecx, %ecx
	testb	$1, %al
	cmovneq	%rdx, %rcx
	jmp	.LBB36_24
.LBB36_26:
	movq	8(%rdi), %rdx
	xorl	%eax, %eax
	testq	%rdx, %rdx
	setne	%al
	addq	$16, %rsi
	movq	%rsi, %rdi
	movl	%eax, %esi
	xorl	%ecx, %ecx
	callq	ic_rbtree.steps.end_from_null.9168104deb0006b5
	xorl	%ecx, %ecx
	testb	%al, %al
	cmovneq	%rdx, %rcx
	jmp	.LBB36_24
.LBB36_25:
	ud2
.Lfunc_end36:
	.size	ic_any_collection.any_collection.AnyCollection.after.87ed5b954c3afc77, .Lfunc_end36-ic_any_collection.any_collection.AnyCollection.after.87ed5b954c3afc77
	.section	.rodata.ic_any_collection.any_collection.AnyCollection.after.87ed5b954c3afc77,"a",@progbits
	.p2align	2, 0x0
.LJTI36_0:
	.long	.LBB36_1-.LJTI36_0
	.long	.LBB36_8-.LJTI36_0
	.long	.LBB36_11-.LJTI36_0
	.long	.LBB36_16-.LJTI36_0
	.section	.text.ic_chain.edits.LinkListForwardOnly.replace_next_at.927dec3b43ebc9b0,"ax",@progbits
	.p2align	4
	.type	ic_chain.edits.LinkListForwardOnly.replace_next_at.927dec3b43ebc9b0,@function
ic_chain.edits.LinkListForwardOnly.replace_next_at.927dec3b43ebc9b0:
	movq	(%rcx), %rax
	movq	%rsi, %r9
	testq	%rax, %rax
	je	.LBB37_6
	movzbl	(%rdx), %r9d
	cmpl	$2, %r9d
	je	.LBB37_3
	cmpl	$1, %r9d
	movq	8(%rdx), %r9
	addq	%rax, %r9
	addq	$-8, %r9
	jmp	.LBB37_6
.LBB37_3:
	cmpb	$0, 8(%rdx)
	movq	16(%rdx), %r9
	je	.LBB37_4
	movq	%rax, %r10
	shrq	$3, %r10
	leaq	(%r10,%r10,2), %r10
	leaq	(%r9,%r10,8), %r9
	addq	$-16, %r9
	jmp	.LBB37_6
.LBB37_4:
	leaq	(%r9,%rax,2), %r9
	addq	$-16, %r9
.LBB37_6:
	movq	(%r9), %r9
	xorl	%r10d, %r10d
	testq	%r9, %r9
	setne	%r11b
	je	.LBB37_34
	pushq	%r14
	pushq	%rbx
	movb	%r11b, %r10b
	movzbl	(%rdx), %r11d
	testl	%r11d, %r11d
	je	.LBB37_12
	cmpl	$1, %r11d
	jne	.LBB37_9
.LBB37_12:
	movq	8(%rdx), %rbx
	cmpq	$1, -8(%rbx,%r8)
	jne	.LBB37_14
	movq	-8(%rbx,%r9), %r11
	movq	$0, -8(%rbx,%r8)
	testq	%rax, %rax
	jne	.LBB37_19
	jmp	.LBB37_24
.LBB37_34:
	xorps	%xmm0, %xmm0
	movups	%xmm0, (%rdi)
	movb	$0, 16(%rdi)
	retq
.LBB37_9:
	leaq	(%r9,%r9), %r11
	cmpb	$0, 8(%rdx)
	movq	16(%rdx), %rbx
	leaq	(%r9,%r9,2), %r14
	cmoveq	%r11, %r14
	movq	-16(%rbx,%r14), %r11
	je	.LBB37_10
	leaq	(%r8,%r8,2), %r14
	testb	$2, -8(%rbx,%r14)
	jne	.LBB37_14
	movq	$3, -8(%rbx,%r14)
	testq	%rax, %rax
	je	.LBB37_24
.LBB37_19:
	movzbl	(%rdx), %esi
	cmpl	$2, %esi
	je	.LBB37_21
	cmpl	$1, %esi
	movq	8(%rdx), %rsi
	movq	%r8, -8(%rsi,%rax)
	movzbl	(%rdx), %esi
	cmpl	$2, %esi
	jne	.LBB37_26
	jmp	.LBB37_27
.LBB37_10:
	cmpq	$1, -16(%rbx,%r8,2)
	jne	.LBB37_14
	movq	$0, -16(%rbx,%r8,2)
	testq	%rax, %rax
	jne	.LBB37_19
.LBB37_24:
	movq	%r8, (%rsi)
	movzbl	(%rdx), %esi
	cmpl	$2, %esi
	jne	.LBB37_26
	jmp	.LBB37_27
.LBB37_14:
	movq	%r10, (%rdi)
	movq	%r9, 8(%rdi)
	movb	$0, 16(%rdi)
	popq	%rbx
	popq	%r14
	retq
.LBB37_21:
	cmpb	$0, 8(%rdx)
	movq	16(%rdx), %rsi
	je	.LBB37_22
	movq	%rax, %rbx
	shrq	$3, %rbx
	leaq	(%rbx,%rbx,2), %rbx
	movq	%r8, -16(%rsi,%rbx,8)
	movzbl	(%rdx), %esi
	cmpl	$2, %esi
	je	.LBB37_27
.LBB37_26:
	cmpl	$1, %esi
	movq	8(%rdx), %rsi
	movq	%r11, -8(%rsi,%r8)
	movzbl	(%rdx), %esi
	cmpl	$2, %esi
	jne	.LBB37_31
	jmp	.LBB37_32
.LBB37_22:
	movq	%r8, -16(%rsi,%rax,2)
	movzbl	(%rdx), %esi
	cmpl	$2, %esi
	jne	.LBB37_26
.LBB37_27:
	cmpb	$0, 8(%rdx)
	movq	16(%rdx), %rsi
	je	.LBB37_28
	shrq	$3, %r8
	leaq	(%r8,%r8,2), %r8
	movq	%r11, -16(%rsi,%r8,8)
	movzbl	(%rdx), %esi
	cmpl	$2, %esi
	je	.LBB37_32
.LBB37_31:
	cmpl	$1, %esi
	movq	8(%rdx), %rdx
	movq	$1, -8(%rdx,%r9)
	jmp	.LBB37_36
.LBB37_28:
	movq	%r11, -16(%rsi,%r8,2)
	movzbl	(%rdx), %esi
	cmpl	$2, %esi
	jne	.LBB37_31
.LBB37_32:
	cmpb	$0, 8(%rdx)
	movq	16(%rdx), %rdx
	je	.LBB37_33
	movq	%r9, %rsi
	shrq	$3, %rsi
	leaq	(%rsi,%rsi,2), %rsi
	movq	$0, -8(%rdx,%rsi,8)
	jmp	.LBB37_36
.LBB37_33:
	movq	$1, -16(%rdx,%r9,2)
.LBB37_36:
	movq	%rax, (%rcx)
	movq	%r10, (%rdi)
	movq	%r9, 8(%rdi)
	movb	$1, 16(%rdi)
	popq	%rbx
	popq	%r14
	retq
.Lfunc_end37:
	.size	ic_chain.edits.LinkListForwardOnly.replace_next_at.927dec3b43ebc9b0, .Lfunc_end37-ic_chain.edits.LinkListForwardOnly.replace_next_at.927dec3b43ebc9b0
	.section	.text.ic_chain.edits.LinkListBidirectional.replace_at.10cc405e52586c83,"ax",@progbits
	.p2align	4
	.type	ic_chain.edits.LinkListBidirectional.replace_at.10cc405e52586c83,@function
ic_chain.edits.LinkListBidirectional.replace_at.10cc405e52586c83:
	movq	(%rdx), %r9
	testq	%r9, %r9
	je	.LBB38_6
	pushq	%rbx
	movq	8(%rsi), %r11
	leaq	(%r9,%r9), %rax
	cmpb	$0, (%rsi)
	leaq	(%r9,%r9,2), %r8
	leaq	-8(%r11,%r9,2), %r9
	leaq	-24(%r11,%r8), %r10
	cmoveq	%r9, %r10
	movq	(%r10), %r10
	movq	%r8, %r9
	cmoveq	%rax, %r9
	movq	-16(%r11,%r9), %r9
	je	.LBB38_7
	leaq	(%rcx,%rcx,2), %rbx
	testb	$2, -8(%r11,%rbx)
	jne	.LBB38_13
	movq	$3, -8(%r11,%rbx)
	testq	%r10, %r10
	je	.LBB38_9
.LBB38_4:
	movq	8(%rsi), %r11
	cmpb	$0, (%rsi)
	je	.LBB38_14
	movq	%r10, %rbx
	shrq	$3, %rbx
	leaq	(%rbx,%rbx,2), %rbx
	movq	%rcx, -16(%r11,%rbx,8)
	testq	%r9, %r9
	je	.LBB38_15
.LBB38_10:
	movq	8(%rsi), %rdi
	cmpb	$0, (%rsi)
	je	.LBB38_19
	movq	%r9, %r11
	shrq	$3, %r11
	leaq	(%r11,%r11,2), %r11
	movq	%rcx, -24(%rdi,%r11,8)
	cmpb	$0, (%rsi)
	movq	8(%rsi), %rdi
	je	.LBB38_20
.LBB38_16:
	movq	%rcx, %r11
	shrq	$3, %r11
	leaq	(%r11,%r11,2), %r11
	movq	%r10, -24(%rdi,%r11,8)
	cmpb	$0, (%rsi)
	movq	8(%rsi), %rdi
	je	.LBB38_21
.LBB38_17:
	movq	%rcx, %r10
	shrq	$3, %r10
	leaq	(%r10,%r10,2), %r10
	movq	%r9, -16(%rdi,%r10,8)
	cmpb	$0, (%rsi)
	movq	8(%rsi), %rsi
	je	.LBB38_22
.LBB38_18:
	movq	$0, -8(%rsi,%r8)
	movq	%rcx, (%rdx)
	movb	$1, %al
	popq	%rbx
	retq
.LBB38_6:
	xorl	%eax, %eax
	retq
.LBB38_7:
	cmpq	$1, -16(%r11,%rcx,2)
	jne	.LBB38_13
	movq	$0, -16(%r11,%rcx,2)
	testq	%r10, %r10
	jne	.LBB38_4
.LBB38_9:
	movq	%rcx, (%rdi)
	testq	%r9, %r9
	jne	.LBB38_10
.LBB38_15:
	movq	%rcx, 8(%rdi)
	cmpb	$0, (%rsi)
	movq	8(%rsi), %rdi
	jne	.LBB38_16
.LBB38_20:
	movq	%r10, -8(%rdi,%rcx,2)
	cmpb	$0, (%rsi)
	movq	8(%rsi), %rdi
	jne	.LBB38_17
.LBB38_21:
	movq	%r9, -16(%rdi,%rcx,2)
	cmpb	$0, (%rsi)
	movq	8(%rsi), %rsi
	jne	.LBB38_18
.LBB38_22:
	movq	$1, -16(%rsi,%rax)
	movq	%rcx, (%rdx)
	movb	$1, %al
	popq	%rbx
	retq
.LBB38_13:
	xorl	%eax, %eax
	popq	%rbx
	retq
.LBB38_14:
	movq	%rcx, -16(%r11,%r10,2)
	testq	%r9, %r9
	jne	.LBB38_10
	jmp	.LBB38_15
.LBB38_19:
	movq	%rcx, -8(%rdi,%r9,2)
	cmpb	$0, (%rsi)
	movq	8(%rsi), %rdi
	jne	.LBB38_16
	jmp	.LBB38_20
.Lfunc_end38:
	.size	ic_chain.edits.LinkListBidirectional.replace_at.10cc405e52586c83, .Lfunc_end38-ic_chain.edits.LinkListBidirectional.replace_at.10cc405e52586c83
	.section	.text.ic_chain.edits.LinkListBidirectional.replace_at.d62ae654698fb858,"ax",@progbits
	.p2align	4
	.type	ic_chain.edits.LinkListBidirectional.replace_at.d62ae654698fb858,@function
ic_chain.edits.LinkListBidirectional.replace_at.d62ae654698fb858:
	movq	(%rdx), %r8
	testq	%r8, %r8
	je	.LBB39_5
	pushq	%r14
	pushq	%rbx
	movq	8(%rdx), %r10
	movq	%r10, %rax
	xorq	%r8, %rax
	movzbl	(%rsi), %r9d
	testl	%r9d, %r9d
	je	.LBB39_3
	cmpl	$1, %r9d
	jne	.LBB39_8
.LBB39_3:
	movq	8(%rsi), %r11
	cmpq	$1, -8(%r11,%rcx)
	jne	.LBB39_4
	movq	-8(%r11,%r8), %r9
	cmpq	%r8, %r10
	sete	%r10b
	movq	$0, -8(%r11,%rcx)
	cmpq	%rax, %r9
	jne	.LBB39_14
.LBB39_11:
	movq	%rcx, (%rdi)
	testb	%r10b, %r10b
	je	.LBB39_20
.LBB39_18:
	movq	%rcx, 8(%rdi)
	movzbl	(%rsi), %edi
	cmpl	$2, %edi
	je	.LBB39_26
.LBB39_24:
	cmpl	$1, %edi
	movq	8(%rsi), %rdi
	movq	%r9, -8(%rdi,%rcx)
	movzbl	(%rsi), %edi
	cmpl	$2, %edi
	je	.LBB39_30
.LBB39_28:
	cmpl	$1, %edi
	movq	8(%rsi), %rsi
	movq	$1, -8(%rsi,%r8)
	jmp	.LBB39_33
.LBB39_5:
	xorl	%eax, %eax
	retq
.LBB39_8:
	leaq	(%r8,%r8), %r9
	cmpq	%r8, %r10
	sete	%r10b
	cmpb	$0, 8(%rsi)
	movq	16(%rsi), %r11
	leaq	(%r8,%r8,2), %rbx
	cmoveq	%r9, %rbx
	movq	-16(%r11,%rbx), %r9
	je	.LBB39_12
	leaq	(%rcx,%rcx,2), %rbx
	testb	$2, -8(%r11,%rbx)
	jne	.LBB39_4
	movq	$3, -8(%r11,%rbx)
	cmpq	%rax, %r9
	je	.LBB39_11
.LBB39_14:
	movq	%r9, %r11
	xorq	%rax, %r11
	movzbl	(%rsi), %ebx
	cmpl	$2, %ebx
	je	.LBB39_16
	cmpl	$1, %ebx
	movq	8(%rsi), %rbx
	movq	-8(%rbx,%r11), %r14
	xorq	%rcx, %r14
	xorq	%r8, %r14
	movq	%r14, -8(%rbx,%r11)
	testb	%r10b, %r10b
	jne	.LBB39_18
.LBB39_20:
	movzbl	(%rsi), %edi
	cmpl	$2, %edi
	je	.LBB39_22
	cmpl	$1, %edi
	movq	8(%rsi), %rdi
	movq	-8(%rdi,%rax), %r10
	xorq	%rcx, %r10
	xorq	%r8, %r10
	movq	%r10, -8(%rdi,%rax)
	movzbl	(%rsi), %edi
	cmpl	$2, %edi
	jne	.LBB39_24
.LBB39_26:
	cmpb	$0, 8(%rsi)
	movq	16(%rsi), %rdi
	je	.LBB39_29
	movq	%rcx, %r10
	shrq	$3, %r10
	leaq	(%r10,%r10,2), %r10
	movq	%r9, -16(%rdi,%r10,8)
	movzbl	(%rsi), %edi
	cmpl	$2, %edi
	jne	.LBB39_28
.LBB39_30:
	cmpb	$0, 8(%rsi)
	movq	16(%rsi), %rsi
	je	.LBB39_32
	shrq	$3, %r8
	leaq	(%r8,%r8,2), %rdi
	movq	$0, -8(%rsi,%rdi,8)
	jmp	.LBB39_33
.LBB39_12:
	cmpq	$1, -16(%r11,%rcx,2)
	jne	.LBB39_4
	movq	$0, -16(%r11,%rcx,2)
	cmpq	%rax, %r9
	je	.LBB39_11
	jmp	.LBB39_14
.LBB39_4:
	xorl	%eax, %eax
	popq	%rbx
	popq	%r14
	retq
.LBB39_16:
	cmpb	$0, 8(%rsi)
	movq	16(%rsi), %rbx
	je	.LBB39_19
	shrq	$3, %r11
	leaq	(%r11,%r11,2), %r11
	movq	-16(%rbx,%r11,8), %r14
	xorq	%rcx, %r14
	xorq	%r8, %r14
	movq	%r14, -16(%rbx,%r11,8)
	testb	%r10b, %r10b
	je	.LBB39_20
	jmp	.LBB39_18
.LBB39_22:
	cmpb	$0, 8(%rsi)
	movq	16(%rsi), %rdi
	je	.LBB39_25
	movq	%rax, %r10
	shrq	$3, %r10
	leaq	(%r10,%r10,2), %r10
	movq	-16(%rdi,%r10,8), %r11
	xorq	%rcx, %r11
	xorq	%r8, %r11
	movq	%r11, -16(%rdi,%r10,8)
	movzbl	(%rsi), %edi
	cmpl	$2, %edi
	jne	.LBB39_24
	jmp	.LBB39_26
.LBB39_29:
	movq	%r9, -16(%rdi,%rcx,2)
	movzbl	(%rsi), %edi
	cmpl	$2, %edi
	jne	.LBB39_28
	jmp	.LBB39_30
.LBB39_32:
	movq	$1, -16(%rsi,%r8,2)
.LBB39_33:
	xorq	%rcx, %rax
	movq	%rcx, (%rdx)
	movq	%rax, 8(%rdx)
	movb	$1, %al
	popq	%rbx
	popq	%r14
	retq
.LBB39_19:
	movq	-16(%rbx,%r11,2), %r14
	xorq	%rcx, %r14
	xorq	%r8, %r14
	movq	%r14, -16(%rbx,%r11,2)
	testb	%r10b, %r10b
	jne	.LBB39_18
	jmp	.LBB39_20
.LBB39_25:
	movq	-16(%rdi,%rax,2), %r10
	xorq	%rcx, %r10
	xorq	%r8, %r10
	movq	%r10, -16(%rdi,%rax,2)
	movzbl	(%rsi), %edi
	cmpl	$2, %edi
	jne	.LBB39_24
	jmp	.LBB39_26
.Lfunc_end39:
	.size	ic_chain.edits.LinkListBidirectional.replace_at.d62ae654698fb858, .Lfunc_end39-ic_chain.edits.LinkListBidirectional.replace_at.d62ae654698fb858
	.section	.text.ic_rbtree.edits.RBTreeBidirectional.replace_at.b002bc248359831b,"ax",@progbits
	.p2align	4
	.type	ic_rbtree.edits.RBTreeBidirectional.replace_at.b002bc248359831b,@function
ic_rbtree.edits.RBTreeBidirectional.replace_at.b002bc248359831b:
	pushq	%r14
	pushq	%rbx
	movq	(%rdx), %rbx
	testq	%rbx, %rbx
	je	.LBB40_5
	movq	(%rsi), %r8
	leaq	(%rcx,%rcx,2), %rax
	testb	$2, -8(%r8,%rax)
	jne	.LBB40_5
	movq	$3, -8(%r8,%rax)
	movq	(%rsi), %r14
	leaq	(%rbx,%rbx,2), %r8
	movq	-8(%r14,%r8), %r9
	movq	-24(%r14,%r8), %r11
	movq	-16(%r14,%r8), %r10
	cmpq	$8, %r9
	jae	.LBB40_6
	movq	%rcx, (%rdi)
	testq	%r11, %r11
	je	.LBB40_10
.LBB40_9:
	movq	(%rsi), %rdi
	movq	%r11, %rbx
	shrq	$3, %rbx
	leaq	(%rbx,%rbx,2), %rbx
	movq	-8(%rdi,%rbx,8), %r14
	andl	$7, %r14d
	orq	%rcx, %r14
	movq	%r14, -8(%rdi,%rbx,8)
.LBB40_10:
	testq	%r10, %r10
	je	.LBB40_12
	movq	(%rsi), %rdi
	movq	%r10, %rbx
	shrq	$3, %rbx
	leaq	(%rbx,%rbx,2), %rbx
	movq	-8(%rdi,%rbx,8), %r14
	andl	$7, %r14d
	orq	%rcx, %r14
	movq	%r14, -8(%rdi,%rbx,8)
.LBB40_12:
	movq	(%rsi), %rdi
	movq	%r11, -24(%rdi,%rax)
	movq	(%rsi), %rdi
	movq	%r10, -16(%rdi,%rax)
	movq	(%rsi), %rdi
	andq	$-7, %r9
	orq	$2, %r9
	movq	%r9, -8(%rdi,%rax)
	movq	(%rsi), %rax
	movq	$0, -8(%rax,%r8)
	movq	%rcx, (%rdx)
	movb	$1, %al
	popq	%rbx
	popq	%r14
	retq
.LBB40_5:
	xorl	%eax, %eax
	popq	%rbx
	popq	%r14
	retq
.LBB40_6:
	movq	%r9, %rdi
	andq	$-8, %rdi
	leaq	(%rdi,%rdi,2), %rdi
	cmpq	%rbx, -24(%r14,%rdi)
	jne	.LBB40_8
	movq	%rcx, -24(%r14,%rdi)
	testq	%r11, %r11
	jne	.LBB40_9
	jmp	.LBB40_10
.LBB40_8:
	movq	%rcx, -16(%r14,%rdi)
	testq	%r11, %r11
	jne	.LBB40_9
	jmp	.LBB40_10
.Lfunc_end40:
	.size	ic_rbtree.edits.RBTreeBidirectional.replace_at.b002bc248359831b, .Lfunc_end40-ic_rbtree.edits.RBTreeBidirectional.replace_at.b002bc248359831b
	.section	.text.ic_world.world.World.replace_next_with.27dc223f7d016e2e,"ax",@progbits
	.p2align	4
	.type	ic_world.world.World.replace_next_with.27dc223f7d016e2e,@function
ic_world.world.World.replace_next_with.27dc223f7d016e2e:
	pushq	%r14
	pushq	%rbx
	subq	$24, %rsp
	movb	$1, %bl
	cmpq	%rdx, 80(%rsi)
	jbe	.LBB41_6
	movq	%rcx, %r8
	movq	72(%rsi), %rcx
	movl	4(%rcx,%rdx,8), %r9d
	movl	$4294967295, %eax
	cmpq	%rax, %r9
	je	.LBB41_6
	movq	%r8, %r10
	shrq	$3, %r10
	decq	%r10
	movb	$2, %al
	cmpq	8(%rsi), %r10
	jae	.LBB41_9
	movq	(%rsi), %r11
	shlq	$4, %r10
	cmpb	$1, (%r11,%r10)
	jne	.LBB41_9
	movl	(%rcx,%rdx,8), %eax
	movq	96(%rsi), %rcx
	leaq	(%rax,%rax,2), %rdx
	movq	(%rcx,%rdx,8), %rcx
	leaq	(%r9,%r9,2), %rax
	shlq	$4, %rax
	cmpb	$0, 8(%rcx,%rax)
	je	.LBB41_10
	movb	$3, %al
	xorl	%ecx, %ecx
	jmp	.LBB41_7
.LBB41_6:
	xorl	%ecx, %ecx
	movb	$1, %al
	jmp	.LBB41_7
.LBB41_9:
	xorl	%ecx, %ecx
.LBB41_7:
	movb	%bl, (%rdi)
	movb	%al, 1(%rdi)
	movq	%rcx, 8(%rdi)
	addq	$24, %rsp
	popq	%rbx
	popq	%r14
	retq
.LBB41_10:
	movq	%rdi, %r14
	addq	%rax, %rcx
	shlq	$4, %rdx
	addq	48(%rsi), %rdx
	xorps	%xmm0, %xmm0
	movaps	%xmm0, (%rsp)
	movq	$0, 16(%rsp)
	leaq	16(%rcx), %rsi
	addq	$24, %rcx
	movq	%rsp, %rdi
	callq	ic_chain.edits.LinkListForwardOnly.replace_next_at.927dec3b43ebc9b0
	cmpb	$1, (%rsp)
	jne	.LBB41_13
	cmpb	$1, 16(%rsp)
	movq	%r14, %rdi
	jne	.LBB41_14
	movq	8(%rsp), %rcx
	xorl	%ebx, %ebx
	xorl	%eax, %eax
	jmp	.LBB41_7
.LBB41_13:
	movb	$6, %al
	xorl	%ecx, %ecx
	movq	%r14, %rdi
	jmp	.LBB41_7
.LBB41_14:
	movb	$9, %al
	xorl	%ecx, %ecx
	jmp	.LBB41_7
.Lfunc_end41:
	.size	ic_world.world.World.replace_next_with.27dc223f7d016e2e, .Lfunc_end41-ic_world.world.World.replace_next_with.27dc223f7d016e2e
	.section	.text.unlikely.std_alloc.vec.Vec.grow_amortized.3f7cc1ad5d64d7d7,"ax",@progbits
	.p2align	4
	.type	std_alloc.vec.Vec.grow_amortized.3f7cc1ad5d64d7d7,@function
std_alloc.vec.Vec.grow_amortized.3f7cc1ad5d64d7d7:
	movq	%rsi, %rax
	movq	8(%rdi), %rsi
	addq	%rsi, %rax
	jae	.LBB42_2
	xorl	%eax, %eax
	retq
.LBB42_2:
	pushq	%r14
	pushq	%rbx
	pushq	%rax
	cmpq	$9, %rax
	movl	$8, %ebx
	cmovaeq	%rax, %rbx
	movq	16(%rdi), %rcx
	movq	%rcx, %rdx
	shrq	$62, %rdx
	leaq	(%rcx,%rcx), %rax
	cmpq	%rax, %rbx
	cmovaq	%rbx, %rax
	testq	%rdx, %rdx
	cmoveq	%rax, %rbx
	testq	%rbx, %rbx
	js	.LBB42_6
	testq	%rcx, %rcx
	je	.LBB42_8
	movq	%rdi, %r14
	movq	(%rdi), %rdi
	movl	$1, %ecx
	movq	%rbx, %rdx
	callq	rattle_realloc@PLT
	testb	$1, %al
	je	.LBB42_6
.LBB42_9:
	movq	%rdx, (%r14)
	movq	%rbx, 16(%r14)
	movb	$1, %al
	addq	$8, %rsp
	popq	%rbx
	popq	%r14
	retq
.LBB42_8:
	movq	%rdi, %r14
	movl	$1, %esi
	movq	%rax, %rdi
	callq	rattle_alloc@PLT
	testb	$1, %al
	jne	.LBB42_9
.LBB42_6:
	xorl	%eax, %eax
	addq	$8, %rsp
	popq	%rbx
	popq	%r14
	retq
.Lfunc_end42:
	.size	std_alloc.vec.Vec.grow_amortized.3f7cc1ad5d64d7d7, .Lfunc_end42-std_alloc.vec.Vec.grow_amortized.3f7cc1ad5d64d7d7
	.section	.text.ic_program.answers.push_numbered.714b863a58920bda,"ax",@progbits
	.p2align	4
	.type	ic_program.answers.push_numbered.714b863a58920bda,@function
ic_program.answers.push_numbered.714b863a58920bda:
	pushq	%rbp
	pushq	%r15
	pushq	%r14
	pushq	%r13
	pushq	%r12
	pushq	%rbx
	subq	$72, %rsp
	movq	%r9, 8(%rsp)
	movq	%r8, 64(%rsp)
	movq	%rcx, %r12
	movq	%rdi, %rbx
	movq	8(%rdi), %rax
	movq	16(%rdi), %r13
	movq	%r13, %rcx
	subq	%rax, %rcx
	cmpq	%rcx, %rdx
	ja	.LBB43_43
.LBB43_1:
	leaq	8(%rbx), %rcx
	leaq	(%rax,%rdx), %rbp
	movq	(%rbx), %r14
	xorps	%xmm0, %xmm0
	movups	%xmm0, (%rcx)
	leaq	(%r14,%rax), %rdi
	movq	%rdi, %rcx
	subq	%rsi, %rcx
	cmpq	%rdx, %rcx
	jae	.LBB43_4
	cmpq	$4, %rdx
	jb	.LBB43_3
	cmpq	$16, %rcx
	jae	.LBB43_7
.LBB43_3:
	xorl	%ecx, %ecx
.LBB43_14:
	movq	%rdx, %r9
	movq	%rcx, %r8
	andq	$3, %r9
	je	.LBB43_17
	movq	%rcx, %r8
	.p2align	4
.LBB43_16:
	movzbl	(%rsi,%r8), %r10d
	movb	%r10b, (%rdi,%r8)
	incq	%r8
	decq	%r9
	jne	.LBB43_16
.LBB43_17:
	subq	%rdx, %rcx
	cmpq	$-4, %rcx
	ja	.LBB43_20
	addq	%r14, %rax
	addq	$3, %rax
	.p2align	4
.LBB43_19:
	movzbl	(%rsi,%r8), %ecx
	movb	%cl, -3(%rax,%r8)
	movzbl	1(%rsi,%r8), %ecx
	movb	%cl, -2(%rax,%r8)
	movzbl	2(%rsi,%r8), %ecx
	movb	%cl, -1(%rax,%r8)
	movzbl	3(%rsi,%r8), %ecx
	movb	%cl, (%rax,%r8)
	addq	$4, %r8
	cmpq	%r8, %rdx
	jne	.LBB43_19
	jmp	.LBB43_20
.LBB43_4:
	callq	memmove@PLT
.LBB43_20:
	movq	%r14, (%rbx)
	movq	%rbp, 8(%rbx)
	movq	%r13, 16(%rbx)
	xorps	%xmm0, %xmm0
	movaps	%xmm0, 32(%rsp)
	movaps	%xmm0, 16(%rsp)
	movq	$0, 48(%rsp)
	movl	$40, %r15d
	cmpq	$10000, %r12
	jb	.LBB43_25
	.p2align	4
.LBB43_21:
	movabsq	$3777893186295716171, %rcx
	movq	%r12, %rax
	mulq	%rcx
	shrq	$11, %rdx
	imull	$10000, %edx, %eax
	movl	%r12d, %ecx
	subl	%eax, %ecx
	imull	$5243, %ecx, %eax
	shrl	$19, %eax
	imull	$100, %eax, %esi
	subl	%esi, %ecx
	movzwl	%cx, %ecx
	leaq	.Lstatic.39(%rip), %rsi
	movzwl	(%rsi,%rcx,2), %ecx
	movw	%cx, 14(%rsp,%r15)
	movzwl	(%rsi,%rax,2), %eax
	movw	%ax, 12(%rsp,%r15)
	addq	$-4, %r15
	cmpq	$99999999, %r12
	movq	%rdx, %r12
	ja	.LBB43_21
	cmpq	$99, %rdx
	ja	.LBB43_26
.LBB43_23:
	cmpq	$9, %rdx
	ja	.LBB43_28
	orb	$48, %dl
	movb	%dl, 15(%rsp,%r15)
	decq	%r15
	jmp	.LBB43_30
.LBB43_25:
	movq	%r12, %rdx
	cmpq	$99, %rdx
	jbe	.LBB43_23
.LBB43_26:
	movl	%edx, %eax
	shrl	$2, %eax
	movzwl	%ax, %eax
	imull	$5243, %eax, %eax
	shrl	$17, %eax
	imull	$100, %eax, %ecx
	movl	%edx, %esi
	subl	%ecx, %esi
	movzwl	%si, %esi
	leaq	.Lstatic.39(%rip), %rcx
	movzwl	(%rcx,%rsi,2), %esi
	movw	%si, 14(%rsp,%r15)
	cmpq	$999, %rdx
	ja	.LBB43_29
	orb	$48, %al
	movb	%al, 13(%rsp,%r15)
	addq	$-3, %r15
	jmp	.LBB43_30
.LBB43_28:
	leaq	.Lstatic.39(%rip), %rax
	movzwl	(%rax,%rdx,2), %eax
	movw	%ax, 14(%rsp,%r15)
	addq	$-2, %r15
	jmp	.LBB43_30
.LBB43_29:
	movzwl	%ax, %eax
	movzwl	(%rcx,%rax,2), %eax
	movw	%ax, 12(%rsp,%r15)
	addq	$-4, %r15
.LBB43_30:
	movl	$40, %edx
	subq	%r15, %rdx
	movq	%r13, %rax
	subq	%rbp, %rax
	cmpq	%rax, %rdx
	ja	.LBB43_45
.LBB43_31:
	leaq	(%rsp,%r15), %rsi
	addq	$16, %rsi
	leaq	(%r14,%rbp), %rdi
	addq	%rdx, %rbp
	callq	memcpy@PLT
	movq	%r14, (%rbx)
	movq	%rbp, 8(%rbx)
	movq	%r13, 16(%rbx)
	movq	%r13, %rax
	subq	%rbp, %rax
	movq	8(%rsp), %rdx
	cmpq	%rax, %rdx
	ja	.LBB43_47
.LBB43_32:
	xorps	%xmm0, %xmm0
	leaq	8(%rbx), %rax
	movups	%xmm0, (%rax)
	leaq	(%r14,%rbp), %rdi
	addq	%rdx, %rbp
	movq	%rdi, %rax
	movq	64(%rsp), %rsi
	subq	%rsi, %rax
	cmpq	%rdx, %rax
	jae	.LBB43_40
	movzbl	(%rsi), %eax
	movb	%al, (%rdi)
	cmpq	$1, %rdx
	je	.LBB43_41
	movzbl	1(%rsi), %eax
	movb	%al, 1(%rdi)
	cmpq	$2, %rdx
	je	.LBB43_41
	movzbl	2(%rsi), %eax
	movb	%al, 2(%rdi)
	cmpq	$3, %rdx
	je	.LBB43_41
	movzbl	3(%rsi), %eax
	movb	%al, 3(%rdi)
	cmpq	$4, %rdx
	je	.LBB43_41
	movzbl	4(%rsi), %eax
	movb	%al, 4(%rdi)
	cmpq	$5, %rdx
	je	.LBB43_41
	movzbl	5(%rsi), %eax
	movb	%al, 5(%rdi)
	cmpq	$6, %rdx
	je	.LBB43_41
	movzbl	6(%rsi), %eax
	movb	%al, 6(%rdi)
	jmp	.LBB43_41
.LBB43_40:
	callq	memmove@PLT
.LBB43_41:
	movq	%r14, (%rbx)
	movq	%rbp, 8(%rbx)
	movq	%r13, 16(%rbx)
	xorl	%eax, %eax
.LBB43_42:
	addq	$72, %rsp
	popq	%rbx
	popq	%r12
	popq	%r13
	popq	%r14
	popq	%r15
	popq	%rbp
	retq
.LBB43_7:
	cmpq	$16, %rdx
	jae	.LBB43_9
	xorl	%ecx, %ecx
	jmp	.LBB43_11
.LBB43_9:
	movl	%edx, %ecx
	andl	$16, %ecx
	movups	(%rsi), %xmm0
	movups	%xmm0, (%rdi)
	cmpq	%rcx, %rdx
	je	.LBB43_20
	testb	$12, %dl
	je	.LBB43_14
.LBB43_11:
	movq	%rcx, %r8
	movl	%edx, %ecx
	andl	$28, %ecx
	.p2align	4
.LBB43_12:
	movl	(%rsi,%r8), %r9d
	movl	%r9d, (%rdi,%r8)
	addq	$4, %r8
	cmpq	%r8, %rcx
	jne	.LBB43_12
	cmpq	%rcx, %rdx
	je	.LBB43_20
	jmp	.LBB43_14
.LBB43_43:
	movq	%rsi, %r14
	movq	%rbx, %rdi
	movq	%rdx, %r15
	movq	%rdx, %rsi
	callq	std_alloc.vec.Vec.grow_amortized.3f7cc1ad5d64d7d7
	movl	%eax, %ecx
	movb	$1, %al
	testb	%cl, %cl
	je	.LBB43_42
	movq	8(%rbx), %rax
	movq	16(%rbx), %r13
	movq	%r15, %rdx
	movq	%r14, %rsi
	jmp	.LBB43_1
.LBB43_45:
	movq	%rbx, %rdi
	movq	%rdx, %r12
	movq	%rdx, %rsi
	callq	std_alloc.vec.Vec.grow_amortized.3f7cc1ad5d64d7d7
	movl	%eax, %ecx
	movb	$1, %al
	testb	%cl, %cl
	je	.LBB43_42
	movq	(%rbx), %r14
	movq	8(%rbx), %rbp
	movq	16(%rbx), %r13
	movq	%r12, %rdx
	jmp	.LBB43_31
.LBB43_47:
	movq	%rbx, %rdi
	movq	%rdx, %rsi
	callq	std_alloc.vec.Vec.grow_amortized.3f7cc1ad5d64d7d7
	movl	%eax, %ecx
	movb	$1, %al
	testb	%cl, %cl
	je	.LBB43_42
	movq	(%rbx), %r14
	movq	8(%rbx), %rbp
	movq	16(%rbx), %r13
	movq	8(%rsp), %rdx
	jmp	.LBB43_32
.Lfunc_end43:
	.size	ic_program.answers.push_numbered.714b863a58920bda, .Lfunc_end43-ic_program.answers.push_numbered.714b863a58920bda
	.section	.text.unlikely.ic_program.session.Session.answer_other.40a73cb1e87492e9,"ax",@progbits
	.p2align	4
	.type	ic_program.session.Session.answer_other.40a73cb1e87492e9,@function
ic_program.session.Session.answer_other.40a73cb1e87492e9:
	pushq	%r15
	pushq	%r14
	pushq	%r13
	pushq	%r12
	pushq	%rbx
	subq	$208, %rsp
	movq	%rcx, %r15
	movq	%rdx, %r12
	movq	%rsi, %r14
	movq	%rdi, %rbx
	movq	$0, 152(%rsp)
	xorps	%xmm0, %xmm0
	movaps	%xmm0, 64(%rsp)
	movaps	%xmm0, 80(%rsp)
	movaps	%xmm0, 96(%rsp)
	movaps	%xmm0, 112(%rsp)
	movaps	%xmm0, 128(%rsp)
	movaps	%xmm0, (%rsp)
	movaps	%xmm0, 16(%rsp)
	leaq	64(%rsp), %rdi
	movq	%rdx, %rsi
	movq	%rcx, %rdx
	callq	ic_program.line.Line.first_of
	xorl	%r13d, %r13d
	movq	%r15, %rcx
	subq	136(%rsp), %rcx
	movzbl	64(%rsp), %eax
	cmovaeq	%rcx, %r13
	testl	%eax, %eax
	jne	.LBB44_2
	movq	%rax, %rcx
	movq	%rax, %rdx
.LBB44_8:
	movq	%rax, (%rbx)
	movq	%r13, 8(%rbx)
	movq	%rcx, 16(%rbx)
	movq	%rdx, 24(%rbx)
.LBB44_6:
	addq	$208, %rsp
	popq	%rbx
	popq	%r12
	popq	%r13
	popq	%r14
	popq	%r15
	retq
.LBB44_2:
	cmpl	$2, %eax
	jne	.LBB44_3
	movq	144(%r14), %rcx
	leaq	40(%rsp), %rdi
	movq	%r12, %rsi
	movq	%r15, %rdx
	callq	ic_program.session.stop_at
	movzbl	40(%rsp), %r13d
	movzbl	48(%rsp), %ecx
	movq	56(%rsp), %rdx
	movl	$1, %eax
	jmp	.LBB44_8
.LBB44_3:
	movzwl	72(%rsp), %eax
	movw	%ax, 152(%rsp)
	movaps	80(%rsp), %xmm0
	movups	%xmm0, 160(%rsp)
	movaps	96(%rsp), %xmm0
	movups	%xmm0, 176(%rsp)
	movaps	112(%rsp), %xmm0
	movups	%xmm0, 192(%rsp)
	movq	%rsp, %rdi
	leaq	152(%rsp), %rdx
	movq	%r14, %rsi
	callq	ic_program.session.Session.call.40a73cb1e87492e9
	cmpb	$0, (%rsp)
	je	.LBB44_4
	movq	24(%rsp), %rax
	movzbl	16(%rsp), %ecx
	movzbl	8(%rsp), %edx
	movq	$1, (%rbx)
	movq	%rdx, 8(%rbx)
	movq	%rcx, 16(%rbx)
	movq	%rax, 24(%rbx)
	jmp	.LBB44_6
.LBB44_4:
	xorl	%eax, %eax
	xorl	%ecx, %ecx
	xorl	%edx, %edx
	jmp	.LBB44_8
.Lfunc_end44:
	.size	ic_program.session.Session.answer_other.40a73cb1e87492e9, .Lfunc_end44-ic_program.session.Session.answer_other.40a73cb1e87492e9
	.section	.text.unlikely.ic_program.line.Line.first_of,"ax",@progbits
	.p2align	4
	.type	ic_program.line.Line.first_of,@function
ic_program.line.Line.first_of:
	pushq	%rbp
	pushq	%r15
	pushq	%r14
	pushq	%r13
	pushq	%r12
	pushq	%rbx
	subq	$168, %rsp
	testq	%rdx, %rdx
	je	.LBB45_3
	cmpb	$10, (%rsi)
	jne	.LBB45_5
	incq	%rsi
	decq	%rdx
.LBB45_7:
	xorps	%xmm0, %xmm0
	movups	%xmm0, 48(%rdi)
	movups	%xmm0, 32(%rdi)
	movups	%xmm0, 16(%rdi)
	movups	%xmm0, (%rdi)
	movq	%rsi, 64(%rdi)
	movq	%rdx, 72(%rdi)
.LBB45_20:
	addq	$168, %rsp
	popq	%rbx
	popq	%r12
	popq	%r13
	popq	%r14
	popq	%r15
	popq	%rbp
	retq
.LBB45_3:
	movq	%rdi, %r12
	movq	%rsi, %rbx
	movq	%rsi, %rdi
	movq	%rdx, %r15
	movq	%rdx, %rsi
	callq	ic_program.text.other_line
	cmpb	$1, %al
	je	.LBB45_6
	jmp	.LBB45_4
.LBB45_5:
	movq	%rdi, %r12
	movq	%rsi, %rbx
	movq	%rsi, %rdi
	movq	%rdx, %r15
	movq	%rdx, %rsi
	callq	ic_program.text.other_line
	cmpb	$1, %al
	jne	.LBB45_8
.LBB45_6:
	movq	%rdx, %rcx
	movq	%r12, %rdi
	movq	%rbx, %rsi
	addq	%rdx, %rsi
	movq	%r15, %rdx
	subq	%rcx, %rdx
	jmp	.LBB45_7
.LBB45_8:
	cmpb	$32, (%rbx)
	jne	.LBB45_4
	movq	%rbx, %rdi
	movq	%r15, %rsi
	callq	ic_program.text.without_more_spaces
	movq	%rbx, %rbp
	movq	%rax, %rbx
	movq	%rdx, %r14
	jmp	.LBB45_10
.LBB45_4:
	movq	%rbx, %rbp
	movq	%r15, %r14
.LBB45_10:
	movq	%r15, %r13
	movl	$64, %esi
	cmpq	$8, %r14
	jb	.LBB45_12
	movq	(%rbx), %rax
	movq	%rax, %rcx
	notq	%rcx
	movabsq	$-2387225703656530209, %rdx
	addq	%rax, %rdx
	andq	%rcx, %rdx
	movabsq	$-9187201950435737472, %rcx
	andq	%rdx, %rcx
	decq	%rcx
	andq	%rax, %rcx
	movabsq	$4173136844494322927, %rsi
	imulq	%rcx, %rsi
	shrq	$58, %rsi
.LBB45_12:
	leaq	88(%rsp), %rdi
	movq	%rbx, %rdx
	movq	%r14, %rcx
	callq	ic_program.line.call_at
	cmpb	$1, 88(%rsp)
	jne	.LBB45_13
	movzwl	96(%rsp), %eax
	movups	152(%rsp), %xmm0
	movq	$1, (%r12)
	movw	%ax, 8(%r12)
	movl	$0, 10(%r12)
	movw	$0, 14(%r12)
	movups	104(%rsp), %xmm1
	movups	%xmm1, 16(%r12)
	movups	120(%rsp), %xmm1
	movups	%xmm1, 32(%r12)
	movups	136(%rsp), %xmm1
.LBB45_15:
	movups	%xmm1, 48(%r12)
	movups	%xmm0, 64(%r12)
	jmp	.LBB45_20
.LBB45_13:
	xorl	%r15d, %r15d
.LBB45_17:
	leaq	8(%rsp), %rdi
	movq	%r15, %rsi
	movq	%rbx, %rdx
	movq	%r14, %rcx
	callq	ic_program.line.call_at
	cmpb	$1, 8(%rsp)
	je	.LBB45_18
	incq	%r15
	cmpq	$64, %r15
	jne	.LBB45_17
	movq	$2, (%r12)
	xorps	%xmm0, %xmm0
	movups	%xmm0, 8(%r12)
	movups	%xmm0, 24(%r12)
	movups	%xmm0, 40(%r12)
	movq	$0, 56(%r12)
	movq	%rbp, 64(%r12)
	movq	%r13, 72(%r12)
	jmp	.LBB45_20
.LBB45_18:
	movzwl	16(%rsp), %eax
	movups	72(%rsp), %xmm0
	movq	$1, (%r12)
	movw	%ax, 8(%r12)
	movl	$0, 10(%r12)
	movw	$0, 14(%r12)
	movups	24(%rsp), %xmm1
	movups	%xmm1, 16(%r12)
	movups	40(%rsp), %xmm1
	movups	%xmm1, 32(%r12)
	movups	56(%rsp), %xmm1
	jmp	.LBB45_15
.Lfunc_end45:
	.size	ic_program.line.Line.first_of, .Lfunc_end45-ic_program.line.Line.first_of
	.section	.text.unlikely.ic_program.line.call_at,"ax",@progbits
	.p2align	4
	.type	ic_program.line.call_at,@function
ic_program.line.call_at:
	pushq	%rbp
	pushq	%r15
	pushq	%r14
	pushq	%r13
	pushq	%r12
	pushq	%rbx
	subq	$136, %rsp
	movw	$0, 12(%rsp)
	movl	$0, 8(%rsp)
	movl	$0, 88(%rsp)
	movw	$0, 92(%rsp)
	cmpq	$63, %rsi
	ja	.LBB46_270
	leaq	.LJTI46_0(%rip), %rax
	movslq	(%rax,%rsi,4), %r8
	addq	%rax, %r8
	jmpq	*%r8
.LBB46_2:
	cmpq	$6, %rcx
	jb	.LBB46_1247
	cmpl	$1634036835, (%rdx)
	jne	.LBB46_1247
	cmpl	$544366949, 2(%rdx)
	jne	.LBB46_1247
	leaq	6(%rdx), %r10
	addq	$-6, %rcx
	cmpq	$5, %rcx
	jb	.LBB46_583
	movzbl	(%r10), %eax
	addb	$-48, %al
	cmpb	$9, %al
	ja	.LBB46_583
	movzbl	%al, %r11d
	movzbl	7(%rdx), %esi
	addb	$-48, %sil
	movl	$1, %eax
	cmpb	$9, %sil
	ja	.LBB46_577
	movzbl	%sil, %eax
	movzbl	8(%rdx), %esi
	addb	$-48, %sil
	cmpb	$9, %sil
	ja	.LBB46_423
	movzbl	%sil, %esi
	movzbl	9(%rdx), %r8d
	addb	$-48, %r8b
	cmpb	$10, %r8b
	jae	.LBB46_576
	movzbl	10(%rdx), %edx
	addb	$-48, %dl
	cmpb	$10, %dl
	jb	.LBB46_583
	movzbl	%r8b, %edx
	leaq	(%r11,%r11,4), %r8
	leaq	(%rax,%r8,2), %rax
	leaq	(%rax,%rax,4), %rax
	movl	%eax, %eax
	leaq	(%rsi,%rax,2), %rax
	leaq	(%rax,%rax,4), %rax
	leaq	(%rdx,%rax,2), %r11
	movl	$4, %eax
	jmp	.LBB46_577
.LBB46_12:
	cmpq	$5, %rcx
	jb	.LBB46_1247
	cmpl	$2003789939, (%rdx)
	jne	.LBB46_1247
	cmpl	$544698216, 1(%rdx)
	jne	.LBB46_1247
	leaq	5(%rdx), %r10
	addq	$-5, %rcx
	cmpq	$5, %rcx
	jb	.LBB46_459
	movzbl	(%r10), %eax
	addb	$-48, %al
	cmpb	$9, %al
	ja	.LBB46_459
	movzbl	%al, %r11d
	movzbl	6(%rdx), %esi
	addb	$-48, %sil
	movl	$1, %eax
	cmpb	$9, %sil
	ja	.LBB46_454
	movzbl	%sil, %eax
	movzbl	7(%rdx), %esi
	addb	$-48, %sil
	cmpb	$9, %sil
	ja	.LBB46_403
	movzbl	%sil, %esi
	movzbl	8(%rdx), %r8d
	addb	$-48, %r8b
	cmpb	$10, %r8b
	jae	.LBB46_453
	movzbl	9(%rdx), %edx
	addb	$-48, %dl
	cmpb	$10, %dl
	jb	.LBB46_459
	movzbl	%r8b, %edx
	leaq	(%r11,%r11,4), %r8
	leaq	(%rax,%r8,2), %rax
	leaq	(%rax,%rax,4), %rax
	movl	%eax, %eax
	leaq	(%rsi,%rax,2), %rax
	leaq	(%rax,%rax,4), %rax
	leaq	(%rdx,%rax,2), %r11
	movl	$4, %eax
	jmp	.LBB46_454
.LBB46_22:
	xorps	%xmm0, %xmm0
	movaps	%xmm0, 48(%rsp)
	movaps	%xmm0, 64(%rsp)
	movq	$0, 80(%rsp)
	movaps	%xmm0, 96(%rsp)
	movaps	%xmm0, 112(%rsp)
	movq	$0, 128(%rsp)
	cmpq	$6, %rcx
	jb	.LBB46_1248
	cmpl	$1735287154, (%rdx)
	jne	.LBB46_1248
	cmpl	$543516526, 2(%rdx)
	jne	.LBB46_1248
	movq	%rdi, 16(%rsp)
	leaq	6(%rdx), %r14
	addq	$-6, %rcx
	cmpq	$5, %rcx
	jb	.LBB46_1165
	movzbl	(%r14), %eax
	addb	$-48, %al
	cmpb	$9, %al
	ja	.LBB46_1165
	movzbl	%al, %edi
	movzbl	7(%rdx), %esi
	addb	$-48, %sil
	movl	$1, %eax
	cmpb	$9, %sil
	ja	.LBB46_1161
	movq	%rdi, %r8
	movzbl	%sil, %eax
	movq	%rdx, %rsi
	movzbl	8(%rdx), %edx
	addb	$-48, %dl
	cmpb	$9, %dl
	ja	.LBB46_1077
	movzbl	%dl, %edx
	movzbl	9(%rsi), %edi
	addb	$-48, %dil
	cmpb	$10, %dil
	jae	.LBB46_1160
	movzbl	10(%rsi), %esi
	addb	$-48, %sil
	cmpb	$10, %sil
	jb	.LBB46_1165
	movzbl	%dil, %esi
	leaq	(%r8,%r8,4), %rdi
	leaq	(%rax,%rdi,2), %rax
	leaq	(%rax,%rax,4), %rax
	movl	%eax, %eax
	leaq	(%rdx,%rax,2), %rax
	leaq	(%rax,%rax,4), %rax
	leaq	(%rsi,%rax,2), %rdi
	movl	$4, %eax
	jmp	.LBB46_1161
.LBB46_32:
	cmpq	$5, %rcx
	jb	.LBB46_1247
	cmpl	$1684957542, (%rdx)
	jne	.LBB46_1247
	cmpl	$543452777, 1(%rdx)
	jne	.LBB46_1247
	leaq	5(%rdx), %r10
	addq	$-5, %rcx
	cmpq	$5, %rcx
	jb	.LBB46_477
	movzbl	(%r10), %eax
	addb	$-48, %al
	cmpb	$9, %al
	ja	.LBB46_477
	movzbl	%al, %r11d
	movzbl	6(%rdx), %esi
	addb	$-48, %sil
	movl	$1, %eax
	cmpb	$9, %sil
	ja	.LBB46_466
	movzbl	%sil, %eax
	movzbl	7(%rdx), %esi
	addb	$-48, %sil
	cmpb	$9, %sil
	ja	.LBB46_404
	movzbl	%sil, %esi
	movzbl	8(%rdx), %r8d
	addb	$-48, %r8b
	cmpb	$10, %r8b
	jae	.LBB46_465
	movzbl	9(%rdx), %edx
	addb	$-48, %dl
	cmpb	$10, %dl
	jb	.LBB46_477
	movzbl	%r8b, %edx
	leaq	(%r11,%r11,4), %r8
	leaq	(%rax,%r8,2), %rax
	leaq	(%rax,%rax,4), %rax
	movl	%eax, %eax
	leaq	(%rsi,%rax,2), %rax
	leaq	(%rax,%rax,4), %rax
	leaq	(%rdx,%rax,2), %r11
	movl	$4, %eax
	jmp	.LBB46_466
.LBB46_42:
	cmpq	$8, %rcx
	jb	.LBB46_1247
	movabsq	$2334398917027194226, %rax
	cmpq	%rax, (%rdx)
	jne	.LBB46_1247
	leaq	8(%rdx), %r10
	addq	$-8, %rcx
	cmpq	$5, %rcx
	jb	.LBB46_411
	movzbl	(%r10), %eax
	addb	$-48, %al
	cmpb	$9, %al
	ja	.LBB46_411
	movzbl	%al, %r11d
	movzbl	9(%rdx), %esi
	addb	$-48, %sil
	movl	$1, %eax
	cmpb	$9, %sil
	ja	.LBB46_406
	movzbl	%sil, %eax
	movzbl	10(%rdx), %esi
	addb	$-48, %sil
	cmpb	$9, %sil
	ja	.LBB46_400
	movzbl	%sil, %esi
	movzbl	11(%rdx), %r8d
	addb	$-48, %r8b
	cmpb	$10, %r8b
	jae	.LBB46_405
	movzbl	12(%rdx), %edx
	addb	$-48, %dl
	cmpb	$10, %dl
	jb	.LBB46_411
	movzbl	%r8b, %edx
	leaq	(%r11,%r11,4), %r8
	leaq	(%rax,%r8,2), %rax
	leaq	(%rax,%rax,4), %rax
	movl	%eax, %eax
	leaq	(%rsi,%rax,2), %rax
	leaq	(%rax,%rax,4), %rax
	leaq	(%rdx,%rax,2), %r11
	movl	$4, %eax
	jmp	.LBB46_406
.LBB46_51:
	cmpq	$14, %rcx
	jb	.LBB46_1247
	movabsq	$8025244620347499890, %rax
	cmpq	%rax, (%rdx)
	jne	.LBB46_1247
	movabsq	$2338603393739812703, %rax
	cmpq	%rax, 6(%rdx)
	jne	.LBB46_1247
	leaq	14(%rdx), %r10
	addq	$-14, %rcx
	cmpq	$5, %rcx
	jb	.LBB46_488
	movzbl	(%r10), %eax
	addb	$-48, %al
	cmpb	$9, %al
	ja	.LBB46_488
	movzbl	%al, %eax
	movzbl	15(%rdx), %r8d
	addb	$-48, %r8b
	movl	$1, %esi
	cmpb	$9, %r8b
	ja	.LBB46_483
	movzbl	%r8b, %esi
	movzbl	16(%rdx), %r8d
	addb	$-48, %r8b
	cmpb	$9, %r8b
	ja	.LBB46_417
	movzbl	%r8b, %r8d
	movzbl	17(%rdx), %r9d
	addb	$-48, %r9b
	cmpb	$10, %r9b
	jae	.LBB46_482
	movzbl	18(%rdx), %edx
	addb	$-48, %dl
	cmpb	$10, %dl
	jb	.LBB46_488
	movzbl	%r9b, %edx
	leaq	(%rax,%rax,4), %rax
	leaq	(%rsi,%rax,2), %rax
	leaq	(%rax,%rax,4), %rax
	movl	%eax, %eax
	leaq	(%r8,%rax,2), %rax
	leaq	(%rax,%rax,4), %rax
	leaq	(%rdx,%rax,2), %rax
	movl	$4, %esi
	jmp	.LBB46_483
.LBB46_61:
	cmpq	$6, %rcx
	jb	.LBB46_1247
	cmpl	$1818585446, (%rdx)
	jne	.LBB46_1247
	cmpl	$543452261, 2(%rdx)
	jne	.LBB46_1247
	addq	$6, %rdx
	addq	$-6, %rcx
	leaq	48(%rsp), %rax
	movq	%rdi, %r14
	movq	%rax, %rdi
	movq	%rdx, %rsi
	movq	%rcx, %rdx
	callq	ic_program.argument.KindArgument.read
	movq	%r14, %rdi
	cmpb	$1, 48(%rsp)
	jne	.LBB46_1247
	movzbl	56(%rsp), %ebx
	movq	64(%rsp), %r10
	movq	72(%rsp), %r9
	testq	%r9, %r9
	je	.LBB46_1158
	cmpb	$10, (%r10)
	jne	.LBB46_1158
	incq	%r10
	decq	%r9
.LBB46_68:
	movl	$0, 8(%rsp)
	movw	$0, 12(%rsp)
	movb	$4, %r8b
	movl	$1, %eax
	xorl	%r11d, %r11d
	jmp	.LBB46_729
.LBB46_69:
	cmpq	$5, %rcx
	jb	.LBB46_1247
	cmpl	$1852141679, (%rdx)
	jne	.LBB46_1247
	cmpl	$544105840, 1(%rdx)
	jne	.LBB46_1247
	movq	%rdi, 16(%rsp)
	leaq	5(%rdx), %r14
	addq	$-5, %rcx
	cmpq	$5, %rcx
	jb	.LBB46_1173
	movzbl	(%r14), %eax
	addb	$-48, %al
	cmpb	$9, %al
	ja	.LBB46_1173
	movzbl	%al, %edi
	movzbl	6(%rdx), %esi
	addb	$-48, %sil
	movl	$1, %eax
	cmpb	$9, %sil
	ja	.LBB46_1169
	movq	%rdi, %r8
	movzbl	%sil, %eax
	movq	%rdx, %rsi
	movzbl	7(%rdx), %edx
	addb	$-48, %dl
	cmpb	$9, %dl
	ja	.LBB46_1078
	movzbl	%dl, %edx
	movzbl	8(%rsi), %edi
	addb	$-48, %dil
	cmpb	$10, %dil
	jae	.LBB46_1168
	movzbl	9(%rsi), %esi
	addb	$-48, %sil
	cmpb	$10, %sil
	jb	.LBB46_1173
	movzbl	%dil, %esi
	leaq	(%r8,%r8,4), %rdi
	leaq	(%rax,%rdi,2), %rax
	leaq	(%rax,%rax,4), %rax
	movl	%eax, %eax
	leaq	(%rdx,%rax,2), %rax
	leaq	(%rax,%rax,4), %rax
	leaq	(%rsi,%rax,2), %rdi
	movl	$4, %eax
	jmp	.LBB46_1169
.LBB46_79:
	cmpq	$6, %rcx
	jb	.LBB46_1247
	cmpl	$1667329136, (%rdx)
	jne	.LBB46_1247
	cmpl	$543515489, 2(%rdx)
	jne	.LBB46_1247
	leaq	6(%rdx), %r10
	addq	$-6, %rcx
	cmpq	$5, %rcx
	jb	.LBB46_501
	movzbl	(%r10), %eax
	addb	$-48, %al
	cmpb	$9, %al
	ja	.LBB46_501
	movzbl	%al, %r11d
	movzbl	7(%rdx), %esi
	addb	$-48, %sil
	movl	$1, %eax
	cmpb	$9, %sil
	ja	.LBB46_496
	movzbl	%sil, %eax
	movzbl	8(%rdx), %esi
	addb	$-48, %sil
	cmpb	$9, %sil
	ja	.LBB46_418
	movzbl	%sil, %esi
	movzbl	9(%rdx), %r8d
	addb	$-48, %r8b
	cmpb	$10, %r8b
	jae	.LBB46_495
	movzbl	10(%rdx), %edx
	addb	$-48, %dl
	cmpb	$10, %dl
	jb	.LBB46_501
	movzbl	%r8b, %edx
	leaq	(%r11,%r11,4), %r8
	leaq	(%rax,%r8,2), %rax
	leaq	(%rax,%rax,4), %rax
	movl	%eax, %eax
	leaq	(%rsi,%rax,2), %rax
	leaq	(%rax,%rax,4), %rax
	leaq	(%rdx,%rax,2), %r11
	movl	$4, %eax
	jmp	.LBB46_496
.LBB46_89:
	cmpq	$10, %rcx
	jb	.LBB46_1247
	movabsq	$8461244960957818227, %rax
	cmpq	%rax, (%rdx)
	jne	.LBB46_1247
	movabsq	$2334401090213535604, %rax
	cmpq	%rax, 2(%rdx)
	jne	.LBB46_1247
	leaq	10(%rdx), %r10
	addq	$-10, %rcx
	cmpq	$5, %rcx
	jb	.LBB46_519
	movzbl	(%r10), %eax
	addb	$-48, %al
	cmpb	$9, %al
	ja	.LBB46_519
	movzbl	%al, %eax
	movzbl	11(%rdx), %r8d
	addb	$-48, %r8b
	movl	$1, %esi
	cmpb	$9, %r8b
	ja	.LBB46_508
	movzbl	%r8b, %esi
	movzbl	12(%rdx), %r8d
	addb	$-48, %r8b
	cmpb	$9, %r8b
	ja	.LBB46_419
	movzbl	%r8b, %r8d
	movzbl	13(%rdx), %r9d
	addb	$-48, %r9b
	cmpb	$10, %r9b
	jae	.LBB46_507
	movzbl	14(%rdx), %edx
	addb	$-48, %dl
	cmpb	$10, %dl
	jb	.LBB46_519
	movzbl	%r9b, %edx
	leaq	(%rax,%rax,4), %rax
	leaq	(%rsi,%rax,2), %rax
	leaq	(%rax,%rax,4), %rax
	movl	%eax, %eax
	leaq	(%r8,%rax,2), %rax
	leaq	(%rax,%rax,4), %rax
	leaq	(%rdx,%rax,2), %rax
	movl	$4, %esi
	jmp	.LBB46_508
.LBB46_99:
	cmpq	$14, %rcx
	jb	.LBB46_1247
	movabsq	$7592913319773762915, %rax
	cmpq	%rax, (%rdx)
	jne	.LBB46_1247
	movabsq	$2338619886566009183, %rax
	cmpq	%rax, 6(%rdx)
	jne	.LBB46_1247
	leaq	14(%rdx), %r10
	addq	$-14, %rcx
	cmpq	$5, %rcx
	jb	.LBB46_537
	movzbl	(%r10), %eax
	addb	$-48, %al
	cmpb	$9, %al
	ja	.LBB46_537
	movzbl	%al, %r11d
	movzbl	15(%rdx), %esi
	addb	$-48, %sil
	movl	$1, %eax
	cmpb	$9, %sil
	ja	.LBB46_526
	movzbl	%sil, %eax
	movzbl	16(%rdx), %esi
	addb	$-48, %sil
	cmpb	$9, %sil
	ja	.LBB46_420
	movzbl	%sil, %esi
	movzbl	17(%rdx), %r8d
	addb	$-48, %r8b
	cmpb	$10, %r8b
	jae	.LBB46_525
	movzbl	18(%rdx), %edx
	addb	$-48, %dl
	cmpb	$10, %dl
	jb	.LBB46_537
	movzbl	%r8b, %edx
	leaq	(%r11,%r11,4), %r8
	leaq	(%rax,%r8,2), %rax
	leaq	(%rax,%rax,4), %rax
	movl	%eax, %eax
	leaq	(%rsi,%rax,2), %rax
	leaq	(%rax,%rax,4), %rax
	leaq	(%rdx,%rax,2), %r11
	movl	$4, %eax
	jmp	.LBB46_526
.LBB46_109:
	cmpq	$14, %rcx
	jb	.LBB46_1247
	movabsq	$7088495816149332083, %rax
	cmpq	%rax, (%rdx)
	jne	.LBB46_1247
	movabsq	$2334397804646326879, %rax
	cmpq	%rax, 6(%rdx)
	jne	.LBB46_1247
	leaq	14(%rdx), %r10
	addq	$-14, %rcx
	cmpq	$5, %rcx
	jb	.LBB46_554
	movzbl	(%r10), %eax
	addb	$-48, %al
	cmpb	$9, %al
	ja	.LBB46_554
	movzbl	%al, %r11d
	movzbl	15(%rdx), %esi
	addb	$-48, %sil
	movl	$1, %eax
	cmpb	$9, %sil
	ja	.LBB46_543
	movzbl	%sil, %eax
	movzbl	16(%rdx), %esi
	addb	$-48, %sil
	cmpb	$9, %sil
	ja	.LBB46_421
	movzbl	%sil, %esi
	movzbl	17(%rdx), %r8d
	addb	$-48, %r8b
	cmpb	$10, %r8b
	jae	.LBB46_542
	movzbl	18(%rdx), %edx
	addb	$-48, %dl
	cmpb	$10, %dl
	jb	.LBB46_554
	movzbl	%r8b, %edx
	leaq	(%r11,%r11,4), %r8
	leaq	(%rax,%r8,2), %rax
	leaq	(%rax,%rax,4), %rax
	movl	%eax, %eax
	leaq	(%rsi,%rax,2), %rax
	leaq	(%rax,%rax,4), %rax
	leaq	(%rdx,%rax,2), %r11
	movl	$4, %eax
	jmp	.LBB46_543
.LBB46_119:
	cmpq	$10, %rcx
	jb	.LBB46_1247
	movabsq	$7308056219407577961, %rax
	cmpq	%rax, (%rdx)
	jne	.LBB46_1247
	movabsq	$2334102018973068383, %rax
	cmpq	%rax, 2(%rdx)
	jne	.LBB46_1247
	leaq	10(%rdx), %r10
	addq	$-10, %rcx
	cmpq	$5, %rcx
	jb	.LBB46_571
	movzbl	(%r10), %eax
	addb	$-48, %al
	cmpb	$9, %al
	ja	.LBB46_571
	movzbl	%al, %r11d
	movzbl	11(%rdx), %esi
	addb	$-48, %sil
	movl	$1, %eax
	cmpb	$9, %sil
	ja	.LBB46_560
	movzbl	%sil, %eax
	movzbl	12(%rdx), %esi
	addb	$-48, %sil
	cmpb	$9, %sil
	ja	.LBB46_422
	movzbl	%sil, %esi
	movzbl	13(%rdx), %r8d
	addb	$-48, %r8b
	cmpb	$10, %r8b
	jae	.LBB46_559
	movzbl	14(%rdx), %edx
	addb	$-48, %dl
	cmpb	$10, %dl
	jb	.LBB46_571
	movzbl	%r8b, %edx
	leaq	(%r11,%r11,4), %r8
	leaq	(%rax,%r8,2), %rax
	leaq	(%rax,%rax,4), %rax
	movl	%eax, %eax
	leaq	(%rsi,%rax,2), %rax
	leaq	(%rax,%rax,4), %rax
	leaq	(%rdx,%rax,2), %r11
	movl	$4, %eax
	jmp	.LBB46_560
.LBB46_129:
	xorps	%xmm0, %xmm0
	movaps	%xmm0, 64(%rsp)
	movaps	%xmm0, 48(%rsp)
	movq	$0, 80(%rsp)
	cmpq	$12, %rcx
	jb	.LBB46_1248
	movabsq	$8026082430860423285, %rax
	cmpq	%rax, (%rdx)
	jne	.LBB46_1248
	movabsq	$2334111957543706482, %rax
	cmpq	%rax, 4(%rdx)
	jne	.LBB46_1248
	movq	%rdi, 16(%rsp)
	leaq	12(%rdx), %r14
	addq	$-12, %rcx
	cmpq	$5, %rcx
	jb	.LBB46_1181
	movzbl	(%r14), %eax
	addb	$-48, %al
	cmpb	$9, %al
	ja	.LBB46_1181
	movzbl	%al, %edi
	movzbl	13(%rdx), %esi
	addb	$-48, %sil
	movl	$1, %eax
	cmpb	$9, %sil
	ja	.LBB46_1177
	movq	%rdi, %r8
	movzbl	%sil, %eax
	movq	%rdx, %rsi
	movzbl	14(%rdx), %edx
	addb	$-48, %dl
	cmpb	$9, %dl
	ja	.LBB46_1079
	movzbl	%dl, %edx
	movzbl	15(%rsi), %edi
	addb	$-48, %dil
	cmpb	$10, %dil
	jae	.LBB46_1176
	movzbl	16(%rsi), %esi
	addb	$-48, %sil
	cmpb	$10, %sil
	jb	.LBB46_1181
	movzbl	%dil, %esi
	leaq	(%r8,%r8,4), %rdi
	leaq	(%rax,%rdi,2), %rax
	leaq	(%rax,%rax,4), %rax
	movl	%eax, %eax
	leaq	(%rdx,%rax,2), %rax
	leaq	(%rax,%rax,4), %rax
	leaq	(%rsi,%rax,2), %rdi
	movl	$4, %eax
	jmp	.LBB46_1177
.LBB46_139:
	cmpq	$6, %rcx
	jb	.LBB46_1247
	cmpl	$1920233061, (%rdx)
	jne	.LBB46_1247
	cmpl	$544830068, 2(%rdx)
	jne	.LBB46_1247
	leaq	6(%rdx), %r10
	addq	$-6, %rcx
	cmpq	$5, %rcx
	jb	.LBB46_601
	movzbl	(%r10), %eax
	addb	$-48, %al
	cmpb	$9, %al
	ja	.LBB46_601
	movzbl	%al, %r11d
	movzbl	7(%rdx), %esi
	addb	$-48, %sil
	movl	$1, %eax
	cmpb	$9, %sil
	ja	.LBB46_590
	movzbl	%sil, %eax
	movzbl	8(%rdx), %esi
	addb	$-48, %sil
	cmpb	$9, %sil
	ja	.LBB46_424
	movzbl	%sil, %esi
	movzbl	9(%rdx), %r8d
	addb	$-48, %r8b
	cmpb	$10, %r8b
	jae	.LBB46_589
	movzbl	10(%rdx), %edx
	addb	$-48, %dl
	cmpb	$10, %dl
	jb	.LBB46_601
	movzbl	%r8b, %edx
	leaq	(%r11,%r11,4), %r8
	leaq	(%rax,%r8,2), %rax
	leaq	(%rax,%rax,4), %rax
	movl	%eax, %eax
	leaq	(%rsi,%rax,2), %rax
	leaq	(%rax,%rax,4), %rax
	leaq	(%rdx,%rax,2), %r11
	movl	$4, %eax
	jmp	.LBB46_590
.LBB46_149:
	cmpq	$5, %rcx
	jb	.LBB46_1247
	cmpl	$1701536116, (%rdx)
	jne	.LBB46_1247
	cmpl	$543517537, 1(%rdx)
	jne	.LBB46_1247
	leaq	5(%rdx), %r10
	addq	$-5, %rcx
	cmpq	$5, %rcx
	jb	.LBB46_612
	movzbl	(%r10), %eax
	addb	$-48, %al
	cmpb	$9, %al
	ja	.LBB46_612
	movzbl	%al, %r11d
	movzbl	6(%rdx), %esi
	addb	$-48, %sil
	movl	$1, %eax
	cmpb	$9, %sil
	ja	.LBB46_607
	movzbl	%sil, %eax
	movzbl	7(%rdx), %esi
	addb	$-48, %sil
	cmpb	$9, %sil
	ja	.LBB46_425
	movzbl	%sil, %esi
	movzbl	8(%rdx), %r8d
	addb	$-48, %r8b
	cmpb	$10, %r8b
	jae	.LBB46_606
	movzbl	9(%rdx), %edx
	addb	$-48, %dl
	cmpb	$10, %dl
	jb	.LBB46_612
	movzbl	%r8b, %edx
	leaq	(%r11,%r11,4), %r8
	leaq	(%rax,%r8,2), %rax
	leaq	(%rax,%rax,4), %rax
	movl	%eax, %eax
	leaq	(%rsi,%rax,2), %rax
	leaq	(%rax,%rax,4), %rax
	leaq	(%rdx,%rax,2), %r11
	movl	$4, %eax
	jmp	.LBB46_607
.LBB46_159:
	cmpq	$13, %rcx
	jb	.LBB46_1247
	movabsq	$7016438222111404147, %rax
	cmpq	%rax, (%rdx)
	jne	.LBB46_1247
	movabsq	$2338042707166977908, %rax
	addq	$-15, %rax
	cmpq	%rax, 5(%rdx)
	jne	.LBB46_1247
	leaq	13(%rdx), %r10
	addq	$-13, %rcx
	cmpq	$5, %rcx
	jb	.LBB46_630
	movzbl	(%r10), %eax
	addb	$-48, %al
	cmpb	$9, %al
	ja	.LBB46_630
	movzbl	%al, %r11d
	movzbl	14(%rdx), %esi
	addb	$-48, %sil
	movl	$1, %eax
	cmpb	$9, %sil
	ja	.LBB46_619
	movzbl	%sil, %eax
	movzbl	15(%rdx), %esi
	addb	$-48, %sil
	cmpb	$9, %sil
	ja	.LBB46_426
	movzbl	%sil, %esi
	movzbl	16(%rdx), %r8d
	addb	$-48, %r8b
	cmpb	$10, %r8b
	jae	.LBB46_618
	movzbl	17(%rdx), %edx
	addb	$-48, %dl
	cmpb	$10, %dl
	jb	.LBB46_630
	movzbl	%r8b, %edx
	leaq	(%r11,%r11,4), %r8
	leaq	(%rax,%r8,2), %rax
	leaq	(%rax,%rax,4), %rax
	movl	%eax, %eax
	leaq	(%rsi,%rax,2), %rax
	leaq	(%rax,%rax,4), %rax
	leaq	(%rdx,%rax,2), %r11
	movl	$4, %eax
	jmp	.LBB46_619
.LBB46_169:
	cmpq	$11, %rcx
	jb	.LBB46_1247
	movabsq	$7308325556942233958, %rax
	cmpq	%rax, (%rdx)
	jne	.LBB46_1247
	movabsq	$2338038244796751732, %rax
	cmpq	%rax, 3(%rdx)
	jne	.LBB46_1247
	leaq	11(%rdx), %r10
	addq	$-11, %rcx
	cmpq	$5, %rcx
	jb	.LBB46_641
	movzbl	(%r10), %eax
	addb	$-48, %al
	cmpb	$9, %al
	ja	.LBB46_641
	movzbl	%al, %r11d
	movzbl	12(%rdx), %esi
	addb	$-48, %sil
	movl	$1, %eax
	cmpb	$9, %sil
	ja	.LBB46_636
	movzbl	%sil, %eax
	movzbl	13(%rdx), %esi
	addb	$-48, %sil
	cmpb	$9, %sil
	ja	.LBB46_427
	movzbl	%sil, %esi
	movzbl	14(%rdx), %r8d
	addb	$-48, %r8b
	cmpb	$10, %r8b
	jae	.LBB46_635
	movzbl	15(%rdx), %edx
	addb	$-48, %dl
	cmpb	$10, %dl
	jb	.LBB46_641
	movzbl	%r8b, %edx
	leaq	(%r11,%r11,4), %r8
	leaq	(%rax,%r8,2), %rax
	leaq	(%rax,%rax,4), %rax
	movl	%eax, %eax
	leaq	(%rsi,%rax,2), %rax
	leaq	(%rax,%rax,4), %rax
	leaq	(%rdx,%rax,2), %r11
	movl	$4, %eax
	jmp	.LBB46_636
.LBB46_179:
	cmpq	$13, %rcx
	jb	.LBB46_1247
	movabsq	$7959372805511999334, %rax
	cmpq	%rax, (%rdx)
	jne	.LBB46_1247
	movabsq	$2336082230791533919, %rax
	cmpq	%rax, 5(%rdx)
	jne	.LBB46_1247
	leaq	13(%rdx), %r10
	addq	$-13, %rcx
	cmpq	$5, %rcx
	jb	.LBB46_659
	movzbl	(%r10), %eax
	addb	$-48, %al
	cmpb	$9, %al
	ja	.LBB46_659
	movzbl	%al, %r11d
	movzbl	14(%rdx), %esi
	addb	$-48, %sil
	movl	$1, %eax
	cmpb	$9, %sil
	ja	.LBB46_648
	movzbl	%sil, %eax
	movzbl	15(%rdx), %esi
	addb	$-48, %sil
	cmpb	$9, %sil
	ja	.LBB46_428
	movzbl	%sil, %esi
	movzbl	16(%rdx), %r8d
	addb	$-48, %r8b
	cmpb	$10, %r8b
	jae	.LBB46_647
	movzbl	17(%rdx), %edx
	addb	$-48, %dl
	cmpb	$10, %dl
	jb	.LBB46_659
	movzbl	%r8b, %edx
	leaq	(%r11,%r11,4), %r8
	leaq	(%rax,%r8,2), %rax
	leaq	(%rax,%rax,4), %rax
	movl	%eax, %eax
	leaq	(%rsi,%rax,2), %rax
	leaq	(%rax,%rax,4), %rax
	leaq	(%rdx,%rax,2), %r11
	movl	$4, %eax
	jmp	.LBB46_648
.LBB46_189:
	cmpq	$5, %rcx
	jb	.LBB46_1247
	cmpl	$1801807219, (%rdx)
	jne	.LBB46_1247
	cmpl	$543909221, 1(%rdx)
	jne	.LBB46_1247
	leaq	5(%rdx), %r10
	addq	$-5, %rcx
	cmpq	$5, %rcx
	jb	.LBB46_676
	movzbl	(%r10), %eax
	addb	$-48, %al
	cmpb	$9, %al
	ja	.LBB46_676
	movzbl	%al, %r11d
	movzbl	6(%rdx), %esi
	addb	$-48, %sil
	movl	$1, %eax
	cmpb	$9, %sil
	ja	.LBB46_665
	movzbl	%sil, %eax
	movzbl	7(%rdx), %esi
	addb	$-48, %sil
	cmpb	$9, %sil
	ja	.LBB46_429
	movzbl	%sil, %esi
	movzbl	8(%rdx), %r8d
	addb	$-48, %r8b
	cmpb	$10, %r8b
	jae	.LBB46_664
	movzbl	9(%rdx), %edx
	addb	$-48, %dl
	cmpb	$10, %dl
	jb	.LBB46_676
	movzbl	%r8b, %edx
	leaq	(%r11,%r11,4), %r8
	leaq	(%rax,%r8,2), %rax
	leaq	(%rax,%rax,4), %rax
	movl	%eax, %eax
	leaq	(%rsi,%rax,2), %rax
	leaq	(%rax,%rax,4), %rax
	leaq	(%rdx,%rax,2), %r11
	movl	$4, %eax
	jmp	.LBB46_665
.LBB46_199:
	cmpq	$8, %rcx
	jb	.LBB46_1247
	movabsq	$2334398904326646116, %rax
	cmpq	%rax, (%rdx)
	jne	.LBB46_1247
	leaq	8(%rdx), %r10
	addq	$-8, %rcx
	cmpq	$5, %rcx
	jb	.LBB46_436
	movzbl	(%r10), %eax
	addb	$-48, %al
	cmpb	$9, %al
	ja	.LBB46_436
	movzbl	%al, %r11d
	movzbl	9(%rdx), %esi
	addb	$-48, %sil
	movl	$1, %eax
	cmpb	$9, %sil
	ja	.LBB46_431
	movzbl	%sil, %eax
	movzbl	10(%rdx), %esi
	addb	$-48, %sil
	cmpb	$9, %sil
	ja	.LBB46_401
	movzbl	%sil, %esi
	movzbl	11(%rdx), %r8d
	addb	$-48, %r8b
	cmpb	$10, %r8b
	jae	.LBB46_430
	movzbl	12(%rdx), %edx
	addb	$-48, %dl
	cmpb	$10, %dl
	jb	.LBB46_436
	movzbl	%r8b, %edx
	leaq	(%r11,%r11,4), %r8
	leaq	(%rax,%r8,2), %rax
	leaq	(%rax,%rax,4), %rax
	movl	%eax, %eax
	leaq	(%rsi,%rax,2), %rax
	leaq	(%rax,%rax,4), %rax
	leaq	(%rdx,%rax,2), %r11
	movl	$4, %eax
	jmp	.LBB46_431
.LBB46_208:
	cmpq	$10, %rcx
	jb	.LBB46_1247
	movabsq	$7161113044409611632, %rax
	addq	$251392771, %rax
	cmpq	%rax, (%rdx)
	jne	.LBB46_1247
	movabsq	$2336070101635131507, %rax
	addq	$3836, %rax
	cmpq	%rax, 2(%rdx)
	jne	.LBB46_1247
	leaq	10(%rdx), %r10
	addq	$-10, %rcx
	cmpq	$5, %rcx
	jb	.LBB46_687
	movzbl	(%r10), %eax
	addb	$-48, %al
	cmpb	$9, %al
	ja	.LBB46_687
	movzbl	%al, %r11d
	movzbl	11(%rdx), %esi
	addb	$-48, %sil
	movl	$1, %eax
	cmpb	$9, %sil
	ja	.LBB46_682
	movzbl	%sil, %eax
	movzbl	12(%rdx), %esi
	addb	$-48, %sil
	cmpb	$9, %sil
	ja	.LBB46_442
	movzbl	%sil, %esi
	movzbl	13(%rdx), %r8d
	addb	$-48, %r8b
	cmpb	$10, %r8b
	jae	.LBB46_681
	movzbl	14(%rdx), %edx
	addb	$-48, %dl
	cmpb	$10, %dl
	jb	.LBB46_687
	movzbl	%r8b, %edx
	leaq	(%r11,%r11,4), %r8
	leaq	(%rax,%r8,2), %rax
	leaq	(%rax,%rax,4), %rax
	movl	%eax, %eax
	leaq	(%rsi,%rax,2), %rax
	leaq	(%rax,%rax,4), %rax
	leaq	(%rdx,%rax,2), %r11
	movl	$4, %eax
	jmp	.LBB46_682
.LBB46_218:
	xorps	%xmm0, %xmm0
	movaps	%xmm0, 64(%rsp)
	movaps	%xmm0, 48(%rsp)
	movq	$0, 80(%rsp)
	cmpq	$15, %rcx
	jb	.LBB46_1247
	movabsq	$8388367032661665139, %r13
	cmpq	%r13, (%rdx)
	jne	.LBB46_1247
	movabsq	$2339168598651528566, %rax
	addq	$766, %rax
	cmpq	%rax, 7(%rdx)
	je	.LBB46_446
.LBB46_221:
	movq	(%rdx), %rax
	xorps	%xmm0, %xmm0
	movaps	%xmm0, 64(%rsp)
	movaps	%xmm0, 48(%rsp)
	movq	$0, 80(%rsp)
	cmpq	%r13, %rax
	jne	.LBB46_1247
	movabsq	$2338626483550905718, %rax
	addq	$766, %rax
	cmpq	%rax, 7(%rdx)
	jne	.LBB46_1247
	movq	%rdi, 16(%rsp)
	leaq	15(%rdx), %r14
	addq	$-15, %rcx
	cmpq	$5, %rcx
	jb	.LBB46_1246
	movzbl	(%r14), %esi
	addb	$-48, %sil
	cmpb	$9, %sil
	ja	.LBB46_1246
	movq	%rcx, %rax
	movzbl	%sil, %ecx
	movq	%rcx, 32(%rsp)
	movq	%rdx, %rcx
	movzbl	16(%rdx), %esi
	addb	$-48, %sil
	movl	$1, %edx
	cmpb	$9, %sil
	ja	.LBB46_1242
	movzbl	%sil, %edx
	movzbl	17(%rcx), %esi
	addb	$-48, %sil
	cmpb	$9, %sil
	ja	.LBB46_1200
	movzbl	%sil, %esi
	movzbl	18(%rcx), %edi
	addb	$-48, %dil
	cmpb	$10, %dil
	jae	.LBB46_1241
	movzbl	19(%rcx), %ecx
	addb	$-48, %cl
	cmpb	$10, %cl
	movq	%rax, %rcx
	jb	.LBB46_1246
	movzbl	%dil, %ecx
	movq	32(%rsp), %rdi
	leaq	(%rdi,%rdi,4), %rdi
	leaq	(%rdx,%rdi,2), %rdx
	leaq	(%rdx,%rdx,4), %rdx
	movl	%edx, %edx
	leaq	(%rsi,%rdx,2), %rdx
	leaq	(%rdx,%rdx,4), %rdx
	leaq	(%rcx,%rdx,2), %rcx
	movq	%rcx, 32(%rsp)
	movl	$4, %edx
	jmp	.LBB46_1242
.LBB46_230:
	xorps	%xmm0, %xmm0
	movaps	%xmm0, 64(%rsp)
	movaps	%xmm0, 48(%rsp)
	movq	$0, 80(%rsp)
	cmpq	$12, %rcx
	jb	.LBB46_1248
	movabsq	$8026082430860423285, %rax
	addq	$458487, %rax
	cmpq	%rax, (%rdx)
	jne	.LBB46_1248
	movabsq	$2334111957543706482, %rax
	cmpq	%rax, 4(%rdx)
	jne	.LBB46_1248
	movq	%rdi, 16(%rsp)
	leaq	12(%rdx), %r14
	addq	$-12, %rcx
	cmpq	$5, %rcx
	jb	.LBB46_1197
	movzbl	(%r14), %eax
	addb	$-48, %al
	cmpb	$9, %al
	ja	.LBB46_1197
	movzbl	%al, %edi
	movzbl	13(%rdx), %esi
	addb	$-48, %sil
	movl	$1, %eax
	cmpb	$9, %sil
	ja	.LBB46_1193
	movq	%rdi, %r8
	movzbl	%sil, %eax
	movq	%rdx, %rsi
	movzbl	14(%rdx), %edx
	addb	$-48, %dl
	cmpb	$9, %dl
	ja	.LBB46_1081
	movzbl	%dl, %edx
	movzbl	15(%rsi), %edi
	addb	$-48, %dil
	cmpb	$10, %dil
	jae	.LBB46_1192
	movzbl	16(%rsi), %esi
	addb	$-48, %sil
	cmpb	$10, %sil
	jb	.LBB46_1197
	movzbl	%dil, %esi
	leaq	(%r8,%r8,4), %rdi
	leaq	(%rax,%rdi,2), %rax
	leaq	(%rax,%rax,4), %rax
	movl	%eax, %eax
	leaq	(%rdx,%rax,2), %rax
	leaq	(%rax,%rax,4), %rax
	leaq	(%rsi,%rax,2), %rdi
	movl	$4, %eax
	jmp	.LBB46_1193
.LBB46_240:
	cmpq	$7, %rcx
	jb	.LBB46_1247
	cmpl	$1702063721, (%rdx)
	jne	.LBB46_1247
	cmpl	$544502373, 3(%rdx)
	jne	.LBB46_1247
	leaq	7(%rdx), %r10
	addq	$-7, %rcx
	cmpq	$5, %rcx
	jb	.LBB46_705
	movzbl	(%r10), %eax
	addb	$-48, %al
	cmpb	$9, %al
	ja	.LBB46_705
	movzbl	%al, %r11d
	movzbl	8(%rdx), %esi
	addb	$-48, %sil
	movl	$1, %eax
	cmpb	$9, %sil
	ja	.LBB46_694
	movzbl	%sil, %eax
	movzbl	9(%rdx), %esi
	addb	$-48, %sil
	cmpb	$9, %sil
	ja	.LBB46_443
	movzbl	%sil, %esi
	movzbl	10(%rdx), %r8d
	addb	$-48, %r8b
	cmpb	$10, %r8b
	jae	.LBB46_693
	movzbl	11(%rdx), %edx
	addb	$-48, %dl
	cmpb	$10, %dl
	jb	.LBB46_705
	movzbl	%r8b, %edx
	leaq	(%r11,%r11,4), %r8
	leaq	(%rax,%r8,2), %rax
	leaq	(%rax,%rax,4), %rax
	movl	%eax, %eax
	leaq	(%rsi,%rax,2), %rax
	leaq	(%rax,%rax,4), %rax
	leaq	(%rdx,%rax,2), %r11
	movl	$4, %eax
	jmp	.LBB46_694
.LBB46_250:
	cmpq	$13, %rcx
	jb	.LBB46_1247
	movabsq	$7305506499137925235, %rax
	cmpq	%rax, (%rdx)
	jne	.LBB46_1247
	movabsq	$2334397804646326879, %rax
	cmpq	%rax, 5(%rdx)
	jne	.LBB46_1247
	leaq	13(%rdx), %r10
	addq	$-13, %rcx
	cmpq	$5, %rcx
	jb	.LBB46_716
	movzbl	(%r10), %eax
	addb	$-48, %al
	cmpb	$9, %al
	ja	.LBB46_716
	movzbl	%al, %r11d
	movzbl	14(%rdx), %esi
	addb	$-48, %sil
	movl	$1, %eax
	cmpb	$9, %sil
	ja	.LBB46_711
	movzbl	%sil, %eax
	movzbl	15(%rdx), %esi
	addb	$-48, %sil
	cmpb	$9, %sil
	ja	.LBB46_444
	movzbl	%sil, %esi
	movzbl	16(%rdx), %r8d
	addb	$-48, %r8b
	cmpb	$10, %r8b
	jae	.LBB46_710
	movzbl	17(%rdx), %edx
	addb	$-48, %dl
	cmpb	$10, %dl
	jb	.LBB46_716
	movzbl	%r8b, %edx
	leaq	(%r11,%r11,4), %r8
	leaq	(%rax,%r8,2), %rax
	leaq	(%rax,%rax,4), %rax
	movl	%eax, %eax
	leaq	(%rsi,%rax,2), %rax
	leaq	(%rax,%rax,4), %rax
	leaq	(%rdx,%rax,2), %r11
	movl	$4, %eax
	jmp	.LBB46_711
.LBB46_260:
	cmpq	$12, %rcx
	jb	.LBB46_1247
	movabsq	$7377282618199142515, %rax
	cmpq	%rax, (%rdx)
	jne	.LBB46_1247
	movabsq	$2338042707166977908, %rax
	cmpq	%rax, 4(%rdx)
	jne	.LBB46_1247
	leaq	12(%rdx), %r10
	addq	$-12, %rcx
	cmpq	$5, %rcx
	jb	.LBB46_730
	movzbl	(%r10), %eax
	addb	$-48, %al
	cmpb	$9, %al
	ja	.LBB46_730
	movzbl	%al, %r11d
	movzbl	13(%rdx), %esi
	addb	$-48, %sil
	movl	$1, %eax
	cmpb	$9, %sil
	ja	.LBB46_723
	movzbl	%sil, %eax
	movzbl	14(%rdx), %esi
	addb	$-48, %sil
	cmpb	$9, %sil
	ja	.LBB46_445
	movzbl	%sil, %esi
	movzbl	15(%rdx), %r8d
	addb	$-48, %r8b
	cmpb	$10, %r8b
	jae	.LBB46_722
	movzbl	16(%rdx), %edx
	addb	$-48, %dl
	cmpb	$10, %dl
	jb	.LBB46_730
	movzbl	%r8b, %edx
	leaq	(%r11,%r11,4), %r8
	leaq	(%rax,%r8,2), %rax
	leaq	(%rax,%rax,4), %rax
	movl	%eax, %eax
	leaq	(%rsi,%rax,2), %rax
	leaq	(%rax,%rax,4), %rax
	leaq	(%rdx,%rax,2), %r11
	movl	$4, %eax
	jmp	.LBB46_723
.LBB46_270:
	movl	$0, 48(%rsp)
	movw	$0, 52(%rsp)
	movl	$0, 96(%rsp)
	movw	$0, 100(%rsp)
	xorl	%r9d, %r9d
	xorl	%r8d, %r8d
	xorl	%r10d, %r10d
	addq	$-6, %rsi
	cmpq	$55, %rsi
	ja	.LBB46_402
	leaq	.LJTI46_1(%rip), %rax
	movslq	(%rax,%rsi,4), %rsi
	addq	%rax, %rsi
	xorl	%r12d, %r12d
	xorl	%r13d, %r13d
	xorl	%r11d, %r11d
	xorl	%eax, %eax
	jmpq	*%rsi
.LBB46_272:
	cmpq	$10, %rcx
	jb	.LBB46_1153
	movabsq	$7957704850600390512, %rax
	cmpq	%rax, (%rdx)
	jne	.LBB46_1153
	movabsq	$2338615531451866984, %rax
	addq	$8, %rax
	cmpq	%rax, 2(%rdx)
	jne	.LBB46_1153
	leaq	10(%rdx), %r10
	addq	$-10, %rcx
	cmpq	$5, %rcx
	jb	.LBB46_979
	movzbl	(%r10), %eax
	addb	$-48, %al
	cmpb	$9, %al
	ja	.LBB46_979
	movzbl	%al, %r11d
	movzbl	11(%rdx), %esi
	addb	$-48, %sil
	movl	$1, %eax
	cmpb	$9, %sil
	ja	.LBB46_974
	movzbl	%sil, %eax
	movzbl	12(%rdx), %esi
	addb	$-48, %sil
	cmpb	$9, %sil
	ja	.LBB46_913
	movzbl	%sil, %esi
	movq	%rdx, %r8
	movzbl	13(%rdx), %edx
	addb	$-48, %dl
	cmpb	$10, %dl
	jae	.LBB46_973
	movzbl	14(%r8), %r8d
	addb	$-48, %r8b
	cmpb	$10, %r8b
	jb	.LBB46_979
	movzbl	%dl, %edx
	leaq	(%r11,%r11,4), %r8
	leaq	(%rax,%r8,2), %rax
	leaq	(%rax,%rax,4), %rax
	movl	%eax, %eax
	leaq	(%rsi,%rax,2), %rax
	leaq	(%rax,%rax,4), %rax
	leaq	(%rdx,%rax,2), %r11
	movl	$4, %eax
	jmp	.LBB46_974
.LBB46_282:
	cmpq	$8, %rcx
	jb	.LBB46_1153
	movabsq	$2336361558317166439, %rax
	cmpq	%rax, (%rdx)
	jne	.LBB46_1153
	leaq	8(%rdx), %r10
	addq	$-8, %rcx
	cmpq	$5, %rcx
	jb	.LBB46_891
	movzbl	(%r10), %eax
	addb	$-48, %al
	cmpb	$9, %al
	ja	.LBB46_891
	movzbl	%al, %r11d
	movzbl	9(%rdx), %esi
	addb	$-48, %sil
	movl	$1, %eax
	cmpb	$9, %sil
	ja	.LBB46_886
	movzbl	%sil, %eax
	movzbl	10(%rdx), %esi
	addb	$-48, %sil
	cmpb	$9, %sil
	ja	.LBB46_883
	movzbl	%sil, %esi
	movzbl	11(%rdx), %r8d
	addb	$-48, %r8b
	cmpb	$10, %r8b
	jae	.LBB46_885
	movzbl	12(%rdx), %edx
	addb	$-48, %dl
	cmpb	$10, %dl
	jb	.LBB46_891
	movzbl	%r8b, %edx
	leaq	(%r11,%r11,4), %r8
	leaq	(%rax,%r8,2), %rax
	leaq	(%rax,%rax,4), %rax
	movl	%eax, %eax
	leaq	(%rsi,%rax,2), %rax
	leaq	(%rax,%rax,4), %rax
	leaq	(%rdx,%rax,2), %r11
	movl	$4, %eax
	jmp	.LBB46_886
.LBB46_291:
	cmpq	$13, %rcx
	jb	.LBB46_1153
	movabsq	$6874009676333213042, %rbx
	cmpq	%rbx, (%rdx)
	jne	.LBB46_1090
	movabsq	$2335244403114730851, %rax
	cmpq	%rax, 5(%rdx)
	jne	.LBB46_1090
	leaq	13(%rdx), %rbp
	leaq	-13(%rcx), %rsi
	cmpq	$5, %rsi
	jb	.LBB46_932
	movzbl	(%rbp), %eax
	addb	$-48, %al
	cmpb	$9, %al
	ja	.LBB46_932
	movzbl	%al, %r11d
	movzbl	14(%rdx), %r8d
	addb	$-48, %r8b
	movl	$1, %eax
	cmpb	$9, %r8b
	ja	.LBB46_921
	movzbl	%r8b, %eax
	movzbl	15(%rdx), %r8d
	addb	$-48, %r8b
	cmpb	$9, %r8b
	ja	.LBB46_897
	movq	%rsi, %r14
	movzbl	%r8b, %r10d
	movzbl	16(%rdx), %r8d
	addb	$-48, %r8b
	cmpb	$10, %r8b
	jae	.LBB46_920
	movzbl	17(%rdx), %r9d
	addb	$-48, %r9b
	cmpb	$10, %r9b
	movq	%r14, %rsi
	jb	.LBB46_932
	movzbl	%r8b, %r8d
	leaq	(%r11,%r11,4), %r9
	leaq	(%rax,%r9,2), %rax
	movq	%r14, %rsi
	leaq	(%rax,%rax,4), %rax
	movl	%eax, %eax
	leaq	(%r10,%rax,2), %rax
	leaq	(%rax,%rax,4), %rax
	leaq	(%r8,%rax,2), %r11
	movl	$4, %eax
	jmp	.LBB46_921
.LBB46_301:
	cmpq	$12, %rcx
	jb	.LBB46_1153
	movabsq	$7953187026309571954, %rax
	cmpq	%rax, (%rdx)
	jne	.LBB46_1153
	movabsq	$2338626483550905718, %rax
	cmpq	%rax, 4(%rdx)
	jne	.LBB46_1153
	leaq	12(%rdx), %r10
	addq	$-12, %rcx
	cmpq	$5, %rcx
	jb	.LBB46_943
	movzbl	(%r10), %eax
	addb	$-48, %al
	cmpb	$9, %al
	ja	.LBB46_943
	movzbl	%al, %r11d
	movzbl	13(%rdx), %esi
	addb	$-48, %sil
	movl	$1, %eax
	cmpb	$9, %sil
	ja	.LBB46_938
	movzbl	%sil, %eax
	movzbl	14(%rdx), %esi
	addb	$-48, %sil
	cmpb	$9, %sil
	ja	.LBB46_898
	movzbl	%sil, %esi
	movq	%rdx, %r8
	movzbl	15(%rdx), %edx
	addb	$-48, %dl
	cmpb	$10, %dl
	jae	.LBB46_937
	movzbl	16(%r8), %r8d
	addb	$-48, %r8b
	cmpb	$10, %r8b
	jb	.LBB46_943
	movzbl	%dl, %edx
	leaq	(%r11,%r11,4), %r8
	leaq	(%rax,%r8,2), %rax
	leaq	(%rax,%rax,4), %rax
	movl	%eax, %eax
	leaq	(%rsi,%rax,2), %rax
	leaq	(%rax,%rax,4), %rax
	leaq	(%rdx,%rax,2), %r11
	movl	$4, %eax
	jmp	.LBB46_938
.LBB46_311:
	cmpq	$10, %rcx
	jb	.LBB46_1153
	movabsq	$8675461613202337645, %rax
	cmpq	%rax, (%rdx)
	jne	.LBB46_1153
	movabsq	$2338626483550905718, %rax
	cmpq	%rax, 2(%rdx)
	jne	.LBB46_1153
	leaq	10(%rdx), %r10
	addq	$-10, %rcx
	cmpq	$5, %rcx
	jb	.LBB46_955
	movzbl	(%r10), %eax
	addb	$-48, %al
	cmpb	$9, %al
	ja	.LBB46_955
	movzbl	%al, %r11d
	movzbl	11(%rdx), %esi
	addb	$-48, %sil
	movl	$1, %eax
	cmpb	$9, %sil
	ja	.LBB46_950
	movzbl	%sil, %eax
	movzbl	12(%rdx), %esi
	addb	$-48, %sil
	cmpb	$9, %sil
	ja	.LBB46_899
	movzbl	%sil, %esi
	movq	%rdx, %r8
	movzbl	13(%rdx), %edx
	addb	$-48, %dl
	cmpb	$10, %dl
	jae	.LBB46_949
	movzbl	14(%r8), %r8d
	addb	$-48, %r8b
	cmpb	$10, %r8b
	jb	.LBB46_955
	movzbl	%dl, %edx
	leaq	(%r11,%r11,4), %r8
	leaq	(%rax,%r8,2), %rax
	leaq	(%rax,%rax,4), %rax
	movl	%eax, %eax
	leaq	(%rsi,%rax,2), %rax
	leaq	(%rax,%rax,4), %rax
	leaq	(%rdx,%rax,2), %r11
	movl	$4, %eax
	jmp	.LBB46_950
.LBB46_321:
	cmpq	$10, %rcx
	jb	.LBB46_1153
	movabsq	$7310028700202200941, %rax
	cmpq	%rax, (%rdx)
	jne	.LBB46_1153
	movabsq	$2339168598651528566, %rax
	cmpq	%rax, 2(%rdx)
	jne	.LBB46_1153
	leaq	10(%rdx), %r10
	addq	$-10, %rcx
	cmpq	$5, %rcx
	jb	.LBB46_967
	movzbl	(%r10), %eax
	addb	$-48, %al
	cmpb	$9, %al
	ja	.LBB46_967
	movzbl	%al, %r11d
	movzbl	11(%rdx), %esi
	addb	$-48, %sil
	movl	$1, %eax
	cmpb	$9, %sil
	ja	.LBB46_962
	movzbl	%sil, %eax
	movzbl	12(%rdx), %esi
	addb	$-48, %sil
	cmpb	$9, %sil
	ja	.LBB46_900
	movzbl	%sil, %esi
	movq	%rdx, %r8
	movzbl	13(%rdx), %edx
	addb	$-48, %dl
	cmpb	$10, %dl
	jae	.LBB46_961
	movzbl	14(%r8), %r8d
	addb	$-48, %r8b
	cmpb	$10, %r8b
	jb	.LBB46_967
	movzbl	%dl, %edx
	leaq	(%r11,%r11,4), %r8
	leaq	(%rax,%r8,2), %rax
	leaq	(%rax,%rax,4), %rax
	movl	%eax, %eax
	leaq	(%rsi,%rax,2), %rax
	leaq	(%rax,%rax,4), %rax
	leaq	(%rdx,%rax,2), %r11
	movl	$4, %eax
	jmp	.LBB46_962
.LBB46_331:
	cmpq	$8, %rcx
	jb	.LBB46_1153
	movabsq	$2338615488502986083, %rax
	cmpq	%rax, (%rdx)
	jne	.LBB46_1153
	leaq	8(%rdx), %r10
	addq	$-8, %rcx
	cmpq	$5, %rcx
	jb	.LBB46_907
	movzbl	(%r10), %eax
	addb	$-48, %al
	cmpb	$9, %al
	ja	.LBB46_907
	movzbl	%al, %r11d
	movzbl	9(%rdx), %esi
	addb	$-48, %sil
	movl	$1, %eax
	cmpb	$9, %sil
	ja	.LBB46_902
	movzbl	%sil, %eax
	movzbl	10(%rdx), %esi
	addb	$-48, %sil
	cmpb	$9, %sil
	ja	.LBB46_884
	movzbl	%sil, %esi
	movzbl	11(%rdx), %r8d
	addb	$-48, %r8b
	cmpb	$10, %r8b
	jae	.LBB46_901
	movzbl	12(%rdx), %edx
	addb	$-48, %dl
	cmpb	$10, %dl
	jb	.LBB46_907
	movzbl	%r8b, %edx
	leaq	(%r11,%r11,4), %r8
	leaq	(%rax,%r8,2), %rax
	leaq	(%rax,%rax,4), %rax
	movl	%eax, %eax
	leaq	(%rsi,%rax,2), %rax
	leaq	(%rax,%rax,4), %rax
	leaq	(%rdx,%rax,2), %r11
	movl	$4, %eax
	jmp	.LBB46_902
.LBB46_340:
	cmpq	$11, %rcx
	jb	.LBB46_1153
	movabsq	$8030593645515339120, %rax
	cmpq	%rax, (%rdx)
	jne	.LBB46_1153
	movabsq	$2338615531451866984, %rax
	cmpq	%rax, 3(%rdx)
	jne	.LBB46_1153
	leaq	11(%rdx), %r10
	addq	$-11, %rcx
	cmpq	$5, %rcx
	jb	.LBB46_997
	movzbl	(%r10), %eax
	addb	$-48, %al
	cmpb	$9, %al
	ja	.LBB46_997
	movzbl	%al, %r11d
	movzbl	12(%rdx), %esi
	addb	$-48, %sil
	movl	$1, %eax
	cmpb	$9, %sil
	ja	.LBB46_986
	movzbl	%sil, %eax
	movzbl	13(%rdx), %esi
	addb	$-48, %sil
	cmpb	$9, %sil
	ja	.LBB46_914
	movzbl	%sil, %esi
	movq	%rdx, %r8
	movzbl	14(%rdx), %edx
	addb	$-48, %dl
	cmpb	$10, %dl
	jae	.LBB46_985
	movzbl	15(%r8), %r8d
	addb	$-48, %r8b
	cmpb	$10, %r8b
	jb	.LBB46_997
	movzbl	%dl, %edx
	leaq	(%r11,%r11,4), %r8
	leaq	(%rax,%r8,2), %rax
	leaq	(%rax,%rax,4), %rax
	movl	%eax, %eax
	leaq	(%rsi,%rax,2), %rax
	leaq	(%rax,%rax,4), %rax
	leaq	(%rdx,%rax,2), %r11
	movl	$4, %eax
	jmp	.LBB46_986
.LBB46_350:
	cmpq	$9, %rcx
	jb	.LBB46_1153
	movabsq	$7738135659888537456, %rax
	cmpq	%rax, (%rdx)
	jne	.LBB46_1153
	movabsq	$2336070101635131507, %rax
	addq	$2044, %rax
	cmpq	%rax, 1(%rdx)
	jne	.LBB46_1153
	leaq	9(%rdx), %r10
	addq	$-9, %rcx
	cmpq	$5, %rcx
	jb	.LBB46_1008
	movzbl	(%r10), %eax
	addb	$-48, %al
	cmpb	$9, %al
	ja	.LBB46_1008
	movzbl	%al, %r11d
	movzbl	10(%rdx), %esi
	addb	$-48, %sil
	movl	$1, %eax
	cmpb	$9, %sil
	ja	.LBB46_1003
	movzbl	%sil, %eax
	movzbl	11(%rdx), %esi
	addb	$-48, %sil
	cmpb	$9, %sil
	ja	.LBB46_915
	movzbl	%sil, %esi
	movq	%rdx, %r8
	movzbl	12(%rdx), %edx
	addb	$-48, %dl
	cmpb	$10, %dl
	jae	.LBB46_1002
	movzbl	13(%r8), %r8d
	addb	$-48, %r8b
	cmpb	$10, %r8b
	jb	.LBB46_1008
	movzbl	%dl, %edx
	leaq	(%r11,%r11,4), %r8
	leaq	(%rax,%r8,2), %rax
	leaq	(%rax,%rax,4), %rax
	movl	%eax, %eax
	leaq	(%rsi,%rax,2), %rax
	leaq	(%rax,%rax,4), %rax
	leaq	(%rdx,%rax,2), %r11
	movl	$4, %eax
	jmp	.LBB46_1003
.LBB46_360:
	cmpq	$14, %rcx
	jb	.LBB46_1153
	movabsq	$7088512373181607529, %rax
	cmpq	%rax, (%rdx)
	jne	.LBB46_1153
	movabsq	$2334397804646326879, %rax
	cmpq	%rax, 6(%rdx)
	jne	.LBB46_1153
	leaq	14(%rdx), %r10
	addq	$-14, %rcx
	cmpq	$5, %rcx
	jb	.LBB46_1026
	movzbl	(%r10), %eax
	addb	$-48, %al
	cmpb	$9, %al
	ja	.LBB46_1026
	movzbl	%al, %r11d
	movzbl	15(%rdx), %esi
	addb	$-48, %sil
	movl	$1, %eax
	cmpb	$9, %sil
	ja	.LBB46_1015
	movzbl	%sil, %eax
	movzbl	16(%rdx), %esi
	addb	$-48, %sil
	cmpb	$9, %sil
	ja	.LBB46_916
	movzbl	%sil, %esi
	movq	%rdx, %r8
	movzbl	17(%rdx), %edx
	addb	$-48, %dl
	cmpb	$10, %dl
	jae	.LBB46_1014
	movzbl	18(%r8), %r8d
	addb	$-48, %r8b
	cmpb	$10, %r8b
	jb	.LBB46_1026
	movzbl	%dl, %edx
	leaq	(%r11,%r11,4), %r8
	leaq	(%rax,%r8,2), %rax
	leaq	(%rax,%rax,4), %rax
	movl	%eax, %eax
	leaq	(%rsi,%rax,2), %rax
	leaq	(%rax,%rax,4), %rax
	leaq	(%rdx,%rax,2), %r11
	movl	$4, %eax
	jmp	.LBB46_1015
.LBB46_370:
	cmpq	$13, %rcx
	jb	.LBB46_1153
	movabsq	$7016454779143679593, %rax
	cmpq	%rax, (%rdx)
	jne	.LBB46_1153
	movabsq	$2338042707166977908, %rax
	cmpq	%rax, 5(%rdx)
	jne	.LBB46_1153
	leaq	13(%rdx), %r10
	addq	$-13, %rcx
	cmpq	$5, %rcx
	jb	.LBB46_1043
	movzbl	(%r10), %eax
	addb	$-48, %al
	cmpb	$9, %al
	ja	.LBB46_1043
	movzbl	%al, %r11d
	movzbl	14(%rdx), %esi
	addb	$-48, %sil
	movl	$1, %eax
	cmpb	$9, %sil
	ja	.LBB46_1032
	movzbl	%sil, %eax
	movzbl	15(%rdx), %esi
	addb	$-48, %sil
	cmpb	$9, %sil
	ja	.LBB46_917
	movzbl	%sil, %esi
	movq	%rdx, %r8
	movzbl	16(%rdx), %edx
	addb	$-48, %dl
	cmpb	$10, %dl
	jae	.LBB46_1031
	movzbl	17(%r8), %r8d
	addb	$-48, %r8b
	cmpb	$10, %r8b
	jb	.LBB46_1043
	movzbl	%dl, %edx
	leaq	(%r11,%r11,4), %r8
	leaq	(%rax,%r8,2), %rax
	leaq	(%rax,%rax,4), %rax
	movl	%eax, %eax
	leaq	(%rsi,%rax,2), %rax
	leaq	(%rax,%rax,4), %rax
	leaq	(%rdx,%rax,2), %r11
	movl	$4, %eax
	jmp	.LBB46_1032
.LBB46_380:
	cmpq	$7, %rcx
	jb	.LBB46_1153
	cmpl	$1869440370, (%rdx)
	jne	.LBB46_1153
	cmpl	$543520367, 3(%rdx)
	jne	.LBB46_1153
	leaq	7(%rdx), %r10
	addq	$-7, %rcx
	cmpq	$5, %rcx
	jb	.LBB46_1054
	movzbl	(%r10), %eax
	addb	$-48, %al
	cmpb	$9, %al
	ja	.LBB46_1054
	movzbl	%al, %r11d
	movzbl	8(%rdx), %esi
	addb	$-48, %sil
	movl	$1, %eax
	cmpb	$9, %sil
	ja	.LBB46_1049
	movzbl	%sil, %eax
	movzbl	9(%rdx), %esi
	addb	$-48, %sil
	cmpb	$9, %sil
	ja	.LBB46_918
	movzbl	%sil, %esi
	movq	%rdx, %r8
	movzbl	10(%rdx), %edx
	addb	$-48, %dl
	cmpb	$10, %dl
	jae	.LBB46_1048
	movzbl	11(%r8), %r8d
	addb	$-48, %r8b
	cmpb	$10, %r8b
	jb	.LBB46_1054
	movzbl	%dl, %edx
	leaq	(%r11,%r11,4), %r8
	leaq	(%rax,%r8,2), %rax
	leaq	(%rax,%rax,4), %rax
	movl	%eax, %eax
	leaq	(%rsi,%rax,2), %rax
	leaq	(%rax,%rax,4), %rax
	leaq	(%rdx,%rax,2), %r11
	movl	$4, %eax
	jmp	.LBB46_1049
.LBB46_390:
	cmpq	$10, %rcx
	jb	.LBB46_1153
	movabsq	$7161113044409611632, %rax
	cmpq	%rax, (%rdx)
	jne	.LBB46_1153
	movabsq	$2336070101635131507, %rax
	cmpq	%rax, 2(%rdx)
	jne	.LBB46_1153
	leaq	10(%rdx), %r10
	addq	$-10, %rcx
	cmpq	$5, %rcx
	jb	.LBB46_1072
	movzbl	(%r10), %eax
	addb	$-48, %al
	cmpb	$9, %al
	ja	.LBB46_1072
	movzbl	%al, %r11d
	movzbl	11(%rdx), %esi
	addb	$-48, %sil
	movl	$1, %eax
	cmpb	$9, %sil
	ja	.LBB46_1061
	movzbl	%sil, %eax
	movzbl	12(%rdx), %esi
	addb	$-48, %sil
	cmpb	$9, %sil
	ja	.LBB46_919
	movzbl	%sil, %esi
	movq	%rdx, %r8
	movzbl	13(%rdx), %edx
	addb	$-48, %dl
	cmpb	$10, %dl
	jae	.LBB46_1060
	movzbl	14(%r8), %r8d
	addb	$-48, %r8b
	cmpb	$10, %r8b
	jb	.LBB46_1072
	movzbl	%dl, %edx
	leaq	(%r11,%r11,4), %r8
	leaq	(%rax,%r8,2), %rax
	leaq	(%rax,%rax,4), %rax
	movl	%eax, %eax
	leaq	(%rsi,%rax,2), %rax
	leaq	(%rax,%rax,4), %rax
	leaq	(%rdx,%rax,2), %r11
	movl	$4, %eax
	jmp	.LBB46_1061
.LBB46_400:
	leaq	(%r11,%r11,4), %rdx
	leaq	(%rax,%rdx,2), %r11
	movl	$2, %eax
	jmp	.LBB46_406
.LBB46_401:
	leaq	(%r11,%r11,4), %rdx
	leaq	(%rax,%rdx,2), %r11
	movl	$2, %eax
	jmp	.LBB46_431
.LBB46_402:
	xorl	%r12d, %r12d
	xorl	%r13d, %r13d
	xorl	%r11d, %r11d
	xorl	%eax, %eax
	jmp	.LBB46_1151
.LBB46_403:
	leaq	(%r11,%r11,4), %rdx
	leaq	(%rax,%rdx,2), %r11
	movl	$2, %eax
	jmp	.LBB46_454
.LBB46_404:
	leaq	(%r11,%r11,4), %rdx
	leaq	(%rax,%rdx,2), %r11
	movl	$2, %eax
	jmp	.LBB46_466
.LBB46_405:
	leaq	(%r11,%r11,4), %rdx
	leaq	(%rax,%rdx,2), %rax
	leaq	(%rax,%rax,4), %rax
	movl	%eax, %eax
	leaq	(%rsi,%rax,2), %r11
	movl	$3, %eax
.LBB46_406:
	movzbl	(%r10,%rax), %edx
	cmpl	$32, %edx
	je	.LBB46_408
	cmpl	$10, %edx
	jne	.LBB46_411
.LBB46_408:
	addq	%rax, %r10
	subq	%rax, %rcx
	cmpb	$10, %dl
	jne	.LBB46_414
.LBB46_409:
	incq	%r10
	decq	%rcx
	movq	%rcx, %r9
.LBB46_410:
	movw	$0, 12(%rsp)
	movl	$0, 8(%rsp)
	movl	$261, %r13d
	jmp	.LBB46_582
.LBB46_411:
	movq	%rdi, %rbx
	movq	%r10, %rdi
	movq	%rcx, %rsi
	movq	%rcx, %r14
	movq	%r10, %r12
	callq	ic_program.argument.any_number
	movq	%rbx, %rdi
	cmpb	$1, %al
	jne	.LBB46_1247
	movq	%r14, %rsi
	movq	%rdx, %r15
	movq	%r12, %rdi
	callq	ic_program.text.after_word
	movq	%rax, %r10
	testq	%rdx, %rdx
	je	.LBB46_1295
	movq	%rdx, %rcx
	movzbl	(%r10), %edx
	movq	%rbx, %rdi
	movq	%r15, %r11
	cmpb	$10, %dl
	je	.LBB46_409
.LBB46_414:
	movq	%r11, %r15
	movq	%rdi, %rbx
.LBB46_415:
	movq	%r10, %rdi
	movq	%rcx, %rsi
	movq	%rcx, %r14
	movq	%r10, %r12
	callq	ic_program.text.other_line
	cmpb	$1, %al
	movq	%rbx, %rdi
	jne	.LBB46_1247
	movq	%r14, %r9
	movq	%r15, %r11
	addq	%rdx, %r12
	subq	%rdx, %r9
	movq	%r12, %r10
	jmp	.LBB46_410
.LBB46_417:
	leaq	(%rax,%rax,4), %rax
	leaq	(%rsi,%rax,2), %rax
	movl	$2, %esi
	jmp	.LBB46_483
.LBB46_418:
	leaq	(%r11,%r11,4), %rdx
	leaq	(%rax,%rdx,2), %r11
	movl	$2, %eax
	jmp	.LBB46_496
.LBB46_419:
	leaq	(%rax,%rax,4), %rax
	leaq	(%rsi,%rax,2), %rax
	movl	$2, %esi
	jmp	.LBB46_508
.LBB46_420:
	leaq	(%r11,%r11,4), %rdx
	leaq	(%rax,%rdx,2), %r11
	movl	$2, %eax
	jmp	.LBB46_526
.LBB46_421:
	leaq	(%r11,%r11,4), %rdx
	leaq	(%rax,%rdx,2), %r11
	movl	$2, %eax
	jmp	.LBB46_543
.LBB46_422:
	leaq	(%r11,%r11,4), %rdx
	leaq	(%rax,%rdx,2), %r11
	movl	$2, %eax
	jmp	.LBB46_560
.LBB46_423:
	leaq	(%r11,%r11,4), %rdx
	leaq	(%rax,%rdx,2), %r11
	movl	$2, %eax
	jmp	.LBB46_577
.LBB46_424:
	leaq	(%r11,%r11,4), %rdx
	leaq	(%rax,%rdx,2), %r11
	movl	$2, %eax
	jmp	.LBB46_590
.LBB46_425:
	leaq	(%r11,%r11,4), %rdx
	leaq	(%rax,%rdx,2), %r11
	movl	$2, %eax
	jmp	.LBB46_607
.LBB46_426:
	leaq	(%r11,%r11,4), %rdx
	leaq	(%rax,%rdx,2), %r11
	movl	$2, %eax
	jmp	.LBB46_619
.LBB46_427:
	leaq	(%r11,%r11,4), %rdx
	leaq	(%rax,%rdx,2), %r11
	movl	$2, %eax
	jmp	.LBB46_636
.LBB46_428:
	leaq	(%r11,%r11,4), %rdx
	leaq	(%rax,%rdx,2), %r11
	movl	$2, %eax
	jmp	.LBB46_648
.LBB46_429:
	leaq	(%r11,%r11,4), %rdx
	leaq	(%rax,%rdx,2), %r11
	movl	$2, %eax
	jmp	.LBB46_665
.LBB46_430:
	leaq	(%r11,%r11,4), %rdx
	leaq	(%rax,%rdx,2), %rax
	leaq	(%rax,%rax,4), %rax
	movl	%eax, %eax
	leaq	(%rsi,%rax,2), %r11
	movl	$3, %eax
.LBB46_431:
	movzbl	(%r10,%rax), %edx
	cmpl	$32, %edx
	je	.LBB46_433
	cmpl	$10, %edx
	jne	.LBB46_436
.LBB46_433:
	addq	%rax, %r10
	subq	%rax, %rcx
	cmpb	$10, %dl
	jne	.LBB46_439
.LBB46_434:
	incq	%r10
	decq	%rcx
	movq	%rcx, %r9
.LBB46_435:
	movw	$0, 12(%rsp)
	movl	$0, 8(%rsp)
	movb	$6, %r8b
	jmp	.LBB46_728
.LBB46_436:
	movq	%rdi, %rbx
	movq	%r10, %rdi
	movq	%rcx, %rsi
	movq	%rcx, %r14
	movq	%r10, %r12
	callq	ic_program.argument.any_number
	movq	%rbx, %rdi
	cmpb	$1, %al
	jne	.LBB46_1247
	movq	%r14, %rsi
	movq	%rdx, %r15
	movq	%r12, %rdi
	callq	ic_program.text.after_word
	movq	%rax, %r10
	testq	%rdx, %rdx
	je	.LBB46_1296
	movq	%rdx, %rcx
	movzbl	(%r10), %edx
	movq	%rbx, %rdi
	movq	%r15, %r11
	cmpb	$10, %dl
	je	.LBB46_434
.LBB46_439:
	movq	%r11, %r15
	movq	%rdi, %rbx
.LBB46_440:
	movq	%r10, %rdi
	movq	%rcx, %rsi
	movq	%rcx, %r14
	movq	%r10, %r12
	callq	ic_program.text.other_line
	cmpb	$1, %al
	movq	%rbx, %rdi
	jne	.LBB46_1247
	movq	%r14, %r9
	movq	%r15, %r11
	addq	%rdx, %r12
	subq	%rdx, %r9
	movq	%r12, %r10
	jmp	.LBB46_435
.LBB46_442:
	leaq	(%r11,%r11,4), %rdx
	leaq	(%rax,%rdx,2), %r11
	movl	$2, %eax
	jmp	.LBB46_682
.LBB46_443:
	leaq	(%r11,%r11,4), %rdx
	leaq	(%rax,%rdx,2), %r11
	movl	$2, %eax
	jmp	.LBB46_694
.LBB46_444:
	leaq	(%r11,%r11,4), %rdx
	leaq	(%rax,%rdx,2), %r11
	movl	$2, %eax
	jmp	.LBB46_711
.LBB46_445:
	leaq	(%r11,%r11,4), %rdx
	leaq	(%rax,%rdx,2), %r11
	movl	$2, %eax
	jmp	.LBB46_723
.LBB46_446:
	movq	%rdi, 16(%rsp)
	leaq	15(%rdx), %r14
	leaq	-15(%rcx), %r15
	cmpq	$5, %r15
	jb	.LBB46_1189
	movzbl	(%r14), %eax
	addb	$-48, %al
	cmpb	$9, %al
	ja	.LBB46_1189
	movzbl	%al, %r8d
	movzbl	16(%rdx), %esi
	addb	$-48, %sil
	movl	$1, %eax
	cmpb	$9, %sil
	ja	.LBB46_1185
	movq	%r8, %r9
	movzbl	%sil, %eax
	movzbl	17(%rdx), %esi
	addb	$-48, %sil
	cmpb	$9, %sil
	ja	.LBB46_1080
	movzbl	%sil, %esi
	movq	%rdx, %rdi
	movzbl	18(%rdx), %r8d
	addb	$-48, %r8b
	cmpb	$10, %r8b
	jae	.LBB46_1184
	movq	%rdi, %rdx
	movzbl	19(%rdi), %edi
	addb	$-48, %dil
	cmpb	$10, %dil
	jb	.LBB46_1189
	movzbl	%r8b, %edi
	leaq	(%r9,%r9,4), %r8
	leaq	(%rax,%r8,2), %rax
	leaq	(%rax,%rax,4), %rax
	movl	%eax, %eax
	leaq	(%rsi,%rax,2), %rax
	leaq	(%rax,%rax,4), %rax
	leaq	(%rdi,%rax,2), %r8
	movl	$4, %eax
	jmp	.LBB46_1185
.LBB46_453:
	leaq	(%r11,%r11,4), %rdx
	leaq	(%rax,%rdx,2), %rax
	leaq	(%rax,%rax,4), %rax
	movl	%eax, %eax
	leaq	(%rsi,%rax,2), %r11
	movl	$3, %eax
.LBB46_454:
	movzbl	(%r10,%rax), %edx
	cmpl	$32, %edx
	je	.LBB46_456
	cmpl	$10, %edx
	jne	.LBB46_459
.LBB46_456:
	addq	%rax, %r10
	subq	%rax, %rcx
	cmpb	$10, %dl
	jne	.LBB46_462
.LBB46_457:
	incq	%r10
	decq	%rcx
	movq	%rcx, %r9
.LBB46_458:
	movw	$0, 12(%rsp)
	movl	$0, 8(%rsp)
	movb	$9, %r8b
	jmp	.LBB46_728
.LBB46_459:
	movq	%rdi, %rbx
	movq	%r10, %rdi
	movq	%rcx, %rsi
	movq	%rcx, %r14
	movq	%r10, %r12
	callq	ic_program.argument.any_number
	movq	%rbx, %rdi
	cmpb	$1, %al
	jne	.LBB46_1247
	movq	%r14, %rsi
	movq	%rdx, %r15
	movq	%r12, %rdi
	callq	ic_program.text.after_word
	movq	%rax, %r10
	testq	%rdx, %rdx
	je	.LBB46_1326
	movq	%rdx, %rcx
	movzbl	(%r10), %edx
	movq	%rbx, %rdi
	movq	%r15, %r11
	cmpb	$10, %dl
	je	.LBB46_457
.LBB46_462:
	movq	%r11, %r15
	movq	%rdi, %rbx
.LBB46_463:
	movq	%r10, %rdi
	movq	%rcx, %rsi
	movq	%rcx, %r14
	movq	%r10, %r12
	callq	ic_program.text.other_line
	cmpb	$1, %al
	movq	%rbx, %rdi
	jne	.LBB46_1247
	movq	%r14, %r9
	movq	%r15, %r11
	addq	%rdx, %r12
	subq	%rdx, %r9
	movq	%r12, %r10
	jmp	.LBB46_458
.LBB46_465:
	leaq	(%r11,%r11,4), %rdx
	leaq	(%rax,%rdx,2), %rax
	leaq	(%rax,%rax,4), %rax
	movl	%eax, %eax
	leaq	(%rsi,%rax,2), %r11
	movl	$3, %eax
.LBB46_466:
	movzbl	(%r10,%rax), %edx
	cmpl	$32, %edx
	je	.LBB46_468
	cmpl	$10, %edx
	jne	.LBB46_477
.LBB46_468:
	addq	%rax, %r10
	subq	%rax, %rcx
	cmpb	$32, %dl
	jne	.LBB46_480
.LBB46_469:
	incq	%r10
	decq	%rcx
	cmpq	$5, %rcx
	jb	.LBB46_742
.LBB46_470:
	movzbl	(%r10), %eax
	addb	$-48, %al
	cmpb	$9, %al
	ja	.LBB46_742
	movzbl	%al, %ebp
	movzbl	1(%r10), %eax
	leal	-48(%rax), %esi
	movl	$1, %edx
	cmpb	$9, %sil
	ja	.LBB46_737
	movzbl	%sil, %edx
	movzbl	2(%r10), %eax
	leal	-48(%rax), %esi
	cmpb	$9, %sil
	ja	.LBB46_476
	movzbl	%sil, %esi
	movzbl	3(%r10), %eax
	leal	-48(%rax), %r8d
	cmpb	$10, %r8b
	jae	.LBB46_736
	movzbl	4(%r10), %eax
	leal	-48(%rax), %r9d
	cmpb	$10, %r9b
	jb	.LBB46_742
	movzbl	%r8b, %r8d
	leaq	(,%rbp,4), %r9
	addq	%rbp, %r9
	leaq	(%rdx,%r9,2), %rdx
	leaq	(%rdx,%rdx,4), %rdx
	movl	%edx, %edx
	leaq	(%rsi,%rdx,2), %rdx
	leaq	(%rdx,%rdx,4), %rdx
	leaq	(%r8,%rdx,2), %rbp
	movl	$4, %edx
	jmp	.LBB46_737
.LBB46_476:
	leaq	(,%rbp,4), %rsi
	addq	%rbp, %rsi
	leaq	(%rdx,%rsi,2), %rbp
	movl	$2, %edx
	jmp	.LBB46_737
.LBB46_477:
	movq	%rdi, %rbx
	movq	%r10, %rdi
	movq	%rcx, %rsi
	movq	%rcx, %r14
	movq	%r10, %r15
	callq	ic_program.argument.any_number
	movq	%rbx, %rdi
	cmpb	$1, %al
	jne	.LBB46_1247
	movq	%r14, %rsi
	movq	%rdx, %r14
	movq	%r15, %rdi
	callq	ic_program.text.after_word
	movq	%rax, %r10
	testq	%rdx, %rdx
	je	.LBB46_1327
	movq	%rdx, %rcx
	movzbl	(%r10), %edx
	movq	%rbx, %rdi
	movq	%r14, %r11
	cmpb	$32, %dl
	je	.LBB46_469
.LBB46_480:
	movq	%r11, %r14
	movq	%rdi, %rbx
.LBB46_481:
	movq	%r10, %rdi
	movq	%rcx, %rsi
	callq	ic_program.text.without_space
	movq	%rax, %r10
	movq	%rdx, %rcx
	movq	%rbx, %rdi
	movq	%r14, %r11
	cmpq	$5, %rcx
	jae	.LBB46_470
	jmp	.LBB46_742
.LBB46_482:
	leaq	(%rax,%rax,4), %rax
	leaq	(%rsi,%rax,2), %rax
	leaq	(%rax,%rax,4), %rax
	movl	%eax, %eax
	leaq	(%r8,%rax,2), %rax
	movl	$3, %esi
.LBB46_483:
	movzbl	(%r10,%rsi), %edx
	cmpl	$32, %edx
	je	.LBB46_485
	cmpl	$10, %edx
	jne	.LBB46_488
.LBB46_485:
	addq	%rsi, %r10
	subq	%rsi, %rcx
	leaq	8(,%rax,8), %r11
	cmpb	$10, (%r10)
	jne	.LBB46_492
.LBB46_486:
	incq	%r10
	decq	%rcx
	movq	%rcx, %r9
.LBB46_487:
	movw	$0, 12(%rsp)
	movl	$0, 8(%rsp)
	movb	$2, %r8b
	jmp	.LBB46_728
.LBB46_488:
	movq	%rdi, %rbx
	movq	%r10, %rdi
	movq	%rcx, %rsi
	movq	%rcx, %r14
	movq	%r10, %r15
	callq	ic_program.argument.any_number
	movq	%rbx, %rdi
	cmpb	$1, %al
	jne	.LBB46_1247
	movq	%r14, %rsi
	movq	%r15, %rdi
	movq	%rdx, %r14
	callq	ic_program.text.after_word
	movq	%rbx, %rdi
	movq	%r14, %rcx
	shrq	$32, %rcx
	jne	.LBB46_1247
	movq	%rax, %r10
	leaq	8(,%r14,8), %r15
	testq	%rdx, %rdx
	je	.LBB46_1357
	movq	%rdx, %rcx
	movq	%rbx, %rdi
	movq	%r15, %r11
	cmpb	$10, (%r10)
	je	.LBB46_486
.LBB46_492:
	movq	%r11, %r15
	movq	%rdi, %rbx
.LBB46_493:
	movq	%r10, %rdi
	movq	%rcx, %rsi
	movq	%rcx, %r14
	movq	%r10, %r12
	callq	ic_program.text.other_line
	cmpb	$1, %al
	movq	%rbx, %rdi
	jne	.LBB46_1247
	movq	%r14, %r9
	addq	%rdx, %r12
	subq	%rdx, %r9
	movq	%r15, %r11
	movq	%r12, %r10
	jmp	.LBB46_487
.LBB46_495:
	leaq	(%r11,%r11,4), %rdx
	leaq	(%rax,%rdx,2), %rax
	leaq	(%rax,%rax,4), %rax
	movl	%eax, %eax
	leaq	(%rsi,%rax,2), %r11
	movl	$3, %eax
.LBB46_496:
	movzbl	(%r10,%rax), %edx
	cmpl	$32, %edx
	je	.LBB46_498
	cmpl	$10, %edx
	jne	.LBB46_501
.LBB46_498:
	addq	%rax, %r10
	subq	%rax, %rcx
	cmpb	$10, %dl
	jne	.LBB46_504
.LBB46_499:
	incq	%r10
	decq	%rcx
	movq	%rcx, %r9
.LBB46_500:
	movw	$0, 12(%rsp)
	movl	$0, 8(%rsp)
	movb	$1, %r8b
	jmp	.LBB46_728
.LBB46_501:
	movq	%rdi, %rbx
	movq	%r10, %rdi
	movq	%rcx, %rsi
	movq	%rcx, %r14
	movq	%r10, %r12
	callq	ic_program.argument.any_number
	movq	%rbx, %rdi
	cmpb	$1, %al
	jne	.LBB46_1247
	movq	%r14, %rsi
	movq	%rdx, %r15
	movq	%r12, %rdi
	callq	ic_program.text.after_word
	testq	%rdx, %rdx
	je	.LBB46_1328
	movq	%rdx, %rcx
	movq	%rax, %r10
	movzbl	(%rax), %edx
	movq	%rbx, %rdi
	movq	%r15, %r11
	cmpb	$10, %dl
	je	.LBB46_499
.LBB46_504:
	movq	%r11, %r15
	movq	%rdi, %rbx
.LBB46_505:
	movq	%r10, %rdi
	movq	%rcx, %rsi
	movq	%rcx, %r14
	movq	%r10, %r12
	callq	ic_program.text.other_line
	cmpb	$1, %al
	movq	%rbx, %rdi
	jne	.LBB46_1247
	movq	%r14, %r9
	movq	%r15, %r11
	addq	%rdx, %r12
	subq	%rdx, %r9
	movq	%r12, %r10
	jmp	.LBB46_500
.LBB46_507:
	leaq	(%rax,%rax,4), %rax
	leaq	(%rsi,%rax,2), %rax
	leaq	(%rax,%rax,4), %rax
	movl	%eax, %eax
	leaq	(%r8,%rax,2), %rax
	movl	$3, %esi
.LBB46_508:
	movzbl	(%r10,%rsi), %edx
	cmpl	$32, %edx
	je	.LBB46_510
	cmpl	$10, %edx
	jne	.LBB46_519
.LBB46_510:
	addq	%rsi, %r10
	subq	%rsi, %rcx
	leaq	8(,%rax,8), %r11
	cmpb	$32, (%r10)
	jne	.LBB46_523
.LBB46_511:
	incq	%r10
	decq	%rcx
	cmpq	$5, %rcx
	jb	.LBB46_864
.LBB46_512:
	movzbl	(%r10), %eax
	addb	$-48, %al
	cmpb	$9, %al
	ja	.LBB46_864
	movzbl	%al, %r13d
	movzbl	1(%r10), %eax
	leal	-48(%rax), %esi
	movl	$1, %edx
	cmpb	$9, %sil
	ja	.LBB46_857
	movzbl	%sil, %edx
	movzbl	2(%r10), %eax
	leal	-48(%rax), %esi
	cmpb	$9, %sil
	ja	.LBB46_518
	movzbl	%sil, %esi
	movzbl	3(%r10), %eax
	leal	-48(%rax), %r8d
	cmpb	$10, %r8b
	jae	.LBB46_856
	movzbl	4(%r10), %eax
	leal	-48(%rax), %r9d
	cmpb	$10, %r9b
	jb	.LBB46_864
	movzbl	%r8b, %r8d
	leaq	(,%r13,4), %r9
	addq	%r13, %r9
	leaq	(%rdx,%r9,2), %rdx
	leaq	(%rdx,%rdx,4), %rdx
	movl	%edx, %edx
	leaq	(%rsi,%rdx,2), %rdx
	leaq	(%rdx,%rdx,4), %rdx
	leaq	(%r8,%rdx,2), %r13
	movl	$4, %edx
	jmp	.LBB46_857
.LBB46_518:
	leaq	(,%r13,4), %rsi
	addq	%r13, %rsi
	leaq	(%rdx,%rsi,2), %r13
	movl	$2, %edx
	jmp	.LBB46_857
.LBB46_519:
	movq	%rdi, %rbx
	movq	%r10, %rdi
	movq	%rcx, %rsi
	movq	%rcx, %r14
	movq	%r10, %r15
	callq	ic_program.argument.any_number
	movq	%rbx, %rdi
	cmpb	$1, %al
	jne	.LBB46_1247
	movq	%r14, %rsi
	movq	%r15, %rdi
	movq	%rdx, %r14
	callq	ic_program.text.after_word
	movq	%rbx, %rdi
	movq	%r14, %rcx
	shrq	$32, %rcx
	jne	.LBB46_1247
	movq	%rax, %r10
	leaq	8(,%r14,8), %r14
	testq	%rdx, %rdx
	je	.LBB46_1358
	movq	%rdx, %rcx
	movq	%rbx, %rdi
	movq	%r14, %r11
	cmpb	$32, (%r10)
	je	.LBB46_511
.LBB46_523:
	movq	%r11, %r14
	movq	%rdi, %rbx
.LBB46_524:
	movq	%r10, %rdi
	movq	%rcx, %rsi
	callq	ic_program.text.without_space
	movq	%rax, %r10
	movq	%rdx, %rcx
	movq	%rbx, %rdi
	movq	%r14, %r11
	cmpq	$5, %rcx
	jae	.LBB46_512
	jmp	.LBB46_864
.LBB46_525:
	leaq	(%r11,%r11,4), %rdx
	leaq	(%rax,%rdx,2), %rax
	leaq	(%rax,%rax,4), %rax
	movl	%eax, %eax
	leaq	(%rsi,%rax,2), %r11
	movl	$3, %eax
.LBB46_526:
	movzbl	(%r10,%rax), %edx
	cmpl	$32, %edx
	je	.LBB46_528
	cmpl	$10, %edx
	jne	.LBB46_537
.LBB46_528:
	addq	%rax, %r10
	subq	%rax, %rcx
	cmpb	$32, %dl
	jne	.LBB46_540
.LBB46_529:
	incq	%r10
	decq	%rcx
	cmpq	$5, %rcx
	jb	.LBB46_754
.LBB46_530:
	movzbl	(%r10), %eax
	addb	$-48, %al
	cmpb	$9, %al
	ja	.LBB46_754
	movzbl	%al, %eax
	movzbl	1(%r10), %edx
	leal	-48(%rdx), %r8d
	movl	$1, %esi
	cmpb	$9, %r8b
	ja	.LBB46_749
	movzbl	%r8b, %esi
	movzbl	2(%r10), %edx
	leal	-48(%rdx), %r8d
	cmpb	$9, %r8b
	ja	.LBB46_536
	movzbl	%r8b, %r8d
	movzbl	3(%r10), %edx
	leal	-48(%rdx), %r9d
	cmpb	$10, %r9b
	jae	.LBB46_748
	movzbl	4(%r10), %edx
	movq	%r10, %rbx
	leal	-48(%rdx), %r10d
	cmpb	$10, %r10b
	movq	%rbx, %r10
	jb	.LBB46_754
	movzbl	%r9b, %r9d
	leaq	(%rax,%rax,4), %rax
	leaq	(%rsi,%rax,2), %rax
	leaq	(%rax,%rax,4), %rax
	movl	%eax, %eax
	leaq	(%r8,%rax,2), %rax
	leaq	(%rax,%rax,4), %rax
	leaq	(%r9,%rax,2), %rax
	movl	$4, %esi
	jmp	.LBB46_749
.LBB46_536:
	leaq	(%rax,%rax,4), %rax
	leaq	(%rsi,%rax,2), %rax
	movl	$2, %esi
	jmp	.LBB46_749
.LBB46_537:
	movq	%rdi, %rbx
	movq	%r10, %rdi
	movq	%rcx, %rsi
	movq	%rcx, %r14
	movq	%r10, %r15
	callq	ic_program.argument.any_number
	movq	%rbx, %rdi
	cmpb	$1, %al
	jne	.LBB46_1247
	movq	%r14, %rsi
	movq	%rdx, %r14
	movq	%r15, %rdi
	callq	ic_program.text.after_word
	testq	%rdx, %rdx
	je	.LBB46_1329
	movq	%rdx, %rcx
	movq	%rax, %r10
	movzbl	(%rax), %edx
	movq	%rbx, %rdi
	movq	%r14, %r11
	cmpb	$32, %dl
	je	.LBB46_529
.LBB46_540:
	movq	%r11, %r14
	movq	%rdi, %rbx
.LBB46_541:
	movq	%r10, %rdi
	movq	%rcx, %rsi
	callq	ic_program.text.without_space
	movq	%rax, %r10
	movq	%rdx, %rcx
	movq	%rbx, %rdi
	movq	%r14, %r11
	cmpq	$5, %rcx
	jae	.LBB46_530
	jmp	.LBB46_754
.LBB46_542:
	leaq	(%r11,%r11,4), %rdx
	leaq	(%rax,%rdx,2), %rax
	leaq	(%rax,%rax,4), %rax
	movl	%eax, %eax
	leaq	(%rsi,%rax,2), %r11
	movl	$3, %eax
.LBB46_543:
	movzbl	(%r10,%rax), %edx
	cmpl	$32, %edx
	je	.LBB46_545
	cmpl	$10, %edx
	jne	.LBB46_554
.LBB46_545:
	addq	%rax, %r10
	subq	%rax, %rcx
	cmpb	$32, %dl
	jne	.LBB46_557
.LBB46_546:
	incq	%r10
	decq	%rcx
	cmpq	$5, %rcx
	jb	.LBB46_767
.LBB46_547:
	movzbl	(%r10), %eax
	addb	$-48, %al
	cmpb	$9, %al
	ja	.LBB46_767
	movzbl	%al, %r13d
	movzbl	1(%r10), %eax
	leal	-48(%rax), %esi
	movl	$1, %edx
	cmpb	$9, %sil
	ja	.LBB46_762
	movzbl	%sil, %edx
	movzbl	2(%r10), %eax
	leal	-48(%rax), %esi
	cmpb	$9, %sil
	ja	.LBB46_553
	movzbl	%sil, %esi
	movzbl	3(%r10), %eax
	leal	-48(%rax), %r8d
	cmpb	$10, %r8b
	jae	.LBB46_761
	movzbl	4(%r10), %eax
	leal	-48(%rax), %r9d
	cmpb	$10, %r9b
	jb	.LBB46_767
	movzbl	%r8b, %r8d
	leaq	(,%r13,4), %r9
	addq	%r13, %r9
	leaq	(%rdx,%r9,2), %rdx
	leaq	(%rdx,%rdx,4), %rdx
	movl	%edx, %edx
	leaq	(%rsi,%rdx,2), %rdx
	leaq	(%rdx,%rdx,4), %rdx
	leaq	(%r8,%rdx,2), %r13
	movl	$4, %edx
	jmp	.LBB46_762
.LBB46_553:
	leaq	(,%r13,4), %rsi
	addq	%r13, %rsi
	leaq	(%rdx,%rsi,2), %r13
	movl	$2, %edx
	jmp	.LBB46_762
.LBB46_554:
	movq	%rdi, %rbx
	movq	%r10, %rdi
	movq	%rcx, %rsi
	movq	%rcx, %r14
	movq	%r10, %r15
	callq	ic_program.argument.any_number
	movq	%rbx, %rdi
	cmpb	$1, %al
	jne	.LBB46_1247
	movq	%r14, %rsi
	movq	%rdx, %r14
	movq	%r15, %rdi
	callq	ic_program.text.after_word
	testq	%rdx, %rdx
	je	.LBB46_1330
	movq	%rdx, %rcx
	movq	%rax, %r10
	movzbl	(%rax), %edx
	movq	%rbx, %rdi
	movq	%r14, %r11
	cmpb	$32, %dl
	je	.LBB46_546
.LBB46_557:
	movq	%r11, %r14
	movq	%rdi, %rbx
.LBB46_558:
	movq	%r10, %rdi
	movq	%rcx, %rsi
	callq	ic_program.text.without_space
	movq	%rax, %r10
	movq	%rdx, %rcx
	movq	%rbx, %rdi
	movq	%r14, %r11
	cmpq	$5, %rcx
	jae	.LBB46_547
	jmp	.LBB46_767
.LBB46_559:
	leaq	(%r11,%r11,4), %rdx
	leaq	(%rax,%rdx,2), %rax
	leaq	(%rax,%rax,4), %rax
	movl	%eax, %eax
	leaq	(%rsi,%rax,2), %r11
	movl	$3, %eax
.LBB46_560:
	movzbl	(%r10,%rax), %edx
	cmpl	$32, %edx
	je	.LBB46_562
	cmpl	$10, %edx
	jne	.LBB46_571
.LBB46_562:
	addq	%rax, %r10
	subq	%rax, %rcx
	cmpb	$32, %dl
	jne	.LBB46_574
.LBB46_563:
	incq	%r10
	decq	%rcx
	cmpq	$5, %rcx
	jb	.LBB46_779
.LBB46_564:
	movzbl	(%r10), %eax
	addb	$-48, %al
	cmpb	$9, %al
	ja	.LBB46_779
	movzbl	%al, %eax
	movzbl	1(%r10), %edx
	leal	-48(%rdx), %r8d
	movl	$1, %esi
	cmpb	$9, %r8b
	ja	.LBB46_774
	movzbl	%r8b, %esi
	movzbl	2(%r10), %edx
	leal	-48(%rdx), %r8d
	cmpb	$9, %r8b
	ja	.LBB46_570
	movzbl	%r8b, %r8d
	movzbl	3(%r10), %edx
	leal	-48(%rdx), %r9d
	cmpb	$10, %r9b
	jae	.LBB46_773
	movzbl	4(%r10), %edx
	movq	%r10, %rbx
	leal	-48(%rdx), %r10d
	cmpb	$10, %r10b
	movq	%rbx, %r10
	jb	.LBB46_779
	movzbl	%r9b, %r9d
	leaq	(%rax,%rax,4), %rax
	leaq	(%rsi,%rax,2), %rax
	leaq	(%rax,%rax,4), %rax
	movl	%eax, %eax
	leaq	(%r8,%rax,2), %rax
	leaq	(%rax,%rax,4), %rax
	leaq	(%r9,%rax,2), %rax
	movl	$4, %esi
	jmp	.LBB46_774
.LBB46_570:
	leaq	(%rax,%rax,4), %rax
	leaq	(%rsi,%rax,2), %rax
	movl	$2, %esi
	jmp	.LBB46_774
.LBB46_571:
	movq	%rdi, %rbx
	movq	%r10, %rdi
	movq	%rcx, %rsi
	movq	%rcx, %r14
	movq	%r10, %r15
	callq	ic_program.argument.any_number
	movq	%rbx, %rdi
	cmpb	$1, %al
	jne	.LBB46_1247
	movq	%r14, %rsi
	movq	%rdx, %r14
	movq	%r15, %rdi
	callq	ic_program.text.after_word
	testq	%rdx, %rdx
	je	.LBB46_1331
	movq	%rdx, %rcx
	movq	%rax, %r10
	movzbl	(%rax), %edx
	movq	%rbx, %rdi
	movq	%r14, %r11
	cmpb	$32, %dl
	je	.LBB46_563
.LBB46_574:
	movq	%r11, %r14
	movq	%rdi, %rbx
.LBB46_575:
	movq	%r10, %rdi
	movq	%rcx, %rsi
	callq	ic_program.text.without_space
	movq	%rax, %r10
	movq	%rdx, %rcx
	movq	%rbx, %rdi
	movq	%r14, %r11
	cmpq	$5, %rcx
	jae	.LBB46_564
	jmp	.LBB46_779
.LBB46_576:
	leaq	(%r11,%r11,4), %rdx
	leaq	(%rax,%rdx,2), %rax
	leaq	(%rax,%rax,4), %rax
	movl	%eax, %eax
	leaq	(%rsi,%rax,2), %r11
	movl	$3, %eax
.LBB46_577:
	movzbl	(%r10,%rax), %edx
	cmpl	$32, %edx
	je	.LBB46_579
	cmpl	$10, %edx
	jne	.LBB46_583
.LBB46_579:
	addq	%rax, %r10
	subq	%rax, %rcx
	cmpb	$10, %dl
	jne	.LBB46_586
.LBB46_580:
	incq	%r10
	decq	%rcx
	movq	%rcx, %r9
.LBB46_581:
	movw	$0, 12(%rsp)
	movl	$0, 8(%rsp)
	movl	$5, %r13d
.LBB46_582:
	movl	$1, %eax
	xorl	%r8d, %r8d
	jmp	.LBB46_863
.LBB46_583:
	movq	%rdi, %rbx
	movq	%r10, %rdi
	movq	%rcx, %rsi
	movq	%rcx, %r14
	movq	%r10, %r12
	callq	ic_program.argument.any_number
	movq	%rbx, %rdi
	cmpb	$1, %al
	jne	.LBB46_1247
	movq	%r14, %rsi
	movq	%rdx, %r15
	movq	%r12, %rdi
	callq	ic_program.text.after_word
	movq	%rax, %r10
	testq	%rdx, %rdx
	je	.LBB46_1332
	movq	%rdx, %rcx
	movzbl	(%r10), %edx
	movq	%rbx, %rdi
	movq	%r15, %r11
	cmpb	$10, %dl
	je	.LBB46_580
.LBB46_586:
	movq	%r11, %r15
	movq	%rdi, %rbx
.LBB46_587:
	movq	%r10, %rdi
	movq	%rcx, %rsi
	movq	%rcx, %r14
	movq	%r10, %r12
	callq	ic_program.text.other_line
	cmpb	$1, %al
	movq	%rbx, %rdi
	jne	.LBB46_1247
	movq	%r14, %r9
	movq	%r15, %r11
	addq	%rdx, %r12
	subq	%rdx, %r9
	movq	%r12, %r10
	jmp	.LBB46_581
.LBB46_589:
	leaq	(%r11,%r11,4), %rdx
	leaq	(%rax,%rdx,2), %rax
	leaq	(%rax,%rax,4), %rax
	movl	%eax, %eax
	leaq	(%rsi,%rax,2), %r11
	movl	$3, %eax
.LBB46_590:
	movzbl	(%r10,%rax), %edx
	cmpl	$32, %edx
	je	.LBB46_592
	cmpl	$10, %edx
	jne	.LBB46_601
.LBB46_592:
	addq	%rax, %r10
	subq	%rax, %rcx
	cmpb	$32, %dl
	jne	.LBB46_604
.LBB46_593:
	incq	%r10
	decq	%rcx
	cmpq	$5, %rcx
	jb	.LBB46_798
.LBB46_594:
	movzbl	(%r10), %eax
	addb	$-48, %al
	cmpb	$9, %al
	ja	.LBB46_798
	movzbl	%al, %r12d
	movzbl	1(%r10), %eax
	leal	-48(%rax), %esi
	movl	$1, %edx
	cmpb	$9, %sil
	ja	.LBB46_787
	movzbl	%sil, %edx
	movzbl	2(%r10), %eax
	leal	-48(%rax), %esi
	cmpb	$9, %sil
	ja	.LBB46_600
	movzbl	%sil, %esi
	movzbl	3(%r10), %eax
	leal	-48(%rax), %r8d
	cmpb	$10, %r8b
	jae	.LBB46_786
	movzbl	4(%r10), %eax
	leal	-48(%rax), %r9d
	cmpb	$10, %r9b
	jb	.LBB46_798
	movzbl	%r8b, %r8d
	leaq	(%r12,%r12,4), %r9
	leaq	(%rdx,%r9,2), %rdx
	leaq	(%rdx,%rdx,4), %rdx
	movl	%edx, %edx
	leaq	(%rsi,%rdx,2), %rdx
	leaq	(%rdx,%rdx,4), %rdx
	leaq	(%r8,%rdx,2), %r12
	movl	$4, %edx
	jmp	.LBB46_787
.LBB46_600:
	leaq	(%r12,%r12,4), %rsi
	leaq	(%rdx,%rsi,2), %r12
	movl	$2, %edx
	jmp	.LBB46_787
.LBB46_601:
	movq	%rdi, %rbx
	movq	%r10, %rdi
	movq	%rcx, %rsi
	movq	%rcx, %r14
	movq	%r10, %r15
	callq	ic_program.argument.any_number
	movq	%rbx, %rdi
	cmpb	$1, %al
	jne	.LBB46_1247
	movq	%r14, %rsi
	movq	%rdx, %r14
	movq	%r15, %rdi
	callq	ic_program.text.after_word
	testq	%rdx, %rdx
	je	.LBB46_1333
	movq	%rdx, %rcx
	movq	%rax, %r10
	movzbl	(%rax), %edx
	movq	%rbx, %rdi
	movq	%r14, %r11
	cmpb	$32, %dl
	je	.LBB46_593
.LBB46_604:
	movq	%r11, %r14
	movq	%rdi, %rbx
.LBB46_605:
	movq	%r10, %rdi
	movq	%rcx, %rsi
	callq	ic_program.text.without_space
	movq	%rax, %r10
	movq	%rdx, %rcx
	movq	%rbx, %rdi
	movq	%r14, %r11
	cmpq	$5, %rcx
	jae	.LBB46_594
	jmp	.LBB46_798
.LBB46_606:
	leaq	(%r11,%r11,4), %rdx
	leaq	(%rax,%rdx,2), %rax
	leaq	(%rax,%rax,4), %rax
	movl	%eax, %eax
	leaq	(%rsi,%rax,2), %r11
	movl	$3, %eax
.LBB46_607:
	movzbl	(%r10,%rax), %edx
	cmpl	$32, %edx
	je	.LBB46_609
	cmpl	$10, %edx
	jne	.LBB46_612
.LBB46_609:
	addq	%rax, %r10
	subq	%rax, %rcx
	cmpb	$10, %dl
	jne	.LBB46_615
.LBB46_610:
	incq	%r10
	decq	%rcx
	movq	%rcx, %r9
.LBB46_611:
	movw	$0, 12(%rsp)
	movl	$0, 8(%rsp)
	movb	$8, %r8b
	jmp	.LBB46_728
.LBB46_612:
	movq	%rdi, %rbx
	movq	%r10, %rdi
	movq	%rcx, %rsi
	movq	%rcx, %r14
	movq	%r10, %r12
	callq	ic_program.argument.any_number
	movq	%rbx, %rdi
	cmpb	$1, %al
	jne	.LBB46_1247
	movq	%r14, %rsi
	movq	%rdx, %r15
	movq	%r12, %rdi
	callq	ic_program.text.after_word
	movq	%rax, %r10
	testq	%rdx, %rdx
	je	.LBB46_1334
	movq	%rdx, %rcx
	movzbl	(%r10), %edx
	movq	%rbx, %rdi
	movq	%r15, %r11
	cmpb	$10, %dl
	je	.LBB46_610
.LBB46_615:
	movq	%r11, %r15
	movq	%rdi, %rbx
.LBB46_616:
	movq	%r10, %rdi
	movq	%rcx, %rsi
	movq	%rcx, %r14
	movq	%r10, %r12
	callq	ic_program.text.other_line
	cmpb	$1, %al
	movq	%rbx, %rdi
	jne	.LBB46_1247
	movq	%r14, %r9
	movq	%r15, %r11
	addq	%rdx, %r12
	subq	%rdx, %r9
	movq	%r12, %r10
	jmp	.LBB46_611
.LBB46_618:
	leaq	(%r11,%r11,4), %rdx
	leaq	(%rax,%rdx,2), %rax
	leaq	(%rax,%rax,4), %rax
	movl	%eax, %eax
	leaq	(%rsi,%rax,2), %r11
	movl	$3, %eax
.LBB46_619:
	movzbl	(%r10,%rax), %edx
	cmpl	$32, %edx
	je	.LBB46_621
	cmpl	$10, %edx
	jne	.LBB46_630
.LBB46_621:
	addq	%rax, %r10
	subq	%rax, %rcx
	cmpb	$32, %dl
	jne	.LBB46_633
.LBB46_622:
	incq	%r10
	decq	%rcx
	cmpq	$5, %rcx
	jb	.LBB46_809
.LBB46_623:
	movzbl	(%r10), %eax
	addb	$-48, %al
	cmpb	$9, %al
	ja	.LBB46_809
	movzbl	%al, %r13d
	movzbl	1(%r10), %eax
	leal	-48(%rax), %esi
	movl	$1, %edx
	cmpb	$9, %sil
	ja	.LBB46_804
	movzbl	%sil, %edx
	movzbl	2(%r10), %eax
	leal	-48(%rax), %esi
	cmpb	$9, %sil
	ja	.LBB46_629
	movzbl	%sil, %esi
	movzbl	3(%r10), %eax
	leal	-48(%rax), %r8d
	cmpb	$10, %r8b
	jae	.LBB46_803
	movzbl	4(%r10), %eax
	leal	-48(%rax), %r9d
	cmpb	$10, %r9b
	jb	.LBB46_809
	movzbl	%r8b, %r8d
	leaq	(,%r13,4), %r9
	addq	%r13, %r9
	leaq	(%rdx,%r9,2), %rdx
	leaq	(%rdx,%rdx,4), %rdx
	movl	%edx, %edx
	leaq	(%rsi,%rdx,2), %rdx
	leaq	(%rdx,%rdx,4), %rdx
	leaq	(%r8,%rdx,2), %r13
	movl	$4, %edx
	jmp	.LBB46_804
.LBB46_629:
	leaq	(,%r13,4), %rsi
	addq	%r13, %rsi
	leaq	(%rdx,%rsi,2), %r13
	movl	$2, %edx
	jmp	.LBB46_804
.LBB46_630:
	movq	%rdi, %rbx
	movq	%r10, %rdi
	movq	%rcx, %rsi
	movq	%rcx, %r14
	movq	%r10, %r15
	callq	ic_program.argument.any_number
	movq	%rbx, %rdi
	cmpb	$1, %al
	jne	.LBB46_1247
	movq	%r14, %rsi
	movq	%rdx, %r14
	movq	%r15, %rdi
	callq	ic_program.text.after_word
	testq	%rdx, %rdx
	je	.LBB46_1335
	movq	%rdx, %rcx
	movq	%rax, %r10
	movzbl	(%rax), %edx
	movq	%rbx, %rdi
	movq	%r14, %r11
	cmpb	$32, %dl
	je	.LBB46_622
.LBB46_633:
	movq	%r11, %r14
	movq	%rdi, %rbx
.LBB46_634:
	movq	%r10, %rdi
	movq	%rcx, %rsi
	callq	ic_program.text.without_space
	movq	%rax, %r10
	movq	%rdx, %rcx
	movq	%rbx, %rdi
	movq	%r14, %r11
	cmpq	$5, %rcx
	jae	.LBB46_623
	jmp	.LBB46_809
.LBB46_635:
	leaq	(%r11,%r11,4), %rdx
	leaq	(%rax,%rdx,2), %rax
	leaq	(%rax,%rax,4), %rax
	movl	%eax, %eax
	leaq	(%rsi,%rax,2), %r11
	movl	$3, %eax
.LBB46_636:
	movzbl	(%r10,%rax), %edx
	cmpl	$32, %edx
	je	.LBB46_638
	cmpl	$10, %edx
	jne	.LBB46_641
.LBB46_638:
	addq	%rax, %r10
	subq	%rax, %rcx
	cmpb	$10, %dl
	jne	.LBB46_644
.LBB46_639:
	incq	%r10
	decq	%rcx
	movq	%rcx, %r9
.LBB46_640:
	movw	$0, 12(%rsp)
	movl	$0, 8(%rsp)
	movb	$7, %r8b
	jmp	.LBB46_728
.LBB46_641:
	movq	%rdi, %rbx
	movq	%r10, %rdi
	movq	%rcx, %rsi
	movq	%rcx, %r14
	movq	%r10, %r12
	callq	ic_program.argument.any_number
	movq	%rbx, %rdi
	cmpb	$1, %al
	jne	.LBB46_1247
	movq	%r14, %rsi
	movq	%rdx, %r15
	movq	%r12, %rdi
	callq	ic_program.text.after_word
	testq	%rdx, %rdx
	je	.LBB46_1336
	movq	%rdx, %rcx
	movq	%rax, %r10
	movzbl	(%rax), %edx
	movq	%rbx, %rdi
	movq	%r15, %r11
	cmpb	$10, %dl
	je	.LBB46_639
.LBB46_644:
	movq	%r11, %r15
	movq	%rdi, %rbx
.LBB46_645:
	movq	%r10, %rdi
	movq	%rcx, %rsi
	movq	%rcx, %r14
	movq	%r10, %r12
	callq	ic_program.text.other_line
	cmpb	$1, %al
	movq	%rbx, %rdi
	jne	.LBB46_1247
	movq	%r14, %r9
	movq	%r15, %r11
	addq	%rdx, %r12
	subq	%rdx, %r9
	movq	%r12, %r10
	jmp	.LBB46_640
.LBB46_647:
	leaq	(%r11,%r11,4), %rdx
	leaq	(%rax,%rdx,2), %rax
	leaq	(%rax,%rax,4), %rax
	movl	%eax, %eax
	leaq	(%rsi,%rax,2), %r11
	movl	$3, %eax
.LBB46_648:
	movzbl	(%r10,%rax), %esi
	cmpl	$32, %esi
	je	.LBB46_650
	cmpl	$10, %esi
	jne	.LBB46_659
.LBB46_650:
	addq	%rax, %r10
	subq	%rax, %rcx
	cmpb	$32, %sil
	jne	.LBB46_662
.LBB46_651:
	incq	%r10
	movq	%rcx, %r9
	decq	%r9
	cmpq	$5, %r9
	jb	.LBB46_821
.LBB46_652:
	movzbl	(%r10), %eax
	addb	$-48, %al
	cmpb	$9, %al
	ja	.LBB46_821
	movzbl	%al, %eax
	movzbl	1(%r10), %ecx
	leal	-48(%rcx), %esi
	movl	$1, %edx
	cmpb	$9, %sil
	ja	.LBB46_816
	movzbl	%sil, %edx
	movzbl	2(%r10), %ecx
	leal	-48(%rcx), %esi
	cmpb	$9, %sil
	ja	.LBB46_658
	movzbl	%sil, %esi
	movzbl	3(%r10), %ecx
	leal	-48(%rcx), %r8d
	cmpb	$10, %r8b
	jae	.LBB46_815
	movzbl	4(%r10), %ecx
	movq	%r9, %rbx
	leal	-48(%rcx), %r9d
	cmpb	$10, %r9b
	movq	%rbx, %r9
	jb	.LBB46_821
	movzbl	%r8b, %r8d
	leaq	(%rax,%rax,4), %rax
	leaq	(%rdx,%rax,2), %rax
	leaq	(%rax,%rax,4), %rax
	movl	%eax, %eax
	leaq	(%rsi,%rax,2), %rax
	leaq	(%rax,%rax,4), %rax
	leaq	(%r8,%rax,2), %rax
	movl	$4, %edx
	jmp	.LBB46_816
.LBB46_658:
	leaq	(%rax,%rax,4), %rax
	leaq	(%rdx,%rax,2), %rax
	movl	$2, %edx
	jmp	.LBB46_816
.LBB46_659:
	movq	%rdi, %rbx
	movq	%r10, %rdi
	movq	%rcx, %rsi
	movq	%rcx, %r14
	movq	%r10, %r15
	callq	ic_program.argument.any_number
	movq	%rbx, %rdi
	cmpb	$1, %al
	jne	.LBB46_1247
	movq	%r14, %rsi
	movq	%rdx, %r14
	movq	%r15, %rdi
	callq	ic_program.text.after_word
	testq	%rdx, %rdx
	je	.LBB46_1337
	movq	%rax, %r10
	movzbl	(%rax), %esi
	movq	%rdx, %rcx
	movq	%rbx, %rdi
	movq	%r14, %r11
	cmpb	$32, %sil
	je	.LBB46_651
.LBB46_662:
	movq	%r11, %r14
	movq	%rdi, %rbx
.LBB46_663:
	movq	%r10, %rdi
	movq	%rcx, %rsi
	callq	ic_program.text.without_space
	movq	%rax, %r10
	movq	%rdx, %r9
	movq	%rbx, %rdi
	movq	%r14, %r11
	cmpq	$5, %r9
	jae	.LBB46_652
	jmp	.LBB46_821
.LBB46_664:
	leaq	(%r11,%r11,4), %rdx
	leaq	(%rax,%rdx,2), %rax
	leaq	(%rax,%rax,4), %rax
	movl	%eax, %eax
	leaq	(%rsi,%rax,2), %r11
	movl	$3, %eax
.LBB46_665:
	movzbl	(%r10,%rax), %edx
	cmpl	$32, %edx
	je	.LBB46_667
	cmpl	$10, %edx
	jne	.LBB46_676
.LBB46_667:
	addq	%rax, %r10
	subq	%rax, %rcx
	cmpb	$32, %dl
	jne	.LBB46_679
.LBB46_668:
	incq	%r10
	decq	%rcx
	cmpq	$5, %rcx
	jb	.LBB46_835
.LBB46_669:
	movzbl	(%r10), %eax
	addb	$-48, %al
	cmpb	$9, %al
	ja	.LBB46_835
	movzbl	%al, %eax
	movzbl	1(%r10), %edx
	leal	-48(%rdx), %r8d
	movl	$1, %esi
	cmpb	$9, %r8b
	ja	.LBB46_829
	movzbl	%r8b, %esi
	movzbl	2(%r10), %edx
	leal	-48(%rdx), %r8d
	cmpb	$9, %r8b
	ja	.LBB46_675
	movzbl	%r8b, %r8d
	movzbl	3(%r10), %edx
	leal	-48(%rdx), %r9d
	cmpb	$10, %r9b
	jae	.LBB46_828
	movzbl	4(%r10), %edx
	movq	%r10, %rbx
	leal	-48(%rdx), %r10d
	cmpb	$10, %r10b
	movq	%rbx, %r10
	jb	.LBB46_835
	movzbl	%r9b, %r9d
	leaq	(%rax,%rax,4), %rax
	leaq	(%rsi,%rax,2), %rax
	leaq	(%rax,%rax,4), %rax
	movl	%eax, %eax
	leaq	(%r8,%rax,2), %rax
	leaq	(%rax,%rax,4), %rax
	leaq	(%r9,%rax,2), %rax
	movl	$4, %esi
	jmp	.LBB46_829
.LBB46_675:
	leaq	(%rax,%rax,4), %rax
	leaq	(%rsi,%rax,2), %rax
	movl	$2, %esi
	jmp	.LBB46_829
.LBB46_676:
	movq	%rdi, %rbx
	movq	%r10, %rdi
	movq	%rcx, %rsi
	movq	%rcx, %r14
	movq	%r10, %r15
	callq	ic_program.argument.any_number
	movq	%rbx, %rdi
	cmpb	$1, %al
	jne	.LBB46_1247
	movq	%r14, %rsi
	movq	%rdx, %r14
	movq	%r15, %rdi
	callq	ic_program.text.after_word
	testq	%rdx, %rdx
	je	.LBB46_1338
	movq	%rdx, %rcx
	movq	%rax, %r10
	movzbl	(%rax), %edx
	movq	%rbx, %rdi
	movq	%r14, %r11
	cmpb	$32, %dl
	je	.LBB46_668
.LBB46_679:
	movq	%r11, %r14
	movq	%rdi, %rbx
.LBB46_680:
	movq	%r10, %rdi
	movq	%rcx, %rsi
	callq	ic_program.text.without_space
	movq	%rax, %r10
	movq	%rdx, %rcx
	movq	%rbx, %rdi
	movq	%r14, %r11
	cmpq	$5, %rcx
	jae	.LBB46_669
	jmp	.LBB46_835
.LBB46_681:
	leaq	(%r11,%r11,4), %rdx
	leaq	(%rax,%rdx,2), %rax
	leaq	(%rax,%rax,4), %rax
	movl	%eax, %eax
	leaq	(%rsi,%rax,2), %r11
	movl	$3, %eax
.LBB46_682:
	movzbl	(%r10,%rax), %edx
	cmpl	$32, %edx
	je	.LBB46_684
	cmpl	$10, %edx
	jne	.LBB46_687
.LBB46_684:
	addq	%rax, %r10
	subq	%rax, %rcx
	cmpb	$10, %dl
	jne	.LBB46_690
.LBB46_685:
	incq	%r10
	decq	%rcx
	movq	%rcx, %r9
.LBB46_686:
	movw	$0, 12(%rsp)
	movl	$0, 8(%rsp)
	movb	$10, %r8b
	jmp	.LBB46_728
.LBB46_687:
	movq	%rdi, %rbx
	movq	%r10, %rdi
	movq	%rcx, %rsi
	movq	%rcx, %r14
	movq	%r10, %r12
	callq	ic_program.argument.any_number
	movq	%rbx, %rdi
	cmpb	$1, %al
	jne	.LBB46_1247
	movq	%r14, %rsi
	movq	%rdx, %r15
	movq	%r12, %rdi
	callq	ic_program.text.after_word
	testq	%rdx, %rdx
	je	.LBB46_1339
	movq	%rdx, %rcx
	movq	%rax, %r10
	movzbl	(%rax), %edx
	movq	%rbx, %rdi
	movq	%r15, %r11
	cmpb	$10, %dl
	je	.LBB46_685
.LBB46_690:
	movq	%r11, %r15
	movq	%rdi, %rbx
.LBB46_691:
	movq	%r10, %rdi
	movq	%rcx, %rsi
	movq	%rcx, %r14
	movq	%r10, %r12
	callq	ic_program.text.other_line
	cmpb	$1, %al
	movq	%rbx, %rdi
	jne	.LBB46_1247
	movq	%r14, %r9
	movq	%r15, %r11
	addq	%rdx, %r12
	subq	%rdx, %r9
	movq	%r12, %r10
	jmp	.LBB46_686
.LBB46_693:
	leaq	(%r11,%r11,4), %rdx
	leaq	(%rax,%rdx,2), %rax
	leaq	(%rax,%rax,4), %rax
	movl	%eax, %eax
	leaq	(%rsi,%rax,2), %r11
	movl	$3, %eax
.LBB46_694:
	movzbl	(%r10,%rax), %edx
	cmpl	$32, %edx
	je	.LBB46_696
	cmpl	$10, %edx
	jne	.LBB46_705
.LBB46_696:
	addq	%rax, %r10
	subq	%rax, %rcx
	cmpb	$32, %dl
	jne	.LBB46_708
.LBB46_697:
	incq	%r10
	decq	%rcx
	cmpq	$5, %rcx
	jb	.LBB46_849
.LBB46_698:
	movzbl	(%r10), %eax
	addb	$-48, %al
	cmpb	$9, %al
	ja	.LBB46_849
	movzbl	%al, %eax
	movzbl	1(%r10), %edx
	leal	-48(%rdx), %r8d
	movl	$1, %esi
	cmpb	$9, %r8b
	ja	.LBB46_843
	movzbl	%r8b, %esi
	movzbl	2(%r10), %edx
	leal	-48(%rdx), %r8d
	cmpb	$9, %r8b
	ja	.LBB46_704
	movzbl	%r8b, %r8d
	movzbl	3(%r10), %edx
	leal	-48(%rdx), %r9d
	cmpb	$10, %r9b
	jae	.LBB46_842
	movzbl	4(%r10), %edx
	movq	%r10, %rbx
	leal	-48(%rdx), %r10d
	cmpb	$10, %r10b
	movq	%rbx, %r10
	jb	.LBB46_849
	movzbl	%r9b, %r9d
	leaq	(%rax,%rax,4), %rax
	leaq	(%rsi,%rax,2), %rax
	leaq	(%rax,%rax,4), %rax
	movl	%eax, %eax
	leaq	(%r8,%rax,2), %rax
	leaq	(%rax,%rax,4), %rax
	leaq	(%r9,%rax,2), %rax
	movl	$4, %esi
	jmp	.LBB46_843
.LBB46_704:
	leaq	(%rax,%rax,4), %rax
	leaq	(%rsi,%rax,2), %rax
	movl	$2, %esi
	jmp	.LBB46_843
.LBB46_705:
	movq	%rdi, %rbx
	movq	%r10, %rdi
	movq	%rcx, %rsi
	movq	%rcx, %r14
	movq	%r10, %r15
	callq	ic_program.argument.any_number
	movq	%rbx, %rdi
	cmpb	$1, %al
	jne	.LBB46_1247
	movq	%r14, %rsi
	movq	%rdx, %r14
	movq	%r15, %rdi
	callq	ic_program.text.after_word
	testq	%rdx, %rdx
	je	.LBB46_1340
	movq	%rdx, %rcx
	movq	%rax, %r10
	movzbl	(%rax), %edx
	movq	%rbx, %rdi
	movq	%r14, %r11
	cmpb	$32, %dl
	je	.LBB46_697
.LBB46_708:
	movq	%r11, %r14
	movq	%rdi, %rbx
.LBB46_709:
	movq	%r10, %rdi
	movq	%rcx, %rsi
	callq	ic_program.text.without_space
	movq	%rax, %r10
	movq	%rdx, %rcx
	movq	%rbx, %rdi
	movq	%r14, %r11
	cmpq	$5, %rcx
	jae	.LBB46_698
	jmp	.LBB46_849
.LBB46_710:
	leaq	(%r11,%r11,4), %rdx
	leaq	(%rax,%rdx,2), %rax
	leaq	(%rax,%rax,4), %rax
	movl	%eax, %eax
	leaq	(%rsi,%rax,2), %r11
	movl	$3, %eax
.LBB46_711:
	movzbl	(%r10,%rax), %edx
	cmpl	$32, %edx
	je	.LBB46_713
	cmpl	$10, %edx
	jne	.LBB46_716
.LBB46_713:
	addq	%rax, %r10
	subq	%rax, %rcx
	cmpb	$10, %dl
	jne	.LBB46_719
.LBB46_714:
	incq	%r10
	decq	%rcx
	movq	%rcx, %r9
.LBB46_715:
	movw	$0, 12(%rsp)
	movl	$0, 8(%rsp)
	movb	$15, %r8b
	jmp	.LBB46_728
.LBB46_716:
	movq	%rdi, %rbx
	movq	%r10, %rdi
	movq	%rcx, %rsi
	movq	%rcx, %r14
	movq	%r10, %r12
	callq	ic_program.argument.any_number
	movq	%rbx, %rdi
	cmpb	$1, %al
	jne	.LBB46_1247
	movq	%r14, %rsi
	movq	%rdx, %r15
	movq	%r12, %rdi
	callq	ic_program.text.after_word
	testq	%rdx, %rdx
	je	.LBB46_1341
	movq	%rdx, %rcx
	movq	%rax, %r10
	movzbl	(%rax), %edx
	movq	%rbx, %rdi
	movq	%r15, %r11
	cmpb	$10, %dl
	je	.LBB46_714
.LBB46_719:
	movq	%r11, %r15
	movq	%rdi, %rbx
.LBB46_720:
	movq	%r10, %rdi
	movq	%rcx, %rsi
	movq	%rcx, %r14
	movq	%r10, %r12
	callq	ic_program.text.other_line
	cmpb	$1, %al
	movq	%rbx, %rdi
	jne	.LBB46_1247
	movq	%r14, %r9
	movq	%r15, %r11
	addq	%rdx, %r12
	subq	%rdx, %r9
	movq	%r12, %r10
	jmp	.LBB46_715
.LBB46_722:
	leaq	(%r11,%r11,4), %rdx
	leaq	(%rax,%rdx,2), %rax
	leaq	(%rax,%rax,4), %rax
	movl	%eax, %eax
	leaq	(%rsi,%rax,2), %r11
	movl	$3, %eax
.LBB46_723:
	movzbl	(%r10,%rax), %edx
	cmpl	$32, %edx
	je	.LBB46_725
	cmpl	$10, %edx
	jne	.LBB46_730
.LBB46_725:
	addq	%rax, %r10
	subq	%rax, %rcx
	cmpb	$10, %dl
	jne	.LBB46_733
.LBB46_726:
	incq	%r10
	decq	%rcx
	movq	%rcx, %r9
.LBB46_727:
	movw	$0, 12(%rsp)
	movl	$0, 8(%rsp)
	movb	$14, %r8b
.LBB46_728:
	movl	$1, %eax
	xorl	%ebx, %ebx
.LBB46_729:
	xorl	%r13d, %r13d
	xorl	%r12d, %r12d
	jmp	.LBB46_1155
.LBB46_730:
	movq	%rdi, %rbx
	movq	%r10, %rdi
	movq	%rcx, %rsi
	movq	%rcx, %r14
	movq	%r10, %r12
	callq	ic_program.argument.any_number
	movq	%rbx, %rdi
	cmpb	$1, %al
	jne	.LBB46_1247
	movq	%r14, %rsi
	movq	%rdx, %r15
	movq	%r12, %rdi
	callq	ic_program.text.after_word
	testq	%rdx, %rdx
	je	.LBB46_1342
	movq	%rdx, %rcx
	movq	%rax, %r10
	movzbl	(%rax), %edx
	movq	%rbx, %rdi
	movq	%r15, %r11
	cmpb	$10, %dl
	je	.LBB46_726
.LBB46_733:
	movq	%r11, %r15
	movq	%rdi, %rbx
.LBB46_734:
	movq	%r10, %rdi
	movq	%rcx, %rsi
	movq	%rcx, %r14
	movq	%r10, %r12
	callq	ic_program.text.other_line
	cmpb	$1, %al
	movq	%rbx, %rdi
	jne	.LBB46_1247
	movq	%r14, %r9
	movq	%r15, %r11
	addq	%rdx, %r12
	subq	%rdx, %r9
	movq	%r12, %r10
	jmp	.LBB46_727
.LBB46_736:
	leaq	(,%rbp,4), %r8
	addq	%rbp, %r8
	leaq	(%rdx,%r8,2), %rdx
	leaq	(%rdx,%rdx,4), %rdx
	movl	%edx, %edx
	leaq	(%rsi,%rdx,2), %rbp
	movl	$3, %edx
.LBB46_737:
	cmpb	$32, %al
	je	.LBB46_739
	movzbl	%al, %esi
	cmpl	$10, %esi
	jne	.LBB46_742
.LBB46_739:
	addq	%rdx, %r10
	subq	%rdx, %rcx
	cmpb	$10, %al
	jne	.LBB46_745
.LBB46_740:
	incq	%r10
	decq	%rcx
	movq	%rcx, %r9
.LBB46_741:
	movw	$0, 12(%rsp)
	movl	$0, 8(%rsp)
	movl	$6, %r13d
	jmp	.LBB46_848
.LBB46_742:
	movq	%r11, %r15
	movq	%rdi, %rbx
	movq	%r10, %rdi
	movq	%rcx, %rsi
	movq	%rcx, %r14
	movq	%r10, %r12
	callq	ic_program.argument.any_number
	movq	%rbx, %rdi
	cmpb	$1, %al
	jne	.LBB46_1247
	movq	%r14, %rsi
	movq	%rdx, %rbp
	movq	%r12, %rdi
	callq	ic_program.text.after_word
	movq	%rax, %r10
	testq	%rdx, %rdx
	je	.LBB46_1343
	movq	%rdx, %rcx
	movzbl	(%r10), %eax
	movq	%rbx, %rdi
	movq	%r15, %r11
	cmpb	$10, %al
	je	.LBB46_740
.LBB46_745:
	movq	%r11, %r15
	movq	%rdi, %rbx
.LBB46_746:
	movq	%r10, %rdi
	movq	%rcx, %rsi
	movq	%rcx, %r14
	movq	%r10, %r12
	callq	ic_program.text.other_line
	cmpb	$1, %al
	movq	%rbx, %rdi
	jne	.LBB46_1247
	movq	%r14, %r9
	addq	%rdx, %r12
	subq	%rdx, %r9
	movq	%r15, %r11
	movq	%r12, %r10
	jmp	.LBB46_741
.LBB46_748:
	leaq	(%rax,%rax,4), %rax
	leaq	(%rsi,%rax,2), %rax
	leaq	(%rax,%rax,4), %rax
	movl	%eax, %eax
	leaq	(%r8,%rax,2), %rax
	movl	$3, %esi
.LBB46_749:
	cmpb	$32, %dl
	je	.LBB46_751
	movzbl	%dl, %edx
	cmpl	$10, %edx
	jne	.LBB46_754
.LBB46_751:
	addq	%rsi, %r10
	subq	%rsi, %rcx
	leaq	8(,%rax,8), %rbp
	cmpb	$10, (%r10)
	jne	.LBB46_758
.LBB46_752:
	incq	%r10
	decq	%rcx
	movq	%rcx, %r9
.LBB46_753:
	movw	$0, 12(%rsp)
	movl	$0, 8(%rsp)
	movl	$7, %r13d
	jmp	.LBB46_834
.LBB46_754:
	movq	%r11, %r15
	movq	%rdi, %rbx
	movq	%r10, %rdi
	movq	%rcx, %rsi
	movq	%rcx, %r14
	movq	%r10, %r12
	callq	ic_program.argument.any_number
	movq	%rbx, %rdi
	cmpb	$1, %al
	jne	.LBB46_1247
	movq	%r14, %rsi
	movq	%r12, %rdi
	movq	%rdx, %r14
	callq	ic_program.text.after_word
	movq	%rbx, %rdi
	movq	%r14, %rcx
	shrq	$32, %rcx
	jne	.LBB46_1247
	leaq	8(,%r14,8), %rbp
	testq	%rdx, %rdx
	je	.LBB46_1361
	movq	%rdx, %rcx
	movq	%rbx, %rdi
	movq	%r15, %r11
	movq	%rax, %r10
	cmpb	$10, (%r10)
	je	.LBB46_752
.LBB46_758:
	movq	%r11, %r15
	movq	%rdi, %rbx
.LBB46_759:
	movq	%r10, %rdi
	movq	%rcx, %rsi
	movq	%rcx, %r14
	movq	%r10, %r12
	callq	ic_program.text.other_line
	cmpb	$1, %al
	movq	%rbx, %rdi
	jne	.LBB46_1247
	movq	%r14, %r9
	addq	%rdx, %r12
	subq	%rdx, %r9
	movq	%r15, %r11
	movq	%r12, %r10
	jmp	.LBB46_753
.LBB46_761:
	leaq	(,%r13,4), %r8
	addq	%r13, %r8
	leaq	(%rdx,%r8,2), %rdx
	leaq	(%rdx,%rdx,4), %rdx
	movl	%edx, %edx
	leaq	(%rsi,%rdx,2), %r13
	movl	$3, %edx
.LBB46_762:
	cmpb	$32, %al
	je	.LBB46_764
	movzbl	%al, %esi
	cmpl	$10, %esi
	jne	.LBB46_767
.LBB46_764:
	addq	%rdx, %r10
	subq	%rdx, %rcx
	cmpb	$10, %al
	jne	.LBB46_770
.LBB46_765:
	incq	%r10
	decq	%rcx
	movq	%rcx, %r9
.LBB46_766:
	movw	$0, 12(%rsp)
	movl	$0, 8(%rsp)
	movb	$13, %r8b
	jmp	.LBB46_862
.LBB46_767:
	movq	%r11, %r15
	movq	%rdi, %rbx
	movq	%r10, %rdi
	movq	%rcx, %rsi
	movq	%rcx, %r14
	movq	%r10, %r12
	callq	ic_program.argument.any_number
	movq	%rbx, %rdi
	cmpb	$1, %al
	jne	.LBB46_1247
	movq	%r14, %rsi
	movq	%rdx, %r13
	movq	%r12, %rdi
	callq	ic_program.text.after_word
	movq	%rax, %r10
	testq	%rdx, %rdx
	je	.LBB46_1344
	movq	%rdx, %rcx
	movzbl	(%r10), %eax
	movq	%rbx, %rdi
	movq	%r15, %r11
	cmpb	$10, %al
	je	.LBB46_765
.LBB46_770:
	movq	%r11, %r15
	movq	%rdi, %rbx
.LBB46_771:
	movq	%r10, %rdi
	movq	%rcx, %rsi
	movq	%rcx, %r14
	movq	%r10, %r12
	callq	ic_program.text.other_line
	cmpb	$1, %al
	movq	%rbx, %rdi
	jne	.LBB46_1247
	movq	%r14, %r9
	addq	%rdx, %r12
	subq	%rdx, %r9
	movq	%r15, %r11
	movq	%r12, %r10
	jmp	.LBB46_766
.LBB46_773:
	leaq	(%rax,%rax,4), %rax
	leaq	(%rsi,%rax,2), %rax
	leaq	(%rax,%rax,4), %rax
	movl	%eax, %eax
	leaq	(%r8,%rax,2), %rax
	movl	$3, %esi
.LBB46_774:
	cmpb	$32, %dl
	je	.LBB46_776
	movzbl	%dl, %edx
	cmpl	$10, %edx
	jne	.LBB46_779
.LBB46_776:
	addq	%rsi, %r10
	subq	%rsi, %rcx
	leaq	8(,%rax,8), %r13
	cmpb	$10, (%r10)
	jne	.LBB46_783
.LBB46_777:
	incq	%r10
	decq	%rcx
	movq	%rcx, %r9
.LBB46_778:
	movw	$0, 12(%rsp)
	movl	$0, 8(%rsp)
	movb	$17, %r8b
	jmp	.LBB46_862
.LBB46_779:
	movq	%r11, %r15
	movq	%rdi, %rbx
	movq	%r10, %rdi
	movq	%rcx, %rsi
	movq	%rcx, %r14
	movq	%r10, %r12
	callq	ic_program.argument.any_number
	movq	%rbx, %rdi
	cmpb	$1, %al
	jne	.LBB46_1247
	movq	%r14, %rsi
	movq	%r12, %rdi
	movq	%rdx, %r14
	callq	ic_program.text.after_word
	movq	%rbx, %rdi
	movq	%r14, %rcx
	shrq	$32, %rcx
	jne	.LBB46_1247
	leaq	8(,%r14,8), %r13
	testq	%rdx, %rdx
	je	.LBB46_1362
	movq	%rdx, %rcx
	movq	%rbx, %rdi
	movq	%r15, %r11
	movq	%rax, %r10
	cmpb	$10, (%r10)
	je	.LBB46_777
.LBB46_783:
	movq	%r11, %r15
	movq	%rdi, %rbx
.LBB46_784:
	movq	%r10, %rdi
	movq	%rcx, %rsi
	movq	%rcx, %r14
	movq	%r10, %r12
	callq	ic_program.text.other_line
	cmpb	$1, %al
	movq	%rbx, %rdi
	jne	.LBB46_1247
	movq	%r14, %r9
	addq	%rdx, %r12
	subq	%rdx, %r9
	movq	%r15, %r11
	movq	%r12, %r10
	jmp	.LBB46_778
.LBB46_786:
	leaq	(%r12,%r12,4), %r8
	leaq	(%rdx,%r8,2), %rdx
	leaq	(%rdx,%rdx,4), %rdx
	movl	%edx, %edx
	leaq	(%rsi,%rdx,2), %r12
	movl	$3, %edx
.LBB46_787:
	cmpb	$32, %al
	je	.LBB46_789
	movzbl	%al, %esi
	cmpl	$10, %esi
	jne	.LBB46_798
.LBB46_789:
	addq	%rdx, %r10
	subq	%rdx, %rcx
	cmpb	$32, %al
	jne	.LBB46_801
.LBB46_790:
	incq	%r10
	decq	%rcx
	cmpq	$5, %rcx
	jb	.LBB46_876
.LBB46_791:
	movzbl	(%r10), %eax
	addb	$-48, %al
	cmpb	$9, %al
	ja	.LBB46_876
	movzbl	%al, %eax
	movzbl	1(%r10), %edx
	leal	-48(%rdx), %r8d
	movl	$1, %esi
	cmpb	$9, %r8b
	ja	.LBB46_871
	movzbl	%r8b, %esi
	movzbl	2(%r10), %edx
	leal	-48(%rdx), %r8d
	cmpb	$9, %r8b
	ja	.LBB46_797
	movzbl	%r8b, %r8d
	movzbl	3(%r10), %edx
	leal	-48(%rdx), %r9d
	cmpb	$10, %r9b
	jae	.LBB46_870
	movzbl	4(%r10), %edx
	movq	%r10, %rbx
	leal	-48(%rdx), %r10d
	cmpb	$10, %r10b
	movq	%rbx, %r10
	jb	.LBB46_876
	movzbl	%r9b, %r9d
	leaq	(%rax,%rax,4), %rax
	leaq	(%rsi,%rax,2), %rax
	leaq	(%rax,%rax,4), %rax
	movl	%eax, %eax
	leaq	(%r8,%rax,2), %rax
	leaq	(%rax,%rax,4), %rax
	leaq	(%r9,%rax,2), %rax
	movl	$4, %esi
	jmp	.LBB46_871
.LBB46_797:
	leaq	(%rax,%rax,4), %rax
	leaq	(%rsi,%rax,2), %rax
	movl	$2, %esi
	jmp	.LBB46_871
.LBB46_798:
	movq	%r11, %r15
	movq	%rdi, %rbx
	movq	%r10, %rdi
	movq	%rcx, %rsi
	movq	%rcx, %r14
	movq	%r10, %r13
	callq	ic_program.argument.any_number
	movq	%rbx, %rdi
	cmpb	$1, %al
	jne	.LBB46_1247
	movq	%r14, %rsi
	movq	%rdx, %r12
	movq	%r13, %rdi
	callq	ic_program.text.after_word
	movq	%rax, %r10
	testq	%rdx, %rdx
	je	.LBB46_1345
	movq	%rdx, %rcx
	movzbl	(%r10), %eax
	movq	%rbx, %rdi
	movq	%r15, %r11
	cmpb	$32, %al
	je	.LBB46_790
.LBB46_801:
	movq	%r11, %r15
	movq	%rdi, %rbx
.LBB46_802:
	movq	%r10, %rdi
	movq	%rcx, %rsi
	callq	ic_program.text.without_space
	movq	%rax, %r10
	movq	%rdx, %rcx
	movq	%rbx, %rdi
	movq	%r15, %r11
	cmpq	$5, %rcx
	jae	.LBB46_791
	jmp	.LBB46_876
.LBB46_803:
	leaq	(,%r13,4), %r8
	addq	%r13, %r8
	leaq	(%rdx,%r8,2), %rdx
	leaq	(%rdx,%rdx,4), %rdx
	movl	%edx, %edx
	leaq	(%rsi,%rdx,2), %r13
	movl	$3, %edx
.LBB46_804:
	cmpb	$32, %al
	je	.LBB46_806
	movzbl	%al, %esi
	cmpl	$10, %esi
	jne	.LBB46_809
.LBB46_806:
	addq	%rdx, %r10
	subq	%rdx, %rcx
	cmpb	$10, %al
	jne	.LBB46_812
.LBB46_807:
	incq	%r10
	decq	%rcx
	movq	%rcx, %r9
.LBB46_808:
	movw	$0, 12(%rsp)
	movl	$0, 8(%rsp)
	movb	$12, %r8b
	jmp	.LBB46_862
.LBB46_809:
	movq	%r11, %r15
	movq	%rdi, %rbx
	movq	%r10, %rdi
	movq	%rcx, %rsi
	movq	%rcx, %r14
	movq	%r10, %r12
	callq	ic_program.argument.any_number
	movq	%rbx, %rdi
	cmpb	$1, %al
	jne	.LBB46_1247
	movq	%r14, %rsi
	movq	%rdx, %r13
	movq	%r12, %rdi
	callq	ic_program.text.after_word
	movq	%rax, %r10
	testq	%rdx, %rdx
	je	.LBB46_1346
	movq	%rdx, %rcx
	movzbl	(%r10), %eax
	movq	%rbx, %rdi
	movq	%r15, %r11
	cmpb	$10, %al
	je	.LBB46_807
.LBB46_812:
	movq	%r11, %r15
	movq	%rdi, %rbx
.LBB46_813:
	movq	%r10, %rdi
	movq	%rcx, %rsi
	movq	%rcx, %r14
	movq	%r10, %r12
	callq	ic_program.text.other_line
	cmpb	$1, %al
	movq	%rbx, %rdi
	jne	.LBB46_1247
	movq	%r14, %r9
	addq	%rdx, %r12
	subq	%rdx, %r9
	movq	%r15, %r11
	movq	%r12, %r10
	jmp	.LBB46_808
.LBB46_815:
	leaq	(%rax,%rax,4), %rax
	leaq	(%rdx,%rax,2), %rax
	leaq	(%rax,%rax,4), %rax
	movl	%eax, %eax
	leaq	(%rsi,%rax,2), %rax
	movl	$3, %edx
.LBB46_816:
	cmpb	$32, %cl
	je	.LBB46_818
	movzbl	%cl, %ecx
	cmpl	$10, %ecx
	jne	.LBB46_821
.LBB46_818:
	addq	%rdx, %r10
	subq	%rdx, %r9
	leaq	8(,%rax,8), %r13
	cmpb	$10, (%r10)
	jne	.LBB46_825
.LBB46_819:
	incq	%r10
	decq	%r9
.LBB46_820:
	movw	$0, 12(%rsp)
	movl	$0, 8(%rsp)
	movb	$18, %r8b
	jmp	.LBB46_862
.LBB46_821:
	movq	%r11, %r15
	movq	%rdi, %rbx
	movq	%r10, %rdi
	movq	%r9, %rsi
	movq	%r10, %r14
	movq	%r9, %r12
	callq	ic_program.argument.any_number
	movq	%rbx, %rdi
	cmpb	$1, %al
	jne	.LBB46_1247
	movq	%r14, %rdi
	movq	%r12, %rsi
	movq	%rdx, %r14
	callq	ic_program.text.after_word
	movq	%rbx, %rdi
	movq	%r14, %rcx
	shrq	$32, %rcx
	jne	.LBB46_1247
	movq	%rax, %r10
	leaq	8(,%r14,8), %r13
	testq	%rdx, %rdx
	je	.LBB46_1363
	movq	%rdx, %r9
	movq	%rbx, %rdi
	movq	%r15, %r11
	cmpb	$10, (%r10)
	je	.LBB46_819
.LBB46_825:
	movq	%r11, %r15
	movq	%rdi, %rbx
.LBB46_826:
	movq	%r10, %rdi
	movq	%r9, %rsi
	movq	%r10, %r14
	movq	%r9, %r12
	callq	ic_program.text.other_line
	cmpb	$1, %al
	movq	%rbx, %rdi
	jne	.LBB46_1247
	addq	%rdx, %r14
	subq	%rdx, %r12
	movq	%r15, %r11
	movq	%r14, %r10
	movq	%r12, %r9
	jmp	.LBB46_820
.LBB46_828:
	leaq	(%rax,%rax,4), %rax
	leaq	(%rsi,%rax,2), %rax
	leaq	(%rax,%rax,4), %rax
	movl	%eax, %eax
	leaq	(%r8,%rax,2), %rax
	movl	$3, %esi
.LBB46_829:
	cmpb	$32, %dl
	je	.LBB46_831
	movzbl	%dl, %edx
	cmpl	$10, %edx
	jne	.LBB46_835
.LBB46_831:
	addq	%rsi, %r10
	subq	%rsi, %rcx
	leaq	8(,%rax,8), %rbp
	cmpb	$10, (%r10)
	jne	.LBB46_839
.LBB46_832:
	incq	%r10
	decq	%rcx
	movq	%rcx, %r9
.LBB46_833:
	movw	$0, 12(%rsp)
	movl	$0, 8(%rsp)
	movl	$4, %r13d
.LBB46_834:
	movl	$1, %eax
	xorl	%r8d, %r8d
	xorl	%ebx, %ebx
	movl	$1, %r12d
	jmp	.LBB46_1156
.LBB46_835:
	movq	%r11, %r15
	movq	%rdi, %rbx
	movq	%r10, %rdi
	movq	%rcx, %rsi
	movq	%rcx, %r14
	movq	%r10, %r12
	callq	ic_program.argument.any_number
	movq	%rbx, %rdi
	cmpb	$1, %al
	jne	.LBB46_1247
	movq	%r14, %rsi
	movq	%r12, %rdi
	movq	%rdx, %r14
	callq	ic_program.text.after_word
	movq	%rbx, %rdi
	movq	%r14, %rcx
	shrq	$32, %rcx
	jne	.LBB46_1247
	movq	%rax, %r10
	leaq	8(,%r14,8), %rbp
	testq	%rdx, %rdx
	je	.LBB46_1364
	movq	%rdx, %rcx
	movq	%rbx, %rdi
	movq	%r15, %r11
	cmpb	$10, (%r10)
	je	.LBB46_832
.LBB46_839:
	movq	%r11, %r15
	movq	%rdi, %rbx
.LBB46_840:
	movq	%r10, %rdi
	movq	%rcx, %rsi
	movq	%rcx, %r14
	movq	%r10, %r12
	callq	ic_program.text.other_line
	cmpb	$1, %al
	movq	%rbx, %rdi
	jne	.LBB46_1247
	movq	%r14, %r9
	addq	%rdx, %r12
	subq	%rdx, %r9
	movq	%r15, %r11
	movq	%r12, %r10
	jmp	.LBB46_833
.LBB46_842:
	leaq	(%rax,%rax,4), %rax
	leaq	(%rsi,%rax,2), %rax
	leaq	(%rax,%rax,4), %rax
	movl	%eax, %eax
	leaq	(%r8,%rax,2), %rax
	movl	$3, %esi
.LBB46_843:
	cmpb	$32, %dl
	je	.LBB46_845
	movzbl	%dl, %edx
	cmpl	$10, %edx
	jne	.LBB46_849
.LBB46_845:
	addq	%rsi, %r10
	subq	%rsi, %rcx
	leaq	8(,%rax,8), %rbp
	cmpb	$10, (%r10)
	jne	.LBB46_853
.LBB46_846:
	incq	%r10
	decq	%rcx
	movq	%rcx, %r9
.LBB46_847:
	movw	$0, 12(%rsp)
	movl	$0, 8(%rsp)
	movl	$7, %r13d
.LBB46_848:
	movl	$1, %eax
	xorl	%r8d, %r8d
	xorl	%ebx, %ebx
	xorl	%r12d, %r12d
	jmp	.LBB46_1156
.LBB46_849:
	movq	%r11, %r15
	movq	%rdi, %rbx
	movq	%r10, %rdi
	movq	%rcx, %rsi
	movq	%rcx, %r14
	movq	%r10, %r12
	callq	ic_program.argument.any_number
	movq	%rbx, %rdi
	cmpb	$1, %al
	jne	.LBB46_1247
	movq	%r14, %rsi
	movq	%r12, %rdi
	movq	%rdx, %r14
	callq	ic_program.text.after_word
	movq	%rbx, %rdi
	movq	%r14, %rcx
	shrq	$32, %rcx
	jne	.LBB46_1247
	leaq	8(,%r14,8), %rbp
	testq	%rdx, %rdx
	je	.LBB46_1365
	movq	%rdx, %rcx
	movq	%rbx, %rdi
	movq	%r15, %r11
	movq	%rax, %r10
	cmpb	$10, (%r10)
	je	.LBB46_846
.LBB46_853:
	movq	%r11, %r15
	movq	%rdi, %rbx
.LBB46_854:
	movq	%r10, %rdi
	movq	%rcx, %rsi
	movq	%rcx, %r14
	movq	%r10, %r12
	callq	ic_program.text.other_line
	cmpb	$1, %al
	movq	%rbx, %rdi
	jne	.LBB46_1247
	movq	%r14, %r9
	addq	%rdx, %r12
	subq	%rdx, %r9
	movq	%r15, %r11
	movq	%r12, %r10
	jmp	.LBB46_847
.LBB46_856:
	leaq	(,%r13,4), %r8
	addq	%r13, %r8
	leaq	(%rdx,%r8,2), %rdx
	leaq	(%rdx,%rdx,4), %rdx
	movl	%edx, %edx
	leaq	(%rsi,%rdx,2), %r13
	movl	$3, %edx
.LBB46_857:
	cmpb	$32, %al
	je	.LBB46_859
	movzbl	%al, %esi
	cmpl	$10, %esi
	jne	.LBB46_864
.LBB46_859:
	addq	%rdx, %r10
	subq	%rdx, %rcx
	cmpb	$10, %al
	jne	.LBB46_867
.LBB46_860:
	incq	%r10
	decq	%rcx
	movq	%rcx, %r9
.LBB46_861:
	movw	$0, 12(%rsp)
	movl	$0, 8(%rsp)
	movb	$3, %r8b
.LBB46_862:
	movl	$1, %eax
.LBB46_863:
	xorl	%ebx, %ebx
	xorl	%r12d, %r12d
	jmp	.LBB46_1155
.LBB46_864:
	movq	%r11, %r15
	movq	%rdi, %rbx
	movq	%r10, %rdi
	movq	%rcx, %rsi
	movq	%rcx, %r14
	movq	%r10, %r12
	callq	ic_program.argument.any_number
	movq	%rbx, %rdi
	cmpb	$1, %al
	jne	.LBB46_1247
	movq	%r14, %rsi
	movq	%rdx, %r13
	movq	%r12, %rdi
	callq	ic_program.text.after_word
	movq	%rax, %r10
	testq	%rdx, %rdx
	je	.LBB46_1347
	movq	%rdx, %rcx
	movzbl	(%r10), %eax
	movq	%rbx, %rdi
	movq	%r15, %r11
	cmpb	$10, %al
	je	.LBB46_860
.LBB46_867:
	movq	%r11, %r15
	movq	%rdi, %rbx
.LBB46_868:
	movq	%r10, %rdi
	movq	%rcx, %rsi
	movq	%rcx, %r14
	movq	%r10, %r12
	callq	ic_program.text.other_line
	cmpb	$1, %al
	movq	%rbx, %rdi
	jne	.LBB46_1247
	movq	%r14, %r9
	addq	%rdx, %r12
	subq	%rdx, %r9
	movq	%r15, %r11
	movq	%r12, %r10
	jmp	.LBB46_861
.LBB46_870:
	leaq	(%rax,%rax,4), %rax
	leaq	(%rsi,%rax,2), %rax
	leaq	(%rax,%rax,4), %rax
	movl	%eax, %eax
	leaq	(%r8,%rax,2), %rax
	movl	$3, %esi
.LBB46_871:
	cmpb	$32, %dl
	je	.LBB46_873
	movzbl	%dl, %edx
	cmpl	$10, %edx
	jne	.LBB46_876
.LBB46_873:
	addq	%rsi, %r10
	subq	%rsi, %rcx
	leaq	8(,%rax,8), %rbp
	cmpb	$10, (%r10)
	jne	.LBB46_880
.LBB46_874:
	incq	%r10
	decq	%rcx
	movq	%rcx, %r9
.LBB46_875:
	movw	$0, 12(%rsp)
	movl	$0, 8(%rsp)
	movl	$8, %r13d
	movl	$1, %eax
	xorl	%r8d, %r8d
	xorl	%ebx, %ebx
	jmp	.LBB46_1156
.LBB46_876:
	movq	%r11, %r15
	movq	%rdi, %rbx
	movq	%r10, %rdi
	movq	%rcx, %rsi
	movq	%rcx, %r14
	movq	%r10, %r13
	callq	ic_program.argument.any_number
	movq	%rbx, %rdi
	cmpb	$1, %al
	jne	.LBB46_1247
	movq	%r14, %rsi
	movq	%r13, %rdi
	movq	%rdx, %r14
	callq	ic_program.text.after_word
	movq	%rbx, %rdi
	movq	%r14, %rcx
	shrq	$32, %rcx
	jne	.LBB46_1247
	movq	%rax, %r10
	leaq	8(,%r14,8), %rbp
	testq	%rdx, %rdx
	je	.LBB46_1366
	movq	%rdx, %rcx
	movq	%rbx, %rdi
	movq	%r15, %r11
	cmpb	$10, (%r10)
	je	.LBB46_874
.LBB46_880:
	movq	%r11, %r15
	movq	%rdi, %rbx
.LBB46_881:
	movq	%r10, %rdi
	movq	%rcx, %rsi
	movq	%rcx, %r14
	movq	%r10, %r13
	callq	ic_program.text.other_line
	cmpb	$1, %al
	movq	%rbx, %rdi
	jne	.LBB46_1247
	movq	%r14, %r9
	addq	%rdx, %r13
	subq	%rdx, %r9
	movq	%r15, %r11
	movq	%r13, %r10
	jmp	.LBB46_875
.LBB46_883:
	leaq	(%r11,%r11,4), %rdx
	leaq	(%rax,%rdx,2), %r11
	movl	$2, %eax
	jmp	.LBB46_886
.LBB46_884:
	leaq	(%r11,%r11,4), %rdx
	leaq	(%rax,%rdx,2), %r11
	movl	$2, %eax
	jmp	.LBB46_902
.LBB46_885:
	leaq	(%r11,%r11,4), %rdx
	leaq	(%rax,%rdx,2), %rax
	leaq	(%rax,%rax,4), %rax
	movl	%eax, %eax
	leaq	(%rsi,%rax,2), %r11
	movl	$3, %eax
.LBB46_886:
	movzbl	(%r10,%rax), %esi
	cmpl	$32, %esi
	je	.LBB46_888
	cmpl	$10, %esi
	jne	.LBB46_891
.LBB46_888:
	addq	%rax, %r10
	subq	%rax, %rcx
	cmpb	$10, %sil
	jne	.LBB46_894
.LBB46_889:
	incq	%r10
	movq	%rcx, %r9
	decq	%r9
.LBB46_890:
	movw	$0, 52(%rsp)
	movl	$0, 48(%rsp)
	movl	$1, %eax
	movl	$4, %r13d
	xorl	%r12d, %r12d
	jmp	.LBB46_1150
.LBB46_891:
	movq	%rdi, %rbx
	movq	%r10, %rdi
	movq	%rcx, %rsi
	movq	%rcx, %r14
	movq	%r10, %r15
	callq	ic_program.argument.any_number
	movq	%rbx, %rdi
	cmpb	$1, %al
	jne	.LBB46_1153
	movq	%r14, %rsi
	movq	%rdx, %r14
	movq	%r15, %rdi
	callq	ic_program.text.after_word
	movq	%rax, %r10
	testq	%rdx, %rdx
	je	.LBB46_1369
	movzbl	(%r10), %esi
	movq	%rdx, %rcx
	movq	%rbx, %rdi
	movq	%r14, %r11
	cmpb	$10, %sil
	je	.LBB46_889
.LBB46_894:
	movq	%r11, %r14
	movq	%rcx, %r15
	movq	%rdi, %rbx
.LBB46_895:
	movq	%r10, %r12
	movq	%r10, %rdi
	movq	%r15, %rsi
	callq	ic_program.text.other_line
	cmpb	$1, %al
	movq	%rbx, %rdi
	jne	.LBB46_1153
	addq	%rdx, %r12
	movq	%r15, %r9
	subq	%rdx, %r9
	movq	%r14, %r11
	movq	%r12, %r10
	jmp	.LBB46_890
.LBB46_897:
	leaq	(%r11,%r11,4), %r8
	leaq	(%rax,%r8,2), %r11
	movl	$2, %eax
	jmp	.LBB46_921
.LBB46_898:
	leaq	(%r11,%r11,4), %rdx
	leaq	(%rax,%rdx,2), %r11
	movl	$2, %eax
	jmp	.LBB46_938
.LBB46_899:
	leaq	(%r11,%r11,4), %rdx
	leaq	(%rax,%rdx,2), %r11
	movl	$2, %eax
	jmp	.LBB46_950
.LBB46_900:
	leaq	(%r11,%r11,4), %rdx
	leaq	(%rax,%rdx,2), %r11
	movl	$2, %eax
	jmp	.LBB46_962
.LBB46_901:
	leaq	(%r11,%r11,4), %rdx
	leaq	(%rax,%rdx,2), %rax
	leaq	(%rax,%rax,4), %rax
	movl	%eax, %eax
	leaq	(%rsi,%rax,2), %r11
	movl	$3, %eax
.LBB46_902:
	movzbl	(%r10,%rax), %esi
	cmpl	$32, %esi
	je	.LBB46_904
	cmpl	$10, %esi
	jne	.LBB46_907
.LBB46_904:
	addq	%rax, %r10
	subq	%rax, %rcx
	cmpb	$10, %sil
	jne	.LBB46_910
.LBB46_905:
	incq	%r10
	movq	%rcx, %r9
	decq	%r9
.LBB46_906:
	movw	$0, 52(%rsp)
	movl	$0, 48(%rsp)
	movl	$1, %eax
	movb	$11, %r8b
	xorl	%r12d, %r12d
	xorl	%r13d, %r13d
	jmp	.LBB46_1151
.LBB46_907:
	movq	%rdi, %rbx
	movq	%r10, %rdi
	movq	%rcx, %rsi
	movq	%rcx, %r14
	movq	%r10, %r15
	callq	ic_program.argument.any_number
	movq	%rbx, %rdi
	cmpb	$1, %al
	jne	.LBB46_1153
	movq	%r14, %rsi
	movq	%rdx, %r14
	movq	%r15, %rdi
	callq	ic_program.text.after_word
	movq	%rax, %r10
	testq	%rdx, %rdx
	je	.LBB46_1370
	movzbl	(%r10), %esi
	movq	%rdx, %rcx
	movq	%rbx, %rdi
	movq	%r14, %r11
	cmpb	$10, %sil
	je	.LBB46_905
.LBB46_910:
	movq	%r11, %r14
	movq	%rcx, %r15
	movq	%rdi, %rbx
.LBB46_911:
	movq	%r10, %r12
	movq	%r10, %rdi
	movq	%r15, %rsi
	callq	ic_program.text.other_line
	cmpb	$1, %al
	movq	%rbx, %rdi
	jne	.LBB46_1153
	addq	%rdx, %r12
	movq	%r15, %r9
	subq	%rdx, %r9
	movq	%r14, %r11
	movq	%r12, %r10
	jmp	.LBB46_906
.LBB46_913:
	leaq	(%r11,%r11,4), %rdx
	leaq	(%rax,%rdx,2), %r11
	movl	$2, %eax
	jmp	.LBB46_974
.LBB46_914:
	leaq	(%r11,%r11,4), %rdx
	leaq	(%rax,%rdx,2), %r11
	movl	$2, %eax
	jmp	.LBB46_986
.LBB46_915:
	leaq	(%r11,%r11,4), %rdx
	leaq	(%rax,%rdx,2), %r11
	movl	$2, %eax
	jmp	.LBB46_1003
.LBB46_916:
	leaq	(%r11,%r11,4), %rdx
	leaq	(%rax,%rdx,2), %r11
	movl	$2, %eax
	jmp	.LBB46_1015
.LBB46_917:
	leaq	(%r11,%r11,4), %rdx
	leaq	(%rax,%rdx,2), %r11
	movl	$2, %eax
	jmp	.LBB46_1032
.LBB46_918:
	leaq	(%r11,%r11,4), %rdx
	leaq	(%rax,%rdx,2), %r11
	movl	$2, %eax
	jmp	.LBB46_1049
.LBB46_919:
	leaq	(%r11,%r11,4), %rdx
	leaq	(%rax,%rdx,2), %r11
	movl	$2, %eax
	jmp	.LBB46_1061
.LBB46_920:
	leaq	(%r11,%r11,4), %r8
	leaq	(%rax,%r8,2), %rax
	leaq	(%rax,%rax,4), %rax
	movl	%eax, %eax
	leaq	(%r10,%rax,2), %r11
	movl	$3, %eax
	movq	%r14, %rsi
.LBB46_921:
	movzbl	(%rbp,%rax), %r8d
	cmpl	$32, %r8d
	je	.LBB46_923
	cmpl	$10, %r8d
	jne	.LBB46_932
.LBB46_923:
	addq	%rax, %rbp
	subq	%rax, %rsi
	cmpb	$32, %r8b
	jne	.LBB46_935
.LBB46_924:
	incq	%rbp
	decq	%rsi
	movq	%rsi, %r12
	cmpq	$5, %rsi
	jb	.LBB46_1089
.LBB46_925:
	movzbl	(%rbp), %eax
	addb	$-48, %al
	cmpb	$9, %al
	ja	.LBB46_1089
	movzbl	%al, %esi
	movzbl	1(%rbp), %eax
	leal	-48(%rax), %r9d
	movl	$1, %r8d
	cmpb	$9, %r9b
	ja	.LBB46_1083
	movq	%rbp, %r10
	movzbl	%r9b, %r8d
	movzbl	2(%rbp), %eax
	leal	-48(%rax), %r9d
	cmpb	$9, %r9b
	ja	.LBB46_931
	movq	%r11, %r14
	movzbl	%r9b, %r9d
	movzbl	3(%r10), %eax
	leal	-48(%rax), %r10d
	cmpb	$10, %r10b
	jae	.LBB46_1082
	movzbl	4(%rbp), %eax
	leal	-48(%rax), %r11d
	cmpb	$10, %r11b
	movq	%r14, %r11
	jb	.LBB46_1089
	movzbl	%r10b, %r10d
	leaq	(%rsi,%rsi,4), %rsi
	leaq	(%r8,%rsi,2), %rsi
	leaq	(%rsi,%rsi,4), %rsi
	movl	%esi, %esi
	leaq	(%r9,%rsi,2), %rsi
	leaq	(%rsi,%rsi,4), %rsi
	leaq	(%r10,%rsi,2), %rsi
	movl	$4, %r8d
	jmp	.LBB46_1083
.LBB46_931:
	leaq	(%rsi,%rsi,4), %rsi
	leaq	(%r8,%rsi,2), %rsi
	movl	$2, %r8d
	jmp	.LBB46_1083
.LBB46_932:
	movq	%rdi, %r14
	movq	%rbp, %r13
	movq	%rbp, %rdi
	movq	%rsi, %rbp
	movq	%rcx, %r12
	movq	%rdx, %r15
	callq	ic_program.argument.any_number
	movq	%r12, %rcx
	movq	%r14, %rdi
	movq	%rdx, 32(%rsp)
	movq	%r15, %rdx
	cmpb	$1, %al
	jne	.LBB46_1090
	movq	%r13, %rdi
	movq	%rbp, %rsi
	callq	ic_program.text.after_word
	movq	%rax, %rbp
	testq	%rdx, %rdx
	je	.LBB46_1371
	movq	%rdx, %rsi
	movzbl	(%rbp), %r8d
	movq	%r14, %rdi
	movq	%r12, %rcx
	movq	%r15, %rdx
	movq	32(%rsp), %r11
	cmpb	$32, %r8b
	je	.LBB46_924
.LBB46_935:
	movq	%r11, 32(%rsp)
	movq	%rdx, %r15
	movq	%rcx, %r12
	movq	%rdi, %r14
.LBB46_936:
	movq	%rbp, %rdi
	callq	ic_program.text.without_space
	movq	%rax, %rbp
	movq	%rdx, %rsi
	movq	%r14, %rdi
	movq	%r12, %rcx
	movq	%r15, %rdx
	movq	32(%rsp), %r11
	movq	%rsi, %r12
	cmpq	$5, %rsi
	jae	.LBB46_925
	jmp	.LBB46_1089
.LBB46_937:
	leaq	(%r11,%r11,4), %rdx
	leaq	(%rax,%rdx,2), %rax
	leaq	(%rax,%rax,4), %rax
	movl	%eax, %eax
	leaq	(%rsi,%rax,2), %r11
	movl	$3, %eax
.LBB46_938:
	movzbl	(%r10,%rax), %esi
	cmpl	$32, %esi
	je	.LBB46_940
	cmpl	$10, %esi
	jne	.LBB46_943
.LBB46_940:
	addq	%rax, %r10
	subq	%rax, %rcx
	cmpb	$10, %sil
	jne	.LBB46_946
.LBB46_941:
	incq	%r10
	movq	%rcx, %r9
	decq	%r9
.LBB46_942:
	movw	$0, 52(%rsp)
	movl	$0, 48(%rsp)
	movl	$1, %eax
	movl	$769, %r13d
	xorl	%r12d, %r12d
	jmp	.LBB46_1150
.LBB46_943:
	movq	%rdi, %rbx
	movq	%r10, %r15
	movq	%r10, %rdi
	movq	%rcx, %rsi
	movq	%rcx, %r14
	callq	ic_program.argument.any_number
	movq	%rbx, %rdi
	cmpb	$1, %al
	jne	.LBB46_1153
	movq	%r14, %rsi
	movq	%rdx, %r14
	movq	%r15, %rdi
	callq	ic_program.text.after_word
	movq	%rax, %r12
	testq	%rdx, %rdx
	je	.LBB46_1372
	movq	%r12, %r10
	movzbl	(%r12), %esi
	movq	%rdx, %rcx
	movq	%rbx, %rdi
	movq	%r14, %r11
	cmpb	$10, %sil
	je	.LBB46_941
.LBB46_946:
	movq	%r10, %r12
	movq	%r11, %r14
	movq	%rcx, %r15
	movq	%rdi, %rbx
.LBB46_947:
	movq	%r12, %rdi
	movq	%r15, %rsi
	callq	ic_program.text.other_line
	cmpb	$1, %al
	movq	%rbx, %rdi
	jne	.LBB46_1153
	movq	%r12, %r10
	addq	%rdx, %r10
	movq	%r15, %r9
	subq	%rdx, %r9
	movq	%r14, %r11
	jmp	.LBB46_942
.LBB46_949:
	leaq	(%r11,%r11,4), %rdx
	leaq	(%rax,%rdx,2), %rax
	leaq	(%rax,%rax,4), %rax
	movl	%eax, %eax
	leaq	(%rsi,%rax,2), %r11
	movl	$3, %eax
.LBB46_950:
	movzbl	(%r10,%rax), %esi
	cmpl	$32, %esi
	je	.LBB46_952
	cmpl	$10, %esi
	jne	.LBB46_955
.LBB46_952:
	addq	%rax, %r10
	subq	%rax, %rcx
	cmpb	$10, %sil
	jne	.LBB46_958
.LBB46_953:
	incq	%r10
	movq	%rcx, %r9
	decq	%r9
.LBB46_954:
	movw	$0, 52(%rsp)
	movl	$0, 48(%rsp)
	movl	$1, %eax
	movl	$3, %r13d
	xorl	%r12d, %r12d
	jmp	.LBB46_1150
.LBB46_955:
	movq	%rdi, %rbx
	movq	%r10, %r15
	movq	%r10, %rdi
	movq	%rcx, %rsi
	movq	%rcx, %r14
	callq	ic_program.argument.any_number
	movq	%rbx, %rdi
	cmpb	$1, %al
	jne	.LBB46_1153
	movq	%r14, %rsi
	movq	%rdx, %r14
	movq	%r15, %rdi
	callq	ic_program.text.after_word
	movq	%rax, %r12
	testq	%rdx, %rdx
	je	.LBB46_1373
	movq	%r12, %r10
	movzbl	(%r12), %esi
	movq	%rdx, %rcx
	movq	%rbx, %rdi
	movq	%r14, %r11
	cmpb	$10, %sil
	je	.LBB46_953
.LBB46_958:
	movq	%r10, %r12
	movq	%r11, %r14
	movq	%rcx, %r15
	movq	%rdi, %rbx
.LBB46_959:
	movq	%r12, %rdi
	movq	%r15, %rsi
	callq	ic_program.text.other_line
	cmpb	$1, %al
	movq	%rbx, %rdi
	jne	.LBB46_1153
	movq	%r12, %r10
	addq	%rdx, %r10
	movq	%r15, %r9
	subq	%rdx, %r9
	movq	%r14, %r11
	jmp	.LBB46_954
.LBB46_961:
	leaq	(%r11,%r11,4), %rdx
	leaq	(%rax,%rdx,2), %rax
	leaq	(%rax,%rax,4), %rax
	movl	%eax, %eax
	leaq	(%rsi,%rax,2), %r11
	movl	$3, %eax
.LBB46_962:
	movzbl	(%r10,%rax), %esi
	cmpl	$32, %esi
	je	.LBB46_964
	cmpl	$10, %esi
	jne	.LBB46_967
.LBB46_964:
	addq	%rax, %r10
	subq	%rax, %rcx
	cmpb	$10, %sil
	jne	.LBB46_970
.LBB46_965:
	incq	%r10
	movq	%rcx, %r9
	decq	%r9
.LBB46_966:
	movw	$0, 52(%rsp)
	movl	$0, 48(%rsp)
	movl	$1, %eax
	movl	$259, %r13d
	xorl	%r12d, %r12d
	jmp	.LBB46_1150
.LBB46_967:
	movq	%rdi, %rbx
	movq	%r10, %r15
	movq	%r10, %rdi
	movq	%rcx, %rsi
	movq	%rcx, %r14
	callq	ic_program.argument.any_number
	movq	%rbx, %rdi
	cmpb	$1, %al
	jne	.LBB46_1153
	movq	%r14, %rsi
	movq	%rdx, %r14
	movq	%r15, %rdi
	callq	ic_program.text.after_word
	movq	%rax, %r12
	testq	%rdx, %rdx
	je	.LBB46_1374
	movq	%r12, %r10
	movzbl	(%r12), %esi
	movq	%rdx, %rcx
	movq	%rbx, %rdi
	movq	%r14, %r11
	cmpb	$10, %sil
	je	.LBB46_965
.LBB46_970:
	movq	%r10, %r12
	movq	%r11, %r14
	movq	%rcx, %r15
	movq	%rdi, %rbx
.LBB46_971:
	movq	%r12, %rdi
	movq	%r15, %rsi
	callq	ic_program.text.other_line
	cmpb	$1, %al
	movq	%rbx, %rdi
	jne	.LBB46_1153
	movq	%r12, %r10
	addq	%rdx, %r10
	movq	%r15, %r9
	subq	%rdx, %r9
	movq	%r14, %r11
	jmp	.LBB46_966
.LBB46_973:
	leaq	(%r11,%r11,4), %rdx
	leaq	(%rax,%rdx,2), %rax
	leaq	(%rax,%rax,4), %rax
	movl	%eax, %eax
	leaq	(%rsi,%rax,2), %r11
	movl	$3, %eax
.LBB46_974:
	movzbl	(%r10,%rax), %esi
	cmpl	$32, %esi
	je	.LBB46_976
	cmpl	$10, %esi
	jne	.LBB46_979
.LBB46_976:
	addq	%rax, %r10
	subq	%rax, %rcx
	cmpb	$10, %sil
	jne	.LBB46_982
.LBB46_977:
	incq	%r10
	movq	%rcx, %r9
	decq	%r9
.LBB46_978:
	movw	$0, 52(%rsp)
	movl	$0, 48(%rsp)
	movl	$1, %r13d
	xorl	%r12d, %r12d
	xorl	%r8d, %r8d
	movl	$1, %eax
	jmp	.LBB46_1151
.LBB46_979:
	movq	%rdi, %rbx
	movq	%r10, %r15
	movq	%r10, %rdi
	movq	%rcx, %rsi
	movq	%rcx, %r14
	callq	ic_program.argument.any_number
	movq	%rbx, %rdi
	cmpb	$1, %al
	jne	.LBB46_1153
	movq	%r14, %rsi
	movq	%rdx, %r14
	movq	%r15, %rdi
	callq	ic_program.text.after_word
	movq	%rax, %r12
	testq	%rdx, %rdx
	je	.LBB46_1375
	movq	%r12, %r10
	movzbl	(%r12), %esi
	movq	%rdx, %rcx
	movq	%rbx, %rdi
	movq	%r14, %r11
	cmpb	$10, %sil
	je	.LBB46_977
.LBB46_982:
	movq	%r10, %r12
	movq	%r11, %r14
	movq	%rcx, %r15
	movq	%rdi, %rbx
.LBB46_983:
	movq	%r12, %rdi
	movq	%r15, %rsi
	callq	ic_program.text.other_line
	cmpb	$1, %al
	movq	%rbx, %rdi
	jne	.LBB46_1153
	movq	%r12, %r10
	addq	%rdx, %r10
	movq	%r15, %r9
	subq	%rdx, %r9
	movq	%r14, %r11
	jmp	.LBB46_978
.LBB46_985:
	leaq	(%r11,%r11,4), %rdx
	leaq	(%rax,%rdx,2), %rax
	leaq	(%rax,%rax,4), %rax
	movl	%eax, %eax
	leaq	(%rsi,%rax,2), %r11
	movl	$3, %eax
.LBB46_986:
	movzbl	(%r10,%rax), %esi
	cmpl	$32, %esi
	je	.LBB46_988
	cmpl	$10, %esi
	jne	.LBB46_997
.LBB46_988:
	addq	%rax, %r10
	subq	%rax, %rcx
	cmpb	$32, %sil
	jne	.LBB46_1000
.LBB46_989:
	incq	%r10
	movq	%rcx, %r9
	decq	%r9
	cmpq	$5, %r9
	jb	.LBB46_1108
.LBB46_990:
	movzbl	(%r10), %eax
	addb	$-48, %al
	cmpb	$9, %al
	ja	.LBB46_1108
	movzbl	%al, %ecx
	movzbl	1(%r10), %eax
	leal	-48(%rax), %esi
	movl	$1, %edx
	cmpb	$9, %sil
	ja	.LBB46_1103
	movq	%r9, %rbx
	movzbl	%sil, %edx
	movzbl	2(%r10), %eax
	leal	-48(%rax), %esi
	cmpb	$9, %sil
	ja	.LBB46_996
	movzbl	%sil, %esi
	movq	%r10, %r9
	movzbl	3(%r10), %eax
	leal	-48(%rax), %r8d
	cmpb	$10, %r8b
	jae	.LBB46_1101
	movq	%r9, %r10
	movzbl	4(%r9), %eax
	leal	-48(%rax), %r9d
	cmpb	$10, %r9b
	movq	%rbx, %r9
	jb	.LBB46_1108
	movzbl	%r8b, %r8d
	leaq	(%rcx,%rcx,4), %rcx
	leaq	(%rdx,%rcx,2), %rcx
	leaq	(%rcx,%rcx,4), %rcx
	movl	%ecx, %ecx
	leaq	(%rsi,%rcx,2), %rcx
	leaq	(%rcx,%rcx,4), %rcx
	leaq	(%r8,%rcx,2), %rcx
	movl	$4, %edx
	jmp	.LBB46_1103
.LBB46_996:
	leaq	(%rcx,%rcx,4), %rcx
	leaq	(%rdx,%rcx,2), %rcx
	movl	$2, %edx
	jmp	.LBB46_1102
.LBB46_997:
	movq	%rdi, %rbx
	movq	%r10, %r15
	movq	%r10, %rdi
	movq	%rcx, %rsi
	movq	%rcx, %r14
	callq	ic_program.argument.any_number
	movq	%rbx, %rdi
	cmpb	$1, %al
	jne	.LBB46_1153
	movq	%r14, %rsi
	movq	%rdx, %r14
	movq	%r15, %rdi
	callq	ic_program.text.after_word
	movq	%rax, %r10
	testq	%rdx, %rdx
	je	.LBB46_1376
	movzbl	(%r10), %esi
	movq	%rdx, %rcx
	movq	%rbx, %rdi
	movq	%r14, %r11
	cmpb	$32, %sil
	je	.LBB46_989
.LBB46_1000:
	movq	%r11, %r14
	movq	%rcx, %rsi
	movq	%rdi, %rbx
.LBB46_1001:
	movq	%r10, %rdi
	callq	ic_program.text.without_space
	movq	%rax, %r10
	movq	%rdx, %r9
	movq	%rbx, %rdi
	movq	%r14, %r11
	cmpq	$5, %r9
	jae	.LBB46_990
	jmp	.LBB46_1108
.LBB46_1002:
	leaq	(%r11,%r11,4), %rdx
	leaq	(%rax,%rdx,2), %rax
	leaq	(%rax,%rax,4), %rax
	movl	%eax, %eax
	leaq	(%rsi,%rax,2), %r11
	movl	$3, %eax
.LBB46_1003:
	movzbl	(%r10,%rax), %esi
	cmpl	$32, %esi
	je	.LBB46_1005
	cmpl	$10, %esi
	jne	.LBB46_1008
.LBB46_1005:
	addq	%rax, %r10
	subq	%rax, %rcx
	cmpb	$10, %sil
	jne	.LBB46_1011
.LBB46_1006:
	incq	%r10
	movq	%rcx, %r9
	decq	%r9
.LBB46_1007:
	movw	$0, 52(%rsp)
	movl	$0, 48(%rsp)
	movl	$1, %eax
	movl	$257, %r13d
	xorl	%r12d, %r12d
	jmp	.LBB46_1150
.LBB46_1008:
	movq	%rdi, %rbx
	movq	%r10, %r15
	movq	%r10, %rdi
	movq	%rcx, %rsi
	movq	%rcx, %r14
	callq	ic_program.argument.any_number
	movq	%rbx, %rdi
	cmpb	$1, %al
	jne	.LBB46_1153
	movq	%r14, %rsi
	movq	%rdx, %r14
	movq	%r15, %rdi
	callq	ic_program.text.after_word
	movq	%rax, %r12
	testq	%rdx, %rdx
	je	.LBB46_1377
	movq	%r12, %r10
	movzbl	(%r12), %esi
	movq	%rdx, %rcx
	movq	%rbx, %rdi
	movq	%r14, %r11
	cmpb	$10, %sil
	je	.LBB46_1006
.LBB46_1011:
	movq	%r10, %r12
	movq	%r11, %r14
	movq	%rcx, %r15
	movq	%rdi, %rbx
.LBB46_1012:
	movq	%r12, %rdi
	movq	%r15, %rsi
	callq	ic_program.text.other_line
	cmpb	$1, %al
	movq	%rbx, %rdi
	jne	.LBB46_1153
	movq	%r12, %r10
	addq	%rdx, %r10
	movq	%r15, %r9
	subq	%rdx, %r9
	movq	%r14, %r11
	jmp	.LBB46_1007
.LBB46_1014:
	leaq	(%r11,%r11,4), %rdx
	leaq	(%rax,%rdx,2), %rax
	leaq	(%rax,%rax,4), %rax
	movl	%eax, %eax
	leaq	(%rsi,%rax,2), %r11
	movl	$3, %eax
.LBB46_1015:
	movzbl	(%r10,%rax), %esi
	cmpl	$32, %esi
	je	.LBB46_1017
	cmpl	$10, %esi
	jne	.LBB46_1026
.LBB46_1017:
	addq	%rax, %r10
	subq	%rax, %rcx
	cmpb	$32, %sil
	jne	.LBB46_1029
.LBB46_1018:
	incq	%r10
	movq	%rcx, %r9
	decq	%r9
	cmpq	$5, %r9
	jb	.LBB46_1122
.LBB46_1019:
	movzbl	(%r10), %eax
	addb	$-48, %al
	cmpb	$9, %al
	ja	.LBB46_1122
	movzbl	%al, %ecx
	movzbl	1(%r10), %eax
	leal	-48(%rax), %esi
	movl	$1, %edx
	cmpb	$9, %sil
	ja	.LBB46_1117
	movq	%r9, %rbx
	movzbl	%sil, %edx
	movzbl	2(%r10), %eax
	leal	-48(%rax), %esi
	cmpb	$9, %sil
	ja	.LBB46_1025
	movzbl	%sil, %esi
	movq	%r10, %r9
	movzbl	3(%r10), %eax
	leal	-48(%rax), %r8d
	cmpb	$10, %r8b
	jae	.LBB46_1115
	movq	%r9, %r10
	movzbl	4(%r9), %eax
	leal	-48(%rax), %r9d
	cmpb	$10, %r9b
	movq	%rbx, %r9
	jb	.LBB46_1122
	movzbl	%r8b, %r8d
	leaq	(%rcx,%rcx,4), %rcx
	leaq	(%rdx,%rcx,2), %rcx
	leaq	(%rcx,%rcx,4), %rcx
	movl	%ecx, %ecx
	leaq	(%rsi,%rcx,2), %rcx
	leaq	(%rcx,%rcx,4), %rcx
	leaq	(%r8,%rcx,2), %rcx
	movl	$4, %edx
	jmp	.LBB46_1117
.LBB46_1025:
	leaq	(%rcx,%rcx,4), %rcx
	leaq	(%rdx,%rcx,2), %rcx
	movl	$2, %edx
	jmp	.LBB46_1116
.LBB46_1026:
	movq	%rdi, %rbx
	movq	%r10, %r15
	movq	%r10, %rdi
	movq	%rcx, %rsi
	movq	%rcx, %r14
	callq	ic_program.argument.any_number
	movq	%rbx, %rdi
	cmpb	$1, %al
	jne	.LBB46_1153
	movq	%r14, %rsi
	movq	%rdx, %r14
	movq	%r15, %rdi
	callq	ic_program.text.after_word
	movq	%rax, %r10
	testq	%rdx, %rdx
	je	.LBB46_1378
	movzbl	(%r10), %esi
	movq	%rdx, %rcx
	movq	%rbx, %rdi
	movq	%r14, %r11
	cmpb	$32, %sil
	je	.LBB46_1018
.LBB46_1029:
	movq	%r11, %r14
	movq	%rcx, %rsi
	movq	%rdi, %rbx
.LBB46_1030:
	movq	%r10, %rdi
	callq	ic_program.text.without_space
	movq	%rax, %r10
	movq	%rdx, %r9
	movq	%rbx, %rdi
	movq	%r14, %r11
	cmpq	$5, %r9
	jae	.LBB46_1019
	jmp	.LBB46_1122
.LBB46_1031:
	leaq	(%r11,%r11,4), %rdx
	leaq	(%rax,%rdx,2), %rax
	leaq	(%rax,%rax,4), %rax
	movl	%eax, %eax
	leaq	(%rsi,%rax,2), %r11
	movl	$3, %eax
.LBB46_1032:
	movzbl	(%r10,%rax), %esi
	cmpl	$32, %esi
	je	.LBB46_1034
	cmpl	$10, %esi
	jne	.LBB46_1043
.LBB46_1034:
	addq	%rax, %r10
	subq	%rax, %rcx
	cmpb	$32, %sil
	jne	.LBB46_1046
.LBB46_1035:
	incq	%r10
	movq	%rcx, %r9
	decq	%r9
	cmpq	$5, %r9
	jb	.LBB46_1136
.LBB46_1036:
	movzbl	(%r10), %eax
	addb	$-48, %al
	cmpb	$9, %al
	ja	.LBB46_1136
	movzbl	%al, %ecx
	movzbl	1(%r10), %eax
	leal	-48(%rax), %esi
	movl	$1, %edx
	cmpb	$9, %sil
	ja	.LBB46_1131
	movq	%r9, %rbx
	movzbl	%sil, %edx
	movzbl	2(%r10), %eax
	leal	-48(%rax), %esi
	cmpb	$9, %sil
	ja	.LBB46_1042
	movzbl	%sil, %esi
	movq	%r10, %r9
	movzbl	3(%r10), %eax
	leal	-48(%rax), %r8d
	cmpb	$10, %r8b
	jae	.LBB46_1129
	movq	%r9, %r10
	movzbl	4(%r9), %eax
	leal	-48(%rax), %r9d
	cmpb	$10, %r9b
	movq	%rbx, %r9
	jb	.LBB46_1136
	movzbl	%r8b, %r8d
	leaq	(%rcx,%rcx,4), %rcx
	leaq	(%rdx,%rcx,2), %rcx
	leaq	(%rcx,%rcx,4), %rcx
	movl	%ecx, %ecx
	leaq	(%rsi,%rcx,2), %rcx
	leaq	(%rcx,%rcx,4), %rcx
	leaq	(%r8,%rcx,2), %rcx
	movl	$4, %edx
	jmp	.LBB46_1131
.LBB46_1042:
	leaq	(%rcx,%rcx,4), %rcx
	leaq	(%rdx,%rcx,2), %rcx
	movl	$2, %edx
	jmp	.LBB46_1130
.LBB46_1043:
	movq	%rdi, %rbx
	movq	%r10, %r15
	movq	%r10, %rdi
	movq	%rcx, %rsi
	movq	%rcx, %r14
	callq	ic_program.argument.any_number
	movq	%rbx, %rdi
	cmpb	$1, %al
	jne	.LBB46_1153
	movq	%r14, %rsi
	movq	%rdx, %r14
	movq	%r15, %rdi
	callq	ic_program.text.after_word
	movq	%rax, %r10
	testq	%rdx, %rdx
	je	.LBB46_1379
	movzbl	(%r10), %esi
	movq	%rdx, %rcx
	movq	%rbx, %rdi
	movq	%r14, %r11
	cmpb	$32, %sil
	je	.LBB46_1035
.LBB46_1046:
	movq	%r11, %r14
	movq	%rcx, %rsi
	movq	%rdi, %rbx
.LBB46_1047:
	movq	%r10, %rdi
	callq	ic_program.text.without_space
	movq	%rax, %r10
	movq	%rdx, %r9
	movq	%rbx, %rdi
	movq	%r14, %r11
	cmpq	$5, %r9
	jae	.LBB46_1036
	jmp	.LBB46_1136
.LBB46_1048:
	leaq	(%r11,%r11,4), %rdx
	leaq	(%rax,%rdx,2), %rax
	leaq	(%rax,%rax,4), %rax
	movl	%eax, %eax
	leaq	(%rsi,%rax,2), %r11
	movl	$3, %eax
.LBB46_1049:
	movzbl	(%r10,%rax), %esi
	cmpl	$32, %esi
	je	.LBB46_1051
	cmpl	$10, %esi
	jne	.LBB46_1054
.LBB46_1051:
	addq	%rax, %r10
	subq	%rax, %rcx
	cmpb	$10, %sil
	jne	.LBB46_1057
.LBB46_1052:
	incq	%r10
	movq	%rcx, %r9
	decq	%r9
.LBB46_1053:
	movw	$0, 52(%rsp)
	movl	$0, 48(%rsp)
	movl	$1, %eax
	movl	$513, %r13d
	xorl	%r12d, %r12d
	jmp	.LBB46_1150
.LBB46_1054:
	movq	%rdi, %rbx
	movq	%r10, %r15
	movq	%r10, %rdi
	movq	%rcx, %rsi
	movq	%rcx, %r14
	callq	ic_program.argument.any_number
	movq	%rbx, %rdi
	cmpb	$1, %al
	jne	.LBB46_1153
	movq	%r14, %rsi
	movq	%rdx, %r14
	movq	%r15, %rdi
	callq	ic_program.text.after_word
	movq	%rax, %r12
	testq	%rdx, %rdx
	je	.LBB46_1380
	movq	%r12, %r10
	movzbl	(%r12), %esi
	movq	%rdx, %rcx
	movq	%rbx, %rdi
	movq	%r14, %r11
	cmpb	$10, %sil
	je	.LBB46_1052
.LBB46_1057:
	movq	%r10, %r12
	movq	%r11, %r14
	movq	%rcx, %r15
	movq	%rdi, %rbx
.LBB46_1058:
	movq	%r12, %rdi
	movq	%r15, %rsi
	callq	ic_program.text.other_line
	cmpb	$1, %al
	movq	%rbx, %rdi
	jne	.LBB46_1153
	movq	%r12, %r10
	addq	%rdx, %r10
	movq	%r15, %r9
	subq	%rdx, %r9
	movq	%r14, %r11
	jmp	.LBB46_1053
.LBB46_1060:
	leaq	(%r11,%r11,4), %rdx
	leaq	(%rax,%rdx,2), %rax
	leaq	(%rax,%rax,4), %rax
	movl	%eax, %eax
	leaq	(%rsi,%rax,2), %r11
	movl	$3, %eax
.LBB46_1061:
	movzbl	(%r10,%rax), %esi
	cmpl	$32, %esi
	je	.LBB46_1063
	cmpl	$10, %esi
	jne	.LBB46_1072
.LBB46_1063:
	addq	%rax, %r10
	subq	%rax, %rcx
	cmpb	$32, %sil
	jne	.LBB46_1075
.LBB46_1064:
	incq	%r10
	movq	%rcx, %r9
	decq	%r9
	cmpq	$5, %r9
	jb	.LBB46_1152
.LBB46_1065:
	movzbl	(%r10), %eax
	addb	$-48, %al
	cmpb	$9, %al
	ja	.LBB46_1152
	movzbl	%al, %ecx
	movzbl	1(%r10), %eax
	leal	-48(%rax), %esi
	movl	$1, %edx
	cmpb	$9, %sil
	ja	.LBB46_1145
	movq	%r9, %rbx
	movzbl	%sil, %edx
	movzbl	2(%r10), %eax
	leal	-48(%rax), %esi
	cmpb	$9, %sil
	ja	.LBB46_1071
	movzbl	%sil, %esi
	movq	%r10, %r9
	movzbl	3(%r10), %eax
	leal	-48(%rax), %r8d
	cmpb	$10, %r8b
	jae	.LBB46_1143
	movq	%r9, %r10
	movzbl	4(%r9), %eax
	leal	-48(%rax), %r9d
	cmpb	$10, %r9b
	movq	%rbx, %r9
	jb	.LBB46_1152
	movzbl	%r8b, %r8d
	leaq	(%rcx,%rcx,4), %rcx
	leaq	(%rdx,%rcx,2), %rcx
	leaq	(%rcx,%rcx,4), %rcx
	movl	%ecx, %ecx
	leaq	(%rsi,%rcx,2), %rcx
	leaq	(%rcx,%rcx,4), %rcx
	leaq	(%r8,%rcx,2), %rcx
	movl	$4, %edx
	jmp	.LBB46_1145
.LBB46_1071:
	leaq	(%rcx,%rcx,4), %rcx
	leaq	(%rdx,%rcx,2), %rcx
	movl	$2, %edx
	jmp	.LBB46_1144
.LBB46_1072:
	movq	%rdi, %rbx
	movq	%r10, %r15
	movq	%r10, %rdi
	movq	%rcx, %rsi
	movq	%rcx, %r14
	callq	ic_program.argument.any_number
	movq	%rbx, %rdi
	cmpb	$1, %al
	jne	.LBB46_1153
	movq	%r14, %rsi
	movq	%rdx, %r14
	movq	%r15, %rdi
	callq	ic_program.text.after_word
	movq	%rax, %r10
	testq	%rdx, %rdx
	je	.LBB46_1381
	movzbl	(%r10), %esi
	movq	%rdx, %rcx
	movq	%rbx, %rdi
	movq	%r14, %r11
	cmpb	$32, %sil
	je	.LBB46_1064
.LBB46_1075:
	movq	%r11, %r14
	movq	%rcx, %rsi
	movq	%rdi, %rbx
.LBB46_1076:
	movq	%r10, %rdi
	callq	ic_program.text.without_space
	movq	%rax, %r10
	movq	%rdx, %r9
	movq	%rbx, %rdi
	movq	%r14, %r11
	cmpq	$5, %r9
	jae	.LBB46_1065
	jmp	.LBB46_1152
.LBB46_1077:
	leaq	(%r8,%r8,4), %rdx
	leaq	(%rax,%rdx,2), %rdi
	movl	$2, %eax
	jmp	.LBB46_1161
.LBB46_1078:
	leaq	(%r8,%r8,4), %rdx
	leaq	(%rax,%rdx,2), %rdi
	movl	$2, %eax
	jmp	.LBB46_1169
.LBB46_1079:
	leaq	(%r8,%r8,4), %rdx
	leaq	(%rax,%rdx,2), %rdi
	movl	$2, %eax
	jmp	.LBB46_1177
.LBB46_1080:
	leaq	(%r9,%r9,4), %rsi
	leaq	(%rax,%rsi,2), %r8
	movl	$2, %eax
	jmp	.LBB46_1185
.LBB46_1081:
	leaq	(%r8,%r8,4), %rdx
	leaq	(%rax,%rdx,2), %rdi
	movl	$2, %eax
	jmp	.LBB46_1193
.LBB46_1082:
	leaq	(%rsi,%rsi,4), %rsi
	leaq	(%r8,%rsi,2), %rsi
	leaq	(%rsi,%rsi,4), %rsi
	movl	%esi, %esi
	leaq	(%r9,%rsi,2), %rsi
	movl	$3, %r8d
	movq	%r14, %r11
.LBB46_1083:
	cmpb	$32, %al
	je	.LBB46_1085
	movzbl	%al, %r9d
	cmpl	$10, %r9d
	jne	.LBB46_1089
.LBB46_1085:
	movq	%rbp, %r10
	addq	%r8, %r10
	movq	%r12, %r9
	subq	%r8, %r9
	leaq	8(,%rsi,8), %r12
	cmpb	$10, %al
	jne	.LBB46_1317
.LBB46_1086:
	incq	%r10
	decq	%r9
.LBB46_1087:
	movw	$0, 100(%rsp)
	movl	$0, 96(%rsp)
	movl	$514, %r13d
.LBB46_1088:
	movzwl	100(%rsp), %eax
	movw	%ax, 52(%rsp)
	movl	96(%rsp), %eax
	movl	%eax, 48(%rsp)
	movl	$1, %eax
	jmp	.LBB46_1150
.LBB46_1089:
	movq	%r11, 32(%rsp)
	movq	%rdi, %r14
	movq	%rbp, %rdi
	movq	%r12, %rsi
	movq	%rcx, %r13
	movq	%rdx, %r15
	callq	ic_program.argument.any_number
	movq	%r13, %rcx
	movq	%r14, %rdi
	movq	%rdx, 16(%rsp)
	movq	%r15, %rdx
	cmpb	$1, %al
	je	.LBB46_1314
.LBB46_1090:
	cmpq	$18, %rcx
	jb	.LBB46_1153
	movabsq	$8388367032661665139, %rax
	addq	$152240123, %rax
	cmpq	%rax, 8(%rdx)
	jne	.LBB46_1153
	cmpq	%rbx, (%rdx)
	jne	.LBB46_1153
	movabsq	$2335244403114730851, %rax
	addq	$3861, %rax
	cmpq	%rax, 10(%rdx)
	jne	.LBB46_1153
	movq	%rdi, %rbx
	leaq	18(%rdx), %r15
	addq	$-18, %rcx
	cmpq	$5, %rcx
	jb	.LBB46_1264
	movzbl	(%r15), %esi
	addb	$-48, %sil
	cmpb	$9, %sil
	ja	.LBB46_1264
	movq	%r15, %r8
	movq	%rcx, %rax
	movzbl	%sil, %r14d
	movq	%rdx, %rcx
	movzbl	19(%rdx), %esi
	addb	$-48, %sil
	movl	$1, %edx
	cmpb	$9, %sil
	ja	.LBB46_1253
	movzbl	%sil, %edx
	movzbl	20(%rcx), %esi
	addb	$-48, %sil
	cmpb	$9, %sil
	ja	.LBB46_1201
	movzbl	%sil, %esi
	movzbl	21(%rcx), %edi
	addb	$-48, %dil
	cmpb	$10, %dil
	jae	.LBB46_1252
	movzbl	22(%rcx), %ecx
	addb	$-48, %cl
	cmpb	$10, %cl
	movq	%rax, %rcx
	movq	%r8, %r15
	jb	.LBB46_1264
	movzbl	%dil, %ecx
	leaq	(%r14,%r14,4), %rdi
	leaq	(%rdx,%rdi,2), %rdx
	leaq	(%rdx,%rdx,4), %rdx
	movl	%edx, %edx
	leaq	(%rsi,%rdx,2), %rdx
	leaq	(%rdx,%rdx,4), %rdx
	leaq	(%rcx,%rdx,2), %r14
	movl	$4, %edx
	jmp	.LBB46_1253
.LBB46_1101:
	leaq	(%rcx,%rcx,4), %rcx
	leaq	(%rdx,%rcx,2), %rcx
	leaq	(%rcx,%rcx,4), %rcx
	movl	%ecx, %ecx
	leaq	(%rsi,%rcx,2), %rcx
	movl	$3, %edx
	movq	%r9, %r10
.LBB46_1102:
	movq	%rbx, %r9
.LBB46_1103:
	cmpb	$32, %al
	je	.LBB46_1105
	movzbl	%al, %esi
	cmpl	$10, %esi
	jne	.LBB46_1108
.LBB46_1105:
	addq	%rdx, %r10
	subq	%rdx, %r9
	leaq	8(,%rcx,8), %r12
	cmpb	$10, %al
	jne	.LBB46_1112
.LBB46_1106:
	incq	%r10
	decq	%r9
.LBB46_1107:
	movw	$0, 52(%rsp)
	movl	$0, 48(%rsp)
	movl	$1, %eax
	xorl	%r13d, %r13d
	jmp	.LBB46_1150
.LBB46_1108:
	movq	%r11, %r14
	movq	%rdi, %rbx
	movq	%r10, %r15
	movq	%r10, %rdi
	movq	%r9, %r13
	movq	%r9, %rsi
	callq	ic_program.argument.any_number
	movq	%rbx, %rdi
	cmpb	$1, %al
	jne	.LBB46_1153
	movq	%rdx, %r12
	movq	%r15, %rdi
	movq	%r13, %rsi
	callq	ic_program.text.after_word
	movq	%rbx, %rdi
	movq	%rax, %r15
	movq	%r12, %rax
	shrq	$32, %rax
	jne	.LBB46_1153
	leaq	8(,%r12,8), %r12
	testq	%rdx, %rdx
	je	.LBB46_1393
	movq	%r15, %r10
	movzbl	(%r15), %eax
	movq	%rbx, %rdi
	movq	%r14, %r11
	movq	%rdx, %r9
	cmpb	$10, %al
	je	.LBB46_1106
.LBB46_1112:
	movq	%r9, %r13
	movq	%r10, %r15
	movq	%r11, %r14
	movq	%rdi, %rbx
.LBB46_1113:
	movq	%r15, %rdi
	movq	%r13, %rsi
	callq	ic_program.text.other_line
	cmpb	$1, %al
	movq	%rbx, %rdi
	jne	.LBB46_1153
	movq	%r15, %r10
	addq	%rdx, %r10
	movq	%r13, %r9
	subq	%rdx, %r9
	movq	%r14, %r11
	jmp	.LBB46_1107
.LBB46_1115:
	leaq	(%rcx,%rcx,4), %rcx
	leaq	(%rdx,%rcx,2), %rcx
	leaq	(%rcx,%rcx,4), %rcx
	movl	%ecx, %ecx
	leaq	(%rsi,%rcx,2), %rcx
	movl	$3, %edx
	movq	%r9, %r10
.LBB46_1116:
	movq	%rbx, %r9
.LBB46_1117:
	cmpb	$32, %al
	je	.LBB46_1119
	movzbl	%al, %esi
	cmpl	$10, %esi
	jne	.LBB46_1122
.LBB46_1119:
	addq	%rdx, %r10
	subq	%rdx, %r9
	leaq	8(,%rcx,8), %r12
	cmpb	$10, %al
	jne	.LBB46_1126
.LBB46_1120:
	incq	%r10
	decq	%r9
.LBB46_1121:
	movw	$0, 52(%rsp)
	movl	$0, 48(%rsp)
	movl	$1, %eax
	movl	$512, %r13d
	jmp	.LBB46_1150
.LBB46_1122:
	movq	%r11, %r14
	movq	%rdi, %rbx
	movq	%r10, %r15
	movq	%r10, %rdi
	movq	%r9, %r13
	movq	%r9, %rsi
	callq	ic_program.argument.any_number
	movq	%rbx, %rdi
	cmpb	$1, %al
	jne	.LBB46_1153
	movq	%rdx, %r12
	movq	%r15, %rdi
	movq	%r13, %rsi
	callq	ic_program.text.after_word
	movq	%rbx, %rdi
	movq	%rax, %r15
	movq	%r12, %rax
	shrq	$32, %rax
	jne	.LBB46_1153
	leaq	8(,%r12,8), %r12
	testq	%rdx, %rdx
	je	.LBB46_1394
	movq	%r15, %r10
	movzbl	(%r15), %eax
	movq	%rbx, %rdi
	movq	%r14, %r11
	movq	%rdx, %r9
	cmpb	$10, %al
	je	.LBB46_1120
.LBB46_1126:
	movq	%r9, %r13
	movq	%r10, %r15
	movq	%r11, %r14
	movq	%rdi, %rbx
.LBB46_1127:
	movq	%r15, %rdi
	movq	%r13, %rsi
	callq	ic_program.text.other_line
	cmpb	$1, %al
	movq	%rbx, %rdi
	jne	.LBB46_1153
	movq	%r15, %r10
	addq	%rdx, %r10
	movq	%r13, %r9
	subq	%rdx, %r9
	movq	%r14, %r11
	jmp	.LBB46_1121
.LBB46_1129:
	leaq	(%rcx,%rcx,4), %rcx
	leaq	(%rdx,%rcx,2), %rcx
	leaq	(%rcx,%rcx,4), %rcx
	movl	%ecx, %ecx
	leaq	(%rsi,%rcx,2), %rcx
	movl	$3, %edx
	movq	%r9, %r10
.LBB46_1130:
	movq	%rbx, %r9
.LBB46_1131:
	cmpb	$32, %al
	je	.LBB46_1133
	movzbl	%al, %esi
	cmpl	$10, %esi
	jne	.LBB46_1136
.LBB46_1133:
	addq	%rdx, %r10
	subq	%rdx, %r9
	leaq	8(,%rcx,8), %r12
	cmpb	$10, %al
	jne	.LBB46_1140
.LBB46_1134:
	incq	%r10
	decq	%r9
.LBB46_1135:
	movw	$0, 52(%rsp)
	movl	$0, 48(%rsp)
	movl	$1, %eax
	movl	$768, %r13d
	jmp	.LBB46_1150
.LBB46_1136:
	movq	%r11, %r14
	movq	%rdi, %rbx
	movq	%r10, %r15
	movq	%r10, %rdi
	movq	%r9, %r13
	movq	%r9, %rsi
	callq	ic_program.argument.any_number
	movq	%rbx, %rdi
	cmpb	$1, %al
	jne	.LBB46_1153
	movq	%rdx, %r12
	movq	%r15, %rdi
	movq	%r13, %rsi
	callq	ic_program.text.after_word
	movq	%rbx, %rdi
	movq	%rax, %r15
	movq	%r12, %rax
	shrq	$32, %rax
	jne	.LBB46_1153
	leaq	8(,%r12,8), %r12
	testq	%rdx, %rdx
	je	.LBB46_1395
	movq	%r15, %r10
	movzbl	(%r15), %eax
	movq	%rbx, %rdi
	movq	%r14, %r11
	movq	%rdx, %r9
	cmpb	$10, %al
	je	.LBB46_1134
.LBB46_1140:
	movq	%r9, %r13
	movq	%r10, %r15
	movq	%r11, %r14
	movq	%rdi, %rbx
.LBB46_1141:
	movq	%r15, %rdi
	movq	%r13, %rsi
	callq	ic_program.text.other_line
	cmpb	$1, %al
	movq	%rbx, %rdi
	jne	.LBB46_1153
	movq	%r15, %r10
	addq	%rdx, %r10
	movq	%r13, %r9
	subq	%rdx, %r9
	movq	%r14, %r11
	jmp	.LBB46_1135
.LBB46_1143:
	leaq	(%rcx,%rcx,4), %rcx
	leaq	(%rdx,%rcx,2), %rcx
	leaq	(%rcx,%rcx,4), %rcx
	movl	%ecx, %ecx
	leaq	(%rsi,%rcx,2), %rcx
	movl	$3, %edx
	movq	%r9, %r10
.LBB46_1144:
	movq	%rbx, %r9
.LBB46_1145:
	cmpb	$32, %al
	je	.LBB46_1147
	movzbl	%al, %esi
	cmpl	$10, %esi
	jne	.LBB46_1152
.LBB46_1147:
	addq	%rdx, %r10
	subq	%rdx, %r9
	leaq	8(,%rcx,8), %r12
	cmpb	$10, %al
	jne	.LBB46_1323
.LBB46_1148:
	incq	%r10
	decq	%r9
.LBB46_1149:
	movw	$0, 52(%rsp)
	movl	$0, 48(%rsp)
	movl	$1, %eax
	movl	$256, %r13d
.LBB46_1150:
	xorl	%r8d, %r8d
.LBB46_1151:
	movzwl	52(%rsp), %ecx
	movw	%cx, 12(%rsp)
	movl	48(%rsp), %ecx
	movl	%ecx, 8(%rsp)
	jmp	.LBB46_1154
.LBB46_1152:
	movq	%r11, %r14
	movq	%rdi, %rbx
	movq	%r10, %r15
	movq	%r10, %rdi
	movq	%r9, %r13
	movq	%r9, %rsi
	callq	ic_program.argument.any_number
	movq	%rbx, %rdi
	cmpb	$1, %al
	je	.LBB46_1320
.LBB46_1153:
	movw	$0, 12(%rsp)
	movl	$0, 8(%rsp)
	xorl	%eax, %eax
	xorl	%r8d, %r8d
	xorl	%r11d, %r11d
	xorl	%r13d, %r13d
	xorl	%r12d, %r12d
	xorl	%r10d, %r10d
	xorl	%r9d, %r9d
.LBB46_1154:
	xorl	%ebx, %ebx
.LBB46_1155:
	xorl	%ebp, %ebp
.LBB46_1156:
	xorl	%r15d, %r15d
	xorl	%r14d, %r14d
.LBB46_1157:
	movq	%rax, (%rdi)
	movb	%r8b, 8(%rdi)
	movb	%bl, 9(%rdi)
	movl	8(%rsp), %eax
	movl	%eax, 10(%rdi)
	movzwl	12(%rsp), %eax
	movw	%ax, 14(%rdi)
	movq	%r11, 16(%rdi)
	movq	%r13, 24(%rdi)
	movq	%r12, 32(%rdi)
	movq	%rbp, 40(%rdi)
	movq	%r15, 48(%rdi)
	movq	%r14, 56(%rdi)
	movq	%r10, 64(%rdi)
	movq	%r9, 72(%rdi)
	jmp	.LBB46_1249
.LBB46_1158:
	movq	%r10, %r15
	movq	%r10, %rdi
	movq	%r9, %r12
	movq	%r9, %rsi
	callq	ic_program.text.other_line
	movq	%r14, %rdi
	cmpb	$1, %al
	jne	.LBB46_1247
	movq	%r15, %r10
	addq	%rdx, %r10
	movq	%r12, %r9
	subq	%rdx, %r9
	jmp	.LBB46_68
.LBB46_1160:
	leaq	(%r8,%r8,4), %rsi
	leaq	(%rax,%rsi,2), %rax
	leaq	(%rax,%rax,4), %rax
	movl	%eax, %eax
	leaq	(%rdx,%rax,2), %rdi
	movl	$3, %eax
.LBB46_1161:
	movzbl	(%r14,%rax), %edx
	cmpl	$32, %edx
	je	.LBB46_1163
	cmpl	$10, %edx
	jne	.LBB46_1165
.LBB46_1163:
	movq	%rdi, 32(%rsp)
	addq	%rax, %r14
	subq	%rax, %rcx
	movq	%rcx, %rsi
	cmpb	$32, %dl
	jne	.LBB46_1203
.LBB46_1164:
	incq	%r14
	movq	%rsi, %rdx
	decq	%rdx
	jmp	.LBB46_1204
.LBB46_1165:
	movq	%r14, %rdi
	movq	%rcx, %rsi
	movq	%rcx, %rbx
	callq	ic_program.argument.any_number
	cmpb	$1, %al
	movq	16(%rsp), %rdi
	xorps	%xmm0, %xmm0
	jne	.LBB46_1248
	movq	%rbx, %rsi
	movq	%rdx, 32(%rsp)
	movq	%r14, %rdi
	callq	ic_program.text.after_word
	movq	%rax, %r14
	testq	%rdx, %rdx
	jne	.LBB46_1202
	xorl	%esi, %esi
	jmp	.LBB46_1203
.LBB46_1168:
	leaq	(%r8,%r8,4), %rsi
	leaq	(%rax,%rsi,2), %rax
	leaq	(%rax,%rax,4), %rax
	movl	%eax, %eax
	leaq	(%rdx,%rax,2), %rdi
	movl	$3, %eax
.LBB46_1169:
	movzbl	(%r14,%rax), %edx
	cmpl	$32, %edx
	je	.LBB46_1171
	cmpl	$10, %edx
	jne	.LBB46_1173
.LBB46_1171:
	movq	%rdi, 32(%rsp)
	addq	%rax, %r14
	subq	%rax, %rcx
	movq	%rcx, %rsi
	cmpb	$32, %dl
	jne	.LBB46_1209
.LBB46_1172:
	incq	%r14
	movq	%rsi, %rdx
	decq	%rdx
	jmp	.LBB46_1210
.LBB46_1173:
	movq	%r14, %rdi
	movq	%rcx, %rsi
	movq	%rcx, %rbx
	callq	ic_program.argument.any_number
	cmpb	$1, %al
	movq	16(%rsp), %rdi
	jne	.LBB46_1247
	movq	%rbx, %rsi
	movq	%rdx, 32(%rsp)
	movq	%r14, %rdi
	callq	ic_program.text.after_word
	movq	%rax, %r14
	testq	%rdx, %rdx
	jne	.LBB46_1208
	xorl	%esi, %esi
	jmp	.LBB46_1209
.LBB46_1176:
	leaq	(%r8,%r8,4), %rsi
	leaq	(%rax,%rsi,2), %rax
	leaq	(%rax,%rax,4), %rax
	movl	%eax, %eax
	leaq	(%rdx,%rax,2), %rdi
	movl	$3, %eax
.LBB46_1177:
	movzbl	(%r14,%rax), %edx
	cmpl	$32, %edx
	je	.LBB46_1179
	cmpl	$10, %edx
	jne	.LBB46_1181
.LBB46_1179:
	movq	%rdi, 32(%rsp)
	addq	%rax, %r14
	subq	%rax, %rcx
	movq	%rcx, %rsi
	cmpb	$32, %dl
	jne	.LBB46_1216
.LBB46_1180:
	incq	%r14
	movq	%rsi, %rdx
	decq	%rdx
	jmp	.LBB46_1217
.LBB46_1181:
	movq	%r14, %rdi
	movq	%rcx, %rsi
	movq	%rcx, %rbx
	callq	ic_program.argument.any_number
	cmpb	$1, %al
	movq	16(%rsp), %rdi
	xorps	%xmm0, %xmm0
	jne	.LBB46_1248
	movq	%rbx, %rsi
	movq	%rdx, 32(%rsp)
	movq	%r14, %rdi
	callq	ic_program.text.after_word
	movq	%rax, %r14
	testq	%rdx, %rdx
	jne	.LBB46_1215
	xorl	%esi, %esi
	jmp	.LBB46_1216
.LBB46_1184:
	leaq	(%r9,%r9,4), %rdx
	leaq	(%rax,%rdx,2), %rax
	leaq	(%rax,%rax,4), %rax
	movl	%eax, %eax
	leaq	(%rsi,%rax,2), %r8
	movl	$3, %eax
	movq	%rdi, %rdx
.LBB46_1185:
	movzbl	(%r14,%rax), %esi
	cmpl	$32, %esi
	je	.LBB46_1187
	cmpl	$10, %esi
	jne	.LBB46_1189
.LBB46_1187:
	movq	%r8, 32(%rsp)
	movq	%rdx, %rbx
	movq	%rcx, %r12
	addq	%rax, %r14
	subq	%rax, %r15
	cmpb	$32, %sil
	jne	.LBB46_1224
.LBB46_1188:
	incq	%r14
	decq	%r15
	jmp	.LBB46_1225
.LBB46_1189:
	movq	%r14, %rdi
	movq	%r15, %rsi
	movq	%rcx, %r12
	movq	%rdx, %rbx
	callq	ic_program.argument.any_number
	movq	%r12, %rcx
	movq	%rdx, %rsi
	movq	%rbx, %rdx
	cmpb	$1, %al
	movq	16(%rsp), %rdi
	jne	.LBB46_221
	movq	%rsi, 32(%rsp)
	movq	%r14, %rdi
	movq	%r15, %rsi
	callq	ic_program.text.after_word
	movq	%rax, %r14
	testq	%rdx, %rdx
	jne	.LBB46_1223
	xorl	%r15d, %r15d
	jmp	.LBB46_1224
.LBB46_1192:
	leaq	(%r8,%r8,4), %rsi
	leaq	(%rax,%rsi,2), %rax
	leaq	(%rax,%rax,4), %rax
	movl	%eax, %eax
	leaq	(%rdx,%rax,2), %rdi
	movl	$3, %eax
.LBB46_1193:
	movzbl	(%r14,%rax), %edx
	cmpl	$32, %edx
	je	.LBB46_1195
	cmpl	$10, %edx
	jne	.LBB46_1197
.LBB46_1195:
	movq	%rdi, 32(%rsp)
	addq	%rax, %r14
	subq	%rax, %rcx
	movq	%rcx, %rsi
	cmpb	$32, %dl
	jne	.LBB46_1233
.LBB46_1196:
	incq	%r14
	movq	%rsi, %rdx
	decq	%rdx
	jmp	.LBB46_1234
.LBB46_1197:
	movq	%r14, %rdi
	movq	%rcx, %rsi
	movq	%rcx, %rbx
	callq	ic_program.argument.any_number
	cmpb	$1, %al
	movq	16(%rsp), %rdi
	xorps	%xmm0, %xmm0
	jne	.LBB46_1248
	movq	%rbx, %rsi
	movq	%rdx, 32(%rsp)
	movq	%r14, %rdi
	callq	ic_program.text.after_word
	movq	%rax, %r14
	testq	%rdx, %rdx
	jne	.LBB46_1232
	xorl	%esi, %esi
	jmp	.LBB46_1233
.LBB46_1200:
	movq	32(%rsp), %rcx
	leaq	(%rcx,%rcx,4), %rcx
	leaq	(%rdx,%rcx,2), %rcx
	movq	%rcx, 32(%rsp)
	movl	$2, %edx
	jmp	.LBB46_1242
.LBB46_1201:
	leaq	(%r14,%r14,4), %rcx
	leaq	(%rdx,%rcx,2), %r14
	movl	$2, %edx
	jmp	.LBB46_1253
.LBB46_1202:
	movq	%rdx, %rsi
	movzbl	(%r14), %edx
	cmpb	$32, %dl
	je	.LBB46_1164
.LBB46_1203:
	movq	%r14, %rdi
	callq	ic_program.text.without_space
	movq	%rax, %r14
.LBB46_1204:
	leaq	48(%rsp), %rdi
	movq	%r14, %rsi
	callq	ic_program.argument.BoundU64Argument.read
	cmpb	$1, 48(%rsp)
	movq	16(%rsp), %rdi
	xorps	%xmm0, %xmm0
	jne	.LBB46_1248
	movq	64(%rsp), %r12
	movzbl	56(%rsp), %r13d
	movq	72(%rsp), %rsi
	movq	80(%rsp), %rdx
	testq	%rdx, %rdx
	je	.LBB46_1289
	cmpb	$32, (%rsi)
	jne	.LBB46_1289
	incq	%rsi
	decq	%rdx
	jmp	.LBB46_1290
.LBB46_1208:
	movq	%rdx, %rsi
	movzbl	(%r14), %edx
	cmpb	$32, %dl
	je	.LBB46_1172
.LBB46_1209:
	movq	%r14, %rdi
	callq	ic_program.text.without_space
	movq	%rax, %r14
.LBB46_1210:
	leaq	48(%rsp), %rdi
	movq	%r14, %rsi
	callq	ic_program.argument.KindArgument.read
	cmpb	$1, 48(%rsp)
	movq	16(%rsp), %rdi
	jne	.LBB46_1247
	movzbl	56(%rsp), %r13d
	movq	64(%rsp), %rdi
	movq	72(%rsp), %rax
	movq	%rax, 40(%rsp)
	testq	%rax, %rax
	je	.LBB46_1283
	cmpb	$10, (%rdi)
	jne	.LBB46_1283
	incq	%rdi
	movq	%rdi, 24(%rsp)
	decq	40(%rsp)
.LBB46_1214:
	movl	$0, 8(%rsp)
	movw	$0, 12(%rsp)
	movb	$5, %r8b
	movl	$1, %eax
	xorl	%ebx, %ebx
	xorl	%r12d, %r12d
	xorl	%ebp, %ebp
	xorl	%r15d, %r15d
	jmp	.LBB46_1239
.LBB46_1215:
	movq	%rdx, %rsi
	movzbl	(%r14), %edx
	cmpb	$32, %dl
	je	.LBB46_1180
.LBB46_1216:
	movq	%r14, %rdi
	callq	ic_program.text.without_space
	movq	%rax, %r14
.LBB46_1217:
	leaq	48(%rsp), %rdi
	movq	%r14, %rsi
	callq	ic_program.argument.BoundU64Argument.read
	cmpb	$1, 48(%rsp)
	movq	16(%rsp), %rdi
	xorps	%xmm0, %xmm0
	jne	.LBB46_1248
	movzbl	56(%rsp), %ebp
	movq	64(%rsp), %r15
	movq	72(%rsp), %rdi
	movq	80(%rsp), %rax
	movq	%rax, 40(%rsp)
	testq	%rax, %rax
	je	.LBB46_1285
	cmpb	$10, (%rdi)
	jne	.LBB46_1285
	incq	%rdi
	movq	%rdi, 24(%rsp)
	decq	40(%rsp)
.LBB46_1221:
	movl	$0, 8(%rsp)
	movw	$0, 12(%rsp)
	movl	$2, %r12d
	movl	$6, %r13d
	movl	$1, %eax
	xorl	%r8d, %r8d
.LBB46_1222:
	xorl	%ebx, %ebx
	jmp	.LBB46_1239
.LBB46_1223:
	movq	%rdx, %r15
	movzbl	(%r14), %esi
	cmpb	$32, %sil
	je	.LBB46_1188
.LBB46_1224:
	movq	%r14, %rdi
	movq	%r15, %rsi
	callq	ic_program.text.without_space
	movq	%rax, %r14
	movq	%rdx, %r15
.LBB46_1225:
	cmpq	$5, %r15
	jb	.LBB46_1303
	movzbl	(%r14), %eax
	addb	$-48, %al
	cmpb	$9, %al
	ja	.LBB46_1303
	movzbl	%al, %eax
	movzbl	1(%r14), %ecx
	leal	-48(%rcx), %esi
	movl	$1, %edx
	cmpb	$9, %sil
	ja	.LBB46_1298
	movzbl	%sil, %edx
	movzbl	2(%r14), %ecx
	leal	-48(%rcx), %esi
	cmpb	$9, %sil
	ja	.LBB46_1267
	movzbl	%sil, %esi
	movzbl	3(%r14), %ecx
	leal	-48(%rcx), %edi
	cmpb	$10, %dil
	jae	.LBB46_1297
	movzbl	4(%r14), %ecx
	leal	-48(%rcx), %r8d
	cmpb	$10, %r8b
	jb	.LBB46_1303
	movzbl	%dil, %edi
	leaq	(%rax,%rax,4), %rax
	leaq	(%rdx,%rax,2), %rax
	leaq	(%rax,%rax,4), %rax
	movl	%eax, %eax
	leaq	(%rsi,%rax,2), %rax
	leaq	(%rax,%rax,4), %rax
	leaq	(%rdi,%rax,2), %rax
	movl	$4, %edx
	jmp	.LBB46_1298
.LBB46_1232:
	movq	%rdx, %rsi
	movzbl	(%r14), %edx
	cmpb	$32, %dl
	je	.LBB46_1196
.LBB46_1233:
	movq	%r14, %rdi
	callq	ic_program.text.without_space
	movq	%rax, %r14
.LBB46_1234:
	leaq	48(%rsp), %rdi
	movq	%r14, %rsi
	callq	ic_program.argument.BoundU64Argument.read
	cmpb	$1, 48(%rsp)
	movq	16(%rsp), %rdi
	xorps	%xmm0, %xmm0
	jne	.LBB46_1248
	movzbl	56(%rsp), %ebp
	movq	64(%rsp), %r15
	movq	72(%rsp), %rdi
	movq	80(%rsp), %rax
	movq	%rax, 40(%rsp)
	testq	%rax, %rax
	je	.LBB46_1287
	cmpb	$10, (%rdi)
	jne	.LBB46_1287
	incq	%rdi
	movq	%rdi, 24(%rsp)
	decq	40(%rsp)
.LBB46_1238:
	movl	$0, 8(%rsp)
	movw	$0, 12(%rsp)
	movl	$6, %r13d
	movl	$1, %eax
	xorl	%r8d, %r8d
	xorl	%ebx, %ebx
	movl	$1, %r12d
.LBB46_1239:
	xorl	%r14d, %r14d
.LBB46_1240:
	movq	16(%rsp), %rdi
	movq	32(%rsp), %r11
	movq	24(%rsp), %r10
	movq	40(%rsp), %r9
	jmp	.LBB46_1157
.LBB46_1241:
	movq	32(%rsp), %rcx
	leaq	(%rcx,%rcx,4), %rcx
	leaq	(%rdx,%rcx,2), %rcx
	leaq	(%rcx,%rcx,4), %rcx
	movl	%ecx, %ecx
	leaq	(%rsi,%rcx,2), %rcx
	movq	%rcx, 32(%rsp)
	movl	$3, %edx
.LBB46_1242:
	movzbl	(%r14,%rdx), %esi
	cmpl	$32, %esi
	movq	%rax, %rcx
	je	.LBB46_1244
	cmpl	$10, %esi
	jne	.LBB46_1246
.LBB46_1244:
	addq	%rdx, %r14
	subq	%rdx, %rcx
	movq	%rcx, %r15
	cmpb	$32, %sil
	jne	.LBB46_1269
.LBB46_1245:
	incq	%r14
	decq	%r15
	jmp	.LBB46_1270
.LBB46_1246:
	movq	%r14, %rdi
	movq	%rcx, %rsi
	movq	%rcx, %rbx
	callq	ic_program.argument.any_number
	cmpb	$1, %al
	movq	16(%rsp), %rdi
	je	.LBB46_1250
.LBB46_1247:
	xorps	%xmm0, %xmm0
.LBB46_1248:
	movups	%xmm0, 64(%rdi)
	movups	%xmm0, 48(%rdi)
	movups	%xmm0, 32(%rdi)
	movups	%xmm0, 16(%rdi)
	movups	%xmm0, (%rdi)
.LBB46_1249:
	addq	$136, %rsp
	popq	%rbx
	popq	%r12
	popq	%r13
	popq	%r14
	popq	%r15
	popq	%rbp
	retq
.LBB46_1250:
	movq	%rbx, %rsi
	movq	%rdx, 32(%rsp)
	movq	%r14, %rdi
	callq	ic_program.text.after_word
	movq	%rax, %r14
	testq	%rdx, %rdx
	jne	.LBB46_1268
	xorl	%r15d, %r15d
	jmp	.LBB46_1269
.LBB46_1252:
	leaq	(%r14,%r14,4), %rcx
	leaq	(%rdx,%rcx,2), %rcx
	leaq	(%rcx,%rcx,4), %rcx
	movl	%ecx, %ecx
	leaq	(%rsi,%rcx,2), %r14
	movl	$3, %edx
.LBB46_1253:
	movq	%r8, %r15
	movzbl	(%r8,%rdx), %edi
	cmpl	$32, %edi
	movq	%rax, %rcx
	je	.LBB46_1255
	cmpl	$10, %edi
	jne	.LBB46_1264
.LBB46_1255:
	addq	%rdx, %r15
	subq	%rdx, %rcx
	movq	%rcx, %rbp
	cmpb	$32, %dil
	jne	.LBB46_1398
.LBB46_1256:
	incq	%r15
	decq	%rbp
	cmpq	$5, %rbp
	movq	%r15, %rdi
	jb	.LBB46_1399
.LBB46_1257:
	movzbl	(%rdi), %eax
	addb	$-48, %al
	cmpb	$9, %al
	ja	.LBB46_1399
	movzbl	%al, %ecx
	movzbl	1(%rdi), %eax
	leal	-48(%rax), %esi
	movl	$1, %edx
	cmpb	$9, %sil
	ja	.LBB46_1278
	movzbl	%sil, %edx
	movzbl	2(%r15), %eax
	leal	-48(%rax), %esi
	cmpb	$9, %sil
	ja	.LBB46_1263
	movzbl	%sil, %esi
	movzbl	3(%r15), %eax
	leal	-48(%rax), %r9d
	cmpb	$10, %r9b
	jae	.LBB46_1277
	movq	%r15, %rdi
	movzbl	4(%r15), %eax
	leal	-48(%rax), %r8d
	cmpb	$10, %r8b
	jb	.LBB46_1399
	movzbl	%r9b, %edi
	leaq	(%rcx,%rcx,4), %rcx
	leaq	(%rdx,%rcx,2), %rcx
	leaq	(%rcx,%rcx,4), %rcx
	movl	%ecx, %ecx
	leaq	(%rsi,%rcx,2), %rcx
	leaq	(%rcx,%rcx,4), %rcx
	leaq	(%rdi,%rcx,2), %rcx
	movl	$4, %edx
	jmp	.LBB46_1278
.LBB46_1263:
	leaq	(%rcx,%rcx,4), %rcx
	leaq	(%rdx,%rcx,2), %rcx
	movl	$2, %edx
	jmp	.LBB46_1278
.LBB46_1264:
	movq	%r15, %r12
	movq	%r15, %rdi
	movq	%rcx, %rsi
	movq	%rcx, %r14
	callq	ic_program.argument.any_number
	cmpb	$1, %al
	movq	%rbx, %rdi
	jne	.LBB46_1153
	movq	%r14, %rsi
	movq	%rdx, %r14
	movq	%r12, %rdi
	callq	ic_program.text.after_word
	movq	%rax, %r15
	testq	%rdx, %rdx
	je	.LBB46_1397
	movzbl	(%r15), %edi
	movq	%rdx, %rbp
	cmpb	$32, %dil
	je	.LBB46_1256
	jmp	.LBB46_1398
.LBB46_1267:
	leaq	(%rax,%rax,4), %rax
	leaq	(%rdx,%rax,2), %rax
	movl	$2, %edx
	jmp	.LBB46_1298
.LBB46_1268:
	movq	%rdx, %r15
	movzbl	(%r14), %esi
	cmpb	$32, %sil
	je	.LBB46_1245
.LBB46_1269:
	movq	%r14, %rdi
	movq	%r15, %rsi
	callq	ic_program.text.without_space
	movq	%rax, %r14
	movq	%rdx, %r15
.LBB46_1270:
	cmpq	$5, %r15
	jb	.LBB46_1353
	movzbl	(%r14), %eax
	addb	$-48, %al
	cmpb	$9, %al
	ja	.LBB46_1353
	movzbl	%al, %eax
	movzbl	1(%r14), %ecx
	leal	-48(%rcx), %edi
	movl	$1, %esi
	cmpb	$9, %dil
	ja	.LBB46_1349
	movzbl	%dil, %esi
	movzbl	2(%r14), %ecx
	leal	-48(%rcx), %edi
	cmpb	$9, %dil
	ja	.LBB46_1313
	movzbl	%dil, %edi
	movzbl	3(%r14), %ecx
	leal	-48(%rcx), %r8d
	cmpb	$10, %r8b
	jae	.LBB46_1348
	movzbl	4(%r14), %ecx
	leal	-48(%rcx), %r9d
	cmpb	$10, %r9b
	jb	.LBB46_1353
	movzbl	%r8b, %r8d
	leaq	(%rax,%rax,4), %rax
	leaq	(%rsi,%rax,2), %rax
	leaq	(%rax,%rax,4), %rax
	movl	%eax, %eax
	leaq	(%rdi,%rax,2), %rax
	leaq	(%rax,%rax,4), %rax
	leaq	(%r8,%rax,2), %rax
	movl	$4, %esi
	jmp	.LBB46_1349
.LBB46_1277:
	leaq	(%rcx,%rcx,4), %rcx
	leaq	(%rdx,%rcx,2), %rcx
	leaq	(%rcx,%rcx,4), %rcx
	movl	%ecx, %ecx
	leaq	(%rsi,%rcx,2), %rcx
	movl	$3, %edx
.LBB46_1278:
	cmpb	$32, %al
	movq	%r15, %rdi
	je	.LBB46_1280
	movzbl	%al, %esi
	cmpl	$10, %esi
	jne	.LBB46_1399
.LBB46_1280:
	addq	%rdx, %rdi
	movq	%rdi, %r15
	subq	%rdx, %rbp
	leaq	8(,%rcx,8), %r12
	cmpb	$10, %al
	jne	.LBB46_1404
.LBB46_1281:
	incq	%r15
	decq	%rbp
.LBB46_1282:
	movw	$0, 100(%rsp)
	movl	$0, 96(%rsp)
	movl	$770, %r13d
	movq	%rbx, %rdi
	movq	%r14, %r11
	movq	%r15, %r10
	movq	%rbp, %r9
	jmp	.LBB46_1088
.LBB46_1283:
	movq	%rdi, 24(%rsp)
	movq	40(%rsp), %rsi
	callq	ic_program.text.other_line
	cmpb	$1, %al
	movq	16(%rsp), %rdi
	jne	.LBB46_1247
	addq	%rdx, 24(%rsp)
	subq	%rdx, 40(%rsp)
	jmp	.LBB46_1214
.LBB46_1285:
	movq	%rdi, 24(%rsp)
	movq	40(%rsp), %rsi
	callq	ic_program.text.other_line
	cmpb	$1, %al
	movq	16(%rsp), %rdi
	xorps	%xmm0, %xmm0
	jne	.LBB46_1248
	addq	%rdx, 24(%rsp)
	subq	%rdx, 40(%rsp)
	jmp	.LBB46_1221
.LBB46_1287:
	movq	%rdi, 24(%rsp)
	movq	40(%rsp), %rsi
	callq	ic_program.text.other_line
	cmpb	$1, %al
	movq	16(%rsp), %rdi
	xorps	%xmm0, %xmm0
	jne	.LBB46_1248
	addq	%rdx, 24(%rsp)
	subq	%rdx, 40(%rsp)
	jmp	.LBB46_1238
.LBB46_1289:
	movq	%rsi, %rdi
	movq	%rdx, %rsi
	callq	ic_program.text.without_space
	movq	%rax, %rsi
.LBB46_1290:
	leaq	96(%rsp), %rdi
	callq	ic_program.argument.BoundU64Argument.read
	cmpb	$1, 96(%rsp)
	movq	16(%rsp), %rdi
	xorps	%xmm0, %xmm0
	jne	.LBB46_1248
	movzbl	104(%rsp), %ebp
	movq	112(%rsp), %r15
	movq	120(%rsp), %rax
	movq	%rax, 24(%rsp)
	movq	128(%rsp), %rax
	movq	%rax, 40(%rsp)
	testq	%rax, %rax
	je	.LBB46_1367
	movq	24(%rsp), %rax
	cmpb	$10, (%rax)
	jne	.LBB46_1367
	incq	24(%rsp)
	decq	40(%rsp)
.LBB46_1294:
	movl	$0, 8(%rsp)
	movw	$0, 12(%rsp)
	movb	$16, %r8b
	movl	$1, %eax
	jmp	.LBB46_1222
.LBB46_1295:
	xorl	%ecx, %ecx
	jmp	.LBB46_415
.LBB46_1296:
	xorl	%ecx, %ecx
	jmp	.LBB46_440
.LBB46_1297:
	leaq	(%rax,%rax,4), %rax
	leaq	(%rdx,%rax,2), %rax
	leaq	(%rax,%rax,4), %rax
	movl	%eax, %eax
	leaq	(%rsi,%rax,2), %rax
	movl	$3, %edx
.LBB46_1298:
	cmpb	$32, %cl
	je	.LBB46_1300
	movzbl	%cl, %ecx
	cmpl	$10, %ecx
	jne	.LBB46_1303
.LBB46_1300:
	addq	%rdx, %r14
	subq	%rdx, %r15
	leaq	8(,%rax,8), %rbp
.LBB46_1301:
	cmpb	$32, (%r14)
	jne	.LBB46_1307
	incq	%r14
	decq	%r15
	jmp	.LBB46_1308
.LBB46_1303:
	movq	%r14, %rdi
	movq	%r15, %rsi
	callq	ic_program.argument.any_number
	movq	%rdx, %rbp
	cmpb	$1, %al
	movq	16(%rsp), %rdi
	movq	%r12, %rcx
	movq	%rbx, %rdx
	jne	.LBB46_221
	movq	%r14, %rdi
	movq	%r15, %rsi
	movq	%rcx, %r12
	movq	%rdx, %rbx
	callq	ic_program.text.after_word
	movq	%r12, %rcx
	movq	16(%rsp), %rdi
	movq	%rax, %r14
	movq	%rdx, %r15
	movq	%rbx, %rdx
	movq	%rbp, %rax
	shrq	$32, %rax
	jne	.LBB46_221
	leaq	8(,%rbp,8), %rbp
	testq	%r15, %r15
	jne	.LBB46_1301
	xorl	%r15d, %r15d
.LBB46_1307:
	movq	%r14, %rdi
	movq	%r15, %rsi
	callq	ic_program.text.without_space
	movq	%rax, %r14
	movq	%rdx, %r15
.LBB46_1308:
	leaq	48(%rsp), %rdi
	movq	%r14, %rsi
	movq	%r15, %rdx
	callq	ic_program.argument.OptionPlaceArgument.read
	cmpb	$1, 48(%rsp)
	movq	16(%rsp), %rdi
	movq	%r12, %rcx
	movq	%rbx, %rdx
	jne	.LBB46_221
	movq	%rdx, %r15
	movq	%rcx, %r12
	movzbl	56(%rsp), %ebx
	movq	64(%rsp), %r14
	movq	72(%rsp), %rax
	movq	%rax, 24(%rsp)
	movq	80(%rsp), %rax
	movq	%rax, 40(%rsp)
	testq	%rax, %rax
	je	.LBB46_1359
	movq	24(%rsp), %rax
	cmpb	$10, (%rax)
	jne	.LBB46_1359
	incq	24(%rsp)
	decq	40(%rsp)
.LBB46_1312:
	movl	$0, 88(%rsp)
	movw	$0, 92(%rsp)
	movl	$258, %r12d
	jmp	.LBB46_1389
.LBB46_1313:
	leaq	(%rax,%rax,4), %rax
	leaq	(%rsi,%rax,2), %rax
	movl	$2, %esi
	jmp	.LBB46_1349
.LBB46_1314:
	movq	%rbp, %rdi
	movq	%r12, %rsi
	callq	ic_program.text.after_word
	movq	%r13, %rcx
	movq	%r14, %rdi
	movq	%rax, 24(%rsp)
	movq	%rdx, %r9
	movq	%r15, %rdx
	movq	16(%rsp), %rax
	shrq	$32, %rax
	jne	.LBB46_1090
	movq	16(%rsp), %rax
	leaq	8(,%rax,8), %r12
	testq	%r9, %r9
	je	.LBB46_1392
	movq	24(%rsp), %r10
	movzbl	(%r10), %eax
	movq	%r14, %rdi
	movq	%r13, %rcx
	movq	%r15, %rdx
	movq	32(%rsp), %r11
	cmpb	$10, %al
	je	.LBB46_1086
.LBB46_1317:
	movq	%r9, %rbp
	movq	%r10, 24(%rsp)
	movq	%r11, 32(%rsp)
	movq	%rdx, %r15
	movq	%rcx, %r13
	movq	%rdi, %r14
.LBB46_1318:
	movq	24(%rsp), %rdi
	movq	%rbp, %rsi
	callq	ic_program.text.other_line
	movq	%rdx, %rsi
	cmpb	$1, %al
	movq	%r14, %rdi
	movq	%r13, %rcx
	movq	%r15, %rdx
	jne	.LBB46_1090
	movq	24(%rsp), %r10
	addq	%rsi, %r10
	movq	%rbp, %r9
	subq	%rsi, %r9
	movq	32(%rsp), %r11
	jmp	.LBB46_1087
.LBB46_1320:
	movq	%rdx, %r12
	movq	%r15, %rdi
	movq	%r13, %rsi
	callq	ic_program.text.after_word
	movq	%rbx, %rdi
	movq	%rax, %r15
	movq	%r12, %rax
	shrq	$32, %rax
	jne	.LBB46_1153
	leaq	8(,%r12,8), %r12
	testq	%rdx, %rdx
	je	.LBB46_1396
	movq	%r15, %r10
	movzbl	(%r15), %eax
	movq	%rbx, %rdi
	movq	%r14, %r11
	movq	%rdx, %r9
	cmpb	$10, %al
	je	.LBB46_1148
.LBB46_1323:
	movq	%r9, %r13
	movq	%r10, %r15
	movq	%r11, %r14
	movq	%rdi, %rbx
.LBB46_1324:
	movq	%r15, %rdi
	movq	%r13, %rsi
	callq	ic_program.text.other_line
	cmpb	$1, %al
	movq	%rbx, %rdi
	jne	.LBB46_1153
	movq	%r15, %r10
	addq	%rdx, %r10
	movq	%r13, %r9
	subq	%rdx, %r9
	movq	%r14, %r11
	jmp	.LBB46_1149
.LBB46_1326:
	xorl	%ecx, %ecx
	jmp	.LBB46_463
.LBB46_1327:
	xorl	%ecx, %ecx
	jmp	.LBB46_481
.LBB46_1328:
	xorl	%ecx, %ecx
	movq	%rax, %r10
	jmp	.LBB46_505
.LBB46_1329:
	xorl	%ecx, %ecx
	movq	%rax, %r10
	jmp	.LBB46_541
.LBB46_1330:
	xorl	%ecx, %ecx
	movq	%rax, %r10
	jmp	.LBB46_558
.LBB46_1331:
	xorl	%ecx, %ecx
	movq	%rax, %r10
	jmp	.LBB46_575
.LBB46_1332:
	xorl	%ecx, %ecx
	jmp	.LBB46_587
.LBB46_1333:
	xorl	%ecx, %ecx
	movq	%rax, %r10
	jmp	.LBB46_605
.LBB46_1334:
	xorl	%ecx, %ecx
	jmp	.LBB46_616
.LBB46_1335:
	xorl	%ecx, %ecx
	movq	%rax, %r10
	jmp	.LBB46_634
.LBB46_1336:
	xorl	%ecx, %ecx
	movq	%rax, %r10
	jmp	.LBB46_645
.LBB46_1337:
	xorl	%ecx, %ecx
	movq	%rax, %r10
	jmp	.LBB46_663
.LBB46_1338:
	xorl	%ecx, %ecx
	movq	%rax, %r10
	jmp	.LBB46_680
.LBB46_1339:
	xorl	%ecx, %ecx
	movq	%rax, %r10
	jmp	.LBB46_691
.LBB46_1340:
	xorl	%ecx, %ecx
	movq	%rax, %r10
	jmp	.LBB46_709
.LBB46_1341:
	xorl	%ecx, %ecx
	movq	%rax, %r10
	jmp	.LBB46_720
.LBB46_1342:
	xorl	%ecx, %ecx
	movq	%rax, %r10
	jmp	.LBB46_734
.LBB46_1343:
	xorl	%ecx, %ecx
	jmp	.LBB46_746
.LBB46_1344:
	xorl	%ecx, %ecx
	jmp	.LBB46_771
.LBB46_1345:
	xorl	%ecx, %ecx
	jmp	.LBB46_802
.LBB46_1346:
	xorl	%ecx, %ecx
	jmp	.LBB46_813
.LBB46_1347:
	xorl	%ecx, %ecx
	jmp	.LBB46_868
.LBB46_1348:
	leaq	(%rax,%rax,4), %rax
	leaq	(%rsi,%rax,2), %rax
	leaq	(%rax,%rax,4), %rax
	movl	%eax, %eax
	leaq	(%rdi,%rax,2), %rax
	movl	$3, %esi
.LBB46_1349:
	cmpb	$32, %cl
	je	.LBB46_1351
	movzbl	%cl, %ecx
	cmpl	$10, %ecx
	jne	.LBB46_1353
.LBB46_1351:
	addq	%rsi, %r14
	subq	%rsi, %r15
	leaq	8(,%rax,8), %rbp
	cmpb	$32, (%r14)
	jne	.LBB46_1383
.LBB46_1352:
	incq	%r14
	decq	%r15
	jmp	.LBB46_1384
.LBB46_1353:
	movq	%r14, %rdi
	movq	%r15, %rsi
	callq	ic_program.argument.any_number
	cmpb	$1, %al
	movq	16(%rsp), %rdi
	jne	.LBB46_1247
	movq	%r15, %rsi
	movq	%rdx, %r15
	movq	%r14, %rdi
	callq	ic_program.text.after_word
	movq	16(%rsp), %rdi
	movq	%r15, %rcx
	shrq	$32, %rcx
	jne	.LBB46_1247
	movq	%rax, %r14
	movq	%rdx, %rax
	leaq	8(,%r15,8), %rbp
	testq	%rdx, %rdx
	jne	.LBB46_1382
	xorl	%r15d, %r15d
	jmp	.LBB46_1383
.LBB46_1357:
	xorl	%ecx, %ecx
	jmp	.LBB46_493
.LBB46_1358:
	xorl	%ecx, %ecx
	jmp	.LBB46_524
.LBB46_1359:
	movq	24(%rsp), %rdi
	movq	40(%rsp), %rsi
	callq	ic_program.text.other_line
	movq	%rdx, %rsi
	cmpb	$1, %al
	movq	16(%rsp), %rdi
	movq	%r12, %rcx
	movq	%r15, %rdx
	jne	.LBB46_221
	addq	%rsi, 24(%rsp)
	subq	%rsi, 40(%rsp)
	jmp	.LBB46_1312
.LBB46_1361:
	xorl	%ecx, %ecx
	movq	%rax, %r10
	jmp	.LBB46_759
.LBB46_1362:
	xorl	%ecx, %ecx
	movq	%rax, %r10
	jmp	.LBB46_784
.LBB46_1363:
	xorl	%r9d, %r9d
	jmp	.LBB46_826
.LBB46_1364:
	xorl	%ecx, %ecx
	jmp	.LBB46_840
.LBB46_1365:
	xorl	%ecx, %ecx
	movq	%rax, %r10
	jmp	.LBB46_854
.LBB46_1366:
	xorl	%ecx, %ecx
	jmp	.LBB46_881
.LBB46_1367:
	movq	24(%rsp), %rdi
	movq	40(%rsp), %rsi
	callq	ic_program.text.other_line
	cmpb	$1, %al
	movq	16(%rsp), %rdi
	xorps	%xmm0, %xmm0
	jne	.LBB46_1248
	addq	%rdx, 24(%rsp)
	subq	%rdx, 40(%rsp)
	jmp	.LBB46_1294
.LBB46_1369:
	xorl	%r15d, %r15d
	jmp	.LBB46_895
.LBB46_1370:
	xorl	%r15d, %r15d
	jmp	.LBB46_911
.LBB46_1371:
	xorl	%esi, %esi
	jmp	.LBB46_936
.LBB46_1372:
	xorl	%r15d, %r15d
	jmp	.LBB46_947
.LBB46_1373:
	xorl	%r15d, %r15d
	jmp	.LBB46_959
.LBB46_1374:
	xorl	%r15d, %r15d
	jmp	.LBB46_971
.LBB46_1375:
	xorl	%r15d, %r15d
	jmp	.LBB46_983
.LBB46_1376:
	xorl	%esi, %esi
	jmp	.LBB46_1001
.LBB46_1377:
	xorl	%r15d, %r15d
	jmp	.LBB46_1012
.LBB46_1378:
	xorl	%esi, %esi
	jmp	.LBB46_1030
.LBB46_1379:
	xorl	%esi, %esi
	jmp	.LBB46_1047
.LBB46_1380:
	xorl	%r15d, %r15d
	jmp	.LBB46_1058
.LBB46_1381:
	xorl	%esi, %esi
	jmp	.LBB46_1076
.LBB46_1382:
	movq	%rax, %r15
	cmpb	$32, (%r14)
	je	.LBB46_1352
.LBB46_1383:
	movq	%r14, %rdi
	movq	%r15, %rsi
	callq	ic_program.text.without_space
	movq	%rax, %r14
	movq	%rdx, %r15
.LBB46_1384:
	leaq	48(%rsp), %rdi
	movq	%r14, %rsi
	movq	%r15, %rdx
	callq	ic_program.argument.OptionPlaceArgument.read
	cmpb	$1, 48(%rsp)
	movq	16(%rsp), %rdi
	jne	.LBB46_1247
	movzbl	56(%rsp), %ebx
	movq	64(%rsp), %r14
	movq	72(%rsp), %rax
	movq	%rax, 24(%rsp)
	movq	80(%rsp), %rax
	movq	%rax, 40(%rsp)
	testq	%rax, %rax
	je	.LBB46_1390
	movq	24(%rsp), %rax
	cmpb	$10, (%rax)
	jne	.LBB46_1390
	incq	24(%rsp)
	decq	40(%rsp)
.LBB46_1388:
	movl	$0, 88(%rsp)
	movw	$0, 92(%rsp)
	movl	$2, %r12d
.LBB46_1389:
	movzbl	%bl, %r15d
	movzwl	92(%rsp), %eax
	movw	%ax, 12(%rsp)
	movl	88(%rsp), %eax
	movl	%eax, 8(%rsp)
	movl	$4, %r13d
	movl	$1, %eax
	xorl	%r8d, %r8d
	xorl	%ebx, %ebx
	jmp	.LBB46_1240
.LBB46_1390:
	movq	24(%rsp), %rdi
	movq	40(%rsp), %rsi
	callq	ic_program.text.other_line
	cmpb	$1, %al
	movq	16(%rsp), %rdi
	jne	.LBB46_1247
	addq	%rdx, 24(%rsp)
	subq	%rdx, 40(%rsp)
	jmp	.LBB46_1388
.LBB46_1392:
	xorl	%ebp, %ebp
	jmp	.LBB46_1318
.LBB46_1393:
	xorl	%r13d, %r13d
	jmp	.LBB46_1113
.LBB46_1394:
	xorl	%r13d, %r13d
	jmp	.LBB46_1127
.LBB46_1395:
	xorl	%r13d, %r13d
	jmp	.LBB46_1141
.LBB46_1396:
	xorl	%r13d, %r13d
	jmp	.LBB46_1324
.LBB46_1397:
	xorl	%ebp, %ebp
.LBB46_1398:
	movq	%r15, %rdi
	movq	%rbp, %rsi
	callq	ic_program.text.without_space
	movq	%rax, %r15
	movq	%rdx, %rbp
	cmpq	$5, %rbp
	movq	%r15, %rdi
	jae	.LBB46_1257
.LBB46_1399:
	movq	%rbp, %rsi
	callq	ic_program.argument.any_number
	cmpb	$1, %al
	movq	%rbx, %rdi
	jne	.LBB46_1153
	movq	%rdx, %r12
	movq	%r15, %rdi
	movq	%rbp, %rsi
	callq	ic_program.text.after_word
	movq	%rbx, %rdi
	movq	%rax, %r15
	movq	%r12, %rax
	shrq	$32, %rax
	jne	.LBB46_1153
	movq	%rdx, %rbp
	leaq	8(,%r12,8), %r12
	testq	%rdx, %rdx
	je	.LBB46_1403
	movzbl	(%r15), %eax
	cmpb	$10, %al
	je	.LBB46_1281
	jmp	.LBB46_1404
.LBB46_1403:
	xorl	%ebp, %ebp
.LBB46_1404:
	movq	%r15, %rdi
	movq	%rbp, %rsi
	callq	ic_program.text.other_line
	cmpb	$1, %al
	movq	%rbx, %rdi
	jne	.LBB46_1153
	addq	%rdx, %r15
	subq	%rdx, %rbp
	jmp	.LBB46_1282
.Lfunc_end46:
	.size	ic_program.line.call_at, .Lfunc_end46-ic_program.line.call_at
	.section	.rodata.unlikely.ic_program.line.call_at,"a",@progbits
	.p2align	2, 0x0
.LJTI46_0:
	.long	.LBB46_2-.LJTI46_0
	.long	.LBB46_270-.LJTI46_0
	.long	.LBB46_270-.LJTI46_0
	.long	.LBB46_139-.LJTI46_0
	.long	.LBB46_270-.LJTI46_0
	.long	.LBB46_270-.LJTI46_0
	.long	.LBB46_270-.LJTI46_0
	.long	.LBB46_99-.LJTI46_0
	.long	.LBB46_270-.LJTI46_0
	.long	.LBB46_189-.LJTI46_0
	.long	.LBB46_270-.LJTI46_0
	.long	.LBB46_270-.LJTI46_0
	.long	.LBB46_270-.LJTI46_0
	.long	.LBB46_270-.LJTI46_0
	.long	.LBB46_270-.LJTI46_0
	.long	.LBB46_199-.LJTI46_0
	.long	.LBB46_270-.LJTI46_0
	.long	.LBB46_270-.LJTI46_0
	.long	.LBB46_270-.LJTI46_0
	.long	.LBB46_270-.LJTI46_0
	.long	.LBB46_270-.LJTI46_0
	.long	.LBB46_270-.LJTI46_0
	.long	.LBB46_109-.LJTI46_0
	.long	.LBB46_270-.LJTI46_0
	.long	.LBB46_149-.LJTI46_0
	.long	.LBB46_270-.LJTI46_0
	.long	.LBB46_159-.LJTI46_0
	.long	.LBB46_218-.LJTI46_0
	.long	.LBB46_208-.LJTI46_0
	.long	.LBB46_61-.LJTI46_0
	.long	.LBB46_270-.LJTI46_0
	.long	.LBB46_270-.LJTI46_0
	.long	.LBB46_119-.LJTI46_0
	.long	.LBB46_270-.LJTI46_0
	.long	.LBB46_79-.LJTI46_0
	.long	.LBB46_32-.LJTI46_0
	.long	.LBB46_169-.LJTI46_0
	.long	.LBB46_270-.LJTI46_0
	.long	.LBB46_270-.LJTI46_0
	.long	.LBB46_270-.LJTI46_0
	.long	.LBB46_179-.LJTI46_0
	.long	.LBB46_270-.LJTI46_0
	.long	.LBB46_240-.LJTI46_0
	.long	.LBB46_230-.LJTI46_0
	.long	.LBB46_12-.LJTI46_0
	.long	.LBB46_270-.LJTI46_0
	.long	.LBB46_89-.LJTI46_0
	.long	.LBB46_270-.LJTI46_0
	.long	.LBB46_270-.LJTI46_0
	.long	.LBB46_270-.LJTI46_0
	.long	.LBB46_250-.LJTI46_0
	.long	.LBB46_270-.LJTI46_0
	.long	.LBB46_22-.LJTI46_0
	.long	.LBB46_270-.LJTI46_0
	.long	.LBB46_69-.LJTI46_0
	.long	.LBB46_270-.LJTI46_0
	.long	.LBB46_51-.LJTI46_0
	.long	.LBB46_270-.LJTI46_0
	.long	.LBB46_129-.LJTI46_0
	.long	.LBB46_270-.LJTI46_0
	.long	.LBB46_270-.LJTI46_0
	.long	.LBB46_270-.LJTI46_0
	.long	.LBB46_42-.LJTI46_0
	.long	.LBB46_260-.LJTI46_0
.LJTI46_1:
	.long	.LBB46_272-.LJTI46_1
	.long	.LBB46_1151-.LJTI46_1
	.long	.LBB46_1151-.LJTI46_1
	.long	.LBB46_1151-.LJTI46_1
	.long	.LBB46_1151-.LJTI46_1
	.long	.LBB46_350-.LJTI46_1
	.long	.LBB46_1151-.LJTI46_1
	.long	.LBB46_340-.LJTI46_1
	.long	.LBB46_1151-.LJTI46_1
	.long	.LBB46_1151-.LJTI46_1
	.long	.LBB46_1151-.LJTI46_1
	.long	.LBB46_1151-.LJTI46_1
	.long	.LBB46_1151-.LJTI46_1
	.long	.LBB46_1151-.LJTI46_1
	.long	.LBB46_331-.LJTI46_1
	.long	.LBB46_1151-.LJTI46_1
	.long	.LBB46_1151-.LJTI46_1
	.long	.LBB46_1151-.LJTI46_1
	.long	.LBB46_1151-.LJTI46_1
	.long	.LBB46_1151-.LJTI46_1
	.long	.LBB46_1151-.LJTI46_1
	.long	.LBB46_1151-.LJTI46_1
	.long	.LBB46_1151-.LJTI46_1
	.long	.LBB46_1151-.LJTI46_1
	.long	.LBB46_1151-.LJTI46_1
	.long	.LBB46_1151-.LJTI46_1
	.long	.LBB46_1151-.LJTI46_1
	.long	.LBB46_1151-.LJTI46_1
	.long	.LBB46_1151-.LJTI46_1
	.long	.LBB46_1151-.LJTI46_1
	.long	.LBB46_1151-.LJTI46_1
	.long	.LBB46_1151-.LJTI46_1
	.long	.LBB46_291-.LJTI46_1
	.long	.LBB46_311-.LJTI46_1
	.long	.LBB46_1151-.LJTI46_1
	.long	.LBB46_360-.LJTI46_1
	.long	.LBB46_1151-.LJTI46_1
	.long	.LBB46_1151-.LJTI46_1
	.long	.LBB46_1151-.LJTI46_1
	.long	.LBB46_370-.LJTI46_1
	.long	.LBB46_1151-.LJTI46_1
	.long	.LBB46_390-.LJTI46_1
	.long	.LBB46_380-.LJTI46_1
	.long	.LBB46_282-.LJTI46_1
	.long	.LBB46_1151-.LJTI46_1
	.long	.LBB46_1151-.LJTI46_1
	.long	.LBB46_1151-.LJTI46_1
	.long	.LBB46_321-.LJTI46_1
	.long	.LBB46_1151-.LJTI46_1
	.long	.LBB46_1151-.LJTI46_1
	.long	.LBB46_1151-.LJTI46_1
	.long	.LBB46_1151-.LJTI46_1
	.long	.LBB46_1151-.LJTI46_1
	.long	.LBB46_1151-.LJTI46_1
	.long	.LBB46_1151-.LJTI46_1
	.long	.LBB46_301-.LJTI46_1
	.section	.text.unlikely.ic_program.argument.KindArgument.read,"ax",@progbits
	.p2align	4
	.type	ic_program.argument.KindArgument.read,@function
ic_program.argument.KindArgument.read:
	pushq	%rbx
	subq	$64, %rsp
	movq	%rdi, %rbx
	xorps	%xmm0, %xmm0
	movaps	%xmm0, 48(%rsp)
	movaps	%xmm0, 32(%rsp)
	movl	$0, 8(%rsp)
	movl	$0, 11(%rsp)
	leaq	32(%rsp), %rdi
	callq	ic_program.text.first_word
	movq	40(%rsp), %rcx
	cmpq	$3, %rcx
	jae	.LBB47_1
.LBB47_25:
	xorps	%xmm0, %xmm0
	movups	%xmm0, 16(%rbx)
	movups	%xmm0, (%rbx)
	addq	$64, %rsp
	popq	%rbx
	retq
.LBB47_1:
	movq	32(%rsp), %rax
	jne	.LBB47_5
	cmpb	$120, (%rax)
	jne	.LBB47_25
	cmpb	$111, 1(%rax)
	jne	.LBB47_25
	movb	$2, %cl
	cmpb	$114, 2(%rax)
	jne	.LBB47_25
.LBB47_10:
	leaq	48(%rsp), %rax
	movups	(%rax), %xmm0
	movups	%xmm0, 15(%rsp)
	movq	$1, (%rbx)
	movb	%cl, 8(%rbx)
	movups	8(%rsp), %xmm0
	movups	%xmm0, 9(%rbx)
	movq	23(%rsp), %rax
	movq	%rax, 24(%rbx)
	addq	$64, %rsp
	popq	%rbx
	retq
.LBB47_5:
	cmpq	$4, %rcx
	ja	.LBB47_11
	cmpb	$116, (%rax)
	jne	.LBB47_25
	cmpb	$114, 1(%rax)
	jne	.LBB47_25
	cmpb	$101, 2(%rax)
	jne	.LBB47_25
	movb	$3, %cl
	cmpb	$101, 3(%rax)
	jne	.LBB47_25
	jmp	.LBB47_10
.LBB47_11:
	cmpq	$5, %rcx
	sete	%dl
	cmpq	$7, %rcx
	setae	%cl
	orb	%dl, %cl
	jne	.LBB47_25
	movzbl	(%rax), %ecx
	cmpl	$100, %ecx
	je	.LBB47_20
	cmpl	$115, %ecx
	jne	.LBB47_25
	cmpb	$105, 1(%rax)
	jne	.LBB47_25
	cmpb	$110, 2(%rax)
	jne	.LBB47_25
	cmpb	$103, 3(%rax)
	jne	.LBB47_25
	cmpb	$108, 4(%rax)
	jne	.LBB47_25
	cmpb	$121, 5(%rax)
	jne	.LBB47_25
	xorl	%ecx, %ecx
	jmp	.LBB47_10
.LBB47_20:
	cmpb	$111, 1(%rax)
	jne	.LBB47_25
	cmpb	$117, 2(%rax)
	jne	.LBB47_25
	cmpb	$98, 3(%rax)
	jne	.LBB47_25
	cmpb	$108, 4(%rax)
	jne	.LBB47_25
	movb	$1, %cl
	cmpb	$121, 5(%rax)
	jne	.LBB47_25
	jmp	.LBB47_10
.Lfunc_end47:
	.size	ic_program.argument.KindArgument.read, .Lfunc_end47-ic_program.argument.KindArgument.read
	.section	.text.unlikely.ic_program.argument.OptionPlaceArgument.read,"ax",@progbits
	.p2align	4
	.type	ic_program.argument.OptionPlaceArgument.read,@function
ic_program.argument.OptionPlaceArgument.read:
	pushq	%rbx
	subq	$32, %rsp
	movq	%rdi, %rbx
	xorps	%xmm0, %xmm0
	movaps	%xmm0, 16(%rsp)
	movaps	%xmm0, (%rsp)
	movq	%rsp, %rdi
	callq	ic_program.text.first_word
	movq	8(%rsp), %rax
	testq	%rax, %rax
	je	.LBB48_17
	movq	(%rsp), %rdx
	cmpq	$4, %rax
	jne	.LBB48_7
	cmpb	$110, (%rdx)
	jne	.LBB48_7
	cmpb	$111, 1(%rdx)
	jne	.LBB48_7
	cmpb	$110, 2(%rdx)
	jne	.LBB48_7
	cmpb	$101, 3(%rdx)
	jne	.LBB48_7
	xorl	%eax, %eax
	xorl	%ecx, %ecx
	jmp	.LBB48_16
.LBB48_7:
	xorl	%ecx, %ecx
	xorl	%esi, %esi
	.p2align	4
.LBB48_8:
	movzbl	(%rdx,%rsi), %edi
	addb	$-48, %dil
	cmpb	$9, %dil
	ja	.LBB48_13
	movabsq	$1844674407370955161, %r8
	cmpq	%r8, %rcx
	ja	.LBB48_17
	addq	%rcx, %rcx
	leaq	(%rcx,%rcx,4), %r8
	movzbl	%dil, %ecx
	addq	%r8, %rcx
	jb	.LBB48_17
	incq	%rsi
	cmpq	%rsi, %rax
	jne	.LBB48_8
	movq	%rax, %rsi
.LBB48_13:
	leaq	-1(%rsi), %rdx
	cmpq	$20, %rdx
	setae	%dil
	cmpq	%rax, %rsi
	setne	%al
	orb	%dil, %al
	jne	.LBB48_17
	xorl	%eax, %eax
	cmpq	$20, %rdx
	cmovbq	%rcx, %rax
	movq	%rax, %rcx
	shrq	$32, %rcx
	je	.LBB48_15
.LBB48_17:
	xorps	%xmm0, %xmm0
	movups	%xmm0, 16(%rbx)
	movups	%xmm0, (%rbx)
	movq	$0, 32(%rbx)
	addq	$32, %rsp
	popq	%rbx
	retq
.LBB48_15:
	leaq	8(,%rax,8), %rax
	movl	$1, %ecx
.LBB48_16:
	leaq	16(%rsp), %rdx
	movq	$1, (%rbx)
	movq	%rcx, 8(%rbx)
	movq	%rax, 16(%rbx)
	movups	(%rdx), %xmm0
	movups	%xmm0, 24(%rbx)
	addq	$32, %rsp
	popq	%rbx
	retq
.Lfunc_end48:
	.size	ic_program.argument.OptionPlaceArgument.read, .Lfunc_end48-ic_program.argument.OptionPlaceArgument.read
	.section	.rodata.cst16,"aM",@progbits,16
	.p2align	4, 0x0
.LCPI49_0:
	.short	27756
	.short	27756
	.short	30069
	.short	30069
	.short	25700
	.short	25700
	.short	25957
	.short	25957
.LCPI49_1:
	.short	26985
	.short	26985
	.short	28270
	.short	28270
	.short	25700
	.short	25700
	.short	25443
	.short	25443
.LCPI49_2:
	.zero	1
	.zero	1
	.byte	100
	.zero	1
	.zero	1
	.zero	1
	.zero	1
	.zero	1
	.zero	1
	.zero	1
	.zero	1
	.zero	1
	.zero	1
	.zero	1
	.zero	1
	.zero	1
	.section	.text.unlikely.ic_program.argument.BoundU64Argument.read,"ax",@progbits
	.p2align	4
	.type	ic_program.argument.BoundU64Argument.read,@function
ic_program.argument.BoundU64Argument.read:
	pushq	%rbx
	subq	$32, %rsp
	movq	%rdi, %rbx
	pxor	%xmm0, %xmm0
	movdqa	%xmm0, 16(%rsp)
	movdqa	%xmm0, (%rsp)
	movq	%rsp, %rdi
	callq	ic_program.text.first_word
	pxor	%xmm7, %xmm7
	movq	8(%rsp), %rdx
	cmpq	$9, %rdx
	jae	.LBB49_1
.LBB49_24:
	movdqu	%xmm7, 16(%rbx)
	movdqu	%xmm7, (%rbx)
	movq	$0, 32(%rbx)
	addq	$32, %rsp
	popq	%rbx
	retq
.LBB49_1:
	movq	(%rsp), %rax
	movq	(%rax), %xmm0
	movzbl	8(%rax), %esi
	movdqa	%xmm0, %xmm1
	psrlq	$24, %xmm1
	movdqa	%xmm1, %xmm4
	punpcklbw	%xmm1, %xmm4
	punpcklwd	%xmm4, %xmm4
	pcmpeqb	.LCPI49_0(%rip), %xmm4
	pcmpeqd	%xmm2, %xmm2
	pxor	%xmm2, %xmm4
	xorl	%ecx, %ecx
	cmpb	$58, %sil
	setne	%cl
	movdqa	%xmm0, %xmm3
	punpcklbw	%xmm7, %xmm3
	pshufd	$216, %xmm3, %xmm3
	pshufhw	$236, %xmm3, %xmm3
	pshufd	$232, %xmm3, %xmm3
	pshuflw	$180, %xmm3, %xmm3
	packuswb	%xmm3, %xmm3
	movdqa	%xmm3, %xmm6
	punpcklbw	%xmm3, %xmm6
	punpcklwd	%xmm6, %xmm6
	pcmpeqb	.LCPI49_1(%rip), %xmm6
	pxor	%xmm2, %xmm6
	movd	%ecx, %xmm5
	pslldq	$12, %xmm5
	por	%xmm6, %xmm5
	por	%xmm5, %xmm4
	pslld	$31, %xmm4
	movmskps	%xmm4, %r8d
	leaq	-9(%rdx), %rcx
	xorl	%edi, %edi
	testl	%r8d, %r8d
	cmoveq	%rcx, %rdi
	je	.LBB49_2
	pcmpeqb	.LCPI49_2(%rip), %xmm3
	pxor	%xmm2, %xmm3
	movd	%xmm1, %edi
	movd	%xmm0, %r8d
	cmpl	$1701082476, %edi
	pextrw	$1, %xmm3, %edi
	setne	%r9b
	cmpw	$30821, %r8w
	setne	%r8b
	orb	%r9b, %r8b
	orb	%dil, %r8b
	pextrw	$6, %xmm5, %r9d
	orb	%r8b, %r9b
	xorl	%edi, %edi
	testb	$1, %r9b
	cmoveq	%rcx, %rdi
	je	.LBB49_12
	cmpq	$9, %rdx
	setne	%al
	cmpb	$100, %sil
	setne	%cl
	movq	%xmm0, %rdx
	movabsq	$7306085946160737909, %rsi
	cmpq	%rsi, %rdx
	setne	%dl
	orb	%al, %cl
	orb	%dl, %cl
	jne	.LBB49_24
	movl	$2, %eax
	xorl	%edx, %edx
	jmp	.LBB49_23
.LBB49_2:
	testq	%rcx, %rcx
	je	.LBB49_24
	movabsq	$1844674407370955162, %r8
	xorl	%edx, %edx
	xorl	%esi, %esi
	.p2align	4
.LBB49_4:
	movzbl	9(%rax,%rsi), %r9d
	addb	$-48, %r9b
	cmpb	$9, %r9b
	ja	.LBB49_9
	cmpq	%r8, %rdx
	jae	.LBB49_24
	addq	%rdx, %rdx
	leaq	(%rdx,%rdx,4), %r10
	movzbl	%r9b, %edx
	addq	%r10, %rdx
	jb	.LBB49_24
	incq	%rsi
	cmpq	%rsi, %rdi
	jne	.LBB49_4
	movq	%rcx, %rsi
.LBB49_9:
	leaq	-1(%rsi), %rcx
	cmpq	$20, %rcx
	setae	%al
	cmpq	%rdi, %rsi
	setne	%sil
	orb	%al, %sil
	jne	.LBB49_24
	xorl	%eax, %eax
	cmpq	$20, %rcx
	cmovaeq	%rax, %rdx
	jmp	.LBB49_23
.LBB49_12:
	testq	%rcx, %rcx
	je	.LBB49_24
	movabsq	$1844674407370955162, %r8
	xorl	%esi, %esi
	xorl	%edx, %edx
	.p2align	4
.LBB49_14:
	movzbl	9(%rax,%rdx), %r9d
	addb	$-48, %r9b
	cmpb	$9, %r9b
	ja	.LBB49_19
	cmpq	%r8, %rsi
	jae	.LBB49_24
	addq	%rsi, %rsi
	leaq	(%rsi,%rsi,4), %r10
	movzbl	%r9b, %esi
	addq	%r10, %rsi
	jb	.LBB49_24
	incq	%rdx
	cmpq	%rdx, %rdi
	jne	.LBB49_14
	movq	%rcx, %rdx
.LBB49_19:
	leaq	-1(%rdx), %rax
	cmpq	$20, %rax
	setae	%cl
	cmpq	%rdi, %rdx
	setne	%dl
	orb	%cl, %dl
	jne	.LBB49_24
	xorl	%edx, %edx
	cmpq	$20, %rax
	cmovbq	%rsi, %rdx
	movl	$1, %eax
.LBB49_23:
	leaq	16(%rsp), %rcx
	movq	$1, (%rbx)
	movq	%rax, 8(%rbx)
	movq	%rdx, 16(%rbx)
	movups	(%rcx), %xmm0
	movups	%xmm0, 24(%rbx)
	addq	$32, %rsp
	popq	%rbx
	retq
.Lfunc_end49:
	.size	ic_program.argument.BoundU64Argument.read, .Lfunc_end49-ic_program.argument.BoundU64Argument.read
	.section	.rodata.cst16,"aM",@progbits,16
	.p2align	4, 0x0
.LCPI50_0:
	.byte	1
	.byte	3
	.zero	1
	.zero	1
	.zero	1
	.zero	1
	.zero	1
	.zero	1
	.zero	1
	.zero	1
	.zero	1
	.zero	1
	.zero	1
	.zero	1
	.zero	1
	.zero	1
.LCPI50_1:
	.byte	1
	.byte	3
	.byte	0
	.byte	0
	.byte	0
	.byte	0
	.byte	0
	.byte	0
	.byte	0
	.byte	0
	.byte	0
	.byte	0
	.byte	0
	.byte	0
	.byte	0
	.byte	0
	.section	.text.unlikely.ic_program.session.Session.call.40a73cb1e87492e9,"ax",@progbits
	.p2align	4
	.type	ic_program.session.Session.call.40a73cb1e87492e9,@function
ic_program.session.Session.call.40a73cb1e87492e9:
	pushq	%rbp
	pushq	%r15
	pushq	%r14
	pushq	%r13
	pushq	%r12
	pushq	%rbx
	subq	$216, %rsp
	movq	%rdx, %rcx
	movq	%rsi, %r14
	movq	%rdi, %r11
	movzbl	(%rdx), %edi
	movq	8(%rdx), %rax
	movq	16(%rdx), %rdx
	movq	24(%rcx), %rbp
	movq	32(%rcx), %r13
	movq	40(%rcx), %rsi
	leaq	120(%r14), %rbx
	leaq	.LJTI50_0(%rip), %r8
	movslq	(%r8,%rdi,4), %rdi
	addq	%r8, %rdi
	jmpq	*%rdi
.LBB50_1:
	movq	48(%rcx), %r15
	movl	%edx, %r8d
	shrl	$8, %r8d
	pxor	%xmm0, %xmm0
	movdqa	%xmm0, 128(%rsp)
	movdqa	%xmm0, 144(%rsp)
	movdqa	%xmm0, 176(%rsp)
	movq	$0, 192(%rsp)
	movdqa	%xmm0, 160(%rsp)
	movzbl	%dl, %ecx
	leaq	.LJTI50_4(%rip), %rdx
	movslq	(%rdx,%rcx,4), %rcx
	addq	%rdx, %rcx
	jmpq	*%rcx
.LBB50_2:
	movb	$1, %dl
	cmpq	%rax, 80(%r14)
	jbe	.LBB50_452
	movq	72(%r14), %rsi
	movl	4(%rsi,%rax,8), %ecx
	movl	$4294967295, %edi
	cmpq	%rdi, %rcx
	je	.LBB50_452
	movq	%rbp, %rdi
	shrq	$3, %rdi
	decq	%rdi
	movb	$2, %dl
	cmpq	8(%r14), %rdi
	jae	.LBB50_452
	movq	(%r14), %r9
	shlq	$4, %rdi
	cmpb	$1, (%r9,%rdi)
	jne	.LBB50_452
	movl	(%rsi,%rax,8), %eax
	leaq	(%rax,%rax,2), %rsi
	movq	96(%r14), %rax
	movq	(%rax,%rsi,8), %rax
	shlq	$4, %rsi
	addq	48(%r14), %rsi
	leaq	(%rcx,%rcx,2), %rcx
	shlq	$4, %rcx
	leaq	(%rax,%rcx), %r15
	movzbl	8(%rax,%rcx), %edx
	movzbl	%dl, %eax
	movzbl	%r8b, %ecx
	leaq	.LJTI50_9(%rip), %rdi
	movslq	(%rdi,%rcx,4), %rcx
	addq	%rdi, %rcx
	jmpq	*%rcx
.LBB50_7:
	movl	%eax, %eax
	leaq	.LJTI50_12(%rip), %rcx
	movslq	(%rcx,%rax,4), %rax
	addq	%rcx, %rax
	jmpq	*%rax
.LBB50_8:
	movq	%r11, 8(%rsp)
	leaq	24(%r15), %rbx
	xorl	%eax, %eax
	jmp	.LBB50_441
.LBB50_9:
	cmpq	%rax, 80(%r14)
	jbe	.LBB50_80
	movq	72(%r14), %rdi
	movl	4(%rdi,%rax,8), %ecx
	movl	$4294967295, %r8d
	cmpq	%r8, %rcx
	je	.LBB50_80
	movl	(%rdi,%rax,8), %edi
	movq	96(%r14), %rax
	leaq	(%rdi,%rdi,2), %r8
	movq	(%rax,%r8,8), %rax
	shlq	$4, %rcx
	leaq	(%rcx,%rcx,2), %rcx
	cmpb	$3, 8(%rax,%rcx)
	jne	.LBB50_123
	shlq	$4, %rdi
	leaq	(%rdi,%rdi,2), %rdi
	movq	48(%r14), %r8
	cmpb	$2, (%r8,%rdi)
	jne	.LBB50_485
	cmpb	$1, 8(%r8,%rdi)
	jne	.LBB50_485
	movq	%rdi, 96(%rsp)
	movq	16(%rax,%rcx), %rcx
	cmpb	$2, %dl
	movq	%r8, 24(%rsp)
	je	.LBB50_205
	movzbl	%dl, %eax
	cmpl	$1, %eax
	jne	.LBB50_209
	testq	%rcx, %rcx
	je	.LBB50_213
	movq	%rbx, %r12
	movq	%r11, %rbx
	movq	96(%rsp), %rax
	movq	16(%r8,%rax), %rdi
	movq	(%r14), %r8
	xorl	%r15d, %r15d
	movq	%rcx, %r9
	xorl	%eax, %eax
.LBB50_18:
	movq	%r9, %r10
	shrq	$3, %r10
	leaq	(%r10,%r10,2), %r11
	movq	-24(%rdi,%r11,8), %r10
	movq	-16(%rdi,%r11,8), %r11
	incq	%r15
	cmpq	%rbp, -8(%r8,%r9,2)
	cmovaq	%r9, %rax
	movq	%r11, %r9
	cmovaq	%r10, %r9
	testq	%r9, %r9
	jne	.LBB50_18
	jmp	.LBB50_212
.LBB50_19:
	movq	%r11, 8(%rsp)
	pxor	%xmm0, %xmm0
	movdqa	%xmm0, 32(%rsp)
	leaq	32(%rsp), %rdi
	movq	%r14, %rsi
	movq	%rax, %rdx
	movl	$1, %ecx
	callq	ic_world.world.World.hand_out.27dc223f7d016e2e
	cmpb	$0, 32(%rsp)
	je	.LBB50_103
.LBB50_97:
	movzbl	33(%rsp), %edx
	jmp	.LBB50_135
.LBB50_21:
	cmpq	%rax, 80(%r14)
	jbe	.LBB50_80
	movq	72(%r14), %rdx
	movl	4(%rdx,%rax,8), %ecx
	movl	$4294967295, %esi
	cmpq	%rsi, %rcx
	je	.LBB50_80
	movl	(%rdx,%rax,8), %eax
	movq	96(%r14), %rdx
	leaq	(%rax,%rax,2), %rax
	movq	(%rdx,%rax,8), %rdx
	leaq	(%rcx,%rcx,2), %rcx
	shlq	$4, %rcx
	leaq	(%rdx,%rcx), %rax
	movzbl	8(%rdx,%rcx), %ecx
	leaq	.LJTI50_2(%rip), %rdx
	movslq	(%rdx,%rcx,4), %rcx
	addq	%rdx, %rcx
	jmpq	*%rcx
.LBB50_24:
	addq	$32, %rax
	jmp	.LBB50_125
.LBB50_25:
	movzbl	1(%rcx), %edx
	movq	40(%r14), %rsi
	movl	$2, %ecx
	leaq	16(%rsp), %rax
	leaq	.LJTI50_3(%rip), %rdi
	movslq	(%rdi,%rdx,4), %rdx
	addq	%rdi, %rdx
	movq	%r11, 8(%rsp)
	movq	%rbx, 104(%rsp)
	jmpq	*%rdx
.LBB50_26:
	leaq	16(%rsp), %rdx
	xorl	%eax, %eax
	xorl	%ecx, %ecx
	jmp	.LBB50_107
.LBB50_27:
	movq	%r11, 8(%rsp)
	movq	%r14, %rdi
	movq	%rax, %rsi
	xorl	%ecx, %ecx
	callq	ic_world.world.World.splice.27dc223f7d016e2e
	testb	$1, %al
	jne	.LBB50_135
	jmp	.LBB50_315
.LBB50_28:
	pxor	%xmm0, %xmm0
	movdqa	%xmm0, 48(%rsp)
	movdqa	%xmm0, 32(%rsp)
	movb	$1, %cl
	cmpq	%rax, 80(%r14)
	jbe	.LBB50_31
	movq	72(%r14), %rdx
	movl	4(%rdx,%rax,8), %esi
	movl	$4294967295, %edi
	cmpq	%rdi, %rsi
	je	.LBB50_31
	movl	(%rdx,%rax,8), %eax
	leaq	(%rax,%rax,2), %rdx
	movq	96(%r14), %rax
	movq	(%rax,%rdx,8), %rax
	shlq	$4, %rdx
	leaq	(%rsi,%rsi,2), %rcx
	shlq	$4, %rcx
	leaq	(%rax,%rcx), %rsi
	addq	$8, %rsi
	addq	48(%r14), %rdx
	leaq	32(%rsp), %rdi
	movq	%r11, 8(%rsp)
	callq	ic_any_collection.any_collection.AnyCollection.listed.0c0338d7a6570a46
	movq	8(%rsp), %r11
	movb	$13, %cl
	cmpb	$0, 32(%rsp)
	je	.LBB50_143
.LBB50_31:
	leaq	128(%r14), %r15
	movq	128(%r14), %r13
	leaq	.Lstatic.23(%rip), %r12
	movl	$22, %ebp
	movzbl	%cl, %eax
	leaq	.LJTI50_13(%rip), %rcx
	movslq	(%rcx,%rax,4), %rax
	addq	%rcx, %rax
	jmpq	*%rax
.LBB50_32:
	movq	%rax, %r9
	shrq	$3, %r9
	leaq	-1(%r9), %rcx
	cmpq	8(%r14), %rcx
	jae	.LBB50_87
	movq	(%r14), %rdx
	movq	%rcx, %rsi
	shlq	$4, %rsi
	cmpb	$1, (%rdx,%rsi)
	jne	.LBB50_87
	movq	56(%r14), %rdi
	testq	%rdi, %rdi
	je	.LBB50_116
	movq	48(%r14), %r8
	shlq	$3, %r9
	leaq	(%r9,%r9,2), %r9
	addq	$16, %r8
	jmp	.LBB50_38
.LBB50_36:
	cmpl	$1, %r10d
	movq	-8(%r8), %r10
	cmpq	$1, -8(%r10,%rax)
	jne	.LBB50_42
.LBB50_37:
	addq	$48, %r8
	decq	%rdi
	je	.LBB50_116
.LBB50_38:
	movzbl	-16(%r8), %r10d
	cmpl	$2, %r10d
	jne	.LBB50_36
	cmpb	$0, -8(%r8)
	movq	(%r8), %r10
	je	.LBB50_41
	testb	$2, -8(%r10,%r9)
	je	.LBB50_37
	jmp	.LBB50_42
.LBB50_41:
	cmpq	$1, -16(%r10,%rax,2)
	je	.LBB50_37
.LBB50_42:
	leaq	128(%r14), %r15
	movq	128(%r14), %r13
	leaq	.Lstatic.34(%rip), %r12
	jmp	.LBB50_88
.LBB50_43:
	movq	%r11, 8(%rsp)
	pxor	%xmm0, %xmm0
	movdqa	%xmm0, 32(%rsp)
	leaq	32(%rsp), %rdi
	movq	%r14, %rsi
	movq	%rax, %rdx
	movl	$2, %ecx
	callq	ic_world.world.World.hand_out.27dc223f7d016e2e
	cmpb	$0, 32(%rsp)
	jne	.LBB50_97
.LBB50_103:
	movq	40(%rsp), %rcx
.LBB50_137:
	movq	%rcx, %r12
	shrq	$8, %r12
	movq	128(%r14), %r13
	subq	$-128, %r14
	leaq	.Lstatic.74(%rip), %rsi
	leaq	.Lstatic.38(%rip), %r8
	movl	$11, %edx
	movl	$1, %r9d
	movq	%rbx, %rdi
	movq	%rcx, 80(%rsp)
	callq	ic_program.answers.push_numbered.714b863a58920bda
	movb	$4, %bpl
	jmp	.LBB50_138
.LBB50_45:
	shrq	$3, %rax
	decq	%rax
	cmpq	8(%r14), %rax
	jae	.LBB50_87
	movq	(%r14), %rcx
	shlq	$4, %rax
	cmpb	$1, (%rcx,%rax)
	jne	.LBB50_87
	movq	%r11, 8(%rsp)
	movq	%rdx, 8(%rcx,%rax)
	jmp	.LBB50_314
.LBB50_48:
	cmpq	%rax, 80(%r14)
	jbe	.LBB50_80
	movq	72(%r14), %rdx
	movl	4(%rdx,%rax,8), %ecx
	movl	$4294967295, %esi
	cmpq	%rsi, %rcx
	je	.LBB50_80
	movq	%r11, 8(%rsp)
	movl	(%rdx,%rax,8), %eax
	movq	96(%r14), %rdx
	leaq	(%rax,%rax,2), %rax
	movq	(%rdx,%rax,8), %rdx
	leaq	(%rcx,%rcx,2), %rcx
	shlq	$4, %rcx
	movzbl	8(%rdx,%rcx), %esi
	movq	%rsi, 8(%rdx,%rcx)
	pxor	%xmm0, %xmm0
	movdqu	%xmm0, 16(%rdx,%rcx)
	movdqu	%xmm0, 32(%rdx,%rcx)
	movq	48(%r14), %rcx
	shlq	$4, %rax
	movb	$1, 40(%rcx,%rax)
	jmp	.LBB50_315
.LBB50_51:
	movq	32(%r14), %r15
	movq	%r15, %rcx
	shrq	$32, %rcx
	jne	.LBB50_98
	movq	%r11, 8(%rsp)
	movq	%rax, %rbx
	incq	%r15
	movq	56(%r14), %r13
	testq	%r13, %r13
	je	.LBB50_56
	movq	48(%r14), %r12
	.p2align	4
.LBB50_54:
	movq	%r12, %rdi
	movq	%r15, %rsi
	callq	ic_any_collection.any_table.AnyTable.cover.f9617c8b158e2be4
	testb	$1, %al
	jne	.LBB50_115
	addq	$48, %r12
	decq	%r13
	jne	.LBB50_54
.LBB50_56:
	movq	40(%r14), %rax
	cmpq	%rax, %r15
	cmovaq	%r15, %rax
	movq	%rax, 40(%r14)
	movq	16(%r14), %rax
	movq	24(%r14), %rcx
	cmpq	%rcx, %rax
	jne	.LBB50_58
	movq	%rax, %rsi
	subq	8(%r14), %rsi
	movq	%rax, %rcx
	cmpq	$-1, %rsi
	jne	.LBB50_309
.LBB50_58:
	movq	(%r14), %rdx
	movq	32(%r14), %rax
	incq	%rcx
	movq	%rcx, 24(%r14)
	movq	%rax, %rsi
	shlq	$4, %rsi
	cmpq	8(%r14), %rax
	jne	.LBB50_117
	movq	$1, (%rdx,%rsi)
	movq	%rbx, 8(%rdx,%rsi)
	leaq	1(%rax), %rcx
	movq	%rcx, 8(%r14)
	jmp	.LBB50_118
.LBB50_60:
	cmpq	%rax, 56(%r14)
	jbe	.LBB50_89
	movq	%rbx, 104(%rsp)
	movq	%rdx, %rcx
	shrq	$3, %rcx
	leaq	-1(%rcx), %rsi
	cmpq	8(%r14), %rsi
	jae	.LBB50_87
	movq	(%r14), %rdi
	shlq	$4, %rsi
	cmpb	$1, (%rdi,%rsi)
	jne	.LBB50_87
	movq	48(%r14), %rsi
	shlq	$4, %rax
	leaq	(%rax,%rax,2), %rax
	movzbl	(%rsi,%rax), %edi
	cmpl	$2, %edi
	je	.LBB50_231
	cmpl	$1, %edi
	movq	8(%rsi,%rax), %rsi
	leaq	128(%r14), %r15
	leaq	136(%r14), %rbx
	movq	128(%r14), %r13
	movq	136(%r14), %rax
	movq	%rax, %rcx
	subq	%r13, %rcx
	cmpq	$1, -8(%rsi,%rdx)
	jne	.LBB50_233
.LBB50_65:
	cmpq	$8, %rcx
	jbe	.LBB50_355
.LBB50_66:
	movq	104(%rsp), %rcx
	movq	(%rcx), %rcx
	leaq	(%rcx,%r13), %rdx
	addq	$9, %r13
	leaq	.Lstatic.73(%rip), %rsi
	movq	%rdx, %rdi
	subq	%rsi, %rdi
	cmpq	$8, %rdi
	movabsq	$7234306498399858293, %rsi
	movq	%rsi, (%rdx)
	movb	$10, 8(%rdx)
	jmp	.LBB50_245
.LBB50_67:
	pxor	%xmm0, %xmm0
	movdqa	%xmm0, 128(%rsp)
	cmpq	%rax, 56(%r14)
	jbe	.LBB50_99
	movq	48(%r14), %rsi
	movq	%rax, %rcx
	shlq	$4, %rcx
	leaq	(%rcx,%rcx,2), %rdi
	movzbl	(%rsi,%rdi), %ecx
	testl	%ecx, %ecx
	je	.LBB50_120
	cmpl	$2, %ecx
	jne	.LBB50_121
	cmpb	$0, 8(%rsi,%rdi)
	setne	%cl
	addb	%cl, %cl
	incb	%cl
	movzbl	%dl, %esi
	leaq	.LJTI50_1(%rip), %rdi
	movslq	(%rdi,%rsi,4), %rsi
	addq	%rdi, %rsi
	jmpq	*%rsi
.LBB50_71:
	movq	%r11, 8(%rsp)
	movq	%r14, %rdi
	movq	%rax, %rsi
	movl	$1, %ecx
	callq	ic_world.world.World.splice.27dc223f7d016e2e
	testb	$1, %al
	jne	.LBB50_135
	jmp	.LBB50_315
.LBB50_72:
	cmpq	%rax, 80(%r14)
	jbe	.LBB50_80
	movq	72(%r14), %rdx
	movl	4(%rdx,%rax,8), %ecx
	movl	$4294967295, %esi
	cmpq	%rsi, %rcx
	je	.LBB50_80
	movq	%r11, 8(%rsp)
	movl	(%rdx,%rax,8), %edx
	leaq	(%rdx,%rdx,2), %rdx
	movq	%rdx, %rsi
	shlq	$4, %rsi
	addq	48(%r14), %rsi
	movq	96(%r14), %rdi
	movq	(%rdi,%rdx,8), %rdx
	leaq	(%rcx,%rcx,2), %rcx
	shlq	$4, %rcx
	leaq	(%rdx,%rcx), %rdi
	addq	$8, %rdi
	movq	%rbx, %r15
	movq	%rax, %rbx
	callq	ic_any_collection.any_collection.AnyCollection.unlink_all.87ed5b954c3afc77
	movq	%rbx, %rax
	movq	%r15, %rbx
	cmpq	%rax, 80(%r14)
	jbe	.LBB50_315
	movq	72(%r14), %rdx
	movl	4(%rdx,%rax,8), %ecx
	movl	$4294967295, %esi
	cmpq	%rsi, %rcx
	je	.LBB50_315
	movl	(%rdx,%rax,8), %edx
	movq	96(%r14), %rsi
	leaq	(,%rdx,8), %rdi
	leaq	(%rdi,%rdi,2), %rdi
	movq	8(%rsi,%rdi), %r9
	testq	%r9, %r9
	je	.LBB50_485
	decq	%r9
	movq	%r9, 8(%rsi,%rdi)
	movq	(%rsi,%rdi), %rsi
	leaq	(%r9,%r9,2), %r8
	shlq	$4, %r8
	movq	(%rsi,%r8), %rdi
	cmpq	%rcx, %r9
	jbe	.LBB50_79
	addq	%rsi, %r8
	movzbl	8(%r8), %r9d
	movups	32(%r8), %xmm0
	movaps	%xmm0, 32(%rsp)
	leaq	(%rcx,%rcx,2), %r10
	shlq	$4, %r10
	movups	16(%r8), %xmm0
	movq	%rdi, (%rsi,%r10)
	movq	%r9, 8(%rsi,%r10)
	movups	%xmm0, 16(%rsi,%r10)
	movdqa	32(%rsp), %xmm0
	movdqu	%xmm0, 32(%rsi,%r10)
.LBB50_79:
	movq	72(%r14), %rsi
	movl	%edx, (%rsi,%rdi,8)
	movl	%ecx, 4(%rsi,%rdi,8)
	movq	72(%r14), %rcx
	movl	$-1, 4(%rcx,%rax,8)
	jmp	.LBB50_315
.LBB50_80:
	leaq	128(%r14), %r15
	movq	128(%r14), %r13
.LBB50_81:
	leaq	.Lstatic.24(%rip), %r12
	movl	$27, %ebp
	jmp	.LBB50_464
.LBB50_82:
	cmpq	%rax, 56(%r14)
	jbe	.LBB50_89
	movq	%rdx, %rbx
	shrq	$3, %rbx
	leaq	-1(%rbx), %rcx
	cmpq	8(%r14), %rcx
	jae	.LBB50_87
	movq	(%r14), %rsi
	shlq	$4, %rcx
	cmpb	$1, (%rsi,%rcx)
	jne	.LBB50_87
	movq	48(%r14), %rsi
	leaq	(%rax,%rax,2), %rcx
	movq	%rcx, %rdi
	shlq	$4, %rdi
	leaq	(%rsi,%rdi), %r8
	movzbl	(%rsi,%rdi), %r9d
	cmpl	$2, %r9d
	je	.LBB50_236
	cmpl	$1, %r9d
	movq	8(%r8), %r10
	cmpq	$1, -8(%r10,%rdx)
	jne	.LBB50_282
	jmp	.LBB50_290
.LBB50_87:
	leaq	128(%r14), %r15
	movq	128(%r14), %r13
	leaq	.Lstatic.25(%rip), %r12
.LBB50_88:
	movl	$23, %ebp
	leaq	120(%r14), %rbx
	jmp	.LBB50_464
.LBB50_89:
	leaq	128(%r14), %r15
	movq	128(%r14), %r13
	leaq	.Lstatic.23(%rip), %r12
	movl	$22, %ebp
	jmp	.LBB50_464
.LBB50_90:
	pxor	%xmm0, %xmm0
	movdqa	%xmm0, 48(%rsp)
	movdqa	%xmm0, 32(%rsp)
	movb	$1, %cl
	cmpq	%rax, 80(%r14)
	jbe	.LBB50_147
	movq	72(%r14), %rdx
	movl	4(%rdx,%rax,8), %esi
	movl	$4294967295, %edi
	cmpq	%rdi, %rsi
	je	.LBB50_147
	movl	(%rdx,%rax,8), %eax
	movq	96(%r14), %rcx
	leaq	(%rax,%rax,2), %rdx
	movq	(%rcx,%rdx,8), %rax
	leaq	(%rsi,%rsi,2), %rcx
	shlq	$4, %rcx
	cmpb	$0, 8(%rax,%rcx)
	je	.LBB50_146
	leaq	(%rax,%rcx), %rsi
	addq	$8, %rsi
	shlq	$4, %rdx
	addq	48(%r14), %rdx
	leaq	32(%rsp), %rdi
	movq	%r11, 8(%rsp)
	callq	ic_any_collection.any_collection.AnyCollection.listed.0c0338d7a6570a46
	movq	8(%rsp), %r11
	movb	$13, %cl
	cmpb	$0, 32(%rsp)
	jne	.LBB50_147
	movq	40(%rsp), %rsi
	movq	48(%rsp), %rdx
	movq	56(%rsp), %rax
	cmpq	$15, %rdx
	movq	%rax, 24(%rsp)
	jbe	.LBB50_238
	movq	%rdx, %rax
	shrq	%rax
	movq	%rdx, %rcx
	subq	%rax, %rcx
	movq	%rsi, %rdi
	leaq	(%rsi,%rcx,8), %rsi
	movq	%rbx, %r15
	movq	%rdx, %rbx
	movq	%rax, %rdx
	movq	%rdi, %r12
	callq	core.slice.edits.mirror.27.ic_unsafe_ref.place.Place
	movq	%r12, %rsi
	movq	%rbx, %rdx
	movq	%r15, %rbx
	jmp	.LBB50_144
.LBB50_96:
	movq	%r11, 8(%rsp)
	pxor	%xmm0, %xmm0
	movdqa	%xmm0, 32(%rsp)
	leaq	32(%rsp), %rdi
	movq	%r14, %rsi
	movq	%rax, %rdx
	xorl	%ecx, %ecx
	callq	ic_world.world.World.hand_out.27dc223f7d016e2e
	cmpb	$0, 32(%rsp)
	jne	.LBB50_97
	jmp	.LBB50_103
.LBB50_98:
	leaq	128(%r14), %r15
	movq	128(%r14), %r13
	jmp	.LBB50_454
.LBB50_99:
	xorl	%esi, %esi
.LBB50_100:
	leaq	128(%r14), %r15
	movq	128(%r14), %r13
	leaq	.Lstatic.23(%rip), %r12
	movl	$22, %ebp
	movzbl	%sil, %eax
	leaq	.LJTI50_13(%rip), %rcx
	movslq	(%rcx,%rax,4), %rax
	addq	%rcx, %rax
	jmpq	*%rax
.LBB50_104:
	movl	$1, %ecx
	leaq	16(%rsp), %rdx
	xorl	%eax, %eax
	jmp	.LBB50_107
.LBB50_105:
	movl	$1, %edx
	jmp	.LBB50_107
.LBB50_106:
	xorl	%edx, %edx
.LBB50_107:
	movq	%rcx, 32(%rsp)
	movq	%rdx, 40(%rsp)
	movq	%rax, 48(%rsp)
	pxor	%xmm0, %xmm0
	movdqu	%xmm0, 56(%rsp)
	leaq	32(%rsp), %rdi
	callq	ic_any_collection.any_table.AnyTable.cover.f9617c8b158e2be4
	movzbl	32(%rsp), %ebx
	testb	%al, %al
	je	.LBB50_111
	cmpq	$2, %rbx
	je	.LBB50_113
	cmpl	$1, %ebx
	cmpq	$0, 56(%rsp)
	je	.LBB50_115
	movq	40(%rsp), %rdi
	jmp	.LBB50_114
.LBB50_111:
	movq	40(%rsp), %r15
	movq	48(%rsp), %r13
	movq	56(%rsp), %r12
	movq	64(%rsp), %rbp
	movq	56(%r14), %rcx
	movq	%rcx, %rax
	cmpq	%rcx, 64(%r14)
	movq	%rcx, 80(%rsp)
	je	.LBB50_267
.LBB50_112:
	movq	48(%r14), %rsi
	leaq	(%rax,%rax,2), %rdx
	shlq	$4, %rdx
	movq	%rbx, (%rsi,%rdx)
	movq	%r15, 8(%rsi,%rdx)
	movq	%r13, 16(%rsi,%rdx)
	movq	%r12, 24(%rsi,%rdx)
	movq	%rbp, 32(%rsi,%rdx)
	movb	$0, 40(%rsi,%rdx)
	incq	%rax
	movq	%rax, 56(%r14)
	movq	%rcx, %r12
	shrq	$8, %r12
	movq	128(%r14), %r13
	subq	$-128, %r14
	leaq	.Lstatic.43(%rip), %rsi
	leaq	.Lstatic.38(%rip), %r8
	movl	$6, %edx
	movl	$1, %r9d
	movq	104(%rsp), %rdi
	callq	ic_program.answers.push_numbered.714b863a58920bda
	movb	$3, %bpl
.LBB50_138:
	xorl	%esi, %esi
.LBB50_139:
	movq	%r14, %r15
.LBB50_140:
	testb	%al, %al
	je	.LBB50_142
.LBB50_141:
	movq	8(%rsp), %r11
	movq	80(%rsp), %rdx
	jmp	.LBB50_477
.LBB50_142:
	pxor	%xmm1, %xmm1
	xorl	%ebx, %ebx
	movq	8(%rsp), %r11
	movq	80(%rsp), %rdx
	jmp	.LBB50_479
.LBB50_113:
	movq	48(%rsp), %rdi
	movq	64(%rsp), %rax
	cmpb	$0, 40(%rsp)
	testq	%rax, %rax
	je	.LBB50_115
.LBB50_114:
	callq	rattle_dealloc@PLT
.LBB50_115:
	leaq	128(%r14), %r15
	movq	128(%r14), %r13
	leaq	.Lstatic.36(%rip), %r12
	movl	$23, %ebp
	movq	8(%rsp), %r11
	leaq	120(%r14), %rbx
	jmp	.LBB50_464
.LBB50_116:
	movq	%r11, 8(%rsp)
	movq	32(%r14), %rax
	movq	$0, (%rdx,%rsi)
	movq	%rax, 8(%rdx,%rsi)
	decq	24(%r14)
	movq	%rcx, 32(%r14)
	jmp	.LBB50_314
.LBB50_117:
	movq	8(%rdx,%rsi), %rcx
	cmpb	$0, (%rdx,%rsi)
	movq	$1, (%rdx,%rsi)
	movq	%rbx, 8(%rdx,%rsi)
	jne	.LBB50_485
.LBB50_118:
	movq	%rcx, 32(%r14)
	leaq	8(,%rax,8), %r8
	movq	8(%rsp), %r11
.LBB50_119:
	leaq	120(%r14), %rbx
	jmp	.LBB50_126
.LBB50_120:
	movzbl	%dl, %esi
	leaq	.LJTI50_1(%rip), %rdi
	movslq	(%rdi,%rsi,4), %rsi
	addq	%rdi, %rsi
	jmpq	*%rsi
.LBB50_121:
	movb	$2, %cl
	movzbl	%dl, %esi
	leaq	.LJTI50_1(%rip), %rdi
	movslq	(%rdi,%rsi,4), %rsi
	addq	%rdi, %rsi
	jmpq	*%rsi
.LBB50_122:
	movb	$3, %sil
	testb	$1, %cl
	je	.LBB50_100
	jmp	.LBB50_133
.LBB50_123:
	leaq	128(%r14), %r15
	movq	128(%r14), %r13
	jmp	.LBB50_455
.LBB50_124:
	addq	$24, %rax
.LBB50_125:
	movq	(%rax), %r8
	testq	%r8, %r8
	je	.LBB50_296
.LBB50_126:
	movq	%r8, %r12
	shrq	$8, %r12
	leaq	128(%r14), %r15
	movq	128(%r14), %r13
	movq	%r8, %rcx
	shrq	$3, %rcx
	decq	%rcx
	cmpq	$8007, %r8
	ja	.LBB50_129
	movq	%rbx, %rdi
	movzwl	%cx, %eax
	imull	$52429, %eax, %edx
	shrl	$19, %edx
	leal	(%rdx,%rdx), %esi
	leal	(%rsi,%rsi,4), %esi
	subl	%esi, %ecx
	orb	$48, %cl
	cmpq	$88, %r8
	jae	.LBB50_130
	movl	$9, %ebp
	movb	$10, %bl
	xorl	%r10d, %r10d
	movl	%ecx, %r9d
	xorl	%ecx, %ecx
	jmp	.LBB50_202
.LBB50_129:
	movq	%r8, 80(%rsp)
	movq	%r11, 8(%rsp)
	leaq	.Lstatic.37(%rip), %rsi
	leaq	.Lstatic.38(%rip), %r8
	movl	$7, %edx
	movl	$1, %r9d
	movq	%rbx, %rdi
	callq	ic_program.answers.push_numbered.714b863a58920bda
	movb	$2, %bpl
	xorl	%esi, %esi
	jmp	.LBB50_140
.LBB50_130:
	movzbl	%dl, %ebx
	imull	$205, %ebx, %edx
	shrl	$10, %edx
	andl	$-2, %edx
	leal	(%rdx,%rdx,4), %edx
	subb	%dl, %bl
	orb	$48, %bl
	cmpq	$808, %r8
	jae	.LBB50_201
	movl	$10, %ebp
	xorl	%r10d, %r10d
	movl	%ebx, %r9d
	movl	%ecx, %ebx
	movb	$10, %cl
	jmp	.LBB50_202
.LBB50_132:
	movb	$3, %sil
	cmpb	$3, %cl
	jne	.LBB50_100
.LBB50_133:
	movq	%r11, 8(%rsp)
	leaq	72(%r14), %rsi
	movzbl	%dl, %ecx
	movq	%rcx, 32(%rsp)
	movdqu	%xmm0, 40(%rsp)
	movdqu	%xmm0, 56(%rsp)
	leaq	128(%rsp), %rdi
	leaq	32(%rsp), %rcx
	movq	%rax, %rdx
	callq	ic_world.collections_by_number.CollectionsByNumber.push.372c0babcfdcaee8
	cmpb	$0, 128(%rsp)
	je	.LBB50_136
	movzbl	129(%rsp), %edx
.LBB50_135:
	leaq	128(%r14), %r15
	movq	128(%r14), %r13
	leaq	.Lstatic.23(%rip), %r12
	movl	$22, %ebp
	movzbl	%dl, %eax
	leaq	.LJTI50_13(%rip), %rcx
	movslq	(%rcx,%rax,4), %rax
	addq	%rcx, %rax
	movq	8(%rsp), %r11
	jmpq	*%rax
.LBB50_136:
	movq	136(%rsp), %rcx
	jmp	.LBB50_137
.LBB50_143:
	movq	40(%rsp), %rsi
	movq	48(%rsp), %rdx
	movq	56(%rsp), %rax
	movq	%rax, 24(%rsp)
.LBB50_144:
	movq	%rsi, %r12
	shrq	$8, %r12
	movq	128(%r14), %r13
	subq	$-128, %r14
	leaq	.Lstatic.38(%rip), %rcx
	movl	$1, %r8d
	movq	%rbx, %rdi
	movq	%rsi, 80(%rsp)
	callq	ic_program.answers.push_items.714b863a58920bda
	movb	$5, %bpl
.LBB50_145:
	movq	%r14, %r15
	movq	24(%rsp), %rsi
	jmp	.LBB50_140
.LBB50_146:
	movb	$3, %cl
.LBB50_147:
	leaq	128(%r14), %r15
	movq	128(%r14), %r13
	leaq	.Lstatic.23(%rip), %r12
	movl	$22, %ebp
	movzbl	%cl, %eax
	leaq	.LJTI50_13(%rip), %rcx
	movslq	(%rcx,%rax,4), %rax
	addq	%rcx, %rax
	jmpq	*%rax
.LBB50_148:
	movw	%bp, 128(%rsp)
	movq	%r13, 136(%rsp)
	movzbl	%sil, %r12d
	movq	%r12, 144(%rsp)
	movq	%r15, 152(%rsp)
	movb	$1, %dl
	cmpq	%rax, 80(%r14)
	jbe	.LBB50_452
	movq	%r13, 120(%rsp)
	movq	72(%r14), %rcx
	movl	4(%rcx,%rax,8), %ebx
	movl	$4294967295, %esi
	cmpq	%rsi, %rbx
	je	.LBB50_452
	movl	(%rcx,%rax,8), %r13d
	leaq	128(%rsp), %rdi
	movq	%r14, %rsi
	movq	%r11, 8(%rsp)
	callq	ic_world.calls.seek.SeekCollectionCall.is_placed.345c281869c73935
	movq	8(%rsp), %r11
	movb	$2, %dl
	testb	%al, %al
	je	.LBB50_452
	leaq	(,%r13,2), %rsi
	addq	%r13, %rsi
	movq	96(%r14), %rax
	movq	(%rax,%rsi,8), %rax
	shlq	$4, %rsi
	addq	48(%r14), %rsi
	leaq	(%rbx,%rbx,2), %rdx
	shlq	$4, %rdx
	leaq	(%rax,%rdx), %rdi
	addq	$8, %rdi
	movzbl	8(%rax,%rdx), %ecx
	cmpb	$2, %bpl
	je	.LBB50_340
	movzbl	%bpl, %r8d
	cmpl	$1, %r8d
	jne	.LBB50_343
	movb	$3, %dl
	cmpl	$2, %ecx
	je	.LBB50_452
	movq	120(%rsp), %rdx
	callq	ic_world.calls.seek.seek_on.87ed5b954c3afc77
	jmp	.LBB50_342
.LBB50_155:
	movb	$1, %dl
	cmpq	%rax, 80(%r14)
	jbe	.LBB50_452
	movq	72(%r14), %rsi
	movl	4(%rsi,%rax,8), %ecx
	movl	$4294967295, %edi
	cmpq	%rdi, %rcx
	je	.LBB50_452
	movq	%rbp, %rdi
	shrq	$3, %rdi
	decq	%rdi
	movb	$2, %dl
	cmpq	8(%r14), %rdi
	jae	.LBB50_452
	movq	(%r14), %r9
	shlq	$4, %rdi
	cmpb	$1, (%r9,%rdi)
	jne	.LBB50_452
	movl	%r8d, %edi
	andb	$-2, %dil
	movb	$3, %dl
	cmpb	$2, %dil
	jne	.LBB50_452
	movl	(%rsi,%rax,8), %eax
	leaq	(%rax,%rax,2), %rax
	movq	96(%r14), %rsi
	movq	(%rsi,%rax,8), %rsi
	shlq	$4, %rax
	addq	48(%r14), %rax
	leaq	(%rcx,%rcx,2), %rdi
	shlq	$4, %rdi
	leaq	(%rsi,%rdi), %rcx
	movzbl	8(%rsi,%rdi), %esi
	cmpb	$3, %r8b
	jne	.LBB50_366
	testl	%esi, %esi
	jne	.LBB50_452
	movdqa	%xmm0, 32(%rsp)
	movq	$0, 48(%rsp)
	leaq	16(%rcx), %rsi
	addq	$24, %rcx
	leaq	32(%rsp), %rdi
	movq	%rax, %rdx
	movq	%rbp, %r8
	movq	%r11, %rbx
	callq	ic_chain.edits.LinkListForwardOnly.replace_next_at.927dec3b43ebc9b0
	movq	%rbx, %r11
	cmpb	$1, 32(%rsp)
	movb	$6, %dl
	jne	.LBB50_452
	movq	40(%rsp), %r8
	movzbl	48(%rsp), %eax
	jmp	.LBB50_434
.LBB50_164:
	movb	$1, %dl
	cmpq	%rax, 80(%r14)
	jbe	.LBB50_452
	movq	72(%r14), %rsi
	movl	4(%rsi,%rax,8), %ecx
	movl	$4294967295, %edi
	cmpq	%rdi, %rcx
	je	.LBB50_452
	movl	(%rsi,%rax,8), %eax
	leaq	(%rax,%rax,2), %rsi
	movq	96(%r14), %rax
	movq	(%rax,%rsi,8), %rax
	shlq	$4, %rsi
	addq	48(%r14), %rsi
	leaq	(%rcx,%rcx,2), %rcx
	shlq	$4, %rcx
	leaq	(%rax,%rcx), %rdi
	addq	$8, %rdi
	testb	%r8b, %r8b
	je	.LBB50_292
	cmpb	$0, (%rdi)
	je	.LBB50_326
	movq	%r11, %rbx
	callq	ic_any_collection.any_collection.AnyCollection.move_prev.87ed5b954c3afc77
	jmp	.LBB50_293
.LBB50_169:
	movdqa	%xmm0, 32(%rsp)
	movb	$1, %dl
	cmpq	%rax, 80(%r14)
	jbe	.LBB50_198
	movq	72(%r14), %rsi
	movl	4(%rsi,%rax,8), %ecx
	movl	$4294967295, %edi
	cmpq	%rdi, %rcx
	je	.LBB50_198
	movl	(%rsi,%rax,8), %eax
	movq	%r13, %rsi
	shrq	$3, %rsi
	decq	%rsi
	movq	(%r14), %rdi
	movq	8(%r14), %r8
	movb	$2, %dl
	testb	%bpl, %bpl
	cmpq	%r8, %rsi
	jae	.LBB50_198
	shlq	$4, %rsi
	cmpb	$1, (%rdi,%rsi)
	jne	.LBB50_198
	movq	%r11, 8(%rsp)
	leaq	(%rax,%rax,2), %rax
	movq	%rax, %r8
	shlq	$4, %r8
	addq	48(%r14), %r8
	movq	96(%r14), %rdx
	movq	(%rdx,%rax,8), %rax
	leaq	(%rcx,%rcx,2), %rcx
	shlq	$4, %rcx
	addq	%rax, %rcx
	addq	$8, %rcx
	movzbl	%bpl, %esi
	leaq	32(%rsp), %rdi
	movq	%r13, %rdx
	movq	%r14, %r9
	callq	ic_world.calls.insertion.InsertionCollectionCall.run.345c281869c73935
	cmpb	$0, 32(%rsp)
	jne	.LBB50_189
	movq	40(%rsp), %rcx
	movq	%rcx, %r12
	shrq	$8, %r12
	movq	128(%r14), %r13
	subq	$-128, %r14
	leaq	.Lstatic.76(%rip), %rsi
	leaq	.Lstatic.38(%rip), %r8
	movl	$9, %edx
	movl	$1, %r9d
	movq	%rbx, %rdi
	movq	%rcx, 80(%rsp)
	callq	ic_program.answers.push_numbered.714b863a58920bda
	movb	$8, %bpl
	jmp	.LBB50_138
.LBB50_175:
	movb	$1, %dl
	cmpq	%rax, 80(%r14)
	jbe	.LBB50_452
	movq	72(%r14), %rsi
	movl	4(%rsi,%rax,8), %ecx
	movl	$4294967295, %edi
	cmpq	%rdi, %rcx
	je	.LBB50_452
	movl	(%rsi,%rax,8), %eax
	leaq	(%rax,%rax,2), %rsi
	movq	96(%r14), %rax
	movq	(%rax,%rsi,8), %rax
	shlq	$4, %rsi
	addq	48(%r14), %rsi
	leaq	(%rcx,%rcx,2), %rcx
	shlq	$4, %rcx
	leaq	(%rax,%rcx), %r15
	movzbl	8(%rax,%rcx), %ecx
	movzbl	%cl, %edx
	movzbl	%r8b, %eax
	leaq	.LJTI50_5(%rip), %rdi
	movslq	(%rdi,%rax,4), %r9
	addq	%rdi, %r9
	jmpq	*%r9
.LBB50_178:
	movl	%edx, %edx
	leaq	.LJTI50_7(%rip), %rdi
	movslq	(%rdi,%rdx,4), %r9
	addq	%rdi, %r9
	movl	%ecx, %edx
	jmpq	*%r9
.LBB50_179:
	movq	%r11, %rbx
	xorl	%eax, %eax
	jmp	.LBB50_329
.LBB50_180:
	movb	$1, %dl
	cmpq	%rax, 80(%r14)
	jbe	.LBB50_452
	movq	72(%r14), %rsi
	movl	4(%rsi,%rax,8), %ecx
	movl	$4294967295, %edi
	cmpq	%rdi, %rcx
	je	.LBB50_452
	movl	(%rsi,%rax,8), %eax
	movq	96(%r14), %rdx
	leaq	(%rax,%rax,2), %rsi
	movq	(%rdx,%rsi,8), %rax
	leaq	(%rcx,%rcx,2), %rcx
	shlq	$4, %rcx
	leaq	(%rax,%rcx), %rdi
	addq	$8, %rdi
	testb	%r8b, %r8b
	je	.LBB50_300
	movb	$3, %dl
	cmpb	$2, (%rdi)
	jne	.LBB50_452
	addq	%rcx, %rax
	movdqu	16(%rax), %xmm0
	pshufd	$78, %xmm0, %xmm0
	movdqu	%xmm0, 16(%rax)
.LBB50_185:
	pxor	%xmm0, %xmm0
	movdqu	%xmm0, 32(%rax)
	jmp	.LBB50_302
.LBB50_186:
	movzbl	%bpl, %ecx
	movq	%rcx, 176(%rsp)
	movq	%r13, 184(%rsp)
	movq	%rsi, 192(%rsp)
	movdqa	%xmm0, 48(%rsp)
	movdqa	%xmm0, 32(%rsp)
	cmpq	%rax, 80(%r14)
	jbe	.LBB50_200
	movq	72(%r14), %rcx
	movl	4(%rcx,%rax,8), %edx
	movl	$4294967295, %esi
	cmpq	%rsi, %rdx
	je	.LBB50_200
	movq	%r11, 8(%rsp)
	movl	(%rcx,%rax,8), %eax
	leaq	(%rax,%rax,2), %rax
	movq	%rax, %rcx
	shlq	$4, %rcx
	addq	48(%r14), %rcx
	movq	96(%r14), %rsi
	movq	(%rsi,%rax,8), %rax
	leaq	(%rdx,%rdx,2), %rdx
	shlq	$4, %rdx
	addq	%rax, %rdx
	addq	$8, %rdx
	leaq	32(%rsp), %rdi
	leaq	176(%rsp), %rsi
	movq	%r14, %r8
	callq	ic_world.calls.search.SearchKeyCollectionCall.run.345c281869c73935
	cmpb	$0, 32(%rsp)
	je	.LBB50_303
.LBB50_189:
	movzbl	33(%rsp), %edx
	movq	8(%rsp), %r11
	jmp	.LBB50_452
.LBB50_190:
	movq	%rbp, 160(%rsp)
	movq	%r13, 168(%rsp)
	movdqa	%xmm0, 48(%rsp)
	movdqa	%xmm0, 32(%rsp)
	movq	$0, 64(%rsp)
	movb	$1, %cl
	cmpq	%rax, 80(%r14)
	jbe	.LBB50_199
	movq	72(%r14), %rsi
	movl	4(%rsi,%rax,8), %edx
	movl	$4294967295, %edi
	cmpq	%rdi, %rdx
	je	.LBB50_199
	shrq	$3, %r13
	decq	%r13
	movb	$2, %cl
	cmpq	8(%r14), %r13
	jae	.LBB50_199
	movq	(%r14), %rdi
	shlq	$4, %r13
	cmpb	$1, (%rdi,%r13)
	jne	.LBB50_199
	movq	%rbx, 104(%rsp)
	movq	%r11, 8(%rsp)
	movl	(%rsi,%rax,8), %eax
	leaq	(%rax,%rax,2), %rax
	movq	%rax, %rcx
	shlq	$4, %rcx
	addq	48(%r14), %rcx
	movq	96(%r14), %rsi
	movq	(%rsi,%rax,8), %rax
	leaq	(%rdx,%rdx,2), %rdx
	shlq	$4, %rdx
	addq	%rax, %rdx
	addq	$8, %rdx
	leaq	32(%rsp), %rdi
	leaq	160(%rsp), %rsi
	movq	%r14, %r8
	callq	ic_world.calls.insertion.EntryAtKeyCollectionCall.run.345c281869c73935
	cmpb	$0, 32(%rsp)
	jne	.LBB50_189
	movb	$9, %dl
	cmpb	$1, 40(%rsp)
	movq	8(%rsp), %r11
	jne	.LBB50_452
	movq	56(%rsp), %rcx
	movq	64(%rsp), %r15
	movq	%rcx, %r12
	shrq	$8, %r12
	movq	128(%r14), %r13
	subq	$-128, %r14
	movq	%rcx, 80(%rsp)
	shrq	$3, %rcx
	decq	%rcx
	cmpb	$1, 48(%rsp)
	jne	.LBB50_404
	leaq	.Lstatic.77(%rip), %rsi
	jmp	.LBB50_405
.LBB50_198:
	leaq	128(%r14), %r15
	movq	128(%r14), %r13
	leaq	.Lstatic.23(%rip), %r12
	movl	$22, %ebp
	movzbl	%dl, %eax
	leaq	.LJTI50_13(%rip), %rcx
	movslq	(%rcx,%rax,4), %rax
	addq	%rcx, %rax
	jmpq	*%rax
.LBB50_199:
	leaq	128(%r14), %r15
	movq	128(%r14), %r13
	leaq	.Lstatic.23(%rip), %r12
	movl	$22, %ebp
	movzbl	%cl, %eax
	leaq	.LJTI50_13(%rip), %rcx
	movslq	(%rcx,%rax,4), %rax
	addq	%rcx, %rax
	jmpq	*%rax
.LBB50_200:
	movb	$1, %al
	leaq	128(%r14), %r15
	movq	128(%r14), %r13
	leaq	.Lstatic.23(%rip), %r12
	movl	$22, %ebp
	movzbl	%al, %eax
	leaq	.LJTI50_13(%rip), %rcx
	movslq	(%rcx,%rax,4), %rax
	addq	%rcx, %rax
	jmpq	*%rax
.LBB50_201:
	shrl	$2, %eax
	imull	$5243, %eax, %r9d
	shrl	$17, %r9d
	orb	$48, %r9b
	movl	$11, %ebp
	movb	$10, %r10b
.LBB50_202:
	movq	136(%r14), %rax
	movq	%rax, %rsi
	subq	%r13, %rsi
	movq	%r13, %rdx
	cmpq	$10, %rsi
	jbe	.LBB50_277
.LBB50_203:
	leaq	11(%rdx), %rsi
	movq	120(%r14), %rdi
	movl	$1701470831, (%rdi,%rdx)
	movw	$29795, 4(%rdi,%rdx)
	movb	$32, 6(%rdi,%rdx)
	movb	%r9b, 7(%rdi,%rdx)
	movb	%bl, 8(%rdi,%rdx)
	movb	%cl, 9(%rdi,%rdx)
	movb	%r10b, 10(%rdi,%rdx)
	movq	%rdi, 120(%r14)
	movq	%rsi, 128(%r14)
	movq	%rax, 136(%r14)
	addq	%r13, %rbp
	pxor	%xmm1, %xmm1
	cmpq	%rbp, %rsi
	ja	.LBB50_469
	jmp	.LBB50_470
.LBB50_205:
	testq	%rcx, %rcx
	je	.LBB50_213
	movq	96(%rsp), %rax
	movq	16(%r8,%rax), %rax
	movq	%rcx, %rdi
.LBB50_207:
	movq	%rdi, %r15
	shrq	$3, %rdi
	leaq	(%rdi,%rdi,2), %rdi
	movq	-24(%rax,%rdi,8), %rdi
	testq	%rdi, %rdi
	jne	.LBB50_207
	movq	$0, 112(%rsp)
	jmp	.LBB50_214
.LBB50_209:
	testq	%rcx, %rcx
	je	.LBB50_213
	movq	%rbx, %r12
	movq	%r11, %rbx
	movq	96(%rsp), %rax
	movq	16(%r8,%rax), %rdi
	movq	(%r14), %r8
	xorl	%r15d, %r15d
	movq	%rcx, %r9
	xorl	%eax, %eax
.LBB50_211:
	movq	%r9, %r10
	shrq	$3, %r10
	leaq	(%r10,%r10,2), %r11
	movq	-24(%rdi,%r11,8), %r10
	movq	-16(%rdi,%r11,8), %r11
	incq	%r15
	cmpq	%rbp, -8(%r8,%r9,2)
	cmovaeq	%r9, %rax
	movq	%r10, %r9
	cmovbq	%r11, %r9
	testq	%r9, %r9
	jne	.LBB50_211
.LBB50_212:
	movq	%r15, 112(%rsp)
	xorl	%r15d, %r15d
	testq	%r11, %r11
	cmoveq	%rax, %r15
	testq	%r10, %r10
	cmoveq	%rax, %r15
	movq	%rbx, %r11
	movq	%r12, %rbx
	movq	24(%rsp), %r8
	jmp	.LBB50_214
.LBB50_213:
	movq	$0, 112(%rsp)
	xorl	%r15d, %r15d
.LBB50_214:
	cmpb	$2, %r13b
	movq	%rdx, 208(%rsp)
	movq	%r11, 8(%rsp)
	je	.LBB50_219
	movzbl	%r13b, %eax
	cmpl	$1, %eax
	jne	.LBB50_223
	testq	%rcx, %rcx
	je	.LBB50_271
	movq	96(%rsp), %rax
	movq	16(%r8,%rax), %rax
	movq	(%r14), %r8
	xorl	%r12d, %r12d
	xorl	%edi, %edi
.LBB50_218:
	movq	%rcx, %r9
	shrq	$3, %r9
	leaq	(%r9,%r9,2), %r10
	movq	-24(%rax,%r10,8), %r9
	movq	-16(%rax,%r10,8), %r10
	incq	%r12
	cmpq	%rsi, -8(%r8,%rcx,2)
	cmovbq	%rcx, %rdi
	movq	%r9, %rcx
	cmovbq	%r10, %rcx
	testq	%rcx, %rcx
	jne	.LBB50_218
	jmp	.LBB50_226
.LBB50_219:
	testq	%rcx, %rcx
	je	.LBB50_271
	movq	96(%rsp), %rax
	movq	16(%r8,%rax), %rax
.LBB50_221:
	movq	%rcx, %rbx
	shrq	$3, %rcx
	leaq	(%rcx,%rcx,2), %rcx
	movq	-16(%rax,%rcx,8), %rcx
	testq	%rcx, %rcx
	jne	.LBB50_221
	xorl	%r12d, %r12d
	jmp	.LBB50_227
.LBB50_223:
	testq	%rcx, %rcx
	je	.LBB50_271
	movq	96(%rsp), %rax
	movq	16(%r8,%rax), %rax
	movq	(%r14), %r8
	xorl	%r12d, %r12d
	xorl	%edi, %edi
.LBB50_225:
	movq	%rcx, %r9
	shrq	$3, %r9
	leaq	(%r9,%r9,2), %r10
	movq	-24(%rax,%r10,8), %r9
	movq	-16(%rax,%r10,8), %r10
	incq	%r12
	cmpq	%rsi, -8(%r8,%rcx,2)
	cmovbeq	%rcx, %rdi
	movq	%r10, %rcx
	cmovaq	%r9, %rcx
	testq	%rcx, %rcx
	jne	.LBB50_225
.LBB50_226:
	xorl	%ebx, %ebx
	testq	%r10, %r10
	cmoveq	%rdi, %rbx
	testq	%r9, %r9
	cmoveq	%rdi, %rbx
.LBB50_227:
	testq	%r15, %r15
	je	.LBB50_230
	testq	%rbx, %rbx
	je	.LBB50_230
	movq	(%r14), %rcx
	movq	-8(%rcx,%rbx,2), %rdx
	cmpq	-8(%rcx,%r15,2), %rdx
	jae	.LBB50_246
.LBB50_230:
	leaq	120(%r14), %rbx
	jmp	.LBB50_272
.LBB50_271:
	xorl	%r12d, %r12d
.LBB50_272:
	leaq	16(%rsp), %rsi
	movq	$0, 24(%rsp)
	xorl	%edx, %edx
.LBB50_273:
	movq	112(%rsp), %r15
	xorl	%eax, %eax
	cmpb	$2, %r13b
	cmovneq	%r12, %rax
	movq	%rax, 96(%rsp)
	movq	%rsi, %r12
	shrq	$8, %r12
	movq	128(%r14), %r13
	subq	$-128, %r14
	leaq	.Lstatic.79(%rip), %rcx
	movl	$7, %r8d
	movq	%rbx, %rdi
	movq	%rsi, 80(%rsp)
	callq	ic_program.answers.push_items.714b863a58920bda
	movb	$9, %bpl
	testb	%al, %al
	jne	.LBB50_275
	xorl	%eax, %eax
	cmpb	$2, 208(%rsp)
	cmoveq	%rax, %r15
	leaq	.Lstatic.80(%rip), %rsi
	leaq	.Lstatic.82(%rip), %r8
	movl	$1, %r9d
	movq	%rbx, %rdi
	xorl	%edx, %edx
	movq	%r15, %rcx
	callq	ic_program.answers.push_numbered.714b863a58920bda
	testb	%al, %al
	je	.LBB50_276
.LBB50_275:
	movq	%r14, %r15
	movq	8(%rsp), %r11
	movq	80(%rsp), %rdx
	movq	24(%rsp), %rsi
	jmp	.LBB50_477
.LBB50_231:
	cmpb	$0, 8(%rsi,%rax)
	movq	16(%rsi,%rax), %rsi
	je	.LBB50_279
	leaq	(%rcx,%rcx,2), %rdx
	leaq	128(%r14), %r15
	leaq	136(%r14), %rbx
	movq	128(%r14), %r13
	movq	136(%r14), %rax
	movq	%rax, %rcx
	subq	%r13, %rcx
	testb	$2, -8(%rsi,%rdx,8)
	je	.LBB50_65
.LBB50_233:
	cmpq	$6, %rcx
	jbe	.LBB50_357
.LBB50_234:
	movq	104(%rsp), %rcx
	movq	(%rcx), %rcx
	leaq	(%rcx,%r13), %rdx
	addq	$7, %r13
	leaq	.Lstatic.72(%rip), %rsi
	movq	%rdx, %rdi
	subq	%rsi, %rdi
	cmpq	$6, %rdi
	ja	.LBB50_244
	movl	$1802398060, (%rdx)
	movw	$25701, 4(%rdx)
	movb	$10, 6(%rdx)
	jmp	.LBB50_245
.LBB50_236:
	cmpb	$0, 8(%r8)
	movq	16(%r8), %rsi
	je	.LBB50_280
	leaq	(,%rbx,8), %rdi
	leaq	(%rdi,%rdi,2), %rdi
	movb	$1, %r10b
	testb	$2, -8(%rsi,%rdi)
	jne	.LBB50_282
	jmp	.LBB50_313
.LBB50_276:
	leaq	.Lstatic.80(%rip), %rsi
	leaq	.Lstatic.38(%rip), %r8
	movl	$1, %r9d
	movq	%rbx, %rdi
	xorl	%edx, %edx
	movq	96(%rsp), %rcx
	callq	ic_program.answers.push_numbered.714b863a58920bda
	movb	$9, %bpl
	jmp	.LBB50_145
.LBB50_238:
	cmpq	$2, %rdx
	jb	.LBB50_144
	leaq	-2(%rdx), %rcx
	movq	%rcx, %rax
	shrq	%rax
	cmpq	$1, %rdx
	je	.LBB50_241
	movq	%rsi, %r8
	movq	(%rsi), %rsi
	movq	-8(%r8,%rdx,8), %rdi
	movq	%rdi, (%r8)
	movq	%rsi, -8(%r8,%rdx,8)
	movq	%r8, %rsi
.LBB50_241:
	testq	%rax, %rax
	je	.LBB50_144
	cmpq	$1, %rcx
	jbe	.LBB50_345
	movq	8(%rsi), %rcx
	movq	%rsi, %rdi
	movq	-16(%rsi,%rdx,8), %rsi
	movq	%rsi, 8(%rdi)
	movq	%rdi, %rsi
	movq	%rcx, -16(%rdi,%rdx,8)
	jmp	.LBB50_347
.LBB50_244:
	movl	$174351723, 3(%rdx)
	movl	$1802398060, (%rdx)
.LBB50_245:
	movq	104(%rsp), %rdx
	movq	%rcx, (%rdx)
	movq	%r13, (%r15)
	movq	%rax, (%rbx)
	jmp	.LBB50_320
.LBB50_246:
	movq	%r13, 120(%rsp)
	leaq	16(%rsp), %rcx
	movq	%rcx, 32(%rsp)
	pxor	%xmm0, %xmm0
	movdqu	%xmm0, 40(%rsp)
	movb	$1, %sil
	xorl	%edx, %edx
	movq	%r15, %rbp
	movq	96(%rsp), %r11
	movq	24(%rsp), %r10
	jmp	.LBB50_249
.LBB50_247:
	xorl	%esi, %esi
.LBB50_248:
	movq	%rsi, %r15
	testb	%r13b, %r13b
	movq	80(%rsp), %rsi
	jne	.LBB50_266
.LBB50_249:
	movq	%rbp, %r8
	movl	%esi, %edi
	movq	%rbx, %rsi
	xorl	%ebp, %ebp
	testb	%dil, %dil
	movq	%rbx, %r9
	cmoveq	%rbp, %r9
	movb	$1, %r13b
	movl	$0, %ebx
	movq	%rbx, 80(%rsp)
	movl	$0, %ebx
	cmpq	%r8, %r9
	je	.LBB50_258
	leaq	(%r8,%r8,2), %r9
	movq	-16(%rax,%r9), %r10
	testq	%r10, %r10
	je	.LBB50_253
	.p2align	4
.LBB50_251:
	movq	%r10, %rbp
	movq	%r10, %r8
	shrq	$3, %r8
	leaq	(%r8,%r8,2), %r8
	movq	-24(%rax,%r8,8), %r10
	testq	%r10, %r10
	jne	.LBB50_251
	xorl	%r13d, %r13d
	movl	%edi, %eax
	movq	%rax, 80(%rsp)
	movq	%rsi, %rbx
	movq	24(%rsp), %r10
	jmp	.LBB50_258
.LBB50_253:
	movq	24(%rsp), %r10
.LBB50_254:
	movq	-8(%rax,%r9), %r9
	movq	%r9, %rbp
	andq	$-8, %rbp
	sete	%r13b
	je	.LBB50_256
	andq	$-8, %r9
	leaq	(%r9,%r9,2), %r9
	cmpq	%r8, -16(%rax,%r9)
	movq	%rbp, %r8
	je	.LBB50_254
	jmp	.LBB50_257
.LBB50_256:
	xorl	%ebp, %ebp
.LBB50_257:
	movl	%edi, %eax
	movq	%rax, 80(%rsp)
	movq	%rsi, %rbx
.LBB50_258:
	testq	%r15, %r15
	je	.LBB50_485
	cmpq	%rdx, 48(%rsp)
	je	.LBB50_264
.LBB50_260:
	movq	%r15, (%rcx,%rdx,8)
	incq	%rdx
	movq	%rdx, 40(%rsp)
	movq	16(%r10,%r11), %rax
	leaq	(%r15,%r15,2), %rdi
	movq	-16(%rax,%rdi), %r8
	testq	%r8, %r8
	je	.LBB50_262
	.p2align	4
.LBB50_261:
	movq	%r8, %rsi
	movq	%r8, %rdi
	shrq	$3, %rdi
	leaq	(%rdi,%rdi,2), %rdi
	movq	-24(%rax,%rdi,8), %r8
	testq	%r8, %r8
	jne	.LBB50_261
	jmp	.LBB50_248
	.p2align	4
.LBB50_262:
	movq	-8(%rax,%rdi), %rdi
	movq	%rdi, %rsi
	andq	$-8, %rsi
	je	.LBB50_247
	andq	$-8, %rdi
	leaq	(%rdi,%rdi,2), %rdi
	cmpq	%r15, -16(%rax,%rdi)
	movq	%rsi, %r15
	je	.LBB50_262
	jmp	.LBB50_248
.LBB50_264:
	leaq	32(%rsp), %rdi
	callq	std_alloc.vec.Vec.grow_amortized.34b4ac368a9081d8
	testb	%al, %al
	je	.LBB50_393
	movq	32(%rsp), %rcx
	movq	40(%rsp), %rdx
	movq	96(%rsp), %r11
	movq	24(%rsp), %r10
	jmp	.LBB50_260
.LBB50_266:
	movq	32(%rsp), %rsi
	movq	48(%rsp), %rax
	movq	%rax, 24(%rsp)
	leaq	120(%r14), %rbx
	movq	120(%rsp), %r13
	jmp	.LBB50_273
.LBB50_267:
	leaq	48(%r14), %rdi
	callq	std_alloc.vec.Vec.grow_amortized.240d24d5d7197e22
	testb	%al, %al
	je	.LBB50_306
	movq	56(%r14), %rax
	movq	80(%rsp), %rcx
	jmp	.LBB50_112
.LBB50_277:
	movl	%r10d, 112(%rsp)
	movl	%r9d, 96(%rsp)
	movq	%r8, 80(%rsp)
	movq	%r11, 8(%rsp)
	movq	%rcx, 24(%rsp)
	movl	$11, %esi
	callq	std_alloc.vec.Vec.grow_amortized.3f7cc1ad5d64d7d7
	testb	%al, %al
	je	.LBB50_335
	movq	128(%r14), %rdx
	movq	136(%r14), %rax
	movq	24(%rsp), %rcx
	movq	8(%rsp), %r11
	movl	96(%rsp), %r9d
	movl	112(%rsp), %r10d
	jmp	.LBB50_203
.LBB50_279:
	leaq	128(%r14), %r15
	leaq	136(%r14), %rbx
	movq	128(%r14), %r13
	movq	136(%r14), %rax
	movq	%rax, %rcx
	subq	%r13, %rcx
	cmpq	$1, -16(%rsi,%rdx,2)
	je	.LBB50_65
	jmp	.LBB50_233
.LBB50_280:
	cmpq	$1, -16(%rsi,%rdx,2)
	je	.LBB50_324
	xorl	%r10d, %r10d
.LBB50_282:
	movq	%r10, 96(%rsp)
	movl	%r9d, 24(%rsp)
	movq	%r8, 80(%rsp)
	cmpb	$1, 40(%r8)
	jne	.LBB50_291
	cmpq	%rax, 104(%r14)
	jbe	.LBB50_288
	movq	96(%r14), %rax
	movq	8(%rax,%rcx,8), %rbp
	testq	%rbp, %rbp
	je	.LBB50_288
	movq	(%rax,%rcx,8), %r12
	addq	$-40, %r12
.LBB50_286:
	addq	$48, %r12
	movq	%r12, %rdi
	movq	80(%rsp), %rsi
	movq	%rdx, %r13
	movq	%r11, %r15
	callq	ic_any_collection.any_collection.AnyCollection.contains.87ed5b954c3afc77
	movq	%r15, %r11
	testb	%al, %al
	jne	.LBB50_291
	movq	%r13, %rdx
	decq	%rbp
	jne	.LBB50_286
.LBB50_288:
	movl	24(%rsp), %eax
	cmpl	$2, %eax
	je	.LBB50_311
	cmpl	$1, %eax
	movq	80(%rsp), %rax
	movq	8(%rax), %r10
.LBB50_290:
	movq	%r11, 8(%rsp)
	movq	$1, -8(%r10,%rdx)
	jmp	.LBB50_314
.LBB50_291:
	leaq	128(%r14), %r15
	movq	128(%r14), %r13
	leaq	.Lstatic.33(%rip), %r12
	movl	$20, %ebp
	leaq	120(%r14), %rbx
	jmp	.LBB50_464
.LBB50_292:
	movq	%r11, %rbx
	callq	ic_any_collection.any_collection.AnyCollection.move_next.87ed5b954c3afc77
.LBB50_293:
	movq	%rdx, %r8
.LBB50_294:
	cmpb	$1, %al
	movq	%rbx, %r11
	je	.LBB50_119
	leaq	120(%r14), %rbx
.LBB50_296:
	movq	128(%r14), %r13
	movq	136(%r14), %rax
	movq	%rax, %rcx
	subq	%r13, %rcx
	cmpq	$4, %rcx
	jbe	.LBB50_333
.LBB50_297:
	movq	(%rbx), %rcx
	leaq	(%rcx,%r13), %rdx
	addq	$5, %r13
	leaq	.Lstatic.71(%rip), %rsi
	movq	%rdx, %rdi
	subq	%rsi, %rdi
	cmpq	$4, %rdi
	ja	.LBB50_299
	movl	$1701736302, (%rdx)
	movb	$10, 4(%rdx)
	jmp	.LBB50_319
.LBB50_299:
	movb	$10, 4(%rdx)
	movl	$1701736302, (%rdx)
	jmp	.LBB50_319
.LBB50_300:
	shlq	$4, %rsi
	addq	48(%r14), %rsi
	movq	%r11, %rbx
	callq	ic_any_collection.any_collection.AnyCollection.unlink_all.87ed5b954c3afc77
.LBB50_301:
	movq	%rbx, %r11
.LBB50_302:
	movq	%r11, 8(%rsp)
	jmp	.LBB50_314
.LBB50_303:
	movzbl	40(%rsp), %eax
	movq	56(%rsp), %rcx
	movq	128(%r14), %r13
	subq	$-128, %r14
	testb	%al, %al
	je	.LBB50_350
	movq	%rcx, 24(%rsp)
	movq	%rax, 80(%rsp)
	movq	48(%rsp), %rcx
	shrq	$3, %rcx
	decq	%rcx
	leaq	.Lstatic.37(%rip), %rsi
	leaq	.Lstatic.79(%rip), %r8
	movl	$7, %edx
	movl	$7, %r9d
	movq	%rbx, %rdi
	callq	ic_program.answers.push_numbered.714b863a58920bda
	testb	%al, %al
	je	.LBB50_352
	movb	$7, %bpl
	xorl	%r12d, %r12d
	jmp	.LBB50_275
.LBB50_306:
	cmpq	$2, %rbx
	je	.LBB50_353
	cmpl	$1, %ebx
	testq	%r12, %r12
	je	.LBB50_115
	movq	%r15, %rdi
	jmp	.LBB50_114
.LBB50_309:
	incq	%rsi
	movq	%r14, %rdi
	callq	std_alloc.vec.Vec.grow_amortized.88ac1d64e9c54581
	testb	%al, %al
	je	.LBB50_115
	movq	24(%r14), %rcx
	jmp	.LBB50_58
.LBB50_311:
	movq	80(%rsp), %rax
	movq	16(%rax), %rsi
	cmpb	$0, 96(%rsp)
	je	.LBB50_324
	shlq	$3, %rbx
	leaq	(%rbx,%rbx,2), %rdi
.LBB50_313:
	movq	%r11, 8(%rsp)
	movq	$0, -8(%rsi,%rdi)
.LBB50_314:
	leaq	120(%r14), %rbx
.LBB50_315:
	movq	128(%r14), %r13
	movq	136(%r14), %rax
	movq	%rax, %rcx
	subq	%r13, %rcx
	cmpq	$2, %rcx
	jbe	.LBB50_321
.LBB50_316:
	movq	8(%rsp), %r11
	movq	(%rbx), %rcx
	leaq	(%rcx,%r13), %rdx
	addq	$3, %r13
	leaq	.Lstatic.70(%rip), %rsi
	movq	%rdx, %rdi
	subq	%rsi, %rdi
	cmpq	$2, %rdi
	ja	.LBB50_318
	movw	$27503, (%rdx)
	movb	$10, 2(%rdx)
	jmp	.LBB50_319
.LBB50_318:
	movb	$10, 2(%rdx)
	movw	$27503, (%rdx)
.LBB50_319:
	movq	%rcx, 120(%r14)
	movq	%r13, 128(%r14)
	movq	%rax, 136(%r14)
.LBB50_320:
	pxor	%xmm1, %xmm1
	xorl	%ebx, %ebx
	jmp	.LBB50_480
.LBB50_321:
	movl	$3, %esi
	movq	%rbx, %rdi
	callq	std_alloc.vec.Vec.grow_amortized.3f7cc1ad5d64d7d7
	testb	%al, %al
	je	.LBB50_323
	movq	128(%r14), %r13
	movq	136(%r14), %rax
	jmp	.LBB50_316
.LBB50_323:
	subq	$-128, %r14
	xorl	%r12d, %r12d
	movq	%r14, %r15
	xorl	%edx, %edx
	xorl	%ebp, %ebp
	jmp	.LBB50_476
.LBB50_324:
	movq	%r11, 8(%rsp)
	addq	%rdx, %rdx
	leaq	120(%r14), %rbx
	movq	$1, -16(%rsi,%rdx)
	jmp	.LBB50_315
.LBB50_325:
	movl	%edx, %ecx
	leaq	.LJTI50_6(%rip), %rdx
	movslq	(%rdx,%rcx,4), %rcx
	addq	%rdx, %rcx
	jmpq	*%rcx
.LBB50_326:
	movb	$3, %dl
	jmp	.LBB50_452
.LBB50_327:
	movb	$3, %dl
	testb	%cl, %cl
	jne	.LBB50_452
	movq	%r11, %rbx
	movq	24(%r15), %rax
.LBB50_329:
	leaq	16(%r15), %rdi
	movq	%rax, 32(%rsp)
	leaq	32(%rsp), %rdx
	callq	ic_chain.edits.LinkListForwardOnly.remove_next_at.927dec3b43ebc9b0
	movq	%rdx, %r8
	movq	32(%rsp), %rcx
	movq	%rcx, 24(%r15)
	jmp	.LBB50_294
.LBB50_330:
	leal	-1(%rcx), %edi
	movb	$3, %dl
	cmpb	$2, %dil
	jae	.LBB50_452
	cmpb	$2, %cl
	jne	.LBB50_336
	movq	%r11, %rbx
	leaq	16(%r15), %rdi
	callq	ic_chain.list.LinkList.pop_back.7fb09df028d12790
	jmp	.LBB50_383
.LBB50_333:
	movq	%rbx, %rdi
	movq	%r11, %rbx
	movl	$5, %esi
	movq	%rdi, %r15
	callq	std_alloc.vec.Vec.grow_amortized.3f7cc1ad5d64d7d7
	testb	%al, %al
	je	.LBB50_351
	movq	128(%r14), %r13
	movq	136(%r14), %rax
	movq	%rbx, %r11
	movq	%r15, %rbx
	jmp	.LBB50_297
.LBB50_335:
	movb	$2, %bpl
	xorl	%esi, %esi
	jmp	.LBB50_141
.LBB50_336:
	cmpb	$2, (%rsi)
	jne	.LBB50_485
	leaq	16(%r15), %rdi
	addq	$32, %r15
	addq	$8, %rsi
	movq	%r11, %rbx
	cmpb	$2, %r8b
	je	.LBB50_384
	cmpl	$1, %eax
	jne	.LBB50_385
	callq	ic_chain.list.LinkList.pop_back.ec8c7c940301e4bd
	jmp	.LBB50_386
.LBB50_340:
	movb	$3, %dl
	cmpl	$2, %ecx
	jne	.LBB50_452
	shrl	$8, %ebp
	movzbl	%bpl, %edx
	movq	120(%rsp), %rcx
	movl	%r12d, %r8d
	movq	%r15, %r9
	callq	ic_world.calls.seek.seek_with.87ed5b954c3afc77
.LBB50_342:
	testb	$1, %al
	movq	8(%rsp), %r11
	je	.LBB50_302
	jmp	.LBB50_452
.LBB50_343:
	addq	%rdx, %rax
	movl	%ecx, %ecx
	leaq	.LJTI50_8(%rip), %rdx
	movslq	(%rdx,%rcx,4), %rcx
	addq	%rdx, %rcx
	jmpq	*%rcx
.LBB50_344:
	movq	$0, 24(%rax)
	jmp	.LBB50_302
.LBB50_345:
	testq	%rcx, %rcx
	jne	.LBB50_347
	movq	(%rsi), %rcx
	movq	%rsi, %rdi
	movq	8(%rsi), %rsi
	movq	%rsi, (%rdi)
	movq	%rdi, %rsi
	movq	%rcx, 8(%rdi)
.LBB50_347:
	cmpq	$1, %rax
	je	.LBB50_144
	leaq	-3(%rdx), %rcx
	cmpq	$2, %rcx
	jbe	.LBB50_360
	movq	16(%rsi), %rcx
	movq	%rsi, %rdi
	movq	-24(%rsi,%rdx,8), %rsi
	movq	%rsi, 16(%rdi)
	movq	%rdi, %rsi
	movq	%rcx, -24(%rdi,%rdx,8)
	jmp	.LBB50_362
.LBB50_350:
	leaq	.Lstatic.75(%rip), %rsi
	leaq	.Lstatic.38(%rip), %r8
	movl	$11, %edx
	movl	$1, %r9d
	movq	%rbx, %rdi
	movq	%rcx, %rbx
	callq	ic_program.answers.push_numbered.714b863a58920bda
	movq	%rbx, %rsi
	movb	$7, %bpl
	xorl	%r12d, %r12d
	movq	%r14, %r15
	movq	$0, 80(%rsp)
	jmp	.LBB50_140
.LBB50_351:
	subq	$-128, %r14
	movb	$1, %bpl
	xorl	%r12d, %r12d
	movq	%r14, %r15
	xorl	%edx, %edx
	xorl	%esi, %esi
	movq	%rbx, %r11
	jmp	.LBB50_477
.LBB50_352:
	leaq	.Lstatic.80(%rip), %rsi
	leaq	.Lstatic.38(%rip), %r8
	xorl	%r12d, %r12d
	movl	$1, %r9d
	movq	%rbx, %rdi
	xorl	%edx, %edx
	movq	24(%rsp), %rbx
	movq	%rbx, %rcx
	callq	ic_program.answers.push_numbered.714b863a58920bda
	movq	%rbx, %rsi
	movb	$7, %bpl
	jmp	.LBB50_139
.LBB50_353:
	testb	%r15b, %r15b
	testq	%rbp, %rbp
	je	.LBB50_115
	movq	%r13, %rdi
	jmp	.LBB50_114
.LBB50_355:
	movq	%r11, %r14
	movl	$9, %esi
	movq	104(%rsp), %rdi
	callq	std_alloc.vec.Vec.grow_amortized.3f7cc1ad5d64d7d7
	testb	%al, %al
	je	.LBB50_359
	movq	(%r15), %r13
	movq	(%rbx), %rax
	movq	%r14, %r11
	jmp	.LBB50_66
.LBB50_357:
	movq	%r11, %r14
	movl	$7, %esi
	movq	104(%rsp), %rdi
	callq	std_alloc.vec.Vec.grow_amortized.3f7cc1ad5d64d7d7
	testb	%al, %al
	je	.LBB50_359
	movq	(%r15), %r13
	movq	(%rbx), %rax
	movq	%r14, %r11
	jmp	.LBB50_234
.LBB50_359:
	movb	$6, %bpl
	xorl	%r12d, %r12d
	xorl	%edx, %edx
	xorl	%esi, %esi
	movq	%r14, %r11
	jmp	.LBB50_477
.LBB50_360:
	je	.LBB50_362
	movq	-24(%rsi,%rdx,8), %rcx
	movq	%rsi, %rdi
	movq	16(%rsi), %rsi
	movq	%rsi, -24(%rdi,%rdx,8)
	movq	%rdi, %rsi
	movq	%rcx, 16(%rdi)
.LBB50_362:
	cmpq	$2, %rax
	je	.LBB50_144
	leaq	-4(%rdx), %rcx
	cmpq	$3, %rcx
	jbe	.LBB50_388
	movq	24(%rsi), %rcx
	movq	%rsi, %rdi
	movq	-32(%rsi,%rdx,8), %rsi
	movq	%rsi, 24(%rdi)
	movq	%rdi, %rsi
	movq	%rcx, -32(%rdi,%rdx,8)
	jmp	.LBB50_390
.LBB50_365:
	movq	%r11, %rbx
	leaq	16(%r15), %rdi
	addq	$32, %r15
	movq	%r15, %rdx
	callq	ic_chain.edits.LinkListBidirectional.remove_at.d62ae654698fb858
	jmp	.LBB50_293
.LBB50_366:
	testl	%esi, %esi
	je	.LBB50_452
	movq	%r11, %rbx
	cmpl	$3, %esi
	je	.LBB50_427
	cmpl	$2, %esi
	jne	.LBB50_430
	leaq	16(%rcx), %rdi
	movq	32(%rcx), %r15
	addq	$32, %rcx
	movq	%rax, %rsi
	movq	%rcx, %rdx
	movq	%rbp, %rcx
	callq	ic_chain.edits.LinkListBidirectional.replace_at.d62ae654698fb858
	jmp	.LBB50_432
.LBB50_370:
	decb	%dl
	cmpb	$1, %dl
	movb	$3, %dl
	ja	.LBB50_452
.LBB50_371:
	movl	%eax, %eax
	leaq	.LJTI50_11(%rip), %rcx
	movslq	(%rcx,%rax,4), %rax
	addq	%rcx, %rax
	jmpq	*%rax
.LBB50_372:
	movq	%r11, 8(%rsp)
	leaq	24(%r15), %rbx
	cmpb	$2, %r8b
	jae	.LBB50_440
	xorl	%eax, %eax
	jmp	.LBB50_441
.LBB50_374:
	cmpb	$2, (%rsi)
	jne	.LBB50_485
	cmpb	$1, 8(%rsi)
	jne	.LBB50_485
	movq	%r11, %rbx
	leaq	16(%r15), %rdi
	addq	$24, %r15
	addq	$16, %rsi
	movq	%r15, %rdx
	callq	ic_rbtree.edits.RBTreeBidirectional.remove_at.b002bc248359831b
	jmp	.LBB50_293
.LBB50_377:
	movl	%eax, %eax
	leaq	.LJTI50_10(%rip), %rcx
	movslq	(%rcx,%rax,4), %rax
	addq	%rcx, %rax
	jmpq	*%rax
.LBB50_378:
	cmpb	$2, (%rsi)
	jne	.LBB50_485
	movq	%r11, %rbx
	leaq	16(%r15), %rdi
	addq	$8, %rsi
	leal	-3(%r8), %eax
	cmpb	$-3, %al
	ja	.LBB50_400
	cmpb	$2, %r8b
	jae	.LBB50_420
	xorl	%eax, %eax
	jmp	.LBB50_421
.LBB50_382:
	movq	%r11, %rbx
	leaq	16(%r15), %rdi
	callq	ic_chain.list.LinkList.pop_front.06e6478965f9faac
.LBB50_383:
	xorl	%r8d, %r8d
	testb	$1, %al
	cmovneq	%rdx, %r8
	pxor	%xmm0, %xmm0
	movdqu	%xmm0, 32(%r15)
	jmp	.LBB50_294
.LBB50_384:
	movq	%r15, %rdx
	callq	ic_chain.edits.LinkListBidirectional.remove_at.10cc405e52586c83
	jmp	.LBB50_293
.LBB50_385:
	callq	ic_chain.list.LinkList.pop_front.c73f69cf4880bdd9
.LBB50_386:
	movq	$0, (%r15)
	xorl	%r8d, %r8d
	testb	$1, %al
	cmovneq	%rdx, %r8
	jmp	.LBB50_294
.LBB50_387:
	movq	$0, 32(%rax)
	jmp	.LBB50_302
.LBB50_388:
	je	.LBB50_390
	movq	-32(%rsi,%rdx,8), %rcx
	movq	%rsi, %rdi
	movq	24(%rsi), %rsi
	movq	%rsi, -32(%rdi,%rdx,8)
	movq	%rdi, %rsi
	movq	%rcx, 24(%rdi)
.LBB50_390:
	cmpq	$3, %rax
	je	.LBB50_144
	movq	%rbx, %r8
	leaq	-5(%rdx), %rcx
	cmpq	$4, %rcx
	jbe	.LBB50_408
	movq	32(%rsi), %rcx
	movq	%rsi, %rdi
	movq	-40(%rsi,%rdx,8), %rsi
	movq	%rsi, 32(%rdi)
	movq	%rdi, %rsi
	movq	%rcx, -40(%rdi,%rdx,8)
	jmp	.LBB50_410
.LBB50_393:
	cmpq	$0, 48(%rsp)
	je	.LBB50_115
	movq	32(%rsp), %rdi
	jmp	.LBB50_114
.LBB50_395:
	cmpb	$2, (%rsi)
	jne	.LBB50_485
	cmpb	$1, 8(%rsi)
	jne	.LBB50_485
	movq	%r11, %rbx
	leaq	16(%r15), %rdi
	addq	$16, %rsi
	leal	-3(%r8), %eax
	cmpb	$-3, %al
	ja	.LBB50_413
	movq	24(%r15), %r12
	movq	%r12, %rdx
	movq	%rbp, %rcx
	callq	ic_rbtree.edits.RBTreeCursorOps.insert_after_at.b002bc248359831b
	movb	$9, %dl
	testb	%al, %al
	movq	%rbx, %r11
	je	.LBB50_452
	jmp	.LBB50_399
.LBB50_400:
	cmpb	$2, %r8b
	jae	.LBB50_423
	xorl	%r12d, %r12d
	jmp	.LBB50_424
.LBB50_402:
	movq	%r11, %rbx
	leaq	16(%r15), %rdi
	leal	-3(%r8), %eax
	cmpb	$-3, %al
	ja	.LBB50_436
	movq	32(%r15), %rax
	movq	40(%r15), %rcx
	jmp	.LBB50_417
.LBB50_404:
	leaq	.Lstatic.78(%rip), %rsi
.LBB50_405:
	leaq	.Lstatic.79(%rip), %r8
	movl	$16, %edx
	movl	$7, %r9d
	movq	104(%rsp), %rdi
	callq	ic_program.answers.push_numbered.714b863a58920bda
	testb	%al, %al
	je	.LBB50_407
	movb	$10, %bpl
	xorl	%esi, %esi
	movq	%r14, %r15
	jmp	.LBB50_141
.LBB50_407:
	leaq	.Lstatic.80(%rip), %rsi
	leaq	.Lstatic.38(%rip), %r8
	movl	$1, %r9d
	movq	104(%rsp), %rdi
	xorl	%edx, %edx
	movq	%r15, %rcx
	callq	ic_program.answers.push_numbered.714b863a58920bda
	xorl	%esi, %esi
	movb	$10, %bpl
	jmp	.LBB50_139
.LBB50_408:
	je	.LBB50_410
	movq	-40(%rsi,%rdx,8), %rcx
	movq	%rsi, %rdi
	movq	32(%rsi), %rsi
	movq	%rsi, -40(%rdi,%rdx,8)
	movq	%rdi, %rsi
	movq	%rcx, 32(%rdi)
.LBB50_410:
	cmpq	$4, %rax
	movq	%r8, %rbx
	je	.LBB50_144
	movq	%rsi, %r9
	movq	%rdx, %rcx
	addq	$-6, %rdx
	cmpq	$5, %rdx
	jbe	.LBB50_444
	movq	40(%r9), %rdx
	movq	-48(%r9,%rcx,8), %rdi
	movq	%rdi, 40(%r9)
	movq	%rdx, -48(%r9,%rcx,8)
	jmp	.LBB50_446
.LBB50_413:
	cmpb	$2, %r8b
	jae	.LBB50_449
	xorl	%r12d, %r12d
	jmp	.LBB50_450
.LBB50_415:
	movq	%r11, %rbx
	leaq	16(%r15), %rdi
	jmp	.LBB50_437
.LBB50_416:
	movq	%r11, %rbx
	leaq	16(%r15), %rdi
	xorl	%eax, %eax
	xorl	%ecx, %ecx
.LBB50_417:
	movq	%rax, 32(%rsp)
	movq	%rcx, 40(%rsp)
	leaq	32(%rsp), %rdx
	movq	%rbp, %rcx
	callq	ic_chain.edits.LinkListCursorOps.insert_after_at.0649bf66f9d3822c
	testb	%al, %al
	je	.LBB50_419
	movdqu	32(%rsp), %xmm0
	movdqu	%xmm0, 32(%r15)
	jmp	.LBB50_301
.LBB50_419:
	movb	$9, %al
	leaq	128(%r14), %r15
	movq	128(%r14), %r13
	leaq	.Lstatic.23(%rip), %r12
	movl	$22, %ebp
	movzbl	%al, %eax
	leaq	.LJTI50_13(%rip), %rcx
	movslq	(%rcx,%rax,4), %rax
	addq	%rcx, %rax
	movq	%rbx, %r11
	leaq	120(%r14), %rbx
	jmpq	*%rax
.LBB50_420:
	movq	32(%r15), %rax
.LBB50_421:
	movq	%rax, 32(%rsp)
	leaq	32(%rsp), %rdx
	movq	%rbp, %rcx
	callq	ic_chain.edits.LinkListCursorOps.insert_after_at.ff97facb44bf5e09
	testb	%al, %al
	je	.LBB50_426
	movq	32(%rsp), %rax
	movq	%rax, 32(%r15)
	jmp	.LBB50_301
.LBB50_423:
	movq	32(%r15), %r12
.LBB50_424:
	movq	%r12, %rdx
	movq	%rbp, %rcx
	callq	ic_chain.edits.LinkListBidirectional.insert_before_at.10cc405e52586c83
	movb	$9, %dl
	testb	%al, %al
	movq	%rbx, %r11
	je	.LBB50_452
	movq	%r12, 32(%r15)
	jmp	.LBB50_302
.LBB50_426:
	movb	$9, %al
	leaq	128(%r14), %r15
	movq	128(%r14), %r13
	leaq	.Lstatic.23(%rip), %r12
	movl	$22, %ebp
	movzbl	%al, %eax
	leaq	.LJTI50_13(%rip), %rcx
	movslq	(%rcx,%rax,4), %rax
	addq	%rcx, %rax
	movq	%rbx, %r11
	leaq	120(%r14), %rbx
	jmpq	*%rax
.LBB50_427:
	cmpb	$2, (%rax)
	jne	.LBB50_485
	cmpb	$1, 8(%rax)
	jne	.LBB50_485
	leaq	16(%rcx), %rdi
	addq	$24, %rcx
	addq	$16, %rax
	movq	(%rcx), %r15
	movq	%rax, %rsi
	movq	%rcx, %rdx
	movq	%rbp, %rcx
	callq	ic_rbtree.edits.RBTreeBidirectional.replace_at.b002bc248359831b
	jmp	.LBB50_432
.LBB50_430:
	cmpb	$2, (%rax)
	jne	.LBB50_485
	leaq	32(%rcx), %rdx
	addq	$8, %rax
	movq	32(%rcx), %r15
	addq	$16, %rcx
	movq	%rcx, %rdi
	movq	%rax, %rsi
	movq	%rbp, %rcx
	callq	ic_chain.edits.LinkListBidirectional.replace_at.10cc405e52586c83
.LBB50_432:
	testq	%r15, %r15
	je	.LBB50_435
	movq	%r15, %r8
.LBB50_434:
	movb	$9, %dl
	testb	$1, %al
	movq	%rbx, %r11
	jne	.LBB50_119
	jmp	.LBB50_452
.LBB50_435:
	movb	$6, %dl
	movq	%rbx, %r11
	jmp	.LBB50_452
.LBB50_436:
	xorl	%r12d, %r12d
	movl	$0, %r13d
	cmpb	$2, %r8b
	jb	.LBB50_438
.LBB50_437:
	movq	32(%r15), %r12
	movq	40(%r15), %r13
.LBB50_438:
	movq	%r12, %rdx
	movq	%r13, %rcx
	movq	%rbp, %r8
	callq	ic_chain.edits.LinkListBidirectional.insert_before_at.d62ae654698fb858
	movb	$9, %dl
	testb	%al, %al
	movq	%rbx, %r11
	je	.LBB50_452
	movq	%r12, 32(%r15)
	movq	%r13, 40(%r15)
	jmp	.LBB50_302
.LBB50_440:
	movq	(%rbx), %rax
.LBB50_441:
	addq	$16, %r15
	movq	%rax, 32(%rsp)
	leaq	32(%rsp), %rdx
	movq	%r15, %rdi
	movq	%rbp, %rcx
	callq	ic_chain.edits.LinkListCursorOps.insert_after_at.2407d86d2fd71c01
	testb	%al, %al
	je	.LBB50_443
	movq	32(%rsp), %rax
	movq	%rax, (%rbx)
	movq	8(%rsp), %r11
	jmp	.LBB50_302
.LBB50_443:
	movb	$9, %al
	leaq	128(%r14), %r15
	movq	128(%r14), %r13
	leaq	.Lstatic.23(%rip), %r12
	movl	$22, %ebp
	movzbl	%al, %eax
	leaq	.LJTI50_13(%rip), %rcx
	movslq	(%rcx,%rax,4), %rax
	addq	%rcx, %rax
	movq	8(%rsp), %r11
	leaq	120(%r14), %rbx
	jmpq	*%rax
.LBB50_444:
	je	.LBB50_446
	movq	-48(%r9,%rcx,8), %rsi
	movq	40(%r9), %rdi
	movq	%rdi, -48(%r9,%rcx,8)
	movq	%rsi, 40(%r9)
.LBB50_446:
	cmpq	$5, %rax
	movq	%rcx, %rdx
	movq	%r8, %rbx
	movq	%r9, %rsi
	je	.LBB50_144
	leaq	-7(%rdx), %rax
	cmpq	$6, %rax
	jbe	.LBB50_483
	movq	%r9, %rsi
	movq	48(%r9), %rax
	movq	%rcx, %rdx
	movq	-56(%r9,%rcx,8), %rcx
	movq	%rcx, 48(%r9)
	movq	%rax, -56(%r9,%rdx,8)
	movq	%r8, %rbx
	jmp	.LBB50_144
.LBB50_449:
	movq	24(%r15), %r12
.LBB50_450:
	movq	%r12, %rdx
	movq	%rbp, %rcx
	callq	ic_rbtree.edits.RBTreeBidirectional.insert_before_at.b002bc248359831b
	movb	$9, %dl
	testb	%al, %al
	movq	%rbx, %r11
	je	.LBB50_452
.LBB50_399:
	movq	%r12, 24(%r15)
	jmp	.LBB50_302
.LBB50_452:
	leaq	128(%r14), %r15
	movq	128(%r14), %r13
	leaq	.Lstatic.23(%rip), %r12
	movl	$22, %ebp
	movzbl	%dl, %eax
	leaq	.LJTI50_13(%rip), %rcx
	movslq	(%rcx,%rax,4), %rax
	addq	%rcx, %rax
	leaq	120(%r14), %rbx
	jmpq	*%rax
.LBB50_453:
	leaq	.Lstatic.25(%rip), %r12
	jmp	.LBB50_463
.LBB50_454:
	leaq	.Lstatic.35(%rip), %r12
	movl	$26, %ebp
	jmp	.LBB50_464
.LBB50_455:
	leaq	.Lstatic.26(%rip), %r12
	movl	$20, %ebp
	jmp	.LBB50_464
.LBB50_456:
	leaq	.Lstatic.34(%rip), %r12
	jmp	.LBB50_463
.LBB50_457:
	leaq	.Lstatic.27(%rip), %r12
	movl	$25, %ebp
	jmp	.LBB50_464
.LBB50_458:
	leaq	.Lstatic.32(%rip), %r12
	movl	$25, %ebp
	jmp	.LBB50_464
.LBB50_459:
	leaq	.Lstatic.30(%rip), %r12
	movl	$21, %ebp
	jmp	.LBB50_464
.LBB50_460:
	leaq	.Lstatic.28(%rip), %r12
	movl	$21, %ebp
	jmp	.LBB50_464
.LBB50_461:
	leaq	.Lstatic.36(%rip), %r12
	jmp	.LBB50_463
.LBB50_462:
	leaq	.Lstatic.29(%rip), %r12
.LBB50_463:
	movl	$23, %ebp
.LBB50_464:
	movq	136(%r14), %rax
	movq	%rax, %rdx
	subq	%r13, %rdx
	movq	%r13, %rcx
	cmpq	$31, %rdx
	jbe	.LBB50_471
.LBB50_465:
	movq	(%rbx), %rdx
	pxor	%xmm0, %xmm0
	movdqu	%xmm0, (%r15)
	leaq	(%rdx,%rcx), %rsi
	addq	$32, %rcx
	movq	%rsi, %rdi
	subq	%r12, %rdi
	cmpq	$31, %rdi
	ja	.LBB50_467
	movzbl	(%r12), %edi
	movb	%dil, (%rsi)
	movzbl	1(%r12), %edi
	movb	%dil, 1(%rsi)
	movzbl	2(%r12), %edi
	movb	%dil, 2(%rsi)
	movzbl	3(%r12), %edi
	movb	%dil, 3(%rsi)
	movzbl	4(%r12), %edi
	movb	%dil, 4(%rsi)
	movzbl	5(%r12), %edi
	movb	%dil, 5(%rsi)
	movzbl	6(%r12), %edi
	movb	%dil, 6(%rsi)
	movzbl	7(%r12), %edi
	movb	%dil, 7(%rsi)
	movzbl	8(%r12), %edi
	movb	%dil, 8(%rsi)
	movzbl	9(%r12), %edi
	movb	%dil, 9(%rsi)
	movzbl	10(%r12), %edi
	movb	%dil, 10(%rsi)
	movzbl	11(%r12), %edi
	movb	%dil, 11(%rsi)
	movzbl	12(%r12), %edi
	movb	%dil, 12(%rsi)
	movzbl	13(%r12), %edi
	movb	%dil, 13(%rsi)
	movzbl	14(%r12), %edi
	movb	%dil, 14(%rsi)
	movzbl	15(%r12), %edi
	movb	%dil, 15(%rsi)
	movzbl	16(%r12), %edi
	movb	%dil, 16(%rsi)
	movzbl	17(%r12), %edi
	movb	%dil, 17(%rsi)
	movzbl	18(%r12), %edi
	movb	%dil, 18(%rsi)
	movzbl	19(%r12), %edi
	movb	%dil, 19(%rsi)
	movzbl	20(%r12), %edi
	movb	%dil, 20(%rsi)
	movzbl	21(%r12), %edi
	movb	%dil, 21(%rsi)
	movzbl	22(%r12), %edi
	movb	%dil, 22(%rsi)
	movzbl	23(%r12), %edi
	movb	%dil, 23(%rsi)
	movzbl	24(%r12), %edi
	movb	%dil, 24(%rsi)
	movzbl	25(%r12), %edi
	movb	%dil, 25(%rsi)
	movzbl	26(%r12), %edi
	movb	%dil, 26(%rsi)
	movzbl	27(%r12), %edi
	movb	%dil, 27(%rsi)
	movzbl	28(%r12), %edi
	movb	%dil, 28(%rsi)
	movzbl	29(%r12), %edi
	movb	%dil, 29(%rsi)
	movzbl	30(%r12), %edi
	movb	%dil, 30(%rsi)
	movzbl	31(%r12), %edi
	movb	%dil, 31(%rsi)
	jmp	.LBB50_468
.LBB50_467:
	movdqu	(%r12), %xmm0
	movdqu	16(%r12), %xmm1
	movdqu	%xmm1, 16(%rsi)
	movdqu	%xmm0, (%rsi)
.LBB50_468:
	movq	%rdx, 120(%r14)
	movq	%rcx, 128(%r14)
	movq	%rax, 136(%r14)
	addq	%r13, %rbp
	pxor	%xmm1, %xmm1
	cmpq	%rbp, %rcx
	jbe	.LBB50_470
.LBB50_469:
	movq	%rbp, (%r15)
.LBB50_470:
	xorl	%ebx, %ebx
.LBB50_480:
	movb	%bl, (%r11)
	pxor	%xmm0, %xmm0
	punpcklbw	%xmm0, %xmm1
	punpcklwd	%xmm0, %xmm1
	punpckldq	%xmm0, %xmm1
	movdqu	%xmm1, 8(%r11)
	movq	$0, 24(%r11)
	addq	$216, %rsp
	popq	%rbx
	popq	%r12
	popq	%r13
	popq	%r14
	popq	%r15
	popq	%rbp
	retq
.LBB50_471:
	movq	%rbx, %rdi
	movq	%r11, 8(%rsp)
	movl	$32, %esi
	callq	std_alloc.vec.Vec.grow_amortized.3f7cc1ad5d64d7d7
	testb	%al, %al
	je	.LBB50_475
	movq	128(%r14), %rcx
	movq	136(%r14), %rax
	movq	8(%rsp), %r11
	jmp	.LBB50_465
.LBB50_473:
	leaq	.Lstatic.33(%rip), %r12
	movl	$20, %ebp
	jmp	.LBB50_464
.LBB50_474:
	leaq	.Lstatic.31(%rip), %r12
	movl	$24, %ebp
	jmp	.LBB50_464
.LBB50_475:
	movb	$11, %bpl
	xorl	%r12d, %r12d
	xorl	%edx, %edx
.LBB50_476:
	xorl	%esi, %esi
	movq	8(%rsp), %r11
.LBB50_477:
	movd	.LCPI50_1(%rip), %xmm1
	movb	$1, %bl
	cmpq	%r13, (%r15)
	jbe	.LBB50_479
	movq	%r13, (%r15)
.LBB50_479:
	movzbl	%bpl, %eax
	movl	$3551, %ecx
	btl	%eax, %ecx
	jb	.LBB50_480
	cmpl	$5, %eax
	testq	%rsi, %rsi
	je	.LBB50_480
	shlq	$8, %r12
	movzbl	%dl, %edi
	orq	%r12, %rdi
	movq	%r11, %r14
	movdqa	%xmm1, 80(%rsp)
	callq	rattle_dealloc@PLT
	movdqa	80(%rsp), %xmm1
	movq	%r14, %r11
	jmp	.LBB50_480
.LBB50_483:
	movq	%rcx, %rdx
	movq	%r8, %rbx
	movq	%r9, %rsi
	je	.LBB50_144
	movq	-56(%rsi,%rdx,8), %rax
	movq	48(%rsi), %rcx
	movq	%rcx, -56(%rsi,%rdx,8)
	movq	%rax, 48(%rsi)
	jmp	.LBB50_144
.LBB50_485:
	ud2
.Lfunc_end50:
	.size	ic_program.session.Session.call.40a73cb1e87492e9, .Lfunc_end50-ic_program.session.Session.call.40a73cb1e87492e9
	.section	.rodata.unlikely.ic_program.session.Session.call.40a73cb1e87492e9,"a",@progbits
	.p2align	2, 0x0
.LJTI50_0:
	.long	.LBB50_1-.LJTI50_0
	.long	.LBB50_51-.LJTI50_0
	.long	.LBB50_32-.LJTI50_0
	.long	.LBB50_45-.LJTI50_0
	.long	.LBB50_25-.LJTI50_0
	.long	.LBB50_67-.LJTI50_0
	.long	.LBB50_72-.LJTI50_0
	.long	.LBB50_48-.LJTI50_0
	.long	.LBB50_96-.LJTI50_0
	.long	.LBB50_28-.LJTI50_0
	.long	.LBB50_90-.LJTI50_0
	.long	.LBB50_21-.LJTI50_0
	.long	.LBB50_27-.LJTI50_0
	.long	.LBB50_71-.LJTI50_0
	.long	.LBB50_19-.LJTI50_0
	.long	.LBB50_43-.LJTI50_0
	.long	.LBB50_9-.LJTI50_0
	.long	.LBB50_60-.LJTI50_0
	.long	.LBB50_82-.LJTI50_0
.LJTI50_1:
	.long	.LBB50_133-.LJTI50_1
	.long	.LBB50_122-.LJTI50_1
	.long	.LBB50_133-.LJTI50_1
	.long	.LBB50_132-.LJTI50_1
.LJTI50_2:
	.long	.LBB50_124-.LJTI50_2
	.long	.LBB50_24-.LJTI50_2
	.long	.LBB50_24-.LJTI50_2
	.long	.LBB50_124-.LJTI50_2
.LJTI50_3:
	.long	.LBB50_26-.LJTI50_3
	.long	.LBB50_106-.LJTI50_3
	.long	.LBB50_104-.LJTI50_3
	.long	.LBB50_105-.LJTI50_3
.LJTI50_4:
	.long	.LBB50_2-.LJTI50_4
	.long	.LBB50_175-.LJTI50_4
	.long	.LBB50_155-.LJTI50_4
	.long	.LBB50_164-.LJTI50_4
	.long	.LBB50_148-.LJTI50_4
	.long	.LBB50_180-.LJTI50_4
	.long	.LBB50_186-.LJTI50_4
	.long	.LBB50_169-.LJTI50_4
	.long	.LBB50_190-.LJTI50_4
.LJTI50_5:
	.long	.LBB50_178-.LJTI50_5
	.long	.LBB50_330-.LJTI50_5
	.long	.LBB50_325-.LJTI50_5
	.long	.LBB50_327-.LJTI50_5
.LJTI50_6:
	.long	.LBB50_326-.LJTI50_6
	.long	.LBB50_336-.LJTI50_6
	.long	.LBB50_365-.LJTI50_6
	.long	.LBB50_374-.LJTI50_6
.LJTI50_7:
	.long	.LBB50_179-.LJTI50_7
	.long	.LBB50_336-.LJTI50_7
	.long	.LBB50_382-.LJTI50_7
	.long	.LBB50_452-.LJTI50_7
.LJTI50_8:
	.long	.LBB50_344-.LJTI50_8
	.long	.LBB50_387-.LJTI50_8
	.long	.LBB50_185-.LJTI50_8
	.long	.LBB50_344-.LJTI50_8
.LJTI50_9:
	.long	.LBB50_7-.LJTI50_9
	.long	.LBB50_370-.LJTI50_9
	.long	.LBB50_377-.LJTI50_9
	.long	.LBB50_371-.LJTI50_9
.LJTI50_10:
	.long	.LBB50_326-.LJTI50_10
	.long	.LBB50_378-.LJTI50_10
	.long	.LBB50_415-.LJTI50_10
	.long	.LBB50_395-.LJTI50_10
.LJTI50_11:
	.long	.LBB50_372-.LJTI50_11
	.long	.LBB50_378-.LJTI50_11
	.long	.LBB50_402-.LJTI50_11
	.long	.LBB50_395-.LJTI50_11
.LJTI50_12:
	.long	.LBB50_8-.LJTI50_12
	.long	.LBB50_378-.LJTI50_12
	.long	.LBB50_416-.LJTI50_12
	.long	.LBB50_452-.LJTI50_12
.LJTI50_13:
	.long	.LBB50_464-.LJTI50_13
	.long	.LBB50_81-.LJTI50_13
	.long	.LBB50_453-.LJTI50_13
	.long	.LBB50_455-.LJTI50_13
	.long	.LBB50_457-.LJTI50_13
	.long	.LBB50_460-.LJTI50_13
	.long	.LBB50_462-.LJTI50_13
	.long	.LBB50_459-.LJTI50_13
	.long	.LBB50_474-.LJTI50_13
	.long	.LBB50_458-.LJTI50_13
	.long	.LBB50_473-.LJTI50_13
	.long	.LBB50_456-.LJTI50_13
	.long	.LBB50_454-.LJTI50_13
	.long	.LBB50_461-.LJTI50_13
	.section	.text.ic_any_collection.any_collection.AnyCollection.unlink_all.87ed5b954c3afc77,"ax",@progbits
	.p2align	4
	.type	ic_any_collection.any_collection.AnyCollection.unlink_all.87ed5b954c3afc77,@function
ic_any_collection.any_collection.AnyCollection.unlink_all.87ed5b954c3afc77:
	movzbl	(%rdi), %ecx
	movq	8(%rdi), %rax
	movq	%rcx, (%rdi)
	xorps	%xmm0, %xmm0
	movups	%xmm0, 24(%rdi)
	movups	%xmm0, 8(%rdi)
	leaq	.LJTI51_0(%rip), %rdx
	movslq	(%rdx,%rcx,4), %rcx
	addq	%rdx, %rcx
	jmpq	*%rcx
.LBB51_8:
	cmpb	$2, (%rsi)
	je	.LBB51_9
	jmp	.LBB51_35
	.p2align	4
.LBB51_1:
	movq	8(%rsi), %rcx
	movq	-8(%rcx,%rax), %rdx
	movq	$1, -8(%rcx,%rax)
	movq	%rdx, %rax
.LBB51_2:
	testq	%rax, %rax
	je	.LBB51_34
	movzbl	(%rsi), %ecx
	testl	%ecx, %ecx
	je	.LBB51_1
	cmpl	$1, %ecx
	je	.LBB51_1
	leaq	(%rax,%rax), %rcx
	cmpb	$0, 8(%rsi)
	movq	16(%rsi), %rdx
	leaq	(%rax,%rax,2), %rdi
	movq	%rdi, %rax
	cmoveq	%rcx, %rax
	movq	-16(%rdx,%rax), %rax
	je	.LBB51_6
	movq	$0, -8(%rdx,%rdi)
	jmp	.LBB51_2
.LBB51_6:
	movq	$1, -16(%rdx,%rcx)
	jmp	.LBB51_2
	.p2align	4
.LBB51_12:
	movq	$0, -8(%rcx,%rdi)
.LBB51_9:
	testq	%rax, %rax
	je	.LBB51_34
.LBB51_10:
	movq	16(%rsi), %rcx
	leaq	(%rax,%rax), %rdx
	cmpb	$0, 8(%rsi)
	leaq	(%rax,%rax,2), %rdi
	movq	%rdi, %rax
	cmoveq	%rdx, %rax
	movq	-16(%rcx,%rax), %rax
	jne	.LBB51_12
	movq	$1, -16(%rcx,%rdx)
	testq	%rax, %rax
	jne	.LBB51_10
	jmp	.LBB51_34
.LBB51_13:
	testq	%rax, %rax
	je	.LBB51_34
	xorl	%ecx, %ecx
	jmp	.LBB51_15
	.p2align	4
.LBB51_36:
	movq	8(%rsi), %rdi
	movq	-8(%rdi,%rcx), %rax
	movq	$1, -8(%rdi,%rcx)
.LBB51_20:
	xorq	%rdx, %rax
	je	.LBB51_34
.LBB51_15:
	movq	%rcx, %rdx
	movq	%rax, %rcx
	movzbl	(%rsi), %eax
	testl	%eax, %eax
	je	.LBB51_36
	cmpl	$1, %eax
	je	.LBB51_36
	leaq	(%rcx,%rcx), %rdi
	cmpb	$0, 8(%rsi)
	movq	16(%rsi), %r8
	leaq	(%rcx,%rcx,2), %r9
	movq	%r9, %rax
	cmoveq	%rdi, %rax
	movq	-16(%r8,%rax), %rax
	je	.LBB51_18
	movq	$0, -8(%r8,%r9)
	jmp	.LBB51_20
.LBB51_18:
	movq	$1, -16(%r8,%rdi)
	jmp	.LBB51_20
.LBB51_21:
	cmpb	$2, (%rsi)
	jne	.LBB51_35
	cmpb	$1, 8(%rsi)
	jne	.LBB51_35
	testq	%rax, %rax
	je	.LBB51_34
	movq	16(%rsi), %rdx
	movq	%rax, %rdi
	.p2align	4
.LBB51_25:
	movq	%rdi, %rcx
	shrq	$3, %rdi
	leaq	(%rdi,%rdi,2), %rdi
	movq	-24(%rdx,%rdi,8), %rdi
	testq	%rdi, %rdi
	jne	.LBB51_25
	.p2align	4
.LBB51_26:
	shrq	$3, %rax
	leaq	(%rax,%rax,2), %rax
	movq	-16(%rdx,%rax,8), %rax
	testq	%rax, %rax
	jne	.LBB51_26
	.p2align	4
.LBB51_27:
	movq	16(%rsi), %rdx
	leaq	(%rcx,%rcx,2), %rax
	movq	-16(%rdx,%rax), %rdi
	movq	-8(%rdx,%rax), %r8
	movq	%r8, %rcx
	andq	$-8, %rcx
	testq	%rdi, %rdi
	je	.LBB51_29
	movq	%rdi, %r9
	shrq	$3, %r9
	leaq	(%r9,%r9,2), %r9
	movq	-8(%rdx,%r9,8), %r10
	andl	$7, %r10d
	orq	%rcx, %r10
	movq	%r10, -8(%rdx,%r9,8)
	movq	16(%rsi), %rdx
.LBB51_29:
	testq	%rcx, %rcx
	je	.LBB51_32
	shrq	$3, %r8
	leaq	(%r8,%r8,2), %r8
	movq	%rdi, -24(%rdx,%r8,8)
	movq	16(%rsi), %rdx
	jmp	.LBB51_32
	.p2align	4
.LBB51_31:
	movq	%rdi, %rcx
	shrq	$3, %rdi
	leaq	(%rdi,%rdi,2), %rdi
	movq	-24(%rdx,%rdi,8), %rdi
.LBB51_32:
	testq	%rdi, %rdi
	jne	.LBB51_31
	movq	$0, -8(%rdx,%rax)
	testq	%rcx, %rcx
	jne	.LBB51_27
.LBB51_34:
	retq
.LBB51_35:
	ud2
.Lfunc_end51:
	.size	ic_any_collection.any_collection.AnyCollection.unlink_all.87ed5b954c3afc77, .Lfunc_end51-ic_any_collection.any_collection.AnyCollection.unlink_all.87ed5b954c3afc77
	.section	.rodata.ic_any_collection.any_collection.AnyCollection.unlink_all.87ed5b954c3afc77,"a",@progbits
	.p2align	2, 0x0
.LJTI51_0:
	.long	.LBB51_2-.LJTI51_0
	.long	.LBB51_8-.LJTI51_0
	.long	.LBB51_13-.LJTI51_0
	.long	.LBB51_21-.LJTI51_0
	.section	.text.ic_world.calls.search.SearchKeyCollectionCall.run.345c281869c73935,"ax",@progbits
	.p2align	4
	.type	ic_world.calls.search.SearchKeyCollectionCall.run.345c281869c73935,@function
ic_world.calls.search.SearchKeyCollectionCall.run.345c281869c73935:
	pushq	%r14
	pushq	%rbx
	cmpb	$3, (%rdx)
	jne	.LBB52_6
	movzbl	(%rsi), %eax
	cmpl	$2, %eax
	je	.LBB52_7
	cmpl	$1, %eax
	jne	.LBB52_9
	movzbl	8(%rsi), %r9d
	cmpl	$2, %r9d
	je	.LBB52_20
	cmpl	$1, %r9d
	addq	$16, %rsi
	cmpb	$2, (%rcx)
	je	.LBB52_21
	jmp	.LBB52_5
.LBB52_6:
	movw	$769, (%rdi)
	xorps	%xmm0, %xmm0
	movups	%xmm0, 8(%rdi)
	movq	$0, 24(%rdi)
	popq	%rbx
	popq	%r14
	retq
.LBB52_7:
	movzbl	8(%rsi), %r9d
	cmpl	$2, %r9d
	je	.LBB52_27
	cmpl	$1, %r9d
	addq	$16, %rsi
	cmpb	$2, (%rcx)
	je	.LBB52_28
	jmp	.LBB52_5
.LBB52_9:
	cmpb	$2, (%rcx)
	jne	.LBB52_5
	cmpb	$1, 8(%rcx)
	jne	.LBB52_5
	movq	8(%rdx), %r9
	testq	%r9, %r9
	je	.LBB52_18
	movq	16(%rcx), %r10
	movq	(%r8), %r11
	movq	8(%rsi), %rsi
	xorl	%r8d, %r8d
	xorl	%eax, %eax
	xorl	%ecx, %ecx
	.p2align	4
.LBB52_13:
	movq	%r9, %rbx
	shrq	$3, %rbx
	leaq	(%rbx,%rbx,2), %r14
	movq	-24(%r10,%r14,8), %rbx
	movq	-16(%r10,%r14,8), %r14
	incq	%r8
	cmpq	%rsi, -8(%r11,%r9,2)
	cmoveq	%r9, %rax
	cmovaeq	%r9, %rcx
	movq	%rbx, %r9
	cmovbq	%r14, %r9
	testq	%r9, %r9
	jne	.LBB52_13
	testq	%r14, %r14
	setne	%sil
	testq	%rbx, %rbx
	setne	%r9b
	testb	%sil, %r9b
	jne	.LBB52_19
	testq	%rcx, %rcx
	je	.LBB52_19
	cmpq	%rcx, %rax
	jne	.LBB52_19
	movb	$1, %sil
	movq	%rax, 16(%rdx)
	jmp	.LBB52_55
.LBB52_18:
	xorl	%r8d, %r8d
.LBB52_19:
	movq	$0, 16(%rdx)
	xorl	%esi, %esi
	xorl	%eax, %eax
	jmp	.LBB52_55
.LBB52_20:
	xorl	%esi, %esi
	cmpb	$2, (%rcx)
	jne	.LBB52_5
.LBB52_21:
	cmpb	$1, 8(%rcx)
	jne	.LBB52_5
	movq	8(%rdx), %r10
	cmpl	$2, %r9d
	je	.LBB52_34
	cmpl	$1, %r9d
	jne	.LBB52_41
	testq	%r10, %r10
	je	.LBB52_51
	movq	16(%rcx), %r11
	movq	(%r8), %r8
	movq	(%rsi), %rsi
	xorl	%ecx, %ecx
	xorl	%eax, %eax
	.p2align	4
.LBB52_26:
	movq	%r10, %rbx
	shrq	$3, %rbx
	leaq	(%rbx,%rbx,2), %r14
	movq	-24(%r11,%r14,8), %rbx
	movq	-16(%r11,%r14,8), %r14
	incq	%rcx
	cmpq	%rsi, -8(%r8,%r10,2)
	cmovaq	%r10, %rax
	movq	%r14, %r10
	cmovaq	%rbx, %r10
	testq	%r10, %r10
	jne	.LBB52_26
	jmp	.LBB52_48
.LBB52_27:
	xorl	%esi, %esi
	cmpb	$2, (%rcx)
	jne	.LBB52_5
.LBB52_28:
	cmpb	$1, 8(%rcx)
	jne	.LBB52_5
	movq	8(%rdx), %r10
	cmpl	$2, %r9d
	je	.LBB52_37
	cmpl	$1, %r9d
	jne	.LBB52_45
	testq	%r10, %r10
	je	.LBB52_51
	movq	16(%rcx), %r11
	movq	(%r8), %r8
	movq	(%rsi), %rsi
	xorl	%ecx, %ecx
	xorl	%eax, %eax
	.p2align	4
.LBB52_33:
	movq	%r10, %rbx
	shrq	$3, %rbx
	leaq	(%rbx,%rbx,2), %r14
	movq	-24(%r11,%r14,8), %rbx
	movq	-16(%r11,%r14,8), %r14
	incq	%rcx
	cmpq	%rsi, -8(%r8,%r10,2)
	cmovbq	%r10, %rax
	movq	%rbx, %r10
	cmovbq	%r14, %r10
	testq	%r10, %r10
	jne	.LBB52_33
	jmp	.LBB52_48
.LBB52_34:
	testq	%r10, %r10
	je	.LBB52_51
	movq	16(%rcx), %rcx
	.p2align	4
.LBB52_36:
	movq	%r10, %rax
	movq	%r10, %rsi
	shrq	$3, %rsi
	leaq	(%rsi,%rsi,2), %rsi
	movq	-24(%rcx,%rsi,8), %r10
	testq	%r10, %r10
	jne	.LBB52_36
	jmp	.LBB52_40
.LBB52_37:
	testq	%r10, %r10
	je	.LBB52_51
	movq	16(%rcx), %rcx
	.p2align	4
.LBB52_39:
	movq	%r10, %rax
	movq	%r10, %rsi
	shrq	$3, %rsi
	leaq	(%rsi,%rsi,2), %rsi
	movq	-16(%rcx,%rsi,8), %r10
	testq	%r10, %r10
	jne	.LBB52_39
.LBB52_40:
	movb	$1, %sil
	xorl	%ecx, %ecx
	jmp	.LBB52_50
.LBB52_41:
	testq	%r10, %r10
	je	.LBB52_51
	movq	16(%rcx), %r11
	movq	(%r8), %r8
	movq	(%rsi), %rsi
	xorl	%ecx, %ecx
	xorl	%eax, %eax
	.p2align	4
.LBB52_43:
	movq	%r10, %rbx
	shrq	$3, %rbx
	leaq	(%rbx,%rbx,2), %r14
	movq	-24(%r11,%r14,8), %rbx
	movq	-16(%r11,%r14,8), %r14
	incq	%rcx
	cmpq	%rsi, -8(%r8,%r10,2)
	cmovaeq	%r10, %rax
	movq	%rbx, %r10
	cmovbq	%r14, %r10
	testq	%r10, %r10
	jne	.LBB52_43
	jmp	.LBB52_48
.LBB52_45:
	testq	%r10, %r10
	je	.LBB52_51
	movq	16(%rcx), %r11
	movq	(%r8), %r8
	movq	(%rsi), %rsi
	xorl	%ecx, %ecx
	xorl	%eax, %eax
	.p2align	4
.LBB52_47:
	movq	%r10, %rbx
	shrq	$3, %rbx
	leaq	(%rbx,%rbx,2), %r14
	movq	-24(%r11,%r14,8), %rbx
	movq	-16(%r11,%r14,8), %r14
	incq	%rcx
	cmpq	%rsi, -8(%r8,%r10,2)
	cmovbeq	%r10, %rax
	movq	%r14, %r10
	cmovaq	%rbx, %r10
	testq	%r10, %r10
	jne	.LBB52_47
.LBB52_48:
	testq	%r14, %r14
	setne	%sil
	testq	%rbx, %rbx
	setne	%r8b
	testb	%sil, %r8b
	jne	.LBB52_52
	testq	%rax, %rax
	setne	%sil
	je	.LBB52_53
.LBB52_50:
	movq	%rax, 16(%rdx)
	jmp	.LBB52_54
.LBB52_51:
	xorl	%ecx, %ecx
.LBB52_52:
	xorl	%esi, %esi
	xorl	%eax, %eax
.LBB52_53:
	movq	$0, 16(%rdx)
.LBB52_54:
	xorl	%r8d, %r8d
	cmpl	$2, %r9d
	cmovneq	%rcx, %r8
.LBB52_55:
	movzbl	%sil, %ecx
	movw	$0, (%rdi)
	movq	%rcx, 8(%rdi)
	movq	%rax, 16(%rdi)
	movq	%r8, 24(%rdi)
	popq	%rbx
	popq	%r14
	retq
.LBB52_5:
	ud2
.Lfunc_end52:
	.size	ic_world.calls.search.SearchKeyCollectionCall.run.345c281869c73935, .Lfunc_end52-ic_world.calls.search.SearchKeyCollectionCall.run.345c281869c73935
	.section	.text.ic_world.calls.insertion.InsertionCollectionCall.run.345c281869c73935,"ax",@progbits
	.p2align	4
	.type	ic_world.calls.insertion.InsertionCollectionCall.run.345c281869c73935,@function
ic_world.calls.insertion.InsertionCollectionCall.run.345c281869c73935:
	pushq	%r15
	pushq	%r14
	pushq	%rbx
	subq	$32, %rsp
	movq	%rdi, %rbx
	cmpb	$3, (%rcx)
	jne	.LBB53_8
	movq	%rdx, %r14
	shrq	$3, %rdx
	decq	%rdx
	movq	(%r9), %rax
	movq	8(%r9), %rdi
	testb	%sil, %sil
	je	.LBB53_9
	cmpq	%rdi, %rdx
	jae	.LBB53_21
	shlq	$4, %rdx
	cmpb	$1, (%rax,%rdx)
	jne	.LBB53_21
	addq	%rdx, %rax
	addq	$8, %rax
	movq	%rax, (%rsp)
	movq	$0, 8(%rsp)
	cmpb	$2, (%r8)
	jne	.LBB53_21
	cmpb	$1, 8(%r8)
	jne	.LBB53_21
	addq	$8, %rcx
	addq	$16, %r8
	movq	%rsp, %rax
	movq	%rcx, %rdi
	movq	%r8, %rsi
	movq	%r9, %rdx
	movq	%rax, %rcx
	movq	%r14, %r8
	callq	ic_any_collection.keyed.put_in_order.3645171cb10708cf
	xorl	%ecx, %ecx
	testb	%al, %al
	sete	%cl
	leal	(%rcx,%rcx,8), %ecx
	je	.LBB53_18
	movq	8(%rsp), %rdx
	jmp	.LBB53_19
.LBB53_8:
	movw	$769, (%rbx)
	movq	$0, 8(%rbx)
	jmp	.LBB53_20
.LBB53_9:
	cmpq	%rdi, %rdx
	jae	.LBB53_21
	shlq	$4, %rdx
	cmpb	$1, (%rax,%rdx)
	jne	.LBB53_21
	addq	%rdx, %rax
	addq	$8, %rax
	movq	%rax, 16(%rsp)
	movq	$0, 24(%rsp)
	cmpb	$2, (%r8)
	jne	.LBB53_21
	cmpb	$1, 8(%r8)
	jne	.LBB53_21
	movq	%rcx, %r15
	leaq	8(%rcx), %rdi
	addq	$16, %r8
	leaq	16(%rsp), %rcx
	movq	%r8, %rsi
	movq	%r9, %rdx
	movq	%r14, %r8
	callq	ic_any_collection.keyed.put_in_order.3645171cb10708cf
	movb	$9, %cl
	testb	%al, %al
	je	.LBB53_15
	movq	%r14, 16(%r15)
	xorl	%ecx, %ecx
.LBB53_15:
	testb	%al, %al
	je	.LBB53_18
	movq	24(%rsp), %rdx
	jmp	.LBB53_19
.LBB53_18:
	xorl	%edx, %edx
.LBB53_19:
	xorb	$1, %al
	movb	%al, (%rbx)
	movb	%cl, 1(%rbx)
	movq	%rdx, 8(%rbx)
.LBB53_20:
	addq	$32, %rsp
	popq	%rbx
	popq	%r14
	popq	%r15
	retq
.LBB53_21:
	ud2
.Lfunc_end53:
	.size	ic_world.calls.insertion.InsertionCollectionCall.run.345c281869c73935, .Lfunc_end53-ic_world.calls.insertion.InsertionCollectionCall.run.345c281869c73935
	.section	.text.ic_any_collection.keyed.put_in_order.3645171cb10708cf,"ax",@progbits
	.p2align	4
	.type	ic_any_collection.keyed.put_in_order.3645171cb10708cf,@function
ic_any_collection.keyed.put_in_order.3645171cb10708cf:
	pushq	%rbp
	pushq	%r15
	pushq	%r14
	pushq	%r13
	pushq	%r12
	pushq	%rbx
	movq	(%rsi), %rax
	leaq	(%r8,%r8,2), %r10
	movq	-8(%rax,%r10), %r15
	testb	$2, %r15b
	jne	.LBB54_7
	movq	$3, -8(%rax,%r10)
	movq	(%rdi), %r13
	testq	%r13, %r13
	je	.LBB54_6
	movq	%r15, -8(%rsp)
	movq	(%rcx), %r15
	movq	8(%rcx), %r12
	incq	%r12
	.p2align	4
.LBB54_3:
	movq	%r13, %r9
	movq	(%rsi), %rbx
	leaq	(,%r13,2), %r11
	addq	%r13, %r11
	movq	-24(%rbx,%r11), %rax
	movq	-16(%rbx,%r11), %rbp
	movq	(%rdx), %rbx
	movq	%r12, 8(%rcx)
	movq	-8(%rbx,%r13,2), %rbx
	movq	(%r15), %r14
	cmpq	%r14, %rbx
	movq	%rbp, %r13
	cmovaq	%rax, %r13
	incq	%r12
	testq	%r13, %r13
	jne	.LBB54_3
	testq	%rax, %rax
	movq	-8(%rsp), %r15
	je	.LBB54_8
	testq	%rbp, %rbp
	je	.LBB54_8
.LBB54_6:
	movq	(%rsi), %rax
	movq	$0, -24(%rax,%r10)
	movq	(%rsi), %rax
	movq	$0, -16(%rax,%r10)
	movq	(%rsi), %rax
	movq	$3, -8(%rax,%r10)
	movq	%r8, (%rdi)
.LBB54_7:
	testb	$2, %r15b
	sete	%al
	popq	%rbx
	popq	%r12
	popq	%r13
	popq	%r14
	popq	%r15
	popq	%rbp
	retq
.LBB54_8:
	movq	%r9, %rax
	orq	$2, %rax
	movq	(%rsi), %rcx
	movq	$0, -24(%rcx,%r10)
	movq	(%rsi), %rcx
	movq	$0, -16(%rcx,%r10)
	movq	(%rsi), %rcx
	movq	%rax, -8(%rcx,%r10)
	movq	(%rsi), %rax
	cmpq	%r14, %rbx
	jbe	.LBB54_10
	movq	%r8, -24(%rax,%r11)
	jmp	.LBB54_11
.LBB54_10:
	movq	%r8, -16(%rax,%r11)
.LBB54_11:
	movl	$67, %r11d
	xorl	%edx, %edx
	jmp	.LBB54_12
	.p2align	4
.LBB54_18:
	xorl	%r8d, %r8d
	cmpq	$8, -8(%rbx,%rdx)
	setb	%r8b
	orq	$1, %r14
	movq	%r14, -8(%rbx,%r10)
	movq	(%rsi), %r9
	orq	$1, -8(%r9,%rax)
	movq	(%rsi), %rax
	movq	-8(%rax,%rdx), %r9
	andq	$-2, %r9
	orq	%r8, %r9
	movq	%r9, -8(%rax,%rdx)
	movq	(%rsi), %rax
	movq	-8(%rax,%rdx), %r9
	andq	$-8, %r9
	sete	%dl
	movq	%rcx, %r8
	decl	%r11d
	je	.LBB54_7
.LBB54_12:
	testb	$1, %dl
	jne	.LBB54_7
	movq	(%rsi), %rbx
	leaq	(%r9,%r9,2), %r10
	movq	-8(%rbx,%r10), %r14
	testb	$1, %r14b
	jne	.LBB54_7
	movq	%r14, %rcx
	andq	$-8, %rcx
	je	.LBB54_7
	movq	%r14, %rax
	andq	$-8, %rax
	leaq	(%rax,%rax,2), %rdx
	movq	-24(%rbx,%rdx), %rax
	cmpq	%r9, %rax
	jne	.LBB54_36
	movq	-16(%rbx,%rdx), %rax
	testq	%rax, %rax
	je	.LBB54_19
	leaq	(%rax,%rax,2), %rax
	testb	$1, -8(%rbx,%rax)
	je	.LBB54_18
	jmp	.LBB54_19
	.p2align	4
.LBB54_36:
	testq	%rax, %rax
	je	.LBB54_38
	leaq	(%rax,%rax,2), %rax
	testb	$1, -8(%rbx,%rax)
	je	.LBB54_18
.LBB54_38:
	movq	-24(%rbx,%r10), %r14
	cmpq	%r8, %r14
	jne	.LBB54_39
	leaq	(%r8,%r8,2), %r11
	movq	-16(%rbx,%r11), %rax
	movq	%rax, -24(%rbx,%r10)
	testq	%rax, %rax
	je	.LBB54_42
	movq	(%rsi), %rbx
	shrq	$3, %rax
	leaq	(%rax,%rax,2), %rax
	movq	-8(%rbx,%rax,8), %r14
	andl	$7, %r14d
	orq	%r9, %r14
	movq	%r14, -8(%rbx,%rax,8)
.LBB54_42:
	movq	(%rsi), %rax
	movq	%rcx, %rbx
	orq	$2, %rbx
	movq	%rbx, -8(%rax,%r11)
	movq	(%rsi), %rax
	cmpq	%r9, -24(%rax,%rdx)
	jne	.LBB54_44
	movq	%r8, -24(%rax,%rdx)
	jmp	.LBB54_45
.LBB54_19:
	cmpq	%r8, -24(%rbx,%r10)
	jne	.LBB54_21
	movq	%r10, %r11
	movq	%r9, %r8
	jmp	.LBB54_27
.LBB54_39:
	movq	%r10, %r11
	movq	%r9, %r8
	jmp	.LBB54_46
.LBB54_21:
	leaq	(%r8,%r8,2), %r11
	movq	-24(%rbx,%r11), %rax
	movq	%rax, -16(%rbx,%r10)
	testq	%rax, %rax
	je	.LBB54_23
	movq	(%rsi), %rbx
	shrq	$3, %rax
	leaq	(%rax,%rax,2), %rax
	movq	-8(%rbx,%rax,8), %r14
	andl	$7, %r14d
	orq	%r9, %r14
	movq	%r14, -8(%rbx,%rax,8)
.LBB54_23:
	movq	(%rsi), %rax
	movq	%rcx, %rbx
	orq	$2, %rbx
	movq	%rbx, -8(%rax,%r11)
	movq	(%rsi), %rax
	cmpq	%r9, -24(%rax,%rdx)
	jne	.LBB54_25
	movq	%r8, -24(%rax,%rdx)
	jmp	.LBB54_26
.LBB54_44:
	movq	%r8, -16(%rax,%rdx)
.LBB54_45:
	movq	(%rsi), %rax
	movq	%r9, -16(%rax,%r11)
	movq	(%rsi), %rax
	movq	%r8, %r9
	orq	$2, %r9
	movq	%r9, -8(%rax,%r10)
	movq	(%rsi), %rbx
	movq	-24(%rbx,%r11), %r14
.LBB54_46:
	movq	-8(%rbx,%rdx), %r9
	andq	$-8, %r9
	movq	%r14, -16(%rbx,%rdx)
	testq	%r14, %r14
	je	.LBB54_48
	movq	(%rsi), %rax
	shrq	$3, %r14
	leaq	(%r14,%r14,2), %r10
	movq	-8(%rax,%r10,8), %rbx
	andl	$7, %ebx
	orq	%rcx, %rbx
	movq	%rbx, -8(%rax,%r10,8)
.LBB54_48:
	movq	%r9, %rax
	orq	$3, %rax
	movq	(%rsi), %r10
	movq	%rax, -8(%r10,%r11)
	testq	%r9, %r9
	je	.LBB54_52
	movq	(%rsi), %rax
	leaq	(%r9,%r9,2), %r9
	cmpq	%rcx, -24(%rax,%r9)
	jne	.LBB54_51
	movq	%r8, -24(%rax,%r9)
	jmp	.LBB54_53
.LBB54_52:
	movq	%r8, (%rdi)
	jmp	.LBB54_53
.LBB54_51:
	movq	%r8, -16(%rax,%r9)
.LBB54_53:
	movq	(%rsi), %rax
	movq	%rcx, -24(%rax,%r11)
	jmp	.LBB54_35
.LBB54_25:
	movq	%r8, -16(%rax,%rdx)
.LBB54_26:
	movq	(%rsi), %rax
	movq	%r9, -24(%rax,%r11)
	movq	(%rsi), %rax
	movq	%r8, %r9
	orq	$2, %r9
	movq	%r9, -8(%rax,%r10)
	movq	(%rsi), %rbx
.LBB54_27:
	movq	-16(%rbx,%r11), %rax
	movq	-8(%rbx,%rdx), %r9
	andq	$-8, %r9
	movq	%rax, -24(%rbx,%rdx)
	testq	%rax, %rax
	je	.LBB54_29
	movq	(%rsi), %r10
	shrq	$3, %rax
	leaq	(%rax,%rax,2), %rax
	movq	-8(%r10,%rax,8), %rbx
	andl	$7, %ebx
	orq	%rcx, %rbx
	movq	%rbx, -8(%r10,%rax,8)
.LBB54_29:
	movq	%r9, %rax
	orq	$3, %rax
	movq	(%rsi), %r10
	movq	%rax, -8(%r10,%r11)
	testq	%r9, %r9
	je	.LBB54_33
	movq	(%rsi), %rax
	leaq	(%r9,%r9,2), %r9
	cmpq	%rcx, -24(%rax,%r9)
	jne	.LBB54_32
	movq	%r8, -24(%rax,%r9)
	jmp	.LBB54_34
.LBB54_33:
	movq	%r8, (%rdi)
	jmp	.LBB54_34
.LBB54_32:
	movq	%r8, -16(%rax,%r9)
.LBB54_34:
	movq	(%rsi), %rax
	movq	%rcx, -16(%rax,%r11)
.LBB54_35:
	movq	(%rsi), %rax
	orq	$2, %r8
	movq	%r8, -8(%rax,%rdx)
	jmp	.LBB54_7
.Lfunc_end54:
	.size	ic_any_collection.keyed.put_in_order.3645171cb10708cf, .Lfunc_end54-ic_any_collection.keyed.put_in_order.3645171cb10708cf
	.section	.text.ic_world.calls.insertion.EntryAtKeyCollectionCall.run.345c281869c73935,"ax",@progbits
	.p2align	4
	.type	ic_world.calls.insertion.EntryAtKeyCollectionCall.run.345c281869c73935,@function
ic_world.calls.insertion.EntryAtKeyCollectionCall.run.345c281869c73935:
	pushq	%rbp
	pushq	%r15
	pushq	%r14
	pushq	%r13
	pushq	%r12
	pushq	%rbx
	pushq	%rax
	movq	%rdi, %rbx
	cmpb	$3, (%rdx)
	jne	.LBB55_1
	cmpb	$2, (%rcx)
	jne	.LBB55_19
	cmpb	$1, 8(%rcx)
	jne	.LBB55_19
	movq	%rsi, %rax
	movq	8(%rsi), %r14
	leaq	8(%rdx), %rsi
	addq	$16, %rcx
	movq	(%rsi), %r12
	testq	%r12, %r12
	je	.LBB55_6
	movq	%r14, %rsi
	movq	(%rcx), %r10
	movq	(%r8), %r11
	movq	(%rax), %r8
	xorl	%r15d, %r15d
	xorl	%edi, %edi
	xorl	%r9d, %r9d
	.p2align	4
.LBB55_8:
	movq	%r12, %rax
	movq	%r12, %r14
	shrq	$3, %r14
	leaq	(%r14,%r14,2), %r14
	movq	-24(%r10,%r14,8), %rbp
	movq	-16(%r10,%r14,8), %r14
	incq	%r15
	movq	-8(%r11,%r12,2), %r13
	cmpq	%r8, %r13
	cmoveq	%r12, %rdi
	cmovaeq	%r12, %r9
	movq	%rbp, %r12
	cmovbq	%r14, %r12
	testq	%r12, %r12
	jne	.LBB55_8
	testq	%r14, %r14
	setne	%r10b
	testq	%rbp, %rbp
	setne	%r11b
	testb	%r10b, %r11b
	je	.LBB55_11
	xorl	%r10d, %r10d
	xorl	%eax, %eax
	movq	%rsi, %r14
	leaq	8(%rdx), %rsi
	jmp	.LBB55_14
.LBB55_1:
	movw	$769, (%rbx)
	xorps	%xmm0, %xmm0
	movups	%xmm0, 8(%rbx)
	movups	%xmm0, 24(%rbx)
	jmp	.LBB55_2
.LBB55_6:
	xorl	%r15d, %r15d
	xorl	%r10d, %r10d
	xorl	%eax, %eax
.LBB55_14:
	movq	%rdx, %r12
	xorl	%edx, %edx
	testq	%rax, %rax
	setne	%dl
	movzbl	%r10b, %r8d
	movq	%rcx, %rdi
	movq	%rax, %rcx
	movq	%r14, %r9
	callq	ic_rbtree.linking.insert.bca35351c984244a
	testb	%al, %al
	je	.LBB55_17
	xorl	%r8d, %r8d
	movq	%r14, %rdi
	movq	%r12, %rdx
	jmp	.LBB55_16
.LBB55_17:
	movl	$0, 3(%rsp)
	movl	$0, (%rsp)
	xorl	%eax, %eax
	xorl	%edi, %edi
	xorl	%r8d, %r8d
	xorl	%r15d, %r15d
	jmp	.LBB55_18
.LBB55_11:
	cmpq	%r8, %r13
	setb	%r10b
	testq	%r9, %r9
	movq	%rsi, %r14
	je	.LBB55_12
	movb	$1, %r8b
	cmpq	%r9, %rdi
	leaq	8(%rdx), %rsi
	jne	.LBB55_14
.LBB55_16:
	movq	%rdi, 16(%rdx)
	movl	$0, 3(%rsp)
	movl	$0, (%rsp)
	movl	$1, %eax
.LBB55_18:
	movw	$0, (%rbx)
	movq	%rax, 8(%rbx)
	movb	%r8b, 16(%rbx)
	movl	(%rsp), %eax
	movl	3(%rsp), %ecx
	movl	%eax, 17(%rbx)
	movl	%ecx, 20(%rbx)
	movq	%rdi, 24(%rbx)
	movq	%r15, 32(%rbx)
.LBB55_2:
	addq	$8, %rsp
	popq	%rbx
	popq	%r12
	popq	%r13
	popq	%r14
	popq	%r15
	popq	%rbp
	retq
.LBB55_12:
	leaq	8(%rdx), %rsi
	jmp	.LBB55_14
.LBB55_19:
	ud2
.Lfunc_end55:
	.size	ic_world.calls.insertion.EntryAtKeyCollectionCall.run.345c281869c73935, .Lfunc_end55-ic_world.calls.insertion.EntryAtKeyCollectionCall.run.345c281869c73935
	.section	.text.ic_any_collection.any_table.AnyTable.cover.f9617c8b158e2be4,"ax",@progbits
	.p2align	4
	.type	ic_any_collection.any_table.AnyTable.cover.f9617c8b158e2be4,@function
ic_any_collection.any_table.AnyTable.cover.f9617c8b158e2be4:
	pushq	%r15
	pushq	%r14
	pushq	%r12
	pushq	%rbx
	pushq	%rax
	movzbl	(%rdi), %eax
	cmpl	$2, %eax
	je	.LBB56_30
	cmpl	$1, %eax
	jne	.LBB56_2
	movb	$1, %al
	movabsq	$4294967296, %rcx
	cmpq	%rcx, %rsi
	ja	.LBB56_60
	movq	16(%rdi), %r14
	movq	%rsi, %rbx
	subq	%r14, %rbx
	jbe	.LBB56_59
	movq	24(%rdi), %rcx
	subq	%r14, %rcx
	movq	%r14, %rax
	cmpq	%rcx, %rbx
	ja	.LBB56_20
	leaq	1(%r14), %rcx
	cmpq	%rsi, %rcx
	jae	.LBB56_16
.LBB56_23:
	notl	%r14d
	addl	%esi, %r14d
	addq	$-2, %rbx
	andl	$3, %r14d
	je	.LBB56_27
	negq	%r14
	xorl	%edx, %edx
	.p2align	4
.LBB56_25:
	movq	8(%rdi), %r8
	movq	$1, (%r8,%rax,8)
	incq	%rax
	decq	%rdx
	cmpq	%rdx, %r14
	jne	.LBB56_25
	subq	%rdx, %rcx
.LBB56_27:
	cmpq	$3, %rbx
	jb	.LBB56_16
	leaq	(,%rax,8), %rdx
	subq	%rcx, %rsi
	xorl	%ecx, %ecx
	.p2align	4
.LBB56_29:
	movq	8(%rdi), %r8
	addq	%rdx, %r8
	movq	$1, (%r8,%rcx,8)
	movq	8(%rdi), %r8
	addq	%rdx, %r8
	movq	$1, 8(%r8,%rcx,8)
	movq	8(%rdi), %r8
	addq	%rdx, %r8
	movq	$1, 16(%r8,%rcx,8)
	movq	8(%rdi), %r8
	addq	%rdx, %r8
	movq	$1, 24(%r8,%rcx,8)
	addq	$4, %rcx
	cmpq	%rcx, %rsi
	jne	.LBB56_29
	jmp	.LBB56_15
.LBB56_30:
	cmpb	$0, 8(%rdi)
	je	.LBB56_31
	movb	$1, %al
	movabsq	$4294967296, %rcx
	cmpq	%rcx, %rsi
	ja	.LBB56_60
	movq	24(%rdi), %r14
	movq	%rsi, %rbx
	subq	%r14, %rbx
	jbe	.LBB56_59
	movq	32(%rdi), %rcx
	subq	%r14, %rcx
	movq	%r14, %rax
	cmpq	%rcx, %rbx
	ja	.LBB56_47
	leaq	1(%r14), %rcx
	cmpq	%rsi, %rcx
	jae	.LBB56_58
.LBB56_50:
	notl	%r14d
	addl	%esi, %r14d
	addq	$-2, %rbx
	andl	$3, %r14d
	je	.LBB56_54
	leaq	(,%rax,8), %rdx
	leaq	(%rdx,%rdx,2), %r8
	negq	%r14
	xorl	%edx, %edx
	.p2align	4
.LBB56_52:
	movq	16(%rdi), %r9
	xorps	%xmm0, %xmm0
	movups	%xmm0, (%r9,%r8)
	movq	$0, 16(%r9,%r8)
	decq	%rdx
	addq	$24, %r8
	cmpq	%rdx, %r14
	jne	.LBB56_52
	subq	%rdx, %rax
	subq	%rdx, %rcx
.LBB56_54:
	cmpq	$3, %rbx
	jb	.LBB56_58
	leaq	(,%rax,8), %rdx
	leaq	(%rdx,%rdx,2), %rdx
	subq	%rsi, %rcx
	xorl	%esi, %esi
	.p2align	4
.LBB56_56:
	movq	16(%rdi), %r8
	xorps	%xmm0, %xmm0
	movups	%xmm0, (%r8,%rdx)
	movq	$0, 16(%r8,%rdx)
	movq	16(%rdi), %r8
	movups	%xmm0, 24(%r8,%rdx)
	movq	$0, 40(%r8,%rdx)
	movq	16(%rdi), %r8
	movups	%xmm0, 48(%r8,%rdx)
	movq	$0, 64(%r8,%rdx)
	movq	16(%rdi), %r8
	movups	%xmm0, 72(%r8,%rdx)
	movq	$0, 88(%r8,%rdx)
	addq	$96, %rdx
	addq	$-4, %rsi
	cmpq	%rsi, %rcx
	jne	.LBB56_56
	subq	%rsi, %rax
.LBB56_58:
	movq	16(%rdi), %rcx
	leaq	(%rax,%rax,2), %rdx
	xorps	%xmm0, %xmm0
	movups	%xmm0, (%rcx,%rdx,8)
	movq	$0, 16(%rcx,%rdx,8)
	incq	%rax
	movq	%rax, 24(%rdi)
	jmp	.LBB56_59
.LBB56_2:
	movb	$1, %al
	movabsq	$4294967296, %rcx
	cmpq	%rcx, %rsi
	ja	.LBB56_60
	movq	16(%rdi), %r14
	movq	%rsi, %rbx
	subq	%r14, %rbx
	jbe	.LBB56_59
	movq	24(%rdi), %rcx
	subq	%r14, %rcx
	movq	%r14, %rax
	cmpq	%rcx, %rbx
	ja	.LBB56_5
	leaq	1(%r14), %rcx
	cmpq	%rsi, %rcx
	jae	.LBB56_16
.LBB56_8:
	notl	%r14d
	addl	%esi, %r14d
	addq	$-2, %rbx
	andl	$3, %r14d
	je	.LBB56_12
	negq	%r14
	xorl	%edx, %edx
	.p2align	4
.LBB56_10:
	movq	8(%rdi), %r8
	movq	$1, (%r8,%rax,8)
	incq	%rax
	decq	%rdx
	cmpq	%rdx, %r14
	jne	.LBB56_10
	subq	%rdx, %rcx
.LBB56_12:
	cmpq	$3, %rbx
	jb	.LBB56_16
	leaq	(,%rax,8), %rdx
	subq	%rcx, %rsi
	xorl	%ecx, %ecx
	.p2align	4
.LBB56_14:
	movq	8(%rdi), %r8
	addq	%rdx, %r8
	movq	$1, (%r8,%rcx,8)
	movq	8(%rdi), %r8
	addq	%rdx, %r8
	movq	$1, 8(%r8,%rcx,8)
	movq	8(%rdi), %r8
	addq	%rdx, %r8
	movq	$1, 16(%r8,%rcx,8)
	movq	8(%rdi), %r8
	addq	%rdx, %r8
	movq	$1, 24(%r8,%rcx,8)
	addq	$4, %rcx
	cmpq	%rcx, %rsi
	jne	.LBB56_14
.LBB56_15:
	addq	%rcx, %rax
.LBB56_16:
	movq	8(%rdi), %rcx
	movq	$1, (%rcx,%rax,8)
	incq	%rax
	movq	%rax, 16(%rdi)
.LBB56_59:
	xorl	%eax, %eax
.LBB56_60:
	addq	$8, %rsp
	popq	%rbx
	popq	%r12
	popq	%r14
	popq	%r15
	retq
.LBB56_31:
	movb	$1, %al
	movabsq	$4294967296, %rcx
	cmpq	%rcx, %rsi
	ja	.LBB56_60
	movq	24(%rdi), %rbx
	movq	%rsi, %rax
	subq	%rbx, %rax
	jbe	.LBB56_59
	movq	32(%rdi), %rdx
	subq	%rbx, %rdx
	movq	%rbx, %rcx
	cmpq	%rdx, %rax
	ja	.LBB56_34
	leaq	1(%rbx), %rax
	cmpq	%rsi, %rax
	jae	.LBB56_43
.LBB56_37:
	leaq	-2(%rsi), %rdx
	movl	%ebx, %r8d
	subl	%esi, %r8d
	testb	$1, %r8b
	jne	.LBB56_39
	movq	16(%rdi), %rax
	movq	%rcx, %r8
	shlq	$4, %r8
	movq	$1, (%rax,%r8)
	movq	$0, 8(%rax,%r8)
	incq	%rcx
	leaq	2(%rbx), %rax
.LBB56_39:
	cmpq	%rbx, %rdx
	je	.LBB56_43
	movq	%rcx, %rdx
	shlq	$4, %rdx
	subq	%rsi, %rax
	xorl	%esi, %esi
	.p2align	4
.LBB56_41:
	movq	16(%rdi), %r8
	movq	$1, (%r8,%rdx)
	movq	$0, 8(%r8,%rdx)
	movq	16(%rdi), %r8
	movq	$1, 16(%r8,%rdx)
	movq	$0, 24(%r8,%rdx)
	addq	$32, %rdx
	addq	$-2, %rsi
	cmpq	%rsi, %rax
	jne	.LBB56_41
	subq	%rsi, %rcx
.LBB56_43:
	movq	16(%rdi), %rax
	movq	%rcx, %rdx
	shlq	$4, %rdx
	movq	$1, (%rax,%rdx)
	movq	$0, 8(%rax,%rdx)
	incq	%rcx
	movq	%rcx, 24(%rdi)
	jmp	.LBB56_59
.LBB56_20:
	movq	%rsi, %r15
	movq	%rdi, %r12
	addq	$8, %rdi
	movq	%rbx, %rsi
	callq	std_alloc.vec.Vec.grow_amortized.032cdd4970ee9421
	movl	%eax, %ecx
	movb	$1, %al
	testb	%cl, %cl
	je	.LBB56_60
	movq	%r12, %rdi
	movq	16(%r12), %rax
	movq	%r15, %rsi
	leaq	1(%r14), %rcx
	cmpq	%rsi, %rcx
	jb	.LBB56_23
	jmp	.LBB56_16
.LBB56_5:
	movq	%rsi, %r15
	movq	%rdi, %r12
	addq	$8, %rdi
	movq	%rbx, %rsi
	callq	std_alloc.vec.Vec.grow_amortized.032cdd4970ee9421
	movl	%eax, %ecx
	movb	$1, %al
	testb	%cl, %cl
	je	.LBB56_60
	movq	%r12, %rdi
	movq	16(%r12), %rax
	movq	%r15, %rsi
	leaq	1(%r14), %rcx
	cmpq	%rsi, %rcx
	jb	.LBB56_8
	jmp	.LBB56_16
.LBB56_47:
	movq	%rsi, %r15
	movq	%rdi, %r12
	addq	$16, %rdi
	movq	%rbx, %rsi
	callq	std_alloc.vec.Vec.grow_amortized.d8bec769fe813ba4
	movl	%eax, %ecx
	movb	$1, %al
	testb	%cl, %cl
	je	.LBB56_60
	movq	%r12, %rdi
	movq	24(%r12), %rax
	movq	%r15, %rsi
	leaq	1(%r14), %rcx
	cmpq	%rsi, %rcx
	jb	.LBB56_50
	jmp	.LBB56_58
.LBB56_34:
	movq	%rsi, %r14
	movq	%rdi, %r15
	addq	$16, %rdi
	movq	%rax, %rsi
	callq	std_alloc.vec.Vec.grow_amortized.5d4e4d27b606016f
	movl	%eax, %ecx
	movb	$1, %al
	testb	%cl, %cl
	je	.LBB56_60
	movq	%r15, %rdi
	movq	24(%r15), %rcx
	movq	%r14, %rsi
	leaq	1(%rbx), %rax
	cmpq	%rsi, %rax
	jb	.LBB56_37
	jmp	.LBB56_43
.Lfunc_end56:
	.size	ic_any_collection.any_table.AnyTable.cover.f9617c8b158e2be4, .Lfunc_end56-ic_any_collection.any_table.AnyTable.cover.f9617c8b158e2be4
	.section	.text.unlikely.std_alloc.vec.Vec.grow_amortized.032cdd4970ee9421,"ax",@progbits
	.p2align	4
	.type	std_alloc.vec.Vec.grow_amortized.032cdd4970ee9421,@function
std_alloc.vec.Vec.grow_amortized.032cdd4970ee9421:
	movq	%rsi, %rax
	movq	8(%rdi), %rsi
	addq	%rsi, %rax
	jae	.LBB57_2
	xorl	%eax, %eax
	retq
.LBB57_2:
	pushq	%r14
	pushq	%rbx
	pushq	%rax
	movq	16(%rdi), %rcx
	cmpq	$5, %rax
	movl	$4, %ebx
	cmovaeq	%rax, %rbx
	movq	%rcx, %rdx
	shrq	$62, %rdx
	leaq	(%rcx,%rcx), %rax
	cmpq	%rax, %rbx
	cmovaq	%rbx, %rax
	testq	%rdx, %rdx
	cmoveq	%rax, %rbx
	movq	%rbx, %rdx
	shrq	$60, %rdx
	jne	.LBB57_6
	testq	%rcx, %rcx
	je	.LBB57_8
	movq	%rdi, %r14
	movq	(%rdi), %rdi
	shlq	$3, %rsi
	leaq	(,%rbx,8), %rdx
	movl	$8, %ecx
	callq	rattle_realloc@PLT
	testb	$1, %al
	je	.LBB57_6
.LBB57_9:
	movq	%rdx, (%r14)
	movq	%rbx, 16(%r14)
	movb	$1, %al
	addq	$8, %rsp
	popq	%rbx
	popq	%r14
	retq
.LBB57_8:
	movq	%rdi, %r14
	shlq	$3, %rax
	movl	$8, %esi
	movq	%rax, %rdi
	callq	rattle_alloc@PLT
	testb	$1, %al
	jne	.LBB57_9
.LBB57_6:
	xorl	%eax, %eax
	addq	$8, %rsp
	popq	%rbx
	popq	%r14
	retq
.Lfunc_end57:
	.size	std_alloc.vec.Vec.grow_amortized.032cdd4970ee9421, .Lfunc_end57-std_alloc.vec.Vec.grow_amortized.032cdd4970ee9421
	.section	.text.unlikely.std_alloc.vec.Vec.grow_amortized.5d4e4d27b606016f,"ax",@progbits
	.p2align	4
	.type	std_alloc.vec.Vec.grow_amortized.5d4e4d27b606016f,@function
std_alloc.vec.Vec.grow_amortized.5d4e4d27b606016f:
	movq	%rsi, %rax
	movq	8(%rdi), %rsi
	addq	%rsi, %rax
	jae	.LBB58_2
	xorl	%eax, %eax
	retq
.LBB58_2:
	pushq	%r14
	pushq	%rbx
	pushq	%rax
	movq	16(%rdi), %rcx
	cmpq	$5, %rax
	movl	$4, %ebx
	cmovaeq	%rax, %rbx
	movq	%rcx, %rdx
	shrq	$62, %rdx
	leaq	(%rcx,%rcx), %rax
	cmpq	%rax, %rbx
	cmovaq	%rbx, %rax
	testq	%rdx, %rdx
	cmoveq	%rax, %rbx
	movq	%rbx, %rdx
	shrq	$59, %rdx
	jne	.LBB58_6
	testq	%rcx, %rcx
	je	.LBB58_8
	movq	%rdi, %r14
	movq	(%rdi), %rdi
	shlq	$4, %rsi
	movq	%rbx, %rdx
	shlq	$4, %rdx
	movl	$8, %ecx
	callq	rattle_realloc@PLT
	testb	$1, %al
	je	.LBB58_6
.LBB58_9:
	movq	%rdx, (%r14)
	movq	%rbx, 16(%r14)
	movb	$1, %al
	addq	$8, %rsp
	popq	%rbx
	popq	%r14
	retq
.LBB58_8:
	movq	%rdi, %r14
	shlq	$4, %rax
	movl	$8, %esi
	movq	%rax, %rdi
	callq	rattle_alloc@PLT
	testb	$1, %al
	jne	.LBB58_9
.LBB58_6:
	xorl	%eax, %eax
	addq	$8, %rsp
	popq	%rbx
	popq	%r14
	retq
.Lfunc_end58:
	.size	std_alloc.vec.Vec.grow_amortized.5d4e4d27b606016f, .Lfunc_end58-std_alloc.vec.Vec.grow_amortized.5d4e4d27b606016f
	.section	.text.unlikely.std_alloc.vec.Vec.grow_amortized.d8bec769fe813ba4,"ax",@progbits
	.p2align	4
	.type	std_alloc.vec.Vec.grow_amortized.d8bec769fe813ba4,@function
std_alloc.vec.Vec.grow_amortized.d8bec769fe813ba4:
	movq	8(%rdi), %rax
	addq	%rax, %rsi
	jae	.LBB59_2
	xorl	%eax, %eax
	retq
.LBB59_2:
	pushq	%r14
	pushq	%rbx
	pushq	%rax
	movq	16(%rdi), %rcx
	cmpq	$5, %rsi
	movl	$4, %ebx
	cmovaeq	%rsi, %rbx
	movq	%rcx, %rsi
	shrq	$62, %rsi
	leaq	(%rcx,%rcx), %rdx
	cmpq	%rdx, %rbx
	cmovaq	%rbx, %rdx
	testq	%rsi, %rsi
	cmoveq	%rdx, %rbx
	movabsq	$384307168202282325, %rsi
	cmpq	%rsi, %rbx
	ja	.LBB59_6
	testq	%rcx, %rcx
	je	.LBB59_8
	movq	%rdi, %r14
	movq	(%rdi), %rdi
	shlq	$3, %rax
	leaq	(%rax,%rax,2), %rsi
	leaq	(,%rbx,8), %rax
	leaq	(%rax,%rax,2), %rdx
	movl	$8, %ecx
	callq	rattle_realloc@PLT
	testb	$1, %al
	je	.LBB59_6
.LBB59_9:
	movq	%rdx, (%r14)
	movq	%rbx, 16(%r14)
	movb	$1, %al
	addq	$8, %rsp
	popq	%rbx
	popq	%r14
	retq
.LBB59_8:
	movq	%rdi, %r14
	shlq	$3, %rdx
	leaq	(%rdx,%rdx,2), %rdi
	movl	$8, %esi
	callq	rattle_alloc@PLT
	testb	$1, %al
	jne	.LBB59_9
.LBB59_6:
	xorl	%eax, %eax
	addq	$8, %rsp
	popq	%rbx
	popq	%r14
	retq
.Lfunc_end59:
	.size	std_alloc.vec.Vec.grow_amortized.d8bec769fe813ba4, .Lfunc_end59-std_alloc.vec.Vec.grow_amortized.d8bec769fe813ba4
	.section	.text.unlikely.std_alloc.vec.Vec.grow_amortized.88ac1d64e9c54581,"ax",@progbits
	.p2align	4
	.type	std_alloc.vec.Vec.grow_amortized.88ac1d64e9c54581,@function
std_alloc.vec.Vec.grow_amortized.88ac1d64e9c54581:
	movq	%rsi, %rax
	movq	8(%rdi), %rsi
	addq	%rsi, %rax
	jae	.LBB60_2
	xorl	%eax, %eax
	retq
.LBB60_2:
	pushq	%r14
	pushq	%rbx
	pushq	%rax
	movq	16(%rdi), %rcx
	cmpq	$5, %rax
	movl	$4, %ebx
	cmovaeq	%rax, %rbx
	movq	%rcx, %rdx
	shrq	$62, %rdx
	leaq	(%rcx,%rcx), %rax
	cmpq	%rax, %rbx
	cmovaq	%rbx, %rax
	testq	%rdx, %rdx
	cmoveq	%rax, %rbx
	movq	%rbx, %rdx
	shrq	$59, %rdx
	jne	.LBB60_6
	testq	%rcx, %rcx
	je	.LBB60_8
	movq	%rdi, %r14
	movq	(%rdi), %rdi
	shlq	$4, %rsi
	movq	%rbx, %rdx
	shlq	$4, %rdx
	movl	$8, %ecx
	callq	rattle_realloc@PLT
	testb	$1, %al
	je	.LBB60_6
.LBB60_9:
	movq	%rdx, (%r14)
	movq	%rbx, 16(%r14)
	movb	$1, %al
	addq	$8, %rsp
	popq	%rbx
	popq	%r14
	retq
.LBB60_8:
	movq	%rdi, %r14
	shlq	$4, %rax
	movl	$8, %esi
	movq	%rax, %rdi
	callq	rattle_alloc@PLT
	testb	$1, %al
	jne	.LBB60_9
.LBB60_6:
	xorl	%eax, %eax
	addq	$8, %rsp
	popq	%rbx
	popq	%r14
	retq
.Lfunc_end60:
	.size	std_alloc.vec.Vec.grow_amortized.88ac1d64e9c54581, .Lfunc_end60-std_alloc.vec.Vec.grow_amortized.88ac1d64e9c54581
	.section	.text.unlikely.std_alloc.vec.Vec.grow_amortized.240d24d5d7197e22,"ax",@progbits
	.p2align	4
	.type	std_alloc.vec.Vec.grow_amortized.240d24d5d7197e22,@function
std_alloc.vec.Vec.grow_amortized.240d24d5d7197e22:
	movq	8(%rdi), %rax
	cmpq	$-1, %rax
	je	.LBB61_5
	pushq	%r14
	pushq	%rbx
	pushq	%rax
	movq	16(%rdi), %rcx
	cmpq	$4, %rax
	movl	$3, %ebx
	cmovaeq	%rax, %rbx
	incq	%rbx
	movq	%rcx, %rsi
	shrq	$62, %rsi
	leaq	(%rcx,%rcx), %rdx
	cmpq	%rdx, %rbx
	cmovaq	%rbx, %rdx
	testq	%rsi, %rsi
	cmoveq	%rdx, %rbx
	movabsq	$192153584101141162, %rsi
	cmpq	%rsi, %rbx
	ja	.LBB61_6
	testq	%rcx, %rcx
	je	.LBB61_8
	movq	%rdi, %r14
	movq	(%rdi), %rdi
	shlq	$4, %rax
	leaq	(%rax,%rax,2), %rsi
	movq	%rbx, %rax
	shlq	$4, %rax
	leaq	(%rax,%rax,2), %rdx
	movl	$8, %ecx
	callq	rattle_realloc@PLT
	testb	$1, %al
	je	.LBB61_6
.LBB61_9:
	movq	%rdx, (%r14)
	movq	%rbx, 16(%r14)
	movb	$1, %al
	addq	$8, %rsp
	popq	%rbx
	popq	%r14
	retq
.LBB61_5:
	xorl	%eax, %eax
	retq
.LBB61_8:
	movq	%rdi, %r14
	shlq	$4, %rdx
	leaq	(%rdx,%rdx,2), %rdi
	movl	$8, %esi
	callq	rattle_alloc@PLT
	testb	$1, %al
	jne	.LBB61_9
.LBB61_6:
	xorl	%eax, %eax
	addq	$8, %rsp
	popq	%rbx
	popq	%r14
	retq
.Lfunc_end61:
	.size	std_alloc.vec.Vec.grow_amortized.240d24d5d7197e22, .Lfunc_end61-std_alloc.vec.Vec.grow_amortized.240d24d5d7197e22
	.section	.text.ic_world.world.World.splice.27dc223f7d016e2e,"ax",@progbits
	.p2align	4
	.type	ic_world.world.World.splice.27dc223f7d016e2e,@function
ic_world.world.World.splice.27dc223f7d016e2e:
	pushq	%rbp
	pushq	%r15
	pushq	%r14
	pushq	%r13
	pushq	%r12
	pushq	%rbx
	subq	$24, %rsp
	movq	%rdx, %r8
	movq	%rsi, %r9
	movq	80(%rdi), %rsi
	movb	$1, %al
	movb	$1, %dl
	cmpq	%r9, %rsi
	jbe	.LBB62_114
	movq	72(%rdi), %r11
	movl	4(%r11,%r9,8), %ebx
	movl	$4294967295, %eax
	cmpq	%rax, %rbx
	je	.LBB62_6
	movb	$1, %al
	movb	$1, %dl
	cmpq	%r8, %rsi
	jbe	.LBB62_114
	movl	4(%r11,%r8,8), %edx
	movl	$4294967295, %esi
	cmpq	%rsi, %rdx
	je	.LBB62_7
	movl	(%r11,%r9,8), %r10d
	movq	96(%rdi), %r14
	leaq	(%r10,%r10,2), %rsi
	movq	(%r14,%rsi,8), %r15
	leaq	(%rbx,%rbx,2), %rbx
	shlq	$4, %rbx
	movzbl	8(%r15,%rbx), %r12d
	movl	(%r11,%r8,8), %r15d
	leaq	(%r15,%r15,2), %r11
	movq	(%r14,%r11,8), %rbx
	leaq	(%rdx,%rdx,2), %r14
	shlq	$4, %r14
	movzbl	8(%rbx,%r14), %r11d
	testb	%cl, %cl
	je	.LBB62_8
	leal	-1(%r12), %ebp
	movb	$3, %dl
	cmpb	$1, %bpl
	jbe	.LBB62_9
	jmp	.LBB62_114
.LBB62_6:
	movb	$1, %al
.LBB62_7:
	movb	$1, %dl
.LBB62_114:
	addq	$24, %rsp
	popq	%rbx
	popq	%r12
	popq	%r13
	popq	%r14
	popq	%r15
	popq	%rbp
	retq
.LBB62_8:
	movb	$3, %dl
	cmpb	$3, %r12b
	je	.LBB62_114
.LBB62_9:
	cmpb	%r11b, %r12b
	jne	.LBB62_114
	movb	$4, %dl
	cmpq	%r8, %r9
	je	.LBB62_114
	movb	$5, %dl
	cmpl	%r15d, %r10d
	setne	%al
	jne	.LBB62_114
	addq	%r14, %rbx
	movq	16(%rbx), %r8
	movq	24(%rbx), %r10
	movq	%r11, 8(%rbx)
	xorps	%xmm0, %xmm0
	movups	%xmm0, 32(%rbx)
	movups	%xmm0, 16(%rbx)
	shlq	$4, %rsi
	addq	48(%rdi), %rsi
	movq	72(%rdi), %rdx
	movq	96(%rdi), %rdi
	movl	(%rdx,%r9,8), %ebx
	movl	4(%rdx,%r9,8), %edx
	leaq	(%rbx,%rbx,2), %r9
	leaq	(%rdx,%rdx,2), %r15
	shlq	$4, %r15
	addq	(%rdi,%r9,8), %r15
	testb	%cl, %cl
	je	.LBB62_18
	leaq	.LJTI62_1(%rip), %rcx
	movslq	(%rcx,%r11,4), %rdx
	addq	%rcx, %rdx
	jmpq	*%rdx
.LBB62_14:
	cmpb	$1, 8(%r15)
	jne	.LBB62_113
	cmpb	$2, (%rsi)
	jne	.LBB62_116
	movq	32(%r15), %rcx
	testq	%rcx, %rcx
	je	.LBB62_37
	movq	16(%rsi), %rdx
	movq	%rcx, %rdi
	shrq	$3, %rdi
	cmpb	$0, 8(%rsi)
	leaq	(%rdi,%rdi,2), %rdi
	leaq	-8(%rdx,%rcx,2), %r9
	leaq	-24(%rdx,%rdi,8), %rdx
	cmoveq	%r9, %rdx
	jmp	.LBB62_38
.LBB62_18:
	leaq	.LJTI62_0(%rip), %rcx
	movslq	(%rcx,%r11,4), %rdx
	addq	%rcx, %rdx
	jmpq	*%rdx
.LBB62_19:
	cmpb	$0, 8(%r15)
	jne	.LBB62_113
	leaq	16(%r15), %rdi
	movq	24(%r15), %rcx
	movq	%rdi, %rdx
	testq	%rcx, %rcx
	je	.LBB62_82
	movzbl	(%rsi), %edx
	cmpl	$2, %edx
	je	.LBB62_62
	cmpl	$1, %edx
	movq	8(%rsi), %rdx
	addq	%rcx, %rdx
	addq	$-8, %rdx
	jmp	.LBB62_82
.LBB62_23:
	cmpb	$2, 8(%r15)
	jne	.LBB62_113
	leaq	16(%r15), %rdi
	movq	32(%r15), %rdx
	testq	%rdx, %rdx
	je	.LBB62_36
	movq	40(%r15), %rcx
	xorq	%rdx, %rcx
	movzbl	(%rsi), %r9d
	cmpl	$2, %r9d
	je	.LBB62_47
	cmpl	$1, %r9d
	movq	8(%rsi), %r9
	addq	%rdx, %r9
	addq	$-8, %r9
	jmp	.LBB62_78
.LBB62_27:
	cmpb	$1, 8(%r15)
	jne	.LBB62_113
	cmpb	$2, (%rsi)
	jne	.LBB62_116
	movq	32(%r15), %rcx
	testq	%rcx, %rcx
	je	.LBB62_44
	movzbl	8(%rsi), %ebx
	leaq	(%rcx,%rcx), %r9
	testb	%bl, %bl
	leaq	(%rcx,%rcx,2), %r11
	movq	%r11, %rdx
	cmoveq	%r9, %rdx
	testq	%r10, %r10
	sete	%dil
	testq	%r8, %r8
	je	.LBB62_76
	movq	16(%rsi), %r14
	movq	-16(%r14,%rdx), %rdx
	testb	%bl, %bl
	je	.LBB62_64
	movq	%r8, -16(%r14,%r11)
	jmp	.LBB62_65
.LBB62_33:
	cmpb	$2, 8(%r15)
	jne	.LBB62_113
	leaq	16(%r15), %rdi
	movq	32(%r15), %rbx
	movl	%eax, %ebp
	testq	%rbx, %rbx
	je	.LBB62_42
	movq	40(%r15), %r12
	xorq	%rbx, %r12
	jmp	.LBB62_43
.LBB62_36:
	movl	%eax, %ebx
	movq	24(%r15), %rcx
	testq	%rcx, %rcx
	jmp	.LBB62_79
.LBB62_37:
	leaq	24(%r15), %rdx
.LBB62_38:
	testq	%r8, %r8
	je	.LBB62_113
	movq	(%rdx), %rdx
	testq	%rdx, %rdx
	je	.LBB62_46
	movq	16(%rsi), %rdi
	cmpb	$0, 8(%rsi)
	je	.LBB62_49
	movq	%rdx, %r9
	shrq	$3, %r9
	leaq	(%r9,%r9,2), %r9
	movq	%r8, -16(%rdi,%r9,8)
	jmp	.LBB62_50
.LBB62_42:
	movq	(%rdi), %r12
	testq	%r12, %r12
.LBB62_43:
	setne	%al
	xorl	%edx, %edx
	testq	%rbx, %rbx
	setne	%dl
	xorl	%r9d, %r9d
	testq	%r10, %r10
	setne	%r9b
	movq	%r12, 16(%rsp)
	movzbl	%al, %r13d
	movl	%r13d, 8(%rsp)
	movq	%r10, (%rsp)
	movq	%rbx, %rcx
	movq	%r8, %r14
	callq	ic_chain.list.LinkList.splice_between.06e6478965f9faac
	xorl	%edx, %edx
	testb	%r13b, %r13b
	cmoveq	%rdx, %r12
	testq	%r14, %r14
	cmovneq	%r14, %r12
	xorq	%rbx, %r12
	movq	%rbx, 32(%r15)
	movq	%r12, 40(%r15)
	movl	%ebp, %eax
	jmp	.LBB62_114
.LBB62_44:
	testq	%r8, %r8
	je	.LBB62_76
	testq	%r10, %r10
	sete	%dil
	movq	16(%r15), %rdx
	movq	%r8, 16(%r15)
	jmp	.LBB62_65
.LBB62_46:
	movq	%r8, 16(%r15)
	jmp	.LBB62_50
.LBB62_47:
	cmpb	$0, 8(%rsi)
	movq	16(%rsi), %r9
	je	.LBB62_77
	movq	%rdx, %r11
	shrq	$3, %r11
	leaq	(%r11,%r11,2), %r11
	leaq	(%r9,%r11,8), %r9
	addq	$-16, %r9
	jmp	.LBB62_78
.LBB62_49:
	movq	%r8, -16(%rdi,%rdx,2)
.LBB62_50:
	testq	%rcx, %rcx
	je	.LBB62_53
	movq	16(%rsi), %rdi
	cmpb	$0, 8(%rsi)
	je	.LBB62_54
	movq	%rcx, %r9
	shrq	$3, %r9
	leaq	(%r9,%r9,2), %r9
	movq	%r10, -24(%rdi,%r9,8)
	jmp	.LBB62_55
.LBB62_53:
	movq	%r10, 24(%r15)
	jmp	.LBB62_55
.LBB62_54:
	movq	%r10, -8(%rdi,%rcx,2)
.LBB62_55:
	movq	16(%rsi), %rdi
	cmpb	$0, 8(%rsi)
	je	.LBB62_57
	shrq	$3, %r8
	leaq	(%r8,%r8,2), %r8
	movq	%rdx, -24(%rdi,%r8,8)
	jmp	.LBB62_58
.LBB62_57:
	movq	%rdx, -8(%rdi,%r8,2)
.LBB62_58:
	testq	%r10, %r10
	je	.LBB62_113
	movq	16(%rsi), %rdx
	cmpb	$0, 8(%rsi)
	je	.LBB62_61
	shrq	$3, %r10
	leaq	(%r10,%r10,2), %rsi
	movq	%rcx, -16(%rdx,%rsi,8)
	jmp	.LBB62_113
.LBB62_61:
	movq	%rcx, -16(%rdx,%r10,2)
	jmp	.LBB62_113
.LBB62_62:
	cmpb	$0, 8(%rsi)
	movq	16(%rsi), %rdx
	je	.LBB62_81
	movq	%rcx, %r9
	shrq	$3, %r9
	leaq	(%r9,%r9,2), %r9
	leaq	(%rdx,%r9,8), %rdx
	addq	$-16, %rdx
	jmp	.LBB62_82
.LBB62_64:
	movq	%r8, -16(%r14,%r9)
.LBB62_65:
	testq	%rdx, %rdx
	je	.LBB62_68
	movq	16(%rsi), %r9
	cmpb	$0, 8(%rsi)
	je	.LBB62_69
	movq	%rdx, %r11
	shrq	$3, %r11
	leaq	(%r11,%r11,2), %r11
	movq	%r10, -24(%r9,%r11,8)
	jmp	.LBB62_70
.LBB62_68:
	movq	%r10, 24(%r15)
	xorl	%edx, %edx
	jmp	.LBB62_70
.LBB62_69:
	movq	%r10, -8(%r9,%rdx,2)
.LBB62_70:
	movq	16(%rsi), %r9
	cmpb	$0, 8(%rsi)
	je	.LBB62_72
	shrq	$3, %r8
	leaq	(%r8,%r8,2), %r8
	movq	%rcx, -24(%r9,%r8,8)
	jmp	.LBB62_73
.LBB62_72:
	movq	%rcx, -8(%r9,%r8,2)
.LBB62_73:
	testb	%dil, %dil
	jne	.LBB62_76
	movq	16(%rsi), %rdi
	cmpb	$0, 8(%rsi)
	je	.LBB62_80
	shrq	$3, %r10
	leaq	(%r10,%r10,2), %rsi
	movq	%rdx, -16(%rdi,%rsi,8)
.LBB62_76:
	movq	%rcx, 32(%r15)
	jmp	.LBB62_113
.LBB62_77:
	leaq	(%r9,%rdx,2), %r9
	addq	$-16, %r9
.LBB62_78:
	movl	%eax, %ebx
	xorq	(%r9), %rcx
.LBB62_79:
	setne	%al
	xorl	%r11d, %r11d
	testq	%rdx, %rdx
	setne	%r11b
	xorl	%r9d, %r9d
	testq	%r10, %r10
	setne	%r9b
	movq	%rdx, 16(%rsp)
	movq	%r10, (%rsp)
	movl	%r11d, 8(%rsp)
	movzbl	%al, %edx
	callq	ic_chain.list.LinkList.splice_between.06e6478965f9faac
	xorl	%edx, %edx
	movl	%ebx, %eax
	jmp	.LBB62_114
.LBB62_80:
	movq	%rdx, -16(%rdi,%r10,2)
	movq	%rcx, 32(%r15)
	jmp	.LBB62_113
.LBB62_81:
	leaq	(%rdx,%rcx,2), %rdx
	addq	$-16, %rdx
.LBB62_82:
	movq	(%rdx), %rdx
	testq	%rdx, %rdx
	setne	%r10b
	testq	%r8, %r8
	setne	%r9b
	andb	%r10b, %r9b
	cmpb	$1, %r9b
	jne	.LBB62_85
	movzbl	(%rsi), %ebx
	cmpl	$2, %ebx
	je	.LBB62_87
	cmpl	$1, %ebx
	movq	8(%rsi), %r14
	leaq	(%r14,%r8), %r10
	addq	$-8, %r10
	jmp	.LBB62_90
.LBB62_85:
	testq	%r8, %r8
	je	.LBB62_112
	xorl	%r10d, %r10d
	jmp	.LBB62_100
.LBB62_87:
	cmpb	$0, 8(%rsi)
	movq	16(%rsi), %r10
	je	.LBB62_89
	movq	%r8, %r11
	shrq	$3, %r11
	leaq	(%r11,%r11,2), %r11
	leaq	(%r10,%r11,8), %r10
	addq	$-16, %r10
	movb	$1, %r14b
	jmp	.LBB62_90
.LBB62_89:
	leaq	(%r10,%r8,2), %r10
	addq	$-16, %r10
	xorl	%r14d, %r14d
.LBB62_90:
	movq	(%r10), %r11
	movq	%r8, %r10
	testq	%r11, %r11
	je	.LBB62_100
	cmpl	$2, %ebx
	je	.LBB62_95
	cmpl	$1, %ebx
	jne	.LBB62_98
	movq	8(%rsi), %rbx
.LBB62_94:
	movq	%r11, %r10
	movq	-8(%rbx,%r11), %r11
	testq	%r11, %r11
	jne	.LBB62_94
	jmp	.LBB62_100
.LBB62_95:
	movq	16(%rsi), %rbx
	testb	%r14b, %r14b
	je	.LBB62_97
.LBB62_96:
	movq	%r11, %r10
	shrq	$3, %r11
	leaq	(%r11,%r11,2), %r11
	movq	-16(%rbx,%r11,8), %r11
	testq	%r11, %r11
	jne	.LBB62_96
	jmp	.LBB62_100
.LBB62_97:
	movq	%r11, %r10
	movq	-16(%rbx,%r11,2), %r11
	testq	%r11, %r11
	jne	.LBB62_97
	jmp	.LBB62_100
.LBB62_98:
	movq	8(%rsi), %rbx
.LBB62_99:
	movq	%r11, %r10
	movq	-8(%rbx,%r11), %r11
	testq	%r11, %r11
	jne	.LBB62_99
.LBB62_100:
	testq	%rcx, %rcx
	je	.LBB62_103
	movzbl	(%rsi), %edi
	cmpl	$2, %edi
	je	.LBB62_104
	cmpl	$1, %edi
	movq	8(%rsi), %rdi
	movq	%r8, -8(%rdi,%rcx)
	jmp	.LBB62_107
.LBB62_103:
	movq	%r8, (%rdi)
	jmp	.LBB62_107
.LBB62_104:
	cmpb	$0, 8(%rsi)
	movq	16(%rsi), %rdi
	je	.LBB62_106
	movq	%rcx, %r11
	shrq	$3, %r11
	leaq	(%r11,%r11,2), %r11
	movq	%r8, -16(%rdi,%r11,8)
	jmp	.LBB62_107
.LBB62_106:
	movq	%r8, -16(%rdi,%rcx,2)
.LBB62_107:
	testb	%r9b, %r9b
	je	.LBB62_112
	movzbl	(%rsi), %edi
	cmpl	$2, %edi
	je	.LBB62_110
	cmpl	$1, %edi
	movq	8(%rsi), %rsi
	movq	%rdx, -8(%rsi,%r10)
	jmp	.LBB62_112
.LBB62_110:
	cmpb	$0, 8(%rsi)
	movq	16(%rsi), %rsi
	je	.LBB62_115
	shrq	$3, %r10
	leaq	(%r10,%r10,2), %rdi
	movq	%rdx, -16(%rsi,%rdi,8)
	jmp	.LBB62_112
.LBB62_115:
	movq	%rdx, -16(%rsi,%r10,2)
.LBB62_112:
	movq	%rcx, 24(%r15)
.LBB62_113:
	xorl	%edx, %edx
	jmp	.LBB62_114
.LBB62_116:
	ud2
.Lfunc_end62:
	.size	ic_world.world.World.splice.27dc223f7d016e2e, .Lfunc_end62-ic_world.world.World.splice.27dc223f7d016e2e
	.section	.rodata.ic_world.world.World.splice.27dc223f7d016e2e,"a",@progbits
	.p2align	2, 0x0
.LJTI62_0:
	.long	.LBB62_19-.LJTI62_0
	.long	.LBB62_27-.LJTI62_0
	.long	.LBB62_33-.LJTI62_0
	.long	.LBB62_116-.LJTI62_0
.LJTI62_1:
	.long	.LBB62_116-.LJTI62_1
	.long	.LBB62_14-.LJTI62_1
	.long	.LBB62_23-.LJTI62_1
	.long	.LBB62_116-.LJTI62_1
	.section	.text.ic_chain.list.LinkList.splice_between.06e6478965f9faac,"ax",@progbits
	.p2align	4
	.type	ic_chain.list.LinkList.splice_between.06e6478965f9faac,@function
ic_chain.list.LinkList.splice_between.06e6478965f9faac:
	testq	%r8, %r8
	je	.LBB63_27
	pushq	%r15
	pushq	%r14
	pushq	%rbx
	movq	48(%rsp), %rax
	movzbl	40(%rsp), %r10d
	cmpb	$1, %dl
	jne	.LBB63_7
	movzbl	(%rsi), %r11d
	cmpl	$2, %r11d
	je	.LBB63_4
	cmpl	$1, %r11d
	movq	8(%rsi), %r11
	xorl	%ebx, %ebx
	testb	%r10b, %r10b
	cmovneq	%rax, %rbx
	xorq	-8(%r11,%rcx), %rbx
	xorq	%r8, %rbx
	movq	%rbx, -8(%r11,%rcx)
	jmp	.LBB63_8
.LBB63_7:
	movq	%r8, (%rdi)
.LBB63_8:
	movq	32(%rsp), %r11
	cmpb	$1, %r10b
	jne	.LBB63_14
	movzbl	(%rsi), %edi
	cmpl	$2, %edi
	je	.LBB63_11
	cmpl	$1, %edi
	xorl	%edi, %edi
	testb	%dl, %dl
	movq	%rcx, %rbx
	cmoveq	%rdi, %rbx
	movq	8(%rsi), %r14
	testb	%r9b, %r9b
	cmovneq	%r11, %rdi
	xorq	%rbx, %rdi
	xorq	%rdi, -8(%r14,%rax)
	jmp	.LBB63_15
.LBB63_14:
	xorl	%ebx, %ebx
	testb	%r9b, %r9b
	cmovneq	%r11, %rbx
	movq	%rbx, 8(%rdi)
.LBB63_15:
	movzbl	(%rsi), %edi
	cmpl	$2, %edi
	je	.LBB63_17
	cmpl	$1, %edi
	xorl	%edi, %edi
	testb	%dl, %dl
	cmoveq	%rdi, %rcx
	movq	8(%rsi), %rdx
	xorq	%rcx, -8(%rdx,%r8)
	testb	$1, %r9b
	jne	.LBB63_21
	jmp	.LBB63_26
.LBB63_17:
	cmpb	$0, 8(%rsi)
	movq	16(%rsi), %rdi
	je	.LBB63_18
	shrq	$3, %r8
	xorl	%ebx, %ebx
	testb	%dl, %dl
	cmoveq	%rbx, %rcx
	leaq	(%r8,%r8,2), %rdx
	xorq	%rcx, -16(%rdi,%rdx,8)
	testb	$1, %r9b
	jne	.LBB63_21
	jmp	.LBB63_26
.LBB63_4:
	cmpb	$0, 8(%rsi)
	movq	16(%rsi), %r11
	je	.LBB63_5
	movq	%rcx, %rbx
	shrq	$3, %rbx
	leaq	(%rbx,%rbx,2), %rbx
	xorl	%r14d, %r14d
	testb	%r10b, %r10b
	cmovneq	%rax, %r14
	xorq	-16(%r11,%rbx,8), %r14
	xorq	%r8, %r14
	movq	%r14, -16(%r11,%rbx,8)
	jmp	.LBB63_8
.LBB63_11:
	cmpb	$0, 8(%rsi)
	movq	16(%rsi), %rdi
	je	.LBB63_12
	movq	%rax, %rbx
	shrq	$3, %rbx
	xorl	%r14d, %r14d
	testb	%dl, %dl
	movq	%rcx, %r15
	cmoveq	%r14, %r15
	leaq	(%rbx,%rbx,2), %rbx
	testb	%r9b, %r9b
	cmovneq	%r11, %r14
	xorq	%r15, %r14
	xorq	%r14, -16(%rdi,%rbx,8)
	jmp	.LBB63_15
.LBB63_18:
	xorl	%ebx, %ebx
	testb	%dl, %dl
	cmoveq	%rbx, %rcx
	xorq	%rcx, -16(%rdi,%r8,2)
	testb	$1, %r9b
	je	.LBB63_26
.LBB63_21:
	movzbl	(%rsi), %ecx
	cmpl	$2, %ecx
	je	.LBB63_23
	cmpl	$1, %ecx
	xorl	%ecx, %ecx
	testb	%r10b, %r10b
	cmoveq	%rcx, %rax
	movq	8(%rsi), %rcx
	xorq	%rax, -8(%rcx,%r11)
	jmp	.LBB63_26
.LBB63_23:
	cmpb	$0, 8(%rsi)
	movq	16(%rsi), %rcx
	je	.LBB63_24
	shrq	$3, %r11
	xorl	%edx, %edx
	testb	%r10b, %r10b
	cmoveq	%rdx, %rax
	leaq	(%r11,%r11,2), %rdx
	xorq	%rax, -16(%rcx,%rdx,8)
	jmp	.LBB63_26
.LBB63_5:
	xorl	%ebx, %ebx
	testb	%r10b, %r10b
	cmovneq	%rax, %rbx
	xorq	-16(%r11,%rcx,2), %rbx
	xorq	%r8, %rbx
	movq	%rbx, -16(%r11,%rcx,2)
	jmp	.LBB63_8
.LBB63_12:
	xorl	%ebx, %ebx
	testb	%dl, %dl
	movq	%rcx, %r14
	cmoveq	%rbx, %r14
	testb	%r9b, %r9b
	cmovneq	%r11, %rbx
	xorq	%r14, %rbx
	xorq	%rbx, -16(%rdi,%rax,2)
	jmp	.LBB63_15
.LBB63_24:
	xorl	%edx, %edx
	testb	%r10b, %r10b
	cmoveq	%rdx, %rax
	xorq	%rax, -16(%rcx,%r11,2)
.LBB63_26:
	popq	%rbx
	popq	%r14
	popq	%r15
.LBB63_27:
	retq
.Lfunc_end63:
	.size	ic_chain.list.LinkList.splice_between.06e6478965f9faac, .Lfunc_end63-ic_chain.list.LinkList.splice_between.06e6478965f9faac
	.section	.text.ic_world.collections_by_number.CollectionsByNumber.push.372c0babcfdcaee8,"ax",@progbits
	.p2align	4
	.type	ic_world.collections_by_number.CollectionsByNumber.push.372c0babcfdcaee8,@function
ic_world.collections_by_number.CollectionsByNumber.push.372c0babcfdcaee8:
	pushq	%rbp
	pushq	%r15
	pushq	%r14
	pushq	%r13
	pushq	%r12
	pushq	%rbx
	subq	$72, %rsp
	movq	%rdx, %r15
	movq	%rsi, %r14
	movq	%rdi, %rbx
	movzbl	(%rcx), %r8d
	movups	8(%rcx), %xmm1
	movups	24(%rcx), %xmm0
	movaps	%xmm0, 48(%rsp)
	movq	8(%rsi), %rdi
	cmpq	%rdi, 16(%rsi)
	je	.LBB64_1
	movq	%r15, %rax
	shrq	$32, %rax
	jne	.LBB64_19
.LBB64_4:
	movq	32(%r14), %rax
	cmpq	%r15, %rax
	jbe	.LBB64_5
.LBB64_10:
	movq	24(%r14), %r13
	leaq	(,%r15,8), %rax
	leaq	(%rax,%rax,2), %r12
	movq	8(%r13,%r12), %rbp
	movl	$4294967294, %eax
	cmpq	%rax, %rbp
	jbe	.LBB64_11
.LBB64_19:
	movw	$3329, (%rbx)
	movq	$0, 8(%rbx)
	jmp	.LBB64_20
.LBB64_5:
	movaps	%xmm1, 16(%rsp)
	jmp	.LBB64_6
	.p2align	4
.LBB64_9:
	movq	24(%r14), %rcx
	leaq	(%rax,%rax,2), %rdx
	leaq	8(%rsp), %rsi
	movq	%rsi, (%rcx,%rdx,8)
	incq	%rax
	xorps	%xmm0, %xmm0
	movups	%xmm0, 8(%rcx,%rdx,8)
	movq	%rax, 32(%r14)
	cmpq	%r15, %rax
	ja	.LBB64_10
.LBB64_6:
	cmpq	%rax, 40(%r14)
	jne	.LBB64_9
	movq	%rdi, %r12
	leaq	24(%r14), %rdi
	movq	%r8, %r13
	callq	std_alloc.vec.Vec.grow_amortized.6fd0d92cc040f46a
	movaps	16(%rsp), %xmm1
	testb	%al, %al
	je	.LBB64_19
	movq	%r13, %r8
	movq	%r12, %rdi
	movq	32(%r14), %rax
	jmp	.LBB64_9
.LBB64_11:
	movq	%rbp, %rax
	cmpq	%rbp, 16(%r13,%r12)
	je	.LBB64_12
.LBB64_14:
	movq	(%r13,%r12), %rcx
	leaq	(%rax,%rax,2), %rdx
	shlq	$4, %rdx
	movq	%rdi, (%rcx,%rdx)
	movq	%r8, 8(%rcx,%rdx)
	movups	%xmm1, 16(%rcx,%rdx)
	movaps	48(%rsp), %xmm0
	movups	%xmm0, 32(%rcx,%rdx)
	incq	%rax
	movq	%rax, 8(%r13,%r12)
	movq	8(%r14), %rax
	cmpq	%rax, 16(%r14)
	je	.LBB64_15
.LBB64_17:
	movq	(%r14), %rcx
	shlq	$32, %rbp
	orq	%r15, %rbp
	movq	%rbp, (%rcx,%rax,8)
	incq	%rax
	movq	%rax, 8(%r14)
.LBB64_18:
	movw	$0, (%rbx)
	movq	%rdi, 8(%rbx)
.LBB64_20:
	addq	$72, %rsp
	popq	%rbx
	popq	%r12
	popq	%r13
	popq	%r14
	popq	%r15
	popq	%rbp
	retq
.LBB64_1:
	movaps	%xmm1, 16(%rsp)
	movq	%r8, %r12
	movq	%r14, %rdi
	callq	std_alloc.vec.Vec.grow_amortized.6531aa12c3697aad
	testb	%al, %al
	je	.LBB64_19
	movq	8(%r14), %rdi
	movq	%r12, %r8
	movaps	16(%rsp), %xmm1
	movq	%r15, %rax
	shrq	$32, %rax
	je	.LBB64_4
	jmp	.LBB64_19
.LBB64_12:
	movq	%rdi, 40(%rsp)
	leaq	(%r12,%r13), %rdi
	movq	%r8, 32(%rsp)
	movaps	%xmm1, 16(%rsp)
	callq	std_alloc.vec.Vec.grow_amortized.240d24d5d7197e22
	movaps	16(%rsp), %xmm1
	movq	32(%rsp), %r8
	movq	40(%rsp), %rdi
	testb	%al, %al
	je	.LBB64_19
	movq	8(%r13,%r12), %rax
	jmp	.LBB64_14
.LBB64_15:
	movq	%rdi, %r12
	movq	%r14, %rdi
	callq	std_alloc.vec.Vec.grow_amortized.6531aa12c3697aad
	movq	%r12, %rdi
	testb	%al, %al
	je	.LBB64_18
	movq	8(%r14), %rax
	jmp	.LBB64_17
.Lfunc_end64:
	.size	ic_world.collections_by_number.CollectionsByNumber.push.372c0babcfdcaee8, .Lfunc_end64-ic_world.collections_by_number.CollectionsByNumber.push.372c0babcfdcaee8
	.section	.text.unlikely.std_alloc.vec.Vec.grow_amortized.6531aa12c3697aad,"ax",@progbits
	.p2align	4
	.type	std_alloc.vec.Vec.grow_amortized.6531aa12c3697aad,@function
std_alloc.vec.Vec.grow_amortized.6531aa12c3697aad:
	movq	8(%rdi), %rsi
	cmpq	$-1, %rsi
	je	.LBB65_5
	pushq	%r14
	pushq	%rbx
	pushq	%rax
	movq	16(%rdi), %rcx
	cmpq	$4, %rsi
	movl	$3, %ebx
	cmovaeq	%rsi, %rbx
	incq	%rbx
	movq	%rcx, %rdx
	shrq	$62, %rdx
	leaq	(%rcx,%rcx), %rax
	cmpq	%rax, %rbx
	cmovaq	%rbx, %rax
	testq	%rdx, %rdx
	cmoveq	%rax, %rbx
	movq	%rbx, %rdx
	shrq	$60, %rdx
	jne	.LBB65_6
	testq	%rcx, %rcx
	je	.LBB65_8
	movq	%rdi, %r14
	movq	(%rdi), %rdi
	shlq	$3, %rsi
	leaq	(,%rbx,8), %rdx
	movl	$4, %ecx
	callq	rattle_realloc@PLT
	testb	$1, %al
	je	.LBB65_6
.LBB65_9:
	movq	%rdx, (%r14)
	movq	%rbx, 16(%r14)
	movb	$1, %al
	addq	$8, %rsp
	popq	%rbx
	popq	%r14
	retq
.LBB65_5:
	xorl	%eax, %eax
	retq
.LBB65_8:
	movq	%rdi, %r14
	shlq	$3, %rax
	movl	$4, %esi
	movq	%rax, %rdi
	callq	rattle_alloc@PLT
	testb	$1, %al
	jne	.LBB65_9
.LBB65_6:
	xorl	%eax, %eax
	addq	$8, %rsp
	popq	%rbx
	popq	%r14
	retq
.Lfunc_end65:
	.size	std_alloc.vec.Vec.grow_amortized.6531aa12c3697aad, .Lfunc_end65-std_alloc.vec.Vec.grow_amortized.6531aa12c3697aad
	.section	.text.unlikely.std_alloc.vec.Vec.grow_amortized.6fd0d92cc040f46a,"ax",@progbits
	.p2align	4
	.type	std_alloc.vec.Vec.grow_amortized.6fd0d92cc040f46a,@function
std_alloc.vec.Vec.grow_amortized.6fd0d92cc040f46a:
	movq	8(%rdi), %rax
	cmpq	$-1, %rax
	je	.LBB66_5
	pushq	%r14
	pushq	%rbx
	pushq	%rax
	movq	16(%rdi), %rcx
	cmpq	$4, %rax
	movl	$3, %ebx
	cmovaeq	%rax, %rbx
	incq	%rbx
	movq	%rcx, %rsi
	shrq	$62, %rsi
	leaq	(%rcx,%rcx), %rdx
	cmpq	%rdx, %rbx
	cmovaq	%rbx, %rdx
	testq	%rsi, %rsi
	cmoveq	%rdx, %rbx
	movabsq	$384307168202282325, %rsi
	cmpq	%rsi, %rbx
	ja	.LBB66_6
	testq	%rcx, %rcx
	je	.LBB66_8
	movq	%rdi, %r14
	movq	(%rdi), %rdi
	shlq	$3, %rax
	leaq	(%rax,%rax,2), %rsi
	leaq	(,%rbx,8), %rax
	leaq	(%rax,%rax,2), %rdx
	movl	$8, %ecx
	callq	rattle_realloc@PLT
	testb	$1, %al
	je	.LBB66_6
.LBB66_9:
	movq	%rdx, (%r14)
	movq	%rbx, 16(%r14)
	movb	$1, %al
	addq	$8, %rsp
	popq	%rbx
	popq	%r14
	retq
.LBB66_5:
	xorl	%eax, %eax
	retq
.LBB66_8:
	movq	%rdi, %r14
	shlq	$3, %rdx
	leaq	(%rdx,%rdx,2), %rdi
	movl	$8, %esi
	callq	rattle_alloc@PLT
	testb	$1, %al
	jne	.LBB66_9
.LBB66_6:
	xorl	%eax, %eax
	addq	$8, %rsp
	popq	%rbx
	popq	%r14
	retq
.Lfunc_end66:
	.size	std_alloc.vec.Vec.grow_amortized.6fd0d92cc040f46a, .Lfunc_end66-std_alloc.vec.Vec.grow_amortized.6fd0d92cc040f46a
	.section	.text.ic_world.world.World.hand_out.27dc223f7d016e2e,"ax",@progbits
	.p2align	4
	.type	ic_world.world.World.hand_out.27dc223f7d016e2e,@function
ic_world.world.World.hand_out.27dc223f7d016e2e:
	pushq	%rbp
	pushq	%r15
	pushq	%r14
	pushq	%r13
	pushq	%r12
	pushq	%rbx
	subq	$72, %rsp
	xorpd	%xmm0, %xmm0
	movapd	%xmm0, 16(%rsp)
	cmpq	%rdx, 80(%rsi)
	jbe	.LBB67_71
	movq	%rsi, %r14
	addq	$72, %rsi
	movq	(%rsi), %r8
	movl	4(%r8,%rdx,8), %r9d
	movl	$4294967295, %r10d
	cmpq	%r10, %r9
	je	.LBB67_71
	movl	(%r8,%rdx,8), %r8d
	movq	96(%r14), %r10
	leaq	(%r8,%r8,2), %rbx
	movq	(%r10,%rbx,8), %r10
	leaq	(%r9,%r9,2), %r9
	shlq	$4, %r9
	movzbl	8(%r10,%r9), %r9d
	movzbl	%cl, %ebp
	testb	%bpl, %bpl
	je	.LBB67_9
	cmpl	$1, %ebp
	jne	.LBB67_4
	cmpl	$3, %r9d
	jne	.LBB67_9
.LBB67_5:
	movw	$769, (%rdi)
	jmp	.LBB67_6
.LBB67_71:
	movw	$257, (%rdi)
.LBB67_6:
	movq	$0, 8(%rdi)
	jmp	.LBB67_7
.LBB67_4:
	leal	-1(%r9), %r10d
	cmpb	$2, %r10b
	jae	.LBB67_5
.LBB67_9:
	movq	%rdx, %r13
	movl	%ecx, %r15d
	movq	%rdi, %r12
	movq	%r9, 32(%rsp)
	movupd	%xmm0, 40(%rsp)
	movupd	%xmm0, 56(%rsp)
	leaq	16(%rsp), %rdi
	leaq	32(%rsp), %rcx
	movq	%r8, %rdx
	callq	ic_world.collections_by_number.CollectionsByNumber.push.372c0babcfdcaee8
	movzbl	16(%rsp), %r11d
	cmpb	$1, %r11b
	jne	.LBB67_11
	movzbl	17(%rsp), %eax
	xorl	%r9d, %r9d
	movq	%r12, %rsi
	jmp	.LBB67_61
.LBB67_11:
	shlq	$4, %rbx
	movq	%r14, %rcx
	addq	48(%r14), %rbx
	movq	24(%rsp), %r9
	movq	72(%r14), %rax
	movq	96(%r14), %rdx
	movl	(%rax,%r13,8), %esi
	movl	4(%rax,%r13,8), %eax
	leaq	(%rsi,%rsi,2), %rsi
	movq	(%rdx,%rsi,8), %rdx
	leaq	(%rax,%rax,2), %rax
	shlq	$4, %rax
	leaq	(%rdx,%rax), %r13
	movzbl	8(%rdx,%rax), %r10d
	cmpb	$2, %r15b
	je	.LBB67_43
	movl	%r10d, %edi
	cmpl	$1, %ebp
	movq	%r12, %rsi
	jne	.LBB67_13
	leaq	.LJTI67_1(%rip), %rax
	movslq	(%rax,%rdi,4), %rdx
	addq	%rax, %rdx
	jmpq	*%rdx
.LBB67_16:
	movq	24(%r13), %rdx
	testq	%rdx, %rdx
	je	.LBB67_22
	movzbl	(%rbx), %eax
	testl	%eax, %eax
	je	.LBB67_72
	cmpl	$1, %eax
	jne	.LBB67_19
.LBB67_72:
	movq	8(%rbx), %rdi
	movq	-8(%rdi,%rdx), %rax
	movq	$0, -8(%rdi,%rdx)
	jmp	.LBB67_23
.LBB67_43:
	leaq	.LJTI67_0(%rip), %rax
	movslq	(%rax,%r10,4), %rdx
	addq	%rax, %rdx
	jmpq	*%rdx
.LBB67_44:
	cmpb	$2, (%rbx)
	jne	.LBB67_73
	movq	%r12, %rsi
	movq	32(%r13), %rdi
	testq	%rdi, %rdi
	je	.LBB67_46
	movq	16(%rbx), %rax
	movq	%rdi, %rdx
	shrq	$3, %rdx
	cmpb	$0, 8(%rbx)
	leaq	(%rdx,%rdx,2), %rdx
	leaq	-8(%rax,%rdi,2), %r8
	leaq	-24(%rax,%rdx,8), %rax
	cmoveq	%r8, %rax
	jmp	.LBB67_48
.LBB67_13:
	movq	16(%r13), %rax
	movq	24(%r13), %rdx
	movupd	32(%r13), %xmm0
	movq	%r10, 8(%r13)
	xorpd	%xmm1, %xmm1
	movupd	%xmm1, 16(%r13)
	movupd	%xmm1, 32(%r13)
	leaq	.LJTI67_2(%rip), %r8
	movslq	(%r8,%rdi,4), %rdi
	addq	%r8, %rdi
	jmpq	*%rdi
.LBB67_14:
	xorpd	%xmm1, %xmm1
	movsd	%xmm1, %xmm0
	jmp	.LBB67_60
.LBB67_62:
	movq	%r9, 8(%rsp)
	leaq	16(%r13), %rdi
	movq	32(%r13), %r9
	testq	%r9, %r9
	je	.LBB67_63
	movq	40(%r13), %rcx
	xorq	%r9, %rcx
	movzbl	(%rbx), %eax
	cmpl	$2, %eax
	je	.LBB67_66
	cmpl	$1, %eax
	movq	8(%rbx), %rax
	addq	%r9, %rax
	addq	$-8, %rax
	jmp	.LBB67_69
.LBB67_25:
	cmpb	$2, (%rbx)
	jne	.LBB67_73
	movq	32(%r13), %rdi
	testq	%rdi, %rdi
	je	.LBB67_29
	movq	%r10, %r15
	movq	%r9, %r14
	movq	16(%rbx), %r8
	leaq	(%rdi,%rdi), %r9
	leaq	24(%r13), %rdx
	cmpb	$0, 8(%rbx)
	leaq	(%rdi,%rdi,2), %r10
	movq	%r10, %rax
	cmoveq	%r9, %rax
	movq	-16(%r8,%rax), %rax
	je	.LBB67_28
	movq	$0, -16(%r8,%r10)
	jmp	.LBB67_33
.LBB67_38:
	movq	%r9, 8(%rsp)
	leaq	16(%r13), %rdi
	movq	32(%r13), %rcx
	movq	%r10, %r15
	movl	%r11d, %ebp
	testq	%rcx, %rcx
	je	.LBB67_39
	movq	40(%r13), %r9
	xorq	%rcx, %r9
	jmp	.LBB67_41
.LBB67_63:
	movq	%r10, %r15
	movl	%r11d, %ebp
	movq	24(%r13), %rcx
	testq	%rcx, %rcx
	jmp	.LBB67_70
.LBB67_46:
	leaq	24(%r13), %rax
.LBB67_48:
	movq	(%rax), %rdx
	testq	%rdx, %rdx
	je	.LBB67_52
	movq	16(%rbx), %rax
	cmpb	$0, 8(%rbx)
	je	.LBB67_50
	movq	%rdx, %r8
	shrq	$3, %r8
	leaq	(%r8,%r8,2), %r8
	movq	$0, -16(%rax,%r8,8)
	jmp	.LBB67_53
.LBB67_52:
	movq	$0, 16(%r13)
	jmp	.LBB67_53
.LBB67_39:
	movq	(%rdi), %r9
	testq	%r9, %r9
.LBB67_41:
	setne	%al
	xorl	%edx, %edx
	testq	%rcx, %rcx
	setne	%dl
	movzbl	%al, %r8d
	movq	%rbx, %rsi
	movq	%rcx, %rbx
	callq	ic_chain.list.LinkList.split_between.06e6478965f9faac
	movq	%rbx, 32(%r13)
	movq	%rbx, 40(%r13)
	jmp	.LBB67_42
.LBB67_22:
	movq	16(%r13), %rax
	movq	$0, 16(%r13)
	jmp	.LBB67_23
.LBB67_29:
	movq	16(%r13), %rax
	movq	$0, 16(%r13)
	testq	%rax, %rax
	jne	.LBB67_34
	leaq	24(%r13), %rdx
	jmp	.LBB67_31
.LBB67_50:
	movq	$0, -16(%rax,%rdx,2)
.LBB67_53:
	testq	%rdi, %rdi
	je	.LBB67_57
	movq	16(%rbx), %rax
	cmpb	$0, 8(%rbx)
	je	.LBB67_55
	movq	%rdi, %r8
	shrq	$3, %r8
	leaq	(%r8,%r8,2), %r8
	movq	$0, -24(%rax,%r8,8)
	jmp	.LBB67_58
.LBB67_57:
	movq	$0, 24(%r13)
	jmp	.LBB67_58
.LBB67_55:
	movq	$0, -8(%rax,%rdi,2)
.LBB67_58:
	movq	16(%r13), %rax
	movq	%rdi, 16(%r13)
	jmp	.LBB67_59
.LBB67_66:
	cmpb	$0, 8(%rbx)
	movq	16(%rbx), %rax
	je	.LBB67_67
	movq	%r9, %rdx
	shrq	$3, %rdx
	leaq	(%rdx,%rdx,2), %rdx
	leaq	(%rax,%rdx,8), %rax
	addq	$-16, %rax
	jmp	.LBB67_69
.LBB67_28:
	movq	$0, -16(%r8,%r9)
.LBB67_33:
	testq	%rax, %rax
	movq	%r14, %r9
	movq	%r15, %r10
	je	.LBB67_31
.LBB67_34:
	movq	16(%rbx), %rdx
	cmpb	$0, 8(%rbx)
	je	.LBB67_35
	movq	%rax, %r8
	shrq	$3, %r8
	leaq	(%r8,%r8,2), %r8
	movq	$0, -24(%rdx,%r8,8)
	jmp	.LBB67_37
.LBB67_31:
	movq	$0, (%rdx)
	xorl	%eax, %eax
	jmp	.LBB67_37
.LBB67_35:
	movq	$0, -8(%rdx,%rax,2)
.LBB67_37:
	movq	24(%r13), %rdx
	movq	%rdi, 24(%r13)
	movq	%rdi, 32(%r13)
.LBB67_59:
	xorpd	%xmm0, %xmm0
	jmp	.LBB67_60
.LBB67_19:
	cmpb	$0, 8(%rbx)
	movq	16(%rbx), %rdi
	je	.LBB67_20
	movq	%rdx, %rax
	shrq	$3, %rax
	leaq	(%rax,%rax,2), %r8
	movq	-16(%rdi,%r8,8), %rax
	movq	$0, -16(%rdi,%r8,8)
	jmp	.LBB67_23
.LBB67_67:
	leaq	(%rax,%r9,2), %rax
	addq	$-16, %rax
.LBB67_69:
	movq	%r10, %r15
	movl	%r11d, %ebp
	xorq	(%rax), %rcx
.LBB67_70:
	setne	%al
	xorl	%r8d, %r8d
	testq	%r9, %r9
	setne	%r8b
	movzbl	%al, %edx
	movq	%rbx, %rsi
	callq	ic_chain.list.LinkList.split_between.06e6478965f9faac
	movq	%rax, %rcx
	movq	%rdx, %rsi
	movq	16(%r13), %rax
	movq	24(%r13), %rdx
	movq	%rcx, 16(%r13)
	movq	%rsi, 24(%r13)
.LBB67_42:
	xorpd	%xmm0, %xmm0
	movq	%r12, %rsi
	movq	%r14, %rcx
	movl	%ebp, %r11d
	movq	8(%rsp), %r9
	movq	%r15, %r10
	jmp	.LBB67_60
.LBB67_20:
	movq	-16(%rdi,%rdx,2), %rax
	movq	$0, -16(%rdi,%rdx,2)
.LBB67_23:
	movq	%rdx, 24(%r13)
	xorpd	%xmm0, %xmm0
.LBB67_24:
	xorl	%edx, %edx
.LBB67_60:
	movq	72(%rcx), %rdi
	movq	96(%rcx), %rcx
	movl	(%rdi,%r9,8), %r8d
	movl	4(%rdi,%r9,8), %edi
	leaq	(%r8,%r8,2), %r8
	movq	(%rcx,%r8,8), %rcx
	leaq	(%rdi,%rdi,2), %rdi
	shlq	$4, %rdi
	movq	%r10, 8(%rcx,%rdi)
	movq	%rax, 16(%rcx,%rdi)
	movq	%rdx, 24(%rcx,%rdi)
	movupd	%xmm0, 32(%rcx,%rdi)
	xorl	%eax, %eax
.LBB67_61:
	movb	%r11b, (%rsi)
	movb	%al, 1(%rsi)
	movq	%r9, 8(%rsi)
.LBB67_7:
	addq	$72, %rsp
	popq	%rbx
	popq	%r12
	popq	%r13
	popq	%r14
	popq	%r15
	popq	%rbp
	retq
.LBB67_73:
	ud2
.Lfunc_end67:
	.size	ic_world.world.World.hand_out.27dc223f7d016e2e, .Lfunc_end67-ic_world.world.World.hand_out.27dc223f7d016e2e
	.section	.rodata.ic_world.world.World.hand_out.27dc223f7d016e2e,"a",@progbits
	.p2align	2, 0x0
.LJTI67_0:
	.long	.LBB67_73-.LJTI67_0
	.long	.LBB67_44-.LJTI67_0
	.long	.LBB67_62-.LJTI67_0
	.long	.LBB67_73-.LJTI67_0
.LJTI67_1:
	.long	.LBB67_16-.LJTI67_1
	.long	.LBB67_25-.LJTI67_1
	.long	.LBB67_38-.LJTI67_1
	.long	.LBB67_73-.LJTI67_1
.LJTI67_2:
	.long	.LBB67_24-.LJTI67_2
	.long	.LBB67_14-.LJTI67_2
	.long	.LBB67_59-.LJTI67_2
	.long	.LBB67_24-.LJTI67_2
	.section	.text.ic_chain.list.LinkList.split_between.06e6478965f9faac,"ax",@progbits
	.p2align	4
	.type	ic_chain.list.LinkList.split_between.06e6478965f9faac,@function
ic_chain.list.LinkList.split_between.06e6478965f9faac:
	movq	%r9, %rax
	testb	$1, %dl
	je	.LBB68_6
	movzbl	(%rsi), %r9d
	cmpl	$2, %r9d
	je	.LBB68_3
	cmpl	$1, %r9d
	xorl	%r9d, %r9d
	testb	%r8b, %r8b
	cmovneq	%rax, %r9
	movq	8(%rsi), %r10
	xorq	%r9, -8(%r10,%rcx)
	jmp	.LBB68_7
.LBB68_6:
	movq	$0, (%rdi)
.LBB68_7:
	cmpb	$1, %r8b
	jne	.LBB68_13
	movzbl	(%rsi), %r9d
	cmpl	$2, %r9d
	je	.LBB68_10
	cmpl	$1, %r9d
	xorl	%r9d, %r9d
	testb	%dl, %dl
	cmovneq	%rcx, %r9
	movq	8(%rsi), %rsi
	xorq	%r9, -8(%rsi,%rax)
	jmp	.LBB68_14
.LBB68_13:
	movq	$0, 8(%rdi)
.LBB68_14:
	xorl	%esi, %esi
	testb	%r8b, %r8b
	cmoveq	%rsi, %rax
	testb	%dl, %dl
	cmoveq	%rsi, %rcx
	movq	8(%rdi), %rdx
	movq	%rcx, 8(%rdi)
	retq
.LBB68_3:
	cmpb	$0, 8(%rsi)
	movq	16(%rsi), %r9
	je	.LBB68_4
	movq	%rcx, %r10
	shrq	$3, %r10
	xorl	%r11d, %r11d
	testb	%r8b, %r8b
	cmovneq	%rax, %r11
	leaq	(%r10,%r10,2), %r10
	xorq	%r11, -16(%r9,%r10,8)
	jmp	.LBB68_7
.LBB68_10:
	cmpb	$0, 8(%rsi)
	movq	16(%rsi), %rsi
	je	.LBB68_11
	movq	%rax, %r9
	shrq	$3, %r9
	xorl	%r10d, %r10d
	testb	%dl, %dl
	cmovneq	%rcx, %r10
	leaq	(%r9,%r9,2), %r9
	xorq	%r10, -16(%rsi,%r9,8)
	jmp	.LBB68_14
.LBB68_4:
	xorl	%r10d, %r10d
	testb	%r8b, %r8b
	cmovneq	%rax, %r10
	xorq	%r10, -16(%r9,%rcx,2)
	jmp	.LBB68_7
.LBB68_11:
	xorl	%r9d, %r9d
	testb	%dl, %dl
	cmovneq	%rcx, %r9
	xorq	%r9, -16(%rsi,%rax,2)
	jmp	.LBB68_14
.Lfunc_end68:
	.size	ic_chain.list.LinkList.split_between.06e6478965f9faac, .Lfunc_end68-ic_chain.list.LinkList.split_between.06e6478965f9faac
	.section	.text.ic_any_collection.any_collection.AnyCollection.listed.0c0338d7a6570a46,"ax",@progbits
	.p2align	4
	.type	ic_any_collection.any_collection.AnyCollection.listed.0c0338d7a6570a46,@function
ic_any_collection.any_collection.AnyCollection.listed.0c0338d7a6570a46:
	pushq	%rbp
	pushq	%r15
	pushq	%r14
	pushq	%r13
	pushq	%r12
	pushq	%rbx
	subq	$40, %rsp
	movq	%rdx, %r14
	movq	%rsi, %r15
	movq	%rdi, %rbx
	movq	%rsp, %r13
	movq	%r13, 8(%rsp)
	xorps	%xmm0, %xmm0
	movups	%xmm0, 16(%rsp)
	movzbl	(%rsi), %eax
	leaq	.LJTI69_0(%rip), %rcx
	movslq	(%rcx,%rax,4), %rax
	addq	%rcx, %rax
	jmpq	*%rax
.LBB69_6:
	movq	8(%r15), %r12
	testq	%r12, %r12
	jne	.LBB69_7
	jmp	.LBB69_16
.LBB69_1:
	cmpb	$2, (%r14)
	jne	.LBB69_21
	cmpb	$1, 8(%r14)
	jne	.LBB69_21
	movq	8(%r15), %rax
	testq	%rax, %rax
	je	.LBB69_16
	movq	16(%r14), %rcx
	.p2align	4
.LBB69_5:
	movq	%rax, %r12
	shrq	$3, %rax
	leaq	(%rax,%rax,2), %rax
	movq	-24(%rcx,%rax,8), %rax
	testq	%rax, %rax
	jne	.LBB69_5
.LBB69_7:
	movq	16(%rsp), %rbp
	cmpq	%rbp, 24(%rsp)
	je	.LBB69_8
.LBB69_10:
	movq	%r12, (%r13,%rbp,8)
	incq	%rbp
	movq	%rbp, 16(%rsp)
	movq	%r15, %rdi
	movq	%r14, %rsi
	xorl	%edx, %edx
	xorl	%ecx, %ecx
	movq	%r12, %r8
	callq	ic_any_collection.any_collection.AnyCollection.after.87ed5b954c3afc77
	cmpb	$1, %al
	jne	.LBB69_16
	movq	%r12, %rcx
	movq	%rbx, 32(%rsp)
	jmp	.LBB69_12
	.p2align	4
.LBB69_15:
	movq	%r12, (%r13,%rbp,8)
	incq	%rbp
	movq	%rbp, 16(%rsp)
	movq	%r15, %rdi
	movq	%r14, %rsi
	movl	$1, %edx
	movq	%r12, %r8
	callq	ic_any_collection.any_collection.AnyCollection.after.87ed5b954c3afc77
	movq	%r12, %rcx
	cmpb	$1, %al
	jne	.LBB69_16
.LBB69_12:
	movq	%rdx, %r12
	cmpq	%rbp, 24(%rsp)
	jne	.LBB69_15
	movq	%rcx, %rbx
	leaq	8(%rsp), %rdi
	callq	std_alloc.vec.Vec.grow_amortized.34b4ac368a9081d8
	testb	%al, %al
	je	.LBB69_17
	movq	8(%rsp), %r13
	movq	16(%rsp), %rbp
	movq	%rbx, %rcx
	movq	32(%rsp), %rbx
	jmp	.LBB69_15
.LBB69_16:
	movb	$0, (%rbx)
	movups	8(%rsp), %xmm0
	movups	%xmm0, 8(%rbx)
	movq	24(%rsp), %rax
	movq	%rax, 24(%rbx)
.LBB69_20:
	addq	$40, %rsp
	popq	%rbx
	popq	%r12
	popq	%r13
	popq	%r14
	popq	%r15
	popq	%rbp
	retq
.LBB69_8:
	movq	%rbx, 32(%rsp)
	leaq	8(%rsp), %rdi
	callq	std_alloc.vec.Vec.grow_amortized.34b4ac368a9081d8
	testb	%al, %al
	je	.LBB69_17
	movq	8(%rsp), %r13
	movq	16(%rsp), %rbp
	movq	32(%rsp), %rbx
	jmp	.LBB69_10
.LBB69_17:
	cmpq	$0, 24(%rsp)
	je	.LBB69_19
	movq	8(%rsp), %rdi
	callq	rattle_dealloc@PLT
.LBB69_19:
	movq	32(%rsp), %rax
	movb	$1, (%rax)
	xorps	%xmm0, %xmm0
	movups	%xmm0, 8(%rax)
	movq	$0, 24(%rax)
	jmp	.LBB69_20
.LBB69_21:
	ud2
.Lfunc_end69:
	.size	ic_any_collection.any_collection.AnyCollection.listed.0c0338d7a6570a46, .Lfunc_end69-ic_any_collection.any_collection.AnyCollection.listed.0c0338d7a6570a46
	.section	.rodata.ic_any_collection.any_collection.AnyCollection.listed.0c0338d7a6570a46,"a",@progbits
	.p2align	2, 0x0
.LJTI69_0:
	.long	.LBB69_6-.LJTI69_0
	.long	.LBB69_6-.LJTI69_0
	.long	.LBB69_6-.LJTI69_0
	.long	.LBB69_1-.LJTI69_0
	.section	.text.core.slice.edits.mirror.27.ic_unsafe_ref.place.Place,"ax",@progbits
	.p2align	4
	.type	core.slice.edits.mirror.27.ic_unsafe_ref.place.Place,@function
core.slice.edits.mirror.27.ic_unsafe_ref.place.Place:
	leaq	(%rdi,%rdx,8), %rax
	leaq	(%rsi,%rdx,8), %rcx
	cmpq	%rcx, %rdi
	setb	%cl
	cmpq	%rax, %rsi
	setb	%al
	testb	%al, %cl
	je	.LBB70_2
	xorl	%eax, %eax
	jmp	.LBB70_5
.LBB70_2:
	movabsq	$9223372036854775806, %rax
	andq	%rdx, %rax
	movq	%rdx, %rcx
	andq	$-2, %rcx
	negq	%rcx
	leaq	(%rsi,%rdx,8), %r8
	addq	$-16, %r8
	xorl	%r9d, %r9d
	movq	%rdi, %r10
	.p2align	4
.LBB70_3:
	movdqu	(%r10), %xmm0
	movdqu	(%r8,%r9,8), %xmm1
	pshufd	$78, %xmm1, %xmm1
	movdqu	%xmm1, (%r10)
	pshufd	$78, %xmm0, %xmm0
	movdqu	%xmm0, (%r8,%r9,8)
	addq	$-2, %r9
	addq	$16, %r10
	cmpq	%r9, %rcx
	jne	.LBB70_3
	cmpq	%rax, %rdx
	je	.LBB70_10
.LBB70_5:
	movq	%rax, %rcx
	orq	$1, %rcx
	testb	$1, %dl
	je	.LBB70_7
	movq	%rax, %r8
	notq	%r8
	addq	%rdx, %r8
	movq	(%rdi,%rax,8), %r9
	movq	(%rsi,%r8,8), %r10
	movq	%r10, (%rdi,%rax,8)
	movq	%r9, (%rsi,%r8,8)
	movq	%rcx, %rax
.LBB70_7:
	cmpq	%rcx, %rdx
	je	.LBB70_10
	subq	%rax, %rdx
	leaq	(%rdi,%rax,8), %rax
	addq	$8, %rax
	.p2align	4
.LBB70_9:
	movq	-8(%rax), %rcx
	movq	-8(%rsi,%rdx,8), %rdi
	movq	%rdi, -8(%rax)
	movq	%rcx, -8(%rsi,%rdx,8)
	movq	(%rax), %rcx
	movq	-16(%rsi,%rdx,8), %rdi
	movq	%rdi, (%rax)
	movq	%rcx, -16(%rsi,%rdx,8)
	addq	$16, %rax
	addq	$-2, %rdx
	jne	.LBB70_9
.LBB70_10:
	retq
.Lfunc_end70:
	.size	core.slice.edits.mirror.27.ic_unsafe_ref.place.Place, .Lfunc_end70-core.slice.edits.mirror.27.ic_unsafe_ref.place.Place
	.section	.text.ic_program.answers.push_items.714b863a58920bda,"ax",@progbits
	.p2align	4
	.type	ic_program.answers.push_items.714b863a58920bda,@function
ic_program.answers.push_items.714b863a58920bda:
	pushq	%rbp
	pushq	%r15
	pushq	%r14
	pushq	%r13
	pushq	%r12
	pushq	%rbx
	pushq	%rax
	movq	%r8, %r15
	movq	%rdx, %r12
	movq	%rsi, %r13
	movq	%rdi, %rbx
	movq	8(%rdi), %rbp
	movq	16(%rdi), %r14
	movq	%r14, %rax
	subq	%rbp, %rax
	cmpq	$4, %rax
	jbe	.LBB71_1
.LBB71_3:
	movq	(%rbx), %rax
	leaq	(%rax,%rbp), %rdi
	addq	$5, %rbp
	leaq	.Lstatic.81(%rip), %rdx
	movq	%rdi, %rsi
	subq	%rdx, %rsi
	cmpq	$4, %rsi
	ja	.LBB71_5
	movl	$1835365481, (%rdi)
	movb	$115, 4(%rdi)
	jmp	.LBB71_6
.LBB71_5:
	movb	$115, 4(%rdi)
	movl	$1835365481, (%rdi)
.LBB71_6:
	movq	%rax, (%rbx)
	movq	%rbp, 8(%rbx)
	movq	%r14, 16(%rbx)
	testq	%r12, %r12
	je	.LBB71_12
	movq	%rcx, (%rsp)
	xorl	%r14d, %r14d
	.p2align	4
.LBB71_9:
	movq	(%r13,%r14,8), %rcx
	shrq	$3, %rcx
	decq	%rcx
	leaq	.Lstatic.82(%rip), %rsi
	leaq	.Lstatic.80(%rip), %r8
	movl	$1, %edx
	movq	%rbx, %rdi
	xorl	%r9d, %r9d
	callq	ic_program.answers.push_numbered.714b863a58920bda
	testb	%al, %al
	jne	.LBB71_10
	incq	%r14
	cmpq	%r14, %r12
	jne	.LBB71_9
	movq	8(%rbx), %rbp
	movq	16(%rbx), %r14
	movq	(%rsp), %rcx
.LBB71_12:
	movq	%r14, %rax
	subq	%rbp, %rax
	cmpq	%rax, %r15
	ja	.LBB71_13
.LBB71_15:
	leaq	8(%rbx), %rax
	movq	(%rbx), %r12
	xorps	%xmm0, %xmm0
	movups	%xmm0, (%rax)
	leaq	(%r12,%rbp), %rdi
	addq	%r15, %rbp
	movq	%rdi, %rax
	subq	%rcx, %rax
	cmpq	%r15, %rax
	jae	.LBB71_16
	movzbl	(%rcx), %eax
	movb	%al, (%rdi)
	cmpq	$1, %r15
	je	.LBB71_24
	movzbl	1(%rcx), %eax
	movb	%al, 1(%rdi)
	cmpq	$2, %r15
	je	.LBB71_24
	movzbl	2(%rcx), %eax
	movb	%al, 2(%rdi)
	cmpq	$3, %r15
	je	.LBB71_24
	movzbl	3(%rcx), %eax
	movb	%al, 3(%rdi)
	cmpq	$4, %r15
	je	.LBB71_24
	movzbl	4(%rcx), %eax
	movb	%al, 4(%rdi)
	cmpq	$5, %r15
	je	.LBB71_24
	movzbl	5(%rcx), %eax
	movb	%al, 5(%rdi)
	cmpq	$6, %r15
	je	.LBB71_24
	movzbl	6(%rcx), %eax
	movb	%al, 6(%rdi)
	jmp	.LBB71_24
.LBB71_16:
	movq	%rcx, %rsi
	movq	%r15, %rdx
	callq	memmove@PLT
.LBB71_24:
	movq	%r12, (%rbx)
	movq	%rbp, 8(%rbx)
	movq	%r14, 16(%rbx)
	xorl	%eax, %eax
	jmp	.LBB71_25
.LBB71_10:
	movb	$1, %al
.LBB71_25:
	addq	$8, %rsp
	popq	%rbx
	popq	%r12
	popq	%r13
	popq	%r14
	popq	%r15
	popq	%rbp
	retq
.LBB71_1:
	movq	%rcx, (%rsp)
	movl	$5, %esi
	movq	%rbx, %rdi
	callq	std_alloc.vec.Vec.grow_amortized.3f7cc1ad5d64d7d7
	movl	%eax, %ecx
	movb	$1, %al
	testb	%cl, %cl
	je	.LBB71_25
	movq	8(%rbx), %rbp
	movq	16(%rbx), %r14
	movq	(%rsp), %rcx
	jmp	.LBB71_3
.LBB71_13:
	movq	%rcx, %r12
	movq	%rbx, %rdi
	movq	%r15, %rsi
	callq	std_alloc.vec.Vec.grow_amortized.3f7cc1ad5d64d7d7
	movl	%eax, %ecx
	movb	$1, %al
	testb	%cl, %cl
	je	.LBB71_25
	movq	8(%rbx), %rbp
	movq	16(%rbx), %r14
	movq	%r12, %rcx
	jmp	.LBB71_15
.Lfunc_end71:
	.size	ic_program.answers.push_items.714b863a58920bda, .Lfunc_end71-ic_program.answers.push_items.714b863a58920bda
	.section	.text.unlikely.ic_program.session.stop_at,"ax",@progbits
	.p2align	4
	.type	ic_program.session.stop_at,@function
ic_program.session.stop_at:
	pushq	%r14
	pushq	%rbx
	subq	$24, %rsp
	movq	%rcx, %rbx
	movq	%rdi, %r14
	xorps	%xmm0, %xmm0
	movaps	%xmm0, (%rsp)
	movq	$0, 16(%rsp)
	movq	%rsi, %rdi
	movq	%rdx, %rsi
	callq	ic_program.text.first_line
	movq	%rsp, %rdi
	movq	%rax, %rsi
	callq	core.str.utf8.from_utf8
	movzbl	(%rsp), %eax
	testq	%rax, %rax
	cmoveq	%rax, %rbx
	movq	%rax, (%r14)
	movq	$0, 8(%r14)
	movq	%rbx, 16(%r14)
	addq	$24, %rsp
	popq	%rbx
	popq	%r14
	retq
.Lfunc_end72:
	.size	ic_program.session.stop_at, .Lfunc_end72-ic_program.session.stop_at
	.section	.text.unlikely.ic_program.text.first_line,"ax",@progbits
	.p2align	4
	.type	ic_program.text.first_line,@function
ic_program.text.first_line:
	movq	%rdi, %rax
	testq	%rsi, %rsi
	je	.LBB73_10
	movq	%rsi, %rdx
	negq	%rsi
	xorl	%ecx, %ecx
	movq	%rdx, %rdi
	jmp	.LBB73_4
	.p2align	4
.LBB73_2:
	cmpb	$10, (%rax,%rcx)
	je	.LBB73_13
.LBB73_3:
	incq	%rcx
	decq	%rdi
	movq	%rsi, %r8
	addq	%rcx, %r8
	je	.LBB73_11
.LBB73_4:
	cmpq	$1, %rdi
	je	.LBB73_2
	testq	%rdi, %rdi
	je	.LBB73_11
	movzbl	(%rax,%rcx), %r8d
	cmpl	$13, %r8d
	je	.LBB73_8
	cmpl	$10, %r8d
	jne	.LBB73_3
	jmp	.LBB73_13
	.p2align	4
.LBB73_8:
	cmpb	$10, 1(%rax,%rcx)
	jne	.LBB73_3
.LBB73_13:
	movq	%rcx, %rdx
	retq
.LBB73_10:
	xorl	%edx, %edx
.LBB73_11:
	retq
.Lfunc_end73:
	.size	ic_program.text.first_line, .Lfunc_end73-ic_program.text.first_line
	.section	.text.unlikely.ic_program.session.Session.write_some.61c60e3f83b1098c,"ax",@progbits
	.p2align	4
	.type	ic_program.session.Session.write_some.61c60e3f83b1098c,@function
ic_program.session.Session.write_some.61c60e3f83b1098c:
	pushq	%r14
	pushq	%rbx
	subq	$24, %rsp
	movq	%rsi, %r14
	movq	%rdi, %rbx
	xorps	%xmm0, %xmm0
	movaps	%xmm0, (%rsp)
	movq	$0, 16(%rsp)
	movq	120(%rsi), %rax
	movq	128(%rsi), %rcx
	movq	%rsp, %rdi
	movq	%rdx, %rsi
	movq	%rax, %rdx
	callq	ic_program.writing.write_whole.40d1f5182270a21e
	cmpq	$0, 128(%r14)
	je	.LBB74_2
	movq	$0, 128(%r14)
.LBB74_2:
	movzbl	(%rsp), %eax
	xorl	%edx, %edx
	movq	%rax, %rcx
	testq	%rax, %rax
	je	.LBB74_4
	movl	8(%rsp), %edx
	movq	16(%rsp), %rcx
.LBB74_4:
	movzbl	%dl, %edx
	movb	%al, (%rbx)
	movq	%rax, 8(%rbx)
	movq	%rdx, 16(%rbx)
	movq	%rcx, 24(%rbx)
	addq	$24, %rsp
	popq	%rbx
	popq	%r14
	retq
.Lfunc_end74:
	.size	ic_program.session.Session.write_some.61c60e3f83b1098c, .Lfunc_end74-ic_program.session.Session.write_some.61c60e3f83b1098c
	.section	.rodata.cst16,"aM",@progbits,16
	.p2align	4, 0x0
.LCPI75_0:
	.byte	0
	.byte	1
	.byte	2
	.byte	3
	.byte	4
	.byte	5
	.byte	6
	.byte	7
	.byte	8
	.byte	9
	.byte	10
	.byte	11
	.byte	12
	.byte	13
	.byte	14
	.byte	15
.LCPI75_1:
	.byte	16
	.byte	17
	.byte	18
	.byte	19
	.byte	20
	.byte	21
	.byte	22
	.byte	23
	.byte	24
	.byte	25
	.byte	26
	.byte	27
	.byte	28
	.byte	29
	.byte	30
	.byte	31
	.section	.text.ic_program.writing.write_whole.40d1f5182270a21e,"ax",@progbits
	.p2align	4
	.type	ic_program.writing.write_whole.40d1f5182270a21e,@function
ic_program.writing.write_whole.40d1f5182270a21e:
	pushq	%rbp
	pushq	%r15
	pushq	%r14
	pushq	%r13
	pushq	%r12
	pushq	%rbx
	subq	$120, %rsp
	movq	%rcx, %r14
	movq	%rdx, %r15
	movq	%rsi, %rbp
	movq	%rdi, (%rsp)
	xorl	%r12d, %r12d
	.p2align	4
.LBB75_1:
	testq	%r14, %r14
	je	.LBB75_32
	xorps	%xmm0, %xmm0
	movaps	%xmm0, 96(%rsp)
	movaps	%xmm0, 80(%rsp)
	movaps	%xmm0, 64(%rsp)
	movaps	%xmm0, 48(%rsp)
	movaps	%xmm0, 32(%rsp)
	movaps	%xmm0, 16(%rsp)
	movq	16(%rbp), %r13
	movq	24(%rbp), %r8
	movq	%r8, %rax
	subq	%r13, %rax
	cmpq	%rax, %r14
	jae	.LBB75_27
	movq	8(%rbp), %r9
	leaq	16(%rbp), %rax
	movups	%xmm0, (%rax)
	leaq	(%r9,%r13), %rdi
	movq	%rdi, %rax
	subq	%r15, %rax
	cmpq	%r14, %rax
	jae	.LBB75_6
	cmpq	$4, %r14
	jb	.LBB75_5
	cmpq	$32, %rax
	jae	.LBB75_9
.LBB75_5:
	xorl	%eax, %eax
.LBB75_18:
	movq	%r14, %rdx
	movq	%rax, %rcx
	andq	$3, %rdx
	je	.LBB75_21
	movq	%rax, %rcx
	.p2align	4
.LBB75_20:
	movzbl	(%r15,%rcx), %esi
	movb	%sil, (%rdi,%rcx)
	incq	%rcx
	decq	%rdx
	jne	.LBB75_20
.LBB75_21:
	subq	%r14, %rax
	cmpq	$-4, %rax
	ja	.LBB75_24
	leaq	(%r9,%r13), %rax
	addq	$3, %rax
	.p2align	4
.LBB75_23:
	movzbl	(%r15,%rcx), %edx
	movb	%dl, -3(%rax,%rcx)
	movzbl	1(%r15,%rcx), %edx
	movb	%dl, -2(%rax,%rcx)
	movzbl	2(%r15,%rcx), %edx
	movb	%dl, -1(%rax,%rcx)
	movzbl	3(%r15,%rcx), %edx
	movb	%dl, (%rax,%rcx)
	addq	$4, %rcx
	cmpq	%rcx, %r14
	jne	.LBB75_23
	jmp	.LBB75_24
	.p2align	4
.LBB75_6:
	movq	%r15, %rsi
	movq	%r14, %rdx
	movq	%r8, %rbx
	movq	%r12, 8(%rsp)
	movq	%r9, %r12
	callq	memmove@PLT
	movq	%r12, %r9
	movq	8(%rsp), %r12
	movq	%rbx, %r8
.LBB75_24:
	addq	%r14, %r13
	movq	%r9, 8(%rbp)
	movq	%r13, 16(%rbp)
	movq	%r8, 24(%rbp)
	movq	%r14, %rax
.LBB75_25:
	addq	%rax, %r15
	subq	%rax, %r14
.LBB75_26:
	incq	%r12
	cmpq	$-1, %r12
	jne	.LBB75_1
	jmp	.LBB75_33
.LBB75_9:
	cmpq	$32, %r14
	jae	.LBB75_11
	xorl	%eax, %eax
	jmp	.LBB75_15
.LBB75_11:
	movq	%r14, %rax
	andq	$-32, %rax
	leaq	(%r9,%r13), %rcx
	addq	$16, %rcx
	xorl	%edx, %edx
	.p2align	4
.LBB75_12:
	movups	(%r15,%rdx), %xmm0
	movups	16(%r15,%rdx), %xmm1
	movups	%xmm0, -16(%rcx,%rdx)
	movups	%xmm1, (%rcx,%rdx)
	addq	$32, %rdx
	cmpq	%rdx, %rax
	jne	.LBB75_12
	cmpq	%rax, %r14
	je	.LBB75_24
	testb	$28, %r14b
	je	.LBB75_18
.LBB75_15:
	movq	%rax, %rcx
	movq	%r14, %rax
	andq	$-4, %rax
	.p2align	4
.LBB75_16:
	movl	(%r15,%rcx), %edx
	movl	%edx, (%rdi,%rcx)
	addq	$4, %rcx
	cmpq	%rcx, %rax
	jne	.LBB75_16
	cmpq	%rax, %r14
	je	.LBB75_24
	jmp	.LBB75_18
.LBB75_27:
	leaq	16(%rsp), %rdi
	movq	%rbp, %rsi
	movq	%r15, %rdx
	movq	%r14, %rcx
	callq	std.io.buffered.BufWriter.write_cold.3e795ebea2bd6aa3
	movq	24(%rsp), %rax
	cmpb	$0, 16(%rsp)
	je	.LBB75_30
	shrq	$8, %rax
	movaps	.LCPI75_0(%rip), %xmm0
	movaps	%xmm0, 16(%rsp)
	movaps	.LCPI75_1(%rip), %xmm1
	movaps	%xmm1, 32(%rsp)
	movabsq	$2820983053732684064, %rcx
	movq	%rcx, 48(%rsp)
	movb	$40, 56(%rsp)
	cmpb	$41, %al
	jae	.LBB75_36
	movl	%eax, %edx
	andl	$63, %edx
	cmpb	$35, 16(%rsp,%rdx)
	je	.LBB75_26
	jmp	.LBB75_36
.LBB75_30:
	testq	%rax, %rax
	jne	.LBB75_25
	jmp	.LBB75_38
.LBB75_32:
	movq	(%rsp), %rax
	movb	$0, (%rax)
	xorps	%xmm0, %xmm0
	movups	%xmm0, 8(%rax)
	jmp	.LBB75_35
.LBB75_33:
	movq	(%rsp), %rax
	movb	$1, (%rax)
	movq	$2, 8(%rax)
.LBB75_34:
	movq	$0, 16(%rax)
.LBB75_35:
	addq	$120, %rsp
	popq	%rbx
	popq	%r12
	popq	%r13
	popq	%r14
	popq	%r15
	popq	%rbp
	retq
.LBB75_36:
	movaps	%xmm0, 16(%rsp)
	movaps	%xmm1, 32(%rsp)
	movq	%rcx, 48(%rsp)
	movb	$40, 56(%rsp)
	cmpb	$41, %al
	jae	.LBB75_38
	andl	$63, %eax
	xorl	%ecx, %ecx
	cmpb	$38, 16(%rsp,%rax)
	sete	%cl
	orq	$2, %rcx
	jmp	.LBB75_39
.LBB75_38:
	movl	$2, %ecx
.LBB75_39:
	movq	(%rsp), %rax
	movb	$1, (%rax)
	movq	%rcx, 8(%rax)
	jmp	.LBB75_34
.Lfunc_end75:
	.size	ic_program.writing.write_whole.40d1f5182270a21e, .Lfunc_end75-ic_program.writing.write_whole.40d1f5182270a21e
	.section	.text.unlikely.std.io.buffered.BufWriter.write_cold.3e795ebea2bd6aa3,"ax",@progbits
	.p2align	4
	.type	std.io.buffered.BufWriter.write_cold.3e795ebea2bd6aa3,@function
std.io.buffered.BufWriter.write_cold.3e795ebea2bd6aa3:
	pushq	%rbp
	pushq	%r15
	pushq	%r14
	pushq	%r13
	pushq	%r12
	pushq	%rbx
	subq	$360, %rsp
	movq	%rcx, %r14
	movq	%rdx, %r15
	movq	%rdi, %rbx
	xorps	%xmm0, %xmm0
	movaps	%xmm0, 256(%rsp)
	movaps	%xmm0, 240(%rsp)
	movaps	%xmm0, 224(%rsp)
	movaps	%xmm0, 208(%rsp)
	movaps	%xmm0, 192(%rsp)
	movaps	%xmm0, 176(%rsp)
	movq	24(%rsi), %r12
	cmpq	%rcx, %r12
	jbe	.LBB76_4
	movaps	%xmm0, 80(%rsp)
	movaps	%xmm0, 64(%rsp)
	movaps	%xmm0, 48(%rsp)
	movaps	%xmm0, 32(%rsp)
	movaps	%xmm0, 16(%rsp)
	movaps	%xmm0, (%rsp)
	movq	16(%rsi), %rax
	movq	%r12, %rcx
	subq	%rax, %rcx
	cmpq	%r14, %rcx
	jae	.LBB76_9
	movq	%rsp, %rdi
	movq	%rsi, %r13
	callq	std.io.buffered.BufWriter.flush_buf.3e795ebea2bd6aa3
	cmpb	$0, (%rsp)
	je	.LBB76_8
	movq	8(%rsp), %rax
	movaps	16(%rsp), %xmm0
	movaps	%xmm0, 272(%rsp)
	movaps	32(%rsp), %xmm0
	movaps	%xmm0, 288(%rsp)
	movaps	48(%rsp), %xmm0
	movaps	%xmm0, 304(%rsp)
	movaps	64(%rsp), %xmm0
	movaps	%xmm0, 320(%rsp)
	movaps	80(%rsp), %xmm0
	movaps	%xmm0, 336(%rsp)
	movq	$1, (%rbx)
	movq	%rax, 8(%rbx)
	movaps	272(%rsp), %xmm0
	movaps	288(%rsp), %xmm1
	movaps	304(%rsp), %xmm2
	movaps	320(%rsp), %xmm3
	movups	%xmm0, 16(%rbx)
	movups	%xmm1, 32(%rbx)
	movups	%xmm2, 48(%rbx)
	movups	%xmm3, 64(%rbx)
	movaps	336(%rsp), %xmm0
	jmp	.LBB76_33
.LBB76_4:
	leaq	176(%rsp), %rdi
	callq	std.io.buffered.BufWriter.flush_buf.3e795ebea2bd6aa3
	cmpb	$0, 176(%rsp)
	je	.LBB76_6
	movq	184(%rsp), %rax
	movq	$1, (%rbx)
	movq	%rax, 8(%rbx)
	movaps	192(%rsp), %xmm0
	movaps	208(%rsp), %xmm1
	movaps	224(%rsp), %xmm2
	movaps	240(%rsp), %xmm3
	movups	%xmm0, 16(%rbx)
	movups	%xmm1, 32(%rbx)
	movups	%xmm2, 48(%rbx)
	movups	%xmm3, 64(%rbx)
	movaps	256(%rsp), %xmm0
	jmp	.LBB76_33
.LBB76_6:
	xorps	%xmm0, %xmm0
	movaps	%xmm0, 160(%rsp)
	movaps	%xmm0, 144(%rsp)
	movaps	%xmm0, 128(%rsp)
	movaps	%xmm0, 112(%rsp)
	movaps	%xmm0, 96(%rsp)
	movl	$1, %edi
	movq	%r15, %rsi
	movq	%r14, %rdx
	callq	write@PLT
	testq	%rax, %rax
	js	.LBB76_15
	cmpq	%r14, %rax
	cmovbq	%rax, %r14
	xorl	%eax, %eax
	jmp	.LBB76_16
.LBB76_8:
	movq	%r13, %rsi
	movq	16(%r13), %rax
	movq	24(%r13), %r12
	movq	%r12, %rcx
	subq	%rax, %rcx
	cmpq	%rcx, %r14
	ja	.LBB76_34
.LBB76_9:
	leaq	16(%rsi), %rcx
	leaq	(%rax,%r14), %r10
	movq	8(%rsi), %rbp
	xorps	%xmm0, %xmm0
	movups	%xmm0, (%rcx)
	leaq	(%rax,%rbp), %rdi
	movq	%rdi, %rcx
	subq	%r15, %rcx
	cmpq	%r14, %rcx
	jae	.LBB76_12
	cmpq	$4, %r14
	jb	.LBB76_11
	cmpq	$32, %rcx
	jae	.LBB76_17
.LBB76_11:
	xorl	%ecx, %ecx
.LBB76_26:
	movq	%r14, %r8
	movq	%rcx, %rdx
	andq	$3, %r8
	je	.LBB76_29
	movq	%rcx, %rdx
	.p2align	4
.LBB76_28:
	movzbl	(%r15,%rdx), %r9d
	movb	%r9b, (%rdi,%rdx)
	incq	%rdx
	decq	%r8
	jne	.LBB76_28
.LBB76_29:
	subq	%r14, %rcx
	cmpq	$-4, %rcx
	ja	.LBB76_32
	addq	%rbp, %rax
	addq	$3, %rax
	.p2align	4
.LBB76_31:
	movzbl	(%r15,%rdx), %ecx
	movb	%cl, -3(%rax,%rdx)
	movzbl	1(%r15,%rdx), %ecx
	movb	%cl, -2(%rax,%rdx)
	movzbl	2(%r15,%rdx), %ecx
	movb	%cl, -1(%rax,%rdx)
	movzbl	3(%r15,%rdx), %ecx
	movb	%cl, (%rax,%rdx)
	addq	$4, %rdx
	cmpq	%rdx, %r14
	jne	.LBB76_31
	jmp	.LBB76_32
.LBB76_12:
	movq	%rsi, %r13
	movq	%r15, %rsi
	movq	%r14, %rdx
	movq	%r10, %r15
	callq	memmove@PLT
	movq	%r15, %r10
	movq	%r13, %rsi
.LBB76_32:
	movq	%rbp, 8(%rsi)
	movq	%r10, 16(%rsi)
	movq	%r12, 24(%rsi)
	movq	$0, (%rbx)
	movq	%r14, 8(%rbx)
	xorps	%xmm0, %xmm0
	movups	%xmm0, 16(%rbx)
	movups	%xmm0, 32(%rbx)
	movups	%xmm0, 48(%rbx)
	movups	%xmm0, 64(%rbx)
	jmp	.LBB76_33
.LBB76_15:
	callq	rattle_errno@PLT
	movq	%rsp, %rdi
	movl	%eax, %esi
	callq	std_io.io.error.Error.from_raw_os_error
	movq	(%rsp), %r14
	movups	8(%rsp), %xmm0
	movaps	%xmm0, 96(%rsp)
	movups	24(%rsp), %xmm0
	movaps	%xmm0, 112(%rsp)
	movups	40(%rsp), %xmm0
	movaps	%xmm0, 128(%rsp)
	movups	56(%rsp), %xmm0
	movaps	%xmm0, 144(%rsp)
	movups	72(%rsp), %xmm0
	movaps	%xmm0, 160(%rsp)
	movl	$1, %eax
.LBB76_16:
	movq	%rax, (%rbx)
	movq	%r14, 8(%rbx)
	movaps	96(%rsp), %xmm0
	movaps	112(%rsp), %xmm1
	movaps	128(%rsp), %xmm2
	movaps	144(%rsp), %xmm3
	movups	%xmm0, 16(%rbx)
	movups	%xmm1, 32(%rbx)
	movups	%xmm2, 48(%rbx)
	movups	%xmm3, 64(%rbx)
	movaps	160(%rsp), %xmm0
.LBB76_33:
	movups	%xmm0, 80(%rbx)
	addq	$360, %rsp
	popq	%rbx
	popq	%r12
	popq	%r13
	popq	%r14
	popq	%r15
	popq	%rbp
	retq
.LBB76_17:
	cmpq	$32, %r14
	jae	.LBB76_19
	xorl	%ecx, %ecx
	jmp	.LBB76_23
.LBB76_19:
	movq	%r14, %rcx
	andq	$-32, %rcx
	leaq	(%rax,%rbp), %rdx
	addq	$16, %rdx
	xorl	%r8d, %r8d
	.p2align	4
.LBB76_20:
	movups	(%r15,%r8), %xmm0
	movups	16(%r15,%r8), %xmm1
	movups	%xmm0, -16(%rdx,%r8)
	movups	%xmm1, (%rdx,%r8)
	addq	$32, %r8
	cmpq	%r8, %rcx
	jne	.LBB76_20
	cmpq	%rcx, %r14
	je	.LBB76_32
	testb	$28, %r14b
	je	.LBB76_26
.LBB76_23:
	movq	%rcx, %rdx
	movq	%r14, %rcx
	andq	$-4, %rcx
	.p2align	4
.LBB76_24:
	movl	(%r15,%rdx), %r8d
	movl	%r8d, (%rdi,%rdx)
	addq	$4, %rdx
	cmpq	%rdx, %rcx
	jne	.LBB76_24
	cmpq	%rcx, %r14
	je	.LBB76_32
	jmp	.LBB76_26
.LBB76_34:
	leaq	8(%rsi), %rdi
	movq	%r14, %rsi
	callq	std_alloc.vec.Vec.grow_amortized.3f7cc1ad5d64d7d7
	testb	%al, %al
	je	.LBB76_36
	movq	%r13, %rsi
	movq	16(%r13), %rax
	movq	24(%r13), %r12
	jmp	.LBB76_9
.LBB76_36:
	ud2
.Lfunc_end76:
	.size	std.io.buffered.BufWriter.write_cold.3e795ebea2bd6aa3, .Lfunc_end76-std.io.buffered.BufWriter.write_cold.3e795ebea2bd6aa3
	.section	.rodata.cst16,"aM",@progbits,16
	.p2align	4, 0x0
.LCPI77_0:
	.zero	16,46
.LCPI77_1:
	.quad	8386094071426675301
	.quad	3327647950551527009
.LCPI77_2:
	.quad	2334399978102268015
	.quad	7378714103803897972
.LCPI77_3:
	.quad	2168578
	.quad	8367798494427701606
.LCPI77_4:
	.byte	0
	.byte	1
	.byte	2
	.byte	3
	.byte	4
	.byte	5
	.byte	6
	.byte	7
	.byte	8
	.byte	9
	.byte	10
	.byte	11
	.byte	12
	.byte	13
	.byte	14
	.byte	15
.LCPI77_5:
	.byte	16
	.byte	17
	.byte	18
	.byte	19
	.byte	20
	.byte	21
	.byte	22
	.byte	23
	.byte	24
	.byte	25
	.byte	26
	.byte	27
	.byte	28
	.byte	29
	.byte	30
	.byte	31
	.section	.text.std.io.buffered.BufWriter.flush_buf.3e795ebea2bd6aa3,"ax",@progbits
	.p2align	4
	.type	std.io.buffered.BufWriter.flush_buf.3e795ebea2bd6aa3,@function
std.io.buffered.BufWriter.flush_buf.3e795ebea2bd6aa3:
	pushq	%rbp
	pushq	%r15
	pushq	%r14
	pushq	%r13
	pushq	%r12
	pushq	%rbx
	subq	$232, %rsp
	movq	16(%rsi), %rbp
	testq	%rbp, %rbp
	je	.LBB77_1
	movq	8(%rsi), %rax
	leaq	120(%rsp), %r14
	xorl	%r13d, %r13d
	movq	%rdi, (%rsp)
	movq	%rsi, 8(%rsp)
	movq	%rax, 56(%rsp)
.LBB77_5:
	leaq	(%rax,%r13), %r12
	movq	%rbp, %r15
	subq	%r13, %r15
	xorl	%ebx, %ebx
	.p2align	4
.LBB77_6:
	incq	%rbx
	je	.LBB77_13
	movl	$1, %edi
	movq	%r12, %rsi
	movq	%r15, %rdx
	callq	write@PLT
	testq	%rax, %rax
	jns	.LBB77_11
	callq	rattle_errno@PLT
	leaq	64(%rsp), %rdi
	movl	%eax, %esi
	callq	std_io.io.error.Error.from_raw_os_error
	movaps	64(%rsp), %xmm0
	movaps	80(%rsp), %xmm1
	movaps	96(%rsp), %xmm2
	movq	64(%rsp), %rcx
	movq	112(%rsp), %rax
	movups	(%r14), %xmm3
	movups	16(%r14), %xmm4
	movaps	%xmm3, 192(%rsp)
	movaps	%xmm4, 208(%rsp)
	shrq	$8, %rcx
	movaps	.LCPI77_4(%rip), %xmm3
	movaps	%xmm3, 64(%rsp)
	movaps	.LCPI77_5(%rip), %xmm3
	movaps	%xmm3, 80(%rsp)
	movabsq	$2820983053732684064, %rdx
	movq	%rdx, 96(%rsp)
	movb	$40, 104(%rsp)
	cmpb	$41, %cl
	jae	.LBB77_10
	andl	$63, %ecx
	cmpb	$35, 64(%rsp,%rcx)
	je	.LBB77_6
	jmp	.LBB77_10
	.p2align	4
.LBB77_11:
	cmpq	%r15, %rax
	cmovbq	%rax, %r15
	testq	%r15, %r15
	je	.LBB77_12
	addq	%r15, %r13
	cmpq	%rbp, %r13
	movq	(%rsp), %rdi
	movq	8(%rsp), %rsi
	movq	56(%rsp), %rax
	jb	.LBB77_5
	jmp	.LBB77_2
.LBB77_10:
	movaps	192(%rsp), %xmm3
	movaps	208(%rsp), %xmm4
	movaps	%xmm4, 176(%rsp)
	movaps	%xmm3, 160(%rsp)
	jmp	.LBB77_14
.LBB77_1:
	xorl	%r13d, %r13d
.LBB77_2:
	xorps	%xmm0, %xmm0
	movaps	%xmm0, 32(%rsp)
	movaps	%xmm0, 16(%rsp)
	xorl	%ecx, %ecx
	xorl	%eax, %eax
	xorps	%xmm1, %xmm1
	xorps	%xmm2, %xmm2
	movq	16(%rsi), %r14
	movq	%r14, %rdx
	subq	%r13, %rdx
	jne	.LBB77_17
	jmp	.LBB77_31
.LBB77_13:
	leaq	.Lstatic.84(%rip), %rdx
	leaq	64(%rsp), %rdi
	movl	$43, %ecx
	movl	$22, %esi
	callq	std_io.io.error.Error.from_static_message
	movaps	64(%rsp), %xmm0
	movaps	80(%rsp), %xmm1
	movaps	96(%rsp), %xmm2
	movq	112(%rsp), %rax
	movups	120(%rsp), %xmm3
	movaps	%xmm3, 160(%rsp)
	movups	136(%rsp), %xmm3
	movaps	%xmm3, 176(%rsp)
.LBB77_14:
	movq	(%rsp), %rdi
	movaps	160(%rsp), %xmm3
	movaps	176(%rsp), %xmm4
	movaps	%xmm3, 16(%rsp)
	movaps	%xmm4, 32(%rsp)
	movb	$1, %cl
.LBB77_15:
	movq	8(%rsp), %rsi
	movq	16(%rsi), %r14
	movq	%r14, %rdx
	subq	%r13, %rdx
	je	.LBB77_31
.LBB77_17:
	movq	8(%rsi), %rbx
	cmpq	$4, %rdx
	setb	%r8b
	leaq	31(%r13), %r9
	cmpq	$32, %r9
	setb	%r9b
	orb	%r8b, %r9b
	je	.LBB77_19
	xorl	%r8d, %r8d
	jmp	.LBB77_28
.LBB77_19:
	cmpq	$32, %rdx
	jae	.LBB77_21
	xorl	%r8d, %r8d
	jmp	.LBB77_25
.LBB77_21:
	movq	%rdx, %r8
	andq	$-32, %r8
	leaq	16(%rbx), %r9
	movq	%r8, %r10
	.p2align	4
.LBB77_22:
	movups	-16(%r9,%r13), %xmm3
	movups	(%r9,%r13), %xmm4
	movups	%xmm3, -16(%r9)
	movups	%xmm4, (%r9)
	addq	$32, %r9
	addq	$-32, %r10
	jne	.LBB77_22
	cmpq	%r8, %rdx
	je	.LBB77_30
	testb	$28, %dl
	je	.LBB77_28
.LBB77_25:
	movq	%r8, %r9
	movq	%rdx, %r8
	andq	$-4, %r8
	leaq	(%rbx,%r9), %r10
	subq	%r8, %r9
	.p2align	4
.LBB77_26:
	movl	(%r10,%r13), %r11d
	movl	%r11d, (%r10)
	addq	$4, %r10
	addq	$4, %r9
	jne	.LBB77_26
	cmpq	%r8, %rdx
	je	.LBB77_30
.LBB77_28:
	subq	%r8, %r14
	addq	%r8, %rbx
	.p2align	4
.LBB77_29:
	movzbl	(%rbx,%r13), %r8d
	movb	%r8b, (%rbx)
	decq	%r14
	incq	%rbx
	cmpq	%r14, %r13
	jne	.LBB77_29
.LBB77_30:
	movq	16(%rsi), %r13
.LBB77_31:
	cmpq	%rdx, %r13
	jbe	.LBB77_33
	movq	%rdx, 16(%rsi)
.LBB77_33:
	movb	%cl, (%rdi)
	movups	%xmm0, 8(%rdi)
	movups	%xmm1, 24(%rdi)
	movups	%xmm2, 40(%rdi)
	movq	%rax, 56(%rdi)
	movaps	16(%rsp), %xmm0
	movaps	32(%rsp), %xmm1
	movups	%xmm0, 64(%rdi)
	movups	%xmm1, 80(%rdi)
	addq	$232, %rsp
	popq	%rbx
	popq	%r12
	popq	%r13
	popq	%r14
	popq	%r15
	popq	%rbp
	retq
.LBB77_12:
	movaps	.LCPI77_0(%rip), %xmm0
	movaps	%xmm0, 32(%rsp)
	movaps	%xmm0, 16(%rsp)
	movaps	.LCPI77_1(%rip), %xmm2
	movaps	.LCPI77_2(%rip), %xmm1
	movaps	.LCPI77_3(%rip), %xmm0
	movabsq	$3327647950551526958, %rax
	movb	$1, %cl
	movq	(%rsp), %rdi
	jmp	.LBB77_15
.Lfunc_end77:
	.size	std.io.buffered.BufWriter.flush_buf.3e795ebea2bd6aa3, .Lfunc_end77-std.io.buffered.BufWriter.flush_buf.3e795ebea2bd6aa3
	.section	.rodata.cst16,"aM",@progbits,16
	.p2align	4, 0x0
.LCPI78_0:
	.zero	16,46
	.section	.text.std_io.io.error.Error.from_static_message,"ax",@progbits
	.p2align	4
	.type	std_io.io.error.Error.from_static_message,@function
std_io.io.error.Error.from_static_message:
	pushq	%rbp
	pushq	%r15
	pushq	%r14
	pushq	%r13
	pushq	%r12
	pushq	%rbx
	subq	$80, %rsp
	movl	%esi, 12(%rsp)
	movabsq	$3314649325744685056, %rbx
	movabsq	$12947848928690176, %r14
	movabsq	$50577534877696, %r11
	movabsq	$197568495616, %r10
	movq	(%rdx), %rsi
	movq	%rsi, 72(%rsp)
	movl	8(%rdx), %esi
	movq	%rsi, 64(%rsp)
	movzbl	12(%rdx), %r15d
	movzbl	13(%rdx), %esi
	movq	%rsi, 48(%rsp)
	movzbl	14(%rdx), %esi
	movq	%rsi, 56(%rsp)
	movl	$3014656, %esi
	movq	%rsi, 24(%rsp)
	movb	$46, -105(%rsp)
	movl	$771751936, %esi
	movq	%rsi, 40(%rsp)
	movl	$11776, %esi
	movq	%rsi, 32(%rsp)
	cmpq	$15, %rcx
	movq	%rcx, -32(%rsp)
	jne	.LBB78_2
	movl	$11776, %eax
	movq	%rax, -96(%rsp)
	movq	%rbx, %r8
	movq	%r11, -56(%rsp)
	movl	$771751936, %ebp
	movq	%rax, -40(%rsp)
	movq	%rbx, %r9
	movq	%r11, -24(%rsp)
	movl	$771751936, %esi
	movq	%rbx, 16(%rsp)
	movb	$46, -121(%rsp)
	movl	$3014656, %eax
	movq	%rax, (%rsp)
	movq	%r10, %r12
	movq	%r14, %rcx
	movb	$46, -122(%rsp)
	movq	%rax, -48(%rsp)
	movb	$46, -123(%rsp)
	movq	%r10, %r13
	movq	%r14, %rax
	movl	$3014656, %edx
	movq	%rdx, -104(%rsp)
	movl	$11776, %edx
	jmp	.LBB78_21
.LBB78_2:
	movq	%r15, -80(%rsp)
	movzbl	15(%rdx), %r11d
	shlq	$56, %r11
	cmpq	$17, %rcx
	movq	%r11, 16(%rsp)
	jb	.LBB78_5
	movzbl	16(%rdx), %r12d
	movb	%r12b, -121(%rsp)
	jne	.LBB78_8
	movl	$11776, %eax
	movq	%rax, -96(%rsp)
	movq	%rbx, %r8
	movabsq	$50577534877696, %r11
	movq	%r11, -56(%rsp)
	movl	$771751936, %ebp
	movq	%rax, -40(%rsp)
	movq	%rbx, %r9
	movq	%r11, -24(%rsp)
	movl	$771751936, %esi
	movl	$11776, %edx
	jmp	.LBB78_6
.LBB78_5:
	movl	$11776, %eax
	movq	%rax, -96(%rsp)
	movq	%rbx, %r8
	movabsq	$50577534877696, %r11
	movq	%r11, -56(%rsp)
	movl	$771751936, %ebp
	movq	%rax, -40(%rsp)
	movq	%rbx, %r9
	movq	%r11, -24(%rsp)
	movl	$771751936, %esi
	movl	$11776, %edx
	movb	$46, -121(%rsp)
.LBB78_6:
	movl	$3014656, %eax
	movq	%rax, (%rsp)
	movq	%r10, %r12
	movb	$46, -122(%rsp)
	movq	%rax, -48(%rsp)
	movq	%r10, %r13
	movb	$46, -123(%rsp)
	movq	%r14, %rax
	movl	$3014656, %ecx
	movq	%rcx, -104(%rsp)
	movq	%r14, %rcx
.LBB78_7:
	movq	-80(%rsp), %r15
	jmp	.LBB78_21
.LBB78_8:
	movzbl	17(%rdx), %esi
	shll	$8, %esi
	movq	%rsi, -120(%rsp)
	cmpq	$19, %rcx
	movq	-80(%rsp), %r15
	jb	.LBB78_11
	movzbl	18(%rdx), %r13d
	shll	$16, %r13d
	cmpq	$19, %rcx
	movq	%r13, (%rsp)
	jne	.LBB78_12
	movl	$11776, %eax
	movq	%rax, -96(%rsp)
	movq	%rbx, %r8
	movabsq	$50577534877696, %r11
	movq	%r11, -56(%rsp)
	movl	$771751936, %ebp
	movq	%rax, -40(%rsp)
	movq	%rbx, %r9
	movq	%r11, -24(%rsp)
	movl	$771751936, %esi
	jmp	.LBB78_16
.LBB78_11:
	movl	$11776, %eax
	movq	%rax, -96(%rsp)
	movq	%rbx, %r8
	movabsq	$50577534877696, %r11
	movq	%r11, -56(%rsp)
	movl	$771751936, %ebp
	movq	%rax, -40(%rsp)
	movq	%rbx, %r9
	movq	%r11, -24(%rsp)
	movl	$771751936, %esi
	movl	$3014656, %eax
	movq	%rax, (%rsp)
	movq	%r10, %r12
	movb	$46, -122(%rsp)
	jmp	.LBB78_18
.LBB78_12:
	movzbl	19(%rdx), %esi
	shll	$24, %esi
	cmpq	$21, %rcx
	jb	.LBB78_15
	movzbl	20(%rdx), %r12d
	shlq	$32, %r12
	cmpq	$21, %rcx
	jne	.LBB78_22
	movl	$11776, %eax
	movq	%rax, -96(%rsp)
	movq	%rbx, %r8
	movabsq	$50577534877696, %r11
	movq	%r11, -56(%rsp)
	movl	$771751936, %ebp
	movq	%rax, -40(%rsp)
	movq	%rbx, %r9
	movq	%r11, -24(%rsp)
	jmp	.LBB78_17
.LBB78_15:
	movl	$11776, %eax
	movq	%rax, -96(%rsp)
	movq	%rbx, %r8
	movabsq	$50577534877696, %r11
	movq	%r11, -56(%rsp)
	movl	$771751936, %ebp
	movq	%rax, -40(%rsp)
	movq	%rbx, %r9
	movq	%r11, -24(%rsp)
.LBB78_16:
	movq	%r10, %r12
.LBB78_17:
	movb	$46, -122(%rsp)
	movl	$3014656, %eax
.LBB78_18:
	movq	%rax, -48(%rsp)
.LBB78_19:
	movq	%r10, %r13
	movq	%r14, %rax
	movb	$46, -123(%rsp)
	movl	$3014656, %ecx
	movq	%rcx, -104(%rsp)
	movq	%r14, %rcx
.LBB78_20:
	movq	-120(%rsp), %rdx
.LBB78_21:
	orq	%rcx, %r12
	orq	%rdx, %rsi
	orq	-24(%rsp), %r9
	orq	%rsi, %r9
	orq	%rax, %r13
	orq	-40(%rsp), %rbp
	orq	-56(%rsp), %r8
	orq	%rbp, %r8
	orq	%r14, %r10
	movq	40(%rsp), %rdx
	orq	-96(%rsp), %rdx
	orq	%r11, %rbx
	orq	%rdx, %rbx
	movq	32(%rsp), %rsi
	orq	24(%rsp), %rsi
	shlq	$32, %r15
	addq	64(%rsp), %r15
	movq	48(%rsp), %rcx
	shlq	$40, %rcx
	orq	%rcx, %r15
	movq	56(%rsp), %rcx
	shlq	$48, %rcx
	orq	%rcx, %r15
	orq	16(%rsp), %r15
	movzbl	-105(%rsp), %edx
	orq	%rsi, %rdx
	movzbl	-123(%rsp), %ecx
	orq	-104(%rsp), %rcx
	orq	%rbx, %rcx
	orq	%r10, %rcx
	movzbl	-122(%rsp), %eax
	orq	-48(%rsp), %rax
	orq	%r8, %rax
	orq	%r13, %rax
	movzbl	-121(%rsp), %esi
	orq	(%rsp), %rsi
	orq	%r9, %rsi
	orq	%r12, %rsi
	movabsq	$3327647950548500480, %r9
	orq	%rdx, %r9
	movb	$2, (%rdi)
	movl	12(%rsp), %edx
	movb	%dl, 1(%rdi)
	movq	-32(%rsp), %rdx
	movb	%dl, 2(%rdi)
	movb	$0, 3(%rdi)
	movl	$0, 4(%rdi)
	movq	72(%rsp), %rdx
	movq	%rdx, 8(%rdi)
	movq	%r15, 16(%rdi)
	movq	%rsi, 24(%rdi)
	movq	%rax, 32(%rdi)
	movq	%rcx, 40(%rdi)
	movq	%r9, 48(%rdi)
	movaps	.LCPI78_0(%rip), %xmm0
	movups	%xmm0, 56(%rdi)
	movups	%xmm0, 72(%rdi)
	addq	$80, %rsp
	popq	%rbx
	popq	%r12
	popq	%r13
	popq	%r14
	popq	%r15
	popq	%rbp
	retq
.LBB78_22:
	movzbl	21(%rdx), %r10d
	shlq	$40, %r10
	cmpq	$23, %rcx
	movq	%r10, -24(%rsp)
	jb	.LBB78_25
	movzbl	22(%rdx), %eax
	shlq	$48, %rax
	cmpq	$23, %rcx
	jne	.LBB78_26
	movl	$11776, %ecx
	movq	%rcx, -96(%rsp)
	movq	%rbx, %r8
	movabsq	$50577534877696, %r11
	movq	%r11, -56(%rsp)
	movl	$771751936, %ebp
	movq	%rax, %rdx
	movl	$11776, %eax
	movq	%rax, -40(%rsp)
	movq	%rbx, %r9
	jmp	.LBB78_30
.LBB78_25:
	movl	$11776, %eax
	movq	%rax, -96(%rsp)
	movq	%rbx, %r8
	movabsq	$50577534877696, %r11
	movq	%r11, -56(%rsp)
	movl	$771751936, %ebp
	movq	%rax, -40(%rsp)
	movq	%rbx, %r9
	movb	$46, -122(%rsp)
	movl	$3014656, %eax
	movq	%rax, -48(%rsp)
	movabsq	$197568495616, %r10
	jmp	.LBB78_19
.LBB78_26:
	movzbl	23(%rdx), %r9d
	shlq	$56, %r9
	cmpq	$25, %rcx
	jb	.LBB78_29
	movq	%rax, -88(%rsp)
	movzbl	24(%rdx), %r8d
	movb	%r8b, -122(%rsp)
	jne	.LBB78_31
	movl	$11776, %eax
	movq	%rax, -96(%rsp)
	movq	%rbx, %r8
	movabsq	$50577534877696, %r11
	movq	%r11, -56(%rsp)
	movl	$771751936, %ebp
	movq	%rax, -40(%rsp)
	jmp	.LBB78_35
.LBB78_29:
	movl	$11776, %ecx
	movq	%rcx, -96(%rsp)
	movq	%rbx, %r8
	movabsq	$50577534877696, %r11
	movq	%r11, -56(%rsp)
	movl	$771751936, %ebp
	movq	%rax, %rdx
	movl	$11776, %eax
	movq	%rax, -40(%rsp)
.LBB78_30:
	movb	$46, -122(%rsp)
	movl	$3014656, %eax
	movq	%rax, -48(%rsp)
	movabsq	$197568495616, %r10
	movq	%r10, %r13
	movq	%r14, %rax
	movb	$46, -123(%rsp)
	movl	$3014656, %ecx
	movq	%rcx, -104(%rsp)
	movq	%rdx, %rcx
	jmp	.LBB78_20
.LBB78_31:
	movzbl	25(%rdx), %eax
	shll	$8, %eax
	cmpq	$27, %rcx
	movq	%rax, -40(%rsp)
	jb	.LBB78_34
	movq	%rsi, -72(%rsp)
	movzbl	26(%rdx), %esi
	shll	$16, %esi
	cmpq	$27, %rcx
	movq	%rsi, -48(%rsp)
	jne	.LBB78_36
	movl	$11776, %ecx
	movq	%rcx, -96(%rsp)
	movq	%rbx, %r8
	movabsq	$50577534877696, %r11
	movq	%r11, -56(%rsp)
	movl	$771751936, %ebp
	movabsq	$197568495616, %r10
	movq	%r10, %r13
	movq	%r14, %rax
	movb	$46, -123(%rsp)
	movl	$3014656, %ecx
	movq	%rcx, -104(%rsp)
	movq	-120(%rsp), %rdx
	movq	-72(%rsp), %rsi
	movq	-88(%rsp), %rcx
	jmp	.LBB78_21
.LBB78_34:
	movl	$11776, %ecx
	movq	%rcx, -96(%rsp)
	movq	%rbx, %r8
	movabsq	$50577534877696, %r11
	movq	%r11, -56(%rsp)
	movl	$771751936, %ebp
.LBB78_35:
	movl	$3014656, %eax
	movq	%rax, -48(%rsp)
	movabsq	$197568495616, %r10
	movq	%r10, %r13
	movq	%r14, %rax
	movb	$46, -123(%rsp)
	movl	$3014656, %ecx
	movq	%rcx, -104(%rsp)
	movq	-120(%rsp), %rdx
	movq	-88(%rsp), %rcx
	jmp	.LBB78_21
.LBB78_36:
	movzbl	27(%rdx), %eax
	shll	$24, %eax
	movq	%rax, -64(%rsp)
	cmpq	$29, %rcx
	jb	.LBB78_39
	movzbl	28(%rdx), %r13d
	shlq	$32, %r13
	cmpq	$29, %rcx
	jne	.LBB78_40
	movl	$11776, %eax
	movq	%rax, -96(%rsp)
	movq	%rbx, %r8
	movabsq	$50577534877696, %r11
	movq	%r11, -56(%rsp)
	movq	%r14, %rax
	movb	$46, -123(%rsp)
	movl	$3014656, %ecx
	movq	%rcx, -104(%rsp)
	jmp	.LBB78_47
.LBB78_39:
	movl	$11776, %eax
	movq	%rax, -96(%rsp)
	movq	%rbx, %r8
	movabsq	$50577534877696, %r11
	movq	%r11, -56(%rsp)
	movabsq	$197568495616, %r10
	movq	%r10, %r13
	movq	%r14, %rax
	movb	$46, -123(%rsp)
	movl	$3014656, %ecx
	movq	%rcx, -104(%rsp)
	movq	-120(%rsp), %rdx
	movq	-72(%rsp), %rsi
	movq	-64(%rsp), %rbp
	movq	-88(%rsp), %rcx
	jmp	.LBB78_21
.LBB78_40:
	movzbl	29(%rdx), %ecx
	shlq	$40, %rcx
	movq	%rcx, -56(%rsp)
	cmpq	$31, -32(%rsp)
	jb	.LBB78_43
	movzbl	30(%rdx), %eax
	shlq	$48, %rax
	cmpq	$31, -32(%rsp)
	jne	.LBB78_49
	movl	$11776, %ecx
	movq	%rcx, -96(%rsp)
	movq	%rbx, %r8
	jmp	.LBB78_44
.LBB78_43:
	movl	$11776, %eax
	movq	%rax, -96(%rsp)
	movq	%rbx, %r8
	movq	%r14, %rax
.LBB78_44:
	movb	$46, -123(%rsp)
.LBB78_45:
	movl	$3014656, %ecx
	movq	%rcx, -104(%rsp)
.LBB78_46:
	movabsq	$50577534877696, %r11
.LBB78_47:
	movq	-120(%rsp), %rdx
	movq	-72(%rsp), %rsi
	movabsq	$197568495616, %r10
.LBB78_48:
	movq	-64(%rsp), %rbp
	movq	-88(%rsp), %rcx
	jmp	.LBB78_7
.LBB78_49:
	movzbl	31(%rdx), %r8d
	shlq	$56, %r8
	cmpq	$33, -32(%rsp)
	jb	.LBB78_52
	movzbl	32(%rdx), %ecx
	movb	%cl, -123(%rsp)
	jne	.LBB78_53
	movl	$11776, %ecx
	movq	%rcx, -96(%rsp)
	jmp	.LBB78_45
.LBB78_52:
	movl	$11776, %ecx
	movq	%rcx, -96(%rsp)
	jmp	.LBB78_44
.LBB78_53:
	movzbl	33(%rdx), %ecx
	shll	$8, %ecx
	movq	%rcx, -96(%rsp)
	cmpq	$35, -32(%rsp)
	jb	.LBB78_45
	movzbl	34(%rdx), %ecx
	shll	$16, %ecx
	movq	%rcx, -104(%rsp)
	cmpq	$35, -32(%rsp)
	je	.LBB78_46
	movzbl	35(%rdx), %ecx
	shll	$24, %ecx
	movq	%rcx, 40(%rsp)
	cmpq	$37, -32(%rsp)
	jb	.LBB78_46
	movzbl	36(%rdx), %r10d
	shlq	$32, %r10
	cmpq	$37, -32(%rsp)
	jne	.LBB78_58
	movabsq	$50577534877696, %r11
	jmp	.LBB78_66
.LBB78_58:
	movzbl	37(%rdx), %ecx
	shlq	$40, %rcx
	movq	%rcx, -16(%rsp)
	cmpq	$39, -32(%rsp)
	jb	.LBB78_65
	movzbl	38(%rdx), %ecx
	shlq	$48, %rcx
	movq	%rcx, -8(%rsp)
	cmpq	$39, -32(%rsp)
	je	.LBB78_64
	movzbl	39(%rdx), %ebx
	shlq	$56, %rbx
	cmpq	$41, -32(%rsp)
	jb	.LBB78_64
	movzbl	40(%rdx), %ecx
	movb	%cl, -105(%rsp)
	je	.LBB78_64
	movzbl	41(%rdx), %ecx
	shll	$8, %ecx
	movq	%rcx, 32(%rsp)
	cmpq	$43, -32(%rsp)
	jb	.LBB78_64
	movzbl	42(%rdx), %ecx
	shll	$16, %ecx
	movq	%rcx, 24(%rsp)
.LBB78_64:
	movq	-16(%rsp), %r11
	movq	-8(%rsp), %r14
	jmp	.LBB78_66
.LBB78_65:
	movq	-16(%rsp), %r11
.LBB78_66:
	movq	-120(%rsp), %rdx
	movq	-72(%rsp), %rsi
	jmp	.LBB78_48
.Lfunc_end78:
	.size	std_io.io.error.Error.from_static_message, .Lfunc_end78-std_io.io.error.Error.from_static_message
	.section	.text.std_alloc.vec.Vec.drop.3580eecdd8931e03,"ax",@progbits
	.p2align	4
	.type	std_alloc.vec.Vec.drop.3580eecdd8931e03,@function
std_alloc.vec.Vec.drop.3580eecdd8931e03:
	pushq	%r15
	pushq	%r14
	pushq	%r12
	pushq	%rbx
	pushq	%rax
	movq	(%rdi), %rbx
	movq	8(%rdi), %r15
	movq	16(%rdi), %r14
	testq	%r15, %r15
	je	.LBB79_8
	leaq	32(%rbx), %r12
	jmp	.LBB79_2
	.p2align	4
.LBB79_6:
	callq	rattle_dealloc@PLT
.LBB79_7:
	addq	$48, %r12
	decq	%r15
	je	.LBB79_8
.LBB79_2:
	movzbl	-32(%r12), %eax
	movq	-24(%r12), %rdi
	cmpl	$2, %eax
	je	.LBB79_4
	movq	-8(%r12), %rcx
	cmpl	$1, %eax
	testq	%rcx, %rcx
	jne	.LBB79_6
	jmp	.LBB79_7
	.p2align	4
.LBB79_4:
	movq	-16(%r12), %rax
	movq	(%r12), %rcx
	testb	%dil, %dil
	testq	%rcx, %rcx
	je	.LBB79_7
	movq	%rax, %rdi
	jmp	.LBB79_6
.LBB79_8:
	testq	%r14, %r14
	je	.LBB79_9
	movq	%rbx, %rdi
	addq	$8, %rsp
	popq	%rbx
	popq	%r12
	popq	%r14
	popq	%r15
	jmp	rattle_dealloc@PLT
.LBB79_9:
	addq	$8, %rsp
	popq	%rbx
	popq	%r12
	popq	%r14
	popq	%r15
	retq
.Lfunc_end79:
	.size	std_alloc.vec.Vec.drop.3580eecdd8931e03, .Lfunc_end79-std_alloc.vec.Vec.drop.3580eecdd8931e03
	.section	.text.unlikely.std_alloc.vec.Vec.grow_amortized.475ef6a323907ad9,"ax",@progbits
	.p2align	4
	.type	std_alloc.vec.Vec.grow_amortized.475ef6a323907ad9,@function
std_alloc.vec.Vec.grow_amortized.475ef6a323907ad9:
	addq	8(%rdi), %rsi
	jae	.LBB80_2
	xorl	%eax, %eax
	retq
.LBB80_2:
	pushq	%r14
	pushq	%rbx
	pushq	%rax
	cmpq	$9, %rsi
	movl	$8, %ecx
	cmovaeq	%rsi, %rcx
	movq	16(%rdi), %rax
	movq	%rax, %rdx
	shrq	$62, %rdx
	leaq	(%rax,%rax), %rbx
	cmpq	%rbx, %rcx
	cmovaq	%rcx, %rbx
	testq	%rdx, %rdx
	cmovneq	%rcx, %rbx
	testq	%rbx, %rbx
	js	.LBB80_6
	testq	%rax, %rax
	je	.LBB80_7
	movq	%rdi, %r14
	movq	(%rdi), %rdi
	movl	$1, %ecx
	xorl	%esi, %esi
	xorl	%edx, %edx
	callq	rattle_realloc@PLT
	movq	%rax, %rcx
	xorl	%eax, %eax
	testb	$1, %cl
	jne	.LBB80_8
.LBB80_5:
	addq	$8, %rsp
	popq	%rbx
	popq	%r14
	retq
.LBB80_6:
	xorl	%eax, %eax
	addq	$8, %rsp
	popq	%rbx
	popq	%r14
	retq
.LBB80_7:
	movq	%rdi, %r14
	movl	$1, %esi
	xorl	%edi, %edi
	callq	rattle_alloc@PLT
	movq	%rax, %rcx
	xorl	%eax, %eax
	testb	$1, %cl
	je	.LBB80_5
.LBB80_8:
	movq	%rdx, (%r14)
	movq	%rbx, 16(%r14)
	movb	$1, %al
	addq	$8, %rsp
	popq	%rbx
	popq	%r14
	retq
.Lfunc_end80:
	.size	std_alloc.vec.Vec.grow_amortized.475ef6a323907ad9, .Lfunc_end80-std_alloc.vec.Vec.grow_amortized.475ef6a323907ad9
	.section	.text.unlikely.std_alloc.vec.Vec.grow_amortized.aefd41eb74c3dbca,"ax",@progbits
	.p2align	4
	.type	std_alloc.vec.Vec.grow_amortized.aefd41eb74c3dbca,@function
std_alloc.vec.Vec.grow_amortized.aefd41eb74c3dbca:
	movq	%rsi, %rax
	movq	8(%rdi), %rsi
	addq	%rsi, %rax
	jae	.LBB81_2
	xorl	%eax, %eax
	retq
.LBB81_2:
	pushq	%r14
	pushq	%rbx
	pushq	%rax
	movq	16(%rdi), %rcx
	cmpq	$5, %rax
	movl	$4, %ebx
	cmovaeq	%rax, %rbx
	movq	%rcx, %rdx
	shrq	$62, %rdx
	leaq	(%rcx,%rcx), %rax
	cmpq	%rax, %rbx
	cmovaq	%rbx, %rax
	testq	%rdx, %rdx
	cmoveq	%rax, %rbx
	movq	%rbx, %rdx
	shrq	$59, %rdx
	jne	.LBB81_6
	testq	%rcx, %rcx
	je	.LBB81_8
	movq	%rdi, %r14
	movq	(%rdi), %rdi
	shlq	$4, %rsi
	movq	%rbx, %rdx
	shlq	$4, %rdx
	movl	$8, %ecx
	callq	rattle_realloc@PLT
	testb	$1, %al
	je	.LBB81_6
.LBB81_9:
	movq	%rdx, (%r14)
	movq	%rbx, 16(%r14)
	movb	$1, %al
	addq	$8, %rsp
	popq	%rbx
	popq	%r14
	retq
.LBB81_8:
	movq	%rdi, %r14
	shlq	$4, %rax
	movl	$8, %esi
	movq	%rax, %rdi
	callq	rattle_alloc@PLT
	testb	$1, %al
	jne	.LBB81_9
.LBB81_6:
	xorl	%eax, %eax
	addq	$8, %rsp
	popq	%rbx
	popq	%r14
	retq
.Lfunc_end81:
	.size	std_alloc.vec.Vec.grow_amortized.aefd41eb74c3dbca, .Lfunc_end81-std_alloc.vec.Vec.grow_amortized.aefd41eb74c3dbca
	.section	.text.unlikely.std_alloc.vec.Vec.grow_amortized.97d0d6792c3fe7f4,"ax",@progbits
	.p2align	4
	.type	std_alloc.vec.Vec.grow_amortized.97d0d6792c3fe7f4,@function
std_alloc.vec.Vec.grow_amortized.97d0d6792c3fe7f4:
	movq	8(%rdi), %rsi
	cmpq	$-1, %rsi
	je	.LBB82_5
	pushq	%r14
	pushq	%rbx
	pushq	%rax
	movq	16(%rdi), %rcx
	cmpq	$4, %rsi
	movl	$3, %ebx
	cmovaeq	%rsi, %rbx
	incq	%rbx
	movq	%rcx, %rdx
	shrq	$62, %rdx
	leaq	(%rcx,%rcx), %rax
	cmpq	%rax, %rbx
	cmovaq	%rbx, %rax
	testq	%rdx, %rdx
	cmoveq	%rax, %rbx
	movq	%rbx, %rdx
	shrq	$57, %rdx
	jne	.LBB82_6
	testq	%rcx, %rcx
	je	.LBB82_8
	movq	%rdi, %r14
	movq	(%rdi), %rdi
	shlq	$6, %rsi
	movq	%rbx, %rdx
	shlq	$6, %rdx
	movl	$8, %ecx
	callq	rattle_realloc@PLT
	testb	$1, %al
	je	.LBB82_6
.LBB82_9:
	movq	%rdx, (%r14)
	movq	%rbx, 16(%r14)
	movb	$1, %al
	addq	$8, %rsp
	popq	%rbx
	popq	%r14
	retq
.LBB82_5:
	xorl	%eax, %eax
	retq
.LBB82_8:
	movq	%rdi, %r14
	shlq	$6, %rax
	movl	$8, %esi
	movq	%rax, %rdi
	callq	rattle_alloc@PLT
	testb	$1, %al
	jne	.LBB82_9
.LBB82_6:
	xorl	%eax, %eax
	addq	$8, %rsp
	popq	%rbx
	popq	%r14
	retq
.Lfunc_end82:
	.size	std_alloc.vec.Vec.grow_amortized.97d0d6792c3fe7f4, .Lfunc_end82-std_alloc.vec.Vec.grow_amortized.97d0d6792c3fe7f4
	.section	.text.unlikely.std_alloc.vec.Vec.grow_amortized.34b4ac368a9081d8,"ax",@progbits
	.p2align	4
	.type	std_alloc.vec.Vec.grow_amortized.34b4ac368a9081d8,@function
std_alloc.vec.Vec.grow_amortized.34b4ac368a9081d8:
	movq	8(%rdi), %rsi
	cmpq	$-1, %rsi
	je	.LBB83_5
	pushq	%r14
	pushq	%rbx
	pushq	%rax
	movq	16(%rdi), %rcx
	cmpq	$4, %rsi
	movl	$3, %ebx
	cmovaeq	%rsi, %rbx
	incq	%rbx
	movq	%rcx, %rdx
	shrq	$62, %rdx
	leaq	(%rcx,%rcx), %rax
	cmpq	%rax, %rbx
	cmovaq	%rbx, %rax
	testq	%rdx, %rdx
	cmoveq	%rax, %rbx
	movq	%rbx, %rdx
	shrq	$60, %rdx
	jne	.LBB83_6
	testq	%rcx, %rcx
	je	.LBB83_8
	movq	%rdi, %r14
	movq	(%rdi), %rdi
	shlq	$3, %rsi
	leaq	(,%rbx,8), %rdx
	movl	$8, %ecx
	callq	rattle_realloc@PLT
	testb	$1, %al
	je	.LBB83_6
.LBB83_9:
	movq	%rdx, (%r14)
	movq	%rbx, 16(%r14)
	movb	$1, %al
	addq	$8, %rsp
	popq	%rbx
	popq	%r14
	retq
.LBB83_5:
	xorl	%eax, %eax
	retq
.LBB83_8:
	movq	%rdi, %r14
	shlq	$3, %rax
	movl	$8, %esi
	movq	%rax, %rdi
	callq	rattle_alloc@PLT
	testb	$1, %al
	jne	.LBB83_9
.LBB83_6:
	xorl	%eax, %eax
	addq	$8, %rsp
	popq	%rbx
	popq	%r14
	retq
.Lfunc_end83:
	.size	std_alloc.vec.Vec.grow_amortized.34b4ac368a9081d8, .Lfunc_end83-std_alloc.vec.Vec.grow_amortized.34b4ac368a9081d8
	.section	.text.std_alloc.vec.Vec.drop.f70b3562b761e113,"ax",@progbits
	.p2align	4
	.type	std_alloc.vec.Vec.drop.f70b3562b761e113,@function
std_alloc.vec.Vec.drop.f70b3562b761e113:
	pushq	%r15
	pushq	%r14
	pushq	%r13
	pushq	%r12
	pushq	%rbx
	movq	(%rdi), %rbx
	movq	8(%rdi), %r12
	movq	16(%rdi), %r15
	testq	%r12, %r12
	je	.LBB84_12
	xorl	%r13d, %r13d
	.p2align	4
.LBB84_3:
	movq	(%rbx,%r13,8), %r14
	#APP
	#NO_APP
	movl	$1, %eax
	xchgq	%rax, 8(%r14)
	#APP
	#NO_APP
	testq	%rax, %rax
	je	.LBB84_6
	movq	(%r14), %rdi
	xorl	%esi, %esi
	callq	pthread_join@PLT
	cmpb	$0, .Lstatic.0(%rip)
	jne	.LBB84_9
	movq	%r14, %rdi
	callq	free@PLT
.LBB84_6:
	cmpb	$0, .Lstatic.0(%rip)
	jne	.LBB84_9
	cmpb	$0, .Lstatic.0(%rip)
	jne	.LBB84_9
	cmpb	$0, .Lstatic.0(%rip)
	jne	.LBB84_9
	incq	%r13
	cmpq	%r13, %r12
	jne	.LBB84_3
	cmpb	$0, .Lstatic.0(%rip)
	jne	.LBB84_9
	cmpb	$0, .Lstatic.0(%rip)
	jne	.LBB84_9
.LBB84_12:
	cmpb	$0, .Lstatic.0(%rip)
	jne	.LBB84_9
	cmpb	$0, .Lstatic.0(%rip)
	jne	.LBB84_9
	testq	%r15, %r15
	je	.LBB84_15
	movq	%rbx, %rdi
	popq	%rbx
	popq	%r12
	popq	%r13
	popq	%r14
	popq	%r15
	jmp	rattle_dealloc@PLT
.LBB84_15:
	popq	%rbx
	popq	%r12
	popq	%r13
	popq	%r14
	popq	%r15
	retq
.LBB84_9:
	ud2
.Lfunc_end84:
	.size	std_alloc.vec.Vec.drop.f70b3562b761e113, .Lfunc_end84-std_alloc.vec.Vec.drop.f70b3562b761e113
	.section	.text.unlikely.std_alloc.vec.Vec.grow_amortized.cc81737fef4b42c4,"ax",@progbits
	.p2align	4
	.type	std_alloc.vec.Vec.grow_amortized.cc81737fef4b42c4,@function
std_alloc.vec.Vec.grow_amortized.cc81737fef4b42c4:
	movq	8(%rdi), %rax
	cmpq	$-1, %rax
	je	.LBB85_5
	pushq	%r14
	pushq	%rbx
	pushq	%rax
	movq	16(%rdi), %rcx
	cmpq	$4, %rax
	movl	$3, %ebx
	cmovaeq	%rax, %rbx
	incq	%rbx
	movq	%rcx, %rsi
	shrq	$62, %rsi
	leaq	(%rcx,%rcx), %rdx
	cmpq	%rdx, %rbx
	cmovaq	%rbx, %rdx
	testq	%rsi, %rsi
	cmoveq	%rdx, %rbx
	movabsq	$230584300921369395, %rsi
	cmpq	%rsi, %rbx
	ja	.LBB85_6
	testq	%rcx, %rcx
	je	.LBB85_8
	movq	%rdi, %r14
	movq	(%rdi), %rdi
	shlq	$3, %rax
	leaq	(%rax,%rax,4), %rsi
	leaq	(,%rbx,8), %rax
	leaq	(%rax,%rax,4), %rdx
	movl	$8, %ecx
	callq	rattle_realloc@PLT
	testb	$1, %al
	je	.LBB85_6
.LBB85_9:
	movq	%rdx, (%r14)
	movq	%rbx, 16(%r14)
	movb	$1, %al
	addq	$8, %rsp
	popq	%rbx
	popq	%r14
	retq
.LBB85_5:
	xorl	%eax, %eax
	retq
.LBB85_8:
	movq	%rdi, %r14
	shlq	$3, %rdx
	leaq	(%rdx,%rdx,4), %rdi
	movl	$8, %esi
	callq	rattle_alloc@PLT
	testb	$1, %al
	jne	.LBB85_9
.LBB85_6:
	xorl	%eax, %eax
	addq	$8, %rsp
	popq	%rbx
	popq	%r14
	retq
.Lfunc_end85:
	.size	std_alloc.vec.Vec.grow_amortized.cc81737fef4b42c4, .Lfunc_end85-std_alloc.vec.Vec.grow_amortized.cc81737fef4b42c4
	.section	.text.unlikely.std_alloc.vec.Vec.grow_amortized.1ced78ec54a54abc,"ax",@progbits
	.p2align	4
	.type	std_alloc.vec.Vec.grow_amortized.1ced78ec54a54abc,@function
std_alloc.vec.Vec.grow_amortized.1ced78ec54a54abc:
	pushq	%r15
	pushq	%r14
	pushq	%rbx
	movq	8(%rdi), %rcx
	cmpq	$-1, %rcx
	je	.LBB86_1
	movq	16(%rdi), %rax
	cmpq	$8, %rcx
	movl	$7, %edx
	cmovaeq	%rcx, %rdx
	incq	%rdx
	movq	%rax, %rcx
	shrq	$62, %rcx
	leaq	(%rax,%rax), %r14
	cmpq	%r14, %rdx
	cmovaq	%rdx, %r14
	testq	%rcx, %rcx
	cmovneq	%rdx, %r14
	testq	%r14, %r14
	js	.LBB86_1
	testq	%rax, %rax
	je	.LBB86_6
	movq	%rdi, %r15
	movq	(%rdi), %rdi
	xorl	%ebx, %ebx
	movl	$1, %ecx
	xorl	%esi, %esi
	xorl	%edx, %edx
	callq	rattle_realloc@PLT
	testb	$1, %al
	jne	.LBB86_8
	jmp	.LBB86_2
.LBB86_1:
	xorl	%ebx, %ebx
	jmp	.LBB86_2
.LBB86_6:
	movq	%rdi, %r15
	xorl	%ebx, %ebx
	movl	$1, %esi
	xorl	%edi, %edi
	callq	rattle_alloc@PLT
	testb	$1, %al
	je	.LBB86_2
.LBB86_8:
	movq	%rdx, (%r15)
	movq	%r14, 16(%r15)
	movb	$1, %bl
.LBB86_2:
	movl	%ebx, %eax
	popq	%rbx
	popq	%r14
	popq	%r15
	retq
.Lfunc_end86:
	.size	std_alloc.vec.Vec.grow_amortized.1ced78ec54a54abc, .Lfunc_end86-std_alloc.vec.Vec.grow_amortized.1ced78ec54a54abc
	.section	.text.unlikely.std_alloc.vec.Vec.grow_amortized.2f1185c89873501e,"ax",@progbits
	.p2align	4
	.type	std_alloc.vec.Vec.grow_amortized.2f1185c89873501e,@function
std_alloc.vec.Vec.grow_amortized.2f1185c89873501e:
	movq	8(%rdi), %rax
	cmpq	$-1, %rax
	je	.LBB87_5
	pushq	%r14
	pushq	%rbx
	pushq	%rax
	movq	16(%rdi), %rcx
	cmpq	$4, %rax
	movl	$3, %ebx
	cmovaeq	%rax, %rbx
	incq	%rbx
	movq	%rcx, %rsi
	shrq	$62, %rsi
	leaq	(%rcx,%rcx), %rdx
	cmpq	%rdx, %rbx
	cmovaq	%rbx, %rdx
	testq	%rsi, %rsi
	cmoveq	%rdx, %rbx
	movabsq	$384307168202282325, %rsi
	cmpq	%rsi, %rbx
	ja	.LBB87_6
	testq	%rcx, %rcx
	je	.LBB87_8
	movq	%rdi, %r14
	movq	(%rdi), %rdi
	shlq	$3, %rax
	leaq	(%rax,%rax,2), %rsi
	leaq	(,%rbx,8), %rax
	leaq	(%rax,%rax,2), %rdx
	movl	$8, %ecx
	callq	rattle_realloc@PLT
	testb	$1, %al
	je	.LBB87_6
.LBB87_9:
	movq	%rdx, (%r14)
	movq	%rbx, 16(%r14)
	movb	$1, %al
	addq	$8, %rsp
	popq	%rbx
	popq	%r14
	retq
.LBB87_5:
	xorl	%eax, %eax
	retq
.LBB87_8:
	movq	%rdi, %r14
	shlq	$3, %rdx
	leaq	(%rdx,%rdx,2), %rdi
	movl	$8, %esi
	callq	rattle_alloc@PLT
	testb	$1, %al
	jne	.LBB87_9
.LBB87_6:
	xorl	%eax, %eax
	addq	$8, %rsp
	popq	%rbx
	popq	%r14
	retq
.Lfunc_end87:
	.size	std_alloc.vec.Vec.grow_amortized.2f1185c89873501e, .Lfunc_end87-std_alloc.vec.Vec.grow_amortized.2f1185c89873501e
	.section	.text.ic_program.program.status_of.4e9da720f7635e46,"ax",@progbits
	.p2align	4
	.type	ic_program.program.status_of.4e9da720f7635e46,@function
ic_program.program.status_of.4e9da720f7635e46:
	cmpb	$0, (%rdi)
	je	.LBB88_1
	pushq	%r14
	pushq	%rbx
	subq	$2344, %rsp
	movq	16(%rdi), %rax
	movzbl	8(%rdi), %ecx
	movq	%rcx, 8(%rsp)
	movq	%rax, 16(%rsp)
	leaq	8(%rsp), %rax
	movq	%rax, (%rsp)
	movl	$2, 24(%rsp)
	leaq	28(%rsp), %rbx
	movl	$1132, %edx
	movq	%rbx, %rdi
	xorl	%esi, %esi
	callq	memset@PLT
	movl	$32, 1160(%rsp)
	movq	$0, 1164(%rsp)
	movl	$0, 1172(%rsp)
	movq	$-1, 1176(%rsp)
	xorps	%xmm0, %xmm0
	movups	%xmm0, 1184(%rsp)
	movl	1160(%rsp), %eax
	movl	%eax, 1200(%rsp)
	movq	1164(%rsp), %rax
	movq	%rax, 1204(%rsp)
	movl	1172(%rsp), %eax
	movl	%eax, 1212(%rsp)
	movq	$-1, 1216(%rsp)
	movl	$32, 1160(%rsp)
	movq	$0, 1164(%rsp)
	movl	$0, 1172(%rsp)
	leaq	24(%rsp), %rdi
	movq	%rsp, %rsi
	callq	core.fmt.formatter.Formatter.write_piece.bdc4606c8c8e2f5f
	movaps	1200(%rsp), %xmm0
	movups	%xmm0, 1160(%rsp)
	movq	1216(%rsp), %rcx
	movq	%rcx, 1176(%rsp)
	testb	%al, %al
	jne	.LBB88_9
	leaq	1160(%rsp), %r14
	movq	16(%r14), %rax
	movq	%rax, 1216(%rsp)
	movups	(%r14), %xmm0
	movaps	%xmm0, 1200(%rsp)
	movl	$32, 1160(%rsp)
	movl	$0, 12(%r14)
	movq	$0, 4(%r14)
	movq	$-1, 1176(%rsp)
	cmpq	$0, 1184(%rsp)
	jne	.LBB88_7
	movq	1056(%rsp), %rcx
	cmpq	$1024, %rcx
	jb	.LBB88_6
	leaq	24(%rsp), %rdi
	callq	std_io.io.buffer.Buffer.flush
	movq	1056(%rsp), %rcx
	cmpq	$1024, %rcx
	setb	%dl
	andb	%al, %dl
	cmpb	$1, %dl
	jne	.LBB88_8
.LBB88_6:
	movb	$10, 28(%rsp,%rcx)
	incq	%rcx
	movq	%rcx, 1056(%rsp)
.LBB88_8:
	movq	1216(%rsp), %rax
	movq	%rax, 16(%r14)
	movaps	1200(%rsp), %xmm0
	movups	%xmm0, (%r14)
.LBB88_9:
	movl	24(%rsp), %eax
	movl	%eax, 1200(%rsp)
	leaq	1204(%rsp), %rdi
	movl	$1132, %edx
	movq	%rbx, %rsi
	callq	memcpy@PLT
	leaq	1200(%rsp), %rdi
	callq	std_io.io.buffer.Buffer.flush
	movb	$3, %al
	addq	$2344, %rsp
	popq	%rbx
	popq	%r14
	retq
.LBB88_1:
	cmpb	$0, 1(%rdi)
	setne	%al
	addb	%al, %al
	retq
.LBB88_7:
	leaq	.Lstatic.38(%rip), %rsi
	leaq	24(%rsp), %rdi
	movl	$1, %edx
	callq	core.fmt.formatter.Formatter.write_indented.bf264aed5fa78656
	jmp	.LBB88_8
.Lfunc_end88:
	.size	ic_program.program.status_of.4e9da720f7635e46, .Lfunc_end88-ic_program.program.status_of.4e9da720f7635e46
	.section	.text.core.fmt.formatter.Formatter.write_piece.bdc4606c8c8e2f5f,"ax",@progbits
	.p2align	4
	.type	core.fmt.formatter.Formatter.write_piece.bdc4606c8c8e2f5f,@function
core.fmt.formatter.Formatter.write_piece.bdc4606c8c8e2f5f:
	pushq	%rbp
	pushq	%r15
	pushq	%r14
	pushq	%r12
	pushq	%rbx
	subq	$32, %rsp
	movq	%rdi, %rbx
	leaq	1136(%rdi), %r15
	movl	$32, 1136(%rdi)
	leaq	1140(%rdi), %rax
	movq	$0, 1140(%rdi)
	movl	$0, 1148(%rdi)
	movq	$-1, 1152(%rdi)
	movq	(%rsi), %r14
	movzbl	(%r14), %ecx
	leaq	.LJTI89_0(%rip), %rdx
	movslq	(%rdx,%rcx,4), %rcx
	addq	%rdx, %rcx
	jmpq	*%rcx
.LBB89_1:
	movq	16(%r15), %rcx
	movq	%rcx, 16(%rsp)
	movups	(%r15), %xmm0
	movaps	%xmm0, (%rsp)
	movl	$32, 1136(%rbx)
	movl	$0, 8(%rax)
	movq	$0, (%rax)
	movq	$-1, 1152(%rbx)
	cmpq	$0, 1160(%rbx)
	jne	.LBB89_7
	movq	1032(%rbx), %rcx
	xorl	%r12d, %r12d
	jmp	.LBB89_3
	.p2align	4
.LBB89_6:
	movb	%bpl, 4(%rbx,%rcx)
	incq	%rcx
	movq	%rcx, 1032(%rbx)
	incq	%r12
	cmpq	$25, %r12
	je	.LBB89_9
.LBB89_3:
	leaq	.Lstatic.91(%rip), %rax
	movzbl	(%r12,%rax), %ebp
	cmpq	$1024, %rcx
	jb	.LBB89_6
	movq	%rbx, %rdi
	callq	std_io.io.buffer.Buffer.flush
	movl	%eax, %ecx
	movb	$1, %al
	testb	%cl, %cl
	je	.LBB89_10
	movq	1032(%rbx), %rcx
	cmpq	$1023, %rcx
	jbe	.LBB89_6
	jmp	.LBB89_10
.LBB89_18:
	cmpq	$0, 1160(%rbx)
	jne	.LBB89_56
	movq	1032(%rbx), %rdx
	cmpq	$1024, %rdx
	jb	.LBB89_22
	movq	%rbx, %rdi
	callq	std_io.io.buffer.Buffer.flush
	movl	%eax, %ecx
	movb	$1, %al
	testb	%cl, %cl
	je	.LBB89_100
	movq	1032(%rbx), %rdx
	cmpq	$1023, %rdx
	ja	.LBB89_100
.LBB89_22:
	movb	$99, 4(%rbx,%rdx)
	leaq	1(%rdx), %rcx
	movq	%rcx, 1032(%rbx)
	cmpq	$1023, %rdx
	jne	.LBB89_25
	movq	%rbx, %rdi
	callq	std_io.io.buffer.Buffer.flush
	movl	%eax, %ecx
	movb	$1, %al
	testb	%cl, %cl
	je	.LBB89_100
	movq	1032(%rbx), %rcx
	cmpq	$1023, %rcx
	ja	.LBB89_100
.LBB89_25:
	movb	$97, 4(%rbx,%rcx)
	leaq	1(%rcx), %rdx
	movq	%rdx, 1032(%rbx)
	cmpq	$1023, %rcx
	jb	.LBB89_28
	movq	%rbx, %rdi
	callq	std_io.io.buffer.Buffer.flush
	movl	%eax, %ecx
	movb	$1, %al
	testb	%cl, %cl
	je	.LBB89_100
	movq	1032(%rbx), %rdx
	cmpq	$1023, %rdx
	ja	.LBB89_100
.LBB89_28:
	movb	$110, 4(%rbx,%rdx)
	leaq	1(%rdx), %rcx
	movq	%rcx, 1032(%rbx)
	cmpq	$1023, %rdx
	jb	.LBB89_31
	movq	%rbx, %rdi
	callq	std_io.io.buffer.Buffer.flush
	movl	%eax, %ecx
	movb	$1, %al
	testb	%cl, %cl
	je	.LBB89_100
	movq	1032(%rbx), %rcx
	cmpq	$1023, %rcx
	ja	.LBB89_100
.LBB89_31:
	movb	$110, 4(%rbx,%rcx)
	leaq	1(%rcx), %rdx
	movq	%rdx, 1032(%rbx)
	cmpq	$1023, %rcx
	jb	.LBB89_34
	movq	%rbx, %rdi
	callq	std_io.io.buffer.Buffer.flush
	movl	%eax, %ecx
	movb	$1, %al
	testb	%cl, %cl
	je	.LBB89_100
	movq	1032(%rbx), %rdx
	cmpq	$1023, %rdx
	ja	.LBB89_100
.LBB89_34:
	movb	$111, 4(%rbx,%rdx)
	leaq	1(%rdx), %rcx
	movq	%rcx, 1032(%rbx)
	cmpq	$1023, %rdx
	jb	.LBB89_37
	movq	%rbx, %rdi
	callq	std_io.io.buffer.Buffer.flush
	movl	%eax, %ecx
	movb	$1, %al
	testb	%cl, %cl
	je	.LBB89_100
	movq	1032(%rbx), %rcx
	cmpq	$1023, %rcx
	ja	.LBB89_100
.LBB89_37:
	movb	$116, 4(%rbx,%rcx)
	leaq	1(%rcx), %rdx
	movq	%rdx, 1032(%rbx)
	cmpq	$1023, %rcx
	jb	.LBB89_40
	movq	%rbx, %rdi
	callq	std_io.io.buffer.Buffer.flush
	movl	%eax, %ecx
	movb	$1, %al
	testb	%cl, %cl
	je	.LBB89_100
	movq	1032(%rbx), %rdx
	cmpq	$1023, %rdx
	ja	.LBB89_100
.LBB89_40:
	movb	$32, 4(%rbx,%rdx)
	leaq	1(%rdx), %rcx
	movq	%rcx, 1032(%rbx)
	cmpq	$1023, %rdx
	jb	.LBB89_43
	movq	%rbx, %rdi
	callq	std_io.io.buffer.Buffer.flush
	movl	%eax, %ecx
	movb	$1, %al
	testb	%cl, %cl
	je	.LBB89_100
	movq	1032(%rbx), %rcx
	cmpq	$1023, %rcx
	ja	.LBB89_100
.LBB89_43:
	movb	$119, 4(%rbx,%rcx)
	leaq	1(%rcx), %rdx
	movq	%rdx, 1032(%rbx)
	cmpq	$1023, %rcx
	jb	.LBB89_46
	movq	%rbx, %rdi
	callq	std_io.io.buffer.Buffer.flush
	movl	%eax, %ecx
	movb	$1, %al
	testb	%cl, %cl
	je	.LBB89_100
	movq	1032(%rbx), %rdx
	cmpq	$1023, %rdx
	ja	.LBB89_100
.LBB89_46:
	movb	$114, 4(%rbx,%rdx)
	leaq	1(%rdx), %rcx
	movq	%rcx, 1032(%rbx)
	cmpq	$1023, %rdx
	jb	.LBB89_49
	movq	%rbx, %rdi
	callq	std_io.io.buffer.Buffer.flush
	movl	%eax, %ecx
	movb	$1, %al
	testb	%cl, %cl
	je	.LBB89_100
	movq	1032(%rbx), %rcx
	cmpq	$1023, %rcx
	ja	.LBB89_100
.LBB89_49:
	movb	$105, 4(%rbx,%rcx)
	leaq	1(%rcx), %rdx
	movq	%rdx, 1032(%rbx)
	cmpq	$1023, %rcx
	jb	.LBB89_52
	movq	%rbx, %rdi
	callq	std_io.io.buffer.Buffer.flush
	movl	%eax, %ecx
	movb	$1, %al
	testb	%cl, %cl
	je	.LBB89_100
	movq	1032(%rbx), %rdx
	cmpq	$1023, %rdx
	ja	.LBB89_100
.LBB89_52:
	movb	$116, 4(%rbx,%rdx)
	leaq	1(%rdx), %rcx
	movq	%rcx, 1032(%rbx)
	cmpq	$1023, %rdx
	jb	.LBB89_55
	movq	%rbx, %rdi
	callq	std_io.io.buffer.Buffer.flush
	movl	%eax, %ecx
	movb	$1, %al
	testb	%cl, %cl
	je	.LBB89_100
	movq	1032(%rbx), %rcx
	cmpq	$1023, %rcx
	ja	.LBB89_100
.LBB89_55:
	movb	$101, 4(%rbx,%rcx)
	incq	%rcx
	movq	%rcx, 1032(%rbx)
	jmp	.LBB89_99
.LBB89_58:
	cmpq	$0, 1160(%rbx)
	jne	.LBB89_101
	movq	1032(%rbx), %rdx
	cmpq	$1024, %rdx
	jb	.LBB89_62
	movq	%rbx, %rdi
	callq	std_io.io.buffer.Buffer.flush
	movl	%eax, %ecx
	movb	$1, %al
	testb	%cl, %cl
	je	.LBB89_100
	movq	1032(%rbx), %rdx
	cmpq	$1023, %rdx
	ja	.LBB89_100
.LBB89_62:
	movb	$111, 4(%rbx,%rdx)
	leaq	1(%rdx), %rcx
	movq	%rcx, 1032(%rbx)
	cmpq	$1023, %rdx
	jne	.LBB89_65
	movq	%rbx, %rdi
	callq	std_io.io.buffer.Buffer.flush
	movl	%eax, %ecx
	movb	$1, %al
	testb	%cl, %cl
	je	.LBB89_100
	movq	1032(%rbx), %rcx
	cmpq	$1023, %rcx
	ja	.LBB89_100
.LBB89_65:
	movb	$117, 4(%rbx,%rcx)
	leaq	1(%rcx), %rdx
	movq	%rdx, 1032(%rbx)
	cmpq	$1023, %rcx
	jb	.LBB89_68
	movq	%rbx, %rdi
	callq	std_io.io.buffer.Buffer.flush
	movl	%eax, %ecx
	movb	$1, %al
	testb	%cl, %cl
	je	.LBB89_100
	movq	1032(%rbx), %rdx
	cmpq	$1023, %rdx
	ja	.LBB89_100
.LBB89_68:
	movb	$116, 4(%rbx,%rdx)
	leaq	1(%rdx), %rcx
	movq	%rcx, 1032(%rbx)
	cmpq	$1023, %rdx
	jb	.LBB89_71
	movq	%rbx, %rdi
	callq	std_io.io.buffer.Buffer.flush
	movl	%eax, %ecx
	movb	$1, %al
	testb	%cl, %cl
	je	.LBB89_100
	movq	1032(%rbx), %rcx
	cmpq	$1023, %rcx
	ja	.LBB89_100
.LBB89_71:
	movb	$32, 4(%rbx,%rcx)
	leaq	1(%rcx), %rdx
	movq	%rdx, 1032(%rbx)
	cmpq	$1023, %rcx
	jb	.LBB89_74
	movq	%rbx, %rdi
	callq	std_io.io.buffer.Buffer.flush
	movl	%eax, %ecx
	movb	$1, %al
	testb	%cl, %cl
	je	.LBB89_100
	movq	1032(%rbx), %rdx
	cmpq	$1023, %rdx
	ja	.LBB89_100
.LBB89_74:
	movb	$111, 4(%rbx,%rdx)
	leaq	1(%rdx), %rcx
	movq	%rcx, 1032(%rbx)
	cmpq	$1023, %rdx
	jb	.LBB89_77
	movq	%rbx, %rdi
	callq	std_io.io.buffer.Buffer.flush
	movl	%eax, %ecx
	movb	$1, %al
	testb	%cl, %cl
	je	.LBB89_100
	movq	1032(%rbx), %rcx
	cmpq	$1023, %rcx
	ja	.LBB89_100
.LBB89_77:
	movb	$102, 4(%rbx,%rcx)
	leaq	1(%rcx), %rdx
	movq	%rdx, 1032(%rbx)
	cmpq	$1023, %rcx
	jb	.LBB89_80
	movq	%rbx, %rdi
	callq	std_io.io.buffer.Buffer.flush
	movl	%eax, %ecx
	movb	$1, %al
	testb	%cl, %cl
	je	.LBB89_100
	movq	1032(%rbx), %rdx
	cmpq	$1023, %rdx
	ja	.LBB89_100
.LBB89_80:
	movb	$32, 4(%rbx,%rdx)
	leaq	1(%rdx), %rcx
	movq	%rcx, 1032(%rbx)
	cmpq	$1023, %rdx
	jb	.LBB89_83
	movq	%rbx, %rdi
	callq	std_io.io.buffer.Buffer.flush
	movl	%eax, %ecx
	movb	$1, %al
	testb	%cl, %cl
	je	.LBB89_100
	movq	1032(%rbx), %rcx
	cmpq	$1023, %rcx
	ja	.LBB89_100
.LBB89_83:
	movb	$109, 4(%rbx,%rcx)
	leaq	1(%rcx), %rdx
	movq	%rdx, 1032(%rbx)
	cmpq	$1023, %rcx
	jb	.LBB89_86
	movq	%rbx, %rdi
	callq	std_io.io.buffer.Buffer.flush
	movl	%eax, %ecx
	movb	$1, %al
	testb	%cl, %cl
	je	.LBB89_100
	movq	1032(%rbx), %rdx
	cmpq	$1023, %rdx
	ja	.LBB89_100
.LBB89_86:
	movb	$101, 4(%rbx,%rdx)
	leaq	1(%rdx), %rcx
	movq	%rcx, 1032(%rbx)
	cmpq	$1023, %rdx
	jb	.LBB89_89
	movq	%rbx, %rdi
	callq	std_io.io.buffer.Buffer.flush
	movl	%eax, %ecx
	movb	$1, %al
	testb	%cl, %cl
	je	.LBB89_100
	movq	1032(%rbx), %rcx
	cmpq	$1023, %rcx
	ja	.LBB89_100
.LBB89_89:
	movb	$109, 4(%rbx,%rcx)
	leaq	1(%rcx), %rdx
	movq	%rdx, 1032(%rbx)
	cmpq	$1023, %rcx
	jb	.LBB89_92
	movq	%rbx, %rdi
	callq	std_io.io.buffer.Buffer.flush
	movl	%eax, %ecx
	movb	$1, %al
	testb	%cl, %cl
	je	.LBB89_100
	movq	1032(%rbx), %rdx
	cmpq	$1023, %rdx
	ja	.LBB89_100
.LBB89_92:
	movb	$111, 4(%rbx,%rdx)
	leaq	1(%rdx), %rcx
	movq	%rcx, 1032(%rbx)
	cmpq	$1023, %rdx
	jb	.LBB89_95
	movq	%rbx, %rdi
	callq	std_io.io.buffer.Buffer.flush
	movl	%eax, %ecx
	movb	$1, %al
	testb	%cl, %cl
	je	.LBB89_100
	movq	1032(%rbx), %rcx
	cmpq	$1023, %rcx
	ja	.LBB89_100
.LBB89_95:
	movb	$114, 4(%rbx,%rcx)
	leaq	1(%rcx), %rdx
	movq	%rdx, 1032(%rbx)
	cmpq	$1023, %rcx
	jb	.LBB89_98
	movq	%rbx, %rdi
	callq	std_io.io.buffer.Buffer.flush
	movl	%eax, %ecx
	movb	$1, %al
	testb	%cl, %cl
	je	.LBB89_100
	movq	1032(%rbx), %rdx
	cmpq	$1023, %rdx
	ja	.LBB89_100
.LBB89_98:
	movb	$121, 4(%rbx,%rdx)
	incq	%rdx
	movq	%rdx, 1032(%rbx)
.LBB89_99:
	xorl	%eax, %eax
	jmp	.LBB89_100
.LBB89_11:
	movq	16(%r15), %rcx
	movq	%rcx, 16(%rsp)
	movups	(%r15), %xmm0
	movaps	%xmm0, (%rsp)
	movl	$32, 1136(%rbx)
	movl	$0, 8(%rax)
	movq	$0, (%rax)
	movq	$-1, 1152(%rbx)
	cmpq	$0, 1160(%rbx)
	jne	.LBB89_17
	movq	1032(%rbx), %rcx
	xorl	%r12d, %r12d
	jmp	.LBB89_13
	.p2align	4
.LBB89_16:
	movb	%bpl, 4(%rbx,%rcx)
	incq	%rcx
	movq	%rcx, 1032(%rbx)
	incq	%r12
	cmpq	$23, %r12
	je	.LBB89_9
.LBB89_13:
	leaq	.Lstatic.92(%rip), %rax
	movzbl	(%r12,%rax), %ebp
	cmpq	$1024, %rcx
	jb	.LBB89_16
	movq	%rbx, %rdi
	callq	std_io.io.buffer.Buffer.flush
	movl	%eax, %ecx
	movb	$1, %al
	testb	%cl, %cl
	je	.LBB89_10
	movq	1032(%rbx), %rcx
	cmpq	$1023, %rcx
	jbe	.LBB89_16
	jmp	.LBB89_10
.LBB89_56:
	leaq	.Lstatic.93(%rip), %rsi
	movl	$12, %edx
	jmp	.LBB89_57
.LBB89_101:
	leaq	.Lstatic.94(%rip), %rsi
	movl	$13, %edx
.LBB89_57:
	movq	%rbx, %rdi
	addq	$32, %rsp
	popq	%rbx
	popq	%r12
	popq	%r14
	popq	%r15
	popq	%rbp
	jmp	core.fmt.formatter.Formatter.write_indented.bf264aed5fa78656
.LBB89_7:
	leaq	.Lstatic.91(%rip), %rsi
	movl	$25, %edx
	jmp	.LBB89_8
.LBB89_17:
	leaq	.Lstatic.92(%rip), %rsi
	movl	$23, %edx
.LBB89_8:
	movq	%rbx, %rdi
	callq	core.fmt.formatter.Formatter.write_indented.bf264aed5fa78656
	movl	%eax, %ecx
	movb	$1, %al
	testb	%cl, %cl
	jne	.LBB89_10
.LBB89_9:
	addq	$8, %r14
	movq	%rbx, %rdi
	movq	%r14, %rsi
	callq	core.fmt.formatter.Formatter.write_piece.ad6cde96c05b3f7d
.LBB89_10:
	movq	16(%rsp), %rcx
	movq	%rcx, 16(%r15)
	movaps	(%rsp), %xmm0
	movups	%xmm0, (%r15)
.LBB89_100:
	addq	$32, %rsp
	popq	%rbx
	popq	%r12
	popq	%r14
	popq	%r15
	popq	%rbp
	retq
.Lfunc_end89:
	.size	core.fmt.formatter.Formatter.write_piece.bdc4606c8c8e2f5f, .Lfunc_end89-core.fmt.formatter.Formatter.write_piece.bdc4606c8c8e2f5f
	.section	.rodata.core.fmt.formatter.Formatter.write_piece.bdc4606c8c8e2f5f,"a",@progbits
	.p2align	2, 0x0
.LJTI89_0:
	.long	.LBB89_1-.LJTI89_0
	.long	.LBB89_11-.LJTI89_0
	.long	.LBB89_18-.LJTI89_0
	.long	.LBB89_58-.LJTI89_0
	.section	.text.core.fmt.formatter.Formatter.write_piece.ad6cde96c05b3f7d,"ax",@progbits
	.p2align	4
	.type	core.fmt.formatter.Formatter.write_piece.ad6cde96c05b3f7d,@function
core.fmt.formatter.Formatter.write_piece.ad6cde96c05b3f7d:
	pushq	%rbp
	pushq	%r14
	pushq	%rbx
	subq	$32, %rsp
	movq	%rdi, %rbx
	movl	$32, 1136(%rdi)
	movq	$0, 1140(%rdi)
	movl	$0, 1148(%rdi)
	movq	$-1, 1152(%rdi)
	movq	(%rsi), %rcx
	xorps	%xmm0, %xmm0
	movaps	%xmm0, (%rsp)
	movq	$0, 16(%rsp)
	movl	$24, %r14d
	cmpq	$100, %rcx
	jb	.LBB90_5
	.p2align	4
.LBB90_1:
	movq	%rcx, %rax
	shrq	$2, %rax
	movabsq	$2951479051793528259, %rdx
	mulq	%rdx
	shrq	$2, %rdx
	imull	$100, %edx, %eax
	movl	%ecx, %esi
	subl	%eax, %esi
	movzbl	%sil, %eax
	imull	$205, %eax, %esi
	shrl	$11, %esi
	leal	(%rsi,%rsi), %edi
	leal	(%rdi,%rdi,4), %edi
	subb	%dil, %al
	orb	$48, %al
	movb	%al, -1(%rsp,%r14)
	orb	$48, %sil
	movb	%sil, -2(%rsp,%r14)
	addq	$-2, %r14
	cmpq	$9999, %rcx
	movq	%rdx, %rcx
	ja	.LBB90_1
	cmpq	$10, %rdx
	jb	.LBB90_6
.LBB90_3:
	movzbl	%dl, %eax
	imull	$205, %eax, %eax
	shrl	$11, %eax
	leal	(%rax,%rax), %ecx
	leal	(%rcx,%rcx,4), %ecx
	subb	%cl, %dl
	orb	$48, %dl
	movb	%dl, -1(%rsp,%r14)
	orb	$48, %al
	movb	%al, -2(%rsp,%r14)
	addq	$-2, %r14
	movb	$45, -1(%rsp,%r14)
	cmpq	$0, 1160(%rbx)
	je	.LBB90_7
.LBB90_4:
	movl	$24, %edx
	subq	%r14, %rdx
	leaq	(%rsp,%r14), %rsi
	movq	%rbx, %rdi
	callq	core.fmt.formatter.Formatter.write_indented.bf264aed5fa78656
	jmp	.LBB90_15
.LBB90_5:
	movq	%rcx, %rdx
	cmpq	$10, %rdx
	jae	.LBB90_3
.LBB90_6:
	orb	$48, %dl
	movb	%dl, -1(%rsp,%r14)
	decq	%r14
	movb	$45, -1(%rsp,%r14)
	cmpq	$0, 1160(%rbx)
	jne	.LBB90_4
.LBB90_7:
	cmpq	$24, %r14
	jne	.LBB90_9
.LBB90_14:
	xorl	%eax, %eax
.LBB90_15:
	addq	$32, %rsp
	popq	%rbx
	popq	%r14
	popq	%rbp
	retq
.LBB90_9:
	movq	1032(%rbx), %rcx
	jmp	.LBB90_11
	.p2align	4
.LBB90_10:
	movb	%bpl, 4(%rbx,%rcx)
	incq	%rcx
	movq	%rcx, 1032(%rbx)
	incq	%r14
	cmpq	$24, %r14
	je	.LBB90_14
.LBB90_11:
	movzbl	(%rsp,%r14), %ebp
	cmpq	$1024, %rcx
	jb	.LBB90_10
	movq	%rbx, %rdi
	callq	std_io.io.buffer.Buffer.flush
	movl	%eax, %ecx
	movb	$1, %al
	testb	%cl, %cl
	je	.LBB90_15
	movq	1032(%rbx), %rcx
	cmpq	$1023, %rcx
	jbe	.LBB90_10
	jmp	.LBB90_15
.Lfunc_end90:
	.size	core.fmt.formatter.Formatter.write_piece.ad6cde96c05b3f7d, .Lfunc_end90-core.fmt.formatter.Formatter.write_piece.ad6cde96c05b3f7d
	.section	.text.core.fmt.formatter.Formatter.write_raw.bf264aed5fa78656,"ax",@progbits
	.p2align	4
	.type	core.fmt.formatter.Formatter.write_raw.bf264aed5fa78656,@function
core.fmt.formatter.Formatter.write_raw.bf264aed5fa78656:
	testq	%rdx, %rdx
	je	.LBB91_1
	pushq	%rbp
	pushq	%r15
	pushq	%r14
	pushq	%r12
	pushq	%rbx
	movq	%rdx, %rbx
	movq	%rsi, %r14
	movq	%rdi, %r15
	xorl	%ecx, %ecx
	jmp	.LBB91_4
	.p2align	4
.LBB91_19:
	addq	%rdi, %rcx
	cmpq	%rbx, %rcx
	jae	.LBB91_20
.LBB91_4:
	movzbl	(%r14,%rcx), %edx
	movl	$1, %edi
	testb	%dl, %dl
	jns	.LBB91_19
	leaq	1(%rcx), %rsi
	movb	$1, %al
	cmpq	%rsi, %rbx
	jbe	.LBB91_26
	movzbl	(%r14,%rsi), %esi
	testb	%sil, %sil
	jns	.LBB91_26
	movzbl	%sil, %edi
	cmpb	$-64, %sil
	movl	$192, %esi
	cmovbl	%edi, %esi
	cmpb	$-62, %dl
	jb	.LBB91_26
	movl	%esi, %edi
	andb	$127, %dil
	cmpb	$63, %dil
	ja	.LBB91_26
	movl	$2, %edi
	cmpb	$-32, %dl
	jb	.LBB91_19
	leaq	2(%rcx), %rdi
	cmpq	%rdi, %rbx
	jbe	.LBB91_26
	cmpb	$-65, (%r14,%rdi)
	jg	.LBB91_26
	andl	$127, %esi
	cmpb	$-17, %dl
	ja	.LBB91_16
	movl	%edx, %edi
	shll	$12, %edi
	shll	$6, %esi
	addl	%edi, %esi
	addl	$-917504, %esi
	cmpl	$2048, %esi
	jb	.LBB91_26
	movl	$3, %edi
	cmpl	$55296, %esi
	jb	.LBB91_19
	cmpb	$-18, %dl
	jae	.LBB91_19
	jmp	.LBB91_26
.LBB91_16:
	leaq	3(%rcx), %rdi
	cmpq	%rdi, %rbx
	jbe	.LBB91_26
	cmpb	$-65, (%r14,%rdi)
	jg	.LBB91_26
	shll	$18, %edx
	shll	$12, %esi
	addl	%esi, %edx
	addl	$-62980096, %edx
	movl	$4, %edi
	cmpl	$1048575, %edx
	jbe	.LBB91_19
	jmp	.LBB91_26
.LBB91_1:
	xorl	%eax, %eax
	retq
.LBB91_20:
	movq	1032(%r15), %rcx
	xorl	%r12d, %r12d
	jmp	.LBB91_21
	.p2align	4
.LBB91_24:
	movb	%bpl, 4(%r15,%rcx)
	incq	%rcx
	movq	%rcx, 1032(%r15)
	incq	%r12
	cmpq	%r12, %rbx
	je	.LBB91_25
.LBB91_21:
	movzbl	(%r14,%r12), %ebp
	cmpq	$1024, %rcx
	jb	.LBB91_24
	movq	%r15, %rdi
	callq	std_io.io.buffer.Buffer.flush
	movl	%eax, %ecx
	movb	$1, %al
	testb	%cl, %cl
	je	.LBB91_26
	movq	1032(%r15), %rcx
	cmpq	$1023, %rcx
	jbe	.LBB91_24
	jmp	.LBB91_26
.LBB91_25:
	xorl	%eax, %eax
.LBB91_26:
	popq	%rbx
	popq	%r12
	popq	%r14
	popq	%r15
	popq	%rbp
	retq
.Lfunc_end91:
	.size	core.fmt.formatter.Formatter.write_raw.bf264aed5fa78656, .Lfunc_end91-core.fmt.formatter.Formatter.write_raw.bf264aed5fa78656
	.section	.rodata.cst16,"aM",@progbits,16
	.p2align	4, 0x0
.LCPI92_0:
	.zero	16,46
.LCPI92_1:
	.quad	8458358670138239095
	.quad	3327647951695996518
.LCPI92_2:
	.quad	8367798494427701606
	.quad	2334399978102268015
.LCPI92_3:
	.byte	2
	.byte	23
	.byte	28
	.byte	0
	.zero	1
	.zero	1
	.zero	1
	.zero	1
	.zero	1
	.zero	1
	.zero	1
	.zero	1
	.zero	1
	.zero	1
	.zero	1
	.zero	1
.LCPI92_4:
	.byte	0
	.byte	35
	.byte	0
	.byte	0
	.zero	1
	.zero	1
	.zero	1
	.zero	1
	.zero	1
	.zero	1
	.zero	1
	.zero	1
	.zero	1
	.zero	1
	.zero	1
	.zero	1
.LCPI92_5:
	.byte	0
	.byte	35
	.byte	0
	.byte	0
	.byte	0
	.byte	0
	.byte	0
	.byte	0
	.byte	0
	.byte	0
	.byte	0
	.byte	0
	.byte	0
	.byte	0
	.byte	0
	.byte	0
.LCPI92_6:
	.byte	2
	.byte	23
	.byte	28
	.byte	0
	.byte	0
	.byte	0
	.byte	0
	.byte	0
	.byte	0
	.byte	0
	.byte	0
	.byte	0
	.byte	0
	.byte	0
	.byte	0
	.byte	0
	.section	.text.std_io.io.buffer.Buffer.flush,"ax",@progbits
	.p2align	4
	.type	std_io.io.buffer.Buffer.flush,@function
std_io.io.buffer.Buffer.flush:
	pushq	%rbp
	pushq	%r15
	pushq	%r14
	pushq	%r13
	pushq	%r12
	pushq	%rbx
	subq	$120, %rsp
	movq	1032(%rdi), %r15
	movq	$0, 1032(%rdi)
	cmpq	$1025, %r15
	jae	.LBB92_15
	movq	%rdi, %rbx
	movl	(%rdi), %ebp
	movq	$-64, %r12
	xorl	%r13d, %r13d
	jmp	.LBB92_4
	.p2align	4
.LBB92_2:
	callq	rattle_errno@PLT
	cmpl	$4, %eax
	jne	.LBB92_13
	incq	%r12
	cmpq	%r12, %r15
	je	.LBB92_8
.LBB92_4:
	movq	%r15, %r14
	subq	%r13, %r14
	jbe	.LBB92_10
	leaq	4(%rbx), %rax
	leaq	(%rax,%r13), %rsi
	movl	%ebp, %edi
	movq	%r14, %rdx
	callq	write@PLT
	testq	%rax, %rax
	js	.LBB92_2
	je	.LBB92_11
	cmpq	%r14, %rax
	cmovbq	%rax, %r14
	addq	%r14, %r13
	incq	%r12
	cmpq	%r12, %r15
	jne	.LBB92_4
.LBB92_8:
	cmpq	%r13, %r15
	jbe	.LBB92_10
	xorps	%xmm0, %xmm0
	movaps	%xmm0, 16(%rsp)
	movaps	%xmm0, (%rsp)
	movss	.LCPI92_5(%rip), %xmm1
	movl	$4, %eax
	xorps	%xmm3, %xmm3
	xorps	%xmm2, %xmm2
	jmp	.LBB92_14
.LBB92_10:
	movb	$1, %al
	jmp	.LBB92_16
.LBB92_11:
	movaps	.LCPI92_0(%rip), %xmm2
	movaps	%xmm2, 16(%rsp)
	movaps	%xmm2, (%rsp)
	movaps	.LCPI92_1(%rip), %xmm3
	movaps	.LCPI92_2(%rip), %xmm0
	movss	.LCPI92_6(%rip), %xmm1
	xorl	%eax, %eax
	jmp	.LBB92_14
.LBB92_13:
	leaq	32(%rsp), %rdi
	movl	%eax, %esi
	callq	std_io.io.error.Error.from_raw_os_error
	movsd	32(%rsp), %xmm1
	movl	36(%rsp), %eax
	movups	40(%rsp), %xmm0
	movups	56(%rsp), %xmm3
	movups	72(%rsp), %xmm2
	movups	88(%rsp), %xmm4
	movaps	%xmm4, (%rsp)
	movups	104(%rsp), %xmm4
	movaps	%xmm4, 16(%rsp)
.LBB92_14:
	movq	$1, 1040(%rbx)
	movss	%xmm1, 1048(%rbx)
	movl	%eax, 1052(%rbx)
	movups	%xmm0, 1056(%rbx)
	movups	%xmm3, 1072(%rbx)
	movups	%xmm2, 1088(%rbx)
	movaps	(%rsp), %xmm0
	movaps	16(%rsp), %xmm1
	movups	%xmm0, 1104(%rbx)
	movups	%xmm1, 1120(%rbx)
.LBB92_15:
	xorl	%eax, %eax
.LBB92_16:
	addq	$120, %rsp
	popq	%rbx
	popq	%r12
	popq	%r13
	popq	%r14
	popq	%r15
	popq	%rbp
	retq
.Lfunc_end92:
	.size	std_io.io.buffer.Buffer.flush, .Lfunc_end92-std_io.io.buffer.Buffer.flush
	.section	.text.unlikely.core.fmt.formatter.Formatter.write_indented.bf264aed5fa78656,"ax",@progbits
	.p2align	4
	.type	core.fmt.formatter.Formatter.write_indented.bf264aed5fa78656,@function
core.fmt.formatter.Formatter.write_indented.bf264aed5fa78656:
	pushq	%rbp
	pushq	%r15
	pushq	%r14
	pushq	%r13
	pushq	%r12
	pushq	%rbx
	pushq	%rax
	testq	%rdx, %rdx
	je	.LBB93_1
	movq	%rsi, %r14
	movq	%rdi, %r15
	xorl	%ecx, %ecx
	xorl	%ebp, %ebp
	movq	%rdx, (%rsp)
	jmp	.LBB93_3
	.p2align	4
.LBB93_7:
	addq	%r14, %r13
	movb	$1, 1168(%r15)
	movq	%r15, %rdi
	movq	%r13, %rsi
	movq	%r12, %rdx
	callq	core.fmt.formatter.Formatter.write_raw.bf264aed5fa78656
	movq	%rbp, %rcx
	testb	%al, %al
	movq	(%rsp), %rdx
	jne	.LBB93_17
.LBB93_8:
	cmpq	%rdx, %rbp
	je	.LBB93_9
.LBB93_3:
	movq	%rbp, %rax
	incq	%rbp
	cmpb	$10, (%r14,%rax)
	jne	.LBB93_8
	xorl	%r13d, %r13d
	movq	%rbp, %r12
	subq	%rcx, %r12
	cmovaeq	%rcx, %r13
	cmpq	%rax, %rcx
	movq	%rbp, %rcx
	ja	.LBB93_8
	cmpb	$1, 1168(%r15)
	jne	.LBB93_7
	movq	1160(%r15), %rbx
	testq	%rbx, %rbx
	je	.LBB93_7
	.p2align	4
.LBB93_14:
	leaq	.Lstatic.98(%rip), %rsi
	movl	$4, %edx
	movq	%r15, %rdi
	callq	core.fmt.formatter.Formatter.write_raw.bf264aed5fa78656
	testb	%al, %al
	jne	.LBB93_17
	decq	%rbx
	jne	.LBB93_14
	jmp	.LBB93_7
.LBB93_1:
	xorl	%eax, %eax
	jmp	.LBB93_18
.LBB93_9:
	xorl	%eax, %eax
	cmpq	%rdx, %rcx
	movq	%rcx, %r12
	cmovaq	%rax, %r12
	subq	%rcx, %rdx
	cmovbq	%rax, %rdx
	jbe	.LBB93_18
	movq	%rdx, %r13
	cmpb	$1, 1168(%r15)
	jne	.LBB93_12
	movq	1160(%r15), %rbx
	testq	%rbx, %rbx
	je	.LBB93_12
	.p2align	4
.LBB93_16:
	leaq	.Lstatic.98(%rip), %rsi
	movl	$4, %edx
	movq	%r15, %rdi
	callq	core.fmt.formatter.Formatter.write_raw.bf264aed5fa78656
	testb	%al, %al
	jne	.LBB93_17
	decq	%rbx
	jne	.LBB93_16
.LBB93_12:
	addq	%r12, %r14
	movb	$0, 1168(%r15)
	movq	%r15, %rdi
	movq	%r14, %rsi
	movq	%r13, %rdx
	addq	$8, %rsp
	popq	%rbx
	popq	%r12
	popq	%r13
	popq	%r14
	popq	%r15
	popq	%rbp
	jmp	core.fmt.formatter.Formatter.write_raw.bf264aed5fa78656
.LBB93_17:
	movb	$1, %al
.LBB93_18:
	addq	$8, %rsp
	popq	%rbx
	popq	%r12
	popq	%r13
	popq	%r14
	popq	%r15
	popq	%rbp
	retq
.Lfunc_end93:
	.size	core.fmt.formatter.Formatter.write_indented.bf264aed5fa78656, .Lfunc_end93-core.fmt.formatter.Formatter.write_indented.bf264aed5fa78656
	.section	.text.main,"ax",@progbits
	.globl	main
	.p2align	4
	.type	main,@function
main:
	pushq	%r14
	pushq	%rbx
	subq	$2440, %rsp
	movl	$1, %esi
	movl	$13, %edi
	callq	__sysv_signal@PLT
	xorps	%xmm0, %xmm0
	movaps	%xmm0, 96(%rsp)
	movaps	%xmm0, 80(%rsp)
	movaps	%xmm0, 64(%rsp)
	movaps	%xmm0, 48(%rsp)
	movaps	%xmm0, 32(%rsp)
	movaps	%xmm0, 16(%rsp)
	leaq	16(%rsp), %rdi
	leaq	7(%rsp), %rsi
	callq	ic_main.run.fd625e2fe7ce0436
	cmpb	$0, .Lstatic.0(%rip)
	jne	.LBB94_15
	cmpb	$0, 16(%rsp)
	jne	.LBB94_3
	movzbl	17(%rsp), %edi
	cmpb	$0, .Lstatic.0(%rip)
	je	.LBB94_12
.LBB94_15:
	ud2
.LBB94_3:
	leaq	.Lstatic.1(%rip), %rax
	movq	%rax, 8(%rsp)
	movl	$2, 120(%rsp)
	leaq	124(%rsp), %rbx
	movl	$1132, %edx
	movq	%rbx, %rdi
	xorl	%esi, %esi
	callq	memset@PLT
	movl	$32, 1256(%rsp)
	movq	$0, 1260(%rsp)
	movl	$0, 1268(%rsp)
	movq	$-1, 1272(%rsp)
	xorps	%xmm0, %xmm0
	movups	%xmm0, 1280(%rsp)
	movl	1256(%rsp), %eax
	movl	%eax, 1296(%rsp)
	movq	1260(%rsp), %rax
	movq	%rax, 1300(%rsp)
	movl	1268(%rsp), %eax
	movl	%eax, 1308(%rsp)
	movq	$-1, 1312(%rsp)
	movl	$32, 1256(%rsp)
	movq	$0, 1260(%rsp)
	movl	$0, 1268(%rsp)
	leaq	120(%rsp), %rdi
	leaq	8(%rsp), %rsi
	callq	core.fmt.formatter.Formatter.write_piece.bdc4606c8c8e2f5f
	movaps	1296(%rsp), %xmm0
	movups	%xmm0, 1256(%rsp)
	movq	1312(%rsp), %rcx
	movq	%rcx, 1272(%rsp)
	testb	%al, %al
	jne	.LBB94_10
	leaq	1256(%rsp), %r14
	movq	16(%r14), %rax
	movq	%rax, 1312(%rsp)
	movups	(%r14), %xmm0
	movaps	%xmm0, 1296(%rsp)
	movl	$32, 1256(%rsp)
	movl	$0, 12(%r14)
	movq	$0, 4(%r14)
	movq	$-1, 1272(%rsp)
	cmpq	$0, 1280(%rsp)
	je	.LBB94_5
	leaq	.Lstatic.38(%rip), %rsi
	leaq	120(%rsp), %rdi
	movl	$1, %edx
	callq	core.fmt.formatter.Formatter.write_indented.bf264aed5fa78656
.LBB94_9:
	movq	1312(%rsp), %rax
	movq	%rax, 16(%r14)
	movaps	1296(%rsp), %xmm0
	movups	%xmm0, (%r14)
.LBB94_10:
	movl	120(%rsp), %eax
	movl	%eax, 1296(%rsp)
	leaq	1300(%rsp), %rdi
	movl	$1132, %edx
	movq	%rbx, %rsi
	callq	memcpy@PLT
	leaq	1296(%rsp), %rdi
	callq	std_io.io.buffer.Buffer.flush
	movl	$3, %edi
	cmpb	$0, .Lstatic.0(%rip)
	jne	.LBB94_15
.LBB94_12:
	cmpb	$0, .Lstatic.0(%rip)
	jne	.LBB94_15
	cmpb	$0, .Lstatic.0(%rip)
	jne	.LBB94_15
	callq	_exit@PLT
	movzbl	.Lstatic.0(%rip), %eax
	ud2
.LBB94_5:
	movq	1152(%rsp), %rcx
	cmpq	$1024, %rcx
	jb	.LBB94_7
	leaq	120(%rsp), %rdi
	callq	std_io.io.buffer.Buffer.flush
	movq	1152(%rsp), %rcx
	cmpq	$1024, %rcx
	setb	%dl
	andb	%al, %dl
	cmpb	$1, %dl
	jne	.LBB94_9
.LBB94_7:
	movb	$10, 124(%rsp,%rcx)
	incq	%rcx
	movq	%rcx, 1152(%rsp)
	jmp	.LBB94_9
.Lfunc_end94:
	.size	main, .Lfunc_end94-main
	.section	.text.core.scope.entry.5a45c0bf2caea352.thread.called.by.C.0,"ax",@progbits
	.p2align	4
	.type	core.scope.entry.5a45c0bf2caea352.thread.called.by.C.0,@function
core.scope.entry.5a45c0bf2caea352.thread.called.by.C.0:
	pushq	%r15
	pushq	%r14
	pushq	%r13
	pushq	%r12
	pushq	%rbx
	subq	$96, %rsp
	movq	%rdi, %rbx
	xorps	%xmm0, %xmm0
	movaps	%xmm0, (%rsp)
	movq	16(%rdi), %rdx
	movq	24(%rdi), %rsi
	movq	32(%rdi), %rdi
	movq	40(%rbx), %r14
	movups	48(%rbx), %xmm1
	movaps	%xmm1, 32(%rsp)
	movq	64(%rbx), %r15
	movq	72(%rbx), %r9
	movq	96(%rbx), %rcx
	movaps	%xmm0, 16(%rsp)
	movaps	%xmm0, 48(%rsp)
	movaps	%xmm0, 64(%rsp)
	movaps	%xmm0, 80(%rsp)
	testq	%rdi, %rdi
	je	.LBB95_10
	xorl	%r8d, %r8d
	jmp	.LBB95_4
	.p2align	4
.LBB95_2:
	movq	%r9, %r12
.LBB95_3:
	incq	%r8
	movq	%r12, %r9
	cmpq	%r8, %rdi
	je	.LBB95_11
.LBB95_4:
	movq	(%rsi,%r8,8), %r12
	movq	(%rdx), %r10
	#APP
	#NO_APP
	movl	$1, %r11d
	xorl	%eax, %eax
	lock		cmpxchgq	%r11, -8(%r10,%r12)
	#APP
	#NO_APP
	jne	.LBB95_2
	cmpq	$1, -16(%r14,%r12,2)
	jne	.LBB95_2
	movq	%r9, -8(%r14,%r12,2)
	movq	$0, -16(%r14,%r12,2)
	testq	%r9, %r9
	je	.LBB95_9
	movq	%r12, -16(%r14,%r9,2)
	jmp	.LBB95_3
.LBB95_9:
	movq	%r12, %r15
	jmp	.LBB95_3
.LBB95_10:
	movq	%r9, %r12
.LBB95_11:
	leaq	24(%rbx), %r13
	movaps	32(%rsp), %xmm0
	movaps	%xmm0, 16(%rsp)
	#APP
	#NO_APP
	lock		decq	(%rcx)
	#APP
	#NO_APP
	jne	.LBB95_13
	leaq	8(%rcx), %rsi
	#APP
	#NO_APP
	movl	$1, %eax
	xchgq	%rax, 8(%rcx)
	#APP
	#NO_APP
	movl	$202, %edi
	movl	$129, %edx
	movl	$1, %ecx
	xorl	%r8d, %r8d
	xorl	%eax, %eax
	callq	syscall@PLT
.LBB95_13:
	movaps	16(%rsp), %xmm0
	movaps	%xmm0, (%rsp)
	movq	%r14, 16(%rbx)
	movaps	(%rsp), %xmm0
	movups	%xmm0, (%r13)
	movq	%r15, 40(%rbx)
	movq	%r12, 48(%rbx)
	#APP
	#NO_APP
	movl	$1, %eax
	xchgq	%rax, 8(%rbx)
	#APP
	#NO_APP
	testq	%rax, %rax
	je	.LBB95_15
	callq	pthread_self@PLT
	movq	%rax, %rdi
	callq	pthread_detach@PLT
	movq	%rbx, %rdi
	callq	free@PLT
.LBB95_15:
	xorl	%eax, %eax
	addq	$96, %rsp
	popq	%rbx
	popq	%r12
	popq	%r13
	popq	%r14
	popq	%r15
	retq
.Lfunc_end95:
	.size	core.scope.entry.5a45c0bf2caea352.thread.called.by.C.0, .Lfunc_end95-core.scope.entry.5a45c0bf2caea352.thread.called.by.C.0
	.type	.Lstatic.0,@object
	.section	.bss..Lstatic.0,"aw",@nobits
.Lstatic.0:
	.zero	1
	.size	.Lstatic.0, 1
	.type	.Lstatic.1,@object
	.section	.rodata.cst16,"aM",@progbits,16
	.p2align	3, 0x0
.Lstatic.1:
	.asciz	"\003\000\000\000\000\000\000\000\000\000\000\000\000\000\000"
	.size	.Lstatic.1, 16
	.type	.Lstatic.21,@object
	.section	.rodata.cst32,"aM",@progbits,32
.Lstatic.21:
	.ascii	"ok\n                             "
	.size	.Lstatic.21, 32
	.type	.Lstatic.22,@object
.Lstatic.22:
	.ascii	"none\n                           "
	.size	.Lstatic.22, 32
	.type	.Lstatic.23,@object
.Lstatic.23:
	.ascii	"refused 1 NoSuchField\n          "
	.size	.Lstatic.23, 32
	.type	.Lstatic.24,@object
.Lstatic.24:
	.ascii	"refused 2 NoSuchCollection\n     "
	.size	.Lstatic.24, 32
	.type	.Lstatic.25,@object
.Lstatic.25:
	.ascii	"refused 3 NoSuchObject\n         "
	.size	.Lstatic.25, 32
	.type	.Lstatic.26,@object
.Lstatic.26:
	.ascii	"refused 4 WrongKind\n            "
	.size	.Lstatic.26, 32
	.type	.Lstatic.27,@object
.Lstatic.27:
	.ascii	"refused 5 SameCollection\n       "
	.size	.Lstatic.27, 32
	.type	.Lstatic.28,@object
.Lstatic.28:
	.ascii	"refused 6 OtherField\n           "
	.size	.Lstatic.28, 32
	.type	.Lstatic.29,@object
.Lstatic.29:
	.ascii	"refused 7 NothingThere\n         "
	.size	.Lstatic.29, 32
	.type	.Lstatic.30,@object
.Lstatic.30:
	.ascii	"refused 8 NotAMember\n           "
	.size	.Lstatic.30, 32
	.type	.Lstatic.31,@object
.Lstatic.31:
	.ascii	"refused 9 NotANeighbour\n        "
	.size	.Lstatic.31, 32
	.type	.Lstatic.32,@object
.Lstatic.32:
	.ascii	"refused 10 AlreadyLinked\n       "
	.size	.Lstatic.32, 32
	.type	.Lstatic.33,@object
.Lstatic.33:
	.ascii	"refused 11 IsMember\n            "
	.size	.Lstatic.33, 32
	.type	.Lstatic.34,@object
.Lstatic.34:
	.ascii	"refused 12 StillLinked\n         "
	.size	.Lstatic.34, 32
	.type	.Lstatic.35,@object
.Lstatic.35:
	.ascii	"refused 13 TooManyObjects\n      "
	.size	.Lstatic.35, 32
	.type	.Lstatic.36,@object
.Lstatic.36:
	.ascii	"refused 14 OutOfMemory\n         "
	.size	.Lstatic.36, 32
	.type	.Lstatic.37,@object
	.section	.rodata..Lstatic.37,"a",@progbits
.Lstatic.37:
	.ascii	"object "
	.size	.Lstatic.37, 7
	.type	.Lstatic.38,@object
	.section	.rodata..Lstatic.38,"a",@progbits
.Lstatic.38:
	.byte	10
	.size	.Lstatic.38, 1
	.type	.Lstatic.39,@object
	.section	.rodata..Lstatic.39,"a",@progbits
.Lstatic.39:
	.ascii	"00010203040506070809101112131415161718192021222324252627282930313233343536373839404142434445464748495051525354555657585960616263646566676869707172737475767778798081828384858687888990919293949596979899"
	.size	.Lstatic.39, 200
	.type	.Lstatic.43,@object
	.section	.rodata..Lstatic.43,"a",@progbits
.Lstatic.43:
	.ascii	"field "
	.size	.Lstatic.43, 6
	.type	.Lstatic.70,@object
	.section	.rodata..Lstatic.70,"a",@progbits
.Lstatic.70:
	.ascii	"ok\n"
	.size	.Lstatic.70, 3
	.type	.Lstatic.71,@object
	.section	.rodata..Lstatic.71,"a",@progbits
.Lstatic.71:
	.ascii	"none\n"
	.size	.Lstatic.71, 5
	.type	.Lstatic.72,@object
	.section	.rodata..Lstatic.72,"a",@progbits
.Lstatic.72:
	.ascii	"linked\n"
	.size	.Lstatic.72, 7
	.type	.Lstatic.73,@object
	.section	.rodata..Lstatic.73,"a",@progbits
.Lstatic.73:
	.ascii	"unlinked\n"
	.size	.Lstatic.73, 9
	.type	.Lstatic.74,@object
	.section	.rodata..Lstatic.74,"a",@progbits
.Lstatic.74:
	.ascii	"collection "
	.size	.Lstatic.74, 11
	.type	.Lstatic.75,@object
	.section	.rodata..Lstatic.75,"a",@progbits
.Lstatic.75:
	.ascii	"none looks "
	.size	.Lstatic.75, 11
	.type	.Lstatic.76,@object
	.section	.rodata..Lstatic.76,"a",@progbits
.Lstatic.76:
	.ascii	"ok looks "
	.size	.Lstatic.76, 9
	.type	.Lstatic.77,@object
	.section	.rodata.cst16,"aM",@progbits,16
.Lstatic.77:
	.ascii	"occupied object "
	.size	.Lstatic.77, 16
	.type	.Lstatic.78,@object
.Lstatic.78:
	.ascii	"inserted object "
	.size	.Lstatic.78, 16
	.type	.Lstatic.79,@object
	.section	.rodata..Lstatic.79,"a",@progbits
.Lstatic.79:
	.ascii	" looks "
	.size	.Lstatic.79, 7
	.type	.Lstatic.80,@object
	.section	.rodata..Lstatic.80,"a",@progbits
.Lstatic.80:
	.size	.Lstatic.80, 0
	.type	.Lstatic.81,@object
	.section	.rodata..Lstatic.81,"a",@progbits
.Lstatic.81:
	.ascii	"items"
	.size	.Lstatic.81, 5
	.type	.Lstatic.82,@object
	.section	.rodata..Lstatic.82,"a",@progbits
.Lstatic.82:
	.byte	32
	.size	.Lstatic.82, 1
	.type	.Lstatic.84,@object
	.section	.rodata..Lstatic.84,"a",@progbits
.Lstatic.84:
	.ascii	"gave up reading or writing after 2^64 tries"
	.size	.Lstatic.84, 43
	.type	.Lstatic.85,@object
	.section	.rodata..Lstatic.85,"a",@progbits
.Lstatic.85:
	.ascii	"line "
	.size	.Lstatic.85, 5
	.type	.Lstatic.86,@object
	.section	.rodata..Lstatic.86,"a",@progbits
.Lstatic.86:
	.ascii	": no command\n"
	.size	.Lstatic.86, 13
	.type	.Lstatic.88,@object
	.section	.rodata.cst8,"aM",@progbits,8
.Lstatic.88:
	.ascii	"doubles "
	.size	.Lstatic.88, 8
	.type	.Lstatic.89,@object
	.section	.rodata..Lstatic.89,"a",@progbits
.Lstatic.89:
	.ascii	"worker "
	.size	.Lstatic.89, 7
	.type	.Lstatic.90,@object
	.section	.rodata..Lstatic.90,"a",@progbits
.Lstatic.90:
	.ascii	"bad arguments\n"
	.size	.Lstatic.90, 14
	.type	.Lstatic.91,@object
	.section	.rodata..Lstatic.91,"a",@progbits
.Lstatic.91:
	.ascii	"input is not UTF-8, line "
	.size	.Lstatic.91, 25
	.type	.Lstatic.92,@object
	.section	.rodata..Lstatic.92,"a",@progbits
.Lstatic.92:
	.ascii	"cannot read after line "
	.size	.Lstatic.92, 23
	.type	.Lstatic.93,@object
	.section	.rodata..Lstatic.93,"a",@progbits
.Lstatic.93:
	.ascii	"cannot write"
	.size	.Lstatic.93, 12
	.type	.Lstatic.94,@object
	.section	.rodata..Lstatic.94,"a",@progbits
.Lstatic.94:
	.ascii	"out of memory"
	.size	.Lstatic.94, 13
	.type	.Lstatic.98,@object
	.section	.rodata.cst4,"aM",@progbits,4
.Lstatic.98:
	.zero	4,32
	.size	.Lstatic.98, 4
	.section	".note.GNU-stack","",@progbits
