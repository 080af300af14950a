/* Lists, rings, hash tables and a red-black tree over tables of links, with checks, sorts and merges: the calls of ic.h, for x86_64-windows.
   the module of x86_64-linux, for x86_64-pc-windows-gnu
   Licensed under Apache 2.0 or MIT. Made by tools/build-library: do not edit. */
	.globl	ic_version_0_1
ic_version_0_1 = 1
	.def	ic_raw.table.refusal_at_end.feecb86c9dd45d96;
	.scl	3;
	.type	32;
	.endef
	.text
	.p2align	4
ic_raw.table.refusal_at_end.feecb86c9dd45d96:
	subq	$56, %rsp
	movq	%rcx, 40(%rsp)
	movq	%rdx, 48(%rsp)
	leaq	40(%rsp), %rcx
	movl	$-1, %edx
	callq	ic_raw.table.RawTable.refusal.feecb86c9dd45d96
	addq	$56, %rsp
	retq
	.def	ic_raw.table.RawTable.refusal.feecb86c9dd45d96;
	.scl	3;
	.type	32;
	.endef
	.p2align	4
ic_raw.table.RawTable.refusal.feecb86c9dd45d96:
	incl	%edx
	jne	.LBB1_1
.LBB1_3:
	movl	$1, %eax
	incl	%r8d
	je	.LBB1_6
	cmpq	%r8, 8(%rcx)
	jb	.LBB1_6
	movq	(%rcx), %rax
	xorl	%ecx, %ecx
	testb	$1, -8(%rax,%r8,8)
	sete	%cl
	leal	(%rcx,%rcx,2), %eax
	addl	$2, %eax
	retq
.LBB1_1:
	movl	$1, %eax
	cmpq	%rdx, 8(%rcx)
	jb	.LBB1_6
	movq	(%rcx), %r9
	movl	$3, %eax
	testb	$1, -8(%r9,%rdx,8)
	jne	.LBB1_3
.LBB1_6:
	retq
	.def	ic_raw.table.RawTable.refusal_of.feecb86c9dd45d96;
	.scl	3;
	.type	32;
	.endef
	.p2align	4
ic_raw.table.RawTable.refusal_of.feecb86c9dd45d96:
	movq	%r8, %r9
	shrq	$3, %r9
	movl	$1, %eax
	cmpq	%rdx, %r9
	ja	.LBB2_2
	movzbl	-8(%rcx,%r8), %eax
	andl	$1, %eax
	leal	3(,%rax,2), %eax
.LBB2_2:
	retq
	.def	ic_raw.list_calls.splice_slow.55ebd757a04f39fd;
	.scl	3;
	.type	32;
	.endef
	.p2align	4
ic_raw.list_calls.splice_slow.55ebd757a04f39fd:
	pushq	%r15
	pushq	%r14
	pushq	%r13
	pushq	%r12
	pushq	%rsi
	pushq	%rdi
	pushq	%rbp
	pushq	%rbx
	movzbl	112(%rsp), %ebp
	movq	104(%rsp), %rax
	movabsq	$68719476728, %r10
	movq	(%r8), %rdi
	andq	%r10, %rdi
	movq	8(%r8), %rsi
	andq	%r10, %rsi
	movq	(%rax), %r11
	andq	%r10, %r11
	andq	8(%rax), %r10
	leal	1(%r9), %r15d
	leaq	(,%r15,8), %r14
	testl	%r15d, %r15d
	setne	%bl
	je	.LBB3_5
	cmpq	$536870911, %rdx
	movl	$536870911, %r12d
	cmovbq	%rdx, %r12
	cmpq	%r15, %r12
	jb	.LBB3_13
	movl	-8(%rcx,%r14), %r13d
	testb	$1, %r13b
	je	.LBB3_13
	testb	$1, %bpl
	je	.LBB3_4
	movl	-4(%rcx,%r14), %r13d
	movl	$4294967288, %r15d
	andq	%r13, %r15
	je	.LBB3_19
	movq	%r15, %r13
	shrq	$3, %r13
	cmpq	%r12, %r13
	jbe	.LBB3_18
	jmp	.LBB3_13
.LBB3_5:
	testb	$1, %bpl
	je	.LBB3_6
	testq	%rsi, %rsi
	je	.LBB3_19
	cmpq	$536870911, %rdx
	movl	$536870911, %r12d
	cmovbq	%rdx, %r12
	movq	%rsi, %r15
	movq	%r15, %r13
	shrq	$3, %r13
	cmpq	%r12, %r13
	ja	.LBB3_13
.LBB3_18:
	movl	-8(%rcx,%r15), %r13d
	andl	$-7, %r13d
	movq	%r14, %rbp
	orq	$1, %rbp
	movb	$1, %r12b
	cmpq	%r13, %rbp
	jne	.LBB3_13
.LBB3_21:
	testq	%r10, %r10
	je	.LBB3_34
.LBB3_22:
	cmpq	$536870911, %rdx
	movl	$536870911, %r13d
	cmovbq	%rdx, %r13
	movq	%r10, %rbp
	shrq	$3, %rbp
	cmpq	%r13, %rbp
	ja	.LBB3_13
	testq	%r11, %r11
	je	.LBB3_13
	movl	-8(%rcx,%r10), %ebp
	andl	$-7, %ebp
	cmpl	$1, %ebp
	jne	.LBB3_13
	movq	%r11, %rbp
	shrq	$3, %rbp
	cmpq	%r13, %rbp
	ja	.LBB3_13
	testb	$1, -8(%rcx,%r11)
	je	.LBB3_13
	cmpq	%r11, %rdi
	je	.LBB3_13
	cmpl	$7, -4(%rcx,%r11)
	ja	.LBB3_13
	movq	%r11, %rdx
	testb	%r12b, %r12b
	je	.LBB3_31
	movl	%r11d, %edx
	orl	$1, %edx
	movl	%edx, -8(%rcx,%r15)
	movq	%rdi, %rdx
.LBB3_31:
	movq	%r10, %r9
	testb	%bl, %bl
	je	.LBB3_33
	movl	%r10d, -4(%rcx,%r14)
	movq	%rsi, %r9
.LBB3_33:
	xorl	%esi, %esi
	testb	%r12b, %r12b
	cmovel	%esi, %r15d
	incl	%r14d
	testb	%bl, %bl
	movl	$1, %esi
	cmovnel	%r14d, %esi
	movl	%r15d, -4(%rcx,%r11)
	movl	%esi, -8(%rcx,%r10)
	movq	%rdx, %rdi
	movq	%r9, %rsi
	jmp	.LBB3_35
.LBB3_4:
	movl	$4294967288, %r15d
	andq	%r15, %r13
	je	.LBB3_7
	movq	%r13, %r15
	shrq	$3, %r15
	cmpq	%r12, %r15
	jbe	.LBB3_10
	jmp	.LBB3_13
.LBB3_6:
	testq	%rdi, %rdi
	je	.LBB3_7
	cmpq	$536870911, %rdx
	movl	$536870911, %r12d
	cmovbq	%rdx, %r12
	movq	%rdi, %r13
	movq	%r13, %r15
	shrq	$3, %r15
	cmpq	%r12, %r15
	ja	.LBB3_13
.LBB3_10:
	testb	$1, -8(%rcx,%r13)
	je	.LBB3_13
	movl	-4(%rcx,%r13), %ebp
	andl	$-8, %ebp
	movb	$1, %r15b
	jmp	.LBB3_12
.LBB3_19:
	cmpq	%r14, %rdi
	jne	.LBB3_13
	xorl	%r12d, %r12d
	xorl	%r15d, %r15d
	movq	%rdi, %r14
	testq	%r10, %r10
	jne	.LBB3_22
.LBB3_34:
	testq	%r11, %r11
	jne	.LBB3_13
.LBB3_35:
	movq	%rdi, (%r8)
	movq	%rsi, 8(%r8)
	movq	$0, 8(%rax)
	movq	$0, (%rax)
	xorl	%eax, %eax
	popq	%rbx
	popq	%rbp
	popq	%rdi
	popq	%rsi
	popq	%r12
	popq	%r13
	popq	%r14
	popq	%r15
	retq
.LBB3_7:
	xorl	%r15d, %r15d
	xorl	%r13d, %r13d
	movq	%rsi, %rbp
.LBB3_12:
	movl	%ebx, %r12d
	movl	%r15d, %ebx
	cmpq	%r14, %rbp
	movq	%r14, %r15
	movq	%r13, %r14
	je	.LBB3_21
.LBB3_13:
	movl	%r9d, %r8d
	popq	%rbx
	popq	%rbp
	popq	%rdi
	popq	%rsi
	popq	%r12
	popq	%r13
	popq	%r14
	popq	%r15
	jmp	ic_raw.table.RawTable.refusal_at.05a19227735374d3
	.def	ic_raw.table.RawTable.refusal_at.05a19227735374d3;
	.scl	3;
	.type	32;
	.endef
	.p2align	4
ic_raw.table.RawTable.refusal_at.05a19227735374d3:
	movl	$5, %eax
	incl	%r8d
	je	.LBB4_3
	cmpq	$536870911, %rdx
	movl	$536870911, %r9d
	cmovbq	%rdx, %r9
	movl	$1, %eax
	cmpl	%r8d, %r9d
	jb	.LBB4_3
	movzbl	-8(%rcx,%r8,8), %eax
	andl	$1, %eax
	leal	3(,%rax,2), %eax
.LBB4_3:
	retq
	.def	ic_raw.table.RawTable.refusal.05a19227735374d3;
	.scl	3;
	.type	32;
	.endef
	.p2align	4
ic_raw.table.RawTable.refusal.05a19227735374d3:
	cmpq	$536870911, %rdx
	movl	$536870911, %r10d
	cmovbq	%rdx, %r10
	incl	%r8d
	jne	.LBB5_1
.LBB5_3:
	incl	%r9d
	sete	%al
	cmpq	%r9, %r10
	setb	%dl
	orb	%al, %dl
	movl	$1, %eax
	jne	.LBB5_5
	xorl	%eax, %eax
	testb	$1, -8(%rcx,%r9,8)
	sete	%al
	leal	(%rax,%rax,2), %eax
	addl	$2, %eax
	retq
.LBB5_1:
	movl	$1, %eax
	cmpq	%r8, %r10
	jb	.LBB5_5
	movl	$3, %eax
	testb	$1, -8(%rcx,%r8,8)
	jne	.LBB5_3
.LBB5_5:
	retq
	.def	ic_raw.move_calls.move_slow.55ebd757a04f39fd;
	.scl	3;
	.type	32;
	.endef
	.p2align	4
ic_raw.move_calls.move_slow.55ebd757a04f39fd:
	pushq	%r15
	pushq	%r14
	pushq	%r13
	pushq	%r12
	pushq	%rsi
	pushq	%rdi
	pushq	%rbp
	pushq	%rbx
	subq	$16, %rsp
	movl	%r9d, %r10d
	movl	128(%rsp), %r9d
	leal	1(%r9), %r14d
	movl	%r9d, %esi
	movl	$4, %eax
	incl	%esi
	je	.LBB6_44
	movl	120(%rsp), %eax
	movabsq	$68719476728, %rbx
	movq	(%r8), %r11
	andq	%rbx, %r11
	movq	%r8, 8(%rsp)
	andq	8(%r8), %rbx
	leal	1(%rax), %edi
	leaq	(,%rdi,8), %rsi
	testl	%edi, %edi
	setne	%r8b
	je	.LBB6_6
	cmpq	$536870911, %rdx
	movl	$536870911, %r15d
	cmovbq	%rdx, %r15
	cmpq	%rdi, %r15
	jb	.LBB6_14
	movl	-8(%rcx,%rsi), %r12d
	testb	$1, %r12b
	je	.LBB6_14
	testb	$1, %r10b
	je	.LBB6_5
	movl	-4(%rcx,%rsi), %edi
	movl	$4294967288, %r10d
	andq	%rdi, %r10
	je	.LBB6_20
	movq	%r10, %rdi
	shrq	$3, %rdi
	cmpq	%r15, %rdi
	jbe	.LBB6_19
	jmp	.LBB6_14
.LBB6_6:
	testb	$1, %r10b
	je	.LBB6_7
	testq	%rbx, %rbx
	je	.LBB6_20
	cmpq	$536870911, %rdx
	movl	$536870911, %r15d
	cmovbq	%rdx, %r15
	movq	%rbx, %r10
	movq	%r10, %rdi
	shrq	$3, %rdi
	cmpq	%r15, %rdi
	ja	.LBB6_14
.LBB6_19:
	movl	-8(%rcx,%r10), %edi
	andl	$-7, %edi
	movq	%rsi, %r12
	orq	$1, %r12
	movb	$1, %r15b
	cmpq	%rdi, %r12
	je	.LBB6_22
	jmp	.LBB6_14
.LBB6_5:
	movl	$4294967288, %r10d
	andq	%r10, %r12
	je	.LBB6_8
	movq	%r12, %r10
	shrq	$3, %r10
	cmpq	%r15, %r10
	jbe	.LBB6_11
	jmp	.LBB6_14
.LBB6_7:
	testq	%r11, %r11
	je	.LBB6_8
	cmpq	$536870911, %rdx
	movl	$536870911, %r15d
	cmovbq	%rdx, %r15
	movq	%r11, %r12
	movq	%r12, %r10
	shrq	$3, %r10
	cmpq	%r15, %r10
	ja	.LBB6_14
.LBB6_11:
	testb	$1, -8(%rcx,%r12)
	je	.LBB6_14
	movl	-4(%rcx,%r12), %r13d
	andl	$-8, %r13d
	movb	$1, %r10b
	jmp	.LBB6_13
.LBB6_20:
	cmpq	%rsi, %r11
	jne	.LBB6_14
	xorl	%r15d, %r15d
	xorl	%r10d, %r10d
	movq	%r11, %rsi
	jmp	.LBB6_22
.LBB6_8:
	xorl	%r10d, %r10d
	xorl	%r12d, %r12d
	movq	%rbx, %r13
.LBB6_13:
	movl	%r8d, %r15d
	movl	%r10d, %r8d
	cmpq	%rsi, %r13
	movq	%rsi, %r10
	movq	%r12, %rsi
	jne	.LBB6_14
.LBB6_22:
	cmpq	$536870911, %rdx
	movl	$536870911, %ebp
	cmovbq	%rdx, %rbp
	cmpq	%r14, %rbp
	jb	.LBB6_14
	shlq	$3, %r14
	movl	-8(%rcx,%r14), %r13d
	testb	$1, %r13b
	je	.LBB6_14
	movl	-4(%rcx,%r14), %r12d
	andl	$-8, %r12d
	je	.LBB6_27
	movl	%r12d, %edi
	shrl	$3, %edi
	cmpq	%rbp, %rdi
	ja	.LBB6_14
	movl	-8(%rcx,%r12), %edi
	andl	$-7, %edi
	movq	%r9, (%rsp)
	movq	%r12, %r9
	movq	%rbx, %r12
	movq	%r10, %rbx
	movq	%rsi, %r10
	movq	%rax, %rsi
	movq	%r15, %rax
	movl	%r8d, %r15d
	movq	%r11, %r8
	movq	%r14, %r11
	orq	$1, %r11
	cmpq	%rdi, %r11
	movq	%r8, %r11
	movl	%r15d, %r8d
	movq	%rax, %r15
	movq	%rsi, %rax
	movq	%r10, %rsi
	movq	%rbx, %r10
	movq	%r12, %rbx
	movq	%r9, %r12
	movq	(%rsp), %r9
	je	.LBB6_28
	jmp	.LBB6_14
.LBB6_27:
	cmpq	%r14, %r11
	jne	.LBB6_14
.LBB6_28:
	movq	%rbx, %rdi
	andl	$-8, %r13d
	je	.LBB6_32
	movq	%r11, %rdi
	movl	%r13d, %r11d
	shrl	$3, %r11d
	cmpq	%rbp, %r11
	ja	.LBB6_14
	testb	$1, -8(%rcx,%r13)
	je	.LBB6_14
	movq	%rdi, %r11
	movl	-4(%rcx,%r13), %edi
	andl	$-8, %edi
.LBB6_32:
	cmpq	%r14, %rdi
	jne	.LBB6_14
	xorl	%eax, %eax
	testb	%r15b, %r15b
	movq	%r10, %r9
	cmoveq	%rax, %r9
	cmpq	%r14, %r9
	movq	8(%rsp), %rdi
	je	.LBB6_44
	xorl	%eax, %eax
	testb	%r8b, %r8b
	movq	%rsi, %r9
	cmoveq	%rax, %r9
	cmpq	%r14, %r9
	je	.LBB6_44
	movq	%r13, %rax
	testl	%r12d, %r12d
	je	.LBB6_37
	movl	%r13d, %eax
	orl	$1, %eax
	movl	%eax, -8(%rcx,%r12)
	movq	%r11, %rax
.LBB6_37:
	movl	%r8d, %r11d
	testl	%r13d, %r13d
	je	.LBB6_39
	movl	%r12d, -4(%rcx,%r13)
	movq	%rbx, %r12
.LBB6_39:
	movq	%r14, %r8
	testb	%r15b, %r15b
	je	.LBB6_41
	movl	%r14d, %r8d
	orl	$1, %r8d
	movl	%r8d, -8(%rcx,%r10)
	movq	%rax, %r8
.LBB6_41:
	movq	%r14, %r9
	testb	%r11b, %r11b
	je	.LBB6_43
	movl	%r14d, -4(%rcx,%rsi)
	movq	%r12, %r9
.LBB6_43:
	xorl	%eax, %eax
	testb	%r15b, %r15b
	cmovel	%eax, %r10d
	incl	%esi
	testb	%r11b, %r11b
	movl	$1, %r11d
	cmovnel	%esi, %r11d
	movl	%r10d, -4(%rcx,%r14)
	movl	%r11d, -8(%rcx,%r14)
	movq	%r8, (%rdi)
	movq	%r9, 8(%rdi)
.LBB6_44:
	addq	$16, %rsp
	popq	%rbx
	popq	%rbp
	popq	%rdi
	popq	%rsi
	popq	%r12
	popq	%r13
	popq	%r14
	popq	%r15
	retq
.LBB6_14:
	movl	%eax, %r8d
	addq	$16, %rsp
	popq	%rbx
	popq	%rbp
	popq	%rdi
	popq	%rsi
	popq	%r12
	popq	%r13
	popq	%r14
	popq	%r15
	jmp	ic_raw.table.RawTable.refusal_at_both.05a19227735374d3
	.def	ic_raw.table.RawTable.refusal_at_both.05a19227735374d3;
	.scl	3;
	.type	32;
	.endef
	.p2align	4
ic_raw.table.RawTable.refusal_at_both.05a19227735374d3:
	incl	%r8d
	jne	.LBB7_1
.LBB7_3:
	movl	$5, %eax
	incl	%r9d
	je	.LBB7_6
	cmpq	$536870911, %rdx
	movl	$536870911, %r8d
	cmovbq	%rdx, %r8
	movl	$1, %eax
	cmpl	%r9d, %r8d
	jb	.LBB7_6
	movzbl	-8(%rcx,%r9,8), %eax
	andl	$1, %eax
	leal	3(,%rax,2), %eax
	retq
.LBB7_1:
	cmpq	$536870911, %rdx
	movl	$536870911, %r10d
	cmovbq	%rdx, %r10
	movl	$1, %eax
	cmpl	%r8d, %r10d
	jb	.LBB7_6
	movl	$3, %eax
	testb	$1, -8(%rcx,%r8,8)
	jne	.LBB7_3
.LBB7_6:
	retq
	.def	ic_raw.move_calls.move_to_end_slow.55ebd757a04f39fd;
	.scl	3;
	.type	32;
	.endef
	.p2align	4
ic_raw.move_calls.move_to_end_slow.55ebd757a04f39fd:
	pushq	%r14
	pushq	%rsi
	pushq	%rdi
	pushq	%rbx
	subq	$56, %rsp
	movl	128(%rsp), %r10d
	leal	1(%r10), %ebx
	movl	%r10d, %r11d
	movl	$4, %eax
	incl	%r11d
	je	.LBB8_26
	leaq	(,%rbx,8), %rax
	movabsq	$68719476728, %rsi
	movq	(%r8), %r11
	andq	%rsi, %r11
	andq	8(%r8), %rsi
	testb	$1, %r9b
	je	.LBB8_2
	cmpq	%rax, %r11
	jne	.LBB8_27
	cmpq	$536870911, %rdx
	movl	$536870911, %r11d
	cmovbq	%rdx, %r11
	cmpq	%rbx, %r11
	jb	.LBB8_27
	cmpl	$0, -4(%rcx,%rax)
	jne	.LBB8_27
	movl	-8(%rcx,%rax), %ebx
	testb	$1, %bl
	je	.LBB8_27
	movl	$4294967288, %edi
	andq	%rbx, %rdi
	je	.LBB8_27
	shrl	$3, %ebx
	cmpq	%r11, %rbx
	ja	.LBB8_27
	movl	-4(%rcx,%rdi), %ebx
	cmpq	%rbx, %rax
	jne	.LBB8_27
	testq	%rsi, %rsi
	je	.LBB8_27
	testb	$1, -8(%rcx,%rdi)
	je	.LBB8_27
	movq	%rsi, %rbx
	shrq	$3, %rbx
	cmpq	%r11, %rbx
	ja	.LBB8_27
	cmpl	$1, -8(%rcx,%rsi)
	jne	.LBB8_27
	movl	$0, -4(%rcx,%rdi)
	movl	%eax, %edx
	orl	$1, %edx
	movl	%edx, -8(%rcx,%rsi)
	movl	%esi, -4(%rcx,%rax)
	movl	$1, %r11d
	movq	%rax, %rsi
	jmp	.LBB8_25
.LBB8_2:
	cmpq	%rax, %rsi
	jne	.LBB8_27
	cmpq	$536870911, %rdx
	movl	$536870911, %edi
	cmovbq	%rdx, %rdi
	cmpq	%rbx, %rdi
	jb	.LBB8_27
	cmpl	$1, -8(%rcx,%rax)
	jne	.LBB8_27
	movl	-4(%rcx,%rax), %ebx
	movl	$4294967288, %esi
	andq	%rbx, %rsi
	je	.LBB8_27
	shrl	$3, %ebx
	cmpq	%rdi, %rbx
	ja	.LBB8_27
	testq	%r11, %r11
	je	.LBB8_27
	movl	-8(%rcx,%rsi), %ebx
	movq	%rax, %r14
	orq	$1, %r14
	cmpq	%rbx, %r14
	jne	.LBB8_27
	movq	%r11, %rbx
	shrq	$3, %rbx
	cmpq	%rdi, %rbx
	ja	.LBB8_27
	cmpl	$0, -4(%rcx,%r11)
	jne	.LBB8_27
	testb	$1, -8(%rcx,%r11)
	je	.LBB8_27
	movl	$1, -8(%rcx,%rsi)
	movl	%eax, -4(%rcx,%r11)
	movl	$0, -4(%rcx,%rax)
	orl	$1, %r11d
	movq	%rax, %rdi
.LBB8_25:
	movl	%r11d, -8(%rcx,%rax)
	movq	%rdi, (%r8)
	movq	%rsi, 8(%r8)
	xorl	%eax, %eax
	jmp	.LBB8_26
.LBB8_27:
	movl	%r10d, 40(%rsp)
	movl	$-1, 32(%rsp)
	callq	ic_raw.move_calls.move_slow.55ebd757a04f39fd
.LBB8_26:
	addq	$56, %rsp
	popq	%rbx
	popq	%rdi
	popq	%rsi
	popq	%r14
	retq
	.def	ic_raw.list_calls.refusal_to_pop;
	.scl	3;
	.type	32;
	.endef
	.p2align	4
ic_raw.list_calls.refusal_to_pop:
	movzbl	%dl, %eax
	movabsq	$68719476728, %rdx
	andq	(%rcx,%rax,8), %rdx
	cmpq	$1, %rdx
	movl	$5, %eax
	sbbl	$0, %eax
	retq
	.def	ic_raw.list_calls.pop_front_slow.55ebd757a04f39fd;
	.scl	3;
	.type	32;
	.endef
	.p2align	4
ic_raw.list_calls.pop_front_slow.55ebd757a04f39fd:
	pushq	%rsi
	pushq	%rdi
	movabsq	$68719476728, %r10
	movq	(%r8), %rax
	andq	%r10, %rax
	je	.LBB10_12
	cmpq	$536870911, %rdx
	movl	$536870911, %esi
	cmovbq	%rdx, %rsi
	movq	%rax, %rdx
	shrq	$3, %rdx
	cmpq	%rsi, %rdx
	ja	.LBB10_12
	movl	-8(%rcx,%rax), %r11d
	testb	$1, %r11b
	je	.LBB10_12
	cmpl	$7, -4(%rcx,%rax)
	ja	.LBB10_12
	andq	8(%r8), %r10
	movl	$4294967288, %edi
	andq	%rdi, %r11
	je	.LBB10_9
	movl	%r11d, %edi
	shrl	$3, %edi
	cmpq	%rsi, %rdi
	ja	.LBB10_12
	testb	$1, -8(%rcx,%r11)
	je	.LBB10_12
	movl	-4(%rcx,%r11), %esi
	andl	$-8, %esi
	cmpq	%rsi, %rax
	jne	.LBB10_12
	movl	$0, -4(%rcx,%r11)
	jmp	.LBB10_11
.LBB10_9:
	cmpq	%rax, %r10
	jne	.LBB10_12
	xorl	%r10d, %r10d
.LBB10_11:
	movl	$0, -8(%rcx,%rax)
	movq	%r11, (%r8)
	movq	%r10, 8(%r8)
	decl	%edx
	movl	%edx, (%r9)
	xorl	%eax, %eax
	popq	%rdi
	popq	%rsi
	retq
.LBB10_12:
	movq	%r8, %rcx
	xorl	%edx, %edx
	popq	%rdi
	popq	%rsi
	jmp	ic_raw.list_calls.refusal_to_pop
	.def	ic_raw.list_calls.push_back_slow.55ebd757a04f39fd;
	.scl	3;
	.type	32;
	.endef
	.p2align	4
ic_raw.list_calls.push_back_slow.55ebd757a04f39fd:
	pushq	%rsi
	movabsq	$68719476728, %rax
	movq	(%r8), %r10
	andq	%rax, %r10
	andq	8(%r8), %rax
	je	.LBB11_4
	cmpq	$536870911, %rdx
	movl	$536870911, %esi
	cmovbq	%rdx, %rsi
	movq	%rax, %r11
	shrq	$3, %r11
	cmpq	%rsi, %r11
	ja	.LBB11_3
	movl	-8(%rcx,%rax), %r11d
	andl	$-7, %r11d
	cmpl	$1, %r11d
	jne	.LBB11_3
	leal	1(%r9), %r11d
	testq	%r11, %r11
	jne	.LBB11_7
	jmp	.LBB11_3
.LBB11_4:
	testq	%r10, %r10
	jne	.LBB11_3
	cmpq	$536870911, %rdx
	movl	$536870911, %esi
	cmovbq	%rdx, %rsi
	leal	1(%r9), %r11d
	testq	%r11, %r11
	je	.LBB11_3
.LBB11_7:
	cmpq	%r11, %rsi
	jb	.LBB11_3
	shlq	$3, %r11
	testb	$1, -8(%rcx,%r11)
	jne	.LBB11_3
	movq	%r11, %rdx
	testq	%rax, %rax
	je	.LBB11_11
	movl	%r11d, %edx
	orl	$1, %edx
	movl	%edx, -8(%rcx,%rax)
	movq	%r10, %rdx
.LBB11_11:
	movl	%eax, -4(%rcx,%r11)
	movl	$1, -8(%rcx,%r11)
	movq	%rdx, (%r8)
	movq	%r11, 8(%r8)
	xorl	%eax, %eax
	popq	%rsi
	retq
.LBB11_3:
	movl	$-1, %r8d
	popq	%rsi
	jmp	ic_raw.table.RawTable.refusal.05a19227735374d3
	.def	ic_raw.list_calls.remove_slow.55ebd757a04f39fd;
	.scl	3;
	.type	32;
	.endef
	.p2align	4
ic_raw.list_calls.remove_slow.55ebd757a04f39fd:
	pushq	%r15
	pushq	%r14
	pushq	%rsi
	pushq	%rdi
	pushq	%rbx
	leal	1(%r9), %r10d
	movl	%r9d, %r11d
	movl	$4, %eax
	incl	%r11d
	je	.LBB12_18
	cmpq	$536870911, %rdx
	movl	$536870911, %ebx
	cmovbq	%rdx, %rbx
	cmpq	%r10, %rbx
	jb	.LBB12_6
	shlq	$3, %r10
	movl	-8(%rcx,%r10), %eax
	testb	$1, %al
	je	.LBB12_6
	movabsq	$68719476728, %r11
	movq	(%r8), %rdi
	andq	%r11, %rdi
	andq	8(%r8), %r11
	movl	-4(%rcx,%r10), %esi
	andl	$-8, %esi
	je	.LBB12_7
	movl	%esi, %r14d
	shrl	$3, %r14d
	cmpq	%rbx, %r14
	ja	.LBB12_6
	movl	-8(%rcx,%rsi), %r14d
	andl	$-7, %r14d
	movq	%r10, %r15
	orq	$1, %r15
	cmpq	%r14, %r15
	je	.LBB12_8
	jmp	.LBB12_6
.LBB12_7:
	cmpq	%r10, %rdi
	jne	.LBB12_6
.LBB12_8:
	movq	%r11, %r14
	andl	$-8, %eax
	je	.LBB12_12
	movl	%eax, %r14d
	shrl	$3, %r14d
	cmpq	%rbx, %r14
	ja	.LBB12_6
	testb	$1, -8(%rcx,%rax)
	je	.LBB12_6
	movl	-4(%rcx,%rax), %r14d
	andl	$-8, %r14d
.LBB12_12:
	cmpq	%r10, %r14
	jne	.LBB12_6
	movq	%rax, %rdx
	testl	%esi, %esi
	je	.LBB12_15
	movl	%eax, %edx
	orl	$1, %edx
	movl	%edx, -8(%rcx,%rsi)
	movq	%rdi, %rdx
.LBB12_15:
	testl	%eax, %eax
	je	.LBB12_17
	movl	%esi, -4(%rcx,%rax)
	movq	%r11, %rsi
.LBB12_17:
	movl	$0, -8(%rcx,%r10)
	movq	%rdx, (%r8)
	movq	%rsi, 8(%r8)
	xorl	%eax, %eax
.LBB12_18:
	popq	%rbx
	popq	%rdi
	popq	%rsi
	popq	%r14
	popq	%r15
	retq
.LBB12_6:
	movl	%r9d, %r8d
	popq	%rbx
	popq	%rdi
	popq	%rsi
	popq	%r14
	popq	%r15
	jmp	ic_raw.table.RawTable.refusal_at.05a19227735374d3
	.def	ic_raw.list_calls.split_slow.55ebd757a04f39fd;
	.scl	3;
	.type	32;
	.endef
	.p2align	4
ic_raw.list_calls.split_slow.55ebd757a04f39fd:
	pushq	%r15
	pushq	%r14
	pushq	%r13
	pushq	%r12
	pushq	%rsi
	pushq	%rdi
	pushq	%rbx
	movq	96(%rsp), %rax
	movabsq	$68719476728, %r10
	testq	%r10, (%rax)
	jne	.LBB13_34
	testq	%r10, 8(%rax)
	jne	.LBB13_34
	movzbl	104(%rsp), %ebx
	movq	(%r8), %r11
	andq	%r10, %r11
	andq	8(%r8), %r10
	leal	1(%r9), %r15d
	leaq	(,%r15,8), %rdi
	testl	%r15d, %r15d
	setne	%sil
	je	.LBB13_7
	cmpq	$536870911, %rdx
	movl	$536870911, %r12d
	cmovbq	%rdx, %r12
	cmpq	%r15, %r12
	jb	.LBB13_34
	movl	-8(%rcx,%rdi), %r14d
	testb	$1, %r14b
	je	.LBB13_34
	testb	$1, %bl
	je	.LBB13_6
	movl	-4(%rcx,%rdi), %r14d
	movl	$4294967288, %r15d
	andq	%r14, %r15
	je	.LBB13_23
	movq	%r15, %r14
	shrq	$3, %r14
	cmpq	%r12, %r14
	jbe	.LBB13_21
	jmp	.LBB13_34
.LBB13_7:
	testb	$1, %bl
	je	.LBB13_8
	testq	%r10, %r10
	je	.LBB13_23
	cmpq	$536870911, %rdx
	movl	$536870911, %r12d
	cmovbq	%rdx, %r12
	movq	%r10, %r15
	movq	%r15, %r14
	shrq	$3, %r14
	cmpq	%r12, %r14
	ja	.LBB13_34
.LBB13_21:
	movl	-8(%rcx,%r15), %r12d
	andl	$-7, %r12d
	movq	%rdi, %r13
	orq	$1, %r13
	movq	%rdi, %r14
	cmpq	%r12, %r13
	jne	.LBB13_34
	movl	$1, -8(%rcx,%r15)
	testb	%sil, %sil
	je	.LBB13_28
	jmp	.LBB13_29
.LBB13_6:
	movl	$4294967288, %esi
	andq	%rsi, %r14
	je	.LBB13_9
	movq	%r14, %rsi
	shrq	$3, %rsi
	cmpq	%r12, %rsi
	jbe	.LBB13_12
	jmp	.LBB13_34
.LBB13_8:
	testq	%r11, %r11
	je	.LBB13_9
	cmpq	$536870911, %rdx
	movl	$536870911, %r12d
	cmovbq	%rdx, %r12
	movq	%r11, %r14
	movq	%r14, %rsi
	shrq	$3, %rsi
	cmpq	%r12, %rsi
	ja	.LBB13_34
.LBB13_12:
	testb	$1, -8(%rcx,%r14)
	je	.LBB13_34
	movl	-4(%rcx,%r14), %r12d
	andl	$-8, %r12d
	movb	$1, %sil
	cmpq	%rdi, %r12
	je	.LBB13_15
	jmp	.LBB13_34
.LBB13_23:
	cmpq	%rdi, %r11
	jne	.LBB13_34
	xorl	%r15d, %r15d
	movq	%r11, %r14
	jmp	.LBB13_26
.LBB13_9:
	xorl	%esi, %esi
	xorl	%r14d, %r14d
	movq	%r10, %r12
	cmpq	%rdi, %r12
	jne	.LBB13_34
.LBB13_15:
	testq	%r15, %r15
	je	.LBB13_25
	movq	%rdi, %r15
	movl	$1, -8(%rcx,%rdi)
	testb	%sil, %sil
	jne	.LBB13_29
.LBB13_28:
	xorl	%r10d, %r10d
	jmp	.LBB13_30
.LBB13_34:
	movl	%r9d, %r8d
	popq	%rbx
	popq	%rdi
	popq	%rsi
	popq	%r12
	popq	%r13
	popq	%r14
	popq	%r15
	jmp	ic_raw.table.RawTable.refusal_at.05a19227735374d3
.LBB13_25:
	xorl	%r15d, %r15d
.LBB13_26:
	xorl	%r11d, %r11d
	testb	%sil, %sil
	je	.LBB13_28
.LBB13_29:
	movl	$0, -4(%rcx,%r14)
.LBB13_30:
	xorl	%ecx, %ecx
	testb	%sil, %sil
	cmoveq	%rcx, %r14
	cmpb	$1, %bl
	jne	.LBB13_31
	movq	%r14, %rcx
	movq	%r10, %rdx
	jmp	.LBB13_33
.LBB13_31:
	movq	%r11, %rcx
	movq	%r15, %rdx
	movq	%r14, %r11
	movq	%r10, %r15
.LBB13_33:
	movq	%rcx, (%r8)
	movq	%rdx, 8(%r8)
	movq	%r11, (%rax)
	movq	%r15, 8(%rax)
	xorl	%eax, %eax
	popq	%rbx
	popq	%rdi
	popq	%rsi
	popq	%r12
	popq	%r13
	popq	%r14
	popq	%r15
	retq
	.def	ic_raw_lists.transfer_calls.transfer_at.55ebd757a04f39fd;
	.scl	3;
	.type	32;
	.endef
	.p2align	4
ic_raw_lists.transfer_calls.transfer_at.55ebd757a04f39fd:
	pushq	%r15
	pushq	%r14
	pushq	%r13
	pushq	%r12
	pushq	%rsi
	pushq	%rdi
	pushq	%rbp
	pushq	%rbx
	subq	$40, %rsp
	movl	%r9d, %r10d
	movl	160(%rsp), %ebp
	leal	1(%rbp), %r9d
	movl	%ebp, %esi
	movl	$4, %eax
	incl	%esi
	je	.LBB14_46
	movq	152(%rsp), %rax
	movl	144(%rsp), %r11d
	movabsq	$68719476728, %rdi
	movq	(%r8), %r15
	andq	%rdi, %r15
	movq	8(%r8), %rbx
	andq	%rdi, %rbx
	movq	(%rax), %r13
	andq	%rdi, %r13
	movq	%rax, 24(%rsp)
	andq	8(%rax), %rdi
	movq	%r11, 32(%rsp)
	leal	1(%r11), %eax
	leaq	(,%rax,8), %r14
	testl	%eax, %eax
	setne	7(%rsp)
	movq	%rbx, 16(%rsp)
	je	.LBB14_7
	cmpq	$536870911, %rdx
	movl	$536870911, %ebx
	cmovbq	%rdx, %rbx
	cmpq	%rax, %rbx
	jb	.LBB14_15
	movl	-8(%rcx,%r14), %esi
	testb	$1, %sil
	je	.LBB14_15
	testb	$1, %r10b
	je	.LBB14_5
	movl	-4(%rcx,%r14), %eax
	movl	$4294967288, %r10d
	andq	%rax, %r10
	je	.LBB14_21
	movq	%r10, %rax
	shrq	$3, %rax
	cmpq	%rbx, %rax
	jbe	.LBB14_20
	jmp	.LBB14_15
.LBB14_7:
	testb	$1, %r10b
	je	.LBB14_8
	testq	%rbx, %rbx
	je	.LBB14_21
	cmpq	$536870911, %rdx
	movl	$536870911, %ebx
	cmovbq	%rdx, %rbx
	movq	16(%rsp), %r10
	movq	%r10, %rax
	shrq	$3, %rax
	cmpq	%rbx, %rax
	ja	.LBB14_15
.LBB14_20:
	movl	-8(%rcx,%r10), %eax
	andl	$-7, %eax
	movq	%r14, %rsi
	orq	$1, %rsi
	movb	$1, %r11b
	movq	%r11, 8(%rsp)
	cmpq	%rax, %rsi
	je	.LBB14_23
	jmp	.LBB14_15
.LBB14_5:
	movl	$4294967288, %eax
	andq	%rax, %rsi
	jne	.LBB14_11
	xorl	%r10d, %r10d
	xorl	%esi, %esi
	movq	16(%rsp), %rbx
	jmp	.LBB14_14
.LBB14_8:
	testq	%r15, %r15
	je	.LBB14_9
	cmpq	$536870911, %rdx
	movl	$536870911, %ebx
	cmovbq	%rdx, %rbx
	movq	%r15, %rsi
.LBB14_11:
	movq	%rsi, %rax
	shrq	$3, %rax
	cmpq	%rbx, %rax
	ja	.LBB14_15
	testb	$1, -8(%rcx,%rsi)
	je	.LBB14_15
	movl	-4(%rcx,%rsi), %ebx
	andl	$-8, %ebx
	movb	$1, %r10b
	jmp	.LBB14_14
.LBB14_21:
	cmpq	%r14, %r15
	jne	.LBB14_15
	movq	$0, 8(%rsp)
	xorl	%r10d, %r10d
	movq	%r15, %r14
	jmp	.LBB14_23
.LBB14_9:
	xorl	%r10d, %r10d
	xorl	%esi, %esi
.LBB14_14:
	movzbl	7(%rsp), %eax
	movq	%rax, 8(%rsp)
	movb	%r10b, 7(%rsp)
	cmpq	%r14, %rbx
	movq	%r14, %r10
	movq	%rsi, %r14
	jne	.LBB14_15
.LBB14_23:
	cmpq	$536870911, %rdx
	movl	$536870911, %esi
	cmovbq	%rdx, %rsi
	cmpq	%r9, %rsi
	jb	.LBB14_15
	shlq	$3, %r9
	movl	-8(%rcx,%r9), %ebx
	testb	$1, %bl
	je	.LBB14_15
	movl	-4(%rcx,%r9), %r12d
	andl	$-8, %r12d
	je	.LBB14_28
	movl	%r12d, %eax
	shrl	$3, %eax
	cmpq	%rsi, %rax
	ja	.LBB14_15
	movl	-8(%rcx,%r12), %eax
	andl	$-7, %eax
	movq	%r9, %r11
	orq	$1, %r11
	cmpq	%rax, %r11
	je	.LBB14_29
	jmp	.LBB14_15
.LBB14_28:
	cmpq	%r9, %r13
	jne	.LBB14_15
.LBB14_29:
	movq	%rdi, %rax
	andl	$-8, %ebx
	je	.LBB14_33
	movl	%ebx, %eax
	shrl	$3, %eax
	cmpq	%rsi, %rax
	ja	.LBB14_15
	testb	$1, -8(%rcx,%rbx)
	je	.LBB14_15
	movl	-4(%rcx,%rbx), %eax
	andl	$-8, %eax
.LBB14_33:
	cmpq	%r9, %rax
	jne	.LBB14_15
	testq	%r13, %r13
	setne	%al
	cmpq	%r13, %r15
	sete	%r11b
	testb	%r11b, %al
	jne	.LBB14_15
	xorl	%eax, %eax
	cmpb	$0, 8(%rsp)
	cmovneq	%r10, %rax
	cmpq	%r9, %rax
	je	.LBB14_15
	xorl	%eax, %eax
	cmpb	$0, 7(%rsp)
	cmovneq	%r14, %rax
	cmpq	%r9, %rax
	je	.LBB14_15
	movq	%rbx, %rdx
	testl	%r12d, %r12d
	je	.LBB14_39
	movl	%ebx, %eax
	orl	$1, %eax
	movl	%eax, -8(%rcx,%r12)
	movq	%r13, %rdx
.LBB14_39:
	testl	%ebx, %ebx
	je	.LBB14_41
	movl	%r12d, -4(%rcx,%rbx)
	movq	%rdi, %r12
.LBB14_41:
	movq	%r9, %r11
	cmpb	$0, 8(%rsp)
	je	.LBB14_43
	movl	%r9d, %eax
	orl	$1, %eax
	movl	%eax, -8(%rcx,%r10)
	movq	%r15, %r11
.LBB14_43:
	movq	%r9, %rsi
	cmpb	$0, 7(%rsp)
	je	.LBB14_45
	movl	%r9d, -4(%rcx,%r14)
	movq	16(%rsp), %rsi
.LBB14_45:
	xorl	%eax, %eax
	cmpb	$0, 8(%rsp)
	cmovel	%eax, %r10d
	incl	%r14d
	cmpb	$0, 7(%rsp)
	movl	%r10d, -4(%rcx,%r9)
	movl	$1, %r10d
	cmovnel	%r14d, %r10d
	movl	%r10d, -8(%rcx,%r9)
	movq	%r11, (%r8)
	movq	%rsi, 8(%r8)
	movq	24(%rsp), %rcx
	movq	%rdx, (%rcx)
	movq	%r12, 8(%rcx)
.LBB14_46:
	addq	$40, %rsp
	popq	%rbx
	popq	%rbp
	popq	%rdi
	popq	%rsi
	popq	%r12
	popq	%r13
	popq	%r14
	popq	%r15
	retq
.LBB14_15:
	movq	32(%rsp), %r8
	movl	%ebp, %r9d
	addq	$40, %rsp
	popq	%rbx
	popq	%rbp
	popq	%rdi
	popq	%rsi
	popq	%r12
	popq	%r13
	popq	%r14
	popq	%r15
	jmp	ic_raw.table.RawTable.refusal_at_both.05a19227735374d3
	.def	ic_raw.list_calls.splice_slow.5386baa488213e47;
	.scl	3;
	.type	32;
	.endef
	.p2align	4
ic_raw.list_calls.splice_slow.5386baa488213e47:
	pushq	%r15
	pushq	%r14
	pushq	%r13
	pushq	%r12
	pushq	%rsi
	pushq	%rdi
	pushq	%rbp
	pushq	%rbx
	subq	$24, %rsp
	movl	%r9d, %ebp
	movq	%rdx, %r9
	movzbl	136(%rsp), %r10d
	movq	128(%rsp), %rax
	movabsq	$68719476728, %rbx
	movq	(%r8), %rdi
	andq	%rbx, %rdi
	movq	8(%r8), %r13
	andq	%rbx, %r13
	movq	(%rax), %r11
	andq	%rbx, %r11
	movq	8(%rax), %rsi
	andq	%rbx, %rsi
	leal	1(%rbp), %r15d
	leaq	(,%r15,8), %r12
	testl	%r15d, %r15d
	setne	%dl
	je	.LBB15_32
	cmpq	%r15, %r9
	jb	.LBB15_10
	shlq	$4, %r15
	movq	-16(%rcx,%r15), %r14
	testb	$1, %r14b
	je	.LBB15_10
	testb	$1, %r10b
	je	.LBB15_4
	movq	-8(%rcx,%r15), %r15
	andq	%rbx, %r15
	jmp	.LBB15_12
.LBB15_32:
	movq	%rdi, %r14
	movq	%r13, %r15
	testb	$1, %r10b
	je	.LBB15_5
.LBB15_12:
	testq	%r15, %r15
	je	.LBB15_15
	movq	%r15, %r10
	shrq	$3, %r10
	cmpq	%r9, %r10
	ja	.LBB15_10
	leaq	1(%rbx), %r10
	andq	-16(%rcx,%r15,2), %r10
	movq	%rbp, 16(%rsp)
	movq	%r12, %rbp
	orq	$1, %rbp
	movb	$1, %r14b
	movq	%r14, 8(%rsp)
	movb	%dl, 7(%rsp)
	movq	%r12, %r14
	cmpq	%rbp, %r10
	movq	16(%rsp), %rbp
	jne	.LBB15_10
.LBB15_17:
	testq	%rsi, %rsi
	je	.LBB15_30
.LBB15_18:
	movq	%rsi, %r10
	shrq	$3, %r10
	cmpq	%r9, %r10
	ja	.LBB15_10
	testq	%r11, %r11
	je	.LBB15_10
	leaq	1(%rbx), %r10
	andq	-16(%rcx,%rsi,2), %r10
	cmpq	$1, %r10
	jne	.LBB15_10
	movq	%r11, %r10
	shrq	$3, %r10
	cmpq	%r9, %r10
	ja	.LBB15_10
	testb	$1, -16(%rcx,%r11,2)
	je	.LBB15_10
	cmpq	%r11, %rdi
	je	.LBB15_10
	andq	-8(%rcx,%r11,2), %rbx
	jne	.LBB15_10
	movq	%r11, %rbx
	movq	8(%rsp), %r9
	testb	%r9b, %r9b
	je	.LBB15_27
	movq	%r11, %rdx
	orq	$1, %rdx
	movq	%rdx, -16(%rcx,%r15,2)
	movq	%rdi, %rbx
.LBB15_27:
	movq	%rsi, %rdx
	cmpb	$0, 7(%rsp)
	je	.LBB15_29
	movq	%rsi, -8(%rcx,%r14,2)
	movq	%r13, %rdx
.LBB15_29:
	xorl	%r10d, %r10d
	testb	%r9b, %r9b
	cmoveq	%r10, %r15
	incq	%r14
	cmpb	$0, 7(%rsp)
	movq	%r15, -8(%rcx,%r11,2)
	movl	$1, %r9d
	cmovneq	%r14, %r9
	movq	%r9, -16(%rcx,%rsi,2)
	movq	%rdx, %r13
	jmp	.LBB15_31
.LBB15_4:
	andq	%rbx, %r14
.LBB15_5:
	movq	%r13, %r10
	testq	%r14, %r14
	setne	7(%rsp)
	je	.LBB15_9
	movq	%r14, %r10
	shrq	$3, %r10
	cmpq	%r9, %r10
	ja	.LBB15_10
	testb	$1, -16(%rcx,%r14,2)
	je	.LBB15_10
	movq	-8(%rcx,%r14,2), %r10
	andq	%rbx, %r10
.LBB15_9:
	movq	%rdx, 8(%rsp)
	movq	%r12, %r15
	cmpq	%r12, %r10
	je	.LBB15_17
	jmp	.LBB15_10
.LBB15_15:
	cmpq	%r12, %rdi
	jne	.LBB15_10
	movq	$0, 8(%rsp)
	xorl	%r15d, %r15d
	movb	%dl, 7(%rsp)
	movq	%rdi, %r14
	testq	%rsi, %rsi
	jne	.LBB15_18
.LBB15_30:
	movq	%rdi, %rbx
	testq	%r11, %r11
	jne	.LBB15_10
.LBB15_31:
	movq	%rbx, (%r8)
	movq	%r13, 8(%r8)
	movq	$0, 8(%rax)
	movq	$0, (%rax)
	xorl	%eax, %eax
	addq	$24, %rsp
	popq	%rbx
	popq	%rbp
	popq	%rdi
	popq	%rsi
	popq	%r12
	popq	%r13
	popq	%r14
	popq	%r15
	retq
.LBB15_10:
	movq	%r9, %rdx
	movl	%ebp, %r8d
	addq	$24, %rsp
	popq	%rbx
	popq	%rbp
	popq	%rdi
	popq	%rsi
	popq	%r12
	popq	%r13
	popq	%r14
	popq	%r15
	jmp	ic_raw.table.RawTable.refusal_at.85cd03e557136797
	.def	ic_raw.table.RawTable.refusal_at.85cd03e557136797;
	.scl	3;
	.type	32;
	.endef
	.p2align	4
ic_raw.table.RawTable.refusal_at.85cd03e557136797:
	leal	1(%r8), %r9d
	movl	$5, %eax
	incl	%r8d
	je	.LBB16_3
	movl	$1, %eax
	cmpq	%r9, %rdx
	jb	.LBB16_3
	shlq	$4, %r9
	movzbl	-16(%rcx,%r9), %eax
	andl	$1, %eax
	leal	3(,%rax,2), %eax
.LBB16_3:
	retq
	.def	ic_raw.table.RawTable.refusal.85cd03e557136797;
	.scl	3;
	.type	32;
	.endef
	.p2align	4
ic_raw.table.RawTable.refusal.85cd03e557136797:
	leal	1(%r8), %r10d
	incl	%r8d
	jne	.LBB17_1
.LBB17_3:
	incl	%r9d
	sete	%al
	cmpq	%r9, %rdx
	setb	%dl
	orb	%al, %dl
	movl	$1, %eax
	jne	.LBB17_5
	shlq	$4, %r9
	xorl	%eax, %eax
	testb	$1, -16(%rcx,%r9)
	sete	%al
	leal	(%rax,%rax,2), %eax
	addl	$2, %eax
	retq
.LBB17_1:
	movl	$1, %eax
	cmpq	%r10, %rdx
	jb	.LBB17_5
	shlq	$4, %r10
	movl	$3, %eax
	testb	$1, -16(%rcx,%r10)
	jne	.LBB17_3
.LBB17_5:
	retq
	.def	ic_raw.sort_calls.refusal.78cbab63d6c27224;
	.scl	3;
	.type	32;
	.endef
	.p2align	4
ic_raw.sort_calls.refusal.78cbab63d6c27224:
	xorl	%eax, %eax
	cmpq	%rcx, %rdx
	setae	%al
	leal	1(,%rax,4), %eax
	retq
	.def	ic_list_algorithms.merge.merge_runs.6bd71b5c7308988e;
	.scl	3;
	.type	32;
	.endef
	.p2align	4
ic_list_algorithms.merge.merge_runs.6bd71b5c7308988e:
	pushq	%rsi
	pushq	%rdi
	pushq	%rbx
	movq	%r8, %rax
	movabsq	$68719476728, %r8
	movq	(%rdx), %r11
	movq	-8(%r11,%r9), %rsi
	movq	(%rcx), %r10
	cmpq	-8(%r11,%rax), %rsi
	jae	.LBB19_1
	movq	-16(%r10,%r9,2), %r11
	andq	%r8, %r11
	je	.LBB19_7
	movq	%r9, %r10
	movq	%rax, %rsi
	movq	%r11, %r9
	movq	%r10, %rax
	jmp	.LBB19_12
.LBB19_1:
	movq	-16(%r10,%rax,2), %rsi
	andq	%r8, %rsi
	je	.LBB19_6
	movq	%rax, %r10
	jmp	.LBB19_12
	.p2align	4
.LBB19_11:
	movq	%rax, %rbx
	orq	$1, %rbx
	movq	-16(%rdi,%rax,2), %rsi
	movq	%rbx, -16(%rdi,%r11,2)
	andq	%r8, %rsi
	je	.LBB19_13
.LBB19_12:
	movq	%rax, %r11
	movq	%rsi, %rax
	movq	%r9, %rsi
	.p2align	4
.LBB19_8:
	movq	%rsi, %r9
	movq	(%rdx), %rsi
	movq	-8(%rsi,%r9), %rbx
	movq	(%rcx), %rdi
	cmpq	-8(%rsi,%rax), %rbx
	jae	.LBB19_11
	movq	%r9, %rbx
	orq	$1, %rbx
	movq	-16(%rdi,%r9,2), %rsi
	movq	%rbx, -16(%rdi,%r11,2)
	movq	%r9, %r11
	andq	%r8, %rsi
	jne	.LBB19_8
	movq	(%rcx), %rcx
	incq	%rax
	movq	%rax, -16(%rcx,%r9,2)
.LBB19_14:
	movq	%r10, %rax
	popq	%rbx
	popq	%rdi
	popq	%rsi
	retq
.LBB19_7:
	orq	$1, %rax
	movq	%rax, -16(%r10,%r9,2)
	movq	%r9, %rax
	popq	%rbx
	popq	%rdi
	popq	%rsi
	retq
.LBB19_6:
	orq	$1, %r9
	movq	%r9, -16(%r10,%rax,2)
	popq	%rbx
	popq	%rdi
	popq	%rsi
	retq
.LBB19_13:
	movq	(%rcx), %rcx
	incq	%r9
	movq	%r9, -16(%rcx,%rax,2)
	jmp	.LBB19_14
	.def	ic_raw.move_calls.move_slow.5386baa488213e47;
	.scl	3;
	.type	32;
	.endef
	.p2align	4
ic_raw.move_calls.move_slow.5386baa488213e47:
	pushq	%r15
	pushq	%r14
	pushq	%r13
	pushq	%r12
	pushq	%rsi
	pushq	%rdi
	pushq	%rbp
	pushq	%rbx
	subq	$24, %rsp
	movl	%r9d, %r10d
	movl	136(%rsp), %r9d
	leal	1(%r9), %r13d
	movl	%r9d, %r11d
	movl	$4, %eax
	incl	%r11d
	je	.LBB20_42
	movl	128(%rsp), %eax
	movabsq	$68719476728, %r14
	movq	(%r8), %r12
	andq	%r14, %r12
	movq	%r8, 16(%rsp)
	movq	8(%r8), %rdi
	andq	%r14, %rdi
	leal	1(%rax), %esi
	leaq	(,%rsi,8), %r11
	testl	%esi, %esi
	setne	%bpl
	movq	%r12, 8(%rsp)
	je	.LBB20_43
	cmpq	%rsi, %rdx
	jb	.LBB20_11
	shlq	$4, %rsi
	movq	-16(%rcx,%rsi), %rbx
	testb	$1, %bl
	je	.LBB20_11
	testb	$1, %r10b
	je	.LBB20_5
	movq	-8(%rcx,%rsi), %r15
	andq	%r14, %r15
	jmp	.LBB20_13
.LBB20_43:
	movq	%r12, %rbx
	movq	%rdi, %r15
	testb	$1, %r10b
	je	.LBB20_6
.LBB20_13:
	testq	%r15, %r15
	je	.LBB20_16
	movq	%r15, %r10
	shrq	$3, %r10
	cmpq	%rdx, %r10
	ja	.LBB20_11
	leaq	1(%r14), %rsi
	andq	-16(%rcx,%r15,2), %rsi
	movq	%r11, %r12
	orq	$1, %r12
	movb	$1, %r8b
	movb	%bpl, 7(%rsp)
	movq	%r11, %rbx
	cmpq	%r12, %rsi
	je	.LBB20_18
	jmp	.LBB20_11
.LBB20_5:
	andq	%r14, %rbx
.LBB20_6:
	movq	%rdi, %rsi
	testq	%rbx, %rbx
	setne	7(%rsp)
	je	.LBB20_10
	movq	%rbx, %r10
	shrq	$3, %r10
	cmpq	%rdx, %r10
	ja	.LBB20_11
	testb	$1, -16(%rcx,%rbx,2)
	je	.LBB20_11
	movq	-8(%rcx,%rbx,2), %rsi
	andq	%r14, %rsi
.LBB20_10:
	movl	%ebp, %r8d
	movq	%r11, %r15
	cmpq	%r11, %rsi
	jne	.LBB20_11
.LBB20_18:
	cmpq	%r13, %rdx
	jb	.LBB20_11
.LBB20_19:
	movq	%r13, %r10
	shlq	$4, %r10
	movq	-16(%rcx,%r10), %rbp
	testb	$1, %bpl
	je	.LBB20_11
	shlq	$3, %r13
	movq	-8(%rcx,%r10), %rsi
	andq	%r14, %rsi
	je	.LBB20_23
	movq	%rsi, %r12
	shrq	$3, %r12
	cmpq	%rdx, %r12
	ja	.LBB20_11
	leaq	1(%r14), %r12
	andq	-16(%rcx,%rsi,2), %r12
	movq	%r13, %r11
	orq	$1, %r11
	cmpq	%r11, %r12
	je	.LBB20_24
	jmp	.LBB20_11
.LBB20_23:
	cmpq	%r13, 8(%rsp)
	jne	.LBB20_11
.LBB20_24:
	movq	%rdi, %r12
	andq	%r14, %rbp
	je	.LBB20_28
	movq	%rbp, %r11
	shrq	$3, %r11
	cmpq	%rdx, %r11
	ja	.LBB20_11
	testb	$1, -16(%rcx,%rbp,2)
	je	.LBB20_11
	andq	-8(%rcx,%rbp,2), %r14
	movq	%r14, %r12
.LBB20_28:
	cmpq	%r13, %r12
	jne	.LBB20_11
	xorl	%eax, %eax
	testb	%r8b, %r8b
	movq	%r15, %rdx
	cmoveq	%rax, %rdx
	cmpq	%r13, %rdx
	movq	16(%rsp), %r11
	je	.LBB20_42
	xorl	%eax, %eax
	movzbl	7(%rsp), %r14d
	testb	%r14b, %r14b
	movq	%rbx, %r9
	cmoveq	%rax, %r9
	cmpq	%r13, %r9
	je	.LBB20_42
	movq	%rbp, %r9
	testq	%rsi, %rsi
	je	.LBB20_33
	movq	%rbp, %r9
	orq	$1, %r9
	movq	%r9, -16(%rcx,%rsi,2)
	movq	8(%rsp), %r9
.LBB20_33:
	testq	%rbp, %rbp
	je	.LBB20_34
	movq	%rsi, -8(%rcx,%rbp,2)
	movq	%r13, %rsi
	testb	%r8b, %r8b
	je	.LBB20_38
.LBB20_37:
	movq	%r13, %r8
	orq	$1, %r8
	movq	%r8, -16(%rcx,%r15,2)
	movq	%r9, %rsi
.LBB20_38:
	testb	%r14b, %r14b
	je	.LBB20_39
	movq	%r13, -8(%rcx,%rbx,2)
	jmp	.LBB20_41
.LBB20_16:
	cmpq	%r11, 8(%rsp)
	jne	.LBB20_11
	xorl	%r8d, %r8d
	xorl	%r15d, %r15d
	movb	%bpl, 7(%rsp)
	movq	8(%rsp), %rbx
	cmpq	%r13, %rdx
	jae	.LBB20_19
.LBB20_11:
	movl	%eax, %r8d
	addq	$24, %rsp
	popq	%rbx
	popq	%rbp
	popq	%rdi
	popq	%rsi
	popq	%r12
	popq	%r13
	popq	%r14
	popq	%r15
	jmp	ic_raw.table.RawTable.refusal_at_both.85cd03e557136797
.LBB20_34:
	movq	%rsi, %rdi
	movq	%r13, %rsi
	testb	%r8b, %r8b
	jne	.LBB20_37
	jmp	.LBB20_38
.LBB20_39:
	movq	%r13, %rdi
.LBB20_41:
	incq	%rbx
	testb	%r14b, %r14b
	movl	$1, %r8d
	cmovneq	%rbx, %r8
	movq	%rdx, -8(%rcx,%r10)
	movq	%r8, -16(%rcx,%r10)
	movq	%rsi, (%r11)
	movq	%rdi, 8(%r11)
.LBB20_42:
	addq	$24, %rsp
	popq	%rbx
	popq	%rbp
	popq	%rdi
	popq	%rsi
	popq	%r12
	popq	%r13
	popq	%r14
	popq	%r15
	retq
	.def	ic_raw.table.RawTable.refusal_at_both.85cd03e557136797;
	.scl	3;
	.type	32;
	.endef
	.p2align	4
ic_raw.table.RawTable.refusal_at_both.85cd03e557136797:
	leal	1(%r8), %r10d
	incl	%r8d
	jne	.LBB21_1
.LBB21_3:
	leal	1(%r9), %r8d
	movl	$5, %eax
	incl	%r9d
	je	.LBB21_6
	movl	$1, %eax
	cmpq	%r8, %rdx
	jb	.LBB21_6
	shlq	$4, %r8
	movzbl	-16(%rcx,%r8), %eax
	andl	$1, %eax
	leal	3(,%rax,2), %eax
	retq
.LBB21_1:
	movl	$1, %eax
	cmpq	%r10, %rdx
	jb	.LBB21_6
	shlq	$4, %r10
	movl	$3, %eax
	testb	$1, -16(%rcx,%r10)
	jne	.LBB21_3
.LBB21_6:
	retq
	.def	ic_raw.move_calls.move_to_end_slow.5386baa488213e47;
	.scl	3;
	.type	32;
	.endef
	.p2align	4
ic_raw.move_calls.move_to_end_slow.5386baa488213e47:
	pushq	%r14
	pushq	%rsi
	pushq	%rdi
	pushq	%rbx
	subq	$56, %rsp
	movl	128(%rsp), %r11d
	leal	1(%r11), %r10d
	movl	%r11d, %esi
	movl	$4, %eax
	incl	%esi
	je	.LBB22_26
	leaq	(,%r10,8), %rax
	movabsq	$68719476728, %rsi
	movq	(%r8), %rdi
	andq	%rsi, %rdi
	movq	8(%r8), %rbx
	andq	%rsi, %rbx
	testb	$1, %r9b
	je	.LBB22_2
	cmpq	%r10, %rdx
	jb	.LBB22_27
	cmpq	%rax, %rdi
	jne	.LBB22_27
	shlq	$4, %r10
	cmpq	$0, -8(%rcx,%r10)
	jne	.LBB22_27
	movq	-16(%rcx,%r10), %r14
	testb	$1, %r14b
	je	.LBB22_27
	andq	%rsi, %r14
	je	.LBB22_27
	movq	%r14, %rsi
	shrq	$3, %rsi
	cmpq	%rdx, %rsi
	ja	.LBB22_27
	cmpq	%rax, -8(%rcx,%r14,2)
	jne	.LBB22_27
	testq	%rbx, %rbx
	je	.LBB22_27
	testb	$1, -16(%rcx,%r14,2)
	je	.LBB22_27
	movq	%rbx, %rsi
	shrq	$3, %rsi
	cmpq	%rdx, %rsi
	ja	.LBB22_27
	cmpq	$1, -16(%rcx,%rbx,2)
	jne	.LBB22_27
	movq	$0, -8(%rcx,%r14,2)
	movq	%rax, %rdx
	orq	$1, %rdx
	movq	%rdx, -16(%rcx,%rbx,2)
	movq	%rbx, -8(%rcx,%r10)
	movl	$1, %edi
	movq	%rax, %rsi
	jmp	.LBB22_25
.LBB22_2:
	cmpq	%rax, %rbx
	jne	.LBB22_27
	cmpq	%r10, %rdx
	jb	.LBB22_27
	shlq	$4, %r10
	cmpq	$1, -16(%rcx,%r10)
	jne	.LBB22_27
	andq	-8(%rcx,%r10), %rsi
	je	.LBB22_27
	movq	%rsi, %rbx
	shrq	$3, %rbx
	cmpq	%rdx, %rbx
	ja	.LBB22_27
	movq	%rax, %rbx
	orq	$1, %rbx
	cmpq	%rbx, -16(%rcx,%rsi,2)
	jne	.LBB22_27
	testq	%rdi, %rdi
	je	.LBB22_27
	movq	%rdi, %rbx
	shrq	$3, %rbx
	cmpq	%rdx, %rbx
	ja	.LBB22_27
	cmpq	$0, -8(%rcx,%rdi,2)
	jne	.LBB22_27
	testb	$1, -16(%rcx,%rdi,2)
	je	.LBB22_27
	movq	$1, -16(%rcx,%rsi,2)
	movq	%rax, -8(%rcx,%rdi,2)
	movq	$0, -8(%rcx,%r10)
	orq	$1, %rdi
	movq	%rax, %r14
.LBB22_25:
	movq	%rdi, -16(%rcx,%r10)
	movq	%r14, (%r8)
	movq	%rsi, 8(%r8)
	xorl	%eax, %eax
	jmp	.LBB22_26
.LBB22_27:
	movl	%r11d, 40(%rsp)
	movl	$-1, 32(%rsp)
	callq	ic_raw.move_calls.move_slow.5386baa488213e47
.LBB22_26:
	addq	$56, %rsp
	popq	%rbx
	popq	%rdi
	popq	%rsi
	popq	%r14
	retq
	.def	ic_raw.list_calls.pop_front_slow.5386baa488213e47;
	.scl	3;
	.type	32;
	.endef
	.p2align	4
ic_raw.list_calls.pop_front_slow.5386baa488213e47:
	pushq	%rsi
	pushq	%rdi
	pushq	%rbx
	movabsq	$68719476728, %rsi
	movq	(%r8), %rax
	andq	%rsi, %rax
	je	.LBB23_12
	movq	%rax, %r10
	shrq	$3, %r10
	cmpq	%rdx, %r10
	ja	.LBB23_12
	movq	-16(%rcx,%rax,2), %r11
	testb	$1, %r11b
	je	.LBB23_12
	testq	%rsi, -8(%rcx,%rax,2)
	jne	.LBB23_12
	movq	8(%r8), %rdi
	andq	%rsi, %rdi
	andq	%rsi, %r11
	je	.LBB23_9
	movq	%r11, %rbx
	shrq	$3, %rbx
	cmpq	%rdx, %rbx
	ja	.LBB23_12
	testb	$1, -16(%rcx,%r11,2)
	je	.LBB23_12
	andq	-8(%rcx,%r11,2), %rsi
	cmpq	%rax, %rsi
	jne	.LBB23_12
	movq	$0, -8(%rcx,%r11,2)
	jmp	.LBB23_11
.LBB23_9:
	cmpq	%rax, %rdi
	jne	.LBB23_12
	xorl	%edi, %edi
.LBB23_11:
	movq	$0, -16(%rcx,%rax,2)
	movq	%r11, (%r8)
	movq	%rdi, 8(%r8)
	decl	%r10d
	movl	%r10d, (%r9)
	xorl	%eax, %eax
	popq	%rbx
	popq	%rdi
	popq	%rsi
	retq
.LBB23_12:
	movq	%r8, %rcx
	xorl	%edx, %edx
	popq	%rbx
	popq	%rdi
	popq	%rsi
	jmp	ic_raw.list_calls.refusal_to_pop
	.def	ic_raw.list_calls.push_back_slow.5386baa488213e47;
	.scl	3;
	.type	32;
	.endef
	.p2align	4
ic_raw.list_calls.push_back_slow.5386baa488213e47:
	pushq	%rsi
	movabsq	$68719476728, %r11
	movq	(%r8), %rax
	andq	%r11, %rax
	movq	8(%r8), %r10
	andq	%r11, %r10
	je	.LBB24_4
	movq	%r10, %rsi
	shrq	$3, %rsi
	cmpq	%rdx, %rsi
	ja	.LBB24_3
	incq	%r11
	andq	-16(%rcx,%r10,2), %r11
	cmpq	$1, %r11
	je	.LBB24_5
	jmp	.LBB24_3
.LBB24_4:
	testq	%rax, %rax
	jne	.LBB24_3
.LBB24_5:
	leal	1(%r9), %r11d
	testq	%r11, %r11
	je	.LBB24_3
	cmpq	%r11, %rdx
	jb	.LBB24_3
	movq	%r11, %rsi
	shlq	$4, %rsi
	testb	$1, -16(%rcx,%rsi)
	jne	.LBB24_3
	shlq	$3, %r11
	movq	%r11, %rdx
	testq	%r10, %r10
	je	.LBB24_10
	movq	%r11, %rdx
	orq	$1, %rdx
	movq	%rdx, -16(%rcx,%r10,2)
	movq	%rax, %rdx
.LBB24_10:
	movq	%r10, -8(%rcx,%rsi)
	movq	$1, -16(%rcx,%rsi)
	movq	%rdx, (%r8)
	movq	%r11, 8(%r8)
	xorl	%eax, %eax
	popq	%rsi
	retq
.LBB24_3:
	movl	$-1, %r8d
	popq	%rsi
	jmp	ic_raw.table.RawTable.refusal.85cd03e557136797
	.def	ic_raw.list_calls.remove_slow.5386baa488213e47;
	.scl	3;
	.type	32;
	.endef
	.p2align	4
ic_raw.list_calls.remove_slow.5386baa488213e47:
	pushq	%r15
	pushq	%r14
	pushq	%r12
	pushq	%rsi
	pushq	%rdi
	pushq	%rbx
	leal	1(%r9), %r11d
	movl	%r9d, %r10d
	movl	$4, %eax
	incl	%r10d
	je	.LBB25_19
	cmpq	%r11, %rdx
	jb	.LBB25_6
	movq	%r11, %rax
	shlq	$4, %rax
	movq	-16(%rcx,%rax), %r10
	testb	$1, %r10b
	je	.LBB25_6
	shlq	$3, %r11
	movabsq	$68719476728, %r14
	movq	(%r8), %rbx
	andq	%r14, %rbx
	movq	8(%r8), %rsi
	andq	%r14, %rsi
	movq	-8(%rcx,%rax), %rdi
	andq	%r14, %rdi
	je	.LBB25_7
	movq	%rdi, %r15
	shrq	$3, %r15
	cmpq	%rdx, %r15
	ja	.LBB25_6
	leaq	1(%r14), %r15
	andq	-16(%rcx,%rdi,2), %r15
	movq	%r11, %r12
	orq	$1, %r12
	cmpq	%r12, %r15
	je	.LBB25_8
	jmp	.LBB25_6
.LBB25_7:
	cmpq	%r11, %rbx
	jne	.LBB25_6
.LBB25_8:
	movq	%rsi, %r15
	andq	%r14, %r10
	je	.LBB25_12
	movq	%r10, %r15
	shrq	$3, %r15
	cmpq	%rdx, %r15
	ja	.LBB25_6
	testb	$1, -16(%rcx,%r10,2)
	je	.LBB25_6
	andq	-8(%rcx,%r10,2), %r14
	movq	%r14, %r15
.LBB25_12:
	cmpq	%r11, %r15
	jne	.LBB25_6
	movq	%r10, %rdx
	testq	%rdi, %rdi
	je	.LBB25_15
	movq	%r10, %rdx
	orq	$1, %rdx
	movq	%rdx, -16(%rcx,%rdi,2)
	movq	%rbx, %rdx
.LBB25_15:
	testq	%r10, %r10
	je	.LBB25_16
	movq	%rdi, -8(%rcx,%r10,2)
	jmp	.LBB25_18
.LBB25_6:
	movl	%r9d, %r8d
	popq	%rbx
	popq	%rdi
	popq	%rsi
	popq	%r12
	popq	%r14
	popq	%r15
	jmp	ic_raw.table.RawTable.refusal_at.85cd03e557136797
.LBB25_16:
	movq	%rdi, %rsi
.LBB25_18:
	movq	$0, -16(%rcx,%rax)
	movq	%rdx, (%r8)
	movq	%rsi, 8(%r8)
	xorl	%eax, %eax
.LBB25_19:
	popq	%rbx
	popq	%rdi
	popq	%rsi
	popq	%r12
	popq	%r14
	popq	%r15
	retq
	.def	ic_list_algorithms.sort.sort_front.6bd71b5c7308988e;
	.scl	3;
	.type	32;
	.endef
	.p2align	4
ic_list_algorithms.sort.sort_front.6bd71b5c7308988e:
	pushq	%r15
	pushq	%r14
	pushq	%r12
	pushq	%rsi
	pushq	%rdi
	pushq	%rbx
	subq	$88, %rsp
	movq	%rcx, %rsi
	movq	176(%rsp), %rbx
	testq	%rbx, %rbx
	je	.LBB26_10
	cmpq	$1, %rbx
	jne	.LBB26_7
	movabsq	$68719476728, %rdi
	movq	(%rdx), %rcx
	movq	-16(%rcx,%r9,2), %rax
	movq	$1, -16(%rcx,%r9,2)
	andq	%rdi, %rax
	je	.LBB26_5
	movq	(%rdx), %rcx
	xorl	%ebx, %ebx
	andq	-16(%rcx,%rax,2), %rdi
	setne	%bl
	movq	$1, -16(%rcx,%rax,2)
	movq	%rdx, %rcx
	movq	%r8, %rdx
	movq	%r9, %r8
	movq	%rax, %r9
	callq	ic_list_algorithms.merge.merge_runs.6bd71b5c7308988e
	movq	%rax, (%rsi)
	movq	%rbx, 8(%rsi)
	movq	%rdi, 16(%rsi)
	jmp	.LBB26_4
.LBB26_10:
	movq	(%rdx), %rax
	movabsq	$68719476728, %rcx
	xorl	%edx, %edx
	andq	-16(%rax,%r9,2), %rcx
	setne	%dl
	movq	$1, -16(%rax,%r9,2)
	movq	%r9, (%rsi)
	movq	%rdx, 8(%rsi)
	movq	%rcx, 16(%rsi)
	jmp	.LBB26_4
.LBB26_7:
	decq	%rbx
	movq	%rbx, 32(%rsp)
	leaq	64(%rsp), %rcx
	movq	%rdx, %r15
	movq	%r8, %r14
	callq	ic_list_algorithms.sort.sort_front.6bd71b5c7308988e
	movq	64(%rsp), %rdi
	cmpb	$1, 72(%rsp)
	jne	.LBB26_9
	movq	80(%rsp), %r9
	movq	%rbx, 32(%rsp)
	leaq	40(%rsp), %rcx
	movq	%r15, %rbx
	movq	%r15, %rdx
	movq	%r14, %r8
	callq	ic_list_algorithms.sort.sort_front.6bd71b5c7308988e
	movzbl	48(%rsp), %r15d
	movq	40(%rsp), %r9
	movq	56(%rsp), %r12
	movq	%rbx, %rcx
	movq	%r14, %rdx
	movq	%rdi, %r8
	callq	ic_list_algorithms.merge.merge_runs.6bd71b5c7308988e
	movq	%rax, (%rsi)
	movq	%r15, 8(%rsi)
	movq	%r12, 16(%rsi)
	jmp	.LBB26_4
.LBB26_9:
	movq	%rdi, (%rsi)
	jmp	.LBB26_6
.LBB26_5:
	movq	%r9, (%rsi)
.LBB26_6:
	movq	$0, 8(%rsi)
	movq	$0, 16(%rsi)
.LBB26_4:
	addq	$88, %rsp
	popq	%rbx
	popq	%rdi
	popq	%rsi
	popq	%r12
	popq	%r14
	popq	%r15
	retq
	.def	ic_raw.list_calls.split_slow.5386baa488213e47;
	.scl	3;
	.type	32;
	.endef
	.p2align	4
ic_raw.list_calls.split_slow.5386baa488213e47:
	pushq	%r15
	pushq	%r14
	pushq	%r13
	pushq	%r12
	pushq	%rsi
	pushq	%rdi
	pushq	%rbx
	movq	96(%rsp), %rax
	movabsq	$68719476728, %r14
	testq	%r14, (%rax)
	jne	.LBB27_30
	testq	%r14, 8(%rax)
	jne	.LBB27_30
	movzbl	104(%rsp), %r11d
	movq	(%r8), %r10
	andq	%r14, %r10
	movq	8(%r8), %rsi
	andq	%r14, %rsi
	leal	1(%r9), %r13d
	leaq	(,%r13,8), %r12
	testl	%r13d, %r13d
	setne	%bl
	je	.LBB27_31
	cmpq	%r13, %rdx
	jb	.LBB27_30
	movq	%r13, %r15
	shlq	$4, %r15
	movq	-16(%rcx,%r15), %rdi
	testb	$1, %dil
	je	.LBB27_30
	testb	$1, %r11b
	je	.LBB27_6
	movq	-8(%rcx,%r15), %r15
	andq	%r14, %r15
	jmp	.LBB27_15
.LBB27_31:
	movq	%r10, %rdi
	movq	%rsi, %r15
	testb	$1, %r11b
	je	.LBB27_7
.LBB27_15:
	testq	%r15, %r15
	je	.LBB27_19
	movq	%r15, %rdi
	shrq	$3, %rdi
	cmpq	%rdx, %rdi
	ja	.LBB27_30
	incq	%r14
	andq	-16(%rcx,%r15,2), %r14
	movq	%r12, %r13
	orq	$1, %r13
	movq	%r12, %rdi
	cmpq	%r13, %r14
	jne	.LBB27_30
	movq	$1, -16(%rcx,%r15,2)
	testb	%bl, %bl
	jne	.LBB27_25
	jmp	.LBB27_24
.LBB27_6:
	andq	%r14, %rdi
.LBB27_7:
	movq	%rsi, %r15
	testq	%rdi, %rdi
	setne	%bl
	je	.LBB27_11
	movq	%rdi, %r15
	shrq	$3, %r15
	cmpq	%rdx, %r15
	ja	.LBB27_30
	testb	$1, -16(%rcx,%rdi,2)
	je	.LBB27_30
	andq	-8(%rcx,%rdi,2), %r14
	movq	%r14, %r15
.LBB27_11:
	cmpq	%r12, %r15
	jne	.LBB27_30
	testq	%r13, %r13
	je	.LBB27_21
	movq	%r12, %r15
	movq	$1, -16(%rcx,%r12,2)
	testb	%bl, %bl
	jne	.LBB27_25
.LBB27_24:
	xorl	%edi, %edi
	xorl	%esi, %esi
	cmpb	$1, %r11b
	je	.LBB27_28
.LBB27_27:
	movq	%r10, %rcx
	movq	%r15, %rdx
	movq	%rdi, %r10
	movq	%rsi, %r15
	jmp	.LBB27_29
.LBB27_19:
	cmpq	%r12, %r10
	jne	.LBB27_30
	xorl	%r15d, %r15d
	movq	%r10, %rdi
	xorl	%r10d, %r10d
	testb	%bl, %bl
	jne	.LBB27_25
	jmp	.LBB27_24
.LBB27_30:
	movl	%r9d, %r8d
	popq	%rbx
	popq	%rdi
	popq	%rsi
	popq	%r12
	popq	%r13
	popq	%r14
	popq	%r15
	jmp	ic_raw.table.RawTable.refusal_at.85cd03e557136797
.LBB27_21:
	xorl	%r15d, %r15d
	xorl	%r10d, %r10d
	testb	%bl, %bl
	je	.LBB27_24
.LBB27_25:
	movq	$0, -8(%rcx,%rdi,2)
	cmpb	$1, %r11b
	jne	.LBB27_27
.LBB27_28:
	movq	%rdi, %rcx
	movq	%rsi, %rdx
.LBB27_29:
	movq	%rcx, (%r8)
	movq	%rdx, 8(%r8)
	movq	%r10, (%rax)
	movq	%r15, 8(%rax)
	xorl	%eax, %eax
	popq	%rbx
	popq	%rdi
	popq	%rsi
	popq	%r12
	popq	%r13
	popq	%r14
	popq	%r15
	retq
	.def	ic_raw_lists.transfer_calls.transfer_at.5386baa488213e47;
	.scl	3;
	.type	32;
	.endef
	.p2align	4
ic_raw_lists.transfer_calls.transfer_at.5386baa488213e47:
	pushq	%r15
	pushq	%r14
	pushq	%r13
	pushq	%r12
	pushq	%rsi
	pushq	%rdi
	pushq	%rbp
	pushq	%rbx
	subq	$48, %rsp
	movl	%r9d, %r10d
	movl	168(%rsp), %r9d
	leal	1(%r9), %r12d
	movl	%r9d, %r11d
	movl	$4, %eax
	incl	%r11d
	je	.LBB28_43
	movq	160(%rsp), %rax
	movl	152(%rsp), %r11d
	movabsq	$68719476728, %r13
	movq	(%r8), %r14
	andq	%r13, %r14
	movq	%r8, 24(%rsp)
	movq	8(%r8), %rsi
	andq	%r13, %rsi
	movq	(%rax), %r15
	andq	%r13, %r15
	movq	%rax, 32(%rsp)
	movq	8(%rax), %r8
	andq	%r13, %r8
	movq	%r11, 40(%rsp)
	leal	1(%r11), %ebp
	leaq	(,%rbp,8), %rbx
	testl	%ebp, %ebp
	setne	%al
	je	.LBB28_44
	cmpq	%rbp, %rdx
	jb	.LBB28_11
	shlq	$4, %rbp
	movq	-16(%rcx,%rbp), %rdi
	testb	$1, %dil
	je	.LBB28_11
	testb	$1, %r10b
	je	.LBB28_5
	movq	-8(%rcx,%rbp), %r11
	andq	%r13, %r11
	jmp	.LBB28_13
.LBB28_44:
	movq	%r14, %rdi
	movq	%rsi, %r11
	testb	$1, %r10b
	je	.LBB28_6
.LBB28_13:
	testq	%r11, %r11
	je	.LBB28_16
	movq	%r11, %r10
	movq	%r11, (%rsp)
	shrq	$3, %r10
	cmpq	%rdx, %r10
	ja	.LBB28_11
	leaq	1(%r13), %r10
	movq	(%rsp), %r11
	andq	-16(%rcx,%r11,2), %r10
	movq	%rbx, %r11
	orq	$1, %r11
	movb	$1, %dil
	movq	%rdi, 8(%rsp)
	movl	%eax, %ebp
	movq	%rbx, %rdi
	cmpq	%r11, %r10
	je	.LBB28_18
	jmp	.LBB28_11
.LBB28_5:
	andq	%r13, %rdi
.LBB28_6:
	movq	%rsi, %r10
	testq	%rdi, %rdi
	setne	%bpl
	je	.LBB28_10
	movq	%rdi, %r10
	shrq	$3, %r10
	cmpq	%rdx, %r10
	ja	.LBB28_11
	testb	$1, -16(%rcx,%rdi,2)
	je	.LBB28_11
	movq	-8(%rcx,%rdi,2), %r10
	andq	%r13, %r10
.LBB28_10:
	movq	%rax, 8(%rsp)
	movq	%rbx, (%rsp)
	cmpq	%rbx, %r10
	jne	.LBB28_11
.LBB28_18:
	cmpq	%r12, %rdx
	jb	.LBB28_11
.LBB28_19:
	movq	%r12, %rax
	shlq	$4, %rax
	movq	-16(%rcx,%rax), %r10
	testb	$1, %r10b
	je	.LBB28_11
	shlq	$3, %r12
	movq	-8(%rcx,%rax), %rbx
	andq	%r13, %rbx
	je	.LBB28_23
	movq	%rbx, %r11
	shrq	$3, %r11
	cmpq	%rdx, %r11
	ja	.LBB28_11
	leaq	1(%r13), %r11
	andq	-16(%rcx,%rbx,2), %r11
	movq	%rdx, 16(%rsp)
	movq	%rdi, %rdx
	movq	%r15, %rdi
	movl	%ebp, %r15d
	movq	%r8, %rbp
	movq	%r14, %r8
	movq	%rsi, %r14
	movq	%r12, %rsi
	orq	$1, %rsi
	cmpq	%rsi, %r11
	movq	%r14, %rsi
	movq	%r8, %r14
	movq	%rbp, %r8
	movl	%r15d, %ebp
	movq	%rdi, %r15
	movq	%rdx, %rdi
	movq	16(%rsp), %rdx
	je	.LBB28_24
	jmp	.LBB28_11
.LBB28_23:
	cmpq	%r12, %r15
	jne	.LBB28_11
.LBB28_24:
	movq	%r8, %r11
	andq	%r13, %r10
	je	.LBB28_28
	movq	%r10, %r11
	shrq	$3, %r11
	cmpq	%rdx, %r11
	ja	.LBB28_11
	testb	$1, -16(%rcx,%r10,2)
	je	.LBB28_11
	andq	-8(%rcx,%r10,2), %r13
	movq	%r13, %r11
.LBB28_28:
	cmpq	%r12, %r11
	jne	.LBB28_11
	testq	%r15, %r15
	setne	%r11b
	cmpq	%r15, %r14
	movq	%r8, %r13
	movq	%r14, %r8
	movq	%rsi, %r14
	sete	%sil
	testb	%sil, %r11b
	jne	.LBB28_11
	movq	%r14, %rsi
	movq	%r8, %r14
	movq	%r13, %r8
	xorl	%r13d, %r13d
	cmpb	$0, 8(%rsp)
	cmovneq	(%rsp), %r13
	cmpq	%r12, %r13
	je	.LBB28_11
	xorl	%r11d, %r11d
	testb	%bpl, %bpl
	cmovneq	%rdi, %r11
	cmpq	%r12, %r11
	je	.LBB28_11
	movq	%r10, %rdx
	testq	%rbx, %rbx
	je	.LBB28_34
	movq	%r10, %rdx
	orq	$1, %rdx
	movq	%rdx, -16(%rcx,%rbx,2)
	movq	%r15, %rdx
.LBB28_34:
	testq	%r10, %r10
	je	.LBB28_35
	movq	%rbx, -8(%rcx,%r10,2)
	movq	%r12, %r10
	cmpb	$0, 8(%rsp)
	je	.LBB28_39
.LBB28_38:
	movq	%r12, %r10
	orq	$1, %r10
	movq	(%rsp), %r9
	movq	%r10, -16(%rcx,%r9,2)
	movq	%r14, %r10
.LBB28_39:
	testb	%bpl, %bpl
	je	.LBB28_40
	movq	%r12, -8(%rcx,%rdi,2)
	jmp	.LBB28_42
.LBB28_35:
	movq	%rbx, %r8
	movq	%r12, %r10
	cmpb	$0, 8(%rsp)
	jne	.LBB28_38
	jmp	.LBB28_39
.LBB28_40:
	movq	%r12, %rsi
.LBB28_42:
	incq	%rdi
	testb	%bpl, %bpl
	movq	%r13, -8(%rcx,%rax)
	movl	$1, %r9d
	cmovneq	%rdi, %r9
	movq	%r9, -16(%rcx,%rax)
	movq	24(%rsp), %rax
	movq	%r10, (%rax)
	movq	%rsi, 8(%rax)
	movq	32(%rsp), %rax
	movq	%rdx, (%rax)
	movq	%r8, 8(%rax)
	xorl	%eax, %eax
.LBB28_43:
	addq	$48, %rsp
	popq	%rbx
	popq	%rbp
	popq	%rdi
	popq	%rsi
	popq	%r12
	popq	%r13
	popq	%r14
	popq	%r15
	retq
.LBB28_16:
	cmpq	%rbx, %r14
	jne	.LBB28_11
	movq	$0, 8(%rsp)
	movq	$0, (%rsp)
	movl	%eax, %ebp
	movq	%r14, %rdi
	cmpq	%r12, %rdx
	jae	.LBB28_19
.LBB28_11:
	movq	40(%rsp), %r8
	addq	$48, %rsp
	popq	%rbx
	popq	%rbp
	popq	%rdi
	popq	%rsi
	popq	%r12
	popq	%r13
	popq	%r14
	popq	%r15
	jmp	ic_raw.table.RawTable.refusal_at_both.85cd03e557136797
	.def	ic_raw.table.refusal_at_end.05a19227735374d3;
	.scl	3;
	.type	32;
	.endef
	.p2align	4
ic_raw.table.refusal_at_end.05a19227735374d3:
	movl	%r8d, %r9d
	movl	$-1, %r8d
	jmp	ic_raw.table.RawTable.refusal.05a19227735374d3
	.def	ic_raw.ring_calls.move_beside.5b268f449b4ebf83;
	.scl	3;
	.type	32;
	.endef
	.p2align	4
ic_raw.ring_calls.move_beside.5b268f449b4ebf83:
	pushq	%r15
	pushq	%r14
	pushq	%rsi
	pushq	%rdi
	pushq	%rbx
	leal	1(%r9), %r15d
	movl	%r9d, %r10d
	movl	$4, %eax
	incl	%r10d
	je	.LBB30_27
	movl	80(%rsp), %r10d
	leal	1(%r10), %r11d
	movl	%r10d, %esi
	incl	%esi
	je	.LBB30_27
	cmpq	$536870911, %rdx
	movl	$536870911, %ebx
	cmovbq	%rdx, %rbx
	cmpq	%r11, %rbx
	jb	.LBB30_20
	shlq	$3, %r11
	movl	-8(%rcx,%r11), %esi
	testb	$1, %sil
	je	.LBB30_20
	movl	-4(%rcx,%r11), %edi
	andl	$-8, %edi
	je	.LBB30_20
	movl	%edi, %eax
	shrl	$3, %eax
	cmpq	%rbx, %rax
	ja	.LBB30_20
	movl	-8(%rcx,%rdi), %eax
	testb	$1, %al
	je	.LBB30_20
	andl	$-8, %eax
	cmpq	%rax, %r11
	jne	.LBB30_20
	andl	$-8, %esi
	je	.LBB30_20
	movl	%esi, %eax
	shrl	$3, %eax
	cmpq	%rbx, %rax
	ja	.LBB30_20
	testb	$1, -8(%rcx,%rsi)
	je	.LBB30_20
	movl	-4(%rcx,%rsi), %eax
	andl	$-8, %eax
	cmpq	%rax, %r11
	jne	.LBB30_20
	leaq	(,%r15,8), %r14
	xorl	%eax, %eax
	cmpq	%r11, %r14
	je	.LBB30_27
	cmpq	%r15, %rbx
	jb	.LBB30_20
	movl	-8(%rcx,%r14), %r15d
	testb	$1, %r15b
	je	.LBB30_20
	testb	$1, %r8b
	je	.LBB30_16
	movl	-4(%rcx,%r14), %r15d
	movl	$4294967288, %r8d
	andq	%r15, %r8
	je	.LBB30_20
	shrl	$3, %r15d
	cmpq	%rbx, %r15
	ja	.LBB30_20
	movl	-8(%rcx,%r8), %r15d
	testb	$1, %r15b
	je	.LBB30_20
	andl	$-8, %r15d
	movq	%r8, %rbx
	cmpq	%r15, %r14
	je	.LBB30_25
	jmp	.LBB30_20
.LBB30_16:
	movl	$4294967288, %r8d
	andq	%r15, %r8
	je	.LBB30_20
	shrl	$3, %r15d
	cmpq	%rbx, %r15
	ja	.LBB30_20
	testb	$1, -8(%rcx,%r8)
	je	.LBB30_20
	movl	-4(%rcx,%r8), %ebx
	andl	$-8, %ebx
	cmpq	%rbx, %r14
	movq	%r14, %rbx
	movq	%r8, %r14
	jne	.LBB30_20
.LBB30_25:
	cmpq	%r11, %r8
	je	.LBB30_27
	movl	%esi, %edx
	orl	$1, %edx
	movl	%edx, -8(%rcx,%rdi)
	movl	%edi, -4(%rcx,%rsi)
	movl	%ebx, -4(%rcx,%r11)
	movl	%r14d, %edx
	orl	$1, %edx
	movl	%edx, -8(%rcx,%r11)
	movl	%r11d, %edx
	orl	$1, %edx
	movl	%edx, -8(%rcx,%rbx)
	movl	%r11d, -4(%rcx,%r14)
.LBB30_27:
	popq	%rbx
	popq	%rdi
	popq	%rsi
	popq	%r14
	popq	%r15
	retq
.LBB30_20:
	movl	%r9d, %r8d
	movl	%r10d, %r9d
	popq	%rbx
	popq	%rdi
	popq	%rsi
	popq	%r14
	popq	%r15
	jmp	ic_raw.table.RawTable.refusal_at_both.05a19227735374d3
	.def	ic_raw.ring_calls.pop.5b268f449b4ebf83;
	.scl	3;
	.type	32;
	.endef
	.p2align	4
ic_raw.ring_calls.pop.5b268f449b4ebf83:
	pushq	%rsi
	subq	$48, %rsp
	leal	1(%r9), %r11d
	movl	$4, %eax
	incl	%r9d
	je	.LBB31_25
	movq	%rdx, %r10
	leaq	(,%r11,8), %rdx
	movq	%rcx, 32(%rsp)
	movq	%r10, 40(%rsp)
	cmpq	$536870911, %r10
	movl	$536870911, %r9d
	cmovbq	%r10, %r9
	cmpq	%r11, %r9
	jb	.LBB31_26
	movl	-8(%rcx,%rdx), %r10d
	testb	$1, %r10b
	je	.LBB31_26
	testb	$1, %r8b
	je	.LBB31_4
	movl	-4(%rcx,%rdx), %r8d
	movl	$4294967288, %eax
	andq	%r8, %rax
	je	.LBB31_26
	shrl	$3, %r8d
	cmpq	%r9, %r8
	ja	.LBB31_26
	movl	-8(%rcx,%rax), %r8d
	testb	$1, %r8b
	je	.LBB31_26
	movl	%r8d, %r10d
	andl	$-8, %r10d
	cmpq	%r10, %rdx
	je	.LBB31_13
	jmp	.LBB31_26
.LBB31_4:
	movl	$4294967288, %eax
	andq	%r10, %rax
	je	.LBB31_26
	shrl	$3, %r10d
	cmpq	%r9, %r10
	ja	.LBB31_26
	movl	-8(%rcx,%rax), %r8d
	testb	$1, %r8b
	je	.LBB31_26
	movl	-4(%rcx,%rax), %r10d
	andl	$-8, %r10d
	cmpq	%r10, %rdx
	jne	.LBB31_26
.LBB31_13:
	cmpq	%rdx, %rax
	je	.LBB31_26
	movl	%eax, %r10d
	shrl	$3, %r10d
	cmpq	%r9, %r10
	ja	.LBB31_26
	testb	$1, %r8b
	je	.LBB31_26
	movl	-4(%rcx,%rax), %r11d
	andl	$-8, %r11d
	je	.LBB31_26
	movl	%r11d, %esi
	shrl	$3, %esi
	cmpq	%r9, %rsi
	ja	.LBB31_26
	movl	-8(%rcx,%r11), %esi
	testb	$1, %sil
	je	.LBB31_26
	andl	$-8, %esi
	cmpl	%esi, %eax
	jne	.LBB31_26
	movl	%r8d, %esi
	andl	$-8, %esi
	je	.LBB31_26
	shrl	$3, %r8d
	cmpq	%r9, %r8
	ja	.LBB31_26
	testb	$1, -8(%rcx,%rsi)
	je	.LBB31_26
	movl	-4(%rcx,%rsi), %r8d
	andl	$-8, %r8d
	cmpl	%r8d, %eax
	jne	.LBB31_26
	movq	96(%rsp), %rdx
	movl	%esi, %r8d
	orl	$1, %r8d
	movl	%r8d, -8(%rcx,%r11)
	movl	%r11d, -4(%rcx,%rsi)
	movl	$0, -8(%rcx,%rax)
	decl	%r10d
	movl	%r10d, (%rdx)
	xorl	%eax, %eax
.LBB31_25:
	addq	$48, %rsp
	popq	%rsi
	retq
.LBB31_26:
	leaq	32(%rsp), %rcx
	callq	ic_raw.ring_calls.refusal_to_pop.5b268f449b4ebf83
	addq	$48, %rsp
	popq	%rsi
	retq
	.def	ic_raw.ring_calls.refusal_to_pop.5b268f449b4ebf83;
	.scl	3;
	.type	32;
	.endef
	.p2align	4
ic_raw.ring_calls.refusal_to_pop.5b268f449b4ebf83:
	movq	8(%rcx), %rax
	movq	%rdx, %r8
	shrq	$3, %r8
	cmpq	$536870911, %rax
	movl	$536870911, %r9d
	cmovbq	%rax, %r9
	cmpq	%r9, %r8
	ja	ic_raw.table.RawTable.refusal_of.05a19227735374d3
	movq	(%rcx), %rax
	movl	-8(%rax,%rdx), %r8d
	testb	$1, %r8b
	je	ic_raw.table.RawTable.refusal_of.05a19227735374d3
	andl	$-8, %r8d
	cmpq	%r8, %rdx
	jne	ic_raw.table.RawTable.refusal_of.05a19227735374d3
	movl	-4(%rax,%rdx), %eax
	andl	$-8, %eax
	cmpq	%rax, %rdx
	jne	ic_raw.table.RawTable.refusal_of.05a19227735374d3
	movl	$4, %eax
	retq
	.def	ic_raw.table.RawTable.refusal_of.05a19227735374d3;
	.scl	3;
	.type	32;
	.endef
	.p2align	4
ic_raw.table.RawTable.refusal_of.05a19227735374d3:
	movq	8(%rcx), %rax
	movq	%rdx, %r8
	shrq	$3, %r8
	cmpq	$536870911, %rax
	movl	$536870911, %r9d
	cmovbq	%rax, %r9
	movl	$1, %eax
	cmpq	%r9, %r8
	ja	.LBB33_2
	movq	(%rcx), %rax
	movzbl	-8(%rax,%rdx), %eax
	andl	$1, %eax
	leal	3(,%rax,2), %eax
.LBB33_2:
	retq
	.def	ic_raw.ring_calls.splice.5b268f449b4ebf83;
	.scl	3;
	.type	32;
	.endef
	.p2align	4
ic_raw.ring_calls.splice.5b268f449b4ebf83:
	pushq	%r14
	pushq	%rsi
	pushq	%rdi
	pushq	%rbx
	leal	1(%r9), %esi
	movl	%r9d, %r10d
	movl	$4, %eax
	incl	%r10d
	je	.LBB34_28
	movl	72(%rsp), %r10d
	leal	1(%r10), %r11d
	movl	%r10d, %edi
	incl	%edi
	jne	.LBB34_2
.LBB34_28:
	popq	%rbx
	popq	%rdi
	popq	%rsi
	popq	%r14
	retq
.LBB34_2:
	cmpq	$536870911, %rdx
	movl	$536870911, %eax
	cmovbq	%rdx, %rax
	cmpq	%r11, %rax
	jb	.LBB34_29
	shlq	$3, %r11
	movl	-8(%rcx,%r11), %edi
	testb	$1, %dil
	je	.LBB34_29
	movl	-4(%rcx,%r11), %ebx
	andl	$-8, %ebx
	je	.LBB34_29
	movl	%ebx, %r14d
	shrl	$3, %r14d
	cmpq	%rax, %r14
	ja	.LBB34_29
	movl	-8(%rcx,%rbx), %r14d
	testb	$1, %r14b
	je	.LBB34_29
	andl	$-8, %r14d
	cmpq	%r14, %r11
	jne	.LBB34_29
	andl	$-8, %edi
	je	.LBB34_29
	movl	%edi, %r14d
	shrl	$3, %r14d
	cmpq	%rax, %r14
	ja	.LBB34_29
	testb	$1, -8(%rcx,%rdi)
	je	.LBB34_29
	movl	-4(%rcx,%rdi), %r14d
	andl	$-8, %r14d
	cmpq	%r14, %r11
	jne	.LBB34_29
	cmpq	%rsi, %rax
	jb	.LBB34_29
	shlq	$3, %rsi
	movl	-8(%rcx,%rsi), %r14d
	testb	$1, %r14b
	je	.LBB34_29
	testb	$1, %r8b
	je	.LBB34_15
	movl	-4(%rcx,%rsi), %r8d
	movl	$4294967288, %r14d
	andq	%r8, %r14
	je	.LBB34_29
	shrl	$3, %r8d
	cmpq	%rax, %r8
	ja	.LBB34_29
	movl	-8(%rcx,%r14), %eax
	testb	$1, %al
	je	.LBB34_29
	andl	$-8, %eax
	movq	%rsi, %r8
	jmp	.LBB34_23
.LBB34_15:
	movl	$4294967288, %r8d
	andq	%r14, %r8
	je	.LBB34_29
	shrl	$3, %r14d
	cmpq	%rax, %r14
	ja	.LBB34_29
	testb	$1, -8(%rcx,%r8)
	je	.LBB34_29
	movl	-4(%rcx,%r8), %eax
	andl	$-8, %eax
	movq	%rsi, %r14
.LBB34_23:
	cmpq	%rax, %rsi
	jne	.LBB34_29
	cmpq	%r11, %r14
	je	.LBB34_29
	cmpq	%rbx, %r14
	je	.LBB34_29
	xorl	%eax, %eax
	cmpq	%rbx, %r11
	je	.LBB34_28
	movl	%edi, %edx
	orl	$1, %edx
	movl	%edx, -8(%rcx,%r14)
	movl	%r14d, -4(%rcx,%rdi)
	movl	%r8d, %edx
	orl	$1, %edx
	movl	%edx, -8(%rcx,%rbx)
	movl	%ebx, -4(%rcx,%r8)
	movl	%r11d, -4(%rcx,%r11)
	movl	%r11d, %edx
	orl	$1, %edx
	movl	%edx, -8(%rcx,%r11)
	jmp	.LBB34_28
.LBB34_29:
	movl	%r9d, %r8d
	movl	%r10d, %r9d
	popq	%rbx
	popq	%rdi
	popq	%rsi
	popq	%r14
	jmp	ic_raw.table.RawTable.refusal_at_both.05a19227735374d3
	.def	ic_raw.table.RawTable.refusal_of.5f318a721acb0238;
	.scl	3;
	.type	32;
	.endef
	.p2align	4
ic_raw.table.RawTable.refusal_of.5f318a721acb0238:
	movq	%r8, %r9
	shrq	$3, %r9
	movl	$1, %eax
	cmpq	%rdx, %r9
	ja	.LBB35_2
	movzbl	-16(%rcx,%r8,2), %eax
	andl	$1, %eax
	leal	3(,%rax,2), %eax
.LBB35_2:
	retq
	.def	ic_raw.table.refusal_at_end.85cd03e557136797;
	.scl	3;
	.type	32;
	.endef
	.p2align	4
ic_raw.table.refusal_at_end.85cd03e557136797:
	movl	%r8d, %r9d
	movl	$-1, %r8d
	jmp	ic_raw.table.RawTable.refusal.85cd03e557136797
	.def	ic_raw_lists.ring_sort_calls.refusal_at_both;
	.scl	3;
	.type	32;
	.endef
	.p2align	4
ic_raw_lists.ring_sort_calls.refusal_at_both:
	movq	%r8, %r10
	shrq	$3, %r10
	movl	$1, %eax
	cmpq	8(%rcx), %r10
	ja	.LBB37_2
	movq	(%rcx), %r10
	movl	$3, %eax
	testb	$1, -16(%r10,%r8,2)
	jne	.LBB37_3
.LBB37_2:
	retq
.LBB37_3:
	movq	%r9, %r8
	jmp	ic_raw_lists.ring_sort_calls.refusal_at
	.def	ic_raw_lists.ring_sort_calls.refusal_at;
	.scl	3;
	.type	32;
	.endef
	.p2align	4
ic_raw_lists.ring_sort_calls.refusal_at:
	movq	%rcx, %r9
	movq	8(%rcx), %rcx
	movq	%r8, %r10
	shrq	$3, %r10
	movl	$1, %eax
	cmpq	%rcx, %r10
	ja	.LBB38_2
	movq	(%r9), %r9
	movl	$3, %eax
	testb	$1, -16(%r9,%r8,2)
	jne	ic_raw.sort_calls.refusal.5f318a721acb0238
.LBB38_2:
	retq
	.def	ic_raw.sort_calls.refusal.5f318a721acb0238;
	.scl	3;
	.type	32;
	.endef
	.p2align	4
ic_raw.sort_calls.refusal.5f318a721acb0238:
	xorl	%eax, %eax
	cmpq	%rcx, %rdx
	setae	%al
	leal	1(,%rax,4), %eax
	retq
	.def	ic_list_algorithms.merge.merge_runs.e8da022ef74ca9e6;
	.scl	3;
	.type	32;
	.endef
	.p2align	4
ic_list_algorithms.merge.merge_runs.e8da022ef74ca9e6:
	pushq	%rsi
	pushq	%rdi
	pushq	%rbx
	movq	%r8, %rax
	movabsq	$68719476728, %r8
	movq	(%rdx), %r11
	movq	-8(%r11,%r9), %rsi
	movq	(%rcx), %r10
	cmpq	-8(%r11,%rax), %rsi
	jae	.LBB40_1
	movq	-16(%r10,%r9,2), %r11
	andq	%r8, %r11
	je	.LBB40_7
	movq	%r9, %r10
	movq	%rax, %rsi
	movq	%r11, %r9
	movq	%r10, %rax
	jmp	.LBB40_12
.LBB40_1:
	movq	-16(%r10,%rax,2), %rsi
	andq	%r8, %rsi
	je	.LBB40_6
	movq	%rax, %r10
	jmp	.LBB40_12
	.p2align	4
.LBB40_11:
	movq	%rax, %rbx
	orq	$1, %rbx
	movq	-16(%rdi,%rax,2), %rsi
	movq	%rbx, -16(%rdi,%r11,2)
	andq	%r8, %rsi
	je	.LBB40_13
.LBB40_12:
	movq	%rax, %r11
	movq	%rsi, %rax
	movq	%r9, %rsi
	.p2align	4
.LBB40_8:
	movq	%rsi, %r9
	movq	(%rdx), %rsi
	movq	-8(%rsi,%r9), %rbx
	movq	(%rcx), %rdi
	cmpq	-8(%rsi,%rax), %rbx
	jae	.LBB40_11
	movq	%r9, %rbx
	orq	$1, %rbx
	movq	-16(%rdi,%r9,2), %rsi
	movq	%rbx, -16(%rdi,%r11,2)
	movq	%r9, %r11
	andq	%r8, %rsi
	jne	.LBB40_8
	movq	(%rcx), %rcx
	incq	%rax
	movq	%rax, -16(%rcx,%r9,2)
.LBB40_14:
	movq	%r10, %rax
	popq	%rbx
	popq	%rdi
	popq	%rsi
	retq
.LBB40_7:
	orq	$1, %rax
	movq	%rax, -16(%r10,%r9,2)
	movq	%r9, %rax
	popq	%rbx
	popq	%rdi
	popq	%rsi
	retq
.LBB40_6:
	orq	$1, %r9
	movq	%r9, -16(%r10,%rax,2)
	popq	%rbx
	popq	%rdi
	popq	%rsi
	retq
.LBB40_13:
	movq	(%rcx), %rcx
	incq	%r9
	movq	%r9, -16(%rcx,%rax,2)
	jmp	.LBB40_14
	.def	ic_raw.ring_calls.move_beside.354f48d5d890d6b4;
	.scl	3;
	.type	32;
	.endef
	.p2align	4
ic_raw.ring_calls.move_beside.354f48d5d890d6b4:
	pushq	%r15
	pushq	%r14
	pushq	%r13
	pushq	%r12
	pushq	%rsi
	pushq	%rdi
	pushq	%rbx
	leal	1(%r9), %r15d
	movl	%r9d, %r10d
	movl	$4, %eax
	incl	%r10d
	je	.LBB41_27
	movl	96(%rsp), %r10d
	leal	1(%r10), %r11d
	movl	%r10d, %esi
	incl	%esi
	je	.LBB41_27
	cmpq	%r11, %rdx
	jb	.LBB41_20
	movq	%r11, %rsi
	shlq	$4, %rsi
	movq	-16(%rcx,%rsi), %rdi
	testb	$1, %dil
	je	.LBB41_20
	movabsq	$68719476728, %r14
	movq	-8(%rcx,%rsi), %rbx
	andq	%r14, %rbx
	je	.LBB41_20
	movq	%rbx, %rax
	shrq	$3, %rax
	cmpq	%rdx, %rax
	ja	.LBB41_20
	movq	-16(%rcx,%rbx,2), %rax
	testb	$1, %al
	je	.LBB41_20
	shlq	$3, %r11
	andq	%r14, %rax
	cmpq	%r11, %rax
	jne	.LBB41_20
	andq	%r14, %rdi
	je	.LBB41_20
	movq	%rdi, %rax
	shrq	$3, %rax
	cmpq	%rdx, %rax
	ja	.LBB41_20
	testb	$1, -16(%rcx,%rdi,2)
	je	.LBB41_20
	movq	-8(%rcx,%rdi,2), %rax
	andq	%r14, %rax
	cmpq	%r11, %rax
	jne	.LBB41_20
	leaq	(,%r15,8), %r12
	xorl	%eax, %eax
	cmpq	%r11, %r12
	je	.LBB41_27
	cmpq	%r15, %rdx
	jb	.LBB41_20
	shlq	$4, %r15
	movq	-16(%rcx,%r15), %r13
	testb	$1, %r13b
	je	.LBB41_20
	testb	$1, %r8b
	je	.LBB41_16
	movq	-8(%rcx,%r15), %r13
	andq	%r14, %r13
	je	.LBB41_20
	movq	%r13, %r8
	shrq	$3, %r8
	cmpq	%rdx, %r8
	ja	.LBB41_20
	movq	-16(%rcx,%r13,2), %r15
	testb	$1, %r15b
	je	.LBB41_20
	andq	%r14, %r15
	movq	%r13, %r8
	cmpq	%r12, %r15
	je	.LBB41_25
	jmp	.LBB41_20
.LBB41_16:
	andq	%r14, %r13
	je	.LBB41_20
	movq	%r13, %r8
	shrq	$3, %r8
	cmpq	%rdx, %r8
	ja	.LBB41_20
	testb	$1, -16(%rcx,%r13,2)
	je	.LBB41_20
	andq	-8(%rcx,%r13,2), %r14
	cmpq	%r12, %r14
	movq	%r12, %r8
	movq	%r13, %r12
	jne	.LBB41_20
.LBB41_25:
	cmpq	%r11, %r13
	je	.LBB41_27
	movq	%rdi, %rdx
	orq	$1, %rdx
	movq	%rdx, -16(%rcx,%rbx,2)
	movq	%rbx, -8(%rcx,%rdi,2)
	movq	%r8, -8(%rcx,%rsi)
	movq	%r12, %rdx
	orq	$1, %rdx
	movq	%rdx, -16(%rcx,%rsi)
	movq	%r11, %rdx
	orq	$1, %rdx
	movq	%rdx, -16(%rcx,%r8,2)
	movq	%r11, -8(%rcx,%r12,2)
.LBB41_27:
	popq	%rbx
	popq	%rdi
	popq	%rsi
	popq	%r12
	popq	%r13
	popq	%r14
	popq	%r15
	retq
.LBB41_20:
	movl	%r9d, %r8d
	movl	%r10d, %r9d
	popq	%rbx
	popq	%rdi
	popq	%rsi
	popq	%r12
	popq	%r13
	popq	%r14
	popq	%r15
	jmp	ic_raw.table.RawTable.refusal_at_both.85cd03e557136797
	.def	ic_raw.ring_calls.pop.354f48d5d890d6b4;
	.scl	3;
	.type	32;
	.endef
	.p2align	4
ic_raw.ring_calls.pop.354f48d5d890d6b4:
	pushq	%rsi
	pushq	%rdi
	subq	$56, %rsp
	leal	1(%r9), %r11d
	movl	$4, %eax
	incl	%r9d
	je	.LBB42_24
	movq	%rdx, %r10
	leaq	(,%r11,8), %rdx
	movq	%rcx, 40(%rsp)
	movq	%r10, 48(%rsp)
	cmpq	%r11, %r10
	jb	.LBB42_25
	shlq	$4, %r11
	movq	-16(%rcx,%r11), %rax
	testb	$1, %al
	je	.LBB42_25
	movabsq	$68719476728, %r9
	testb	$1, %r8b
	je	.LBB42_4
	movq	-8(%rcx,%r11), %rax
	andq	%r9, %rax
	je	.LBB42_25
	movq	%rax, %r8
	shrq	$3, %r8
	cmpq	%r10, %r8
	ja	.LBB42_25
	movq	-16(%rcx,%rax,2), %r11
	testb	$1, %r11b
	je	.LBB42_25
	andq	%r9, %r11
	cmpq	%rdx, %r11
	je	.LBB42_12
	jmp	.LBB42_25
.LBB42_4:
	andq	%r9, %rax
	je	.LBB42_25
	movq	%rax, %r8
	shrq	$3, %r8
	cmpq	%r10, %r8
	ja	.LBB42_25
	testb	$1, -16(%rcx,%rax,2)
	je	.LBB42_25
	movq	-8(%rcx,%rax,2), %r11
	andq	%r9, %r11
	cmpq	%rdx, %r11
	jne	.LBB42_25
.LBB42_12:
	cmpq	%rdx, %rax
	je	.LBB42_25
	cmpq	%r10, %r8
	ja	.LBB42_25
	movq	-16(%rcx,%rax,2), %r11
	testb	$1, %r11b
	je	.LBB42_25
	movq	-8(%rcx,%rax,2), %rsi
	andq	%r9, %rsi
	je	.LBB42_25
	movq	%rsi, %rdi
	shrq	$3, %rdi
	cmpq	%r10, %rdi
	ja	.LBB42_25
	movq	-16(%rcx,%rsi,2), %rdi
	testb	$1, %dil
	je	.LBB42_25
	andq	%r9, %rdi
	cmpq	%rax, %rdi
	jne	.LBB42_25
	andq	%r9, %r11
	je	.LBB42_25
	movq	%r11, %rdi
	shrq	$3, %rdi
	cmpq	%r10, %rdi
	ja	.LBB42_25
	testb	$1, -16(%rcx,%r11,2)
	je	.LBB42_25
	andq	-8(%rcx,%r11,2), %r9
	cmpq	%rax, %r9
	jne	.LBB42_25
	movq	112(%rsp), %rdx
	movq	%r11, %r9
	orq	$1, %r9
	movq	%r9, -16(%rcx,%rsi,2)
	movq	%rsi, -8(%rcx,%r11,2)
	movq	$0, -16(%rcx,%rax,2)
	decl	%r8d
	movl	%r8d, (%rdx)
	xorl	%eax, %eax
.LBB42_24:
	addq	$56, %rsp
	popq	%rdi
	popq	%rsi
	retq
.LBB42_25:
	leaq	40(%rsp), %rcx
	callq	ic_raw.ring_calls.refusal_to_pop.354f48d5d890d6b4
	addq	$56, %rsp
	popq	%rdi
	popq	%rsi
	retq
	.def	ic_raw.ring_calls.refusal_to_pop.354f48d5d890d6b4;
	.scl	3;
	.type	32;
	.endef
	.p2align	4
ic_raw.ring_calls.refusal_to_pop.354f48d5d890d6b4:
	movq	%rdx, %rax
	shrq	$3, %rax
	cmpq	8(%rcx), %rax
	ja	ic_raw.table.RawTable.refusal_of.85cd03e557136797
	movq	(%rcx), %rax
	movq	-16(%rax,%rdx,2), %r8
	testb	$1, %r8b
	je	ic_raw.table.RawTable.refusal_of.85cd03e557136797
	movabsq	$68719476728, %r9
	andq	%r9, %r8
	cmpq	%rdx, %r8
	jne	ic_raw.table.RawTable.refusal_of.85cd03e557136797
	andq	-8(%rax,%rdx,2), %r9
	cmpq	%rdx, %r9
	jne	ic_raw.table.RawTable.refusal_of.85cd03e557136797
	movl	$4, %eax
	retq
	.def	ic_raw.table.RawTable.refusal_of.85cd03e557136797;
	.scl	3;
	.type	32;
	.endef
	.p2align	4
ic_raw.table.RawTable.refusal_of.85cd03e557136797:
	movq	%rdx, %r8
	shrq	$3, %r8
	movl	$1, %eax
	cmpq	8(%rcx), %r8
	ja	.LBB44_2
	movq	(%rcx), %rax
	movzbl	-16(%rax,%rdx,2), %eax
	andl	$1, %eax
	leal	3(,%rax,2), %eax
.LBB44_2:
	retq
	.def	ic_list_algorithms.sort.sort_front.e8da022ef74ca9e6;
	.scl	3;
	.type	32;
	.endef
	.p2align	4
ic_list_algorithms.sort.sort_front.e8da022ef74ca9e6:
	pushq	%r15
	pushq	%r14
	pushq	%r12
	pushq	%rsi
	pushq	%rdi
	pushq	%rbx
	subq	$88, %rsp
	movq	%rcx, %rsi
	movq	176(%rsp), %rbx
	testq	%rbx, %rbx
	je	.LBB45_10
	cmpq	$1, %rbx
	jne	.LBB45_7
	movabsq	$68719476728, %rdi
	movq	(%rdx), %rcx
	movq	-16(%rcx,%r9,2), %rax
	movq	$1, -16(%rcx,%r9,2)
	andq	%rdi, %rax
	je	.LBB45_5
	movq	(%rdx), %rcx
	xorl	%ebx, %ebx
	andq	-16(%rcx,%rax,2), %rdi
	setne	%bl
	movq	$1, -16(%rcx,%rax,2)
	movq	%rdx, %rcx
	movq	%r8, %rdx
	movq	%r9, %r8
	movq	%rax, %r9
	callq	ic_list_algorithms.merge.merge_runs.e8da022ef74ca9e6
	movq	%rax, (%rsi)
	movq	%rbx, 8(%rsi)
	movq	%rdi, 16(%rsi)
	jmp	.LBB45_4
.LBB45_10:
	movq	(%rdx), %rax
	movabsq	$68719476728, %rcx
	xorl	%edx, %edx
	andq	-16(%rax,%r9,2), %rcx
	setne	%dl
	movq	$1, -16(%rax,%r9,2)
	movq	%r9, (%rsi)
	movq	%rdx, 8(%rsi)
	movq	%rcx, 16(%rsi)
	jmp	.LBB45_4
.LBB45_7:
	decq	%rbx
	movq	%rbx, 32(%rsp)
	leaq	64(%rsp), %rcx
	movq	%rdx, %r15
	movq	%r8, %r14
	callq	ic_list_algorithms.sort.sort_front.e8da022ef74ca9e6
	movq	64(%rsp), %rdi
	cmpb	$1, 72(%rsp)
	jne	.LBB45_9
	movq	80(%rsp), %r9
	movq	%rbx, 32(%rsp)
	leaq	40(%rsp), %rcx
	movq	%r15, %rbx
	movq	%r15, %rdx
	movq	%r14, %r8
	callq	ic_list_algorithms.sort.sort_front.e8da022ef74ca9e6
	movzbl	48(%rsp), %r15d
	movq	40(%rsp), %r9
	movq	56(%rsp), %r12
	movq	%rbx, %rcx
	movq	%r14, %rdx
	movq	%rdi, %r8
	callq	ic_list_algorithms.merge.merge_runs.e8da022ef74ca9e6
	movq	%rax, (%rsi)
	movq	%r15, 8(%rsi)
	movq	%r12, 16(%rsi)
	jmp	.LBB45_4
.LBB45_9:
	movq	%rdi, (%rsi)
	jmp	.LBB45_6
.LBB45_5:
	movq	%r9, (%rsi)
.LBB45_6:
	movq	$0, 8(%rsi)
	movq	$0, 16(%rsi)
.LBB45_4:
	addq	$88, %rsp
	popq	%rbx
	popq	%rdi
	popq	%rsi
	popq	%r12
	popq	%r14
	popq	%r15
	retq
	.def	ic_raw.ring_calls.splice.354f48d5d890d6b4;
	.scl	3;
	.type	32;
	.endef
	.p2align	4
ic_raw.ring_calls.splice.354f48d5d890d6b4:
	pushq	%r15
	pushq	%r14
	pushq	%r12
	pushq	%rsi
	pushq	%rdi
	pushq	%rbx
	leal	1(%r9), %ebx
	movl	%r9d, %r10d
	movl	$4, %eax
	incl	%r10d
	je	.LBB46_28
	movl	88(%rsp), %r10d
	leal	1(%r10), %r11d
	movl	%r10d, %esi
	incl	%esi
	jne	.LBB46_2
.LBB46_28:
	popq	%rbx
	popq	%rdi
	popq	%rsi
	popq	%r12
	popq	%r14
	popq	%r15
	retq
.LBB46_2:
	cmpq	%r11, %rdx
	jb	.LBB46_19
	movq	%r11, %rsi
	shlq	$4, %rsi
	movq	-16(%rcx,%rsi), %rdi
	testb	$1, %dil
	je	.LBB46_19
	movabsq	$68719476728, %rax
	movq	-8(%rcx,%rsi), %r14
	andq	%rax, %r14
	je	.LBB46_19
	movq	%r14, %r15
	shrq	$3, %r15
	cmpq	%rdx, %r15
	ja	.LBB46_19
	movq	-16(%rcx,%r14,2), %r15
	testb	$1, %r15b
	je	.LBB46_19
	shlq	$3, %r11
	andq	%rax, %r15
	cmpq	%r11, %r15
	jne	.LBB46_19
	andq	%rax, %rdi
	je	.LBB46_19
	movq	%rdi, %r15
	shrq	$3, %r15
	cmpq	%rdx, %r15
	ja	.LBB46_19
	testb	$1, -16(%rcx,%rdi,2)
	je	.LBB46_19
	cmpq	%rbx, %rdx
	jb	.LBB46_19
	movq	-8(%rcx,%rdi,2), %r15
	andq	%rax, %r15
	cmpq	%r11, %r15
	jne	.LBB46_19
	movq	%rbx, %r12
	shlq	$4, %r12
	movq	-16(%rcx,%r12), %r15
	testb	$1, %r15b
	je	.LBB46_19
	shlq	$3, %rbx
	testb	$1, %r8b
	je	.LBB46_15
	movq	-8(%rcx,%r12), %r8
	andq	%rax, %r8
	je	.LBB46_19
	movq	%r8, %r15
	shrq	$3, %r15
	cmpq	%rdx, %r15
	ja	.LBB46_19
	movq	-16(%rcx,%r8,2), %r12
	testb	$1, %r12b
	je	.LBB46_19
	andq	%rax, %r12
	movq	%rbx, %r15
	cmpq	%rbx, %r12
	je	.LBB46_24
	jmp	.LBB46_19
.LBB46_15:
	andq	%rax, %r15
	je	.LBB46_19
	movq	%r15, %r8
	shrq	$3, %r8
	cmpq	%rdx, %r8
	ja	.LBB46_19
	testb	$1, -16(%rcx,%r15,2)
	je	.LBB46_19
	andq	-8(%rcx,%r15,2), %rax
	movq	%rbx, %r8
	cmpq	%rbx, %rax
	jne	.LBB46_19
.LBB46_24:
	cmpq	%r11, %r8
	je	.LBB46_19
	cmpq	%r14, %r8
	je	.LBB46_19
	xorl	%eax, %eax
	cmpq	%r11, %r14
	je	.LBB46_28
	movq	%rdi, %rdx
	orq	$1, %rdx
	movq	%rdx, -16(%rcx,%r8,2)
	movq	%r8, -8(%rcx,%rdi,2)
	movq	%r15, %rdx
	orq	$1, %rdx
	movq	%rdx, -16(%rcx,%r14,2)
	movq	%r14, -8(%rcx,%r15,2)
	movq	%r11, -8(%rcx,%rsi)
	orq	$1, %r11
	movq	%r11, -16(%rcx,%rsi)
	jmp	.LBB46_28
.LBB46_19:
	movl	%r9d, %r8d
	movl	%r10d, %r9d
	popq	%rbx
	popq	%rdi
	popq	%rsi
	popq	%r12
	popq	%r14
	popq	%r15
	jmp	ic_raw.table.RawTable.refusal_at_both.85cd03e557136797
	.def	ic_raw.sort_calls.refusal.1b4d7615ba81168a;
	.scl	3;
	.type	32;
	.endef
	.p2align	4
ic_raw.sort_calls.refusal.1b4d7615ba81168a:
	xorl	%eax, %eax
	cmpq	%rcx, %rdx
	setae	%al
	leal	1(,%rax,4), %eax
	retq
	.def	ic_list_algorithms.merge.merge_runs.07d679d1abf7571e;
	.scl	3;
	.type	32;
	.endef
	.p2align	4
ic_list_algorithms.merge.merge_runs.07d679d1abf7571e:
	pushq	%rsi
	pushq	%rdi
	pushq	%rbx
	movq	%r8, %rax
	movabsq	$68719476728, %r8
	movq	(%rdx), %r11
	movq	-8(%r11,%r9), %rsi
	movq	(%rcx), %r10
	cmpq	-8(%r11,%rax), %rsi
	jae	.LBB48_1
	movq	-8(%r10,%r9), %r11
	andq	%r8, %r11
	je	.LBB48_7
	movq	%r9, %r10
	movq	%rax, %rsi
	movq	%r11, %r9
	movq	%r10, %rax
	jmp	.LBB48_12
.LBB48_1:
	movq	-8(%r10,%rax), %rsi
	andq	%r8, %rsi
	je	.LBB48_6
	movq	%rax, %r10
	jmp	.LBB48_12
	.p2align	4
.LBB48_11:
	movq	%rax, %rbx
	orq	$1, %rbx
	movq	-8(%rdi,%rax), %rsi
	movq	%rbx, -8(%rdi,%r11)
	andq	%r8, %rsi
	je	.LBB48_13
.LBB48_12:
	movq	%rax, %r11
	movq	%rsi, %rax
	movq	%r9, %rsi
	.p2align	4
.LBB48_8:
	movq	%rsi, %r9
	movq	(%rdx), %rsi
	movq	-8(%rsi,%r9), %rbx
	movq	(%rcx), %rdi
	cmpq	-8(%rsi,%rax), %rbx
	jae	.LBB48_11
	movq	%r9, %rbx
	orq	$1, %rbx
	movq	-8(%rdi,%r9), %rsi
	movq	%rbx, -8(%rdi,%r11)
	movq	%r9, %r11
	andq	%r8, %rsi
	jne	.LBB48_8
	movq	(%rcx), %rcx
	incq	%rax
	movq	%rax, -8(%rcx,%r9)
.LBB48_14:
	movq	%r10, %rax
	popq	%rbx
	popq	%rdi
	popq	%rsi
	retq
.LBB48_7:
	orq	$1, %rax
	movq	%rax, -8(%r10,%r9)
	movq	%r9, %rax
	popq	%rbx
	popq	%rdi
	popq	%rsi
	retq
.LBB48_6:
	orq	$1, %r9
	movq	%r9, -8(%r10,%rax)
	popq	%rbx
	popq	%rdi
	popq	%rsi
	retq
.LBB48_13:
	movq	(%rcx), %rcx
	incq	%r9
	movq	%r9, -8(%rcx,%rax)
	jmp	.LBB48_14
	.def	ic_raw.stack_calls.pop_front_slow;
	.scl	3;
	.type	32;
	.endef
	.p2align	4
ic_raw.stack_calls.pop_front_slow:
	pushq	%rsi
	movabsq	$68719476728, %rax
	movq	(%r8), %r10
	andq	%rax, %r10
	je	.LBB49_1
	movq	%r10, %r11
	shrq	$3, %r11
	cmpq	%rdx, %r11
	ja	.LBB49_6
	movq	-8(%rcx,%r10), %rsi
	testb	$1, %sil
	je	.LBB49_6
	andq	%rax, %rsi
	movq	$0, -8(%rcx,%r10)
	movq	%rsi, (%r8)
	decl	%r11d
	movl	%r11d, (%r9)
	xorl	%eax, %eax
	popq	%rsi
	retq
.LBB49_1:
	movl	$4, %eax
	popq	%rsi
	retq
.LBB49_6:
	movl	$-1, %r8d
	popq	%rsi
	jmp	ic_raw.table.RawTable.refusal_at.feecb86c9dd45d96
	.def	ic_raw.table.RawTable.refusal_at.feecb86c9dd45d96;
	.scl	3;
	.type	32;
	.endef
	.p2align	4
ic_raw.table.RawTable.refusal_at.feecb86c9dd45d96:
	movl	$5, %eax
	incl	%r8d
	je	.LBB50_3
	movl	$1, %eax
	cmpq	%r8, %rdx
	jb	.LBB50_3
	movzbl	-8(%rcx,%r8,8), %eax
	andl	$1, %eax
	leal	3(,%rax,2), %eax
.LBB50_3:
	retq
	.def	ic_list_algorithms.sort.sort_front.07d679d1abf7571e;
	.scl	3;
	.type	32;
	.endef
	.p2align	4
ic_list_algorithms.sort.sort_front.07d679d1abf7571e:
	pushq	%r15
	pushq	%r14
	pushq	%r12
	pushq	%rsi
	pushq	%rdi
	pushq	%rbx
	subq	$88, %rsp
	movq	%rcx, %rsi
	movq	176(%rsp), %rbx
	testq	%rbx, %rbx
	je	.LBB51_10
	cmpq	$1, %rbx
	jne	.LBB51_7
	movabsq	$68719476728, %rdi
	movq	(%rdx), %rcx
	movq	-8(%rcx,%r9), %rax
	movq	$1, -8(%rcx,%r9)
	andq	%rdi, %rax
	je	.LBB51_5
	movq	(%rdx), %rcx
	xorl	%ebx, %ebx
	andq	-8(%rcx,%rax), %rdi
	setne	%bl
	movq	$1, -8(%rcx,%rax)
	movq	%rdx, %rcx
	movq	%r8, %rdx
	movq	%r9, %r8
	movq	%rax, %r9
	callq	ic_list_algorithms.merge.merge_runs.07d679d1abf7571e
	movq	%rax, (%rsi)
	movq	%rbx, 8(%rsi)
	movq	%rdi, 16(%rsi)
	jmp	.LBB51_4
.LBB51_10:
	movq	(%rdx), %rax
	movabsq	$68719476728, %rcx
	xorl	%edx, %edx
	andq	-8(%rax,%r9), %rcx
	setne	%dl
	movq	$1, -8(%rax,%r9)
	movq	%r9, (%rsi)
	movq	%rdx, 8(%rsi)
	movq	%rcx, 16(%rsi)
	jmp	.LBB51_4
.LBB51_7:
	decq	%rbx
	movq	%rbx, 32(%rsp)
	leaq	64(%rsp), %rcx
	movq	%rdx, %r15
	movq	%r8, %r14
	callq	ic_list_algorithms.sort.sort_front.07d679d1abf7571e
	movq	64(%rsp), %rdi
	cmpb	$1, 72(%rsp)
	jne	.LBB51_9
	movq	80(%rsp), %r9
	movq	%rbx, 32(%rsp)
	leaq	40(%rsp), %rcx
	movq	%r15, %rbx
	movq	%r15, %rdx
	movq	%r14, %r8
	callq	ic_list_algorithms.sort.sort_front.07d679d1abf7571e
	movzbl	48(%rsp), %r15d
	movq	40(%rsp), %r9
	movq	56(%rsp), %r12
	movq	%rbx, %rcx
	movq	%r14, %rdx
	movq	%rdi, %r8
	callq	ic_list_algorithms.merge.merge_runs.07d679d1abf7571e
	movq	%rax, (%rsi)
	movq	%r15, 8(%rsi)
	movq	%r12, 16(%rsi)
	jmp	.LBB51_4
.LBB51_9:
	movq	%rdi, (%rsi)
	jmp	.LBB51_6
.LBB51_5:
	movq	%r9, (%rsi)
.LBB51_6:
	movq	$0, 8(%rsi)
	movq	$0, 16(%rsi)
.LBB51_4:
	addq	$88, %rsp
	popq	%rbx
	popq	%rdi
	popq	%rsi
	popq	%r12
	popq	%r14
	popq	%r15
	retq
	.def	ic_check.tree.check_below.ffc36cde30076884;
	.scl	3;
	.type	32;
	.endef
	.p2align	4
ic_check.tree.check_below.ffc36cde30076884:
	pushq	%r15
	pushq	%r14
	pushq	%r13
	pushq	%r12
	pushq	%rsi
	pushq	%rdi
	pushq	%rbp
	pushq	%rbx
	subq	$120, %rsp
	cmpb	$1, %r8b
	jne	.LBB52_18
	movl	240(%rsp), %ebp
	testl	%ebp, %ebp
	je	.LBB52_2
	movq	%r9, %rax
	shrq	$3, %rax
	cmpq	8(%rdx), %rax
	ja	.LBB52_2
	movq	(%rdx), %r8
	shlq	$3, %rax
	leaq	(%rax,%rax,2), %r14
	movq	-24(%r8,%r14), %rax
	testb	$1, %al
	je	.LBB52_2
	movabsq	$68719476728, %r10
	movq	-8(%r8,%r14), %r11
	andq	%r10, %r11
	xorl	%esi, %esi
	cmpb	$0, 224(%rsp)
	cmovneq	232(%rsp), %rsi
	cmpq	%rsi, %r11
	jne	.LBB52_2
	movq	-16(%r8,%r14), %rsi
	andq	%r10, %rsi
	setne	%bl
	andq	%r10, %rax
	je	.LBB52_9
	cmpq	%rsi, %rax
	jne	.LBB52_9
.LBB52_2:
	movq	$0, 16(%rcx)
	movq	$0, 8(%rcx)
	movq	$0, (%rcx)
	jmp	.LBB52_3
.LBB52_18:
	movq	$1, (%rcx)
	movq	$0, 8(%rcx)
	movl	$0, 16(%rcx)
	movb	$1, 20(%rcx)
	movw	$0, 21(%rcx)
	movb	$0, 23(%rcx)
.LBB52_3:
	addq	$120, %rsp
	popq	%rbx
	popq	%rbp
	popq	%rdi
	popq	%rsi
	popq	%r12
	popq	%r13
	popq	%r14
	popq	%r15
	retq
.LBB52_9:
	movq	%rcx, %r12
	testq	%rax, %rax
	setne	%r8b
	decl	%ebp
	movl	%ebp, 48(%rsp)
	movq	%r9, %r13
	movq	%r9, 40(%rsp)
	movb	$1, 32(%rsp)
	leaq	96(%rsp), %rcx
	movq	%rdx, %rdi
	movq	%rax, %r9
	callq	ic_check.tree.check_below.ffc36cde30076884
	cmpb	$1, 96(%rsp)
	jne	.LBB52_17
	movq	104(%rsp), %rax
	movq	%rax, 64(%rsp)
	movl	112(%rsp), %r15d
	movzbl	116(%rsp), %eax
	movb	%al, 63(%rsp)
	movl	%ebp, 48(%rsp)
	movq	%r13, 40(%rsp)
	movb	$1, 32(%rsp)
	leaq	72(%rsp), %rcx
	movq	%rdi, %rdx
	movl	%ebx, %r8d
	movq	%rsi, %r9
	callq	ic_check.tree.check_below.ffc36cde30076884
	cmpb	$1, 72(%rsp)
	jne	.LBB52_17
	cmpl	88(%rsp), %r15d
	movq	%r12, %rax
	jne	.LBB52_12
	movq	80(%rsp), %rdx
	movq	(%rdi), %rcx
	movq	-8(%rcx,%r14), %rcx
	cmpb	$0, 63(%rsp)
	setne	%r8b
	testb	$1, %cl
	jne	.LBB52_15
	andb	92(%rsp), %r8b
	jne	.LBB52_15
.LBB52_12:
	movb	$0, 62(%rsp)
	movw	$0, 60(%rsp)
	xorl	%edx, %edx
	xorl	%r8d, %r8d
	xorl	%r15d, %r15d
	xorl	%ecx, %ecx
	jmp	.LBB52_16
.LBB52_17:
	movq	$0, 16(%r12)
	movq	$0, 8(%r12)
	movq	$0, (%r12)
	jmp	.LBB52_3
.LBB52_15:
	andb	$1, %cl
	movq	64(%rsp), %r8
	addq	%rdx, %r8
	incq	%r8
	movzbl	%cl, %edx
	addl	%edx, %r15d
	movb	$0, 62(%rsp)
	movw	$0, 60(%rsp)
	movl	$1, %edx
.LBB52_16:
	movq	%rdx, (%rax)
	movq	%r8, 8(%rax)
	movl	%r15d, 16(%rax)
	movb	%cl, 20(%rax)
	movzwl	60(%rsp), %ecx
	movw	%cx, 21(%rax)
	movzbl	62(%rsp), %ecx
	movb	%cl, 23(%rax)
	jmp	.LBB52_3
	.def	ic_rbtree.join.roots.join.f4da04d8a93b4f27;
	.scl	3;
	.type	32;
	.endef
	.p2align	4
ic_rbtree.join.roots.join.f4da04d8a93b4f27:
	pushq	%r15
	pushq	%r14
	pushq	%rsi
	pushq	%rdi
	pushq	%rbp
	pushq	%rbx
	subq	$120, %rsp
	movq	%rcx, %rax
	movzbl	208(%rsp), %ecx
	movabsq	$68719476728, %rsi
	movzbl	%dl, %r10d
	movzbl	%cl, %ecx
	xorl	%edx, %edx
	movl	$0, %r11d
	testb	%r10b, %r10b
	je	.LBB53_4
	movq	(%rax), %rdi
	xorl	%r11d, %r11d
	xorl	%ebx, %ebx
	movq	%r8, %r14
	.p2align	4
.LBB53_2:
	movl	%r11d, %ebp
	shrq	$3, %r14
	leaq	(%r14,%r14,2), %r14
	movl	-8(%rdi,%r14,8), %r11d
	andl	$1, %r11d
	addl	%ebp, %r11d
	cmpl	$65, %ebx
	ja	.LBB53_4
	movq	-24(%rdi,%r14,8), %r14
	andq	%rsi, %r14
	incl	%ebx
	testq	%r14, %r14
	jne	.LBB53_2
.LBB53_4:
	movq	216(%rsp), %rdi
	testb	%cl, %cl
	je	.LBB53_8
	movq	(%rax), %rbx
	xorl	%edx, %edx
	xorl	%ebp, %ebp
	movq	%rdi, %r14
	.p2align	4
.LBB53_6:
	movl	%edx, %r15d
	shrq	$3, %r14
	leaq	(%r14,%r14,2), %r14
	movl	-8(%rbx,%r14,8), %edx
	andl	$1, %edx
	addl	%r15d, %edx
	cmpl	$65, %ebp
	ja	.LBB53_8
	movq	-24(%rbx,%r14,8), %r14
	andq	%rsi, %r14
	incl	%ebp
	testq	%r14, %r14
	jne	.LBB53_6
.LBB53_8:
	movq	$0, 112(%rsp)
	movq	%r10, 96(%rsp)
	movq	%r8, 104(%rsp)
	movl	%r11d, 112(%rsp)
	movq	$0, 88(%rsp)
	movq	%rcx, 72(%rsp)
	movq	%rdi, 80(%rsp)
	movl	%edx, 88(%rsp)
	movq	$0, 48(%rsp)
	movq	$0, 56(%rsp)
	movq	$0, 64(%rsp)
	cmpl	%r11d, %edx
	jbe	.LBB53_9
	leaq	96(%rsp), %rcx
	movq	%rcx, 40(%rsp)
	movq	%r9, 32(%rsp)
	leaq	48(%rsp), %rcx
	leaq	72(%rsp), %r8
	movq	%rax, %rdx
	xorl	%r9d, %r9d
	jmp	.LBB53_11
.LBB53_9:
	leaq	72(%rsp), %rcx
	movq	%rcx, 40(%rsp)
	movq	%r9, 32(%rsp)
	leaq	48(%rsp), %rcx
	leaq	96(%rsp), %r8
	movq	%rax, %rdx
	movb	$1, %r9b
.LBB53_11:
	callq	ic_rbtree.join.roots.join_higher.f4da04d8a93b4f27
	movzbl	48(%rsp), %eax
	movq	56(%rsp), %rdx
	addq	$120, %rsp
	popq	%rbx
	popq	%rbp
	popq	%rdi
	popq	%rsi
	popq	%r14
	popq	%r15
	retq
	.def	ic_rbtree.join.roots.join_higher.f4da04d8a93b4f27;
	.scl	3;
	.type	32;
	.endef
	.p2align	4
ic_rbtree.join.roots.join_higher.f4da04d8a93b4f27:
	pushq	%r15
	pushq	%r14
	pushq	%r13
	pushq	%r12
	pushq	%rsi
	pushq	%rdi
	pushq	%rbp
	pushq	%rbx
	subq	$32, %rsp
	movb	%r9b, 16(%rsp)
	movq	136(%rsp), %r10
	movq	144(%rsp), %r12
	movzbl	(%r8), %ebx
	movq	8(%r8), %r14
	movl	16(%r8), %edi
	movq	(%rdx), %rsi
	cmpb	$1, %bl
	movq	%rcx, 8(%rsp)
	movl	%edi, 4(%rsp)
	jne	.LBB54_1
	movl	16(%r12), %ebp
	movq	%r14, %rax
	shrq	$3, %rax
	leaq	(%rax,%rax,2), %r11
	movl	-8(%rsi,%r11,8), %eax
	andl	$1, %eax
	cmpl	%ebp, %edi
	jne	.LBB54_5
	testl	%eax, %eax
	je	.LBB54_5
	xorl	%r15d, %r15d
	movq	%r14, %r9
	movq	%r14, %r8
	movb	$1, %bpl
	xorl	%edi, %edi
	jmp	.LBB54_18
.LBB54_1:
	xorl	%edi, %edi
	movb	$1, %r15b
	movq	%r14, %r9
	movq	%r14, %r8
	movb	$1, %bpl
	jmp	.LBB54_18
.LBB54_5:
	movq	%r14, %r9
	movzbl	16(%rsp), %r8d
	leaq	-24(,%r8,8), %r13
	leaq	(%rsi,%r11,8), %r8
	movabsq	$68719476728, %r11
	movq	(%r8,%r13), %r8
	andq	%r11, %r8
	je	.LBB54_6
	movl	%edi, %r11d
	subl	%eax, %r11d
	leaq	(%r8,%r8,2), %r14
	movl	-8(%rsi,%r14), %ecx
	andl	$1, %ecx
	je	.LBB54_11
	cmpl	%ebp, %r11d
	jne	.LBB54_11
	xorl	%r15d, %r15d
	jmp	.LBB54_10
.LBB54_6:
	xorl	%r8d, %r8d
	movb	$1, %r15b
.LBB54_10:
	xorl	%ebp, %ebp
	movq	%r9, %rdi
	jmp	.LBB54_18
.LBB54_11:
	movl	%ebp, 28(%rsp)
	addq	%rsi, %r13
	movl	$66, %eax
	.p2align	4
.LBB54_16:
	movq	%r8, %rdi
	movq	(%r13,%r14), %r8
	movabsq	$68719476728, %r14
	andq	%r14, %r8
	sete	%r15b
	decl	%eax
	je	.LBB54_17
	testq	%r8, %r8
	je	.LBB54_13
	subl	%ecx, %r11d
	leaq	(%r8,%r8,2), %r14
	movl	-8(%rsi,%r14), %ecx
	andl	$1, %ecx
	je	.LBB54_16
	xorl	%r15d, %r15d
	movl	$0, %ebp
	cmpl	28(%rsp), %r11d
	jne	.LBB54_16
	jmp	.LBB54_18
.LBB54_13:
	xorl	%r8d, %r8d
	movb	$1, %r15b
.LBB54_17:
	xorl	%ebp, %ebp
.LBB54_18:
	movq	%r12, %rax
	movzbl	(%r12), %r12d
	movq	8(%rax), %r14
	xorl	%eax, %eax
	testb	%bl, %bl
	movq	%r9, %r13
	cmoveq	%rax, %r13
	leaq	(%r10,%r10,2), %rbx
	movzbl	16(%rsp), %r11d
	xorl	%eax, %eax
	cmpb	$1, %r11b
	jne	.LBB54_20
	testb	%r12b, %r12b
	movq	%r14, %rcx
	cmoveq	%rax, %rcx
	movq	%rcx, -16(%rsi,%rbx)
	movq	(%rdx), %rcx
	testb	%r15b, %r15b
	cmoveq	%r8, %rax
	movq	-24(%rcx,%rbx), %r9
	andl	$1, %r9d
	addq	%rax, %r9
	movq	%r9, -24(%rcx,%rbx)
	jmp	.LBB54_21
.LBB54_20:
	testb	%r12b, %r12b
	movq	%r14, %rcx
	cmoveq	%rax, %rcx
	movq	-24(%rsi,%rbx), %r9
	andl	$1, %r9d
	addq	%rcx, %r9
	movq	%r9, -24(%rsi,%rbx)
	movq	(%rdx), %rcx
	testb	%r15b, %r15b
	cmoveq	%r8, %rax
	movq	%rax, -16(%rcx,%rbx)
.LBB54_21:
	movq	(%rdx), %rax
	xorl	%ecx, %ecx
	testb	%bpl, %bpl
	cmoveq	%rdi, %rcx
	movq	-8(%rax,%rbx), %r9
	andl	$1, %r9d
	addq	%rcx, %r9
	movq	%r9, -8(%rax,%rbx)
	testb	%r15b, %r15b
	je	.LBB54_22
	cmpb	$1, %r12b
	je	.LBB54_24
.LBB54_25:
	movq	(%rdx), %rax
	movq	-8(%rax,%rbx), %rcx
	testb	%bpl, %bpl
	je	.LBB54_27
.LBB54_26:
	orq	$1, %rcx
	movq	%rcx, -8(%rax,%rbx)
	movl	$1, %r8d
	jmp	.LBB54_60
.LBB54_22:
	movq	(%rdx), %rax
	shrq	$3, %r8
	leaq	(%r8,%r8,2), %rcx
	movq	-8(%rax,%rcx,8), %r8
	andl	$1, %r8d
	orq	%r10, %r8
	movq	%r8, -8(%rax,%rcx,8)
	cmpb	$1, %r12b
	jne	.LBB54_25
.LBB54_24:
	movq	(%rdx), %rax
	shrq	$3, %r14
	leaq	(%r14,%r14,2), %rcx
	movq	-8(%rax,%rcx,8), %r8
	andl	$1, %r8d
	orq	%r10, %r8
	movq	%r8, -8(%rax,%rcx,8)
	movq	(%rdx), %rax
	movq	-8(%rax,%rbx), %rcx
	testb	%bpl, %bpl
	jne	.LBB54_26
.LBB54_27:
	andq	$-2, %rcx
	movq	%rcx, -8(%rax,%rbx)
	movq	(%rdx), %rax
	leaq	(%rdi,%rdi,2), %rcx
	testb	$1, %r11b
	je	.LBB54_28
	movq	%r10, -16(%rax,%rcx)
	jmp	.LBB54_30
.LBB54_28:
	movq	-24(%rax,%rcx), %r8
	andl	$1, %r8d
	orq	%r10, %r8
	movq	%r8, -24(%rax,%rcx)
.LBB54_30:
	movl	$67, %ebp
	movabsq	$68719476728, %rbx
	xorl	%eax, %eax
	jmp	.LBB54_31
	.p2align	4
.LBB54_58:
	movq	(%rdx), %rax
	movq	-8(%rax,%r9), %rdi
	andq	%rbx, %rdi
	sete	%al
	movq	%rsi, %r10
	decl	%ebp
	je	.LBB54_59
.LBB54_31:
	testb	$1, %al
	jne	.LBB54_32
	movq	(%rdx), %r12
	leaq	(%rdi,%rdi,2), %r14
	movq	-8(%r12,%r14), %rcx
	xorl	%r8d, %r8d
	testb	$1, %cl
	jne	.LBB54_59
	movq	%rcx, %rsi
	andq	%rbx, %rsi
	je	.LBB54_59
	leaq	(%rsi,%rsi,2), %r9
	movq	-24(%r12,%r9), %rax
	movq	%rax, %r11
	andq	%rbx, %r11
	cmpq	%rdi, %r11
	jne	.LBB54_55
	movq	-16(%r12,%r9), %r11
	andq	%rbx, %r11
	je	.LBB54_39
	leaq	(%r11,%r11,2), %r11
	testb	$1, -8(%r12,%r11)
	jne	.LBB54_39
	xorl	%eax, %eax
	testq	%rbx, -8(%r12,%r9)
	sete	%al
	orq	$1, %rcx
	movq	%rcx, -8(%r12,%r14)
	movq	(%rdx), %rcx
	orq	$1, -8(%rcx,%r11)
	movq	(%rdx), %rcx
	movq	-8(%rcx,%r9), %r10
	andq	$-2, %r10
	orq	%rax, %r10
	movq	%r10, -8(%rcx,%r9)
	jmp	.LBB54_58
	.p2align	4
.LBB54_55:
	testq	%r11, %r11
	je	.LBB54_61
	leaq	(%r11,%r11,2), %rax
	testb	$1, -8(%r12,%rax)
	jne	.LBB54_61
	xorl	%r10d, %r10d
	testq	%rbx, -8(%r12,%r9)
	sete	%r10b
	orq	$1, %rcx
	movq	%rcx, -8(%r12,%r14)
	movq	(%rdx), %rcx
	orq	$1, -8(%rcx,%rax)
	movq	(%rdx), %rax
	movq	-8(%rax,%r9), %rcx
	andq	$-2, %rcx
	orq	%r10, %rcx
	movq	%rcx, -8(%rax,%r9)
	jmp	.LBB54_58
.LBB54_32:
	movl	$1, %r8d
.LBB54_59:
	movq	%r13, %r10
.LBB54_60:
	movq	8(%rsp), %r13
	movl	4(%rsp), %ebp
.LBB54_77:
	xorl	%eax, %eax
	testq	%r10, %r10
	setne	%al
	addl	%ebp, %r8d
	movq	%rax, (%r13)
	movq	%r10, 8(%r13)
	movl	%r8d, 16(%r13)
	addq	$32, %rsp
	popq	%rbx
	popq	%rbp
	popq	%rdi
	popq	%rsi
	popq	%r12
	popq	%r13
	popq	%r14
	popq	%r15
	retq
.LBB54_61:
	movq	%r13, 16(%rsp)
	movq	-24(%r12,%r14), %r11
	movq	%r11, %rcx
	andq	%rbx, %rcx
	cmpq	%r10, %rcx
	jne	.LBB54_62
	leaq	(%r10,%r10,2), %r15
	movq	-16(%r12,%r15), %rax
	andq	%rbx, %rax
	andl	$1, %r11d
	orq	%rax, %r11
	movq	%r11, -24(%r12,%r14)
	testq	%rax, %rax
	movq	8(%rsp), %r13
	movl	4(%rsp), %ebp
	je	.LBB54_65
	movq	(%rdx), %rcx
	shrq	$3, %rax
	leaq	(%rax,%rax,2), %rax
	movq	-8(%rcx,%rax,8), %r11
	andl	$1, %r11d
	orq	%rdi, %r11
	movq	%r11, -8(%rcx,%rax,8)
.LBB54_65:
	movq	(%rdx), %rax
	movq	-8(%rax,%r15), %rcx
	andl	$1, %ecx
	orq	%rsi, %rcx
	movq	%rcx, -8(%rax,%r15)
	movq	(%rdx), %rax
	andq	$-2, -8(%rax,%r15)
	movq	(%rdx), %rax
	movq	-24(%rax,%r9), %rcx
	movq	%rcx, %r11
	andq	%rbx, %r11
	cmpq	%rdi, %r11
	jne	.LBB54_67
	andl	$1, %ecx
	orq	%r10, %rcx
	movq	%rcx, -24(%rax,%r9)
	jmp	.LBB54_68
.LBB54_39:
	movq	%r13, 16(%rsp)
	movq	-24(%r12,%r14), %rcx
	andq	%rbx, %rcx
	cmpq	%r10, %rcx
	jne	.LBB54_41
	movq	%r14, %r15
	movq	%rdi, %r10
	movq	8(%rsp), %r13
	movl	4(%rsp), %ebp
	jmp	.LBB54_47
.LBB54_62:
	movq	%r14, %r15
	movq	%rdi, %r10
	movq	8(%rsp), %r13
	movl	4(%rsp), %ebp
	jmp	.LBB54_69
.LBB54_41:
	leaq	(%r10,%r10,2), %r15
	movq	-24(%r12,%r15), %rax
	andq	%rbx, %rax
	movq	%rax, -16(%r12,%r14)
	movq	8(%rsp), %r13
	movl	4(%rsp), %ebp
	je	.LBB54_43
	movq	(%rdx), %rcx
	shrq	$3, %rax
	leaq	(%rax,%rax,2), %rax
	movq	-8(%rcx,%rax,8), %r11
	andl	$1, %r11d
	orq	%rdi, %r11
	movq	%r11, -8(%rcx,%rax,8)
.LBB54_43:
	movq	(%rdx), %rax
	movq	-8(%rax,%r15), %rcx
	andl	$1, %ecx
	orq	%rsi, %rcx
	movq	%rcx, -8(%rax,%r15)
	movq	(%rdx), %rax
	andq	$-2, -8(%rax,%r15)
	movq	(%rdx), %rax
	movq	-24(%rax,%r9), %rcx
	movq	%rcx, %r11
	andq	%rbx, %r11
	cmpq	%rdi, %r11
	jne	.LBB54_45
	andl	$1, %ecx
	orq	%r10, %rcx
	movq	%rcx, -24(%rax,%r9)
	jmp	.LBB54_46
.LBB54_67:
	movq	%r10, -16(%rax,%r9)
.LBB54_68:
	movq	(%rdx), %rax
	movq	%rdi, -16(%rax,%r15)
	movq	(%rdx), %rax
	movq	-8(%rax,%r14), %rcx
	andl	$1, %ecx
	orq	%r10, %rcx
	movq	%rcx, -8(%rax,%r14)
	movq	(%rdx), %rax
	andq	$-2, -8(%rax,%r14)
	movq	(%rdx), %r12
	movq	-24(%r12,%r15), %rcx
	andq	%rbx, %rcx
.LBB54_69:
	movq	-8(%r12,%r9), %rax
	andq	%rbx, %rax
	movq	%rcx, -16(%r12,%r9)
	testq	%rcx, %rcx
	je	.LBB54_71
	movq	(%rdx), %r11
	shrq	$3, %rcx
	leaq	(%rcx,%rcx,2), %rcx
	movq	-8(%r11,%rcx,8), %rdi
	andl	$1, %edi
	orq	%rsi, %rdi
	movq	%rdi, -8(%r11,%rcx,8)
.LBB54_71:
	movq	(%rdx), %rcx
	movq	-8(%rcx,%r15), %r11
	andl	$1, %r11d
	orq	%rax, %r11
	movq	%r11, -8(%rcx,%r15)
	movq	(%rdx), %rcx
	orq	$1, -8(%rcx,%r15)
	movq	%r10, %rcx
	testq	%rax, %rax
	je	.LBB54_76
	movq	(%rdx), %rcx
	leaq	(%rax,%rax,2), %rax
	movq	-24(%rcx,%rax), %r11
	andq	%r11, %rbx
	cmpq	%rsi, %rbx
	jne	.LBB54_74
	andl	$1, %r11d
	orq	%r10, %r11
	movq	%r11, -24(%rcx,%rax)
	jmp	.LBB54_75
.LBB54_74:
	movq	%r10, -16(%rcx,%rax)
.LBB54_75:
	movq	16(%rsp), %rcx
.LBB54_76:
	movq	(%rdx), %rax
	movq	-24(%rax,%r15), %r11
	andl	$1, %r11d
	orq	%rsi, %r11
	movq	%r11, -24(%rax,%r15)
	movq	(%rdx), %rax
	movq	-8(%rax,%r9), %r11
	andl	$1, %r11d
	orq	%r10, %r11
	movq	%r11, -8(%rax,%r9)
	movq	(%rdx), %rax
	andq	$-2, -8(%rax,%r9)
	movq	%rcx, %r10
	jmp	.LBB54_77
.LBB54_45:
	movq	%r10, -16(%rax,%r9)
.LBB54_46:
	movq	(%rdx), %rax
	movq	-24(%rax,%r15), %rcx
	andl	$1, %ecx
	orq	%rdi, %rcx
	movq	%rcx, -24(%rax,%r15)
	movq	(%rdx), %rax
	movq	-8(%rax,%r14), %rcx
	andl	$1, %ecx
	orq	%r10, %rcx
	movq	%rcx, -8(%rax,%r14)
	movq	(%rdx), %rax
	andq	$-2, -8(%rax,%r14)
	movq	(%rdx), %r12
	movq	-24(%r12,%r9), %rax
.LBB54_47:
	movq	-16(%r12,%r15), %r11
	andq	%rbx, %r11
	movq	-8(%r12,%r9), %rcx
	andq	%rbx, %rcx
	andl	$1, %eax
	orq	%r11, %rax
	movq	%rax, -24(%r12,%r9)
	testq	%r11, %r11
	je	.LBB54_49
	movq	(%rdx), %rax
	shrq	$3, %r11
	leaq	(%r11,%r11,2), %r11
	movq	-8(%rax,%r11,8), %rdi
	andl	$1, %edi
	orq	%rsi, %rdi
	movq	%rdi, -8(%rax,%r11,8)
.LBB54_49:
	movq	(%rdx), %rax
	movq	-8(%rax,%r15), %r11
	andl	$1, %r11d
	orq	%rcx, %r11
	movq	%r11, -8(%rax,%r15)
	movq	(%rdx), %rax
	orq	$1, -8(%rax,%r15)
	movq	%r10, %rax
	testq	%rcx, %rcx
	je	.LBB54_54
	movq	(%rdx), %rax
	leaq	(%rcx,%rcx,2), %rcx
	movq	-24(%rax,%rcx), %r11
	andq	%r11, %rbx
	cmpq	%rsi, %rbx
	jne	.LBB54_52
	andl	$1, %r11d
	orq	%r10, %r11
	movq	%r11, -24(%rax,%rcx)
	jmp	.LBB54_53
.LBB54_52:
	movq	%r10, -16(%rax,%rcx)
.LBB54_53:
	movq	16(%rsp), %rax
.LBB54_54:
	movq	(%rdx), %rcx
	movq	%rsi, -16(%rcx,%r15)
	movq	(%rdx), %rcx
	movq	-8(%rcx,%r9), %r11
	andl	$1, %r11d
	orq	%r10, %r11
	movq	%r11, -8(%rcx,%r9)
	movq	(%rdx), %rcx
	andq	$-2, -8(%rcx,%r9)
	movq	%rax, %r10
	jmp	.LBB54_77
	.def	ic_raw.search_calls.insert;
	.scl	3;
	.type	32;
	.endef
	.p2align	4
ic_raw.search_calls.insert:
	pushq	%r15
	pushq	%r14
	pushq	%r13
	pushq	%r12
	pushq	%rsi
	pushq	%rdi
	pushq	%rbp
	pushq	%rbx
	subq	$72, %rsp
	movq	%rcx, 56(%rsp)
	movq	%rdx, 64(%rsp)
	movq	%r9, 48(%rsp)
	cmpq	%rdx, %r9
	jb	.LBB55_73
	movq	%r8, %rax
	movq	176(%rsp), %r8
	movabsq	$68719476728, %rsi
	movq	(%r8), %r10
	andq	%rsi, %r10
	movl	184(%rsp), %r8d
	incl	%r8d
	leaq	(,%r8,8), %r9
	testq	%r10, %r10
	movq	%r10, 40(%rsp)
	je	.LBB55_7
	shrq	$3, %r10
	cmpq	%rdx, %r10
	ja	.LBB55_73
	testq	%r8, %r8
	je	.LBB55_73
	cmpq	%r8, %rdx
	jb	.LBB55_73
	leaq	(%r10,%r10,2), %r10
	movq	-24(%rcx,%r10,8), %r10
	andl	$1, %r10d
	je	.LBB55_73
	movq	-8(%rax,%r9), %rbx
	leaq	(,%rdx,8), %r15
	movl	$22, %ebp
	movq	40(%rsp), %r12
	.p2align	4
.LBB55_11:
	movq	%r12, %r10
	shrq	$3, %r10
	leaq	(%r10,%r10,2), %r10
	movq	-24(%rcx,%r10,8), %r11
	movq	-16(%rcx,%r10,8), %r10
	movq	-8(%rax,%r12), %rdi
	cmpq	%rdi, %rbx
	movq	%r11, %r13
	cmovaeq	%r10, %r13
	andq	%rsi, %r13
	leaq	-1(%r13), %r14
	cmpq	%r15, %r14
	jae	.LBB55_71
	movq	%r13, %r10
	shrq	$3, %r10
	leaq	(%r10,%r10,2), %r10
	movq	-24(%rcx,%r10,8), %r11
	movq	-16(%rcx,%r10,8), %r12
	movq	-8(%rax,%r13), %rdi
	cmpq	%rdi, %rbx
	movq	%r11, %r10
	cmovaeq	%r12, %r10
	andq	%rsi, %r10
	leaq	-1(%r10), %r14
	cmpq	%r15, %r14
	jae	.LBB55_72
	movq	%r10, %r11
	shrq	$3, %r11
	leaq	(%r11,%r11,2), %rdi
	movq	-24(%rcx,%rdi,8), %r11
	movq	-16(%rcx,%rdi,8), %r13
	movq	-8(%rax,%r10), %rdi
	cmpq	%rdi, %rbx
	movq	%r11, %r12
	cmovaeq	%r13, %r12
	andq	%rsi, %r12
	leaq	-1(%r12), %r14
	cmpq	%r15, %r14
	jae	.LBB55_14
	decl	%ebp
	jne	.LBB55_11
	jmp	.LBB55_73
.LBB55_7:
	testq	%r8, %r8
	je	.LBB55_73
	cmpq	%r8, %rdx
	jb	.LBB55_73
	xorl	%ebx, %ebx
	movb	$1, %al
	shlq	$3, %r8
	leaq	(%r8,%r8,2), %r10
	testb	$1, -24(%rcx,%r10)
	je	.LBB55_20
	jmp	.LBB55_73
.LBB55_71:
	cmpq	%rdi, %rbx
	setae	%al
	cmpq	%r13, %r11
	setae	%r11b
	cmpq	%r13, %r10
	setae	%bpl
	xorl	%ebx, %ebx
	orb	%r11b, %bpl
	cmovneq	%r12, %rbx
	jmp	.LBB55_15
.LBB55_72:
	cmpq	%rdi, %rbx
	setae	%al
	cmpq	%r10, %r11
	setae	%r11b
	cmpq	%r10, %r12
	setae	%bpl
	xorl	%ebx, %ebx
	orb	%r11b, %bpl
	cmovneq	%r13, %rbx
	jmp	.LBB55_15
.LBB55_14:
	cmpq	%rdi, %rbx
	setae	%al
	cmpq	%r12, %r11
	setae	%r11b
	cmpq	%r12, %r13
	setae	%bpl
	xorl	%ebx, %ebx
	orb	%r11b, %bpl
	cmovneq	%r10, %rbx
.LBB55_15:
	andb	%bpl, %al
	testb	%bpl, %bpl
	je	.LBB55_73
	testq	%rbx, %rbx
	je	.LBB55_73
	movq	%rbx, %r10
	shrq	$3, %r10
	leaq	(%r10,%r10,2), %r10
	testb	$1, -24(%rcx,%r10,8)
	je	.LBB55_73
	xorb	$1, %al
	shlq	$3, %r8
	leaq	(%r8,%r8,2), %r10
	testb	$1, -24(%rcx,%r10)
	jne	.LBB55_73
.LBB55_20:
	movq	$1, -24(%rcx,%r10)
	movq	$0, -16(%rcx,%r10)
	testq	%rbx, %rbx
	je	.LBB55_21
	movq	%rbx, -8(%rcx,%r10)
	leaq	(%rbx,%rbx,2), %r8
	testb	%al, %al
	movq	%r9, %rdi
	je	.LBB55_24
	movq	-24(%rcx,%r8), %rax
	andl	$1, %eax
	orq	%rdi, %rax
	movq	%rax, -24(%rcx,%r8)
	jmp	.LBB55_25
.LBB55_21:
	movq	$1, -8(%rcx,%r10)
	movq	176(%rsp), %r12
	jmp	.LBB55_69
.LBB55_73:
	leaq	56(%rsp), %rcx
	movq	48(%rsp), %rdx
	movl	184(%rsp), %r8d
	callq	ic_raw.search.refusal_of
	jmp	.LBB55_70
.LBB55_24:
	movq	%rdi, -16(%rcx,%r8)
.LBB55_25:
	shlq	$3, %rdx
	movl	$67, %ebp
	xorl	%r8d, %r8d
	jmp	.LBB55_26
	.p2align	4
.LBB55_33:
	movq	-8(%rcx,%r8), %r11
	andq	%rsi, %r11
	decq	%r11
	xorl	%edi, %edi
	cmpq	%rdx, %r11
	setae	%dil
	orq	$1, %r14
	movq	%r14, -8(%rcx,%r9)
	orb	$1, -8(%rcx,%r10)
	movq	-8(%rcx,%r8), %r9
	andq	$-2, %r9
	orq	%rdi, %r9
	movq	%r9, -8(%rcx,%r8)
	andq	%rsi, %r9
	xorl	%ebx, %ebx
	cmpq	%rdx, %r9
	cmovbeq	%r9, %rbx
	testq	%rbx, %rbx
	sete	%r8b
	movq	%rax, %rdi
	decl	%ebp
	je	.LBB55_27
.LBB55_26:
	testb	$1, %r8b
	jne	.LBB55_27
	leaq	(%rbx,%rbx,2), %r9
	movq	-8(%rcx,%r9), %r14
	testb	$1, %r14b
	jne	.LBB55_27
	movq	%r14, %rax
	andq	%rsi, %rax
	leaq	-1(%rax), %r8
	cmpq	%rdx, %r8
	jae	.LBB55_27
	leaq	(%rax,%rax,2), %r8
	movq	-24(%rcx,%r8), %r15
	movq	%r15, %r11
	andq	%rsi, %r11
	xorl	%r10d, %r10d
	cmpq	%rdx, %r11
	cmovbeq	%r11, %r10
	cmpq	%rbx, %r10
	jne	.LBB55_48
	movq	-16(%rcx,%r8), %r10
	andq	%rsi, %r10
	leaq	-1(%r10), %r11
	cmpq	%rdx, %r11
	jae	.LBB55_34
	leaq	(%r10,%r10,2), %r10
	testb	$1, -8(%rcx,%r10)
	je	.LBB55_33
	jmp	.LBB55_34
	.p2align	4
.LBB55_48:
	testq	%r10, %r10
	je	.LBB55_50
	leaq	(%r10,%r10,2), %r10
	testb	$1, -8(%rcx,%r10)
	je	.LBB55_33
.LBB55_50:
	movq	-24(%rcx,%r9), %r10
	movq	%r10, %r15
	andq	%rsi, %r15
	cmpq	%rdx, %r15
	ja	.LBB55_51
	cmpq	%rdi, %r15
	movq	176(%rsp), %r12
	movq	40(%rsp), %r13
	jne	.LBB55_53
	movq	%rdi, %rbp
	leaq	(%rdi,%rdi,2), %r14
	movq	-16(%rcx,%r14), %r11
	andq	%rsi, %r11
	xorl	%r15d, %r15d
	cmpq	%rdx, %r11
	cmovbeq	%r11, %r15
	andl	$1, %r10d
	orq	%r15, %r10
	movq	%r10, -24(%rcx,%r9)
	testq	%r15, %r15
	je	.LBB55_56
	shrq	$3, %r15
	leaq	(%r15,%r15,2), %r10
	movq	-8(%rcx,%r10,8), %r11
	andl	$1, %r11d
	orq	%rbx, %r11
	movq	%r11, -8(%rcx,%r10,8)
.LBB55_56:
	movq	%rax, -8(%rcx,%r14)
	movq	-24(%rcx,%r8), %r10
	movq	%r10, %r11
	andq	%rsi, %r11
	xorl	%edi, %edi
	cmpq	%rdx, %r11
	cmovbeq	%r11, %rdi
	cmpq	%rbx, %rdi
	jne	.LBB55_58
	andl	$1, %r10d
	movq	%rbp, %rdi
	orq	%rbp, %r10
	movq	%r10, -24(%rcx,%r8)
	jmp	.LBB55_59
.LBB55_27:
	movq	40(%rsp), %r9
	movq	176(%rsp), %r12
	jmp	.LBB55_69
.LBB55_34:
	movq	-24(%rcx,%r9), %r10
	andq	%rsi, %r10
	cmpq	%rdx, %r10
	ja	.LBB55_37
	cmpq	%rdi, %r10
	jne	.LBB55_37
	movq	%r9, %r14
	movq	%rbx, %r13
	movq	176(%rsp), %r12
	movq	40(%rsp), %rdi
	jmp	.LBB55_40
.LBB55_37:
	movq	%rdi, %r13
	leaq	(%rdi,%rdi,2), %r14
	movq	-24(%rcx,%r14), %r11
	andq	%rsi, %r11
	xorl	%r10d, %r10d
	cmpq	%rdx, %r11
	cmovbeq	%r11, %r10
	movq	%r10, -16(%rcx,%r9)
	testq	%r10, %r10
	movq	176(%rsp), %r12
	movq	40(%rsp), %rdi
	je	.LBB55_39
	shrq	$3, %r10
	leaq	(%r10,%r10,2), %r10
	movq	-8(%rcx,%r10,8), %r11
	andl	$1, %r11d
	orq	%rbx, %r11
	movq	%r11, -8(%rcx,%r10,8)
.LBB55_39:
	movq	%rax, -8(%rcx,%r14)
	andl	$1, %r15d
	orq	%r13, %r15
	movq	%r15, -24(%rcx,%r8)
	movq	-24(%rcx,%r14), %r10
	andl	$1, %r10d
	orq	%rbx, %r10
	movq	%r10, -24(%rcx,%r14)
	movq	%r13, -8(%rcx,%r9)
	movq	-24(%rcx,%r8), %r15
.LBB55_40:
	movq	-16(%rcx,%r14), %r10
	andq	%rsi, %r10
	xorl	%r11d, %r11d
	cmpq	%rdx, %r10
	cmovaq	%r11, %r10
	movq	-8(%rcx,%r8), %r9
	andq	%rsi, %r9
	cmpq	%rdx, %r9
	cmovaq	%r11, %r9
	andl	$1, %r15d
	orq	%r10, %r15
	movq	%r15, -24(%rcx,%r8)
	testq	%r10, %r10
	je	.LBB55_42
	shrq	$3, %r10
	leaq	(%r10,%r10,2), %r10
	movq	-8(%rcx,%r10,8), %r11
	andl	$1, %r11d
	orq	%rax, %r11
	movq	%r11, -8(%rcx,%r10,8)
.LBB55_42:
	movq	%r9, %r10
	orq	$1, %r10
	movq	%r10, -8(%rcx,%r14)
	movq	%r13, %r11
	movq	%r13, %r10
	testq	%r9, %r9
	je	.LBB55_47
	leaq	(%r9,%r9,2), %r9
	movq	-24(%rcx,%r9), %r10
	andq	%r10, %rsi
	xorl	%r11d, %r11d
	cmpq	%rdx, %rsi
	cmovbeq	%rsi, %r11
	cmpq	%rax, %r11
	jne	.LBB55_45
	andl	$1, %r10d
	movq	%r13, %r11
	orq	%r13, %r10
	movq	%r10, -24(%rcx,%r9)
	jmp	.LBB55_46
.LBB55_45:
	movq	%r13, %r11
	movq	%r13, -16(%rcx,%r9)
.LBB55_46:
	movq	%rdi, %r10
.LBB55_47:
	movq	%rax, -16(%rcx,%r14)
	movq	%r11, -8(%rcx,%r8)
	jmp	.LBB55_68
.LBB55_53:
	movq	%r9, %r14
	movq	%rbx, %rdi
	jmp	.LBB55_60
.LBB55_51:
	movq	%r9, %r14
	movq	%rbx, %rdi
	movq	176(%rsp), %r12
	movq	40(%rsp), %r13
	jmp	.LBB55_60
.LBB55_58:
	movq	%rbp, %rdi
	movq	%rbp, -16(%rcx,%r8)
.LBB55_59:
	movq	%rbx, -16(%rcx,%r14)
	movq	%rdi, -8(%rcx,%r9)
	movq	-24(%rcx,%r14), %r15
	andq	%rsi, %r15
.LBB55_60:
	xorl	%r10d, %r10d
	cmpq	%rdx, %r15
	cmovaq	%r10, %r15
	movq	-8(%rcx,%r8), %r9
	andq	%rsi, %r9
	cmpq	%rdx, %r9
	cmovaq	%r10, %r9
	movq	%r15, -16(%rcx,%r8)
	testq	%r15, %r15
	je	.LBB55_62
	shrq	$3, %r15
	leaq	(%r15,%r15,2), %r10
	movq	-8(%rcx,%r10,8), %r11
	andl	$1, %r11d
	orq	%rax, %r11
	movq	%r11, -8(%rcx,%r10,8)
.LBB55_62:
	movq	%r9, %r10
	orq	$1, %r10
	movq	%r10, -8(%rcx,%r14)
	movq	%rdi, %r10
	testq	%r9, %r9
	je	.LBB55_67
	leaq	(%r9,%r9,2), %r9
	movq	-24(%rcx,%r9), %r10
	andq	%r10, %rsi
	xorl	%r11d, %r11d
	cmpq	%rdx, %rsi
	cmovbeq	%rsi, %r11
	cmpq	%rax, %r11
	jne	.LBB55_65
	andl	$1, %r10d
	orq	%rdi, %r10
	movq	%r10, -24(%rcx,%r9)
	jmp	.LBB55_66
.LBB55_65:
	movq	%rdi, -16(%rcx,%r9)
.LBB55_66:
	movq	%r13, %r10
.LBB55_67:
	movq	-24(%rcx,%r14), %rdx
	andl	$1, %edx
	orq	%rax, %rdx
	movq	%rdx, -24(%rcx,%r14)
	movq	%rdi, -8(%rcx,%r8)
.LBB55_68:
	movq	%r10, %r9
.LBB55_69:
	movq	%r9, (%r12)
	xorl	%eax, %eax
.LBB55_70:
	addq	$72, %rsp
	popq	%rbx
	popq	%rbp
	popq	%rdi
	popq	%rsi
	popq	%r12
	popq	%r13
	popq	%r14
	popq	%r15
	retq
	.def	ic_raw.search.refusal_of;
	.scl	3;
	.type	32;
	.endef
	.p2align	4
ic_raw.search.refusal_of:
	cmpq	8(%rcx), %rdx
	jae	.LBB56_2
	movl	$1, %eax
	retq
.LBB56_2:
	movl	$-1, %edx
	jmp	ic_raw.table.RawTable.refusal.19bacce014a8892a
	.def	ic_raw.table.RawTable.refusal.19bacce014a8892a;
	.scl	3;
	.type	32;
	.endef
	.p2align	4
ic_raw.table.RawTable.refusal.19bacce014a8892a:
	incl	%edx
	jne	.LBB57_1
.LBB57_3:
	movl	$1, %eax
	incl	%r8d
	je	.LBB57_6
	cmpq	%r8, 8(%rcx)
	jb	.LBB57_6
	movq	(%rcx), %rax
	leaq	(%r8,%r8,2), %rcx
	xorl	%edx, %edx
	testb	$1, -24(%rax,%rcx,8)
	sete	%dl
	leal	(%rdx,%rdx,2), %eax
	addl	$2, %eax
	retq
.LBB57_1:
	movl	$1, %eax
	cmpq	%rdx, 8(%rcx)
	jb	.LBB57_6
	movq	(%rcx), %r9
	leaq	(%rdx,%rdx,2), %rdx
	movl	$3, %eax
	testb	$1, -24(%r9,%rdx,8)
	jne	.LBB57_3
.LBB57_6:
	retq
	.def	ic_raw.tree_calls.insert_at;
	.scl	3;
	.type	32;
	.endef
	.p2align	4
ic_raw.tree_calls.insert_at:
	pushq	%r15
	pushq	%r14
	pushq	%r13
	pushq	%r12
	pushq	%rsi
	pushq	%rdi
	pushq	%rbp
	pushq	%rbx
	subq	$56, %rsp
	movl	168(%rsp), %eax
	movl	160(%rsp), %r10d
	movq	%rcx, 40(%rsp)
	movq	%rdx, 48(%rsp)
	movabsq	$68719476728, %rsi
	movq	(%r8), %r11
	andq	%rsi, %r11
	leal	1(%r10), %ebx
	movl	%r10d, %edi
	incl	%edi
	jne	.LBB58_2
	testq	%r11, %r11
	je	.LBB58_7
	jmp	.LBB58_14
.LBB58_2:
	cmpq	%rbx, %rdx
	jb	.LBB58_14
	leaq	(%rbx,%rbx,2), %rdi
	testb	$1, -24(%rcx,%rdi,8)
	je	.LBB58_14
	leaq	(,%rdx,8), %r14
	leaq	-1(%r11), %r15
	cmpq	%r14, %r15
	jae	.LBB58_14
	movq	%r11, %r14
	shrq	$3, %r14
	leaq	(%r14,%r14,2), %r14
	testb	$1, -24(%rcx,%r14,8)
	je	.LBB58_14
	leaq	(%rcx,%rdi,8), %rdi
	movzbl	%r9b, %r14d
	testq	%rsi, -24(%rdi,%r14,8)
	jne	.LBB58_14
.LBB58_7:
	leal	1(%rax), %edi
	testq	%rdi, %rdi
	je	.LBB58_14
	cmpq	%rdi, %rdx
	jb	.LBB58_14
	leaq	(,%rdi,8), %r14
	leaq	(%r14,%r14,2), %r14
	testb	$1, -24(%rcx,%r14)
	jne	.LBB58_14
	shlq	$3, %rdi
	movq	$0, -8(%rcx,%r14)
	movq	$1, -24(%rcx,%r14)
	movq	$0, -16(%rcx,%r14)
	testq	%rbx, %rbx
	je	.LBB58_13
	shlq	$3, %rbx
	movq	%rbx, -8(%rcx,%r14)
	leaq	(%rbx,%rbx,2), %rax
	testb	%r9b, %r9b
	je	.LBB58_15
	movq	%rdi, -16(%rcx,%rax)
	jmp	.LBB58_16
.LBB58_13:
	movq	$1, -8(%rcx,%r14)
	jmp	.LBB58_64
.LBB58_14:
	leaq	40(%rsp), %rcx
	movl	%r10d, %edx
	movl	%eax, %r8d
	callq	ic_raw.table.RawTable.refusal.19bacce014a8892a
	jmp	.LBB58_65
.LBB58_15:
	movq	-24(%rcx,%rax), %r9
	andl	$1, %r9d
	orq	%rdi, %r9
	movq	%r9, -24(%rcx,%rax)
.LBB58_16:
	shlq	$3, %rdx
	movl	$67, %ebp
	xorl	%r9d, %r9d
	jmp	.LBB58_18
	.p2align	4
.LBB58_17:
	movq	-8(%rcx,%r9), %r10
	andq	$-2, %r10
	orq	%rbx, %r10
	movq	%r10, -8(%rcx,%r9)
	andq	%rsi, %r10
	xorl	%ebx, %ebx
	cmpq	%rdx, %r10
	cmovbeq	%r10, %rbx
	testq	%rbx, %rbx
	sete	%r9b
	movq	%rax, %rdi
	decl	%ebp
	je	.LBB58_28
.LBB58_18:
	testb	$1, %r9b
	jne	.LBB58_28
	leaq	(%rbx,%rbx,2), %r10
	movq	-8(%rcx,%r10), %r14
	testb	$1, %r14b
	jne	.LBB58_28
	movq	%r14, %rax
	andq	%rsi, %rax
	leaq	-1(%rax), %r9
	cmpq	%rdx, %r9
	jae	.LBB58_28
	leaq	(%rax,%rax,2), %r9
	movq	-24(%rcx,%r9), %r15
	movq	%r15, %r13
	andq	%rsi, %r13
	xorl	%r12d, %r12d
	cmpq	%rdx, %r13
	cmovbeq	%r13, %r12
	cmpq	%rbx, %r12
	jne	.LBB58_25
	movq	-16(%rcx,%r9), %r12
	andq	%rsi, %r12
	leaq	-1(%r12), %r13
	cmpq	%rdx, %r13
	jae	.LBB58_37
	leaq	(%r12,%r12,2), %r12
	testb	$1, -8(%rcx,%r12)
	jne	.LBB58_37
	movq	-8(%rcx,%r9), %rdi
	andq	%rsi, %rdi
	decq	%rdi
	xorl	%ebx, %ebx
	cmpq	%rdx, %rdi
	setae	%bl
	orq	$1, %r14
	movq	%r14, -8(%rcx,%r10)
	orb	$1, -8(%rcx,%r12)
	jmp	.LBB58_17
	.p2align	4
.LBB58_25:
	testq	%r12, %r12
	je	.LBB58_31
	leaq	(%r12,%r12,2), %r15
	testb	$1, -8(%rcx,%r15)
	jne	.LBB58_31
	movq	-8(%rcx,%r9), %rdi
	andq	%rsi, %rdi
	decq	%rdi
	xorl	%ebx, %ebx
	cmpq	%rdx, %rdi
	setae	%bl
	orq	$1, %r14
	movq	%r14, -8(%rcx,%r10)
	orb	$1, -8(%rcx,%r15)
	jmp	.LBB58_17
.LBB58_28:
	movq	%r11, %rdi
	jmp	.LBB58_64
.LBB58_31:
	movq	-24(%rcx,%r10), %r12
	movq	%r12, %r15
	andq	%rsi, %r15
	cmpq	%rdx, %r15
	ja	.LBB58_41
	cmpq	%rdi, %r15
	jne	.LBB58_41
	leaq	(%rdi,%rdi,2), %r14
	movq	-16(%rcx,%r14), %r13
	andq	%rsi, %r13
	xorl	%r15d, %r15d
	cmpq	%rdx, %r13
	cmovbeq	%r13, %r15
	andl	$1, %r12d
	orq	%r15, %r12
	movq	%r12, -24(%rcx,%r10)
	testq	%r15, %r15
	je	.LBB58_35
	shrq	$3, %r15
	leaq	(%r15,%r15,2), %r15
	movq	-8(%rcx,%r15,8), %r12
	andl	$1, %r12d
	orq	%rbx, %r12
	movq	%r12, -8(%rcx,%r15,8)
.LBB58_35:
	movq	%rax, -8(%rcx,%r14)
	movq	-24(%rcx,%r9), %r15
	movq	%r15, %r12
	andq	%rsi, %r12
	xorl	%r13d, %r13d
	cmpq	%rdx, %r12
	cmovbeq	%r12, %r13
	cmpq	%rbx, %r13
	jne	.LBB58_53
	andl	$1, %r15d
	orq	%rdi, %r15
	movq	%r15, -24(%rcx,%r9)
	jmp	.LBB58_54
.LBB58_37:
	movq	-24(%rcx,%r10), %r14
	andq	%rsi, %r14
	cmpq	%rdx, %r14
	ja	.LBB58_42
	cmpq	%rdi, %r14
	jne	.LBB58_42
	movq	%r10, %r14
	movq	%rbx, %rdi
	jmp	.LBB58_45
.LBB58_41:
	movq	%r10, %r14
	movq	%rbx, %rdi
	jmp	.LBB58_55
.LBB58_42:
	leaq	(%rdi,%rdi,2), %r14
	movq	-24(%rcx,%r14), %r13
	andq	%rsi, %r13
	xorl	%r12d, %r12d
	cmpq	%rdx, %r13
	cmovbeq	%r13, %r12
	movq	%r12, -16(%rcx,%r10)
	testq	%r12, %r12
	je	.LBB58_44
	shrq	$3, %r12
	leaq	(%r12,%r12,2), %r12
	movq	-8(%rcx,%r12,8), %r13
	andl	$1, %r13d
	orq	%rbx, %r13
	movq	%r13, -8(%rcx,%r12,8)
.LBB58_44:
	movq	%rax, -8(%rcx,%r14)
	andl	$1, %r15d
	orq	%rdi, %r15
	movq	%r15, -24(%rcx,%r9)
	movq	-24(%rcx,%r14), %r15
	andl	$1, %r15d
	orq	%rbx, %r15
	movq	%r15, -24(%rcx,%r14)
	movq	%rdi, -8(%rcx,%r10)
	movq	-24(%rcx,%r9), %r15
.LBB58_45:
	movq	-16(%rcx,%r14), %rbx
	andq	%rsi, %rbx
	xorl	%r12d, %r12d
	cmpq	%rdx, %rbx
	cmovaq	%r12, %rbx
	movq	-8(%rcx,%r9), %r10
	andq	%rsi, %r10
	cmpq	%rdx, %r10
	cmovaq	%r12, %r10
	andl	$1, %r15d
	orq	%rbx, %r15
	movq	%r15, -24(%rcx,%r9)
	testq	%rbx, %rbx
	je	.LBB58_47
	shrq	$3, %rbx
	leaq	(%rbx,%rbx,2), %rbx
	movq	-8(%rcx,%rbx,8), %r15
	andl	$1, %r15d
	orq	%rax, %r15
	movq	%r15, -8(%rcx,%rbx,8)
.LBB58_47:
	movq	%r10, %rbx
	orq	$1, %rbx
	movq	%rbx, -8(%rcx,%r14)
	movq	%rdi, %rbx
	testq	%r10, %r10
	je	.LBB58_52
	leaq	(%r10,%r10,2), %r10
	movq	-24(%rcx,%r10), %rbx
	andq	%rbx, %rsi
	xorl	%r15d, %r15d
	cmpq	%rdx, %rsi
	cmovbeq	%rsi, %r15
	cmpq	%rax, %r15
	jne	.LBB58_50
	andl	$1, %ebx
	orq	%rdi, %rbx
	movq	%rbx, -24(%rcx,%r10)
	jmp	.LBB58_51
.LBB58_50:
	movq	%rdi, -16(%rcx,%r10)
.LBB58_51:
	movq	%r11, %rbx
.LBB58_52:
	movq	%rax, -16(%rcx,%r14)
	jmp	.LBB58_63
.LBB58_53:
	movq	%rdi, -16(%rcx,%r9)
.LBB58_54:
	movq	%rbx, -16(%rcx,%r14)
	movq	%rdi, -8(%rcx,%r10)
	movq	-24(%rcx,%r14), %r15
	andq	%rsi, %r15
.LBB58_55:
	xorl	%ebx, %ebx
	cmpq	%rdx, %r15
	cmovaq	%rbx, %r15
	movq	-8(%rcx,%r9), %r10
	andq	%rsi, %r10
	cmpq	%rdx, %r10
	cmovaq	%rbx, %r10
	movq	%r15, -16(%rcx,%r9)
	testq	%r15, %r15
	je	.LBB58_57
	shrq	$3, %r15
	leaq	(%r15,%r15,2), %rbx
	movq	-8(%rcx,%rbx,8), %r15
	andl	$1, %r15d
	orq	%rax, %r15
	movq	%r15, -8(%rcx,%rbx,8)
.LBB58_57:
	movq	%r10, %rbx
	orq	$1, %rbx
	movq	%rbx, -8(%rcx,%r14)
	movq	%rdi, %rbx
	testq	%r10, %r10
	je	.LBB58_62
	leaq	(%r10,%r10,2), %r10
	movq	-24(%rcx,%r10), %rbx
	andq	%rbx, %rsi
	xorl	%r15d, %r15d
	cmpq	%rdx, %rsi
	cmovbeq	%rsi, %r15
	cmpq	%rax, %r15
	jne	.LBB58_60
	andl	$1, %ebx
	orq	%rdi, %rbx
	movq	%rbx, -24(%rcx,%r10)
	jmp	.LBB58_61
.LBB58_60:
	movq	%rdi, -16(%rcx,%r10)
.LBB58_61:
	movq	%r11, %rbx
.LBB58_62:
	movq	-24(%rcx,%r14), %rdx
	andl	$1, %edx
	orq	%rax, %rdx
	movq	%rdx, -24(%rcx,%r14)
.LBB58_63:
	movq	%rdi, -8(%rcx,%r9)
	movq	%rbx, %rdi
.LBB58_64:
	movq	%rdi, (%r8)
	xorl	%eax, %eax
.LBB58_65:
	addq	$56, %rsp
	popq	%rbx
	popq	%rbp
	popq	%rdi
	popq	%rsi
	popq	%r12
	popq	%r13
	popq	%r14
	popq	%r15
	retq
	.def	ic_raw_keyed.ends_calls.remove;
	.scl	3;
	.type	32;
	.endef
	.p2align	4
ic_raw_keyed.ends_calls.remove:
	pushq	%r15
	pushq	%r14
	pushq	%r12
	pushq	%rsi
	pushq	%rdi
	pushq	%rbp
	pushq	%rbx
	subq	$32, %rsp
	movq	%r9, %rsi
	movl	128(%rsp), %r9d
	leal	1(%r9), %r11d
	movl	%r9d, %r10d
	movl	$4, %eax
	incl	%r10d
	je	.LBB59_42
	leaq	(,%r11,8), %rax
	movabsq	$68719476728, %r10
	movq	(%rsi), %rdi
	andq	%r10, %rdi
	cmpq	%rax, %rdi
	jne	.LBB59_21
	cmpq	%r11, %rdx
	jb	.LBB59_3
	movq	(%r8), %rdi
	andq	%r10, %rdi
	sete	%bl
	shrq	$3, %rdi
	cmpq	%rdx, %rdi
	setbe	%dil
	orb	%bl, %dil
	cmpb	$1, %dil
	jne	.LBB59_3
	leaq	(,%r11,8), %rdi
	leaq	(%rdi,%rdi,2), %rdi
	leaq	(,%rdx,8), %rbx
	movq	-16(%rcx,%rdi), %r15
	andq	%r10, %r15
	leaq	-1(%r15), %r14
	cmpq	%rbx, %r14
	jae	.LBB59_12
	movl	$66, %ebp
	.p2align	4
.LBB59_10:
	movq	%r15, %rdi
	shrq	$3, %rdi
	leaq	(%rdi,%rdi,2), %rdi
	movq	-24(%rcx,%rdi,8), %rdi
	andq	%r10, %rdi
	leaq	-1(%rdi), %r12
	movb	$1, %r14b
	cmpq	%rbx, %r12
	jae	.LBB59_11
	testl	%ebp, %ebp
	je	.LBB59_17
	movq	%rdi, %r15
	shrq	$3, %r15
	leaq	(%r15,%r15,2), %r15
	movq	-24(%rcx,%r15,8), %r15
	andq	%r10, %r15
	leaq	-1(%r15), %r12
	cmpq	%rbx, %r12
	jae	.LBB59_17
	addl	$-2, %ebp
	jmp	.LBB59_10
.LBB59_12:
	movq	-8(%rcx,%rdi), %r15
	andq	%r10, %r15
	leaq	-1(%r15), %rdi
	cmpq	%rbx, %rdi
	jae	.LBB59_3
	movl	$-67, %ebp
	movq	%rax, %rdi
	.p2align	4
.LBB59_14:
	movq	%rdi, %r14
	movq	%r15, %rdi
	leaq	(%r15,%r15,2), %r15
	movq	-16(%rcx,%r15), %r12
	andq	%r10, %r12
	cmpq	%r14, %r12
	setne	%r12b
	testl	%ebp, %ebp
	sete	%r14b
	orb	%r12b, %r14b
	jne	.LBB59_17
	movq	-8(%rcx,%r15), %r15
	andq	%r10, %r15
	leaq	-1(%r15), %r12
	incl	%ebp
	cmpq	%rbx, %r12
	jb	.LBB59_14
	jmp	.LBB59_16
.LBB59_3:
	xorl	%r14d, %r14d
.LBB59_16:
	xorl	%edi, %edi
.LBB59_17:
	cmpq	%rax, %rdi
	je	.LBB59_43
.LBB59_18:
	testb	%r14b, %r14b
	je	.LBB59_21
	movq	%rdi, %rbx
	shrq	$3, %rbx
	cmpq	%rdx, %rbx
	ja	.LBB59_43
	leaq	(%rbx,%rbx,2), %rbx
	testb	$1, -24(%rcx,%rbx,8)
	je	.LBB59_43
.LBB59_21:
	movq	8(%rsi), %rbx
	andq	%r10, %rbx
	cmpq	%rax, %rbx
	jne	.LBB59_41
	cmpq	%r11, %rdx
	jb	.LBB59_23
	movq	(%r8), %rbx
	andq	%r10, %rbx
	sete	%bpl
	shrq	$3, %rbx
	cmpq	%rdx, %rbx
	setbe	%bl
	orb	%bpl, %bl
	cmpb	$1, %bl
	jne	.LBB59_23
	shlq	$3, %r11
	leaq	(%r11,%r11,2), %rbx
	leaq	(,%rdx,8), %r11
	movq	-24(%rcx,%rbx), %r15
	andq	%r10, %r15
	leaq	-1(%r15), %r14
	cmpq	%r11, %r14
	jae	.LBB59_32
	movl	$66, %ebp
	.p2align	4
.LBB59_27:
	movq	%r15, %rbx
	shrq	$3, %rbx
	leaq	(%rbx,%rbx,2), %rbx
	movq	-16(%rcx,%rbx,8), %rbx
	andq	%r10, %rbx
	leaq	-1(%rbx), %r12
	movb	$1, %r14b
	cmpq	%r11, %r12
	jae	.LBB59_28
	testl	%ebp, %ebp
	je	.LBB59_37
	movq	%rbx, %r15
	shrq	$3, %r15
	leaq	(%r15,%r15,2), %r15
	movq	-16(%rcx,%r15,8), %r15
	andq	%r10, %r15
	leaq	-1(%r15), %r12
	cmpq	%r11, %r12
	jae	.LBB59_37
	addl	$-2, %ebp
	jmp	.LBB59_27
.LBB59_32:
	movq	-8(%rcx,%rbx), %r15
	andq	%r10, %r15
	leaq	-1(%r15), %rbx
	cmpq	%r11, %rbx
	jae	.LBB59_23
	movl	$-67, %ebp
	movq	%rax, %rbx
	.p2align	4
.LBB59_34:
	movq	%rbx, %r14
	movq	%r15, %rbx
	leaq	(%r15,%r15,2), %r15
	movq	-24(%rcx,%r15), %r12
	andq	%r10, %r12
	cmpq	%r14, %r12
	setne	%r12b
	testl	%ebp, %ebp
	sete	%r14b
	orb	%r12b, %r14b
	jne	.LBB59_37
	movq	-8(%rcx,%r15), %r15
	andq	%r10, %r15
	leaq	-1(%r15), %r12
	incl	%ebp
	cmpq	%r11, %r12
	jb	.LBB59_34
	jmp	.LBB59_36
.LBB59_23:
	xorl	%r14d, %r14d
.LBB59_36:
	xorl	%ebx, %ebx
.LBB59_37:
	cmpq	%rax, %rbx
	je	.LBB59_43
.LBB59_38:
	testb	%r14b, %r14b
	je	.LBB59_41
	movq	%rbx, %r10
	shrq	$3, %r10
	cmpq	%rdx, %r10
	ja	.LBB59_43
	leaq	(%r10,%r10,2), %r10
	testb	$1, -24(%rcx,%r10,8)
	je	.LBB59_43
.LBB59_41:
	callq	ic_raw.tree_calls.remove
	testl	%eax, %eax
	jne	.LBB59_42
	movq	%rdi, (%rsi)
	movq	%rbx, 8(%rsi)
	xorl	%eax, %eax
.LBB59_42:
	addq	$32, %rsp
	popq	%rbx
	popq	%rbp
	popq	%rdi
	popq	%rsi
	popq	%r12
	popq	%r14
	popq	%r15
	retq
.LBB59_11:
	movq	%r15, %rdi
	cmpq	%rax, %rdi
	jne	.LBB59_18
	jmp	.LBB59_43
.LBB59_28:
	movq	%r15, %rbx
	cmpq	%rax, %rbx
	jne	.LBB59_38
.LBB59_43:
	movq	%rax, %r8
	addq	$32, %rsp
	popq	%rbx
	popq	%rbp
	popq	%rdi
	popq	%rsi
	popq	%r12
	popq	%r14
	popq	%r15
	jmp	ic_raw.table.RawTable.refusal_of.59019f4869331413
	.def	ic_raw.table.RawTable.refusal_of.59019f4869331413;
	.scl	3;
	.type	32;
	.endef
	.p2align	4
ic_raw.table.RawTable.refusal_of.59019f4869331413:
	shrq	$3, %r8
	movl	$1, %eax
	cmpq	%rdx, %r8
	ja	.LBB60_2
	leaq	(%r8,%r8,2), %rax
	movzbl	-24(%rcx,%rax,8), %eax
	andl	$1, %eax
	leal	3(,%rax,2), %eax
.LBB60_2:
	retq
	.def	ic_raw.tree_calls.remove;
	.scl	3;
	.type	32;
	.endef
	.p2align	4
ic_raw.tree_calls.remove:
	pushq	%r15
	pushq	%r14
	pushq	%r13
	pushq	%r12
	pushq	%rsi
	pushq	%rdi
	pushq	%rbp
	pushq	%rbx
	subq	$32, %rsp
	movq	%r8, %rbp
	leal	1(%r9), %edi
	movl	%r9d, %r8d
	movl	$4, %eax
	incl	%r8d
	je	.LBB61_136
	cmpq	%rdi, %rdx
	jb	.LBB61_133
	shlq	$3, %rdi
	leaq	(%rdi,%rdi,2), %r15
	movq	-24(%rcx,%r15), %r14
	testb	$1, %r14b
	je	.LBB61_133
	movabsq	$68719476728, %r10
	movq	(%rbp), %rsi
	andq	%r10, %rsi
	leaq	(,%rdx,8), %r11
	leaq	-1(%rsi), %rax
	cmpq	%r11, %rax
	jae	.LBB61_133
	movq	%rsi, %rax
	shrq	$3, %rax
	leaq	(%rax,%rax,2), %rax
	testb	$1, -24(%rcx,%rax,8)
	je	.LBB61_133
	movq	-8(%rcx,%r15), %rbx
	movq	%rbx, %r8
	andq	%r10, %r8
	cmpq	%rdi, %rsi
	je	.LBB61_7
	testq	%r8, %r8
	je	.LBB61_133
.LBB61_7:
	andq	%r10, %r14
	leaq	-1(%r14), %rdx
	movq	-16(%rcx,%r15), %rax
	andq	%r10, %rax
	cmpq	%r11, %rdx
	movq	%r15, 24(%rsp)
	jae	.LBB61_27
	leaq	-1(%rax), %rdx
	cmpq	%r11, %rdx
	jae	.LBB61_28
	movl	$66, %edx
	.p2align	4
.LBB61_14:
	movq	%rax, %r8
	shrq	$3, %r8
	leaq	(%r8,%r8,2), %r8
	movq	-24(%rcx,%r8,8), %r14
	andq	%r10, %r14
	leaq	-1(%r14), %r9
	cmpq	%r11, %r9
	jae	.LBB61_15
	movq	%r14, %rax
	shrq	$3, %rax
	testl	%edx, %edx
	je	.LBB61_16
	leaq	(%rax,%rax,2), %r8
	movq	-24(%rcx,%r8,8), %rax
	andq	%r10, %rax
	leaq	-1(%rax), %r9
	cmpq	%r11, %r9
	jae	.LBB61_12
	addl	$-2, %edx
	jmp	.LBB61_14
.LBB61_27:
	xorl	%r14d, %r14d
	cmpq	%r11, %rax
	cmovbeq	%rax, %r14
.LBB61_28:
	xorl	%r15d, %r15d
	cmpq	%r11, %r8
	movl	$0, %edx
	cmovbeq	%r8, %rdx
	testq	%rdx, %rdx
	setne	%r9b
	je	.LBB61_29
	leaq	(%rdx,%rdx,2), %rax
	movq	-24(%rcx,%rax), %r8
	movq	%r8, %r15
	andq	%r10, %r15
	xorl	%r12d, %r12d
	cmpq	%r11, %r15
	cmovbeq	%r15, %r12
	cmpq	%rdi, %r12
	jne	.LBB61_32
	andl	$1, %r8d
	addq	%r14, %r8
	movq	%r8, -24(%rcx,%rax)
	xorl	%r15d, %r15d
	testq	%r14, %r14
	jne	.LBB61_134
	jmp	.LBB61_34
.LBB61_133:
	movl	%r9d, %r8d
	addq	$32, %rsp
	popq	%rbx
	popq	%rbp
	popq	%rdi
	popq	%rsi
	popq	%r12
	popq	%r13
	popq	%r14
	popq	%r15
	jmp	ic_raw.table.RawTable.refusal_at.19bacce014a8892a
.LBB61_29:
	movq	%r14, %rsi
	testq	%r14, %r14
	je	.LBB61_34
.LBB61_134:
	shrq	$3, %r14
	leaq	(%r14,%r14,2), %rax
	orq	$1, %rdx
	movq	%rdx, -8(%rcx,%rax,8)
	jmp	.LBB61_135
.LBB61_32:
	movq	%r14, -16(%rcx,%rax)
	movb	$1, %r15b
	testq	%r14, %r14
	jne	.LBB61_134
.LBB61_34:
	movq	%rbp, 8(%rsp)
	movq	%rsi, %rbp
	testb	$1, %bl
	jne	.LBB61_47
	jmp	.LBB61_46
.LBB61_15:
	leaq	(%rcx,%r8,8), %rdx
	movq	%rax, %r14
	jmp	.LBB61_17
.LBB61_16:
	leaq	(%rax,%rax,2), %rax
	leaq	(%rcx,%rax,8), %rdx
	movq	-24(%rcx,%rax,8), %rax
	andq	%r10, %rax
	leaq	-1(%rax), %r8
	cmpq	%r11, %r8
	jae	.LBB61_17
	jmp	.LBB61_18
.LBB61_12:
	leaq	(%rcx,%r8,8), %rdx
.LBB61_17:
	movq	-16(%rdx), %r8
	andq	%r10, %r8
	xorl	%eax, %eax
	cmpq	%r11, %r8
	cmovbeq	%r8, %rax
.LBB61_18:
	movq	-8(%rdx), %rbx
	movq	%rbx, %r8
	andq	%r10, %r8
	xorl	%r15d, %r15d
	cmpq	%r11, %r8
	movl	$0, %edx
	cmovbeq	%r8, %rdx
	testq	%rdx, %rdx
	setne	%r9b
	je	.LBB61_19
	leaq	(%rdx,%rdx,2), %r8
	movq	-24(%rcx,%r8), %r15
	movq	%r15, %r12
	andq	%r10, %r12
	xorl	%r13d, %r13d
	cmpq	%r11, %r12
	cmovbeq	%r12, %r13
	cmpq	%r14, %r13
	jne	.LBB61_22
	andl	$1, %r15d
	addq	%rax, %r15
	movq	%r15, -24(%rcx,%r8)
	xorl	%r15d, %r15d
	jmp	.LBB61_23
.LBB61_19:
	movq	%rax, %rsi
	jmp	.LBB61_23
.LBB61_22:
	movq	%rax, -16(%rcx,%r8)
	movb	$1, %r15b
.LBB61_23:
	testq	%rax, %rax
	je	.LBB61_25
	shrq	$3, %rax
	leaq	(%rax,%rax,2), %rax
	movq	%rdx, %r8
	orq	$1, %r8
	movq	%r8, -8(%rcx,%rax,8)
	xorl	%ebx, %ebx
.LBB61_25:
	movq	%rbp, 8(%rsp)
	cmpq	%rdi, %r14
	jne	.LBB61_35
	movq	%rsi, %rbp
	testb	$1, %bl
	jne	.LBB61_47
	jmp	.LBB61_46
.LBB61_35:
	movb	%r9b, 7(%rsp)
	leaq	(%rdi,%rdi,2), %r8
	movq	-8(%rcx,%r8), %r13
	movq	%r13, %r12
	andq	%r10, %r12
	xorl	%ebp, %ebp
	cmpq	%r11, %r12
	cmovaq	%rbp, %r12
	movq	-24(%rcx,%r8), %rax
	andq	%r10, %rax
	cmpq	%r11, %rax
	cmovaq	%rbp, %rax
	movq	-16(%rcx,%r8), %r8
	andq	%r10, %r8
	cmpq	%r11, %r8
	cmovaq	%rbp, %r8
	movq	%r14, %rbp
	testq	%r12, %r12
	je	.LBB61_40
	movq	%r13, 16(%rsp)
	leaq	(%r12,%r12,2), %r9
	movq	-24(%rcx,%r9), %r13
	movq	%r13, %rbp
	andq	%r10, %rbp
	xorl	%r9d, %r9d
	cmpq	%r11, %rbp
	cmovbeq	%rbp, %r9
	cmpq	%rdi, %r9
	jne	.LBB61_38
	andl	$1, %r13d
	addq	%r14, %r13
	leaq	(%r12,%r12,2), %r9
	movq	%r13, -24(%rcx,%r9)
	jmp	.LBB61_39
.LBB61_38:
	leaq	(%r12,%r12,2), %r9
	movq	%r14, -16(%rcx,%r9)
.LBB61_39:
	movq	%rsi, %rbp
	movq	16(%rsp), %r13
.LBB61_40:
	testq	%rax, %rax
	je	.LBB61_42
	movq	%rax, %r9
	shrq	$3, %r9
	leaq	(%r9,%r9,2), %r9
	movq	-8(%rcx,%r9,8), %rsi
	andl	$1, %esi
	addq	%r14, %rsi
	movq	%rsi, -8(%rcx,%r9,8)
.LBB61_42:
	testq	%r8, %r8
	je	.LBB61_44
	movq	%r8, %r9
	shrq	$3, %r9
	leaq	(%r9,%r9,2), %r9
	movq	-8(%rcx,%r9,8), %rsi
	andl	$1, %esi
	addq	%r14, %rsi
	movq	%rsi, -8(%rcx,%r9,8)
.LBB61_44:
	andl	$1, %r13d
	movq	%r14, %r9
	shrq	$3, %r9
	leaq	(%r9,%r9,2), %r9
	movq	-24(%rcx,%r9,8), %rsi
	andl	$1, %esi
	orq	%rax, %rsi
	movq	%rsi, -24(%rcx,%r9,8)
	movq	%r8, -16(%rcx,%r9,8)
	orq	%r13, %r12
	movq	%r12, -8(%rcx,%r9,8)
	cmpq	%rdi, %rdx
	cmoveq	%r14, %rdx
	movzbl	7(%rsp), %r9d
	testb	$1, %bl
	je	.LBB61_46
.LBB61_47:
	testb	%r9b, %r9b
	je	.LBB61_46
	movl	$67, %edi
	movq	%rbp, %rsi
	movq	8(%rsp), %rbp
	.p2align	4
.LBB61_49:
	leaq	(%rdx,%rdx,2), %r9
	testb	$1, %r15b
	je	.LBB61_50
	movq	-24(%rcx,%r9), %r8
	movq	%r8, %r15
	andq	%r10, %r15
	leaq	-1(%r15), %rax
	cmpq	%r11, %rax
	jae	.LBB61_135
	leaq	(%r15,%r15,2), %rbx
	testb	$1, -8(%rcx,%rbx)
	je	.LBB61_94
	movq	%r15, %r14
	jmp	.LBB61_103
	.p2align	4
.LBB61_50:
	movq	-16(%rcx,%r9), %r15
	andq	%r10, %r15
	leaq	-1(%r15), %rax
	cmpq	%r11, %rax
	jae	.LBB61_135
	leaq	(%r15,%r15,2), %rbx
	testb	$1, -8(%rcx,%rbx)
	je	.LBB61_53
	movq	%r15, %r14
	jmp	.LBB61_63
.LBB61_94:
	movq	-16(%rcx,%rbx), %r14
	andq	%r10, %r14
	xorl	%r12d, %r12d
	cmpq	%r11, %r14
	cmovaq	%r12, %r14
	movq	-8(%rcx,%r9), %rax
	andq	%r10, %rax
	cmpq	%r11, %rax
	cmovaq	%r12, %rax
	andl	$1, %r8d
	orq	%r14, %r8
	movq	%r8, -24(%rcx,%r9)
	testq	%r14, %r14
	je	.LBB61_96
	movq	%r14, %r8
	shrq	$3, %r8
	leaq	(%r8,%r8,2), %r8
	movq	-8(%rcx,%r8,8), %r12
	andl	$1, %r12d
	orq	%rdx, %r12
	movq	%r12, -8(%rcx,%r8,8)
.LBB61_96:
	movq	%rax, %r8
	orq	$1, %r8
	movq	%r8, -8(%rcx,%rbx)
	testq	%rax, %rax
	je	.LBB61_97
	leaq	(%rax,%rax,2), %rax
	movq	-24(%rcx,%rax), %r8
	movq	%r8, %r12
	andq	%r10, %r12
	xorl	%r13d, %r13d
	cmpq	%r11, %r12
	cmovbeq	%r12, %r13
	cmpq	%rdx, %r13
	jne	.LBB61_100
	andl	$1, %r8d
	orq	%r15, %r8
	movq	%r8, -24(%rcx,%rax)
	movq	-24(%rcx,%r9), %r14
	andq	%r10, %r14
	jmp	.LBB61_101
.LBB61_53:
	movq	-24(%rcx,%rbx), %rax
	movq	%rax, %r14
	andq	%r10, %r14
	xorl	%r12d, %r12d
	cmpq	%r11, %r14
	cmovaq	%r12, %r14
	movq	-8(%rcx,%r9), %r8
	andq	%r10, %r8
	cmpq	%r11, %r8
	cmovaq	%r12, %r8
	movq	%r14, -16(%rcx,%r9)
	testq	%r14, %r14
	je	.LBB61_55
	movq	%r14, %r12
	shrq	$3, %r12
	leaq	(%r12,%r12,2), %r12
	movq	-8(%rcx,%r12,8), %r13
	andl	$1, %r13d
	orq	%rdx, %r13
	movq	%r13, -8(%rcx,%r12,8)
.LBB61_55:
	movq	%r8, %r12
	orq	$1, %r12
	movq	%r12, -8(%rcx,%rbx)
	testq	%r8, %r8
	je	.LBB61_56
	movq	%rbp, 8(%rsp)
	leaq	(%r8,%r8,2), %r8
	movq	-24(%rcx,%r8), %r12
	movq	%r12, %r13
	andq	%r10, %r13
	xorl	%ebp, %ebp
	cmpq	%r11, %r13
	cmovbeq	%r13, %rbp
	cmpq	%rdx, %rbp
	jne	.LBB61_59
	andl	$1, %r12d
	orq	%r15, %r12
	movq	%r12, -24(%rcx,%r8)
	movq	-24(%rcx,%rbx), %rax
	jmp	.LBB61_60
.LBB61_97:
	movq	%r15, %rsi
	jmp	.LBB61_101
.LBB61_56:
	movq	%r15, %rsi
	jmp	.LBB61_61
.LBB61_100:
	movq	%r15, -16(%rcx,%rax)
.LBB61_101:
	movq	%rdx, -16(%rcx,%rbx)
	movq	%r15, -8(%rcx,%r9)
	leaq	-1(%r14), %rax
	cmpq	%r11, %rax
	jae	.LBB61_135
	leaq	(%r14,%r14,2), %rbx
.LBB61_103:
	movq	-24(%rcx,%rbx), %rax
	andq	%r10, %rax
	leaq	-1(%rax), %r8
	cmpq	%r11, %r8
	jae	.LBB61_105
	movq	%rax, %r15
	shrq	$3, %r15
	leaq	(%r15,%r15,2), %r15
	movq	-8(%rcx,%r15,8), %r15
	testb	$1, %r15b
	je	.LBB61_109
.LBB61_105:
	movq	-16(%rcx,%rbx), %r15
	andq	%r10, %r15
	leaq	-1(%r15), %r12
	cmpq	%r11, %r12
	jae	.LBB61_67
	movq	%r15, %r13
	shrq	$3, %r13
	leaq	(%r13,%r13,2), %r13
	testb	$1, -8(%rcx,%r13,8)
	jne	.LBB61_67
	jmp	.LBB61_107
.LBB61_59:
	movq	%r15, -16(%rcx,%r8)
	movq	-16(%rcx,%r9), %r14
	andq	%r10, %r14
.LBB61_60:
	movq	8(%rsp), %rbp
.LBB61_61:
	andl	$1, %eax
	orq	%rdx, %rax
	movq	%rax, -24(%rcx,%rbx)
	movq	%r15, -8(%rcx,%r9)
	leaq	-1(%r14), %rax
	cmpq	%r11, %rax
	jae	.LBB61_135
	leaq	(%r14,%r14,2), %rbx
.LBB61_63:
	movq	-24(%rcx,%rbx), %rax
	movq	%rax, %r15
	andq	%r10, %r15
	leaq	-1(%r15), %r8
	cmpq	%r11, %r8
	jae	.LBB61_65
	leaq	(%r15,%r15,2), %r12
	testb	$1, -8(%rcx,%r12)
	je	.LBB61_69
.LBB61_65:
	movq	-16(%rcx,%rbx), %rax
	andq	%r10, %rax
	leaq	-1(%rax), %r8
	cmpq	%r11, %r8
	jae	.LBB61_67
	leaq	(%rax,%rax,2), %r8
	movq	-8(%rcx,%r8), %r13
	testb	$1, %r13b
	je	.LBB61_71
.LBB61_67:
	andb	$-2, -8(%rcx,%rbx)
	movq	-8(%rcx,%r9), %rax
	testb	$1, %al
	je	.LBB61_68
	andq	%r10, %rax
	leaq	-1(%rax), %r8
	cmpq	%r11, %r8
	jae	.LBB61_135
	movq	%rax, %r8
	shrq	$3, %r8
	leaq	(%r8,%r8,2), %r8
	movq	-24(%rcx,%r8,8), %r8
	andq	%r10, %r8
	xorl	%r9d, %r9d
	cmpq	%r11, %r8
	cmovbeq	%r8, %r9
	cmpq	%rdx, %r9
	setne	%r15b
	movq	%rax, %rdx
	decl	%edi
	jne	.LBB61_49
	jmp	.LBB61_135
.LBB61_46:
	movq	%rbp, %rsi
	movq	8(%rsp), %rbp
.LBB61_135:
	movq	24(%rsp), %rax
	movq	$0, -24(%rcx,%rax)
	movq	%rsi, (%rbp)
	xorl	%eax, %eax
.LBB61_136:
	addq	$32, %rsp
	popq	%rbx
	popq	%rbp
	popq	%rdi
	popq	%rsi
	popq	%r12
	popq	%r13
	popq	%r14
	popq	%r15
	retq
.LBB61_68:
	orq	$1, %rax
	movq	%rax, -8(%rcx,%r9)
	jmp	.LBB61_135
.LBB61_69:
	movq	-16(%rcx,%rbx), %r8
	andq	%r10, %r8
	leaq	-1(%r8), %rdi
	cmpq	%r11, %rdi
	jae	.LBB61_72
	leaq	(%r8,%r8,2), %r8
	movq	-8(%rcx,%r8), %r13
	testb	$1, %r13b
	je	.LBB61_71
.LBB61_72:
	movq	-16(%rcx,%r12), %rdi
	andq	%r10, %rdi
	xorl	%r13d, %r13d
	cmpq	%r11, %rdi
	cmovaq	%r13, %rdi
	movq	-8(%rcx,%rbx), %r8
	andq	%r10, %r8
	cmpq	%r11, %r8
	cmovaq	%r13, %r8
	andl	$1, %eax
	orq	%rdi, %rax
	movq	%rax, -24(%rcx,%rbx)
	testq	%rdi, %rdi
	je	.LBB61_74
	shrq	$3, %rdi
	leaq	(%rdi,%rdi,2), %rax
	movq	-8(%rcx,%rax,8), %rdi
	andl	$1, %edi
	orq	%r14, %rdi
	movq	%rdi, -8(%rcx,%rax,8)
.LBB61_74:
	movq	%r8, %rax
	orq	$1, %rax
	movq	%rax, -8(%rcx,%r12)
	movq	%r15, %rdi
	testq	%r8, %r8
	je	.LBB61_80
	leaq	(%r8,%r8,2), %rax
	movq	-24(%rcx,%rax), %r8
	movq	%r8, %rdi
	andq	%r10, %rdi
	cmpq	%r11, %rdi
	ja	.LBB61_78
	cmpq	%r14, %rdi
	jne	.LBB61_78
	andl	$1, %r8d
	orq	%r15, %r8
	movq	%r8, -24(%rcx,%rax)
	jmp	.LBB61_79
.LBB61_71:
	movq	%rsi, %rdi
	movq	%r14, %r15
	movq	%rbx, %r12
	jmp	.LBB61_83
.LBB61_107:
	cmpq	%r11, %r8
	jae	.LBB61_112
	movq	%rax, %rdi
	shrq	$3, %rdi
	leaq	(%rdi,%rdi,2), %rdi
	movq	-8(%rcx,%rdi,8), %r15
.LBB61_109:
	testb	$1, %r15b
	je	.LBB61_110
	movq	-16(%rcx,%rbx), %r15
	andq	%r10, %r15
	leaq	-1(%r15), %r12
.LBB61_112:
	cmpq	%r11, %r12
	jae	.LBB61_135
	leaq	(%r15,%r15,2), %rdi
	movq	-24(%rcx,%rdi), %r8
	andq	%r10, %r8
	xorl	%r12d, %r12d
	cmpq	%r11, %r8
	cmovaq	%r12, %r8
	movq	-8(%rcx,%rbx), %rax
	andq	%r10, %rax
	cmpq	%r11, %rax
	cmovaq	%r12, %rax
	movq	%r8, -16(%rcx,%rbx)
	testq	%r8, %r8
	je	.LBB61_115
	shrq	$3, %r8
	leaq	(%r8,%r8,2), %r8
	movq	-8(%rcx,%r8,8), %r12
	andl	$1, %r12d
	orq	%r14, %r12
	movq	%r12, -8(%rcx,%r8,8)
.LBB61_115:
	movq	%rax, %r8
	orq	$1, %r8
	movq	%r8, -8(%rcx,%rdi)
	movq	%r15, %r12
	testq	%rax, %rax
	je	.LBB61_121
	leaq	(%rax,%rax,2), %rax
	movq	-24(%rcx,%rax), %r8
	movq	%r8, %r12
	andq	%r10, %r12
	cmpq	%r11, %r12
	ja	.LBB61_119
	cmpq	%r14, %r12
	jne	.LBB61_119
	andl	$1, %r8d
	orq	%r15, %r8
	movq	%r8, -24(%rcx,%rax)
	jmp	.LBB61_120
.LBB61_110:
	movq	%rbx, %rdi
	movq	%r14, %r15
	jmp	.LBB61_122
.LBB61_78:
	movq	%r15, -16(%rcx,%rax)
.LBB61_79:
	movq	%rsi, %rdi
.LBB61_80:
	movq	%r14, -16(%rcx,%r12)
	movq	%r15, -8(%rcx,%rbx)
	movq	-16(%rcx,%r12), %rax
	andq	%r10, %rax
	leaq	-1(%rax), %r8
	cmpq	%r11, %r8
	jae	.LBB61_81
	leaq	(%rax,%rax,2), %r8
	movq	-8(%rcx,%r8), %r13
.LBB61_83:
	movq	-8(%rcx,%r9), %rax
	andl	$1, %eax
	orq	$1, %r13
	movq	%r13, -8(%rcx,%r8)
	movq	-24(%rcx,%r12), %rsi
	andq	%r10, %rsi
	xorl	%ebx, %ebx
	cmpq	%r11, %rsi
	cmovaq	%rbx, %rsi
	movq	-8(%rcx,%r9), %r8
	andq	%r10, %r8
	cmpq	%r11, %r8
	cmovaq	%rbx, %r8
	movq	%rsi, -16(%rcx,%r9)
	testq	%rsi, %rsi
	je	.LBB61_85
	shrq	$3, %rsi
	leaq	(%rsi,%rsi,2), %rsi
	movq	-8(%rcx,%rsi,8), %rbx
	andl	$1, %ebx
	orq	%rdx, %rbx
	movq	%rbx, -8(%rcx,%rsi,8)
.LBB61_85:
	orq	%r8, %rax
	movq	%rax, -8(%rcx,%r12)
	movq	%r15, %rsi
	testq	%r8, %r8
	je	.LBB61_90
	leaq	(%r8,%r8,2), %rax
	movq	-24(%rcx,%rax), %r8
	andq	%r8, %r10
	xorl	%esi, %esi
	cmpq	%r11, %r10
	cmovbeq	%r10, %rsi
	cmpq	%rdx, %rsi
	jne	.LBB61_88
	andl	$1, %r8d
	orq	%r15, %r8
	movq	%r8, -24(%rcx,%rax)
	jmp	.LBB61_89
.LBB61_88:
	movq	%r15, -16(%rcx,%rax)
.LBB61_89:
	movq	%rdi, %rsi
.LBB61_90:
	movq	-24(%rcx,%r12), %rax
	andl	$1, %eax
	orq	%rdx, %rax
	movq	%rax, -24(%rcx,%r12)
	orq	$1, %r15
	movq	%r15, -8(%rcx,%r9)
	jmp	.LBB61_135
.LBB61_81:
	movq	%rdi, %rsi
	jmp	.LBB61_135
.LBB61_119:
	movq	%r15, -16(%rcx,%rax)
.LBB61_120:
	movq	%rsi, %r12
.LBB61_121:
	movq	-24(%rcx,%rdi), %rax
	andl	$1, %eax
	orq	%r14, %rax
	movq	%rax, -24(%rcx,%rdi)
	movq	%r15, -8(%rcx,%rbx)
	movq	-24(%rcx,%rdi), %rax
	andq	%r10, %rax
	leaq	-1(%rax), %r8
	movq	%r12, %rsi
.LBB61_122:
	cmpq	%r11, %r8
	jae	.LBB61_135
	movq	-8(%rcx,%r9), %r8
	shrq	$3, %rax
	leaq	(%rax,%rax,2), %rax
	orq	$1, -8(%rcx,%rax,8)
	andl	$1, %r8d
	movq	-16(%rcx,%rdi), %rbx
	andq	%r10, %rbx
	xorl	%r14d, %r14d
	cmpq	%r11, %rbx
	cmovaq	%r14, %rbx
	movq	-8(%rcx,%r9), %rax
	andq	%r10, %rax
	cmpq	%r11, %rax
	cmovaq	%r14, %rax
	movq	-24(%rcx,%r9), %r14
	andl	$1, %r14d
	orq	%rbx, %r14
	movq	%r14, -24(%rcx,%r9)
	testq	%rbx, %rbx
	je	.LBB61_125
	shrq	$3, %rbx
	leaq	(%rbx,%rbx,2), %rbx
	movq	-8(%rcx,%rbx,8), %r14
	andl	$1, %r14d
	orq	%rdx, %r14
	movq	%r14, -8(%rcx,%rbx,8)
.LBB61_125:
	orq	%rax, %r8
	movq	%r8, -8(%rcx,%rdi)
	movq	%r15, %r8
	testq	%rax, %rax
	je	.LBB61_130
	leaq	(%rax,%rax,2), %rax
	movq	-24(%rcx,%rax), %r8
	andq	%r8, %r10
	xorl	%ebx, %ebx
	cmpq	%r11, %r10
	cmovbeq	%r10, %rbx
	cmpq	%rdx, %rbx
	jne	.LBB61_128
	andl	$1, %r8d
	orq	%r15, %r8
	movq	%r8, -24(%rcx,%rax)
	jmp	.LBB61_129
.LBB61_128:
	movq	%r15, -16(%rcx,%rax)
.LBB61_129:
	movq	%rsi, %r8
.LBB61_130:
	movq	%rdx, -16(%rcx,%rdi)
	orq	$1, %r15
	movq	%r15, -8(%rcx,%r9)
	movq	%r8, %rsi
	jmp	.LBB61_135
	.def	ic_raw.table.RawTable.refusal_at.19bacce014a8892a;
	.scl	3;
	.type	32;
	.endef
	.p2align	4
ic_raw.table.RawTable.refusal_at.19bacce014a8892a:
	movl	$5, %eax
	incl	%r8d
	je	.LBB62_3
	movl	$1, %eax
	cmpq	%r8, %rdx
	jb	.LBB62_3
	leaq	(%r8,%r8,2), %rax
	movzbl	-24(%rcx,%rax,8), %eax
	andl	$1, %eax
	leal	3(,%rax,2), %eax
.LBB62_3:
	retq
	.def	ic_raw.tree_calls.replace;
	.scl	3;
	.type	32;
	.endef
	.p2align	4
ic_raw.tree_calls.replace:
	pushq	%r15
	pushq	%r14
	pushq	%r13
	pushq	%r12
	pushq	%rsi
	pushq	%rdi
	pushq	%rbp
	pushq	%rbx
	subq	$56, %rsp
	leal	1(%r9), %esi
	movl	%r9d, %r10d
	movl	$4, %eax
	incl	%r10d
	je	.LBB63_19
	movl	160(%rsp), %eax
	movq	%rcx, 40(%rsp)
	movq	%rdx, 48(%rsp)
	cmpq	%rsi, %rdx
	jb	.LBB63_20
	shlq	$3, %rsi
	leaq	(%rsi,%rsi,2), %r10
	testb	$1, -24(%rcx,%r10)
	je	.LBB63_20
	movabsq	$68719476728, %r15
	movq	(%r8), %rdi
	andq	%r15, %rdi
	leaq	(,%rdx,8), %r12
	leaq	-1(%rdi), %r11
	cmpq	%r12, %r11
	jae	.LBB63_20
	movq	%rdi, %r11
	shrq	$3, %r11
	leaq	(%r11,%r11,2), %r11
	testb	$1, -24(%rcx,%r11,8)
	je	.LBB63_20
	leal	1(%rax), %r11d
	testq	%r15, -8(%rcx,%r10)
	sete	%bl
	cmpq	%rsi, %rdi
	setne	%bpl
	cmpq	%r11, %rdx
	jb	.LBB63_20
	testl	%r11d, %r11d
	je	.LBB63_20
	andb	%bl, %bpl
	jne	.LBB63_20
	leaq	(%r11,%r11,2), %rdx
	testb	$1, -24(%rcx,%rdx,8)
	jne	.LBB63_20
	shlq	$3, %r11
	leaq	(%rcx,%rdx,8), %rax
	movq	$1, -24(%rax)
	movq	$0, -16(%rax)
	movq	$0, -8(%rax)
	movq	-8(%rcx,%r10), %r9
	movq	%r9, %rdx
	andq	%r15, %rdx
	xorl	%r13d, %r13d
	cmpq	%r12, %rdx
	cmovaq	%r13, %rdx
	movq	-24(%rcx,%r10), %rbx
	andq	%r15, %rbx
	cmpq	%r12, %rbx
	cmovaq	%r13, %rbx
	movq	-16(%rcx,%r10), %r14
	andq	%r15, %r14
	cmpq	%r12, %r14
	cmovaq	%r13, %r14
	movq	%r11, %r13
	testq	%rdx, %rdx
	je	.LBB63_14
	leaq	(%rdx,%rdx,2), %r13
	movq	-24(%rcx,%r13), %rbp
	andq	%rbp, %r15
	xorl	%r13d, %r13d
	cmpq	%r12, %r15
	cmovbeq	%r15, %r13
	cmpq	%rsi, %r13
	jne	.LBB63_12
	andl	$1, %ebp
	orq	%r11, %rbp
	leaq	(%rdx,%rdx,2), %rsi
	movq	%rbp, -24(%rcx,%rsi)
	jmp	.LBB63_13
.LBB63_20:
	leaq	40(%rsp), %rcx
	movl	%r9d, %edx
	movl	%eax, %r8d
	callq	ic_raw.table.RawTable.refusal.19bacce014a8892a
	jmp	.LBB63_19
.LBB63_12:
	leaq	(%rdx,%rdx,2), %rsi
	movq	%r11, -16(%rcx,%rsi)
.LBB63_13:
	movq	%rdi, %r13
.LBB63_14:
	testq	%rbx, %rbx
	je	.LBB63_16
	movq	%rbx, %rsi
	shrq	$3, %rsi
	leaq	(%rsi,%rsi,2), %rsi
	movq	-8(%rcx,%rsi,8), %rdi
	andl	$1, %edi
	orq	%r11, %rdi
	movq	%rdi, -8(%rcx,%rsi,8)
.LBB63_16:
	testq	%r14, %r14
	je	.LBB63_18
	movq	%r14, %rsi
	shrq	$3, %rsi
	leaq	(%rsi,%rsi,2), %rsi
	movq	-8(%rcx,%rsi,8), %rdi
	andl	$1, %edi
	orq	%r11, %rdi
	movq	%rdi, -8(%rcx,%rsi,8)
.LBB63_18:
	andl	$1, %r9d
	movq	-24(%rax), %r11
	andl	$1, %r11d
	orq	%rbx, %r11
	movq	%r11, -24(%rax)
	movq	%r14, -16(%rax)
	orq	%r9, %rdx
	movq	%rdx, -8(%rax)
	movq	$0, -24(%rcx,%r10)
	movq	%r13, (%r8)
	xorl	%eax, %eax
.LBB63_19:
	addq	$56, %rsp
	popq	%rbx
	popq	%rbp
	popq	%rdi
	popq	%rsi
	popq	%r12
	popq	%r13
	popq	%r14
	popq	%r15
	retq
	.def	ic_raw.search.refusal;
	.scl	3;
	.type	32;
	.endef
	.p2align	4
ic_raw.search.refusal:
	xorl	%eax, %eax
	cmpq	%rcx, %rdx
	setae	%al
	leal	1(,%rax,4), %eax
	retq
	.def	ic_raw.tree.step_from_none;
	.scl	3;
	.type	32;
	.endef
	.p2align	4
ic_raw.tree.step_from_none:
	pushq	%rsi
	pushq	%rdi
	testq	%r8, %r8
	je	.LBB65_1
	movq	%r8, %r10
	shrq	$3, %r10
	movl	$5, %eax
	cmpq	%rdx, %r10
	ja	.LBB65_19
	leaq	(%r10,%r10,2), %r10
	testb	$1, -24(%rcx,%r10,8)
	je	.LBB65_19
	movabsq	$68719476728, %r10
	shlq	$3, %rdx
	testb	%r9b, %r9b
	je	.LBB65_6
	movl	$66, %r9d
	.p2align	4
.LBB65_16:
	movq	%r8, %r11
	shrq	$3, %r11
	leaq	(%r11,%r11,2), %r11
	movq	-24(%rcx,%r11,8), %rsi
	andq	%r10, %rsi
	leaq	-1(%rsi), %rdi
	movq	%r8, %r11
	cmpq	%rdx, %rdi
	jae	.LBB65_17
	testl	%r9d, %r9d
	je	.LBB65_13
	movq	%rsi, %r8
	shrq	$3, %r8
	leaq	(%r8,%r8,2), %r8
	movq	-24(%rcx,%r8,8), %r8
	andq	%r10, %r8
	leaq	-1(%r8), %rdi
	movq	%rsi, %r11
	cmpq	%rdx, %rdi
	jae	.LBB65_17
	addl	$-2, %r9d
	jmp	.LBB65_16
.LBB65_1:
	movl	$4, %eax
.LBB65_19:
	popq	%rdi
	popq	%rsi
	retq
.LBB65_6:
	movl	$66, %r9d
	.p2align	4
.LBB65_7:
	movq	%r8, %r11
	shrq	$3, %r11
	leaq	(%r11,%r11,2), %r11
	movq	-16(%rcx,%r11,8), %rsi
	andq	%r10, %rsi
	leaq	-1(%rsi), %rdi
	movq	%r8, %r11
	cmpq	%rdx, %rdi
	jae	.LBB65_17
	testl	%r9d, %r9d
	je	.LBB65_9
	movq	%rsi, %r8
	shrq	$3, %r8
	leaq	(%r8,%r8,2), %r8
	movq	-16(%rcx,%r8,8), %r8
	andq	%r10, %r8
	leaq	-1(%r8), %rdi
	movq	%rsi, %r11
	cmpq	%rdx, %rdi
	jae	.LBB65_17
	addl	$-2, %r9d
	jmp	.LBB65_7
.LBB65_13:
	movq	%rsi, %r11
.LBB65_17:
	shrq	$3, %r11
	leaq	(%r11,%r11,2), %rdx
	testb	$1, -24(%rcx,%rdx,8)
	je	.LBB65_19
.LBB65_18:
	movq	56(%rsp), %rax
	decl	%r11d
	movl	%r11d, (%rax)
	xorl	%eax, %eax
	popq	%rdi
	popq	%rsi
	retq
.LBB65_9:
	movq	%rsi, %r11
	shrq	$3, %r11
	leaq	(%r11,%r11,2), %rdx
	testb	$1, -24(%rcx,%rdx,8)
	je	.LBB65_19
	jmp	.LBB65_18
	.def	ic_raw.table.RawTable.refusal_of.19bacce014a8892a;
	.scl	3;
	.type	32;
	.endef
	.p2align	4
ic_raw.table.RawTable.refusal_of.19bacce014a8892a:
	shrq	$3, %r8
	movl	$1, %eax
	cmpq	%rdx, %r8
	ja	.LBB66_2
	leaq	(%r8,%r8,2), %rax
	movzbl	-24(%rcx,%rax,8), %eax
	andl	$1, %eax
	leal	3(,%rax,2), %eax
.LBB66_2:
	retq
	.def	ic_raw.tree.nothing_found;
	.scl	3;
	.type	32;
	.endef
	.p2align	4
ic_raw.tree.nothing_found:
	cmpb	$1, %cl
	movl	$5, %eax
	sbbl	$0, %eax
	retq
	.def	ic_raw_augmented.sum_calls.refusal;
	.scl	3;
	.type	32;
	.endef
	.p2align	4
ic_raw_augmented.sum_calls.refusal:
	movq	8(%rcx), %r9
	incl	%r8d
	jne	.LBB68_1
.LBB68_3:
	xorl	%eax, %eax
	cmpq	%r9, %rdx
	setae	%al
	leal	1(,%rax,4), %eax
	retq
.LBB68_1:
	movl	$1, %eax
	cmpq	%r8, %r9
	jb	.LBB68_4
	movq	(%rcx), %rcx
	leaq	(%r8,%r8,2), %r8
	movl	$3, %eax
	testb	$1, -24(%rcx,%r8,8)
	jne	.LBB68_3
.LBB68_4:
	retq
	.def	ic_raw_augmented.find.find;
	.scl	3;
	.type	32;
	.endef
	.p2align	4
ic_raw_augmented.find.find:
	pushq	%r15
	pushq	%r14
	pushq	%r13
	pushq	%r12
	pushq	%rsi
	pushq	%rdi
	pushq	%rbp
	pushq	%rbx
	pushq	%rax
	movq	%rcx, %r13
	movq	144(%rsp), %rdi
	movzbl	136(%rsp), %esi
	movabsq	$68719476728, %rax
	cmpb	$1, %sil
	jne	.LBB69_2
	movq	(%rdx), %rcx
	movq	8(%rdx), %r10
	movq	%rdi, %r11
	shrq	$3, %r11
	leaq	(%r11,%r11,2), %r11
	movq	-16(%rcx,%r11,8), %rcx
	andq	%rax, %rcx
	shlq	$3, %r10
	xorl	%r11d, %r11d
	cmpq	%r10, %rcx
	cmovbeq	%rcx, %r11
	testq	%r11, %r11
	setne	%r10b
	movq	152(%rsp), %rcx
	movzbl	112(%rsp), %ebx
	cmpb	$1, %r10b
	je	.LBB69_3
	jmp	.LBB69_28
.LBB69_2:
	movq	128(%rsp), %r11
	movzbl	120(%rsp), %r10d
	movq	152(%rsp), %rcx
	movzbl	112(%rsp), %ebx
	cmpb	$1, %r10b
	jne	.LBB69_28
.LBB69_3:
	movq	%r11, %r10
	shrq	$3, %r10
	decq	%r10
	cmpq	%r9, %r10
	jae	.LBB69_28
	shlq	$4, %r10
	movq	8(%r8,%r10), %r15
	cmpq	%r15, %rcx
	jae	.LBB69_29
	movq	%r8, (%rsp)
	movq	%r13, %r8
	movq	(%rdx), %rsi
	movq	8(%rdx), %rdx
	shlq	$3, %rdx
	movl	$67, %edi
	xorl	%r10d, %r10d
	jmp	.LBB69_8
	.p2align	4
.LBB69_6:
	cmpq	%rdx, %r13
	jae	.LBB69_27
.LBB69_7:
	movq	%r12, %r11
	decl	%edi
	je	.LBB69_27
.LBB69_8:
	leaq	(%r11,%r11,2), %r15
	movq	-24(%rsi,%r15), %r12
	andq	%rax, %r12
	leaq	-1(%r12), %r13
	cmpq	%rdx, %r13
	jae	.LBB69_11
	movq	%r12, %r14
	shrq	$3, %r14
	decq	%r14
	cmpq	%r9, %r14
	jae	.LBB69_11
	shlq	$4, %r14
	movq	(%rsp), %rbp
	movq	8(%rbp,%r14), %rbp
	testb	$1, %bl
	jne	.LBB69_12
.LBB69_14:
	movq	$-1, %r14
	addq	%r10, %rbp
	jae	.LBB69_15
	cmpq	%r14, %rcx
	jb	.LBB69_6
	jmp	.LBB69_17
	.p2align	4
.LBB69_11:
	xorl	%ebp, %ebp
	testb	$1, %bl
	je	.LBB69_14
.LBB69_12:
	cmpq	%rbp, %r10
	cmovaq	%r10, %rbp
.LBB69_15:
	movq	%rbp, %r14
	cmpq	%r14, %rcx
	jb	.LBB69_6
.LBB69_17:
	movq	%r11, %r10
	shrq	$3, %r10
	decq	%r10
	cmpq	%r9, %r10
	jae	.LBB69_21
	shlq	$4, %r10
	movq	(%rsp), %r12
	movq	(%r12,%r10), %r12
	movq	%r8, %r13
	testb	$1, %bl
	jne	.LBB69_22
.LBB69_19:
	movq	$-1, %r10
	addq	%r14, %r12
	jb	.LBB69_25
	movq	%r12, %r10
	jmp	.LBB69_25
	.p2align	4
.LBB69_21:
	xorl	%r12d, %r12d
	movq	%r8, %r13
	testb	$1, %bl
	je	.LBB69_19
.LBB69_22:
	cmpq	%r12, %r14
	ja	.LBB69_24
	movq	%r12, %r14
.LBB69_24:
	movq	%r14, %r10
.LBB69_25:
	cmpq	%r10, %rcx
	jb	.LBB69_67
	movq	-16(%rsi,%r15), %r12
	andq	%rax, %r12
	leaq	-1(%r12), %r11
	cmpq	%rdx, %r11
	jb	.LBB69_7
.LBB69_27:
	movq	$0, 16(%r8)
	movq	$0, 8(%r8)
	movq	$0, (%r8)
	jmp	.LBB69_51
.LBB69_28:
	xorl	%r15d, %r15d
.LBB69_29:
	cmpb	$1, %sil
	jne	.LBB69_47
	movq	(%rdx), %r11
	movq	8(%rdx), %rdx
	shlq	$3, %rdx
	movl	$67, %ebp
	jmp	.LBB69_32
	.p2align	4
.LBB69_44:
	addq	%rdi, %r10
	movq	$-1, %r15
	cmovaeq	%r10, %r15
	cmpq	%r15, %rcx
	jb	.LBB69_53
.LBB69_45:
	movq	%r14, %rdi
	decl	%ebp
	je	.LBB69_46
.LBB69_32:
	movq	%rdi, %r10
	shrq	$3, %r10
	leaq	(%r10,%r10,2), %r10
	movq	-8(%r11,%r10,8), %r14
	andq	%rax, %r14
	leaq	-1(%r14), %r10
	cmpq	%rdx, %r10
	jae	.LBB69_48
	movq	%r14, %r10
	shrq	$3, %r10
	leaq	(%r10,%r10,2), %rsi
	movq	-16(%r11,%rsi,8), %rsi
	andq	%rax, %rsi
	cmpq	%rdi, %rsi
	je	.LBB69_45
	decq	%r10
	cmpq	%r9, %r10
	jae	.LBB69_37
	shlq	$4, %r10
	movq	(%r8,%r10), %r10
	testb	$1, %bl
	jne	.LBB69_38
.LBB69_36:
	addq	%r15, %r10
	movq	$-1, %rdi
	cmovaeq	%r10, %rdi
	cmpq	%rdi, %rcx
	jae	.LBB69_39
	jmp	.LBB69_52
	.p2align	4
.LBB69_37:
	xorl	%r10d, %r10d
	testb	$1, %bl
	je	.LBB69_36
.LBB69_38:
	cmpq	%r10, %r15
	cmovaq	%r15, %r10
	movq	%r10, %rdi
	cmpq	%rdi, %rcx
	jb	.LBB69_52
.LBB69_39:
	leaq	-1(%rsi), %r12
	cmpq	%rdx, %r12
	jae	.LBB69_43
	movq	%rsi, %r10
	shrq	$3, %r10
	decq	%r10
	cmpq	%r9, %r10
	jae	.LBB69_43
	shlq	$4, %r10
	movq	8(%r8,%r10), %r10
	testb	$1, %bl
	je	.LBB69_44
	jmp	.LBB69_31
	.p2align	4
.LBB69_43:
	xorl	%r10d, %r10d
	testb	$1, %bl
	je	.LBB69_44
.LBB69_31:
	cmpq	%r10, %rdi
	cmovaq	%rdi, %r10
	movq	%r10, %r15
	cmpq	%r15, %rcx
	jae	.LBB69_45
.LBB69_53:
	cmpq	%rdx, %r12
	jae	.LBB69_46
	testb	$1, %bl
	je	.LBB69_68
	movl	$67, %ebx
	jmp	.LBB69_57
.LBB69_47:
	movq	$1, (%r13)
	movq	$0, 8(%r13)
	movq	$0, 16(%r13)
	jmp	.LBB69_51
.LBB69_56:
	xorl	%r15d, %r15d
	movq	%r12, %rsi
	movl	$0, %r12d
	movl	$0, %r14d
	decl	%ebx
	je	.LBB69_50
.LBB69_57:
	leaq	(%rsi,%rsi,2), %r14
	movq	-24(%r11,%r14), %r12
	andq	%rax, %r12
	leaq	-1(%r12), %r10
	cmpq	%rdx, %r10
	jae	.LBB69_61
	movq	%r12, %r10
	shrq	$3, %r10
	decq	%r10
	movq	%rdi, %r15
	cmpq	%r9, %r10
	jae	.LBB69_60
	shlq	$4, %r10
	movq	8(%r8,%r10), %r15
	cmpq	%r15, %rdi
	cmovaq	%rdi, %r15
.LBB69_60:
	cmpq	%r15, %rcx
	jb	.LBB69_56
	jmp	.LBB69_62
.LBB69_61:
	movq	%rdi, %r15
	cmpq	%rdi, %rcx
	jb	.LBB69_46
.LBB69_62:
	movq	%rsi, %r10
	shrq	$3, %r10
	decq	%r10
	cmpq	%r9, %r10
	jae	.LBB69_65
	shlq	$4, %r10
	movq	(%r8,%r10), %r10
	cmpq	%r10, %r15
	ja	.LBB69_65
	movq	%r10, %r15
.LBB69_65:
	movq	%r15, %rdi
	cmpq	%r15, %rcx
	jb	.LBB69_81
	movq	-16(%r11,%r14), %r12
	andq	%rax, %r12
	leaq	-1(%r12), %r10
	cmpq	%rdx, %r10
	jb	.LBB69_56
	jmp	.LBB69_46
.LBB69_48:
	movl	$1, %r15d
	jmp	.LBB69_49
.LBB69_52:
	movl	$1, %r15d
	movl	$1, %r12d
	jmp	.LBB69_50
.LBB69_67:
	movq	$1, (%r13)
	movq	$1, 8(%r13)
	movq	%r11, 16(%r13)
	jmp	.LBB69_51
.LBB69_68:
	movl	$67, %ebx
	jmp	.LBB69_70
.LBB69_69:
	xorl	%r15d, %r15d
	movq	%r12, %rsi
	movl	$0, %r12d
	movl	$0, %r14d
	decl	%ebx
	je	.LBB69_50
.LBB69_70:
	leaq	(%rsi,%rsi,2), %r14
	movq	-24(%r11,%r14), %r12
	andq	%rax, %r12
	leaq	-1(%r12), %r10
	cmpq	%rdx, %r10
	jae	.LBB69_75
	movq	%r12, %r10
	shrq	$3, %r10
	decq	%r10
	movq	%rdi, %r15
	cmpq	%r9, %r10
	jae	.LBB69_74
	shlq	$4, %r10
	movq	8(%r8,%r10), %r10
	movq	$-1, %r15
	addq	%rdi, %r10
	jb	.LBB69_74
	movq	%r10, %r15
.LBB69_74:
	cmpq	%r15, %rcx
	jb	.LBB69_69
	jmp	.LBB69_76
.LBB69_75:
	movq	%rdi, %r15
	cmpq	%rdi, %rcx
	jb	.LBB69_46
.LBB69_76:
	movq	%rsi, %r10
	shrq	$3, %r10
	decq	%r10
	cmpq	%r9, %r10
	jae	.LBB69_78
	shlq	$4, %r10
	movq	$-1, %rdi
	addq	(%r8,%r10), %r15
	jb	.LBB69_79
.LBB69_78:
	movq	%r15, %rdi
.LBB69_79:
	cmpq	%rdi, %rcx
	jb	.LBB69_81
	movq	-16(%r11,%r14), %r12
	andq	%rax, %r12
	leaq	-1(%r12), %r10
	cmpq	%rdx, %r10
	jb	.LBB69_69
.LBB69_46:
	xorl	%r15d, %r15d
.LBB69_49:
	xorl	%r12d, %r12d
	xorl	%r14d, %r14d
.LBB69_50:
	movq	%r15, (%r13)
	movq	%r12, 8(%r13)
	movq	%r14, 16(%r13)
.LBB69_51:
	addq	$8, %rsp
	popq	%rbx
	popq	%rbp
	popq	%rdi
	popq	%rsi
	popq	%r12
	popq	%r13
	popq	%r14
	popq	%r15
	retq
.LBB69_81:
	movl	$1, %r15d
	movl	$1, %r12d
	movq	%rsi, %r14
	jmp	.LBB69_50
	.def	ic_raw_augmented.noting.WrittenSurgery.attach;
	.scl	3;
	.type	32;
	.endef
	.p2align	4
ic_raw_augmented.noting.WrittenSurgery.attach:
	pushq	%r15
	pushq	%r14
	pushq	%r13
	pushq	%r12
	pushq	%rsi
	pushq	%rdi
	pushq	%rbp
	pushq	%rbx
	movq	120(%rsp), %r10
	movq	112(%rcx), %rax
	testb	$1, %r9b
	je	.LBB70_1
	cmpq	$13, %rax
	ja	.LBB70_12
	cmpq	$0, (%rcx,%rax,8)
	je	.LBB70_13
.LBB70_12:
	movb	$1, 120(%rcx)
.LBB70_14:
	movq	(%rdx), %r9
	leaq	(%r10,%r10,2), %rax
	andq	$1, -24(%r9,%rax)
	movzbl	112(%rsp), %r9d
	movq	104(%rsp), %rsi
	movq	112(%rcx), %r11
	cmpq	$13, %r11
	ja	.LBB70_16
	cmpq	$0, (%rcx,%r11,8)
	je	.LBB70_17
.LBB70_16:
	movb	$1, 120(%rcx)
.LBB70_18:
	movq	(%rdx), %r11
	movq	$0, -16(%r11,%rax)
	movq	(%rdx), %r11
	movq	%rsi, -8(%r11,%rax)
	movq	112(%rcx), %rax
	testb	%r9b, %r9b
	je	.LBB70_19
	cmpq	$13, %rax
	ja	.LBB70_26
	cmpq	$0, (%rcx,%rax,8)
	je	.LBB70_27
.LBB70_26:
	movb	$1, 120(%rcx)
.LBB70_28:
	movq	(%rdx), %rax
	movq	%rsi, %r9
	shrq	$3, %r9
	leaq	(%r9,%r9,2), %r9
	movq	%r10, -16(%rax,%r9,8)
	jmp	.LBB70_29
.LBB70_1:
	cmpq	$13, %rax
	ja	.LBB70_3
	cmpq	$0, (%rcx,%rax,8)
	je	.LBB70_4
.LBB70_3:
	movb	$1, 120(%rcx)
.LBB70_5:
	movq	(%rdx), %r9
	leaq	(%r10,%r10,2), %rax
	andq	$1, -24(%r9,%rax)
	movq	112(%rcx), %r9
	cmpq	$13, %r9
	ja	.LBB70_7
	cmpq	$0, (%rcx,%r9,8)
	je	.LBB70_8
.LBB70_7:
	movb	$1, 120(%rcx)
.LBB70_9:
	movq	(%rdx), %rcx
	movq	$0, -16(%rcx,%rax)
	movq	(%rdx), %rcx
	movq	$1, -8(%rcx,%rax)
	movq	%r10, (%r8)
.LBB70_136:
	popq	%rbx
	popq	%rbp
	popq	%rdi
	popq	%rsi
	popq	%r12
	popq	%r13
	popq	%r14
	popq	%r15
	retq
.LBB70_19:
	cmpq	$13, %rax
	ja	.LBB70_21
	cmpq	$0, (%rcx,%rax,8)
	je	.LBB70_22
.LBB70_21:
	movb	$1, 120(%rcx)
.LBB70_23:
	movq	(%rdx), %rax
	movq	%rsi, %r9
	shrq	$3, %r9
	leaq	(%r9,%r9,2), %r9
	movq	-24(%rax,%r9,8), %r11
	andl	$1, %r11d
	orq	%r10, %r11
	movq	%r11, -24(%rax,%r9,8)
.LBB70_29:
	movl	$67, %ebx
	movabsq	$68719476728, %r11
	xorl	%r9d, %r9d
	jmp	.LBB70_30
	.p2align	4
.LBB70_36:
	movq	-8(%r14,%r9), %r10
	andq	%r11, %r10
	decq	%r10
	xorl	%esi, %esi
	cmpq	%r15, %r10
	setae	%sil
	orq	$1, %r12
	movq	%r12, -8(%r14,%rdi)
	movq	(%rdx), %r10
	orq	$1, -8(%r10,%r13)
	movq	(%rdx), %r10
	movq	-8(%r10,%r9), %rdi
	andq	$-2, %rdi
	orq	%rsi, %rdi
	movq	%rdi, -8(%r10,%r9)
	movq	(%rdx), %r9
	movq	8(%rdx), %r10
	movq	%rax, %rsi
	shrq	$3, %rsi
	leaq	(%rsi,%rsi,2), %rsi
	movq	-8(%r9,%rsi,8), %r9
	andq	%r11, %r9
	shlq	$3, %r10
	xorl	%esi, %esi
	cmpq	%r10, %r9
	cmovbeq	%r9, %rsi
	testq	%rsi, %rsi
	sete	%r9b
	movq	%rax, %r10
	decl	%ebx
	je	.LBB70_136
.LBB70_30:
	testb	$1, %r9b
	jne	.LBB70_136
	movq	(%rdx), %r14
	leaq	(%rsi,%rsi,2), %rdi
	movq	-8(%r14,%rdi), %r12
	testb	$1, %r12b
	jne	.LBB70_136
	movq	8(%rdx), %r15
	movq	%r12, %rax
	andq	%r11, %rax
	shlq	$3, %r15
	leaq	-1(%rax), %r9
	cmpq	%r15, %r9
	jae	.LBB70_136
	leaq	(%rax,%rax,2), %r9
	movq	-24(%r14,%r9), %rbp
	andq	%r11, %rbp
	xorl	%r13d, %r13d
	cmpq	%r15, %rbp
	cmovbeq	%rbp, %r13
	cmpq	%rsi, %r13
	jne	.LBB70_86
	movq	-16(%r14,%r9), %r13
	andq	%r11, %r13
	leaq	-1(%r13), %rbp
	cmpq	%r15, %rbp
	jae	.LBB70_37
	leaq	(%r13,%r13,2), %r13
	testb	$1, -8(%r14,%r13)
	je	.LBB70_36
	jmp	.LBB70_37
	.p2align	4
.LBB70_86:
	testq	%r13, %r13
	je	.LBB70_88
	leaq	(%r13,%r13,2), %r13
	testb	$1, -8(%r14,%r13)
	je	.LBB70_36
.LBB70_88:
	movq	-24(%r14,%rdi), %rbx
	andq	%r11, %rbx
	cmpq	%r15, %rbx
	ja	.LBB70_112
	cmpq	%r10, %rbx
	jne	.LBB70_112
	leaq	(%r10,%r10,2), %rbx
	movq	-16(%r14,%rbx), %r12
	andq	%r11, %r12
	xorl	%r14d, %r14d
	cmpq	%r15, %r12
	cmovbeq	%r12, %r14
	movq	112(%rcx), %r15
	cmpq	$13, %r15
	ja	.LBB70_92
	cmpq	$0, (%rcx,%r15,8)
	je	.LBB70_93
.LBB70_92:
	movb	$1, 120(%rcx)
.LBB70_94:
	movq	(%rdx), %r15
	movq	-24(%r15,%rdi), %r12
	andl	$1, %r12d
	orq	%r14, %r12
	movq	%r12, -24(%r15,%rdi)
	testq	%r14, %r14
	je	.LBB70_96
	movq	(%rdx), %r15
	shrq	$3, %r14
	leaq	(%r14,%r14,2), %r14
	movq	-8(%r15,%r14,8), %r12
	andl	$1, %r12d
	orq	%rsi, %r12
	movq	%r12, -8(%r15,%r14,8)
.LBB70_96:
	movq	(%rdx), %r14
	movq	%rax, -8(%r14,%rbx)
	movq	(%rdx), %r14
	movq	8(%rdx), %r15
	movq	-24(%r14,%r9), %r14
	andq	%r11, %r14
	shlq	$3, %r15
	xorl	%r12d, %r12d
	cmpq	%r15, %r14
	cmovbeq	%r14, %r12
	movq	112(%rcx), %r14
	cmpq	%rsi, %r12
	jne	.LBB70_102
	cmpq	$13, %r14
	ja	.LBB70_99
	cmpq	$0, (%rcx,%r14,8)
	je	.LBB70_100
.LBB70_99:
	movb	$1, 120(%rcx)
.LBB70_101:
	movq	(%rdx), %r14
	movq	-24(%r14,%r9), %r15
	andl	$1, %r15d
	orq	%r10, %r15
	movq	%r15, -24(%r14,%r9)
	movq	112(%rcx), %r14
	cmpq	$13, %r14
	jbe	.LBB70_108
	jmp	.LBB70_109
.LBB70_13:
	movq	%r10, (%rcx,%rax,8)
	incq	%rax
	movq	%rax, 112(%rcx)
	jmp	.LBB70_14
.LBB70_17:
	movq	%r10, (%rcx,%r11,8)
	incq	%r11
	movq	%r11, 112(%rcx)
	jmp	.LBB70_18
.LBB70_4:
	movq	%r10, (%rcx,%rax,8)
	incq	%rax
	movq	%rax, 112(%rcx)
	jmp	.LBB70_5
.LBB70_8:
	movq	%r10, (%rcx,%r9,8)
	incq	%r9
	movq	%r9, 112(%rcx)
	jmp	.LBB70_9
.LBB70_37:
	movq	-24(%r14,%rdi), %rbx
	andq	%r11, %rbx
	cmpq	%r15, %rbx
	ja	.LBB70_40
	cmpq	%r10, %rbx
	jne	.LBB70_40
	leaq	(%rsi,%rsi,2), %rbx
	movq	%rsi, %r10
	jmp	.LBB70_62
.LBB70_27:
	movq	%rsi, (%rcx,%rax,8)
	incq	%rax
	movq	%rax, 112(%rcx)
	jmp	.LBB70_28
.LBB70_40:
	leaq	(%r10,%r10,2), %rbx
	movq	-24(%r14,%rbx), %r12
	andq	%r11, %r12
	xorl	%r14d, %r14d
	cmpq	%r15, %r12
	cmovbeq	%r12, %r14
	movq	112(%rcx), %r15
	cmpq	$13, %r15
	ja	.LBB70_42
	cmpq	$0, (%rcx,%r15,8)
	je	.LBB70_43
.LBB70_42:
	movb	$1, 120(%rcx)
	movq	(%rdx), %r15
	movq	%r14, -16(%r15,%rdi)
	testq	%r14, %r14
	je	.LBB70_46
.LBB70_45:
	movq	(%rdx), %r15
	shrq	$3, %r14
	leaq	(%r14,%r14,2), %r14
	movq	-8(%r15,%r14,8), %r12
	andl	$1, %r12d
	orq	%rsi, %r12
	movq	%r12, -8(%r15,%r14,8)
.LBB70_46:
	movq	(%rdx), %r14
	movq	%rax, -8(%r14,%rbx)
	movq	(%rdx), %r14
	movq	8(%rdx), %r15
	movq	-24(%r14,%r9), %r14
	andq	%r11, %r14
	shlq	$3, %r15
	xorl	%r12d, %r12d
	cmpq	%r15, %r14
	cmovbeq	%r14, %r12
	movq	112(%rcx), %r14
	cmpq	%rsi, %r12
	jne	.LBB70_52
	cmpq	$13, %r14
	ja	.LBB70_49
	cmpq	$0, (%rcx,%r14,8)
	je	.LBB70_50
.LBB70_49:
	movb	$1, 120(%rcx)
.LBB70_51:
	movq	(%rdx), %r14
	movq	-24(%r14,%r9), %r15
	andl	$1, %r15d
	orq	%r10, %r15
	movq	%r15, -24(%r14,%r9)
	movq	112(%rcx), %r14
	cmpq	$13, %r14
	jbe	.LBB70_58
	jmp	.LBB70_59
.LBB70_22:
	movq	%rsi, (%rcx,%rax,8)
	incq	%rax
	movq	%rax, 112(%rcx)
	jmp	.LBB70_23
.LBB70_52:
	cmpq	$13, %r14
	ja	.LBB70_54
	cmpq	$0, (%rcx,%r14,8)
	je	.LBB70_55
.LBB70_54:
	movb	$1, 120(%rcx)
.LBB70_56:
	movq	(%rdx), %r14
	movq	%r10, -16(%r14,%r9)
	movq	112(%rcx), %r14
	cmpq	$13, %r14
	ja	.LBB70_59
.LBB70_58:
	cmpq	$0, (%rcx,%r14,8)
	je	.LBB70_60
.LBB70_59:
	movb	$1, 120(%rcx)
.LBB70_61:
	movq	(%rdx), %r14
	movq	-24(%r14,%rbx), %r15
	andl	$1, %r15d
	orq	%rsi, %r15
	movq	%r15, -24(%r14,%rbx)
	movq	(%rdx), %rsi
	movq	%r10, -8(%rsi,%rdi)
	movq	(%rdx), %r14
	movq	8(%rdx), %r15
	shlq	$3, %r15
.LBB70_62:
	movq	-16(%r14,%rbx), %rdi
	andq	%r11, %rdi
	xorl	%r12d, %r12d
	cmpq	%r15, %rdi
	cmovaq	%r12, %rdi
	movq	-8(%r14,%r9), %rsi
	andq	%r11, %rsi
	cmpq	%r15, %rsi
	cmovaq	%r12, %rsi
	movq	112(%rcx), %r14
	cmpq	$13, %r14
	ja	.LBB70_64
	cmpq	$0, (%rcx,%r14,8)
	je	.LBB70_65
.LBB70_64:
	movb	$1, 120(%rcx)
.LBB70_66:
	movq	(%rdx), %r14
	movq	-24(%r14,%r9), %r15
	andl	$1, %r15d
	orq	%rdi, %r15
	movq	%r15, -24(%r14,%r9)
	testq	%rdi, %rdi
	je	.LBB70_68
	movq	(%rdx), %r14
	shrq	$3, %rdi
	leaq	(%rdi,%rdi,2), %rdi
	movq	-8(%r14,%rdi,8), %r15
	andl	$1, %r15d
	orq	%rax, %r15
	movq	%r15, -8(%r14,%rdi,8)
.LBB70_68:
	movq	%rsi, %rdi
	orq	$1, %rdi
	movq	(%rdx), %r14
	movq	%rdi, -8(%r14,%rbx)
	testq	%rsi, %rsi
	je	.LBB70_80
	movq	(%rdx), %rdi
	movq	8(%rdx), %r14
	leaq	(%rsi,%rsi,2), %r8
	andq	-24(%rdi,%r8), %r11
	shlq	$3, %r14
	xorl	%edi, %edi
	cmpq	%r14, %r11
	cmovbeq	%r11, %rdi
	movq	112(%rcx), %r11
	cmpq	%rax, %rdi
	jne	.LBB70_75
	cmpq	$13, %r11
	ja	.LBB70_72
	cmpq	$0, (%rcx,%r11,8)
	je	.LBB70_73
.LBB70_72:
	movb	$1, 120(%rcx)
.LBB70_74:
	movq	(%rdx), %r11
	movq	-24(%r11,%r8), %rsi
	andl	$1, %esi
	orq	%r10, %rsi
	movq	%rsi, -24(%r11,%r8)
	movq	112(%rcx), %r8
	cmpq	$13, %r8
	jbe	.LBB70_82
	jmp	.LBB70_83
.LBB70_80:
	movq	%r10, (%r8)
	movq	112(%rcx), %r8
	cmpq	$13, %r8
	jbe	.LBB70_82
	jmp	.LBB70_83
.LBB70_75:
	cmpq	$13, %r11
	ja	.LBB70_77
	cmpq	$0, (%rcx,%r11,8)
	je	.LBB70_78
.LBB70_77:
	movb	$1, 120(%rcx)
.LBB70_79:
	movq	(%rdx), %r11
	movq	%r10, -16(%r11,%r8)
	movq	112(%rcx), %r8
	cmpq	$13, %r8
	ja	.LBB70_83
.LBB70_82:
	cmpq	$0, (%rcx,%r8,8)
	je	.LBB70_84
.LBB70_83:
	movb	$1, 120(%rcx)
.LBB70_85:
	movq	(%rdx), %rcx
	movq	%rax, -16(%rcx,%rbx)
	movq	(%rdx), %rax
	movq	%r10, -8(%rax,%r9)
	jmp	.LBB70_136
.LBB70_102:
	cmpq	$13, %r14
	ja	.LBB70_104
	cmpq	$0, (%rcx,%r14,8)
	je	.LBB70_105
.LBB70_104:
	movb	$1, 120(%rcx)
.LBB70_106:
	movq	(%rdx), %r14
	movq	%r10, -16(%r14,%r9)
	movq	112(%rcx), %r14
	cmpq	$13, %r14
	ja	.LBB70_109
.LBB70_108:
	cmpq	$0, (%rcx,%r14,8)
	je	.LBB70_110
.LBB70_109:
	movb	$1, 120(%rcx)
.LBB70_111:
	movq	(%rdx), %r14
	movq	%rsi, -16(%r14,%rbx)
	movq	(%rdx), %rsi
	movq	%r10, -8(%rsi,%rdi)
	movq	(%rdx), %r14
	movq	8(%rdx), %r15
	shlq	$3, %r15
	movq	%rbx, %rdi
	movq	%r10, %rsi
.LBB70_112:
	movq	-24(%r14,%rdi), %rbx
	andq	%r11, %rbx
	xorl	%r12d, %r12d
	cmpq	%r15, %rbx
	cmovaq	%r12, %rbx
	movq	-8(%r14,%r9), %r10
	andq	%r11, %r10
	cmpq	%r15, %r10
	cmovaq	%r12, %r10
	movq	112(%rcx), %r14
	cmpq	$13, %r14
	ja	.LBB70_114
	cmpq	$0, (%rcx,%r14,8)
	je	.LBB70_115
.LBB70_114:
	movb	$1, 120(%rcx)
	movq	(%rdx), %r14
	movq	%rbx, -16(%r14,%r9)
	testq	%rbx, %rbx
	je	.LBB70_118
.LBB70_117:
	movq	(%rdx), %r14
	shrq	$3, %rbx
	leaq	(%rbx,%rbx,2), %rbx
	movq	-8(%r14,%rbx,8), %r15
	andl	$1, %r15d
	orq	%rax, %r15
	movq	%r15, -8(%r14,%rbx,8)
.LBB70_118:
	movq	%r10, %rbx
	orq	$1, %rbx
	movq	(%rdx), %r14
	movq	%rbx, -8(%r14,%rdi)
	testq	%r10, %r10
	je	.LBB70_130
	movq	(%rdx), %rbx
	movq	8(%rdx), %r14
	leaq	(%r10,%r10,2), %r8
	andq	-24(%rbx,%r8), %r11
	shlq	$3, %r14
	xorl	%ebx, %ebx
	cmpq	%r14, %r11
	cmovbeq	%r11, %rbx
	movq	112(%rcx), %r11
	cmpq	%rax, %rbx
	jne	.LBB70_125
	cmpq	$13, %r11
	ja	.LBB70_122
	cmpq	$0, (%rcx,%r11,8)
	je	.LBB70_123
.LBB70_122:
	movb	$1, 120(%rcx)
.LBB70_124:
	movq	(%rdx), %r10
	movq	-24(%r10,%r8), %r11
	andl	$1, %r11d
	orq	%rsi, %r11
	movq	%r11, -24(%r10,%r8)
	movq	112(%rcx), %r8
	cmpq	$13, %r8
	jbe	.LBB70_132
	jmp	.LBB70_133
.LBB70_130:
	movq	%rsi, (%r8)
	movq	112(%rcx), %r8
	cmpq	$13, %r8
	jbe	.LBB70_132
	jmp	.LBB70_133
.LBB70_125:
	cmpq	$13, %r11
	ja	.LBB70_127
	cmpq	$0, (%rcx,%r11,8)
	je	.LBB70_128
.LBB70_127:
	movb	$1, 120(%rcx)
.LBB70_129:
	movq	(%rdx), %r10
	movq	%rsi, -16(%r10,%r8)
	movq	112(%rcx), %r8
	cmpq	$13, %r8
	ja	.LBB70_133
.LBB70_132:
	cmpq	$0, (%rcx,%r8,8)
	je	.LBB70_134
.LBB70_133:
	movb	$1, 120(%rcx)
.LBB70_135:
	movq	(%rdx), %rcx
	movq	-24(%rcx,%rdi), %r8
	andl	$1, %r8d
	orq	%rax, %r8
	movq	%r8, -24(%rcx,%rdi)
	movq	(%rdx), %rax
	movq	%rsi, -8(%rax,%r9)
	jmp	.LBB70_136
.LBB70_115:
	movq	%rax, (%rcx,%r14,8)
	incq	%r14
	movq	%r14, 112(%rcx)
	movq	(%rdx), %r14
	movq	%rbx, -16(%r14,%r9)
	testq	%rbx, %rbx
	jne	.LBB70_117
	jmp	.LBB70_118
.LBB70_134:
	movq	%rsi, (%rcx,%r8,8)
	incq	%r8
	movq	%r8, 112(%rcx)
	jmp	.LBB70_135
.LBB70_65:
	movq	%rax, (%rcx,%r14,8)
	incq	%r14
	movq	%r14, 112(%rcx)
	jmp	.LBB70_66
.LBB70_84:
	movq	%r10, (%rcx,%r8,8)
	incq	%r8
	movq	%r8, 112(%rcx)
	jmp	.LBB70_85
.LBB70_43:
	movq	%rsi, (%rcx,%r15,8)
	incq	%r15
	movq	%r15, 112(%rcx)
	movq	(%rdx), %r15
	movq	%r14, -16(%r15,%rdi)
	testq	%r14, %r14
	jne	.LBB70_45
	jmp	.LBB70_46
.LBB70_60:
	movq	%r10, (%rcx,%r14,8)
	incq	%r14
	movq	%r14, 112(%rcx)
	jmp	.LBB70_61
.LBB70_93:
	movq	%rsi, (%rcx,%r15,8)
	incq	%r15
	movq	%r15, 112(%rcx)
	jmp	.LBB70_94
.LBB70_110:
	movq	%r10, (%rcx,%r14,8)
	incq	%r14
	movq	%r14, 112(%rcx)
	jmp	.LBB70_111
.LBB70_123:
	movq	%r10, (%rcx,%r11,8)
	incq	%r11
	movq	%r11, 112(%rcx)
	jmp	.LBB70_124
.LBB70_128:
	movq	%r10, (%rcx,%r11,8)
	incq	%r11
	movq	%r11, 112(%rcx)
	jmp	.LBB70_129
.LBB70_73:
	movq	%rsi, (%rcx,%r11,8)
	incq	%r11
	movq	%r11, 112(%rcx)
	jmp	.LBB70_74
.LBB70_78:
	movq	%rsi, (%rcx,%r11,8)
	incq	%r11
	movq	%r11, 112(%rcx)
	jmp	.LBB70_79
.LBB70_50:
	movq	%rax, (%rcx,%r14,8)
	incq	%r14
	movq	%r14, 112(%rcx)
	jmp	.LBB70_51
.LBB70_55:
	movq	%rax, (%rcx,%r14,8)
	incq	%r14
	movq	%r14, 112(%rcx)
	jmp	.LBB70_56
.LBB70_100:
	movq	%rax, (%rcx,%r14,8)
	incq	%r14
	movq	%r14, 112(%rcx)
	jmp	.LBB70_101
.LBB70_105:
	movq	%rax, (%rcx,%r14,8)
	incq	%r14
	movq	%r14, 112(%rcx)
	jmp	.LBB70_106
	.def	ic_raw_augmented.edit_calls.settle;
	.scl	3;
	.type	32;
	.endef
	.p2align	4
ic_raw_augmented.edit_calls.settle:
	pushq	%r15
	pushq	%r14
	pushq	%r13
	pushq	%r12
	pushq	%rsi
	pushq	%rdi
	pushq	%rbx
	subq	$64, %rsp
	cmpl	$0, 176(%rsp)
	je	.LBB71_1
.LBB71_35:
	addq	$64, %rsp
	popq	%rbx
	popq	%rdi
	popq	%rsi
	popq	%r12
	popq	%r13
	popq	%r14
	popq	%r15
	retq
.LBB71_1:
	movq	%r9, %rsi
	movq	%r8, %rdi
	movq	%rdx, %r14
	movq	168(%rsp), %r12
	movzbl	160(%rsp), %ebx
	movq	%rcx, 48(%rsp)
	movq	%rdx, 56(%rsp)
	cmpb	$0, 120(%r12)
	je	.LBB71_2
	testq	%r14, %r14
	je	.LBB71_35
	movl	$8, %r15d
	movabsq	$68719476728, %r12
	movq	%r14, %r13
	jmp	.LBB71_32
	.p2align	4
.LBB71_34:
	addq	$8, %r15
	decq	%r13
	je	.LBB71_35
.LBB71_32:
	movq	%r15, %rax
	andq	%r12, %rax
	sete	%cl
	movq	%rax, %rdx
	shrq	$3, %rdx
	cmpq	%r14, %rdx
	seta	%dl
	orb	%cl, %dl
	jne	.LBB71_34
	movq	%rax, 32(%rsp)
	leaq	48(%rsp), %rcx
	movq	%rdi, %rdx
	movq	%rsi, %r8
	movl	%ebx, %r9d
	callq	ic_raw_augmented.recompute.recompute_up
	jmp	.LBB71_34
.LBB71_2:
	movabsq	$68719476728, %r15
	movq	(%r12), %rax
	andq	%r15, %rax
	sete	%cl
	movq	%rax, %rdx
	shrq	$3, %rdx
	cmpq	%r14, %rdx
	seta	%dl
	orb	%cl, %dl
	jne	.LBB71_4
	movq	%rax, 32(%rsp)
	leaq	48(%rsp), %rcx
	movq	%rdi, %rdx
	movq	%rsi, %r8
	movl	%ebx, %r9d
	callq	ic_raw_augmented.recompute.recompute_up
.LBB71_4:
	movq	8(%r12), %rax
	andq	%r15, %rax
	sete	%cl
	movq	%rax, %rdx
	shrq	$3, %rdx
	cmpq	%r14, %rdx
	seta	%dl
	orb	%cl, %dl
	jne	.LBB71_6
	movq	%rax, 32(%rsp)
	leaq	48(%rsp), %rcx
	movq	%rdi, %rdx
	movq	%rsi, %r8
	movl	%ebx, %r9d
	callq	ic_raw_augmented.recompute.recompute_up
.LBB71_6:
	movq	16(%r12), %rax
	andq	%r15, %rax
	sete	%cl
	movq	%rax, %rdx
	shrq	$3, %rdx
	cmpq	%r14, %rdx
	seta	%dl
	orb	%cl, %dl
	jne	.LBB71_8
	movq	%rax, 32(%rsp)
	leaq	48(%rsp), %rcx
	movq	%rdi, %rdx
	movq	%rsi, %r8
	movl	%ebx, %r9d
	callq	ic_raw_augmented.recompute.recompute_up
.LBB71_8:
	movq	24(%r12), %rax
	andq	%r15, %rax
	sete	%cl
	movq	%rax, %rdx
	shrq	$3, %rdx
	cmpq	%r14, %rdx
	seta	%dl
	orb	%cl, %dl
	jne	.LBB71_10
	movq	%rax, 32(%rsp)
	leaq	48(%rsp), %rcx
	movq	%rdi, %rdx
	movq	%rsi, %r8
	movl	%ebx, %r9d
	callq	ic_raw_augmented.recompute.recompute_up
.LBB71_10:
	movq	32(%r12), %rax
	andq	%r15, %rax
	sete	%cl
	movq	%rax, %rdx
	shrq	$3, %rdx
	cmpq	%r14, %rdx
	seta	%dl
	orb	%cl, %dl
	jne	.LBB71_12
	movq	%rax, 32(%rsp)
	leaq	48(%rsp), %rcx
	movq	%rdi, %rdx
	movq	%rsi, %r8
	movl	%ebx, %r9d
	callq	ic_raw_augmented.recompute.recompute_up
.LBB71_12:
	movq	40(%r12), %rax
	andq	%r15, %rax
	sete	%cl
	movq	%rax, %rdx
	shrq	$3, %rdx
	cmpq	%r14, %rdx
	seta	%dl
	orb	%cl, %dl
	jne	.LBB71_14
	movq	%rax, 32(%rsp)
	leaq	48(%rsp), %rcx
	movq	%rdi, %rdx
	movq	%rsi, %r8
	movl	%ebx, %r9d
	callq	ic_raw_augmented.recompute.recompute_up
.LBB71_14:
	movq	48(%r12), %rax
	andq	%r15, %rax
	sete	%cl
	movq	%rax, %rdx
	shrq	$3, %rdx
	cmpq	%r14, %rdx
	seta	%dl
	orb	%cl, %dl
	jne	.LBB71_16
	movq	%rax, 32(%rsp)
	leaq	48(%rsp), %rcx
	movq	%rdi, %rdx
	movq	%rsi, %r8
	movl	%ebx, %r9d
	callq	ic_raw_augmented.recompute.recompute_up
.LBB71_16:
	movq	56(%r12), %rax
	andq	%r15, %rax
	sete	%cl
	movq	%rax, %rdx
	shrq	$3, %rdx
	cmpq	%r14, %rdx
	seta	%dl
	orb	%cl, %dl
	jne	.LBB71_18
	movq	%rax, 32(%rsp)
	leaq	48(%rsp), %rcx
	movq	%rdi, %rdx
	movq	%rsi, %r8
	movl	%ebx, %r9d
	callq	ic_raw_augmented.recompute.recompute_up
.LBB71_18:
	movq	64(%r12), %rax
	andq	%r15, %rax
	sete	%cl
	movq	%rax, %rdx
	shrq	$3, %rdx
	cmpq	%r14, %rdx
	seta	%dl
	orb	%cl, %dl
	jne	.LBB71_20
	movq	%rax, 32(%rsp)
	leaq	48(%rsp), %rcx
	movq	%rdi, %rdx
	movq	%rsi, %r8
	movl	%ebx, %r9d
	callq	ic_raw_augmented.recompute.recompute_up
.LBB71_20:
	movq	72(%r12), %rax
	andq	%r15, %rax
	sete	%cl
	movq	%rax, %rdx
	shrq	$3, %rdx
	cmpq	%r14, %rdx
	seta	%dl
	orb	%cl, %dl
	jne	.LBB71_22
	movq	%rax, 32(%rsp)
	leaq	48(%rsp), %rcx
	movq	%rdi, %rdx
	movq	%rsi, %r8
	movl	%ebx, %r9d
	callq	ic_raw_augmented.recompute.recompute_up
.LBB71_22:
	movq	80(%r12), %rax
	andq	%r15, %rax
	sete	%cl
	movq	%rax, %rdx
	shrq	$3, %rdx
	cmpq	%r14, %rdx
	seta	%dl
	orb	%cl, %dl
	jne	.LBB71_24
	movq	%rax, 32(%rsp)
	leaq	48(%rsp), %rcx
	movq	%rdi, %rdx
	movq	%rsi, %r8
	movl	%ebx, %r9d
	callq	ic_raw_augmented.recompute.recompute_up
.LBB71_24:
	movq	88(%r12), %rax
	andq	%r15, %rax
	sete	%cl
	movq	%rax, %rdx
	shrq	$3, %rdx
	cmpq	%r14, %rdx
	seta	%dl
	orb	%cl, %dl
	jne	.LBB71_26
	movq	%rax, 32(%rsp)
	leaq	48(%rsp), %rcx
	movq	%rdi, %rdx
	movq	%rsi, %r8
	movl	%ebx, %r9d
	callq	ic_raw_augmented.recompute.recompute_up
.LBB71_26:
	movq	96(%r12), %rax
	andq	%r15, %rax
	sete	%cl
	movq	%rax, %rdx
	shrq	$3, %rdx
	cmpq	%r14, %rdx
	seta	%dl
	orb	%cl, %dl
	jne	.LBB71_28
	movq	%rax, 32(%rsp)
	leaq	48(%rsp), %rcx
	movq	%rdi, %rdx
	movq	%rsi, %r8
	movl	%ebx, %r9d
	callq	ic_raw_augmented.recompute.recompute_up
.LBB71_28:
	andq	104(%r12), %r15
	sete	%al
	movq	%r15, %rcx
	shrq	$3, %rcx
	cmpq	%r14, %rcx
	seta	%cl
	orb	%al, %cl
	jne	.LBB71_35
	movq	%r15, 32(%rsp)
	leaq	48(%rsp), %rcx
	movq	%rdi, %rdx
	movq	%rsi, %r8
	movl	%ebx, %r9d
	callq	ic_raw_augmented.recompute.recompute_up
	jmp	.LBB71_35
	.def	ic_raw_augmented.recompute.recompute_up;
	.scl	3;
	.type	32;
	.endef
	.p2align	4
ic_raw_augmented.recompute.recompute_up:
	pushq	%r15
	pushq	%r14
	pushq	%rsi
	pushq	%rdi
	pushq	%rbx
	movq	80(%rsp), %r11
	movabsq	$68719476728, %rax
	movq	(%rcx), %rbx
	movq	8(%rcx), %rdi
	xorl	%r10d, %r10d
	jmp	.LBB72_3
	.p2align	4
.LBB72_1:
	cmpl	$65, %r10d
	ja	.LBB72_24
.LBB72_2:
	incl	%r10d
	movq	%rsi, %r11
.LBB72_3:
	leaq	(%r11,%r11,2), %rsi
	movq	-24(%rbx,%rsi), %r14
	andq	%rax, %r14
	shlq	$3, %rdi
	leaq	-1(%r14), %r15
	cmpq	%rdi, %r15
	jae	.LBB72_7
	shrq	$3, %r14
	decq	%r14
	cmpq	%r8, %r14
	jae	.LBB72_7
	shlq	$4, %r14
	movq	8(%rdx,%r14), %r14
	jmp	.LBB72_8
	.p2align	4
.LBB72_7:
	xorl	%r14d, %r14d
.LBB72_8:
	movq	-16(%rbx,%rsi), %rbx
	andq	%rax, %rbx
	leaq	-1(%rbx), %r15
	cmpq	%rdi, %r15
	jae	.LBB72_12
	shrq	$3, %rbx
	decq	%rbx
	cmpq	%r8, %rbx
	jae	.LBB72_12
	shlq	$4, %rbx
	movq	8(%rdx,%rbx), %rdi
	jmp	.LBB72_13
	.p2align	4
.LBB72_12:
	xorl	%edi, %edi
.LBB72_13:
	movq	%r11, %rbx
	shrq	$3, %rbx
	decq	%rbx
	cmpq	%r8, %rbx
	jae	.LBB72_17
	movq	%rbx, %r15
	shlq	$4, %r15
	movq	(%rdx,%r15), %r15
	testb	$1, %r9b
	jne	.LBB72_18
.LBB72_15:
	addq	%r15, %rdi
	movq	$-1, %r15
	cmovbq	%r15, %rdi
	addq	%r14, %rdi
	cmovbq	%r15, %rdi
	cmpq	%r8, %rbx
	jb	.LBB72_19
.LBB72_16:
	xorl	%ebx, %ebx
	cmpq	%rdi, %rbx
	jne	.LBB72_20
	jmp	.LBB72_24
	.p2align	4
.LBB72_17:
	xorl	%r15d, %r15d
	testb	$1, %r9b
	je	.LBB72_15
.LBB72_18:
	cmpq	%rdi, %r15
	cmovaq	%r15, %rdi
	cmpq	%rdi, %r14
	cmovaq	%r14, %rdi
	cmpq	%r8, %rbx
	jae	.LBB72_16
.LBB72_19:
	shlq	$4, %rbx
	movq	8(%rdx,%rbx), %rbx
	cmpq	%rdi, %rbx
	je	.LBB72_24
.LBB72_20:
	movq	%rdi, -8(%rdx,%r11,2)
	movq	(%rcx), %rbx
	movq	8(%rcx), %rdi
	movq	-8(%rbx,%rsi), %rsi
	andq	%rax, %rsi
	leaq	(,%rdi,8), %r14
	leaq	-1(%rsi), %r15
	cmpq	%r14, %r15
	jae	.LBB72_24
	leaq	(%rsi,%rsi,2), %r14
	movq	-24(%rbx,%r14), %r15
	andq	%rax, %r15
	cmpq	%r11, %r15
	je	.LBB72_1
	movq	-16(%rbx,%r14), %r14
	andq	%rax, %r14
	cmpq	%r11, %r14
	jne	.LBB72_24
	cmpl	$66, %r10d
	jb	.LBB72_2
.LBB72_24:
	popq	%rbx
	popq	%rdi
	popq	%rsi
	popq	%r14
	popq	%r15
	retq
	.def	ic_raw_augmented.edit_calls.insert_at;
	.scl	3;
	.type	32;
	.endef
	.p2align	4
ic_raw_augmented.edit_calls.insert_at:
	pushq	%r15
	pushq	%r14
	pushq	%r13
	pushq	%r12
	pushq	%rsi
	pushq	%rdi
	pushq	%rbp
	pushq	%rbx
	subq	$216, %rsp
	movl	$1, %ebp
	cmpq	%rdx, %r9
	jb	.LBB73_14
	movq	%r9, %rsi
	movq	%r8, %rdi
	movl	352(%rsp), %eax
	movl	344(%rsp), %r8d
	movzbl	336(%rsp), %r10d
	movq	328(%rsp), %r12
	movabsq	$68719476728, %r14
	leal	1(%rax), %ebx
	leaq	(,%rbx,8), %r11
	xorl	%r9d, %r9d
	testl	%ebx, %ebx
	setne	%r9b
	movq	%r11, 88(%rsp)
	movq	$0, 96(%rsp)
	movq	$0, 104(%rsp)
	movq	$0, 112(%rsp)
	movq	$0, 120(%rsp)
	movq	$0, 128(%rsp)
	movq	$0, 136(%rsp)
	movq	$0, 144(%rsp)
	movq	$0, 152(%rsp)
	movq	$0, 160(%rsp)
	movq	$0, 168(%rsp)
	movq	$0, 176(%rsp)
	movq	$0, 184(%rsp)
	movq	$0, 192(%rsp)
	movq	%r9, 200(%rsp)
	movq	$0, 208(%rsp)
	movq	%rcx, 72(%rsp)
	movq	%rdx, 80(%rsp)
	movq	(%r12), %rbp
	andq	%r14, %rbp
	movq	%rbp, 64(%rsp)
	movl	%r8d, %r13d
	incl	%r13d
	setne	%r9b
	je	.LBB73_2
	cmpq	%r13, %rdx
	jb	.LBB73_3
	leaq	(,%r13,2), %r15
	addq	%r13, %r15
	testb	$1, -24(%rcx,%r15,8)
	je	.LBB73_3
	movl	%r10d, %r8d
	leaq	(,%rdx,8), %r10
	leaq	-1(%rbp), %rax
	cmpq	%r10, %rax
	jae	.LBB73_3
	shrq	$3, %rbp
	leaq	(,%rbp,2), %rax
	addq	%rbp, %rax
	testb	$1, -24(%rcx,%rax,8)
	je	.LBB73_3
	leaq	(%rcx,%r15,8), %rax
	movzbl	%r8b, %r10d
	testq	%r14, -24(%rax,%r10,8)
	movl	%r8d, %r10d
	je	.LBB73_9
	jmp	.LBB73_3
.LBB73_2:
	testq	%rbp, %rbp
	jne	.LBB73_3
.LBB73_9:
	testq	%rbx, %rbx
	je	.LBB73_3
	cmpq	%rbx, %rdx
	jb	.LBB73_3
	leaq	(%rbx,%rbx,2), %r15
	testb	$1, -24(%rcx,%r15,8)
	jne	.LBB73_3
	movq	%rdx, %rbx
	shlq	$3, %r13
	movq	%rcx, %r14
	leaq	(%rcx,%r15,8), %rax
	movq	$1, -24(%rax)
	movq	$0, -16(%rax)
	movq	$0, -8(%rax)
	movq	%r11, 48(%rsp)
	movb	%r10b, 40(%rsp)
	movq	%r13, 32(%rsp)
	leaq	88(%rsp), %rcx
	leaq	72(%rsp), %rdx
	leaq	64(%rsp), %r8
	callq	ic_raw_augmented.noting.WrittenSurgery.attach
	movq	64(%rsp), %rax
	movq	%rax, (%r12)
	xorl	%ebp, %ebp
	jmp	.LBB73_13
.LBB73_3:
	movq	%rcx, %r14
	movq	%rdx, %rbx
	leaq	72(%rsp), %rcx
	movl	344(%rsp), %edx
	movl	352(%rsp), %r8d
	callq	ic_raw.table.RawTable.refusal.19bacce014a8892a
	movl	%eax, %ebp
.LBB73_13:
	movl	%ebp, 48(%rsp)
	leaq	88(%rsp), %rax
	movq	%rax, 40(%rsp)
	movzbl	320(%rsp), %eax
	movb	%al, 32(%rsp)
	movq	%r14, %rcx
	movq	%rbx, %rdx
	movq	%rdi, %r8
	movq	%rsi, %r9
	callq	ic_raw_augmented.edit_calls.settle
.LBB73_14:
	movl	%ebp, %eax
	addq	$216, %rsp
	popq	%rbx
	popq	%rbp
	popq	%rdi
	popq	%rsi
	popq	%r12
	popq	%r13
	popq	%r14
	popq	%r15
	retq
	.def	ic_raw_augmented.sum_calls.refusal_of_starts;
	.scl	3;
	.type	32;
	.endef
	.p2align	4
ic_raw_augmented.sum_calls.refusal_of_starts:
	movq	8(%rcx), %r10
	incl	%r9d
	jne	.LBB74_1
.LBB74_3:
	movl	$1, %eax
	cmpq	%r10, %rdx
	jb	.LBB74_5
	xorl	%eax, %eax
	cmpq	%r10, %r8
	setae	%al
	leal	1(,%rax,4), %eax
	retq
.LBB74_1:
	movl	$1, %eax
	cmpq	%r9, %r10
	jb	.LBB74_5
	movq	(%rcx), %rcx
	leaq	(%r9,%r9,2), %r9
	movl	$3, %eax
	testb	$1, -24(%rcx,%r9,8)
	jne	.LBB74_3
.LBB74_5:
	retq
	.def	ic_raw.xor_calls.splice;
	.scl	3;
	.type	32;
	.endef
	.p2align	4
ic_raw.xor_calls.splice:
	pushq	%r15
	pushq	%r14
	pushq	%r13
	pushq	%r12
	pushq	%rsi
	pushq	%rdi
	pushq	%rbp
	pushq	%rbx
	movq	112(%rsp), %r10
	movabsq	$68719476728, %r11
	movq	(%r8), %r12
	andq	%r11, %r12
	movq	(%r10), %rdi
	andq	%r11, %rdi
	setne	%al
	cmpq	%rdi, %r12
	sete	%bl
	testb	%bl, %al
	je	.LBB75_1
.LBB75_39:
	xorl	%eax, %eax
.LBB75_40:
	popq	%rbx
	popq	%rbp
	popq	%rdi
	popq	%rsi
	popq	%r12
	popq	%r13
	popq	%r14
	popq	%r15
	retq
.LBB75_1:
	movq	128(%rsp), %r14
	movzbl	120(%rsp), %ebp
	movq	104(%rsp), %r15
	movq	8(%r8), %rsi
	andq	%r11, %rsi
	movq	8(%r10), %rbx
	andq	%r11, %rbx
	cmpb	$1, %r9b
	jne	.LBB75_8
	movq	%r15, %rax
	shrq	$3, %rax
	cmpq	%rdx, %rax
	ja	.LBB75_39
	movq	-8(%rcx,%r15), %r13
	testb	$1, %r13b
	je	.LBB75_39
	andq	%r11, %r13
	xorl	%eax, %eax
	testb	%bpl, %bpl
	cmovneq	%r14, %rax
	xorq	%r13, %rax
	jne	.LBB75_5
	cmpq	%r15, %r12
	jne	.LBB75_39
	jmp	.LBB75_9
.LBB75_8:
	xorl	%eax, %eax
	testb	%bpl, %bpl
	movq	%r14, %r13
	cmoveq	%rax, %r13
	cmpq	%r13, %r12
	jne	.LBB75_40
.LBB75_9:
	cmpb	$1, %bpl
	jne	.LBB75_16
	movq	%r14, %rax
	shrq	$3, %rax
	cmpq	%rdx, %rax
	ja	.LBB75_39
	movq	-8(%rcx,%r14), %r13
	testb	$1, %r13b
	je	.LBB75_39
	andq	%r11, %r13
	xorl	%eax, %eax
	testb	%r9b, %r9b
	cmovneq	%r15, %rax
	xorq	%r13, %rax
	jne	.LBB75_14
	cmpq	%r14, %rsi
	jne	.LBB75_39
	jmp	.LBB75_17
.LBB75_16:
	xorl	%eax, %eax
	testb	%r9b, %r9b
	movq	%r15, %r13
	cmoveq	%rax, %r13
	cmpq	%r13, %rsi
	jne	.LBB75_40
.LBB75_17:
	testq	%rdi, %rdi
	je	.LBB75_38
	movq	%rdi, %rax
	shrq	$3, %rax
	cmpq	%rdx, %rax
	ja	.LBB75_39
	movq	-8(%rcx,%rdi), %r13
	testb	$1, %r13b
	je	.LBB75_39
	andq	%r11, %r13
	je	.LBB75_24
	movq	%r13, %rax
	shrq	$3, %rax
	cmpq	%rdx, %rax
	ja	.LBB75_39
	xorl	%eax, %eax
	testq	%rbx, %rbx
	je	.LBB75_40
	movq	-8(%rcx,%r13), %r13
	andl	$1, %r13d
	jne	.LBB75_25
	jmp	.LBB75_40
.LBB75_5:
	movq	%rax, %r13
	shrq	$3, %r13
	cmpq	%rdx, %r13
	ja	.LBB75_39
	testb	$1, -8(%rcx,%rax)
	je	.LBB75_39
	jmp	.LBB75_9
.LBB75_38:
	movq	%r12, %rax
	testq	%rbx, %rbx
	jne	.LBB75_39
.LBB75_37:
	movq	%rax, (%r8)
	movq	%rsi, 8(%r8)
	movq	$0, 8(%r10)
	movq	$0, (%r10)
	movb	$1, %al
	jmp	.LBB75_40
.LBB75_14:
	movq	%rax, %r13
	shrq	$3, %r13
	cmpq	%rdx, %r13
	ja	.LBB75_39
	testb	$1, -8(%rcx,%rax)
	je	.LBB75_39
	jmp	.LBB75_17
.LBB75_24:
	cmpq	%rdi, %rbx
	jne	.LBB75_39
.LBB75_25:
	movq	%rbx, %rax
	shrq	$3, %rax
	cmpq	%rdx, %rax
	ja	.LBB75_39
	movq	-8(%rcx,%rbx), %rax
	testb	$1, %al
	je	.LBB75_39
	andq	%r11, %rax
	je	.LBB75_28
	movq	%rax, %r13
	shrq	$3, %r13
	cmpq	%rdx, %r13
	ja	.LBB75_39
	testb	$1, -8(%rcx,%rax)
	je	.LBB75_39
	jmp	.LBB75_31
.LBB75_28:
	cmpq	%rbx, %rdi
	jne	.LBB75_39
.LBB75_31:
	movq	%rdi, %rax
	testb	%r9b, %r9b
	je	.LBB75_33
	movq	-8(%rcx,%r15), %rax
	andq	%r11, %rax
	xorl	%edx, %edx
	testb	%bpl, %bpl
	cmovneq	%r14, %rdx
	xorq	%rax, %rdx
	xorq	%rdi, %rdx
	incq	%rdx
	movq	%rdx, -8(%rcx,%r15)
	movq	%r12, %rax
.LBB75_33:
	testb	%bpl, %bpl
	je	.LBB75_35
	movq	-8(%rcx,%r14), %rdx
	andq	%r11, %rdx
	xorl	%r12d, %r12d
	testb	%r9b, %r9b
	cmoveq	%r12, %r15
	xorq	%r15, %rdx
	xorq	%rbx, %rdx
	incq	%rdx
	movq	%rdx, -8(%rcx,%r14)
	jmp	.LBB75_36
.LBB75_35:
	xorl	%r14d, %r14d
	testb	%r9b, %r9b
	cmoveq	%r14, %r15
	movq	%rbx, %rsi
.LBB75_36:
	movq	-8(%rcx,%rdi), %rdx
	andq	%r11, %rdx
	xorq	%r15, %rdx
	incq	%rdx
	movq	%rdx, -8(%rcx,%rdi)
	andq	-8(%rcx,%rbx), %r11
	xorq	%r14, %r11
	orq	$1, %r11
	movq	%r11, -8(%rcx,%rbx)
	jmp	.LBB75_37
	.def	ic_raw.xor_calls.refusal_with_both;
	.scl	3;
	.type	32;
	.endef
	.p2align	4
ic_raw.xor_calls.refusal_with_both:
	incl	%edx
	je	.LBB76_4
	movl	$1, %eax
	cmpq	%rdx, 8(%rcx)
	jb	.LBB76_3
	movq	(%rcx), %r10
	movl	$3, %eax
	testb	$1, -8(%r10,%rdx,8)
	jne	.LBB76_4
.LBB76_3:
	retq
.LBB76_4:
	movl	%r8d, %edx
	movl	%r9d, %r8d
	jmp	ic_raw.table.RawTable.refusal.feecb86c9dd45d96
	.def	ic_raw.xor_calls.pop_front_slow;
	.scl	3;
	.type	32;
	.endef
	.p2align	4
ic_raw.xor_calls.pop_front_slow:
	pushq	%r15
	pushq	%r14
	pushq	%r13
	pushq	%r12
	pushq	%rsi
	pushq	%rdi
	pushq	%rbx
	movabsq	$68719476728, %rdi
	movq	(%r8), %r14
	movq	%r14, %r11
	andq	%rdi, %r11
	je	.LBB77_1
	movq	%r11, %r10
	shrq	$3, %r10
	movl	$5, %eax
	cmpq	%rdx, %r10
	ja	.LBB77_9
	movq	-8(%rcx,%r11), %rsi
	testb	$1, %sil
	je	.LBB77_9
	movq	8(%r8), %rbx
	andq	%rdi, %rbx
	andq	%rdi, %rsi
	je	.LBB77_13
	movq	%rsi, %r15
	shrq	$3, %r15
	cmpq	%rdx, %r15
	ja	.LBB77_9
	movq	-8(%rcx,%rsi), %r15
	testb	$1, %r15b
	je	.LBB77_9
	movq	%r15, %r12
	andq	%rdi, %r12
	xorq	%r11, %r12
	jne	.LBB77_10
	cmpq	%rsi, %rbx
	jne	.LBB77_9
	jmp	.LBB77_12
.LBB77_1:
	movl	$4, %eax
.LBB77_9:
	popq	%rbx
	popq	%rdi
	popq	%rsi
	popq	%r12
	popq	%r13
	popq	%r14
	popq	%r15
	retq
.LBB77_13:
	cmpq	%r11, %rbx
	jne	.LBB77_9
	xorl	%ebx, %ebx
	jmp	.LBB77_15
.LBB77_10:
	movq	%r12, %r13
	shrq	$3, %r13
	cmpq	%rdx, %r13
	ja	.LBB77_9
	testb	$1, -8(%rcx,%r12)
	je	.LBB77_9
.LBB77_12:
	xorq	%r14, %r15
	andq	%rdi, %r15
	orq	$1, %r15
	movq	%r15, -8(%rcx,%rsi)
.LBB77_15:
	movq	$0, -8(%rcx,%r11)
	movq	%rsi, (%r8)
	movq	%rbx, 8(%r8)
	decl	%r10d
	movl	%r10d, (%r9)
	xorl	%eax, %eax
	jmp	.LBB77_9
	.def	ic_raw.xor_calls.put_slow;
	.scl	3;
	.type	32;
	.endef
	.p2align	4
ic_raw.xor_calls.put_slow:
	pushq	%r15
	pushq	%r14
	pushq	%r13
	pushq	%r12
	pushq	%rsi
	pushq	%rdi
	pushq	%rbx
	movq	104(%rsp), %rbx
	movq	96(%rsp), %r10
	movabsq	$68719476728, %rsi
	movq	%rbx, %rax
	andq	%rsi, %rax
	movq	(%r8), %r14
	andq	%rsi, %r14
	movq	8(%r8), %rdi
	andq	%rsi, %rdi
	movq	%r10, %r11
	andq	%rsi, %r11
	je	.LBB78_25
	movq	%r11, %r15
	shrq	$3, %r15
	cmpq	%rdx, %r15
	ja	.LBB78_26
	movq	-8(%rcx,%r11), %r15
	testb	$1, %r15b
	je	.LBB78_26
	andq	%rsi, %r15
	xorq	%rax, %r15
	jne	.LBB78_4
	cmpq	%r11, %r14
	je	.LBB78_7
	jmp	.LBB78_26
.LBB78_25:
	cmpq	%rax, %r14
	je	.LBB78_7
	jmp	.LBB78_26
.LBB78_4:
	movq	%r15, %r12
	shrq	$3, %r12
	cmpq	%rdx, %r12
	ja	.LBB78_26
	testb	$1, -8(%rcx,%r15)
	je	.LBB78_26
.LBB78_7:
	leal	1(%r9), %r15d
	testq	%rax, %rax
	je	.LBB78_16
	movq	%rax, %r12
	shrq	$3, %r12
	cmpq	%rdx, %r12
	ja	.LBB78_26
	movq	-8(%rcx,%rax), %r12
	testb	$1, %r12b
	je	.LBB78_26
	andq	%rsi, %r12
	xorq	%r11, %r12
	jne	.LBB78_13
	testq	%r15, %r15
	je	.LBB78_26
	cmpq	%rax, %rdi
	je	.LBB78_18
	jmp	.LBB78_26
.LBB78_16:
	testq	%r15, %r15
	je	.LBB78_26
	cmpq	%r11, %rdi
	je	.LBB78_18
	jmp	.LBB78_26
.LBB78_13:
	movq	%r12, %r13
	shrq	$3, %r13
	cmpq	%rdx, %r13
	ja	.LBB78_26
	testq	%r15, %r15
	je	.LBB78_26
	movq	-8(%rcx,%r12), %r12
	andl	$1, %r12d
	je	.LBB78_26
.LBB78_18:
	cmpq	%r15, %rdx
	jb	.LBB78_26
	shlq	$3, %r15
	testb	$1, -8(%rcx,%r15)
	jne	.LBB78_26
	movq	$1, -8(%rcx,%r15)
	movq	%r15, %rdx
	testq	%r11, %r11
	je	.LBB78_22
	xorq	-8(%rcx,%r11), %rbx
	andq	%rsi, %rbx
	xorq	%r15, %rbx
	orq	$1, %rbx
	movq	%rbx, -8(%rcx,%r11)
	movq	%r14, %rdx
.LBB78_22:
	movq	%r15, %r9
	testq	%rax, %rax
	je	.LBB78_24
	xorq	-8(%rcx,%rax), %r10
	andq	%rsi, %r10
	xorq	%r15, %r10
	orq	$1, %r10
	movq	%r10, -8(%rcx,%rax)
	movq	%rdi, %r9
.LBB78_24:
	xorq	%r11, %rax
	orq	$1, %rax
	movq	%rax, -8(%rcx,%r15)
	movq	%rdx, (%r8)
	movq	%r9, 8(%r8)
	xorl	%eax, %eax
	popq	%rbx
	popq	%rdi
	popq	%rsi
	popq	%r12
	popq	%r13
	popq	%r14
	popq	%r15
	retq
.LBB78_26:
	movl	%r9d, %r8d
	popq	%rbx
	popq	%rdi
	popq	%rsi
	popq	%r12
	popq	%r13
	popq	%r14
	popq	%r15
	jmp	ic_raw.table.refusal_at_end.feecb86c9dd45d96
	.def	ic_raw.table.RawTable.refusal_at_both.feecb86c9dd45d96;
	.scl	3;
	.type	32;
	.endef
	.p2align	4
ic_raw.table.RawTable.refusal_at_both.feecb86c9dd45d96:
	incl	%r8d
	jne	.LBB79_1
.LBB79_3:
	movl	$5, %eax
	incl	%r9d
	je	.LBB79_6
	movl	$1, %eax
	cmpq	%r9, %rdx
	jb	.LBB79_6
	movzbl	-8(%rcx,%r9,8), %eax
	andl	$1, %eax
	leal	3(,%rax,2), %eax
	retq
.LBB79_1:
	movl	$1, %eax
	cmpq	%r8, %rdx
	jb	.LBB79_6
	movl	$3, %eax
	testb	$1, -8(%rcx,%r8,8)
	jne	.LBB79_3
.LBB79_6:
	retq
	.def	ic_hash_check;
	.scl	2;
	.type	32;
	.endef
	.globl	ic_hash_check
	.p2align	4
ic_hash_check:
	pushq	%r15
	pushq	%r14
	pushq	%r13
	pushq	%r12
	pushq	%rsi
	pushq	%rdi
	pushq	%rbp
	pushq	%rbx
	movq	%rdx, %r11
	movq	112(%rsp), %rsi
	movq	104(%rsp), %rdi
	xorl	%r14d, %r14d
	testq	%rcx, %rcx
	sete	%r15b
	xorl	%edx, %edx
	testq	%r8, %r8
	sete	%bpl
	xorl	%eax, %eax
	testq	%rdi, %rdi
	sete	%bl
	cmpq	%r11, %r9
	setb	%r9b
	testq	%rsi, %rsi
	sete	%r10b
	orb	%r9b, %r10b
	movl	$1, %r10d
	je	.LBB80_1
.LBB80_13:
	movl	%r10d, %eax
	popq	%rbx
	popq	%rbp
	popq	%rdi
	popq	%rsi
	popq	%r12
	popq	%r13
	popq	%r14
	popq	%r15
	retq
.LBB80_1:
	movq	120(%rsp), %r9
	movb	%r15b, %r14b
	shll	$12, %r14d
	addq	%r14, %rcx
	movb	%bpl, %dl
	shll	$12, %edx
	addq	%rdx, %r8
	movb	%bl, %al
	shll	$12, %eax
	addq	%rax, %rdi
	movabsq	$68719476728, %rbx
	xorl	%r14d, %r14d
	xorl	%r15d, %r15d
.LBB80_2:
	movq	(%rdi,%r14,8), %rax
	xorl	%r12d, %r12d
	andq	%rbx, %rax
	je	.LBB80_11
	.p2align	4
.LBB80_3:
	movl	$5, %r10d
	cmpq	%r12, %r11
	jbe	.LBB80_13
	movq	%rax, %rdx
	shrq	$3, %rdx
	cmpq	%r11, %rdx
	ja	.LBB80_13
	movq	-8(%rcx,%rax), %r13
	testb	$1, %r13b
	je	.LBB80_13
	movq	-8(%r8,%rax), %rax
	movq	%rax, %rdx
	orq	%rsi, %rdx
	shrq	$32, %rdx
	je	.LBB80_7
	xorl	%edx, %edx
	divq	%rsi
	cmpq	%r14, %rdx
	je	.LBB80_10
	jmp	.LBB80_13
	.p2align	4
.LBB80_7:
	xorl	%edx, %edx
	divl	%esi
	cmpq	%r14, %rdx
	jne	.LBB80_13
.LBB80_10:
	incq	%r12
	andq	%rbx, %r13
	movq	%r13, %rax
	jne	.LBB80_3
.LBB80_11:
	addq	%r12, %r15
	incq	%r14
	cmpq	%rsi, %r14
	jne	.LBB80_2
	movq	%r15, (%r9)
	xorl	%r10d, %r10d
	jmp	.LBB80_13
	.def	ic_hash_find;
	.scl	2;
	.type	32;
	.endef
	.globl	ic_hash_find
	.p2align	4
ic_hash_find:
	pushq	%r15
	pushq	%r14
	pushq	%rsi
	pushq	%rdi
	pushq	%rbx
	movq	%rdx, %r10
	movq	88(%rsp), %r14
	xorl	%r11d, %r11d
	testq	%rcx, %rcx
	sete	%bl
	xorl	%esi, %esi
	testq	%r8, %r8
	sete	%dil
	cmpq	%rdx, %r9
	setb	%al
	testq	%r14, %r14
	sete	%dl
	orb	%al, %dl
	movl	$1, %eax
	jne	.LBB81_14
	movq	96(%rsp), %rax
	movq	80(%rsp), %rdx
	movabsq	$68719476728, %r9
	xorl	%r15d, %r15d
	testq	%rdx, %rdx
	sete	%r15b
	shll	$12, %r15d
	addq	%rdx, %r15
	movq	%rax, %rdx
	orq	%r14, %rdx
	shrq	$32, %rdx
	je	.LBB81_2
	xorl	%edx, %edx
	divq	%r14
	jmp	.LBB81_4
.LBB81_2:
	xorl	%edx, %edx
	divl	%r14d
.LBB81_4:
	movq	(%r15,%rdx,8), %rdx
	andq	%r9, %rdx
	sete	%al
	testq	%r10, %r10
	je	.LBB81_13
	movb	%bl, %r11b
	movb	%dil, %sil
	shll	$12, %r11d
	shll	$12, %esi
	movq	112(%rsp), %rdi
	movq	104(%rsp), %rbx
	addq	%r11, %rcx
	addq	%rsi, %r8
	movq	%r10, %r11
	.p2align	4
.LBB81_6:
	testb	$1, %al
	jne	.LBB81_7
	movq	%rdx, %rsi
	shrq	$3, %rsi
	movl	$5, %eax
	cmpq	%r10, %rsi
	ja	.LBB81_14
	movq	-8(%rcx,%rdx), %r14
	testb	$1, %r14b
	je	.LBB81_14
	cmpq	%rbx, -8(%r8,%rdx)
	je	.LBB81_11
	andq	%r9, %r14
	sete	%al
	movq	%r14, %rdx
	decq	%r11
	jne	.LBB81_6
.LBB81_13:
	movzbl	%al, %eax
	xorl	$5, %eax
	jmp	.LBB81_14
.LBB81_7:
	movl	$4, %eax
	jmp	.LBB81_14
.LBB81_11:
	decl	%esi
	movl	%esi, (%rdi)
	xorl	%eax, %eax
.LBB81_14:
	popq	%rbx
	popq	%rdi
	popq	%rsi
	popq	%r14
	popq	%r15
	retq
	.def	ic_hash_insert;
	.scl	2;
	.type	32;
	.endef
	.globl	ic_hash_insert
	.p2align	4
ic_hash_insert:
	pushq	%rsi
	pushq	%rdi
	movq	%rdx, %r10
	xorl	%edi, %edi
	testq	%rcx, %rcx
	sete	%dl
	testq	%r9, %r9
	je	.LBB82_1
	movq	%r8, %r11
	movl	64(%rsp), %r8d
	movq	56(%rsp), %rax
	movb	%dl, %dil
	shll	$12, %edi
	xorl	%esi, %esi
	testq	%r11, %r11
	sete	%sil
	shll	$12, %esi
	addq	%r11, %rsi
	movq	%rax, %rdx
	orq	%r9, %rdx
	shrq	$32, %rdx
	je	.LBB82_3
	xorl	%edx, %edx
	divq	%r9
	jmp	.LBB82_5
.LBB82_1:
	movl	$1, %eax
	popq	%rdi
	popq	%rsi
	retq
.LBB82_3:
	xorl	%edx, %edx
	divl	%r9d
.LBB82_5:
	addq	%rdi, %rcx
	leal	1(%r8), %eax
	movabsq	$68719476728, %r9
	andq	(%rsi,%rdx,8), %r9
	je	.LBB82_10
	movq	%r9, %r11
	shrq	$3, %r11
	cmpq	%r10, %r11
	ja	.LBB82_9
	testq	%rax, %rax
	je	.LBB82_9
	movq	-8(%rcx,%r9), %r11
	andl	$1, %r11d
	jne	.LBB82_11
	jmp	.LBB82_9
.LBB82_10:
	testq	%rax, %rax
	je	.LBB82_9
.LBB82_11:
	cmpq	%rax, %r10
	jb	.LBB82_9
	shlq	$3, %rax
	testb	$1, -8(%rcx,%rax)
	jne	.LBB82_9
	orq	$1, %r9
	movq	%r9, -8(%rcx,%rax)
	movq	%rax, (%rsi,%rdx,8)
	xorl	%eax, %eax
	popq	%rdi
	popq	%rsi
	retq
.LBB82_9:
	movq	%r10, %rdx
	popq	%rdi
	popq	%rsi
	jmp	ic_raw.table.refusal_at_end.feecb86c9dd45d96
	.def	ic_hash_move_chain;
	.scl	2;
	.type	32;
	.endef
	.globl	ic_hash_move_chain
	.p2align	4
ic_hash_move_chain:
	pushq	%r15
	pushq	%r14
	pushq	%r13
	pushq	%r12
	pushq	%rsi
	pushq	%rdi
	pushq	%rbp
	pushq	%rbx
	movq	%rdx, %r11
	movq	120(%rsp), %rsi
	movq	112(%rsp), %rdi
	xorl	%r14d, %r14d
	testq	%rcx, %rcx
	sete	%r15b
	xorl	%edx, %edx
	testq	%r8, %r8
	sete	%bpl
	xorl	%eax, %eax
	testq	%rdi, %rdi
	sete	%bl
	cmpq	%r11, %r9
	setb	%r9b
	testq	%rsi, %rsi
	sete	%r10b
	orb	%r9b, %r10b
	movl	$1, %r10d
	jne	.LBB83_26
	movq	104(%rsp), %r9
	movb	%r15b, %r14b
	shll	$12, %r14d
	addq	%r14, %rcx
	movb	%bpl, %dl
	shll	$12, %edx
	addq	%rdx, %r8
	movb	%bl, %al
	shll	$12, %eax
	addq	%rax, %rdi
	movabsq	$68719476728, %rbx
	movq	(%r9), %r14
	andq	%rbx, %r14
	sete	%al
	testq	%r11, %r11
	sete	%dl
	movl	%edx, %r10d
	orb	%al, %r10b
	je	.LBB83_2
.LBB83_13:
	xorb	$1, %dl
	orb	%al, %dl
	movl	$5, %r10d
	cmpb	$1, %dl
	jne	.LBB83_26
	testq	%r14, %r14
	sete	%al
	testq	%r11, %r11
	sete	%dl
	orb	%al, %dl
	jne	.LBB83_25
	movq	-8(%rcx,%r14), %rax
	andq	%rbx, %rax
	movq	$1, -8(%rcx,%r14)
	movq	%r11, %r10
	decq	%r10
	je	.LBB83_20
	testq	%rax, %rax
	je	.LBB83_20
	addq	$-2, %r11
	.p2align	4
.LBB83_18:
	movq	%r14, %rdx
	movq	%rax, %r14
	movq	-8(%rcx,%rax), %rax
	andq	%rbx, %rax
	orq	$1, %rdx
	movq	%rdx, -8(%rcx,%r14)
	addq	$-1, %r11
	jae	.LBB83_20
	testq	%rax, %rax
	jne	.LBB83_18
	jmp	.LBB83_20
	.p2align	4
.LBB83_24:
	movq	%rax, %r14
	testq	%rax, %rax
	je	.LBB83_25
.LBB83_20:
	movq	-8(%r8,%r14), %rax
	movq	%rax, %rdx
	orq	%rsi, %rdx
	shrq	$32, %rdx
	je	.LBB83_21
	xorl	%edx, %edx
	divq	%rsi
	jmp	.LBB83_23
	.p2align	4
.LBB83_21:
	xorl	%edx, %edx
	divl	%esi
.LBB83_23:
	movq	(%rdi,%rdx,8), %r11
	andq	%rbx, %r11
	movq	-8(%rcx,%r14), %rax
	andq	%rbx, %rax
	orq	$1, %r11
	movq	%r11, -8(%rcx,%r14)
	movq	%r14, (%rdi,%rdx,8)
	addq	$-1, %r10
	jb	.LBB83_24
.LBB83_25:
	movq	$0, (%r9)
	xorl	%r10d, %r10d
.LBB83_26:
	movl	%r10d, %eax
	popq	%rbx
	popq	%rbp
	popq	%rdi
	popq	%rsi
	popq	%r12
	popq	%r13
	popq	%r14
	popq	%r15
	retq
.LBB83_2:
	movl	$1, %r15d
	movq	%r14, %r13
	.p2align	4
.LBB83_3:
	movq	%r13, %rax
	shrq	$3, %rax
	movl	$5, %r10d
	cmpq	%r11, %rax
	ja	.LBB83_26
	movq	-8(%rcx,%r13), %r12
	testb	$1, %r12b
	je	.LBB83_26
	movq	-8(%r8,%r13), %rax
	movq	%rax, %rdx
	orq	%rsi, %rdx
	shrq	$32, %rdx
	je	.LBB83_6
	xorl	%edx, %edx
	divq	%rsi
	movq	(%rdi,%rdx,8), %rax
	andq	%rbx, %rax
	jne	.LBB83_9
	jmp	.LBB83_11
	.p2align	4
.LBB83_6:
	xorl	%edx, %edx
	divl	%esi
	movq	(%rdi,%rdx,8), %rax
	andq	%rbx, %rax
	je	.LBB83_11
.LBB83_9:
	movq	%rax, %rdx
	shrq	$3, %rdx
	cmpq	%r11, %rdx
	ja	.LBB83_26
	testb	$1, -8(%rcx,%rax)
	je	.LBB83_26
.LBB83_11:
	andq	%rbx, %r12
	sete	%al
	cmpq	%r15, %r11
	sete	%dl
	je	.LBB83_13
	incq	%r15
	movq	%r12, %r13
	testq	%r12, %r12
	jne	.LBB83_3
	jmp	.LBB83_13
	.def	ic_hash_next_equal;
	.scl	2;
	.type	32;
	.endef
	.globl	ic_hash_next_equal
	.p2align	4
ic_hash_next_equal:
	pushq	%r14
	pushq	%rsi
	pushq	%rdi
	pushq	%rbx
	movl	72(%rsp), %eax
	xorl	%r11d, %r11d
	testq	%rcx, %rcx
	sete	%dil
	xorl	%esi, %esi
	testq	%r8, %r8
	sete	%bl
	leal	1(%rax), %r10d
	incl	%eax
	jne	.LBB84_2
.LBB84_1:
	movl	$4, %eax
	jmp	.LBB84_3
.LBB84_2:
	movl	$1, %eax
	cmpq	%rdx, %r9
	jae	.LBB84_4
.LBB84_3:
	popq	%rbx
	popq	%rdi
	popq	%rsi
	popq	%r14
	retq
.LBB84_4:
	movb	%dil, %r11b
	shll	$12, %r11d
	addq	%r11, %rcx
	cmpq	%r10, %rdx
	jb	.LBB84_15
	movq	-8(%rcx,%r10,8), %r11
	testb	$1, %r11b
	je	.LBB84_15
	movb	%bl, %sil
	shll	$12, %esi
	addq	%rsi, %r8
	movq	80(%rsp), %r9
	movabsq	$68719476728, %rsi
	movq	-8(%r8,%r10,8), %r10
	andq	%rsi, %r11
	sete	%al
	movq	%rdx, %rdi
	.p2align	4
.LBB84_7:
	testb	$1, %al
	jne	.LBB84_1
	movq	%r11, %r14
	shrq	$3, %r14
	movl	$5, %eax
	cmpq	%rdx, %r14
	ja	.LBB84_3
	movq	-8(%rcx,%r11), %rbx
	testb	$1, %bl
	je	.LBB84_3
	cmpq	%r10, -8(%r8,%r11)
	je	.LBB84_14
	andq	%rsi, %rbx
	sete	%al
	movq	%rbx, %r11
	decq	%rdi
	jne	.LBB84_7
	cmpq	$1, %rbx
	movl	$5, %eax
	sbbl	$0, %eax
	jmp	.LBB84_3
.LBB84_14:
	decl	%r14d
	movl	%r14d, (%r9)
	xorl	%eax, %eax
	jmp	.LBB84_3
.LBB84_15:
	shlq	$3, %r10
	movq	%r10, %r8
	popq	%rbx
	popq	%rdi
	popq	%rsi
	popq	%r14
	jmp	ic_raw.table.RawTable.refusal_of.feecb86c9dd45d96
	.def	ic_hash_remove;
	.scl	2;
	.type	32;
	.endef
	.globl	ic_hash_remove
	.p2align	4
ic_hash_remove:
	pushq	%r14
	pushq	%rsi
	pushq	%rdi
	pushq	%rbp
	pushq	%rbx
	movl	88(%rsp), %edi
	xorl	%esi, %esi
	testq	%rcx, %rcx
	sete	%bpl
	xorl	%r11d, %r11d
	testq	%r8, %r8
	sete	%bl
	leal	1(%rdi), %r10d
	movl	$4, %eax
	incl	%edi
	je	.LBB85_22
	testq	%r9, %r9
	je	.LBB85_2
	movq	%rdx, %rdi
	movb	%bpl, %sil
	shll	$12, %esi
	movq	80(%rsp), %rax
	movq	%rax, %rdx
	orq	%r9, %rdx
	shrq	$32, %rdx
	je	.LBB85_4
	xorl	%edx, %edx
	divq	%r9
	jmp	.LBB85_6
.LBB85_2:
	movl	$1, %eax
	jmp	.LBB85_22
.LBB85_4:
	xorl	%edx, %edx
	divl	%r9d
.LBB85_6:
	addq	%rsi, %rcx
	shlq	$3, %r10
	movq	%rdi, %rax
	testq	%rdi, %rdi
	je	.LBB85_18
	movb	%bl, %r11b
	shll	$12, %r11d
	addq	%r11, %r8
	movabsq	$68719476728, %r11
	movq	(%r8,%rdx,8), %r9
	andq	%r11, %r9
	je	.LBB85_18
	movq	%r9, %rsi
	shrq	$3, %rsi
	cmpq	%rax, %rsi
	ja	.LBB85_18
	movq	-8(%rcx,%r9), %rsi
	testb	$1, %sil
	je	.LBB85_18
	cmpq	%r10, %r9
	jne	.LBB85_11
	leaq	(%rcx,%r10), %rax
	addq	$-8, %rax
	andq	-8(%rcx,%r10), %r11
	movq	%r11, %r9
	jmp	.LBB85_21
.LBB85_11:
	cmpq	$1, %rax
	je	.LBB85_18
	movl	$1, %edi
	movq	%r9, %rbx
	.p2align	4
.LBB85_13:
	movq	%rsi, %r14
	andq	%r11, %r14
	je	.LBB85_18
	movq	%r14, %rsi
	shrq	$3, %rsi
	cmpq	%rax, %rsi
	ja	.LBB85_18
	movq	-8(%rcx,%r14), %rsi
	testb	$1, %sil
	je	.LBB85_18
	cmpq	%r10, %r14
	je	.LBB85_19
	incq	%rdi
	movq	%r14, %rbx
	cmpq	%rdi, %rax
	jne	.LBB85_13
.LBB85_18:
	movq	%rax, %rdx
	movq	%r10, %r8
	popq	%rbx
	popq	%rbp
	popq	%rdi
	popq	%rsi
	popq	%r14
	jmp	ic_raw.table.RawTable.refusal_of.feecb86c9dd45d96
.LBB85_19:
	leaq	(%rcx,%r10), %rax
	addq	$-8, %rax
	andq	-8(%rcx,%r10), %r11
	orq	$1, %r11
	movq	%r11, -8(%rcx,%rbx)
.LBB85_21:
	movq	$0, (%rax)
	movq	%r9, (%r8,%rdx,8)
	xorl	%eax, %eax
.LBB85_22:
	popq	%rbx
	popq	%rbp
	popq	%rdi
	popq	%rsi
	popq	%r14
	retq
	.def	ic_list32_append;
	.scl	2;
	.type	32;
	.endef
	.globl	ic_list32_append
	.p2align	4
ic_list32_append:
	pushq	%rsi
	pushq	%rdi
	pushq	%rbx
	subq	$48, %rsp
	movq	%rcx, %rax
	xorl	%ecx, %ecx
	testq	%rax, %rax
	sete	%cl
	shll	$12, %ecx
	addq	%rax, %rcx
	movabsq	$68719476728, %rax
	movq	8(%r8), %r10
	andq	%rax, %r10
	je	.LBB86_12
	movq	%r10, %r11
	shrq	$3, %r11
	cmpq	$536870911, %rdx
	movl	$536870911, %esi
	cmovbq	%rdx, %rsi
	cmpq	%rsi, %r11
	ja	.LBB86_12
	movq	(%r9), %r11
	andq	%rax, %r11
	je	.LBB86_12
	cmpl	$1, -8(%rcx,%r10)
	jne	.LBB86_12
	movq	%r11, %rdi
	shrq	$3, %rdi
	cmpq	%rsi, %rdi
	ja	.LBB86_12
	cmpl	$0, -4(%rcx,%r11)
	jne	.LBB86_12
	movq	8(%r9), %rdi
	andq	%rax, %rdi
	je	.LBB86_12
	testb	$1, -8(%rcx,%r11)
	je	.LBB86_12
	movq	%rdi, %rbx
	shrq	$3, %rbx
	cmpq	%rsi, %rbx
	ja	.LBB86_12
	andq	(%r8), %rax
	cmpq	%r11, %rax
	je	.LBB86_12
	cmpl	$1, -8(%rcx,%rdi)
	jne	.LBB86_12
	movl	%r11d, %edx
	orl	$1, %edx
	movl	%edx, -8(%rcx,%r10)
	movl	%r10d, -4(%rcx,%r11)
	movl	$1, -8(%rcx,%rdi)
	movq	%rax, (%r8)
	movq	%rdi, 8(%r8)
	movq	$0, 8(%r9)
	movq	$0, (%r9)
	xorl	%eax, %eax
	jmp	.LBB86_13
.LBB86_12:
	movq	%r9, 32(%rsp)
	movb	$1, 40(%rsp)
	movl	$-1, %r9d
	callq	ic_raw.list_calls.splice_slow.55ebd757a04f39fd
.LBB86_13:
	addq	$48, %rsp
	popq	%rbx
	popq	%rdi
	popq	%rsi
	retq
	.def	ic_list32_check;
	.scl	2;
	.type	32;
	.endef
	.globl	ic_list32_check
	.p2align	4
ic_list32_check:
	pushq	%rsi
	pushq	%rdi
	pushq	%rbx
	xorl	%eax, %eax
	testq	%rcx, %rcx
	sete	%bl
	movabsq	$68719476728, %r11
	movq	8(%r8), %r10
	andq	%r11, %r10
	andq	(%r8), %r11
	je	.LBB87_1
	movb	%bl, %al
	shll	$12, %eax
	addq	%rax, %rcx
	cmpq	$536870911, %rdx
	movl	$536870911, %r8d
	cmovbq	%rdx, %r8
	xorl	%edi, %edi
	xorl	%edx, %edx
	.p2align	4
.LBB87_3:
	movl	$5, %eax
	cmpq	%rdx, %r8
	je	.LBB87_10
	movq	%r11, %rsi
	shrq	$3, %r11
	cmpq	%r8, %r11
	ja	.LBB87_10
	movl	-8(%rcx,%rsi), %r11d
	testb	$1, %r11b
	je	.LBB87_10
	movl	-4(%rcx,%rsi), %ebx
	andl	$-8, %ebx
	cmpq	%rbx, %rdi
	jne	.LBB87_10
	incq	%rdx
	movl	$4294967288, %eax
	movq	%rsi, %rdi
	andq	%rax, %r11
	jne	.LBB87_3
	movl	$5, %eax
	cmpq	%rsi, %r10
	jne	.LBB87_10
.LBB87_9:
	movq	%rdx, (%r9)
	xorl	%eax, %eax
.LBB87_10:
	popq	%rbx
	popq	%rdi
	popq	%rsi
	retq
.LBB87_1:
	xorl	%edx, %edx
	xorl	%esi, %esi
	movl	$5, %eax
	cmpq	%rsi, %r10
	je	.LBB87_9
	jmp	.LBB87_10
	.def	ic_list32_clear;
	.scl	2;
	.type	32;
	.endef
	.globl	ic_list32_clear
	.p2align	4
ic_list32_clear:
	pushq	%r14
	pushq	%rsi
	pushq	%rdi
	pushq	%rbx
	xorl	%esi, %esi
	testq	%rcx, %rcx
	sete	%bl
	movabsq	$68719476728, %r9
	movq	8(%r8), %r10
	andq	%r9, %r10
	andq	(%r8), %r9
	je	.LBB88_3
	cmpq	$536870911, %rdx
	movl	$536870911, %r11d
	cmovbq	%rdx, %r11
	movl	$5, %eax
	testq	%rdx, %rdx
	je	.LBB88_12
	movb	%bl, %sil
	shll	$12, %esi
	addq	%rsi, %rcx
	xorl	%edi, %edi
	movq	%r9, %rdx
	movq	%r11, %rsi
	.p2align	4
.LBB88_5:
	movq	%rdx, %rbx
	shrq	$3, %rbx
	cmpq	%r11, %rbx
	ja	.LBB88_12
	movl	-8(%rcx,%rdx), %ebx
	testb	$1, %bl
	je	.LBB88_12
	movl	-4(%rcx,%rdx), %r14d
	andl	$-8, %r14d
	cmpq	%r14, %rdi
	jne	.LBB88_12
	movl	$4294967288, %edi
	andq	%rdi, %rbx
	je	.LBB88_9
	movq	%rdx, %rdi
	movq	%rbx, %rdx
	decq	%rsi
	jne	.LBB88_5
	jmp	.LBB88_12
.LBB88_3:
	movl	$5, %eax
	testq	%r10, %r10
	jne	.LBB88_12
	jmp	.LBB88_11
.LBB88_9:
	cmpq	%rdx, %r10
	jne	.LBB88_12
	.p2align	4
.LBB88_10:
	movl	-8(%rcx,%r9), %eax
	movl	$0, -8(%rcx,%r9)
	movl	$4294967288, %r9d
	andq	%rax, %r9
	jne	.LBB88_10
.LBB88_11:
	movq	$0, 8(%r8)
	movq	$0, (%r8)
	xorl	%eax, %eax
.LBB88_12:
	popq	%rbx
	popq	%rdi
	popq	%rsi
	popq	%r14
	retq
	.def	ic_list32_insert_after;
	.scl	2;
	.type	32;
	.endef
	.globl	ic_list32_insert_after
	.p2align	4
ic_list32_insert_after:
	pushq	%r15
	pushq	%r14
	pushq	%r12
	pushq	%rsi
	pushq	%rdi
	pushq	%rbp
	pushq	%rbx
	movq	%rcx, %r10
	movl	96(%rsp), %eax
	xorl	%ecx, %ecx
	testq	%r10, %r10
	sete	%cl
	shll	$12, %ecx
	addq	%r10, %rcx
	movabsq	$68719476728, %r10
	movq	(%r8), %rsi
	andq	%r10, %rsi
	andq	8(%r8), %r10
	leal	1(%r9), %edi
	leaq	(,%rdi,8), %r11
	movl	%r9d, %ebx
	incl	%ebx
	jne	.LBB89_1
	testq	%rsi, %rsi
	je	.LBB89_7
	cmpq	$536870911, %rdx
	movl	$536870911, %r14d
	cmovbq	%rdx, %r14
	movq	%rsi, %rbx
	jmp	.LBB89_9
.LBB89_1:
	cmpq	$536870911, %rdx
	movl	$536870911, %r14d
	cmovbq	%rdx, %r14
	cmpq	%rdi, %r14
	jb	.LBB89_21
	movl	-8(%rcx,%r11), %ebx
	testb	$1, %bl
	je	.LBB89_21
	movl	$4294967288, %r15d
	andq	%r15, %rbx
	je	.LBB89_4
.LBB89_9:
	movq	%rbx, %r15
	shrq	$3, %r15
	cmpq	%r14, %r15
	ja	.LBB89_21
	testb	$1, -8(%rcx,%rbx)
	je	.LBB89_21
	movl	-4(%rcx,%rbx), %r15d
	andl	$-8, %r15d
	movb	$1, %r14b
	xorl	%ebp, %ebp
	cmpq	%r11, %r15
	je	.LBB89_13
	jmp	.LBB89_21
.LBB89_7:
	movb	$1, %bpl
	xorl	%r14d, %r14d
	jmp	.LBB89_5
.LBB89_4:
	xorl	%r14d, %r14d
	movb	$1, %bpl
.LBB89_5:
	xorl	%ebx, %ebx
	movq	%r10, %r15
	cmpq	%r11, %r15
	jne	.LBB89_21
.LBB89_13:
	leal	1(%rax), %r15d
	cmpq	$536870911, %rdx
	movl	$536870911, %r12d
	cmovbq	%rdx, %r12
	testq	%r15, %r15
	je	.LBB89_21
	cmpq	%r15, %r12
	jb	.LBB89_21
	shlq	$3, %r15
	testb	$1, -8(%rcx,%r15)
	jne	.LBB89_21
	movq	%r15, %rax
	testq	%rdi, %rdi
	je	.LBB89_18
	movl	%r15d, %eax
	orl	$1, %eax
	movl	%eax, -8(%rcx,%r11)
	movq	%rsi, %rax
.LBB89_18:
	movq	%r15, %rdx
	testb	%r14b, %r14b
	je	.LBB89_20
	movl	%r15d, -4(%rcx,%rbx)
	movq	%r10, %rdx
.LBB89_20:
	movl	%r11d, -4(%rcx,%r15)
	orl	$1, %ebx
	testb	%bpl, %bpl
	movl	$1, %r9d
	cmovel	%ebx, %r9d
	movl	%r9d, -8(%rcx,%r15)
	movq	%rax, (%r8)
	movq	%rdx, 8(%r8)
	xorl	%eax, %eax
	popq	%rbx
	popq	%rbp
	popq	%rdi
	popq	%rsi
	popq	%r12
	popq	%r14
	popq	%r15
	retq
.LBB89_21:
	movl	%r9d, %r8d
	movl	%eax, %r9d
	popq	%rbx
	popq	%rbp
	popq	%rdi
	popq	%rsi
	popq	%r12
	popq	%r14
	popq	%r15
	jmp	ic_raw.table.RawTable.refusal.05a19227735374d3
	.def	ic_list32_insert_before;
	.scl	2;
	.type	32;
	.endef
	.globl	ic_list32_insert_before
	.p2align	4
ic_list32_insert_before:
	pushq	%r15
	pushq	%r14
	pushq	%rsi
	pushq	%rdi
	pushq	%rbp
	pushq	%rbx
	movq	%rcx, %r10
	movl	88(%rsp), %eax
	xorl	%ecx, %ecx
	testq	%r10, %r10
	sete	%cl
	shll	$12, %ecx
	addq	%r10, %rcx
	movabsq	$68719476728, %r11
	movq	(%r8), %rdi
	andq	%r11, %rdi
	andq	8(%r8), %r11
	leal	1(%r9), %r10d
	leaq	(,%r10,8), %rsi
	movl	%r9d, %ebx
	incl	%ebx
	jne	.LBB90_1
	testq	%r11, %r11
	je	.LBB90_4
	cmpq	$536870911, %rdx
	movl	$536870911, %r14d
	cmovbq	%rdx, %r14
	movq	%r11, %rbx
	jmp	.LBB90_8
.LBB90_1:
	cmpq	$536870911, %rdx
	movl	$536870911, %r14d
	cmovbq	%rdx, %r14
	cmpq	%r10, %r14
	jb	.LBB90_19
	testb	$1, -8(%rcx,%rsi)
	je	.LBB90_19
	movl	-4(%rcx,%rsi), %r15d
	movl	$4294967288, %ebx
	andq	%r15, %rbx
	je	.LBB90_4
.LBB90_8:
	movq	%rbx, %r15
	shrq	$3, %r15
	cmpq	%r14, %r15
	ja	.LBB90_19
	movl	-8(%rcx,%rbx), %r14d
	andl	$-7, %r14d
	movq	%rsi, %r15
	orq	$1, %r15
	cmpq	%r14, %r15
	jne	.LBB90_19
	xorl	%ebp, %ebp
	jmp	.LBB90_11
.LBB90_4:
	cmpq	%rsi, %rdi
	jne	.LBB90_19
	movb	$1, %bpl
	xorl	%ebx, %ebx
	movq	%rdi, %rsi
.LBB90_11:
	leal	1(%rax), %r14d
	cmpq	$536870911, %rdx
	movl	$536870911, %r15d
	cmovbq	%rdx, %r15
	testq	%r14, %r14
	je	.LBB90_19
	cmpq	%r14, %r15
	jb	.LBB90_19
	shlq	$3, %r14
	testb	$1, -8(%rcx,%r14)
	jne	.LBB90_19
	movq	%r14, %rax
	testb	%bpl, %bpl
	jne	.LBB90_16
	movl	%r14d, %eax
	orl	$1, %eax
	movl	%eax, -8(%rcx,%rbx)
	movq	%rdi, %rax
.LBB90_16:
	movq	%r14, %rdx
	testq	%r10, %r10
	je	.LBB90_18
	movl	%r14d, -4(%rcx,%rsi)
	movq	%r11, %rdx
.LBB90_18:
	xorl	%r9d, %r9d
	testb	%bpl, %bpl
	cmovel	%ebx, %r9d
	orl	$1, %esi
	testq	%r10, %r10
	movl	%r9d, -4(%rcx,%r14)
	movl	$1, %r9d
	cmovnel	%esi, %r9d
	movl	%r9d, -8(%rcx,%r14)
	movq	%rax, (%r8)
	movq	%rdx, 8(%r8)
	xorl	%eax, %eax
	popq	%rbx
	popq	%rbp
	popq	%rdi
	popq	%rsi
	popq	%r14
	popq	%r15
	retq
.LBB90_19:
	movl	%r9d, %r8d
	movl	%eax, %r9d
	popq	%rbx
	popq	%rbp
	popq	%rdi
	popq	%rsi
	popq	%r14
	popq	%r15
	jmp	ic_raw.table.RawTable.refusal.05a19227735374d3
	.def	ic_list32_move_after;
	.scl	2;
	.type	32;
	.endef
	.globl	ic_list32_move_after
	.p2align	4
ic_list32_move_after:
	pushq	%r15
	pushq	%r14
	pushq	%rsi
	pushq	%rdi
	pushq	%rbx
	subq	$48, %rsp
	movl	128(%rsp), %r11d
	xorl	%esi, %esi
	testq	%rcx, %rcx
	sete	%bl
	leal	1(%r11), %r10d
	movl	%r11d, %edi
	movl	$4, %eax
	incl	%edi
	je	.LBB91_20
	movb	%bl, %sil
	shll	$12, %esi
	addq	%rsi, %rcx
	cmpq	$536870911, %rdx
	movl	$536870911, %eax
	cmovbq	%rdx, %rax
	cmpq	%r10, %rax
	jb	.LBB91_21
	shlq	$3, %r10
	movl	-8(%rcx,%r10), %esi
	testb	$1, %sil
	je	.LBB91_21
	movl	-4(%rcx,%r10), %edi
	andl	$-8, %edi
	je	.LBB91_21
	andl	$-8, %esi
	je	.LBB91_21
	movl	%edi, %ebx
	shrl	$3, %ebx
	cmpq	%rax, %rbx
	ja	.LBB91_21
	movl	-8(%rcx,%rdi), %ebx
	movq	%r10, %r14
	orq	$1, %r14
	cmpq	%rbx, %r14
	jne	.LBB91_21
	movl	%esi, %ebx
	shrl	$3, %ebx
	cmpq	%rax, %rbx
	ja	.LBB91_21
	movl	-4(%rcx,%rsi), %ebx
	cmpq	%rbx, %r10
	jne	.LBB91_21
	leal	1(%r9), %ebx
	testq	%rbx, %rbx
	je	.LBB91_21
	testb	$1, -8(%rcx,%rsi)
	je	.LBB91_21
	cmpq	%rbx, %rax
	jb	.LBB91_21
	shlq	$3, %rbx
	movl	-8(%rcx,%rbx), %r14d
	testb	$1, %r14b
	je	.LBB91_21
	andl	$-8, %r14d
	je	.LBB91_21
	movl	%r14d, %r15d
	shrl	$3, %r15d
	cmpq	%rax, %r15
	ja	.LBB91_21
	movl	-4(%rcx,%r14), %eax
	cmpq	%rax, %rbx
	jne	.LBB91_21
	testb	$1, -8(%rcx,%r14)
	je	.LBB91_21
	xorl	%eax, %eax
	cmpq	%r10, %rbx
	je	.LBB91_20
	cmpq	%r14, %r10
	je	.LBB91_20
	movabsq	$68719476728, %rdx
	movq	(%r8), %r9
	andq	%rdx, %r9
	andq	8(%r8), %rdx
	movl	%esi, %r11d
	orl	$1, %r11d
	movl	%r11d, -8(%rcx,%rdi)
	movl	%edi, -4(%rcx,%rsi)
	movl	%r10d, %r11d
	orl	$1, %r11d
	movl	%r11d, -8(%rcx,%rbx)
	movl	%r10d, -4(%rcx,%r14)
	movl	%ebx, -4(%rcx,%r10)
	orl	$1, %r14d
	movl	%r14d, -8(%rcx,%r10)
	movq	%r9, (%r8)
	movq	%rdx, 8(%r8)
	jmp	.LBB91_20
.LBB91_21:
	movl	%r11d, 40(%rsp)
	movl	%r9d, 32(%rsp)
	xorl	%r9d, %r9d
	callq	ic_raw.move_calls.move_slow.55ebd757a04f39fd
.LBB91_20:
	addq	$48, %rsp
	popq	%rbx
	popq	%rdi
	popq	%rsi
	popq	%r14
	popq	%r15
	retq
	.def	ic_list32_move_before;
	.scl	2;
	.type	32;
	.endef
	.globl	ic_list32_move_before
	.p2align	4
ic_list32_move_before:
	pushq	%r15
	pushq	%r14
	pushq	%rsi
	pushq	%rdi
	pushq	%rbx
	subq	$48, %rsp
	movl	128(%rsp), %r11d
	xorl	%esi, %esi
	testq	%rcx, %rcx
	sete	%bl
	leal	1(%r11), %r10d
	movl	%r11d, %edi
	movl	$4, %eax
	incl	%edi
	je	.LBB92_18
	movb	%bl, %sil
	shll	$12, %esi
	addq	%rsi, %rcx
	cmpq	$536870911, %rdx
	movl	$536870911, %eax
	cmovbq	%rdx, %rax
	cmpq	%r10, %rax
	jb	.LBB92_19
	shlq	$3, %r10
	movl	-8(%rcx,%r10), %esi
	testb	$1, %sil
	je	.LBB92_19
	movl	-4(%rcx,%r10), %edi
	andl	$-8, %edi
	je	.LBB92_19
	andl	$-8, %esi
	je	.LBB92_19
	movl	%edi, %ebx
	shrl	$3, %ebx
	cmpq	%rax, %rbx
	ja	.LBB92_19
	movl	-8(%rcx,%rdi), %ebx
	movq	%r10, %r14
	orq	$1, %r14
	cmpq	%rbx, %r14
	jne	.LBB92_19
	movl	%esi, %ebx
	shrl	$3, %ebx
	cmpq	%rax, %rbx
	ja	.LBB92_19
	movl	-4(%rcx,%rsi), %ebx
	cmpq	%rbx, %r10
	jne	.LBB92_19
	leal	1(%r9), %ebx
	testq	%rbx, %rbx
	je	.LBB92_19
	testb	$1, -8(%rcx,%rsi)
	je	.LBB92_19
	cmpq	%rbx, %rax
	jb	.LBB92_19
	shlq	$3, %rbx
	testb	$1, -8(%rcx,%rbx)
	je	.LBB92_19
	movl	-4(%rcx,%rbx), %r14d
	andl	$-8, %r14d
	je	.LBB92_19
	movl	%r14d, %r15d
	shrl	$3, %r15d
	cmpq	%rax, %r15
	ja	.LBB92_19
	movl	-8(%rcx,%r14), %eax
	movq	%rbx, %r15
	orq	$1, %r15
	cmpq	%rax, %r15
	jne	.LBB92_19
	cmpq	%r14, %r10
	setne	%dl
	cmpq	%r10, %rbx
	setne	%r9b
	xorl	%eax, %eax
	testb	%r9b, %dl
	je	.LBB92_18
	movabsq	$68719476728, %rdx
	movq	(%r8), %r9
	andq	%rdx, %r9
	andq	8(%r8), %rdx
	movl	%esi, %r11d
	orl	$1, %r11d
	movl	%r11d, -8(%rcx,%rdi)
	movl	%edi, -4(%rcx,%rsi)
	movl	%r10d, %r11d
	orl	$1, %r11d
	movl	%r11d, -8(%rcx,%r14)
	movl	%r10d, -4(%rcx,%rbx)
	movl	%r14d, -4(%rcx,%r10)
	orl	$1, %ebx
	movl	%ebx, -8(%rcx,%r10)
	movq	%r9, (%r8)
	movq	%rdx, 8(%r8)
	jmp	.LBB92_18
.LBB92_19:
	movl	%r11d, 40(%rsp)
	movl	%r9d, 32(%rsp)
	movb	$1, %r9b
	callq	ic_raw.move_calls.move_slow.55ebd757a04f39fd
.LBB92_18:
	addq	$48, %rsp
	popq	%rbx
	popq	%rdi
	popq	%rsi
	popq	%r14
	popq	%r15
	retq
	.def	ic_list32_move_to_back;
	.scl	2;
	.type	32;
	.endef
	.globl	ic_list32_move_to_back
	.p2align	4
ic_list32_move_to_back:
	pushq	%r15
	pushq	%r14
	pushq	%rsi
	pushq	%rdi
	pushq	%rbx
	subq	$48, %rsp
	xorl	%r11d, %r11d
	testq	%rcx, %rcx
	sete	%bl
	leal	1(%r9), %r10d
	movl	%r9d, %esi
	movl	$4, %eax
	incl	%esi
	je	.LBB93_20
	movb	%bl, %r11b
	shll	$12, %r11d
	addq	%r11, %rcx
	cmpq	$536870911, %rdx
	movl	$536870911, %eax
	cmovbq	%rdx, %rax
	cmpq	%r10, %rax
	jb	.LBB93_19
	shlq	$3, %r10
	movabsq	$68719476728, %r11
	movq	8(%r8), %rsi
	andq	%r11, %rsi
	movl	-8(%rcx,%r10), %r14d
	testb	$1, %r14b
	je	.LBB93_14
	movl	-4(%rcx,%r10), %edi
	andl	$-8, %edi
	je	.LBB93_14
	movl	%r14d, %ebx
	andl	$-8, %ebx
	je	.LBB93_14
	movl	%edi, %r15d
	shrl	$3, %r15d
	cmpq	%rax, %r15
	ja	.LBB93_14
	movl	-8(%rcx,%rdi), %r14d
	movq	%r10, %r15
	orq	$1, %r15
	cmpq	%r14, %r15
	jne	.LBB93_19
	movl	%ebx, %r14d
	shrl	$3, %r14d
	cmpq	%rax, %r14
	ja	.LBB93_19
	movl	-4(%rcx,%rbx), %r14d
	cmpq	%r14, %r10
	jne	.LBB93_19
	testb	$1, -8(%rcx,%rbx)
	je	.LBB93_19
	testq	%rsi, %rsi
	je	.LBB93_19
	movq	%rsi, %r14
	shrq	$3, %r14
	cmpq	%rax, %r14
	ja	.LBB93_19
	cmpl	$1, -8(%rcx,%rsi)
	jne	.LBB93_19
	andq	(%r8), %r11
	movl	%ebx, %eax
	orl	$1, %eax
	movl	%eax, -8(%rcx,%rdi)
	movl	%edi, -4(%rcx,%rbx)
	movl	%r10d, %eax
	orl	$1, %eax
	movl	%eax, -8(%rcx,%rsi)
	movl	%esi, -4(%rcx,%r10)
	movl	$1, -8(%rcx,%r10)
	movq	%r11, (%r8)
	movq	%r10, 8(%r8)
	xorl	%eax, %eax
	jmp	.LBB93_20
.LBB93_14:
	cmpq	%r10, %rsi
	jne	.LBB93_19
	cmpl	$1, %r14d
	jne	.LBB93_19
	movl	-4(%rcx,%r10), %esi
	movl	$4294967288, %r11d
	andq	%rsi, %r11
	je	.LBB93_19
	shrl	$3, %esi
	cmpq	%rax, %rsi
	ja	.LBB93_19
	movl	-8(%rcx,%r11), %r11d
	orq	$1, %r10
	xorl	%eax, %eax
	cmpq	%r11, %r10
	je	.LBB93_20
.LBB93_19:
	movl	%r9d, 32(%rsp)
	movb	$1, %r9b
	callq	ic_raw.move_calls.move_to_end_slow.55ebd757a04f39fd
.LBB93_20:
	addq	$48, %rsp
	popq	%rbx
	popq	%rdi
	popq	%rsi
	popq	%r14
	popq	%r15
	retq
	.def	ic_list32_move_to_front;
	.scl	2;
	.type	32;
	.endef
	.globl	ic_list32_move_to_front
	.p2align	4
ic_list32_move_to_front:
	pushq	%r15
	pushq	%r14
	pushq	%r12
	pushq	%rsi
	pushq	%rdi
	pushq	%rbx
	subq	$40, %rsp
	xorl	%r11d, %r11d
	testq	%rcx, %rcx
	sete	%bl
	leal	1(%r9), %r10d
	movl	%r9d, %esi
	movl	$4, %eax
	incl	%esi
	je	.LBB94_23
	movb	%bl, %r11b
	shll	$12, %r11d
	addq	%r11, %rcx
	cmpq	$536870911, %rdx
	movl	$536870911, %eax
	cmovbq	%rdx, %rax
	cmpq	%r10, %rax
	jb	.LBB94_22
	shlq	$3, %r10
	movabsq	$68719476728, %r11
	movq	(%r8), %rsi
	andq	%r11, %rsi
	movl	-8(%rcx,%r10), %edi
	testb	$1, %dil
	je	.LBB94_15
	movl	-4(%rcx,%r10), %ebx
	andl	$-8, %ebx
	je	.LBB94_15
	movl	%edi, %r14d
	andl	$-8, %r14d
	je	.LBB94_15
	movl	%ebx, %r15d
	shrl	$3, %r15d
	cmpq	%rax, %r15
	ja	.LBB94_15
	movl	-8(%rcx,%rbx), %r15d
	movq	%r10, %r12
	orq	$1, %r12
	cmpq	%r15, %r12
	jne	.LBB94_15
	movl	%r14d, %r15d
	shrl	$3, %r15d
	cmpq	%rax, %r15
	ja	.LBB94_15
	movl	-4(%rcx,%r14), %r15d
	cmpq	%r15, %r10
	jne	.LBB94_15
	testb	$1, -8(%rcx,%r14)
	je	.LBB94_15
	testq	%rsi, %rsi
	je	.LBB94_22
	movq	%rsi, %rdi
	shrq	$3, %rdi
	cmpq	%rax, %rdi
	ja	.LBB94_22
	cmpl	$0, -4(%rcx,%rsi)
	jne	.LBB94_22
	testb	$1, -8(%rcx,%rsi)
	je	.LBB94_22
	andq	8(%r8), %r11
	movl	%r14d, %eax
	orl	$1, %eax
	movl	%eax, -8(%rcx,%rbx)
	movl	%ebx, -4(%rcx,%r14)
	movl	%r10d, -4(%rcx,%rsi)
	movl	$0, -4(%rcx,%r10)
	orl	$1, %esi
	movl	%esi, -8(%rcx,%r10)
	movq	%r10, (%r8)
	movq	%r11, 8(%r8)
	xorl	%eax, %eax
	jmp	.LBB94_23
.LBB94_15:
	cmpq	%r10, %rsi
	jne	.LBB94_22
	cmpl	$0, -4(%rcx,%r10)
	jne	.LBB94_22
	testb	$1, %dil
	je	.LBB94_22
	movl	$4294967288, %r11d
	andq	%rdi, %r11
	je	.LBB94_22
	shrl	$3, %edi
	cmpq	%rax, %rdi
	ja	.LBB94_22
	movl	-4(%rcx,%r11), %eax
	cmpq	%rax, %r10
	jne	.LBB94_22
	xorl	%eax, %eax
	testb	$1, -8(%rcx,%r11)
	jne	.LBB94_23
.LBB94_22:
	movl	%r9d, 32(%rsp)
	xorl	%r9d, %r9d
	callq	ic_raw.move_calls.move_to_end_slow.55ebd757a04f39fd
.LBB94_23:
	addq	$40, %rsp
	popq	%rbx
	popq	%rdi
	popq	%rsi
	popq	%r12
	popq	%r14
	popq	%r15
	retq
	.def	ic_list32_pop_back;
	.scl	2;
	.type	32;
	.endef
	.globl	ic_list32_pop_back
	.p2align	4
ic_list32_pop_back:
	pushq	%rsi
	pushq	%rdi
	pushq	%rbx
	xorl	%r11d, %r11d
	testq	%rcx, %rcx
	sete	%bl
	movabsq	$68719476728, %rax
	movq	8(%r8), %r10
	andq	%rax, %r10
	je	.LBB95_10
	cmpq	$536870911, %rdx
	movl	$536870911, %esi
	cmovbq	%rdx, %rsi
	movq	%r10, %rdx
	shrq	$3, %rdx
	cmpq	%rsi, %rdx
	ja	.LBB95_10
	movb	%bl, %r11b
	shll	$12, %r11d
	addq	%r11, %rcx
	movl	-8(%rcx,%r10), %r11d
	andl	$-7, %r11d
	cmpl	$1, %r11d
	jne	.LBB95_10
	andq	(%r8), %rax
	movl	-4(%rcx,%r10), %edi
	movl	$4294967288, %r11d
	andq	%rdi, %r11
	je	.LBB95_7
	movl	%r11d, %edi
	shrl	$3, %edi
	cmpq	%rsi, %rdi
	ja	.LBB95_10
	movl	-8(%rcx,%r11), %esi
	andl	$-7, %esi
	movq	%r10, %rdi
	orq	$1, %rdi
	cmpq	%rsi, %rdi
	jne	.LBB95_10
	movl	$1, -8(%rcx,%r11)
	movq	%rax, %rsi
	movq	%r10, %rax
	jmp	.LBB95_9
.LBB95_7:
	cmpq	%r10, %rax
	jne	.LBB95_10
	movq	%rax, %rdx
	shrq	$3, %rdx
	xorl	%esi, %esi
.LBB95_9:
	movl	$0, -8(%rcx,%rax)
	movq	%rsi, (%r8)
	movq	%r11, 8(%r8)
	decl	%edx
	movl	%edx, (%r9)
	xorl	%eax, %eax
	popq	%rbx
	popq	%rdi
	popq	%rsi
	retq
.LBB95_10:
	movq	%r8, %rcx
	movb	$1, %dl
	popq	%rbx
	popq	%rdi
	popq	%rsi
	jmp	ic_raw.list_calls.refusal_to_pop
	.def	ic_list32_pop_front;
	.scl	2;
	.type	32;
	.endef
	.globl	ic_list32_pop_front
	.p2align	4
ic_list32_pop_front:
	pushq	%rsi
	pushq	%rdi
	movq	%rcx, %rax
	xorl	%ecx, %ecx
	testq	%rax, %rax
	sete	%cl
	shll	$12, %ecx
	addq	%rax, %rcx
	movq	(%r8), %rax
	movabsq	$68719476728, %r10
	andq	%rax, %r10
	je	.LBB96_9
	movq	%r10, %rsi
	shrq	$3, %rsi
	cmpq	$536870911, %rdx
	movl	$536870911, %r11d
	cmovbq	%rdx, %r11
	cmpq	%r11, %rsi
	ja	.LBB96_9
	cmpl	$0, -4(%rcx,%r10)
	jne	.LBB96_9
	movl	-8(%rcx,%r10), %edi
	testb	$1, %dil
	je	.LBB96_9
	movl	$4294967288, %esi
	andq	%rdi, %rsi
	je	.LBB96_9
	shrl	$3, %edi
	cmpq	%r11, %rdi
	ja	.LBB96_9
	movl	-4(%rcx,%rsi), %r11d
	cmpq	%r11, %r10
	jne	.LBB96_9
	testb	$1, -8(%rcx,%rsi)
	je	.LBB96_9
	movl	$0, -4(%rcx,%rsi)
	movl	$0, -8(%rcx,%r10)
	movq	%rsi, (%r8)
	shrq	$3, %rax
	decl	%eax
	movl	%eax, (%r9)
	xorl	%eax, %eax
	popq	%rdi
	popq	%rsi
	retq
.LBB96_9:
	popq	%rdi
	popq	%rsi
	jmp	ic_raw.list_calls.pop_front_slow.55ebd757a04f39fd
	.def	ic_list32_push_back;
	.scl	2;
	.type	32;
	.endef
	.globl	ic_list32_push_back
	.p2align	4
ic_list32_push_back:
	movq	%rcx, %rax
	xorl	%ecx, %ecx
	testq	%rax, %rax
	sete	%cl
	shll	$12, %ecx
	addq	%rax, %rcx
	movabsq	$68719476728, %rax
	andq	8(%r8), %rax
	je	.LBB97_7
	movq	%rax, %r10
	shrq	$3, %r10
	cmpq	$536870911, %rdx
	movl	$536870911, %r11d
	cmovbq	%rdx, %r11
	cmpq	%r11, %r10
	ja	.LBB97_7
	leal	1(%r9), %r10d
	testq	%r10, %r10
	je	.LBB97_7
	cmpl	$1, -8(%rcx,%rax)
	jne	.LBB97_7
	cmpq	%r10, %r11
	jb	.LBB97_7
	shlq	$3, %r10
	testb	$1, -8(%rcx,%r10)
	jne	.LBB97_7
	movl	%r10d, %edx
	orl	$1, %edx
	movl	%edx, -8(%rcx,%rax)
	movl	%eax, -4(%rcx,%r10)
	movl	$1, -8(%rcx,%r10)
	movq	%r10, 8(%r8)
	xorl	%eax, %eax
	retq
.LBB97_7:
	jmp	ic_raw.list_calls.push_back_slow.55ebd757a04f39fd
	.def	ic_list32_push_front;
	.scl	2;
	.type	32;
	.endef
	.globl	ic_list32_push_front
	.p2align	4
ic_list32_push_front:
	pushq	%rsi
	movq	%rcx, %rax
	xorl	%ecx, %ecx
	testq	%rax, %rax
	sete	%cl
	shll	$12, %ecx
	addq	%rax, %rcx
	movabsq	$68719476728, %rax
	movq	8(%r8), %r10
	andq	%rax, %r10
	movq	%r10, %r11
	andq	(%r8), %rax
	je	.LBB98_4
	cmpq	$536870911, %rdx
	movl	$536870911, %r11d
	cmovbq	%rdx, %r11
	movq	%rax, %rsi
	shrq	$3, %rsi
	cmpq	%r11, %rsi
	ja	.LBB98_11
	testb	$1, -8(%rcx,%rax)
	je	.LBB98_11
	movl	-4(%rcx,%rax), %r11d
	andl	$-8, %r11d
.LBB98_4:
	testq	%r11, %r11
	jne	.LBB98_11
	leal	1(%r9), %r11d
	cmpq	$536870911, %rdx
	movl	$536870911, %esi
	cmovbq	%rdx, %rsi
	testq	%r11, %r11
	je	.LBB98_11
	cmpq	%r11, %rsi
	jb	.LBB98_11
	shlq	$3, %r11
	testb	$1, -8(%rcx,%r11)
	jne	.LBB98_11
	movq	%r11, %rdx
	testq	%rax, %rax
	je	.LBB98_10
	movl	%r11d, -4(%rcx,%rax)
	movq	%r10, %rdx
.LBB98_10:
	movl	$0, -4(%rcx,%r11)
	orl	$1, %eax
	movl	%eax, -8(%rcx,%r11)
	movq	%r11, (%r8)
	movq	%rdx, 8(%r8)
	xorl	%eax, %eax
	popq	%rsi
	retq
.LBB98_11:
	movl	$-1, %r8d
	popq	%rsi
	jmp	ic_raw.table.RawTable.refusal.05a19227735374d3
	.def	ic_list32_remove;
	.scl	2;
	.type	32;
	.endef
	.globl	ic_list32_remove
	.p2align	4
ic_list32_remove:
	pushq	%rsi
	pushq	%rdi
	pushq	%rbx
	xorl	%r11d, %r11d
	testq	%rcx, %rcx
	sete	%bl
	leal	1(%r9), %r10d
	movl	%r9d, %esi
	movl	$4, %eax
	incl	%esi
	je	.LBB99_11
	movb	%bl, %r11b
	shll	$12, %r11d
	addq	%r11, %rcx
	cmpq	$536870911, %rdx
	movl	$536870911, %esi
	cmovbq	%rdx, %rsi
	cmpq	%r10, %rsi
	jb	.LBB99_12
	shlq	$3, %r10
	movl	-8(%rcx,%r10), %eax
	testb	$1, %al
	je	.LBB99_12
	movl	-4(%rcx,%r10), %r11d
	andl	$-8, %r11d
	je	.LBB99_12
	andl	$-8, %eax
	je	.LBB99_12
	movl	%r11d, %edi
	shrl	$3, %edi
	cmpq	%rsi, %rdi
	ja	.LBB99_12
	movl	-8(%rcx,%r11), %edi
	movq	%r10, %rbx
	orq	$1, %rbx
	cmpq	%rdi, %rbx
	jne	.LBB99_12
	movl	%eax, %edi
	shrl	$3, %edi
	cmpq	%rsi, %rdi
	ja	.LBB99_12
	movl	-4(%rcx,%rax), %esi
	cmpq	%rsi, %r10
	jne	.LBB99_12
	testb	$1, -8(%rcx,%rax)
	je	.LBB99_12
	movl	%eax, %edx
	orl	$1, %edx
	movl	%edx, -8(%rcx,%r11)
	movl	%r11d, -4(%rcx,%rax)
	movl	$0, -8(%rcx,%r10)
	xorl	%eax, %eax
.LBB99_11:
	popq	%rbx
	popq	%rdi
	popq	%rsi
	retq
.LBB99_12:
	popq	%rbx
	popq	%rdi
	popq	%rsi
	jmp	ic_raw.list_calls.remove_slow.55ebd757a04f39fd
	.def	ic_list32_replace;
	.scl	2;
	.type	32;
	.endef
	.globl	ic_list32_replace
	.p2align	4
ic_list32_replace:
	pushq	%r15
	pushq	%r14
	pushq	%r12
	pushq	%rsi
	pushq	%rdi
	pushq	%rbx
	xorl	%r11d, %r11d
	testq	%rcx, %rcx
	sete	%bl
	leal	1(%r9), %r10d
	movl	%r9d, %esi
	movl	$4, %eax
	incl	%esi
	je	.LBB100_21
	movb	%bl, %r11b
	shll	$12, %r11d
	addq	%r11, %rcx
	movl	88(%rsp), %eax
	cmpq	$536870911, %rdx
	movl	$536870911, %r14d
	cmovbq	%rdx, %r14
	cmpq	%r10, %r14
	jb	.LBB100_6
	shlq	$3, %r10
	movl	-8(%rcx,%r10), %r11d
	testb	$1, %r11b
	je	.LBB100_6
	movabsq	$68719476728, %rsi
	movq	(%r8), %rbx
	andq	%rsi, %rbx
	andq	8(%r8), %rsi
	movl	-4(%rcx,%r10), %edi
	andl	$-8, %edi
	je	.LBB100_7
	movl	%edi, %r15d
	shrl	$3, %r15d
	cmpq	%r14, %r15
	ja	.LBB100_6
	movl	-8(%rcx,%rdi), %r15d
	andl	$-7, %r15d
	movq	%r10, %r12
	orq	$1, %r12
	cmpq	%r15, %r12
	je	.LBB100_8
	jmp	.LBB100_6
.LBB100_7:
	cmpq	%r10, %rbx
	jne	.LBB100_6
.LBB100_8:
	movq	%rsi, %r12
	andl	$-8, %r11d
	je	.LBB100_12
	movl	%r11d, %r15d
	shrl	$3, %r15d
	cmpq	%r14, %r15
	ja	.LBB100_6
	testb	$1, -8(%rcx,%r11)
	je	.LBB100_6
	movl	-4(%rcx,%r11), %r12d
	andl	$-8, %r12d
.LBB100_12:
	leal	1(%rax), %r15d
	testq	%r15, %r15
	je	.LBB100_6
	cmpq	%r10, %r12
	jne	.LBB100_6
	cmpq	%r15, %r14
	jb	.LBB100_6
	shlq	$3, %r15
	testb	$1, -8(%rcx,%r15)
	jne	.LBB100_6
	movq	%r15, %rax
	testl	%edi, %edi
	je	.LBB100_18
	movl	%r15d, %eax
	orl	$1, %eax
	movl	%eax, -8(%rcx,%rdi)
	movq	%rbx, %rax
.LBB100_18:
	movq	%r15, %rdx
	testl	%r11d, %r11d
	je	.LBB100_20
	movl	%r15d, -4(%rcx,%r11)
	movq	%rsi, %rdx
.LBB100_20:
	movl	%edi, -4(%rcx,%r15)
	orl	$1, %r11d
	movl	%r11d, -8(%rcx,%r15)
	movl	$0, -8(%rcx,%r10)
	movq	%rax, (%r8)
	movq	%rdx, 8(%r8)
	xorl	%eax, %eax
.LBB100_21:
	popq	%rbx
	popq	%rdi
	popq	%rsi
	popq	%r12
	popq	%r14
	popq	%r15
	retq
.LBB100_6:
	movl	%r9d, %r8d
	movl	%eax, %r9d
	popq	%rbx
	popq	%rdi
	popq	%rsi
	popq	%r12
	popq	%r14
	popq	%r15
	jmp	ic_raw.table.RawTable.refusal.05a19227735374d3
	.def	ic_list32_splice_after;
	.scl	2;
	.type	32;
	.endef
	.globl	ic_list32_splice_after
	.p2align	4
ic_list32_splice_after:
	pushq	%r14
	pushq	%rsi
	pushq	%rdi
	pushq	%rbx
	subq	$56, %rsp
	movq	%rcx, %rax
	movq	128(%rsp), %r10
	xorl	%ecx, %ecx
	testq	%rax, %rax
	sete	%cl
	shll	$12, %ecx
	addq	%rax, %rcx
	cmpl	$-1, %r9d
	jne	.LBB101_14
	movabsq	$68719476728, %rax
	movq	(%r8), %r11
	andq	%rax, %r11
	je	.LBB101_14
	movq	%r11, %rsi
	shrq	$3, %rsi
	cmpq	$536870911, %rdx
	movl	$536870911, %edi
	cmovbq	%rdx, %rdi
	cmpq	%rdi, %rsi
	ja	.LBB101_14
	cmpl	$0, -4(%rcx,%r11)
	jne	.LBB101_14
	movq	(%r10), %rsi
	andq	%rax, %rsi
	je	.LBB101_14
	testb	$1, -8(%rcx,%r11)
	je	.LBB101_14
	movq	%rsi, %rbx
	shrq	$3, %rbx
	cmpq	%rdi, %rbx
	ja	.LBB101_14
	cmpl	$0, -4(%rcx,%rsi)
	jne	.LBB101_14
	movq	8(%r10), %rbx
	andq	%rax, %rbx
	je	.LBB101_14
	testb	$1, -8(%rcx,%rsi)
	je	.LBB101_14
	movq	%rbx, %r14
	shrq	$3, %r14
	cmpq	%rdi, %r14
	ja	.LBB101_14
	cmpq	%rsi, %r11
	je	.LBB101_14
	cmpl	$1, -8(%rcx,%rbx)
	jne	.LBB101_14
	andq	8(%r8), %rax
	movl	%ebx, -4(%rcx,%r11)
	movl	$0, -4(%rcx,%rsi)
	orl	$1, %r11d
	movl	%r11d, -8(%rcx,%rbx)
	movq	%rsi, (%r8)
	movq	%rax, 8(%r8)
	movq	$0, 8(%r10)
	movq	$0, (%r10)
	xorl	%eax, %eax
	jmp	.LBB101_15
.LBB101_14:
	movq	%r10, 32(%rsp)
	movb	$0, 40(%rsp)
	callq	ic_raw.list_calls.splice_slow.55ebd757a04f39fd
.LBB101_15:
	addq	$56, %rsp
	popq	%rbx
	popq	%rdi
	popq	%rsi
	popq	%r14
	retq
	.def	ic_list32_splice_before;
	.scl	2;
	.type	32;
	.endef
	.globl	ic_list32_splice_before
	.p2align	4
ic_list32_splice_before:
	pushq	%r14
	pushq	%rsi
	pushq	%rdi
	pushq	%rbx
	subq	$56, %rsp
	movq	%rcx, %rax
	movq	128(%rsp), %r10
	xorl	%ecx, %ecx
	testq	%rax, %rax
	sete	%cl
	shll	$12, %ecx
	addq	%rax, %rcx
	cmpl	$-1, %r9d
	jne	.LBB102_13
	movabsq	$68719476728, %rax
	movq	8(%r8), %r11
	andq	%rax, %r11
	je	.LBB102_13
	movq	%r11, %rsi
	shrq	$3, %rsi
	cmpq	$536870911, %rdx
	movl	$536870911, %edi
	cmovbq	%rdx, %rdi
	cmpq	%rdi, %rsi
	ja	.LBB102_13
	movq	(%r10), %rsi
	andq	%rax, %rsi
	je	.LBB102_13
	cmpl	$1, -8(%rcx,%r11)
	jne	.LBB102_13
	movq	%rsi, %rbx
	shrq	$3, %rbx
	cmpq	%rdi, %rbx
	ja	.LBB102_13
	cmpl	$0, -4(%rcx,%rsi)
	jne	.LBB102_13
	movq	8(%r10), %rbx
	andq	%rax, %rbx
	je	.LBB102_13
	testb	$1, -8(%rcx,%rsi)
	je	.LBB102_13
	movq	%rbx, %r14
	shrq	$3, %r14
	cmpq	%rdi, %r14
	ja	.LBB102_13
	andq	(%r8), %rax
	cmpq	%rsi, %rax
	je	.LBB102_13
	cmpl	$1, -8(%rcx,%rbx)
	jne	.LBB102_13
	movl	%esi, %edx
	orl	$1, %edx
	movl	%edx, -8(%rcx,%r11)
	movl	%r11d, -4(%rcx,%rsi)
	movl	$1, -8(%rcx,%rbx)
	movq	%rax, (%r8)
	movq	%rbx, 8(%r8)
	movq	$0, 8(%r10)
	movq	$0, (%r10)
	xorl	%eax, %eax
	jmp	.LBB102_14
.LBB102_13:
	movq	%r10, 32(%rsp)
	movb	$1, 40(%rsp)
	callq	ic_raw.list_calls.splice_slow.55ebd757a04f39fd
.LBB102_14:
	addq	$56, %rsp
	popq	%rbx
	popq	%rdi
	popq	%rsi
	popq	%r14
	retq
	.def	ic_list32_split_after;
	.scl	2;
	.type	32;
	.endef
	.globl	ic_list32_split_after
	.p2align	4
ic_list32_split_after:
	pushq	%rsi
	pushq	%rdi
	pushq	%rbx
	subq	$48, %rsp
	movq	%rcx, %rax
	movq	112(%rsp), %r10
	movabsq	$68719476728, %r11
	xorl	%ecx, %ecx
	testq	%rax, %rax
	sete	%cl
	shll	$12, %ecx
	addq	%rax, %rcx
	testq	%r11, (%r10)
	jne	.LBB103_10
	testq	%r11, 8(%r10)
	jne	.LBB103_10
	leal	1(%r9), %eax
	movl	%r9d, %esi
	incl	%esi
	je	.LBB103_10
	cmpq	$536870911, %rdx
	movl	$536870911, %edi
	cmovbq	%rdx, %rdi
	cmpq	%rax, %rdi
	jb	.LBB103_10
	shlq	$3, %rax
	movl	-8(%rcx,%rax), %ebx
	testb	$1, %bl
	je	.LBB103_10
	movl	$4294967288, %esi
	andq	%rbx, %rsi
	je	.LBB103_10
	shrl	$3, %ebx
	cmpq	%rdi, %rbx
	ja	.LBB103_10
	movl	-4(%rcx,%rsi), %edi
	cmpq	%rdi, %rax
	jne	.LBB103_10
	testb	$1, -8(%rcx,%rsi)
	je	.LBB103_10
	movq	(%r8), %rdx
	andq	%r11, %rdx
	andq	8(%r8), %r11
	movl	$1, -8(%rcx,%rax)
	movl	$0, -4(%rcx,%rsi)
	movq	%rdx, (%r8)
	movq	%rax, 8(%r8)
	movq	%rsi, (%r10)
	movq	%r11, 8(%r10)
	xorl	%eax, %eax
	jmp	.LBB103_11
.LBB103_10:
	movq	%r10, 32(%rsp)
	movb	$0, 40(%rsp)
	callq	ic_raw.list_calls.split_slow.55ebd757a04f39fd
.LBB103_11:
	addq	$48, %rsp
	popq	%rbx
	popq	%rdi
	popq	%rsi
	retq
	.def	ic_list32_split_before;
	.scl	2;
	.type	32;
	.endef
	.globl	ic_list32_split_before
	.p2align	4
ic_list32_split_before:
	pushq	%rsi
	pushq	%rdi
	pushq	%rbx
	subq	$48, %rsp
	movq	%rcx, %rax
	movq	112(%rsp), %r10
	movabsq	$68719476728, %r11
	xorl	%ecx, %ecx
	testq	%rax, %rax
	sete	%cl
	shll	$12, %ecx
	addq	%rax, %rcx
	testq	%r11, (%r10)
	jne	.LBB104_9
	testq	%r11, 8(%r10)
	jne	.LBB104_9
	leal	1(%r9), %eax
	movl	%r9d, %esi
	incl	%esi
	je	.LBB104_9
	cmpq	$536870911, %rdx
	movl	$536870911, %edi
	cmovbq	%rdx, %rdi
	cmpq	%rax, %rdi
	jb	.LBB104_9
	shlq	$3, %rax
	testb	$1, -8(%rcx,%rax)
	je	.LBB104_9
	movl	-4(%rcx,%rax), %ebx
	movl	$4294967288, %esi
	andq	%rbx, %rsi
	je	.LBB104_9
	shrl	$3, %ebx
	cmpq	%rdi, %rbx
	ja	.LBB104_9
	movl	-8(%rcx,%rsi), %edi
	movq	%rax, %rbx
	orq	$1, %rbx
	cmpq	%rdi, %rbx
	jne	.LBB104_9
	movq	(%r8), %rdx
	andq	%r11, %rdx
	andq	8(%r8), %r11
	movl	$1, -8(%rcx,%rsi)
	movl	$0, -4(%rcx,%rax)
	movq	%rax, (%r8)
	movq	%r11, 8(%r8)
	movq	%rdx, (%r10)
	movq	%rsi, 8(%r10)
	xorl	%eax, %eax
	jmp	.LBB104_10
.LBB104_9:
	movq	%r10, 32(%rsp)
	movb	$1, 40(%rsp)
	callq	ic_raw.list_calls.split_slow.55ebd757a04f39fd
.LBB104_10:
	addq	$48, %rsp
	popq	%rbx
	popq	%rdi
	popq	%rsi
	retq
	.def	ic_list32_transfer_after;
	.scl	2;
	.type	32;
	.endef
	.globl	ic_list32_transfer_after
	.p2align	4
ic_list32_transfer_after:
	subq	$56, %rsp
	movq	96(%rsp), %rax
	movl	104(%rsp), %r10d
	xorl	%r11d, %r11d
	testq	%rcx, %rcx
	sete	%r11b
	shll	$12, %r11d
	addq	%r11, %rcx
	movl	%r10d, 48(%rsp)
	movq	%rax, 40(%rsp)
	movl	%r9d, 32(%rsp)
	xorl	%r9d, %r9d
	callq	ic_raw_lists.transfer_calls.transfer_at.55ebd757a04f39fd
	addq	$56, %rsp
	retq
	.def	ic_list32_transfer_before;
	.scl	2;
	.type	32;
	.endef
	.globl	ic_list32_transfer_before
	.p2align	4
ic_list32_transfer_before:
	subq	$56, %rsp
	movq	96(%rsp), %rax
	movl	104(%rsp), %r10d
	xorl	%r11d, %r11d
	testq	%rcx, %rcx
	sete	%r11b
	shll	$12, %r11d
	addq	%r11, %rcx
	movl	%r10d, 48(%rsp)
	movq	%rax, 40(%rsp)
	movl	%r9d, 32(%rsp)
	movb	$1, %r9b
	callq	ic_raw_lists.transfer_calls.transfer_at.55ebd757a04f39fd
	addq	$56, %rsp
	retq
	.def	ic_list_append;
	.scl	2;
	.type	32;
	.endef
	.globl	ic_list_append
	.p2align	4
ic_list_append:
	pushq	%rsi
	pushq	%rdi
	subq	$56, %rsp
	movq	%rcx, %rax
	xorl	%ecx, %ecx
	testq	%rax, %rax
	sete	%cl
	shll	$12, %ecx
	addq	%rax, %rcx
	movabsq	$68719476728, %rax
	movq	8(%r8), %r10
	andq	%rax, %r10
	je	.LBB107_12
	movq	%r10, %r11
	shrq	$3, %r11
	cmpq	%rdx, %r11
	ja	.LBB107_12
	movq	(%r9), %r11
	andq	%rax, %r11
	je	.LBB107_12
	cmpq	$1, -16(%rcx,%r10,2)
	jne	.LBB107_12
	movq	%r11, %rsi
	shrq	$3, %rsi
	cmpq	%rdx, %rsi
	ja	.LBB107_12
	cmpq	$0, -8(%rcx,%r11,2)
	jne	.LBB107_12
	movq	8(%r9), %rsi
	andq	%rax, %rsi
	je	.LBB107_12
	testb	$1, -16(%rcx,%r11,2)
	je	.LBB107_12
	movq	%rsi, %rdi
	shrq	$3, %rdi
	cmpq	%rdx, %rdi
	ja	.LBB107_12
	andq	(%r8), %rax
	cmpq	%r11, %rax
	je	.LBB107_12
	cmpq	$1, -16(%rcx,%rsi,2)
	jne	.LBB107_12
	movq	%r11, %rdx
	orq	$1, %rdx
	movq	%rdx, -16(%rcx,%r10,2)
	movq	%r10, -8(%rcx,%r11,2)
	movq	$1, -16(%rcx,%rsi,2)
	movq	%rax, (%r8)
	movq	%rsi, 8(%r8)
	movq	$0, 8(%r9)
	movq	$0, (%r9)
	xorl	%eax, %eax
	addq	$56, %rsp
	popq	%rdi
	popq	%rsi
	retq
.LBB107_12:
	movq	%r9, 32(%rsp)
	movb	$1, 40(%rsp)
	movl	$-1, %r9d
	callq	ic_raw.list_calls.splice_slow.5386baa488213e47
	addq	$56, %rsp
	popq	%rdi
	popq	%rsi
	retq
	.def	ic_list_check;
	.scl	2;
	.type	32;
	.endef
	.globl	ic_list_check
	.p2align	4
ic_list_check:
	pushq	%r14
	pushq	%rsi
	pushq	%rdi
	pushq	%rbx
	movabsq	$68719476728, %r11
	xorl	%eax, %eax
	testq	%rcx, %rcx
	sete	%bl
	movq	8(%r8), %r10
	andq	%r11, %r10
	movq	(%r8), %rsi
	andq	%r11, %rsi
	je	.LBB108_1
	movb	%bl, %al
	shll	$12, %eax
	addq	%rax, %rcx
	xorl	%ebx, %ebx
	xorl	%r8d, %r8d
	.p2align	4
.LBB108_3:
	movl	$5, %eax
	cmpq	%r8, %rdx
	je	.LBB108_10
	movq	%rsi, %rdi
	shrq	$3, %rsi
	cmpq	%rdx, %rsi
	ja	.LBB108_10
	movq	-16(%rcx,%rdi,2), %rsi
	testb	$1, %sil
	je	.LBB108_10
	movq	-8(%rcx,%rdi,2), %r14
	andq	%r11, %r14
	cmpq	%rbx, %r14
	jne	.LBB108_10
	incq	%r8
	movq	%rdi, %rbx
	andq	%r11, %rsi
	jne	.LBB108_3
	movl	$5, %eax
	cmpq	%rdi, %r10
	jne	.LBB108_10
.LBB108_9:
	movq	%r8, (%r9)
	xorl	%eax, %eax
.LBB108_10:
	popq	%rbx
	popq	%rdi
	popq	%rsi
	popq	%r14
	retq
.LBB108_1:
	xorl	%r8d, %r8d
	xorl	%edi, %edi
	movl	$5, %eax
	cmpq	%rdi, %r10
	je	.LBB108_9
	jmp	.LBB108_10
	.def	ic_list_clear;
	.scl	2;
	.type	32;
	.endef
	.globl	ic_list_clear
	.p2align	4
ic_list_clear:
	pushq	%r15
	pushq	%r14
	pushq	%rsi
	pushq	%rdi
	pushq	%rbx
	movabsq	$68719476728, %r9
	xorl	%esi, %esi
	testq	%rcx, %rcx
	sete	%bl
	movq	8(%r8), %r11
	andq	%r9, %r11
	movq	(%r8), %r10
	movl	$5, %eax
	andq	%r9, %r10
	je	.LBB109_3
	testq	%rdx, %rdx
	je	.LBB109_12
	movb	%bl, %sil
	shll	$12, %esi
	addq	%rsi, %rcx
	xorl	%ebx, %ebx
	movq	%r10, %rsi
	movq	%rdx, %rdi
	.p2align	4
.LBB109_5:
	movq	%rsi, %r14
	shrq	$3, %r14
	cmpq	%rdx, %r14
	ja	.LBB109_12
	movq	-16(%rcx,%rsi,2), %r14
	testb	$1, %r14b
	je	.LBB109_12
	movq	-8(%rcx,%rsi,2), %r15
	andq	%r9, %r15
	cmpq	%rbx, %r15
	jne	.LBB109_12
	andq	%r9, %r14
	je	.LBB109_9
	movq	%rsi, %rbx
	movq	%r14, %rsi
	decq	%rdi
	jne	.LBB109_5
	jmp	.LBB109_12
.LBB109_3:
	testq	%r11, %r11
	jne	.LBB109_12
	jmp	.LBB109_11
.LBB109_9:
	cmpq	%rsi, %r11
	jne	.LBB109_12
	.p2align	4
.LBB109_10:
	movq	%r10, %rax
	movq	-16(%rcx,%r10,2), %r10
	movq	$0, -16(%rcx,%rax,2)
	andq	%r9, %r10
	jne	.LBB109_10
.LBB109_11:
	movq	$0, 8(%r8)
	movq	$0, (%r8)
	xorl	%eax, %eax
.LBB109_12:
	popq	%rbx
	popq	%rdi
	popq	%rsi
	popq	%r14
	popq	%r15
	retq
	.def	ic_list_fill;
	.scl	2;
	.type	32;
	.endef
	.globl	ic_list_fill
	.p2align	4
ic_list_fill:
	pushq	%r15
	pushq	%r14
	pushq	%r13
	pushq	%r12
	pushq	%rsi
	pushq	%rdi
	pushq	%rbp
	pushq	%rbx
	pushq	%rax
	movl	112(%rsp), %r11d
	xorl	%edi, %edi
	testq	%rcx, %rcx
	sete	%r10b
	xorl	%eax, %eax
	testl	%r11d, %r11d
	je	.LBB110_31
	movb	%r10b, %dil
	shll	$12, %edi
	leaq	(%rcx,%rdi), %rsi
	movabsq	$68719476728, %rax
	movq	(%r8), %r10
	andq	%rax, %r10
	movq	8(%r8), %rbx
	andq	%rax, %rbx
	sete	%bpl
	je	.LBB110_5
	movq	%rbx, %r14
	shrq	$3, %r14
	cmpq	%rdx, %r14
	ja	.LBB110_4
	incq	%rax
	andq	-16(%rsi,%rbx,2), %rax
	cmpq	$1, %rax
	je	.LBB110_8
.LBB110_4:
	xorl	%r15d, %r15d
	movb	$1, %bpl
	jmp	.LBB110_7
.LBB110_5:
	testq	%r10, %r10
	je	.LBB110_8
	movb	$1, %bpl
	xorl	%r15d, %r15d
.LBB110_7:
	movq	$0, (%rsp)
	jmp	.LBB110_9
.LBB110_8:
	movb	$1, %r15b
	movq	%rbx, (%rsp)
.LBB110_9:
	movl	%r9d, %r12d
	incq	%r12
	movl	%r11d, %r13d
	.p2align	4
.LBB110_10:
	movl	%r12d, %eax
	leaq	-1(%rax), %r14
	cmpq	%rdx, %r14
	jae	.LBB110_18
	shlq	$4, %rax
	movl	-16(%rsi,%rax), %eax
	addl	%eax, %eax
	andl	$2, %eax
	jne	.LBB110_31
	incq	%r12
	decl	%r13d
	jne	.LBB110_10
	movl	$5, %eax
	testb	%r15b, %r15b
	je	.LBB110_31
	movl	%r9d, %eax
	incl	%eax
	sete	%r14b
	cmpq	%rax, %rdx
	setb	%r15b
	orb	%r14b, %r15b
	jne	.LBB110_30
	movq	%rax, %r15
	shlq	$4, %r15
	testb	$1, -16(%rsi,%r15)
	jne	.LBB110_30
	shlq	$3, %rax
	testb	%bpl, %bpl
	je	.LBB110_19
	xorl	%ebx, %ebx
	movq	%rax, %r10
	jmp	.LBB110_20
.LBB110_18:
	movl	$1, %eax
	jmp	.LBB110_31
.LBB110_19:
	movq	%rax, %rbx
	orq	$1, %rbx
	movq	(%rsp), %r14
	movq	%rbx, -16(%rsi,%r14,2)
	movq	%r14, %rbx
.LBB110_20:
	movq	%rbx, -8(%rsi,%r15)
	movq	$1, -16(%rsi,%r15)
	decl	%r11d
	je	.LBB110_29
	addq	%rdi, %rcx
	addq	$-16, %rcx
	addl	$2, %r9d
.LBB110_22:
	testl	%r9d, %r9d
	je	.LBB110_29
	movl	%r9d, %r9d
	cmpq	%r9, %rdx
	jb	.LBB110_29
	movq	%r9, %rdi
	shlq	$4, %rdi
	testb	$1, -16(%rsi,%rdi)
	jne	.LBB110_29
	leaq	(,%r9,8), %rbx
	movq	%rbx, %r14
	orq	$1, %r14
	movq	%r14, (%rcx,%rax,2)
	movq	%rax, -8(%rsi,%rdi)
	movq	$1, -16(%rsi,%rdi)
	addq	$8, %rax
	incl	%r9d
	decl	%r11d
	jne	.LBB110_22
	jmp	.LBB110_30
.LBB110_29:
	movq	%rax, %rbx
.LBB110_30:
	movq	%r10, (%r8)
	movq	%rbx, 8(%r8)
	xorl	%eax, %eax
.LBB110_31:
	addq	$8, %rsp
	popq	%rbx
	popq	%rbp
	popq	%rdi
	popq	%rsi
	popq	%r12
	popq	%r13
	popq	%r14
	popq	%r15
	retq
	.def	ic_list_insert_after;
	.scl	2;
	.type	32;
	.endef
	.globl	ic_list_insert_after
	.p2align	4
ic_list_insert_after:
	pushq	%r15
	pushq	%r14
	pushq	%rsi
	pushq	%rdi
	pushq	%rbp
	pushq	%rbx
	movq	%rcx, %r10
	movl	88(%rsp), %eax
	xorl	%ecx, %ecx
	testq	%r10, %r10
	sete	%cl
	shll	$12, %ecx
	addq	%r10, %rcx
	movabsq	$68719476728, %rbx
	movq	(%r8), %r11
	andq	%rbx, %r11
	movq	8(%r8), %r10
	andq	%rbx, %r10
	leal	1(%r9), %edi
	movl	%r9d, %ebp
	movq	%r11, %rsi
	incl	%ebp
	je	.LBB111_4
	cmpq	%rdi, %rdx
	jb	.LBB111_16
	movq	%rdi, %rsi
	shlq	$4, %rsi
	movq	-16(%rcx,%rsi), %rsi
	testb	$1, %sil
	je	.LBB111_16
	andq	%rbx, %rsi
.LBB111_4:
	movq	%r10, %r15
	testq	%rsi, %rsi
	je	.LBB111_8
	movq	%rsi, %r14
	shrq	$3, %r14
	cmpq	%rdx, %r14
	ja	.LBB111_16
	testb	$1, -16(%rcx,%rsi,2)
	je	.LBB111_16
	andq	-8(%rcx,%rsi,2), %rbx
	movq	%rbx, %r15
.LBB111_8:
	leal	1(%rax), %ebx
	testq	%rbx, %rbx
	je	.LBB111_16
	cmpq	%rbx, %rdx
	jb	.LBB111_16
	leaq	(,%rdi,8), %r14
	cmpq	%r14, %r15
	jne	.LBB111_16
	movq	%rbx, %r15
	shlq	$4, %r15
	testb	$1, -16(%rcx,%r15)
	jne	.LBB111_16
	shlq	$3, %rbx
	movq	%rbx, %rax
	testq	%rdi, %rdi
	je	.LBB111_14
	shlq	$4, %rdi
	movq	%rbx, %rax
	orq	$1, %rax
	movq	%rax, -16(%rcx,%rdi)
	movq	%r11, %rax
.LBB111_14:
	testq	%rsi, %rsi
	je	.LBB111_15
	movq	%rbx, -8(%rcx,%rsi,2)
	jmp	.LBB111_18
.LBB111_15:
	movq	%rbx, %r10
.LBB111_18:
	movq	%r14, -8(%rcx,%r15)
	orq	$1, %rsi
	movq	%rsi, -16(%rcx,%r15)
	movq	%rax, (%r8)
	movq	%r10, 8(%r8)
	xorl	%eax, %eax
	popq	%rbx
	popq	%rbp
	popq	%rdi
	popq	%rsi
	popq	%r14
	popq	%r15
	retq
.LBB111_16:
	movl	%r9d, %r8d
	movl	%eax, %r9d
	popq	%rbx
	popq	%rbp
	popq	%rdi
	popq	%rsi
	popq	%r14
	popq	%r15
	jmp	ic_raw.table.RawTable.refusal.85cd03e557136797
	.def	ic_list_insert_before;
	.scl	2;
	.type	32;
	.endef
	.globl	ic_list_insert_before
	.p2align	4
ic_list_insert_before:
	pushq	%r15
	pushq	%r14
	pushq	%rsi
	pushq	%rdi
	pushq	%rbx
	movq	%rcx, %r10
	movl	80(%rsp), %eax
	xorl	%ecx, %ecx
	testq	%r10, %r10
	sete	%cl
	shll	$12, %ecx
	addq	%r10, %rcx
	movabsq	$68719476728, %r14
	movq	(%r8), %rsi
	andq	%r14, %rsi
	movq	8(%r8), %r10
	andq	%r14, %r10
	leal	1(%r9), %r11d
	movl	%r9d, %ebx
	movq	%r10, %rdi
	incl	%ebx
	je	.LBB112_4
	cmpq	%r11, %rdx
	jb	.LBB112_7
	movq	%r11, %rdi
	shlq	$4, %rdi
	testb	$1, -16(%rcx,%rdi)
	je	.LBB112_7
	movq	-8(%rcx,%rdi), %rdi
	andq	%r14, %rdi
.LBB112_4:
	leaq	(,%r11,8), %rbx
	testq	%rdi, %rdi
	je	.LBB112_8
	movq	%rdi, %r15
	shrq	$3, %r15
	cmpq	%rdx, %r15
	ja	.LBB112_7
	incq	%r14
	andq	-16(%rcx,%rdi,2), %r14
	movq	%rbx, %r15
	orq	$1, %r15
	cmpq	%r15, %r14
	je	.LBB112_9
	jmp	.LBB112_7
.LBB112_8:
	cmpq	%rbx, %rsi
	movq	%rsi, %rbx
	jne	.LBB112_7
.LBB112_9:
	leal	1(%rax), %r15d
	testq	%r15, %r15
	je	.LBB112_7
	cmpq	%r15, %rdx
	jb	.LBB112_7
	movq	%r15, %r14
	shlq	$4, %r14
	testb	$1, -16(%rcx,%r14)
	jne	.LBB112_7
	shlq	$3, %r15
	movq	%r15, %rax
	testq	%rdi, %rdi
	je	.LBB112_14
	movq	%r15, %rax
	orq	$1, %rax
	movq	%rax, -16(%rcx,%rdi,2)
	movq	%rsi, %rax
.LBB112_14:
	testq	%r11, %r11
	je	.LBB112_15
	movq	%r15, -8(%rcx,%rbx,2)
	jmp	.LBB112_17
.LBB112_15:
	movq	%r15, %r10
.LBB112_17:
	orq	$1, %rbx
	testq	%r11, %r11
	movq	%rdi, -8(%rcx,%r14)
	movl	$1, %edx
	cmovneq	%rbx, %rdx
	movq	%rdx, -16(%rcx,%r14)
	movq	%rax, (%r8)
	movq	%r10, 8(%r8)
	xorl	%eax, %eax
	popq	%rbx
	popq	%rdi
	popq	%rsi
	popq	%r14
	popq	%r15
	retq
.LBB112_7:
	movl	%r9d, %r8d
	movl	%eax, %r9d
	popq	%rbx
	popq	%rdi
	popq	%rsi
	popq	%r14
	popq	%r15
	jmp	ic_raw.table.RawTable.refusal.85cd03e557136797
	.def	ic_list_merge;
	.scl	2;
	.type	32;
	.endef
	.globl	ic_list_merge
	.p2align	4
ic_list_merge:
	pushq	%r15
	pushq	%r14
	pushq	%r13
	pushq	%r12
	pushq	%rsi
	pushq	%rdi
	pushq	%rbp
	pushq	%rbx
	subq	$72, %rsp
	movq	184(%rsp), %rsi
	movq	176(%rsp), %rdi
	xorl	%ebx, %ebx
	testq	%rcx, %rcx
	sete	%bl
	shll	$12, %ebx
	addq	%rcx, %rbx
	xorl	%eax, %eax
	testq	%r8, %r8
	sete	%al
	shll	$12, %eax
	addq	%r8, %rax
	movq	%rax, 56(%rsp)
	movq	%r9, 64(%rsp)
	movq	%rbx, 40(%rsp)
	movq	%rdx, 48(%rsp)
	cmpq	%rdx, %r9
	jb	.LBB113_9
	movabsq	$68719476728, %r14
	movq	(%rdi), %rax
	andq	%r14, %rax
	movq	8(%rdi), %r8
	andq	%r14, %r8
	movq	(%rsi), %r10
	andq	%r14, %r10
	movq	8(%rsi), %rcx
	andq	%r14, %rcx
	testq	%rax, %rax
	je	.LBB113_10
	xorl	%r12d, %r12d
	movq	%rdx, %r11
	movq	%rax, %r13
	.p2align	4
.LBB113_3:
	subq	$1, %r11
	jb	.LBB113_9
	movq	%r13, %r15
	shrq	$3, %r13
	cmpq	%rdx, %r13
	ja	.LBB113_9
	movq	-16(%rbx,%r15,2), %r13
	testb	$1, %r13b
	je	.LBB113_9
	movq	-8(%rbx,%r15,2), %rbp
	andq	%r14, %rbp
	cmpq	%r12, %rbp
	jne	.LBB113_9
	movq	%r15, %r12
	andq	%r14, %r13
	jne	.LBB113_3
	cmpq	%r15, %r8
	je	.LBB113_11
	jmp	.LBB113_9
.LBB113_10:
	testq	%r8, %r8
	jne	.LBB113_9
.LBB113_11:
	testq	%r10, %r10
	je	.LBB113_22
	xorl	%r15d, %r15d
	movq	%rdx, %r11
	movq	%r10, %r12
	.p2align	4
.LBB113_13:
	subq	$1, %r11
	jb	.LBB113_9
	movq	%r12, %r8
	shrq	$3, %r12
	cmpq	%rdx, %r12
	ja	.LBB113_9
	movq	-16(%rbx,%r8,2), %r12
	testb	$1, %r12b
	je	.LBB113_9
	movq	-8(%rbx,%r8,2), %r13
	andq	%r14, %r13
	cmpq	%r15, %r13
	jne	.LBB113_9
	movq	%r8, %r15
	andq	%r14, %r12
	jne	.LBB113_13
	cmpq	%r10, %rax
	je	.LBB113_9
	cmpq	%r8, %rcx
	jne	.LBB113_9
	testq	%rax, %rax
	je	.LBB113_21
	leaq	40(%rsp), %rcx
	leaq	56(%rsp), %rdx
	movq	%rax, %r8
	movq	%r10, %r9
	callq	ic_list_algorithms.merge.merge_runs.6bd71b5c7308988e
	movq	$0, -8(%rbx,%rax,2)
	movq	-16(%rbx,%rax,2), %rdx
	movq	%rax, %rcx
	andq	%r14, %rdx
	je	.LBB113_27
	.p2align	4
.LBB113_25:
	movq	%rcx, %r8
	movq	%rdx, %rcx
	movq	%r8, -8(%rbx,%rdx,2)
	movq	-16(%rbx,%rdx,2), %rdx
	andq	%r14, %rdx
	jne	.LBB113_25
	jmp	.LBB113_27
.LBB113_22:
	testq	%rcx, %rcx
	jne	.LBB113_9
	testq	%rax, %rax
	cmoveq	%rax, %r8
	movq	%r8, %rcx
	jmp	.LBB113_27
.LBB113_9:
	movq	%rdx, %rcx
	movq	%r9, %rdx
	addq	$72, %rsp
	popq	%rbx
	popq	%rbp
	popq	%rdi
	popq	%rsi
	popq	%r12
	popq	%r13
	popq	%r14
	popq	%r15
	jmp	ic_raw.sort_calls.refusal.78cbab63d6c27224
.LBB113_21:
	movq	%r10, %rax
.LBB113_27:
	movq	%rax, (%rdi)
	movq	%rcx, 8(%rdi)
	movq	$0, 8(%rsi)
	movq	$0, (%rsi)
	xorl	%eax, %eax
	addq	$72, %rsp
	popq	%rbx
	popq	%rbp
	popq	%rdi
	popq	%rsi
	popq	%r12
	popq	%r13
	popq	%r14
	popq	%r15
	retq
	.def	ic_list_move_after;
	.scl	2;
	.type	32;
	.endef
	.globl	ic_list_move_after
	.p2align	4
ic_list_move_after:
	pushq	%r15
	pushq	%r14
	pushq	%r13
	pushq	%r12
	pushq	%rsi
	pushq	%rdi
	pushq	%rbp
	pushq	%rbx
	subq	$56, %rsp
	movl	160(%rsp), %r11d
	xorl	%esi, %esi
	testq	%rcx, %rcx
	sete	%bl
	leal	1(%r11), %r10d
	movl	%r11d, %edi
	movl	$4, %eax
	incl	%edi
	je	.LBB114_20
	movb	%bl, %sil
	shll	$12, %esi
	addq	%rsi, %rcx
	cmpq	%r10, %rdx
	jb	.LBB114_21
	movq	%r10, %rsi
	shlq	$4, %rsi
	movq	-16(%rcx,%rsi), %rbx
	testb	$1, %bl
	je	.LBB114_21
	movabsq	$68719476728, %rdi
	movq	-8(%rcx,%rsi), %r14
	andq	%rdi, %r14
	je	.LBB114_21
	andq	%rdi, %rbx
	je	.LBB114_21
	movq	%r14, %rax
	shrq	$3, %rax
	cmpq	%rdx, %rax
	ja	.LBB114_21
	shlq	$3, %r10
	movq	-16(%rcx,%r14,2), %r15
	movq	%r10, %rax
	orq	$1, %rax
	cmpq	%rax, %r15
	jne	.LBB114_21
	movq	%rbx, %rax
	shrq	$3, %rax
	cmpq	%rdx, %rax
	ja	.LBB114_21
	cmpq	%r10, -8(%rcx,%rbx,2)
	jne	.LBB114_21
	leal	1(%r9), %r12d
	cmpq	%r12, %rdx
	jb	.LBB114_21
	testl	%r12d, %r12d
	je	.LBB114_21
	testb	$1, -16(%rcx,%rbx,2)
	je	.LBB114_21
	movq	%r12, %rbp
	shlq	$4, %rbp
	movq	-16(%rcx,%rbp), %r13
	testb	$1, %r13b
	je	.LBB114_21
	andq	%rdi, %r13
	je	.LBB114_21
	movq	%r13, %rax
	shrq	$3, %rax
	cmpq	%rdx, %rax
	ja	.LBB114_21
	shlq	$3, %r12
	cmpq	%r12, -8(%rcx,%r13,2)
	jne	.LBB114_21
	testb	$1, -16(%rcx,%r13,2)
	je	.LBB114_21
	xorl	%eax, %eax
	cmpq	%r10, %r12
	je	.LBB114_20
	cmpq	%r10, %r13
	je	.LBB114_20
	movq	(%r8), %rdx
	andq	%rdi, %rdx
	andq	8(%r8), %rdi
	movq	%rbx, %r9
	orq	$1, %r9
	movq	%r9, -16(%rcx,%r14,2)
	movq	%r14, -8(%rcx,%rbx,2)
	movq	%r15, -16(%rcx,%rbp)
	movq	%r10, -8(%rcx,%r13,2)
	movq	%r12, -8(%rcx,%rsi)
	orq	$1, %r13
	movq	%r13, -16(%rcx,%rsi)
	movq	%rdx, (%r8)
	movq	%rdi, 8(%r8)
	jmp	.LBB114_20
.LBB114_21:
	movl	%r11d, 40(%rsp)
	movl	%r9d, 32(%rsp)
	xorl	%r9d, %r9d
	callq	ic_raw.move_calls.move_slow.5386baa488213e47
.LBB114_20:
	addq	$56, %rsp
	popq	%rbx
	popq	%rbp
	popq	%rdi
	popq	%rsi
	popq	%r12
	popq	%r13
	popq	%r14
	popq	%r15
	retq
	.def	ic_list_move_before;
	.scl	2;
	.type	32;
	.endef
	.globl	ic_list_move_before
	.p2align	4
ic_list_move_before:
	pushq	%r15
	pushq	%r14
	pushq	%r13
	pushq	%r12
	pushq	%rsi
	pushq	%rdi
	pushq	%rbp
	pushq	%rbx
	subq	$56, %rsp
	movl	160(%rsp), %r11d
	xorl	%esi, %esi
	testq	%rcx, %rcx
	sete	%bl
	leal	1(%r11), %r10d
	movl	%r11d, %edi
	movl	$4, %eax
	incl	%edi
	je	.LBB115_19
	movb	%bl, %sil
	shll	$12, %esi
	addq	%rsi, %rcx
	cmpq	%r10, %rdx
	jb	.LBB115_20
	movq	%r10, %rsi
	shlq	$4, %rsi
	movq	-16(%rcx,%rsi), %rbx
	testb	$1, %bl
	je	.LBB115_20
	movabsq	$68719476728, %rdi
	movq	-8(%rcx,%rsi), %r14
	andq	%rdi, %r14
	je	.LBB115_20
	andq	%rdi, %rbx
	je	.LBB115_20
	movq	%r14, %rax
	shrq	$3, %rax
	cmpq	%rdx, %rax
	ja	.LBB115_20
	shlq	$3, %r10
	movq	-16(%rcx,%r14,2), %r15
	movq	%r10, %rax
	orq	$1, %rax
	movq	%r15, 48(%rsp)
	cmpq	%rax, %r15
	jne	.LBB115_20
	movq	%rbx, %rax
	shrq	$3, %rax
	cmpq	%rdx, %rax
	ja	.LBB115_20
	cmpq	%r10, -8(%rcx,%rbx,2)
	jne	.LBB115_20
	leal	1(%r9), %r12d
	cmpq	%r12, %rdx
	jb	.LBB115_20
	testl	%r12d, %r12d
	je	.LBB115_20
	testb	$1, -16(%rcx,%rbx,2)
	je	.LBB115_20
	movq	%r12, %r13
	shlq	$4, %r13
	testb	$1, -16(%rcx,%r13)
	je	.LBB115_20
	movq	-8(%rcx,%r13), %rbp
	andq	%rdi, %rbp
	je	.LBB115_20
	movq	%rbp, %rax
	shrq	$3, %rax
	cmpq	%rdx, %rax
	ja	.LBB115_20
	shlq	$3, %r12
	movq	-16(%rcx,%rbp,2), %r15
	movq	%r12, %rax
	orq	$1, %rax
	cmpq	%rax, %r15
	jne	.LBB115_20
	xorl	%eax, %eax
	cmpq	%r10, %rbp
	je	.LBB115_19
	cmpq	%r10, %r12
	je	.LBB115_19
	movq	(%r8), %rdx
	andq	%rdi, %rdx
	andq	8(%r8), %rdi
	movq	%rbx, %r9
	orq	$1, %r9
	movq	%r9, -16(%rcx,%r14,2)
	movq	%r14, -8(%rcx,%rbx,2)
	movq	48(%rsp), %r9
	movq	%r9, -16(%rcx,%rbp,2)
	movq	%r10, -8(%rcx,%r13)
	movq	%rbp, -8(%rcx,%rsi)
	movq	%r15, -16(%rcx,%rsi)
	movq	%rdx, (%r8)
	movq	%rdi, 8(%r8)
	jmp	.LBB115_19
.LBB115_20:
	movl	%r11d, 40(%rsp)
	movl	%r9d, 32(%rsp)
	movb	$1, %r9b
	callq	ic_raw.move_calls.move_slow.5386baa488213e47
.LBB115_19:
	addq	$56, %rsp
	popq	%rbx
	popq	%rbp
	popq	%rdi
	popq	%rsi
	popq	%r12
	popq	%r13
	popq	%r14
	popq	%r15
	retq
	.def	ic_list_move_to_back;
	.scl	2;
	.type	32;
	.endef
	.globl	ic_list_move_to_back
	.p2align	4
ic_list_move_to_back:
	pushq	%r15
	pushq	%r14
	pushq	%rsi
	pushq	%rdi
	pushq	%rbx
	subq	$48, %rsp
	xorl	%r11d, %r11d
	testq	%rcx, %rcx
	sete	%bl
	leal	1(%r9), %r10d
	movl	%r9d, %esi
	movl	$4, %eax
	incl	%esi
	je	.LBB116_20
	movb	%bl, %r11b
	shll	$12, %r11d
	addq	%r11, %rcx
	cmpq	%r10, %rdx
	jb	.LBB116_19
	leaq	(,%r10,8), %r11
	movabsq	$68719476728, %rsi
	movq	8(%r8), %rax
	andq	%rsi, %rax
	shlq	$4, %r10
	movq	-16(%rcx,%r10), %r14
	testb	$1, %r14b
	je	.LBB116_14
	movq	-8(%rcx,%r10), %rdi
	andq	%rsi, %rdi
	je	.LBB116_14
	movq	%r14, %rbx
	andq	%rsi, %rbx
	je	.LBB116_14
	movq	%rdi, %r15
	shrq	$3, %r15
	cmpq	%rdx, %r15
	ja	.LBB116_14
	movq	-16(%rcx,%rdi,2), %r14
	movq	%r11, %r15
	orq	$1, %r15
	cmpq	%r15, %r14
	jne	.LBB116_19
	movq	%rbx, %r15
	shrq	$3, %r15
	cmpq	%rdx, %r15
	ja	.LBB116_19
	cmpq	%r11, -8(%rcx,%rbx,2)
	jne	.LBB116_19
	testb	$1, -16(%rcx,%rbx,2)
	je	.LBB116_19
	testq	%rax, %rax
	je	.LBB116_19
	movq	%rax, %r15
	shrq	$3, %r15
	cmpq	%rdx, %r15
	ja	.LBB116_19
	cmpq	$1, -16(%rcx,%rax,2)
	jne	.LBB116_19
	andq	(%r8), %rsi
	movq	%rbx, %rdx
	orq	$1, %rdx
	movq	%rdx, -16(%rcx,%rdi,2)
	movq	%rdi, -8(%rcx,%rbx,2)
	movq	%r14, -16(%rcx,%rax,2)
	movq	%rax, -8(%rcx,%r10)
	movq	$1, -16(%rcx,%r10)
	movq	%rsi, (%r8)
	movq	%r11, 8(%r8)
	xorl	%eax, %eax
	jmp	.LBB116_20
.LBB116_14:
	cmpq	%r11, %rax
	jne	.LBB116_19
	cmpq	$1, %r14
	jne	.LBB116_19
	andq	-8(%rcx,%r10), %rsi
	je	.LBB116_19
	movq	%rsi, %rax
	shrq	$3, %rax
	cmpq	%rdx, %rax
	ja	.LBB116_19
	orq	$1, %r11
	xorl	%eax, %eax
	cmpq	%r11, -16(%rcx,%rsi,2)
	je	.LBB116_20
.LBB116_19:
	movl	%r9d, 32(%rsp)
	movb	$1, %r9b
	callq	ic_raw.move_calls.move_to_end_slow.5386baa488213e47
.LBB116_20:
	addq	$48, %rsp
	popq	%rbx
	popq	%rdi
	popq	%rsi
	popq	%r14
	popq	%r15
	retq
	.def	ic_list_move_to_front;
	.scl	2;
	.type	32;
	.endef
	.globl	ic_list_move_to_front
	.p2align	4
ic_list_move_to_front:
	pushq	%r15
	pushq	%r14
	pushq	%rsi
	pushq	%rdi
	pushq	%rbx
	subq	$48, %rsp
	xorl	%r11d, %r11d
	testq	%rcx, %rcx
	sete	%bl
	leal	1(%r9), %r10d
	movl	%r9d, %esi
	movl	$4, %eax
	incl	%esi
	je	.LBB117_23
	movb	%bl, %r11b
	shll	$12, %r11d
	addq	%r11, %rcx
	cmpq	%r10, %rdx
	jb	.LBB117_22
	leaq	(,%r10,8), %rax
	movabsq	$68719476728, %r11
	movq	(%r8), %rsi
	andq	%r11, %rsi
	shlq	$4, %r10
	movq	-16(%rcx,%r10), %rdi
	testb	$1, %dil
	je	.LBB117_15
	movq	-8(%rcx,%r10), %rbx
	andq	%r11, %rbx
	je	.LBB117_15
	movq	%rdi, %r14
	andq	%r11, %r14
	je	.LBB117_15
	movq	%rbx, %r15
	shrq	$3, %r15
	cmpq	%rdx, %r15
	ja	.LBB117_15
	movq	%rax, %r15
	orq	$1, %r15
	cmpq	%r15, -16(%rcx,%rbx,2)
	jne	.LBB117_15
	movq	%r14, %r15
	shrq	$3, %r15
	cmpq	%rdx, %r15
	ja	.LBB117_15
	cmpq	%rax, -8(%rcx,%r14,2)
	jne	.LBB117_15
	testb	$1, -16(%rcx,%r14,2)
	je	.LBB117_15
	testq	%rsi, %rsi
	je	.LBB117_22
	movq	%rsi, %rdi
	shrq	$3, %rdi
	cmpq	%rdx, %rdi
	ja	.LBB117_22
	cmpq	$0, -8(%rcx,%rsi,2)
	jne	.LBB117_22
	testb	$1, -16(%rcx,%rsi,2)
	je	.LBB117_22
	andq	8(%r8), %r11
	movq	%r14, %rdx
	orq	$1, %rdx
	movq	%rdx, -16(%rcx,%rbx,2)
	movq	%rbx, -8(%rcx,%r14,2)
	movq	%rax, -8(%rcx,%rsi,2)
	movq	$0, -8(%rcx,%r10)
	orq	$1, %rsi
	movq	%rsi, -16(%rcx,%r10)
	movq	%rax, (%r8)
	movq	%r11, 8(%r8)
	xorl	%eax, %eax
	jmp	.LBB117_23
.LBB117_15:
	cmpq	%rax, %rsi
	jne	.LBB117_22
	cmpq	$0, -8(%rcx,%r10)
	jne	.LBB117_22
	testb	$1, %dil
	je	.LBB117_22
	andq	%r11, %rdi
	je	.LBB117_22
	movq	%rdi, %r10
	shrq	$3, %r10
	cmpq	%rdx, %r10
	ja	.LBB117_22
	cmpq	%rax, -8(%rcx,%rdi,2)
	jne	.LBB117_22
	xorl	%eax, %eax
	testb	$1, -16(%rcx,%rdi,2)
	jne	.LBB117_23
.LBB117_22:
	movl	%r9d, 32(%rsp)
	xorl	%r9d, %r9d
	callq	ic_raw.move_calls.move_to_end_slow.5386baa488213e47
.LBB117_23:
	addq	$48, %rsp
	popq	%rbx
	popq	%rdi
	popq	%rsi
	popq	%r14
	popq	%r15
	retq
	.def	ic_list_pop_back;
	.scl	2;
	.type	32;
	.endef
	.globl	ic_list_pop_back
	.p2align	4
ic_list_pop_back:
	pushq	%rsi
	pushq	%rdi
	pushq	%rbx
	movabsq	$68719476728, %rax
	xorl	%esi, %esi
	testq	%rcx, %rcx
	sete	%bl
	movq	8(%r8), %r10
	andq	%rax, %r10
	je	.LBB118_10
	movq	%r10, %r11
	shrq	$3, %r11
	cmpq	%rdx, %r11
	ja	.LBB118_10
	movb	%bl, %sil
	shll	$12, %esi
	addq	%rsi, %rcx
	leaq	1(%rax), %rdi
	movq	-16(%rcx,%r10,2), %rsi
	andq	%rdi, %rsi
	cmpq	$1, %rsi
	jne	.LBB118_10
	movq	(%r8), %rsi
	andq	%rax, %rsi
	andq	-8(%rcx,%r10,2), %rax
	je	.LBB118_7
	movq	%rax, %rbx
	shrq	$3, %rbx
	cmpq	%rdx, %rbx
	ja	.LBB118_10
	andq	-16(%rcx,%rax,2), %rdi
	movq	%r10, %rdx
	orq	$1, %rdx
	cmpq	%rdx, %rdi
	jne	.LBB118_10
	movq	$1, -16(%rcx,%rax,2)
	jmp	.LBB118_9
.LBB118_7:
	cmpq	%r10, %rsi
	jne	.LBB118_10
	shrq	$3, %rsi
	movq	%rsi, %r11
	xorl	%esi, %esi
.LBB118_9:
	movq	$0, -16(%rcx,%r10,2)
	movq	%rsi, (%r8)
	movq	%rax, 8(%r8)
	decl	%r11d
	movl	%r11d, (%r9)
	xorl	%eax, %eax
	popq	%rbx
	popq	%rdi
	popq	%rsi
	retq
.LBB118_10:
	movq	%r8, %rcx
	movb	$1, %dl
	popq	%rbx
	popq	%rdi
	popq	%rsi
	jmp	ic_raw.list_calls.refusal_to_pop
	.def	ic_list_pop_front;
	.scl	2;
	.type	32;
	.endef
	.globl	ic_list_pop_front
	.p2align	4
ic_list_pop_front:
	pushq	%rsi
	movq	%rcx, %rax
	movabsq	$68719476728, %r11
	xorl	%ecx, %ecx
	testq	%rax, %rax
	sete	%cl
	shll	$12, %ecx
	addq	%rax, %rcx
	movq	(%r8), %rax
	movq	%rax, %r10
	andq	%r11, %r10
	je	.LBB119_9
	movq	%r10, %rsi
	shrq	$3, %rsi
	cmpq	%rdx, %rsi
	ja	.LBB119_9
	cmpq	$0, -8(%rcx,%r10,2)
	jne	.LBB119_9
	movq	-16(%rcx,%r10,2), %rsi
	testb	$1, %sil
	je	.LBB119_9
	andq	%r11, %rsi
	je	.LBB119_9
	movq	%rsi, %r11
	shrq	$3, %r11
	cmpq	%rdx, %r11
	ja	.LBB119_9
	cmpq	%r10, -8(%rcx,%rsi,2)
	jne	.LBB119_9
	testb	$1, -16(%rcx,%rsi,2)
	je	.LBB119_9
	movq	$0, -8(%rcx,%rsi,2)
	movq	$0, -16(%rcx,%r10,2)
	movq	%rsi, (%r8)
	shrq	$3, %rax
	decl	%eax
	movl	%eax, (%r9)
	xorl	%eax, %eax
	popq	%rsi
	retq
.LBB119_9:
	popq	%rsi
	jmp	ic_raw.list_calls.pop_front_slow.5386baa488213e47
	.def	ic_list_push_back;
	.scl	2;
	.type	32;
	.endef
	.globl	ic_list_push_back
	.p2align	4
ic_list_push_back:
	movq	%rcx, %rax
	xorl	%ecx, %ecx
	testq	%rax, %rax
	sete	%cl
	shll	$12, %ecx
	addq	%rax, %rcx
	movabsq	$68719476728, %rax
	andq	8(%r8), %rax
	je	.LBB120_7
	movq	%rax, %r10
	shrq	$3, %r10
	cmpq	%rdx, %r10
	ja	.LBB120_7
	leal	1(%r9), %r10d
	cmpq	%r10, %rdx
	jb	.LBB120_7
	testl	%r10d, %r10d
	je	.LBB120_7
	cmpq	$1, -16(%rcx,%rax,2)
	jne	.LBB120_7
	movq	%r10, %r11
	shlq	$4, %r11
	testb	$1, -16(%rcx,%r11)
	jne	.LBB120_7
	shlq	$3, %r10
	movq	%r10, %rdx
	orq	$1, %rdx
	movq	%rdx, -16(%rcx,%rax,2)
	movq	%rax, -8(%rcx,%r11)
	movq	$1, -16(%rcx,%r11)
	movq	%r10, 8(%r8)
	xorl	%eax, %eax
	retq
.LBB120_7:
	jmp	ic_raw.list_calls.push_back_slow.5386baa488213e47
	.def	ic_list_push_front;
	.scl	2;
	.type	32;
	.endef
	.globl	ic_list_push_front
	.p2align	4
ic_list_push_front:
	pushq	%rsi
	movq	%rcx, %rax
	movabsq	$68719476728, %r11
	xorl	%ecx, %ecx
	testq	%rax, %rax
	sete	%cl
	shll	$12, %ecx
	addq	%rax, %rcx
	movq	8(%r8), %r10
	andq	%r11, %r10
	movq	(%r8), %rax
	movq	%r10, %rsi
	andq	%r11, %rax
	je	.LBB121_4
	movq	%rax, %rsi
	shrq	$3, %rsi
	cmpq	%rdx, %rsi
	ja	.LBB121_11
	testb	$1, -16(%rcx,%rax,2)
	je	.LBB121_11
	andq	-8(%rcx,%rax,2), %r11
	movq	%r11, %rsi
.LBB121_4:
	leal	1(%r9), %r11d
	testq	%r11, %r11
	je	.LBB121_11
	cmpq	%r11, %rdx
	jb	.LBB121_11
	testq	%rsi, %rsi
	jne	.LBB121_11
	movq	%r11, %rsi
	shlq	$4, %rsi
	testb	$1, -16(%rcx,%rsi)
	jne	.LBB121_11
	shlq	$3, %r11
	movq	%r11, %rdx
	testq	%rax, %rax
	je	.LBB121_10
	movq	%r11, -8(%rcx,%rax,2)
	movq	%r10, %rdx
.LBB121_10:
	movq	$0, -8(%rcx,%rsi)
	orq	$1, %rax
	movq	%rax, -16(%rcx,%rsi)
	movq	%r11, (%r8)
	movq	%rdx, 8(%r8)
	xorl	%eax, %eax
	popq	%rsi
	retq
.LBB121_11:
	movl	$-1, %r8d
	popq	%rsi
	jmp	ic_raw.table.RawTable.refusal.85cd03e557136797
	.def	ic_list_remove;
	.scl	2;
	.type	32;
	.endef
	.globl	ic_list_remove
	.p2align	4
ic_list_remove:
	pushq	%rsi
	pushq	%rdi
	pushq	%rbx
	xorl	%r11d, %r11d
	testq	%rcx, %rcx
	sete	%bl
	leal	1(%r9), %r10d
	movl	%r9d, %esi
	movl	$4, %eax
	incl	%esi
	je	.LBB122_11
	movb	%bl, %r11b
	shll	$12, %r11d
	addq	%r11, %rcx
	cmpq	%r10, %rdx
	jb	.LBB122_12
	movq	%r10, %rax
	shlq	$4, %rax
	movq	-16(%rcx,%rax), %r11
	testb	$1, %r11b
	je	.LBB122_12
	movabsq	$68719476728, %rdi
	movq	-8(%rcx,%rax), %rsi
	andq	%rdi, %rsi
	je	.LBB122_12
	andq	%rdi, %r11
	je	.LBB122_12
	movq	%rsi, %rdi
	shrq	$3, %rdi
	cmpq	%rdx, %rdi
	ja	.LBB122_12
	shlq	$3, %r10
	movq	%r10, %rdi
	orq	$1, %rdi
	cmpq	%rdi, -16(%rcx,%rsi,2)
	jne	.LBB122_12
	movq	%r11, %rdi
	shrq	$3, %rdi
	cmpq	%rdx, %rdi
	ja	.LBB122_12
	cmpq	%r10, -8(%rcx,%r11,2)
	jne	.LBB122_12
	testb	$1, -16(%rcx,%r11,2)
	je	.LBB122_12
	movq	%r11, %rdx
	orq	$1, %rdx
	movq	%rdx, -16(%rcx,%rsi,2)
	movq	%rsi, -8(%rcx,%r11,2)
	movq	$0, -16(%rcx,%rax)
	xorl	%eax, %eax
.LBB122_11:
	popq	%rbx
	popq	%rdi
	popq	%rsi
	retq
.LBB122_12:
	popq	%rbx
	popq	%rdi
	popq	%rsi
	jmp	ic_raw.list_calls.remove_slow.5386baa488213e47
	.def	ic_list_replace;
	.scl	2;
	.type	32;
	.endef
	.globl	ic_list_replace
	.p2align	4
ic_list_replace:
	pushq	%r15
	pushq	%r14
	pushq	%r13
	pushq	%r12
	pushq	%rsi
	pushq	%rdi
	pushq	%rbx
	xorl	%r10d, %r10d
	testq	%rcx, %rcx
	sete	%r11b
	leal	1(%r9), %edi
	movl	%r9d, %esi
	movl	$4, %eax
	incl	%esi
	je	.LBB123_22
	movb	%r11b, %r10b
	shll	$12, %r10d
	addq	%r10, %rcx
	movl	96(%rsp), %eax
	cmpq	%rdi, %rdx
	jb	.LBB123_6
	movq	%rdi, %r10
	shlq	$4, %r10
	movq	-16(%rcx,%r10), %r11
	testb	$1, %r11b
	je	.LBB123_6
	shlq	$3, %rdi
	movabsq	$68719476728, %r15
	movq	(%r8), %r14
	andq	%r15, %r14
	movq	8(%r8), %rsi
	andq	%r15, %rsi
	movq	-8(%rcx,%r10), %rbx
	andq	%r15, %rbx
	je	.LBB123_7
	movq	%rbx, %r12
	shrq	$3, %r12
	cmpq	%rdx, %r12
	ja	.LBB123_6
	leaq	1(%r15), %r12
	andq	-16(%rcx,%rbx,2), %r12
	movq	%rdi, %r13
	orq	$1, %r13
	cmpq	%r13, %r12
	je	.LBB123_8
	jmp	.LBB123_6
.LBB123_7:
	cmpq	%rdi, %r14
	jne	.LBB123_6
.LBB123_8:
	movq	%rsi, %r12
	andq	%r15, %r11
	je	.LBB123_12
	movq	%r11, %r12
	shrq	$3, %r12
	cmpq	%rdx, %r12
	ja	.LBB123_6
	testb	$1, -16(%rcx,%r11,2)
	je	.LBB123_6
	andq	-8(%rcx,%r11,2), %r15
	movq	%r15, %r12
.LBB123_12:
	leal	1(%rax), %r15d
	cmpq	%r15, %rdx
	jb	.LBB123_6
	testl	%r15d, %r15d
	je	.LBB123_6
	cmpq	%rdi, %r12
	jne	.LBB123_6
	movq	%r15, %rdi
	shlq	$4, %rdi
	testb	$1, -16(%rcx,%rdi)
	jne	.LBB123_6
	shlq	$3, %r15
	movq	%r15, %rax
	testq	%rbx, %rbx
	je	.LBB123_18
	movq	%r15, %rax
	orq	$1, %rax
	movq	%rax, -16(%rcx,%rbx,2)
	movq	%r14, %rax
.LBB123_18:
	testq	%r11, %r11
	je	.LBB123_19
	movq	%r15, -8(%rcx,%r11,2)
	jmp	.LBB123_21
.LBB123_6:
	movl	%r9d, %r8d
	movl	%eax, %r9d
	popq	%rbx
	popq	%rdi
	popq	%rsi
	popq	%r12
	popq	%r13
	popq	%r14
	popq	%r15
	jmp	ic_raw.table.RawTable.refusal.85cd03e557136797
.LBB123_19:
	movq	%r15, %rsi
.LBB123_21:
	movq	%rbx, -8(%rcx,%rdi)
	orq	$1, %r11
	movq	%r11, -16(%rcx,%rdi)
	movq	$0, -16(%rcx,%r10)
	movq	%rax, (%r8)
	movq	%rsi, 8(%r8)
	xorl	%eax, %eax
.LBB123_22:
	popq	%rbx
	popq	%rdi
	popq	%rsi
	popq	%r12
	popq	%r13
	popq	%r14
	popq	%r15
	retq
	.def	ic_list_sort;
	.scl	2;
	.type	32;
	.endef
	.globl	ic_list_sort
	.p2align	4
ic_list_sort:
	pushq	%r15
	pushq	%r14
	pushq	%r13
	pushq	%r12
	pushq	%rsi
	pushq	%rdi
	pushq	%rbp
	pushq	%rbx
	subq	$104, %rsp
	movq	208(%rsp), %r15
	xorl	%eax, %eax
	testq	%rcx, %rcx
	sete	%al
	shll	$12, %eax
	addq	%rcx, %rax
	xorl	%ecx, %ecx
	testq	%r8, %r8
	sete	%cl
	shll	$12, %ecx
	addq	%r8, %rcx
	movq	%rcx, 64(%rsp)
	movq	%r9, 72(%rsp)
	movq	%rax, 48(%rsp)
	movq	%rdx, 56(%rsp)
	cmpq	%rdx, %r9
	jb	.LBB124_9
	movabsq	$68719476728, %r12
	movq	(%r15), %rsi
	andq	%r12, %rsi
	movq	8(%r15), %rcx
	andq	%r12, %rcx
	testq	%rsi, %rsi
	je	.LBB124_10
	xorl	%r11d, %r11d
	movq	%rdx, %r8
	movq	%rsi, %rdi
	.p2align	4
.LBB124_3:
	subq	$1, %r8
	jb	.LBB124_9
	movq	%rdi, %r10
	shrq	$3, %rdi
	cmpq	%rdx, %rdi
	ja	.LBB124_9
	movq	-16(%rax,%r10,2), %rdi
	testb	$1, %dil
	je	.LBB124_9
	movq	-8(%rax,%r10,2), %rbx
	andq	%r12, %rbx
	cmpq	%r11, %rbx
	jne	.LBB124_9
	movq	%r10, %r11
	andq	%r12, %rdi
	jne	.LBB124_3
	cmpq	%r10, %rcx
	jne	.LBB124_9
	movq	-16(%rax,%rsi,2), %rdi
	movq	$1, -16(%rax,%rsi,2)
	andq	%r12, %rdi
	je	.LBB124_13
	xorl	%r13d, %r13d
	.p2align	4
.LBB124_15:
	movq	%r13, 32(%rsp)
	leaq	80(%rsp), %rcx
	leaq	48(%rsp), %rbx
	leaq	64(%rsp), %r14
	movq	%rbx, %rdx
	movq	%r14, %r8
	movq	%rdi, %r9
	callq	ic_list_algorithms.sort.sort_front.6bd71b5c7308988e
	movq	80(%rsp), %r9
	movzbl	88(%rsp), %ebp
	movq	96(%rsp), %rdi
	movq	%rbx, %rcx
	movq	%r14, %rdx
	movq	%rsi, %r8
	callq	ic_list_algorithms.merge.merge_runs.6bd71b5c7308988e
	movq	%rax, %rsi
	incq	%r13
	cmpb	$1, %bpl
	je	.LBB124_15
	movq	%rsi, %rdx
	addq	%rsi, %rdx
	movq	48(%rsp), %rax
	jmp	.LBB124_17
.LBB124_10:
	testq	%rcx, %rcx
	jne	.LBB124_9
	xorl	%esi, %esi
	xorl	%eax, %eax
.LBB124_20:
	movq	%rsi, (%r15)
	movq	%rax, 8(%r15)
	xorl	%eax, %eax
	addq	$104, %rsp
	popq	%rbx
	popq	%rbp
	popq	%rdi
	popq	%rsi
	popq	%r12
	popq	%r13
	popq	%r14
	popq	%r15
	retq
.LBB124_9:
	movq	%rdx, %rcx
	movq	%r9, %rdx
	addq	$104, %rsp
	popq	%rbx
	popq	%rbp
	popq	%rdi
	popq	%rsi
	popq	%r12
	popq	%r13
	popq	%r14
	popq	%r15
	jmp	ic_raw.sort_calls.refusal.78cbab63d6c27224
.LBB124_13:
	leaq	(%rsi,%rsi), %rdx
.LBB124_17:
	movq	$0, -8(%rax,%rdx)
	movq	48(%rsp), %rcx
	movq	-16(%rcx,%rdx), %rdx
	movq	%rsi, %rax
	andq	%r12, %rdx
	je	.LBB124_20
	.p2align	4
.LBB124_18:
	movq	%rax, %r8
	movq	%rdx, %rax
	movq	%r8, -8(%rcx,%rdx,2)
	movq	48(%rsp), %rcx
	movq	-16(%rcx,%rdx,2), %rdx
	andq	%r12, %rdx
	jne	.LBB124_18
	jmp	.LBB124_20
	.def	ic_list_splice_after;
	.scl	2;
	.type	32;
	.endef
	.globl	ic_list_splice_after
	.p2align	4
ic_list_splice_after:
	pushq	%rsi
	pushq	%rdi
	pushq	%rbx
	subq	$48, %rsp
	movq	%rcx, %rax
	movq	112(%rsp), %r10
	xorl	%ecx, %ecx
	testq	%rax, %rax
	sete	%cl
	shll	$12, %ecx
	addq	%rax, %rcx
	cmpl	$-1, %r9d
	jne	.LBB125_14
	movabsq	$68719476728, %rax
	movq	(%r8), %r11
	andq	%rax, %r11
	je	.LBB125_14
	movq	%r11, %rsi
	shrq	$3, %rsi
	cmpq	%rdx, %rsi
	ja	.LBB125_14
	cmpq	$0, -8(%rcx,%r11,2)
	jne	.LBB125_14
	movq	(%r10), %rsi
	andq	%rax, %rsi
	je	.LBB125_14
	testb	$1, -16(%rcx,%r11,2)
	je	.LBB125_14
	movq	%rsi, %rdi
	shrq	$3, %rdi
	cmpq	%rdx, %rdi
	ja	.LBB125_14
	cmpq	$0, -8(%rcx,%rsi,2)
	jne	.LBB125_14
	movq	8(%r10), %rdi
	andq	%rax, %rdi
	je	.LBB125_14
	testb	$1, -16(%rcx,%rsi,2)
	je	.LBB125_14
	movq	%rdi, %rbx
	shrq	$3, %rbx
	cmpq	%rdx, %rbx
	ja	.LBB125_14
	cmpq	%rsi, %r11
	je	.LBB125_14
	cmpq	$1, -16(%rcx,%rdi,2)
	jne	.LBB125_14
	andq	8(%r8), %rax
	movq	%rdi, -8(%rcx,%r11,2)
	movq	$0, -8(%rcx,%rsi,2)
	orq	$1, %r11
	movq	%r11, -16(%rcx,%rdi,2)
	movq	%rsi, (%r8)
	movq	%rax, 8(%r8)
	movq	$0, 8(%r10)
	movq	$0, (%r10)
	xorl	%eax, %eax
	jmp	.LBB125_15
.LBB125_14:
	movq	%r10, 32(%rsp)
	movb	$0, 40(%rsp)
	callq	ic_raw.list_calls.splice_slow.5386baa488213e47
.LBB125_15:
	addq	$48, %rsp
	popq	%rbx
	popq	%rdi
	popq	%rsi
	retq
	.def	ic_list_splice_before;
	.scl	2;
	.type	32;
	.endef
	.globl	ic_list_splice_before
	.p2align	4
ic_list_splice_before:
	pushq	%rsi
	pushq	%rdi
	pushq	%rbx
	subq	$48, %rsp
	movq	%rcx, %rax
	movq	112(%rsp), %r10
	xorl	%ecx, %ecx
	testq	%rax, %rax
	sete	%cl
	shll	$12, %ecx
	addq	%rax, %rcx
	cmpl	$-1, %r9d
	jne	.LBB126_13
	movabsq	$68719476728, %rax
	movq	8(%r8), %r11
	andq	%rax, %r11
	je	.LBB126_13
	movq	%r11, %rsi
	shrq	$3, %rsi
	cmpq	%rdx, %rsi
	ja	.LBB126_13
	movq	(%r10), %rsi
	andq	%rax, %rsi
	je	.LBB126_13
	cmpq	$1, -16(%rcx,%r11,2)
	jne	.LBB126_13
	movq	%rsi, %rdi
	shrq	$3, %rdi
	cmpq	%rdx, %rdi
	ja	.LBB126_13
	cmpq	$0, -8(%rcx,%rsi,2)
	jne	.LBB126_13
	movq	8(%r10), %rdi
	andq	%rax, %rdi
	je	.LBB126_13
	testb	$1, -16(%rcx,%rsi,2)
	je	.LBB126_13
	movq	%rdi, %rbx
	shrq	$3, %rbx
	cmpq	%rdx, %rbx
	ja	.LBB126_13
	andq	(%r8), %rax
	cmpq	%rsi, %rax
	je	.LBB126_13
	cmpq	$1, -16(%rcx,%rdi,2)
	jne	.LBB126_13
	movq	%rsi, %rdx
	orq	$1, %rdx
	movq	%rdx, -16(%rcx,%r11,2)
	movq	%r11, -8(%rcx,%rsi,2)
	movq	$1, -16(%rcx,%rdi,2)
	movq	%rax, (%r8)
	movq	%rdi, 8(%r8)
	movq	$0, 8(%r10)
	movq	$0, (%r10)
	xorl	%eax, %eax
	jmp	.LBB126_14
.LBB126_13:
	movq	%r10, 32(%rsp)
	movb	$1, 40(%rsp)
	callq	ic_raw.list_calls.splice_slow.5386baa488213e47
.LBB126_14:
	addq	$48, %rsp
	popq	%rbx
	popq	%rdi
	popq	%rsi
	retq
	.def	ic_list_split_after;
	.scl	2;
	.type	32;
	.endef
	.globl	ic_list_split_after
	.p2align	4
ic_list_split_after:
	pushq	%rsi
	pushq	%rdi
	pushq	%rbx
	subq	$48, %rsp
	movq	%rcx, %rax
	movq	112(%rsp), %r10
	movabsq	$68719476728, %r11
	xorl	%ecx, %ecx
	testq	%rax, %rax
	sete	%cl
	shll	$12, %ecx
	addq	%rax, %rcx
	testq	%r11, (%r10)
	jne	.LBB127_10
	testq	%r11, 8(%r10)
	jne	.LBB127_10
	leal	1(%r9), %eax
	movl	%r9d, %esi
	incl	%esi
	je	.LBB127_10
	cmpq	%rax, %rdx
	jb	.LBB127_10
	movq	%rax, %rdi
	shlq	$4, %rdi
	movq	-16(%rcx,%rdi), %rsi
	testb	$1, %sil
	je	.LBB127_10
	andq	%r11, %rsi
	je	.LBB127_10
	movq	%rsi, %rbx
	shrq	$3, %rbx
	cmpq	%rdx, %rbx
	ja	.LBB127_10
	shlq	$3, %rax
	cmpq	%rax, -8(%rcx,%rsi,2)
	jne	.LBB127_10
	testb	$1, -16(%rcx,%rsi,2)
	je	.LBB127_10
	movq	(%r8), %rdx
	andq	%r11, %rdx
	andq	8(%r8), %r11
	movq	$1, -16(%rcx,%rdi)
	movq	$0, -8(%rcx,%rsi,2)
	movq	%rdx, (%r8)
	movq	%rax, 8(%r8)
	movq	%rsi, (%r10)
	movq	%r11, 8(%r10)
	xorl	%eax, %eax
	jmp	.LBB127_11
.LBB127_10:
	movq	%r10, 32(%rsp)
	movb	$0, 40(%rsp)
	callq	ic_raw.list_calls.split_slow.5386baa488213e47
.LBB127_11:
	addq	$48, %rsp
	popq	%rbx
	popq	%rdi
	popq	%rsi
	retq
	.def	ic_list_split_before;
	.scl	2;
	.type	32;
	.endef
	.globl	ic_list_split_before
	.p2align	4
ic_list_split_before:
	pushq	%rsi
	pushq	%rdi
	pushq	%rbx
	subq	$48, %rsp
	movq	%rcx, %rax
	movq	112(%rsp), %r10
	movabsq	$68719476728, %r11
	xorl	%ecx, %ecx
	testq	%rax, %rax
	sete	%cl
	shll	$12, %ecx
	addq	%rax, %rcx
	testq	%r11, (%r10)
	jne	.LBB128_9
	testq	%r11, 8(%r10)
	jne	.LBB128_9
	leal	1(%r9), %eax
	movl	%r9d, %esi
	incl	%esi
	je	.LBB128_9
	cmpq	%rax, %rdx
	jb	.LBB128_9
	movq	%rax, %rsi
	shlq	$4, %rsi
	testb	$1, -16(%rcx,%rsi)
	je	.LBB128_9
	movq	-8(%rcx,%rsi), %rdi
	andq	%r11, %rdi
	je	.LBB128_9
	movq	%rdi, %rbx
	shrq	$3, %rbx
	cmpq	%rdx, %rbx
	ja	.LBB128_9
	shlq	$3, %rax
	movq	%rax, %rbx
	orq	$1, %rbx
	cmpq	%rbx, -16(%rcx,%rdi,2)
	jne	.LBB128_9
	movq	(%r8), %rdx
	andq	%r11, %rdx
	andq	8(%r8), %r11
	movq	$1, -16(%rcx,%rdi,2)
	movq	$0, -8(%rcx,%rsi)
	movq	%rax, (%r8)
	movq	%r11, 8(%r8)
	movq	%rdx, (%r10)
	movq	%rdi, 8(%r10)
	xorl	%eax, %eax
	jmp	.LBB128_10
.LBB128_9:
	movq	%r10, 32(%rsp)
	movb	$1, 40(%rsp)
	callq	ic_raw.list_calls.split_slow.5386baa488213e47
.LBB128_10:
	addq	$48, %rsp
	popq	%rbx
	popq	%rdi
	popq	%rsi
	retq
	.def	ic_list_transfer_after;
	.scl	2;
	.type	32;
	.endef
	.globl	ic_list_transfer_after
	.p2align	4
ic_list_transfer_after:
	subq	$56, %rsp
	movq	96(%rsp), %rax
	movl	104(%rsp), %r10d
	xorl	%r11d, %r11d
	testq	%rcx, %rcx
	sete	%r11b
	shll	$12, %r11d
	addq	%r11, %rcx
	movl	%r10d, 48(%rsp)
	movq	%rax, 40(%rsp)
	movl	%r9d, 32(%rsp)
	xorl	%r9d, %r9d
	callq	ic_raw_lists.transfer_calls.transfer_at.5386baa488213e47
	addq	$56, %rsp
	retq
	.def	ic_list_transfer_before;
	.scl	2;
	.type	32;
	.endef
	.globl	ic_list_transfer_before
	.p2align	4
ic_list_transfer_before:
	subq	$56, %rsp
	movq	96(%rsp), %rax
	movl	104(%rsp), %r10d
	xorl	%r11d, %r11d
	testq	%rcx, %rcx
	sete	%r11b
	shll	$12, %r11d
	addq	%r11, %rcx
	movl	%r10d, 48(%rsp)
	movq	%rax, 40(%rsp)
	movl	%r9d, 32(%rsp)
	movb	$1, %r9b
	callq	ic_raw_lists.transfer_calls.transfer_at.5386baa488213e47
	addq	$56, %rsp
	retq
	.def	ic_ring32_exchange;
	.scl	2;
	.type	32;
	.endef
	.globl	ic_ring32_exchange
	.p2align	4
ic_ring32_exchange:
	pushq	%rsi
	pushq	%rdi
	pushq	%rbx
	xorl	%esi, %esi
	testq	%rcx, %rcx
	sete	%bl
	leal	1(%r8), %r10d
	movl	%r8d, %r11d
	movl	$4, %eax
	incl	%r11d
	je	.LBB131_15
	leal	1(%r9), %r11d
	movl	%r9d, %edi
	incl	%edi
	je	.LBB131_15
	movb	%bl, %sil
	shll	$12, %esi
	addq	%rsi, %rcx
	cmpq	$536870911, %rdx
	movl	$536870911, %esi
	cmovbq	%rdx, %rsi
	cmpq	%r10, %rsi
	jb	.LBB131_16
	shlq	$3, %r10
	movl	-8(%rcx,%r10), %eax
	testb	$1, %al
	je	.LBB131_16
	andl	$-8, %eax
	je	.LBB131_16
	movl	%eax, %edi
	shrl	$3, %edi
	cmpq	%rsi, %rdi
	ja	.LBB131_16
	testb	$1, -8(%rcx,%rax)
	je	.LBB131_16
	movl	-4(%rcx,%rax), %edi
	andl	$-8, %edi
	cmpq	%rdi, %r10
	jne	.LBB131_16
	cmpq	%r11, %rsi
	jb	.LBB131_16
	shlq	$3, %r11
	movl	-8(%rcx,%r11), %edi
	testb	$1, %dil
	je	.LBB131_16
	andl	$-8, %edi
	je	.LBB131_16
	movl	%edi, %ebx
	shrl	$3, %ebx
	cmpq	%rsi, %rbx
	ja	.LBB131_16
	testb	$1, -8(%rcx,%rdi)
	je	.LBB131_16
	movl	-4(%rcx,%rdi), %esi
	andl	$-8, %esi
	cmpq	%rsi, %r11
	jne	.LBB131_16
	movl	%edi, %edx
	orl	$1, %edx
	movl	%edx, -8(%rcx,%r10)
	movl	%r10d, -4(%rcx,%rdi)
	movl	%eax, %edx
	orl	$1, %edx
	movl	%edx, -8(%rcx,%r11)
	movl	%r11d, -4(%rcx,%rax)
	xorl	%eax, %eax
.LBB131_15:
	popq	%rbx
	popq	%rdi
	popq	%rsi
	retq
.LBB131_16:
	popq	%rbx
	popq	%rdi
	popq	%rsi
	jmp	ic_raw.table.RawTable.refusal_at_both.05a19227735374d3
	.def	ic_ring32_init;
	.scl	2;
	.type	32;
	.endef
	.globl	ic_ring32_init
	.p2align	4
ic_ring32_init:
	movq	%rcx, %rax
	xorl	%ecx, %ecx
	testq	%rax, %rax
	sete	%cl
	shll	$12, %ecx
	addq	%rax, %rcx
	leal	1(%r8), %eax
	cmpq	$536870911, %rdx
	movl	$536870911, %r9d
	cmovbq	%rdx, %r9
	movl	%r8d, %r10d
	incl	%r10d
	je	.LBB132_4
	cmpq	%rax, %r9
	jb	.LBB132_4
	shlq	$3, %rax
	testb	$1, -8(%rcx,%rax)
	jne	.LBB132_4
	movl	%eax, -4(%rcx,%rax)
	movl	%eax, %edx
	orl	$1, %edx
	movl	%edx, -8(%rcx,%rax)
	xorl	%eax, %eax
	retq
.LBB132_4:
	jmp	ic_raw.table.refusal_at_end.05a19227735374d3
	.def	ic_ring32_insert_after;
	.scl	2;
	.type	32;
	.endef
	.globl	ic_ring32_insert_after
	.p2align	4
ic_ring32_insert_after:
	pushq	%rsi
	pushq	%rdi
	pushq	%rbx
	xorl	%r11d, %r11d
	testq	%rcx, %rcx
	sete	%bl
	leal	1(%r8), %r10d
	movl	%r8d, %esi
	movl	$4, %eax
	incl	%esi
	je	.LBB133_11
	movb	%bl, %r11b
	shll	$12, %r11d
	addq	%r11, %rcx
	cmpq	$536870911, %rdx
	movl	$536870911, %r11d
	cmovbq	%rdx, %r11
	cmpq	%r10, %r11
	jb	.LBB133_12
	shlq	$3, %r10
	movl	-8(%rcx,%r10), %eax
	testb	$1, %al
	je	.LBB133_12
	andl	$-8, %eax
	je	.LBB133_12
	movl	%eax, %esi
	shrl	$3, %esi
	cmpq	%r11, %rsi
	ja	.LBB133_12
	testb	$1, -8(%rcx,%rax)
	je	.LBB133_12
	leal	1(%r9), %esi
	testq	%rsi, %rsi
	je	.LBB133_12
	movl	-4(%rcx,%rax), %edi
	andl	$-8, %edi
	cmpq	%rdi, %r10
	jne	.LBB133_12
	cmpq	%rsi, %r11
	jb	.LBB133_12
	shlq	$3, %rsi
	testb	$1, -8(%rcx,%rsi)
	jne	.LBB133_12
	movl	%r10d, -4(%rcx,%rsi)
	movl	%eax, %edx
	orl	$1, %edx
	movl	%edx, -8(%rcx,%rsi)
	movl	%esi, %edx
	orl	$1, %edx
	movl	%edx, -8(%rcx,%r10)
	movl	%esi, -4(%rcx,%rax)
	xorl	%eax, %eax
.LBB133_11:
	popq	%rbx
	popq	%rdi
	popq	%rsi
	retq
.LBB133_12:
	popq	%rbx
	popq	%rdi
	popq	%rsi
	jmp	ic_raw.table.RawTable.refusal.05a19227735374d3
	.def	ic_ring32_insert_before;
	.scl	2;
	.type	32;
	.endef
	.globl	ic_ring32_insert_before
	.p2align	4
ic_ring32_insert_before:
	pushq	%rsi
	pushq	%rdi
	pushq	%rbx
	xorl	%r11d, %r11d
	testq	%rcx, %rcx
	sete	%bl
	leal	1(%r8), %r10d
	movl	%r8d, %esi
	movl	$4, %eax
	incl	%esi
	je	.LBB134_11
	movb	%bl, %r11b
	shll	$12, %r11d
	addq	%r11, %rcx
	cmpq	$536870911, %rdx
	movl	$536870911, %r11d
	cmovbq	%rdx, %r11
	cmpq	%r10, %r11
	jb	.LBB134_12
	shlq	$3, %r10
	testb	$1, -8(%rcx,%r10)
	je	.LBB134_12
	movl	-4(%rcx,%r10), %eax
	andl	$-8, %eax
	je	.LBB134_12
	movl	%eax, %esi
	shrl	$3, %esi
	cmpq	%r11, %rsi
	ja	.LBB134_12
	leal	1(%r9), %esi
	testq	%rsi, %rsi
	je	.LBB134_12
	movl	-8(%rcx,%rax), %edi
	movl	%edi, %ebx
	andl	$1, %ebx
	je	.LBB134_12
	andl	$-8, %edi
	cmpq	%rdi, %r10
	jne	.LBB134_12
	cmpq	%rsi, %r11
	jb	.LBB134_12
	shlq	$3, %rsi
	testb	$1, -8(%rcx,%rsi)
	jne	.LBB134_12
	movl	%eax, -4(%rcx,%rsi)
	movl	%r10d, %edx
	orl	$1, %edx
	movl	%edx, -8(%rcx,%rsi)
	movl	%esi, %edx
	orl	$1, %edx
	movl	%edx, -8(%rcx,%rax)
	movl	%esi, -4(%rcx,%r10)
	xorl	%eax, %eax
.LBB134_11:
	popq	%rbx
	popq	%rdi
	popq	%rsi
	retq
.LBB134_12:
	popq	%rbx
	popq	%rdi
	popq	%rsi
	jmp	ic_raw.table.RawTable.refusal.05a19227735374d3
	.def	ic_ring32_move_after;
	.scl	2;
	.type	32;
	.endef
	.globl	ic_ring32_move_after
	.p2align	4
ic_ring32_move_after:
	subq	$40, %rsp
	movl	%r8d, %eax
	xorl	%r8d, %r8d
	testq	%rcx, %rcx
	sete	%r8b
	shll	$12, %r8d
	addq	%r8, %rcx
	movl	%r9d, 32(%rsp)
	xorl	%r8d, %r8d
	movl	%eax, %r9d
	callq	ic_raw.ring_calls.move_beside.5b268f449b4ebf83
	addq	$40, %rsp
	retq
	.def	ic_ring32_move_before;
	.scl	2;
	.type	32;
	.endef
	.globl	ic_ring32_move_before
	.p2align	4
ic_ring32_move_before:
	subq	$40, %rsp
	movl	%r8d, %eax
	xorl	%r8d, %r8d
	testq	%rcx, %rcx
	sete	%r8b
	shll	$12, %r8d
	addq	%r8, %rcx
	movl	%r9d, 32(%rsp)
	movb	$1, %r8b
	movl	%eax, %r9d
	callq	ic_raw.ring_calls.move_beside.5b268f449b4ebf83
	addq	$40, %rsp
	retq
	.def	ic_ring32_pop_back;
	.scl	2;
	.type	32;
	.endef
	.globl	ic_ring32_pop_back
	.p2align	4
ic_ring32_pop_back:
	subq	$40, %rsp
	movl	%r8d, %eax
	xorl	%r8d, %r8d
	testq	%rcx, %rcx
	sete	%r8b
	shll	$12, %r8d
	addq	%r8, %rcx
	movq	%r9, 32(%rsp)
	movb	$1, %r8b
	movl	%eax, %r9d
	callq	ic_raw.ring_calls.pop.5b268f449b4ebf83
	addq	$40, %rsp
	retq
	.def	ic_ring32_pop_front;
	.scl	2;
	.type	32;
	.endef
	.globl	ic_ring32_pop_front
	.p2align	4
ic_ring32_pop_front:
	subq	$40, %rsp
	movl	%r8d, %eax
	xorl	%r8d, %r8d
	testq	%rcx, %rcx
	sete	%r8b
	shll	$12, %r8d
	addq	%r8, %rcx
	movq	%r9, 32(%rsp)
	xorl	%r8d, %r8d
	movl	%eax, %r9d
	callq	ic_raw.ring_calls.pop.5b268f449b4ebf83
	addq	$40, %rsp
	retq
	.def	ic_ring32_remove;
	.scl	2;
	.type	32;
	.endef
	.globl	ic_ring32_remove
	.p2align	4
ic_ring32_remove:
	pushq	%rsi
	xorl	%r10d, %r10d
	testq	%rcx, %rcx
	sete	%r11b
	leal	1(%r8), %r9d
	movl	%r8d, %esi
	movl	$4, %eax
	incl	%esi
	je	.LBB139_12
	movb	%r11b, %r10b
	shll	$12, %r10d
	addq	%r10, %rcx
	cmpq	$536870911, %rdx
	movl	$536870911, %r11d
	cmovbq	%rdx, %r11
	cmpq	%r9, %r11
	jb	.LBB139_13
	shlq	$3, %r9
	movl	-8(%rcx,%r9), %eax
	testb	$1, %al
	je	.LBB139_13
	movl	-4(%rcx,%r9), %r10d
	andl	$-8, %r10d
	je	.LBB139_13
	movl	%r10d, %esi
	shrl	$3, %esi
	cmpq	%r11, %rsi
	ja	.LBB139_13
	movl	-8(%rcx,%r10), %esi
	testb	$1, %sil
	je	.LBB139_13
	andl	$-8, %esi
	cmpq	%rsi, %r9
	jne	.LBB139_13
	andl	$-8, %eax
	je	.LBB139_13
	movl	%eax, %esi
	shrl	$3, %esi
	cmpq	%r11, %rsi
	ja	.LBB139_13
	testb	$1, -8(%rcx,%rax)
	je	.LBB139_13
	movl	-4(%rcx,%rax), %r11d
	andl	$-8, %r11d
	cmpq	%r11, %r9
	jne	.LBB139_13
	movl	%eax, %edx
	orl	$1, %edx
	movl	%edx, -8(%rcx,%r10)
	movl	%r10d, -4(%rcx,%rax)
	movl	$0, -8(%rcx,%r9)
	xorl	%eax, %eax
.LBB139_12:
	popq	%rsi
	retq
.LBB139_13:
	popq	%rsi
	jmp	ic_raw.table.RawTable.refusal_at.05a19227735374d3
	.def	ic_ring32_replace;
	.scl	2;
	.type	32;
	.endef
	.globl	ic_ring32_replace
	.p2align	4
ic_ring32_replace:
	pushq	%rsi
	pushq	%rdi
	pushq	%rbx
	xorl	%r11d, %r11d
	testq	%rcx, %rcx
	sete	%bl
	leal	1(%r8), %r10d
	movl	%r8d, %esi
	movl	$4, %eax
	incl	%esi
	je	.LBB140_15
	movb	%bl, %r11b
	shll	$12, %r11d
	addq	%r11, %rcx
	cmpq	$536870911, %rdx
	movl	$536870911, %eax
	cmovbq	%rdx, %rax
	cmpq	%r10, %rax
	jb	.LBB140_16
	shlq	$3, %r10
	movl	-8(%rcx,%r10), %edi
	testb	$1, %dil
	je	.LBB140_16
	movl	-4(%rcx,%r10), %r11d
	andl	$-8, %r11d
	je	.LBB140_16
	movl	%r11d, %esi
	shrl	$3, %esi
	cmpq	%rax, %rsi
	ja	.LBB140_16
	movl	-8(%rcx,%r11), %esi
	testb	$1, %sil
	je	.LBB140_16
	andl	$-8, %esi
	cmpq	%rsi, %r10
	jne	.LBB140_16
	movl	$4294967288, %esi
	andq	%rdi, %rsi
	je	.LBB140_16
	shrl	$3, %edi
	cmpq	%rax, %rdi
	ja	.LBB140_16
	testb	$1, -8(%rcx,%rsi)
	je	.LBB140_16
	leal	1(%r9), %edi
	testq	%rdi, %rdi
	je	.LBB140_16
	movl	-4(%rcx,%rsi), %ebx
	andl	$-8, %ebx
	cmpq	%rbx, %r10
	jne	.LBB140_16
	cmpq	%rdi, %rax
	jb	.LBB140_16
	shlq	$3, %rdi
	testb	$1, -8(%rcx,%rdi)
	jne	.LBB140_16
	movl	%r11d, -4(%rcx,%rdi)
	movl	%edi, %eax
	orl	$1, %eax
	movl	%eax, -8(%rcx,%r11)
	movl	%edi, -4(%rcx,%r10)
	cmpq	%rsi, %r10
	cmoveq	%rdi, %rsi
	movl	%esi, %eax
	orl	$1, %eax
	movl	%eax, -8(%rcx,%rdi)
	movl	%edi, -4(%rcx,%rsi)
	movl	$0, -8(%rcx,%r10)
	xorl	%eax, %eax
.LBB140_15:
	popq	%rbx
	popq	%rdi
	popq	%rsi
	retq
.LBB140_16:
	popq	%rbx
	popq	%rdi
	popq	%rsi
	jmp	ic_raw.table.RawTable.refusal.05a19227735374d3
	.def	ic_ring32_splice_after;
	.scl	2;
	.type	32;
	.endef
	.globl	ic_ring32_splice_after
	.p2align	4
ic_ring32_splice_after:
	subq	$40, %rsp
	movl	%r8d, %eax
	xorl	%r8d, %r8d
	testq	%rcx, %rcx
	sete	%r8b
	shll	$12, %r8d
	addq	%r8, %rcx
	movl	%r9d, 32(%rsp)
	xorl	%r8d, %r8d
	movl	%eax, %r9d
	callq	ic_raw.ring_calls.splice.5b268f449b4ebf83
	addq	$40, %rsp
	retq
	.def	ic_ring32_splice_before;
	.scl	2;
	.type	32;
	.endef
	.globl	ic_ring32_splice_before
	.p2align	4
ic_ring32_splice_before:
	subq	$40, %rsp
	movl	%r8d, %eax
	xorl	%r8d, %r8d
	testq	%rcx, %rcx
	sete	%r8b
	shll	$12, %r8d
	addq	%r8, %rcx
	movl	%r9d, 32(%rsp)
	movb	$1, %r8b
	movl	%eax, %r9d
	callq	ic_raw.ring_calls.splice.5b268f449b4ebf83
	addq	$40, %rsp
	retq
	.def	ic_ring_check;
	.scl	2;
	.type	32;
	.endef
	.globl	ic_ring_check
	.p2align	4
ic_ring_check:
	pushq	%rsi
	pushq	%rdi
	pushq	%rbx
	movl	%r8d, %r10d
	xorl	%r11d, %r11d
	testq	%rcx, %rcx
	sete	%bl
	leal	1(%r10), %r8d
	movl	$4, %eax
	incl	%r10d
	je	.LBB143_13
	movb	%bl, %r11b
	shll	$12, %r11d
	addq	%r11, %rcx
	shlq	$3, %r8
	testq	%rdx, %rdx
	je	.LBB143_11
	movabsq	$68719476728, %r10
	xorl	%eax, %eax
	movq	%r8, %r11
	.p2align	4
.LBB143_3:
	movq	%r11, %rsi
	shrq	$3, %rsi
	cmpq	%rdx, %rsi
	ja	.LBB143_11
	movq	-16(%rcx,%r11,2), %rsi
	testb	$1, %sil
	je	.LBB143_11
	andq	%r10, %rsi
	je	.LBB143_11
	movq	%rsi, %rdi
	shrq	$3, %rdi
	cmpq	%rdx, %rdi
	ja	.LBB143_11
	testb	$1, -16(%rcx,%rsi,2)
	je	.LBB143_11
	movq	-8(%rcx,%rsi,2), %rdi
	andq	%r10, %rdi
	cmpq	%r11, %rdi
	jne	.LBB143_11
	cmpq	%r8, %rsi
	je	.LBB143_12
	incq	%rax
	movq	%rsi, %r11
	cmpq	%rax, %rdx
	jne	.LBB143_3
.LBB143_11:
	popq	%rbx
	popq	%rdi
	popq	%rsi
	jmp	ic_raw.table.RawTable.refusal_of.5f318a721acb0238
.LBB143_12:
	movq	%rax, (%r9)
	xorl	%eax, %eax
.LBB143_13:
	popq	%rbx
	popq	%rdi
	popq	%rsi
	retq
	.def	ic_ring_exchange;
	.scl	2;
	.type	32;
	.endef
	.globl	ic_ring_exchange
	.p2align	4
ic_ring_exchange:
	pushq	%r15
	pushq	%r14
	pushq	%rsi
	pushq	%rdi
	pushq	%rbx
	xorl	%esi, %esi
	testq	%rcx, %rcx
	sete	%bl
	leal	1(%r8), %r10d
	movl	%r8d, %r11d
	movl	$4, %eax
	incl	%r11d
	je	.LBB144_15
	leal	1(%r9), %r11d
	movl	%r9d, %edi
	incl	%edi
	je	.LBB144_15
	movb	%bl, %sil
	shll	$12, %esi
	addq	%rsi, %rcx
	cmpq	%r10, %rdx
	jb	.LBB144_16
	movq	%r10, %rsi
	shlq	$4, %rsi
	movq	-16(%rcx,%rsi), %rax
	testb	$1, %al
	je	.LBB144_16
	movabsq	$68719476728, %rdi
	andq	%rdi, %rax
	je	.LBB144_16
	movq	%rax, %rbx
	shrq	$3, %rbx
	cmpq	%rdx, %rbx
	ja	.LBB144_16
	testb	$1, -16(%rcx,%rax,2)
	je	.LBB144_16
	cmpq	%r11, %rdx
	jb	.LBB144_16
	shlq	$3, %r10
	movq	-8(%rcx,%rax,2), %rbx
	andq	%rdi, %rbx
	cmpq	%r10, %rbx
	jne	.LBB144_16
	movq	%r11, %rbx
	shlq	$4, %rbx
	movq	-16(%rcx,%rbx), %r14
	testb	$1, %r14b
	je	.LBB144_16
	andq	%rdi, %r14
	je	.LBB144_16
	movq	%r14, %r15
	shrq	$3, %r15
	cmpq	%rdx, %r15
	ja	.LBB144_16
	testb	$1, -16(%rcx,%r14,2)
	je	.LBB144_16
	shlq	$3, %r11
	andq	-8(%rcx,%r14,2), %rdi
	cmpq	%r11, %rdi
	jne	.LBB144_16
	movq	%r14, %rdx
	orq	$1, %rdx
	movq	%rdx, -16(%rcx,%rsi)
	movq	%r10, -8(%rcx,%r14,2)
	movq	%rax, %rdx
	orq	$1, %rdx
	movq	%rdx, -16(%rcx,%rbx)
	movq	%r11, -8(%rcx,%rax,2)
	xorl	%eax, %eax
.LBB144_15:
	popq	%rbx
	popq	%rdi
	popq	%rsi
	popq	%r14
	popq	%r15
	retq
.LBB144_16:
	popq	%rbx
	popq	%rdi
	popq	%rsi
	popq	%r14
	popq	%r15
	jmp	ic_raw.table.RawTable.refusal_at_both.85cd03e557136797
	.def	ic_ring_init;
	.scl	2;
	.type	32;
	.endef
	.globl	ic_ring_init
	.p2align	4
ic_ring_init:
	movq	%rcx, %rax
	xorl	%ecx, %ecx
	testq	%rax, %rax
	sete	%cl
	shll	$12, %ecx
	addq	%rax, %rcx
	leal	1(%r8), %eax
	movl	%r8d, %r9d
	incl	%r9d
	je	.LBB145_4
	cmpq	%rax, %rdx
	jb	.LBB145_4
	movq	%rax, %r9
	shlq	$4, %r9
	testb	$1, -16(%rcx,%r9)
	jne	.LBB145_4
	shlq	$3, %rax
	movq	%rax, -8(%rcx,%r9)
	orq	$1, %rax
	movq	%rax, -16(%rcx,%r9)
	xorl	%eax, %eax
	retq
.LBB145_4:
	jmp	ic_raw.table.refusal_at_end.85cd03e557136797
	.def	ic_ring_insert_after;
	.scl	2;
	.type	32;
	.endef
	.globl	ic_ring_insert_after
	.p2align	4
ic_ring_insert_after:
	pushq	%rsi
	pushq	%rdi
	pushq	%rbx
	xorl	%r11d, %r11d
	testq	%rcx, %rcx
	sete	%bl
	leal	1(%r8), %r10d
	movl	%r8d, %esi
	movl	$4, %eax
	incl	%esi
	je	.LBB146_11
	movb	%bl, %r11b
	shll	$12, %r11d
	addq	%r11, %rcx
	cmpq	%r10, %rdx
	jb	.LBB146_12
	movq	%r10, %rax
	shlq	$4, %rax
	movq	-16(%rcx,%rax), %r11
	testb	$1, %r11b
	je	.LBB146_12
	movabsq	$68719476728, %rdi
	andq	%rdi, %r11
	je	.LBB146_12
	movq	%r11, %rsi
	shrq	$3, %rsi
	cmpq	%rdx, %rsi
	ja	.LBB146_12
	testb	$1, -16(%rcx,%r11,2)
	je	.LBB146_12
	leal	1(%r9), %esi
	testq	%rsi, %rsi
	je	.LBB146_12
	cmpq	%rsi, %rdx
	jb	.LBB146_12
	shlq	$3, %r10
	andq	-8(%rcx,%r11,2), %rdi
	cmpq	%r10, %rdi
	jne	.LBB146_12
	movq	%rsi, %rdi
	shlq	$4, %rdi
	testb	$1, -16(%rcx,%rdi)
	jne	.LBB146_12
	shlq	$3, %rsi
	movq	%r10, -8(%rcx,%rdi)
	movq	%r11, %rdx
	orq	$1, %rdx
	movq	%rdx, -16(%rcx,%rdi)
	movq	%rsi, %rdx
	orq	$1, %rdx
	movq	%rdx, -16(%rcx,%rax)
	movq	%rsi, -8(%rcx,%r11,2)
	xorl	%eax, %eax
.LBB146_11:
	popq	%rbx
	popq	%rdi
	popq	%rsi
	retq
.LBB146_12:
	popq	%rbx
	popq	%rdi
	popq	%rsi
	jmp	ic_raw.table.RawTable.refusal.85cd03e557136797
	.def	ic_ring_insert_before;
	.scl	2;
	.type	32;
	.endef
	.globl	ic_ring_insert_before
	.p2align	4
ic_ring_insert_before:
	pushq	%rsi
	pushq	%rdi
	pushq	%rbp
	pushq	%rbx
	xorl	%r11d, %r11d
	testq	%rcx, %rcx
	sete	%bl
	leal	1(%r8), %r10d
	movl	%r8d, %esi
	movl	$4, %eax
	incl	%esi
	je	.LBB147_11
	movb	%bl, %r11b
	shll	$12, %r11d
	addq	%r11, %rcx
	cmpq	%r10, %rdx
	jb	.LBB147_12
	movq	%r10, %rax
	shlq	$4, %rax
	testb	$1, -16(%rcx,%rax)
	je	.LBB147_12
	movabsq	$68719476728, %rdi
	movq	-8(%rcx,%rax), %r11
	andq	%rdi, %r11
	je	.LBB147_12
	movq	%r11, %rsi
	shrq	$3, %rsi
	cmpq	%rdx, %rsi
	ja	.LBB147_12
	leal	1(%r9), %esi
	testq	%rsi, %rsi
	je	.LBB147_12
	cmpq	%rsi, %rdx
	jb	.LBB147_12
	movq	-16(%rcx,%r11,2), %rbx
	movl	%ebx, %ebp
	andl	$1, %ebp
	je	.LBB147_12
	shlq	$3, %r10
	andq	%rdi, %rbx
	cmpq	%r10, %rbx
	jne	.LBB147_12
	movq	%rsi, %rdi
	shlq	$4, %rdi
	testb	$1, -16(%rcx,%rdi)
	jne	.LBB147_12
	shlq	$3, %rsi
	movq	%r11, -8(%rcx,%rdi)
	orq	$1, %r10
	movq	%r10, -16(%rcx,%rdi)
	movq	%rsi, %rdx
	orq	$1, %rdx
	movq	%rdx, -16(%rcx,%r11,2)
	movq	%rsi, -8(%rcx,%rax)
	xorl	%eax, %eax
.LBB147_11:
	popq	%rbx
	popq	%rbp
	popq	%rdi
	popq	%rsi
	retq
.LBB147_12:
	popq	%rbx
	popq	%rbp
	popq	%rdi
	popq	%rsi
	jmp	ic_raw.table.RawTable.refusal.85cd03e557136797
	.def	ic_ring_merge;
	.scl	2;
	.type	32;
	.endef
	.globl	ic_ring_merge
	.p2align	4
ic_ring_merge:
	pushq	%r15
	pushq	%r14
	pushq	%r12
	pushq	%rsi
	pushq	%rdi
	pushq	%rbp
	pushq	%rbx
	subq	$64, %rsp
	movq	%r9, %r11
	movq	%r8, %r10
	movl	160(%rsp), %edi
	xorl	%r8d, %r8d
	testq	%rcx, %rcx
	sete	%r9b
	xorl	%ebx, %ebx
	testq	%r10, %r10
	sete	%bpl
	leal	1(%rdi), %esi
	movl	$4, %eax
	incl	%edi
	je	.LBB148_42
	movl	168(%rsp), %r14d
	leal	1(%r14), %edi
	incl	%r14d
	je	.LBB148_42
	movb	%r9b, %r8b
	shll	$12, %r8d
	addq	%r8, %rcx
	leaq	(,%rsi,8), %r8
	leaq	(,%rdi,8), %r9
	movq	%rcx, 32(%rsp)
	movq	%rdx, 40(%rsp)
	cmpq	%rdx, %r11
	jb	.LBB148_24
	testq	%rdx, %rdx
	je	.LBB148_24
	cmpq	%r8, %r9
	je	.LBB148_24
	movb	%bpl, %bl
	shll	$12, %ebx
	addq	%rbx, %r10
	movl	$1, %eax
	movabsq	$68719476728, %rbx
	movq	%r8, %r15
	.p2align	4
.LBB148_6:
	movq	%r15, %r14
	shrq	$3, %r14
	cmpq	%rdx, %r14
	ja	.LBB148_24
	movq	-16(%rcx,%r15,2), %r14
	testb	$1, %r14b
	je	.LBB148_24
	andq	%rbx, %r14
	je	.LBB148_24
	movq	%r14, %r12
	shrq	$3, %r12
	cmpq	%rdx, %r12
	ja	.LBB148_24
	testb	$1, -16(%rcx,%r14,2)
	je	.LBB148_24
	movq	-8(%rcx,%r14,2), %r12
	andq	%rbx, %r12
	cmpq	%r15, %r12
	jne	.LBB148_24
	cmpq	%r8, %r14
	je	.LBB148_15
	cmpq	%rdx, %rax
	jae	.LBB148_24
	incq	%rax
	movq	%r14, %r15
	cmpq	%r14, %r9
	jne	.LBB148_6
	jmp	.LBB148_24
.LBB148_15:
	movq	%rdx, %rax
	movq	%r9, %r14
	.p2align	4
.LBB148_16:
	movq	%r14, %r15
	shrq	$3, %r15
	cmpq	%rdx, %r15
	ja	.LBB148_24
	movq	-16(%rcx,%r14,2), %r15
	testb	$1, %r15b
	je	.LBB148_24
	andq	%rbx, %r15
	je	.LBB148_24
	movq	%r15, %r12
	shrq	$3, %r12
	cmpq	%rdx, %r12
	ja	.LBB148_24
	testb	$1, -16(%rcx,%r15,2)
	je	.LBB148_24
	movq	-8(%rcx,%r15,2), %r12
	andq	%rbx, %r12
	cmpq	%r14, %r12
	jne	.LBB148_24
	cmpq	%r9, %r15
	je	.LBB148_25
	movq	%r15, %r14
	decq	%rax
	jne	.LBB148_16
.LBB148_24:
	leaq	32(%rsp), %rcx
	movq	%r11, %rdx
	callq	ic_raw_lists.ring_sort_calls.refusal_at_both
	jmp	.LBB148_42
.LBB148_25:
	movq	%r10, 48(%rsp)
	movq	%r11, 56(%rsp)
	shlq	$4, %rsi
	movq	-16(%rcx,%rsi), %rax
	xorl	%r10d, %r10d
	andq	%rbx, %rax
	je	.LBB148_30
	cmpq	%r8, %rax
	je	.LBB148_30
	movq	-8(%rcx,%rsi), %r11
	movl	$0, %edx
	andq	%rbx, %r11
	je	.LBB148_31
	movq	$0, -8(%rcx,%rax,2)
	movq	$1, -16(%rcx,%r11,2)
	movq	%rax, %r10
	movq	%r11, %rdx
	jmp	.LBB148_31
.LBB148_30:
	xorl	%edx, %edx
.LBB148_31:
	shlq	$4, %rdi
	movq	-16(%rcx,%rdi), %r14
	xorl	%eax, %eax
	andq	%rbx, %r14
	je	.LBB148_35
	cmpq	%r9, %r14
	je	.LBB148_43
	movq	-8(%rcx,%rdi), %r15
	movl	$0, %r11d
	andq	%rbx, %r15
	je	.LBB148_36
	movq	$0, -8(%rcx,%r14,2)
	movq	$1, -16(%rcx,%r15,2)
	movq	%r14, %rax
	movq	%r15, %r11
	testq	%r10, %r10
	jne	.LBB148_37
	jmp	.LBB148_41
.LBB148_35:
	xorl	%r11d, %r11d
.LBB148_36:
	testq	%r10, %r10
	je	.LBB148_41
.LBB148_37:
	testq	%rax, %rax
	je	.LBB148_40
	movq	%r8, %r14
	movq	%r9, %r15
	leaq	32(%rsp), %r8
	leaq	48(%rsp), %rdx
	movq	%rcx, %r12
	movq	%r8, %rcx
	movq	%r10, %r8
	movq	%rax, %r9
	callq	ic_list_algorithms.merge.merge_runs.e8da022ef74ca9e6
	movq	%r12, %rcx
	movq	$0, -8(%r12,%rax,2)
	movq	-16(%r12,%rax,2), %rdx
	movq	%rax, %r11
	movq	%r15, %r9
	movq	%r14, %r8
	andq	%rbx, %rdx
	je	.LBB148_41
	.p2align	4
.LBB148_39:
	movq	%r11, %r10
	movq	%rdx, %r11
	movq	%r10, -8(%rcx,%rdx,2)
	movq	-16(%rcx,%rdx,2), %rdx
	andq	%rbx, %rdx
	jne	.LBB148_39
	jmp	.LBB148_41
.LBB148_40:
	movq	%r10, %rax
	movq	%rdx, %r11
.LBB148_41:
	testq	%rax, %rax
	cmoveq	%r8, %rax
	testq	%r11, %r11
	cmoveq	%r8, %r11
	movq	%r8, -8(%rcx,%rax,2)
	orq	$1, %r8
	movq	%r8, -16(%rcx,%r11,2)
	orq	$1, %rax
	movq	%rax, -16(%rcx,%rsi)
	movq	%r11, -8(%rcx,%rsi)
	movq	%r9, %rax
	orq	$1, %rax
	movq	%rax, -16(%rcx,%rdi)
	movq	%r9, -8(%rcx,%rdi)
	xorl	%eax, %eax
.LBB148_42:
	addq	$64, %rsp
	popq	%rbx
	popq	%rbp
	popq	%rdi
	popq	%rsi
	popq	%r12
	popq	%r14
	popq	%r15
	retq
.LBB148_43:
	xorl	%r11d, %r11d
	testq	%r10, %r10
	jne	.LBB148_37
	jmp	.LBB148_41
	.def	ic_ring_move_after;
	.scl	2;
	.type	32;
	.endef
	.globl	ic_ring_move_after
	.p2align	4
ic_ring_move_after:
	subq	$40, %rsp
	movl	%r8d, %eax
	xorl	%r8d, %r8d
	testq	%rcx, %rcx
	sete	%r8b
	shll	$12, %r8d
	addq	%r8, %rcx
	movl	%r9d, 32(%rsp)
	xorl	%r8d, %r8d
	movl	%eax, %r9d
	callq	ic_raw.ring_calls.move_beside.354f48d5d890d6b4
	addq	$40, %rsp
	retq
	.def	ic_ring_move_before;
	.scl	2;
	.type	32;
	.endef
	.globl	ic_ring_move_before
	.p2align	4
ic_ring_move_before:
	subq	$40, %rsp
	movl	%r8d, %eax
	xorl	%r8d, %r8d
	testq	%rcx, %rcx
	sete	%r8b
	shll	$12, %r8d
	addq	%r8, %rcx
	movl	%r9d, 32(%rsp)
	movb	$1, %r8b
	movl	%eax, %r9d
	callq	ic_raw.ring_calls.move_beside.354f48d5d890d6b4
	addq	$40, %rsp
	retq
	.def	ic_ring_pop_back;
	.scl	2;
	.type	32;
	.endef
	.globl	ic_ring_pop_back
	.p2align	4
ic_ring_pop_back:
	subq	$40, %rsp
	movl	%r8d, %eax
	xorl	%r8d, %r8d
	testq	%rcx, %rcx
	sete	%r8b
	shll	$12, %r8d
	addq	%r8, %rcx
	movq	%r9, 32(%rsp)
	movb	$1, %r8b
	movl	%eax, %r9d
	callq	ic_raw.ring_calls.pop.354f48d5d890d6b4
	addq	$40, %rsp
	retq
	.def	ic_ring_pop_front;
	.scl	2;
	.type	32;
	.endef
	.globl	ic_ring_pop_front
	.p2align	4
ic_ring_pop_front:
	subq	$40, %rsp
	movl	%r8d, %eax
	xorl	%r8d, %r8d
	testq	%rcx, %rcx
	sete	%r8b
	shll	$12, %r8d
	addq	%r8, %rcx
	movq	%r9, 32(%rsp)
	xorl	%r8d, %r8d
	movl	%eax, %r9d
	callq	ic_raw.ring_calls.pop.354f48d5d890d6b4
	addq	$40, %rsp
	retq
	.def	ic_ring_remove;
	.scl	2;
	.type	32;
	.endef
	.globl	ic_ring_remove
	.p2align	4
ic_ring_remove:
	pushq	%rsi
	pushq	%rdi
	xorl	%r10d, %r10d
	testq	%rcx, %rcx
	sete	%r11b
	leal	1(%r8), %r9d
	movl	%r8d, %esi
	movl	$4, %eax
	incl	%esi
	je	.LBB153_12
	movb	%r11b, %r10b
	shll	$12, %r10d
	addq	%r10, %rcx
	cmpq	%r9, %rdx
	jb	.LBB153_13
	movq	%r9, %rax
	shlq	$4, %rax
	movq	-16(%rcx,%rax), %r10
	testb	$1, %r10b
	je	.LBB153_13
	movabsq	$68719476728, %rsi
	movq	-8(%rcx,%rax), %r11
	andq	%rsi, %r11
	je	.LBB153_13
	movq	%r11, %rdi
	shrq	$3, %rdi
	cmpq	%rdx, %rdi
	ja	.LBB153_13
	movq	-16(%rcx,%r11,2), %rdi
	testb	$1, %dil
	je	.LBB153_13
	shlq	$3, %r9
	andq	%rsi, %rdi
	cmpq	%r9, %rdi
	jne	.LBB153_13
	andq	%rsi, %r10
	je	.LBB153_13
	movq	%r10, %rdi
	shrq	$3, %rdi
	cmpq	%rdx, %rdi
	ja	.LBB153_13
	testb	$1, -16(%rcx,%r10,2)
	je	.LBB153_13
	andq	-8(%rcx,%r10,2), %rsi
	cmpq	%r9, %rsi
	jne	.LBB153_13
	movq	%r10, %rdx
	orq	$1, %rdx
	movq	%rdx, -16(%rcx,%r11,2)
	movq	%r11, -8(%rcx,%r10,2)
	movq	$0, -16(%rcx,%rax)
	xorl	%eax, %eax
.LBB153_12:
	popq	%rdi
	popq	%rsi
	retq
.LBB153_13:
	popq	%rdi
	popq	%rsi
	jmp	ic_raw.table.RawTable.refusal_at.85cd03e557136797
	.def	ic_ring_replace;
	.scl	2;
	.type	32;
	.endef
	.globl	ic_ring_replace
	.p2align	4
ic_ring_replace:
	pushq	%rsi
	pushq	%rdi
	pushq	%rbx
	xorl	%r11d, %r11d
	testq	%rcx, %rcx
	sete	%bl
	leal	1(%r8), %r10d
	movl	%r8d, %esi
	movl	$4, %eax
	incl	%esi
	je	.LBB154_15
	movb	%bl, %r11b
	shll	$12, %r11d
	addq	%r11, %rcx
	cmpq	%r10, %rdx
	jb	.LBB154_16
	movq	%r10, %rax
	shlq	$4, %rax
	movq	-16(%rcx,%rax), %r11
	testb	$1, %r11b
	je	.LBB154_16
	movabsq	$68719476728, %rdi
	movq	-8(%rcx,%rax), %rsi
	andq	%rdi, %rsi
	je	.LBB154_16
	movq	%rsi, %rbx
	shrq	$3, %rbx
	cmpq	%rdx, %rbx
	ja	.LBB154_16
	movq	-16(%rcx,%rsi,2), %rbx
	testb	$1, %bl
	je	.LBB154_16
	shlq	$3, %r10
	andq	%rdi, %rbx
	cmpq	%r10, %rbx
	jne	.LBB154_16
	andq	%rdi, %r11
	je	.LBB154_16
	movq	%r11, %rbx
	shrq	$3, %rbx
	cmpq	%rdx, %rbx
	ja	.LBB154_16
	testb	$1, -16(%rcx,%r11,2)
	je	.LBB154_16
	leal	1(%r9), %ebx
	cmpq	%rbx, %rdx
	jb	.LBB154_16
	testl	%ebx, %ebx
	je	.LBB154_16
	andq	-8(%rcx,%r11,2), %rdi
	cmpq	%r10, %rdi
	jne	.LBB154_16
	movq	%rbx, %rdi
	shlq	$4, %rdi
	testb	$1, -16(%rcx,%rdi)
	jne	.LBB154_16
	shlq	$3, %rbx
	movq	%rsi, -8(%rcx,%rdi)
	movq	%rbx, %rdx
	orq	$1, %rdx
	movq	%rdx, -16(%rcx,%rsi,2)
	movq	%rbx, -8(%rcx,%rax)
	cmpq	%r10, %r11
	cmoveq	%rbx, %r11
	movq	%r11, %rdx
	orq	$1, %rdx
	movq	%rdx, -16(%rcx,%rdi)
	movq	%rbx, -8(%rcx,%r11,2)
	movq	$0, -16(%rcx,%rax)
	xorl	%eax, %eax
.LBB154_15:
	popq	%rbx
	popq	%rdi
	popq	%rsi
	retq
.LBB154_16:
	popq	%rbx
	popq	%rdi
	popq	%rsi
	jmp	ic_raw.table.RawTable.refusal.85cd03e557136797
	.def	ic_ring_sort;
	.scl	2;
	.type	32;
	.endef
	.globl	ic_ring_sort
	.p2align	4
ic_ring_sort:
	pushq	%r15
	pushq	%r14
	pushq	%r13
	pushq	%r12
	pushq	%rsi
	pushq	%rdi
	pushq	%rbp
	pushq	%rbx
	subq	$104, %rsp
	movl	208(%rsp), %edi
	xorl	%esi, %esi
	testq	%rcx, %rcx
	sete	%bl
	xorl	%r10d, %r10d
	testq	%r8, %r8
	sete	%r11b
	leal	1(%rdi), %r14d
	movl	$4, %eax
	incl	%edi
	je	.LBB155_29
	movb	%bl, %sil
	shll	$12, %esi
	addq	%rsi, %rcx
	leaq	(,%r14,8), %rsi
	movq	%rcx, 40(%rsp)
	movq	%rdx, 48(%rsp)
	leaq	-1(%rdx), %rax
	cmpq	%r9, %rax
	jae	.LBB155_11
	movb	%r11b, %r10b
	shll	$12, %r10d
	addq	%r10, %r8
	movabsq	$68719476728, %r13
	movq	%rdx, %rax
	movq	%rsi, %r10
	.p2align	4
.LBB155_3:
	movq	%r10, %r11
	shrq	$3, %r11
	cmpq	%rdx, %r11
	ja	.LBB155_11
	movq	-16(%rcx,%r10,2), %r11
	testb	$1, %r11b
	je	.LBB155_11
	andq	%r13, %r11
	je	.LBB155_11
	movq	%r11, %rdi
	shrq	$3, %rdi
	cmpq	%rdx, %rdi
	ja	.LBB155_11
	testb	$1, -16(%rcx,%r11,2)
	je	.LBB155_11
	movq	-8(%rcx,%r11,2), %rdi
	andq	%r13, %rdi
	cmpq	%r10, %rdi
	jne	.LBB155_11
	cmpq	%rsi, %r11
	je	.LBB155_12
	movq	%r11, %r10
	decq	%rax
	jne	.LBB155_3
.LBB155_11:
	leaq	40(%rsp), %rcx
	movq	%r9, %rdx
	movq	%rsi, %r8
	callq	ic_raw_lists.ring_sort_calls.refusal_at
	jmp	.LBB155_29
.LBB155_12:
	movq	%r8, 64(%rsp)
	movq	%r9, 72(%rsp)
	shlq	$4, %r14
	movq	-16(%rcx,%r14), %rdx
	xorl	%edi, %edi
	andq	%r13, %rdx
	je	.LBB155_13
	cmpq	%rsi, %rdx
	je	.LBB155_15
	movq	-8(%rcx,%r14), %r8
	movl	$0, %eax
	andq	%r13, %r8
	je	.LBB155_18
	movq	$0, -8(%rcx,%rdx,2)
	movq	$1, -16(%rcx,%r8,2)
	movq	%rdx, %rdi
	movq	%r8, %rax
	testq	%rdi, %rdi
	jne	.LBB155_20
	jmp	.LBB155_19
.LBB155_13:
	xorl	%eax, %eax
.LBB155_18:
	testq	%rdi, %rdi
	je	.LBB155_19
.LBB155_20:
	movq	-16(%rcx,%rdi,2), %rbx
	movq	$1, -16(%rcx,%rdi,2)
	andq	%r13, %rbx
	je	.LBB155_21
	movq	%r14, 56(%rsp)
	xorl	%ebp, %ebp
	.p2align	4
.LBB155_23:
	movq	%rbp, 32(%rsp)
	leaq	80(%rsp), %rcx
	leaq	40(%rsp), %r14
	leaq	64(%rsp), %r15
	movq	%r14, %rdx
	movq	%r15, %r8
	movq	%rbx, %r9
	callq	ic_list_algorithms.sort.sort_front.e8da022ef74ca9e6
	movq	80(%rsp), %r9
	movzbl	88(%rsp), %r12d
	movq	96(%rsp), %rbx
	movq	%r14, %rcx
	movq	%r15, %rdx
	movq	%rdi, %r8
	callq	ic_list_algorithms.merge.merge_runs.e8da022ef74ca9e6
	movq	%rax, %rdi
	incq	%rbp
	cmpb	$1, %r12b
	je	.LBB155_23
	movq	%rdi, %rax
	addq	%rdi, %rax
	movq	40(%rsp), %rcx
	movq	56(%rsp), %r14
	jmp	.LBB155_25
.LBB155_21:
	movq	%rdi, %rax
	addq	%rdi, %rax
.LBB155_25:
	movq	$0, -8(%rcx,%rax)
	movq	40(%rsp), %rcx
	movq	-16(%rcx,%rax), %rdx
	movq	%rdi, %rax
	andq	%r13, %rdx
	je	.LBB155_28
	.p2align	4
.LBB155_26:
	movq	%rax, %r8
	movq	%rdx, %rax
	movq	%r8, -8(%rcx,%rdx,2)
	movq	40(%rsp), %rcx
	movq	-16(%rcx,%rdx,2), %rdx
	andq	%r13, %rdx
	jne	.LBB155_26
	jmp	.LBB155_28
.LBB155_15:
	xorl	%eax, %eax
	testq	%rdi, %rdi
	jne	.LBB155_20
.LBB155_19:
	movq	%rsi, %rdi
.LBB155_28:
	testq	%rax, %rax
	cmoveq	%rsi, %rax
	movq	%rsi, -8(%rcx,%rdi,2)
	movq	40(%rsp), %rcx
	orq	$1, %rsi
	movq	%rsi, -16(%rcx,%rax,2)
	movq	40(%rsp), %rcx
	orq	$1, %rdi
	movq	%rdi, -16(%rcx,%r14)
	movq	40(%rsp), %rcx
	movq	%rax, -8(%rcx,%r14)
	xorl	%eax, %eax
.LBB155_29:
	addq	$104, %rsp
	popq	%rbx
	popq	%rbp
	popq	%rdi
	popq	%rsi
	popq	%r12
	popq	%r13
	popq	%r14
	popq	%r15
	retq
	.def	ic_ring_splice_after;
	.scl	2;
	.type	32;
	.endef
	.globl	ic_ring_splice_after
	.p2align	4
ic_ring_splice_after:
	subq	$40, %rsp
	movl	%r8d, %eax
	xorl	%r8d, %r8d
	testq	%rcx, %rcx
	sete	%r8b
	shll	$12, %r8d
	addq	%r8, %rcx
	movl	%r9d, 32(%rsp)
	xorl	%r8d, %r8d
	movl	%eax, %r9d
	callq	ic_raw.ring_calls.splice.354f48d5d890d6b4
	addq	$40, %rsp
	retq
	.def	ic_ring_splice_before;
	.scl	2;
	.type	32;
	.endef
	.globl	ic_ring_splice_before
	.p2align	4
ic_ring_splice_before:
	subq	$40, %rsp
	movl	%r8d, %eax
	xorl	%r8d, %r8d
	testq	%rcx, %rcx
	sete	%r8b
	shll	$12, %r8d
	addq	%r8, %rcx
	movl	%r9d, 32(%rsp)
	movb	$1, %r8b
	movl	%eax, %r9d
	callq	ic_raw.ring_calls.splice.354f48d5d890d6b4
	addq	$40, %rsp
	retq
	.def	ic_stack_check;
	.scl	2;
	.type	32;
	.endef
	.globl	ic_stack_check
	.p2align	4
ic_stack_check:
	pushq	%rsi
	pushq	%rbx
	movabsq	$68719476728, %r10
	xorl	%eax, %eax
	testq	%rcx, %rcx
	sete	%bl
	xorl	%r11d, %r11d
	movq	(%r8), %r8
	andq	%r10, %r8
	je	.LBB158_6
	movb	%bl, %al
	shll	$12, %eax
	addq	%rax, %rcx
	xorl	%r11d, %r11d
	.p2align	4
.LBB158_2:
	movl	$5, %eax
	cmpq	%r11, %rdx
	je	.LBB158_7
	movq	%r8, %rsi
	shrq	$3, %rsi
	cmpq	%rdx, %rsi
	ja	.LBB158_7
	movq	-8(%rcx,%r8), %r8
	testb	$1, %r8b
	je	.LBB158_7
	incq	%r11
	andq	%r10, %r8
	jne	.LBB158_2
.LBB158_6:
	movq	%r11, (%r9)
	xorl	%eax, %eax
.LBB158_7:
	popq	%rbx
	popq	%rsi
	retq
	.def	ic_stack_clear;
	.scl	2;
	.type	32;
	.endef
	.globl	ic_stack_clear
	.p2align	4
ic_stack_clear:
	pushq	%rsi
	pushq	%rdi
	pushq	%rbx
	movabsq	$68719476728, %r9
	xorl	%r11d, %r11d
	testq	%rcx, %rcx
	sete	%bl
	movq	(%r8), %r10
	andq	%r9, %r10
	je	.LBB159_8
	movl	$5, %eax
	testq	%rdx, %rdx
	je	.LBB159_9
	movb	%bl, %r11b
	shll	$12, %r11d
	addq	%r11, %rcx
	movq	%rdx, %r11
	movq	%r10, %rsi
	.p2align	4
.LBB159_4:
	movq	%rsi, %rdi
	shrq	$3, %rdi
	cmpq	%rdx, %rdi
	ja	.LBB159_9
	movq	-8(%rcx,%rsi), %rsi
	testb	$1, %sil
	je	.LBB159_9
	andq	%r9, %rsi
	je	.LBB159_7
	decq	%r11
	jne	.LBB159_4
.LBB159_9:
	popq	%rbx
	popq	%rdi
	popq	%rsi
	retq
	.p2align	4
.LBB159_7:
	movq	%r10, %rax
	movq	-8(%rcx,%r10), %r10
	movq	$0, -8(%rcx,%rax)
	andq	%r9, %r10
	jne	.LBB159_7
.LBB159_8:
	movq	$0, (%r8)
	xorl	%eax, %eax
	popq	%rbx
	popq	%rdi
	popq	%rsi
	retq
	.def	ic_stack_fill;
	.scl	2;
	.type	32;
	.endef
	.globl	ic_stack_fill
	.p2align	4
ic_stack_fill:
	pushq	%r14
	pushq	%rsi
	pushq	%rdi
	pushq	%rbp
	pushq	%rbx
	movl	80(%rsp), %r10d
	xorl	%r11d, %r11d
	testq	%rcx, %rcx
	sete	%bl
	xorl	%eax, %eax
	testl	%r10d, %r10d
	je	.LBB160_23
	movb	%bl, %r11b
	shll	$12, %r11d
	addq	%r11, %rcx
	movabsq	$68719476728, %rsi
	andq	(%r8), %rsi
	je	.LBB160_6
	movq	%rsi, %rax
	shrq	$3, %rax
	movl	$1, %r11d
	cmpq	%rdx, %rax
	ja	.LBB160_3
	testb	$1, -8(%rcx,%rsi)
	jne	.LBB160_6
.LBB160_3:
	xorl	%edi, %edi
	jmp	.LBB160_7
.LBB160_6:
	movq	%rsi, %r11
	orq	$1, %r11
	movb	$1, %dil
.LBB160_7:
	movl	%r9d, %ebx
	incq	%rbx
	movl	%r10d, %ebp
	.p2align	4
.LBB160_8:
	movl	%ebx, %eax
	leaq	-1(%rax), %r14
	cmpq	%rdx, %r14
	jae	.LBB160_22
	movl	-8(%rcx,%rax,8), %eax
	addl	%eax, %eax
	andl	$2, %eax
	jne	.LBB160_23
	incq	%rbx
	decl	%ebp
	jne	.LBB160_8
	movl	$5, %eax
	testb	%dil, %dil
	je	.LBB160_23
	movl	%r9d, %eax
	incl	%eax
	sete	%bl
	cmpq	%rax, %rdx
	setb	%dil
	orb	%bl, %dil
	jne	.LBB160_21
	shlq	$3, %rax
	testb	$1, -8(%rcx,%rax)
	jne	.LBB160_21
	movq	%r11, -8(%rcx,%rax)
	decl	%r10d
	je	.LBB160_20
	addl	$2, %r9d
	movq	%rax, %rsi
.LBB160_16:
	testl	%r9d, %r9d
	je	.LBB160_20
	movl	%r9d, %edi
	cmpq	%rdi, %rdx
	jb	.LBB160_20
	shlq	$3, %rdi
	testb	$1, -8(%rcx,%rdi)
	jne	.LBB160_20
	movq	%rdi, %rbx
	orq	$1, %rbx
	movq	%rbx, -8(%rcx,%rsi)
	movq	%r11, -8(%rcx,%rdi)
	incl	%r9d
	movq	%rdi, %rsi
	decl	%r10d
	jne	.LBB160_16
.LBB160_20:
	movq	%rax, %rsi
.LBB160_21:
	movq	%rsi, (%r8)
	xorl	%eax, %eax
	jmp	.LBB160_23
.LBB160_22:
	movl	$1, %eax
.LBB160_23:
	popq	%rbx
	popq	%rbp
	popq	%rdi
	popq	%rsi
	popq	%r14
	retq
	.def	ic_stack_insert_after;
	.scl	2;
	.type	32;
	.endef
	.globl	ic_stack_insert_after
	.p2align	4
ic_stack_insert_after:
	pushq	%rsi
	pushq	%rdi
	pushq	%rbx
	subq	$48, %rsp
	movl	112(%rsp), %eax
	movabsq	$68719476728, %rdi
	xorl	%r10d, %r10d
	testq	%rcx, %rcx
	sete	%r10b
	shll	$12, %r10d
	addq	%rcx, %r10
	movq	%r10, 32(%rsp)
	movq	%rdx, 40(%rsp)
	movq	(%r8), %rcx
	andq	%rdi, %rcx
	movl	%r9d, %r11d
	movq	%rcx, %rsi
	incl	%r11d
	je	.LBB161_4
	cmpq	%r11, %rdx
	jb	.LBB161_8
	movq	-8(%r10,%r11,8), %rsi
	testb	$1, %sil
	je	.LBB161_8
	andq	%rdi, %rsi
.LBB161_4:
	leal	1(%rax), %edi
	testq	%rsi, %rsi
	je	.LBB161_9
	movq	%rsi, %rbx
	shrq	$3, %rbx
	cmpq	%rdx, %rbx
	ja	.LBB161_8
	testq	%rdi, %rdi
	je	.LBB161_8
	movq	-8(%r10,%rsi), %rbx
	andl	$1, %ebx
	jne	.LBB161_10
	jmp	.LBB161_8
.LBB161_9:
	testq	%rdi, %rdi
	je	.LBB161_8
.LBB161_10:
	cmpq	%rdi, %rdx
	jb	.LBB161_8
	shlq	$3, %rdi
	testb	$1, -8(%r10,%rdi)
	jne	.LBB161_8
	movq	%rdi, %rax
	testq	%r11, %r11
	je	.LBB161_14
	movq	%rdi, %rax
	orq	$1, %rax
	movq	%rax, -8(%r10,%r11,8)
	movq	%rcx, %rax
.LBB161_14:
	orq	$1, %rsi
	movq	%rsi, -8(%r10,%rdi)
	movq	%rax, (%r8)
	xorl	%eax, %eax
	jmp	.LBB161_15
.LBB161_8:
	leaq	32(%rsp), %rcx
	movl	%r9d, %edx
	movl	%eax, %r8d
	callq	ic_raw.table.RawTable.refusal.feecb86c9dd45d96
.LBB161_15:
	addq	$48, %rsp
	popq	%rbx
	popq	%rdi
	popq	%rsi
	retq
	.def	ic_stack_merge;
	.scl	2;
	.type	32;
	.endef
	.globl	ic_stack_merge
	.p2align	4
ic_stack_merge:
	pushq	%r15
	pushq	%r14
	pushq	%rsi
	pushq	%rdi
	pushq	%rbx
	subq	$64, %rsp
	movq	152(%rsp), %rsi
	movq	144(%rsp), %rdi
	xorl	%eax, %eax
	testq	%rcx, %rcx
	sete	%al
	shll	$12, %eax
	addq	%rcx, %rax
	xorl	%ecx, %ecx
	testq	%r8, %r8
	sete	%cl
	shll	$12, %ecx
	addq	%r8, %rcx
	movq	%rcx, 48(%rsp)
	movq	%r9, 56(%rsp)
	movq	%rax, 32(%rsp)
	movq	%rdx, 40(%rsp)
	cmpq	%rdx, %r9
	jb	.LBB162_4
	movabsq	$68719476728, %rcx
	movq	(%rdi), %r8
	andq	%rcx, %r8
	movq	(%rsi), %r10
	andq	%rcx, %r10
	testq	%r8, %r8
	je	.LBB162_2
	movq	%rdx, %rbx
	movq	%r8, %r11
	testq	%rdx, %rdx
	je	.LBB162_4
	.p2align	4
.LBB162_6:
	movq	%r11, %r14
	shrq	$3, %r14
	cmpq	%rdx, %r14
	ja	.LBB162_4
	movq	-8(%rax,%r11), %r14
	testb	$1, %r14b
	je	.LBB162_4
	andq	%rcx, %r14
	je	.LBB162_9
	movq	%r14, %r11
	decq	%rbx
	jne	.LBB162_6
	jmp	.LBB162_4
.LBB162_2:
	xorl	%r11d, %r11d
.LBB162_9:
	testq	%r10, %r10
	je	.LBB162_10
	movq	%rdx, %r14
	movq	%r10, %rbx
	testq	%rdx, %rdx
	je	.LBB162_4
	.p2align	4
.LBB162_13:
	movq	%rbx, %r15
	shrq	$3, %r15
	cmpq	%rdx, %r15
	ja	.LBB162_4
	movq	-8(%rax,%rbx), %r15
	testb	$1, %r15b
	je	.LBB162_4
	andq	%rcx, %r15
	je	.LBB162_16
	movq	%r15, %rbx
	decq	%r14
	jne	.LBB162_13
	jmp	.LBB162_4
.LBB162_10:
	xorl	%ebx, %ebx
.LBB162_16:
	testq	%r8, %r8
	je	.LBB162_18
	cmpq	%r11, %rbx
	je	.LBB162_4
.LBB162_18:
	testq	%r8, %r8
	movq	%r8, %rax
	cmoveq	%r10, %rax
	je	.LBB162_21
	testq	%r10, %r10
	je	.LBB162_21
	leaq	32(%rsp), %rcx
	leaq	48(%rsp), %rdx
	movq	%r10, %r9
	callq	ic_list_algorithms.merge.merge_runs.07d679d1abf7571e
.LBB162_21:
	movq	%rax, (%rdi)
	movq	$0, (%rsi)
	xorl	%eax, %eax
	addq	$64, %rsp
	popq	%rbx
	popq	%rdi
	popq	%rsi
	popq	%r14
	popq	%r15
	retq
.LBB162_4:
	movq	%rdx, %rcx
	movq	%r9, %rdx
	addq	$64, %rsp
	popq	%rbx
	popq	%rdi
	popq	%rsi
	popq	%r14
	popq	%r15
	jmp	ic_raw.sort_calls.refusal.1b4d7615ba81168a
	.def	ic_stack_pop_front;
	.scl	2;
	.type	32;
	.endef
	.globl	ic_stack_pop_front
	.p2align	4
ic_stack_pop_front:
	pushq	%rsi
	movq	%rcx, %rax
	movabsq	$68719476728, %r10
	xorl	%ecx, %ecx
	testq	%rax, %rax
	sete	%cl
	shll	$12, %ecx
	addq	%rax, %rcx
	movq	(%r8), %rax
	andq	%r10, %rax
	je	.LBB163_4
	movq	%rax, %r11
	shrq	$3, %r11
	cmpq	%rdx, %r11
	ja	.LBB163_4
	movq	-8(%rcx,%rax), %rsi
	testb	$1, %sil
	je	.LBB163_4
	andq	%r10, %rsi
	movq	$0, -8(%rcx,%rax)
	movq	%rsi, (%r8)
	decl	%r11d
	movl	%r11d, (%r9)
	xorl	%eax, %eax
	popq	%rsi
	retq
.LBB163_4:
	popq	%rsi
	jmp	ic_raw.stack_calls.pop_front_slow
	.def	ic_stack_push_front;
	.scl	2;
	.type	32;
	.endef
	.globl	ic_stack_push_front
	.p2align	4
ic_stack_push_front:
	movq	%rcx, %rax
	xorl	%ecx, %ecx
	testq	%rax, %rax
	sete	%cl
	shll	$12, %ecx
	addq	%rax, %rcx
	leal	1(%r9), %eax
	movabsq	$68719476728, %r10
	andq	(%r8), %r10
	je	.LBB164_5
	movq	%r10, %r11
	shrq	$3, %r11
	cmpq	%rdx, %r11
	ja	.LBB164_4
	testq	%rax, %rax
	je	.LBB164_4
	movq	-8(%rcx,%r10), %r11
	andl	$1, %r11d
	jne	.LBB164_6
	jmp	.LBB164_4
.LBB164_5:
	testq	%rax, %rax
	je	.LBB164_4
.LBB164_6:
	cmpq	%rax, %rdx
	jb	.LBB164_4
	shlq	$3, %rax
	testb	$1, -8(%rcx,%rax)
	jne	.LBB164_4
	orq	$1, %r10
	movq	%r10, -8(%rcx,%rax)
	movq	%rax, (%r8)
	xorl	%eax, %eax
	retq
.LBB164_4:
	movl	%r9d, %r8d
	jmp	ic_raw.table.refusal_at_end.feecb86c9dd45d96
	.def	ic_stack_remove_after;
	.scl	2;
	.type	32;
	.endef
	.globl	ic_stack_remove_after
	.p2align	4
ic_stack_remove_after:
	pushq	%r14
	pushq	%rsi
	pushq	%rdi
	pushq	%rbx
	movq	%rcx, %rax
	movq	72(%rsp), %r10
	movabsq	$68719476728, %r11
	xorl	%ecx, %ecx
	testq	%rax, %rax
	sete	%cl
	shll	$12, %ecx
	addq	%rax, %rcx
	movq	(%r8), %rax
	andq	%r11, %rax
	movl	%r9d, %esi
	movq	%rax, %rdi
	incl	%esi
	je	.LBB165_4
	cmpq	%rsi, %rdx
	jb	.LBB165_13
	movq	-8(%rcx,%rsi,8), %rdi
	testb	$1, %dil
	je	.LBB165_13
	andq	%r11, %rdi
.LBB165_4:
	testq	%rdi, %rdi
	je	.LBB165_5
	movq	%rdi, %rbx
	shrq	$3, %rbx
	cmpq	%rdx, %rbx
	ja	.LBB165_13
	movq	-8(%rcx,%rdi), %r14
	testb	$1, %r14b
	je	.LBB165_13
	andq	%r11, %r14
	testq	%rsi, %rsi
	je	.LBB165_9
	orq	$1, %r14
	movq	%r14, -8(%rcx,%rsi,8)
	jmp	.LBB165_11
.LBB165_5:
	movl	$4, %eax
	jmp	.LBB165_12
.LBB165_9:
	movq	%r14, %rax
.LBB165_11:
	movq	$0, -8(%rcx,%rdi)
	movq	%rax, (%r8)
	decl	%ebx
	movl	%ebx, (%r10)
	xorl	%eax, %eax
.LBB165_12:
	popq	%rbx
	popq	%rdi
	popq	%rsi
	popq	%r14
	retq
.LBB165_13:
	movl	%r9d, %r8d
	popq	%rbx
	popq	%rdi
	popq	%rsi
	popq	%r14
	jmp	ic_raw.table.RawTable.refusal_at.feecb86c9dd45d96
	.def	ic_stack_replace_after;
	.scl	2;
	.type	32;
	.endef
	.globl	ic_stack_replace_after
	.p2align	4
ic_stack_replace_after:
	pushq	%r15
	pushq	%r14
	pushq	%rsi
	pushq	%rdi
	pushq	%rbp
	pushq	%rbx
	subq	$56, %rsp
	movl	144(%rsp), %eax
	movabsq	$68719476728, %r11
	xorl	%r10d, %r10d
	testq	%rcx, %rcx
	sete	%r10b
	shll	$12, %r10d
	addq	%rcx, %r10
	movq	%r10, 40(%rsp)
	movq	%rdx, 48(%rsp)
	movq	(%r8), %rcx
	andq	%r11, %rcx
	movl	%r9d, %edi
	movq	%rcx, %rsi
	incl	%edi
	je	.LBB166_4
	cmpq	%rdi, %rdx
	jb	.LBB166_8
	movq	-8(%r10,%rdi,8), %rsi
	testb	$1, %sil
	je	.LBB166_8
	andq	%r11, %rsi
.LBB166_4:
	testq	%rsi, %rsi
	je	.LBB166_5
	movq	%rsi, %rbx
	shrq	$3, %rbx
	cmpq	%rdx, %rbx
	ja	.LBB166_8
	movq	-8(%r10,%rsi), %r14
	testb	$1, %r14b
	je	.LBB166_8
	leal	1(%rax), %r15d
	movl	%eax, %ebp
	incl	%ebp
	je	.LBB166_8
	cmpq	%r15, %rdx
	jb	.LBB166_8
	shlq	$3, %r15
	testb	$1, -8(%r10,%r15)
	jne	.LBB166_8
	movq	152(%rsp), %rax
	movq	%r15, %rdx
	testq	%rdi, %rdi
	je	.LBB166_14
	movq	%r15, %rdx
	orq	$1, %rdx
	movq	%rdx, -8(%r10,%rdi,8)
	movq	%rcx, %rdx
.LBB166_14:
	incq	%r11
	andq	%r11, %r14
	movq	%r14, -8(%r10,%r15)
	movq	$0, -8(%r10,%rsi)
	movq	%rdx, (%r8)
	decl	%ebx
	movl	%ebx, (%rax)
	xorl	%eax, %eax
	jmp	.LBB166_15
.LBB166_5:
	movl	$4, %eax
	jmp	.LBB166_15
.LBB166_8:
	leaq	40(%rsp), %rcx
	movl	%r9d, %edx
	movl	%eax, %r8d
	callq	ic_raw.table.RawTable.refusal.feecb86c9dd45d96
.LBB166_15:
	addq	$56, %rsp
	popq	%rbx
	popq	%rbp
	popq	%rdi
	popq	%rsi
	popq	%r14
	popq	%r15
	retq
	.def	ic_stack_sort;
	.scl	2;
	.type	32;
	.endef
	.globl	ic_stack_sort
	.p2align	4
ic_stack_sort:
	pushq	%r15
	pushq	%r14
	pushq	%r12
	pushq	%rsi
	pushq	%rdi
	pushq	%rbp
	pushq	%rbx
	subq	$96, %rsp
	movq	192(%rsp), %r15
	xorl	%eax, %eax
	testq	%rcx, %rcx
	sete	%al
	shll	$12, %eax
	addq	%rcx, %rax
	xorl	%ecx, %ecx
	testq	%r8, %r8
	sete	%cl
	shll	$12, %ecx
	addq	%r8, %rcx
	movq	%rcx, 56(%rsp)
	movq	%r9, 64(%rsp)
	movq	%rax, 40(%rsp)
	movq	%rdx, 48(%rsp)
	cmpq	%rdx, %r9
	jb	.LBB167_12
	movabsq	$68719476728, %rdi
	movq	(%r15), %rsi
	andq	%rdi, %rsi
	je	.LBB167_2
	movq	%rdx, %rcx
	movq	%rsi, %r8
	testq	%rdx, %rdx
	je	.LBB167_12
	.p2align	4
.LBB167_5:
	movq	%r8, %r10
	shrq	$3, %r10
	cmpq	%rdx, %r10
	ja	.LBB167_12
	movq	-8(%rax,%r8), %r8
	testb	$1, %r8b
	je	.LBB167_12
	andq	%rdi, %r8
	je	.LBB167_8
	decq	%rcx
	jne	.LBB167_5
.LBB167_12:
	movq	%rdx, %rcx
	movq	%r9, %rdx
	addq	$96, %rsp
	popq	%rbx
	popq	%rbp
	popq	%rdi
	popq	%rsi
	popq	%r12
	popq	%r14
	popq	%r15
	jmp	ic_raw.sort_calls.refusal.1b4d7615ba81168a
.LBB167_8:
	andq	-8(%rax,%rsi), %rdi
	movq	$1, -8(%rax,%rsi)
	je	.LBB167_3
	xorl	%r12d, %r12d
	.p2align	4
.LBB167_10:
	movq	%r12, 32(%rsp)
	leaq	72(%rsp), %rcx
	leaq	40(%rsp), %rbx
	leaq	56(%rsp), %r14
	movq	%rbx, %rdx
	movq	%r14, %r8
	movq	%rdi, %r9
	callq	ic_list_algorithms.sort.sort_front.07d679d1abf7571e
	movq	72(%rsp), %r9
	movzbl	80(%rsp), %ebp
	movq	88(%rsp), %rdi
	movq	%rbx, %rcx
	movq	%r14, %rdx
	movq	%rsi, %r8
	callq	ic_list_algorithms.merge.merge_runs.07d679d1abf7571e
	movq	%rax, %rsi
	incq	%r12
	cmpb	$1, %bpl
	je	.LBB167_10
	jmp	.LBB167_3
.LBB167_2:
	xorl	%esi, %esi
.LBB167_3:
	movq	%rsi, (%r15)
	xorl	%eax, %eax
	addq	$96, %rsp
	popq	%rbx
	popq	%rbp
	popq	%rdi
	popq	%rsi
	popq	%r12
	popq	%r14
	popq	%r15
	retq
	.def	ic_stack_splice_after;
	.scl	2;
	.type	32;
	.endef
	.globl	ic_stack_splice_after
	.p2align	4
ic_stack_splice_after:
	pushq	%r15
	pushq	%r14
	pushq	%r12
	pushq	%rsi
	pushq	%rdi
	pushq	%rbp
	pushq	%rbx
	movq	%rcx, %rax
	movq	96(%rsp), %r10
	movabsq	$68719476728, %r11
	xorl	%ecx, %ecx
	testq	%rax, %rax
	sete	%cl
	shll	$12, %ecx
	addq	%rax, %rcx
	movq	(%r8), %rax
	andq	%r11, %rax
	movq	(%r10), %rsi
	andq	%r11, %rsi
	setne	%bl
	cmpq	%rsi, %rax
	sete	%dil
	testb	%bl, %dil
	jne	.LBB168_10
	leal	1(%r9), %ebx
	movq	%rax, %rdi
	testq	%rbx, %rbx
	je	.LBB168_5
	cmpq	%rbx, %rdx
	jb	.LBB168_10
	movq	-8(%rcx,%rbx,8), %rdi
	testb	$1, %dil
	je	.LBB168_10
	andq	%r11, %rdi
.LBB168_5:
	testq	%rdi, %rdi
	je	.LBB168_11
	movq	%rdi, %r14
	shrq	$3, %r14
	cmpq	%rdx, %r14
	ja	.LBB168_10
	movq	-8(%rcx,%rdi), %r14
	testq	%rsi, %rsi
	je	.LBB168_9
	movl	%r14d, %ebp
	andl	$1, %ebp
	jne	.LBB168_12
.LBB168_9:
	testb	$1, %r14b
	jne	.LBB168_21
	jmp	.LBB168_10
.LBB168_11:
	testq	%rsi, %rsi
	je	.LBB168_21
.LBB168_12:
	movq	%rdx, %r15
	movq	%rsi, %r14
	testq	%rdx, %rdx
	je	.LBB168_10
	.p2align	4
.LBB168_14:
	movq	%r14, %r12
	shrq	$3, %r12
	cmpq	%rdx, %r12
	ja	.LBB168_10
	movq	-8(%rcx,%r14), %r12
	testb	$1, %r12b
	je	.LBB168_10
	andq	%r11, %r12
	je	.LBB168_17
	movq	%r12, %r14
	decq	%r15
	jne	.LBB168_14
.LBB168_10:
	movl	%r9d, %r8d
	popq	%rbx
	popq	%rbp
	popq	%rdi
	popq	%rsi
	popq	%r12
	popq	%r14
	popq	%r15
	jmp	ic_raw.table.RawTable.refusal_at.feecb86c9dd45d96
.LBB168_17:
	testq	%rbx, %rbx
	je	.LBB168_18
	orq	$1, %rsi
	movq	%rsi, -8(%rcx,%rbx,8)
	jmp	.LBB168_20
.LBB168_18:
	movq	%rsi, %rax
.LBB168_20:
	orq	$1, %rdi
	movq	%rdi, -8(%rcx,%r14)
.LBB168_21:
	movq	%rax, (%r8)
	movq	$0, (%r10)
	xorl	%eax, %eax
	popq	%rbx
	popq	%rbp
	popq	%rdi
	popq	%rsi
	popq	%r12
	popq	%r14
	popq	%r15
	retq
	.def	ic_stack_split_after;
	.scl	2;
	.type	32;
	.endef
	.globl	ic_stack_split_after
	.p2align	4
ic_stack_split_after:
	pushq	%rsi
	pushq	%rdi
	movq	%rcx, %rax
	movq	56(%rsp), %r10
	movabsq	$68719476728, %rdi
	xorl	%ecx, %ecx
	testq	%rax, %rax
	sete	%cl
	shll	$12, %ecx
	addq	%rax, %rcx
	testq	%rdi, (%r10)
	jne	.LBB169_10
	movq	(%r8), %rax
	andq	%rdi, %rax
	movl	%r9d, %esi
	movq	%rax, %r11
	incl	%esi
	je	.LBB169_5
	cmpq	%rsi, %rdx
	jb	.LBB169_10
	movq	-8(%rcx,%rsi,8), %r11
	testb	$1, %r11b
	je	.LBB169_10
	andq	%rdi, %r11
.LBB169_5:
	testq	%r11, %r11
	je	.LBB169_8
	movq	%r11, %rdi
	shrq	$3, %rdi
	cmpq	%rdx, %rdi
	ja	.LBB169_10
	testb	$1, -8(%rcx,%r11)
	je	.LBB169_10
.LBB169_8:
	testq	%rsi, %rsi
	je	.LBB169_9
	movq	$1, -8(%rcx,%rsi,8)
	jmp	.LBB169_12
.LBB169_9:
	xorl	%eax, %eax
.LBB169_12:
	movq	%rax, (%r8)
	movq	%r11, (%r10)
	xorl	%eax, %eax
	popq	%rdi
	popq	%rsi
	retq
.LBB169_10:
	movl	%r9d, %r8d
	popq	%rdi
	popq	%rsi
	jmp	ic_raw.table.RawTable.refusal_at.feecb86c9dd45d96
	.def	ic_tree_append;
	.scl	2;
	.type	32;
	.endef
	.globl	ic_tree_append
	.p2align	4
ic_tree_append:
	pushq	%r15
	pushq	%r14
	pushq	%r13
	pushq	%r12
	pushq	%rsi
	pushq	%rdi
	pushq	%rbp
	pushq	%rbx
	subq	$152, %rsp
	movabsq	$68719476728, %r12
	xorl	%eax, %eax
	testq	%rcx, %rcx
	sete	%al
	shll	$12, %eax
	addq	%rcx, %rax
	movq	%rax, 64(%rsp)
	movq	%rdx, 72(%rsp)
	movq	(%r8), %rbx
	andq	%r12, %rbx
	movq	(%r9), %r14
	andq	%r12, %r14
	setne	%al
	cmpq	%r14, %rbx
	sete	%cl
	movl	$5, %r15d
	testb	%cl, %al
	jne	.LBB170_95
	movq	%r9, %rsi
	movq	%r8, %rdi
	testq	%rbx, %rbx
	setne	%bpl
	movl	$66, 48(%rsp)
	movq	$0, 40(%rsp)
	movb	$0, 32(%rsp)
	leaq	128(%rsp), %rcx
	leaq	64(%rsp), %rdx
	movl	%ebp, %r8d
	movq	%rbx, %r9
	callq	ic_check.tree.check_below.ffc36cde30076884
	cmpb	$1, 128(%rsp)
	jne	.LBB170_95
	testb	$1, 148(%rsp)
	je	.LBB170_95
	testq	%r14, %r14
	setne	%r8b
	movl	$66, 48(%rsp)
	movq	$0, 40(%rsp)
	movb	$0, 32(%rsp)
	leaq	128(%rsp), %rcx
	leaq	64(%rsp), %rdx
	movq	%r14, %r9
	callq	ic_check.tree.check_below.ffc36cde30076884
	cmpb	$1, 128(%rsp)
	jne	.LBB170_95
	testb	$1, 148(%rsp)
	je	.LBB170_95
	testq	%r14, %r14
	je	.LBB170_94
	movl	$66, %eax
	movq	64(%rsp), %r10
	movq	%r14, %rcx
	.p2align	4
.LBB170_7:
	leaq	(%rcx,%rcx,2), %r15
	movq	-24(%r10,%r15), %rdx
	movq	%rcx, %r9
	andq	%r12, %rdx
	je	.LBB170_12
	leaq	(%rdx,%rdx,2), %r15
	testl	%eax, %eax
	je	.LBB170_11
	movq	-24(%r10,%r15), %rcx
	movq	%rdx, %r9
	andq	%r12, %rcx
	je	.LBB170_12
	addl	$-2, %eax
	jmp	.LBB170_7
.LBB170_11:
	movq	%rdx, %r9
.LBB170_12:
	movq	-16(%r10,%r15), %rax
	andq	%r12, %rax
	movq	-24(%r10,%r15), %rcx
	andq	%r12, %rcx
	movb	%bpl, 95(%rsp)
	je	.LBB170_19
	testq	%rax, %rax
	je	.LBB170_20
	movl	$66, %ecx
	.p2align	4
.LBB170_15:
	leaq	(%rax,%rax,2), %r8
	movq	-24(%r10,%r8), %rdx
	movq	%rax, %r11
	andq	%r12, %rdx
	je	.LBB170_30
	leaq	(%rdx,%rdx,2), %r8
	testl	%ecx, %ecx
	je	.LBB170_29
	movq	-24(%r10,%r8), %rax
	movq	%rdx, %r11
	andq	%r12, %rax
	je	.LBB170_30
	addl	$-2, %ecx
	jmp	.LBB170_15
.LBB170_19:
	movq	%rax, %rcx
.LBB170_20:
	movq	-8(%r10,%r15), %rdx
	movq	%rdx, %rax
	andq	%r12, %rax
	setne	%r13b
	je	.LBB170_23
	leaq	(%rax,%rax,2), %r8
	movq	-24(%r10,%r8), %r11
	movq	%r11, %r15
	andq	%r12, %r15
	cmpq	%r9, %r15
	jne	.LBB170_24
	andl	$1, %r11d
	orq	%rcx, %r11
	movq	%r11, -24(%r10,%r8)
	xorl	%r10d, %r10d
	jmp	.LBB170_25
.LBB170_23:
	xorl	%r10d, %r10d
	movq	%rcx, %r14
	jmp	.LBB170_25
.LBB170_24:
	movq	%rcx, -16(%r10,%r8)
	movb	$1, %r10b
.LBB170_25:
	testq	%rcx, %rcx
	je	.LBB170_28
	movq	64(%rsp), %rdx
	leaq	(%rcx,%rcx,2), %rcx
	movq	-8(%rdx,%rcx), %r8
	andl	$1, %r8d
	orq	%rax, %r8
	movq	%r8, -8(%rdx,%rcx)
.LBB170_27:
	movq	64(%rsp), %rax
	orq	$1, -8(%rax,%rcx)
	jmp	.LBB170_93
.LBB170_28:
	movq	%r14, %r15
	jmp	.LBB170_52
.LBB170_29:
	movq	%rdx, %r11
.LBB170_30:
	movq	-24(%r10,%r8), %rcx
	andq	%r12, %rcx
	jne	.LBB170_32
	movq	-16(%r10,%r8), %rcx
	andq	%r12, %rcx
.LBB170_32:
	movq	-8(%r10,%r8), %rdx
	movq	%rdx, %rax
	andq	%r12, %rax
	setne	80(%rsp)
	je	.LBB170_35
	leaq	(%rax,%rax,2), %r13
	movq	-24(%r10,%r13), %r13
	movq	%r13, %rbp
	andq	%r12, %rbp
	cmpq	%r11, %rbp
	jne	.LBB170_36
	andl	$1, %r13d
	orq	%rcx, %r13
	leaq	(%rax,%rax,2), %rbp
	movq	%r13, -24(%r10,%rbp)
	xorl	%r10d, %r10d
	jmp	.LBB170_37
.LBB170_35:
	xorl	%r10d, %r10d
	movq	%rcx, %r14
	jmp	.LBB170_37
.LBB170_36:
	leaq	(%rax,%rax,2), %r13
	movq	%rcx, -16(%r10,%r13)
	movb	$1, %r10b
.LBB170_37:
	testq	%rcx, %rcx
	je	.LBB170_39
	movq	64(%rsp), %rdx
	leaq	(%rcx,%rcx,2), %rcx
	movq	-8(%rdx,%rcx), %r13
	andl	$1, %r13d
	orq	%rax, %r13
	movq	%r13, -8(%rdx,%rcx)
	movq	64(%rsp), %rdx
	orq	$1, -8(%rdx,%rcx)
	xorl	%edx, %edx
.LBB170_39:
	cmpq	%r9, %r11
	jne	.LBB170_41
	movq	%r14, %r15
	jmp	.LBB170_51
.LBB170_41:
	movq	64(%rsp), %rbp
	movq	-8(%rbp,%r15), %rcx
	movq	-24(%rbp,%r15), %r13
	andq	%r12, %r13
	movq	%r13, 112(%rsp)
	movq	-16(%rbp,%r15), %r13
	andq	%r12, %r13
	movq	%rcx, 120(%rsp)
	movq	%r11, %r15
	andq	%r12, %rcx
	movq	%rcx, 104(%rsp)
	je	.LBB170_46
	movq	104(%rsp), %rcx
	leaq	(%rcx,%rcx,2), %rcx
	movq	%rcx, 96(%rsp)
	movq	-24(%rbp,%rcx), %rcx
	movq	%rcx, %r15
	andq	%r12, %r15
	cmpq	%r9, %r15
	jne	.LBB170_44
	andl	$1, %ecx
	addq	%r11, %rcx
	movq	96(%rsp), %r15
	movq	%rcx, -24(%rbp,%r15)
	jmp	.LBB170_45
.LBB170_44:
	movq	96(%rsp), %rcx
	movq	%r11, -16(%rbp,%rcx)
.LBB170_45:
	movq	%r14, %r15
.LBB170_46:
	movq	64(%rsp), %r14
	movq	112(%rsp), %rcx
	testq	%rcx, %rcx
	je	.LBB170_48
	shrq	$3, %rcx
	leaq	(%rcx,%rcx,2), %rcx
	movq	-8(%r14,%rcx,8), %rbp
	andl	$1, %ebp
	addq	%r11, %rbp
	movq	%rbp, -8(%r14,%rcx,8)
	movq	64(%rsp), %r14
.LBB170_48:
	testq	%r13, %r13
	je	.LBB170_50
	movq	%r13, %rcx
	shrq	$3, %rcx
	leaq	(%rcx,%rcx,2), %rcx
	movq	-8(%r14,%rcx,8), %rbp
	andl	$1, %ebp
	addq	%r11, %rbp
	movq	%rbp, -8(%r14,%rcx,8)
	movq	64(%rsp), %r14
.LBB170_50:
	movq	120(%rsp), %rbp
	andl	$1, %ebp
	movq	-24(%r14,%r8), %rcx
	andl	$1, %ecx
	orq	112(%rsp), %rcx
	movq	%rcx, -24(%r14,%r8)
	movq	64(%rsp), %rcx
	movq	%r13, -16(%rcx,%r8)
	movq	64(%rsp), %rcx
	movq	-8(%rcx,%r8), %r14
	andl	$1, %r14d
	orq	104(%rsp), %r14
	movq	%r14, -8(%rcx,%r8)
	movq	64(%rsp), %rcx
	movq	-8(%rcx,%r8), %r14
	andq	$-2, %r14
	orq	%rbp, %r14
	movq	%r14, -8(%rcx,%r8)
	cmpq	%r9, %rax
	cmoveq	%r11, %rax
.LBB170_51:
	movzbl	80(%rsp), %r13d
.LBB170_52:
	testb	$1, %dl
	je	.LBB170_92
	testb	%r13b, %r13b
	je	.LBB170_92
	movl	$67, %edx
	movq	64(%rsp), %r8
	movq	%r15, %r14
.LBB170_55:
	leaq	(%rax,%rax,2), %rcx
	testb	$1, %r10b
	je	.LBB170_63
	movq	-24(%r8,%rcx), %r13
	movq	%r13, %r11
	andq	%r12, %r11
	je	.LBB170_93
	leaq	(%r11,%r11,2), %r15
	testb	$1, -8(%r8,%r15)
	jne	.LBB170_75
	movq	-16(%r8,%r15), %rbp
	andq	%r12, %rbp
	movq	-8(%r8,%rcx), %r10
	andq	%r12, %r10
	andl	$1, %r13d
	orq	%rbp, %r13
	movq	%r13, -24(%r8,%rcx)
	testq	%rbp, %rbp
	je	.LBB170_60
	movq	64(%rsp), %r8
	shrq	$3, %rbp
	leaq	(,%rbp,2), %r13
	addq	%rbp, %r13
	movq	-8(%r8,%r13,8), %rbp
	andl	$1, %ebp
	orq	%rax, %rbp
	movq	%rbp, -8(%r8,%r13,8)
.LBB170_60:
	movq	64(%rsp), %r8
	movq	-8(%r8,%r15), %r13
	andl	$1, %r13d
	orq	%r10, %r13
	movq	%r13, -8(%r8,%r15)
	movq	64(%rsp), %r8
	orq	$1, -8(%r8,%r15)
	movq	%r11, %r13
	testq	%r10, %r10
	je	.LBB170_73
	movq	64(%rsp), %r8
	leaq	(%r10,%r10,2), %r10
	movq	-24(%r8,%r10), %r13
	movq	%r13, %rbp
	andq	%r12, %rbp
	cmpq	%rax, %rbp
	jne	.LBB170_71
	andl	$1, %r13d
	orq	%r11, %r13
	movq	%r13, -24(%r8,%r10)
	jmp	.LBB170_72
.LBB170_63:
	movq	-16(%r8,%rcx), %r11
	andq	%r12, %r11
	je	.LBB170_93
	leaq	(%r11,%r11,2), %r15
	testb	$1, -8(%r8,%r15)
	je	.LBB170_66
	movq	%r14, 80(%rsp)
	movq	-24(%r8,%r15), %r14
	movq	%r14, %r10
	andq	%r12, %r10
	jne	.LBB170_84
	jmp	.LBB170_85
.LBB170_66:
	movq	-8(%r8,%rcx), %r10
	andq	%r12, %r10
	movq	-24(%r8,%r15), %r13
	andq	%r12, %r13
	movq	%r13, -16(%r8,%rcx)
	je	.LBB170_68
	movq	64(%rsp), %r8
	shrq	$3, %r13
	leaq	(%r13,%r13,2), %r13
	movq	-8(%r8,%r13,8), %rbp
	andl	$1, %ebp
	orq	%rax, %rbp
	movq	%rbp, -8(%r8,%r13,8)
.LBB170_68:
	movq	64(%rsp), %r8
	movq	-8(%r8,%r15), %r13
	andl	$1, %r13d
	orq	%r10, %r13
	movq	%r13, -8(%r8,%r15)
	movq	64(%rsp), %r8
	orq	$1, -8(%r8,%r15)
	movq	%r11, %r13
	testq	%r10, %r10
	je	.LBB170_82
	movq	64(%rsp), %r8
	leaq	(%r10,%r10,2), %r10
	movq	-24(%r8,%r10), %r13
	movq	%r13, %rbp
	andq	%r12, %rbp
	cmpq	%rax, %rbp
	jne	.LBB170_80
	andl	$1, %r13d
	orq	%r11, %r13
	movq	%r13, -24(%r8,%r10)
	jmp	.LBB170_81
.LBB170_71:
	movq	%r11, -16(%r8,%r10)
.LBB170_72:
	movq	%r14, %r13
.LBB170_73:
	movq	64(%rsp), %r8
	movq	%rax, -16(%r8,%r15)
	movq	64(%rsp), %r8
	movq	-8(%r8,%rcx), %r10
	andl	$1, %r10d
	orq	%r11, %r10
	movq	%r10, -8(%r8,%rcx)
	movq	64(%rsp), %r8
	andq	$-2, -8(%r8,%rcx)
	movq	64(%rsp), %r8
	movq	-24(%r8,%rcx), %r11
	andq	%r12, %r11
	je	.LBB170_117
	leaq	(%r11,%r11,2), %r15
	movq	%r13, %r14
.LBB170_75:
	movq	-24(%r8,%r15), %rbp
	andq	%r12, %rbp
	je	.LBB170_77
	movq	%rbp, %r10
	shrq	$3, %r10
	leaq	(%r10,%r10,2), %r10
	movq	-8(%r8,%r10,8), %r10
	testb	$1, %r10b
	je	.LBB170_108
.LBB170_77:
	movq	-16(%r8,%r15), %r13
	andq	%r12, %r13
	je	.LBB170_79
	leaq	(,%r13,2), %r10
	addq	%r13, %r10
	testb	$1, -8(%r8,%r10)
	je	.LBB170_106
.LBB170_79:
	andb	$-2, -8(%r8,%r15)
	movq	64(%rsp), %r8
	movq	-8(%r8,%rcx), %r11
	testb	$1, %r11b
	jne	.LBB170_89
	jmp	.LBB170_97
.LBB170_80:
	movq	%r11, -16(%r8,%r10)
.LBB170_81:
	movq	%r14, %r13
.LBB170_82:
	movq	64(%rsp), %r8
	movq	-24(%r8,%r15), %r10
	andl	$1, %r10d
	orq	%rax, %r10
	movq	%r10, -24(%r8,%r15)
	movq	64(%rsp), %r8
	movq	-8(%r8,%rcx), %r10
	andl	$1, %r10d
	orq	%r11, %r10
	movq	%r10, -8(%r8,%rcx)
	movq	64(%rsp), %r8
	andq	$-2, -8(%r8,%rcx)
	movq	64(%rsp), %r8
	movq	-16(%r8,%rcx), %r11
	andq	%r12, %r11
	je	.LBB170_117
	movq	%r13, 80(%rsp)
	leaq	(%r11,%r11,2), %r15
	movq	-24(%r8,%r15), %r14
	movq	%r14, %r10
	andq	%r12, %r10
	je	.LBB170_85
.LBB170_84:
	leaq	(%r10,%r10,2), %r13
	testb	$1, -8(%r8,%r13)
	je	.LBB170_98
.LBB170_85:
	movq	-16(%r8,%r15), %r10
	andq	%r12, %r10
	je	.LBB170_87
	leaq	(%r10,%r10,2), %r13
	movq	-8(%r8,%r13), %rbp
	testb	$1, %bpl
	je	.LBB170_105
.LBB170_87:
	andb	$-2, -8(%r8,%r15)
	movq	64(%rsp), %r8
	movq	-8(%r8,%rcx), %r11
	testb	$1, %r11b
	je	.LBB170_96
	movq	80(%rsp), %r14
.LBB170_89:
	andq	%r12, %r11
	je	.LBB170_93
	movq	%r11, %rcx
	shrq	$3, %rcx
	leaq	(%rcx,%rcx,2), %rcx
	movq	-24(%r8,%rcx,8), %rcx
	andq	%r12, %rcx
	cmpq	%rax, %rcx
	setne	%r10b
	movq	%r11, %rax
	decl	%edx
	jne	.LBB170_55
	jmp	.LBB170_93
.LBB170_92:
	movq	%r15, %r14
.LBB170_93:
	testq	%r14, %r14
	movq	%r14, 40(%rsp)
	setne	32(%rsp)
	leaq	64(%rsp), %rcx
	movzbl	95(%rsp), %edx
	movq	%rbx, %r8
	callq	ic_rbtree.join.roots.join.f4da04d8a93b4f27
	xorl	%ebx, %ebx
	testb	%al, %al
	cmovneq	%rdx, %rbx
.LBB170_94:
	movq	%rbx, (%rdi)
	movq	$0, (%rsi)
	xorl	%r15d, %r15d
.LBB170_95:
	movl	%r15d, %eax
	addq	$152, %rsp
	popq	%rbx
	popq	%rbp
	popq	%rdi
	popq	%rsi
	popq	%r12
	popq	%r13
	popq	%r14
	popq	%r15
	retq
.LBB170_117:
	movq	%r13, %r14
	jmp	.LBB170_93
.LBB170_96:
	orq	$1, %r11
	movq	%r11, -8(%r8,%rcx)
	movq	80(%rsp), %r14
	jmp	.LBB170_93
.LBB170_97:
	orq	$1, %r11
	movq	%r11, -8(%r8,%rcx)
	jmp	.LBB170_93
.LBB170_98:
	movq	-16(%r8,%r15), %rdx
	andq	%r12, %rdx
	je	.LBB170_100
	leaq	(%rdx,%rdx,2), %r13
	movq	-8(%r8,%r13), %rbp
	testb	$1, %bpl
	je	.LBB170_105
.LBB170_100:
	leaq	(%r10,%r10,2), %rbp
	movq	-16(%r8,%rbp), %r13
	andq	%r12, %r13
	movq	-8(%r8,%r15), %rdx
	andq	%r12, %rdx
	andl	$1, %r14d
	orq	%r13, %r14
	movq	%r14, -24(%r8,%r15)
	testq	%r13, %r13
	je	.LBB170_102
	movq	64(%rsp), %r8
	shrq	$3, %r13
	leaq	(,%r13,2), %r14
	addq	%r13, %r14
	movq	-8(%r8,%r14,8), %r13
	andl	$1, %r13d
	orq	%r11, %r13
	movq	%r13, -8(%r8,%r14,8)
.LBB170_102:
	movq	64(%rsp), %r8
	movq	-8(%r8,%rbp), %r14
	andl	$1, %r14d
	orq	%rdx, %r14
	movq	%r14, -8(%r8,%rbp)
	movq	64(%rsp), %r8
	orq	$1, -8(%r8,%rbp)
	movq	%r10, %r14
	testq	%rdx, %rdx
	je	.LBB170_132
	movq	64(%rsp), %r8
	leaq	(%rdx,%rdx,2), %rdx
	movq	-24(%r8,%rdx), %r14
	movq	%r14, %r13
	andq	%r12, %r13
	cmpq	%r11, %r13
	jne	.LBB170_130
	andl	$1, %r14d
	orq	%r10, %r14
	movq	%r14, -24(%r8,%rdx)
	jmp	.LBB170_131
.LBB170_105:
	movq	80(%rsp), %r14
	movq	%r11, %r10
	movq	%r15, %r11
	jmp	.LBB170_134
.LBB170_106:
	testq	%rbp, %rbp
	je	.LBB170_111
	movq	%rbp, %rdx
	shrq	$3, %rdx
	leaq	(%rdx,%rdx,2), %rdx
	movq	-8(%r8,%rdx,8), %r10
.LBB170_108:
	testb	$1, %r10b
	je	.LBB170_118
	movq	-16(%r8,%r15), %r13
	andq	%r12, %r13
	je	.LBB170_93
	leaq	(,%r13,2), %r10
	addq	%r13, %r10
.LBB170_111:
	movq	%r14, 80(%rsp)
	movq	-8(%r8,%r15), %rdx
	andq	%r12, %rdx
	movq	-24(%r8,%r10), %r14
	andq	%r12, %r14
	movq	%r14, -16(%r8,%r15)
	je	.LBB170_113
	movq	64(%rsp), %r8
	shrq	$3, %r14
	leaq	(%r14,%r14,2), %r14
	movq	-8(%r8,%r14,8), %rbp
	andl	$1, %ebp
	orq	%r11, %rbp
	movq	%rbp, -8(%r8,%r14,8)
.LBB170_113:
	movq	64(%rsp), %r8
	movq	-8(%r8,%r10), %r14
	andl	$1, %r14d
	orq	%rdx, %r14
	movq	%r14, -8(%r8,%r10)
	movq	64(%rsp), %r8
	orq	$1, -8(%r8,%r10)
	movq	%r13, %r14
	testq	%rdx, %rdx
	je	.LBB170_121
	movq	64(%rsp), %r8
	leaq	(%rdx,%rdx,2), %rdx
	movq	-24(%r8,%rdx), %r14
	movq	%r14, %rbp
	andq	%r12, %rbp
	cmpq	%r11, %rbp
	jne	.LBB170_119
	andl	$1, %r14d
	orq	%r13, %r14
	movq	%r14, -24(%r8,%rdx)
	jmp	.LBB170_120
.LBB170_118:
	movq	%r14, 80(%rsp)
	movq	%r11, %r13
	movq	%r15, %r10
	jmp	.LBB170_122
.LBB170_119:
	movq	%r13, -16(%r8,%rdx)
.LBB170_120:
	movq	80(%rsp), %r14
.LBB170_121:
	movq	64(%rsp), %rdx
	movq	-24(%rdx,%r10), %r8
	andl	$1, %r8d
	orq	%r11, %r8
	movq	%r8, -24(%rdx,%r10)
	movq	64(%rsp), %rdx
	movq	-8(%rdx,%r15), %r8
	andl	$1, %r8d
	orq	%r13, %r8
	movq	%r8, -8(%rdx,%r15)
	movq	64(%rsp), %rdx
	andq	$-2, -8(%rdx,%r15)
	movq	64(%rsp), %r8
	movq	-24(%r8,%r10), %rbp
	movq	%r14, 80(%rsp)
	andq	%r12, %rbp
	je	.LBB170_93
.LBB170_122:
	movq	-8(%r8,%rcx), %rdx
	shrq	$3, %rbp
	leaq	(,%rbp,2), %r11
	addq	%rbp, %r11
	orq	$1, -8(%r8,%r11,8)
	andl	$1, %edx
	movq	64(%rsp), %r14
	movq	-16(%r14,%r10), %r11
	andq	%r12, %r11
	movq	-8(%r14,%rcx), %r8
	andq	%r12, %r8
	movq	-24(%r14,%rcx), %r15
	andl	$1, %r15d
	orq	%r11, %r15
	movq	%r15, -24(%r14,%rcx)
	testq	%r11, %r11
	je	.LBB170_124
	movq	64(%rsp), %r14
	shrq	$3, %r11
	leaq	(%r11,%r11,2), %r11
	movq	-8(%r14,%r11,8), %r15
	andl	$1, %r15d
	orq	%rax, %r15
	movq	%r15, -8(%r14,%r11,8)
.LBB170_124:
	movq	64(%rsp), %r11
	movq	-8(%r11,%r10), %r14
	andl	$1, %r14d
	orq	%r8, %r14
	movq	%r14, -8(%r11,%r10)
	movq	64(%rsp), %r11
	movq	-8(%r11,%r10), %r14
	andq	$-2, %r14
	orq	%rdx, %r14
	movq	%r14, -8(%r11,%r10)
	movq	%r13, %r14
	testq	%r8, %r8
	je	.LBB170_129
	movq	64(%rsp), %rdx
	leaq	(%r8,%r8,2), %r8
	movq	-24(%rdx,%r8), %r11
	andq	%r11, %r12
	cmpq	%rax, %r12
	jne	.LBB170_127
	andl	$1, %r11d
	addq	%r13, %r11
	movq	%r11, -24(%rdx,%r8)
	jmp	.LBB170_128
.LBB170_127:
	movq	%r13, -16(%rdx,%r8)
.LBB170_128:
	movq	80(%rsp), %r14
.LBB170_129:
	movq	64(%rsp), %rdx
	movq	%rax, -16(%rdx,%r10)
	movq	64(%rsp), %rax
	movq	-8(%rax,%rcx), %rdx
	andl	$1, %edx
	addq	%r13, %rdx
	movq	%rdx, -8(%rax,%rcx)
	jmp	.LBB170_27
.LBB170_130:
	movq	%r10, -16(%r8,%rdx)
.LBB170_131:
	movq	80(%rsp), %r14
.LBB170_132:
	movq	64(%rsp), %rdx
	movq	%r11, -16(%rdx,%rbp)
	movq	64(%rsp), %rdx
	movq	-8(%rdx,%r15), %r8
	andl	$1, %r8d
	orq	%r10, %r8
	movq	%r8, -8(%rdx,%r15)
	movq	64(%rsp), %rdx
	andq	$-2, -8(%rdx,%r15)
	movq	64(%rsp), %r8
	movq	-16(%r8,%rbp), %rdx
	andq	%r12, %rdx
	je	.LBB170_93
	leaq	(%rdx,%rdx,2), %r13
	movq	%rbp, %r11
	movq	-8(%r8,%r13), %rbp
.LBB170_134:
	movq	-8(%r8,%rcx), %rdx
	andl	$1, %edx
	orq	$1, %rbp
	movq	%rbp, -8(%r8,%r13)
	movq	64(%rsp), %r15
	movq	-8(%r15,%rcx), %r8
	andq	%r12, %r8
	movq	%r11, %rbp
	movq	-24(%r15,%r11), %r11
	andq	%r12, %r11
	movq	%r11, -16(%r15,%rcx)
	je	.LBB170_136
	movq	64(%rsp), %r15
	shrq	$3, %r11
	leaq	(%r11,%r11,2), %r11
	movq	-8(%r15,%r11,8), %r13
	andl	$1, %r13d
	orq	%rax, %r13
	movq	%r13, -8(%r15,%r11,8)
.LBB170_136:
	movq	64(%rsp), %r11
	movq	-8(%r11,%rbp), %r15
	andl	$1, %r15d
	orq	%r8, %r15
	movq	%r15, -8(%r11,%rbp)
	movq	64(%rsp), %r11
	movq	-8(%r11,%rbp), %r15
	andq	$-2, %r15
	orq	%rdx, %r15
	movq	%r15, -8(%r11,%rbp)
	movq	%r10, %rdx
	testq	%r8, %r8
	je	.LBB170_141
	movq	64(%rsp), %rdx
	leaq	(%r8,%r8,2), %r8
	movq	-24(%rdx,%r8), %r11
	andq	%r11, %r12
	cmpq	%rax, %r12
	jne	.LBB170_139
	andl	$1, %r11d
	addq	%r10, %r11
	movq	%r11, -24(%rdx,%r8)
	jmp	.LBB170_140
.LBB170_139:
	movq	%r10, -16(%rdx,%r8)
.LBB170_140:
	movq	%r14, %rdx
.LBB170_141:
	movq	64(%rsp), %r8
	movq	-24(%r8,%rbp), %r11
	andl	$1, %r11d
	orq	%rax, %r11
	movq	%r11, -24(%r8,%rbp)
	movq	64(%rsp), %rax
	movq	-8(%rax,%rcx), %r8
	andl	$1, %r8d
	addq	%r10, %r8
	movq	%r8, -8(%rax,%rcx)
	movq	64(%rsp), %rax
	orq	$1, -8(%rax,%rcx)
	movq	%rdx, %r14
	jmp	.LBB170_93
	.def	ic_tree_check;
	.scl	2;
	.type	32;
	.endef
	.globl	ic_tree_check
	.p2align	4
ic_tree_check:
	pushq	%rsi
	subq	$96, %rsp
	movq	%r9, %rsi
	xorl	%eax, %eax
	testq	%rcx, %rcx
	sete	%al
	shll	$12, %eax
	addq	%rcx, %rax
	movabsq	$68719476728, %r9
	andq	(%r8), %r9
	movq	%rax, 56(%rsp)
	movq	%rdx, 64(%rsp)
	setne	%r8b
	movl	$66, 48(%rsp)
	movq	$0, 40(%rsp)
	movb	$0, 32(%rsp)
	leaq	72(%rsp), %rcx
	leaq	56(%rsp), %rdx
	callq	ic_check.tree.check_below.ffc36cde30076884
	cmpb	$1, 72(%rsp)
	movl	$5, %eax
	jne	.LBB171_3
	cmpb	$1, 92(%rsp)
	jne	.LBB171_3
	movq	80(%rsp), %rax
	movq	%rax, (%rsi)
	xorl	%eax, %eax
.LBB171_3:
	addq	$96, %rsp
	popq	%rsi
	retq
	.def	ic_tree_clear;
	.scl	2;
	.type	32;
	.endef
	.globl	ic_tree_clear
	.p2align	4
ic_tree_clear:
	pushq	%r15
	pushq	%r14
	pushq	%r13
	pushq	%r12
	pushq	%rsi
	pushq	%rdi
	pushq	%rbp
	pushq	%rbx
	movabsq	$68719476728, %r10
	xorl	%r9d, %r9d
	testq	%rcx, %rcx
	sete	%r9b
	shll	$12, %r9d
	addq	%rcx, %r9
	movq	(%r8), %rcx
	andq	%r10, %rcx
	je	.LBB172_1
	movq	%rcx, %r11
	shrq	$3, %r11
	movl	$5, %eax
	cmpq	%rdx, %r11
	ja	.LBB172_64
	leaq	(%r11,%r11,2), %r11
	testb	$1, -24(%r9,%r11,8)
	je	.LBB172_64
	leaq	(,%rdx,8), %rax
	movl	$66, %r11d
	movq	%rcx, %rdi
	.p2align	4
.LBB172_8:
	movq	%rdi, %rsi
	shrq	$3, %rsi
	leaq	(%rsi,%rsi,2), %rsi
	movq	-24(%r9,%rsi,8), %rsi
	andq	%r10, %rsi
	leaq	-1(%rsi), %rbx
	movb	$1, %r14b
	cmpq	%rax, %rbx
	jae	.LBB172_9
	testl	%r11d, %r11d
	je	.LBB172_10
	movq	%rsi, %rdi
	shrq	$3, %rdi
	leaq	(%rdi,%rdi,2), %rdi
	movq	-24(%r9,%rdi,8), %rdi
	andq	%r10, %rdi
	leaq	-1(%rdi), %rbx
	cmpq	%rax, %rbx
	jae	.LBB172_10
	addl	$-2, %r11d
	jmp	.LBB172_8
.LBB172_1:
	xorl	%r14d, %r14d
	xorl	%esi, %esi
.LBB172_10:
	testq	%rdx, %rdx
	je	.LBB172_27
.LBB172_11:
	testq	%rcx, %rcx
	sete	%al
	movq	%rcx, %r11
	shrq	$3, %r11
	cmpq	%rdx, %r11
	setbe	%bl
	orb	%al, %bl
	cmpb	$1, %bl
	jne	.LBB172_20
	leaq	(,%rdx,8), %rdi
	movq	%rdx, %rbx
	jmp	.LBB172_13
	.p2align	4
.LBB172_25:
	xorl	%r14d, %r14d
	xorl	%esi, %esi
.LBB172_26:
	decq	%rbx
	je	.LBB172_27
.LBB172_13:
	cmpb	$1, %r14b
	jne	.LBB172_37
	movq	%rsi, %r14
	shrq	$3, %r14
	movl	$5, %eax
	cmpq	%rdx, %r14
	ja	.LBB172_64
	shlq	$3, %r14
	leaq	(%r14,%r14,2), %r14
	testb	$1, -24(%r9,%r14)
	je	.LBB172_64
	movq	-16(%r9,%r14), %rax
	andq	%r10, %rax
	leaq	-1(%rax), %r15
	cmpq	%rdi, %r15
	jae	.LBB172_24
	movl	$66, %ebp
	.p2align	4
.LBB172_18:
	movq	%rax, %rsi
	shrq	$3, %rsi
	leaq	(%rsi,%rsi,2), %rsi
	movq	-24(%r9,%rsi,8), %rsi
	andq	%r10, %rsi
	leaq	-1(%rsi), %r15
	movb	$1, %r14b
	cmpq	%rdi, %r15
	jae	.LBB172_19
	testl	%ebp, %ebp
	je	.LBB172_26
	movq	%rsi, %rax
	shrq	$3, %rax
	leaq	(%rax,%rax,2), %rax
	movq	-24(%r9,%rax,8), %rax
	andq	%r10, %rax
	leaq	-1(%rax), %r15
	cmpq	%rdi, %r15
	jae	.LBB172_26
	addl	$-2, %ebp
	jmp	.LBB172_18
	.p2align	4
.LBB172_24:
	movq	-8(%r9,%r14), %r14
	andq	%r10, %r14
	leaq	-1(%r14), %rax
	cmpq	%rdi, %rax
	jae	.LBB172_25
	movl	$-67, %eax
	.p2align	4
.LBB172_31:
	movq	%rsi, %r12
	movq	%r14, %rsi
	leaq	(%r14,%r14,2), %r15
	movq	-16(%r9,%r15), %r13
	andq	%r10, %r13
	movb	$1, %r14b
	cmpq	%r12, %r13
	jne	.LBB172_26
	testl	%eax, %eax
	je	.LBB172_26
	movq	-8(%r9,%r15), %r14
	andq	%r10, %r14
	leaq	-1(%r14), %r15
	incl	%eax
	cmpq	%rdi, %r15
	jb	.LBB172_31
	jmp	.LBB172_25
.LBB172_19:
	movq	%rax, %rsi
	jmp	.LBB172_26
.LBB172_20:
	shrq	$3, %rsi
	movl	$5, %eax
	cmpq	%rdx, %rsi
	ja	.LBB172_64
	leaq	(%rsi,%rsi,2), %rsi
	testb	$1, -24(%r9,%rsi,8)
	je	.LBB172_64
	cmpq	$1, %rdx
	jne	.LBB172_38
	xorl	%r14d, %r14d
	jmp	.LBB172_27
.LBB172_9:
	movq	%rdi, %rsi
	testq	%rdx, %rdx
	jne	.LBB172_11
.LBB172_27:
	testq	%rcx, %rcx
	je	.LBB172_62
	testb	%r14b, %r14b
	jne	.LBB172_62
	movq	%rcx, %r11
	shrq	$3, %r11
.LBB172_38:
	cmpq	%rdx, %r11
	ja	.LBB172_63
	leaq	(,%rdx,8), %rax
	movl	$66, %r11d
	.p2align	4
.LBB172_44:
	movq	%rcx, %rsi
	shrq	$3, %rsi
	leaq	(%rsi,%rsi,2), %rsi
	movq	-24(%r9,%rsi,8), %rdi
	andq	%r10, %rdi
	leaq	-1(%rdi), %rbx
	movq	%rcx, %rsi
	cmpq	%rax, %rbx
	jae	.LBB172_45
	testl	%r11d, %r11d
	je	.LBB172_41
	movq	%rdi, %rcx
	shrq	$3, %rcx
	leaq	(%rcx,%rcx,2), %rcx
	movq	-24(%r9,%rcx,8), %rcx
	andq	%r10, %rcx
	leaq	-1(%rcx), %rbx
	movq	%rdi, %rsi
	cmpq	%rax, %rbx
	jae	.LBB172_45
	addl	$-2, %r11d
	jmp	.LBB172_44
.LBB172_62:
	movl	$5, %eax
	testb	%r14b, %r14b
	je	.LBB172_63
	jmp	.LBB172_64
.LBB172_37:
	testq	%rcx, %rcx
	jne	.LBB172_38
	jmp	.LBB172_63
.LBB172_41:
	movq	%rdi, %rsi
.LBB172_45:
	testq	%rdx, %rdx
	je	.LBB172_63
	movq	%rdx, %rcx
	jmp	.LBB172_47
.LBB172_51:
	movq	%r14, %rsi
.LBB172_55:
	andb	$-2, -24(%r9,%r11)
	decq	%rcx
	je	.LBB172_63
.LBB172_47:
	movq	%rsi, %r11
	shrq	$3, %r11
	cmpq	%rdx, %r11
	ja	.LBB172_63
	shlq	$3, %r11
	leaq	(%r11,%r11,2), %r11
	movq	-16(%r9,%r11), %rbx
	andq	%r10, %rbx
	leaq	-1(%rbx), %rdi
	cmpq	%rax, %rdi
	jae	.LBB172_56
	movl	$66, %edi
	.p2align	4
.LBB172_54:
	movq	%rbx, %rsi
	shrq	$3, %rsi
	leaq	(%rsi,%rsi,2), %rsi
	movq	-24(%r9,%rsi,8), %r14
	andq	%r10, %r14
	leaq	-1(%r14), %r15
	movq	%rbx, %rsi
	cmpq	%rax, %r15
	jae	.LBB172_55
	testl	%edi, %edi
	je	.LBB172_51
	movq	%r14, %rsi
	shrq	$3, %rsi
	leaq	(%rsi,%rsi,2), %rsi
	movq	-24(%r9,%rsi,8), %rbx
	andq	%r10, %rbx
	leaq	-1(%rbx), %r15
	movq	%r14, %rsi
	cmpq	%rax, %r15
	jae	.LBB172_55
	addl	$-2, %edi
	jmp	.LBB172_54
.LBB172_56:
	movq	-8(%r9,%r11), %rbx
	andq	%r10, %rbx
	leaq	-1(%rbx), %rdi
	cmpq	%rax, %rdi
	jae	.LBB172_61
	movl	$-67, %edi
	.p2align	4
.LBB172_58:
	movq	%rsi, %r14
	movq	%rbx, %rsi
	leaq	(%rbx,%rbx,2), %rbx
	movq	-16(%r9,%rbx), %r15
	andq	%r10, %r15
	cmpq	%r14, %r15
	jne	.LBB172_55
	testl	%edi, %edi
	je	.LBB172_55
	movq	-8(%r9,%rbx), %rbx
	andq	%r10, %rbx
	leaq	-1(%rbx), %r14
	incl	%edi
	cmpq	%rax, %r14
	jb	.LBB172_58
.LBB172_61:
	andb	$-2, -24(%r9,%r11)
.LBB172_63:
	movq	$0, (%r8)
	xorl	%eax, %eax
.LBB172_64:
	popq	%rbx
	popq	%rbp
	popq	%rdi
	popq	%rsi
	popq	%r12
	popq	%r13
	popq	%r14
	popq	%r15
	retq
	.def	ic_tree_ends_insert;
	.scl	2;
	.type	32;
	.endef
	.globl	ic_tree_ends_insert
	.p2align	4
ic_tree_ends_insert:
	pushq	%r15
	pushq	%r14
	pushq	%r12
	pushq	%rsi
	pushq	%rdi
	pushq	%rbx
	subq	$56, %rsp
	movq	%rdx, %rsi
	movl	160(%rsp), %r14d
	movq	144(%rsp), %rbx
	xorl	%edi, %edi
	testq	%rcx, %rcx
	sete	%dil
	shll	$12, %edi
	addq	%rcx, %rdi
	xorl	%eax, %eax
	testq	%r8, %r8
	sete	%al
	shll	$12, %eax
	addq	%rax, %r8
	movl	%r14d, 40(%rsp)
	movq	%rbx, 32(%rsp)
	movq	%rdi, %rcx
	callq	ic_raw.search_calls.insert
	testl	%eax, %eax
	jne	.LBB173_26
	leal	1(%r14), %r9d
	incl	%r14d
	je	.LBB173_26
	movq	152(%rsp), %rcx
	leaq	(,%r9,8), %rdx
	cmpq	%r9, %rsi
	jb	.LBB173_3
	movabsq	$68719476728, %r8
	movq	(%rbx), %r10
	andq	%r8, %r10
	sete	%r11b
	shrq	$3, %r10
	cmpq	%rsi, %r10
	setbe	%r10b
	orb	%r11b, %r10b
	je	.LBB173_3
	movq	(%rcx), %r11
	andq	%r8, %r11
	shlq	$3, %r9
	leaq	(%r9,%r9,2), %r10
	shlq	$3, %rsi
	movq	-24(%rdi,%r10), %r9
	andq	%r8, %r9
	decq	%r9
	cmpq	%rsi, %r9
	jae	.LBB173_8
.LBB173_15:
	movq	%r11, %r9
	jmp	.LBB173_16
.LBB173_3:
	movq	%rdx, %r9
.LBB173_25:
	movq	%r9, (%rcx)
	movq	%rdx, 8(%rcx)
.LBB173_26:
	addq	$56, %rsp
	popq	%rbx
	popq	%rdi
	popq	%rsi
	popq	%r12
	popq	%r14
	popq	%r15
	retq
.LBB173_8:
	movq	-8(%rdi,%r10), %rbx
	andq	%r8, %rbx
	leaq	-1(%rbx), %r14
	movq	%rdx, %r9
	cmpq	%rsi, %r14
	jae	.LBB173_16
	movl	$-67, %r9d
	movq	%rdx, %r14
.LBB173_10:
	movq	%r14, %r15
	movq	%rbx, %r14
	leaq	(%rbx,%rbx,2), %rbx
	movq	-24(%rdi,%rbx), %r12
	andq	%r8, %r12
	cmpq	%r15, %r12
	jne	.LBB173_15
	testl	%r9d, %r9d
	je	.LBB173_15
	movq	-8(%rdi,%rbx), %rbx
	andq	%r8, %rbx
	leaq	-1(%rbx), %r15
	incl	%r9d
	cmpq	%rsi, %r15
	jb	.LBB173_10
	movq	%rdx, %r9
.LBB173_16:
	movq	8(%rcx), %r11
	andq	%r8, %r11
	movq	-16(%rdi,%r10), %rbx
	andq	%r8, %rbx
	decq	%rbx
	cmpq	%rsi, %rbx
	jae	.LBB173_18
.LBB173_24:
	movq	%r11, %rdx
	jmp	.LBB173_25
.LBB173_18:
	movq	-8(%rdi,%r10), %r14
	andq	%r8, %r14
	leaq	-1(%r14), %r10
	cmpq	%rsi, %r10
	jae	.LBB173_25
	movl	$-67, %r10d
	movq	%rdx, %rbx
.LBB173_20:
	movq	%rbx, %r15
	movq	%r14, %rbx
	leaq	(%r14,%r14,2), %r14
	movq	-16(%rdi,%r14), %r12
	andq	%r8, %r12
	cmpq	%r15, %r12
	jne	.LBB173_24
	testl	%r10d, %r10d
	je	.LBB173_24
	movq	-8(%rdi,%r14), %r14
	andq	%r8, %r14
	leaq	-1(%r14), %r15
	incl	%r10d
	cmpq	%rsi, %r15
	jb	.LBB173_20
	jmp	.LBB173_25
	.def	ic_tree_ends_insert_left;
	.scl	2;
	.type	32;
	.endef
	.globl	ic_tree_ends_insert_left
	.p2align	4
ic_tree_ends_insert_left:
	pushq	%rsi
	pushq	%rdi
	pushq	%rbx
	subq	$48, %rsp
	movq	%r9, %rsi
	movl	120(%rsp), %ebx
	movl	112(%rsp), %edi
	xorl	%eax, %eax
	testq	%rcx, %rcx
	sete	%al
	shll	$12, %eax
	addq	%rax, %rcx
	movl	%ebx, 40(%rsp)
	movl	%edi, 32(%rsp)
	xorl	%r9d, %r9d
	callq	ic_raw.tree_calls.insert_at
	testl	%eax, %eax
	jne	.LBB174_5
	incl	%ebx
	leaq	(,%rbx,8), %rcx
	incl	%edi
	jne	.LBB174_3
	movq	%rcx, %rdx
	jmp	.LBB174_4
.LBB174_3:
	movabsq	$68719476728, %r8
	movq	8(%rsi), %rdx
	andq	%r8, %rdx
	xorl	%r9d, %r9d
	andq	(%rsi), %r8
	sete	%r9b
	xorl	%r10d, %r10d
	testl	%ebx, %ebx
	sete	%r10b
	movl	%edi, %r11d
	shlq	$3, %r11
	cmpq	%r11, %r8
	cmovnel	%r9d, %r10d
	cmoveq	%rcx, %r8
	xorl	%ecx, %ecx
	testb	%r10b, %r10b
	cmoveq	%r8, %rcx
.LBB174_4:
	movq	%rcx, (%rsi)
	movq	%rdx, 8(%rsi)
.LBB174_5:
	addq	$48, %rsp
	popq	%rbx
	popq	%rdi
	popq	%rsi
	retq
	.def	ic_tree_ends_insert_right;
	.scl	2;
	.type	32;
	.endef
	.globl	ic_tree_ends_insert_right
	.p2align	4
ic_tree_ends_insert_right:
	pushq	%rsi
	pushq	%rdi
	pushq	%rbx
	subq	$48, %rsp
	movq	%r9, %rsi
	movl	120(%rsp), %ebx
	movl	112(%rsp), %edi
	xorl	%eax, %eax
	testq	%rcx, %rcx
	sete	%al
	shll	$12, %eax
	addq	%rax, %rcx
	movl	%ebx, 40(%rsp)
	movl	%edi, 32(%rsp)
	movb	$1, %r9b
	callq	ic_raw.tree_calls.insert_at
	testl	%eax, %eax
	jne	.LBB175_5
	incl	%ebx
	leaq	(,%rbx,8), %rcx
	incl	%edi
	jne	.LBB175_3
	movq	%rcx, %rdx
	jmp	.LBB175_4
.LBB175_3:
	movabsq	$68719476728, %r8
	xorl	%edx, %edx
	movq	8(%rsi), %r9
	andq	%r8, %r9
	sete	%dl
	andq	(%rsi), %r8
	xorl	%r10d, %r10d
	testl	%ebx, %ebx
	sete	%r10b
	movl	%edi, %r11d
	shlq	$3, %r11
	cmpq	%r11, %r9
	cmovnel	%edx, %r10d
	cmoveq	%rcx, %r9
	xorl	%edx, %edx
	testb	%r10b, %r10b
	cmoveq	%r9, %rdx
	movq	%r8, %rcx
.LBB175_4:
	movq	%rcx, (%rsi)
	movq	%rdx, 8(%rsi)
.LBB175_5:
	addq	$48, %rsp
	popq	%rbx
	popq	%rdi
	popq	%rsi
	retq
	.def	ic_tree_ends_pop_first;
	.scl	2;
	.type	32;
	.endef
	.globl	ic_tree_ends_pop_first
	.p2align	4
ic_tree_ends_pop_first:
	pushq	%r14
	pushq	%rsi
	pushq	%rdi
	pushq	%rbx
	subq	$40, %rsp
	xorl	%r10d, %r10d
	testq	%rcx, %rcx
	sete	%r11b
	movq	(%r9), %rax
	movabsq	$68719476728, %rdi
	andq	%rax, %rdi
	je	.LBB176_1
	movq	%rax, %rsi
	shrq	$3, %rsi
	movabsq	$34359738360, %rbx
	andq	%rax, %rbx
	xorl	%r14d, %r14d
	subl	$1, %esi
	cmovaeq	%rbx, %r14
	movl	$5, %eax
	cmpq	%rdi, %r14
	jne	.LBB176_5
	movb	%r11b, %r10b
	shll	$12, %r10d
	addq	%r10, %rcx
	movl	%esi, 32(%rsp)
	callq	ic_raw_keyed.ends_calls.remove
	movl	%eax, %ecx
	movl	$5, %eax
	testl	%ecx, %ecx
	jne	.LBB176_5
	movq	112(%rsp), %rax
	movl	%esi, (%rax)
	xorl	%eax, %eax
	jmp	.LBB176_5
.LBB176_1:
	movl	$4, %eax
.LBB176_5:
	addq	$40, %rsp
	popq	%rbx
	popq	%rdi
	popq	%rsi
	popq	%r14
	retq
	.def	ic_tree_ends_remove;
	.scl	2;
	.type	32;
	.endef
	.globl	ic_tree_ends_remove
	.p2align	4
ic_tree_ends_remove:
	xorl	%eax, %eax
	testq	%rcx, %rcx
	sete	%al
	shll	$12, %eax
	addq	%rax, %rcx
	jmp	ic_raw_keyed.ends_calls.remove
	.def	ic_tree_ends_replace;
	.scl	2;
	.type	32;
	.endef
	.globl	ic_tree_ends_replace
	.p2align	4
ic_tree_ends_replace:
	pushq	%rsi
	pushq	%rdi
	pushq	%rbx
	subq	$48, %rsp
	movq	%r9, %rsi
	movl	112(%rsp), %r9d
	leal	1(%r9), %edi
	movl	%r9d, %r10d
	movl	$4, %eax
	incl	%r10d
	je	.LBB178_3
	movl	120(%rsp), %ebx
	xorl	%eax, %eax
	testq	%rcx, %rcx
	sete	%al
	shll	$12, %eax
	addq	%rcx, %rax
	movl	%ebx, 32(%rsp)
	movq	%rax, %rcx
	callq	ic_raw.tree_calls.replace
	testl	%eax, %eax
	jne	.LBB178_3
	shlq	$3, %rdi
	incl	%ebx
	leaq	(,%rbx,8), %rax
	xorl	%r8d, %r8d
	testl	%ebx, %ebx
	setne	%r8b
	movabsq	$68719476728, %rcx
	xorl	%r9d, %r9d
	movq	(%rsi), %rdx
	andq	%rcx, %rdx
	setne	%r9b
	cmpq	%rdi, %rdx
	cmovel	%r8d, %r9d
	cmoveq	%rax, %rdx
	xorl	%r10d, %r10d
	andq	8(%rsi), %rcx
	setne	%r10b
	cmpq	%rdi, %rcx
	cmovel	%r8d, %r10d
	cmoveq	%rax, %rcx
	xorl	%eax, %eax
	testb	%r9b, %r9b
	cmoveq	%rax, %rdx
	testb	%r10b, %r10b
	cmoveq	%rax, %rcx
	movq	%rdx, (%rsi)
	movq	%rcx, 8(%rsi)
.LBB178_3:
	addq	$48, %rsp
	popq	%rbx
	popq	%rdi
	popq	%rsi
	retq
	.def	ic_tree_find;
	.scl	2;
	.type	32;
	.endef
	.globl	ic_tree_find
	.p2align	4
ic_tree_find:
	pushq	%r15
	pushq	%r14
	pushq	%rsi
	pushq	%rdi
	pushq	%rbx
	xorl	%r11d, %r11d
	testq	%rcx, %rcx
	sete	%dil
	xorl	%r10d, %r10d
	testq	%r8, %r8
	sete	%bl
	cmpq	%rdx, %r9
	jb	.LBB179_18
	movq	80(%rsp), %rsi
	movabsq	$68719476728, %rax
	movq	(%rsi), %rsi
	andq	%rax, %rsi
	je	.LBB179_2
	movq	%rsi, %r14
	shrq	$3, %r14
	cmpq	%rdx, %r14
	ja	.LBB179_18
	movb	%dil, %r11b
	shll	$12, %r11d
	addq	%r11, %rcx
	leaq	(%r14,%r14,2), %r11
	testb	$1, -24(%rcx,%r11,8)
	je	.LBB179_18
	movq	96(%rsp), %r9
	movq	88(%rsp), %r11
	movb	%bl, %r10b
	shll	$12, %r10d
	addq	%r10, %r8
	shlq	$3, %rdx
	movl	$22, %edi
	xorl	%r10d, %r10d
	.p2align	4
.LBB179_6:
	movq	%rsi, %rbx
	shrq	$3, %rbx
	leaq	(%rbx,%rbx,2), %rbx
	movq	-24(%rcx,%rbx,8), %r14
	cmpq	-8(%r8,%rsi), %r11
	movq	-16(%rcx,%rbx,8), %rbx
	cmovbeq	%rsi, %r10
	movq	%r14, %rsi
	cmovaq	%rbx, %rsi
	andq	%rax, %rsi
	leaq	-1(%rsi), %r15
	cmpq	%rdx, %r15
	jae	.LBB179_11
	movq	%rsi, %rbx
	shrq	$3, %rbx
	leaq	(%rbx,%rbx,2), %rbx
	movq	-24(%rcx,%rbx,8), %r14
	cmpq	-8(%r8,%rsi), %r11
	movq	-16(%rcx,%rbx,8), %rbx
	cmovbeq	%rsi, %r10
	movq	%r14, %rsi
	cmovaq	%rbx, %rsi
	andq	%rax, %rsi
	leaq	-1(%rsi), %r15
	cmpq	%rdx, %r15
	jae	.LBB179_11
	movq	%rsi, %rbx
	shrq	$3, %rbx
	leaq	(%rbx,%rbx,2), %rbx
	movq	-24(%rcx,%rbx,8), %r14
	cmpq	-8(%r8,%rsi), %r11
	movq	-16(%rcx,%rbx,8), %rbx
	cmovbeq	%rsi, %r10
	movq	%r14, %rsi
	cmovaq	%rbx, %rsi
	andq	%rax, %rsi
	leaq	-1(%rsi), %r15
	cmpq	%rdx, %r15
	jae	.LBB179_11
	decl	%edi
	jne	.LBB179_6
	movl	$5, %eax
	jmp	.LBB179_17
.LBB179_11:
	cmpq	%rsi, %r14
	jae	.LBB179_13
	movl	$5, %eax
	cmpq	%rsi, %rbx
	jb	.LBB179_17
.LBB179_13:
	movl	$4, %eax
	testq	%r10, %r10
	je	.LBB179_17
	cmpq	-8(%r8,%r10), %r11
	jne	.LBB179_17
	shrq	$3, %r10
	leaq	(%r10,%r10,2), %rdx
	movl	$5, %eax
	testb	$1, -24(%rcx,%rdx,8)
	je	.LBB179_17
	decl	%r10d
	movl	%r10d, (%r9)
	xorl	%eax, %eax
	jmp	.LBB179_17
.LBB179_2:
	movl	$4, %eax
.LBB179_17:
	popq	%rbx
	popq	%rdi
	popq	%rsi
	popq	%r14
	popq	%r15
	retq
.LBB179_18:
	movq	%rdx, %rcx
	movq	%r9, %rdx
	popq	%rbx
	popq	%rdi
	popq	%rsi
	popq	%r14
	popq	%r15
	jmp	ic_raw.search.refusal
	.def	ic_tree_insert;
	.scl	2;
	.type	32;
	.endef
	.globl	ic_tree_insert
	.p2align	4
ic_tree_insert:
	xorl	%eax, %eax
	testq	%rcx, %rcx
	sete	%al
	shll	$12, %eax
	addq	%rax, %rcx
	xorl	%eax, %eax
	testq	%r8, %r8
	sete	%al
	shll	$12, %eax
	addq	%rax, %r8
	jmp	ic_raw.search_calls.insert
	.def	ic_tree_insert_left;
	.scl	2;
	.type	32;
	.endef
	.globl	ic_tree_insert_left
	.p2align	4
ic_tree_insert_left:
	subq	$56, %rsp
	movl	96(%rsp), %eax
	xorl	%r10d, %r10d
	testq	%rcx, %rcx
	sete	%r10b
	shll	$12, %r10d
	addq	%r10, %rcx
	movl	%eax, 40(%rsp)
	movl	%r9d, 32(%rsp)
	xorl	%r9d, %r9d
	callq	ic_raw.tree_calls.insert_at
	addq	$56, %rsp
	retq
	.def	ic_tree_insert_right;
	.scl	2;
	.type	32;
	.endef
	.globl	ic_tree_insert_right
	.p2align	4
ic_tree_insert_right:
	subq	$56, %rsp
	movl	96(%rsp), %eax
	xorl	%r10d, %r10d
	testq	%rcx, %rcx
	sete	%r10b
	shll	$12, %r10d
	addq	%r10, %rcx
	movl	%eax, 40(%rsp)
	movl	%r9d, 32(%rsp)
	movb	$1, %r9b
	callq	ic_raw.tree_calls.insert_at
	addq	$56, %rsp
	retq
	.def	ic_tree_join;
	.scl	2;
	.type	32;
	.endef
	.globl	ic_tree_join
	.p2align	4
ic_tree_join:
	pushq	%r15
	pushq	%r14
	pushq	%r13
	pushq	%r12
	pushq	%rsi
	pushq	%rdi
	pushq	%rbp
	pushq	%rbx
	subq	$104, %rsp
	xorl	%r10d, %r10d
	testq	%rcx, %rcx
	sete	%r11b
	incl	%r9d
	sete	%al
	cmpq	%r9, %rdx
	setb	%bl
	orb	%al, %bl
	movl	$1, %eax
	jne	.LBB183_14
	movb	%r11b, %r10b
	shll	$12, %r10d
	addq	%r10, %rcx
	shlq	$3, %r9
	leaq	(%r9,%r9,2), %r15
	movl	-24(%rcx,%r15), %eax
	addl	%eax, %eax
	andl	$2, %eax
	jne	.LBB183_14
	movq	208(%rsp), %r14
	movq	%rcx, 64(%rsp)
	movq	%rdx, 72(%rsp)
	movabsq	$68719476728, %rdi
	movq	(%r8), %rsi
	andq	%rdi, %rsi
	andq	(%r14), %rdi
	setne	%cl
	cmpq	%rdi, %rsi
	sete	%dl
	movl	$5, %eax
	testb	%dl, %cl
	jne	.LBB183_14
	movq	%r9, %r13
	movq	%r8, %r12
	testq	%rsi, %rsi
	setne	%bl
	movl	$66, 48(%rsp)
	movq	$0, 40(%rsp)
	movb	$0, 32(%rsp)
	leaq	80(%rsp), %rcx
	leaq	64(%rsp), %rdx
	movl	%ebx, %r8d
	movq	%rsi, %r9
	callq	ic_check.tree.check_below.ffc36cde30076884
	cmpb	$1, 80(%rsp)
	jne	.LBB183_10
	testb	$1, 100(%rsp)
	je	.LBB183_10
	testq	%rdi, %rdi
	setne	%bpl
	movl	$66, 48(%rsp)
	movq	$0, 40(%rsp)
	movb	$0, 32(%rsp)
	leaq	80(%rsp), %rcx
	leaq	64(%rsp), %rdx
	movl	%ebp, %r8d
	movq	%rdi, %r9
	callq	ic_check.tree.check_below.ffc36cde30076884
	cmpb	$1, 80(%rsp)
	jne	.LBB183_10
	testb	$1, 100(%rsp)
	movl	$5, %eax
	je	.LBB183_14
	movq	64(%rsp), %rax
	testb	$1, -24(%rax,%r15)
	jne	.LBB183_12
	movq	%r13, %r9
	movq	$1, -24(%rax,%r15)
	movq	%rdi, 40(%rsp)
	movb	%bpl, 32(%rsp)
	leaq	64(%rsp), %rcx
	movl	%ebx, %edx
	movq	%rsi, %r8
	callq	ic_rbtree.join.roots.join.f4da04d8a93b4f27
	movq	%r12, %rcx
	movq	%rdx, %rsi
	xorl	%edi, %edi
	testb	%al, %al
	cmoveq	%rdi, %rsi
	jmp	.LBB183_13
.LBB183_10:
	movl	$5, %eax
	jmp	.LBB183_14
.LBB183_12:
	movq	%r12, %rcx
.LBB183_13:
	movq	%rsi, (%rcx)
	movq	%rdi, (%r14)
	xorl	%eax, %eax
.LBB183_14:
	addq	$104, %rsp
	popq	%rbx
	popq	%rbp
	popq	%rdi
	popq	%rsi
	popq	%r12
	popq	%r13
	popq	%r14
	popq	%r15
	retq
	.def	ic_tree_lower_bound;
	.scl	2;
	.type	32;
	.endef
	.globl	ic_tree_lower_bound
	.p2align	4
ic_tree_lower_bound:
	pushq	%r15
	pushq	%r14
	pushq	%rsi
	pushq	%rdi
	pushq	%rbp
	pushq	%rbx
	xorl	%edi, %edi
	testq	%rcx, %rcx
	sete	%bpl
	xorl	%r10d, %r10d
	testq	%r8, %r8
	sete	%bl
	cmpq	%rdx, %r9
	jb	.LBB184_16
	movq	88(%rsp), %rax
	movabsq	$68719476728, %r11
	movq	(%rax), %rsi
	movl	$4, %eax
	andq	%r11, %rsi
	je	.LBB184_15
	movq	%rsi, %rax
	shrq	$3, %rax
	cmpq	%rdx, %rax
	ja	.LBB184_16
	movb	%bpl, %dil
	shll	$12, %edi
	addq	%rdi, %rcx
	leaq	(%rax,%rax,2), %rax
	testb	$1, -24(%rcx,%rax,8)
	je	.LBB184_16
	movq	104(%rsp), %r9
	movq	96(%rsp), %rax
	movb	%bl, %r10b
	shll	$12, %r10d
	addq	%r10, %r8
	shlq	$3, %rdx
	movl	$22, %edi
	xorl	%r10d, %r10d
	.p2align	4
.LBB184_5:
	movq	%rsi, %rbx
	shrq	$3, %rbx
	leaq	(%rbx,%rbx,2), %rbx
	movq	-24(%rcx,%rbx,8), %r14
	cmpq	-8(%r8,%rsi), %rax
	movq	-16(%rcx,%rbx,8), %rbx
	cmovbeq	%rsi, %r10
	movq	%r14, %rsi
	cmovaq	%rbx, %rsi
	andq	%r11, %rsi
	leaq	-1(%rsi), %r15
	cmpq	%rdx, %r15
	jae	.LBB184_10
	movq	%rsi, %rbx
	shrq	$3, %rbx
	leaq	(%rbx,%rbx,2), %rbx
	movq	-24(%rcx,%rbx,8), %r14
	cmpq	-8(%r8,%rsi), %rax
	movq	-16(%rcx,%rbx,8), %rbx
	cmovbeq	%rsi, %r10
	movq	%r14, %rsi
	cmovaq	%rbx, %rsi
	andq	%r11, %rsi
	leaq	-1(%rsi), %r15
	cmpq	%rdx, %r15
	jae	.LBB184_10
	movq	%rsi, %rbx
	shrq	$3, %rbx
	leaq	(%rbx,%rbx,2), %rbx
	movq	-24(%rcx,%rbx,8), %r14
	cmpq	-8(%r8,%rsi), %rax
	movq	-16(%rcx,%rbx,8), %rbx
	cmovbeq	%rsi, %r10
	movq	%r14, %rsi
	cmovaq	%rbx, %rsi
	andq	%r11, %rsi
	leaq	-1(%rsi), %r15
	cmpq	%rdx, %r15
	jae	.LBB184_10
	decl	%edi
	jne	.LBB184_5
	movl	$5, %eax
	jmp	.LBB184_15
.LBB184_10:
	cmpq	%rsi, %r14
	jae	.LBB184_12
	movl	$5, %eax
	cmpq	%rsi, %rbx
	jb	.LBB184_15
.LBB184_12:
	movl	$4, %eax
	testq	%r10, %r10
	je	.LBB184_15
	shrq	$3, %r10
	leaq	(%r10,%r10,2), %rdx
	movl	$5, %eax
	testb	$1, -24(%rcx,%rdx,8)
	je	.LBB184_15
	decl	%r10d
	movl	%r10d, (%r9)
	xorl	%eax, %eax
.LBB184_15:
	popq	%rbx
	popq	%rbp
	popq	%rdi
	popq	%rsi
	popq	%r14
	popq	%r15
	retq
.LBB184_16:
	movq	%rdx, %rcx
	movq	%r9, %rdx
	popq	%rbx
	popq	%rbp
	popq	%rdi
	popq	%rsi
	popq	%r14
	popq	%r15
	jmp	ic_raw.search.refusal
	.def	ic_tree_next;
	.scl	2;
	.type	32;
	.endef
	.globl	ic_tree_next
	.p2align	4
ic_tree_next:
	pushq	%rsi
	pushq	%rdi
	pushq	%rbx
	subq	$48, %rsp
	movq	%rcx, %rax
	xorl	%ecx, %ecx
	testq	%rax, %rax
	sete	%cl
	shll	$12, %ecx
	addq	%rax, %rcx
	movabsq	$68719476728, %r11
	movq	(%r8), %rax
	andq	%r11, %rax
	leal	1(%r9), %esi
	movq	112(%rsp), %r10
	incl	%r9d
	jne	.LBB185_1
	movq	%r10, 32(%rsp)
	movq	%rax, %r8
	movb	$1, %r9b
	callq	ic_raw.tree.step_from_none
	jmp	.LBB185_23
.LBB185_1:
	leaq	(,%rsi,8), %r8
	cmpq	%rsi, %rdx
	jb	.LBB185_25
	shlq	$3, %rsi
	leaq	(%rsi,%rsi,2), %rdi
	testb	$1, -24(%rcx,%rdi)
	je	.LBB185_25
	leaq	(,%rdx,8), %r9
	leaq	-1(%rax), %rsi
	cmpq	%r9, %rsi
	jae	.LBB185_25
	shrq	$3, %rax
	leaq	(%rax,%rax,2), %rax
	testb	$1, -24(%rcx,%rax,8)
	je	.LBB185_25
	movq	-16(%rcx,%rdi), %rsi
	andq	%r11, %rsi
	leaq	-1(%rsi), %rax
	cmpq	%r9, %rax
	jae	.LBB185_12
	movl	$66, %r8d
	.p2align	4
.LBB185_10:
	leaq	(%rsi,%rsi,2), %rdx
	movq	-24(%rcx,%rdx), %rax
	andq	%r11, %rax
	leaq	-1(%rax), %rdi
	cmpq	%r9, %rdi
	jae	.LBB185_11
	leaq	(%rax,%rax,2), %rdx
	testl	%r8d, %r8d
	je	.LBB185_19
	movq	-24(%rcx,%rdx), %rsi
	andq	%r11, %rsi
	leaq	-1(%rsi), %rdi
	cmpq	%r9, %rdi
	jae	.LBB185_19
	addl	$-2, %r8d
	jmp	.LBB185_10
.LBB185_12:
	movq	-8(%rcx,%rdi), %rax
	andq	%r11, %rax
	leaq	-1(%rax), %rdx
	cmpq	%r9, %rdx
	jae	.LBB185_13
	movl	$-67, %esi
	.p2align	4
.LBB185_16:
	movq	%r8, %rdi
	movq	%rax, %r8
	shrq	$3, %rax
	leaq	(%r8,%r8,2), %rdx
	movq	-16(%rcx,%rdx), %rbx
	andq	%r11, %rbx
	cmpq	%rdi, %rbx
	jne	.LBB185_20
	testl	%esi, %esi
	je	.LBB185_20
	movq	-8(%rcx,%rdx), %rax
	andq	%r11, %rax
	leaq	-1(%rax), %rdx
	incl	%esi
	cmpq	%r9, %rdx
	jb	.LBB185_16
.LBB185_13:
	xorl	%ecx, %ecx
	jmp	.LBB185_14
.LBB185_19:
	shrq	$3, %rax
.LBB185_20:
	testb	$1, -24(%rcx,%rdx)
	je	.LBB185_21
.LBB185_22:
	decl	%eax
	movl	%eax, (%r10)
	xorl	%eax, %eax
.LBB185_23:
	addq	$48, %rsp
	popq	%rbx
	popq	%rdi
	popq	%rsi
	retq
.LBB185_25:
	addq	$48, %rsp
	popq	%rbx
	popq	%rdi
	popq	%rsi
	jmp	ic_raw.table.RawTable.refusal_of.19bacce014a8892a
.LBB185_11:
	shrq	$3, %rsi
	movq	%rsi, %rax
	testb	$1, -24(%rcx,%rdx)
	jne	.LBB185_22
.LBB185_21:
	movb	$1, %cl
.LBB185_14:
	addq	$48, %rsp
	popq	%rbx
	popq	%rdi
	popq	%rsi
	jmp	ic_raw.tree.nothing_found
	.def	ic_tree_prev;
	.scl	2;
	.type	32;
	.endef
	.globl	ic_tree_prev
	.p2align	4
ic_tree_prev:
	pushq	%rsi
	pushq	%rdi
	pushq	%rbx
	subq	$48, %rsp
	movq	%rcx, %rax
	xorl	%ecx, %ecx
	testq	%rax, %rax
	sete	%cl
	shll	$12, %ecx
	addq	%rax, %rcx
	movabsq	$68719476728, %r11
	movq	(%r8), %rax
	andq	%r11, %rax
	leal	1(%r9), %esi
	movq	112(%rsp), %r10
	incl	%r9d
	jne	.LBB186_1
	movq	%r10, 32(%rsp)
	movq	%rax, %r8
	xorl	%r9d, %r9d
	callq	ic_raw.tree.step_from_none
	jmp	.LBB186_23
.LBB186_1:
	leaq	(,%rsi,8), %r8
	cmpq	%rsi, %rdx
	jb	.LBB186_25
	shlq	$3, %rsi
	leaq	(%rsi,%rsi,2), %rdi
	movq	-24(%rcx,%rdi), %rsi
	testb	$1, %sil
	je	.LBB186_25
	leaq	(,%rdx,8), %r9
	leaq	-1(%rax), %rbx
	cmpq	%r9, %rbx
	jae	.LBB186_25
	shrq	$3, %rax
	leaq	(%rax,%rax,2), %rax
	testb	$1, -24(%rcx,%rax,8)
	je	.LBB186_25
	andq	%r11, %rsi
	leaq	-1(%rsi), %rax
	cmpq	%r9, %rax
	jae	.LBB186_15
	movl	$66, %edx
	.p2align	4
.LBB186_7:
	leaq	(%rsi,%rsi,2), %rax
	movq	-16(%rcx,%rax), %r8
	andq	%r11, %r8
	leaq	-1(%r8), %rdi
	cmpq	%r9, %rdi
	jae	.LBB186_8
	leaq	(%r8,%r8,2), %rax
	testl	%edx, %edx
	je	.LBB186_13
	movq	-16(%rcx,%rax), %rsi
	andq	%r11, %rsi
	leaq	-1(%rsi), %rdi
	cmpq	%r9, %rdi
	jae	.LBB186_13
	addl	$-2, %edx
	jmp	.LBB186_7
.LBB186_15:
	movq	-8(%rcx,%rdi), %rax
	andq	%r11, %rax
	leaq	-1(%rax), %rdx
	cmpq	%r9, %rdx
	jae	.LBB186_16
	movl	$-67, %edx
	.p2align	4
.LBB186_19:
	movq	%r8, %rdi
	movq	%rax, %r8
	movq	%rax, %rsi
	shrq	$3, %rsi
	leaq	(%rax,%rax,2), %rax
	movq	-24(%rcx,%rax), %rbx
	andq	%r11, %rbx
	cmpq	%rdi, %rbx
	jne	.LBB186_9
	testl	%edx, %edx
	je	.LBB186_9
	movq	-8(%rcx,%rax), %rax
	andq	%r11, %rax
	leaq	-1(%rax), %rsi
	incl	%edx
	cmpq	%r9, %rsi
	jb	.LBB186_19
.LBB186_16:
	xorl	%ecx, %ecx
	jmp	.LBB186_17
.LBB186_13:
	shrq	$3, %r8
	movq	%r8, %rsi
.LBB186_9:
	testb	$1, -24(%rcx,%rax)
	je	.LBB186_10
.LBB186_22:
	decl	%esi
	movl	%esi, (%r10)
	xorl	%eax, %eax
.LBB186_23:
	addq	$48, %rsp
	popq	%rbx
	popq	%rdi
	popq	%rsi
	retq
.LBB186_25:
	addq	$48, %rsp
	popq	%rbx
	popq	%rdi
	popq	%rsi
	jmp	ic_raw.table.RawTable.refusal_of.19bacce014a8892a
.LBB186_8:
	shrq	$3, %rsi
	testb	$1, -24(%rcx,%rax)
	jne	.LBB186_22
.LBB186_10:
	movb	$1, %cl
.LBB186_17:
	addq	$48, %rsp
	popq	%rbx
	popq	%rdi
	popq	%rsi
	jmp	ic_raw.tree.nothing_found
	.def	ic_tree_remove;
	.scl	2;
	.type	32;
	.endef
	.globl	ic_tree_remove
	.p2align	4
ic_tree_remove:
	xorl	%eax, %eax
	testq	%rcx, %rcx
	sete	%al
	shll	$12, %eax
	addq	%rax, %rcx
	jmp	ic_raw.tree_calls.remove
	.def	ic_tree_replace;
	.scl	2;
	.type	32;
	.endef
	.globl	ic_tree_replace
	.p2align	4
ic_tree_replace:
	xorl	%eax, %eax
	testq	%rcx, %rcx
	sete	%al
	shll	$12, %eax
	addq	%rax, %rcx
	jmp	ic_raw.tree_calls.replace
	.def	ic_tree_split;
	.scl	2;
	.type	32;
	.endef
	.globl	ic_tree_split
	.p2align	4
ic_tree_split:
	pushq	%r15
	pushq	%r14
	pushq	%r13
	pushq	%r12
	pushq	%rsi
	pushq	%rdi
	pushq	%rbp
	pushq	%rbx
	subq	$200, %rsp
	xorl	%r10d, %r10d
	testq	%rcx, %rcx
	sete	%r11b
	leal	1(%r9), %r12d
	movl	$4, %eax
	incl	%r9d
	je	.LBB189_4
	movl	$1, %eax
	cmpq	%r12, %rdx
	jb	.LBB189_4
	movb	%r11b, %r10b
	shll	$12, %r10d
	addq	%r10, %rcx
	leaq	(,%r12,8), %rax
	leaq	(%rax,%rax,2), %rsi
	movl	$3, %eax
	testb	$1, -24(%rcx,%rsi)
	je	.LBB189_4
	movq	304(%rsp), %r9
	movabsq	$68719476728, %r14
	movq	%rcx, 72(%rsp)
	movq	%rdx, 80(%rsp)
	movl	$5, %eax
	testq	%r14, (%r9)
	jne	.LBB189_4
	movq	%r8, 152(%rsp)
	movq	(%r8), %rdi
	andq	%r14, %rdi
	setne	%r8b
	movl	$66, 48(%rsp)
	movq	$0, 40(%rsp)
	movb	$0, 32(%rsp)
	leaq	112(%rsp), %rcx
	leaq	72(%rsp), %rdx
	movq	%rdi, %r9
	callq	ic_check.tree.check_below.ffc36cde30076884
	cmpb	$1, 112(%rsp)
	jne	.LBB189_21
	testb	$1, 132(%rsp)
	je	.LBB189_21
	shlq	$3, %r12
	movq	72(%rsp), %rdx
	movq	-8(%rdx,%rsi), %rbx
	movq	%r12, %r10
	andq	%r14, %rbx
	movq	152(%rsp), %rcx
	movl	$5, %eax
	je	.LBB189_16
	movq	80(%rsp), %r8
	xorl	%r9d, %r9d
	movq	%r12, %r11
	jmp	.LBB189_11
.LBB189_9:
	cmpq	$64, %r9
	ja	.LBB189_4
.LBB189_10:
	incq	%r9
	movq	-8(%rdx,%rbx), %rbx
	movq	%r10, %r11
	andq	%r14, %rbx
	je	.LBB189_16
.LBB189_11:
	movq	%rbx, %r10
	shrq	$3, %rbx
	cmpq	%r8, %rbx
	ja	.LBB189_4
	shlq	$3, %rbx
	leaq	(%rbx,%rbx,2), %rbx
	movq	-24(%rdx,%rbx), %r15
	testb	$1, %r15b
	je	.LBB189_4
	andq	%r14, %r15
	cmpq	%r11, %r15
	je	.LBB189_9
	movq	-16(%rdx,%rbx), %r15
	andq	%r14, %r15
	cmpq	%r11, %r15
	jne	.LBB189_4
	cmpq	$65, %r9
	jb	.LBB189_10
	jmp	.LBB189_4
.LBB189_21:
	movl	$5, %eax
	jmp	.LBB189_4
.LBB189_16:
	cmpq	%r10, %rdi
	jne	.LBB189_4
	xorl	%edi, %edi
	movq	-24(%rdx,%rsi), %rax
	andq	%r14, %rax
	je	.LBB189_22
.LBB189_18:
	movq	%rax, %r12
	shrq	$3, %rax
	leaq	(%rax,%rax,2), %rax
	movq	-16(%rdx,%rax,8), %rax
	andq	%r14, %rax
	jne	.LBB189_18
	movb	$1, %al
	jmp	.LBB189_23
.LBB189_22:
	xorl	%eax, %eax
.LBB189_23:
	movb	$1, %bl
	movl	$67, %ebp
	xorl	%r11d, %r11d
	movl	$0, 64(%rsp)
	movq	$0, 144(%rsp)
	movq	$0, 136(%rsp)
	movl	$0, 68(%rsp)
	xorl	%r10d, %r10d
	jmp	.LBB189_27
.LBB189_24:
	leaq	112(%rsp), %rax
	movq	%rax, 40(%rsp)
	movq	%r12, 32(%rsp)
	leaq	88(%rsp), %rcx
	leaq	72(%rsp), %rdx
	leaq	160(%rsp), %r8
	xorl	%r9d, %r9d
.LBB189_25:
	callq	ic_rbtree.join.roots.join_higher.f4da04d8a93b4f27
	movzbl	88(%rsp), %r11d
	movq	96(%rsp), %r10
	movl	104(%rsp), %eax
	movl	%eax, 68(%rsp)
	movq	152(%rsp), %rcx
.LBB189_26:
	andl	$1, %r15d
	addl	%edi, %r15d
	movl	%r15d, %edi
	movl	%r13d, %eax
	movq	%rsi, %r12
	decl	%ebp
	je	.LBB189_40
.LBB189_27:
	testb	$1, %bl
	je	.LBB189_40
	movq	72(%rsp), %r8
	movq	%r12, %rcx
	shrq	$3, %rcx
	leaq	(%rcx,%rcx,2), %rcx
	movq	-8(%r8,%rcx,8), %r15
	movq	%r15, %rsi
	andq	%r14, %rsi
	setne	%bl
	je	.LBB189_30
	movq	%rsi, %rdx
	shrq	$3, %rdx
	leaq	(%rdx,%rdx,2), %rdx
	movq	-24(%r8,%rdx,8), %rdx
	andq	%r14, %rdx
	cmpq	%r12, %rdx
	setne	%r13b
	jmp	.LBB189_31
.LBB189_30:
	xorl	%r13d, %r13d
.LBB189_31:
	leaq	(%r8,%rcx,8), %rcx
	xorl	%edx, %edx
	testb	%al, %al
	sete	%dl
	movq	-24(%rcx,%rdx,8), %rdx
	movl	%edi, %ecx
	andq	%r14, %rdx
	je	.LBB189_33
	leaq	(%rdx,%rdx,2), %rcx
	movq	-8(%r8,%rcx), %r9
	andl	$1, %r9d
	movq	%r9, -8(%r8,%rcx)
	movq	72(%rsp), %r8
	orq	$1, -8(%r8,%rcx)
	movl	%edi, %ecx
	subl	%r9d, %ecx
	incl	%ecx
.LBB189_33:
	xorl	%r8d, %r8d
	testq	%rdx, %rdx
	setne	%r8b
	testb	%al, %al
	je	.LBB189_36
	movzbl	%r11b, %eax
	movq	$0, 128(%rsp)
	movq	%r8, 112(%rsp)
	movq	%rdx, 120(%rsp)
	movl	%ecx, 128(%rsp)
	movq	$0, 176(%rsp)
	movq	%rax, 160(%rsp)
	movq	%r10, 168(%rsp)
	movl	68(%rsp), %eax
	movl	%eax, 176(%rsp)
	movq	$0, 88(%rsp)
	movq	$0, 96(%rsp)
	movq	$0, 104(%rsp)
	cmpl	%ecx, %eax
	ja	.LBB189_24
	leaq	160(%rsp), %rax
	movq	%rax, 40(%rsp)
	movq	%r12, 32(%rsp)
	leaq	88(%rsp), %rcx
	leaq	72(%rsp), %rdx
	leaq	112(%rsp), %r8
	movb	$1, %r9b
	jmp	.LBB189_25
.LBB189_36:
	movq	%r11, 184(%rsp)
	movq	%r10, 192(%rsp)
	movzbl	136(%rsp), %eax
	movq	$0, 128(%rsp)
	movq	%rax, 112(%rsp)
	movq	144(%rsp), %rax
	movq	%rax, 120(%rsp)
	movl	64(%rsp), %eax
	movl	%eax, 128(%rsp)
	movq	$0, 176(%rsp)
	movq	%r8, 160(%rsp)
	movq	%rdx, 168(%rsp)
	movl	%ecx, 176(%rsp)
	movq	$0, 88(%rsp)
	movq	$0, 96(%rsp)
	movq	$0, 104(%rsp)
	cmpl	%eax, %ecx
	jbe	.LBB189_38
	leaq	112(%rsp), %rax
	movq	%rax, 40(%rsp)
	movq	%r12, 32(%rsp)
	leaq	88(%rsp), %rcx
	leaq	72(%rsp), %rdx
	leaq	160(%rsp), %r8
	xorl	%r9d, %r9d
	jmp	.LBB189_39
.LBB189_38:
	leaq	160(%rsp), %rax
	movq	%rax, 40(%rsp)
	movq	%r12, 32(%rsp)
	leaq	88(%rsp), %rcx
	leaq	72(%rsp), %rdx
	leaq	112(%rsp), %r8
	movb	$1, %r9b
.LBB189_39:
	callq	ic_rbtree.join.roots.join_higher.f4da04d8a93b4f27
	movzbl	88(%rsp), %eax
	movq	%rax, 136(%rsp)
	movq	96(%rsp), %rax
	movq	%rax, 144(%rsp)
	movl	104(%rsp), %eax
	movl	%eax, 64(%rsp)
	movq	152(%rsp), %rcx
	movq	192(%rsp), %r10
	movq	184(%rsp), %r11
	jmp	.LBB189_26
.LBB189_40:
	xorl	%eax, %eax
	testb	%r11b, %r11b
	cmoveq	%rax, %r10
	cmpb	$0, 136(%rsp)
	movq	144(%rsp), %rdx
	cmoveq	%rax, %rdx
	movq	%r10, (%rcx)
	movq	304(%rsp), %rcx
	movq	%rdx, (%rcx)
.LBB189_4:
	addq	$200, %rsp
	popq	%rbx
	popq	%rbp
	popq	%rdi
	popq	%rsi
	popq	%r12
	popq	%r13
	popq	%r14
	popq	%r15
	retq
	.def	ic_tree_sums_before;
	.scl	2;
	.type	32;
	.endef
	.globl	ic_tree_sums_before
	.p2align	4
ic_tree_sums_before:
	pushq	%r15
	pushq	%r14
	pushq	%r13
	pushq	%r12
	pushq	%rsi
	pushq	%rdi
	pushq	%rbx
	subq	$48, %rsp
	movq	%r8, %r10
	movl	152(%rsp), %r8d
	xorl	%r11d, %r11d
	testq	%rcx, %rcx
	sete	%r11b
	shll	$12, %r11d
	addq	%rcx, %r11
	xorl	%esi, %esi
	testq	%r10, %r10
	sete	%bl
	leal	1(%r8), %ecx
	movl	%r8d, %edi
	movq	%r11, 32(%rsp)
	movq	%rdx, 40(%rsp)
	movl	$4, %eax
	incl	%edi
	je	.LBB190_26
	cmpq	%rdx, %r9
	jb	.LBB190_27
	cmpq	%rcx, %rdx
	jb	.LBB190_27
	leaq	(%rcx,%rcx,2), %rax
	movq	-24(%r11,%rax,8), %rdi
	testb	$1, %dil
	je	.LBB190_27
	movb	%bl, %sil
	shll	$12, %esi
	addq	%rsi, %r10
	movabsq	$68719476728, %rax
	andq	%rax, %rdi
	shlq	$3, %rdx
	leaq	-1(%rdi), %rsi
	cmpq	%rdx, %rsi
	jae	.LBB190_8
	shrq	$3, %rdi
	decq	%rdi
	cmpq	%r9, %rdi
	jae	.LBB190_8
	shlq	$4, %rdi
	movq	8(%r10,%rdi), %r14
	jmp	.LBB190_9
.LBB190_8:
	xorl	%r14d, %r14d
.LBB190_9:
	shlq	$3, %rcx
	movq	160(%rsp), %rsi
	movl	144(%rsp), %edi
	movl	$67, %ebx
	jmp	.LBB190_12
	.p2align	4
.LBB190_23:
	xorl	%r14d, %r14d
	testl	%edi, %edi
	je	.LBB190_24
.LBB190_10:
	cmpq	%r15, %r14
	cmovaq	%r14, %r15
	movq	%r15, %r14
.LBB190_11:
	decl	%ebx
	je	.LBB190_27
.LBB190_12:
	movq	%rcx, %r15
	shrq	$3, %rcx
	leaq	(%rcx,%rcx,2), %rcx
	movq	-8(%r11,%rcx,8), %rcx
	andq	%rax, %rcx
	leaq	-1(%rcx), %r12
	cmpq	%rdx, %r12
	jae	.LBB190_25
	leaq	(%rcx,%rcx,2), %r12
	movq	-16(%r11,%r12), %r13
	andq	%rax, %r13
	cmpq	%r15, %r13
	jne	.LBB190_11
	movq	%rcx, %r15
	shrq	$3, %r15
	decq	%r15
	cmpq	%r9, %r15
	jae	.LBB190_17
	shlq	$4, %r15
	movq	(%r10,%r15), %r15
	testl	%edi, %edi
	je	.LBB190_18
.LBB190_16:
	cmpq	%r14, %r15
	cmovaq	%r15, %r14
	movq	%r14, %r15
	jmp	.LBB190_19
	.p2align	4
.LBB190_17:
	xorl	%r15d, %r15d
	testl	%edi, %edi
	jne	.LBB190_16
.LBB190_18:
	addq	%r15, %r14
	movq	$-1, %r15
	cmovaeq	%r14, %r15
.LBB190_19:
	movq	-24(%r11,%r12), %r14
	andq	%rax, %r14
	leaq	-1(%r14), %r12
	cmpq	%rdx, %r12
	jae	.LBB190_23
	shrq	$3, %r14
	decq	%r14
	cmpq	%r9, %r14
	jae	.LBB190_23
	shlq	$4, %r14
	movq	8(%r10,%r14), %r14
	testl	%edi, %edi
	jne	.LBB190_10
.LBB190_24:
	addq	%r14, %r15
	movq	$-1, %r14
	cmovaeq	%r15, %r14
	jmp	.LBB190_11
.LBB190_25:
	movq	%r14, (%rsi)
	xorl	%eax, %eax
.LBB190_26:
	addq	$48, %rsp
	popq	%rbx
	popq	%rdi
	popq	%rsi
	popq	%r12
	popq	%r13
	popq	%r14
	popq	%r15
	retq
.LBB190_27:
	leaq	32(%rsp), %rcx
	movq	%r9, %rdx
	callq	ic_raw_augmented.sum_calls.refusal
	jmp	.LBB190_26
	.def	ic_tree_sums_find;
	.scl	2;
	.type	32;
	.endef
	.globl	ic_tree_sums_find
	.p2align	4
ic_tree_sums_find:
	pushq	%r15
	pushq	%r14
	pushq	%rsi
	pushq	%rdi
	pushq	%rbp
	pushq	%rbx
	subq	$120, %rsp
	movq	%r9, %rsi
	movq	%rdx, %rbx
	movl	224(%rsp), %edi
	movq	216(%rsp), %r9
	xorl	%r14d, %r14d
	testq	%rcx, %rcx
	sete	%r14b
	shll	$12, %r14d
	addq	%rcx, %r14
	xorl	%edx, %edx
	testq	%r8, %r8
	sete	%r10b
	cmpl	$0, 208(%rsp)
	setne	%al
	movabsq	$68719476728, %rcx
	andq	(%r9), %rcx
	movq	%r14, 80(%rsp)
	movq	%rbx, 88(%rsp)
	movq	$0, 112(%rsp)
	movq	$0, 104(%rsp)
	movq	$0, 96(%rsp)
	setne	%r9b
	movl	%edi, %r11d
	incl	%r11d
	setne	%bpl
	cmpq	%rbx, %rsi
	jb	.LBB191_7
	testq	%r11, %r11
	je	.LBB191_4
	cmpq	%r11, %rbx
	jb	.LBB191_7
	leaq	(%r11,%r11,2), %r15
	testb	$1, -24(%r14,%r15,8)
	je	.LBB191_7
.LBB191_4:
	testq	%rcx, %rcx
	je	.LBB191_8
	movq	%rcx, %r15
	shrq	$3, %r15
	cmpq	%rbx, %r15
	ja	.LBB191_7
	leaq	(%r15,%r15,2), %r15
	testb	$1, -24(%r14,%r15,8)
	je	.LBB191_7
.LBB191_8:
	movq	232(%rsp), %r15
	movb	%r10b, %dl
	shll	$12, %edx
	addq	%rdx, %r8
	shlq	$3, %r11
	movq	%r15, 72(%rsp)
	movq	%r11, 64(%rsp)
	movb	%bpl, 56(%rsp)
	movq	%rcx, 48(%rsp)
	movb	%r9b, 40(%rsp)
	movb	%al, 32(%rsp)
	leaq	96(%rsp), %rcx
	leaq	80(%rsp), %rdx
	movq	%rsi, %r9
	callq	ic_raw_augmented.find.find
	cmpb	$1, 96(%rsp)
	jne	.LBB191_7
	movl	$4, %eax
	cmpb	$1, 104(%rsp)
	jne	.LBB191_13
	movq	112(%rsp), %rax
	shrq	$3, %rax
	cmpq	%rbx, %rax
	ja	.LBB191_7
	leaq	(%rax,%rax,2), %rcx
	testb	$1, -24(%r14,%rcx,8)
	je	.LBB191_7
	movq	240(%rsp), %rcx
	decl	%eax
	movl	%eax, (%rcx)
	xorl	%eax, %eax
	jmp	.LBB191_13
.LBB191_7:
	leaq	80(%rsp), %rcx
	movq	%rsi, %rdx
	movl	%edi, %r8d
	callq	ic_raw_augmented.sum_calls.refusal
.LBB191_13:
	addq	$120, %rsp
	popq	%rbx
	popq	%rbp
	popq	%rdi
	popq	%rsi
	popq	%r14
	popq	%r15
	retq
	.def	ic_tree_sums_insert;
	.scl	2;
	.type	32;
	.endef
	.globl	ic_tree_sums_insert
	.p2align	4
ic_tree_sums_insert:
	pushq	%r15
	pushq	%r14
	pushq	%r13
	pushq	%r12
	pushq	%rsi
	pushq	%rdi
	pushq	%rbp
	pushq	%rbx
	subq	$232, %rsp
	movq	%r8, %rax
	movq	336(%rsp), %r8
	xorl	%r11d, %r11d
	testq	%rcx, %rcx
	sete	%dil
	xorl	%r14d, %r14d
	testq	%rax, %rax
	sete	%r12b
	xorl	%r10d, %r10d
	testq	%r8, %r8
	sete	%bl
	cmpl	$0, 352(%rsp)
	setne	%sil
	movl	$1, %ebp
	cmpq	%rdx, 344(%rsp)
	jb	.LBB192_23
	movb	%sil, 63(%rsp)
	movl	368(%rsp), %r15d
	movq	360(%rsp), %rsi
	movb	%dil, %r11b
	shll	$12, %r11d
	addq	%r11, %rcx
	movb	%bl, %r10b
	shll	$12, %r10d
	addq	%r10, %r8
	movq	%r8, 80(%rsp)
	movabsq	$68719476728, %rbx
	leal	1(%r15), %r11d
	leaq	(,%r11,8), %rdi
	xorl	%r8d, %r8d
	testl	%r11d, %r11d
	setne	%r8b
	movq	%rdi, 72(%rsp)
	movq	%rdi, 104(%rsp)
	movq	$0, 112(%rsp)
	movq	$0, 120(%rsp)
	movq	$0, 128(%rsp)
	movq	$0, 136(%rsp)
	movq	$0, 144(%rsp)
	movq	$0, 152(%rsp)
	movq	$0, 160(%rsp)
	movq	$0, 168(%rsp)
	movq	$0, 176(%rsp)
	movq	$0, 184(%rsp)
	movq	$0, 192(%rsp)
	movq	$0, 200(%rsp)
	movq	$0, 208(%rsp)
	movq	%r8, 216(%rsp)
	movq	$0, 224(%rsp)
	movq	%rcx, 88(%rsp)
	movq	%rdx, 96(%rsp)
	movq	(%rsi), %r13
	andq	%rbx, %r13
	movq	%r13, 64(%rsp)
	cmpq	%rdx, %r9
	jb	.LBB192_20
	testq	%r13, %r13
	je	.LBB192_8
	movq	%r13, %r10
	shrq	$3, %r10
	cmpq	%rdx, %r10
	ja	.LBB192_20
	testq	%r11, %r11
	je	.LBB192_20
	cmpq	%r11, %rdx
	jb	.LBB192_20
	leaq	(%r10,%r10,2), %r8
	movq	-24(%rcx,%r8,8), %r8
	andl	$1, %r8d
	je	.LBB192_20
	movb	%r12b, %r14b
	shll	$12, %r14d
	addq	%r14, %rax
	leaq	(,%r11,8), %r8
	movq	-8(%rax,%r8), %r14
	leaq	(,%rdx,8), %r12
	movl	$22, %ebp
	.p2align	4
.LBB192_12:
	movq	%r13, %r8
	shrq	$3, %r8
	leaq	(%r8,%r8,2), %r8
	movq	-24(%rcx,%r8,8), %r10
	movq	-16(%rcx,%r8,8), %r15
	movq	-8(%rax,%r13), %r8
	cmpq	%r8, %r14
	movq	%r10, %rdi
	cmovaeq	%r15, %rdi
	andq	%rbx, %rdi
	leaq	-1(%rdi), %rsi
	cmpq	%r12, %rsi
	jae	.LBB192_24
	movq	%rdi, %r8
	shrq	$3, %r8
	leaq	(%r8,%r8,2), %r8
	movq	-24(%rcx,%r8,8), %r10
	movq	-16(%rcx,%r8,8), %r13
	movq	-8(%rax,%rdi), %r8
	cmpq	%r8, %r14
	movq	%r10, %r15
	cmovaeq	%r13, %r15
	andq	%rbx, %r15
	leaq	-1(%r15), %rsi
	cmpq	%r12, %rsi
	jae	.LBB192_25
	movq	%r15, %r8
	shrq	$3, %r8
	leaq	(%r8,%r8,2), %r8
	movq	-24(%rcx,%r8,8), %r10
	movq	-16(%rcx,%r8,8), %rdi
	movq	-8(%rax,%r15), %r8
	cmpq	%r8, %r14
	movq	%r10, %r13
	cmovaeq	%rdi, %r13
	andq	%rbx, %r13
	leaq	-1(%r13), %rsi
	cmpq	%r12, %rsi
	jae	.LBB192_15
	decl	%ebp
	jne	.LBB192_12
	jmp	.LBB192_20
.LBB192_8:
	testq	%r11, %r11
	je	.LBB192_20
	cmpq	%r11, %rdx
	jb	.LBB192_20
	xorl	%eax, %eax
	xorl	%r12d, %r12d
	jmp	.LBB192_19
.LBB192_24:
	cmpq	%r8, %r14
	setae	%al
	cmpq	%rdi, %r10
	setae	%r8b
	cmpq	%rdi, %r15
	setae	%bl
	xorl	%r12d, %r12d
	orb	%r8b, %bl
	cmovneq	%r13, %r12
	jmp	.LBB192_16
.LBB192_25:
	cmpq	%r8, %r14
	setae	%al
	cmpq	%r15, %r10
	setae	%r8b
	cmpq	%r15, %r13
	setae	%bl
	xorl	%r12d, %r12d
	orb	%r8b, %bl
	cmovneq	%rdi, %r12
	jmp	.LBB192_16
.LBB192_15:
	cmpq	%r8, %r14
	setae	%al
	cmpq	%r13, %r10
	setae	%r8b
	cmpq	%r13, %rdi
	setae	%bl
	xorl	%r12d, %r12d
	orb	%r8b, %bl
	cmovneq	%r15, %r12
.LBB192_16:
	andb	%bl, %al
	testb	%bl, %bl
	je	.LBB192_20
	testq	%r12, %r12
	je	.LBB192_20
	movq	%r12, %r8
	shrq	$3, %r8
	leaq	(%r8,%r8,2), %r8
	testb	$1, -24(%rcx,%r8,8)
	je	.LBB192_20
.LBB192_19:
	leaq	(%r11,%r11,2), %r8
	testb	$1, -24(%rcx,%r8,8)
	jne	.LBB192_20
	movq	%rdx, %rbx
	movq	%rcx, %r14
	leaq	(%rcx,%r8,8), %rcx
	testq	%r12, %r12
	setne	%r9b
	movq	$1, -24(%rcx)
	movq	$0, -16(%rcx)
	movq	$0, -8(%rcx)
	movq	72(%rsp), %rcx
	movq	%rcx, 48(%rsp)
	movb	%al, 40(%rsp)
	movq	%r12, 32(%rsp)
	leaq	104(%rsp), %rcx
	leaq	88(%rsp), %rdx
	leaq	64(%rsp), %r8
	callq	ic_raw_augmented.noting.WrittenSurgery.attach
	movq	64(%rsp), %rax
	movq	360(%rsp), %rcx
	movq	%rax, (%rcx)
	xorl	%ebp, %ebp
	jmp	.LBB192_22
.LBB192_20:
	movq	%rcx, %r14
	movq	%rdx, %rbx
	leaq	88(%rsp), %rcx
	movq	%r9, %rdx
	movl	368(%rsp), %r8d
	callq	ic_raw.search.refusal_of
	movl	%eax, %ebp
.LBB192_22:
	movl	%ebp, 48(%rsp)
	leaq	104(%rsp), %rax
	movq	%rax, 40(%rsp)
	movzbl	63(%rsp), %eax
	movb	%al, 32(%rsp)
	movq	%r14, %rcx
	movq	%rbx, %rdx
	movq	80(%rsp), %r8
	movq	344(%rsp), %r9
	callq	ic_raw_augmented.edit_calls.settle
.LBB192_23:
	movl	%ebp, %eax
	addq	$232, %rsp
	popq	%rbx
	popq	%rbp
	popq	%rdi
	popq	%rsi
	popq	%r12
	popq	%r13
	popq	%r14
	popq	%r15
	retq
	.def	ic_tree_sums_insert_left;
	.scl	2;
	.type	32;
	.endef
	.globl	ic_tree_sums_insert_left
	.p2align	4
ic_tree_sums_insert_left:
	pushq	%rsi
	subq	$80, %rsp
	movq	136(%rsp), %rax
	movl	144(%rsp), %r10d
	movl	152(%rsp), %r11d
	xorl	%esi, %esi
	testq	%rcx, %rcx
	sete	%sil
	shll	$12, %esi
	addq	%rsi, %rcx
	xorl	%esi, %esi
	testq	%r8, %r8
	sete	%sil
	shll	$12, %esi
	addq	%rsi, %r8
	cmpl	$0, 128(%rsp)
	movl	%r11d, 64(%rsp)
	movl	%r10d, 56(%rsp)
	movq	%rax, 40(%rsp)
	setne	32(%rsp)
	movb	$0, 48(%rsp)
	callq	ic_raw_augmented.edit_calls.insert_at
	addq	$80, %rsp
	popq	%rsi
	retq
	.def	ic_tree_sums_insert_right;
	.scl	2;
	.type	32;
	.endef
	.globl	ic_tree_sums_insert_right
	.p2align	4
ic_tree_sums_insert_right:
	pushq	%rsi
	subq	$80, %rsp
	movq	136(%rsp), %rax
	movl	144(%rsp), %r10d
	movl	152(%rsp), %r11d
	xorl	%esi, %esi
	testq	%rcx, %rcx
	sete	%sil
	shll	$12, %esi
	addq	%rsi, %rcx
	xorl	%esi, %esi
	testq	%r8, %r8
	sete	%sil
	shll	$12, %esi
	addq	%rsi, %r8
	cmpl	$0, 128(%rsp)
	movl	%r11d, 64(%rsp)
	movl	%r10d, 56(%rsp)
	movq	%rax, 40(%rsp)
	setne	32(%rsp)
	movb	$1, 48(%rsp)
	callq	ic_raw_augmented.edit_calls.insert_at
	addq	$80, %rsp
	popq	%rsi
	retq
	.def	ic_tree_sums_overlap;
	.scl	2;
	.type	32;
	.endef
	.globl	ic_tree_sums_overlap
	.p2align	4
ic_tree_sums_overlap:
	pushq	%r15
	pushq	%r14
	pushq	%r13
	pushq	%r12
	pushq	%rsi
	pushq	%rdi
	pushq	%rbp
	pushq	%rbx
	subq	$120, %rsp
	movq	%r9, %rdi
	movq	%r8, %r15
	movq	%rdx, %r14
	movl	248(%rsp), %r9d
	movq	240(%rsp), %rax
	movq	224(%rsp), %r8
	xorl	%r12d, %r12d
	testq	%rcx, %rcx
	sete	%r12b
	shll	$12, %r12d
	addq	%rcx, %r12
	xorl	%r13d, %r13d
	testq	%r15, %r15
	sete	%bpl
	xorl	%edx, %edx
	testq	%r8, %r8
	sete	%r11b
	movabsq	$68719476728, %rsi
	andq	(%rax), %rsi
	movq	232(%rsp), %rbx
	movq	%r12, 80(%rsp)
	movq	%r14, 88(%rsp)
	setne	%cl
	incl	%r9d
	setne	%r10b
	cmpq	%r14, %rdi
	jb	.LBB195_1
	cmpq	%r14, %rbx
	jb	.LBB195_1
	testq	%r9, %r9
	je	.LBB195_6
	cmpq	%r9, %r14
	jb	.LBB195_1
	leaq	(%r9,%r9,2), %rax
	testb	$1, -24(%r12,%rax,8)
	je	.LBB195_1
.LBB195_6:
	testq	%rsi, %rsi
	je	.LBB195_9
	movq	%rsi, %rax
	shrq	$3, %rax
	cmpq	%r14, %rax
	ja	.LBB195_1
	leaq	(%rax,%rax,2), %rax
	testb	$1, -24(%r12,%rax,8)
	je	.LBB195_1
.LBB195_9:
	movq	256(%rsp), %rax
	movb	%r11b, %dl
	shll	$12, %edx
	addq	%rdx, %r8
	shlq	$3, %r9
	movq	$0, 112(%rsp)
	movq	$0, 104(%rsp)
	movq	$0, 96(%rsp)
	movq	%rax, 72(%rsp)
	movq	%r9, 64(%rsp)
	movb	%r10b, 56(%rsp)
	movq	%rsi, 48(%rsp)
	movb	%cl, 40(%rsp)
	movb	$1, 32(%rsp)
	leaq	96(%rsp), %rcx
	leaq	80(%rsp), %rdx
	movq	%rbx, %r9
	callq	ic_raw_augmented.find.find
	cmpb	$1, 96(%rsp)
	jne	.LBB195_1
	cmpb	$1, 104(%rsp)
	jne	.LBB195_12
	movq	264(%rsp), %rcx
	movb	%bpl, %r13b
	shll	$12, %r13d
	addq	%r13, %r15
	movq	112(%rsp), %rax
	cmpq	%rcx, -8(%r15,%rax)
	jae	.LBB195_12
	shrq	$3, %rax
	cmpq	%r14, %rax
	ja	.LBB195_1
	leaq	(%rax,%rax,2), %rcx
	testb	$1, -24(%r12,%rcx,8)
	je	.LBB195_1
	movq	272(%rsp), %rcx
	decl	%eax
	movl	%eax, (%rcx)
	xorl	%eax, %eax
	jmp	.LBB195_16
.LBB195_12:
	movl	$4, %eax
	jmp	.LBB195_16
.LBB195_1:
	leaq	80(%rsp), %rcx
	movq	%rdi, %rdx
	movq	%rbx, %r8
	movl	248(%rsp), %r9d
	callq	ic_raw_augmented.sum_calls.refusal_of_starts
.LBB195_16:
	addq	$120, %rsp
	popq	%rbx
	popq	%rbp
	popq	%rdi
	popq	%rsi
	popq	%r12
	popq	%r13
	popq	%r14
	popq	%r15
	retq
	.def	ic_tree_sums_remove;
	.scl	2;
	.type	32;
	.endef
	.globl	ic_tree_sums_remove
	.p2align	4
ic_tree_sums_remove:
	pushq	%r15
	pushq	%r14
	pushq	%r13
	pushq	%r12
	pushq	%rsi
	pushq	%rdi
	pushq	%rbp
	pushq	%rbx
	subq	$280, %rsp
	xorl	%r11d, %r11d
	testq	%rcx, %rcx
	sete	%dil
	xorl	%r10d, %r10d
	testq	%r8, %r8
	sete	%bl
	cmpl	$0, 384(%rsp)
	setne	%bpl
	movl	$1, %esi
	movq	%r9, 272(%rsp)
	movq	%rdx, 232(%rsp)
	cmpq	%rdx, %r9
	jb	.LBB196_230
	movl	400(%rsp), %eax
	movb	%dil, %r11b
	shll	$12, %r11d
	addq	%r11, %rcx
	movb	%bl, %r10b
	shll	$12, %r10d
	addq	%r10, %r8
	leal	1(%rax), %r12d
	movl	%eax, %r10d
	movq	$0, 208(%rsp)
	movq	$0, 200(%rsp)
	movq	$0, 192(%rsp)
	movq	$0, 184(%rsp)
	movq	$0, 176(%rsp)
	movq	$0, 168(%rsp)
	movq	$0, 160(%rsp)
	movq	$0, 152(%rsp)
	movq	$0, 144(%rsp)
	movq	$0, 136(%rsp)
	movq	$0, 128(%rsp)
	movq	$0, 120(%rsp)
	movq	$0, 112(%rsp)
	movq	$0, 104(%rsp)
	movq	$0, 96(%rsp)
	movq	$0, 88(%rsp)
	movl	$4, %esi
	incl	%r10d
	je	.LBB196_229
	cmpq	%r12, 232(%rsp)
	jb	.LBB196_19
	shlq	$3, %r12
	leaq	(%r12,%r12,2), %rbx
	movq	-24(%rcx,%rbx), %r10
	testb	$1, %r10b
	je	.LBB196_19
	movq	392(%rsp), %r11
	movabsq	$68719476728, %r14
	movq	(%r11), %r13
	andq	%r14, %r13
	movq	232(%rsp), %rdx
	leaq	(,%rdx,8), %r15
	leaq	-1(%r13), %r11
	cmpq	%r15, %r11
	jae	.LBB196_19
	movq	%r13, %r11
	shrq	$3, %r11
	leaq	(%r11,%r11,2), %r11
	testb	$1, -24(%rcx,%r11,8)
	je	.LBB196_19
	movq	-8(%rcx,%rbx), %r9
	movq	%r9, %rdi
	andq	%r14, %rdi
	cmpq	%r12, %r13
	je	.LBB196_8
	testq	%rdi, %rdi
	je	.LBB196_19
.LBB196_8:
	andq	%r14, %r10
	leaq	-1(%r10), %rsi
	movq	-16(%rcx,%rbx), %rax
	andq	%r14, %rax
	cmpq	%r15, %rsi
	movq	%rbx, 264(%rsp)
	movb	%bpl, 87(%rsp)
	jae	.LBB196_15
	leaq	-1(%rax), %rsi
	cmpq	%r15, %rsi
	jae	.LBB196_16
	movq	%r13, 72(%rsp)
	movl	$66, %r10d
	.p2align	4
.LBB196_11:
	leaq	(%rax,%rax,2), %r13
	movq	-24(%rcx,%r13), %rsi
	andq	%r14, %rsi
	leaq	-1(%rsi), %r11
	cmpq	%r15, %r11
	jae	.LBB196_25
	leaq	(%rsi,%rsi,2), %r13
	testl	%r10d, %r10d
	je	.LBB196_26
	movq	-24(%rcx,%r13), %rax
	andq	%r14, %rax
	leaq	-1(%rax), %r11
	cmpq	%r15, %r11
	jae	.LBB196_27
	addl	$-2, %r10d
	jmp	.LBB196_11
.LBB196_15:
	xorl	%r10d, %r10d
	cmpq	%r15, %rax
	cmovbeq	%rax, %r10
.LBB196_16:
	xorl	%eax, %eax
	cmpq	%r15, %rdi
	cmovaq	%rax, %rdi
	testq	%rdi, %rdi
	setne	%dl
	je	.LBB196_20
	movq	%r15, %r11
	movq	%r13, %r15
	leaq	(%rdi,%rdi,2), %rax
	movq	-24(%rcx,%rax), %rsi
	movq	%rsi, %rbx
	andq	%r14, %rbx
	xorl	%r13d, %r13d
	movq	%r11, 72(%rsp)
	cmpq	%r11, %rbx
	cmovbeq	%rbx, %r13
	movq	%rdi, 88(%rsp)
	movq	$1, 200(%rsp)
	cmpq	%r12, %r13
	jne	.LBB196_22
	andl	$1, %esi
	addq	%r10, %rsi
	movq	%rsi, -24(%rcx,%rax)
	movl	$1, %eax
	xorl	%ebx, %ebx
	movq	%r15, %r13
	movq	72(%rsp), %r15
	testq	%r10, %r10
	jne	.LBB196_24
	jmp	.LBB196_21
.LBB196_19:
	movq	%rcx, %rsi
	movq	232(%rsp), %rdx
	movq	%r8, %rbx
	movl	%eax, %r8d
	callq	ic_raw.table.RawTable.refusal_at.19bacce014a8892a
	movq	%rsi, %rcx
	movq	%rbx, %r8
	movl	%eax, %esi
	jmp	.LBB196_229
.LBB196_20:
	xorl	%eax, %eax
	movq	%r10, %r13
	xorl	%ebx, %ebx
	testq	%r10, %r10
	je	.LBB196_21
.LBB196_24:
	shrq	$3, %r10
	leaq	(%r10,%r10,2), %rax
	orq	$1, %rdi
	movq	%rdi, -8(%rcx,%rax,8)
	jmp	.LBB196_228
.LBB196_22:
	movq	%r10, -16(%rcx,%rax)
	movb	$1, %bl
	movl	$1, %eax
	movq	%r15, %r13
	movq	72(%rsp), %r15
	testq	%r10, %r10
	jne	.LBB196_24
.LBB196_21:
	movl	%edx, %r11d
	movq	%r9, %rdx
	jmp	.LBB196_62
.LBB196_25:
	leaq	(%rcx,%r13), %r10
	movq	%rax, %rsi
	jmp	.LBB196_28
.LBB196_26:
	leaq	(%rcx,%r13), %r10
	movq	-24(%rcx,%r13), %rax
	andq	%r14, %rax
	leaq	-1(%rax), %r11
	cmpq	%r15, %r11
	jae	.LBB196_28
	jmp	.LBB196_29
.LBB196_27:
	leaq	(%rcx,%r13), %r10
.LBB196_28:
	movq	-16(%r10), %r11
	andq	%r14, %r11
	xorl	%eax, %eax
	cmpq	%r15, %r11
	cmovbeq	%r11, %rax
.LBB196_29:
	movq	-8(%r10), %rdx
	movq	%rdx, %rdi
	andq	%r14, %rdi
	xorl	%r9d, %r9d
	cmpq	%r15, %rdi
	cmovaq	%r9, %rdi
	testq	%rdi, %rdi
	setne	%r11b
	je	.LBB196_32
	leaq	(%rdi,%rdi,2), %r9
	movq	-24(%rcx,%r9), %rbx
	movq	%rbx, %rbp
	andq	%r14, %rbp
	xorl	%r10d, %r10d
	cmpq	%r15, %rbp
	cmovbeq	%rbp, %r10
	movq	%rdi, 88(%rsp)
	movq	$1, 200(%rsp)
	cmpq	%rsi, %r10
	jne	.LBB196_33
	andl	$1, %ebx
	addq	%rax, %rbx
	movq	%rbx, -24(%rcx,%r9)
	movl	$1, %r9d
	xorl	%ebx, %ebx
	jmp	.LBB196_34
.LBB196_32:
	movq	%rax, 72(%rsp)
	xorl	%ebx, %ebx
	jmp	.LBB196_34
.LBB196_33:
	movq	%rax, -16(%rcx,%r9)
	movb	$1, %bl
	movl	$1, %r9d
.LBB196_34:
	testq	%rax, %rax
	je	.LBB196_36
	shrq	$3, %rax
	leaq	(%rax,%rax,2), %rax
	movq	%rdi, %r10
	orq	$1, %r10
	movq	%r10, -8(%rcx,%rax,8)
	xorl	%edx, %edx
.LBB196_36:
	cmpq	%r12, %rsi
	jne	.LBB196_38
	movq	%r9, %rax
	jmp	.LBB196_61
.LBB196_38:
	movb	%r11b, 71(%rsp)
	leaq	(%r12,%r12,2), %rax
	movq	-8(%rcx,%rax), %rbp
	movq	%rbp, 256(%rsp)
	andq	%r14, %rbp
	xorl	%r10d, %r10d
	cmpq	%r15, %rbp
	cmovaq	%r10, %rbp
	movq	-24(%rcx,%rax), %r11
	andq	%r14, %r11
	cmpq	%r15, %r11
	cmovaq	%r10, %r11
	movq	%r11, 224(%rsp)
	movq	-16(%rcx,%rax), %rax
	andq	%r14, %rax
	cmpq	%r15, %rax
	cmovaq	%r10, %rax
	testq	%rbp, %rbp
	movq	%rax, 216(%rsp)
	je	.LBB196_42
	leaq	(,%rbp,2), %rax
	addq	%rbp, %rax
	movq	-24(%rcx,%rax), %r11
	movq	%r11, %r10
	andq	%r14, %r10
	xorl	%eax, %eax
	cmpq	%r15, %r10
	cmovbeq	%r10, %rax
	movq	88(%rsp,%r9,8), %r10
	cmpq	%r12, %rax
	jne	.LBB196_43
	testq	%r10, %r10
	movq	224(%rsp), %r10
	movq	%rdx, 240(%rsp)
	je	.LBB196_45
	movb	$1, 208(%rsp)
	jmp	.LBB196_46
.LBB196_42:
	movq	%rsi, 72(%rsp)
	movq	224(%rsp), %r10
	jmp	.LBB196_49
.LBB196_43:
	testq	%r10, %r10
	movq	224(%rsp), %r10
	je	.LBB196_47
	movb	$1, 208(%rsp)
	jmp	.LBB196_48
.LBB196_45:
	movq	%rbp, 88(%rsp,%r9,8)
	incq	%r9
	movq	%r9, 200(%rsp)
.LBB196_46:
	movq	216(%rsp), %rax
	andl	$1, %r11d
	orq	%rsi, %r11
	movq	%r11, 248(%rsp)
	leaq	(,%rbp,2), %r11
	addq	%rbp, %r11
	movq	248(%rsp), %rdx
	movq	%rdx, -24(%rcx,%r11)
	movzbl	71(%rsp), %r11d
	movq	240(%rsp), %rdx
	jmp	.LBB196_50
.LBB196_47:
	movq	%rbp, 88(%rsp,%r9,8)
	incq	%r9
	movq	%r9, 200(%rsp)
.LBB196_48:
	movq	216(%rsp), %rax
	leaq	(,%rbp,2), %r11
	addq	%rbp, %r11
	movq	%rsi, -16(%rcx,%r11)
.LBB196_49:
	movzbl	71(%rsp), %r11d
.LBB196_50:
	testq	%r10, %r10
	je	.LBB196_52
	movq	%r10, %rax
	shrq	$3, %rax
	leaq	(%rax,%rax,2), %rax
	movq	-8(%rcx,%rax,8), %r10
	andl	$1, %r10d
	orq	%rsi, %r10
	movq	%r10, -8(%rcx,%rax,8)
	movq	216(%rsp), %rax
.LBB196_52:
	testq	%rax, %rax
	je	.LBB196_54
	movq	216(%rsp), %rax
	shrq	$3, %rax
	leaq	(%rax,%rax,2), %rax
	movq	-8(%rcx,%rax,8), %r10
	andl	$1, %r10d
	orq	%rsi, %r10
	movq	%r10, -8(%rcx,%rax,8)
.LBB196_54:
	leal	(,%r9,8), %r10d
	cmpq	$0, 88(%rsp,%r10)
	je	.LBB196_56
	movb	$1, 208(%rsp)
	jmp	.LBB196_57
.LBB196_56:
	movq	%rsi, 88(%rsp,%r9,8)
	incq	%r9
	movq	%r9, 200(%rsp)
	leal	(,%r9,8), %r10d
.LBB196_57:
	movq	-24(%rcx,%r13), %rax
	andl	$1, %eax
	orq	224(%rsp), %rax
	movq	%rax, -24(%rcx,%r13)
	cmpq	$0, 88(%rsp,%r10)
	je	.LBB196_59
	movq	%r9, %rax
	movb	$1, 208(%rsp)
	jmp	.LBB196_60
.LBB196_59:
	movq	%rsi, 88(%rsp,%r10)
	incq	%r9
	movq	%r9, %rax
	movq	%r9, 200(%rsp)
.LBB196_60:
	movq	256(%rsp), %r9
	andl	$1, %r9d
	movq	216(%rsp), %r10
	movq	%r10, -16(%rcx,%r13)
	orq	%r9, %rbp
	movq	%rbp, -8(%rcx,%r13)
	cmpq	%r12, %rdi
	cmoveq	%rsi, %rdi
.LBB196_61:
	movq	72(%rsp), %r13
.LBB196_62:
	testb	$1, %dl
	je	.LBB196_228
	testb	%r11b, %r11b
	je	.LBB196_228
	movl	$67, %ebp
	movq	%rax, %r9
	.p2align	4
.LBB196_65:
	movq	%r13, 72(%rsp)
	leaq	(%rdi,%rdi,2), %r12
	testb	$1, %bl
	je	.LBB196_79
	movq	-24(%rcx,%r12), %r10
	movq	%r10, %r13
	andq	%r14, %r13
	leaq	-1(%r13), %rax
	cmpq	%r15, %rax
	jae	.LBB196_129
	leaq	(,%r13,2), %r11
	addq	%r13, %r11
	testb	$1, -8(%rcx,%r11)
	jne	.LBB196_101
	movq	-16(%rcx,%r11), %rsi
	andq	%r14, %rsi
	xorl	%ebx, %ebx
	cmpq	%r15, %rsi
	cmovaq	%rbx, %rsi
	movq	-8(%rcx,%r12), %rax
	andq	%r14, %rax
	cmpq	%r15, %rax
	cmovaq	%rbx, %rax
	cmpq	$13, %r9
	ja	.LBB196_70
	cmpq	$0, 88(%rsp,%r9,8)
	je	.LBB196_120
.LBB196_70:
	movb	$1, 208(%rsp)
.LBB196_71:
	andl	$1, %r10d
	orq	%rsi, %r10
	movq	%r10, -24(%rcx,%r12)
	testq	%rsi, %rsi
	je	.LBB196_73
	shrq	$3, %rsi
	leaq	(%rsi,%rsi,2), %r10
	movq	-8(%rcx,%r10,8), %rsi
	andl	$1, %esi
	orq	%rdi, %rsi
	movq	%rsi, -8(%rcx,%r10,8)
.LBB196_73:
	movq	%rax, %r10
	orq	$1, %r10
	movq	%r10, -8(%rcx,%r11)
	testq	%rax, %rax
	je	.LBB196_91
	leaq	(%rax,%rax,2), %r10
	movq	-24(%rcx,%r10), %rsi
	movq	%rsi, %rbx
	andq	%r14, %rbx
	xorl	%r12d, %r12d
	cmpq	%r15, %rbx
	cmovbeq	%rbx, %r12
	cmpq	%rdi, %r12
	jne	.LBB196_93
	cmpq	$13, %r9
	ja	.LBB196_77
	cmpq	$0, 88(%rsp,%r9,8)
	je	.LBB196_124
.LBB196_77:
	movb	$1, 208(%rsp)
.LBB196_78:
	leaq	(%rdi,%rdi,2), %r12
	andl	$1, %esi
	orq	%r13, %rsi
	movq	%rsi, -24(%rcx,%r10)
	cmpq	$13, %r9
	jbe	.LBB196_97
	jmp	.LBB196_98
.LBB196_79:
	movq	-16(%rcx,%r12), %r13
	andq	%r14, %r13
	leaq	-1(%r13), %rax
	cmpq	%r15, %rax
	jae	.LBB196_129
	leaq	(,%r13,2), %r11
	addq	%r13, %r11
	testb	$1, -8(%rcx,%r11)
	jne	.LBB196_113
	movq	-24(%rcx,%r11), %r10
	andq	%r14, %r10
	xorl	%esi, %esi
	cmpq	%r15, %r10
	cmovaq	%rsi, %r10
	movq	-8(%rcx,%r12), %rax
	andq	%r14, %rax
	cmpq	%r15, %rax
	cmovaq	%rsi, %rax
	cmpq	$13, %r9
	ja	.LBB196_83
	cmpq	$0, 88(%rsp,%r9,8)
	je	.LBB196_121
.LBB196_83:
	movb	$1, 208(%rsp)
	movq	%r10, -16(%rcx,%r12)
	testq	%r10, %r10
	je	.LBB196_85
.LBB196_84:
	shrq	$3, %r10
	leaq	(%r10,%r10,2), %r10
	movq	-8(%rcx,%r10,8), %rsi
	andl	$1, %esi
	orq	%rdi, %rsi
	movq	%rsi, -8(%rcx,%r10,8)
.LBB196_85:
	movq	%rax, %r10
	orq	$1, %r10
	movq	%r10, -8(%rcx,%r11)
	testq	%rax, %rax
	je	.LBB196_92
	leaq	(%rax,%rax,2), %r10
	movq	-24(%rcx,%r10), %rsi
	movq	%rsi, %rbx
	andq	%r14, %rbx
	xorl	%r12d, %r12d
	cmpq	%r15, %rbx
	cmovbeq	%rbx, %r12
	cmpq	%rdi, %r12
	jne	.LBB196_105
	cmpq	$13, %r9
	ja	.LBB196_89
	cmpq	$0, 88(%rsp,%r9,8)
	je	.LBB196_125
.LBB196_89:
	movb	$1, 208(%rsp)
.LBB196_90:
	leaq	(%rdi,%rdi,2), %r12
	andl	$1, %esi
	orq	%r13, %rsi
	movq	%rsi, -24(%rcx,%r10)
	cmpq	$13, %r9
	jbe	.LBB196_109
	jmp	.LBB196_110
.LBB196_91:
	movq	%r13, 72(%rsp)
	cmpq	$13, %r9
	jbe	.LBB196_97
	jmp	.LBB196_98
.LBB196_92:
	movq	%r13, 72(%rsp)
	cmpq	$13, %r9
	jbe	.LBB196_109
	jmp	.LBB196_110
.LBB196_93:
	cmpq	$13, %r9
	ja	.LBB196_95
	cmpq	$0, 88(%rsp,%r9,8)
	je	.LBB196_126
.LBB196_95:
	movb	$1, 208(%rsp)
	leaq	(%rdi,%rdi,2), %r12
	movq	%r13, -16(%rcx,%r10)
	cmpq	$13, %r9
	ja	.LBB196_98
.LBB196_97:
	cmpq	$0, 88(%rsp,%r9,8)
	je	.LBB196_122
.LBB196_98:
	movb	$1, 208(%rsp)
.LBB196_99:
	movq	%rdi, -16(%rcx,%r11)
	movq	%r13, -8(%rcx,%r12)
	movq	-24(%rcx,%r12), %r13
	andq	%r14, %r13
	leaq	-1(%r13), %rax
	cmpq	%r15, %rax
	jae	.LBB196_129
	leaq	(,%r13,2), %r11
	addq	%r13, %r11
.LBB196_101:
	movq	-24(%rcx,%r11), %rax
	andq	%r14, %rax
	leaq	-1(%rax), %r10
	cmpq	%r15, %r10
	jae	.LBB196_103
	movq	%rax, %rsi
	shrq	$3, %rsi
	leaq	(%rsi,%rsi,2), %rsi
	movq	-8(%rcx,%rsi,8), %rsi
	testb	$1, %sil
	je	.LBB196_149
.LBB196_103:
	movq	-16(%rcx,%r11), %rdx
	andq	%r14, %rdx
	leaq	-1(%rdx), %rbx
	cmpq	%r15, %rbx
	jae	.LBB196_117
	movq	%r9, %rsi
	movq	%r12, %r9
	movq	%rdx, %r12
	shrq	$3, %r12
	leaq	(%r12,%r12,2), %r12
	testb	$1, -8(%rcx,%r12,8)
	movq	%r9, %r12
	movq	%rsi, %r9
	jne	.LBB196_117
	jmp	.LBB196_147
.LBB196_105:
	cmpq	$13, %r9
	ja	.LBB196_107
	cmpq	$0, 88(%rsp,%r9,8)
	je	.LBB196_127
.LBB196_107:
	movb	$1, 208(%rsp)
	leaq	(%rdi,%rdi,2), %r12
	movq	%r13, -16(%rcx,%r10)
	cmpq	$13, %r9
	ja	.LBB196_110
.LBB196_109:
	cmpq	$0, 88(%rsp,%r9,8)
	je	.LBB196_123
.LBB196_110:
	movb	$1, 208(%rsp)
.LBB196_111:
	movq	-24(%rcx,%r11), %rax
	andl	$1, %eax
	orq	%rdi, %rax
	movq	%rax, -24(%rcx,%r11)
	movq	%r13, -8(%rcx,%r12)
	movq	-16(%rcx,%r12), %r13
	andq	%r14, %r13
	leaq	-1(%r13), %rax
	cmpq	%r15, %rax
	jae	.LBB196_129
	leaq	(,%r13,2), %r11
	addq	%r13, %r11
.LBB196_113:
	movq	-24(%rcx,%r11), %rsi
	andq	%r14, %rsi
	leaq	-1(%rsi), %rax
	cmpq	%r15, %rax
	jae	.LBB196_115
	leaq	(%rsi,%rsi,2), %rbx
	testb	$1, -8(%rcx,%rbx)
	je	.LBB196_133
.LBB196_115:
	movq	-16(%rcx,%r11), %rax
	andq	%r14, %rax
	leaq	-1(%rax), %r10
	cmpq	%r15, %r10
	jae	.LBB196_117
	leaq	(%rax,%rax,2), %rax
	movq	-8(%rcx,%rax), %r10
	testb	$1, %r10b
	je	.LBB196_146
.LBB196_117:
	andb	$-2, -8(%rcx,%r11)
	movq	-8(%rcx,%r12), %rax
	testb	$1, %al
	je	.LBB196_128
	movq	72(%rsp), %r13
	andq	%r14, %rax
	leaq	-1(%rax), %r10
	cmpq	%r15, %r10
	jae	.LBB196_228
	movq	%rax, %r10
	shrq	$3, %r10
	leaq	(%r10,%r10,2), %r10
	movq	-24(%rcx,%r10,8), %r10
	andq	%r14, %r10
	xorl	%r11d, %r11d
	cmpq	%r15, %r10
	cmovbeq	%r10, %r11
	cmpq	%rdi, %r11
	setne	%bl
	movq	%rax, %rdi
	decl	%ebp
	jne	.LBB196_65
	jmp	.LBB196_228
.LBB196_120:
	movq	%rdi, 88(%rsp,%r9,8)
	incq	%r9
	movq	%r9, 200(%rsp)
	jmp	.LBB196_71
.LBB196_121:
	movq	%rdi, 88(%rsp,%r9,8)
	incq	%r9
	movq	%r9, 200(%rsp)
	movq	%r10, -16(%rcx,%r12)
	testq	%r10, %r10
	jne	.LBB196_84
	jmp	.LBB196_85
.LBB196_122:
	movq	%r13, 88(%rsp,%r9,8)
	incq	%r9
	movq	%r9, 200(%rsp)
	jmp	.LBB196_99
.LBB196_123:
	movq	%r13, 88(%rsp,%r9,8)
	incq	%r9
	movq	%r9, 200(%rsp)
	jmp	.LBB196_111
.LBB196_124:
	movq	%rax, 88(%rsp,%r9,8)
	incq	%r9
	movq	%r9, 200(%rsp)
	jmp	.LBB196_78
.LBB196_125:
	movq	%rax, 88(%rsp,%r9,8)
	incq	%r9
	movq	%r9, 200(%rsp)
	jmp	.LBB196_90
.LBB196_126:
	movq	%rax, 88(%rsp,%r9,8)
	incq	%r9
	movq	%r9, 200(%rsp)
	leaq	(%rdi,%rdi,2), %r12
	movq	%r13, -16(%rcx,%r10)
	cmpq	$13, %r9
	ja	.LBB196_98
	jmp	.LBB196_97
.LBB196_127:
	movq	%rax, 88(%rsp,%r9,8)
	incq	%r9
	movq	%r9, 200(%rsp)
	leaq	(%rdi,%rdi,2), %r12
	movq	%r13, -16(%rcx,%r10)
	cmpq	$13, %r9
	ja	.LBB196_110
	jmp	.LBB196_109
.LBB196_128:
	orq	$1, %rax
	movq	%rax, -8(%rcx,%r12)
.LBB196_129:
	movq	72(%rsp), %r13
.LBB196_228:
	movq	264(%rsp), %rax
	movq	$0, -24(%rcx,%rax)
	movq	392(%rsp), %rax
	movq	%r13, (%rax)
	xorl	%esi, %esi
	movzbl	87(%rsp), %ebp
.LBB196_229:
	movl	%esi, 48(%rsp)
	leaq	88(%rsp), %rax
	movq	%rax, 40(%rsp)
	movb	%bpl, 32(%rsp)
	movq	232(%rsp), %rdx
	movq	272(%rsp), %r9
	callq	ic_raw_augmented.edit_calls.settle
.LBB196_230:
	movl	%esi, %eax
	addq	$280, %rsp
	popq	%rbx
	popq	%rbp
	popq	%rdi
	popq	%rsi
	popq	%r12
	popq	%r13
	popq	%r14
	popq	%r15
	retq
.LBB196_133:
	movq	-16(%rcx,%r11), %rax
	andq	%r14, %rax
	leaq	-1(%rax), %r10
	cmpq	%r15, %r10
	jae	.LBB196_135
	leaq	(%rax,%rax,2), %rax
	movq	-8(%rcx,%rax), %r10
	testb	$1, %r10b
	je	.LBB196_146
.LBB196_135:
	movq	-16(%rcx,%rbx), %r10
	andq	%r14, %r10
	xorl	%r12d, %r12d
	cmpq	%r15, %r10
	cmovaq	%r12, %r10
	movq	-8(%rcx,%r11), %rax
	andq	%r14, %rax
	cmpq	%r15, %rax
	cmovaq	%r12, %rax
	cmpq	$13, %r9
	ja	.LBB196_137
	cmpq	$0, 88(%rsp,%r9,8)
	je	.LBB196_231
.LBB196_137:
	movb	$1, 208(%rsp)
.LBB196_138:
	movq	%r13, %r12
	shrq	$3, %r12
	leaq	(%r12,%r12,2), %r12
	movq	-24(%rcx,%r12,8), %rbp
	andl	$1, %ebp
	orq	%r10, %rbp
	movq	%rbp, -24(%rcx,%r12,8)
	testq	%r10, %r10
	je	.LBB196_140
	shrq	$3, %r10
	leaq	(%r10,%r10,2), %r10
	movq	-8(%rcx,%r10,8), %r12
	andl	$1, %r12d
	orq	%r13, %r12
	movq	%r12, -8(%rcx,%r10,8)
.LBB196_140:
	movq	%rax, %r10
	orq	$1, %r10
	movq	%r10, -8(%rcx,%rbx)
	testq	%rax, %rax
	je	.LBB196_165
	leaq	(%rax,%rax,2), %rdx
	movq	-24(%rcx,%rdx), %rbp
	movq	%rbp, %r12
	andq	%r14, %r12
	xorl	%r10d, %r10d
	cmpq	%r15, %r12
	cmovbeq	%r12, %r10
	cmpq	%r13, %r10
	jne	.LBB196_166
	cmpq	$13, %r9
	ja	.LBB196_144
	cmpq	$0, 88(%rsp,%r9,8)
	je	.LBB196_239
.LBB196_144:
	movb	$1, 208(%rsp)
.LBB196_145:
	leaq	(%rdi,%rdi,2), %r12
	andl	$1, %ebp
	orq	%rsi, %rbp
	movq	%rbp, -24(%rcx,%rdx)
	jmp	.LBB196_170
.LBB196_146:
	movq	%r13, %rsi
	movq	%r11, %rbx
	jmp	.LBB196_175
.LBB196_147:
	cmpq	%r15, %r10
	jae	.LBB196_151
	movq	%rax, %rsi
	shrq	$3, %rsi
	leaq	(%rsi,%rsi,2), %rsi
	movq	-8(%rcx,%rsi,8), %rsi
.LBB196_149:
	testb	$1, %sil
	je	.LBB196_163
	movq	-16(%rcx,%r11), %rdx
	andq	%r14, %rdx
	leaq	-1(%rdx), %rbx
.LBB196_151:
	cmpq	%r15, %rbx
	jae	.LBB196_129
	leaq	(%rdx,%rdx,2), %rbx
	movq	-24(%rcx,%rbx), %r10
	andq	%r14, %r10
	xorl	%r12d, %r12d
	cmpq	%r15, %r10
	cmovaq	%r12, %r10
	movq	-8(%rcx,%r11), %rax
	andq	%r14, %rax
	cmpq	%r15, %rax
	cmovaq	%r12, %rax
	cmpq	$13, %r9
	ja	.LBB196_154
	cmpq	$0, 88(%rsp,%r9,8)
	je	.LBB196_235
.LBB196_154:
	movb	$1, 208(%rsp)
	movq	%r10, -16(%rcx,%r11)
	testq	%r10, %r10
	je	.LBB196_156
.LBB196_155:
	shrq	$3, %r10
	leaq	(%r10,%r10,2), %r10
	movq	-8(%rcx,%r10,8), %r12
	andl	$1, %r12d
	orq	%r13, %r12
	movq	%r12, -8(%rcx,%r10,8)
.LBB196_156:
	movq	%rax, %r10
	orq	$1, %r10
	movq	%r10, -8(%rcx,%rbx)
	testq	%rax, %rax
	je	.LBB196_198
	leaq	(%rax,%rax,2), %rsi
	movq	-24(%rcx,%rsi), %r10
	movq	%r10, %rbp
	andq	%r14, %rbp
	cmpq	%r15, %rbp
	leaq	(%rdi,%rdi,2), %r12
	ja	.LBB196_199
	cmpq	%r13, %rbp
	jne	.LBB196_199
	cmpq	$13, %r9
	ja	.LBB196_161
	cmpq	$0, 88(%rsp,%r9,8)
	je	.LBB196_244
.LBB196_161:
	movb	$1, 208(%rsp)
.LBB196_162:
	andl	$1, %r10d
	orq	%rdx, %r10
	movq	%r10, -24(%rcx,%rsi)
	jmp	.LBB196_203
.LBB196_163:
	movq	%r11, %rbx
	movq	%r13, %rdx
	jmp	.LBB196_207
.LBB196_165:
	movq	%rsi, 72(%rsp)
	leaq	(%rdi,%rdi,2), %r12
	jmp	.LBB196_170
.LBB196_166:
	cmpq	$13, %r9
	ja	.LBB196_168
	cmpq	$0, 88(%rsp,%r9,8)
	je	.LBB196_240
.LBB196_168:
	movb	$1, 208(%rsp)
.LBB196_169:
	leaq	(%rdi,%rdi,2), %r12
	movq	%rsi, -16(%rcx,%rdx)
.LBB196_170:
	cmpq	$13, %r9
	ja	.LBB196_172
	cmpq	$0, 88(%rsp,%r9,8)
	je	.LBB196_232
.LBB196_172:
	movb	$1, 208(%rsp)
.LBB196_173:
	movq	%r13, -16(%rcx,%rbx)
	movq	%rsi, -8(%rcx,%r11)
	movq	-16(%rcx,%rbx), %rax
	andq	%r14, %rax
	leaq	-1(%rax), %r10
	cmpq	%r15, %r10
	jae	.LBB196_129
	leaq	(%rax,%rax,2), %rax
	movq	-8(%rcx,%rax), %r10
.LBB196_175:
	movq	-8(%rcx,%r12), %r11
	andl	$1, %r11d
	orq	$1, %r10
	movq	%r10, -8(%rcx,%rax)
	movq	-24(%rcx,%rbx), %r10
	andq	%r14, %r10
	movq	%r12, %rax
	xorl	%r12d, %r12d
	cmpq	%r15, %r10
	cmovaq	%r12, %r10
	movq	%rax, %rbp
	movq	-8(%rcx,%rax), %rax
	andq	%r14, %rax
	cmpq	%r15, %rax
	cmovaq	%r12, %rax
	cmpq	$13, %r9
	ja	.LBB196_177
	cmpq	$0, 88(%rsp,%r9,8)
	je	.LBB196_196
.LBB196_177:
	movb	$1, 208(%rsp)
.LBB196_178:
	movq	72(%rsp), %r13
	movq	%rbp, %r12
	movq	%r10, -16(%rcx,%rbp)
	testq	%r10, %r10
	je	.LBB196_180
	shrq	$3, %r10
	leaq	(%r10,%r10,2), %r10
	movq	-8(%rcx,%r10,8), %r12
	andl	$1, %r12d
	orq	%rdi, %r12
	movq	%r12, -8(%rcx,%r10,8)
	movq	%rbp, %r12
.LBB196_180:
	orq	%rax, %r11
	movq	%r11, -8(%rcx,%rbx)
	testq	%rax, %rax
	je	.LBB196_186
	leaq	(%rax,%rax,2), %r10
	movq	-24(%rcx,%r10), %r11
	andq	%r11, %r14
	xorl	%r12d, %r12d
	cmpq	%r15, %r14
	cmovbeq	%r14, %r12
	cmpq	%rdi, %r12
	jne	.LBB196_187
	cmpq	$13, %r9
	ja	.LBB196_184
	cmpq	$0, 88(%rsp,%r9,8)
	je	.LBB196_237
.LBB196_184:
	movb	$1, 208(%rsp)
.LBB196_185:
	movq	%rbp, %r12
	andl	$1, %r11d
	orq	%rsi, %r11
	movq	%r11, -24(%rcx,%r10)
	jmp	.LBB196_191
.LBB196_186:
	movq	%rsi, %r13
	jmp	.LBB196_191
.LBB196_187:
	cmpq	$13, %r9
	ja	.LBB196_189
	cmpq	$0, 88(%rsp,%r9,8)
	je	.LBB196_238
.LBB196_189:
	movb	$1, 208(%rsp)
.LBB196_190:
	movq	%rbp, %r12
	movq	%rsi, -16(%rcx,%r10)
.LBB196_191:
	cmpq	$13, %r9
	ja	.LBB196_193
	cmpq	$0, 88(%rsp,%r9,8)
	je	.LBB196_197
.LBB196_193:
	movb	$1, 208(%rsp)
.LBB196_194:
	movq	-24(%rcx,%rbx), %rax
	andl	$1, %eax
	orq	%rdi, %rax
	movq	%rax, -24(%rcx,%rbx)
	orq	$1, %rsi
	movq	%rsi, -8(%rcx,%r12)
	jmp	.LBB196_228
.LBB196_196:
	movq	%rdi, 88(%rsp,%r9,8)
	incq	%r9
	movq	%r9, 200(%rsp)
	jmp	.LBB196_178
.LBB196_197:
	movq	%rsi, 88(%rsp,%r9,8)
	incq	%r9
	movq	%r9, 200(%rsp)
	jmp	.LBB196_194
.LBB196_198:
	movq	%rdx, 72(%rsp)
	leaq	(%rdi,%rdi,2), %r12
	jmp	.LBB196_203
.LBB196_199:
	cmpq	$13, %r9
	ja	.LBB196_201
	cmpq	$0, 88(%rsp,%r9,8)
	je	.LBB196_243
.LBB196_201:
	movb	$1, 208(%rsp)
.LBB196_202:
	movq	%rdx, -16(%rcx,%rsi)
.LBB196_203:
	cmpq	$13, %r9
	ja	.LBB196_205
	cmpq	$0, 88(%rsp,%r9,8)
	je	.LBB196_236
.LBB196_205:
	movb	$1, 208(%rsp)
.LBB196_206:
	movq	-24(%rcx,%rbx), %rax
	andl	$1, %eax
	orq	%r13, %rax
	movq	%rax, -24(%rcx,%rbx)
	movq	%rdx, -8(%rcx,%r11)
	movq	-24(%rcx,%rbx), %rax
	andq	%r14, %rax
	leaq	-1(%rax), %r10
.LBB196_207:
	cmpq	%r15, %r10
	movq	72(%rsp), %r13
	jae	.LBB196_228
	movq	-8(%rcx,%r12), %r10
	shrq	$3, %rax
	leaq	(%rax,%rax,2), %rax
	orq	$1, -8(%rcx,%rax,8)
	andl	$1, %r10d
	movq	-16(%rcx,%rbx), %r11
	andq	%r14, %r11
	movq	%r12, %rax
	xorl	%r12d, %r12d
	cmpq	%r15, %r11
	cmovaq	%r12, %r11
	movq	-8(%rcx,%rax), %rax
	andq	%r14, %rax
	cmpq	%r15, %rax
	cmovaq	%r12, %rax
	cmpq	$13, %r9
	ja	.LBB196_210
	cmpq	$0, 88(%rsp,%r9,8)
	je	.LBB196_233
.LBB196_210:
	movq	%r9, %rbp
	movb	$1, 208(%rsp)
.LBB196_211:
	leaq	(%rdi,%rdi,2), %r9
	movq	-24(%rcx,%r9), %r12
	andl	$1, %r12d
	orq	%r11, %r12
	movq	%r12, -24(%rcx,%r9)
	movq	%r9, %r12
	testq	%r11, %r11
	je	.LBB196_213
	shrq	$3, %r11
	leaq	(%r11,%r11,2), %r11
	movq	-8(%rcx,%r11,8), %r12
	andl	$1, %r12d
	orq	%rdi, %r12
	movq	%r12, -8(%rcx,%r11,8)
	leaq	(%rdi,%rdi,2), %r12
.LBB196_213:
	orq	%rax, %r10
	movq	%r10, -8(%rcx,%rbx)
	testq	%rax, %rax
	je	.LBB196_219
	leaq	(%rax,%rax,2), %r10
	movq	-24(%rcx,%r10), %r11
	andq	%r11, %r14
	xorl	%r12d, %r12d
	cmpq	%r15, %r14
	cmovbeq	%r14, %r12
	cmpq	%rdi, %r12
	jne	.LBB196_220
	cmpq	$13, %rbp
	ja	.LBB196_217
	cmpq	$0, 88(%rsp,%rbp,8)
	je	.LBB196_241
.LBB196_217:
	movb	$1, 208(%rsp)
.LBB196_218:
	leaq	(%rdi,%rdi,2), %r12
	andl	$1, %r11d
	orq	%rdx, %r11
	movq	%r11, -24(%rcx,%r10)
	jmp	.LBB196_224
.LBB196_219:
	movq	%rdx, %r13
	jmp	.LBB196_224
.LBB196_220:
	cmpq	$13, %rbp
	ja	.LBB196_222
	cmpq	$0, 88(%rsp,%rbp,8)
	je	.LBB196_242
.LBB196_222:
	movb	$1, 208(%rsp)
.LBB196_223:
	leaq	(%rdi,%rdi,2), %r12
	movq	%rdx, -16(%rcx,%r10)
.LBB196_224:
	cmpq	$13, %rbp
	ja	.LBB196_226
	cmpq	$0, 88(%rsp,%rbp,8)
	je	.LBB196_234
.LBB196_226:
	movb	$1, 208(%rsp)
.LBB196_227:
	movq	%rdi, -16(%rcx,%rbx)
	orq	$1, %rdx
	movq	%rdx, -8(%rcx,%r12)
	jmp	.LBB196_228
.LBB196_231:
	movq	%r13, 88(%rsp,%r9,8)
	incq	%r9
	movq	%r9, 200(%rsp)
	jmp	.LBB196_138
.LBB196_232:
	movq	%rsi, 88(%rsp,%r9,8)
	incq	%r9
	movq	%r9, 200(%rsp)
	jmp	.LBB196_173
.LBB196_233:
	movq	%rdi, 88(%rsp,%r9,8)
	incq	%r9
	movq	%r9, %rbp
	movq	%r9, 200(%rsp)
	jmp	.LBB196_211
.LBB196_234:
	movq	%rdx, 88(%rsp,%rbp,8)
	incq	%rbp
	movq	%rbp, 200(%rsp)
	jmp	.LBB196_227
.LBB196_235:
	movq	%r13, 88(%rsp,%r9,8)
	incq	%r9
	movq	%r9, 200(%rsp)
	movq	%r10, -16(%rcx,%r11)
	testq	%r10, %r10
	jne	.LBB196_155
	jmp	.LBB196_156
.LBB196_236:
	movq	%rdx, 88(%rsp,%r9,8)
	incq	%r9
	movq	%r9, 200(%rsp)
	jmp	.LBB196_206
.LBB196_237:
	movq	%rax, 88(%rsp,%r9,8)
	incq	%r9
	movq	%r9, 200(%rsp)
	jmp	.LBB196_185
.LBB196_238:
	movq	%rax, 88(%rsp,%r9,8)
	incq	%r9
	movq	%r9, 200(%rsp)
	jmp	.LBB196_190
.LBB196_239:
	movq	%rax, 88(%rsp,%r9,8)
	incq	%r9
	movq	%r9, 200(%rsp)
	jmp	.LBB196_145
.LBB196_240:
	movq	%rax, 88(%rsp,%r9,8)
	incq	%r9
	movq	%r9, 200(%rsp)
	jmp	.LBB196_169
.LBB196_241:
	movq	%rax, 88(%rsp,%rbp,8)
	incq	%rbp
	movq	%rbp, 200(%rsp)
	jmp	.LBB196_218
.LBB196_242:
	movq	%rax, 88(%rsp,%rbp,8)
	incq	%rbp
	movq	%rbp, 200(%rsp)
	jmp	.LBB196_223
.LBB196_243:
	movq	%rax, 88(%rsp,%r9,8)
	incq	%r9
	movq	%r9, 200(%rsp)
	jmp	.LBB196_202
.LBB196_244:
	movq	%rax, 88(%rsp,%r9,8)
	incq	%r9
	movq	%r9, 200(%rsp)
	jmp	.LBB196_162
	.def	ic_tree_sums_renew;
	.scl	2;
	.type	32;
	.endef
	.globl	ic_tree_sums_renew
	.p2align	4
ic_tree_sums_renew:
	pushq	%r15
	pushq	%r14
	pushq	%r12
	pushq	%rsi
	pushq	%rdi
	pushq	%rbp
	pushq	%rbx
	subq	$64, %rsp
	movq	%r9, %rsi
	movq	%r8, %rdi
	movq	%rdx, %r14
	movl	168(%rsp), %r8d
	xorl	%eax, %eax
	testq	%rcx, %rcx
	sete	%al
	shll	$12, %eax
	addq	%rcx, %rax
	xorl	%ecx, %ecx
	testq	%rdi, %rdi
	sete	%dl
	cmpl	$0, 160(%rsp)
	setne	%bl
	movq	%rax, 48(%rsp)
	movq	%r14, 56(%rsp)
	cmpq	%r14, %r9
	jb	.LBB197_4
	movb	%dl, %cl
	shll	$12, %ecx
	addq	%rcx, %rdi
	leal	1(%r8), %ecx
	testq	%rcx, %rcx
	je	.LBB197_6
	cmpq	%rcx, %r14
	jb	.LBB197_4
	leaq	(%rcx,%rcx,2), %rdx
	testb	$1, -24(%rax,%rdx,8)
	je	.LBB197_4
	shlq	$3, %rcx
	movq	%rcx, 32(%rsp)
	leaq	48(%rsp), %rcx
	movq	%rdi, %rdx
	movq	%rsi, %r8
	movl	%ebx, %r9d
	callq	ic_raw_augmented.recompute.recompute_up
	xorl	%ebp, %ebp
	jmp	.LBB197_11
.LBB197_6:
	xorl	%ebp, %ebp
	testq	%r14, %r14
	je	.LBB197_11
	movl	$8, %r15d
	movq	%r14, %r12
	jmp	.LBB197_8
	.p2align	4
.LBB197_10:
	addq	$8, %r15
	decq	%r12
	je	.LBB197_11
.LBB197_8:
	movabsq	$68719476728, %rax
	andq	%r15, %rax
	sete	%cl
	movq	%rax, %rdx
	shrq	$3, %rdx
	cmpq	%r14, %rdx
	seta	%dl
	orb	%cl, %dl
	jne	.LBB197_10
	movq	%rax, 32(%rsp)
	leaq	48(%rsp), %rcx
	movq	%rdi, %rdx
	movq	%rsi, %r8
	movl	%ebx, %r9d
	callq	ic_raw_augmented.recompute.recompute_up
	jmp	.LBB197_10
.LBB197_4:
	leaq	48(%rsp), %rcx
	movq	%rsi, %rdx
	callq	ic_raw_augmented.sum_calls.refusal
	movl	%eax, %ebp
.LBB197_11:
	movl	%ebp, %eax
	addq	$64, %rsp
	popq	%rbx
	popq	%rbp
	popq	%rdi
	popq	%rsi
	popq	%r12
	popq	%r14
	popq	%r15
	retq
	.def	ic_tree_upper_bound;
	.scl	2;
	.type	32;
	.endef
	.globl	ic_tree_upper_bound
	.p2align	4
ic_tree_upper_bound:
	pushq	%r15
	pushq	%r14
	pushq	%rsi
	pushq	%rdi
	pushq	%rbp
	pushq	%rbx
	xorl	%edi, %edi
	testq	%rcx, %rcx
	sete	%bpl
	xorl	%r10d, %r10d
	testq	%r8, %r8
	sete	%bl
	cmpq	%rdx, %r9
	jb	.LBB198_16
	movq	88(%rsp), %rax
	movabsq	$68719476728, %r11
	movq	(%rax), %rsi
	movl	$4, %eax
	andq	%r11, %rsi
	je	.LBB198_15
	movq	%rsi, %rax
	shrq	$3, %rax
	cmpq	%rdx, %rax
	ja	.LBB198_16
	movb	%bpl, %dil
	shll	$12, %edi
	addq	%rdi, %rcx
	leaq	(%rax,%rax,2), %rax
	testb	$1, -24(%rcx,%rax,8)
	je	.LBB198_16
	movq	104(%rsp), %r9
	movq	96(%rsp), %rax
	movb	%bl, %r10b
	shll	$12, %r10d
	addq	%r10, %r8
	shlq	$3, %rdx
	movl	$22, %edi
	xorl	%r10d, %r10d
	.p2align	4
.LBB198_5:
	movq	%rsi, %rbx
	shrq	$3, %rbx
	leaq	(%rbx,%rbx,2), %r14
	movq	-24(%rcx,%r14,8), %rbx
	cmpq	-8(%r8,%rsi), %rax
	cmovaeq	%rsi, %r10
	movq	-16(%rcx,%r14,8), %r14
	movq	%r14, %rsi
	cmovbq	%rbx, %rsi
	andq	%r11, %rsi
	leaq	-1(%rsi), %r15
	cmpq	%rdx, %r15
	jae	.LBB198_10
	movq	%rsi, %rbx
	shrq	$3, %rbx
	leaq	(%rbx,%rbx,2), %r14
	movq	-24(%rcx,%r14,8), %rbx
	cmpq	-8(%r8,%rsi), %rax
	cmovaeq	%rsi, %r10
	movq	-16(%rcx,%r14,8), %r14
	movq	%r14, %rsi
	cmovbq	%rbx, %rsi
	andq	%r11, %rsi
	leaq	-1(%rsi), %r15
	cmpq	%rdx, %r15
	jae	.LBB198_10
	movq	%rsi, %rbx
	shrq	$3, %rbx
	leaq	(%rbx,%rbx,2), %r14
	movq	-24(%rcx,%r14,8), %rbx
	cmpq	-8(%r8,%rsi), %rax
	cmovaeq	%rsi, %r10
	movq	-16(%rcx,%r14,8), %r14
	movq	%r14, %rsi
	cmovbq	%rbx, %rsi
	andq	%r11, %rsi
	leaq	-1(%rsi), %r15
	cmpq	%rdx, %r15
	jae	.LBB198_10
	decl	%edi
	jne	.LBB198_5
	movl	$5, %eax
	jmp	.LBB198_15
.LBB198_10:
	cmpq	%rsi, %rbx
	jae	.LBB198_12
	movl	$5, %eax
	cmpq	%rsi, %r14
	jb	.LBB198_15
.LBB198_12:
	movl	$4, %eax
	testq	%r10, %r10
	je	.LBB198_15
	shrq	$3, %r10
	leaq	(%r10,%r10,2), %rdx
	movl	$5, %eax
	testb	$1, -24(%rcx,%rdx,8)
	je	.LBB198_15
	decl	%r10d
	movl	%r10d, (%r9)
	xorl	%eax, %eax
.LBB198_15:
	popq	%rbx
	popq	%rbp
	popq	%rdi
	popq	%rsi
	popq	%r14
	popq	%r15
	retq
.LBB198_16:
	movq	%rdx, %rcx
	movq	%r9, %rdx
	popq	%rbx
	popq	%rbp
	popq	%rdi
	popq	%rsi
	popq	%r14
	popq	%r15
	jmp	ic_raw.search.refusal
	.def	ic_xor_append;
	.scl	2;
	.type	32;
	.endef
	.globl	ic_xor_append
	.p2align	4
ic_xor_append:
	subq	$72, %rsp
	xorl	%eax, %eax
	testq	%rcx, %rcx
	sete	%al
	shll	$12, %eax
	addq	%rax, %rcx
	movabsq	$68719476728, %r10
	andq	8(%r8), %r10
	setne	%al
	movq	%r9, 40(%rsp)
	movq	%r10, 32(%rsp)
	movq	$0, 56(%rsp)
	movb	$0, 48(%rsp)
	movl	%eax, %r9d
	callq	ic_raw.xor_calls.splice
	xorb	$1, %al
	movzbl	%al, %eax
	leal	(%rax,%rax,4), %eax
	addq	$72, %rsp
	retq
	.def	ic_xor_clear;
	.scl	2;
	.type	32;
	.endef
	.globl	ic_xor_clear
	.p2align	4
ic_xor_clear:
	pushq	%r14
	pushq	%rsi
	pushq	%rdi
	pushq	%rbx
	movabsq	$68719476728, %r9
	xorl	%esi, %esi
	testq	%rcx, %rcx
	sete	%bl
	movq	8(%r8), %r11
	andq	%r9, %r11
	movq	(%r8), %r10
	movl	$5, %eax
	andq	%r9, %r10
	je	.LBB200_13
	testq	%rdx, %rdx
	je	.LBB200_15
	movb	%bl, %sil
	shll	$12, %esi
	addq	%rsi, %rcx
	xorl	%edi, %edi
	movq	%r10, %rsi
	movq	%rdx, %rbx
	.p2align	4
.LBB200_3:
	movq	%rsi, %r14
	shrq	$3, %r14
	cmpq	%rdx, %r14
	ja	.LBB200_15
	movq	-8(%rcx,%rsi), %r14
	testb	$1, %r14b
	je	.LBB200_15
	andq	%r9, %r14
	cmpq	%rdi, %r14
	je	.LBB200_7
	xorq	%rdi, %r14
	movq	%rsi, %rdi
	movq	%r14, %rsi
	decq	%rbx
	jne	.LBB200_3
	jmp	.LBB200_15
.LBB200_13:
	testq	%r11, %r11
	jne	.LBB200_15
.LBB200_14:
	movq	$0, 8(%r8)
	movq	$0, (%r8)
	xorl	%eax, %eax
	jmp	.LBB200_15
.LBB200_7:
	cmpq	%rsi, %r11
	jne	.LBB200_15
	movl	$1, %eax
	xorl	%r11d, %r11d
	.p2align	4
.LBB200_9:
	movq	%r10, %rsi
	shrq	$3, %rsi
	cmpq	%rdx, %rsi
	ja	.LBB200_14
	movq	-8(%rcx,%r10), %rsi
	testb	$1, %sil
	je	.LBB200_14
	movq	$0, -8(%rcx,%r10)
	cmpq	%rax, %rdx
	je	.LBB200_14
	andq	%r9, %rsi
	movq	%rsi, %rdi
	xorq	%r11, %rdi
	incq	%rax
	cmpq	%r11, %rsi
	movq	%r10, %r11
	movq	%rdi, %r10
	jne	.LBB200_9
	jmp	.LBB200_14
.LBB200_15:
	popq	%rbx
	popq	%rdi
	popq	%rsi
	popq	%r14
	retq
	.def	ic_xor_fill;
	.scl	2;
	.type	32;
	.endef
	.globl	ic_xor_fill
	.p2align	4
ic_xor_fill:
	pushq	%r15
	pushq	%r14
	pushq	%r13
	pushq	%r12
	pushq	%rsi
	pushq	%rdi
	pushq	%rbp
	pushq	%rbx
	pushq	%rax
	movl	112(%rsp), %r11d
	xorl	%ebx, %ebx
	testq	%rcx, %rcx
	sete	%r10b
	xorl	%eax, %eax
	testl	%r11d, %r11d
	je	.LBB201_32
	movb	%r10b, %bl
	shll	$12, %ebx
	leaq	(%rcx,%rbx), %r10
	movabsq	$68719476728, %rdi
	movq	(%r8), %r14
	andq	%rdi, %r14
	movq	8(%r8), %rsi
	andq	%rdi, %rsi
	sete	%bpl
	je	.LBB201_7
	movq	%rsi, %rax
	shrq	$3, %rax
	cmpq	%rdx, %rax
	ja	.LBB201_11
	movq	-8(%r10,%rsi), %rax
	testb	$1, %al
	je	.LBB201_11
	andq	%rdi, %rax
	je	.LBB201_9
	movq	%rax, %rdi
	shrq	$3, %rdi
	cmpq	%rdx, %rdi
	ja	.LBB201_11
	testb	$1, -8(%r10,%rax)
	jne	.LBB201_10
	jmp	.LBB201_11
.LBB201_7:
	testq	%r14, %r14
	je	.LBB201_10
	movb	$1, %bpl
	xorl	%r12d, %r12d
	jmp	.LBB201_12
.LBB201_9:
	cmpq	%rsi, %r14
	jne	.LBB201_11
.LBB201_10:
	movb	$1, %r12b
	movq	%rsi, (%rsp)
	jmp	.LBB201_13
.LBB201_11:
	xorl	%r12d, %r12d
	movb	$1, %bpl
.LBB201_12:
	movq	$0, (%rsp)
.LBB201_13:
	movl	%r9d, %r13d
	incq	%r13
	movl	%r11d, %edi
	.p2align	4
.LBB201_14:
	movl	%r13d, %eax
	leaq	-1(%rax), %r15
	cmpq	%rdx, %r15
	jae	.LBB201_29
	movl	-8(%r10,%rax,8), %eax
	addl	%eax, %eax
	andl	$2, %eax
	jne	.LBB201_32
	incq	%r13
	decl	%edi
	jne	.LBB201_14
	movl	$5, %eax
	testb	%r12b, %r12b
	je	.LBB201_32
	movl	%r9d, %eax
	incl	%eax
	sete	%dil
	cmpq	%rax, %rdx
	setb	%r15b
	orb	%dil, %r15b
	jne	.LBB201_31
	shlq	$3, %rax
	testb	$1, -8(%r10,%rax)
	jne	.LBB201_31
	movq	$1, -8(%r10,%rax)
	movl	$1, %esi
	movq	%rax, %r12
	testb	%bpl, %bpl
	movabsq	$68719476728, %r15
	jne	.LBB201_22
	movq	(%rsp), %rdi
	movq	-8(%r10,%rdi), %rsi
	andq	%r15, %rsi
	xorq	%rax, %rsi
	orq	$1, %rsi
	movq	%rsi, -8(%r10,%rdi)
	orq	$1, %rdi
	movq	%rdi, %rsi
	movq	%r14, %r12
.LBB201_22:
	movq	%rsi, -8(%r10,%rax)
	decl	%r11d
	je	.LBB201_30
	addq	%rax, %rbx
	addq	%rbx, %rcx
	addq	$-8, %rcx
	addl	$2, %r9d
	movl	%r11d, %edi
	xorl	%ebx, %ebx
.LBB201_24:
	movl	%r9d, %esi
	addl	%ebx, %esi
	je	.LBB201_30
	cmpq	%rsi, %rdx
	jb	.LBB201_30
	shlq	$3, %rsi
	testb	$1, -8(%r10,%rsi)
	jne	.LBB201_30
	movq	$1, -8(%r10,%rsi)
	movq	(%rcx,%rbx,8), %r11
	andq	%r15, %r11
	xorq	%rsi, %r11
	orq	$1, %r11
	movq	%r11, (%rcx,%rbx,8)
	leaq	1(%rax), %r11
	movq	%r11, -8(%r10,%rsi)
	addq	$8, %rax
	incq	%rbx
	cmpl	%ebx, %edi
	jne	.LBB201_24
	movq	%r12, %r14
	jmp	.LBB201_31
.LBB201_29:
	movl	$1, %eax
	jmp	.LBB201_32
.LBB201_30:
	movq	%r12, %r14
	movq	%rax, %rsi
.LBB201_31:
	movq	%r14, (%r8)
	movq	%rsi, 8(%r8)
	xorl	%eax, %eax
.LBB201_32:
	addq	$8, %rsp
	popq	%rbx
	popq	%rbp
	popq	%rdi
	popq	%rsi
	popq	%r12
	popq	%r13
	popq	%r14
	popq	%r15
	retq
	.def	ic_xor_insert_between;
	.scl	2;
	.type	32;
	.endef
	.globl	ic_xor_insert_between
	.p2align	4
ic_xor_insert_between:
	pushq	%r15
	pushq	%r14
	pushq	%r13
	pushq	%r12
	pushq	%rsi
	pushq	%rdi
	pushq	%rbp
	pushq	%rbx
	subq	$56, %rsp
	movl	168(%rsp), %eax
	xorl	%r11d, %r11d
	testq	%rcx, %rcx
	sete	%r11b
	shll	$12, %r11d
	addq	%rcx, %r11
	leal	1(%r9), %r12d
	leaq	(,%r12,8), %rcx
	leal	1(%rax), %r14d
	leaq	(,%r14,8), %rsi
	movabsq	$68719476728, %rbx
	movq	(%r8), %r15
	andq	%rbx, %r15
	movq	8(%r8), %rdi
	andq	%rbx, %rdi
	movl	%r9d, %ebp
	incl	%ebp
	jne	.LBB202_1
	cmpq	%rsi, %r15
	je	.LBB202_7
	jmp	.LBB202_26
.LBB202_1:
	cmpq	%r12, %rdx
	jb	.LBB202_26
	movq	-8(%r11,%rcx), %r13
	testb	$1, %r13b
	je	.LBB202_26
	andq	%rbx, %r13
	xorq	%rsi, %r13
	jne	.LBB202_4
	cmpq	%rcx, %r15
	je	.LBB202_7
	jmp	.LBB202_26
.LBB202_4:
	movq	%r13, %rbp
	shrq	$3, %rbp
	cmpq	%rdx, %rbp
	ja	.LBB202_26
	testb	$1, -8(%r11,%r13)
	je	.LBB202_26
.LBB202_7:
	movl	160(%rsp), %r10d
	leal	1(%r10), %r13d
	testq	%r14, %r14
	je	.LBB202_16
	cmpq	%r14, %rdx
	jb	.LBB202_26
	movq	-8(%r11,%rsi), %r10
	testb	$1, %r10b
	je	.LBB202_26
	andq	%rbx, %r10
	xorq	%rcx, %r10
	jne	.LBB202_13
	testq	%r13, %r13
	je	.LBB202_26
	cmpq	%rsi, %rdi
	je	.LBB202_18
	jmp	.LBB202_26
.LBB202_16:
	testq	%r13, %r13
	je	.LBB202_26
	cmpq	%rcx, %rdi
	je	.LBB202_18
	jmp	.LBB202_26
.LBB202_13:
	movq	%r10, %rbp
	shrq	$3, %rbp
	cmpq	%rdx, %rbp
	ja	.LBB202_26
	testq	%r13, %r13
	je	.LBB202_26
	movq	-8(%r11,%r10), %r10
	andl	$1, %r10d
	je	.LBB202_26
.LBB202_18:
	cmpq	%r13, %rdx
	jb	.LBB202_26
	shlq	$3, %r13
	testb	$1, -8(%r11,%r13)
	jne	.LBB202_26
	movq	$1, -8(%r11,%r13)
	movq	%r13, %rax
	testq	%r12, %r12
	je	.LBB202_22
	movq	-8(%r11,%rcx), %rax
	andq	%rbx, %rax
	movq	%r13, %rdx
	xorq	%rsi, %rdx
	xorq	%rax, %rdx
	orq	$1, %rdx
	movq	%rdx, -8(%r11,%rcx)
	movq	%r15, %rax
.LBB202_22:
	movq	%r13, %rdx
	testq	%r14, %r14
	je	.LBB202_24
	andq	-8(%r11,%rsi), %rbx
	movq	%rcx, %rdx
	xorq	%r13, %rdx
	xorq	%rbx, %rdx
	orq	$1, %rdx
	movq	%rdx, -8(%r11,%rsi)
	movq	%rdi, %rdx
.LBB202_24:
	xorq	%rcx, %rsi
	orq	$1, %rsi
	movq	%rsi, -8(%r11,%r13)
	movq	%rax, (%r8)
	movq	%rdx, 8(%r8)
	xorl	%eax, %eax
	jmp	.LBB202_27
.LBB202_26:
	movq	%r11, 40(%rsp)
	movq	%rdx, 48(%rsp)
	leaq	40(%rsp), %rcx
	movl	%r9d, %edx
	movl	%eax, %r8d
	movl	160(%rsp), %r9d
	callq	ic_raw.xor_calls.refusal_with_both
.LBB202_27:
	addq	$56, %rsp
	popq	%rbx
	popq	%rbp
	popq	%rdi
	popq	%rsi
	popq	%r12
	popq	%r13
	popq	%r14
	popq	%r15
	retq
	.def	ic_xor_pop_back;
	.scl	2;
	.type	32;
	.endef
	.globl	ic_xor_pop_back
	.p2align	4
ic_xor_pop_back:
	pushq	%r14
	pushq	%rsi
	pushq	%rdi
	pushq	%rbx
	movabsq	$68719476728, %rbx
	xorl	%esi, %esi
	testq	%rcx, %rcx
	sete	%dil
	movq	8(%r8), %r11
	andq	%rbx, %r11
	je	.LBB203_1
	movq	%r11, %r10
	shrq	$3, %r10
	movl	$5, %eax
	cmpq	%rdx, %r10
	ja	.LBB203_15
	movb	%dil, %sil
	shll	$12, %esi
	addq	%rsi, %rcx
	movq	-8(%rcx,%r11), %rsi
	testb	$1, %sil
	je	.LBB203_15
	movq	(%r8), %rdi
	andq	%rbx, %rdi
	andq	%rbx, %rsi
	je	.LBB203_10
	movq	%rsi, %r14
	shrq	$3, %r14
	cmpq	%rdx, %r14
	ja	.LBB203_15
	movq	-8(%rcx,%rsi), %r14
	testb	$1, %r14b
	je	.LBB203_15
	andq	%rbx, %r14
	xorq	%r11, %r14
	jne	.LBB203_8
	cmpq	%rsi, %rdi
	jne	.LBB203_15
	jmp	.LBB203_13
.LBB203_1:
	movl	$4, %eax
.LBB203_15:
	popq	%rbx
	popq	%rdi
	popq	%rsi
	popq	%r14
	retq
.LBB203_10:
	cmpq	%r11, %rdi
	jne	.LBB203_15
	xorl	%edi, %edi
	jmp	.LBB203_14
.LBB203_8:
	movq	%r14, %rbx
	shrq	$3, %rbx
	cmpq	%rdx, %rbx
	ja	.LBB203_15
	testb	$1, -8(%rcx,%r14)
	je	.LBB203_15
.LBB203_13:
	orq	$1, %r14
	movq	%r14, -8(%rcx,%rsi)
.LBB203_14:
	movq	$0, -8(%rcx,%r11)
	movq	%rdi, (%r8)
	movq	%rsi, 8(%r8)
	decl	%r10d
	movl	%r10d, (%r9)
	xorl	%eax, %eax
	jmp	.LBB203_15
	.def	ic_xor_pop_front;
	.scl	2;
	.type	32;
	.endef
	.globl	ic_xor_pop_front
	.p2align	4
ic_xor_pop_front:
	pushq	%rsi
	pushq	%rdi
	movq	%rcx, %rax
	movabsq	$68719476728, %r11
	xorl	%ecx, %ecx
	testq	%rax, %rax
	sete	%cl
	shll	$12, %ecx
	addq	%rax, %rcx
	movq	(%r8), %rax
	movq	%rax, %r10
	andq	%r11, %r10
	je	.LBB204_10
	movq	%r10, %rsi
	shrq	$3, %rsi
	cmpq	%rdx, %rsi
	ja	.LBB204_10
	movq	-8(%rcx,%r10), %rsi
	testb	$1, %sil
	je	.LBB204_10
	andq	%r11, %rsi
	je	.LBB204_10
	movq	%rsi, %rdi
	shrq	$3, %rdi
	cmpq	%rdx, %rdi
	ja	.LBB204_10
	movq	-8(%rcx,%rsi), %rdi
	testb	$1, %dil
	je	.LBB204_10
	andq	%r11, %rdi
	movq	%rdi, %r11
	xorq	%r10, %r11
	xorq	%r10, %rdi
	je	.LBB204_10
	shrq	$3, %r11
	cmpq	%rdx, %r11
	ja	.LBB204_10
	testb	$1, -8(%rcx,%rdi)
	je	.LBB204_10
	orq	$1, %rdi
	movq	%rdi, -8(%rcx,%rsi)
	movq	$0, -8(%rcx,%r10)
	movq	%rsi, (%r8)
	shrq	$3, %rax
	decl	%eax
	movl	%eax, (%r9)
	xorl	%eax, %eax
	popq	%rdi
	popq	%rsi
	retq
.LBB204_10:
	popq	%rdi
	popq	%rsi
	jmp	ic_raw.xor_calls.pop_front_slow
	.def	ic_xor_push_back;
	.scl	2;
	.type	32;
	.endef
	.globl	ic_xor_push_back
	.p2align	4
ic_xor_push_back:
	pushq	%rsi
	pushq	%rdi
	subq	$56, %rsp
	movq	%rcx, %rax
	movabsq	$68719476728, %r10
	xorl	%ecx, %ecx
	testq	%rax, %rax
	sete	%cl
	shll	$12, %ecx
	addq	%rax, %rcx
	movq	8(%r8), %r11
	movq	%r11, %rax
	andq	%r10, %rax
	je	.LBB205_10
	movq	%rax, %rsi
	shrq	$3, %rsi
	cmpq	%rdx, %rsi
	ja	.LBB205_10
	movq	-8(%rcx,%rax), %rsi
	testb	$1, %sil
	je	.LBB205_10
	andq	%r10, %rsi
	je	.LBB205_10
	movq	%rsi, %rdi
	shrq	$3, %rdi
	cmpq	%rdx, %rdi
	ja	.LBB205_10
	testb	$1, -8(%rcx,%rsi)
	je	.LBB205_10
	leal	1(%r9), %esi
	movl	%r9d, %edi
	incl	%edi
	je	.LBB205_10
	cmpq	%rsi, %rdx
	jb	.LBB205_10
	shlq	$3, %rsi
	testb	$1, -8(%rcx,%rsi)
	jne	.LBB205_10
	movq	(%r8), %rdx
	andq	%r10, %rdx
	movq	$1, -8(%rcx,%rsi)
	andq	-8(%rcx,%rax), %r10
	xorq	%rsi, %r10
	orq	$1, %r10
	movq	%r10, -8(%rcx,%rax)
	orq	$1, %rax
	movq	%rax, -8(%rcx,%rsi)
	movq	%rdx, (%r8)
	movq	%rsi, 8(%r8)
	xorl	%eax, %eax
	addq	$56, %rsp
	popq	%rdi
	popq	%rsi
	retq
.LBB205_10:
	movq	%r11, 32(%rsp)
	movq	$0, 40(%rsp)
	callq	ic_raw.xor_calls.put_slow
	addq	$56, %rsp
	popq	%rdi
	popq	%rsi
	retq
	.def	ic_xor_push_front;
	.scl	2;
	.type	32;
	.endef
	.globl	ic_xor_push_front
	.p2align	4
ic_xor_push_front:
	pushq	%rsi
	pushq	%rdi
	subq	$56, %rsp
	movq	%rcx, %rax
	movabsq	$68719476728, %r10
	xorl	%ecx, %ecx
	testq	%rax, %rax
	sete	%cl
	shll	$12, %ecx
	addq	%rax, %rcx
	movq	(%r8), %r11
	movq	%r11, %rax
	andq	%r10, %rax
	je	.LBB206_10
	movq	%rax, %rsi
	shrq	$3, %rsi
	cmpq	%rdx, %rsi
	ja	.LBB206_10
	movq	-8(%rcx,%rax), %rsi
	testb	$1, %sil
	je	.LBB206_10
	andq	%r10, %rsi
	je	.LBB206_10
	movq	%rsi, %rdi
	shrq	$3, %rdi
	cmpq	%rdx, %rdi
	ja	.LBB206_10
	testb	$1, -8(%rcx,%rsi)
	je	.LBB206_10
	leal	1(%r9), %esi
	movl	%r9d, %edi
	incl	%edi
	je	.LBB206_10
	cmpq	%rsi, %rdx
	jb	.LBB206_10
	shlq	$3, %rsi
	testb	$1, -8(%rcx,%rsi)
	jne	.LBB206_10
	movq	8(%r8), %rdx
	andq	%r10, %rdx
	movq	$1, -8(%rcx,%rsi)
	andq	-8(%rcx,%rax), %r10
	xorq	%rsi, %r10
	orq	$1, %r10
	movq	%r10, -8(%rcx,%rax)
	orq	$1, %rax
	movq	%rax, -8(%rcx,%rsi)
	movq	%rsi, (%r8)
	movq	%rdx, 8(%r8)
	xorl	%eax, %eax
	addq	$56, %rsp
	popq	%rdi
	popq	%rsi
	retq
.LBB206_10:
	movq	%r11, 40(%rsp)
	movq	$0, 32(%rsp)
	callq	ic_raw.xor_calls.put_slow
	addq	$56, %rsp
	popq	%rdi
	popq	%rsi
	retq
	.def	ic_xor_remove;
	.scl	2;
	.type	32;
	.endef
	.globl	ic_xor_remove
	.p2align	4
ic_xor_remove:
	pushq	%r15
	pushq	%r14
	pushq	%r13
	pushq	%r12
	pushq	%rsi
	pushq	%rdi
	pushq	%rbp
	pushq	%rbx
	movl	104(%rsp), %r10d
	xorl	%esi, %esi
	testq	%rcx, %rcx
	sete	%bl
	leal	1(%r10), %r11d
	movl	%r10d, %edi
	movl	$4, %eax
	incl	%edi
	je	.LBB207_24
	movb	%bl, %sil
	shll	$12, %esi
	addq	%rsi, %rcx
	cmpq	%r11, %rdx
	jb	.LBB207_26
	shlq	$3, %r11
	movq	-8(%rcx,%r11), %rbx
	testb	$1, %bl
	je	.LBB207_26
	movabsq	$68719476728, %rdi
	leal	1(%r9), %r15d
	leaq	(,%r15,8), %rsi
	movq	(%r8), %r14
	andq	%rdi, %r14
	movq	8(%r8), %rax
	andq	%rdi, %rax
	testq	%r15, %r15
	je	.LBB207_25
	cmpq	%r15, %rdx
	jb	.LBB207_26
	movq	-8(%rcx,%rsi), %r12
	testb	$1, %r12b
	je	.LBB207_26
	andq	%rdi, %r12
	xorq	%r11, %r12
	jne	.LBB207_7
	cmpq	%rsi, %r14
	je	.LBB207_10
	jmp	.LBB207_26
.LBB207_25:
	cmpq	%r11, %r14
	je	.LBB207_10
	jmp	.LBB207_26
.LBB207_7:
	movq	%r12, %r13
	shrq	$3, %r13
	cmpq	%rdx, %r13
	ja	.LBB207_26
	testb	$1, -8(%rcx,%r12)
	je	.LBB207_26
.LBB207_10:
	andq	%rdi, %rbx
	movq	%rbx, %r12
	xorq	%rsi, %r12
	cmpq	%rsi, %rbx
	jne	.LBB207_11
	cmpq	%r11, %rax
	je	.LBB207_18
	jmp	.LBB207_26
.LBB207_11:
	movq	%r12, %r13
	shrq	$3, %r13
	cmpq	%rdx, %r13
	ja	.LBB207_26
	movq	-8(%rcx,%r12), %r13
	testb	$1, %r13b
	je	.LBB207_26
	andq	%rdi, %r13
	xorq	%r11, %r13
	jne	.LBB207_15
	cmpq	%r12, %rax
	je	.LBB207_18
	jmp	.LBB207_26
.LBB207_15:
	movq	%r13, %rbp
	shrq	$3, %rbp
	cmpq	%rdx, %rbp
	ja	.LBB207_26
	testb	$1, -8(%rcx,%r13)
	je	.LBB207_26
.LBB207_18:
	movq	%r12, %rdx
	testq	%r15, %r15
	je	.LBB207_20
	movq	-8(%rcx,%rsi), %rdx
	andq	%rdi, %rdx
	xorq	%r11, %rdx
	xorq	%r12, %rdx
	orq	$1, %rdx
	movq	%rdx, -8(%rcx,%rsi)
	movq	%r14, %rdx
.LBB207_20:
	cmpq	%rsi, %rbx
	jne	.LBB207_22
	movq	%rsi, %rax
	jmp	.LBB207_23
.LBB207_26:
	movl	%r10d, %r8d
	popq	%rbx
	popq	%rbp
	popq	%rdi
	popq	%rsi
	popq	%r12
	popq	%r13
	popq	%r14
	popq	%r15
	jmp	ic_raw.table.RawTable.refusal_at_both.feecb86c9dd45d96
.LBB207_22:
	andq	-8(%rcx,%r12), %rdi
	xorq	%r11, %rsi
	xorq	%rdi, %rsi
	orq	$1, %rsi
	movq	%rsi, -8(%rcx,%r12)
.LBB207_23:
	movq	$0, -8(%rcx,%r11)
	movq	%rdx, (%r8)
	movq	%rax, 8(%r8)
	xorl	%eax, %eax
.LBB207_24:
	popq	%rbx
	popq	%rbp
	popq	%rdi
	popq	%rsi
	popq	%r12
	popq	%r13
	popq	%r14
	popq	%r15
	retq
	.def	ic_xor_replace;
	.scl	2;
	.type	32;
	.endef
	.globl	ic_xor_replace
	.p2align	4
ic_xor_replace:
	pushq	%r15
	pushq	%r14
	pushq	%r13
	pushq	%r12
	pushq	%rsi
	pushq	%rdi
	pushq	%rbp
	pushq	%rbx
	subq	$56, %rsp
	movq	%rdx, %r11
	movl	160(%rsp), %edx
	xorl	%r10d, %r10d
	testq	%rcx, %rcx
	sete	%bl
	leal	1(%rdx), %esi
	movl	%edx, %edi
	movl	$4, %eax
	incl	%edi
	je	.LBB208_30
	movb	%bl, %r10b
	shll	$12, %r10d
	addq	%r10, %rcx
	movq	%rcx, 40(%rsp)
	movq	%r11, 48(%rsp)
	cmpq	%rsi, %r11
	jb	.LBB208_29
	shlq	$3, %rsi
	movq	-8(%rcx,%rsi), %rax
	testb	$1, %al
	je	.LBB208_29
	movabsq	$68719476728, %rbx
	movq	(%r8), %r14
	andq	%rbx, %r14
	movq	8(%r8), %r10
	andq	%rbx, %r10
	movq	%r10, 32(%rsp)
	leal	1(%r9), %r12d
	leaq	(,%r12,8), %r15
	testq	%r12, %r12
	je	.LBB208_28
	cmpq	%r12, %r11
	jb	.LBB208_29
	movq	-8(%rcx,%r15), %r10
	testb	$1, %r10b
	je	.LBB208_29
	andq	%rbx, %r10
	xorq	%rsi, %r10
	jne	.LBB208_7
	cmpq	%r15, %r14
	je	.LBB208_10
	jmp	.LBB208_29
.LBB208_28:
	cmpq	%rsi, %r14
	je	.LBB208_10
	jmp	.LBB208_29
.LBB208_7:
	movq	%r10, %r13
	shrq	$3, %r13
	cmpq	%r11, %r13
	ja	.LBB208_29
	testb	$1, -8(%rcx,%r10)
	je	.LBB208_29
.LBB208_10:
	movl	168(%rsp), %r10d
	leal	1(%r10), %r13d
	andq	%rbx, %rax
	movq	%rax, %rbp
	xorq	%r15, %rbp
	cmpq	%r15, %rax
	jne	.LBB208_11
	testq	%r13, %r13
	je	.LBB208_29
	cmpq	%rsi, 32(%rsp)
	je	.LBB208_21
	jmp	.LBB208_29
.LBB208_11:
	movq	%rbp, %r10
	shrq	$3, %r10
	cmpq	%r11, %r10
	ja	.LBB208_29
	movq	-8(%rcx,%rbp), %rdi
	testb	$1, %dil
	je	.LBB208_29
	andq	%rbx, %rdi
	xorq	%rsi, %rdi
	jne	.LBB208_16
	testq	%r13, %r13
	je	.LBB208_29
	cmpq	%rbp, 32(%rsp)
	je	.LBB208_21
	jmp	.LBB208_29
.LBB208_16:
	movq	%rdi, %r10
	shrq	$3, %r10
	cmpq	%r11, %r10
	ja	.LBB208_29
	testq	%r13, %r13
	je	.LBB208_29
	movq	-8(%rcx,%rdi), %r10
	andl	$1, %r10d
	je	.LBB208_29
.LBB208_21:
	cmpq	%r13, %r11
	jb	.LBB208_29
	shlq	$3, %r13
	testb	$1, -8(%rcx,%r13)
	jne	.LBB208_29
	movq	$1, -8(%rcx,%r13)
	movq	%r13, %rdx
	testq	%r12, %r12
	je	.LBB208_25
	movq	-8(%rcx,%r15), %rdx
	andq	%rbx, %rdx
	movq	%rsi, %r9
	xorq	%r13, %r9
	xorq	%rdx, %r9
	orq	$1, %r9
	movq	%r9, -8(%rcx,%r15)
	movq	%r14, %rdx
.LBB208_25:
	movq	%r13, %r9
	cmpq	%r15, %rax
	je	.LBB208_27
	andq	-8(%rcx,%rbp), %rbx
	movq	%rsi, %r9
	xorq	%r13, %r9
	xorq	%rbx, %r9
	orq	$1, %r9
	movq	%r9, -8(%rcx,%rbp)
	movq	32(%rsp), %r9
.LBB208_27:
	orq	$1, %rax
	movq	%rax, -8(%rcx,%r13)
	movq	$0, -8(%rcx,%rsi)
	movq	%rdx, (%r8)
	movq	%r9, 8(%r8)
	xorl	%eax, %eax
	jmp	.LBB208_30
.LBB208_29:
	leaq	40(%rsp), %rcx
	movl	%r9d, %r8d
	movl	168(%rsp), %r9d
	callq	ic_raw.xor_calls.refusal_with_both
.LBB208_30:
	addq	$56, %rsp
	popq	%rbx
	popq	%rbp
	popq	%rdi
	popq	%rsi
	popq	%r12
	popq	%r13
	popq	%r14
	popq	%r15
	retq
	.def	ic_xor_reverse;
	.scl	2;
	.type	32;
	.endef
	.globl	ic_xor_reverse
	.p2align	4
ic_xor_reverse:
	movq	(%rcx), %rax
	movq	8(%rcx), %rdx
	movq	%rdx, (%rcx)
	movq	%rax, 8(%rcx)
	xorl	%eax, %eax
	retq
	.def	ic_xor_splice_between;
	.scl	2;
	.type	32;
	.endef
	.globl	ic_xor_splice_between
	.p2align	4
ic_xor_splice_between:
	pushq	%r14
	pushq	%rsi
	pushq	%rdi
	pushq	%rbx
	subq	$72, %rsp
	movl	%r9d, %esi
	movq	%rdx, %rdi
	movl	152(%rsp), %ebx
	movq	144(%rsp), %rax
	xorl	%r14d, %r14d
	testq	%rcx, %rcx
	sete	%r14b
	shll	$12, %r14d
	addq	%rcx, %r14
	leal	1(%rsi), %ecx
	leaq	(,%rcx,8), %rdx
	testl	%ecx, %ecx
	setne	%r9b
	leal	1(%rbx), %ecx
	leaq	(,%rcx,8), %r10
	testl	%ecx, %ecx
	setne	48(%rsp)
	movq	%rax, 40(%rsp)
	movq	%r10, 56(%rsp)
	movq	%rdx, 32(%rsp)
	movq	%r14, %rcx
	movq	%rdi, %rdx
	callq	ic_raw.xor_calls.splice
	testb	%al, %al
	je	.LBB210_2
	xorl	%eax, %eax
	addq	$72, %rsp
	popq	%rbx
	popq	%rdi
	popq	%rsi
	popq	%r14
	retq
.LBB210_2:
	movq	%r14, %rcx
	movq	%rdi, %rdx
	movl	%esi, %r8d
	movl	%ebx, %r9d
	addq	$72, %rsp
	popq	%rbx
	popq	%rdi
	popq	%rsi
	popq	%r14
	jmp	ic_raw.table.RawTable.refusal_at_both.feecb86c9dd45d96
	.def	ic_xor_split_between;
	.scl	2;
	.type	32;
	.endef
	.globl	ic_xor_split_between
	.p2align	4
ic_xor_split_between:
	pushq	%r15
	pushq	%r14
	pushq	%r13
	pushq	%r12
	pushq	%rsi
	pushq	%rdi
	pushq	%rbp
	pushq	%rbx
	movq	%rcx, %r10
	movq	112(%rsp), %r11
	movl	104(%rsp), %eax
	movabsq	$68719476728, %rsi
	xorl	%ecx, %ecx
	testq	%r10, %r10
	sete	%cl
	shll	$12, %ecx
	addq	%r10, %rcx
	testq	%rsi, (%r11)
	jne	.LBB211_23
	testq	%rsi, 8(%r11)
	jne	.LBB211_23
	movq	(%r8), %r10
	andq	%rsi, %r10
	movq	8(%r8), %rdi
	andq	%rsi, %rdi
	leal	1(%r9), %r12d
	leaq	(,%r12,8), %rbx
	leal	1(%rax), %r15d
	leaq	(,%r15,8), %r14
	testq	%r12, %r12
	je	.LBB211_22
	cmpq	%r12, %rdx
	jb	.LBB211_23
	movq	-8(%rcx,%rbx), %r13
	testb	$1, %r13b
	je	.LBB211_23
	andq	%rsi, %r13
	xorq	%r14, %r13
	jne	.LBB211_6
	cmpq	%rbx, %r10
	je	.LBB211_9
	jmp	.LBB211_23
.LBB211_22:
	cmpq	%r14, %r10
	je	.LBB211_9
	jmp	.LBB211_23
.LBB211_6:
	movq	%r13, %rbp
	shrq	$3, %rbp
	cmpq	%rdx, %rbp
	ja	.LBB211_23
	testb	$1, -8(%rcx,%r13)
	je	.LBB211_23
.LBB211_9:
	testq	%r15, %r15
	je	.LBB211_16
	cmpq	%r15, %rdx
	jb	.LBB211_23
	movq	-8(%rcx,%r14), %r13
	testb	$1, %r13b
	je	.LBB211_23
	andq	%rsi, %r13
	xorq	%rbx, %r13
	jne	.LBB211_14
	cmpq	%r14, %rdi
	je	.LBB211_17
	jmp	.LBB211_23
.LBB211_16:
	cmpq	%rbx, %rdi
	je	.LBB211_17
	jmp	.LBB211_23
.LBB211_14:
	movq	%r13, %rbp
	shrq	$3, %rbp
	cmpq	%rdx, %rbp
	ja	.LBB211_23
	testb	$1, -8(%rcx,%r13)
	je	.LBB211_23
.LBB211_17:
	testq	%r12, %r12
	je	.LBB211_18
	movq	-8(%rcx,%rbx), %rax
	andq	%rsi, %rax
	xorq	%r14, %rax
	orq	$1, %rax
	movq	%rax, -8(%rcx,%rbx)
	testq	%r15, %r15
	je	.LBB211_21
.LBB211_24:
	andq	-8(%rcx,%r14), %rsi
	xorq	%rbx, %rsi
	orq	$1, %rsi
	movq	%rsi, -8(%rcx,%r14)
	jmp	.LBB211_25
.LBB211_23:
	movl	%r9d, %r8d
	movl	%eax, %r9d
	popq	%rbx
	popq	%rbp
	popq	%rdi
	popq	%rsi
	popq	%r12
	popq	%r13
	popq	%r14
	popq	%r15
	jmp	ic_raw.table.RawTable.refusal_at_both.feecb86c9dd45d96
.LBB211_18:
	xorl	%r10d, %r10d
	testq	%r15, %r15
	jne	.LBB211_24
.LBB211_21:
	xorl	%r14d, %r14d
	xorl	%edi, %edi
.LBB211_25:
	movq	%r10, (%r8)
	movq	%rbx, 8(%r8)
	movq	%r14, (%r11)
	movq	%rdi, 8(%r11)
	xorl	%eax, %eax
	popq	%rbx
	popq	%rbp
	popq	%rdi
	popq	%rsi
	popq	%r12
	popq	%r13
	popq	%r14
	popq	%r15
	retq
