/* Lists, rings, hash tables and a red-black tree over tables of links, with checks, sorts and merges: the calls of ic.h, for x86_64-macos.
   the module of x86_64-linux, for x86_64-apple-macos11
   Licensed under Apache 2.0 or MIT. Made by tools/build-library: do not edit. */
	.build_version macos, 11, 0
	.section	__TEXT,__text,regular,pure_instructions
	.globl	ic_version_0_1
ic_version_0_1 = 1
	.p2align	4
_ic_raw.table.refusal_at_end.feecb86c9dd45d96:
	.cfi_startproc
	subq	$24, %rsp
	.cfi_def_cfa_offset 32
	movq	%rdi, 8(%rsp)
	movq	%rsi, 16(%rsp)
	leaq	8(%rsp), %rdi
	movl	$-1, %esi
	callq	_ic_raw.table.RawTable.refusal.feecb86c9dd45d96
	addq	$24, %rsp
	retq
	.cfi_endproc
	.p2align	4
_ic_raw.table.RawTable.refusal.feecb86c9dd45d96:
	.cfi_startproc
	incl	%esi
	jne	LBB1_1
LBB1_3:
	movl	$1, %eax
	incl	%edx
	je	LBB1_6
	cmpq	%rdx, 8(%rdi)
	jb	LBB1_6
	movq	(%rdi), %rax
	xorl	%ecx, %ecx
	testb	$1, -8(%rax,%rdx,8)
	sete	%cl
	leal	(%rcx,%rcx,2), %eax
	addl	$2, %eax
	retq
LBB1_1:
	movl	$1, %eax
	cmpq	%rsi, 8(%rdi)
	jb	LBB1_6
	movq	(%rdi), %rcx
	movl	$3, %eax
	testb	$1, -8(%rcx,%rsi,8)
	jne	LBB1_3
LBB1_6:
	retq
	.cfi_endproc
	.p2align	4
_ic_raw.table.RawTable.refusal_of.feecb86c9dd45d96:
	.cfi_startproc
	movq	%rdx, %rcx
	shrq	$3, %rcx
	movl	$1, %eax
	cmpq	%rsi, %rcx
	ja	LBB2_2
	movzbl	-8(%rdi,%rdx), %eax
	andl	$1, %eax
	leal	3(,%rax,2), %eax
LBB2_2:
	retq
	.cfi_endproc
	.p2align	4
_ic_raw.list_calls.splice_slow.55ebd757a04f39fd:
	.cfi_startproc
	pushq	%rbp
	.cfi_def_cfa_offset 16
	pushq	%r15
	.cfi_def_cfa_offset 24
	pushq	%r14
	.cfi_def_cfa_offset 32
	pushq	%r13
	.cfi_def_cfa_offset 40
	pushq	%r12
	.cfi_def_cfa_offset 48
	pushq	%rbx
	.cfi_def_cfa_offset 56
	.cfi_offset %rbx, -56
	.cfi_offset %r12, -48
	.cfi_offset %r13, -40
	.cfi_offset %r14, -32
	.cfi_offset %r15, -24
	.cfi_offset %rbp, -16
	movabsq	$68719476728, %rax
	movq	(%rdx), %rbx
	andq	%rax, %rbx
	movq	8(%rdx), %r11
	andq	%rax, %r11
	movq	(%r8), %r10
	andq	%rax, %r10
	andq	8(%r8), %rax
	leal	1(%rcx), %r12d
	leaq	(,%r12,8), %r14
	testl	%r12d, %r12d
	setne	%bpl
	je	LBB3_5
	cmpq	$536870911, %rsi
	movl	$536870911, %r15d
	cmovbq	%rsi, %r15
	cmpq	%r12, %r15
	jb	LBB3_13
	movl	-8(%rdi,%r14), %r12d
	testb	$1, %r12b
	je	LBB3_13
	testb	$1, %r9b
	je	LBB3_4
	movl	-4(%rdi,%r14), %r12d
	movl	$4294967288, %r9d
	andq	%r12, %r9
	je	LBB3_19
	movq	%r9, %r12
	shrq	$3, %r12
	cmpq	%r15, %r12
	jbe	LBB3_18
	jmp	LBB3_13
LBB3_5:
	testb	$1, %r9b
	je	LBB3_6
	testq	%r11, %r11
	je	LBB3_19
	cmpq	$536870911, %rsi
	movl	$536870911, %r15d
	cmovbq	%rsi, %r15
	movq	%r11, %r9
	movq	%r9, %r12
	shrq	$3, %r12
	cmpq	%r15, %r12
	ja	LBB3_13
LBB3_18:
	movl	-8(%rdi,%r9), %r12d
	andl	$-7, %r12d
	movq	%r14, %r13
	orq	$1, %r13
	movb	$1, %r15b
	cmpq	%r12, %r13
	jne	LBB3_13
LBB3_21:
	testq	%rax, %rax
	je	LBB3_34
LBB3_22:
	cmpq	$536870911, %rsi
	movl	$536870911, %r12d
	cmovbq	%rsi, %r12
	movq	%rax, %r13
	shrq	$3, %r13
	cmpq	%r12, %r13
	ja	LBB3_13
	testq	%r10, %r10
	je	LBB3_13
	movl	-8(%rdi,%rax), %r13d
	andl	$-7, %r13d
	cmpl	$1, %r13d
	jne	LBB3_13
	movq	%r10, %r13
	shrq	$3, %r13
	cmpq	%r12, %r13
	ja	LBB3_13
	testb	$1, -8(%rdi,%r10)
	je	LBB3_13
	cmpq	%r10, %rbx
	je	LBB3_13
	cmpl	$7, -4(%rdi,%r10)
	ja	LBB3_13
	movq	%r10, %rcx
	testb	%r15b, %r15b
	je	LBB3_31
	movl	%r10d, %ecx
	orl	$1, %ecx
	movl	%ecx, -8(%rdi,%r9)
	movq	%rbx, %rcx
LBB3_31:
	movq	%rax, %rsi
	testb	%bpl, %bpl
	je	LBB3_33
	movl	%eax, -4(%rdi,%r14)
	movq	%r11, %rsi
LBB3_33:
	xorl	%r11d, %r11d
	testb	%r15b, %r15b
	cmovel	%r11d, %r9d
	incl	%r14d
	testb	%bpl, %bpl
	movl	$1, %r11d
	cmovnel	%r14d, %r11d
	movl	%r9d, -4(%rdi,%r10)
	movl	%r11d, -8(%rdi,%rax)
	movq	%rcx, %rbx
	movq	%rsi, %r11
	jmp	LBB3_35
LBB3_4:
	movl	$4294967288, %r9d
	andq	%r9, %r12
	je	LBB3_7
	movq	%r12, %r9
	shrq	$3, %r9
	cmpq	%r15, %r9
	jbe	LBB3_10
	jmp	LBB3_13
LBB3_6:
	testq	%rbx, %rbx
	je	LBB3_7
	cmpq	$536870911, %rsi
	movl	$536870911, %r15d
	cmovbq	%rsi, %r15
	movq	%rbx, %r12
	movq	%r12, %r9
	shrq	$3, %r9
	cmpq	%r15, %r9
	ja	LBB3_13
LBB3_10:
	testb	$1, -8(%rdi,%r12)
	je	LBB3_13
	movl	-4(%rdi,%r12), %r13d
	andl	$-8, %r13d
	movb	$1, %r9b
	jmp	LBB3_12
LBB3_19:
	cmpq	%r14, %rbx
	jne	LBB3_13
	xorl	%r15d, %r15d
	xorl	%r9d, %r9d
	movq	%rbx, %r14
	testq	%rax, %rax
	jne	LBB3_22
LBB3_34:
	testq	%r10, %r10
	jne	LBB3_13
LBB3_35:
	movq	%rbx, (%rdx)
	movq	%r11, 8(%rdx)
	movq	$0, 8(%r8)
	movq	$0, (%r8)
	xorl	%eax, %eax
	popq	%rbx
	popq	%r12
	popq	%r13
	popq	%r14
	popq	%r15
	popq	%rbp
	retq
LBB3_7:
	xorl	%r9d, %r9d
	xorl	%r12d, %r12d
	movq	%r11, %r13
LBB3_12:
	movl	%ebp, %r15d
	movl	%r9d, %ebp
	cmpq	%r14, %r13
	movq	%r14, %r9
	movq	%r12, %r14
	je	LBB3_21
LBB3_13:
	movl	%ecx, %edx
	popq	%rbx
	popq	%r12
	popq	%r13
	popq	%r14
	popq	%r15
	popq	%rbp
	jmp	_ic_raw.table.RawTable.refusal_at.05a19227735374d3
	.cfi_endproc
	.p2align	4
_ic_raw.table.RawTable.refusal_at.05a19227735374d3:
	.cfi_startproc
	movl	$5, %eax
	incl	%edx
	je	LBB4_3
	cmpq	$536870911, %rsi
	movl	$536870911, %ecx
	cmovbq	%rsi, %rcx
	movl	$1, %eax
	cmpl	%edx, %ecx
	jb	LBB4_3
	movzbl	-8(%rdi,%rdx,8), %eax
	andl	$1, %eax
	leal	3(,%rax,2), %eax
LBB4_3:
	retq
	.cfi_endproc
	.p2align	4
_ic_raw.table.RawTable.refusal.05a19227735374d3:
	.cfi_startproc
	cmpq	$536870911, %rsi
	movl	$536870911, %r8d
	cmovbq	%rsi, %r8
	incl	%edx
	jne	LBB5_1
LBB5_3:
	incl	%ecx
	sete	%al
	cmpq	%rcx, %r8
	setb	%dl
	orb	%al, %dl
	movl	$1, %eax
	jne	LBB5_5
	xorl	%eax, %eax
	testb	$1, -8(%rdi,%rcx,8)
	sete	%al
	leal	(%rax,%rax,2), %eax
	addl	$2, %eax
	retq
LBB5_1:
	movl	$1, %eax
	cmpq	%rdx, %r8
	jb	LBB5_5
	movl	$3, %eax
	testb	$1, -8(%rdi,%rdx,8)
	jne	LBB5_3
LBB5_5:
	retq
	.cfi_endproc
	.p2align	4
_ic_raw.move_calls.move_slow.55ebd757a04f39fd:
	.cfi_startproc
	pushq	%rbp
	.cfi_def_cfa_offset 16
	pushq	%r15
	.cfi_def_cfa_offset 24
	pushq	%r14
	.cfi_def_cfa_offset 32
	pushq	%r13
	.cfi_def_cfa_offset 40
	pushq	%r12
	.cfi_def_cfa_offset 48
	pushq	%rbx
	.cfi_def_cfa_offset 56
	subq	$16, %rsp
	.cfi_def_cfa_offset 72
	.cfi_offset %rbx, -56
	.cfi_offset %r12, -48
	.cfi_offset %r13, -40
	.cfi_offset %r14, -32
	.cfi_offset %r15, -24
	.cfi_offset %rbp, -16
	movq	%rsi, %r15
	leal	1(%r9), %esi
	movl	%r9d, %r11d
	movl	$4, %eax
	incl	%r11d
	je	LBB6_44
	movabsq	$68719476728, %r11
	movq	(%rdx), %r10
	andq	%r11, %r10
	andq	8(%rdx), %r11
	leal	1(%r8), %eax
	leaq	(,%rax,8), %rbx
	testl	%eax, %eax
	setne	7(%rsp)
	movq	%r10, 8(%rsp)
	je	LBB6_6
	cmpq	$536870911, %r15
	movl	$536870911, %r12d
	cmovbq	%r15, %r12
	cmpq	%rax, %r12
	jb	LBB6_14
	movl	-8(%rdi,%rbx), %eax
	testb	$1, %al
	je	LBB6_14
	testb	$1, %cl
	je	LBB6_5
	movl	-4(%rdi,%rbx), %eax
	movl	$4294967288, %ecx
	andq	%rax, %rcx
	je	LBB6_20
	movq	%rcx, %rax
	shrq	$3, %rax
	cmpq	%r12, %rax
	jbe	LBB6_19
	jmp	LBB6_14
LBB6_6:
	testb	$1, %cl
	je	LBB6_7
	testq	%r11, %r11
	je	LBB6_20
	cmpq	$536870911, %r15
	movl	$536870911, %r12d
	cmovbq	%r15, %r12
	movq	%r11, %rcx
	movq	%rcx, %rax
	shrq	$3, %rax
	cmpq	%r12, %rax
	ja	LBB6_14
LBB6_19:
	movl	-8(%rdi,%rcx), %eax
	andl	$-7, %eax
	movq	%rbx, %r14
	orq	$1, %r14
	movb	$1, %r12b
	cmpq	%rax, %r14
	je	LBB6_22
	jmp	LBB6_14
LBB6_5:
	movl	$4294967288, %ecx
	andq	%rcx, %rax
	je	LBB6_8
	movq	%rax, %rcx
	shrq	$3, %rcx
	cmpq	%r12, %rcx
	jbe	LBB6_11
	jmp	LBB6_14
LBB6_7:
	testq	%r10, %r10
	je	LBB6_8
	cmpq	$536870911, %r15
	movl	$536870911, %r12d
	cmovbq	%r15, %r12
	movq	%r10, %rax
	movq	%rax, %rcx
	shrq	$3, %rcx
	cmpq	%r12, %rcx
	ja	LBB6_14
LBB6_11:
	testb	$1, -8(%rdi,%rax)
	je	LBB6_14
	movl	-4(%rdi,%rax), %r13d
	andl	$-8, %r13d
	movb	$1, %cl
	jmp	LBB6_13
LBB6_20:
	cmpq	%rbx, 8(%rsp)
	jne	LBB6_14
	xorl	%r12d, %r12d
	xorl	%ecx, %ecx
	movq	8(%rsp), %rbx
	jmp	LBB6_22
LBB6_8:
	xorl	%ecx, %ecx
	xorl	%eax, %eax
	movq	%r11, %r13
LBB6_13:
	movzbl	7(%rsp), %r10d
	movl	%r10d, %r12d
	movb	%cl, 7(%rsp)
	cmpq	%rbx, %r13
	movq	%rbx, %rcx
	movq	%rax, %rbx
	jne	LBB6_14
LBB6_22:
	cmpq	$536870911, %r15
	movl	$536870911, %eax
	cmovbq	%r15, %rax
	cmpq	%rsi, %rax
	jb	LBB6_14
	shlq	$3, %rsi
	movl	-8(%rdi,%rsi), %ebp
	testb	$1, %bpl
	je	LBB6_14
	movl	-4(%rdi,%rsi), %r13d
	andl	$-8, %r13d
	je	LBB6_27
	movl	%r13d, %r14d
	shrl	$3, %r14d
	cmpq	%rax, %r14
	ja	LBB6_14
	movl	-8(%rdi,%r13), %r14d
	andl	$-7, %r14d
	movq	%rsi, %r10
	orq	$1, %r10
	cmpq	%r14, %r10
	je	LBB6_28
	jmp	LBB6_14
LBB6_27:
	cmpq	%rsi, 8(%rsp)
	jne	LBB6_14
LBB6_28:
	movq	%r11, %r14
	andl	$-8, %ebp
	je	LBB6_32
	movl	%ebp, %r10d
	shrl	$3, %r10d
	cmpq	%rax, %r10
	ja	LBB6_14
	testb	$1, -8(%rdi,%rbp)
	je	LBB6_14
	movl	-4(%rdi,%rbp), %r14d
	andl	$-8, %r14d
LBB6_32:
	cmpq	%rsi, %r14
	jne	LBB6_14
	xorl	%eax, %eax
	testb	%r12b, %r12b
	movq	%rcx, %r8
	cmoveq	%rax, %r8
	cmpq	%rsi, %r8
	je	LBB6_44
	xorl	%eax, %eax
	cmpb	$0, 7(%rsp)
	movq	%rbx, %r8
	cmoveq	%rax, %r8
	cmpq	%rsi, %r8
	je	LBB6_44
	movq	%rdx, %r10
	movq	%rbp, %rax
	testl	%r13d, %r13d
	je	LBB6_37
	movl	%ebp, %eax
	orl	$1, %eax
	movl	%eax, -8(%rdi,%r13)
	movq	8(%rsp), %rax
LBB6_37:
	testl	%ebp, %ebp
	je	LBB6_39
	movl	%r13d, -4(%rdi,%rbp)
	movq	%r11, %r13
LBB6_39:
	movq	%rsi, %rdx
	testb	%r12b, %r12b
	je	LBB6_41
	movl	%esi, %edx
	orl	$1, %edx
	movl	%edx, -8(%rdi,%rcx)
	movq	%rax, %rdx
LBB6_41:
	movq	%rsi, %r8
	cmpb	$0, 7(%rsp)
	je	LBB6_43
	movl	%esi, -4(%rdi,%rbx)
	movq	%r13, %r8
LBB6_43:
	xorl	%eax, %eax
	testb	%r12b, %r12b
	cmovel	%eax, %ecx
	incl	%ebx
	cmpb	$0, 7(%rsp)
	movl	$1, %r9d
	cmovnel	%ebx, %r9d
	movl	%ecx, -4(%rdi,%rsi)
	movl	%r9d, -8(%rdi,%rsi)
	movq	%rdx, (%r10)
	movq	%r8, 8(%r10)
LBB6_44:
	addq	$16, %rsp
	popq	%rbx
	popq	%r12
	popq	%r13
	popq	%r14
	popq	%r15
	popq	%rbp
	retq
LBB6_14:
	movq	%r15, %rsi
	movl	%r8d, %edx
	movl	%r9d, %ecx
	addq	$16, %rsp
	popq	%rbx
	popq	%r12
	popq	%r13
	popq	%r14
	popq	%r15
	popq	%rbp
	jmp	_ic_raw.table.RawTable.refusal_at_both.05a19227735374d3
	.cfi_endproc
	.p2align	4
_ic_raw.table.RawTable.refusal_at_both.05a19227735374d3:
	.cfi_startproc
	incl	%edx
	jne	LBB7_1
LBB7_3:
	movl	$5, %eax
	incl	%ecx
	je	LBB7_6
	cmpq	$536870911, %rsi
	movl	$536870911, %edx
	cmovbq	%rsi, %rdx
	movl	$1, %eax
	cmpl	%ecx, %edx
	jb	LBB7_6
	movzbl	-8(%rdi,%rcx,8), %eax
	andl	$1, %eax
	leal	3(,%rax,2), %eax
	retq
LBB7_1:
	cmpq	$536870911, %rsi
	movl	$536870911, %r8d
	cmovbq	%rsi, %r8
	movl	$1, %eax
	cmpl	%edx, %r8d
	jb	LBB7_6
	movl	$3, %eax
	testb	$1, -8(%rdi,%rdx,8)
	jne	LBB7_3
LBB7_6:
	retq
	.cfi_endproc
	.p2align	4
_ic_raw.move_calls.move_to_end_slow.55ebd757a04f39fd:
	.cfi_startproc
	pushq	%r14
	.cfi_def_cfa_offset 16
	pushq	%rbx
	.cfi_def_cfa_offset 24
	.cfi_offset %rbx, -24
	.cfi_offset %r14, -16
	movl	%r8d, %r9d
	leal	1(%r9), %ebx
	movl	$4, %eax
	incl	%r8d
	je	LBB8_26
	leaq	(,%rbx,8), %rax
	movabsq	$68719476728, %r10
	movq	(%rdx), %r8
	andq	%r10, %r8
	andq	8(%rdx), %r10
	testb	$1, %cl
	je	LBB8_2
	cmpq	%rax, %r8
	jne	LBB8_27
	cmpq	$536870911, %rsi
	movl	$536870911, %r8d
	cmovbq	%rsi, %r8
	cmpq	%rbx, %r8
	jb	LBB8_27
	cmpl	$0, -4(%rdi,%rax)
	jne	LBB8_27
	movl	-8(%rdi,%rax), %ebx
	testb	$1, %bl
	je	LBB8_27
	movl	$4294967288, %r11d
	andq	%rbx, %r11
	je	LBB8_27
	shrl	$3, %ebx
	cmpq	%r8, %rbx
	ja	LBB8_27
	movl	-4(%rdi,%r11), %ebx
	cmpq	%rbx, %rax
	jne	LBB8_27
	testq	%r10, %r10
	je	LBB8_27
	testb	$1, -8(%rdi,%r11)
	je	LBB8_27
	movq	%r10, %rbx
	shrq	$3, %rbx
	cmpq	%r8, %rbx
	ja	LBB8_27
	cmpl	$1, -8(%rdi,%r10)
	jne	LBB8_27
	movl	$0, -4(%rdi,%r11)
	movl	%eax, %ecx
	orl	$1, %ecx
	movl	%ecx, -8(%rdi,%r10)
	movl	%r10d, -4(%rdi,%rax)
	movl	$1, %r8d
	movq	%rax, %r10
	jmp	LBB8_25
LBB8_2:
	cmpq	%rax, %r10
	jne	LBB8_27
	cmpq	$536870911, %rsi
	movl	$536870911, %r11d
	cmovbq	%rsi, %r11
	cmpq	%rbx, %r11
	jb	LBB8_27
	cmpl	$1, -8(%rdi,%rax)
	jne	LBB8_27
	movl	-4(%rdi,%rax), %ebx
	movl	$4294967288, %r10d
	andq	%rbx, %r10
	je	LBB8_27
	shrl	$3, %ebx
	cmpq	%r11, %rbx
	ja	LBB8_27
	testq	%r8, %r8
	je	LBB8_27
	movl	-8(%rdi,%r10), %ebx
	movq	%rax, %r14
	orq	$1, %r14
	cmpq	%rbx, %r14
	jne	LBB8_27
	movq	%r8, %rbx
	shrq	$3, %rbx
	cmpq	%r11, %rbx
	ja	LBB8_27
	cmpl	$0, -4(%rdi,%r8)
	jne	LBB8_27
	testb	$1, -8(%rdi,%r8)
	je	LBB8_27
	movl	$1, -8(%rdi,%r10)
	movl	%eax, -4(%rdi,%r8)
	movl	$0, -4(%rdi,%rax)
	orl	$1, %r8d
	movq	%rax, %r11
LBB8_25:
	movl	%r8d, -8(%rdi,%rax)
	movq	%r11, (%rdx)
	movq	%r10, 8(%rdx)
	xorl	%eax, %eax
LBB8_26:
	popq	%rbx
	popq	%r14
	retq
LBB8_27:
	movzbl	%cl, %ecx
	movl	$-1, %r8d
	popq	%rbx
	popq	%r14
	jmp	_ic_raw.move_calls.move_slow.55ebd757a04f39fd
	.cfi_endproc
	.p2align	4
_ic_raw.list_calls.refusal_to_pop:
	.cfi_startproc
	movzbl	%sil, %eax
	movabsq	$68719476728, %rcx
	andq	(%rdi,%rax,8), %rcx
	cmpq	$1, %rcx
	movl	$5, %eax
	sbbl	$0, %eax
	retq
	.cfi_endproc
	.p2align	4
_ic_raw.list_calls.pop_front_slow.55ebd757a04f39fd:
	.cfi_startproc
	movabsq	$68719476728, %r8
	movq	(%rdx), %rax
	andq	%r8, %rax
	je	LBB10_12
	cmpq	$536870911, %rsi
	movl	$536870911, %r10d
	cmovbq	%rsi, %r10
	movq	%rax, %rsi
	shrq	$3, %rsi
	cmpq	%r10, %rsi
	ja	LBB10_12
	movl	-8(%rdi,%rax), %r9d
	testb	$1, %r9b
	je	LBB10_12
	cmpl	$7, -4(%rdi,%rax)
	ja	LBB10_12
	andq	8(%rdx), %r8
	movl	$4294967288, %r11d
	andq	%r11, %r9
	je	LBB10_9
	movl	%r9d, %r11d
	shrl	$3, %r11d
	cmpq	%r10, %r11
	ja	LBB10_12
	testb	$1, -8(%rdi,%r9)
	je	LBB10_12
	movl	-4(%rdi,%r9), %r10d
	andl	$-8, %r10d
	cmpq	%r10, %rax
	jne	LBB10_12
	movl	$0, -4(%rdi,%r9)
	jmp	LBB10_11
LBB10_9:
	cmpq	%rax, %r8
	jne	LBB10_12
	xorl	%r8d, %r8d
LBB10_11:
	movl	$0, -8(%rdi,%rax)
	movq	%r9, (%rdx)
	movq	%r8, 8(%rdx)
	decl	%esi
	movl	%esi, (%rcx)
	xorl	%eax, %eax
	retq
LBB10_12:
	movq	%rdx, %rdi
	xorl	%esi, %esi
	jmp	_ic_raw.list_calls.refusal_to_pop
	.cfi_endproc
	.p2align	4
_ic_raw.list_calls.push_back_slow.55ebd757a04f39fd:
	.cfi_startproc
	movabsq	$68719476728, %rax
	movq	(%rdx), %r8
	andq	%rax, %r8
	andq	8(%rdx), %rax
	je	LBB11_4
	cmpq	$536870911, %rsi
	movl	$536870911, %r10d
	cmovbq	%rsi, %r10
	movq	%rax, %r9
	shrq	$3, %r9
	cmpq	%r10, %r9
	ja	LBB11_3
	movl	-8(%rdi,%rax), %r9d
	andl	$-7, %r9d
	cmpl	$1, %r9d
	jne	LBB11_3
	leal	1(%rcx), %r9d
	testq	%r9, %r9
	jne	LBB11_7
	jmp	LBB11_3
LBB11_4:
	testq	%r8, %r8
	jne	LBB11_3
	cmpq	$536870911, %rsi
	movl	$536870911, %r10d
	cmovbq	%rsi, %r10
	leal	1(%rcx), %r9d
	testq	%r9, %r9
	je	LBB11_3
LBB11_7:
	cmpq	%r9, %r10
	jb	LBB11_3
	shlq	$3, %r9
	testb	$1, -8(%rdi,%r9)
	jne	LBB11_3
	movq	%r9, %rcx
	testq	%rax, %rax
	je	LBB11_11
	movl	%r9d, %ecx
	orl	$1, %ecx
	movl	%ecx, -8(%rdi,%rax)
	movq	%r8, %rcx
LBB11_11:
	movl	%eax, -4(%rdi,%r9)
	movl	$1, -8(%rdi,%r9)
	movq	%rcx, (%rdx)
	movq	%r9, 8(%rdx)
	xorl	%eax, %eax
	retq
LBB11_3:
	movl	$-1, %edx
	jmp	_ic_raw.table.RawTable.refusal.05a19227735374d3
	.cfi_endproc
	.p2align	4
_ic_raw.list_calls.remove_slow.55ebd757a04f39fd:
	.cfi_startproc
	pushq	%r15
	.cfi_def_cfa_offset 16
	pushq	%r14
	.cfi_def_cfa_offset 24
	pushq	%rbx
	.cfi_def_cfa_offset 32
	.cfi_offset %rbx, -32
	.cfi_offset %r14, -24
	.cfi_offset %r15, -16
	leal	1(%rcx), %r8d
	movl	%ecx, %r9d
	movl	$4, %eax
	incl	%r9d
	je	LBB12_18
	cmpq	$536870911, %rsi
	movl	$536870911, %ebx
	cmovbq	%rsi, %rbx
	cmpq	%r8, %rbx
	jb	LBB12_6
	shlq	$3, %r8
	movl	-8(%rdi,%r8), %eax
	testb	$1, %al
	je	LBB12_6
	movabsq	$68719476728, %r9
	movq	(%rdx), %r11
	andq	%r9, %r11
	andq	8(%rdx), %r9
	movl	-4(%rdi,%r8), %r10d
	andl	$-8, %r10d
	je	LBB12_7
	movl	%r10d, %r14d
	shrl	$3, %r14d
	cmpq	%rbx, %r14
	ja	LBB12_6
	movl	-8(%rdi,%r10), %r14d
	andl	$-7, %r14d
	movq	%r8, %r15
	orq	$1, %r15
	cmpq	%r14, %r15
	je	LBB12_8
	jmp	LBB12_6
LBB12_7:
	cmpq	%r8, %r11
	jne	LBB12_6
LBB12_8:
	movq	%r9, %r14
	andl	$-8, %eax
	je	LBB12_12
	movl	%eax, %r14d
	shrl	$3, %r14d
	cmpq	%rbx, %r14
	ja	LBB12_6
	testb	$1, -8(%rdi,%rax)
	je	LBB12_6
	movl	-4(%rdi,%rax), %r14d
	andl	$-8, %r14d
LBB12_12:
	cmpq	%r8, %r14
	jne	LBB12_6
	movq	%rax, %rcx
	testl	%r10d, %r10d
	je	LBB12_15
	movl	%eax, %ecx
	orl	$1, %ecx
	movl	%ecx, -8(%rdi,%r10)
	movq	%r11, %rcx
LBB12_15:
	testl	%eax, %eax
	je	LBB12_17
	movl	%r10d, -4(%rdi,%rax)
	movq	%r9, %r10
LBB12_17:
	movl	$0, -8(%rdi,%r8)
	movq	%rcx, (%rdx)
	movq	%r10, 8(%rdx)
	xorl	%eax, %eax
LBB12_18:
	popq	%rbx
	popq	%r14
	popq	%r15
	retq
LBB12_6:
	movl	%ecx, %edx
	popq	%rbx
	popq	%r14
	popq	%r15
	jmp	_ic_raw.table.RawTable.refusal_at.05a19227735374d3
	.cfi_endproc
	.p2align	4
_ic_raw.list_calls.split_slow.55ebd757a04f39fd:
	.cfi_startproc
	pushq	%r15
	.cfi_def_cfa_offset 16
	pushq	%r14
	.cfi_def_cfa_offset 24
	pushq	%r13
	.cfi_def_cfa_offset 32
	pushq	%r12
	.cfi_def_cfa_offset 40
	pushq	%rbx
	.cfi_def_cfa_offset 48
	.cfi_offset %rbx, -48
	.cfi_offset %r12, -40
	.cfi_offset %r13, -32
	.cfi_offset %r14, -24
	.cfi_offset %r15, -16
	movabsq	$68719476728, %rax
	testq	%rax, (%r8)
	jne	LBB13_34
	testq	%rax, 8(%r8)
	jne	LBB13_34
	movq	(%rdx), %r10
	andq	%rax, %r10
	andq	8(%rdx), %rax
	leal	1(%rcx), %r15d
	leaq	(,%r15,8), %rbx
	testl	%r15d, %r15d
	setne	%r11b
	je	LBB13_7
	cmpq	$536870911, %rsi
	movl	$536870911, %r12d
	cmovbq	%rsi, %r12
	cmpq	%r15, %r12
	jb	LBB13_34
	movl	-8(%rdi,%rbx), %r14d
	testb	$1, %r14b
	je	LBB13_34
	testb	$1, %r9b
	je	LBB13_6
	movl	-4(%rdi,%rbx), %r14d
	movl	$4294967288, %r15d
	andq	%r14, %r15
	je	LBB13_23
	movq	%r15, %r14
	shrq	$3, %r14
	cmpq	%r12, %r14
	jbe	LBB13_21
	jmp	LBB13_34
LBB13_7:
	testb	$1, %r9b
	je	LBB13_8
	testq	%rax, %rax
	je	LBB13_23
	cmpq	$536870911, %rsi
	movl	$536870911, %r12d
	cmovbq	%rsi, %r12
	movq	%rax, %r15
	movq	%r15, %r14
	shrq	$3, %r14
	cmpq	%r12, %r14
	ja	LBB13_34
LBB13_21:
	movl	-8(%rdi,%r15), %r12d
	andl	$-7, %r12d
	movq	%rbx, %r13
	orq	$1, %r13
	movq	%rbx, %r14
	cmpq	%r12, %r13
	jne	LBB13_34
	movl	$1, -8(%rdi,%r15)
	testb	%r11b, %r11b
	je	LBB13_28
	jmp	LBB13_29
LBB13_6:
	movl	$4294967288, %r11d
	andq	%r11, %r14
	je	LBB13_9
	movq	%r14, %r11
	shrq	$3, %r11
	cmpq	%r12, %r11
	jbe	LBB13_12
	jmp	LBB13_34
LBB13_8:
	testq	%r10, %r10
	je	LBB13_9
	cmpq	$536870911, %rsi
	movl	$536870911, %r12d
	cmovbq	%rsi, %r12
	movq	%r10, %r14
	movq	%r14, %r11
	shrq	$3, %r11
	cmpq	%r12, %r11
	ja	LBB13_34
LBB13_12:
	testb	$1, -8(%rdi,%r14)
	je	LBB13_34
	movl	-4(%rdi,%r14), %r12d
	andl	$-8, %r12d
	movb	$1, %r11b
	cmpq	%rbx, %r12
	je	LBB13_15
	jmp	LBB13_34
LBB13_23:
	cmpq	%rbx, %r10
	jne	LBB13_34
	xorl	%r15d, %r15d
	movq	%r10, %r14
	jmp	LBB13_26
LBB13_9:
	xorl	%r11d, %r11d
	xorl	%r14d, %r14d
	movq	%rax, %r12
	cmpq	%rbx, %r12
	jne	LBB13_34
LBB13_15:
	testq	%r15, %r15
	je	LBB13_25
	movq	%rbx, %r15
	movl	$1, -8(%rdi,%rbx)
	testb	%r11b, %r11b
	jne	LBB13_29
LBB13_28:
	xorl	%eax, %eax
	jmp	LBB13_30
LBB13_34:
	movl	%ecx, %edx
	popq	%rbx
	popq	%r12
	popq	%r13
	popq	%r14
	popq	%r15
	jmp	_ic_raw.table.RawTable.refusal_at.05a19227735374d3
LBB13_25:
	xorl	%r15d, %r15d
LBB13_26:
	xorl	%r10d, %r10d
	testb	%r11b, %r11b
	je	LBB13_28
LBB13_29:
	movl	$0, -4(%rdi,%r14)
LBB13_30:
	xorl	%ecx, %ecx
	testb	%r11b, %r11b
	cmoveq	%rcx, %r14
	cmpb	$1, %r9b
	jne	LBB13_31
	movq	%r14, %rcx
	movq	%rax, %rsi
	jmp	LBB13_33
LBB13_31:
	movq	%r10, %rcx
	movq	%r15, %rsi
	movq	%r14, %r10
	movq	%rax, %r15
LBB13_33:
	movq	%rcx, (%rdx)
	movq	%rsi, 8(%rdx)
	movq	%r10, (%r8)
	movq	%r15, 8(%r8)
	xorl	%eax, %eax
	popq	%rbx
	popq	%r12
	popq	%r13
	popq	%r14
	popq	%r15
	retq
	.cfi_endproc
	.p2align	4
_ic_raw_lists.transfer_calls.transfer_at.55ebd757a04f39fd:
	.cfi_startproc
	pushq	%rbp
	.cfi_def_cfa_offset 16
	pushq	%r15
	.cfi_def_cfa_offset 24
	pushq	%r14
	.cfi_def_cfa_offset 32
	pushq	%r13
	.cfi_def_cfa_offset 40
	pushq	%r12
	.cfi_def_cfa_offset 48
	pushq	%rbx
	.cfi_def_cfa_offset 56
	subq	$48, %rsp
	.cfi_def_cfa_offset 104
	.cfi_offset %rbx, -56
	.cfi_offset %r12, -48
	.cfi_offset %r13, -40
	.cfi_offset %r14, -32
	.cfi_offset %r15, -24
	.cfi_offset %rbp, -16
	movl	%ecx, %r10d
	movq	%rsi, %r13
	movl	104(%rsp), %ecx
	leal	1(%rcx), %esi
	movl	%ecx, %r11d
	movl	$4, %eax
	incl	%r11d
	je	LBB14_46
	movabsq	$68719476728, %r15
	movq	(%rdx), %rax
	andq	%r15, %rax
	movq	%rax, (%rsp)
	movq	8(%rdx), %r12
	andq	%r15, %r12
	movq	(%r9), %rax
	andq	%r15, %rax
	movq	%rax, 16(%rsp)
	andq	8(%r9), %r15
	leal	1(%r8), %eax
	leaq	(,%rax,8), %r14
	testl	%eax, %eax
	setne	%r11b
	movq	%r9, 32(%rsp)
	movq	%rdx, 24(%rsp)
	movq	%r12, 8(%rsp)
	movq	%r8, 40(%rsp)
	je	LBB14_7
	cmpq	$536870911, %r13
	movl	$536870911, %r8d
	cmovbq	%r13, %r8
	cmpq	%rax, %r8
	movq	(%rsp), %r9
	jb	LBB14_15
	movl	-8(%rdi,%r14), %eax
	testb	$1, %al
	je	LBB14_15
	movl	%r11d, %edx
	testb	$1, %r10b
	je	LBB14_5
	movl	-4(%rdi,%r14), %eax
	movl	$4294967288, %r10d
	andq	%rax, %r10
	je	LBB14_21
	movq	%r10, %rax
	shrq	$3, %rax
	cmpq	%r8, %rax
	jbe	LBB14_20
	jmp	LBB14_15
LBB14_7:
	testb	$1, %r10b
	je	LBB14_8
	testq	%r12, %r12
	movl	%r11d, %edx
	movq	(%rsp), %r9
	je	LBB14_21
	cmpq	$536870911, %r13
	movl	$536870911, %r8d
	cmovbq	%r13, %r8
	movq	8(%rsp), %r10
	movq	%r10, %rax
	shrq	$3, %rax
	cmpq	%r8, %rax
	ja	LBB14_15
LBB14_20:
	movl	-8(%rdi,%r10), %eax
	andl	$-7, %eax
	movq	%r14, %rbx
	orq	$1, %rbx
	movb	$1, %r8b
	cmpq	%rax, %rbx
	je	LBB14_23
	jmp	LBB14_15
LBB14_5:
	movl	$4294967288, %r10d
	andq	%r10, %rax
	jne	LBB14_11
	xorl	%r10d, %r10d
	xorl	%eax, %eax
	movq	8(%rsp), %r12
	jmp	LBB14_14
LBB14_8:
	movq	(%rsp), %r9
	testq	%r9, %r9
	je	LBB14_9
	cmpq	$536870911, %r13
	movl	$536870911, %r8d
	cmovbq	%r13, %r8
	movq	%r9, %rax
	movl	%r11d, %edx
LBB14_11:
	movq	%rax, %r10
	shrq	$3, %r10
	cmpq	%r8, %r10
	ja	LBB14_15
	testb	$1, -8(%rdi,%rax)
	je	LBB14_15
	movl	-4(%rdi,%rax), %r12d
	andl	$-8, %r12d
	movb	$1, %r10b
	jmp	LBB14_14
LBB14_21:
	cmpq	%r14, %r9
	jne	LBB14_15
	xorl	%r8d, %r8d
	xorl	%r10d, %r10d
	movq	%r9, %r14
	jmp	LBB14_23
LBB14_9:
	xorl	%r10d, %r10d
	xorl	%eax, %eax
	movl	%r11d, %edx
LBB14_14:
	movl	%edx, %r8d
	movl	%r10d, %edx
	cmpq	%r14, %r12
	movq	%r14, %r10
	movq	%rax, %r14
	jne	LBB14_15
LBB14_23:
	cmpq	$536870911, %r13
	movl	$536870911, %ebp
	cmovbq	%r13, %rbp
	cmpq	%rsi, %rbp
	jb	LBB14_15
	shlq	$3, %rsi
	movl	-8(%rdi,%rsi), %eax
	testb	$1, %al
	je	LBB14_15
	movl	-4(%rdi,%rsi), %r12d
	andl	$-8, %r12d
	je	LBB14_28
	movl	%r12d, %ebx
	shrl	$3, %ebx
	cmpq	%rbp, %rbx
	ja	LBB14_15
	movl	-8(%rdi,%r12), %ebx
	andl	$-7, %ebx
	movq	%rsi, %r11
	orq	$1, %r11
	cmpq	%rbx, %r11
	je	LBB14_29
	jmp	LBB14_15
LBB14_28:
	cmpq	%rsi, 16(%rsp)
	jne	LBB14_15
LBB14_29:
	movq	%r15, %rbx
	andl	$-8, %eax
	je	LBB14_33
	movl	%eax, %r11d
	shrl	$3, %r11d
	cmpq	%rbp, %r11
	ja	LBB14_15
	testb	$1, -8(%rdi,%rax)
	je	LBB14_15
	movl	-4(%rdi,%rax), %ebx
	andl	$-8, %ebx
LBB14_33:
	cmpq	%rsi, %rbx
	jne	LBB14_15
	movq	16(%rsp), %rbx
	testq	%rbx, %rbx
	setne	%r11b
	cmpq	%rbx, %r9
	sete	%bl
	testb	%bl, %r11b
	jne	LBB14_15
	xorl	%r11d, %r11d
	testb	%r8b, %r8b
	cmovneq	%r10, %r11
	cmpq	%rsi, %r11
	je	LBB14_15
	xorl	%r11d, %r11d
	testb	%dl, %dl
	cmovneq	%r14, %r11
	cmpq	%rsi, %r11
	je	LBB14_15
	movq	%rax, %rcx
	testl	%r12d, %r12d
	je	LBB14_39
	movl	%eax, %ecx
	orl	$1, %ecx
	movl	%ecx, -8(%rdi,%r12)
	movq	16(%rsp), %rcx
LBB14_39:
	testl	%eax, %eax
	je	LBB14_41
	movl	%r12d, -4(%rdi,%rax)
	movq	%r15, %r12
LBB14_41:
	movq	%rsi, %r9
	testb	%r8b, %r8b
	je	LBB14_43
	movl	%esi, %eax
	orl	$1, %eax
	movl	%eax, -8(%rdi,%r10)
	movq	(%rsp), %r9
LBB14_43:
	movq	%rsi, %rbx
	testb	%dl, %dl
	je	LBB14_45
	movl	%esi, -4(%rdi,%r14)
	movq	8(%rsp), %rbx
LBB14_45:
	xorl	%eax, %eax
	testb	%r8b, %r8b
	cmovel	%eax, %r10d
	incl	%r14d
	testb	%dl, %dl
	movl	%r10d, -4(%rdi,%rsi)
	movl	$1, %edx
	cmovnel	%r14d, %edx
	movl	%edx, -8(%rdi,%rsi)
	movq	24(%rsp), %rdx
	movq	%r9, (%rdx)
	movq	%rbx, 8(%rdx)
	movq	32(%rsp), %rdx
	movq	%rcx, (%rdx)
	movq	%r12, 8(%rdx)
LBB14_46:
	addq	$48, %rsp
	popq	%rbx
	popq	%r12
	popq	%r13
	popq	%r14
	popq	%r15
	popq	%rbp
	retq
LBB14_15:
	movq	%r13, %rsi
	movq	40(%rsp), %rdx
	addq	$48, %rsp
	popq	%rbx
	popq	%r12
	popq	%r13
	popq	%r14
	popq	%r15
	popq	%rbp
	jmp	_ic_raw.table.RawTable.refusal_at_both.05a19227735374d3
	.cfi_endproc
	.p2align	4
_ic_raw.list_calls.splice_slow.5386baa488213e47:
	.cfi_startproc
	pushq	%rbp
	.cfi_def_cfa_offset 16
	pushq	%r15
	.cfi_def_cfa_offset 24
	pushq	%r14
	.cfi_def_cfa_offset 32
	pushq	%r13
	.cfi_def_cfa_offset 40
	pushq	%r12
	.cfi_def_cfa_offset 48
	pushq	%rbx
	.cfi_def_cfa_offset 56
	subq	$24, %rsp
	.cfi_def_cfa_offset 80
	.cfi_offset %rbx, -56
	.cfi_offset %r12, -48
	.cfi_offset %r13, -40
	.cfi_offset %r14, -32
	.cfi_offset %r15, -24
	.cfi_offset %rbp, -16
	movl	%ecx, %r13d
	movq	%rdx, %rcx
	movabsq	$68719476728, %r14
	movq	(%rdx), %rbx
	andq	%r14, %rbx
	movq	8(%rdx), %rbp
	andq	%r14, %rbp
	movq	(%r8), %r10
	andq	%r14, %r10
	movq	8(%r8), %r11
	andq	%r14, %r11
	leal	1(%r13), %eax
	leaq	(,%rax,8), %rdx
	testl	%eax, %eax
	setne	7(%rsp)
	je	LBB15_32
	cmpq	%rax, %rsi
	jb	LBB15_10
	shlq	$4, %rax
	movq	-16(%rdi,%rax), %r15
	testb	$1, %r15b
	je	LBB15_10
	testb	$1, %r9b
	je	LBB15_4
	movq	-8(%rdi,%rax), %r12
	andq	%r14, %r12
	jmp	LBB15_12
LBB15_32:
	movq	%rbx, %r15
	movq	%rbp, %r12
	testb	$1, %r9b
	je	LBB15_5
LBB15_12:
	testq	%r12, %r12
	je	LBB15_15
	movq	%r12, %rax
	shrq	$3, %rax
	cmpq	%rsi, %rax
	ja	LBB15_10
	leaq	1(%r14), %rax
	andq	-16(%rdi,%r12,2), %rax
	movq	%r13, 16(%rsp)
	movq	%rdx, %r13
	orq	$1, %r13
	movb	$1, %r9b
	movq	%r9, 8(%rsp)
	movzbl	7(%rsp), %r9d
	movq	%rdx, %r15
	cmpq	%r13, %rax
	movq	16(%rsp), %r13
	jne	LBB15_10
LBB15_17:
	testq	%r11, %r11
	je	LBB15_30
LBB15_18:
	movq	%r11, %rax
	shrq	$3, %rax
	cmpq	%rsi, %rax
	ja	LBB15_10
	testq	%r10, %r10
	je	LBB15_10
	leaq	1(%r14), %rax
	andq	-16(%rdi,%r11,2), %rax
	cmpq	$1, %rax
	jne	LBB15_10
	movq	%r10, %rax
	shrq	$3, %rax
	cmpq	%rsi, %rax
	ja	LBB15_10
	testb	$1, -16(%rdi,%r10,2)
	je	LBB15_10
	cmpq	%r10, %rbx
	je	LBB15_10
	andq	-8(%rdi,%r10,2), %r14
	jne	LBB15_10
	movq	%r10, %r14
	movq	8(%rsp), %rdx
	testb	%dl, %dl
	je	LBB15_27
	movq	%r10, %rax
	orq	$1, %rax
	movq	%rax, -16(%rdi,%r12,2)
	movq	%rbx, %r14
LBB15_27:
	movq	%r11, %rsi
	testb	%r9b, %r9b
	je	LBB15_29
	movq	%r11, -8(%rdi,%r15,2)
	movq	%rbp, %rsi
LBB15_29:
	xorl	%eax, %eax
	testb	%dl, %dl
	cmoveq	%rax, %r12
	incq	%r15
	testb	%r9b, %r9b
	movq	%r12, -8(%rdi,%r10,2)
	movl	$1, %eax
	cmovneq	%r15, %rax
	movq	%rax, -16(%rdi,%r11,2)
	movq	%rsi, %rbp
	jmp	LBB15_31
LBB15_4:
	andq	%r14, %r15
LBB15_5:
	movq	%rbp, %rax
	testq	%r15, %r15
	setne	%r9b
	je	LBB15_9
	movq	%r15, %rax
	shrq	$3, %rax
	cmpq	%rsi, %rax
	ja	LBB15_10
	testb	$1, -16(%rdi,%r15,2)
	je	LBB15_10
	movq	-8(%rdi,%r15,2), %rax
	andq	%r14, %rax
LBB15_9:
	movzbl	7(%rsp), %r12d
	movq	%r12, 8(%rsp)
	movq	%rdx, %r12
	cmpq	%rdx, %rax
	je	LBB15_17
	jmp	LBB15_10
LBB15_15:
	cmpq	%rdx, %rbx
	jne	LBB15_10
	movq	$0, 8(%rsp)
	xorl	%r12d, %r12d
	movzbl	7(%rsp), %r9d
	movq	%rbx, %r15
	testq	%r11, %r11
	jne	LBB15_18
LBB15_30:
	movq	%rbx, %r14
	testq	%r10, %r10
	jne	LBB15_10
LBB15_31:
	movq	%r14, (%rcx)
	movq	%rbp, 8(%rcx)
	movq	$0, 8(%r8)
	movq	$0, (%r8)
	xorl	%eax, %eax
	addq	$24, %rsp
	popq	%rbx
	popq	%r12
	popq	%r13
	popq	%r14
	popq	%r15
	popq	%rbp
	retq
LBB15_10:
	movl	%r13d, %edx
	addq	$24, %rsp
	popq	%rbx
	popq	%r12
	popq	%r13
	popq	%r14
	popq	%r15
	popq	%rbp
	jmp	_ic_raw.table.RawTable.refusal_at.85cd03e557136797
	.cfi_endproc
	.p2align	4
_ic_raw.table.RawTable.refusal_at.85cd03e557136797:
	.cfi_startproc
	leal	1(%rdx), %ecx
	movl	$5, %eax
	incl	%edx
	je	LBB16_3
	movl	$1, %eax
	cmpq	%rcx, %rsi
	jb	LBB16_3
	shlq	$4, %rcx
	movzbl	-16(%rdi,%rcx), %eax
	andl	$1, %eax
	leal	3(,%rax,2), %eax
LBB16_3:
	retq
	.cfi_endproc
	.p2align	4
_ic_raw.table.RawTable.refusal.85cd03e557136797:
	.cfi_startproc
	leal	1(%rdx), %r8d
	incl	%edx
	jne	LBB17_1
LBB17_3:
	incl	%ecx
	sete	%al
	cmpq	%rcx, %rsi
	setb	%dl
	orb	%al, %dl
	movl	$1, %eax
	jne	LBB17_5
	shlq	$4, %rcx
	xorl	%eax, %eax
	testb	$1, -16(%rdi,%rcx)
	sete	%al
	leal	(%rax,%rax,2), %eax
	addl	$2, %eax
	retq
LBB17_1:
	movl	$1, %eax
	cmpq	%r8, %rsi
	jb	LBB17_5
	shlq	$4, %r8
	movl	$3, %eax
	testb	$1, -16(%rdi,%r8)
	jne	LBB17_3
LBB17_5:
	retq
	.cfi_endproc
	.p2align	4
_ic_raw.sort_calls.refusal.78cbab63d6c27224:
	.cfi_startproc
	xorl	%eax, %eax
	cmpq	%rdi, %rsi
	setae	%al
	leal	1(,%rax,4), %eax
	retq
	.cfi_endproc
	.p2align	4
_ic_list_algorithms.merge.merge_runs.6bd71b5c7308988e:
	.cfi_startproc
	pushq	%rbx
	.cfi_def_cfa_offset 16
	.cfi_offset %rbx, -16
	movq	%rdx, %rax
	movabsq	$68719476728, %rdx
	movq	(%rsi), %r9
	movq	-8(%r9,%rcx), %r10
	movq	(%rdi), %r8
	cmpq	-8(%r9,%rax), %r10
	jae	LBB19_1
	movq	-16(%r8,%rcx,2), %r9
	andq	%rdx, %r9
	je	LBB19_7
	movq	%rcx, %r8
	movq	%rax, %r10
	movq	%r9, %rcx
	movq	%r8, %rax
	jmp	LBB19_12
LBB19_1:
	movq	-16(%r8,%rax,2), %r10
	andq	%rdx, %r10
	je	LBB19_6
	movq	%rax, %r8
	jmp	LBB19_12
	.p2align	4
LBB19_11:
	movq	%rax, %rbx
	orq	$1, %rbx
	movq	-16(%r11,%rax,2), %r10
	movq	%rbx, -16(%r11,%r9,2)
	andq	%rdx, %r10
	je	LBB19_13
LBB19_12:
	movq	%rax, %r9
	movq	%r10, %rax
	movq	%rcx, %r10
	.p2align	4
LBB19_8:
	movq	%r10, %rcx
	movq	(%rsi), %r10
	movq	-8(%r10,%rcx), %rbx
	movq	(%rdi), %r11
	cmpq	-8(%r10,%rax), %rbx
	jae	LBB19_11
	movq	%rcx, %rbx
	orq	$1, %rbx
	movq	-16(%r11,%rcx,2), %r10
	movq	%rbx, -16(%r11,%r9,2)
	movq	%rcx, %r9
	andq	%rdx, %r10
	jne	LBB19_8
	movq	(%rdi), %rdx
	incq	%rax
	movq	%rax, -16(%rdx,%rcx,2)
	movq	%r8, %rax
	popq	%rbx
	retq
LBB19_7:
	orq	$1, %rax
	movq	%rax, -16(%r8,%rcx,2)
	movq	%rcx, %rax
	popq	%rbx
	retq
LBB19_6:
	orq	$1, %rcx
	movq	%rcx, -16(%r8,%rax,2)
	popq	%rbx
	retq
LBB19_13:
	movq	(%rdi), %rdx
	incq	%rcx
	movq	%rcx, -16(%rdx,%rax,2)
	movq	%r8, %rax
	popq	%rbx
	retq
	.cfi_endproc
	.p2align	4
_ic_raw.move_calls.move_slow.5386baa488213e47:
	.cfi_startproc
	pushq	%rbp
	.cfi_def_cfa_offset 16
	pushq	%r15
	.cfi_def_cfa_offset 24
	pushq	%r14
	.cfi_def_cfa_offset 32
	pushq	%r13
	.cfi_def_cfa_offset 40
	pushq	%r12
	.cfi_def_cfa_offset 48
	pushq	%rbx
	.cfi_def_cfa_offset 56
	subq	$24, %rsp
	.cfi_def_cfa_offset 80
	.cfi_offset %rbx, -56
	.cfi_offset %r12, -48
	.cfi_offset %r13, -40
	.cfi_offset %r14, -32
	.cfi_offset %r15, -24
	.cfi_offset %rbp, -16
	leal	1(%r9), %r13d
	movl	%r9d, %r10d
	movl	$4, %eax
	incl	%r10d
	je	LBB20_42
	movabsq	$68719476728, %rax
	movq	(%rdx), %r12
	andq	%rax, %r12
	movq	%rdx, 16(%rsp)
	movq	8(%rdx), %rbx
	andq	%rax, %rbx
	movq	%r8, 8(%rsp)
	leal	1(%r8), %r11d
	leaq	(,%r11,8), %r10
	testl	%r11d, %r11d
	setne	%bpl
	je	LBB20_43
	cmpq	%r11, %rsi
	jb	LBB20_11
	shlq	$4, %r11
	movq	-16(%rdi,%r11), %r14
	testb	$1, %r14b
	je	LBB20_11
	movq	%r12, %rdx
	testb	$1, %cl
	je	LBB20_5
	movq	-8(%rdi,%r11), %r15
	andq	%rax, %r15
	jmp	LBB20_13
LBB20_43:
	movq	%r12, %r14
	movq	%rbx, %r15
	testb	$1, %cl
	movq	%r12, %rdx
	je	LBB20_6
LBB20_13:
	testq	%r15, %r15
	je	LBB20_16
	movq	%r15, %rcx
	shrq	$3, %rcx
	cmpq	%rsi, %rcx
	ja	LBB20_11
	leaq	1(%rax), %r11
	andq	-16(%rdi,%r15,2), %r11
	movq	%r10, %r12
	orq	$1, %r12
	movb	$1, %cl
	movq	%rcx, (%rsp)
	movl	%ebp, %r8d
	movq	%r10, %r14
	cmpq	%r12, %r11
	je	LBB20_18
	jmp	LBB20_11
LBB20_5:
	andq	%rax, %r14
LBB20_6:
	movq	%rbx, %r11
	testq	%r14, %r14
	setne	%r8b
	je	LBB20_10
	movq	%r14, %rcx
	shrq	$3, %rcx
	cmpq	%rsi, %rcx
	ja	LBB20_11
	testb	$1, -16(%rdi,%r14,2)
	je	LBB20_11
	movq	-8(%rdi,%r14,2), %r11
	andq	%rax, %r11
LBB20_10:
	movl	%ebp, %ecx
	movq	%rcx, (%rsp)
	movq	%r10, %r15
	cmpq	%r10, %r11
	jne	LBB20_11
LBB20_18:
	cmpq	%r13, %rsi
	jb	LBB20_11
LBB20_19:
	movq	%r13, %rcx
	shlq	$4, %rcx
	movq	-16(%rdi,%rcx), %rbp
	testb	$1, %bpl
	je	LBB20_11
	shlq	$3, %r13
	movq	-8(%rdi,%rcx), %r11
	andq	%rax, %r11
	je	LBB20_23
	movq	%r11, %r12
	shrq	$3, %r12
	cmpq	%rsi, %r12
	ja	LBB20_11
	leaq	1(%rax), %r12
	andq	-16(%rdi,%r11,2), %r12
	movq	%r13, %r10
	orq	$1, %r10
	cmpq	%r10, %r12
	je	LBB20_24
	jmp	LBB20_11
LBB20_23:
	cmpq	%r13, %rdx
	jne	LBB20_11
LBB20_24:
	movq	%rbx, %r12
	andq	%rax, %rbp
	je	LBB20_28
	movq	%rbp, %r10
	shrq	$3, %r10
	cmpq	%rsi, %r10
	ja	LBB20_11
	testb	$1, -16(%rdi,%rbp,2)
	je	LBB20_11
	andq	-8(%rdi,%rbp,2), %rax
	movq	%rax, %r12
LBB20_28:
	cmpq	%r13, %r12
	jne	LBB20_11
	xorl	%eax, %eax
	cmpb	$0, (%rsp)
	movq	%r15, %rsi
	cmoveq	%rax, %rsi
	cmpq	%r13, %rsi
	movq	16(%rsp), %r12
	je	LBB20_42
	xorl	%eax, %eax
	testb	%r8b, %r8b
	movq	%r14, %r9
	cmoveq	%rax, %r9
	cmpq	%r13, %r9
	je	LBB20_42
	movl	%r8d, %r10d
	movq	%rbp, %r8
	testq	%r11, %r11
	je	LBB20_33
	movq	%rbp, %r9
	orq	$1, %r9
	movq	%r9, -16(%rdi,%r11,2)
	movq	%rdx, %r8
LBB20_33:
	testq	%rbp, %rbp
	je	LBB20_34
	movq	%r11, -8(%rdi,%rbp,2)
	movq	%r13, %r9
	cmpb	$0, (%rsp)
	je	LBB20_38
LBB20_37:
	movq	%r8, %r9
	movq	%r13, %r8
	orq	$1, %r8
	movq	%r8, -16(%rdi,%r15,2)
LBB20_38:
	testb	%r10b, %r10b
	je	LBB20_39
	movq	%r13, -8(%rdi,%r14,2)
	jmp	LBB20_41
LBB20_16:
	cmpq	%r10, %rdx
	jne	LBB20_11
	movq	$0, (%rsp)
	xorl	%r15d, %r15d
	movl	%ebp, %r8d
	movq	%rdx, %r14
	cmpq	%r13, %rsi
	jae	LBB20_19
LBB20_11:
	movq	8(%rsp), %rdx
	movl	%r9d, %ecx
	addq	$24, %rsp
	popq	%rbx
	popq	%r12
	popq	%r13
	popq	%r14
	popq	%r15
	popq	%rbp
	jmp	_ic_raw.table.RawTable.refusal_at_both.85cd03e557136797
LBB20_34:
	movq	%r11, %rbx
	movq	%r13, %r9
	cmpb	$0, (%rsp)
	jne	LBB20_37
	jmp	LBB20_38
LBB20_39:
	movq	%r13, %rbx
LBB20_41:
	incq	%r14
	testb	%r10b, %r10b
	movl	$1, %r8d
	cmovneq	%r14, %r8
	movq	%rsi, -8(%rdi,%rcx)
	movq	%r8, -16(%rdi,%rcx)
	movq	%r9, (%r12)
	movq	%rbx, 8(%r12)
LBB20_42:
	addq	$24, %rsp
	popq	%rbx
	popq	%r12
	popq	%r13
	popq	%r14
	popq	%r15
	popq	%rbp
	retq
	.cfi_endproc
	.p2align	4
_ic_raw.table.RawTable.refusal_at_both.85cd03e557136797:
	.cfi_startproc
	leal	1(%rdx), %r8d
	incl	%edx
	jne	LBB21_1
LBB21_3:
	leal	1(%rcx), %edx
	movl	$5, %eax
	incl	%ecx
	je	LBB21_6
	movl	$1, %eax
	cmpq	%rdx, %rsi
	jb	LBB21_6
	shlq	$4, %rdx
	movzbl	-16(%rdi,%rdx), %eax
	andl	$1, %eax
	leal	3(,%rax,2), %eax
	retq
LBB21_1:
	movl	$1, %eax
	cmpq	%r8, %rsi
	jb	LBB21_6
	shlq	$4, %r8
	movl	$3, %eax
	testb	$1, -16(%rdi,%r8)
	jne	LBB21_3
LBB21_6:
	retq
	.cfi_endproc
	.p2align	4
_ic_raw.move_calls.move_to_end_slow.5386baa488213e47:
	.cfi_startproc
	pushq	%r14
	.cfi_def_cfa_offset 16
	pushq	%rbx
	.cfi_def_cfa_offset 24
	.cfi_offset %rbx, -24
	.cfi_offset %r14, -16
	movl	%r8d, %r9d
	leal	1(%r9), %r8d
	movl	%r9d, %r10d
	movl	$4, %eax
	incl	%r10d
	je	LBB22_26
	leaq	(,%r8,8), %rax
	movabsq	$68719476728, %r10
	movq	(%rdx), %r11
	andq	%r10, %r11
	movq	8(%rdx), %rbx
	andq	%r10, %rbx
	testb	$1, %cl
	je	LBB22_2
	cmpq	%r8, %rsi
	jb	LBB22_27
	cmpq	%rax, %r11
	jne	LBB22_27
	shlq	$4, %r8
	cmpq	$0, -8(%rdi,%r8)
	jne	LBB22_27
	movq	-16(%rdi,%r8), %r14
	testb	$1, %r14b
	je	LBB22_27
	andq	%r10, %r14
	je	LBB22_27
	movq	%r14, %r10
	shrq	$3, %r10
	cmpq	%rsi, %r10
	ja	LBB22_27
	cmpq	%rax, -8(%rdi,%r14,2)
	jne	LBB22_27
	testq	%rbx, %rbx
	je	LBB22_27
	testb	$1, -16(%rdi,%r14,2)
	je	LBB22_27
	movq	%rbx, %r10
	shrq	$3, %r10
	cmpq	%rsi, %r10
	ja	LBB22_27
	cmpq	$1, -16(%rdi,%rbx,2)
	jne	LBB22_27
	movq	$0, -8(%rdi,%r14,2)
	movq	%rax, %rcx
	orq	$1, %rcx
	movq	%rcx, -16(%rdi,%rbx,2)
	movq	%rbx, -8(%rdi,%r8)
	movl	$1, %r11d
	movq	%rax, %r10
	jmp	LBB22_25
LBB22_2:
	cmpq	%rax, %rbx
	jne	LBB22_27
	cmpq	%r8, %rsi
	jb	LBB22_27
	shlq	$4, %r8
	cmpq	$1, -16(%rdi,%r8)
	jne	LBB22_27
	andq	-8(%rdi,%r8), %r10
	je	LBB22_27
	movq	%r10, %rbx
	shrq	$3, %rbx
	cmpq	%rsi, %rbx
	ja	LBB22_27
	movq	%rax, %rbx
	orq	$1, %rbx
	cmpq	%rbx, -16(%rdi,%r10,2)
	jne	LBB22_27
	testq	%r11, %r11
	je	LBB22_27
	movq	%r11, %rbx
	shrq	$3, %rbx
	cmpq	%rsi, %rbx
	ja	LBB22_27
	cmpq	$0, -8(%rdi,%r11,2)
	jne	LBB22_27
	testb	$1, -16(%rdi,%r11,2)
	je	LBB22_27
	movq	$1, -16(%rdi,%r10,2)
	movq	%rax, -8(%rdi,%r11,2)
	movq	$0, -8(%rdi,%r8)
	orq	$1, %r11
	movq	%rax, %r14
LBB22_25:
	movq	%r11, -16(%rdi,%r8)
	movq	%r14, (%rdx)
	movq	%r10, 8(%rdx)
	xorl	%eax, %eax
LBB22_26:
	popq	%rbx
	popq	%r14
	retq
LBB22_27:
	movzbl	%cl, %ecx
	movl	$-1, %r8d
	popq	%rbx
	popq	%r14
	jmp	_ic_raw.move_calls.move_slow.5386baa488213e47
	.cfi_endproc
	.p2align	4
_ic_raw.list_calls.pop_front_slow.5386baa488213e47:
	.cfi_startproc
	movabsq	$68719476728, %r10
	movq	(%rdx), %rax
	andq	%r10, %rax
	je	LBB23_12
	movq	%rax, %r8
	shrq	$3, %r8
	cmpq	%rsi, %r8
	ja	LBB23_12
	movq	-16(%rdi,%rax,2), %r9
	testb	$1, %r9b
	je	LBB23_12
	testq	%r10, -8(%rdi,%rax,2)
	jne	LBB23_12
	movq	8(%rdx), %r11
	andq	%r10, %r11
	andq	%r10, %r9
	je	LBB23_9
	pushq	%rbx
	.cfi_def_cfa_offset 16
	.cfi_offset %rbx, -16
	movq	%r9, %rbx
	shrq	$3, %rbx
	cmpq	%rsi, %rbx
	popq	%rbx
	ja	LBB23_12
	testb	$1, -16(%rdi,%r9,2)
	je	LBB23_12
	andq	-8(%rdi,%r9,2), %r10
	cmpq	%rax, %r10
	jne	LBB23_12
	movq	$0, -8(%rdi,%r9,2)
	jmp	LBB23_11
LBB23_9:
	cmpq	%rax, %r11
	jne	LBB23_12
	xorl	%r11d, %r11d
LBB23_11:
	movq	$0, -16(%rdi,%rax,2)
	movq	%r9, (%rdx)
	movq	%r11, 8(%rdx)
	decl	%r8d
	movl	%r8d, (%rcx)
	xorl	%eax, %eax
	retq
LBB23_12:
	movq	%rdx, %rdi
	xorl	%esi, %esi
	jmp	_ic_raw.list_calls.refusal_to_pop
	.cfi_endproc
	.p2align	4
_ic_raw.list_calls.push_back_slow.5386baa488213e47:
	.cfi_startproc
	movabsq	$68719476728, %r9
	movq	(%rdx), %rax
	andq	%r9, %rax
	movq	8(%rdx), %r8
	andq	%r9, %r8
	je	LBB24_4
	movq	%r8, %r10
	shrq	$3, %r10
	cmpq	%rsi, %r10
	ja	LBB24_3
	incq	%r9
	andq	-16(%rdi,%r8,2), %r9
	cmpq	$1, %r9
	je	LBB24_5
	jmp	LBB24_3
LBB24_4:
	testq	%rax, %rax
	jne	LBB24_3
LBB24_5:
	leal	1(%rcx), %r9d
	testq	%r9, %r9
	je	LBB24_3
	cmpq	%r9, %rsi
	jb	LBB24_3
	movq	%r9, %r10
	shlq	$4, %r10
	testb	$1, -16(%rdi,%r10)
	jne	LBB24_3
	shlq	$3, %r9
	movq	%r9, %rcx
	testq	%r8, %r8
	je	LBB24_10
	movq	%r9, %rcx
	orq	$1, %rcx
	movq	%rcx, -16(%rdi,%r8,2)
	movq	%rax, %rcx
LBB24_10:
	movq	%r8, -8(%rdi,%r10)
	movq	$1, -16(%rdi,%r10)
	movq	%rcx, (%rdx)
	movq	%r9, 8(%rdx)
	xorl	%eax, %eax
	retq
LBB24_3:
	movl	$-1, %edx
	jmp	_ic_raw.table.RawTable.refusal.85cd03e557136797
	.cfi_endproc
	.p2align	4
_ic_raw.list_calls.remove_slow.5386baa488213e47:
	.cfi_startproc
	pushq	%r15
	.cfi_def_cfa_offset 16
	pushq	%r14
	.cfi_def_cfa_offset 24
	pushq	%r12
	.cfi_def_cfa_offset 32
	pushq	%rbx
	.cfi_def_cfa_offset 40
	.cfi_offset %rbx, -40
	.cfi_offset %r12, -32
	.cfi_offset %r14, -24
	.cfi_offset %r15, -16
	leal	1(%rcx), %r9d
	movl	%ecx, %r8d
	movl	$4, %eax
	incl	%r8d
	je	LBB25_19
	cmpq	%r9, %rsi
	jb	LBB25_6
	movq	%r9, %rax
	shlq	$4, %rax
	movq	-16(%rdi,%rax), %r8
	testb	$1, %r8b
	je	LBB25_6
	shlq	$3, %r9
	movabsq	$68719476728, %r14
	movq	(%rdx), %rbx
	andq	%r14, %rbx
	movq	8(%rdx), %r10
	andq	%r14, %r10
	movq	-8(%rdi,%rax), %r11
	andq	%r14, %r11
	je	LBB25_7
	movq	%r11, %r15
	shrq	$3, %r15
	cmpq	%rsi, %r15
	ja	LBB25_6
	leaq	1(%r14), %r15
	andq	-16(%rdi,%r11,2), %r15
	movq	%r9, %r12
	orq	$1, %r12
	cmpq	%r12, %r15
	je	LBB25_8
	jmp	LBB25_6
LBB25_7:
	cmpq	%r9, %rbx
	jne	LBB25_6
LBB25_8:
	movq	%r10, %r15
	andq	%r14, %r8
	je	LBB25_12
	movq	%r8, %r15
	shrq	$3, %r15
	cmpq	%rsi, %r15
	ja	LBB25_6
	testb	$1, -16(%rdi,%r8,2)
	je	LBB25_6
	andq	-8(%rdi,%r8,2), %r14
	movq	%r14, %r15
LBB25_12:
	cmpq	%r9, %r15
	jne	LBB25_6
	movq	%r8, %rcx
	testq	%r11, %r11
	je	LBB25_15
	movq	%r8, %rcx
	orq	$1, %rcx
	movq	%rcx, -16(%rdi,%r11,2)
	movq	%rbx, %rcx
LBB25_15:
	testq	%r8, %r8
	je	LBB25_16
	movq	%r11, -8(%rdi,%r8,2)
	jmp	LBB25_18
LBB25_6:
	movl	%ecx, %edx
	popq	%rbx
	popq	%r12
	popq	%r14
	popq	%r15
	jmp	_ic_raw.table.RawTable.refusal_at.85cd03e557136797
LBB25_16:
	movq	%r11, %r10
LBB25_18:
	movq	$0, -16(%rdi,%rax)
	movq	%rcx, (%rdx)
	movq	%r10, 8(%rdx)
	xorl	%eax, %eax
LBB25_19:
	popq	%rbx
	popq	%r12
	popq	%r14
	popq	%r15
	retq
	.cfi_endproc
	.p2align	4
_ic_list_algorithms.sort.sort_front.6bd71b5c7308988e:
	.cfi_startproc
	pushq	%rbp
	.cfi_def_cfa_offset 16
	pushq	%r15
	.cfi_def_cfa_offset 24
	pushq	%r14
	.cfi_def_cfa_offset 32
	pushq	%r13
	.cfi_def_cfa_offset 40
	pushq	%r12
	.cfi_def_cfa_offset 48
	pushq	%rbx
	.cfi_def_cfa_offset 56
	subq	$56, %rsp
	.cfi_def_cfa_offset 112
	.cfi_offset %rbx, -56
	.cfi_offset %r12, -48
	.cfi_offset %r13, -40
	.cfi_offset %r14, -32
	.cfi_offset %r15, -24
	.cfi_offset %rbp, -16
	movq	%rdi, %rbx
	testq	%r8, %r8
	je	LBB26_10
	cmpq	$1, %r8
	jne	LBB26_7
	movabsq	$68719476728, %r14
	movq	(%rsi), %rdi
	movq	-16(%rdi,%rcx,2), %rax
	movq	$1, -16(%rdi,%rcx,2)
	andq	%r14, %rax
	je	LBB26_5
	movq	(%rsi), %rdi
	xorl	%r15d, %r15d
	andq	-16(%rdi,%rax,2), %r14
	setne	%r15b
	movq	$1, -16(%rdi,%rax,2)
	movq	%rsi, %rdi
	movq	%rdx, %rsi
	movq	%rcx, %rdx
	movq	%rax, %rcx
	callq	_ic_list_algorithms.merge.merge_runs.6bd71b5c7308988e
	movq	%rax, (%rbx)
	movq	%r15, 8(%rbx)
	movq	%r14, 16(%rbx)
	jmp	LBB26_4
LBB26_10:
	movq	(%rsi), %rax
	movabsq	$68719476728, %rdx
	xorl	%esi, %esi
	andq	-16(%rax,%rcx,2), %rdx
	setne	%sil
	movq	$1, -16(%rax,%rcx,2)
	movq	%rcx, (%rbx)
	movq	%rsi, 8(%rbx)
	movq	%rdx, 16(%rbx)
	jmp	LBB26_4
LBB26_7:
	decq	%r8
	leaq	32(%rsp), %rdi
	movq	%rsi, %r12
	movq	%rdx, %r13
	movq	%r8, %r15
	callq	_ic_list_algorithms.sort.sort_front.6bd71b5c7308988e
	movq	32(%rsp), %r14
	cmpb	$1, 40(%rsp)
	jne	LBB26_9
	movq	48(%rsp), %rcx
	leaq	8(%rsp), %rdi
	movq	%r12, %rsi
	movq	%r13, %rdx
	movq	%r15, %r8
	callq	_ic_list_algorithms.sort.sort_front.6bd71b5c7308988e
	movzbl	16(%rsp), %r15d
	movq	8(%rsp), %rcx
	movq	24(%rsp), %rbp
	movq	%r12, %rdi
	movq	%r13, %rsi
	movq	%r14, %rdx
	callq	_ic_list_algorithms.merge.merge_runs.6bd71b5c7308988e
	movq	%rax, (%rbx)
	movq	%r15, 8(%rbx)
	movq	%rbp, 16(%rbx)
	jmp	LBB26_4
LBB26_9:
	movq	%r14, (%rbx)
	jmp	LBB26_6
LBB26_5:
	movq	%rcx, (%rbx)
LBB26_6:
	movq	$0, 8(%rbx)
	movq	$0, 16(%rbx)
LBB26_4:
	addq	$56, %rsp
	popq	%rbx
	popq	%r12
	popq	%r13
	popq	%r14
	popq	%r15
	popq	%rbp
	retq
	.cfi_endproc
	.p2align	4
_ic_raw.list_calls.split_slow.5386baa488213e47:
	.cfi_startproc
	pushq	%r15
	.cfi_def_cfa_offset 16
	pushq	%r14
	.cfi_def_cfa_offset 24
	pushq	%r13
	.cfi_def_cfa_offset 32
	pushq	%r12
	.cfi_def_cfa_offset 40
	pushq	%rbx
	.cfi_def_cfa_offset 48
	.cfi_offset %rbx, -48
	.cfi_offset %r12, -40
	.cfi_offset %r13, -32
	.cfi_offset %r14, -24
	.cfi_offset %r15, -16
	movabsq	$68719476728, %r14
	testq	%r14, (%r8)
	jne	LBB27_30
	testq	%r14, 8(%r8)
	jne	LBB27_30
	movq	(%rdx), %rax
	andq	%r14, %rax
	movq	8(%rdx), %r10
	andq	%r14, %r10
	leal	1(%rcx), %r13d
	leaq	(,%r13,8), %r12
	testl	%r13d, %r13d
	setne	%r11b
	je	LBB27_31
	cmpq	%r13, %rsi
	jb	LBB27_30
	movq	%r13, %r15
	shlq	$4, %r15
	movq	-16(%rdi,%r15), %rbx
	testb	$1, %bl
	je	LBB27_30
	testb	$1, %r9b
	je	LBB27_6
	movq	-8(%rdi,%r15), %r15
	andq	%r14, %r15
	jmp	LBB27_15
LBB27_31:
	movq	%rax, %rbx
	movq	%r10, %r15
	testb	$1, %r9b
	je	LBB27_7
LBB27_15:
	testq	%r15, %r15
	je	LBB27_19
	movq	%r15, %rbx
	shrq	$3, %rbx
	cmpq	%rsi, %rbx
	ja	LBB27_30
	incq	%r14
	andq	-16(%rdi,%r15,2), %r14
	movq	%r12, %r13
	orq	$1, %r13
	movq	%r12, %rbx
	cmpq	%r13, %r14
	jne	LBB27_30
	movq	$1, -16(%rdi,%r15,2)
	testb	%r11b, %r11b
	jne	LBB27_25
	jmp	LBB27_24
LBB27_6:
	andq	%r14, %rbx
LBB27_7:
	movq	%r10, %r15
	testq	%rbx, %rbx
	setne	%r11b
	je	LBB27_11
	movq	%rbx, %r15
	shrq	$3, %r15
	cmpq	%rsi, %r15
	ja	LBB27_30
	testb	$1, -16(%rdi,%rbx,2)
	je	LBB27_30
	andq	-8(%rdi,%rbx,2), %r14
	movq	%r14, %r15
LBB27_11:
	cmpq	%r12, %r15
	jne	LBB27_30
	testq	%r13, %r13
	je	LBB27_21
	movq	%r12, %r15
	movq	$1, -16(%rdi,%r12,2)
	testb	%r11b, %r11b
	jne	LBB27_25
LBB27_24:
	xorl	%ebx, %ebx
	xorl	%r10d, %r10d
	cmpb	$1, %r9b
	je	LBB27_28
LBB27_27:
	movq	%rax, %rcx
	movq	%r15, %rsi
	movq	%rbx, %rax
	movq	%r10, %r15
	jmp	LBB27_29
LBB27_19:
	cmpq	%r12, %rax
	jne	LBB27_30
	xorl	%r15d, %r15d
	movq	%rax, %rbx
	xorl	%eax, %eax
	testb	%r11b, %r11b
	jne	LBB27_25
	jmp	LBB27_24
LBB27_30:
	movl	%ecx, %edx
	popq	%rbx
	popq	%r12
	popq	%r13
	popq	%r14
	popq	%r15
	jmp	_ic_raw.table.RawTable.refusal_at.85cd03e557136797
LBB27_21:
	xorl	%r15d, %r15d
	xorl	%eax, %eax
	testb	%r11b, %r11b
	je	LBB27_24
LBB27_25:
	movq	$0, -8(%rdi,%rbx,2)
	cmpb	$1, %r9b
	jne	LBB27_27
LBB27_28:
	movq	%rbx, %rcx
	movq	%r10, %rsi
LBB27_29:
	movq	%rcx, (%rdx)
	movq	%rsi, 8(%rdx)
	movq	%rax, (%r8)
	movq	%r15, 8(%r8)
	xorl	%eax, %eax
	popq	%rbx
	popq	%r12
	popq	%r13
	popq	%r14
	popq	%r15
	retq
	.cfi_endproc
	.p2align	4
_ic_raw_lists.transfer_calls.transfer_at.5386baa488213e47:
	.cfi_startproc
	pushq	%rbp
	.cfi_def_cfa_offset 16
	pushq	%r15
	.cfi_def_cfa_offset 24
	pushq	%r14
	.cfi_def_cfa_offset 32
	pushq	%r13
	.cfi_def_cfa_offset 40
	pushq	%r12
	.cfi_def_cfa_offset 48
	pushq	%rbx
	.cfi_def_cfa_offset 56
	subq	$48, %rsp
	.cfi_def_cfa_offset 104
	.cfi_offset %rbx, -56
	.cfi_offset %r12, -48
	.cfi_offset %r13, -40
	.cfi_offset %r14, -32
	.cfi_offset %r15, -24
	.cfi_offset %rbp, -16
	movl	%ecx, %r10d
	movq	%rsi, %r14
	movl	104(%rsp), %ecx
	leal	1(%rcx), %esi
	movl	%ecx, %r11d
	movl	$4, %eax
	incl	%r11d
	je	LBB28_43
	movabsq	$68719476728, %rax
	movq	(%rdx), %r12
	andq	%rax, %r12
	movq	%rdx, 24(%rsp)
	movq	8(%rdx), %rdx
	andq	%rax, %rdx
	movq	(%r9), %r15
	andq	%rax, %r15
	movq	%r9, 32(%rsp)
	movq	8(%r9), %r9
	andq	%rax, %r9
	movq	%r8, 40(%rsp)
	leal	1(%r8), %ebp
	leaq	(,%rbp,8), %rbx
	testl	%ebp, %ebp
	setne	%r8b
	movq	%r12, 16(%rsp)
	je	LBB28_44
	cmpq	%rbp, %r14
	jb	LBB28_11
	shlq	$4, %rbp
	movq	-16(%rdi,%rbp), %r12
	testb	$1, %r12b
	je	LBB28_11
	testb	$1, %r10b
	je	LBB28_5
	movq	-8(%rdi,%rbp), %rbp
	andq	%rax, %rbp
	jmp	LBB28_13
LBB28_44:
	movq	%rdx, %rbp
	testb	$1, %r10b
	je	LBB28_6
LBB28_13:
	testq	%rbp, %rbp
	je	LBB28_16
	movq	%rbp, %r10
	shrq	$3, %r10
	cmpq	%r14, %r10
	ja	LBB28_11
	leaq	1(%rax), %r10
	andq	-16(%rdi,%rbp,2), %r10
	movq	%rbx, %r13
	orq	$1, %r13
	movb	$1, %r11b
	movq	%r11, 8(%rsp)
	movb	%r8b, 7(%rsp)
	movq	%rbx, %r12
	cmpq	%r13, %r10
	je	LBB28_18
	jmp	LBB28_11
LBB28_5:
	andq	%rax, %r12
LBB28_6:
	movq	%rdx, %r10
	testq	%r12, %r12
	setne	7(%rsp)
	je	LBB28_10
	movq	%r12, %r10
	shrq	$3, %r10
	cmpq	%r14, %r10
	ja	LBB28_11
	testb	$1, -16(%rdi,%r12,2)
	je	LBB28_11
	movq	-8(%rdi,%r12,2), %r10
	andq	%rax, %r10
LBB28_10:
	movq	%r8, 8(%rsp)
	movq	%rbx, %rbp
	cmpq	%rbx, %r10
	jne	LBB28_11
LBB28_18:
	cmpq	%rsi, %r14
	jb	LBB28_11
LBB28_19:
	movq	%rsi, %r10
	shlq	$4, %r10
	movq	-16(%rdi,%r10), %rbx
	testb	$1, %bl
	je	LBB28_11
	shlq	$3, %rsi
	movq	-8(%rdi,%r10), %r8
	andq	%rax, %r8
	je	LBB28_23
	movq	%r8, %r13
	shrq	$3, %r13
	cmpq	%r14, %r13
	ja	LBB28_11
	leaq	1(%rax), %r13
	andq	-16(%rdi,%r8,2), %r13
	movq	%rsi, %r11
	orq	$1, %r11
	cmpq	%r11, %r13
	je	LBB28_24
	jmp	LBB28_11
LBB28_23:
	cmpq	%rsi, %r15
	jne	LBB28_11
LBB28_24:
	movq	%r9, %r13
	andq	%rax, %rbx
	je	LBB28_28
	movq	%rbx, %r11
	shrq	$3, %r11
	cmpq	%r14, %r11
	ja	LBB28_11
	testb	$1, -16(%rdi,%rbx,2)
	je	LBB28_11
	andq	-8(%rdi,%rbx,2), %rax
	movq	%rax, %r13
LBB28_28:
	cmpq	%rsi, %r13
	jne	LBB28_11
	testq	%r15, %r15
	setne	%al
	cmpq	%r15, 16(%rsp)
	sete	%r11b
	testb	%r11b, %al
	jne	LBB28_11
	xorl	%r13d, %r13d
	cmpb	$0, 8(%rsp)
	cmovneq	%rbp, %r13
	cmpq	%rsi, %r13
	je	LBB28_11
	xorl	%eax, %eax
	cmpb	$0, 7(%rsp)
	cmovneq	%r12, %rax
	cmpq	%rsi, %rax
	je	LBB28_11
	movq	%r9, %r11
	movq	%rbx, %rcx
	testq	%r8, %r8
	je	LBB28_34
	movq	%rbx, %rax
	orq	$1, %rax
	movq	%rax, -16(%rdi,%r8,2)
	movq	%r15, %rcx
LBB28_34:
	movq	%rdx, %r9
	testq	%rbx, %rbx
	je	LBB28_35
	movq	%r8, -8(%rdi,%rbx,2)
	jmp	LBB28_37
LBB28_35:
	movq	%r8, %r11
LBB28_37:
	movq	32(%rsp), %r8
	movq	24(%rsp), %rdx
	movq	%rsi, %rax
	cmpb	$0, 8(%rsp)
	je	LBB28_39
	movq	%rsi, %rax
	orq	$1, %rax
	movq	%rax, -16(%rdi,%rbp,2)
	movq	16(%rsp), %rax
LBB28_39:
	cmpb	$0, 7(%rsp)
	je	LBB28_40
	movq	%rsi, -8(%rdi,%r12,2)
	jmp	LBB28_42
LBB28_40:
	movq	%rsi, %r9
LBB28_42:
	incq	%r12
	cmpb	$0, 7(%rsp)
	movq	%r13, -8(%rdi,%r10)
	movl	$1, %esi
	cmovneq	%r12, %rsi
	movq	%rsi, -16(%rdi,%r10)
	movq	%rax, (%rdx)
	movq	%r9, 8(%rdx)
	movq	%rcx, (%r8)
	movq	%r11, 8(%r8)
	xorl	%eax, %eax
LBB28_43:
	addq	$48, %rsp
	popq	%rbx
	popq	%r12
	popq	%r13
	popq	%r14
	popq	%r15
	popq	%rbp
	retq
LBB28_16:
	cmpq	%rbx, 16(%rsp)
	jne	LBB28_11
	movq	$0, 8(%rsp)
	xorl	%ebp, %ebp
	movb	%r8b, 7(%rsp)
	movq	16(%rsp), %r12
	cmpq	%rsi, %r14
	jae	LBB28_19
LBB28_11:
	movq	%r14, %rsi
	movq	40(%rsp), %rdx
	addq	$48, %rsp
	popq	%rbx
	popq	%r12
	popq	%r13
	popq	%r14
	popq	%r15
	popq	%rbp
	jmp	_ic_raw.table.RawTable.refusal_at_both.85cd03e557136797
	.cfi_endproc
	.p2align	4
_ic_raw.table.refusal_at_end.05a19227735374d3:
	.cfi_startproc
	movl	%edx, %ecx
	movl	$-1, %edx
	jmp	_ic_raw.table.RawTable.refusal.05a19227735374d3
	.cfi_endproc
	.p2align	4
_ic_raw.ring_calls.move_beside.5b268f449b4ebf83:
	.cfi_startproc
	pushq	%r15
	.cfi_def_cfa_offset 16
	pushq	%r14
	.cfi_def_cfa_offset 24
	pushq	%rbx
	.cfi_def_cfa_offset 32
	.cfi_offset %rbx, -32
	.cfi_offset %r14, -24
	.cfi_offset %r15, -16
	leal	1(%rcx), %r15d
	movl	%ecx, %r9d
	movl	$4, %eax
	incl	%r9d
	je	LBB30_27
	leal	1(%r8), %r9d
	movl	%r8d, %r10d
	incl	%r10d
	je	LBB30_27
	cmpq	$536870911, %rsi
	movl	$536870911, %ebx
	cmovbq	%rsi, %rbx
	cmpq	%r9, %rbx
	jb	LBB30_20
	shlq	$3, %r9
	movl	-8(%rdi,%r9), %r10d
	testb	$1, %r10b
	je	LBB30_20
	movl	-4(%rdi,%r9), %r11d
	andl	$-8, %r11d
	je	LBB30_20
	movl	%r11d, %eax
	shrl	$3, %eax
	cmpq	%rbx, %rax
	ja	LBB30_20
	movl	-8(%rdi,%r11), %eax
	testb	$1, %al
	je	LBB30_20
	andl	$-8, %eax
	cmpq	%rax, %r9
	jne	LBB30_20
	andl	$-8, %r10d
	je	LBB30_20
	movl	%r10d, %eax
	shrl	$3, %eax
	cmpq	%rbx, %rax
	ja	LBB30_20
	testb	$1, -8(%rdi,%r10)
	je	LBB30_20
	movl	-4(%rdi,%r10), %eax
	andl	$-8, %eax
	cmpq	%rax, %r9
	jne	LBB30_20
	leaq	(,%r15,8), %r14
	xorl	%eax, %eax
	cmpq	%r9, %r14
	je	LBB30_27
	cmpq	%r15, %rbx
	jb	LBB30_20
	movl	-8(%rdi,%r14), %r15d
	testb	$1, %r15b
	je	LBB30_20
	testb	$1, %dl
	je	LBB30_16
	movl	-4(%rdi,%r14), %r15d
	movl	$4294967288, %edx
	andq	%r15, %rdx
	je	LBB30_20
	shrl	$3, %r15d
	cmpq	%rbx, %r15
	ja	LBB30_20
	movl	-8(%rdi,%rdx), %r15d
	testb	$1, %r15b
	je	LBB30_20
	andl	$-8, %r15d
	movq	%rdx, %rbx
	cmpq	%r15, %r14
	je	LBB30_25
	jmp	LBB30_20
LBB30_16:
	movl	$4294967288, %edx
	andq	%r15, %rdx
	je	LBB30_20
	shrl	$3, %r15d
	cmpq	%rbx, %r15
	ja	LBB30_20
	testb	$1, -8(%rdi,%rdx)
	je	LBB30_20
	movl	-4(%rdi,%rdx), %ebx
	andl	$-8, %ebx
	cmpq	%rbx, %r14
	movq	%r14, %rbx
	movq	%rdx, %r14
	jne	LBB30_20
LBB30_25:
	cmpq	%r9, %rdx
	je	LBB30_27
	movl	%r10d, %ecx
	orl	$1, %ecx
	movl	%ecx, -8(%rdi,%r11)
	movl	%r11d, -4(%rdi,%r10)
	movl	%ebx, -4(%rdi,%r9)
	movl	%r14d, %ecx
	orl	$1, %ecx
	movl	%ecx, -8(%rdi,%r9)
	movl	%r9d, %ecx
	orl	$1, %ecx
	movl	%ecx, -8(%rdi,%rbx)
	movl	%r9d, -4(%rdi,%r14)
LBB30_27:
	popq	%rbx
	popq	%r14
	popq	%r15
	retq
LBB30_20:
	movl	%ecx, %edx
	movl	%r8d, %ecx
	popq	%rbx
	popq	%r14
	popq	%r15
	jmp	_ic_raw.table.RawTable.refusal_at_both.05a19227735374d3
	.cfi_endproc
	.p2align	4
_ic_raw.ring_calls.pop.5b268f449b4ebf83:
	.cfi_startproc
	leal	1(%rcx), %r10d
	movl	$4, %eax
	incl	%ecx
	je	LBB31_27
	subq	$24, %rsp
	.cfi_def_cfa_offset 32
	movq	%rsi, %r9
	leaq	(,%r10,8), %rsi
	movq	%rdi, 8(%rsp)
	movq	%r9, 16(%rsp)
	cmpq	$536870911, %r9
	movl	$536870911, %eax
	cmovbq	%r9, %rax
	cmpq	%r10, %rax
	jb	LBB31_25
	movl	-8(%rdi,%rsi), %r9d
	testb	$1, %r9b
	je	LBB31_25
	testb	$1, %dl
	je	LBB31_4
	movl	-4(%rdi,%rsi), %edx
	movl	$4294967288, %ecx
	andq	%rdx, %rcx
	je	LBB31_25
	shrl	$3, %edx
	cmpq	%rax, %rdx
	ja	LBB31_25
	movl	-8(%rdi,%rcx), %edx
	testb	$1, %dl
	je	LBB31_25
	movl	%edx, %r9d
	andl	$-8, %r9d
	cmpq	%r9, %rsi
	je	LBB31_13
	jmp	LBB31_25
LBB31_4:
	movl	$4294967288, %ecx
	andq	%r9, %rcx
	je	LBB31_25
	shrl	$3, %r9d
	cmpq	%rax, %r9
	ja	LBB31_25
	movl	-8(%rdi,%rcx), %edx
	testb	$1, %dl
	je	LBB31_25
	movl	-4(%rdi,%rcx), %r9d
	andl	$-8, %r9d
	cmpq	%r9, %rsi
	jne	LBB31_25
LBB31_13:
	cmpq	%rsi, %rcx
	je	LBB31_25
	movl	%ecx, %r9d
	shrl	$3, %r9d
	cmpq	%rax, %r9
	ja	LBB31_25
	testb	$1, %dl
	je	LBB31_25
	movl	-4(%rdi,%rcx), %r10d
	andl	$-8, %r10d
	je	LBB31_25
	movl	%r10d, %r11d
	shrl	$3, %r11d
	cmpq	%rax, %r11
	ja	LBB31_25
	movl	-8(%rdi,%r10), %r11d
	testb	$1, %r11b
	je	LBB31_25
	andl	$-8, %r11d
	cmpl	%r11d, %ecx
	jne	LBB31_25
	movl	%edx, %r11d
	andl	$-8, %r11d
	je	LBB31_25
	shrl	$3, %edx
	cmpq	%rax, %rdx
	ja	LBB31_25
	testb	$1, -8(%rdi,%r11)
	je	LBB31_25
	movl	-4(%rdi,%r11), %eax
	andl	$-8, %eax
	cmpl	%eax, %ecx
	jne	LBB31_25
	movl	%r11d, %eax
	orl	$1, %eax
	movl	%eax, -8(%rdi,%r10)
	movl	%r10d, -4(%rdi,%r11)
	movl	$0, -8(%rdi,%rcx)
	decl	%r9d
	movl	%r9d, (%r8)
	xorl	%eax, %eax
	jmp	LBB31_26
LBB31_25:
	leaq	8(%rsp), %rdi
	callq	_ic_raw.ring_calls.refusal_to_pop.5b268f449b4ebf83
LBB31_26:
	addq	$24, %rsp
LBB31_27:
	retq
	.cfi_endproc
	.p2align	4
_ic_raw.ring_calls.refusal_to_pop.5b268f449b4ebf83:
	.cfi_startproc
	movq	8(%rdi), %rax
	movq	%rsi, %rcx
	shrq	$3, %rcx
	cmpq	$536870911, %rax
	movl	$536870911, %edx
	cmovbq	%rax, %rdx
	cmpq	%rdx, %rcx
	ja	_ic_raw.table.RawTable.refusal_of.05a19227735374d3
	movq	(%rdi), %rax
	movl	-8(%rax,%rsi), %ecx
	testb	$1, %cl
	je	_ic_raw.table.RawTable.refusal_of.05a19227735374d3
	andl	$-8, %ecx
	cmpq	%rcx, %rsi
	jne	_ic_raw.table.RawTable.refusal_of.05a19227735374d3
	movl	-4(%rax,%rsi), %eax
	andl	$-8, %eax
	cmpq	%rax, %rsi
	jne	_ic_raw.table.RawTable.refusal_of.05a19227735374d3
	movl	$4, %eax
	retq
	.cfi_endproc
	.p2align	4
_ic_raw.table.RawTable.refusal_of.05a19227735374d3:
	.cfi_startproc
	movq	8(%rdi), %rax
	movq	%rsi, %rcx
	shrq	$3, %rcx
	cmpq	$536870911, %rax
	movl	$536870911, %edx
	cmovbq	%rax, %rdx
	movl	$1, %eax
	cmpq	%rdx, %rcx
	ja	LBB33_2
	movq	(%rdi), %rax
	movzbl	-8(%rax,%rsi), %eax
	andl	$1, %eax
	leal	3(,%rax,2), %eax
LBB33_2:
	retq
	.cfi_endproc
	.p2align	4
_ic_raw.ring_calls.splice.5b268f449b4ebf83:
	.cfi_startproc
	pushq	%r14
	.cfi_def_cfa_offset 16
	pushq	%rbx
	.cfi_def_cfa_offset 24
	.cfi_offset %rbx, -24
	.cfi_offset %r14, -16
	leal	1(%rcx), %r10d
	movl	%ecx, %r9d
	movl	$4, %eax
	incl	%r9d
	je	LBB34_28
	leal	1(%r8), %r9d
	movl	%r8d, %r11d
	incl	%r11d
	jne	LBB34_2
LBB34_28:
	popq	%rbx
	popq	%r14
	retq
LBB34_2:
	cmpq	$536870911, %rsi
	movl	$536870911, %eax
	cmovbq	%rsi, %rax
	cmpq	%r9, %rax
	jb	LBB34_29
	shlq	$3, %r9
	movl	-8(%rdi,%r9), %r11d
	testb	$1, %r11b
	je	LBB34_29
	movl	-4(%rdi,%r9), %ebx
	andl	$-8, %ebx
	je	LBB34_29
	movl	%ebx, %r14d
	shrl	$3, %r14d
	cmpq	%rax, %r14
	ja	LBB34_29
	movl	-8(%rdi,%rbx), %r14d
	testb	$1, %r14b
	je	LBB34_29
	andl	$-8, %r14d
	cmpq	%r14, %r9
	jne	LBB34_29
	andl	$-8, %r11d
	je	LBB34_29
	movl	%r11d, %r14d
	shrl	$3, %r14d
	cmpq	%rax, %r14
	ja	LBB34_29
	testb	$1, -8(%rdi,%r11)
	je	LBB34_29
	movl	-4(%rdi,%r11), %r14d
	andl	$-8, %r14d
	cmpq	%r14, %r9
	jne	LBB34_29
	cmpq	%r10, %rax
	jb	LBB34_29
	shlq	$3, %r10
	movl	-8(%rdi,%r10), %r14d
	testb	$1, %r14b
	je	LBB34_29
	testb	$1, %dl
	je	LBB34_15
	movl	-4(%rdi,%r10), %edx
	movl	$4294967288, %r14d
	andq	%rdx, %r14
	je	LBB34_29
	shrl	$3, %edx
	cmpq	%rax, %rdx
	ja	LBB34_29
	movl	-8(%rdi,%r14), %eax
	testb	$1, %al
	je	LBB34_29
	andl	$-8, %eax
	movq	%r10, %rdx
	jmp	LBB34_23
LBB34_15:
	movl	$4294967288, %edx
	andq	%r14, %rdx
	je	LBB34_29
	shrl	$3, %r14d
	cmpq	%rax, %r14
	ja	LBB34_29
	testb	$1, -8(%rdi,%rdx)
	je	LBB34_29
	movl	-4(%rdi,%rdx), %eax
	andl	$-8, %eax
	movq	%r10, %r14
LBB34_23:
	cmpq	%rax, %r10
	jne	LBB34_29
	cmpq	%r9, %r14
	je	LBB34_29
	cmpq	%rbx, %r14
	je	LBB34_29
	xorl	%eax, %eax
	cmpq	%rbx, %r9
	je	LBB34_28
	movl	%r11d, %ecx
	orl	$1, %ecx
	movl	%ecx, -8(%rdi,%r14)
	movl	%r14d, -4(%rdi,%r11)
	movl	%edx, %ecx
	orl	$1, %ecx
	movl	%ecx, -8(%rdi,%rbx)
	movl	%ebx, -4(%rdi,%rdx)
	movl	%r9d, -4(%rdi,%r9)
	movl	%r9d, %ecx
	orl	$1, %ecx
	movl	%ecx, -8(%rdi,%r9)
	popq	%rbx
	popq	%r14
	retq
LBB34_29:
	movl	%ecx, %edx
	movl	%r8d, %ecx
	popq	%rbx
	popq	%r14
	jmp	_ic_raw.table.RawTable.refusal_at_both.05a19227735374d3
	.cfi_endproc
	.p2align	4
_ic_raw.table.RawTable.refusal_of.5f318a721acb0238:
	.cfi_startproc
	movq	%rdx, %rcx
	shrq	$3, %rcx
	movl	$1, %eax
	cmpq	%rsi, %rcx
	ja	LBB35_2
	movzbl	-16(%rdi,%rdx,2), %eax
	andl	$1, %eax
	leal	3(,%rax,2), %eax
LBB35_2:
	retq
	.cfi_endproc
	.p2align	4
_ic_raw.table.refusal_at_end.85cd03e557136797:
	.cfi_startproc
	movl	%edx, %ecx
	movl	$-1, %edx
	jmp	_ic_raw.table.RawTable.refusal.85cd03e557136797
	.cfi_endproc
	.p2align	4
_ic_raw_lists.ring_sort_calls.refusal_at_both:
	.cfi_startproc
	movq	%rdx, %r8
	shrq	$3, %r8
	movl	$1, %eax
	cmpq	8(%rdi), %r8
	ja	LBB37_2
	movq	(%rdi), %r8
	movl	$3, %eax
	testb	$1, -16(%r8,%rdx,2)
	jne	LBB37_3
LBB37_2:
	retq
LBB37_3:
	movq	%rcx, %rdx
	jmp	_ic_raw_lists.ring_sort_calls.refusal_at
	.cfi_endproc
	.p2align	4
_ic_raw_lists.ring_sort_calls.refusal_at:
	.cfi_startproc
	movq	%rdi, %rcx
	movq	8(%rdi), %rdi
	movq	%rdx, %r8
	shrq	$3, %r8
	movl	$1, %eax
	cmpq	%rdi, %r8
	ja	LBB38_2
	movq	(%rcx), %rcx
	movl	$3, %eax
	testb	$1, -16(%rcx,%rdx,2)
	jne	_ic_raw.sort_calls.refusal.5f318a721acb0238
LBB38_2:
	retq
	.cfi_endproc
	.p2align	4
_ic_raw.sort_calls.refusal.5f318a721acb0238:
	.cfi_startproc
	xorl	%eax, %eax
	cmpq	%rdi, %rsi
	setae	%al
	leal	1(,%rax,4), %eax
	retq
	.cfi_endproc
	.p2align	4
_ic_list_algorithms.merge.merge_runs.e8da022ef74ca9e6:
	.cfi_startproc
	pushq	%rbx
	.cfi_def_cfa_offset 16
	.cfi_offset %rbx, -16
	movq	%rdx, %rax
	movabsq	$68719476728, %rdx
	movq	(%rsi), %r9
	movq	-8(%r9,%rcx), %r10
	movq	(%rdi), %r8
	cmpq	-8(%r9,%rax), %r10
	jae	LBB40_1
	movq	-16(%r8,%rcx,2), %r9
	andq	%rdx, %r9
	je	LBB40_7
	movq	%rcx, %r8
	movq	%rax, %r10
	movq	%r9, %rcx
	movq	%r8, %rax
	jmp	LBB40_12
LBB40_1:
	movq	-16(%r8,%rax,2), %r10
	andq	%rdx, %r10
	je	LBB40_6
	movq	%rax, %r8
	jmp	LBB40_12
	.p2align	4
LBB40_11:
	movq	%rax, %rbx
	orq	$1, %rbx
	movq	-16(%r11,%rax,2), %r10
	movq	%rbx, -16(%r11,%r9,2)
	andq	%rdx, %r10
	je	LBB40_13
LBB40_12:
	movq	%rax, %r9
	movq	%r10, %rax
	movq	%rcx, %r10
	.p2align	4
LBB40_8:
	movq	%r10, %rcx
	movq	(%rsi), %r10
	movq	-8(%r10,%rcx), %rbx
	movq	(%rdi), %r11
	cmpq	-8(%r10,%rax), %rbx
	jae	LBB40_11
	movq	%rcx, %rbx
	orq	$1, %rbx
	movq	-16(%r11,%rcx,2), %r10
	movq	%rbx, -16(%r11,%r9,2)
	movq	%rcx, %r9
	andq	%rdx, %r10
	jne	LBB40_8
	movq	(%rdi), %rdx
	incq	%rax
	movq	%rax, -16(%rdx,%rcx,2)
	movq	%r8, %rax
	popq	%rbx
	retq
LBB40_7:
	orq	$1, %rax
	movq	%rax, -16(%r8,%rcx,2)
	movq	%rcx, %rax
	popq	%rbx
	retq
LBB40_6:
	orq	$1, %rcx
	movq	%rcx, -16(%r8,%rax,2)
	popq	%rbx
	retq
LBB40_13:
	movq	(%rdi), %rdx
	incq	%rcx
	movq	%rcx, -16(%rdx,%rax,2)
	movq	%r8, %rax
	popq	%rbx
	retq
	.cfi_endproc
	.p2align	4
_ic_raw.ring_calls.move_beside.354f48d5d890d6b4:
	.cfi_startproc
	pushq	%r15
	.cfi_def_cfa_offset 16
	pushq	%r14
	.cfi_def_cfa_offset 24
	pushq	%r13
	.cfi_def_cfa_offset 32
	pushq	%r12
	.cfi_def_cfa_offset 40
	pushq	%rbx
	.cfi_def_cfa_offset 48
	.cfi_offset %rbx, -48
	.cfi_offset %r12, -40
	.cfi_offset %r13, -32
	.cfi_offset %r14, -24
	.cfi_offset %r15, -16
	leal	1(%rcx), %r15d
	movl	%ecx, %r9d
	movl	$4, %eax
	incl	%r9d
	je	LBB41_27
	leal	1(%r8), %r9d
	movl	%r8d, %r10d
	incl	%r10d
	je	LBB41_27
	cmpq	%r9, %rsi
	jb	LBB41_20
	movq	%r9, %r10
	shlq	$4, %r10
	movq	-16(%rdi,%r10), %r11
	testb	$1, %r11b
	je	LBB41_20
	movabsq	$68719476728, %r14
	movq	-8(%rdi,%r10), %rbx
	andq	%r14, %rbx
	je	LBB41_20
	movq	%rbx, %rax
	shrq	$3, %rax
	cmpq	%rsi, %rax
	ja	LBB41_20
	movq	-16(%rdi,%rbx,2), %rax
	testb	$1, %al
	je	LBB41_20
	shlq	$3, %r9
	andq	%r14, %rax
	cmpq	%r9, %rax
	jne	LBB41_20
	andq	%r14, %r11
	je	LBB41_20
	movq	%r11, %rax
	shrq	$3, %rax
	cmpq	%rsi, %rax
	ja	LBB41_20
	testb	$1, -16(%rdi,%r11,2)
	je	LBB41_20
	movq	-8(%rdi,%r11,2), %rax
	andq	%r14, %rax
	cmpq	%r9, %rax
	jne	LBB41_20
	leaq	(,%r15,8), %r12
	xorl	%eax, %eax
	cmpq	%r9, %r12
	je	LBB41_27
	cmpq	%r15, %rsi
	jb	LBB41_20
	shlq	$4, %r15
	movq	-16(%rdi,%r15), %r13
	testb	$1, %r13b
	je	LBB41_20
	testb	$1, %dl
	je	LBB41_16
	movq	-8(%rdi,%r15), %r13
	andq	%r14, %r13
	je	LBB41_20
	movq	%r13, %rdx
	shrq	$3, %rdx
	cmpq	%rsi, %rdx
	ja	LBB41_20
	movq	-16(%rdi,%r13,2), %r15
	testb	$1, %r15b
	je	LBB41_20
	andq	%r14, %r15
	movq	%r13, %rdx
	cmpq	%r12, %r15
	je	LBB41_25
	jmp	LBB41_20
LBB41_16:
	andq	%r14, %r13
	je	LBB41_20
	movq	%r13, %rdx
	shrq	$3, %rdx
	cmpq	%rsi, %rdx
	ja	LBB41_20
	testb	$1, -16(%rdi,%r13,2)
	je	LBB41_20
	andq	-8(%rdi,%r13,2), %r14
	cmpq	%r12, %r14
	movq	%r12, %rdx
	movq	%r13, %r12
	jne	LBB41_20
LBB41_25:
	cmpq	%r9, %r13
	je	LBB41_27
	movq	%r11, %rcx
	orq	$1, %rcx
	movq	%rcx, -16(%rdi,%rbx,2)
	movq	%rbx, -8(%rdi,%r11,2)
	movq	%rdx, -8(%rdi,%r10)
	movq	%r12, %rcx
	orq	$1, %rcx
	movq	%rcx, -16(%rdi,%r10)
	movq	%r9, %rcx
	orq	$1, %rcx
	movq	%rcx, -16(%rdi,%rdx,2)
	movq	%r9, -8(%rdi,%r12,2)
LBB41_27:
	popq	%rbx
	popq	%r12
	popq	%r13
	popq	%r14
	popq	%r15
	retq
LBB41_20:
	movl	%ecx, %edx
	movl	%r8d, %ecx
	popq	%rbx
	popq	%r12
	popq	%r13
	popq	%r14
	popq	%r15
	jmp	_ic_raw.table.RawTable.refusal_at_both.85cd03e557136797
	.cfi_endproc
	.p2align	4
_ic_raw.ring_calls.pop.354f48d5d890d6b4:
	.cfi_startproc
	leal	1(%rcx), %r10d
	movl	$4, %eax
	incl	%ecx
	je	LBB42_26
	pushq	%rbx
	.cfi_def_cfa_offset 16
	subq	$16, %rsp
	.cfi_def_cfa_offset 32
	.cfi_offset %rbx, -16
	movq	%rsi, %r9
	leaq	(,%r10,8), %rsi
	movq	%rdi, (%rsp)
	movq	%r9, 8(%rsp)
	cmpq	%r10, %r9
	jb	LBB42_24
	shlq	$4, %r10
	movq	-16(%rdi,%r10), %rax
	testb	$1, %al
	je	LBB42_24
	movabsq	$68719476728, %rcx
	testb	$1, %dl
	je	LBB42_4
	movq	-8(%rdi,%r10), %rax
	andq	%rcx, %rax
	je	LBB42_24
	movq	%rax, %rdx
	shrq	$3, %rdx
	cmpq	%r9, %rdx
	ja	LBB42_24
	movq	-16(%rdi,%rax,2), %r10
	testb	$1, %r10b
	je	LBB42_24
	andq	%rcx, %r10
	cmpq	%rsi, %r10
	je	LBB42_12
	jmp	LBB42_24
LBB42_4:
	andq	%rcx, %rax
	je	LBB42_24
	movq	%rax, %rdx
	shrq	$3, %rdx
	cmpq	%r9, %rdx
	ja	LBB42_24
	testb	$1, -16(%rdi,%rax,2)
	je	LBB42_24
	movq	-8(%rdi,%rax,2), %r10
	andq	%rcx, %r10
	cmpq	%rsi, %r10
	jne	LBB42_24
LBB42_12:
	cmpq	%rsi, %rax
	je	LBB42_24
	cmpq	%r9, %rdx
	ja	LBB42_24
	movq	-16(%rdi,%rax,2), %r10
	testb	$1, %r10b
	je	LBB42_24
	movq	-8(%rdi,%rax,2), %r11
	andq	%rcx, %r11
	je	LBB42_24
	movq	%r11, %rbx
	shrq	$3, %rbx
	cmpq	%r9, %rbx
	ja	LBB42_24
	movq	-16(%rdi,%r11,2), %rbx
	testb	$1, %bl
	je	LBB42_24
	andq	%rcx, %rbx
	cmpq	%rax, %rbx
	jne	LBB42_24
	andq	%rcx, %r10
	je	LBB42_24
	movq	%r10, %rbx
	shrq	$3, %rbx
	cmpq	%r9, %rbx
	ja	LBB42_24
	testb	$1, -16(%rdi,%r10,2)
	je	LBB42_24
	andq	-8(%rdi,%r10,2), %rcx
	cmpq	%rax, %rcx
	jne	LBB42_24
	movq	%r10, %rcx
	orq	$1, %rcx
	movq	%rcx, -16(%rdi,%r11,2)
	movq	%r11, -8(%rdi,%r10,2)
	movq	$0, -16(%rdi,%rax,2)
	decl	%edx
	movl	%edx, (%r8)
	xorl	%eax, %eax
	jmp	LBB42_25
LBB42_24:
	movq	%rsp, %rdi
	callq	_ic_raw.ring_calls.refusal_to_pop.354f48d5d890d6b4
LBB42_25:
	addq	$16, %rsp
	popq	%rbx
LBB42_26:
	retq
	.cfi_endproc
	.p2align	4
_ic_raw.ring_calls.refusal_to_pop.354f48d5d890d6b4:
	.cfi_startproc
	movq	%rsi, %rax
	shrq	$3, %rax
	cmpq	8(%rdi), %rax
	ja	_ic_raw.table.RawTable.refusal_of.85cd03e557136797
	movq	(%rdi), %rax
	movq	-16(%rax,%rsi,2), %rcx
	testb	$1, %cl
	je	_ic_raw.table.RawTable.refusal_of.85cd03e557136797
	movabsq	$68719476728, %rdx
	andq	%rdx, %rcx
	cmpq	%rsi, %rcx
	jne	_ic_raw.table.RawTable.refusal_of.85cd03e557136797
	andq	-8(%rax,%rsi,2), %rdx
	cmpq	%rsi, %rdx
	jne	_ic_raw.table.RawTable.refusal_of.85cd03e557136797
	movl	$4, %eax
	retq
	.cfi_endproc
	.p2align	4
_ic_raw.table.RawTable.refusal_of.85cd03e557136797:
	.cfi_startproc
	movq	%rsi, %rcx
	shrq	$3, %rcx
	movl	$1, %eax
	cmpq	8(%rdi), %rcx
	ja	LBB44_2
	movq	(%rdi), %rax
	movzbl	-16(%rax,%rsi,2), %eax
	andl	$1, %eax
	leal	3(,%rax,2), %eax
LBB44_2:
	retq
	.cfi_endproc
	.p2align	4
_ic_list_algorithms.sort.sort_front.e8da022ef74ca9e6:
	.cfi_startproc
	pushq	%rbp
	.cfi_def_cfa_offset 16
	pushq	%r15
	.cfi_def_cfa_offset 24
	pushq	%r14
	.cfi_def_cfa_offset 32
	pushq	%r13
	.cfi_def_cfa_offset 40
	pushq	%r12
	.cfi_def_cfa_offset 48
	pushq	%rbx
	.cfi_def_cfa_offset 56
	subq	$56, %rsp
	.cfi_def_cfa_offset 112
	.cfi_offset %rbx, -56
	.cfi_offset %r12, -48
	.cfi_offset %r13, -40
	.cfi_offset %r14, -32
	.cfi_offset %r15, -24
	.cfi_offset %rbp, -16
	movq	%rdi, %rbx
	testq	%r8, %r8
	je	LBB45_10
	cmpq	$1, %r8
	jne	LBB45_7
	movabsq	$68719476728, %r14
	movq	(%rsi), %rdi
	movq	-16(%rdi,%rcx,2), %rax
	movq	$1, -16(%rdi,%rcx,2)
	andq	%r14, %rax
	je	LBB45_5
	movq	(%rsi), %rdi
	xorl	%r15d, %r15d
	andq	-16(%rdi,%rax,2), %r14
	setne	%r15b
	movq	$1, -16(%rdi,%rax,2)
	movq	%rsi, %rdi
	movq	%rdx, %rsi
	movq	%rcx, %rdx
	movq	%rax, %rcx
	callq	_ic_list_algorithms.merge.merge_runs.e8da022ef74ca9e6
	movq	%rax, (%rbx)
	movq	%r15, 8(%rbx)
	movq	%r14, 16(%rbx)
	jmp	LBB45_4
LBB45_10:
	movq	(%rsi), %rax
	movabsq	$68719476728, %rdx
	xorl	%esi, %esi
	andq	-16(%rax,%rcx,2), %rdx
	setne	%sil
	movq	$1, -16(%rax,%rcx,2)
	movq	%rcx, (%rbx)
	movq	%rsi, 8(%rbx)
	movq	%rdx, 16(%rbx)
	jmp	LBB45_4
LBB45_7:
	decq	%r8
	leaq	32(%rsp), %rdi
	movq	%rsi, %r12
	movq	%rdx, %r13
	movq	%r8, %r15
	callq	_ic_list_algorithms.sort.sort_front.e8da022ef74ca9e6
	movq	32(%rsp), %r14
	cmpb	$1, 40(%rsp)
	jne	LBB45_9
	movq	48(%rsp), %rcx
	leaq	8(%rsp), %rdi
	movq	%r12, %rsi
	movq	%r13, %rdx
	movq	%r15, %r8
	callq	_ic_list_algorithms.sort.sort_front.e8da022ef74ca9e6
	movzbl	16(%rsp), %r15d
	movq	8(%rsp), %rcx
	movq	24(%rsp), %rbp
	movq	%r12, %rdi
	movq	%r13, %rsi
	movq	%r14, %rdx
	callq	_ic_list_algorithms.merge.merge_runs.e8da022ef74ca9e6
	movq	%rax, (%rbx)
	movq	%r15, 8(%rbx)
	movq	%rbp, 16(%rbx)
	jmp	LBB45_4
LBB45_9:
	movq	%r14, (%rbx)
	jmp	LBB45_6
LBB45_5:
	movq	%rcx, (%rbx)
LBB45_6:
	movq	$0, 8(%rbx)
	movq	$0, 16(%rbx)
LBB45_4:
	addq	$56, %rsp
	popq	%rbx
	popq	%r12
	popq	%r13
	popq	%r14
	popq	%r15
	popq	%rbp
	retq
	.cfi_endproc
	.p2align	4
_ic_raw.ring_calls.splice.354f48d5d890d6b4:
	.cfi_startproc
	pushq	%r15
	.cfi_def_cfa_offset 16
	pushq	%r14
	.cfi_def_cfa_offset 24
	pushq	%r12
	.cfi_def_cfa_offset 32
	pushq	%rbx
	.cfi_def_cfa_offset 40
	.cfi_offset %rbx, -40
	.cfi_offset %r12, -32
	.cfi_offset %r14, -24
	.cfi_offset %r15, -16
	leal	1(%rcx), %ebx
	movl	%ecx, %r9d
	movl	$4, %eax
	incl	%r9d
	je	LBB46_28
	leal	1(%r8), %r9d
	movl	%r8d, %r10d
	incl	%r10d
	jne	LBB46_2
LBB46_28:
	popq	%rbx
	popq	%r12
	popq	%r14
	popq	%r15
	retq
LBB46_2:
	cmpq	%r9, %rsi
	jb	LBB46_19
	movq	%r9, %r10
	shlq	$4, %r10
	movq	-16(%rdi,%r10), %r11
	testb	$1, %r11b
	je	LBB46_19
	movabsq	$68719476728, %rax
	movq	-8(%rdi,%r10), %r14
	andq	%rax, %r14
	je	LBB46_19
	movq	%r14, %r15
	shrq	$3, %r15
	cmpq	%rsi, %r15
	ja	LBB46_19
	movq	-16(%rdi,%r14,2), %r15
	testb	$1, %r15b
	je	LBB46_19
	shlq	$3, %r9
	andq	%rax, %r15
	cmpq	%r9, %r15
	jne	LBB46_19
	andq	%rax, %r11
	je	LBB46_19
	movq	%r11, %r15
	shrq	$3, %r15
	cmpq	%rsi, %r15
	ja	LBB46_19
	testb	$1, -16(%rdi,%r11,2)
	je	LBB46_19
	cmpq	%rbx, %rsi
	jb	LBB46_19
	movq	-8(%rdi,%r11,2), %r15
	andq	%rax, %r15
	cmpq	%r9, %r15
	jne	LBB46_19
	movq	%rbx, %r12
	shlq	$4, %r12
	movq	-16(%rdi,%r12), %r15
	testb	$1, %r15b
	je	LBB46_19
	shlq	$3, %rbx
	testb	$1, %dl
	je	LBB46_15
	movq	-8(%rdi,%r12), %rdx
	andq	%rax, %rdx
	je	LBB46_19
	movq	%rdx, %r15
	shrq	$3, %r15
	cmpq	%rsi, %r15
	ja	LBB46_19
	movq	-16(%rdi,%rdx,2), %r12
	testb	$1, %r12b
	je	LBB46_19
	andq	%rax, %r12
	movq	%rbx, %r15
	cmpq	%rbx, %r12
	je	LBB46_24
	jmp	LBB46_19
LBB46_15:
	andq	%rax, %r15
	je	LBB46_19
	movq	%r15, %rdx
	shrq	$3, %rdx
	cmpq	%rsi, %rdx
	ja	LBB46_19
	testb	$1, -16(%rdi,%r15,2)
	je	LBB46_19
	andq	-8(%rdi,%r15,2), %rax
	movq	%rbx, %rdx
	cmpq	%rbx, %rax
	jne	LBB46_19
LBB46_24:
	cmpq	%r9, %rdx
	je	LBB46_19
	cmpq	%r14, %rdx
	je	LBB46_19
	xorl	%eax, %eax
	cmpq	%r9, %r14
	je	LBB46_28
	movq	%r11, %rcx
	orq	$1, %rcx
	movq	%rcx, -16(%rdi,%rdx,2)
	movq	%rdx, -8(%rdi,%r11,2)
	movq	%r15, %rcx
	orq	$1, %rcx
	movq	%rcx, -16(%rdi,%r14,2)
	movq	%r14, -8(%rdi,%r15,2)
	movq	%r9, -8(%rdi,%r10)
	orq	$1, %r9
	movq	%r9, -16(%rdi,%r10)
	jmp	LBB46_28
LBB46_19:
	movl	%ecx, %edx
	movl	%r8d, %ecx
	popq	%rbx
	popq	%r12
	popq	%r14
	popq	%r15
	jmp	_ic_raw.table.RawTable.refusal_at_both.85cd03e557136797
	.cfi_endproc
	.p2align	4
_ic_raw.sort_calls.refusal.1b4d7615ba81168a:
	.cfi_startproc
	xorl	%eax, %eax
	cmpq	%rdi, %rsi
	setae	%al
	leal	1(,%rax,4), %eax
	retq
	.cfi_endproc
	.p2align	4
_ic_list_algorithms.merge.merge_runs.07d679d1abf7571e:
	.cfi_startproc
	pushq	%rbx
	.cfi_def_cfa_offset 16
	.cfi_offset %rbx, -16
	movq	%rdx, %rax
	movabsq	$68719476728, %rdx
	movq	(%rsi), %r9
	movq	-8(%r9,%rcx), %r10
	movq	(%rdi), %r8
	cmpq	-8(%r9,%rax), %r10
	jae	LBB48_1
	movq	-8(%r8,%rcx), %r9
	andq	%rdx, %r9
	je	LBB48_7
	movq	%rcx, %r8
	movq	%rax, %r10
	movq	%r9, %rcx
	movq	%r8, %rax
	jmp	LBB48_12
LBB48_1:
	movq	-8(%r8,%rax), %r10
	andq	%rdx, %r10
	je	LBB48_6
	movq	%rax, %r8
	jmp	LBB48_12
	.p2align	4
LBB48_11:
	movq	%rax, %rbx
	orq	$1, %rbx
	movq	-8(%r11,%rax), %r10
	movq	%rbx, -8(%r11,%r9)
	andq	%rdx, %r10
	je	LBB48_13
LBB48_12:
	movq	%rax, %r9
	movq	%r10, %rax
	movq	%rcx, %r10
	.p2align	4
LBB48_8:
	movq	%r10, %rcx
	movq	(%rsi), %r10
	movq	-8(%r10,%rcx), %rbx
	movq	(%rdi), %r11
	cmpq	-8(%r10,%rax), %rbx
	jae	LBB48_11
	movq	%rcx, %rbx
	orq	$1, %rbx
	movq	-8(%r11,%rcx), %r10
	movq	%rbx, -8(%r11,%r9)
	movq	%rcx, %r9
	andq	%rdx, %r10
	jne	LBB48_8
	movq	(%rdi), %rdx
	incq	%rax
	movq	%rax, -8(%rdx,%rcx)
	movq	%r8, %rax
	popq	%rbx
	retq
LBB48_7:
	orq	$1, %rax
	movq	%rax, -8(%r8,%rcx)
	movq	%rcx, %rax
	popq	%rbx
	retq
LBB48_6:
	orq	$1, %rcx
	movq	%rcx, -8(%r8,%rax)
	popq	%rbx
	retq
LBB48_13:
	movq	(%rdi), %rdx
	incq	%rcx
	movq	%rcx, -8(%rdx,%rax)
	movq	%r8, %rax
	popq	%rbx
	retq
	.cfi_endproc
	.p2align	4
_ic_raw.stack_calls.pop_front_slow:
	.cfi_startproc
	movabsq	$68719476728, %rax
	movq	(%rdx), %r8
	andq	%rax, %r8
	je	LBB49_1
	movq	%r8, %r9
	shrq	$3, %r9
	cmpq	%rsi, %r9
	ja	LBB49_6
	movq	-8(%rdi,%r8), %r10
	testb	$1, %r10b
	je	LBB49_6
	andq	%rax, %r10
	movq	$0, -8(%rdi,%r8)
	movq	%r10, (%rdx)
	decl	%r9d
	movl	%r9d, (%rcx)
	xorl	%eax, %eax
	retq
LBB49_1:
	movl	$4, %eax
	retq
LBB49_6:
	movl	$-1, %edx
	jmp	_ic_raw.table.RawTable.refusal_at.feecb86c9dd45d96
	.cfi_endproc
	.p2align	4
_ic_raw.table.RawTable.refusal_at.feecb86c9dd45d96:
	.cfi_startproc
	movl	$5, %eax
	incl	%edx
	je	LBB50_3
	movl	$1, %eax
	cmpq	%rdx, %rsi
	jb	LBB50_3
	movzbl	-8(%rdi,%rdx,8), %eax
	andl	$1, %eax
	leal	3(,%rax,2), %eax
LBB50_3:
	retq
	.cfi_endproc
	.p2align	4
_ic_list_algorithms.sort.sort_front.07d679d1abf7571e:
	.cfi_startproc
	pushq	%rbp
	.cfi_def_cfa_offset 16
	pushq	%r15
	.cfi_def_cfa_offset 24
	pushq	%r14
	.cfi_def_cfa_offset 32
	pushq	%r13
	.cfi_def_cfa_offset 40
	pushq	%r12
	.cfi_def_cfa_offset 48
	pushq	%rbx
	.cfi_def_cfa_offset 56
	subq	$56, %rsp
	.cfi_def_cfa_offset 112
	.cfi_offset %rbx, -56
	.cfi_offset %r12, -48
	.cfi_offset %r13, -40
	.cfi_offset %r14, -32
	.cfi_offset %r15, -24
	.cfi_offset %rbp, -16
	movq	%rdi, %rbx
	testq	%r8, %r8
	je	LBB51_10
	cmpq	$1, %r8
	jne	LBB51_7
	movabsq	$68719476728, %r14
	movq	(%rsi), %rdi
	movq	-8(%rdi,%rcx), %rax
	movq	$1, -8(%rdi,%rcx)
	andq	%r14, %rax
	je	LBB51_5
	movq	(%rsi), %rdi
	xorl	%r15d, %r15d
	andq	-8(%rdi,%rax), %r14
	setne	%r15b
	movq	$1, -8(%rdi,%rax)
	movq	%rsi, %rdi
	movq	%rdx, %rsi
	movq	%rcx, %rdx
	movq	%rax, %rcx
	callq	_ic_list_algorithms.merge.merge_runs.07d679d1abf7571e
	movq	%rax, (%rbx)
	movq	%r15, 8(%rbx)
	movq	%r14, 16(%rbx)
	jmp	LBB51_4
LBB51_10:
	movq	(%rsi), %rax
	movabsq	$68719476728, %rdx
	xorl	%esi, %esi
	andq	-8(%rax,%rcx), %rdx
	setne	%sil
	movq	$1, -8(%rax,%rcx)
	movq	%rcx, (%rbx)
	movq	%rsi, 8(%rbx)
	movq	%rdx, 16(%rbx)
	jmp	LBB51_4
LBB51_7:
	decq	%r8
	leaq	32(%rsp), %rdi
	movq	%rsi, %r12
	movq	%rdx, %r13
	movq	%r8, %r15
	callq	_ic_list_algorithms.sort.sort_front.07d679d1abf7571e
	movq	32(%rsp), %r14
	cmpb	$1, 40(%rsp)
	jne	LBB51_9
	movq	48(%rsp), %rcx
	leaq	8(%rsp), %rdi
	movq	%r12, %rsi
	movq	%r13, %rdx
	movq	%r15, %r8
	callq	_ic_list_algorithms.sort.sort_front.07d679d1abf7571e
	movzbl	16(%rsp), %r15d
	movq	8(%rsp), %rcx
	movq	24(%rsp), %rbp
	movq	%r12, %rdi
	movq	%r13, %rsi
	movq	%r14, %rdx
	callq	_ic_list_algorithms.merge.merge_runs.07d679d1abf7571e
	movq	%rax, (%rbx)
	movq	%r15, 8(%rbx)
	movq	%rbp, 16(%rbx)
	jmp	LBB51_4
LBB51_9:
	movq	%r14, (%rbx)
	jmp	LBB51_6
LBB51_5:
	movq	%rcx, (%rbx)
LBB51_6:
	movq	$0, 8(%rbx)
	movq	$0, 16(%rbx)
LBB51_4:
	addq	$56, %rsp
	popq	%rbx
	popq	%r12
	popq	%r13
	popq	%r14
	popq	%r15
	popq	%rbp
	retq
	.cfi_endproc
	.p2align	4
_ic_check.tree.check_below.ffc36cde30076884:
	.cfi_startproc
	pushq	%rbp
	.cfi_def_cfa_offset 16
	pushq	%r15
	.cfi_def_cfa_offset 24
	pushq	%r14
	.cfi_def_cfa_offset 32
	pushq	%r13
	.cfi_def_cfa_offset 40
	pushq	%r12
	.cfi_def_cfa_offset 48
	pushq	%rbx
	.cfi_def_cfa_offset 56
	subq	$104, %rsp
	.cfi_def_cfa_offset 160
	.cfi_offset %rbx, -56
	.cfi_offset %r12, -48
	.cfi_offset %r13, -40
	.cfi_offset %r14, -32
	.cfi_offset %r15, -24
	.cfi_offset %rbp, -16
	testb	$1, %dl
	je	LBB52_18
	movl	160(%rsp), %r13d
	testl	%r13d, %r13d
	je	LBB52_2
	movq	%rcx, %rax
	shrq	$3, %rax
	cmpq	8(%rsi), %rax
	ja	LBB52_2
	movq	(%rsi), %rdx
	shlq	$3, %rax
	leaq	(%rax,%rax,2), %r12
	movq	-24(%rdx,%r12), %rax
	testb	$1, %al
	je	LBB52_2
	movabsq	$68719476728, %r10
	movq	-8(%rdx,%r12), %r11
	andq	%r10, %r11
	xorl	%ebx, %ebx
	testb	%r8b, %r8b
	cmoveq	%rbx, %r9
	cmpq	%r9, %r11
	jne	LBB52_2
	xorl	%ebp, %ebp
	movq	-16(%rdx,%r12), %rbx
	andq	%r10, %rbx
	setne	%r14b
	andq	%r10, %rax
	je	LBB52_9
	cmpq	%rbx, %rax
	jne	LBB52_9
LBB52_2:
	movq	$0, 16(%rdi)
	movq	$0, 8(%rdi)
	movq	$0, (%rdi)
	jmp	LBB52_3
LBB52_18:
	movq	$1, (%rdi)
	movq	$0, 8(%rdi)
	movl	$0, 16(%rdi)
	movb	$1, 20(%rdi)
	movw	$0, 21(%rdi)
	movb	$0, 23(%rdi)
LBB52_3:
	addq	$104, %rsp
	popq	%rbx
	popq	%r12
	popq	%r13
	popq	%r14
	popq	%r15
	popq	%rbp
	retq
LBB52_9:
	movq	%rdi, 24(%rsp)
	xorl	%edx, %edx
	testq	%rax, %rax
	setne	%dl
	decl	%r13d
	movl	%r13d, (%rsp)
	leaq	80(%rsp), %rdi
	movq	%rsi, 40(%rsp)
	movq	%rcx, %r9
	movq	%rax, %rcx
	movl	$1, %r8d
	movq	%r9, %r15
	callq	_ic_check.tree.check_below.ffc36cde30076884
	cmpb	$1, 80(%rsp)
	jne	LBB52_17
	movq	88(%rsp), %rax
	movq	%rax, 48(%rsp)
	movl	96(%rsp), %eax
	movl	%eax, 36(%rsp)
	movzbl	100(%rsp), %eax
	movb	%al, 23(%rsp)
	movl	%r13d, (%rsp)
	movb	%r14b, %bpl
	leaq	56(%rsp), %rdi
	movq	40(%rsp), %rsi
	movl	%ebp, %edx
	movq	%rbx, %rcx
	movl	$1, %r8d
	movq	%r15, %r9
	callq	_ic_check.tree.check_below.ffc36cde30076884
	cmpb	$1, 56(%rsp)
	jne	LBB52_17
	movl	36(%rsp), %edi
	cmpl	72(%rsp), %edi
	movq	24(%rsp), %rax
	jne	LBB52_12
	movq	64(%rsp), %rdx
	movq	40(%rsp), %rcx
	movq	(%rcx), %rcx
	movq	-8(%rcx,%r12), %rcx
	cmpb	$0, 23(%rsp)
	setne	%sil
	testb	$1, %cl
	jne	LBB52_15
	andb	76(%rsp), %sil
	jne	LBB52_15
LBB52_12:
	movb	$0, 22(%rsp)
	movw	$0, 20(%rsp)
	xorl	%edx, %edx
	xorl	%esi, %esi
	xorl	%edi, %edi
	xorl	%ecx, %ecx
	jmp	LBB52_16
LBB52_17:
	movq	24(%rsp), %rax
	movq	$0, 16(%rax)
	movq	$0, 8(%rax)
	movq	$0, (%rax)
	jmp	LBB52_3
LBB52_15:
	andb	$1, %cl
	movq	48(%rsp), %rsi
	addq	%rdx, %rsi
	incq	%rsi
	movzbl	%cl, %edx
	addl	%edx, %edi
	movb	$0, 22(%rsp)
	movw	$0, 20(%rsp)
	movl	$1, %edx
LBB52_16:
	movq	%rdx, (%rax)
	movq	%rsi, 8(%rax)
	movl	%edi, 16(%rax)
	movb	%cl, 20(%rax)
	movzwl	20(%rsp), %ecx
	movw	%cx, 21(%rax)
	movzbl	22(%rsp), %ecx
	movb	%cl, 23(%rax)
	jmp	LBB52_3
	.cfi_endproc
	.p2align	4
_ic_rbtree.join.roots.join.f4da04d8a93b4f27:
	.cfi_startproc
	pushq	%rbp
	.cfi_def_cfa_offset 16
	pushq	%r15
	.cfi_def_cfa_offset 24
	pushq	%r14
	.cfi_def_cfa_offset 32
	pushq	%rbx
	.cfi_def_cfa_offset 40
	subq	$72, %rsp
	.cfi_def_cfa_offset 112
	.cfi_offset %rbx, -40
	.cfi_offset %r14, -32
	.cfi_offset %r15, -24
	.cfi_offset %rbp, -16
	movq	%rcx, %rax
	movq	%rdi, %rcx
	movabsq	$68719476728, %r11
	movzbl	%sil, %r10d
	movzbl	%r8b, %esi
	xorl	%edi, %edi
	movl	$0, %r8d
	testb	%r10b, %r10b
	je	LBB53_4
	movq	(%rcx), %rbx
	xorl	%r8d, %r8d
	xorl	%ebp, %ebp
	movq	%rdx, %r14
	.p2align	4
LBB53_2:
	movl	%r8d, %r15d
	shrq	$3, %r14
	leaq	(%r14,%r14,2), %r14
	movl	-8(%rbx,%r14,8), %r8d
	andl	$1, %r8d
	addl	%r15d, %r8d
	cmpl	$65, %ebp
	ja	LBB53_4
	movq	-24(%rbx,%r14,8), %r14
	andq	%r11, %r14
	incl	%ebp
	testq	%r14, %r14
	jne	LBB53_2
LBB53_4:
	testb	%sil, %sil
	je	LBB53_8
	movq	(%rcx), %rbx
	xorl	%edi, %edi
	xorl	%ebp, %ebp
	movq	%r9, %r14
	.p2align	4
LBB53_6:
	movl	%edi, %r15d
	shrq	$3, %r14
	leaq	(%r14,%r14,2), %r14
	movl	-8(%rbx,%r14,8), %edi
	andl	$1, %edi
	addl	%r15d, %edi
	cmpl	$65, %ebp
	ja	LBB53_8
	movq	-24(%rbx,%r14,8), %r14
	andq	%r11, %r14
	incl	%ebp
	testq	%r14, %r14
	jne	LBB53_6
LBB53_8:
	movq	$0, 64(%rsp)
	movq	%r10, 48(%rsp)
	movq	%rdx, 56(%rsp)
	movl	%r8d, 64(%rsp)
	movq	$0, 40(%rsp)
	movq	%rsi, 24(%rsp)
	movq	%r9, 32(%rsp)
	movl	%edi, 40(%rsp)
	movq	$0, (%rsp)
	movq	$0, 8(%rsp)
	movq	$0, 16(%rsp)
	cmpl	%r8d, %edi
	jbe	LBB53_9
	movq	%rsp, %rdi
	leaq	24(%rsp), %rdx
	leaq	48(%rsp), %r9
	movq	%rcx, %rsi
	xorl	%ecx, %ecx
	jmp	LBB53_11
LBB53_9:
	movq	%rsp, %rdi
	leaq	48(%rsp), %rdx
	leaq	24(%rsp), %r9
	movq	%rcx, %rsi
	movl	$1, %ecx
LBB53_11:
	movq	%rax, %r8
	callq	_ic_rbtree.join.roots.join_higher.f4da04d8a93b4f27
	movzbl	(%rsp), %eax
	movq	8(%rsp), %rdx
	addq	$72, %rsp
	popq	%rbx
	popq	%r14
	popq	%r15
	popq	%rbp
	retq
	.cfi_endproc
	.p2align	4
_ic_rbtree.join.roots.join_higher.f4da04d8a93b4f27:
	.cfi_startproc
	pushq	%rbp
	.cfi_def_cfa_offset 16
	pushq	%r15
	.cfi_def_cfa_offset 24
	pushq	%r14
	.cfi_def_cfa_offset 32
	pushq	%r13
	.cfi_def_cfa_offset 40
	pushq	%r12
	.cfi_def_cfa_offset 48
	pushq	%rbx
	.cfi_def_cfa_offset 56
	subq	$24, %rsp
	.cfi_def_cfa_offset 80
	.cfi_offset %rbx, -56
	.cfi_offset %r12, -48
	.cfi_offset %r13, -40
	.cfi_offset %r14, -32
	.cfi_offset %r15, -24
	.cfi_offset %rbp, -16
	movl	%ecx, 12(%rsp)
	movzbl	(%rdx), %ecx
	movq	8(%rdx), %r10
	movl	16(%rdx), %r11d
	movq	(%rsi), %rbx
	cmpb	$1, %cl
	movq	%rdi, (%rsp)
	movl	%r11d, 20(%rsp)
	jne	LBB54_4
	movl	16(%r9), %r14d
	movq	%r10, %rax
	shrq	$3, %rax
	leaq	(%rax,%rax,2), %rdx
	movl	-8(%rbx,%rdx,8), %eax
	andl	$1, %eax
	cmpl	%r14d, %r11d
	jne	LBB54_5
	testl	%eax, %eax
	je	LBB54_5
	xorl	%r15d, %r15d
	movq	%r10, %rbp
	movq	%r10, %rdx
	movb	$1, %r14b
	xorl	%r11d, %r11d
	jmp	LBB54_18
LBB54_4:
	xorl	%r11d, %r11d
	movb	$1, %r15b
	movq	%r10, %rbp
	movq	%r10, %rdx
	movb	$1, %r14b
	jmp	LBB54_18
LBB54_5:
	movq	%r10, %rbp
	movl	12(%rsp), %r10d
	andl	$1, %r10d
	leaq	-24(,%r10,8), %r13
	leaq	(%rbx,%rdx,8), %rdx
	movabsq	$68719476728, %r10
	movq	(%rdx,%r13), %rdx
	andq	%r10, %rdx
	je	LBB54_9
	movl	%r11d, %r10d
	subl	%eax, %r10d
	leaq	(%rdx,%rdx,2), %r12
	movl	-8(%rbx,%r12), %edi
	andl	$1, %edi
	je	LBB54_11
	cmpl	%r14d, %r10d
	jne	LBB54_11
	xorl	%r15d, %r15d
	jmp	LBB54_10
LBB54_9:
	xorl	%edx, %edx
	movb	$1, %r15b
LBB54_10:
	xorl	%r14d, %r14d
	movq	%rbp, %r11
	jmp	LBB54_18
LBB54_11:
	movl	%r14d, 16(%rsp)
	addq	%rbx, %r13
	movl	$66, %eax
	.p2align	4
LBB54_12:
	movq	%rdx, %r11
	movq	(%r13,%r12), %rdx
	movabsq	$68719476728, %r14
	andq	%r14, %rdx
	sete	%r15b
	decl	%eax
	je	LBB54_17
	testq	%rdx, %rdx
	je	LBB54_16
	subl	%edi, %r10d
	leaq	(%rdx,%rdx,2), %r12
	movl	-8(%rbx,%r12), %edi
	andl	$1, %edi
	je	LBB54_12
	xorl	%r15d, %r15d
	movl	$0, %r14d
	cmpl	16(%rsp), %r10d
	jne	LBB54_12
	jmp	LBB54_18
LBB54_16:
	xorl	%edx, %edx
	movb	$1, %r15b
LBB54_17:
	xorl	%r14d, %r14d
LBB54_18:
	movzbl	(%r9), %r13d
	movq	8(%r9), %r12
	xorl	%eax, %eax
	testb	%cl, %cl
	cmoveq	%rax, %rbp
	leaq	(%r8,%r8,2), %r9
	movl	12(%rsp), %r10d
	xorl	%eax, %eax
	cmpb	$1, %r10b
	jne	LBB54_20
	testb	%r13b, %r13b
	movq	%r12, %rcx
	cmoveq	%rax, %rcx
	movq	%rcx, -16(%rbx,%r9)
	movq	(%rsi), %rcx
	testb	%r15b, %r15b
	cmoveq	%rdx, %rax
	movq	-24(%rcx,%r9), %rdi
	andl	$1, %edi
	addq	%rax, %rdi
	movq	%rdi, -24(%rcx,%r9)
	jmp	LBB54_21
LBB54_20:
	testb	%r13b, %r13b
	movq	%r12, %rcx
	cmoveq	%rax, %rcx
	movq	-24(%rbx,%r9), %rdi
	andl	$1, %edi
	addq	%rcx, %rdi
	movq	%rdi, -24(%rbx,%r9)
	movq	(%rsi), %rcx
	testb	%r15b, %r15b
	cmoveq	%rdx, %rax
	movq	%rax, -16(%rcx,%r9)
LBB54_21:
	movq	(%rsi), %rax
	xorl	%ecx, %ecx
	testb	%r14b, %r14b
	cmoveq	%r11, %rcx
	movq	-8(%rax,%r9), %rdi
	andl	$1, %edi
	addq	%rcx, %rdi
	movq	%rdi, -8(%rax,%r9)
	testb	%r15b, %r15b
	je	LBB54_25
	cmpb	$1, %r13b
	jne	LBB54_23
LBB54_26:
	movq	(%rsi), %rax
	shrq	$3, %r12
	leaq	(%r12,%r12,2), %rcx
	movq	-8(%rax,%rcx,8), %rdx
	andl	$1, %edx
	orq	%r8, %rdx
	movq	%rdx, -8(%rax,%rcx,8)
	movq	(%rsi), %rax
	movq	-8(%rax,%r9), %rcx
	testb	%r14b, %r14b
	jne	LBB54_24
LBB54_27:
	movq	%rbp, %r13
	andq	$-2, %rcx
	movq	%rcx, -8(%rax,%r9)
	movq	(%rsi), %rax
	leaq	(%r11,%r11,2), %rcx
	testb	$1, %r10b
	je	LBB54_29
	movq	%r8, -16(%rax,%rcx)
	jmp	LBB54_30
LBB54_25:
	movq	(%rsi), %rax
	shrq	$3, %rdx
	leaq	(%rdx,%rdx,2), %rcx
	movq	-8(%rax,%rcx,8), %rdx
	andl	$1, %edx
	orq	%r8, %rdx
	movq	%rdx, -8(%rax,%rcx,8)
	cmpb	$1, %r13b
	je	LBB54_26
LBB54_23:
	movq	(%rsi), %rax
	movq	-8(%rax,%r9), %rcx
	testb	%r14b, %r14b
	je	LBB54_27
LBB54_24:
	orq	$1, %rcx
	movq	%rcx, -8(%rax,%r9)
	movl	$1, %ecx
	jmp	LBB54_44
LBB54_29:
	movq	-24(%rax,%rcx), %rdx
	andl	$1, %edx
	orq	%r8, %rdx
	movq	%rdx, -24(%rax,%rcx)
LBB54_30:
	movl	$67, %ebp
	movabsq	$68719476728, %rbx
	xorl	%eax, %eax
	jmp	LBB54_32
	.p2align	4
LBB54_31:
	movq	(%rsi), %rax
	movq	-8(%rax,%rdx), %r11
	andq	%rbx, %r11
	sete	%al
	movq	%r9, %r8
	decl	%ebp
	je	LBB54_43
LBB54_32:
	testb	$1, %al
	jne	LBB54_42
	movq	(%rsi), %r12
	leaq	(%r11,%r11,2), %r14
	movq	-8(%r12,%r14), %rdi
	xorl	%ecx, %ecx
	testb	$1, %dil
	jne	LBB54_43
	movq	%rdi, %r9
	andq	%rbx, %r9
	je	LBB54_43
	leaq	(%r9,%r9,2), %rdx
	movq	-24(%r12,%rdx), %rax
	movq	%rax, %r10
	andq	%rbx, %r10
	cmpq	%r11, %r10
	jne	LBB54_39
	movq	-16(%r12,%rdx), %r10
	andq	%rbx, %r10
	je	LBB54_51
	leaq	(%r10,%r10,2), %r10
	testb	$1, -8(%r12,%r10)
	jne	LBB54_51
	xorl	%eax, %eax
	testq	%rbx, -8(%r12,%rdx)
	sete	%al
	orq	$1, %rdi
	movq	%rdi, -8(%r12,%r14)
	movq	(%rsi), %rdi
	orq	$1, -8(%rdi,%r10)
	movq	(%rsi), %rdi
	movq	-8(%rdi,%rdx), %r8
	andq	$-2, %r8
	orq	%rax, %r8
	movq	%r8, -8(%rdi,%rdx)
	jmp	LBB54_31
	.p2align	4
LBB54_39:
	testq	%r10, %r10
	je	LBB54_46
	leaq	(%r10,%r10,2), %rax
	testb	$1, -8(%r12,%rax)
	jne	LBB54_46
	xorl	%r8d, %r8d
	testq	%rbx, -8(%r12,%rdx)
	sete	%r8b
	orq	$1, %rdi
	movq	%rdi, -8(%r12,%r14)
	movq	(%rsi), %rdi
	orq	$1, -8(%rdi,%rax)
	movq	(%rsi), %rax
	movq	-8(%rax,%rdx), %rdi
	andq	$-2, %rdi
	orq	%r8, %rdi
	movq	%rdi, -8(%rax,%rdx)
	jmp	LBB54_31
LBB54_42:
	movl	$1, %ecx
LBB54_43:
	movq	%r13, %r8
LBB54_44:
	movq	(%rsp), %r11
LBB54_45:
	xorl	%eax, %eax
	testq	%r8, %r8
	setne	%al
	addl	20(%rsp), %ecx
	movq	%rax, (%r11)
	movq	%r8, 8(%r11)
	movl	%ecx, 16(%r11)
	addq	$24, %rsp
	popq	%rbx
	popq	%r12
	popq	%r13
	popq	%r14
	popq	%r15
	popq	%rbp
	retq
LBB54_46:
	movq	-24(%r12,%r14), %r10
	movq	%r10, %rdi
	andq	%rbx, %rdi
	cmpq	%r8, %rdi
	jne	LBB54_53
	leaq	(%r8,%r8,2), %r15
	movq	-16(%r12,%r15), %rax
	andq	%rbx, %rax
	andl	$1, %r10d
	orq	%rax, %r10
	movq	%r10, -24(%r12,%r14)
	testq	%rax, %rax
	je	LBB54_49
	movq	(%rsi), %rdi
	shrq	$3, %rax
	leaq	(%rax,%rax,2), %rax
	movq	-8(%rdi,%rax,8), %r10
	andl	$1, %r10d
	orq	%r11, %r10
	movq	%r10, -8(%rdi,%rax,8)
LBB54_49:
	movq	(%rsi), %rax
	movq	-8(%rax,%r15), %rdi
	andl	$1, %edi
	orq	%r9, %rdi
	movq	%rdi, -8(%rax,%r15)
	movq	(%rsi), %rax
	andq	$-2, -8(%rax,%r15)
	movq	(%rsi), %rax
	movq	-24(%rax,%rdx), %rdi
	movq	%rdi, %r10
	andq	%rbx, %r10
	cmpq	%r11, %r10
	jne	LBB54_58
	andl	$1, %edi
	orq	%r8, %rdi
	movq	%rdi, -24(%rax,%rdx)
	jmp	LBB54_59
LBB54_51:
	movq	-24(%r12,%r14), %rdi
	andq	%rbx, %rdi
	cmpq	%r8, %rdi
	jne	LBB54_54
	movq	%r14, %r15
	movq	%r11, %r8
	jmp	LBB54_70
LBB54_53:
	movq	%r14, %r15
	movq	%r11, %r8
	jmp	LBB54_60
LBB54_54:
	leaq	(%r8,%r8,2), %r15
	movq	-24(%r12,%r15), %rax
	andq	%rbx, %rax
	movq	%rax, -16(%r12,%r14)
	je	LBB54_56
	movq	(%rsi), %rdi
	shrq	$3, %rax
	leaq	(%rax,%rax,2), %rax
	movq	-8(%rdi,%rax,8), %r10
	andl	$1, %r10d
	orq	%r11, %r10
	movq	%r10, -8(%rdi,%rax,8)
LBB54_56:
	movq	(%rsi), %rax
	movq	-8(%rax,%r15), %rdi
	andl	$1, %edi
	orq	%r9, %rdi
	movq	%rdi, -8(%rax,%r15)
	movq	(%rsi), %rax
	andq	$-2, -8(%rax,%r15)
	movq	(%rsi), %rax
	movq	-24(%rax,%rdx), %rdi
	movq	%rdi, %r10
	andq	%rbx, %r10
	cmpq	%r11, %r10
	jne	LBB54_68
	andl	$1, %edi
	orq	%r8, %rdi
	movq	%rdi, -24(%rax,%rdx)
	jmp	LBB54_69
LBB54_58:
	movq	%r8, -16(%rax,%rdx)
LBB54_59:
	movq	(%rsi), %rax
	movq	%r11, -16(%rax,%r15)
	movq	(%rsi), %rax
	movq	-8(%rax,%r14), %rdi
	andl	$1, %edi
	orq	%r8, %rdi
	movq	%rdi, -8(%rax,%r14)
	movq	(%rsi), %rax
	andq	$-2, -8(%rax,%r14)
	movq	(%rsi), %r12
	movq	-24(%r12,%r15), %rdi
	andq	%rbx, %rdi
LBB54_60:
	movq	-8(%r12,%rdx), %rax
	andq	%rbx, %rax
	movq	%rdi, -16(%r12,%rdx)
	testq	%rdi, %rdi
	je	LBB54_62
	movq	(%rsi), %r10
	shrq	$3, %rdi
	leaq	(%rdi,%rdi,2), %rdi
	movq	-8(%r10,%rdi,8), %r11
	andl	$1, %r11d
	orq	%r9, %r11
	movq	%r11, -8(%r10,%rdi,8)
LBB54_62:
	movq	(%rsi), %rdi
	movq	-8(%rdi,%r15), %r10
	andl	$1, %r10d
	orq	%rax, %r10
	movq	%r10, -8(%rdi,%r15)
	movq	(%rsi), %rdi
	orq	$1, -8(%rdi,%r15)
	movq	%r8, %rdi
	testq	%rax, %rax
	movq	(%rsp), %r11
	je	LBB54_67
	movq	(%rsi), %rdi
	leaq	(%rax,%rax,2), %rax
	movq	-24(%rdi,%rax), %r10
	andq	%r10, %rbx
	cmpq	%r9, %rbx
	jne	LBB54_65
	andl	$1, %r10d
	orq	%r8, %r10
	movq	%r10, -24(%rdi,%rax)
	jmp	LBB54_66
LBB54_65:
	movq	%r8, -16(%rdi,%rax)
LBB54_66:
	movq	%r13, %rdi
LBB54_67:
	movq	(%rsi), %rax
	movq	-24(%rax,%r15), %r10
	andl	$1, %r10d
	orq	%r9, %r10
	movq	%r10, -24(%rax,%r15)
	movq	(%rsi), %rax
	movq	-8(%rax,%rdx), %r9
	andl	$1, %r9d
	orq	%r8, %r9
	movq	%r9, -8(%rax,%rdx)
	movq	(%rsi), %rax
	andq	$-2, -8(%rax,%rdx)
	movq	%rdi, %r8
	jmp	LBB54_45
LBB54_68:
	movq	%r8, -16(%rax,%rdx)
LBB54_69:
	movq	(%rsi), %rax
	movq	-24(%rax,%r15), %rdi
	andl	$1, %edi
	orq	%r11, %rdi
	movq	%rdi, -24(%rax,%r15)
	movq	(%rsi), %rax
	movq	-8(%rax,%r14), %rdi
	andl	$1, %edi
	orq	%r8, %rdi
	movq	%rdi, -8(%rax,%r14)
	movq	(%rsi), %rax
	andq	$-2, -8(%rax,%r14)
	movq	(%rsi), %r12
	movq	-24(%r12,%rdx), %rax
LBB54_70:
	movq	-16(%r12,%r15), %r10
	andq	%rbx, %r10
	movq	-8(%r12,%rdx), %rdi
	andq	%rbx, %rdi
	andl	$1, %eax
	orq	%r10, %rax
	movq	%rax, -24(%r12,%rdx)
	testq	%r10, %r10
	je	LBB54_72
	movq	(%rsi), %rax
	shrq	$3, %r10
	leaq	(%r10,%r10,2), %r10
	movq	-8(%rax,%r10,8), %r11
	andl	$1, %r11d
	orq	%r9, %r11
	movq	%r11, -8(%rax,%r10,8)
LBB54_72:
	movq	(%rsi), %rax
	movq	-8(%rax,%r15), %r10
	andl	$1, %r10d
	orq	%rdi, %r10
	movq	%r10, -8(%rax,%r15)
	movq	(%rsi), %rax
	orq	$1, -8(%rax,%r15)
	movq	%r8, %rax
	testq	%rdi, %rdi
	movq	(%rsp), %r11
	je	LBB54_77
	movq	(%rsi), %rax
	leaq	(%rdi,%rdi,2), %rdi
	movq	-24(%rax,%rdi), %r10
	andq	%r10, %rbx
	cmpq	%r9, %rbx
	jne	LBB54_75
	andl	$1, %r10d
	orq	%r8, %r10
	movq	%r10, -24(%rax,%rdi)
	jmp	LBB54_76
LBB54_75:
	movq	%r8, -16(%rax,%rdi)
LBB54_76:
	movq	%r13, %rax
LBB54_77:
	movq	(%rsi), %rdi
	movq	%r9, -16(%rdi,%r15)
	movq	(%rsi), %rdi
	movq	-8(%rdi,%rdx), %r9
	andl	$1, %r9d
	orq	%r8, %r9
	movq	%r9, -8(%rdi,%rdx)
	movq	(%rsi), %rsi
	andq	$-2, -8(%rsi,%rdx)
	movq	%rax, %r8
	jmp	LBB54_45
	.cfi_endproc
	.p2align	4
_ic_raw.search_calls.insert:
	.cfi_startproc
	pushq	%rbp
	.cfi_def_cfa_offset 16
	pushq	%r15
	.cfi_def_cfa_offset 24
	pushq	%r14
	.cfi_def_cfa_offset 32
	pushq	%r13
	.cfi_def_cfa_offset 40
	pushq	%r12
	.cfi_def_cfa_offset 48
	pushq	%rbx
	.cfi_def_cfa_offset 56
	subq	$56, %rsp
	.cfi_def_cfa_offset 112
	.cfi_offset %rbx, -56
	.cfi_offset %r12, -48
	.cfi_offset %r13, -40
	.cfi_offset %r14, -32
	.cfi_offset %r15, -24
	.cfi_offset %rbp, -16
	movq	%r9, 16(%rsp)
	movq	%r8, 24(%rsp)
	movq	%rdi, 40(%rsp)
	movq	%rsi, 48(%rsp)
	movq	%rcx, 32(%rsp)
	cmpq	%rsi, %rcx
	jb	LBB55_25
	movabsq	$68719476728, %r10
	movq	24(%rsp), %rax
	movq	(%rax), %rax
	andq	%r10, %rax
	movq	16(%rsp), %rcx
	leal	1(%rcx), %r9d
	leaq	(,%r9,8), %rcx
	testq	%rax, %rax
	movq	%rax, 8(%rsp)
	je	LBB55_11
	shrq	$3, %rax
	cmpq	%rsi, %rax
	ja	LBB55_25
	testq	%r9, %r9
	je	LBB55_25
	cmpq	%r9, %rsi
	jb	LBB55_25
	leaq	(%rax,%rax,2), %rax
	movq	-24(%rdi,%rax,8), %rax
	andl	$1, %eax
	je	LBB55_25
	movq	-8(%rdx,%rcx), %rbx
	leaq	(,%rsi,8), %r15
	movl	$22, %ebp
	movq	8(%rsp), %r12
	.p2align	4
LBB55_7:
	movq	%r12, %rax
	shrq	$3, %rax
	leaq	(%rax,%rax,2), %rax
	movq	-24(%rdi,%rax,8), %r8
	movq	-16(%rdi,%rax,8), %rax
	movq	-8(%rdx,%r12), %r11
	cmpq	%r11, %rbx
	movq	%r8, %r13
	cmovaeq	%rax, %r13
	andq	%r10, %r13
	leaq	-1(%r13), %r14
	cmpq	%r15, %r14
	jae	LBB55_14
	movq	%r13, %rax
	shrq	$3, %rax
	leaq	(%rax,%rax,2), %rax
	movq	-24(%rdi,%rax,8), %r8
	movq	-16(%rdi,%rax,8), %r12
	movq	-8(%rdx,%r13), %r11
	cmpq	%r11, %rbx
	movq	%r8, %rax
	cmovaeq	%r12, %rax
	andq	%r10, %rax
	leaq	-1(%rax), %r14
	cmpq	%r15, %r14
	jae	LBB55_15
	movq	%rax, %r8
	shrq	$3, %r8
	leaq	(%r8,%r8,2), %r11
	movq	-24(%rdi,%r11,8), %r8
	movq	-16(%rdi,%r11,8), %r13
	movq	-8(%rdx,%rax), %r11
	cmpq	%r11, %rbx
	movq	%r8, %r12
	cmovaeq	%r13, %r12
	andq	%r10, %r12
	leaq	-1(%r12), %r14
	cmpq	%r15, %r14
	jae	LBB55_16
	decl	%ebp
	jne	LBB55_7
	jmp	LBB55_25
LBB55_11:
	testq	%r9, %r9
	je	LBB55_25
	cmpq	%r9, %rsi
	jb	LBB55_25
	xorl	%ebx, %ebx
	movb	$1, %dl
	shlq	$3, %r9
	leaq	(%r9,%r9,2), %rax
	testb	$1, -24(%rdi,%rax)
	je	LBB55_21
	jmp	LBB55_25
LBB55_14:
	cmpq	%r11, %rbx
	setae	%dl
	cmpq	%r13, %r8
	setae	%r8b
	cmpq	%r13, %rax
	setae	%bpl
	xorl	%ebx, %ebx
	orb	%r8b, %bpl
	cmovneq	%r12, %rbx
	jmp	LBB55_17
LBB55_15:
	cmpq	%r11, %rbx
	setae	%dl
	cmpq	%rax, %r8
	setae	%r8b
	cmpq	%rax, %r12
	setae	%bpl
	xorl	%ebx, %ebx
	orb	%r8b, %bpl
	cmovneq	%r13, %rbx
	jmp	LBB55_17
LBB55_16:
	cmpq	%r11, %rbx
	setae	%dl
	cmpq	%r12, %r8
	setae	%r8b
	cmpq	%r12, %r13
	setae	%bpl
	xorl	%ebx, %ebx
	orb	%r8b, %bpl
	cmovneq	%rax, %rbx
LBB55_17:
	andb	%bpl, %dl
	testb	%bpl, %bpl
	je	LBB55_25
	testq	%rbx, %rbx
	je	LBB55_25
	movq	%rbx, %rax
	shrq	$3, %rax
	leaq	(%rax,%rax,2), %rax
	testb	$1, -24(%rdi,%rax,8)
	je	LBB55_25
	xorb	$1, %dl
	shlq	$3, %r9
	leaq	(%r9,%r9,2), %rax
	testb	$1, -24(%rdi,%rax)
	jne	LBB55_25
LBB55_21:
	movq	$1, -24(%rdi,%rax)
	movq	$0, -16(%rdi,%rax)
	testq	%rbx, %rbx
	je	LBB55_24
	movq	%rbx, -8(%rdi,%rax)
	leaq	(%rbx,%rbx,2), %rax
	testb	%dl, %dl
	movq	%rcx, %r12
	je	LBB55_26
	movq	-24(%rdi,%rax), %rcx
	andl	$1, %ecx
	orq	%r12, %rcx
	movq	%rcx, -24(%rdi,%rax)
	jmp	LBB55_27
LBB55_24:
	movq	$1, -8(%rdi,%rax)
	jmp	LBB55_72
LBB55_25:
	leaq	40(%rsp), %rdi
	movq	32(%rsp), %rsi
	movq	16(%rsp), %rdx
	callq	_ic_raw.search.refusal_of
	jmp	LBB55_73
LBB55_26:
	movq	%r12, -16(%rdi,%rax)
LBB55_27:
	shlq	$3, %rsi
	movl	$67, %ebp
	xorl	%eax, %eax
	jmp	LBB55_29
	.p2align	4
LBB55_28:
	movq	-8(%rdi,%rdx), %r8
	andq	%r10, %r8
	decq	%r8
	xorl	%r11d, %r11d
	cmpq	%rsi, %r8
	setae	%r11b
	orq	$1, %r14
	movq	%r14, -8(%rdi,%r9)
	orb	$1, -8(%rdi,%rax)
	movq	-8(%rdi,%rdx), %rax
	andq	$-2, %rax
	orq	%r11, %rax
	movq	%rax, -8(%rdi,%rdx)
	andq	%r10, %rax
	xorl	%ebx, %ebx
	cmpq	%rsi, %rax
	cmovbeq	%rax, %rbx
	testq	%rbx, %rbx
	sete	%al
	movq	%rcx, %r12
	decl	%ebp
	je	LBB55_43
LBB55_29:
	testb	$1, %al
	jne	LBB55_43
	leaq	(%rbx,%rbx,2), %r9
	movq	-8(%rdi,%r9), %r14
	testb	$1, %r14b
	jne	LBB55_43
	movq	%r14, %rcx
	andq	%r10, %rcx
	leaq	-1(%rcx), %rax
	cmpq	%rsi, %rax
	jae	LBB55_43
	leaq	(%rcx,%rcx,2), %rdx
	movq	-24(%rdi,%rdx), %r15
	movq	%r15, %r8
	andq	%r10, %r8
	xorl	%eax, %eax
	cmpq	%rsi, %r8
	cmovbeq	%r8, %rax
	cmpq	%rbx, %rax
	jne	LBB55_35
	movq	-16(%rdi,%rdx), %rax
	andq	%r10, %rax
	leaq	-1(%rax), %r8
	cmpq	%rsi, %r8
	jae	LBB55_46
	leaq	(%rax,%rax,2), %rax
	testb	$1, -8(%rdi,%rax)
	je	LBB55_28
	jmp	LBB55_46
	.p2align	4
LBB55_35:
	testq	%rax, %rax
	je	LBB55_37
	leaq	(%rax,%rax,2), %rax
	testb	$1, -8(%rdi,%rax)
	je	LBB55_28
LBB55_37:
	movq	-24(%rdi,%r9), %rax
	movq	%rax, %r15
	andq	%r10, %r15
	cmpq	%rsi, %r15
	ja	LBB55_50
	cmpq	%r12, %r15
	jne	LBB55_50
	leaq	(%r12,%r12,2), %r14
	movq	-16(%rdi,%r14), %r8
	andq	%r10, %r8
	xorl	%r15d, %r15d
	cmpq	%rsi, %r8
	cmovbeq	%r8, %r15
	andl	$1, %eax
	orq	%r15, %rax
	movq	%rax, -24(%rdi,%r9)
	testq	%r15, %r15
	je	LBB55_41
	shrq	$3, %r15
	leaq	(%r15,%r15,2), %rax
	movq	-8(%rdi,%rax,8), %r8
	andl	$1, %r8d
	orq	%rbx, %r8
	movq	%r8, -8(%rdi,%rax,8)
LBB55_41:
	movq	%rcx, -8(%rdi,%r14)
	movq	-24(%rdi,%rdx), %rax
	movq	%rax, %r8
	andq	%r10, %r8
	xorl	%r11d, %r11d
	cmpq	%rsi, %r8
	cmovbeq	%r8, %r11
	cmpq	%rbx, %r11
	jne	LBB55_62
	andl	$1, %eax
	orq	%r12, %rax
	movq	%rax, -24(%rdi,%rdx)
	jmp	LBB55_63
LBB55_43:
	movq	8(%rsp), %rcx
LBB55_72:
	movq	24(%rsp), %rax
	movq	%rcx, (%rax)
	xorl	%eax, %eax
LBB55_73:
	addq	$56, %rsp
	popq	%rbx
	popq	%r12
	popq	%r13
	popq	%r14
	popq	%r15
	popq	%rbp
	retq
LBB55_46:
	movq	-24(%rdi,%r9), %rax
	andq	%r10, %rax
	cmpq	%rsi, %rax
	ja	LBB55_51
	cmpq	%r12, %rax
	jne	LBB55_51
	movq	%r9, %r14
	movq	%rbx, %r12
	jmp	LBB55_54
LBB55_50:
	movq	%r9, %r14
	movq	%rbx, %r12
	jmp	LBB55_64
LBB55_51:
	leaq	(%r12,%r12,2), %r14
	movq	-24(%rdi,%r14), %r8
	andq	%r10, %r8
	xorl	%eax, %eax
	cmpq	%rsi, %r8
	cmovbeq	%r8, %rax
	movq	%rax, -16(%rdi,%r9)
	testq	%rax, %rax
	je	LBB55_53
	shrq	$3, %rax
	leaq	(%rax,%rax,2), %rax
	movq	-8(%rdi,%rax,8), %r8
	andl	$1, %r8d
	orq	%rbx, %r8
	movq	%r8, -8(%rdi,%rax,8)
LBB55_53:
	movq	%rcx, -8(%rdi,%r14)
	andl	$1, %r15d
	orq	%r12, %r15
	movq	%r15, -24(%rdi,%rdx)
	movq	-24(%rdi,%r14), %rax
	andl	$1, %eax
	orq	%rbx, %rax
	movq	%rax, -24(%rdi,%r14)
	movq	%r12, -8(%rdi,%r9)
	movq	-24(%rdi,%rdx), %r15
LBB55_54:
	movq	-16(%rdi,%r14), %r9
	andq	%r10, %r9
	xorl	%r8d, %r8d
	cmpq	%rsi, %r9
	cmovaq	%r8, %r9
	movq	-8(%rdi,%rdx), %rax
	andq	%r10, %rax
	cmpq	%rsi, %rax
	cmovaq	%r8, %rax
	andl	$1, %r15d
	orq	%r9, %r15
	movq	%r15, -24(%rdi,%rdx)
	testq	%r9, %r9
	je	LBB55_56
	shrq	$3, %r9
	leaq	(%r9,%r9,2), %r8
	movq	-8(%rdi,%r8,8), %r9
	andl	$1, %r9d
	orq	%rcx, %r9
	movq	%r9, -8(%rdi,%r8,8)
LBB55_56:
	movq	%rax, %r8
	orq	$1, %r8
	movq	%r8, -8(%rdi,%r14)
	movq	%r12, %r8
	testq	%rax, %rax
	je	LBB55_61
	leaq	(%rax,%rax,2), %rax
	movq	-24(%rdi,%rax), %r9
	andq	%r9, %r10
	xorl	%r8d, %r8d
	cmpq	%rsi, %r10
	cmovbeq	%r10, %r8
	cmpq	%rcx, %r8
	jne	LBB55_59
	andl	$1, %r9d
	orq	%r12, %r9
	movq	%r9, -24(%rdi,%rax)
	jmp	LBB55_60
LBB55_59:
	movq	%r12, -16(%rdi,%rax)
LBB55_60:
	movq	8(%rsp), %r8
LBB55_61:
	movq	%rcx, -16(%rdi,%r14)
	movq	%r12, -8(%rdi,%rdx)
	movq	%r8, %rcx
	jmp	LBB55_72
LBB55_62:
	movq	%r12, -16(%rdi,%rdx)
LBB55_63:
	movq	%rbx, -16(%rdi,%r14)
	movq	%r12, -8(%rdi,%r9)
	movq	-24(%rdi,%r14), %r15
	andq	%r10, %r15
LBB55_64:
	xorl	%r8d, %r8d
	cmpq	%rsi, %r15
	cmovaq	%r8, %r15
	movq	-8(%rdi,%rdx), %rax
	andq	%r10, %rax
	cmpq	%rsi, %rax
	cmovaq	%r8, %rax
	movq	%r15, -16(%rdi,%rdx)
	testq	%r15, %r15
	je	LBB55_66
	shrq	$3, %r15
	leaq	(%r15,%r15,2), %r8
	movq	-8(%rdi,%r8,8), %r9
	andl	$1, %r9d
	orq	%rcx, %r9
	movq	%r9, -8(%rdi,%r8,8)
LBB55_66:
	movq	%rax, %r8
	orq	$1, %r8
	movq	%r8, -8(%rdi,%r14)
	movq	%r12, %r9
	testq	%rax, %rax
	je	LBB55_71
	leaq	(%rax,%rax,2), %rax
	movq	-24(%rdi,%rax), %r9
	andq	%r9, %r10
	xorl	%r8d, %r8d
	cmpq	%rsi, %r10
	cmovbeq	%r10, %r8
	cmpq	%rcx, %r8
	jne	LBB55_69
	andl	$1, %r9d
	orq	%r12, %r9
	movq	%r9, -24(%rdi,%rax)
	jmp	LBB55_70
LBB55_69:
	movq	%r12, -16(%rdi,%rax)
LBB55_70:
	movq	8(%rsp), %r9
LBB55_71:
	movq	-24(%rdi,%r14), %rax
	andl	$1, %eax
	orq	%rcx, %rax
	movq	%rax, -24(%rdi,%r14)
	movq	%r12, -8(%rdi,%rdx)
	movq	%r9, %rcx
	jmp	LBB55_72
	.cfi_endproc
	.p2align	4
_ic_raw.search.refusal_of:
	.cfi_startproc
	cmpq	8(%rdi), %rsi
	jae	LBB56_2
	movl	$1, %eax
	retq
LBB56_2:
	movl	$-1, %esi
	jmp	_ic_raw.table.RawTable.refusal.19bacce014a8892a
	.cfi_endproc
	.p2align	4
_ic_raw.table.RawTable.refusal.19bacce014a8892a:
	.cfi_startproc
	incl	%esi
	jne	LBB57_1
LBB57_3:
	movl	$1, %eax
	incl	%edx
	je	LBB57_6
	cmpq	%rdx, 8(%rdi)
	jb	LBB57_6
	movq	(%rdi), %rax
	leaq	(%rdx,%rdx,2), %rcx
	xorl	%edx, %edx
	testb	$1, -24(%rax,%rcx,8)
	sete	%dl
	leal	(%rdx,%rdx,2), %eax
	addl	$2, %eax
	retq
LBB57_1:
	movl	$1, %eax
	cmpq	%rsi, 8(%rdi)
	jb	LBB57_6
	movq	(%rdi), %rcx
	leaq	(%rsi,%rsi,2), %rsi
	movl	$3, %eax
	testb	$1, -24(%rcx,%rsi,8)
	jne	LBB57_3
LBB57_6:
	retq
	.cfi_endproc
	.p2align	4
_ic_raw.tree_calls.insert_at:
	.cfi_startproc
	pushq	%rbp
	.cfi_def_cfa_offset 16
	pushq	%r15
	.cfi_def_cfa_offset 24
	pushq	%r14
	.cfi_def_cfa_offset 32
	pushq	%r13
	.cfi_def_cfa_offset 40
	pushq	%r12
	.cfi_def_cfa_offset 48
	pushq	%rbx
	.cfi_def_cfa_offset 56
	subq	$24, %rsp
	.cfi_def_cfa_offset 80
	.cfi_offset %rbx, -56
	.cfi_offset %r12, -48
	.cfi_offset %r13, -40
	.cfi_offset %r14, -32
	.cfi_offset %r15, -24
	.cfi_offset %rbp, -16
	movq	%rdi, 8(%rsp)
	movq	%rsi, 16(%rsp)
	movabsq	$68719476728, %r10
	movq	(%rdx), %rax
	andq	%r10, %rax
	leal	1(%r8), %ebx
	movl	%r8d, %r11d
	incl	%r11d
	jne	LBB58_2
	testq	%rax, %rax
	je	LBB58_7
	jmp	LBB58_14
LBB58_2:
	cmpq	%rbx, %rsi
	jb	LBB58_14
	leaq	(%rbx,%rbx,2), %r11
	testb	$1, -24(%rdi,%r11,8)
	je	LBB58_14
	leaq	(,%rsi,8), %r14
	leaq	-1(%rax), %r15
	cmpq	%r14, %r15
	jae	LBB58_14
	movq	%rax, %r14
	shrq	$3, %r14
	leaq	(%r14,%r14,2), %r14
	testb	$1, -24(%rdi,%r14,8)
	je	LBB58_14
	leaq	(%rdi,%r11,8), %r11
	movzbl	%cl, %r14d
	testq	%r10, -24(%r11,%r14,8)
	jne	LBB58_14
LBB58_7:
	leal	1(%r9), %r11d
	testq	%r11, %r11
	je	LBB58_14
	cmpq	%r11, %rsi
	jb	LBB58_14
	leaq	(,%r11,8), %r14
	leaq	(%r14,%r14,2), %r14
	testb	$1, -24(%rdi,%r14)
	jne	LBB58_14
	shlq	$3, %r11
	movq	$0, -8(%rdi,%r14)
	movq	$1, -24(%rdi,%r14)
	movq	$0, -16(%rdi,%r14)
	testq	%rbx, %rbx
	je	LBB58_13
	shlq	$3, %rbx
	movq	%rbx, -8(%rdi,%r14)
	leaq	(%rbx,%rbx,2), %r8
	testb	%cl, %cl
	je	LBB58_15
	movq	%r11, -16(%rdi,%r8)
	jmp	LBB58_16
LBB58_13:
	movq	$1, -8(%rdi,%r14)
	jmp	LBB58_64
LBB58_14:
	leaq	8(%rsp), %rdi
	movl	%r8d, %esi
	movl	%r9d, %edx
	callq	_ic_raw.table.RawTable.refusal.19bacce014a8892a
	jmp	LBB58_65
LBB58_15:
	movq	-24(%rdi,%r8), %rcx
	andl	$1, %ecx
	orq	%r11, %rcx
	movq	%rcx, -24(%rdi,%r8)
LBB58_16:
	shlq	$3, %rsi
	movl	$67, %ebp
	xorl	%r8d, %r8d
	jmp	LBB58_18
	.p2align	4
LBB58_17:
	movq	-8(%rdi,%r8), %r9
	andq	$-2, %r9
	orq	%rbx, %r9
	movq	%r9, -8(%rdi,%r8)
	andq	%r10, %r9
	xorl	%ebx, %ebx
	cmpq	%rsi, %r9
	cmovbeq	%r9, %rbx
	testq	%rbx, %rbx
	sete	%r8b
	movq	%rcx, %r11
	decl	%ebp
	je	LBB58_28
LBB58_18:
	testb	$1, %r8b
	jne	LBB58_28
	leaq	(%rbx,%rbx,2), %r9
	movq	-8(%rdi,%r9), %r14
	testb	$1, %r14b
	jne	LBB58_28
	movq	%r14, %rcx
	andq	%r10, %rcx
	leaq	-1(%rcx), %r8
	cmpq	%rsi, %r8
	jae	LBB58_28
	leaq	(%rcx,%rcx,2), %r8
	movq	-24(%rdi,%r8), %r15
	movq	%r15, %r13
	andq	%r10, %r13
	xorl	%r12d, %r12d
	cmpq	%rsi, %r13
	cmovbeq	%r13, %r12
	cmpq	%rbx, %r12
	jne	LBB58_25
	movq	-16(%rdi,%r8), %r12
	andq	%r10, %r12
	leaq	-1(%r12), %r13
	cmpq	%rsi, %r13
	jae	LBB58_37
	leaq	(%r12,%r12,2), %r12
	testb	$1, -8(%rdi,%r12)
	jne	LBB58_37
	movq	-8(%rdi,%r8), %r11
	andq	%r10, %r11
	decq	%r11
	xorl	%ebx, %ebx
	cmpq	%rsi, %r11
	setae	%bl
	orq	$1, %r14
	movq	%r14, -8(%rdi,%r9)
	orb	$1, -8(%rdi,%r12)
	jmp	LBB58_17
	.p2align	4
LBB58_25:
	testq	%r12, %r12
	je	LBB58_31
	leaq	(%r12,%r12,2), %r15
	testb	$1, -8(%rdi,%r15)
	jne	LBB58_31
	movq	-8(%rdi,%r8), %r11
	andq	%r10, %r11
	decq	%r11
	xorl	%ebx, %ebx
	cmpq	%rsi, %r11
	setae	%bl
	orq	$1, %r14
	movq	%r14, -8(%rdi,%r9)
	orb	$1, -8(%rdi,%r15)
	jmp	LBB58_17
LBB58_28:
	movq	%rax, %r11
	jmp	LBB58_64
LBB58_31:
	movq	-24(%rdi,%r9), %r12
	movq	%r12, %r15
	andq	%r10, %r15
	cmpq	%rsi, %r15
	ja	LBB58_41
	cmpq	%r11, %r15
	jne	LBB58_41
	leaq	(%r11,%r11,2), %r14
	movq	-16(%rdi,%r14), %r13
	andq	%r10, %r13
	xorl	%r15d, %r15d
	cmpq	%rsi, %r13
	cmovbeq	%r13, %r15
	andl	$1, %r12d
	orq	%r15, %r12
	movq	%r12, -24(%rdi,%r9)
	testq	%r15, %r15
	je	LBB58_35
	shrq	$3, %r15
	leaq	(%r15,%r15,2), %r15
	movq	-8(%rdi,%r15,8), %r12
	andl	$1, %r12d
	orq	%rbx, %r12
	movq	%r12, -8(%rdi,%r15,8)
LBB58_35:
	movq	%rcx, -8(%rdi,%r14)
	movq	-24(%rdi,%r8), %r15
	movq	%r15, %r12
	andq	%r10, %r12
	xorl	%r13d, %r13d
	cmpq	%rsi, %r12
	cmovbeq	%r12, %r13
	cmpq	%rbx, %r13
	jne	LBB58_53
	andl	$1, %r15d
	orq	%r11, %r15
	movq	%r15, -24(%rdi,%r8)
	jmp	LBB58_54
LBB58_37:
	movq	-24(%rdi,%r9), %r14
	andq	%r10, %r14
	cmpq	%rsi, %r14
	ja	LBB58_42
	cmpq	%r11, %r14
	jne	LBB58_42
	movq	%r9, %r14
	movq	%rbx, %r11
	jmp	LBB58_45
LBB58_41:
	movq	%r9, %r14
	movq	%rbx, %r11
	jmp	LBB58_55
LBB58_42:
	leaq	(%r11,%r11,2), %r14
	movq	-24(%rdi,%r14), %r13
	andq	%r10, %r13
	xorl	%r12d, %r12d
	cmpq	%rsi, %r13
	cmovbeq	%r13, %r12
	movq	%r12, -16(%rdi,%r9)
	testq	%r12, %r12
	je	LBB58_44
	shrq	$3, %r12
	leaq	(%r12,%r12,2), %r12
	movq	-8(%rdi,%r12,8), %r13
	andl	$1, %r13d
	orq	%rbx, %r13
	movq	%r13, -8(%rdi,%r12,8)
LBB58_44:
	movq	%rcx, -8(%rdi,%r14)
	andl	$1, %r15d
	orq	%r11, %r15
	movq	%r15, -24(%rdi,%r8)
	movq	-24(%rdi,%r14), %r15
	andl	$1, %r15d
	orq	%rbx, %r15
	movq	%r15, -24(%rdi,%r14)
	movq	%r11, -8(%rdi,%r9)
	movq	-24(%rdi,%r8), %r15
LBB58_45:
	movq	-16(%rdi,%r14), %rbx
	andq	%r10, %rbx
	xorl	%r12d, %r12d
	cmpq	%rsi, %rbx
	cmovaq	%r12, %rbx
	movq	-8(%rdi,%r8), %r9
	andq	%r10, %r9
	cmpq	%rsi, %r9
	cmovaq	%r12, %r9
	andl	$1, %r15d
	orq	%rbx, %r15
	movq	%r15, -24(%rdi,%r8)
	testq	%rbx, %rbx
	je	LBB58_47
	shrq	$3, %rbx
	leaq	(%rbx,%rbx,2), %rbx
	movq	-8(%rdi,%rbx,8), %r15
	andl	$1, %r15d
	orq	%rcx, %r15
	movq	%r15, -8(%rdi,%rbx,8)
LBB58_47:
	movq	%r9, %rbx
	orq	$1, %rbx
	movq	%rbx, -8(%rdi,%r14)
	movq	%r11, %rbx
	testq	%r9, %r9
	je	LBB58_52
	leaq	(%r9,%r9,2), %r9
	movq	-24(%rdi,%r9), %rbx
	andq	%rbx, %r10
	xorl	%r15d, %r15d
	cmpq	%rsi, %r10
	cmovbeq	%r10, %r15
	cmpq	%rcx, %r15
	jne	LBB58_50
	andl	$1, %ebx
	orq	%r11, %rbx
	movq	%rbx, -24(%rdi,%r9)
	jmp	LBB58_51
LBB58_50:
	movq	%r11, -16(%rdi,%r9)
LBB58_51:
	movq	%rax, %rbx
LBB58_52:
	movq	%rcx, -16(%rdi,%r14)
	jmp	LBB58_63
LBB58_53:
	movq	%r11, -16(%rdi,%r8)
LBB58_54:
	movq	%rbx, -16(%rdi,%r14)
	movq	%r11, -8(%rdi,%r9)
	movq	-24(%rdi,%r14), %r15
	andq	%r10, %r15
LBB58_55:
	xorl	%ebx, %ebx
	cmpq	%rsi, %r15
	cmovaq	%rbx, %r15
	movq	-8(%rdi,%r8), %r9
	andq	%r10, %r9
	cmpq	%rsi, %r9
	cmovaq	%rbx, %r9
	movq	%r15, -16(%rdi,%r8)
	testq	%r15, %r15
	je	LBB58_57
	shrq	$3, %r15
	leaq	(%r15,%r15,2), %rbx
	movq	-8(%rdi,%rbx,8), %r15
	andl	$1, %r15d
	orq	%rcx, %r15
	movq	%r15, -8(%rdi,%rbx,8)
LBB58_57:
	movq	%r9, %rbx
	orq	$1, %rbx
	movq	%rbx, -8(%rdi,%r14)
	movq	%r11, %rbx
	testq	%r9, %r9
	je	LBB58_62
	leaq	(%r9,%r9,2), %r9
	movq	-24(%rdi,%r9), %rbx
	andq	%rbx, %r10
	xorl	%r15d, %r15d
	cmpq	%rsi, %r10
	cmovbeq	%r10, %r15
	cmpq	%rcx, %r15
	jne	LBB58_60
	andl	$1, %ebx
	orq	%r11, %rbx
	movq	%rbx, -24(%rdi,%r9)
	jmp	LBB58_61
LBB58_60:
	movq	%r11, -16(%rdi,%r9)
LBB58_61:
	movq	%rax, %rbx
LBB58_62:
	movq	-24(%rdi,%r14), %rax
	andl	$1, %eax
	orq	%rcx, %rax
	movq	%rax, -24(%rdi,%r14)
LBB58_63:
	movq	%r11, -8(%rdi,%r8)
	movq	%rbx, %r11
LBB58_64:
	movq	%r11, (%rdx)
	xorl	%eax, %eax
LBB58_65:
	addq	$24, %rsp
	popq	%rbx
	popq	%r12
	popq	%r13
	popq	%r14
	popq	%r15
	popq	%rbp
	retq
	.cfi_endproc
	.p2align	4
_ic_raw_keyed.ends_calls.remove:
	.cfi_startproc
	pushq	%rbp
	.cfi_def_cfa_offset 16
	pushq	%r15
	.cfi_def_cfa_offset 24
	pushq	%r14
	.cfi_def_cfa_offset 32
	pushq	%r13
	.cfi_def_cfa_offset 40
	pushq	%r12
	.cfi_def_cfa_offset 48
	pushq	%rbx
	.cfi_def_cfa_offset 56
	pushq	%rax
	.cfi_def_cfa_offset 64
	.cfi_offset %rbx, -56
	.cfi_offset %r12, -48
	.cfi_offset %r13, -40
	.cfi_offset %r14, -32
	.cfi_offset %r15, -24
	.cfi_offset %rbp, -16
	movq	%rcx, %rbx
	leal	1(%r8), %r9d
	movl	%r8d, %ecx
	movl	$4, %eax
	incl	%ecx
	je	LBB59_42
	leaq	(,%r9,8), %rax
	movabsq	$68719476728, %rcx
	movq	(%rbx), %r14
	andq	%rcx, %r14
	cmpq	%rax, %r14
	jne	LBB59_21
	cmpq	%r9, %rsi
	jb	LBB59_3
	movq	(%rdx), %r10
	andq	%rcx, %r10
	sete	%r11b
	shrq	$3, %r10
	cmpq	%rsi, %r10
	setbe	%r10b
	orb	%r11b, %r10b
	cmpb	$1, %r10b
	jne	LBB59_3
	leaq	(,%r9,8), %r10
	leaq	(%r10,%r10,2), %r11
	leaq	(,%rsi,8), %r10
	movq	-16(%rdi,%r11), %r15
	andq	%rcx, %r15
	leaq	-1(%r15), %r14
	cmpq	%r10, %r14
	jae	LBB59_12
	movl	$66, %ebp
	.p2align	4
LBB59_10:
	movq	%r15, %r11
	shrq	$3, %r11
	leaq	(%r11,%r11,2), %r11
	movq	-24(%rdi,%r11,8), %r14
	andq	%rcx, %r14
	leaq	-1(%r14), %r12
	movb	$1, %r11b
	cmpq	%r10, %r12
	jae	LBB59_11
	testl	%ebp, %ebp
	je	LBB59_17
	movq	%r14, %r15
	shrq	$3, %r15
	leaq	(%r15,%r15,2), %r15
	movq	-24(%rdi,%r15,8), %r15
	andq	%rcx, %r15
	leaq	-1(%r15), %r12
	cmpq	%r10, %r12
	jae	LBB59_17
	addl	$-2, %ebp
	jmp	LBB59_10
LBB59_12:
	movq	-8(%rdi,%r11), %r15
	andq	%rcx, %r15
	leaq	-1(%r15), %r11
	cmpq	%r10, %r11
	jae	LBB59_3
	movl	$-67, %ebp
	movq	%rax, %r14
	.p2align	4
LBB59_14:
	movq	%r14, %r11
	movq	%r15, %r14
	leaq	(%r15,%r15,2), %r15
	movq	-16(%rdi,%r15), %r12
	andq	%rcx, %r12
	cmpq	%r11, %r12
	setne	%r12b
	testl	%ebp, %ebp
	sete	%r11b
	orb	%r12b, %r11b
	jne	LBB59_17
	movq	-8(%rdi,%r15), %r15
	andq	%rcx, %r15
	leaq	-1(%r15), %r12
	incl	%ebp
	cmpq	%r10, %r12
	jb	LBB59_14
	jmp	LBB59_16
LBB59_3:
	xorl	%r11d, %r11d
LBB59_16:
	xorl	%r14d, %r14d
LBB59_17:
	cmpq	%rax, %r14
	je	LBB59_43
LBB59_18:
	testb	%r11b, %r11b
	je	LBB59_21
	movq	%r14, %r10
	shrq	$3, %r10
	cmpq	%rsi, %r10
	ja	LBB59_43
	leaq	(%r10,%r10,2), %r10
	testb	$1, -24(%rdi,%r10,8)
	je	LBB59_43
LBB59_21:
	movq	8(%rbx), %r15
	andq	%rcx, %r15
	cmpq	%rax, %r15
	jne	LBB59_41
	cmpq	%r9, %rsi
	jb	LBB59_23
	movq	(%rdx), %r10
	andq	%rcx, %r10
	sete	%r11b
	shrq	$3, %r10
	cmpq	%rsi, %r10
	setbe	%r10b
	orb	%r11b, %r10b
	cmpb	$1, %r10b
	jne	LBB59_23
	shlq	$3, %r9
	leaq	(%r9,%r9,2), %r10
	leaq	(,%rsi,8), %r9
	movq	-24(%rdi,%r10), %r11
	andq	%rcx, %r11
	leaq	-1(%r11), %r15
	cmpq	%r9, %r15
	jae	LBB59_32
	movl	$66, %ebp
	.p2align	4
LBB59_27:
	movq	%r11, %r10
	shrq	$3, %r10
	leaq	(%r10,%r10,2), %r10
	movq	-16(%rdi,%r10,8), %r15
	andq	%rcx, %r15
	leaq	-1(%r15), %r12
	movb	$1, %r10b
	cmpq	%r9, %r12
	jae	LBB59_28
	testl	%ebp, %ebp
	je	LBB59_37
	movq	%r15, %r11
	shrq	$3, %r11
	leaq	(%r11,%r11,2), %r11
	movq	-16(%rdi,%r11,8), %r11
	andq	%rcx, %r11
	leaq	-1(%r11), %r12
	cmpq	%r9, %r12
	jae	LBB59_37
	addl	$-2, %ebp
	jmp	LBB59_27
LBB59_32:
	movq	-8(%rdi,%r10), %r12
	andq	%rcx, %r12
	leaq	-1(%r12), %r10
	cmpq	%r9, %r10
	jae	LBB59_23
	movl	$-67, %r11d
	movq	%rax, %r15
	.p2align	4
LBB59_34:
	movq	%r15, %r10
	movq	%r12, %r15
	leaq	(%r12,%r12,2), %r12
	movq	-24(%rdi,%r12), %r13
	andq	%rcx, %r13
	cmpq	%r10, %r13
	setne	%bpl
	testl	%r11d, %r11d
	sete	%r10b
	orb	%bpl, %r10b
	jne	LBB59_37
	movq	-8(%rdi,%r12), %r12
	andq	%rcx, %r12
	leaq	-1(%r12), %r13
	incl	%r11d
	cmpq	%r9, %r13
	jb	LBB59_34
	jmp	LBB59_36
LBB59_23:
	xorl	%r10d, %r10d
LBB59_36:
	xorl	%r15d, %r15d
LBB59_37:
	cmpq	%rax, %r15
	je	LBB59_43
LBB59_38:
	testb	%r10b, %r10b
	je	LBB59_41
	movq	%r15, %rcx
	shrq	$3, %rcx
	cmpq	%rsi, %rcx
	ja	LBB59_43
	leaq	(%rcx,%rcx,2), %rcx
	testb	$1, -24(%rdi,%rcx,8)
	je	LBB59_43
LBB59_41:
	movl	%r8d, %ecx
	callq	_ic_raw.tree_calls.remove
	testl	%eax, %eax
	jne	LBB59_42
	movq	%r14, (%rbx)
	movq	%r15, 8(%rbx)
	xorl	%eax, %eax
LBB59_42:
	addq	$8, %rsp
	popq	%rbx
	popq	%r12
	popq	%r13
	popq	%r14
	popq	%r15
	popq	%rbp
	retq
LBB59_11:
	movq	%r15, %r14
	cmpq	%rax, %r14
	jne	LBB59_18
	jmp	LBB59_43
LBB59_28:
	movq	%r11, %r15
	cmpq	%rax, %r15
	jne	LBB59_38
LBB59_43:
	movq	%rax, %rdx
	addq	$8, %rsp
	popq	%rbx
	popq	%r12
	popq	%r13
	popq	%r14
	popq	%r15
	popq	%rbp
	jmp	_ic_raw.table.RawTable.refusal_of.59019f4869331413
	.cfi_endproc
	.p2align	4
_ic_raw.table.RawTable.refusal_of.59019f4869331413:
	.cfi_startproc
	shrq	$3, %rdx
	movl	$1, %eax
	cmpq	%rsi, %rdx
	ja	LBB60_2
	leaq	(%rdx,%rdx,2), %rax
	movzbl	-24(%rdi,%rax,8), %eax
	andl	$1, %eax
	leal	3(,%rax,2), %eax
LBB60_2:
	retq
	.cfi_endproc
	.p2align	4
_ic_raw.tree_calls.remove:
	.cfi_startproc
	pushq	%rbp
	.cfi_def_cfa_offset 16
	pushq	%r15
	.cfi_def_cfa_offset 24
	pushq	%r14
	.cfi_def_cfa_offset 32
	pushq	%r13
	.cfi_def_cfa_offset 40
	pushq	%r12
	.cfi_def_cfa_offset 48
	pushq	%rbx
	.cfi_def_cfa_offset 56
	subq	$32, %rsp
	.cfi_def_cfa_offset 88
	.cfi_offset %rbx, -56
	.cfi_offset %r12, -48
	.cfi_offset %r13, -40
	.cfi_offset %r14, -32
	.cfi_offset %r15, -24
	.cfi_offset %rbp, -16
	movq	%rdx, %rbp
	leal	1(%rcx), %r11d
	movl	%ecx, %edx
	movl	$4, %eax
	incl	%edx
	je	LBB61_136
	cmpq	%r11, %rsi
	jb	LBB61_133
	shlq	$3, %r11
	leaq	(%r11,%r11,2), %r15
	movq	-24(%rdi,%r15), %r14
	testb	$1, %r14b
	je	LBB61_133
	movabsq	$68719476728, %r8
	movq	(%rbp), %r10
	andq	%r8, %r10
	leaq	(,%rsi,8), %r9
	leaq	-1(%r10), %rax
	cmpq	%r9, %rax
	jae	LBB61_133
	movq	%r10, %rax
	shrq	$3, %rax
	leaq	(%rax,%rax,2), %rax
	testb	$1, -24(%rdi,%rax,8)
	je	LBB61_133
	movq	-8(%rdi,%r15), %rbx
	movq	%rbx, %rdx
	andq	%r8, %rdx
	cmpq	%r11, %r10
	je	LBB61_7
	testq	%rdx, %rdx
	je	LBB61_133
LBB61_7:
	andq	%r8, %r14
	leaq	-1(%r14), %rcx
	movq	-16(%rdi,%r15), %rax
	andq	%r8, %rax
	cmpq	%r9, %rcx
	movq	%r15, 24(%rsp)
	jae	LBB61_27
	leaq	-1(%rax), %rcx
	cmpq	%r9, %rcx
	jae	LBB61_28
	movl	$66, %ecx
	.p2align	4
LBB61_14:
	movq	%rax, %rdx
	shrq	$3, %rdx
	leaq	(%rdx,%rdx,2), %rdx
	movq	-24(%rdi,%rdx,8), %r14
	andq	%r8, %r14
	leaq	-1(%r14), %rsi
	cmpq	%r9, %rsi
	jae	LBB61_15
	movq	%r14, %rax
	shrq	$3, %rax
	testl	%ecx, %ecx
	je	LBB61_16
	leaq	(%rax,%rax,2), %rdx
	movq	-24(%rdi,%rdx,8), %rax
	andq	%r8, %rax
	leaq	-1(%rax), %rsi
	cmpq	%r9, %rsi
	jae	LBB61_12
	addl	$-2, %ecx
	jmp	LBB61_14
LBB61_27:
	xorl	%r14d, %r14d
	cmpq	%r9, %rax
	cmovbeq	%rax, %r14
LBB61_28:
	xorl	%r15d, %r15d
	cmpq	%r9, %rdx
	movl	$0, %ecx
	cmovbeq	%rdx, %rcx
	testq	%rcx, %rcx
	setne	%sil
	je	LBB61_29
	leaq	(%rcx,%rcx,2), %rax
	movq	-24(%rdi,%rax), %rdx
	movq	%rdx, %r15
	andq	%r8, %r15
	xorl	%r12d, %r12d
	cmpq	%r9, %r15
	cmovbeq	%r15, %r12
	cmpq	%r11, %r12
	jne	LBB61_32
	andl	$1, %edx
	addq	%r14, %rdx
	movq	%rdx, -24(%rdi,%rax)
	xorl	%r15d, %r15d
	testq	%r14, %r14
	jne	LBB61_134
	jmp	LBB61_34
LBB61_133:
	movl	%ecx, %edx
	addq	$32, %rsp
	popq	%rbx
	popq	%r12
	popq	%r13
	popq	%r14
	popq	%r15
	popq	%rbp
	jmp	_ic_raw.table.RawTable.refusal_at.19bacce014a8892a
LBB61_29:
	movq	%r14, %r10
	testq	%r14, %r14
	je	LBB61_34
LBB61_134:
	shrq	$3, %r14
	leaq	(%r14,%r14,2), %rax
	orq	$1, %rcx
	movq	%rcx, -8(%rdi,%rax,8)
	jmp	LBB61_135
LBB61_32:
	movq	%r14, -16(%rdi,%rax)
	movb	$1, %r15b
	testq	%r14, %r14
	jne	LBB61_134
LBB61_34:
	movq	%rbp, 8(%rsp)
	movq	%r10, %rbp
	testb	$1, %bl
	jne	LBB61_47
	jmp	LBB61_46
LBB61_15:
	leaq	(%rdi,%rdx,8), %rcx
	movq	%rax, %r14
	jmp	LBB61_17
LBB61_16:
	leaq	(%rax,%rax,2), %rax
	leaq	(%rdi,%rax,8), %rcx
	movq	-24(%rdi,%rax,8), %rax
	andq	%r8, %rax
	leaq	-1(%rax), %rdx
	cmpq	%r9, %rdx
	jae	LBB61_17
	jmp	LBB61_18
LBB61_12:
	leaq	(%rdi,%rdx,8), %rcx
LBB61_17:
	movq	-16(%rcx), %rdx
	andq	%r8, %rdx
	xorl	%eax, %eax
	cmpq	%r9, %rdx
	cmovbeq	%rdx, %rax
LBB61_18:
	movq	-8(%rcx), %rbx
	movq	%rbx, %rdx
	andq	%r8, %rdx
	xorl	%r15d, %r15d
	cmpq	%r9, %rdx
	movl	$0, %ecx
	cmovbeq	%rdx, %rcx
	testq	%rcx, %rcx
	setne	%sil
	je	LBB61_19
	leaq	(%rcx,%rcx,2), %rdx
	movq	-24(%rdi,%rdx), %r15
	movq	%r15, %r12
	andq	%r8, %r12
	xorl	%r13d, %r13d
	cmpq	%r9, %r12
	cmovbeq	%r12, %r13
	cmpq	%r14, %r13
	jne	LBB61_22
	andl	$1, %r15d
	addq	%rax, %r15
	movq	%r15, -24(%rdi,%rdx)
	xorl	%r15d, %r15d
	jmp	LBB61_23
LBB61_19:
	movq	%rax, %r10
	jmp	LBB61_23
LBB61_22:
	movq	%rax, -16(%rdi,%rdx)
	movb	$1, %r15b
LBB61_23:
	testq	%rax, %rax
	je	LBB61_25
	shrq	$3, %rax
	leaq	(%rax,%rax,2), %rax
	movq	%rcx, %rdx
	orq	$1, %rdx
	movq	%rdx, -8(%rdi,%rax,8)
	xorl	%ebx, %ebx
LBB61_25:
	movq	%rbp, 8(%rsp)
	cmpq	%r11, %r14
	jne	LBB61_35
	movq	%r10, %rbp
	testb	$1, %bl
	jne	LBB61_47
	jmp	LBB61_46
LBB61_35:
	movb	%sil, 7(%rsp)
	leaq	(%r11,%r11,2), %rdx
	movq	-8(%rdi,%rdx), %r13
	movq	%r13, %r12
	andq	%r8, %r12
	xorl	%ebp, %ebp
	cmpq	%r9, %r12
	cmovaq	%rbp, %r12
	movq	-24(%rdi,%rdx), %rax
	andq	%r8, %rax
	cmpq	%r9, %rax
	cmovaq	%rbp, %rax
	movq	-16(%rdi,%rdx), %rdx
	andq	%r8, %rdx
	cmpq	%r9, %rdx
	cmovaq	%rbp, %rdx
	movq	%r14, %rbp
	testq	%r12, %r12
	je	LBB61_40
	movq	%r13, 16(%rsp)
	leaq	(%r12,%r12,2), %rsi
	movq	-24(%rdi,%rsi), %r13
	movq	%r13, %rbp
	andq	%r8, %rbp
	xorl	%esi, %esi
	cmpq	%r9, %rbp
	cmovbeq	%rbp, %rsi
	cmpq	%r11, %rsi
	jne	LBB61_38
	andl	$1, %r13d
	addq	%r14, %r13
	leaq	(%r12,%r12,2), %rsi
	movq	%r13, -24(%rdi,%rsi)
	jmp	LBB61_39
LBB61_38:
	leaq	(%r12,%r12,2), %rsi
	movq	%r14, -16(%rdi,%rsi)
LBB61_39:
	movq	%r10, %rbp
	movq	16(%rsp), %r13
LBB61_40:
	testq	%rax, %rax
	je	LBB61_42
	movq	%rax, %rsi
	shrq	$3, %rsi
	leaq	(%rsi,%rsi,2), %rsi
	movq	-8(%rdi,%rsi,8), %r10
	andl	$1, %r10d
	addq	%r14, %r10
	movq	%r10, -8(%rdi,%rsi,8)
LBB61_42:
	testq	%rdx, %rdx
	je	LBB61_44
	movq	%rdx, %rsi
	shrq	$3, %rsi
	leaq	(%rsi,%rsi,2), %rsi
	movq	-8(%rdi,%rsi,8), %r10
	andl	$1, %r10d
	addq	%r14, %r10
	movq	%r10, -8(%rdi,%rsi,8)
LBB61_44:
	andl	$1, %r13d
	movq	%r14, %rsi
	shrq	$3, %rsi
	leaq	(%rsi,%rsi,2), %rsi
	movq	-24(%rdi,%rsi,8), %r10
	andl	$1, %r10d
	orq	%rax, %r10
	movq	%r10, -24(%rdi,%rsi,8)
	movq	%rdx, -16(%rdi,%rsi,8)
	orq	%r13, %r12
	movq	%r12, -8(%rdi,%rsi,8)
	cmpq	%r11, %rcx
	cmoveq	%r14, %rcx
	movzbl	7(%rsp), %esi
	testb	$1, %bl
	je	LBB61_46
LBB61_47:
	testb	%sil, %sil
	je	LBB61_46
	movl	$67, %r11d
	movq	%rbp, %r10
	movq	8(%rsp), %rbp
	.p2align	4
LBB61_49:
	leaq	(%rcx,%rcx,2), %rsi
	testb	$1, %r15b
	je	LBB61_50
	movq	-24(%rdi,%rsi), %rdx
	movq	%rdx, %r15
	andq	%r8, %r15
	leaq	-1(%r15), %rax
	cmpq	%r9, %rax
	jae	LBB61_135
	leaq	(%r15,%r15,2), %rbx
	testb	$1, -8(%rdi,%rbx)
	je	LBB61_94
	movq	%r15, %r14
	jmp	LBB61_103
	.p2align	4
LBB61_50:
	movq	-16(%rdi,%rsi), %r15
	andq	%r8, %r15
	leaq	-1(%r15), %rax
	cmpq	%r9, %rax
	jae	LBB61_135
	leaq	(%r15,%r15,2), %rbx
	testb	$1, -8(%rdi,%rbx)
	je	LBB61_53
	movq	%r15, %r14
	jmp	LBB61_63
LBB61_94:
	movq	-16(%rdi,%rbx), %r14
	andq	%r8, %r14
	xorl	%r12d, %r12d
	cmpq	%r9, %r14
	cmovaq	%r12, %r14
	movq	-8(%rdi,%rsi), %rax
	andq	%r8, %rax
	cmpq	%r9, %rax
	cmovaq	%r12, %rax
	andl	$1, %edx
	orq	%r14, %rdx
	movq	%rdx, -24(%rdi,%rsi)
	testq	%r14, %r14
	je	LBB61_96
	movq	%r14, %rdx
	shrq	$3, %rdx
	leaq	(%rdx,%rdx,2), %rdx
	movq	-8(%rdi,%rdx,8), %r12
	andl	$1, %r12d
	orq	%rcx, %r12
	movq	%r12, -8(%rdi,%rdx,8)
LBB61_96:
	movq	%rax, %rdx
	orq	$1, %rdx
	movq	%rdx, -8(%rdi,%rbx)
	testq	%rax, %rax
	je	LBB61_97
	leaq	(%rax,%rax,2), %rax
	movq	-24(%rdi,%rax), %rdx
	movq	%rdx, %r12
	andq	%r8, %r12
	xorl	%r13d, %r13d
	cmpq	%r9, %r12
	cmovbeq	%r12, %r13
	cmpq	%rcx, %r13
	jne	LBB61_100
	andl	$1, %edx
	orq	%r15, %rdx
	movq	%rdx, -24(%rdi,%rax)
	movq	-24(%rdi,%rsi), %r14
	andq	%r8, %r14
	jmp	LBB61_101
LBB61_53:
	movq	-24(%rdi,%rbx), %rax
	movq	%rax, %r14
	andq	%r8, %r14
	xorl	%r12d, %r12d
	cmpq	%r9, %r14
	cmovaq	%r12, %r14
	movq	-8(%rdi,%rsi), %rdx
	andq	%r8, %rdx
	cmpq	%r9, %rdx
	cmovaq	%r12, %rdx
	movq	%r14, -16(%rdi,%rsi)
	testq	%r14, %r14
	je	LBB61_55
	movq	%r14, %r12
	shrq	$3, %r12
	leaq	(%r12,%r12,2), %r12
	movq	-8(%rdi,%r12,8), %r13
	andl	$1, %r13d
	orq	%rcx, %r13
	movq	%r13, -8(%rdi,%r12,8)
LBB61_55:
	movq	%rdx, %r12
	orq	$1, %r12
	movq	%r12, -8(%rdi,%rbx)
	testq	%rdx, %rdx
	je	LBB61_56
	movq	%rbp, 8(%rsp)
	leaq	(%rdx,%rdx,2), %rdx
	movq	-24(%rdi,%rdx), %r12
	movq	%r12, %r13
	andq	%r8, %r13
	xorl	%ebp, %ebp
	cmpq	%r9, %r13
	cmovbeq	%r13, %rbp
	cmpq	%rcx, %rbp
	jne	LBB61_59
	andl	$1, %r12d
	orq	%r15, %r12
	movq	%r12, -24(%rdi,%rdx)
	movq	-24(%rdi,%rbx), %rax
	jmp	LBB61_60
LBB61_97:
	movq	%r15, %r10
	jmp	LBB61_101
LBB61_56:
	movq	%r15, %r10
	jmp	LBB61_61
LBB61_100:
	movq	%r15, -16(%rdi,%rax)
LBB61_101:
	movq	%rcx, -16(%rdi,%rbx)
	movq	%r15, -8(%rdi,%rsi)
	leaq	-1(%r14), %rax
	cmpq	%r9, %rax
	jae	LBB61_135
	leaq	(%r14,%r14,2), %rbx
LBB61_103:
	movq	-24(%rdi,%rbx), %rax
	andq	%r8, %rax
	leaq	-1(%rax), %rdx
	cmpq	%r9, %rdx
	jae	LBB61_105
	movq	%rax, %r15
	shrq	$3, %r15
	leaq	(%r15,%r15,2), %r15
	movq	-8(%rdi,%r15,8), %r15
	testb	$1, %r15b
	je	LBB61_109
LBB61_105:
	movq	-16(%rdi,%rbx), %r15
	andq	%r8, %r15
	leaq	-1(%r15), %r12
	cmpq	%r9, %r12
	jae	LBB61_67
	movq	%r15, %r13
	shrq	$3, %r13
	leaq	(%r13,%r13,2), %r13
	testb	$1, -8(%rdi,%r13,8)
	jne	LBB61_67
	jmp	LBB61_107
LBB61_59:
	movq	%r15, -16(%rdi,%rdx)
	movq	-16(%rdi,%rsi), %r14
	andq	%r8, %r14
LBB61_60:
	movq	8(%rsp), %rbp
LBB61_61:
	andl	$1, %eax
	orq	%rcx, %rax
	movq	%rax, -24(%rdi,%rbx)
	movq	%r15, -8(%rdi,%rsi)
	leaq	-1(%r14), %rax
	cmpq	%r9, %rax
	jae	LBB61_135
	leaq	(%r14,%r14,2), %rbx
LBB61_63:
	movq	-24(%rdi,%rbx), %rax
	movq	%rax, %r15
	andq	%r8, %r15
	leaq	-1(%r15), %rdx
	cmpq	%r9, %rdx
	jae	LBB61_65
	leaq	(%r15,%r15,2), %r12
	testb	$1, -8(%rdi,%r12)
	je	LBB61_69
LBB61_65:
	movq	-16(%rdi,%rbx), %rax
	andq	%r8, %rax
	leaq	-1(%rax), %rdx
	cmpq	%r9, %rdx
	jae	LBB61_67
	leaq	(%rax,%rax,2), %rdx
	movq	-8(%rdi,%rdx), %r13
	testb	$1, %r13b
	je	LBB61_71
LBB61_67:
	andb	$-2, -8(%rdi,%rbx)
	movq	-8(%rdi,%rsi), %rax
	testb	$1, %al
	je	LBB61_68
	andq	%r8, %rax
	leaq	-1(%rax), %rdx
	cmpq	%r9, %rdx
	jae	LBB61_135
	movq	%rax, %rdx
	shrq	$3, %rdx
	leaq	(%rdx,%rdx,2), %rdx
	movq	-24(%rdi,%rdx,8), %rdx
	andq	%r8, %rdx
	xorl	%esi, %esi
	cmpq	%r9, %rdx
	cmovbeq	%rdx, %rsi
	cmpq	%rcx, %rsi
	setne	%r15b
	movq	%rax, %rcx
	decl	%r11d
	jne	LBB61_49
	jmp	LBB61_135
LBB61_46:
	movq	%rbp, %r10
	movq	8(%rsp), %rbp
LBB61_135:
	movq	24(%rsp), %rax
	movq	$0, -24(%rdi,%rax)
	movq	%r10, (%rbp)
	xorl	%eax, %eax
LBB61_136:
	addq	$32, %rsp
	popq	%rbx
	popq	%r12
	popq	%r13
	popq	%r14
	popq	%r15
	popq	%rbp
	retq
LBB61_68:
	orq	$1, %rax
	movq	%rax, -8(%rdi,%rsi)
	jmp	LBB61_135
LBB61_69:
	movq	-16(%rdi,%rbx), %rdx
	andq	%r8, %rdx
	leaq	-1(%rdx), %r11
	cmpq	%r9, %r11
	jae	LBB61_72
	leaq	(%rdx,%rdx,2), %rdx
	movq	-8(%rdi,%rdx), %r13
	testb	$1, %r13b
	je	LBB61_71
LBB61_72:
	movq	-16(%rdi,%r12), %r11
	andq	%r8, %r11
	xorl	%r13d, %r13d
	cmpq	%r9, %r11
	cmovaq	%r13, %r11
	movq	-8(%rdi,%rbx), %rdx
	andq	%r8, %rdx
	cmpq	%r9, %rdx
	cmovaq	%r13, %rdx
	andl	$1, %eax
	orq	%r11, %rax
	movq	%rax, -24(%rdi,%rbx)
	testq	%r11, %r11
	je	LBB61_74
	shrq	$3, %r11
	leaq	(%r11,%r11,2), %rax
	movq	-8(%rdi,%rax,8), %r11
	andl	$1, %r11d
	orq	%r14, %r11
	movq	%r11, -8(%rdi,%rax,8)
LBB61_74:
	movq	%rdx, %rax
	orq	$1, %rax
	movq	%rax, -8(%rdi,%r12)
	movq	%r15, %r11
	testq	%rdx, %rdx
	je	LBB61_80
	leaq	(%rdx,%rdx,2), %rax
	movq	-24(%rdi,%rax), %rdx
	movq	%rdx, %r11
	andq	%r8, %r11
	cmpq	%r9, %r11
	ja	LBB61_78
	cmpq	%r14, %r11
	jne	LBB61_78
	andl	$1, %edx
	orq	%r15, %rdx
	movq	%rdx, -24(%rdi,%rax)
	jmp	LBB61_79
LBB61_71:
	movq	%r10, %r11
	movq	%r14, %r15
	movq	%rbx, %r12
	jmp	LBB61_83
LBB61_107:
	cmpq	%r9, %rdx
	jae	LBB61_112
	movq	%rax, %r11
	shrq	$3, %r11
	leaq	(%r11,%r11,2), %r11
	movq	-8(%rdi,%r11,8), %r15
LBB61_109:
	testb	$1, %r15b
	je	LBB61_110
	movq	-16(%rdi,%rbx), %r15
	andq	%r8, %r15
	leaq	-1(%r15), %r12
LBB61_112:
	cmpq	%r9, %r12
	jae	LBB61_135
	leaq	(%r15,%r15,2), %r11
	movq	-24(%rdi,%r11), %rdx
	andq	%r8, %rdx
	xorl	%r12d, %r12d
	cmpq	%r9, %rdx
	cmovaq	%r12, %rdx
	movq	-8(%rdi,%rbx), %rax
	andq	%r8, %rax
	cmpq	%r9, %rax
	cmovaq	%r12, %rax
	movq	%rdx, -16(%rdi,%rbx)
	testq	%rdx, %rdx
	je	LBB61_115
	shrq	$3, %rdx
	leaq	(%rdx,%rdx,2), %rdx
	movq	-8(%rdi,%rdx,8), %r12
	andl	$1, %r12d
	orq	%r14, %r12
	movq	%r12, -8(%rdi,%rdx,8)
LBB61_115:
	movq	%rax, %rdx
	orq	$1, %rdx
	movq	%rdx, -8(%rdi,%r11)
	movq	%r15, %r12
	testq	%rax, %rax
	je	LBB61_121
	leaq	(%rax,%rax,2), %rax
	movq	-24(%rdi,%rax), %rdx
	movq	%rdx, %r12
	andq	%r8, %r12
	cmpq	%r9, %r12
	ja	LBB61_119
	cmpq	%r14, %r12
	jne	LBB61_119
	andl	$1, %edx
	orq	%r15, %rdx
	movq	%rdx, -24(%rdi,%rax)
	jmp	LBB61_120
LBB61_110:
	movq	%rbx, %r11
	movq	%r14, %r15
	jmp	LBB61_122
LBB61_78:
	movq	%r15, -16(%rdi,%rax)
LBB61_79:
	movq	%r10, %r11
LBB61_80:
	movq	%r14, -16(%rdi,%r12)
	movq	%r15, -8(%rdi,%rbx)
	movq	-16(%rdi,%r12), %rax
	andq	%r8, %rax
	leaq	-1(%rax), %rdx
	cmpq	%r9, %rdx
	jae	LBB61_81
	leaq	(%rax,%rax,2), %rdx
	movq	-8(%rdi,%rdx), %r13
LBB61_83:
	movq	-8(%rdi,%rsi), %rax
	andl	$1, %eax
	orq	$1, %r13
	movq	%r13, -8(%rdi,%rdx)
	movq	-24(%rdi,%r12), %r10
	andq	%r8, %r10
	xorl	%ebx, %ebx
	cmpq	%r9, %r10
	cmovaq	%rbx, %r10
	movq	-8(%rdi,%rsi), %rdx
	andq	%r8, %rdx
	cmpq	%r9, %rdx
	cmovaq	%rbx, %rdx
	movq	%r10, -16(%rdi,%rsi)
	testq	%r10, %r10
	je	LBB61_85
	shrq	$3, %r10
	leaq	(%r10,%r10,2), %r10
	movq	-8(%rdi,%r10,8), %rbx
	andl	$1, %ebx
	orq	%rcx, %rbx
	movq	%rbx, -8(%rdi,%r10,8)
LBB61_85:
	orq	%rdx, %rax
	movq	%rax, -8(%rdi,%r12)
	movq	%r15, %r10
	testq	%rdx, %rdx
	je	LBB61_90
	leaq	(%rdx,%rdx,2), %rax
	movq	-24(%rdi,%rax), %rdx
	andq	%rdx, %r8
	xorl	%r10d, %r10d
	cmpq	%r9, %r8
	cmovbeq	%r8, %r10
	cmpq	%rcx, %r10
	jne	LBB61_88
	andl	$1, %edx
	orq	%r15, %rdx
	movq	%rdx, -24(%rdi,%rax)
	jmp	LBB61_89
LBB61_88:
	movq	%r15, -16(%rdi,%rax)
LBB61_89:
	movq	%r11, %r10
LBB61_90:
	movq	-24(%rdi,%r12), %rax
	andl	$1, %eax
	orq	%rcx, %rax
	movq	%rax, -24(%rdi,%r12)
	orq	$1, %r15
	movq	%r15, -8(%rdi,%rsi)
	jmp	LBB61_135
LBB61_81:
	movq	%r11, %r10
	jmp	LBB61_135
LBB61_119:
	movq	%r15, -16(%rdi,%rax)
LBB61_120:
	movq	%r10, %r12
LBB61_121:
	movq	-24(%rdi,%r11), %rax
	andl	$1, %eax
	orq	%r14, %rax
	movq	%rax, -24(%rdi,%r11)
	movq	%r15, -8(%rdi,%rbx)
	movq	-24(%rdi,%r11), %rax
	andq	%r8, %rax
	leaq	-1(%rax), %rdx
	movq	%r12, %r10
LBB61_122:
	cmpq	%r9, %rdx
	jae	LBB61_135
	movq	-8(%rdi,%rsi), %rdx
	shrq	$3, %rax
	leaq	(%rax,%rax,2), %rax
	orq	$1, -8(%rdi,%rax,8)
	andl	$1, %edx
	movq	-16(%rdi,%r11), %rbx
	andq	%r8, %rbx
	xorl	%r14d, %r14d
	cmpq	%r9, %rbx
	cmovaq	%r14, %rbx
	movq	-8(%rdi,%rsi), %rax
	andq	%r8, %rax
	cmpq	%r9, %rax
	cmovaq	%r14, %rax
	movq	-24(%rdi,%rsi), %r14
	andl	$1, %r14d
	orq	%rbx, %r14
	movq	%r14, -24(%rdi,%rsi)
	testq	%rbx, %rbx
	je	LBB61_125
	shrq	$3, %rbx
	leaq	(%rbx,%rbx,2), %rbx
	movq	-8(%rdi,%rbx,8), %r14
	andl	$1, %r14d
	orq	%rcx, %r14
	movq	%r14, -8(%rdi,%rbx,8)
LBB61_125:
	orq	%rax, %rdx
	movq	%rdx, -8(%rdi,%r11)
	movq	%r15, %rdx
	testq	%rax, %rax
	je	LBB61_130
	leaq	(%rax,%rax,2), %rax
	movq	-24(%rdi,%rax), %rdx
	andq	%rdx, %r8
	xorl	%ebx, %ebx
	cmpq	%r9, %r8
	cmovbeq	%r8, %rbx
	cmpq	%rcx, %rbx
	jne	LBB61_128
	andl	$1, %edx
	orq	%r15, %rdx
	movq	%rdx, -24(%rdi,%rax)
	jmp	LBB61_129
LBB61_128:
	movq	%r15, -16(%rdi,%rax)
LBB61_129:
	movq	%r10, %rdx
LBB61_130:
	movq	%rcx, -16(%rdi,%r11)
	orq	$1, %r15
	movq	%r15, -8(%rdi,%rsi)
	movq	%rdx, %r10
	jmp	LBB61_135
	.cfi_endproc
	.p2align	4
_ic_raw.table.RawTable.refusal_at.19bacce014a8892a:
	.cfi_startproc
	movl	$5, %eax
	incl	%edx
	je	LBB62_3
	movl	$1, %eax
	cmpq	%rdx, %rsi
	jb	LBB62_3
	leaq	(%rdx,%rdx,2), %rax
	movzbl	-24(%rdi,%rax,8), %eax
	andl	$1, %eax
	leal	3(,%rax,2), %eax
LBB62_3:
	retq
	.cfi_endproc
	.p2align	4
_ic_raw.tree_calls.replace:
	.cfi_startproc
	leal	1(%rcx), %r10d
	movl	%ecx, %r9d
	movl	$4, %eax
	incl	%r9d
	je	LBB63_20
	pushq	%rbp
	.cfi_def_cfa_offset 16
	pushq	%r15
	.cfi_def_cfa_offset 24
	pushq	%r14
	.cfi_def_cfa_offset 32
	pushq	%r13
	.cfi_def_cfa_offset 40
	pushq	%r12
	.cfi_def_cfa_offset 48
	pushq	%rbx
	.cfi_def_cfa_offset 56
	subq	$24, %rsp
	.cfi_def_cfa_offset 80
	.cfi_offset %rbx, -56
	.cfi_offset %r12, -48
	.cfi_offset %r13, -40
	.cfi_offset %r14, -32
	.cfi_offset %r15, -24
	.cfi_offset %rbp, -16
	movq	%rdi, 8(%rsp)
	movq	%rsi, 16(%rsp)
	cmpq	%r10, %rsi
	jb	LBB63_21
	shlq	$3, %r10
	leaq	(%r10,%r10,2), %rax
	testb	$1, -24(%rdi,%rax)
	je	LBB63_21
	movabsq	$68719476728, %r15
	movq	(%rdx), %r11
	andq	%r15, %r11
	leaq	(,%rsi,8), %r12
	leaq	-1(%r11), %r9
	cmpq	%r12, %r9
	jae	LBB63_21
	movq	%r11, %r9
	shrq	$3, %r9
	leaq	(%r9,%r9,2), %r9
	testb	$1, -24(%rdi,%r9,8)
	je	LBB63_21
	leal	1(%r8), %r9d
	testq	%r15, -8(%rdi,%rax)
	sete	%bl
	cmpq	%r10, %r11
	setne	%bpl
	cmpq	%r9, %rsi
	jb	LBB63_21
	testl	%r9d, %r9d
	je	LBB63_21
	andb	%bl, %bpl
	jne	LBB63_21
	leaq	(%r9,%r9,2), %rsi
	testb	$1, -24(%rdi,%rsi,8)
	jne	LBB63_21
	shlq	$3, %r9
	leaq	(%rdi,%rsi,8), %rcx
	movq	$1, -24(%rcx)
	movq	$0, -16(%rcx)
	movq	$0, -8(%rcx)
	movq	-8(%rdi,%rax), %r8
	movq	%r8, %rsi
	andq	%r15, %rsi
	xorl	%r13d, %r13d
	cmpq	%r12, %rsi
	cmovaq	%r13, %rsi
	movq	-24(%rdi,%rax), %rbx
	andq	%r15, %rbx
	cmpq	%r12, %rbx
	cmovaq	%r13, %rbx
	movq	-16(%rdi,%rax), %r14
	andq	%r15, %r14
	cmpq	%r12, %r14
	cmovaq	%r13, %r14
	movq	%r9, %r13
	testq	%rsi, %rsi
	je	LBB63_14
	leaq	(%rsi,%rsi,2), %r13
	movq	-24(%rdi,%r13), %rbp
	andq	%rbp, %r15
	xorl	%r13d, %r13d
	cmpq	%r12, %r15
	cmovbeq	%r15, %r13
	cmpq	%r10, %r13
	jne	LBB63_12
	andl	$1, %ebp
	orq	%r9, %rbp
	leaq	(%rsi,%rsi,2), %r10
	movq	%rbp, -24(%rdi,%r10)
	jmp	LBB63_13
LBB63_21:
	leaq	8(%rsp), %rdi
	movl	%ecx, %esi
	movl	%r8d, %edx
	callq	_ic_raw.table.RawTable.refusal.19bacce014a8892a
	jmp	LBB63_19
LBB63_12:
	leaq	(%rsi,%rsi,2), %r10
	movq	%r9, -16(%rdi,%r10)
LBB63_13:
	movq	%r11, %r13
LBB63_14:
	testq	%rbx, %rbx
	je	LBB63_16
	movq	%rbx, %r10
	shrq	$3, %r10
	leaq	(%r10,%r10,2), %r10
	movq	-8(%rdi,%r10,8), %r11
	andl	$1, %r11d
	orq	%r9, %r11
	movq	%r11, -8(%rdi,%r10,8)
LBB63_16:
	testq	%r14, %r14
	je	LBB63_18
	movq	%r14, %r10
	shrq	$3, %r10
	leaq	(%r10,%r10,2), %r10
	movq	-8(%rdi,%r10,8), %r11
	andl	$1, %r11d
	orq	%r9, %r11
	movq	%r11, -8(%rdi,%r10,8)
LBB63_18:
	andl	$1, %r8d
	movq	-24(%rcx), %r9
	andl	$1, %r9d
	orq	%rbx, %r9
	movq	%r9, -24(%rcx)
	movq	%r14, -16(%rcx)
	orq	%r8, %rsi
	movq	%rsi, -8(%rcx)
	movq	$0, -24(%rdi,%rax)
	movq	%r13, (%rdx)
	xorl	%eax, %eax
LBB63_19:
	addq	$24, %rsp
	popq	%rbx
	popq	%r12
	popq	%r13
	popq	%r14
	popq	%r15
	popq	%rbp
LBB63_20:
	retq
	.cfi_endproc
	.p2align	4
_ic_raw.search.refusal:
	.cfi_startproc
	xorl	%eax, %eax
	cmpq	%rdi, %rsi
	setae	%al
	leal	1(,%rax,4), %eax
	retq
	.cfi_endproc
	.p2align	4
_ic_raw.tree.step_from_none:
	.cfi_startproc
	testq	%rdx, %rdx
	je	LBB65_1
	movq	%rdx, %r9
	shrq	$3, %r9
	movl	$5, %eax
	cmpq	%rsi, %r9
	ja	LBB65_20
	leaq	(%r9,%r9,2), %r9
	testb	$1, -24(%rdi,%r9,8)
	je	LBB65_20
	pushq	%rbx
	.cfi_def_cfa_offset 16
	.cfi_offset %rbx, -16
	movabsq	$68719476728, %r9
	shlq	$3, %rsi
	testb	%cl, %cl
	je	LBB65_6
	movl	$66, %ecx
	.p2align	4
LBB65_16:
	movq	%rdx, %r10
	shrq	$3, %r10
	leaq	(%r10,%r10,2), %r10
	movq	-24(%rdi,%r10,8), %r11
	andq	%r9, %r11
	leaq	-1(%r11), %rbx
	movq	%rdx, %r10
	cmpq	%rsi, %rbx
	jae	LBB65_17
	testl	%ecx, %ecx
	je	LBB65_13
	movq	%r11, %rdx
	shrq	$3, %rdx
	leaq	(%rdx,%rdx,2), %rdx
	movq	-24(%rdi,%rdx,8), %rdx
	andq	%r9, %rdx
	leaq	-1(%rdx), %rbx
	movq	%r11, %r10
	cmpq	%rsi, %rbx
	jae	LBB65_17
	addl	$-2, %ecx
	jmp	LBB65_16
LBB65_1:
	movl	$4, %eax
	retq
LBB65_6:
	movl	$66, %ecx
	.p2align	4
LBB65_7:
	movq	%rdx, %r10
	shrq	$3, %r10
	leaq	(%r10,%r10,2), %r10
	movq	-16(%rdi,%r10,8), %r11
	andq	%r9, %r11
	leaq	-1(%r11), %rbx
	movq	%rdx, %r10
	cmpq	%rsi, %rbx
	jae	LBB65_17
	testl	%ecx, %ecx
	je	LBB65_9
	movq	%r11, %rdx
	shrq	$3, %rdx
	leaq	(%rdx,%rdx,2), %rdx
	movq	-16(%rdi,%rdx,8), %rdx
	andq	%r9, %rdx
	leaq	-1(%rdx), %rbx
	movq	%r11, %r10
	cmpq	%rsi, %rbx
	jae	LBB65_17
	addl	$-2, %ecx
	jmp	LBB65_7
LBB65_13:
	movq	%r11, %r10
LBB65_17:
	shrq	$3, %r10
	leaq	(%r10,%r10,2), %rcx
	testb	$1, -24(%rdi,%rcx,8)
	je	LBB65_19
LBB65_18:
	decl	%r10d
	movl	%r10d, (%r8)
	xorl	%eax, %eax
LBB65_19:
	popq	%rbx
LBB65_20:
	retq
LBB65_9:
	movq	%r11, %r10
	shrq	$3, %r10
	leaq	(%r10,%r10,2), %rcx
	testb	$1, -24(%rdi,%rcx,8)
	jne	LBB65_18
	jmp	LBB65_19
	.cfi_endproc
	.p2align	4
_ic_raw.table.RawTable.refusal_of.19bacce014a8892a:
	.cfi_startproc
	shrq	$3, %rdx
	movl	$1, %eax
	cmpq	%rsi, %rdx
	ja	LBB66_2
	leaq	(%rdx,%rdx,2), %rax
	movzbl	-24(%rdi,%rax,8), %eax
	andl	$1, %eax
	leal	3(,%rax,2), %eax
LBB66_2:
	retq
	.cfi_endproc
	.p2align	4
_ic_raw.tree.nothing_found:
	.cfi_startproc
	cmpb	$1, %dil
	movl	$5, %eax
	sbbl	$0, %eax
	retq
	.cfi_endproc
	.p2align	4
_ic_raw_augmented.sum_calls.refusal:
	.cfi_startproc
	movq	8(%rdi), %rcx
	incl	%edx
	jne	LBB68_1
LBB68_3:
	xorl	%eax, %eax
	cmpq	%rcx, %rsi
	setae	%al
	leal	1(,%rax,4), %eax
	retq
LBB68_1:
	movl	$1, %eax
	cmpq	%rdx, %rcx
	jb	LBB68_4
	movq	(%rdi), %rdi
	leaq	(%rdx,%rdx,2), %rdx
	movl	$3, %eax
	testb	$1, -24(%rdi,%rdx,8)
	jne	LBB68_3
LBB68_4:
	retq
	.cfi_endproc
	.p2align	4
_ic_raw_augmented.find.find:
	.cfi_startproc
	pushq	%rbp
	.cfi_def_cfa_offset 16
	pushq	%r15
	.cfi_def_cfa_offset 24
	pushq	%r14
	.cfi_def_cfa_offset 32
	pushq	%r13
	.cfi_def_cfa_offset 40
	pushq	%r12
	.cfi_def_cfa_offset 48
	pushq	%rbx
	.cfi_def_cfa_offset 56
	pushq	%rax
	.cfi_def_cfa_offset 64
	.cfi_offset %rbx, -56
	.cfi_offset %r12, -48
	.cfi_offset %r13, -40
	.cfi_offset %r14, -32
	.cfi_offset %r15, -24
	.cfi_offset %rbp, -16
	movq	%rdi, %r13
	movq	80(%rsp), %rbx
	movzbl	72(%rsp), %ebp
	movabsq	$68719476728, %rax
	cmpb	$1, %bpl
	jne	LBB69_2
	movq	(%rsi), %rdi
	movq	8(%rsi), %r9
	movq	%rbx, %r10
	shrq	$3, %r10
	leaq	(%r10,%r10,2), %r10
	movq	-16(%rdi,%r10,8), %rdi
	andq	%rax, %rdi
	shlq	$3, %r9
	xorl	%r11d, %r11d
	cmpq	%r9, %rdi
	cmovbeq	%rdi, %r11
	testq	%r11, %r11
	setne	%r9b
	movq	88(%rsp), %rdi
	cmpb	$1, %r9b
	je	LBB69_3
	jmp	LBB69_28
LBB69_2:
	movq	64(%rsp), %r11
	movq	88(%rsp), %rdi
	cmpb	$1, %r9b
	jne	LBB69_28
LBB69_3:
	movq	%r11, %r9
	shrq	$3, %r9
	decq	%r9
	cmpq	%rcx, %r9
	jae	LBB69_28
	shlq	$4, %r9
	movq	8(%rdx,%r9), %r15
	cmpq	%r15, %rdi
	jae	LBB69_29
	movq	%rdx, (%rsp)
	movq	%r13, %rdx
	movq	(%rsi), %r9
	movq	8(%rsi), %rsi
	shlq	$3, %rsi
	movl	$67, %ebx
	xorl	%r10d, %r10d
	jmp	LBB69_8
	.p2align	4
LBB69_6:
	cmpq	%rsi, %r13
	jae	LBB69_27
LBB69_7:
	movq	%r12, %r11
	decl	%ebx
	je	LBB69_27
LBB69_8:
	leaq	(%r11,%r11,2), %r15
	movq	-24(%r9,%r15), %r12
	andq	%rax, %r12
	leaq	-1(%r12), %r13
	cmpq	%rsi, %r13
	jae	LBB69_11
	movq	%r12, %r14
	shrq	$3, %r14
	decq	%r14
	cmpq	%rcx, %r14
	jae	LBB69_11
	shlq	$4, %r14
	movq	(%rsp), %rbp
	movq	8(%rbp,%r14), %rbp
	testb	$1, %r8b
	jne	LBB69_12
LBB69_14:
	movq	$-1, %r14
	addq	%r10, %rbp
	jae	LBB69_15
	cmpq	%r14, %rdi
	jb	LBB69_6
	jmp	LBB69_17
	.p2align	4
LBB69_11:
	xorl	%ebp, %ebp
	testb	$1, %r8b
	je	LBB69_14
LBB69_12:
	cmpq	%rbp, %r10
	cmovaq	%r10, %rbp
LBB69_15:
	movq	%rbp, %r14
	cmpq	%r14, %rdi
	jb	LBB69_6
LBB69_17:
	movq	%r11, %r10
	shrq	$3, %r10
	decq	%r10
	cmpq	%rcx, %r10
	jae	LBB69_21
	shlq	$4, %r10
	movq	(%rsp), %r12
	movq	(%r12,%r10), %r12
	movq	%rdx, %r13
	testb	$1, %r8b
	jne	LBB69_22
LBB69_19:
	movq	$-1, %r10
	addq	%r14, %r12
	jb	LBB69_25
	movq	%r12, %r10
	jmp	LBB69_25
	.p2align	4
LBB69_21:
	xorl	%r12d, %r12d
	movq	%rdx, %r13
	testb	$1, %r8b
	je	LBB69_19
LBB69_22:
	cmpq	%r12, %r14
	ja	LBB69_24
	movq	%r12, %r14
LBB69_24:
	movq	%r14, %r10
LBB69_25:
	cmpq	%r10, %rdi
	jb	LBB69_67
	movq	-16(%r9,%r15), %r12
	andq	%rax, %r12
	leaq	-1(%r12), %r11
	cmpq	%rsi, %r11
	jb	LBB69_7
LBB69_27:
	movq	$0, 16(%rdx)
	movq	$0, 8(%rdx)
	movq	$0, (%rdx)
	jmp	LBB69_51
LBB69_28:
	xorl	%r15d, %r15d
LBB69_29:
	cmpb	$1, %bpl
	jne	LBB69_47
	movq	(%rsi), %r9
	movq	8(%rsi), %rsi
	shlq	$3, %rsi
	movl	$67, %ebp
	jmp	LBB69_32
	.p2align	4
LBB69_44:
	addq	%rbx, %r10
	movq	$-1, %r15
	cmovaeq	%r10, %r15
	cmpq	%r15, %rdi
	jb	LBB69_53
LBB69_45:
	movq	%r14, %rbx
	decl	%ebp
	je	LBB69_46
LBB69_32:
	movq	%rbx, %r10
	shrq	$3, %r10
	leaq	(%r10,%r10,2), %r10
	movq	-8(%r9,%r10,8), %r14
	andq	%rax, %r14
	leaq	-1(%r14), %r10
	cmpq	%rsi, %r10
	jae	LBB69_48
	movq	%r14, %r10
	shrq	$3, %r10
	leaq	(%r10,%r10,2), %r11
	movq	-16(%r9,%r11,8), %r11
	andq	%rax, %r11
	cmpq	%rbx, %r11
	je	LBB69_45
	decq	%r10
	cmpq	%rcx, %r10
	jae	LBB69_37
	shlq	$4, %r10
	movq	(%rdx,%r10), %r10
	testb	$1, %r8b
	jne	LBB69_38
LBB69_36:
	addq	%r15, %r10
	movq	$-1, %rbx
	cmovaeq	%r10, %rbx
	cmpq	%rbx, %rdi
	jae	LBB69_39
	jmp	LBB69_52
	.p2align	4
LBB69_37:
	xorl	%r10d, %r10d
	testb	$1, %r8b
	je	LBB69_36
LBB69_38:
	cmpq	%r10, %r15
	cmovaq	%r15, %r10
	movq	%r10, %rbx
	cmpq	%rbx, %rdi
	jb	LBB69_52
LBB69_39:
	leaq	-1(%r11), %r12
	cmpq	%rsi, %r12
	jae	LBB69_43
	movq	%r11, %r10
	shrq	$3, %r10
	decq	%r10
	cmpq	%rcx, %r10
	jae	LBB69_43
	shlq	$4, %r10
	movq	8(%rdx,%r10), %r10
	testb	$1, %r8b
	je	LBB69_44
	jmp	LBB69_31
	.p2align	4
LBB69_43:
	xorl	%r10d, %r10d
	testb	$1, %r8b
	je	LBB69_44
LBB69_31:
	cmpq	%r10, %rbx
	cmovaq	%rbx, %r10
	movq	%r10, %r15
	cmpq	%r15, %rdi
	jae	LBB69_45
LBB69_53:
	cmpq	%rsi, %r12
	jae	LBB69_46
	testb	$1, %r8b
	je	LBB69_68
	movl	$67, %r8d
	jmp	LBB69_57
LBB69_47:
	movq	$1, (%r13)
	movq	$0, 8(%r13)
	movq	$0, 16(%r13)
	jmp	LBB69_51
LBB69_56:
	xorl	%r15d, %r15d
	movq	%r12, %r11
	movl	$0, %r12d
	movl	$0, %r14d
	decl	%r8d
	je	LBB69_50
LBB69_57:
	leaq	(%r11,%r11,2), %r14
	movq	-24(%r9,%r14), %r12
	andq	%rax, %r12
	leaq	-1(%r12), %r10
	cmpq	%rsi, %r10
	jae	LBB69_61
	movq	%r12, %r10
	shrq	$3, %r10
	decq	%r10
	movq	%rbx, %r15
	cmpq	%rcx, %r10
	jae	LBB69_60
	shlq	$4, %r10
	movq	8(%rdx,%r10), %r15
	cmpq	%r15, %rbx
	cmovaq	%rbx, %r15
LBB69_60:
	cmpq	%r15, %rdi
	jb	LBB69_56
	jmp	LBB69_62
LBB69_61:
	movq	%rbx, %r15
	cmpq	%rbx, %rdi
	jb	LBB69_46
LBB69_62:
	movq	%r11, %r10
	shrq	$3, %r10
	decq	%r10
	cmpq	%rcx, %r10
	jae	LBB69_65
	shlq	$4, %r10
	movq	(%rdx,%r10), %r10
	cmpq	%r10, %r15
	ja	LBB69_65
	movq	%r10, %r15
LBB69_65:
	movq	%r15, %rbx
	cmpq	%r15, %rdi
	jb	LBB69_81
	movq	-16(%r9,%r14), %r12
	andq	%rax, %r12
	leaq	-1(%r12), %r10
	cmpq	%rsi, %r10
	jb	LBB69_56
	jmp	LBB69_46
LBB69_48:
	movl	$1, %r15d
	jmp	LBB69_49
LBB69_52:
	movl	$1, %r15d
	movl	$1, %r12d
	jmp	LBB69_50
LBB69_67:
	movq	$1, (%r13)
	movq	$1, 8(%r13)
	movq	%r11, 16(%r13)
	jmp	LBB69_51
LBB69_68:
	movl	$67, %r8d
	jmp	LBB69_70
LBB69_69:
	xorl	%r15d, %r15d
	movq	%r12, %r11
	movl	$0, %r12d
	movl	$0, %r14d
	decl	%r8d
	je	LBB69_50
LBB69_70:
	leaq	(%r11,%r11,2), %r14
	movq	-24(%r9,%r14), %r12
	andq	%rax, %r12
	leaq	-1(%r12), %r10
	cmpq	%rsi, %r10
	jae	LBB69_75
	movq	%r12, %r10
	shrq	$3, %r10
	decq	%r10
	movq	%rbx, %r15
	cmpq	%rcx, %r10
	jae	LBB69_74
	shlq	$4, %r10
	movq	8(%rdx,%r10), %r10
	movq	$-1, %r15
	addq	%rbx, %r10
	jb	LBB69_74
	movq	%r10, %r15
LBB69_74:
	cmpq	%r15, %rdi
	jb	LBB69_69
	jmp	LBB69_76
LBB69_75:
	movq	%rbx, %r15
	cmpq	%rbx, %rdi
	jb	LBB69_46
LBB69_76:
	movq	%r11, %r10
	shrq	$3, %r10
	decq	%r10
	cmpq	%rcx, %r10
	jae	LBB69_78
	shlq	$4, %r10
	movq	$-1, %rbx
	addq	(%rdx,%r10), %r15
	jb	LBB69_79
LBB69_78:
	movq	%r15, %rbx
LBB69_79:
	cmpq	%rbx, %rdi
	jb	LBB69_81
	movq	-16(%r9,%r14), %r12
	andq	%rax, %r12
	leaq	-1(%r12), %r10
	cmpq	%rsi, %r10
	jb	LBB69_69
LBB69_46:
	xorl	%r15d, %r15d
LBB69_49:
	xorl	%r12d, %r12d
	xorl	%r14d, %r14d
LBB69_50:
	movq	%r15, (%r13)
	movq	%r12, 8(%r13)
	movq	%r14, 16(%r13)
LBB69_51:
	addq	$8, %rsp
	popq	%rbx
	popq	%r12
	popq	%r13
	popq	%r14
	popq	%r15
	popq	%rbp
	retq
LBB69_81:
	movl	$1, %r15d
	movl	$1, %r12d
	movq	%r11, %r14
	jmp	LBB69_50
	.cfi_endproc
	.p2align	4
_ic_raw_augmented.noting.WrittenSurgery.attach:
	.cfi_startproc
	pushq	%rbp
	.cfi_def_cfa_offset 16
	pushq	%r15
	.cfi_def_cfa_offset 24
	pushq	%r14
	.cfi_def_cfa_offset 32
	pushq	%r13
	.cfi_def_cfa_offset 40
	pushq	%r12
	.cfi_def_cfa_offset 48
	pushq	%rbx
	.cfi_def_cfa_offset 56
	.cfi_offset %rbx, -56
	.cfi_offset %r12, -48
	.cfi_offset %r13, -40
	.cfi_offset %r14, -32
	.cfi_offset %r15, -24
	.cfi_offset %rbp, -16
	movq	56(%rsp), %r10
	movq	112(%rdi), %rax
	testb	$1, %cl
	je	LBB70_1
	cmpq	$13, %rax
	ja	LBB70_12
	cmpq	$0, (%rdi,%rax,8)
	je	LBB70_13
LBB70_12:
	movb	$1, 120(%rdi)
LBB70_14:
	movq	(%rsi), %rcx
	leaq	(%r10,%r10,2), %rax
	andq	$1, -24(%rcx,%rax)
	movq	112(%rdi), %rcx
	cmpq	$13, %rcx
	ja	LBB70_16
	cmpq	$0, (%rdi,%rcx,8)
	je	LBB70_17
LBB70_16:
	movb	$1, 120(%rdi)
LBB70_18:
	movq	(%rsi), %rcx
	movq	$0, -16(%rcx,%rax)
	movq	(%rsi), %rcx
	movq	%r8, -8(%rcx,%rax)
	movq	112(%rdi), %rax
	testb	%r9b, %r9b
	je	LBB70_19
	cmpq	$13, %rax
	ja	LBB70_26
	cmpq	$0, (%rdi,%rax,8)
	je	LBB70_27
LBB70_26:
	movb	$1, 120(%rdi)
LBB70_28:
	movq	(%rsi), %rax
	movq	%r8, %rcx
	shrq	$3, %rcx
	leaq	(%rcx,%rcx,2), %rcx
	movq	%r10, -16(%rax,%rcx,8)
	jmp	LBB70_29
LBB70_1:
	cmpq	$13, %rax
	ja	LBB70_3
	cmpq	$0, (%rdi,%rax,8)
	je	LBB70_4
LBB70_3:
	movb	$1, 120(%rdi)
LBB70_5:
	movq	(%rsi), %rcx
	leaq	(%r10,%r10,2), %rax
	andq	$1, -24(%rcx,%rax)
	movq	112(%rdi), %rcx
	cmpq	$13, %rcx
	ja	LBB70_7
	cmpq	$0, (%rdi,%rcx,8)
	je	LBB70_8
LBB70_7:
	movb	$1, 120(%rdi)
LBB70_9:
	movq	(%rsi), %rcx
	movq	$0, -16(%rcx,%rax)
	movq	(%rsi), %rcx
	movq	$1, -8(%rcx,%rax)
	movq	%r10, (%rdx)
LBB70_136:
	popq	%rbx
	popq	%r12
	popq	%r13
	popq	%r14
	popq	%r15
	popq	%rbp
	retq
LBB70_19:
	cmpq	$13, %rax
	ja	LBB70_21
	cmpq	$0, (%rdi,%rax,8)
	je	LBB70_22
LBB70_21:
	movb	$1, 120(%rdi)
LBB70_23:
	movq	(%rsi), %rax
	movq	%r8, %rcx
	shrq	$3, %rcx
	leaq	(%rcx,%rcx,2), %rcx
	movq	-24(%rax,%rcx,8), %r9
	andl	$1, %r9d
	orq	%r10, %r9
	movq	%r9, -24(%rax,%rcx,8)
LBB70_29:
	movl	$67, %ebx
	movabsq	$68719476728, %r9
	xorl	%ecx, %ecx
	jmp	LBB70_30
	.p2align	4
LBB70_36:
	movq	-8(%r14,%rcx), %r8
	andq	%r9, %r8
	decq	%r8
	xorl	%r10d, %r10d
	cmpq	%r15, %r8
	setae	%r10b
	orq	$1, %r12
	movq	%r12, -8(%r14,%r11)
	movq	(%rsi), %r8
	orq	$1, -8(%r8,%r13)
	movq	(%rsi), %r8
	movq	-8(%r8,%rcx), %r11
	andq	$-2, %r11
	orq	%r10, %r11
	movq	%r11, -8(%r8,%rcx)
	movq	(%rsi), %rcx
	movq	8(%rsi), %r10
	movq	%rax, %r8
	shrq	$3, %r8
	leaq	(%r8,%r8,2), %r8
	movq	-8(%rcx,%r8,8), %rcx
	andq	%r9, %rcx
	shlq	$3, %r10
	xorl	%r8d, %r8d
	cmpq	%r10, %rcx
	cmovbeq	%rcx, %r8
	testq	%r8, %r8
	sete	%cl
	movq	%rax, %r10
	decl	%ebx
	je	LBB70_136
LBB70_30:
	testb	$1, %cl
	jne	LBB70_136
	movq	(%rsi), %r14
	leaq	(%r8,%r8,2), %r11
	movq	-8(%r14,%r11), %r12
	testb	$1, %r12b
	jne	LBB70_136
	movq	8(%rsi), %r15
	movq	%r12, %rax
	andq	%r9, %rax
	shlq	$3, %r15
	leaq	-1(%rax), %rcx
	cmpq	%r15, %rcx
	jae	LBB70_136
	leaq	(%rax,%rax,2), %rcx
	movq	-24(%r14,%rcx), %rbp
	andq	%r9, %rbp
	xorl	%r13d, %r13d
	cmpq	%r15, %rbp
	cmovbeq	%rbp, %r13
	cmpq	%r8, %r13
	jne	LBB70_86
	movq	-16(%r14,%rcx), %r13
	andq	%r9, %r13
	leaq	-1(%r13), %rbp
	cmpq	%r15, %rbp
	jae	LBB70_37
	leaq	(%r13,%r13,2), %r13
	testb	$1, -8(%r14,%r13)
	je	LBB70_36
	jmp	LBB70_37
	.p2align	4
LBB70_86:
	testq	%r13, %r13
	je	LBB70_88
	leaq	(%r13,%r13,2), %r13
	testb	$1, -8(%r14,%r13)
	je	LBB70_36
LBB70_88:
	movq	-24(%r14,%r11), %rbx
	andq	%r9, %rbx
	cmpq	%r15, %rbx
	ja	LBB70_112
	cmpq	%r10, %rbx
	jne	LBB70_112
	leaq	(%r10,%r10,2), %rbx
	movq	-16(%r14,%rbx), %r12
	andq	%r9, %r12
	xorl	%r14d, %r14d
	cmpq	%r15, %r12
	cmovbeq	%r12, %r14
	movq	112(%rdi), %r15
	cmpq	$13, %r15
	ja	LBB70_92
	cmpq	$0, (%rdi,%r15,8)
	je	LBB70_93
LBB70_92:
	movb	$1, 120(%rdi)
LBB70_94:
	movq	(%rsi), %r15
	movq	-24(%r15,%r11), %r12
	andl	$1, %r12d
	orq	%r14, %r12
	movq	%r12, -24(%r15,%r11)
	testq	%r14, %r14
	je	LBB70_96
	movq	(%rsi), %r15
	shrq	$3, %r14
	leaq	(%r14,%r14,2), %r14
	movq	-8(%r15,%r14,8), %r12
	andl	$1, %r12d
	orq	%r8, %r12
	movq	%r12, -8(%r15,%r14,8)
LBB70_96:
	movq	(%rsi), %r14
	movq	%rax, -8(%r14,%rbx)
	movq	(%rsi), %r14
	movq	8(%rsi), %r15
	movq	-24(%r14,%rcx), %r14
	andq	%r9, %r14
	shlq	$3, %r15
	xorl	%r12d, %r12d
	cmpq	%r15, %r14
	cmovbeq	%r14, %r12
	movq	112(%rdi), %r14
	cmpq	%r8, %r12
	jne	LBB70_102
	cmpq	$13, %r14
	ja	LBB70_99
	cmpq	$0, (%rdi,%r14,8)
	je	LBB70_100
LBB70_99:
	movb	$1, 120(%rdi)
LBB70_101:
	movq	(%rsi), %r14
	movq	-24(%r14,%rcx), %r15
	andl	$1, %r15d
	orq	%r10, %r15
	movq	%r15, -24(%r14,%rcx)
	movq	112(%rdi), %r14
	cmpq	$13, %r14
	jbe	LBB70_108
	jmp	LBB70_109
LBB70_13:
	movq	%r10, (%rdi,%rax,8)
	incq	%rax
	movq	%rax, 112(%rdi)
	jmp	LBB70_14
LBB70_17:
	movq	%r10, (%rdi,%rcx,8)
	incq	%rcx
	movq	%rcx, 112(%rdi)
	jmp	LBB70_18
LBB70_4:
	movq	%r10, (%rdi,%rax,8)
	incq	%rax
	movq	%rax, 112(%rdi)
	jmp	LBB70_5
LBB70_8:
	movq	%r10, (%rdi,%rcx,8)
	incq	%rcx
	movq	%rcx, 112(%rdi)
	jmp	LBB70_9
LBB70_37:
	movq	-24(%r14,%r11), %rbx
	andq	%r9, %rbx
	cmpq	%r15, %rbx
	ja	LBB70_40
	cmpq	%r10, %rbx
	jne	LBB70_40
	leaq	(%r8,%r8,2), %rbx
	movq	%r8, %r10
	jmp	LBB70_62
LBB70_27:
	movq	%r8, (%rdi,%rax,8)
	incq	%rax
	movq	%rax, 112(%rdi)
	jmp	LBB70_28
LBB70_40:
	leaq	(%r10,%r10,2), %rbx
	movq	-24(%r14,%rbx), %r12
	andq	%r9, %r12
	xorl	%r14d, %r14d
	cmpq	%r15, %r12
	cmovbeq	%r12, %r14
	movq	112(%rdi), %r15
	cmpq	$13, %r15
	ja	LBB70_42
	cmpq	$0, (%rdi,%r15,8)
	je	LBB70_43
LBB70_42:
	movb	$1, 120(%rdi)
	movq	(%rsi), %r15
	movq	%r14, -16(%r15,%r11)
	testq	%r14, %r14
	je	LBB70_46
LBB70_45:
	movq	(%rsi), %r15
	shrq	$3, %r14
	leaq	(%r14,%r14,2), %r14
	movq	-8(%r15,%r14,8), %r12
	andl	$1, %r12d
	orq	%r8, %r12
	movq	%r12, -8(%r15,%r14,8)
LBB70_46:
	movq	(%rsi), %r14
	movq	%rax, -8(%r14,%rbx)
	movq	(%rsi), %r14
	movq	8(%rsi), %r15
	movq	-24(%r14,%rcx), %r14
	andq	%r9, %r14
	shlq	$3, %r15
	xorl	%r12d, %r12d
	cmpq	%r15, %r14
	cmovbeq	%r14, %r12
	movq	112(%rdi), %r14
	cmpq	%r8, %r12
	jne	LBB70_52
	cmpq	$13, %r14
	ja	LBB70_49
	cmpq	$0, (%rdi,%r14,8)
	je	LBB70_50
LBB70_49:
	movb	$1, 120(%rdi)
LBB70_51:
	movq	(%rsi), %r14
	movq	-24(%r14,%rcx), %r15
	andl	$1, %r15d
	orq	%r10, %r15
	movq	%r15, -24(%r14,%rcx)
	movq	112(%rdi), %r14
	cmpq	$13, %r14
	jbe	LBB70_58
	jmp	LBB70_59
LBB70_22:
	movq	%r8, (%rdi,%rax,8)
	incq	%rax
	movq	%rax, 112(%rdi)
	jmp	LBB70_23
LBB70_52:
	cmpq	$13, %r14
	ja	LBB70_54
	cmpq	$0, (%rdi,%r14,8)
	je	LBB70_55
LBB70_54:
	movb	$1, 120(%rdi)
LBB70_56:
	movq	(%rsi), %r14
	movq	%r10, -16(%r14,%rcx)
	movq	112(%rdi), %r14
	cmpq	$13, %r14
	ja	LBB70_59
LBB70_58:
	cmpq	$0, (%rdi,%r14,8)
	je	LBB70_60
LBB70_59:
	movb	$1, 120(%rdi)
LBB70_61:
	movq	(%rsi), %r14
	movq	-24(%r14,%rbx), %r15
	andl	$1, %r15d
	orq	%r8, %r15
	movq	%r15, -24(%r14,%rbx)
	movq	(%rsi), %r8
	movq	%r10, -8(%r8,%r11)
	movq	(%rsi), %r14
	movq	8(%rsi), %r15
	shlq	$3, %r15
LBB70_62:
	movq	-16(%r14,%rbx), %r11
	andq	%r9, %r11
	xorl	%r12d, %r12d
	cmpq	%r15, %r11
	cmovaq	%r12, %r11
	movq	-8(%r14,%rcx), %r8
	andq	%r9, %r8
	cmpq	%r15, %r8
	cmovaq	%r12, %r8
	movq	112(%rdi), %r14
	cmpq	$13, %r14
	ja	LBB70_64
	cmpq	$0, (%rdi,%r14,8)
	je	LBB70_65
LBB70_64:
	movb	$1, 120(%rdi)
LBB70_66:
	movq	(%rsi), %r14
	movq	-24(%r14,%rcx), %r15
	andl	$1, %r15d
	orq	%r11, %r15
	movq	%r15, -24(%r14,%rcx)
	testq	%r11, %r11
	je	LBB70_68
	movq	(%rsi), %r14
	shrq	$3, %r11
	leaq	(%r11,%r11,2), %r11
	movq	-8(%r14,%r11,8), %r15
	andl	$1, %r15d
	orq	%rax, %r15
	movq	%r15, -8(%r14,%r11,8)
LBB70_68:
	movq	%r8, %r11
	orq	$1, %r11
	movq	(%rsi), %r14
	movq	%r11, -8(%r14,%rbx)
	testq	%r8, %r8
	je	LBB70_80
	movq	(%rsi), %r11
	movq	8(%rsi), %r14
	leaq	(%r8,%r8,2), %rdx
	andq	-24(%r11,%rdx), %r9
	shlq	$3, %r14
	xorl	%r11d, %r11d
	cmpq	%r14, %r9
	cmovbeq	%r9, %r11
	movq	112(%rdi), %r9
	cmpq	%rax, %r11
	jne	LBB70_75
	cmpq	$13, %r9
	ja	LBB70_72
	cmpq	$0, (%rdi,%r9,8)
	je	LBB70_73
LBB70_72:
	movb	$1, 120(%rdi)
LBB70_74:
	movq	(%rsi), %r8
	movq	-24(%r8,%rdx), %r9
	andl	$1, %r9d
	orq	%r10, %r9
	movq	%r9, -24(%r8,%rdx)
	movq	112(%rdi), %rdx
	cmpq	$13, %rdx
	jbe	LBB70_82
	jmp	LBB70_83
LBB70_80:
	movq	%r10, (%rdx)
	movq	112(%rdi), %rdx
	cmpq	$13, %rdx
	jbe	LBB70_82
	jmp	LBB70_83
LBB70_75:
	cmpq	$13, %r9
	ja	LBB70_77
	cmpq	$0, (%rdi,%r9,8)
	je	LBB70_78
LBB70_77:
	movb	$1, 120(%rdi)
LBB70_79:
	movq	(%rsi), %r8
	movq	%r10, -16(%r8,%rdx)
	movq	112(%rdi), %rdx
	cmpq	$13, %rdx
	ja	LBB70_83
LBB70_82:
	cmpq	$0, (%rdi,%rdx,8)
	je	LBB70_84
LBB70_83:
	movb	$1, 120(%rdi)
LBB70_85:
	movq	(%rsi), %rdx
	movq	%rax, -16(%rdx,%rbx)
	movq	(%rsi), %rax
	movq	%r10, -8(%rax,%rcx)
	jmp	LBB70_136
LBB70_102:
	cmpq	$13, %r14
	ja	LBB70_104
	cmpq	$0, (%rdi,%r14,8)
	je	LBB70_105
LBB70_104:
	movb	$1, 120(%rdi)
LBB70_106:
	movq	(%rsi), %r14
	movq	%r10, -16(%r14,%rcx)
	movq	112(%rdi), %r14
	cmpq	$13, %r14
	ja	LBB70_109
LBB70_108:
	cmpq	$0, (%rdi,%r14,8)
	je	LBB70_110
LBB70_109:
	movb	$1, 120(%rdi)
LBB70_111:
	movq	(%rsi), %r14
	movq	%r8, -16(%r14,%rbx)
	movq	(%rsi), %r8
	movq	%r10, -8(%r8,%r11)
	movq	(%rsi), %r14
	movq	8(%rsi), %r15
	shlq	$3, %r15
	movq	%rbx, %r11
	movq	%r10, %r8
LBB70_112:
	movq	-24(%r14,%r11), %rbx
	andq	%r9, %rbx
	xorl	%r12d, %r12d
	cmpq	%r15, %rbx
	cmovaq	%r12, %rbx
	movq	-8(%r14,%rcx), %r10
	andq	%r9, %r10
	cmpq	%r15, %r10
	cmovaq	%r12, %r10
	movq	112(%rdi), %r14
	cmpq	$13, %r14
	ja	LBB70_114
	cmpq	$0, (%rdi,%r14,8)
	je	LBB70_115
LBB70_114:
	movb	$1, 120(%rdi)
	movq	(%rsi), %r14
	movq	%rbx, -16(%r14,%rcx)
	testq	%rbx, %rbx
	je	LBB70_118
LBB70_117:
	movq	(%rsi), %r14
	shrq	$3, %rbx
	leaq	(%rbx,%rbx,2), %rbx
	movq	-8(%r14,%rbx,8), %r15
	andl	$1, %r15d
	orq	%rax, %r15
	movq	%r15, -8(%r14,%rbx,8)
LBB70_118:
	movq	%r10, %rbx
	orq	$1, %rbx
	movq	(%rsi), %r14
	movq	%rbx, -8(%r14,%r11)
	testq	%r10, %r10
	je	LBB70_130
	movq	(%rsi), %rbx
	movq	8(%rsi), %r14
	leaq	(%r10,%r10,2), %rdx
	andq	-24(%rbx,%rdx), %r9
	shlq	$3, %r14
	xorl	%ebx, %ebx
	cmpq	%r14, %r9
	cmovbeq	%r9, %rbx
	movq	112(%rdi), %r9
	cmpq	%rax, %rbx
	jne	LBB70_125
	cmpq	$13, %r9
	ja	LBB70_122
	cmpq	$0, (%rdi,%r9,8)
	je	LBB70_123
LBB70_122:
	movb	$1, 120(%rdi)
LBB70_124:
	movq	(%rsi), %r9
	movq	-24(%r9,%rdx), %r10
	andl	$1, %r10d
	orq	%r8, %r10
	movq	%r10, -24(%r9,%rdx)
	movq	112(%rdi), %rdx
	cmpq	$13, %rdx
	jbe	LBB70_132
	jmp	LBB70_133
LBB70_130:
	movq	%r8, (%rdx)
	movq	112(%rdi), %rdx
	cmpq	$13, %rdx
	jbe	LBB70_132
	jmp	LBB70_133
LBB70_125:
	cmpq	$13, %r9
	ja	LBB70_127
	cmpq	$0, (%rdi,%r9,8)
	je	LBB70_128
LBB70_127:
	movb	$1, 120(%rdi)
LBB70_129:
	movq	(%rsi), %r9
	movq	%r8, -16(%r9,%rdx)
	movq	112(%rdi), %rdx
	cmpq	$13, %rdx
	ja	LBB70_133
LBB70_132:
	cmpq	$0, (%rdi,%rdx,8)
	je	LBB70_134
LBB70_133:
	movb	$1, 120(%rdi)
LBB70_135:
	movq	(%rsi), %rdx
	movq	-24(%rdx,%r11), %rdi
	andl	$1, %edi
	orq	%rax, %rdi
	movq	%rdi, -24(%rdx,%r11)
	movq	(%rsi), %rax
	movq	%r8, -8(%rax,%rcx)
	jmp	LBB70_136
LBB70_115:
	movq	%rax, (%rdi,%r14,8)
	incq	%r14
	movq	%r14, 112(%rdi)
	movq	(%rsi), %r14
	movq	%rbx, -16(%r14,%rcx)
	testq	%rbx, %rbx
	jne	LBB70_117
	jmp	LBB70_118
LBB70_134:
	movq	%r8, (%rdi,%rdx,8)
	incq	%rdx
	movq	%rdx, 112(%rdi)
	jmp	LBB70_135
LBB70_65:
	movq	%rax, (%rdi,%r14,8)
	incq	%r14
	movq	%r14, 112(%rdi)
	jmp	LBB70_66
LBB70_84:
	movq	%r10, (%rdi,%rdx,8)
	incq	%rdx
	movq	%rdx, 112(%rdi)
	jmp	LBB70_85
LBB70_43:
	movq	%r8, (%rdi,%r15,8)
	incq	%r15
	movq	%r15, 112(%rdi)
	movq	(%rsi), %r15
	movq	%r14, -16(%r15,%r11)
	testq	%r14, %r14
	jne	LBB70_45
	jmp	LBB70_46
LBB70_60:
	movq	%r10, (%rdi,%r14,8)
	incq	%r14
	movq	%r14, 112(%rdi)
	jmp	LBB70_61
LBB70_93:
	movq	%r8, (%rdi,%r15,8)
	incq	%r15
	movq	%r15, 112(%rdi)
	jmp	LBB70_94
LBB70_110:
	movq	%r10, (%rdi,%r14,8)
	incq	%r14
	movq	%r14, 112(%rdi)
	jmp	LBB70_111
LBB70_123:
	movq	%r10, (%rdi,%r9,8)
	incq	%r9
	movq	%r9, 112(%rdi)
	jmp	LBB70_124
LBB70_128:
	movq	%r10, (%rdi,%r9,8)
	incq	%r9
	movq	%r9, 112(%rdi)
	jmp	LBB70_129
LBB70_73:
	movq	%r8, (%rdi,%r9,8)
	incq	%r9
	movq	%r9, 112(%rdi)
	jmp	LBB70_74
LBB70_78:
	movq	%r8, (%rdi,%r9,8)
	incq	%r9
	movq	%r9, 112(%rdi)
	jmp	LBB70_79
LBB70_50:
	movq	%rax, (%rdi,%r14,8)
	incq	%r14
	movq	%r14, 112(%rdi)
	jmp	LBB70_51
LBB70_55:
	movq	%rax, (%rdi,%r14,8)
	incq	%r14
	movq	%r14, 112(%rdi)
	jmp	LBB70_56
LBB70_100:
	movq	%rax, (%rdi,%r14,8)
	incq	%r14
	movq	%r14, 112(%rdi)
	jmp	LBB70_101
LBB70_105:
	movq	%rax, (%rdi,%r14,8)
	incq	%r14
	movq	%r14, 112(%rdi)
	jmp	LBB70_106
	.cfi_endproc
	.p2align	4
_ic_raw_augmented.edit_calls.settle:
	.cfi_startproc
	pushq	%rbp
	.cfi_def_cfa_offset 16
	pushq	%r15
	.cfi_def_cfa_offset 24
	pushq	%r14
	.cfi_def_cfa_offset 32
	pushq	%r13
	.cfi_def_cfa_offset 40
	pushq	%r12
	.cfi_def_cfa_offset 48
	pushq	%rbx
	.cfi_def_cfa_offset 56
	subq	$24, %rsp
	.cfi_def_cfa_offset 80
	.cfi_offset %rbx, -56
	.cfi_offset %r12, -48
	.cfi_offset %r13, -40
	.cfi_offset %r14, -32
	.cfi_offset %r15, -24
	.cfi_offset %rbp, -16
	movq	%rcx, (%rsp)
	cmpl	$0, 80(%rsp)
	je	LBB71_1
LBB71_35:
	addq	$24, %rsp
	popq	%rbx
	popq	%r12
	popq	%r13
	popq	%r14
	popq	%r15
	popq	%rbp
	retq
LBB71_1:
	movq	%r9, %r13
	movl	%r8d, %ebp
	movq	%rdx, %r14
	movq	%rsi, %rbx
	movq	%rdi, 8(%rsp)
	movq	%rsi, 16(%rsp)
	cmpb	$0, 120(%r9)
	je	LBB71_2
	testq	%rbx, %rbx
	je	LBB71_35
	movl	$8, %r12d
	movabsq	$68719476728, %r13
	movq	%rbx, %r15
	jmp	LBB71_32
	.p2align	4
LBB71_34:
	addq	$8, %r12
	decq	%r15
	je	LBB71_35
LBB71_32:
	movq	%r12, %r8
	andq	%r13, %r8
	sete	%al
	movq	%r8, %rcx
	shrq	$3, %rcx
	cmpq	%rbx, %rcx
	seta	%cl
	orb	%al, %cl
	jne	LBB71_34
	movzbl	%bpl, %ecx
	leaq	8(%rsp), %rdi
	movq	%r14, %rsi
	movq	(%rsp), %rdx
	callq	_ic_raw_augmented.recompute.recompute_up
	jmp	LBB71_34
LBB71_2:
	movabsq	$68719476728, %r12
	movq	(%r13), %r8
	andq	%r12, %r8
	sete	%al
	movq	%r8, %rcx
	shrq	$3, %rcx
	cmpq	%rbx, %rcx
	seta	%cl
	orb	%al, %cl
	jne	LBB71_4
	movzbl	%bpl, %ecx
	leaq	8(%rsp), %rdi
	movq	%r14, %rsi
	movq	(%rsp), %rdx
	callq	_ic_raw_augmented.recompute.recompute_up
LBB71_4:
	movq	8(%r13), %r8
	andq	%r12, %r8
	sete	%al
	movq	%r8, %rcx
	shrq	$3, %rcx
	cmpq	%rbx, %rcx
	seta	%cl
	orb	%al, %cl
	jne	LBB71_6
	movzbl	%bpl, %ecx
	leaq	8(%rsp), %rdi
	movq	%r14, %rsi
	movq	(%rsp), %rdx
	callq	_ic_raw_augmented.recompute.recompute_up
LBB71_6:
	movq	16(%r13), %r8
	andq	%r12, %r8
	sete	%al
	movq	%r8, %rcx
	shrq	$3, %rcx
	cmpq	%rbx, %rcx
	seta	%cl
	orb	%al, %cl
	jne	LBB71_8
	movzbl	%bpl, %ecx
	leaq	8(%rsp), %rdi
	movq	%r14, %rsi
	movq	(%rsp), %rdx
	callq	_ic_raw_augmented.recompute.recompute_up
LBB71_8:
	movq	24(%r13), %r8
	andq	%r12, %r8
	sete	%al
	movq	%r8, %rcx
	shrq	$3, %rcx
	cmpq	%rbx, %rcx
	seta	%cl
	orb	%al, %cl
	jne	LBB71_10
	movzbl	%bpl, %ecx
	leaq	8(%rsp), %rdi
	movq	%r14, %rsi
	movq	(%rsp), %rdx
	callq	_ic_raw_augmented.recompute.recompute_up
LBB71_10:
	movq	32(%r13), %r8
	andq	%r12, %r8
	sete	%al
	movq	%r8, %rcx
	shrq	$3, %rcx
	cmpq	%rbx, %rcx
	seta	%cl
	orb	%al, %cl
	jne	LBB71_12
	movzbl	%bpl, %ecx
	leaq	8(%rsp), %rdi
	movq	%r14, %rsi
	movq	(%rsp), %rdx
	callq	_ic_raw_augmented.recompute.recompute_up
LBB71_12:
	movq	40(%r13), %r8
	andq	%r12, %r8
	sete	%al
	movq	%r8, %rcx
	shrq	$3, %rcx
	cmpq	%rbx, %rcx
	seta	%cl
	orb	%al, %cl
	jne	LBB71_14
	movzbl	%bpl, %ecx
	leaq	8(%rsp), %rdi
	movq	%r14, %rsi
	movq	(%rsp), %rdx
	callq	_ic_raw_augmented.recompute.recompute_up
LBB71_14:
	movq	48(%r13), %r8
	andq	%r12, %r8
	sete	%al
	movq	%r8, %rcx
	shrq	$3, %rcx
	cmpq	%rbx, %rcx
	seta	%cl
	orb	%al, %cl
	jne	LBB71_16
	movzbl	%bpl, %ecx
	leaq	8(%rsp), %rdi
	movq	%r14, %rsi
	movq	(%rsp), %rdx
	callq	_ic_raw_augmented.recompute.recompute_up
LBB71_16:
	movq	56(%r13), %r8
	andq	%r12, %r8
	sete	%al
	movq	%r8, %rcx
	shrq	$3, %rcx
	cmpq	%rbx, %rcx
	seta	%cl
	orb	%al, %cl
	jne	LBB71_18
	movzbl	%bpl, %ecx
	leaq	8(%rsp), %rdi
	movq	%r14, %rsi
	movq	(%rsp), %rdx
	callq	_ic_raw_augmented.recompute.recompute_up
LBB71_18:
	movq	64(%r13), %r8
	andq	%r12, %r8
	sete	%al
	movq	%r8, %rcx
	shrq	$3, %rcx
	cmpq	%rbx, %rcx
	seta	%cl
	orb	%al, %cl
	jne	LBB71_20
	movzbl	%bpl, %ecx
	leaq	8(%rsp), %rdi
	movq	%r14, %rsi
	movq	(%rsp), %rdx
	callq	_ic_raw_augmented.recompute.recompute_up
LBB71_20:
	movq	72(%r13), %r8
	andq	%r12, %r8
	sete	%al
	movq	%r8, %rcx
	shrq	$3, %rcx
	cmpq	%rbx, %rcx
	seta	%cl
	orb	%al, %cl
	jne	LBB71_22
	movzbl	%bpl, %ecx
	leaq	8(%rsp), %rdi
	movq	%r14, %rsi
	movq	(%rsp), %rdx
	callq	_ic_raw_augmented.recompute.recompute_up
LBB71_22:
	movq	80(%r13), %r8
	andq	%r12, %r8
	sete	%al
	movq	%r8, %rcx
	shrq	$3, %rcx
	cmpq	%rbx, %rcx
	seta	%cl
	orb	%al, %cl
	jne	LBB71_24
	movzbl	%bpl, %ecx
	leaq	8(%rsp), %rdi
	movq	%r14, %rsi
	movq	(%rsp), %rdx
	callq	_ic_raw_augmented.recompute.recompute_up
LBB71_24:
	movq	88(%r13), %r8
	andq	%r12, %r8
	sete	%al
	movq	%r8, %rcx
	shrq	$3, %rcx
	cmpq	%rbx, %rcx
	seta	%cl
	orb	%al, %cl
	jne	LBB71_26
	movzbl	%bpl, %ecx
	leaq	8(%rsp), %rdi
	movq	%r14, %rsi
	movq	(%rsp), %rdx
	callq	_ic_raw_augmented.recompute.recompute_up
LBB71_26:
	movq	96(%r13), %r8
	andq	%r12, %r8
	sete	%al
	movq	%r8, %rcx
	shrq	$3, %rcx
	cmpq	%rbx, %rcx
	seta	%cl
	orb	%al, %cl
	jne	LBB71_28
	movzbl	%bpl, %ecx
	leaq	8(%rsp), %rdi
	movq	%r14, %rsi
	movq	(%rsp), %rdx
	callq	_ic_raw_augmented.recompute.recompute_up
LBB71_28:
	andq	104(%r13), %r12
	sete	%al
	movq	%r12, %rcx
	shrq	$3, %rcx
	cmpq	%rbx, %rcx
	seta	%cl
	orb	%al, %cl
	jne	LBB71_35
	movzbl	%bpl, %ecx
	leaq	8(%rsp), %rdi
	movq	%r14, %rsi
	movq	(%rsp), %rdx
	movq	%r12, %r8
	callq	_ic_raw_augmented.recompute.recompute_up
	jmp	LBB71_35
	.cfi_endproc
	.p2align	4
_ic_raw_augmented.recompute.recompute_up:
	.cfi_startproc
	pushq	%r15
	.cfi_def_cfa_offset 16
	pushq	%r14
	.cfi_def_cfa_offset 24
	pushq	%rbx
	.cfi_def_cfa_offset 32
	.cfi_offset %rbx, -32
	.cfi_offset %r14, -24
	.cfi_offset %r15, -16
	movabsq	$68719476728, %rax
	movq	(%rdi), %rbx
	movq	8(%rdi), %r11
	xorl	%r9d, %r9d
	jmp	LBB72_3
	.p2align	4
LBB72_1:
	cmpl	$65, %r9d
	ja	LBB72_24
LBB72_2:
	incl	%r9d
	movq	%r10, %r8
LBB72_3:
	leaq	(%r8,%r8,2), %r10
	movq	-24(%rbx,%r10), %r14
	andq	%rax, %r14
	shlq	$3, %r11
	leaq	-1(%r14), %r15
	cmpq	%r11, %r15
	jae	LBB72_7
	shrq	$3, %r14
	decq	%r14
	cmpq	%rdx, %r14
	jae	LBB72_7
	shlq	$4, %r14
	movq	8(%rsi,%r14), %r14
	jmp	LBB72_8
	.p2align	4
LBB72_7:
	xorl	%r14d, %r14d
LBB72_8:
	movq	-16(%rbx,%r10), %rbx
	andq	%rax, %rbx
	leaq	-1(%rbx), %r15
	cmpq	%r11, %r15
	jae	LBB72_12
	shrq	$3, %rbx
	decq	%rbx
	cmpq	%rdx, %rbx
	jae	LBB72_12
	shlq	$4, %rbx
	movq	8(%rsi,%rbx), %r11
	jmp	LBB72_13
	.p2align	4
LBB72_12:
	xorl	%r11d, %r11d
LBB72_13:
	movq	%r8, %rbx
	shrq	$3, %rbx
	decq	%rbx
	cmpq	%rdx, %rbx
	jae	LBB72_17
	movq	%rbx, %r15
	shlq	$4, %r15
	movq	(%rsi,%r15), %r15
	testb	$1, %cl
	jne	LBB72_18
LBB72_15:
	addq	%r15, %r11
	movq	$-1, %r15
	cmovbq	%r15, %r11
	addq	%r14, %r11
	cmovbq	%r15, %r11
	cmpq	%rdx, %rbx
	jb	LBB72_19
LBB72_16:
	xorl	%ebx, %ebx
	cmpq	%r11, %rbx
	jne	LBB72_20
	jmp	LBB72_24
	.p2align	4
LBB72_17:
	xorl	%r15d, %r15d
	testb	$1, %cl
	je	LBB72_15
LBB72_18:
	cmpq	%r11, %r15
	cmovaq	%r15, %r11
	cmpq	%r11, %r14
	cmovaq	%r14, %r11
	cmpq	%rdx, %rbx
	jae	LBB72_16
LBB72_19:
	shlq	$4, %rbx
	movq	8(%rsi,%rbx), %rbx
	cmpq	%r11, %rbx
	je	LBB72_24
LBB72_20:
	movq	%r11, -8(%rsi,%r8,2)
	movq	(%rdi), %rbx
	movq	8(%rdi), %r11
	movq	-8(%rbx,%r10), %r10
	andq	%rax, %r10
	leaq	(,%r11,8), %r14
	leaq	-1(%r10), %r15
	cmpq	%r14, %r15
	jae	LBB72_24
	leaq	(%r10,%r10,2), %r14
	movq	-24(%rbx,%r14), %r15
	andq	%rax, %r15
	cmpq	%r8, %r15
	je	LBB72_1
	movq	-16(%rbx,%r14), %r14
	andq	%rax, %r14
	cmpq	%r8, %r14
	jne	LBB72_24
	cmpl	$66, %r9d
	jb	LBB72_2
LBB72_24:
	popq	%rbx
	popq	%r14
	popq	%r15
	retq
	.cfi_endproc
	.p2align	4
_ic_raw_augmented.edit_calls.insert_at:
	.cfi_startproc
	pushq	%rbp
	.cfi_def_cfa_offset 16
	pushq	%r15
	.cfi_def_cfa_offset 24
	pushq	%r14
	.cfi_def_cfa_offset 32
	pushq	%r13
	.cfi_def_cfa_offset 40
	pushq	%r12
	.cfi_def_cfa_offset 48
	pushq	%rbx
	.cfi_def_cfa_offset 56
	subq	$184, %rsp
	.cfi_def_cfa_offset 240
	.cfi_offset %rbx, -56
	.cfi_offset %r12, -48
	.cfi_offset %r13, -40
	.cfi_offset %r14, -32
	.cfi_offset %r15, -24
	.cfi_offset %rbp, -16
	movl	$1, %ebp
	cmpq	%rsi, %rcx
	jb	LBB73_14
	movl	%r8d, %ebx
	movq	%rcx, %r14
	movq	%rdx, %r15
	movl	256(%rsp), %eax
	movl	248(%rsp), %edx
	movzbl	240(%rsp), %r10d
	movabsq	$68719476728, %r13
	leal	1(%rax), %r12d
	leaq	(,%r12,8), %r11
	xorl	%eax, %eax
	testl	%r12d, %r12d
	setne	%al
	movq	%r11, 56(%rsp)
	movq	$0, 64(%rsp)
	movq	$0, 72(%rsp)
	movq	$0, 80(%rsp)
	movq	$0, 88(%rsp)
	movq	$0, 96(%rsp)
	movq	$0, 104(%rsp)
	movq	$0, 112(%rsp)
	movq	$0, 120(%rsp)
	movq	$0, 128(%rsp)
	movq	$0, 136(%rsp)
	movq	$0, 144(%rsp)
	movq	$0, 152(%rsp)
	movq	$0, 160(%rsp)
	movq	%rax, 168(%rsp)
	movq	$0, 176(%rsp)
	movq	%rdi, 40(%rsp)
	movq	%rsi, 48(%rsp)
	movq	(%r9), %rax
	andq	%r13, %rax
	movq	%rax, 16(%rsp)
	xorl	%ecx, %ecx
	movl	%edx, %r8d
	movzbl	%r10b, %r10d
	incl	%r8d
	setne	%bpl
	movq	%r14, 32(%rsp)
	movq	%r15, 24(%rsp)
	je	LBB73_2
	cmpq	%r8, %rsi
	jb	LBB73_3
	leaq	(%r8,%r8,2), %rdx
	testb	$1, -24(%rdi,%rdx,8)
	je	LBB73_3
	movq	%r13, %r15
	leaq	(,%rsi,8), %r13
	leaq	-1(%rax), %r14
	cmpq	%r13, %r14
	jae	LBB73_3
	shrq	$3, %rax
	leaq	(%rax,%rax,2), %rax
	testb	$1, -24(%rdi,%rax,8)
	je	LBB73_3
	leaq	(%rdi,%rdx,8), %rax
	testq	%r15, -24(%rax,%r10,8)
	je	LBB73_9
	jmp	LBB73_3
LBB73_2:
	testq	%rax, %rax
	jne	LBB73_3
LBB73_9:
	testq	%r12, %r12
	je	LBB73_3
	cmpq	%r12, %rsi
	jb	LBB73_3
	leaq	(%r12,%r12,2), %rax
	testb	$1, -24(%rdi,%rax,8)
	jne	LBB73_3
	movq	%rsi, %r12
	shlq	$3, %r8
	movq	%rdi, %r13
	leaq	(%rdi,%rax,8), %rax
	movq	$1, -24(%rax)
	movq	$0, -16(%rax)
	movq	$0, -8(%rax)
	movq	%r11, (%rsp)
	movb	%bpl, %cl
	leaq	56(%rsp), %rdi
	leaq	40(%rsp), %rsi
	leaq	16(%rsp), %rdx
	movq	%r9, %r14
	movl	%r10d, %r9d
	callq	_ic_raw_augmented.noting.WrittenSurgery.attach
	movq	16(%rsp), %rax
	movq	%rax, (%r14)
	xorl	%ebp, %ebp
	jmp	LBB73_13
LBB73_3:
	movq	%rdi, %r13
	movq	%rsi, %r12
	leaq	40(%rsp), %rdi
	movl	248(%rsp), %esi
	movl	256(%rsp), %edx
	callq	_ic_raw.table.RawTable.refusal.19bacce014a8892a
	movl	%eax, %ebp
LBB73_13:
	movl	%ebp, (%rsp)
	movzbl	%bl, %r8d
	leaq	56(%rsp), %r9
	movq	%r13, %rdi
	movq	%r12, %rsi
	movq	24(%rsp), %rdx
	movq	32(%rsp), %rcx
	callq	_ic_raw_augmented.edit_calls.settle
LBB73_14:
	movl	%ebp, %eax
	addq	$184, %rsp
	popq	%rbx
	popq	%r12
	popq	%r13
	popq	%r14
	popq	%r15
	popq	%rbp
	retq
	.cfi_endproc
	.p2align	4
_ic_raw_augmented.sum_calls.refusal_of_starts:
	.cfi_startproc
	movq	8(%rdi), %r8
	incl	%ecx
	jne	LBB74_1
LBB74_3:
	movl	$1, %eax
	cmpq	%r8, %rsi
	jb	LBB74_5
	xorl	%eax, %eax
	cmpq	%r8, %rdx
	setae	%al
	leal	1(,%rax,4), %eax
	retq
LBB74_1:
	movl	$1, %eax
	cmpq	%rcx, %r8
	jb	LBB74_5
	movq	(%rdi), %rdi
	leaq	(%rcx,%rcx,2), %rcx
	movl	$3, %eax
	testb	$1, -24(%rdi,%rcx,8)
	jne	LBB74_3
LBB74_5:
	retq
	.cfi_endproc
	.p2align	4
_ic_raw.xor_calls.splice:
	.cfi_startproc
	pushq	%rbp
	.cfi_def_cfa_offset 16
	pushq	%r15
	.cfi_def_cfa_offset 24
	pushq	%r14
	.cfi_def_cfa_offset 32
	pushq	%r13
	.cfi_def_cfa_offset 40
	pushq	%r12
	.cfi_def_cfa_offset 48
	pushq	%rbx
	.cfi_def_cfa_offset 56
	.cfi_offset %rbx, -56
	.cfi_offset %r12, -48
	.cfi_offset %r13, -40
	.cfi_offset %r14, -32
	.cfi_offset %r15, -24
	.cfi_offset %rbp, -16
	movabsq	$68719476728, %r10
	movq	(%rdx), %r12
	andq	%r10, %r12
	movq	(%r9), %rbx
	andq	%r10, %rbx
	setne	%al
	cmpq	%rbx, %r12
	sete	%r11b
	testb	%r11b, %al
	je	LBB75_1
LBB75_39:
	xorl	%eax, %eax
LBB75_40:
	popq	%rbx
	popq	%r12
	popq	%r13
	popq	%r14
	popq	%r15
	popq	%rbp
	retq
LBB75_1:
	movq	64(%rsp), %r15
	movzbl	56(%rsp), %ebp
	movq	8(%rdx), %r11
	andq	%r10, %r11
	movq	8(%r9), %r14
	andq	%r10, %r14
	cmpb	$1, %cl
	jne	LBB75_8
	movq	%r8, %rax
	shrq	$3, %rax
	cmpq	%rsi, %rax
	ja	LBB75_39
	movq	-8(%rdi,%r8), %r13
	testb	$1, %r13b
	je	LBB75_39
	andq	%r10, %r13
	xorl	%eax, %eax
	testb	%bpl, %bpl
	cmovneq	%r15, %rax
	xorq	%r13, %rax
	jne	LBB75_5
	cmpq	%r8, %r12
	jne	LBB75_39
	jmp	LBB75_9
LBB75_8:
	xorl	%eax, %eax
	testb	%bpl, %bpl
	movq	%r15, %r13
	cmoveq	%rax, %r13
	cmpq	%r13, %r12
	jne	LBB75_40
LBB75_9:
	cmpb	$1, %bpl
	jne	LBB75_16
	movq	%r15, %rax
	shrq	$3, %rax
	cmpq	%rsi, %rax
	ja	LBB75_39
	movq	-8(%rdi,%r15), %r13
	testb	$1, %r13b
	je	LBB75_39
	andq	%r10, %r13
	xorl	%eax, %eax
	testb	%cl, %cl
	cmovneq	%r8, %rax
	xorq	%r13, %rax
	jne	LBB75_14
	cmpq	%r15, %r11
	jne	LBB75_39
	jmp	LBB75_17
LBB75_16:
	xorl	%eax, %eax
	testb	%cl, %cl
	movq	%r8, %r13
	cmoveq	%rax, %r13
	cmpq	%r13, %r11
	jne	LBB75_40
LBB75_17:
	testq	%rbx, %rbx
	je	LBB75_38
	movq	%rbx, %rax
	shrq	$3, %rax
	cmpq	%rsi, %rax
	ja	LBB75_39
	movq	-8(%rdi,%rbx), %r13
	testb	$1, %r13b
	je	LBB75_39
	andq	%r10, %r13
	je	LBB75_24
	movq	%r13, %rax
	shrq	$3, %rax
	cmpq	%rsi, %rax
	ja	LBB75_39
	xorl	%eax, %eax
	testq	%r14, %r14
	je	LBB75_40
	movq	-8(%rdi,%r13), %r13
	andl	$1, %r13d
	jne	LBB75_25
	jmp	LBB75_40
LBB75_5:
	movq	%rax, %r13
	shrq	$3, %r13
	cmpq	%rsi, %r13
	ja	LBB75_39
	testb	$1, -8(%rdi,%rax)
	je	LBB75_39
	jmp	LBB75_9
LBB75_38:
	movq	%r12, %rax
	testq	%r14, %r14
	jne	LBB75_39
LBB75_37:
	movq	%rax, (%rdx)
	movq	%r11, 8(%rdx)
	movq	$0, 8(%r9)
	movq	$0, (%r9)
	movb	$1, %al
	jmp	LBB75_40
LBB75_14:
	movq	%rax, %r13
	shrq	$3, %r13
	cmpq	%rsi, %r13
	ja	LBB75_39
	testb	$1, -8(%rdi,%rax)
	je	LBB75_39
	jmp	LBB75_17
LBB75_24:
	cmpq	%rbx, %r14
	jne	LBB75_39
LBB75_25:
	movq	%r14, %rax
	shrq	$3, %rax
	cmpq	%rsi, %rax
	ja	LBB75_39
	movq	-8(%rdi,%r14), %rax
	testb	$1, %al
	je	LBB75_39
	andq	%r10, %rax
	je	LBB75_28
	movq	%rax, %r13
	shrq	$3, %r13
	cmpq	%rsi, %r13
	ja	LBB75_39
	testb	$1, -8(%rdi,%rax)
	je	LBB75_39
	jmp	LBB75_31
LBB75_28:
	cmpq	%r14, %rbx
	jne	LBB75_39
LBB75_31:
	movq	%rbx, %rax
	testb	%cl, %cl
	je	LBB75_33
	movq	-8(%rdi,%r8), %rax
	andq	%r10, %rax
	xorl	%esi, %esi
	testb	%bpl, %bpl
	cmovneq	%r15, %rsi
	xorq	%rbx, %rax
	xorq	%rsi, %rax
	incq	%rax
	movq	%rax, -8(%rdi,%r8)
	movq	%r12, %rax
LBB75_33:
	testb	%bpl, %bpl
	je	LBB75_35
	movq	-8(%rdi,%r15), %rsi
	andq	%r10, %rsi
	xorl	%r12d, %r12d
	testb	%cl, %cl
	cmoveq	%r12, %r8
	movq	%r8, %rcx
	xorq	%r14, %rcx
	xorq	%rsi, %rcx
	incq	%rcx
	movq	%rcx, -8(%rdi,%r15)
	jmp	LBB75_36
LBB75_35:
	xorl	%r15d, %r15d
	testb	%cl, %cl
	cmoveq	%r15, %r8
	movq	%r14, %r11
LBB75_36:
	movq	-8(%rdi,%rbx), %rcx
	andq	%r10, %rcx
	xorq	%r8, %rcx
	incq	%rcx
	movq	%rcx, -8(%rdi,%rbx)
	andq	-8(%rdi,%r14), %r10
	xorq	%r15, %r10
	orq	$1, %r10
	movq	%r10, -8(%rdi,%r14)
	jmp	LBB75_37
	.cfi_endproc
	.p2align	4
_ic_raw.xor_calls.refusal_with_both:
	.cfi_startproc
	incl	%esi
	je	LBB76_4
	movl	$1, %eax
	cmpq	%rsi, 8(%rdi)
	jb	LBB76_3
	movq	(%rdi), %r8
	movl	$3, %eax
	testb	$1, -8(%r8,%rsi,8)
	jne	LBB76_4
LBB76_3:
	retq
LBB76_4:
	movl	%edx, %esi
	movl	%ecx, %edx
	jmp	_ic_raw.table.RawTable.refusal.feecb86c9dd45d96
	.cfi_endproc
	.p2align	4
_ic_raw.xor_calls.pop_front_slow:
	.cfi_startproc
	pushq	%r15
	.cfi_def_cfa_offset 16
	pushq	%r14
	.cfi_def_cfa_offset 24
	pushq	%r13
	.cfi_def_cfa_offset 32
	pushq	%r12
	.cfi_def_cfa_offset 40
	pushq	%rbx
	.cfi_def_cfa_offset 48
	.cfi_offset %rbx, -48
	.cfi_offset %r12, -40
	.cfi_offset %r13, -32
	.cfi_offset %r14, -24
	.cfi_offset %r15, -16
	movabsq	$68719476728, %r11
	movq	(%rdx), %r14
	movq	%r14, %r9
	andq	%r11, %r9
	je	LBB77_1
	movq	%r9, %r8
	shrq	$3, %r8
	movl	$5, %eax
	cmpq	%rsi, %r8
	ja	LBB77_9
	movq	-8(%rdi,%r9), %r10
	testb	$1, %r10b
	je	LBB77_9
	movq	8(%rdx), %rbx
	andq	%r11, %rbx
	andq	%r11, %r10
	je	LBB77_13
	movq	%r10, %r15
	shrq	$3, %r15
	cmpq	%rsi, %r15
	ja	LBB77_9
	movq	-8(%rdi,%r10), %r15
	testb	$1, %r15b
	je	LBB77_9
	movq	%r15, %r12
	andq	%r11, %r12
	xorq	%r9, %r12
	jne	LBB77_10
	cmpq	%r10, %rbx
	jne	LBB77_9
	jmp	LBB77_12
LBB77_1:
	movl	$4, %eax
LBB77_9:
	popq	%rbx
	popq	%r12
	popq	%r13
	popq	%r14
	popq	%r15
	retq
LBB77_13:
	cmpq	%r9, %rbx
	jne	LBB77_9
	xorl	%ebx, %ebx
	jmp	LBB77_15
LBB77_10:
	movq	%r12, %r13
	shrq	$3, %r13
	cmpq	%rsi, %r13
	ja	LBB77_9
	testb	$1, -8(%rdi,%r12)
	je	LBB77_9
LBB77_12:
	xorq	%r14, %r15
	andq	%r11, %r15
	orq	$1, %r15
	movq	%r15, -8(%rdi,%r10)
LBB77_15:
	movq	$0, -8(%rdi,%r9)
	movq	%r10, (%rdx)
	movq	%rbx, 8(%rdx)
	decl	%r8d
	movl	%r8d, (%rcx)
	xorl	%eax, %eax
	jmp	LBB77_9
	.cfi_endproc
	.p2align	4
_ic_raw.xor_calls.put_slow:
	.cfi_startproc
	pushq	%r15
	.cfi_def_cfa_offset 16
	pushq	%r14
	.cfi_def_cfa_offset 24
	pushq	%r13
	.cfi_def_cfa_offset 32
	pushq	%r12
	.cfi_def_cfa_offset 40
	pushq	%rbx
	.cfi_def_cfa_offset 48
	.cfi_offset %rbx, -48
	.cfi_offset %r12, -40
	.cfi_offset %r13, -32
	.cfi_offset %r14, -24
	.cfi_offset %r15, -16
	movabsq	$68719476728, %r11
	movq	%r9, %rax
	andq	%r11, %rax
	movq	(%rdx), %r14
	andq	%r11, %r14
	movq	8(%rdx), %rbx
	andq	%r11, %rbx
	movq	%r8, %r10
	andq	%r11, %r10
	je	LBB78_25
	movq	%r10, %r15
	shrq	$3, %r15
	cmpq	%rsi, %r15
	ja	LBB78_26
	movq	-8(%rdi,%r10), %r15
	testb	$1, %r15b
	je	LBB78_26
	andq	%r11, %r15
	xorq	%rax, %r15
	jne	LBB78_4
	cmpq	%r10, %r14
	je	LBB78_7
	jmp	LBB78_26
LBB78_25:
	cmpq	%rax, %r14
	je	LBB78_7
	jmp	LBB78_26
LBB78_4:
	movq	%r15, %r12
	shrq	$3, %r12
	cmpq	%rsi, %r12
	ja	LBB78_26
	testb	$1, -8(%rdi,%r15)
	je	LBB78_26
LBB78_7:
	leal	1(%rcx), %r15d
	testq	%rax, %rax
	je	LBB78_16
	movq	%rax, %r12
	shrq	$3, %r12
	cmpq	%rsi, %r12
	ja	LBB78_26
	movq	-8(%rdi,%rax), %r12
	testb	$1, %r12b
	je	LBB78_26
	andq	%r11, %r12
	xorq	%r10, %r12
	jne	LBB78_13
	testq	%r15, %r15
	je	LBB78_26
	cmpq	%rax, %rbx
	je	LBB78_18
	jmp	LBB78_26
LBB78_16:
	testq	%r15, %r15
	je	LBB78_26
	cmpq	%r10, %rbx
	je	LBB78_18
	jmp	LBB78_26
LBB78_13:
	movq	%r12, %r13
	shrq	$3, %r13
	cmpq	%rsi, %r13
	ja	LBB78_26
	testq	%r15, %r15
	je	LBB78_26
	movq	-8(%rdi,%r12), %r12
	andl	$1, %r12d
	je	LBB78_26
LBB78_18:
	cmpq	%r15, %rsi
	jb	LBB78_26
	shlq	$3, %r15
	testb	$1, -8(%rdi,%r15)
	jne	LBB78_26
	movq	$1, -8(%rdi,%r15)
	movq	%r15, %rcx
	testq	%r10, %r10
	je	LBB78_22
	xorq	-8(%rdi,%r10), %r9
	andq	%r11, %r9
	xorq	%r15, %r9
	orq	$1, %r9
	movq	%r9, -8(%rdi,%r10)
	movq	%r14, %rcx
LBB78_22:
	movq	%r15, %rsi
	testq	%rax, %rax
	je	LBB78_24
	xorq	-8(%rdi,%rax), %r8
	andq	%r11, %r8
	xorq	%r15, %r8
	orq	$1, %r8
	movq	%r8, -8(%rdi,%rax)
	movq	%rbx, %rsi
LBB78_24:
	xorq	%r10, %rax
	orq	$1, %rax
	movq	%rax, -8(%rdi,%r15)
	movq	%rcx, (%rdx)
	movq	%rsi, 8(%rdx)
	xorl	%eax, %eax
	popq	%rbx
	popq	%r12
	popq	%r13
	popq	%r14
	popq	%r15
	retq
LBB78_26:
	movl	%ecx, %edx
	popq	%rbx
	popq	%r12
	popq	%r13
	popq	%r14
	popq	%r15
	jmp	_ic_raw.table.refusal_at_end.feecb86c9dd45d96
	.cfi_endproc
	.p2align	4
_ic_raw.table.RawTable.refusal_at_both.feecb86c9dd45d96:
	.cfi_startproc
	incl	%edx
	jne	LBB79_1
LBB79_3:
	movl	$5, %eax
	incl	%ecx
	je	LBB79_6
	movl	$1, %eax
	cmpq	%rcx, %rsi
	jb	LBB79_6
	movzbl	-8(%rdi,%rcx,8), %eax
	andl	$1, %eax
	leal	3(,%rax,2), %eax
	retq
LBB79_1:
	movl	$1, %eax
	cmpq	%rdx, %rsi
	jb	LBB79_6
	movl	$3, %eax
	testb	$1, -8(%rdi,%rdx,8)
	jne	LBB79_3
LBB79_6:
	retq
	.cfi_endproc
	.globl	_ic_hash_check
	.p2align	4
_ic_hash_check:
	.cfi_startproc
	pushq	%rbp
	.cfi_def_cfa_offset 16
	pushq	%r15
	.cfi_def_cfa_offset 24
	pushq	%r14
	.cfi_def_cfa_offset 32
	pushq	%r13
	.cfi_def_cfa_offset 40
	pushq	%r12
	.cfi_def_cfa_offset 48
	pushq	%rbx
	.cfi_def_cfa_offset 56
	.cfi_offset %rbx, -56
	.cfi_offset %r12, -48
	.cfi_offset %r13, -40
	.cfi_offset %r14, -32
	.cfi_offset %r15, -24
	.cfi_offset %rbp, -16
	movq	%rdx, %r11
	xorl	%r14d, %r14d
	testq	%rdi, %rdi
	sete	%r15b
	xorl	%edx, %edx
	testq	%r11, %r11
	sete	%bpl
	xorl	%eax, %eax
	testq	%r8, %r8
	sete	%bl
	cmpq	%rsi, %rcx
	setb	%cl
	testq	%r9, %r9
	sete	%r10b
	orb	%cl, %r10b
	movl	$1, %r10d
	je	LBB80_1
LBB80_13:
	movl	%r10d, %eax
	popq	%rbx
	popq	%r12
	popq	%r13
	popq	%r14
	popq	%r15
	popq	%rbp
	retq
LBB80_1:
	movq	56(%rsp), %rcx
	movb	%r15b, %r14b
	shll	$12, %r14d
	addq	%r14, %rdi
	movb	%bpl, %dl
	shll	$12, %edx
	addq	%rdx, %r11
	movb	%bl, %al
	shll	$12, %eax
	addq	%rax, %r8
	movabsq	$68719476728, %rbx
	xorl	%r14d, %r14d
	xorl	%r15d, %r15d
LBB80_2:
	movq	(%r8,%r14,8), %rax
	xorl	%r12d, %r12d
	andq	%rbx, %rax
	je	LBB80_11
	.p2align	4
LBB80_3:
	movl	$5, %r10d
	cmpq	%r12, %rsi
	jbe	LBB80_13
	movq	%rax, %rdx
	shrq	$3, %rdx
	cmpq	%rsi, %rdx
	ja	LBB80_13
	movq	-8(%rdi,%rax), %r13
	testb	$1, %r13b
	je	LBB80_13
	movq	-8(%r11,%rax), %rax
	movq	%rax, %rdx
	orq	%r9, %rdx
	shrq	$32, %rdx
	je	LBB80_7
	xorl	%edx, %edx
	divq	%r9
	cmpq	%r14, %rdx
	je	LBB80_10
	jmp	LBB80_13
	.p2align	4
LBB80_7:
	xorl	%edx, %edx
	divl	%r9d
	cmpq	%r14, %rdx
	jne	LBB80_13
LBB80_10:
	incq	%r12
	andq	%rbx, %r13
	movq	%r13, %rax
	jne	LBB80_3
LBB80_11:
	addq	%r12, %r15
	incq	%r14
	cmpq	%r9, %r14
	jne	LBB80_2
	movq	%r15, (%rcx)
	xorl	%r10d, %r10d
	jmp	LBB80_13
	.cfi_endproc
	.globl	_ic_hash_find
	.p2align	4
_ic_hash_find:
	.cfi_startproc
	pushq	%rbp
	.cfi_def_cfa_offset 16
	pushq	%r15
	.cfi_def_cfa_offset 24
	pushq	%r14
	.cfi_def_cfa_offset 32
	pushq	%rbx
	.cfi_def_cfa_offset 40
	.cfi_offset %rbx, -40
	.cfi_offset %r14, -32
	.cfi_offset %r15, -24
	.cfi_offset %rbp, -16
	xorl	%r11d, %r11d
	testq	%rdi, %rdi
	sete	%bpl
	xorl	%ebx, %ebx
	testq	%rdx, %rdx
	sete	%r14b
	cmpq	%rsi, %rcx
	setb	%al
	testq	%r9, %r9
	sete	%cl
	orb	%al, %cl
	movl	$1, %eax
	jne	LBB81_14
	movq	%rdx, %r10
	movq	40(%rsp), %rax
	movabsq	$68719476728, %rcx
	xorl	%r15d, %r15d
	testq	%r8, %r8
	sete	%r15b
	shll	$12, %r15d
	addq	%r8, %r15
	movq	%rax, %rdx
	orq	%r9, %rdx
	shrq	$32, %rdx
	je	LBB81_2
	xorl	%edx, %edx
	divq	%r9
	jmp	LBB81_4
LBB81_2:
	xorl	%edx, %edx
	divl	%r9d
LBB81_4:
	movq	(%r15,%rdx,8), %rdx
	andq	%rcx, %rdx
	sete	%al
	testq	%rsi, %rsi
	je	LBB81_13
	movb	%bpl, %r11b
	movb	%r14b, %bl
	shll	$12, %r11d
	shll	$12, %ebx
	movq	56(%rsp), %r8
	movq	48(%rsp), %r9
	addq	%r11, %rdi
	addq	%rbx, %r10
	movq	%rsi, %r11
	.p2align	4
LBB81_6:
	testb	$1, %al
	jne	LBB81_7
	movq	%rdx, %rbx
	shrq	$3, %rbx
	movl	$5, %eax
	cmpq	%rsi, %rbx
	ja	LBB81_14
	movq	-8(%rdi,%rdx), %r14
	testb	$1, %r14b
	je	LBB81_14
	cmpq	%r9, -8(%r10,%rdx)
	je	LBB81_11
	andq	%rcx, %r14
	sete	%al
	movq	%r14, %rdx
	decq	%r11
	jne	LBB81_6
LBB81_13:
	movzbl	%al, %eax
	xorl	$5, %eax
	jmp	LBB81_14
LBB81_7:
	movl	$4, %eax
	jmp	LBB81_14
LBB81_11:
	decl	%ebx
	movl	%ebx, (%r8)
	xorl	%eax, %eax
LBB81_14:
	popq	%rbx
	popq	%r14
	popq	%r15
	popq	%rbp
	retq
	.cfi_endproc
	.globl	_ic_hash_insert
	.p2align	4
_ic_hash_insert:
	.cfi_startproc
	xorl	%r11d, %r11d
	testq	%rdi, %rdi
	sete	%al
	testq	%rcx, %rcx
	je	LBB82_1
	movb	%al, %r11b
	shll	$12, %r11d
	xorl	%r10d, %r10d
	testq	%rdx, %rdx
	sete	%r10b
	shll	$12, %r10d
	addq	%rdx, %r10
	movq	%r8, %rax
	orq	%rcx, %rax
	shrq	$32, %rax
	je	LBB82_3
	movq	%r8, %rax
	xorl	%edx, %edx
	divq	%rcx
	jmp	LBB82_5
LBB82_1:
	movl	$1, %eax
	retq
LBB82_3:
	movl	%r8d, %eax
	xorl	%edx, %edx
	divl	%ecx
LBB82_5:
	addq	%r11, %rdi
	leal	1(%r9), %eax
	movabsq	$68719476728, %rcx
	andq	(%r10,%rdx,8), %rcx
	je	LBB82_10
	movq	%rcx, %r8
	shrq	$3, %r8
	cmpq	%rsi, %r8
	ja	LBB82_9
	testq	%rax, %rax
	je	LBB82_9
	movq	-8(%rdi,%rcx), %r8
	andl	$1, %r8d
	jne	LBB82_11
	jmp	LBB82_9
LBB82_10:
	testq	%rax, %rax
	je	LBB82_9
LBB82_11:
	cmpq	%rax, %rsi
	jb	LBB82_9
	shlq	$3, %rax
	testb	$1, -8(%rdi,%rax)
	jne	LBB82_9
	orq	$1, %rcx
	movq	%rcx, -8(%rdi,%rax)
	movq	%rax, (%r10,%rdx,8)
	xorl	%eax, %eax
	retq
LBB82_9:
	movl	%r9d, %edx
	jmp	_ic_raw.table.refusal_at_end.feecb86c9dd45d96
	.cfi_endproc
	.globl	_ic_hash_move_chain
	.p2align	4
_ic_hash_move_chain:
	.cfi_startproc
	pushq	%rbp
	.cfi_def_cfa_offset 16
	pushq	%r15
	.cfi_def_cfa_offset 24
	pushq	%r14
	.cfi_def_cfa_offset 32
	pushq	%r13
	.cfi_def_cfa_offset 40
	pushq	%r12
	.cfi_def_cfa_offset 48
	pushq	%rbx
	.cfi_def_cfa_offset 56
	.cfi_offset %rbx, -56
	.cfi_offset %r12, -48
	.cfi_offset %r13, -40
	.cfi_offset %r14, -32
	.cfi_offset %r15, -24
	.cfi_offset %rbp, -16
	movq	%rdx, %r11
	movq	56(%rsp), %rbx
	xorl	%r14d, %r14d
	testq	%rdi, %rdi
	sete	%r12b
	xorl	%edx, %edx
	testq	%r11, %r11
	sete	%r15b
	xorl	%eax, %eax
	testq	%r9, %r9
	sete	%bpl
	cmpq	%rsi, %rcx
	setb	%cl
	testq	%rbx, %rbx
	sete	%r10b
	orb	%cl, %r10b
	movl	$1, %r10d
	jne	LBB83_26
	movb	%r12b, %r14b
	shll	$12, %r14d
	addq	%r14, %rdi
	movb	%r15b, %dl
	shll	$12, %edx
	addq	%rdx, %r11
	movb	%bpl, %al
	shll	$12, %eax
	addq	%rax, %r9
	movabsq	$68719476728, %rcx
	movq	(%r8), %r14
	andq	%rcx, %r14
	sete	%al
	testq	%rsi, %rsi
	sete	%dl
	movl	%edx, %r10d
	orb	%al, %r10b
	je	LBB83_2
LBB83_13:
	xorb	$1, %dl
	orb	%al, %dl
	movl	$5, %r10d
	cmpb	$1, %dl
	jne	LBB83_26
	testq	%r14, %r14
	sete	%al
	testq	%rsi, %rsi
	sete	%dl
	orb	%al, %dl
	jne	LBB83_25
	movq	-8(%rdi,%r14), %rax
	andq	%rcx, %rax
	movq	$1, -8(%rdi,%r14)
	movq	%rsi, %r10
	decq	%r10
	je	LBB83_20
	testq	%rax, %rax
	je	LBB83_20
	addq	$-2, %rsi
	.p2align	4
LBB83_18:
	movq	%r14, %rdx
	movq	%rax, %r14
	movq	-8(%rdi,%rax), %rax
	andq	%rcx, %rax
	orq	$1, %rdx
	movq	%rdx, -8(%rdi,%r14)
	addq	$-1, %rsi
	jae	LBB83_20
	testq	%rax, %rax
	jne	LBB83_18
	jmp	LBB83_20
	.p2align	4
LBB83_24:
	movq	%rax, %r14
	testq	%rax, %rax
	je	LBB83_25
LBB83_20:
	movq	-8(%r11,%r14), %rax
	movq	%rax, %rdx
	orq	%rbx, %rdx
	shrq	$32, %rdx
	je	LBB83_21
	xorl	%edx, %edx
	divq	%rbx
	jmp	LBB83_23
	.p2align	4
LBB83_21:
	xorl	%edx, %edx
	divl	%ebx
LBB83_23:
	movq	(%r9,%rdx,8), %rsi
	andq	%rcx, %rsi
	movq	-8(%rdi,%r14), %rax
	andq	%rcx, %rax
	orq	$1, %rsi
	movq	%rsi, -8(%rdi,%r14)
	movq	%r14, (%r9,%rdx,8)
	addq	$-1, %r10
	jb	LBB83_24
LBB83_25:
	movq	$0, (%r8)
	xorl	%r10d, %r10d
LBB83_26:
	movl	%r10d, %eax
	popq	%rbx
	popq	%r12
	popq	%r13
	popq	%r14
	popq	%r15
	popq	%rbp
	retq
LBB83_2:
	movl	$1, %r15d
	movq	%r14, %r13
	.p2align	4
LBB83_3:
	movq	%r13, %rax
	shrq	$3, %rax
	movl	$5, %r10d
	cmpq	%rsi, %rax
	ja	LBB83_26
	movq	-8(%rdi,%r13), %r12
	testb	$1, %r12b
	je	LBB83_26
	movq	-8(%r11,%r13), %rax
	movq	%rax, %rdx
	orq	%rbx, %rdx
	shrq	$32, %rdx
	je	LBB83_6
	xorl	%edx, %edx
	divq	%rbx
	movq	(%r9,%rdx,8), %rax
	andq	%rcx, %rax
	jne	LBB83_9
	jmp	LBB83_11
	.p2align	4
LBB83_6:
	xorl	%edx, %edx
	divl	%ebx
	movq	(%r9,%rdx,8), %rax
	andq	%rcx, %rax
	je	LBB83_11
LBB83_9:
	movq	%rax, %rdx
	shrq	$3, %rdx
	cmpq	%rsi, %rdx
	ja	LBB83_26
	testb	$1, -8(%rdi,%rax)
	je	LBB83_26
LBB83_11:
	andq	%rcx, %r12
	sete	%al
	cmpq	%r15, %rsi
	sete	%dl
	je	LBB83_13
	incq	%r15
	movq	%r12, %r13
	testq	%r12, %r12
	jne	LBB83_3
	jmp	LBB83_13
	.cfi_endproc
	.globl	_ic_hash_next_equal
	.p2align	4
_ic_hash_next_equal:
	.cfi_startproc
	pushq	%rbp
	.cfi_def_cfa_offset 16
	pushq	%r14
	.cfi_def_cfa_offset 24
	pushq	%rbx
	.cfi_def_cfa_offset 32
	.cfi_offset %rbx, -32
	.cfi_offset %r14, -24
	.cfi_offset %rbp, -16
	xorl	%r14d, %r14d
	testq	%rdi, %rdi
	sete	%bpl
	xorl	%r11d, %r11d
	testq	%rdx, %rdx
	sete	%bl
	leal	1(%r8), %r10d
	incl	%r8d
	jne	LBB84_2
	movl	$4, %eax
LBB84_14:
	popq	%rbx
	popq	%r14
	popq	%rbp
	retq
LBB84_2:
	movl	$1, %eax
	cmpq	%rsi, %rcx
	jb	LBB84_14
	movb	%bpl, %r14b
	shll	$12, %r14d
	addq	%r14, %rdi
	cmpq	%r10, %rsi
	jb	LBB84_15
	movq	-8(%rdi,%r10,8), %rcx
	testb	$1, %cl
	je	LBB84_15
	movb	%bl, %r11b
	shll	$12, %r11d
	addq	%r11, %rdx
	movabsq	$68719476728, %r8
	movq	-8(%rdx,%r10,8), %r10
	andq	%r8, %rcx
	sete	%al
	movq	%rsi, %r11
	.p2align	4
LBB84_6:
	testb	$1, %al
	jne	LBB84_7
	movq	%rcx, %r14
	shrq	$3, %r14
	movl	$5, %eax
	cmpq	%rsi, %r14
	ja	LBB84_14
	movq	-8(%rdi,%rcx), %rbx
	testb	$1, %bl
	je	LBB84_14
	cmpq	%r10, -8(%rdx,%rcx)
	je	LBB84_11
	andq	%r8, %rbx
	sete	%al
	movq	%rbx, %rcx
	decq	%r11
	jne	LBB84_6
	cmpq	$1, %rbx
	movl	$5, %eax
	sbbl	$0, %eax
	popq	%rbx
	popq	%r14
	popq	%rbp
	retq
LBB84_7:
	movl	$4, %eax
	popq	%rbx
	popq	%r14
	popq	%rbp
	retq
LBB84_11:
	decl	%r14d
	movl	%r14d, (%r9)
	xorl	%eax, %eax
	popq	%rbx
	popq	%r14
	popq	%rbp
	retq
LBB84_15:
	shlq	$3, %r10
	movq	%r10, %rdx
	popq	%rbx
	popq	%r14
	popq	%rbp
	jmp	_ic_raw.table.RawTable.refusal_of.feecb86c9dd45d96
	.cfi_endproc
	.globl	_ic_hash_remove
	.p2align	4
_ic_hash_remove:
	.cfi_startproc
	pushq	%rbp
	.cfi_def_cfa_offset 16
	pushq	%r14
	.cfi_def_cfa_offset 24
	pushq	%rbx
	.cfi_def_cfa_offset 32
	.cfi_offset %rbx, -32
	.cfi_offset %r14, -24
	.cfi_offset %rbp, -16
	xorl	%r14d, %r14d
	testq	%rdi, %rdi
	sete	%bpl
	xorl	%r11d, %r11d
	testq	%rdx, %rdx
	sete	%bl
	leal	1(%r9), %r10d
	movl	$4, %eax
	incl	%r9d
	je	LBB85_22
	testq	%rcx, %rcx
	je	LBB85_2
	movq	%rdx, %r9
	movb	%bpl, %r14b
	shll	$12, %r14d
	movq	%r8, %rax
	orq	%rcx, %rax
	shrq	$32, %rax
	je	LBB85_4
	movq	%r8, %rax
	xorl	%edx, %edx
	divq	%rcx
	addq	%r14, %rdi
	shlq	$3, %r10
	testq	%rsi, %rsi
	jne	LBB85_7
	jmp	LBB85_18
LBB85_2:
	movl	$1, %eax
LBB85_22:
	popq	%rbx
	popq	%r14
	popq	%rbp
	retq
LBB85_4:
	movl	%r8d, %eax
	xorl	%edx, %edx
	divl	%ecx
	addq	%r14, %rdi
	shlq	$3, %r10
	testq	%rsi, %rsi
	je	LBB85_18
LBB85_7:
	movq	%r9, %rax
	movb	%bl, %r11b
	shll	$12, %r11d
	addq	%r11, %rax
	movabsq	$68719476728, %r8
	movq	(%rax,%rdx,8), %rcx
	andq	%r8, %rcx
	je	LBB85_18
	movq	%rcx, %r9
	shrq	$3, %r9
	cmpq	%rsi, %r9
	ja	LBB85_18
	movq	-8(%rdi,%rcx), %r9
	testb	$1, %r9b
	je	LBB85_18
	cmpq	%r10, %rcx
	jne	LBB85_11
	leaq	(%rdi,%r10), %rsi
	addq	$-8, %rsi
	andq	-8(%rdi,%r10), %r8
	movq	%r8, %rcx
	jmp	LBB85_21
LBB85_11:
	cmpq	$1, %rsi
	je	LBB85_18
	movl	$1, %r11d
	movq	%rcx, %rbx
	.p2align	4
LBB85_13:
	movq	%r9, %r14
	andq	%r8, %r14
	je	LBB85_18
	movq	%r14, %r9
	shrq	$3, %r9
	cmpq	%rsi, %r9
	ja	LBB85_18
	movq	-8(%rdi,%r14), %r9
	testb	$1, %r9b
	je	LBB85_18
	cmpq	%r10, %r14
	je	LBB85_19
	incq	%r11
	movq	%r14, %rbx
	cmpq	%r11, %rsi
	jne	LBB85_13
LBB85_18:
	movq	%r10, %rdx
	popq	%rbx
	popq	%r14
	popq	%rbp
	jmp	_ic_raw.table.RawTable.refusal_of.feecb86c9dd45d96
LBB85_19:
	leaq	(%rdi,%r10), %rsi
	addq	$-8, %rsi
	andq	-8(%rdi,%r10), %r8
	orq	$1, %r8
	movq	%r8, -8(%rdi,%rbx)
LBB85_21:
	movq	$0, (%rsi)
	movq	%rcx, (%rax,%rdx,8)
	xorl	%eax, %eax
	popq	%rbx
	popq	%r14
	popq	%rbp
	retq
	.cfi_endproc
	.globl	_ic_list32_append
	.p2align	4
_ic_list32_append:
	.cfi_startproc
	movq	%rcx, %r8
	movq	%rdi, %rax
	xorl	%edi, %edi
	testq	%rax, %rax
	sete	%dil
	shll	$12, %edi
	addq	%rax, %rdi
	movabsq	$68719476728, %rax
	movq	8(%rdx), %rcx
	andq	%rax, %rcx
	je	LBB86_12
	movq	%rcx, %r9
	shrq	$3, %r9
	cmpq	$536870911, %rsi
	movl	$536870911, %r10d
	cmovbq	%rsi, %r10
	cmpq	%r10, %r9
	ja	LBB86_12
	movq	(%r8), %r9
	andq	%rax, %r9
	je	LBB86_12
	cmpl	$1, -8(%rdi,%rcx)
	jne	LBB86_12
	movq	%r9, %r11
	shrq	$3, %r11
	cmpq	%r10, %r11
	ja	LBB86_12
	cmpl	$0, -4(%rdi,%r9)
	jne	LBB86_12
	movq	8(%r8), %r11
	andq	%rax, %r11
	je	LBB86_12
	testb	$1, -8(%rdi,%r9)
	je	LBB86_12
	pushq	%rbx
	.cfi_def_cfa_offset 16
	.cfi_offset %rbx, -16
	movq	%r11, %rbx
	shrq	$3, %rbx
	cmpq	%r10, %rbx
	popq	%rbx
	ja	LBB86_12
	andq	(%rdx), %rax
	cmpq	%r9, %rax
	je	LBB86_12
	cmpl	$1, -8(%rdi,%r11)
	jne	LBB86_12
	movl	%r9d, %esi
	orl	$1, %esi
	movl	%esi, -8(%rdi,%rcx)
	movl	%ecx, -4(%rdi,%r9)
	movl	$1, -8(%rdi,%r11)
	movq	%rax, (%rdx)
	movq	%r11, 8(%rdx)
	movq	$0, 8(%r8)
	movq	$0, (%r8)
	xorl	%eax, %eax
	retq
LBB86_12:
	movl	$-1, %ecx
	movl	$1, %r9d
	jmp	_ic_raw.list_calls.splice_slow.55ebd757a04f39fd
	.cfi_endproc
	.globl	_ic_list32_check
	.p2align	4
_ic_list32_check:
	.cfi_startproc
	pushq	%rbx
	.cfi_def_cfa_offset 16
	.cfi_offset %rbx, -16
	xorl	%eax, %eax
	testq	%rdi, %rdi
	sete	%r10b
	movabsq	$68719476728, %r9
	movq	8(%rdx), %r8
	andq	%r9, %r8
	andq	(%rdx), %r9
	je	LBB87_1
	movb	%r10b, %al
	shll	$12, %eax
	addq	%rax, %rdi
	cmpq	$536870911, %rsi
	movl	$536870911, %r10d
	cmovbq	%rsi, %r10
	xorl	%r11d, %r11d
	xorl	%edx, %edx
	.p2align	4
LBB87_3:
	movl	$5, %eax
	cmpq	%rdx, %r10
	je	LBB87_10
	movq	%r9, %rsi
	shrq	$3, %r9
	cmpq	%r10, %r9
	ja	LBB87_10
	movl	-8(%rdi,%rsi), %r9d
	testb	$1, %r9b
	je	LBB87_10
	movl	-4(%rdi,%rsi), %ebx
	andl	$-8, %ebx
	cmpq	%rbx, %r11
	jne	LBB87_10
	incq	%rdx
	movl	$4294967288, %eax
	movq	%rsi, %r11
	andq	%rax, %r9
	jne	LBB87_3
	movl	$5, %eax
	cmpq	%rsi, %r8
	jne	LBB87_10
LBB87_9:
	movq	%rdx, (%rcx)
	xorl	%eax, %eax
LBB87_10:
	popq	%rbx
	retq
LBB87_1:
	xorl	%edx, %edx
	xorl	%esi, %esi
	movl	$5, %eax
	cmpq	%rsi, %r8
	je	LBB87_9
	jmp	LBB87_10
	.cfi_endproc
	.globl	_ic_list32_clear
	.p2align	4
_ic_list32_clear:
	.cfi_startproc
	pushq	%r14
	.cfi_def_cfa_offset 16
	pushq	%rbx
	.cfi_def_cfa_offset 24
	.cfi_offset %rbx, -24
	.cfi_offset %r14, -16
	xorl	%r10d, %r10d
	testq	%rdi, %rdi
	sete	%r11b
	movabsq	$68719476728, %rcx
	movq	8(%rdx), %r8
	andq	%rcx, %r8
	andq	(%rdx), %rcx
	je	LBB88_3
	cmpq	$536870911, %rsi
	movl	$536870911, %r9d
	cmovbq	%rsi, %r9
	movl	$5, %eax
	testq	%rsi, %rsi
	je	LBB88_12
	movb	%r11b, %r10b
	shll	$12, %r10d
	addq	%r10, %rdi
	xorl	%r11d, %r11d
	movq	%rcx, %rsi
	movq	%r9, %r10
	.p2align	4
LBB88_5:
	movq	%rsi, %rbx
	shrq	$3, %rbx
	cmpq	%r9, %rbx
	ja	LBB88_12
	movl	-8(%rdi,%rsi), %ebx
	testb	$1, %bl
	je	LBB88_12
	movl	-4(%rdi,%rsi), %r14d
	andl	$-8, %r14d
	cmpq	%r14, %r11
	jne	LBB88_12
	movl	$4294967288, %r11d
	andq	%r11, %rbx
	je	LBB88_9
	movq	%rsi, %r11
	movq	%rbx, %rsi
	decq	%r10
	jne	LBB88_5
LBB88_12:
	popq	%rbx
	popq	%r14
	retq
LBB88_3:
	movl	$5, %eax
	testq	%r8, %r8
	jne	LBB88_12
	jmp	LBB88_11
LBB88_9:
	cmpq	%rsi, %r8
	jne	LBB88_12
	.p2align	4
LBB88_10:
	movl	-8(%rdi,%rcx), %eax
	movl	$0, -8(%rdi,%rcx)
	movl	$4294967288, %ecx
	andq	%rax, %rcx
	jne	LBB88_10
LBB88_11:
	movq	$0, 8(%rdx)
	movq	$0, (%rdx)
	xorl	%eax, %eax
	popq	%rbx
	popq	%r14
	retq
	.cfi_endproc
	.globl	_ic_list32_insert_after
	.p2align	4
_ic_list32_insert_after:
	.cfi_startproc
	pushq	%rbp
	.cfi_def_cfa_offset 16
	pushq	%r15
	.cfi_def_cfa_offset 24
	pushq	%r14
	.cfi_def_cfa_offset 32
	pushq	%r12
	.cfi_def_cfa_offset 40
	pushq	%rbx
	.cfi_def_cfa_offset 48
	.cfi_offset %rbx, -48
	.cfi_offset %r12, -40
	.cfi_offset %r14, -32
	.cfi_offset %r15, -24
	.cfi_offset %rbp, -16
	movq	%rdi, %rax
	xorl	%edi, %edi
	testq	%rax, %rax
	sete	%dil
	shll	$12, %edi
	addq	%rax, %rdi
	movabsq	$68719476728, %rax
	movq	(%rdx), %r10
	andq	%rax, %r10
	andq	8(%rdx), %rax
	leal	1(%rcx), %r11d
	leaq	(,%r11,8), %r9
	movl	%ecx, %ebx
	incl	%ebx
	jne	LBB89_1
	testq	%r10, %r10
	je	LBB89_7
	cmpq	$536870911, %rsi
	movl	$536870911, %r14d
	cmovbq	%rsi, %r14
	movq	%r10, %rbx
	jmp	LBB89_9
LBB89_1:
	cmpq	$536870911, %rsi
	movl	$536870911, %r14d
	cmovbq	%rsi, %r14
	cmpq	%r11, %r14
	jb	LBB89_21
	movl	-8(%rdi,%r9), %ebx
	testb	$1, %bl
	je	LBB89_21
	movl	$4294967288, %r15d
	andq	%r15, %rbx
	je	LBB89_4
LBB89_9:
	movq	%rbx, %r15
	shrq	$3, %r15
	cmpq	%r14, %r15
	ja	LBB89_21
	testb	$1, -8(%rdi,%rbx)
	je	LBB89_21
	movl	-4(%rdi,%rbx), %r15d
	andl	$-8, %r15d
	movb	$1, %r14b
	xorl	%ebp, %ebp
	cmpq	%r9, %r15
	je	LBB89_13
	jmp	LBB89_21
LBB89_7:
	movb	$1, %bpl
	xorl	%r14d, %r14d
	jmp	LBB89_5
LBB89_4:
	xorl	%r14d, %r14d
	movb	$1, %bpl
LBB89_5:
	xorl	%ebx, %ebx
	movq	%rax, %r15
	cmpq	%r9, %r15
	jne	LBB89_21
LBB89_13:
	leal	1(%r8), %r15d
	cmpq	$536870911, %rsi
	movl	$536870911, %r12d
	cmovbq	%rsi, %r12
	testq	%r15, %r15
	je	LBB89_21
	cmpq	%r15, %r12
	jb	LBB89_21
	shlq	$3, %r15
	testb	$1, -8(%rdi,%r15)
	jne	LBB89_21
	movq	%r15, %rcx
	testq	%r11, %r11
	je	LBB89_18
	movl	%r15d, %ecx
	orl	$1, %ecx
	movl	%ecx, -8(%rdi,%r9)
	movq	%r10, %rcx
LBB89_18:
	movq	%r15, %rsi
	testb	%r14b, %r14b
	je	LBB89_20
	movl	%r15d, -4(%rdi,%rbx)
	movq	%rax, %rsi
LBB89_20:
	movl	%r9d, -4(%rdi,%r15)
	orl	$1, %ebx
	testb	%bpl, %bpl
	movl	$1, %eax
	cmovel	%ebx, %eax
	movl	%eax, -8(%rdi,%r15)
	movq	%rcx, (%rdx)
	movq	%rsi, 8(%rdx)
	xorl	%eax, %eax
	popq	%rbx
	popq	%r12
	popq	%r14
	popq	%r15
	popq	%rbp
	retq
LBB89_21:
	movl	%ecx, %edx
	movl	%r8d, %ecx
	popq	%rbx
	popq	%r12
	popq	%r14
	popq	%r15
	popq	%rbp
	jmp	_ic_raw.table.RawTable.refusal.05a19227735374d3
	.cfi_endproc
	.globl	_ic_list32_insert_before
	.p2align	4
_ic_list32_insert_before:
	.cfi_startproc
	pushq	%rbp
	.cfi_def_cfa_offset 16
	pushq	%r15
	.cfi_def_cfa_offset 24
	pushq	%r14
	.cfi_def_cfa_offset 32
	pushq	%rbx
	.cfi_def_cfa_offset 40
	.cfi_offset %rbx, -40
	.cfi_offset %r14, -32
	.cfi_offset %r15, -24
	.cfi_offset %rbp, -16
	movq	%rdi, %rax
	xorl	%edi, %edi
	testq	%rax, %rax
	sete	%dil
	shll	$12, %edi
	addq	%rax, %rdi
	movabsq	$68719476728, %r9
	movq	(%rdx), %r11
	andq	%r9, %r11
	andq	8(%rdx), %r9
	leal	1(%rcx), %eax
	leaq	(,%rax,8), %r10
	movl	%ecx, %ebx
	incl	%ebx
	jne	LBB90_1
	testq	%r9, %r9
	je	LBB90_4
	cmpq	$536870911, %rsi
	movl	$536870911, %r14d
	cmovbq	%rsi, %r14
	movq	%r9, %rbx
	jmp	LBB90_8
LBB90_1:
	cmpq	$536870911, %rsi
	movl	$536870911, %r14d
	cmovbq	%rsi, %r14
	cmpq	%rax, %r14
	jb	LBB90_19
	testb	$1, -8(%rdi,%r10)
	je	LBB90_19
	movl	-4(%rdi,%r10), %r15d
	movl	$4294967288, %ebx
	andq	%r15, %rbx
	je	LBB90_4
LBB90_8:
	movq	%rbx, %r15
	shrq	$3, %r15
	cmpq	%r14, %r15
	ja	LBB90_19
	movl	-8(%rdi,%rbx), %r14d
	andl	$-7, %r14d
	movq	%r10, %r15
	orq	$1, %r15
	cmpq	%r14, %r15
	jne	LBB90_19
	xorl	%ebp, %ebp
	jmp	LBB90_11
LBB90_4:
	cmpq	%r10, %r11
	jne	LBB90_19
	movb	$1, %bpl
	xorl	%ebx, %ebx
	movq	%r11, %r10
LBB90_11:
	leal	1(%r8), %r14d
	cmpq	$536870911, %rsi
	movl	$536870911, %r15d
	cmovbq	%rsi, %r15
	testq	%r14, %r14
	je	LBB90_19
	cmpq	%r14, %r15
	jb	LBB90_19
	shlq	$3, %r14
	testb	$1, -8(%rdi,%r14)
	jne	LBB90_19
	movq	%r14, %rcx
	testb	%bpl, %bpl
	jne	LBB90_16
	movl	%r14d, %ecx
	orl	$1, %ecx
	movl	%ecx, -8(%rdi,%rbx)
	movq	%r11, %rcx
LBB90_16:
	movq	%r14, %rsi
	testq	%rax, %rax
	je	LBB90_18
	movl	%r14d, -4(%rdi,%r10)
	movq	%r9, %rsi
LBB90_18:
	xorl	%r8d, %r8d
	testb	%bpl, %bpl
	cmovel	%ebx, %r8d
	orl	$1, %r10d
	testq	%rax, %rax
	movl	%r8d, -4(%rdi,%r14)
	movl	$1, %eax
	cmovnel	%r10d, %eax
	movl	%eax, -8(%rdi,%r14)
	movq	%rcx, (%rdx)
	movq	%rsi, 8(%rdx)
	xorl	%eax, %eax
	popq	%rbx
	popq	%r14
	popq	%r15
	popq	%rbp
	retq
LBB90_19:
	movl	%ecx, %edx
	movl	%r8d, %ecx
	popq	%rbx
	popq	%r14
	popq	%r15
	popq	%rbp
	jmp	_ic_raw.table.RawTable.refusal.05a19227735374d3
	.cfi_endproc
	.globl	_ic_list32_move_after
	.p2align	4
_ic_list32_move_after:
	.cfi_startproc
	pushq	%r15
	.cfi_def_cfa_offset 16
	pushq	%r14
	.cfi_def_cfa_offset 24
	pushq	%rbx
	.cfi_def_cfa_offset 32
	.cfi_offset %rbx, -32
	.cfi_offset %r14, -24
	.cfi_offset %r15, -16
	movl	%r8d, %r9d
	movl	%ecx, %r8d
	xorl	%r10d, %r10d
	testq	%rdi, %rdi
	sete	%r11b
	leal	1(%r9), %ecx
	movl	%r9d, %ebx
	movl	$4, %eax
	incl	%ebx
	je	LBB91_20
	movb	%r11b, %r10b
	shll	$12, %r10d
	addq	%r10, %rdi
	cmpq	$536870911, %rsi
	movl	$536870911, %eax
	cmovbq	%rsi, %rax
	cmpq	%rcx, %rax
	jb	LBB91_21
	shlq	$3, %rcx
	movl	-8(%rdi,%rcx), %r10d
	testb	$1, %r10b
	je	LBB91_21
	movl	-4(%rdi,%rcx), %r11d
	andl	$-8, %r11d
	je	LBB91_21
	andl	$-8, %r10d
	je	LBB91_21
	movl	%r11d, %ebx
	shrl	$3, %ebx
	cmpq	%rax, %rbx
	ja	LBB91_21
	movl	-8(%rdi,%r11), %ebx
	movq	%rcx, %r14
	orq	$1, %r14
	cmpq	%rbx, %r14
	jne	LBB91_21
	movl	%r10d, %ebx
	shrl	$3, %ebx
	cmpq	%rax, %rbx
	ja	LBB91_21
	movl	-4(%rdi,%r10), %ebx
	cmpq	%rbx, %rcx
	jne	LBB91_21
	leal	1(%r8), %ebx
	testq	%rbx, %rbx
	je	LBB91_21
	testb	$1, -8(%rdi,%r10)
	je	LBB91_21
	cmpq	%rbx, %rax
	jb	LBB91_21
	shlq	$3, %rbx
	movl	-8(%rdi,%rbx), %r14d
	testb	$1, %r14b
	je	LBB91_21
	andl	$-8, %r14d
	je	LBB91_21
	movl	%r14d, %r15d
	shrl	$3, %r15d
	cmpq	%rax, %r15
	ja	LBB91_21
	movl	-4(%rdi,%r14), %eax
	cmpq	%rax, %rbx
	jne	LBB91_21
	testb	$1, -8(%rdi,%r14)
	je	LBB91_21
	xorl	%eax, %eax
	cmpq	%rcx, %rbx
	je	LBB91_20
	cmpq	%r14, %rcx
	je	LBB91_20
	movabsq	$68719476728, %rsi
	movq	(%rdx), %r8
	andq	%rsi, %r8
	andq	8(%rdx), %rsi
	movl	%r10d, %r9d
	orl	$1, %r9d
	movl	%r9d, -8(%rdi,%r11)
	movl	%r11d, -4(%rdi,%r10)
	movl	%ecx, %r9d
	orl	$1, %r9d
	movl	%r9d, -8(%rdi,%rbx)
	movl	%ecx, -4(%rdi,%r14)
	movl	%ebx, -4(%rdi,%rcx)
	orl	$1, %r14d
	movl	%r14d, -8(%rdi,%rcx)
	movq	%r8, (%rdx)
	movq	%rsi, 8(%rdx)
LBB91_20:
	popq	%rbx
	popq	%r14
	popq	%r15
	retq
LBB91_21:
	xorl	%ecx, %ecx
	popq	%rbx
	popq	%r14
	popq	%r15
	jmp	_ic_raw.move_calls.move_slow.55ebd757a04f39fd
	.cfi_endproc
	.globl	_ic_list32_move_before
	.p2align	4
_ic_list32_move_before:
	.cfi_startproc
	pushq	%r15
	.cfi_def_cfa_offset 16
	pushq	%r14
	.cfi_def_cfa_offset 24
	pushq	%rbx
	.cfi_def_cfa_offset 32
	.cfi_offset %rbx, -32
	.cfi_offset %r14, -24
	.cfi_offset %r15, -16
	movl	%r8d, %r9d
	movl	%ecx, %r8d
	xorl	%r10d, %r10d
	testq	%rdi, %rdi
	sete	%r11b
	leal	1(%r9), %ecx
	movl	%r9d, %ebx
	movl	$4, %eax
	incl	%ebx
	je	LBB92_18
	movb	%r11b, %r10b
	shll	$12, %r10d
	addq	%r10, %rdi
	cmpq	$536870911, %rsi
	movl	$536870911, %eax
	cmovbq	%rsi, %rax
	cmpq	%rcx, %rax
	jb	LBB92_19
	shlq	$3, %rcx
	movl	-8(%rdi,%rcx), %r10d
	testb	$1, %r10b
	je	LBB92_19
	movl	-4(%rdi,%rcx), %r11d
	andl	$-8, %r11d
	je	LBB92_19
	andl	$-8, %r10d
	je	LBB92_19
	movl	%r11d, %ebx
	shrl	$3, %ebx
	cmpq	%rax, %rbx
	ja	LBB92_19
	movl	-8(%rdi,%r11), %ebx
	movq	%rcx, %r14
	orq	$1, %r14
	cmpq	%rbx, %r14
	jne	LBB92_19
	movl	%r10d, %ebx
	shrl	$3, %ebx
	cmpq	%rax, %rbx
	ja	LBB92_19
	movl	-4(%rdi,%r10), %ebx
	cmpq	%rbx, %rcx
	jne	LBB92_19
	leal	1(%r8), %ebx
	testq	%rbx, %rbx
	je	LBB92_19
	testb	$1, -8(%rdi,%r10)
	je	LBB92_19
	cmpq	%rbx, %rax
	jb	LBB92_19
	shlq	$3, %rbx
	testb	$1, -8(%rdi,%rbx)
	je	LBB92_19
	movl	-4(%rdi,%rbx), %r14d
	andl	$-8, %r14d
	je	LBB92_19
	movl	%r14d, %r15d
	shrl	$3, %r15d
	cmpq	%rax, %r15
	ja	LBB92_19
	movl	-8(%rdi,%r14), %eax
	movq	%rbx, %r15
	orq	$1, %r15
	cmpq	%rax, %r15
	jne	LBB92_19
	cmpq	%r14, %rcx
	setne	%sil
	cmpq	%rcx, %rbx
	setne	%r8b
	xorl	%eax, %eax
	testb	%r8b, %sil
	je	LBB92_18
	movabsq	$68719476728, %rsi
	movq	(%rdx), %r8
	andq	%rsi, %r8
	andq	8(%rdx), %rsi
	movl	%r10d, %r9d
	orl	$1, %r9d
	movl	%r9d, -8(%rdi,%r11)
	movl	%r11d, -4(%rdi,%r10)
	movl	%ecx, %r9d
	orl	$1, %r9d
	movl	%r9d, -8(%rdi,%r14)
	movl	%ecx, -4(%rdi,%rbx)
	movl	%r14d, -4(%rdi,%rcx)
	orl	$1, %ebx
	movl	%ebx, -8(%rdi,%rcx)
	movq	%r8, (%rdx)
	movq	%rsi, 8(%rdx)
LBB92_18:
	popq	%rbx
	popq	%r14
	popq	%r15
	retq
LBB92_19:
	movl	$1, %ecx
	popq	%rbx
	popq	%r14
	popq	%r15
	jmp	_ic_raw.move_calls.move_slow.55ebd757a04f39fd
	.cfi_endproc
	.globl	_ic_list32_move_to_back
	.p2align	4
_ic_list32_move_to_back:
	.cfi_startproc
	pushq	%r15
	.cfi_def_cfa_offset 16
	pushq	%r14
	.cfi_def_cfa_offset 24
	pushq	%rbx
	.cfi_def_cfa_offset 32
	.cfi_offset %rbx, -32
	.cfi_offset %r14, -24
	.cfi_offset %r15, -16
	movl	%ecx, %r8d
	xorl	%r9d, %r9d
	testq	%rdi, %rdi
	sete	%r10b
	leal	1(%r8), %ecx
	movl	%r8d, %r11d
	movl	$4, %eax
	incl	%r11d
	je	LBB93_19
	movb	%r10b, %r9b
	shll	$12, %r9d
	addq	%r9, %rdi
	cmpq	$536870911, %rsi
	movl	$536870911, %eax
	cmovbq	%rsi, %rax
	cmpq	%rcx, %rax
	jb	LBB93_20
	shlq	$3, %rcx
	movabsq	$68719476728, %r9
	movq	8(%rdx), %r10
	andq	%r9, %r10
	movl	-8(%rdi,%rcx), %r14d
	testb	$1, %r14b
	je	LBB93_14
	movl	-4(%rdi,%rcx), %r11d
	andl	$-8, %r11d
	je	LBB93_14
	movl	%r14d, %ebx
	andl	$-8, %ebx
	je	LBB93_14
	movl	%r11d, %r15d
	shrl	$3, %r15d
	cmpq	%rax, %r15
	ja	LBB93_14
	movl	-8(%rdi,%r11), %r14d
	movq	%rcx, %r15
	orq	$1, %r15
	cmpq	%r14, %r15
	jne	LBB93_20
	movl	%ebx, %r14d
	shrl	$3, %r14d
	cmpq	%rax, %r14
	ja	LBB93_20
	movl	-4(%rdi,%rbx), %r14d
	cmpq	%r14, %rcx
	jne	LBB93_20
	testb	$1, -8(%rdi,%rbx)
	je	LBB93_20
	testq	%r10, %r10
	je	LBB93_20
	movq	%r10, %r14
	shrq	$3, %r14
	cmpq	%rax, %r14
	ja	LBB93_20
	cmpl	$1, -8(%rdi,%r10)
	jne	LBB93_20
	andq	(%rdx), %r9
	movl	%ebx, %eax
	orl	$1, %eax
	movl	%eax, -8(%rdi,%r11)
	movl	%r11d, -4(%rdi,%rbx)
	movl	%ecx, %eax
	orl	$1, %eax
	movl	%eax, -8(%rdi,%r10)
	movl	%r10d, -4(%rdi,%rcx)
	movl	$1, -8(%rdi,%rcx)
	movq	%r9, (%rdx)
	movq	%rcx, 8(%rdx)
	xorl	%eax, %eax
	popq	%rbx
	popq	%r14
	popq	%r15
	retq
LBB93_14:
	cmpq	%rcx, %r10
	jne	LBB93_20
	cmpl	$1, %r14d
	jne	LBB93_20
	movl	-4(%rdi,%rcx), %r10d
	movl	$4294967288, %r9d
	andq	%r10, %r9
	je	LBB93_20
	shrl	$3, %r10d
	cmpq	%rax, %r10
	ja	LBB93_20
	movl	-8(%rdi,%r9), %r9d
	orq	$1, %rcx
	xorl	%eax, %eax
	cmpq	%r9, %rcx
	jne	LBB93_20
LBB93_19:
	popq	%rbx
	popq	%r14
	popq	%r15
	retq
LBB93_20:
	movl	$1, %ecx
	popq	%rbx
	popq	%r14
	popq	%r15
	jmp	_ic_raw.move_calls.move_to_end_slow.55ebd757a04f39fd
	.cfi_endproc
	.globl	_ic_list32_move_to_front
	.p2align	4
_ic_list32_move_to_front:
	.cfi_startproc
	pushq	%r15
	.cfi_def_cfa_offset 16
	pushq	%r14
	.cfi_def_cfa_offset 24
	pushq	%r12
	.cfi_def_cfa_offset 32
	pushq	%rbx
	.cfi_def_cfa_offset 40
	.cfi_offset %rbx, -40
	.cfi_offset %r12, -32
	.cfi_offset %r14, -24
	.cfi_offset %r15, -16
	movl	%ecx, %r8d
	xorl	%r9d, %r9d
	testq	%rdi, %rdi
	sete	%r10b
	leal	1(%r8), %ecx
	movl	%r8d, %r11d
	movl	$4, %eax
	incl	%r11d
	je	LBB94_22
	movb	%r10b, %r9b
	shll	$12, %r9d
	addq	%r9, %rdi
	cmpq	$536870911, %rsi
	movl	$536870911, %eax
	cmovbq	%rsi, %rax
	cmpq	%rcx, %rax
	jb	LBB94_23
	shlq	$3, %rcx
	movabsq	$68719476728, %r9
	movq	(%rdx), %r10
	andq	%r9, %r10
	movl	-8(%rdi,%rcx), %r11d
	testb	$1, %r11b
	je	LBB94_15
	movl	-4(%rdi,%rcx), %ebx
	andl	$-8, %ebx
	je	LBB94_15
	movl	%r11d, %r14d
	andl	$-8, %r14d
	je	LBB94_15
	movl	%ebx, %r15d
	shrl	$3, %r15d
	cmpq	%rax, %r15
	ja	LBB94_15
	movl	-8(%rdi,%rbx), %r15d
	movq	%rcx, %r12
	orq	$1, %r12
	cmpq	%r15, %r12
	jne	LBB94_15
	movl	%r14d, %r15d
	shrl	$3, %r15d
	cmpq	%rax, %r15
	ja	LBB94_15
	movl	-4(%rdi,%r14), %r15d
	cmpq	%r15, %rcx
	jne	LBB94_15
	testb	$1, -8(%rdi,%r14)
	je	LBB94_15
	testq	%r10, %r10
	je	LBB94_23
	movq	%r10, %r11
	shrq	$3, %r11
	cmpq	%rax, %r11
	ja	LBB94_23
	cmpl	$0, -4(%rdi,%r10)
	jne	LBB94_23
	testb	$1, -8(%rdi,%r10)
	je	LBB94_23
	andq	8(%rdx), %r9
	movl	%r14d, %eax
	orl	$1, %eax
	movl	%eax, -8(%rdi,%rbx)
	movl	%ebx, -4(%rdi,%r14)
	movl	%ecx, -4(%rdi,%r10)
	movl	$0, -4(%rdi,%rcx)
	orl	$1, %r10d
	movl	%r10d, -8(%rdi,%rcx)
	movq	%rcx, (%rdx)
	movq	%r9, 8(%rdx)
	xorl	%eax, %eax
	jmp	LBB94_22
LBB94_15:
	cmpq	%rcx, %r10
	jne	LBB94_23
	cmpl	$0, -4(%rdi,%rcx)
	jne	LBB94_23
	testb	$1, %r11b
	je	LBB94_23
	movl	$4294967288, %r9d
	andq	%r11, %r9
	je	LBB94_23
	shrl	$3, %r11d
	cmpq	%rax, %r11
	ja	LBB94_23
	movl	-4(%rdi,%r9), %eax
	cmpq	%rax, %rcx
	jne	LBB94_23
	xorl	%eax, %eax
	testb	$1, -8(%rdi,%r9)
	je	LBB94_23
LBB94_22:
	popq	%rbx
	popq	%r12
	popq	%r14
	popq	%r15
	retq
LBB94_23:
	xorl	%ecx, %ecx
	popq	%rbx
	popq	%r12
	popq	%r14
	popq	%r15
	jmp	_ic_raw.move_calls.move_to_end_slow.55ebd757a04f39fd
	.cfi_endproc
	.globl	_ic_list32_pop_back
	.p2align	4
_ic_list32_pop_back:
	.cfi_startproc
	xorl	%r9d, %r9d
	testq	%rdi, %rdi
	sete	%r11b
	movabsq	$68719476728, %rax
	movq	8(%rdx), %r8
	andq	%rax, %r8
	je	LBB95_10
	cmpq	$536870911, %rsi
	movl	$536870911, %r10d
	cmovbq	%rsi, %r10
	movq	%r8, %rsi
	shrq	$3, %rsi
	cmpq	%r10, %rsi
	ja	LBB95_10
	movb	%r11b, %r9b
	shll	$12, %r9d
	addq	%r9, %rdi
	movl	-8(%rdi,%r8), %r9d
	andl	$-7, %r9d
	cmpl	$1, %r9d
	jne	LBB95_10
	andq	(%rdx), %rax
	movl	-4(%rdi,%r8), %r11d
	movl	$4294967288, %r9d
	andq	%r11, %r9
	je	LBB95_7
	movl	%r9d, %r11d
	shrl	$3, %r11d
	cmpq	%r10, %r11
	ja	LBB95_10
	movl	-8(%rdi,%r9), %r10d
	andl	$-7, %r10d
	movq	%r8, %r11
	orq	$1, %r11
	cmpq	%r10, %r11
	jne	LBB95_10
	movl	$1, -8(%rdi,%r9)
	movq	%rax, %r10
	movq	%r8, %rax
	jmp	LBB95_9
LBB95_7:
	cmpq	%r8, %rax
	jne	LBB95_10
	movq	%rax, %rsi
	shrq	$3, %rsi
	xorl	%r10d, %r10d
LBB95_9:
	movl	$0, -8(%rdi,%rax)
	movq	%r10, (%rdx)
	movq	%r9, 8(%rdx)
	decl	%esi
	movl	%esi, (%rcx)
	xorl	%eax, %eax
	retq
LBB95_10:
	movq	%rdx, %rdi
	movl	$1, %esi
	jmp	_ic_raw.list_calls.refusal_to_pop
	.cfi_endproc
	.globl	_ic_list32_pop_front
	.p2align	4
_ic_list32_pop_front:
	.cfi_startproc
	movq	%rdi, %rax
	xorl	%edi, %edi
	testq	%rax, %rax
	sete	%dil
	shll	$12, %edi
	addq	%rax, %rdi
	movq	(%rdx), %rax
	movabsq	$68719476728, %r8
	andq	%rax, %r8
	je	_ic_raw.list_calls.pop_front_slow.55ebd757a04f39fd
	movq	%r8, %r10
	shrq	$3, %r10
	cmpq	$536870911, %rsi
	movl	$536870911, %r9d
	cmovbq	%rsi, %r9
	cmpq	%r9, %r10
	ja	_ic_raw.list_calls.pop_front_slow.55ebd757a04f39fd
	cmpl	$0, -4(%rdi,%r8)
	jne	_ic_raw.list_calls.pop_front_slow.55ebd757a04f39fd
	movl	-8(%rdi,%r8), %r11d
	testb	$1, %r11b
	je	_ic_raw.list_calls.pop_front_slow.55ebd757a04f39fd
	movl	$4294967288, %r10d
	andq	%r11, %r10
	je	_ic_raw.list_calls.pop_front_slow.55ebd757a04f39fd
	shrl	$3, %r11d
	cmpq	%r9, %r11
	ja	_ic_raw.list_calls.pop_front_slow.55ebd757a04f39fd
	movl	-4(%rdi,%r10), %r9d
	cmpq	%r9, %r8
	jne	_ic_raw.list_calls.pop_front_slow.55ebd757a04f39fd
	testb	$1, -8(%rdi,%r10)
	je	_ic_raw.list_calls.pop_front_slow.55ebd757a04f39fd
	movl	$0, -4(%rdi,%r10)
	movl	$0, -8(%rdi,%r8)
	movq	%r10, (%rdx)
	shrq	$3, %rax
	decl	%eax
	movl	%eax, (%rcx)
	xorl	%eax, %eax
	retq
	.cfi_endproc
	.globl	_ic_list32_push_back
	.p2align	4
_ic_list32_push_back:
	.cfi_startproc
	movq	%rdi, %rax
	xorl	%edi, %edi
	testq	%rax, %rax
	sete	%dil
	shll	$12, %edi
	addq	%rax, %rdi
	movabsq	$68719476728, %rax
	andq	8(%rdx), %rax
	je	LBB97_7
	movq	%rax, %r8
	shrq	$3, %r8
	cmpq	$536870911, %rsi
	movl	$536870911, %r9d
	cmovbq	%rsi, %r9
	cmpq	%r9, %r8
	ja	LBB97_7
	leal	1(%rcx), %r8d
	testq	%r8, %r8
	je	LBB97_7
	cmpl	$1, -8(%rdi,%rax)
	jne	LBB97_7
	cmpq	%r8, %r9
	jb	LBB97_7
	shlq	$3, %r8
	testb	$1, -8(%rdi,%r8)
	jne	LBB97_7
	movl	%r8d, %ecx
	orl	$1, %ecx
	movl	%ecx, -8(%rdi,%rax)
	movl	%eax, -4(%rdi,%r8)
	movl	$1, -8(%rdi,%r8)
	movq	%r8, 8(%rdx)
	xorl	%eax, %eax
	retq
LBB97_7:
	jmp	_ic_raw.list_calls.push_back_slow.55ebd757a04f39fd
	.cfi_endproc
	.globl	_ic_list32_push_front
	.p2align	4
_ic_list32_push_front:
	.cfi_startproc
	movq	%rdi, %rax
	xorl	%edi, %edi
	testq	%rax, %rax
	sete	%dil
	shll	$12, %edi
	addq	%rax, %rdi
	movabsq	$68719476728, %rax
	movq	8(%rdx), %r8
	andq	%rax, %r8
	movq	%r8, %r9
	andq	(%rdx), %rax
	je	LBB98_4
	cmpq	$536870911, %rsi
	movl	$536870911, %r9d
	cmovbq	%rsi, %r9
	movq	%rax, %r10
	shrq	$3, %r10
	cmpq	%r9, %r10
	ja	LBB98_11
	testb	$1, -8(%rdi,%rax)
	je	LBB98_11
	movl	-4(%rdi,%rax), %r9d
	andl	$-8, %r9d
LBB98_4:
	testq	%r9, %r9
	jne	LBB98_11
	leal	1(%rcx), %r9d
	cmpq	$536870911, %rsi
	movl	$536870911, %r10d
	cmovbq	%rsi, %r10
	testq	%r9, %r9
	je	LBB98_11
	cmpq	%r9, %r10
	jb	LBB98_11
	shlq	$3, %r9
	testb	$1, -8(%rdi,%r9)
	jne	LBB98_11
	movq	%r9, %rcx
	testq	%rax, %rax
	je	LBB98_10
	movl	%r9d, -4(%rdi,%rax)
	movq	%r8, %rcx
LBB98_10:
	movl	$0, -4(%rdi,%r9)
	orl	$1, %eax
	movl	%eax, -8(%rdi,%r9)
	movq	%r9, (%rdx)
	movq	%rcx, 8(%rdx)
	xorl	%eax, %eax
	retq
LBB98_11:
	movl	$-1, %edx
	jmp	_ic_raw.table.RawTable.refusal.05a19227735374d3
	.cfi_endproc
	.globl	_ic_list32_remove
	.p2align	4
_ic_list32_remove:
	.cfi_startproc
	xorl	%r9d, %r9d
	testq	%rdi, %rdi
	sete	%r10b
	leal	1(%rcx), %r8d
	movl	%ecx, %r11d
	movl	$4, %eax
	incl	%r11d
	je	LBB99_11
	movb	%r10b, %r9b
	shll	$12, %r9d
	addq	%r9, %rdi
	cmpq	$536870911, %rsi
	movl	$536870911, %r10d
	cmovbq	%rsi, %r10
	cmpq	%r8, %r10
	jb	LBB99_12
	shlq	$3, %r8
	movl	-8(%rdi,%r8), %eax
	testb	$1, %al
	je	LBB99_12
	movl	-4(%rdi,%r8), %r9d
	andl	$-8, %r9d
	je	LBB99_12
	andl	$-8, %eax
	je	LBB99_12
	movl	%r9d, %r11d
	shrl	$3, %r11d
	cmpq	%r10, %r11
	ja	LBB99_12
	pushq	%rbx
	.cfi_def_cfa_offset 16
	.cfi_offset %rbx, -16
	movl	-8(%rdi,%r9), %r11d
	movq	%r8, %rbx
	orq	$1, %rbx
	cmpq	%r11, %rbx
	popq	%rbx
	jne	LBB99_12
	movl	%eax, %r11d
	shrl	$3, %r11d
	cmpq	%r10, %r11
	ja	LBB99_12
	movl	-4(%rdi,%rax), %r10d
	cmpq	%r10, %r8
	jne	LBB99_12
	testb	$1, -8(%rdi,%rax)
	je	LBB99_12
	movl	%eax, %ecx
	orl	$1, %ecx
	movl	%ecx, -8(%rdi,%r9)
	movl	%r9d, -4(%rdi,%rax)
	movl	$0, -8(%rdi,%r8)
	xorl	%eax, %eax
LBB99_11:
	retq
LBB99_12:
	jmp	_ic_raw.list_calls.remove_slow.55ebd757a04f39fd
	.cfi_endproc
	.globl	_ic_list32_replace
	.p2align	4
_ic_list32_replace:
	.cfi_startproc
	pushq	%r15
	.cfi_def_cfa_offset 16
	pushq	%r14
	.cfi_def_cfa_offset 24
	pushq	%r12
	.cfi_def_cfa_offset 32
	pushq	%rbx
	.cfi_def_cfa_offset 40
	.cfi_offset %rbx, -40
	.cfi_offset %r12, -32
	.cfi_offset %r14, -24
	.cfi_offset %r15, -16
	xorl	%r10d, %r10d
	testq	%rdi, %rdi
	sete	%r11b
	leal	1(%rcx), %r9d
	movl	%ecx, %ebx
	movl	$4, %eax
	incl	%ebx
	je	LBB100_21
	movb	%r11b, %r10b
	shll	$12, %r10d
	addq	%r10, %rdi
	cmpq	$536870911, %rsi
	movl	$536870911, %r14d
	cmovbq	%rsi, %r14
	cmpq	%r9, %r14
	jb	LBB100_6
	shlq	$3, %r9
	movl	-8(%rdi,%r9), %eax
	testb	$1, %al
	je	LBB100_6
	movabsq	$68719476728, %r10
	movq	(%rdx), %rbx
	andq	%r10, %rbx
	andq	8(%rdx), %r10
	movl	-4(%rdi,%r9), %r11d
	andl	$-8, %r11d
	je	LBB100_7
	movl	%r11d, %r15d
	shrl	$3, %r15d
	cmpq	%r14, %r15
	ja	LBB100_6
	movl	-8(%rdi,%r11), %r15d
	andl	$-7, %r15d
	movq	%r9, %r12
	orq	$1, %r12
	cmpq	%r15, %r12
	je	LBB100_8
	jmp	LBB100_6
LBB100_7:
	cmpq	%r9, %rbx
	jne	LBB100_6
LBB100_8:
	movq	%r10, %r12
	andl	$-8, %eax
	je	LBB100_12
	movl	%eax, %r15d
	shrl	$3, %r15d
	cmpq	%r14, %r15
	ja	LBB100_6
	testb	$1, -8(%rdi,%rax)
	je	LBB100_6
	movl	-4(%rdi,%rax), %r12d
	andl	$-8, %r12d
LBB100_12:
	leal	1(%r8), %r15d
	testq	%r15, %r15
	je	LBB100_6
	cmpq	%r9, %r12
	jne	LBB100_6
	cmpq	%r15, %r14
	jb	LBB100_6
	shlq	$3, %r15
	testb	$1, -8(%rdi,%r15)
	jne	LBB100_6
	movq	%r15, %rcx
	testl	%r11d, %r11d
	je	LBB100_18
	movl	%r15d, %ecx
	orl	$1, %ecx
	movl	%ecx, -8(%rdi,%r11)
	movq	%rbx, %rcx
LBB100_18:
	movq	%r15, %rsi
	testl	%eax, %eax
	je	LBB100_20
	movl	%r15d, -4(%rdi,%rax)
	movq	%r10, %rsi
LBB100_20:
	movl	%r11d, -4(%rdi,%r15)
	orl	$1, %eax
	movl	%eax, -8(%rdi,%r15)
	movl	$0, -8(%rdi,%r9)
	movq	%rcx, (%rdx)
	movq	%rsi, 8(%rdx)
	xorl	%eax, %eax
LBB100_21:
	popq	%rbx
	popq	%r12
	popq	%r14
	popq	%r15
	retq
LBB100_6:
	movl	%ecx, %edx
	movl	%r8d, %ecx
	popq	%rbx
	popq	%r12
	popq	%r14
	popq	%r15
	jmp	_ic_raw.table.RawTable.refusal.05a19227735374d3
	.cfi_endproc
	.globl	_ic_list32_splice_after
	.p2align	4
_ic_list32_splice_after:
	.cfi_startproc
	pushq	%r14
	.cfi_def_cfa_offset 16
	pushq	%rbx
	.cfi_def_cfa_offset 24
	.cfi_offset %rbx, -24
	.cfi_offset %r14, -16
	movq	%rdi, %rax
	xorl	%edi, %edi
	testq	%rax, %rax
	sete	%dil
	shll	$12, %edi
	addq	%rax, %rdi
	cmpl	$-1, %ecx
	jne	LBB101_14
	movabsq	$68719476728, %rax
	movq	(%rdx), %r9
	andq	%rax, %r9
	je	LBB101_14
	movq	%r9, %r10
	shrq	$3, %r10
	cmpq	$536870911, %rsi
	movl	$536870911, %r11d
	cmovbq	%rsi, %r11
	cmpq	%r11, %r10
	ja	LBB101_14
	cmpl	$0, -4(%rdi,%r9)
	jne	LBB101_14
	movq	(%r8), %r10
	andq	%rax, %r10
	je	LBB101_14
	testb	$1, -8(%rdi,%r9)
	je	LBB101_14
	movq	%r10, %rbx
	shrq	$3, %rbx
	cmpq	%r11, %rbx
	ja	LBB101_14
	cmpl	$0, -4(%rdi,%r10)
	jne	LBB101_14
	movq	8(%r8), %rbx
	andq	%rax, %rbx
	je	LBB101_14
	testb	$1, -8(%rdi,%r10)
	je	LBB101_14
	movq	%rbx, %r14
	shrq	$3, %r14
	cmpq	%r11, %r14
	ja	LBB101_14
	cmpq	%r10, %r9
	je	LBB101_14
	cmpl	$1, -8(%rdi,%rbx)
	jne	LBB101_14
	andq	8(%rdx), %rax
	movl	%ebx, -4(%rdi,%r9)
	movl	$0, -4(%rdi,%r10)
	orl	$1, %r9d
	movl	%r9d, -8(%rdi,%rbx)
	movq	%r10, (%rdx)
	movq	%rax, 8(%rdx)
	movq	$0, 8(%r8)
	movq	$0, (%r8)
	xorl	%eax, %eax
	popq	%rbx
	popq	%r14
	retq
LBB101_14:
	xorl	%r9d, %r9d
	popq	%rbx
	popq	%r14
	jmp	_ic_raw.list_calls.splice_slow.55ebd757a04f39fd
	.cfi_endproc
	.globl	_ic_list32_splice_before
	.p2align	4
_ic_list32_splice_before:
	.cfi_startproc
	pushq	%r14
	.cfi_def_cfa_offset 16
	pushq	%rbx
	.cfi_def_cfa_offset 24
	.cfi_offset %rbx, -24
	.cfi_offset %r14, -16
	movq	%rdi, %rax
	xorl	%edi, %edi
	testq	%rax, %rax
	sete	%dil
	shll	$12, %edi
	addq	%rax, %rdi
	cmpl	$-1, %ecx
	jne	LBB102_13
	movabsq	$68719476728, %rax
	movq	8(%rdx), %r9
	andq	%rax, %r9
	je	LBB102_13
	movq	%r9, %r10
	shrq	$3, %r10
	cmpq	$536870911, %rsi
	movl	$536870911, %r11d
	cmovbq	%rsi, %r11
	cmpq	%r11, %r10
	ja	LBB102_13
	movq	(%r8), %r10
	andq	%rax, %r10
	je	LBB102_13
	cmpl	$1, -8(%rdi,%r9)
	jne	LBB102_13
	movq	%r10, %rbx
	shrq	$3, %rbx
	cmpq	%r11, %rbx
	ja	LBB102_13
	cmpl	$0, -4(%rdi,%r10)
	jne	LBB102_13
	movq	8(%r8), %rbx
	andq	%rax, %rbx
	je	LBB102_13
	testb	$1, -8(%rdi,%r10)
	je	LBB102_13
	movq	%rbx, %r14
	shrq	$3, %r14
	cmpq	%r11, %r14
	ja	LBB102_13
	andq	(%rdx), %rax
	cmpq	%r10, %rax
	je	LBB102_13
	cmpl	$1, -8(%rdi,%rbx)
	jne	LBB102_13
	movl	%r10d, %ecx
	orl	$1, %ecx
	movl	%ecx, -8(%rdi,%r9)
	movl	%r9d, -4(%rdi,%r10)
	movl	$1, -8(%rdi,%rbx)
	movq	%rax, (%rdx)
	movq	%rbx, 8(%rdx)
	movq	$0, 8(%r8)
	movq	$0, (%r8)
	xorl	%eax, %eax
	popq	%rbx
	popq	%r14
	retq
LBB102_13:
	movl	$1, %r9d
	popq	%rbx
	popq	%r14
	jmp	_ic_raw.list_calls.splice_slow.55ebd757a04f39fd
	.cfi_endproc
	.globl	_ic_list32_split_after
	.p2align	4
_ic_list32_split_after:
	.cfi_startproc
	pushq	%rbx
	.cfi_def_cfa_offset 16
	.cfi_offset %rbx, -16
	movq	%rdi, %rax
	movabsq	$68719476728, %r9
	xorl	%edi, %edi
	testq	%rax, %rax
	sete	%dil
	shll	$12, %edi
	addq	%rax, %rdi
	testq	%r9, (%r8)
	jne	LBB103_10
	testq	%r9, 8(%r8)
	jne	LBB103_10
	leal	1(%rcx), %eax
	movl	%ecx, %r10d
	incl	%r10d
	je	LBB103_10
	cmpq	$536870911, %rsi
	movl	$536870911, %r11d
	cmovbq	%rsi, %r11
	cmpq	%rax, %r11
	jb	LBB103_10
	shlq	$3, %rax
	movl	-8(%rdi,%rax), %ebx
	testb	$1, %bl
	je	LBB103_10
	movl	$4294967288, %r10d
	andq	%rbx, %r10
	je	LBB103_10
	shrl	$3, %ebx
	cmpq	%r11, %rbx
	ja	LBB103_10
	movl	-4(%rdi,%r10), %r11d
	cmpq	%r11, %rax
	jne	LBB103_10
	testb	$1, -8(%rdi,%r10)
	je	LBB103_10
	movq	(%rdx), %rcx
	andq	%r9, %rcx
	andq	8(%rdx), %r9
	movl	$1, -8(%rdi,%rax)
	movl	$0, -4(%rdi,%r10)
	movq	%rcx, (%rdx)
	movq	%rax, 8(%rdx)
	movq	%r10, (%r8)
	movq	%r9, 8(%r8)
	xorl	%eax, %eax
	popq	%rbx
	retq
LBB103_10:
	xorl	%r9d, %r9d
	popq	%rbx
	jmp	_ic_raw.list_calls.split_slow.55ebd757a04f39fd
	.cfi_endproc
	.globl	_ic_list32_split_before
	.p2align	4
_ic_list32_split_before:
	.cfi_startproc
	pushq	%rbx
	.cfi_def_cfa_offset 16
	.cfi_offset %rbx, -16
	movq	%rdi, %rax
	movabsq	$68719476728, %r9
	xorl	%edi, %edi
	testq	%rax, %rax
	sete	%dil
	shll	$12, %edi
	addq	%rax, %rdi
	testq	%r9, (%r8)
	jne	LBB104_9
	testq	%r9, 8(%r8)
	jne	LBB104_9
	leal	1(%rcx), %eax
	movl	%ecx, %r10d
	incl	%r10d
	je	LBB104_9
	cmpq	$536870911, %rsi
	movl	$536870911, %r11d
	cmovbq	%rsi, %r11
	cmpq	%rax, %r11
	jb	LBB104_9
	shlq	$3, %rax
	testb	$1, -8(%rdi,%rax)
	je	LBB104_9
	movl	-4(%rdi,%rax), %ebx
	movl	$4294967288, %r10d
	andq	%rbx, %r10
	je	LBB104_9
	shrl	$3, %ebx
	cmpq	%r11, %rbx
	ja	LBB104_9
	movl	-8(%rdi,%r10), %r11d
	movq	%rax, %rbx
	orq	$1, %rbx
	cmpq	%r11, %rbx
	jne	LBB104_9
	movq	(%rdx), %rcx
	andq	%r9, %rcx
	andq	8(%rdx), %r9
	movl	$1, -8(%rdi,%r10)
	movl	$0, -4(%rdi,%rax)
	movq	%rax, (%rdx)
	movq	%r9, 8(%rdx)
	movq	%rcx, (%r8)
	movq	%r10, 8(%r8)
	xorl	%eax, %eax
	popq	%rbx
	retq
LBB104_9:
	movl	$1, %r9d
	popq	%rbx
	jmp	_ic_raw.list_calls.split_slow.55ebd757a04f39fd
	.cfi_endproc
	.globl	_ic_list32_transfer_after
	.p2align	4
_ic_list32_transfer_after:
	.cfi_startproc
	pushq	%rax
	.cfi_def_cfa_offset 16
	movq	%r8, %rax
	movl	%ecx, %r8d
	xorl	%ecx, %ecx
	testq	%rdi, %rdi
	sete	%cl
	shll	$12, %ecx
	addq	%rcx, %rdi
	movl	%r9d, (%rsp)
	xorl	%ecx, %ecx
	movq	%rax, %r9
	callq	_ic_raw_lists.transfer_calls.transfer_at.55ebd757a04f39fd
	popq	%rcx
	retq
	.cfi_endproc
	.globl	_ic_list32_transfer_before
	.p2align	4
_ic_list32_transfer_before:
	.cfi_startproc
	pushq	%rax
	.cfi_def_cfa_offset 16
	movq	%r8, %rax
	movl	%ecx, %r8d
	xorl	%ecx, %ecx
	testq	%rdi, %rdi
	sete	%cl
	shll	$12, %ecx
	addq	%rcx, %rdi
	movl	%r9d, (%rsp)
	movl	$1, %ecx
	movq	%rax, %r9
	callq	_ic_raw_lists.transfer_calls.transfer_at.55ebd757a04f39fd
	popq	%rcx
	retq
	.cfi_endproc
	.globl	_ic_list_append
	.p2align	4
_ic_list_append:
	.cfi_startproc
	movq	%rcx, %r8
	movq	%rdi, %rax
	xorl	%edi, %edi
	testq	%rax, %rax
	sete	%dil
	shll	$12, %edi
	addq	%rax, %rdi
	movabsq	$68719476728, %rax
	movq	8(%rdx), %rcx
	andq	%rax, %rcx
	je	LBB107_12
	movq	%rcx, %r9
	shrq	$3, %r9
	cmpq	%rsi, %r9
	ja	LBB107_12
	movq	(%r8), %r9
	andq	%rax, %r9
	je	LBB107_12
	cmpq	$1, -16(%rdi,%rcx,2)
	jne	LBB107_12
	movq	%r9, %r10
	shrq	$3, %r10
	cmpq	%rsi, %r10
	ja	LBB107_12
	cmpq	$0, -8(%rdi,%r9,2)
	jne	LBB107_12
	movq	8(%r8), %r10
	andq	%rax, %r10
	je	LBB107_12
	testb	$1, -16(%rdi,%r9,2)
	je	LBB107_12
	movq	%r10, %r11
	shrq	$3, %r11
	cmpq	%rsi, %r11
	ja	LBB107_12
	andq	(%rdx), %rax
	cmpq	%r9, %rax
	je	LBB107_12
	cmpq	$1, -16(%rdi,%r10,2)
	jne	LBB107_12
	movq	%r9, %rsi
	orq	$1, %rsi
	movq	%rsi, -16(%rdi,%rcx,2)
	movq	%rcx, -8(%rdi,%r9,2)
	movq	$1, -16(%rdi,%r10,2)
	movq	%rax, (%rdx)
	movq	%r10, 8(%rdx)
	movq	$0, 8(%r8)
	movq	$0, (%r8)
	xorl	%eax, %eax
	retq
LBB107_12:
	movl	$-1, %ecx
	movl	$1, %r9d
	jmp	_ic_raw.list_calls.splice_slow.5386baa488213e47
	.cfi_endproc
	.globl	_ic_list_check
	.p2align	4
_ic_list_check:
	.cfi_startproc
	pushq	%r14
	.cfi_def_cfa_offset 16
	pushq	%rbx
	.cfi_def_cfa_offset 24
	.cfi_offset %rbx, -24
	.cfi_offset %r14, -16
	movabsq	$68719476728, %r9
	xorl	%eax, %eax
	testq	%rdi, %rdi
	sete	%r11b
	movq	8(%rdx), %r8
	andq	%r9, %r8
	movq	(%rdx), %r10
	andq	%r9, %r10
	je	LBB108_1
	movb	%r11b, %al
	shll	$12, %eax
	addq	%rax, %rdi
	xorl	%ebx, %ebx
	xorl	%edx, %edx
	.p2align	4
LBB108_3:
	movl	$5, %eax
	cmpq	%rdx, %rsi
	je	LBB108_10
	movq	%r10, %r11
	shrq	$3, %r10
	cmpq	%rsi, %r10
	ja	LBB108_10
	movq	-16(%rdi,%r11,2), %r10
	testb	$1, %r10b
	je	LBB108_10
	movq	-8(%rdi,%r11,2), %r14
	andq	%r9, %r14
	cmpq	%rbx, %r14
	jne	LBB108_10
	incq	%rdx
	movq	%r11, %rbx
	andq	%r9, %r10
	jne	LBB108_3
	movl	$5, %eax
	cmpq	%r11, %r8
	jne	LBB108_10
LBB108_9:
	movq	%rdx, (%rcx)
	xorl	%eax, %eax
LBB108_10:
	popq	%rbx
	popq	%r14
	retq
LBB108_1:
	xorl	%edx, %edx
	xorl	%r11d, %r11d
	movl	$5, %eax
	cmpq	%r11, %r8
	je	LBB108_9
	jmp	LBB108_10
	.cfi_endproc
	.globl	_ic_list_clear
	.p2align	4
_ic_list_clear:
	.cfi_startproc
	pushq	%r15
	.cfi_def_cfa_offset 16
	pushq	%r14
	.cfi_def_cfa_offset 24
	pushq	%rbx
	.cfi_def_cfa_offset 32
	.cfi_offset %rbx, -32
	.cfi_offset %r14, -24
	.cfi_offset %r15, -16
	movabsq	$68719476728, %rcx
	xorl	%r10d, %r10d
	testq	%rdi, %rdi
	sete	%r11b
	movq	8(%rdx), %r9
	andq	%rcx, %r9
	movq	(%rdx), %r8
	movl	$5, %eax
	andq	%rcx, %r8
	je	LBB109_3
	testq	%rsi, %rsi
	je	LBB109_12
	movb	%r11b, %r10b
	shll	$12, %r10d
	addq	%r10, %rdi
	xorl	%ebx, %ebx
	movq	%r8, %r10
	movq	%rsi, %r11
	.p2align	4
LBB109_5:
	movq	%r10, %r14
	shrq	$3, %r14
	cmpq	%rsi, %r14
	ja	LBB109_12
	movq	-16(%rdi,%r10,2), %r14
	testb	$1, %r14b
	je	LBB109_12
	movq	-8(%rdi,%r10,2), %r15
	andq	%rcx, %r15
	cmpq	%rbx, %r15
	jne	LBB109_12
	andq	%rcx, %r14
	je	LBB109_9
	movq	%r10, %rbx
	movq	%r14, %r10
	decq	%r11
	jne	LBB109_5
LBB109_12:
	popq	%rbx
	popq	%r14
	popq	%r15
	retq
LBB109_3:
	testq	%r9, %r9
	jne	LBB109_12
	jmp	LBB109_11
LBB109_9:
	cmpq	%r10, %r9
	jne	LBB109_12
	.p2align	4
LBB109_10:
	movq	%r8, %rax
	movq	-16(%rdi,%r8,2), %r8
	movq	$0, -16(%rdi,%rax,2)
	andq	%rcx, %r8
	jne	LBB109_10
LBB109_11:
	movq	$0, 8(%rdx)
	movq	$0, (%rdx)
	xorl	%eax, %eax
	popq	%rbx
	popq	%r14
	popq	%r15
	retq
	.cfi_endproc
	.globl	_ic_list_fill
	.p2align	4
_ic_list_fill:
	.cfi_startproc
	xorl	%r11d, %r11d
	testq	%rdi, %rdi
	sete	%r9b
	xorl	%eax, %eax
	testl	%r8d, %r8d
	je	LBB110_32
	pushq	%rbp
	.cfi_def_cfa_offset 16
	pushq	%r15
	.cfi_def_cfa_offset 24
	pushq	%r14
	.cfi_def_cfa_offset 32
	pushq	%r13
	.cfi_def_cfa_offset 40
	pushq	%r12
	.cfi_def_cfa_offset 48
	pushq	%rbx
	.cfi_def_cfa_offset 56
	pushq	%rax
	.cfi_def_cfa_offset 64
	.cfi_offset %rbx, -56
	.cfi_offset %r12, -48
	.cfi_offset %r13, -40
	.cfi_offset %r14, -32
	.cfi_offset %r15, -24
	.cfi_offset %rbp, -16
	movb	%r9b, %r11b
	shll	$12, %r11d
	leaq	(%rdi,%r11), %r10
	movabsq	$68719476728, %rax
	movq	(%rdx), %r9
	andq	%rax, %r9
	movq	8(%rdx), %rbx
	andq	%rax, %rbx
	sete	%bpl
	je	LBB110_5
	movq	%rbx, %r14
	shrq	$3, %r14
	cmpq	%rsi, %r14
	ja	LBB110_4
	incq	%rax
	andq	-16(%r10,%rbx,2), %rax
	cmpq	$1, %rax
	je	LBB110_8
LBB110_4:
	xorl	%r15d, %r15d
	movb	$1, %bpl
	jmp	LBB110_7
LBB110_5:
	testq	%r9, %r9
	je	LBB110_8
	movb	$1, %bpl
	xorl	%r15d, %r15d
LBB110_7:
	movq	$0, (%rsp)
	jmp	LBB110_9
LBB110_8:
	movb	$1, %r15b
	movq	%rbx, (%rsp)
LBB110_9:
	movl	%ecx, %r12d
	incq	%r12
	movl	%r8d, %r13d
	.p2align	4
LBB110_10:
	movl	%r12d, %eax
	leaq	-1(%rax), %r14
	cmpq	%rsi, %r14
	jae	LBB110_18
	shlq	$4, %rax
	movl	-16(%r10,%rax), %eax
	addl	%eax, %eax
	andl	$2, %eax
	jne	LBB110_31
	incq	%r12
	decl	%r13d
	jne	LBB110_10
	movl	$5, %eax
	testb	%r15b, %r15b
	je	LBB110_31
	movl	%ecx, %eax
	incl	%eax
	sete	%r14b
	cmpq	%rax, %rsi
	setb	%r15b
	orb	%r14b, %r15b
	jne	LBB110_30
	movq	%rax, %r15
	shlq	$4, %r15
	testb	$1, -16(%r10,%r15)
	jne	LBB110_30
	shlq	$3, %rax
	testb	%bpl, %bpl
	je	LBB110_19
	xorl	%ebx, %ebx
	movq	%rax, %r9
	jmp	LBB110_20
LBB110_18:
	movl	$1, %eax
	jmp	LBB110_31
LBB110_19:
	movq	%rax, %rbx
	orq	$1, %rbx
	movq	(%rsp), %r14
	movq	%rbx, -16(%r10,%r14,2)
	movq	%r14, %rbx
LBB110_20:
	movq	%rbx, -8(%r10,%r15)
	movq	$1, -16(%r10,%r15)
	decl	%r8d
	je	LBB110_29
	addq	%r11, %rdi
	addq	$-16, %rdi
	addl	$2, %ecx
LBB110_22:
	testl	%ecx, %ecx
	je	LBB110_29
	movl	%ecx, %ecx
	cmpq	%rcx, %rsi
	jb	LBB110_29
	movq	%rcx, %r11
	shlq	$4, %r11
	testb	$1, -16(%r10,%r11)
	jne	LBB110_29
	leaq	(,%rcx,8), %rbx
	movq	%rbx, %r14
	orq	$1, %r14
	movq	%r14, (%rdi,%rax,2)
	movq	%rax, -8(%r10,%r11)
	movq	$1, -16(%r10,%r11)
	addq	$8, %rax
	incl	%ecx
	decl	%r8d
	jne	LBB110_22
	jmp	LBB110_30
LBB110_29:
	movq	%rax, %rbx
LBB110_30:
	movq	%r9, (%rdx)
	movq	%rbx, 8(%rdx)
	xorl	%eax, %eax
LBB110_31:
	addq	$8, %rsp
	popq	%rbx
	popq	%r12
	popq	%r13
	popq	%r14
	popq	%r15
	popq	%rbp
LBB110_32:
	retq
	.cfi_endproc
	.globl	_ic_list_insert_after
	.p2align	4
_ic_list_insert_after:
	.cfi_startproc
	pushq	%rbp
	.cfi_def_cfa_offset 16
	pushq	%r15
	.cfi_def_cfa_offset 24
	pushq	%r14
	.cfi_def_cfa_offset 32
	pushq	%rbx
	.cfi_def_cfa_offset 40
	.cfi_offset %rbx, -40
	.cfi_offset %r14, -32
	.cfi_offset %r15, -24
	.cfi_offset %rbp, -16
	movq	%rdi, %rax
	xorl	%edi, %edi
	testq	%rax, %rax
	sete	%dil
	shll	$12, %edi
	addq	%rax, %rdi
	movabsq	$68719476728, %rbx
	movq	(%rdx), %r9
	andq	%rbx, %r9
	movq	8(%rdx), %rax
	andq	%rbx, %rax
	leal	1(%rcx), %r11d
	movl	%ecx, %ebp
	movq	%r9, %r10
	incl	%ebp
	je	LBB111_4
	cmpq	%r11, %rsi
	jb	LBB111_16
	movq	%r11, %r10
	shlq	$4, %r10
	movq	-16(%rdi,%r10), %r10
	testb	$1, %r10b
	je	LBB111_16
	andq	%rbx, %r10
LBB111_4:
	movq	%rax, %r15
	testq	%r10, %r10
	je	LBB111_8
	movq	%r10, %r14
	shrq	$3, %r14
	cmpq	%rsi, %r14
	ja	LBB111_16
	testb	$1, -16(%rdi,%r10,2)
	je	LBB111_16
	andq	-8(%rdi,%r10,2), %rbx
	movq	%rbx, %r15
LBB111_8:
	leal	1(%r8), %ebx
	testq	%rbx, %rbx
	je	LBB111_16
	cmpq	%rbx, %rsi
	jb	LBB111_16
	leaq	(,%r11,8), %r14
	cmpq	%r14, %r15
	jne	LBB111_16
	movq	%rbx, %r15
	shlq	$4, %r15
	testb	$1, -16(%rdi,%r15)
	jne	LBB111_16
	shlq	$3, %rbx
	movq	%rbx, %rcx
	testq	%r11, %r11
	je	LBB111_14
	shlq	$4, %r11
	movq	%rbx, %rcx
	orq	$1, %rcx
	movq	%rcx, -16(%rdi,%r11)
	movq	%r9, %rcx
LBB111_14:
	testq	%r10, %r10
	je	LBB111_15
	movq	%rbx, -8(%rdi,%r10,2)
	jmp	LBB111_18
LBB111_15:
	movq	%rbx, %rax
LBB111_18:
	movq	%r14, -8(%rdi,%r15)
	orq	$1, %r10
	movq	%r10, -16(%rdi,%r15)
	movq	%rcx, (%rdx)
	movq	%rax, 8(%rdx)
	xorl	%eax, %eax
	popq	%rbx
	popq	%r14
	popq	%r15
	popq	%rbp
	retq
LBB111_16:
	movl	%ecx, %edx
	movl	%r8d, %ecx
	popq	%rbx
	popq	%r14
	popq	%r15
	popq	%rbp
	jmp	_ic_raw.table.RawTable.refusal.85cd03e557136797
	.cfi_endproc
	.globl	_ic_list_insert_before
	.p2align	4
_ic_list_insert_before:
	.cfi_startproc
	pushq	%r15
	.cfi_def_cfa_offset 16
	pushq	%r14
	.cfi_def_cfa_offset 24
	pushq	%rbx
	.cfi_def_cfa_offset 32
	.cfi_offset %rbx, -32
	.cfi_offset %r14, -24
	.cfi_offset %r15, -16
	movq	%rdi, %rax
	xorl	%edi, %edi
	testq	%rax, %rax
	sete	%dil
	shll	$12, %edi
	addq	%rax, %rdi
	movabsq	$68719476728, %r14
	movq	(%rdx), %r10
	andq	%r14, %r10
	movq	8(%rdx), %rax
	andq	%r14, %rax
	leal	1(%rcx), %r9d
	movl	%ecx, %ebx
	movq	%rax, %r11
	incl	%ebx
	je	LBB112_4
	cmpq	%r9, %rsi
	jb	LBB112_7
	movq	%r9, %r11
	shlq	$4, %r11
	testb	$1, -16(%rdi,%r11)
	je	LBB112_7
	movq	-8(%rdi,%r11), %r11
	andq	%r14, %r11
LBB112_4:
	leaq	(,%r9,8), %rbx
	testq	%r11, %r11
	je	LBB112_8
	movq	%r11, %r15
	shrq	$3, %r15
	cmpq	%rsi, %r15
	ja	LBB112_7
	incq	%r14
	andq	-16(%rdi,%r11,2), %r14
	movq	%rbx, %r15
	orq	$1, %r15
	cmpq	%r15, %r14
	je	LBB112_9
	jmp	LBB112_7
LBB112_8:
	cmpq	%rbx, %r10
	movq	%r10, %rbx
	jne	LBB112_7
LBB112_9:
	leal	1(%r8), %r15d
	testq	%r15, %r15
	je	LBB112_7
	cmpq	%r15, %rsi
	jb	LBB112_7
	movq	%r15, %r14
	shlq	$4, %r14
	testb	$1, -16(%rdi,%r14)
	jne	LBB112_7
	shlq	$3, %r15
	movq	%r15, %rcx
	testq	%r11, %r11
	je	LBB112_14
	movq	%r15, %rcx
	orq	$1, %rcx
	movq	%rcx, -16(%rdi,%r11,2)
	movq	%r10, %rcx
LBB112_14:
	testq	%r9, %r9
	je	LBB112_15
	movq	%r15, -8(%rdi,%rbx,2)
	jmp	LBB112_17
LBB112_15:
	movq	%r15, %rax
LBB112_17:
	orq	$1, %rbx
	testq	%r9, %r9
	movq	%r11, -8(%rdi,%r14)
	movl	$1, %esi
	cmovneq	%rbx, %rsi
	movq	%rsi, -16(%rdi,%r14)
	movq	%rcx, (%rdx)
	movq	%rax, 8(%rdx)
	xorl	%eax, %eax
	popq	%rbx
	popq	%r14
	popq	%r15
	retq
LBB112_7:
	movl	%ecx, %edx
	movl	%r8d, %ecx
	popq	%rbx
	popq	%r14
	popq	%r15
	jmp	_ic_raw.table.RawTable.refusal.85cd03e557136797
	.cfi_endproc
	.globl	_ic_list_merge
	.p2align	4
_ic_list_merge:
	.cfi_startproc
	pushq	%rbp
	.cfi_def_cfa_offset 16
	pushq	%r15
	.cfi_def_cfa_offset 24
	pushq	%r14
	.cfi_def_cfa_offset 32
	pushq	%r13
	.cfi_def_cfa_offset 40
	pushq	%r12
	.cfi_def_cfa_offset 48
	pushq	%rbx
	.cfi_def_cfa_offset 56
	subq	$40, %rsp
	.cfi_def_cfa_offset 96
	.cfi_offset %rbx, -56
	.cfi_offset %r12, -48
	.cfi_offset %r13, -40
	.cfi_offset %r14, -32
	.cfi_offset %r15, -24
	.cfi_offset %rbp, -16
	xorl	%ebx, %ebx
	testq	%rdi, %rdi
	sete	%bl
	shll	$12, %ebx
	addq	%rdi, %rbx
	xorl	%eax, %eax
	testq	%rdx, %rdx
	sete	%al
	shll	$12, %eax
	addq	%rdx, %rax
	movq	%rax, 24(%rsp)
	movq	%rcx, 32(%rsp)
	movq	%rbx, 8(%rsp)
	movq	%rsi, 16(%rsp)
	cmpq	%rsi, %rcx
	jb	LBB113_9
	movabsq	$68719476728, %r14
	movq	(%r8), %rax
	andq	%r14, %rax
	movq	8(%r8), %rdi
	andq	%r14, %rdi
	movq	(%r9), %r10
	andq	%r14, %r10
	movq	8(%r9), %rdx
	andq	%r14, %rdx
	testq	%rax, %rax
	je	LBB113_10
	xorl	%r12d, %r12d
	movq	%rsi, %r11
	movq	%rax, %r13
	.p2align	4
LBB113_3:
	subq	$1, %r11
	jb	LBB113_9
	movq	%r13, %r15
	shrq	$3, %r13
	cmpq	%rsi, %r13
	ja	LBB113_9
	movq	-16(%rbx,%r15,2), %r13
	testb	$1, %r13b
	je	LBB113_9
	movq	-8(%rbx,%r15,2), %rbp
	andq	%r14, %rbp
	cmpq	%r12, %rbp
	jne	LBB113_9
	movq	%r15, %r12
	andq	%r14, %r13
	jne	LBB113_3
	cmpq	%r15, %rdi
	je	LBB113_11
	jmp	LBB113_9
LBB113_10:
	testq	%rdi, %rdi
	jne	LBB113_9
LBB113_11:
	testq	%r10, %r10
	je	LBB113_22
	xorl	%r15d, %r15d
	movq	%rsi, %r11
	movq	%r10, %r12
	.p2align	4
LBB113_13:
	subq	$1, %r11
	jb	LBB113_9
	movq	%r12, %rdi
	shrq	$3, %r12
	cmpq	%rsi, %r12
	ja	LBB113_9
	movq	-16(%rbx,%rdi,2), %r12
	testb	$1, %r12b
	je	LBB113_9
	movq	-8(%rbx,%rdi,2), %r13
	andq	%r14, %r13
	cmpq	%r15, %r13
	jne	LBB113_9
	movq	%rdi, %r15
	andq	%r14, %r12
	jne	LBB113_13
	cmpq	%r10, %rax
	je	LBB113_9
	cmpq	%rdi, %rdx
	jne	LBB113_9
	testq	%rax, %rax
	je	LBB113_21
	movq	%r8, %r15
	movq	%r9, %r12
	leaq	8(%rsp), %rdi
	leaq	24(%rsp), %rsi
	movq	%rax, %rdx
	movq	%r10, %rcx
	callq	_ic_list_algorithms.merge.merge_runs.6bd71b5c7308988e
	movq	$0, -8(%rbx,%rax,2)
	movq	-16(%rbx,%rax,2), %rcx
	movq	%rax, %rdx
	movq	%r12, %r9
	movq	%r15, %r8
	andq	%r14, %rcx
	je	LBB113_27
	.p2align	4
LBB113_25:
	movq	%rdx, %rsi
	movq	%rcx, %rdx
	movq	%rsi, -8(%rbx,%rcx,2)
	movq	-16(%rbx,%rcx,2), %rcx
	andq	%r14, %rcx
	jne	LBB113_25
	jmp	LBB113_27
LBB113_22:
	testq	%rdx, %rdx
	jne	LBB113_9
	testq	%rax, %rax
	cmoveq	%rax, %rdi
	movq	%rdi, %rdx
	jmp	LBB113_27
LBB113_9:
	movq	%rsi, %rdi
	movq	%rcx, %rsi
	addq	$40, %rsp
	popq	%rbx
	popq	%r12
	popq	%r13
	popq	%r14
	popq	%r15
	popq	%rbp
	jmp	_ic_raw.sort_calls.refusal.78cbab63d6c27224
LBB113_21:
	movq	%r10, %rax
LBB113_27:
	movq	%rax, (%r8)
	movq	%rdx, 8(%r8)
	movq	$0, 8(%r9)
	movq	$0, (%r9)
	xorl	%eax, %eax
	addq	$40, %rsp
	popq	%rbx
	popq	%r12
	popq	%r13
	popq	%r14
	popq	%r15
	popq	%rbp
	retq
	.cfi_endproc
	.globl	_ic_list_move_after
	.p2align	4
_ic_list_move_after:
	.cfi_startproc
	pushq	%rbp
	.cfi_def_cfa_offset 16
	pushq	%r15
	.cfi_def_cfa_offset 24
	pushq	%r14
	.cfi_def_cfa_offset 32
	pushq	%r13
	.cfi_def_cfa_offset 40
	pushq	%r12
	.cfi_def_cfa_offset 48
	pushq	%rbx
	.cfi_def_cfa_offset 56
	.cfi_offset %rbx, -56
	.cfi_offset %r12, -48
	.cfi_offset %r13, -40
	.cfi_offset %r14, -32
	.cfi_offset %r15, -24
	.cfi_offset %rbp, -16
	movl	%r8d, %r9d
	movl	%ecx, %r8d
	xorl	%r10d, %r10d
	testq	%rdi, %rdi
	sete	%r11b
	leal	1(%r9), %ecx
	movl	%r9d, %ebx
	movl	$4, %eax
	incl	%ebx
	je	LBB114_20
	movb	%r11b, %r10b
	shll	$12, %r10d
	addq	%r10, %rdi
	cmpq	%rcx, %rsi
	jb	LBB114_21
	movq	%rcx, %r10
	shlq	$4, %r10
	movq	-16(%rdi,%r10), %rbx
	testb	$1, %bl
	je	LBB114_21
	movabsq	$68719476728, %r11
	movq	-8(%rdi,%r10), %r14
	andq	%r11, %r14
	je	LBB114_21
	andq	%r11, %rbx
	je	LBB114_21
	movq	%r14, %rax
	shrq	$3, %rax
	cmpq	%rsi, %rax
	ja	LBB114_21
	shlq	$3, %rcx
	movq	-16(%rdi,%r14,2), %r15
	movq	%rcx, %rax
	orq	$1, %rax
	cmpq	%rax, %r15
	jne	LBB114_21
	movq	%rbx, %rax
	shrq	$3, %rax
	cmpq	%rsi, %rax
	ja	LBB114_21
	cmpq	%rcx, -8(%rdi,%rbx,2)
	jne	LBB114_21
	leal	1(%r8), %r12d
	cmpq	%r12, %rsi
	jb	LBB114_21
	testl	%r12d, %r12d
	je	LBB114_21
	testb	$1, -16(%rdi,%rbx,2)
	je	LBB114_21
	movq	%r12, %rbp
	shlq	$4, %rbp
	movq	-16(%rdi,%rbp), %r13
	testb	$1, %r13b
	je	LBB114_21
	andq	%r11, %r13
	je	LBB114_21
	movq	%r13, %rax
	shrq	$3, %rax
	cmpq	%rsi, %rax
	ja	LBB114_21
	shlq	$3, %r12
	cmpq	%r12, -8(%rdi,%r13,2)
	jne	LBB114_21
	testb	$1, -16(%rdi,%r13,2)
	je	LBB114_21
	xorl	%eax, %eax
	cmpq	%rcx, %r12
	je	LBB114_20
	cmpq	%rcx, %r13
	je	LBB114_20
	movq	(%rdx), %rsi
	andq	%r11, %rsi
	andq	8(%rdx), %r11
	movq	%rbx, %r8
	orq	$1, %r8
	movq	%r8, -16(%rdi,%r14,2)
	movq	%r14, -8(%rdi,%rbx,2)
	movq	%r15, -16(%rdi,%rbp)
	movq	%rcx, -8(%rdi,%r13,2)
	movq	%r12, -8(%rdi,%r10)
	orq	$1, %r13
	movq	%r13, -16(%rdi,%r10)
	movq	%rsi, (%rdx)
	movq	%r11, 8(%rdx)
LBB114_20:
	popq	%rbx
	popq	%r12
	popq	%r13
	popq	%r14
	popq	%r15
	popq	%rbp
	retq
LBB114_21:
	xorl	%ecx, %ecx
	popq	%rbx
	popq	%r12
	popq	%r13
	popq	%r14
	popq	%r15
	popq	%rbp
	jmp	_ic_raw.move_calls.move_slow.5386baa488213e47
	.cfi_endproc
	.globl	_ic_list_move_before
	.p2align	4
_ic_list_move_before:
	.cfi_startproc
	pushq	%rbp
	.cfi_def_cfa_offset 16
	pushq	%r15
	.cfi_def_cfa_offset 24
	pushq	%r14
	.cfi_def_cfa_offset 32
	pushq	%r13
	.cfi_def_cfa_offset 40
	pushq	%r12
	.cfi_def_cfa_offset 48
	pushq	%rbx
	.cfi_def_cfa_offset 56
	pushq	%rax
	.cfi_def_cfa_offset 64
	.cfi_offset %rbx, -56
	.cfi_offset %r12, -48
	.cfi_offset %r13, -40
	.cfi_offset %r14, -32
	.cfi_offset %r15, -24
	.cfi_offset %rbp, -16
	movl	%r8d, %r9d
	movl	%ecx, %r8d
	xorl	%r10d, %r10d
	testq	%rdi, %rdi
	sete	%r11b
	leal	1(%r9), %ecx
	movl	%r9d, %ebx
	movl	$4, %eax
	incl	%ebx
	je	LBB115_19
	movb	%r11b, %r10b
	shll	$12, %r10d
	addq	%r10, %rdi
	cmpq	%rcx, %rsi
	jb	LBB115_20
	movq	%rcx, %r10
	shlq	$4, %r10
	movq	-16(%rdi,%r10), %rbx
	testb	$1, %bl
	je	LBB115_20
	movabsq	$68719476728, %r11
	movq	-8(%rdi,%r10), %r14
	andq	%r11, %r14
	je	LBB115_20
	andq	%r11, %rbx
	je	LBB115_20
	movq	%r14, %rax
	shrq	$3, %rax
	cmpq	%rsi, %rax
	ja	LBB115_20
	shlq	$3, %rcx
	movq	-16(%rdi,%r14,2), %r15
	movq	%rcx, %rax
	orq	$1, %rax
	movq	%r15, (%rsp)
	cmpq	%rax, %r15
	jne	LBB115_20
	movq	%rbx, %rax
	shrq	$3, %rax
	cmpq	%rsi, %rax
	ja	LBB115_20
	cmpq	%rcx, -8(%rdi,%rbx,2)
	jne	LBB115_20
	leal	1(%r8), %r12d
	cmpq	%r12, %rsi
	jb	LBB115_20
	testl	%r12d, %r12d
	je	LBB115_20
	testb	$1, -16(%rdi,%rbx,2)
	je	LBB115_20
	movq	%r12, %r13
	shlq	$4, %r13
	testb	$1, -16(%rdi,%r13)
	je	LBB115_20
	movq	-8(%rdi,%r13), %rbp
	andq	%r11, %rbp
	je	LBB115_20
	movq	%rbp, %rax
	shrq	$3, %rax
	cmpq	%rsi, %rax
	ja	LBB115_20
	shlq	$3, %r12
	movq	-16(%rdi,%rbp,2), %r15
	movq	%r12, %rax
	orq	$1, %rax
	cmpq	%rax, %r15
	jne	LBB115_20
	xorl	%eax, %eax
	cmpq	%rcx, %rbp
	je	LBB115_19
	cmpq	%rcx, %r12
	je	LBB115_19
	movq	(%rdx), %rsi
	andq	%r11, %rsi
	andq	8(%rdx), %r11
	movq	%rbx, %r8
	orq	$1, %r8
	movq	%r8, -16(%rdi,%r14,2)
	movq	%r14, -8(%rdi,%rbx,2)
	movq	(%rsp), %r8
	movq	%r8, -16(%rdi,%rbp,2)
	movq	%rcx, -8(%rdi,%r13)
	movq	%rbp, -8(%rdi,%r10)
	movq	%r15, -16(%rdi,%r10)
	movq	%rsi, (%rdx)
	movq	%r11, 8(%rdx)
LBB115_19:
	addq	$8, %rsp
	popq	%rbx
	popq	%r12
	popq	%r13
	popq	%r14
	popq	%r15
	popq	%rbp
	retq
LBB115_20:
	movl	$1, %ecx
	addq	$8, %rsp
	popq	%rbx
	popq	%r12
	popq	%r13
	popq	%r14
	popq	%r15
	popq	%rbp
	jmp	_ic_raw.move_calls.move_slow.5386baa488213e47
	.cfi_endproc
	.globl	_ic_list_move_to_back
	.p2align	4
_ic_list_move_to_back:
	.cfi_startproc
	pushq	%r15
	.cfi_def_cfa_offset 16
	pushq	%r14
	.cfi_def_cfa_offset 24
	pushq	%rbx
	.cfi_def_cfa_offset 32
	.cfi_offset %rbx, -32
	.cfi_offset %r14, -24
	.cfi_offset %r15, -16
	movl	%ecx, %r8d
	xorl	%r9d, %r9d
	testq	%rdi, %rdi
	sete	%r10b
	leal	1(%r8), %ecx
	movl	%r8d, %r11d
	movl	$4, %eax
	incl	%r11d
	je	LBB116_19
	movb	%r10b, %r9b
	shll	$12, %r9d
	addq	%r9, %rdi
	cmpq	%rcx, %rsi
	jb	LBB116_20
	leaq	(,%rcx,8), %r9
	movabsq	$68719476728, %r10
	movq	8(%rdx), %rax
	andq	%r10, %rax
	shlq	$4, %rcx
	movq	-16(%rdi,%rcx), %r14
	testb	$1, %r14b
	je	LBB116_14
	movq	-8(%rdi,%rcx), %r11
	andq	%r10, %r11
	je	LBB116_14
	movq	%r14, %rbx
	andq	%r10, %rbx
	je	LBB116_14
	movq	%r11, %r15
	shrq	$3, %r15
	cmpq	%rsi, %r15
	ja	LBB116_14
	movq	-16(%rdi,%r11,2), %r14
	movq	%r9, %r15
	orq	$1, %r15
	cmpq	%r15, %r14
	jne	LBB116_20
	movq	%rbx, %r15
	shrq	$3, %r15
	cmpq	%rsi, %r15
	ja	LBB116_20
	cmpq	%r9, -8(%rdi,%rbx,2)
	jne	LBB116_20
	testb	$1, -16(%rdi,%rbx,2)
	je	LBB116_20
	testq	%rax, %rax
	je	LBB116_20
	movq	%rax, %r15
	shrq	$3, %r15
	cmpq	%rsi, %r15
	ja	LBB116_20
	cmpq	$1, -16(%rdi,%rax,2)
	jne	LBB116_20
	andq	(%rdx), %r10
	movq	%rbx, %rsi
	orq	$1, %rsi
	movq	%rsi, -16(%rdi,%r11,2)
	movq	%r11, -8(%rdi,%rbx,2)
	movq	%r14, -16(%rdi,%rax,2)
	movq	%rax, -8(%rdi,%rcx)
	movq	$1, -16(%rdi,%rcx)
	movq	%r10, (%rdx)
	movq	%r9, 8(%rdx)
	xorl	%eax, %eax
	popq	%rbx
	popq	%r14
	popq	%r15
	retq
LBB116_14:
	cmpq	%r9, %rax
	jne	LBB116_20
	cmpq	$1, %r14
	jne	LBB116_20
	andq	-8(%rdi,%rcx), %r10
	je	LBB116_20
	movq	%r10, %rax
	shrq	$3, %rax
	cmpq	%rsi, %rax
	ja	LBB116_20
	orq	$1, %r9
	xorl	%eax, %eax
	cmpq	%r9, -16(%rdi,%r10,2)
	jne	LBB116_20
LBB116_19:
	popq	%rbx
	popq	%r14
	popq	%r15
	retq
LBB116_20:
	movl	$1, %ecx
	popq	%rbx
	popq	%r14
	popq	%r15
	jmp	_ic_raw.move_calls.move_to_end_slow.5386baa488213e47
	.cfi_endproc
	.globl	_ic_list_move_to_front
	.p2align	4
_ic_list_move_to_front:
	.cfi_startproc
	pushq	%r15
	.cfi_def_cfa_offset 16
	pushq	%r14
	.cfi_def_cfa_offset 24
	pushq	%rbx
	.cfi_def_cfa_offset 32
	.cfi_offset %rbx, -32
	.cfi_offset %r14, -24
	.cfi_offset %r15, -16
	movl	%ecx, %r8d
	xorl	%r9d, %r9d
	testq	%rdi, %rdi
	sete	%r10b
	leal	1(%r8), %ecx
	movl	%r8d, %r11d
	movl	$4, %eax
	incl	%r11d
	je	LBB117_22
	movb	%r10b, %r9b
	shll	$12, %r9d
	addq	%r9, %rdi
	cmpq	%rcx, %rsi
	jb	LBB117_23
	leaq	(,%rcx,8), %rax
	movabsq	$68719476728, %r9
	movq	(%rdx), %r10
	andq	%r9, %r10
	shlq	$4, %rcx
	movq	-16(%rdi,%rcx), %r11
	testb	$1, %r11b
	je	LBB117_15
	movq	-8(%rdi,%rcx), %rbx
	andq	%r9, %rbx
	je	LBB117_15
	movq	%r11, %r14
	andq	%r9, %r14
	je	LBB117_15
	movq	%rbx, %r15
	shrq	$3, %r15
	cmpq	%rsi, %r15
	ja	LBB117_15
	movq	%rax, %r15
	orq	$1, %r15
	cmpq	%r15, -16(%rdi,%rbx,2)
	jne	LBB117_15
	movq	%r14, %r15
	shrq	$3, %r15
	cmpq	%rsi, %r15
	ja	LBB117_15
	cmpq	%rax, -8(%rdi,%r14,2)
	jne	LBB117_15
	testb	$1, -16(%rdi,%r14,2)
	je	LBB117_15
	testq	%r10, %r10
	je	LBB117_23
	movq	%r10, %r11
	shrq	$3, %r11
	cmpq	%rsi, %r11
	ja	LBB117_23
	cmpq	$0, -8(%rdi,%r10,2)
	jne	LBB117_23
	testb	$1, -16(%rdi,%r10,2)
	je	LBB117_23
	andq	8(%rdx), %r9
	movq	%r14, %rsi
	orq	$1, %rsi
	movq	%rsi, -16(%rdi,%rbx,2)
	movq	%rbx, -8(%rdi,%r14,2)
	movq	%rax, -8(%rdi,%r10,2)
	movq	$0, -8(%rdi,%rcx)
	orq	$1, %r10
	movq	%r10, -16(%rdi,%rcx)
	movq	%rax, (%rdx)
	movq	%r9, 8(%rdx)
	xorl	%eax, %eax
	popq	%rbx
	popq	%r14
	popq	%r15
	retq
LBB117_15:
	cmpq	%rax, %r10
	jne	LBB117_23
	cmpq	$0, -8(%rdi,%rcx)
	jne	LBB117_23
	testb	$1, %r11b
	je	LBB117_23
	andq	%r9, %r11
	je	LBB117_23
	movq	%r11, %rcx
	shrq	$3, %rcx
	cmpq	%rsi, %rcx
	ja	LBB117_23
	cmpq	%rax, -8(%rdi,%r11,2)
	jne	LBB117_23
	xorl	%eax, %eax
	testb	$1, -16(%rdi,%r11,2)
	je	LBB117_23
LBB117_22:
	popq	%rbx
	popq	%r14
	popq	%r15
	retq
LBB117_23:
	xorl	%ecx, %ecx
	popq	%rbx
	popq	%r14
	popq	%r15
	jmp	_ic_raw.move_calls.move_to_end_slow.5386baa488213e47
	.cfi_endproc
	.globl	_ic_list_pop_back
	.p2align	4
_ic_list_pop_back:
	.cfi_startproc
	movabsq	$68719476728, %rax
	xorl	%r10d, %r10d
	testq	%rdi, %rdi
	sete	%r11b
	movq	8(%rdx), %r8
	andq	%rax, %r8
	je	LBB118_10
	movq	%r8, %r9
	shrq	$3, %r9
	cmpq	%rsi, %r9
	ja	LBB118_10
	movb	%r11b, %r10b
	shll	$12, %r10d
	addq	%r10, %rdi
	leaq	1(%rax), %r11
	movq	-16(%rdi,%r8,2), %r10
	andq	%r11, %r10
	cmpq	$1, %r10
	jne	LBB118_10
	movq	(%rdx), %r10
	andq	%rax, %r10
	andq	-8(%rdi,%r8,2), %rax
	je	LBB118_7
	pushq	%rbx
	.cfi_def_cfa_offset 16
	.cfi_offset %rbx, -16
	movq	%rax, %rbx
	shrq	$3, %rbx
	cmpq	%rsi, %rbx
	popq	%rbx
	ja	LBB118_10
	andq	-16(%rdi,%rax,2), %r11
	movq	%r8, %rsi
	orq	$1, %rsi
	cmpq	%rsi, %r11
	jne	LBB118_10
	movq	$1, -16(%rdi,%rax,2)
	jmp	LBB118_9
LBB118_7:
	cmpq	%r8, %r10
	jne	LBB118_10
	shrq	$3, %r10
	movq	%r10, %r9
	xorl	%r10d, %r10d
LBB118_9:
	movq	$0, -16(%rdi,%r8,2)
	movq	%r10, (%rdx)
	movq	%rax, 8(%rdx)
	decl	%r9d
	movl	%r9d, (%rcx)
	xorl	%eax, %eax
	retq
LBB118_10:
	movq	%rdx, %rdi
	movl	$1, %esi
	jmp	_ic_raw.list_calls.refusal_to_pop
	.cfi_endproc
	.globl	_ic_list_pop_front
	.p2align	4
_ic_list_pop_front:
	.cfi_startproc
	movq	%rdi, %rax
	movabsq	$68719476728, %r9
	xorl	%edi, %edi
	testq	%rax, %rax
	sete	%dil
	shll	$12, %edi
	addq	%rax, %rdi
	movq	(%rdx), %rax
	movq	%rax, %r8
	andq	%r9, %r8
	je	_ic_raw.list_calls.pop_front_slow.5386baa488213e47
	movq	%r8, %r10
	shrq	$3, %r10
	cmpq	%rsi, %r10
	ja	_ic_raw.list_calls.pop_front_slow.5386baa488213e47
	cmpq	$0, -8(%rdi,%r8,2)
	jne	_ic_raw.list_calls.pop_front_slow.5386baa488213e47
	movq	-16(%rdi,%r8,2), %r10
	testb	$1, %r10b
	je	_ic_raw.list_calls.pop_front_slow.5386baa488213e47
	andq	%r9, %r10
	je	_ic_raw.list_calls.pop_front_slow.5386baa488213e47
	movq	%r10, %r9
	shrq	$3, %r9
	cmpq	%rsi, %r9
	ja	_ic_raw.list_calls.pop_front_slow.5386baa488213e47
	cmpq	%r8, -8(%rdi,%r10,2)
	jne	_ic_raw.list_calls.pop_front_slow.5386baa488213e47
	testb	$1, -16(%rdi,%r10,2)
	je	_ic_raw.list_calls.pop_front_slow.5386baa488213e47
	movq	$0, -8(%rdi,%r10,2)
	movq	$0, -16(%rdi,%r8,2)
	movq	%r10, (%rdx)
	shrq	$3, %rax
	decl	%eax
	movl	%eax, (%rcx)
	xorl	%eax, %eax
	retq
	.cfi_endproc
	.globl	_ic_list_push_back
	.p2align	4
_ic_list_push_back:
	.cfi_startproc
	movq	%rdi, %rax
	xorl	%edi, %edi
	testq	%rax, %rax
	sete	%dil
	shll	$12, %edi
	addq	%rax, %rdi
	movabsq	$68719476728, %rax
	andq	8(%rdx), %rax
	je	LBB120_7
	movq	%rax, %r8
	shrq	$3, %r8
	cmpq	%rsi, %r8
	ja	LBB120_7
	leal	1(%rcx), %r8d
	cmpq	%r8, %rsi
	jb	LBB120_7
	testl	%r8d, %r8d
	je	LBB120_7
	cmpq	$1, -16(%rdi,%rax,2)
	jne	LBB120_7
	movq	%r8, %r9
	shlq	$4, %r9
	testb	$1, -16(%rdi,%r9)
	jne	LBB120_7
	shlq	$3, %r8
	movq	%r8, %rcx
	orq	$1, %rcx
	movq	%rcx, -16(%rdi,%rax,2)
	movq	%rax, -8(%rdi,%r9)
	movq	$1, -16(%rdi,%r9)
	movq	%r8, 8(%rdx)
	xorl	%eax, %eax
	retq
LBB120_7:
	jmp	_ic_raw.list_calls.push_back_slow.5386baa488213e47
	.cfi_endproc
	.globl	_ic_list_push_front
	.p2align	4
_ic_list_push_front:
	.cfi_startproc
	movq	%rdi, %rax
	movabsq	$68719476728, %r9
	xorl	%edi, %edi
	testq	%rax, %rax
	sete	%dil
	shll	$12, %edi
	addq	%rax, %rdi
	movq	8(%rdx), %r8
	andq	%r9, %r8
	movq	(%rdx), %rax
	movq	%r8, %r10
	andq	%r9, %rax
	je	LBB121_4
	movq	%rax, %r10
	shrq	$3, %r10
	cmpq	%rsi, %r10
	ja	LBB121_11
	testb	$1, -16(%rdi,%rax,2)
	je	LBB121_11
	andq	-8(%rdi,%rax,2), %r9
	movq	%r9, %r10
LBB121_4:
	leal	1(%rcx), %r9d
	testq	%r9, %r9
	je	LBB121_11
	cmpq	%r9, %rsi
	jb	LBB121_11
	testq	%r10, %r10
	jne	LBB121_11
	movq	%r9, %r10
	shlq	$4, %r10
	testb	$1, -16(%rdi,%r10)
	jne	LBB121_11
	shlq	$3, %r9
	movq	%r9, %rcx
	testq	%rax, %rax
	je	LBB121_10
	movq	%r9, -8(%rdi,%rax,2)
	movq	%r8, %rcx
LBB121_10:
	movq	$0, -8(%rdi,%r10)
	orq	$1, %rax
	movq	%rax, -16(%rdi,%r10)
	movq	%r9, (%rdx)
	movq	%rcx, 8(%rdx)
	xorl	%eax, %eax
	retq
LBB121_11:
	movl	$-1, %edx
	jmp	_ic_raw.table.RawTable.refusal.85cd03e557136797
	.cfi_endproc
	.globl	_ic_list_remove
	.p2align	4
_ic_list_remove:
	.cfi_startproc
	xorl	%r9d, %r9d
	testq	%rdi, %rdi
	sete	%r10b
	leal	1(%rcx), %r8d
	movl	%ecx, %r11d
	movl	$4, %eax
	incl	%r11d
	je	LBB122_11
	movb	%r10b, %r9b
	shll	$12, %r9d
	addq	%r9, %rdi
	cmpq	%r8, %rsi
	jb	LBB122_12
	movq	%r8, %rax
	shlq	$4, %rax
	movq	-16(%rdi,%rax), %r9
	testb	$1, %r9b
	je	LBB122_12
	movabsq	$68719476728, %r11
	movq	-8(%rdi,%rax), %r10
	andq	%r11, %r10
	je	LBB122_12
	andq	%r11, %r9
	je	LBB122_12
	movq	%r10, %r11
	shrq	$3, %r11
	cmpq	%rsi, %r11
	ja	LBB122_12
	shlq	$3, %r8
	movq	%r8, %r11
	orq	$1, %r11
	cmpq	%r11, -16(%rdi,%r10,2)
	jne	LBB122_12
	movq	%r9, %r11
	shrq	$3, %r11
	cmpq	%rsi, %r11
	ja	LBB122_12
	cmpq	%r8, -8(%rdi,%r9,2)
	jne	LBB122_12
	testb	$1, -16(%rdi,%r9,2)
	je	LBB122_12
	movq	%r9, %rcx
	orq	$1, %rcx
	movq	%rcx, -16(%rdi,%r10,2)
	movq	%r10, -8(%rdi,%r9,2)
	movq	$0, -16(%rdi,%rax)
	xorl	%eax, %eax
LBB122_11:
	retq
LBB122_12:
	jmp	_ic_raw.list_calls.remove_slow.5386baa488213e47
	.cfi_endproc
	.globl	_ic_list_replace
	.p2align	4
_ic_list_replace:
	.cfi_startproc
	pushq	%r15
	.cfi_def_cfa_offset 16
	pushq	%r14
	.cfi_def_cfa_offset 24
	pushq	%r13
	.cfi_def_cfa_offset 32
	pushq	%r12
	.cfi_def_cfa_offset 40
	pushq	%rbx
	.cfi_def_cfa_offset 48
	.cfi_offset %rbx, -48
	.cfi_offset %r12, -40
	.cfi_offset %r13, -32
	.cfi_offset %r14, -24
	.cfi_offset %r15, -16
	xorl	%r9d, %r9d
	testq	%rdi, %rdi
	sete	%r10b
	leal	1(%rcx), %r11d
	movl	%ecx, %ebx
	movl	$4, %eax
	incl	%ebx
	je	LBB123_22
	movb	%r10b, %r9b
	shll	$12, %r9d
	addq	%r9, %rdi
	cmpq	%r11, %rsi
	jb	LBB123_6
	movq	%r11, %rax
	shlq	$4, %rax
	movq	-16(%rdi,%rax), %r9
	testb	$1, %r9b
	je	LBB123_6
	shlq	$3, %r11
	movabsq	$68719476728, %r15
	movq	(%rdx), %r14
	andq	%r15, %r14
	movq	8(%rdx), %r10
	andq	%r15, %r10
	movq	-8(%rdi,%rax), %rbx
	andq	%r15, %rbx
	je	LBB123_7
	movq	%rbx, %r12
	shrq	$3, %r12
	cmpq	%rsi, %r12
	ja	LBB123_6
	leaq	1(%r15), %r12
	andq	-16(%rdi,%rbx,2), %r12
	movq	%r11, %r13
	orq	$1, %r13
	cmpq	%r13, %r12
	je	LBB123_8
	jmp	LBB123_6
LBB123_7:
	cmpq	%r11, %r14
	jne	LBB123_6
LBB123_8:
	movq	%r10, %r12
	andq	%r15, %r9
	je	LBB123_12
	movq	%r9, %r12
	shrq	$3, %r12
	cmpq	%rsi, %r12
	ja	LBB123_6
	testb	$1, -16(%rdi,%r9,2)
	je	LBB123_6
	andq	-8(%rdi,%r9,2), %r15
	movq	%r15, %r12
LBB123_12:
	leal	1(%r8), %r15d
	cmpq	%r15, %rsi
	jb	LBB123_6
	testl	%r15d, %r15d
	je	LBB123_6
	cmpq	%r11, %r12
	jne	LBB123_6
	movq	%r15, %r11
	shlq	$4, %r11
	testb	$1, -16(%rdi,%r11)
	jne	LBB123_6
	shlq	$3, %r15
	movq	%r15, %rcx
	testq	%rbx, %rbx
	je	LBB123_18
	movq	%r15, %rcx
	orq	$1, %rcx
	movq	%rcx, -16(%rdi,%rbx,2)
	movq	%r14, %rcx
LBB123_18:
	testq	%r9, %r9
	je	LBB123_19
	movq	%r15, -8(%rdi,%r9,2)
	jmp	LBB123_21
LBB123_6:
	movl	%ecx, %edx
	movl	%r8d, %ecx
	popq	%rbx
	popq	%r12
	popq	%r13
	popq	%r14
	popq	%r15
	jmp	_ic_raw.table.RawTable.refusal.85cd03e557136797
LBB123_19:
	movq	%r15, %r10
LBB123_21:
	movq	%rbx, -8(%rdi,%r11)
	orq	$1, %r9
	movq	%r9, -16(%rdi,%r11)
	movq	$0, -16(%rdi,%rax)
	movq	%rcx, (%rdx)
	movq	%r10, 8(%rdx)
	xorl	%eax, %eax
LBB123_22:
	popq	%rbx
	popq	%r12
	popq	%r13
	popq	%r14
	popq	%r15
	retq
	.cfi_endproc
	.globl	_ic_list_sort
	.p2align	4
_ic_list_sort:
	.cfi_startproc
	pushq	%rbp
	.cfi_def_cfa_offset 16
	pushq	%r15
	.cfi_def_cfa_offset 24
	pushq	%r14
	.cfi_def_cfa_offset 32
	pushq	%r13
	.cfi_def_cfa_offset 40
	pushq	%r12
	.cfi_def_cfa_offset 48
	pushq	%rbx
	.cfi_def_cfa_offset 56
	subq	$72, %rsp
	.cfi_def_cfa_offset 128
	.cfi_offset %rbx, -56
	.cfi_offset %r12, -48
	.cfi_offset %r13, -40
	.cfi_offset %r14, -32
	.cfi_offset %r15, -24
	.cfi_offset %rbp, -16
	xorl	%eax, %eax
	testq	%rdi, %rdi
	sete	%al
	shll	$12, %eax
	addq	%rdi, %rax
	xorl	%edi, %edi
	testq	%rdx, %rdx
	sete	%dil
	shll	$12, %edi
	addq	%rdx, %rdi
	movq	%rdi, 32(%rsp)
	movq	%rcx, 40(%rsp)
	movq	%rax, 8(%rsp)
	movq	%rsi, 16(%rsp)
	cmpq	%rsi, %rcx
	jb	LBB124_9
	movabsq	$68719476728, %r15
	movq	(%r8), %rbx
	andq	%r15, %rbx
	movq	8(%r8), %rdx
	andq	%r15, %rdx
	testq	%rbx, %rbx
	je	LBB124_10
	xorl	%r10d, %r10d
	movq	%rsi, %rdi
	movq	%rbx, %r11
	.p2align	4
LBB124_3:
	subq	$1, %rdi
	jb	LBB124_9
	movq	%r11, %r9
	shrq	$3, %r11
	cmpq	%rsi, %r11
	ja	LBB124_9
	movq	-16(%rax,%r9,2), %r11
	testb	$1, %r11b
	je	LBB124_9
	movq	-8(%rax,%r9,2), %r14
	andq	%r15, %r14
	cmpq	%r10, %r14
	jne	LBB124_9
	movq	%r9, %r10
	andq	%r15, %r11
	jne	LBB124_3
	cmpq	%r9, %rdx
	jne	LBB124_9
	movq	-16(%rax,%rbx,2), %r14
	movq	$1, -16(%rax,%rbx,2)
	andq	%r15, %r14
	je	LBB124_13
	movq	%r8, 24(%rsp)
	xorl	%r15d, %r15d
	.p2align	4
LBB124_15:
	leaq	48(%rsp), %rdi
	leaq	8(%rsp), %r12
	leaq	32(%rsp), %r13
	movq	%r12, %rsi
	movq	%r13, %rdx
	movq	%r14, %rcx
	movq	%r15, %r8
	callq	_ic_list_algorithms.sort.sort_front.6bd71b5c7308988e
	movq	48(%rsp), %rcx
	movzbl	56(%rsp), %ebp
	movq	64(%rsp), %r14
	movq	%r12, %rdi
	movq	%r13, %rsi
	movq	%rbx, %rdx
	callq	_ic_list_algorithms.merge.merge_runs.6bd71b5c7308988e
	movq	%rax, %rbx
	incq	%r15
	cmpb	$1, %bpl
	je	LBB124_15
	movq	%rbx, %rdx
	addq	%rbx, %rdx
	movq	8(%rsp), %rax
	movq	24(%rsp), %r8
	movabsq	$68719476728, %r15
	jmp	LBB124_17
LBB124_10:
	testq	%rdx, %rdx
	jne	LBB124_9
	xorl	%ebx, %ebx
	xorl	%eax, %eax
LBB124_20:
	movq	%rbx, (%r8)
	movq	%rax, 8(%r8)
	xorl	%eax, %eax
	addq	$72, %rsp
	popq	%rbx
	popq	%r12
	popq	%r13
	popq	%r14
	popq	%r15
	popq	%rbp
	retq
LBB124_9:
	movq	%rsi, %rdi
	movq	%rcx, %rsi
	addq	$72, %rsp
	popq	%rbx
	popq	%r12
	popq	%r13
	popq	%r14
	popq	%r15
	popq	%rbp
	jmp	_ic_raw.sort_calls.refusal.78cbab63d6c27224
LBB124_13:
	leaq	(%rbx,%rbx), %rdx
LBB124_17:
	movq	$0, -8(%rax,%rdx)
	movq	8(%rsp), %rcx
	movq	-16(%rcx,%rdx), %rdx
	movq	%rbx, %rax
	andq	%r15, %rdx
	je	LBB124_20
	.p2align	4
LBB124_18:
	movq	%rax, %rsi
	movq	%rdx, %rax
	movq	%rsi, -8(%rcx,%rdx,2)
	movq	8(%rsp), %rcx
	movq	-16(%rcx,%rdx,2), %rdx
	andq	%r15, %rdx
	jne	LBB124_18
	jmp	LBB124_20
	.cfi_endproc
	.globl	_ic_list_splice_after
	.p2align	4
_ic_list_splice_after:
	.cfi_startproc
	movq	%rdi, %rax
	xorl	%edi, %edi
	testq	%rax, %rax
	sete	%dil
	shll	$12, %edi
	addq	%rax, %rdi
	cmpl	$-1, %ecx
	jne	LBB125_14
	movabsq	$68719476728, %rax
	movq	(%rdx), %r9
	andq	%rax, %r9
	je	LBB125_14
	movq	%r9, %r10
	shrq	$3, %r10
	cmpq	%rsi, %r10
	ja	LBB125_14
	cmpq	$0, -8(%rdi,%r9,2)
	jne	LBB125_14
	movq	(%r8), %r10
	andq	%rax, %r10
	je	LBB125_14
	testb	$1, -16(%rdi,%r9,2)
	je	LBB125_14
	movq	%r10, %r11
	shrq	$3, %r11
	cmpq	%rsi, %r11
	ja	LBB125_14
	cmpq	$0, -8(%rdi,%r10,2)
	jne	LBB125_14
	movq	8(%r8), %r11
	andq	%rax, %r11
	je	LBB125_14
	testb	$1, -16(%rdi,%r10,2)
	je	LBB125_14
	pushq	%rbx
	.cfi_def_cfa_offset 16
	.cfi_offset %rbx, -16
	movq	%r11, %rbx
	shrq	$3, %rbx
	cmpq	%rsi, %rbx
	popq	%rbx
	ja	LBB125_14
	cmpq	%r10, %r9
	je	LBB125_14
	cmpq	$1, -16(%rdi,%r11,2)
	jne	LBB125_14
	andq	8(%rdx), %rax
	movq	%r11, -8(%rdi,%r9,2)
	movq	$0, -8(%rdi,%r10,2)
	orq	$1, %r9
	movq	%r9, -16(%rdi,%r11,2)
	movq	%r10, (%rdx)
	movq	%rax, 8(%rdx)
	movq	$0, 8(%r8)
	movq	$0, (%r8)
	xorl	%eax, %eax
	retq
LBB125_14:
	xorl	%r9d, %r9d
	jmp	_ic_raw.list_calls.splice_slow.5386baa488213e47
	.cfi_endproc
	.globl	_ic_list_splice_before
	.p2align	4
_ic_list_splice_before:
	.cfi_startproc
	movq	%rdi, %rax
	xorl	%edi, %edi
	testq	%rax, %rax
	sete	%dil
	shll	$12, %edi
	addq	%rax, %rdi
	cmpl	$-1, %ecx
	jne	LBB126_13
	movabsq	$68719476728, %rax
	movq	8(%rdx), %r9
	andq	%rax, %r9
	je	LBB126_13
	movq	%r9, %r10
	shrq	$3, %r10
	cmpq	%rsi, %r10
	ja	LBB126_13
	movq	(%r8), %r10
	andq	%rax, %r10
	je	LBB126_13
	cmpq	$1, -16(%rdi,%r9,2)
	jne	LBB126_13
	movq	%r10, %r11
	shrq	$3, %r11
	cmpq	%rsi, %r11
	ja	LBB126_13
	cmpq	$0, -8(%rdi,%r10,2)
	jne	LBB126_13
	movq	8(%r8), %r11
	andq	%rax, %r11
	je	LBB126_13
	testb	$1, -16(%rdi,%r10,2)
	je	LBB126_13
	pushq	%rbx
	.cfi_def_cfa_offset 16
	.cfi_offset %rbx, -16
	movq	%r11, %rbx
	shrq	$3, %rbx
	cmpq	%rsi, %rbx
	popq	%rbx
	ja	LBB126_13
	andq	(%rdx), %rax
	cmpq	%r10, %rax
	je	LBB126_13
	cmpq	$1, -16(%rdi,%r11,2)
	jne	LBB126_13
	movq	%r10, %rcx
	orq	$1, %rcx
	movq	%rcx, -16(%rdi,%r9,2)
	movq	%r9, -8(%rdi,%r10,2)
	movq	$1, -16(%rdi,%r11,2)
	movq	%rax, (%rdx)
	movq	%r11, 8(%rdx)
	movq	$0, 8(%r8)
	movq	$0, (%r8)
	xorl	%eax, %eax
	retq
LBB126_13:
	movl	$1, %r9d
	jmp	_ic_raw.list_calls.splice_slow.5386baa488213e47
	.cfi_endproc
	.globl	_ic_list_split_after
	.p2align	4
_ic_list_split_after:
	.cfi_startproc
	movq	%rdi, %rax
	movabsq	$68719476728, %r9
	xorl	%edi, %edi
	testq	%rax, %rax
	sete	%dil
	shll	$12, %edi
	addq	%rax, %rdi
	testq	%r9, (%r8)
	jne	LBB127_10
	testq	%r9, 8(%r8)
	jne	LBB127_10
	leal	1(%rcx), %eax
	movl	%ecx, %r10d
	incl	%r10d
	je	LBB127_10
	cmpq	%rax, %rsi
	jb	LBB127_10
	movq	%rax, %r11
	shlq	$4, %r11
	movq	-16(%rdi,%r11), %r10
	testb	$1, %r10b
	je	LBB127_10
	andq	%r9, %r10
	je	LBB127_10
	pushq	%rbx
	.cfi_def_cfa_offset 16
	.cfi_offset %rbx, -16
	movq	%r10, %rbx
	shrq	$3, %rbx
	cmpq	%rsi, %rbx
	popq	%rbx
	ja	LBB127_10
	shlq	$3, %rax
	cmpq	%rax, -8(%rdi,%r10,2)
	jne	LBB127_10
	testb	$1, -16(%rdi,%r10,2)
	je	LBB127_10
	movq	(%rdx), %rcx
	andq	%r9, %rcx
	andq	8(%rdx), %r9
	movq	$1, -16(%rdi,%r11)
	movq	$0, -8(%rdi,%r10,2)
	movq	%rcx, (%rdx)
	movq	%rax, 8(%rdx)
	movq	%r10, (%r8)
	movq	%r9, 8(%r8)
	xorl	%eax, %eax
	retq
LBB127_10:
	xorl	%r9d, %r9d
	jmp	_ic_raw.list_calls.split_slow.5386baa488213e47
	.cfi_endproc
	.globl	_ic_list_split_before
	.p2align	4
_ic_list_split_before:
	.cfi_startproc
	pushq	%rbx
	.cfi_def_cfa_offset 16
	.cfi_offset %rbx, -16
	movq	%rdi, %rax
	movabsq	$68719476728, %r9
	xorl	%edi, %edi
	testq	%rax, %rax
	sete	%dil
	shll	$12, %edi
	addq	%rax, %rdi
	testq	%r9, (%r8)
	jne	LBB128_9
	testq	%r9, 8(%r8)
	jne	LBB128_9
	leal	1(%rcx), %eax
	movl	%ecx, %r10d
	incl	%r10d
	je	LBB128_9
	cmpq	%rax, %rsi
	jb	LBB128_9
	movq	%rax, %r10
	shlq	$4, %r10
	testb	$1, -16(%rdi,%r10)
	je	LBB128_9
	movq	-8(%rdi,%r10), %r11
	andq	%r9, %r11
	je	LBB128_9
	movq	%r11, %rbx
	shrq	$3, %rbx
	cmpq	%rsi, %rbx
	ja	LBB128_9
	shlq	$3, %rax
	movq	%rax, %rbx
	orq	$1, %rbx
	cmpq	%rbx, -16(%rdi,%r11,2)
	jne	LBB128_9
	movq	(%rdx), %rcx
	andq	%r9, %rcx
	andq	8(%rdx), %r9
	movq	$1, -16(%rdi,%r11,2)
	movq	$0, -8(%rdi,%r10)
	movq	%rax, (%rdx)
	movq	%r9, 8(%rdx)
	movq	%rcx, (%r8)
	movq	%r11, 8(%r8)
	xorl	%eax, %eax
	popq	%rbx
	retq
LBB128_9:
	movl	$1, %r9d
	popq	%rbx
	jmp	_ic_raw.list_calls.split_slow.5386baa488213e47
	.cfi_endproc
	.globl	_ic_list_transfer_after
	.p2align	4
_ic_list_transfer_after:
	.cfi_startproc
	pushq	%rax
	.cfi_def_cfa_offset 16
	movq	%r8, %rax
	movl	%ecx, %r8d
	xorl	%ecx, %ecx
	testq	%rdi, %rdi
	sete	%cl
	shll	$12, %ecx
	addq	%rcx, %rdi
	movl	%r9d, (%rsp)
	xorl	%ecx, %ecx
	movq	%rax, %r9
	callq	_ic_raw_lists.transfer_calls.transfer_at.5386baa488213e47
	popq	%rcx
	retq
	.cfi_endproc
	.globl	_ic_list_transfer_before
	.p2align	4
_ic_list_transfer_before:
	.cfi_startproc
	pushq	%rax
	.cfi_def_cfa_offset 16
	movq	%r8, %rax
	movl	%ecx, %r8d
	xorl	%ecx, %ecx
	testq	%rdi, %rdi
	sete	%cl
	shll	$12, %ecx
	addq	%rcx, %rdi
	movl	%r9d, (%rsp)
	movl	$1, %ecx
	movq	%rax, %r9
	callq	_ic_raw_lists.transfer_calls.transfer_at.5386baa488213e47
	popq	%rcx
	retq
	.cfi_endproc
	.globl	_ic_ring32_exchange
	.p2align	4
_ic_ring32_exchange:
	.cfi_startproc
	pushq	%rbx
	.cfi_def_cfa_offset 16
	.cfi_offset %rbx, -16
	xorl	%r10d, %r10d
	testq	%rdi, %rdi
	sete	%r11b
	leal	1(%rdx), %r8d
	movl	%edx, %r9d
	movl	$4, %eax
	incl	%r9d
	je	LBB131_15
	leal	1(%rcx), %r9d
	movl	%ecx, %ebx
	incl	%ebx
	je	LBB131_15
	movb	%r11b, %r10b
	shll	$12, %r10d
	addq	%r10, %rdi
	cmpq	$536870911, %rsi
	movl	$536870911, %r10d
	cmovbq	%rsi, %r10
	cmpq	%r8, %r10
	jb	LBB131_16
	shlq	$3, %r8
	movl	-8(%rdi,%r8), %eax
	testb	$1, %al
	je	LBB131_16
	andl	$-8, %eax
	je	LBB131_16
	movl	%eax, %r11d
	shrl	$3, %r11d
	cmpq	%r10, %r11
	ja	LBB131_16
	testb	$1, -8(%rdi,%rax)
	je	LBB131_16
	movl	-4(%rdi,%rax), %r11d
	andl	$-8, %r11d
	cmpq	%r11, %r8
	jne	LBB131_16
	cmpq	%r9, %r10
	jb	LBB131_16
	shlq	$3, %r9
	movl	-8(%rdi,%r9), %r11d
	testb	$1, %r11b
	je	LBB131_16
	andl	$-8, %r11d
	je	LBB131_16
	movl	%r11d, %ebx
	shrl	$3, %ebx
	cmpq	%r10, %rbx
	ja	LBB131_16
	testb	$1, -8(%rdi,%r11)
	je	LBB131_16
	movl	-4(%rdi,%r11), %r10d
	andl	$-8, %r10d
	cmpq	%r10, %r9
	jne	LBB131_16
	movl	%r11d, %ecx
	orl	$1, %ecx
	movl	%ecx, -8(%rdi,%r8)
	movl	%r8d, -4(%rdi,%r11)
	movl	%eax, %ecx
	orl	$1, %ecx
	movl	%ecx, -8(%rdi,%r9)
	movl	%r9d, -4(%rdi,%rax)
	xorl	%eax, %eax
LBB131_15:
	popq	%rbx
	retq
LBB131_16:
	popq	%rbx
	jmp	_ic_raw.table.RawTable.refusal_at_both.05a19227735374d3
	.cfi_endproc
	.globl	_ic_ring32_init
	.p2align	4
_ic_ring32_init:
	.cfi_startproc
	movq	%rdi, %rax
	xorl	%edi, %edi
	testq	%rax, %rax
	sete	%dil
	shll	$12, %edi
	addq	%rax, %rdi
	leal	1(%rdx), %eax
	cmpq	$536870911, %rsi
	movl	$536870911, %ecx
	cmovbq	%rsi, %rcx
	movl	%edx, %r8d
	incl	%r8d
	je	LBB132_4
	cmpq	%rax, %rcx
	jb	LBB132_4
	shlq	$3, %rax
	testb	$1, -8(%rdi,%rax)
	jne	LBB132_4
	movl	%eax, -4(%rdi,%rax)
	movl	%eax, %ecx
	orl	$1, %ecx
	movl	%ecx, -8(%rdi,%rax)
	xorl	%eax, %eax
	retq
LBB132_4:
	jmp	_ic_raw.table.refusal_at_end.05a19227735374d3
	.cfi_endproc
	.globl	_ic_ring32_insert_after
	.p2align	4
_ic_ring32_insert_after:
	.cfi_startproc
	xorl	%r9d, %r9d
	testq	%rdi, %rdi
	sete	%r10b
	leal	1(%rdx), %r8d
	movl	%edx, %r11d
	movl	$4, %eax
	incl	%r11d
	je	LBB133_11
	movb	%r10b, %r9b
	shll	$12, %r9d
	addq	%r9, %rdi
	cmpq	$536870911, %rsi
	movl	$536870911, %r9d
	cmovbq	%rsi, %r9
	cmpq	%r8, %r9
	jb	LBB133_12
	shlq	$3, %r8
	movl	-8(%rdi,%r8), %eax
	testb	$1, %al
	je	LBB133_12
	andl	$-8, %eax
	je	LBB133_12
	movl	%eax, %r10d
	shrl	$3, %r10d
	cmpq	%r9, %r10
	ja	LBB133_12
	testb	$1, -8(%rdi,%rax)
	je	LBB133_12
	leal	1(%rcx), %r10d
	testq	%r10, %r10
	je	LBB133_12
	movl	-4(%rdi,%rax), %r11d
	andl	$-8, %r11d
	cmpq	%r11, %r8
	jne	LBB133_12
	cmpq	%r10, %r9
	jb	LBB133_12
	shlq	$3, %r10
	testb	$1, -8(%rdi,%r10)
	jne	LBB133_12
	movl	%r8d, -4(%rdi,%r10)
	movl	%eax, %ecx
	orl	$1, %ecx
	movl	%ecx, -8(%rdi,%r10)
	movl	%r10d, %ecx
	orl	$1, %ecx
	movl	%ecx, -8(%rdi,%r8)
	movl	%r10d, -4(%rdi,%rax)
	xorl	%eax, %eax
LBB133_11:
	retq
LBB133_12:
	jmp	_ic_raw.table.RawTable.refusal.05a19227735374d3
	.cfi_endproc
	.globl	_ic_ring32_insert_before
	.p2align	4
_ic_ring32_insert_before:
	.cfi_startproc
	xorl	%r9d, %r9d
	testq	%rdi, %rdi
	sete	%r10b
	leal	1(%rdx), %r8d
	movl	%edx, %r11d
	movl	$4, %eax
	incl	%r11d
	je	LBB134_11
	movb	%r10b, %r9b
	shll	$12, %r9d
	addq	%r9, %rdi
	cmpq	$536870911, %rsi
	movl	$536870911, %r9d
	cmovbq	%rsi, %r9
	cmpq	%r8, %r9
	jb	LBB134_12
	shlq	$3, %r8
	testb	$1, -8(%rdi,%r8)
	je	LBB134_12
	movl	-4(%rdi,%r8), %eax
	andl	$-8, %eax
	je	LBB134_12
	movl	%eax, %r10d
	shrl	$3, %r10d
	cmpq	%r9, %r10
	ja	LBB134_12
	leal	1(%rcx), %r10d
	testq	%r10, %r10
	je	LBB134_12
	pushq	%rbx
	.cfi_def_cfa_offset 16
	.cfi_offset %rbx, -16
	movl	-8(%rdi,%rax), %r11d
	movl	%r11d, %ebx
	andl	$1, %ebx
	popq	%rbx
	je	LBB134_12
	andl	$-8, %r11d
	cmpq	%r11, %r8
	jne	LBB134_12
	cmpq	%r10, %r9
	jb	LBB134_12
	shlq	$3, %r10
	testb	$1, -8(%rdi,%r10)
	jne	LBB134_12
	movl	%eax, -4(%rdi,%r10)
	movl	%r8d, %ecx
	orl	$1, %ecx
	movl	%ecx, -8(%rdi,%r10)
	movl	%r10d, %ecx
	orl	$1, %ecx
	movl	%ecx, -8(%rdi,%rax)
	movl	%r10d, -4(%rdi,%r8)
	xorl	%eax, %eax
LBB134_11:
	retq
LBB134_12:
	jmp	_ic_raw.table.RawTable.refusal.05a19227735374d3
	.cfi_endproc
	.globl	_ic_ring32_move_after
	.p2align	4
_ic_ring32_move_after:
	.cfi_startproc
	movl	%ecx, %r8d
	movl	%edx, %ecx
	xorl	%eax, %eax
	testq	%rdi, %rdi
	sete	%al
	shll	$12, %eax
	addq	%rax, %rdi
	xorl	%edx, %edx
	jmp	_ic_raw.ring_calls.move_beside.5b268f449b4ebf83
	.cfi_endproc
	.globl	_ic_ring32_move_before
	.p2align	4
_ic_ring32_move_before:
	.cfi_startproc
	movl	%ecx, %r8d
	movl	%edx, %ecx
	xorl	%eax, %eax
	testq	%rdi, %rdi
	sete	%al
	shll	$12, %eax
	addq	%rax, %rdi
	movl	$1, %edx
	jmp	_ic_raw.ring_calls.move_beside.5b268f449b4ebf83
	.cfi_endproc
	.globl	_ic_ring32_pop_back
	.p2align	4
_ic_ring32_pop_back:
	.cfi_startproc
	movq	%rcx, %r8
	movl	%edx, %ecx
	xorl	%eax, %eax
	testq	%rdi, %rdi
	sete	%al
	shll	$12, %eax
	addq	%rax, %rdi
	movl	$1, %edx
	jmp	_ic_raw.ring_calls.pop.5b268f449b4ebf83
	.cfi_endproc
	.globl	_ic_ring32_pop_front
	.p2align	4
_ic_ring32_pop_front:
	.cfi_startproc
	movq	%rcx, %r8
	movl	%edx, %ecx
	xorl	%eax, %eax
	testq	%rdi, %rdi
	sete	%al
	shll	$12, %eax
	addq	%rax, %rdi
	xorl	%edx, %edx
	jmp	_ic_raw.ring_calls.pop.5b268f449b4ebf83
	.cfi_endproc
	.globl	_ic_ring32_remove
	.p2align	4
_ic_ring32_remove:
	.cfi_startproc
	xorl	%r8d, %r8d
	testq	%rdi, %rdi
	sete	%r9b
	leal	1(%rdx), %ecx
	movl	%edx, %r10d
	movl	$4, %eax
	incl	%r10d
	je	LBB139_12
	movb	%r9b, %r8b
	shll	$12, %r8d
	addq	%r8, %rdi
	cmpq	$536870911, %rsi
	movl	$536870911, %r9d
	cmovbq	%rsi, %r9
	cmpq	%rcx, %r9
	jb	LBB139_13
	shlq	$3, %rcx
	movl	-8(%rdi,%rcx), %eax
	testb	$1, %al
	je	LBB139_13
	movl	-4(%rdi,%rcx), %r8d
	andl	$-8, %r8d
	je	LBB139_13
	movl	%r8d, %r10d
	shrl	$3, %r10d
	cmpq	%r9, %r10
	ja	LBB139_13
	movl	-8(%rdi,%r8), %r10d
	testb	$1, %r10b
	je	LBB139_13
	andl	$-8, %r10d
	cmpq	%r10, %rcx
	jne	LBB139_13
	andl	$-8, %eax
	je	LBB139_13
	movl	%eax, %r10d
	shrl	$3, %r10d
	cmpq	%r9, %r10
	ja	LBB139_13
	testb	$1, -8(%rdi,%rax)
	je	LBB139_13
	movl	-4(%rdi,%rax), %r9d
	andl	$-8, %r9d
	cmpq	%r9, %rcx
	jne	LBB139_13
	movl	%eax, %edx
	orl	$1, %edx
	movl	%edx, -8(%rdi,%r8)
	movl	%r8d, -4(%rdi,%rax)
	movl	$0, -8(%rdi,%rcx)
	xorl	%eax, %eax
LBB139_12:
	retq
LBB139_13:
	jmp	_ic_raw.table.RawTable.refusal_at.05a19227735374d3
	.cfi_endproc
	.globl	_ic_ring32_replace
	.p2align	4
_ic_ring32_replace:
	.cfi_startproc
	xorl	%r9d, %r9d
	testq	%rdi, %rdi
	sete	%r10b
	leal	1(%rdx), %r8d
	movl	%edx, %r11d
	movl	$4, %eax
	incl	%r11d
	je	LBB140_15
	movb	%r10b, %r9b
	shll	$12, %r9d
	addq	%r9, %rdi
	cmpq	$536870911, %rsi
	movl	$536870911, %eax
	cmovbq	%rsi, %rax
	cmpq	%r8, %rax
	jb	LBB140_16
	shlq	$3, %r8
	movl	-8(%rdi,%r8), %r11d
	testb	$1, %r11b
	je	LBB140_16
	movl	-4(%rdi,%r8), %r9d
	andl	$-8, %r9d
	je	LBB140_16
	movl	%r9d, %r10d
	shrl	$3, %r10d
	cmpq	%rax, %r10
	ja	LBB140_16
	movl	-8(%rdi,%r9), %r10d
	testb	$1, %r10b
	je	LBB140_16
	andl	$-8, %r10d
	cmpq	%r10, %r8
	jne	LBB140_16
	movl	$4294967288, %r10d
	andq	%r11, %r10
	je	LBB140_16
	shrl	$3, %r11d
	cmpq	%rax, %r11
	ja	LBB140_16
	testb	$1, -8(%rdi,%r10)
	je	LBB140_16
	leal	1(%rcx), %r11d
	testq	%r11, %r11
	je	LBB140_16
	pushq	%rbx
	.cfi_def_cfa_offset 16
	.cfi_offset %rbx, -16
	movl	-4(%rdi,%r10), %ebx
	andl	$-8, %ebx
	cmpq	%rbx, %r8
	popq	%rbx
	jne	LBB140_16
	cmpq	%r11, %rax
	jb	LBB140_16
	shlq	$3, %r11
	testb	$1, -8(%rdi,%r11)
	jne	LBB140_16
	movl	%r9d, -4(%rdi,%r11)
	movl	%r11d, %eax
	orl	$1, %eax
	movl	%eax, -8(%rdi,%r9)
	movl	%r11d, -4(%rdi,%r8)
	cmpq	%r10, %r8
	cmoveq	%r11, %r10
	movl	%r10d, %eax
	orl	$1, %eax
	movl	%eax, -8(%rdi,%r11)
	movl	%r11d, -4(%rdi,%r10)
	movl	$0, -8(%rdi,%r8)
	xorl	%eax, %eax
LBB140_15:
	retq
LBB140_16:
	jmp	_ic_raw.table.RawTable.refusal.05a19227735374d3
	.cfi_endproc
	.globl	_ic_ring32_splice_after
	.p2align	4
_ic_ring32_splice_after:
	.cfi_startproc
	movl	%ecx, %r8d
	movl	%edx, %ecx
	xorl	%eax, %eax
	testq	%rdi, %rdi
	sete	%al
	shll	$12, %eax
	addq	%rax, %rdi
	xorl	%edx, %edx
	jmp	_ic_raw.ring_calls.splice.5b268f449b4ebf83
	.cfi_endproc
	.globl	_ic_ring32_splice_before
	.p2align	4
_ic_ring32_splice_before:
	.cfi_startproc
	movl	%ecx, %r8d
	movl	%edx, %ecx
	xorl	%eax, %eax
	testq	%rdi, %rdi
	sete	%al
	shll	$12, %eax
	addq	%rax, %rdi
	movl	$1, %edx
	jmp	_ic_raw.ring_calls.splice.5b268f449b4ebf83
	.cfi_endproc
	.globl	_ic_ring_check
	.p2align	4
_ic_ring_check:
	.cfi_startproc
	movl	%edx, %r8d
	xorl	%r9d, %r9d
	testq	%rdi, %rdi
	sete	%r10b
	leal	1(%r8), %edx
	movl	$4, %eax
	incl	%r8d
	je	LBB143_13
	movb	%r10b, %r9b
	shll	$12, %r9d
	addq	%r9, %rdi
	shlq	$3, %rdx
	testq	%rsi, %rsi
	je	_ic_raw.table.RawTable.refusal_of.5f318a721acb0238
	movabsq	$68719476728, %r8
	xorl	%eax, %eax
	movq	%rdx, %r9
	.p2align	4
LBB143_3:
	movq	%r9, %r10
	shrq	$3, %r10
	cmpq	%rsi, %r10
	ja	_ic_raw.table.RawTable.refusal_of.5f318a721acb0238
	movq	-16(%rdi,%r9,2), %r10
	testb	$1, %r10b
	je	_ic_raw.table.RawTable.refusal_of.5f318a721acb0238
	andq	%r8, %r10
	je	_ic_raw.table.RawTable.refusal_of.5f318a721acb0238
	movq	%r10, %r11
	shrq	$3, %r11
	cmpq	%rsi, %r11
	ja	_ic_raw.table.RawTable.refusal_of.5f318a721acb0238
	testb	$1, -16(%rdi,%r10,2)
	je	_ic_raw.table.RawTable.refusal_of.5f318a721acb0238
	movq	-8(%rdi,%r10,2), %r11
	andq	%r8, %r11
	cmpq	%r9, %r11
	jne	_ic_raw.table.RawTable.refusal_of.5f318a721acb0238
	cmpq	%rdx, %r10
	je	LBB143_12
	incq	%rax
	movq	%r10, %r9
	cmpq	%rax, %rsi
	jne	LBB143_3
	jmp	_ic_raw.table.RawTable.refusal_of.5f318a721acb0238
LBB143_12:
	movq	%rax, (%rcx)
	xorl	%eax, %eax
LBB143_13:
	retq
	.cfi_endproc
	.globl	_ic_ring_exchange
	.p2align	4
_ic_ring_exchange:
	.cfi_startproc
	pushq	%r15
	.cfi_def_cfa_offset 16
	pushq	%r14
	.cfi_def_cfa_offset 24
	pushq	%rbx
	.cfi_def_cfa_offset 32
	.cfi_offset %rbx, -32
	.cfi_offset %r14, -24
	.cfi_offset %r15, -16
	xorl	%r10d, %r10d
	testq	%rdi, %rdi
	sete	%r11b
	leal	1(%rdx), %r8d
	movl	%edx, %r9d
	movl	$4, %eax
	incl	%r9d
	je	LBB144_15
	leal	1(%rcx), %r9d
	movl	%ecx, %ebx
	incl	%ebx
	je	LBB144_15
	movb	%r11b, %r10b
	shll	$12, %r10d
	addq	%r10, %rdi
	cmpq	%r8, %rsi
	jb	LBB144_16
	movq	%r8, %r10
	shlq	$4, %r10
	movq	-16(%rdi,%r10), %rax
	testb	$1, %al
	je	LBB144_16
	movabsq	$68719476728, %r11
	andq	%r11, %rax
	je	LBB144_16
	movq	%rax, %rbx
	shrq	$3, %rbx
	cmpq	%rsi, %rbx
	ja	LBB144_16
	testb	$1, -16(%rdi,%rax,2)
	je	LBB144_16
	cmpq	%r9, %rsi
	jb	LBB144_16
	shlq	$3, %r8
	movq	-8(%rdi,%rax,2), %rbx
	andq	%r11, %rbx
	cmpq	%r8, %rbx
	jne	LBB144_16
	movq	%r9, %rbx
	shlq	$4, %rbx
	movq	-16(%rdi,%rbx), %r14
	testb	$1, %r14b
	je	LBB144_16
	andq	%r11, %r14
	je	LBB144_16
	movq	%r14, %r15
	shrq	$3, %r15
	cmpq	%rsi, %r15
	ja	LBB144_16
	testb	$1, -16(%rdi,%r14,2)
	je	LBB144_16
	shlq	$3, %r9
	andq	-8(%rdi,%r14,2), %r11
	cmpq	%r9, %r11
	jne	LBB144_16
	movq	%r14, %rcx
	orq	$1, %rcx
	movq	%rcx, -16(%rdi,%r10)
	movq	%r8, -8(%rdi,%r14,2)
	movq	%rax, %rcx
	orq	$1, %rcx
	movq	%rcx, -16(%rdi,%rbx)
	movq	%r9, -8(%rdi,%rax,2)
	xorl	%eax, %eax
LBB144_15:
	popq	%rbx
	popq	%r14
	popq	%r15
	retq
LBB144_16:
	popq	%rbx
	popq	%r14
	popq	%r15
	jmp	_ic_raw.table.RawTable.refusal_at_both.85cd03e557136797
	.cfi_endproc
	.globl	_ic_ring_init
	.p2align	4
_ic_ring_init:
	.cfi_startproc
	movq	%rdi, %rax
	xorl	%edi, %edi
	testq	%rax, %rax
	sete	%dil
	shll	$12, %edi
	addq	%rax, %rdi
	leal	1(%rdx), %eax
	movl	%edx, %ecx
	incl	%ecx
	je	LBB145_4
	cmpq	%rax, %rsi
	jb	LBB145_4
	movq	%rax, %rcx
	shlq	$4, %rcx
	testb	$1, -16(%rdi,%rcx)
	jne	LBB145_4
	shlq	$3, %rax
	movq	%rax, -8(%rdi,%rcx)
	orq	$1, %rax
	movq	%rax, -16(%rdi,%rcx)
	xorl	%eax, %eax
	retq
LBB145_4:
	jmp	_ic_raw.table.refusal_at_end.85cd03e557136797
	.cfi_endproc
	.globl	_ic_ring_insert_after
	.p2align	4
_ic_ring_insert_after:
	.cfi_startproc
	xorl	%r9d, %r9d
	testq	%rdi, %rdi
	sete	%r10b
	leal	1(%rdx), %r8d
	movl	%edx, %r11d
	movl	$4, %eax
	incl	%r11d
	je	LBB146_11
	movb	%r10b, %r9b
	shll	$12, %r9d
	addq	%r9, %rdi
	cmpq	%r8, %rsi
	jb	LBB146_12
	movq	%r8, %rax
	shlq	$4, %rax
	movq	-16(%rdi,%rax), %r9
	testb	$1, %r9b
	je	LBB146_12
	movabsq	$68719476728, %r11
	andq	%r11, %r9
	je	LBB146_12
	movq	%r9, %r10
	shrq	$3, %r10
	cmpq	%rsi, %r10
	ja	LBB146_12
	testb	$1, -16(%rdi,%r9,2)
	je	LBB146_12
	leal	1(%rcx), %r10d
	testq	%r10, %r10
	je	LBB146_12
	cmpq	%r10, %rsi
	jb	LBB146_12
	shlq	$3, %r8
	andq	-8(%rdi,%r9,2), %r11
	cmpq	%r8, %r11
	jne	LBB146_12
	movq	%r10, %r11
	shlq	$4, %r11
	testb	$1, -16(%rdi,%r11)
	jne	LBB146_12
	shlq	$3, %r10
	movq	%r8, -8(%rdi,%r11)
	movq	%r9, %rcx
	orq	$1, %rcx
	movq	%rcx, -16(%rdi,%r11)
	movq	%r10, %rcx
	orq	$1, %rcx
	movq	%rcx, -16(%rdi,%rax)
	movq	%r10, -8(%rdi,%r9,2)
	xorl	%eax, %eax
LBB146_11:
	retq
LBB146_12:
	jmp	_ic_raw.table.RawTable.refusal.85cd03e557136797
	.cfi_endproc
	.globl	_ic_ring_insert_before
	.p2align	4
_ic_ring_insert_before:
	.cfi_startproc
	pushq	%rbp
	.cfi_def_cfa_offset 16
	pushq	%rbx
	.cfi_def_cfa_offset 24
	.cfi_offset %rbx, -24
	.cfi_offset %rbp, -16
	xorl	%r9d, %r9d
	testq	%rdi, %rdi
	sete	%r10b
	leal	1(%rdx), %r8d
	movl	%edx, %r11d
	movl	$4, %eax
	incl	%r11d
	je	LBB147_11
	movb	%r10b, %r9b
	shll	$12, %r9d
	addq	%r9, %rdi
	cmpq	%r8, %rsi
	jb	LBB147_12
	movq	%r8, %rax
	shlq	$4, %rax
	testb	$1, -16(%rdi,%rax)
	je	LBB147_12
	movabsq	$68719476728, %r11
	movq	-8(%rdi,%rax), %r9
	andq	%r11, %r9
	je	LBB147_12
	movq	%r9, %r10
	shrq	$3, %r10
	cmpq	%rsi, %r10
	ja	LBB147_12
	leal	1(%rcx), %r10d
	testq	%r10, %r10
	je	LBB147_12
	cmpq	%r10, %rsi
	jb	LBB147_12
	movq	-16(%rdi,%r9,2), %rbx
	movl	%ebx, %ebp
	andl	$1, %ebp
	je	LBB147_12
	shlq	$3, %r8
	andq	%r11, %rbx
	cmpq	%r8, %rbx
	jne	LBB147_12
	movq	%r10, %r11
	shlq	$4, %r11
	testb	$1, -16(%rdi,%r11)
	jne	LBB147_12
	shlq	$3, %r10
	movq	%r9, -8(%rdi,%r11)
	orq	$1, %r8
	movq	%r8, -16(%rdi,%r11)
	movq	%r10, %rcx
	orq	$1, %rcx
	movq	%rcx, -16(%rdi,%r9,2)
	movq	%r10, -8(%rdi,%rax)
	xorl	%eax, %eax
LBB147_11:
	popq	%rbx
	popq	%rbp
	retq
LBB147_12:
	popq	%rbx
	popq	%rbp
	jmp	_ic_raw.table.RawTable.refusal.85cd03e557136797
	.cfi_endproc
	.globl	_ic_ring_merge
	.p2align	4
_ic_ring_merge:
	.cfi_startproc
	pushq	%rbp
	.cfi_def_cfa_offset 16
	pushq	%r15
	.cfi_def_cfa_offset 24
	pushq	%r14
	.cfi_def_cfa_offset 32
	pushq	%r13
	.cfi_def_cfa_offset 40
	pushq	%r12
	.cfi_def_cfa_offset 48
	pushq	%rbx
	.cfi_def_cfa_offset 56
	subq	$40, %rsp
	.cfi_def_cfa_offset 96
	.cfi_offset %rbx, -56
	.cfi_offset %r12, -48
	.cfi_offset %r13, -40
	.cfi_offset %r14, -32
	.cfi_offset %r15, -24
	.cfi_offset %rbp, -16
	movq	%rcx, %r10
	movq	%rdx, %r11
	xorl	%ecx, %ecx
	testq	%rdi, %rdi
	sete	%dl
	xorl	%r15d, %r15d
	testq	%r11, %r11
	sete	%bpl
	leal	1(%r8), %ebx
	movl	$4, %eax
	incl	%r8d
	je	LBB148_42
	leal	1(%r9), %r14d
	incl	%r9d
	je	LBB148_42
	movb	%dl, %cl
	shll	$12, %ecx
	addq	%rcx, %rdi
	leaq	(,%rbx,8), %rdx
	leaq	(,%r14,8), %rcx
	movq	%rdi, 8(%rsp)
	movq	%rsi, 16(%rsp)
	cmpq	%rsi, %r10
	jb	LBB148_24
	testq	%rsi, %rsi
	je	LBB148_24
	cmpq	%rdx, %rcx
	je	LBB148_24
	movb	%bpl, %r15b
	shll	$12, %r15d
	addq	%r15, %r11
	movl	$1, %eax
	movabsq	$68719476728, %r15
	movq	%rdx, %r9
	.p2align	4
LBB148_6:
	movq	%r9, %r8
	shrq	$3, %r8
	cmpq	%rsi, %r8
	ja	LBB148_24
	movq	-16(%rdi,%r9,2), %r8
	testb	$1, %r8b
	je	LBB148_24
	andq	%r15, %r8
	je	LBB148_24
	movq	%r8, %r12
	shrq	$3, %r12
	cmpq	%rsi, %r12
	ja	LBB148_24
	testb	$1, -16(%rdi,%r8,2)
	je	LBB148_24
	movq	-8(%rdi,%r8,2), %r12
	andq	%r15, %r12
	cmpq	%r9, %r12
	jne	LBB148_24
	cmpq	%rdx, %r8
	je	LBB148_15
	cmpq	%rsi, %rax
	jae	LBB148_24
	incq	%rax
	movq	%r8, %r9
	cmpq	%r8, %rcx
	jne	LBB148_6
	jmp	LBB148_24
LBB148_15:
	movq	%rsi, %rax
	movq	%rcx, %r8
	.p2align	4
LBB148_16:
	movq	%r8, %r9
	shrq	$3, %r9
	cmpq	%rsi, %r9
	ja	LBB148_24
	movq	-16(%rdi,%r8,2), %r9
	testb	$1, %r9b
	je	LBB148_24
	andq	%r15, %r9
	je	LBB148_24
	movq	%r9, %r12
	shrq	$3, %r12
	cmpq	%rsi, %r12
	ja	LBB148_24
	testb	$1, -16(%rdi,%r9,2)
	je	LBB148_24
	movq	-8(%rdi,%r9,2), %r12
	andq	%r15, %r12
	cmpq	%r8, %r12
	jne	LBB148_24
	cmpq	%rcx, %r9
	je	LBB148_25
	movq	%r9, %r8
	decq	%rax
	jne	LBB148_16
LBB148_24:
	leaq	8(%rsp), %rdi
	movq	%r10, %rsi
	callq	_ic_raw_lists.ring_sort_calls.refusal_at_both
	jmp	LBB148_42
LBB148_25:
	movq	%r11, 24(%rsp)
	movq	%r10, 32(%rsp)
	shlq	$4, %rbx
	movq	-16(%rdi,%rbx), %rax
	xorl	%r8d, %r8d
	andq	%r15, %rax
	je	LBB148_30
	cmpq	%rdx, %rax
	je	LBB148_30
	movq	-8(%rdi,%rbx), %r9
	movl	$0, %esi
	andq	%r15, %r9
	je	LBB148_31
	movq	$0, -8(%rdi,%rax,2)
	movq	$1, -16(%rdi,%r9,2)
	movq	%rax, %r8
	movq	%r9, %rsi
	jmp	LBB148_31
LBB148_30:
	xorl	%esi, %esi
LBB148_31:
	shlq	$4, %r14
	movq	-16(%rdi,%r14), %r10
	xorl	%eax, %eax
	andq	%r15, %r10
	je	LBB148_35
	cmpq	%rcx, %r10
	je	LBB148_43
	movq	-8(%rdi,%r14), %r11
	movl	$0, %r9d
	andq	%r15, %r11
	je	LBB148_36
	movq	$0, -8(%rdi,%r10,2)
	movq	$1, -16(%rdi,%r11,2)
	movq	%r10, %rax
	movq	%r11, %r9
	testq	%r8, %r8
	jne	LBB148_37
	jmp	LBB148_41
LBB148_35:
	xorl	%r9d, %r9d
LBB148_36:
	testq	%r8, %r8
	je	LBB148_41
LBB148_37:
	testq	%rax, %rax
	je	LBB148_40
	movq	%rdx, %r12
	movq	%rcx, %r13
	leaq	8(%rsp), %rcx
	leaq	24(%rsp), %rsi
	movq	%rdi, %rbp
	movq	%rcx, %rdi
	movq	%r8, %rdx
	movq	%rax, %rcx
	callq	_ic_list_algorithms.merge.merge_runs.e8da022ef74ca9e6
	movq	%rbp, %rdi
	movq	$0, -8(%rbp,%rax,2)
	movq	-16(%rbp,%rax,2), %rsi
	movq	%rax, %r9
	movq	%r13, %rcx
	movq	%r12, %rdx
	andq	%r15, %rsi
	je	LBB148_41
	.p2align	4
LBB148_39:
	movq	%r9, %r8
	movq	%rsi, %r9
	movq	%r8, -8(%rdi,%rsi,2)
	movq	-16(%rdi,%rsi,2), %rsi
	andq	%r15, %rsi
	jne	LBB148_39
	jmp	LBB148_41
LBB148_40:
	movq	%r8, %rax
	movq	%rsi, %r9
LBB148_41:
	testq	%rax, %rax
	cmoveq	%rdx, %rax
	testq	%r9, %r9
	cmoveq	%rdx, %r9
	movq	%rdx, -8(%rdi,%rax,2)
	orq	$1, %rdx
	movq	%rdx, -16(%rdi,%r9,2)
	orq	$1, %rax
	movq	%rax, -16(%rdi,%rbx)
	movq	%r9, -8(%rdi,%rbx)
	movq	%rcx, %rax
	orq	$1, %rax
	movq	%rax, -16(%rdi,%r14)
	movq	%rcx, -8(%rdi,%r14)
	xorl	%eax, %eax
LBB148_42:
	addq	$40, %rsp
	popq	%rbx
	popq	%r12
	popq	%r13
	popq	%r14
	popq	%r15
	popq	%rbp
	retq
LBB148_43:
	xorl	%r9d, %r9d
	testq	%r8, %r8
	jne	LBB148_37
	jmp	LBB148_41
	.cfi_endproc
	.globl	_ic_ring_move_after
	.p2align	4
_ic_ring_move_after:
	.cfi_startproc
	movl	%ecx, %r8d
	movl	%edx, %ecx
	xorl	%eax, %eax
	testq	%rdi, %rdi
	sete	%al
	shll	$12, %eax
	addq	%rax, %rdi
	xorl	%edx, %edx
	jmp	_ic_raw.ring_calls.move_beside.354f48d5d890d6b4
	.cfi_endproc
	.globl	_ic_ring_move_before
	.p2align	4
_ic_ring_move_before:
	.cfi_startproc
	movl	%ecx, %r8d
	movl	%edx, %ecx
	xorl	%eax, %eax
	testq	%rdi, %rdi
	sete	%al
	shll	$12, %eax
	addq	%rax, %rdi
	movl	$1, %edx
	jmp	_ic_raw.ring_calls.move_beside.354f48d5d890d6b4
	.cfi_endproc
	.globl	_ic_ring_pop_back
	.p2align	4
_ic_ring_pop_back:
	.cfi_startproc
	movq	%rcx, %r8
	movl	%edx, %ecx
	xorl	%eax, %eax
	testq	%rdi, %rdi
	sete	%al
	shll	$12, %eax
	addq	%rax, %rdi
	movl	$1, %edx
	jmp	_ic_raw.ring_calls.pop.354f48d5d890d6b4
	.cfi_endproc
	.globl	_ic_ring_pop_front
	.p2align	4
_ic_ring_pop_front:
	.cfi_startproc
	movq	%rcx, %r8
	movl	%edx, %ecx
	xorl	%eax, %eax
	testq	%rdi, %rdi
	sete	%al
	shll	$12, %eax
	addq	%rax, %rdi
	xorl	%edx, %edx
	jmp	_ic_raw.ring_calls.pop.354f48d5d890d6b4
	.cfi_endproc
	.globl	_ic_ring_remove
	.p2align	4
_ic_ring_remove:
	.cfi_startproc
	xorl	%r8d, %r8d
	testq	%rdi, %rdi
	sete	%r9b
	leal	1(%rdx), %ecx
	movl	%edx, %r10d
	movl	$4, %eax
	incl	%r10d
	je	LBB153_12
	movb	%r9b, %r8b
	shll	$12, %r8d
	addq	%r8, %rdi
	cmpq	%rcx, %rsi
	jb	LBB153_13
	movq	%rcx, %rax
	shlq	$4, %rax
	movq	-16(%rdi,%rax), %r8
	testb	$1, %r8b
	je	LBB153_13
	movabsq	$68719476728, %r10
	movq	-8(%rdi,%rax), %r9
	andq	%r10, %r9
	je	LBB153_13
	movq	%r9, %r11
	shrq	$3, %r11
	cmpq	%rsi, %r11
	ja	LBB153_13
	movq	-16(%rdi,%r9,2), %r11
	testb	$1, %r11b
	je	LBB153_13
	shlq	$3, %rcx
	andq	%r10, %r11
	cmpq	%rcx, %r11
	jne	LBB153_13
	andq	%r10, %r8
	je	LBB153_13
	movq	%r8, %r11
	shrq	$3, %r11
	cmpq	%rsi, %r11
	ja	LBB153_13
	testb	$1, -16(%rdi,%r8,2)
	je	LBB153_13
	andq	-8(%rdi,%r8,2), %r10
	cmpq	%rcx, %r10
	jne	LBB153_13
	movq	%r8, %rcx
	orq	$1, %rcx
	movq	%rcx, -16(%rdi,%r9,2)
	movq	%r9, -8(%rdi,%r8,2)
	movq	$0, -16(%rdi,%rax)
	xorl	%eax, %eax
LBB153_12:
	retq
LBB153_13:
	jmp	_ic_raw.table.RawTable.refusal_at.85cd03e557136797
	.cfi_endproc
	.globl	_ic_ring_replace
	.p2align	4
_ic_ring_replace:
	.cfi_startproc
	pushq	%rbx
	.cfi_def_cfa_offset 16
	.cfi_offset %rbx, -16
	xorl	%r9d, %r9d
	testq	%rdi, %rdi
	sete	%r10b
	leal	1(%rdx), %r8d
	movl	%edx, %r11d
	movl	$4, %eax
	incl	%r11d
	je	LBB154_15
	movb	%r10b, %r9b
	shll	$12, %r9d
	addq	%r9, %rdi
	cmpq	%r8, %rsi
	jb	LBB154_16
	movq	%r8, %rax
	shlq	$4, %rax
	movq	-16(%rdi,%rax), %r9
	testb	$1, %r9b
	je	LBB154_16
	movabsq	$68719476728, %r11
	movq	-8(%rdi,%rax), %r10
	andq	%r11, %r10
	je	LBB154_16
	movq	%r10, %rbx
	shrq	$3, %rbx
	cmpq	%rsi, %rbx
	ja	LBB154_16
	movq	-16(%rdi,%r10,2), %rbx
	testb	$1, %bl
	je	LBB154_16
	shlq	$3, %r8
	andq	%r11, %rbx
	cmpq	%r8, %rbx
	jne	LBB154_16
	andq	%r11, %r9
	je	LBB154_16
	movq	%r9, %rbx
	shrq	$3, %rbx
	cmpq	%rsi, %rbx
	ja	LBB154_16
	testb	$1, -16(%rdi,%r9,2)
	je	LBB154_16
	leal	1(%rcx), %ebx
	cmpq	%rbx, %rsi
	jb	LBB154_16
	testl	%ebx, %ebx
	je	LBB154_16
	andq	-8(%rdi,%r9,2), %r11
	cmpq	%r8, %r11
	jne	LBB154_16
	movq	%rbx, %r11
	shlq	$4, %r11
	testb	$1, -16(%rdi,%r11)
	jne	LBB154_16
	shlq	$3, %rbx
	movq	%r10, -8(%rdi,%r11)
	movq	%rbx, %rcx
	orq	$1, %rcx
	movq	%rcx, -16(%rdi,%r10,2)
	movq	%rbx, -8(%rdi,%rax)
	cmpq	%r8, %r9
	cmoveq	%rbx, %r9
	movq	%r9, %rcx
	orq	$1, %rcx
	movq	%rcx, -16(%rdi,%r11)
	movq	%rbx, -8(%rdi,%r9,2)
	movq	$0, -16(%rdi,%rax)
	xorl	%eax, %eax
LBB154_15:
	popq	%rbx
	retq
LBB154_16:
	popq	%rbx
	jmp	_ic_raw.table.RawTable.refusal.85cd03e557136797
	.cfi_endproc
	.globl	_ic_ring_sort
	.p2align	4
_ic_ring_sort:
	.cfi_startproc
	pushq	%rbp
	.cfi_def_cfa_offset 16
	pushq	%r15
	.cfi_def_cfa_offset 24
	pushq	%r14
	.cfi_def_cfa_offset 32
	pushq	%r13
	.cfi_def_cfa_offset 40
	pushq	%r12
	.cfi_def_cfa_offset 48
	pushq	%rbx
	.cfi_def_cfa_offset 56
	subq	$72, %rsp
	.cfi_def_cfa_offset 128
	.cfi_offset %rbx, -56
	.cfi_offset %r12, -48
	.cfi_offset %r13, -40
	.cfi_offset %r14, -32
	.cfi_offset %r15, -24
	.cfi_offset %rbp, -16
	xorl	%r11d, %r11d
	testq	%rdi, %rdi
	sete	%bl
	xorl	%r9d, %r9d
	testq	%rdx, %rdx
	sete	%r10b
	leal	1(%r8), %r12d
	movl	$4, %eax
	incl	%r8d
	je	LBB155_29
	movb	%bl, %r11b
	shll	$12, %r11d
	addq	%r11, %rdi
	leaq	(,%r12,8), %r11
	movq	%rdi, (%rsp)
	movq	%rsi, 8(%rsp)
	leaq	-1(%rsi), %rax
	cmpq	%rcx, %rax
	jae	LBB155_11
	movb	%r10b, %r9b
	shll	$12, %r9d
	addq	%r9, %rdx
	movabsq	$68719476728, %rbx
	movq	%rsi, %rax
	movq	%r11, %r8
	.p2align	4
LBB155_3:
	movq	%r8, %r9
	shrq	$3, %r9
	cmpq	%rsi, %r9
	ja	LBB155_11
	movq	-16(%rdi,%r8,2), %r9
	testb	$1, %r9b
	je	LBB155_11
	andq	%rbx, %r9
	je	LBB155_11
	movq	%r9, %r10
	shrq	$3, %r10
	cmpq	%rsi, %r10
	ja	LBB155_11
	testb	$1, -16(%rdi,%r9,2)
	je	LBB155_11
	movq	-8(%rdi,%r9,2), %r10
	andq	%rbx, %r10
	cmpq	%r8, %r10
	jne	LBB155_11
	cmpq	%r11, %r9
	je	LBB155_12
	movq	%r9, %r8
	decq	%rax
	jne	LBB155_3
LBB155_11:
	movq	%rsp, %rdi
	movq	%rcx, %rsi
	movq	%r11, %rdx
	callq	_ic_raw_lists.ring_sort_calls.refusal_at
	jmp	LBB155_29
LBB155_12:
	movq	%rdx, 32(%rsp)
	movq	%rcx, 40(%rsp)
	shlq	$4, %r12
	movq	-16(%rdi,%r12), %rcx
	xorl	%r14d, %r14d
	andq	%rbx, %rcx
	je	LBB155_13
	cmpq	%r11, %rcx
	je	LBB155_15
	movq	-8(%rdi,%r12), %rdx
	movl	$0, %eax
	andq	%rbx, %rdx
	je	LBB155_18
	movq	$0, -8(%rdi,%rcx,2)
	movq	$1, -16(%rdi,%rdx,2)
	movq	%rcx, %r14
	movq	%rdx, %rax
	testq	%r14, %r14
	jne	LBB155_20
	jmp	LBB155_19
LBB155_13:
	xorl	%eax, %eax
LBB155_18:
	testq	%r14, %r14
	je	LBB155_19
LBB155_20:
	movq	-16(%rdi,%r14,2), %r15
	movq	$1, -16(%rdi,%r14,2)
	andq	%rbx, %r15
	je	LBB155_21
	movq	%r11, 16(%rsp)
	movq	%r12, 24(%rsp)
	xorl	%r12d, %r12d
	.p2align	4
LBB155_23:
	leaq	48(%rsp), %rdi
	movq	%rsp, %r13
	leaq	32(%rsp), %rbp
	movq	%r13, %rsi
	movq	%rbp, %rdx
	movq	%r15, %rcx
	movq	%r12, %r8
	callq	_ic_list_algorithms.sort.sort_front.e8da022ef74ca9e6
	movq	48(%rsp), %rcx
	movzbl	56(%rsp), %ebx
	movq	64(%rsp), %r15
	movq	%r13, %rdi
	movq	%rbp, %rsi
	movq	%r14, %rdx
	callq	_ic_list_algorithms.merge.merge_runs.e8da022ef74ca9e6
	movq	%rax, %r14
	incq	%r12
	cmpb	$1, %bl
	je	LBB155_23
	movq	%r14, %rax
	addq	%r14, %rax
	movq	(%rsp), %rdi
	movq	24(%rsp), %r12
	movq	16(%rsp), %r11
	movabsq	$68719476728, %rbx
	jmp	LBB155_25
LBB155_21:
	movq	%r14, %rax
	addq	%r14, %rax
LBB155_25:
	movq	$0, -8(%rdi,%rax)
	movq	(%rsp), %rdi
	movq	-16(%rdi,%rax), %rcx
	movq	%r14, %rax
	andq	%rbx, %rcx
	je	LBB155_28
	.p2align	4
LBB155_26:
	movq	%rax, %rdx
	movq	%rcx, %rax
	movq	%rdx, -8(%rdi,%rcx,2)
	movq	(%rsp), %rdi
	movq	-16(%rdi,%rcx,2), %rcx
	andq	%rbx, %rcx
	jne	LBB155_26
	jmp	LBB155_28
LBB155_15:
	xorl	%eax, %eax
	testq	%r14, %r14
	jne	LBB155_20
LBB155_19:
	movq	%r11, %r14
LBB155_28:
	testq	%rax, %rax
	cmoveq	%r11, %rax
	movq	%r11, -8(%rdi,%r14,2)
	movq	(%rsp), %rcx
	orq	$1, %r11
	movq	%r11, -16(%rcx,%rax,2)
	movq	(%rsp), %rcx
	orq	$1, %r14
	movq	%r14, -16(%rcx,%r12)
	movq	(%rsp), %rcx
	movq	%rax, -8(%rcx,%r12)
	xorl	%eax, %eax
LBB155_29:
	addq	$72, %rsp
	popq	%rbx
	popq	%r12
	popq	%r13
	popq	%r14
	popq	%r15
	popq	%rbp
	retq
	.cfi_endproc
	.globl	_ic_ring_splice_after
	.p2align	4
_ic_ring_splice_after:
	.cfi_startproc
	movl	%ecx, %r8d
	movl	%edx, %ecx
	xorl	%eax, %eax
	testq	%rdi, %rdi
	sete	%al
	shll	$12, %eax
	addq	%rax, %rdi
	xorl	%edx, %edx
	jmp	_ic_raw.ring_calls.splice.354f48d5d890d6b4
	.cfi_endproc
	.globl	_ic_ring_splice_before
	.p2align	4
_ic_ring_splice_before:
	.cfi_startproc
	movl	%ecx, %r8d
	movl	%edx, %ecx
	xorl	%eax, %eax
	testq	%rdi, %rdi
	sete	%al
	shll	$12, %eax
	addq	%rax, %rdi
	movl	$1, %edx
	jmp	_ic_raw.ring_calls.splice.354f48d5d890d6b4
	.cfi_endproc
	.globl	_ic_stack_check
	.p2align	4
_ic_stack_check:
	.cfi_startproc
	movabsq	$68719476728, %r8
	xorl	%eax, %eax
	testq	%rdi, %rdi
	sete	%r10b
	xorl	%r9d, %r9d
	movq	(%rdx), %rdx
	andq	%r8, %rdx
	je	LBB158_6
	movb	%r10b, %al
	shll	$12, %eax
	addq	%rax, %rdi
	xorl	%r9d, %r9d
	.p2align	4
LBB158_2:
	movl	$5, %eax
	cmpq	%r9, %rsi
	je	LBB158_7
	movq	%rdx, %r10
	shrq	$3, %r10
	cmpq	%rsi, %r10
	ja	LBB158_7
	movq	-8(%rdi,%rdx), %rdx
	testb	$1, %dl
	je	LBB158_7
	incq	%r9
	andq	%r8, %rdx
	jne	LBB158_2
LBB158_6:
	movq	%r9, (%rcx)
	xorl	%eax, %eax
LBB158_7:
	retq
	.cfi_endproc
	.globl	_ic_stack_clear
	.p2align	4
_ic_stack_clear:
	.cfi_startproc
	movabsq	$68719476728, %rcx
	xorl	%r9d, %r9d
	testq	%rdi, %rdi
	sete	%r10b
	movq	(%rdx), %r8
	andq	%rcx, %r8
	je	LBB159_8
	movl	$5, %eax
	testq	%rsi, %rsi
	je	LBB159_9
	movb	%r10b, %r9b
	shll	$12, %r9d
	addq	%r9, %rdi
	movq	%rsi, %r9
	movq	%r8, %r10
	.p2align	4
LBB159_4:
	movq	%r10, %r11
	shrq	$3, %r11
	cmpq	%rsi, %r11
	ja	LBB159_9
	movq	-8(%rdi,%r10), %r10
	testb	$1, %r10b
	je	LBB159_9
	andq	%rcx, %r10
	je	LBB159_7
	decq	%r9
	jne	LBB159_4
LBB159_9:
	retq
	.p2align	4
LBB159_7:
	movq	%r8, %rax
	movq	-8(%rdi,%r8), %r8
	movq	$0, -8(%rdi,%rax)
	andq	%rcx, %r8
	jne	LBB159_7
LBB159_8:
	movq	$0, (%rdx)
	xorl	%eax, %eax
	retq
	.cfi_endproc
	.globl	_ic_stack_fill
	.p2align	4
_ic_stack_fill:
	.cfi_startproc
	xorl	%r9d, %r9d
	testq	%rdi, %rdi
	sete	%r10b
	xorl	%eax, %eax
	testl	%r8d, %r8d
	je	LBB160_24
	movb	%r10b, %r9b
	shll	$12, %r9d
	addq	%r9, %rdi
	movabsq	$68719476728, %r10
	andq	(%rdx), %r10
	je	LBB160_6
	movq	%r10, %rax
	shrq	$3, %rax
	movl	$1, %r9d
	cmpq	%rsi, %rax
	ja	LBB160_3
	testb	$1, -8(%rdi,%r10)
	jne	LBB160_6
LBB160_3:
	xorl	%r11d, %r11d
	jmp	LBB160_7
LBB160_6:
	movq	%r10, %r9
	orq	$1, %r9
	movb	$1, %r11b
LBB160_7:
	pushq	%rbp
	.cfi_def_cfa_offset 16
	pushq	%r14
	.cfi_def_cfa_offset 24
	pushq	%rbx
	.cfi_def_cfa_offset 32
	.cfi_offset %rbx, -32
	.cfi_offset %r14, -24
	.cfi_offset %rbp, -16
	movl	%ecx, %ebx
	incq	%rbx
	movl	%r8d, %ebp
	.p2align	4
LBB160_8:
	movl	%ebx, %eax
	leaq	-1(%rax), %r14
	cmpq	%rsi, %r14
	jae	LBB160_22
	movl	-8(%rdi,%rax,8), %eax
	addl	%eax, %eax
	andl	$2, %eax
	jne	LBB160_23
	incq	%rbx
	decl	%ebp
	jne	LBB160_8
	movl	$5, %eax
	testb	%r11b, %r11b
	je	LBB160_23
	movl	%ecx, %eax
	incl	%eax
	sete	%r11b
	cmpq	%rax, %rsi
	setb	%bl
	orb	%r11b, %bl
	jne	LBB160_21
	shlq	$3, %rax
	testb	$1, -8(%rdi,%rax)
	jne	LBB160_21
	movq	%r9, -8(%rdi,%rax)
	decl	%r8d
	je	LBB160_20
	addl	$2, %ecx
	movq	%rax, %r10
LBB160_16:
	testl	%ecx, %ecx
	je	LBB160_20
	movl	%ecx, %r11d
	cmpq	%r11, %rsi
	jb	LBB160_20
	shlq	$3, %r11
	testb	$1, -8(%rdi,%r11)
	jne	LBB160_20
	movq	%r11, %rbx
	orq	$1, %rbx
	movq	%rbx, -8(%rdi,%r10)
	movq	%r9, -8(%rdi,%r11)
	incl	%ecx
	movq	%r11, %r10
	decl	%r8d
	jne	LBB160_16
LBB160_20:
	movq	%rax, %r10
LBB160_21:
	movq	%r10, (%rdx)
	xorl	%eax, %eax
	jmp	LBB160_23
LBB160_22:
	movl	$1, %eax
LBB160_23:
	popq	%rbx
	popq	%r14
	popq	%rbp
LBB160_24:
	retq
	.cfi_endproc
	.globl	_ic_stack_insert_after
	.p2align	4
_ic_stack_insert_after:
	.cfi_startproc
	pushq	%rbx
	.cfi_def_cfa_offset 16
	subq	$16, %rsp
	.cfi_def_cfa_offset 32
	.cfi_offset %rbx, -16
	movabsq	$68719476728, %r11
	xorl	%eax, %eax
	testq	%rdi, %rdi
	sete	%al
	shll	$12, %eax
	addq	%rdi, %rax
	movq	%rax, (%rsp)
	movq	%rsi, 8(%rsp)
	movq	(%rdx), %rdi
	andq	%r11, %rdi
	movl	%ecx, %r9d
	movq	%rdi, %r10
	incl	%r9d
	je	LBB161_4
	cmpq	%r9, %rsi
	jb	LBB161_8
	movq	-8(%rax,%r9,8), %r10
	testb	$1, %r10b
	je	LBB161_8
	andq	%r11, %r10
LBB161_4:
	leal	1(%r8), %r11d
	testq	%r10, %r10
	je	LBB161_9
	movq	%r10, %rbx
	shrq	$3, %rbx
	cmpq	%rsi, %rbx
	ja	LBB161_8
	testq	%r11, %r11
	je	LBB161_8
	movq	-8(%rax,%r10), %rbx
	andl	$1, %ebx
	jne	LBB161_10
	jmp	LBB161_8
LBB161_9:
	testq	%r11, %r11
	je	LBB161_8
LBB161_10:
	cmpq	%r11, %rsi
	jb	LBB161_8
	shlq	$3, %r11
	testb	$1, -8(%rax,%r11)
	jne	LBB161_8
	movq	%r11, %rcx
	testq	%r9, %r9
	je	LBB161_14
	movq	%r11, %rcx
	orq	$1, %rcx
	movq	%rcx, -8(%rax,%r9,8)
	movq	%rdi, %rcx
LBB161_14:
	orq	$1, %r10
	movq	%r10, -8(%rax,%r11)
	movq	%rcx, (%rdx)
	xorl	%eax, %eax
	addq	$16, %rsp
	popq	%rbx
	retq
LBB161_8:
	movq	%rsp, %rdi
	movl	%ecx, %esi
	movl	%r8d, %edx
	callq	_ic_raw.table.RawTable.refusal.feecb86c9dd45d96
	addq	$16, %rsp
	popq	%rbx
	retq
	.cfi_endproc
	.globl	_ic_stack_merge
	.p2align	4
_ic_stack_merge:
	.cfi_startproc
	pushq	%r15
	.cfi_def_cfa_offset 16
	pushq	%r14
	.cfi_def_cfa_offset 24
	pushq	%rbx
	.cfi_def_cfa_offset 32
	subq	$32, %rsp
	.cfi_def_cfa_offset 64
	.cfi_offset %rbx, -32
	.cfi_offset %r14, -24
	.cfi_offset %r15, -16
	xorl	%eax, %eax
	testq	%rdi, %rdi
	sete	%al
	shll	$12, %eax
	addq	%rdi, %rax
	xorl	%edi, %edi
	testq	%rdx, %rdx
	sete	%dil
	shll	$12, %edi
	addq	%rdx, %rdi
	movq	%rdi, 16(%rsp)
	movq	%rcx, 24(%rsp)
	movq	%rax, (%rsp)
	movq	%rsi, 8(%rsp)
	cmpq	%rsi, %rcx
	jb	LBB162_4
	movabsq	$68719476728, %rdi
	movq	(%r8), %rdx
	andq	%rdi, %rdx
	movq	(%r9), %r10
	andq	%rdi, %r10
	testq	%rdx, %rdx
	je	LBB162_2
	movq	%rsi, %rbx
	movq	%rdx, %r11
	testq	%rsi, %rsi
	je	LBB162_4
	.p2align	4
LBB162_6:
	movq	%r11, %r14
	shrq	$3, %r14
	cmpq	%rsi, %r14
	ja	LBB162_4
	movq	-8(%rax,%r11), %r14
	testb	$1, %r14b
	je	LBB162_4
	andq	%rdi, %r14
	je	LBB162_9
	movq	%r14, %r11
	decq	%rbx
	jne	LBB162_6
	jmp	LBB162_4
LBB162_2:
	xorl	%r11d, %r11d
LBB162_9:
	testq	%r10, %r10
	je	LBB162_10
	movq	%rsi, %r14
	movq	%r10, %rbx
	testq	%rsi, %rsi
	je	LBB162_4
	.p2align	4
LBB162_13:
	movq	%rbx, %r15
	shrq	$3, %r15
	cmpq	%rsi, %r15
	ja	LBB162_4
	movq	-8(%rax,%rbx), %r15
	testb	$1, %r15b
	je	LBB162_4
	andq	%rdi, %r15
	je	LBB162_16
	movq	%r15, %rbx
	decq	%r14
	jne	LBB162_13
	jmp	LBB162_4
LBB162_10:
	xorl	%ebx, %ebx
LBB162_16:
	testq	%rdx, %rdx
	je	LBB162_18
	cmpq	%r11, %rbx
	je	LBB162_4
LBB162_18:
	testq	%rdx, %rdx
	movq	%rdx, %rax
	cmoveq	%r10, %rax
	je	LBB162_21
	testq	%r10, %r10
	je	LBB162_21
	movq	%rsp, %rdi
	leaq	16(%rsp), %rsi
	movq	%r10, %rcx
	movq	%r9, %rbx
	movq	%r8, %r14
	callq	_ic_list_algorithms.merge.merge_runs.07d679d1abf7571e
	movq	%r14, %r8
	movq	%rbx, %r9
LBB162_21:
	movq	%rax, (%r8)
	movq	$0, (%r9)
	xorl	%eax, %eax
	addq	$32, %rsp
	popq	%rbx
	popq	%r14
	popq	%r15
	retq
LBB162_4:
	movq	%rsi, %rdi
	movq	%rcx, %rsi
	addq	$32, %rsp
	popq	%rbx
	popq	%r14
	popq	%r15
	jmp	_ic_raw.sort_calls.refusal.1b4d7615ba81168a
	.cfi_endproc
	.globl	_ic_stack_pop_front
	.p2align	4
_ic_stack_pop_front:
	.cfi_startproc
	movq	%rdi, %rax
	movabsq	$68719476728, %r8
	xorl	%edi, %edi
	testq	%rax, %rax
	sete	%dil
	shll	$12, %edi
	addq	%rax, %rdi
	movq	(%rdx), %rax
	andq	%r8, %rax
	je	_ic_raw.stack_calls.pop_front_slow
	movq	%rax, %r9
	shrq	$3, %r9
	cmpq	%rsi, %r9
	ja	_ic_raw.stack_calls.pop_front_slow
	movq	-8(%rdi,%rax), %r10
	testb	$1, %r10b
	je	_ic_raw.stack_calls.pop_front_slow
	andq	%r8, %r10
	movq	$0, -8(%rdi,%rax)
	movq	%r10, (%rdx)
	decl	%r9d
	movl	%r9d, (%rcx)
	xorl	%eax, %eax
	retq
	.cfi_endproc
	.globl	_ic_stack_push_front
	.p2align	4
_ic_stack_push_front:
	.cfi_startproc
	movq	%rdi, %rax
	xorl	%edi, %edi
	testq	%rax, %rax
	sete	%dil
	shll	$12, %edi
	addq	%rax, %rdi
	leal	1(%rcx), %eax
	movabsq	$68719476728, %r8
	andq	(%rdx), %r8
	je	LBB164_5
	movq	%r8, %r9
	shrq	$3, %r9
	cmpq	%rsi, %r9
	ja	LBB164_4
	testq	%rax, %rax
	je	LBB164_4
	movq	-8(%rdi,%r8), %r9
	andl	$1, %r9d
	jne	LBB164_6
	jmp	LBB164_4
LBB164_5:
	testq	%rax, %rax
	je	LBB164_4
LBB164_6:
	cmpq	%rax, %rsi
	jb	LBB164_4
	shlq	$3, %rax
	testb	$1, -8(%rdi,%rax)
	jne	LBB164_4
	orq	$1, %r8
	movq	%r8, -8(%rdi,%rax)
	movq	%rax, (%rdx)
	xorl	%eax, %eax
	retq
LBB164_4:
	movl	%ecx, %edx
	jmp	_ic_raw.table.refusal_at_end.feecb86c9dd45d96
	.cfi_endproc
	.globl	_ic_stack_remove_after
	.p2align	4
_ic_stack_remove_after:
	.cfi_startproc
	pushq	%r14
	.cfi_def_cfa_offset 16
	pushq	%rbx
	.cfi_def_cfa_offset 24
	.cfi_offset %rbx, -24
	.cfi_offset %r14, -16
	movq	%rdi, %rax
	movabsq	$68719476728, %r9
	xorl	%edi, %edi
	testq	%rax, %rax
	sete	%dil
	shll	$12, %edi
	addq	%rax, %rdi
	movq	(%rdx), %rax
	andq	%r9, %rax
	movl	%ecx, %r10d
	movq	%rax, %r11
	incl	%r10d
	je	LBB165_4
	cmpq	%r10, %rsi
	jb	LBB165_13
	movq	-8(%rdi,%r10,8), %r11
	testb	$1, %r11b
	je	LBB165_13
	andq	%r9, %r11
LBB165_4:
	testq	%r11, %r11
	je	LBB165_5
	movq	%r11, %rbx
	shrq	$3, %rbx
	cmpq	%rsi, %rbx
	ja	LBB165_13
	movq	-8(%rdi,%r11), %r14
	testb	$1, %r14b
	je	LBB165_13
	andq	%r9, %r14
	testq	%r10, %r10
	je	LBB165_9
	orq	$1, %r14
	movq	%r14, -8(%rdi,%r10,8)
	jmp	LBB165_11
LBB165_5:
	movl	$4, %eax
	popq	%rbx
	popq	%r14
	retq
LBB165_9:
	movq	%r14, %rax
LBB165_11:
	movq	$0, -8(%rdi,%r11)
	movq	%rax, (%rdx)
	decl	%ebx
	movl	%ebx, (%r8)
	xorl	%eax, %eax
	popq	%rbx
	popq	%r14
	retq
LBB165_13:
	movl	%ecx, %edx
	popq	%rbx
	popq	%r14
	jmp	_ic_raw.table.RawTable.refusal_at.feecb86c9dd45d96
	.cfi_endproc
	.globl	_ic_stack_replace_after
	.p2align	4
_ic_stack_replace_after:
	.cfi_startproc
	pushq	%rbp
	.cfi_def_cfa_offset 16
	pushq	%r15
	.cfi_def_cfa_offset 24
	pushq	%r14
	.cfi_def_cfa_offset 32
	pushq	%r12
	.cfi_def_cfa_offset 40
	pushq	%rbx
	.cfi_def_cfa_offset 48
	subq	$16, %rsp
	.cfi_def_cfa_offset 64
	.cfi_offset %rbx, -48
	.cfi_offset %r12, -40
	.cfi_offset %r14, -32
	.cfi_offset %r15, -24
	.cfi_offset %rbp, -16
	movabsq	$68719476728, %r10
	xorl	%eax, %eax
	testq	%rdi, %rdi
	sete	%al
	shll	$12, %eax
	addq	%rdi, %rax
	movq	%rax, (%rsp)
	movq	%rsi, 8(%rsp)
	movq	(%rdx), %rdi
	andq	%r10, %rdi
	movl	%ecx, %ebx
	movq	%rdi, %r11
	incl	%ebx
	je	LBB166_4
	cmpq	%rbx, %rsi
	jb	LBB166_8
	movq	-8(%rax,%rbx,8), %r11
	testb	$1, %r11b
	je	LBB166_8
	andq	%r10, %r11
LBB166_4:
	testq	%r11, %r11
	je	LBB166_5
	movq	%r11, %r14
	shrq	$3, %r14
	cmpq	%rsi, %r14
	ja	LBB166_8
	movq	-8(%rax,%r11), %r15
	testb	$1, %r15b
	je	LBB166_8
	leal	1(%r8), %r12d
	movl	%r8d, %ebp
	incl	%ebp
	je	LBB166_8
	cmpq	%r12, %rsi
	jb	LBB166_8
	shlq	$3, %r12
	testb	$1, -8(%rax,%r12)
	jne	LBB166_8
	movq	%r12, %rcx
	testq	%rbx, %rbx
	je	LBB166_14
	movq	%r12, %rcx
	orq	$1, %rcx
	movq	%rcx, -8(%rax,%rbx,8)
	movq	%rdi, %rcx
LBB166_14:
	incq	%r10
	andq	%r10, %r15
	movq	%r15, -8(%rax,%r12)
	movq	$0, -8(%rax,%r11)
	movq	%rcx, (%rdx)
	decl	%r14d
	movl	%r14d, (%r9)
	xorl	%eax, %eax
	jmp	LBB166_15
LBB166_5:
	movl	$4, %eax
	jmp	LBB166_15
LBB166_8:
	movq	%rsp, %rdi
	movl	%ecx, %esi
	movl	%r8d, %edx
	callq	_ic_raw.table.RawTable.refusal.feecb86c9dd45d96
LBB166_15:
	addq	$16, %rsp
	popq	%rbx
	popq	%r12
	popq	%r14
	popq	%r15
	popq	%rbp
	retq
	.cfi_endproc
	.globl	_ic_stack_sort
	.p2align	4
_ic_stack_sort:
	.cfi_startproc
	pushq	%rbp
	.cfi_def_cfa_offset 16
	pushq	%r15
	.cfi_def_cfa_offset 24
	pushq	%r14
	.cfi_def_cfa_offset 32
	pushq	%r13
	.cfi_def_cfa_offset 40
	pushq	%r12
	.cfi_def_cfa_offset 48
	pushq	%rbx
	.cfi_def_cfa_offset 56
	subq	$72, %rsp
	.cfi_def_cfa_offset 128
	.cfi_offset %rbx, -56
	.cfi_offset %r12, -48
	.cfi_offset %r13, -40
	.cfi_offset %r14, -32
	.cfi_offset %r15, -24
	.cfi_offset %rbp, -16
	xorl	%eax, %eax
	testq	%rdi, %rdi
	sete	%al
	shll	$12, %eax
	addq	%rdi, %rax
	xorl	%edi, %edi
	testq	%rdx, %rdx
	sete	%dil
	shll	$12, %edi
	addq	%rdx, %rdi
	movq	%rdi, 32(%rsp)
	movq	%rcx, 40(%rsp)
	movq	%rax, 16(%rsp)
	movq	%rsi, 24(%rsp)
	cmpq	%rsi, %rcx
	jb	LBB167_13
	movabsq	$68719476728, %r15
	movq	(%r8), %r14
	andq	%r15, %r14
	je	LBB167_2
	movq	%rsi, %rdx
	movq	%r14, %rdi
	testq	%rsi, %rsi
	je	LBB167_13
	.p2align	4
LBB167_4:
	movq	%rdi, %r9
	shrq	$3, %r9
	cmpq	%rsi, %r9
	ja	LBB167_13
	movq	-8(%rax,%rdi), %rdi
	testb	$1, %dil
	je	LBB167_13
	andq	%r15, %rdi
	je	LBB167_7
	decq	%rdx
	jne	LBB167_4
LBB167_13:
	movq	%rsi, %rdi
	movq	%rcx, %rsi
	addq	$72, %rsp
	popq	%rbx
	popq	%r12
	popq	%r13
	popq	%r14
	popq	%r15
	popq	%rbp
	jmp	_ic_raw.sort_calls.refusal.1b4d7615ba81168a
LBB167_7:
	movq	%r8, 8(%rsp)
	andq	-8(%rax,%r14), %r15
	movq	$1, -8(%rax,%r14)
	je	LBB167_10
	xorl	%r12d, %r12d
	.p2align	4
LBB167_9:
	leaq	48(%rsp), %rdi
	leaq	16(%rsp), %r13
	leaq	32(%rsp), %rbp
	movq	%r13, %rsi
	movq	%rbp, %rdx
	movq	%r15, %rcx
	movq	%r12, %r8
	callq	_ic_list_algorithms.sort.sort_front.07d679d1abf7571e
	movq	48(%rsp), %rcx
	movzbl	56(%rsp), %ebx
	movq	64(%rsp), %r15
	movq	%r13, %rdi
	movq	%rbp, %rsi
	movq	%r14, %rdx
	callq	_ic_list_algorithms.merge.merge_runs.07d679d1abf7571e
	movq	%rax, %r14
	incq	%r12
	cmpb	$1, %bl
	je	LBB167_9
LBB167_10:
	movq	8(%rsp), %r8
	jmp	LBB167_11
LBB167_2:
	xorl	%r14d, %r14d
LBB167_11:
	movq	%r14, (%r8)
	xorl	%eax, %eax
	addq	$72, %rsp
	popq	%rbx
	popq	%r12
	popq	%r13
	popq	%r14
	popq	%r15
	popq	%rbp
	retq
	.cfi_endproc
	.globl	_ic_stack_splice_after
	.p2align	4
_ic_stack_splice_after:
	.cfi_startproc
	pushq	%rbp
	.cfi_def_cfa_offset 16
	pushq	%r15
	.cfi_def_cfa_offset 24
	pushq	%r14
	.cfi_def_cfa_offset 32
	pushq	%r12
	.cfi_def_cfa_offset 40
	pushq	%rbx
	.cfi_def_cfa_offset 48
	.cfi_offset %rbx, -48
	.cfi_offset %r12, -40
	.cfi_offset %r14, -32
	.cfi_offset %r15, -24
	.cfi_offset %rbp, -16
	movq	%rdi, %rax
	movabsq	$68719476728, %r9
	xorl	%edi, %edi
	testq	%rax, %rax
	sete	%dil
	shll	$12, %edi
	addq	%rax, %rdi
	movq	(%rdx), %rax
	andq	%r9, %rax
	movq	(%r8), %r10
	andq	%r9, %r10
	setne	%r11b
	cmpq	%r10, %rax
	sete	%bl
	testb	%r11b, %bl
	jne	LBB168_10
	leal	1(%rcx), %ebx
	movq	%rax, %r11
	testq	%rbx, %rbx
	je	LBB168_5
	cmpq	%rbx, %rsi
	jb	LBB168_10
	movq	-8(%rdi,%rbx,8), %r11
	testb	$1, %r11b
	je	LBB168_10
	andq	%r9, %r11
LBB168_5:
	testq	%r11, %r11
	je	LBB168_11
	movq	%r11, %r14
	shrq	$3, %r14
	cmpq	%rsi, %r14
	ja	LBB168_10
	movq	-8(%rdi,%r11), %r14
	testq	%r10, %r10
	je	LBB168_9
	movl	%r14d, %ebp
	andl	$1, %ebp
	jne	LBB168_12
LBB168_9:
	testb	$1, %r14b
	jne	LBB168_21
	jmp	LBB168_10
LBB168_11:
	testq	%r10, %r10
	je	LBB168_21
LBB168_12:
	movq	%rsi, %r15
	movq	%r10, %r14
	testq	%rsi, %rsi
	je	LBB168_10
	.p2align	4
LBB168_14:
	movq	%r14, %r12
	shrq	$3, %r12
	cmpq	%rsi, %r12
	ja	LBB168_10
	movq	-8(%rdi,%r14), %r12
	testb	$1, %r12b
	je	LBB168_10
	andq	%r9, %r12
	je	LBB168_17
	movq	%r12, %r14
	decq	%r15
	jne	LBB168_14
LBB168_10:
	movl	%ecx, %edx
	popq	%rbx
	popq	%r12
	popq	%r14
	popq	%r15
	popq	%rbp
	jmp	_ic_raw.table.RawTable.refusal_at.feecb86c9dd45d96
LBB168_17:
	testq	%rbx, %rbx
	je	LBB168_18
	orq	$1, %r10
	movq	%r10, -8(%rdi,%rbx,8)
	jmp	LBB168_20
LBB168_18:
	movq	%r10, %rax
LBB168_20:
	orq	$1, %r11
	movq	%r11, -8(%rdi,%r14)
LBB168_21:
	movq	%rax, (%rdx)
	movq	$0, (%r8)
	xorl	%eax, %eax
	popq	%rbx
	popq	%r12
	popq	%r14
	popq	%r15
	popq	%rbp
	retq
	.cfi_endproc
	.globl	_ic_stack_split_after
	.p2align	4
_ic_stack_split_after:
	.cfi_startproc
	movq	%rdi, %rax
	movabsq	$68719476728, %r11
	xorl	%edi, %edi
	testq	%rax, %rax
	sete	%dil
	shll	$12, %edi
	addq	%rax, %rdi
	testq	%r11, (%r8)
	jne	LBB169_10
	movq	(%rdx), %rax
	andq	%r11, %rax
	movl	%ecx, %r10d
	movq	%rax, %r9
	incl	%r10d
	je	LBB169_5
	cmpq	%r10, %rsi
	jb	LBB169_10
	movq	-8(%rdi,%r10,8), %r9
	testb	$1, %r9b
	je	LBB169_10
	andq	%r11, %r9
LBB169_5:
	testq	%r9, %r9
	je	LBB169_8
	movq	%r9, %r11
	shrq	$3, %r11
	cmpq	%rsi, %r11
	ja	LBB169_10
	testb	$1, -8(%rdi,%r9)
	je	LBB169_10
LBB169_8:
	testq	%r10, %r10
	je	LBB169_9
	movq	$1, -8(%rdi,%r10,8)
	movq	%rax, (%rdx)
	movq	%r9, (%r8)
	xorl	%eax, %eax
	retq
LBB169_9:
	xorl	%eax, %eax
	movq	%rax, (%rdx)
	movq	%r9, (%r8)
	xorl	%eax, %eax
	retq
LBB169_10:
	movl	%ecx, %edx
	jmp	_ic_raw.table.RawTable.refusal_at.feecb86c9dd45d96
	.cfi_endproc
	.globl	_ic_tree_append
	.p2align	4
_ic_tree_append:
	.cfi_startproc
	pushq	%rbp
	.cfi_def_cfa_offset 16
	pushq	%r15
	.cfi_def_cfa_offset 24
	pushq	%r14
	.cfi_def_cfa_offset 32
	pushq	%r13
	.cfi_def_cfa_offset 40
	pushq	%r12
	.cfi_def_cfa_offset 48
	pushq	%rbx
	.cfi_def_cfa_offset 56
	subq	$104, %rsp
	.cfi_def_cfa_offset 160
	.cfi_offset %rbx, -56
	.cfi_offset %r12, -48
	.cfi_offset %r13, -40
	.cfi_offset %r14, -32
	.cfi_offset %r15, -24
	.cfi_offset %rbp, -16
	movq	%rdx, %r14
	movabsq	$68719476728, %rbx
	xorl	%eax, %eax
	testq	%rdi, %rdi
	sete	%al
	shll	$12, %eax
	addq	%rdi, %rax
	movq	%rax, 16(%rsp)
	movq	%rsi, 24(%rsp)
	movq	(%rdx), %r15
	andq	%rbx, %r15
	movq	(%rcx), %r12
	andq	%rbx, %r12
	setne	%al
	cmpq	%r12, %r15
	sete	%dl
	movl	$5, %r13d
	testb	%dl, %al
	jne	LBB170_95
	movq	%rcx, 72(%rsp)
	xorl	%ebp, %ebp
	testq	%r15, %r15
	setne	%bpl
	movl	$66, (%rsp)
	leaq	80(%rsp), %rdi
	leaq	16(%rsp), %rsi
	movl	%ebp, %edx
	movq	%r15, %rcx
	xorl	%r8d, %r8d
	xorl	%r9d, %r9d
	callq	_ic_check.tree.check_below.ffc36cde30076884
	cmpb	$1, 80(%rsp)
	jne	LBB170_95
	testb	$1, 100(%rsp)
	je	LBB170_95
	xorl	%edx, %edx
	testq	%r12, %r12
	setne	%dl
	movl	$66, (%rsp)
	leaq	80(%rsp), %rdi
	leaq	16(%rsp), %rsi
	movq	%r12, %rcx
	xorl	%r8d, %r8d
	xorl	%r9d, %r9d
	callq	_ic_check.tree.check_below.ffc36cde30076884
	cmpb	$1, 80(%rsp)
	jne	LBB170_95
	testb	$1, 100(%rsp)
	je	LBB170_95
	testq	%r12, %r12
	je	LBB170_94
	movl	$66, %eax
	movq	16(%rsp), %r8
	movq	%r12, %rdx
	.p2align	4
LBB170_7:
	leaq	(%rdx,%rdx,2), %r10
	movq	-24(%r8,%r10), %rsi
	movq	%rdx, %rcx
	andq	%rbx, %rsi
	je	LBB170_12
	leaq	(%rsi,%rsi,2), %r10
	testl	%eax, %eax
	je	LBB170_11
	movq	-24(%r8,%r10), %rdx
	movq	%rsi, %rcx
	andq	%rbx, %rdx
	je	LBB170_12
	addl	$-2, %eax
	jmp	LBB170_7
LBB170_11:
	movq	%rsi, %rcx
LBB170_12:
	movq	-16(%r8,%r10), %rax
	andq	%rbx, %rax
	movq	-24(%r8,%r10), %rdx
	andq	%rbx, %rdx
	je	LBB170_19
	testq	%rax, %rax
	je	LBB170_20
	movl	$66, %edx
	.p2align	4
LBB170_15:
	leaq	(%rax,%rax,2), %rdi
	movq	-24(%r8,%rdi), %rsi
	movq	%rax, %r9
	andq	%rbx, %rsi
	je	LBB170_30
	leaq	(%rsi,%rsi,2), %rdi
	testl	%edx, %edx
	je	LBB170_29
	movq	-24(%r8,%rdi), %rax
	movq	%rsi, %r9
	andq	%rbx, %rax
	je	LBB170_30
	addl	$-2, %edx
	jmp	LBB170_15
LBB170_19:
	movq	%rax, %rdx
LBB170_20:
	movq	-8(%r8,%r10), %rsi
	movq	%rsi, %rax
	andq	%rbx, %rax
	setne	%r11b
	je	LBB170_23
	leaq	(%rax,%rax,2), %rdi
	movq	-24(%r8,%rdi), %r9
	movq	%r9, %r10
	andq	%rbx, %r10
	cmpq	%rcx, %r10
	jne	LBB170_24
	andl	$1, %r9d
	orq	%rdx, %r9
	movq	%r9, -24(%r8,%rdi)
	xorl	%r8d, %r8d
	jmp	LBB170_25
LBB170_23:
	xorl	%r8d, %r8d
	movq	%rdx, %r12
	jmp	LBB170_25
LBB170_24:
	movq	%rdx, -16(%r8,%rdi)
	movb	$1, %r8b
LBB170_25:
	testq	%rdx, %rdx
	je	LBB170_28
	movq	16(%rsp), %rsi
	leaq	(%rdx,%rdx,2), %rdx
	movq	-8(%rsi,%rdx), %rdi
	andl	$1, %edi
	orq	%rax, %rdi
	movq	%rdi, -8(%rsi,%rdx)
LBB170_27:
	movq	16(%rsp), %rax
	orq	$1, -8(%rax,%rdx)
	jmp	LBB170_93
LBB170_28:
	movq	%r12, %r10
	jmp	LBB170_52
LBB170_29:
	movq	%rsi, %r9
LBB170_30:
	movq	-24(%r8,%rdi), %rdx
	andq	%rbx, %rdx
	jne	LBB170_32
	movq	-16(%r8,%rdi), %rdx
	andq	%rbx, %rdx
LBB170_32:
	movq	-8(%r8,%rdi), %rsi
	movq	%rsi, %rax
	andq	%rbx, %rax
	setne	32(%rsp)
	je	LBB170_35
	leaq	(%rax,%rax,2), %r11
	movq	-24(%r8,%r11), %r11
	movq	%r11, %r13
	andq	%rbx, %r13
	cmpq	%r9, %r13
	jne	LBB170_36
	andl	$1, %r11d
	orq	%rdx, %r11
	leaq	(%rax,%rax,2), %r13
	movq	%r11, -24(%r8,%r13)
	xorl	%r8d, %r8d
	jmp	LBB170_37
LBB170_35:
	xorl	%r8d, %r8d
	movq	%rdx, %r12
	jmp	LBB170_37
LBB170_36:
	leaq	(%rax,%rax,2), %r11
	movq	%rdx, -16(%r8,%r11)
	movb	$1, %r8b
LBB170_37:
	testq	%rdx, %rdx
	je	LBB170_39
	movq	16(%rsp), %rsi
	leaq	(%rdx,%rdx,2), %rdx
	movq	-8(%rsi,%rdx), %r11
	andl	$1, %r11d
	orq	%rax, %r11
	movq	%r11, -8(%rsi,%rdx)
	movq	16(%rsp), %rsi
	orq	$1, -8(%rsi,%rdx)
	xorl	%esi, %esi
LBB170_39:
	cmpq	%rcx, %r9
	jne	LBB170_41
	movq	%r12, %r10
	jmp	LBB170_51
LBB170_41:
	movq	16(%rsp), %r13
	movq	-8(%r13,%r10), %rdx
	movq	-24(%r13,%r10), %r11
	andq	%rbx, %r11
	movq	%r11, 56(%rsp)
	movq	-16(%r13,%r10), %r11
	andq	%rbx, %r11
	movq	%rdx, 64(%rsp)
	movq	%r9, %r10
	andq	%rbx, %rdx
	movq	%rdx, 48(%rsp)
	je	LBB170_46
	movq	48(%rsp), %rdx
	leaq	(%rdx,%rdx,2), %rdx
	movq	%rdx, 40(%rsp)
	movq	-24(%r13,%rdx), %rdx
	movq	%rdx, %r10
	andq	%rbx, %r10
	cmpq	%rcx, %r10
	jne	LBB170_44
	andl	$1, %edx
	addq	%r9, %rdx
	movq	40(%rsp), %r10
	movq	%rdx, -24(%r13,%r10)
	jmp	LBB170_45
LBB170_44:
	movq	40(%rsp), %rdx
	movq	%r9, -16(%r13,%rdx)
LBB170_45:
	movq	%r12, %r10
LBB170_46:
	movq	16(%rsp), %r12
	movq	56(%rsp), %rdx
	testq	%rdx, %rdx
	je	LBB170_48
	shrq	$3, %rdx
	leaq	(%rdx,%rdx,2), %rdx
	movq	-8(%r12,%rdx,8), %r13
	andl	$1, %r13d
	addq	%r9, %r13
	movq	%r13, -8(%r12,%rdx,8)
	movq	16(%rsp), %r12
LBB170_48:
	testq	%r11, %r11
	je	LBB170_50
	movq	%r11, %rdx
	shrq	$3, %rdx
	leaq	(%rdx,%rdx,2), %rdx
	movq	-8(%r12,%rdx,8), %r13
	andl	$1, %r13d
	addq	%r9, %r13
	movq	%r13, -8(%r12,%rdx,8)
	movq	16(%rsp), %r12
LBB170_50:
	movq	64(%rsp), %r13
	andl	$1, %r13d
	movq	-24(%r12,%rdi), %rdx
	andl	$1, %edx
	orq	56(%rsp), %rdx
	movq	%rdx, -24(%r12,%rdi)
	movq	16(%rsp), %rdx
	movq	%r11, -16(%rdx,%rdi)
	movq	16(%rsp), %rdx
	movq	-8(%rdx,%rdi), %r11
	andl	$1, %r11d
	orq	48(%rsp), %r11
	movq	%r11, -8(%rdx,%rdi)
	movq	16(%rsp), %rdx
	movq	-8(%rdx,%rdi), %r11
	andq	$-2, %r11
	orq	%r13, %r11
	movq	%r11, -8(%rdx,%rdi)
	cmpq	%rcx, %rax
	cmoveq	%r9, %rax
LBB170_51:
	movzbl	32(%rsp), %r11d
LBB170_52:
	testb	$1, %sil
	je	LBB170_92
	testb	%r11b, %r11b
	je	LBB170_92
	movl	$67, %esi
	movq	16(%rsp), %rdi
	movq	%r10, %r12
LBB170_55:
	leaq	(%rax,%rax,2), %rdx
	testb	$1, %r8b
	je	LBB170_63
	movq	-24(%rdi,%rdx), %r11
	movq	%r11, %r9
	andq	%rbx, %r9
	je	LBB170_93
	leaq	(%r9,%r9,2), %r10
	testb	$1, -8(%rdi,%r10)
	jne	LBB170_75
	movq	-16(%rdi,%r10), %r13
	andq	%rbx, %r13
	movq	-8(%rdi,%rdx), %r8
	andq	%rbx, %r8
	andl	$1, %r11d
	orq	%r13, %r11
	movq	%r11, -24(%rdi,%rdx)
	testq	%r13, %r13
	je	LBB170_60
	movq	16(%rsp), %rdi
	shrq	$3, %r13
	leaq	(,%r13,2), %r11
	addq	%r13, %r11
	movq	-8(%rdi,%r11,8), %r13
	andl	$1, %r13d
	orq	%rax, %r13
	movq	%r13, -8(%rdi,%r11,8)
LBB170_60:
	movq	16(%rsp), %rdi
	movq	-8(%rdi,%r10), %r11
	andl	$1, %r11d
	orq	%r8, %r11
	movq	%r11, -8(%rdi,%r10)
	movq	16(%rsp), %rdi
	orq	$1, -8(%rdi,%r10)
	movq	%r9, %r11
	testq	%r8, %r8
	je	LBB170_73
	movq	16(%rsp), %rdi
	leaq	(%r8,%r8,2), %r8
	movq	-24(%rdi,%r8), %r11
	movq	%r11, %r13
	andq	%rbx, %r13
	cmpq	%rax, %r13
	jne	LBB170_71
	andl	$1, %r11d
	orq	%r9, %r11
	movq	%r11, -24(%rdi,%r8)
	jmp	LBB170_72
LBB170_63:
	movq	-16(%rdi,%rdx), %r9
	andq	%rbx, %r9
	je	LBB170_93
	leaq	(%r9,%r9,2), %r10
	testb	$1, -8(%rdi,%r10)
	je	LBB170_66
	movq	%r12, 32(%rsp)
	movq	-24(%rdi,%r10), %r12
	movq	%r12, %r8
	andq	%rbx, %r8
	jne	LBB170_84
	jmp	LBB170_85
LBB170_66:
	movq	-8(%rdi,%rdx), %r8
	andq	%rbx, %r8
	movq	-24(%rdi,%r10), %r11
	andq	%rbx, %r11
	movq	%r11, -16(%rdi,%rdx)
	je	LBB170_68
	movq	16(%rsp), %rdi
	shrq	$3, %r11
	leaq	(%r11,%r11,2), %r11
	movq	-8(%rdi,%r11,8), %r13
	andl	$1, %r13d
	orq	%rax, %r13
	movq	%r13, -8(%rdi,%r11,8)
LBB170_68:
	movq	16(%rsp), %rdi
	movq	-8(%rdi,%r10), %r11
	andl	$1, %r11d
	orq	%r8, %r11
	movq	%r11, -8(%rdi,%r10)
	movq	16(%rsp), %rdi
	orq	$1, -8(%rdi,%r10)
	movq	%r9, %r11
	testq	%r8, %r8
	je	LBB170_82
	movq	16(%rsp), %rdi
	leaq	(%r8,%r8,2), %r8
	movq	-24(%rdi,%r8), %r11
	movq	%r11, %r13
	andq	%rbx, %r13
	cmpq	%rax, %r13
	jne	LBB170_80
	andl	$1, %r11d
	orq	%r9, %r11
	movq	%r11, -24(%rdi,%r8)
	jmp	LBB170_81
LBB170_71:
	movq	%r9, -16(%rdi,%r8)
LBB170_72:
	movq	%r12, %r11
LBB170_73:
	movq	16(%rsp), %rdi
	movq	%rax, -16(%rdi,%r10)
	movq	16(%rsp), %rdi
	movq	-8(%rdi,%rdx), %r8
	andl	$1, %r8d
	orq	%r9, %r8
	movq	%r8, -8(%rdi,%rdx)
	movq	16(%rsp), %rdi
	andq	$-2, -8(%rdi,%rdx)
	movq	16(%rsp), %rdi
	movq	-24(%rdi,%rdx), %r9
	andq	%rbx, %r9
	je	LBB170_117
	leaq	(%r9,%r9,2), %r10
	movq	%r11, %r12
LBB170_75:
	movq	-24(%rdi,%r10), %r8
	andq	%rbx, %r8
	je	LBB170_77
	movq	%r8, %r11
	shrq	$3, %r11
	leaq	(%r11,%r11,2), %r11
	movq	-8(%rdi,%r11,8), %r11
	testb	$1, %r11b
	je	LBB170_108
LBB170_77:
	movq	-16(%rdi,%r10), %r11
	andq	%rbx, %r11
	je	LBB170_79
	leaq	(%r11,%r11,2), %r13
	testb	$1, -8(%rdi,%r13)
	je	LBB170_106
LBB170_79:
	andb	$-2, -8(%rdi,%r10)
	movq	16(%rsp), %rdi
	movq	-8(%rdi,%rdx), %r9
	testb	$1, %r9b
	jne	LBB170_89
	jmp	LBB170_97
LBB170_80:
	movq	%r9, -16(%rdi,%r8)
LBB170_81:
	movq	%r12, %r11
LBB170_82:
	movq	16(%rsp), %rdi
	movq	-24(%rdi,%r10), %r8
	andl	$1, %r8d
	orq	%rax, %r8
	movq	%r8, -24(%rdi,%r10)
	movq	16(%rsp), %rdi
	movq	-8(%rdi,%rdx), %r8
	andl	$1, %r8d
	orq	%r9, %r8
	movq	%r8, -8(%rdi,%rdx)
	movq	16(%rsp), %rdi
	andq	$-2, -8(%rdi,%rdx)
	movq	16(%rsp), %rdi
	movq	-16(%rdi,%rdx), %r9
	andq	%rbx, %r9
	je	LBB170_117
	movq	%r11, 32(%rsp)
	leaq	(%r9,%r9,2), %r10
	movq	-24(%rdi,%r10), %r12
	movq	%r12, %r8
	andq	%rbx, %r8
	je	LBB170_85
LBB170_84:
	leaq	(%r8,%r8,2), %r11
	testb	$1, -8(%rdi,%r11)
	je	LBB170_98
LBB170_85:
	movq	-16(%rdi,%r10), %r8
	andq	%rbx, %r8
	je	LBB170_87
	leaq	(%r8,%r8,2), %r11
	movq	-8(%rdi,%r11), %r13
	testb	$1, %r13b
	je	LBB170_105
LBB170_87:
	andb	$-2, -8(%rdi,%r10)
	movq	16(%rsp), %rdi
	movq	-8(%rdi,%rdx), %r9
	testb	$1, %r9b
	je	LBB170_96
	movq	32(%rsp), %r12
LBB170_89:
	andq	%rbx, %r9
	je	LBB170_93
	movq	%r9, %rdx
	shrq	$3, %rdx
	leaq	(%rdx,%rdx,2), %rdx
	movq	-24(%rdi,%rdx,8), %rdx
	andq	%rbx, %rdx
	cmpq	%rax, %rdx
	setne	%r8b
	movq	%r9, %rax
	decl	%esi
	jne	LBB170_55
	jmp	LBB170_93
LBB170_92:
	movq	%r10, %r12
LBB170_93:
	xorl	%r8d, %r8d
	testq	%r12, %r12
	setne	%r8b
	leaq	16(%rsp), %rdi
	movl	%ebp, %esi
	movq	%r15, %rdx
	movq	%r12, %r9
	callq	_ic_rbtree.join.roots.join.f4da04d8a93b4f27
	xorl	%r15d, %r15d
	testb	%al, %al
	cmovneq	%rdx, %r15
LBB170_94:
	movq	%r15, (%r14)
	movq	72(%rsp), %rax
	movq	$0, (%rax)
	xorl	%r13d, %r13d
LBB170_95:
	movl	%r13d, %eax
	addq	$104, %rsp
	popq	%rbx
	popq	%r12
	popq	%r13
	popq	%r14
	popq	%r15
	popq	%rbp
	retq
LBB170_117:
	movq	%r11, %r12
	jmp	LBB170_93
LBB170_96:
	orq	$1, %r9
	movq	%r9, -8(%rdi,%rdx)
	movq	32(%rsp), %r12
	jmp	LBB170_93
LBB170_97:
	orq	$1, %r9
	movq	%r9, -8(%rdi,%rdx)
	jmp	LBB170_93
LBB170_98:
	movq	-16(%rdi,%r10), %rsi
	andq	%rbx, %rsi
	je	LBB170_100
	leaq	(%rsi,%rsi,2), %r11
	movq	-8(%rdi,%r11), %r13
	testb	$1, %r13b
	je	LBB170_105
LBB170_100:
	leaq	(%r8,%r8,2), %r13
	movq	-16(%rdi,%r13), %r11
	andq	%rbx, %r11
	movq	-8(%rdi,%r10), %rsi
	andq	%rbx, %rsi
	andl	$1, %r12d
	orq	%r11, %r12
	movq	%r12, -24(%rdi,%r10)
	testq	%r11, %r11
	je	LBB170_102
	movq	16(%rsp), %rdi
	shrq	$3, %r11
	leaq	(%r11,%r11,2), %r11
	movq	-8(%rdi,%r11,8), %r12
	andl	$1, %r12d
	orq	%r9, %r12
	movq	%r12, -8(%rdi,%r11,8)
LBB170_102:
	movq	16(%rsp), %rdi
	movq	-8(%rdi,%r13), %r11
	andl	$1, %r11d
	orq	%rsi, %r11
	movq	%r11, -8(%rdi,%r13)
	movq	16(%rsp), %rdi
	orq	$1, -8(%rdi,%r13)
	movq	%r8, %r12
	testq	%rsi, %rsi
	je	LBB170_132
	movq	16(%rsp), %rdi
	leaq	(%rsi,%rsi,2), %rsi
	movq	-24(%rdi,%rsi), %r11
	movq	%r11, %r12
	andq	%rbx, %r12
	cmpq	%r9, %r12
	jne	LBB170_130
	andl	$1, %r11d
	orq	%r8, %r11
	movq	%r11, -24(%rdi,%rsi)
	jmp	LBB170_131
LBB170_105:
	movq	32(%rsp), %r12
	movq	%r9, %r8
	movq	%r10, %r9
	jmp	LBB170_134
LBB170_106:
	testq	%r8, %r8
	je	LBB170_111
	movq	%r8, %rsi
	shrq	$3, %rsi
	leaq	(%rsi,%rsi,2), %rsi
	movq	-8(%rdi,%rsi,8), %r11
LBB170_108:
	testb	$1, %r11b
	je	LBB170_118
	movq	-16(%rdi,%r10), %r11
	andq	%rbx, %r11
	je	LBB170_93
	leaq	(%r11,%r11,2), %r13
LBB170_111:
	movq	%r12, 32(%rsp)
	movq	-8(%rdi,%r10), %rsi
	andq	%rbx, %rsi
	movq	-24(%rdi,%r13), %r8
	andq	%rbx, %r8
	movq	%r8, -16(%rdi,%r10)
	je	LBB170_113
	movq	16(%rsp), %rdi
	shrq	$3, %r8
	leaq	(%r8,%r8,2), %r8
	movq	-8(%rdi,%r8,8), %r12
	andl	$1, %r12d
	orq	%r9, %r12
	movq	%r12, -8(%rdi,%r8,8)
LBB170_113:
	movq	16(%rsp), %rdi
	movq	-8(%rdi,%r13), %r8
	andl	$1, %r8d
	orq	%rsi, %r8
	movq	%r8, -8(%rdi,%r13)
	movq	16(%rsp), %rdi
	orq	$1, -8(%rdi,%r13)
	movq	%r11, %r12
	testq	%rsi, %rsi
	je	LBB170_121
	movq	16(%rsp), %rdi
	leaq	(%rsi,%rsi,2), %rsi
	movq	-24(%rdi,%rsi), %r8
	movq	%r8, %r12
	andq	%rbx, %r12
	cmpq	%r9, %r12
	jne	LBB170_119
	andl	$1, %r8d
	orq	%r11, %r8
	movq	%r8, -24(%rdi,%rsi)
	jmp	LBB170_120
LBB170_118:
	movq	%r12, 32(%rsp)
	movq	%r9, %r11
	movq	%r10, %r13
	jmp	LBB170_122
LBB170_119:
	movq	%r11, -16(%rdi,%rsi)
LBB170_120:
	movq	32(%rsp), %r12
LBB170_121:
	movq	16(%rsp), %rsi
	movq	-24(%rsi,%r13), %rdi
	andl	$1, %edi
	orq	%r9, %rdi
	movq	%rdi, -24(%rsi,%r13)
	movq	16(%rsp), %rsi
	movq	-8(%rsi,%r10), %rdi
	andl	$1, %edi
	orq	%r11, %rdi
	movq	%rdi, -8(%rsi,%r10)
	movq	16(%rsp), %rsi
	andq	$-2, -8(%rsi,%r10)
	movq	16(%rsp), %rdi
	movq	-24(%rdi,%r13), %r8
	movq	%r12, 32(%rsp)
	andq	%rbx, %r8
	je	LBB170_93
LBB170_122:
	movq	-8(%rdi,%rdx), %rsi
	shrq	$3, %r8
	leaq	(%r8,%r8,2), %r8
	orq	$1, -8(%rdi,%r8,8)
	andl	$1, %esi
	movq	16(%rsp), %r9
	movq	-16(%r9,%r13), %r8
	andq	%rbx, %r8
	movq	-8(%r9,%rdx), %rdi
	andq	%rbx, %rdi
	movq	-24(%r9,%rdx), %r10
	andl	$1, %r10d
	orq	%r8, %r10
	movq	%r10, -24(%r9,%rdx)
	testq	%r8, %r8
	je	LBB170_124
	movq	16(%rsp), %r9
	shrq	$3, %r8
	leaq	(%r8,%r8,2), %r8
	movq	-8(%r9,%r8,8), %r10
	andl	$1, %r10d
	orq	%rax, %r10
	movq	%r10, -8(%r9,%r8,8)
LBB170_124:
	movq	16(%rsp), %r8
	movq	-8(%r8,%r13), %r9
	andl	$1, %r9d
	orq	%rdi, %r9
	movq	%r9, -8(%r8,%r13)
	movq	16(%rsp), %r8
	movq	-8(%r8,%r13), %r9
	andq	$-2, %r9
	orq	%rsi, %r9
	movq	%r9, -8(%r8,%r13)
	movq	%r11, %r12
	testq	%rdi, %rdi
	je	LBB170_129
	movq	16(%rsp), %rsi
	leaq	(%rdi,%rdi,2), %rdi
	movq	-24(%rsi,%rdi), %r8
	andq	%r8, %rbx
	cmpq	%rax, %rbx
	jne	LBB170_127
	andl	$1, %r8d
	addq	%r11, %r8
	movq	%r8, -24(%rsi,%rdi)
	jmp	LBB170_128
LBB170_127:
	movq	%r11, -16(%rsi,%rdi)
LBB170_128:
	movq	32(%rsp), %r12
LBB170_129:
	movq	16(%rsp), %rsi
	movq	%rax, -16(%rsi,%r13)
	movq	16(%rsp), %rax
	movq	-8(%rax,%rdx), %rsi
	andl	$1, %esi
	addq	%r11, %rsi
	movq	%rsi, -8(%rax,%rdx)
	jmp	LBB170_27
LBB170_130:
	movq	%r8, -16(%rdi,%rsi)
LBB170_131:
	movq	32(%rsp), %r12
LBB170_132:
	movq	16(%rsp), %rsi
	movq	%r9, -16(%rsi,%r13)
	movq	16(%rsp), %rsi
	movq	-8(%rsi,%r10), %rdi
	andl	$1, %edi
	orq	%r8, %rdi
	movq	%rdi, -8(%rsi,%r10)
	movq	16(%rsp), %rsi
	andq	$-2, -8(%rsi,%r10)
	movq	16(%rsp), %rdi
	movq	-16(%rdi,%r13), %rsi
	andq	%rbx, %rsi
	je	LBB170_93
	leaq	(%rsi,%rsi,2), %r11
	movq	%r13, %r9
	movq	-8(%rdi,%r11), %r13
LBB170_134:
	movq	-8(%rdi,%rdx), %rsi
	andl	$1, %esi
	orq	$1, %r13
	movq	%r13, -8(%rdi,%r11)
	movq	16(%rsp), %r10
	movq	-8(%r10,%rdx), %rdi
	andq	%rbx, %rdi
	movq	%r9, %r13
	movq	-24(%r10,%r9), %r9
	andq	%rbx, %r9
	movq	%r9, -16(%r10,%rdx)
	je	LBB170_136
	movq	16(%rsp), %r10
	shrq	$3, %r9
	leaq	(%r9,%r9,2), %r9
	movq	-8(%r10,%r9,8), %r11
	andl	$1, %r11d
	orq	%rax, %r11
	movq	%r11, -8(%r10,%r9,8)
LBB170_136:
	movq	16(%rsp), %r9
	movq	-8(%r9,%r13), %r10
	andl	$1, %r10d
	orq	%rdi, %r10
	movq	%r10, -8(%r9,%r13)
	movq	16(%rsp), %r9
	movq	-8(%r9,%r13), %r10
	andq	$-2, %r10
	orq	%rsi, %r10
	movq	%r10, -8(%r9,%r13)
	movq	%r8, %rsi
	testq	%rdi, %rdi
	je	LBB170_141
	movq	16(%rsp), %rsi
	leaq	(%rdi,%rdi,2), %rdi
	movq	-24(%rsi,%rdi), %r9
	andq	%r9, %rbx
	cmpq	%rax, %rbx
	jne	LBB170_139
	andl	$1, %r9d
	addq	%r8, %r9
	movq	%r9, -24(%rsi,%rdi)
	jmp	LBB170_140
LBB170_139:
	movq	%r8, -16(%rsi,%rdi)
LBB170_140:
	movq	%r12, %rsi
LBB170_141:
	movq	16(%rsp), %rdi
	movq	-24(%rdi,%r13), %r9
	andl	$1, %r9d
	orq	%rax, %r9
	movq	%r9, -24(%rdi,%r13)
	movq	16(%rsp), %rax
	movq	-8(%rax,%rdx), %rdi
	andl	$1, %edi
	addq	%r8, %rdi
	movq	%rdi, -8(%rax,%rdx)
	movq	16(%rsp), %rax
	orq	$1, -8(%rax,%rdx)
	movq	%rsi, %r12
	jmp	LBB170_93
	.cfi_endproc
	.globl	_ic_tree_check
	.p2align	4
_ic_tree_check:
	.cfi_startproc
	pushq	%rbx
	.cfi_def_cfa_offset 16
	subq	$48, %rsp
	.cfi_def_cfa_offset 64
	.cfi_offset %rbx, -16
	movq	%rcx, %rbx
	xorl	%r8d, %r8d
	testq	%rdi, %rdi
	sete	%r8b
	shll	$12, %r8d
	addq	%rdi, %r8
	movabsq	$68719476728, %rcx
	xorl	%eax, %eax
	andq	(%rdx), %rcx
	movq	%r8, 8(%rsp)
	movq	%rsi, 16(%rsp)
	setne	%al
	movl	$66, (%rsp)
	leaq	24(%rsp), %rdi
	leaq	8(%rsp), %rsi
	movl	%eax, %edx
	xorl	%r8d, %r8d
	xorl	%r9d, %r9d
	callq	_ic_check.tree.check_below.ffc36cde30076884
	cmpb	$1, 24(%rsp)
	movl	$5, %eax
	jne	LBB171_3
	cmpb	$1, 44(%rsp)
	jne	LBB171_3
	movq	32(%rsp), %rax
	movq	%rax, (%rbx)
	xorl	%eax, %eax
LBB171_3:
	addq	$48, %rsp
	popq	%rbx
	retq
	.cfi_endproc
	.globl	_ic_tree_clear
	.p2align	4
_ic_tree_clear:
	.cfi_startproc
	pushq	%rbp
	.cfi_def_cfa_offset 16
	pushq	%r15
	.cfi_def_cfa_offset 24
	pushq	%r14
	.cfi_def_cfa_offset 32
	pushq	%r13
	.cfi_def_cfa_offset 40
	pushq	%r12
	.cfi_def_cfa_offset 48
	pushq	%rbx
	.cfi_def_cfa_offset 56
	.cfi_offset %rbx, -56
	.cfi_offset %r12, -48
	.cfi_offset %r13, -40
	.cfi_offset %r14, -32
	.cfi_offset %r15, -24
	.cfi_offset %rbp, -16
	movabsq	$68719476728, %r8
	xorl	%ecx, %ecx
	testq	%rdi, %rdi
	sete	%cl
	shll	$12, %ecx
	addq	%rdi, %rcx
	movq	(%rdx), %rdi
	andq	%r8, %rdi
	je	LBB172_1
	movq	%rdi, %r9
	shrq	$3, %r9
	movl	$5, %eax
	cmpq	%rsi, %r9
	ja	LBB172_64
	leaq	(%r9,%r9,2), %r9
	testb	$1, -24(%rcx,%r9,8)
	je	LBB172_64
	leaq	(,%rsi,8), %rax
	movl	$66, %r9d
	movq	%rdi, %r11
	.p2align	4
LBB172_8:
	movq	%r11, %r10
	shrq	$3, %r10
	leaq	(%r10,%r10,2), %r10
	movq	-24(%rcx,%r10,8), %r10
	andq	%r8, %r10
	leaq	-1(%r10), %rbx
	movb	$1, %r14b
	cmpq	%rax, %rbx
	jae	LBB172_9
	testl	%r9d, %r9d
	je	LBB172_10
	movq	%r10, %r11
	shrq	$3, %r11
	leaq	(%r11,%r11,2), %r11
	movq	-24(%rcx,%r11,8), %r11
	andq	%r8, %r11
	leaq	-1(%r11), %rbx
	cmpq	%rax, %rbx
	jae	LBB172_10
	addl	$-2, %r9d
	jmp	LBB172_8
LBB172_1:
	xorl	%r14d, %r14d
	xorl	%r10d, %r10d
LBB172_10:
	testq	%rsi, %rsi
	je	LBB172_27
LBB172_11:
	testq	%rdi, %rdi
	sete	%al
	movq	%rdi, %r9
	shrq	$3, %r9
	cmpq	%rsi, %r9
	setbe	%r11b
	orb	%al, %r11b
	cmpb	$1, %r11b
	jne	LBB172_20
	leaq	(,%rsi,8), %r11
	movq	%rsi, %rbx
	jmp	LBB172_13
	.p2align	4
LBB172_25:
	xorl	%r14d, %r14d
	xorl	%r10d, %r10d
LBB172_26:
	decq	%rbx
	je	LBB172_27
LBB172_13:
	cmpb	$1, %r14b
	jne	LBB172_37
	movq	%r10, %r14
	shrq	$3, %r14
	movl	$5, %eax
	cmpq	%rsi, %r14
	ja	LBB172_64
	shlq	$3, %r14
	leaq	(%r14,%r14,2), %r14
	testb	$1, -24(%rcx,%r14)
	je	LBB172_64
	movq	-16(%rcx,%r14), %rax
	andq	%r8, %rax
	leaq	-1(%rax), %r15
	cmpq	%r11, %r15
	jae	LBB172_24
	movl	$66, %ebp
	.p2align	4
LBB172_18:
	movq	%rax, %r10
	shrq	$3, %r10
	leaq	(%r10,%r10,2), %r10
	movq	-24(%rcx,%r10,8), %r10
	andq	%r8, %r10
	leaq	-1(%r10), %r15
	movb	$1, %r14b
	cmpq	%r11, %r15
	jae	LBB172_19
	testl	%ebp, %ebp
	je	LBB172_26
	movq	%r10, %rax
	shrq	$3, %rax
	leaq	(%rax,%rax,2), %rax
	movq	-24(%rcx,%rax,8), %rax
	andq	%r8, %rax
	leaq	-1(%rax), %r15
	cmpq	%r11, %r15
	jae	LBB172_26
	addl	$-2, %ebp
	jmp	LBB172_18
	.p2align	4
LBB172_24:
	movq	-8(%rcx,%r14), %r14
	andq	%r8, %r14
	leaq	-1(%r14), %rax
	cmpq	%r11, %rax
	jae	LBB172_25
	movl	$-67, %eax
	.p2align	4
LBB172_31:
	movq	%r10, %r12
	movq	%r14, %r10
	leaq	(%r14,%r14,2), %r15
	movq	-16(%rcx,%r15), %r13
	andq	%r8, %r13
	movb	$1, %r14b
	cmpq	%r12, %r13
	jne	LBB172_26
	testl	%eax, %eax
	je	LBB172_26
	movq	-8(%rcx,%r15), %r14
	andq	%r8, %r14
	leaq	-1(%r14), %r15
	incl	%eax
	cmpq	%r11, %r15
	jb	LBB172_31
	jmp	LBB172_25
LBB172_19:
	movq	%rax, %r10
	jmp	LBB172_26
LBB172_20:
	shrq	$3, %r10
	movl	$5, %eax
	cmpq	%rsi, %r10
	ja	LBB172_64
	leaq	(%r10,%r10,2), %r10
	testb	$1, -24(%rcx,%r10,8)
	je	LBB172_64
	cmpq	$1, %rsi
	jne	LBB172_38
	xorl	%r14d, %r14d
	jmp	LBB172_27
LBB172_9:
	movq	%r11, %r10
	testq	%rsi, %rsi
	jne	LBB172_11
LBB172_27:
	testq	%rdi, %rdi
	je	LBB172_62
	testb	%r14b, %r14b
	jne	LBB172_62
	movq	%rdi, %r9
	shrq	$3, %r9
LBB172_38:
	cmpq	%rsi, %r9
	ja	LBB172_63
	leaq	(,%rsi,8), %rax
	movl	$66, %r9d
	.p2align	4
LBB172_44:
	movq	%rdi, %r10
	shrq	$3, %r10
	leaq	(%r10,%r10,2), %r10
	movq	-24(%rcx,%r10,8), %r11
	andq	%r8, %r11
	leaq	-1(%r11), %rbx
	movq	%rdi, %r10
	cmpq	%rax, %rbx
	jae	LBB172_45
	testl	%r9d, %r9d
	je	LBB172_41
	movq	%r11, %rdi
	shrq	$3, %rdi
	leaq	(%rdi,%rdi,2), %rdi
	movq	-24(%rcx,%rdi,8), %rdi
	andq	%r8, %rdi
	leaq	-1(%rdi), %rbx
	movq	%r11, %r10
	cmpq	%rax, %rbx
	jae	LBB172_45
	addl	$-2, %r9d
	jmp	LBB172_44
LBB172_62:
	movl	$5, %eax
	testb	%r14b, %r14b
	je	LBB172_63
	jmp	LBB172_64
LBB172_37:
	testq	%rdi, %rdi
	jne	LBB172_38
	jmp	LBB172_63
LBB172_41:
	movq	%r11, %r10
LBB172_45:
	testq	%rsi, %rsi
	je	LBB172_63
	movq	%rsi, %rdi
	jmp	LBB172_47
LBB172_51:
	movq	%r14, %r10
LBB172_55:
	andb	$-2, -24(%rcx,%r9)
	decq	%rdi
	je	LBB172_63
LBB172_47:
	movq	%r10, %r9
	shrq	$3, %r9
	cmpq	%rsi, %r9
	ja	LBB172_63
	shlq	$3, %r9
	leaq	(%r9,%r9,2), %r9
	movq	-16(%rcx,%r9), %rbx
	andq	%r8, %rbx
	leaq	-1(%rbx), %r11
	cmpq	%rax, %r11
	jae	LBB172_56
	movl	$66, %r11d
	.p2align	4
LBB172_54:
	movq	%rbx, %r10
	shrq	$3, %r10
	leaq	(%r10,%r10,2), %r10
	movq	-24(%rcx,%r10,8), %r14
	andq	%r8, %r14
	leaq	-1(%r14), %r15
	movq	%rbx, %r10
	cmpq	%rax, %r15
	jae	LBB172_55
	testl	%r11d, %r11d
	je	LBB172_51
	movq	%r14, %r10
	shrq	$3, %r10
	leaq	(%r10,%r10,2), %r10
	movq	-24(%rcx,%r10,8), %rbx
	andq	%r8, %rbx
	leaq	-1(%rbx), %r15
	movq	%r14, %r10
	cmpq	%rax, %r15
	jae	LBB172_55
	addl	$-2, %r11d
	jmp	LBB172_54
LBB172_56:
	movq	-8(%rcx,%r9), %rbx
	andq	%r8, %rbx
	leaq	-1(%rbx), %r11
	cmpq	%rax, %r11
	jae	LBB172_61
	movl	$-67, %r11d
	.p2align	4
LBB172_58:
	movq	%r10, %r14
	movq	%rbx, %r10
	leaq	(%rbx,%rbx,2), %rbx
	movq	-16(%rcx,%rbx), %r15
	andq	%r8, %r15
	cmpq	%r14, %r15
	jne	LBB172_55
	testl	%r11d, %r11d
	je	LBB172_55
	movq	-8(%rcx,%rbx), %rbx
	andq	%r8, %rbx
	leaq	-1(%rbx), %r14
	incl	%r11d
	cmpq	%rax, %r14
	jb	LBB172_58
LBB172_61:
	andb	$-2, -24(%rcx,%r9)
LBB172_63:
	movq	$0, (%rdx)
	xorl	%eax, %eax
LBB172_64:
	popq	%rbx
	popq	%r12
	popq	%r13
	popq	%r14
	popq	%r15
	popq	%rbp
	retq
	.cfi_endproc
	.globl	_ic_tree_ends_insert
	.p2align	4
_ic_tree_ends_insert:
	.cfi_startproc
	pushq	%r15
	.cfi_def_cfa_offset 16
	pushq	%r14
	.cfi_def_cfa_offset 24
	pushq	%r13
	.cfi_def_cfa_offset 32
	pushq	%r12
	.cfi_def_cfa_offset 40
	pushq	%rbx
	.cfi_def_cfa_offset 48
	.cfi_offset %rbx, -48
	.cfi_offset %r12, -40
	.cfi_offset %r13, -32
	.cfi_offset %r14, -24
	.cfi_offset %r15, -16
	movq	%r9, %rbx
	movq	%r8, %r12
	movq	%rsi, %r14
	movl	48(%rsp), %r13d
	xorl	%r15d, %r15d
	testq	%rdi, %rdi
	sete	%r15b
	shll	$12, %r15d
	addq	%rdi, %r15
	xorl	%eax, %eax
	testq	%rdx, %rdx
	sete	%al
	shll	$12, %eax
	addq	%rax, %rdx
	movq	%r15, %rdi
	movl	%r13d, %r9d
	callq	_ic_raw.search_calls.insert
	testl	%eax, %eax
	jne	LBB173_26
	leal	1(%r13), %esi
	incl	%r13d
	je	LBB173_26
	leaq	(,%rsi,8), %rcx
	cmpq	%rsi, %r14
	jb	LBB173_3
	movabsq	$68719476728, %rdx
	movq	(%r12), %rdi
	andq	%rdx, %rdi
	sete	%r8b
	shrq	$3, %rdi
	cmpq	%r14, %rdi
	setbe	%dil
	orb	%r8b, %dil
	je	LBB173_3
	movq	(%rbx), %r8
	andq	%rdx, %r8
	shlq	$3, %rsi
	leaq	(%rsi,%rsi,2), %rdi
	shlq	$3, %r14
	movq	-24(%r15,%rdi), %rsi
	andq	%rdx, %rsi
	decq	%rsi
	cmpq	%r14, %rsi
	jae	LBB173_8
LBB173_15:
	movq	%r8, %rsi
	jmp	LBB173_16
LBB173_3:
	movq	%rcx, %rsi
LBB173_25:
	movq	%rsi, (%rbx)
	movq	%rcx, 8(%rbx)
LBB173_26:
	popq	%rbx
	popq	%r12
	popq	%r13
	popq	%r14
	popq	%r15
	retq
LBB173_8:
	movq	-8(%r15,%rdi), %r9
	andq	%rdx, %r9
	leaq	-1(%r9), %r10
	movq	%rcx, %rsi
	cmpq	%r14, %r10
	jae	LBB173_16
	movl	$-67, %esi
	movq	%rcx, %r10
LBB173_10:
	movq	%r10, %r11
	movq	%r9, %r10
	leaq	(%r9,%r9,2), %r9
	movq	-24(%r15,%r9), %r12
	andq	%rdx, %r12
	cmpq	%r11, %r12
	jne	LBB173_15
	testl	%esi, %esi
	je	LBB173_15
	movq	-8(%r15,%r9), %r9
	andq	%rdx, %r9
	leaq	-1(%r9), %r11
	incl	%esi
	cmpq	%r14, %r11
	jb	LBB173_10
	movq	%rcx, %rsi
LBB173_16:
	movq	8(%rbx), %r8
	andq	%rdx, %r8
	movq	-16(%r15,%rdi), %r9
	andq	%rdx, %r9
	decq	%r9
	cmpq	%r14, %r9
	jae	LBB173_18
LBB173_24:
	movq	%r8, %rcx
	jmp	LBB173_25
LBB173_18:
	movq	-8(%r15,%rdi), %r10
	andq	%rdx, %r10
	leaq	-1(%r10), %rdi
	cmpq	%r14, %rdi
	jae	LBB173_25
	movl	$-67, %edi
	movq	%rcx, %r9
LBB173_20:
	movq	%r9, %r11
	movq	%r10, %r9
	leaq	(%r10,%r10,2), %r10
	movq	-16(%r15,%r10), %r12
	andq	%rdx, %r12
	cmpq	%r11, %r12
	jne	LBB173_24
	testl	%edi, %edi
	je	LBB173_24
	movq	-8(%r15,%r10), %r10
	andq	%rdx, %r10
	leaq	-1(%r10), %r11
	incl	%edi
	cmpq	%r14, %r11
	jb	LBB173_20
	jmp	LBB173_25
	.cfi_endproc
	.globl	_ic_tree_ends_insert_left
	.p2align	4
_ic_tree_ends_insert_left:
	.cfi_startproc
	pushq	%rbp
	.cfi_def_cfa_offset 16
	pushq	%r14
	.cfi_def_cfa_offset 24
	pushq	%rbx
	.cfi_def_cfa_offset 32
	.cfi_offset %rbx, -32
	.cfi_offset %r14, -24
	.cfi_offset %rbp, -16
	movl	%r8d, %ebp
	movq	%rcx, %rbx
	xorl	%eax, %eax
	testq	%rdi, %rdi
	sete	%al
	shll	$12, %eax
	addq	%rax, %rdi
	xorl	%ecx, %ecx
	movq	%r9, %r14
	callq	_ic_raw.tree_calls.insert_at
	testl	%eax, %eax
	je	LBB174_1
	popq	%rbx
	popq	%r14
	popq	%rbp
	retq
LBB174_1:
	movq	%r14, %rsi
	incl	%esi
	leaq	(,%rsi,8), %rcx
	incl	%ebp
	jne	LBB174_3
	movq	%rcx, %rdx
	jmp	LBB174_4
LBB174_3:
	movabsq	$68719476728, %rdi
	movq	8(%rbx), %rdx
	andq	%rdi, %rdx
	xorl	%r8d, %r8d
	andq	(%rbx), %rdi
	sete	%r8b
	xorl	%r9d, %r9d
	testl	%esi, %esi
	sete	%r9b
	movl	%ebp, %esi
	shlq	$3, %rsi
	cmpq	%rsi, %rdi
	cmovnel	%r8d, %r9d
	cmoveq	%rcx, %rdi
	xorl	%ecx, %ecx
	testb	%r9b, %r9b
	cmoveq	%rdi, %rcx
LBB174_4:
	movq	%rcx, (%rbx)
	movq	%rdx, 8(%rbx)
	popq	%rbx
	popq	%r14
	popq	%rbp
	retq
	.cfi_endproc
	.globl	_ic_tree_ends_insert_right
	.p2align	4
_ic_tree_ends_insert_right:
	.cfi_startproc
	pushq	%rbp
	.cfi_def_cfa_offset 16
	pushq	%r14
	.cfi_def_cfa_offset 24
	pushq	%rbx
	.cfi_def_cfa_offset 32
	.cfi_offset %rbx, -32
	.cfi_offset %r14, -24
	.cfi_offset %rbp, -16
	movl	%r8d, %ebp
	movq	%rcx, %rbx
	xorl	%eax, %eax
	testq	%rdi, %rdi
	sete	%al
	shll	$12, %eax
	addq	%rax, %rdi
	movl	$1, %ecx
	movq	%r9, %r14
	callq	_ic_raw.tree_calls.insert_at
	testl	%eax, %eax
	je	LBB175_1
	popq	%rbx
	popq	%r14
	popq	%rbp
	retq
LBB175_1:
	movq	%r14, %rdx
	incl	%edx
	leaq	(,%rdx,8), %rcx
	incl	%ebp
	jne	LBB175_3
	movq	%rcx, %rdx
	jmp	LBB175_4
LBB175_3:
	movabsq	$68719476728, %rsi
	xorl	%edi, %edi
	movq	8(%rbx), %r8
	andq	%rsi, %r8
	sete	%dil
	andq	(%rbx), %rsi
	xorl	%r9d, %r9d
	testl	%edx, %edx
	sete	%r9b
	movl	%ebp, %edx
	shlq	$3, %rdx
	cmpq	%rdx, %r8
	cmovnel	%edi, %r9d
	cmoveq	%rcx, %r8
	xorl	%edx, %edx
	testb	%r9b, %r9b
	cmoveq	%r8, %rdx
	movq	%rsi, %rcx
LBB175_4:
	movq	%rcx, (%rbx)
	movq	%rdx, 8(%rbx)
	popq	%rbx
	popq	%r14
	popq	%rbp
	retq
	.cfi_endproc
	.globl	_ic_tree_ends_pop_first
	.p2align	4
_ic_tree_ends_pop_first:
	.cfi_startproc
	xorl	%r9d, %r9d
	testq	%rdi, %rdi
	sete	%r10b
	movq	(%rcx), %rax
	movabsq	$68719476728, %r11
	andq	%rax, %r11
	je	LBB176_1
	pushq	%r15
	.cfi_def_cfa_offset 16
	pushq	%r14
	.cfi_def_cfa_offset 24
	pushq	%rbx
	.cfi_def_cfa_offset 32
	.cfi_offset %rbx, -32
	.cfi_offset %r14, -24
	.cfi_offset %r15, -16
	movq	%rax, %rbx
	shrq	$3, %rbx
	movabsq	$34359738360, %r14
	andq	%rax, %r14
	xorl	%r15d, %r15d
	subl	$1, %ebx
	cmovaeq	%r14, %r15
	movl	$5, %eax
	cmpq	%r11, %r15
	jne	LBB176_6
	movq	%r8, %r14
	movb	%r10b, %r9b
	shll	$12, %r9d
	addq	%r9, %rdi
	movl	%ebx, %r8d
	callq	_ic_raw_keyed.ends_calls.remove
	movl	%eax, %ecx
	movl	$5, %eax
	testl	%ecx, %ecx
	je	LBB176_5
LBB176_6:
	popq	%rbx
	popq	%r14
	popq	%r15
	retq
LBB176_1:
	movl	$4, %eax
	retq
LBB176_5:
	movl	%ebx, (%r14)
	xorl	%eax, %eax
	popq	%rbx
	popq	%r14
	popq	%r15
	retq
	.cfi_endproc
	.globl	_ic_tree_ends_remove
	.p2align	4
_ic_tree_ends_remove:
	.cfi_startproc
	xorl	%eax, %eax
	testq	%rdi, %rdi
	sete	%al
	shll	$12, %eax
	addq	%rax, %rdi
	jmp	_ic_raw_keyed.ends_calls.remove
	.cfi_endproc
	.globl	_ic_tree_ends_replace
	.p2align	4
_ic_tree_ends_replace:
	.cfi_startproc
	pushq	%r15
	.cfi_def_cfa_offset 16
	pushq	%r14
	.cfi_def_cfa_offset 24
	pushq	%rbx
	.cfi_def_cfa_offset 32
	.cfi_offset %rbx, -32
	.cfi_offset %r14, -24
	.cfi_offset %r15, -16
	movq	%rcx, %rbx
	leal	1(%r8), %r15d
	movl	%r8d, %ecx
	movl	$4, %eax
	incl	%ecx
	je	LBB178_2
	movl	%r9d, %r14d
	xorl	%eax, %eax
	testq	%rdi, %rdi
	sete	%al
	shll	$12, %eax
	addq	%rdi, %rax
	movq	%rax, %rdi
	movl	%r8d, %ecx
	movl	%r9d, %r8d
	callq	_ic_raw.tree_calls.replace
	testl	%eax, %eax
	je	LBB178_3
LBB178_2:
	popq	%rbx
	popq	%r14
	popq	%r15
	retq
LBB178_3:
	shlq	$3, %r15
	incl	%r14d
	leaq	(,%r14,8), %rax
	xorl	%esi, %esi
	testl	%r14d, %r14d
	setne	%sil
	movabsq	$68719476728, %rcx
	xorl	%edi, %edi
	movq	(%rbx), %rdx
	andq	%rcx, %rdx
	setne	%dil
	cmpq	%r15, %rdx
	cmovel	%esi, %edi
	cmoveq	%rax, %rdx
	xorl	%r8d, %r8d
	andq	8(%rbx), %rcx
	setne	%r8b
	cmpq	%r15, %rcx
	cmovel	%esi, %r8d
	cmoveq	%rax, %rcx
	xorl	%eax, %eax
	testb	%dil, %dil
	cmoveq	%rax, %rdx
	testb	%r8b, %r8b
	cmoveq	%rax, %rcx
	movq	%rdx, (%rbx)
	movq	%rcx, 8(%rbx)
	popq	%rbx
	popq	%r14
	popq	%r15
	retq
	.cfi_endproc
	.globl	_ic_tree_find
	.p2align	4
_ic_tree_find:
	.cfi_startproc
	pushq	%rbp
	.cfi_def_cfa_offset 16
	pushq	%r15
	.cfi_def_cfa_offset 24
	pushq	%r14
	.cfi_def_cfa_offset 32
	pushq	%rbx
	.cfi_def_cfa_offset 40
	.cfi_offset %rbx, -40
	.cfi_offset %r14, -32
	.cfi_offset %r15, -24
	.cfi_offset %rbp, -16
	xorl	%r14d, %r14d
	testq	%rdi, %rdi
	sete	%bpl
	xorl	%r11d, %r11d
	testq	%rdx, %rdx
	sete	%bl
	cmpq	%rsi, %rcx
	jb	LBB179_18
	movabsq	$68719476728, %rax
	movq	(%r8), %r10
	andq	%rax, %r10
	je	LBB179_2
	movq	%r10, %r8
	shrq	$3, %r8
	cmpq	%rsi, %r8
	ja	LBB179_18
	movb	%bpl, %r14b
	shll	$12, %r14d
	addq	%r14, %rdi
	leaq	(%r8,%r8,2), %r8
	testb	$1, -24(%rdi,%r8,8)
	je	LBB179_18
	movq	40(%rsp), %rcx
	movb	%bl, %r11b
	shll	$12, %r11d
	addq	%r11, %rdx
	shlq	$3, %rsi
	movl	$22, %r11d
	xorl	%r8d, %r8d
	.p2align	4
LBB179_6:
	movq	%r10, %rbx
	shrq	$3, %rbx
	leaq	(%rbx,%rbx,2), %rbx
	movq	-24(%rdi,%rbx,8), %r14
	cmpq	-8(%rdx,%r10), %r9
	movq	-16(%rdi,%rbx,8), %rbx
	cmovbeq	%r10, %r8
	movq	%r14, %r10
	cmovaq	%rbx, %r10
	andq	%rax, %r10
	leaq	-1(%r10), %r15
	cmpq	%rsi, %r15
	jae	LBB179_11
	movq	%r10, %rbx
	shrq	$3, %rbx
	leaq	(%rbx,%rbx,2), %rbx
	movq	-24(%rdi,%rbx,8), %r14
	cmpq	-8(%rdx,%r10), %r9
	movq	-16(%rdi,%rbx,8), %rbx
	cmovbeq	%r10, %r8
	movq	%r14, %r10
	cmovaq	%rbx, %r10
	andq	%rax, %r10
	leaq	-1(%r10), %r15
	cmpq	%rsi, %r15
	jae	LBB179_11
	movq	%r10, %rbx
	shrq	$3, %rbx
	leaq	(%rbx,%rbx,2), %rbx
	movq	-24(%rdi,%rbx,8), %r14
	cmpq	-8(%rdx,%r10), %r9
	movq	-16(%rdi,%rbx,8), %rbx
	cmovbeq	%r10, %r8
	movq	%r14, %r10
	cmovaq	%rbx, %r10
	andq	%rax, %r10
	leaq	-1(%r10), %r15
	cmpq	%rsi, %r15
	jae	LBB179_11
	decl	%r11d
	jne	LBB179_6
	movl	$5, %eax
	jmp	LBB179_17
LBB179_11:
	cmpq	%r10, %r14
	jae	LBB179_13
	movl	$5, %eax
	cmpq	%r10, %rbx
	jb	LBB179_17
LBB179_13:
	movl	$4, %eax
	testq	%r8, %r8
	je	LBB179_17
	cmpq	-8(%rdx,%r8), %r9
	jne	LBB179_17
	shrq	$3, %r8
	leaq	(%r8,%r8,2), %rdx
	movl	$5, %eax
	testb	$1, -24(%rdi,%rdx,8)
	je	LBB179_17
	decl	%r8d
	movl	%r8d, (%rcx)
	xorl	%eax, %eax
	jmp	LBB179_17
LBB179_2:
	movl	$4, %eax
LBB179_17:
	popq	%rbx
	popq	%r14
	popq	%r15
	popq	%rbp
	retq
LBB179_18:
	movq	%rsi, %rdi
	movq	%rcx, %rsi
	popq	%rbx
	popq	%r14
	popq	%r15
	popq	%rbp
	jmp	_ic_raw.search.refusal
	.cfi_endproc
	.globl	_ic_tree_insert
	.p2align	4
_ic_tree_insert:
	.cfi_startproc
	xorl	%eax, %eax
	testq	%rdi, %rdi
	sete	%al
	shll	$12, %eax
	addq	%rax, %rdi
	xorl	%eax, %eax
	testq	%rdx, %rdx
	sete	%al
	shll	$12, %eax
	addq	%rax, %rdx
	jmp	_ic_raw.search_calls.insert
	.cfi_endproc
	.globl	_ic_tree_insert_left
	.p2align	4
_ic_tree_insert_left:
	.cfi_startproc
	movl	%r8d, %r9d
	movl	%ecx, %r8d
	xorl	%eax, %eax
	testq	%rdi, %rdi
	sete	%al
	shll	$12, %eax
	addq	%rax, %rdi
	xorl	%ecx, %ecx
	jmp	_ic_raw.tree_calls.insert_at
	.cfi_endproc
	.globl	_ic_tree_insert_right
	.p2align	4
_ic_tree_insert_right:
	.cfi_startproc
	movl	%r8d, %r9d
	movl	%ecx, %r8d
	xorl	%eax, %eax
	testq	%rdi, %rdi
	sete	%al
	shll	$12, %eax
	addq	%rax, %rdi
	movl	$1, %ecx
	jmp	_ic_raw.tree_calls.insert_at
	.cfi_endproc
	.globl	_ic_tree_join
	.p2align	4
_ic_tree_join:
	.cfi_startproc
	xorl	%r9d, %r9d
	testq	%rdi, %rdi
	sete	%r10b
	incl	%ecx
	sete	%al
	cmpq	%rcx, %rsi
	setb	%r11b
	orb	%al, %r11b
	movl	$1, %eax
	jne	LBB183_14
	pushq	%rbp
	.cfi_def_cfa_offset 16
	pushq	%r15
	.cfi_def_cfa_offset 24
	pushq	%r14
	.cfi_def_cfa_offset 32
	pushq	%r13
	.cfi_def_cfa_offset 40
	pushq	%r12
	.cfi_def_cfa_offset 48
	pushq	%rbx
	.cfi_def_cfa_offset 56
	subq	$72, %rsp
	.cfi_def_cfa_offset 128
	.cfi_offset %rbx, -56
	.cfi_offset %r12, -48
	.cfi_offset %r13, -40
	.cfi_offset %r14, -32
	.cfi_offset %r15, -24
	.cfi_offset %rbp, -16
	movb	%r10b, %r9b
	shll	$12, %r9d
	addq	%r9, %rdi
	shlq	$3, %rcx
	leaq	(%rcx,%rcx,2), %r12
	movl	-24(%rdi,%r12), %eax
	addl	%eax, %eax
	andl	$2, %eax
	jne	LBB183_13
	movq	%rdi, 32(%rsp)
	movq	%rsi, 40(%rsp)
	movabsq	$68719476728, %rbx
	movq	(%rdx), %r14
	andq	%rbx, %r14
	andq	(%r8), %rbx
	setne	%sil
	cmpq	%rbx, %r14
	sete	%dil
	movl	$5, %eax
	testb	%dil, %sil
	jne	LBB183_13
	movq	%rcx, %r13
	movq	%rdx, 24(%rsp)
	movq	%r8, 16(%rsp)
	xorl	%ebp, %ebp
	testq	%r14, %r14
	setne	%bpl
	movl	$66, (%rsp)
	leaq	48(%rsp), %rdi
	leaq	32(%rsp), %rsi
	movl	%ebp, %edx
	movq	%r14, %rcx
	xorl	%r8d, %r8d
	xorl	%r9d, %r9d
	callq	_ic_check.tree.check_below.ffc36cde30076884
	cmpb	$1, 48(%rsp)
	jne	LBB183_12
	testb	$1, 68(%rsp)
	je	LBB183_12
	xorl	%r15d, %r15d
	testq	%rbx, %rbx
	setne	%r15b
	movl	$66, (%rsp)
	leaq	48(%rsp), %rdi
	leaq	32(%rsp), %rsi
	movl	%r15d, %edx
	movq	%rbx, %rcx
	xorl	%r8d, %r8d
	xorl	%r9d, %r9d
	callq	_ic_check.tree.check_below.ffc36cde30076884
	cmpb	$1, 48(%rsp)
	jne	LBB183_12
	testb	$1, 68(%rsp)
	movq	16(%rsp), %rsi
	movq	24(%rsp), %rdx
	movl	$5, %eax
	je	LBB183_13
	movq	32(%rsp), %rax
	testb	$1, -24(%rax,%r12)
	jne	LBB183_9
	movq	$1, -24(%rax,%r12)
	leaq	32(%rsp), %rdi
	movl	%ebp, %esi
	movq	%r14, %rdx
	movq	%r13, %rcx
	movl	%r15d, %r8d
	movq	%rbx, %r9
	callq	_ic_rbtree.join.roots.join.f4da04d8a93b4f27
	movq	16(%rsp), %rsi
	movq	%rdx, %r14
	movq	24(%rsp), %rdx
	xorl	%ebx, %ebx
	testb	%al, %al
	cmoveq	%rbx, %r14
LBB183_9:
	movq	%r14, (%rdx)
	movq	%rbx, (%rsi)
	xorl	%eax, %eax
	jmp	LBB183_13
LBB183_12:
	movl	$5, %eax
LBB183_13:
	addq	$72, %rsp
	popq	%rbx
	popq	%r12
	popq	%r13
	popq	%r14
	popq	%r15
	popq	%rbp
LBB183_14:
	retq
	.cfi_endproc
	.globl	_ic_tree_lower_bound
	.p2align	4
_ic_tree_lower_bound:
	.cfi_startproc
	pushq	%rbp
	.cfi_def_cfa_offset 16
	pushq	%r15
	.cfi_def_cfa_offset 24
	pushq	%r14
	.cfi_def_cfa_offset 32
	pushq	%rbx
	.cfi_def_cfa_offset 40
	.cfi_offset %rbx, -40
	.cfi_offset %r14, -32
	.cfi_offset %r15, -24
	.cfi_offset %rbp, -16
	xorl	%r14d, %r14d
	testq	%rdi, %rdi
	sete	%r15b
	xorl	%ebx, %ebx
	testq	%rdx, %rdx
	sete	%bpl
	cmpq	%rsi, %rcx
	jb	LBB184_16
	movabsq	$68719476728, %r10
	movq	(%r8), %r11
	movl	$4, %eax
	andq	%r10, %r11
	je	LBB184_15
	movq	%r11, %rax
	shrq	$3, %rax
	cmpq	%rsi, %rax
	ja	LBB184_16
	movb	%r15b, %r14b
	shll	$12, %r14d
	addq	%r14, %rdi
	leaq	(%rax,%rax,2), %rax
	testb	$1, -24(%rdi,%rax,8)
	je	LBB184_16
	movq	40(%rsp), %rcx
	movb	%bpl, %bl
	shll	$12, %ebx
	addq	%rbx, %rdx
	shlq	$3, %rsi
	movl	$22, %eax
	xorl	%r8d, %r8d
	.p2align	4
LBB184_5:
	movq	%r11, %rbx
	shrq	$3, %rbx
	leaq	(%rbx,%rbx,2), %rbx
	movq	-24(%rdi,%rbx,8), %r14
	cmpq	-8(%rdx,%r11), %r9
	movq	-16(%rdi,%rbx,8), %rbx
	cmovbeq	%r11, %r8
	movq	%r14, %r11
	cmovaq	%rbx, %r11
	andq	%r10, %r11
	leaq	-1(%r11), %r15
	cmpq	%rsi, %r15
	jae	LBB184_10
	movq	%r11, %rbx
	shrq	$3, %rbx
	leaq	(%rbx,%rbx,2), %rbx
	movq	-24(%rdi,%rbx,8), %r14
	cmpq	-8(%rdx,%r11), %r9
	movq	-16(%rdi,%rbx,8), %rbx
	cmovbeq	%r11, %r8
	movq	%r14, %r11
	cmovaq	%rbx, %r11
	andq	%r10, %r11
	leaq	-1(%r11), %r15
	cmpq	%rsi, %r15
	jae	LBB184_10
	movq	%r11, %rbx
	shrq	$3, %rbx
	leaq	(%rbx,%rbx,2), %rbx
	movq	-24(%rdi,%rbx,8), %r14
	cmpq	-8(%rdx,%r11), %r9
	movq	-16(%rdi,%rbx,8), %rbx
	cmovbeq	%r11, %r8
	movq	%r14, %r11
	cmovaq	%rbx, %r11
	andq	%r10, %r11
	leaq	-1(%r11), %r15
	cmpq	%rsi, %r15
	jae	LBB184_10
	decl	%eax
	jne	LBB184_5
	movl	$5, %eax
	jmp	LBB184_15
LBB184_10:
	cmpq	%r11, %r14
	jae	LBB184_12
	movl	$5, %eax
	cmpq	%r11, %rbx
	jb	LBB184_15
LBB184_12:
	movl	$4, %eax
	testq	%r8, %r8
	je	LBB184_15
	shrq	$3, %r8
	leaq	(%r8,%r8,2), %rdx
	movl	$5, %eax
	testb	$1, -24(%rdi,%rdx,8)
	je	LBB184_15
	decl	%r8d
	movl	%r8d, (%rcx)
	xorl	%eax, %eax
LBB184_15:
	popq	%rbx
	popq	%r14
	popq	%r15
	popq	%rbp
	retq
LBB184_16:
	movq	%rsi, %rdi
	movq	%rcx, %rsi
	popq	%rbx
	popq	%r14
	popq	%r15
	popq	%rbp
	jmp	_ic_raw.search.refusal
	.cfi_endproc
	.globl	_ic_tree_next
	.p2align	4
_ic_tree_next:
	.cfi_startproc
	pushq	%rbx
	.cfi_def_cfa_offset 16
	.cfi_offset %rbx, -16
	movq	%rdi, %rax
	xorl	%edi, %edi
	testq	%rax, %rax
	sete	%dil
	shll	$12, %edi
	addq	%rax, %rdi
	movabsq	$68719476728, %r9
	movq	(%rdx), %rax
	andq	%r9, %rax
	leal	1(%rcx), %r10d
	incl	%ecx
	jne	LBB185_2
	movq	%rax, %rdx
	movl	$1, %ecx
	popq	%rbx
	jmp	_ic_raw.tree.step_from_none
LBB185_2:
	leaq	(,%r10,8), %rdx
	cmpq	%r10, %rsi
	jb	LBB185_21
	shlq	$3, %r10
	leaq	(%r10,%r10,2), %r11
	testb	$1, -24(%rdi,%r11)
	je	LBB185_21
	leaq	(,%rsi,8), %rcx
	leaq	-1(%rax), %r10
	cmpq	%rcx, %r10
	jae	LBB185_21
	shrq	$3, %rax
	leaq	(%rax,%rax,2), %rax
	testb	$1, -24(%rdi,%rax,8)
	je	LBB185_21
	movq	-16(%rdi,%r11), %r10
	andq	%r9, %r10
	leaq	-1(%r10), %rax
	cmpq	%rcx, %rax
	jae	LBB185_12
	movl	$66, %edx
	.p2align	4
LBB185_8:
	leaq	(%r10,%r10,2), %rsi
	movq	-24(%rdi,%rsi), %rax
	andq	%r9, %rax
	leaq	-1(%rax), %r11
	cmpq	%rcx, %r11
	jae	LBB185_22
	leaq	(%rax,%rax,2), %rsi
	testl	%edx, %edx
	je	LBB185_18
	movq	-24(%rdi,%rsi), %r10
	andq	%r9, %r10
	leaq	-1(%r10), %r11
	cmpq	%rcx, %r11
	jae	LBB185_18
	addl	$-2, %edx
	jmp	LBB185_8
LBB185_12:
	movq	-8(%rdi,%r11), %rax
	andq	%r9, %rax
	leaq	-1(%rax), %rsi
	cmpq	%rcx, %rsi
	jae	LBB185_24
	movl	$-67, %r10d
	.p2align	4
LBB185_14:
	movq	%rdx, %r11
	movq	%rax, %rdx
	shrq	$3, %rax
	leaq	(%rdx,%rdx,2), %rsi
	movq	-16(%rdi,%rsi), %rbx
	andq	%r9, %rbx
	cmpq	%r11, %rbx
	jne	LBB185_19
	testl	%r10d, %r10d
	je	LBB185_19
	movq	-8(%rdi,%rsi), %rax
	andq	%r9, %rax
	leaq	-1(%rax), %rsi
	incl	%r10d
	cmpq	%rcx, %rsi
	jb	LBB185_14
LBB185_24:
	xorl	%eax, %eax
	movzbl	%al, %edi
	popq	%rbx
	jmp	_ic_raw.tree.nothing_found
LBB185_18:
	shrq	$3, %rax
LBB185_19:
	testb	$1, -24(%rdi,%rsi)
	je	LBB185_23
LBB185_20:
	decl	%eax
	movl	%eax, (%r8)
	xorl	%eax, %eax
	popq	%rbx
	retq
LBB185_21:
	popq	%rbx
	jmp	_ic_raw.table.RawTable.refusal_of.19bacce014a8892a
LBB185_22:
	shrq	$3, %r10
	movq	%r10, %rax
	testb	$1, -24(%rdi,%rsi)
	jne	LBB185_20
LBB185_23:
	movb	$1, %al
	movzbl	%al, %edi
	popq	%rbx
	jmp	_ic_raw.tree.nothing_found
	.cfi_endproc
	.globl	_ic_tree_prev
	.p2align	4
_ic_tree_prev:
	.cfi_startproc
	pushq	%rbx
	.cfi_def_cfa_offset 16
	.cfi_offset %rbx, -16
	movq	%rdi, %rax
	xorl	%edi, %edi
	testq	%rax, %rax
	sete	%dil
	shll	$12, %edi
	addq	%rax, %rdi
	movabsq	$68719476728, %r9
	movq	(%rdx), %rax
	andq	%r9, %rax
	leal	1(%rcx), %r10d
	incl	%ecx
	jne	LBB186_1
	movq	%rax, %rdx
	xorl	%ecx, %ecx
	popq	%rbx
	jmp	_ic_raw.tree.step_from_none
LBB186_1:
	leaq	(,%r10,8), %rdx
	cmpq	%r10, %rsi
	jb	LBB186_23
	shlq	$3, %r10
	leaq	(%r10,%r10,2), %r11
	movq	-24(%rdi,%r11), %r10
	testb	$1, %r10b
	je	LBB186_23
	leaq	(,%rsi,8), %rcx
	leaq	-1(%rax), %rbx
	cmpq	%rcx, %rbx
	jae	LBB186_23
	shrq	$3, %rax
	leaq	(%rax,%rax,2), %rax
	testb	$1, -24(%rdi,%rax,8)
	je	LBB186_23
	andq	%r9, %r10
	leaq	-1(%r10), %rax
	cmpq	%rcx, %rax
	jae	LBB186_15
	movl	$66, %edx
	.p2align	4
LBB186_7:
	leaq	(%r10,%r10,2), %rax
	movq	-16(%rdi,%rax), %rsi
	andq	%r9, %rsi
	leaq	-1(%rsi), %r11
	cmpq	%rcx, %r11
	jae	LBB186_8
	leaq	(%rsi,%rsi,2), %rax
	testl	%edx, %edx
	je	LBB186_13
	movq	-16(%rdi,%rax), %r10
	andq	%r9, %r10
	leaq	-1(%r10), %r11
	cmpq	%rcx, %r11
	jae	LBB186_13
	addl	$-2, %edx
	jmp	LBB186_7
LBB186_15:
	movq	-8(%rdi,%r11), %rax
	andq	%r9, %rax
	leaq	-1(%rax), %rsi
	cmpq	%rcx, %rsi
	jae	LBB186_20
	movl	$-67, %esi
	.p2align	4
LBB186_17:
	movq	%rdx, %r11
	movq	%rax, %rdx
	movq	%rax, %r10
	shrq	$3, %r10
	leaq	(%rax,%rax,2), %rax
	movq	-24(%rdi,%rax), %rbx
	andq	%r9, %rbx
	cmpq	%r11, %rbx
	jne	LBB186_9
	testl	%esi, %esi
	je	LBB186_9
	movq	-8(%rdi,%rax), %rax
	andq	%r9, %rax
	leaq	-1(%rax), %r10
	incl	%esi
	cmpq	%rcx, %r10
	jb	LBB186_17
LBB186_20:
	xorl	%eax, %eax
	movzbl	%al, %edi
	popq	%rbx
	jmp	_ic_raw.tree.nothing_found
LBB186_13:
	shrq	$3, %rsi
	movq	%rsi, %r10
LBB186_9:
	testb	$1, -24(%rdi,%rax)
	je	LBB186_10
LBB186_24:
	decl	%r10d
	movl	%r10d, (%r8)
	xorl	%eax, %eax
	popq	%rbx
	retq
LBB186_23:
	popq	%rbx
	jmp	_ic_raw.table.RawTable.refusal_of.19bacce014a8892a
LBB186_8:
	shrq	$3, %r10
	testb	$1, -24(%rdi,%rax)
	jne	LBB186_24
LBB186_10:
	movb	$1, %al
	movzbl	%al, %edi
	popq	%rbx
	jmp	_ic_raw.tree.nothing_found
	.cfi_endproc
	.globl	_ic_tree_remove
	.p2align	4
_ic_tree_remove:
	.cfi_startproc
	xorl	%eax, %eax
	testq	%rdi, %rdi
	sete	%al
	shll	$12, %eax
	addq	%rax, %rdi
	jmp	_ic_raw.tree_calls.remove
	.cfi_endproc
	.globl	_ic_tree_replace
	.p2align	4
_ic_tree_replace:
	.cfi_startproc
	xorl	%eax, %eax
	testq	%rdi, %rdi
	sete	%al
	shll	$12, %eax
	addq	%rax, %rdi
	jmp	_ic_raw.tree_calls.replace
	.cfi_endproc
	.globl	_ic_tree_split
	.p2align	4
_ic_tree_split:
	.cfi_startproc
	xorl	%r10d, %r10d
	testq	%rdi, %rdi
	sete	%r11b
	leal	1(%rcx), %r9d
	movl	$4, %eax
	incl	%ecx
	je	LBB189_5
	movl	$1, %eax
	cmpq	%r9, %rsi
	jb	LBB189_5
	pushq	%rbp
	.cfi_def_cfa_offset 16
	pushq	%r15
	.cfi_def_cfa_offset 24
	pushq	%r14
	.cfi_def_cfa_offset 32
	pushq	%r13
	.cfi_def_cfa_offset 40
	pushq	%r12
	.cfi_def_cfa_offset 48
	pushq	%rbx
	.cfi_def_cfa_offset 56
	subq	$168, %rsp
	.cfi_def_cfa_offset 224
	.cfi_offset %rbx, -56
	.cfi_offset %r12, -48
	.cfi_offset %r13, -40
	.cfi_offset %r14, -32
	.cfi_offset %r15, -24
	.cfi_offset %rbp, -16
	movb	%r11b, %r10b
	shll	$12, %r10d
	addq	%r10, %rdi
	leaq	(,%r9,8), %rax
	leaq	(%rax,%rax,2), %r15
	movl	$3, %eax
	testb	$1, -24(%rdi,%r15)
	je	LBB189_4
	movabsq	$68719476728, %r14
	movq	%rdi, 24(%rsp)
	movq	%rsi, 32(%rsp)
	movl	$5, %eax
	testq	%r14, (%r8)
	jne	LBB189_4
	movq	%r9, %r12
	movq	%r8, 112(%rsp)
	xorl	%eax, %eax
	movq	%rdx, 104(%rsp)
	movq	(%rdx), %rbx
	andq	%r14, %rbx
	setne	%al
	movl	$66, (%rsp)
	leaq	64(%rsp), %rdi
	leaq	24(%rsp), %rsi
	movl	%eax, %edx
	movq	%rbx, %rcx
	xorl	%r8d, %r8d
	xorl	%r9d, %r9d
	callq	_ic_check.tree.check_below.ffc36cde30076884
	cmpb	$1, 64(%rsp)
	jne	LBB189_22
	testb	$1, 84(%rsp)
	je	LBB189_22
	movq	%r12, %r8
	shlq	$3, %r8
	movq	24(%rsp), %rsi
	movq	-8(%rsi,%r15), %r12
	movq	%r8, %r10
	andq	%r14, %r12
	movq	112(%rsp), %rcx
	movq	104(%rsp), %rdx
	movl	$5, %eax
	je	LBB189_17
	movq	32(%rsp), %rdi
	xorl	%r9d, %r9d
	movq	%r8, %r11
	jmp	LBB189_12
LBB189_10:
	cmpq	$64, %r9
	ja	LBB189_4
LBB189_11:
	incq	%r9
	movq	-8(%rsi,%r12), %r12
	movq	%r10, %r11
	andq	%r14, %r12
	je	LBB189_17
LBB189_12:
	movq	%r12, %r10
	shrq	$3, %r12
	cmpq	%rdi, %r12
	ja	LBB189_4
	shlq	$3, %r12
	leaq	(%r12,%r12,2), %r12
	movq	-24(%rsi,%r12), %r13
	testb	$1, %r13b
	je	LBB189_4
	andq	%r14, %r13
	cmpq	%r11, %r13
	je	LBB189_10
	movq	-16(%rsi,%r12), %r13
	andq	%r14, %r13
	cmpq	%r11, %r13
	jne	LBB189_4
	cmpq	$65, %r9
	jb	LBB189_11
	jmp	LBB189_4
LBB189_22:
	movl	$5, %eax
	jmp	LBB189_4
LBB189_17:
	cmpq	%r10, %rbx
	jne	LBB189_4
	xorl	%ebx, %ebx
	movq	-24(%rsi,%r15), %rax
	andq	%r14, %rax
	je	LBB189_23
LBB189_19:
	movq	%rax, %r8
	shrq	$3, %rax
	leaq	(%rax,%rax,2), %rax
	movq	-16(%rsi,%rax,8), %rax
	andq	%r14, %rax
	jne	LBB189_19
	movb	$1, %al
	jmp	LBB189_24
LBB189_23:
	xorl	%eax, %eax
LBB189_24:
	movb	$1, %r12b
	movl	$67, %ebp
	xorl	%r10d, %r10d
	movl	$0, 16(%rsp)
	movq	$0, 96(%rsp)
	movq	$0, 88(%rsp)
	xorl	%r11d, %r11d
	xorl	%r9d, %r9d
	jmp	LBB189_28
LBB189_25:
	leaq	120(%rsp), %rdx
	leaq	64(%rsp), %r9
	xorl	%ecx, %ecx
LBB189_26:
	callq	_ic_rbtree.join.roots.join_higher.f4da04d8a93b4f27
	movzbl	40(%rsp), %r10d
	movq	48(%rsp), %r9
	movl	56(%rsp), %r11d
	movq	112(%rsp), %rcx
	movq	104(%rsp), %rdx
LBB189_27:
	andl	$1, %r15d
	addl	%ebx, %r15d
	movl	%r15d, %ebx
	movl	20(%rsp), %eax
	movq	%r13, %r8
	decl	%ebp
	je	LBB189_41
LBB189_28:
	testb	$1, %r12b
	je	LBB189_41
	movq	24(%rsp), %rsi
	movq	%r8, %rcx
	shrq	$3, %rcx
	leaq	(%rcx,%rcx,2), %rcx
	movq	-8(%rsi,%rcx,8), %r15
	movq	%r15, %r13
	andq	%r14, %r13
	setne	%r12b
	je	LBB189_31
	movq	%r13, %rdx
	shrq	$3, %rdx
	leaq	(%rdx,%rdx,2), %rdx
	movq	-24(%rsi,%rdx,8), %rdx
	andq	%r14, %rdx
	cmpq	%r8, %rdx
	setne	%dl
	movl	%edx, 20(%rsp)
	jmp	LBB189_32
LBB189_31:
	movl	$0, 20(%rsp)
LBB189_32:
	leaq	(%rsi,%rcx,8), %rcx
	xorl	%edx, %edx
	testb	%al, %al
	sete	%dl
	movq	-24(%rcx,%rdx,8), %rdx
	movl	%ebx, %ecx
	andq	%r14, %rdx
	je	LBB189_34
	leaq	(%rdx,%rdx,2), %rcx
	movq	-8(%rsi,%rcx), %rdi
	andl	$1, %edi
	movq	%rdi, -8(%rsi,%rcx)
	movq	24(%rsp), %rsi
	orq	$1, -8(%rsi,%rcx)
	movl	%ebx, %ecx
	subl	%edi, %ecx
	incl	%ecx
LBB189_34:
	xorl	%esi, %esi
	testq	%rdx, %rdx
	setne	%sil
	testb	%al, %al
	je	LBB189_37
	movzbl	%r10b, %eax
	movq	$0, 80(%rsp)
	movq	%rsi, 64(%rsp)
	movq	%rdx, 72(%rsp)
	movl	%ecx, 80(%rsp)
	movq	$0, 136(%rsp)
	movq	%rax, 120(%rsp)
	movq	%r9, 128(%rsp)
	movl	%r11d, 136(%rsp)
	movq	$0, 40(%rsp)
	movq	$0, 48(%rsp)
	movq	$0, 56(%rsp)
	leaq	40(%rsp), %rdi
	leaq	24(%rsp), %rsi
	cmpl	%ecx, %r11d
	ja	LBB189_25
	leaq	64(%rsp), %rdx
	leaq	120(%rsp), %r9
	movl	$1, %ecx
	jmp	LBB189_26
LBB189_37:
	movl	%r11d, 148(%rsp)
	movq	%r10, 152(%rsp)
	movq	%r9, 160(%rsp)
	movzbl	88(%rsp), %eax
	movq	$0, 80(%rsp)
	movq	%rax, 64(%rsp)
	movq	96(%rsp), %rax
	movq	%rax, 72(%rsp)
	movl	16(%rsp), %eax
	movl	%eax, 80(%rsp)
	movq	$0, 136(%rsp)
	movq	%rsi, 120(%rsp)
	movq	%rdx, 128(%rsp)
	movl	%ecx, 136(%rsp)
	movq	$0, 40(%rsp)
	movq	$0, 48(%rsp)
	movq	$0, 56(%rsp)
	leaq	40(%rsp), %rdi
	leaq	24(%rsp), %rsi
	cmpl	%eax, %ecx
	jbe	LBB189_39
	leaq	120(%rsp), %rdx
	leaq	64(%rsp), %r9
	xorl	%ecx, %ecx
	jmp	LBB189_40
LBB189_39:
	leaq	64(%rsp), %rdx
	leaq	120(%rsp), %r9
	movl	$1, %ecx
LBB189_40:
	callq	_ic_rbtree.join.roots.join_higher.f4da04d8a93b4f27
	movzbl	40(%rsp), %eax
	movq	%rax, 88(%rsp)
	movq	48(%rsp), %rax
	movq	%rax, 96(%rsp)
	movl	56(%rsp), %eax
	movl	%eax, 16(%rsp)
	movq	112(%rsp), %rcx
	movq	104(%rsp), %rdx
	movq	160(%rsp), %r9
	movq	152(%rsp), %r10
	movl	148(%rsp), %r11d
	jmp	LBB189_27
LBB189_41:
	xorl	%eax, %eax
	testb	%r10b, %r10b
	cmoveq	%rax, %r9
	cmpb	$0, 88(%rsp)
	movq	96(%rsp), %rsi
	cmoveq	%rax, %rsi
	movq	%r9, (%rdx)
	movq	%rsi, (%rcx)
LBB189_4:
	addq	$168, %rsp
	popq	%rbx
	popq	%r12
	popq	%r13
	popq	%r14
	popq	%r15
	popq	%rbp
LBB189_5:
	retq
	.cfi_endproc
	.globl	_ic_tree_sums_before
	.p2align	4
_ic_tree_sums_before:
	.cfi_startproc
	pushq	%rbp
	.cfi_def_cfa_offset 16
	pushq	%r15
	.cfi_def_cfa_offset 24
	pushq	%r14
	.cfi_def_cfa_offset 32
	pushq	%r13
	.cfi_def_cfa_offset 40
	pushq	%r12
	.cfi_def_cfa_offset 48
	pushq	%rbx
	.cfi_def_cfa_offset 56
	subq	$24, %rsp
	.cfi_def_cfa_offset 80
	.cfi_offset %rbx, -56
	.cfi_offset %r12, -48
	.cfi_offset %r13, -40
	.cfi_offset %r14, -32
	.cfi_offset %r15, -24
	.cfi_offset %rbp, -16
	xorl	%r10d, %r10d
	testq	%rdi, %rdi
	sete	%r10b
	shll	$12, %r10d
	addq	%rdi, %r10
	xorl	%r11d, %r11d
	testq	%rdx, %rdx
	sete	%bpl
	leal	1(%r9), %edi
	movl	%r9d, %ebx
	movq	%r10, 8(%rsp)
	movq	%rsi, 16(%rsp)
	movl	$4, %eax
	incl	%ebx
	je	LBB190_26
	cmpq	%rsi, %rcx
	jb	LBB190_27
	cmpq	%rdi, %rsi
	jb	LBB190_27
	leaq	(%rdi,%rdi,2), %rax
	movq	-24(%r10,%rax,8), %rbx
	testb	$1, %bl
	je	LBB190_27
	movb	%bpl, %r11b
	shll	$12, %r11d
	addq	%r11, %rdx
	movabsq	$68719476728, %rax
	andq	%rax, %rbx
	shlq	$3, %rsi
	leaq	-1(%rbx), %r11
	cmpq	%rsi, %r11
	jae	LBB190_8
	shrq	$3, %rbx
	decq	%rbx
	cmpq	%rcx, %rbx
	jae	LBB190_8
	shlq	$4, %rbx
	movq	8(%rdx,%rbx), %r14
	jmp	LBB190_9
LBB190_8:
	xorl	%r14d, %r14d
LBB190_9:
	shlq	$3, %rdi
	movq	80(%rsp), %r11
	movl	$67, %ebx
	jmp	LBB190_12
	.p2align	4
LBB190_23:
	xorl	%r14d, %r14d
	testl	%r8d, %r8d
	je	LBB190_24
LBB190_10:
	cmpq	%r15, %r14
	cmovaq	%r14, %r15
	movq	%r15, %r14
LBB190_11:
	decl	%ebx
	je	LBB190_27
LBB190_12:
	movq	%rdi, %r15
	shrq	$3, %rdi
	leaq	(%rdi,%rdi,2), %rdi
	movq	-8(%r10,%rdi,8), %rdi
	andq	%rax, %rdi
	leaq	-1(%rdi), %r12
	cmpq	%rsi, %r12
	jae	LBB190_25
	leaq	(%rdi,%rdi,2), %r12
	movq	-16(%r10,%r12), %r13
	andq	%rax, %r13
	cmpq	%r15, %r13
	jne	LBB190_11
	movq	%rdi, %r15
	shrq	$3, %r15
	decq	%r15
	cmpq	%rcx, %r15
	jae	LBB190_17
	shlq	$4, %r15
	movq	(%rdx,%r15), %r15
	testl	%r8d, %r8d
	je	LBB190_18
LBB190_16:
	cmpq	%r14, %r15
	cmovaq	%r15, %r14
	movq	%r14, %r15
	jmp	LBB190_19
	.p2align	4
LBB190_17:
	xorl	%r15d, %r15d
	testl	%r8d, %r8d
	jne	LBB190_16
LBB190_18:
	addq	%r15, %r14
	movq	$-1, %r15
	cmovaeq	%r14, %r15
LBB190_19:
	movq	-24(%r10,%r12), %r14
	andq	%rax, %r14
	leaq	-1(%r14), %r12
	cmpq	%rsi, %r12
	jae	LBB190_23
	shrq	$3, %r14
	decq	%r14
	cmpq	%rcx, %r14
	jae	LBB190_23
	shlq	$4, %r14
	movq	8(%rdx,%r14), %r14
	testl	%r8d, %r8d
	jne	LBB190_10
LBB190_24:
	addq	%r14, %r15
	movq	$-1, %r14
	cmovaeq	%r15, %r14
	jmp	LBB190_11
LBB190_25:
	movq	%r14, (%r11)
	xorl	%eax, %eax
LBB190_26:
	addq	$24, %rsp
	popq	%rbx
	popq	%r12
	popq	%r13
	popq	%r14
	popq	%r15
	popq	%rbp
	retq
LBB190_27:
	leaq	8(%rsp), %rdi
	movq	%rcx, %rsi
	movl	%r9d, %edx
	callq	_ic_raw_augmented.sum_calls.refusal
	jmp	LBB190_26
	.cfi_endproc
	.globl	_ic_tree_sums_find
	.p2align	4
_ic_tree_sums_find:
	.cfi_startproc
	pushq	%rbp
	.cfi_def_cfa_offset 16
	pushq	%r15
	.cfi_def_cfa_offset 24
	pushq	%r14
	.cfi_def_cfa_offset 32
	pushq	%r13
	.cfi_def_cfa_offset 40
	pushq	%r12
	.cfi_def_cfa_offset 48
	pushq	%rbx
	.cfi_def_cfa_offset 56
	subq	$72, %rsp
	.cfi_def_cfa_offset 128
	.cfi_offset %rbx, -56
	.cfi_offset %r12, -48
	.cfi_offset %r13, -40
	.cfi_offset %r14, -32
	.cfi_offset %r15, -24
	.cfi_offset %rbp, -16
	movq	%r9, %rax
	movl	%r8d, %r9d
	movq	%rcx, %rbx
	movq	%rsi, %r14
	xorl	%r15d, %r15d
	testq	%rdi, %rdi
	sete	%r15b
	shll	$12, %r15d
	addq	%rdi, %r15
	xorl	%edi, %edi
	testq	%rdx, %rdx
	sete	%r10b
	xorl	%r8d, %r8d
	testl	%r9d, %r9d
	setne	%cl
	movabsq	$68719476728, %rbp
	xorl	%r9d, %r9d
	andq	(%rax), %rbp
	movl	128(%rsp), %esi
	movq	%r15, 32(%rsp)
	movq	%r14, 40(%rsp)
	movq	$0, 64(%rsp)
	movq	$0, 56(%rsp)
	movq	$0, 48(%rsp)
	setne	%al
	xorl	%r11d, %r11d
	movl	%esi, %r12d
	incl	%r12d
	setne	%r13b
	cmpq	%r14, %rbx
	jb	LBB191_7
	testq	%r12, %r12
	je	LBB191_4
	cmpq	%r12, %r14
	jb	LBB191_7
	leaq	(%r12,%r12,2), %rsi
	testb	$1, -24(%r15,%rsi,8)
	je	LBB191_7
LBB191_4:
	testq	%rbp, %rbp
	je	LBB191_8
	movq	%rbp, %rsi
	shrq	$3, %rsi
	cmpq	%r14, %rsi
	ja	LBB191_7
	leaq	(%rsi,%rsi,2), %rsi
	testb	$1, -24(%r15,%rsi,8)
	je	LBB191_7
LBB191_8:
	movq	136(%rsp), %rsi
	movb	%r10b, %dil
	shll	$12, %edi
	addq	%rdi, %rdx
	shlq	$3, %r12
	movq	%rsi, 24(%rsp)
	movq	%r12, 16(%rsp)
	movb	%r13b, %r11b
	movl	%r11d, 8(%rsp)
	movq	%rbp, (%rsp)
	movb	%cl, %r8b
	movb	%al, %r9b
	leaq	48(%rsp), %rdi
	leaq	32(%rsp), %rsi
	movq	%rbx, %rcx
	callq	_ic_raw_augmented.find.find
	cmpb	$1, 48(%rsp)
	jne	LBB191_7
	movl	$4, %eax
	cmpb	$1, 56(%rsp)
	jne	LBB191_13
	movq	64(%rsp), %rax
	shrq	$3, %rax
	cmpq	%r14, %rax
	ja	LBB191_7
	leaq	(%rax,%rax,2), %rcx
	testb	$1, -24(%r15,%rcx,8)
	je	LBB191_7
	movq	144(%rsp), %rcx
	decl	%eax
	movl	%eax, (%rcx)
	xorl	%eax, %eax
	jmp	LBB191_13
LBB191_7:
	leaq	32(%rsp), %rdi
	movq	%rbx, %rsi
	movl	128(%rsp), %edx
	callq	_ic_raw_augmented.sum_calls.refusal
LBB191_13:
	addq	$72, %rsp
	popq	%rbx
	popq	%r12
	popq	%r13
	popq	%r14
	popq	%r15
	popq	%rbp
	retq
	.cfi_endproc
	.globl	_ic_tree_sums_insert
	.p2align	4
_ic_tree_sums_insert:
	.cfi_startproc
	pushq	%rbp
	.cfi_def_cfa_offset 16
	pushq	%r15
	.cfi_def_cfa_offset 24
	pushq	%r14
	.cfi_def_cfa_offset 32
	pushq	%r13
	.cfi_def_cfa_offset 40
	pushq	%r12
	.cfi_def_cfa_offset 48
	pushq	%rbx
	.cfi_def_cfa_offset 56
	subq	$200, %rsp
	.cfi_def_cfa_offset 256
	.cfi_offset %rbx, -56
	.cfi_offset %r12, -48
	.cfi_offset %r13, -40
	.cfi_offset %r14, -32
	.cfi_offset %r15, -24
	.cfi_offset %rbp, -16
	movq	%rdx, %rax
	xorl	%r14d, %r14d
	testq	%rdi, %rdi
	sete	%r10b
	xorl	%r11d, %r11d
	testq	%rdx, %rdx
	sete	%r12b
	xorl	%edx, %edx
	testq	%r8, %r8
	sete	%bl
	cmpl	$0, 256(%rsp)
	setne	%bpl
	movl	$1, %r13d
	cmpq	%rsi, %r9
	jb	LBB192_23
	movb	%bpl, 23(%rsp)
	movq	%r9, 48(%rsp)
	movl	272(%rsp), %r15d
	movq	264(%rsp), %r9
	movb	%r10b, %r14b
	shll	$12, %r14d
	addq	%r14, %rdi
	movb	%bl, %dl
	shll	$12, %edx
	addq	%rdx, %r8
	movq	%r8, 40(%rsp)
	movabsq	$68719476728, %r8
	leal	1(%r15), %r10d
	leaq	(,%r10,8), %r14
	xorl	%edx, %edx
	testl	%r10d, %r10d
	setne	%dl
	movq	%r14, 32(%rsp)
	movq	%r14, 72(%rsp)
	movq	$0, 80(%rsp)
	movq	$0, 88(%rsp)
	movq	$0, 96(%rsp)
	movq	$0, 104(%rsp)
	movq	$0, 112(%rsp)
	movq	$0, 120(%rsp)
	movq	$0, 128(%rsp)
	movq	$0, 136(%rsp)
	movq	$0, 144(%rsp)
	movq	$0, 152(%rsp)
	movq	$0, 160(%rsp)
	movq	$0, 168(%rsp)
	movq	$0, 176(%rsp)
	movq	%rdx, 184(%rsp)
	movq	$0, 192(%rsp)
	movq	%rdi, 56(%rsp)
	movq	%rsi, 64(%rsp)
	movq	(%r9), %r15
	andq	%r8, %r15
	movq	%r15, 24(%rsp)
	cmpq	%rsi, %rcx
	jb	LBB192_20
	testq	%r15, %r15
	je	LBB192_8
	movq	%r15, %rdx
	shrq	$3, %rdx
	cmpq	%rsi, %rdx
	ja	LBB192_20
	testq	%r10, %r10
	je	LBB192_20
	cmpq	%r10, %rsi
	jb	LBB192_20
	leaq	(%rdx,%rdx,2), %rdx
	movq	-24(%rdi,%rdx,8), %rdx
	andl	$1, %edx
	je	LBB192_20
	movb	%r12b, %r11b
	shll	$12, %r11d
	addq	%r11, %rax
	leaq	(,%r10,8), %rdx
	movq	-8(%rax,%rdx), %r11
	leaq	(,%rsi,8), %r12
	movl	$22, %r13d
	.p2align	4
LBB192_12:
	movq	%r15, %rdx
	shrq	$3, %rdx
	leaq	(%rdx,%rdx,2), %rdx
	movq	-24(%rdi,%rdx,8), %rbx
	movq	-16(%rdi,%rdx,8), %rdx
	movq	-8(%rax,%r15), %rbp
	cmpq	%rbp, %r11
	movq	%rbx, %r9
	cmovaeq	%rdx, %r9
	andq	%r8, %r9
	leaq	-1(%r9), %r14
	cmpq	%r12, %r14
	jae	LBB192_24
	movq	%r9, %rdx
	shrq	$3, %rdx
	leaq	(%rdx,%rdx,2), %rdx
	movq	-24(%rdi,%rdx,8), %rbx
	movq	-16(%rdi,%rdx,8), %r15
	movq	-8(%rax,%r9), %rbp
	cmpq	%rbp, %r11
	movq	%rbx, %rdx
	cmovaeq	%r15, %rdx
	andq	%r8, %rdx
	leaq	-1(%rdx), %r14
	cmpq	%r12, %r14
	jae	LBB192_25
	movq	%rdx, %r9
	shrq	$3, %r9
	leaq	(%r9,%r9,2), %r9
	movq	-24(%rdi,%r9,8), %rbx
	movq	-16(%rdi,%r9,8), %r9
	movq	-8(%rax,%rdx), %rbp
	cmpq	%rbp, %r11
	movq	%rbx, %r15
	cmovaeq	%r9, %r15
	andq	%r8, %r15
	leaq	-1(%r15), %r14
	cmpq	%r12, %r14
	jae	LBB192_15
	decl	%r13d
	jne	LBB192_12
	jmp	LBB192_20
LBB192_8:
	testq	%r10, %r10
	je	LBB192_20
	cmpq	%r10, %rsi
	jb	LBB192_20
	xorl	%eax, %eax
	xorl	%r8d, %r8d
	jmp	LBB192_19
LBB192_24:
	cmpq	%rbp, %r11
	setae	%al
	cmpq	%r9, %rbx
	setae	%bl
	cmpq	%r9, %rdx
	setae	%r11b
	xorl	%r8d, %r8d
	orb	%bl, %r11b
	cmovneq	%r15, %r8
	jmp	LBB192_16
LBB192_25:
	cmpq	%rbp, %r11
	setae	%al
	cmpq	%rdx, %rbx
	setae	%bl
	cmpq	%rdx, %r15
	setae	%r11b
	xorl	%r8d, %r8d
	orb	%bl, %r11b
	cmovneq	%r9, %r8
	jmp	LBB192_16
LBB192_15:
	cmpq	%rbp, %r11
	setae	%al
	cmpq	%r15, %rbx
	setae	%bl
	cmpq	%r15, %r9
	setae	%r11b
	xorl	%r8d, %r8d
	orb	%bl, %r11b
	cmovneq	%rdx, %r8
LBB192_16:
	andb	%r11b, %al
	testb	%r11b, %r11b
	je	LBB192_20
	testq	%r8, %r8
	je	LBB192_20
	movq	%r8, %rdx
	shrq	$3, %rdx
	leaq	(%rdx,%rdx,2), %rdx
	testb	$1, -24(%rdi,%rdx,8)
	je	LBB192_20
LBB192_19:
	leaq	(%r10,%r10,2), %rdx
	testb	$1, -24(%rdi,%rdx,8)
	jne	LBB192_20
	movq	%rsi, %r15
	movq	%rdi, %r12
	leaq	(%rdi,%rdx,8), %rdx
	xorl	%ecx, %ecx
	testq	%r8, %r8
	setne	%cl
	movq	$1, -24(%rdx)
	movq	$0, -16(%rdx)
	movq	$0, -8(%rdx)
	movq	32(%rsp), %rdx
	movq	%rdx, (%rsp)
	movzbl	%al, %r9d
	leaq	72(%rsp), %rdi
	leaq	56(%rsp), %rsi
	leaq	24(%rsp), %rdx
	callq	_ic_raw_augmented.noting.WrittenSurgery.attach
	movq	24(%rsp), %rax
	movq	264(%rsp), %rcx
	movq	%rax, (%rcx)
	xorl	%r13d, %r13d
	jmp	LBB192_22
LBB192_20:
	movq	%rsi, %r15
	movq	%rdi, %r12
	leaq	56(%rsp), %rdi
	movq	%rcx, %rsi
	movl	272(%rsp), %edx
	callq	_ic_raw.search.refusal_of
	movl	%eax, %r13d
LBB192_22:
	movl	%r13d, (%rsp)
	xorl	%r8d, %r8d
	movzbl	23(%rsp), %eax
	movb	%al, %r8b
	leaq	72(%rsp), %r9
	movq	%r12, %rdi
	movq	%r15, %rsi
	movq	40(%rsp), %rdx
	movq	48(%rsp), %rcx
	callq	_ic_raw_augmented.edit_calls.settle
LBB192_23:
	movl	%r13d, %eax
	addq	$200, %rsp
	popq	%rbx
	popq	%r12
	popq	%r13
	popq	%r14
	popq	%r15
	popq	%rbp
	retq
	.cfi_endproc
	.globl	_ic_tree_sums_insert_left
	.p2align	4
_ic_tree_sums_insert_left:
	.cfi_startproc
	subq	$24, %rsp
	.cfi_def_cfa_offset 32
	movl	32(%rsp), %r10d
	movl	40(%rsp), %r11d
	xorl	%eax, %eax
	testq	%rdi, %rdi
	sete	%al
	shll	$12, %eax
	addq	%rax, %rdi
	xorl	%eax, %eax
	testq	%rdx, %rdx
	sete	%al
	shll	$12, %eax
	addq	%rax, %rdx
	xorl	%eax, %eax
	testl	%r8d, %r8d
	setne	%al
	movl	%r11d, 16(%rsp)
	movl	%r10d, 8(%rsp)
	movl	$0, (%rsp)
	movl	%eax, %r8d
	callq	_ic_raw_augmented.edit_calls.insert_at
	addq	$24, %rsp
	retq
	.cfi_endproc
	.globl	_ic_tree_sums_insert_right
	.p2align	4
_ic_tree_sums_insert_right:
	.cfi_startproc
	subq	$24, %rsp
	.cfi_def_cfa_offset 32
	movl	32(%rsp), %r10d
	movl	40(%rsp), %r11d
	xorl	%eax, %eax
	testq	%rdi, %rdi
	sete	%al
	shll	$12, %eax
	addq	%rax, %rdi
	xorl	%eax, %eax
	testq	%rdx, %rdx
	sete	%al
	shll	$12, %eax
	addq	%rax, %rdx
	xorl	%eax, %eax
	testl	%r8d, %r8d
	setne	%al
	movl	%r11d, 16(%rsp)
	movl	%r10d, 8(%rsp)
	movl	$1, (%rsp)
	movl	%eax, %r8d
	callq	_ic_raw_augmented.edit_calls.insert_at
	addq	$24, %rsp
	retq
	.cfi_endproc
	.globl	_ic_tree_sums_overlap
	.p2align	4
_ic_tree_sums_overlap:
	.cfi_startproc
	pushq	%rbp
	.cfi_def_cfa_offset 16
	pushq	%r15
	.cfi_def_cfa_offset 24
	pushq	%r14
	.cfi_def_cfa_offset 32
	pushq	%r13
	.cfi_def_cfa_offset 40
	pushq	%r12
	.cfi_def_cfa_offset 48
	pushq	%rbx
	.cfi_def_cfa_offset 56
	subq	$88, %rsp
	.cfi_def_cfa_offset 144
	.cfi_offset %rbx, -56
	.cfi_offset %r12, -48
	.cfi_offset %r13, -40
	.cfi_offset %r14, -32
	.cfi_offset %r15, -24
	.cfi_offset %rbp, -16
	movq	%rdx, %r12
	movq	%rsi, %r15
	movl	152(%rsp), %r10d
	movq	144(%rsp), %rax
	xorl	%r13d, %r13d
	testq	%rdi, %rdi
	sete	%r13b
	shll	$12, %r13d
	addq	%rdi, %r13
	xorl	%ebp, %ebp
	testq	%rdx, %rdx
	sete	38(%rsp)
	xorl	%esi, %esi
	testq	%r8, %r8
	sete	%r11b
	movabsq	$68719476728, %r14
	xorl	%ebx, %ebx
	andq	(%rax), %r14
	movq	%r13, 48(%rsp)
	movq	%r15, 56(%rsp)
	setne	%al
	xorl	%edx, %edx
	movl	%r10d, %edi
	incl	%edi
	setne	%r10b
	movq	%rcx, 40(%rsp)
	cmpq	%r15, %rcx
	jb	LBB195_1
	movb	%al, 39(%rsp)
	cmpq	%r15, %r9
	movq	%r9, %rcx
	jb	LBB195_10
	testq	%rdi, %rdi
	je	LBB195_7
	cmpq	%rdi, %r15
	jb	LBB195_10
	leaq	(%rdi,%rdi,2), %rax
	testb	$1, -24(%r13,%rax,8)
	je	LBB195_10
LBB195_7:
	testq	%r14, %r14
	je	LBB195_11
	movq	%r14, %rax
	shrq	$3, %rax
	cmpq	%r15, %rax
	ja	LBB195_10
	leaq	(%rax,%rax,2), %rax
	testb	$1, -24(%r13,%rax,8)
	je	LBB195_10
LBB195_11:
	movq	160(%rsp), %rax
	movb	%r11b, %sil
	shll	$12, %esi
	addq	%rsi, %r8
	shlq	$3, %rdi
	movq	$0, 80(%rsp)
	movq	$0, 72(%rsp)
	movq	$0, 64(%rsp)
	movq	%rax, 24(%rsp)
	movq	%rdi, 16(%rsp)
	movb	%r10b, %dl
	movl	%edx, 8(%rsp)
	movq	%r14, (%rsp)
	movzbl	39(%rsp), %eax
	movb	%al, %bl
	leaq	64(%rsp), %rdi
	leaq	48(%rsp), %rsi
	movq	%r8, %rdx
	movq	%rcx, %r14
	movl	$1, %r8d
	movl	%ebx, %r9d
	callq	_ic_raw_augmented.find.find
	cmpb	$1, 64(%rsp)
	jne	LBB195_17
	cmpb	$1, 72(%rsp)
	jne	LBB195_14
	movq	168(%rsp), %rcx
	movzbl	38(%rsp), %eax
	movb	%al, %bpl
	shll	$12, %ebp
	addq	%rbp, %r12
	movq	80(%rsp), %rax
	cmpq	%rcx, -8(%r12,%rax)
	jae	LBB195_14
	shrq	$3, %rax
	cmpq	%r15, %rax
	ja	LBB195_17
	leaq	(%rax,%rax,2), %rcx
	testb	$1, -24(%r13,%rcx,8)
	je	LBB195_17
	movq	176(%rsp), %rcx
	decl	%eax
	movl	%eax, (%rcx)
	xorl	%eax, %eax
	jmp	LBB195_19
LBB195_14:
	movl	$4, %eax
	jmp	LBB195_19
LBB195_10:
	leaq	48(%rsp), %rdi
	movq	40(%rsp), %rsi
	movq	%rcx, %rdx
	jmp	LBB195_2
LBB195_17:
	leaq	48(%rsp), %rdi
	movq	40(%rsp), %rsi
	movq	%r14, %rdx
	jmp	LBB195_2
LBB195_1:
	leaq	48(%rsp), %rdi
	movq	40(%rsp), %rsi
	movq	%r9, %rdx
LBB195_2:
	movl	152(%rsp), %ecx
	callq	_ic_raw_augmented.sum_calls.refusal_of_starts
LBB195_19:
	addq	$88, %rsp
	popq	%rbx
	popq	%r12
	popq	%r13
	popq	%r14
	popq	%r15
	popq	%rbp
	retq
	.cfi_endproc
	.globl	_ic_tree_sums_remove
	.p2align	4
_ic_tree_sums_remove:
	.cfi_startproc
	pushq	%rbp
	.cfi_def_cfa_offset 16
	pushq	%r15
	.cfi_def_cfa_offset 24
	pushq	%r14
	.cfi_def_cfa_offset 32
	pushq	%r13
	.cfi_def_cfa_offset 40
	pushq	%r12
	.cfi_def_cfa_offset 48
	pushq	%rbx
	.cfi_def_cfa_offset 56
	subq	$232, %rsp
	.cfi_def_cfa_offset 288
	.cfi_offset %rbx, -56
	.cfi_offset %r12, -48
	.cfi_offset %r13, -40
	.cfi_offset %r14, -32
	.cfi_offset %r15, -24
	.cfi_offset %rbp, -16
	xorl	%r10d, %r10d
	testq	%rdi, %rdi
	sete	%bpl
	xorl	%r15d, %r15d
	testq	%rdx, %rdx
	sete	%r11b
	testl	%r8d, %r8d
	setne	%r14b
	movl	$1, %ebx
	movq	%rcx, 224(%rsp)
	cmpq	%rsi, %rcx
	jb	LBB196_244
	movl	288(%rsp), %eax
	movb	%bpl, %r10b
	shll	$12, %r10d
	addq	%r10, %rdi
	movb	%r11b, %r15b
	shll	$12, %r15d
	addq	%r15, %rdx
	leal	1(%rax), %r12d
	movl	%eax, %r10d
	movq	$0, 168(%rsp)
	movq	$0, 160(%rsp)
	movq	$0, 152(%rsp)
	movq	$0, 144(%rsp)
	movq	$0, 136(%rsp)
	movq	$0, 128(%rsp)
	movq	$0, 120(%rsp)
	movq	$0, 112(%rsp)
	movq	$0, 104(%rsp)
	movq	$0, 96(%rsp)
	movq	$0, 88(%rsp)
	movq	$0, 80(%rsp)
	movq	$0, 72(%rsp)
	movq	$0, 64(%rsp)
	movq	$0, 56(%rsp)
	movq	$0, 48(%rsp)
	movl	$4, %ebx
	incl	%r10d
	je	LBB196_243
	movb	%r14b, 23(%rsp)
	cmpq	%r12, %rsi
	jb	LBB196_245
	shlq	$3, %r12
	leaq	(%r12,%r12,2), %r15
	movq	-24(%rdi,%r15), %rbp
	testb	$1, %bpl
	je	LBB196_245
	movabsq	$68719476728, %r14
	movq	(%r9), %r11
	andq	%r14, %r11
	leaq	(,%rsi,8), %r8
	leaq	-1(%r11), %r10
	cmpq	%r8, %r10
	jae	LBB196_245
	movq	%r11, %r10
	shrq	$3, %r10
	leaq	(%r10,%r10,2), %r10
	testb	$1, -24(%rdi,%r10,8)
	je	LBB196_245
	movq	-8(%rdi,%r15), %r10
	movq	%r10, %rbx
	andq	%r14, %rbx
	cmpq	%r12, %r11
	je	LBB196_8
	testq	%rbx, %rbx
	je	LBB196_245
LBB196_8:
	movq	%r11, 24(%rsp)
	andq	%r14, %rbp
	leaq	-1(%rbp), %r11
	movq	-16(%rdi,%r15), %rax
	andq	%r14, %rax
	leaq	(,%rsi,8), %r13
	cmpq	%r13, %r11
	movq	%r15, 208(%rsp)
	movq	%r9, 216(%rsp)
	jae	LBB196_28
	leaq	-1(%rax), %r11
	cmpq	%r13, %r11
	movq	%r13, %r15
	jae	LBB196_29
	movl	$66, %r9d
	.p2align	4
LBB196_15:
	leaq	(%rax,%rax,2), %rbp
	movq	-24(%rdi,%rbp), %r13
	andq	%r14, %r13
	leaq	-1(%r13), %r10
	cmpq	%r15, %r10
	jae	LBB196_16
	leaq	(,%r13,2), %rbp
	addq	%r13, %rbp
	testl	%r9d, %r9d
	je	LBB196_17
	movq	-24(%rdi,%rbp), %rax
	andq	%r14, %rax
	leaq	-1(%rax), %r10
	cmpq	%r15, %r10
	jae	LBB196_13
	addl	$-2, %r9d
	jmp	LBB196_15
LBB196_28:
	xorl	%ebp, %ebp
	cmpq	%r13, %rax
	cmovbeq	%rax, %rbp
	movq	%r13, %r15
LBB196_29:
	xorl	%r8d, %r8d
	cmpq	%r15, %rbx
	cmovaq	%r8, %rbx
	testq	%rbx, %rbx
	setne	%cl
	je	LBB196_30
	leaq	(%rbx,%rbx,2), %rax
	movq	-24(%rdi,%rax), %r11
	movq	%r15, %r8
	movq	%r11, %r15
	andq	%r14, %r15
	xorl	%r13d, %r13d
	cmpq	%r8, %r15
	cmovbeq	%r15, %r13
	movq	%rbx, 48(%rsp)
	movq	$1, 160(%rsp)
	cmpq	%r12, %r13
	jne	LBB196_33
	andl	$1, %r11d
	addq	%rbp, %r11
	movq	%r11, -24(%rdi,%rax)
	movl	$1, %r8d
	xorl	%r11d, %r11d
	jmp	LBB196_34
LBB196_245:
	movq	%rdi, %rbx
	movq	%rsi, %r14
	movq	%rdx, %r15
	movl	%eax, %edx
	callq	_ic_raw.table.RawTable.refusal_at.19bacce014a8892a
	movq	%rbx, %rdi
	movq	%r14, %rsi
	movq	%r15, %rdx
	movl	%eax, %ebx
	jmp	LBB196_242
LBB196_30:
	movq	%rbp, 24(%rsp)
	xorl	%r11d, %r11d
	testq	%rbp, %rbp
	jne	LBB196_36
	jmp	LBB196_59
LBB196_33:
	movq	%rbp, -16(%rdi,%rax)
	movb	$1, %r11b
	movl	$1, %r8d
LBB196_34:
	leaq	(,%rsi,8), %r15
	testq	%rbp, %rbp
	je	LBB196_59
LBB196_36:
	shrq	$3, %rbp
	leaq	(,%rbp,2), %rax
	addq	%rbp, %rax
	orq	$1, %rbx
	movq	%rbx, -8(%rdi,%rax,8)
	jmp	LBB196_241
LBB196_16:
	leaq	(%rdi,%rbp), %r9
	movq	%rax, %r13
	jmp	LBB196_18
LBB196_17:
	leaq	(%rdi,%rbp), %r9
	movq	-24(%rdi,%rbp), %rax
	andq	%r14, %rax
	leaq	-1(%rax), %r10
	cmpq	%r15, %r10
	jae	LBB196_18
	jmp	LBB196_19
LBB196_13:
	leaq	(%rdi,%rbp), %r9
LBB196_18:
	movq	-16(%r9), %r10
	andq	%r14, %r10
	xorl	%eax, %eax
	cmpq	%r15, %r10
	cmovbeq	%r10, %rax
LBB196_19:
	movq	-8(%r9), %r10
	movq	%r10, %rbx
	andq	%r14, %rbx
	xorl	%r8d, %r8d
	cmpq	%r15, %rbx
	cmovaq	%r8, %rbx
	testq	%rbx, %rbx
	setne	%cl
	je	LBB196_20
	leaq	(%rbx,%rbx,2), %r8
	movq	-24(%rdi,%r8), %r9
	movq	%r9, %r11
	andq	%r14, %r11
	movq	%r15, %r8
	xorl	%r15d, %r15d
	cmpq	%r8, %r11
	cmovbeq	%r11, %r15
	movq	%rbx, 48(%rsp)
	movq	$1, 160(%rsp)
	cmpq	%r13, %r15
	jne	LBB196_23
	andl	$1, %r9d
	addq	%rax, %r9
	leaq	(%rbx,%rbx,2), %r8
	movq	%r9, -24(%rdi,%r8)
	movl	$1, %r8d
	xorl	%r11d, %r11d
	jmp	LBB196_24
LBB196_20:
	movq	%rax, 24(%rsp)
	xorl	%r11d, %r11d
	jmp	LBB196_24
LBB196_23:
	leaq	(%rbx,%rbx,2), %r8
	movq	%rax, -16(%rdi,%r8)
	movb	$1, %r11b
	movl	$1, %r8d
LBB196_24:
	testq	%rax, %rax
	je	LBB196_26
	shrq	$3, %rax
	leaq	(%rax,%rax,2), %rax
	movq	%rbx, %r9
	orq	$1, %r9
	movq	%r9, -8(%rdi,%rax,8)
	xorl	%r10d, %r10d
LBB196_26:
	cmpq	%r12, %r13
	jne	LBB196_37
	leaq	(,%rsi,8), %r15
	jmp	LBB196_59
LBB196_37:
	movb	%cl, 39(%rsp)
	movq	%r8, 184(%rsp)
	leaq	(%r12,%r12,2), %r15
	movq	-8(%rdi,%r15), %r9
	movq	%r9, 200(%rsp)
	andq	%r14, %r9
	xorl	%eax, %eax
	leaq	(,%rsi,8), %r8
	cmpq	%r8, %r9
	cmovaq	%rax, %r9
	movq	-24(%rdi,%r15), %rcx
	andq	%r14, %rcx
	cmpq	%r8, %rcx
	cmovaq	%rax, %rcx
	movq	%rcx, 176(%rsp)
	movq	-16(%rdi,%r15), %rcx
	andq	%r14, %rcx
	cmpq	%r8, %rcx
	cmovaq	%rax, %rcx
	movq	%rcx, 40(%rsp)
	testq	%r9, %r9
	je	LBB196_38
	leaq	(%r9,%r9,2), %rax
	movq	-24(%rdi,%rax), %rcx
	movq	%rcx, %rax
	andq	%r14, %rax
	xorl	%r15d, %r15d
	cmpq	%r8, %rax
	cmovbeq	%rax, %r15
	movq	184(%rsp), %r8
	movq	48(%rsp,%r8,8), %rax
	cmpq	%r12, %r15
	jne	LBB196_44
	movq	%rcx, 192(%rsp)
	testq	%rax, %rax
	movq	40(%rsp), %rax
	je	LBB196_42
	movb	$1, 168(%rsp)
	jmp	LBB196_43
LBB196_38:
	movq	%r13, 24(%rsp)
	movq	184(%rsp), %r8
	movq	40(%rsp), %rax
	movq	176(%rsp), %r15
	jmp	LBB196_48
LBB196_44:
	testq	%rax, %rax
	movq	40(%rsp), %rax
	movq	176(%rsp), %r15
	je	LBB196_46
	movb	$1, 168(%rsp)
	jmp	LBB196_47
LBB196_42:
	movq	%r9, 48(%rsp,%r8,8)
	incq	%r8
	movq	%r8, 160(%rsp)
LBB196_43:
	movq	192(%rsp), %r15
	andl	$1, %r15d
	orq	%r13, %r15
	leaq	(%r9,%r9,2), %rcx
	movq	%r15, -24(%rdi,%rcx)
	movq	176(%rsp), %r15
	jmp	LBB196_48
LBB196_46:
	movq	%r9, 48(%rsp,%r8,8)
	incq	%r8
	movq	%r8, 160(%rsp)
LBB196_47:
	leaq	(%r9,%r9,2), %rcx
	movq	%r13, -16(%rdi,%rcx)
LBB196_48:
	testq	%r15, %r15
	je	LBB196_50
	movq	%r15, %rax
	shrq	$3, %rax
	leaq	(%rax,%rax,2), %rax
	movq	-8(%rdi,%rax,8), %r15
	andl	$1, %r15d
	orq	%r13, %r15
	movq	%r15, -8(%rdi,%rax,8)
	movq	40(%rsp), %rax
LBB196_50:
	testq	%rax, %rax
	je	LBB196_52
	shrq	$3, %rax
	leaq	(%rax,%rax,2), %rax
	movq	-8(%rdi,%rax,8), %r15
	andl	$1, %r15d
	orq	%r13, %r15
	movq	%r15, -8(%rdi,%rax,8)
LBB196_52:
	leal	(,%r8,8), %eax
	cmpq	$0, 48(%rsp,%rax)
	je	LBB196_54
	movb	$1, 168(%rsp)
	jmp	LBB196_55
LBB196_54:
	movq	%r13, 48(%rsp,%r8,8)
	incq	%r8
	movq	%r8, 160(%rsp)
	leal	(,%r8,8), %eax
LBB196_55:
	movq	-24(%rdi,%rbp), %r15
	andl	$1, %r15d
	orq	176(%rsp), %r15
	movq	%r15, -24(%rdi,%rbp)
	cmpq	$0, 48(%rsp,%rax)
	je	LBB196_57
	movb	$1, 168(%rsp)
	jmp	LBB196_58
LBB196_57:
	movq	%r13, 48(%rsp,%rax)
	incq	%r8
	movq	%r8, 160(%rsp)
LBB196_58:
	leaq	(,%rsi,8), %r15
	movq	200(%rsp), %rax
	andl	$1, %eax
	movq	40(%rsp), %rcx
	movq	%rcx, -16(%rdi,%rbp)
	orq	%rax, %r9
	movq	%r9, -8(%rdi,%rbp)
	cmpq	%r12, %rbx
	cmoveq	%r13, %rbx
	movzbl	39(%rsp), %ecx
LBB196_59:
	testb	$1, %r10b
	je	LBB196_241
	testb	%cl, %cl
	je	LBB196_241
	movl	$67, %r13d
	.p2align	4
LBB196_62:
	leaq	(%rbx,%rbx,2), %r12
	testb	$1, %r11b
	je	LBB196_63
	movq	-24(%rdi,%r12), %r9
	movq	%r9, %r11
	andq	%r14, %r11
	leaq	-1(%r11), %rax
	cmpq	%r15, %rax
	jae	LBB196_241
	leaq	(%r11,%r11,2), %rbp
	testb	$1, -8(%rdi,%rbp)
	jne	LBB196_176
	movq	-16(%rdi,%rbp), %r10
	andq	%r14, %r10
	movq	%r8, %rcx
	movq	%r15, %r8
	xorl	%r15d, %r15d
	cmpq	%r8, %r10
	cmovaq	%r15, %r10
	movq	-8(%rdi,%r12), %rax
	andq	%r14, %rax
	cmpq	%r8, %rax
	movq	%rcx, %r8
	cmovaq	%r15, %rax
	cmpq	$13, %rcx
	ja	LBB196_153
	cmpq	$0, 48(%rsp,%r8,8)
	je	LBB196_154
LBB196_153:
	movb	$1, 168(%rsp)
LBB196_155:
	andl	$1, %r9d
	orq	%r10, %r9
	movq	%r9, -24(%rdi,%r12)
	testq	%r10, %r10
	je	LBB196_157
	shrq	$3, %r10
	leaq	(%r10,%r10,2), %r9
	movq	-8(%rdi,%r9,8), %r10
	andl	$1, %r10d
	orq	%rbx, %r10
	movq	%r10, -8(%rdi,%r9,8)
LBB196_157:
	movq	%rax, %r9
	orq	$1, %r9
	movq	%r9, -8(%rdi,%rbp)
	testq	%rax, %rax
	je	LBB196_158
	leaq	(%rax,%rax,2), %rcx
	movq	-24(%rdi,%rcx), %r10
	movq	%r10, %r15
	andq	%r14, %r15
	xorl	%r12d, %r12d
	leaq	(,%rsi,8), %r9
	cmpq	%r9, %r15
	cmovbeq	%r15, %r12
	cmpq	%rbx, %r12
	jne	LBB196_165
	cmpq	$13, %r8
	ja	LBB196_162
	movq	%r8, %r9
	cmpq	$0, 48(%rsp,%r8,8)
	je	LBB196_163
LBB196_162:
	movb	$1, 168(%rsp)
LBB196_164:
	leaq	(,%rsi,8), %r15
	leaq	(%rbx,%rbx,2), %r12
	andl	$1, %r10d
	orq	%r11, %r10
	movq	%r10, -24(%rdi,%rcx)
	cmpq	$13, %r8
	jbe	LBB196_171
	jmp	LBB196_172
LBB196_63:
	movq	-16(%rdi,%r12), %r11
	andq	%r14, %r11
	leaq	-1(%r11), %rax
	cmpq	%r15, %rax
	jae	LBB196_241
	leaq	(%r11,%r11,2), %rbp
	testb	$1, -8(%rdi,%rbp)
	jne	LBB196_90
	movq	-24(%rdi,%rbp), %r9
	andq	%r14, %r9
	xorl	%r10d, %r10d
	cmpq	%r15, %r9
	cmovaq	%r10, %r9
	movq	-8(%rdi,%r12), %rax
	andq	%r14, %rax
	cmpq	%r15, %rax
	cmovaq	%r10, %rax
	cmpq	$13, %r8
	ja	LBB196_67
	cmpq	$0, 48(%rsp,%r8,8)
	je	LBB196_68
LBB196_67:
	movb	$1, 168(%rsp)
	movq	%r9, -16(%rdi,%r12)
	testq	%r9, %r9
	je	LBB196_71
LBB196_70:
	shrq	$3, %r9
	leaq	(%r9,%r9,2), %r9
	movq	-8(%rdi,%r9,8), %r10
	andl	$1, %r10d
	orq	%rbx, %r10
	movq	%r10, -8(%rdi,%r9,8)
LBB196_71:
	movq	%rax, %r9
	orq	$1, %r9
	movq	%r9, -8(%rdi,%rbp)
	testq	%rax, %rax
	je	LBB196_72
	movq	%r8, %rcx
	leaq	(%rax,%rax,2), %r9
	movq	-24(%rdi,%r9), %r10
	movq	%r15, %r8
	movq	%r10, %r15
	andq	%r14, %r15
	xorl	%r12d, %r12d
	cmpq	%r8, %r15
	cmovbeq	%r15, %r12
	movq	%rcx, %r8
	cmpq	%rbx, %r12
	jne	LBB196_79
	cmpq	$13, %rcx
	ja	LBB196_76
	cmpq	$0, 48(%rsp,%r8,8)
	je	LBB196_77
LBB196_76:
	movb	$1, 168(%rsp)
LBB196_78:
	leaq	(,%rsi,8), %r15
	leaq	(%rbx,%rbx,2), %r12
	andl	$1, %r10d
	orq	%r11, %r10
	movq	%r10, -24(%rdi,%r9)
	cmpq	$13, %r8
	jbe	LBB196_85
	jmp	LBB196_86
LBB196_158:
	movq	%r11, 24(%rsp)
	leaq	(,%rsi,8), %r15
	cmpq	$13, %r8
	jbe	LBB196_171
	jmp	LBB196_172
LBB196_72:
	movq	%r11, 24(%rsp)
	cmpq	$13, %r8
	jbe	LBB196_85
	jmp	LBB196_86
LBB196_165:
	cmpq	$13, %r8
	ja	LBB196_167
	movq	%r8, %r9
	cmpq	$0, 48(%rsp,%r8,8)
	je	LBB196_168
LBB196_167:
	movb	$1, 168(%rsp)
LBB196_169:
	leaq	(,%rsi,8), %r15
	leaq	(%rbx,%rbx,2), %r12
	movq	%r11, -16(%rdi,%rcx)
	cmpq	$13, %r8
	ja	LBB196_172
LBB196_171:
	cmpq	$0, 48(%rsp,%r8,8)
	je	LBB196_173
LBB196_172:
	movb	$1, 168(%rsp)
LBB196_174:
	movq	%rbx, -16(%rdi,%rbp)
	movq	%r11, -8(%rdi,%r12)
	movq	-24(%rdi,%r12), %r11
	andq	%r14, %r11
	leaq	-1(%r11), %rax
	cmpq	%r15, %rax
	jae	LBB196_241
	leaq	(%r11,%r11,2), %rbp
LBB196_176:
	movq	-24(%rdi,%rbp), %rax
	andq	%r14, %rax
	leaq	-1(%rax), %r9
	cmpq	%r15, %r9
	jae	LBB196_178
	movq	%rax, %r10
	shrq	$3, %r10
	leaq	(%r10,%r10,2), %r10
	movq	-8(%rdi,%r10,8), %r10
	testb	$1, %r10b
	je	LBB196_182
LBB196_178:
	movq	%r12, %rcx
	movq	-16(%rdi,%rbp), %r10
	andq	%r14, %r10
	leaq	-1(%r10), %r12
	cmpq	%r15, %r12
	jae	LBB196_237
	movq	%r10, %r15
	shrq	$3, %r15
	leaq	(%r15,%r15,2), %r15
	testb	$1, -8(%rdi,%r15,8)
	leaq	(,%rsi,8), %r15
	je	LBB196_180
LBB196_237:
	andb	$-2, -8(%rdi,%rbp)
	movq	-8(%rdi,%rcx), %rax
	testb	$1, %al
	jne	LBB196_239
	jmp	LBB196_238
LBB196_79:
	cmpq	$13, %rcx
	ja	LBB196_81
	cmpq	$0, 48(%rsp,%r8,8)
	je	LBB196_82
LBB196_81:
	movb	$1, 168(%rsp)
LBB196_83:
	leaq	(,%rsi,8), %r15
	leaq	(%rbx,%rbx,2), %r12
	movq	%r11, -16(%rdi,%r9)
	cmpq	$13, %r8
	ja	LBB196_86
LBB196_85:
	cmpq	$0, 48(%rsp,%r8,8)
	je	LBB196_87
LBB196_86:
	movb	$1, 168(%rsp)
LBB196_88:
	movq	-24(%rdi,%rbp), %rax
	andl	$1, %eax
	orq	%rbx, %rax
	movq	%rax, -24(%rdi,%rbp)
	movq	%r11, -8(%rdi,%r12)
	movq	-16(%rdi,%r12), %r11
	andq	%r14, %r11
	leaq	-1(%r11), %rax
	cmpq	%r15, %rax
	jae	LBB196_241
	leaq	(%r11,%r11,2), %rbp
LBB196_90:
	movq	-24(%rdi,%rbp), %r10
	andq	%r14, %r10
	leaq	-1(%r10), %rax
	cmpq	%r15, %rax
	jae	LBB196_92
	leaq	(%r10,%r10,2), %rcx
	testb	$1, -8(%rdi,%rcx)
	je	LBB196_96
LBB196_92:
	movq	-16(%rdi,%rbp), %rax
	andq	%r14, %rax
	leaq	-1(%rax), %r9
	cmpq	%r15, %r9
	jae	LBB196_94
	leaq	(%rax,%rax,2), %rax
	movq	-8(%rdi,%rax), %r9
	testb	$1, %r9b
	je	LBB196_98
LBB196_94:
	andb	$-2, -8(%rdi,%rbp)
	movq	-8(%rdi,%r12), %rax
	testb	$1, %al
	je	LBB196_95
LBB196_239:
	andq	%r14, %rax
	leaq	-1(%rax), %r9
	cmpq	%r15, %r9
	jae	LBB196_241
	movq	%rax, %r9
	shrq	$3, %r9
	leaq	(%r9,%r9,2), %r9
	movq	-24(%rdi,%r9,8), %r9
	andq	%r14, %r9
	xorl	%r10d, %r10d
	cmpq	%r15, %r9
	cmovbeq	%r9, %r10
	cmpq	%rbx, %r10
	setne	%r11b
	movq	%rax, %rbx
	decl	%r13d
	jne	LBB196_62
	jmp	LBB196_241
LBB196_154:
	movq	%rbx, 48(%rsp,%r8,8)
	incq	%r8
	movq	%r8, 160(%rsp)
	jmp	LBB196_155
LBB196_68:
	movq	%rbx, 48(%rsp,%r8,8)
	incq	%r8
	movq	%r8, 160(%rsp)
	movq	%r9, -16(%rdi,%r12)
	testq	%r9, %r9
	jne	LBB196_70
	jmp	LBB196_71
LBB196_173:
	movq	%r11, 48(%rsp,%r8,8)
	incq	%r8
	movq	%r8, 160(%rsp)
	jmp	LBB196_174
LBB196_87:
	movq	%r11, 48(%rsp,%r8,8)
	incq	%r8
	movq	%r8, 160(%rsp)
	jmp	LBB196_88
LBB196_163:
	movq	%rax, 48(%rsp,%r9,8)
	incq	%r9
	movq	%r9, %r8
	movq	%r9, 160(%rsp)
	jmp	LBB196_164
LBB196_77:
	movq	%rax, 48(%rsp,%r8,8)
	incq	%r8
	movq	%r8, 160(%rsp)
	jmp	LBB196_78
LBB196_168:
	movq	%rax, 48(%rsp,%r9,8)
	incq	%r9
	movq	%r9, %r8
	movq	%r9, 160(%rsp)
	jmp	LBB196_169
LBB196_82:
	movq	%rax, 48(%rsp,%r8,8)
	incq	%r8
	movq	%r8, 160(%rsp)
	jmp	LBB196_83
LBB196_238:
	orq	$1, %rax
	movq	%rax, -8(%rdi,%rcx)
	jmp	LBB196_241
LBB196_95:
	orq	$1, %rax
	movq	%rax, -8(%rdi,%r12)
	jmp	LBB196_241
LBB196_96:
	movq	-16(%rdi,%rbp), %rax
	andq	%r14, %rax
	leaq	-1(%rax), %r9
	cmpq	%r15, %r9
	jae	LBB196_99
	leaq	(%rax,%rax,2), %rax
	movq	-8(%rdi,%rax), %r9
	testb	$1, %r9b
	je	LBB196_98
LBB196_99:
	movq	-16(%rdi,%rcx), %r9
	andq	%r14, %r9
	movq	%r8, %rcx
	movq	%r15, %r8
	xorl	%r15d, %r15d
	cmpq	%r8, %r9
	cmovaq	%r15, %r9
	movq	-8(%rdi,%rbp), %rax
	andq	%r14, %rax
	cmpq	%r8, %rax
	movq	%rcx, %r8
	cmovaq	%r15, %rax
	cmpq	$13, %rcx
	ja	LBB196_101
	cmpq	$0, 48(%rsp,%r8,8)
	je	LBB196_102
LBB196_101:
	movq	%r12, %rcx
	movb	$1, 168(%rsp)
LBB196_103:
	movq	%r11, %r15
	shrq	$3, %r15
	leaq	(%r15,%r15,2), %r15
	movq	-24(%rdi,%r15,8), %r12
	andl	$1, %r12d
	orq	%r9, %r12
	movq	%r12, -24(%rdi,%r15,8)
	testq	%r9, %r9
	je	LBB196_105
	shrq	$3, %r9
	leaq	(%r9,%r9,2), %r9
	movq	-8(%rdi,%r9,8), %r15
	andl	$1, %r15d
	orq	%r11, %r15
	movq	%r15, -8(%rdi,%r9,8)
LBB196_105:
	movq	%rax, %r9
	orq	$1, %r9
	leaq	(%r10,%r10,2), %r15
	movq	%r9, -8(%rdi,%r15)
	testq	%rax, %rax
	je	LBB196_106
	leaq	(%rax,%rax,2), %r9
	movq	%r9, 40(%rsp)
	movq	-24(%rdi,%r9), %r13
	movq	%r13, %r15
	andq	%r14, %r15
	xorl	%r12d, %r12d
	leaq	(,%rsi,8), %r9
	cmpq	%r9, %r15
	cmovbeq	%r15, %r12
	cmpq	%r11, %r12
	jne	LBB196_113
	cmpq	$13, %r8
	ja	LBB196_110
	cmpq	$0, 48(%rsp,%r8,8)
	je	LBB196_111
LBB196_110:
	movb	$1, 168(%rsp)
LBB196_112:
	leaq	(,%rsi,8), %r15
	movq	%rcx, %r12
	andl	$1, %r13d
	orq	%r10, %r13
	movq	40(%rsp), %rax
	movq	%r13, -24(%rdi,%rax)
	jmp	LBB196_118
LBB196_98:
	movq	%r8, %rcx
	movq	%r11, %r10
	jmp	LBB196_124
LBB196_180:
	cmpq	%r15, %r9
	jae	LBB196_185
	movq	%rax, %r10
	shrq	$3, %r10
	leaq	(%r10,%r10,2), %r10
	movq	-8(%rdi,%r10,8), %r10
	movq	%rcx, %r12
LBB196_182:
	testb	$1, %r10b
	je	LBB196_183
	movq	%r12, %rcx
	movq	-16(%rdi,%rbp), %r10
	andq	%r14, %r10
	leaq	-1(%r10), %r12
LBB196_185:
	cmpq	%r15, %r12
	jae	LBB196_241
	leaq	(%r10,%r10,2), %r13
	movq	-24(%rdi,%r13), %r9
	andq	%r14, %r9
	movq	%r8, %r12
	movq	%r15, %r8
	xorl	%r15d, %r15d
	cmpq	%r8, %r9
	cmovaq	%r15, %r9
	movq	-8(%rdi,%rbp), %rax
	andq	%r14, %rax
	cmpq	%r8, %rax
	movq	%r12, %r8
	cmovaq	%r15, %rax
	cmpq	$13, %r12
	ja	LBB196_188
	cmpq	$0, 48(%rsp,%r8,8)
	je	LBB196_189
LBB196_188:
	movb	$1, 168(%rsp)
	movq	%r9, -16(%rdi,%rbp)
	testq	%r9, %r9
	je	LBB196_192
LBB196_191:
	shrq	$3, %r9
	leaq	(%r9,%r9,2), %r9
	movq	-8(%rdi,%r9,8), %r15
	andl	$1, %r15d
	orq	%r11, %r15
	movq	%r15, -8(%rdi,%r9,8)
LBB196_192:
	movq	%rax, %r9
	orq	$1, %r9
	movq	%r9, -8(%rdi,%r13)
	testq	%rax, %rax
	je	LBB196_193
	leaq	(%rax,%rax,2), %r9
	movq	%r9, 40(%rsp)
	movq	-24(%rdi,%r9), %r9
	movq	%r9, %r12
	andq	%r14, %r12
	leaq	(,%rsi,8), %r15
	cmpq	%r15, %r12
	ja	LBB196_201
	cmpq	%r11, %r12
	jne	LBB196_201
	cmpq	$13, %r8
	ja	LBB196_198
	cmpq	$0, 48(%rsp,%r8,8)
	je	LBB196_199
LBB196_198:
	movb	$1, 168(%rsp)
LBB196_200:
	movq	%rcx, %r12
	andl	$1, %r9d
	orq	%r10, %r9
	movq	40(%rsp), %rax
	movq	%r9, -24(%rdi,%rax)
	jmp	LBB196_206
LBB196_183:
	movq	%rbp, %r13
	movq	%r11, %r10
	jmp	LBB196_211
LBB196_106:
	movq	%r10, 24(%rsp)
	leaq	(,%rsi,8), %r15
	movq	%rcx, %r12
	jmp	LBB196_118
LBB196_113:
	cmpq	$13, %r8
	ja	LBB196_115
	cmpq	$0, 48(%rsp,%r8,8)
	je	LBB196_116
LBB196_115:
	movb	$1, 168(%rsp)
LBB196_117:
	leaq	(,%rsi,8), %r15
	movq	%rcx, %r12
	movq	40(%rsp), %rax
	movq	%r10, -16(%rdi,%rax)
LBB196_118:
	leaq	(%r10,%r10,2), %rcx
	cmpq	$13, %r8
	ja	LBB196_120
	cmpq	$0, 48(%rsp,%r8,8)
	je	LBB196_121
LBB196_120:
	movb	$1, 168(%rsp)
LBB196_122:
	movq	%r11, -16(%rdi,%rcx)
	movq	%r10, -8(%rdi,%rbp)
	movq	-16(%rdi,%rcx), %rax
	andq	%r14, %rax
	leaq	-1(%rax), %r9
	cmpq	%r15, %r9
	jae	LBB196_241
	movq	%rcx, %rbp
	movq	%r8, %rcx
	leaq	(%rax,%rax,2), %rax
	movq	-8(%rdi,%rax), %r9
LBB196_124:
	movq	-8(%rdi,%r12), %r11
	andl	$1, %r11d
	orq	$1, %r9
	movq	%r9, -8(%rdi,%rax)
	movq	%rbp, %r13
	movq	-24(%rdi,%rbp), %r9
	andq	%r14, %r9
	xorl	%r15d, %r15d
	leaq	(,%rsi,8), %r8
	cmpq	%r8, %r9
	cmovaq	%r15, %r9
	movq	-8(%rdi,%r12), %rax
	andq	%r14, %rax
	cmpq	%r8, %rax
	cmovaq	%r15, %rax
	movq	%rcx, %r8
	cmpq	$13, %rcx
	ja	LBB196_126
	cmpq	$0, 48(%rsp,%r8,8)
	je	LBB196_127
LBB196_126:
	movb	$1, 168(%rsp)
	movq	%r9, -16(%rdi,%r12)
	testq	%r9, %r9
	movq	%r13, %rcx
	je	LBB196_130
LBB196_129:
	shrq	$3, %r9
	leaq	(%r9,%r9,2), %r9
	movq	-8(%rdi,%r9,8), %r15
	andl	$1, %r15d
	orq	%rbx, %r15
	movq	%r15, -8(%rdi,%r9,8)
LBB196_130:
	orq	%rax, %r11
	movq	%r11, -8(%rdi,%rcx)
	testq	%rax, %rax
	je	LBB196_131
	movq	%r12, %rcx
	leaq	(%rax,%rax,2), %r9
	movq	-24(%rdi,%r9), %r11
	andq	%r11, %r14
	xorl	%r15d, %r15d
	leaq	(,%rsi,8), %r12
	cmpq	%r12, %r14
	cmovbeq	%r14, %r15
	cmpq	%rbx, %r15
	jne	LBB196_138
	cmpq	$13, %r8
	ja	LBB196_135
	cmpq	$0, 48(%rsp,%r8,8)
	je	LBB196_136
LBB196_135:
	movb	$1, 168(%rsp)
LBB196_137:
	movq	%rcx, %r12
	andl	$1, %r11d
	orq	%r10, %r11
	movq	%r11, -24(%rdi,%r9)
	movq	24(%rsp), %rax
	jmp	LBB196_143
LBB196_131:
	movq	%r10, %rax
	jmp	LBB196_144
LBB196_138:
	cmpq	$13, %r8
	ja	LBB196_140
	cmpq	$0, 48(%rsp,%r8,8)
	je	LBB196_141
LBB196_140:
	movb	$1, 168(%rsp)
LBB196_142:
	movq	24(%rsp), %rax
	movq	%rcx, %r12
	movq	%r10, -16(%rdi,%r9)
LBB196_143:
	movq	%r13, %rcx
LBB196_144:
	cmpq	$13, %r8
	movq	%rax, 24(%rsp)
	ja	LBB196_146
	cmpq	$0, 48(%rsp,%r8,8)
	je	LBB196_147
LBB196_146:
	movb	$1, 168(%rsp)
LBB196_148:
	movq	-24(%rdi,%rcx), %rax
	andl	$1, %eax
	orq	%rbx, %rax
	movq	%rax, -24(%rdi,%rcx)
	jmp	LBB196_236
LBB196_127:
	movq	%rbx, 48(%rsp,%r8,8)
	incq	%r8
	movq	%r8, 160(%rsp)
	movq	%r9, -16(%rdi,%r12)
	testq	%r9, %r9
	movq	%r13, %rcx
	jne	LBB196_129
	jmp	LBB196_130
LBB196_147:
	movq	%r10, 48(%rsp,%r8,8)
	incq	%r8
	movq	%r8, 160(%rsp)
	jmp	LBB196_148
LBB196_193:
	movq	%r10, 24(%rsp)
	leaq	(,%rsi,8), %r15
	movq	%rcx, %r12
	jmp	LBB196_206
LBB196_201:
	cmpq	$13, %r8
	ja	LBB196_203
	cmpq	$0, 48(%rsp,%r8,8)
	je	LBB196_204
LBB196_203:
	movb	$1, 168(%rsp)
LBB196_205:
	movq	%rcx, %r12
	movq	40(%rsp), %rax
	movq	%r10, -16(%rdi,%rax)
LBB196_206:
	cmpq	$13, %r8
	ja	LBB196_208
	cmpq	$0, 48(%rsp,%r8,8)
	je	LBB196_209
LBB196_208:
	movb	$1, 168(%rsp)
LBB196_210:
	movq	-24(%rdi,%r13), %rax
	andl	$1, %eax
	orq	%r11, %rax
	movq	%rax, -24(%rdi,%r13)
	movq	%r10, -8(%rdi,%rbp)
	movq	-24(%rdi,%r13), %rax
	andq	%r14, %rax
	leaq	-1(%rax), %r9
LBB196_211:
	cmpq	%r15, %r9
	jae	LBB196_241
	movq	-8(%rdi,%r12), %r9
	shrq	$3, %rax
	leaq	(%rax,%rax,2), %rax
	orq	$1, -8(%rdi,%rax,8)
	andl	$1, %r9d
	movq	-16(%rdi,%r13), %r11
	andq	%r14, %r11
	movq	%r8, %rcx
	movq	%r15, %r8
	xorl	%r15d, %r15d
	cmpq	%r8, %r11
	cmovaq	%r15, %r11
	movq	-8(%rdi,%r12), %rax
	andq	%r14, %rax
	cmpq	%r8, %rax
	movq	%rcx, %r8
	cmovaq	%r15, %rax
	cmpq	$13, %rcx
	ja	LBB196_214
	cmpq	$0, 48(%rsp,%r8,8)
	je	LBB196_215
LBB196_214:
	movb	$1, 168(%rsp)
LBB196_216:
	movq	-24(%rdi,%r12), %r15
	andl	$1, %r15d
	orq	%r11, %r15
	movq	%r15, -24(%rdi,%r12)
	testq	%r11, %r11
	je	LBB196_218
	shrq	$3, %r11
	leaq	(%r11,%r11,2), %r11
	movq	-8(%rdi,%r11,8), %r15
	andl	$1, %r15d
	orq	%rbx, %r15
	movq	%r15, -8(%rdi,%r11,8)
LBB196_218:
	orq	%rax, %r9
	movq	%r9, -8(%rdi,%r13)
	testq	%rax, %rax
	je	LBB196_219
	movq	%r8, %rcx
	leaq	(%rax,%rax,2), %r9
	movq	-24(%rdi,%r9), %r11
	andq	%r11, %r14
	xorl	%r15d, %r15d
	leaq	(,%rsi,8), %r8
	cmpq	%r8, %r14
	cmovbeq	%r14, %r15
	movq	%rcx, %r8
	cmpq	%rbx, %r15
	jne	LBB196_226
	cmpq	$13, %rcx
	ja	LBB196_223
	cmpq	$0, 48(%rsp,%r8,8)
	je	LBB196_224
LBB196_223:
	movb	$1, 168(%rsp)
LBB196_225:
	andl	$1, %r11d
	orq	%r10, %r11
	movq	%r11, -24(%rdi,%r9)
	movq	24(%rsp), %rax
	jmp	LBB196_231
LBB196_219:
	movq	%r10, %rax
	jmp	LBB196_231
LBB196_226:
	cmpq	$13, %rcx
	ja	LBB196_228
	cmpq	$0, 48(%rsp,%r8,8)
	je	LBB196_229
LBB196_228:
	movb	$1, 168(%rsp)
LBB196_230:
	movq	24(%rsp), %rax
	movq	%r10, -16(%rdi,%r9)
LBB196_231:
	cmpq	$13, %r8
	movq	%rax, 24(%rsp)
	ja	LBB196_233
	cmpq	$0, 48(%rsp,%r8,8)
	je	LBB196_234
LBB196_233:
	movb	$1, 168(%rsp)
LBB196_235:
	movq	%rbx, -16(%rdi,%r13)
LBB196_236:
	orq	$1, %r10
	movq	%r10, -8(%rdi,%r12)
LBB196_241:
	movq	208(%rsp), %rax
	movq	$0, -24(%rdi,%rax)
	movq	216(%rsp), %rax
	movq	24(%rsp), %r9
	movq	%r9, (%rax)
	xorl	%ebx, %ebx
LBB196_242:
	movzbl	23(%rsp), %r14d
LBB196_243:
	movl	%ebx, (%rsp)
	xorl	%r8d, %r8d
	movb	%r14b, %r8b
	leaq	48(%rsp), %r9
	movq	224(%rsp), %rcx
	callq	_ic_raw_augmented.edit_calls.settle
LBB196_244:
	movl	%ebx, %eax
	addq	$232, %rsp
	popq	%rbx
	popq	%r12
	popq	%r13
	popq	%r14
	popq	%r15
	popq	%rbp
	retq
LBB196_102:
	movq	%r12, %rcx
	movq	%r11, 48(%rsp,%r8,8)
	incq	%r8
	movq	%r8, 160(%rsp)
	jmp	LBB196_103
LBB196_121:
	movq	%r10, 48(%rsp,%r8,8)
	incq	%r8
	movq	%r8, 160(%rsp)
	jmp	LBB196_122
LBB196_215:
	movq	%rbx, 48(%rsp,%r8,8)
	incq	%r8
	movq	%r8, 160(%rsp)
	jmp	LBB196_216
LBB196_234:
	movq	%r10, 48(%rsp,%r8,8)
	incq	%r8
	movq	%r8, 160(%rsp)
	jmp	LBB196_235
LBB196_189:
	movq	%r11, 48(%rsp,%r8,8)
	incq	%r8
	movq	%r8, 160(%rsp)
	movq	%r9, -16(%rdi,%rbp)
	testq	%r9, %r9
	jne	LBB196_191
	jmp	LBB196_192
LBB196_209:
	movq	%r10, 48(%rsp,%r8,8)
	incq	%r8
	movq	%r8, 160(%rsp)
	jmp	LBB196_210
LBB196_136:
	movq	%rax, 48(%rsp,%r8,8)
	incq	%r8
	movq	%r8, 160(%rsp)
	jmp	LBB196_137
LBB196_141:
	movq	%rax, 48(%rsp,%r8,8)
	incq	%r8
	movq	%r8, 160(%rsp)
	jmp	LBB196_142
LBB196_111:
	movq	%rax, 48(%rsp,%r8,8)
	incq	%r8
	movq	%r8, 160(%rsp)
	jmp	LBB196_112
LBB196_116:
	movq	%rax, 48(%rsp,%r8,8)
	incq	%r8
	movq	%r8, 160(%rsp)
	jmp	LBB196_117
LBB196_224:
	movq	%rax, 48(%rsp,%r8,8)
	incq	%r8
	movq	%r8, 160(%rsp)
	jmp	LBB196_225
LBB196_229:
	movq	%rax, 48(%rsp,%r8,8)
	incq	%r8
	movq	%r8, 160(%rsp)
	jmp	LBB196_230
LBB196_204:
	movq	%rax, 48(%rsp,%r8,8)
	incq	%r8
	movq	%r8, 160(%rsp)
	jmp	LBB196_205
LBB196_199:
	movq	%rax, 48(%rsp,%r8,8)
	incq	%r8
	movq	%r8, 160(%rsp)
	jmp	LBB196_200
	.cfi_endproc
	.globl	_ic_tree_sums_renew
	.p2align	4
_ic_tree_sums_renew:
	.cfi_startproc
	pushq	%rbp
	.cfi_def_cfa_offset 16
	pushq	%r15
	.cfi_def_cfa_offset 24
	pushq	%r14
	.cfi_def_cfa_offset 32
	pushq	%r13
	.cfi_def_cfa_offset 40
	pushq	%r12
	.cfi_def_cfa_offset 48
	pushq	%rbx
	.cfi_def_cfa_offset 56
	subq	$24, %rsp
	.cfi_def_cfa_offset 80
	.cfi_offset %rbx, -56
	.cfi_offset %r12, -48
	.cfi_offset %r13, -40
	.cfi_offset %r14, -32
	.cfi_offset %r15, -24
	.cfi_offset %rbp, -16
	movq	%rcx, %rbx
	movq	%rdx, %r14
	xorl	%eax, %eax
	testq	%rdi, %rdi
	sete	%al
	shll	$12, %eax
	addq	%rdi, %rax
	xorl	%ecx, %ecx
	testq	%rdx, %rdx
	sete	%dl
	testl	%r8d, %r8d
	setne	%r12b
	movq	%rax, 8(%rsp)
	movq	%rsi, 16(%rsp)
	cmpq	%rsi, %rbx
	jb	LBB197_4
	movq	%rsi, %rbp
	movb	%dl, %cl
	shll	$12, %ecx
	addq	%rcx, %r14
	leal	1(%r9), %r8d
	testq	%r8, %r8
	je	LBB197_6
	cmpq	%r8, %rbp
	jb	LBB197_4
	leaq	(%r8,%r8,2), %rcx
	testb	$1, -24(%rax,%rcx,8)
	je	LBB197_4
	shlq	$3, %r8
	movzbl	%r12b, %ecx
	leaq	8(%rsp), %rdi
	movq	%r14, %rsi
	movq	%rbx, %rdx
	callq	_ic_raw_augmented.recompute.recompute_up
LBB197_11:
	xorl	%eax, %eax
LBB197_12:
	addq	$24, %rsp
	popq	%rbx
	popq	%r12
	popq	%r13
	popq	%r14
	popq	%r15
	popq	%rbp
	retq
LBB197_6:
	xorl	%eax, %eax
	testq	%rbp, %rbp
	je	LBB197_12
	movl	$8, %r13d
	movq	%rbp, %r15
	jmp	LBB197_8
	.p2align	4
LBB197_10:
	addq	$8, %r13
	decq	%r15
	je	LBB197_11
LBB197_8:
	movabsq	$68719476728, %r8
	andq	%r13, %r8
	sete	%al
	movq	%r8, %rcx
	shrq	$3, %rcx
	cmpq	%rbp, %rcx
	seta	%cl
	orb	%al, %cl
	jne	LBB197_10
	xorl	%ecx, %ecx
	movb	%r12b, %cl
	leaq	8(%rsp), %rdi
	movq	%r14, %rsi
	movq	%rbx, %rdx
	callq	_ic_raw_augmented.recompute.recompute_up
	jmp	LBB197_10
LBB197_4:
	leaq	8(%rsp), %rdi
	movq	%rbx, %rsi
	movl	%r9d, %edx
	callq	_ic_raw_augmented.sum_calls.refusal
	jmp	LBB197_12
	.cfi_endproc
	.globl	_ic_tree_upper_bound
	.p2align	4
_ic_tree_upper_bound:
	.cfi_startproc
	pushq	%rbp
	.cfi_def_cfa_offset 16
	pushq	%r15
	.cfi_def_cfa_offset 24
	pushq	%r14
	.cfi_def_cfa_offset 32
	pushq	%rbx
	.cfi_def_cfa_offset 40
	.cfi_offset %rbx, -40
	.cfi_offset %r14, -32
	.cfi_offset %r15, -24
	.cfi_offset %rbp, -16
	xorl	%r14d, %r14d
	testq	%rdi, %rdi
	sete	%r15b
	xorl	%ebx, %ebx
	testq	%rdx, %rdx
	sete	%bpl
	cmpq	%rsi, %rcx
	jb	LBB198_16
	movabsq	$68719476728, %r10
	movq	(%r8), %r11
	movl	$4, %eax
	andq	%r10, %r11
	je	LBB198_15
	movq	%r11, %rax
	shrq	$3, %rax
	cmpq	%rsi, %rax
	ja	LBB198_16
	movb	%r15b, %r14b
	shll	$12, %r14d
	addq	%r14, %rdi
	leaq	(%rax,%rax,2), %rax
	testb	$1, -24(%rdi,%rax,8)
	je	LBB198_16
	movq	40(%rsp), %rcx
	movb	%bpl, %bl
	shll	$12, %ebx
	addq	%rbx, %rdx
	shlq	$3, %rsi
	movl	$22, %eax
	xorl	%r8d, %r8d
	.p2align	4
LBB198_5:
	movq	%r11, %rbx
	shrq	$3, %rbx
	leaq	(%rbx,%rbx,2), %r14
	movq	-24(%rdi,%r14,8), %rbx
	cmpq	-8(%rdx,%r11), %r9
	cmovaeq	%r11, %r8
	movq	-16(%rdi,%r14,8), %r14
	movq	%r14, %r11
	cmovbq	%rbx, %r11
	andq	%r10, %r11
	leaq	-1(%r11), %r15
	cmpq	%rsi, %r15
	jae	LBB198_10
	movq	%r11, %rbx
	shrq	$3, %rbx
	leaq	(%rbx,%rbx,2), %r14
	movq	-24(%rdi,%r14,8), %rbx
	cmpq	-8(%rdx,%r11), %r9
	cmovaeq	%r11, %r8
	movq	-16(%rdi,%r14,8), %r14
	movq	%r14, %r11
	cmovbq	%rbx, %r11
	andq	%r10, %r11
	leaq	-1(%r11), %r15
	cmpq	%rsi, %r15
	jae	LBB198_10
	movq	%r11, %rbx
	shrq	$3, %rbx
	leaq	(%rbx,%rbx,2), %r14
	movq	-24(%rdi,%r14,8), %rbx
	cmpq	-8(%rdx,%r11), %r9
	cmovaeq	%r11, %r8
	movq	-16(%rdi,%r14,8), %r14
	movq	%r14, %r11
	cmovbq	%rbx, %r11
	andq	%r10, %r11
	leaq	-1(%r11), %r15
	cmpq	%rsi, %r15
	jae	LBB198_10
	decl	%eax
	jne	LBB198_5
	movl	$5, %eax
	jmp	LBB198_15
LBB198_10:
	cmpq	%r11, %rbx
	jae	LBB198_12
	movl	$5, %eax
	cmpq	%r11, %r14
	jb	LBB198_15
LBB198_12:
	movl	$4, %eax
	testq	%r8, %r8
	je	LBB198_15
	shrq	$3, %r8
	leaq	(%r8,%r8,2), %rdx
	movl	$5, %eax
	testb	$1, -24(%rdi,%rdx,8)
	je	LBB198_15
	decl	%r8d
	movl	%r8d, (%rcx)
	xorl	%eax, %eax
LBB198_15:
	popq	%rbx
	popq	%r14
	popq	%r15
	popq	%rbp
	retq
LBB198_16:
	movq	%rsi, %rdi
	movq	%rcx, %rsi
	popq	%rbx
	popq	%r14
	popq	%r15
	popq	%rbp
	jmp	_ic_raw.search.refusal
	.cfi_endproc
	.globl	_ic_xor_append
	.p2align	4
_ic_xor_append:
	.cfi_startproc
	subq	$24, %rsp
	.cfi_def_cfa_offset 32
	movq	%rcx, %r9
	xorl	%eax, %eax
	testq	%rdi, %rdi
	sete	%al
	shll	$12, %eax
	addq	%rax, %rdi
	movabsq	$68719476728, %r8
	xorl	%ecx, %ecx
	andq	8(%rdx), %r8
	setne	%cl
	movq	$0, 8(%rsp)
	movl	$0, (%rsp)
	callq	_ic_raw.xor_calls.splice
	xorb	$1, %al
	movzbl	%al, %eax
	leal	(%rax,%rax,4), %eax
	addq	$24, %rsp
	retq
	.cfi_endproc
	.globl	_ic_xor_clear
	.p2align	4
_ic_xor_clear:
	.cfi_startproc
	pushq	%r14
	.cfi_def_cfa_offset 16
	pushq	%rbx
	.cfi_def_cfa_offset 24
	.cfi_offset %rbx, -24
	.cfi_offset %r14, -16
	movabsq	$68719476728, %rcx
	xorl	%r10d, %r10d
	testq	%rdi, %rdi
	sete	%r11b
	movq	8(%rdx), %r9
	andq	%rcx, %r9
	movq	(%rdx), %r8
	movl	$5, %eax
	andq	%rcx, %r8
	je	LBB200_13
	testq	%rsi, %rsi
	je	LBB200_15
	movb	%r11b, %r10b
	shll	$12, %r10d
	addq	%r10, %rdi
	xorl	%r11d, %r11d
	movq	%r8, %r10
	movq	%rsi, %rbx
	.p2align	4
LBB200_3:
	movq	%r10, %r14
	shrq	$3, %r14
	cmpq	%rsi, %r14
	ja	LBB200_15
	movq	-8(%rdi,%r10), %r14
	testb	$1, %r14b
	je	LBB200_15
	andq	%rcx, %r14
	cmpq	%r11, %r14
	je	LBB200_7
	xorq	%r11, %r14
	movq	%r10, %r11
	movq	%r14, %r10
	decq	%rbx
	jne	LBB200_3
LBB200_15:
	popq	%rbx
	popq	%r14
	retq
LBB200_13:
	testq	%r9, %r9
	jne	LBB200_15
LBB200_14:
	movq	$0, 8(%rdx)
	movq	$0, (%rdx)
	xorl	%eax, %eax
	popq	%rbx
	popq	%r14
	retq
LBB200_7:
	cmpq	%r10, %r9
	jne	LBB200_15
	movl	$1, %eax
	xorl	%r9d, %r9d
	.p2align	4
LBB200_9:
	movq	%r8, %r10
	shrq	$3, %r10
	cmpq	%rsi, %r10
	ja	LBB200_14
	movq	-8(%rdi,%r8), %r10
	testb	$1, %r10b
	je	LBB200_14
	movq	$0, -8(%rdi,%r8)
	cmpq	%rax, %rsi
	je	LBB200_14
	andq	%rcx, %r10
	movq	%r10, %r11
	xorq	%r9, %r11
	incq	%rax
	cmpq	%r9, %r10
	movq	%r8, %r9
	movq	%r11, %r8
	jne	LBB200_9
	jmp	LBB200_14
	.cfi_endproc
	.globl	_ic_xor_fill
	.p2align	4
_ic_xor_fill:
	.cfi_startproc
	pushq	%rbp
	.cfi_def_cfa_offset 16
	pushq	%r15
	.cfi_def_cfa_offset 24
	pushq	%r14
	.cfi_def_cfa_offset 32
	pushq	%r13
	.cfi_def_cfa_offset 40
	pushq	%r12
	.cfi_def_cfa_offset 48
	pushq	%rbx
	.cfi_def_cfa_offset 56
	pushq	%rax
	.cfi_def_cfa_offset 64
	.cfi_offset %rbx, -56
	.cfi_offset %r12, -48
	.cfi_offset %r13, -40
	.cfi_offset %r14, -32
	.cfi_offset %r15, -24
	.cfi_offset %rbp, -16
	movl	%r8d, %r10d
	xorl	%ebx, %ebx
	testq	%rdi, %rdi
	sete	%r8b
	xorl	%eax, %eax
	testl	%r10d, %r10d
	je	LBB201_32
	movb	%r8b, %bl
	shll	$12, %ebx
	leaq	(%rdi,%rbx), %r9
	movabsq	$68719476728, %r8
	movq	(%rdx), %r14
	andq	%r8, %r14
	movq	8(%rdx), %r11
	andq	%r8, %r11
	sete	%bpl
	je	LBB201_7
	movq	%r11, %rax
	shrq	$3, %rax
	cmpq	%rsi, %rax
	ja	LBB201_11
	movq	-8(%r9,%r11), %rax
	testb	$1, %al
	je	LBB201_11
	andq	%r8, %rax
	je	LBB201_9
	movq	%rax, %r8
	shrq	$3, %r8
	cmpq	%rsi, %r8
	ja	LBB201_11
	testb	$1, -8(%r9,%rax)
	jne	LBB201_10
	jmp	LBB201_11
LBB201_7:
	testq	%r14, %r14
	je	LBB201_10
	movb	$1, %bpl
	xorl	%r12d, %r12d
	jmp	LBB201_12
LBB201_9:
	cmpq	%r11, %r14
	jne	LBB201_11
LBB201_10:
	movb	$1, %r12b
	movq	%r11, (%rsp)
	jmp	LBB201_13
LBB201_11:
	xorl	%r12d, %r12d
	movb	$1, %bpl
LBB201_12:
	movq	$0, (%rsp)
LBB201_13:
	movl	%ecx, %r13d
	incq	%r13
	movl	%r10d, %r8d
	.p2align	4
LBB201_14:
	movl	%r13d, %eax
	leaq	-1(%rax), %r15
	cmpq	%rsi, %r15
	jae	LBB201_29
	movl	-8(%r9,%rax,8), %eax
	addl	%eax, %eax
	andl	$2, %eax
	jne	LBB201_32
	incq	%r13
	decl	%r8d
	jne	LBB201_14
	movl	$5, %eax
	testb	%r12b, %r12b
	je	LBB201_32
	movl	%ecx, %eax
	incl	%eax
	sete	%r8b
	cmpq	%rax, %rsi
	setb	%r15b
	orb	%r8b, %r15b
	jne	LBB201_31
	shlq	$3, %rax
	testb	$1, -8(%r9,%rax)
	jne	LBB201_31
	movq	$1, -8(%r9,%rax)
	movl	$1, %r8d
	movq	%rax, %r12
	testb	%bpl, %bpl
	movabsq	$68719476728, %r15
	jne	LBB201_22
	movq	(%rsp), %r11
	movq	-8(%r9,%r11), %r8
	andq	%r15, %r8
	xorq	%rax, %r8
	orq	$1, %r8
	movq	%r8, -8(%r9,%r11)
	orq	$1, %r11
	movq	%r11, %r8
	movq	%r14, %r12
LBB201_22:
	movq	%r8, -8(%r9,%rax)
	decl	%r10d
	je	LBB201_30
	addq	%rax, %rbx
	addq	%rbx, %rdi
	addq	$-8, %rdi
	addl	$2, %ecx
	movl	%r10d, %r8d
	xorl	%ebx, %ebx
LBB201_24:
	movl	%ecx, %r11d
	addl	%ebx, %r11d
	je	LBB201_30
	cmpq	%r11, %rsi
	jb	LBB201_30
	shlq	$3, %r11
	testb	$1, -8(%r9,%r11)
	jne	LBB201_30
	movq	$1, -8(%r9,%r11)
	movq	(%rdi,%rbx,8), %r10
	andq	%r15, %r10
	xorq	%r11, %r10
	orq	$1, %r10
	movq	%r10, (%rdi,%rbx,8)
	leaq	1(%rax), %r10
	movq	%r10, -8(%r9,%r11)
	addq	$8, %rax
	incq	%rbx
	cmpl	%ebx, %r8d
	jne	LBB201_24
	movq	%r12, %r14
	jmp	LBB201_31
LBB201_29:
	movl	$1, %eax
	jmp	LBB201_32
LBB201_30:
	movq	%r12, %r14
	movq	%rax, %r11
LBB201_31:
	movq	%r14, (%rdx)
	movq	%r11, 8(%rdx)
	xorl	%eax, %eax
LBB201_32:
	addq	$8, %rsp
	popq	%rbx
	popq	%r12
	popq	%r13
	popq	%r14
	popq	%r15
	popq	%rbp
	retq
	.cfi_endproc
	.globl	_ic_xor_insert_between
	.p2align	4
_ic_xor_insert_between:
	.cfi_startproc
	pushq	%rbp
	.cfi_def_cfa_offset 16
	pushq	%r15
	.cfi_def_cfa_offset 24
	pushq	%r14
	.cfi_def_cfa_offset 32
	pushq	%r13
	.cfi_def_cfa_offset 40
	pushq	%r12
	.cfi_def_cfa_offset 48
	pushq	%rbx
	.cfi_def_cfa_offset 56
	subq	$24, %rsp
	.cfi_def_cfa_offset 80
	.cfi_offset %rbx, -56
	.cfi_offset %r12, -48
	.cfi_offset %r13, -40
	.cfi_offset %r14, -32
	.cfi_offset %r15, -24
	.cfi_offset %rbp, -16
	movq	%r8, (%rsp)
	xorl	%eax, %eax
	testq	%rdi, %rdi
	sete	%al
	shll	$12, %eax
	addq	%rdi, %rax
	leal	1(%rcx), %r8d
	leaq	(,%r8,8), %rdi
	leal	1(%r9), %r14d
	leaq	(,%r14,8), %r10
	movabsq	$68719476728, %rbx
	movq	(%rdx), %r15
	andq	%rbx, %r15
	movq	8(%rdx), %r11
	andq	%rbx, %r11
	movl	%ecx, %ebp
	incl	%ebp
	jne	LBB202_1
	cmpq	%r10, %r15
	je	LBB202_7
	jmp	LBB202_26
LBB202_1:
	cmpq	%r8, %rsi
	jb	LBB202_26
	movq	-8(%rax,%rdi), %r13
	testb	$1, %r13b
	je	LBB202_26
	andq	%rbx, %r13
	xorq	%r10, %r13
	jne	LBB202_4
	cmpq	%rdi, %r15
	je	LBB202_7
	jmp	LBB202_26
LBB202_4:
	movq	%r13, %rbp
	shrq	$3, %rbp
	cmpq	%rsi, %rbp
	ja	LBB202_26
	testb	$1, -8(%rax,%r13)
	je	LBB202_26
LBB202_7:
	movq	(%rsp), %r12
	leal	1(%r12), %r13d
	testq	%r14, %r14
	je	LBB202_16
	cmpq	%r14, %rsi
	jb	LBB202_26
	movq	-8(%rax,%r10), %r12
	testb	$1, %r12b
	je	LBB202_26
	andq	%rbx, %r12
	xorq	%rdi, %r12
	jne	LBB202_13
	testq	%r13, %r13
	je	LBB202_26
	cmpq	%r10, %r11
	je	LBB202_18
	jmp	LBB202_26
LBB202_16:
	testq	%r13, %r13
	je	LBB202_26
	cmpq	%rdi, %r11
	je	LBB202_18
	jmp	LBB202_26
LBB202_13:
	movq	%r12, %rbp
	shrq	$3, %rbp
	cmpq	%rsi, %rbp
	ja	LBB202_26
	testq	%r13, %r13
	je	LBB202_26
	movq	-8(%rax,%r12), %r12
	andl	$1, %r12d
	je	LBB202_26
LBB202_18:
	cmpq	%r13, %rsi
	jb	LBB202_26
	shlq	$3, %r13
	testb	$1, -8(%rax,%r13)
	jne	LBB202_26
	movq	$1, -8(%rax,%r13)
	movq	%r13, %rcx
	testq	%r8, %r8
	je	LBB202_22
	movq	-8(%rax,%rdi), %rcx
	andq	%rbx, %rcx
	movq	%r13, %rsi
	xorq	%r10, %rsi
	xorq	%rcx, %rsi
	orq	$1, %rsi
	movq	%rsi, -8(%rax,%rdi)
	movq	%r15, %rcx
LBB202_22:
	movq	%r13, %rsi
	testq	%r14, %r14
	je	LBB202_24
	andq	-8(%rax,%r10), %rbx
	movq	%rdi, %rsi
	xorq	%r13, %rsi
	xorq	%rbx, %rsi
	orq	$1, %rsi
	movq	%rsi, -8(%rax,%r10)
	movq	%r11, %rsi
LBB202_24:
	xorq	%rdi, %r10
	orq	$1, %r10
	movq	%r10, -8(%rax,%r13)
	movq	%rcx, (%rdx)
	movq	%rsi, 8(%rdx)
	xorl	%eax, %eax
	jmp	LBB202_27
LBB202_26:
	movq	%rax, 8(%rsp)
	movq	%rsi, 16(%rsp)
	leaq	8(%rsp), %rdi
	movl	%ecx, %esi
	movl	%r9d, %edx
	movq	(%rsp), %rcx
	callq	_ic_raw.xor_calls.refusal_with_both
LBB202_27:
	addq	$24, %rsp
	popq	%rbx
	popq	%r12
	popq	%r13
	popq	%r14
	popq	%r15
	popq	%rbp
	retq
	.cfi_endproc
	.globl	_ic_xor_pop_back
	.p2align	4
_ic_xor_pop_back:
	.cfi_startproc
	pushq	%r14
	.cfi_def_cfa_offset 16
	pushq	%rbx
	.cfi_def_cfa_offset 24
	.cfi_offset %rbx, -24
	.cfi_offset %r14, -16
	movabsq	$68719476728, %rbx
	xorl	%r10d, %r10d
	testq	%rdi, %rdi
	sete	%r11b
	movq	8(%rdx), %r9
	andq	%rbx, %r9
	je	LBB203_1
	movq	%r9, %r8
	shrq	$3, %r8
	movl	$5, %eax
	cmpq	%rsi, %r8
	ja	LBB203_15
	movb	%r11b, %r10b
	shll	$12, %r10d
	addq	%r10, %rdi
	movq	-8(%rdi,%r9), %r10
	testb	$1, %r10b
	je	LBB203_15
	movq	(%rdx), %r11
	andq	%rbx, %r11
	andq	%rbx, %r10
	je	LBB203_10
	movq	%r10, %r14
	shrq	$3, %r14
	cmpq	%rsi, %r14
	ja	LBB203_15
	movq	-8(%rdi,%r10), %r14
	testb	$1, %r14b
	je	LBB203_15
	andq	%rbx, %r14
	xorq	%r9, %r14
	jne	LBB203_8
	cmpq	%r10, %r11
	jne	LBB203_15
	jmp	LBB203_13
LBB203_1:
	movl	$4, %eax
LBB203_15:
	popq	%rbx
	popq	%r14
	retq
LBB203_10:
	cmpq	%r9, %r11
	jne	LBB203_15
	xorl	%r11d, %r11d
	jmp	LBB203_14
LBB203_8:
	movq	%r14, %rbx
	shrq	$3, %rbx
	cmpq	%rsi, %rbx
	ja	LBB203_15
	testb	$1, -8(%rdi,%r14)
	je	LBB203_15
LBB203_13:
	orq	$1, %r14
	movq	%r14, -8(%rdi,%r10)
LBB203_14:
	movq	$0, -8(%rdi,%r9)
	movq	%r11, (%rdx)
	movq	%r10, 8(%rdx)
	decl	%r8d
	movl	%r8d, (%rcx)
	xorl	%eax, %eax
	popq	%rbx
	popq	%r14
	retq
	.cfi_endproc
	.globl	_ic_xor_pop_front
	.p2align	4
_ic_xor_pop_front:
	.cfi_startproc
	movq	%rdi, %rax
	movabsq	$68719476728, %r9
	xorl	%edi, %edi
	testq	%rax, %rax
	sete	%dil
	shll	$12, %edi
	addq	%rax, %rdi
	movq	(%rdx), %rax
	movq	%rax, %r8
	andq	%r9, %r8
	je	_ic_raw.xor_calls.pop_front_slow
	movq	%r8, %r10
	shrq	$3, %r10
	cmpq	%rsi, %r10
	ja	_ic_raw.xor_calls.pop_front_slow
	movq	-8(%rdi,%r8), %r10
	testb	$1, %r10b
	je	_ic_raw.xor_calls.pop_front_slow
	andq	%r9, %r10
	je	_ic_raw.xor_calls.pop_front_slow
	movq	%r10, %r11
	shrq	$3, %r11
	cmpq	%rsi, %r11
	ja	_ic_raw.xor_calls.pop_front_slow
	movq	-8(%rdi,%r10), %r11
	testb	$1, %r11b
	je	_ic_raw.xor_calls.pop_front_slow
	andq	%r9, %r11
	movq	%r11, %r9
	xorq	%r8, %r9
	xorq	%r8, %r11
	je	_ic_raw.xor_calls.pop_front_slow
	shrq	$3, %r9
	cmpq	%rsi, %r9
	ja	_ic_raw.xor_calls.pop_front_slow
	testb	$1, -8(%rdi,%r11)
	je	_ic_raw.xor_calls.pop_front_slow
	orq	$1, %r11
	movq	%r11, -8(%rdi,%r10)
	movq	$0, -8(%rdi,%r8)
	movq	%r10, (%rdx)
	shrq	$3, %rax
	decl	%eax
	movl	%eax, (%rcx)
	xorl	%eax, %eax
	retq
	.cfi_endproc
	.globl	_ic_xor_push_back
	.p2align	4
_ic_xor_push_back:
	.cfi_startproc
	movq	%rdi, %rax
	movabsq	$68719476728, %r9
	xorl	%edi, %edi
	testq	%rax, %rax
	sete	%dil
	shll	$12, %edi
	addq	%rax, %rdi
	movq	8(%rdx), %r8
	movq	%r8, %rax
	andq	%r9, %rax
	je	LBB205_10
	movq	%rax, %r10
	shrq	$3, %r10
	cmpq	%rsi, %r10
	ja	LBB205_10
	movq	-8(%rdi,%rax), %r10
	testb	$1, %r10b
	je	LBB205_10
	andq	%r9, %r10
	je	LBB205_10
	movq	%r10, %r11
	shrq	$3, %r11
	cmpq	%rsi, %r11
	ja	LBB205_10
	testb	$1, -8(%rdi,%r10)
	je	LBB205_10
	leal	1(%rcx), %r10d
	movl	%ecx, %r11d
	incl	%r11d
	je	LBB205_10
	cmpq	%r10, %rsi
	jb	LBB205_10
	shlq	$3, %r10
	testb	$1, -8(%rdi,%r10)
	jne	LBB205_10
	movq	(%rdx), %rcx
	andq	%r9, %rcx
	movq	$1, -8(%rdi,%r10)
	andq	-8(%rdi,%rax), %r9
	xorq	%r10, %r9
	orq	$1, %r9
	movq	%r9, -8(%rdi,%rax)
	orq	$1, %rax
	movq	%rax, -8(%rdi,%r10)
	movq	%rcx, (%rdx)
	movq	%r10, 8(%rdx)
	xorl	%eax, %eax
	retq
LBB205_10:
	xorl	%r9d, %r9d
	jmp	_ic_raw.xor_calls.put_slow
	.cfi_endproc
	.globl	_ic_xor_push_front
	.p2align	4
_ic_xor_push_front:
	.cfi_startproc
	movq	%rdi, %rax
	movabsq	$68719476728, %r8
	xorl	%edi, %edi
	testq	%rax, %rax
	sete	%dil
	shll	$12, %edi
	addq	%rax, %rdi
	movq	(%rdx), %r9
	movq	%r9, %rax
	andq	%r8, %rax
	je	LBB206_10
	movq	%rax, %r10
	shrq	$3, %r10
	cmpq	%rsi, %r10
	ja	LBB206_10
	movq	-8(%rdi,%rax), %r10
	testb	$1, %r10b
	je	LBB206_10
	andq	%r8, %r10
	je	LBB206_10
	movq	%r10, %r11
	shrq	$3, %r11
	cmpq	%rsi, %r11
	ja	LBB206_10
	testb	$1, -8(%rdi,%r10)
	je	LBB206_10
	leal	1(%rcx), %r10d
	movl	%ecx, %r11d
	incl	%r11d
	je	LBB206_10
	cmpq	%r10, %rsi
	jb	LBB206_10
	shlq	$3, %r10
	testb	$1, -8(%rdi,%r10)
	jne	LBB206_10
	movq	8(%rdx), %rcx
	andq	%r8, %rcx
	movq	$1, -8(%rdi,%r10)
	andq	-8(%rdi,%rax), %r8
	xorq	%r10, %r8
	orq	$1, %r8
	movq	%r8, -8(%rdi,%rax)
	orq	$1, %rax
	movq	%rax, -8(%rdi,%r10)
	movq	%r10, (%rdx)
	movq	%rcx, 8(%rdx)
	xorl	%eax, %eax
	retq
LBB206_10:
	xorl	%r8d, %r8d
	jmp	_ic_raw.xor_calls.put_slow
	.cfi_endproc
	.globl	_ic_xor_remove
	.p2align	4
_ic_xor_remove:
	.cfi_startproc
	pushq	%rbp
	.cfi_def_cfa_offset 16
	pushq	%r15
	.cfi_def_cfa_offset 24
	pushq	%r14
	.cfi_def_cfa_offset 32
	pushq	%r13
	.cfi_def_cfa_offset 40
	pushq	%r12
	.cfi_def_cfa_offset 48
	pushq	%rbx
	.cfi_def_cfa_offset 56
	.cfi_offset %rbx, -56
	.cfi_offset %r12, -48
	.cfi_offset %r13, -40
	.cfi_offset %r14, -32
	.cfi_offset %r15, -24
	.cfi_offset %rbp, -16
	xorl	%r10d, %r10d
	testq	%rdi, %rdi
	sete	%r11b
	leal	1(%r8), %r9d
	movl	%r8d, %ebx
	movl	$4, %eax
	incl	%ebx
	je	LBB207_24
	movb	%r11b, %r10b
	shll	$12, %r10d
	addq	%r10, %rdi
	cmpq	%r9, %rsi
	jb	LBB207_26
	shlq	$3, %r9
	movq	-8(%rdi,%r9), %rbx
	testb	$1, %bl
	je	LBB207_26
	movabsq	$68719476728, %r11
	leal	1(%rcx), %r15d
	leaq	(,%r15,8), %r10
	movq	(%rdx), %r14
	andq	%r11, %r14
	movq	8(%rdx), %rax
	andq	%r11, %rax
	testq	%r15, %r15
	je	LBB207_25
	cmpq	%r15, %rsi
	jb	LBB207_26
	movq	-8(%rdi,%r10), %r12
	testb	$1, %r12b
	je	LBB207_26
	andq	%r11, %r12
	xorq	%r9, %r12
	jne	LBB207_7
	cmpq	%r10, %r14
	je	LBB207_10
	jmp	LBB207_26
LBB207_25:
	cmpq	%r9, %r14
	je	LBB207_10
	jmp	LBB207_26
LBB207_7:
	movq	%r12, %r13
	shrq	$3, %r13
	cmpq	%rsi, %r13
	ja	LBB207_26
	testb	$1, -8(%rdi,%r12)
	je	LBB207_26
LBB207_10:
	andq	%r11, %rbx
	movq	%rbx, %r12
	xorq	%r10, %r12
	cmpq	%r10, %rbx
	jne	LBB207_11
	cmpq	%r9, %rax
	je	LBB207_18
	jmp	LBB207_26
LBB207_11:
	movq	%r12, %r13
	shrq	$3, %r13
	cmpq	%rsi, %r13
	ja	LBB207_26
	movq	-8(%rdi,%r12), %r13
	testb	$1, %r13b
	je	LBB207_26
	andq	%r11, %r13
	xorq	%r9, %r13
	jne	LBB207_15
	cmpq	%r12, %rax
	je	LBB207_18
	jmp	LBB207_26
LBB207_15:
	movq	%r13, %rbp
	shrq	$3, %rbp
	cmpq	%rsi, %rbp
	ja	LBB207_26
	testb	$1, -8(%rdi,%r13)
	je	LBB207_26
LBB207_18:
	movq	%r12, %rcx
	testq	%r15, %r15
	je	LBB207_20
	movq	-8(%rdi,%r10), %rcx
	andq	%r11, %rcx
	xorq	%r9, %rcx
	xorq	%r12, %rcx
	orq	$1, %rcx
	movq	%rcx, -8(%rdi,%r10)
	movq	%r14, %rcx
LBB207_20:
	cmpq	%r10, %rbx
	jne	LBB207_22
	movq	%r10, %rax
	jmp	LBB207_23
LBB207_26:
	movl	%r8d, %edx
	popq	%rbx
	popq	%r12
	popq	%r13
	popq	%r14
	popq	%r15
	popq	%rbp
	jmp	_ic_raw.table.RawTable.refusal_at_both.feecb86c9dd45d96
LBB207_22:
	andq	-8(%rdi,%r12), %r11
	xorq	%r9, %r10
	xorq	%r11, %r10
	orq	$1, %r10
	movq	%r10, -8(%rdi,%r12)
LBB207_23:
	movq	$0, -8(%rdi,%r9)
	movq	%rcx, (%rdx)
	movq	%rax, 8(%rdx)
	xorl	%eax, %eax
LBB207_24:
	popq	%rbx
	popq	%r12
	popq	%r13
	popq	%r14
	popq	%r15
	popq	%rbp
	retq
	.cfi_endproc
	.globl	_ic_xor_replace
	.p2align	4
_ic_xor_replace:
	.cfi_startproc
	pushq	%rbp
	.cfi_def_cfa_offset 16
	pushq	%r15
	.cfi_def_cfa_offset 24
	pushq	%r14
	.cfi_def_cfa_offset 32
	pushq	%r13
	.cfi_def_cfa_offset 40
	pushq	%r12
	.cfi_def_cfa_offset 48
	pushq	%rbx
	.cfi_def_cfa_offset 56
	subq	$40, %rsp
	.cfi_def_cfa_offset 96
	.cfi_offset %rbx, -56
	.cfi_offset %r12, -48
	.cfi_offset %r13, -40
	.cfi_offset %r14, -32
	.cfi_offset %r15, -24
	.cfi_offset %rbp, -16
	xorl	%r14d, %r14d
	testq	%rdi, %rdi
	sete	%r11b
	leal	1(%r8), %r10d
	movl	%r8d, %ebx
	movl	$4, %eax
	incl	%ebx
	je	LBB208_30
	movq	%r9, 16(%rsp)
	movb	%r11b, %r14b
	shll	$12, %r14d
	addq	%r14, %rdi
	movq	%rdi, 24(%rsp)
	movq	%rsi, 32(%rsp)
	cmpq	%r10, %rsi
	jb	LBB208_29
	shlq	$3, %r10
	movq	-8(%rdi,%r10), %rax
	testb	$1, %al
	je	LBB208_29
	movabsq	$68719476728, %rbx
	movq	(%rdx), %r14
	andq	%rbx, %r14
	movq	8(%rdx), %r9
	andq	%rbx, %r9
	movq	%r9, 8(%rsp)
	leal	1(%rcx), %r12d
	leaq	(,%r12,8), %r15
	testq	%r12, %r12
	je	LBB208_28
	cmpq	%r12, %rsi
	jb	LBB208_29
	movq	-8(%rdi,%r15), %r11
	testb	$1, %r11b
	je	LBB208_29
	andq	%rbx, %r11
	xorq	%r10, %r11
	jne	LBB208_7
	cmpq	%r15, %r14
	je	LBB208_10
	jmp	LBB208_29
LBB208_28:
	cmpq	%r10, %r14
	je	LBB208_10
	jmp	LBB208_29
LBB208_7:
	movq	%r11, %r13
	shrq	$3, %r13
	cmpq	%rsi, %r13
	ja	LBB208_29
	testb	$1, -8(%rdi,%r11)
	je	LBB208_29
LBB208_10:
	movq	16(%rsp), %r9
	leal	1(%r9), %r13d
	andq	%rbx, %rax
	movq	%rax, %rbp
	xorq	%r15, %rbp
	cmpq	%r15, %rax
	jne	LBB208_11
	testq	%r13, %r13
	je	LBB208_29
	cmpq	%r10, 8(%rsp)
	je	LBB208_21
	jmp	LBB208_29
LBB208_11:
	movq	%rbp, %r11
	shrq	$3, %r11
	cmpq	%rsi, %r11
	ja	LBB208_29
	movq	-8(%rdi,%rbp), %r9
	testb	$1, %r9b
	je	LBB208_29
	andq	%rbx, %r9
	xorq	%r10, %r9
	jne	LBB208_16
	testq	%r13, %r13
	je	LBB208_29
	cmpq	%rbp, 8(%rsp)
	je	LBB208_21
	jmp	LBB208_29
LBB208_16:
	movq	%r9, %r11
	shrq	$3, %r11
	cmpq	%rsi, %r11
	ja	LBB208_29
	testq	%r13, %r13
	je	LBB208_29
	movq	-8(%rdi,%r9), %r9
	andl	$1, %r9d
	je	LBB208_29
LBB208_21:
	cmpq	%r13, %rsi
	jb	LBB208_29
	shlq	$3, %r13
	testb	$1, -8(%rdi,%r13)
	jne	LBB208_29
	movq	$1, -8(%rdi,%r13)
	movq	%r13, %rcx
	testq	%r12, %r12
	je	LBB208_25
	movq	-8(%rdi,%r15), %rcx
	andq	%rbx, %rcx
	movq	%r10, %rsi
	xorq	%r13, %rsi
	xorq	%rcx, %rsi
	orq	$1, %rsi
	movq	%rsi, -8(%rdi,%r15)
	movq	%r14, %rcx
LBB208_25:
	movq	%r13, %rsi
	cmpq	%r15, %rax
	je	LBB208_27
	andq	-8(%rdi,%rbp), %rbx
	movq	%r10, %rsi
	xorq	%r13, %rsi
	xorq	%rbx, %rsi
	orq	$1, %rsi
	movq	%rsi, -8(%rdi,%rbp)
	movq	8(%rsp), %rsi
LBB208_27:
	orq	$1, %rax
	movq	%rax, -8(%rdi,%r13)
	movq	$0, -8(%rdi,%r10)
	movq	%rcx, (%rdx)
	movq	%rsi, 8(%rdx)
	xorl	%eax, %eax
	jmp	LBB208_30
LBB208_29:
	leaq	24(%rsp), %rdi
	movl	%r8d, %esi
	movl	%ecx, %edx
	movq	16(%rsp), %rcx
	callq	_ic_raw.xor_calls.refusal_with_both
LBB208_30:
	addq	$40, %rsp
	popq	%rbx
	popq	%r12
	popq	%r13
	popq	%r14
	popq	%r15
	popq	%rbp
	retq
	.cfi_endproc
	.globl	_ic_xor_reverse
	.p2align	4
_ic_xor_reverse:
	.cfi_startproc
	movq	(%rdi), %rax
	movq	8(%rdi), %rcx
	movq	%rcx, (%rdi)
	movq	%rax, 8(%rdi)
	xorl	%eax, %eax
	retq
	.cfi_endproc
	.globl	_ic_xor_splice_between
	.p2align	4
_ic_xor_splice_between:
	.cfi_startproc
	pushq	%r15
	.cfi_def_cfa_offset 16
	pushq	%r14
	.cfi_def_cfa_offset 24
	pushq	%r12
	.cfi_def_cfa_offset 32
	pushq	%rbx
	.cfi_def_cfa_offset 40
	subq	$24, %rsp
	.cfi_def_cfa_offset 64
	.cfi_offset %rbx, -40
	.cfi_offset %r12, -32
	.cfi_offset %r14, -24
	.cfi_offset %r15, -16
	movl	%r9d, %ebx
	movq	%r8, %r9
	movl	%ecx, %r14d
	movq	%rsi, %r15
	xorl	%r12d, %r12d
	testq	%rdi, %rdi
	sete	%r12b
	shll	$12, %r12d
	addq	%rdi, %r12
	leal	1(%r14), %eax
	leaq	(,%rax,8), %r8
	xorl	%ecx, %ecx
	testl	%eax, %eax
	setne	%cl
	leal	1(%rbx), %eax
	leaq	(,%rax,8), %rsi
	xorl	%edi, %edi
	testl	%eax, %eax
	setne	%dil
	movq	%rsi, 8(%rsp)
	movl	%edi, (%rsp)
	movq	%r12, %rdi
	movq	%r15, %rsi
	callq	_ic_raw.xor_calls.splice
	testb	%al, %al
	je	LBB210_2
	xorl	%eax, %eax
	addq	$24, %rsp
	popq	%rbx
	popq	%r12
	popq	%r14
	popq	%r15
	retq
LBB210_2:
	movq	%r12, %rdi
	movq	%r15, %rsi
	movl	%r14d, %edx
	movl	%ebx, %ecx
	addq	$24, %rsp
	popq	%rbx
	popq	%r12
	popq	%r14
	popq	%r15
	jmp	_ic_raw.table.RawTable.refusal_at_both.feecb86c9dd45d96
	.cfi_endproc
	.globl	_ic_xor_split_between
	.p2align	4
_ic_xor_split_between:
	.cfi_startproc
	pushq	%rbp
	.cfi_def_cfa_offset 16
	pushq	%r15
	.cfi_def_cfa_offset 24
	pushq	%r14
	.cfi_def_cfa_offset 32
	pushq	%r13
	.cfi_def_cfa_offset 40
	pushq	%r12
	.cfi_def_cfa_offset 48
	pushq	%rbx
	.cfi_def_cfa_offset 56
	.cfi_offset %rbx, -56
	.cfi_offset %r12, -48
	.cfi_offset %r13, -40
	.cfi_offset %r14, -32
	.cfi_offset %r15, -24
	.cfi_offset %rbp, -16
	movq	%rdi, %rax
	movabsq	$68719476728, %r10
	xorl	%edi, %edi
	testq	%rax, %rax
	sete	%dil
	shll	$12, %edi
	addq	%rax, %rdi
	testq	%r10, (%r9)
	jne	LBB211_23
	testq	%r10, 8(%r9)
	jne	LBB211_23
	movq	(%rdx), %rax
	andq	%r10, %rax
	movq	8(%rdx), %r11
	andq	%r10, %r11
	leal	1(%rcx), %r12d
	leaq	(,%r12,8), %rbx
	leal	1(%r8), %r15d
	leaq	(,%r15,8), %r14
	testq	%r12, %r12
	je	LBB211_22
	cmpq	%r12, %rsi
	jb	LBB211_23
	movq	-8(%rdi,%rbx), %r13
	testb	$1, %r13b
	je	LBB211_23
	andq	%r10, %r13
	xorq	%r14, %r13
	jne	LBB211_6
	cmpq	%rbx, %rax
	je	LBB211_9
	jmp	LBB211_23
LBB211_22:
	cmpq	%r14, %rax
	je	LBB211_9
	jmp	LBB211_23
LBB211_6:
	movq	%r13, %rbp
	shrq	$3, %rbp
	cmpq	%rsi, %rbp
	ja	LBB211_23
	testb	$1, -8(%rdi,%r13)
	je	LBB211_23
LBB211_9:
	testq	%r15, %r15
	je	LBB211_16
	cmpq	%r15, %rsi
	jb	LBB211_23
	movq	-8(%rdi,%r14), %r13
	testb	$1, %r13b
	je	LBB211_23
	andq	%r10, %r13
	xorq	%rbx, %r13
	jne	LBB211_14
	cmpq	%r14, %r11
	je	LBB211_17
	jmp	LBB211_23
LBB211_16:
	cmpq	%rbx, %r11
	je	LBB211_17
	jmp	LBB211_23
LBB211_14:
	movq	%r13, %rbp
	shrq	$3, %rbp
	cmpq	%rsi, %rbp
	ja	LBB211_23
	testb	$1, -8(%rdi,%r13)
	je	LBB211_23
LBB211_17:
	testq	%r12, %r12
	je	LBB211_18
	movq	-8(%rdi,%rbx), %rcx
	andq	%r10, %rcx
	xorq	%r14, %rcx
	orq	$1, %rcx
	movq	%rcx, -8(%rdi,%rbx)
	testq	%r15, %r15
	je	LBB211_21
LBB211_24:
	andq	-8(%rdi,%r14), %r10
	xorq	%rbx, %r10
	orq	$1, %r10
	movq	%r10, -8(%rdi,%r14)
	jmp	LBB211_25
LBB211_23:
	movl	%ecx, %edx
	movl	%r8d, %ecx
	popq	%rbx
	popq	%r12
	popq	%r13
	popq	%r14
	popq	%r15
	popq	%rbp
	jmp	_ic_raw.table.RawTable.refusal_at_both.feecb86c9dd45d96
LBB211_18:
	xorl	%eax, %eax
	testq	%r15, %r15
	jne	LBB211_24
LBB211_21:
	xorl	%r14d, %r14d
	xorl	%r11d, %r11d
LBB211_25:
	movq	%rax, (%rdx)
	movq	%rbx, 8(%rdx)
	movq	%r14, (%r9)
	movq	%r11, 8(%r9)
	xorl	%eax, %eax
	popq	%rbx
	popq	%r12
	popq	%r13
	popq	%r14
	popq	%r15
	popq	%rbp
	retq
	.cfi_endproc
.subsections_via_symbols
