/* Lists, rings, hash tables and a red-black tree over tables of links, with checks, sorts and merges: the calls of ic.h, for thumbv6m.
   the module of x86_64-linux, for thumbv6m-none-eabi
   Licensed under Apache 2.0 or MIT. Made by tools/build-library: do not edit. */
	.syntax	unified
	.code	16
	.globl	ic_version_0_1
ic_version_0_1 = 1
	.section	.text.unlikely.ic_raw.table.refusal_at_end.feecb86c9dd45d96,"ax",%progbits
	.p2align	1
	.type	ic_raw.table.refusal_at_end.feecb86c9dd45d96,%function
	.code	16
	.thumb_func
ic_raw.table.refusal_at_end.feecb86c9dd45d96:
	.cfi_sections .debug_frame
	.cfi_startproc
	push	{r7, lr}
	.cfi_def_cfa_offset 8
	.cfi_offset lr, -4
	.cfi_offset r7, -8
	sub	sp, #16
	.cfi_def_cfa_offset 24
	str	r3, [sp, #12]
	str	r2, [sp, #8]
	str	r0, [sp]
	movs	r0, #0
	str	r0, [sp, #4]
	mvns	r1, r0
	mov	r0, sp
	ldr	r2, [sp, #24]
	bl	ic_raw.table.RawTable.refusal.feecb86c9dd45d96
	add	sp, #16
	pop	{r7, pc}
.Lfunc_end0:
	.size	ic_raw.table.refusal_at_end.feecb86c9dd45d96, .Lfunc_end0-ic_raw.table.refusal_at_end.feecb86c9dd45d96
	.cfi_endproc
	.section	.text.unlikely.ic_raw.table.RawTable.refusal.feecb86c9dd45d96,"ax",%progbits
	.p2align	1
	.type	ic_raw.table.RawTable.refusal.feecb86c9dd45d96,%function
	.code	16
	.thumb_func
ic_raw.table.RawTable.refusal.feecb86c9dd45d96:
	.cfi_startproc
	push	{r4, r5, r7, lr}
	.cfi_def_cfa_offset 16
	.cfi_offset lr, -4
	.cfi_offset r7, -8
	.cfi_offset r5, -12
	.cfi_offset r4, -16
	adds	r1, r1, #1
	blo	.LBB1_5
.LBB1_1:
	adds	r3, r2, #1
	movs	r1, #1
	cmp	r3, r2
	blo	.LBB1_9
	ldr	r2, [r0, #8]
	ldr	r4, [r0, #12]
	movs	r5, #0
	subs	r2, r2, r3
	sbcs	r4, r5
	blo	.LBB1_9
	lsls	r1, r3, #3
	ldr	r0, [r0]
	adds	r0, r0, r1
	subs	r0, #8
	ldrb	r0, [r0]
	lsls	r0, r0, #31
	beq	.LBB1_10
	movs	r0, #2
	pop	{r4, r5, r7, pc}
.LBB1_5:
	ldr	r3, [r0, #8]
	ldr	r4, [r0, #12]
	movs	r5, #0
	subs	r3, r3, r1
	sbcs	r4, r5
	bhs	.LBB1_7
	movs	r0, #1
	pop	{r4, r5, r7, pc}
.LBB1_7:
	lsls	r1, r1, #3
	ldr	r3, [r0]
	adds	r1, r3, r1
	subs	r1, #8
	ldrb	r1, [r1]
	lsls	r1, r1, #31
	bne	.LBB1_1
	movs	r1, #3
.LBB1_9:
	mov	r0, r1
	pop	{r4, r5, r7, pc}
.LBB1_10:
	movs	r0, #5
	pop	{r4, r5, r7, pc}
.Lfunc_end1:
	.size	ic_raw.table.RawTable.refusal.feecb86c9dd45d96, .Lfunc_end1-ic_raw.table.RawTable.refusal.feecb86c9dd45d96
	.cfi_endproc
	.section	.text.unlikely.ic_raw.table.RawTable.refusal_of.feecb86c9dd45d96,"ax",%progbits
	.p2align	1
	.type	ic_raw.table.RawTable.refusal_of.feecb86c9dd45d96,%function
	.code	16
	.thumb_func
ic_raw.table.RawTable.refusal_of.feecb86c9dd45d96:
	.cfi_startproc
	push	{r4, r5, r6, lr}
	.cfi_def_cfa_offset 16
	.cfi_offset lr, -4
	.cfi_offset r6, -8
	.cfi_offset r5, -12
	.cfi_offset r4, -16
	ldr	r4, [sp, #20]
	lsls	r5, r4, #29
	ldr	r1, [sp, #16]
	lsrs	r6, r1, #3
	adds	r5, r6, r5
	lsrs	r4, r4, #3
	subs	r2, r2, r5
	sbcs	r3, r4
	bhs	.LBB2_2
	movs	r0, #1
	pop	{r4, r5, r6, pc}
.LBB2_2:
	adds	r0, r0, r1
	subs	r0, #8
	ldrb	r0, [r0]
	lsls	r0, r0, #31
	beq	.LBB2_4
	movs	r0, #5
	pop	{r4, r5, r6, pc}
.LBB2_4:
	movs	r0, #3
	pop	{r4, r5, r6, pc}
.Lfunc_end2:
	.size	ic_raw.table.RawTable.refusal_of.feecb86c9dd45d96, .Lfunc_end2-ic_raw.table.RawTable.refusal_of.feecb86c9dd45d96
	.cfi_endproc
	.section	.text.unlikely.ic_raw.list_calls.splice_slow.55ebd757a04f39fd,"ax",%progbits
	.p2align	2
	.type	ic_raw.list_calls.splice_slow.55ebd757a04f39fd,%function
	.code	16
	.thumb_func
ic_raw.list_calls.splice_slow.55ebd757a04f39fd:
	.cfi_startproc
	push	{r4, r5, r6, r7, lr}
	.cfi_def_cfa_offset 20
	.cfi_offset lr, -4
	.cfi_offset r7, -8
	.cfi_offset r6, -12
	.cfi_offset r5, -16
	.cfi_offset r4, -20
	sub	sp, #84
	.cfi_def_cfa_offset 104
	str	r3, [sp, #52]
	mov	r7, r2
	str	r0, [sp, #76]
	ldr	r0, [sp, #108]
	str	r0, [sp, #8]
	adds	r4, r0, #1
	subs	r0, r4, #1
	mov	r1, r4
	sbcs	r1, r0
	str	r1, [sp, #36]
	ldr	r0, [sp, #112]
	ldr	r1, [r0]
	str	r1, [sp, #32]
	ldr	r1, [r0, #4]
	str	r1, [sp, #80]
	ldr	r1, [r0, #8]
	str	r1, [sp, #68]
	str	r0, [sp, #16]
	ldr	r0, [r0, #12]
	str	r0, [sp, #56]
	movs	r6, #15
	movs	r0, #7
	str	r0, [sp, #20]
	mvns	r5, r0
	ldr	r0, [sp, #104]
	ldm	r0!, {r1, r2, r3}
	subs	r0, #12
	str	r0, [sp, #12]
	ldr	r0, [r0, #12]
	ands	r0, r6
	str	r0, [sp, #44]
	ands	r3, r5
	str	r3, [sp, #48]
	str	r6, [sp, #28]
	ands	r2, r6
	str	r2, [sp, #60]
	str	r5, [sp, #24]
	ands	r1, r5
	str	r1, [sp, #64]
	lsrs	r5, r4, #29
	lsls	r0, r4, #3
	str	r0, [sp, #72]
	ldr	r2, [sp, #116]
	cmp	r4, #0
	str	r7, [sp, #40]
	beq	.LBB3_10
	ldr	r3, .LCPI3_0
	cmp	r7, r3
	mov	r1, r7
	blo	.LBB3_3
	mov	r1, r3
.LBB3_3:
	ldr	r0, [sp, #52]
	cmp	r0, #0
	ldr	r7, [sp, #20]
	beq	.LBB3_5
	mov	r1, r3
.LBB3_5:
	movs	r6, #0
	subs	r3, r1, r4
	mov	r3, r6
	sbcs	r3, r6
	bhs	.LBB3_6
	b	.LBB3_49
.LBB3_6:
	ldr	r0, [sp, #76]
	ldr	r3, [sp, #72]
	adds	r4, r0, r3
	mov	r3, r4
	subs	r3, #8
	ldr	r3, [r3]
	mov	r0, r3
	lsls	r3, r3, #31
	bne	.LBB3_7
	b	.LBB3_49
.LBB3_7:
	lsls	r2, r2, #31
	beq	.LBB3_19
	subs	r2, r4, #4
	ldr	r4, [r2]
	bics	r4, r7
	beq	.LBB3_29
	movs	r2, #0
	b	.LBB3_17
.LBB3_10:
	lsls	r1, r2, #31
	beq	.LBB3_20
	ldr	r1, [sp, #48]
	ldr	r2, [sp, #44]
	orrs	r1, r2
	beq	.LBB3_29
	ldr	r2, .LCPI3_0
	ldr	r1, [sp, #40]
	cmp	r1, r2
	blo	.LBB3_14
	mov	r1, r2
.LBB3_14:
	ldr	r0, [sp, #52]
	cmp	r0, #0
	beq	.LBB3_16
	mov	r1, r2
.LBB3_16:
	ldr	r4, [sp, #48]
	ldr	r2, [sp, #44]
.LBB3_17:
	lsrs	r3, r4, #3
	lsls	r6, r2, #29
	adds	r3, r3, r6
	lsrs	r2, r2, #3
	movs	r6, #0
	subs	r1, r1, r3
	sbcs	r6, r2
	bhs	.LBB3_18
	b	.LBB3_49
.LBB3_18:
	movs	r0, #1
	ldr	r6, [sp, #72]
	mov	r1, r6
	str	r0, [sp, #4]
	orrs	r1, r0
	ldr	r0, [sp, #76]
	adds	r2, r0, r4
	subs	r2, #8
	ldr	r2, [r2]
	movs	r3, #6
	bics	r2, r3
	eors	r2, r1
	orrs	r2, r5
	str	r6, [sp, #20]
	str	r4, [sp, #72]
	ldr	r6, [sp, #36]
	beq	.LBB3_33
	b	.LBB3_49
.LBB3_19:
	bics	r0, r7
	bne	.LBB3_26
	b	.LBB3_31
.LBB3_20:
	ldr	r1, [sp, #64]
	ldr	r2, [sp, #60]
	orrs	r1, r2
	beq	.LBB3_30
	ldr	r2, .LCPI3_0
	ldr	r1, [sp, #40]
	cmp	r1, r2
	blo	.LBB3_23
	mov	r1, r2
.LBB3_23:
	ldr	r0, [sp, #52]
	cmp	r0, #0
	ldr	r7, [sp, #20]
	beq	.LBB3_25
	mov	r1, r2
.LBB3_25:
	ldr	r0, [sp, #64]
	ldr	r6, [sp, #60]
.LBB3_26:
	str	r0, [sp, #20]
	lsrs	r2, r0, #3
	lsls	r3, r6, #29
	adds	r2, r2, r3
	lsrs	r3, r6, #3
	movs	r4, #0
	subs	r1, r1, r2
	mov	r1, r4
	sbcs	r1, r3
	bhs	.LBB3_27
	b	.LBB3_49
.LBB3_27:
	ldr	r0, [sp, #76]
	ldr	r1, [sp, #20]
	adds	r1, r0, r1
	mov	r2, r1
	subs	r2, #8
	ldrb	r2, [r2]
	lsls	r2, r2, #31
	bne	.LBB3_28
	b	.LBB3_49
.LBB3_28:
	subs	r1, r1, #4
	ldr	r2, [r1]
	bics	r2, r7
	movs	r6, #1
	b	.LBB3_32
.LBB3_29:
	ldr	r1, [sp, #64]
	ldr	r0, [sp, #72]
	eors	r0, r1
	ldr	r2, [sp, #60]
	eors	r5, r2
	orrs	r5, r0
	movs	r0, #0
	cmp	r5, #0
	str	r1, [sp, #20]
	str	r0, [sp, #72]
	str	r0, [sp, #4]
	ldr	r6, [sp, #36]
	beq	.LBB3_33
	b	.LBB3_49
.LBB3_30:
	movs	r6, #0
.LBB3_31:
	str	r6, [sp, #20]
	ldr	r2, [sp, #48]
	ldr	r4, [sp, #44]
.LBB3_32:
	ldr	r0, [sp, #72]
	eors	r2, r0
	eors	r4, r5
	orrs	r4, r2
	ldr	r0, [sp, #36]
	str	r0, [sp, #4]
	bne	.LBB3_49
.LBB3_33:
	mov	r5, r6
	ldr	r4, [sp, #56]
	ldr	r0, [sp, #28]
	ands	r4, r0
	ldr	r2, [sp, #68]
	ldr	r1, [sp, #24]
	ands	r2, r1
	ldr	r6, [sp, #80]
	ands	r6, r0
	ldr	r7, [sp, #32]
	ands	r7, r1
	mov	r0, r2
	orrs	r0, r4
	beq	.LBB3_48
	str	r6, [sp, #80]
	ldr	r0, .LCPI3_0
	ldr	r1, [sp, #40]
	cmp	r1, r0
	blo	.LBB3_36
	mov	r1, r0
.LBB3_36:
	ldr	r3, [sp, #52]
	cmp	r3, #0
	beq	.LBB3_38
	mov	r1, r0
.LBB3_38:
	str	r2, [sp, #68]
	lsrs	r0, r2, #3
	lsls	r2, r4, #29
	adds	r0, r0, r2
	str	r4, [sp, #56]
	lsrs	r3, r4, #3
	movs	r2, #0
	subs	r0, r1, r0
	mov	r0, r2
	sbcs	r0, r3
	blo	.LBB3_49
	mov	r0, r7
	ldr	r3, [sp, #80]
	orrs	r0, r3
	beq	.LBB3_49
	ldr	r0, [sp, #76]
	ldr	r3, [sp, #68]
	adds	r0, r0, r3
	subs	r0, #8
	ldr	r3, [r0]
	movs	r4, #6
	bics	r3, r4
	cmp	r3, #1
	bne	.LBB3_49
	lsrs	r3, r7, #3
	ldr	r6, [sp, #80]
	lsls	r4, r6, #29
	adds	r3, r3, r4
	lsrs	r4, r6, #3
	subs	r1, r1, r3
	sbcs	r2, r4
	blo	.LBB3_49
	ldr	r1, [sp, #76]
	adds	r1, r1, r7
	mov	r2, r1
	subs	r2, #8
	ldrb	r2, [r2]
	lsls	r2, r2, #31
	beq	.LBB3_49
	ldr	r2, [sp, #64]
	eors	r2, r7
	ldr	r3, [sp, #60]
	ldr	r4, [sp, #80]
	eors	r3, r4
	orrs	r3, r2
	beq	.LBB3_49
	subs	r1, r1, #4
	ldr	r2, [r1]
	cmp	r2, #7
	bhi	.LBB3_49
	mov	r6, r5
	ldr	r5, [sp, #4]
	cmp	r5, #0
	beq	.LBB3_50
	movs	r2, #1
	orrs	r7, r2
	ldr	r2, [sp, #76]
	ldr	r3, [sp, #72]
	adds	r2, r2, r3
	subs	r2, #8
	str	r7, [r2]
	ldr	r4, [sp, #20]
	cmp	r6, #0
	ldr	r7, [sp, #56]
	beq	.LBB3_51
.LBB3_47:
	ldr	r2, [sp, #76]
	adds	r2, r2, r4
	subs	r2, r2, #4
	ldr	r3, [sp, #68]
	str	r3, [r2]
	cmp	r5, #0
	beq	.LBB3_52
	b	.LBB3_53
.LBB3_48:
	orrs	r7, r6
	beq	.LBB3_57
.LBB3_49:
	ldr	r0, [sp, #8]
	str	r0, [sp]
	ldr	r0, [sp, #76]
	ldr	r2, [sp, #40]
	ldr	r3, [sp, #52]
	bl	ic_raw.table.RawTable.refusal_at.05a19227735374d3
	mov	r4, r0
	mov	r0, r4
	add	sp, #84
	pop	{r4, r5, r6, r7, pc}
.LBB3_50:
	str	r7, [sp, #64]
	ldr	r2, [sp, #80]
	str	r2, [sp, #60]
	ldr	r4, [sp, #20]
	cmp	r6, #0
	ldr	r7, [sp, #56]
	bne	.LBB3_47
.LBB3_51:
	ldr	r2, [sp, #68]
	str	r2, [sp, #48]
	str	r7, [sp, #44]
	cmp	r5, #0
	bne	.LBB3_53
.LBB3_52:
	str	r5, [sp, #72]
.LBB3_53:
	ldr	r2, [sp, #72]
	str	r2, [r1]
	cmp	r6, #0
	beq	.LBB3_55
	adds	r1, r4, #1
	b	.LBB3_56
.LBB3_55:
	movs	r1, #1
.LBB3_56:
	str	r1, [r0]
.LBB3_57:
	movs	r4, #0
	ldr	r3, [sp, #12]
	strb	r4, [r3, #15]
	strb	r4, [r3, #14]
	strb	r4, [r3, #13]
	ldr	r2, [sp, #48]
	strb	r2, [r3, #8]
	strb	r4, [r3, #7]
	strb	r4, [r3, #6]
	strb	r4, [r3, #5]
	ldr	r1, [sp, #64]
	strb	r1, [r3]
	ldr	r0, [sp, #44]
	strb	r0, [r3, #12]
	lsrs	r0, r2, #24
	strb	r0, [r3, #11]
	lsrs	r0, r2, #16
	strb	r0, [r3, #10]
	lsrs	r0, r2, #8
	strb	r0, [r3, #9]
	ldr	r0, [sp, #60]
	strb	r0, [r3, #4]
	lsrs	r0, r1, #24
	strb	r0, [r3, #3]
	lsrs	r0, r1, #16
	strb	r0, [r3, #2]
	lsrs	r0, r1, #8
	strb	r0, [r3, #1]
	str	r4, [sp]
	movs	r2, #16
	ldr	r0, [sp, #16]
	mov	r1, r4
	mov	r3, r4
	bl	ic.clear
	mov	r0, r4
	add	sp, #84
	pop	{r4, r5, r6, r7, pc}
	.p2align	2
.LCPI3_0:
	.long	536870911
.Lfunc_end3:
	.size	ic_raw.list_calls.splice_slow.55ebd757a04f39fd, .Lfunc_end3-ic_raw.list_calls.splice_slow.55ebd757a04f39fd
	.cfi_endproc
	.section	.text.unlikely.ic_raw.table.RawTable.refusal_at.05a19227735374d3,"ax",%progbits
	.p2align	2
	.type	ic_raw.table.RawTable.refusal_at.05a19227735374d3,%function
	.code	16
	.thumb_func
ic_raw.table.RawTable.refusal_at.05a19227735374d3:
	.cfi_startproc
	push	{r4, lr}
	.cfi_def_cfa_offset 8
	.cfi_offset lr, -4
	.cfi_offset r4, -8
	ldr	r1, [sp, #8]
	adds	r1, r1, #1
	blo	.LBB4_2
.LBB4_1:
	movs	r0, #5
	pop	{r4, pc}
.LBB4_2:
	ldr	r4, .LCPI4_0
	cmp	r2, r4
	bhs	.LBB4_6
	cmp	r3, #0
	bne	.LBB4_7
.LBB4_4:
	movs	r3, #0
	subs	r2, r2, r1
	sbcs	r3, r3
	bhs	.LBB4_8
.LBB4_5:
	movs	r0, #1
	pop	{r4, pc}
.LBB4_6:
	mov	r2, r4
	cmp	r3, #0
	beq	.LBB4_4
.LBB4_7:
	mov	r2, r4
	movs	r3, #0
	subs	r2, r2, r1
	sbcs	r3, r3
	blo	.LBB4_5
.LBB4_8:
	lsls	r1, r1, #3
	adds	r0, r0, r1
	subs	r0, #8
	ldrb	r0, [r0]
	lsls	r0, r0, #31
	bne	.LBB4_1
	movs	r0, #3
	pop	{r4, pc}
	.p2align	2
.LCPI4_0:
	.long	536870911
.Lfunc_end4:
	.size	ic_raw.table.RawTable.refusal_at.05a19227735374d3, .Lfunc_end4-ic_raw.table.RawTable.refusal_at.05a19227735374d3
	.cfi_endproc
	.section	.text.unlikely.ic_raw.table.RawTable.refusal.05a19227735374d3,"ax",%progbits
	.p2align	2
	.type	ic_raw.table.RawTable.refusal.05a19227735374d3,%function
	.code	16
	.thumb_func
ic_raw.table.RawTable.refusal.05a19227735374d3:
	.cfi_startproc
	push	{r4, r5, r7, lr}
	.cfi_def_cfa_offset 16
	.cfi_offset lr, -4
	.cfi_offset r7, -8
	.cfi_offset r5, -12
	.cfi_offset r4, -16
	ldr	r1, [sp, #16]
	adds	r1, r1, #1
	blo	.LBB5_6
.LBB5_1:
	ldr	r5, [sp, #20]
	adds	r4, r5, #1
	movs	r1, #1
	cmp	r4, r5
	blo	.LBB5_5
	ldr	r5, .LCPI5_0
	cmp	r2, r5
	bhs	.LBB5_14
	cmp	r3, #0
	bne	.LBB5_15
.LBB5_4:
	movs	r3, #0
	subs	r2, r2, r4
	sbcs	r3, r3
	bhs	.LBB5_16
.LBB5_5:
	mov	r0, r1
	pop	{r4, r5, r7, pc}
.LBB5_6:
	ldr	r4, .LCPI5_0
	cmp	r2, r4
	mov	r5, r2
	bhs	.LBB5_10
	cmp	r3, #0
	bne	.LBB5_11
.LBB5_8:
	movs	r4, #0
	subs	r5, r5, r1
	sbcs	r4, r4
	bhs	.LBB5_12
.LBB5_9:
	movs	r0, #1
	pop	{r4, r5, r7, pc}
.LBB5_10:
	mov	r5, r4
	cmp	r3, #0
	beq	.LBB5_8
.LBB5_11:
	mov	r5, r4
	movs	r4, #0
	subs	r5, r5, r1
	sbcs	r4, r4
	blo	.LBB5_9
.LBB5_12:
	lsls	r1, r1, #3
	adds	r1, r0, r1
	subs	r1, #8
	ldrb	r1, [r1]
	lsls	r1, r1, #31
	bne	.LBB5_1
	movs	r1, #3
	mov	r0, r1
	pop	{r4, r5, r7, pc}
.LBB5_14:
	mov	r2, r5
	cmp	r3, #0
	beq	.LBB5_4
.LBB5_15:
	mov	r2, r5
	movs	r3, #0
	subs	r2, r2, r4
	sbcs	r3, r3
	blo	.LBB5_5
.LBB5_16:
	lsls	r1, r4, #3
	adds	r0, r0, r1
	subs	r0, #8
	ldrb	r0, [r0]
	lsls	r0, r0, #31
	beq	.LBB5_18
	movs	r0, #2
	pop	{r4, r5, r7, pc}
.LBB5_18:
	movs	r0, #5
	pop	{r4, r5, r7, pc}
	.p2align	2
.LCPI5_0:
	.long	536870911
.Lfunc_end5:
	.size	ic_raw.table.RawTable.refusal.05a19227735374d3, .Lfunc_end5-ic_raw.table.RawTable.refusal.05a19227735374d3
	.cfi_endproc
	.section	.text.unlikely.ic_raw.move_calls.move_slow.55ebd757a04f39fd,"ax",%progbits
	.p2align	2
	.type	ic_raw.move_calls.move_slow.55ebd757a04f39fd,%function
	.code	16
	.thumb_func
ic_raw.move_calls.move_slow.55ebd757a04f39fd:
	.cfi_startproc
	push	{r4, r5, r6, r7, lr}
	.cfi_def_cfa_offset 20
	.cfi_offset lr, -4
	.cfi_offset r7, -8
	.cfi_offset r6, -12
	.cfi_offset r5, -16
	.cfi_offset r4, -20
	sub	sp, #92
	.cfi_def_cfa_offset 112
	str	r3, [sp, #88]
	str	r2, [sp, #84]
	mov	r6, r0
	ldr	r0, [sp, #124]
	adds	r1, r0, #1
	blo	.LBB6_3
	movs	r1, #4
.LBB6_2:
	mov	r0, r1
	add	sp, #92
	pop	{r4, r5, r6, r7, pc}
.LBB6_3:
	str	r1, [sp, #64]
	str	r0, [sp, #28]
	ldr	r0, [sp, #120]
	ldr	r1, [sp, #116]
	ldr	r4, [sp, #112]
	str	r0, [sp, #24]
	adds	r2, r0, #1
	subs	r0, r2, #1
	mov	r3, r2
	sbcs	r3, r0
	str	r3, [sp, #40]
	ldm	r4!, {r5, r7}
	ldr	r3, [r4]
	subs	r4, #8
	str	r4, [sp, #16]
	ldr	r4, [r4, #12]
	movs	r0, #15
	ands	r4, r0
	str	r4, [sp, #52]
	movs	r4, #7
	str	r4, [sp, #76]
	mvns	r4, r4
	ands	r3, r4
	str	r3, [sp, #56]
	ands	r7, r0
	str	r7, [sp, #44]
	ands	r5, r4
	str	r5, [sp, #48]
	lsrs	r0, r2, #29
	str	r0, [sp, #72]
	lsls	r0, r2, #3
	str	r0, [sp, #80]
	cmp	r2, #0
	str	r6, [sp, #68]
	beq	.LBB6_13
	ldr	r4, .LCPI6_0
	ldr	r0, [sp, #84]
	cmp	r0, r4
	blo	.LBB6_6
	mov	r0, r4
.LBB6_6:
	ldr	r3, [sp, #88]
	cmp	r3, #0
	ldr	r7, [sp, #64]
	beq	.LBB6_8
	mov	r0, r4
.LBB6_8:
	movs	r3, #0
	subs	r2, r0, r2
	str	r3, [sp, #60]
	mov	r2, r3
	sbcs	r2, r3
	bhs	.LBB6_9
	b	.LBB6_79
.LBB6_9:
	ldr	r2, [sp, #80]
	adds	r2, r6, r2
	mov	r4, r2
	subs	r4, #8
	ldr	r4, [r4]
	mov	r3, r4
	lsls	r4, r4, #31
	bne	.LBB6_10
	b	.LBB6_79
.LBB6_10:
	lsls	r1, r1, #31
	beq	.LBB6_31
	subs	r1, r2, #4
	ldr	r1, [r1]
	ldr	r2, [sp, #76]
	bics	r1, r2
	bne	.LBB6_12
	b	.LBB6_65
.LBB6_12:
	movs	r2, #0
	b	.LBB6_20
.LBB6_13:
	lsls	r0, r1, #31
	bne	.LBB6_14
	b	.LBB6_56
.LBB6_14:
	ldr	r0, [sp, #56]
	ldr	r1, [sp, #52]
	orrs	r0, r1
	ldr	r7, [sp, #64]
	bne	.LBB6_15
	b	.LBB6_65
.LBB6_15:
	ldr	r1, .LCPI6_0
	ldr	r0, [sp, #84]
	cmp	r0, r1
	blo	.LBB6_17
	mov	r0, r1
.LBB6_17:
	ldr	r2, [sp, #88]
	cmp	r2, #0
	beq	.LBB6_19
	mov	r0, r1
.LBB6_19:
	ldr	r1, [sp, #56]
	ldr	r2, [sp, #52]
.LBB6_20:
	lsrs	r4, r1, #3
	lsls	r5, r2, #29
	adds	r4, r4, r5
	lsrs	r5, r2, #3
	movs	r6, #0
	subs	r0, r0, r4
	sbcs	r6, r5
	ldr	r6, [sp, #68]
	bhs	.LBB6_21
	b	.LBB6_79
.LBB6_21:
	movs	r3, #1
	ldr	r7, [sp, #80]
	mov	r0, r7
	str	r3, [sp, #32]
	orrs	r0, r3
	adds	r4, r6, r1
	subs	r4, #8
	ldr	r4, [r4]
	movs	r5, #6
	bics	r4, r5
	eors	r4, r0
	ldr	r0, [sp, #72]
	orrs	r4, r0
	str	r7, [sp, #36]
	ldr	r7, [sp, #64]
	str	r0, [sp, #20]
	str	r1, [sp, #80]
	str	r2, [sp, #72]
	ldr	r0, [sp, #40]
	str	r0, [sp, #60]
	beq	.LBB6_22
	b	.LBB6_79
.LBB6_22:
	ldr	r0, .LCPI6_0
	ldr	r2, [sp, #84]
	cmp	r2, r0
	blo	.LBB6_24
.LBB6_23:
	mov	r2, r0
.LBB6_24:
	ldr	r1, [sp, #88]
	cmp	r1, #0
	beq	.LBB6_26
	mov	r2, r0
.LBB6_26:
	movs	r1, #0
	subs	r0, r2, r7
	str	r1, [sp, #40]
	mov	r0, r1
	sbcs	r0, r1
	bhs	.LBB6_27
	b	.LBB6_79
.LBB6_27:
	lsls	r3, r7, #3
	adds	r1, r6, r3
	mov	r0, r1
	subs	r0, #8
	str	r0, [sp, #12]
	ldr	r4, [r0]
	lsls	r0, r4, #31
	bne	.LBB6_28
	b	.LBB6_79
.LBB6_28:
	mov	r5, r6
	lsrs	r6, r7, #29
	subs	r0, r1, #4
	str	r0, [sp, #8]
	ldr	r7, [r0]
	ldr	r0, [sp, #76]
	bics	r7, r0
	str	r6, [sp, #64]
	beq	.LBB6_33
	lsrs	r1, r7, #3
	cmp	r2, r1
	mov	r6, r5
	bhs	.LBB6_30
	b	.LBB6_79
.LBB6_30:
	movs	r1, #1
	orrs	r1, r3
	ldr	r0, [sp, #68]
	adds	r6, r0, r7
	subs	r6, #8
	ldr	r6, [r6]
	movs	r0, #6
	bics	r6, r0
	eors	r6, r1
	ldr	r0, [sp, #64]
	orrs	r6, r0
	ldr	r6, [sp, #68]
	beq	.LBB6_34
	b	.LBB6_79
.LBB6_31:
	ldr	r1, [sp, #76]
	mov	r2, r3
	bics	r2, r1
	bne	.LBB6_32
	b	.LBB6_68
.LBB6_32:
	ldr	r3, [sp, #60]
	b	.LBB6_62
.LBB6_33:
	ldr	r0, [sp, #48]
	eors	r0, r3
	ldr	r1, [sp, #44]
	eors	r1, r6
	orrs	r1, r0
	mov	r6, r5
	beq	.LBB6_34
	b	.LBB6_79
.LBB6_34:
	ldr	r0, [sp, #76]
	bics	r4, r0
	ldr	r6, [sp, #56]
	ldr	r1, [sp, #52]
	beq	.LBB6_38
	lsrs	r0, r4, #3
	cmp	r2, r0
	ldr	r6, [sp, #68]
	bhs	.LBB6_36
	b	.LBB6_79
.LBB6_36:
	adds	r1, r6, r4
	mov	r0, r1
	subs	r0, #8
	ldrb	r0, [r0]
	lsls	r0, r0, #31
	bne	.LBB6_37
	b	.LBB6_79
.LBB6_37:
	subs	r0, r1, #4
	ldr	r6, [r0]
	ldr	r0, [sp, #76]
	bics	r6, r0
	ldr	r1, [sp, #40]
.LBB6_38:
	eors	r6, r3
	ldr	r0, [sp, #64]
	eors	r1, r0
	orrs	r1, r6
	ldr	r6, [sp, #68]
	beq	.LBB6_39
	b	.LBB6_79
.LBB6_39:
	ldr	r5, [sp, #32]
	cmp	r5, #0
	ldr	r2, [sp, #80]
	bne	.LBB6_41
	mov	r2, r5
.LBB6_41:
	ldr	r1, [sp, #64]
	bne	.LBB6_43
	str	r5, [sp, #72]
.LBB6_43:
	ldr	r0, [sp, #72]
	eors	r0, r1
	eors	r2, r3
	movs	r1, #0
	orrs	r2, r0
	bne	.LBB6_44
	b	.LBB6_2
.LBB6_44:
	ldr	r0, [sp, #60]
	cmp	r0, #0
	ldr	r2, [sp, #36]
	bne	.LBB6_46
	ldr	r2, [sp, #60]
.LBB6_46:
	str	r7, [sp, #88]
	bne	.LBB6_48
	ldr	r0, [sp, #60]
	str	r0, [sp, #20]
.LBB6_48:
	ldr	r0, [sp, #20]
	ldr	r7, [sp, #64]
	eors	r0, r7
	eors	r2, r3
	orrs	r2, r0
	bne	.LBB6_49
	b	.LBB6_2
.LBB6_49:
	movs	r2, #0
	ldr	r7, [sp, #88]
	cmp	r7, #0
	bne	.LBB6_50
	b	.LBB6_80
.LBB6_50:
	movs	r0, #1
	orrs	r0, r4
	adds	r1, r6, r7
	subs	r1, #8
	str	r0, [r1]
	ldr	r1, [sp, #64]
	cmp	r4, #0
	beq	.LBB6_52
.LBB6_51:
	adds	r0, r6, r4
	subs	r0, r0, #4
	str	r7, [r0]
	ldr	r7, [sp, #56]
	ldr	r2, [sp, #52]
.LBB6_52:
	cmp	r5, #0
	mov	r4, r3
	mov	r5, r1
	beq	.LBB6_54
	movs	r0, #1
	orrs	r0, r3
	ldr	r1, [sp, #80]
	adds	r1, r6, r1
	subs	r1, #8
	str	r0, [r1]
	ldr	r1, [sp, #64]
	ldr	r4, [sp, #48]
	ldr	r5, [sp, #44]
.LBB6_54:
	ldr	r0, [sp, #60]
	cmp	r0, #0
	beq	.LBB6_69
	ldr	r0, [sp, #36]
	adds	r0, r6, r0
	subs	r0, r0, #4
	str	r3, [r0]
	b	.LBB6_70
.LBB6_56:
	ldr	r0, [sp, #48]
	ldr	r1, [sp, #44]
	orrs	r0, r1
	ldr	r7, [sp, #64]
	beq	.LBB6_76
	ldr	r1, .LCPI6_0
	ldr	r0, [sp, #84]
	cmp	r0, r1
	blo	.LBB6_59
	mov	r0, r1
.LBB6_59:
	ldr	r2, [sp, #88]
	cmp	r2, #0
	beq	.LBB6_61
	mov	r0, r1
.LBB6_61:
	ldr	r2, [sp, #48]
	ldr	r3, [sp, #44]
.LBB6_62:
	str	r2, [sp, #36]
	lsrs	r1, r2, #3
	lsls	r2, r3, #29
	adds	r2, r1, r2
	str	r3, [sp, #20]
	lsrs	r4, r3, #3
	movs	r1, #0
	subs	r0, r0, r2
	mov	r0, r1
	sbcs	r0, r4
	blo	.LBB6_79
	ldr	r0, [sp, #36]
	adds	r0, r6, r0
	mov	r2, r0
	subs	r2, #8
	ldrb	r2, [r2]
	lsls	r2, r2, #31
	beq	.LBB6_79
	subs	r0, r0, #4
	ldr	r0, [r0]
	ldr	r2, [sp, #76]
	bics	r0, r2
	movs	r2, #1
	str	r2, [sp, #60]
	b	.LBB6_78
.LBB6_65:
	ldr	r0, [sp, #80]
	ldr	r1, [sp, #48]
	eors	r0, r1
	ldr	r1, [sp, #44]
	ldr	r2, [sp, #72]
	eors	r2, r1
	orrs	r2, r0
	bne	.LBB6_79
	movs	r0, #0
	ldr	r1, [sp, #48]
	str	r1, [sp, #36]
	ldr	r1, [sp, #44]
	str	r1, [sp, #20]
	str	r0, [sp, #72]
	str	r0, [sp, #80]
	str	r0, [sp, #32]
	ldr	r0, [sp, #40]
	str	r0, [sp, #60]
	ldr	r0, .LCPI6_0
	ldr	r2, [sp, #84]
	cmp	r2, r0
	blo	.LBB6_67
	b	.LBB6_23
.LBB6_67:
	b	.LBB6_24
.LBB6_68:
	ldr	r0, [sp, #60]
	str	r0, [sp, #36]
	b	.LBB6_77
.LBB6_69:
	mov	r7, r3
	mov	r2, r1
.LBB6_70:
	ldr	r1, [sp, #12]
	ldr	r3, [sp, #8]
	ldr	r0, [sp, #60]
	cmp	r0, #0
	beq	.LBB6_72
	ldr	r0, [sp, #36]
	adds	r0, r0, #1
	b	.LBB6_73
.LBB6_72:
	movs	r0, #1
.LBB6_73:
	str	r0, [r1]
	ldr	r0, [sp, #32]
	cmp	r0, #0
	bne	.LBB6_75
	str	r0, [sp, #80]
.LBB6_75:
	ldr	r0, [sp, #80]
	str	r0, [r3]
	movs	r1, #0
	ldr	r3, [sp, #16]
	strb	r1, [r3, #15]
	strb	r1, [r3, #14]
	strb	r1, [r3, #13]
	strb	r2, [r3, #12]
	lsrs	r0, r7, #24
	strb	r0, [r3, #11]
	lsrs	r0, r7, #16
	strb	r0, [r3, #10]
	lsrs	r0, r7, #8
	strb	r0, [r3, #9]
	strb	r7, [r3, #8]
	strb	r1, [r3, #7]
	strb	r1, [r3, #6]
	strb	r1, [r3, #5]
	strb	r5, [r3, #4]
	lsrs	r0, r4, #24
	strb	r0, [r3, #3]
	lsrs	r0, r4, #16
	strb	r0, [r3, #2]
	lsrs	r0, r4, #8
	strb	r0, [r3, #1]
	strb	r4, [r3]
	mov	r0, r1
	add	sp, #92
	pop	{r4, r5, r6, r7, pc}
.LBB6_76:
	movs	r0, #0
	str	r0, [sp, #36]
	str	r0, [sp, #60]
.LBB6_77:
	str	r0, [sp, #20]
	ldr	r0, [sp, #56]
	ldr	r1, [sp, #52]
.LBB6_78:
	ldr	r2, [sp, #80]
	eors	r0, r2
	ldr	r2, [sp, #72]
	eors	r1, r2
	orrs	r1, r0
	ldr	r0, [sp, #40]
	str	r0, [sp, #32]
	bne	.LBB6_79
	b	.LBB6_22
.LBB6_79:
	ldr	r0, [sp, #24]
	str	r0, [sp]
	ldr	r0, [sp, #28]
	str	r0, [sp, #4]
	mov	r0, r6
	ldr	r2, [sp, #84]
	ldr	r3, [sp, #88]
	bl	ic_raw.table.RawTable.refusal_at_both.05a19227735374d3
	mov	r1, r0
	mov	r0, r1
	add	sp, #92
	pop	{r4, r5, r6, r7, pc}
.LBB6_80:
	str	r4, [sp, #48]
	str	r2, [sp, #44]
	ldr	r1, [sp, #64]
	cmp	r4, #0
	beq	.LBB6_81
	b	.LBB6_51
.LBB6_81:
	b	.LBB6_52
	.p2align	2
.LCPI6_0:
	.long	536870911
.Lfunc_end6:
	.size	ic_raw.move_calls.move_slow.55ebd757a04f39fd, .Lfunc_end6-ic_raw.move_calls.move_slow.55ebd757a04f39fd
	.cfi_endproc
	.section	.text.unlikely.ic_raw.table.RawTable.refusal_at_both.05a19227735374d3,"ax",%progbits
	.p2align	2
	.type	ic_raw.table.RawTable.refusal_at_both.05a19227735374d3,%function
	.code	16
	.thumb_func
ic_raw.table.RawTable.refusal_at_both.05a19227735374d3:
	.cfi_startproc
	push	{r4, r5, r7, lr}
	.cfi_def_cfa_offset 16
	.cfi_offset lr, -4
	.cfi_offset r7, -8
	.cfi_offset r5, -12
	.cfi_offset r4, -16
	ldr	r1, [sp, #16]
	adds	r1, r1, #1
	blo	.LBB7_3
.LBB7_1:
	ldr	r1, [sp, #20]
	adds	r1, r1, #1
	blo	.LBB7_7
	movs	r0, #5
	pop	{r4, r5, r7, pc}
.LBB7_3:
	ldr	r4, .LCPI7_0
	cmp	r2, r4
	mov	r5, r2
	bhs	.LBB7_11
	cmp	r3, #0
	bne	.LBB7_12
.LBB7_5:
	movs	r4, #0
	subs	r5, r5, r1
	sbcs	r4, r4
	bhs	.LBB7_13
.LBB7_6:
	movs	r0, #1
	pop	{r4, r5, r7, pc}
.LBB7_7:
	ldr	r4, .LCPI7_0
	cmp	r2, r4
	bhs	.LBB7_14
	cmp	r3, #0
	bne	.LBB7_15
.LBB7_9:
	movs	r3, #0
	subs	r2, r2, r1
	sbcs	r3, r3
	bhs	.LBB7_16
.LBB7_10:
	movs	r0, #1
	pop	{r4, r5, r7, pc}
.LBB7_11:
	mov	r5, r4
	cmp	r3, #0
	beq	.LBB7_5
.LBB7_12:
	mov	r5, r4
	movs	r4, #0
	subs	r5, r5, r1
	sbcs	r4, r4
	blo	.LBB7_6
.LBB7_13:
	lsls	r1, r1, #3
	adds	r1, r0, r1
	subs	r1, #8
	ldrb	r1, [r1]
	lsls	r1, r1, #31
	bne	.LBB7_1
	b	.LBB7_18
.LBB7_14:
	mov	r2, r4
	cmp	r3, #0
	beq	.LBB7_9
.LBB7_15:
	mov	r2, r4
	movs	r3, #0
	subs	r2, r2, r1
	sbcs	r3, r3
	blo	.LBB7_10
.LBB7_16:
	lsls	r1, r1, #3
	adds	r0, r0, r1
	subs	r0, #8
	ldrb	r0, [r0]
	lsls	r0, r0, #31
	beq	.LBB7_18
	movs	r0, #5
	pop	{r4, r5, r7, pc}
.LBB7_18:
	movs	r0, #3
	pop	{r4, r5, r7, pc}
	.p2align	2
.LCPI7_0:
	.long	536870911
.Lfunc_end7:
	.size	ic_raw.table.RawTable.refusal_at_both.05a19227735374d3, .Lfunc_end7-ic_raw.table.RawTable.refusal_at_both.05a19227735374d3
	.cfi_endproc
	.section	.text.unlikely.ic_raw.move_calls.move_to_end_slow.55ebd757a04f39fd,"ax",%progbits
	.p2align	2
	.type	ic_raw.move_calls.move_to_end_slow.55ebd757a04f39fd,%function
	.code	16
	.thumb_func
ic_raw.move_calls.move_to_end_slow.55ebd757a04f39fd:
	.cfi_startproc
	push	{r4, r5, r6, r7, lr}
	.cfi_def_cfa_offset 20
	.cfi_offset lr, -4
	.cfi_offset r7, -8
	.cfi_offset r6, -12
	.cfi_offset r5, -16
	.cfi_offset r4, -20
	sub	sp, #76
	.cfi_def_cfa_offset 96
	str	r0, [sp, #72]
	ldr	r1, [sp, #104]
	adds	r0, r1, #1
	blo	.LBB8_2
	movs	r0, #4
	add	sp, #76
	pop	{r4, r5, r6, r7, pc}
.LBB8_2:
	str	r1, [sp, #28]
	ldr	r4, .LCPI8_0
	cmp	r2, r4
	mov	r5, r2
	blo	.LBB8_4
	mov	r5, r4
.LBB8_4:
	str	r2, [sp, #56]
	ldr	r1, [sp, #100]
	str	r1, [sp, #44]
	ldr	r1, [sp, #96]
	str	r1, [sp, #64]
	str	r3, [sp, #60]
	cmp	r3, #0
	beq	.LBB8_6
	mov	r5, r4
.LBB8_6:
	str	r5, [sp, #40]
	lsrs	r1, r0, #29
	str	r1, [sp, #68]
	lsls	r7, r0, #3
	ldr	r3, [sp, #64]
	ldm	r3!, {r1, r2, r6}
	ldr	r5, [r3]
	movs	r3, #15
	ands	r5, r3
	movs	r4, #7
	str	r4, [sp, #36]
	mvns	r4, r4
	ands	r6, r4
	ands	r2, r3
	ands	r1, r4
	movs	r3, #1
	ldr	r4, [sp, #44]
	lsls	r4, r4, #31
	str	r7, [sp, #48]
	beq	.LBB8_9
	str	r6, [sp, #52]
	eors	r1, r7
	ldr	r4, [sp, #68]
	eors	r2, r4
	orrs	r2, r1
	ldr	r1, [sp, #40]
	cmp	r1, r0
	str	r5, [sp, #20]
	blo	.LBB8_11
	movs	r0, #0
	cmp	r2, #0
	beq	.LBB8_12
	b	.LBB8_13
.LBB8_9:
	str	r2, [sp, #24]
	str	r1, [sp, #32]
	eors	r6, r7
	ldr	r1, [sp, #68]
	eors	r5, r1
	orrs	r5, r6
	ldr	r1, [sp, #40]
	cmp	r1, r0
	blo	.LBB8_28
	movs	r0, #0
	cmp	r5, #0
	beq	.LBB8_29
	b	.LBB8_30
.LBB8_11:
	movs	r0, #1
	cmp	r2, #0
	bne	.LBB8_13
.LBB8_12:
	mov	r3, r0
.LBB8_13:
	cmp	r3, #0
	ldr	r3, [sp, #60]
	ldr	r7, [sp, #48]
	beq	.LBB8_14
	b	.LBB8_45
.LBB8_14:
	ldr	r0, [sp, #72]
	adds	r0, r0, r7
	subs	r2, r0, #4
	ldr	r2, [r2]
	cmp	r2, #0
	beq	.LBB8_15
	b	.LBB8_45
.LBB8_15:
	subs	r0, #8
	ldr	r0, [r0]
	lsls	r2, r0, #31
	bne	.LBB8_16
	b	.LBB8_45
.LBB8_16:
	mov	r5, r0
	ldr	r1, [sp, #36]
	bics	r5, r1
	bne	.LBB8_17
	b	.LBB8_45
.LBB8_17:
	lsrs	r0, r0, #3
	movs	r6, #0
	ldr	r2, [sp, #56]
	subs	r0, r2, r0
	mov	r0, r3
	sbcs	r0, r6
	bhs	.LBB8_18
	b	.LBB8_45
.LBB8_18:
	ldr	r0, [sp, #72]
	adds	r2, r0, r5
	subs	r0, r2, #4
	ldr	r4, [r0]
	eors	r4, r7
	ldr	r7, [sp, #68]
	orrs	r4, r7
	ldr	r3, [sp, #60]
	beq	.LBB8_19
	b	.LBB8_45
.LBB8_19:
	subs	r2, #8
	ldr	r2, [r2]
	lsls	r2, r2, #31
	bne	.LBB8_20
	b	.LBB8_45
.LBB8_20:
	ldr	r2, [sp, #52]
	ldr	r1, [sp, #20]
	orrs	r2, r1
	bne	.LBB8_21
	b	.LBB8_45
.LBB8_21:
	ldr	r7, .LCPI8_0
	ldr	r2, [sp, #56]
	cmp	r2, r7
	blo	.LBB8_23
	mov	r2, r7
.LBB8_23:
	mov	r1, r6
	ldr	r3, [sp, #60]
	cmp	r3, #0
	beq	.LBB8_25
	mov	r2, r7
.LBB8_25:
	ldr	r3, [sp, #52]
	lsrs	r4, r3, #3
	ldr	r3, [sp, #20]
	lsls	r7, r3, #29
	adds	r4, r4, r7
	lsrs	r6, r3, #3
	subs	r2, r2, r4
	mov	r2, r1
	sbcs	r2, r6
	ldr	r3, [sp, #60]
	ldr	r7, [sp, #48]
	bhs	.LBB8_26
	b	.LBB8_45
.LBB8_26:
	ldr	r2, [sp, #72]
	ldr	r4, [sp, #52]
	adds	r2, r2, r4
	subs	r2, #8
	ldr	r4, [r2]
	cmp	r4, #1
	bne	.LBB8_45
	str	r1, [r0]
	movs	r4, #1
	mov	r0, r7
	orrs	r0, r4
	str	r0, [r2]
	str	r1, [sp, #60]
	mov	r6, r7
	ldr	r1, [sp, #68]
	ldr	r3, [sp, #52]
	b	.LBB8_44
.LBB8_28:
	movs	r0, #1
	cmp	r5, #0
	bne	.LBB8_30
.LBB8_29:
	mov	r3, r0
.LBB8_30:
	cmp	r3, #0
	ldr	r3, [sp, #60]
	ldr	r4, [sp, #48]
	bne	.LBB8_45
	ldr	r0, [sp, #72]
	adds	r0, r0, r4
	mov	r2, r0
	subs	r2, #8
	ldr	r2, [r2]
	cmp	r2, #1
	bne	.LBB8_45
	subs	r0, r0, #4
	ldr	r0, [r0]
	mov	r6, r0
	ldr	r1, [sp, #36]
	bics	r6, r1
	beq	.LBB8_45
	lsrs	r0, r0, #3
	movs	r7, #0
	ldr	r2, [sp, #56]
	subs	r0, r2, r0
	mov	r0, r3
	str	r7, [sp, #52]
	sbcs	r0, r7
	blo	.LBB8_45
	movs	r0, #1
	mov	r2, r4
	str	r0, [sp, #40]
	orrs	r2, r0
	ldr	r0, [sp, #72]
	adds	r0, r0, r6
	subs	r0, #8
	ldr	r4, [r0]
	eors	r4, r2
	ldr	r2, [sp, #68]
	orrs	r4, r2
	bne	.LBB8_45
	ldr	r2, [sp, #32]
	ldr	r1, [sp, #24]
	orrs	r2, r1
	beq	.LBB8_45
	ldr	r4, .LCPI8_0
	ldr	r2, [sp, #56]
	cmp	r2, r4
	blo	.LBB8_38
	mov	r2, r4
.LBB8_38:
	cmp	r3, #0
	ldr	r1, [sp, #32]
	beq	.LBB8_40
	mov	r2, r4
.LBB8_40:
	lsrs	r4, r1, #3
	ldr	r1, [sp, #24]
	lsls	r7, r1, #29
	adds	r7, r4, r7
	lsrs	r4, r1, #3
	subs	r2, r2, r7
	ldr	r2, [sp, #52]
	sbcs	r2, r4
	ldr	r7, [sp, #48]
	blo	.LBB8_45
	ldr	r2, [sp, #72]
	ldr	r1, [sp, #32]
	adds	r5, r2, r1
	subs	r2, r5, #4
	ldr	r4, [r2]
	cmp	r4, #0
	bne	.LBB8_45
	subs	r5, #8
	ldr	r4, [r5]
	lsls	r4, r4, #31
	beq	.LBB8_45
	ldr	r1, [sp, #40]
	str	r1, [r0]
	str	r7, [r2]
	ldr	r4, [sp, #32]
	orrs	r4, r1
	mov	r5, r7
	ldr	r0, [sp, #68]
	str	r0, [sp, #60]
	ldr	r3, [sp, #52]
	mov	r1, r3
.LBB8_44:
	ldr	r0, [sp, #72]
	adds	r0, r0, r7
	subs	r2, r0, #4
	subs	r0, #8
	str	r4, [r0]
	str	r3, [r2]
	movs	r0, #0
	ldr	r3, [sp, #64]
	strb	r0, [r3, #15]
	strb	r0, [r3, #14]
	strb	r0, [r3, #13]
	strb	r1, [r3, #12]
	lsrs	r2, r6, #24
	strb	r2, [r3, #11]
	lsrs	r2, r6, #16
	strb	r2, [r3, #10]
	lsrs	r2, r6, #8
	strb	r2, [r3, #9]
	strb	r6, [r3, #8]
	strb	r0, [r3, #7]
	strb	r0, [r3, #6]
	strb	r0, [r3, #5]
	ldr	r1, [sp, #60]
	strb	r1, [r3, #4]
	lsrs	r2, r5, #24
	strb	r2, [r3, #3]
	lsrs	r2, r5, #16
	strb	r2, [r3, #2]
	lsrs	r2, r5, #8
	strb	r2, [r3, #1]
	strb	r5, [r3]
	add	sp, #76
	pop	{r4, r5, r6, r7, pc}
.LBB8_45:
	movs	r0, #0
	mvns	r0, r0
	ldr	r1, [sp, #64]
	str	r1, [sp]
	ldr	r1, [sp, #44]
	str	r1, [sp, #4]
	str	r0, [sp, #8]
	ldr	r0, [sp, #28]
	str	r0, [sp, #12]
	ldr	r0, [sp, #72]
	ldr	r2, [sp, #56]
	bl	ic_raw.move_calls.move_slow.55ebd757a04f39fd
	add	sp, #76
	pop	{r4, r5, r6, r7, pc}
	.p2align	2
.LCPI8_0:
	.long	536870911
.Lfunc_end8:
	.size	ic_raw.move_calls.move_to_end_slow.55ebd757a04f39fd, .Lfunc_end8-ic_raw.move_calls.move_to_end_slow.55ebd757a04f39fd
	.cfi_endproc
	.section	.text.unlikely.ic_raw.list_calls.refusal_to_pop,"ax",%progbits
	.p2align	1
	.type	ic_raw.list_calls.refusal_to_pop,%function
	.code	16
	.thumb_func
ic_raw.list_calls.refusal_to_pop:
	.cfi_startproc
	uxtb	r1, r1
	lsls	r1, r1, #3
	ldr	r2, [r0, r1]
	movs	r3, #7
	bics	r2, r3
	adds	r0, r0, r1
	ldr	r0, [r0, #4]
	movs	r1, #15
	ands	r1, r0
	orrs	r1, r2
	beq	.LBB9_2
	movs	r0, #5
	bx	lr
.LBB9_2:
	movs	r0, #4
	bx	lr
.Lfunc_end9:
	.size	ic_raw.list_calls.refusal_to_pop, .Lfunc_end9-ic_raw.list_calls.refusal_to_pop
	.cfi_endproc
	.section	.text.unlikely.ic_raw.list_calls.pop_front_slow.55ebd757a04f39fd,"ax",%progbits
	.p2align	2
	.type	ic_raw.list_calls.pop_front_slow.55ebd757a04f39fd,%function
	.code	16
	.thumb_func
ic_raw.list_calls.pop_front_slow.55ebd757a04f39fd:
	.cfi_startproc
	push	{r4, r5, r6, r7, lr}
	.cfi_def_cfa_offset 20
	.cfi_offset lr, -4
	.cfi_offset r7, -8
	.cfi_offset r6, -12
	.cfi_offset r5, -16
	.cfi_offset r4, -20
	sub	sp, #36
	.cfi_def_cfa_offset 56
	mov	r5, r0
	ldr	r0, [sp, #56]
	ldm	r0!, {r6, r7}
	movs	r1, #15
	str	r7, [sp, #20]
	str	r1, [sp, #28]
	ands	r7, r1
	movs	r1, #7
	str	r1, [sp, #32]
	mvns	r1, r1
	str	r6, [sp, #16]
	str	r1, [sp, #24]
	ands	r6, r1
	mov	r1, r6
	subs	r0, #8
	orrs	r1, r7
	beq	.LBB10_16
	ldr	r1, .LCPI10_0
	cmp	r2, r1
	blo	.LBB10_3
	mov	r2, r1
.LBB10_3:
	cmp	r3, #0
	beq	.LBB10_5
	mov	r2, r1
.LBB10_5:
	lsrs	r1, r6, #3
	lsls	r3, r7, #29
	adds	r3, r1, r3
	lsrs	r4, r7, #3
	movs	r1, #0
	subs	r3, r2, r3
	mov	r3, r1
	sbcs	r3, r4
	blo	.LBB10_16
	adds	r4, r5, r6
	str	r2, [sp, #8]
	mov	r2, r4
	subs	r2, #8
	str	r2, [sp, #12]
	ldr	r3, [r2]
	mov	r2, r5
	lsls	r5, r3, #31
	beq	.LBB10_16
	subs	r4, r4, #4
	ldr	r4, [r4]
	cmp	r4, #7
	bhi	.LBB10_16
	str	r2, [sp, #4]
	ldr	r4, [r0, #8]
	ldr	r2, [r0, #12]
	ldr	r5, [sp, #28]
	ands	r2, r5
	ldr	r5, [sp, #24]
	ands	r4, r5
	ldr	r5, [sp, #32]
	bics	r3, r5
	beq	.LBB10_13
	str	r2, [sp, #28]
	lsrs	r5, r3, #3
	ldr	r2, [sp, #8]
	cmp	r2, r5
	ldr	r2, [sp, #4]
	blo	.LBB10_16
	adds	r2, r2, r3
	mov	r5, r2
	subs	r5, #8
	ldrb	r5, [r5]
	lsls	r5, r5, #31
	beq	.LBB10_16
	subs	r2, r2, #4
	str	r2, [sp, #24]
	ldr	r5, [r2]
	ldr	r2, [sp, #32]
	bics	r5, r2
	eors	r6, r5
	orrs	r6, r7
	bne	.LBB10_16
	ldr	r2, [sp, #24]
	str	r1, [r2]
	ldr	r5, [sp, #16]
	lsrs	r5, r5, #3
	ldr	r6, [sp, #20]
	lsls	r6, r6, #29
	adds	r5, r5, r6
	ldr	r2, [sp, #28]
	b	.LBB10_15
.LBB10_13:
	eors	r4, r6
	eors	r2, r7
	orrs	r2, r4
	bne	.LBB10_16
	ldr	r2, [sp, #16]
	lsrs	r2, r2, #3
	ldr	r4, [sp, #20]
	lsls	r4, r4, #29
	adds	r5, r2, r4
	movs	r4, #0
	mov	r2, r4
.LBB10_15:
	ldr	r6, [sp, #60]
	ldr	r7, [sp, #12]
	str	r1, [r7]
	strb	r1, [r0, #15]
	strb	r1, [r0, #14]
	strb	r1, [r0, #13]
	strb	r2, [r0, #12]
	lsrs	r2, r4, #24
	strb	r2, [r0, #11]
	lsrs	r2, r4, #16
	strb	r2, [r0, #10]
	lsrs	r2, r4, #8
	strb	r2, [r0, #9]
	strb	r4, [r0, #8]
	strb	r1, [r0, #7]
	strb	r1, [r0, #6]
	strb	r1, [r0, #5]
	strb	r1, [r0, #4]
	lsrs	r2, r3, #24
	strb	r2, [r0, #3]
	lsrs	r2, r3, #16
	strb	r2, [r0, #2]
	lsrs	r2, r3, #8
	strb	r2, [r0, #1]
	strb	r3, [r0]
	subs	r0, r5, #1
	str	r0, [r6]
	mov	r0, r1
	add	sp, #36
	pop	{r4, r5, r6, r7, pc}
.LBB10_16:
	movs	r1, #0
	bl	ic_raw.list_calls.refusal_to_pop
	mov	r1, r0
	mov	r0, r1
	add	sp, #36
	pop	{r4, r5, r6, r7, pc}
	.p2align	2
.LCPI10_0:
	.long	536870911
.Lfunc_end10:
	.size	ic_raw.list_calls.pop_front_slow.55ebd757a04f39fd, .Lfunc_end10-ic_raw.list_calls.pop_front_slow.55ebd757a04f39fd
	.cfi_endproc
	.section	.text.unlikely.ic_raw.list_calls.push_back_slow.55ebd757a04f39fd,"ax",%progbits
	.p2align	2
	.type	ic_raw.list_calls.push_back_slow.55ebd757a04f39fd,%function
	.code	16
	.thumb_func
ic_raw.list_calls.push_back_slow.55ebd757a04f39fd:
	.cfi_startproc
	push	{r4, r5, r6, r7, lr}
	.cfi_def_cfa_offset 20
	.cfi_offset lr, -4
	.cfi_offset r7, -8
	.cfi_offset r6, -12
	.cfi_offset r5, -16
	.cfi_offset r4, -20
	sub	sp, #36
	.cfi_def_cfa_offset 56
	str	r3, [sp, #28]
	mov	r6, r2
	str	r0, [sp, #32]
	ldr	r4, [sp, #56]
	ldr	r1, [r4, #12]
	movs	r7, #15
	ands	r1, r7
	movs	r3, #7
	mvns	r3, r3
	ldr	r0, [r4, #8]
	ands	r0, r3
	mov	r5, r0
	orrs	r5, r1
	rsbs	r2, r5, #0
	adcs	r2, r5
	str	r2, [sp, #24]
	ldr	r2, [r4, #4]
	ands	r2, r7
	ldr	r7, [r4]
	ands	r7, r3
	ldr	r3, [sp, #60]
	cmp	r5, #0
	str	r6, [sp, #16]
	str	r2, [sp, #12]
	str	r7, [sp, #8]
	beq	.LBB11_7
	ldr	r5, .LCPI11_0
	cmp	r6, r5
	mov	r2, r6
	blo	.LBB11_3
	mov	r2, r5
.LBB11_3:
	ldr	r5, [sp, #28]
	cmp	r5, #0
	ldr	r7, [sp, #32]
	mov	r6, r3
	beq	.LBB11_5
	ldr	r2, .LCPI11_0
.LBB11_5:
	lsrs	r3, r0, #3
	lsls	r5, r1, #29
	adds	r3, r3, r5
	lsrs	r1, r1, #3
	movs	r5, #0
	subs	r3, r2, r3
	sbcs	r5, r1
	blo	.LBB11_18
	adds	r1, r7, r0
	subs	r1, #8
	ldr	r1, [r1]
	movs	r3, #6
	bics	r1, r3
	cmp	r1, #1
	beq	.LBB11_12
	b	.LBB11_18
.LBB11_7:
	mov	r1, r7
	orrs	r1, r2
	ldr	r7, [sp, #32]
	mov	r6, r3
	bne	.LBB11_18
	ldr	r1, .LCPI11_0
	ldr	r2, [sp, #16]
	cmp	r2, r1
	blo	.LBB11_10
	mov	r2, r1
.LBB11_10:
	ldr	r3, [sp, #28]
	cmp	r3, #0
	beq	.LBB11_12
	mov	r2, r1
.LBB11_12:
	adds	r1, r6, #1
	beq	.LBB11_18
	cmp	r2, r1
	blo	.LBB11_18
	lsls	r2, r1, #3
	adds	r3, r7, r2
	str	r3, [sp, #20]
	subs	r3, #8
	ldrb	r5, [r3]
	lsls	r5, r5, #31
	bne	.LBB11_18
	lsrs	r7, r1, #29
	movs	r1, #0
	ldr	r5, [sp, #24]
	cmp	r5, #0
	mov	r5, r1
	mov	r6, r2
	str	r7, [sp, #28]
	bne	.LBB11_17
	movs	r5, #1
	orrs	r5, r2
	ldr	r6, [sp, #32]
	adds	r6, r6, r0
	subs	r6, #8
	str	r5, [r6]
	mov	r5, r0
	ldr	r6, [sp, #8]
	ldr	r7, [sp, #12]
.LBB11_17:
	movs	r0, #1
	str	r0, [r3]
	ldr	r0, [sp, #20]
	subs	r0, r0, #4
	str	r5, [r0]
	strb	r1, [r4, #15]
	strb	r1, [r4, #14]
	strb	r1, [r4, #13]
	ldr	r0, [sp, #28]
	strb	r0, [r4, #12]
	lsrs	r0, r2, #24
	strb	r0, [r4, #11]
	lsrs	r0, r2, #16
	strb	r0, [r4, #10]
	lsrs	r0, r2, #8
	strb	r0, [r4, #9]
	strb	r2, [r4, #8]
	strb	r1, [r4, #7]
	strb	r1, [r4, #6]
	strb	r1, [r4, #5]
	strb	r7, [r4, #4]
	lsrs	r0, r6, #24
	strb	r0, [r4, #3]
	lsrs	r0, r6, #16
	strb	r0, [r4, #2]
	lsrs	r0, r6, #8
	strb	r0, [r4, #1]
	strb	r6, [r4]
	mov	r0, r1
	add	sp, #36
	pop	{r4, r5, r6, r7, pc}
.LBB11_18:
	movs	r1, #0
	mvns	r1, r1
	str	r1, [sp]
	str	r6, [sp, #4]
	mov	r0, r7
	ldr	r2, [sp, #16]
	ldr	r3, [sp, #28]
	bl	ic_raw.table.RawTable.refusal.05a19227735374d3
	mov	r1, r0
	mov	r0, r1
	add	sp, #36
	pop	{r4, r5, r6, r7, pc}
	.p2align	2
.LCPI11_0:
	.long	536870911
.Lfunc_end11:
	.size	ic_raw.list_calls.push_back_slow.55ebd757a04f39fd, .Lfunc_end11-ic_raw.list_calls.push_back_slow.55ebd757a04f39fd
	.cfi_endproc
	.section	.text.unlikely.ic_raw.list_calls.remove_slow.55ebd757a04f39fd,"ax",%progbits
	.p2align	2
	.type	ic_raw.list_calls.remove_slow.55ebd757a04f39fd,%function
	.code	16
	.thumb_func
ic_raw.list_calls.remove_slow.55ebd757a04f39fd:
	.cfi_startproc
	push	{r4, r5, r6, r7, lr}
	.cfi_def_cfa_offset 20
	.cfi_offset lr, -4
	.cfi_offset r7, -8
	.cfi_offset r6, -12
	.cfi_offset r5, -16
	.cfi_offset r4, -20
	sub	sp, #76
	.cfi_def_cfa_offset 96
	str	r0, [sp, #72]
	ldr	r1, [sp, #100]
	adds	r6, r1, #1
	blo	.LBB12_2
	movs	r1, #4
	mov	r0, r1
	add	sp, #76
	pop	{r4, r5, r6, r7, pc}
.LBB12_2:
	str	r1, [sp, #8]
	ldr	r1, .LCPI12_0
	cmp	r2, r1
	mov	r4, r2
	blo	.LBB12_4
	mov	r4, r1
.LBB12_4:
	str	r2, [sp, #12]
	str	r3, [sp, #16]
	cmp	r3, #0
	beq	.LBB12_6
	mov	r4, r1
.LBB12_6:
	movs	r2, #0
	str	r4, [sp, #52]
	subs	r1, r4, r6
	str	r2, [sp, #28]
	mov	r1, r2
	sbcs	r1, r2
	blo	.LBB12_20
	lsls	r1, r6, #3
	str	r1, [sp, #64]
	ldr	r0, [sp, #72]
	adds	r0, r0, r1
	mov	r1, r0
	subs	r1, #8
	str	r1, [sp, #32]
	ldr	r2, [r1]
	lsls	r1, r2, #31
	beq	.LBB12_20
	str	r2, [sp, #48]
	ldr	r4, [sp, #96]
	movs	r5, #7
	ldr	r2, [r4]
	ldr	r1, [r4, #4]
	ldr	r3, [r4, #8]
	str	r3, [sp, #68]
	ldr	r3, [r4, #12]
	str	r3, [sp, #44]
	movs	r7, #15
	mvns	r3, r5
	lsrs	r6, r6, #29
	str	r6, [sp, #60]
	str	r7, [sp, #36]
	ands	r1, r7
	str	r3, [sp, #40]
	ands	r2, r3
	subs	r6, r0, #4
	ldr	r6, [r6]
	str	r5, [sp, #56]
	bics	r6, r5
	str	r2, [sp, #24]
	str	r1, [sp, #20]
	beq	.LBB12_11
	lsrs	r7, r6, #3
	ldr	r1, [sp, #52]
	cmp	r1, r7
	ldr	r1, [sp, #68]
	ldr	r3, [sp, #48]
	blo	.LBB12_20
	movs	r7, #1
	ldr	r0, [sp, #64]
	orrs	r7, r0
	ldr	r0, [sp, #72]
	adds	r2, r0, r6
	subs	r2, #8
	ldr	r2, [r2]
	movs	r0, #6
	bics	r2, r0
	eors	r2, r7
	ldr	r7, [sp, #44]
	ldr	r0, [sp, #60]
	orrs	r2, r0
	beq	.LBB12_12
	b	.LBB12_20
.LBB12_11:
	mov	r0, r2
	ldr	r2, [sp, #64]
	eors	r0, r2
	mov	r2, r1
	ldr	r1, [sp, #60]
	eors	r2, r1
	orrs	r2, r0
	ldr	r7, [sp, #44]
	ldr	r1, [sp, #68]
	ldr	r3, [sp, #48]
	bne	.LBB12_20
.LBB12_12:
	ldr	r2, [sp, #36]
	ands	r7, r2
	mov	r2, r1
	ldr	r1, [sp, #40]
	ands	r2, r1
	ldr	r1, [sp, #56]
	bics	r3, r1
	str	r2, [sp, #68]
	mov	r1, r7
	beq	.LBB12_16
	lsrs	r1, r3, #3
	ldr	r2, [sp, #52]
	cmp	r2, r1
	blo	.LBB12_20
	ldr	r0, [sp, #72]
	adds	r2, r0, r3
	mov	r1, r2
	subs	r1, #8
	ldrb	r1, [r1]
	lsls	r1, r1, #31
	beq	.LBB12_20
	subs	r1, r2, #4
	ldr	r2, [r1]
	ldr	r1, [sp, #56]
	bics	r2, r1
	ldr	r1, [sp, #28]
.LBB12_16:
	mov	r5, r7
	ldr	r7, [sp, #64]
	eors	r2, r7
	ldr	r0, [sp, #60]
	eors	r1, r0
	orrs	r1, r2
	bne	.LBB12_20
	mov	r7, r5
	mov	r5, r3
	movs	r1, #0
	cmp	r6, #0
	beq	.LBB12_21
	movs	r3, #1
	orrs	r3, r5
	ldr	r0, [sp, #72]
	adds	r2, r0, r6
	subs	r2, #8
	str	r3, [r2]
	ldr	r2, [sp, #24]
	ldr	r3, [sp, #20]
	cmp	r5, #0
	beq	.LBB12_22
.LBB12_19:
	ldr	r0, [sp, #72]
	adds	r0, r0, r5
	subs	r0, r0, #4
	str	r6, [r0]
	ldr	r6, [sp, #68]
	b	.LBB12_23
.LBB12_20:
	ldr	r1, [sp, #8]
	str	r1, [sp]
	ldr	r0, [sp, #72]
	ldr	r2, [sp, #12]
	ldr	r3, [sp, #16]
	bl	ic_raw.table.RawTable.refusal_at.05a19227735374d3
	mov	r1, r0
	mov	r0, r1
	add	sp, #76
	pop	{r4, r5, r6, r7, pc}
.LBB12_21:
	mov	r2, r5
	mov	r3, r1
	cmp	r5, #0
	bne	.LBB12_19
.LBB12_22:
	mov	r7, r1
.LBB12_23:
	ldr	r0, [sp, #32]
	str	r1, [r0]
	strb	r1, [r4, #15]
	strb	r1, [r4, #14]
	strb	r1, [r4, #13]
	strb	r7, [r4, #12]
	lsrs	r0, r6, #24
	strb	r0, [r4, #11]
	lsrs	r0, r6, #16
	strb	r0, [r4, #10]
	lsrs	r0, r6, #8
	strb	r0, [r4, #9]
	strb	r6, [r4, #8]
	strb	r1, [r4, #7]
	strb	r1, [r4, #6]
	strb	r1, [r4, #5]
	strb	r3, [r4, #4]
	lsrs	r0, r2, #24
	strb	r0, [r4, #3]
	lsrs	r0, r2, #16
	strb	r0, [r4, #2]
	lsrs	r0, r2, #8
	strb	r0, [r4, #1]
	strb	r2, [r4]
	mov	r0, r1
	add	sp, #76
	pop	{r4, r5, r6, r7, pc}
	.p2align	2
.LCPI12_0:
	.long	536870911
.Lfunc_end12:
	.size	ic_raw.list_calls.remove_slow.55ebd757a04f39fd, .Lfunc_end12-ic_raw.list_calls.remove_slow.55ebd757a04f39fd
	.cfi_endproc
	.section	.text.unlikely.ic_raw.list_calls.split_slow.55ebd757a04f39fd,"ax",%progbits
	.p2align	2
	.type	ic_raw.list_calls.split_slow.55ebd757a04f39fd,%function
	.code	16
	.thumb_func
ic_raw.list_calls.split_slow.55ebd757a04f39fd:
	.cfi_startproc
	push	{r4, r5, r6, r7, lr}
	.cfi_def_cfa_offset 20
	.cfi_offset lr, -4
	.cfi_offset r7, -8
	.cfi_offset r6, -12
	.cfi_offset r5, -16
	.cfi_offset r4, -20
	sub	sp, #60
	.cfi_def_cfa_offset 80
	str	r3, [sp, #24]
	str	r2, [sp, #20]
	str	r0, [sp, #48]
	ldr	r1, [sp, #88]
	ldm	r1!, {r3, r4}
	movs	r0, #15
	ands	r4, r0
	movs	r2, #7
	str	r2, [sp, #40]
	mvns	r2, r2
	ands	r3, r2
	subs	r1, #8
	orrs	r3, r4
	ldr	r3, [sp, #84]
	str	r3, [sp, #32]
	beq	.LBB13_1
	b	.LBB13_44
.LBB13_1:
	ldr	r3, [r1, #8]
	ldr	r4, [r1, #12]
	ands	r4, r0
	ands	r3, r2
	orrs	r3, r4
	beq	.LBB13_2
	b	.LBB13_44
.LBB13_2:
	ldr	r6, [sp, #80]
	ldr	r4, [r6]
	adds	r7, r6, #4
	ldm	r7, {r3, r5, r7}
	ands	r7, r0
	str	r7, [sp, #12]
	ands	r5, r2
	str	r5, [sp, #16]
	ands	r3, r0
	str	r3, [sp, #44]
	ands	r4, r2
	str	r4, [sp, #36]
	ldr	r2, [sp, #92]
	ldr	r0, [sp, #32]
	adds	r5, r0, #1
	subs	r0, r5, #1
	mov	r4, r5
	sbcs	r4, r0
	lsrs	r0, r5, #29
	str	r0, [sp, #52]
	lsls	r0, r5, #3
	str	r0, [sp, #56]
	cmp	r5, #0
	str	r2, [sp, #28]
	beq	.LBB13_12
	ldr	r0, .LCPI13_0
	ldr	r3, [sp, #20]
	cmp	r3, r0
	blo	.LBB13_5
	mov	r3, r0
.LBB13_5:
	ldr	r2, [sp, #24]
	cmp	r2, #0
	beq	.LBB13_7
	mov	r3, r0
.LBB13_7:
	movs	r0, #0
	str	r3, [sp, #8]
	subs	r2, r3, r5
	mov	r2, r0
	sbcs	r2, r0
	bhs	.LBB13_8
	b	.LBB13_44
.LBB13_8:
	ldr	r2, [sp, #48]
	ldr	r3, [sp, #56]
	adds	r2, r2, r3
	mov	r7, r2
	subs	r7, #8
	ldr	r7, [r7]
	lsls	r3, r7, #31
	bne	.LBB13_9
	b	.LBB13_44
.LBB13_9:
	ldr	r3, [sp, #28]
	lsls	r3, r3, #31
	beq	.LBB13_21
	subs	r0, r2, #4
	ldr	r5, [r0]
	ldr	r0, [sp, #40]
	bics	r5, r0
	beq	.LBB13_32
	movs	r2, #0
	ldr	r7, [sp, #8]
	b	.LBB13_19
.LBB13_12:
	lsls	r0, r2, #31
	beq	.LBB13_23
	ldr	r0, [sp, #16]
	ldr	r2, [sp, #12]
	orrs	r0, r2
	beq	.LBB13_32
	ldr	r0, .LCPI13_0
	ldr	r7, [sp, #20]
	cmp	r7, r0
	blo	.LBB13_16
	mov	r7, r0
.LBB13_16:
	ldr	r2, [sp, #24]
	cmp	r2, #0
	beq	.LBB13_18
	mov	r7, r0
.LBB13_18:
	ldr	r5, [sp, #16]
	ldr	r2, [sp, #12]
.LBB13_19:
	lsrs	r0, r5, #3
	mov	r3, r2
	lsls	r2, r2, #29
	adds	r0, r0, r2
	str	r3, [sp, #40]
	lsrs	r2, r3, #3
	movs	r3, #0
	subs	r0, r7, r0
	sbcs	r3, r2
	blo	.LBB13_44
	movs	r0, #1
	ldr	r2, [sp, #56]
	orrs	r0, r2
	ldr	r2, [sp, #48]
	adds	r2, r2, r5
	subs	r2, #8
	ldr	r2, [r2]
	movs	r3, #6
	bics	r2, r3
	eors	r2, r0
	ldr	r0, [sp, #52]
	orrs	r2, r0
	beq	.LBB13_38
	b	.LBB13_44
.LBB13_21:
	ldr	r2, [sp, #40]
	bics	r7, r2
	beq	.LBB13_34
	mov	r3, r0
	b	.LBB13_29
.LBB13_23:
	ldr	r7, [sp, #36]
	mov	r0, r7
	ldr	r2, [sp, #44]
	orrs	r0, r2
	beq	.LBB13_33
	ldr	r0, .LCPI13_0
	ldr	r3, [sp, #20]
	cmp	r3, r0
	str	r3, [sp, #8]
	blo	.LBB13_26
	str	r0, [sp, #8]
.LBB13_26:
	ldr	r3, [sp, #24]
	cmp	r3, #0
	beq	.LBB13_28
	str	r0, [sp, #8]
.LBB13_28:
	mov	r3, r2
.LBB13_29:
	lsrs	r0, r7, #3
	lsls	r2, r3, #29
	adds	r0, r0, r2
	str	r3, [sp, #4]
	lsrs	r2, r3, #3
	movs	r4, #0
	ldr	r3, [sp, #8]
	subs	r0, r3, r0
	mov	r0, r4
	sbcs	r0, r2
	blo	.LBB13_44
	ldr	r0, [sp, #48]
	adds	r0, r0, r7
	mov	r2, r0
	subs	r2, #8
	ldrb	r2, [r2]
	lsls	r2, r2, #31
	beq	.LBB13_44
	subs	r0, r0, #4
	ldr	r2, [r0]
	ldr	r0, [sp, #40]
	bics	r2, r0
	movs	r0, #1
	b	.LBB13_35
.LBB13_32:
	ldr	r2, [sp, #36]
	ldr	r5, [sp, #56]
	eors	r5, r2
	ldr	r0, [sp, #44]
	ldr	r3, [sp, #52]
	eors	r3, r0
	orrs	r3, r5
	movs	r5, #0
	cmp	r3, #0
	str	r5, [sp, #40]
	str	r2, [sp, #56]
	str	r0, [sp, #52]
	str	r5, [sp, #36]
	str	r5, [sp, #44]
	beq	.LBB13_39
	b	.LBB13_44
.LBB13_33:
	movs	r0, #0
.LBB13_34:
	mov	r7, r0
	str	r0, [sp, #4]
	ldr	r2, [sp, #16]
	ldr	r4, [sp, #12]
.LBB13_35:
	ldr	r3, [sp, #56]
	eors	r2, r3
	ldr	r3, [sp, #52]
	eors	r4, r3
	orrs	r4, r2
	bne	.LBB13_44
	cmp	r5, #0
	beq	.LBB13_45
	mov	r4, r0
	ldr	r5, [sp, #56]
	ldr	r0, [sp, #52]
	str	r0, [sp, #40]
	str	r7, [sp, #56]
	ldr	r0, [sp, #4]
	str	r0, [sp, #52]
.LBB13_38:
	ldr	r0, [sp, #48]
	adds	r0, r0, r5
	subs	r0, #8
	movs	r2, #1
	str	r2, [r0]
.LBB13_39:
	movs	r0, #0
	cmp	r4, #0
	mov	r2, r0
	bne	.LBB13_46
.LBB13_40:
	cmp	r4, #0
	beq	.LBB13_47
.LBB13_41:
	beq	.LBB13_48
.LBB13_42:
	ldr	r3, [sp, #28]
	lsls	r3, r3, #31
	beq	.LBB13_49
.LBB13_43:
	ldr	r3, [sp, #56]
	ldr	r4, [sp, #52]
	str	r4, [sp, #48]
	mov	r7, r0
	ldr	r4, [sp, #36]
	b	.LBB13_50
.LBB13_44:
	ldr	r0, [sp, #32]
	str	r0, [sp]
	ldr	r0, [sp, #48]
	ldr	r2, [sp, #20]
	ldr	r3, [sp, #24]
	bl	ic_raw.table.RawTable.refusal_at.05a19227735374d3
	add	sp, #60
	pop	{r4, r5, r6, r7, pc}
.LBB13_45:
	movs	r5, #0
	str	r5, [sp, #40]
	mov	r4, r0
	str	r7, [sp, #56]
	ldr	r0, [sp, #4]
	str	r0, [sp, #52]
	str	r5, [sp, #36]
	str	r5, [sp, #44]
	movs	r0, #0
	cmp	r4, #0
	mov	r2, r0
	beq	.LBB13_40
.LBB13_46:
	ldr	r0, [sp, #48]
	ldr	r2, [sp, #56]
	adds	r0, r0, r2
	subs	r0, r0, #4
	movs	r2, #0
	str	r2, [r0]
	ldr	r0, [sp, #16]
	ldr	r2, [sp, #12]
	cmp	r4, #0
	bne	.LBB13_41
.LBB13_47:
	str	r4, [sp, #52]
	bne	.LBB13_42
.LBB13_48:
	str	r4, [sp, #56]
	ldr	r3, [sp, #28]
	lsls	r3, r3, #31
	bne	.LBB13_43
.LBB13_49:
	ldr	r3, [sp, #36]
	ldr	r4, [sp, #44]
	str	r4, [sp, #48]
	mov	r7, r5
	ldr	r4, [sp, #40]
	str	r4, [sp, #36]
	ldr	r4, [sp, #56]
	ldr	r5, [sp, #52]
	str	r5, [sp, #44]
	mov	r5, r0
	str	r2, [sp, #40]
	ldr	r2, [sp, #36]
.LBB13_50:
	movs	r0, #0
	strb	r0, [r6, #15]
	strb	r0, [r6, #14]
	strb	r0, [r6, #13]
	strb	r7, [r6, #8]
	strb	r0, [r6, #7]
	strb	r0, [r6, #6]
	strb	r0, [r6, #5]
	strb	r3, [r6]
	strb	r2, [r6, #12]
	lsrs	r2, r7, #24
	strb	r2, [r6, #11]
	lsrs	r2, r7, #16
	strb	r2, [r6, #10]
	lsrs	r2, r7, #8
	strb	r2, [r6, #9]
	ldr	r2, [sp, #48]
	strb	r2, [r6, #4]
	lsrs	r2, r3, #24
	strb	r2, [r6, #3]
	lsrs	r2, r3, #16
	strb	r2, [r6, #2]
	lsrs	r2, r3, #8
	strb	r2, [r6, #1]
	lsrs	r2, r5, #16
	strb	r2, [r1, #10]
	lsrs	r2, r5, #24
	strb	r2, [r1, #11]
	strb	r5, [r1, #8]
	lsrs	r2, r5, #8
	strb	r2, [r1, #9]
	strb	r0, [r1, #14]
	strb	r0, [r1, #15]
	ldr	r2, [sp, #40]
	strb	r2, [r1, #12]
	strb	r0, [r1, #13]
	lsrs	r2, r4, #16
	strb	r2, [r1, #2]
	lsrs	r2, r4, #24
	strb	r2, [r1, #3]
	strb	r4, [r1]
	lsrs	r2, r4, #8
	strb	r2, [r1, #1]
	strb	r0, [r1, #6]
	strb	r0, [r1, #7]
	ldr	r2, [sp, #44]
	strb	r2, [r1, #4]
	strb	r0, [r1, #5]
	add	sp, #60
	pop	{r4, r5, r6, r7, pc}
	.p2align	2
.LCPI13_0:
	.long	536870911
.Lfunc_end13:
	.size	ic_raw.list_calls.split_slow.55ebd757a04f39fd, .Lfunc_end13-ic_raw.list_calls.split_slow.55ebd757a04f39fd
	.cfi_endproc
	.section	.text.ic_raw_lists.transfer_calls.transfer_at.55ebd757a04f39fd,"ax",%progbits
	.p2align	2
	.type	ic_raw_lists.transfer_calls.transfer_at.55ebd757a04f39fd,%function
	.code	16
	.thumb_func
ic_raw_lists.transfer_calls.transfer_at.55ebd757a04f39fd:
	.cfi_startproc
	push	{r4, r5, r6, r7, lr}
	.cfi_def_cfa_offset 20
	.cfi_offset lr, -4
	.cfi_offset r7, -8
	.cfi_offset r6, -12
	.cfi_offset r5, -16
	.cfi_offset r4, -20
	sub	sp, #124
	.cfi_def_cfa_offset 144
	str	r3, [sp, #104]
	str	r2, [sp, #100]
	str	r0, [sp, #120]
	ldr	r0, [sp, #160]
	adds	r1, r0, #1
	str	r1, [sp, #112]
	blo	.LBB14_2
	movs	r0, #4
	add	sp, #124
	pop	{r4, r5, r6, r7, pc}
.LBB14_2:
	str	r0, [sp, #40]
	ldr	r1, [sp, #156]
	ldr	r2, [sp, #152]
	ldr	r0, [sp, #148]
	str	r0, [sp, #64]
	ldr	r0, [sp, #144]
	str	r2, [sp, #36]
	adds	r4, r2, #1
	subs	r2, r4, #1
	mov	r3, r4
	sbcs	r3, r2
	str	r3, [sp, #44]
	ldr	r2, [r1]
	str	r2, [sp, #96]
	ldr	r2, [r1, #4]
	str	r2, [sp, #108]
	ldr	r3, [r1, #8]
	str	r3, [sp, #80]
	str	r1, [sp, #32]
	ldr	r1, [r1, #12]
	str	r1, [sp, #76]
	movs	r6, #15
	movs	r1, #7
	str	r1, [sp, #92]
	mvns	r2, r1
	ldm	r0!, {r5, r7}
	ldr	r3, [r0]
	subs	r0, #8
	str	r0, [sp, #28]
	ldr	r1, [r0, #12]
	ands	r1, r6
	str	r1, [sp, #52]
	ands	r3, r2
	str	r6, [sp, #72]
	ands	r7, r6
	str	r7, [sp, #56]
	str	r2, [sp, #68]
	ands	r5, r2
	str	r5, [sp, #60]
	lsrs	r1, r4, #29
	str	r1, [sp, #88]
	lsls	r1, r4, #3
	str	r1, [sp, #116]
	cmp	r4, #0
	str	r3, [sp, #20]
	beq	.LBB14_12
	ldr	r6, [sp, #64]
	ldr	r1, [sp, #108]
	ldr	r7, .LCPI14_0
	ldr	r2, [sp, #100]
	cmp	r2, r7
	blo	.LBB14_5
	mov	r2, r7
.LBB14_5:
	ldr	r3, [sp, #104]
	cmp	r3, #0
	beq	.LBB14_7
	mov	r2, r7
.LBB14_7:
	movs	r0, #0
	subs	r4, r2, r4
	str	r0, [sp, #84]
	mov	r4, r0
	sbcs	r4, r0
	bhs	.LBB14_8
	b	.LBB14_73
.LBB14_8:
	ldr	r3, [sp, #120]
	ldr	r4, [sp, #116]
	adds	r4, r3, r4
	mov	r7, r4
	subs	r7, #8
	ldr	r5, [r7]
	lsls	r7, r5, #31
	bne	.LBB14_9
	b	.LBB14_73
.LBB14_9:
	lsls	r0, r6, #31
	beq	.LBB14_21
	subs	r0, r4, #4
	ldr	r0, [r0]
	ldr	r3, [sp, #92]
	bics	r0, r3
	beq	.LBB14_32
	movs	r4, #0
	b	.LBB14_19
.LBB14_12:
	ldr	r1, [sp, #108]
	ldr	r0, [sp, #64]
	lsls	r0, r0, #31
	beq	.LBB14_23
	mov	r0, r3
	ldr	r2, [sp, #52]
	orrs	r0, r2
	beq	.LBB14_32
	ldr	r0, .LCPI14_0
	ldr	r2, [sp, #100]
	cmp	r2, r0
	blo	.LBB14_16
	mov	r2, r0
.LBB14_16:
	ldr	r4, [sp, #104]
	cmp	r4, #0
	beq	.LBB14_18
	mov	r2, r0
.LBB14_18:
	mov	r0, r3
	ldr	r4, [sp, #52]
.LBB14_19:
	lsrs	r7, r0, #3
	lsls	r3, r4, #29
	adds	r3, r7, r3
	lsrs	r7, r4, #3
	movs	r5, #0
	subs	r2, r2, r3
	sbcs	r5, r7
	bhs	.LBB14_20
	b	.LBB14_73
.LBB14_20:
	movs	r3, #1
	ldr	r7, [sp, #116]
	mov	r2, r7
	str	r3, [sp, #64]
	orrs	r2, r3
	ldr	r3, [sp, #120]
	adds	r3, r3, r0
	subs	r3, #8
	ldr	r3, [r3]
	movs	r5, #6
	bics	r3, r5
	eors	r3, r2
	ldr	r2, [sp, #88]
	orrs	r3, r2
	str	r7, [sp, #48]
	str	r2, [sp, #24]
	str	r0, [sp, #116]
	str	r4, [sp, #88]
	ldr	r0, [sp, #44]
	str	r0, [sp, #84]
	beq	.LBB14_38
	b	.LBB14_73
.LBB14_21:
	mov	r3, r5
	ldr	r0, [sp, #92]
	bics	r3, r0
	beq	.LBB14_34
	mov	r0, r3
	ldr	r3, [sp, #84]
	b	.LBB14_29
.LBB14_23:
	ldr	r0, [sp, #60]
	ldr	r2, [sp, #56]
	orrs	r0, r2
	beq	.LBB14_35
	ldr	r0, .LCPI14_0
	ldr	r2, [sp, #100]
	cmp	r2, r0
	blo	.LBB14_26
	mov	r2, r0
.LBB14_26:
	ldr	r3, [sp, #104]
	cmp	r3, #0
	beq	.LBB14_28
	mov	r2, r0
.LBB14_28:
	ldr	r0, [sp, #60]
	ldr	r3, [sp, #56]
.LBB14_29:
	str	r0, [sp, #48]
	lsrs	r0, r0, #3
	lsls	r4, r3, #29
	adds	r4, r0, r4
	str	r3, [sp, #24]
	lsrs	r7, r3, #3
	movs	r0, #0
	subs	r2, r2, r4
	mov	r2, r0
	sbcs	r2, r7
	bhs	.LBB14_30
	b	.LBB14_73
.LBB14_30:
	ldr	r2, [sp, #120]
	ldr	r3, [sp, #48]
	adds	r2, r2, r3
	mov	r4, r2
	subs	r4, #8
	ldrb	r4, [r4]
	lsls	r4, r4, #31
	bne	.LBB14_31
	b	.LBB14_73
.LBB14_31:
	subs	r2, r2, #4
	ldr	r2, [r2]
	ldr	r3, [sp, #92]
	bics	r2, r3
	movs	r3, #1
	str	r3, [sp, #84]
	b	.LBB14_37
.LBB14_32:
	ldr	r0, [sp, #116]
	ldr	r2, [sp, #60]
	eors	r0, r2
	ldr	r2, [sp, #56]
	ldr	r3, [sp, #88]
	eors	r3, r2
	orrs	r3, r0
	beq	.LBB14_33
	b	.LBB14_73
.LBB14_33:
	movs	r0, #0
	ldr	r2, [sp, #60]
	str	r2, [sp, #48]
	ldr	r2, [sp, #56]
	str	r2, [sp, #24]
	str	r0, [sp, #88]
	str	r0, [sp, #116]
	str	r0, [sp, #64]
	ldr	r0, [sp, #44]
	str	r0, [sp, #84]
	ldr	r0, .LCPI14_0
	ldr	r5, [sp, #100]
	cmp	r5, r0
	bhs	.LBB14_39
	b	.LBB14_40
.LBB14_34:
	ldr	r0, [sp, #84]
	str	r0, [sp, #48]
	str	r0, [sp, #24]
	ldr	r2, [sp, #20]
	b	.LBB14_36
.LBB14_35:
	movs	r0, #0
	str	r0, [sp, #48]
	str	r0, [sp, #84]
	str	r0, [sp, #24]
	mov	r2, r3
.LBB14_36:
	ldr	r0, [sp, #52]
.LBB14_37:
	ldr	r3, [sp, #116]
	eors	r2, r3
	ldr	r3, [sp, #88]
	eors	r0, r3
	orrs	r0, r2
	ldr	r0, [sp, #44]
	str	r0, [sp, #64]
	beq	.LBB14_38
	b	.LBB14_73
.LBB14_38:
	ldr	r0, .LCPI14_0
	ldr	r5, [sp, #100]
	cmp	r5, r0
	blo	.LBB14_40
.LBB14_39:
	mov	r5, r0
.LBB14_40:
	ldr	r2, [sp, #104]
	cmp	r2, #0
	beq	.LBB14_42
	mov	r5, r0
.LBB14_42:
	movs	r2, #0
	ldr	r0, [sp, #112]
	subs	r0, r5, r0
	str	r2, [sp, #12]
	mov	r0, r2
	sbcs	r0, r2
	bhs	.LBB14_43
	b	.LBB14_73
.LBB14_43:
	ldr	r0, [sp, #112]
	lsls	r7, r0, #3
	ldr	r0, [sp, #120]
	adds	r4, r0, r7
	mov	r0, r4
	subs	r0, #8
	str	r0, [sp, #44]
	ldr	r2, [r0]
	lsls	r0, r2, #31
	bne	.LBB14_44
	b	.LBB14_73
.LBB14_44:
	ldr	r0, [sp, #112]
	lsrs	r6, r0, #29
	ldr	r0, [sp, #72]
	ands	r1, r0
	ldr	r0, [sp, #96]
	ldr	r3, [sp, #68]
	ands	r0, r3
	subs	r3, r4, #4
	str	r3, [sp, #16]
	ldr	r3, [r3]
	ldr	r4, [sp, #92]
	bics	r3, r4
	str	r6, [sp, #112]
	str	r1, [sp, #108]
	str	r0, [sp, #96]
	beq	.LBB14_47
	lsrs	r0, r3, #3
	cmp	r5, r0
	bhs	.LBB14_46
	b	.LBB14_73
.LBB14_46:
	movs	r0, #1
	orrs	r0, r7
	ldr	r1, [sp, #120]
	adds	r4, r1, r3
	subs	r4, #8
	ldr	r4, [r4]
	movs	r1, #6
	bics	r4, r1
	eors	r4, r0
	ldr	r0, [sp, #112]
	orrs	r4, r0
	beq	.LBB14_48
	b	.LBB14_73
.LBB14_47:
	eors	r0, r7
	eors	r1, r6
	orrs	r1, r0
	bne	.LBB14_73
.LBB14_48:
	ldr	r0, [sp, #76]
	ldr	r1, [sp, #72]
	ands	r0, r1
	ldr	r4, [sp, #80]
	ldr	r1, [sp, #68]
	ands	r4, r1
	ldr	r1, [sp, #92]
	bics	r2, r1
	str	r4, [sp, #80]
	str	r0, [sp, #76]
	beq	.LBB14_52
	lsrs	r0, r2, #3
	cmp	r5, r0
	blo	.LBB14_73
	ldr	r0, [sp, #120]
	adds	r0, r0, r2
	mov	r1, r0
	subs	r1, #8
	ldrb	r1, [r1]
	lsls	r1, r1, #31
	beq	.LBB14_73
	subs	r0, r0, #4
	ldr	r4, [r0]
	ldr	r0, [sp, #92]
	bics	r4, r0
	ldr	r0, [sp, #12]
.LBB14_52:
	eors	r4, r7
	ldr	r1, [sp, #112]
	eors	r0, r1
	orrs	r0, r4
	bne	.LBB14_73
	ldr	r0, [sp, #96]
	ldr	r1, [sp, #108]
	orrs	r0, r1
	beq	.LBB14_55
	ldr	r0, [sp, #60]
	ldr	r1, [sp, #96]
	eors	r0, r1
	ldr	r1, [sp, #56]
	ldr	r4, [sp, #108]
	eors	r1, r4
	orrs	r1, r0
	beq	.LBB14_73
.LBB14_55:
	ldr	r1, [sp, #64]
	cmp	r1, #0
	ldr	r0, [sp, #116]
	bne	.LBB14_57
	mov	r0, r1
.LBB14_57:
	bne	.LBB14_59
	str	r1, [sp, #88]
.LBB14_59:
	ldr	r1, [sp, #88]
	ldr	r4, [sp, #112]
	eors	r1, r4
	eors	r0, r7
	orrs	r0, r1
	beq	.LBB14_73
	ldr	r1, [sp, #84]
	cmp	r1, #0
	ldr	r0, [sp, #48]
	bne	.LBB14_62
	mov	r0, r1
.LBB14_62:
	ldr	r4, [sp, #24]
	bne	.LBB14_64
	mov	r4, r1
.LBB14_64:
	ldr	r1, [sp, #112]
	eors	r4, r1
	eors	r0, r7
	orrs	r0, r4
	beq	.LBB14_73
	movs	r6, #0
	cmp	r3, #0
	beq	.LBB14_79
	movs	r0, #1
	orrs	r0, r2
	ldr	r1, [sp, #120]
	adds	r1, r1, r3
	subs	r1, #8
	str	r0, [r1]
	ldr	r4, [sp, #32]
	ldr	r5, [sp, #84]
	cmp	r2, #0
	beq	.LBB14_68
.LBB14_67:
	ldr	r0, [sp, #120]
	adds	r0, r0, r2
	subs	r0, r0, #4
	str	r3, [r0]
	ldr	r3, [sp, #80]
	ldr	r6, [sp, #76]
.LBB14_68:
	ldr	r0, [sp, #64]
	cmp	r0, #0
	mov	r2, r7
	ldr	r0, [sp, #112]
	mov	r1, r0
	beq	.LBB14_70
	movs	r0, #1
	orrs	r0, r7
	ldr	r1, [sp, #120]
	ldr	r2, [sp, #116]
	adds	r1, r1, r2
	subs	r1, #8
	str	r0, [r1]
	ldr	r0, [sp, #112]
	ldr	r2, [sp, #60]
	ldr	r1, [sp, #56]
.LBB14_70:
	cmp	r5, #0
	str	r1, [sp, #112]
	beq	.LBB14_74
	ldr	r0, [sp, #120]
	ldr	r1, [sp, #48]
	adds	r0, r0, r1
	subs	r0, r0, #4
	str	r7, [r0]
	ldr	r7, [sp, #20]
	cmp	r5, #0
	bne	.LBB14_75
.LBB14_72:
	mov	r5, r6
	movs	r0, #1
	b	.LBB14_76
.LBB14_73:
	ldr	r0, [sp, #36]
	str	r0, [sp]
	ldr	r0, [sp, #40]
	str	r0, [sp, #4]
	ldr	r0, [sp, #120]
	ldr	r2, [sp, #100]
	ldr	r3, [sp, #104]
	bl	ic_raw.table.RawTable.refusal_at_both.05a19227735374d3
	add	sp, #124
	pop	{r4, r5, r6, r7, pc}
.LBB14_74:
	str	r0, [sp, #52]
	cmp	r5, #0
	beq	.LBB14_72
.LBB14_75:
	mov	r5, r6
	ldr	r0, [sp, #48]
	adds	r0, r0, #1
.LBB14_76:
	ldr	r1, [sp, #64]
	ldr	r6, [sp, #44]
	str	r0, [r6]
	cmp	r1, #0
	bne	.LBB14_78
	str	r1, [sp, #116]
.LBB14_78:
	ldr	r0, [sp, #116]
	ldr	r1, [sp, #16]
	str	r0, [r1]
	movs	r0, #0
	ldr	r6, [sp, #28]
	strb	r0, [r6, #15]
	strb	r0, [r6, #14]
	strb	r0, [r6, #13]
	ldr	r1, [sp, #52]
	strb	r1, [r6, #12]
	lsrs	r1, r7, #24
	strb	r1, [r6, #11]
	lsrs	r1, r7, #16
	strb	r1, [r6, #10]
	lsrs	r1, r7, #8
	strb	r1, [r6, #9]
	strb	r7, [r6, #8]
	strb	r0, [r6, #7]
	strb	r0, [r6, #6]
	strb	r0, [r6, #5]
	ldr	r1, [sp, #112]
	strb	r1, [r6, #4]
	lsrs	r1, r2, #24
	strb	r1, [r6, #3]
	lsrs	r1, r2, #16
	strb	r1, [r6, #2]
	lsrs	r1, r2, #8
	strb	r1, [r6, #1]
	strb	r2, [r6]
	lsrs	r1, r3, #16
	strb	r1, [r4, #10]
	lsrs	r1, r3, #24
	strb	r1, [r4, #11]
	strb	r3, [r4, #8]
	lsrs	r1, r3, #8
	strb	r1, [r4, #9]
	strb	r0, [r4, #14]
	strb	r0, [r4, #15]
	strb	r5, [r4, #12]
	strb	r0, [r4, #13]
	ldr	r2, [sp, #96]
	lsrs	r1, r2, #16
	strb	r1, [r4, #2]
	lsrs	r1, r2, #24
	strb	r1, [r4, #3]
	strb	r2, [r4]
	lsrs	r1, r2, #8
	strb	r1, [r4, #1]
	strb	r0, [r4, #6]
	strb	r0, [r4, #7]
	ldr	r1, [sp, #108]
	strb	r1, [r4, #4]
	strb	r0, [r4, #5]
	add	sp, #124
	pop	{r4, r5, r6, r7, pc}
.LBB14_79:
	str	r2, [sp, #96]
	str	r6, [sp, #108]
	ldr	r4, [sp, #32]
	ldr	r5, [sp, #84]
	cmp	r2, #0
	bne	.LBB14_67
	b	.LBB14_68
	.p2align	2
.LCPI14_0:
	.long	536870911
.Lfunc_end14:
	.size	ic_raw_lists.transfer_calls.transfer_at.55ebd757a04f39fd, .Lfunc_end14-ic_raw_lists.transfer_calls.transfer_at.55ebd757a04f39fd
	.cfi_endproc
	.section	.text.unlikely.ic_raw.list_calls.splice_slow.5386baa488213e47,"ax",%progbits
	.p2align	1
	.type	ic_raw.list_calls.splice_slow.5386baa488213e47,%function
	.code	16
	.thumb_func
ic_raw.list_calls.splice_slow.5386baa488213e47:
	.cfi_startproc
	push	{r4, r5, r6, r7, lr}
	.cfi_def_cfa_offset 20
	.cfi_offset lr, -4
	.cfi_offset r7, -8
	.cfi_offset r6, -12
	.cfi_offset r5, -16
	.cfi_offset r4, -20
	sub	sp, #92
	.cfi_def_cfa_offset 112
	mov	r4, r3
	str	r2, [sp, #76]
	str	r0, [sp, #88]
	ldr	r0, [sp, #116]
	str	r0, [sp, #4]
	adds	r1, r0, #1
	subs	r0, r1, #1
	mov	r2, r1
	sbcs	r2, r0
	str	r2, [sp, #28]
	ldr	r0, [sp, #120]
	ldr	r2, [r0]
	str	r2, [sp, #24]
	ldr	r2, [r0, #4]
	str	r2, [sp, #32]
	ldr	r2, [r0, #8]
	str	r2, [sp, #72]
	str	r0, [sp, #20]
	ldr	r0, [r0, #12]
	str	r0, [sp, #52]
	movs	r6, #15
	movs	r0, #7
	mvns	r5, r0
	ldr	r0, [sp, #112]
	ldr	r7, [r0]
	ldr	r2, [r0, #4]
	ldr	r3, [r0, #8]
	str	r0, [sp, #16]
	ldr	r0, [r0, #12]
	ands	r0, r6
	ands	r3, r5
	str	r6, [sp, #80]
	ands	r2, r6
	str	r5, [sp, #84]
	ands	r7, r5
	lsrs	r6, r1, #29
	str	r6, [sp, #64]
	lsls	r5, r1, #3
	ldr	r6, [sp, #124]
	cmp	r1, #0
	str	r7, [sp, #48]
	str	r4, [sp, #60]
	str	r2, [sp, #44]
	str	r3, [sp, #68]
	str	r0, [sp, #56]
	beq	.LBB15_5
	movs	r2, #0
	ldr	r0, [sp, #76]
	subs	r1, r0, r1
	sbcs	r4, r2
	bhs	.LBB15_2
	b	.LBB15_28
.LBB15_2:
	lsls	r1, r5, #1
	ldr	r0, [sp, #88]
	adds	r2, r0, r1
	mov	r1, r2
	subs	r1, #16
	ldr	r3, [r1]
	lsls	r7, r3, #31
	bne	.LBB15_3
	b	.LBB15_28
.LBB15_3:
	mov	r0, r3
	lsls	r3, r6, #31
	beq	.LBB15_9
	subs	r2, #8
	ldr	r3, [r2]
	ldr	r1, [r2, #4]
	ldr	r2, [sp, #80]
	ands	r1, r2
	ldr	r2, [sp, #84]
	ands	r3, r2
	ldr	r4, [sp, #60]
	b	.LBB15_6
.LBB15_5:
	lsls	r1, r6, #31
	str	r7, [sp, #36]
	mov	r6, r2
	mov	r1, r0
	ldr	r7, [sp, #36]
	beq	.LBB15_10
.LBB15_6:
	mov	r2, r3
	orrs	r2, r1
	beq	.LBB15_15
	lsrs	r2, r3, #3
	lsls	r7, r1, #29
	adds	r2, r2, r7
	lsrs	r7, r1, #3
	ldr	r0, [sp, #76]
	subs	r2, r0, r2
	sbcs	r4, r7
	bhs	.LBB15_8
	b	.LBB15_28
.LBB15_8:
	movs	r2, #0
	ldr	r4, [sp, #84]
	adds	r0, r4, #1
	str	r0, [sp, #36]
	ldr	r4, [sp, #80]
	adcs	r2, r4
	lsls	r7, r3, #1
	ldr	r0, [sp, #88]
	adds	r7, r0, r7
	subs	r7, #16
	ldm	r7, {r6, r7}
	ands	r7, r2
	ldr	r4, [sp, #64]
	eors	r7, r4
	movs	r0, #1
	mov	r2, r5
	str	r0, [sp, #40]
	orrs	r2, r0
	ldr	r0, [sp, #36]
	ands	r6, r0
	eors	r6, r2
	orrs	r6, r7
	str	r5, [sp, #36]
	str	r4, [sp, #12]
	ldr	r4, [sp, #32]
	mov	r5, r3
	str	r1, [sp, #64]
	ldr	r0, [sp, #28]
	str	r0, [sp, #8]
	beq	.LBB15_17
	b	.LBB15_28
.LBB15_9:
	ldr	r6, [r1, #4]
	ldr	r1, [sp, #84]
	mov	r7, r0
	ands	r7, r1
	ldr	r1, [sp, #80]
	ands	r6, r1
	ldr	r4, [sp, #60]
.LBB15_10:
	mov	r1, r7
	orrs	r1, r6
	subs	r2, r1, #1
	mov	r0, r1
	sbcs	r0, r2
	str	r0, [sp, #8]
	cmp	r1, #0
	ldr	r1, [sp, #68]
	ldr	r3, [sp, #56]
	str	r6, [sp, #12]
	beq	.LBB15_14
	lsrs	r1, r7, #3
	lsls	r2, r6, #29
	adds	r1, r1, r2
	lsrs	r2, r6, #3
	ldr	r3, [sp, #76]
	subs	r1, r3, r1
	sbcs	r4, r2
	bhs	.LBB15_12
	b	.LBB15_28
.LBB15_12:
	mov	r0, r7
	lsls	r1, r7, #1
	ldr	r2, [sp, #88]
	adds	r2, r2, r1
	mov	r1, r2
	subs	r1, #16
	ldrb	r1, [r1]
	lsls	r1, r1, #31
	beq	.LBB15_28
	subs	r2, #8
	ldm	r2!, {r1, r3}
	ldr	r2, [sp, #80]
	ands	r3, r2
	ldr	r2, [sp, #84]
	ands	r1, r2
	mov	r7, r0
.LBB15_14:
	str	r7, [sp, #36]
	eors	r1, r5
	ldr	r2, [sp, #64]
	eors	r3, r2
	orrs	r3, r1
	ldr	r0, [sp, #28]
	str	r0, [sp, #40]
	ldr	r4, [sp, #32]
	beq	.LBB15_17
	b	.LBB15_28
.LBB15_15:
	ldr	r1, [sp, #48]
	eors	r5, r1
	ldr	r1, [sp, #44]
	ldr	r2, [sp, #64]
	eors	r2, r1
	orrs	r2, r5
	ldr	r4, [sp, #32]
	bne	.LBB15_28
	movs	r5, #0
	ldr	r0, [sp, #48]
	str	r0, [sp, #36]
	ldr	r1, [sp, #44]
	str	r1, [sp, #12]
	str	r5, [sp, #64]
	str	r5, [sp, #40]
	ldr	r0, [sp, #28]
	str	r0, [sp, #8]
.LBB15_17:
	ldr	r3, [sp, #52]
	ldr	r6, [sp, #80]
	ands	r3, r6
	ldr	r2, [sp, #72]
	ldr	r1, [sp, #84]
	ands	r2, r1
	ands	r4, r6
	ldr	r7, [sp, #24]
	ands	r7, r1
	mov	r1, r2
	orrs	r1, r3
	beq	.LBB15_27
	str	r2, [sp, #72]
	lsrs	r1, r2, #3
	lsls	r2, r3, #29
	adds	r1, r1, r2
	str	r3, [sp, #52]
	lsrs	r2, r3, #3
	ldr	r0, [sp, #76]
	subs	r1, r0, r1
	ldr	r1, [sp, #60]
	sbcs	r1, r2
	blo	.LBB15_28
	movs	r0, #0
	ldr	r1, [sp, #84]
	adds	r1, r1, #1
	ldr	r3, [sp, #80]
	str	r0, [sp, #28]
	adcs	r3, r0
	mov	r2, r7
	orrs	r2, r4
	beq	.LBB15_28
	ldr	r2, [sp, #72]
	lsls	r2, r2, #1
	ldr	r0, [sp, #88]
	adds	r0, r0, r2
	subs	r0, #16
	ldr	r2, [r0]
	str	r0, [sp, #24]
	ldr	r6, [r0, #4]
	ands	r6, r3
	ands	r2, r1
	movs	r0, #1
	str	r0, [sp, #32]
	eors	r2, r0
	orrs	r2, r6
	bne	.LBB15_28
	lsrs	r1, r7, #3
	lsls	r2, r4, #29
	adds	r1, r1, r2
	lsrs	r2, r4, #3
	ldr	r0, [sp, #76]
	subs	r1, r0, r1
	ldr	r1, [sp, #60]
	sbcs	r1, r2
	blo	.LBB15_28
	lsls	r1, r7, #1
	ldr	r0, [sp, #88]
	adds	r3, r0, r1
	mov	r1, r3
	subs	r1, #16
	ldrb	r1, [r1]
	lsls	r1, r1, #31
	beq	.LBB15_28
	ldr	r1, [sp, #48]
	eors	r1, r7
	ldr	r2, [sp, #44]
	eors	r2, r4
	orrs	r2, r1
	beq	.LBB15_28
	subs	r3, #8
	ldm	r3!, {r1, r2}
	ldr	r6, [sp, #80]
	ands	r2, r6
	ldr	r6, [sp, #84]
	ands	r1, r6
	subs	r3, #8
	orrs	r1, r2
	bne	.LBB15_28
	ldr	r0, [sp, #40]
	cmp	r0, #0
	beq	.LBB15_29
	lsls	r0, r5, #1
	ldr	r1, [sp, #88]
	adds	r0, r1, r0
	subs	r0, #16
	ldr	r1, [sp, #32]
	orrs	r7, r1
	str	r7, [r0]
	str	r4, [r0, #4]
	b	.LBB15_30
.LBB15_27:
	orrs	r7, r4
	beq	.LBB15_40
.LBB15_28:
	ldr	r1, [sp, #4]
	str	r1, [sp]
	ldr	r0, [sp, #88]
	ldr	r2, [sp, #76]
	ldr	r3, [sp, #60]
	bl	ic_raw.table.RawTable.refusal_at.85cd03e557136797
	mov	r4, r0
	mov	r0, r4
	add	sp, #92
	pop	{r4, r5, r6, r7, pc}
.LBB15_29:
	str	r7, [sp, #48]
	str	r4, [sp, #44]
.LBB15_30:
	ldr	r2, [sp, #68]
	ldr	r7, [sp, #8]
	cmp	r7, #0
	ldr	r6, [sp, #36]
	beq	.LBB15_41
	lsls	r0, r6, #1
	ldr	r4, [sp, #88]
	adds	r0, r4, r0
	subs	r0, #8
	ldr	r4, [sp, #72]
	str	r4, [r0]
	ldr	r4, [sp, #52]
	str	r4, [r0, #4]
	ldr	r0, [sp, #56]
	ldr	r4, [sp, #12]
	ldr	r1, [sp, #40]
	cmp	r1, #0
	bne	.LBB15_33
.LBB15_32:
	ldr	r5, [sp, #40]
.LBB15_33:
	str	r0, [sp, #56]
	str	r5, [r3]
	bne	.LBB15_35
	ldr	r0, [sp, #40]
	str	r0, [sp, #64]
.LBB15_35:
	ldr	r0, [sp, #64]
	str	r0, [r3, #4]
	adds	r0, r6, #1
	ldr	r1, [sp, #28]
	adcs	r4, r1
	cmp	r7, #0
	beq	.LBB15_37
	str	r0, [sp, #32]
.LBB15_37:
	str	r2, [sp, #68]
	ldr	r0, [sp, #24]
	ldr	r1, [sp, #32]
	str	r1, [r0]
	bne	.LBB15_39
	mov	r4, r7
.LBB15_39:
	str	r4, [r0, #4]
.LBB15_40:
	movs	r4, #0
	ldr	r2, [sp, #16]
	strb	r4, [r2, #15]
	strb	r4, [r2, #14]
	strb	r4, [r2, #13]
	ldr	r1, [sp, #68]
	strb	r1, [r2, #8]
	strb	r4, [r2, #7]
	strb	r4, [r2, #6]
	strb	r4, [r2, #5]
	ldr	r3, [sp, #48]
	strb	r3, [r2]
	ldr	r0, [sp, #56]
	strb	r0, [r2, #12]
	lsrs	r0, r1, #24
	strb	r0, [r2, #11]
	lsrs	r0, r1, #16
	strb	r0, [r2, #10]
	lsrs	r0, r1, #8
	strb	r0, [r2, #9]
	ldr	r0, [sp, #44]
	strb	r0, [r2, #4]
	lsrs	r0, r3, #24
	strb	r0, [r2, #3]
	lsrs	r0, r3, #16
	strb	r0, [r2, #2]
	lsrs	r0, r3, #8
	strb	r0, [r2, #1]
	str	r4, [sp]
	movs	r2, #16
	ldr	r0, [sp, #20]
	mov	r1, r4
	mov	r3, r4
	bl	ic.clear
	mov	r0, r4
	add	sp, #92
	pop	{r4, r5, r6, r7, pc}
.LBB15_41:
	ldr	r2, [sp, #72]
	ldr	r0, [sp, #52]
	ldr	r4, [sp, #12]
	ldr	r1, [sp, #40]
	cmp	r1, #0
	beq	.LBB15_32
	b	.LBB15_33
.Lfunc_end15:
	.size	ic_raw.list_calls.splice_slow.5386baa488213e47, .Lfunc_end15-ic_raw.list_calls.splice_slow.5386baa488213e47
	.cfi_endproc
	.section	.text.unlikely.ic_raw.table.RawTable.refusal_at.85cd03e557136797,"ax",%progbits
	.p2align	1
	.type	ic_raw.table.RawTable.refusal_at.85cd03e557136797,%function
	.code	16
	.thumb_func
ic_raw.table.RawTable.refusal_at.85cd03e557136797:
	.cfi_startproc
	push	{r4, lr}
	.cfi_def_cfa_offset 8
	.cfi_offset lr, -4
	.cfi_offset r4, -8
	ldr	r1, [sp, #8]
	adds	r1, r1, #1
	blo	.LBB16_2
.LBB16_1:
	movs	r0, #5
	pop	{r4, pc}
.LBB16_2:
	movs	r4, #0
	subs	r2, r2, r1
	sbcs	r3, r4
	bhs	.LBB16_4
	movs	r0, #1
	pop	{r4, pc}
.LBB16_4:
	lsls	r1, r1, #4
	adds	r0, r0, r1
	subs	r0, #16
	ldrb	r0, [r0]
	lsls	r0, r0, #31
	bne	.LBB16_1
	movs	r0, #3
	pop	{r4, pc}
.Lfunc_end16:
	.size	ic_raw.table.RawTable.refusal_at.85cd03e557136797, .Lfunc_end16-ic_raw.table.RawTable.refusal_at.85cd03e557136797
	.cfi_endproc
	.section	.text.unlikely.ic_raw.table.RawTable.refusal.85cd03e557136797,"ax",%progbits
	.p2align	1
	.type	ic_raw.table.RawTable.refusal.85cd03e557136797,%function
	.code	16
	.thumb_func
ic_raw.table.RawTable.refusal.85cd03e557136797:
	.cfi_startproc
	push	{r4, r5, r7, lr}
	.cfi_def_cfa_offset 16
	.cfi_offset lr, -4
	.cfi_offset r7, -8
	.cfi_offset r5, -12
	.cfi_offset r4, -16
	ldr	r1, [sp, #16]
	adds	r1, r1, #1
	blo	.LBB17_5
.LBB17_1:
	ldr	r5, [sp, #20]
	adds	r4, r5, #1
	movs	r1, #1
	cmp	r4, r5
	blo	.LBB17_9
	movs	r5, #0
	subs	r2, r2, r4
	sbcs	r3, r5
	blo	.LBB17_9
	lsls	r1, r4, #4
	adds	r0, r0, r1
	subs	r0, #16
	ldrb	r0, [r0]
	lsls	r0, r0, #31
	beq	.LBB17_10
	movs	r0, #2
	pop	{r4, r5, r7, pc}
.LBB17_5:
	movs	r4, #0
	subs	r5, r2, r1
	mov	r5, r3
	sbcs	r5, r4
	bhs	.LBB17_7
	movs	r0, #1
	pop	{r4, r5, r7, pc}
.LBB17_7:
	lsls	r1, r1, #4
	adds	r1, r0, r1
	subs	r1, #16
	ldrb	r1, [r1]
	lsls	r1, r1, #31
	bne	.LBB17_1
	movs	r1, #3
.LBB17_9:
	mov	r0, r1
	pop	{r4, r5, r7, pc}
.LBB17_10:
	movs	r0, #5
	pop	{r4, r5, r7, pc}
.Lfunc_end17:
	.size	ic_raw.table.RawTable.refusal.85cd03e557136797, .Lfunc_end17-ic_raw.table.RawTable.refusal.85cd03e557136797
	.cfi_endproc
	.section	.text.unlikely.ic_raw.sort_calls.refusal.78cbab63d6c27224,"ax",%progbits
	.p2align	1
	.type	ic_raw.sort_calls.refusal.78cbab63d6c27224,%function
	.code	16
	.thumb_func
ic_raw.sort_calls.refusal.78cbab63d6c27224:
	.cfi_startproc
	subs	r0, r2, r0
	sbcs	r3, r1
	blo	.LBB18_2
	movs	r0, #5
	bx	lr
.LBB18_2:
	movs	r0, #1
	bx	lr
.Lfunc_end18:
	.size	ic_raw.sort_calls.refusal.78cbab63d6c27224, .Lfunc_end18-ic_raw.sort_calls.refusal.78cbab63d6c27224
	.cfi_endproc
	.section	.text.ic_list_algorithms.merge.merge_runs.6bd71b5c7308988e,"ax",%progbits
	.p2align	1
	.type	ic_list_algorithms.merge.merge_runs.6bd71b5c7308988e,%function
	.code	16
	.thumb_func
ic_list_algorithms.merge.merge_runs.6bd71b5c7308988e:
	.cfi_startproc
	push	{r4, r5, r6, r7, lr}
	.cfi_def_cfa_offset 20
	.cfi_offset lr, -4
	.cfi_offset r7, -8
	.cfi_offset r6, -12
	.cfi_offset r5, -16
	.cfi_offset r4, -20
	sub	sp, #36
	.cfi_def_cfa_offset 56
	str	r3, [sp, #12]
	ldrb	r3, [r1]
	ldrb	r4, [r1, #1]
	lsls	r4, r4, #8
	adds	r4, r4, r3
	ldrb	r3, [r1, #2]
	lsls	r5, r3, #16
	ldrb	r3, [r1, #3]
	lsls	r3, r3, #24
	adds	r3, r3, r5
	adds	r3, r3, r4
	str	r2, [sp, #28]
	adds	r2, r3, r2
	subs	r2, #8
	ldr	r6, [r2]
	ldr	r2, [r2, #4]
	str	r2, [sp, #16]
	ldr	r2, [sp, #56]
	adds	r3, r3, r2
	subs	r3, #8
	ldr	r7, [r3]
	ldr	r5, [r3, #4]
	movs	r3, #7
	mvns	r3, r3
	str	r3, [sp, #24]
	str	r0, [sp, #20]
	ldr	r3, [r0]
	movs	r4, #15
	ldr	r0, [sp, #60]
	str	r0, [sp, #32]
	subs	r6, r7, r6
	ldr	r0, [sp, #16]
	sbcs	r5, r0
	str	r4, [sp, #16]
	bhs	.LBB19_3
	ldr	r5, [sp, #28]
	lsls	r0, r2, #1
	adds	r0, r3, r0
	subs	r0, #16
	ldm	r0!, {r6, r7}
	ands	r7, r4
	ldr	r4, [sp, #24]
	ands	r6, r4
	mov	r3, r6
	subs	r0, #8
	orrs	r3, r7
	beq	.LBB19_12
	mov	r0, r2
	ldr	r2, [sp, #32]
	str	r2, [sp, #4]
	ldr	r3, [sp, #12]
	mov	r2, r6
	str	r7, [sp, #32]
	mov	r7, r5
	b	.LBB19_5
.LBB19_3:
	ldr	r0, [sp, #28]
	lsls	r0, r0, #1
	adds	r6, r3, r0
	subs	r6, #16
	ldr	r7, [r6]
	ldr	r3, [r6, #4]
	ands	r3, r4
	ldr	r4, [sp, #24]
	ands	r7, r4
	mov	r5, r7
	orrs	r5, r3
	ldr	r0, [sp, #28]
	beq	.LBB19_13
	ldr	r5, [sp, #12]
	str	r5, [sp, #4]
.LBB19_5:
	str	r0, [sp, #8]
	mov	r6, r0
.LBB19_6:
	mov	r5, r6
	str	r3, [sp, #12]
	str	r7, [sp, #28]
	mov	r3, r2
.LBB19_7:
	mov	r2, r3
	ldrb	r3, [r1]
	ldrb	r6, [r1, #1]
	lsls	r6, r6, #8
	adds	r3, r6, r3
	ldrb	r6, [r1, #2]
	lsls	r6, r6, #16
	ldrb	r7, [r1, #3]
	lsls	r7, r7, #24
	adds	r6, r7, r6
	adds	r3, r6, r3
	ldr	r0, [sp, #28]
	adds	r6, r3, r0
	subs	r6, #8
	ldr	r7, [r6]
	ldr	r6, [r6, #4]
	adds	r3, r3, r2
	subs	r3, #8
	ldm	r3!, {r0, r4}
	lsls	r5, r5, #1
	ldr	r3, [sp, #20]
	ldr	r3, [r3]
	adds	r5, r3, r5
	subs	r5, #16
	subs	r0, r0, r7
	sbcs	r4, r6
	bhs	.LBB19_9
	lsls	r6, r2, #1
	adds	r0, r3, r6
	subs	r0, #16
	ldr	r3, [r0]
	movs	r7, #1
	mov	r4, r2
	orrs	r4, r7
	str	r4, [r5]
	ldr	r0, [r0, #4]
	ldr	r4, [sp, #32]
	str	r4, [r5, #4]
	ldr	r4, [sp, #16]
	ands	r0, r4
	ldr	r4, [sp, #24]
	ands	r3, r4
	mov	r4, r3
	orrs	r4, r0
	str	r0, [sp, #32]
	mov	r5, r2
	bne	.LBB19_7
	b	.LBB19_11
.LBB19_9:
	ldr	r6, [sp, #28]
	lsls	r0, r6, #1
	str	r0, [sp]
	adds	r0, r3, r0
	subs	r0, #16
	ldr	r7, [r0]
	movs	r3, #1
	orrs	r3, r6
	str	r3, [r5]
	ldr	r3, [r0, #4]
	ldr	r0, [sp, #12]
	str	r0, [r5, #4]
	ldr	r0, [sp, #16]
	ands	r3, r0
	ldr	r4, [sp, #24]
	ands	r7, r4
	mov	r0, r7
	orrs	r0, r3
	bne	.LBB19_6
	movs	r0, #0
	adds	r1, r2, #1
	ldr	r2, [sp, #32]
	adcs	r2, r0
	ldr	r0, [sp, #20]
	ldr	r0, [r0]
	ldr	r3, [sp]
	adds	r0, r0, r3
	subs	r0, #16
	stm	r0!, {r1, r2}
	ldr	r0, [sp, #8]
	ldr	r1, [sp, #4]
	add	sp, #36
	pop	{r4, r5, r6, r7, pc}
.LBB19_11:
	ldr	r0, [sp, #20]
	ldr	r0, [r0]
	adds	r0, r0, r6
	subs	r0, #16
	ldr	r1, [sp, #28]
	orrs	r1, r7
	str	r1, [r0]
	ldr	r1, [sp, #12]
	str	r1, [r0, #4]
	ldr	r0, [sp, #8]
	ldr	r1, [sp, #4]
	add	sp, #36
	pop	{r4, r5, r6, r7, pc}
.LBB19_12:
	movs	r1, #1
	orrs	r5, r1
	str	r5, [r0]
	ldr	r1, [sp, #12]
	str	r1, [r0, #4]
	mov	r0, r2
	ldr	r1, [sp, #32]
	add	sp, #36
	pop	{r4, r5, r6, r7, pc}
.LBB19_13:
	movs	r1, #1
	orrs	r2, r1
	str	r2, [r6]
	ldr	r1, [sp, #32]
	str	r1, [r6, #4]
	ldr	r1, [sp, #12]
	add	sp, #36
	pop	{r4, r5, r6, r7, pc}
.Lfunc_end19:
	.size	ic_list_algorithms.merge.merge_runs.6bd71b5c7308988e, .Lfunc_end19-ic_list_algorithms.merge.merge_runs.6bd71b5c7308988e
	.cfi_endproc
	.section	.text.unlikely.ic_raw.move_calls.move_slow.5386baa488213e47,"ax",%progbits
	.p2align	1
	.type	ic_raw.move_calls.move_slow.5386baa488213e47,%function
	.code	16
	.thumb_func
ic_raw.move_calls.move_slow.5386baa488213e47:
	.cfi_startproc
	push	{r4, r5, r6, r7, lr}
	.cfi_def_cfa_offset 20
	.cfi_offset lr, -4
	.cfi_offset r7, -8
	.cfi_offset r6, -12
	.cfi_offset r5, -16
	.cfi_offset r4, -20
	sub	sp, #116
	.cfi_def_cfa_offset 136
	str	r3, [sp, #108]
	str	r2, [sp, #104]
	str	r0, [sp, #112]
	ldr	r0, [sp, #148]
	adds	r1, r0, #1
	blo	.LBB20_3
	movs	r1, #4
.LBB20_2:
	mov	r0, r1
	add	sp, #116
	pop	{r4, r5, r6, r7, pc}
.LBB20_3:
	str	r1, [sp, #84]
	str	r0, [sp, #44]
	ldr	r1, [sp, #144]
	ldr	r0, [sp, #140]
	str	r0, [sp, #80]
	ldr	r0, [sp, #136]
	str	r1, [sp, #40]
	adds	r3, r1, #1
	subs	r4, r3, #1
	mov	r1, r3
	sbcs	r1, r4
	str	r1, [sp, #76]
	ldm	r0!, {r2, r5, r6}
	subs	r0, #12
	str	r0, [sp, #28]
	ldr	r7, [r0, #12]
	movs	r0, #15
	ands	r7, r0
	movs	r4, #7
	mvns	r1, r4
	ands	r6, r1
	str	r0, [sp, #100]
	ands	r5, r0
	str	r1, [sp, #96]
	ands	r2, r1
	lsrs	r0, r3, #29
	str	r0, [sp, #88]
	lsls	r0, r3, #3
	str	r0, [sp, #92]
	cmp	r3, #0
	str	r6, [sp, #68]
	str	r2, [sp, #60]
	str	r7, [sp, #72]
	str	r5, [sp, #64]
	beq	.LBB20_8
	ldr	r2, [sp, #80]
	movs	r4, #0
	ldr	r0, [sp, #104]
	subs	r3, r0, r3
	ldr	r3, [sp, #108]
	sbcs	r3, r4
	bhs	.LBB20_5
	b	.LBB20_43
.LBB20_5:
	ldr	r0, [sp, #92]
	lsls	r3, r0, #1
	ldr	r0, [sp, #112]
	adds	r3, r0, r3
	mov	r4, r3
	subs	r4, #16
	ldr	r1, [r4]
	lsls	r6, r1, #31
	bne	.LBB20_6
	b	.LBB20_43
.LBB20_6:
	lsls	r2, r2, #31
	beq	.LBB20_12
	subs	r3, #8
	ldm	r3, {r2, r3}
	ldr	r0, [sp, #100]
	ands	r3, r0
	ldr	r0, [sp, #96]
	ands	r2, r0
	ldr	r1, [sp, #60]
	b	.LBB20_9
.LBB20_8:
	mov	r1, r2
	ldr	r0, [sp, #80]
	lsls	r2, r0, #31
	mov	r0, r1
	mov	r2, r6
	mov	r3, r7
	beq	.LBB20_13
.LBB20_9:
	mov	r4, r2
	orrs	r4, r3
	ldr	r4, [sp, #84]
	beq	.LBB20_18
	lsrs	r4, r2, #3
	lsls	r6, r3, #29
	adds	r4, r4, r6
	lsrs	r6, r3, #3
	ldr	r0, [sp, #104]
	subs	r4, r0, r4
	ldr	r4, [sp, #108]
	sbcs	r4, r6
	bhs	.LBB20_11
	b	.LBB20_43
.LBB20_11:
	movs	r6, #0
	ldr	r0, [sp, #96]
	adds	r0, r0, #1
	str	r0, [sp, #80]
	ldr	r0, [sp, #100]
	adcs	r6, r0
	lsls	r7, r2, #1
	ldr	r0, [sp, #112]
	adds	r7, r0, r7
	subs	r7, #16
	ldm	r7, {r0, r7}
	ands	r7, r6
	ldr	r5, [sp, #88]
	eors	r7, r5
	movs	r1, #1
	ldr	r4, [sp, #92]
	mov	r6, r4
	str	r1, [sp, #48]
	orrs	r6, r1
	ldr	r1, [sp, #80]
	ands	r0, r1
	eors	r0, r6
	orrs	r0, r7
	str	r4, [sp, #32]
	str	r5, [sp, #36]
	ldr	r4, [sp, #84]
	str	r2, [sp, #92]
	str	r3, [sp, #88]
	ldr	r0, [sp, #76]
	str	r0, [sp, #56]
	beq	.LBB20_20
	b	.LBB20_43
.LBB20_12:
	mov	r0, r1
	ldr	r5, [r4, #4]
	ldr	r1, [sp, #96]
	ands	r0, r1
	ldr	r1, [sp, #100]
	ands	r5, r1
	ldr	r6, [sp, #68]
.LBB20_13:
	mov	r2, r0
	orrs	r2, r5
	subs	r3, r2, #1
	mov	r1, r2
	sbcs	r1, r3
	str	r1, [sp, #56]
	cmp	r2, #0
	mov	r2, r6
	ldr	r3, [sp, #72]
	beq	.LBB20_17
	mov	r4, r0
	lsrs	r2, r0, #3
	lsls	r3, r5, #29
	adds	r2, r2, r3
	lsrs	r3, r5, #3
	ldr	r0, [sp, #104]
	subs	r2, r0, r2
	ldr	r2, [sp, #108]
	sbcs	r2, r3
	bhs	.LBB20_15
	b	.LBB20_43
.LBB20_15:
	lsls	r2, r4, #1
	ldr	r0, [sp, #112]
	adds	r3, r0, r2
	mov	r2, r3
	subs	r2, #16
	ldrb	r2, [r2]
	lsls	r2, r2, #31
	bne	.LBB20_16
	b	.LBB20_43
.LBB20_16:
	subs	r3, #8
	ldm	r3, {r2, r3}
	ldr	r0, [sp, #100]
	ands	r3, r0
	ldr	r0, [sp, #96]
	ands	r2, r0
	mov	r0, r4
.LBB20_17:
	str	r0, [sp, #32]
	str	r5, [sp, #36]
	ldr	r0, [sp, #92]
	eors	r2, r0
	ldr	r0, [sp, #88]
	eors	r3, r0
	orrs	r3, r2
	ldr	r0, [sp, #76]
	str	r0, [sp, #48]
	ldr	r4, [sp, #84]
	beq	.LBB20_20
	b	.LBB20_43
.LBB20_18:
	mov	r0, r1
	ldr	r1, [sp, #92]
	eors	r1, r0
	ldr	r0, [sp, #88]
	ldr	r2, [sp, #64]
	eors	r0, r2
	orrs	r0, r1
	beq	.LBB20_19
	b	.LBB20_43
.LBB20_19:
	movs	r0, #0
	ldr	r1, [sp, #60]
	str	r1, [sp, #32]
	ldr	r1, [sp, #64]
	str	r1, [sp, #36]
	str	r0, [sp, #88]
	str	r0, [sp, #92]
	str	r0, [sp, #48]
	ldr	r0, [sp, #76]
	str	r0, [sp, #56]
.LBB20_20:
	movs	r1, #0
	ldr	r0, [sp, #104]
	subs	r0, r0, r4
	ldr	r0, [sp, #108]
	sbcs	r0, r1
	bhs	.LBB20_21
	b	.LBB20_43
.LBB20_21:
	lsls	r0, r4, #3
	str	r0, [sp, #84]
	lsls	r0, r0, #1
	ldr	r2, [sp, #112]
	adds	r0, r2, r0
	mov	r2, r0
	subs	r0, #16
	str	r0, [sp, #52]
	ldr	r0, [r0]
	str	r0, [sp, #80]
	lsls	r0, r0, #31
	bne	.LBB20_22
	b	.LBB20_43
.LBB20_22:
	lsrs	r3, r4, #29
	ldr	r0, [sp, #52]
	ldr	r0, [r0, #4]
	str	r0, [sp, #76]
	mov	r0, r2
	subs	r0, #8
	ldr	r2, [r0]
	str	r0, [sp, #24]
	ldr	r0, [r0, #4]
	ldr	r4, [sp, #100]
	ands	r0, r4
	ldr	r4, [sp, #96]
	ands	r2, r4
	mov	r6, r2
	orrs	r6, r0
	rsbs	r4, r6, #0
	adcs	r4, r6
	str	r4, [sp, #16]
	cmp	r6, #0
	str	r0, [sp, #20]
	beq	.LBB20_25
	lsrs	r6, r2, #3
	lsls	r7, r0, #29
	adds	r6, r6, r7
	lsrs	r7, r0, #3
	ldr	r4, [sp, #104]
	subs	r6, r4, r6
	ldr	r6, [sp, #108]
	sbcs	r6, r7
	blo	.LBB20_43
	ldr	r4, [sp, #96]
	adds	r6, r4, #1
	ldr	r7, [sp, #100]
	adcs	r7, r1
	lsls	r5, r2, #1
	ldr	r4, [sp, #112]
	adds	r5, r4, r5
	subs	r5, #16
	ldm	r5, {r4, r5}
	ands	r5, r7
	eors	r5, r3
	movs	r7, #1
	ldr	r0, [sp, #84]
	orrs	r7, r0
	mov	r0, r3
	ands	r4, r6
	eors	r4, r7
	orrs	r4, r5
	ldr	r7, [sp, #72]
	beq	.LBB20_26
	b	.LBB20_43
.LBB20_25:
	ldr	r4, [sp, #60]
	ldr	r0, [sp, #84]
	eors	r4, r0
	ldr	r5, [sp, #64]
	eors	r5, r3
	orrs	r5, r4
	ldr	r7, [sp, #72]
	mov	r0, r3
	bne	.LBB20_43
.LBB20_26:
	ldr	r4, [sp, #96]
	ldr	r3, [sp, #80]
	ands	r3, r4
	ldr	r4, [sp, #100]
	ldr	r5, [sp, #76]
	ands	r5, r4
	str	r3, [sp, #80]
	mov	r4, r3
	str	r5, [sp, #76]
	orrs	r4, r5
	rsbs	r3, r4, #0
	adcs	r3, r4
	str	r3, [sp, #12]
	cmp	r4, #0
	ldr	r6, [sp, #68]
	beq	.LBB20_30
	ldr	r3, [sp, #80]
	lsrs	r4, r3, #3
	ldr	r3, [sp, #76]
	lsls	r5, r3, #29
	adds	r4, r4, r5
	lsrs	r5, r3, #3
	ldr	r6, [sp, #104]
	subs	r4, r6, r4
	ldr	r4, [sp, #108]
	sbcs	r4, r5
	blo	.LBB20_43
	ldr	r3, [sp, #80]
	lsls	r4, r3, #1
	ldr	r5, [sp, #112]
	adds	r7, r5, r4
	mov	r4, r7
	subs	r4, #16
	ldrb	r4, [r4]
	lsls	r4, r4, #31
	beq	.LBB20_43
	subs	r7, #8
	ldm	r7, {r6, r7}
	ldr	r4, [sp, #100]
	ands	r7, r4
	ldr	r4, [sp, #96]
	ands	r6, r4
.LBB20_30:
	ldr	r4, [sp, #84]
	eors	r6, r4
	eors	r7, r0
	orrs	r7, r6
	bne	.LBB20_43
	ldr	r4, [sp, #48]
	cmp	r4, #0
	ldr	r5, [sp, #92]
	bne	.LBB20_33
	mov	r5, r4
.LBB20_33:
	ldr	r7, [sp, #84]
	bne	.LBB20_35
	str	r4, [sp, #88]
.LBB20_35:
	ldr	r4, [sp, #88]
	eors	r4, r0
	mov	r6, r5
	eors	r6, r7
	orrs	r6, r4
	bne	.LBB20_36
	b	.LBB20_2
.LBB20_36:
	ldr	r4, [sp, #56]
	cmp	r4, #0
	ldr	r6, [sp, #32]
	bne	.LBB20_38
	ldr	r6, [sp, #56]
.LBB20_38:
	ldr	r7, [sp, #36]
	bne	.LBB20_40
	ldr	r7, [sp, #56]
.LBB20_40:
	eors	r7, r0
	ldr	r4, [sp, #84]
	eors	r6, r4
	orrs	r6, r7
	bne	.LBB20_41
	b	.LBB20_2
.LBB20_41:
	ldr	r1, [sp, #16]
	cmp	r1, #0
	bne	.LBB20_44
	lsls	r1, r2, #1
	ldr	r4, [sp, #112]
	adds	r1, r4, r1
	subs	r1, #16
	movs	r4, #1
	ldr	r3, [sp, #80]
	orrs	r4, r3
	str	r4, [r1]
	ldr	r3, [sp, #76]
	str	r3, [r1, #4]
	b	.LBB20_45
.LBB20_43:
	ldr	r0, [sp, #40]
	str	r0, [sp]
	ldr	r0, [sp, #44]
	str	r0, [sp, #4]
	ldr	r0, [sp, #112]
	ldr	r2, [sp, #104]
	ldr	r3, [sp, #108]
	bl	ic_raw.table.RawTable.refusal_at_both.85cd03e557136797
	mov	r1, r0
	mov	r0, r1
	add	sp, #116
	pop	{r4, r5, r6, r7, pc}
.LBB20_44:
	ldr	r1, [sp, #80]
	str	r1, [sp, #60]
	ldr	r1, [sp, #76]
	str	r1, [sp, #64]
.LBB20_45:
	ldr	r6, [sp, #28]
	ldr	r1, [sp, #12]
	cmp	r1, #0
	str	r0, [sp, #8]
	bne	.LBB20_47
	ldr	r0, [sp, #80]
	lsls	r1, r0, #1
	ldr	r3, [sp, #112]
	adds	r1, r3, r1
	subs	r1, #8
	str	r2, [r1]
	ldr	r0, [sp, #20]
	str	r0, [r1, #4]
	b	.LBB20_48
.LBB20_47:
	str	r2, [sp, #68]
	ldr	r0, [sp, #20]
	str	r0, [sp, #72]
.LBB20_48:
	ldr	r1, [sp, #64]
	ldr	r4, [sp, #36]
	ldr	r0, [sp, #48]
	cmp	r0, #0
	ldr	r2, [sp, #84]
	mov	r7, r2
	ldr	r3, [sp, #8]
	mov	r0, r3
	beq	.LBB20_50
	ldr	r0, [sp, #92]
	lsls	r0, r0, #1
	str	r1, [sp, #64]
	ldr	r1, [sp, #112]
	adds	r0, r1, r0
	subs	r0, #16
	movs	r1, #1
	orrs	r1, r2
	stm	r0!, {r1, r3}
	ldr	r7, [sp, #60]
	ldr	r0, [sp, #64]
.LBB20_50:
	str	r0, [sp, #108]
	ldr	r0, [sp, #56]
	cmp	r0, #0
	beq	.LBB20_52
	ldr	r0, [sp, #32]
	lsls	r1, r0, #1
	ldr	r3, [sp, #112]
	adds	r1, r3, r1
	subs	r1, #8
	ldr	r2, [sp, #84]
	str	r2, [r1]
	ldr	r2, [sp, #8]
	str	r2, [r1, #4]
	ldr	r2, [sp, #68]
	b	.LBB20_53
.LBB20_52:
	ldr	r2, [sp, #84]
	ldr	r0, [sp, #8]
	str	r0, [sp, #72]
	ldr	r0, [sp, #32]
.LBB20_53:
	ldr	r3, [sp, #24]
	str	r5, [r3]
	ldr	r1, [sp, #88]
	str	r1, [r3, #4]
	movs	r1, #0
	adds	r3, r0, #1
	adcs	r4, r1
	mov	r5, r4
	movs	r4, #1
	ldr	r0, [sp, #56]
	cmp	r0, #0
	beq	.LBB20_55
	mov	r4, r3
.LBB20_55:
	ldr	r0, [sp, #52]
	str	r4, [r0]
	ldr	r4, [sp, #72]
	bne	.LBB20_57
	ldr	r5, [sp, #56]
.LBB20_57:
	ldr	r0, [sp, #52]
	str	r5, [r0, #4]
	lsrs	r3, r2, #24
	strb	r3, [r6, #11]
	lsrs	r3, r2, #16
	strb	r3, [r6, #10]
	lsrs	r3, r2, #8
	strb	r3, [r6, #9]
	strb	r2, [r6, #8]
	strb	r1, [r6, #15]
	strb	r1, [r6, #14]
	strb	r1, [r6, #13]
	strb	r4, [r6, #12]
	lsrs	r3, r7, #24
	strb	r3, [r6, #3]
	lsrs	r3, r7, #16
	strb	r3, [r6, #2]
	lsrs	r3, r7, #8
	strb	r3, [r6, #1]
	strb	r7, [r6]
	strb	r1, [r6, #7]
	strb	r1, [r6, #6]
	strb	r1, [r6, #5]
	ldr	r0, [sp, #108]
	strb	r0, [r6, #4]
	mov	r0, r1
	add	sp, #116
	pop	{r4, r5, r6, r7, pc}
.Lfunc_end20:
	.size	ic_raw.move_calls.move_slow.5386baa488213e47, .Lfunc_end20-ic_raw.move_calls.move_slow.5386baa488213e47
	.cfi_endproc
	.section	.text.unlikely.ic_raw.table.RawTable.refusal_at_both.85cd03e557136797,"ax",%progbits
	.p2align	1
	.type	ic_raw.table.RawTable.refusal_at_both.85cd03e557136797,%function
	.code	16
	.thumb_func
ic_raw.table.RawTable.refusal_at_both.85cd03e557136797:
	.cfi_startproc
	push	{r4, r5, r7, lr}
	.cfi_def_cfa_offset 16
	.cfi_offset lr, -4
	.cfi_offset r7, -8
	.cfi_offset r5, -12
	.cfi_offset r4, -16
	ldr	r1, [sp, #16]
	adds	r1, r1, #1
	blo	.LBB21_3
.LBB21_1:
	ldr	r1, [sp, #20]
	adds	r1, r1, #1
	blo	.LBB21_5
	movs	r0, #5
	pop	{r4, r5, r7, pc}
.LBB21_3:
	movs	r4, #0
	subs	r5, r2, r1
	mov	r5, r3
	sbcs	r5, r4
	bhs	.LBB21_7
	movs	r0, #1
	pop	{r4, r5, r7, pc}
.LBB21_5:
	movs	r4, #0
	subs	r2, r2, r1
	sbcs	r3, r4
	bhs	.LBB21_8
	movs	r0, #1
	pop	{r4, r5, r7, pc}
.LBB21_7:
	lsls	r1, r1, #4
	adds	r1, r0, r1
	subs	r1, #16
	ldrb	r1, [r1]
	lsls	r1, r1, #31
	bne	.LBB21_1
	b	.LBB21_10
.LBB21_8:
	lsls	r1, r1, #4
	adds	r0, r0, r1
	subs	r0, #16
	ldrb	r0, [r0]
	lsls	r0, r0, #31
	beq	.LBB21_10
	movs	r0, #5
	pop	{r4, r5, r7, pc}
.LBB21_10:
	movs	r0, #3
	pop	{r4, r5, r7, pc}
.Lfunc_end21:
	.size	ic_raw.table.RawTable.refusal_at_both.85cd03e557136797, .Lfunc_end21-ic_raw.table.RawTable.refusal_at_both.85cd03e557136797
	.cfi_endproc
	.section	.text.unlikely.ic_raw.move_calls.move_to_end_slow.5386baa488213e47,"ax",%progbits
	.p2align	1
	.type	ic_raw.move_calls.move_to_end_slow.5386baa488213e47,%function
	.code	16
	.thumb_func
ic_raw.move_calls.move_to_end_slow.5386baa488213e47:
	.cfi_startproc
	push	{r4, r5, r6, r7, lr}
	.cfi_def_cfa_offset 20
	.cfi_offset lr, -4
	.cfi_offset r7, -8
	.cfi_offset r6, -12
	.cfi_offset r5, -16
	.cfi_offset r4, -20
	sub	sp, #60
	.cfi_def_cfa_offset 80
	str	r2, [sp, #52]
	str	r0, [sp, #56]
	ldr	r0, [sp, #88]
	adds	r2, r0, #1
	blo	.LBB22_2
	movs	r0, #4
	add	sp, #60
	pop	{r4, r5, r6, r7, pc}
.LBB22_2:
	str	r0, [sp, #20]
	str	r3, [sp, #40]
	lsrs	r0, r2, #29
	str	r0, [sp, #48]
	lsls	r0, r2, #3
	str	r0, [sp, #44]
	ldr	r5, [sp, #84]
	ldr	r0, [sp, #80]
	ldr	r4, [r0]
	ldr	r3, [r0, #4]
	ldr	r6, [r0, #8]
	str	r0, [sp, #32]
	ldr	r1, [r0, #12]
	movs	r7, #15
	ands	r1, r7
	movs	r0, #7
	mvns	r0, r0
	ands	r6, r0
	str	r7, [sp, #28]
	ands	r3, r7
	ands	r4, r0
	str	r4, [sp, #36]
	str	r5, [sp, #16]
	lsls	r5, r5, #31
	beq	.LBB22_15
	str	r6, [sp, #24]
	movs	r7, #0
	ldr	r5, [sp, #52]
	subs	r2, r5, r2
	ldr	r2, [sp, #40]
	sbcs	r2, r7
	bhs	.LBB22_4
	b	.LBB22_36
.LBB22_4:
	ldr	r2, [sp, #44]
	ldr	r4, [sp, #36]
	eors	r4, r2
	ldr	r2, [sp, #48]
	eors	r3, r2
	orrs	r3, r4
	beq	.LBB22_5
	b	.LBB22_36
.LBB22_5:
	ldr	r2, [sp, #44]
	lsls	r2, r2, #1
	ldr	r4, [sp, #56]
	adds	r2, r4, r2
	mov	r4, r2
	subs	r4, #8
	ldr	r5, [r4]
	ldr	r4, [r4, #4]
	orrs	r4, r5
	beq	.LBB22_6
	b	.LBB22_36
.LBB22_6:
	subs	r2, #16
	ldr	r5, [r2]
	lsls	r4, r5, #31
	bne	.LBB22_7
	b	.LBB22_36
.LBB22_7:
	ldr	r4, [r2, #4]
	ands	r5, r0
	ldr	r0, [sp, #28]
	ands	r4, r0
	mov	r2, r5
	orrs	r2, r4
	rsbs	r0, r2, #0
	adcs	r0, r2
	lsrs	r2, r5, #3
	lsls	r3, r4, #29
	adds	r3, r2, r3
	str	r4, [sp, #36]
	lsrs	r4, r4, #3
	movs	r2, #1
	ldr	r6, [sp, #52]
	subs	r3, r6, r3
	ldr	r3, [sp, #40]
	sbcs	r3, r4
	mov	r3, r2
	blo	.LBB22_9
	mov	r3, r7
.LBB22_9:
	orrs	r0, r3
	beq	.LBB22_10
	b	.LBB22_36
.LBB22_10:
	lsls	r0, r5, #1
	ldr	r3, [sp, #56]
	adds	r3, r3, r0
	mov	r0, r3
	subs	r0, #8
	ldm	r0!, {r4, r7}
	ldr	r6, [sp, #48]
	eors	r7, r6
	ldr	r6, [sp, #44]
	eors	r4, r6
	subs	r0, #8
	orrs	r4, r7
	beq	.LBB22_11
	b	.LBB22_36
.LBB22_11:
	subs	r3, #16
	ldr	r3, [r3]
	lsls	r3, r3, #31
	bne	.LBB22_12
	b	.LBB22_36
.LBB22_12:
	ldr	r7, [sp, #24]
	lsrs	r3, r7, #3
	lsls	r4, r1, #29
	adds	r3, r3, r4
	lsrs	r4, r1, #3
	ldr	r6, [sp, #52]
	subs	r3, r6, r3
	ldr	r3, [sp, #40]
	sbcs	r3, r4
	bhs	.LBB22_13
	b	.LBB22_30
.LBB22_13:
	movs	r3, #0
	mov	r4, r7
	orrs	r4, r1
	beq	.LBB22_14
	b	.LBB22_31
.LBB22_14:
	b	.LBB22_32
.LBB22_15:
	ldr	r4, [sp, #44]
	eors	r6, r4
	ldr	r4, [sp, #48]
	eors	r1, r4
	orrs	r1, r6
	str	r3, [sp, #24]
	beq	.LBB22_16
	b	.LBB22_36
.LBB22_16:
	movs	r1, #0
	ldr	r5, [sp, #52]
	subs	r2, r5, r2
	ldr	r2, [sp, #40]
	sbcs	r2, r1
	bhs	.LBB22_17
	b	.LBB22_36
.LBB22_17:
	ldr	r2, [sp, #44]
	lsls	r2, r2, #1
	ldr	r5, [sp, #56]
	adds	r6, r5, r2
	mov	r2, r6
	subs	r2, #16
	ldr	r5, [r2]
	ldr	r2, [r2, #4]
	movs	r7, #1
	eors	r5, r7
	orrs	r5, r2
	beq	.LBB22_18
	b	.LBB22_36
.LBB22_18:
	subs	r6, #8
	ldm	r6!, {r2, r4}
	ldr	r3, [sp, #28]
	ands	r4, r3
	ands	r2, r0
	mov	r3, r2
	orrs	r3, r4
	rsbs	r0, r3, #0
	adcs	r0, r3
	lsls	r3, r4, #29
	lsrs	r5, r2, #3
	adds	r3, r5, r3
	lsrs	r5, r4, #3
	ldr	r6, [sp, #52]
	subs	r3, r6, r3
	ldr	r3, [sp, #40]
	sbcs	r3, r5
	mov	r3, r7
	blo	.LBB22_20
	mov	r3, r1
.LBB22_20:
	orrs	r0, r3
	beq	.LBB22_21
	b	.LBB22_36
.LBB22_21:
	movs	r1, #1
	ldr	r5, [sp, #44]
	orrs	r5, r1
	lsls	r0, r2, #1
	ldr	r3, [sp, #56]
	adds	r0, r3, r0
	subs	r0, #16
	ldr	r6, [r0]
	ldr	r3, [r0, #4]
	eors	r6, r5
	ldr	r5, [sp, #48]
	eors	r3, r5
	orrs	r3, r6
	beq	.LBB22_22
	b	.LBB22_36
.LBB22_22:
	str	r1, [sp, #28]
	ldr	r3, [sp, #36]
	lsrs	r3, r3, #3
	ldr	r1, [sp, #24]
	lsls	r5, r1, #29
	adds	r3, r3, r5
	lsrs	r5, r1, #3
	ldr	r6, [sp, #52]
	subs	r3, r6, r3
	ldr	r3, [sp, #40]
	sbcs	r3, r5
	bhs	.LBB22_25
	ldr	r3, [sp, #36]
	ldr	r1, [sp, #24]
	orrs	r3, r1
	bne	.LBB22_26
.LBB22_24:
	cmp	r7, #0
	beq	.LBB22_27
	b	.LBB22_36
.LBB22_25:
	movs	r1, #0
	str	r1, [sp, #28]
	ldr	r3, [sp, #36]
	ldr	r1, [sp, #24]
	orrs	r3, r1
	beq	.LBB22_24
.LBB22_26:
	ldr	r7, [sp, #28]
	cmp	r7, #0
	bne	.LBB22_36
.LBB22_27:
	ldr	r3, [sp, #36]
	lsls	r3, r3, #1
	ldr	r5, [sp, #56]
	adds	r5, r5, r3
	mov	r3, r5
	subs	r3, #8
	ldm	r3!, {r1, r6}
	subs	r3, #8
	orrs	r6, r1
	bne	.LBB22_36
	subs	r5, #16
	ldr	r5, [r5]
	lsls	r5, r5, #31
	beq	.LBB22_36
	movs	r5, #1
	str	r4, [sp, #40]
	movs	r4, #0
	str	r5, [r0]
	str	r4, [r0, #4]
	ldr	r6, [sp, #44]
	str	r6, [r3]
	ldr	r0, [sp, #48]
	str	r0, [r3, #4]
	ldr	r7, [sp, #36]
	orrs	r7, r5
	mov	r5, r6
	str	r0, [sp, #36]
	ldr	r1, [sp, #24]
	str	r4, [sp, #52]
	ldr	r0, [sp, #40]
	str	r0, [sp, #48]
	b	.LBB22_35
.LBB22_30:
	movs	r3, #1
	mov	r4, r7
	orrs	r4, r1
	beq	.LBB22_32
.LBB22_31:
	mov	r2, r3
.LBB22_32:
	cmp	r2, #0
	bne	.LBB22_36
	mov	r3, r1
	ldr	r1, [sp, #24]
	lsls	r2, r1, #1
	mov	r1, r3
	ldr	r3, [sp, #56]
	adds	r2, r3, r2
	subs	r2, #16
	ldm	r2!, {r3, r4}
	movs	r6, #1
	eors	r3, r6
	subs	r2, #8
	orrs	r3, r4
	bne	.LBB22_36
	mov	r7, r6
	str	r1, [sp, #52]
	movs	r1, #0
	str	r1, [r0]
	str	r1, [r0, #4]
	ldr	r6, [sp, #44]
	mov	r0, r6
	orrs	r0, r7
	str	r0, [r2]
	ldr	r0, [sp, #48]
	str	r0, [r2, #4]
	mov	r2, r6
	ldr	r4, [sp, #24]
.LBB22_35:
	lsls	r0, r6, #1
	ldr	r3, [sp, #56]
	adds	r0, r3, r0
	mov	r3, r0
	subs	r3, #16
	str	r7, [r3]
	str	r1, [r3, #4]
	subs	r0, #8
	str	r4, [r0]
	ldr	r1, [sp, #52]
	str	r1, [r0, #4]
	lsrs	r0, r2, #24
	ldr	r1, [sp, #32]
	strb	r0, [r1, #11]
	lsrs	r0, r2, #16
	strb	r0, [r1, #10]
	lsrs	r0, r2, #8
	strb	r0, [r1, #9]
	strb	r2, [r1, #8]
	movs	r0, #0
	strb	r0, [r1, #15]
	strb	r0, [r1, #14]
	strb	r0, [r1, #13]
	ldr	r2, [sp, #48]
	strb	r2, [r1, #12]
	lsrs	r2, r5, #24
	strb	r2, [r1, #3]
	lsrs	r2, r5, #16
	strb	r2, [r1, #2]
	lsrs	r2, r5, #8
	strb	r2, [r1, #1]
	strb	r5, [r1]
	strb	r0, [r1, #7]
	strb	r0, [r1, #6]
	strb	r0, [r1, #5]
	ldr	r2, [sp, #36]
	strb	r2, [r1, #4]
	add	sp, #60
	pop	{r4, r5, r6, r7, pc}
.LBB22_36:
	movs	r0, #0
	mvns	r0, r0
	ldr	r1, [sp, #32]
	str	r1, [sp]
	ldr	r1, [sp, #16]
	str	r1, [sp, #4]
	str	r0, [sp, #8]
	ldr	r0, [sp, #20]
	str	r0, [sp, #12]
	ldr	r0, [sp, #56]
	ldr	r2, [sp, #52]
	ldr	r3, [sp, #40]
	bl	ic_raw.move_calls.move_slow.5386baa488213e47
	add	sp, #60
	pop	{r4, r5, r6, r7, pc}
.Lfunc_end22:
	.size	ic_raw.move_calls.move_to_end_slow.5386baa488213e47, .Lfunc_end22-ic_raw.move_calls.move_to_end_slow.5386baa488213e47
	.cfi_endproc
	.section	.text.unlikely.ic_raw.list_calls.pop_front_slow.5386baa488213e47,"ax",%progbits
	.p2align	1
	.type	ic_raw.list_calls.pop_front_slow.5386baa488213e47,%function
	.code	16
	.thumb_func
ic_raw.list_calls.pop_front_slow.5386baa488213e47:
	.cfi_startproc
	push	{r4, r5, r6, r7, lr}
	.cfi_def_cfa_offset 20
	.cfi_offset lr, -4
	.cfi_offset r7, -8
	.cfi_offset r6, -12
	.cfi_offset r5, -16
	.cfi_offset r4, -20
	sub	sp, #44
	.cfi_def_cfa_offset 64
	str	r3, [sp, #28]
	str	r2, [sp, #24]
	mov	r6, r0
	ldr	r0, [sp, #64]
	ldm	r0!, {r2, r3}
	movs	r1, #15
	mov	r7, r3
	str	r1, [sp, #36]
	ands	r7, r1
	movs	r1, #7
	mvns	r4, r1
	mov	r1, r2
	str	r4, [sp, #40]
	ands	r1, r4
	mov	r4, r1
	subs	r0, #8
	orrs	r4, r7
	beq	.LBB23_11
	lsls	r3, r3, #29
	lsrs	r2, r2, #3
	adds	r3, r2, r3
	lsrs	r2, r7, #3
	str	r3, [sp, #20]
	ldr	r4, [sp, #24]
	subs	r3, r4, r3
	ldr	r3, [sp, #28]
	sbcs	r3, r2
	blo	.LBB23_11
	lsls	r2, r1, #1
	adds	r2, r6, r2
	mov	r3, r2
	subs	r3, #16
	str	r3, [sp, #32]
	ldr	r5, [r3]
	lsls	r3, r5, #31
	beq	.LBB23_11
	subs	r2, #8
	ldr	r3, [r2]
	ldr	r2, [r2, #4]
	ldr	r4, [sp, #36]
	ands	r2, r4
	ldr	r4, [sp, #40]
	ands	r3, r4
	orrs	r3, r2
	bne	.LBB23_11
	str	r6, [sp, #4]
	str	r7, [sp, #16]
	ldr	r4, [r0, #8]
	ldr	r6, [r0, #12]
	ldr	r7, [sp, #36]
	ands	r6, r7
	ldr	r3, [sp, #40]
	ands	r4, r3
	ldr	r2, [sp, #32]
	ldr	r2, [r2, #4]
	ands	r5, r3
	ands	r2, r7
	mov	r3, r5
	orrs	r3, r2
	str	r2, [sp, #12]
	beq	.LBB23_9
	str	r6, [sp, #8]
	lsrs	r6, r5, #3
	lsls	r3, r2, #29
	adds	r3, r6, r3
	lsrs	r6, r2, #3
	ldr	r2, [sp, #24]
	subs	r3, r2, r3
	ldr	r2, [sp, #28]
	sbcs	r2, r6
	ldr	r2, [sp, #4]
	blo	.LBB23_11
	lsls	r3, r5, #1
	adds	r2, r2, r3
	mov	r3, r2
	subs	r3, #16
	ldrb	r3, [r3]
	lsls	r3, r3, #31
	beq	.LBB23_11
	subs	r2, #8
	ldm	r2!, {r3, r6}
	ldr	r7, [sp, #36]
	ands	r6, r7
	ldr	r7, [sp, #16]
	eors	r6, r7
	ldr	r7, [sp, #40]
	ands	r3, r7
	eors	r3, r1
	subs	r2, #8
	orrs	r3, r6
	bne	.LBB23_11
	movs	r1, #0
	str	r1, [r2]
	str	r1, [r2, #4]
	b	.LBB23_10
.LBB23_9:
	eors	r4, r1
	ldr	r1, [sp, #16]
	eors	r6, r1
	orrs	r6, r4
	movs	r4, #0
	cmp	r6, #0
	str	r4, [sp, #8]
	bne	.LBB23_11
.LBB23_10:
	ldr	r3, [sp, #68]
	movs	r1, #0
	ldr	r2, [sp, #32]
	str	r1, [r2]
	str	r1, [r2, #4]
	strb	r1, [r0, #15]
	strb	r1, [r0, #14]
	strb	r1, [r0, #13]
	ldr	r2, [sp, #8]
	strb	r2, [r0, #12]
	lsrs	r2, r4, #24
	strb	r2, [r0, #11]
	lsrs	r2, r4, #16
	strb	r2, [r0, #10]
	lsrs	r2, r4, #8
	strb	r2, [r0, #9]
	strb	r4, [r0, #8]
	strb	r1, [r0, #7]
	strb	r1, [r0, #6]
	strb	r1, [r0, #5]
	ldr	r2, [sp, #12]
	strb	r2, [r0, #4]
	lsrs	r2, r5, #24
	strb	r2, [r0, #3]
	lsrs	r2, r5, #16
	strb	r2, [r0, #2]
	lsrs	r2, r5, #8
	strb	r2, [r0, #1]
	strb	r5, [r0]
	ldr	r0, [sp, #20]
	subs	r0, r0, #1
	str	r0, [r3]
	mov	r0, r1
	add	sp, #44
	pop	{r4, r5, r6, r7, pc}
.LBB23_11:
	movs	r1, #0
	bl	ic_raw.list_calls.refusal_to_pop
	mov	r1, r0
	mov	r0, r1
	add	sp, #44
	pop	{r4, r5, r6, r7, pc}
.Lfunc_end23:
	.size	ic_raw.list_calls.pop_front_slow.5386baa488213e47, .Lfunc_end23-ic_raw.list_calls.pop_front_slow.5386baa488213e47
	.cfi_endproc
	.section	.text.unlikely.ic_raw.list_calls.push_back_slow.5386baa488213e47,"ax",%progbits
	.p2align	1
	.type	ic_raw.list_calls.push_back_slow.5386baa488213e47,%function
	.code	16
	.thumb_func
ic_raw.list_calls.push_back_slow.5386baa488213e47:
	.cfi_startproc
	push	{r4, r5, r6, r7, lr}
	.cfi_def_cfa_offset 20
	.cfi_offset lr, -4
	.cfi_offset r7, -8
	.cfi_offset r6, -12
	.cfi_offset r5, -16
	.cfi_offset r4, -20
	sub	sp, #44
	.cfi_def_cfa_offset 64
	str	r3, [sp, #36]
	str	r2, [sp, #32]
	str	r0, [sp, #40]
	ldr	r4, [sp, #64]
	ldr	r7, [r4, #12]
	movs	r1, #15
	ands	r7, r1
	movs	r0, #7
	mvns	r6, r0
	ldr	r3, [r4, #8]
	ands	r3, r6
	mov	r2, r3
	orrs	r2, r7
	rsbs	r0, r2, #0
	adcs	r0, r2
	str	r0, [sp, #20]
	ldr	r5, [r4, #4]
	ands	r5, r1
	ldr	r0, [r4]
	str	r6, [sp, #16]
	ands	r0, r6
	ldr	r6, [sp, #68]
	str	r6, [sp, #28]
	cmp	r2, #0
	str	r7, [sp, #24]
	str	r5, [sp, #12]
	str	r0, [sp, #8]
	beq	.LBB24_3
	lsrs	r2, r3, #3
	lsls	r5, r7, #29
	adds	r2, r2, r5
	lsrs	r5, r7, #3
	ldr	r0, [sp, #32]
	subs	r2, r0, r2
	ldr	r2, [sp, #36]
	sbcs	r2, r5
	blo	.LBB24_10
	mov	r6, r3
	movs	r2, #0
	ldr	r0, [sp, #16]
	adds	r0, r0, #1
	adcs	r1, r2
	lsls	r2, r3, #1
	ldr	r3, [sp, #40]
	adds	r2, r3, r2
	subs	r2, #16
	ldr	r5, [r2]
	ldr	r2, [r2, #4]
	ands	r2, r1
	ands	r5, r0
	movs	r0, #1
	eors	r0, r5
	orrs	r0, r2
	beq	.LBB24_4
	b	.LBB24_10
.LBB24_3:
	orrs	r0, r5
	mov	r6, r3
	bne	.LBB24_10
.LBB24_4:
	ldr	r0, [sp, #28]
	adds	r0, r0, #1
	beq	.LBB24_10
	movs	r1, #0
	ldr	r2, [sp, #32]
	subs	r2, r2, r0
	ldr	r2, [sp, #36]
	sbcs	r2, r1
	blo	.LBB24_10
	lsls	r2, r0, #3
	lsls	r5, r2, #1
	ldr	r3, [sp, #40]
	adds	r5, r3, r5
	mov	r7, r5
	subs	r7, #16
	ldrb	r3, [r7]
	lsls	r3, r3, #31
	bne	.LBB24_10
	str	r6, [sp, #32]
	lsrs	r6, r0, #29
	ldr	r0, [sp, #20]
	cmp	r0, #0
	mov	r3, r2
	str	r6, [sp, #36]
	mov	r0, r6
	ldr	r6, [sp, #32]
	bne	.LBB24_9
	lsls	r3, r6, #1
	ldr	r0, [sp, #40]
	adds	r3, r0, r3
	subs	r3, #16
	movs	r0, #1
	orrs	r0, r2
	str	r0, [r3]
	ldr	r0, [sp, #36]
	str	r0, [r3, #4]
	ldr	r3, [sp, #8]
	ldr	r0, [sp, #12]
.LBB24_9:
	str	r0, [sp, #40]
	movs	r0, #1
	stm	r7!, {r0, r1}
	subs	r5, #8
	str	r6, [r5]
	ldr	r0, [sp, #24]
	str	r0, [r5, #4]
	lsrs	r0, r2, #24
	strb	r0, [r4, #11]
	lsrs	r0, r2, #16
	strb	r0, [r4, #10]
	lsrs	r0, r2, #8
	strb	r0, [r4, #9]
	strb	r2, [r4, #8]
	strb	r1, [r4, #15]
	strb	r1, [r4, #14]
	strb	r1, [r4, #13]
	ldr	r0, [sp, #36]
	strb	r0, [r4, #12]
	lsrs	r0, r3, #24
	strb	r0, [r4, #3]
	lsrs	r0, r3, #16
	strb	r0, [r4, #2]
	lsrs	r0, r3, #8
	strb	r0, [r4, #1]
	strb	r3, [r4]
	strb	r1, [r4, #7]
	strb	r1, [r4, #6]
	strb	r1, [r4, #5]
	ldr	r0, [sp, #40]
	strb	r0, [r4, #4]
	mov	r0, r1
	add	sp, #44
	pop	{r4, r5, r6, r7, pc}
.LBB24_10:
	movs	r0, #0
	mvns	r0, r0
	str	r0, [sp]
	ldr	r0, [sp, #28]
	str	r0, [sp, #4]
	ldr	r0, [sp, #40]
	ldr	r2, [sp, #32]
	ldr	r3, [sp, #36]
	bl	ic_raw.table.RawTable.refusal.85cd03e557136797
	mov	r1, r0
	mov	r0, r1
	add	sp, #44
	pop	{r4, r5, r6, r7, pc}
.Lfunc_end24:
	.size	ic_raw.list_calls.push_back_slow.5386baa488213e47, .Lfunc_end24-ic_raw.list_calls.push_back_slow.5386baa488213e47
	.cfi_endproc
	.section	.text.unlikely.ic_raw.list_calls.remove_slow.5386baa488213e47,"ax",%progbits
	.p2align	1
	.type	ic_raw.list_calls.remove_slow.5386baa488213e47,%function
	.code	16
	.thumb_func
ic_raw.list_calls.remove_slow.5386baa488213e47:
	.cfi_startproc
	push	{r4, r5, r6, r7, lr}
	.cfi_def_cfa_offset 20
	.cfi_offset lr, -4
	.cfi_offset r7, -8
	.cfi_offset r6, -12
	.cfi_offset r5, -16
	.cfi_offset r4, -20
	sub	sp, #76
	.cfi_def_cfa_offset 96
	str	r0, [sp, #72]
	ldr	r0, [sp, #100]
	adds	r1, r0, #1
	blo	.LBB25_2
	movs	r0, #4
	add	sp, #76
	pop	{r4, r5, r6, r7, pc}
.LBB25_2:
	str	r0, [sp, #12]
	movs	r0, #0
	str	r2, [sp, #36]
	subs	r2, r2, r1
	str	r3, [sp, #40]
	mov	r2, r3
	sbcs	r2, r0
	bhs	.LBB25_3
	b	.LBB25_16
.LBB25_3:
	lsls	r2, r1, #3
	str	r2, [sp, #52]
	lsls	r2, r2, #1
	ldr	r3, [sp, #72]
	adds	r2, r3, r2
	mov	r3, r2
	subs	r3, #16
	str	r3, [sp, #48]
	ldr	r3, [r3]
	str	r3, [sp, #68]
	lsls	r3, r3, #31
	bne	.LBB25_4
	b	.LBB25_16
.LBB25_4:
	lsrs	r1, r1, #29
	str	r1, [sp, #44]
	ldr	r4, [sp, #96]
	ldr	r6, [r4]
	ldr	r5, [r4, #4]
	ldr	r1, [r4, #8]
	str	r1, [sp, #24]
	ldr	r1, [r4, #12]
	str	r1, [sp, #60]
	movs	r3, #15
	movs	r1, #7
	mvns	r7, r1
	ands	r5, r3
	str	r5, [sp, #28]
	ands	r6, r7
	str	r6, [sp, #32]
	ldr	r1, [sp, #48]
	ldr	r1, [r1, #4]
	str	r1, [sp, #64]
	subs	r2, #8
	ldr	r6, [r2]
	ldr	r5, [r2, #4]
	ands	r5, r3
	ands	r6, r7
	mov	r1, r6
	orrs	r1, r5
	rsbs	r2, r1, #0
	adcs	r2, r1
	str	r2, [sp, #16]
	cmp	r1, #0
	str	r5, [sp, #20]
	str	r6, [sp, #56]
	beq	.LBB25_7
	lsrs	r1, r6, #3
	lsls	r2, r5, #29
	adds	r1, r1, r2
	lsrs	r2, r5, #3
	ldr	r5, [sp, #36]
	subs	r1, r5, r1
	ldr	r1, [sp, #40]
	sbcs	r1, r2
	blo	.LBB25_16
	adds	r1, r7, #1
	str	r1, [sp, #8]
	mov	r2, r3
	adcs	r2, r0
	ldr	r1, [sp, #56]
	lsls	r1, r1, #1
	ldr	r5, [sp, #72]
	adds	r1, r5, r1
	subs	r1, #16
	ldr	r6, [r1]
	ldr	r1, [r1, #4]
	ands	r1, r2
	ldr	r2, [sp, #44]
	eors	r1, r2
	movs	r2, #1
	ldr	r5, [sp, #52]
	orrs	r2, r5
	ldr	r5, [sp, #8]
	ands	r6, r5
	eors	r6, r2
	orrs	r6, r1
	ldr	r6, [sp, #24]
	beq	.LBB25_8
	b	.LBB25_16
.LBB25_7:
	ldr	r1, [sp, #32]
	ldr	r2, [sp, #52]
	eors	r1, r2
	ldr	r2, [sp, #28]
	ldr	r5, [sp, #44]
	eors	r2, r5
	orrs	r2, r1
	ldr	r6, [sp, #24]
	bne	.LBB25_16
.LBB25_8:
	ldr	r2, [sp, #60]
	ands	r2, r3
	ands	r6, r7
	ldr	r1, [sp, #68]
	ands	r1, r7
	ldr	r5, [sp, #64]
	ands	r5, r3
	str	r1, [sp, #68]
	str	r5, [sp, #64]
	orrs	r1, r5
	rsbs	r5, r1, #0
	adcs	r5, r1
	cmp	r1, #0
	mov	r1, r6
	str	r2, [sp, #60]
	beq	.LBB25_12
	ldr	r1, [sp, #68]
	lsrs	r1, r1, #3
	str	r5, [sp, #24]
	ldr	r5, [sp, #64]
	lsls	r2, r5, #29
	adds	r1, r1, r2
	lsrs	r2, r5, #3
	ldr	r5, [sp, #36]
	subs	r1, r5, r1
	ldr	r5, [sp, #24]
	ldr	r1, [sp, #40]
	sbcs	r1, r2
	blo	.LBB25_16
	ldr	r1, [sp, #68]
	lsls	r1, r1, #1
	ldr	r2, [sp, #72]
	adds	r2, r2, r1
	mov	r1, r2
	subs	r1, #16
	ldrb	r1, [r1]
	lsls	r1, r1, #31
	beq	.LBB25_16
	subs	r2, #8
	ldm	r2, {r1, r2}
	ands	r2, r3
	ands	r1, r7
.LBB25_12:
	ldr	r3, [sp, #52]
	eors	r1, r3
	ldr	r3, [sp, #44]
	eors	r2, r3
	orrs	r2, r1
	bne	.LBB25_16
	ldr	r1, [sp, #16]
	cmp	r1, #0
	bne	.LBB25_17
	ldr	r1, [sp, #56]
	lsls	r1, r1, #1
	ldr	r2, [sp, #72]
	adds	r1, r2, r1
	subs	r1, #16
	movs	r2, #1
	ldr	r3, [sp, #68]
	orrs	r2, r3
	str	r2, [r1]
	ldr	r2, [sp, #64]
	str	r2, [r1, #4]
	ldr	r3, [sp, #20]
	cmp	r5, #0
	bne	.LBB25_18
.LBB25_15:
	ldr	r1, [sp, #68]
	lsls	r1, r1, #1
	ldr	r2, [sp, #72]
	adds	r1, r2, r1
	subs	r1, #8
	ldr	r2, [sp, #56]
	stm	r1!, {r2, r3}
	ldr	r2, [sp, #60]
	b	.LBB25_19
.LBB25_16:
	ldr	r0, [sp, #12]
	str	r0, [sp]
	ldr	r0, [sp, #72]
	ldr	r2, [sp, #36]
	ldr	r3, [sp, #40]
	bl	ic_raw.table.RawTable.refusal_at.85cd03e557136797
	add	sp, #76
	pop	{r4, r5, r6, r7, pc}
.LBB25_17:
	ldr	r1, [sp, #68]
	str	r1, [sp, #32]
	ldr	r1, [sp, #64]
	str	r1, [sp, #28]
	ldr	r3, [sp, #20]
	cmp	r5, #0
	beq	.LBB25_15
.LBB25_18:
	ldr	r6, [sp, #56]
	mov	r2, r3
.LBB25_19:
	ldr	r1, [sp, #48]
	str	r0, [r1]
	str	r0, [r1, #4]
	strb	r0, [r4, #15]
	strb	r0, [r4, #14]
	strb	r0, [r4, #13]
	strb	r2, [r4, #12]
	lsrs	r1, r6, #24
	strb	r1, [r4, #11]
	lsrs	r1, r6, #16
	strb	r1, [r4, #10]
	lsrs	r1, r6, #8
	strb	r1, [r4, #9]
	strb	r6, [r4, #8]
	strb	r0, [r4, #7]
	strb	r0, [r4, #6]
	strb	r0, [r4, #5]
	ldr	r1, [sp, #28]
	strb	r1, [r4, #4]
	ldr	r2, [sp, #32]
	lsrs	r1, r2, #24
	strb	r1, [r4, #3]
	lsrs	r1, r2, #16
	strb	r1, [r4, #2]
	lsrs	r1, r2, #8
	strb	r1, [r4, #1]
	strb	r2, [r4]
	add	sp, #76
	pop	{r4, r5, r6, r7, pc}
.Lfunc_end25:
	.size	ic_raw.list_calls.remove_slow.5386baa488213e47, .Lfunc_end25-ic_raw.list_calls.remove_slow.5386baa488213e47
	.cfi_endproc
	.section	.text.ic_list_algorithms.sort.sort_front.6bd71b5c7308988e,"ax",%progbits
	.p2align	1
	.type	ic_list_algorithms.sort.sort_front.6bd71b5c7308988e,%function
	.code	16
	.thumb_func
ic_list_algorithms.sort.sort_front.6bd71b5c7308988e:
	.cfi_startproc
	push	{r4, r5, r6, r7, lr}
	.cfi_def_cfa_offset 20
	.cfi_offset lr, -4
	.cfi_offset r7, -8
	.cfi_offset r6, -12
	.cfi_offset r5, -16
	.cfi_offset r4, -20
	sub	sp, #92
	.cfi_def_cfa_offset 112
	mov	r5, r2
	mov	r4, r0
	ldr	r7, [sp, #124]
	ldr	r3, [sp, #120]
	mov	r0, r3
	orrs	r0, r7
	ldr	r6, [sp, #116]
	ldr	r2, [sp, #112]
	beq	.LBB26_4
	str	r5, [sp, #36]
	str	r6, [sp, #28]
	movs	r0, #1
	mov	r5, r3
	eors	r5, r0
	orrs	r5, r7
	str	r1, [sp, #32]
	bne	.LBB26_5
	lsls	r3, r2, #1
	ldr	r5, [r1]
	adds	r5, r5, r3
	subs	r5, #16
	ldr	r3, [r5]
	str	r0, [r5]
	ldr	r1, [r5, #4]
	movs	r6, #0
	str	r6, [r5, #4]
	movs	r5, #15
	str	r5, [sp, #24]
	ands	r1, r5
	movs	r5, #7
	bics	r3, r5
	mov	r7, r3
	orrs	r7, r1
	bne	.LBB26_3
	b	.LBB26_9
.LBB26_3:
	mvns	r5, r5
	str	r5, [sp, #20]
	lsls	r5, r3, #1
	str	r5, [sp, #16]
	ldr	r5, [sp, #32]
	ldr	r7, [r5]
	ldr	r5, [sp, #16]
	adds	r7, r7, r5
	subs	r7, #16
	ldr	r5, [r7]
	str	r0, [r7]
	ldr	r0, [r7, #4]
	str	r0, [sp, #16]
	str	r6, [r7, #4]
	str	r3, [sp]
	str	r1, [sp, #4]
	ldr	r0, [sp, #32]
	ldr	r1, [sp, #36]
	ldr	r3, [sp, #28]
	bl	ic_list_algorithms.merge.merge_runs.6bd71b5c7308988e
	strb	r6, [r4, #23]
	strb	r6, [r4, #22]
	strb	r6, [r4, #21]
	ldr	r2, [sp, #24]
	ldr	r3, [sp, #16]
	ands	r3, r2
	strb	r3, [r4, #20]
	ldr	r2, [sp, #20]
	ands	r5, r2
	lsrs	r2, r5, #24
	strb	r2, [r4, #19]
	lsrs	r2, r5, #16
	strb	r2, [r4, #18]
	lsrs	r2, r5, #8
	strb	r2, [r4, #17]
	strb	r5, [r4, #16]
	strb	r6, [r4, #15]
	strb	r6, [r4, #14]
	strb	r6, [r4, #13]
	strb	r6, [r4, #12]
	strb	r6, [r4, #11]
	strb	r6, [r4, #10]
	strb	r6, [r4, #9]
	orrs	r5, r3
	subs	r2, r5, #1
	sbcs	r5, r2
	strb	r5, [r4, #8]
	b	.LBB26_7
.LBB26_4:
	lsls	r0, r2, #1
	ldr	r1, [r1]
	adds	r1, r1, r0
	subs	r1, #16
	ldr	r0, [r1]
	movs	r3, #1
	str	r3, [r1]
	ldr	r5, [r1, #4]
	movs	r3, #0
	str	r3, [r1, #4]
	strb	r3, [r4, #23]
	strb	r3, [r4, #22]
	strb	r3, [r4, #21]
	movs	r1, #15
	ands	r1, r5
	strb	r1, [r4, #20]
	lsrs	r5, r0, #24
	strb	r5, [r4, #19]
	lsrs	r5, r0, #16
	strb	r5, [r4, #18]
	lsrs	r5, r0, #8
	strb	r5, [r4, #17]
	movs	r5, #7
	bics	r0, r5
	strb	r0, [r4, #16]
	strb	r3, [r4, #15]
	strb	r3, [r4, #14]
	strb	r3, [r4, #13]
	strb	r3, [r4, #12]
	strb	r3, [r4, #11]
	strb	r3, [r4, #10]
	strb	r3, [r4, #9]
	lsrs	r3, r6, #24
	strb	r3, [r4, #7]
	lsrs	r3, r6, #16
	strb	r3, [r4, #6]
	lsrs	r3, r6, #8
	strb	r3, [r4, #5]
	strb	r6, [r4, #4]
	lsrs	r3, r2, #24
	strb	r3, [r4, #3]
	lsrs	r3, r2, #16
	strb	r3, [r4, #2]
	lsrs	r3, r2, #8
	strb	r3, [r4, #1]
	strb	r2, [r4]
	orrs	r0, r1
	subs	r1, r0, #1
	sbcs	r0, r1
	strb	r0, [r4, #8]
	add	sp, #92
	pop	{r4, r5, r6, r7, pc}
.LBB26_5:
	str	r2, [sp]
	movs	r6, #0
	subs	r0, r3, #1
	str	r0, [sp, #24]
	str	r0, [sp, #8]
	ldr	r0, [sp, #28]
	str	r0, [sp, #4]
	sbcs	r7, r6
	str	r7, [sp, #12]
	add	r5, sp, #64
	mov	r0, r5
	ldr	r2, [sp, #36]
	bl	ic_list_algorithms.sort.sort_front.6bd71b5c7308988e
	ldrb	r0, [r5, #8]
	ldr	r3, [sp, #68]
	ldr	r5, [sp, #64]
	cmp	r0, #1
	bne	.LBB26_8
	ldr	r0, [sp, #80]
	ldr	r1, [sp, #84]
	str	r0, [sp]
	str	r1, [sp, #4]
	ldr	r0, [sp, #24]
	str	r0, [sp, #8]
	str	r7, [sp, #12]
	add	r7, sp, #40
	mov	r0, r7
	ldr	r1, [sp, #32]
	ldr	r2, [sp, #36]
	str	r3, [sp, #20]
	bl	ic_list_algorithms.sort.sort_front.6bd71b5c7308988e
	ldrb	r0, [r7, #8]
	str	r0, [sp, #28]
	ldr	r0, [sp, #56]
	str	r0, [sp, #24]
	ldr	r7, [sp, #60]
	ldr	r0, [sp, #40]
	ldr	r1, [sp, #44]
	str	r0, [sp]
	str	r1, [sp, #4]
	ldr	r0, [sp, #32]
	ldr	r1, [sp, #36]
	mov	r2, r5
	ldr	r3, [sp, #20]
	bl	ic_list_algorithms.merge.merge_runs.6bd71b5c7308988e
	lsrs	r2, r7, #24
	strb	r2, [r4, #23]
	lsrs	r2, r7, #16
	strb	r2, [r4, #22]
	lsrs	r2, r7, #8
	strb	r2, [r4, #21]
	strb	r7, [r4, #20]
	ldr	r3, [sp, #24]
	lsrs	r2, r3, #24
	strb	r2, [r4, #19]
	lsrs	r2, r3, #16
	strb	r2, [r4, #18]
	lsrs	r2, r3, #8
	strb	r2, [r4, #17]
	strb	r3, [r4, #16]
	strb	r6, [r4, #15]
	strb	r6, [r4, #14]
	strb	r6, [r4, #13]
	strb	r6, [r4, #12]
	strb	r6, [r4, #11]
	strb	r6, [r4, #10]
	strb	r6, [r4, #9]
	ldr	r2, [sp, #28]
	strb	r2, [r4, #8]
.LBB26_7:
	strb	r1, [r4, #4]
	strb	r0, [r4]
	lsrs	r2, r1, #24
	strb	r2, [r4, #7]
	lsrs	r2, r1, #16
	strb	r2, [r4, #6]
	lsrs	r1, r1, #8
	strb	r1, [r4, #5]
	lsrs	r1, r0, #24
	strb	r1, [r4, #3]
	lsrs	r1, r0, #16
	strb	r1, [r4, #2]
	lsrs	r0, r0, #8
	strb	r0, [r4, #1]
	add	sp, #92
	pop	{r4, r5, r6, r7, pc}
.LBB26_8:
	strb	r5, [r4]
	strb	r3, [r4, #4]
	lsrs	r0, r5, #24
	strb	r0, [r4, #3]
	lsrs	r0, r5, #16
	strb	r0, [r4, #2]
	lsrs	r0, r5, #8
	strb	r0, [r4, #1]
	lsrs	r0, r3, #24
	strb	r0, [r4, #7]
	lsrs	r0, r3, #16
	strb	r0, [r4, #6]
	lsrs	r0, r3, #8
	b	.LBB26_10
.LBB26_9:
	strb	r2, [r4]
	ldr	r1, [sp, #28]
	strb	r1, [r4, #4]
	lsrs	r0, r2, #24
	strb	r0, [r4, #3]
	lsrs	r0, r2, #16
	strb	r0, [r4, #2]
	lsrs	r0, r2, #8
	strb	r0, [r4, #1]
	lsrs	r0, r1, #24
	strb	r0, [r4, #7]
	lsrs	r0, r1, #16
	strb	r0, [r4, #6]
	lsrs	r0, r1, #8
.LBB26_10:
	strb	r0, [r4, #5]
	str	r6, [sp]
	adds	r4, #8
	movs	r2, #16
	mov	r0, r4
	mov	r1, r6
	mov	r3, r6
	bl	ic.clear
	add	sp, #92
	pop	{r4, r5, r6, r7, pc}
.Lfunc_end26:
	.size	ic_list_algorithms.sort.sort_front.6bd71b5c7308988e, .Lfunc_end26-ic_list_algorithms.sort.sort_front.6bd71b5c7308988e
	.cfi_endproc
	.section	.text.unlikely.ic_raw.list_calls.split_slow.5386baa488213e47,"ax",%progbits
	.p2align	1
	.type	ic_raw.list_calls.split_slow.5386baa488213e47,%function
	.code	16
	.thumb_func
ic_raw.list_calls.split_slow.5386baa488213e47:
	.cfi_startproc
	push	{r4, r5, r6, r7, lr}
	.cfi_def_cfa_offset 20
	.cfi_offset lr, -4
	.cfi_offset r7, -8
	.cfi_offset r6, -12
	.cfi_offset r5, -16
	.cfi_offset r4, -20
	sub	sp, #68
	.cfi_def_cfa_offset 88
	str	r3, [sp, #40]
	str	r2, [sp, #36]
	str	r0, [sp, #48]
	ldr	r0, [sp, #96]
	ldm	r0!, {r3, r4}
	movs	r1, #15
	str	r1, [sp, #60]
	ands	r4, r1
	movs	r2, #7
	mvns	r1, r2
	str	r1, [sp, #56]
	ands	r3, r1
	subs	r0, #8
	orrs	r3, r4
	ldr	r6, [sp, #92]
	beq	.LBB27_1
	b	.LBB27_24
.LBB27_1:
	ldr	r3, [r0, #8]
	ldr	r4, [r0, #12]
	ldr	r1, [sp, #60]
	ands	r4, r1
	ldr	r1, [sp, #56]
	ands	r3, r1
	orrs	r3, r4
	beq	.LBB27_2
	b	.LBB27_24
.LBB27_2:
	str	r0, [sp, #8]
	ldr	r0, [sp, #88]
	ldr	r7, [r0]
	ldr	r5, [r0, #4]
	ldr	r2, [r0, #8]
	str	r0, [sp, #4]
	ldr	r0, [r0, #12]
	ldr	r1, [sp, #60]
	ands	r0, r1
	ldr	r3, [sp, #56]
	ands	r2, r3
	ands	r5, r1
	ands	r7, r3
	ldr	r1, [sp, #100]
	str	r6, [sp, #32]
	adds	r4, r6, #1
	subs	r3, r4, #1
	mov	r6, r4
	sbcs	r6, r3
	str	r6, [sp, #20]
	lsrs	r3, r4, #29
	str	r3, [sp, #52]
	lsls	r3, r4, #3
	str	r3, [sp, #64]
	cmp	r4, #0
	str	r5, [sp, #44]
	str	r7, [sp, #24]
	str	r2, [sp, #16]
	str	r0, [sp, #12]
	str	r1, [sp, #28]
	beq	.LBB27_7
	movs	r3, #0
	ldr	r0, [sp, #36]
	subs	r5, r0, r4
	ldr	r5, [sp, #40]
	sbcs	r5, r3
	ldr	r6, [sp, #32]
	bhs	.LBB27_4
	b	.LBB27_24
.LBB27_4:
	ldr	r0, [sp, #64]
	lsls	r3, r0, #1
	ldr	r5, [sp, #48]
	adds	r5, r5, r3
	mov	r7, r5
	subs	r7, #16
	ldr	r2, [r7]
	lsls	r3, r2, #31
	bne	.LBB27_5
	b	.LBB27_24
.LBB27_5:
	ldr	r0, [sp, #28]
	lsls	r3, r0, #31
	beq	.LBB27_11
	subs	r5, #8
	ldr	r7, [r5]
	ldr	r0, [r5, #4]
	ldr	r2, [sp, #60]
	ands	r0, r2
	ldr	r2, [sp, #56]
	ands	r7, r2
	b	.LBB27_8
.LBB27_7:
	lsls	r3, r1, #31
	mov	r1, r7
	mov	r7, r2
	mov	r2, r1
	ldr	r6, [sp, #32]
	beq	.LBB27_12
.LBB27_8:
	mov	r3, r7
	orrs	r3, r0
	beq	.LBB27_20
	lsrs	r3, r7, #3
	lsls	r4, r0, #29
	adds	r3, r3, r4
	str	r0, [sp, #32]
	lsrs	r4, r0, #3
	ldr	r0, [sp, #36]
	subs	r3, r0, r3
	ldr	r3, [sp, #40]
	sbcs	r3, r4
	blo	.LBB27_24
	movs	r3, #0
	ldr	r0, [sp, #56]
	adds	r2, r0, #1
	ldr	r0, [sp, #60]
	adcs	r0, r3
	lsls	r3, r7, #1
	ldr	r4, [sp, #48]
	adds	r3, r4, r3
	subs	r3, #16
	ldr	r4, [r3]
	ldr	r3, [r3, #4]
	ands	r3, r0
	ldr	r0, [sp, #52]
	eors	r3, r0
	movs	r0, #1
	ldr	r5, [sp, #64]
	orrs	r0, r5
	ands	r4, r2
	eors	r4, r0
	orrs	r4, r3
	beq	.LBB27_19
	b	.LBB27_24
.LBB27_11:
	ldr	r5, [r7, #4]
	ldr	r0, [sp, #56]
	ands	r2, r0
	ldr	r0, [sp, #60]
	ands	r5, r0
.LBB27_12:
	mov	r3, r2
	mov	r1, r5
	orrs	r3, r5
	subs	r5, r3, #1
	mov	r0, r3
	sbcs	r0, r5
	str	r0, [sp, #20]
	cmp	r3, #0
	ldr	r7, [sp, #16]
	ldr	r5, [sp, #12]
	beq	.LBB27_16
	lsrs	r3, r2, #3
	lsls	r5, r1, #29
	adds	r3, r3, r5
	lsrs	r5, r1, #3
	ldr	r0, [sp, #36]
	subs	r3, r0, r3
	ldr	r3, [sp, #40]
	sbcs	r3, r5
	blo	.LBB27_24
	lsls	r3, r2, #1
	ldr	r5, [sp, #48]
	adds	r5, r5, r3
	mov	r3, r5
	subs	r3, #16
	ldrb	r3, [r3]
	lsls	r3, r3, #31
	beq	.LBB27_24
	subs	r5, #8
	ldr	r7, [r5]
	ldr	r5, [r5, #4]
	ldr	r0, [sp, #60]
	ands	r5, r0
	ldr	r0, [sp, #56]
	ands	r7, r0
.LBB27_16:
	ldr	r0, [sp, #64]
	eors	r7, r0
	ldr	r0, [sp, #52]
	eors	r5, r0
	orrs	r5, r7
	bne	.LBB27_24
	cmp	r4, #0
	beq	.LBB27_25
	ldr	r7, [sp, #64]
	ldr	r0, [sp, #52]
	str	r0, [sp, #32]
	str	r2, [sp, #64]
	str	r1, [sp, #52]
.LBB27_19:
	lsls	r0, r7, #1
	ldr	r2, [sp, #48]
	adds	r0, r2, r0
	subs	r0, #16
	movs	r2, #0
	movs	r3, #1
	str	r3, [r0]
	str	r2, [r0, #4]
	ldr	r0, [sp, #20]
	cmp	r0, #0
	bne	.LBB27_22
	b	.LBB27_26
.LBB27_20:
	ldr	r2, [sp, #24]
	ldr	r4, [sp, #64]
	eors	r4, r2
	ldr	r0, [sp, #44]
	ldr	r3, [sp, #52]
	eors	r3, r0
	orrs	r3, r4
	movs	r7, #0
	cmp	r3, #0
	str	r7, [sp, #32]
	str	r2, [sp, #64]
	str	r0, [sp, #52]
	str	r7, [sp, #24]
	str	r7, [sp, #44]
	bne	.LBB27_24
	ldr	r0, [sp, #20]
	cmp	r0, #0
	beq	.LBB27_26
.LBB27_22:
	ldr	r0, [sp, #64]
	lsls	r0, r0, #1
	ldr	r2, [sp, #48]
	adds	r0, r2, r0
	subs	r0, #8
	movs	r2, #0
	str	r2, [r0]
	str	r2, [r0, #4]
	ldr	r4, [sp, #16]
	ldr	r5, [sp, #12]
	ldr	r0, [sp, #28]
	lsls	r0, r0, #31
	beq	.LBB27_27
.LBB27_23:
	ldr	r2, [sp, #64]
	ldr	r3, [sp, #52]
	ldr	r1, [sp, #24]
	b	.LBB27_28
.LBB27_24:
	str	r6, [sp]
	ldr	r0, [sp, #48]
	ldr	r2, [sp, #36]
	ldr	r3, [sp, #40]
	bl	ic_raw.table.RawTable.refusal_at.85cd03e557136797
	add	sp, #68
	pop	{r4, r5, r6, r7, pc}
.LBB27_25:
	movs	r7, #0
	str	r7, [sp, #32]
	str	r2, [sp, #64]
	str	r1, [sp, #52]
	str	r7, [sp, #24]
	str	r7, [sp, #44]
	ldr	r0, [sp, #20]
	cmp	r0, #0
	bne	.LBB27_22
.LBB27_26:
	movs	r5, #0
	str	r5, [sp, #52]
	mov	r4, r5
	str	r5, [sp, #64]
	ldr	r0, [sp, #28]
	lsls	r0, r0, #31
	bne	.LBB27_23
.LBB27_27:
	ldr	r2, [sp, #24]
	ldr	r0, [sp, #44]
	str	r0, [sp, #60]
	mov	r0, r4
	mov	r4, r7
	mov	r3, r5
	ldr	r5, [sp, #32]
	ldr	r1, [sp, #64]
	ldr	r6, [sp, #52]
	str	r6, [sp, #44]
	mov	r7, r0
	str	r3, [sp, #32]
	ldr	r3, [sp, #60]
.LBB27_28:
	movs	r0, #0
	ldr	r6, [sp, #4]
	strb	r0, [r6, #15]
	strb	r0, [r6, #14]
	strb	r0, [r6, #13]
	strb	r4, [r6, #8]
	strb	r0, [r6, #7]
	strb	r0, [r6, #6]
	strb	r0, [r6, #5]
	strb	r2, [r6]
	strb	r5, [r6, #12]
	lsrs	r5, r4, #24
	strb	r5, [r6, #11]
	lsrs	r5, r4, #16
	strb	r5, [r6, #10]
	lsrs	r4, r4, #8
	strb	r4, [r6, #9]
	strb	r3, [r6, #4]
	lsrs	r3, r2, #24
	strb	r3, [r6, #3]
	lsrs	r3, r2, #16
	strb	r3, [r6, #2]
	lsrs	r2, r2, #8
	strb	r2, [r6, #1]
	lsrs	r2, r7, #16
	ldr	r3, [sp, #8]
	strb	r2, [r3, #10]
	lsrs	r2, r7, #24
	strb	r2, [r3, #11]
	strb	r7, [r3, #8]
	lsrs	r2, r7, #8
	strb	r2, [r3, #9]
	strb	r0, [r3, #14]
	strb	r0, [r3, #15]
	ldr	r2, [sp, #32]
	strb	r2, [r3, #12]
	strb	r0, [r3, #13]
	lsrs	r2, r1, #16
	strb	r2, [r3, #2]
	lsrs	r2, r1, #24
	strb	r2, [r3, #3]
	strb	r1, [r3]
	lsrs	r2, r1, #8
	strb	r2, [r3, #1]
	strb	r0, [r3, #6]
	strb	r0, [r3, #7]
	ldr	r1, [sp, #44]
	strb	r1, [r3, #4]
	strb	r0, [r3, #5]
	add	sp, #68
	pop	{r4, r5, r6, r7, pc}
.Lfunc_end27:
	.size	ic_raw.list_calls.split_slow.5386baa488213e47, .Lfunc_end27-ic_raw.list_calls.split_slow.5386baa488213e47
	.cfi_endproc
	.section	.text.ic_raw_lists.transfer_calls.transfer_at.5386baa488213e47,"ax",%progbits
	.p2align	1
	.type	ic_raw_lists.transfer_calls.transfer_at.5386baa488213e47,%function
	.code	16
	.thumb_func
ic_raw_lists.transfer_calls.transfer_at.5386baa488213e47:
	.cfi_startproc
	push	{r4, r5, r6, r7, lr}
	.cfi_def_cfa_offset 20
	.cfi_offset lr, -4
	.cfi_offset r7, -8
	.cfi_offset r6, -12
	.cfi_offset r5, -16
	.cfi_offset r4, -20
	sub	sp, #140
	.cfi_def_cfa_offset 160
	str	r2, [sp, #132]
	ldr	r1, [sp, #176]
	adds	r2, r1, #1
	blo	.LBB28_2
	movs	r1, #4
	mov	r0, r1
	add	sp, #140
	pop	{r4, r5, r6, r7, pc}
.LBB28_2:
	str	r2, [sp, #124]
	str	r1, [sp, #48]
	str	r3, [sp, #128]
	str	r0, [sp, #136]
	ldr	r4, [sp, #172]
	ldr	r0, [sp, #168]
	ldr	r1, [sp, #164]
	ldr	r6, [sp, #160]
	str	r0, [sp, #44]
	adds	r2, r0, #1
	subs	r3, r2, #1
	mov	r0, r2
	sbcs	r0, r3
	str	r0, [sp, #96]
	ldr	r0, [r4]
	str	r0, [sp, #108]
	ldr	r0, [r4, #4]
	str	r0, [sp, #120]
	ldr	r0, [r4, #8]
	str	r0, [sp, #88]
	str	r4, [sp, #36]
	ldr	r0, [r4, #12]
	str	r0, [sp, #92]
	movs	r4, #15
	movs	r3, #7
	mvns	r0, r3
	ldm	r6!, {r5, r7}
	ldr	r3, [r6]
	subs	r6, #8
	str	r6, [sp, #40]
	ldr	r6, [r6, #12]
	ands	r6, r4
	ands	r3, r0
	str	r4, [sp, #112]
	ands	r7, r4
	str	r0, [sp, #116]
	ands	r5, r0
	lsrs	r0, r2, #29
	str	r0, [sp, #104]
	lsls	r0, r2, #3
	str	r0, [sp, #100]
	cmp	r2, #0
	str	r3, [sp, #52]
	str	r7, [sp, #60]
	str	r6, [sp, #68]
	str	r5, [sp, #64]
	beq	.LBB28_7
	movs	r3, #0
	ldr	r0, [sp, #132]
	subs	r2, r0, r2
	ldr	r2, [sp, #128]
	sbcs	r2, r3
	bhs	.LBB28_4
	b	.LBB28_45
.LBB28_4:
	ldr	r0, [sp, #100]
	lsls	r2, r0, #1
	ldr	r0, [sp, #136]
	adds	r2, r0, r2
	mov	r3, r2
	subs	r3, #16
	ldr	r0, [r3]
	mov	r6, r0
	lsls	r0, r0, #31
	bne	.LBB28_5
	b	.LBB28_45
.LBB28_5:
	lsls	r0, r1, #31
	beq	.LBB28_11
	subs	r2, #8
	ldm	r2, {r1, r2}
	ldr	r0, [sp, #112]
	ands	r2, r0
	ldr	r0, [sp, #116]
	ands	r1, r0
	ldr	r7, [sp, #60]
	b	.LBB28_8
.LBB28_7:
	lsls	r0, r1, #31
	mov	r0, r5
	mov	r5, r7
	mov	r1, r3
	mov	r2, r6
	beq	.LBB28_12
.LBB28_8:
	mov	r0, r1
	orrs	r0, r2
	beq	.LBB28_17
	lsrs	r0, r1, #3
	lsls	r3, r2, #29
	adds	r0, r0, r3
	lsrs	r3, r2, #3
	ldr	r5, [sp, #132]
	subs	r0, r5, r0
	ldr	r0, [sp, #128]
	sbcs	r0, r3
	bhs	.LBB28_10
	b	.LBB28_45
.LBB28_10:
	movs	r0, #0
	ldr	r3, [sp, #116]
	adds	r3, r3, #1
	str	r3, [sp, #84]
	ldr	r3, [sp, #112]
	adcs	r0, r3
	lsls	r3, r1, #1
	ldr	r5, [sp, #136]
	adds	r3, r5, r3
	subs	r3, #16
	ldr	r6, [r3]
	ldr	r3, [r3, #4]
	ands	r3, r0
	ldr	r0, [sp, #104]
	eors	r3, r0
	movs	r7, #1
	ldr	r5, [sp, #100]
	mov	r0, r5
	str	r7, [sp, #72]
	orrs	r0, r7
	ldr	r7, [sp, #124]
	ldr	r4, [sp, #84]
	ands	r6, r4
	eors	r6, r0
	orrs	r6, r3
	str	r5, [sp, #76]
	ldr	r0, [sp, #104]
	str	r0, [sp, #80]
	str	r1, [sp, #100]
	str	r2, [sp, #104]
	ldr	r6, [sp, #96]
	beq	.LBB28_19
	b	.LBB28_45
.LBB28_11:
	ldr	r5, [r3, #4]
	mov	r0, r6
	ldr	r1, [sp, #116]
	ands	r0, r1
	ldr	r1, [sp, #112]
	ands	r5, r1
	ldr	r3, [sp, #52]
.LBB28_12:
	str	r0, [sp, #76]
	orrs	r0, r5
	subs	r1, r0, #1
	mov	r6, r0
	sbcs	r6, r1
	cmp	r0, #0
	mov	r1, r3
	ldr	r2, [sp, #68]
	ldr	r7, [sp, #124]
	beq	.LBB28_16
	ldr	r0, [sp, #76]
	lsrs	r0, r0, #3
	lsls	r1, r5, #29
	adds	r0, r0, r1
	lsrs	r1, r5, #3
	ldr	r2, [sp, #132]
	subs	r0, r2, r0
	ldr	r0, [sp, #128]
	sbcs	r0, r1
	bhs	.LBB28_14
	b	.LBB28_45
.LBB28_14:
	ldr	r0, [sp, #76]
	lsls	r0, r0, #1
	ldr	r1, [sp, #136]
	adds	r2, r1, r0
	mov	r0, r2
	subs	r0, #16
	ldrb	r0, [r0]
	lsls	r0, r0, #31
	bne	.LBB28_15
	b	.LBB28_45
.LBB28_15:
	subs	r2, #8
	ldm	r2, {r1, r2}
	ldr	r0, [sp, #112]
	ands	r2, r0
	ldr	r0, [sp, #116]
	ands	r1, r0
.LBB28_16:
	str	r5, [sp, #80]
	ldr	r0, [sp, #100]
	eors	r1, r0
	ldr	r0, [sp, #104]
	eors	r2, r0
	orrs	r2, r1
	ldr	r0, [sp, #96]
	str	r0, [sp, #72]
	beq	.LBB28_19
	b	.LBB28_45
.LBB28_17:
	ldr	r0, [sp, #64]
	ldr	r1, [sp, #100]
	eors	r1, r0
	ldr	r0, [sp, #104]
	eors	r0, r7
	orrs	r0, r1
	ldr	r7, [sp, #124]
	beq	.LBB28_18
	b	.LBB28_45
.LBB28_18:
	movs	r0, #0
	ldr	r1, [sp, #64]
	str	r1, [sp, #76]
	ldr	r1, [sp, #60]
	str	r1, [sp, #80]
	str	r0, [sp, #104]
	str	r0, [sp, #100]
	str	r0, [sp, #72]
	ldr	r6, [sp, #96]
.LBB28_19:
	movs	r1, #0
	ldr	r0, [sp, #132]
	subs	r0, r0, r7
	ldr	r0, [sp, #128]
	sbcs	r0, r1
	bhs	.LBB28_20
	b	.LBB28_45
.LBB28_20:
	lsls	r0, r7, #3
	str	r0, [sp, #96]
	lsls	r0, r0, #1
	ldr	r2, [sp, #136]
	adds	r4, r2, r0
	mov	r5, r4
	subs	r4, #16
	ldr	r0, [r4]
	str	r0, [sp, #32]
	lsls	r2, r0, #31
	bne	.LBB28_21
	b	.LBB28_45
.LBB28_21:
	lsrs	r0, r7, #29
	str	r0, [sp, #124]
	ldr	r0, [sp, #120]
	ldr	r3, [sp, #112]
	ands	r0, r3
	str	r0, [sp, #120]
	ldr	r0, [sp, #108]
	ldr	r2, [sp, #116]
	ands	r0, r2
	ldr	r7, [r4, #4]
	str	r7, [sp, #84]
	subs	r5, #8
	ldr	r7, [r5]
	str	r5, [sp, #28]
	ldr	r5, [r5, #4]
	ands	r5, r3
	ands	r7, r2
	mov	r2, r7
	orrs	r2, r5
	rsbs	r3, r2, #0
	adcs	r3, r2
	str	r3, [sp, #20]
	cmp	r2, #0
	str	r0, [sp, #108]
	str	r5, [sp, #24]
	str	r7, [sp, #56]
	beq	.LBB28_24
	lsrs	r2, r7, #3
	lsls	r3, r5, #29
	adds	r2, r2, r3
	lsrs	r3, r5, #3
	ldr	r0, [sp, #132]
	subs	r2, r0, r2
	ldr	r2, [sp, #128]
	sbcs	r2, r3
	bhs	.LBB28_23
	b	.LBB28_45
.LBB28_23:
	ldr	r0, [sp, #116]
	adds	r5, r0, #1
	ldr	r3, [sp, #112]
	adcs	r3, r1
	str	r6, [sp, #12]
	ldr	r0, [sp, #56]
	lsls	r6, r0, #1
	ldr	r0, [sp, #136]
	adds	r6, r0, r6
	subs	r6, #16
	ldm	r6, {r0, r6}
	ands	r6, r3
	ldr	r2, [sp, #124]
	eors	r6, r2
	movs	r3, #1
	ldr	r7, [sp, #96]
	orrs	r3, r7
	ands	r0, r5
	eors	r0, r3
	orrs	r0, r6
	ldr	r6, [sp, #12]
	beq	.LBB28_25
	b	.LBB28_45
.LBB28_24:
	ldr	r2, [sp, #96]
	eors	r0, r2
	ldr	r2, [sp, #120]
	ldr	r3, [sp, #124]
	eors	r2, r3
	orrs	r2, r0
	bne	.LBB28_45
.LBB28_25:
	ldr	r3, [sp, #92]
	str	r4, [sp, #16]
	ldr	r4, [sp, #112]
	ands	r3, r4
	ldr	r2, [sp, #88]
	mov	r7, r6
	ldr	r6, [sp, #116]
	ands	r2, r6
	ldr	r0, [sp, #32]
	ands	r0, r6
	mov	r6, r7
	ldr	r7, [sp, #84]
	ands	r7, r4
	mov	r5, r0
	str	r7, [sp, #84]
	orrs	r0, r7
	rsbs	r7, r0, #0
	adcs	r7, r0
	cmp	r0, #0
	str	r2, [sp, #88]
	str	r3, [sp, #92]
	beq	.LBB28_29
	lsrs	r0, r5, #3
	ldr	r3, [sp, #84]
	lsls	r2, r3, #29
	adds	r0, r0, r2
	lsrs	r2, r3, #3
	ldr	r3, [sp, #132]
	subs	r0, r3, r0
	ldr	r0, [sp, #128]
	sbcs	r0, r2
	blo	.LBB28_45
	lsls	r0, r5, #1
	ldr	r2, [sp, #136]
	adds	r3, r2, r0
	mov	r0, r3
	subs	r0, #16
	ldrb	r0, [r0]
	lsls	r0, r0, #31
	beq	.LBB28_45
	subs	r3, #8
	ldm	r3, {r2, r3}
	ldr	r0, [sp, #112]
	ands	r3, r0
	ldr	r0, [sp, #116]
	ands	r2, r0
.LBB28_29:
	ldr	r0, [sp, #96]
	eors	r2, r0
	ldr	r0, [sp, #124]
	eors	r3, r0
	orrs	r3, r2
	bne	.LBB28_45
	ldr	r0, [sp, #108]
	ldr	r2, [sp, #120]
	orrs	r0, r2
	beq	.LBB28_32
	ldr	r0, [sp, #64]
	ldr	r2, [sp, #108]
	eors	r0, r2
	ldr	r2, [sp, #60]
	ldr	r3, [sp, #120]
	eors	r2, r3
	orrs	r2, r0
	beq	.LBB28_45
.LBB28_32:
	ldr	r0, [sp, #72]
	cmp	r0, #0
	ldr	r0, [sp, #100]
	str	r0, [sp, #116]
	bne	.LBB28_34
	ldr	r0, [sp, #72]
	str	r0, [sp, #116]
.LBB28_34:
	ldr	r3, [sp, #96]
	bne	.LBB28_36
	ldr	r0, [sp, #72]
	str	r0, [sp, #104]
.LBB28_36:
	ldr	r0, [sp, #104]
	ldr	r2, [sp, #124]
	eors	r0, r2
	ldr	r2, [sp, #116]
	eors	r2, r3
	orrs	r2, r0
	beq	.LBB28_45
	cmp	r6, #0
	ldr	r2, [sp, #76]
	bne	.LBB28_39
	mov	r2, r6
.LBB28_39:
	ldr	r3, [sp, #80]
	ldr	r0, [sp, #96]
	bne	.LBB28_41
	mov	r3, r6
.LBB28_41:
	ldr	r4, [sp, #124]
	eors	r3, r4
	eors	r2, r0
	orrs	r2, r3
	beq	.LBB28_45
	ldr	r0, [sp, #20]
	cmp	r0, #0
	bne	.LBB28_46
	ldr	r0, [sp, #56]
	lsls	r0, r0, #1
	ldr	r2, [sp, #136]
	adds	r0, r2, r0
	subs	r0, #16
	movs	r2, #1
	orrs	r2, r5
	str	r2, [r0]
	ldr	r2, [sp, #84]
	str	r2, [r0, #4]
	ldr	r4, [sp, #96]
	cmp	r7, #0
	bne	.LBB28_47
.LBB28_44:
	lsls	r0, r5, #1
	ldr	r2, [sp, #136]
	adds	r0, r2, r0
	subs	r0, #8
	ldr	r2, [sp, #56]
	str	r2, [r0]
	ldr	r2, [sp, #24]
	str	r2, [r0, #4]
	b	.LBB28_48
.LBB28_45:
	ldr	r0, [sp, #44]
	str	r0, [sp]
	ldr	r0, [sp, #48]
	str	r0, [sp, #4]
	ldr	r0, [sp, #136]
	ldr	r2, [sp, #132]
	ldr	r3, [sp, #128]
	bl	ic_raw.table.RawTable.refusal_at_both.85cd03e557136797
	mov	r1, r0
	mov	r0, r1
	add	sp, #140
	pop	{r4, r5, r6, r7, pc}
.LBB28_46:
	str	r5, [sp, #108]
	ldr	r0, [sp, #84]
	str	r0, [sp, #120]
	ldr	r4, [sp, #96]
	cmp	r7, #0
	beq	.LBB28_44
.LBB28_47:
	ldr	r0, [sp, #56]
	str	r0, [sp, #88]
	ldr	r0, [sp, #24]
	str	r0, [sp, #92]
.LBB28_48:
	ldr	r3, [sp, #64]
	ldr	r0, [sp, #72]
	cmp	r0, #0
	mov	r0, r4
	ldr	r2, [sp, #124]
	beq	.LBB28_50
	ldr	r0, [sp, #100]
	lsls	r0, r0, #1
	ldr	r2, [sp, #136]
	adds	r0, r2, r0
	subs	r0, #16
	movs	r2, #1
	orrs	r2, r4
	str	r2, [r0]
	ldr	r2, [sp, #124]
	str	r2, [r0, #4]
	mov	r0, r3
	ldr	r2, [sp, #60]
.LBB28_50:
	str	r2, [sp, #132]
	mov	r2, r6
	cmp	r6, #0
	beq	.LBB28_52
	ldr	r7, [sp, #76]
	lsls	r3, r7, #1
	ldr	r6, [sp, #136]
	adds	r3, r6, r3
	subs	r3, #8
	str	r4, [r3]
	ldr	r4, [sp, #124]
	str	r4, [r3, #4]
	ldr	r6, [sp, #40]
	b	.LBB28_53
.LBB28_52:
	str	r4, [sp, #52]
	ldr	r3, [sp, #124]
	str	r3, [sp, #68]
	ldr	r6, [sp, #40]
	ldr	r7, [sp, #76]
.LBB28_53:
	ldr	r4, [sp, #28]
	ldr	r3, [sp, #116]
	str	r3, [r4]
	ldr	r3, [sp, #104]
	str	r3, [r4, #4]
	adds	r3, r7, #1
	ldr	r5, [sp, #80]
	adcs	r5, r1
	str	r5, [sp, #80]
	movs	r5, #1
	cmp	r2, #0
	beq	.LBB28_55
	mov	r5, r3
.LBB28_55:
	ldr	r4, [sp, #16]
	str	r5, [r4]
	ldr	r3, [sp, #80]
	bne	.LBB28_57
	mov	r3, r2
.LBB28_57:
	str	r3, [r4, #4]
	strb	r1, [r6, #15]
	strb	r1, [r6, #14]
	strb	r1, [r6, #13]
	ldr	r3, [sp, #68]
	strb	r3, [r6, #12]
	ldr	r5, [sp, #52]
	lsrs	r3, r5, #24
	strb	r3, [r6, #11]
	lsrs	r3, r5, #16
	strb	r3, [r6, #10]
	lsrs	r3, r5, #8
	strb	r3, [r6, #9]
	strb	r5, [r6, #8]
	strb	r1, [r6, #7]
	strb	r1, [r6, #6]
	strb	r1, [r6, #5]
	ldr	r2, [sp, #132]
	strb	r2, [r6, #4]
	lsrs	r2, r0, #24
	strb	r2, [r6, #3]
	lsrs	r2, r0, #16
	strb	r2, [r6, #2]
	lsrs	r2, r0, #8
	strb	r2, [r6, #1]
	strb	r0, [r6]
	ldr	r2, [sp, #88]
	lsrs	r0, r2, #16
	ldr	r3, [sp, #36]
	strb	r0, [r3, #10]
	lsrs	r0, r2, #24
	strb	r0, [r3, #11]
	strb	r2, [r3, #8]
	lsrs	r0, r2, #8
	strb	r0, [r3, #9]
	strb	r1, [r3, #14]
	strb	r1, [r3, #15]
	ldr	r0, [sp, #92]
	strb	r0, [r3, #12]
	strb	r1, [r3, #13]
	ldr	r2, [sp, #108]
	lsrs	r0, r2, #16
	strb	r0, [r3, #2]
	lsrs	r0, r2, #24
	strb	r0, [r3, #3]
	strb	r2, [r3]
	lsrs	r0, r2, #8
	strb	r0, [r3, #1]
	strb	r1, [r3, #6]
	strb	r1, [r3, #7]
	ldr	r0, [sp, #120]
	strb	r0, [r3, #4]
	strb	r1, [r3, #5]
	mov	r0, r1
	add	sp, #140
	pop	{r4, r5, r6, r7, pc}
.Lfunc_end28:
	.size	ic_raw_lists.transfer_calls.transfer_at.5386baa488213e47, .Lfunc_end28-ic_raw_lists.transfer_calls.transfer_at.5386baa488213e47
	.cfi_endproc
	.section	.text.unlikely.ic_raw.table.refusal_at_end.05a19227735374d3,"ax",%progbits
	.p2align	1
	.type	ic_raw.table.refusal_at_end.05a19227735374d3,%function
	.code	16
	.thumb_func
ic_raw.table.refusal_at_end.05a19227735374d3:
	.cfi_startproc
	push	{r4, lr}
	.cfi_def_cfa_offset 8
	.cfi_offset lr, -4
	.cfi_offset r4, -8
	sub	sp, #8
	.cfi_def_cfa_offset 16
	ldr	r1, [sp, #16]
	movs	r4, #0
	mvns	r4, r4
	str	r4, [sp]
	str	r1, [sp, #4]
	bl	ic_raw.table.RawTable.refusal.05a19227735374d3
	add	sp, #8
	pop	{r4, pc}
.Lfunc_end29:
	.size	ic_raw.table.refusal_at_end.05a19227735374d3, .Lfunc_end29-ic_raw.table.refusal_at_end.05a19227735374d3
	.cfi_endproc
	.section	.text.ic_raw.ring_calls.move_beside.5b268f449b4ebf83,"ax",%progbits
	.p2align	2
	.type	ic_raw.ring_calls.move_beside.5b268f449b4ebf83,%function
	.code	16
	.thumb_func
ic_raw.ring_calls.move_beside.5b268f449b4ebf83:
	.cfi_startproc
	push	{r4, r5, r6, r7, lr}
	.cfi_def_cfa_offset 20
	.cfi_offset lr, -4
	.cfi_offset r7, -8
	.cfi_offset r6, -12
	.cfi_offset r5, -16
	.cfi_offset r4, -20
	sub	sp, #76
	.cfi_def_cfa_offset 96
	ldr	r4, [sp, #100]
	adds	r7, r4, #1
	movs	r1, #4
	cmp	r7, r4
	bhs	.LBB30_1
	b	.LBB30_42
.LBB30_1:
	ldr	r5, [sp, #104]
	adds	r6, r5, #1
	blo	.LBB30_2
	b	.LBB30_42
.LBB30_2:
	ldr	r1, .LCPI30_0
	cmp	r2, r1
	str	r2, [sp, #68]
	blo	.LBB30_4
	str	r1, [sp, #68]
.LBB30_4:
	str	r5, [sp, #36]
	str	r4, [sp, #40]
	str	r2, [sp, #52]
	str	r3, [sp, #56]
	cmp	r3, #0
	beq	.LBB30_6
	str	r1, [sp, #68]
.LBB30_6:
	movs	r4, #0
	ldr	r1, [sp, #68]
	subs	r1, r1, r6
	mov	r1, r4
	sbcs	r1, r4
	str	r0, [sp, #72]
	bhs	.LBB30_7
	b	.LBB30_43
.LBB30_7:
	lsls	r1, r6, #3
	str	r1, [sp, #60]
	ldr	r0, [sp, #72]
	adds	r5, r0, r1
	mov	r1, r5
	subs	r1, #8
	str	r1, [sp, #28]
	ldr	r3, [r1]
	lsls	r1, r3, #31
	bne	.LBB30_8
	b	.LBB30_43
.LBB30_8:
	mov	r0, r6
	subs	r1, r5, #4
	str	r1, [sp, #24]
	ldr	r1, [r1]
	movs	r5, #7
	mov	r2, r1
	str	r5, [sp, #64]
	bics	r2, r5
	rsbs	r5, r2, #0
	str	r2, [sp, #44]
	adcs	r5, r2
	lsrs	r1, r1, #3
	movs	r6, #1
	ldr	r2, [sp, #52]
	subs	r1, r2, r1
	ldr	r1, [sp, #56]
	sbcs	r1, r4
	str	r6, [sp, #48]
	blo	.LBB30_10
	mov	r6, r4
.LBB30_10:
	orrs	r5, r6
	beq	.LBB30_11
	b	.LBB30_43
.LBB30_11:
	ldr	r1, [sp, #44]
	ldr	r4, [sp, #72]
	adds	r1, r4, r1
	subs	r1, #8
	str	r1, [sp, #20]
	ldr	r1, [r1]
	lsls	r4, r1, #31
	bne	.LBB30_12
	b	.LBB30_43
.LBB30_12:
	lsrs	r5, r0, #29
	ldr	r4, [sp, #64]
	bics	r1, r4
	ldr	r4, [sp, #60]
	eors	r1, r4
	orrs	r1, r5
	beq	.LBB30_13
	b	.LBB30_43
.LBB30_13:
	mov	r6, r5
	lsrs	r4, r3, #3
	movs	r1, #0
	ldr	r2, [sp, #52]
	subs	r4, r2, r4
	ldr	r4, [sp, #56]
	sbcs	r4, r1
	bhs	.LBB30_15
	movs	r1, #1
.LBB30_15:
	mov	r2, r3
	ldr	r3, [sp, #64]
	bics	r2, r3
	ldr	r4, [sp, #48]
	beq	.LBB30_17
	mov	r4, r1
.LBB30_17:
	cmp	r4, #0
	beq	.LBB30_18
	b	.LBB30_43
.LBB30_18:
	ldr	r0, [sp, #72]
	adds	r1, r0, r2
	mov	r4, r1
	subs	r4, #8
	ldrb	r4, [r4]
	lsls	r4, r4, #31
	bne	.LBB30_19
	b	.LBB30_43
.LBB30_19:
	subs	r1, r1, #4
	str	r1, [sp, #16]
	ldr	r1, [r1]
	ldr	r3, [sp, #64]
	bics	r1, r3
	ldr	r3, [sp, #60]
	eors	r1, r3
	orrs	r1, r6
	bne	.LBB30_43
	lsrs	r3, r7, #29
	lsls	r4, r7, #3
	str	r4, [sp, #32]
	ldr	r1, [sp, #60]
	eors	r4, r1
	mov	r5, r3
	eors	r5, r6
	movs	r1, #0
	orrs	r5, r4
	beq	.LBB30_42
	str	r3, [sp, #12]
	ldr	r3, [sp, #68]
	cmp	r3, r7
	blo	.LBB30_43
	ldr	r3, [sp, #32]
	ldr	r0, [sp, #72]
	adds	r5, r0, r3
	mov	r4, r5
	subs	r4, #8
	ldr	r7, [r4]
	lsls	r4, r7, #31
	beq	.LBB30_43
	ldr	r4, [sp, #96]
	lsls	r4, r4, #31
	beq	.LBB30_26
	subs	r4, r5, #4
	ldr	r7, [r4]
	lsrs	r4, r7, #3
	ldr	r3, [sp, #68]
	cmp	r3, r4
	blo	.LBB30_28
	movs	r5, #0
	b	.LBB30_29
.LBB30_26:
	lsrs	r4, r7, #3
	ldr	r3, [sp, #68]
	cmp	r3, r4
	blo	.LBB30_34
	movs	r5, #0
	b	.LBB30_35
.LBB30_28:
	movs	r5, #1
.LBB30_29:
	ldr	r3, [sp, #64]
	bics	r7, r3
	beq	.LBB30_31
	str	r5, [sp, #48]
.LBB30_31:
	ldr	r3, [sp, #48]
	cmp	r3, #0
	bne	.LBB30_43
	ldr	r0, [sp, #72]
	adds	r4, r0, r7
	subs	r4, #8
	ldr	r5, [r4]
	lsls	r4, r5, #31
	beq	.LBB30_43
	ldr	r3, [sp, #64]
	bics	r5, r3
	ldr	r3, [sp, #32]
	eors	r5, r3
	ldr	r3, [sp, #12]
	orrs	r5, r3
	mov	r0, r7
	beq	.LBB30_40
	b	.LBB30_43
.LBB30_34:
	movs	r5, #1
.LBB30_35:
	ldr	r3, [sp, #64]
	bics	r7, r3
	beq	.LBB30_37
	str	r5, [sp, #48]
.LBB30_37:
	ldr	r3, [sp, #48]
	cmp	r3, #0
	bne	.LBB30_43
	ldr	r0, [sp, #72]
	adds	r5, r0, r7
	mov	r4, r5
	subs	r4, #8
	ldrb	r4, [r4]
	lsls	r4, r4, #31
	beq	.LBB30_43
	subs	r4, r5, #4
	ldr	r4, [r4]
	ldr	r3, [sp, #64]
	bics	r4, r3
	ldr	r0, [sp, #32]
	eors	r4, r0
	ldr	r5, [sp, #12]
	orrs	r4, r5
	str	r7, [sp, #32]
	bne	.LBB30_43
.LBB30_40:
	ldr	r3, [sp, #60]
	eors	r7, r3
	orrs	r7, r6
	beq	.LBB30_42
	mov	r3, r2
	movs	r2, #1
	orrs	r3, r2
	ldr	r4, [sp, #20]
	str	r3, [r4]
	ldr	r3, [sp, #44]
	ldr	r4, [sp, #16]
	str	r3, [r4]
	mov	r7, r0
	ldr	r0, [sp, #72]
	ldr	r4, [sp, #60]
	ldr	r6, [sp, #32]
	mov	r3, r6
	orrs	r3, r2
	ldr	r5, [sp, #28]
	str	r3, [r5]
	ldr	r3, [sp, #24]
	str	r7, [r3]
	mov	r3, r4
	orrs	r3, r2
	adds	r2, r0, r7
	subs	r2, #8
	str	r3, [r2]
	adds	r0, r0, r6
	subs	r0, r0, #4
	str	r4, [r0]
.LBB30_42:
	mov	r0, r1
	add	sp, #76
	pop	{r4, r5, r6, r7, pc}
.LBB30_43:
	ldr	r1, [sp, #40]
	str	r1, [sp]
	ldr	r1, [sp, #36]
	str	r1, [sp, #4]
	ldr	r0, [sp, #72]
	ldr	r2, [sp, #52]
	ldr	r3, [sp, #56]
	bl	ic_raw.table.RawTable.refusal_at_both.05a19227735374d3
	mov	r1, r0
	mov	r0, r1
	add	sp, #76
	pop	{r4, r5, r6, r7, pc}
	.p2align	2
.LCPI30_0:
	.long	536870911
.Lfunc_end30:
	.size	ic_raw.ring_calls.move_beside.5b268f449b4ebf83, .Lfunc_end30-ic_raw.ring_calls.move_beside.5b268f449b4ebf83
	.cfi_endproc
	.section	.text.ic_raw.ring_calls.pop.5b268f449b4ebf83,"ax",%progbits
	.p2align	2
	.type	ic_raw.ring_calls.pop.5b268f449b4ebf83,%function
	.code	16
	.thumb_func
ic_raw.ring_calls.pop.5b268f449b4ebf83:
	.cfi_startproc
	push	{r4, r5, r6, r7, lr}
	.cfi_def_cfa_offset 20
	.cfi_offset lr, -4
	.cfi_offset r7, -8
	.cfi_offset r6, -12
	.cfi_offset r5, -16
	.cfi_offset r4, -20
	sub	sp, #52
	.cfi_def_cfa_offset 72
	ldr	r1, [sp, #76]
	adds	r5, r1, #1
	blo	.LBB31_2
	movs	r0, #4
	add	sp, #52
	pop	{r4, r5, r6, r7, pc}
.LBB31_2:
	movs	r7, #0
	str	r7, [sp, #36]
	str	r0, [sp, #32]
	str	r2, [sp, #40]
	ldr	r1, .LCPI31_0
	cmp	r2, r1
	mov	r4, r2
	blo	.LBB31_4
	mov	r4, r1
.LBB31_4:
	str	r2, [sp, #12]
	str	r3, [sp, #44]
	str	r3, [sp, #16]
	cmp	r3, #0
	beq	.LBB31_6
	mov	r4, r1
.LBB31_6:
	lsrs	r1, r5, #29
	str	r1, [sp, #24]
	lsls	r1, r5, #3
	str	r1, [sp, #28]
	subs	r1, r4, r5
	mov	r1, r7
	sbcs	r1, r7
	bhs	.LBB31_7
	b	.LBB31_41
.LBB31_7:
	ldr	r1, [sp, #28]
	adds	r1, r0, r1
	mov	r5, r1
	subs	r5, #8
	ldr	r5, [r5]
	lsls	r6, r5, #31
	bne	.LBB31_8
	b	.LBB31_41
.LBB31_8:
	ldr	r6, [sp, #72]
	movs	r2, #1
	lsls	r6, r6, #31
	str	r2, [sp, #8]
	beq	.LBB31_11
	subs	r1, r1, #4
	ldr	r5, [r1]
	lsrs	r1, r5, #3
	cmp	r4, r1
	blo	.LBB31_14
	movs	r1, #0
	movs	r3, #7
	bics	r5, r3
	mov	r6, r2
	bne	.LBB31_15
	b	.LBB31_16
.LBB31_11:
	lsrs	r1, r5, #3
	cmp	r4, r1
	blo	.LBB31_19
	movs	r6, #7
	bics	r5, r6
	mov	r1, r2
	bne	.LBB31_20
.LBB31_13:
	cmp	r1, #0
	beq	.LBB31_21
	b	.LBB31_41
.LBB31_14:
	movs	r1, #1
	movs	r3, #7
	bics	r5, r3
	mov	r6, r2
	beq	.LBB31_16
.LBB31_15:
	mov	r6, r1
.LBB31_16:
	cmp	r6, #0
	bne	.LBB31_41
	adds	r1, r0, r5
	subs	r1, #8
	ldr	r7, [r1]
	lsls	r1, r7, #31
	beq	.LBB31_41
	mov	r1, r7
	bics	r1, r3
	b	.LBB31_23
.LBB31_19:
	movs	r7, #1
	movs	r6, #7
	bics	r5, r6
	mov	r1, r2
	beq	.LBB31_13
.LBB31_20:
	mov	r1, r7
	cmp	r1, #0
	bne	.LBB31_41
.LBB31_21:
	adds	r1, r0, r5
	mov	r3, r1
	subs	r3, #8
	ldr	r7, [r3]
	lsls	r3, r7, #31
	beq	.LBB31_41
	subs	r1, r1, #4
	ldr	r1, [r1]
	bics	r1, r6
.LBB31_23:
	ldr	r2, [sp, #28]
	eors	r1, r2
	ldr	r2, [sp, #24]
	orrs	r1, r2
	bne	.LBB31_41
	mov	r1, r5
	ldr	r2, [sp, #28]
	eors	r1, r2
	ldr	r2, [sp, #24]
	orrs	r1, r2
	beq	.LBB31_41
	lsrs	r1, r5, #3
	str	r1, [sp, #4]
	cmp	r4, r1
	blo	.LBB31_41
	adds	r3, r0, r5
	subs	r1, r3, #4
	ldr	r1, [r1]
	str	r1, [sp, #20]
	lsrs	r1, r1, #3
	movs	r4, #0
	ldr	r2, [sp, #12]
	subs	r1, r2, r1
	ldr	r1, [sp, #16]
	sbcs	r1, r4
	str	r3, [sp]
	bhs	.LBB31_28
	movs	r4, #1
.LBB31_28:
	ldr	r2, [sp, #8]
	movs	r6, #7
	mvns	r1, r6
	ldr	r3, [sp, #20]
	ands	r3, r1
	str	r3, [sp, #20]
	mov	r1, r2
	beq	.LBB31_30
	mov	r1, r4
.LBB31_30:
	cmp	r1, #0
	bne	.LBB31_41
	ldr	r1, [sp, #20]
	adds	r4, r0, r1
	subs	r4, #8
	ldr	r1, [r4]
	lsls	r3, r1, #31
	beq	.LBB31_41
	bics	r1, r6
	eors	r1, r5
	bne	.LBB31_41
	lsrs	r3, r7, #3
	movs	r1, #0
	ldr	r2, [sp, #12]
	subs	r3, r2, r3
	ldr	r3, [sp, #16]
	sbcs	r3, r1
	blo	.LBB31_36
	ldr	r2, [sp, #8]
	bics	r7, r6
	bne	.LBB31_37
.LBB31_35:
	cmp	r2, #0
	beq	.LBB31_38
	b	.LBB31_41
.LBB31_36:
	movs	r1, #1
	ldr	r2, [sp, #8]
	bics	r7, r6
	beq	.LBB31_35
.LBB31_37:
	mov	r2, r1
	cmp	r2, #0
	bne	.LBB31_41
.LBB31_38:
	adds	r0, r0, r7
	mov	r1, r0
	subs	r1, #8
	ldrb	r1, [r1]
	lsls	r1, r1, #31
	beq	.LBB31_41
	subs	r0, r0, #4
	ldr	r1, [r0]
	bics	r1, r6
	eors	r5, r1
	bne	.LBB31_41
	ldr	r1, [sp, #80]
	ldr	r2, [sp]
	subs	r2, #8
	movs	r3, #1
	orrs	r7, r3
	str	r7, [r4]
	ldr	r3, [sp, #20]
	str	r3, [r0]
	movs	r0, #0
	str	r0, [r2]
	ldr	r2, [sp, #4]
	subs	r2, r2, #1
	str	r2, [r1]
	add	sp, #52
	pop	{r4, r5, r6, r7, pc}
.LBB31_41:
	add	r0, sp, #32
	ldr	r2, [sp, #28]
	ldr	r3, [sp, #24]
	bl	ic_raw.ring_calls.refusal_to_pop.5b268f449b4ebf83
	add	sp, #52
	pop	{r4, r5, r6, r7, pc}
	.p2align	2
.LCPI31_0:
	.long	536870911
.Lfunc_end31:
	.size	ic_raw.ring_calls.pop.5b268f449b4ebf83, .Lfunc_end31-ic_raw.ring_calls.pop.5b268f449b4ebf83
	.cfi_endproc
	.section	.text.unlikely.ic_raw.ring_calls.refusal_to_pop.5b268f449b4ebf83,"ax",%progbits
	.p2align	2
	.type	ic_raw.ring_calls.refusal_to_pop.5b268f449b4ebf83,%function
	.code	16
	.thumb_func
ic_raw.ring_calls.refusal_to_pop.5b268f449b4ebf83:
	.cfi_startproc
	push	{r4, r5, r6, lr}
	.cfi_def_cfa_offset 16
	.cfi_offset lr, -4
	.cfi_offset r6, -8
	.cfi_offset r5, -12
	.cfi_offset r4, -16
	ldr	r1, [r0, #8]
	ldr	r4, .LCPI32_0
	cmp	r1, r4
	blo	.LBB32_2
	mov	r1, r4
.LBB32_2:
	ldr	r5, [r0, #12]
	cmp	r5, #0
	beq	.LBB32_4
	mov	r1, r4
.LBB32_4:
	lsls	r4, r3, #29
	lsrs	r5, r2, #3
	adds	r4, r5, r4
	lsrs	r5, r3, #3
	movs	r6, #0
	subs	r1, r1, r4
	sbcs	r6, r5
	blo	.LBB32_9
	ldr	r1, [r0]
	adds	r1, r1, r2
	mov	r4, r1
	subs	r4, #8
	ldr	r5, [r4]
	lsls	r4, r5, #31
	beq	.LBB32_9
	movs	r4, #7
	bics	r5, r4
	eors	r5, r2
	orrs	r5, r3
	bne	.LBB32_9
	subs	r1, r1, #4
	ldr	r1, [r1]
	bics	r1, r4
	eors	r1, r2
	orrs	r1, r3
	bne	.LBB32_9
	movs	r0, #4
	pop	{r4, r5, r6, pc}
.LBB32_9:
	bl	ic_raw.table.RawTable.refusal_of.05a19227735374d3
	pop	{r4, r5, r6, pc}
	.p2align	2
.LCPI32_0:
	.long	536870911
.Lfunc_end32:
	.size	ic_raw.ring_calls.refusal_to_pop.5b268f449b4ebf83, .Lfunc_end32-ic_raw.ring_calls.refusal_to_pop.5b268f449b4ebf83
	.cfi_endproc
	.section	.text.unlikely.ic_raw.table.RawTable.refusal_of.05a19227735374d3,"ax",%progbits
	.p2align	2
	.type	ic_raw.table.RawTable.refusal_of.05a19227735374d3,%function
	.code	16
	.thumb_func
ic_raw.table.RawTable.refusal_of.05a19227735374d3:
	.cfi_startproc
	push	{r4, r5, r7, lr}
	.cfi_def_cfa_offset 16
	.cfi_offset lr, -4
	.cfi_offset r7, -8
	.cfi_offset r5, -12
	.cfi_offset r4, -16
	ldr	r1, [r0, #8]
	ldr	r4, .LCPI33_0
	cmp	r1, r4
	blo	.LBB33_2
	mov	r1, r4
.LBB33_2:
	ldr	r5, [r0, #12]
	cmp	r5, #0
	beq	.LBB33_4
	mov	r1, r4
.LBB33_4:
	lsls	r4, r3, #29
	lsrs	r5, r2, #3
	adds	r4, r5, r4
	lsrs	r3, r3, #3
	movs	r5, #0
	subs	r1, r1, r4
	sbcs	r5, r3
	bhs	.LBB33_6
	movs	r0, #1
	pop	{r4, r5, r7, pc}
.LBB33_6:
	ldr	r0, [r0]
	adds	r0, r0, r2
	subs	r0, #8
	ldrb	r0, [r0]
	lsls	r0, r0, #31
	beq	.LBB33_8
	movs	r0, #5
	pop	{r4, r5, r7, pc}
.LBB33_8:
	movs	r0, #3
	pop	{r4, r5, r7, pc}
	.p2align	2
.LCPI33_0:
	.long	536870911
.Lfunc_end33:
	.size	ic_raw.table.RawTable.refusal_of.05a19227735374d3, .Lfunc_end33-ic_raw.table.RawTable.refusal_of.05a19227735374d3
	.cfi_endproc
	.section	.text.ic_raw.ring_calls.splice.5b268f449b4ebf83,"ax",%progbits
	.p2align	2
	.type	ic_raw.ring_calls.splice.5b268f449b4ebf83,%function
	.code	16
	.thumb_func
ic_raw.ring_calls.splice.5b268f449b4ebf83:
	.cfi_startproc
	push	{r4, r5, r6, r7, lr}
	.cfi_def_cfa_offset 20
	.cfi_offset lr, -4
	.cfi_offset r7, -8
	.cfi_offset r6, -12
	.cfi_offset r5, -16
	.cfi_offset r4, -20
	sub	sp, #76
	.cfi_def_cfa_offset 96
	str	r0, [sp, #72]
	ldr	r4, [sp, #100]
	adds	r6, r4, #1
	movs	r1, #4
	cmp	r6, r4
	bhs	.LBB34_1
	b	.LBB34_48
.LBB34_1:
	ldr	r5, [sp, #104]
	adds	r0, r5, #1
	blo	.LBB34_2
	b	.LBB34_48
.LBB34_2:
	ldr	r1, .LCPI34_0
	cmp	r2, r1
	str	r2, [sp, #68]
	blo	.LBB34_4
	str	r1, [sp, #68]
.LBB34_4:
	str	r5, [sp, #28]
	str	r2, [sp, #32]
	str	r3, [sp, #36]
	cmp	r3, #0
	beq	.LBB34_6
	str	r1, [sp, #68]
.LBB34_6:
	movs	r7, #0
	ldr	r1, [sp, #68]
	subs	r1, r1, r0
	mov	r1, r7
	sbcs	r1, r7
	bhs	.LBB34_7
	b	.LBB34_49
.LBB34_7:
	lsls	r2, r0, #3
	ldr	r1, [sp, #72]
	str	r2, [sp, #56]
	adds	r1, r1, r2
	mov	r3, r1
	subs	r3, #8
	str	r3, [sp, #24]
	ldr	r5, [r3]
	str	r5, [sp, #64]
	lsls	r5, r5, #31
	bne	.LBB34_8
	b	.LBB34_49
.LBB34_8:
	subs	r1, r1, #4
	str	r1, [sp, #20]
	ldr	r2, [r1]
	movs	r1, #7
	mov	r5, r2
	str	r1, [sp, #44]
	bics	r5, r1
	rsbs	r1, r5, #0
	str	r5, [sp, #52]
	adcs	r1, r5
	lsrs	r3, r2, #3
	movs	r5, #1
	ldr	r2, [sp, #68]
	cmp	r3, r2
	str	r5, [sp, #60]
	bhi	.LBB34_10
	mov	r5, r7
.LBB34_10:
	orrs	r1, r5
	ldr	r2, [sp, #44]
	beq	.LBB34_11
	b	.LBB34_49
.LBB34_11:
	ldr	r1, [sp, #72]
	ldr	r5, [sp, #52]
	adds	r1, r1, r5
	subs	r1, #8
	str	r1, [sp, #16]
	ldr	r1, [r1]
	lsls	r5, r1, #31
	bne	.LBB34_12
	b	.LBB34_49
.LBB34_12:
	lsrs	r0, r0, #29
	bics	r1, r2
	ldr	r5, [sp, #56]
	eors	r1, r5
	str	r0, [sp, #48]
	orrs	r1, r0
	beq	.LBB34_13
	b	.LBB34_49
.LBB34_13:
	ldr	r5, [sp, #64]
	lsrs	r1, r5, #3
	movs	r3, #0
	ldr	r0, [sp, #32]
	subs	r1, r0, r1
	ldr	r1, [sp, #36]
	sbcs	r1, r3
	blo	.LBB34_16
	bics	r5, r2
	str	r5, [sp, #64]
	ldr	r1, [sp, #60]
	bne	.LBB34_17
.LBB34_15:
	cmp	r1, #0
	beq	.LBB34_18
	b	.LBB34_49
.LBB34_16:
	movs	r3, #1
	bics	r5, r2
	str	r5, [sp, #64]
	ldr	r1, [sp, #60]
	beq	.LBB34_15
.LBB34_17:
	mov	r1, r3
	cmp	r1, #0
	beq	.LBB34_18
	b	.LBB34_49
.LBB34_18:
	ldr	r1, [sp, #72]
	ldr	r0, [sp, #64]
	adds	r3, r1, r0
	mov	r1, r3
	subs	r1, #8
	ldrb	r1, [r1]
	lsls	r1, r1, #31
	bne	.LBB34_19
	b	.LBB34_49
.LBB34_19:
	ldr	r0, [sp, #68]
	cmp	r0, r6
	blo	.LBB34_21
	movs	r5, #0
	b	.LBB34_22
.LBB34_21:
	movs	r5, #1
.LBB34_22:
	subs	r0, r3, #4
	str	r0, [sp, #12]
	ldr	r1, [r0]
	bics	r1, r2
	ldr	r0, [sp, #56]
	eors	r1, r0
	ldr	r0, [sp, #48]
	orrs	r1, r0
	ldr	r1, [sp, #60]
	bne	.LBB34_24
	mov	r1, r5
.LBB34_24:
	cmp	r1, #0
	bne	.LBB34_49
	lsls	r0, r6, #3
	ldr	r1, [sp, #72]
	adds	r5, r1, r0
	mov	r1, r5
	subs	r1, #8
	ldr	r3, [r1]
	lsls	r1, r3, #31
	beq	.LBB34_49
	mov	r7, r0
	lsrs	r0, r6, #29
	str	r0, [sp, #40]
	ldr	r1, [sp, #96]
	lsls	r1, r1, #31
	beq	.LBB34_29
	subs	r1, r5, #4
	ldr	r6, [r1]
	lsrs	r1, r6, #3
	ldr	r0, [sp, #68]
	cmp	r0, r1
	blo	.LBB34_31
	movs	r1, #0
	b	.LBB34_32
.LBB34_29:
	lsrs	r1, r3, #3
	ldr	r0, [sp, #68]
	cmp	r0, r1
	blo	.LBB34_38
	movs	r1, #0
	b	.LBB34_39
.LBB34_31:
	movs	r1, #1
.LBB34_32:
	bics	r6, r2
	beq	.LBB34_34
	str	r1, [sp, #60]
.LBB34_34:
	ldr	r0, [sp, #60]
	cmp	r0, #0
	bne	.LBB34_49
	ldr	r0, [sp, #72]
	adds	r1, r0, r6
	subs	r1, #8
	ldr	r1, [r1]
	lsls	r2, r1, #31
	ldr	r2, [sp, #44]
	ldr	r0, [sp, #56]
	beq	.LBB34_49
	bics	r1, r2
	eors	r1, r7
	ldr	r2, [sp, #40]
	orrs	r1, r2
	bne	.LBB34_49
	movs	r1, #0
	str	r1, [sp, #40]
	mov	r3, r7
	b	.LBB34_44
.LBB34_38:
	movs	r1, #1
.LBB34_39:
	bics	r3, r2
	beq	.LBB34_41
	str	r1, [sp, #60]
.LBB34_41:
	ldr	r0, [sp, #60]
	cmp	r0, #0
	bne	.LBB34_49
	ldr	r0, [sp, #72]
	adds	r1, r0, r3
	mov	r2, r1
	subs	r2, #8
	ldrb	r2, [r2]
	lsls	r2, r2, #31
	ldr	r2, [sp, #44]
	ldr	r0, [sp, #56]
	beq	.LBB34_49
	subs	r1, r1, #4
	ldr	r1, [r1]
	bics	r1, r2
	eors	r1, r7
	ldr	r2, [sp, #40]
	orrs	r1, r2
	mov	r6, r7
	bne	.LBB34_49
.LBB34_44:
	mov	r1, r6
	eors	r1, r0
	ldr	r2, [sp, #40]
	ldr	r5, [sp, #48]
	eors	r2, r5
	orrs	r2, r1
	beq	.LBB34_49
	mov	r5, r0
	mov	r1, r6
	ldr	r0, [sp, #52]
	eors	r1, r0
	ldr	r0, [sp, #40]
	orrs	r1, r0
	beq	.LBB34_49
	mov	r2, r5
	ldr	r0, [sp, #52]
	eors	r2, r0
	movs	r1, #0
	ldr	r4, [sp, #48]
	orrs	r2, r4
	beq	.LBB34_48
	movs	r2, #1
	ldr	r7, [sp, #64]
	orrs	r7, r2
	ldr	r0, [sp, #72]
	adds	r4, r0, r6
	subs	r4, #8
	str	r7, [r4]
	ldr	r4, [sp, #12]
	str	r6, [r4]
	adds	r0, r0, r3
	orrs	r3, r2
	ldr	r4, [sp, #16]
	str	r3, [r4]
	subs	r0, r0, #4
	ldr	r3, [sp, #52]
	str	r3, [r0]
	mov	r0, r5
	orrs	r0, r2
	ldr	r2, [sp, #24]
	str	r0, [r2]
	ldr	r0, [sp, #20]
	str	r5, [r0]
.LBB34_48:
	mov	r0, r1
	add	sp, #76
	pop	{r4, r5, r6, r7, pc}
.LBB34_49:
	str	r4, [sp]
	ldr	r0, [sp, #28]
	str	r0, [sp, #4]
	ldr	r0, [sp, #72]
	ldr	r2, [sp, #32]
	ldr	r3, [sp, #36]
	bl	ic_raw.table.RawTable.refusal_at_both.05a19227735374d3
	mov	r1, r0
	mov	r0, r1
	add	sp, #76
	pop	{r4, r5, r6, r7, pc}
	.p2align	2
.LCPI34_0:
	.long	536870911
.Lfunc_end34:
	.size	ic_raw.ring_calls.splice.5b268f449b4ebf83, .Lfunc_end34-ic_raw.ring_calls.splice.5b268f449b4ebf83
	.cfi_endproc
	.section	.text.unlikely.ic_raw.table.RawTable.refusal_of.5f318a721acb0238,"ax",%progbits
	.p2align	1
	.type	ic_raw.table.RawTable.refusal_of.5f318a721acb0238,%function
	.code	16
	.thumb_func
ic_raw.table.RawTable.refusal_of.5f318a721acb0238:
	.cfi_startproc
	push	{r4, r5, r6, lr}
	.cfi_def_cfa_offset 16
	.cfi_offset lr, -4
	.cfi_offset r6, -8
	.cfi_offset r5, -12
	.cfi_offset r4, -16
	ldr	r4, [sp, #20]
	lsls	r5, r4, #29
	ldr	r1, [sp, #16]
	lsrs	r6, r1, #3
	adds	r5, r6, r5
	lsrs	r4, r4, #3
	subs	r2, r2, r5
	sbcs	r3, r4
	bhs	.LBB35_2
	movs	r0, #1
	pop	{r4, r5, r6, pc}
.LBB35_2:
	lsls	r1, r1, #1
	adds	r0, r0, r1
	subs	r0, #16
	ldrb	r0, [r0]
	lsls	r0, r0, #31
	beq	.LBB35_4
	movs	r0, #5
	pop	{r4, r5, r6, pc}
.LBB35_4:
	movs	r0, #3
	pop	{r4, r5, r6, pc}
.Lfunc_end35:
	.size	ic_raw.table.RawTable.refusal_of.5f318a721acb0238, .Lfunc_end35-ic_raw.table.RawTable.refusal_of.5f318a721acb0238
	.cfi_endproc
	.section	.text.unlikely.ic_raw.table.refusal_at_end.85cd03e557136797,"ax",%progbits
	.p2align	1
	.type	ic_raw.table.refusal_at_end.85cd03e557136797,%function
	.code	16
	.thumb_func
ic_raw.table.refusal_at_end.85cd03e557136797:
	.cfi_startproc
	push	{r4, lr}
	.cfi_def_cfa_offset 8
	.cfi_offset lr, -4
	.cfi_offset r4, -8
	sub	sp, #8
	.cfi_def_cfa_offset 16
	ldr	r1, [sp, #16]
	movs	r4, #0
	mvns	r4, r4
	str	r4, [sp]
	str	r1, [sp, #4]
	bl	ic_raw.table.RawTable.refusal.85cd03e557136797
	add	sp, #8
	pop	{r4, pc}
.Lfunc_end36:
	.size	ic_raw.table.refusal_at_end.85cd03e557136797, .Lfunc_end36-ic_raw.table.refusal_at_end.85cd03e557136797
	.cfi_endproc
	.section	.text.unlikely.ic_raw_lists.ring_sort_calls.refusal_at_both,"ax",%progbits
	.p2align	1
	.type	ic_raw_lists.ring_sort_calls.refusal_at_both,%function
	.code	16
	.thumb_func
ic_raw_lists.ring_sort_calls.refusal_at_both:
	.cfi_startproc
	push	{r4, r5, r6, r7, lr}
	.cfi_def_cfa_offset 20
	.cfi_offset lr, -4
	.cfi_offset r7, -8
	.cfi_offset r6, -12
	.cfi_offset r5, -16
	.cfi_offset r4, -20
	sub	sp, #12
	.cfi_def_cfa_offset 32
	ldr	r4, [sp, #36]
	lsls	r5, r4, #29
	ldr	r1, [sp, #32]
	lsrs	r6, r1, #3
	adds	r5, r6, r5
	lsrs	r4, r4, #3
	ldr	r6, [r0, #8]
	ldr	r7, [r0, #12]
	subs	r5, r6, r5
	sbcs	r7, r4
	bhs	.LBB37_2
	movs	r0, #1
	add	sp, #12
	pop	{r4, r5, r6, r7, pc}
.LBB37_2:
	lsls	r1, r1, #1
	ldr	r4, [r0]
	adds	r1, r4, r1
	subs	r1, #16
	ldrb	r1, [r1]
	lsls	r1, r1, #31
	bne	.LBB37_4
	movs	r0, #3
	add	sp, #12
	pop	{r4, r5, r6, r7, pc}
.LBB37_4:
	ldr	r1, [sp, #44]
	ldr	r4, [sp, #40]
	str	r4, [sp]
	str	r1, [sp, #4]
	bl	ic_raw_lists.ring_sort_calls.refusal_at
	add	sp, #12
	pop	{r4, r5, r6, r7, pc}
.Lfunc_end37:
	.size	ic_raw_lists.ring_sort_calls.refusal_at_both, .Lfunc_end37-ic_raw_lists.ring_sort_calls.refusal_at_both
	.cfi_endproc
	.section	.text.unlikely.ic_raw_lists.ring_sort_calls.refusal_at,"ax",%progbits
	.p2align	1
	.type	ic_raw_lists.ring_sort_calls.refusal_at,%function
	.code	16
	.thumb_func
ic_raw_lists.ring_sort_calls.refusal_at:
	.cfi_startproc
	push	{r4, r5, r6, r7, lr}
	.cfi_def_cfa_offset 20
	.cfi_offset lr, -4
	.cfi_offset r7, -8
	.cfi_offset r6, -12
	.cfi_offset r5, -16
	.cfi_offset r4, -20
	sub	sp, #4
	.cfi_def_cfa_offset 24
	mov	r4, r0
	ldr	r6, [sp, #28]
	lsls	r0, r6, #29
	ldr	r5, [sp, #24]
	lsrs	r1, r5, #3
	adds	r7, r1, r0
	ldr	r0, [r4, #8]
	ldr	r1, [r4, #12]
	lsrs	r6, r6, #3
	subs	r7, r0, r7
	mov	r7, r1
	sbcs	r7, r6
	bhs	.LBB38_2
	movs	r0, #1
	add	sp, #4
	pop	{r4, r5, r6, r7, pc}
.LBB38_2:
	lsls	r5, r5, #1
	ldr	r4, [r4]
	adds	r4, r4, r5
	subs	r4, #16
	ldrb	r4, [r4]
	lsls	r4, r4, #31
	bne	.LBB38_4
	movs	r0, #3
	add	sp, #4
	pop	{r4, r5, r6, r7, pc}
.LBB38_4:
	bl	ic_raw.sort_calls.refusal.5f318a721acb0238
	add	sp, #4
	pop	{r4, r5, r6, r7, pc}
.Lfunc_end38:
	.size	ic_raw_lists.ring_sort_calls.refusal_at, .Lfunc_end38-ic_raw_lists.ring_sort_calls.refusal_at
	.cfi_endproc
	.section	.text.unlikely.ic_raw.sort_calls.refusal.5f318a721acb0238,"ax",%progbits
	.p2align	1
	.type	ic_raw.sort_calls.refusal.5f318a721acb0238,%function
	.code	16
	.thumb_func
ic_raw.sort_calls.refusal.5f318a721acb0238:
	.cfi_startproc
	subs	r0, r2, r0
	sbcs	r3, r1
	blo	.LBB39_2
	movs	r0, #5
	bx	lr
.LBB39_2:
	movs	r0, #1
	bx	lr
.Lfunc_end39:
	.size	ic_raw.sort_calls.refusal.5f318a721acb0238, .Lfunc_end39-ic_raw.sort_calls.refusal.5f318a721acb0238
	.cfi_endproc
	.section	.text.ic_list_algorithms.merge.merge_runs.e8da022ef74ca9e6,"ax",%progbits
	.p2align	1
	.type	ic_list_algorithms.merge.merge_runs.e8da022ef74ca9e6,%function
	.code	16
	.thumb_func
ic_list_algorithms.merge.merge_runs.e8da022ef74ca9e6:
	.cfi_startproc
	push	{r4, r5, r6, r7, lr}
	.cfi_def_cfa_offset 20
	.cfi_offset lr, -4
	.cfi_offset r7, -8
	.cfi_offset r6, -12
	.cfi_offset r5, -16
	.cfi_offset r4, -20
	sub	sp, #36
	.cfi_def_cfa_offset 56
	str	r3, [sp, #12]
	ldrb	r3, [r1]
	ldrb	r4, [r1, #1]
	lsls	r4, r4, #8
	adds	r4, r4, r3
	ldrb	r3, [r1, #2]
	lsls	r5, r3, #16
	ldrb	r3, [r1, #3]
	lsls	r3, r3, #24
	adds	r3, r3, r5
	adds	r3, r3, r4
	str	r2, [sp, #28]
	adds	r2, r3, r2
	subs	r2, #8
	ldr	r6, [r2]
	ldr	r2, [r2, #4]
	str	r2, [sp, #16]
	ldr	r2, [sp, #56]
	adds	r3, r3, r2
	subs	r3, #8
	ldr	r7, [r3]
	ldr	r5, [r3, #4]
	movs	r3, #7
	mvns	r3, r3
	str	r3, [sp, #24]
	str	r0, [sp, #20]
	ldr	r3, [r0]
	movs	r4, #15
	ldr	r0, [sp, #60]
	str	r0, [sp, #32]
	subs	r6, r7, r6
	ldr	r0, [sp, #16]
	sbcs	r5, r0
	str	r4, [sp, #16]
	bhs	.LBB40_3
	ldr	r5, [sp, #28]
	lsls	r0, r2, #1
	adds	r0, r3, r0
	subs	r0, #16
	ldm	r0!, {r6, r7}
	ands	r7, r4
	ldr	r4, [sp, #24]
	ands	r6, r4
	mov	r3, r6
	subs	r0, #8
	orrs	r3, r7
	beq	.LBB40_12
	mov	r0, r2
	ldr	r2, [sp, #32]
	str	r2, [sp, #4]
	ldr	r3, [sp, #12]
	mov	r2, r6
	str	r7, [sp, #32]
	mov	r7, r5
	b	.LBB40_5
.LBB40_3:
	ldr	r0, [sp, #28]
	lsls	r0, r0, #1
	adds	r6, r3, r0
	subs	r6, #16
	ldr	r7, [r6]
	ldr	r3, [r6, #4]
	ands	r3, r4
	ldr	r4, [sp, #24]
	ands	r7, r4
	mov	r5, r7
	orrs	r5, r3
	ldr	r0, [sp, #28]
	beq	.LBB40_13
	ldr	r5, [sp, #12]
	str	r5, [sp, #4]
.LBB40_5:
	str	r0, [sp, #8]
	mov	r6, r0
.LBB40_6:
	mov	r5, r6
	str	r3, [sp, #12]
	str	r7, [sp, #28]
	mov	r3, r2
.LBB40_7:
	mov	r2, r3
	ldrb	r3, [r1]
	ldrb	r6, [r1, #1]
	lsls	r6, r6, #8
	adds	r3, r6, r3
	ldrb	r6, [r1, #2]
	lsls	r6, r6, #16
	ldrb	r7, [r1, #3]
	lsls	r7, r7, #24
	adds	r6, r7, r6
	adds	r3, r6, r3
	ldr	r0, [sp, #28]
	adds	r6, r3, r0
	subs	r6, #8
	ldr	r7, [r6]
	ldr	r6, [r6, #4]
	adds	r3, r3, r2
	subs	r3, #8
	ldm	r3!, {r0, r4}
	lsls	r5, r5, #1
	ldr	r3, [sp, #20]
	ldr	r3, [r3]
	adds	r5, r3, r5
	subs	r5, #16
	subs	r0, r0, r7
	sbcs	r4, r6
	bhs	.LBB40_9
	lsls	r6, r2, #1
	adds	r0, r3, r6
	subs	r0, #16
	ldr	r3, [r0]
	movs	r7, #1
	mov	r4, r2
	orrs	r4, r7
	str	r4, [r5]
	ldr	r0, [r0, #4]
	ldr	r4, [sp, #32]
	str	r4, [r5, #4]
	ldr	r4, [sp, #16]
	ands	r0, r4
	ldr	r4, [sp, #24]
	ands	r3, r4
	mov	r4, r3
	orrs	r4, r0
	str	r0, [sp, #32]
	mov	r5, r2
	bne	.LBB40_7
	b	.LBB40_11
.LBB40_9:
	ldr	r6, [sp, #28]
	lsls	r0, r6, #1
	str	r0, [sp]
	adds	r0, r3, r0
	subs	r0, #16
	ldr	r7, [r0]
	movs	r3, #1
	orrs	r3, r6
	str	r3, [r5]
	ldr	r3, [r0, #4]
	ldr	r0, [sp, #12]
	str	r0, [r5, #4]
	ldr	r0, [sp, #16]
	ands	r3, r0
	ldr	r4, [sp, #24]
	ands	r7, r4
	mov	r0, r7
	orrs	r0, r3
	bne	.LBB40_6
	movs	r0, #0
	adds	r1, r2, #1
	ldr	r2, [sp, #32]
	adcs	r2, r0
	ldr	r0, [sp, #20]
	ldr	r0, [r0]
	ldr	r3, [sp]
	adds	r0, r0, r3
	subs	r0, #16
	stm	r0!, {r1, r2}
	ldr	r0, [sp, #8]
	ldr	r1, [sp, #4]
	add	sp, #36
	pop	{r4, r5, r6, r7, pc}
.LBB40_11:
	ldr	r0, [sp, #20]
	ldr	r0, [r0]
	adds	r0, r0, r6
	subs	r0, #16
	ldr	r1, [sp, #28]
	orrs	r1, r7
	str	r1, [r0]
	ldr	r1, [sp, #12]
	str	r1, [r0, #4]
	ldr	r0, [sp, #8]
	ldr	r1, [sp, #4]
	add	sp, #36
	pop	{r4, r5, r6, r7, pc}
.LBB40_12:
	movs	r1, #1
	orrs	r5, r1
	str	r5, [r0]
	ldr	r1, [sp, #12]
	str	r1, [r0, #4]
	mov	r0, r2
	ldr	r1, [sp, #32]
	add	sp, #36
	pop	{r4, r5, r6, r7, pc}
.LBB40_13:
	movs	r1, #1
	orrs	r2, r1
	str	r2, [r6]
	ldr	r1, [sp, #32]
	str	r1, [r6, #4]
	ldr	r1, [sp, #12]
	add	sp, #36
	pop	{r4, r5, r6, r7, pc}
.Lfunc_end40:
	.size	ic_list_algorithms.merge.merge_runs.e8da022ef74ca9e6, .Lfunc_end40-ic_list_algorithms.merge.merge_runs.e8da022ef74ca9e6
	.cfi_endproc
	.section	.text.ic_raw.ring_calls.move_beside.354f48d5d890d6b4,"ax",%progbits
	.p2align	1
	.type	ic_raw.ring_calls.move_beside.354f48d5d890d6b4,%function
	.code	16
	.thumb_func
ic_raw.ring_calls.move_beside.354f48d5d890d6b4:
	.cfi_startproc
	push	{r4, r5, r6, r7, lr}
	.cfi_def_cfa_offset 20
	.cfi_offset lr, -4
	.cfi_offset r7, -8
	.cfi_offset r6, -12
	.cfi_offset r5, -16
	.cfi_offset r4, -20
	sub	sp, #92
	.cfi_def_cfa_offset 112
	ldr	r7, [sp, #116]
	adds	r6, r7, #1
	movs	r1, #4
	cmp	r6, r7
	bhs	.LBB41_1
	b	.LBB41_19
.LBB41_1:
	ldr	r4, [sp, #120]
	adds	r5, r4, #1
	blo	.LBB41_2
	b	.LBB41_19
.LBB41_2:
	str	r4, [sp, #32]
	movs	r4, #0
	str	r2, [sp, #80]
	subs	r1, r2, r5
	str	r3, [sp, #84]
	mov	r1, r3
	sbcs	r1, r4
	mov	r3, r0
	bhs	.LBB41_3
	b	.LBB41_40
.LBB41_3:
	lsls	r1, r5, #3
	lsls	r0, r1, #1
	adds	r0, r3, r0
	mov	r2, r0
	subs	r0, #16
	str	r0, [sp, #60]
	ldr	r0, [r0]
	str	r0, [sp, #76]
	lsls	r0, r0, #31
	bne	.LBB41_4
	b	.LBB41_40
.LBB41_4:
	str	r4, [sp, #68]
	str	r7, [sp, #48]
	str	r1, [sp, #72]
	str	r3, [sp, #52]
	subs	r2, #8
	ldr	r0, [r2]
	str	r2, [sp, #24]
	ldr	r7, [r2, #4]
	movs	r1, #15
	mov	r3, r7
	str	r1, [sp, #88]
	ands	r3, r1
	movs	r4, #7
	mov	r2, r0
	bics	r2, r4
	str	r2, [sp, #56]
	orrs	r2, r3
	rsbs	r1, r2, #0
	adcs	r1, r2
	str	r3, [sp, #20]
	lsrs	r2, r3, #3
	lsls	r3, r7, #29
	lsrs	r0, r0, #3
	adds	r0, r0, r3
	movs	r7, #1
	ldr	r3, [sp, #80]
	subs	r0, r3, r0
	ldr	r0, [sp, #84]
	sbcs	r0, r2
	str	r7, [sp, #64]
	mov	r0, r7
	blo	.LBB41_6
	ldr	r0, [sp, #68]
.LBB41_6:
	orrs	r1, r0
	ldr	r3, [sp, #52]
	ldr	r7, [sp, #48]
	beq	.LBB41_7
	b	.LBB41_40
.LBB41_7:
	ldr	r0, [sp, #56]
	lsls	r0, r0, #1
	adds	r0, r3, r0
	subs	r0, #16
	str	r0, [sp, #44]
	ldr	r0, [r0]
	lsls	r1, r0, #31
	bne	.LBB41_8
	b	.LBB41_40
.LBB41_8:
	lsrs	r2, r5, #29
	mvns	r5, r4
	ldr	r1, [sp, #44]
	ldr	r1, [r1, #4]
	ldr	r4, [sp, #88]
	ands	r1, r4
	str	r5, [sp, #68]
	ands	r0, r5
	ldr	r4, [sp, #72]
	eors	r0, r4
	eors	r1, r2
	orrs	r1, r0
	beq	.LBB41_9
	b	.LBB41_40
.LBB41_9:
	mov	r4, r3
	ldr	r0, [sp, #60]
	ldr	r3, [r0, #4]
	ldr	r5, [sp, #76]
	ldr	r0, [sp, #68]
	ands	r5, r0
	lsrs	r0, r5, #3
	ldr	r1, [sp, #88]
	ands	r3, r1
	lsls	r1, r3, #29
	adds	r0, r0, r1
	str	r3, [sp, #40]
	lsrs	r1, r3, #3
	ldr	r3, [sp, #80]
	subs	r0, r3, r0
	ldr	r0, [sp, #84]
	sbcs	r0, r1
	blo	.LBB41_11
	movs	r0, #0
	b	.LBB41_12
.LBB41_11:
	movs	r0, #1
.LBB41_12:
	str	r5, [sp, #76]
	mov	r1, r5
	ldr	r3, [sp, #40]
	orrs	r1, r3
	ldr	r1, [sp, #64]
	mov	r3, r4
	beq	.LBB41_14
	mov	r1, r0
.LBB41_14:
	cmp	r1, #0
	beq	.LBB41_15
	b	.LBB41_40
.LBB41_15:
	ldr	r0, [sp, #76]
	lsls	r0, r0, #1
	adds	r5, r3, r0
	mov	r0, r5
	subs	r0, #16
	ldrb	r0, [r0]
	lsls	r0, r0, #31
	bne	.LBB41_16
	b	.LBB41_40
.LBB41_16:
	mov	r4, r2
	subs	r5, #8
	ldm	r5!, {r0, r1}
	ldr	r2, [sp, #88]
	ands	r1, r2
	eors	r1, r4
	ldr	r2, [sp, #68]
	ands	r0, r2
	ldr	r2, [sp, #72]
	eors	r0, r2
	subs	r5, #8
	orrs	r0, r1
	beq	.LBB41_17
	b	.LBB41_40
.LBB41_17:
	lsrs	r2, r6, #29
	lsls	r0, r6, #3
	str	r0, [sp, #36]
	ldr	r1, [sp, #72]
	eors	r0, r1
	mov	r1, r2
	eors	r1, r4
	orrs	r1, r0
	bne	.LBB41_20
	movs	r1, #0
.LBB41_19:
	mov	r0, r1
	add	sp, #92
	pop	{r4, r5, r6, r7, pc}
.LBB41_20:
	str	r2, [sp, #16]
	movs	r1, #0
	ldr	r0, [sp, #80]
	subs	r0, r0, r6
	ldr	r0, [sp, #84]
	str	r1, [sp, #12]
	sbcs	r0, r1
	bhs	.LBB41_21
	b	.LBB41_40
.LBB41_21:
	ldr	r0, [sp, #36]
	lsls	r0, r0, #1
	adds	r0, r3, r0
	mov	r1, r0
	subs	r1, #16
	ldr	r6, [r1]
	lsls	r2, r6, #31
	bne	.LBB41_22
	b	.LBB41_40
.LBB41_22:
	ldr	r2, [sp, #112]
	lsls	r2, r2, #31
	beq	.LBB41_25
	subs	r0, #8
	ldr	r6, [r0]
	ldr	r2, [r0, #4]
	ldr	r0, [sp, #88]
	ands	r2, r0
	lsls	r0, r2, #29
	ldr	r1, [sp, #68]
	ands	r6, r1
	lsrs	r1, r6, #3
	adds	r0, r1, r0
	str	r2, [sp, #28]
	lsrs	r1, r2, #3
	ldr	r2, [sp, #80]
	subs	r0, r2, r0
	ldr	r0, [sp, #84]
	sbcs	r0, r1
	blo	.LBB41_28
	movs	r0, #0
	b	.LBB41_29
.LBB41_25:
	ldr	r2, [r1, #4]
	ldr	r0, [sp, #68]
	ands	r6, r0
	lsrs	r0, r6, #3
	ldr	r1, [sp, #88]
	ands	r2, r1
	lsls	r1, r2, #29
	adds	r0, r0, r1
	str	r2, [sp, #28]
	lsrs	r1, r2, #3
	ldr	r2, [sp, #80]
	subs	r0, r2, r0
	ldr	r0, [sp, #84]
	sbcs	r0, r1
	blo	.LBB41_34
	mov	r0, r6
	ldr	r1, [sp, #28]
	orrs	r0, r1
	bne	.LBB41_35
.LBB41_27:
	ldr	r0, [sp, #64]
	cmp	r0, #0
	beq	.LBB41_36
	b	.LBB41_40
.LBB41_28:
	movs	r0, #1
.LBB41_29:
	mov	r1, r6
	ldr	r2, [sp, #28]
	orrs	r1, r2
	beq	.LBB41_31
	str	r0, [sp, #64]
.LBB41_31:
	ldr	r0, [sp, #64]
	cmp	r0, #0
	bne	.LBB41_40
	lsls	r0, r6, #1
	adds	r1, r3, r0
	subs	r1, #16
	ldr	r0, [r1]
	lsls	r2, r0, #31
	beq	.LBB41_40
	ldr	r1, [r1, #4]
	ldr	r2, [sp, #88]
	ands	r1, r2
	ldr	r2, [sp, #68]
	ands	r0, r2
	ldr	r2, [sp, #36]
	eors	r0, r2
	ldr	r2, [sp, #16]
	eors	r1, r2
	ldr	r2, [sp, #72]
	orrs	r1, r0
	mov	r1, r6
	ldr	r0, [sp, #28]
	str	r0, [sp, #88]
	beq	.LBB41_38
	b	.LBB41_40
.LBB41_34:
	movs	r0, #1
	str	r0, [sp, #12]
	mov	r0, r6
	ldr	r1, [sp, #28]
	orrs	r0, r1
	beq	.LBB41_27
.LBB41_35:
	ldr	r0, [sp, #12]
	str	r0, [sp, #64]
	ldr	r0, [sp, #64]
	cmp	r0, #0
	bne	.LBB41_40
.LBB41_36:
	lsls	r0, r6, #1
	adds	r0, r3, r0
	mov	r1, r0
	subs	r1, #16
	ldrb	r1, [r1]
	lsls	r1, r1, #31
	beq	.LBB41_40
	subs	r0, #8
	ldr	r1, [r0]
	ldr	r0, [r0, #4]
	ldr	r2, [sp, #88]
	ands	r0, r2
	str	r4, [sp, #64]
	ldr	r4, [sp, #16]
	eors	r0, r4
	ldr	r2, [sp, #68]
	ands	r1, r2
	ldr	r2, [sp, #36]
	eors	r1, r2
	orrs	r1, r0
	mov	r1, r2
	ldr	r2, [sp, #72]
	str	r4, [sp, #88]
	ldr	r4, [sp, #64]
	str	r6, [sp, #36]
	ldr	r0, [sp, #28]
	str	r0, [sp, #16]
	bne	.LBB41_40
.LBB41_38:
	str	r1, [sp, #84]
	eors	r6, r2
	ldr	r0, [sp, #28]
	eors	r0, r4
	movs	r1, #0
	orrs	r0, r6
	bne	.LBB41_39
	b	.LBB41_19
.LBB41_39:
	mov	r6, r2
	movs	r2, #1
	ldr	r0, [sp, #76]
	orrs	r0, r2
	ldr	r7, [sp, #44]
	str	r0, [r7]
	ldr	r0, [sp, #40]
	str	r0, [r7, #4]
	ldr	r0, [sp, #56]
	str	r0, [r5]
	ldr	r0, [sp, #20]
	str	r0, [r5, #4]
	ldr	r7, [sp, #36]
	lsls	r0, r7, #1
	str	r0, [sp, #80]
	orrs	r7, r2
	mov	r5, r4
	ldr	r4, [sp, #60]
	str	r7, [r4]
	ldr	r7, [sp, #16]
	str	r7, [r4, #4]
	mov	r4, r3
	ldr	r3, [sp, #24]
	ldr	r7, [sp, #84]
	str	r7, [r3]
	ldr	r0, [sp, #88]
	str	r0, [r3, #4]
	orrs	r2, r6
	lsls	r3, r7, #1
	adds	r3, r4, r3
	subs	r3, #16
	stm	r3!, {r2, r5}
	ldr	r0, [sp, #80]
	adds	r0, r4, r0
	subs	r0, #8
	str	r6, [r0]
	str	r5, [r0, #4]
	mov	r0, r1
	add	sp, #92
	pop	{r4, r5, r6, r7, pc}
.LBB41_40:
	str	r7, [sp]
	ldr	r0, [sp, #32]
	str	r0, [sp, #4]
	mov	r0, r3
	ldr	r2, [sp, #80]
	ldr	r3, [sp, #84]
	bl	ic_raw.table.RawTable.refusal_at_both.85cd03e557136797
	mov	r1, r0
	mov	r0, r1
	add	sp, #92
	pop	{r4, r5, r6, r7, pc}
.Lfunc_end41:
	.size	ic_raw.ring_calls.move_beside.354f48d5d890d6b4, .Lfunc_end41-ic_raw.ring_calls.move_beside.354f48d5d890d6b4
	.cfi_endproc
	.section	.text.ic_raw.ring_calls.pop.354f48d5d890d6b4,"ax",%progbits
	.p2align	1
	.type	ic_raw.ring_calls.pop.354f48d5d890d6b4,%function
	.code	16
	.thumb_func
ic_raw.ring_calls.pop.354f48d5d890d6b4:
	.cfi_startproc
	push	{r4, r5, r6, r7, lr}
	.cfi_def_cfa_offset 20
	.cfi_offset lr, -4
	.cfi_offset r7, -8
	.cfi_offset r6, -12
	.cfi_offset r5, -16
	.cfi_offset r4, -20
	sub	sp, #76
	.cfi_def_cfa_offset 96
	mov	r1, r0
	ldr	r0, [sp, #100]
	adds	r4, r0, #1
	blo	.LBB42_2
	movs	r0, #4
	add	sp, #76
	pop	{r4, r5, r6, r7, pc}
.LBB42_2:
	lsrs	r0, r4, #29
	str	r0, [sp, #20]
	lsls	r0, r4, #3
	str	r0, [sp, #32]
	str	r1, [sp, #48]
	str	r1, [sp, #56]
	movs	r0, #0
	add	r1, sp, #60
	stm	r1!, {r0, r2, r3}
	subs	r1, r2, r4
	mov	r1, r3
	sbcs	r1, r0
	bhs	.LBB42_3
	b	.LBB42_43
.LBB42_3:
	ldr	r1, [sp, #32]
	lsls	r4, r1, #1
	ldr	r1, [sp, #48]
	adds	r7, r1, r4
	mov	r5, r7
	subs	r5, #16
	ldr	r4, [r5]
	mov	r1, r4
	lsls	r4, r4, #31
	bne	.LBB42_4
	b	.LBB42_43
.LBB42_4:
	str	r2, [sp, #24]
	str	r3, [sp, #16]
	ldr	r4, [sp, #96]
	movs	r6, #7
	mvns	r3, r6
	movs	r6, #15
	movs	r2, #1
	str	r2, [sp, #44]
	lsls	r4, r4, #31
	str	r6, [sp, #40]
	str	r3, [sp, #36]
	beq	.LBB42_7
	subs	r7, #8
	ldr	r1, [r7]
	mov	r2, r3
	ldr	r3, [r7, #4]
	ands	r3, r6
	lsls	r0, r3, #29
	ands	r1, r2
	str	r1, [sp, #52]
	lsrs	r2, r1, #3
	adds	r1, r2, r0
	str	r3, [sp, #28]
	lsrs	r2, r3, #3
	ldr	r0, [sp, #24]
	subs	r0, r0, r1
	ldr	r0, [sp, #16]
	sbcs	r0, r2
	blo	.LBB42_14
	movs	r0, #0
	b	.LBB42_15
.LBB42_7:
	ldr	r5, [r5, #4]
	ands	r1, r3
	str	r1, [sp, #52]
	lsrs	r2, r1, #3
	ands	r5, r6
	lsls	r3, r5, #29
	adds	r4, r2, r3
	str	r5, [sp, #28]
	lsrs	r2, r5, #3
	ldr	r1, [sp, #24]
	subs	r3, r1, r4
	ldr	r3, [sp, #16]
	sbcs	r3, r2
	bhs	.LBB42_9
	movs	r0, #1
.LBB42_9:
	ldr	r3, [sp, #52]
	ldr	r1, [sp, #28]
	orrs	r3, r1
	ldr	r3, [sp, #44]
	beq	.LBB42_11
	mov	r3, r0
.LBB42_11:
	cmp	r3, #0
	ldr	r5, [sp, #16]
	ldr	r7, [sp, #24]
	beq	.LBB42_12
	b	.LBB42_43
.LBB42_12:
	ldr	r0, [sp, #52]
	lsls	r0, r0, #1
	ldr	r1, [sp, #48]
	adds	r0, r1, r0
	mov	r3, r0
	subs	r3, #16
	ldrb	r3, [r3]
	lsls	r3, r3, #31
	bne	.LBB42_13
	b	.LBB42_43
.LBB42_13:
	subs	r0, #8
	ldr	r3, [r0]
	ldr	r0, [r0, #4]
	ldr	r1, [sp, #40]
	ands	r0, r1
	ldr	r1, [sp, #20]
	eors	r0, r1
	ldr	r1, [sp, #36]
	ands	r3, r1
	ldr	r1, [sp, #32]
	b	.LBB42_20
.LBB42_14:
	movs	r0, #1
.LBB42_15:
	ldr	r3, [sp, #52]
	ldr	r4, [sp, #28]
	orrs	r3, r4
	ldr	r3, [sp, #44]
	beq	.LBB42_17
	mov	r3, r0
.LBB42_17:
	cmp	r3, #0
	ldr	r5, [sp, #16]
	ldr	r7, [sp, #24]
	beq	.LBB42_18
	b	.LBB42_43
.LBB42_18:
	ldr	r0, [sp, #52]
	lsls	r0, r0, #1
	ldr	r3, [sp, #48]
	adds	r3, r3, r0
	subs	r3, #16
	ldr	r0, [r3]
	lsls	r4, r0, #31
	bne	.LBB42_19
	b	.LBB42_43
.LBB42_19:
	mov	r4, r1
	ldr	r3, [r3, #4]
	ldr	r1, [sp, #40]
	ands	r3, r1
	ldr	r1, [sp, #36]
	ands	r0, r1
	ldr	r1, [sp, #32]
	eors	r0, r1
	ldr	r1, [sp, #20]
.LBB42_20:
	eors	r3, r1
	orrs	r3, r0
	beq	.LBB42_21
	b	.LBB42_43
.LBB42_21:
	ldr	r3, [sp, #52]
	ldr	r0, [sp, #32]
	eors	r3, r0
	ldr	r0, [sp, #28]
	ldr	r1, [sp, #20]
	eors	r0, r1
	orrs	r0, r3
	subs	r3, r7, r4
	mov	r3, r5
	sbcs	r3, r2
	blo	.LBB42_23
	movs	r2, #0
	cmp	r0, #0
	ldr	r0, [sp, #44]
	bne	.LBB42_24
	b	.LBB42_25
.LBB42_23:
	movs	r2, #1
	cmp	r0, #0
	ldr	r0, [sp, #44]
	beq	.LBB42_25
.LBB42_24:
	mov	r0, r2
.LBB42_25:
	cmp	r0, #0
	bne	.LBB42_43
	ldr	r0, [sp, #52]
	lsls	r0, r0, #1
	ldr	r1, [sp, #48]
	adds	r0, r1, r0
	mov	r1, r0
	subs	r1, #16
	str	r1, [sp, #12]
	ldr	r6, [r1]
	lsls	r3, r6, #31
	beq	.LBB42_43
	str	r4, [sp, #4]
	subs	r0, #8
	ldm	r0!, {r2, r4}
	ldr	r0, [sp, #40]
	ands	r4, r0
	lsls	r0, r4, #29
	ldr	r1, [sp, #36]
	ands	r2, r1
	lsrs	r3, r2, #3
	adds	r0, r3, r0
	str	r4, [sp, #16]
	lsrs	r3, r4, #3
	subs	r0, r7, r0
	mov	r4, r5
	sbcs	r5, r3
	blo	.LBB42_29
	movs	r0, #0
	b	.LBB42_30
.LBB42_29:
	movs	r0, #1
.LBB42_30:
	str	r2, [sp, #8]
	mov	r3, r2
	ldr	r1, [sp, #16]
	orrs	r3, r1
	ldr	r3, [sp, #44]
	ldr	r5, [sp, #4]
	beq	.LBB42_32
	mov	r3, r0
.LBB42_32:
	cmp	r3, #0
	ldr	r7, [sp, #24]
	bne	.LBB42_43
	ldr	r0, [sp, #8]
	lsls	r0, r0, #1
	ldr	r1, [sp, #48]
	adds	r3, r1, r0
	subs	r3, #16
	ldr	r0, [r3]
	lsls	r1, r0, #31
	beq	.LBB42_43
	ldr	r1, [r3, #4]
	ldr	r2, [sp, #40]
	ands	r1, r2
	ldr	r2, [sp, #36]
	ands	r0, r2
	ldr	r2, [sp, #52]
	eors	r0, r2
	ldr	r2, [sp, #28]
	eors	r1, r2
	orrs	r1, r0
	bne	.LBB42_43
	ldr	r0, [sp, #12]
	ldr	r0, [r0, #4]
	ldr	r1, [sp, #36]
	ands	r6, r1
	lsrs	r1, r6, #3
	ldr	r2, [sp, #40]
	ands	r0, r2
	lsls	r2, r0, #29
	adds	r1, r1, r2
	lsrs	r2, r0, #3
	subs	r1, r7, r1
	sbcs	r4, r2
	blo	.LBB42_37
	movs	r1, #0
	mov	r2, r6
	orrs	r2, r0
	bne	.LBB42_38
	b	.LBB42_39
.LBB42_37:
	movs	r1, #1
	mov	r2, r6
	orrs	r2, r0
	beq	.LBB42_39
.LBB42_38:
	str	r1, [sp, #44]
.LBB42_39:
	ldr	r1, [sp, #44]
	cmp	r1, #0
	bne	.LBB42_43
	lsls	r1, r6, #1
	ldr	r2, [sp, #48]
	adds	r1, r2, r1
	mov	r2, r1
	subs	r2, #16
	ldrb	r2, [r2]
	lsls	r2, r2, #31
	beq	.LBB42_43
	subs	r1, #8
	ldr	r2, [r1]
	mov	r7, r5
	ldr	r5, [r1, #4]
	ldr	r4, [sp, #40]
	ands	r5, r4
	ldr	r4, [sp, #28]
	eors	r5, r4
	ldr	r4, [sp, #36]
	ands	r2, r4
	ldr	r4, [sp, #52]
	eors	r2, r4
	orrs	r2, r5
	bne	.LBB42_43
	ldr	r2, [sp, #104]
	movs	r5, #1
	orrs	r6, r5
	str	r6, [r3]
	str	r0, [r3, #4]
	ldr	r0, [sp, #8]
	str	r0, [r1]
	ldr	r0, [sp, #16]
	str	r0, [r1, #4]
	movs	r0, #0
	ldr	r1, [sp, #12]
	str	r0, [r1]
	str	r0, [r1, #4]
	subs	r1, r7, #1
	str	r1, [r2]
	add	sp, #76
	pop	{r4, r5, r6, r7, pc}
.LBB42_43:
	add	r0, sp, #56
	ldr	r2, [sp, #32]
	ldr	r3, [sp, #20]
	bl	ic_raw.ring_calls.refusal_to_pop.354f48d5d890d6b4
	add	sp, #76
	pop	{r4, r5, r6, r7, pc}
.Lfunc_end42:
	.size	ic_raw.ring_calls.pop.354f48d5d890d6b4, .Lfunc_end42-ic_raw.ring_calls.pop.354f48d5d890d6b4
	.cfi_endproc
	.section	.text.unlikely.ic_raw.ring_calls.refusal_to_pop.354f48d5d890d6b4,"ax",%progbits
	.p2align	1
	.type	ic_raw.ring_calls.refusal_to_pop.354f48d5d890d6b4,%function
	.code	16
	.thumb_func
ic_raw.ring_calls.refusal_to_pop.354f48d5d890d6b4:
	.cfi_startproc
	push	{r4, r5, r6, r7, lr}
	.cfi_def_cfa_offset 20
	.cfi_offset lr, -4
	.cfi_offset r7, -8
	.cfi_offset r6, -12
	.cfi_offset r5, -16
	.cfi_offset r4, -20
	sub	sp, #4
	.cfi_def_cfa_offset 24
	lsls	r1, r3, #29
	lsrs	r4, r2, #3
	adds	r1, r4, r1
	lsrs	r4, r3, #3
	ldr	r5, [r0, #8]
	ldr	r6, [r0, #12]
	subs	r1, r5, r1
	sbcs	r6, r4
	blo	.LBB43_5
	lsls	r1, r2, #1
	ldr	r4, [r0]
	adds	r1, r4, r1
	mov	r4, r1
	subs	r4, #16
	ldr	r5, [r4]
	lsls	r6, r5, #31
	beq	.LBB43_5
	ldr	r7, [r4, #4]
	movs	r4, #15
	ands	r7, r4
	movs	r6, #7
	bics	r5, r6
	eors	r5, r2
	eors	r7, r3
	orrs	r7, r5
	bne	.LBB43_5
	mvns	r5, r6
	subs	r1, #8
	ldr	r6, [r1]
	ldr	r1, [r1, #4]
	ands	r1, r4
	eors	r1, r3
	ands	r6, r5
	eors	r6, r2
	orrs	r6, r1
	bne	.LBB43_5
	movs	r0, #4
	add	sp, #4
	pop	{r4, r5, r6, r7, pc}
.LBB43_5:
	bl	ic_raw.table.RawTable.refusal_of.85cd03e557136797
	add	sp, #4
	pop	{r4, r5, r6, r7, pc}
.Lfunc_end43:
	.size	ic_raw.ring_calls.refusal_to_pop.354f48d5d890d6b4, .Lfunc_end43-ic_raw.ring_calls.refusal_to_pop.354f48d5d890d6b4
	.cfi_endproc
	.section	.text.unlikely.ic_raw.table.RawTable.refusal_of.85cd03e557136797,"ax",%progbits
	.p2align	1
	.type	ic_raw.table.RawTable.refusal_of.85cd03e557136797,%function
	.code	16
	.thumb_func
ic_raw.table.RawTable.refusal_of.85cd03e557136797:
	.cfi_startproc
	push	{r4, r5, r7, lr}
	.cfi_def_cfa_offset 16
	.cfi_offset lr, -4
	.cfi_offset r7, -8
	.cfi_offset r5, -12
	.cfi_offset r4, -16
	lsls	r1, r3, #29
	lsrs	r4, r2, #3
	adds	r1, r4, r1
	lsrs	r3, r3, #3
	ldr	r4, [r0, #8]
	ldr	r5, [r0, #12]
	subs	r1, r4, r1
	sbcs	r5, r3
	bhs	.LBB44_2
	movs	r0, #1
	pop	{r4, r5, r7, pc}
.LBB44_2:
	lsls	r1, r2, #1
	ldr	r0, [r0]
	adds	r0, r0, r1
	subs	r0, #16
	ldrb	r0, [r0]
	lsls	r0, r0, #31
	beq	.LBB44_4
	movs	r0, #5
	pop	{r4, r5, r7, pc}
.LBB44_4:
	movs	r0, #3
	pop	{r4, r5, r7, pc}
.Lfunc_end44:
	.size	ic_raw.table.RawTable.refusal_of.85cd03e557136797, .Lfunc_end44-ic_raw.table.RawTable.refusal_of.85cd03e557136797
	.cfi_endproc
	.section	.text.ic_list_algorithms.sort.sort_front.e8da022ef74ca9e6,"ax",%progbits
	.p2align	1
	.type	ic_list_algorithms.sort.sort_front.e8da022ef74ca9e6,%function
	.code	16
	.thumb_func
ic_list_algorithms.sort.sort_front.e8da022ef74ca9e6:
	.cfi_startproc
	push	{r4, r5, r6, r7, lr}
	.cfi_def_cfa_offset 20
	.cfi_offset lr, -4
	.cfi_offset r7, -8
	.cfi_offset r6, -12
	.cfi_offset r5, -16
	.cfi_offset r4, -20
	sub	sp, #92
	.cfi_def_cfa_offset 112
	mov	r5, r2
	mov	r4, r0
	ldr	r7, [sp, #124]
	ldr	r3, [sp, #120]
	mov	r0, r3
	orrs	r0, r7
	ldr	r6, [sp, #116]
	ldr	r2, [sp, #112]
	beq	.LBB45_4
	str	r5, [sp, #36]
	str	r6, [sp, #28]
	movs	r0, #1
	mov	r5, r3
	eors	r5, r0
	orrs	r5, r7
	str	r1, [sp, #32]
	bne	.LBB45_5
	lsls	r3, r2, #1
	ldr	r5, [r1]
	adds	r5, r5, r3
	subs	r5, #16
	ldr	r3, [r5]
	str	r0, [r5]
	ldr	r1, [r5, #4]
	movs	r6, #0
	str	r6, [r5, #4]
	movs	r5, #15
	str	r5, [sp, #24]
	ands	r1, r5
	movs	r5, #7
	bics	r3, r5
	mov	r7, r3
	orrs	r7, r1
	bne	.LBB45_3
	b	.LBB45_9
.LBB45_3:
	mvns	r5, r5
	str	r5, [sp, #20]
	lsls	r5, r3, #1
	str	r5, [sp, #16]
	ldr	r5, [sp, #32]
	ldr	r7, [r5]
	ldr	r5, [sp, #16]
	adds	r7, r7, r5
	subs	r7, #16
	ldr	r5, [r7]
	str	r0, [r7]
	ldr	r0, [r7, #4]
	str	r0, [sp, #16]
	str	r6, [r7, #4]
	str	r3, [sp]
	str	r1, [sp, #4]
	ldr	r0, [sp, #32]
	ldr	r1, [sp, #36]
	ldr	r3, [sp, #28]
	bl	ic_list_algorithms.merge.merge_runs.e8da022ef74ca9e6
	strb	r6, [r4, #23]
	strb	r6, [r4, #22]
	strb	r6, [r4, #21]
	ldr	r2, [sp, #24]
	ldr	r3, [sp, #16]
	ands	r3, r2
	strb	r3, [r4, #20]
	ldr	r2, [sp, #20]
	ands	r5, r2
	lsrs	r2, r5, #24
	strb	r2, [r4, #19]
	lsrs	r2, r5, #16
	strb	r2, [r4, #18]
	lsrs	r2, r5, #8
	strb	r2, [r4, #17]
	strb	r5, [r4, #16]
	strb	r6, [r4, #15]
	strb	r6, [r4, #14]
	strb	r6, [r4, #13]
	strb	r6, [r4, #12]
	strb	r6, [r4, #11]
	strb	r6, [r4, #10]
	strb	r6, [r4, #9]
	orrs	r5, r3
	subs	r2, r5, #1
	sbcs	r5, r2
	strb	r5, [r4, #8]
	b	.LBB45_7
.LBB45_4:
	lsls	r0, r2, #1
	ldr	r1, [r1]
	adds	r1, r1, r0
	subs	r1, #16
	ldr	r0, [r1]
	movs	r3, #1
	str	r3, [r1]
	ldr	r5, [r1, #4]
	movs	r3, #0
	str	r3, [r1, #4]
	strb	r3, [r4, #23]
	strb	r3, [r4, #22]
	strb	r3, [r4, #21]
	movs	r1, #15
	ands	r1, r5
	strb	r1, [r4, #20]
	lsrs	r5, r0, #24
	strb	r5, [r4, #19]
	lsrs	r5, r0, #16
	strb	r5, [r4, #18]
	lsrs	r5, r0, #8
	strb	r5, [r4, #17]
	movs	r5, #7
	bics	r0, r5
	strb	r0, [r4, #16]
	strb	r3, [r4, #15]
	strb	r3, [r4, #14]
	strb	r3, [r4, #13]
	strb	r3, [r4, #12]
	strb	r3, [r4, #11]
	strb	r3, [r4, #10]
	strb	r3, [r4, #9]
	lsrs	r3, r6, #24
	strb	r3, [r4, #7]
	lsrs	r3, r6, #16
	strb	r3, [r4, #6]
	lsrs	r3, r6, #8
	strb	r3, [r4, #5]
	strb	r6, [r4, #4]
	lsrs	r3, r2, #24
	strb	r3, [r4, #3]
	lsrs	r3, r2, #16
	strb	r3, [r4, #2]
	lsrs	r3, r2, #8
	strb	r3, [r4, #1]
	strb	r2, [r4]
	orrs	r0, r1
	subs	r1, r0, #1
	sbcs	r0, r1
	strb	r0, [r4, #8]
	add	sp, #92
	pop	{r4, r5, r6, r7, pc}
.LBB45_5:
	str	r2, [sp]
	movs	r6, #0
	subs	r0, r3, #1
	str	r0, [sp, #24]
	str	r0, [sp, #8]
	ldr	r0, [sp, #28]
	str	r0, [sp, #4]
	sbcs	r7, r6
	str	r7, [sp, #12]
	add	r5, sp, #64
	mov	r0, r5
	ldr	r2, [sp, #36]
	bl	ic_list_algorithms.sort.sort_front.e8da022ef74ca9e6
	ldrb	r0, [r5, #8]
	ldr	r3, [sp, #68]
	ldr	r5, [sp, #64]
	cmp	r0, #1
	bne	.LBB45_8
	ldr	r0, [sp, #80]
	ldr	r1, [sp, #84]
	str	r0, [sp]
	str	r1, [sp, #4]
	ldr	r0, [sp, #24]
	str	r0, [sp, #8]
	str	r7, [sp, #12]
	add	r7, sp, #40
	mov	r0, r7
	ldr	r1, [sp, #32]
	ldr	r2, [sp, #36]
	str	r3, [sp, #20]
	bl	ic_list_algorithms.sort.sort_front.e8da022ef74ca9e6
	ldrb	r0, [r7, #8]
	str	r0, [sp, #28]
	ldr	r0, [sp, #56]
	str	r0, [sp, #24]
	ldr	r7, [sp, #60]
	ldr	r0, [sp, #40]
	ldr	r1, [sp, #44]
	str	r0, [sp]
	str	r1, [sp, #4]
	ldr	r0, [sp, #32]
	ldr	r1, [sp, #36]
	mov	r2, r5
	ldr	r3, [sp, #20]
	bl	ic_list_algorithms.merge.merge_runs.e8da022ef74ca9e6
	lsrs	r2, r7, #24
	strb	r2, [r4, #23]
	lsrs	r2, r7, #16
	strb	r2, [r4, #22]
	lsrs	r2, r7, #8
	strb	r2, [r4, #21]
	strb	r7, [r4, #20]
	ldr	r3, [sp, #24]
	lsrs	r2, r3, #24
	strb	r2, [r4, #19]
	lsrs	r2, r3, #16
	strb	r2, [r4, #18]
	lsrs	r2, r3, #8
	strb	r2, [r4, #17]
	strb	r3, [r4, #16]
	strb	r6, [r4, #15]
	strb	r6, [r4, #14]
	strb	r6, [r4, #13]
	strb	r6, [r4, #12]
	strb	r6, [r4, #11]
	strb	r6, [r4, #10]
	strb	r6, [r4, #9]
	ldr	r2, [sp, #28]
	strb	r2, [r4, #8]
.LBB45_7:
	strb	r1, [r4, #4]
	strb	r0, [r4]
	lsrs	r2, r1, #24
	strb	r2, [r4, #7]
	lsrs	r2, r1, #16
	strb	r2, [r4, #6]
	lsrs	r1, r1, #8
	strb	r1, [r4, #5]
	lsrs	r1, r0, #24
	strb	r1, [r4, #3]
	lsrs	r1, r0, #16
	strb	r1, [r4, #2]
	lsrs	r0, r0, #8
	strb	r0, [r4, #1]
	add	sp, #92
	pop	{r4, r5, r6, r7, pc}
.LBB45_8:
	strb	r5, [r4]
	strb	r3, [r4, #4]
	lsrs	r0, r5, #24
	strb	r0, [r4, #3]
	lsrs	r0, r5, #16
	strb	r0, [r4, #2]
	lsrs	r0, r5, #8
	strb	r0, [r4, #1]
	lsrs	r0, r3, #24
	strb	r0, [r4, #7]
	lsrs	r0, r3, #16
	strb	r0, [r4, #6]
	lsrs	r0, r3, #8
	b	.LBB45_10
.LBB45_9:
	strb	r2, [r4]
	ldr	r1, [sp, #28]
	strb	r1, [r4, #4]
	lsrs	r0, r2, #24
	strb	r0, [r4, #3]
	lsrs	r0, r2, #16
	strb	r0, [r4, #2]
	lsrs	r0, r2, #8
	strb	r0, [r4, #1]
	lsrs	r0, r1, #24
	strb	r0, [r4, #7]
	lsrs	r0, r1, #16
	strb	r0, [r4, #6]
	lsrs	r0, r1, #8
.LBB45_10:
	strb	r0, [r4, #5]
	str	r6, [sp]
	adds	r4, #8
	movs	r2, #16
	mov	r0, r4
	mov	r1, r6
	mov	r3, r6
	bl	ic.clear
	add	sp, #92
	pop	{r4, r5, r6, r7, pc}
.Lfunc_end45:
	.size	ic_list_algorithms.sort.sort_front.e8da022ef74ca9e6, .Lfunc_end45-ic_list_algorithms.sort.sort_front.e8da022ef74ca9e6
	.cfi_endproc
	.section	.text.ic_raw.ring_calls.splice.354f48d5d890d6b4,"ax",%progbits
	.p2align	1
	.type	ic_raw.ring_calls.splice.354f48d5d890d6b4,%function
	.code	16
	.thumb_func
ic_raw.ring_calls.splice.354f48d5d890d6b4:
	.cfi_startproc
	push	{r4, r5, r6, r7, lr}
	.cfi_def_cfa_offset 20
	.cfi_offset lr, -4
	.cfi_offset r7, -8
	.cfi_offset r6, -12
	.cfi_offset r5, -16
	.cfi_offset r4, -20
	sub	sp, #92
	.cfi_def_cfa_offset 112
	ldr	r6, [sp, #116]
	adds	r4, r6, #1
	movs	r1, #4
	cmp	r4, r6
	bhs	.LBB46_1
	b	.LBB46_39
.LBB46_1:
	ldr	r7, [sp, #120]
	adds	r5, r7, #1
	blo	.LBB46_2
	b	.LBB46_39
.LBB46_2:
	str	r7, [sp, #32]
	str	r6, [sp, #36]
	movs	r7, #0
	str	r2, [sp, #84]
	subs	r1, r2, r5
	str	r3, [sp, #88]
	mov	r1, r3
	sbcs	r1, r7
	mov	r3, r0
	bhs	.LBB46_3
	b	.LBB46_40
.LBB46_3:
	lsls	r2, r5, #3
	lsls	r1, r2, #1
	adds	r1, r3, r1
	mov	r6, r1
	subs	r1, #16
	str	r1, [sp, #44]
	ldr	r0, [r1]
	str	r0, [sp, #72]
	lsls	r1, r0, #31
	bne	.LBB46_4
	b	.LBB46_40
.LBB46_4:
	str	r7, [sp, #56]
	str	r2, [sp, #76]
	str	r3, [sp, #68]
	mov	r1, r6
	subs	r1, #8
	ldr	r6, [r1]
	str	r1, [sp, #20]
	ldr	r3, [r1, #4]
	movs	r1, #15
	mov	r0, r3
	str	r1, [sp, #80]
	ands	r0, r1
	movs	r1, #7
	mov	r2, r6
	bics	r2, r1
	str	r2, [sp, #64]
	orrs	r2, r0
	rsbs	r7, r2, #0
	adcs	r7, r2
	str	r0, [sp, #48]
	lsrs	r2, r0, #3
	lsls	r3, r3, #29
	lsrs	r6, r6, #3
	adds	r3, r6, r3
	movs	r0, #1
	ldr	r6, [sp, #84]
	subs	r3, r6, r3
	ldr	r3, [sp, #88]
	sbcs	r3, r2
	str	r0, [sp, #60]
	mov	r6, r0
	blo	.LBB46_6
	ldr	r6, [sp, #56]
.LBB46_6:
	orrs	r7, r6
	ldr	r3, [sp, #68]
	beq	.LBB46_7
	b	.LBB46_40
.LBB46_7:
	ldr	r0, [sp, #64]
	lsls	r0, r0, #1
	adds	r0, r3, r0
	subs	r0, #16
	str	r0, [sp, #40]
	ldr	r6, [r0]
	lsls	r0, r6, #31
	bne	.LBB46_8
	b	.LBB46_40
.LBB46_8:
	lsrs	r5, r5, #29
	mvns	r7, r1
	ldr	r0, [sp, #40]
	ldr	r0, [r0, #4]
	ldr	r1, [sp, #80]
	ands	r0, r1
	ands	r6, r7
	ldr	r1, [sp, #76]
	eors	r6, r1
	str	r5, [sp, #56]
	eors	r0, r5
	orrs	r0, r6
	beq	.LBB46_9
	b	.LBB46_40
.LBB46_9:
	mov	r2, r7
	ldr	r0, [sp, #44]
	ldr	r6, [r0, #4]
	ldr	r5, [sp, #72]
	ands	r5, r7
	lsrs	r0, r5, #3
	ldr	r1, [sp, #80]
	ands	r6, r1
	lsls	r1, r6, #29
	adds	r0, r0, r1
	lsrs	r1, r6, #3
	ldr	r3, [sp, #84]
	subs	r0, r3, r0
	ldr	r0, [sp, #88]
	sbcs	r0, r1
	blo	.LBB46_11
	movs	r1, #0
	b	.LBB46_12
.LBB46_11:
	movs	r1, #1
.LBB46_12:
	str	r5, [sp, #72]
	mov	r0, r5
	str	r6, [sp, #16]
	orrs	r0, r6
	ldr	r0, [sp, #60]
	ldr	r3, [sp, #68]
	beq	.LBB46_14
	mov	r0, r1
.LBB46_14:
	cmp	r0, #0
	beq	.LBB46_15
	b	.LBB46_40
.LBB46_15:
	ldr	r0, [sp, #72]
	lsls	r0, r0, #1
	adds	r0, r3, r0
	mov	r1, r0
	subs	r0, #16
	ldrb	r0, [r0]
	lsls	r0, r0, #31
	bne	.LBB46_16
	b	.LBB46_40
.LBB46_16:
	movs	r5, #0
	ldr	r0, [sp, #84]
	subs	r0, r0, r4
	ldr	r0, [sp, #88]
	sbcs	r0, r5
	bhs	.LBB46_17
	b	.LBB46_40
.LBB46_17:
	subs	r1, #8
	ldr	r0, [r1]
	str	r1, [sp, #12]
	ldr	r1, [r1, #4]
	ldr	r6, [sp, #80]
	ands	r1, r6
	ands	r0, r2
	ldr	r6, [sp, #76]
	eors	r0, r6
	ldr	r6, [sp, #56]
	eors	r1, r6
	orrs	r1, r0
	beq	.LBB46_18
	b	.LBB46_40
.LBB46_18:
	lsls	r0, r4, #3
	str	r0, [sp, #28]
	lsls	r0, r0, #1
	adds	r1, r3, r0
	mov	r7, r1
	subs	r7, #16
	ldr	r6, [r7]
	lsls	r0, r6, #31
	bne	.LBB46_19
	b	.LBB46_40
.LBB46_19:
	lsrs	r4, r4, #29
	ldr	r0, [sp, #112]
	lsls	r0, r0, #31
	beq	.LBB46_22
	mov	r7, r4
	subs	r1, #8
	ldr	r4, [r1]
	ldr	r3, [r1, #4]
	ldr	r0, [sp, #80]
	ands	r3, r0
	lsls	r0, r3, #29
	ands	r4, r2
	lsrs	r1, r4, #3
	adds	r0, r1, r0
	str	r3, [sp, #52]
	lsrs	r1, r3, #3
	ldr	r3, [sp, #84]
	subs	r0, r3, r0
	ldr	r0, [sp, #88]
	sbcs	r0, r1
	blo	.LBB46_29
	movs	r1, #0
	b	.LBB46_30
.LBB46_22:
	ldr	r3, [r7, #4]
	ands	r6, r2
	lsrs	r0, r6, #3
	ldr	r1, [sp, #80]
	ands	r3, r1
	lsls	r1, r3, #29
	adds	r0, r0, r1
	str	r3, [sp, #24]
	lsrs	r1, r3, #3
	ldr	r3, [sp, #84]
	subs	r0, r3, r0
	ldr	r0, [sp, #88]
	sbcs	r0, r1
	bhs	.LBB46_24
	movs	r5, #1
.LBB46_24:
	mov	r7, r4
	mov	r0, r6
	ldr	r1, [sp, #24]
	orrs	r0, r1
	ldr	r3, [sp, #68]
	beq	.LBB46_26
	str	r5, [sp, #60]
.LBB46_26:
	ldr	r0, [sp, #60]
	cmp	r0, #0
	bne	.LBB46_40
	lsls	r0, r6, #1
	adds	r1, r3, r0
	mov	r0, r1
	subs	r0, #16
	ldrb	r0, [r0]
	lsls	r0, r0, #31
	beq	.LBB46_40
	subs	r1, #8
	ldm	r1, {r0, r1}
	ldr	r4, [sp, #80]
	ands	r1, r4
	eors	r1, r7
	ands	r0, r2
	ldr	r4, [sp, #28]
	eors	r0, r4
	orrs	r0, r1
	str	r7, [sp, #52]
	beq	.LBB46_35
	b	.LBB46_40
.LBB46_29:
	movs	r1, #1
.LBB46_30:
	mov	r0, r4
	ldr	r3, [sp, #52]
	orrs	r0, r3
	ldr	r3, [sp, #68]
	beq	.LBB46_32
	str	r1, [sp, #60]
.LBB46_32:
	ldr	r0, [sp, #60]
	cmp	r0, #0
	bne	.LBB46_40
	lsls	r0, r4, #1
	adds	r6, r3, r0
	subs	r6, #16
	ldr	r1, [r6]
	lsls	r0, r1, #31
	beq	.LBB46_40
	ldr	r0, [r6, #4]
	ldr	r5, [sp, #80]
	ands	r0, r5
	ands	r1, r2
	ldr	r6, [sp, #28]
	eors	r1, r6
	eors	r0, r7
	orrs	r0, r1
	str	r7, [sp, #24]
	bne	.LBB46_40
.LBB46_35:
	mov	r0, r4
	ldr	r1, [sp, #76]
	eors	r0, r1
	ldr	r1, [sp, #52]
	ldr	r5, [sp, #56]
	eors	r1, r5
	orrs	r1, r0
	beq	.LBB46_40
	mov	r0, r4
	ldr	r1, [sp, #64]
	eors	r0, r1
	ldr	r1, [sp, #52]
	ldr	r7, [sp, #48]
	eors	r1, r7
	orrs	r1, r0
	beq	.LBB46_40
	ldr	r0, [sp, #64]
	ldr	r1, [sp, #76]
	eors	r0, r1
	ldr	r2, [sp, #48]
	ldr	r5, [sp, #56]
	eors	r2, r5
	movs	r1, #0
	orrs	r2, r0
	beq	.LBB46_39
	movs	r2, #1
	ldr	r7, [sp, #72]
	orrs	r7, r2
	lsls	r0, r4, #1
	adds	r0, r3, r0
	subs	r0, #16
	str	r7, [r0]
	ldr	r7, [sp, #16]
	str	r7, [r0, #4]
	ldr	r0, [sp, #12]
	str	r4, [r0]
	ldr	r4, [sp, #52]
	str	r4, [r0, #4]
	lsls	r0, r6, #1
	orrs	r6, r2
	ldr	r4, [sp, #40]
	str	r6, [r4]
	ldr	r6, [sp, #24]
	str	r6, [r4, #4]
	adds	r0, r3, r0
	subs	r0, #8
	ldr	r3, [sp, #64]
	str	r3, [r0]
	ldr	r3, [sp, #48]
	str	r3, [r0, #4]
	ldr	r3, [sp, #76]
	orrs	r2, r3
	ldr	r0, [sp, #44]
	stm	r0!, {r2, r5}
	ldr	r0, [sp, #20]
	stm	r0!, {r3, r5}
.LBB46_39:
	mov	r0, r1
	add	sp, #92
	pop	{r4, r5, r6, r7, pc}
.LBB46_40:
	ldr	r0, [sp, #36]
	str	r0, [sp]
	ldr	r0, [sp, #32]
	str	r0, [sp, #4]
	mov	r0, r3
	ldr	r2, [sp, #84]
	ldr	r3, [sp, #88]
	bl	ic_raw.table.RawTable.refusal_at_both.85cd03e557136797
	mov	r1, r0
	mov	r0, r1
	add	sp, #92
	pop	{r4, r5, r6, r7, pc}
.Lfunc_end46:
	.size	ic_raw.ring_calls.splice.354f48d5d890d6b4, .Lfunc_end46-ic_raw.ring_calls.splice.354f48d5d890d6b4
	.cfi_endproc
	.section	.text.unlikely.ic_raw.sort_calls.refusal.1b4d7615ba81168a,"ax",%progbits
	.p2align	1
	.type	ic_raw.sort_calls.refusal.1b4d7615ba81168a,%function
	.code	16
	.thumb_func
ic_raw.sort_calls.refusal.1b4d7615ba81168a:
	.cfi_startproc
	subs	r0, r2, r0
	sbcs	r3, r1
	blo	.LBB47_2
	movs	r0, #5
	bx	lr
.LBB47_2:
	movs	r0, #1
	bx	lr
.Lfunc_end47:
	.size	ic_raw.sort_calls.refusal.1b4d7615ba81168a, .Lfunc_end47-ic_raw.sort_calls.refusal.1b4d7615ba81168a
	.cfi_endproc
	.section	.text.ic_list_algorithms.merge.merge_runs.07d679d1abf7571e,"ax",%progbits
	.p2align	1
	.type	ic_list_algorithms.merge.merge_runs.07d679d1abf7571e,%function
	.code	16
	.thumb_func
ic_list_algorithms.merge.merge_runs.07d679d1abf7571e:
	.cfi_startproc
	push	{r4, r5, r6, r7, lr}
	.cfi_def_cfa_offset 20
	.cfi_offset lr, -4
	.cfi_offset r7, -8
	.cfi_offset r6, -12
	.cfi_offset r5, -16
	.cfi_offset r4, -20
	sub	sp, #36
	.cfi_def_cfa_offset 56
	str	r3, [sp, #32]
	mov	r7, r2
	ldrb	r3, [r1]
	ldrb	r2, [r1, #1]
	lsls	r2, r2, #8
	adds	r4, r2, r3
	ldrb	r2, [r1, #2]
	lsls	r2, r2, #16
	str	r1, [sp, #20]
	ldrb	r3, [r1, #3]
	lsls	r3, r3, #24
	adds	r2, r3, r2
	adds	r3, r2, r4
	adds	r2, r3, r7
	subs	r2, #8
	ldr	r4, [r2]
	ldr	r1, [r2, #4]
	str	r1, [sp, #12]
	ldr	r2, [sp, #56]
	adds	r3, r3, r2
	subs	r3, #8
	ldr	r6, [r3]
	ldr	r5, [r3, #4]
	movs	r3, #7
	mvns	r1, r3
	str	r0, [sp, #24]
	ldr	r3, [r0]
	movs	r0, #15
	str	r0, [sp, #28]
	ldr	r0, [sp, #60]
	subs	r4, r6, r4
	ldr	r4, [sp, #12]
	sbcs	r5, r4
	bhs	.LBB48_3
	str	r7, [sp, #12]
	adds	r7, r3, r2
	subs	r7, #8
	ldr	r6, [r7]
	ldr	r4, [r7, #4]
	ldr	r5, [sp, #28]
	ands	r4, r5
	ands	r6, r1
	mov	r3, r6
	orrs	r3, r4
	beq	.LBB48_13
	mov	r7, r2
	str	r0, [sp, #4]
	ldr	r3, [sp, #32]
	mov	r2, r6
	mov	r0, r4
	b	.LBB48_5
.LBB48_3:
	adds	r6, r3, r7
	subs	r6, #8
	ldr	r4, [r6]
	ldr	r3, [r6, #4]
	ldr	r5, [sp, #28]
	ands	r3, r5
	ands	r4, r1
	str	r4, [sp, #12]
	orrs	r4, r3
	beq	.LBB48_14
	ldr	r4, [sp, #32]
	str	r4, [sp, #4]
.LBB48_5:
	str	r7, [sp, #8]
	ldr	r6, [sp, #12]
	str	r1, [sp, #16]
.LBB48_6:
	mov	r4, r7
	str	r3, [sp, #12]
	str	r6, [sp, #28]
	mov	r3, r2
.LBB48_7:
	mov	r1, r5
	str	r0, [sp, #32]
	mov	r2, r3
	ldr	r0, [sp, #20]
	ldrb	r3, [r0]
	ldrb	r6, [r0, #1]
	lsls	r6, r6, #8
	adds	r3, r6, r3
	ldrb	r6, [r0, #2]
	lsls	r6, r6, #16
	ldrb	r7, [r0, #3]
	lsls	r7, r7, #24
	adds	r6, r7, r6
	adds	r3, r6, r3
	ldr	r0, [sp, #28]
	adds	r6, r3, r0
	subs	r6, #8
	ldr	r7, [r6]
	ldr	r6, [r6, #4]
	adds	r3, r3, r2
	subs	r3, #8
	ldm	r3!, {r0, r5}
	ldr	r3, [sp, #24]
	ldr	r3, [r3]
	adds	r4, r3, r4
	subs	r4, #8
	subs	r0, r0, r7
	sbcs	r5, r6
	bhs	.LBB48_9
	adds	r0, r3, r2
	subs	r0, #8
	ldr	r3, [r0]
	movs	r6, #1
	mov	r5, r2
	orrs	r5, r6
	str	r5, [r4]
	ldr	r0, [r0, #4]
	ldr	r5, [sp, #32]
	str	r5, [r4, #4]
	mov	r5, r1
	ands	r0, r1
	ldr	r1, [sp, #16]
	ands	r3, r1
	mov	r4, r3
	orrs	r4, r0
	mov	r4, r2
	bne	.LBB48_7
	b	.LBB48_11
.LBB48_9:
	ldr	r7, [sp, #28]
	adds	r0, r3, r7
	subs	r0, #8
	ldr	r6, [r0]
	movs	r3, #1
	orrs	r3, r7
	str	r3, [r4]
	ldr	r3, [r0, #4]
	ldr	r0, [sp, #12]
	str	r0, [r4, #4]
	mov	r5, r1
	ands	r3, r1
	ldr	r1, [sp, #16]
	ands	r6, r1
	mov	r0, r6
	orrs	r0, r3
	ldr	r0, [sp, #32]
	bne	.LBB48_6
	movs	r3, #0
	adds	r1, r2, #1
	mov	r2, r0
	adcs	r2, r3
	ldr	r0, [sp, #24]
	ldr	r0, [r0]
	adds	r0, r0, r7
	subs	r0, #8
	stm	r0!, {r1, r2}
	b	.LBB48_12
.LBB48_11:
	ldr	r0, [sp, #24]
	ldr	r0, [r0]
	adds	r0, r0, r2
	subs	r0, #8
	ldr	r1, [sp, #28]
	orrs	r1, r6
	str	r1, [r0]
	ldr	r1, [sp, #12]
	str	r1, [r0, #4]
.LBB48_12:
	ldr	r7, [sp, #8]
	ldr	r1, [sp, #4]
	mov	r0, r7
	add	sp, #36
	pop	{r4, r5, r6, r7, pc}
.LBB48_13:
	movs	r1, #1
	ldr	r3, [sp, #12]
	orrs	r3, r1
	str	r3, [r7]
	ldr	r1, [sp, #32]
	str	r1, [r7, #4]
	mov	r7, r2
	mov	r1, r0
	mov	r0, r7
	add	sp, #36
	pop	{r4, r5, r6, r7, pc}
.LBB48_14:
	movs	r1, #1
	orrs	r2, r1
	str	r2, [r6]
	str	r0, [r6, #4]
	ldr	r1, [sp, #32]
	mov	r0, r7
	add	sp, #36
	pop	{r4, r5, r6, r7, pc}
.Lfunc_end48:
	.size	ic_list_algorithms.merge.merge_runs.07d679d1abf7571e, .Lfunc_end48-ic_list_algorithms.merge.merge_runs.07d679d1abf7571e
	.cfi_endproc
	.section	.text.unlikely.ic_raw.stack_calls.pop_front_slow,"ax",%progbits
	.p2align	1
	.type	ic_raw.stack_calls.pop_front_slow,%function
	.code	16
	.thumb_func
ic_raw.stack_calls.pop_front_slow:
	.cfi_startproc
	push	{r4, r5, r6, r7, lr}
	.cfi_def_cfa_offset 20
	.cfi_offset lr, -4
	.cfi_offset r7, -8
	.cfi_offset r6, -12
	.cfi_offset r5, -16
	.cfi_offset r4, -20
	sub	sp, #20
	.cfi_def_cfa_offset 40
	str	r3, [sp, #16]
	ldr	r1, [sp, #40]
	ldr	r7, [r1]
	ldr	r5, [r1, #4]
	movs	r4, #15
	ands	r5, r4
	movs	r6, #7
	bics	r7, r6
	mov	r3, r7
	orrs	r3, r5
	beq	.LBB49_4
	str	r4, [sp, #12]
	lsrs	r3, r7, #3
	lsls	r4, r5, #29
	adds	r3, r3, r4
	lsrs	r4, r5, #3
	str	r2, [sp, #4]
	str	r3, [sp, #8]
	subs	r5, r2, r3
	ldr	r3, [sp, #16]
	mov	r5, r3
	sbcs	r5, r4
	blo	.LBB49_5
	adds	r7, r0, r7
	subs	r7, #8
	ldr	r5, [r7]
	lsls	r4, r5, #31
	beq	.LBB49_5
	mvns	r4, r6
	ldr	r6, [sp, #44]
	ldr	r3, [r7, #4]
	movs	r0, #0
	str	r0, [r7]
	str	r0, [r7, #4]
	ands	r5, r4
	ldr	r2, [sp, #12]
	ands	r3, r2
	str	r5, [r1]
	str	r3, [r1, #4]
	ldr	r1, [sp, #8]
	subs	r1, r1, #1
	str	r1, [r6]
	add	sp, #20
	pop	{r4, r5, r6, r7, pc}
.LBB49_4:
	movs	r0, #4
	add	sp, #20
	pop	{r4, r5, r6, r7, pc}
.LBB49_5:
	movs	r1, #0
	mvns	r1, r1
	str	r1, [sp]
	ldr	r2, [sp, #4]
	bl	ic_raw.table.RawTable.refusal_at.feecb86c9dd45d96
	add	sp, #20
	pop	{r4, r5, r6, r7, pc}
.Lfunc_end49:
	.size	ic_raw.stack_calls.pop_front_slow, .Lfunc_end49-ic_raw.stack_calls.pop_front_slow
	.cfi_endproc
	.section	.text.unlikely.ic_raw.table.RawTable.refusal_at.feecb86c9dd45d96,"ax",%progbits
	.p2align	1
	.type	ic_raw.table.RawTable.refusal_at.feecb86c9dd45d96,%function
	.code	16
	.thumb_func
ic_raw.table.RawTable.refusal_at.feecb86c9dd45d96:
	.cfi_startproc
	push	{r4, lr}
	.cfi_def_cfa_offset 8
	.cfi_offset lr, -4
	.cfi_offset r4, -8
	ldr	r1, [sp, #8]
	adds	r1, r1, #1
	blo	.LBB50_2
.LBB50_1:
	movs	r0, #5
	pop	{r4, pc}
.LBB50_2:
	movs	r4, #0
	subs	r2, r2, r1
	sbcs	r3, r4
	bhs	.LBB50_4
	movs	r0, #1
	pop	{r4, pc}
.LBB50_4:
	lsls	r1, r1, #3
	adds	r0, r0, r1
	subs	r0, #8
	ldrb	r0, [r0]
	lsls	r0, r0, #31
	bne	.LBB50_1
	movs	r0, #3
	pop	{r4, pc}
.Lfunc_end50:
	.size	ic_raw.table.RawTable.refusal_at.feecb86c9dd45d96, .Lfunc_end50-ic_raw.table.RawTable.refusal_at.feecb86c9dd45d96
	.cfi_endproc
	.section	.text.ic_list_algorithms.sort.sort_front.07d679d1abf7571e,"ax",%progbits
	.p2align	1
	.type	ic_list_algorithms.sort.sort_front.07d679d1abf7571e,%function
	.code	16
	.thumb_func
ic_list_algorithms.sort.sort_front.07d679d1abf7571e:
	.cfi_startproc
	push	{r4, r5, r6, r7, lr}
	.cfi_def_cfa_offset 20
	.cfi_offset lr, -4
	.cfi_offset r7, -8
	.cfi_offset r6, -12
	.cfi_offset r5, -16
	.cfi_offset r4, -20
	sub	sp, #100
	.cfi_def_cfa_offset 120
	mov	r5, r2
	mov	r4, r0
	ldr	r7, [sp, #132]
	ldr	r3, [sp, #128]
	mov	r0, r3
	orrs	r0, r7
	ldr	r6, [sp, #124]
	ldr	r2, [sp, #120]
	beq	.LBB51_4
	str	r1, [sp, #44]
	str	r5, [sp, #40]
	str	r6, [sp, #36]
	movs	r1, #1
	mov	r5, r3
	eors	r5, r1
	orrs	r5, r7
	bne	.LBB51_5
	ldr	r0, [sp, #44]
	ldr	r3, [r0]
	adds	r5, r3, r2
	subs	r5, #8
	ldr	r3, [r5]
	str	r1, [r5]
	ldr	r0, [r5, #4]
	movs	r6, #0
	str	r6, [r5, #4]
	movs	r5, #15
	str	r5, [sp, #32]
	ands	r0, r5
	movs	r5, #7
	bics	r3, r5
	mov	r7, r3
	str	r0, [sp, #28]
	orrs	r7, r0
	bne	.LBB51_3
	b	.LBB51_9
.LBB51_3:
	mvns	r5, r5
	str	r5, [sp, #24]
	ldr	r0, [sp, #44]
	ldr	r5, [r0]
	adds	r7, r5, r3
	subs	r7, #8
	ldr	r5, [r7]
	str	r1, [r7]
	ldr	r0, [r7, #4]
	str	r0, [sp, #20]
	str	r6, [r7, #4]
	str	r3, [sp]
	ldr	r0, [sp, #28]
	str	r0, [sp, #4]
	ldr	r0, [sp, #44]
	ldr	r1, [sp, #40]
	ldr	r3, [sp, #36]
	bl	ic_list_algorithms.merge.merge_runs.07d679d1abf7571e
	strb	r6, [r4, #23]
	strb	r6, [r4, #22]
	strb	r6, [r4, #21]
	ldr	r3, [sp, #20]
	ldr	r2, [sp, #32]
	ands	r3, r2
	strb	r3, [r4, #20]
	ldr	r2, [sp, #24]
	ands	r5, r2
	lsrs	r2, r5, #24
	strb	r2, [r4, #19]
	lsrs	r2, r5, #16
	strb	r2, [r4, #18]
	lsrs	r2, r5, #8
	strb	r2, [r4, #17]
	strb	r5, [r4, #16]
	strb	r6, [r4, #15]
	strb	r6, [r4, #14]
	strb	r6, [r4, #13]
	strb	r6, [r4, #12]
	strb	r6, [r4, #11]
	strb	r6, [r4, #10]
	strb	r6, [r4, #9]
	orrs	r5, r3
	subs	r2, r5, #1
	sbcs	r5, r2
	strb	r5, [r4, #8]
	b	.LBB51_7
.LBB51_4:
	ldr	r0, [r1]
	adds	r1, r0, r2
	subs	r1, #8
	ldr	r0, [r1]
	movs	r3, #1
	str	r3, [r1]
	ldr	r5, [r1, #4]
	movs	r3, #0
	str	r3, [r1, #4]
	strb	r3, [r4, #23]
	strb	r3, [r4, #22]
	strb	r3, [r4, #21]
	movs	r1, #15
	ands	r1, r5
	strb	r1, [r4, #20]
	lsrs	r5, r0, #24
	strb	r5, [r4, #19]
	lsrs	r5, r0, #16
	strb	r5, [r4, #18]
	lsrs	r5, r0, #8
	strb	r5, [r4, #17]
	movs	r5, #7
	bics	r0, r5
	strb	r0, [r4, #16]
	strb	r3, [r4, #15]
	strb	r3, [r4, #14]
	strb	r3, [r4, #13]
	strb	r3, [r4, #12]
	strb	r3, [r4, #11]
	strb	r3, [r4, #10]
	strb	r3, [r4, #9]
	lsrs	r3, r6, #24
	strb	r3, [r4, #7]
	lsrs	r3, r6, #16
	strb	r3, [r4, #6]
	lsrs	r3, r6, #8
	strb	r3, [r4, #5]
	strb	r6, [r4, #4]
	lsrs	r3, r2, #24
	strb	r3, [r4, #3]
	lsrs	r3, r2, #16
	strb	r3, [r4, #2]
	lsrs	r3, r2, #8
	strb	r3, [r4, #1]
	strb	r2, [r4]
	orrs	r0, r1
	subs	r1, r0, #1
	sbcs	r0, r1
	strb	r0, [r4, #8]
	add	sp, #100
	pop	{r4, r5, r6, r7, pc}
.LBB51_5:
	str	r2, [sp]
	movs	r6, #0
	subs	r0, r3, #1
	str	r0, [sp, #32]
	str	r0, [sp, #8]
	ldr	r0, [sp, #36]
	str	r0, [sp, #4]
	sbcs	r7, r6
	str	r7, [sp, #12]
	add	r5, sp, #72
	mov	r0, r5
	ldr	r1, [sp, #44]
	ldr	r2, [sp, #40]
	bl	ic_list_algorithms.sort.sort_front.07d679d1abf7571e
	ldrb	r0, [r5, #8]
	ldr	r3, [sp, #76]
	ldr	r5, [sp, #72]
	cmp	r0, #1
	bne	.LBB51_8
	ldr	r0, [sp, #88]
	ldr	r1, [sp, #92]
	str	r0, [sp]
	str	r1, [sp, #4]
	ldr	r0, [sp, #32]
	str	r0, [sp, #8]
	str	r7, [sp, #12]
	add	r7, sp, #48
	mov	r0, r7
	ldr	r1, [sp, #44]
	ldr	r2, [sp, #40]
	str	r3, [sp, #28]
	bl	ic_list_algorithms.sort.sort_front.07d679d1abf7571e
	ldrb	r0, [r7, #8]
	str	r0, [sp, #36]
	ldr	r0, [sp, #64]
	str	r0, [sp, #32]
	ldr	r7, [sp, #68]
	ldr	r0, [sp, #48]
	ldr	r1, [sp, #52]
	str	r0, [sp]
	str	r1, [sp, #4]
	ldr	r0, [sp, #44]
	ldr	r1, [sp, #40]
	mov	r2, r5
	ldr	r3, [sp, #28]
	bl	ic_list_algorithms.merge.merge_runs.07d679d1abf7571e
	lsrs	r2, r7, #24
	strb	r2, [r4, #23]
	lsrs	r2, r7, #16
	strb	r2, [r4, #22]
	lsrs	r2, r7, #8
	strb	r2, [r4, #21]
	strb	r7, [r4, #20]
	ldr	r3, [sp, #32]
	lsrs	r2, r3, #24
	strb	r2, [r4, #19]
	lsrs	r2, r3, #16
	strb	r2, [r4, #18]
	lsrs	r2, r3, #8
	strb	r2, [r4, #17]
	strb	r3, [r4, #16]
	strb	r6, [r4, #15]
	strb	r6, [r4, #14]
	strb	r6, [r4, #13]
	strb	r6, [r4, #12]
	strb	r6, [r4, #11]
	strb	r6, [r4, #10]
	strb	r6, [r4, #9]
	ldr	r2, [sp, #36]
	strb	r2, [r4, #8]
.LBB51_7:
	strb	r1, [r4, #4]
	strb	r0, [r4]
	lsrs	r2, r1, #24
	strb	r2, [r4, #7]
	lsrs	r2, r1, #16
	strb	r2, [r4, #6]
	lsrs	r1, r1, #8
	strb	r1, [r4, #5]
	lsrs	r1, r0, #24
	strb	r1, [r4, #3]
	lsrs	r1, r0, #16
	strb	r1, [r4, #2]
	lsrs	r0, r0, #8
	strb	r0, [r4, #1]
	add	sp, #100
	pop	{r4, r5, r6, r7, pc}
.LBB51_8:
	strb	r5, [r4]
	strb	r3, [r4, #4]
	lsrs	r0, r5, #24
	strb	r0, [r4, #3]
	lsrs	r0, r5, #16
	strb	r0, [r4, #2]
	lsrs	r0, r5, #8
	strb	r0, [r4, #1]
	lsrs	r0, r3, #24
	strb	r0, [r4, #7]
	lsrs	r0, r3, #16
	strb	r0, [r4, #6]
	lsrs	r0, r3, #8
	b	.LBB51_10
.LBB51_9:
	strb	r2, [r4]
	ldr	r1, [sp, #36]
	strb	r1, [r4, #4]
	lsrs	r0, r2, #24
	strb	r0, [r4, #3]
	lsrs	r0, r2, #16
	strb	r0, [r4, #2]
	lsrs	r0, r2, #8
	strb	r0, [r4, #1]
	lsrs	r0, r1, #24
	strb	r0, [r4, #7]
	lsrs	r0, r1, #16
	strb	r0, [r4, #6]
	lsrs	r0, r1, #8
.LBB51_10:
	strb	r0, [r4, #5]
	str	r6, [sp]
	adds	r4, #8
	movs	r2, #16
	mov	r0, r4
	mov	r1, r6
	mov	r3, r6
	bl	ic.clear
	add	sp, #100
	pop	{r4, r5, r6, r7, pc}
.Lfunc_end51:
	.size	ic_list_algorithms.sort.sort_front.07d679d1abf7571e, .Lfunc_end51-ic_list_algorithms.sort.sort_front.07d679d1abf7571e
	.cfi_endproc
	.section	.text.ic_check.tree.check_below.ffc36cde30076884,"ax",%progbits
	.p2align	1
	.type	ic_check.tree.check_below.ffc36cde30076884,%function
	.code	16
	.thumb_func
ic_check.tree.check_below.ffc36cde30076884:
	.cfi_startproc
	push	{r4, r5, r6, r7, lr}
	.cfi_def_cfa_offset 20
	.cfi_offset lr, -4
	.cfi_offset r7, -8
	.cfi_offset r6, -12
	.cfi_offset r5, -16
	.cfi_offset r4, -20
	sub	sp, #132
	.cfi_def_cfa_offset 152
	lsls	r2, r2, #31
	beq	.LBB52_12
	ldr	r3, [sp, #176]
	cmp	r3, #0
	beq	.LBB52_11
	ldr	r6, [sp, #156]
	ldr	r2, [sp, #152]
	str	r2, [sp, #76]
	lsrs	r2, r2, #3
	lsls	r4, r6, #29
	adds	r2, r2, r4
	lsrs	r4, r6, #3
	ldr	r5, [r1, #8]
	ldr	r7, [r1, #12]
	subs	r5, r5, r2
	sbcs	r7, r4
	blo	.LBB52_11
	movs	r4, #24
	muls	r4, r2, r4
	ldr	r2, [r1]
	adds	r5, r2, r4
	mov	r2, r5
	subs	r2, #24
	ldr	r7, [r2]
	str	r7, [sp, #72]
	lsls	r7, r7, #31
	beq	.LBB52_11
	ldr	r7, [sp, #160]
	uxtb	r7, r7
	cmp	r7, #0
	str	r7, [sp, #68]
	beq	.LBB52_6
	ldr	r7, [sp, #168]
.LBB52_6:
	str	r7, [sp, #64]
	str	r4, [sp, #52]
	str	r6, [sp, #56]
	beq	.LBB52_8
	ldr	r4, [sp, #172]
	str	r4, [sp, #68]
.LBB52_8:
	mov	r4, r5
	subs	r4, #8
	ldr	r7, [r4]
	ldr	r4, [r4, #4]
	movs	r6, #15
	str	r6, [sp, #60]
	ands	r4, r6
	ldr	r6, [sp, #68]
	eors	r4, r6
	movs	r6, #7
	str	r6, [sp, #68]
	bics	r7, r6
	ldr	r6, [sp, #64]
	eors	r7, r6
	orrs	r7, r4
	bne	.LBB52_11
	ldr	r2, [r2, #4]
	ldr	r4, [sp, #68]
	mvns	r4, r4
	str	r4, [sp, #64]
	ldr	r7, [sp, #72]
	ands	r7, r4
	ldr	r6, [sp, #60]
	ands	r2, r6
	str	r2, [sp, #68]
	str	r7, [sp, #72]
	orrs	r7, r2
	subs	r4, r7, #1
	mov	r2, r7
	sbcs	r2, r4
	str	r2, [sp, #48]
	subs	r5, #16
	ldm	r5!, {r2, r4}
	ands	r4, r6
	mov	r6, r2
	ldr	r2, [sp, #64]
	ands	r6, r2
	mov	r2, r6
	orrs	r2, r4
	subs	r5, r2, #1
	sbcs	r2, r5
	str	r2, [sp, #64]
	ldr	r2, [sp, #68]
	cmp	r7, #0
	beq	.LBB52_13
	ldr	r5, [sp, #72]
	eors	r5, r6
	mov	r7, r2
	eors	r7, r4
	orrs	r7, r5
	bne	.LBB52_13
.LBB52_11:
	movs	r1, #0
	str	r1, [sp]
	movs	r2, #24
	mov	r3, r1
	bl	ic.clear
	add	sp, #132
	pop	{r4, r5, r6, r7, pc}
.LBB52_12:
	movs	r1, #0
	strb	r1, [r0, #15]
	strb	r1, [r0, #14]
	strb	r1, [r0, #13]
	strb	r1, [r0, #12]
	strb	r1, [r0, #11]
	strb	r1, [r0, #10]
	strb	r1, [r0, #9]
	strb	r1, [r0, #8]
	strb	r1, [r0, #7]
	strb	r1, [r0, #6]
	strb	r1, [r0, #5]
	strb	r1, [r0, #4]
	strb	r1, [r0, #3]
	strb	r1, [r0, #2]
	strb	r1, [r0, #1]
	movs	r2, #1
	strb	r2, [r0]
	strb	r1, [r0, #19]
	strb	r1, [r0, #18]
	strb	r1, [r0, #17]
	strb	r1, [r0, #16]
	strb	r1, [r0, #21]
	strb	r2, [r0, #20]
	strb	r1, [r0, #22]
	strb	r1, [r0, #23]
	add	sp, #132
	pop	{r4, r5, r6, r7, pc}
.LBB52_13:
	str	r4, [sp, #40]
	str	r6, [sp, #44]
	str	r0, [sp, #60]
	movs	r4, #1
	subs	r0, r3, #1
	ldr	r5, [sp, #76]
	str	r5, [sp, #16]
	ldr	r6, [sp, #56]
	str	r6, [sp, #20]
	str	r0, [sp, #36]
	str	r0, [sp, #24]
	ldr	r0, [sp, #72]
	add	r3, sp, #0
	stm	r3!, {r0, r2, r4}
	add	r7, sp, #104
	mov	r0, r7
	str	r1, [sp, #72]
	ldr	r2, [sp, #48]
	bl	ic_check.tree.check_below.ffc36cde30076884
	ldrb	r0, [r7]
	cmp	r0, #1
	bne	.LBB52_20
	add	r0, sp, #104
	ldrb	r0, [r0, #20]
	str	r0, [sp, #32]
	ldr	r0, [sp, #116]
	str	r0, [sp, #48]
	ldr	r0, [sp, #112]
	str	r0, [sp, #68]
	mov	r0, r5
	ldr	r5, [sp, #120]
	str	r0, [sp, #16]
	str	r6, [sp, #20]
	ldr	r0, [sp, #36]
	str	r0, [sp, #24]
	ldr	r0, [sp, #44]
	str	r0, [sp]
	ldr	r0, [sp, #40]
	str	r0, [sp, #4]
	str	r4, [sp, #8]
	add	r7, sp, #80
	mov	r0, r7
	ldr	r1, [sp, #72]
	ldr	r2, [sp, #64]
	bl	ic_check.tree.check_below.ffc36cde30076884
	ldrb	r0, [r7]
	cmp	r0, #1
	bne	.LBB52_20
	mov	r7, r4
	ldr	r3, [sp, #68]
	add	r4, sp, #80
	ldr	r0, [sp, #96]
	cmp	r5, r0
	ldr	r0, [sp, #60]
	bne	.LBB52_21
	ldr	r1, [sp, #72]
	ldr	r1, [r1]
	ldr	r2, [sp, #52]
	adds	r1, r1, r2
	subs	r1, #8
	ldr	r2, [r1]
	ldr	r1, [sp, #92]
	ldr	r6, [sp, #88]
	str	r6, [sp, #76]
	lsls	r6, r2, #31
	bne	.LBB52_19
	ldr	r6, [sp, #32]
	cmp	r6, #0
	beq	.LBB52_21
	ldrb	r4, [r4, #20]
	cmp	r4, #0
	beq	.LBB52_21
.LBB52_19:
	ands	r2, r7
	add	r4, sp, #128
	movs	r6, #0
	strb	r6, [r4, #2]
	strh	r6, [r4]
	ldr	r4, [sp, #48]
	mvns	r4, r4
	mvns	r6, r3
	ldr	r3, [sp, #76]
	subs	r3, r3, r6
	mov	r6, r7
	sbcs	r1, r4
	adds	r4, r5, r2
	b	.LBB52_22
.LBB52_20:
	movs	r1, #0
	str	r1, [sp]
	movs	r2, #24
	ldr	r0, [sp, #60]
	mov	r3, r1
	bl	ic.clear
	add	sp, #132
	pop	{r4, r5, r6, r7, pc}
.LBB52_21:
	add	r1, sp, #128
	movs	r6, #0
	strb	r6, [r1, #2]
	strh	r6, [r1]
	mov	r3, r6
	mov	r1, r6
	mov	r4, r6
	mov	r2, r6
.LBB52_22:
	strb	r3, [r0, #8]
	movs	r5, #0
	strb	r5, [r0, #7]
	strb	r5, [r0, #6]
	strb	r5, [r0, #5]
	strb	r5, [r0, #4]
	strb	r5, [r0, #3]
	strb	r5, [r0, #2]
	strb	r5, [r0, #1]
	strb	r6, [r0]
	strb	r4, [r0, #16]
	strb	r2, [r0, #20]
	ldr	r2, [sp, #128]
	strb	r2, [r0, #21]
	strb	r1, [r0, #12]
	lsrs	r2, r3, #24
	strb	r2, [r0, #11]
	lsrs	r2, r3, #16
	strb	r2, [r0, #10]
	lsrs	r2, r3, #8
	strb	r2, [r0, #9]
	lsrs	r2, r4, #24
	strb	r2, [r0, #19]
	lsrs	r2, r4, #16
	strb	r2, [r0, #18]
	lsrs	r2, r4, #8
	strb	r2, [r0, #17]
	add	r2, sp, #128
	ldrb	r3, [r2, #1]
	strb	r3, [r0, #22]
	ldrb	r2, [r2, #2]
	strb	r2, [r0, #23]
	lsrs	r2, r1, #24
	strb	r2, [r0, #15]
	lsrs	r2, r1, #16
	strb	r2, [r0, #14]
	lsrs	r1, r1, #8
	strb	r1, [r0, #13]
	add	sp, #132
	pop	{r4, r5, r6, r7, pc}
.Lfunc_end52:
	.size	ic_check.tree.check_below.ffc36cde30076884, .Lfunc_end52-ic_check.tree.check_below.ffc36cde30076884
	.cfi_endproc
	.section	.text.ic_rbtree.join.roots.join.f4da04d8a93b4f27,"ax",%progbits
	.p2align	1
	.type	ic_rbtree.join.roots.join.f4da04d8a93b4f27,%function
	.code	16
	.thumb_func
ic_rbtree.join.roots.join.f4da04d8a93b4f27:
	.cfi_startproc
	push	{r4, r5, r6, r7, lr}
	.cfi_def_cfa_offset 20
	.cfi_offset lr, -4
	.cfi_offset r7, -8
	.cfi_offset r6, -12
	.cfi_offset r5, -16
	.cfi_offset r4, -20
	sub	sp, #124
	.cfi_def_cfa_offset 144
	str	r3, [sp, #20]
	str	r2, [sp, #32]
	str	r0, [sp, #40]
	movs	r0, #7
	mvns	r0, r0
	str	r0, [sp, #44]
	str	r1, [sp, #16]
	lsls	r0, r1, #24
	movs	r4, #15
	movs	r7, #0
	ldr	r1, [sp, #152]
	str	r1, [sp, #36]
	cmp	r0, #0
	mov	r5, r7
	beq	.LBB53_4
	ldr	r0, [sp, #40]
	ldr	r0, [r0]
	movs	r5, #0
	mov	r1, r5
	ldr	r3, [sp, #32]
.LBB53_2:
	lsrs	r2, r3, #3
	movs	r3, #24
	muls	r3, r2, r3
	adds	r6, r0, r3
	mov	r2, r6
	subs	r2, #8
	ldr	r2, [r2]
	movs	r3, #1
	ands	r3, r2
	adds	r5, r3, r5
	cmp	r1, #65
	bhi	.LBB53_4
	subs	r6, #24
	ldr	r3, [r6]
	ldr	r2, [r6, #4]
	ands	r2, r4
	ldr	r6, [sp, #44]
	ands	r3, r6
	adds	r1, r1, #1
	orrs	r2, r3
	bne	.LBB53_2
.LBB53_4:
	ldr	r0, [sp, #164]
	str	r0, [sp, #12]
	ldr	r0, [sp, #160]
	str	r0, [sp, #28]
	ldr	r0, [sp, #36]
	lsls	r0, r0, #24
	str	r7, [sp, #24]
	mov	r6, r7
	beq	.LBB53_8
	ldr	r0, [sp, #40]
	ldr	r1, [r0]
	movs	r6, #0
	mov	r0, r6
	ldr	r3, [sp, #28]
.LBB53_6:
	lsrs	r2, r3, #3
	movs	r3, #24
	muls	r3, r2, r3
	adds	r2, r1, r3
	mov	r3, r2
	subs	r3, #8
	ldr	r3, [r3]
	movs	r7, #1
	ands	r7, r3
	adds	r6, r7, r6
	cmp	r0, #65
	bhi	.LBB53_8
	subs	r2, #24
	ldr	r3, [r2]
	ldr	r2, [r2, #4]
	ands	r2, r4
	ldr	r7, [sp, #44]
	ands	r3, r7
	adds	r0, r0, #1
	orrs	r2, r3
	bne	.LBB53_6
.LBB53_8:
	ldr	r0, [sp, #148]
	ldr	r1, [sp, #144]
	ldr	r3, [sp, #24]
	str	r3, [sp, #116]
	ldr	r2, [sp, #32]
	str	r2, [sp, #104]
	str	r3, [sp, #100]
	str	r3, [sp, #92]
	ldr	r2, [sp, #20]
	str	r2, [sp, #108]
	ldr	r2, [sp, #16]
	uxtb	r2, r2
	str	r2, [sp, #96]
	ldr	r2, [sp, #12]
	str	r2, [sp, #84]
	ldr	r2, [sp, #28]
	str	r2, [sp, #80]
	str	r3, [sp, #76]
	ldr	r2, [sp, #36]
	uxtb	r2, r2
	str	r2, [sp, #72]
	str	r3, [sp, #48]
	str	r3, [sp, #52]
	str	r3, [sp, #56]
	str	r3, [sp, #60]
	str	r3, [sp, #64]
	str	r3, [sp, #68]
	str	r5, [sp, #112]
	str	r6, [sp, #88]
	cmp	r6, r5
	bls	.LBB53_10
	add	r2, sp, #96
	str	r1, [sp]
	str	r0, [sp, #4]
	str	r2, [sp, #8]
	add	r0, sp, #48
	add	r2, sp, #72
	movs	r3, #0
	b	.LBB53_11
.LBB53_10:
	add	r2, sp, #72
	str	r1, [sp]
	str	r0, [sp, #4]
	str	r2, [sp, #8]
	add	r0, sp, #48
	add	r2, sp, #96
	movs	r3, #1
.LBB53_11:
	ldr	r1, [sp, #40]
	bl	ic_rbtree.join.roots.join_higher.f4da04d8a93b4f27
	ldr	r2, [sp, #60]
	ldr	r1, [sp, #56]
	ldr	r0, [sp, #48]
	add	sp, #124
	pop	{r4, r5, r6, r7, pc}
.Lfunc_end53:
	.size	ic_rbtree.join.roots.join.f4da04d8a93b4f27, .Lfunc_end53-ic_rbtree.join.roots.join.f4da04d8a93b4f27
	.cfi_endproc
	.section	.text.ic_rbtree.join.roots.join_higher.f4da04d8a93b4f27,"ax",%progbits
	.p2align	1
	.type	ic_rbtree.join.roots.join_higher.f4da04d8a93b4f27,%function
	.code	16
	.thumb_func
ic_rbtree.join.roots.join_higher.f4da04d8a93b4f27:
	.cfi_startproc
	push	{r4, r5, r6, r7, lr}
	.cfi_def_cfa_offset 20
	.cfi_offset lr, -4
	.cfi_offset r7, -8
	.cfi_offset r6, -12
	.cfi_offset r5, -16
	.cfi_offset r4, -20
	sub	sp, #100
	.cfi_def_cfa_offset 120
	mov	r6, r1
	str	r0, [sp]
	movs	r0, #23
	mvns	r4, r0
	lsls	r0, r3, #31
	str	r0, [sp, #56]
	beq	.LBB54_2
	adds	r4, #8
.LBB54_2:
	str	r4, [sp, #96]
	ldr	r0, [sp, #128]
	ldrb	r3, [r0, #12]
	ldrb	r4, [r0, #13]
	lsls	r4, r4, #8
	adds	r3, r4, r3
	str	r3, [sp, #84]
	ldrb	r3, [r0, #14]
	lsls	r3, r3, #16
	ldrb	r4, [r0, #15]
	lsls	r4, r4, #24
	adds	r3, r4, r3
	str	r3, [sp, #80]
	ldrb	r3, [r0, #8]
	ldrb	r4, [r0, #9]
	lsls	r4, r4, #8
	adds	r3, r4, r3
	str	r3, [sp, #68]
	ldrb	r3, [r0, #10]
	lsls	r3, r3, #16
	ldrb	r4, [r0, #11]
	lsls	r4, r4, #24
	adds	r3, r4, r3
	str	r3, [sp, #52]
	ldrb	r3, [r2, #12]
	ldrb	r4, [r2, #13]
	lsls	r4, r4, #8
	adds	r3, r4, r3
	ldrb	r4, [r2, #14]
	lsls	r4, r4, #16
	ldrb	r5, [r2, #15]
	lsls	r5, r5, #24
	adds	r4, r5, r4
	adds	r3, r4, r3
	str	r3, [sp, #36]
	ldrb	r3, [r2, #8]
	ldrb	r4, [r2, #9]
	lsls	r4, r4, #8
	adds	r3, r4, r3
	ldrb	r4, [r2, #10]
	lsls	r4, r4, #16
	ldrb	r5, [r2, #11]
	lsls	r5, r5, #24
	adds	r4, r5, r4
	adds	r7, r4, r3
	ldrb	r3, [r2, #16]
	ldrb	r4, [r2, #17]
	lsls	r4, r4, #8
	adds	r3, r4, r3
	ldrb	r4, [r2, #18]
	lsls	r4, r4, #16
	ldrb	r5, [r2, #19]
	lsls	r5, r5, #24
	adds	r4, r5, r4
	adds	r5, r4, r3
	ldr	r4, [r6]
	ldrb	r3, [r0]
	str	r3, [sp, #64]
	ldrb	r3, [r2]
	movs	r2, #0
	movs	r1, #1
	str	r3, [sp, #48]
	cmp	r3, #1
	str	r5, [sp, #8]
	str	r6, [sp, #72]
	str	r7, [sp, #28]
	str	r4, [sp, #60]
	bne	.LBB54_6
	str	r1, [sp, #44]
	ldr	r6, [sp, #36]
	ldrb	r2, [r0, #16]
	ldrb	r3, [r0, #17]
	lsls	r3, r3, #8
	adds	r2, r3, r2
	ldrb	r3, [r0, #18]
	lsls	r3, r3, #16
	ldrb	r0, [r0, #19]
	lsls	r0, r0, #24
	adds	r0, r0, r3
	adds	r1, r0, r2
	lsrs	r0, r7, #3
	movs	r2, #24
	str	r2, [sp, #32]
	muls	r0, r2, r0
	adds	r2, r4, r0
	mov	r0, r2
	subs	r0, #8
	ldr	r4, [r0]
	movs	r0, #1
	str	r0, [sp, #24]
	ands	r4, r0
	str	r1, [sp, #40]
	cmp	r5, r1
	mov	r7, r5
	beq	.LBB54_4
	b	.LBB54_43
.LBB54_4:
	cmp	r4, #0
	bne	.LBB54_5
	b	.LBB54_43
.LBB54_5:
	movs	r0, #0
	ldr	r1, [sp, #28]
	str	r1, [sp, #92]
	mov	r2, r6
	ldr	r1, [sp, #44]
	str	r1, [sp, #76]
	str	r0, [sp, #96]
	str	r0, [sp, #88]
	b	.LBB54_8
.LBB54_6:
	mov	r0, r1
	str	r7, [sp, #92]
	mov	r3, r2
	ldr	r2, [sp, #36]
	str	r1, [sp, #76]
	str	r3, [sp, #96]
.LBB54_7:
	str	r3, [sp, #88]
.LBB54_8:
	ldr	r3, [sp, #84]
	ldr	r4, [sp, #80]
	adds	r5, r4, r3
	ldr	r3, [sp, #68]
	ldr	r4, [sp, #52]
	adds	r3, r4, r3
	str	r3, [sp, #52]
	ldr	r6, [sp, #48]
	cmp	r6, #0
	ldr	r3, [sp, #36]
	bne	.LBB54_10
	mov	r3, r6
.LBB54_10:
	ldr	r4, [sp, #120]
	str	r4, [sp, #68]
	ldr	r4, [sp, #28]
	bne	.LBB54_12
	mov	r4, r6
.LBB54_12:
	str	r4, [sp, #28]
	str	r3, [sp, #36]
	ldr	r3, [sp, #68]
	lsrs	r6, r3, #3
	movs	r4, #24
	str	r4, [sp, #80]
	muls	r6, r4, r6
	ldr	r3, [sp, #60]
	str	r6, [sp, #84]
	adds	r6, r3, r6
	ldr	r4, [sp, #56]
	cmp	r4, #0
	beq	.LBB54_22
	subs	r6, #16
	ldr	r3, [sp, #64]
	cmp	r3, #0
	ldr	r4, [sp, #52]
	ldr	r7, [sp, #72]
	bne	.LBB54_15
	ldr	r4, [sp, #64]
.LBB54_15:
	str	r4, [r6]
	bne	.LBB54_17
	ldr	r5, [sp, #64]
.LBB54_17:
	str	r5, [r6, #4]
	ldr	r4, [r7]
	ldr	r3, [sp, #84]
	adds	r5, r4, r3
	subs	r5, #24
	ldr	r4, [r5]
	movs	r7, #1
	ands	r7, r4
	movs	r6, #0
	ldr	r1, [sp, #92]
	adds	r4, r7, r1
	adcs	r2, r6
	cmp	r0, #0
	bne	.LBB54_19
	mov	r7, r4
.LBB54_19:
	str	r7, [r5]
	bne	.LBB54_21
	mov	r6, r2
.LBB54_21:
	str	r6, [r5, #4]
	b	.LBB54_31
.LBB54_22:
	subs	r6, #24
	ldr	r7, [r6]
	movs	r4, #1
	ands	r4, r7
	movs	r7, #0
	ldr	r3, [sp, #52]
	adds	r1, r4, r3
	adcs	r5, r7
	ldr	r3, [sp, #64]
	cmp	r3, #0
	beq	.LBB54_24
	mov	r4, r1
.LBB54_24:
	str	r4, [r6]
	bne	.LBB54_26
	ldr	r5, [sp, #64]
.LBB54_26:
	str	r5, [r6, #4]
	ldr	r4, [sp, #72]
	ldr	r4, [r4]
	ldr	r3, [sp, #84]
	adds	r5, r4, r3
	subs	r5, #16
	cmp	r0, #0
	mov	r4, r7
	bne	.LBB54_28
	ldr	r4, [sp, #92]
.LBB54_28:
	str	r4, [r5]
	bne	.LBB54_30
	mov	r7, r2
.LBB54_30:
	str	r7, [r5, #4]
.LBB54_31:
	ldr	r2, [sp, #72]
	ldr	r7, [sp, #88]
	ldr	r2, [r2]
	ldr	r3, [sp, #84]
	adds	r2, r2, r3
	subs	r2, #8
	ldr	r6, [r2]
	movs	r3, #1
	str	r3, [sp, #4]
	ands	r6, r3
	movs	r5, #0
	ldr	r4, [sp, #96]
	adds	r4, r6, r4
	adcs	r7, r5
	ldr	r3, [sp, #76]
	cmp	r3, #0
	bne	.LBB54_33
	mov	r6, r4
.LBB54_33:
	str	r6, [r2]
	bne	.LBB54_35
	mov	r5, r7
.LBB54_35:
	ldr	r4, [sp, #124]
	str	r5, [r2, #4]
	cmp	r0, #0
	ldr	r5, [sp, #8]
	ldr	r6, [sp, #72]
	ldr	r7, [sp, #68]
	bne	.LBB54_37
	ldr	r0, [sp, #92]
	lsrs	r0, r0, #3
	ldr	r1, [sp, #80]
	muls	r0, r1, r0
	ldr	r1, [r6]
	adds	r0, r1, r0
	subs	r0, #8
	str	r4, [r0, #4]
	ldr	r1, [r0]
	ldr	r2, [sp, #4]
	ands	r1, r2
	orrs	r1, r7
	str	r1, [r0]
.LBB54_37:
	ldr	r0, [sp, #64]
	cmp	r0, #1
	bne	.LBB54_39
	ldr	r0, [sp, #52]
	lsrs	r0, r0, #3
	ldr	r1, [sp, #80]
	muls	r0, r1, r0
	ldr	r1, [r6]
	adds	r0, r1, r0
	subs	r0, #8
	str	r4, [r0, #4]
	ldr	r1, [r0]
	movs	r2, #1
	ands	r2, r1
	orrs	r2, r7
	str	r2, [r0]
.LBB54_39:
	ldr	r0, [r6]
	ldr	r1, [sp, #84]
	adds	r0, r0, r1
	subs	r0, #8
	ldr	r2, [r0]
	ldr	r1, [r0, #4]
	ldr	r3, [sp, #76]
	cmp	r3, #0
	beq	.LBB54_41
	movs	r3, #1
	orrs	r2, r3
	str	r2, [r0]
	str	r1, [r0, #4]
	mov	r0, r7
	mov	r1, r4
	b	.LBB54_105
.LBB54_41:
	ldr	r5, [sp, #4]
	bics	r2, r5
	str	r2, [r0]
	str	r1, [r0, #4]
	ldr	r2, [sp, #96]
	lsrs	r0, r2, #3
	ldr	r3, [sp, #80]
	muls	r0, r3, r0
	ldr	r1, [r6]
	adds	r0, r1, r0
	ldr	r1, [sp, #56]
	cmp	r1, #0
	beq	.LBB54_53
	subs	r0, #16
	str	r7, [r0]
	str	r4, [r0, #4]
	b	.LBB54_54
.LBB54_43:
	ldr	r1, [sp, #96]
	ldr	r5, [r2, r1]
	movs	r0, #7
	mov	r3, r5
	bics	r3, r0
	adds	r2, r2, r1
	ldr	r2, [r2, #4]
	movs	r1, #15
	str	r1, [sp, #20]
	ands	r2, r1
	str	r3, [sp, #92]
	orrs	r3, r2
	bne	.LBB54_44
	b	.LBB54_67
.LBB54_44:
	subs	r7, r7, r4
	ldr	r1, [sp, #40]
	subs	r4, r7, r1
	subs	r3, r4, #1
	sbcs	r4, r3
	lsrs	r6, r5, #3
	ldr	r1, [sp, #32]
	muls	r6, r1, r6
	ldr	r1, [sp, #60]
	adds	r3, r1, r6
	subs	r3, #8
	ldr	r5, [r3]
	ldr	r1, [sp, #24]
	ands	r5, r1
	ldr	r3, [sp, #44]
	beq	.LBB54_46
	mov	r3, r4
.LBB54_46:
	movs	r4, #0
	cmp	r3, #1
	beq	.LBB54_47
	b	.LBB54_76
.LBB54_47:
	str	r4, [sp, #4]
	mvns	r1, r0
	str	r1, [sp, #16]
	ldr	r1, [sp, #60]
	ldr	r3, [sp, #96]
	adds	r1, r1, r3
	str	r1, [sp, #12]
	movs	r3, #66
	b	.LBB54_49
.LBB54_48:
	movs	r0, #0
	cmp	r4, #1
	str	r0, [sp, #76]
	beq	.LBB54_49
	b	.LBB54_8
.LBB54_49:
	str	r2, [sp, #88]
	ldr	r0, [sp, #92]
	str	r0, [sp, #96]
	ldr	r2, [sp, #12]
	ldr	r4, [r2, r6]
	mov	r0, r4
	ldr	r1, [sp, #16]
	ands	r0, r1
	adds	r1, r2, r6
	ldr	r2, [r1, #4]
	ldr	r1, [sp, #20]
	ands	r2, r1
	str	r0, [sp, #92]
	mov	r6, r0
	orrs	r6, r2
	rsbs	r0, r6, #0
	adcs	r0, r6
	subs	r3, r3, #1
	bne	.LBB54_50
	b	.LBB54_82
.LBB54_50:
	cmp	r0, #0
	beq	.LBB54_51
	b	.LBB54_83
.LBB54_51:
	subs	r7, r7, r5
	ldr	r1, [sp, #40]
	subs	r1, r7, r1
	subs	r5, r1, #1
	sbcs	r1, r5
	lsrs	r6, r4, #3
	ldr	r4, [sp, #32]
	muls	r6, r4, r6
	ldr	r4, [sp, #60]
	adds	r4, r4, r6
	subs	r4, #8
	ldr	r5, [r4]
	ldr	r4, [sp, #24]
	ands	r5, r4
	ldr	r4, [sp, #44]
	beq	.LBB54_48
	mov	r4, r1
	b	.LBB54_48
.LBB54_53:
	subs	r0, #24
	str	r4, [r0, #4]
	ldr	r1, [r0]
	ands	r1, r5
	orrs	r1, r7
	str	r1, [r0]
.LBB54_54:
	movs	r0, #7
	mvns	r0, r0
	str	r0, [sp, #92]
	movs	r0, #15
	str	r0, [sp, #76]
	movs	r1, #0
	movs	r7, #67
	b	.LBB54_56
.LBB54_55:
	orrs	r3, r0
	rsbs	r0, r3, #0
	adcs	r0, r3
	ldr	r2, [r5]
	ldr	r4, [sp, #56]
	adds	r2, r2, r4
	subs	r2, #8
	ldr	r3, [r2]
	bics	r3, r1
	adds	r0, r3, r0
	str	r0, [r2]
	ldr	r7, [sp, #52]
	mov	r6, r5
	ldr	r0, [r5]
	adds	r0, r0, r4
	subs	r0, #8
	ldr	r2, [r0]
	ldr	r1, [r0, #4]
	ldr	r0, [sp, #76]
	ands	r1, r0
	ldr	r0, [sp, #92]
	ands	r2, r0
	mov	r0, r2
	str	r1, [sp, #88]
	orrs	r0, r1
	rsbs	r1, r0, #0
	adcs	r1, r0
	subs	r7, r7, #1
	ldr	r0, [sp, #60]
	str	r0, [sp, #68]
	ldr	r4, [sp, #64]
	ldr	r3, [sp, #80]
	bne	.LBB54_56
	b	.LBB54_66
.LBB54_56:
	str	r7, [sp, #52]
	lsls	r0, r1, #31
	beq	.LBB54_57
	b	.LBB54_68
.LBB54_57:
	str	r4, [sp, #24]
	lsrs	r1, r2, #3
	muls	r1, r3, r1
	ldr	r7, [r6]
	adds	r6, r7, r1
	mov	r4, r6
	subs	r4, #8
	ldr	r5, [r4]
	movs	r0, #0
	str	r0, [sp, #20]
	lsls	r0, r5, #31
	bne	.LBB54_66
	str	r7, [sp, #84]
	str	r1, [sp, #16]
	str	r2, [sp, #96]
	ldr	r1, [r4, #4]
	mov	r0, r5
	ldr	r2, [sp, #92]
	ands	r0, r2
	str	r1, [sp, #44]
	ldr	r7, [sp, #76]
	ands	r1, r7
	str	r0, [sp, #60]
	str	r1, [sp, #64]
	orrs	r0, r1
	beq	.LBB54_66
	str	r6, [sp, #12]
	str	r5, [sp, #40]
	lsrs	r0, r5, #3
	muls	r0, r3, r0
	str	r0, [sp, #56]
	ldr	r1, [sp, #84]
	adds	r0, r1, r0
	str	r0, [sp, #48]
	subs	r0, #24
	ldr	r6, [r0]
	ldr	r1, [r0, #4]
	ands	r1, r7
	mov	r0, r1
	ldr	r3, [sp, #88]
	eors	r0, r3
	str	r6, [sp, #32]
	ands	r6, r2
	mov	r3, r6
	ldr	r5, [sp, #96]
	eors	r3, r5
	orrs	r3, r0
	bne	.LBB54_63
	ldr	r5, [sp, #48]
	mov	r1, r5
	subs	r1, #16
	ldm	r1, {r0, r1}
	ands	r1, r7
	mov	r3, r0
	ands	r3, r2
	orrs	r3, r1
	ldr	r3, [sp, #80]
	mov	r6, r2
	mov	r2, r7
	ldr	r7, [sp, #84]
	bne	.LBB54_61
	b	.LBB54_74
.LBB54_61:
	lsrs	r0, r0, #3
	muls	r0, r3, r0
	adds	r1, r7, r0
	subs	r1, #8
	ldr	r1, [r1]
	lsls	r1, r1, #31
	beq	.LBB54_62
	b	.LBB54_74
.LBB54_62:
	movs	r1, #1
	ldr	r6, [sp, #40]
	orrs	r6, r1
	subs	r5, #8
	ldr	r3, [r5]
	str	r6, [r4]
	mov	r7, r5
	ldr	r5, [sp, #72]
	ldr	r6, [r5]
	adds	r0, r6, r0
	subs	r0, #8
	ldr	r6, [r0]
	orrs	r6, r1
	str	r6, [r0]
	ldr	r0, [r7, #4]
	ldr	r6, [sp, #44]
	str	r6, [r4, #4]
	ands	r0, r2
	ldr	r4, [sp, #92]
	ands	r3, r4
	b	.LBB54_55
.LBB54_63:
	ldr	r3, [sp, #48]
	orrs	r6, r1
	ldr	r2, [sp, #84]
	beq	.LBB54_69
	ldr	r0, [sp, #32]
	lsrs	r0, r0, #3
	ldr	r1, [sp, #80]
	muls	r0, r1, r0
	adds	r1, r2, r0
	subs	r1, #8
	ldr	r1, [r1]
	lsls	r1, r1, #31
	bne	.LBB54_69
	movs	r1, #1
	ldr	r5, [sp, #40]
	orrs	r5, r1
	mov	r2, r3
	subs	r2, #8
	ldr	r3, [r2]
	str	r5, [r4]
	ldr	r5, [sp, #72]
	ldr	r6, [r5]
	adds	r0, r6, r0
	subs	r0, #8
	ldr	r6, [r0]
	orrs	r6, r1
	str	r6, [r0]
	ldr	r0, [r2, #4]
	ldr	r2, [sp, #44]
	str	r2, [r4, #4]
	ldr	r2, [sp, #76]
	ands	r0, r2
	ldr	r2, [sp, #92]
	ands	r3, r2
	b	.LBB54_55
.LBB54_66:
	ldr	r0, [sp, #28]
	ldr	r1, [sp, #36]
	b	.LBB54_103
.LBB54_67:
	movs	r1, #0
	ldr	r0, [sp, #44]
	mov	r2, r1
	str	r1, [sp, #92]
	str	r1, [sp, #76]
	ldr	r3, [sp, #28]
	str	r3, [sp, #96]
	str	r6, [sp, #88]
	b	.LBB54_8
.LBB54_68:
	ldr	r0, [sp, #28]
	ldr	r1, [sp, #36]
	ldr	r3, [sp, #4]
	b	.LBB54_104
.LBB54_69:
	ldr	r7, [sp, #12]
	subs	r7, #24
	ldm	r7!, {r4, r5}
	mov	r0, r5
	ldr	r1, [sp, #76]
	ands	r0, r1
	mov	r1, r0
	ldr	r2, [sp, #24]
	eors	r1, r2
	mov	r2, r4
	ldr	r3, [sp, #92]
	ands	r2, r3
	mov	r3, r2
	ldr	r6, [sp, #68]
	eors	r3, r6
	subs	r7, #8
	orrs	r3, r1
	bne	.LBB54_77
	lsrs	r0, r6, #3
	ldr	r5, [sp, #80]
	muls	r0, r5, r0
	str	r0, [sp, #52]
	ldr	r1, [sp, #84]
	adds	r1, r1, r0
	subs	r1, #16
	ldr	r3, [r1, #4]
	ldr	r0, [sp, #76]
	ands	r3, r0
	str	r3, [r7, #4]
	movs	r6, #1
	ands	r4, r6
	ldr	r2, [r1]
	mov	r1, r2
	ldr	r0, [sp, #92]
	ands	r1, r0
	orrs	r4, r1
	str	r4, [r7]
	orrs	r1, r3
	ldr	r0, [sp, #72]
	ldr	r7, [sp, #88]
	ldr	r3, [sp, #96]
	beq	.LBB54_72
	lsrs	r1, r2, #3
	muls	r1, r5, r1
	ldr	r2, [r0]
	adds	r1, r2, r1
	subs	r1, #8
	str	r7, [r1, #4]
	ldr	r2, [r1]
	ands	r2, r6
	orrs	r2, r3
	str	r2, [r1]
.LBB54_72:
	ldr	r1, [r0]
	ldr	r0, [sp, #52]
	adds	r2, r1, r0
	subs	r2, #8
	ldr	r1, [r2]
	ands	r1, r6
	ldr	r3, [sp, #60]
	orrs	r1, r3
	str	r1, [r2]
	ldr	r1, [sp, #72]
	ldr	r1, [r1]
	adds	r1, r1, r0
	ldr	r0, [sp, #72]
	subs	r1, #8
	ldr	r3, [r1]
	bics	r3, r6
	str	r3, [r1]
	ldr	r1, [sp, #64]
	str	r1, [r2, #4]
	ldr	r1, [r0]
	ldr	r2, [sp, #56]
	adds	r3, r1, r2
	mov	r2, r3
	subs	r2, #24
	ldr	r4, [r2]
	ldr	r1, [r2, #4]
	ldr	r5, [sp, #76]
	ands	r1, r5
	eors	r1, r7
	mov	r5, r4
	ldr	r7, [sp, #92]
	ands	r5, r7
	ldr	r7, [sp, #96]
	eors	r5, r7
	orrs	r5, r1
	beq	.LBB54_73
	b	.LBB54_84
.LBB54_73:
	ands	r4, r6
	ldr	r5, [sp, #68]
	orrs	r4, r5
	str	r4, [r2]
	ldr	r1, [sp, #24]
	str	r1, [r2, #4]
	b	.LBB54_85
.LBB54_74:
	ldr	r5, [sp, #12]
	mov	r0, r5
	subs	r0, #24
	ldr	r1, [r0]
	ldr	r0, [r0, #4]
	ands	r0, r2
	mov	r4, r2
	ldr	r2, [sp, #24]
	eors	r0, r2
	ands	r1, r6
	ldr	r2, [sp, #68]
	eors	r1, r2
	orrs	r1, r0
	bne	.LBB54_78
	ldr	r6, [sp, #16]
	ldr	r0, [sp, #96]
	str	r0, [sp, #68]
	ldr	r0, [sp, #88]
	str	r0, [sp, #24]
	ldr	r3, [sp, #56]
	mov	r0, r4
	ldr	r4, [sp, #32]
	b	.LBB54_95
.LBB54_76:
	mov	r0, r4
	str	r4, [sp, #76]
	ldr	r3, [sp, #28]
	str	r3, [sp, #96]
	ldr	r3, [sp, #36]
	b	.LBB54_7
.LBB54_77:
	lsls	r1, r5, #29
	lsrs	r3, r4, #3
	adds	r4, r3, r1
	ldr	r1, [sp, #16]
	str	r1, [sp, #52]
	ldr	r1, [sp, #96]
	str	r1, [sp, #68]
	ldr	r1, [sp, #88]
	str	r1, [sp, #24]
	ldr	r7, [sp, #76]
	ldr	r5, [sp, #84]
	ldr	r6, [sp, #92]
	b	.LBB54_86
.LBB54_78:
	lsrs	r0, r2, #3
	muls	r0, r3, r0
	str	r0, [sp, #52]
	adds	r1, r7, r0
	subs	r1, #24
	ldr	r0, [r1]
	mov	r2, r0
	ands	r2, r6
	subs	r5, #16
	str	r2, [r5]
	ldr	r1, [r1, #4]
	ands	r1, r4
	str	r1, [r5, #4]
	orrs	r1, r2
	ldr	r6, [sp, #72]
	ldr	r7, [sp, #64]
	ldr	r5, [sp, #88]
	ldr	r4, [sp, #96]
	beq	.LBB54_80
	lsrs	r0, r0, #3
	muls	r0, r3, r0
	ldr	r1, [r6]
	adds	r0, r1, r0
	subs	r0, #8
	str	r5, [r0, #4]
	ldr	r1, [r0]
	movs	r2, #1
	ands	r2, r1
	orrs	r2, r4
	str	r2, [r0]
.LBB54_80:
	ldr	r0, [r6]
	str	r5, [sp, #88]
	ldr	r5, [sp, #52]
	adds	r2, r0, r5
	subs	r2, #8
	ldr	r1, [r2]
	movs	r0, #1
	ands	r1, r0
	ldr	r3, [sp, #60]
	orrs	r1, r3
	str	r1, [r2]
	ldr	r1, [r6]
	adds	r1, r1, r5
	subs	r1, #8
	ldr	r3, [r1]
	bics	r3, r0
	str	r3, [r1]
	str	r7, [r2, #4]
	ldr	r1, [r6]
	ldr	r2, [sp, #56]
	adds	r3, r1, r2
	mov	r2, r3
	subs	r2, #24
	ldr	r4, [r2]
	ldr	r1, [r2, #4]
	ldr	r7, [sp, #76]
	ands	r1, r7
	ldr	r5, [sp, #88]
	eors	r1, r5
	mov	r5, r4
	ldr	r7, [sp, #92]
	ands	r5, r7
	ldr	r7, [sp, #96]
	eors	r5, r7
	orrs	r5, r1
	beq	.LBB54_81
	b	.LBB54_93
.LBB54_81:
	ands	r4, r0
	ldr	r5, [sp, #68]
	orrs	r4, r5
	str	r4, [r2]
	ldr	r1, [sp, #24]
	str	r1, [r2, #4]
	b	.LBB54_94
.LBB54_82:
	ldr	r3, [sp, #4]
	str	r3, [sp, #76]
	b	.LBB54_8
.LBB54_83:
	movs	r1, #0
	ldr	r0, [sp, #44]
	mov	r2, r1
	str	r1, [sp, #92]
	str	r1, [sp, #76]
	b	.LBB54_8
.LBB54_84:
	subs	r3, #16
	ldr	r5, [sp, #68]
	str	r5, [r3]
	ldr	r1, [sp, #24]
	str	r1, [r3, #4]
.LBB54_85:
	ldr	r1, [r0]
	ldr	r4, [sp, #52]
	adds	r1, r1, r4
	subs	r1, #16
	ldr	r2, [sp, #96]
	str	r2, [r1]
	ldr	r2, [r0]
	ldr	r7, [sp, #16]
	adds	r2, r2, r7
	subs	r2, #8
	ldr	r3, [r2]
	ands	r3, r6
	orrs	r3, r5
	str	r3, [r2]
	ldr	r3, [sp, #88]
	str	r3, [r1, #4]
	ldr	r1, [r0]
	adds	r1, r1, r7
	subs	r1, #8
	ldr	r3, [r1]
	bics	r3, r6
	str	r3, [r1]
	ldr	r1, [sp, #24]
	str	r1, [r2, #4]
	ldr	r5, [r0]
	adds	r0, r5, r4
	subs	r0, #24
	ldr	r2, [r0]
	ldr	r0, [r0, #4]
	lsls	r1, r0, #29
	lsrs	r3, r2, #3
	adds	r4, r3, r1
	ldr	r7, [sp, #76]
	ands	r0, r7
	ldr	r6, [sp, #92]
	ands	r2, r6
.LBB54_86:
	ldr	r1, [sp, #56]
	adds	r1, r5, r1
	mov	r3, r1
	subs	r3, #16
	str	r2, [r3]
	str	r0, [r3, #4]
	subs	r1, #8
	ldr	r3, [r1]
	ldr	r1, [r1, #4]
	ands	r1, r7
	mov	r5, r3
	ands	r5, r6
	orrs	r2, r0
	ldr	r6, [sp, #72]
	beq	.LBB54_88
	ldr	r0, [sp, #80]
	muls	r4, r0, r4
	ldr	r0, [r6]
	adds	r0, r0, r4
	subs	r0, #8
	ldr	r2, [sp, #64]
	str	r2, [r0, #4]
	ldr	r2, [r0]
	movs	r4, #1
	ands	r4, r2
	ldr	r2, [sp, #60]
	orrs	r4, r2
	str	r4, [r0]
.LBB54_88:
	ldr	r0, [r6]
	ldr	r7, [sp, #52]
	adds	r0, r0, r7
	subs	r0, #8
	ldr	r4, [r0]
	movs	r2, #1
	ands	r4, r2
	orrs	r4, r5
	str	r4, [r0]
	str	r1, [r0, #4]
	ldr	r0, [r6]
	adds	r0, r0, r7
	mov	r7, r2
	subs	r0, #8
	ldr	r4, [r0]
	orrs	r4, r2
	str	r4, [r0]
	orrs	r5, r1
	ldr	r2, [sp, #68]
	mov	r0, r2
	ldr	r4, [sp, #24]
	mov	r1, r4
	beq	.LBB54_92
	str	r7, [sp, #96]
	lsrs	r0, r3, #3
	ldr	r1, [sp, #80]
	muls	r1, r0, r1
	ldr	r0, [r6]
	adds	r1, r0, r1
	mov	r0, r1
	subs	r0, #24
	ldm	r0!, {r3, r4}
	ldr	r5, [sp, #76]
	ands	r4, r5
	ldr	r5, [sp, #64]
	eors	r4, r5
	ldr	r7, [sp, #92]
	ands	r7, r3
	ldr	r5, [sp, #60]
	eors	r7, r5
	subs	r0, #8
	orrs	r7, r4
	bne	.LBB54_91
	ldr	r7, [sp, #96]
	ands	r3, r7
	orrs	r3, r2
	str	r3, [r0]
	ldr	r4, [sp, #24]
	str	r4, [r0, #4]
	ldr	r0, [sp, #28]
	ldr	r1, [sp, #36]
	ldr	r6, [sp, #72]
	b	.LBB54_92
.LBB54_91:
	subs	r1, #16
	str	r2, [r1]
	ldr	r4, [sp, #24]
	str	r4, [r1, #4]
	ldr	r0, [sp, #28]
	ldr	r1, [sp, #36]
	ldr	r6, [sp, #72]
	ldr	r7, [sp, #96]
.LBB54_92:
	str	r4, [sp, #24]
	ldr	r3, [r6]
	ldr	r4, [sp, #52]
	adds	r3, r3, r4
	subs	r3, #24
	ldr	r4, [r3]
	ands	r4, r7
	mov	r5, r7
	ldr	r7, [sp, #60]
	orrs	r4, r7
	str	r4, [r3]
	ldr	r4, [sp, #64]
	str	r4, [r3, #4]
	ldr	r3, [r6]
	ldr	r7, [sp, #56]
	adds	r3, r3, r7
	subs	r3, #8
	ldr	r4, [r3]
	ands	r4, r5
	orrs	r4, r2
	str	r4, [r3]
	ldr	r2, [sp, #24]
	str	r2, [r3, #4]
	ldr	r3, [r6]
	adds	r3, r3, r7
	subs	r3, #8
	ldr	r4, [r3]
	bics	r4, r5
	str	r4, [r3]
	b	.LBB54_103
.LBB54_93:
	subs	r3, #16
	ldr	r5, [sp, #68]
	str	r5, [r3]
	ldr	r1, [sp, #24]
	str	r1, [r3, #4]
.LBB54_94:
	ldr	r1, [r6]
	mov	r4, r6
	ldr	r6, [sp, #52]
	adds	r2, r1, r6
	subs	r2, #24
	ldr	r1, [r2]
	ands	r1, r0
	ldr	r3, [sp, #96]
	orrs	r1, r3
	str	r1, [r2]
	ldr	r1, [r4]
	ldr	r7, [sp, #16]
	adds	r3, r1, r7
	subs	r3, #8
	ldr	r1, [r3]
	ands	r1, r0
	orrs	r1, r5
	str	r1, [r3]
	ldr	r1, [sp, #88]
	str	r1, [r2, #4]
	ldr	r1, [r4]
	adds	r1, r1, r7
	subs	r1, #8
	ldr	r2, [r1]
	bics	r2, r0
	str	r2, [r1]
	ldr	r0, [sp, #24]
	str	r0, [r3, #4]
	ldr	r7, [r4]
	ldr	r3, [sp, #56]
	adds	r0, r7, r3
	subs	r0, #24
	ldr	r4, [r0]
	ldr	r0, [sp, #76]
.LBB54_95:
	str	r6, [sp, #52]
	adds	r2, r7, r6
	subs	r2, #16
	ldr	r1, [r2, #4]
	ands	r1, r0
	adds	r0, r7, r3
	mov	r5, r0
	subs	r5, #24
	str	r1, [r5, #4]
	movs	r3, #1
	str	r3, [sp, #96]
	ands	r4, r3
	ldr	r3, [r2]
	mov	r6, r3
	ldr	r7, [sp, #92]
	ands	r6, r7
	orrs	r4, r6
	str	r4, [r5]
	orrs	r6, r1
	subs	r0, #8
	ldr	r2, [r0]
	ldr	r0, [r0, #4]
	ldr	r1, [sp, #76]
	ands	r0, r1
	mov	r1, r2
	ands	r1, r7
	cmp	r6, #0
	ldr	r7, [sp, #72]
	beq	.LBB54_97
	lsrs	r3, r3, #3
	ldr	r5, [sp, #80]
	muls	r3, r5, r3
	ldr	r5, [r7]
	adds	r3, r5, r3
	subs	r3, #8
	ldr	r4, [sp, #64]
	str	r4, [r3, #4]
	ldr	r5, [r3]
	ldr	r4, [sp, #96]
	ands	r5, r4
	ldr	r6, [sp, #60]
	orrs	r5, r6
	str	r5, [r3]
.LBB54_97:
	ldr	r3, [r7]
	ldr	r4, [sp, #52]
	adds	r3, r3, r4
	subs	r3, #8
	ldr	r5, [r3]
	ldr	r6, [sp, #96]
	ands	r5, r6
	orrs	r5, r1
	str	r5, [r3]
	str	r0, [r3, #4]
	ldr	r3, [r7]
	adds	r3, r3, r4
	subs	r3, #8
	ldr	r5, [r3]
	orrs	r5, r6
	str	r5, [r3]
	orrs	r1, r0
	ldr	r6, [sp, #68]
	mov	r0, r6
	ldr	r3, [sp, #24]
	mov	r1, r3
	beq	.LBB54_102
	str	r6, [sp, #68]
	ldr	r6, [sp, #96]
	lsrs	r0, r2, #3
	ldr	r1, [sp, #80]
	muls	r1, r0, r1
	ldr	r0, [r7]
	adds	r1, r0, r1
	mov	r0, r1
	subs	r0, #24
	ldm	r0!, {r2, r3}
	ldr	r4, [sp, #76]
	ands	r3, r4
	ldr	r5, [sp, #64]
	eors	r3, r5
	ldr	r7, [sp, #92]
	ands	r7, r2
	ldr	r5, [sp, #60]
	eors	r7, r5
	subs	r0, #8
	orrs	r7, r3
	bne	.LBB54_100
	ands	r2, r6
	ldr	r6, [sp, #68]
	orrs	r2, r6
	str	r2, [r0]
	ldr	r3, [sp, #24]
	str	r3, [r0, #4]
	b	.LBB54_101
.LBB54_100:
	subs	r1, #16
	ldr	r6, [sp, #68]
	str	r6, [r1]
	ldr	r3, [sp, #24]
	str	r3, [r1, #4]
.LBB54_101:
	ldr	r0, [sp, #28]
	ldr	r1, [sp, #36]
	ldr	r4, [sp, #52]
	ldr	r7, [sp, #72]
.LBB54_102:
	str	r3, [sp, #24]
	ldr	r2, [r7]
	adds	r2, r2, r4
	subs	r2, #16
	ldr	r3, [sp, #60]
	str	r3, [r2]
	ldr	r3, [sp, #64]
	str	r3, [r2, #4]
	ldr	r2, [r7]
	ldr	r5, [sp, #56]
	adds	r2, r2, r5
	subs	r2, #8
	ldr	r3, [r2]
	ldr	r4, [sp, #96]
	ands	r3, r4
	orrs	r3, r6
	str	r3, [r2]
	ldr	r3, [sp, #24]
	str	r3, [r2, #4]
	ldr	r2, [r7]
	adds	r2, r2, r5
	subs	r2, #8
	ldr	r3, [r2]
	bics	r3, r4
	str	r3, [r2]
.LBB54_103:
	ldr	r3, [sp, #20]
.LBB54_104:
	ldr	r5, [sp, #8]
.LBB54_105:
	ldr	r4, [sp]
	strb	r0, [r4, #8]
	movs	r2, #0
	strb	r2, [r4, #7]
	strb	r2, [r4, #6]
	strb	r2, [r4, #5]
	strb	r2, [r4, #4]
	strb	r2, [r4, #3]
	strb	r2, [r4, #2]
	strb	r2, [r4, #1]
	strb	r1, [r4, #12]
	lsrs	r2, r0, #24
	strb	r2, [r4, #11]
	lsrs	r2, r0, #16
	strb	r2, [r4, #10]
	lsrs	r2, r0, #8
	strb	r2, [r4, #9]
	adds	r2, r3, r5
	strb	r2, [r4, #16]
	lsrs	r3, r1, #24
	strb	r3, [r4, #15]
	lsrs	r3, r1, #16
	strb	r3, [r4, #14]
	lsrs	r3, r1, #8
	strb	r3, [r4, #13]
	lsrs	r3, r2, #24
	strb	r3, [r4, #19]
	lsrs	r3, r2, #16
	strb	r3, [r4, #18]
	lsrs	r2, r2, #8
	strb	r2, [r4, #17]
	orrs	r0, r1
	subs	r1, r0, #1
	sbcs	r0, r1
	strb	r0, [r4]
	add	sp, #100
	pop	{r4, r5, r6, r7, pc}
.Lfunc_end54:
	.size	ic_rbtree.join.roots.join_higher.f4da04d8a93b4f27, .Lfunc_end54-ic_rbtree.join.roots.join_higher.f4da04d8a93b4f27
	.cfi_endproc
	.section	.text.ic_raw.search_calls.insert,"ax",%progbits
	.p2align	1
	.type	ic_raw.search_calls.insert,%function
	.code	16
	.thumb_func
ic_raw.search_calls.insert:
	.cfi_startproc
	push	{r4, r5, r6, r7, lr}
	.cfi_def_cfa_offset 20
	.cfi_offset lr, -4
	.cfi_offset r7, -8
	.cfi_offset r6, -12
	.cfi_offset r5, -16
	.cfi_offset r4, -20
	sub	sp, #132
	.cfi_def_cfa_offset 152
	mov	r4, r0
	str	r3, [sp, #124]
	str	r2, [sp, #120]
	movs	r0, #0
	str	r0, [sp, #56]
	str	r0, [sp, #116]
	str	r4, [sp, #112]
	ldr	r0, [sp, #172]
	str	r0, [sp, #24]
	ldr	r1, [sp, #164]
	ldr	r0, [sp, #160]
	str	r2, [sp, #32]
	str	r0, [sp, #4]
	subs	r0, r0, r2
	str	r1, [sp, #8]
	mov	r0, r1
	str	r3, [sp, #28]
	sbcs	r0, r3
	bhs	.LBB55_1
	b	.LBB55_69
.LBB55_1:
	ldr	r0, [sp, #168]
	ldr	r1, [r0]
	str	r0, [sp, #12]
	ldr	r2, [r0, #4]
	movs	r0, #15
	str	r0, [sp, #108]
	ands	r2, r0
	movs	r0, #7
	bics	r1, r0
	mvns	r7, r0
	ldr	r0, [sp, #24]
	adds	r3, r0, #1
	mov	r0, r1
	orrs	r0, r2
	str	r7, [sp, #100]
	str	r4, [sp, #104]
	str	r2, [sp, #20]
	str	r1, [sp, #16]
	str	r3, [sp, #36]
	bne	.LBB55_2
	b	.LBB55_32
.LBB55_2:
	lsrs	r0, r1, #3
	lsls	r1, r2, #29
	adds	r0, r0, r1
	lsrs	r1, r2, #3
	ldr	r2, [sp, #32]
	subs	r2, r2, r0
	ldr	r2, [sp, #28]
	sbcs	r2, r1
	bhs	.LBB55_3
	b	.LBB55_69
.LBB55_3:
	ldr	r1, [sp, #36]
	cmp	r1, #0
	bne	.LBB55_4
	b	.LBB55_69
.LBB55_4:
	ldr	r1, [sp, #32]
	ldr	r2, [sp, #36]
	subs	r1, r1, r2
	ldr	r1, [sp, #28]
	ldr	r2, [sp, #56]
	sbcs	r1, r2
	bhs	.LBB55_5
	b	.LBB55_69
.LBB55_5:
	movs	r1, #24
	str	r1, [sp, #88]
	muls	r0, r1, r0
	adds	r0, r4, r0
	subs	r0, #24
	ldr	r0, [r0]
	movs	r1, #1
	str	r1, [sp, #52]
	ands	r0, r1
	bne	.LBB55_6
	b	.LBB55_69
.LBB55_6:
	ldr	r3, [sp, #152]
	ldr	r2, [sp, #32]
	lsrs	r0, r2, #29
	ldr	r1, [sp, #28]
	lsls	r1, r1, #3
	adds	r0, r1, r0
	str	r0, [sp, #80]
	ldr	r0, [sp, #36]
	lsls	r0, r0, #3
	str	r3, [sp, #84]
	adds	r0, r3, r0
	subs	r0, #8
	ldr	r1, [r0]
	str	r1, [sp, #76]
	ldr	r0, [r0, #4]
	str	r0, [sp, #72]
	lsls	r0, r2, #3
	str	r0, [sp, #68]
	movs	r1, #22
	ldr	r2, [sp, #16]
	ldr	r0, [sp, #20]
	str	r0, [sp, #96]
.LBB55_7:
	str	r1, [sp, #60]
	ldr	r0, [sp, #84]
	adds	r0, r0, r2
	subs	r0, #8
	ldr	r1, [r0]
	ldr	r0, [r0, #4]
	ldr	r3, [sp, #76]
	subs	r1, r3, r1
	ldr	r1, [sp, #72]
	sbcs	r1, r0
	ldr	r3, [sp, #52]
	bhs	.LBB55_9
	ldr	r3, [sp, #56]
.LBB55_9:
	str	r2, [sp, #64]
	lsrs	r0, r2, #3
	ldr	r1, [sp, #88]
	muls	r0, r1, r0
	adds	r1, r4, r0
	mov	r2, r1
	subs	r2, #16
	ldr	r0, [r2]
	subs	r1, #24
	ldr	r5, [r1]
	str	r3, [sp, #92]
	cmp	r3, #0
	str	r0, [sp, #44]
	ldr	r4, [sp, #108]
	bne	.LBB55_11
	mov	r0, r5
.LBB55_11:
	str	r5, [sp, #48]
	ldr	r6, [r2, #4]
	ldr	r7, [r1, #4]
	mov	r5, r6
	bne	.LBB55_13
	mov	r5, r7
.LBB55_13:
	ands	r5, r4
	mov	r2, r0
	ldr	r1, [sp, #100]
	ands	r2, r1
	subs	r1, r2, #1
	mov	r4, r5
	ldr	r3, [sp, #56]
	sbcs	r4, r3
	ldr	r3, [sp, #68]
	subs	r1, r1, r3
	ldr	r1, [sp, #80]
	sbcs	r4, r1
	bhs	.LBB55_35
	ldr	r1, [sp, #84]
	adds	r1, r1, r2
	subs	r1, #8
	ldr	r4, [r1]
	ldr	r1, [r1, #4]
	movs	r6, #0
	ldr	r3, [sp, #76]
	subs	r4, r3, r4
	ldr	r4, [sp, #72]
	sbcs	r4, r1
	bhs	.LBB55_16
	mov	r4, r6
	b	.LBB55_17
.LBB55_16:
	movs	r4, #1
.LBB55_17:
	ldr	r1, [sp, #104]
	lsrs	r0, r0, #3
	ldr	r3, [sp, #88]
	muls	r0, r3, r0
	adds	r0, r1, r0
	mov	r1, r0
	subs	r1, #16
	ldr	r3, [r1]
	subs	r0, #24
	ldr	r7, [r0]
	cmp	r4, #0
	str	r3, [sp, #44]
	str	r3, [sp, #96]
	bne	.LBB55_19
	str	r7, [sp, #96]
.LBB55_19:
	str	r7, [sp, #48]
	str	r6, [sp, #64]
	str	r4, [sp, #92]
	ldr	r4, [r1, #4]
	ldr	r3, [r0, #4]
	str	r4, [sp, #40]
	bne	.LBB55_21
	mov	r4, r3
.LBB55_21:
	ldr	r0, [sp, #108]
	ands	r4, r0
	ldr	r6, [sp, #96]
	ldr	r0, [sp, #100]
	ands	r6, r0
	subs	r7, r6, #1
	mov	r0, r4
	ldr	r1, [sp, #64]
	sbcs	r0, r1
	ldr	r1, [sp, #68]
	subs	r7, r7, r1
	ldr	r7, [sp, #80]
	sbcs	r0, r7
	bhs	.LBB55_44
	ldr	r0, [sp, #84]
	adds	r0, r0, r6
	subs	r0, #8
	ldr	r1, [r0]
	ldr	r0, [r0, #4]
	movs	r2, #0
	ldr	r5, [sp, #76]
	subs	r1, r5, r1
	ldr	r1, [sp, #72]
	sbcs	r1, r0
	ldr	r1, [sp, #104]
	bhs	.LBB55_24
	mov	r5, r2
	b	.LBB55_25
.LBB55_24:
	movs	r5, #1
.LBB55_25:
	ldr	r0, [sp, #96]
	lsrs	r0, r0, #3
	ldr	r3, [sp, #88]
	muls	r0, r3, r0
	adds	r3, r1, r0
	mov	r1, r3
	subs	r1, #16
	ldr	r7, [r1]
	subs	r3, #24
	ldr	r0, [r3]
	str	r5, [sp, #92]
	cmp	r5, #0
	str	r7, [sp, #48]
	mov	r5, r7
	bne	.LBB55_27
	mov	r5, r0
.LBB55_27:
	str	r0, [sp, #64]
	ldr	r1, [r1, #4]
	ldr	r7, [r3, #4]
	mov	r3, r1
	bne	.LBB55_29
	mov	r3, r7
.LBB55_29:
	ldr	r0, [sp, #108]
	ands	r3, r0
	ldr	r0, [sp, #100]
	ands	r5, r0
	mov	r0, r3
	mov	r3, r5
	subs	r5, r5, #1
	str	r0, [sp, #96]
	sbcs	r0, r2
	ldr	r2, [sp, #68]
	subs	r2, r5, r2
	ldr	r2, [sp, #80]
	sbcs	r0, r2
	ldr	r0, [sp, #60]
	bhs	.LBB55_53
	subs	r1, r0, #1
	ldr	r4, [sp, #104]
	mov	r2, r3
	beq	.LBB55_31
	b	.LBB55_7
.LBB55_31:
	b	.LBB55_69
.LBB55_32:
	cmp	r3, #0
	bne	.LBB55_33
	b	.LBB55_69
.LBB55_33:
	movs	r3, #0
	ldr	r0, [sp, #32]
	ldr	r1, [sp, #36]
	subs	r0, r0, r1
	ldr	r0, [sp, #28]
	sbcs	r0, r3
	bhs	.LBB55_34
	b	.LBB55_69
.LBB55_34:
	movs	r6, #1
	str	r3, [sp, #96]
	b	.LBB55_64
.LBB55_35:
	movs	r3, #1
	movs	r0, #0
	ldr	r1, [sp, #44]
	subs	r1, r1, r2
	sbcs	r6, r5
	mov	r4, r3
	mov	r1, r3
	bhs	.LBB55_37
	mov	r1, r0
.LBB55_37:
	ldr	r3, [sp, #48]
	subs	r2, r3, r2
	sbcs	r7, r5
	ldr	r6, [sp, #92]
	mov	r5, r4
	bhs	.LBB55_39
	mov	r5, r0
.LBB55_39:
	orrs	r5, r1
	cmp	r5, #0
	ldr	r4, [sp, #104]
	ldr	r3, [sp, #64]
	bne	.LBB55_41
	str	r5, [sp, #96]
.LBB55_41:
	bne	.LBB55_43
	mov	r3, r5
.LBB55_43:
	ands	r6, r5
	b	.LBB55_60
.LBB55_44:
	movs	r1, #1
	movs	r0, #0
	str	r0, [sp, #96]
	ldr	r0, [sp, #44]
	subs	r0, r0, r6
	ldr	r0, [sp, #40]
	sbcs	r0, r4
	mov	r7, r1
	bhs	.LBB55_46
	ldr	r1, [sp, #96]
.LBB55_46:
	ldr	r0, [sp, #48]
	subs	r0, r0, r6
	sbcs	r3, r4
	ldr	r4, [sp, #104]
	bhs	.LBB55_48
	ldr	r7, [sp, #96]
.LBB55_48:
	orrs	r7, r1
	mov	r0, r7
	cmp	r7, #0
	ldr	r6, [sp, #92]
	bne	.LBB55_50
	mov	r5, r0
.LBB55_50:
	bne	.LBB55_52
	mov	r2, r0
.LBB55_52:
	ands	r6, r0
	str	r5, [sp, #96]
	mov	r5, r0
	mov	r3, r2
	b	.LBB55_60
.LBB55_53:
	movs	r5, #1
	movs	r2, #0
	ldr	r0, [sp, #48]
	subs	r0, r0, r3
	ldr	r0, [sp, #96]
	sbcs	r1, r0
	mov	r1, r5
	bhs	.LBB55_55
	mov	r1, r2
.LBB55_55:
	ldr	r0, [sp, #64]
	subs	r0, r0, r3
	ldr	r0, [sp, #96]
	sbcs	r7, r0
	bhs	.LBB55_56
	b	.LBB55_96
.LBB55_56:
	orrs	r5, r1
	cmp	r5, #0
	ldr	r0, [sp, #104]
	bne	.LBB55_57
	b	.LBB55_97
.LBB55_57:
	bne	.LBB55_59
.LBB55_58:
	mov	r6, r5
.LBB55_59:
	ldr	r1, [sp, #92]
	ands	r1, r5
	mov	r3, r6
	mov	r6, r1
	str	r4, [sp, #96]
	mov	r4, r0
.LBB55_60:
	cmp	r5, #0
	beq	.LBB55_69
	mov	r0, r3
	ldr	r1, [sp, #96]
	orrs	r0, r1
	beq	.LBB55_69
	lsrs	r0, r3, #3
	ldr	r1, [sp, #88]
	muls	r1, r0, r1
	adds	r0, r4, r1
	subs	r0, #24
	ldrb	r0, [r0]
	lsls	r0, r0, #31
	beq	.LBB55_69
	movs	r0, #1
	eors	r6, r0
.LBB55_64:
	movs	r0, #24
	str	r0, [sp, #88]
	ldr	r1, [sp, #36]
	muls	r0, r1, r0
	adds	r1, r4, r0
	mov	r2, r1
	subs	r2, #24
	ldrb	r0, [r2]
	lsls	r0, r0, #31
	bne	.LBB55_69
	str	r6, [sp, #92]
	mov	r7, r4
	ldr	r0, [sp, #36]
	lsrs	r6, r0, #29
	lsls	r5, r0, #3
	movs	r0, #0
	movs	r4, #1
	str	r4, [sp, #40]
	str	r4, [r2]
	str	r0, [r2, #4]
	mov	r2, r1
	subs	r2, #16
	str	r0, [r2]
	str	r0, [r2, #4]
	mov	r2, r3
	ldr	r4, [sp, #96]
	orrs	r2, r4
	subs	r1, #8
	cmp	r2, #0
	beq	.LBB55_68
	str	r5, [sp, #48]
	stm	r1!, {r3, r4}
	str	r3, [sp, #64]
	lsrs	r1, r3, #3
	ldr	r2, [sp, #88]
	muls	r1, r2, r1
	mov	r5, r7
	adds	r1, r7, r1
	ldr	r2, [sp, #92]
	cmp	r2, #0
	beq	.LBB55_70
	subs	r1, #24
	str	r6, [r1, #4]
	ldr	r2, [r1]
	movs	r3, #1
	ands	r3, r2
	ldr	r2, [sp, #48]
	orrs	r3, r2
	str	r3, [r1]
	b	.LBB55_71
.LBB55_68:
	movs	r0, #0
	movs	r2, #1
	str	r2, [r1]
	str	r0, [r1, #4]
	mov	r4, r5
	mov	r5, r6
	b	.LBB55_174
.LBB55_69:
	ldr	r0, [sp, #24]
	str	r0, [sp]
	add	r0, sp, #112
	ldr	r2, [sp, #4]
	ldr	r3, [sp, #8]
	bl	ic_raw.search.refusal_of
	add	sp, #132
	pop	{r4, r5, r6, r7, pc}
.LBB55_70:
	subs	r1, #16
	ldr	r2, [sp, #48]
	stm	r1!, {r2, r6}
.LBB55_71:
	ldr	r7, [sp, #32]
	lsrs	r1, r7, #29
	ldr	r2, [sp, #28]
	lsls	r2, r2, #3
	adds	r3, r2, r1
	lsls	r1, r7, #3
	str	r1, [sp, #92]
	movs	r1, #67
	ldr	r7, [sp, #100]
	str	r3, [sp, #84]
	b	.LBB55_73
.LBB55_72:
	str	r4, [sp, #64]
	mov	r1, r4
	ldr	r0, [sp, #96]
	orrs	r1, r0
	rsbs	r0, r1, #0
	adcs	r0, r1
	subs	r2, r2, #1
	ldr	r1, [sp, #76]
	str	r1, [sp, #48]
	ldr	r6, [sp, #72]
	ldr	r5, [sp, #104]
	mov	r1, r2
	bne	.LBB55_73
	b	.LBB55_95
.LBB55_73:
	lsls	r0, r0, #31
	beq	.LBB55_74
	b	.LBB55_95
.LBB55_74:
	str	r1, [sp, #68]
	mov	r4, r7
	ldr	r0, [sp, #64]
	lsrs	r1, r0, #3
	ldr	r0, [sp, #88]
	muls	r1, r0, r1
	adds	r7, r5, r1
	str	r7, [sp, #36]
	subs	r7, #8
	ldr	r2, [r7]
	lsls	r0, r2, #31
	beq	.LBB55_75
	b	.LBB55_95
.LBB55_75:
	str	r1, [sp, #32]
	str	r6, [sp, #44]
	str	r7, [sp, #60]
	mov	r1, r2
	ldr	r2, [r7, #4]
	mov	r5, r2
	ldr	r0, [sp, #108]
	ands	r5, r0
	mov	r3, r1
	mov	r6, r4
	ands	r3, r4
	movs	r0, #0
	str	r3, [sp, #76]
	subs	r3, r3, #1
	str	r5, [sp, #72]
	sbcs	r5, r0
	ldr	r4, [sp, #92]
	subs	r3, r3, r4
	ldr	r7, [sp, #84]
	sbcs	r5, r7
	blo	.LBB55_76
	b	.LBB55_95
.LBB55_76:
	str	r2, [sp, #52]
	str	r1, [sp, #56]
	lsrs	r3, r1, #3
	ldr	r5, [sp, #88]
	muls	r3, r5, r3
	ldr	r5, [sp, #104]
	adds	r3, r5, r3
	str	r3, [sp, #80]
	subs	r3, #24
	ldr	r2, [r3]
	str	r3, [sp, #28]
	ldr	r5, [r3, #4]
	ldr	r1, [sp, #108]
	ands	r5, r1
	str	r2, [sp, #24]
	ands	r2, r6
	subs	r6, r4, r2
	sbcs	r7, r5
	mov	r6, r0
	blo	.LBB55_78
	mov	r6, r2
.LBB55_78:
	blo	.LBB55_80
	mov	r0, r5
.LBB55_80:
	mov	r3, r0
	ldr	r4, [sp, #96]
	eors	r3, r4
	mov	r5, r6
	ldr	r4, [sp, #64]
	eors	r5, r4
	orrs	r5, r3
	ldr	r2, [sp, #56]
	bne	.LBB55_86
	ldr	r1, [sp, #80]
	subs	r1, #16
	ldm	r1!, {r3, r5}
	ldr	r6, [sp, #108]
	ands	r5, r6
	mov	r6, r3
	ldr	r7, [sp, #100]
	ands	r6, r7
	ldr	r4, [sp, #104]
	movs	r7, #0
	subs	r1, #8
	subs	r6, r6, #1
	sbcs	r5, r7
	ldr	r0, [sp, #92]
	subs	r6, r6, r0
	ldr	r6, [sp, #84]
	sbcs	r5, r6
	blo	.LBB55_82
	b	.LBB55_113
.LBB55_82:
	lsrs	r3, r3, #3
	ldr	r5, [sp, #88]
	muls	r3, r5, r3
	adds	r3, r4, r3
	subs	r3, #8
	ldr	r5, [r3]
	lsls	r5, r5, #31
	beq	.LBB55_83
	b	.LBB55_113
.LBB55_83:
	movs	r1, #1
	orrs	r2, r1
	ldr	r6, [sp, #80]
	subs	r6, #8
	ldr	r5, [r6]
	ldr	r4, [sp, #60]
	str	r2, [r4]
	ldr	r2, [r3]
	orrs	r2, r1
	str	r2, [r3]
	ldr	r2, [r6, #4]
	ldr	r0, [sp, #52]
	str	r0, [r4, #4]
	ldr	r4, [sp, #108]
	ands	r2, r4
	ldr	r7, [sp, #100]
	ands	r5, r7
	movs	r0, #0
	subs	r3, r5, #1
	sbcs	r2, r0
	ldr	r5, [sp, #92]
	subs	r3, r3, r5
	ldr	r3, [sp, #84]
	sbcs	r2, r3
	mov	r2, r1
	bhs	.LBB55_85
	mov	r2, r0
.LBB55_85:
	ldr	r0, [r6]
	bics	r0, r1
	adds	r0, r0, r2
	str	r0, [r6]
	ldr	r1, [r6, #4]
	b	.LBB55_91
.LBB55_86:
	orrs	r0, r6
	beq	.LBB55_99
	lsrs	r1, r6, #3
	ldr	r3, [sp, #88]
	muls	r1, r3, r1
	ldr	r3, [sp, #104]
	adds	r1, r3, r1
	subs	r1, #8
	ldr	r3, [r1]
	lsls	r3, r3, #31
	bne	.LBB55_99
	ldr	r6, [sp, #40]
	orrs	r2, r6
	ldr	r5, [sp, #80]
	subs	r5, #8
	ldr	r3, [r5]
	ldr	r4, [sp, #60]
	str	r2, [r4]
	ldr	r2, [r1]
	orrs	r2, r6
	str	r2, [r1]
	ldr	r1, [r5, #4]
	ldr	r0, [sp, #52]
	str	r0, [r4, #4]
	ldr	r4, [sp, #108]
	ands	r1, r4
	ldr	r7, [sp, #100]
	ands	r3, r7
	movs	r0, #0
	subs	r2, r3, #1
	sbcs	r1, r0
	ldr	r3, [sp, #92]
	subs	r2, r2, r3
	ldr	r3, [sp, #84]
	sbcs	r1, r3
	mov	r1, r6
	bhs	.LBB55_90
	mov	r1, r0
.LBB55_90:
	ldr	r0, [r5]
	ldr	r2, [sp, #40]
	bics	r0, r2
	adds	r0, r0, r1
	str	r0, [r5]
	ldr	r1, [r5, #4]
.LBB55_91:
	ands	r1, r4
	ands	r0, r7
	movs	r4, #0
	ldr	r2, [sp, #92]
	subs	r2, r2, r0
	mov	r2, r3
	sbcs	r2, r1
	str	r4, [sp, #96]
	blo	.LBB55_93
	str	r1, [sp, #96]
.LBB55_93:
	ldr	r2, [sp, #68]
	bhs	.LBB55_94
	b	.LBB55_72
.LBB55_94:
	mov	r4, r0
	b	.LBB55_72
.LBB55_95:
	ldr	r4, [sp, #16]
	ldr	r5, [sp, #20]
	b	.LBB55_174
.LBB55_96:
	mov	r5, r2
	orrs	r5, r1
	cmp	r5, #0
	ldr	r0, [sp, #104]
	beq	.LBB55_97
	b	.LBB55_57
.LBB55_97:
	mov	r4, r5
	bne	.LBB55_98
	b	.LBB55_58
.LBB55_98:
	b	.LBB55_59
.LBB55_99:
	ldr	r4, [sp, #36]
	subs	r4, #24
	ldr	r2, [r4]
	ldr	r0, [r4, #4]
	ldr	r1, [sp, #108]
	ands	r0, r1
	mov	r3, r0
	ldr	r1, [sp, #44]
	eors	r3, r1
	mov	r7, r2
	ldr	r1, [sp, #100]
	ands	r7, r1
	mov	r1, r7
	ldr	r5, [sp, #48]
	eors	r1, r5
	orrs	r1, r3
	subs	r3, r1, #1
	sbcs	r1, r3
	ldr	r3, [sp, #92]
	subs	r3, r3, r7
	ldr	r3, [sp, #84]
	sbcs	r3, r0
	bhs	.LBB55_100
	b	.LBB55_128
.LBB55_100:
	movs	r3, #0
	orrs	r3, r1
	beq	.LBB55_101
	b	.LBB55_129
.LBB55_101:
	str	r4, [sp, #36]
	lsrs	r1, r5, #3
	ldr	r0, [sp, #88]
	muls	r1, r0, r1
	ldr	r0, [sp, #104]
	str	r1, [sp, #32]
	adds	r1, r0, r1
	str	r1, [sp, #68]
	subs	r1, #16
	ldr	r5, [r1]
	ldr	r3, [r1, #4]
	ldr	r0, [sp, #108]
	ands	r3, r0
	ldr	r0, [sp, #100]
	ands	r5, r0
	movs	r0, #0
	ldr	r4, [sp, #92]
	subs	r6, r4, r5
	ldr	r6, [sp, #84]
	sbcs	r6, r3
	mov	r7, r0
	blo	.LBB55_103
	mov	r7, r3
.LBB55_103:
	ldr	r3, [sp, #36]
	str	r7, [r3, #4]
	blo	.LBB55_105
	mov	r0, r5
.LBB55_105:
	movs	r5, #1
	ands	r2, r5
	orrs	r2, r0
	str	r2, [r3]
	orrs	r7, r0
	ldr	r6, [sp, #48]
	ldr	r4, [sp, #68]
	beq	.LBB55_107
	lsrs	r0, r0, #3
	ldr	r2, [sp, #88]
	muls	r0, r2, r0
	ldr	r2, [sp, #104]
	adds	r0, r2, r0
	subs	r0, #8
	ldr	r2, [sp, #96]
	str	r2, [r0, #4]
	ldr	r2, [r0]
	ands	r2, r5
	ldr	r3, [sp, #64]
	orrs	r2, r3
	str	r2, [r0]
.LBB55_107:
	str	r5, [sp, #56]
	mov	r0, r4
	subs	r0, #8
	ldr	r2, [sp, #76]
	str	r2, [r0]
	ldr	r2, [sp, #72]
	str	r2, [r0, #4]
	ldr	r0, [sp, #28]
	ldm	r0!, {r2, r5}
	ldr	r0, [sp, #108]
	ands	r5, r0
	mov	r0, r2
	ldr	r3, [sp, #100]
	ands	r0, r3
	movs	r7, #0
	ldr	r3, [sp, #92]
	subs	r3, r3, r0
	ldr	r3, [sp, #84]
	sbcs	r3, r5
	mov	r3, r7
	blo	.LBB55_109
	mov	r3, r0
.LBB55_109:
	blo	.LBB55_111
	mov	r7, r5
.LBB55_111:
	ldr	r0, [sp, #96]
	eors	r7, r0
	ldr	r0, [sp, #64]
	eors	r3, r0
	orrs	r3, r7
	beq	.LBB55_112
	b	.LBB55_152
.LBB55_112:
	ldr	r0, [sp, #56]
	ands	r2, r0
	orrs	r2, r6
	ldr	r0, [sp, #28]
	str	r2, [r0]
	b	.LBB55_153
.LBB55_113:
	ldr	r2, [sp, #36]
	subs	r2, #24
	ldm	r2, {r0, r2}
	ldr	r3, [sp, #108]
	ands	r2, r3
	ldr	r6, [sp, #100]
	ands	r0, r6
	ldr	r3, [sp, #92]
	subs	r3, r3, r0
	ldr	r3, [sp, #84]
	sbcs	r3, r2
	blo	.LBB55_116
	ldr	r3, [sp, #48]
	eors	r0, r3
	ldr	r3, [sp, #44]
	eors	r2, r3
	orrs	r2, r0
	bne	.LBB55_116
	ldr	r0, [sp, #64]
	str	r0, [sp, #48]
	ldr	r0, [sp, #96]
	str	r0, [sp, #44]
	ldr	r7, [sp, #28]
	b	.LBB55_132
.LBB55_116:
	ldr	r0, [sp, #48]
	lsrs	r2, r0, #3
	ldr	r0, [sp, #88]
	muls	r2, r0, r2
	str	r2, [sp, #32]
	adds	r2, r4, r2
	mov	r0, r2
	subs	r0, #24
	mov	r5, r7
	ldr	r7, [r0]
	str	r0, [sp, #68]
	ldr	r3, [r0, #4]
	ldr	r0, [sp, #108]
	ands	r3, r0
	ands	r7, r6
	ldr	r0, [sp, #36]
	subs	r0, #16
	str	r0, [sp, #36]
	ldr	r0, [sp, #92]
	subs	r0, r0, r7
	ldr	r0, [sp, #84]
	sbcs	r0, r3
	mov	r4, r5
	blo	.LBB55_118
	mov	r5, r7
.LBB55_118:
	ldr	r0, [sp, #36]
	str	r5, [r0]
	blo	.LBB55_120
	mov	r4, r3
.LBB55_120:
	str	r4, [r0, #4]
	orrs	r4, r5
	ldr	r3, [sp, #104]
	ldr	r7, [sp, #92]
	beq	.LBB55_122
	lsrs	r0, r5, #3
	ldr	r5, [sp, #88]
	muls	r0, r5, r0
	adds	r0, r3, r0
	subs	r0, #8
	ldr	r3, [sp, #96]
	str	r3, [r0, #4]
	ldr	r3, [r0]
	movs	r5, #1
	ands	r5, r3
	ldr	r3, [sp, #64]
	orrs	r5, r3
	str	r5, [r0]
.LBB55_122:
	subs	r2, #8
	ldr	r0, [sp, #76]
	str	r0, [r2]
	ldr	r0, [sp, #72]
	str	r0, [r2, #4]
	ldr	r2, [sp, #28]
	ldm	r2!, {r0, r5}
	ldr	r2, [sp, #108]
	ands	r5, r2
	mov	r2, r0
	ands	r2, r6
	movs	r3, #0
	subs	r6, r7, r2
	ldr	r6, [sp, #84]
	sbcs	r6, r5
	mov	r7, r3
	blo	.LBB55_124
	mov	r7, r2
.LBB55_124:
	blo	.LBB55_126
	mov	r3, r5
.LBB55_126:
	ldr	r2, [sp, #96]
	eors	r3, r2
	ldr	r4, [sp, #64]
	eors	r7, r4
	orrs	r7, r3
	ldr	r6, [sp, #100]
	bne	.LBB55_130
	movs	r1, #1
	ands	r0, r1
	ldr	r3, [sp, #48]
	orrs	r0, r3
	ldr	r7, [sp, #28]
	str	r0, [r7]
	ldr	r2, [sp, #44]
	str	r2, [r7, #4]
	b	.LBB55_131
.LBB55_128:
	movs	r3, #1
	orrs	r3, r1
	bne	.LBB55_129
	b	.LBB55_101
.LBB55_129:
	ldr	r6, [sp, #64]
	ldr	r5, [sp, #96]
	b	.LBB55_154
.LBB55_130:
	ldr	r3, [sp, #48]
	str	r3, [r1]
	ldr	r2, [sp, #44]
	str	r2, [r1, #4]
	ldr	r7, [sp, #28]
.LBB55_131:
	ldr	r0, [sp, #96]
	ldr	r5, [sp, #68]
	str	r0, [r5, #4]
	ldr	r0, [r5]
	movs	r1, #1
	ands	r1, r0
	orrs	r1, r4
	str	r1, [r5]
	ldr	r0, [sp, #60]
	str	r3, [r0]
	str	r2, [r0, #4]
	ldr	r0, [r7]
	str	r0, [sp, #24]
	ldr	r4, [sp, #104]
.LBB55_132:
	ldr	r0, [sp, #32]
	adds	r2, r4, r0
	mov	r1, r2
	subs	r1, #16
	ldr	r0, [r1]
	str	r1, [sp, #68]
	ldr	r5, [r1, #4]
	ldr	r1, [sp, #108]
	ands	r5, r1
	ands	r0, r6
	movs	r1, #0
	ldr	r3, [sp, #92]
	subs	r3, r3, r0
	ldr	r3, [sp, #84]
	sbcs	r3, r5
	mov	r4, r1
	blo	.LBB55_134
	mov	r4, r5
.LBB55_134:
	str	r4, [r7, #4]
	mov	r5, r1
	ldr	r3, [sp, #80]
	blo	.LBB55_136
	mov	r5, r0
.LBB55_136:
	movs	r6, #1
	ldr	r0, [sp, #24]
	str	r6, [sp, #96]
	ands	r0, r6
	orrs	r0, r5
	str	r0, [r7]
	orrs	r4, r5
	subs	r3, #8
	ldr	r7, [r3]
	str	r3, [sp, #80]
	ldr	r6, [r3, #4]
	ldr	r0, [sp, #108]
	ands	r6, r0
	ldr	r0, [sp, #100]
	ands	r7, r0
	ldr	r0, [sp, #92]
	subs	r3, r0, r7
	ldr	r3, [sp, #84]
	sbcs	r3, r6
	mov	r3, r1
	bhs	.LBB55_147
	bhs	.LBB55_148
.LBB55_138:
	cmp	r4, #0
	ldr	r0, [sp, #104]
	ldr	r7, [sp, #96]
	beq	.LBB55_140
.LBB55_139:
	lsrs	r4, r5, #3
	ldr	r5, [sp, #88]
	muls	r4, r5, r4
	adds	r4, r0, r4
	subs	r4, #8
	ldr	r5, [sp, #72]
	str	r5, [r4, #4]
	ldr	r5, [r4]
	ands	r5, r7
	ldr	r6, [sp, #76]
	orrs	r5, r6
	str	r5, [r4]
.LBB55_140:
	subs	r2, #8
	mov	r4, r1
	orrs	r4, r7
	str	r4, [r2]
	str	r3, [r2, #4]
	orrs	r3, r1
	ldr	r7, [sp, #48]
	mov	r4, r7
	ldr	r6, [sp, #44]
	mov	r5, r6
	beq	.LBB55_151
	lsrs	r1, r1, #3
	ldr	r2, [sp, #88]
	muls	r2, r1, r2
	adds	r3, r0, r2
	mov	r2, r3
	subs	r2, #24
	ldm	r2!, {r4, r6}
	ldr	r0, [sp, #108]
	ands	r6, r0
	ldr	r0, [sp, #100]
	ands	r0, r4
	movs	r5, #0
	ldr	r1, [sp, #92]
	subs	r2, #8
	subs	r1, r1, r0
	ldr	r1, [sp, #84]
	sbcs	r1, r6
	mov	r7, r5
	blo	.LBB55_143
	mov	r7, r0
.LBB55_143:
	blo	.LBB55_145
	mov	r5, r6
.LBB55_145:
	ldr	r0, [sp, #72]
	eors	r5, r0
	ldr	r0, [sp, #76]
	eors	r7, r0
	orrs	r7, r5
	bne	.LBB55_149
	ldr	r0, [sp, #96]
	ands	r4, r0
	ldr	r7, [sp, #48]
	orrs	r4, r7
	str	r4, [r2]
	ldr	r6, [sp, #44]
	str	r6, [r2, #4]
	b	.LBB55_150
.LBB55_147:
	mov	r3, r6
	blo	.LBB55_138
.LBB55_148:
	mov	r1, r7
	cmp	r4, #0
	ldr	r0, [sp, #104]
	ldr	r7, [sp, #96]
	bne	.LBB55_139
	b	.LBB55_140
.LBB55_149:
	subs	r3, #16
	ldr	r7, [sp, #48]
	str	r7, [r3]
	ldr	r6, [sp, #44]
	str	r6, [r3, #4]
.LBB55_150:
	ldr	r4, [sp, #16]
	ldr	r5, [sp, #20]
.LBB55_151:
	ldr	r0, [sp, #76]
	ldr	r1, [sp, #68]
	str	r0, [r1]
	ldr	r0, [sp, #72]
	str	r0, [r1, #4]
	ldr	r0, [sp, #80]
	str	r7, [r0]
	b	.LBB55_173
.LBB55_152:
	ldr	r0, [sp, #80]
	subs	r0, #16
	str	r6, [r0]
.LBB55_153:
	ldr	r5, [sp, #44]
	str	r5, [r0, #4]
	ldr	r2, [sp, #60]
	ldr	r0, [sp, #64]
	str	r0, [r1]
	ldr	r0, [sp, #96]
	str	r0, [r1, #4]
	str	r6, [r2]
	str	r5, [r2, #4]
	subs	r4, #24
	ldr	r7, [r4]
	ldr	r0, [r4, #4]
	ldr	r1, [sp, #100]
	ands	r7, r1
	ldr	r1, [sp, #108]
	ands	r0, r1
.LBB55_154:
	ldr	r3, [sp, #80]
	subs	r3, #16
	movs	r1, #0
	ldr	r2, [sp, #92]
	subs	r2, r2, r7
	ldr	r2, [sp, #84]
	sbcs	r2, r0
	mov	r2, r1
	blo	.LBB55_156
	mov	r2, r0
.LBB55_156:
	str	r5, [sp, #44]
	str	r2, [r3, #4]
	mov	r0, r1
	blo	.LBB55_158
	mov	r0, r7
.LBB55_158:
	str	r0, [r3]
	ldr	r3, [sp, #80]
	subs	r3, #8
	ldr	r4, [r3]
	str	r3, [sp, #80]
	ldr	r5, [r3, #4]
	ldr	r3, [sp, #108]
	ands	r5, r3
	ldr	r3, [sp, #100]
	ands	r4, r3
	ldr	r3, [sp, #92]
	subs	r3, r3, r4
	ldr	r3, [sp, #84]
	sbcs	r3, r5
	mov	r3, r1
	blo	.LBB55_160
	mov	r3, r5
.LBB55_160:
	ldr	r7, [sp, #104]
	blo	.LBB55_162
	mov	r1, r4
.LBB55_162:
	orrs	r2, r0
	ldr	r4, [sp, #32]
	adds	r4, r7, r4
	cmp	r2, #0
	beq	.LBB55_164
	lsrs	r0, r0, #3
	ldr	r2, [sp, #88]
	muls	r0, r2, r0
	adds	r0, r7, r0
	subs	r0, #8
	ldr	r2, [sp, #72]
	str	r2, [r0, #4]
	ldr	r2, [r0]
	movs	r5, #1
	ands	r5, r2
	ldr	r2, [sp, #76]
	orrs	r5, r2
	str	r5, [r0]
.LBB55_164:
	mov	r0, r4
	subs	r0, #24
	subs	r4, #8
	movs	r2, #1
	mov	r5, r1
	orrs	r5, r2
	str	r5, [r4]
	str	r3, [r4, #4]
	orrs	r3, r1
	mov	r4, r6
	mov	r3, r6
	ldr	r6, [sp, #44]
	mov	r5, r6
	beq	.LBB55_172
	str	r2, [sp, #96]
	str	r3, [sp, #48]
	lsrs	r1, r1, #3
	ldr	r2, [sp, #88]
	muls	r2, r1, r2
	adds	r1, r7, r2
	str	r1, [sp, #104]
	subs	r1, #24
	ldr	r4, [r1]
	ldr	r6, [sp, #100]
	ldr	r2, [r1, #4]
	ldr	r5, [sp, #108]
	ands	r2, r5
	ands	r6, r4
	movs	r5, #0
	ldr	r3, [sp, #92]
	subs	r7, r3, r6
	ldr	r3, [sp, #84]
	sbcs	r3, r2
	mov	r7, r5
	blo	.LBB55_167
	mov	r7, r6
.LBB55_167:
	blo	.LBB55_169
	mov	r5, r2
.LBB55_169:
	ldr	r2, [sp, #72]
	eors	r5, r2
	ldr	r2, [sp, #76]
	eors	r7, r2
	orrs	r7, r5
	ldr	r3, [sp, #48]
	bne	.LBB55_171
	ldr	r2, [sp, #96]
	ands	r4, r2
	orrs	r4, r3
	str	r4, [r1]
	ldr	r6, [sp, #44]
	str	r6, [r1, #4]
	ldr	r4, [sp, #16]
	ldr	r5, [sp, #20]
	b	.LBB55_172
.LBB55_171:
	ldr	r1, [sp, #104]
	subs	r1, #16
	str	r3, [r1]
	ldr	r6, [sp, #44]
	str	r6, [r1, #4]
	ldr	r4, [sp, #16]
	ldr	r5, [sp, #20]
	ldr	r2, [sp, #96]
.LBB55_172:
	ldr	r1, [sp, #72]
	str	r1, [r0, #4]
	ldr	r1, [r0]
	ands	r1, r2
	ldr	r2, [sp, #76]
	orrs	r1, r2
	str	r1, [r0]
	ldr	r0, [sp, #80]
	str	r3, [r0]
.LBB55_173:
	str	r6, [r0, #4]
.LBB55_174:
	ldr	r0, [sp, #12]
	stm	r0!, {r4, r5}
	movs	r0, #0
	add	sp, #132
	pop	{r4, r5, r6, r7, pc}
.Lfunc_end55:
	.size	ic_raw.search_calls.insert, .Lfunc_end55-ic_raw.search_calls.insert
	.cfi_endproc
	.section	.text.unlikely.ic_raw.search.refusal_of,"ax",%progbits
	.p2align	1
	.type	ic_raw.search.refusal_of,%function
	.code	16
	.thumb_func
ic_raw.search.refusal_of:
	.cfi_startproc
	push	{r4, lr}
	.cfi_def_cfa_offset 8
	.cfi_offset lr, -4
	.cfi_offset r4, -8
	ldr	r1, [r0, #8]
	ldr	r4, [r0, #12]
	subs	r1, r2, r1
	sbcs	r3, r4
	bhs	.LBB56_2
	movs	r0, #1
	pop	{r4, pc}
.LBB56_2:
	ldr	r2, [sp, #8]
	movs	r1, #0
	mvns	r1, r1
	bl	ic_raw.table.RawTable.refusal.19bacce014a8892a
	pop	{r4, pc}
.Lfunc_end56:
	.size	ic_raw.search.refusal_of, .Lfunc_end56-ic_raw.search.refusal_of
	.cfi_endproc
	.section	.text.unlikely.ic_raw.table.RawTable.refusal.19bacce014a8892a,"ax",%progbits
	.p2align	1
	.type	ic_raw.table.RawTable.refusal.19bacce014a8892a,%function
	.code	16
	.thumb_func
ic_raw.table.RawTable.refusal.19bacce014a8892a:
	.cfi_startproc
	push	{r4, r5, r7, lr}
	.cfi_def_cfa_offset 16
	.cfi_offset lr, -4
	.cfi_offset r7, -8
	.cfi_offset r5, -12
	.cfi_offset r4, -16
	adds	r1, r1, #1
	blo	.LBB57_5
.LBB57_1:
	adds	r3, r2, #1
	movs	r1, #1
	cmp	r3, r2
	blo	.LBB57_9
	ldr	r2, [r0, #8]
	ldr	r4, [r0, #12]
	movs	r5, #0
	subs	r2, r2, r3
	sbcs	r4, r5
	blo	.LBB57_9
	movs	r1, #24
	muls	r1, r3, r1
	ldr	r0, [r0]
	adds	r0, r0, r1
	subs	r0, #24
	ldrb	r0, [r0]
	lsls	r0, r0, #31
	beq	.LBB57_10
	movs	r0, #2
	pop	{r4, r5, r7, pc}
.LBB57_5:
	ldr	r3, [r0, #8]
	ldr	r4, [r0, #12]
	movs	r5, #0
	subs	r3, r3, r1
	sbcs	r4, r5
	bhs	.LBB57_7
	movs	r0, #1
	pop	{r4, r5, r7, pc}
.LBB57_7:
	movs	r3, #24
	muls	r3, r1, r3
	ldr	r1, [r0]
	adds	r1, r1, r3
	subs	r1, #24
	ldrb	r1, [r1]
	lsls	r1, r1, #31
	bne	.LBB57_1
	movs	r1, #3
.LBB57_9:
	mov	r0, r1
	pop	{r4, r5, r7, pc}
.LBB57_10:
	movs	r0, #5
	pop	{r4, r5, r7, pc}
.Lfunc_end57:
	.size	ic_raw.table.RawTable.refusal.19bacce014a8892a, .Lfunc_end57-ic_raw.table.RawTable.refusal.19bacce014a8892a
	.cfi_endproc
	.section	.text.ic_raw.tree_calls.insert_at,"ax",%progbits
	.p2align	1
	.type	ic_raw.tree_calls.insert_at,%function
	.code	16
	.thumb_func
ic_raw.tree_calls.insert_at:
	.cfi_startproc
	push	{r4, r5, r6, r7, lr}
	.cfi_def_cfa_offset 20
	.cfi_offset lr, -4
	.cfi_offset r7, -8
	.cfi_offset r6, -12
	.cfi_offset r5, -16
	.cfi_offset r4, -20
	sub	sp, #116
	.cfi_def_cfa_offset 136
	str	r3, [sp, #108]
	str	r2, [sp, #104]
	movs	r5, #0
	str	r5, [sp, #100]
	str	r0, [sp, #88]
	str	r0, [sp, #96]
	ldr	r0, [sp, #136]
	ldr	r4, [r0]
	str	r0, [sp]
	ldr	r6, [r0, #4]
	movs	r0, #15
	str	r0, [sp, #76]
	ands	r6, r0
	movs	r0, #7
	mov	r1, r4
	bics	r1, r0
	str	r1, [sp, #8]
	mvns	r0, r0
	str	r0, [sp, #84]
	ldr	r0, [sp, #148]
	str	r0, [sp, #72]
	ldr	r0, [sp, #144]
	str	r0, [sp, #60]
	adds	r0, r0, #1
	str	r3, [sp, #68]
	ldr	r1, [sp, #140]
	str	r1, [sp, #64]
	str	r6, [sp, #4]
	str	r2, [sp, #92]
	blo	.LBB58_2
	ldr	r1, [sp, #8]
	orrs	r1, r6
	beq	.LBB58_9
	b	.LBB58_16
.LBB58_2:
	subs	r1, r2, r0
	mov	r1, r3
	sbcs	r1, r5
	blo	.LBB58_16
	movs	r6, #24
	mov	r1, r6
	muls	r1, r0, r1
	ldr	r2, [sp, #88]
	adds	r1, r2, r1
	str	r1, [sp, #52]
	subs	r1, #24
	ldrb	r1, [r1]
	lsls	r1, r1, #31
	beq	.LBB58_16
	ldr	r1, [sp, #8]
	subs	r1, r1, #1
	str	r1, [sp, #56]
	str	r3, [sp, #80]
	ldr	r3, [sp, #4]
	sbcs	r3, r5
	ldr	r7, [sp, #92]
	lsrs	r1, r7, #29
	ldr	r2, [sp, #68]
	lsls	r2, r2, #3
	adds	r1, r2, r1
	lsls	r2, r7, #3
	ldr	r7, [sp, #56]
	subs	r2, r7, r2
	sbcs	r3, r1
	ldr	r3, [sp, #80]
	bhs	.LBB58_16
	lsrs	r1, r4, #3
	muls	r6, r1, r6
	ldr	r1, [sp, #88]
	adds	r1, r1, r6
	subs	r1, #24
	ldrb	r1, [r1]
	lsls	r1, r1, #31
	beq	.LBB58_16
	movs	r1, #23
	mvns	r4, r1
	ldr	r1, [sp, #64]
	lsls	r1, r1, #31
	beq	.LBB58_8
	adds	r4, #8
.LBB58_8:
	ldr	r2, [sp, #84]
	ldr	r6, [sp, #52]
	ldr	r1, [r6, r4]
	ands	r1, r2
	adds	r2, r6, r4
	ldr	r2, [r2, #4]
	ldr	r4, [sp, #76]
	ands	r2, r4
	orrs	r2, r1
	bne	.LBB58_16
.LBB58_9:
	ldr	r1, [sp, #72]
	adds	r4, r1, #1
	beq	.LBB58_16
	ldr	r1, [sp, #92]
	subs	r1, r1, r4
	sbcs	r3, r5
	blo	.LBB58_16
	movs	r1, #24
	str	r1, [sp, #80]
	muls	r1, r4, r1
	ldr	r2, [sp, #88]
	adds	r1, r2, r1
	mov	r6, r1
	subs	r6, #24
	ldrb	r2, [r6]
	lsls	r2, r2, #31
	bne	.LBB58_16
	lsrs	r3, r4, #29
	lsls	r7, r4, #3
	movs	r4, #1
	str	r4, [sp, #28]
	stm	r6!, {r4, r5}
	mov	r4, r1
	subs	r4, #8
	strb	r5, [r4, #7]
	strb	r5, [r4, #6]
	strb	r5, [r4, #5]
	strb	r5, [r4, #4]
	strb	r5, [r4, #3]
	strb	r5, [r4, #2]
	strb	r5, [r4, #1]
	strb	r5, [r4]
	subs	r1, #16
	str	r5, [r1]
	str	r5, [r1, #4]
	cmp	r0, #0
	beq	.LBB58_15
	lsrs	r1, r0, #29
	lsls	r6, r0, #3
	str	r6, [r4]
	str	r1, [sp, #60]
	str	r1, [r4, #4]
	ldr	r1, [sp, #80]
	muls	r0, r1, r0
	ldr	r1, [sp, #88]
	adds	r0, r1, r0
	ldr	r1, [sp, #64]
	lsls	r1, r1, #24
	beq	.LBB58_17
	subs	r0, #16
	str	r7, [r0]
	str	r3, [r0, #4]
	b	.LBB58_18
.LBB58_15:
	movs	r0, #0
	movs	r1, #1
	str	r1, [r4]
	str	r0, [r4, #4]
	mov	r6, r7
	b	.LBB58_43
.LBB58_16:
	add	r0, sp, #96
	ldr	r1, [sp, #60]
	ldr	r2, [sp, #72]
	bl	ic_raw.table.RawTable.refusal.19bacce014a8892a
	add	sp, #116
	pop	{r4, r5, r6, r7, pc}
.LBB58_17:
	subs	r0, #24
	str	r3, [r0, #4]
	ldr	r1, [r0]
	str	r6, [sp, #64]
	movs	r2, #1
	ands	r2, r1
	orrs	r2, r7
	str	r2, [r0]
	ldr	r6, [sp, #64]
.LBB58_18:
	ldr	r2, [sp, #84]
	ldr	r4, [sp, #92]
	lsrs	r0, r4, #29
	ldr	r1, [sp, #68]
	lsls	r1, r1, #3
	adds	r0, r1, r0
	str	r0, [sp, #72]
	lsls	r0, r4, #3
	str	r0, [sp, #68]
	movs	r1, #67
	mov	r4, r2
	b	.LBB58_20
.LBB58_19:
	mov	r0, r6
	str	r2, [sp, #60]
	orrs	r0, r2
	rsbs	r5, r0, #0
	adcs	r5, r0
	subs	r1, r1, #1
	ldr	r7, [sp, #56]
	ldr	r3, [sp, #52]
	bne	.LBB58_20
	b	.LBB58_42
.LBB58_20:
	lsls	r0, r5, #31
	beq	.LBB58_21
	b	.LBB58_42
.LBB58_21:
	mov	r2, r4
	str	r1, [sp, #48]
	str	r7, [sp, #32]
	lsrs	r5, r6, #3
	ldr	r0, [sp, #80]
	muls	r5, r0, r5
	ldr	r0, [sp, #88]
	adds	r4, r0, r5
	str	r4, [sp, #20]
	subs	r4, #8
	ldr	r7, [r4]
	lsls	r0, r7, #31
	beq	.LBB58_22
	b	.LBB58_42
.LBB58_22:
	str	r6, [sp, #64]
	str	r5, [sp, #16]
	str	r3, [sp, #24]
	str	r4, [sp, #44]
	ldr	r1, [r4, #4]
	mov	r4, r1
	mov	r0, r7
	ldr	r7, [sp, #76]
	ands	r4, r7
	mov	r3, r0
	ands	r3, r2
	movs	r5, #0
	str	r3, [sp, #56]
	subs	r3, r3, #1
	str	r4, [sp, #52]
	sbcs	r4, r5
	ldr	r6, [sp, #68]
	subs	r3, r3, r6
	ldr	r2, [sp, #72]
	sbcs	r4, r2
	blo	.LBB58_23
	b	.LBB58_42
.LBB58_23:
	str	r1, [sp, #40]
	str	r0, [sp, #36]
	lsrs	r3, r0, #3
	ldr	r4, [sp, #80]
	muls	r3, r4, r3
	ldr	r4, [sp, #88]
	adds	r3, r4, r3
	str	r3, [sp, #92]
	subs	r3, #24
	ldr	r1, [r3]
	str	r3, [sp, #12]
	ldr	r4, [r3, #4]
	ands	r4, r7
	mov	r7, r1
	mov	r3, r1
	ldr	r0, [sp, #84]
	ands	r3, r0
	subs	r6, r6, r3
	sbcs	r2, r4
	mov	r6, r5
	mov	r0, r5
	blo	.LBB58_25
	mov	r6, r3
.LBB58_25:
	blo	.LBB58_27
	mov	r0, r4
.LBB58_27:
	mov	r3, r0
	ldr	r4, [sp, #60]
	eors	r3, r4
	mov	r4, r6
	ldr	r5, [sp, #64]
	eors	r4, r5
	orrs	r4, r3
	bne	.LBB58_33
	ldr	r0, [sp, #92]
	subs	r0, #16
	ldm	r0!, {r3, r6}
	ldr	r4, [sp, #76]
	ands	r6, r4
	mov	r4, r3
	ldr	r5, [sp, #84]
	ands	r4, r5
	movs	r1, #0
	subs	r0, #8
	subs	r4, r4, #1
	sbcs	r6, r1
	ldr	r5, [sp, #68]
	subs	r4, r4, r5
	ldr	r4, [sp, #72]
	sbcs	r6, r4
	blo	.LBB58_29
	b	.LBB58_58
.LBB58_29:
	lsrs	r3, r3, #3
	ldr	r4, [sp, #80]
	muls	r3, r4, r3
	ldr	r4, [sp, #88]
	adds	r4, r4, r3
	subs	r4, #8
	ldr	r3, [r4]
	lsls	r3, r3, #31
	beq	.LBB58_30
	b	.LBB58_58
.LBB58_30:
	movs	r0, #1
	ldr	r1, [sp, #36]
	orrs	r1, r0
	ldr	r5, [sp, #92]
	subs	r5, #8
	ldr	r3, [r5]
	ldr	r6, [sp, #44]
	str	r1, [r6]
	ldr	r1, [r4]
	orrs	r1, r0
	str	r1, [r4]
	str	r5, [sp, #92]
	ldr	r4, [r5, #4]
	ldr	r1, [sp, #40]
	str	r1, [r6, #4]
	ldr	r6, [sp, #76]
	ands	r4, r6
	ldr	r1, [sp, #84]
	ands	r3, r1
	movs	r1, #0
	subs	r2, r3, #1
	sbcs	r4, r1
	ldr	r5, [sp, #68]
	subs	r2, r2, r5
	ldr	r7, [sp, #72]
	sbcs	r4, r7
	mov	r2, r0
	bhs	.LBB58_32
	mov	r2, r1
.LBB58_32:
	ldr	r3, [sp, #92]
	ldr	r1, [r3]
	bics	r1, r0
	adds	r0, r1, r2
	str	r0, [r3]
	ldr	r1, [r3, #4]
	b	.LBB58_38
.LBB58_33:
	orrs	r0, r6
	ldr	r2, [sp, #88]
	beq	.LBB58_44
	lsrs	r0, r6, #3
	ldr	r3, [sp, #80]
	muls	r0, r3, r0
	adds	r0, r2, r0
	subs	r0, #8
	ldr	r3, [r0]
	lsls	r3, r3, #31
	bne	.LBB58_44
	ldr	r4, [sp, #28]
	ldr	r1, [sp, #36]
	orrs	r1, r4
	ldr	r6, [sp, #92]
	subs	r6, #8
	ldr	r3, [r6]
	ldr	r5, [sp, #44]
	str	r1, [r5]
	ldr	r1, [r0]
	orrs	r1, r4
	str	r1, [r0]
	str	r6, [sp, #92]
	ldr	r1, [r6, #4]
	ldr	r0, [sp, #40]
	str	r0, [r5, #4]
	ldr	r6, [sp, #76]
	ands	r1, r6
	ldr	r0, [sp, #84]
	ands	r3, r0
	movs	r0, #0
	subs	r2, r3, #1
	sbcs	r1, r0
	ldr	r5, [sp, #68]
	subs	r2, r2, r5
	ldr	r7, [sp, #72]
	sbcs	r1, r7
	bhs	.LBB58_37
	mov	r4, r0
.LBB58_37:
	ldr	r2, [sp, #92]
	ldr	r0, [r2]
	ldr	r3, [sp, #28]
	bics	r0, r3
	adds	r0, r0, r4
	str	r0, [r2]
	ldr	r1, [r2, #4]
.LBB58_38:
	ands	r1, r6
	ldr	r4, [sp, #84]
	ands	r0, r4
	movs	r6, #0
	subs	r2, r5, r0
	mov	r2, r7
	sbcs	r2, r1
	mov	r2, r6
	blo	.LBB58_40
	mov	r2, r1
.LBB58_40:
	ldr	r1, [sp, #48]
	bhs	.LBB58_41
	b	.LBB58_19
.LBB58_41:
	mov	r6, r0
	b	.LBB58_19
.LBB58_42:
	ldr	r6, [sp, #8]
	ldr	r3, [sp, #4]
.LBB58_43:
	ldr	r0, [sp]
	str	r6, [r0]
	str	r3, [r0, #4]
	movs	r0, #0
	add	sp, #116
	pop	{r4, r5, r6, r7, pc}
.LBB58_44:
	ldr	r7, [sp, #20]
	subs	r7, #24
	ldr	r3, [r7]
	ldr	r0, [r7, #4]
	ldr	r1, [sp, #76]
	ands	r0, r1
	mov	r2, r3
	ldr	r5, [sp, #84]
	ands	r2, r5
	ldr	r1, [sp, #68]
	subs	r1, r1, r2
	ldr	r1, [sp, #72]
	sbcs	r1, r0
	blo	.LBB58_61
	str	r3, [sp, #48]
	mov	r1, r2
	ldr	r6, [sp, #32]
	eors	r1, r6
	mov	r4, r0
	ldr	r3, [sp, #24]
	eors	r4, r3
	orrs	r4, r1
	bne	.LBB58_61
	lsrs	r1, r6, #3
	ldr	r0, [sp, #80]
	muls	r1, r0, r1
	ldr	r0, [sp, #88]
	str	r1, [sp, #16]
	adds	r1, r0, r1
	str	r1, [sp, #40]
	subs	r1, #16
	ldm	r1!, {r2, r4}
	ldr	r0, [sp, #76]
	ands	r4, r0
	ands	r2, r5
	movs	r0, #0
	ldr	r5, [sp, #68]
	subs	r1, #8
	subs	r6, r5, r2
	ldr	r6, [sp, #72]
	sbcs	r6, r4
	mov	r6, r0
	blo	.LBB58_48
	mov	r6, r4
.LBB58_48:
	str	r6, [r7, #4]
	ldr	r3, [sp, #48]
	blo	.LBB58_50
	mov	r0, r2
.LBB58_50:
	movs	r4, #1
	ands	r3, r4
	orrs	r3, r0
	str	r3, [r7]
	orrs	r6, r0
	ldr	r2, [sp, #88]
	beq	.LBB58_52
	lsrs	r0, r0, #3
	ldr	r3, [sp, #80]
	muls	r0, r3, r0
	adds	r0, r2, r0
	subs	r0, #8
	ldr	r2, [sp, #60]
	str	r2, [r0, #4]
	ldr	r2, [r0]
	ands	r2, r4
	ldr	r3, [sp, #64]
	orrs	r2, r3
	str	r2, [r0]
.LBB58_52:
	str	r4, [sp, #48]
	ldr	r7, [sp, #40]
	mov	r0, r7
	subs	r0, #8
	ldr	r2, [sp, #56]
	str	r2, [r0]
	ldr	r2, [sp, #52]
	str	r2, [r0, #4]
	ldr	r0, [sp, #12]
	ldr	r2, [r0]
	ldr	r0, [r0, #4]
	ldr	r3, [sp, #76]
	ands	r0, r3
	mov	r3, r2
	ldr	r4, [sp, #84]
	ands	r3, r4
	movs	r4, #0
	subs	r6, r5, r3
	ldr	r6, [sp, #72]
	sbcs	r6, r0
	mov	r6, r4
	blo	.LBB58_54
	mov	r6, r3
.LBB58_54:
	blo	.LBB58_56
	mov	r4, r0
.LBB58_56:
	ldr	r0, [sp, #60]
	eors	r4, r0
	ldr	r0, [sp, #64]
	eors	r6, r0
	orrs	r6, r4
	beq	.LBB58_57
	b	.LBB58_96
.LBB58_57:
	ldr	r0, [sp, #48]
	ands	r2, r0
	ldr	r4, [sp, #32]
	orrs	r2, r4
	ldr	r0, [sp, #12]
	str	r2, [r0]
	b	.LBB58_97
.LBB58_58:
	str	r1, [sp, #48]
	ldr	r2, [sp, #20]
	subs	r2, #24
	ldm	r2, {r1, r2}
	ldr	r5, [sp, #76]
	ands	r2, r5
	ldr	r6, [sp, #84]
	ands	r1, r6
	ldr	r3, [sp, #68]
	subs	r3, r3, r1
	ldr	r3, [sp, #72]
	sbcs	r3, r2
	blo	.LBB58_62
	ldr	r3, [sp, #32]
	eors	r1, r3
	ldr	r3, [sp, #24]
	eors	r2, r3
	orrs	r2, r1
	bne	.LBB58_62
	ldr	r0, [sp, #64]
	str	r0, [sp, #32]
	ldr	r0, [sp, #60]
	str	r0, [sp, #24]
	ldr	r2, [sp, #88]
	ldr	r0, [sp, #16]
	ldr	r4, [sp, #12]
	b	.LBB58_76
.LBB58_61:
	ldr	r7, [sp, #64]
	ldr	r1, [sp, #60]
	str	r1, [sp, #24]
	ldr	r5, [sp, #68]
	b	.LBB58_98
.LBB58_62:
	ldr	r1, [sp, #32]
	lsrs	r2, r1, #3
	ldr	r1, [sp, #80]
	muls	r2, r1, r2
	ldr	r1, [sp, #88]
	str	r2, [sp, #16]
	adds	r2, r1, r2
	mov	r7, r2
	subs	r7, #24
	ldr	r4, [r7]
	mov	r1, r6
	ldr	r6, [r7, #4]
	ands	r6, r5
	ands	r4, r1
	ldr	r3, [sp, #20]
	subs	r3, #16
	ldr	r1, [sp, #68]
	subs	r1, r1, r4
	ldr	r1, [sp, #72]
	sbcs	r1, r6
	ldr	r1, [sp, #48]
	bhs	.LBB58_72
	str	r1, [r3]
	bhs	.LBB58_73
.LBB58_64:
	ldr	r4, [sp, #48]
	str	r4, [r3, #4]
	orrs	r4, r1
	beq	.LBB58_66
.LBB58_65:
	lsrs	r1, r1, #3
	ldr	r3, [sp, #80]
	muls	r1, r3, r1
	ldr	r3, [sp, #88]
	adds	r1, r3, r1
	subs	r1, #8
	ldr	r3, [sp, #60]
	str	r3, [r1, #4]
	ldr	r3, [r1]
	movs	r4, #1
	ands	r4, r3
	ldr	r3, [sp, #64]
	orrs	r4, r3
	str	r4, [r1]
.LBB58_66:
	subs	r2, #8
	ldr	r1, [sp, #56]
	str	r1, [r2]
	ldr	r1, [sp, #52]
	str	r1, [r2, #4]
	ldr	r1, [sp, #12]
	ldm	r1!, {r2, r4}
	ands	r4, r5
	mov	r1, r2
	ldr	r3, [sp, #84]
	ands	r1, r3
	movs	r3, #0
	ldr	r5, [sp, #68]
	subs	r6, r5, r1
	ldr	r6, [sp, #72]
	sbcs	r6, r4
	mov	r6, r3
	blo	.LBB58_68
	mov	r6, r1
.LBB58_68:
	blo	.LBB58_70
	mov	r3, r4
.LBB58_70:
	ldr	r1, [sp, #60]
	eors	r3, r1
	ldr	r1, [sp, #64]
	eors	r6, r1
	orrs	r6, r3
	bne	.LBB58_74
	movs	r0, #1
	ands	r2, r0
	ldr	r3, [sp, #32]
	orrs	r2, r3
	ldr	r4, [sp, #12]
	str	r2, [r4]
	ldr	r5, [sp, #24]
	str	r5, [r4, #4]
	ldr	r6, [sp, #84]
	ldr	r2, [sp, #88]
	b	.LBB58_75
.LBB58_72:
	mov	r1, r4
	str	r1, [r3]
	blo	.LBB58_64
.LBB58_73:
	str	r6, [sp, #48]
	ldr	r4, [sp, #48]
	str	r4, [r3, #4]
	orrs	r4, r1
	bne	.LBB58_65
	b	.LBB58_66
.LBB58_74:
	ldr	r3, [sp, #32]
	str	r3, [r0]
	ldr	r5, [sp, #24]
	str	r5, [r0, #4]
	ldr	r6, [sp, #84]
	ldr	r2, [sp, #88]
	ldr	r4, [sp, #12]
.LBB58_75:
	ldr	r0, [sp, #60]
	str	r0, [r7, #4]
	ldr	r0, [r7]
	movs	r1, #1
	ands	r1, r0
	ldr	r0, [sp, #64]
	orrs	r1, r0
	str	r1, [r7]
	ldr	r0, [sp, #44]
	stm	r0!, {r3, r5}
	ldr	r7, [r4]
	ldr	r0, [sp, #16]
.LBB58_76:
	adds	r2, r2, r0
	mov	r0, r2
	subs	r0, #16
	ldr	r1, [r0]
	str	r0, [sp, #60]
	ldr	r5, [r0, #4]
	ldr	r0, [sp, #76]
	ands	r5, r0
	ands	r1, r6
	movs	r0, #0
	ldr	r3, [sp, #68]
	subs	r3, r3, r1
	ldr	r3, [sp, #72]
	sbcs	r3, r5
	mov	r3, r0
	blo	.LBB58_78
	mov	r3, r5
.LBB58_78:
	str	r3, [r4, #4]
	mov	r5, r0
	blo	.LBB58_80
	mov	r5, r1
.LBB58_80:
	movs	r1, #1
	str	r1, [sp, #64]
	ands	r7, r1
	orrs	r7, r5
	str	r7, [r4]
	orrs	r3, r5
	ldr	r1, [sp, #92]
	subs	r1, #8
	ldr	r7, [r1]
	str	r1, [sp, #92]
	ldr	r6, [r1, #4]
	ldr	r1, [sp, #76]
	ands	r6, r1
	ldr	r1, [sp, #84]
	ands	r7, r1
	ldr	r1, [sp, #68]
	subs	r4, r1, r7
	ldr	r4, [sp, #72]
	sbcs	r4, r6
	mov	r4, r0
	bhs	.LBB58_91
	bhs	.LBB58_92
.LBB58_82:
	cmp	r3, #0
	ldr	r6, [sp, #64]
	beq	.LBB58_84
.LBB58_83:
	lsrs	r3, r5, #3
	ldr	r1, [sp, #80]
	muls	r3, r1, r3
	ldr	r1, [sp, #88]
	adds	r3, r1, r3
	subs	r3, #8
	ldr	r1, [sp, #52]
	str	r1, [r3, #4]
	ldr	r5, [r3]
	ands	r5, r6
	ldr	r1, [sp, #56]
	orrs	r5, r1
	str	r5, [r3]
.LBB58_84:
	subs	r2, #8
	mov	r3, r0
	orrs	r3, r6
	stm	r2!, {r3, r4}
	orrs	r4, r0
	ldr	r1, [sp, #32]
	mov	r6, r1
	ldr	r2, [sp, #24]
	mov	r3, r2
	ldr	r7, [sp, #72]
	beq	.LBB58_95
	lsrs	r0, r0, #3
	ldr	r1, [sp, #80]
	muls	r1, r0, r1
	ldr	r0, [sp, #88]
	adds	r3, r0, r1
	mov	r2, r3
	subs	r2, #24
	ldm	r2!, {r4, r6}
	ldr	r0, [sp, #76]
	ands	r6, r0
	ldr	r1, [sp, #84]
	ands	r1, r4
	movs	r5, #0
	ldr	r0, [sp, #68]
	subs	r2, #8
	subs	r0, r0, r1
	sbcs	r7, r6
	mov	r7, r5
	blo	.LBB58_87
	mov	r7, r1
.LBB58_87:
	ldr	r0, [sp, #4]
	blo	.LBB58_89
	mov	r5, r6
.LBB58_89:
	ldr	r1, [sp, #52]
	eors	r5, r1
	ldr	r1, [sp, #56]
	eors	r7, r1
	orrs	r7, r5
	bne	.LBB58_93
	ldr	r1, [sp, #64]
	ands	r4, r1
	ldr	r1, [sp, #32]
	orrs	r4, r1
	str	r4, [r2]
	ldr	r3, [sp, #24]
	str	r3, [r2, #4]
	mov	r2, r3
	b	.LBB58_94
.LBB58_91:
	mov	r4, r6
	blo	.LBB58_82
.LBB58_92:
	mov	r0, r7
	cmp	r3, #0
	ldr	r6, [sp, #64]
	bne	.LBB58_83
	b	.LBB58_84
.LBB58_93:
	subs	r3, #16
	ldr	r1, [sp, #32]
	str	r1, [r3]
	ldr	r2, [sp, #24]
	str	r2, [r3, #4]
.LBB58_94:
	ldr	r6, [sp, #8]
	mov	r3, r0
.LBB58_95:
	ldr	r0, [sp, #56]
	ldr	r4, [sp, #60]
	str	r0, [r4]
	ldr	r0, [sp, #52]
	str	r0, [r4, #4]
	ldr	r0, [sp, #92]
	stm	r0!, {r1, r2}
	b	.LBB58_43
.LBB58_96:
	ldr	r0, [sp, #92]
	subs	r0, #16
	ldr	r4, [sp, #32]
	str	r4, [r0]
.LBB58_97:
	ldr	r2, [sp, #24]
	str	r2, [r0, #4]
	ldr	r3, [sp, #84]
	ldr	r6, [sp, #76]
	ldr	r0, [sp, #64]
	str	r0, [r1]
	ldr	r0, [sp, #60]
	str	r0, [r1, #4]
	ldr	r0, [sp, #44]
	str	r4, [r0]
	str	r2, [r0, #4]
	subs	r7, #24
	ldr	r2, [r7]
	ldr	r0, [r7, #4]
	ands	r2, r3
	ands	r0, r6
	mov	r7, r4
.LBB58_98:
	ldr	r3, [sp, #92]
	subs	r3, #16
	movs	r1, #0
	subs	r4, r5, r2
	ldr	r4, [sp, #72]
	sbcs	r4, r0
	mov	r4, r1
	blo	.LBB58_100
	mov	r4, r0
.LBB58_100:
	str	r4, [r3, #4]
	mov	r0, r1
	blo	.LBB58_102
	mov	r0, r2
.LBB58_102:
	str	r0, [r3]
	ldr	r3, [sp, #92]
	subs	r3, #8
	ldr	r2, [r3]
	str	r3, [sp, #92]
	ldr	r6, [r3, #4]
	ldr	r3, [sp, #76]
	ands	r6, r3
	ldr	r3, [sp, #84]
	ands	r2, r3
	subs	r3, r5, r2
	ldr	r3, [sp, #72]
	sbcs	r3, r6
	mov	r3, r1
	blo	.LBB58_104
	mov	r3, r6
.LBB58_104:
	ldr	r5, [sp, #16]
	blo	.LBB58_106
	mov	r1, r2
.LBB58_106:
	orrs	r4, r0
	ldr	r2, [sp, #88]
	adds	r5, r2, r5
	cmp	r4, #0
	beq	.LBB58_108
	lsrs	r0, r0, #3
	ldr	r4, [sp, #80]
	muls	r0, r4, r0
	adds	r0, r2, r0
	subs	r0, #8
	ldr	r2, [sp, #52]
	str	r2, [r0, #4]
	ldr	r2, [r0]
	movs	r4, #1
	ands	r4, r2
	ldr	r2, [sp, #56]
	orrs	r4, r2
	str	r4, [r0]
.LBB58_108:
	mov	r0, r5
	subs	r0, #24
	subs	r5, #8
	movs	r2, #1
	mov	r4, r1
	orrs	r4, r2
	str	r4, [r5]
	str	r3, [r5, #4]
	orrs	r3, r1
	mov	r6, r7
	ldr	r4, [sp, #24]
	mov	r3, r4
	beq	.LBB58_116
	str	r2, [sp, #64]
	str	r7, [sp, #32]
	lsrs	r1, r1, #3
	ldr	r2, [sp, #80]
	muls	r2, r1, r2
	ldr	r1, [sp, #88]
	adds	r3, r1, r2
	mov	r1, r3
	subs	r1, #24
	ldm	r1!, {r4, r6}
	ldr	r2, [sp, #76]
	ands	r6, r2
	ldr	r2, [sp, #84]
	ands	r2, r4
	movs	r5, #0
	ldr	r7, [sp, #68]
	subs	r1, #8
	subs	r7, r7, r2
	ldr	r7, [sp, #72]
	sbcs	r7, r6
	mov	r7, r5
	blo	.LBB58_111
	mov	r7, r2
.LBB58_111:
	blo	.LBB58_113
	mov	r5, r6
.LBB58_113:
	ldr	r2, [sp, #52]
	eors	r5, r2
	ldr	r2, [sp, #56]
	eors	r7, r2
	orrs	r7, r5
	bne	.LBB58_115
	ldr	r2, [sp, #64]
	ands	r4, r2
	ldr	r7, [sp, #32]
	orrs	r4, r7
	str	r4, [r1]
	ldr	r4, [sp, #24]
	str	r4, [r1, #4]
	ldr	r6, [sp, #8]
	ldr	r3, [sp, #4]
	b	.LBB58_116
.LBB58_115:
	subs	r3, #16
	ldr	r7, [sp, #32]
	str	r7, [r3]
	ldr	r4, [sp, #24]
	str	r4, [r3, #4]
	ldr	r6, [sp, #8]
	ldr	r3, [sp, #4]
	ldr	r2, [sp, #64]
.LBB58_116:
	ldr	r1, [sp, #52]
	str	r1, [r0, #4]
	ldr	r1, [r0]
	ands	r1, r2
	ldr	r2, [sp, #56]
	orrs	r1, r2
	str	r1, [r0]
	ldr	r0, [sp, #92]
	str	r7, [r0]
	str	r4, [r0, #4]
	b	.LBB58_43
.Lfunc_end58:
	.size	ic_raw.tree_calls.insert_at, .Lfunc_end58-ic_raw.tree_calls.insert_at
	.cfi_endproc
	.section	.text.ic_raw_keyed.ends_calls.remove,"ax",%progbits
	.p2align	1
	.type	ic_raw_keyed.ends_calls.remove,%function
	.code	16
	.thumb_func
ic_raw_keyed.ends_calls.remove:
	.cfi_startproc
	push	{r4, r5, r6, r7, lr}
	.cfi_def_cfa_offset 20
	.cfi_offset lr, -4
	.cfi_offset r7, -8
	.cfi_offset r6, -12
	.cfi_offset r5, -16
	.cfi_offset r4, -20
	sub	sp, #92
	.cfi_def_cfa_offset 112
	ldr	r1, [sp, #120]
	adds	r4, r1, #1
	blo	.LBB59_2
	movs	r0, #4
	add	sp, #92
	pop	{r4, r5, r6, r7, pc}
.LBB59_2:
	str	r1, [sp, #40]
	str	r0, [sp, #88]
	lsrs	r1, r4, #29
	str	r4, [sp, #48]
	lsls	r4, r4, #3
	ldr	r7, [sp, #116]
	ldr	r0, [sp, #112]
	str	r0, [sp, #56]
	ldr	r6, [r7]
	ldr	r0, [r7, #4]
	movs	r5, #15
	str	r5, [sp, #84]
	ands	r0, r5
	mov	r5, r7
	str	r0, [sp, #76]
	str	r1, [sp, #64]
	eors	r0, r1
	movs	r1, #7
	bics	r6, r1
	str	r2, [sp, #72]
	str	r6, [sp, #68]
	mov	r2, r6
	str	r4, [sp, #60]
	eors	r2, r4
	orrs	r2, r0
	mvns	r0, r1
	str	r0, [sp, #80]
	cmp	r2, #0
	ldr	r2, [sp, #72]
	beq	.LBB59_3
	b	.LBB59_33
.LBB59_3:
	movs	r7, #0
	ldr	r0, [sp, #48]
	subs	r0, r2, r0
	mov	r0, r3
	sbcs	r0, r7
	bhs	.LBB59_5
	mov	r6, r7
	mov	r4, r7
	b	.LBB59_29
.LBB59_5:
	ldr	r0, [sp, #56]
	ldr	r1, [r0]
	mov	r4, r2
	ldr	r2, [r0, #4]
	ldr	r0, [sp, #84]
	ands	r2, r0
	ldr	r0, [sp, #80]
	ands	r1, r0
	str	r3, [sp, #28]
	mov	r3, r1
	orrs	r3, r2
	rsbs	r0, r3, #0
	adcs	r0, r3
	lsls	r3, r2, #29
	lsrs	r1, r1, #3
	adds	r1, r1, r3
	ldr	r3, [sp, #28]
	lsrs	r2, r2, #3
	movs	r6, #1
	movs	r7, #0
	subs	r1, r4, r1
	mov	r1, r3
	sbcs	r1, r2
	str	r6, [sp, #20]
	ldr	r2, [sp, #88]
	bhs	.LBB59_7
	mov	r6, r7
.LBB59_7:
	orrs	r0, r6
	cmp	r0, #1
	bne	.LBB59_16
	str	r5, [sp, #12]
	movs	r0, #24
	str	r0, [sp, #44]
	ldr	r1, [sp, #48]
	muls	r0, r1, r0
	adds	r0, r2, r0
	mov	r1, r0
	subs	r1, #16
	ldr	r4, [r1]
	ldr	r2, [r1, #4]
	ldr	r1, [sp, #84]
	ands	r2, r1
	ldr	r1, [sp, #80]
	ands	r4, r1
	movs	r7, #0
	str	r4, [sp, #68]
	subs	r1, r4, #1
	str	r2, [sp, #76]
	sbcs	r2, r7
	mov	r4, r3
	ldr	r6, [sp, #72]
	lsrs	r3, r6, #29
	lsls	r4, r4, #3
	adds	r3, r4, r3
	lsls	r6, r6, #3
	subs	r1, r1, r6
	sbcs	r2, r3
	str	r3, [sp, #36]
	bhs	.LBB59_17
	str	r6, [sp, #52]
	movs	r0, #64
	str	r0, [sp, #24]
	ldr	r1, [sp, #88]
	ldr	r6, [sp, #84]
	ldr	r7, [sp, #44]
.LBB59_10:
	ldr	r0, [sp, #68]
	lsrs	r0, r0, #3
	muls	r0, r7, r0
	adds	r0, r1, r0
	subs	r0, #24
	ldr	r2, [r0]
	ldr	r0, [r0, #4]
	ands	r0, r6
	mov	r1, r2
	ldr	r5, [sp, #80]
	ands	r1, r5
	movs	r7, #0
	subs	r3, r1, #1
	mov	r4, r0
	str	r7, [sp, #32]
	sbcs	r4, r7
	ldr	r7, [sp, #52]
	subs	r3, r3, r7
	ldr	r7, [sp, #36]
	sbcs	r4, r7
	blo	.LBB59_11
	b	.LBB59_27
.LBB59_11:
	lsrs	r2, r2, #3
	ldr	r3, [sp, #44]
	muls	r2, r3, r2
	ldr	r3, [sp, #88]
	adds	r3, r3, r2
	subs	r3, #24
	ldm	r3!, {r2, r4}
	ands	r4, r6
	mov	r3, r2
	ands	r3, r5
	str	r3, [sp, #68]
	subs	r3, r3, #1
	str	r4, [sp, #76]
	ldr	r6, [sp, #32]
	sbcs	r4, r6
	ldr	r6, [sp, #52]
	subs	r3, r3, r6
	sbcs	r4, r7
	bhs	.LBB59_24
	lsrs	r0, r2, #3
	ldr	r1, [sp, #44]
	muls	r0, r1, r0
	ldr	r1, [sp, #88]
	adds	r0, r1, r0
	subs	r0, #24
	ldr	r2, [r0]
	ldr	r0, [r0, #4]
	ldr	r1, [sp, #84]
	ands	r0, r1
	mov	r1, r2
	ands	r1, r5
	subs	r3, r1, #1
	mov	r4, r0
	ldr	r5, [sp, #32]
	sbcs	r4, r5
	ldr	r6, [sp, #52]
	subs	r3, r3, r6
	sbcs	r4, r7
	ldr	r7, [sp, #44]
	bhs	.LBB59_27
	ldr	r3, [sp, #24]
	cmp	r3, #0
	beq	.LBB59_24
	lsrs	r2, r2, #3
	muls	r2, r7, r2
	ldr	r3, [sp, #88]
	adds	r2, r3, r2
	subs	r2, #24
	ldm	r2!, {r3, r4}
	ldr	r2, [sp, #84]
	mov	r6, r2
	ands	r4, r2
	ldr	r2, [sp, #80]
	ands	r3, r2
	str	r3, [sp, #68]
	subs	r3, r3, #1
	str	r3, [sp, #76]
	mov	r3, r4
	sbcs	r3, r5
	ldr	r2, [sp, #52]
	ldr	r5, [sp, #76]
	subs	r2, r5, r2
	ldr	r2, [sp, #36]
	sbcs	r3, r2
	bhs	.LBB59_24
	str	r4, [sp, #76]
	ldr	r0, [sp, #24]
	subs	r0, r0, #4
	str	r0, [sp, #24]
	ldr	r1, [sp, #88]
	b	.LBB59_10
.LBB59_16:
	mov	r6, r7
	mov	r4, r7
	ldr	r2, [sp, #72]
	b	.LBB59_29
.LBB59_17:
	subs	r0, #8
	ldr	r4, [r0]
	ldr	r1, [r0, #4]
	ldr	r5, [sp, #84]
	ands	r1, r5
	ldr	r0, [sp, #80]
	ands	r4, r0
	subs	r0, r4, #1
	mov	r2, r1
	sbcs	r2, r7
	subs	r0, r0, r6
	sbcs	r2, r3
	bhs	.LBB59_25
	str	r6, [sp, #52]
	movs	r0, #66
	mvns	r0, r0
	ldr	r3, [sp, #60]
	ldr	r2, [sp, #64]
.LBB59_19:
	str	r1, [sp, #76]
	mov	r1, r4
	rsbs	r4, r0, #0
	adcs	r4, r0
	str	r1, [sp, #68]
	lsrs	r1, r1, #3
	ldr	r6, [sp, #44]
	muls	r1, r6, r1
	ldr	r6, [sp, #88]
	adds	r1, r6, r1
	mov	r6, r1
	subs	r6, #16
	ldr	r7, [r6]
	ldr	r6, [r6, #4]
	ands	r6, r5
	eors	r6, r2
	ldr	r2, [sp, #80]
	ands	r7, r2
	eors	r7, r3
	orrs	r7, r6
	ldr	r7, [sp, #20]
	bne	.LBB59_21
	mov	r7, r4
.LBB59_21:
	cmp	r7, #0
	bne	.LBB59_28
	str	r7, [sp, #32]
	subs	r1, #8
	ldr	r4, [r1]
	ldr	r1, [r1, #4]
	ldr	r5, [sp, #84]
	ands	r1, r5
	ands	r4, r2
	movs	r6, #0
	subs	r2, r4, #1
	mov	r3, r1
	sbcs	r3, r6
	adds	r0, r0, #1
	ldr	r7, [sp, #52]
	subs	r2, r2, r7
	ldr	r2, [sp, #36]
	sbcs	r3, r2
	ldr	r3, [sp, #68]
	ldr	r2, [sp, #76]
	blo	.LBB59_19
	mov	r4, r6
	ldr	r5, [sp, #12]
	ldr	r3, [sp, #28]
	ldr	r2, [sp, #72]
	ldr	r7, [sp, #32]
	b	.LBB59_29
.LBB59_24:
	ldr	r7, [sp, #20]
	mov	r6, r1
	mov	r4, r0
	b	.LBB59_26
.LBB59_25:
	mov	r6, r7
	mov	r4, r7
.LBB59_26:
	ldr	r3, [sp, #28]
	ldr	r2, [sp, #72]
	ldr	r5, [sp, #12]
	b	.LBB59_29
.LBB59_27:
	ldr	r7, [sp, #20]
	ldr	r3, [sp, #28]
	ldr	r2, [sp, #72]
	ldr	r4, [sp, #76]
	ldr	r6, [sp, #68]
	ldr	r5, [sp, #12]
	b	.LBB59_29
.LBB59_28:
	ldr	r6, [sp, #68]
	ldr	r5, [sp, #12]
	ldr	r3, [sp, #28]
	ldr	r2, [sp, #72]
	ldr	r4, [sp, #76]
.LBB59_29:
	str	r6, [sp, #68]
	mov	r0, r6
	ldr	r1, [sp, #60]
	eors	r0, r1
	str	r4, [sp, #76]
	mov	r1, r4
	ldr	r4, [sp, #64]
	eors	r1, r4
	orrs	r1, r0
	bne	.LBB59_30
	b	.LBB59_69
.LBB59_30:
	cmp	r7, #0
	beq	.LBB59_33
	ldr	r0, [sp, #68]
	lsrs	r0, r0, #3
	ldr	r2, [sp, #76]
	lsls	r1, r2, #29
	adds	r0, r0, r1
	lsrs	r1, r2, #3
	ldr	r2, [sp, #72]
	subs	r2, r2, r0
	mov	r2, r3
	sbcs	r2, r1
	ldr	r2, [sp, #72]
	bhs	.LBB59_32
	b	.LBB59_69
.LBB59_32:
	movs	r1, #24
	muls	r1, r0, r1
	ldr	r0, [sp, #88]
	adds	r0, r0, r1
	subs	r0, #24
	ldrb	r0, [r0]
	lsls	r0, r0, #31
	bne	.LBB59_33
	b	.LBB59_69
.LBB59_33:
	ldr	r4, [r5, #8]
	ldr	r6, [r5, #12]
	ldr	r0, [sp, #84]
	ands	r6, r0
	mov	r0, r6
	ldr	r1, [sp, #64]
	eors	r0, r1
	ldr	r1, [sp, #80]
	ands	r4, r1
	mov	r1, r4
	ldr	r7, [sp, #60]
	eors	r1, r7
	orrs	r1, r0
	beq	.LBB59_34
	b	.LBB59_66
.LBB59_34:
	movs	r6, #0
	ldr	r7, [sp, #48]
	subs	r0, r2, r7
	mov	r0, r3
	sbcs	r0, r6
	bhs	.LBB59_36
	mov	r4, r6
	str	r6, [sp, #44]
	b	.LBB59_62
.LBB59_36:
	ldr	r0, [sp, #56]
	ldm	r0!, {r1, r2}
	ldr	r0, [sp, #84]
	ands	r2, r0
	ldr	r0, [sp, #80]
	ands	r1, r0
	str	r3, [sp, #28]
	mov	r3, r1
	orrs	r3, r2
	rsbs	r0, r3, #0
	adcs	r0, r3
	lsls	r3, r2, #29
	lsrs	r1, r1, #3
	adds	r1, r1, r3
	ldr	r3, [sp, #28]
	lsrs	r2, r2, #3
	movs	r6, #1
	movs	r4, #0
	str	r4, [sp, #44]
	ldr	r4, [sp, #72]
	subs	r1, r4, r1
	mov	r1, r3
	sbcs	r1, r2
	str	r6, [sp, #20]
	bhs	.LBB59_38
	ldr	r6, [sp, #44]
.LBB59_38:
	orrs	r0, r6
	cmp	r0, #1
	beq	.LBB59_39
	b	.LBB59_47
.LBB59_39:
	str	r5, [sp, #12]
	movs	r0, #24
	str	r0, [sp, #36]
	muls	r7, r0, r7
	ldr	r0, [sp, #88]
	adds	r1, r0, r7
	mov	r0, r1
	subs	r0, #24
	ldm	r0!, {r4, r6}
	ldr	r0, [sp, #84]
	ands	r6, r0
	ldr	r0, [sp, #80]
	ands	r4, r0
	movs	r7, #0
	subs	r0, r4, #1
	mov	r2, r6
	str	r7, [sp, #44]
	sbcs	r2, r7
	mov	r5, r3
	ldr	r7, [sp, #72]
	lsrs	r3, r7, #29
	lsls	r5, r5, #3
	adds	r3, r5, r3
	lsls	r7, r7, #3
	subs	r0, r0, r7
	sbcs	r2, r3
	str	r3, [sp, #48]
	str	r7, [sp, #52]
	bhs	.LBB59_48
	movs	r0, #64
	str	r0, [sp, #32]
	ldr	r7, [sp, #36]
.LBB59_41:
	lsrs	r0, r4, #3
	muls	r0, r7, r0
	ldr	r1, [sp, #88]
	adds	r0, r1, r0
	subs	r0, #16
	ldm	r0!, {r3, r7}
	ldr	r0, [sp, #84]
	ands	r7, r0
	mov	r2, r3
	ldr	r0, [sp, #80]
	ands	r2, r0
	movs	r0, #0
	subs	r1, r2, #1
	str	r1, [sp, #24]
	mov	r1, r7
	str	r0, [sp, #44]
	sbcs	r1, r0
	ldr	r5, [sp, #52]
	ldr	r0, [sp, #24]
	subs	r5, r0, r5
	ldr	r5, [sp, #48]
	sbcs	r1, r5
	blo	.LBB59_42
	b	.LBB59_56
.LBB59_42:
	lsrs	r1, r3, #3
	ldr	r3, [sp, #36]
	muls	r1, r3, r1
	ldr	r3, [sp, #88]
	adds	r1, r3, r1
	subs	r1, #16
	ldm	r1!, {r4, r6}
	ldr	r1, [sp, #84]
	ands	r6, r1
	str	r4, [sp, #16]
	ldr	r1, [sp, #80]
	ands	r4, r1
	subs	r0, r4, #1
	str	r0, [sp, #24]
	mov	r5, r6
	ldr	r0, [sp, #44]
	sbcs	r5, r0
	ldr	r1, [sp, #52]
	ldr	r3, [sp, #24]
	subs	r1, r3, r1
	ldr	r1, [sp, #48]
	sbcs	r5, r1
	blo	.LBB59_43
	b	.LBB59_59
.LBB59_43:
	ldr	r1, [sp, #16]
	lsrs	r1, r1, #3
	ldr	r2, [sp, #36]
	muls	r1, r2, r1
	ldr	r2, [sp, #88]
	adds	r1, r2, r1
	subs	r1, #16
	ldr	r3, [r1]
	ldr	r1, [r1, #4]
	ldr	r2, [sp, #84]
	ands	r1, r2
	mov	r2, r3
	ldr	r5, [sp, #80]
	ands	r2, r5
	subs	r5, r2, #1
	mov	r7, r1
	sbcs	r7, r0
	ldr	r0, [sp, #52]
	subs	r5, r5, r0
	ldr	r0, [sp, #48]
	sbcs	r7, r0
	bhs	.LBB59_56
	ldr	r0, [sp, #32]
	cmp	r0, #0
	beq	.LBB59_57
	lsrs	r3, r3, #3
	ldr	r7, [sp, #36]
	muls	r3, r7, r3
	ldr	r4, [sp, #88]
	adds	r3, r4, r3
	subs	r3, #16
	ldm	r3!, {r4, r6}
	ldr	r0, [sp, #84]
	ands	r6, r0
	ldr	r0, [sp, #80]
	ands	r4, r0
	subs	r3, r4, #1
	mov	r5, r6
	ldr	r0, [sp, #44]
	sbcs	r5, r0
	ldr	r0, [sp, #52]
	subs	r0, r3, r0
	ldr	r0, [sp, #48]
	sbcs	r5, r0
	bhs	.LBB59_57
	ldr	r0, [sp, #32]
	subs	r0, r0, #4
	str	r0, [sp, #32]
	b	.LBB59_41
.LBB59_47:
	ldr	r6, [sp, #44]
	mov	r4, r6
	b	.LBB59_61
.LBB59_48:
	subs	r1, #8
	ldm	r1!, {r0, r5}
	ldr	r1, [sp, #84]
	ands	r5, r1
	ldr	r1, [sp, #80]
	ands	r0, r1
	subs	r1, r0, #1
	mov	r2, r5
	ldr	r6, [sp, #44]
	sbcs	r2, r6
	subs	r1, r1, r7
	sbcs	r2, r3
	bhs	.LBB59_55
	movs	r1, #66
	mvns	r2, r1
	ldr	r1, [sp, #60]
	ldr	r3, [sp, #64]
.LBB59_50:
	mov	r6, r5
	mov	r4, r0
	rsbs	r0, r2, #0
	adcs	r0, r2
	str	r0, [sp, #44]
	str	r4, [sp, #32]
	lsrs	r4, r4, #3
	ldr	r5, [sp, #36]
	muls	r4, r5, r4
	ldr	r5, [sp, #88]
	adds	r4, r5, r4
	mov	r5, r4
	subs	r5, #24
	ldr	r7, [r5]
	ldr	r5, [r5, #4]
	ldr	r0, [sp, #84]
	ands	r5, r0
	eors	r5, r3
	ldr	r3, [sp, #80]
	ands	r7, r3
	eors	r7, r1
	orrs	r7, r5
	ldr	r1, [sp, #20]
	bne	.LBB59_52
	ldr	r1, [sp, #44]
.LBB59_52:
	str	r1, [sp, #44]
	cmp	r1, #0
	ldr	r7, [sp, #52]
	bne	.LBB59_58
	subs	r4, #8
	ldm	r4!, {r0, r5}
	ldr	r1, [sp, #84]
	ands	r5, r1
	ldr	r1, [sp, #80]
	ands	r0, r1
	movs	r4, #0
	subs	r1, r0, #1
	mov	r3, r5
	sbcs	r3, r4
	adds	r2, r2, #1
	subs	r1, r1, r7
	ldr	r1, [sp, #48]
	sbcs	r3, r1
	ldr	r1, [sp, #32]
	mov	r3, r6
	blo	.LBB59_50
	mov	r6, r4
	b	.LBB59_60
.LBB59_55:
	mov	r4, r6
	b	.LBB59_60
.LBB59_56:
	ldr	r0, [sp, #20]
	str	r0, [sp, #44]
	b	.LBB59_60
.LBB59_57:
	ldr	r0, [sp, #20]
	str	r0, [sp, #44]
	mov	r4, r2
	mov	r6, r1
	b	.LBB59_60
.LBB59_58:
	ldr	r4, [sp, #32]
	b	.LBB59_60
.LBB59_59:
	ldr	r0, [sp, #20]
	str	r0, [sp, #44]
	mov	r4, r2
	mov	r6, r7
.LBB59_60:
	ldr	r5, [sp, #12]
	ldr	r3, [sp, #28]
.LBB59_61:
	ldr	r2, [sp, #72]
.LBB59_62:
	mov	r0, r4
	ldr	r1, [sp, #60]
	eors	r0, r1
	mov	r1, r6
	ldr	r7, [sp, #64]
	eors	r1, r7
	orrs	r1, r0
	beq	.LBB59_69
	ldr	r0, [sp, #44]
	cmp	r0, #0
	beq	.LBB59_66
	lsrs	r0, r4, #3
	lsls	r1, r6, #29
	adds	r0, r0, r1
	lsrs	r1, r6, #3
	ldr	r2, [sp, #72]
	subs	r2, r2, r0
	mov	r2, r3
	sbcs	r2, r1
	ldr	r2, [sp, #72]
	blo	.LBB59_69
	movs	r1, #24
	muls	r1, r0, r1
	ldr	r0, [sp, #88]
	adds	r0, r0, r1
	subs	r0, #24
	ldrb	r0, [r0]
	lsls	r0, r0, #31
	beq	.LBB59_69
.LBB59_66:
	ldr	r0, [sp, #56]
	str	r0, [sp]
	ldr	r0, [sp, #40]
	str	r0, [sp, #4]
	ldr	r0, [sp, #88]
	bl	ic_raw.tree_calls.remove
	cmp	r0, #0
	beq	.LBB59_68
	add	sp, #92
	pop	{r4, r5, r6, r7, pc}
.LBB59_68:
	strb	r4, [r5, #8]
	ldr	r2, [sp, #68]
	strb	r2, [r5]
	strb	r6, [r5, #12]
	lsrs	r0, r4, #24
	strb	r0, [r5, #11]
	lsrs	r0, r4, #16
	strb	r0, [r5, #10]
	lsrs	r0, r4, #8
	strb	r0, [r5, #9]
	ldr	r1, [sp, #76]
	strb	r1, [r5, #4]
	lsrs	r0, r2, #24
	strb	r0, [r5, #3]
	lsrs	r0, r2, #16
	strb	r0, [r5, #2]
	lsrs	r0, r2, #8
	strb	r0, [r5, #1]
	lsrs	r0, r6, #24
	strb	r0, [r5, #15]
	lsrs	r0, r6, #16
	strb	r0, [r5, #14]
	lsrs	r0, r6, #8
	strb	r0, [r5, #13]
	lsrs	r0, r1, #24
	strb	r0, [r5, #7]
	lsrs	r0, r1, #16
	strb	r0, [r5, #6]
	lsrs	r0, r1, #8
	strb	r0, [r5, #5]
	movs	r0, #0
	add	sp, #92
	pop	{r4, r5, r6, r7, pc}
.LBB59_69:
	ldr	r0, [sp, #60]
	str	r0, [sp]
	ldr	r0, [sp, #64]
	str	r0, [sp, #4]
	ldr	r0, [sp, #88]
	bl	ic_raw.table.RawTable.refusal_of.59019f4869331413
	add	sp, #92
	pop	{r4, r5, r6, r7, pc}
.Lfunc_end59:
	.size	ic_raw_keyed.ends_calls.remove, .Lfunc_end59-ic_raw_keyed.ends_calls.remove
	.cfi_endproc
	.section	.text.unlikely.ic_raw.table.RawTable.refusal_of.59019f4869331413,"ax",%progbits
	.p2align	1
	.type	ic_raw.table.RawTable.refusal_of.59019f4869331413,%function
	.code	16
	.thumb_func
ic_raw.table.RawTable.refusal_of.59019f4869331413:
	.cfi_startproc
	push	{r4, r5, r7, lr}
	.cfi_def_cfa_offset 16
	.cfi_offset lr, -4
	.cfi_offset r7, -8
	.cfi_offset r5, -12
	.cfi_offset r4, -16
	ldr	r4, [sp, #20]
	lsls	r1, r4, #29
	ldr	r5, [sp, #16]
	lsrs	r5, r5, #3
	adds	r1, r5, r1
	lsrs	r4, r4, #3
	subs	r2, r2, r1
	sbcs	r3, r4
	bhs	.LBB60_2
	movs	r0, #1
	pop	{r4, r5, r7, pc}
.LBB60_2:
	movs	r2, #24
	muls	r2, r1, r2
	adds	r0, r0, r2
	subs	r0, #24
	ldrb	r0, [r0]
	lsls	r0, r0, #31
	beq	.LBB60_4
	movs	r0, #5
	pop	{r4, r5, r7, pc}
.LBB60_4:
	movs	r0, #3
	pop	{r4, r5, r7, pc}
.Lfunc_end60:
	.size	ic_raw.table.RawTable.refusal_of.59019f4869331413, .Lfunc_end60-ic_raw.table.RawTable.refusal_of.59019f4869331413
	.cfi_endproc
	.section	.text.ic_raw.tree_calls.remove,"ax",%progbits
	.p2align	1
	.type	ic_raw.tree_calls.remove,%function
	.code	16
	.thumb_func
ic_raw.tree_calls.remove:
	.cfi_startproc
	push	{r4, r5, r6, r7, lr}
	.cfi_def_cfa_offset 20
	.cfi_offset lr, -4
	.cfi_offset r7, -8
	.cfi_offset r6, -12
	.cfi_offset r5, -16
	.cfi_offset r4, -20
	sub	sp, #108
	.cfi_def_cfa_offset 128
	ldr	r1, [sp, #132]
	adds	r7, r1, #1
	blo	.LBB61_2
	movs	r0, #4
	add	sp, #108
	pop	{r4, r5, r6, r7, pc}
.LBB61_2:
	str	r1, [sp, #68]
	str	r0, [sp, #104]
	movs	r0, #0
	subs	r1, r2, r7
	str	r3, [sp, #88]
	mov	r1, r3
	str	r0, [sp, #80]
	sbcs	r1, r0
	bhs	.LBB61_3
	b	.LBB61_31
.LBB61_3:
	movs	r1, #24
	str	r1, [sp, #84]
	muls	r1, r7, r1
	ldr	r0, [sp, #104]
	adds	r1, r0, r1
	str	r1, [sp, #56]
	subs	r1, #24
	str	r1, [sp, #52]
	ldr	r0, [r1]
	str	r0, [sp, #76]
	lsls	r1, r0, #31
	bne	.LBB61_4
	b	.LBB61_31
.LBB61_4:
	ldr	r1, [sp, #128]
	ldr	r5, [r1]
	str	r1, [sp, #40]
	ldr	r4, [r1, #4]
	movs	r0, #15
	str	r0, [sp, #100]
	ands	r4, r0
	movs	r1, #7
	mov	r0, r5
	bics	r0, r1
	str	r0, [sp, #44]
	subs	r0, r0, #1
	str	r4, [sp, #48]
	ldr	r3, [sp, #80]
	sbcs	r4, r3
	lsrs	r6, r2, #29
	ldr	r3, [sp, #88]
	lsls	r3, r3, #3
	adds	r6, r3, r6
	lsls	r3, r2, #3
	str	r3, [sp, #96]
	subs	r3, r0, r3
	sbcs	r4, r6
	blo	.LBB61_5
	b	.LBB61_31
.LBB61_5:
	lsrs	r3, r5, #3
	ldr	r0, [sp, #84]
	muls	r3, r0, r3
	ldr	r0, [sp, #104]
	adds	r3, r0, r3
	subs	r3, #24
	ldrb	r3, [r3]
	lsls	r3, r3, #31
	bne	.LBB61_6
	b	.LBB61_31
.LBB61_6:
	lsrs	r5, r7, #29
	lsls	r4, r7, #3
	mvns	r3, r1
	ldr	r0, [sp, #52]
	ldr	r0, [r0, #4]
	str	r0, [sp, #72]
	ldr	r0, [sp, #44]
	str	r4, [sp, #36]
	eors	r0, r4
	ldr	r1, [sp, #48]
	str	r5, [sp, #32]
	eors	r1, r5
	orrs	r1, r0
	ldr	r7, [sp, #56]
	subs	r7, #8
	ldm	r7!, {r4, r5}
	ldr	r0, [sp, #100]
	ands	r5, r0
	mov	r0, r4
	ands	r0, r3
	subs	r7, #8
	cmp	r1, #0
	beq	.LBB61_8
	mov	r1, r0
	orrs	r1, r5
	bne	.LBB61_8
	b	.LBB61_31
.LBB61_8:
	str	r5, [sp, #64]
	str	r0, [sp, #68]
	str	r7, [sp, #20]
	str	r4, [sp, #28]
	str	r3, [sp, #88]
	ldr	r4, [sp, #100]
	ldr	r3, [sp, #72]
	ands	r3, r4
	ldr	r0, [sp, #88]
	ldr	r1, [sp, #76]
	ands	r1, r0
	str	r1, [sp, #76]
	subs	r2, r1, #1
	str	r3, [sp, #72]
	ldr	r5, [sp, #80]
	sbcs	r3, r5
	ldr	r0, [sp, #56]
	subs	r0, #16
	mov	r7, r6
	ldr	r6, [r0]
	str	r0, [sp, #56]
	ldr	r1, [r0, #4]
	ands	r1, r4
	ldr	r0, [sp, #88]
	ands	r6, r0
	ldr	r0, [sp, #96]
	subs	r2, r2, r0
	sbcs	r3, r7
	str	r7, [sp, #92]
	bhs	.LBB61_15
	movs	r2, #0
	subs	r3, r6, #1
	mov	r4, r1
	str	r2, [sp, #80]
	sbcs	r4, r2
	subs	r3, r3, r0
	sbcs	r4, r7
	ldr	r4, [sp, #88]
	bhs	.LBB61_20
	movs	r0, #66
.LBB61_11:
	lsrs	r2, r6, #3
	ldr	r3, [sp, #84]
	muls	r2, r3, r2
	ldr	r3, [sp, #104]
	adds	r7, r3, r2
	mov	r2, r7
	subs	r2, #24
	ldr	r5, [r2]
	ldr	r3, [r2, #4]
	ldr	r2, [sp, #100]
	ands	r3, r2
	mov	r2, r5
	ands	r2, r4
	str	r2, [sp, #64]
	subs	r2, r2, #1
	str	r3, [sp, #60]
	ldr	r4, [sp, #80]
	sbcs	r3, r4
	ldr	r4, [sp, #96]
	subs	r2, r2, r4
	ldr	r4, [sp, #88]
	ldr	r2, [sp, #92]
	sbcs	r3, r2
	blo	.LBB61_12
	b	.LBB61_37
.LBB61_12:
	cmp	r0, #0
	bne	.LBB61_13
	b	.LBB61_36
.LBB61_13:
	lsrs	r1, r5, #3
	ldr	r2, [sp, #84]
	muls	r1, r2, r1
	ldr	r2, [sp, #104]
	adds	r7, r2, r1
	mov	r1, r7
	subs	r1, #24
	ldr	r5, [r1]
	ldr	r3, [r1, #4]
	ldr	r1, [sp, #100]
	ands	r3, r1
	ands	r5, r4
	movs	r1, #0
	subs	r6, r5, #1
	mov	r2, r3
	sbcs	r2, r1
	ldr	r1, [sp, #96]
	subs	r1, r6, r1
	ldr	r1, [sp, #92]
	sbcs	r2, r1
	ldr	r6, [sp, #64]
	ldr	r1, [sp, #60]
	blo	.LBB61_14
	b	.LBB61_37
.LBB61_14:
	subs	r0, r0, #2
	mov	r6, r5
	mov	r1, r3
	b	.LBB61_11
.LBB61_15:
	subs	r2, r0, r6
	sbcs	r7, r1
	mov	r0, r5
	blo	.LBB61_17
	mov	r0, r1
.LBB61_17:
	str	r0, [sp, #72]
	blo	.LBB61_19
	mov	r5, r6
.LBB61_19:
	str	r5, [sp, #76]
.LBB61_20:
	movs	r2, #0
	ldr	r7, [sp, #96]
	ldr	r0, [sp, #68]
	subs	r1, r7, r0
	ldr	r1, [sp, #92]
	ldr	r3, [sp, #64]
	sbcs	r1, r3
	str	r2, [sp, #80]
	blo	.LBB61_22
	str	r3, [sp, #80]
.LBB61_22:
	mov	r6, r2
	ldr	r5, [sp, #84]
	blo	.LBB61_24
	ldr	r6, [sp, #68]
.LBB61_24:
	mov	r0, r6
	ldr	r1, [sp, #80]
	orrs	r0, r1
	subs	r1, r0, #1
	mov	r4, r0
	sbcs	r4, r1
	str	r4, [sp, #24]
	cmp	r0, #0
	ldr	r0, [sp, #76]
	mov	r4, r0
	ldr	r1, [sp, #72]
	mov	r3, r1
	beq	.LBB61_34
	str	r6, [sp, #68]
	lsrs	r0, r6, #3
	muls	r0, r5, r0
	ldr	r1, [sp, #104]
	adds	r2, r1, r0
	mov	r0, r2
	subs	r0, #24
	ldr	r6, [r0]
	ldr	r4, [r0, #4]
	ldr	r1, [sp, #100]
	ands	r4, r1
	str	r6, [sp, #64]
	ldr	r1, [sp, #88]
	ands	r6, r1
	movs	r1, #0
	subs	r5, r7, r6
	ldr	r5, [sp, #92]
	sbcs	r5, r4
	mov	r5, r1
	blo	.LBB61_27
	mov	r5, r6
.LBB61_27:
	ldr	r7, [sp, #72]
	blo	.LBB61_29
	mov	r1, r4
.LBB61_29:
	ldr	r3, [sp, #32]
	eors	r1, r3
	ldr	r3, [sp, #36]
	eors	r5, r3
	orrs	r5, r1
	ldr	r6, [sp, #68]
	bne	.LBB61_32
	movs	r1, #1
	ldr	r3, [sp, #64]
	ands	r3, r1
	movs	r2, #0
	ldr	r4, [sp, #76]
	adds	r1, r3, r4
	str	r1, [r0]
	mov	r1, r7
	adcs	r1, r2
	str	r1, [r0, #4]
	mov	r0, r4
	b	.LBB61_33
.LBB61_31:
	ldr	r0, [sp, #68]
	str	r0, [sp]
	ldr	r0, [sp, #104]
	ldr	r3, [sp, #88]
	bl	ic_raw.table.RawTable.refusal_at.19bacce014a8892a
	add	sp, #108
	pop	{r4, r5, r6, r7, pc}
.LBB61_32:
	subs	r2, #16
	ldr	r0, [sp, #76]
	stm	r2!, {r0, r7}
	movs	r2, #1
.LBB61_33:
	ldr	r4, [sp, #44]
	ldr	r3, [sp, #48]
	ldr	r5, [sp, #84]
	mov	r1, r7
.LBB61_34:
	orrs	r1, r0
	bne	.LBB61_35
	b	.LBB61_59
.LBB61_35:
	str	r3, [sp, #76]
	str	r4, [sp, #72]
	lsrs	r0, r0, #3
	muls	r5, r0, r5
	ldr	r0, [sp, #104]
	adds	r0, r0, r5
	subs	r0, #8
	movs	r1, #1
	orrs	r6, r1
	str	r6, [r0]
	ldr	r1, [sp, #80]
	str	r1, [r0, #4]
	b	.LBB61_159
.LBB61_36:
	lsrs	r0, r5, #3
	ldr	r1, [sp, #84]
	muls	r0, r1, r0
	ldr	r1, [sp, #104]
	adds	r7, r1, r0
	mov	r0, r7
	subs	r0, #24
	ldm	r0!, {r1, r2}
	ldr	r0, [sp, #100]
	ands	r2, r0
	ands	r1, r4
	movs	r0, #0
	str	r1, [sp, #72]
	subs	r1, r1, #1
	str	r2, [sp, #76]
	sbcs	r2, r0
	ldr	r0, [sp, #96]
	subs	r0, r1, r0
	ldr	r0, [sp, #92]
	sbcs	r2, r0
	ldr	r6, [sp, #64]
	ldr	r1, [sp, #60]
	blo	.LBB61_42
.LBB61_37:
	mov	r2, r7
	subs	r2, #16
	ldm	r2!, {r0, r3}
	ldr	r2, [sp, #100]
	ands	r3, r2
	ands	r0, r4
	ldr	r2, [sp, #96]
	subs	r2, r2, r0
	ldr	r2, [sp, #92]
	sbcs	r2, r3
	ldr	r2, [sp, #80]
	str	r2, [sp, #76]
	blo	.LBB61_39
	str	r3, [sp, #76]
.LBB61_39:
	blo	.LBB61_41
	str	r0, [sp, #80]
.LBB61_41:
	str	r6, [sp, #64]
	str	r1, [sp, #60]
	ldr	r0, [sp, #80]
	str	r0, [sp, #72]
.LBB61_42:
	subs	r7, #8
	ldr	r2, [r7]
	ldr	r1, [r7, #4]
	ldr	r0, [sp, #100]
	ands	r1, r0
	str	r2, [sp, #28]
	mov	r0, r2
	ands	r0, r4
	movs	r2, #0
	ldr	r3, [sp, #96]
	subs	r3, r3, r0
	ldr	r6, [sp, #92]
	mov	r3, r6
	sbcs	r3, r1
	str	r2, [sp, #80]
	blo	.LBB61_44
	str	r1, [sp, #80]
.LBB61_44:
	mov	r1, r2
	ldr	r5, [sp, #84]
	blo	.LBB61_46
	mov	r1, r0
.LBB61_46:
	str	r1, [sp, #68]
	mov	r0, r1
	ldr	r1, [sp, #80]
	orrs	r0, r1
	subs	r1, r0, #1
	mov	r3, r0
	sbcs	r3, r1
	str	r3, [sp, #24]
	cmp	r0, #0
	ldr	r0, [sp, #72]
	mov	r7, r0
	ldr	r3, [sp, #76]
	mov	r1, r3
	beq	.LBB61_55
	ldr	r0, [sp, #68]
	lsrs	r0, r0, #3
	muls	r0, r5, r0
	ldr	r1, [sp, #104]
	adds	r2, r1, r0
	mov	r0, r2
	subs	r0, #24
	ldr	r7, [r0]
	ldr	r5, [r0, #4]
	ldr	r1, [sp, #100]
	ands	r5, r1
	str	r7, [sp, #16]
	ands	r7, r4
	movs	r1, #0
	mov	r3, r6
	ldr	r4, [sp, #96]
	subs	r6, r4, r7
	sbcs	r3, r5
	mov	r6, r1
	blo	.LBB61_49
	mov	r6, r7
.LBB61_49:
	ldr	r4, [sp, #64]
	blo	.LBB61_51
	mov	r1, r5
.LBB61_51:
	ldr	r3, [sp, #60]
	eors	r1, r3
	eors	r6, r4
	orrs	r6, r1
	ldr	r4, [sp, #88]
	bne	.LBB61_53
	movs	r1, #1
	ldr	r3, [sp, #16]
	ands	r3, r1
	movs	r2, #0
	mov	r5, r0
	ldr	r0, [sp, #72]
	adds	r1, r3, r0
	str	r1, [r5]
	ldr	r3, [sp, #76]
	mov	r1, r3
	adcs	r1, r2
	str	r1, [r5, #4]
	b	.LBB61_54
.LBB61_53:
	subs	r2, #16
	ldr	r0, [sp, #72]
	str	r0, [r2]
	ldr	r3, [sp, #76]
	str	r3, [r2, #4]
	movs	r2, #1
.LBB61_54:
	ldr	r7, [sp, #44]
	ldr	r1, [sp, #48]
	ldr	r5, [sp, #84]
.LBB61_55:
	str	r1, [sp, #72]
	str	r7, [sp, #76]
	orrs	r3, r0
	ldr	r6, [sp, #68]
	ldr	r1, [sp, #104]
	beq	.LBB61_57
	lsrs	r0, r0, #3
	muls	r0, r5, r0
	adds	r0, r1, r0
	subs	r0, #8
	movs	r1, #1
	orrs	r1, r6
	str	r1, [r0]
	ldr	r1, [sp, #80]
	str	r1, [r0, #4]
	movs	r0, #0
	str	r0, [sp, #28]
.LBB61_57:
	ldr	r0, [sp, #64]
	ldr	r1, [sp, #36]
	eors	r0, r1
	ldr	r1, [sp, #60]
	ldr	r7, [sp, #32]
	eors	r1, r7
	orrs	r1, r0
	ldr	r7, [sp, #96]
	beq	.LBB61_58
	b	.LBB61_128
.LBB61_58:
	ldr	r4, [sp, #76]
	ldr	r3, [sp, #72]
.LBB61_59:
	ldr	r0, [sp, #28]
	lsls	r0, r0, #31
	bne	.LBB61_60
	b	.LBB61_158
.LBB61_60:
	ldr	r0, [sp, #24]
	cmp	r0, #0
	bne	.LBB61_61
	b	.LBB61_158
.LBB61_61:
	movs	r0, #67
	str	r4, [sp, #60]
	str	r3, [sp, #64]
	b	.LBB61_63
.LBB61_62:
	ldr	r0, [sp, #80]
	eors	r3, r0
	eors	r2, r5
	orrs	r2, r3
	subs	r3, r2, #1
	sbcs	r2, r3
	subs	r0, r6, #1
	mov	r6, r1
	ldr	r1, [sp, #76]
	str	r1, [sp, #80]
	ldr	r1, [sp, #60]
	str	r1, [sp, #72]
	ldr	r1, [sp, #64]
	str	r1, [sp, #76]
	ldr	r5, [sp, #84]
	bne	.LBB61_63
	b	.LBB61_159
.LBB61_63:
	str	r0, [sp, #48]
	str	r6, [sp, #68]
	lsrs	r0, r6, #3
	muls	r0, r5, r0
	ldr	r1, [sp, #104]
	adds	r7, r1, r0
	lsls	r0, r2, #31
	str	r7, [sp, #56]
	beq	.LBB61_67
	mov	r0, r7
	subs	r0, #24
	ldr	r1, [r0]
	str	r0, [sp, #36]
	ldr	r6, [r0, #4]
	ldr	r0, [sp, #100]
	ands	r6, r0
	mov	r2, r1
	ldr	r0, [sp, #88]
	ands	r2, r0
	movs	r4, #0
	str	r2, [sp, #44]
	subs	r0, r2, #1
	str	r6, [sp, #32]
	mov	r2, r6
	sbcs	r2, r4
	ldr	r6, [sp, #96]
	subs	r0, r0, r6
	ldr	r0, [sp, #92]
	sbcs	r2, r0
	blo	.LBB61_65
	b	.LBB61_139
.LBB61_65:
	lsrs	r0, r1, #3
	muls	r0, r5, r0
	ldr	r2, [sp, #104]
	adds	r3, r2, r0
	mov	r0, r3
	subs	r0, #8
	ldr	r2, [r0]
	lsls	r2, r2, #31
	beq	.LBB61_70
	ldr	r0, [sp, #60]
	str	r0, [sp, #72]
	ldr	r0, [sp, #64]
	str	r0, [sp, #76]
	ldr	r7, [sp, #92]
	ldr	r4, [sp, #44]
	b	.LBB61_108
.LBB61_67:
	mov	r1, r7
	subs	r1, #16
	ldr	r0, [r1]
	str	r1, [sp, #36]
	ldr	r2, [r1, #4]
	ldr	r1, [sp, #100]
	ands	r2, r1
	mov	r6, r0
	ldr	r1, [sp, #88]
	ands	r6, r1
	movs	r4, #0
	str	r6, [sp, #44]
	subs	r1, r6, #1
	str	r2, [sp, #32]
	sbcs	r2, r4
	ldr	r6, [sp, #96]
	subs	r1, r1, r6
	ldr	r1, [sp, #92]
	sbcs	r2, r1
	blo	.LBB61_68
	b	.LBB61_139
.LBB61_68:
	lsrs	r0, r0, #3
	muls	r0, r5, r0
	ldr	r1, [sp, #104]
	adds	r0, r1, r0
	mov	r6, r0
	subs	r6, #8
	ldr	r1, [r6]
	lsls	r1, r1, #31
	beq	.LBB61_85
	ldr	r0, [sp, #60]
	str	r0, [sp, #72]
	ldr	r0, [sp, #64]
	str	r0, [sp, #76]
	ldr	r4, [sp, #92]
	ldr	r6, [sp, #44]
	b	.LBB61_117
.LBB61_70:
	subs	r3, #16
	ldr	r7, [r3]
	ldr	r5, [r3, #4]
	ldr	r2, [sp, #100]
	ands	r5, r2
	ldr	r2, [sp, #88]
	ands	r7, r2
	ldr	r2, [sp, #96]
	subs	r2, r2, r7
	ldr	r2, [sp, #92]
	sbcs	r2, r5
	mov	r2, r4
	blo	.LBB61_72
	mov	r2, r5
.LBB61_72:
	str	r3, [sp, #24]
	ldr	r5, [sp, #36]
	str	r2, [r5, #4]
	mov	r5, r4
	blo	.LBB61_74
	mov	r5, r7
.LBB61_74:
	movs	r3, #1
	str	r3, [sp, #76]
	ands	r1, r3
	orrs	r1, r5
	ldr	r7, [sp, #36]
	str	r1, [r7]
	orrs	r2, r5
	ldr	r1, [sp, #56]
	subs	r1, #8
	ldr	r7, [r1]
	str	r1, [sp, #28]
	ldr	r1, [r1, #4]
	ldr	r3, [sp, #100]
	ands	r1, r3
	ldr	r3, [sp, #88]
	ands	r7, r3
	ldr	r3, [sp, #96]
	subs	r3, r3, r7
	ldr	r3, [sp, #92]
	sbcs	r3, r1
	mov	r3, r4
	blo	.LBB61_75
	b	.LBB61_100
.LBB61_75:
	blo	.LBB61_76
	b	.LBB61_101
.LBB61_76:
	cmp	r2, #0
	ldr	r7, [sp, #104]
	ldr	r6, [sp, #76]
	beq	.LBB61_78
.LBB61_77:
	lsrs	r1, r5, #3
	ldr	r2, [sp, #84]
	muls	r1, r2, r1
	adds	r1, r7, r1
	subs	r1, #8
	ldr	r2, [sp, #80]
	str	r2, [r1, #4]
	ldr	r2, [r1]
	ands	r2, r6
	ldr	r5, [sp, #68]
	orrs	r2, r5
	str	r2, [r1]
.LBB61_78:
	mov	r1, r4
	orrs	r1, r6
	stm	r0!, {r1, r3}
	orrs	r3, r4
	ldr	r2, [sp, #44]
	mov	r0, r2
	ldr	r1, [sp, #32]
	mov	r7, r1
	ldr	r5, [sp, #84]
	ldr	r6, [sp, #96]
	bne	.LBB61_79
	b	.LBB61_107
.LBB61_79:
	lsrs	r0, r4, #3
	muls	r0, r5, r0
	ldr	r1, [sp, #104]
	mov	r7, r6
	adds	r6, r1, r0
	mov	r0, r6
	subs	r0, #24
	ldm	r0!, {r4, r5}
	ldr	r1, [sp, #100]
	ands	r5, r1
	mov	r3, r4
	ldr	r1, [sp, #88]
	ands	r3, r1
	movs	r1, #0
	subs	r0, #8
	subs	r7, r7, r3
	ldr	r7, [sp, #92]
	sbcs	r7, r5
	mov	r7, r1
	blo	.LBB61_81
	mov	r7, r3
.LBB61_81:
	ldr	r2, [sp, #76]
	blo	.LBB61_83
	mov	r1, r5
.LBB61_83:
	ldr	r3, [sp, #80]
	eors	r1, r3
	ldr	r3, [sp, #68]
	eors	r7, r3
	orrs	r7, r1
	beq	.LBB61_84
	b	.LBB61_105
.LBB61_84:
	ands	r4, r2
	ldr	r2, [sp, #44]
	orrs	r4, r2
	str	r4, [r0]
	ldr	r1, [sp, #32]
	str	r1, [r0, #4]
	b	.LBB61_106
.LBB61_85:
	subs	r0, #24
	ldm	r0!, {r1, r7}
	ldr	r2, [sp, #100]
	ands	r7, r2
	ldr	r2, [sp, #88]
	ands	r1, r2
	ldr	r2, [sp, #96]
	subs	r0, #8
	subs	r2, r2, r1
	ldr	r2, [sp, #92]
	sbcs	r2, r7
	mov	r2, r4
	blo	.LBB61_87
	mov	r2, r1
.LBB61_87:
	ldr	r1, [sp, #36]
	str	r2, [r1]
	mov	r1, r4
	blo	.LBB61_89
	mov	r1, r7
.LBB61_89:
	ldr	r5, [sp, #36]
	str	r1, [r5, #4]
	orrs	r1, r2
	ldr	r3, [sp, #56]
	subs	r3, #8
	ldr	r5, [r3]
	str	r3, [sp, #28]
	ldr	r7, [r3, #4]
	ldr	r3, [sp, #100]
	ands	r7, r3
	ldr	r3, [sp, #88]
	ands	r5, r3
	ldr	r3, [sp, #96]
	subs	r3, r3, r5
	ldr	r3, [sp, #92]
	sbcs	r3, r7
	mov	r3, r4
	bhs	.LBB61_103
	bhs	.LBB61_104
.LBB61_91:
	cmp	r1, #0
	ldr	r7, [sp, #104]
	beq	.LBB61_93
.LBB61_92:
	lsrs	r1, r2, #3
	ldr	r2, [sp, #84]
	muls	r1, r2, r1
	adds	r1, r7, r1
	subs	r1, #8
	ldr	r2, [sp, #80]
	str	r2, [r1, #4]
	ldr	r2, [r1]
	movs	r5, #1
	ands	r5, r2
	ldr	r2, [sp, #68]
	orrs	r5, r2
	str	r5, [r1]
.LBB61_93:
	movs	r2, #1
	mov	r1, r4
	orrs	r1, r2
	stm	r6!, {r1, r3}
	orrs	r3, r4
	ldr	r7, [sp, #44]
	mov	r1, r7
	ldr	r6, [sp, #32]
	str	r6, [sp, #76]
	ldr	r5, [sp, #84]
	ldr	r3, [sp, #96]
	bne	.LBB61_94
	b	.LBB61_116
.LBB61_94:
	str	r2, [sp, #72]
	lsrs	r1, r4, #3
	muls	r1, r5, r1
	ldr	r2, [sp, #104]
	adds	r4, r2, r1
	mov	r2, r4
	subs	r2, #24
	ldr	r6, [r2]
	ldr	r5, [r2, #4]
	ldr	r1, [sp, #100]
	ands	r5, r1
	mov	r7, r3
	mov	r3, r6
	ldr	r1, [sp, #88]
	ands	r3, r1
	movs	r1, #0
	subs	r7, r7, r3
	ldr	r7, [sp, #92]
	sbcs	r7, r5
	mov	r7, r1
	blo	.LBB61_96
	mov	r7, r3
.LBB61_96:
	blo	.LBB61_98
	mov	r1, r5
.LBB61_98:
	ldr	r3, [sp, #80]
	eors	r1, r3
	ldr	r3, [sp, #68]
	eors	r7, r3
	orrs	r7, r1
	beq	.LBB61_99
	b	.LBB61_115
.LBB61_99:
	ldr	r3, [sp, #72]
	ands	r6, r3
	ldr	r7, [sp, #44]
	orrs	r6, r7
	str	r6, [r2]
	ldr	r6, [sp, #32]
	str	r6, [r2, #4]
	ldr	r1, [sp, #60]
	ldr	r2, [sp, #64]
	str	r2, [sp, #76]
	mov	r2, r3
	ldr	r5, [sp, #84]
	ldr	r3, [sp, #96]
	b	.LBB61_116
.LBB61_100:
	mov	r3, r1
	bhs	.LBB61_101
	b	.LBB61_76
.LBB61_101:
	mov	r4, r7
	cmp	r2, #0
	ldr	r7, [sp, #104]
	ldr	r6, [sp, #76]
	beq	.LBB61_102
	b	.LBB61_77
.LBB61_102:
	b	.LBB61_78
.LBB61_103:
	mov	r3, r7
	blo	.LBB61_91
.LBB61_104:
	mov	r4, r5
	cmp	r1, #0
	ldr	r7, [sp, #104]
	bne	.LBB61_92
	b	.LBB61_93
.LBB61_105:
	subs	r6, #16
	ldr	r2, [sp, #44]
	str	r2, [r6]
	ldr	r1, [sp, #32]
	str	r1, [r6, #4]
.LBB61_106:
	ldr	r0, [sp, #60]
	ldr	r7, [sp, #64]
	ldr	r5, [sp, #84]
	ldr	r6, [sp, #96]
.LBB61_107:
	str	r7, [sp, #76]
	str	r0, [sp, #72]
	ldr	r0, [sp, #68]
	ldr	r3, [sp, #24]
	str	r0, [r3]
	ldr	r0, [sp, #80]
	str	r0, [r3, #4]
	ldr	r0, [sp, #28]
	str	r2, [r0]
	str	r1, [r0, #4]
	ldr	r0, [sp, #36]
	ldr	r4, [r0]
	ldr	r2, [r0, #4]
	ldr	r0, [sp, #100]
	ands	r2, r0
	ldr	r0, [sp, #88]
	ands	r4, r0
	movs	r0, #0
	subs	r1, r4, #1
	str	r2, [sp, #32]
	sbcs	r2, r0
	subs	r0, r1, r6
	ldr	r7, [sp, #92]
	sbcs	r2, r7
	blo	.LBB61_108
	b	.LBB61_159
.LBB61_108:
	str	r4, [sp, #44]
	lsrs	r1, r4, #3
	muls	r1, r5, r1
	ldr	r0, [sp, #104]
	str	r1, [sp, #28]
	adds	r4, r0, r1
	mov	r0, r4
	subs	r0, #24
	ldm	r0!, {r1, r2}
	ldr	r0, [sp, #100]
	ands	r2, r0
	mov	r3, r1
	ldr	r0, [sp, #88]
	ands	r3, r0
	movs	r0, #0
	subs	r3, r3, #1
	sbcs	r2, r0
	movs	r6, #1
	str	r6, [sp, #64]
	ldr	r6, [sp, #96]
	subs	r3, r3, r6
	sbcs	r2, r7
	blo	.LBB61_110
	str	r0, [sp, #64]
.LBB61_110:
	ldr	r6, [sp, #104]
	bhs	.LBB61_112
	lsrs	r2, r1, #3
	muls	r2, r5, r2
	adds	r0, r6, r2
	subs	r0, #8
	ldr	r7, [r0]
	lsls	r3, r7, #31
	bne	.LBB61_112
	b	.LBB61_160
.LBB61_112:
	str	r1, [sp, #16]
	mov	r7, r4
	subs	r7, #16
	ldm	r7!, {r0, r3}
	ldr	r2, [sp, #100]
	ands	r3, r2
	mov	r6, r0
	ldr	r2, [sp, #88]
	ands	r6, r2
	movs	r1, #0
	str	r6, [sp, #20]
	subs	r7, #8
	subs	r2, r6, #1
	str	r3, [sp, #24]
	str	r1, [sp, #60]
	sbcs	r3, r1
	ldr	r6, [sp, #96]
	subs	r2, r2, r6
	ldr	r2, [sp, #92]
	sbcs	r3, r2
	bhs	.LBB61_114
	lsrs	r6, r0, #3
	muls	r6, r5, r6
	ldr	r0, [sp, #104]
	adds	r3, r0, r6
	mov	r0, r3
	subs	r0, #8
	ldr	r2, [r0]
	lsls	r2, r2, #31
	bne	.LBB61_114
	b	.LBB61_175
.LBB61_114:
	subs	r4, #8
	ldr	r0, [r4]
	movs	r1, #1
	bics	r0, r1
	str	r0, [r4]
	b	.LBB61_122
.LBB61_115:
	subs	r4, #16
	ldr	r7, [sp, #44]
	str	r7, [r4]
	ldr	r6, [sp, #32]
	str	r6, [r4, #4]
	ldr	r1, [sp, #60]
	ldr	r2, [sp, #64]
	str	r2, [sp, #76]
	ldr	r5, [sp, #84]
	ldr	r3, [sp, #96]
	ldr	r2, [sp, #72]
.LBB61_116:
	str	r1, [sp, #72]
	ldr	r1, [sp, #80]
	str	r1, [r0, #4]
	ldr	r1, [r0]
	ands	r1, r2
	ldr	r2, [sp, #68]
	orrs	r1, r2
	str	r1, [r0]
	ldr	r0, [sp, #28]
	str	r7, [r0]
	str	r6, [r0, #4]
	ldr	r0, [sp, #36]
	ldr	r6, [r0]
	ldr	r2, [r0, #4]
	ldr	r0, [sp, #100]
	ands	r2, r0
	ldr	r0, [sp, #88]
	ands	r6, r0
	movs	r0, #0
	subs	r1, r6, #1
	str	r2, [sp, #32]
	sbcs	r2, r0
	subs	r0, r1, r3
	ldr	r4, [sp, #92]
	sbcs	r2, r4
	blo	.LBB61_117
	b	.LBB61_159
.LBB61_117:
	str	r6, [sp, #44]
	lsrs	r1, r6, #3
	muls	r1, r5, r1
	ldr	r0, [sp, #104]
	str	r1, [sp, #28]
	adds	r7, r0, r1
	str	r7, [sp, #64]
	subs	r7, #24
	ldm	r7!, {r0, r3}
	ldr	r1, [sp, #100]
	ands	r3, r1
	mov	r1, r0
	ldr	r2, [sp, #88]
	ands	r1, r2
	movs	r6, #0
	str	r1, [sp, #20]
	subs	r7, #8
	subs	r2, r1, #1
	str	r3, [sp, #24]
	str	r6, [sp, #60]
	sbcs	r3, r6
	ldr	r6, [sp, #96]
	subs	r2, r2, r6
	sbcs	r3, r4
	bhs	.LBB61_119
	lsrs	r1, r0, #3
	muls	r1, r5, r1
	ldr	r2, [sp, #104]
	adds	r3, r2, r1
	mov	r6, r3
	subs	r6, #8
	ldr	r2, [r6]
	lsls	r2, r2, #31
	bne	.LBB61_119
	b	.LBB61_161
.LBB61_119:
	ldr	r0, [sp, #64]
	mov	r3, r0
	subs	r3, #16
	ldm	r3, {r2, r3}
	ldr	r4, [sp, #100]
	ands	r3, r4
	mov	r4, r2
	ldr	r5, [sp, #88]
	ands	r4, r5
	movs	r5, #0
	subs	r4, r4, #1
	sbcs	r3, r5
	ldr	r7, [sp, #96]
	subs	r4, r4, r7
	ldr	r4, [sp, #92]
	sbcs	r3, r4
	bhs	.LBB61_121
	lsrs	r4, r2, #3
	ldr	r2, [sp, #84]
	muls	r4, r2, r4
	ldr	r2, [sp, #104]
	adds	r3, r2, r4
	subs	r3, #8
	ldr	r2, [r3]
	lsls	r5, r2, #31
	bne	.LBB61_121
	b	.LBB61_189
.LBB61_121:
	subs	r0, #8
	ldr	r2, [r0]
	movs	r1, #1
	bics	r2, r1
	str	r2, [r0]
.LBB61_122:
	ldr	r0, [sp, #56]
	subs	r0, #8
	ldr	r2, [r0]
	ldr	r5, [r0, #4]
	lsls	r3, r2, #31
	bne	.LBB61_123
	b	.LBB61_148
.LBB61_123:
	ldr	r0, [sp, #72]
	str	r0, [sp, #60]
	ldr	r0, [sp, #76]
	str	r0, [sp, #64]
	ldr	r7, [sp, #100]
	ands	r5, r7
	mov	r1, r2
	ldr	r0, [sp, #88]
	ands	r1, r0
	movs	r3, #0
	subs	r4, r1, #1
	str	r5, [sp, #76]
	sbcs	r5, r3
	ldr	r6, [sp, #96]
	subs	r4, r4, r6
	ldr	r4, [sp, #92]
	sbcs	r5, r4
	bhs	.LBB61_139
	lsrs	r2, r2, #3
	ldr	r4, [sp, #84]
	muls	r2, r4, r2
	ldr	r4, [sp, #104]
	adds	r2, r4, r2
	subs	r2, #24
	ldr	r5, [r2]
	ldr	r4, [r2, #4]
	ands	r4, r7
	ands	r5, r0
	subs	r2, r6, r5
	ldr	r2, [sp, #92]
	sbcs	r2, r4
	mov	r2, r3
	blo	.LBB61_126
	mov	r2, r5
.LBB61_126:
	ldr	r5, [sp, #68]
	ldr	r6, [sp, #48]
	bhs	.LBB61_127
	b	.LBB61_62
.LBB61_127:
	mov	r3, r4
	b	.LBB61_62
.LBB61_128:
	ldr	r0, [sp, #20]
	ldr	r5, [r0]
	ldr	r1, [r0, #4]
	ldr	r0, [sp, #100]
	ands	r1, r0
	str	r5, [sp, #16]
	mov	r0, r5
	ands	r0, r4
	movs	r6, #0
	subs	r3, r7, r0
	ldr	r3, [sp, #92]
	sbcs	r3, r1
	mov	r3, r6
	blo	.LBB61_130
	mov	r3, r1
.LBB61_130:
	mov	r1, r6
	blo	.LBB61_132
	mov	r1, r0
.LBB61_132:
	str	r1, [sp, #44]
	mov	r0, r1
	str	r3, [sp, #12]
	orrs	r0, r3
	ldr	r3, [sp, #56]
	ldm	r3, {r1, r3}
	ldr	r5, [sp, #100]
	ands	r3, r5
	ands	r1, r4
	subs	r5, r7, r1
	ldr	r5, [sp, #92]
	sbcs	r5, r3
	str	r6, [sp, #56]
	blo	.LBB61_134
	str	r3, [sp, #56]
.LBB61_134:
	str	r6, [sp, #20]
	blo	.LBB61_136
	str	r1, [sp, #20]
.LBB61_136:
	ldr	r3, [sp, #52]
	ldm	r3, {r1, r3}
	ldr	r5, [sp, #100]
	ands	r3, r5
	ands	r1, r4
	subs	r5, r7, r1
	ldr	r5, [sp, #92]
	sbcs	r5, r3
	str	r6, [sp, #48]
	bhs	.LBB61_140
	ldr	r5, [sp, #84]
	bhs	.LBB61_141
.LBB61_138:
	cmp	r0, #0
	ldr	r0, [sp, #64]
	ldr	r1, [sp, #60]
	bne	.LBB61_142
	b	.LBB61_151
.LBB61_139:
	ldr	r0, [sp, #60]
	str	r0, [sp, #72]
	ldr	r0, [sp, #64]
	str	r0, [sp, #76]
	b	.LBB61_159
.LBB61_140:
	str	r3, [sp, #48]
	ldr	r5, [sp, #84]
	blo	.LBB61_138
.LBB61_141:
	mov	r6, r1
	cmp	r0, #0
	ldr	r0, [sp, #64]
	ldr	r1, [sp, #60]
	beq	.LBB61_151
.LBB61_142:
	ldr	r0, [sp, #44]
	lsrs	r0, r0, #3
	muls	r0, r5, r0
	ldr	r1, [sp, #104]
	adds	r0, r1, r0
	str	r0, [sp, #8]
	subs	r0, #24
	ldr	r5, [r0]
	mov	r1, r7
	ldr	r7, [r0, #4]
	ldr	r3, [sp, #100]
	ands	r7, r3
	str	r5, [sp, #4]
	ands	r5, r4
	movs	r3, #0
	subs	r1, r1, r5
	ldr	r1, [sp, #92]
	sbcs	r1, r7
	mov	r1, r3
	blo	.LBB61_144
	mov	r1, r5
.LBB61_144:
	blo	.LBB61_146
	mov	r3, r7
.LBB61_146:
	ldr	r4, [sp, #32]
	eors	r3, r4
	ldr	r4, [sp, #36]
	eors	r1, r4
	orrs	r1, r3
	ldr	r5, [sp, #84]
	bne	.LBB61_149
	movs	r1, #1
	ldr	r4, [sp, #4]
	ands	r4, r1
	movs	r1, #0
	ldr	r3, [sp, #64]
	adds	r3, r4, r3
	str	r3, [r0]
	ldr	r3, [sp, #60]
	adcs	r1, r3
	str	r1, [r0, #4]
	b	.LBB61_150
.LBB61_148:
	orrs	r2, r1
	str	r2, [r0]
	str	r5, [r0, #4]
	b	.LBB61_159
.LBB61_149:
	ldr	r1, [sp, #8]
	subs	r1, #16
	ldr	r0, [sp, #64]
	str	r0, [r1]
	ldr	r0, [sp, #60]
	str	r0, [r1, #4]
.LBB61_150:
	ldr	r0, [sp, #76]
	ldr	r1, [sp, #72]
.LBB61_151:
	str	r0, [sp, #72]
	str	r1, [sp, #76]
	mov	r0, r6
	ldr	r1, [sp, #48]
	orrs	r0, r1
	ldr	r7, [sp, #104]
	beq	.LBB61_153
	lsrs	r0, r6, #3
	muls	r0, r5, r0
	adds	r0, r7, r0
	subs	r0, #8
	ldr	r1, [r0]
	movs	r3, #1
	ands	r3, r1
	movs	r1, #0
	ldr	r4, [sp, #64]
	adds	r3, r3, r4
	str	r3, [r0]
	ldr	r4, [sp, #60]
	adcs	r1, r4
	str	r1, [r0, #4]
.LBB61_153:
	str	r6, [sp, #8]
	ldr	r6, [sp, #20]
	mov	r0, r6
	ldr	r1, [sp, #56]
	orrs	r0, r1
	ldr	r4, [sp, #64]
	beq	.LBB61_155
	lsrs	r0, r6, #3
	muls	r0, r5, r0
	adds	r0, r7, r0
	subs	r0, #8
	ldr	r1, [r0]
	movs	r3, #1
	ands	r3, r1
	movs	r1, #0
	adds	r3, r3, r4
	str	r3, [r0]
	ldr	r4, [sp, #60]
	adcs	r1, r4
	ldr	r4, [sp, #64]
	str	r1, [r0, #4]
.LBB61_155:
	str	r4, [sp, #64]
	lsrs	r0, r4, #3
	muls	r0, r5, r0
	adds	r5, r7, r0
	mov	r1, r5
	subs	r1, #8
	movs	r4, #1
	ldr	r0, [sp, #16]
	ands	r0, r4
	mov	r3, r6
	ldr	r6, [sp, #44]
	orrs	r6, r0
	str	r6, [r1]
	ldr	r0, [sp, #12]
	str	r0, [r1, #4]
	mov	r1, r5
	subs	r1, #16
	str	r3, [r1]
	ldr	r0, [sp, #56]
	str	r0, [r1, #4]
	subs	r5, #24
	ldr	r0, [sp, #48]
	str	r0, [r5, #4]
	ldr	r1, [r5]
	ands	r1, r4
	ldr	r0, [sp, #8]
	orrs	r1, r0
	str	r1, [r5]
	ldr	r6, [sp, #68]
	ldr	r5, [sp, #36]
	eors	r5, r6
	ldr	r1, [sp, #80]
	ldr	r0, [sp, #32]
	eors	r0, r1
	orrs	r0, r5
	bne	.LBB61_157
	str	r4, [sp, #24]
	ldr	r6, [sp, #64]
	ldr	r0, [sp, #60]
	str	r0, [sp, #80]
.LBB61_157:
	ldr	r5, [sp, #84]
	ldr	r4, [sp, #72]
	ldr	r3, [sp, #76]
	ldr	r0, [sp, #28]
	lsls	r0, r0, #31
	beq	.LBB61_158
	b	.LBB61_60
.LBB61_158:
	str	r3, [sp, #76]
	str	r4, [sp, #72]
.LBB61_159:
	movs	r0, #0
	ldr	r1, [sp, #52]
	str	r0, [r1]
	str	r0, [r1, #4]
	ldr	r1, [sp, #40]
	ldr	r2, [sp, #72]
	str	r2, [r1]
	ldr	r2, [sp, #76]
	str	r2, [r1, #4]
	add	sp, #108
	pop	{r4, r5, r6, r7, pc}
.LBB61_160:
	ldr	r0, [r0, #4]
	ldr	r1, [sp, #72]
	str	r1, [sp, #64]
	ldr	r1, [sp, #76]
	str	r1, [sp, #60]
	b	.LBB61_224
.LBB61_161:
	str	r0, [sp, #12]
	str	r3, [sp, #16]
	ldr	r3, [sp, #64]
	subs	r3, #16
	ldm	r3, {r2, r3}
	ldr	r4, [sp, #100]
	ands	r3, r4
	mov	r0, r2
	mov	r4, r2
	ldr	r2, [sp, #88]
	ands	r4, r2
	movs	r2, #0
	subs	r4, r4, #1
	str	r2, [sp, #48]
	sbcs	r3, r2
	ldr	r2, [sp, #96]
	subs	r4, r4, r2
	ldr	r4, [sp, #92]
	sbcs	r3, r4
	bhs	.LBB61_163
	lsrs	r4, r0, #3
	muls	r4, r5, r4
	ldr	r2, [sp, #104]
	adds	r3, r2, r4
	subs	r3, #8
	ldr	r2, [r3]
	lsls	r5, r2, #31
	bne	.LBB61_163
	b	.LBB61_195
.LBB61_163:
	str	r1, [sp, #28]
	ldr	r2, [sp, #16]
	subs	r2, #16
	ldr	r1, [r2]
	str	r2, [sp, #16]
	ldr	r3, [r2, #4]
	ldr	r2, [sp, #100]
	ands	r3, r2
	ldr	r2, [sp, #88]
	ands	r1, r2
	ldr	r2, [sp, #96]
	subs	r2, r2, r1
	ldr	r2, [sp, #92]
	sbcs	r2, r3
	ldr	r4, [sp, #48]
	mov	r2, r4
	blo	.LBB61_165
	mov	r2, r3
.LBB61_165:
	str	r2, [r7, #4]
	ldr	r0, [sp, #12]
	blo	.LBB61_167
	mov	r4, r1
.LBB61_167:
	movs	r1, #1
	ands	r0, r1
	orrs	r0, r4
	str	r0, [r7]
	orrs	r2, r4
	ldr	r0, [sp, #64]
	subs	r0, #8
	ldr	r5, [r0]
	ldr	r3, [r0, #4]
	ldr	r7, [sp, #100]
	ands	r3, r7
	ldr	r7, [sp, #88]
	ands	r5, r7
	ldr	r7, [sp, #96]
	subs	r7, r7, r5
	ldr	r7, [sp, #92]
	sbcs	r7, r3
	ldr	r7, [sp, #48]
	blo	.LBB61_168
	b	.LBB61_190
.LBB61_168:
	blo	.LBB61_169
	b	.LBB61_191
.LBB61_169:
	cmp	r2, #0
	ldr	r5, [sp, #84]
	beq	.LBB61_171
.LBB61_170:
	lsrs	r2, r4, #3
	muls	r2, r5, r2
	ldr	r3, [sp, #104]
	adds	r2, r3, r2
	subs	r2, #8
	ldr	r3, [sp, #32]
	str	r3, [r2, #4]
	ldr	r3, [r2]
	ands	r3, r1
	ldr	r4, [sp, #44]
	orrs	r3, r4
	str	r3, [r2]
.LBB61_171:
	mov	r3, r1
	ldr	r1, [sp, #48]
	mov	r2, r1
	str	r3, [sp, #64]
	orrs	r2, r3
	stm	r6!, {r2, r7}
	orrs	r7, r1
	ldr	r7, [sp, #20]
	mov	r2, r7
	ldr	r4, [sp, #24]
	mov	r3, r4
	bne	.LBB61_172
	b	.LBB61_199
.LBB61_172:
	lsrs	r2, r1, #3
	muls	r2, r5, r2
	ldr	r3, [sp, #104]
	adds	r4, r3, r2
	mov	r2, r4
	subs	r2, #24
	ldr	r6, [r2]
	ldr	r5, [r2, #4]
	ldr	r3, [sp, #100]
	ands	r5, r3
	mov	r7, r6
	ldr	r3, [sp, #88]
	ands	r7, r3
	ldr	r3, [sp, #96]
	subs	r3, r3, r7
	ldr	r3, [sp, #92]
	sbcs	r3, r5
	bhs	.LBB61_173
	b	.LBB61_197
.LBB61_173:
	ldr	r3, [sp, #44]
	eors	r7, r3
	ldr	r3, [sp, #32]
	eors	r5, r3
	orrs	r5, r7
	beq	.LBB61_174
	b	.LBB61_197
.LBB61_174:
	ldr	r1, [sp, #64]
	ands	r6, r1
	ldr	r7, [sp, #20]
	orrs	r6, r7
	str	r6, [r2]
	ldr	r4, [sp, #24]
	str	r4, [r2, #4]
	b	.LBB61_198
.LBB61_175:
	ldr	r1, [sp, #64]
	cmp	r1, #0
	beq	.LBB61_177
	ldr	r1, [sp, #16]
	lsrs	r2, r1, #3
	muls	r2, r5, r2
	ldr	r1, [sp, #104]
	adds	r1, r1, r2
	subs	r1, #8
	ldr	r5, [r1]
	str	r3, [sp, #48]
	str	r5, [sp, #16]
	lsls	r3, r5, #31
	ldr	r3, [sp, #48]
	bne	.LBB61_177
	b	.LBB61_196
.LBB61_177:
	str	r6, [sp, #28]
	subs	r3, #24
	ldr	r5, [r3]
	ldr	r2, [r3, #4]
	ldr	r1, [sp, #100]
	ands	r2, r1
	ldr	r1, [sp, #88]
	ands	r5, r1
	ldr	r1, [sp, #96]
	subs	r1, r1, r5
	ldr	r1, [sp, #92]
	sbcs	r1, r2
	ldr	r6, [sp, #60]
	mov	r1, r6
	blo	.LBB61_179
	mov	r1, r5
.LBB61_179:
	str	r3, [sp, #48]
	str	r1, [r7]
	blo	.LBB61_181
	mov	r6, r2
.LBB61_181:
	str	r6, [r7, #4]
	orrs	r6, r1
	subs	r4, #8
	ldr	r5, [r4]
	ldr	r3, [r4, #4]
	ldr	r2, [sp, #100]
	ands	r3, r2
	ldr	r2, [sp, #88]
	ands	r5, r2
	ldr	r7, [sp, #96]
	subs	r2, r7, r5
	ldr	r2, [sp, #92]
	sbcs	r2, r3
	ldr	r2, [sp, #60]
	bhs	.LBB61_193
	bhs	.LBB61_194
.LBB61_183:
	cmp	r6, #0
	beq	.LBB61_185
.LBB61_184:
	lsrs	r1, r1, #3
	ldr	r3, [sp, #84]
	muls	r1, r3, r1
	ldr	r3, [sp, #104]
	adds	r1, r3, r1
	subs	r1, #8
	ldr	r3, [sp, #32]
	str	r3, [r1, #4]
	ldr	r3, [r1]
	movs	r5, #1
	ands	r5, r3
	ldr	r3, [sp, #44]
	orrs	r5, r3
	str	r5, [r1]
.LBB61_185:
	movs	r5, #1
	ldr	r1, [sp, #60]
	mov	r3, r1
	orrs	r3, r5
	str	r3, [r0]
	str	r2, [r0, #4]
	orrs	r2, r1
	ldr	r7, [sp, #20]
	str	r7, [sp, #64]
	ldr	r2, [sp, #24]
	mov	r0, r2
	ldr	r6, [sp, #84]
	ldr	r3, [sp, #100]
	bne	.LBB61_186
	b	.LBB61_222
.LBB61_186:
	str	r5, [sp, #16]
	lsrs	r0, r1, #3
	muls	r0, r6, r0
	ldr	r1, [sp, #104]
	adds	r2, r1, r0
	mov	r0, r2
	subs	r0, #24
	ldr	r6, [r0]
	ldr	r5, [r0, #4]
	ands	r5, r3
	mov	r7, r6
	ldr	r1, [sp, #88]
	ands	r7, r1
	ldr	r1, [sp, #96]
	subs	r3, r1, r7
	ldr	r3, [sp, #92]
	sbcs	r3, r5
	bhs	.LBB61_187
	b	.LBB61_221
.LBB61_187:
	ldr	r1, [sp, #44]
	eors	r7, r1
	ldr	r1, [sp, #32]
	eors	r5, r1
	orrs	r5, r7
	beq	.LBB61_188
	b	.LBB61_221
.LBB61_188:
	ldr	r5, [sp, #16]
	ands	r6, r5
	ldr	r7, [sp, #20]
	orrs	r6, r7
	str	r6, [r0]
	ldr	r2, [sp, #24]
	str	r2, [r0, #4]
	ldr	r0, [sp, #72]
	str	r0, [sp, #64]
	ldr	r0, [sp, #76]
	ldr	r3, [sp, #100]
	b	.LBB61_222
.LBB61_189:
	ldr	r0, [r3, #4]
	ldr	r3, [sp, #72]
	str	r3, [sp, #48]
	ldr	r3, [sp, #76]
	str	r3, [sp, #24]
	ldr	r6, [sp, #104]
	b	.LBB61_201
.LBB61_190:
	mov	r7, r3
	bhs	.LBB61_191
	b	.LBB61_169
.LBB61_191:
	str	r5, [sp, #48]
	cmp	r2, #0
	ldr	r5, [sp, #84]
	beq	.LBB61_192
	b	.LBB61_170
.LBB61_192:
	b	.LBB61_171
.LBB61_193:
	mov	r2, r3
	blo	.LBB61_183
.LBB61_194:
	str	r5, [sp, #60]
	cmp	r6, #0
	bne	.LBB61_184
	b	.LBB61_185
.LBB61_195:
	ldr	r0, [r3, #4]
	ldr	r3, [sp, #72]
	str	r3, [sp, #48]
	ldr	r3, [sp, #76]
	str	r3, [sp, #24]
	ldr	r6, [sp, #104]
	ldr	r7, [sp, #96]
	b	.LBB61_201
.LBB61_196:
	ldr	r0, [r1, #4]
	ldr	r1, [sp, #72]
	str	r1, [sp, #64]
	ldr	r1, [sp, #76]
	str	r1, [sp, #60]
	ldr	r6, [sp, #104]
	ldr	r4, [sp, #28]
	ldr	r7, [sp, #16]
	b	.LBB61_225
.LBB61_197:
	subs	r4, #16
	ldr	r7, [sp, #20]
	str	r7, [r4]
	ldr	r1, [sp, #24]
	str	r1, [r4, #4]
	mov	r4, r1
.LBB61_198:
	ldr	r2, [sp, #72]
	ldr	r3, [sp, #76]
	ldr	r5, [sp, #84]
.LBB61_199:
	str	r3, [sp, #24]
	str	r2, [sp, #48]
	ldr	r1, [sp, #44]
	ldr	r2, [sp, #16]
	str	r1, [r2]
	ldr	r1, [sp, #32]
	str	r1, [r2, #4]
	str	r7, [r0]
	str	r4, [r0, #4]
	ldm	r2!, {r0, r1}
	ldr	r2, [sp, #100]
	ands	r1, r2
	mov	r2, r0
	ldr	r3, [sp, #88]
	ands	r2, r3
	movs	r3, #0
	subs	r2, r2, #1
	sbcs	r1, r3
	mov	r3, r7
	ldr	r7, [sp, #96]
	subs	r2, r2, r7
	ldr	r2, [sp, #92]
	sbcs	r1, r2
	ldr	r6, [sp, #104]
	blo	.LBB61_200
	b	.LBB61_220
.LBB61_200:
	mov	r1, r4
	lsrs	r4, r0, #3
	muls	r4, r5, r4
	adds	r0, r6, r4
	subs	r0, #8
	ldr	r2, [r0]
	ldr	r0, [r0, #4]
	str	r3, [sp, #44]
	str	r1, [sp, #32]
.LBB61_201:
	ldr	r1, [sp, #28]
	adds	r3, r6, r4
	subs	r3, #8
	ldr	r4, [sp, #56]
	subs	r4, #8
	str	r0, [r3, #4]
	movs	r0, #1
	str	r0, [sp, #64]
	orrs	r2, r0
	str	r4, [sp, #56]
	ldr	r4, [r4]
	str	r2, [r3]
	adds	r6, r6, r1
	mov	r1, r6
	subs	r1, #24
	ldr	r0, [r1]
	str	r1, [sp, #28]
	ldr	r5, [r1, #4]
	ldr	r2, [sp, #100]
	ands	r5, r2
	ldr	r2, [sp, #88]
	ands	r0, r2
	subs	r2, r7, r0
	ldr	r2, [sp, #92]
	sbcs	r2, r5
	ldr	r3, [sp, #60]
	mov	r2, r3
	blo	.LBB61_203
	mov	r2, r0
.LBB61_203:
	ldr	r0, [sp, #36]
	str	r2, [r0]
	mov	r0, r3
	blo	.LBB61_205
	mov	r0, r5
.LBB61_205:
	ldr	r3, [sp, #36]
	str	r0, [r3, #4]
	orrs	r0, r2
	ldr	r3, [sp, #56]
	ldr	r5, [r3]
	ldr	r3, [r3, #4]
	ldr	r7, [sp, #100]
	ands	r3, r7
	ldr	r7, [sp, #88]
	ands	r5, r7
	ldr	r7, [sp, #96]
	subs	r7, r7, r5
	ldr	r7, [sp, #92]
	sbcs	r7, r3
	ldr	r7, [sp, #60]
	bhs	.LBB61_216
	bhs	.LBB61_217
.LBB61_207:
	cmp	r0, #0
	ldr	r3, [sp, #84]
	ldr	r1, [sp, #64]
	beq	.LBB61_209
.LBB61_208:
	lsrs	r0, r2, #3
	muls	r0, r3, r0
	ldr	r2, [sp, #104]
	adds	r0, r2, r0
	subs	r0, #8
	ldr	r2, [sp, #80]
	str	r2, [r0, #4]
	ldr	r2, [r0]
	ands	r2, r1
	ldr	r5, [sp, #68]
	orrs	r2, r5
	str	r2, [r0]
.LBB61_209:
	subs	r6, #8
	ands	r4, r1
	ldr	r0, [sp, #60]
	orrs	r4, r0
	stm	r6!, {r4, r7}
	orrs	r7, r0
	ldr	r5, [sp, #44]
	str	r5, [sp, #72]
	ldr	r4, [sp, #32]
	str	r4, [sp, #76]
	beq	.LBB61_219
	lsrs	r0, r0, #3
	muls	r3, r0, r3
	ldr	r0, [sp, #104]
	adds	r1, r0, r3
	mov	r2, r1
	subs	r2, #24
	ldr	r6, [r2]
	ldr	r5, [r2, #4]
	ldr	r0, [sp, #100]
	ands	r5, r0
	ldr	r4, [sp, #88]
	ands	r4, r6
	movs	r0, #0
	ldr	r3, [sp, #96]
	subs	r3, r3, r4
	ldr	r3, [sp, #92]
	sbcs	r3, r5
	mov	r7, r0
	blo	.LBB61_212
	mov	r7, r4
.LBB61_212:
	blo	.LBB61_214
	mov	r0, r5
.LBB61_214:
	ldr	r3, [sp, #80]
	eors	r0, r3
	ldr	r3, [sp, #68]
	eors	r7, r3
	orrs	r7, r0
	bne	.LBB61_218
	ldr	r1, [sp, #64]
	ands	r6, r1
	ldr	r5, [sp, #44]
	orrs	r6, r5
	str	r6, [r2]
	ldr	r4, [sp, #32]
	str	r4, [r2, #4]
	ldr	r0, [sp, #48]
	str	r0, [sp, #72]
	ldr	r0, [sp, #24]
	str	r0, [sp, #76]
	b	.LBB61_219
.LBB61_216:
	mov	r7, r3
	blo	.LBB61_207
.LBB61_217:
	str	r5, [sp, #60]
	cmp	r0, #0
	ldr	r3, [sp, #84]
	ldr	r1, [sp, #64]
	bne	.LBB61_208
	b	.LBB61_209
.LBB61_218:
	subs	r1, #16
	ldr	r5, [sp, #44]
	str	r5, [r1]
	ldr	r4, [sp, #32]
	str	r4, [r1, #4]
	ldr	r0, [sp, #48]
	str	r0, [sp, #72]
	ldr	r0, [sp, #24]
	str	r0, [sp, #76]
	ldr	r1, [sp, #64]
.LBB61_219:
	ldr	r0, [sp, #80]
	ldr	r3, [sp, #28]
	str	r0, [r3, #4]
	ldr	r0, [r3]
	ands	r0, r1
	ldr	r2, [sp, #68]
	orrs	r0, r2
	str	r0, [r3]
	orrs	r5, r1
	ldr	r0, [sp, #56]
	str	r5, [r0]
	str	r4, [r0, #4]
	b	.LBB61_159
.LBB61_220:
	ldr	r0, [sp, #48]
	str	r0, [sp, #72]
	ldr	r0, [sp, #24]
	str	r0, [sp, #76]
	b	.LBB61_159
.LBB61_221:
	subs	r2, #16
	ldr	r7, [sp, #20]
	str	r7, [r2]
	ldr	r0, [sp, #24]
	str	r0, [r2, #4]
	mov	r2, r0
	ldr	r0, [sp, #72]
	str	r0, [sp, #64]
	ldr	r0, [sp, #76]
	ldr	r3, [sp, #100]
	ldr	r5, [sp, #16]
.LBB61_222:
	str	r0, [sp, #60]
	ldr	r0, [sp, #32]
	ldr	r6, [sp, #48]
	str	r0, [r6, #4]
	ldr	r0, [r6]
	ands	r0, r5
	ldr	r1, [sp, #44]
	orrs	r0, r1
	str	r0, [r6]
	str	r7, [r4]
	str	r2, [r4, #4]
	ldr	r1, [r6, #4]
	ands	r1, r3
	ldr	r0, [r6]
	mov	r4, r2
	mov	r2, r0
	ldr	r3, [sp, #88]
	ands	r2, r3
	movs	r3, #0
	subs	r2, r2, #1
	sbcs	r1, r3
	ldr	r3, [sp, #96]
	subs	r2, r2, r3
	ldr	r2, [sp, #92]
	sbcs	r1, r2
	blo	.LBB61_223
	b	.LBB61_244
.LBB61_223:
	lsrs	r2, r0, #3
	ldr	r0, [sp, #84]
	muls	r2, r0, r2
	ldr	r6, [sp, #104]
	adds	r0, r6, r2
	subs	r0, #8
	ldr	r1, [r0]
	ldr	r0, [r0, #4]
	str	r7, [sp, #44]
	mov	r7, r1
	str	r4, [sp, #32]
.LBB61_224:
	ldr	r4, [sp, #28]
.LBB61_225:
	adds	r1, r6, r2
	subs	r1, #8
	ldr	r2, [sp, #56]
	subs	r2, #8
	str	r0, [r1, #4]
	movs	r3, #1
	orrs	r7, r3
	str	r2, [sp, #56]
	ldr	r0, [r2]
	str	r0, [sp, #76]
	str	r7, [r1]
	adds	r4, r6, r4
	mov	r0, r4
	subs	r0, #16
	ldr	r7, [r0]
	str	r0, [sp, #48]
	ldr	r1, [r0, #4]
	ldr	r0, [sp, #100]
	ands	r1, r0
	ldr	r0, [sp, #88]
	ands	r7, r0
	movs	r0, #0
	ldr	r2, [sp, #96]
	subs	r2, r2, r7
	ldr	r2, [sp, #92]
	sbcs	r2, r1
	mov	r2, r0
	blo	.LBB61_227
	mov	r2, r1
.LBB61_227:
	str	r3, [sp, #72]
	ldr	r1, [sp, #36]
	str	r2, [r1, #4]
	mov	r1, r0
	blo	.LBB61_229
	mov	r1, r7
.LBB61_229:
	ldr	r5, [sp, #36]
	ldr	r3, [r5]
	ldr	r6, [sp, #72]
	ands	r3, r6
	orrs	r3, r1
	str	r3, [r5]
	orrs	r2, r1
	ldr	r3, [sp, #56]
	ldr	r5, [r3]
	ldr	r3, [r3, #4]
	ldr	r7, [sp, #100]
	ands	r3, r7
	ldr	r7, [sp, #88]
	ands	r5, r7
	ldr	r7, [sp, #96]
	subs	r7, r7, r5
	ldr	r7, [sp, #92]
	sbcs	r7, r3
	mov	r7, r0
	bhs	.LBB61_240
	bhs	.LBB61_241
.LBB61_231:
	cmp	r2, #0
	ldr	r3, [sp, #84]
	ldr	r6, [sp, #72]
	beq	.LBB61_233
.LBB61_232:
	lsrs	r1, r1, #3
	muls	r1, r3, r1
	ldr	r2, [sp, #104]
	adds	r1, r2, r1
	subs	r1, #8
	ldr	r2, [sp, #80]
	str	r2, [r1, #4]
	ldr	r2, [r1]
	ands	r2, r6
	ldr	r5, [sp, #68]
	orrs	r2, r5
	str	r2, [r1]
.LBB61_233:
	subs	r4, #8
	ldr	r1, [sp, #76]
	ands	r1, r6
	orrs	r1, r0
	stm	r4!, {r1, r7}
	orrs	r7, r0
	ldr	r4, [sp, #44]
	mov	r1, r4
	ldr	r2, [sp, #32]
	str	r2, [sp, #76]
	beq	.LBB61_243
	lsrs	r0, r0, #3
	muls	r3, r0, r3
	ldr	r0, [sp, #104]
	adds	r0, r0, r3
	mov	r2, r0
	subs	r2, #24
	ldm	r2!, {r1, r5}
	ldr	r3, [sp, #100]
	ands	r5, r3
	ldr	r7, [sp, #88]
	ands	r7, r1
	movs	r4, #0
	ldr	r3, [sp, #96]
	subs	r2, #8
	subs	r3, r3, r7
	ldr	r3, [sp, #92]
	sbcs	r3, r5
	mov	r6, r4
	blo	.LBB61_236
	mov	r6, r7
.LBB61_236:
	blo	.LBB61_238
	mov	r4, r5
.LBB61_238:
	ldr	r3, [sp, #80]
	eors	r4, r3
	ldr	r3, [sp, #68]
	eors	r6, r3
	orrs	r6, r4
	bne	.LBB61_242
	ldr	r6, [sp, #72]
	ands	r1, r6
	ldr	r4, [sp, #44]
	orrs	r1, r4
	str	r1, [r2]
	ldr	r0, [sp, #32]
	str	r0, [r2, #4]
	mov	r2, r0
	ldr	r1, [sp, #64]
	ldr	r0, [sp, #60]
	str	r0, [sp, #76]
	b	.LBB61_243
.LBB61_240:
	mov	r7, r3
	blo	.LBB61_231
.LBB61_241:
	mov	r0, r5
	cmp	r2, #0
	ldr	r3, [sp, #84]
	ldr	r6, [sp, #72]
	bne	.LBB61_232
	b	.LBB61_233
.LBB61_242:
	subs	r0, #16
	ldr	r4, [sp, #44]
	str	r4, [r0]
	ldr	r2, [sp, #32]
	str	r2, [r0, #4]
	ldr	r1, [sp, #64]
	ldr	r0, [sp, #60]
	str	r0, [sp, #76]
	ldr	r6, [sp, #72]
.LBB61_243:
	str	r1, [sp, #72]
	ldr	r0, [sp, #68]
	ldr	r1, [sp, #48]
	str	r0, [r1]
	ldr	r0, [sp, #80]
	str	r0, [r1, #4]
	orrs	r4, r6
	ldr	r0, [sp, #56]
	str	r4, [r0]
	str	r2, [r0, #4]
	b	.LBB61_159
.LBB61_244:
	ldr	r0, [sp, #64]
	str	r0, [sp, #72]
	ldr	r0, [sp, #60]
	str	r0, [sp, #76]
	b	.LBB61_159
.Lfunc_end61:
	.size	ic_raw.tree_calls.remove, .Lfunc_end61-ic_raw.tree_calls.remove
	.cfi_endproc
	.section	.text.unlikely.ic_raw.table.RawTable.refusal_at.19bacce014a8892a,"ax",%progbits
	.p2align	1
	.type	ic_raw.table.RawTable.refusal_at.19bacce014a8892a,%function
	.code	16
	.thumb_func
ic_raw.table.RawTable.refusal_at.19bacce014a8892a:
	.cfi_startproc
	push	{r4, lr}
	.cfi_def_cfa_offset 8
	.cfi_offset lr, -4
	.cfi_offset r4, -8
	ldr	r1, [sp, #8]
	adds	r1, r1, #1
	blo	.LBB62_2
.LBB62_1:
	movs	r0, #5
	pop	{r4, pc}
.LBB62_2:
	movs	r4, #0
	subs	r2, r2, r1
	sbcs	r3, r4
	bhs	.LBB62_4
	movs	r0, #1
	pop	{r4, pc}
.LBB62_4:
	movs	r2, #24
	muls	r2, r1, r2
	adds	r0, r0, r2
	subs	r0, #24
	ldrb	r0, [r0]
	lsls	r0, r0, #31
	bne	.LBB62_1
	movs	r0, #3
	pop	{r4, pc}
.Lfunc_end62:
	.size	ic_raw.table.RawTable.refusal_at.19bacce014a8892a, .Lfunc_end62-ic_raw.table.RawTable.refusal_at.19bacce014a8892a
	.cfi_endproc
	.section	.text.ic_raw.tree_calls.replace,"ax",%progbits
	.p2align	1
	.type	ic_raw.tree_calls.replace,%function
	.code	16
	.thumb_func
ic_raw.tree_calls.replace:
	.cfi_startproc
	push	{r4, r5, r6, r7, lr}
	.cfi_def_cfa_offset 20
	.cfi_offset lr, -4
	.cfi_offset r7, -8
	.cfi_offset r6, -12
	.cfi_offset r5, -16
	.cfi_offset r4, -20
	sub	sp, #124
	.cfi_def_cfa_offset 144
	mov	r5, r0
	ldr	r0, [sp, #148]
	adds	r6, r0, #1
	blo	.LBB63_2
	movs	r0, #4
	add	sp, #124
	pop	{r4, r5, r6, r7, pc}
.LBB63_2:
	str	r0, [sp, #44]
	ldr	r0, [sp, #152]
	str	r0, [sp, #48]
	ldr	r0, [sp, #144]
	str	r5, [sp, #104]
	ldr	r1, [r0]
	str	r0, [sp, #36]
	ldr	r7, [r0, #4]
	movs	r0, #0
	add	r4, sp, #108
	stm	r4!, {r0, r2, r3}
	str	r2, [sp, #72]
	subs	r4, r2, r6
	str	r3, [sp, #76]
	mov	r4, r3
	str	r0, [sp, #100]
	sbcs	r4, r0
	bhs	.LBB63_3
	b	.LBB63_29
.LBB63_3:
	movs	r4, #24
	str	r4, [sp, #88]
	muls	r4, r6, r4
	adds	r0, r5, r4
	str	r0, [sp, #64]
	subs	r0, #24
	str	r0, [sp, #60]
	ldrb	r4, [r0]
	lsls	r4, r4, #31
	bne	.LBB63_4
	b	.LBB63_29
.LBB63_4:
	movs	r0, #15
	str	r0, [sp, #96]
	ands	r7, r0
	movs	r2, #7
	mov	r0, r1
	str	r2, [sp, #68]
	bics	r1, r2
	str	r1, [sp, #52]
	str	r5, [sp, #92]
	subs	r5, r1, #1
	str	r7, [sp, #56]
	ldr	r1, [sp, #100]
	sbcs	r7, r1
	ldr	r2, [sp, #72]
	lsrs	r1, r2, #29
	ldr	r3, [sp, #76]
	lsls	r4, r3, #3
	adds	r4, r4, r1
	lsls	r1, r2, #3
	str	r1, [sp, #80]
	subs	r1, r5, r1
	mov	r1, r0
	ldr	r0, [sp, #92]
	str	r4, [sp, #84]
	sbcs	r7, r4
	blo	.LBB63_5
	b	.LBB63_29
.LBB63_5:
	lsrs	r1, r1, #3
	ldr	r4, [sp, #88]
	muls	r1, r4, r1
	adds	r1, r0, r1
	subs	r1, #24
	ldrb	r1, [r1]
	lsls	r1, r1, #31
	bne	.LBB63_6
	b	.LBB63_29
.LBB63_6:
	lsrs	r5, r6, #29
	lsls	r1, r6, #3
	ldr	r0, [sp, #68]
	mvns	r3, r0
	ldr	r0, [sp, #48]
	adds	r6, r0, #1
	ldr	r0, [sp, #52]
	str	r1, [sp, #12]
	eors	r0, r1
	ldr	r4, [sp, #56]
	str	r5, [sp, #8]
	eors	r4, r5
	orrs	r4, r0
	subs	r0, r4, #1
	sbcs	r4, r0
	ldr	r7, [sp, #64]
	subs	r7, #8
	ldm	r7!, {r0, r1}
	ldr	r5, [sp, #96]
	ands	r1, r5
	str	r3, [sp, #68]
	ands	r0, r3
	ldr	r3, [sp, #92]
	orrs	r0, r1
	subs	r7, #8
	rsbs	r5, r0, #0
	adcs	r5, r0
	ldr	r0, [sp, #72]
	subs	r0, r0, r6
	ldr	r0, [sp, #100]
	ldr	r1, [sp, #76]
	sbcs	r1, r0
	bhs	.LBB63_7
	b	.LBB63_29
.LBB63_7:
	cmp	r6, #0
	bne	.LBB63_8
	b	.LBB63_29
.LBB63_8:
	ands	r4, r5
	beq	.LBB63_9
	b	.LBB63_29
.LBB63_9:
	ldr	r0, [sp, #88]
	muls	r0, r6, r0
	adds	r1, r3, r0
	mov	r5, r1
	subs	r5, #24
	ldrb	r0, [r5]
	lsls	r0, r0, #31
	beq	.LBB63_10
	b	.LBB63_29
.LBB63_10:
	lsrs	r0, r6, #29
	str	r0, [sp, #72]
	lsls	r0, r6, #3
	str	r0, [sp, #76]
	ldr	r6, [sp, #100]
	strb	r6, [r5, #7]
	strb	r6, [r5, #6]
	strb	r6, [r5, #5]
	strb	r6, [r5, #4]
	strb	r6, [r5, #3]
	strb	r6, [r5, #2]
	strb	r6, [r5, #1]
	movs	r0, #1
	str	r0, [sp, #40]
	strb	r0, [r5]
	str	r6, [sp]
	str	r1, [sp, #32]
	mov	r0, r1
	subs	r0, #16
	movs	r2, #16
	str	r0, [sp, #28]
	mov	r1, r6
	mov	r3, r6
	bl	ic.clear
	ldr	r2, [r7]
	ldr	r1, [r7, #4]
	ldr	r0, [sp, #96]
	ands	r1, r0
	str	r2, [sp, #24]
	mov	r0, r2
	ldr	r7, [sp, #68]
	ands	r0, r7
	ldr	r2, [sp, #80]
	subs	r2, r2, r0
	ldr	r2, [sp, #84]
	sbcs	r2, r1
	mov	r3, r6
	blo	.LBB63_12
	mov	r3, r1
.LBB63_12:
	mov	r1, r6
	blo	.LBB63_14
	mov	r1, r0
.LBB63_14:
	str	r1, [sp, #48]
	str	r3, [sp, #20]
	orrs	r1, r3
	ldr	r2, [sp, #64]
	subs	r2, #16
	ldm	r2!, {r0, r3}
	ldr	r4, [sp, #96]
	ands	r3, r4
	ands	r0, r7
	ldr	r4, [sp, #80]
	subs	r4, r4, r0
	ldr	r4, [sp, #84]
	sbcs	r4, r3
	mov	r2, r6
	ldr	r7, [sp, #40]
	blo	.LBB63_16
	mov	r2, r3
.LBB63_16:
	str	r2, [sp, #44]
	mov	r2, r6
	blo	.LBB63_18
	mov	r2, r0
.LBB63_18:
	str	r2, [sp, #16]
	ldr	r0, [sp, #60]
	ldr	r3, [r0]
	ldr	r0, [r0, #4]
	ldr	r4, [sp, #96]
	ands	r0, r4
	ldr	r2, [sp, #68]
	ands	r3, r2
	ldr	r4, [sp, #80]
	subs	r4, r4, r3
	ldr	r4, [sp, #84]
	sbcs	r4, r0
	str	r6, [sp, #64]
	blo	.LBB63_20
	str	r0, [sp, #64]
.LBB63_20:
	blo	.LBB63_22
	mov	r6, r3
.LBB63_22:
	cmp	r1, #0
	ldr	r0, [sp, #76]
	ldr	r1, [sp, #72]
	ldr	r2, [sp, #44]
	beq	.LBB63_31
	str	r6, [sp, #100]
	ldr	r0, [sp, #48]
	lsrs	r0, r0, #3
	ldr	r1, [sp, #88]
	muls	r0, r1, r0
	ldr	r1, [sp, #92]
	adds	r3, r1, r0
	mov	r1, r3
	subs	r1, #24
	ldm	r1!, {r6, r7}
	ldr	r0, [sp, #96]
	ands	r7, r0
	ldr	r2, [sp, #68]
	ands	r2, r6
	movs	r0, #0
	ldr	r4, [sp, #80]
	subs	r1, #8
	subs	r4, r4, r2
	ldr	r4, [sp, #84]
	sbcs	r4, r7
	mov	r4, r0
	blo	.LBB63_25
	mov	r4, r2
.LBB63_25:
	blo	.LBB63_27
	mov	r0, r7
.LBB63_27:
	ldr	r7, [sp, #8]
	eors	r0, r7
	ldr	r7, [sp, #12]
	eors	r4, r7
	orrs	r4, r0
	ldr	r2, [sp, #44]
	bne	.LBB63_30
	ldr	r7, [sp, #40]
	ands	r6, r7
	ldr	r0, [sp, #76]
	orrs	r6, r0
	str	r6, [r1]
	ldr	r0, [sp, #72]
	str	r0, [r1, #4]
	ldr	r0, [sp, #52]
	ldr	r1, [sp, #56]
	ldr	r6, [sp, #100]
	b	.LBB63_31
.LBB63_29:
	add	r0, sp, #104
	ldr	r1, [sp, #44]
	ldr	r2, [sp, #48]
	bl	ic_raw.table.RawTable.refusal.19bacce014a8892a
	add	sp, #124
	pop	{r4, r5, r6, r7, pc}
.LBB63_30:
	subs	r3, #16
	ldr	r0, [sp, #76]
	str	r0, [r3]
	ldr	r0, [sp, #72]
	str	r0, [r3, #4]
	ldr	r0, [sp, #52]
	ldr	r1, [sp, #56]
	ldr	r6, [sp, #100]
	ldr	r7, [sp, #40]
.LBB63_31:
	str	r1, [sp, #96]
	str	r0, [sp, #100]
	mov	r0, r6
	ldr	r1, [sp, #64]
	orrs	r0, r1
	beq	.LBB63_33
	lsrs	r0, r6, #3
	ldr	r4, [sp, #88]
	muls	r0, r4, r0
	ldr	r1, [sp, #92]
	adds	r0, r1, r0
	subs	r0, #8
	ldr	r3, [sp, #72]
	str	r3, [r0, #4]
	ldr	r4, [r0]
	ands	r4, r7
	ldr	r3, [sp, #76]
	orrs	r4, r3
	str	r4, [r0]
.LBB63_33:
	ldr	r1, [sp, #16]
	mov	r0, r1
	orrs	r0, r2
	beq	.LBB63_35
	lsrs	r0, r1, #3
	ldr	r4, [sp, #88]
	muls	r4, r0, r4
	ldr	r0, [sp, #92]
	adds	r0, r0, r4
	subs	r0, #8
	ldr	r3, [sp, #72]
	str	r3, [r0, #4]
	ldr	r4, [r0]
	ands	r4, r7
	ldr	r3, [sp, #76]
	orrs	r4, r3
	str	r4, [r0]
.LBB63_35:
	ldr	r0, [sp, #64]
	str	r0, [r5, #4]
	ldr	r0, [sp, #32]
	subs	r0, #8
	ldr	r3, [sp, #28]
	stm	r3!, {r1, r2}
	ldr	r3, [sp, #24]
	ands	r3, r7
	ldr	r2, [sp, #48]
	orrs	r2, r3
	str	r2, [r0]
	ldr	r2, [sp, #20]
	str	r2, [r0, #4]
	ldr	r0, [r5]
	ands	r0, r7
	orrs	r0, r6
	str	r0, [r5]
	movs	r0, #0
	ldr	r2, [sp, #60]
	str	r0, [r2]
	str	r0, [r2, #4]
	ldr	r2, [sp, #36]
	ldr	r1, [sp, #100]
	str	r1, [r2]
	ldr	r1, [sp, #96]
	str	r1, [r2, #4]
	add	sp, #124
	pop	{r4, r5, r6, r7, pc}
.Lfunc_end63:
	.size	ic_raw.tree_calls.replace, .Lfunc_end63-ic_raw.tree_calls.replace
	.cfi_endproc
	.section	.text.unlikely.ic_raw.search.refusal,"ax",%progbits
	.p2align	1
	.type	ic_raw.search.refusal,%function
	.code	16
	.thumb_func
ic_raw.search.refusal:
	.cfi_startproc
	subs	r0, r2, r0
	sbcs	r3, r1
	blo	.LBB64_2
	movs	r0, #5
	bx	lr
.LBB64_2:
	movs	r0, #1
	bx	lr
.Lfunc_end64:
	.size	ic_raw.search.refusal, .Lfunc_end64-ic_raw.search.refusal
	.cfi_endproc
	.section	.text.ic_raw.tree.step_from_none,"ax",%progbits
	.p2align	1
	.type	ic_raw.tree.step_from_none,%function
	.code	16
	.thumb_func
ic_raw.tree.step_from_none:
	.cfi_startproc
	push	{r4, r5, r6, r7, lr}
	.cfi_def_cfa_offset 20
	.cfi_offset lr, -4
	.cfi_offset r7, -8
	.cfi_offset r6, -12
	.cfi_offset r5, -16
	.cfi_offset r4, -20
	sub	sp, #44
	.cfi_def_cfa_offset 64
	ldr	r5, [sp, #68]
	ldr	r7, [sp, #64]
	mov	r1, r7
	orrs	r1, r5
	bne	.LBB65_1
	b	.LBB65_11
.LBB65_1:
	str	r0, [sp, #40]
	lsrs	r0, r7, #3
	lsls	r1, r5, #29
	adds	r6, r0, r1
	lsrs	r1, r5, #3
	movs	r0, #5
	subs	r4, r2, r6
	mov	r4, r3
	sbcs	r4, r1
	bhs	.LBB65_2
	b	.LBB65_22
.LBB65_2:
	movs	r1, #24
	str	r1, [sp, #36]
	muls	r6, r1, r6
	ldr	r4, [sp, #40]
	adds	r1, r4, r6
	subs	r1, #24
	ldrb	r1, [r1]
	lsls	r1, r1, #31
	bne	.LBB65_3
	b	.LBB65_22
.LBB65_3:
	str	r0, [sp, #4]
	ldr	r0, [sp, #72]
	lsrs	r1, r2, #29
	lsls	r3, r3, #3
	adds	r1, r3, r1
	str	r1, [sp, #32]
	lsls	r1, r2, #3
	str	r1, [sp, #28]
	movs	r1, #7
	mvns	r6, r1
	movs	r3, #15
	lsls	r0, r0, #24
	str	r6, [sp, #24]
	str	r3, [sp, #20]
	beq	.LBB65_12
	movs	r0, #64
	str	r0, [sp, #12]
	ldr	r1, [sp, #36]
.LBB65_5:
	lsrs	r0, r7, #3
	muls	r0, r1, r0
	adds	r0, r4, r0
	subs	r0, #24
	ldm	r0!, {r1, r2}
	ands	r2, r3
	mov	r3, r1
	ands	r3, r6
	movs	r0, #0
	str	r0, [sp, #16]
	subs	r4, r3, #1
	str	r4, [sp, #8]
	mov	r6, r2
	sbcs	r6, r0
	ldr	r4, [sp, #28]
	ldr	r0, [sp, #8]
	subs	r4, r0, r4
	ldr	r4, [sp, #32]
	sbcs	r6, r4
	blo	.LBB65_6
	b	.LBB65_20
.LBB65_6:
	lsrs	r1, r1, #3
	ldr	r4, [sp, #36]
	muls	r1, r4, r1
	ldr	r4, [sp, #40]
	adds	r4, r4, r1
	subs	r4, #24
	ldm	r4!, {r1, r6}
	ldr	r4, [sp, #20]
	ands	r6, r4
	mov	r4, r1
	ldr	r5, [sp, #24]
	ands	r4, r5
	subs	r5, r4, #1
	str	r5, [sp, #8]
	mov	r7, r6
	ldr	r0, [sp, #16]
	sbcs	r7, r0
	ldr	r5, [sp, #28]
	ldr	r0, [sp, #8]
	subs	r5, r0, r5
	ldr	r5, [sp, #32]
	sbcs	r7, r5
	mov	r7, r3
	mov	r5, r2
	blo	.LBB65_7
	b	.LBB65_20
.LBB65_7:
	lsrs	r1, r1, #3
	ldr	r2, [sp, #36]
	muls	r1, r2, r1
	ldr	r2, [sp, #40]
	adds	r2, r2, r1
	subs	r2, #24
	ldm	r2, {r1, r2}
	ldr	r3, [sp, #20]
	ands	r2, r3
	mov	r3, r1
	ldr	r5, [sp, #24]
	ands	r3, r5
	subs	r0, r3, #1
	str	r0, [sp, #8]
	mov	r7, r2
	ldr	r0, [sp, #16]
	sbcs	r7, r0
	ldr	r5, [sp, #28]
	ldr	r0, [sp, #8]
	subs	r5, r0, r5
	ldr	r5, [sp, #32]
	sbcs	r7, r5
	mov	r7, r4
	mov	r5, r6
	blo	.LBB65_8
	b	.LBB65_20
.LBB65_8:
	ldr	r7, [sp, #16]
	ldr	r0, [sp, #12]
	cmp	r0, #0
	bne	.LBB65_9
	b	.LBB65_19
.LBB65_9:
	lsrs	r1, r1, #3
	ldr	r0, [sp, #36]
	muls	r1, r0, r1
	ldr	r0, [sp, #40]
	adds	r4, r0, r1
	subs	r4, #24
	ldm	r4, {r1, r4}
	ldr	r0, [sp, #20]
	ands	r4, r0
	ldr	r0, [sp, #24]
	ands	r1, r0
	subs	r5, r1, #1
	mov	r6, r4
	sbcs	r6, r7
	ldr	r0, [sp, #28]
	subs	r0, r5, r0
	ldr	r0, [sp, #32]
	sbcs	r6, r0
	mov	r7, r3
	mov	r5, r2
	bhs	.LBB65_20
	ldr	r0, [sp, #12]
	subs	r0, r0, #4
	str	r0, [sp, #12]
	mov	r7, r1
	mov	r5, r4
	ldr	r4, [sp, #40]
	ldr	r1, [sp, #36]
	ldr	r6, [sp, #24]
	ldr	r3, [sp, #20]
	b	.LBB65_5
.LBB65_11:
	movs	r0, #4
	add	sp, #44
	pop	{r4, r5, r6, r7, pc}
.LBB65_12:
	movs	r0, #64
	str	r0, [sp, #12]
	ldr	r1, [sp, #36]
.LBB65_13:
	lsrs	r0, r7, #3
	muls	r0, r1, r0
	adds	r0, r4, r0
	subs	r0, #16
	ldm	r0!, {r1, r2}
	ands	r2, r3
	mov	r3, r1
	ands	r3, r6
	movs	r0, #0
	str	r0, [sp, #16]
	subs	r4, r3, #1
	str	r4, [sp, #8]
	mov	r6, r2
	sbcs	r6, r0
	ldr	r4, [sp, #28]
	ldr	r0, [sp, #8]
	subs	r4, r0, r4
	ldr	r4, [sp, #32]
	sbcs	r6, r4
	bhs	.LBB65_20
	lsrs	r1, r1, #3
	ldr	r4, [sp, #36]
	muls	r1, r4, r1
	ldr	r4, [sp, #40]
	adds	r4, r4, r1
	subs	r4, #16
	ldm	r4!, {r1, r6}
	ldr	r4, [sp, #20]
	ands	r6, r4
	mov	r4, r1
	ldr	r5, [sp, #24]
	ands	r4, r5
	subs	r5, r4, #1
	str	r5, [sp, #8]
	mov	r7, r6
	ldr	r0, [sp, #16]
	sbcs	r7, r0
	ldr	r5, [sp, #28]
	ldr	r0, [sp, #8]
	subs	r5, r0, r5
	ldr	r5, [sp, #32]
	sbcs	r7, r5
	mov	r7, r3
	mov	r5, r2
	bhs	.LBB65_20
	lsrs	r1, r1, #3
	ldr	r2, [sp, #36]
	muls	r1, r2, r1
	ldr	r2, [sp, #40]
	adds	r2, r2, r1
	subs	r2, #16
	ldm	r2, {r1, r2}
	ldr	r3, [sp, #20]
	ands	r2, r3
	mov	r3, r1
	ldr	r5, [sp, #24]
	ands	r3, r5
	subs	r0, r3, #1
	str	r0, [sp, #8]
	mov	r7, r2
	ldr	r0, [sp, #16]
	sbcs	r7, r0
	ldr	r5, [sp, #28]
	ldr	r0, [sp, #8]
	subs	r5, r0, r5
	ldr	r5, [sp, #32]
	sbcs	r7, r5
	mov	r7, r4
	mov	r5, r6
	bhs	.LBB65_20
	ldr	r7, [sp, #16]
	ldr	r0, [sp, #12]
	cmp	r0, #0
	beq	.LBB65_19
	lsrs	r1, r1, #3
	ldr	r0, [sp, #36]
	muls	r1, r0, r1
	ldr	r0, [sp, #40]
	adds	r4, r0, r1
	subs	r4, #16
	ldm	r4, {r1, r4}
	ldr	r0, [sp, #20]
	ands	r4, r0
	ldr	r0, [sp, #24]
	ands	r1, r0
	subs	r5, r1, #1
	mov	r6, r4
	sbcs	r6, r7
	ldr	r0, [sp, #28]
	subs	r0, r5, r0
	ldr	r0, [sp, #32]
	sbcs	r6, r0
	mov	r7, r3
	mov	r5, r2
	bhs	.LBB65_20
	ldr	r0, [sp, #12]
	subs	r0, r0, #4
	str	r0, [sp, #12]
	mov	r7, r1
	mov	r5, r4
	ldr	r4, [sp, #40]
	ldr	r1, [sp, #36]
	ldr	r6, [sp, #24]
	ldr	r3, [sp, #20]
	b	.LBB65_13
.LBB65_19:
	mov	r7, r3
	mov	r5, r2
.LBB65_20:
	lsrs	r0, r7, #3
	lsls	r1, r5, #29
	adds	r2, r0, r1
	ldr	r0, [sp, #36]
	muls	r0, r2, r0
	ldr	r1, [sp, #40]
	adds	r1, r1, r0
	subs	r1, #24
	ldrb	r1, [r1]
	lsls	r1, r1, #31
	ldr	r0, [sp, #4]
	beq	.LBB65_22
	ldr	r1, [sp, #76]
	subs	r0, r2, #1
	str	r0, [r1]
	movs	r0, #0
.LBB65_22:
	add	sp, #44
	pop	{r4, r5, r6, r7, pc}
.Lfunc_end65:
	.size	ic_raw.tree.step_from_none, .Lfunc_end65-ic_raw.tree.step_from_none
	.cfi_endproc
	.section	.text.unlikely.ic_raw.table.RawTable.refusal_of.19bacce014a8892a,"ax",%progbits
	.p2align	1
	.type	ic_raw.table.RawTable.refusal_of.19bacce014a8892a,%function
	.code	16
	.thumb_func
ic_raw.table.RawTable.refusal_of.19bacce014a8892a:
	.cfi_startproc
	push	{r4, r5, r7, lr}
	.cfi_def_cfa_offset 16
	.cfi_offset lr, -4
	.cfi_offset r7, -8
	.cfi_offset r5, -12
	.cfi_offset r4, -16
	ldr	r4, [sp, #20]
	lsls	r1, r4, #29
	ldr	r5, [sp, #16]
	lsrs	r5, r5, #3
	adds	r1, r5, r1
	lsrs	r4, r4, #3
	subs	r2, r2, r1
	sbcs	r3, r4
	bhs	.LBB66_2
	movs	r0, #1
	pop	{r4, r5, r7, pc}
.LBB66_2:
	movs	r2, #24
	muls	r2, r1, r2
	adds	r0, r0, r2
	subs	r0, #24
	ldrb	r0, [r0]
	lsls	r0, r0, #31
	beq	.LBB66_4
	movs	r0, #5
	pop	{r4, r5, r7, pc}
.LBB66_4:
	movs	r0, #3
	pop	{r4, r5, r7, pc}
.Lfunc_end66:
	.size	ic_raw.table.RawTable.refusal_of.19bacce014a8892a, .Lfunc_end66-ic_raw.table.RawTable.refusal_of.19bacce014a8892a
	.cfi_endproc
	.section	.text.unlikely.ic_raw.tree.nothing_found,"ax",%progbits
	.p2align	1
	.type	ic_raw.tree.nothing_found,%function
	.code	16
	.thumb_func
ic_raw.tree.nothing_found:
	.cfi_startproc
	lsls	r0, r0, #24
	beq	.LBB67_2
	movs	r0, #5
	bx	lr
.LBB67_2:
	movs	r0, #4
	bx	lr
.Lfunc_end67:
	.size	ic_raw.tree.nothing_found, .Lfunc_end67-ic_raw.tree.nothing_found
	.cfi_endproc
	.section	.text.unlikely.ic_raw_augmented.sum_calls.refusal,"ax",%progbits
	.p2align	1
	.type	ic_raw_augmented.sum_calls.refusal,%function
	.code	16
	.thumb_func
ic_raw_augmented.sum_calls.refusal:
	.cfi_startproc
	push	{r4, r5, r6, r7, lr}
	.cfi_def_cfa_offset 20
	.cfi_offset lr, -4
	.cfi_offset r7, -8
	.cfi_offset r6, -12
	.cfi_offset r5, -16
	.cfi_offset r4, -20
	ldr	r1, [sp, #20]
	adds	r5, r1, #1
	blo	.LBB68_4
	ldr	r1, [r0, #8]
	ldr	r4, [r0, #12]
.LBB68_2:
	subs	r0, r2, r1
	sbcs	r3, r4
	blo	.LBB68_5
	movs	r0, #5
	pop	{r4, r5, r6, r7, pc}
.LBB68_4:
	ldr	r1, [r0, #8]
	ldr	r4, [r0, #12]
	movs	r6, #0
	subs	r7, r1, r5
	mov	r7, r4
	sbcs	r7, r6
	bhs	.LBB68_6
.LBB68_5:
	movs	r0, #1
	pop	{r4, r5, r6, r7, pc}
.LBB68_6:
	movs	r6, #24
	muls	r6, r5, r6
	ldr	r0, [r0]
	adds	r0, r0, r6
	subs	r0, #24
	ldrb	r0, [r0]
	lsls	r0, r0, #31
	bne	.LBB68_2
	movs	r0, #3
	pop	{r4, r5, r6, r7, pc}
.Lfunc_end68:
	.size	ic_raw_augmented.sum_calls.refusal, .Lfunc_end68-ic_raw_augmented.sum_calls.refusal
	.cfi_endproc
	.section	.text.ic_raw_augmented.find.find,"ax",%progbits
	.p2align	1
	.type	ic_raw_augmented.find.find,%function
	.code	16
	.thumb_func
ic_raw_augmented.find.find:
	.cfi_startproc
	push	{r4, r5, r6, r7, lr}
	.cfi_def_cfa_offset 20
	.cfi_offset lr, -4
	.cfi_offset r7, -8
	.cfi_offset r6, -12
	.cfi_offset r5, -16
	.cfi_offset r4, -20
	sub	sp, #100
	.cfi_def_cfa_offset 120
	str	r2, [sp, #16]
	str	r0, [sp, #8]
	movs	r0, #7
	mvns	r6, r0
	ldr	r0, [sp, #144]
	lsls	r3, r0, #31
	movs	r7, #15
	ldr	r0, [sp, #164]
	str	r0, [sp, #72]
	ldr	r0, [sp, #160]
	str	r0, [sp, #68]
	ldr	r2, [sp, #152]
	ldr	r0, [sp, #124]
	str	r0, [sp, #48]
	ldr	r0, [sp, #120]
	str	r0, [sp, #44]
	ldr	r0, [sp, #128]
	str	r0, [sp, #20]
	str	r3, [sp, #84]
	cmp	r3, #0
	str	r6, [sp, #40]
	str	r7, [sp, #96]
	str	r2, [sp, #88]
	str	r1, [sp, #92]
	beq	.LBB69_2
	lsrs	r0, r2, #3
	movs	r3, #24
	muls	r3, r0, r3
	ldr	r0, [r1]
	adds	r3, r0, r3
	subs	r3, #16
	ldm	r3, {r0, r3}
	ands	r3, r7
	ands	r0, r6
	movs	r2, #0
	subs	r4, r0, #1
	str	r4, [sp, #80]
	mov	r6, r3
	sbcs	r6, r2
	ldr	r5, [r1, #8]
	ldr	r1, [r1, #12]
	lsrs	r4, r5, #29
	lsls	r1, r1, #3
	adds	r1, r1, r4
	lsls	r4, r5, #3
	ldr	r5, [sp, #80]
	subs	r4, r5, r4
	sbcs	r6, r1
	mov	r1, r2
	ldr	r6, [sp, #40]
	str	r2, [sp, #64]
	blo	.LBB69_4
	b	.LBB69_37
.LBB69_2:
	ldr	r0, [sp, #132]
	lsls	r0, r0, #31
	bne	.LBB69_3
	b	.LBB69_71
.LBB69_3:
	ldr	r3, [sp, #140]
	ldr	r0, [sp, #136]
.LBB69_4:
	str	r0, [sp, #32]
	lsrs	r1, r0, #3
	lsls	r4, r3, #29
	adds	r1, r1, r4
	lsrs	r5, r3, #3
	movs	r2, #0
	subs	r4, r1, #1
	sbcs	r5, r2
	ldr	r0, [sp, #44]
	subs	r1, r4, r0
	mov	r1, r2
	ldr	r0, [sp, #48]
	sbcs	r5, r0
	mov	r0, r2
	blo	.LBB69_5
	b	.LBB69_36
.LBB69_5:
	lsls	r1, r4, #4
	ldr	r4, [sp, #16]
	adds	r1, r4, r1
	ldr	r2, [r1, #8]
	ldr	r4, [r1, #12]
	ldr	r0, [sp, #68]
	subs	r1, r0, r2
	mov	r0, r4
	ldr	r1, [sp, #72]
	sbcs	r1, r4
	mov	r1, r2
	blo	.LBB69_6
	b	.LBB69_36
.LBB69_6:
	ldr	r5, [sp, #92]
	ldr	r1, [r5, #8]
	ldr	r2, [r5, #12]
	lsrs	r4, r1, #29
	lsls	r2, r2, #3
	adds	r0, r2, r4
	str	r0, [sp, #84]
	ldr	r0, [r5]
	str	r0, [sp, #28]
	lsls	r0, r1, #3
	str	r0, [sp, #80]
	movs	r0, #0
	movs	r1, #67
	str	r0, [sp, #88]
	str	r0, [sp, #24]
	str	r0, [sp, #76]
	mov	r0, r1
	ldr	r5, [sp, #32]
	b	.LBB69_9
.LBB69_7:
	ldr	r1, [sp, #56]
	cmp	r1, #0
	mov	r3, r2
	ldr	r7, [sp, #96]
	bne	.LBB69_8
	b	.LBB69_106
.LBB69_8:
	subs	r0, r0, #1
	bne	.LBB69_9
	b	.LBB69_106
.LBB69_9:
	str	r0, [sp, #92]
	str	r5, [sp, #32]
	lsrs	r1, r5, #3
	lsls	r2, r3, #29
	adds	r0, r1, r2
	movs	r1, #24
	str	r0, [sp, #64]
	muls	r1, r0, r1
	ldr	r0, [sp, #28]
	adds	r1, r0, r1
	str	r1, [sp, #36]
	subs	r1, #24
	ldr	r5, [r1]
	ldr	r2, [r1, #4]
	ands	r2, r7
	ands	r5, r6
	subs	r1, r5, #1
	mov	r4, r2
	ldr	r6, [sp, #24]
	sbcs	r4, r6
	lsrs	r0, r3, #3
	str	r0, [sp, #60]
	movs	r7, #1
	ldr	r0, [sp, #80]
	subs	r1, r1, r0
	ldr	r0, [sp, #84]
	sbcs	r4, r0
	blo	.LBB69_11
	mov	r7, r6
.LBB69_11:
	str	r7, [sp, #56]
	mov	r4, r6
	bhs	.LBB69_14
	lsrs	r1, r5, #3
	lsls	r4, r2, #29
	adds	r1, r1, r4
	lsrs	r6, r2, #3
	movs	r4, #0
	subs	r1, r1, #1
	sbcs	r6, r4
	ldr	r0, [sp, #44]
	subs	r7, r1, r0
	ldr	r0, [sp, #48]
	sbcs	r6, r0
	mov	r6, r4
	bhs	.LBB69_14
	lsls	r1, r1, #4
	ldr	r4, [sp, #16]
	adds	r1, r4, r1
	ldr	r4, [r1, #8]
	ldr	r6, [r1, #12]
.LBB69_14:
	ldr	r0, [sp, #20]
	lsls	r0, r0, #31
	str	r0, [sp, #52]
	beq	.LBB69_30
	ldr	r0, [sp, #88]
	subs	r1, r4, r0
	mov	r1, r6
	ldr	r7, [sp, #76]
	sbcs	r1, r7
	ldr	r0, [sp, #92]
	blo	.LBB69_17
	mov	r7, r6
.LBB69_17:
	ldr	r1, [sp, #88]
	blo	.LBB69_19
.LBB69_18:
	mov	r1, r4
.LBB69_19:
	ldr	r6, [sp, #40]
	ldr	r4, [sp, #68]
	subs	r4, r4, r1
	ldr	r4, [sp, #72]
	sbcs	r4, r7
	blo	.LBB69_7
	movs	r2, #0
	ldr	r0, [sp, #64]
	subs	r5, r0, #1
	ldr	r0, [sp, #60]
	sbcs	r0, r2
	ldr	r4, [sp, #44]
	subs	r4, r5, r4
	ldr	r4, [sp, #48]
	sbcs	r0, r4
	mov	r4, r2
	bhs	.LBB69_22
	lsls	r4, r5, #4
	ldr	r5, [sp, #16]
	ldr	r2, [r5, r4]
	adds	r4, r5, r4
	ldr	r4, [r4, #4]
.LBB69_22:
	ldr	r0, [sp, #52]
	cmp	r0, #0
	beq	.LBB69_33
	subs	r5, r2, r1
	mov	r5, r4
	sbcs	r5, r7
	blo	.LBB69_25
	mov	r7, r4
.LBB69_25:
	blo	.LBB69_27
.LBB69_26:
	mov	r1, r2
.LBB69_27:
	ldr	r2, [sp, #68]
	subs	r2, r2, r1
	ldr	r2, [sp, #72]
	sbcs	r2, r7
	bhs	.LBB69_28
	b	.LBB69_109
.LBB69_28:
	ldr	r2, [sp, #36]
	subs	r2, #16
	mov	r0, r6
	ldr	r6, [r2]
	ldr	r3, [r2, #4]
	str	r7, [sp, #76]
	ldr	r7, [sp, #96]
	ands	r3, r7
	ands	r6, r0
	movs	r2, #0
	subs	r4, r6, #1
	mov	r5, r3
	sbcs	r5, r2
	ldr	r2, [sp, #80]
	subs	r2, r4, r2
	ldr	r2, [sp, #84]
	sbcs	r5, r2
	str	r1, [sp, #88]
	mov	r5, r6
	mov	r6, r0
	ldr	r0, [sp, #92]
	bhs	.LBB69_29
	b	.LBB69_8
.LBB69_29:
	b	.LBB69_106
.LBB69_30:
	movs	r1, #0
	ldr	r0, [sp, #88]
	adds	r4, r4, r0
	ldr	r0, [sp, #76]
	adcs	r6, r0
	mov	r7, r1
	adcs	r7, r1
	mvns	r1, r1
	cmp	r7, #0
	mov	r7, r1
	ldr	r0, [sp, #92]
	bne	.LBB69_32
	mov	r7, r6
.LBB69_32:
	beq	.LBB69_18
	b	.LBB69_19
.LBB69_33:
	movs	r5, #0
	adds	r2, r2, r1
	adcs	r4, r7
	mov	r6, r5
	adcs	r6, r5
	mvns	r1, r5
	cmp	r6, #0
	mov	r7, r1
	bne	.LBB69_35
	mov	r7, r4
.LBB69_35:
	ldr	r6, [sp, #40]
	beq	.LBB69_26
	b	.LBB69_27
.LBB69_36:
	str	r0, [sp, #64]
	ldr	r0, [sp, #84]
	cmp	r0, #0
	bne	.LBB69_37
	b	.LBB69_71
.LBB69_37:
	str	r1, [sp, #24]
	ldr	r3, [sp, #156]
	ldr	r2, [sp, #92]
	ldr	r0, [r2, #8]
	ldr	r1, [r2, #12]
	lsrs	r4, r0, #29
	lsls	r1, r1, #3
	adds	r1, r1, r4
	str	r1, [sp, #60]
	ldr	r2, [r2]
	lsls	r0, r0, #3
	str	r0, [sp, #56]
	movs	r0, #67
	ldr	r1, [sp, #88]
	str	r2, [sp, #36]
	b	.LBB69_40
.LBB69_38:
	mov	r6, r7
	ldr	r7, [sp, #96]
	ldr	r0, [sp, #84]
.LBB69_39:
	subs	r0, r0, #1
	ldr	r1, [sp, #80]
	mov	r3, r2
	ldr	r2, [sp, #36]
	bne	.LBB69_40
	b	.LBB69_102
.LBB69_40:
	str	r3, [sp, #88]
	str	r0, [sp, #84]
	mov	r0, r1
	lsrs	r1, r1, #3
	movs	r3, #24
	str	r3, [sp, #92]
	muls	r1, r3, r1
	adds	r4, r2, r1
	subs	r4, #8
	ldm	r4, {r3, r4}
	ands	r4, r7
	ands	r3, r6
	movs	r1, #0
	subs	r5, r3, #1
	mov	r7, r6
	mov	r6, r4
	str	r1, [sp, #52]
	sbcs	r6, r1
	ldr	r1, [sp, #56]
	subs	r5, r5, r1
	ldr	r1, [sp, #60]
	sbcs	r6, r1
	blo	.LBB69_41
	b	.LBB69_105
.LBB69_41:
	str	r3, [sp, #80]
	lsrs	r5, r3, #3
	lsls	r6, r4, #29
	adds	r5, r5, r6
	ldr	r6, [sp, #92]
	muls	r6, r5, r6
	adds	r6, r2, r6
	subs	r6, #16
	ldm	r6!, {r1, r2}
	ldr	r3, [sp, #96]
	ands	r2, r3
	str	r2, [sp, #76]
	ldr	r3, [sp, #88]
	eors	r3, r2
	ands	r1, r7
	str	r1, [sp, #88]
	eors	r0, r1
	orrs	r0, r3
	mov	r2, r4
	beq	.LBB69_38
	mov	r4, r2
	lsrs	r3, r2, #3
	movs	r2, #0
	subs	r5, r5, #1
	sbcs	r3, r2
	ldr	r0, [sp, #44]
	subs	r6, r5, r0
	ldr	r0, [sp, #48]
	sbcs	r3, r0
	mov	r3, r2
	ldr	r6, [sp, #24]
	bhs	.LBB69_44
	lsls	r3, r5, #4
	ldr	r5, [sp, #16]
	ldr	r2, [r5, r3]
	adds	r3, r5, r3
	ldr	r3, [r3, #4]
.LBB69_44:
	ldr	r0, [sp, #20]
	lsls	r0, r0, #31
	str	r0, [sp, #28]
	ldr	r7, [sp, #96]
	beq	.LBB69_60
	subs	r5, r2, r6
	mov	r5, r3
	ldr	r0, [sp, #64]
	sbcs	r5, r0
	ldr	r5, [sp, #52]
	blo	.LBB69_47
	mov	r0, r3
.LBB69_47:
	blo	.LBB69_49
.LBB69_48:
	mov	r6, r2
.LBB69_49:
	mov	r3, r0
	ldr	r0, [sp, #68]
	subs	r2, r0, r6
	ldr	r2, [sp, #72]
	sbcs	r2, r3
	bhs	.LBB69_50
	b	.LBB69_107
.LBB69_50:
	mov	r1, r3
	movs	r3, #0
	ldr	r0, [sp, #88]
	subs	r2, r0, #1
	ldr	r5, [sp, #76]
	sbcs	r5, r3
	movs	r0, #1
	str	r0, [sp, #12]
	ldr	r0, [sp, #56]
	subs	r2, r2, r0
	ldr	r0, [sp, #60]
	sbcs	r5, r0
	blo	.LBB69_52
	str	r3, [sp, #12]
.LBB69_52:
	mov	r2, r3
	str	r6, [sp, #32]
	bhs	.LBB69_55
	ldr	r0, [sp, #88]
	lsrs	r2, r0, #3
	ldr	r0, [sp, #76]
	lsls	r3, r0, #29
	adds	r2, r2, r3
	lsrs	r6, r0, #3
	movs	r3, #0
	subs	r5, r2, #1
	sbcs	r6, r3
	ldr	r0, [sp, #44]
	subs	r2, r5, r0
	ldr	r0, [sp, #48]
	sbcs	r6, r0
	ldr	r6, [sp, #32]
	mov	r2, r3
	bhs	.LBB69_55
	lsls	r2, r5, #4
	ldr	r3, [sp, #16]
	adds	r2, r3, r2
	ldr	r3, [r2, #8]
	ldr	r2, [r2, #12]
.LBB69_55:
	ldr	r0, [sp, #28]
	cmp	r0, #0
	beq	.LBB69_63
	subs	r5, r3, r6
	mov	r5, r2
	sbcs	r5, r1
	mov	r5, r1
	mov	r0, r1
	ldr	r6, [sp, #40]
	blo	.LBB69_58
	mov	r0, r2
.LBB69_58:
	str	r0, [sp, #64]
	ldr	r1, [sp, #32]
	blo	.LBB69_68
	mov	r1, r3
	b	.LBB69_68
.LBB69_60:
	movs	r5, #0
	adds	r2, r2, r6
	ldr	r0, [sp, #64]
	adcs	r3, r0
	mov	r6, r5
	adcs	r6, r5
	mvns	r0, r5
	cmp	r6, #0
	mov	r6, r0
	bne	.LBB69_62
	mov	r0, r3
.LBB69_62:
	ldr	r5, [sp, #52]
	beq	.LBB69_48
	b	.LBB69_49
.LBB69_63:
	movs	r5, #0
	adds	r3, r3, r6
	adcs	r2, r1
	mov	r6, r5
	adcs	r6, r5
	mvns	r5, r5
	cmp	r6, #0
	mov	r0, r5
	str	r5, [sp, #64]
	bne	.LBB69_65
	str	r2, [sp, #64]
.LBB69_65:
	ldr	r6, [sp, #40]
	bne	.LBB69_67
	mov	r0, r3
.LBB69_67:
	mov	r5, r1
	mov	r1, r0
.LBB69_68:
	ldr	r0, [sp, #68]
	str	r1, [sp, #24]
	subs	r2, r0, r1
	ldr	r2, [sp, #72]
	ldr	r0, [sp, #64]
	sbcs	r2, r0
	ldr	r0, [sp, #84]
	mov	r2, r4
	blo	.LBB69_69
	b	.LBB69_39
.LBB69_69:
	ldr	r0, [sp, #12]
	cmp	r0, #0
	bne	.LBB69_70
	b	.LBB69_102
.LBB69_70:
	movs	r0, #67
	ldr	r4, [sp, #36]
	b	.LBB69_74
.LBB69_71:
	movs	r1, #0
	ldr	r0, [sp, #8]
	strb	r1, [r0, #7]
	strb	r1, [r0, #6]
	strb	r1, [r0, #5]
	strb	r1, [r0, #4]
	strb	r1, [r0, #3]
	strb	r1, [r0, #2]
	strb	r1, [r0, #1]
	movs	r2, #1
	strb	r2, [r0]
	str	r1, [sp]
	adds	r0, #8
	movs	r2, #16
	mov	r3, r1
	bl	ic.clear
	add	sp, #100
	pop	{r4, r5, r6, r7, pc}
.LBB69_72:
	ldr	r0, [sp, #84]
	cmp	r0, #0
	str	r7, [sp, #88]
	str	r4, [sp, #76]
	ldr	r4, [sp, #36]
	ldr	r0, [sp, #80]
	bne	.LBB69_73
	b	.LBB69_102
.LBB69_73:
	subs	r0, r0, #1
	bne	.LBB69_74
	b	.LBB69_102
.LBB69_74:
	str	r0, [sp, #80]
	ldr	r0, [sp, #88]
	lsrs	r0, r0, #3
	ldr	r2, [sp, #76]
	lsls	r1, r2, #29
	adds	r1, r0, r1
	ldr	r0, [sp, #92]
	str	r1, [sp, #64]
	muls	r0, r1, r0
	adds	r0, r4, r0
	str	r0, [sp, #24]
	subs	r0, #24
	ldr	r7, [r0]
	ldr	r4, [r0, #4]
	ldr	r0, [sp, #96]
	ands	r4, r0
	ands	r7, r6
	movs	r3, #0
	subs	r0, r7, #1
	mov	r1, r4
	sbcs	r1, r3
	lsrs	r2, r2, #3
	str	r2, [sp, #40]
	movs	r2, #1
	str	r2, [sp, #84]
	ldr	r2, [sp, #56]
	subs	r0, r0, r2
	ldr	r0, [sp, #60]
	sbcs	r1, r0
	blo	.LBB69_76
	str	r3, [sp, #84]
.LBB69_76:
	mov	r0, r3
	bhs	.LBB69_79
	lsrs	r0, r7, #3
	lsls	r1, r4, #29
	adds	r0, r0, r1
	lsrs	r2, r4, #3
	movs	r3, #0
	subs	r1, r0, #1
	sbcs	r2, r3
	ldr	r0, [sp, #44]
	subs	r0, r1, r0
	ldr	r0, [sp, #48]
	sbcs	r2, r0
	mov	r0, r3
	bhs	.LBB69_79
	lsls	r0, r1, #4
	ldr	r1, [sp, #16]
	adds	r0, r1, r0
	ldr	r3, [r0, #8]
	ldr	r0, [r0, #12]
.LBB69_79:
	ldr	r1, [sp, #28]
	cmp	r1, #0
	beq	.LBB69_84
	ldr	r1, [sp, #32]
	subs	r1, r3, r1
	mov	r1, r0
	sbcs	r1, r5
	mov	r1, r5
	blo	.LBB69_82
	mov	r1, r0
.LBB69_82:
	ldr	r2, [sp, #32]
	blo	.LBB69_89
	mov	r2, r3
	b	.LBB69_89
.LBB69_84:
	movs	r1, #0
	ldr	r2, [sp, #32]
	adds	r2, r3, r2
	str	r2, [sp, #20]
	mov	r3, r5
	adcs	r0, r5
	mov	r5, r1
	adcs	r5, r1
	mvns	r2, r1
	cmp	r5, #0
	mov	r1, r2
	bne	.LBB69_86
	mov	r1, r0
.LBB69_86:
	bne	.LBB69_88
	ldr	r2, [sp, #20]
.LBB69_88:
	mov	r5, r3
.LBB69_89:
	ldr	r0, [sp, #68]
	subs	r0, r0, r2
	ldr	r0, [sp, #72]
	sbcs	r0, r1
	blo	.LBB69_72
	movs	r3, #0
	ldr	r0, [sp, #64]
	subs	r4, r0, #1
	ldr	r5, [sp, #40]
	sbcs	r5, r3
	ldr	r0, [sp, #44]
	subs	r0, r4, r0
	ldr	r0, [sp, #48]
	sbcs	r5, r0
	mov	r0, r3
	bhs	.LBB69_92
	lsls	r0, r4, #4
	ldr	r4, [sp, #16]
	ldr	r3, [r4, r0]
	adds	r0, r4, r0
	ldr	r0, [r0, #4]
.LBB69_92:
	ldr	r4, [sp, #28]
	cmp	r4, #0
	ldr	r5, [sp, #96]
	beq	.LBB69_99
	subs	r4, r3, r2
	mov	r4, r0
	sbcs	r4, r1
	blo	.LBB69_95
	mov	r1, r0
.LBB69_95:
	ldr	r4, [sp, #36]
	blo	.LBB69_97
.LBB69_96:
	mov	r2, r3
.LBB69_97:
	ldr	r0, [sp, #68]
	subs	r0, r0, r2
	ldr	r0, [sp, #72]
	sbcs	r0, r1
	blo	.LBB69_110
	ldr	r3, [sp, #24]
	subs	r3, #16
	ldm	r3, {r0, r3}
	ands	r3, r5
	ands	r0, r6
	movs	r7, #0
	str	r0, [sp, #88]
	subs	r0, r0, #1
	str	r3, [sp, #76]
	sbcs	r3, r7
	ldr	r5, [sp, #56]
	subs	r0, r0, r5
	ldr	r0, [sp, #60]
	sbcs	r3, r0
	str	r2, [sp, #32]
	mov	r5, r1
	ldr	r0, [sp, #80]
	bhs	.LBB69_103
	b	.LBB69_73
.LBB69_99:
	movs	r4, #0
	adds	r3, r3, r2
	adcs	r0, r1
	mov	r1, r4
	adcs	r1, r4
	mvns	r2, r4
	cmp	r1, #0
	mov	r1, r2
	bne	.LBB69_101
	mov	r1, r0
.LBB69_101:
	ldr	r4, [sp, #36]
	beq	.LBB69_96
	b	.LBB69_97
.LBB69_102:
	movs	r7, #0
.LBB69_103:
	mov	r1, r7
	mov	r3, r7
.LBB69_104:
	mov	r0, r7
	ldr	r5, [sp, #52]
	b	.LBB69_108
.LBB69_105:
	movs	r0, #1
	ldr	r5, [sp, #52]
	mov	r7, r5
	mov	r1, r5
	mov	r3, r5
	b	.LBB69_108
.LBB69_106:
	movs	r1, #0
	str	r1, [sp]
	movs	r2, #24
	ldr	r0, [sp, #8]
	mov	r3, r1
	bl	ic.clear
	add	sp, #100
	pop	{r4, r5, r6, r7, pc}
.LBB69_107:
	movs	r7, #1
	mov	r0, r7
	ldr	r1, [sp, #80]
	mov	r3, r4
.LBB69_108:
	ldr	r2, [sp, #8]
	strb	r1, [r2, #16]
	strb	r5, [r2, #15]
	strb	r5, [r2, #14]
	strb	r5, [r2, #13]
	strb	r5, [r2, #12]
	strb	r5, [r2, #11]
	strb	r5, [r2, #10]
	strb	r5, [r2, #9]
	strb	r7, [r2, #8]
	strb	r5, [r2, #7]
	strb	r5, [r2, #6]
	strb	r5, [r2, #5]
	strb	r5, [r2, #4]
	strb	r5, [r2, #3]
	strb	r5, [r2, #2]
	strb	r5, [r2, #1]
	strb	r0, [r2]
	strb	r3, [r2, #20]
	lsrs	r0, r1, #24
	strb	r0, [r2, #19]
	lsrs	r0, r1, #16
	strb	r0, [r2, #18]
	lsrs	r0, r1, #8
	strb	r0, [r2, #17]
	lsrs	r0, r3, #24
	strb	r0, [r2, #23]
	lsrs	r0, r3, #16
	strb	r0, [r2, #22]
	lsrs	r0, r3, #8
	strb	r0, [r2, #21]
	add	sp, #100
	pop	{r4, r5, r6, r7, pc}
.LBB69_109:
	ldr	r4, [sp, #8]
	ldr	r0, [sp, #32]
	strb	r0, [r4, #16]
	movs	r1, #0
	strb	r1, [r4, #15]
	strb	r1, [r4, #14]
	strb	r1, [r4, #13]
	strb	r1, [r4, #12]
	strb	r1, [r4, #11]
	strb	r1, [r4, #10]
	strb	r1, [r4, #9]
	movs	r2, #1
	strb	r2, [r4, #8]
	strb	r1, [r4, #7]
	strb	r1, [r4, #6]
	strb	r1, [r4, #5]
	strb	r1, [r4, #4]
	strb	r1, [r4, #3]
	strb	r1, [r4, #2]
	strb	r1, [r4, #1]
	strb	r2, [r4]
	strb	r3, [r4, #20]
	lsrs	r1, r0, #24
	strb	r1, [r4, #19]
	lsrs	r1, r0, #16
	strb	r1, [r4, #18]
	lsrs	r0, r0, #8
	strb	r0, [r4, #17]
	lsrs	r0, r3, #24
	strb	r0, [r4, #23]
	lsrs	r0, r3, #16
	strb	r0, [r4, #22]
	lsrs	r0, r3, #8
	strb	r0, [r4, #21]
	add	sp, #100
	pop	{r4, r5, r6, r7, pc}
.LBB69_110:
	movs	r7, #1
	ldr	r1, [sp, #88]
	ldr	r3, [sp, #76]
	b	.LBB69_104
.Lfunc_end69:
	.size	ic_raw_augmented.find.find, .Lfunc_end69-ic_raw_augmented.find.find
	.cfi_endproc
	.section	.text.ic_raw_augmented.noting.WrittenSurgery.attach,"ax",%progbits
	.p2align	1
	.type	ic_raw_augmented.noting.WrittenSurgery.attach,%function
	.code	16
	.thumb_func
ic_raw_augmented.noting.WrittenSurgery.attach:
	.cfi_startproc
	push	{r4, r5, r6, r7, lr}
	.cfi_def_cfa_offset 20
	.cfi_offset lr, -4
	.cfi_offset r7, -8
	.cfi_offset r6, -12
	.cfi_offset r5, -16
	.cfi_offset r4, -20
	sub	sp, #108
	.cfi_def_cfa_offset 128
	str	r2, [sp, #8]
	ldr	r2, [r0, #112]
	ldr	r5, [r0, #116]
	lsls	r3, r3, #31
	ldr	r3, [sp, #148]
	str	r3, [sp, #52]
	ldr	r7, [sp, #144]
	str	r1, [sp, #88]
	str	r0, [sp, #16]
	str	r7, [sp, #36]
	beq	.LBB70_12
	movs	r4, #0
	movs	r3, #13
	str	r3, [sp, #12]
	subs	r3, r3, r2
	str	r4, [sp, #100]
	mov	r3, r4
	sbcs	r3, r5
	blo	.LBB70_3
	lsls	r3, r2, #3
	ldr	r1, [r0, r3]
	adds	r4, r0, r3
	ldr	r6, [r4, #4]
	orrs	r6, r1
	ldr	r1, [sp, #88]
	bne	.LBB70_3
	b	.LBB70_47
.LBB70_3:
	movs	r3, #120
	movs	r2, #1
	strb	r2, [r0, r3]
	ldr	r6, [sp, #100]
.LBB70_4:
	ldr	r2, [sp, #132]
	str	r2, [sp, #80]
	ldr	r2, [sp, #128]
	str	r2, [sp, #104]
	ldr	r2, [sp, #136]
	str	r2, [sp, #92]
	lsrs	r2, r7, #3
	movs	r3, #24
	str	r3, [sp, #96]
	muls	r2, r3, r2
	ldr	r3, [r1]
	adds	r3, r3, r2
	subs	r3, #24
	str	r6, [r3, #4]
	ldr	r4, [r3]
	movs	r1, #1
	str	r1, [sp, #24]
	ands	r4, r1
	str	r4, [r3]
	ldr	r4, [r0, #112]
	ldr	r3, [r0, #116]
	ldr	r1, [sp, #12]
	subs	r5, r1, r4
	mov	r5, r6
	sbcs	r5, r3
	blo	.LBB70_6
	lsls	r5, r4, #3
	ldr	r0, [sp, #16]
	ldr	r7, [r0, r5]
	ldr	r0, [sp, #16]
	adds	r6, r0, r5
	ldr	r1, [r6, #4]
	orrs	r1, r7
	ldr	r7, [sp, #36]
	ldr	r0, [sp, #16]
	bne	.LBB70_6
	b	.LBB70_48
.LBB70_6:
	movs	r1, #120
	movs	r3, #1
	strb	r3, [r0, r1]
	ldr	r4, [sp, #100]
.LBB70_7:
	ldr	r5, [sp, #88]
	ldr	r1, [r5]
	adds	r1, r1, r2
	subs	r1, #16
	str	r4, [r1]
	str	r4, [r1, #4]
	ldr	r1, [r5]
	adds	r1, r1, r2
	subs	r1, #8
	ldr	r2, [sp, #104]
	str	r2, [r1]
	ldr	r2, [sp, #80]
	str	r2, [r1, #4]
	ldr	r3, [r0, #112]
	ldr	r2, [r0, #116]
	ldr	r1, [sp, #92]
	lsls	r1, r1, #24
	beq	.LBB70_19
	ldr	r1, [sp, #12]
	subs	r1, r1, r3
	mov	r1, r4
	sbcs	r1, r2
	blo	.LBB70_10
	lsls	r1, r3, #3
	ldr	r5, [r0, r1]
	adds	r4, r0, r1
	ldr	r6, [r4, #4]
	orrs	r6, r5
	ldr	r5, [sp, #88]
	bne	.LBB70_10
	b	.LBB70_74
.LBB70_10:
	movs	r1, #120
	ldr	r2, [sp, #24]
	strb	r2, [r0, r1]
	ldr	r4, [sp, #100]
.LBB70_11:
	ldr	r1, [sp, #104]
	lsrs	r1, r1, #3
	ldr	r2, [sp, #96]
	muls	r1, r2, r1
	ldr	r2, [r5]
	adds	r1, r2, r1
	subs	r1, #16
	str	r7, [r1]
	ldr	r2, [sp, #52]
	str	r2, [r1, #4]
	b	.LBB70_23
.LBB70_12:
	movs	r6, #0
	movs	r3, #13
	subs	r4, r3, r2
	str	r6, [sp, #104]
	mov	r4, r6
	sbcs	r4, r5
	blo	.LBB70_14
	lsls	r4, r2, #3
	ldr	r1, [r0, r4]
	adds	r6, r0, r4
	ldr	r7, [r6, #4]
	orrs	r7, r1
	ldr	r7, [sp, #36]
	ldr	r0, [sp, #16]
	ldr	r1, [sp, #88]
	bne	.LBB70_14
	b	.LBB70_49
.LBB70_14:
	movs	r4, #120
	movs	r2, #1
	strb	r2, [r0, r4]
.LBB70_15:
	lsrs	r2, r7, #3
	movs	r6, #24
	muls	r6, r2, r6
	ldr	r2, [r1]
	adds	r4, r2, r6
	subs	r4, #24
	ldr	r1, [sp, #104]
	str	r1, [r4, #4]
	ldr	r5, [r4]
	movs	r2, #1
	ands	r5, r2
	str	r5, [r4]
	ldr	r5, [r0, #112]
	ldr	r4, [r0, #116]
	subs	r3, r3, r5
	mov	r3, r1
	sbcs	r3, r4
	blo	.LBB70_17
	lsls	r3, r5, #3
	ldr	r1, [r0, r3]
	str	r1, [sp, #100]
	adds	r1, r0, r3
	ldr	r7, [r1, #4]
	ldr	r0, [sp, #100]
	orrs	r7, r0
	ldr	r7, [sp, #36]
	ldr	r0, [sp, #16]
	bne	.LBB70_17
	b	.LBB70_50
.LBB70_17:
	movs	r3, #120
	strb	r2, [r0, r3]
.LBB70_18:
	ldr	r1, [sp, #88]
	ldr	r3, [r1]
	adds	r3, r3, r6
	subs	r3, #16
	ldr	r0, [sp, #104]
	str	r0, [r3]
	str	r0, [r3, #4]
	ldr	r3, [r1]
	adds	r1, r3, r6
	subs	r1, #8
	str	r2, [r1]
	str	r0, [r1, #4]
	ldr	r2, [sp, #52]
	lsrs	r0, r2, #24
	ldr	r1, [sp, #8]
	strb	r0, [r1, #7]
	lsrs	r0, r2, #16
	strb	r0, [r1, #6]
	lsrs	r0, r2, #8
	strb	r0, [r1, #5]
	strb	r2, [r1, #4]
	lsrs	r0, r7, #24
	strb	r0, [r1, #3]
	lsrs	r0, r7, #16
	strb	r0, [r1, #2]
	lsrs	r0, r7, #8
	strb	r0, [r1, #1]
	strb	r7, [r1]
	add	sp, #108
	pop	{r4, r5, r6, r7, pc}
.LBB70_19:
	movs	r1, #0
	ldr	r4, [sp, #12]
	subs	r4, r4, r3
	mov	r4, r1
	sbcs	r4, r2
	blo	.LBB70_21
	lsls	r4, r3, #3
	ldr	r6, [r0, r4]
	adds	r0, r0, r4
	str	r0, [sp, #92]
	ldr	r7, [r0, #4]
	orrs	r7, r6
	ldr	r7, [sp, #36]
	ldr	r0, [sp, #16]
	ldr	r5, [sp, #88]
	bne	.LBB70_21
	b	.LBB70_94
.LBB70_21:
	movs	r1, #120
	movs	r2, #1
	strb	r2, [r0, r1]
.LBB70_22:
	ldr	r1, [sp, #104]
	lsrs	r1, r1, #3
	ldr	r2, [sp, #96]
	muls	r1, r2, r1
	ldr	r2, [r5]
	adds	r1, r2, r1
	subs	r1, #24
	ldr	r2, [sp, #52]
	str	r2, [r1, #4]
	ldr	r2, [r1]
	movs	r3, #1
	ands	r3, r2
	orrs	r3, r7
	str	r3, [r1]
	ldr	r4, [sp, #100]
.LBB70_23:
	movs	r1, #7
	mvns	r6, r1
	adds	r0, #120
	str	r0, [sp, #4]
	movs	r0, #15
	str	r0, [sp, #100]
	movs	r2, #67
	str	r6, [sp, #72]
	b	.LBB70_25
.LBB70_24:
	ldr	r1, [sp, #104]
	str	r2, [sp, #80]
	orrs	r1, r2
	rsbs	r4, r1, #0
	adcs	r4, r1
	subs	r2, r3, #1
	ldr	r0, [sp, #60]
	str	r0, [sp, #36]
	ldr	r0, [sp, #64]
	str	r0, [sp, #52]
	bne	.LBB70_25
	bl	.LBB70_176
.LBB70_25:
	lsls	r0, r4, #31
	beq	.LBB70_26
	bl	.LBB70_176
.LBB70_26:
	ldr	r0, [sp, #104]
	lsrs	r1, r0, #3
	ldr	r0, [sp, #96]
	str	r1, [sp, #28]
	muls	r0, r1, r0
	ldr	r1, [r5]
	str	r0, [sp, #32]
	str	r1, [sp, #92]
	adds	r1, r1, r0
	str	r1, [sp, #20]
	subs	r1, #8
	ldr	r3, [r1]
	lsls	r0, r3, #31
	beq	.LBB70_27
	bl	.LBB70_176
.LBB70_27:
	str	r2, [sp, #48]
	ldr	r2, [r1, #4]
	str	r1, [sp, #44]
	str	r2, [sp, #40]
	ldr	r0, [sp, #100]
	ands	r2, r0
	mov	r0, r3
	ands	r0, r6
	movs	r4, #0
	str	r0, [sp, #60]
	subs	r0, r0, #1
	str	r2, [sp, #64]
	sbcs	r2, r4
	str	r3, [sp, #84]
	ldr	r3, [r5, #8]
	ldr	r5, [r5, #12]
	lsrs	r6, r3, #29
	lsls	r5, r5, #3
	adds	r7, r5, r6
	ldr	r6, [sp, #72]
	lsls	r1, r3, #3
	ldr	r3, [sp, #84]
	subs	r0, r0, r1
	sbcs	r2, r7
	blo	.LBB70_28
	bl	.LBB70_176
.LBB70_28:
	lsrs	r2, r3, #3
	ldr	r0, [sp, #96]
	muls	r2, r0, r2
	str	r2, [sp, #68]
	ldr	r0, [sp, #92]
	adds	r5, r0, r2
	mov	r2, r5
	subs	r2, #24
	ldm	r2, {r0, r2}
	ldr	r3, [sp, #100]
	ands	r2, r3
	ands	r0, r6
	str	r1, [sp, #56]
	subs	r3, r1, r0
	str	r7, [sp, #76]
	sbcs	r7, r2
	mov	r3, r4
	blo	.LBB70_30
	mov	r3, r0
.LBB70_30:
	blo	.LBB70_32
	mov	r4, r2
.LBB70_32:
	mov	r0, r4
	ldr	r2, [sp, #80]
	eors	r0, r2
	mov	r2, r3
	ldr	r6, [sp, #104]
	eors	r2, r6
	orrs	r2, r0
	ldr	r7, [sp, #56]
	ldr	r1, [sp, #92]
	bne	.LBB70_38
	mov	r2, r5
	subs	r2, #16
	ldm	r2!, {r0, r3}
	ldr	r2, [sp, #100]
	ands	r3, r2
	mov	r4, r0
	ldr	r6, [sp, #72]
	ands	r4, r6
	movs	r2, #0
	subs	r4, r4, #1
	sbcs	r3, r2
	subs	r4, r4, r7
	ldr	r4, [sp, #76]
	sbcs	r3, r4
	blo	.LBB70_34
	b	.LBB70_71
.LBB70_34:
	lsrs	r4, r0, #3
	ldr	r0, [sp, #96]
	muls	r4, r0, r4
	adds	r0, r1, r4
	subs	r0, #8
	ldr	r0, [r0]
	lsls	r0, r0, #31
	beq	.LBB70_35
	b	.LBB70_71
.LBB70_35:
	movs	r0, #1
	ldr	r3, [sp, #84]
	orrs	r3, r0
	subs	r5, #8
	ldr	r2, [r5]
	ldr	r1, [sp, #44]
	str	r3, [r1]
	ldr	r3, [sp, #88]
	ldr	r3, [r3]
	adds	r3, r3, r4
	subs	r3, #8
	ldr	r4, [r3]
	orrs	r4, r0
	str	r4, [r3]
	ldr	r4, [r5, #4]
	ldr	r3, [sp, #40]
	str	r3, [r1, #4]
	ldr	r1, [sp, #100]
	ands	r4, r1
	ands	r2, r6
	movs	r3, #0
	subs	r1, r2, #1
	sbcs	r4, r3
	subs	r1, r1, r7
	ldr	r1, [sp, #76]
	sbcs	r4, r1
	mov	r1, r0
	bhs	.LBB70_37
	mov	r1, r3
.LBB70_37:
	ldr	r5, [sp, #88]
	ldr	r2, [r5]
	ldr	r4, [sp, #68]
	adds	r2, r2, r4
	subs	r2, #8
	ldr	r3, [r2]
	bics	r3, r0
	adds	r0, r3, r1
	str	r0, [r2]
	b	.LBB70_43
.LBB70_38:
	orrs	r4, r3
	ldr	r6, [sp, #72]
	beq	.LBB70_51
	lsrs	r2, r3, #3
	ldr	r0, [sp, #96]
	muls	r2, r0, r2
	adds	r0, r1, r2
	subs	r0, #8
	ldr	r0, [r0]
	lsls	r0, r0, #31
	bne	.LBB70_51
	ldr	r4, [sp, #24]
	ldr	r3, [sp, #84]
	orrs	r3, r4
	subs	r5, #8
	ldr	r0, [r5]
	ldr	r1, [sp, #44]
	str	r3, [r1]
	ldr	r3, [sp, #88]
	ldr	r3, [r3]
	adds	r2, r3, r2
	subs	r2, #8
	ldr	r3, [r2]
	orrs	r3, r4
	str	r3, [r2]
	ldr	r2, [r5, #4]
	ldr	r3, [sp, #40]
	str	r3, [r1, #4]
	ldr	r1, [sp, #100]
	ands	r2, r1
	ands	r0, r6
	movs	r1, #0
	subs	r0, r0, #1
	sbcs	r2, r1
	subs	r0, r0, r7
	ldr	r0, [sp, #76]
	sbcs	r2, r0
	mov	r0, r4
	bhs	.LBB70_42
	mov	r0, r1
.LBB70_42:
	ldr	r5, [sp, #88]
	ldr	r1, [r5]
	ldr	r4, [sp, #68]
	adds	r1, r1, r4
	subs	r1, #8
	ldr	r2, [r1]
	ldr	r3, [sp, #24]
	bics	r2, r3
	adds	r0, r2, r0
	str	r0, [r1]
.LBB70_43:
	ldr	r2, [r5, #8]
	ldr	r0, [r5, #12]
	lsrs	r1, r2, #29
	lsls	r0, r0, #3
	adds	r3, r0, r1
	ldr	r0, [r5]
	adds	r1, r0, r4
	subs	r1, #8
	ldm	r1, {r0, r1}
	ldr	r4, [sp, #100]
	ands	r1, r4
	ands	r0, r6
	lsls	r2, r2, #3
	movs	r4, #0
	subs	r2, r2, r0
	sbcs	r3, r1
	str	r4, [sp, #104]
	mov	r2, r4
	blo	.LBB70_45
	mov	r2, r1
.LBB70_45:
	ldr	r3, [sp, #48]
	bhs	.LBB70_46
	b	.LBB70_24
.LBB70_46:
	str	r0, [sp, #104]
	b	.LBB70_24
.LBB70_47:
	str	r7, [r0, r3]
	ldr	r3, [sp, #52]
	str	r3, [r4, #4]
	adds	r2, r2, #1
	str	r2, [r0, #112]
	ldr	r6, [sp, #100]
	adcs	r5, r6
	str	r5, [r0, #116]
	b	.LBB70_4
.LBB70_48:
	str	r7, [r0, r5]
	ldr	r1, [sp, #52]
	str	r1, [r6, #4]
	adds	r1, r4, #1
	str	r1, [r0, #112]
	ldr	r4, [sp, #100]
	adcs	r3, r4
	str	r3, [r0, #116]
	b	.LBB70_7
.LBB70_49:
	str	r7, [r0, r4]
	ldr	r4, [sp, #52]
	str	r4, [r6, #4]
	adds	r2, r2, #1
	str	r2, [r0, #112]
	ldr	r2, [sp, #104]
	adcs	r5, r2
	str	r5, [r0, #116]
	b	.LBB70_15
.LBB70_50:
	str	r7, [r0, r3]
	ldr	r3, [sp, #52]
	str	r3, [r1, #4]
	adds	r3, r5, #1
	str	r3, [r0, #112]
	ldr	r1, [sp, #104]
	adcs	r4, r1
	str	r4, [r0, #116]
	b	.LBB70_18
.LBB70_51:
	ldr	r1, [sp, #20]
	subs	r1, #24
	ldm	r1, {r0, r1}
	ldr	r2, [sp, #100]
	ands	r1, r2
	ands	r0, r6
	subs	r2, r7, r0
	ldr	r4, [sp, #76]
	mov	r2, r4
	sbcs	r2, r1
	ldr	r2, [sp, #36]
	bhs	.LBB70_52
	b	.LBB70_75
.LBB70_52:
	eors	r0, r2
	ldr	r3, [sp, #52]
	eors	r1, r3
	orrs	r1, r0
	beq	.LBB70_53
	b	.LBB70_75
.LBB70_53:
	lsrs	r1, r2, #3
	ldr	r0, [sp, #96]
	muls	r1, r0, r1
	ldr	r0, [sp, #92]
	str	r1, [sp, #84]
	adds	r2, r0, r1
	subs	r2, #16
	ldm	r2!, {r0, r3}
	ldr	r1, [sp, #100]
	ands	r3, r1
	ands	r0, r6
	mov	r1, r4
	movs	r4, #0
	subs	r2, r7, r0
	sbcs	r1, r3
	mov	r2, r4
	ldr	r7, [sp, #16]
	blo	.LBB70_55
	mov	r2, r3
.LBB70_55:
	mov	r3, r4
	blo	.LBB70_57
	mov	r3, r0
.LBB70_57:
	ldr	r5, [r7, #112]
	ldr	r0, [r7, #116]
	ldr	r1, [sp, #12]
	subs	r6, r1, r5
	sbcs	r4, r0
	blo	.LBB70_59
	lsls	r4, r5, #3
	ldr	r1, [sp, #16]
	ldr	r7, [r1, r4]
	ldr	r1, [sp, #16]
	adds	r6, r1, r4
	ldr	r1, [r6, #4]
	orrs	r1, r7
	ldr	r7, [sp, #16]
	bne	.LBB70_59
	b	.LBB70_183
.LBB70_59:
	movs	r0, #1
	ldr	r1, [sp, #4]
	strb	r0, [r1]
.LBB70_60:
	ldr	r6, [sp, #72]
	ldr	r5, [sp, #88]
	ldr	r0, [r5]
	ldr	r1, [sp, #32]
	adds	r1, r0, r1
	subs	r1, #24
	str	r2, [r1, #4]
	ldr	r4, [r1]
	movs	r0, #1
	ands	r4, r0
	orrs	r4, r3
	str	r4, [r1]
	orrs	r2, r3
	beq	.LBB70_62
	lsrs	r1, r3, #3
	ldr	r2, [sp, #96]
	muls	r1, r2, r1
	ldr	r2, [r5]
	adds	r1, r2, r1
	subs	r1, #8
	ldr	r2, [sp, #80]
	str	r2, [r1, #4]
	ldr	r2, [r1]
	ands	r2, r0
	ldr	r3, [sp, #104]
	orrs	r2, r3
	str	r2, [r1]
.LBB70_62:
	ldr	r1, [r5]
	ldr	r2, [sp, #84]
	adds	r1, r1, r2
	subs	r1, #8
	ldr	r2, [sp, #60]
	str	r2, [r1]
	ldr	r2, [sp, #64]
	str	r2, [r1, #4]
	ldr	r1, [r5, #8]
	ldr	r2, [r5, #12]
	lsrs	r3, r1, #29
	lsls	r2, r2, #3
	adds	r4, r2, r3
	ldr	r2, [r5]
	ldr	r3, [sp, #68]
	adds	r2, r2, r3
	subs	r2, #24
	ldr	r5, [r2]
	ldr	r3, [r2, #4]
	ldr	r2, [sp, #100]
	ands	r3, r2
	ands	r5, r6
	lsls	r1, r1, #3
	movs	r2, #0
	subs	r1, r1, r5
	sbcs	r4, r3
	mov	r4, r2
	blo	.LBB70_64
	mov	r4, r5
.LBB70_64:
	blo	.LBB70_66
	mov	r2, r3
.LBB70_66:
	ldr	r1, [sp, #80]
	eors	r2, r1
	ldr	r1, [sp, #104]
	eors	r4, r1
	orrs	r4, r2
	ldr	r3, [r7, #112]
	ldr	r2, [r7, #116]
	beq	.LBB70_67
	b	.LBB70_135
.LBB70_67:
	movs	r4, #0
	ldr	r1, [sp, #12]
	subs	r1, r1, r3
	mov	r1, r4
	sbcs	r1, r2
	blo	.LBB70_69
	lsls	r5, r3, #3
	ldr	r1, [r7, r5]
	adds	r6, r7, r5
	ldr	r7, [r6, #4]
	orrs	r7, r1
	ldr	r7, [sp, #16]
	bne	.LBB70_69
	b	.LBB70_191
.LBB70_69:
	ldr	r1, [sp, #4]
	strb	r0, [r1]
.LBB70_70:
	ldr	r1, [sp, #88]
	ldr	r1, [r1]
	ldr	r2, [sp, #68]
	adds	r1, r1, r2
	subs	r1, #24
	ldr	r2, [sp, #52]
	str	r2, [r1, #4]
	ldr	r2, [r1]
	ands	r2, r0
	ldr	r3, [sp, #36]
	orrs	r2, r3
	str	r2, [r1]
	b	.LBB70_139
.LBB70_71:
	ldr	r1, [sp, #20]
	subs	r1, #24
	ldm	r1, {r0, r1}
	ldr	r3, [sp, #100]
	ands	r1, r3
	ands	r0, r6
	subs	r3, r7, r0
	ldr	r4, [sp, #76]
	mov	r3, r4
	sbcs	r3, r1
	ldr	r3, [sp, #36]
	blo	.LBB70_76
	eors	r0, r3
	ldr	r4, [sp, #52]
	eors	r1, r4
	ldr	r4, [sp, #76]
	orrs	r1, r0
	bne	.LBB70_76
	ldr	r0, [sp, #96]
	ldr	r1, [sp, #28]
	muls	r1, r0, r1
	str	r1, [sp, #28]
	ldr	r0, [sp, #104]
	str	r0, [sp, #36]
	ldr	r0, [sp, #80]
	str	r0, [sp, #52]
	mov	r3, r7
	ldr	r5, [sp, #68]
	ldr	r1, [sp, #92]
	b	.LBB70_103
.LBB70_74:
	mov	r6, r5
	ldr	r5, [sp, #104]
	str	r5, [r0, r1]
	mov	r5, r6
	ldr	r1, [sp, #80]
	str	r1, [r4, #4]
	adds	r1, r3, #1
	str	r1, [r0, #112]
	ldr	r4, [sp, #100]
	adcs	r2, r4
	str	r2, [r0, #116]
	b	.LBB70_11
.LBB70_75:
	ldr	r0, [sp, #68]
	ldr	r2, [sp, #92]
	b	.LBB70_143
.LBB70_76:
	lsrs	r1, r3, #3
	ldr	r0, [sp, #96]
	muls	r1, r0, r1
	str	r1, [sp, #28]
	ldr	r0, [sp, #92]
	adds	r0, r0, r1
	subs	r0, #24
	ldr	r3, [r0]
	ldr	r1, [r0, #4]
	ldr	r0, [sp, #100]
	ands	r1, r0
	ands	r3, r6
	subs	r0, r7, r3
	sbcs	r4, r1
	mov	r0, r2
	ldr	r7, [sp, #16]
	blo	.LBB70_78
	mov	r0, r1
.LBB70_78:
	mov	r1, r2
	blo	.LBB70_80
	mov	r1, r3
.LBB70_80:
	ldr	r4, [r7, #112]
	ldr	r3, [r7, #116]
	ldr	r5, [sp, #12]
	subs	r5, r5, r4
	str	r3, [sp, #92]
	sbcs	r2, r3
	ldr	r5, [sp, #88]
	blo	.LBB70_82
	lsls	r2, r4, #3
	ldr	r6, [r7, r2]
	adds	r3, r7, r2
	str	r3, [sp, #84]
	ldr	r7, [r3, #4]
	orrs	r7, r6
	ldr	r6, [sp, #72]
	ldr	r7, [sp, #16]
	ldr	r5, [sp, #88]
	bne	.LBB70_82
	b	.LBB70_181
.LBB70_82:
	movs	r2, #1
	ldr	r3, [sp, #4]
	strb	r2, [r3]
.LBB70_83:
	ldr	r3, [sp, #68]
	ldr	r2, [r5]
	ldr	r4, [sp, #32]
	adds	r2, r2, r4
	subs	r2, #16
	str	r1, [r2]
	str	r0, [r2, #4]
	orrs	r0, r1
	beq	.LBB70_85
	lsrs	r0, r1, #3
	ldr	r1, [sp, #96]
	muls	r0, r1, r0
	ldr	r1, [r5]
	adds	r0, r1, r0
	subs	r0, #8
	ldr	r1, [sp, #80]
	str	r1, [r0, #4]
	ldr	r1, [r0]
	movs	r2, #1
	ands	r2, r1
	ldr	r1, [sp, #104]
	orrs	r2, r1
	str	r2, [r0]
.LBB70_85:
	ldr	r0, [r5]
	ldr	r1, [sp, #28]
	adds	r0, r0, r1
	subs	r0, #8
	ldr	r1, [sp, #60]
	str	r1, [r0]
	ldr	r1, [sp, #64]
	str	r1, [r0, #4]
	ldr	r0, [r5, #8]
	ldr	r1, [r5, #12]
	lsrs	r2, r0, #29
	lsls	r1, r1, #3
	adds	r2, r1, r2
	ldr	r1, [r5]
	adds	r1, r1, r3
	subs	r1, #24
	ldr	r3, [r1]
	ldr	r1, [r1, #4]
	ldr	r4, [sp, #100]
	ands	r1, r4
	ands	r3, r6
	lsls	r4, r0, #3
	movs	r0, #0
	subs	r4, r4, r3
	sbcs	r2, r1
	mov	r2, r0
	blo	.LBB70_87
	mov	r2, r3
.LBB70_87:
	blo	.LBB70_89
	mov	r0, r1
.LBB70_89:
	ldr	r1, [sp, #80]
	eors	r0, r1
	ldr	r1, [sp, #104]
	eors	r2, r1
	orrs	r2, r0
	ldr	r1, [r7, #112]
	ldr	r0, [r7, #116]
	bne	.LBB70_95
	movs	r2, #0
	ldr	r3, [sp, #12]
	subs	r3, r3, r1
	mov	r3, r2
	sbcs	r3, r0
	blo	.LBB70_92
	lsls	r3, r1, #3
	ldr	r5, [r7, r3]
	adds	r4, r7, r3
	ldr	r6, [r4, #4]
	orrs	r6, r5
	ldr	r6, [sp, #72]
	ldr	r5, [sp, #88]
	bne	.LBB70_92
	b	.LBB70_189
.LBB70_92:
	movs	r0, #1
	ldr	r1, [sp, #4]
	strb	r0, [r1]
.LBB70_93:
	ldr	r0, [r5]
	ldr	r5, [sp, #68]
	adds	r0, r0, r5
	subs	r0, #24
	ldr	r1, [sp, #52]
	str	r1, [r0, #4]
	ldr	r1, [r0]
	movs	r2, #1
	ands	r2, r1
	ldr	r1, [sp, #36]
	orrs	r2, r1
	str	r2, [r0]
	b	.LBB70_99
.LBB70_94:
	ldr	r6, [sp, #104]
	str	r6, [r0, r4]
	ldr	r4, [sp, #80]
	ldr	r6, [sp, #92]
	str	r4, [r6, #4]
	adds	r3, r3, #1
	str	r3, [r0, #112]
	adcs	r2, r1
	str	r2, [r0, #116]
	b	.LBB70_22
.LBB70_95:
	movs	r2, #0
	ldr	r3, [sp, #12]
	subs	r3, r3, r1
	mov	r3, r2
	sbcs	r3, r0
	blo	.LBB70_97
	lsls	r3, r1, #3
	ldr	r5, [r7, r3]
	adds	r4, r7, r3
	ldr	r6, [r4, #4]
	orrs	r6, r5
	ldr	r6, [sp, #72]
	ldr	r5, [sp, #88]
	bne	.LBB70_97
	b	.LBB70_190
.LBB70_97:
	movs	r0, #1
	ldr	r1, [sp, #4]
	strb	r0, [r1]
.LBB70_98:
	ldr	r0, [r5]
	ldr	r5, [sp, #68]
	adds	r0, r0, r5
	subs	r0, #16
	ldr	r1, [sp, #36]
	str	r1, [r0]
	ldr	r1, [sp, #52]
	str	r1, [r0, #4]
.LBB70_99:
	ldr	r2, [r7, #112]
	ldr	r0, [r7, #116]
	movs	r1, #0
	ldr	r3, [sp, #12]
	subs	r3, r3, r2
	mov	r3, r1
	sbcs	r3, r0
	blo	.LBB70_101
	lsls	r3, r2, #3
	ldr	r5, [r7, r3]
	adds	r4, r7, r3
	ldr	r6, [r4, #4]
	orrs	r6, r5
	ldr	r6, [sp, #72]
	ldr	r5, [sp, #68]
	bne	.LBB70_101
	b	.LBB70_182
.LBB70_101:
	movs	r0, #1
	ldr	r1, [sp, #4]
	strb	r0, [r1]
.LBB70_102:
	ldr	r3, [sp, #88]
	ldr	r0, [r3]
	ldr	r1, [sp, #28]
	adds	r0, r0, r1
	subs	r0, #24
	ldr	r1, [r0]
	movs	r2, #1
	ands	r2, r1
	ldr	r1, [sp, #104]
	orrs	r2, r1
	str	r2, [r0]
	ldr	r1, [sp, #80]
	str	r1, [r0, #4]
	ldr	r0, [r3]
	ldr	r1, [sp, #32]
	adds	r0, r0, r1
	subs	r0, #8
	ldr	r1, [sp, #36]
	str	r1, [r0]
	ldr	r1, [sp, #52]
	str	r1, [r0, #4]
	ldr	r0, [r3, #8]
	ldr	r1, [r3, #12]
	lsrs	r2, r0, #29
	lsls	r1, r1, #3
	adds	r4, r1, r2
	ldr	r1, [r3]
	lsls	r3, r0, #3
.LBB70_103:
	str	r1, [sp, #92]
	adds	r0, r1, r5
	subs	r0, #8
	ldr	r1, [r0]
	ldr	r0, [r0, #4]
	ldr	r2, [sp, #100]
	ands	r0, r2
	ands	r1, r6
	movs	r5, #0
	mov	r7, r3
	subs	r2, r3, r1
	mov	r2, r4
	sbcs	r2, r0
	str	r5, [sp, #84]
	blo	.LBB70_105
	str	r0, [sp, #84]
.LBB70_105:
	str	r5, [sp, #104]
	blo	.LBB70_107
	str	r1, [sp, #104]
.LBB70_107:
	ldr	r0, [sp, #28]
	ldr	r1, [sp, #92]
	adds	r1, r1, r0
	subs	r1, #16
	ldm	r1!, {r0, r2}
	ldr	r1, [sp, #100]
	ands	r2, r1
	ands	r0, r6
	subs	r1, r7, r0
	sbcs	r4, r2
	mov	r1, r5
	blo	.LBB70_109
	mov	r1, r2
.LBB70_109:
	mov	r2, r5
	ldr	r3, [sp, #16]
	blo	.LBB70_111
	mov	r2, r0
.LBB70_111:
	ldr	r6, [r3, #112]
	ldr	r0, [r3, #116]
	ldr	r4, [sp, #12]
	subs	r7, r4, r6
	sbcs	r5, r0
	blo	.LBB70_113
	lsls	r5, r6, #3
	ldr	r4, [r3, r5]
	str	r4, [sp, #92]
	adds	r4, r3, r5
	str	r4, [sp, #80]
	ldr	r4, [r4, #4]
	ldr	r7, [sp, #92]
	orrs	r4, r7
	bne	.LBB70_113
	b	.LBB70_179
.LBB70_113:
	movs	r0, #1
	ldr	r4, [sp, #4]
	strb	r0, [r4]
.LBB70_114:
	mov	r7, r3
	ldr	r6, [sp, #88]
	ldr	r0, [r6]
	ldr	r3, [sp, #68]
	adds	r3, r0, r3
	subs	r3, #24
	str	r1, [r3, #4]
	ldr	r4, [r3]
	movs	r0, #1
	ands	r4, r0
	orrs	r4, r2
	str	r4, [r3]
	orrs	r1, r2
	beq	.LBB70_116
	lsrs	r1, r2, #3
	ldr	r2, [sp, #96]
	muls	r1, r2, r1
	ldr	r2, [r6]
	adds	r1, r2, r1
	subs	r1, #8
	ldr	r2, [sp, #64]
	str	r2, [r1, #4]
	ldr	r2, [r1]
	ands	r2, r0
	ldr	r3, [sp, #60]
	orrs	r2, r3
	str	r2, [r1]
.LBB70_116:
	ldr	r1, [r6]
	ldr	r2, [sp, #28]
	adds	r1, r1, r2
	subs	r1, #8
	ldr	r4, [sp, #104]
	mov	r2, r4
	orrs	r2, r0
	str	r2, [r1]
	ldr	r2, [sp, #84]
	str	r2, [r1, #4]
	mov	r1, r4
	orrs	r1, r2
	beq	.LBB70_126
	ldr	r1, [r6, #8]
	ldr	r2, [r6, #12]
	lsrs	r3, r1, #29
	lsls	r2, r2, #3
	adds	r5, r2, r3
	lsrs	r2, r4, #3
	ldr	r3, [sp, #96]
	muls	r3, r2, r3
	ldr	r2, [r6]
	str	r3, [sp, #96]
	adds	r2, r2, r3
	subs	r2, #24
	ldr	r6, [r2]
	ldr	r2, [r2, #4]
	ldr	r3, [sp, #100]
	ands	r2, r3
	ldr	r3, [sp, #72]
	ands	r6, r3
	lsls	r3, r1, #3
	movs	r1, #0
	subs	r3, r3, r6
	sbcs	r5, r2
	mov	r5, r1
	blo	.LBB70_119
	mov	r5, r6
.LBB70_119:
	blo	.LBB70_121
	mov	r1, r2
.LBB70_121:
	ldr	r2, [sp, #64]
	eors	r1, r2
	ldr	r2, [sp, #60]
	eors	r5, r2
	orrs	r5, r1
	ldr	r2, [r7, #112]
	ldr	r1, [r7, #116]
	bne	.LBB70_127
	movs	r5, #0
	ldr	r3, [sp, #12]
	subs	r3, r3, r2
	mov	r3, r5
	sbcs	r3, r1
	blo	.LBB70_124
	lsls	r6, r2, #3
	ldr	r4, [sp, #16]
	ldr	r3, [r4, r6]
	adds	r7, r4, r6
	ldr	r4, [r7, #4]
	orrs	r4, r3
	ldr	r4, [sp, #104]
	bne	.LBB70_124
	b	.LBB70_187
.LBB70_124:
	ldr	r1, [sp, #4]
	strb	r0, [r1]
	ldr	r7, [sp, #16]
.LBB70_125:
	ldr	r6, [sp, #88]
	ldr	r1, [r6]
	ldr	r2, [sp, #96]
	adds	r1, r1, r2
	subs	r1, #24
	ldr	r2, [sp, #52]
	str	r2, [r1, #4]
	ldr	r2, [r1]
	ands	r2, r0
	ldr	r3, [sp, #36]
	orrs	r2, r3
	str	r2, [r1]
	b	.LBB70_131
.LBB70_126:
	ldr	r2, [sp, #8]
	ldr	r3, [sp, #36]
	strb	r3, [r2]
	ldr	r4, [sp, #52]
	strb	r4, [r2, #4]
	lsrs	r1, r3, #24
	strb	r1, [r2, #3]
	lsrs	r1, r3, #16
	strb	r1, [r2, #2]
	lsrs	r1, r3, #8
	strb	r1, [r2, #1]
	lsrs	r1, r4, #24
	strb	r1, [r2, #7]
	lsrs	r1, r4, #16
	strb	r1, [r2, #6]
	lsrs	r1, r4, #8
	strb	r1, [r2, #5]
	b	.LBB70_131
.LBB70_127:
	movs	r5, #0
	ldr	r3, [sp, #12]
	subs	r3, r3, r2
	mov	r3, r5
	sbcs	r3, r1
	blo	.LBB70_129
	lsls	r6, r2, #3
	ldr	r4, [sp, #16]
	ldr	r3, [r4, r6]
	adds	r7, r4, r6
	ldr	r4, [r7, #4]
	orrs	r4, r3
	ldr	r4, [sp, #104]
	bne	.LBB70_129
	b	.LBB70_188
.LBB70_129:
	ldr	r1, [sp, #4]
	strb	r0, [r1]
	ldr	r7, [sp, #16]
.LBB70_130:
	ldr	r6, [sp, #88]
	ldr	r1, [r6]
	ldr	r2, [sp, #96]
	adds	r1, r1, r2
	subs	r1, #16
	ldr	r2, [sp, #36]
	str	r2, [r1]
	ldr	r2, [sp, #52]
	str	r2, [r1, #4]
.LBB70_131:
	ldr	r3, [r7, #112]
	ldr	r1, [r7, #116]
	movs	r2, #0
	ldr	r4, [sp, #12]
	subs	r4, r4, r3
	mov	r4, r2
	sbcs	r4, r1
	blo	.LBB70_133
	lsls	r4, r3, #3
	ldr	r6, [r7, r4]
	adds	r5, r7, r4
	ldr	r7, [r5, #4]
	orrs	r7, r6
	ldr	r7, [sp, #16]
	ldr	r6, [sp, #88]
	bne	.LBB70_133
	b	.LBB70_180
.LBB70_133:
	ldr	r1, [sp, #4]
	strb	r0, [r1]
.LBB70_134:
	ldr	r0, [r6]
	ldr	r1, [sp, #28]
	adds	r0, r0, r1
	subs	r0, #16
	ldr	r1, [sp, #60]
	str	r1, [r0]
	ldr	r1, [sp, #64]
	str	r1, [r0, #4]
	ldr	r0, [r6]
	ldr	r1, [sp, #68]
	adds	r0, r0, r1
	subs	r0, #8
	ldr	r1, [sp, #36]
	str	r1, [r0]
	ldr	r1, [sp, #52]
	b	.LBB70_175
.LBB70_135:
	movs	r4, #0
	ldr	r1, [sp, #12]
	subs	r1, r1, r3
	mov	r1, r4
	sbcs	r1, r2
	blo	.LBB70_137
	lsls	r5, r3, #3
	ldr	r1, [r7, r5]
	adds	r6, r7, r5
	ldr	r7, [r6, #4]
	orrs	r7, r1
	ldr	r7, [sp, #16]
	bne	.LBB70_137
	b	.LBB70_192
.LBB70_137:
	ldr	r1, [sp, #4]
	strb	r0, [r1]
.LBB70_138:
	ldr	r1, [sp, #88]
	ldr	r1, [r1]
	ldr	r2, [sp, #68]
	adds	r1, r1, r2
	subs	r1, #16
	ldr	r2, [sp, #36]
	str	r2, [r1]
	ldr	r2, [sp, #52]
	str	r2, [r1, #4]
.LBB70_139:
	ldr	r4, [r7, #112]
	ldr	r2, [r7, #116]
	movs	r3, #0
	ldr	r1, [sp, #12]
	subs	r1, r1, r4
	mov	r1, r3
	sbcs	r1, r2
	blo	.LBB70_141
	lsls	r5, r4, #3
	ldr	r1, [r7, r5]
	adds	r6, r7, r5
	ldr	r7, [r6, #4]
	orrs	r7, r1
	ldr	r7, [sp, #16]
	bne	.LBB70_141
	b	.LBB70_184
.LBB70_141:
	ldr	r1, [sp, #4]
	strb	r0, [r1]
.LBB70_142:
	ldr	r6, [sp, #72]
	ldr	r3, [sp, #88]
	ldr	r0, [r3]
	ldr	r1, [sp, #84]
	adds	r0, r0, r1
	subs	r0, #16
	ldr	r1, [sp, #104]
	str	r1, [r0]
	ldr	r1, [sp, #80]
	str	r1, [r0, #4]
	ldr	r0, [r3]
	ldr	r1, [sp, #32]
	adds	r0, r0, r1
	subs	r0, #8
	ldr	r4, [sp, #36]
	str	r4, [r0]
	ldr	r5, [sp, #52]
	str	r5, [r0, #4]
	ldr	r0, [r3, #8]
	ldr	r1, [r3, #12]
	lsrs	r2, r0, #29
	lsls	r1, r1, #3
	adds	r1, r1, r2
	ldr	r2, [r3]
	lsls	r7, r0, #3
	ldr	r0, [sp, #84]
	str	r0, [sp, #32]
	str	r4, [sp, #104]
	mov	r4, r1
	str	r5, [sp, #80]
	ldr	r0, [sp, #68]
.LBB70_143:
	mov	r5, r2
	adds	r0, r2, r0
	subs	r0, #8
	ldr	r2, [r0]
	ldr	r0, [r0, #4]
	ldr	r1, [sp, #100]
	ands	r0, r1
	ands	r2, r6
	movs	r3, #0
	str	r7, [sp, #56]
	subs	r1, r7, r2
	mov	r1, r4
	sbcs	r1, r0
	str	r3, [sp, #92]
	blo	.LBB70_145
	str	r0, [sp, #92]
.LBB70_145:
	mov	r1, r3
	ldr	r7, [sp, #16]
	blo	.LBB70_147
	mov	r1, r2
.LBB70_147:
	ldr	r0, [sp, #32]
	adds	r0, r5, r0
	subs	r0, #24
	ldr	r5, [r0]
	ldr	r2, [r0, #4]
	ldr	r0, [sp, #100]
	ands	r2, r0
	ands	r5, r6
	ldr	r0, [sp, #56]
	subs	r0, r0, r5
	sbcs	r4, r2
	mov	r0, r3
	blo	.LBB70_149
	mov	r0, r2
.LBB70_149:
	str	r1, [sp, #76]
	mov	r2, r3
	blo	.LBB70_151
	mov	r2, r5
.LBB70_151:
	ldr	r6, [r7, #112]
	ldr	r1, [r7, #116]
	mov	r5, r7
	ldr	r4, [sp, #12]
	subs	r7, r4, r6
	sbcs	r3, r1
	blo	.LBB70_153
	lsls	r3, r6, #3
	ldr	r4, [r5, r3]
	str	r4, [sp, #84]
	adds	r4, r5, r3
	str	r4, [sp, #56]
	ldr	r4, [r4, #4]
	ldr	r7, [sp, #84]
	orrs	r4, r7
	bne	.LBB70_153
	b	.LBB70_177
.LBB70_153:
	movs	r1, #1
	ldr	r3, [sp, #4]
	strb	r1, [r3]
.LBB70_154:
	mov	r7, r5
	ldr	r6, [sp, #88]
	ldr	r1, [r6]
	ldr	r3, [sp, #68]
	adds	r1, r1, r3
	subs	r1, #16
	str	r2, [r1]
	str	r0, [r1, #4]
	orrs	r0, r2
	beq	.LBB70_156
	lsrs	r0, r2, #3
	ldr	r1, [sp, #96]
	muls	r0, r1, r0
	ldr	r1, [r6]
	adds	r0, r1, r0
	subs	r0, #8
	ldr	r1, [sp, #64]
	str	r1, [r0, #4]
	ldr	r1, [r0]
	movs	r2, #1
	ands	r2, r1
	ldr	r1, [sp, #60]
	orrs	r2, r1
	str	r2, [r0]
.LBB70_156:
	ldr	r0, [r6]
	ldr	r1, [sp, #32]
	adds	r1, r0, r1
	subs	r1, #8
	movs	r3, #1
	ldr	r4, [sp, #76]
	mov	r2, r4
	orrs	r2, r3
	str	r2, [r1]
	ldr	r0, [sp, #92]
	str	r0, [r1, #4]
	mov	r1, r4
	orrs	r1, r0
	str	r3, [sp, #84]
	beq	.LBB70_166
	ldr	r2, [r6, #8]
	ldr	r1, [r6, #12]
	lsrs	r3, r2, #29
	lsls	r1, r1, #3
	adds	r5, r1, r3
	lsrs	r1, r4, #3
	ldr	r3, [sp, #96]
	muls	r3, r1, r3
	ldr	r1, [r6]
	str	r3, [sp, #96]
	adds	r1, r1, r3
	subs	r1, #24
	ldr	r6, [r1]
	ldr	r3, [r1, #4]
	ldr	r0, [sp, #100]
	ands	r3, r0
	ldr	r0, [sp, #72]
	ands	r6, r0
	lsls	r1, r2, #3
	movs	r2, #0
	subs	r1, r1, r6
	sbcs	r5, r3
	mov	r5, r2
	blo	.LBB70_159
	mov	r5, r6
.LBB70_159:
	blo	.LBB70_161
	mov	r2, r3
.LBB70_161:
	ldr	r1, [sp, #64]
	eors	r2, r1
	ldr	r1, [sp, #60]
	eors	r5, r1
	orrs	r5, r2
	ldr	r3, [r7, #112]
	ldr	r2, [r7, #116]
	bne	.LBB70_167
	movs	r5, #0
	ldr	r1, [sp, #12]
	subs	r1, r1, r3
	mov	r1, r5
	sbcs	r1, r2
	blo	.LBB70_164
	lsls	r6, r3, #3
	ldr	r4, [sp, #16]
	ldr	r1, [r4, r6]
	adds	r7, r4, r6
	ldr	r4, [r7, #4]
	orrs	r4, r1
	bne	.LBB70_164
	b	.LBB70_185
.LBB70_164:
	ldr	r1, [sp, #4]
	ldr	r0, [sp, #84]
	strb	r0, [r1]
	ldr	r7, [sp, #16]
.LBB70_165:
	ldr	r6, [sp, #88]
	ldr	r1, [r6]
	ldr	r2, [sp, #96]
	adds	r1, r1, r2
	subs	r1, #24
	ldr	r2, [sp, #80]
	str	r2, [r1, #4]
	ldr	r2, [r1]
	ands	r2, r0
	ldr	r3, [sp, #104]
	orrs	r2, r3
	str	r2, [r1]
	b	.LBB70_171
.LBB70_166:
	ldr	r2, [sp, #8]
	ldr	r0, [sp, #104]
	strb	r0, [r2]
	ldr	r3, [sp, #80]
	strb	r3, [r2, #4]
	lsrs	r1, r0, #24
	strb	r1, [r2, #3]
	lsrs	r1, r0, #16
	strb	r1, [r2, #2]
	lsrs	r1, r0, #8
	strb	r1, [r2, #1]
	lsrs	r1, r3, #24
	strb	r1, [r2, #7]
	lsrs	r1, r3, #16
	strb	r1, [r2, #6]
	lsrs	r1, r3, #8
	strb	r1, [r2, #5]
	b	.LBB70_171
.LBB70_167:
	movs	r5, #0
	ldr	r1, [sp, #12]
	subs	r1, r1, r3
	mov	r1, r5
	sbcs	r1, r2
	blo	.LBB70_169
	lsls	r6, r3, #3
	ldr	r4, [sp, #16]
	ldr	r1, [r4, r6]
	adds	r7, r4, r6
	ldr	r4, [r7, #4]
	orrs	r4, r1
	bne	.LBB70_169
	b	.LBB70_186
.LBB70_169:
	ldr	r1, [sp, #4]
	ldr	r0, [sp, #84]
	strb	r0, [r1]
	ldr	r7, [sp, #16]
.LBB70_170:
	ldr	r6, [sp, #88]
	ldr	r1, [r6]
	ldr	r2, [sp, #96]
	adds	r1, r1, r2
	subs	r1, #16
	ldr	r2, [sp, #104]
	str	r2, [r1]
	ldr	r2, [sp, #80]
	str	r2, [r1, #4]
.LBB70_171:
	ldr	r3, [r7, #112]
	ldr	r1, [r7, #116]
	movs	r2, #0
	ldr	r4, [sp, #12]
	subs	r4, r4, r3
	mov	r4, r2
	sbcs	r4, r1
	blo	.LBB70_173
	lsls	r4, r3, #3
	ldr	r6, [r7, r4]
	adds	r5, r7, r4
	ldr	r7, [r5, #4]
	orrs	r7, r6
	ldr	r7, [sp, #16]
	ldr	r6, [sp, #88]
	beq	.LBB70_178
.LBB70_173:
	ldr	r1, [sp, #4]
	ldr	r3, [sp, #84]
	strb	r3, [r1]
.LBB70_174:
	ldr	r1, [r6]
	ldr	r0, [sp, #32]
	adds	r1, r1, r0
	subs	r1, #24
	ldr	r2, [r1]
	ands	r2, r3
	ldr	r0, [sp, #60]
	orrs	r2, r0
	str	r2, [r1]
	ldr	r0, [sp, #64]
	str	r0, [r1, #4]
	ldr	r0, [r6]
	ldr	r1, [sp, #68]
	adds	r0, r0, r1
	subs	r0, #8
	ldr	r1, [sp, #104]
	str	r1, [r0]
	ldr	r1, [sp, #80]
.LBB70_175:
	str	r1, [r0, #4]
.LBB70_176:
	add	sp, #108
	pop	{r4, r5, r6, r7, pc}
.LBB70_177:
	ldr	r4, [sp, #60]
	str	r4, [r5, r3]
	ldr	r3, [sp, #64]
	ldr	r4, [sp, #56]
	str	r3, [r4, #4]
	movs	r4, #0
	adds	r3, r6, #1
	str	r3, [r5, #112]
	adcs	r1, r4
	str	r1, [r5, #116]
	b	.LBB70_154
.LBB70_178:
	ldr	r0, [sp, #104]
	str	r0, [r7, r4]
	ldr	r4, [sp, #80]
	str	r4, [r5, #4]
	adds	r3, r3, #1
	str	r3, [r7, #112]
	adcs	r1, r2
	str	r1, [r7, #116]
	ldr	r3, [sp, #84]
	b	.LBB70_174
.LBB70_179:
	ldr	r4, [sp, #60]
	str	r4, [r3, r5]
	ldr	r4, [sp, #64]
	ldr	r5, [sp, #80]
	str	r4, [r5, #4]
	movs	r5, #0
	adds	r4, r6, #1
	str	r4, [r3, #112]
	adcs	r0, r5
	str	r0, [r3, #116]
	b	.LBB70_114
.LBB70_180:
	ldr	r0, [sp, #36]
	str	r0, [r7, r4]
	ldr	r0, [sp, #52]
	str	r0, [r5, #4]
	adds	r0, r3, #1
	str	r0, [r7, #112]
	adcs	r1, r2
	str	r1, [r7, #116]
	b	.LBB70_134
.LBB70_181:
	ldr	r5, [sp, #104]
	str	r5, [r7, r2]
	add	r5, sp, #80
	ldm	r5, {r2, r3, r5}
	str	r2, [r3, #4]
	movs	r2, #0
	adds	r4, r4, #1
	str	r4, [r7, #112]
	ldr	r3, [sp, #92]
	adcs	r3, r2
	str	r3, [r7, #116]
	b	.LBB70_83
.LBB70_182:
	str	r4, [sp, #92]
	ldr	r4, [sp, #36]
	str	r4, [r7, r3]
	ldr	r3, [sp, #52]
	ldr	r4, [sp, #92]
	str	r3, [r4, #4]
	adds	r2, r2, #1
	str	r2, [r7, #112]
	adcs	r0, r1
	str	r0, [r7, #116]
	b	.LBB70_102
.LBB70_183:
	ldr	r1, [sp, #104]
	str	r1, [r7, r4]
	ldr	r1, [sp, #80]
	str	r1, [r6, #4]
	movs	r1, #0
	adds	r4, r5, #1
	str	r4, [r7, #112]
	adcs	r0, r1
	str	r0, [r7, #116]
	b	.LBB70_60
.LBB70_184:
	ldr	r0, [sp, #36]
	str	r0, [r7, r5]
	ldr	r0, [sp, #52]
	str	r0, [r6, #4]
	adds	r0, r4, #1
	str	r0, [r7, #112]
	adcs	r2, r3
	str	r2, [r7, #116]
	b	.LBB70_142
.LBB70_185:
	ldr	r1, [sp, #16]
	ldr	r0, [sp, #76]
	str	r0, [r1, r6]
	ldr	r0, [sp, #92]
	str	r0, [r7, #4]
	mov	r7, r1
	adds	r1, r3, #1
	str	r1, [r7, #112]
	adcs	r2, r5
	str	r2, [r7, #116]
	ldr	r0, [sp, #84]
	b	.LBB70_165
.LBB70_186:
	ldr	r1, [sp, #16]
	ldr	r0, [sp, #76]
	str	r0, [r1, r6]
	ldr	r0, [sp, #92]
	str	r0, [r7, #4]
	mov	r7, r1
	adds	r1, r3, #1
	str	r1, [r7, #112]
	adcs	r2, r5
	str	r2, [r7, #116]
	b	.LBB70_170
.LBB70_187:
	ldr	r3, [sp, #16]
	str	r4, [r3, r6]
	ldr	r4, [sp, #84]
	str	r4, [r7, #4]
	mov	r7, r3
	adds	r2, r2, #1
	str	r2, [r3, #112]
	adcs	r1, r5
	str	r1, [r3, #116]
	b	.LBB70_125
.LBB70_188:
	ldr	r3, [sp, #16]
	str	r4, [r3, r6]
	ldr	r4, [sp, #84]
	str	r4, [r7, #4]
	mov	r7, r3
	adds	r2, r2, #1
	str	r2, [r3, #112]
	adcs	r1, r5
	str	r1, [r3, #116]
	b	.LBB70_130
.LBB70_189:
	ldr	r5, [sp, #60]
	str	r5, [r7, r3]
	ldr	r5, [sp, #88]
	ldr	r3, [sp, #64]
	str	r3, [r4, #4]
	adds	r1, r1, #1
	str	r1, [r7, #112]
	adcs	r0, r2
	str	r0, [r7, #116]
	b	.LBB70_93
.LBB70_190:
	ldr	r5, [sp, #60]
	str	r5, [r7, r3]
	ldr	r5, [sp, #88]
	ldr	r3, [sp, #64]
	str	r3, [r4, #4]
	adds	r1, r1, #1
	str	r1, [r7, #112]
	adcs	r0, r2
	str	r0, [r7, #116]
	b	.LBB70_98
.LBB70_191:
	ldr	r1, [sp, #60]
	str	r1, [r7, r5]
	ldr	r1, [sp, #64]
	str	r1, [r6, #4]
	adds	r1, r3, #1
	str	r1, [r7, #112]
	adcs	r2, r4
	str	r2, [r7, #116]
	b	.LBB70_70
.LBB70_192:
	ldr	r1, [sp, #60]
	str	r1, [r7, r5]
	ldr	r1, [sp, #64]
	str	r1, [r6, #4]
	adds	r1, r3, #1
	str	r1, [r7, #112]
	adcs	r2, r4
	str	r2, [r7, #116]
	b	.LBB70_138
.Lfunc_end70:
	.size	ic_raw_augmented.noting.WrittenSurgery.attach, .Lfunc_end70-ic_raw_augmented.noting.WrittenSurgery.attach
	.cfi_endproc
	.section	.text.ic_raw_augmented.edit_calls.settle,"ax",%progbits
	.p2align	1
	.type	ic_raw_augmented.edit_calls.settle,%function
	.code	16
	.thumb_func
ic_raw_augmented.edit_calls.settle:
	.cfi_startproc
	push	{r4, r5, r6, r7, lr}
	.cfi_def_cfa_offset 20
	.cfi_offset lr, -4
	.cfi_offset r7, -8
	.cfi_offset r6, -12
	.cfi_offset r5, -16
	.cfi_offset r4, -20
	sub	sp, #76
	.cfi_def_cfa_offset 96
	ldr	r1, [sp, #120]
	cmp	r1, #0
	beq	.LBB71_2
.LBB71_1:
	add	sp, #76
	pop	{r4, r5, r6, r7, pc}
.LBB71_2:
	ldr	r1, [sp, #108]
	str	r1, [sp, #28]
	ldr	r1, [sp, #104]
	str	r1, [sp, #24]
	ldr	r6, [sp, #116]
	ldr	r1, [sp, #112]
	str	r1, [sp, #16]
	ldr	r1, [sp, #96]
	str	r1, [sp, #20]
	str	r2, [sp, #64]
	movs	r1, #0
	str	r1, [sp, #60]
	str	r0, [sp, #56]
	str	r3, [sp, #68]
	movs	r0, #120
	ldrb	r0, [r6, r0]
	cmp	r0, #0
	str	r3, [sp, #52]
	str	r2, [sp, #44]
	beq	.LBB71_12
	mov	r4, r2
	mov	r0, r3
	orrs	r0, r2
	beq	.LBB71_1
	mov	r7, r3
	movs	r0, #7
	mvns	r0, r0
	str	r0, [sp, #40]
	movs	r2, #0
	movs	r0, #15
	str	r0, [sp, #36]
	movs	r0, #1
	str	r0, [sp, #32]
	mov	r6, r2
	mov	r5, r2
	str	r2, [sp, #48]
	b	.LBB71_6
.LBB71_5:
	movs	r0, #0
	adds	r6, r6, #1
	adcs	r5, r0
	ldr	r4, [sp, #44]
	subs	r0, r6, r4
	mov	r0, r5
	ldr	r7, [sp, #52]
	sbcs	r0, r7
	ldr	r2, [sp, #48]
	bhs	.LBB71_1
.LBB71_6:
	lsrs	r0, r6, #29
	lsls	r1, r5, #3
	adds	r0, r1, r0
	lsls	r1, r6, #3
	adds	r1, #8
	adcs	r0, r2
	ldr	r2, [sp, #40]
	ands	r1, r2
	lsrs	r2, r1, #3
	ldr	r3, [sp, #36]
	ands	r0, r3
	lsls	r3, r0, #29
	adds	r2, r2, r3
	lsrs	r3, r0, #3
	subs	r2, r4, r2
	sbcs	r7, r3
	blo	.LBB71_8
	ldr	r2, [sp, #48]
	mov	r3, r1
	orrs	r3, r0
	ldr	r3, [sp, #32]
	bne	.LBB71_9
	b	.LBB71_10
.LBB71_8:
	movs	r2, #1
	mov	r3, r1
	orrs	r3, r0
	ldr	r3, [sp, #32]
	beq	.LBB71_10
.LBB71_9:
	mov	r3, r2
.LBB71_10:
	cmp	r3, #0
	bne	.LBB71_5
	ldr	r2, [sp, #16]
	str	r2, [sp]
	str	r1, [sp, #8]
	str	r0, [sp, #12]
	add	r0, sp, #56
	add	r3, sp, #20
	ldm	r3, {r1, r2, r3}
	bl	ic_raw_augmented.recompute.recompute_up
	b	.LBB71_5
.LBB71_12:
	ldr	r5, [r6]
	str	r6, [sp, #36]
	ldr	r7, [r6, #4]
	movs	r2, #15
	mov	r0, r7
	str	r2, [sp, #40]
	ands	r0, r2
	movs	r2, #7
	mov	r6, r5
	str	r2, [sp, #48]
	bics	r6, r2
	mov	r2, r6
	orrs	r2, r0
	rsbs	r4, r2, #0
	adcs	r4, r2
	lsrs	r3, r0, #3
	lsls	r7, r7, #29
	lsrs	r5, r5, #3
	adds	r5, r5, r7
	movs	r2, #1
	ldr	r7, [sp, #44]
	subs	r5, r7, r5
	ldr	r5, [sp, #52]
	sbcs	r5, r3
	mov	r7, r2
	blo	.LBB71_14
	mov	r2, r1
.LBB71_14:
	orrs	r4, r2
	ldr	r1, [sp, #48]
	mvns	r1, r1
	str	r1, [sp, #48]
	cmp	r4, #0
	bne	.LBB71_16
	ldr	r1, [sp, #16]
	str	r1, [sp]
	str	r6, [sp, #8]
	str	r0, [sp, #12]
	add	r0, sp, #56
	add	r3, sp, #20
	ldm	r3, {r1, r2, r3}
	bl	ic_raw_augmented.recompute.recompute_up
.LBB71_16:
	ldr	r5, [sp, #36]
	ldr	r0, [r5, #8]
	ldr	r1, [r5, #12]
	ldr	r2, [sp, #40]
	ands	r1, r2
	lsls	r2, r1, #29
	ldr	r3, [sp, #48]
	ands	r0, r3
	lsrs	r3, r0, #3
	adds	r2, r3, r2
	lsrs	r3, r1, #3
	ldr	r4, [sp, #44]
	subs	r2, r4, r2
	ldr	r2, [sp, #52]
	sbcs	r2, r3
	blo	.LBB71_18
	movs	r2, #0
	b	.LBB71_19
.LBB71_18:
	movs	r2, #1
.LBB71_19:
	mov	r6, r7
	mov	r3, r0
	orrs	r3, r1
	mov	r3, r7
	ldr	r7, [sp, #40]
	beq	.LBB71_21
	mov	r3, r2
.LBB71_21:
	cmp	r3, #0
	bne	.LBB71_23
	ldr	r2, [sp, #16]
	str	r2, [sp]
	str	r0, [sp, #8]
	str	r1, [sp, #12]
	add	r0, sp, #56
	add	r3, sp, #20
	ldm	r3, {r1, r2, r3}
	bl	ic_raw_augmented.recompute.recompute_up
.LBB71_23:
	ldr	r0, [r5, #16]
	ldr	r1, [r5, #20]
	ands	r1, r7
	lsls	r2, r1, #29
	ldr	r3, [sp, #48]
	ands	r0, r3
	lsrs	r3, r0, #3
	adds	r2, r3, r2
	lsrs	r3, r1, #3
	subs	r2, r4, r2
	ldr	r2, [sp, #52]
	sbcs	r2, r3
	blo	.LBB71_25
	movs	r2, #0
	mov	r3, r0
	orrs	r3, r1
	mov	r3, r6
	bne	.LBB71_26
	b	.LBB71_27
.LBB71_25:
	movs	r2, #1
	mov	r3, r0
	orrs	r3, r1
	mov	r3, r6
	beq	.LBB71_27
.LBB71_26:
	mov	r3, r2
.LBB71_27:
	cmp	r3, #0
	bne	.LBB71_29
	ldr	r2, [sp, #16]
	str	r2, [sp]
	str	r0, [sp, #8]
	str	r1, [sp, #12]
	add	r0, sp, #56
	add	r3, sp, #20
	ldm	r3, {r1, r2, r3}
	bl	ic_raw_augmented.recompute.recompute_up
.LBB71_29:
	ldr	r0, [r5, #24]
	ldr	r1, [r5, #28]
	ands	r1, r7
	lsls	r2, r1, #29
	ldr	r3, [sp, #48]
	ands	r0, r3
	lsrs	r3, r0, #3
	adds	r2, r3, r2
	lsrs	r3, r1, #3
	subs	r2, r4, r2
	ldr	r2, [sp, #52]
	sbcs	r2, r3
	blo	.LBB71_31
	movs	r2, #0
	mov	r3, r0
	orrs	r3, r1
	mov	r3, r6
	bne	.LBB71_32
	b	.LBB71_33
.LBB71_31:
	movs	r2, #1
	mov	r3, r0
	orrs	r3, r1
	mov	r3, r6
	beq	.LBB71_33
.LBB71_32:
	mov	r3, r2
.LBB71_33:
	cmp	r3, #0
	bne	.LBB71_35
	ldr	r2, [sp, #16]
	str	r2, [sp]
	str	r0, [sp, #8]
	str	r1, [sp, #12]
	add	r0, sp, #56
	add	r3, sp, #20
	ldm	r3, {r1, r2, r3}
	bl	ic_raw_augmented.recompute.recompute_up
.LBB71_35:
	ldr	r0, [r5, #32]
	ldr	r1, [r5, #36]
	ands	r1, r7
	lsls	r2, r1, #29
	ldr	r3, [sp, #48]
	ands	r0, r3
	lsrs	r3, r0, #3
	adds	r2, r3, r2
	lsrs	r3, r1, #3
	subs	r2, r4, r2
	ldr	r2, [sp, #52]
	sbcs	r2, r3
	blo	.LBB71_37
	movs	r2, #0
	mov	r3, r0
	orrs	r3, r1
	mov	r3, r6
	bne	.LBB71_38
	b	.LBB71_39
.LBB71_37:
	movs	r2, #1
	mov	r3, r0
	orrs	r3, r1
	mov	r3, r6
	beq	.LBB71_39
.LBB71_38:
	mov	r3, r2
.LBB71_39:
	cmp	r3, #0
	bne	.LBB71_41
	ldr	r2, [sp, #16]
	str	r2, [sp]
	str	r0, [sp, #8]
	str	r1, [sp, #12]
	add	r0, sp, #56
	add	r3, sp, #20
	ldm	r3, {r1, r2, r3}
	bl	ic_raw_augmented.recompute.recompute_up
.LBB71_41:
	ldr	r0, [r5, #40]
	ldr	r1, [r5, #44]
	ands	r1, r7
	lsls	r2, r1, #29
	ldr	r3, [sp, #48]
	ands	r0, r3
	lsrs	r3, r0, #3
	adds	r2, r3, r2
	lsrs	r3, r1, #3
	subs	r2, r4, r2
	ldr	r2, [sp, #52]
	sbcs	r2, r3
	blo	.LBB71_43
	movs	r2, #0
	mov	r3, r0
	orrs	r3, r1
	mov	r3, r6
	bne	.LBB71_44
	b	.LBB71_45
.LBB71_43:
	movs	r2, #1
	mov	r3, r0
	orrs	r3, r1
	mov	r3, r6
	beq	.LBB71_45
.LBB71_44:
	mov	r3, r2
.LBB71_45:
	cmp	r3, #0
	bne	.LBB71_47
	ldr	r2, [sp, #16]
	str	r2, [sp]
	str	r0, [sp, #8]
	str	r1, [sp, #12]
	add	r0, sp, #56
	add	r3, sp, #20
	ldm	r3, {r1, r2, r3}
	bl	ic_raw_augmented.recompute.recompute_up
.LBB71_47:
	ldr	r0, [r5, #48]
	ldr	r1, [r5, #52]
	ands	r1, r7
	lsls	r2, r1, #29
	ldr	r3, [sp, #48]
	ands	r0, r3
	lsrs	r3, r0, #3
	adds	r2, r3, r2
	lsrs	r3, r1, #3
	subs	r2, r4, r2
	ldr	r2, [sp, #52]
	sbcs	r2, r3
	blo	.LBB71_49
	movs	r2, #0
	mov	r3, r0
	orrs	r3, r1
	mov	r3, r6
	bne	.LBB71_50
	b	.LBB71_51
.LBB71_49:
	movs	r2, #1
	mov	r3, r0
	orrs	r3, r1
	mov	r3, r6
	beq	.LBB71_51
.LBB71_50:
	mov	r3, r2
.LBB71_51:
	cmp	r3, #0
	bne	.LBB71_53
	ldr	r2, [sp, #16]
	str	r2, [sp]
	str	r0, [sp, #8]
	str	r1, [sp, #12]
	add	r0, sp, #56
	add	r3, sp, #20
	ldm	r3, {r1, r2, r3}
	bl	ic_raw_augmented.recompute.recompute_up
.LBB71_53:
	ldr	r0, [r5, #56]
	ldr	r1, [r5, #60]
	ands	r1, r7
	lsls	r2, r1, #29
	ldr	r3, [sp, #48]
	ands	r0, r3
	lsrs	r3, r0, #3
	adds	r2, r3, r2
	lsrs	r3, r1, #3
	subs	r2, r4, r2
	ldr	r2, [sp, #52]
	sbcs	r2, r3
	blo	.LBB71_55
	movs	r2, #0
	mov	r3, r0
	orrs	r3, r1
	mov	r3, r6
	bne	.LBB71_56
	b	.LBB71_57
.LBB71_55:
	movs	r2, #1
	mov	r3, r0
	orrs	r3, r1
	mov	r3, r6
	beq	.LBB71_57
.LBB71_56:
	mov	r3, r2
.LBB71_57:
	cmp	r3, #0
	bne	.LBB71_59
	ldr	r2, [sp, #16]
	str	r2, [sp]
	str	r0, [sp, #8]
	str	r1, [sp, #12]
	add	r0, sp, #56
	add	r3, sp, #20
	ldm	r3, {r1, r2, r3}
	bl	ic_raw_augmented.recompute.recompute_up
.LBB71_59:
	ldr	r0, [r5, #64]
	ldr	r1, [r5, #68]
	ands	r1, r7
	lsls	r2, r1, #29
	ldr	r3, [sp, #48]
	ands	r0, r3
	lsrs	r3, r0, #3
	adds	r2, r3, r2
	lsrs	r3, r1, #3
	subs	r2, r4, r2
	ldr	r2, [sp, #52]
	sbcs	r2, r3
	blo	.LBB71_61
	movs	r2, #0
	mov	r3, r0
	orrs	r3, r1
	mov	r3, r6
	bne	.LBB71_62
	b	.LBB71_63
.LBB71_61:
	movs	r2, #1
	mov	r3, r0
	orrs	r3, r1
	mov	r3, r6
	beq	.LBB71_63
.LBB71_62:
	mov	r3, r2
.LBB71_63:
	cmp	r3, #0
	bne	.LBB71_65
	ldr	r2, [sp, #16]
	str	r2, [sp]
	str	r0, [sp, #8]
	str	r1, [sp, #12]
	add	r0, sp, #56
	add	r3, sp, #20
	ldm	r3, {r1, r2, r3}
	bl	ic_raw_augmented.recompute.recompute_up
.LBB71_65:
	ldr	r0, [r5, #72]
	ldr	r1, [r5, #76]
	ands	r1, r7
	lsls	r2, r1, #29
	ldr	r3, [sp, #48]
	ands	r0, r3
	lsrs	r3, r0, #3
	adds	r2, r3, r2
	lsrs	r3, r1, #3
	subs	r2, r4, r2
	ldr	r2, [sp, #52]
	sbcs	r2, r3
	blo	.LBB71_67
	movs	r2, #0
	mov	r3, r0
	orrs	r3, r1
	mov	r3, r6
	bne	.LBB71_68
	b	.LBB71_69
.LBB71_67:
	movs	r2, #1
	mov	r3, r0
	orrs	r3, r1
	mov	r3, r6
	beq	.LBB71_69
.LBB71_68:
	mov	r3, r2
.LBB71_69:
	cmp	r3, #0
	bne	.LBB71_71
	ldr	r2, [sp, #16]
	str	r2, [sp]
	str	r0, [sp, #8]
	str	r1, [sp, #12]
	add	r0, sp, #56
	add	r3, sp, #20
	ldm	r3, {r1, r2, r3}
	bl	ic_raw_augmented.recompute.recompute_up
.LBB71_71:
	ldr	r0, [r5, #80]
	ldr	r1, [r5, #84]
	ands	r1, r7
	lsls	r2, r1, #29
	ldr	r3, [sp, #48]
	ands	r0, r3
	lsrs	r3, r0, #3
	adds	r2, r3, r2
	lsrs	r3, r1, #3
	subs	r2, r4, r2
	ldr	r2, [sp, #52]
	sbcs	r2, r3
	blo	.LBB71_73
	movs	r2, #0
	mov	r3, r0
	orrs	r3, r1
	mov	r3, r6
	bne	.LBB71_74
	b	.LBB71_75
.LBB71_73:
	movs	r2, #1
	mov	r3, r0
	orrs	r3, r1
	mov	r3, r6
	beq	.LBB71_75
.LBB71_74:
	mov	r3, r2
.LBB71_75:
	cmp	r3, #0
	bne	.LBB71_77
	ldr	r2, [sp, #16]
	str	r2, [sp]
	str	r0, [sp, #8]
	str	r1, [sp, #12]
	add	r0, sp, #56
	add	r3, sp, #20
	ldm	r3, {r1, r2, r3}
	bl	ic_raw_augmented.recompute.recompute_up
.LBB71_77:
	ldr	r0, [r5, #88]
	ldr	r1, [r5, #92]
	ands	r1, r7
	lsls	r2, r1, #29
	ldr	r3, [sp, #48]
	ands	r0, r3
	lsrs	r3, r0, #3
	adds	r2, r3, r2
	lsrs	r3, r1, #3
	subs	r2, r4, r2
	ldr	r2, [sp, #52]
	sbcs	r2, r3
	blo	.LBB71_79
	movs	r2, #0
	mov	r3, r0
	orrs	r3, r1
	mov	r3, r6
	bne	.LBB71_80
	b	.LBB71_81
.LBB71_79:
	movs	r2, #1
	mov	r3, r0
	orrs	r3, r1
	mov	r3, r6
	beq	.LBB71_81
.LBB71_80:
	mov	r3, r2
.LBB71_81:
	cmp	r3, #0
	bne	.LBB71_83
	ldr	r2, [sp, #16]
	str	r2, [sp]
	str	r0, [sp, #8]
	str	r1, [sp, #12]
	add	r0, sp, #56
	add	r3, sp, #20
	ldm	r3, {r1, r2, r3}
	bl	ic_raw_augmented.recompute.recompute_up
.LBB71_83:
	ldr	r0, [r5, #96]
	ldr	r1, [r5, #100]
	ands	r1, r7
	lsls	r2, r1, #29
	ldr	r3, [sp, #48]
	ands	r0, r3
	lsrs	r3, r0, #3
	adds	r2, r3, r2
	lsrs	r3, r1, #3
	subs	r2, r4, r2
	ldr	r2, [sp, #52]
	sbcs	r2, r3
	blo	.LBB71_85
	movs	r2, #0
	mov	r3, r0
	orrs	r3, r1
	mov	r3, r6
	bne	.LBB71_86
	b	.LBB71_87
.LBB71_85:
	movs	r2, #1
	mov	r3, r0
	orrs	r3, r1
	mov	r3, r6
	beq	.LBB71_87
.LBB71_86:
	mov	r3, r2
.LBB71_87:
	cmp	r3, #0
	bne	.LBB71_89
	ldr	r2, [sp, #16]
	str	r2, [sp]
	str	r0, [sp, #8]
	str	r1, [sp, #12]
	add	r0, sp, #56
	add	r3, sp, #20
	ldm	r3, {r1, r2, r3}
	bl	ic_raw_augmented.recompute.recompute_up
.LBB71_89:
	ldr	r0, [r5, #104]
	ldr	r1, [r5, #108]
	ands	r1, r7
	lsls	r2, r1, #29
	ldr	r3, [sp, #48]
	ands	r0, r3
	lsrs	r3, r0, #3
	adds	r2, r3, r2
	lsrs	r3, r1, #3
	subs	r2, r4, r2
	ldr	r2, [sp, #52]
	sbcs	r2, r3
	blo	.LBB71_91
	movs	r2, #0
	mov	r3, r0
	orrs	r3, r1
	bne	.LBB71_92
	b	.LBB71_93
.LBB71_91:
	movs	r2, #1
	mov	r3, r0
	orrs	r3, r1
	beq	.LBB71_93
.LBB71_92:
	mov	r6, r2
.LBB71_93:
	cmp	r6, #0
	beq	.LBB71_94
	b	.LBB71_1
.LBB71_94:
	ldr	r2, [sp, #16]
	str	r2, [sp]
	str	r0, [sp, #8]
	str	r1, [sp, #12]
	add	r0, sp, #56
	add	r3, sp, #20
	ldm	r3, {r1, r2, r3}
	bl	ic_raw_augmented.recompute.recompute_up
	add	sp, #76
	pop	{r4, r5, r6, r7, pc}
.Lfunc_end71:
	.size	ic_raw_augmented.edit_calls.settle, .Lfunc_end71-ic_raw_augmented.edit_calls.settle
	.cfi_endproc
	.section	.text.ic_raw_augmented.recompute.recompute_up,"ax",%progbits
	.p2align	1
	.type	ic_raw_augmented.recompute.recompute_up,%function
	.code	16
	.thumb_func
ic_raw_augmented.recompute.recompute_up:
	.cfi_startproc
	push	{r4, r5, r6, r7, lr}
	.cfi_def_cfa_offset 20
	.cfi_offset lr, -4
	.cfi_offset r7, -8
	.cfi_offset r6, -12
	.cfi_offset r5, -16
	.cfi_offset r4, -20
	sub	sp, #68
	.cfi_def_cfa_offset 88
	str	r3, [sp, #32]
	str	r2, [sp, #28]
	str	r1, [sp, #36]
	ldr	r1, [r0, #8]
	str	r1, [sp, #24]
	ldr	r1, [r0, #12]
	str	r1, [sp, #20]
	movs	r2, #7
	mvns	r6, r2
	str	r0, [sp]
	ldr	r0, [r0]
	str	r0, [sp, #56]
	movs	r0, #15
	ldr	r4, [sp, #100]
	ldr	r3, [sp, #96]
	movs	r1, #0
	ldr	r2, [sp, #88]
	str	r2, [sp, #4]
	str	r1, [sp, #40]
	str	r1, [sp, #44]
	str	r6, [sp, #64]
	str	r0, [sp, #60]
	b	.LBB72_3
.LBB72_1:
	ldr	r0, [sp, #44]
	cmp	r0, #65
	ldr	r6, [sp, #64]
	bls	.LBB72_2
	b	.LBB72_38
.LBB72_2:
	ldr	r0, [sp, #44]
	adds	r0, r0, #1
	str	r0, [sp, #44]
	mov	r4, r2
	ldr	r0, [sp, #60]
.LBB72_3:
	str	r3, [sp, #48]
	lsrs	r2, r3, #3
	str	r4, [sp, #52]
	lsls	r3, r4, #29
	adds	r2, r2, r3
	movs	r1, #24
	str	r1, [sp, #8]
	str	r2, [sp, #16]
	muls	r1, r2, r1
	str	r1, [sp, #12]
	ldr	r2, [sp, #56]
	adds	r5, r2, r1
	mov	r2, r5
	subs	r2, #24
	ldr	r3, [r2]
	ldr	r1, [r2, #4]
	ands	r1, r0
	ands	r3, r6
	subs	r0, r3, #1
	str	r0, [sp, #56]
	mov	r4, r1
	ldr	r2, [sp, #40]
	sbcs	r4, r2
	ldr	r0, [sp, #24]
	lsrs	r7, r0, #29
	ldr	r6, [sp, #20]
	lsls	r6, r6, #3
	adds	r6, r6, r7
	lsls	r7, r0, #3
	ldr	r0, [sp, #56]
	subs	r0, r0, r7
	sbcs	r4, r6
	str	r2, [sp, #56]
	mov	r0, r2
	bhs	.LBB72_6
	lsrs	r0, r3, #3
	lsls	r2, r1, #29
	adds	r0, r0, r2
	lsrs	r3, r1, #3
	movs	r2, #0
	subs	r1, r0, #1
	sbcs	r3, r2
	ldr	r0, [sp, #28]
	subs	r0, r1, r0
	ldr	r0, [sp, #32]
	sbcs	r3, r0
	str	r2, [sp, #56]
	mov	r0, r2
	bhs	.LBB72_6
	lsls	r0, r1, #4
	ldr	r1, [sp, #36]
	adds	r0, r1, r0
	ldr	r1, [r0, #8]
	str	r1, [sp, #56]
	ldr	r0, [r0, #12]
.LBB72_6:
	subs	r5, #16
	ldr	r3, [r5]
	ldr	r1, [r5, #4]
	ldr	r4, [sp, #60]
	ands	r1, r4
	ldr	r4, [sp, #64]
	ands	r3, r4
	subs	r4, r3, #1
	mov	r5, r1
	ldr	r2, [sp, #40]
	sbcs	r5, r2
	subs	r4, r4, r7
	mov	r4, r2
	sbcs	r5, r6
	mov	r6, r2
	mov	r7, r2
	bhs	.LBB72_9
	lsrs	r3, r3, #3
	lsls	r4, r1, #29
	adds	r3, r3, r4
	lsrs	r4, r1, #3
	movs	r6, #0
	subs	r1, r3, #1
	sbcs	r4, r6
	ldr	r3, [sp, #28]
	subs	r3, r1, r3
	ldr	r3, [sp, #32]
	sbcs	r4, r3
	ldr	r4, [sp, #40]
	mov	r7, r6
	bhs	.LBB72_9
	lsls	r1, r1, #4
	ldr	r3, [sp, #36]
	adds	r1, r3, r1
	ldr	r6, [r1, #8]
	ldr	r7, [r1, #12]
.LBB72_9:
	ldr	r1, [sp, #52]
	lsrs	r1, r1, #3
	ldr	r2, [sp, #16]
	subs	r5, r2, #1
	sbcs	r1, r4
	movs	r2, #1
	ldr	r3, [sp, #28]
	subs	r3, r5, r3
	ldr	r3, [sp, #32]
	sbcs	r1, r3
	bhs	.LBB72_20
	str	r2, [sp, #24]
	mov	r1, r4
	blo	.LBB72_21
.LBB72_11:
	ldr	r2, [sp, #4]
	lsls	r3, r2, #31
	beq	.LBB72_22
.LBB72_12:
	subs	r3, r6, r4
	mov	r3, r7
	sbcs	r3, r1
	blo	.LBB72_14
	mov	r1, r7
.LBB72_14:
	ldr	r2, [sp, #24]
	blo	.LBB72_16
	mov	r4, r6
.LBB72_16:
	ldr	r6, [sp, #56]
	subs	r3, r4, r6
	mov	r3, r1
	sbcs	r3, r0
	ldr	r7, [sp, #64]
	bhs	.LBB72_31
	bhs	.LBB72_32
.LBB72_18:
	movs	r1, #0
	cmp	r2, #0
	mov	r2, r1
	bne	.LBB72_33
.LBB72_19:
	eors	r1, r6
	eors	r2, r0
	orrs	r2, r1
	bne	.LBB72_34
	b	.LBB72_38
.LBB72_20:
	mov	r2, r4
	str	r2, [sp, #24]
	mov	r1, r4
	bhs	.LBB72_11
.LBB72_21:
	lsls	r1, r5, #4
	ldr	r3, [sp, #36]
	ldr	r4, [r3, r1]
	adds	r1, r3, r1
	ldr	r1, [r1, #4]
	ldr	r2, [sp, #4]
	lsls	r3, r2, #31
	bne	.LBB72_12
.LBB72_22:
	movs	r3, #0
	adds	r4, r6, r4
	adcs	r7, r1
	mov	r1, r3
	adcs	r1, r3
	mvns	r6, r3
	cmp	r1, #0
	mov	r1, r6
	bne	.LBB72_24
	mov	r1, r7
.LBB72_24:
	mov	r7, r6
	bne	.LBB72_26
	mov	r7, r4
.LBB72_26:
	ldr	r2, [sp, #56]
	adds	r2, r7, r2
	adcs	r1, r0
	adcs	r3, r3
	cmp	r3, #0
	mov	r0, r6
	bne	.LBB72_28
	mov	r0, r1
.LBB72_28:
	ldr	r7, [sp, #64]
	bne	.LBB72_30
	mov	r6, r2
.LBB72_30:
	ldr	r2, [sp, #24]
	movs	r1, #0
	cmp	r2, #0
	mov	r2, r1
	beq	.LBB72_19
	b	.LBB72_33
.LBB72_31:
	mov	r0, r1
	blo	.LBB72_18
.LBB72_32:
	mov	r6, r4
	movs	r1, #0
	cmp	r2, #0
	mov	r2, r1
	beq	.LBB72_19
.LBB72_33:
	lsls	r1, r5, #4
	ldr	r2, [sp, #36]
	adds	r2, r2, r1
	ldr	r1, [r2, #8]
	ldr	r2, [r2, #12]
	eors	r1, r6
	eors	r2, r0
	orrs	r2, r1
	beq	.LBB72_38
.LBB72_34:
	ldr	r1, [sp, #48]
	lsls	r1, r1, #1
	ldr	r2, [sp, #36]
	adds	r1, r2, r1
	subs	r1, #8
	str	r6, [r1]
	str	r0, [r1, #4]
	ldr	r5, [sp]
	ldr	r1, [r5]
	ldr	r0, [sp, #12]
	str	r1, [sp, #56]
	adds	r0, r1, r0
	subs	r0, #8
	ldr	r4, [r0]
	ldr	r2, [r0, #4]
	ldr	r0, [sp, #60]
	ands	r2, r0
	mov	r3, r4
	ands	r3, r7
	movs	r0, #0
	subs	r1, r3, #1
	mov	r7, r2
	sbcs	r7, r0
	ldr	r0, [r5, #8]
	ldr	r5, [r5, #12]
	lsrs	r6, r0, #29
	str	r5, [sp, #20]
	lsls	r5, r5, #3
	adds	r5, r5, r6
	str	r0, [sp, #24]
	lsls	r6, r0, #3
	subs	r1, r1, r6
	sbcs	r7, r5
	ldr	r6, [sp, #64]
	bhs	.LBB72_38
	lsrs	r1, r4, #3
	ldr	r0, [sp, #8]
	muls	r0, r1, r0
	ldr	r1, [sp, #56]
	adds	r4, r1, r0
	mov	r1, r4
	subs	r1, #24
	ldr	r5, [r1]
	ldr	r1, [r1, #4]
	ldr	r0, [sp, #60]
	ands	r1, r0
	ldr	r7, [sp, #52]
	eors	r1, r7
	ands	r5, r6
	ldr	r6, [sp, #48]
	eors	r5, r6
	orrs	r5, r1
	bne	.LBB72_36
	b	.LBB72_1
.LBB72_36:
	mov	r5, r6
	subs	r4, #16
	ldm	r4, {r1, r4}
	ands	r4, r0
	eors	r4, r7
	ldr	r6, [sp, #64]
	ands	r1, r6
	eors	r1, r5
	orrs	r1, r4
	bne	.LBB72_38
	ldr	r0, [sp, #44]
	cmp	r0, #66
	bhs	.LBB72_38
	b	.LBB72_2
.LBB72_38:
	add	sp, #68
	pop	{r4, r5, r6, r7, pc}
.Lfunc_end72:
	.size	ic_raw_augmented.recompute.recompute_up, .Lfunc_end72-ic_raw_augmented.recompute.recompute_up
	.cfi_endproc
	.section	.text.ic_raw_augmented.edit_calls.insert_at,"ax",%progbits
	.p2align	1
	.type	ic_raw_augmented.edit_calls.insert_at,%function
	.code	16
	.thumb_func
ic_raw_augmented.edit_calls.insert_at:
	.cfi_startproc
	push	{r4, r5, r6, r7, lr}
	.cfi_def_cfa_offset 20
	.cfi_offset lr, -4
	.cfi_offset r7, -8
	.cfi_offset r6, -12
	.cfi_offset r5, -16
	.cfi_offset r4, -20
	sub	sp, #260
	.cfi_def_cfa_offset 280
	mov	r5, r3
	mov	r6, r0
	ldr	r3, [sp, #292]
	ldr	r4, [sp, #288]
	str	r2, [sp, #100]
	subs	r0, r4, r2
	mov	r0, r3
	sbcs	r0, r5
	bhs	.LBB73_2
	movs	r7, #1
	mov	r0, r7
	add	sp, #260
	pop	{r4, r5, r6, r7, pc}
.LBB73_2:
	str	r3, [sp, #68]
	str	r4, [sp, #72]
	ldr	r2, [sp, #312]
	ldr	r0, [sp, #308]
	str	r0, [sp, #80]
	ldr	r0, [sp, #304]
	str	r0, [sp, #76]
	ldr	r0, [sp, #300]
	str	r0, [sp, #84]
	ldr	r0, [sp, #296]
	str	r0, [sp, #60]
	ldr	r0, [sp, #280]
	str	r0, [sp, #64]
	str	r2, [sp, #32]
	adds	r4, r2, #1
	lsrs	r0, r4, #29
	str	r0, [sp, #56]
	str	r0, [sp, #108]
	lsls	r0, r4, #3
	str	r0, [sp, #52]
	str	r0, [sp, #104]
	movs	r7, #0
	str	r7, [sp]
	add	r0, sp, #104
	adds	r0, #8
	movs	r2, #104
	mov	r1, r7
	mov	r3, r7
	bl	ic.clear
	str	r7, [sp, #228]
	str	r7, [sp, #224]
	str	r7, [sp, #220]
	subs	r0, r4, #1
	str	r4, [sp, #92]
	sbcs	r4, r0
	str	r4, [sp, #216]
	str	r5, [sp, #252]
	ldr	r0, [sp, #100]
	str	r0, [sp, #248]
	str	r7, [sp, #244]
	str	r6, [sp, #96]
	str	r6, [sp, #240]
	ldr	r0, [sp, #84]
	ldr	r3, [r0]
	ldr	r0, [r0, #4]
	movs	r2, #15
	str	r2, [sp, #40]
	ands	r0, r2
	str	r0, [sp, #236]
	movs	r2, #7
	str	r3, [sp, #44]
	str	r2, [sp, #36]
	bics	r3, r2
	str	r3, [sp, #232]
	ldr	r2, [sp, #80]
	adds	r6, r2, #1
	subs	r2, r6, #1
	mov	r4, r6
	sbcs	r4, r2
	str	r4, [sp, #48]
	cmp	r6, #0
	str	r5, [sp, #88]
	beq	.LBB73_10
	movs	r1, #0
	ldr	r4, [sp, #100]
	subs	r4, r4, r6
	sbcs	r5, r1
	blo	.LBB73_15
	movs	r5, #24
	mov	r4, r5
	muls	r4, r6, r4
	ldr	r2, [sp, #96]
	adds	r4, r2, r4
	str	r4, [sp, #28]
	subs	r4, #24
	ldrb	r4, [r4]
	lsls	r4, r4, #31
	beq	.LBB73_15
	subs	r3, r3, #1
	sbcs	r0, r1
	ldr	r2, [sp, #100]
	lsrs	r2, r2, #29
	ldr	r4, [sp, #88]
	lsls	r4, r4, #3
	adds	r2, r4, r2
	ldr	r4, [sp, #100]
	lsls	r4, r4, #3
	subs	r3, r3, r4
	sbcs	r0, r2
	bhs	.LBB73_15
	ldr	r0, [sp, #44]
	lsrs	r0, r0, #3
	muls	r5, r0, r5
	ldr	r0, [sp, #96]
	adds	r0, r0, r5
	subs	r0, #24
	ldrb	r0, [r0]
	lsls	r0, r0, #31
	beq	.LBB73_15
	ldr	r0, [sp, #36]
	mvns	r0, r0
	movs	r2, #23
	mvns	r2, r2
	ldr	r3, [sp, #76]
	lsls	r3, r3, #31
	beq	.LBB73_9
	adds	r2, #8
.LBB73_9:
	ldr	r1, [sp, #28]
	ldr	r3, [r1, r2]
	ands	r3, r0
	adds	r0, r1, r2
	ldr	r0, [r0, #4]
	ldr	r2, [sp, #40]
	ands	r0, r2
	orrs	r0, r3
	beq	.LBB73_11
	b	.LBB73_15
.LBB73_10:
	orrs	r3, r0
	bne	.LBB73_15
.LBB73_11:
	ldr	r0, [sp, #92]
	cmp	r0, #0
	beq	.LBB73_15
	ldr	r0, [sp, #100]
	ldr	r2, [sp, #92]
	subs	r0, r0, r2
	ldr	r0, [sp, #88]
	sbcs	r0, r7
	blo	.LBB73_15
	movs	r0, #24
	ldr	r2, [sp, #92]
	muls	r0, r2, r0
	ldr	r2, [sp, #96]
	adds	r0, r2, r0
	mov	r2, r0
	subs	r2, #24
	ldrb	r3, [r2]
	lsls	r3, r3, #31
	bne	.LBB73_15
	lsrs	r4, r6, #29
	lsls	r6, r6, #3
	strb	r7, [r2, #7]
	strb	r7, [r2, #6]
	strb	r7, [r2, #5]
	strb	r7, [r2, #4]
	strb	r7, [r2, #3]
	strb	r7, [r2, #2]
	strb	r7, [r2, #1]
	movs	r1, #1
	strb	r1, [r2]
	str	r7, [sp]
	subs	r0, #16
	movs	r2, #16
	mov	r1, r7
	mov	r3, r7
	bl	ic.clear
	ldr	r0, [sp, #52]
	str	r0, [sp, #16]
	ldr	r0, [sp, #56]
	str	r0, [sp, #20]
	str	r6, [sp]
	str	r4, [sp, #4]
	ldr	r0, [sp, #76]
	str	r0, [sp, #8]
	add	r0, sp, #104
	add	r1, sp, #240
	add	r2, sp, #232
	ldr	r3, [sp, #48]
	bl	ic_raw_augmented.noting.WrittenSurgery.attach
	ldr	r0, [sp, #236]
	ldr	r1, [sp, #232]
	ldr	r2, [sp, #84]
	str	r1, [r2]
	str	r0, [r2, #4]
	b	.LBB73_16
.LBB73_15:
	add	r0, sp, #240
	ldr	r1, [sp, #80]
	ldr	r2, [sp, #32]
	bl	ic_raw.table.RawTable.refusal.19bacce014a8892a
	mov	r7, r0
.LBB73_16:
	str	r7, [sp, #24]
	add	r0, sp, #104
	str	r0, [sp, #20]
	ldr	r0, [sp, #60]
	str	r0, [sp, #16]
	ldr	r0, [sp, #68]
	str	r0, [sp, #12]
	ldr	r0, [sp, #72]
	str	r0, [sp, #8]
	ldr	r0, [sp, #64]
	str	r0, [sp]
	ldr	r0, [sp, #96]
	ldr	r2, [sp, #100]
	ldr	r3, [sp, #88]
	bl	ic_raw_augmented.edit_calls.settle
	mov	r0, r7
	add	sp, #260
	pop	{r4, r5, r6, r7, pc}
.Lfunc_end73:
	.size	ic_raw_augmented.edit_calls.insert_at, .Lfunc_end73-ic_raw_augmented.edit_calls.insert_at
	.cfi_endproc
	.section	.text.unlikely.ic_raw_augmented.sum_calls.refusal_of_starts,"ax",%progbits
	.p2align	1
	.type	ic_raw_augmented.sum_calls.refusal_of_starts,%function
	.code	16
	.thumb_func
ic_raw_augmented.sum_calls.refusal_of_starts:
	.cfi_startproc
	push	{r4, r5, r6, r7, lr}
	.cfi_def_cfa_offset 20
	.cfi_offset lr, -4
	.cfi_offset r7, -8
	.cfi_offset r6, -12
	.cfi_offset r5, -16
	.cfi_offset r4, -20
	sub	sp, #4
	.cfi_def_cfa_offset 24
	ldr	r1, [sp, #32]
	adds	r5, r1, #1
	blo	.LBB74_5
	ldr	r1, [r0, #8]
	ldr	r4, [r0, #12]
.LBB74_2:
	subs	r0, r2, r1
	sbcs	r3, r4
	blo	.LBB74_6
	ldr	r0, [sp, #28]
	ldr	r2, [sp, #24]
	subs	r1, r2, r1
	sbcs	r0, r4
	blo	.LBB74_6
	movs	r0, #5
	add	sp, #4
	pop	{r4, r5, r6, r7, pc}
.LBB74_5:
	ldr	r1, [r0, #8]
	ldr	r4, [r0, #12]
	movs	r6, #0
	subs	r7, r1, r5
	mov	r7, r4
	sbcs	r7, r6
	bhs	.LBB74_7
.LBB74_6:
	movs	r0, #1
	add	sp, #4
	pop	{r4, r5, r6, r7, pc}
.LBB74_7:
	movs	r6, #24
	muls	r6, r5, r6
	ldr	r0, [r0]
	adds	r0, r0, r6
	subs	r0, #24
	ldrb	r0, [r0]
	lsls	r0, r0, #31
	bne	.LBB74_2
	movs	r0, #3
	add	sp, #4
	pop	{r4, r5, r6, r7, pc}
.Lfunc_end74:
	.size	ic_raw_augmented.sum_calls.refusal_of_starts, .Lfunc_end74-ic_raw_augmented.sum_calls.refusal_of_starts
	.cfi_endproc
	.section	.text.ic_raw.xor_calls.splice,"ax",%progbits
	.p2align	1
	.type	ic_raw.xor_calls.splice,%function
	.code	16
	.thumb_func
ic_raw.xor_calls.splice:
	.cfi_startproc
	push	{r4, r5, r6, r7, lr}
	.cfi_def_cfa_offset 20
	.cfi_offset lr, -4
	.cfi_offset r7, -8
	.cfi_offset r6, -12
	.cfi_offset r5, -16
	.cfi_offset r4, -20
	sub	sp, #100
	.cfi_def_cfa_offset 120
	str	r3, [sp, #92]
	str	r2, [sp, #88]
	str	r0, [sp, #72]
	ldr	r6, [sp, #136]
	ldr	r5, [r6, #4]
	movs	r7, #15
	ands	r5, r7
	movs	r1, #7
	mvns	r1, r1
	str	r1, [sp, #96]
	ldr	r0, [r6]
	ands	r0, r1
	mov	r1, r0
	orrs	r1, r5
	subs	r2, r1, #1
	mov	r3, r1
	sbcs	r3, r2
	str	r3, [sp, #60]
	ldr	r2, [r6, #12]
	str	r2, [sp, #64]
	str	r6, [sp, #52]
	ldr	r2, [r6, #8]
	str	r2, [sp, #68]
	ldr	r3, [sp, #120]
	ldr	r4, [r3]
	ldr	r2, [r3, #4]
	ldr	r6, [r3, #8]
	str	r6, [sp, #84]
	str	r3, [sp, #56]
	ldr	r6, [r3, #12]
	mov	r3, r4
	str	r6, [sp, #80]
	str	r7, [sp, #76]
	ands	r2, r7
	ldr	r4, [sp, #96]
	ands	r3, r4
	movs	r4, #0
	cmp	r1, #0
	beq	.LBB75_3
	mov	r1, r3
	eors	r1, r0
	mov	r6, r2
	eors	r2, r5
	orrs	r2, r1
	mov	r2, r6
	bne	.LBB75_3
.LBB75_2:
	mov	r0, r4
	add	sp, #100
	pop	{r4, r5, r6, r7, pc}
.LBB75_3:
	str	r4, [sp, #48]
	str	r0, [sp, #28]
	str	r5, [sp, #40]
	ldr	r0, [sp, #148]
	str	r0, [sp, #44]
	ldr	r7, [sp, #144]
	ldr	r5, [sp, #140]
	add	r6, sp, #124
	ldm	r6, {r0, r4, r6}
	lsls	r1, r0, #31
	str	r2, [sp, #36]
	beq	.LBB75_12
	lsrs	r1, r4, #3
	lsls	r2, r6, #29
	adds	r1, r1, r2
	str	r6, [sp, #12]
	lsrs	r2, r6, #3
	ldr	r6, [sp, #88]
	subs	r1, r6, r1
	ldr	r1, [sp, #92]
	sbcs	r1, r2
	bhs	.LBB75_5
	b	.LBB75_46
.LBB75_5:
	str	r3, [sp, #8]
	str	r4, [sp, #32]
	ldr	r1, [sp, #72]
	adds	r2, r1, r4
	subs	r2, #8
	ldr	r1, [r2]
	lsls	r3, r1, #31
	bne	.LBB75_6
	b	.LBB75_46
.LBB75_6:
	uxtb	r6, r5
	cmp	r6, #0
	mov	r4, r7
	bne	.LBB75_8
	mov	r4, r6
.LBB75_8:
	str	r0, [sp, #20]
	str	r7, [sp, #16]
	ldr	r2, [r2, #4]
	ldr	r3, [sp, #44]
	ldr	r7, [sp, #12]
	bne	.LBB75_10
	mov	r3, r6
.LBB75_10:
	str	r5, [sp, #24]
	ldr	r6, [sp, #76]
	ands	r2, r6
	eors	r2, r3
	ldr	r0, [sp, #96]
	mov	r5, r0
	ands	r1, r0
	eors	r1, r4
	mov	r3, r1
	orrs	r3, r2
	beq	.LBB75_11
	b	.LBB75_38
.LBB75_11:
	ldr	r3, [sp, #8]
	mov	r1, r3
	ldr	r2, [sp, #32]
	eors	r1, r2
	ldr	r2, [sp, #36]
	mov	r4, r7
	eors	r2, r7
	orrs	r2, r1
	ldr	r6, [sp, #40]
	mov	r7, r5
	beq	.LBB75_17
	b	.LBB75_46
.LBB75_12:
	str	r0, [sp, #20]
	str	r4, [sp, #32]
	mov	r1, r5
	mov	r5, r3
	str	r1, [sp, #24]
	uxtb	r3, r1
	cmp	r3, #0
	str	r7, [sp, #16]
	mov	r1, r7
	bne	.LBB75_14
	mov	r1, r3
.LBB75_14:
	ldr	r2, [sp, #44]
	mov	r4, r6
	ldr	r7, [sp, #96]
	bne	.LBB75_16
	mov	r2, r3
.LBB75_16:
	ldr	r3, [sp, #36]
	eors	r2, r3
	mov	r3, r5
	eors	r1, r5
	orrs	r1, r2
	ldr	r6, [sp, #40]
	beq	.LBB75_17
	b	.LBB75_46
.LBB75_17:
	ldr	r1, [sp, #76]
	ldr	r2, [sp, #80]
	ands	r2, r1
	str	r2, [sp, #80]
	ldr	r1, [sp, #84]
	ands	r1, r7
	str	r1, [sp, #84]
	ldr	r1, [sp, #24]
	lsls	r1, r1, #31
	beq	.LBB75_26
	ldr	r7, [sp, #16]
	lsrs	r1, r7, #3
	ldr	r5, [sp, #44]
	lsls	r2, r5, #29
	adds	r1, r1, r2
	lsrs	r2, r5, #3
	ldr	r5, [sp, #88]
	subs	r1, r5, r1
	ldr	r1, [sp, #92]
	sbcs	r1, r2
	ldr	r5, [sp, #32]
	bhs	.LBB75_19
	b	.LBB75_46
.LBB75_19:
	str	r3, [sp, #8]
	ldr	r1, [sp, #72]
	adds	r2, r1, r7
	subs	r2, #8
	ldr	r1, [r2]
	lsls	r3, r1, #31
	bne	.LBB75_20
	b	.LBB75_46
.LBB75_20:
	str	r4, [sp, #12]
	ldr	r3, [sp, #20]
	uxtb	r4, r3
	cmp	r4, #0
	str	r5, [sp, #32]
	bne	.LBB75_22
	mov	r5, r4
.LBB75_22:
	ldr	r2, [r2, #4]
	ldr	r3, [sp, #12]
	ldr	r7, [sp, #96]
	bne	.LBB75_24
	mov	r3, r4
.LBB75_24:
	ldr	r6, [sp, #76]
	ands	r2, r6
	eors	r2, r3
	ands	r1, r7
	eors	r1, r5
	mov	r3, r1
	orrs	r3, r2
	beq	.LBB75_25
	b	.LBB75_42
.LBB75_25:
	ldr	r1, [sp, #84]
	ldr	r2, [sp, #16]
	eors	r1, r2
	ldr	r2, [sp, #80]
	ldr	r3, [sp, #44]
	eors	r2, r3
	orrs	r2, r1
	ldr	r4, [sp, #12]
	ldr	r6, [sp, #40]
	ldr	r5, [sp, #20]
	beq	.LBB75_31
	b	.LBB75_46
.LBB75_26:
	str	r3, [sp, #8]
	ldr	r5, [sp, #20]
	uxtb	r2, r5
	cmp	r2, #0
	ldr	r1, [sp, #32]
	bne	.LBB75_28
	mov	r1, r2
.LBB75_28:
	mov	r3, r4
	bne	.LBB75_30
	mov	r3, r2
.LBB75_30:
	ldr	r2, [sp, #80]
	eors	r3, r2
	ldr	r2, [sp, #84]
	eors	r1, r2
	orrs	r1, r3
	beq	.LBB75_31
	b	.LBB75_46
.LBB75_31:
	ldr	r3, [sp, #76]
	ldr	r2, [sp, #64]
	ands	r2, r3
	ldr	r1, [sp, #68]
	ands	r1, r7
	ldr	r0, [sp, #60]
	cmp	r0, #0
	beq	.LBB75_40
	str	r5, [sp, #20]
	str	r2, [sp, #64]
	str	r1, [sp, #68]
	ldr	r5, [sp, #28]
	lsrs	r1, r5, #3
	lsls	r2, r6, #29
	adds	r1, r1, r2
	lsrs	r2, r6, #3
	ldr	r0, [sp, #88]
	subs	r1, r0, r1
	ldr	r1, [sp, #92]
	sbcs	r1, r2
	bhs	.LBB75_33
	b	.LBB75_46
.LBB75_33:
	ldr	r1, [sp, #72]
	adds	r0, r1, r5
	subs	r0, #8
	ldr	r1, [r0]
	lsls	r2, r1, #31
	bne	.LBB75_34
	b	.LBB75_46
.LBB75_34:
	str	r4, [sp, #12]
	str	r0, [sp, #60]
	ldr	r2, [r0, #4]
	ands	r1, r7
	ands	r2, r3
	mov	r3, r1
	orrs	r3, r2
	beq	.LBB75_44
	lsrs	r3, r1, #3
	lsls	r4, r2, #29
	adds	r3, r3, r4
	lsrs	r2, r2, #3
	ldr	r0, [sp, #88]
	subs	r3, r0, r3
	ldr	r3, [sp, #92]
	sbcs	r3, r2
	ldr	r5, [sp, #20]
	blo	.LBB75_46
	movs	r4, #0
	ldr	r2, [sp, #68]
	ldr	r3, [sp, #64]
	orrs	r2, r3
	bne	.LBB75_37
	b	.LBB75_2
.LBB75_37:
	ldr	r2, [sp, #72]
	adds	r1, r2, r1
	subs	r1, #8
	ldr	r1, [r1]
	movs	r2, #1
	ands	r2, r1
	ldr	r6, [sp, #68]
	ldr	r3, [sp, #64]
	bne	.LBB75_45
	b	.LBB75_2
.LBB75_38:
	lsrs	r0, r1, #3
	lsls	r3, r2, #29
	adds	r3, r0, r3
	lsrs	r2, r2, #3
	ldr	r0, [sp, #88]
	subs	r3, r0, r3
	ldr	r3, [sp, #92]
	sbcs	r3, r2
	ldr	r6, [sp, #40]
	blo	.LBB75_46
	mov	r4, r7
	ldr	r2, [sp, #72]
	adds	r1, r2, r1
	subs	r1, #8
	ldrb	r1, [r1]
	lsls	r1, r1, #31
	ldr	r3, [sp, #8]
	mov	r7, r5
	beq	.LBB75_46
	b	.LBB75_17
.LBB75_40:
	orrs	r1, r2
	ldr	r4, [sp, #48]
	ldr	r3, [sp, #8]
	beq	.LBB75_41
	b	.LBB75_2
.LBB75_41:
	movs	r1, #0
	ldr	r0, [sp, #56]
	strb	r1, [r0, #15]
	strb	r1, [r0, #14]
	strb	r1, [r0, #13]
	ldr	r4, [sp, #84]
	strb	r4, [r0, #8]
	strb	r1, [r0, #7]
	strb	r1, [r0, #6]
	strb	r1, [r0, #5]
	strb	r3, [r0]
	ldr	r2, [sp, #80]
	strb	r2, [r0, #12]
	lsrs	r2, r4, #24
	strb	r2, [r0, #11]
	lsrs	r2, r4, #16
	strb	r2, [r0, #10]
	lsrs	r2, r4, #8
	strb	r2, [r0, #9]
	ldr	r2, [sp, #36]
	strb	r2, [r0, #4]
	lsrs	r2, r3, #24
	strb	r2, [r0, #3]
	lsrs	r2, r3, #16
	strb	r2, [r0, #2]
	lsrs	r2, r3, #8
	strb	r2, [r0, #1]
	str	r1, [sp]
	movs	r2, #16
	ldr	r0, [sp, #52]
	mov	r3, r1
	bl	ic.clear
	movs	r4, #1
	mov	r0, r4
	add	sp, #100
	pop	{r4, r5, r6, r7, pc}
.LBB75_42:
	lsrs	r0, r1, #3
	lsls	r3, r2, #29
	adds	r3, r0, r3
	lsrs	r2, r2, #3
	ldr	r0, [sp, #88]
	subs	r3, r0, r3
	ldr	r3, [sp, #92]
	sbcs	r3, r2
	ldr	r6, [sp, #40]
	blo	.LBB75_46
	ldr	r2, [sp, #72]
	adds	r1, r2, r1
	subs	r1, #8
	ldrb	r1, [r1]
	lsls	r1, r1, #31
	ldr	r4, [sp, #12]
	ldr	r5, [sp, #20]
	beq	.LBB75_46
	b	.LBB75_31
.LBB75_44:
	mov	r4, r6
	ldr	r6, [sp, #68]
	mov	r1, r6
	ldr	r2, [sp, #28]
	eors	r1, r2
	ldr	r3, [sp, #64]
	mov	r2, r3
	eors	r2, r4
	orrs	r2, r1
	ldr	r5, [sp, #20]
	bne	.LBB75_46
.LBB75_45:
	lsrs	r1, r6, #3
	lsls	r2, r3, #29
	adds	r1, r1, r2
	lsrs	r2, r3, #3
	ldr	r0, [sp, #88]
	subs	r1, r0, r1
	ldr	r1, [sp, #92]
	sbcs	r1, r2
	ldr	r3, [sp, #76]
	bhs	.LBB75_47
.LBB75_46:
	ldr	r4, [sp, #48]
	mov	r0, r4
	add	sp, #100
	pop	{r4, r5, r6, r7, pc}
.LBB75_47:
	ldr	r1, [sp, #72]
	adds	r6, r1, r6
	subs	r6, #8
	ldr	r1, [r6]
	lsls	r2, r1, #31
	ldr	r4, [sp, #48]
	bne	.LBB75_48
	b	.LBB75_2
.LBB75_48:
	ldr	r2, [r6, #4]
	ands	r1, r7
	ands	r2, r3
	mov	r3, r1
	orrs	r3, r2
	beq	.LBB75_51
	lsrs	r3, r1, #3
	lsls	r4, r2, #29
	adds	r3, r3, r4
	lsrs	r2, r2, #3
	ldr	r0, [sp, #88]
	subs	r3, r0, r3
	ldr	r3, [sp, #92]
	sbcs	r3, r2
	blo	.LBB75_46
	ldr	r2, [sp, #72]
	adds	r1, r2, r1
	subs	r1, #8
	ldrb	r1, [r1]
	lsls	r1, r1, #31
	ldr	r4, [sp, #48]
	bne	.LBB75_52
	b	.LBB75_2
.LBB75_51:
	ldr	r1, [sp, #28]
	ldr	r2, [sp, #68]
	eors	r1, r2
	ldr	r2, [sp, #40]
	ldr	r3, [sp, #64]
	eors	r2, r3
	orrs	r2, r1
	beq	.LBB75_52
	b	.LBB75_2
.LBB75_52:
	lsls	r1, r5, #24
	str	r6, [sp, #20]
	beq	.LBB75_58
	ldr	r1, [sp, #24]
	uxtb	r2, r1
	cmp	r2, #0
	ldr	r1, [sp, #16]
	ldr	r3, [sp, #44]
	bne	.LBB75_55
	mov	r1, r2
.LBB75_55:
	str	r3, [sp, #92]
	ldr	r0, [sp, #32]
	bne	.LBB75_57
	str	r2, [sp, #92]
.LBB75_57:
	ldr	r2, [sp, #72]
	adds	r2, r2, r0
	subs	r2, #8
	ldm	r2!, {r3, r4}
	ldr	r6, [sp, #76]
	ands	r4, r6
	ldr	r0, [sp, #92]
	eors	r4, r0
	ldr	r6, [sp, #40]
	eors	r4, r6
	ands	r3, r7
	eors	r1, r3
	ldr	r3, [sp, #28]
	eors	r1, r3
	movs	r3, #0
	subs	r2, #8
	adds	r1, r1, #1
	str	r1, [r2]
	adcs	r3, r4
	str	r3, [r2, #4]
	b	.LBB75_59
.LBB75_58:
	ldr	r1, [sp, #28]
	str	r1, [sp, #8]
	ldr	r1, [sp, #40]
	str	r1, [sp, #36]
.LBB75_59:
	ldr	r0, [sp, #16]
	ldr	r1, [sp, #24]
	lsls	r1, r1, #24
	ldr	r4, [sp, #12]
	beq	.LBB75_65
	uxtb	r1, r5
	cmp	r1, #0
	bne	.LBB75_62
	str	r1, [sp, #32]
.LBB75_62:
	ldr	r5, [sp, #60]
	bne	.LBB75_64
	mov	r4, r1
.LBB75_64:
	ldr	r1, [sp, #72]
	adds	r1, r1, r0
	subs	r1, #8
	str	r0, [sp, #16]
	ldr	r3, [r1]
	ldr	r2, [r1, #4]
	ldr	r0, [sp, #76]
	ands	r2, r0
	eors	r2, r4
	ldr	r6, [sp, #64]
	eors	r2, r6
	ands	r3, r7
	ldr	r0, [sp, #32]
	eors	r3, r0
	ldr	r6, [sp, #68]
	eors	r3, r6
	mov	r6, r4
	movs	r4, #0
	adds	r3, r3, #1
	str	r3, [r1]
	adcs	r4, r2
	str	r4, [r1, #4]
	b	.LBB75_70
.LBB75_65:
	ldr	r2, [sp, #32]
	uxtb	r1, r5
	cmp	r1, #0
	bne	.LBB75_67
	str	r1, [sp, #12]
.LBB75_67:
	bne	.LBB75_69
	mov	r2, r1
.LBB75_69:
	movs	r0, #0
	ldr	r1, [sp, #68]
	str	r1, [sp, #84]
	ldr	r1, [sp, #64]
	str	r1, [sp, #80]
	str	r0, [sp, #16]
	str	r0, [sp, #44]
	mov	r0, r2
	ldr	r6, [sp, #12]
	ldr	r5, [sp, #60]
.LBB75_70:
	ldm	r5!, {r1, r2}
	ldr	r4, [sp, #76]
	ands	r2, r4
	eors	r2, r6
	ands	r1, r7
	eors	r1, r0
	movs	r3, #0
	subs	r5, #8
	adds	r1, r1, #1
	str	r1, [r5]
	adcs	r3, r2
	str	r3, [r5, #4]
	ldr	r0, [sp, #20]
	ldr	r1, [r0]
	ands	r1, r7
	ldr	r2, [sp, #16]
	eors	r1, r2
	movs	r2, #1
	orrs	r2, r1
	str	r2, [r0]
	ldr	r1, [r0, #4]
	ands	r1, r4
	ldr	r2, [sp, #44]
	eors	r1, r2
	str	r1, [r0, #4]
	ldr	r3, [sp, #8]
	b	.LBB75_41
.Lfunc_end75:
	.size	ic_raw.xor_calls.splice, .Lfunc_end75-ic_raw.xor_calls.splice
	.cfi_endproc
	.section	.text.unlikely.ic_raw.xor_calls.refusal_with_both,"ax",%progbits
	.p2align	1
	.type	ic_raw.xor_calls.refusal_with_both,%function
	.code	16
	.thumb_func
ic_raw.xor_calls.refusal_with_both:
	.cfi_startproc
	push	{r4, r5, r6, lr}
	.cfi_def_cfa_offset 16
	.cfi_offset lr, -4
	.cfi_offset r6, -8
	.cfi_offset r5, -12
	.cfi_offset r4, -16
	adds	r1, r1, #1
	bhs	.LBB76_5
	ldr	r4, [r0, #8]
	ldr	r5, [r0, #12]
	movs	r6, #0
	subs	r4, r4, r1
	sbcs	r5, r6
	bhs	.LBB76_3
	movs	r0, #1
	pop	{r4, r5, r6, pc}
.LBB76_3:
	lsls	r1, r1, #3
	ldr	r4, [r0]
	adds	r1, r4, r1
	subs	r1, #8
	ldrb	r1, [r1]
	lsls	r1, r1, #31
	bne	.LBB76_5
	movs	r0, #3
	pop	{r4, r5, r6, pc}
.LBB76_5:
	mov	r1, r2
	mov	r2, r3
	bl	ic_raw.table.RawTable.refusal.feecb86c9dd45d96
	pop	{r4, r5, r6, pc}
.Lfunc_end76:
	.size	ic_raw.xor_calls.refusal_with_both, .Lfunc_end76-ic_raw.xor_calls.refusal_with_both
	.cfi_endproc
	.section	.text.unlikely.ic_raw.xor_calls.pop_front_slow,"ax",%progbits
	.p2align	1
	.type	ic_raw.xor_calls.pop_front_slow,%function
	.code	16
	.thumb_func
ic_raw.xor_calls.pop_front_slow:
	.cfi_startproc
	push	{r4, r5, r6, r7, lr}
	.cfi_def_cfa_offset 20
	.cfi_offset lr, -4
	.cfi_offset r7, -8
	.cfi_offset r6, -12
	.cfi_offset r5, -16
	.cfi_offset r4, -20
	sub	sp, #68
	.cfi_def_cfa_offset 88
	mov	r4, r3
	str	r0, [sp, #64]
	ldr	r0, [sp, #88]
	ldr	r3, [r0]
	str	r0, [sp, #56]
	ldr	r6, [r0, #4]
	movs	r0, #15
	mov	r7, r6
	str	r0, [sp, #52]
	ands	r7, r0
	movs	r0, #7
	mov	r1, r3
	bics	r1, r0
	mov	r5, r1
	orrs	r5, r7
	beq	.LBB77_3
	str	r6, [sp, #40]
	str	r3, [sp, #44]
	lsrs	r5, r1, #3
	lsls	r6, r7, #29
	adds	r3, r5, r6
	lsrs	r5, r7, #3
	movs	r6, #5
	str	r6, [sp, #60]
	str	r3, [sp, #48]
	subs	r6, r2, r3
	mov	r6, r4
	sbcs	r6, r5
	bhs	.LBB77_4
	ldr	r0, [sp, #60]
	add	sp, #68
	pop	{r4, r5, r6, r7, pc}
.LBB77_3:
	movs	r0, #4
	add	sp, #68
	pop	{r4, r5, r6, r7, pc}
.LBB77_4:
	str	r2, [sp, #32]
	str	r4, [sp, #36]
	ldr	r3, [sp, #64]
	adds	r2, r3, r1
	subs	r2, #8
	ldr	r3, [r2]
	lsls	r5, r3, #31
	bne	.LBB77_6
	ldr	r0, [sp, #60]
	add	sp, #68
	pop	{r4, r5, r6, r7, pc}
.LBB77_6:
	mvns	r0, r0
	ldr	r4, [sp, #56]
	ldr	r5, [r4, #8]
	ldr	r6, [r4, #12]
	ldr	r4, [sp, #52]
	ands	r6, r4
	ands	r5, r0
	str	r5, [sp, #28]
	str	r2, [sp, #24]
	ldr	r5, [r2, #4]
	str	r0, [sp, #20]
	ands	r3, r0
	ands	r5, r4
	mov	r0, r3
	orrs	r0, r5
	beq	.LBB77_9
	str	r6, [sp, #12]
	lsrs	r2, r3, #3
	mov	r0, r5
	lsls	r5, r5, #29
	adds	r5, r2, r5
	str	r0, [sp, #16]
	lsrs	r2, r0, #3
	ldr	r0, [sp, #32]
	subs	r0, r0, r5
	ldr	r0, [sp, #36]
	sbcs	r0, r2
	bhs	.LBB77_11
	ldr	r0, [sp, #60]
	add	sp, #68
	pop	{r4, r5, r6, r7, pc}
.LBB77_9:
	ldr	r0, [sp, #28]
	eors	r0, r1
	eors	r6, r7
	orrs	r6, r0
	movs	r7, #0
	cmp	r6, #0
	str	r7, [sp, #28]
	ldr	r0, [sp, #60]
	beq	.LBB77_19
.LBB77_10:
	add	sp, #68
	pop	{r4, r5, r6, r7, pc}
.LBB77_11:
	ldr	r0, [sp, #64]
	adds	r2, r0, r3
	subs	r2, #8
	ldr	r6, [r2]
	lsls	r0, r6, #31
	bne	.LBB77_13
	ldr	r0, [sp, #60]
	add	sp, #68
	pop	{r4, r5, r6, r7, pc}
.LBB77_13:
	ldr	r5, [r2, #4]
	mov	r0, r6
	ldr	r4, [sp, #20]
	ands	r0, r4
	eors	r0, r1
	str	r5, [sp, #8]
	ldr	r1, [sp, #52]
	ands	r5, r1
	eors	r5, r7
	mov	r1, r0
	orrs	r1, r5
	bne	.LBB77_15
	ldr	r0, [sp, #28]
	eors	r0, r3
	ldr	r7, [sp, #12]
	mov	r1, r7
	ldr	r5, [sp, #16]
	eors	r1, r5
	orrs	r1, r0
	ldr	r0, [sp, #60]
	bne	.LBB77_10
	b	.LBB77_18
.LBB77_15:
	str	r6, [sp]
	str	r2, [sp, #4]
	lsrs	r1, r0, #3
	lsls	r6, r5, #29
	adds	r1, r1, r6
	lsrs	r5, r5, #3
	ldr	r2, [sp, #32]
	subs	r1, r2, r1
	ldr	r1, [sp, #36]
	sbcs	r1, r5
	bhs	.LBB77_17
	ldr	r0, [sp, #60]
	add	sp, #68
	pop	{r4, r5, r6, r7, pc}
.LBB77_17:
	ldr	r1, [sp, #64]
	adds	r0, r1, r0
	subs	r0, #8
	ldrb	r0, [r0]
	lsls	r0, r0, #31
	ldr	r0, [sp, #60]
	ldr	r5, [sp, #16]
	ldr	r7, [sp, #12]
	ldr	r2, [sp, #4]
	ldr	r6, [sp]
	beq	.LBB77_10
.LBB77_18:
	ldr	r0, [sp, #40]
	ldr	r1, [sp, #8]
	eors	r1, r0
	ldr	r0, [sp, #52]
	ands	r1, r0
	ldr	r0, [sp, #44]
	eors	r6, r0
	ands	r6, r4
	movs	r0, #1
	orrs	r0, r6
	stm	r2!, {r0, r1}
.LBB77_19:
	ldr	r4, [sp, #92]
	movs	r0, #0
	ldr	r1, [sp, #24]
	str	r0, [r1]
	str	r0, [r1, #4]
	ldr	r2, [sp, #56]
	strb	r0, [r2, #15]
	strb	r0, [r2, #14]
	strb	r0, [r2, #13]
	strb	r7, [r2, #12]
	ldr	r6, [sp, #28]
	lsrs	r1, r6, #24
	strb	r1, [r2, #11]
	lsrs	r1, r6, #16
	strb	r1, [r2, #10]
	lsrs	r1, r6, #8
	strb	r1, [r2, #9]
	strb	r6, [r2, #8]
	strb	r0, [r2, #7]
	strb	r0, [r2, #6]
	strb	r0, [r2, #5]
	strb	r5, [r2, #4]
	lsrs	r1, r3, #24
	strb	r1, [r2, #3]
	lsrs	r1, r3, #16
	strb	r1, [r2, #2]
	lsrs	r1, r3, #8
	strb	r1, [r2, #1]
	strb	r3, [r2]
	ldr	r1, [sp, #48]
	subs	r1, r1, #1
	str	r1, [r4]
	add	sp, #68
	pop	{r4, r5, r6, r7, pc}
.Lfunc_end77:
	.size	ic_raw.xor_calls.pop_front_slow, .Lfunc_end77-ic_raw.xor_calls.pop_front_slow
	.cfi_endproc
	.section	.text.unlikely.ic_raw.xor_calls.put_slow,"ax",%progbits
	.p2align	1
	.type	ic_raw.xor_calls.put_slow,%function
	.code	16
	.thumb_func
ic_raw.xor_calls.put_slow:
	.cfi_startproc
	push	{r4, r5, r6, r7, lr}
	.cfi_def_cfa_offset 20
	.cfi_offset lr, -4
	.cfi_offset r7, -8
	.cfi_offset r6, -12
	.cfi_offset r5, -16
	.cfi_offset r4, -20
	sub	sp, #84
	.cfi_def_cfa_offset 104
	str	r3, [sp, #32]
	str	r2, [sp, #40]
	str	r0, [sp, #44]
	movs	r4, #15
	ldr	r1, [sp, #116]
	str	r1, [sp, #12]
	ands	r1, r4
	movs	r0, #7
	mvns	r7, r0
	ldr	r3, [sp, #112]
	str	r3, [sp, #16]
	ands	r3, r7
	mov	r0, r3
	str	r1, [sp, #52]
	orrs	r0, r1
	rsbs	r1, r0, #0
	adcs	r1, r0
	str	r1, [sp, #20]
	ldr	r2, [sp, #124]
	str	r2, [sp, #8]
	ands	r2, r4
	ldr	r5, [sp, #104]
	ldr	r1, [r5]
	str	r1, [sp, #60]
	ldr	r6, [r5, #4]
	ldr	r1, [r5, #8]
	str	r1, [sp, #56]
	str	r5, [sp, #24]
	ldr	r1, [r5, #12]
	str	r1, [sp, #76]
	ldr	r1, [sp, #60]
	str	r4, [sp, #64]
	ands	r6, r4
	ands	r1, r7
	ldr	r4, [sp, #120]
	str	r4, [sp, #4]
	str	r7, [sp, #68]
	ands	r4, r7
	str	r4, [sp, #80]
	ldr	r5, [sp, #108]
	str	r5, [sp, #36]
	cmp	r0, #0
	str	r2, [sp, #48]
	str	r3, [sp, #72]
	str	r1, [sp, #60]
	str	r6, [sp, #28]
	beq	.LBB78_5
	lsrs	r0, r3, #3
	ldr	r3, [sp, #52]
	lsls	r1, r3, #29
	adds	r0, r0, r1
	lsrs	r1, r3, #3
	ldr	r2, [sp, #40]
	subs	r0, r2, r0
	ldr	r7, [sp, #32]
	mov	r0, r7
	sbcs	r0, r1
	ldr	r6, [sp, #44]
	bhs	.LBB78_2
	b	.LBB78_26
.LBB78_2:
	ldr	r0, [sp, #72]
	adds	r1, r6, r0
	subs	r1, #8
	ldr	r0, [r1]
	lsls	r3, r0, #31
	bne	.LBB78_3
	b	.LBB78_26
.LBB78_3:
	ldr	r1, [r1, #4]
	ldr	r3, [sp, #68]
	ands	r0, r3
	ldr	r3, [sp, #80]
	eors	r0, r3
	ldr	r3, [sp, #64]
	ands	r1, r3
	ldr	r3, [sp, #48]
	eors	r1, r3
	mov	r3, r0
	orrs	r3, r1
	bne	.LBB78_6
	ldr	r0, [sp, #60]
	ldr	r1, [sp, #72]
	eors	r0, r1
	ldr	r1, [sp, #28]
	ldr	r3, [sp, #52]
	eors	r1, r3
	orrs	r1, r0
	beq	.LBB78_8
	b	.LBB78_26
.LBB78_5:
	mov	r0, r1
	ldr	r1, [sp, #80]
	eors	r0, r1
	eors	r6, r2
	orrs	r6, r0
	ldr	r6, [sp, #44]
	ldr	r7, [sp, #32]
	ldr	r2, [sp, #40]
	beq	.LBB78_8
	b	.LBB78_26
.LBB78_6:
	lsrs	r3, r0, #3
	lsls	r5, r1, #29
	adds	r3, r3, r5
	lsrs	r1, r1, #3
	subs	r3, r2, r3
	mov	r3, r7
	sbcs	r3, r1
	bhs	.LBB78_7
	b	.LBB78_26
.LBB78_7:
	adds	r0, r6, r0
	subs	r0, #8
	ldrb	r0, [r0]
	lsls	r0, r0, #31
	bne	.LBB78_8
	b	.LBB78_26
.LBB78_8:
	ldr	r0, [sp, #76]
	ldr	r1, [sp, #64]
	ands	r0, r1
	str	r0, [sp, #76]
	ldr	r0, [sp, #56]
	ldr	r1, [sp, #68]
	ands	r0, r1
	str	r0, [sp, #56]
	ldr	r0, [sp, #36]
	adds	r5, r0, #1
	ldr	r0, [sp, #80]
	ldr	r3, [sp, #48]
	orrs	r0, r3
	str	r0, [sp, #32]
	beq	.LBB78_14
	ldr	r0, [sp, #80]
	lsrs	r0, r0, #3
	lsls	r1, r3, #29
	adds	r0, r0, r1
	lsrs	r1, r3, #3
	subs	r0, r2, r0
	mov	r0, r7
	sbcs	r0, r1
	blo	.LBB78_26
	ldr	r0, [sp, #80]
	adds	r1, r6, r0
	subs	r1, #8
	ldr	r0, [r1]
	lsls	r3, r0, #31
	beq	.LBB78_26
	ldr	r1, [r1, #4]
	ldr	r3, [sp, #68]
	ands	r0, r3
	ldr	r3, [sp, #72]
	eors	r0, r3
	ldr	r3, [sp, #64]
	ands	r1, r3
	ldr	r3, [sp, #52]
	eors	r1, r3
	mov	r3, r0
	orrs	r3, r1
	bne	.LBB78_17
	cmp	r5, #0
	beq	.LBB78_26
	ldr	r0, [sp, #56]
	ldr	r1, [sp, #80]
	eors	r0, r1
	ldr	r1, [sp, #76]
	ldr	r3, [sp, #48]
	b	.LBB78_16
.LBB78_14:
	cmp	r5, #0
	beq	.LBB78_26
	ldr	r0, [sp, #56]
	ldr	r1, [sp, #72]
	eors	r0, r1
	ldr	r1, [sp, #76]
	ldr	r3, [sp, #52]
.LBB78_16:
	eors	r1, r3
	orrs	r1, r0
	beq	.LBB78_20
	b	.LBB78_26
.LBB78_17:
	lsrs	r3, r0, #3
	lsls	r6, r1, #29
	adds	r3, r3, r6
	ldr	r2, [sp, #40]
	lsrs	r1, r1, #3
	subs	r3, r2, r3
	ldr	r6, [sp, #44]
	mov	r3, r7
	sbcs	r3, r1
	blo	.LBB78_26
	cmp	r5, #0
	beq	.LBB78_26
	adds	r0, r6, r0
	subs	r0, #8
	ldr	r0, [r0]
	movs	r1, #1
	ands	r1, r0
	beq	.LBB78_26
.LBB78_20:
	movs	r1, #0
	subs	r0, r2, r5
	mov	r0, r7
	sbcs	r0, r1
	blo	.LBB78_26
	lsls	r4, r5, #3
	adds	r3, r6, r4
	subs	r3, #8
	ldrb	r0, [r3]
	lsls	r0, r0, #31
	bne	.LBB78_26
	lsrs	r5, r5, #29
	movs	r7, #1
	str	r7, [r3]
	str	r1, [r3, #4]
	ldr	r0, [sp, #20]
	cmp	r0, #0
	mov	r0, r4
	mov	r2, r5
	str	r5, [sp, #40]
	bne	.LBB78_24
	ldr	r0, [sp, #72]
	adds	r0, r6, r0
	subs	r0, #8
	ldr	r5, [r0, #4]
	ldr	r2, [sp, #8]
	eors	r5, r2
	ldr	r2, [sp, #64]
	ands	r5, r2
	ldr	r2, [sp, #40]
	eors	r5, r2
	str	r5, [r0, #4]
	ldr	r5, [r0]
	ldr	r2, [sp, #4]
	eors	r5, r2
	ldr	r6, [sp, #68]
	ands	r5, r6
	ldr	r6, [sp, #44]
	eors	r5, r4
	orrs	r5, r7
	str	r5, [r0]
	ldr	r0, [sp, #60]
	ldr	r2, [sp, #28]
.LBB78_24:
	str	r2, [sp, #36]
	str	r4, [sp, #44]
	str	r7, [sp, #60]
	ldr	r2, [sp, #32]
	cmp	r2, #0
	beq	.LBB78_27
	ldr	r2, [sp, #80]
	adds	r5, r6, r2
	subs	r5, #8
	ldr	r6, [r5, #4]
	ldr	r7, [sp, #12]
	eors	r6, r7
	ldr	r4, [sp, #64]
	ands	r6, r4
	ldr	r2, [sp, #40]
	eors	r6, r2
	str	r6, [r5, #4]
	ldr	r6, [r5]
	ldr	r7, [sp, #16]
	eors	r6, r7
	ldr	r7, [sp, #68]
	ands	r6, r7
	ldr	r2, [sp, #44]
	eors	r6, r2
	ldr	r2, [sp, #60]
	orrs	r6, r2
	str	r6, [r5]
	ldr	r7, [sp, #56]
	b	.LBB78_28
.LBB78_26:
	ldr	r0, [sp, #36]
	str	r0, [sp]
	mov	r0, r6
	mov	r3, r7
	bl	ic_raw.table.refusal_at_end.feecb86c9dd45d96
	mov	r1, r0
	mov	r0, r1
	add	sp, #84
	pop	{r4, r5, r6, r7, pc}
.LBB78_27:
	ldr	r7, [sp, #44]
	ldr	r2, [sp, #40]
	str	r2, [sp, #76]
	ldr	r2, [sp, #60]
.LBB78_28:
	ldr	r6, [sp, #48]
	ldr	r5, [sp, #52]
	eors	r6, r5
	ldr	r5, [sp, #72]
	ldr	r4, [sp, #80]
	eors	r4, r5
	orrs	r4, r2
	stm	r3!, {r4, r6}
	ldr	r3, [sp, #24]
	strb	r1, [r3, #15]
	strb	r1, [r3, #14]
	strb	r1, [r3, #13]
	ldr	r2, [sp, #76]
	strb	r2, [r3, #12]
	lsrs	r2, r7, #24
	strb	r2, [r3, #11]
	lsrs	r2, r7, #16
	strb	r2, [r3, #10]
	lsrs	r2, r7, #8
	strb	r2, [r3, #9]
	strb	r7, [r3, #8]
	strb	r1, [r3, #7]
	strb	r1, [r3, #6]
	strb	r1, [r3, #5]
	ldr	r2, [sp, #36]
	strb	r2, [r3, #4]
	lsrs	r2, r0, #24
	strb	r2, [r3, #3]
	lsrs	r2, r0, #16
	strb	r2, [r3, #2]
	lsrs	r2, r0, #8
	strb	r2, [r3, #1]
	strb	r0, [r3]
	mov	r0, r1
	add	sp, #84
	pop	{r4, r5, r6, r7, pc}
.Lfunc_end78:
	.size	ic_raw.xor_calls.put_slow, .Lfunc_end78-ic_raw.xor_calls.put_slow
	.cfi_endproc
	.section	.text.unlikely.ic_raw.table.RawTable.refusal_at_both.feecb86c9dd45d96,"ax",%progbits
	.p2align	1
	.type	ic_raw.table.RawTable.refusal_at_both.feecb86c9dd45d96,%function
	.code	16
	.thumb_func
ic_raw.table.RawTable.refusal_at_both.feecb86c9dd45d96:
	.cfi_startproc
	push	{r4, r5, r7, lr}
	.cfi_def_cfa_offset 16
	.cfi_offset lr, -4
	.cfi_offset r7, -8
	.cfi_offset r5, -12
	.cfi_offset r4, -16
	ldr	r1, [sp, #16]
	adds	r1, r1, #1
	blo	.LBB79_3
.LBB79_1:
	ldr	r1, [sp, #20]
	adds	r1, r1, #1
	blo	.LBB79_5
	movs	r0, #5
	pop	{r4, r5, r7, pc}
.LBB79_3:
	movs	r4, #0
	subs	r5, r2, r1
	mov	r5, r3
	sbcs	r5, r4
	bhs	.LBB79_7
	movs	r0, #1
	pop	{r4, r5, r7, pc}
.LBB79_5:
	movs	r4, #0
	subs	r2, r2, r1
	sbcs	r3, r4
	bhs	.LBB79_8
	movs	r0, #1
	pop	{r4, r5, r7, pc}
.LBB79_7:
	lsls	r1, r1, #3
	adds	r1, r0, r1
	subs	r1, #8
	ldrb	r1, [r1]
	lsls	r1, r1, #31
	bne	.LBB79_1
	b	.LBB79_10
.LBB79_8:
	lsls	r1, r1, #3
	adds	r0, r0, r1
	subs	r0, #8
	ldrb	r0, [r0]
	lsls	r0, r0, #31
	beq	.LBB79_10
	movs	r0, #5
	pop	{r4, r5, r7, pc}
.LBB79_10:
	movs	r0, #3
	pop	{r4, r5, r7, pc}
.Lfunc_end79:
	.size	ic_raw.table.RawTable.refusal_at_both.feecb86c9dd45d96, .Lfunc_end79-ic_raw.table.RawTable.refusal_at_both.feecb86c9dd45d96
	.cfi_endproc
	.section	.text.ic_hash_check,"ax",%progbits
	.globl	ic_hash_check
	.p2align	1
	.type	ic_hash_check,%function
	.code	16
	.thumb_func
ic_hash_check:
	.cfi_startproc
	push	{r4, r5, r6, r7, lr}
	.cfi_def_cfa_offset 20
	.cfi_offset lr, -4
	.cfi_offset r7, -8
	.cfi_offset r6, -12
	.cfi_offset r5, -16
	.cfi_offset r4, -20
	sub	sp, #68
	.cfi_def_cfa_offset 88
	str	r3, [sp, #64]
	mov	r3, r2
	str	r0, [sp, #56]
	movs	r2, #1
	lsls	r0, r2, #12
	ldr	r1, [sp, #104]
	cmp	r1, #0
	str	r2, [sp, #52]
	bne	.LBB80_1
	b	.LBB80_18
.LBB80_1:
	ldr	r2, [sp, #88]
	cmp	r2, #0
	bne	.LBB80_2
	b	.LBB80_19
.LBB80_2:
	ldr	r4, [sp, #56]
	cmp	r4, #0
	str	r1, [sp, #20]
	bne	.LBB80_4
.LBB80_3:
	ldr	r1, [sp, #56]
	adds	r1, r1, r0
	str	r1, [sp, #56]
.LBB80_4:
	ldr	r0, [sp, #100]
	ldr	r1, [sp, #96]
	subs	r1, r1, r3
	ldr	r1, [sp, #64]
	sbcs	r0, r1
	blo	.LBB80_17
	str	r2, [sp, #32]
	ldr	r1, [sp, #116]
	ldr	r0, [sp, #112]
	str	r0, [sp, #36]
	str	r1, [sp, #40]
	orrs	r0, r1
	beq	.LBB80_17
	ldr	r0, [sp, #120]
	str	r0, [sp, #4]
	movs	r0, #7
	mvns	r2, r0
	movs	r0, #0
	movs	r5, #15
	mov	r4, r0
	str	r0, [sp, #48]
	mov	r7, r0
	str	r0, [sp, #8]
	str	r0, [sp, #16]
	str	r2, [sp, #28]
	str	r5, [sp, #24]
.LBB80_7:
	str	r7, [sp, #12]
	str	r4, [sp, #44]
	lsls	r0, r4, #3
	ldr	r1, [sp, #20]
	ldr	r4, [r1, r0]
	ands	r4, r2
	adds	r0, r1, r0
	ldr	r7, [r0, #4]
	ands	r7, r5
	mov	r0, r4
	orrs	r0, r7
	beq	.LBB80_14
	movs	r6, #0
	mov	r5, r6
.LBB80_9:
	movs	r0, #5
	str	r0, [sp, #52]
	str	r6, [sp, #60]
	subs	r0, r6, r3
	mov	r0, r5
	ldr	r6, [sp, #64]
	sbcs	r0, r6
	bhs	.LBB80_17
	lsrs	r0, r4, #3
	lsls	r1, r7, #29
	adds	r0, r0, r1
	lsrs	r1, r7, #3
	subs	r2, r3, r0
	ldr	r2, [sp, #64]
	sbcs	r2, r1
	blo	.LBB80_17
	ldr	r1, [sp, #56]
	adds	r1, r1, r4
	subs	r1, #8
	ldr	r4, [r1]
	lsls	r2, r4, #31
	beq	.LBB80_17
	ldr	r7, [r1, #4]
	lsls	r0, r0, #3
	ldr	r1, [sp, #32]
	adds	r1, r1, r0
	subs	r1, #8
	ldm	r1, {r0, r1}
	ldr	r2, [sp, #36]
	mov	r6, r3
	ldr	r3, [sp, #40]
	bl	ic.remainder
	ldr	r2, [sp, #48]
	eors	r1, r2
	ldr	r2, [sp, #44]
	eors	r0, r2
	orrs	r0, r1
	bne	.LBB80_17
	mov	r3, r6
	movs	r0, #0
	ldr	r6, [sp, #60]
	adds	r6, r6, #1
	adcs	r5, r0
	ldr	r2, [sp, #28]
	ands	r4, r2
	ldr	r1, [sp, #24]
	ands	r7, r1
	mov	r0, r4
	orrs	r0, r7
	bne	.LBB80_9
	b	.LBB80_15
.LBB80_14:
	mov	r1, r5
	ldr	r5, [sp, #8]
	mov	r6, r5
.LBB80_15:
	ldr	r4, [sp, #44]
	adds	r4, r4, #1
	ldr	r0, [sp, #8]
	ldr	r7, [sp, #48]
	adcs	r7, r0
	str	r7, [sp, #48]
	ldr	r7, [sp, #12]
	adds	r7, r6, r7
	ldr	r0, [sp, #16]
	adcs	r0, r5
	str	r0, [sp, #16]
	ldr	r0, [sp, #36]
	subs	r0, r4, r0
	ldr	r0, [sp, #48]
	mov	r5, r1
	ldr	r1, [sp, #40]
	sbcs	r0, r1
	blo	.LBB80_7
	ldr	r0, [sp, #4]
	str	r7, [r0]
	ldr	r1, [sp, #16]
	str	r1, [r0, #4]
	movs	r0, #0
	str	r0, [sp, #52]
.LBB80_17:
	ldr	r0, [sp, #52]
	add	sp, #68
	pop	{r4, r5, r6, r7, pc}
.LBB80_18:
	adds	r1, r1, r0
	ldr	r2, [sp, #88]
	cmp	r2, #0
	beq	.LBB80_19
	b	.LBB80_2
.LBB80_19:
	adds	r2, r2, r0
	ldr	r4, [sp, #56]
	cmp	r4, #0
	str	r1, [sp, #20]
	bne	.LBB80_20
	b	.LBB80_3
.LBB80_20:
	b	.LBB80_4
.Lfunc_end80:
	.size	ic_hash_check, .Lfunc_end80-ic_hash_check
	.cfi_endproc
	.section	.text.ic_hash_find,"ax",%progbits
	.globl	ic_hash_find
	.p2align	1
	.type	ic_hash_find,%function
	.code	16
	.thumb_func
ic_hash_find:
	.cfi_startproc
	push	{r4, r5, r6, r7, lr}
	.cfi_def_cfa_offset 20
	.cfi_offset lr, -4
	.cfi_offset r7, -8
	.cfi_offset r6, -12
	.cfi_offset r5, -16
	.cfi_offset r4, -20
	sub	sp, #36
	.cfi_def_cfa_offset 56
	mov	r7, r0
	movs	r0, #1
	lsls	r5, r0, #12
	ldr	r6, [sp, #56]
	cmp	r6, #0
	bne	.LBB81_2
	adds	r6, r6, r5
.LBB81_2:
	cmp	r7, #0
	bne	.LBB81_4
	adds	r7, r7, r5
.LBB81_4:
	ldr	r1, [sp, #68]
	ldr	r4, [sp, #64]
	subs	r4, r4, r2
	sbcs	r1, r3
	blo	.LBB81_17
	str	r7, [sp, #24]
	str	r2, [sp, #28]
	str	r3, [sp, #32]
	ldr	r3, [sp, #84]
	ldr	r2, [sp, #80]
	mov	r1, r2
	orrs	r1, r3
	beq	.LBB81_17
	ldr	r1, [sp, #92]
	ldr	r0, [sp, #88]
	ldr	r4, [sp, #72]
	bl	ic.remainder
	lsls	r0, r0, #3
	cmp	r4, #0
	str	r6, [sp, #20]
	bne	.LBB81_8
	adds	r4, r4, r5
.LBB81_8:
	ldr	r5, [sp, #28]
	ldr	r1, [r4, r0]
	movs	r3, #7
	bics	r1, r3
	adds	r0, r4, r0
	ldr	r0, [r0, #4]
	movs	r2, #15
	str	r2, [sp, #16]
	ands	r0, r2
	mov	r4, r1
	orrs	r4, r0
	rsbs	r2, r4, #0
	adcs	r2, r4
	mov	r4, r5
	ldr	r7, [sp, #32]
	orrs	r4, r7
	beq	.LBB81_15
	ldr	r4, [sp, #100]
	str	r4, [sp, #12]
	ldr	r4, [sp, #96]
	str	r4, [sp, #8]
	ldr	r4, [sp, #104]
	str	r4, [sp]
	mvns	r3, r3
	str	r3, [sp, #4]
	mov	r3, r7
.LBB81_10:
	lsls	r2, r2, #31
	bne	.LBB81_18
	lsrs	r2, r1, #3
	lsls	r4, r0, #29
	adds	r2, r2, r4
	lsrs	r4, r0, #3
	movs	r0, #5
	ldr	r7, [sp, #28]
	subs	r7, r7, r2
	ldr	r7, [sp, #32]
	sbcs	r7, r4
	blo	.LBB81_17
	ldr	r4, [sp, #24]
	adds	r4, r4, r1
	subs	r4, #8
	ldr	r1, [r4]
	lsls	r7, r1, #31
	ldr	r7, [sp, #20]
	beq	.LBB81_17
	lsls	r0, r2, #3
	adds	r0, r7, r0
	subs	r0, #8
	ldr	r7, [r0]
	ldr	r0, [r0, #4]
	ldr	r6, [sp, #12]
	eors	r0, r6
	ldr	r6, [sp, #8]
	eors	r7, r6
	orrs	r7, r0
	beq	.LBB81_19
	ldr	r0, [r4, #4]
	ldr	r2, [sp, #4]
	ands	r1, r2
	ldr	r2, [sp, #16]
	ands	r0, r2
	mov	r4, r1
	orrs	r4, r0
	rsbs	r2, r4, #0
	adcs	r2, r4
	movs	r4, #0
	subs	r5, r5, #1
	sbcs	r3, r4
	mov	r4, r5
	orrs	r4, r3
	bne	.LBB81_10
.LBB81_15:
	cmp	r2, #0
	bne	.LBB81_18
	movs	r0, #5
.LBB81_17:
	add	sp, #36
	pop	{r4, r5, r6, r7, pc}
.LBB81_18:
	movs	r0, #4
	add	sp, #36
	pop	{r4, r5, r6, r7, pc}
.LBB81_19:
	subs	r0, r2, #1
	ldr	r1, [sp]
	str	r0, [r1]
	movs	r0, #0
	add	sp, #36
	pop	{r4, r5, r6, r7, pc}
.Lfunc_end81:
	.size	ic_hash_find, .Lfunc_end81-ic_hash_find
	.cfi_endproc
	.section	.text.ic_hash_insert,"ax",%progbits
	.globl	ic_hash_insert
	.p2align	1
	.type	ic_hash_insert,%function
	.code	16
	.thumb_func
ic_hash_insert:
	.cfi_startproc
	push	{r4, r5, r6, r7, lr}
	.cfi_def_cfa_offset 20
	.cfi_offset lr, -4
	.cfi_offset r7, -8
	.cfi_offset r6, -12
	.cfi_offset r5, -16
	.cfi_offset r4, -20
	sub	sp, #28
	.cfi_def_cfa_offset 48
	str	r3, [sp, #24]
	mov	r7, r2
	mov	r5, r0
	movs	r0, #1
	lsls	r4, r0, #12
	cmp	r5, #0
	bne	.LBB82_2
	adds	r5, r5, r4
.LBB82_2:
	ldr	r3, [sp, #60]
	ldr	r2, [sp, #56]
	mov	r1, r2
	orrs	r1, r3
	beq	.LBB82_13
	add	r6, sp, #64
	ldm	r6, {r0, r1, r6}
	str	r6, [sp, #20]
	ldr	r6, [sp, #48]
	bl	ic.remainder
	lsls	r3, r0, #3
	cmp	r6, #0
	bne	.LBB82_5
	adds	r6, r6, r4
.LBB82_5:
	ldr	r2, [r6, r3]
	movs	r0, #7
	bics	r2, r0
	str	r6, [sp, #16]
	str	r3, [sp, #12]
	adds	r0, r6, r3
	str	r0, [sp, #8]
	ldr	r0, [r0, #4]
	movs	r4, #15
	ands	r4, r0
	mov	r0, r2
	orrs	r0, r4
	ldr	r1, [sp, #20]
	adds	r6, r1, #1
	cmp	r0, #0
	beq	.LBB82_9
	lsrs	r0, r2, #3
	lsls	r1, r4, #29
	adds	r0, r0, r1
	lsrs	r1, r4, #3
	subs	r0, r7, r0
	ldr	r0, [sp, #24]
	sbcs	r0, r1
	blo	.LBB82_14
	cmp	r6, #0
	beq	.LBB82_14
	adds	r0, r5, r2
	subs	r0, #8
	ldr	r0, [r0]
	movs	r1, #1
	ands	r1, r0
	bne	.LBB82_10
	b	.LBB82_14
.LBB82_9:
	cmp	r6, #0
	beq	.LBB82_14
.LBB82_10:
	movs	r0, #0
	subs	r1, r7, r6
	ldr	r1, [sp, #24]
	sbcs	r1, r0
	blo	.LBB82_14
	lsls	r3, r6, #3
	adds	r1, r5, r3
	subs	r1, #8
	str	r5, [sp, #4]
	mov	r5, r7
	mov	r7, r6
	ldrb	r6, [r1]
	lsls	r6, r6, #31
	mov	r6, r7
	mov	r7, r5
	ldr	r5, [sp, #4]
	bne	.LBB82_14
	lsrs	r5, r6, #29
	movs	r6, #1
	orrs	r2, r6
	str	r2, [r1]
	ldr	r2, [sp, #16]
	ldr	r6, [sp, #12]
	str	r3, [r2, r6]
	str	r4, [r1, #4]
	ldr	r1, [sp, #8]
	str	r5, [r1, #4]
.LBB82_13:
	add	sp, #28
	pop	{r4, r5, r6, r7, pc}
.LBB82_14:
	ldr	r0, [sp, #20]
	str	r0, [sp]
	mov	r0, r5
	mov	r2, r7
	ldr	r3, [sp, #24]
	bl	ic_raw.table.refusal_at_end.feecb86c9dd45d96
	add	sp, #28
	pop	{r4, r5, r6, r7, pc}
.Lfunc_end82:
	.size	ic_hash_insert, .Lfunc_end82-ic_hash_insert
	.cfi_endproc
	.section	.text.ic_hash_move_chain,"ax",%progbits
	.globl	ic_hash_move_chain
	.p2align	1
	.type	ic_hash_move_chain,%function
	.code	16
	.thumb_func
ic_hash_move_chain:
	.cfi_startproc
	push	{r4, r5, r6, r7, lr}
	.cfi_def_cfa_offset 20
	.cfi_offset lr, -4
	.cfi_offset r7, -8
	.cfi_offset r6, -12
	.cfi_offset r5, -16
	.cfi_offset r4, -20
	sub	sp, #60
	.cfi_def_cfa_offset 80
	str	r2, [sp, #56]
	movs	r2, #1
	lsls	r1, r2, #12
	ldr	r5, [sp, #100]
	cmp	r5, #0
	str	r2, [sp, #20]
	bne	.LBB83_1
	b	.LBB83_16
.LBB83_1:
	ldr	r6, [sp, #80]
	cmp	r6, #0
	bne	.LBB83_2
	b	.LBB83_17
.LBB83_2:
	cmp	r0, #0
	bne	.LBB83_4
.LBB83_3:
	adds	r0, r0, r1
.LBB83_4:
	ldr	r4, [sp, #92]
	ldr	r1, [sp, #88]
	ldr	r2, [sp, #56]
	subs	r1, r1, r2
	sbcs	r4, r3
	bhs	.LBB83_5
	b	.LBB83_23
.LBB83_5:
	str	r6, [sp, #36]
	str	r5, [sp, #40]
	str	r0, [sp, #44]
	str	r3, [sp, #24]
	ldr	r1, [sp, #108]
	ldr	r0, [sp, #104]
	str	r0, [sp, #28]
	str	r1, [sp, #32]
	orrs	r0, r1
	beq	.LBB83_23
	ldr	r0, [sp, #96]
	ldr	r1, [r0]
	str	r0, [sp, #4]
	ldr	r0, [r0, #4]
	movs	r7, #15
	ands	r0, r7
	movs	r2, #7
	bics	r1, r2
	str	r1, [sp, #8]
	mov	r3, r1
	str	r0, [sp, #12]
	orrs	r3, r0
	rsbs	r1, r3, #0
	adcs	r1, r3
	subs	r0, r3, #1
	sbcs	r3, r0
	str	r3, [sp, #16]
	ldr	r3, [sp, #24]
	ldr	r0, [sp, #56]
	orrs	r3, r0
	rsbs	r0, r3, #0
	adcs	r0, r3
	mvns	r2, r2
	str	r2, [sp, #52]
	str	r3, [sp]
	cmp	r3, #0
	str	r7, [sp, #48]
	beq	.LBB83_20
	cmp	r1, #0
	bne	.LBB83_20
	ldr	r5, [sp, #56]
	ldr	r4, [sp, #24]
	ldr	r2, [sp, #8]
	ldr	r6, [sp, #12]
.LBB83_9:
	lsrs	r0, r2, #3
	lsls	r1, r6, #29
	adds	r0, r0, r1
	lsrs	r1, r6, #3
	movs	r6, #5
	ldr	r3, [sp, #56]
	subs	r0, r3, r0
	ldr	r0, [sp, #24]
	sbcs	r0, r1
	str	r6, [sp, #20]
	blo	.LBB83_23
	ldr	r0, [sp, #44]
	adds	r0, r0, r2
	subs	r0, #8
	ldr	r7, [r0]
	lsls	r1, r7, #31
	beq	.LBB83_23
	ldr	r6, [r0, #4]
	ldr	r0, [sp, #36]
	adds	r1, r0, r2
	subs	r1, #8
	ldm	r1, {r0, r1}
	ldr	r2, [sp, #28]
	ldr	r3, [sp, #32]
	bl	ic.remainder
	lsls	r1, r0, #3
	ldr	r2, [sp, #40]
	ldr	r0, [r2, r1]
	ldr	r3, [sp, #52]
	ands	r0, r3
	adds	r1, r2, r1
	ldr	r1, [r1, #4]
	ldr	r2, [sp, #48]
	ands	r1, r2
	mov	r2, r0
	orrs	r2, r1
	beq	.LBB83_14
	lsrs	r2, r0, #3
	lsls	r3, r1, #29
	adds	r2, r2, r3
	lsrs	r1, r1, #3
	ldr	r3, [sp, #56]
	subs	r2, r3, r2
	ldr	r2, [sp, #24]
	sbcs	r2, r1
	blo	.LBB83_23
	ldr	r1, [sp, #44]
	adds	r0, r1, r0
	subs	r0, #8
	ldrb	r0, [r0]
	lsls	r0, r0, #31
	beq	.LBB83_23
.LBB83_14:
	movs	r0, #0
	subs	r5, r5, #1
	sbcs	r4, r0
	mov	r3, r5
	orrs	r3, r4
	rsbs	r0, r3, #0
	adcs	r0, r3
	ldr	r1, [sp, #52]
	ands	r7, r1
	ldr	r1, [sp, #48]
	ands	r6, r1
	mov	r2, r7
	orrs	r2, r6
	rsbs	r1, r2, #0
	adcs	r1, r2
	cmp	r3, #0
	beq	.LBB83_19
	cmp	r2, #0
	mov	r2, r7
	ldr	r7, [sp, #48]
	bne	.LBB83_9
	b	.LBB83_20
.LBB83_16:
	adds	r5, r5, r1
	ldr	r6, [sp, #80]
	cmp	r6, #0
	beq	.LBB83_17
	b	.LBB83_2
.LBB83_17:
	adds	r6, r6, r1
	cmp	r0, #0
	bne	.LBB83_18
	b	.LBB83_3
.LBB83_18:
	b	.LBB83_4
.LBB83_19:
	ldr	r7, [sp, #48]
.LBB83_20:
	cmp	r1, #0
	bne	.LBB83_24
	cmp	r0, #0
	beq	.LBB83_24
	movs	r0, #5
	str	r0, [sp, #20]
.LBB83_23:
	ldr	r0, [sp, #20]
	add	sp, #60
	pop	{r4, r5, r6, r7, pc}
.LBB83_24:
	ldr	r1, [sp]
	rsbs	r0, r1, #0
	adcs	r0, r1
	movs	r1, #1
	str	r1, [sp, #20]
	ldr	r2, [sp, #16]
	eors	r2, r1
	orrs	r2, r0
	ldr	r1, [sp, #24]
	bne	.LBB83_35
	ldr	r0, [sp, #44]
	ldr	r5, [sp, #8]
	adds	r0, r0, r5
	subs	r0, #8
	ldr	r2, [r0]
	ldr	r3, [sp, #20]
	str	r3, [r0]
	ldr	r3, [r0, #4]
	movs	r4, #0
	str	r4, [r0, #4]
	ldr	r0, [sp, #56]
	subs	r0, r0, #1
	str	r4, [sp, #16]
	sbcs	r1, r4
	mov	r4, r0
	orrs	r4, r1
	beq	.LBB83_31
	ands	r3, r7
	ldr	r4, [sp, #52]
	ands	r2, r4
	mov	r4, r2
	orrs	r4, r3
	ldr	r6, [sp, #12]
	beq	.LBB83_30
	mov	r7, r5
.LBB83_28:
	str	r6, [sp, #12]
	mov	r4, r3
	mov	r5, r2
	ldr	r2, [sp, #44]
	adds	r6, r2, r5
	subs	r6, #8
	ldr	r2, [r6]
	ldr	r3, [sp, #20]
	orrs	r7, r3
	str	r7, [r6]
	ldr	r3, [r6, #4]
	ldr	r7, [sp, #12]
	str	r7, [r6, #4]
	subs	r0, r0, #1
	ldr	r6, [sp, #16]
	sbcs	r1, r6
	mov	r6, r0
	orrs	r6, r1
	beq	.LBB83_32
	ldr	r6, [sp, #48]
	ands	r3, r6
	ldr	r6, [sp, #52]
	ands	r2, r6
	mov	r6, r2
	orrs	r6, r3
	mov	r7, r5
	mov	r6, r4
	bne	.LBB83_28
	b	.LBB83_32
.LBB83_30:
	mov	r4, r6
	b	.LBB83_32
.LBB83_31:
	ldr	r4, [sp, #12]
.LBB83_32:
	ldr	r6, [sp, #24]
.LBB83_33:
	ldr	r0, [sp, #36]
	adds	r1, r0, r5
	subs	r1, #8
	ldm	r1, {r0, r1}
	ldr	r2, [sp, #28]
	ldr	r3, [sp, #32]
	bl	ic.remainder
	lsls	r1, r0, #3
	ldr	r7, [sp, #40]
	ldr	r2, [r7, r1]
	ldr	r0, [sp, #52]
	ands	r2, r0
	ldr	r0, [sp, #20]
	orrs	r2, r0
	ldr	r0, [sp, #44]
	adds	r3, r0, r5
	subs	r3, #8
	ldr	r0, [r3]
	str	r2, [r3]
	str	r5, [r7, r1]
	adds	r2, r7, r1
	ldr	r7, [sp, #48]
	ldr	r5, [r2, #4]
	ands	r5, r7
	ldr	r1, [r3, #4]
	str	r5, [r3, #4]
	str	r4, [r2, #4]
	ldr	r2, [sp, #56]
	subs	r2, r2, #1
	ldr	r3, [sp, #16]
	sbcs	r6, r3
	str	r2, [sp, #56]
	orrs	r2, r6
	beq	.LBB83_35
	ands	r1, r7
	ldr	r2, [sp, #52]
	ands	r0, r2
	mov	r2, r0
	orrs	r2, r1
	mov	r5, r0
	mov	r4, r1
	bne	.LBB83_33
.LBB83_35:
	movs	r1, #0
	ldr	r0, [sp, #4]
	str	r1, [r0]
	str	r1, [sp, #20]
	str	r1, [r0, #4]
	ldr	r0, [sp, #20]
	add	sp, #60
	pop	{r4, r5, r6, r7, pc}
.Lfunc_end83:
	.size	ic_hash_move_chain, .Lfunc_end83-ic_hash_move_chain
	.cfi_endproc
	.section	.text.ic_hash_next_equal,"ax",%progbits
	.globl	ic_hash_next_equal
	.p2align	1
	.type	ic_hash_next_equal,%function
	.code	16
	.thumb_func
ic_hash_next_equal:
	.cfi_startproc
	push	{r4, r5, r6, r7, lr}
	.cfi_def_cfa_offset 20
	.cfi_offset lr, -4
	.cfi_offset r7, -8
	.cfi_offset r6, -12
	.cfi_offset r5, -16
	.cfi_offset r4, -20
	sub	sp, #52
	.cfi_def_cfa_offset 72
	str	r3, [sp, #48]
	str	r2, [sp, #44]
	movs	r1, #1
	lsls	r2, r1, #12
	ldr	r4, [sp, #72]
	cmp	r4, #0
	bne	.LBB84_2
	adds	r4, r4, r2
.LBB84_2:
	cmp	r0, #0
	bne	.LBB84_4
	adds	r0, r0, r2
.LBB84_4:
	ldr	r2, [sp, #88]
	adds	r3, r2, #1
	movs	r5, #4
	cmp	r3, r2
	bhs	.LBB84_7
	mov	r1, r5
.LBB84_6:
	mov	r0, r1
	add	sp, #52
	pop	{r4, r5, r6, r7, pc}
.LBB84_7:
	str	r5, [sp, #12]
	str	r4, [sp, #36]
	str	r0, [sp, #40]
	ldr	r5, [sp, #84]
	ldr	r6, [sp, #80]
	ldr	r4, [sp, #44]
	subs	r6, r6, r4
	ldr	r4, [sp, #48]
	sbcs	r5, r4
	blo	.LBB84_6
	lsls	r1, r3, #3
	movs	r0, #0
	ldr	r4, [sp, #44]
	subs	r5, r4, r3
	ldr	r5, [sp, #48]
	str	r0, [sp, #32]
	sbcs	r5, r0
	blo	.LBB84_20
	ldr	r0, [sp, #40]
	adds	r5, r0, r1
	subs	r5, #8
	ldr	r7, [r5]
	lsls	r6, r7, #31
	beq	.LBB84_20
	ldr	r0, [sp, #92]
	str	r0, [sp, #8]
	ldr	r1, [r5, #4]
	movs	r3, #7
	bics	r7, r3
	movs	r0, #15
	str	r0, [sp, #20]
	ands	r1, r0
	mov	r5, r7
	orrs	r5, r1
	rsbs	r6, r5, #0
	adcs	r6, r5
	lsls	r2, r2, #3
	ldr	r0, [sp, #36]
	ldr	r4, [r0, r2]
	str	r4, [sp, #28]
	adds	r2, r0, r2
	ldr	r0, [r2, #4]
	str	r0, [sp, #24]
	mvns	r0, r3
	str	r0, [sp, #16]
	ldr	r2, [sp, #44]
	ldr	r3, [sp, #48]
.LBB84_11:
	lsls	r5, r6, #31
	bne	.LBB84_18
	lsrs	r5, r7, #3
	lsls	r6, r1, #29
	adds	r6, r5, r6
	lsrs	r5, r1, #3
	movs	r1, #5
	ldr	r4, [sp, #44]
	subs	r4, r4, r6
	ldr	r4, [sp, #48]
	sbcs	r4, r5
	blo	.LBB84_6
	ldr	r0, [sp, #40]
	adds	r5, r0, r7
	subs	r5, #8
	ldr	r7, [r5]
	lsls	r4, r7, #31
	beq	.LBB84_6
	lsls	r1, r6, #3
	ldr	r0, [sp, #36]
	adds	r1, r0, r1
	subs	r1, #8
	ldr	r4, [r1]
	ldr	r1, [r1, #4]
	ldr	r0, [sp, #24]
	eors	r1, r0
	ldr	r0, [sp, #28]
	eors	r4, r0
	orrs	r4, r1
	beq	.LBB84_19
	ldr	r1, [r5, #4]
	ldr	r0, [sp, #16]
	ands	r7, r0
	ldr	r0, [sp, #20]
	ands	r1, r0
	mov	r4, r7
	orrs	r4, r1
	rsbs	r6, r4, #0
	adcs	r6, r4
	subs	r2, r2, #1
	ldr	r0, [sp, #32]
	sbcs	r3, r0
	mov	r4, r2
	orrs	r4, r3
	bne	.LBB84_11
	cmp	r6, #0
	bne	.LBB84_21
	movs	r1, #5
	mov	r0, r1
	add	sp, #52
	pop	{r4, r5, r6, r7, pc}
.LBB84_18:
	ldr	r1, [sp, #12]
	mov	r0, r1
	add	sp, #52
	pop	{r4, r5, r6, r7, pc}
.LBB84_19:
	subs	r0, r6, #1
	ldr	r1, [sp, #8]
	str	r0, [r1]
	ldr	r1, [sp, #32]
	mov	r0, r1
	add	sp, #52
	pop	{r4, r5, r6, r7, pc}
.LBB84_20:
	lsrs	r2, r3, #29
	str	r1, [sp]
	str	r2, [sp, #4]
	add	r3, sp, #40
	ldm	r3, {r0, r2, r3}
	bl	ic_raw.table.RawTable.refusal_of.feecb86c9dd45d96
	mov	r1, r0
	mov	r0, r1
	add	sp, #52
	pop	{r4, r5, r6, r7, pc}
.LBB84_21:
	movs	r1, #4
	mov	r0, r1
	add	sp, #52
	pop	{r4, r5, r6, r7, pc}
.Lfunc_end84:
	.size	ic_hash_next_equal, .Lfunc_end84-ic_hash_next_equal
	.cfi_endproc
	.section	.text.ic_hash_remove,"ax",%progbits
	.globl	ic_hash_remove
	.p2align	1
	.type	ic_hash_remove,%function
	.code	16
	.thumb_func
ic_hash_remove:
	.cfi_startproc
	push	{r4, r5, r6, r7, lr}
	.cfi_def_cfa_offset 20
	.cfi_offset lr, -4
	.cfi_offset r7, -8
	.cfi_offset r6, -12
	.cfi_offset r5, -16
	.cfi_offset r4, -20
	sub	sp, #68
	.cfi_def_cfa_offset 88
	mov	r1, r0
	movs	r0, #1
	lsls	r4, r0, #12
	ldr	r5, [sp, #88]
	cmp	r5, #0
	beq	.LBB85_4
	cmp	r1, #0
	beq	.LBB85_5
.LBB85_2:
	ldr	r4, [sp, #112]
	adds	r7, r4, #1
	blo	.LBB85_6
.LBB85_3:
	movs	r0, #4
	add	sp, #68
	pop	{r4, r5, r6, r7, pc}
.LBB85_4:
	adds	r5, r5, r4
	cmp	r1, #0
	bne	.LBB85_2
.LBB85_5:
	adds	r1, r1, r4
	ldr	r4, [sp, #112]
	adds	r7, r4, #1
	bhs	.LBB85_3
.LBB85_6:
	str	r5, [sp, #20]
	ldr	r4, [sp, #100]
	ldr	r5, [sp, #96]
	mov	r6, r5
	orrs	r6, r4
	bne	.LBB85_7
	b	.LBB85_26
.LBB85_7:
	str	r7, [sp, #60]
	str	r1, [sp, #64]
	ldr	r1, [sp, #108]
	ldr	r0, [sp, #104]
	mov	r7, r2
	mov	r2, r5
	mov	r5, r3
	mov	r3, r4
	bl	ic.remainder
	mov	r1, r5
	lsls	r3, r0, #3
	ldr	r0, [sp, #20]
	ldr	r2, [r0, r3]
	movs	r5, #7
	mov	r4, r2
	str	r5, [sp, #36]
	bics	r4, r5
	str	r3, [sp, #12]
	adds	r0, r0, r3
	str	r0, [sp, #8]
	ldr	r3, [r0, #4]
	movs	r0, #15
	mov	r6, r3
	str	r0, [sp, #52]
	ands	r6, r0
	str	r4, [sp, #24]
	mov	r0, r4
	orrs	r0, r6
	rsbs	r4, r0, #0
	adcs	r4, r0
	mov	r5, r1
	orrs	r5, r7
	rsbs	r0, r5, #0
	adcs	r0, r5
	orrs	r0, r4
	lsrs	r2, r2, #3
	lsls	r3, r3, #29
	adds	r2, r2, r3
	str	r6, [sp, #16]
	lsrs	r3, r6, #3
	movs	r4, #1
	str	r7, [sp, #44]
	subs	r2, r7, r2
	str	r1, [sp, #48]
	sbcs	r1, r3
	str	r4, [sp, #40]
	mov	r2, r4
	blo	.LBB85_9
	movs	r2, #0
.LBB85_9:
	ldr	r3, [sp, #60]
	lsrs	r1, r3, #29
	str	r1, [sp, #56]
	lsls	r1, r3, #3
	str	r1, [sp, #60]
	orrs	r0, r2
	bne	.LBB85_23
	ldr	r0, [sp, #24]
	ldr	r1, [sp, #64]
	adds	r4, r1, r0
	subs	r4, #8
	ldr	r2, [r4]
	lsls	r3, r2, #31
	beq	.LBB85_23
	ldr	r0, [sp, #36]
	mvns	r6, r0
	ldr	r1, [sp, #24]
	ldr	r5, [sp, #60]
	eors	r1, r5
	ldr	r3, [sp, #16]
	ldr	r0, [sp, #56]
	eors	r3, r0
	orrs	r3, r1
	bne	.LBB85_13
	ldr	r0, [sp, #64]
	adds	r1, r0, r5
	subs	r1, #8
	ldm	r1!, {r4, r5}
	ldr	r0, [sp, #52]
	ands	r5, r0
	ands	r4, r6
	subs	r1, #8
	b	.LBB85_25
.LBB85_13:
	str	r6, [sp, #36]
	movs	r1, #0
	ldr	r0, [sp, #44]
	subs	r7, r0, #1
	ldr	r3, [sp, #48]
	str	r1, [sp, #28]
	sbcs	r3, r1
	mov	r1, r7
	orrs	r1, r3
	beq	.LBB85_23
	ldr	r1, [r4, #4]
	ldr	r0, [sp, #24]
.LBB85_15:
	ldr	r4, [sp, #36]
	ands	r2, r4
	lsrs	r4, r2, #3
	ldr	r5, [sp, #52]
	ands	r1, r5
	lsls	r5, r1, #29
	adds	r4, r4, r5
	lsrs	r5, r1, #3
	ldr	r6, [sp, #44]
	subs	r4, r6, r4
	ldr	r4, [sp, #48]
	sbcs	r4, r5
	blo	.LBB85_17
	ldr	r4, [sp, #28]
	mov	r5, r2
	orrs	r5, r1
	ldr	r5, [sp, #40]
	bne	.LBB85_18
	b	.LBB85_19
.LBB85_17:
	movs	r4, #1
	mov	r5, r2
	orrs	r5, r1
	ldr	r5, [sp, #40]
	beq	.LBB85_19
.LBB85_18:
	mov	r5, r4
.LBB85_19:
	cmp	r5, #0
	bne	.LBB85_23
	ldr	r4, [sp, #64]
	adds	r5, r4, r2
	subs	r5, #8
	ldr	r4, [r5]
	lsls	r6, r4, #31
	beq	.LBB85_23
	str	r0, [sp, #32]
	mov	r6, r2
	ldr	r0, [sp, #60]
	eors	r6, r0
	ldr	r0, [sp, #56]
	eors	r1, r0
	orrs	r1, r6
	beq	.LBB85_24
	ldr	r1, [r5, #4]
	mov	r0, r2
	movs	r2, #0
	subs	r7, r7, #1
	sbcs	r3, r2
	mov	r2, r7
	orrs	r2, r3
	mov	r2, r4
	bne	.LBB85_15
.LBB85_23:
	ldr	r0, [sp, #60]
	str	r0, [sp]
	ldr	r0, [sp, #56]
	str	r0, [sp, #4]
	ldr	r0, [sp, #64]
	ldr	r2, [sp, #44]
	ldr	r3, [sp, #48]
	bl	ic_raw.table.RawTable.refusal_of.feecb86c9dd45d96
	add	sp, #68
	pop	{r4, r5, r6, r7, pc}
.LBB85_24:
	ldr	r4, [sp, #64]
	ldr	r0, [sp, #60]
	adds	r1, r4, r0
	subs	r1, #8
	ldr	r2, [r1, #4]
	ldr	r3, [sp, #52]
	ands	r2, r3
	ldr	r0, [sp, #32]
	adds	r0, r4, r0
	subs	r0, #8
	str	r2, [r0, #4]
	ldr	r2, [r1]
	ldr	r3, [sp, #36]
	ands	r2, r3
	movs	r3, #1
	orrs	r3, r2
	str	r3, [r0]
	ldr	r4, [sp, #24]
	ldr	r5, [sp, #16]
.LBB85_25:
	movs	r0, #0
	str	r0, [r1]
	ldr	r2, [sp, #20]
	ldr	r3, [sp, #12]
	str	r4, [r2, r3]
	str	r0, [r1, #4]
	ldr	r1, [sp, #8]
	str	r5, [r1, #4]
.LBB85_26:
	add	sp, #68
	pop	{r4, r5, r6, r7, pc}
.Lfunc_end85:
	.size	ic_hash_remove, .Lfunc_end85-ic_hash_remove
	.cfi_endproc
	.section	.text.ic_list32_append,"ax",%progbits
	.globl	ic_list32_append
	.p2align	2
	.type	ic_list32_append,%function
	.code	16
	.thumb_func
ic_list32_append:
	.cfi_startproc
	push	{r4, r5, r6, r7, lr}
	.cfi_def_cfa_offset 20
	.cfi_offset lr, -4
	.cfi_offset r7, -8
	.cfi_offset r6, -12
	.cfi_offset r5, -16
	.cfi_offset r4, -20
	sub	sp, #68
	.cfi_def_cfa_offset 88
	str	r3, [sp, #44]
	str	r2, [sp, #40]
	ldr	r5, [sp, #88]
	ldr	r2, [r5, #8]
	ldr	r3, [r5, #12]
	movs	r1, #15
	str	r1, [sp, #52]
	ands	r3, r1
	movs	r1, #7
	mvns	r1, r1
	str	r1, [sp, #48]
	ands	r2, r1
	str	r2, [sp, #56]
	mov	r1, r2
	orrs	r1, r3
	movs	r2, #1
	cmp	r0, #0
	str	r2, [sp, #32]
	bne	.LBB86_2
	lsls	r2, r2, #12
	adds	r0, r0, r2
.LBB86_2:
	str	r0, [sp, #64]
	ldr	r2, [sp, #92]
	str	r2, [sp, #60]
	cmp	r1, #0
	bne	.LBB86_3
	b	.LBB86_18
.LBB86_3:
	ldr	r1, .LCPI86_0
	ldr	r7, [sp, #40]
	cmp	r7, r1
	blo	.LBB86_5
	mov	r7, r1
.LBB86_5:
	ldr	r2, [sp, #44]
	cmp	r2, #0
	beq	.LBB86_7
	mov	r7, r1
.LBB86_7:
	ldr	r0, [sp, #56]
	lsrs	r1, r0, #3
	lsls	r2, r3, #29
	adds	r1, r1, r2
	lsrs	r0, r3, #3
	movs	r4, #0
	subs	r1, r7, r1
	mov	r1, r4
	sbcs	r1, r0
	blo	.LBB86_18
	ldr	r0, [sp, #60]
	ldm	r0!, {r2, r3}
	ldr	r0, [sp, #52]
	ands	r3, r0
	ldr	r0, [sp, #48]
	ands	r2, r0
	mov	r0, r2
	orrs	r0, r3
	beq	.LBB86_18
	ldr	r0, [sp, #64]
	ldr	r1, [sp, #56]
	adds	r0, r0, r1
	subs	r0, #8
	str	r0, [sp, #28]
	ldr	r0, [r0]
	cmp	r0, #1
	bne	.LBB86_18
	lsrs	r0, r2, #3
	lsls	r1, r3, #29
	adds	r0, r0, r1
	lsrs	r1, r3, #3
	subs	r0, r7, r0
	mov	r0, r4
	sbcs	r0, r1
	blo	.LBB86_18
	ldr	r0, [sp, #64]
	adds	r0, r0, r2
	subs	r1, r0, #4
	str	r1, [sp, #20]
	ldr	r1, [r1]
	cmp	r1, #0
	bne	.LBB86_18
	ldr	r1, [sp, #60]
	ldr	r6, [r1, #8]
	str	r7, [sp, #24]
	ldr	r7, [r1, #12]
	ldr	r1, [sp, #52]
	ands	r7, r1
	ldr	r1, [sp, #48]
	ands	r6, r1
	mov	r1, r6
	str	r7, [sp, #36]
	orrs	r1, r7
	beq	.LBB86_18
	subs	r0, #8
	ldr	r0, [r0]
	lsls	r0, r0, #31
	beq	.LBB86_18
	lsrs	r0, r6, #3
	ldr	r7, [sp, #36]
	lsls	r1, r7, #29
	adds	r0, r0, r1
	lsrs	r1, r7, #3
	ldr	r7, [sp, #24]
	subs	r0, r7, r0
	mov	r0, r4
	sbcs	r0, r1
	blo	.LBB86_18
	ldr	r7, [r5]
	str	r4, [sp, #24]
	ldr	r4, [r5, #4]
	ldr	r0, [sp, #52]
	ands	r4, r0
	ldr	r0, [sp, #48]
	ands	r7, r0
	mov	r1, r7
	eors	r1, r2
	str	r4, [sp, #52]
	eors	r3, r4
	ldr	r4, [sp, #24]
	orrs	r3, r1
	beq	.LBB86_18
	ldr	r1, [sp, #64]
	adds	r3, r1, r6
	subs	r3, #8
	ldr	r1, [r3]
	cmp	r1, #1
	bne	.LBB86_18
	ldr	r0, [sp, #32]
	orrs	r2, r0
	ldr	r1, [sp, #28]
	str	r2, [r1]
	ldr	r1, [sp, #56]
	ldr	r2, [sp, #20]
	str	r1, [r2]
	str	r0, [r3]
	strb	r4, [r5, #15]
	strb	r4, [r5, #14]
	strb	r4, [r5, #13]
	ldr	r0, [sp, #36]
	strb	r0, [r5, #12]
	lsrs	r1, r6, #24
	strb	r1, [r5, #11]
	lsrs	r1, r6, #16
	strb	r1, [r5, #10]
	lsrs	r1, r6, #8
	strb	r1, [r5, #9]
	strb	r6, [r5, #8]
	strb	r4, [r5, #7]
	strb	r4, [r5, #6]
	strb	r4, [r5, #5]
	ldr	r0, [sp, #52]
	strb	r0, [r5, #4]
	lsrs	r0, r7, #24
	strb	r0, [r5, #3]
	lsrs	r0, r7, #16
	strb	r0, [r5, #2]
	lsrs	r0, r7, #8
	strb	r0, [r5, #1]
	strb	r7, [r5]
	str	r4, [sp]
	movs	r2, #16
	ldr	r0, [sp, #60]
	mov	r1, r4
	mov	r3, r4
	bl	ic.clear
	mov	r0, r4
	add	sp, #68
	pop	{r4, r5, r6, r7, pc}
.LBB86_18:
	movs	r0, #0
	mvns	r0, r0
	str	r5, [sp]
	str	r0, [sp, #4]
	ldr	r0, [sp, #60]
	str	r0, [sp, #8]
	ldr	r0, [sp, #32]
	str	r0, [sp, #12]
	ldr	r0, [sp, #64]
	ldr	r2, [sp, #40]
	ldr	r3, [sp, #44]
	bl	ic_raw.list_calls.splice_slow.55ebd757a04f39fd
	mov	r4, r0
	mov	r0, r4
	add	sp, #68
	pop	{r4, r5, r6, r7, pc}
	.p2align	2
.LCPI86_0:
	.long	536870911
.Lfunc_end86:
	.size	ic_list32_append, .Lfunc_end86-ic_list32_append
	.cfi_endproc
	.section	.text.ic_list32_check,"ax",%progbits
	.globl	ic_list32_check
	.p2align	2
	.type	ic_list32_check,%function
	.code	16
	.thumb_func
ic_list32_check:
	.cfi_startproc
	push	{r4, r5, r6, r7, lr}
	.cfi_def_cfa_offset 20
	.cfi_offset lr, -4
	.cfi_offset r7, -8
	.cfi_offset r6, -12
	.cfi_offset r5, -16
	.cfi_offset r4, -20
	sub	sp, #48
	.cfi_def_cfa_offset 68
	str	r2, [sp, #28]
	ldr	r6, [sp, #68]
	ldr	r5, [r6]
	ldr	r1, [r6, #4]
	movs	r4, #15
	ands	r1, r4
	movs	r2, #7
	str	r2, [sp, #20]
	mvns	r2, r2
	str	r2, [sp, #8]
	ands	r5, r2
	mov	r2, r5
	orrs	r2, r1
	cmp	r0, #0
	str	r4, [sp, #12]
	bne	.LBB87_2
	movs	r4, #1
	lsls	r4, r4, #12
	adds	r0, r0, r4
.LBB87_2:
	ldr	r4, [r6, #8]
	str	r4, [sp, #4]
	ldr	r4, [r6, #12]
	str	r4, [sp]
	cmp	r2, #0
	beq	.LBB87_13
	ldr	r2, .LCPI87_0
	ldr	r4, [sp, #28]
	cmp	r4, r2
	blo	.LBB87_5
	str	r2, [sp, #28]
.LBB87_5:
	str	r0, [sp, #16]
	cmp	r3, #0
	beq	.LBB87_7
	str	r2, [sp, #28]
.LBB87_7:
	movs	r7, #0
	mov	r6, r7
	str	r7, [sp, #44]
	mov	r0, r7
	mov	r3, r7
.LBB87_8:
	mov	r4, r1
	movs	r1, #5
	str	r1, [sp, #24]
	ldr	r2, [sp, #28]
	subs	r1, r0, r2
	mov	r1, r3
	sbcs	r1, r7
	bhs	.LBB87_18
	mov	r1, r0
	mov	r0, r4
	str	r3, [sp, #36]
	mov	r3, r1
	lsrs	r1, r5, #3
	mov	r4, r5
	lsls	r5, r0, #29
	adds	r1, r1, r5
	str	r0, [sp, #40]
	lsrs	r5, r0, #3
	subs	r1, r2, r1
	mov	r0, r7
	sbcs	r7, r5
	blo	.LBB87_18
	ldr	r1, [sp, #16]
	str	r4, [sp, #32]
	adds	r1, r1, r4
	mov	r5, r1
	subs	r5, #8
	ldr	r5, [r5]
	lsls	r2, r5, #31
	beq	.LBB87_18
	subs	r1, r1, #4
	ldr	r1, [r1]
	ldr	r2, [sp, #20]
	bics	r1, r2
	eors	r6, r1
	ldr	r1, [sp, #44]
	orrs	r6, r1
	bne	.LBB87_18
	adds	r3, r3, #1
	mov	r7, r0
	mov	r0, r3
	ldr	r3, [sp, #36]
	adcs	r3, r7
	bics	r5, r2
	mov	r1, r7
	ldr	r2, [sp, #32]
	mov	r6, r2
	ldr	r4, [sp, #40]
	str	r4, [sp, #44]
	bne	.LBB87_8
	b	.LBB87_14
.LBB87_13:
	movs	r0, #0
	mov	r3, r0
	mov	r2, r0
	mov	r4, r0
.LBB87_14:
	ldr	r1, [sp, #12]
	ldr	r5, [sp]
	ands	r5, r1
	ldr	r1, [sp, #8]
	ldr	r6, [sp, #4]
	ands	r6, r1
	eors	r6, r2
	eors	r5, r4
	orrs	r5, r6
	bne	.LBB87_16
	ldr	r1, [sp, #72]
	stm	r1!, {r0, r3}
	movs	r0, #0
	b	.LBB87_17
.LBB87_16:
	movs	r0, #5
.LBB87_17:
	str	r0, [sp, #24]
.LBB87_18:
	ldr	r0, [sp, #24]
	add	sp, #48
	pop	{r4, r5, r6, r7, pc}
	.p2align	2
.LCPI87_0:
	.long	536870911
.Lfunc_end87:
	.size	ic_list32_check, .Lfunc_end87-ic_list32_check
	.cfi_endproc
	.section	.text.ic_list32_clear,"ax",%progbits
	.globl	ic_list32_clear
	.p2align	2
	.type	ic_list32_clear,%function
	.code	16
	.thumb_func
ic_list32_clear:
	.cfi_startproc
	push	{r4, r5, r6, r7, lr}
	.cfi_def_cfa_offset 20
	.cfi_offset lr, -4
	.cfi_offset r7, -8
	.cfi_offset r6, -12
	.cfi_offset r5, -16
	.cfi_offset r4, -20
	sub	sp, #52
	.cfi_def_cfa_offset 72
	str	r3, [sp, #44]
	mov	r3, r0
	ldr	r0, [sp, #72]
	ldr	r7, [r0]
	ldr	r4, [r0, #4]
	movs	r5, #15
	ands	r4, r5
	movs	r1, #7
	str	r1, [sp, #32]
	mvns	r6, r1
	ands	r7, r6
	mov	r1, r7
	str	r4, [sp, #48]
	orrs	r1, r4
	cmp	r3, #0
	bne	.LBB88_2
	movs	r4, #1
	lsls	r4, r4, #12
	adds	r3, r3, r4
.LBB88_2:
	str	r3, [sp, #36]
	ldr	r4, [r0, #8]
	ldr	r3, [r0, #12]
	ands	r3, r5
	ands	r4, r6
	cmp	r1, #0
	beq	.LBB88_15
	str	r3, [sp, #16]
	ldr	r1, .LCPI88_0
	cmp	r2, r1
	str	r2, [sp, #40]
	blo	.LBB88_5
	str	r1, [sp, #40]
.LBB88_5:
	str	r4, [sp, #20]
	ldr	r5, [sp, #44]
	cmp	r5, #0
	ldr	r3, [sp, #48]
	beq	.LBB88_7
	str	r1, [sp, #40]
.LBB88_7:
	movs	r4, #5
	orrs	r2, r5
	beq	.LBB88_25
	str	r4, [sp, #24]
	str	r6, [sp, #8]
	str	r0, [sp, #12]
	movs	r2, #0
	movs	r0, #0
	mov	r6, r0
	mov	r5, r7
	str	r0, [sp, #28]
	mov	r7, r0
	str	r5, [sp, #4]
	ldr	r0, [sp, #40]
.LBB88_9:
	str	r2, [sp, #44]
	mov	r1, r7
	lsrs	r4, r5, #3
	mov	r2, r5
	lsls	r5, r3, #29
	adds	r4, r4, r5
	lsrs	r5, r3, #3
	ldr	r7, [sp, #40]
	subs	r4, r7, r4
	ldr	r4, [sp, #28]
	sbcs	r4, r5
	blo	.LBB88_17
	str	r3, [sp, #48]
	ldr	r3, [sp, #36]
	adds	r4, r3, r2
	mov	r5, r4
	subs	r5, #8
	ldr	r5, [r5]
	lsls	r3, r5, #31
	beq	.LBB88_17
	subs	r3, r4, #4
	ldr	r3, [r3]
	ldr	r4, [sp, #32]
	bics	r3, r4
	eors	r6, r3
	orrs	r6, r1
	bne	.LBB88_17
	mov	r7, r2
	bics	r5, r4
	ldr	r1, [sp, #44]
	beq	.LBB88_18
	movs	r3, #0
	subs	r0, r0, #1
	sbcs	r1, r3
	mov	r6, r0
	orrs	r6, r1
	mov	r6, r7
	ldr	r7, [sp, #48]
	mov	r2, r1
	bne	.LBB88_9
	ldr	r4, [sp, #24]
	b	.LBB88_25
.LBB88_15:
	orrs	r4, r3
	beq	.LBB88_24
	movs	r4, #5
	mov	r0, r4
	add	sp, #52
	pop	{r4, r5, r6, r7, pc}
.LBB88_17:
	ldr	r4, [sp, #24]
	mov	r0, r4
	add	sp, #52
	pop	{r4, r5, r6, r7, pc}
.LBB88_18:
	ldr	r0, [sp, #20]
	eors	r0, r7
	ldr	r1, [sp, #16]
	ldr	r2, [sp, #48]
	eors	r1, r2
	orrs	r1, r0
	ldr	r4, [sp, #24]
	bne	.LBB88_25
	ldr	r0, [sp, #12]
	ldr	r4, [sp, #36]
	ldr	r5, [sp, #8]
	ldr	r2, [sp, #4]
.LBB88_20:
	adds	r2, r4, r2
	subs	r2, #8
	ldr	r1, [r2]
	movs	r3, #0
	str	r3, [r2]
	ands	r1, r5
	beq	.LBB88_24
	adds	r2, r4, r1
	subs	r2, #8
	ldr	r1, [r2]
	str	r3, [r2]
	ands	r1, r5
	beq	.LBB88_24
	adds	r2, r4, r1
	subs	r2, #8
	ldr	r1, [r2]
	str	r3, [r2]
	ands	r1, r5
	beq	.LBB88_24
	adds	r1, r4, r1
	subs	r1, #8
	ldr	r2, [r1]
	str	r3, [r1]
	ands	r2, r5
	bne	.LBB88_20
.LBB88_24:
	movs	r4, #0
	str	r4, [sp]
	movs	r2, #16
	mov	r1, r4
	mov	r3, r4
	bl	ic.clear
	mov	r0, r4
	add	sp, #52
	pop	{r4, r5, r6, r7, pc}
.LBB88_25:
	mov	r0, r4
	add	sp, #52
	pop	{r4, r5, r6, r7, pc}
	.p2align	2
.LCPI88_0:
	.long	536870911
.Lfunc_end88:
	.size	ic_list32_clear, .Lfunc_end88-ic_list32_clear
	.cfi_endproc
	.section	.text.ic_list32_insert_after,"ax",%progbits
	.globl	ic_list32_insert_after
	.p2align	2
	.type	ic_list32_insert_after,%function
	.code	16
	.thumb_func
ic_list32_insert_after:
	.cfi_startproc
	push	{r4, r5, r6, r7, lr}
	.cfi_def_cfa_offset 20
	.cfi_offset lr, -4
	.cfi_offset r7, -8
	.cfi_offset r6, -12
	.cfi_offset r5, -16
	.cfi_offset r4, -20
	sub	sp, #68
	.cfi_def_cfa_offset 88
	str	r3, [sp, #52]
	str	r2, [sp, #48]
	movs	r1, #1
	cmp	r0, #0
	str	r1, [sp, #28]
	bne	.LBB89_2
	lsls	r1, r1, #12
	adds	r0, r0, r1
.LBB89_2:
	str	r0, [sp, #64]
	ldr	r1, [sp, #88]
	ldm	r1!, {r3, r7}
	ldr	r4, [r1]
	ldr	r5, [r1, #4]
	movs	r0, #15
	ands	r5, r0
	movs	r2, #7
	str	r2, [sp, #40]
	mvns	r2, r2
	ands	r4, r2
	ands	r7, r0
	ands	r3, r2
	ldr	r0, [sp, #96]
	str	r0, [sp, #32]
	ldr	r2, [sp, #92]
	adds	r6, r2, #1
	lsls	r0, r6, #3
	str	r0, [sp, #60]
	str	r2, [sp, #8]
	str	r6, [sp, #56]
	subs	r1, #8
	cmp	r6, r2
	str	r4, [sp, #16]
	str	r5, [sp, #12]
	str	r3, [sp, #24]
	str	r7, [sp, #20]
	bhs	.LBB89_9
	mov	r2, r3
	orrs	r2, r7
	beq	.LBB89_20
	ldr	r3, .LCPI89_0
	ldr	r2, [sp, #48]
	cmp	r2, r3
	blo	.LBB89_6
	mov	r2, r3
.LBB89_6:
	ldr	r0, [sp, #52]
	cmp	r0, #0
	ldr	r7, [sp, #28]
	ldr	r6, [sp, #40]
	beq	.LBB89_8
	mov	r2, r3
.LBB89_8:
	ldr	r3, [sp, #24]
	ldr	r5, [sp, #20]
	ldr	r0, [sp, #64]
	b	.LBB89_17
.LBB89_9:
	ldr	r3, .LCPI89_0
	ldr	r2, [sp, #48]
	cmp	r2, r3
	blo	.LBB89_11
	mov	r2, r3
.LBB89_11:
	ldr	r0, [sp, #52]
	cmp	r0, #0
	ldr	r7, [sp, #28]
	ldr	r6, [sp, #40]
	beq	.LBB89_13
	mov	r2, r3
.LBB89_13:
	movs	r4, #0
	ldr	r0, [sp, #56]
	subs	r3, r2, r0
	str	r4, [sp, #44]
	mov	r3, r4
	sbcs	r3, r4
	ldr	r0, [sp, #64]
	bhs	.LBB89_14
	b	.LBB89_41
.LBB89_14:
	ldr	r3, [sp, #60]
	adds	r3, r0, r3
	subs	r3, #8
	ldr	r3, [r3]
	mov	r4, r3
	lsls	r3, r3, #31
	bne	.LBB89_15
	b	.LBB89_41
.LBB89_15:
	mov	r3, r4
	bics	r3, r6
	beq	.LBB89_21
	ldr	r5, [sp, #44]
.LBB89_17:
	str	r3, [sp, #40]
	lsrs	r3, r3, #3
	lsls	r4, r5, #29
	adds	r3, r3, r4
	lsrs	r4, r5, #3
	movs	r5, #0
	subs	r2, r2, r3
	str	r5, [sp, #36]
	mov	r2, r5
	sbcs	r2, r4
	bhs	.LBB89_18
	b	.LBB89_41
.LBB89_18:
	ldr	r2, [sp, #40]
	adds	r2, r0, r2
	mov	r3, r2
	subs	r3, #8
	ldrb	r3, [r3]
	lsls	r3, r3, #31
	beq	.LBB89_41
	subs	r2, r2, #4
	ldr	r2, [r2]
	bics	r2, r6
	str	r7, [sp, #44]
	ldr	r3, [sp, #36]
	b	.LBB89_22
.LBB89_20:
	mov	r3, r5
	movs	r0, #0
	ldr	r7, [sp, #28]
	str	r7, [sp, #36]
	str	r0, [sp, #44]
	str	r0, [sp, #40]
	mov	r2, r4
	ldr	r0, [sp, #64]
	b	.LBB89_22
.LBB89_21:
	str	r7, [sp, #36]
	ldr	r2, [sp, #44]
	str	r2, [sp, #40]
	ldr	r2, [sp, #16]
	ldr	r3, [sp, #12]
.LBB89_22:
	ldr	r4, [sp, #56]
	lsrs	r4, r4, #29
	ldr	r5, [sp, #60]
	eors	r2, r5
	eors	r4, r3
	orrs	r4, r2
	bne	.LBB89_41
	ldr	r3, .LCPI89_0
	ldr	r4, [sp, #48]
	cmp	r4, r3
	blo	.LBB89_25
	mov	r4, r3
.LBB89_25:
	ldr	r2, [sp, #32]
	adds	r2, r2, #1
	ldr	r5, [sp, #52]
	cmp	r5, #0
	beq	.LBB89_27
	mov	r4, r3
.LBB89_27:
	movs	r3, #0
	subs	r4, r4, r2
	mov	r4, r3
	sbcs	r4, r3
	blo	.LBB89_30
	cmp	r2, #0
	bne	.LBB89_31
.LBB89_29:
	cmp	r7, #0
	beq	.LBB89_32
	b	.LBB89_41
.LBB89_30:
	movs	r3, #1
	cmp	r2, #0
	beq	.LBB89_29
.LBB89_31:
	mov	r7, r3
	cmp	r7, #0
	bne	.LBB89_41
.LBB89_32:
	lsls	r4, r2, #3
	adds	r3, r0, r4
	mov	r6, r3
	subs	r6, #8
	ldrb	r5, [r6]
	lsls	r5, r5, #31
	ldr	r0, [sp, #64]
	bne	.LBB89_41
	lsrs	r5, r2, #29
	ldr	r0, [sp, #56]
	cmp	r0, #0
	mov	r2, r4
	mov	r7, r5
	beq	.LBB89_35
	movs	r0, #1
	orrs	r0, r4
	ldr	r2, [sp, #64]
	ldr	r7, [sp, #60]
	adds	r2, r2, r7
	subs	r2, #8
	str	r0, [r2]
	ldr	r2, [sp, #24]
	ldr	r7, [sp, #20]
.LBB89_35:
	ldr	r0, [sp, #44]
	cmp	r0, #0
	beq	.LBB89_37
	ldr	r0, [sp, #64]
	ldr	r5, [sp, #40]
	adds	r0, r0, r5
	subs	r0, r0, #4
	str	r4, [r0]
	ldr	r4, [sp, #16]
	ldr	r5, [sp, #12]
.LBB89_37:
	subs	r0, r3, #4
	ldr	r3, [sp, #60]
	str	r3, [r0]
	ldr	r0, [sp, #36]
	cmp	r0, #0
	bne	.LBB89_39
	ldr	r0, [sp, #40]
	adds	r0, r0, #1
	b	.LBB89_40
.LBB89_39:
	movs	r0, #1
.LBB89_40:
	str	r0, [r6]
	movs	r0, #0
	strb	r0, [r1, #15]
	strb	r0, [r1, #14]
	strb	r0, [r1, #13]
	strb	r5, [r1, #12]
	lsrs	r3, r4, #24
	strb	r3, [r1, #11]
	lsrs	r3, r4, #16
	strb	r3, [r1, #10]
	lsrs	r3, r4, #8
	strb	r3, [r1, #9]
	strb	r4, [r1, #8]
	strb	r0, [r1, #7]
	strb	r0, [r1, #6]
	strb	r0, [r1, #5]
	strb	r7, [r1, #4]
	lsrs	r3, r2, #24
	strb	r3, [r1, #3]
	lsrs	r3, r2, #16
	strb	r3, [r1, #2]
	lsrs	r3, r2, #8
	strb	r3, [r1, #1]
	strb	r2, [r1]
	add	sp, #68
	pop	{r4, r5, r6, r7, pc}
.LBB89_41:
	ldr	r1, [sp, #8]
	str	r1, [sp]
	ldr	r1, [sp, #32]
	str	r1, [sp, #4]
	ldr	r2, [sp, #48]
	ldr	r3, [sp, #52]
	bl	ic_raw.table.RawTable.refusal.05a19227735374d3
	add	sp, #68
	pop	{r4, r5, r6, r7, pc}
	.p2align	2
.LCPI89_0:
	.long	536870911
.Lfunc_end89:
	.size	ic_list32_insert_after, .Lfunc_end89-ic_list32_insert_after
	.cfi_endproc
	.section	.text.ic_list32_insert_before,"ax",%progbits
	.globl	ic_list32_insert_before
	.p2align	2
	.type	ic_list32_insert_before,%function
	.code	16
	.thumb_func
ic_list32_insert_before:
	.cfi_startproc
	push	{r4, r5, r6, r7, lr}
	.cfi_def_cfa_offset 20
	.cfi_offset lr, -4
	.cfi_offset r7, -8
	.cfi_offset r6, -12
	.cfi_offset r5, -16
	.cfi_offset r4, -20
	sub	sp, #60
	.cfi_def_cfa_offset 80
	str	r3, [sp, #48]
	str	r2, [sp, #44]
	movs	r1, #1
	cmp	r0, #0
	str	r1, [sp, #32]
	bne	.LBB90_2
	lsls	r1, r1, #12
	adds	r0, r0, r1
.LBB90_2:
	str	r0, [sp, #56]
	ldr	r1, [sp, #80]
	ldm	r1!, {r0, r7}
	ldr	r4, [r1]
	ldr	r6, [r1, #4]
	movs	r2, #15
	ands	r6, r2
	movs	r3, #7
	mvns	r5, r3
	ands	r4, r5
	ands	r7, r2
	str	r7, [sp, #12]
	ands	r0, r5
	str	r0, [sp, #24]
	ldr	r0, [sp, #88]
	str	r0, [sp, #28]
	ldr	r5, [sp, #84]
	adds	r0, r5, #1
	lsrs	r2, r0, #29
	str	r2, [sp, #20]
	lsls	r2, r0, #3
	str	r2, [sp, #52]
	str	r5, [sp, #8]
	subs	r1, #8
	cmp	r0, r5
	str	r6, [sp, #16]
	bhs	.LBB90_9
	mov	r2, r4
	orrs	r2, r6
	bne	.LBB90_4
	b	.LBB90_33
.LBB90_4:
	ldr	r2, .LCPI90_0
	ldr	r5, [sp, #44]
	cmp	r5, r2
	blo	.LBB90_6
	mov	r5, r2
.LBB90_6:
	ldr	r3, [sp, #48]
	cmp	r3, #0
	ldr	r3, [sp, #16]
	beq	.LBB90_8
	mov	r5, r2
.LBB90_8:
	mov	r6, r4
	mov	r2, r3
	b	.LBB90_16
.LBB90_9:
	ldr	r2, .LCPI90_0
	ldr	r5, [sp, #44]
	cmp	r5, r2
	blo	.LBB90_11
	mov	r5, r2
.LBB90_11:
	ldr	r6, [sp, #48]
	cmp	r6, #0
	beq	.LBB90_13
	mov	r5, r2
.LBB90_13:
	movs	r2, #0
	subs	r7, r5, r0
	mov	r7, r2
	sbcs	r7, r2
	bhs	.LBB90_14
	b	.LBB90_40
.LBB90_14:
	ldr	r6, [sp, #56]
	ldr	r7, [sp, #52]
	adds	r6, r6, r7
	mov	r7, r6
	subs	r7, #8
	ldrb	r7, [r7]
	lsls	r7, r7, #31
	bne	.LBB90_15
	b	.LBB90_40
.LBB90_15:
	subs	r6, r6, #4
	ldr	r6, [r6]
	bics	r6, r3
	beq	.LBB90_33
.LBB90_16:
	str	r6, [sp, #36]
	lsrs	r3, r6, #3
	lsls	r6, r2, #29
	adds	r3, r3, r6
	lsrs	r2, r2, #3
	movs	r6, #0
	subs	r3, r5, r3
	str	r6, [sp, #40]
	mov	r3, r6
	sbcs	r3, r2
	bhs	.LBB90_17
	b	.LBB90_40
.LBB90_17:
	movs	r2, #1
	ldr	r3, [sp, #52]
	orrs	r2, r3
	ldr	r3, [sp, #56]
	mov	r5, r0
	ldr	r0, [sp, #36]
	adds	r3, r3, r0
	mov	r0, r5
	subs	r3, #8
	ldr	r3, [r3]
	movs	r5, #6
	bics	r3, r5
	eors	r3, r2
	ldr	r2, [sp, #20]
	orrs	r3, r2
	beq	.LBB90_18
	b	.LBB90_40
.LBB90_18:
	ldr	r2, .LCPI90_0
	ldr	r5, [sp, #44]
	cmp	r5, r2
	blo	.LBB90_20
.LBB90_19:
	mov	r5, r2
.LBB90_20:
	ldr	r3, [sp, #28]
	adds	r3, r3, #1
	ldr	r6, [sp, #48]
	cmp	r6, #0
	beq	.LBB90_22
	mov	r5, r2
.LBB90_22:
	movs	r2, #0
	subs	r5, r5, r3
	mov	r5, r2
	sbcs	r5, r2
	blo	.LBB90_25
	ldr	r5, [sp, #32]
	cmp	r3, #0
	bne	.LBB90_26
.LBB90_24:
	cmp	r5, #0
	beq	.LBB90_27
	b	.LBB90_40
.LBB90_25:
	movs	r2, #1
	ldr	r5, [sp, #32]
	cmp	r3, #0
	beq	.LBB90_24
.LBB90_26:
	mov	r5, r2
	cmp	r5, #0
	bne	.LBB90_40
.LBB90_27:
	lsls	r2, r3, #3
	ldr	r5, [sp, #56]
	adds	r6, r5, r2
	mov	r7, r6
	subs	r7, #8
	ldrb	r5, [r7]
	lsls	r5, r5, #31
	bne	.LBB90_40
	str	r6, [sp, #48]
	lsrs	r5, r3, #29
	ldr	r3, [sp, #40]
	cmp	r3, #0
	mov	r3, r2
	mov	r6, r5
	bne	.LBB90_30
	movs	r3, #1
	orrs	r3, r2
	ldr	r6, [sp, #56]
	str	r4, [sp, #44]
	mov	r4, r0
	ldr	r0, [sp, #36]
	adds	r6, r6, r0
	mov	r0, r4
	ldr	r4, [sp, #44]
	subs	r6, #8
	str	r3, [r6]
	ldr	r3, [sp, #24]
	ldr	r6, [sp, #12]
.LBB90_30:
	str	r6, [sp, #44]
	cmp	r0, #0
	beq	.LBB90_35
	ldr	r5, [sp, #56]
	ldr	r6, [sp, #52]
	adds	r5, r5, r6
	subs	r5, r5, #4
	str	r2, [r5]
	ldr	r6, [sp, #16]
	cmp	r0, #0
	beq	.LBB90_36
.LBB90_32:
	ldr	r0, [sp, #52]
	adds	r0, r0, #1
	b	.LBB90_37
.LBB90_33:
	ldr	r2, [sp, #52]
	ldr	r3, [sp, #24]
	eors	r2, r3
	ldr	r3, [sp, #12]
	ldr	r5, [sp, #20]
	eors	r5, r3
	orrs	r5, r2
	bne	.LBB90_40
	movs	r2, #0
	str	r2, [sp, #36]
	ldr	r2, [sp, #24]
	str	r2, [sp, #52]
	ldr	r2, [sp, #32]
	str	r2, [sp, #40]
	ldr	r2, .LCPI90_0
	ldr	r5, [sp, #44]
	cmp	r5, r2
	bhs	.LBB90_19
	b	.LBB90_20
.LBB90_35:
	mov	r4, r2
	mov	r6, r5
	cmp	r0, #0
	bne	.LBB90_32
.LBB90_36:
	movs	r0, #1
.LBB90_37:
	str	r0, [r7]
	movs	r0, #0
	ldr	r2, [sp, #40]
	cmp	r2, #0
	mov	r2, r0
	bne	.LBB90_39
	ldr	r2, [sp, #36]
.LBB90_39:
	ldr	r5, [sp, #48]
	subs	r5, r5, #4
	str	r2, [r5]
	strb	r0, [r1, #15]
	strb	r0, [r1, #14]
	strb	r0, [r1, #13]
	strb	r6, [r1, #12]
	lsrs	r2, r4, #24
	strb	r2, [r1, #11]
	lsrs	r2, r4, #16
	strb	r2, [r1, #10]
	lsrs	r2, r4, #8
	strb	r2, [r1, #9]
	strb	r4, [r1, #8]
	strb	r0, [r1, #7]
	strb	r0, [r1, #6]
	strb	r0, [r1, #5]
	ldr	r2, [sp, #44]
	strb	r2, [r1, #4]
	lsrs	r2, r3, #24
	strb	r2, [r1, #3]
	lsrs	r2, r3, #16
	strb	r2, [r1, #2]
	lsrs	r2, r3, #8
	strb	r2, [r1, #1]
	strb	r3, [r1]
	add	sp, #60
	pop	{r4, r5, r6, r7, pc}
.LBB90_40:
	ldr	r0, [sp, #8]
	str	r0, [sp]
	ldr	r0, [sp, #28]
	str	r0, [sp, #4]
	ldr	r0, [sp, #56]
	ldr	r2, [sp, #44]
	ldr	r3, [sp, #48]
	bl	ic_raw.table.RawTable.refusal.05a19227735374d3
	add	sp, #60
	pop	{r4, r5, r6, r7, pc}
	.p2align	2
.LCPI90_0:
	.long	536870911
.Lfunc_end90:
	.size	ic_list32_insert_before, .Lfunc_end90-ic_list32_insert_before
	.cfi_endproc
	.section	.text.ic_list32_move_after,"ax",%progbits
	.globl	ic_list32_move_after
	.p2align	2
	.type	ic_list32_move_after,%function
	.code	16
	.thumb_func
ic_list32_move_after:
	.cfi_startproc
	push	{r4, r5, r6, r7, lr}
	.cfi_def_cfa_offset 20
	.cfi_offset lr, -4
	.cfi_offset r7, -8
	.cfi_offset r6, -12
	.cfi_offset r5, -16
	.cfi_offset r4, -20
	sub	sp, #84
	.cfi_def_cfa_offset 104
	str	r2, [sp, #76]
	movs	r2, #1
	cmp	r0, #0
	bne	.LBB91_2
	lsls	r1, r2, #12
	adds	r0, r0, r1
.LBB91_2:
	ldr	r1, [sp, #112]
	adds	r4, r1, #1
	blo	.LBB91_4
	movs	r0, #4
	add	sp, #84
	pop	{r4, r5, r6, r7, pc}
.LBB91_4:
	str	r1, [sp, #36]
	str	r0, [sp, #80]
	ldr	r1, .LCPI91_0
	ldr	r5, [sp, #76]
	cmp	r5, r1
	blo	.LBB91_6
	mov	r5, r1
.LBB91_6:
	str	r2, [sp, #72]
	cmp	r3, #0
	beq	.LBB91_8
	mov	r5, r1
.LBB91_8:
	ldr	r1, [sp, #104]
	str	r1, [sp, #40]
	ldr	r0, [sp, #108]
	str	r0, [sp, #60]
	movs	r1, #0
	str	r5, [sp, #64]
	subs	r2, r5, r4
	mov	r2, r1
	sbcs	r2, r1
	bhs	.LBB91_9
	b	.LBB91_35
.LBB91_9:
	lsls	r7, r4, #3
	ldr	r0, [sp, #80]
	adds	r2, r0, r7
	mov	r5, r2
	subs	r5, #8
	str	r5, [sp, #32]
	ldr	r0, [r5]
	lsls	r6, r0, #31
	bne	.LBB91_10
	b	.LBB91_35
.LBB91_10:
	mov	r6, r7
	movs	r7, #7
	subs	r2, r2, #4
	str	r2, [sp, #28]
	ldr	r2, [r2]
	mov	r5, r2
	str	r7, [sp, #68]
	bics	r5, r7
	str	r5, [sp, #48]
	bne	.LBB91_11
	b	.LBB91_35
.LBB91_11:
	mov	r5, r0
	ldr	r7, [sp, #68]
	bics	r5, r7
	rsbs	r7, r5, #0
	str	r5, [sp, #44]
	adcs	r7, r5
	lsrs	r2, r2, #3
	ldr	r5, [sp, #76]
	subs	r2, r5, r2
	mov	r2, r3
	sbcs	r2, r1
	ldr	r2, [sp, #72]
	blo	.LBB91_13
	mov	r2, r1
.LBB91_13:
	orrs	r7, r2
	beq	.LBB91_14
	b	.LBB91_35
.LBB91_14:
	mov	r2, r6
	lsrs	r7, r4, #29
	movs	r1, #1
	orrs	r2, r1
	ldr	r4, [sp, #80]
	ldr	r5, [sp, #48]
	adds	r4, r4, r5
	subs	r4, #8
	str	r4, [sp, #24]
	ldr	r4, [r4]
	eors	r4, r2
	str	r7, [sp, #56]
	orrs	r4, r7
	lsrs	r5, r0, #3
	movs	r2, #0
	ldr	r0, [sp, #76]
	subs	r5, r0, r5
	mov	r5, r3
	sbcs	r5, r2
	bhs	.LBB91_17
	cmp	r4, #0
	ldr	r2, [sp, #72]
	beq	.LBB91_18
.LBB91_16:
	cmp	r2, #0
	beq	.LBB91_19
	b	.LBB91_35
.LBB91_17:
	mov	r1, r2
	cmp	r4, #0
	ldr	r2, [sp, #72]
	bne	.LBB91_16
.LBB91_18:
	mov	r2, r1
	cmp	r2, #0
	beq	.LBB91_19
	b	.LBB91_35
.LBB91_19:
	mov	r7, r6
	ldr	r0, [sp, #80]
	ldr	r1, [sp, #44]
	adds	r1, r0, r1
	subs	r6, r1, #4
	ldr	r2, [r6]
	eors	r2, r7
	ldr	r0, [sp, #56]
	orrs	r2, r0
	beq	.LBB91_20
	b	.LBB91_35
.LBB91_20:
	ldr	r0, [sp, #60]
	adds	r2, r0, #1
	beq	.LBB91_35
	subs	r1, #8
	ldr	r1, [r1]
	lsls	r1, r1, #31
	beq	.LBB91_35
	ldr	r0, [sp, #64]
	cmp	r0, r2
	blo	.LBB91_35
	lsls	r1, r2, #3
	ldr	r0, [sp, #80]
	str	r1, [sp, #52]
	adds	r0, r0, r1
	subs	r0, #8
	str	r0, [sp, #20]
	ldr	r5, [r0]
	lsls	r1, r5, #31
	beq	.LBB91_35
	lsrs	r1, r5, #3
	ldr	r0, [sp, #64]
	cmp	r0, r1
	blo	.LBB91_26
	movs	r1, #0
	ldr	r0, [sp, #72]
	ldr	r4, [sp, #68]
	bics	r5, r4
	bne	.LBB91_27
	b	.LBB91_28
.LBB91_26:
	movs	r1, #1
	ldr	r0, [sp, #72]
	ldr	r4, [sp, #68]
	bics	r5, r4
	beq	.LBB91_28
.LBB91_27:
	mov	r0, r1
.LBB91_28:
	cmp	r0, #0
	bne	.LBB91_35
	lsrs	r1, r2, #29
	ldr	r0, [sp, #80]
	adds	r2, r0, r5
	subs	r0, r2, #4
	str	r0, [sp, #72]
	ldr	r4, [r0]
	ldr	r0, [sp, #52]
	eors	r4, r0
	orrs	r4, r1
	bne	.LBB91_35
	subs	r2, #8
	ldr	r2, [r2]
	lsls	r2, r2, #31
	beq	.LBB91_35
	ldr	r0, [sp, #52]
	eors	r0, r7
	ldr	r2, [sp, #56]
	eors	r1, r2
	orrs	r1, r0
	movs	r0, #0
	cmp	r1, #0
	beq	.LBB91_34
	mov	r1, r7
	eors	r1, r5
	orrs	r1, r2
	beq	.LBB91_34
	str	r6, [sp, #64]
	ldr	r6, [sp, #40]
	ldr	r1, [r6]
	str	r1, [sp, #80]
	ldr	r3, [r6, #4]
	str	r7, [sp, #60]
	ldr	r7, [r6, #8]
	ldr	r2, [r6, #12]
	movs	r4, #15
	ldr	r1, [sp, #68]
	mvns	r1, r1
	ands	r2, r4
	str	r2, [sp, #68]
	ands	r7, r1
	ands	r3, r4
	str	r3, [sp, #76]
	ldr	r2, [sp, #80]
	ands	r2, r1
	str	r2, [sp, #80]
	movs	r1, #1
	ldr	r2, [sp, #44]
	orrs	r2, r1
	ldr	r3, [sp, #24]
	str	r2, [r3]
	ldr	r2, [sp, #48]
	ldr	r3, [sp, #64]
	str	r2, [r3]
	ldr	r4, [sp, #60]
	mov	r2, r4
	orrs	r2, r1
	ldr	r3, [sp, #20]
	str	r2, [r3]
	ldr	r2, [sp, #72]
	str	r4, [r2]
	orrs	r5, r1
	ldr	r1, [sp, #32]
	str	r5, [r1]
	ldr	r1, [sp, #28]
	ldr	r2, [sp, #52]
	str	r2, [r1]
	strb	r0, [r6, #15]
	strb	r0, [r6, #14]
	strb	r0, [r6, #13]
	ldr	r1, [sp, #68]
	strb	r1, [r6, #12]
	lsrs	r1, r7, #24
	strb	r1, [r6, #11]
	lsrs	r1, r7, #16
	strb	r1, [r6, #10]
	lsrs	r1, r7, #8
	strb	r1, [r6, #9]
	strb	r7, [r6, #8]
	strb	r0, [r6, #7]
	strb	r0, [r6, #6]
	strb	r0, [r6, #5]
	ldr	r1, [sp, #76]
	strb	r1, [r6, #4]
	ldr	r2, [sp, #80]
	lsrs	r1, r2, #24
	strb	r1, [r6, #3]
	lsrs	r1, r2, #16
	strb	r1, [r6, #2]
	lsrs	r1, r2, #8
	strb	r1, [r6, #1]
	strb	r2, [r6]
.LBB91_34:
	add	sp, #84
	pop	{r4, r5, r6, r7, pc}
.LBB91_35:
	movs	r1, #0
	ldr	r2, [sp, #40]
	str	r2, [sp]
	str	r1, [sp, #4]
	ldr	r0, [sp, #60]
	str	r0, [sp, #8]
	ldr	r0, [sp, #36]
	str	r0, [sp, #12]
	ldr	r0, [sp, #80]
	ldr	r2, [sp, #76]
	bl	ic_raw.move_calls.move_slow.55ebd757a04f39fd
	add	sp, #84
	pop	{r4, r5, r6, r7, pc}
	.p2align	2
.LCPI91_0:
	.long	536870911
.Lfunc_end91:
	.size	ic_list32_move_after, .Lfunc_end91-ic_list32_move_after
	.cfi_endproc
	.section	.text.ic_list32_move_before,"ax",%progbits
	.globl	ic_list32_move_before
	.p2align	2
	.type	ic_list32_move_before,%function
	.code	16
	.thumb_func
ic_list32_move_before:
	.cfi_startproc
	push	{r4, r5, r6, r7, lr}
	.cfi_def_cfa_offset 20
	.cfi_offset lr, -4
	.cfi_offset r7, -8
	.cfi_offset r6, -12
	.cfi_offset r5, -16
	.cfi_offset r4, -20
	sub	sp, #84
	.cfi_def_cfa_offset 104
	str	r3, [sp, #76]
	movs	r7, #1
	cmp	r0, #0
	bne	.LBB92_2
	lsls	r1, r7, #12
	adds	r0, r0, r1
.LBB92_2:
	ldr	r1, [sp, #112]
	adds	r4, r1, #1
	blo	.LBB92_4
	movs	r0, #4
	add	sp, #84
	pop	{r4, r5, r6, r7, pc}
.LBB92_4:
	str	r1, [sp, #36]
	ldr	r1, .LCPI92_0
	cmp	r2, r1
	mov	r3, r2
	blo	.LBB92_6
	mov	r3, r1
.LBB92_6:
	str	r0, [sp, #80]
	str	r2, [sp, #68]
	ldr	r0, [sp, #76]
	cmp	r0, #0
	beq	.LBB92_8
	mov	r3, r1
.LBB92_8:
	ldr	r1, [sp, #104]
	str	r1, [sp, #40]
	ldr	r0, [sp, #108]
	str	r0, [sp, #56]
	movs	r6, #0
	str	r3, [sp, #60]
	subs	r1, r3, r4
	mov	r1, r6
	sbcs	r1, r6
	bhs	.LBB92_9
	b	.LBB92_34
.LBB92_9:
	lsls	r1, r4, #3
	str	r1, [sp, #72]
	ldr	r0, [sp, #80]
	adds	r1, r0, r1
	mov	r2, r1
	subs	r2, #8
	str	r2, [sp, #32]
	ldr	r0, [r2]
	lsls	r2, r0, #31
	bne	.LBB92_10
	b	.LBB92_34
.LBB92_10:
	movs	r3, #7
	subs	r1, r1, #4
	str	r1, [sp, #28]
	ldr	r2, [r1]
	mov	r1, r2
	str	r3, [sp, #64]
	bics	r1, r3
	str	r1, [sp, #48]
	bne	.LBB92_11
	b	.LBB92_34
.LBB92_11:
	mov	r3, r0
	ldr	r1, [sp, #64]
	bics	r3, r1
	rsbs	r1, r3, #0
	str	r3, [sp, #44]
	adcs	r1, r3
	lsrs	r2, r2, #3
	mov	r3, r7
	ldr	r5, [sp, #68]
	subs	r2, r5, r2
	ldr	r2, [sp, #76]
	sbcs	r2, r6
	mov	r2, r7
	blo	.LBB92_13
	mov	r2, r6
.LBB92_13:
	orrs	r1, r2
	beq	.LBB92_14
	b	.LBB92_34
.LBB92_14:
	mov	r5, r3
	lsrs	r7, r4, #29
	movs	r4, #1
	ldr	r1, [sp, #72]
	orrs	r1, r4
	ldr	r2, [sp, #48]
	ldr	r3, [sp, #80]
	adds	r2, r3, r2
	subs	r2, #8
	str	r2, [sp, #24]
	ldr	r6, [r2]
	eors	r6, r1
	str	r7, [sp, #52]
	orrs	r6, r7
	lsrs	r2, r0, #3
	movs	r1, #0
	ldr	r3, [sp, #68]
	subs	r2, r3, r2
	ldr	r2, [sp, #76]
	sbcs	r2, r1
	bhs	.LBB92_17
	cmp	r6, #0
	mov	r1, r5
	beq	.LBB92_18
.LBB92_16:
	cmp	r1, #0
	beq	.LBB92_19
	b	.LBB92_34
.LBB92_17:
	mov	r4, r1
	cmp	r6, #0
	mov	r1, r5
	bne	.LBB92_16
.LBB92_18:
	mov	r1, r4
	cmp	r1, #0
	beq	.LBB92_19
	b	.LBB92_34
.LBB92_19:
	ldr	r0, [sp, #80]
	ldr	r1, [sp, #44]
	adds	r3, r0, r1
	subs	r0, r3, #4
	str	r0, [sp, #20]
	ldr	r1, [r0]
	ldr	r2, [sp, #72]
	eors	r1, r2
	ldr	r0, [sp, #52]
	orrs	r1, r0
	bne	.LBB92_34
	ldr	r0, [sp, #56]
	adds	r6, r0, #1
	beq	.LBB92_34
	subs	r3, #8
	ldr	r1, [r3]
	lsls	r1, r1, #31
	beq	.LBB92_34
	ldr	r0, [sp, #60]
	cmp	r0, r6
	blo	.LBB92_34
	lsls	r3, r6, #3
	ldr	r0, [sp, #80]
	adds	r1, r0, r3
	mov	r2, r1
	subs	r2, #8
	ldrb	r2, [r2]
	lsls	r2, r2, #31
	beq	.LBB92_34
	subs	r2, r1, #4
	ldr	r4, [r2]
	lsrs	r1, r4, #3
	ldr	r0, [sp, #60]
	cmp	r0, r1
	blo	.LBB92_26
	movs	r1, #0
	ldr	r0, [sp, #64]
	bics	r4, r0
	bne	.LBB92_27
	b	.LBB92_28
.LBB92_26:
	movs	r1, #1
	ldr	r0, [sp, #64]
	bics	r4, r0
	beq	.LBB92_28
.LBB92_27:
	mov	r5, r1
.LBB92_28:
	cmp	r5, #0
	bne	.LBB92_34
	lsrs	r7, r6, #29
	movs	r0, #1
	mov	r5, r3
	str	r0, [sp, #60]
	orrs	r5, r0
	ldr	r0, [sp, #80]
	adds	r6, r0, r4
	subs	r6, #8
	ldr	r1, [r6]
	eors	r1, r5
	orrs	r1, r7
	bne	.LBB92_34
	str	r5, [sp, #76]
	str	r2, [sp, #80]
	ldr	r5, [sp, #72]
	mov	r1, r5
	eors	r1, r4
	movs	r0, #0
	ldr	r2, [sp, #52]
	orrs	r1, r2
	beq	.LBB92_33
	eors	r3, r5
	eors	r7, r2
	orrs	r7, r3
	beq	.LBB92_33
	ldr	r5, [sp, #40]
	ldr	r3, [r5]
	ldr	r2, [r5, #4]
	ldr	r7, [r5, #8]
	ldr	r0, [r5, #12]
	movs	r1, #15
	str	r1, [sp, #68]
	ldr	r1, [sp, #64]
	mvns	r1, r1
	str	r1, [sp, #56]
	ldr	r1, [sp, #68]
	ands	r0, r1
	str	r0, [sp, #64]
	ldr	r0, [sp, #56]
	ands	r7, r0
	ands	r2, r1
	str	r2, [sp, #68]
	ands	r3, r0
	ldr	r0, [sp, #44]
	ldr	r2, [sp, #60]
	orrs	r0, r2
	ldr	r1, [sp, #24]
	str	r0, [r1]
	ldr	r0, [sp, #48]
	ldr	r1, [sp, #20]
	str	r0, [r1]
	ldr	r1, [sp, #72]
	mov	r0, r1
	orrs	r0, r2
	str	r0, [r6]
	ldr	r0, [sp, #80]
	str	r1, [r0]
	ldr	r0, [sp, #32]
	ldr	r1, [sp, #76]
	str	r1, [r0]
	ldr	r0, [sp, #28]
	str	r4, [r0]
	movs	r0, #0
	strb	r0, [r5, #15]
	strb	r0, [r5, #14]
	strb	r0, [r5, #13]
	ldr	r1, [sp, #64]
	strb	r1, [r5, #12]
	lsrs	r1, r7, #24
	strb	r1, [r5, #11]
	lsrs	r1, r7, #16
	strb	r1, [r5, #10]
	lsrs	r1, r7, #8
	strb	r1, [r5, #9]
	strb	r7, [r5, #8]
	strb	r0, [r5, #7]
	strb	r0, [r5, #6]
	strb	r0, [r5, #5]
	ldr	r1, [sp, #68]
	strb	r1, [r5, #4]
	lsrs	r1, r3, #24
	strb	r1, [r5, #3]
	lsrs	r1, r3, #16
	strb	r1, [r5, #2]
	lsrs	r1, r3, #8
	strb	r1, [r5, #1]
	strb	r3, [r5]
.LBB92_33:
	add	sp, #84
	pop	{r4, r5, r6, r7, pc}
.LBB92_34:
	movs	r1, #1
	ldr	r2, [sp, #40]
	str	r2, [sp]
	str	r1, [sp, #4]
	ldr	r0, [sp, #56]
	str	r0, [sp, #8]
	ldr	r1, [sp, #36]
	str	r1, [sp, #12]
	ldr	r0, [sp, #80]
	ldr	r2, [sp, #68]
	ldr	r3, [sp, #76]
	bl	ic_raw.move_calls.move_slow.55ebd757a04f39fd
	add	sp, #84
	pop	{r4, r5, r6, r7, pc}
	.p2align	2
.LCPI92_0:
	.long	536870911
.Lfunc_end92:
	.size	ic_list32_move_before, .Lfunc_end92-ic_list32_move_before
	.cfi_endproc
	.section	.text.ic_list32_move_to_back,"ax",%progbits
	.globl	ic_list32_move_to_back
	.p2align	2
	.type	ic_list32_move_to_back,%function
	.code	16
	.thumb_func
ic_list32_move_to_back:
	.cfi_startproc
	push	{r4, r5, r6, r7, lr}
	.cfi_def_cfa_offset 20
	.cfi_offset lr, -4
	.cfi_offset r7, -8
	.cfi_offset r6, -12
	.cfi_offset r5, -16
	.cfi_offset r4, -20
	sub	sp, #84
	.cfi_def_cfa_offset 104
	mov	r7, r3
	movs	r4, #1
	cmp	r0, #0
	bne	.LBB93_2
	lsls	r1, r4, #12
	adds	r0, r0, r1
.LBB93_2:
	ldr	r1, [sp, #108]
	adds	r3, r1, #1
	blo	.LBB93_5
	movs	r1, #4
.LBB93_4:
	mov	r0, r1
	add	sp, #84
	pop	{r4, r5, r6, r7, pc}
.LBB93_5:
	str	r1, [sp, #48]
	ldr	r1, .LCPI93_0
	cmp	r2, r1
	mov	r5, r2
	blo	.LBB93_7
	mov	r5, r1
.LBB93_7:
	str	r0, [sp, #80]
	str	r2, [sp, #68]
	cmp	r7, #0
	beq	.LBB93_9
	mov	r5, r1
.LBB93_9:
	ldr	r6, [sp, #104]
	movs	r0, #0
	str	r5, [sp, #44]
	subs	r1, r5, r3
	mov	r1, r0
	sbcs	r1, r0
	blo	.LBB93_20
	str	r4, [sp, #52]
	str	r7, [sp, #60]
	movs	r4, #7
	ldr	r5, [r6, #8]
	str	r6, [sp, #56]
	ldr	r1, [r6, #12]
	movs	r7, #15
	mvns	r6, r4
	lsrs	r2, r3, #29
	str	r2, [sp, #72]
	lsls	r3, r3, #3
	str	r7, [sp, #36]
	ands	r1, r7
	str	r6, [sp, #40]
	ands	r5, r6
	str	r5, [sp, #64]
	ldr	r2, [sp, #80]
	str	r3, [sp, #76]
	adds	r5, r2, r3
	mov	r2, r5
	subs	r2, #8
	ldr	r3, [r2]
	lsls	r6, r3, #31
	beq	.LBB93_15
	subs	r6, r5, #4
	str	r6, [sp, #28]
	ldr	r7, [r6]
	mov	r6, r7
	bics	r6, r4
	str	r6, [sp, #32]
	beq	.LBB93_15
	str	r2, [sp, #20]
	mov	r2, r3
	bics	r2, r4
	rsbs	r6, r2, #0
	str	r2, [sp, #24]
	adcs	r6, r2
	lsrs	r7, r7, #3
	ldr	r2, [sp, #68]
	subs	r7, r2, r7
	ldr	r7, [sp, #60]
	sbcs	r7, r0
	ldr	r7, [sp, #52]
	blo	.LBB93_14
	mov	r7, r0
.LBB93_14:
	orrs	r6, r7
	beq	.LBB93_21
.LBB93_15:
	ldr	r0, [sp, #76]
	ldr	r2, [sp, #64]
	eors	r2, r0
	ldr	r0, [sp, #72]
	eors	r1, r0
	orrs	r1, r2
	ldr	r6, [sp, #56]
	ldr	r7, [sp, #60]
	bne	.LBB93_20
	cmp	r3, #1
	bne	.LBB93_20
	subs	r1, r5, #4
	ldr	r1, [r1]
	mov	r2, r1
	bics	r2, r4
	beq	.LBB93_20
	lsrs	r3, r1, #3
	movs	r1, #0
	ldr	r0, [sp, #68]
	subs	r3, r0, r3
	mov	r3, r7
	sbcs	r3, r1
	blo	.LBB93_20
	movs	r3, #1
	ldr	r4, [sp, #76]
	orrs	r4, r3
	ldr	r0, [sp, #80]
	adds	r2, r0, r2
	subs	r2, #8
	ldr	r2, [r2]
	eors	r2, r4
	ldr	r0, [sp, #72]
	orrs	r2, r0
	beq	.LBB93_4
.LBB93_20:
	movs	r1, #1
	str	r6, [sp]
	str	r1, [sp, #4]
	ldr	r0, [sp, #48]
	str	r0, [sp, #8]
	ldr	r0, [sp, #80]
	ldr	r2, [sp, #68]
	mov	r3, r7
	bl	ic_raw.move_calls.move_to_end_slow.55ebd757a04f39fd
	mov	r1, r0
	mov	r0, r1
	add	sp, #84
	pop	{r4, r5, r6, r7, pc}
.LBB93_21:
	movs	r2, #1
	ldr	r5, [sp, #76]
	orrs	r5, r2
	ldr	r0, [sp, #80]
	ldr	r4, [sp, #32]
	adds	r0, r0, r4
	subs	r0, #8
	str	r0, [sp, #16]
	ldr	r4, [r0]
	eors	r4, r5
	ldr	r0, [sp, #72]
	orrs	r4, r0
	lsrs	r5, r3, #3
	movs	r3, #0
	ldr	r0, [sp, #68]
	subs	r5, r0, r5
	ldr	r7, [sp, #60]
	mov	r5, r7
	sbcs	r5, r3
	blo	.LBB93_23
	mov	r2, r3
.LBB93_23:
	cmp	r4, #0
	ldr	r5, [sp, #52]
	mov	r3, r5
	ldr	r6, [sp, #56]
	bne	.LBB93_25
	mov	r3, r2
.LBB93_25:
	cmp	r3, #0
	bne	.LBB93_20
	ldr	r0, [sp, #80]
	ldr	r2, [sp, #24]
	adds	r2, r0, r2
	subs	r0, r2, #4
	str	r0, [sp, #12]
	ldr	r3, [r0]
	ldr	r0, [sp, #76]
	eors	r3, r0
	ldr	r0, [sp, #72]
	orrs	r3, r0
	bne	.LBB93_20
	subs	r2, #8
	ldr	r2, [r2]
	lsls	r2, r2, #31
	beq	.LBB93_20
	ldr	r0, [sp, #64]
	lsrs	r2, r0, #3
	lsls	r3, r1, #29
	adds	r3, r2, r3
	lsrs	r4, r1, #3
	movs	r2, #0
	ldr	r0, [sp, #44]
	subs	r3, r0, r3
	mov	r3, r2
	sbcs	r3, r4
	blo	.LBB93_31
	ldr	r0, [sp, #64]
	orrs	r1, r0
	bne	.LBB93_32
.LBB93_30:
	cmp	r5, #0
	beq	.LBB93_33
	b	.LBB93_20
.LBB93_31:
	movs	r2, #1
	ldr	r0, [sp, #64]
	orrs	r1, r0
	beq	.LBB93_30
.LBB93_32:
	mov	r5, r2
	cmp	r5, #0
	bne	.LBB93_20
.LBB93_33:
	ldr	r0, [sp, #80]
	ldr	r1, [sp, #64]
	adds	r1, r0, r1
	subs	r1, #8
	ldr	r2, [r1]
	cmp	r2, #1
	bne	.LBB93_20
	ldm	r6!, {r0, r2}
	ldr	r3, [sp, #36]
	ands	r2, r3
	ldr	r3, [sp, #40]
	ands	r0, r3
	movs	r3, #1
	ldr	r4, [sp, #24]
	orrs	r4, r3
	ldr	r5, [sp, #16]
	str	r4, [r5]
	ldr	r4, [sp, #32]
	ldr	r5, [sp, #12]
	str	r4, [r5]
	ldr	r5, [sp, #76]
	mov	r4, r5
	orrs	r4, r3
	str	r4, [r1]
	ldr	r1, [sp, #20]
	str	r3, [r1]
	ldr	r1, [sp, #64]
	ldr	r3, [sp, #28]
	str	r1, [r3]
	movs	r1, #0
	strb	r1, [r6, #7]
	strb	r1, [r6, #6]
	strb	r1, [r6, #5]
	ldr	r3, [sp, #72]
	strb	r3, [r6, #4]
	lsrs	r3, r5, #24
	strb	r3, [r6, #3]
	lsrs	r3, r5, #16
	strb	r3, [r6, #2]
	lsrs	r3, r5, #8
	strb	r3, [r6, #1]
	strb	r5, [r6]
	subs	r6, #8
	strb	r1, [r6, #7]
	strb	r1, [r6, #6]
	strb	r1, [r6, #5]
	strb	r2, [r6, #4]
	lsrs	r2, r0, #24
	strb	r2, [r6, #3]
	lsrs	r2, r0, #16
	strb	r2, [r6, #2]
	lsrs	r2, r0, #8
	strb	r2, [r6, #1]
	strb	r0, [r6]
	mov	r0, r1
	add	sp, #84
	pop	{r4, r5, r6, r7, pc}
	.p2align	2
.LCPI93_0:
	.long	536870911
.Lfunc_end93:
	.size	ic_list32_move_to_back, .Lfunc_end93-ic_list32_move_to_back
	.cfi_endproc
	.section	.text.ic_list32_move_to_front,"ax",%progbits
	.globl	ic_list32_move_to_front
	.p2align	2
	.type	ic_list32_move_to_front,%function
	.code	16
	.thumb_func
ic_list32_move_to_front:
	.cfi_startproc
	push	{r4, r5, r6, r7, lr}
	.cfi_def_cfa_offset 20
	.cfi_offset lr, -4
	.cfi_offset r7, -8
	.cfi_offset r6, -12
	.cfi_offset r5, -16
	.cfi_offset r4, -20
	sub	sp, #92
	.cfi_def_cfa_offset 112
	movs	r5, #1
	cmp	r0, #0
	bne	.LBB94_2
	lsls	r1, r5, #12
	adds	r0, r0, r1
.LBB94_2:
	ldr	r1, [sp, #116]
	adds	r4, r1, #1
	blo	.LBB94_5
	movs	r1, #4
.LBB94_4:
	mov	r0, r1
	add	sp, #92
	pop	{r4, r5, r6, r7, pc}
.LBB94_5:
	str	r1, [sp, #52]
	ldr	r1, .LCPI94_0
	cmp	r2, r1
	mov	r7, r2
	blo	.LBB94_7
	mov	r7, r1
.LBB94_7:
	str	r0, [sp, #88]
	str	r2, [sp, #76]
	str	r3, [sp, #80]
	cmp	r3, #0
	beq	.LBB94_9
	mov	r7, r1
.LBB94_9:
	ldr	r6, [sp, #112]
	movs	r0, #0
	subs	r1, r7, r4
	mov	r1, r0
	sbcs	r1, r0
	bhs	.LBB94_10
	b	.LBB94_37
.LBB94_10:
	str	r7, [sp, #44]
	str	r5, [sp, #56]
	movs	r1, #7
	movs	r7, #15
	str	r1, [sp, #72]
	mvns	r5, r1
	ldr	r2, [r6]
	str	r6, [sp, #60]
	ldr	r3, [r6, #4]
	lsrs	r1, r4, #29
	str	r1, [sp, #84]
	lsls	r4, r4, #3
	str	r7, [sp, #32]
	ands	r3, r7
	mov	r7, r2
	str	r5, [sp, #36]
	ands	r7, r5
	ldr	r1, [sp, #88]
	adds	r1, r1, r4
	str	r1, [sp, #68]
	subs	r1, #8
	str	r1, [sp, #40]
	ldr	r5, [r1]
	lsls	r2, r5, #31
	str	r4, [sp, #64]
	bne	.LBB94_11
	b	.LBB94_30
.LBB94_11:
	ldr	r1, [sp, #68]
	subs	r1, r1, #4
	str	r1, [sp, #24]
	ldr	r6, [r1]
	mov	r1, r6
	str	r2, [sp, #48]
	ldr	r2, [sp, #72]
	bics	r1, r2
	ldr	r2, [sp, #48]
	str	r1, [sp, #28]
	bne	.LBB94_12
	b	.LBB94_30
.LBB94_12:
	mov	r4, r5
	ldr	r1, [sp, #72]
	bics	r4, r1
	rsbs	r1, r4, #0
	str	r4, [sp, #20]
	adcs	r1, r4
	lsrs	r6, r6, #3
	ldr	r4, [sp, #76]
	subs	r6, r4, r6
	ldr	r6, [sp, #80]
	sbcs	r6, r0
	ldr	r6, [sp, #56]
	blo	.LBB94_14
	mov	r6, r0
.LBB94_14:
	orrs	r1, r6
	ldr	r4, [sp, #64]
	beq	.LBB94_15
	b	.LBB94_30
.LBB94_15:
	movs	r0, #1
	mov	r1, r4
	str	r0, [sp, #16]
	orrs	r1, r0
	ldr	r0, [sp, #88]
	ldr	r2, [sp, #28]
	adds	r0, r0, r2
	subs	r0, #8
	str	r0, [sp, #12]
	ldr	r2, [r0]
	eors	r2, r1
	ldr	r1, [sp, #84]
	orrs	r2, r1
	lsrs	r6, r5, #3
	movs	r1, #0
	ldr	r4, [sp, #76]
	subs	r6, r4, r6
	ldr	r6, [sp, #80]
	sbcs	r6, r1
	bhs	.LBB94_18
	cmp	r2, #0
	ldr	r1, [sp, #56]
	beq	.LBB94_19
.LBB94_17:
	cmp	r1, #0
	ldr	r4, [sp, #64]
	ldr	r2, [sp, #48]
	beq	.LBB94_20
	b	.LBB94_30
.LBB94_18:
	str	r1, [sp, #16]
	cmp	r2, #0
	ldr	r1, [sp, #56]
	bne	.LBB94_17
.LBB94_19:
	ldr	r1, [sp, #16]
	cmp	r1, #0
	ldr	r4, [sp, #64]
	ldr	r2, [sp, #48]
	bne	.LBB94_30
.LBB94_20:
	ldr	r0, [sp, #88]
	ldr	r1, [sp, #20]
	adds	r1, r0, r1
	subs	r0, r1, #4
	ldr	r2, [r0]
	eors	r2, r4
	ldr	r6, [sp, #84]
	orrs	r2, r6
	ldr	r2, [sp, #48]
	bne	.LBB94_30
	subs	r1, #8
	ldr	r1, [r1]
	lsls	r1, r1, #31
	beq	.LBB94_30
	str	r0, [sp, #72]
	lsrs	r1, r7, #3
	lsls	r2, r3, #29
	adds	r2, r1, r2
	lsrs	r4, r3, #3
	movs	r1, #0
	ldr	r0, [sp, #44]
	subs	r2, r0, r2
	mov	r2, r1
	sbcs	r2, r4
	bhs	.LBB94_24
	movs	r1, #1
.LBB94_24:
	ldr	r2, [sp, #56]
	orrs	r3, r7
	ldr	r6, [sp, #60]
	ldr	r4, [sp, #64]
	beq	.LBB94_26
	mov	r2, r1
.LBB94_26:
	cmp	r2, #0
	bne	.LBB94_37
	ldr	r0, [sp, #88]
	adds	r2, r0, r7
	subs	r0, r2, #4
	ldr	r3, [r0]
	cmp	r3, #0
	bne	.LBB94_37
	subs	r2, #8
	ldr	r2, [r2]
	lsls	r2, r2, #31
	beq	.LBB94_37
	str	r0, [sp, #88]
	ldr	r0, [r6, #8]
	ldr	r2, [r6, #12]
	ldr	r3, [sp, #32]
	ands	r2, r3
	ldr	r3, [sp, #36]
	ands	r0, r3
	movs	r3, #1
	ldr	r5, [sp, #20]
	orrs	r5, r3
	ldr	r1, [sp, #12]
	str	r5, [r1]
	ldr	r5, [sp, #28]
	ldr	r1, [sp, #72]
	str	r5, [r1]
	ldr	r1, [sp, #88]
	str	r4, [r1]
	orrs	r7, r3
	ldr	r1, [sp, #40]
	str	r7, [r1]
	movs	r1, #0
	ldr	r3, [sp, #24]
	str	r1, [r3]
	strb	r1, [r6, #15]
	strb	r1, [r6, #14]
	strb	r1, [r6, #13]
	strb	r2, [r6, #12]
	lsrs	r2, r0, #24
	strb	r2, [r6, #11]
	lsrs	r2, r0, #16
	strb	r2, [r6, #10]
	lsrs	r2, r0, #8
	strb	r2, [r6, #9]
	strb	r0, [r6, #8]
	strb	r1, [r6, #7]
	strb	r1, [r6, #6]
	strb	r1, [r6, #5]
	ldr	r0, [sp, #84]
	strb	r0, [r6, #4]
	lsrs	r0, r4, #24
	strb	r0, [r6, #3]
	lsrs	r0, r4, #16
	strb	r0, [r6, #2]
	lsrs	r0, r4, #8
	strb	r0, [r6, #1]
	strb	r4, [r6]
	mov	r0, r1
	add	sp, #92
	pop	{r4, r5, r6, r7, pc}
.LBB94_30:
	eors	r7, r4
	ldr	r1, [sp, #84]
	eors	r3, r1
	orrs	r3, r7
	ldr	r6, [sp, #60]
	bne	.LBB94_37
	ldr	r0, [sp, #68]
	subs	r1, r0, #4
	ldr	r1, [r1]
	cmp	r1, #0
	bne	.LBB94_37
	cmp	r2, #0
	beq	.LBB94_37
	mov	r2, r5
	ldr	r0, [sp, #72]
	bics	r2, r0
	beq	.LBB94_37
	lsrs	r3, r5, #3
	movs	r1, #0
	ldr	r4, [sp, #76]
	subs	r3, r4, r3
	ldr	r4, [sp, #64]
	ldr	r3, [sp, #80]
	sbcs	r3, r1
	blo	.LBB94_37
	ldr	r0, [sp, #88]
	adds	r2, r0, r2
	subs	r3, r2, #4
	ldr	r3, [r3]
	eors	r4, r3
	ldr	r3, [sp, #84]
	orrs	r4, r3
	bne	.LBB94_37
	subs	r2, #8
	ldr	r2, [r2]
	lsls	r2, r2, #31
	beq	.LBB94_37
	b	.LBB94_4
.LBB94_37:
	movs	r1, #0
	str	r6, [sp]
	str	r1, [sp, #4]
	ldr	r1, [sp, #52]
	str	r1, [sp, #8]
	ldr	r0, [sp, #88]
	ldr	r2, [sp, #76]
	ldr	r3, [sp, #80]
	bl	ic_raw.move_calls.move_to_end_slow.55ebd757a04f39fd
	mov	r1, r0
	mov	r0, r1
	add	sp, #92
	pop	{r4, r5, r6, r7, pc}
	.p2align	2
.LCPI94_0:
	.long	536870911
.Lfunc_end94:
	.size	ic_list32_move_to_front, .Lfunc_end94-ic_list32_move_to_front
	.cfi_endproc
	.section	.text.ic_list32_pop_back,"ax",%progbits
	.globl	ic_list32_pop_back
	.p2align	2
	.type	ic_list32_pop_back,%function
	.code	16
	.thumb_func
ic_list32_pop_back:
	.cfi_startproc
	push	{r4, r5, r6, r7, lr}
	.cfi_def_cfa_offset 20
	.cfi_offset lr, -4
	.cfi_offset r7, -8
	.cfi_offset r6, -12
	.cfi_offset r5, -16
	.cfi_offset r4, -20
	sub	sp, #44
	.cfi_def_cfa_offset 64
	str	r2, [sp, #40]
	mov	r4, r0
	ldr	r0, [sp, #64]
	ldr	r6, [r0, #8]
	ldr	r7, [r0, #12]
	movs	r1, #15
	str	r7, [sp, #16]
	str	r1, [sp, #24]
	ands	r7, r1
	movs	r1, #7
	str	r1, [sp, #28]
	mvns	r1, r1
	str	r6, [sp, #12]
	str	r1, [sp, #20]
	ands	r6, r1
	mov	r1, r6
	orrs	r1, r7
	movs	r2, #1
	cmp	r4, #0
	str	r2, [sp, #32]
	bne	.LBB95_2
	lsls	r2, r2, #12
	adds	r4, r4, r2
.LBB95_2:
	str	r4, [sp, #36]
	cmp	r1, #0
	beq	.LBB95_16
	ldr	r1, .LCPI95_0
	ldr	r2, [sp, #40]
	cmp	r2, r1
	blo	.LBB95_5
	str	r1, [sp, #40]
.LBB95_5:
	cmp	r3, #0
	beq	.LBB95_7
	str	r1, [sp, #40]
.LBB95_7:
	lsrs	r1, r6, #3
	lsls	r2, r7, #29
	adds	r2, r1, r2
	lsrs	r3, r7, #3
	movs	r1, #0
	ldr	r5, [sp, #40]
	subs	r2, r5, r2
	mov	r2, r1
	sbcs	r2, r3
	blo	.LBB95_16
	ldr	r2, [sp, #36]
	adds	r2, r2, r6
	mov	r3, r2
	subs	r3, #8
	str	r3, [sp, #8]
	ldr	r3, [r3]
	movs	r4, #6
	str	r4, [sp, #4]
	bics	r3, r4
	cmp	r3, #1
	bne	.LBB95_16
	ldm	r0!, {r3, r4}
	ldr	r5, [sp, #24]
	ands	r4, r5
	ldr	r5, [sp, #20]
	ands	r3, r5
	subs	r2, r2, #4
	ldr	r5, [r2]
	ldr	r2, [sp, #28]
	subs	r0, #8
	bics	r5, r2
	beq	.LBB95_13
	str	r4, [sp, #28]
	lsrs	r2, r5, #3
	mov	r4, r7
	ldr	r7, [sp, #40]
	cmp	r7, r2
	blo	.LBB95_16
	ldr	r2, [sp, #32]
	orrs	r6, r2
	ldr	r2, [sp, #36]
	adds	r2, r2, r5
	subs	r2, #8
	str	r4, [sp, #40]
	ldr	r4, [r2]
	ldr	r7, [sp, #4]
	bics	r4, r7
	eors	r4, r6
	ldr	r6, [sp, #40]
	orrs	r4, r6
	ldr	r4, [sp, #16]
	bne	.LBB95_16
	ldr	r6, [sp, #32]
	str	r6, [r2]
	ldr	r2, [sp, #12]
	lsrs	r2, r2, #3
	lsls	r4, r4, #29
	adds	r6, r2, r4
	ldr	r4, [sp, #28]
	b	.LBB95_15
.LBB95_13:
	eors	r3, r6
	eors	r4, r7
	orrs	r4, r3
	bne	.LBB95_16
	ldr	r2, [sp, #12]
	lsrs	r2, r2, #3
	ldr	r3, [sp, #16]
	lsls	r3, r3, #29
	adds	r6, r2, r3
	movs	r3, #0
	mov	r4, r3
.LBB95_15:
	ldr	r7, [sp, #68]
	ldr	r2, [sp, #8]
	str	r1, [r2]
	strb	r1, [r0, #15]
	strb	r1, [r0, #14]
	strb	r1, [r0, #13]
	strb	r1, [r0, #12]
	lsrs	r2, r5, #24
	strb	r2, [r0, #11]
	lsrs	r2, r5, #16
	strb	r2, [r0, #10]
	lsrs	r2, r5, #8
	strb	r2, [r0, #9]
	strb	r5, [r0, #8]
	strb	r1, [r0, #7]
	strb	r1, [r0, #6]
	strb	r1, [r0, #5]
	strb	r4, [r0, #4]
	lsrs	r2, r3, #24
	strb	r2, [r0, #3]
	lsrs	r2, r3, #16
	strb	r2, [r0, #2]
	lsrs	r2, r3, #8
	strb	r2, [r0, #1]
	strb	r3, [r0]
	subs	r0, r6, #1
	str	r0, [r7]
	mov	r0, r1
	add	sp, #44
	pop	{r4, r5, r6, r7, pc}
.LBB95_16:
	movs	r1, #1
	bl	ic_raw.list_calls.refusal_to_pop
	mov	r1, r0
	mov	r0, r1
	add	sp, #44
	pop	{r4, r5, r6, r7, pc}
	.p2align	2
.LCPI95_0:
	.long	536870911
.Lfunc_end95:
	.size	ic_list32_pop_back, .Lfunc_end95-ic_list32_pop_back
	.cfi_endproc
	.section	.text.ic_list32_pop_front,"ax",%progbits
	.globl	ic_list32_pop_front
	.p2align	2
	.type	ic_list32_pop_front,%function
	.code	16
	.thumb_func
ic_list32_pop_front:
	.cfi_startproc
	push	{r4, r5, r6, r7, lr}
	.cfi_def_cfa_offset 20
	.cfi_offset lr, -4
	.cfi_offset r7, -8
	.cfi_offset r6, -12
	.cfi_offset r5, -16
	.cfi_offset r4, -20
	sub	sp, #44
	.cfi_def_cfa_offset 64
	str	r3, [sp, #36]
	str	r2, [sp, #32]
	ldr	r1, [sp, #64]
	ldr	r5, [r1]
	str	r1, [sp, #28]
	ldr	r1, [r1, #4]
	movs	r7, #15
	str	r1, [sp, #12]
	ands	r7, r1
	movs	r1, #7
	str	r5, [sp, #16]
	str	r1, [sp, #20]
	bics	r5, r1
	mov	r1, r5
	orrs	r1, r7
	cmp	r0, #0
	bne	.LBB96_2
	movs	r2, #1
	lsls	r2, r2, #12
	adds	r0, r0, r2
.LBB96_2:
	str	r0, [sp, #40]
	ldr	r0, [sp, #68]
	str	r0, [sp, #24]
	cmp	r1, #0
	beq	.LBB96_15
	ldr	r1, .LCPI96_0
	ldr	r2, [sp, #32]
	cmp	r2, r1
	blo	.LBB96_5
	mov	r2, r1
.LBB96_5:
	ldr	r0, [sp, #36]
	cmp	r0, #0
	beq	.LBB96_7
	mov	r2, r1
.LBB96_7:
	lsrs	r1, r5, #3
	lsls	r3, r7, #29
	adds	r3, r1, r3
	lsrs	r4, r7, #3
	movs	r1, #0
	subs	r3, r2, r3
	mov	r3, r1
	sbcs	r3, r4
	blo	.LBB96_15
	ldr	r0, [sp, #40]
	adds	r3, r0, r5
	subs	r4, r3, #4
	ldr	r4, [r4]
	cmp	r4, #0
	bne	.LBB96_15
	subs	r3, #8
	ldr	r4, [r3]
	lsls	r6, r4, #31
	beq	.LBB96_15
	mov	r6, r4
	ldr	r0, [sp, #20]
	bics	r6, r0
	beq	.LBB96_15
	lsrs	r4, r4, #3
	cmp	r4, r2
	bhi	.LBB96_15
	ldr	r0, [sp, #40]
	adds	r4, r0, r6
	subs	r0, r4, #4
	ldr	r2, [r0]
	eors	r5, r2
	orrs	r5, r7
	bne	.LBB96_15
	subs	r4, #8
	ldr	r2, [r4]
	lsls	r2, r2, #31
	beq	.LBB96_15
	str	r1, [r0]
	str	r1, [r3]
	ldr	r0, [sp, #28]
	str	r6, [r0]
	str	r1, [r0, #4]
	ldr	r0, [sp, #16]
	lsrs	r0, r0, #3
	ldr	r2, [sp, #12]
	lsls	r2, r2, #29
	adds	r0, r0, r2
	subs	r0, r0, #1
	ldr	r2, [sp, #24]
	str	r0, [r2]
	mov	r0, r1
	add	sp, #44
	pop	{r4, r5, r6, r7, pc}
.LBB96_15:
	ldr	r0, [sp, #28]
	str	r0, [sp]
	ldr	r0, [sp, #24]
	str	r0, [sp, #4]
	ldr	r0, [sp, #40]
	ldr	r2, [sp, #32]
	ldr	r3, [sp, #36]
	bl	ic_raw.list_calls.pop_front_slow.55ebd757a04f39fd
	mov	r1, r0
	mov	r0, r1
	add	sp, #44
	pop	{r4, r5, r6, r7, pc}
	.p2align	2
.LCPI96_0:
	.long	536870911
.Lfunc_end96:
	.size	ic_list32_pop_front, .Lfunc_end96-ic_list32_pop_front
	.cfi_endproc
	.section	.text.ic_list32_push_back,"ax",%progbits
	.globl	ic_list32_push_back
	.p2align	2
	.type	ic_list32_push_back,%function
	.code	16
	.thumb_func
ic_list32_push_back:
	.cfi_startproc
	push	{r4, r5, r6, r7, lr}
	.cfi_def_cfa_offset 20
	.cfi_offset lr, -4
	.cfi_offset r7, -8
	.cfi_offset r6, -12
	.cfi_offset r5, -16
	.cfi_offset r4, -20
	sub	sp, #36
	.cfi_def_cfa_offset 56
	str	r3, [sp, #32]
	str	r2, [sp, #28]
	ldr	r1, [sp, #56]
	ldr	r5, [r1, #8]
	str	r1, [sp, #20]
	ldr	r2, [r1, #12]
	movs	r1, #15
	ands	r1, r2
	movs	r2, #7
	bics	r5, r2
	mov	r2, r5
	orrs	r2, r1
	movs	r3, #1
	cmp	r0, #0
	str	r3, [sp, #16]
	bne	.LBB97_2
	lsls	r3, r3, #12
	adds	r0, r0, r3
.LBB97_2:
	ldr	r3, [sp, #60]
	str	r3, [sp, #24]
	cmp	r2, #0
	beq	.LBB97_13
	ldr	r3, .LCPI97_0
	ldr	r2, [sp, #28]
	cmp	r2, r3
	blo	.LBB97_5
	mov	r2, r3
.LBB97_5:
	ldr	r4, [sp, #32]
	cmp	r4, #0
	beq	.LBB97_7
	mov	r2, r3
.LBB97_7:
	lsrs	r3, r5, #3
	lsls	r4, r1, #29
	adds	r3, r3, r4
	lsrs	r4, r1, #3
	movs	r1, #0
	subs	r3, r2, r3
	str	r1, [sp, #12]
	mov	r3, r1
	sbcs	r3, r4
	blo	.LBB97_13
	ldr	r1, [sp, #24]
	adds	r3, r1, #1
	beq	.LBB97_13
	adds	r7, r0, r5
	subs	r7, #8
	ldr	r4, [r7]
	cmp	r4, #1
	bne	.LBB97_13
	cmp	r2, r3
	blo	.LBB97_13
	lsls	r2, r3, #3
	adds	r4, r0, r2
	mov	r6, r4
	subs	r6, #8
	ldrb	r1, [r6]
	lsls	r1, r1, #31
	bne	.LBB97_13
	lsrs	r0, r3, #29
	mov	r1, r2
	ldr	r3, [sp, #16]
	orrs	r1, r3
	str	r1, [r7]
	str	r3, [r6]
	subs	r1, r4, #4
	str	r5, [r1]
	ldr	r1, [sp, #20]
	str	r2, [r1, #8]
	str	r0, [r1, #12]
	ldr	r0, [sp, #12]
	add	sp, #36
	pop	{r4, r5, r6, r7, pc}
.LBB97_13:
	ldr	r1, [sp, #20]
	str	r1, [sp]
	ldr	r1, [sp, #24]
	str	r1, [sp, #4]
	ldr	r2, [sp, #28]
	ldr	r3, [sp, #32]
	bl	ic_raw.list_calls.push_back_slow.55ebd757a04f39fd
	add	sp, #36
	pop	{r4, r5, r6, r7, pc}
	.p2align	2
.LCPI97_0:
	.long	536870911
.Lfunc_end97:
	.size	ic_list32_push_back, .Lfunc_end97-ic_list32_push_back
	.cfi_endproc
	.section	.text.ic_list32_push_front,"ax",%progbits
	.globl	ic_list32_push_front
	.p2align	2
	.type	ic_list32_push_front,%function
	.code	16
	.thumb_func
ic_list32_push_front:
	.cfi_startproc
	push	{r4, r5, r6, r7, lr}
	.cfi_def_cfa_offset 20
	.cfi_offset lr, -4
	.cfi_offset r7, -8
	.cfi_offset r6, -12
	.cfi_offset r5, -16
	.cfi_offset r4, -20
	sub	sp, #52
	.cfi_def_cfa_offset 72
	str	r3, [sp, #44]
	str	r2, [sp, #28]
	ldr	r1, [sp, #72]
	ldr	r6, [r1]
	ldr	r3, [r1, #4]
	movs	r2, #15
	ands	r3, r2
	movs	r4, #7
	str	r4, [sp, #20]
	mvns	r4, r4
	ands	r6, r4
	str	r6, [sp, #40]
	orrs	r6, r3
	rsbs	r5, r6, #0
	adcs	r5, r6
	str	r5, [sp, #24]
	movs	r7, #1
	cmp	r0, #0
	str	r7, [sp, #36]
	bne	.LBB98_2
	lsls	r7, r7, #12
	adds	r0, r0, r7
.LBB98_2:
	ldr	r7, [r1, #8]
	ldr	r5, [r1, #12]
	ands	r5, r2
	ands	r7, r4
	ldr	r2, [sp, #76]
	str	r2, [sp, #32]
	cmp	r6, #0
	str	r7, [sp, #16]
	mov	r4, r7
	str	r5, [sp, #12]
	ldr	r2, [sp, #28]
	str	r0, [sp, #48]
	beq	.LBB98_10
	ldr	r5, .LCPI98_0
	cmp	r2, r5
	mov	r7, r2
	blo	.LBB98_5
	mov	r7, r5
.LBB98_5:
	ldr	r0, [sp, #44]
	cmp	r0, #0
	beq	.LBB98_7
	mov	r7, r5
.LBB98_7:
	ldr	r0, [sp, #40]
	lsrs	r5, r0, #3
	lsls	r6, r3, #29
	adds	r6, r5, r6
	lsrs	r3, r3, #3
	movs	r5, #0
	subs	r0, r7, r6
	mov	r0, r5
	sbcs	r0, r3
	blo	.LBB98_21
	ldr	r0, [sp, #48]
	ldr	r3, [sp, #40]
	adds	r0, r0, r3
	mov	r3, r0
	subs	r3, #8
	ldrb	r3, [r3]
	lsls	r3, r3, #31
	beq	.LBB98_21
	subs	r0, r0, #4
	ldr	r4, [r0]
	ldr	r0, [sp, #20]
	bics	r4, r0
.LBB98_10:
	orrs	r4, r5
	bne	.LBB98_21
	ldr	r5, .LCPI98_0
	cmp	r2, r5
	mov	r3, r2
	blo	.LBB98_13
	mov	r3, r5
.LBB98_13:
	ldr	r0, [sp, #32]
	adds	r0, r0, #1
	ldr	r4, [sp, #44]
	cmp	r4, #0
	beq	.LBB98_15
	mov	r3, r5
.LBB98_15:
	cmp	r0, #0
	beq	.LBB98_21
	cmp	r3, r0
	blo	.LBB98_21
	lsls	r7, r0, #3
	ldr	r3, [sp, #48]
	adds	r6, r3, r7
	mov	r5, r6
	subs	r5, #8
	ldrb	r3, [r5]
	lsls	r3, r3, #31
	bne	.LBB98_21
	lsrs	r2, r0, #29
	ldr	r0, [sp, #24]
	cmp	r0, #0
	mov	r3, r7
	str	r2, [sp, #44]
	bne	.LBB98_20
	ldr	r0, [sp, #48]
	ldr	r2, [sp, #40]
	adds	r0, r0, r2
	subs	r0, r0, #4
	str	r7, [r0]
	movs	r0, #1
	orrs	r0, r2
	str	r0, [sp, #36]
	ldr	r3, [sp, #16]
	ldr	r2, [sp, #12]
.LBB98_20:
	ldr	r0, [sp, #36]
	str	r0, [r5]
	subs	r4, r6, #4
	movs	r0, #0
	str	r0, [r4]
	strb	r0, [r1, #15]
	strb	r0, [r1, #14]
	strb	r0, [r1, #13]
	strb	r2, [r1, #12]
	lsrs	r2, r3, #24
	strb	r2, [r1, #11]
	lsrs	r2, r3, #16
	strb	r2, [r1, #10]
	lsrs	r2, r3, #8
	strb	r2, [r1, #9]
	strb	r3, [r1, #8]
	strb	r0, [r1, #7]
	strb	r0, [r1, #6]
	strb	r0, [r1, #5]
	ldr	r2, [sp, #44]
	strb	r2, [r1, #4]
	lsrs	r2, r7, #24
	strb	r2, [r1, #3]
	lsrs	r2, r7, #16
	strb	r2, [r1, #2]
	lsrs	r2, r7, #8
	strb	r2, [r1, #1]
	strb	r7, [r1]
	add	sp, #52
	pop	{r4, r5, r6, r7, pc}
.LBB98_21:
	movs	r0, #0
	mvns	r0, r0
	str	r0, [sp]
	ldr	r0, [sp, #32]
	str	r0, [sp, #4]
	ldr	r0, [sp, #48]
	ldr	r3, [sp, #44]
	bl	ic_raw.table.RawTable.refusal.05a19227735374d3
	add	sp, #52
	pop	{r4, r5, r6, r7, pc}
	.p2align	2
.LCPI98_0:
	.long	536870911
.Lfunc_end98:
	.size	ic_list32_push_front, .Lfunc_end98-ic_list32_push_front
	.cfi_endproc
	.section	.text.ic_list32_remove,"ax",%progbits
	.globl	ic_list32_remove
	.p2align	2
	.type	ic_list32_remove,%function
	.code	16
	.thumb_func
ic_list32_remove:
	.cfi_startproc
	push	{r4, r5, r6, r7, lr}
	.cfi_def_cfa_offset 20
	.cfi_offset lr, -4
	.cfi_offset r7, -8
	.cfi_offset r6, -12
	.cfi_offset r5, -16
	.cfi_offset r4, -20
	sub	sp, #44
	.cfi_def_cfa_offset 64
	movs	r6, #1
	cmp	r0, #0
	bne	.LBB99_2
	lsls	r1, r6, #12
	adds	r0, r0, r1
.LBB99_2:
	ldr	r1, [sp, #68]
	adds	r5, r1, #1
	blo	.LBB99_4
	movs	r0, #4
	add	sp, #44
	pop	{r4, r5, r6, r7, pc}
.LBB99_4:
	str	r1, [sp, #8]
	ldr	r4, .LCPI99_0
	cmp	r2, r4
	mov	r1, r2
	blo	.LBB99_6
	mov	r1, r4
.LBB99_6:
	str	r6, [sp, #32]
	str	r2, [sp, #36]
	str	r3, [sp, #40]
	cmp	r3, #0
	beq	.LBB99_8
	mov	r1, r4
.LBB99_8:
	movs	r2, #0
	subs	r1, r1, r5
	mov	r1, r2
	sbcs	r1, r2
	blo	.LBB99_22
	lsls	r7, r5, #3
	adds	r1, r0, r7
	mov	r3, r1
	subs	r3, #8
	str	r3, [sp, #20]
	ldr	r3, [r3]
	lsls	r4, r3, #31
	beq	.LBB99_22
	subs	r1, r1, #4
	ldr	r6, [r1]
	movs	r4, #7
	mov	r1, r6
	bics	r1, r4
	str	r1, [sp, #28]
	beq	.LBB99_22
	str	r3, [sp, #24]
	mov	r1, r3
	bics	r1, r4
	rsbs	r4, r1, #0
	adcs	r4, r1
	lsrs	r6, r6, #3
	ldr	r3, [sp, #36]
	subs	r6, r3, r6
	ldr	r6, [sp, #40]
	sbcs	r6, r2
	ldr	r6, [sp, #32]
	blo	.LBB99_13
	mov	r6, r2
.LBB99_13:
	orrs	r4, r6
	bne	.LBB99_22
	lsrs	r3, r5, #29
	movs	r2, #1
	mov	r6, r7
	str	r2, [sp, #16]
	orrs	r6, r2
	ldr	r2, [sp, #28]
	adds	r5, r0, r2
	subs	r5, #8
	ldr	r4, [r5]
	eors	r4, r6
	str	r3, [sp, #12]
	orrs	r4, r3
	ldr	r2, [sp, #24]
	lsrs	r6, r2, #3
	movs	r3, #0
	ldr	r2, [sp, #36]
	subs	r6, r2, r6
	ldr	r6, [sp, #40]
	sbcs	r6, r3
	bhs	.LBB99_17
	cmp	r4, #0
	ldr	r2, [sp, #32]
	beq	.LBB99_18
.LBB99_16:
	cmp	r2, #0
	beq	.LBB99_19
	b	.LBB99_22
.LBB99_17:
	str	r3, [sp, #16]
	cmp	r4, #0
	ldr	r2, [sp, #32]
	bne	.LBB99_16
.LBB99_18:
	ldr	r2, [sp, #16]
	cmp	r2, #0
	bne	.LBB99_22
.LBB99_19:
	adds	r3, r0, r1
	subs	r2, r3, #4
	ldr	r4, [r2]
	eors	r7, r4
	ldr	r4, [sp, #12]
	orrs	r7, r4
	bne	.LBB99_22
	subs	r3, #8
	ldr	r3, [r3]
	lsls	r3, r3, #31
	beq	.LBB99_22
	movs	r0, #1
	orrs	r1, r0
	str	r1, [r5]
	ldr	r0, [sp, #28]
	str	r0, [r2]
	movs	r0, #0
	ldr	r1, [sp, #20]
	str	r0, [r1]
	add	sp, #44
	pop	{r4, r5, r6, r7, pc}
.LBB99_22:
	ldr	r1, [sp, #64]
	str	r1, [sp]
	ldr	r1, [sp, #8]
	str	r1, [sp, #4]
	ldr	r2, [sp, #36]
	ldr	r3, [sp, #40]
	bl	ic_raw.list_calls.remove_slow.55ebd757a04f39fd
	add	sp, #44
	pop	{r4, r5, r6, r7, pc}
	.p2align	2
.LCPI99_0:
	.long	536870911
.Lfunc_end99:
	.size	ic_list32_remove, .Lfunc_end99-ic_list32_remove
	.cfi_endproc
	.section	.text.ic_list32_replace,"ax",%progbits
	.globl	ic_list32_replace
	.p2align	2
	.type	ic_list32_replace,%function
	.code	16
	.thumb_func
ic_list32_replace:
	.cfi_startproc
	push	{r4, r5, r6, r7, lr}
	.cfi_def_cfa_offset 20
	.cfi_offset lr, -4
	.cfi_offset r7, -8
	.cfi_offset r6, -12
	.cfi_offset r5, -16
	.cfi_offset r4, -20
	sub	sp, #92
	.cfi_def_cfa_offset 112
	movs	r4, #1
	cmp	r0, #0
	bne	.LBB100_2
	lsls	r1, r4, #12
	adds	r0, r0, r1
.LBB100_2:
	ldr	r1, [sp, #116]
	adds	r5, r1, #1
	blo	.LBB100_4
	movs	r0, #4
	add	sp, #92
	pop	{r4, r5, r6, r7, pc}
.LBB100_4:
	str	r1, [sp, #20]
	ldr	r1, .LCPI100_0
	cmp	r2, r1
	mov	r6, r2
	blo	.LBB100_6
	mov	r6, r1
.LBB100_6:
	str	r2, [sp, #56]
	str	r4, [sp, #80]
	str	r3, [sp, #60]
	cmp	r3, #0
	beq	.LBB100_8
	mov	r6, r1
.LBB100_8:
	ldr	r1, [sp, #120]
	str	r1, [sp, #48]
	movs	r2, #0
	str	r6, [sp, #36]
	subs	r1, r6, r5
	str	r2, [sp, #68]
	mov	r1, r2
	sbcs	r1, r2
	bhs	.LBB100_9
	b	.LBB100_26
.LBB100_9:
	lsls	r1, r5, #3
	str	r1, [sp, #72]
	adds	r3, r0, r1
	mov	r1, r3
	subs	r1, #8
	str	r1, [sp, #24]
	ldr	r1, [r1]
	str	r1, [sp, #40]
	lsls	r1, r1, #31
	bne	.LBB100_10
	b	.LBB100_26
.LBB100_10:
	str	r0, [sp, #44]
	ldr	r4, [sp, #112]
	movs	r6, #7
	ldr	r7, [r4]
	ldr	r1, [r4, #4]
	ldr	r2, [r4, #8]
	str	r2, [sp, #76]
	ldr	r2, [r4, #12]
	str	r2, [sp, #88]
	movs	r0, #15
	mvns	r2, r6
	lsrs	r5, r5, #29
	str	r5, [sp, #64]
	str	r0, [sp, #28]
	ands	r1, r0
	str	r2, [sp, #32]
	ands	r7, r2
	subs	r5, r3, #4
	ldr	r5, [r5]
	mov	r3, r5
	str	r6, [sp, #52]
	bics	r3, r6
	str	r3, [sp, #84]
	str	r7, [sp, #16]
	str	r1, [sp, #12]
	beq	.LBB100_13
	lsrs	r5, r5, #3
	ldr	r3, [sp, #56]
	subs	r5, r3, r5
	ldr	r5, [sp, #60]
	ldr	r1, [sp, #68]
	sbcs	r5, r1
	ldr	r0, [sp, #44]
	blo	.LBB100_26
	ldr	r5, [sp, #72]
	ldr	r3, [sp, #80]
	orrs	r5, r3
	ldr	r3, [sp, #84]
	adds	r6, r0, r3
	subs	r6, #8
	ldr	r6, [r6]
	movs	r3, #6
	bics	r6, r3
	eors	r6, r5
	ldr	r1, [sp, #64]
	orrs	r6, r1
	ldr	r6, [sp, #76]
	beq	.LBB100_14
	b	.LBB100_26
.LBB100_13:
	ldr	r5, [sp, #72]
	eors	r7, r5
	ldr	r0, [sp, #64]
	eors	r1, r0
	orrs	r1, r7
	ldr	r6, [sp, #76]
	ldr	r0, [sp, #44]
	bne	.LBB100_26
.LBB100_14:
	ldr	r5, [sp, #88]
	ldr	r1, [sp, #28]
	ands	r5, r1
	ldr	r1, [sp, #32]
	ands	r6, r1
	ldr	r3, [sp, #40]
	mov	r7, r3
	ldr	r1, [sp, #52]
	bics	r7, r1
	mov	r2, r6
	str	r5, [sp, #88]
	beq	.LBB100_18
	lsrs	r2, r3, #3
	ldr	r3, [sp, #56]
	subs	r2, r3, r2
	ldr	r2, [sp, #60]
	ldr	r1, [sp, #68]
	sbcs	r2, r1
	blo	.LBB100_26
	adds	r2, r0, r7
	mov	r3, r2
	subs	r3, #8
	ldrb	r3, [r3]
	lsls	r3, r3, #31
	beq	.LBB100_26
	subs	r2, r2, #4
	ldr	r2, [r2]
	ldr	r1, [sp, #52]
	bics	r2, r1
	ldr	r5, [sp, #68]
.LBB100_18:
	ldr	r1, [sp, #48]
	adds	r3, r1, #1
	beq	.LBB100_26
	ldr	r1, [sp, #72]
	eors	r2, r1
	ldr	r1, [sp, #64]
	eors	r5, r1
	orrs	r5, r2
	bne	.LBB100_26
	ldr	r1, [sp, #36]
	cmp	r1, r3
	blo	.LBB100_26
	lsls	r1, r3, #3
	adds	r2, r0, r1
	str	r2, [sp, #64]
	subs	r2, #8
	ldrb	r5, [r2]
	lsls	r5, r5, #31
	bne	.LBB100_26
	lsrs	r3, r3, #29
	ldr	r5, [sp, #84]
	cmp	r5, #0
	str	r1, [sp, #68]
	str	r3, [sp, #60]
	str	r3, [sp, #72]
	beq	.LBB100_24
	mov	r3, r1
	str	r6, [sp, #76]
	ldr	r6, [sp, #80]
	orrs	r3, r6
	adds	r6, r0, r5
	subs	r6, #8
	str	r3, [r6]
	ldr	r6, [sp, #76]
	ldr	r3, [sp, #16]
	str	r3, [sp, #68]
	ldr	r5, [sp, #12]
	str	r5, [sp, #72]
.LBB100_24:
	cmp	r7, #0
	beq	.LBB100_27
	adds	r0, r0, r7
	subs	r0, r0, #4
	str	r1, [r0]
	ldr	r5, [sp, #88]
	b	.LBB100_28
.LBB100_26:
	ldr	r1, [sp, #20]
	str	r1, [sp]
	ldr	r1, [sp, #48]
	str	r1, [sp, #4]
	ldr	r2, [sp, #56]
	ldr	r3, [sp, #60]
	bl	ic_raw.table.RawTable.refusal.05a19227735374d3
	add	sp, #92
	pop	{r4, r5, r6, r7, pc}
.LBB100_27:
	mov	r6, r1
	ldr	r5, [sp, #60]
.LBB100_28:
	ldr	r0, [sp, #80]
	orrs	r7, r0
	str	r7, [r2]
	ldr	r0, [sp, #64]
	subs	r0, r0, #4
	ldr	r1, [sp, #84]
	str	r1, [r0]
	movs	r0, #0
	ldr	r1, [sp, #24]
	str	r0, [r1]
	strb	r0, [r4, #15]
	strb	r0, [r4, #14]
	strb	r0, [r4, #13]
	strb	r5, [r4, #12]
	lsrs	r1, r6, #24
	strb	r1, [r4, #11]
	lsrs	r1, r6, #16
	strb	r1, [r4, #10]
	lsrs	r1, r6, #8
	strb	r1, [r4, #9]
	strb	r6, [r4, #8]
	strb	r0, [r4, #7]
	strb	r0, [r4, #6]
	strb	r0, [r4, #5]
	ldr	r1, [sp, #72]
	strb	r1, [r4, #4]
	ldr	r2, [sp, #68]
	lsrs	r1, r2, #24
	strb	r1, [r4, #3]
	lsrs	r1, r2, #16
	strb	r1, [r4, #2]
	lsrs	r1, r2, #8
	strb	r1, [r4, #1]
	strb	r2, [r4]
	add	sp, #92
	pop	{r4, r5, r6, r7, pc}
	.p2align	2
.LCPI100_0:
	.long	536870911
.Lfunc_end100:
	.size	ic_list32_replace, .Lfunc_end100-ic_list32_replace
	.cfi_endproc
	.section	.text.ic_list32_splice_after,"ax",%progbits
	.globl	ic_list32_splice_after
	.p2align	2
	.type	ic_list32_splice_after,%function
	.code	16
	.thumb_func
ic_list32_splice_after:
	.cfi_startproc
	push	{r4, r5, r6, r7, lr}
	.cfi_def_cfa_offset 20
	.cfi_offset lr, -4
	.cfi_offset r7, -8
	.cfi_offset r6, -12
	.cfi_offset r5, -16
	.cfi_offset r4, -20
	sub	sp, #68
	.cfi_def_cfa_offset 88
	str	r3, [sp, #36]
	str	r2, [sp, #32]
	mov	r1, r0
	movs	r0, #1
	cmp	r1, #0
	str	r0, [sp, #28]
	bne	.LBB101_2
	lsls	r0, r0, #12
	adds	r1, r1, r0
.LBB101_2:
	str	r1, [sp, #60]
	ldr	r0, [sp, #96]
	str	r0, [sp, #56]
	ldr	r5, [sp, #88]
	ldr	r0, [sp, #92]
	str	r0, [sp, #16]
	adds	r0, r0, #1
	beq	.LBB101_3
	b	.LBB101_20
.LBB101_3:
	movs	r1, #15
	movs	r0, #7
	mvns	r3, r0
	ldm	r5!, {r0, r2}
	str	r1, [sp, #52]
	ands	r2, r1
	str	r3, [sp, #48]
	ands	r0, r3
	str	r0, [sp, #64]
	subs	r5, #8
	orrs	r0, r2
	bne	.LBB101_4
	b	.LBB101_20
.LBB101_4:
	ldr	r0, .LCPI101_0
	ldr	r3, [sp, #32]
	cmp	r3, r0
	blo	.LBB101_6
	mov	r3, r0
.LBB101_6:
	ldr	r1, [sp, #36]
	cmp	r1, #0
	beq	.LBB101_8
	mov	r3, r0
.LBB101_8:
	ldr	r0, [sp, #64]
	lsrs	r0, r0, #3
	lsls	r1, r2, #29
	adds	r0, r0, r1
	lsrs	r1, r2, #3
	movs	r4, #0
	str	r3, [sp, #40]
	subs	r0, r3, r0
	mov	r0, r4
	sbcs	r0, r1
	blo	.LBB101_20
	ldr	r0, [sp, #60]
	ldr	r1, [sp, #64]
	adds	r1, r0, r1
	subs	r0, r1, #4
	str	r0, [sp, #24]
	ldr	r0, [r0]
	cmp	r0, #0
	bne	.LBB101_20
	ldr	r0, [sp, #56]
	ldm	r0!, {r3, r6}
	ldr	r0, [sp, #52]
	ands	r6, r0
	ldr	r0, [sp, #48]
	ands	r3, r0
	mov	r0, r3
	str	r6, [sp, #44]
	orrs	r0, r6
	beq	.LBB101_20
	subs	r1, #8
	ldr	r0, [r1]
	lsls	r0, r0, #31
	beq	.LBB101_20
	lsrs	r0, r3, #3
	ldr	r6, [sp, #44]
	lsls	r1, r6, #29
	adds	r0, r0, r1
	lsrs	r1, r6, #3
	ldr	r6, [sp, #40]
	subs	r0, r6, r0
	mov	r0, r4
	sbcs	r0, r1
	blo	.LBB101_20
	ldr	r0, [sp, #60]
	adds	r0, r0, r3
	subs	r1, r0, #4
	str	r1, [sp, #20]
	ldr	r1, [r1]
	cmp	r1, #0
	bne	.LBB101_20
	ldr	r1, [sp, #56]
	ldr	r6, [r1, #8]
	ldr	r7, [r1, #12]
	ldr	r1, [sp, #52]
	ands	r7, r1
	ldr	r1, [sp, #48]
	ands	r6, r1
	mov	r1, r6
	orrs	r1, r7
	beq	.LBB101_20
	subs	r0, #8
	ldr	r0, [r0]
	lsls	r0, r0, #31
	beq	.LBB101_20
	lsrs	r0, r6, #3
	lsls	r1, r7, #29
	adds	r0, r0, r1
	lsrs	r1, r7, #3
	ldr	r7, [sp, #40]
	subs	r0, r7, r0
	mov	r0, r4
	sbcs	r0, r1
	blo	.LBB101_20
	ldr	r0, [sp, #64]
	eors	r0, r3
	ldr	r1, [sp, #44]
	eors	r2, r1
	orrs	r2, r0
	beq	.LBB101_20
	ldr	r0, [sp, #60]
	adds	r0, r0, r6
	subs	r0, #8
	ldr	r1, [r0]
	cmp	r1, #1
	bne	.LBB101_20
	ldr	r2, [r5, #8]
	ldr	r1, [r5, #12]
	ldr	r7, [sp, #52]
	ands	r1, r7
	ldr	r7, [sp, #48]
	ands	r2, r7
	ldr	r7, [sp, #24]
	str	r6, [r7]
	ldr	r6, [sp, #20]
	str	r4, [r6]
	ldr	r6, [sp, #28]
	ldr	r7, [sp, #64]
	orrs	r7, r6
	str	r7, [r0]
	strb	r4, [r5, #15]
	strb	r4, [r5, #14]
	strb	r4, [r5, #13]
	strb	r1, [r5, #12]
	lsrs	r0, r2, #24
	strb	r0, [r5, #11]
	lsrs	r0, r2, #16
	strb	r0, [r5, #10]
	lsrs	r0, r2, #8
	strb	r0, [r5, #9]
	strb	r2, [r5, #8]
	strb	r4, [r5, #7]
	strb	r4, [r5, #6]
	strb	r4, [r5, #5]
	ldr	r0, [sp, #44]
	strb	r0, [r5, #4]
	lsrs	r0, r3, #24
	strb	r0, [r5, #3]
	lsrs	r0, r3, #16
	strb	r0, [r5, #2]
	lsrs	r0, r3, #8
	strb	r0, [r5, #1]
	strb	r3, [r5]
	str	r4, [sp]
	movs	r2, #16
	ldr	r0, [sp, #56]
	mov	r1, r4
	mov	r3, r4
	bl	ic.clear
	mov	r0, r4
	add	sp, #68
	pop	{r4, r5, r6, r7, pc}
.LBB101_20:
	movs	r0, #0
	str	r5, [sp]
	ldr	r1, [sp, #16]
	str	r1, [sp, #4]
	ldr	r1, [sp, #56]
	str	r1, [sp, #8]
	str	r0, [sp, #12]
	ldr	r0, [sp, #60]
	ldr	r2, [sp, #32]
	ldr	r3, [sp, #36]
	bl	ic_raw.list_calls.splice_slow.55ebd757a04f39fd
	mov	r4, r0
	mov	r0, r4
	add	sp, #68
	pop	{r4, r5, r6, r7, pc}
	.p2align	2
.LCPI101_0:
	.long	536870911
.Lfunc_end101:
	.size	ic_list32_splice_after, .Lfunc_end101-ic_list32_splice_after
	.cfi_endproc
	.section	.text.ic_list32_splice_before,"ax",%progbits
	.globl	ic_list32_splice_before
	.p2align	2
	.type	ic_list32_splice_before,%function
	.code	16
	.thumb_func
ic_list32_splice_before:
	.cfi_startproc
	push	{r4, r5, r6, r7, lr}
	.cfi_def_cfa_offset 20
	.cfi_offset lr, -4
	.cfi_offset r7, -8
	.cfi_offset r6, -12
	.cfi_offset r5, -16
	.cfi_offset r4, -20
	sub	sp, #68
	.cfi_def_cfa_offset 88
	str	r3, [sp, #44]
	str	r2, [sp, #40]
	mov	r1, r0
	movs	r0, #1
	cmp	r1, #0
	str	r0, [sp, #32]
	bne	.LBB102_2
	lsls	r0, r0, #12
	adds	r1, r1, r0
.LBB102_2:
	str	r1, [sp, #64]
	ldr	r0, [sp, #96]
	str	r0, [sp, #60]
	ldr	r5, [sp, #88]
	ldr	r0, [sp, #92]
	str	r0, [sp, #16]
	adds	r0, r0, #1
	beq	.LBB102_3
	b	.LBB102_19
.LBB102_3:
	movs	r2, #15
	movs	r0, #7
	mvns	r3, r0
	ldr	r1, [r5, #8]
	ldr	r0, [r5, #12]
	str	r2, [sp, #52]
	ands	r0, r2
	str	r3, [sp, #48]
	ands	r1, r3
	str	r1, [sp, #56]
	orrs	r1, r0
	bne	.LBB102_4
	b	.LBB102_19
.LBB102_4:
	ldr	r1, .LCPI102_0
	ldr	r2, [sp, #40]
	cmp	r2, r1
	blo	.LBB102_6
	mov	r2, r1
.LBB102_6:
	ldr	r3, [sp, #44]
	cmp	r3, #0
	beq	.LBB102_8
	mov	r2, r1
.LBB102_8:
	ldr	r1, [sp, #56]
	lsrs	r1, r1, #3
	lsls	r3, r0, #29
	adds	r1, r1, r3
	lsrs	r0, r0, #3
	movs	r4, #0
	subs	r1, r2, r1
	mov	r1, r4
	sbcs	r1, r0
	blo	.LBB102_19
	ldr	r0, [sp, #60]
	ldr	r1, [r0]
	ldr	r0, [r0, #4]
	ldr	r3, [sp, #52]
	ands	r0, r3
	ldr	r3, [sp, #48]
	ands	r1, r3
	mov	r3, r1
	orrs	r3, r0
	beq	.LBB102_19
	ldr	r3, [sp, #64]
	ldr	r6, [sp, #56]
	adds	r3, r3, r6
	subs	r3, #8
	str	r3, [sp, #28]
	ldr	r3, [r3]
	cmp	r3, #1
	bne	.LBB102_19
	lsrs	r3, r1, #3
	lsls	r6, r0, #29
	adds	r3, r3, r6
	lsrs	r6, r0, #3
	subs	r3, r2, r3
	mov	r3, r4
	sbcs	r3, r6
	blo	.LBB102_19
	ldr	r3, [sp, #64]
	adds	r7, r3, r1
	subs	r3, r7, #4
	str	r3, [sp, #20]
	ldr	r3, [r3]
	cmp	r3, #0
	bne	.LBB102_19
	ldr	r6, [sp, #60]
	ldr	r3, [r6, #8]
	str	r2, [sp, #24]
	ldr	r2, [r6, #12]
	ldr	r6, [sp, #52]
	ands	r2, r6
	ldr	r6, [sp, #48]
	ands	r3, r6
	mov	r6, r3
	str	r2, [sp, #36]
	orrs	r6, r2
	beq	.LBB102_19
	subs	r7, #8
	ldr	r6, [r7]
	lsls	r6, r6, #31
	beq	.LBB102_19
	lsrs	r6, r3, #3
	ldr	r2, [sp, #36]
	lsls	r7, r2, #29
	adds	r6, r6, r7
	lsrs	r7, r2, #3
	ldr	r2, [sp, #24]
	subs	r2, r2, r6
	mov	r2, r4
	sbcs	r2, r7
	blo	.LBB102_19
	ldm	r5!, {r2, r7}
	ldr	r6, [sp, #52]
	ands	r7, r6
	ldr	r6, [sp, #48]
	ands	r2, r6
	mov	r6, r2
	eors	r6, r1
	eors	r0, r7
	subs	r5, #8
	orrs	r0, r6
	beq	.LBB102_19
	ldr	r0, [sp, #64]
	adds	r0, r0, r3
	subs	r0, #8
	ldr	r6, [r0]
	cmp	r6, #1
	bne	.LBB102_19
	ldr	r6, [sp, #32]
	orrs	r1, r6
	str	r7, [sp, #64]
	ldr	r7, [sp, #28]
	str	r1, [r7]
	ldr	r1, [sp, #56]
	ldr	r7, [sp, #20]
	str	r1, [r7]
	str	r6, [r0]
	strb	r4, [r5, #15]
	strb	r4, [r5, #14]
	strb	r4, [r5, #13]
	ldr	r0, [sp, #36]
	strb	r0, [r5, #12]
	lsrs	r0, r3, #24
	strb	r0, [r5, #11]
	lsrs	r0, r3, #16
	strb	r0, [r5, #10]
	lsrs	r0, r3, #8
	strb	r0, [r5, #9]
	strb	r3, [r5, #8]
	strb	r4, [r5, #7]
	strb	r4, [r5, #6]
	strb	r4, [r5, #5]
	ldr	r0, [sp, #64]
	strb	r0, [r5, #4]
	lsrs	r0, r2, #24
	strb	r0, [r5, #3]
	lsrs	r0, r2, #16
	strb	r0, [r5, #2]
	lsrs	r0, r2, #8
	strb	r0, [r5, #1]
	strb	r2, [r5]
	str	r4, [sp]
	movs	r2, #16
	ldr	r0, [sp, #60]
	mov	r1, r4
	mov	r3, r4
	bl	ic.clear
	mov	r0, r4
	add	sp, #68
	pop	{r4, r5, r6, r7, pc}
.LBB102_19:
	str	r5, [sp]
	ldr	r0, [sp, #16]
	str	r0, [sp, #4]
	ldr	r0, [sp, #60]
	str	r0, [sp, #8]
	ldr	r0, [sp, #32]
	str	r0, [sp, #12]
	ldr	r0, [sp, #64]
	ldr	r2, [sp, #40]
	ldr	r3, [sp, #44]
	bl	ic_raw.list_calls.splice_slow.55ebd757a04f39fd
	mov	r4, r0
	mov	r0, r4
	add	sp, #68
	pop	{r4, r5, r6, r7, pc}
	.p2align	2
.LCPI102_0:
	.long	536870911
.Lfunc_end102:
	.size	ic_list32_splice_before, .Lfunc_end102-ic_list32_splice_before
	.cfi_endproc
	.section	.text.ic_list32_split_after,"ax",%progbits
	.globl	ic_list32_split_after
	.p2align	2
	.type	ic_list32_split_after,%function
	.code	16
	.thumb_func
ic_list32_split_after:
	.cfi_startproc
	push	{r4, r5, r6, r7, lr}
	.cfi_def_cfa_offset 20
	.cfi_offset lr, -4
	.cfi_offset r7, -8
	.cfi_offset r6, -12
	.cfi_offset r5, -16
	.cfi_offset r4, -20
	sub	sp, #60
	.cfi_def_cfa_offset 80
	str	r3, [sp, #40]
	str	r2, [sp, #36]
	ldr	r4, [sp, #88]
	ldr	r2, [r4]
	ldr	r1, [r4, #4]
	movs	r3, #15
	str	r3, [sp, #52]
	ands	r1, r3
	movs	r3, #7
	str	r3, [sp, #32]
	mvns	r3, r3
	str	r3, [sp, #48]
	ands	r2, r3
	orrs	r2, r1
	movs	r1, #1
	cmp	r0, #0
	str	r1, [sp, #28]
	bne	.LBB103_2
	lsls	r1, r1, #12
	adds	r0, r0, r1
.LBB103_2:
	str	r0, [sp, #56]
	ldr	r5, [sp, #80]
	ldr	r0, [sp, #84]
	str	r0, [sp, #44]
	cmp	r2, #0
	beq	.LBB103_3
	b	.LBB103_16
.LBB103_3:
	ldr	r0, [r4, #8]
	ldr	r1, [r4, #12]
	ldr	r2, [sp, #52]
	ands	r1, r2
	ldr	r2, [sp, #48]
	ands	r0, r2
	orrs	r0, r1
	bne	.LBB103_16
	ldr	r0, [sp, #44]
	adds	r0, r0, #1
	bhs	.LBB103_16
	ldr	r1, .LCPI103_0
	ldr	r7, [sp, #36]
	cmp	r7, r1
	blo	.LBB103_7
	mov	r7, r1
.LBB103_7:
	ldr	r2, [sp, #40]
	cmp	r2, #0
	beq	.LBB103_9
	mov	r7, r1
.LBB103_9:
	movs	r1, #0
	subs	r2, r7, r0
	mov	r2, r1
	sbcs	r2, r1
	blo	.LBB103_16
	lsls	r2, r0, #3
	ldr	r3, [sp, #56]
	str	r0, [sp, #24]
	adds	r0, r3, r2
	subs	r0, #8
	str	r0, [sp, #20]
	ldr	r3, [r0]
	lsls	r6, r3, #31
	beq	.LBB103_16
	mov	r0, r3
	ldr	r6, [sp, #32]
	bics	r0, r6
	str	r0, [sp, #32]
	ldr	r0, [sp, #24]
	beq	.LBB103_16
	lsrs	r3, r3, #3
	cmp	r3, r7
	bhi	.LBB103_16
	lsrs	r6, r0, #29
	ldr	r0, [sp, #56]
	ldr	r3, [sp, #32]
	adds	r0, r0, r3
	subs	r7, r0, #4
	ldr	r3, [r7]
	eors	r3, r2
	orrs	r3, r6
	bne	.LBB103_16
	subs	r0, #8
	ldr	r0, [r0]
	lsls	r0, r0, #31
	beq	.LBB103_16
	ldr	r0, [r5]
	str	r2, [sp, #40]
	ldr	r2, [r5, #4]
	str	r2, [sp, #56]
	str	r7, [sp, #24]
	ldr	r7, [r5, #8]
	str	r6, [sp, #36]
	ldr	r6, [r5, #12]
	ldr	r3, [sp, #52]
	ands	r6, r3
	str	r6, [sp, #44]
	ldr	r6, [sp, #48]
	ands	r7, r6
	ldr	r2, [sp, #56]
	ands	r2, r3
	str	r2, [sp, #56]
	ands	r0, r6
	ldr	r3, [sp, #28]
	ldr	r6, [sp, #20]
	str	r3, [r6]
	ldr	r2, [sp, #24]
	str	r1, [r2]
	strb	r1, [r5, #15]
	strb	r1, [r5, #14]
	strb	r1, [r5, #13]
	ldr	r2, [sp, #36]
	strb	r2, [r5, #12]
	ldr	r2, [sp, #40]
	lsrs	r3, r2, #24
	strb	r3, [r5, #11]
	lsrs	r3, r2, #16
	strb	r3, [r5, #10]
	lsrs	r3, r2, #8
	strb	r3, [r5, #9]
	strb	r2, [r5, #8]
	strb	r1, [r5, #7]
	strb	r1, [r5, #6]
	strb	r1, [r5, #5]
	ldr	r2, [sp, #56]
	strb	r2, [r5, #4]
	lsrs	r2, r0, #24
	strb	r2, [r5, #3]
	lsrs	r2, r0, #16
	strb	r2, [r5, #2]
	lsrs	r2, r0, #8
	strb	r2, [r5, #1]
	strb	r0, [r5]
	lsrs	r0, r7, #16
	strb	r0, [r4, #10]
	lsrs	r0, r7, #24
	strb	r0, [r4, #11]
	strb	r7, [r4, #8]
	lsrs	r0, r7, #8
	strb	r0, [r4, #9]
	strb	r1, [r4, #14]
	strb	r1, [r4, #15]
	ldr	r0, [sp, #44]
	strb	r0, [r4, #12]
	strb	r1, [r4, #13]
	ldr	r2, [sp, #32]
	lsrs	r0, r2, #16
	strb	r0, [r4, #2]
	lsrs	r0, r2, #24
	strb	r0, [r4, #3]
	strb	r2, [r4]
	lsrs	r0, r2, #8
	strb	r0, [r4, #1]
	strb	r1, [r4, #6]
	strb	r1, [r4, #7]
	strb	r1, [r4, #4]
	strb	r1, [r4, #5]
	mov	r0, r1
	add	sp, #60
	pop	{r4, r5, r6, r7, pc}
.LBB103_16:
	movs	r0, #0
	str	r5, [sp]
	ldr	r1, [sp, #44]
	str	r1, [sp, #4]
	str	r4, [sp, #8]
	str	r0, [sp, #12]
	ldr	r0, [sp, #56]
	ldr	r2, [sp, #36]
	ldr	r3, [sp, #40]
	bl	ic_raw.list_calls.split_slow.55ebd757a04f39fd
	mov	r1, r0
	mov	r0, r1
	add	sp, #60
	pop	{r4, r5, r6, r7, pc}
	.p2align	2
.LCPI103_0:
	.long	536870911
.Lfunc_end103:
	.size	ic_list32_split_after, .Lfunc_end103-ic_list32_split_after
	.cfi_endproc
	.section	.text.ic_list32_split_before,"ax",%progbits
	.globl	ic_list32_split_before
	.p2align	2
	.type	ic_list32_split_before,%function
	.code	16
	.thumb_func
ic_list32_split_before:
	.cfi_startproc
	push	{r4, r5, r6, r7, lr}
	.cfi_def_cfa_offset 20
	.cfi_offset lr, -4
	.cfi_offset r7, -8
	.cfi_offset r6, -12
	.cfi_offset r5, -16
	.cfi_offset r4, -20
	sub	sp, #60
	.cfi_def_cfa_offset 80
	str	r3, [sp, #36]
	str	r2, [sp, #32]
	ldr	r4, [sp, #88]
	ldm	r4!, {r1, r2}
	movs	r3, #15
	str	r3, [sp, #44]
	ands	r2, r3
	movs	r3, #7
	str	r3, [sp, #24]
	mvns	r3, r3
	str	r3, [sp, #40]
	ands	r1, r3
	orrs	r1, r2
	movs	r2, #1
	subs	r4, #8
	cmp	r0, #0
	str	r2, [sp, #52]
	bne	.LBB104_2
	lsls	r2, r2, #12
	adds	r0, r0, r2
.LBB104_2:
	str	r0, [sp, #56]
	ldr	r5, [sp, #80]
	ldr	r2, [sp, #84]
	str	r2, [sp, #48]
	cmp	r1, #0
	beq	.LBB104_3
	b	.LBB104_15
.LBB104_3:
	ldr	r1, [r4, #8]
	ldr	r2, [r4, #12]
	ldr	r3, [sp, #44]
	ands	r2, r3
	ldr	r3, [sp, #40]
	ands	r1, r3
	orrs	r1, r2
	bne	.LBB104_15
	ldr	r1, [sp, #48]
	adds	r0, r1, #1
	bhs	.LBB104_15
	ldr	r1, .LCPI104_0
	ldr	r6, [sp, #32]
	cmp	r6, r1
	blo	.LBB104_7
	mov	r6, r1
.LBB104_7:
	ldr	r2, [sp, #36]
	cmp	r2, #0
	beq	.LBB104_9
	mov	r6, r1
.LBB104_9:
	movs	r1, #0
	subs	r2, r6, r0
	mov	r2, r1
	sbcs	r2, r1
	blo	.LBB104_15
	lsls	r2, r0, #3
	str	r2, [sp, #28]
	ldr	r3, [sp, #56]
	adds	r3, r3, r2
	mov	r2, r3
	subs	r2, #8
	ldrb	r2, [r2]
	lsls	r2, r2, #31
	beq	.LBB104_15
	subs	r2, r3, #4
	str	r2, [sp, #20]
	ldr	r7, [r2]
	mov	r3, r7
	ldr	r2, [sp, #24]
	bics	r3, r2
	str	r3, [sp, #24]
	beq	.LBB104_15
	lsrs	r3, r7, #3
	cmp	r3, r6
	bhi	.LBB104_15
	lsrs	r2, r0, #29
	ldr	r3, [sp, #28]
	ldr	r6, [sp, #52]
	orrs	r3, r6
	ldr	r0, [sp, #56]
	ldr	r6, [sp, #24]
	adds	r6, r0, r6
	subs	r6, #8
	ldr	r7, [r6]
	eors	r7, r3
	str	r2, [sp, #16]
	orrs	r7, r2
	bne	.LBB104_15
	ldr	r0, [r5]
	str	r0, [sp, #48]
	ldr	r0, [r5, #4]
	str	r0, [sp, #56]
	ldr	r0, [r5, #8]
	ldr	r2, [r5, #12]
	ldr	r7, [sp, #44]
	ands	r2, r7
	str	r2, [sp, #36]
	ldr	r2, [sp, #40]
	ands	r0, r2
	ldr	r3, [sp, #56]
	ands	r3, r7
	str	r3, [sp, #56]
	ldr	r3, [sp, #48]
	ands	r3, r2
	str	r3, [sp, #48]
	ldr	r7, [sp, #52]
	str	r7, [r6]
	ldr	r2, [sp, #20]
	str	r1, [r2]
	strb	r1, [r5, #15]
	strb	r1, [r5, #14]
	strb	r1, [r5, #13]
	ldr	r2, [sp, #36]
	strb	r2, [r5, #12]
	lsrs	r3, r0, #24
	strb	r3, [r5, #11]
	lsrs	r3, r0, #16
	strb	r3, [r5, #10]
	lsrs	r3, r0, #8
	strb	r3, [r5, #9]
	strb	r0, [r5, #8]
	strb	r1, [r5, #7]
	strb	r1, [r5, #6]
	strb	r1, [r5, #5]
	ldr	r0, [sp, #16]
	strb	r0, [r5, #4]
	ldr	r2, [sp, #28]
	lsrs	r0, r2, #24
	strb	r0, [r5, #3]
	lsrs	r0, r2, #16
	strb	r0, [r5, #2]
	lsrs	r0, r2, #8
	strb	r0, [r5, #1]
	strb	r2, [r5]
	ldr	r2, [sp, #24]
	lsrs	r0, r2, #16
	strb	r0, [r4, #10]
	lsrs	r0, r2, #24
	strb	r0, [r4, #11]
	strb	r2, [r4, #8]
	lsrs	r0, r2, #8
	strb	r0, [r4, #9]
	strb	r1, [r4, #14]
	strb	r1, [r4, #15]
	strb	r1, [r4, #12]
	strb	r1, [r4, #13]
	ldr	r2, [sp, #48]
	lsrs	r0, r2, #16
	strb	r0, [r4, #2]
	lsrs	r0, r2, #24
	strb	r0, [r4, #3]
	strb	r2, [r4]
	lsrs	r0, r2, #8
	strb	r0, [r4, #1]
	strb	r1, [r4, #6]
	strb	r1, [r4, #7]
	ldr	r0, [sp, #56]
	strb	r0, [r4, #4]
	strb	r1, [r4, #5]
	mov	r0, r1
	add	sp, #60
	pop	{r4, r5, r6, r7, pc}
.LBB104_15:
	str	r5, [sp]
	ldr	r1, [sp, #48]
	str	r1, [sp, #4]
	str	r4, [sp, #8]
	ldr	r1, [sp, #52]
	str	r1, [sp, #12]
	ldr	r0, [sp, #56]
	ldr	r2, [sp, #32]
	ldr	r3, [sp, #36]
	bl	ic_raw.list_calls.split_slow.55ebd757a04f39fd
	mov	r1, r0
	mov	r0, r1
	add	sp, #60
	pop	{r4, r5, r6, r7, pc}
	.p2align	2
.LCPI104_0:
	.long	536870911
.Lfunc_end104:
	.size	ic_list32_split_before, .Lfunc_end104-ic_list32_split_before
	.cfi_endproc
	.section	.text.ic_list32_transfer_after,"ax",%progbits
	.globl	ic_list32_transfer_after
	.p2align	1
	.type	ic_list32_transfer_after,%function
	.code	16
	.thumb_func
ic_list32_transfer_after:
	.cfi_startproc
	push	{r7, lr}
	.cfi_def_cfa_offset 8
	.cfi_offset lr, -4
	.cfi_offset r7, -8
	sub	sp, #24
	.cfi_def_cfa_offset 32
	ldr	r1, [sp, #44]
	str	r1, [sp, #16]
	ldr	r1, [sp, #40]
	str	r1, [sp, #12]
	ldr	r1, [sp, #36]
	str	r1, [sp, #8]
	movs	r1, #0
	str	r1, [sp, #4]
	ldr	r1, [sp, #32]
	str	r1, [sp]
	cmp	r0, #0
	bne	.LBB105_2
	movs	r1, #1
	lsls	r1, r1, #12
	adds	r0, r0, r1
.LBB105_2:
	bl	ic_raw_lists.transfer_calls.transfer_at.55ebd757a04f39fd
	add	sp, #24
	pop	{r7, pc}
.Lfunc_end105:
	.size	ic_list32_transfer_after, .Lfunc_end105-ic_list32_transfer_after
	.cfi_endproc
	.section	.text.ic_list32_transfer_before,"ax",%progbits
	.globl	ic_list32_transfer_before
	.p2align	1
	.type	ic_list32_transfer_before,%function
	.code	16
	.thumb_func
ic_list32_transfer_before:
	.cfi_startproc
	push	{r4, lr}
	.cfi_def_cfa_offset 8
	.cfi_offset lr, -4
	.cfi_offset r4, -8
	sub	sp, #24
	.cfi_def_cfa_offset 32
	ldr	r1, [sp, #44]
	str	r1, [sp, #16]
	ldr	r1, [sp, #40]
	str	r1, [sp, #12]
	ldr	r1, [sp, #36]
	str	r1, [sp, #8]
	movs	r1, #1
	str	r1, [sp, #4]
	ldr	r4, [sp, #32]
	str	r4, [sp]
	cmp	r0, #0
	bne	.LBB106_2
	lsls	r1, r1, #12
	adds	r0, r0, r1
.LBB106_2:
	bl	ic_raw_lists.transfer_calls.transfer_at.55ebd757a04f39fd
	add	sp, #24
	pop	{r4, pc}
.Lfunc_end106:
	.size	ic_list32_transfer_before, .Lfunc_end106-ic_list32_transfer_before
	.cfi_endproc
	.section	.text.ic_list_append,"ax",%progbits
	.globl	ic_list_append
	.p2align	1
	.type	ic_list_append,%function
	.code	16
	.thumb_func
ic_list_append:
	.cfi_startproc
	push	{r4, r5, r6, r7, lr}
	.cfi_def_cfa_offset 20
	.cfi_offset lr, -4
	.cfi_offset r7, -8
	.cfi_offset r6, -12
	.cfi_offset r5, -16
	.cfi_offset r4, -20
	sub	sp, #68
	.cfi_def_cfa_offset 88
	str	r3, [sp, #64]
	mov	r3, r2
	ldr	r2, [sp, #88]
	ldr	r1, [r2, #8]
	ldr	r5, [r2, #12]
	movs	r6, #15
	mov	r4, r5
	str	r6, [sp, #56]
	ands	r4, r6
	movs	r6, #7
	mvns	r7, r6
	mov	r6, r1
	str	r7, [sp, #52]
	ands	r6, r7
	str	r6, [sp, #36]
	orrs	r6, r4
	rsbs	r7, r6, #0
	adcs	r7, r6
	str	r4, [sp, #24]
	lsrs	r6, r4, #3
	lsls	r4, r5, #29
	lsrs	r1, r1, #3
	adds	r1, r1, r4
	movs	r4, #1
	str	r3, [sp, #40]
	subs	r1, r3, r1
	ldr	r1, [sp, #64]
	sbcs	r1, r6
	str	r4, [sp, #44]
	mov	r1, r4
	bhs	.LBB107_3
	orrs	r7, r1
	cmp	r0, #0
	beq	.LBB107_4
.LBB107_2:
	ldr	r1, [sp, #92]
	str	r1, [sp, #60]
	cmp	r7, #0
	beq	.LBB107_5
	b	.LBB107_24
.LBB107_3:
	movs	r1, #0
	orrs	r7, r1
	cmp	r0, #0
	bne	.LBB107_2
.LBB107_4:
	ldr	r1, [sp, #44]
	lsls	r1, r1, #12
	adds	r0, r0, r1
	ldr	r1, [sp, #92]
	str	r1, [sp, #60]
	cmp	r7, #0
	beq	.LBB107_5
	b	.LBB107_24
.LBB107_5:
	ldr	r1, [sp, #60]
	ldm	r1!, {r5, r7}
	ldr	r1, [sp, #56]
	ands	r7, r1
	ldr	r1, [sp, #52]
	ands	r5, r1
	ldr	r1, [sp, #36]
	lsls	r1, r1, #1
	adds	r3, r0, r1
	subs	r3, #16
	ldr	r1, [r3]
	str	r3, [sp, #20]
	ldr	r3, [r3, #4]
	movs	r4, #1
	eors	r1, r4
	orrs	r1, r3
	lsrs	r3, r5, #3
	lsls	r6, r7, #29
	adds	r3, r3, r6
	str	r7, [sp, #48]
	lsrs	r6, r7, #3
	ldr	r7, [sp, #40]
	subs	r3, r7, r3
	ldr	r3, [sp, #64]
	sbcs	r3, r6
	blo	.LBB107_7
	movs	r4, #0
.LBB107_7:
	cmp	r1, #0
	ldr	r6, [sp, #44]
	mov	r1, r6
	bne	.LBB107_9
	mov	r1, r4
.LBB107_9:
	mov	r3, r5
	ldr	r4, [sp, #48]
	orrs	r3, r4
	mov	r3, r6
	beq	.LBB107_11
	mov	r3, r1
.LBB107_11:
	cmp	r3, #0
	bne	.LBB107_24
	lsls	r1, r5, #1
	adds	r3, r0, r1
	mov	r4, r3
	subs	r4, #8
	ldr	r1, [r4]
	str	r4, [sp, #16]
	ldr	r6, [r4, #4]
	orrs	r6, r1
	bne	.LBB107_24
	str	r0, [sp, #32]
	ldr	r0, [sp, #60]
	ldr	r6, [r0, #8]
	ldr	r4, [r0, #12]
	ldr	r0, [sp, #56]
	ands	r4, r0
	ldr	r0, [sp, #52]
	ands	r6, r0
	lsrs	r1, r6, #3
	lsls	r7, r4, #29
	adds	r1, r1, r7
	str	r4, [sp, #28]
	lsrs	r7, r4, #3
	ldr	r4, [sp, #40]
	subs	r1, r4, r1
	ldr	r1, [sp, #64]
	sbcs	r1, r7
	blo	.LBB107_15
	movs	r7, #0
	b	.LBB107_16
.LBB107_15:
	movs	r7, #1
.LBB107_16:
	ldr	r4, [sp, #44]
	subs	r3, #16
	ldr	r1, [r3]
	lsls	r1, r1, #31
	ldr	r0, [sp, #32]
	beq	.LBB107_19
	mov	r1, r6
	ldr	r3, [sp, #28]
	orrs	r1, r3
	bne	.LBB107_20
.LBB107_18:
	cmp	r4, #0
	beq	.LBB107_21
	b	.LBB107_24
.LBB107_19:
	mov	r7, r4
	mov	r1, r6
	ldr	r3, [sp, #28]
	orrs	r1, r3
	beq	.LBB107_18
.LBB107_20:
	mov	r4, r7
	cmp	r4, #0
	bne	.LBB107_24
.LBB107_21:
	ldr	r7, [r2]
	ldr	r3, [r2, #4]
	ldr	r1, [sp, #56]
	ands	r3, r1
	ldr	r1, [sp, #52]
	ands	r7, r1
	mov	r1, r7
	eors	r1, r5
	str	r3, [sp, #56]
	ldr	r4, [sp, #48]
	eors	r3, r4
	orrs	r3, r1
	beq	.LBB107_24
	lsls	r1, r6, #1
	adds	r3, r0, r1
	subs	r3, #16
	ldr	r4, [r3]
	ldr	r0, [r3, #4]
	movs	r1, #1
	eors	r4, r1
	orrs	r4, r0
	ldr	r0, [sp, #32]
	bne	.LBB107_24
	orrs	r5, r1
	ldr	r4, [sp, #20]
	str	r5, [r4]
	ldr	r0, [sp, #48]
	str	r0, [r4, #4]
	ldr	r0, [sp, #36]
	ldr	r4, [sp, #16]
	str	r0, [r4]
	ldr	r0, [sp, #24]
	str	r0, [r4, #4]
	movs	r4, #0
	stm	r3!, {r1, r4}
	strb	r4, [r2, #15]
	strb	r4, [r2, #14]
	strb	r4, [r2, #13]
	ldr	r0, [sp, #28]
	strb	r0, [r2, #12]
	lsrs	r0, r6, #24
	strb	r0, [r2, #11]
	lsrs	r0, r6, #16
	strb	r0, [r2, #10]
	lsrs	r0, r6, #8
	strb	r0, [r2, #9]
	strb	r6, [r2, #8]
	strb	r4, [r2, #7]
	strb	r4, [r2, #6]
	strb	r4, [r2, #5]
	ldr	r0, [sp, #56]
	strb	r0, [r2, #4]
	lsrs	r0, r7, #24
	strb	r0, [r2, #3]
	lsrs	r0, r7, #16
	strb	r0, [r2, #2]
	lsrs	r0, r7, #8
	strb	r0, [r2, #1]
	strb	r7, [r2]
	str	r4, [sp]
	movs	r2, #16
	ldr	r0, [sp, #60]
	mov	r1, r4
	mov	r3, r4
	bl	ic.clear
	mov	r0, r4
	add	sp, #68
	pop	{r4, r5, r6, r7, pc}
.LBB107_24:
	movs	r3, #1
	movs	r1, #0
	mvns	r1, r1
	str	r2, [sp]
	str	r1, [sp, #4]
	ldr	r1, [sp, #60]
	str	r1, [sp, #8]
	str	r3, [sp, #12]
	ldr	r2, [sp, #40]
	ldr	r3, [sp, #64]
	bl	ic_raw.list_calls.splice_slow.5386baa488213e47
	mov	r4, r0
	mov	r0, r4
	add	sp, #68
	pop	{r4, r5, r6, r7, pc}
.Lfunc_end107:
	.size	ic_list_append, .Lfunc_end107-ic_list_append
	.cfi_endproc
	.section	.text.ic_list_check,"ax",%progbits
	.globl	ic_list_check
	.p2align	1
	.type	ic_list_check,%function
	.code	16
	.thumb_func
ic_list_check:
	.cfi_startproc
	push	{r4, r5, r6, r7, lr}
	.cfi_def_cfa_offset 20
	.cfi_offset lr, -4
	.cfi_offset r7, -8
	.cfi_offset r6, -12
	.cfi_offset r5, -16
	.cfi_offset r4, -20
	sub	sp, #48
	.cfi_def_cfa_offset 68
	str	r3, [sp, #16]
	str	r2, [sp, #12]
	ldr	r5, [sp, #68]
	ldr	r4, [r5]
	ldr	r1, [r5, #4]
	movs	r6, #15
	ands	r1, r6
	movs	r2, #7
	mvns	r3, r2
	ands	r4, r3
	mov	r2, r4
	orrs	r2, r1
	cmp	r0, #0
	str	r3, [sp, #20]
	bne	.LBB108_2
	movs	r3, #1
	lsls	r3, r3, #12
	adds	r0, r0, r3
.LBB108_2:
	ldr	r3, [r5, #8]
	str	r3, [sp, #4]
	ldr	r3, [r5, #12]
	str	r3, [sp]
	cmp	r2, #0
	beq	.LBB108_9
	str	r0, [sp, #8]
	movs	r7, #0
	str	r7, [sp, #40]
	mov	r5, r7
	str	r7, [sp, #44]
.LBB108_4:
	mov	r2, r1
	movs	r0, #5
	str	r0, [sp, #24]
	ldr	r3, [sp, #12]
	subs	r1, r5, r3
	mov	r1, r7
	ldr	r0, [sp, #16]
	sbcs	r1, r0
	bhs	.LBB108_14
	str	r7, [sp, #32]
	mov	r7, r5
	lsrs	r1, r4, #3
	mov	r5, r2
	lsls	r2, r2, #29
	adds	r1, r1, r2
	str	r5, [sp, #36]
	lsrs	r2, r5, #3
	subs	r1, r3, r1
	mov	r1, r0
	sbcs	r1, r2
	blo	.LBB108_14
	str	r4, [sp, #28]
	lsls	r1, r4, #1
	ldr	r0, [sp, #8]
	adds	r1, r0, r1
	mov	r2, r1
	subs	r2, #16
	ldr	r4, [r2]
	lsls	r5, r4, #31
	beq	.LBB108_14
	subs	r1, #8
	ldr	r5, [r1]
	ldr	r1, [r1, #4]
	mov	r3, r6
	ands	r1, r6
	ldr	r0, [sp, #40]
	eors	r1, r0
	ldr	r0, [sp, #20]
	ands	r5, r0
	ldr	r6, [sp, #44]
	eors	r5, r6
	orrs	r5, r1
	bne	.LBB108_14
	ldr	r1, [r2, #4]
	movs	r2, #0
	adds	r5, r7, #1
	ldr	r7, [sp, #32]
	adcs	r7, r2
	ands	r4, r0
	ands	r1, r3
	mov	r2, r4
	orrs	r2, r1
	ldr	r2, [sp, #28]
	str	r2, [sp, #44]
	ldr	r0, [sp, #36]
	str	r0, [sp, #40]
	mov	r6, r3
	bne	.LBB108_4
	b	.LBB108_10
.LBB108_9:
	movs	r5, #0
	mov	r7, r5
	mov	r2, r5
	mov	r0, r5
.LBB108_10:
	mov	r3, r0
	ldr	r4, [sp]
	ands	r4, r6
	ldr	r0, [sp, #20]
	ldr	r1, [sp, #4]
	ands	r1, r0
	eors	r1, r2
	eors	r4, r3
	orrs	r4, r1
	bne	.LBB108_12
	ldr	r1, [sp, #72]
	stm	r1!, {r5, r7}
	movs	r0, #0
	b	.LBB108_13
.LBB108_12:
	movs	r0, #5
.LBB108_13:
	str	r0, [sp, #24]
.LBB108_14:
	ldr	r0, [sp, #24]
	add	sp, #48
	pop	{r4, r5, r6, r7, pc}
.Lfunc_end108:
	.size	ic_list_check, .Lfunc_end108-ic_list_check
	.cfi_endproc
	.section	.text.ic_list_clear,"ax",%progbits
	.globl	ic_list_clear
	.p2align	1
	.type	ic_list_clear,%function
	.code	16
	.thumb_func
ic_list_clear:
	.cfi_startproc
	push	{r4, r5, r6, r7, lr}
	.cfi_def_cfa_offset 20
	.cfi_offset lr, -4
	.cfi_offset r7, -8
	.cfi_offset r6, -12
	.cfi_offset r5, -16
	.cfi_offset r4, -20
	sub	sp, #60
	.cfi_def_cfa_offset 80
	str	r2, [sp, #36]
	mov	r5, r0
	ldr	r0, [sp, #80]
	ldr	r4, [r0]
	ldr	r2, [r0, #4]
	movs	r6, #15
	ands	r2, r6
	movs	r1, #7
	mvns	r7, r1
	mov	r1, r2
	ands	r4, r7
	mov	r2, r4
	orrs	r2, r1
	cmp	r5, #0
	str	r1, [sp, #56]
	bne	.LBB109_2
	movs	r1, #1
	lsls	r1, r1, #12
	adds	r5, r5, r1
.LBB109_2:
	str	r5, [sp, #32]
	ldr	r5, [r0, #8]
	ldr	r1, [r0, #12]
	ands	r1, r6
	ands	r5, r7
	cmp	r2, #0
	beq	.LBB109_11
	str	r1, [sp, #16]
	movs	r2, #5
	ldr	r1, [sp, #36]
	orrs	r1, r3
	bne	.LBB109_4
	b	.LBB109_21
.LBB109_4:
	str	r5, [sp, #12]
	str	r2, [sp, #20]
	str	r7, [sp, #28]
	str	r0, [sp, #8]
	movs	r0, #0
	str	r0, [sp, #52]
	str	r0, [sp, #48]
	str	r4, [sp, #4]
	mov	r5, r4
	ldr	r7, [sp, #36]
	mov	r2, r7
	mov	r0, r3
	ldr	r1, [sp, #56]
	str	r3, [sp, #24]
.LBB109_5:
	str	r2, [sp, #44]
	mov	r4, r6
	lsrs	r2, r5, #3
	lsls	r6, r1, #29
	adds	r2, r2, r6
	str	r1, [sp, #56]
	lsrs	r6, r1, #3
	subs	r1, r7, r2
	mov	r1, r3
	sbcs	r1, r6
	blo	.LBB109_13
	str	r5, [sp, #40]
	lsls	r1, r5, #1
	ldr	r3, [sp, #32]
	adds	r6, r3, r1
	mov	r1, r6
	subs	r1, #16
	ldr	r7, [r1]
	lsls	r5, r7, #31
	beq	.LBB109_13
	subs	r6, #8
	ldm	r6, {r5, r6}
	mov	r3, r4
	ands	r6, r4
	ldr	r2, [sp, #48]
	eors	r6, r2
	ldr	r4, [sp, #28]
	ands	r5, r4
	ldr	r2, [sp, #52]
	eors	r5, r2
	orrs	r5, r6
	bne	.LBB109_13
	ldr	r1, [r1, #4]
	ands	r7, r4
	ands	r1, r3
	mov	r4, r7
	orrs	r4, r1
	mov	r6, r3
	ldr	r2, [sp, #44]
	beq	.LBB109_14
	movs	r4, #0
	subs	r2, r2, #1
	sbcs	r0, r4
	mov	r4, r2
	orrs	r4, r0
	ldr	r3, [sp, #40]
	str	r3, [sp, #52]
	ldr	r3, [sp, #56]
	str	r3, [sp, #48]
	mov	r5, r7
	ldr	r3, [sp, #24]
	ldr	r7, [sp, #36]
	bne	.LBB109_5
	ldr	r2, [sp, #20]
	b	.LBB109_21
.LBB109_11:
	orrs	r5, r1
	beq	.LBB109_20
	movs	r2, #5
	mov	r0, r2
	add	sp, #60
	pop	{r4, r5, r6, r7, pc}
.LBB109_13:
	ldr	r2, [sp, #20]
	mov	r0, r2
	add	sp, #60
	pop	{r4, r5, r6, r7, pc}
.LBB109_14:
	ldr	r1, [sp, #12]
	ldr	r0, [sp, #40]
	eors	r1, r0
	ldr	r0, [sp, #56]
	ldr	r2, [sp, #16]
	eors	r2, r0
	orrs	r2, r1
	ldr	r5, [sp, #32]
	ldr	r2, [sp, #20]
	bne	.LBB109_21
	ldr	r0, [sp, #8]
	ldr	r7, [sp, #28]
	ldr	r1, [sp, #4]
.LBB109_16:
	lsls	r1, r1, #1
	adds	r2, r5, r1
	subs	r2, #16
	ldr	r1, [r2]
	movs	r4, #0
	str	r4, [r2]
	ldr	r3, [r2, #4]
	str	r4, [r2, #4]
	ands	r3, r6
	ands	r1, r7
	orrs	r3, r1
	beq	.LBB109_20
	lsls	r1, r1, #1
	adds	r2, r5, r1
	subs	r2, #16
	ldr	r1, [r2]
	str	r4, [r2]
	ldr	r3, [r2, #4]
	str	r4, [r2, #4]
	ands	r3, r6
	ands	r1, r7
	orrs	r3, r1
	beq	.LBB109_20
	lsls	r1, r1, #1
	adds	r2, r5, r1
	subs	r2, #16
	ldr	r1, [r2]
	str	r4, [r2]
	ldr	r3, [r2, #4]
	str	r4, [r2, #4]
	ands	r3, r6
	ands	r1, r7
	orrs	r3, r1
	beq	.LBB109_20
	lsls	r1, r1, #1
	adds	r1, r5, r1
	subs	r1, #16
	ldr	r3, [r1]
	str	r4, [r1]
	ldr	r2, [r1, #4]
	str	r4, [r1, #4]
	mov	r1, r3
	ands	r2, r6
	ands	r1, r7
	orrs	r2, r1
	bne	.LBB109_16
.LBB109_20:
	movs	r4, #0
	str	r4, [sp]
	movs	r2, #16
	mov	r1, r4
	mov	r3, r4
	bl	ic.clear
	mov	r2, r4
	mov	r0, r2
	add	sp, #60
	pop	{r4, r5, r6, r7, pc}
.LBB109_21:
	mov	r0, r2
	add	sp, #60
	pop	{r4, r5, r6, r7, pc}
.Lfunc_end109:
	.size	ic_list_clear, .Lfunc_end109-ic_list_clear
	.cfi_endproc
	.section	.text.ic_list_fill,"ax",%progbits
	.globl	ic_list_fill
	.p2align	1
	.type	ic_list_fill,%function
	.code	16
	.thumb_func
ic_list_fill:
	.cfi_startproc
	push	{r4, r5, r6, r7, lr}
	.cfi_def_cfa_offset 20
	.cfi_offset lr, -4
	.cfi_offset r7, -8
	.cfi_offset r6, -12
	.cfi_offset r5, -16
	.cfi_offset r4, -20
	sub	sp, #60
	.cfi_def_cfa_offset 80
	movs	r6, #1
	movs	r1, #0
	cmp	r0, #0
	beq	.LBB110_3
	mov	r5, r1
	ldr	r4, [sp, #88]
	str	r4, [sp, #56]
	cmp	r4, #0
	bne	.LBB110_4
.LBB110_2:
	mov	r0, r1
	add	sp, #60
	pop	{r4, r5, r6, r7, pc}
.LBB110_3:
	lsls	r5, r6, #12
	ldr	r4, [sp, #88]
	str	r4, [sp, #56]
	cmp	r4, #0
	beq	.LBB110_2
.LBB110_4:
	str	r6, [sp, #28]
	str	r3, [sp, #52]
	str	r0, [sp, #36]
	str	r5, [sp, #32]
	adds	r1, r0, r5
	str	r1, [sp, #48]
	ldr	r0, [sp, #84]
	str	r0, [sp, #44]
	ldr	r4, [sp, #80]
	ldr	r6, [r4, #12]
	movs	r3, #15
	ands	r6, r3
	movs	r5, #7
	mvns	r5, r5
	ldr	r1, [r4, #8]
	ands	r1, r5
	mov	r7, r1
	orrs	r7, r6
	rsbs	r0, r7, #0
	adcs	r0, r7
	str	r0, [sp, #24]
	ldr	r0, [r4, #4]
	ands	r0, r3
	str	r4, [sp, #12]
	ldr	r4, [r4]
	ands	r4, r5
	cmp	r7, #0
	str	r6, [sp, #40]
	str	r1, [sp, #20]
	str	r4, [sp, #16]
	str	r0, [sp, #8]
	beq	.LBB110_8
	lsrs	r7, r1, #3
	lsls	r4, r6, #29
	adds	r4, r7, r4
	lsrs	r7, r6, #3
	subs	r4, r2, r4
	ldr	r4, [sp, #52]
	sbcs	r4, r7
	blo	.LBB110_9
	movs	r0, #0
	adds	r4, r5, #1
	adcs	r3, r0
	lsls	r5, r1, #1
	ldr	r6, [sp, #48]
	adds	r5, r6, r5
	subs	r5, #16
	ldr	r7, [r5]
	ldr	r5, [r5, #4]
	ands	r5, r3
	ands	r7, r4
	movs	r1, #1
	eors	r1, r7
	orrs	r1, r5
	beq	.LBB110_11
	mov	r1, r0
	b	.LBB110_10
.LBB110_8:
	mov	r1, r4
	orrs	r1, r0
	beq	.LBB110_11
.LBB110_9:
	movs	r1, #0
.LBB110_10:
	ldr	r0, [sp, #28]
	str	r0, [sp, #24]
	str	r1, [sp, #4]
	str	r1, [sp, #28]
	str	r1, [sp]
	b	.LBB110_12
.LBB110_11:
	ldr	r0, [sp, #20]
	str	r0, [sp, #4]
	ldr	r0, [sp, #40]
	str	r0, [sp]
.LBB110_12:
	ldr	r3, [sp, #52]
	ldr	r0, [sp, #32]
	ldr	r4, [sp, #44]
	lsls	r1, r4, #4
	adds	r1, r0, r1
	ldr	r0, [sp, #36]
	adds	r0, r0, r1
	adds	r4, r4, #1
	ldr	r5, [sp, #56]
.LBB110_13:
	movs	r1, #1
	cmp	r4, #0
	beq	.LBB110_2
	movs	r6, #0
	subs	r7, r2, r4
	mov	r7, r3
	sbcs	r7, r6
	blo	.LBB110_2
	ldr	r1, [r0]
	lsls	r1, r1, #31
	lsrs	r1, r1, #30
	bne	.LBB110_2
	adds	r4, r4, #1
	adds	r0, #16
	subs	r5, r5, #1
	bne	.LBB110_13
	ldr	r0, [sp, #28]
	cmp	r0, #0
	ldr	r4, [sp, #48]
	beq	.LBB110_30
	ldr	r0, [sp, #44]
	adds	r0, r0, #1
	bhs	.LBB110_31
	subs	r1, r2, r0
	mov	r1, r3
	sbcs	r1, r6
	blo	.LBB110_31
	lsls	r7, r0, #3
	lsls	r1, r7, #1
	adds	r4, r4, r1
	mov	r1, r4
	subs	r1, #16
	ldrb	r5, [r1]
	lsls	r5, r5, #31
	bne	.LBB110_31
	lsrs	r5, r0, #29
	ldr	r0, [sp, #24]
	cmp	r0, #0
	str	r6, [sp, #32]
	mov	r0, r6
	str	r7, [sp, #52]
	str	r7, [sp, #20]
	str	r5, [sp, #40]
	str	r5, [sp, #24]
	ldr	r7, [sp, #48]
	bne	.LBB110_23
	ldr	r0, [sp, #4]
	lsls	r0, r0, #1
	adds	r0, r7, r0
	subs	r0, #16
	movs	r5, #1
	ldr	r7, [sp, #52]
	orrs	r5, r7
	str	r5, [r0]
	ldr	r5, [sp, #40]
	str	r5, [r0, #4]
	ldr	r0, [sp, #4]
	str	r0, [sp, #32]
	ldr	r0, [sp]
	ldr	r5, [sp, #16]
	str	r5, [sp, #20]
	ldr	r5, [sp, #8]
	str	r5, [sp, #24]
.LBB110_23:
	movs	r5, #1
	str	r5, [sp, #36]
	stm	r1!, {r5, r6}
	subs	r4, #8
	ldr	r1, [sp, #32]
	str	r1, [r4]
	str	r0, [r4, #4]
	ldr	r0, [sp, #56]
	subs	r6, r0, #1
	beq	.LBB110_33
	ldr	r0, [sp, #44]
	adds	r1, r0, #2
	ldr	r0, [sp, #52]
.LBB110_25:
	mov	r5, r0
	cmp	r1, #0
	beq	.LBB110_34
	movs	r4, #0
	subs	r0, r2, r1
	mov	r0, r3
	sbcs	r0, r4
	blo	.LBB110_34
	str	r4, [sp, #44]
	str	r6, [sp, #56]
	str	r5, [sp, #52]
	lsls	r5, r1, #3
	lsls	r0, r5, #1
	ldr	r7, [sp, #48]
	adds	r6, r7, r0
	mov	r0, r6
	subs	r0, #16
	ldrb	r4, [r0]
	lsls	r4, r4, #31
	bne	.LBB110_33
	lsrs	r4, r1, #29
	str	r4, [sp, #32]
	mov	r7, r5
	ldr	r4, [sp, #36]
	orrs	r7, r4
	str	r7, [sp, #28]
	ldr	r4, [sp, #52]
	lsls	r4, r4, #1
	ldr	r7, [sp, #48]
	adds	r4, r7, r4
	subs	r4, #16
	ldr	r7, [sp, #28]
	str	r7, [r4]
	ldr	r7, [sp, #32]
	str	r7, [r4, #4]
	ldr	r4, [sp, #36]
	str	r4, [r0]
	ldr	r4, [sp, #44]
	str	r4, [r0, #4]
	subs	r6, #8
	ldr	r0, [sp, #52]
	str	r0, [r6]
	ldr	r0, [sp, #40]
	str	r0, [r6, #4]
	adds	r1, r1, #1
	ldr	r6, [sp, #56]
	subs	r6, r6, #1
	mov	r0, r5
	str	r7, [sp, #40]
	bne	.LBB110_25
	mov	r4, r5
	ldr	r0, [sp, #20]
	str	r0, [sp, #16]
	ldr	r6, [sp, #24]
	b	.LBB110_32
.LBB110_30:
	movs	r1, #5
	mov	r0, r1
	add	sp, #60
	pop	{r4, r5, r6, r7, pc}
.LBB110_31:
	ldr	r7, [sp, #40]
	ldr	r4, [sp, #20]
	ldr	r6, [sp, #8]
.LBB110_32:
	ldr	r2, [sp, #12]
	strb	r4, [r2, #8]
	movs	r1, #0
	strb	r1, [r2, #7]
	strb	r1, [r2, #6]
	strb	r1, [r2, #5]
	ldr	r5, [sp, #16]
	strb	r5, [r2]
	strb	r7, [r2, #12]
	lsrs	r0, r4, #24
	strb	r0, [r2, #11]
	lsrs	r0, r4, #16
	strb	r0, [r2, #10]
	lsrs	r0, r4, #8
	strb	r0, [r2, #9]
	strb	r6, [r2, #4]
	lsrs	r0, r5, #24
	strb	r0, [r2, #3]
	lsrs	r0, r5, #16
	strb	r0, [r2, #2]
	lsrs	r0, r5, #8
	strb	r0, [r2, #1]
	lsrs	r0, r7, #24
	strb	r0, [r2, #15]
	lsrs	r0, r7, #16
	strb	r0, [r2, #14]
	lsrs	r0, r7, #8
	strb	r0, [r2, #13]
	mov	r0, r1
	add	sp, #60
	pop	{r4, r5, r6, r7, pc}
.LBB110_33:
	ldr	r0, [sp, #20]
	str	r0, [sp, #16]
	ldr	r6, [sp, #24]
	ldr	r4, [sp, #52]
	ldr	r7, [sp, #40]
	b	.LBB110_32
.LBB110_34:
	ldr	r0, [sp, #20]
	str	r0, [sp, #16]
	ldr	r6, [sp, #24]
	mov	r4, r5
	ldr	r7, [sp, #40]
	b	.LBB110_32
.Lfunc_end110:
	.size	ic_list_fill, .Lfunc_end110-ic_list_fill
	.cfi_endproc
	.section	.text.ic_list_insert_after,"ax",%progbits
	.globl	ic_list_insert_after
	.p2align	1
	.type	ic_list_insert_after,%function
	.code	16
	.thumb_func
ic_list_insert_after:
	.cfi_startproc
	push	{r4, r5, r6, r7, lr}
	.cfi_def_cfa_offset 20
	.cfi_offset lr, -4
	.cfi_offset r7, -8
	.cfi_offset r6, -12
	.cfi_offset r5, -16
	.cfi_offset r4, -20
	sub	sp, #76
	.cfi_def_cfa_offset 96
	str	r3, [sp, #64]
	str	r2, [sp, #60]
	mov	r1, r0
	movs	r0, #1
	cmp	r1, #0
	str	r0, [sp, #48]
	bne	.LBB111_2
	lsls	r0, r0, #12
	adds	r1, r1, r0
.LBB111_2:
	str	r1, [sp, #72]
	ldr	r0, [sp, #96]
	ldm	r0!, {r2, r7}
	ldr	r5, [r0]
	subs	r0, #8
	str	r0, [sp, #36]
	ldr	r3, [r0, #12]
	movs	r1, #15
	str	r1, [sp, #40]
	movs	r0, #7
	mvns	r4, r0
	ands	r7, r1
	ands	r2, r4
	ldr	r0, [sp, #104]
	str	r0, [sp, #44]
	ldr	r1, [sp, #100]
	adds	r6, r1, #1
	lsls	r0, r6, #3
	str	r0, [sp, #68]
	str	r1, [sp, #8]
	str	r6, [sp, #56]
	cmp	r6, r1
	mov	r6, r4
	ldr	r4, [sp, #40]
	str	r2, [sp, #24]
	str	r7, [sp, #20]
	blo	.LBB111_6
	mov	r0, r3
	movs	r2, #0
	ldr	r3, [sp, #60]
	ldr	r1, [sp, #56]
	subs	r3, r3, r1
	ldr	r3, [sp, #64]
	sbcs	r3, r2
	bhs	.LBB111_4
	b	.LBB111_20
.LBB111_4:
	ldr	r2, [sp, #68]
	lsls	r2, r2, #1
	ldr	r3, [sp, #72]
	adds	r2, r3, r2
	subs	r2, #16
	ldr	r3, [r2]
	mov	r7, r3
	lsls	r3, r3, #31
	bne	.LBB111_5
	b	.LBB111_20
.LBB111_5:
	ldr	r3, [r2, #4]
	mov	r2, r7
	mov	r7, r3
	ands	r2, r6
	ands	r7, r4
	mov	r3, r0
.LBB111_6:
	ands	r3, r4
	ands	r5, r6
	str	r2, [sp, #52]
	orrs	r2, r7
	rsbs	r0, r2, #0
	adcs	r0, r2
	str	r0, [sp, #32]
	cmp	r2, #0
	str	r5, [sp, #12]
	mov	r2, r5
	str	r3, [sp, #16]
	beq	.LBB111_10
	ldr	r0, [sp, #52]
	lsrs	r2, r0, #3
	lsls	r3, r7, #29
	adds	r2, r2, r3
	lsrs	r3, r7, #3
	ldr	r0, [sp, #60]
	subs	r2, r0, r2
	ldr	r2, [sp, #64]
	sbcs	r2, r3
	blo	.LBB111_20
	ldr	r0, [sp, #52]
	lsls	r2, r0, #1
	ldr	r0, [sp, #72]
	adds	r3, r0, r2
	mov	r2, r3
	subs	r2, #16
	ldrb	r2, [r2]
	lsls	r2, r2, #31
	beq	.LBB111_20
	subs	r3, #8
	ldm	r3, {r2, r3}
	ands	r3, r4
	ands	r2, r6
.LBB111_10:
	str	r7, [sp, #28]
	ldr	r0, [sp, #44]
	adds	r7, r0, #1
	beq	.LBB111_20
	movs	r1, #0
	ldr	r0, [sp, #60]
	subs	r6, r0, r7
	ldr	r6, [sp, #64]
	sbcs	r6, r1
	blo	.LBB111_20
	ldr	r0, [sp, #56]
	lsrs	r4, r0, #29
	ldr	r0, [sp, #68]
	eors	r2, r0
	eors	r3, r4
	orrs	r3, r2
	bne	.LBB111_20
	lsls	r5, r7, #3
	lsls	r3, r5, #1
	ldr	r0, [sp, #72]
	adds	r3, r0, r3
	mov	r6, r3
	subs	r6, #16
	ldrb	r0, [r6]
	lsls	r0, r0, #31
	bne	.LBB111_20
	str	r4, [sp, #44]
	lsrs	r4, r7, #29
	ldr	r0, [sp, #56]
	cmp	r0, #0
	mov	r2, r5
	mov	r0, r4
	beq	.LBB111_16
	ldr	r0, [sp, #68]
	lsls	r0, r0, #1
	ldr	r2, [sp, #72]
	adds	r0, r2, r0
	subs	r0, #16
	mov	r2, r5
	ldr	r7, [sp, #48]
	orrs	r2, r7
	stm	r0!, {r2, r4}
	ldr	r2, [sp, #24]
	ldr	r0, [sp, #20]
.LBB111_16:
	str	r2, [sp, #60]
	str	r0, [sp, #64]
	ldr	r0, [sp, #32]
	cmp	r0, #0
	bne	.LBB111_18
	ldr	r0, [sp, #52]
	lsls	r2, r0, #1
	ldr	r7, [sp, #72]
	adds	r2, r7, r2
	subs	r2, #8
	str	r5, [r2]
	str	r4, [r2, #4]
	ldr	r4, [sp, #16]
	ldr	r7, [sp, #12]
	b	.LBB111_19
.LBB111_18:
	mov	r7, r5
	ldr	r0, [sp, #52]
.LBB111_19:
	ldr	r2, [sp, #48]
	orrs	r0, r2
	str	r0, [r6]
	ldr	r0, [sp, #28]
	str	r0, [r6, #4]
	subs	r3, #8
	ldr	r2, [sp, #68]
	str	r2, [r3]
	ldr	r0, [sp, #44]
	str	r0, [r3, #4]
	lsrs	r2, r7, #24
	ldr	r0, [sp, #36]
	strb	r2, [r0, #11]
	lsrs	r2, r7, #16
	strb	r2, [r0, #10]
	lsrs	r2, r7, #8
	strb	r2, [r0, #9]
	strb	r7, [r0, #8]
	strb	r1, [r0, #15]
	strb	r1, [r0, #14]
	strb	r1, [r0, #13]
	strb	r4, [r0, #12]
	ldr	r3, [sp, #60]
	lsrs	r2, r3, #24
	strb	r2, [r0, #3]
	lsrs	r2, r3, #16
	strb	r2, [r0, #2]
	lsrs	r2, r3, #8
	strb	r2, [r0, #1]
	strb	r3, [r0]
	strb	r1, [r0, #7]
	strb	r1, [r0, #6]
	strb	r1, [r0, #5]
	ldr	r2, [sp, #64]
	strb	r2, [r0, #4]
	mov	r0, r1
	add	sp, #76
	pop	{r4, r5, r6, r7, pc}
.LBB111_20:
	ldr	r0, [sp, #8]
	str	r0, [sp]
	ldr	r0, [sp, #44]
	str	r0, [sp, #4]
	ldr	r0, [sp, #72]
	ldr	r2, [sp, #60]
	ldr	r3, [sp, #64]
	bl	ic_raw.table.RawTable.refusal.85cd03e557136797
	mov	r1, r0
	mov	r0, r1
	add	sp, #76
	pop	{r4, r5, r6, r7, pc}
.Lfunc_end111:
	.size	ic_list_insert_after, .Lfunc_end111-ic_list_insert_after
	.cfi_endproc
	.section	.text.ic_list_insert_before,"ax",%progbits
	.globl	ic_list_insert_before
	.p2align	1
	.type	ic_list_insert_before,%function
	.code	16
	.thumb_func
ic_list_insert_before:
	.cfi_startproc
	push	{r4, r5, r6, r7, lr}
	.cfi_def_cfa_offset 20
	.cfi_offset lr, -4
	.cfi_offset r7, -8
	.cfi_offset r6, -12
	.cfi_offset r5, -16
	.cfi_offset r4, -20
	sub	sp, #76
	.cfi_def_cfa_offset 96
	str	r3, [sp, #60]
	str	r2, [sp, #56]
	movs	r1, #1
	str	r0, [sp, #72]
	cmp	r0, #0
	str	r1, [sp, #52]
	bne	.LBB112_2
	lsls	r0, r1, #12
	ldr	r1, [sp, #72]
	adds	r1, r1, r0
	str	r1, [sp, #72]
.LBB112_2:
	ldr	r0, [sp, #96]
	ldr	r1, [r0]
	str	r1, [sp, #64]
	ldr	r6, [r0, #4]
	ldr	r3, [r0, #8]
	str	r0, [sp, #20]
	ldr	r2, [r0, #12]
	movs	r7, #15
	ands	r2, r7
	movs	r0, #7
	mvns	r4, r0
	ands	r3, r4
	ldr	r0, [sp, #104]
	str	r0, [sp, #32]
	ldr	r1, [sp, #100]
	adds	r5, r1, #1
	lsls	r0, r5, #3
	str	r0, [sp, #68]
	str	r1, [sp, #8]
	cmp	r5, r1
	mov	r1, r7
	ldr	r7, [sp, #64]
	str	r3, [sp, #24]
	mov	r0, r3
	str	r2, [sp, #28]
	mov	r3, r2
	blo	.LBB112_6
	str	r6, [sp, #40]
	movs	r0, #0
	ldr	r2, [sp, #56]
	subs	r2, r2, r5
	ldr	r2, [sp, #60]
	sbcs	r2, r0
	bhs	.LBB112_4
	b	.LBB112_23
.LBB112_4:
	ldr	r0, [sp, #68]
	lsls	r0, r0, #1
	ldr	r2, [sp, #72]
	adds	r0, r2, r0
	mov	r2, r0
	subs	r2, #16
	ldrb	r2, [r2]
	lsls	r2, r2, #31
	bne	.LBB112_5
	b	.LBB112_23
.LBB112_5:
	subs	r0, #8
	ldm	r0!, {r2, r3}
	mov	r0, r2
	ands	r3, r1
	ands	r0, r4
	ldr	r6, [sp, #40]
.LBB112_6:
	str	r1, [sp, #12]
	ands	r6, r1
	ands	r7, r4
	str	r5, [sp, #44]
	lsrs	r1, r5, #29
	mov	r2, r0
	orrs	r0, r3
	mov	r5, r3
	rsbs	r3, r0, #0
	adcs	r3, r0
	cmp	r0, #0
	str	r7, [sp, #64]
	str	r6, [sp, #40]
	str	r2, [sp, #48]
	str	r5, [sp, #16]
	beq	.LBB112_9
	str	r1, [sp, #36]
	lsrs	r0, r2, #3
	lsls	r2, r5, #29
	adds	r0, r0, r2
	lsrs	r2, r5, #3
	ldr	r5, [sp, #56]
	subs	r0, r5, r0
	ldr	r0, [sp, #60]
	sbcs	r0, r2
	ldr	r1, [sp, #12]
	blo	.LBB112_23
	movs	r0, #0
	adds	r2, r4, #1
	adcs	r1, r0
	ldr	r0, [sp, #48]
	lsls	r0, r0, #1
	ldr	r5, [sp, #72]
	adds	r0, r5, r0
	subs	r0, #16
	ldr	r5, [r0]
	ldr	r0, [r0, #4]
	ands	r0, r1
	ldr	r1, [sp, #36]
	eors	r0, r1
	ldr	r1, [sp, #68]
	ldr	r6, [sp, #52]
	orrs	r1, r6
	ands	r5, r2
	eors	r5, r1
	orrs	r5, r0
	beq	.LBB112_10
	b	.LBB112_23
.LBB112_9:
	ldr	r0, [sp, #68]
	eors	r0, r7
	eors	r1, r6
	orrs	r1, r0
	str	r7, [sp, #68]
	str	r6, [sp, #36]
	bne	.LBB112_23
.LBB112_10:
	ldr	r0, [sp, #32]
	adds	r2, r0, #1
	beq	.LBB112_23
	movs	r1, #0
	ldr	r0, [sp, #56]
	subs	r0, r0, r2
	ldr	r0, [sp, #60]
	sbcs	r0, r1
	blo	.LBB112_23
	lsls	r5, r2, #3
	lsls	r0, r5, #1
	ldr	r6, [sp, #72]
	adds	r6, r6, r0
	mov	r0, r6
	subs	r0, #16
	ldrb	r7, [r0]
	lsls	r7, r7, #31
	bne	.LBB112_23
	lsrs	r7, r2, #29
	cmp	r3, #0
	mov	r2, r5
	mov	r4, r7
	bne	.LBB112_15
	ldr	r2, [sp, #48]
	lsls	r3, r2, #1
	ldr	r2, [sp, #72]
	adds	r3, r2, r3
	subs	r3, #16
	mov	r4, r7
	mov	r7, r5
	ldr	r2, [sp, #52]
	orrs	r7, r2
	str	r7, [r3]
	mov	r7, r4
	str	r4, [r3, #4]
	ldr	r2, [sp, #64]
	ldr	r4, [sp, #40]
.LBB112_15:
	str	r2, [sp, #64]
	ldr	r2, [sp, #44]
	cmp	r2, #0
	beq	.LBB112_17
	ldr	r3, [sp, #68]
	str	r4, [sp, #60]
	mov	r4, r7
	lsls	r7, r3, #1
	ldr	r2, [sp, #72]
	adds	r7, r2, r7
	subs	r7, #8
	str	r5, [r7]
	str	r4, [r7, #4]
	ldr	r4, [sp, #60]
	b	.LBB112_18
.LBB112_17:
	str	r5, [sp, #24]
	str	r7, [sp, #28]
	ldr	r3, [sp, #68]
.LBB112_18:
	ldr	r7, [sp, #36]
	subs	r6, #8
	ldr	r2, [sp, #48]
	str	r2, [r6]
	ldr	r2, [sp, #16]
	str	r2, [r6, #4]
	ldr	r2, [sp, #52]
	orrs	r3, r2
	ldr	r5, [sp, #44]
	cmp	r5, #0
	bne	.LBB112_20
	mov	r7, r5
.LBB112_20:
	str	r7, [r0, #4]
	beq	.LBB112_22
	mov	r2, r3
.LBB112_22:
	str	r2, [r0]
	ldr	r2, [sp, #24]
	lsrs	r0, r2, #24
	ldr	r3, [sp, #20]
	strb	r0, [r3, #11]
	lsrs	r0, r2, #16
	strb	r0, [r3, #10]
	lsrs	r0, r2, #8
	strb	r0, [r3, #9]
	strb	r2, [r3, #8]
	strb	r1, [r3, #15]
	strb	r1, [r3, #14]
	strb	r1, [r3, #13]
	ldr	r0, [sp, #28]
	strb	r0, [r3, #12]
	ldr	r2, [sp, #64]
	lsrs	r0, r2, #24
	strb	r0, [r3, #3]
	lsrs	r0, r2, #16
	strb	r0, [r3, #2]
	lsrs	r0, r2, #8
	strb	r0, [r3, #1]
	strb	r2, [r3]
	strb	r1, [r3, #7]
	strb	r1, [r3, #6]
	strb	r1, [r3, #5]
	strb	r4, [r3, #4]
	mov	r0, r1
	add	sp, #76
	pop	{r4, r5, r6, r7, pc}
.LBB112_23:
	ldr	r0, [sp, #8]
	str	r0, [sp]
	ldr	r0, [sp, #32]
	str	r0, [sp, #4]
	ldr	r0, [sp, #72]
	ldr	r2, [sp, #56]
	ldr	r3, [sp, #60]
	bl	ic_raw.table.RawTable.refusal.85cd03e557136797
	mov	r1, r0
	mov	r0, r1
	add	sp, #76
	pop	{r4, r5, r6, r7, pc}
.Lfunc_end112:
	.size	ic_list_insert_before, .Lfunc_end112-ic_list_insert_before
	.cfi_endproc
	.section	.text.ic_list_merge,"ax",%progbits
	.globl	ic_list_merge
	.p2align	1
	.type	ic_list_merge,%function
	.code	16
	.thumb_func
ic_list_merge:
	.cfi_startproc
	push	{r4, r5, r6, r7, lr}
	.cfi_def_cfa_offset 20
	.cfi_offset lr, -4
	.cfi_offset r7, -8
	.cfi_offset r6, -12
	.cfi_offset r5, -16
	.cfi_offset r4, -20
	sub	sp, #140
	.cfi_def_cfa_offset 160
	ldr	r4, [sp, #172]
	str	r4, [sp, #132]
	ldr	r5, [sp, #168]
	str	r5, [sp, #128]
	movs	r1, #0
	str	r1, [sp, #124]
	str	r2, [sp, #96]
	str	r1, [sp, #64]
	add	r6, sp, #108
	stm	r6!, {r1, r2, r3}
	movs	r1, #1
	str	r1, [sp, #68]
	lsls	r2, r1, #12
	ldr	r1, [sp, #160]
	cmp	r1, #0
	bne	.LBB113_2
	adds	r1, r1, r2
.LBB113_2:
	str	r1, [sp, #120]
	cmp	r0, #0
	bne	.LBB113_4
	adds	r0, r0, r2
.LBB113_4:
	str	r0, [sp, #76]
	str	r0, [sp, #104]
	ldr	r0, [sp, #96]
	str	r5, [sp, #12]
	subs	r0, r5, r0
	str	r4, [sp, #16]
	mov	r0, r4
	str	r3, [sp, #72]
	sbcs	r0, r3
	bhs	.LBB113_5
	b	.LBB113_42
.LBB113_5:
	ldr	r0, [sp, #180]
	ldr	r1, [r0]
	str	r1, [sp, #52]
	ldr	r1, [r0, #4]
	str	r1, [sp, #56]
	ldr	r1, [r0, #8]
	str	r1, [sp, #48]
	str	r0, [sp, #32]
	ldr	r0, [r0, #12]
	str	r0, [sp, #44]
	movs	r3, #15
	str	r3, [sp, #92]
	movs	r0, #7
	mvns	r4, r0
	ldr	r0, [sp, #176]
	ldm	r0!, {r1, r2, r6}
	subs	r0, #12
	str	r0, [sp, #24]
	ldr	r5, [r0, #12]
	ands	r5, r3
	ands	r6, r4
	ands	r2, r3
	str	r4, [sp, #100]
	ands	r1, r4
	mov	r0, r1
	orrs	r0, r2
	rsbs	r3, r0, #0
	adcs	r3, r0
	str	r3, [sp, #28]
	cmp	r0, #0
	str	r2, [sp, #40]
	str	r1, [sp, #36]
	str	r5, [sp, #60]
	str	r6, [sp, #20]
	beq	.LBB113_17
	ldr	r3, [sp, #64]
	mov	r0, r3
	mov	r5, r3
	mov	r6, r3
.LBB113_7:
	str	r5, [sp, #88]
	mov	r7, r2
	mov	r4, r1
	lsrs	r1, r1, #3
	lsls	r2, r2, #29
	adds	r1, r1, r2
	lsrs	r2, r7, #3
	ldr	r5, [sp, #96]
	subs	r1, r5, r1
	ldr	r5, [sp, #72]
	mov	r1, r5
	sbcs	r1, r2
	blo	.LBB113_9
	ldr	r1, [sp, #64]
	b	.LBB113_10
.LBB113_9:
	movs	r1, #1
.LBB113_10:
	ldr	r2, [sp, #96]
	str	r6, [sp, #84]
	subs	r2, r6, r2
	mov	r2, r3
	sbcs	r2, r5
	ldr	r2, [sp, #68]
	bhs	.LBB113_12
	mov	r2, r1
.LBB113_12:
	cmp	r2, #0
	beq	.LBB113_13
	b	.LBB113_42
.LBB113_13:
	lsls	r1, r4, #1
	ldr	r2, [sp, #76]
	adds	r6, r2, r1
	mov	r2, r6
	subs	r2, #16
	ldr	r1, [r2]
	lsls	r5, r1, #31
	bne	.LBB113_14
	b	.LBB113_42
.LBB113_14:
	subs	r6, #8
	ldm	r6, {r5, r6}
	str	r0, [sp, #80]
	mov	r0, r4
	mov	r4, r7
	ldr	r7, [sp, #92]
	ands	r6, r7
	mov	r7, r4
	ldr	r4, [sp, #88]
	eors	r6, r4
	ldr	r4, [sp, #100]
	ands	r5, r4
	ldr	r4, [sp, #80]
	eors	r5, r4
	orrs	r5, r6
	beq	.LBB113_15
	b	.LBB113_42
.LBB113_15:
	ldr	r2, [r2, #4]
	movs	r4, #0
	ldr	r6, [sp, #84]
	adds	r6, r6, #1
	adcs	r3, r4
	ldr	r4, [sp, #100]
	ands	r1, r4
	ldr	r4, [sp, #92]
	ands	r2, r4
	mov	r4, r1
	orrs	r4, r2
	mov	r5, r7
	bne	.LBB113_7
	mov	r4, r0
	ldr	r0, [sp, #20]
	eors	r4, r0
	ldr	r0, [sp, #60]
	eors	r7, r0
	orrs	r7, r4
	beq	.LBB113_18
	b	.LBB113_42
.LBB113_17:
	mov	r0, r6
	orrs	r0, r5
	beq	.LBB113_18
	b	.LBB113_42
.LBB113_18:
	ldr	r0, [sp, #92]
	ldr	r4, [sp, #44]
	ands	r4, r0
	ldr	r1, [sp, #100]
	ldr	r3, [sp, #48]
	ands	r3, r1
	ldr	r2, [sp, #56]
	ands	r2, r0
	ldr	r0, [sp, #52]
	ands	r0, r1
	mov	r1, r0
	orrs	r0, r2
	bne	.LBB113_19
	b	.LBB113_39
.LBB113_19:
	str	r4, [sp, #44]
	str	r3, [sp, #48]
	movs	r4, #0
	str	r1, [sp, #52]
	str	r2, [sp, #56]
	mov	r0, r4
	mov	r6, r4
	mov	r7, r4
	str	r4, [sp, #60]
.LBB113_20:
	str	r6, [sp, #80]
	str	r0, [sp, #84]
	mov	r3, r2
	mov	r6, r1
	lsrs	r1, r1, #3
	lsls	r2, r2, #29
	adds	r1, r1, r2
	lsrs	r2, r3, #3
	ldr	r0, [sp, #96]
	subs	r1, r0, r1
	ldr	r0, [sp, #72]
	mov	r1, r0
	sbcs	r1, r2
	blo	.LBB113_22
	ldr	r1, [sp, #60]
	b	.LBB113_23
.LBB113_22:
	movs	r1, #1
.LBB113_23:
	ldr	r2, [sp, #96]
	subs	r2, r7, r2
	mov	r2, r4
	sbcs	r2, r0
	ldr	r2, [sp, #68]
	bhs	.LBB113_25
	mov	r2, r1
.LBB113_25:
	cmp	r2, #0
	beq	.LBB113_26
	b	.LBB113_42
.LBB113_26:
	lsls	r1, r6, #1
	ldr	r0, [sp, #76]
	adds	r5, r0, r1
	mov	r2, r5
	subs	r2, #16
	ldr	r1, [r2]
	lsls	r0, r1, #31
	bne	.LBB113_27
	b	.LBB113_42
.LBB113_27:
	subs	r5, #8
	ldm	r5, {r0, r5}
	str	r6, [sp, #64]
	str	r3, [sp, #88]
	ldr	r3, [sp, #92]
	ands	r5, r3
	ldr	r3, [sp, #80]
	eors	r5, r3
	ldr	r3, [sp, #100]
	ands	r0, r3
	ldr	r3, [sp, #64]
	ldr	r6, [sp, #84]
	eors	r0, r6
	orrs	r0, r5
	beq	.LBB113_28
	b	.LBB113_42
.LBB113_28:
	ldr	r2, [r2, #4]
	movs	r5, #0
	adds	r7, r7, #1
	adcs	r4, r5
	ldr	r0, [sp, #100]
	ands	r1, r0
	ldr	r0, [sp, #92]
	ands	r2, r0
	mov	r0, r1
	orrs	r0, r2
	mov	r0, r3
	ldr	r6, [sp, #88]
	bne	.LBB113_20
	ldr	r0, [sp, #36]
	ldr	r1, [sp, #52]
	eors	r0, r1
	ldr	r1, [sp, #40]
	ldr	r2, [sp, #56]
	eors	r1, r2
	orrs	r1, r0
	beq	.LBB113_42
	ldr	r0, [sp, #48]
	eors	r3, r0
	ldr	r0, [sp, #44]
	ldr	r1, [sp, #88]
	eors	r1, r0
	orrs	r1, r3
	bne	.LBB113_42
	ldr	r0, [sp, #28]
	cmp	r0, #0
	bne	.LBB113_43
	ldr	r0, [sp, #52]
	str	r0, [sp]
	ldr	r0, [sp, #56]
	str	r0, [sp, #4]
	add	r0, sp, #104
	add	r1, sp, #120
	ldr	r2, [sp, #36]
	ldr	r3, [sp, #40]
	bl	ic_list_algorithms.merge.merge_runs.6bd71b5c7308988e
	mov	r3, r1
	lsls	r1, r0, #1
	ldr	r2, [sp, #76]
	adds	r4, r2, r1
	mov	r2, r4
	subs	r2, #8
	str	r5, [r2]
	str	r5, [r2, #4]
	subs	r4, #16
	ldm	r4!, {r1, r2}
	ldr	r5, [sp, #92]
	ands	r2, r5
	ldr	r6, [sp, #100]
	ands	r1, r6
	mov	r4, r1
	orrs	r4, r2
	beq	.LBB113_45
	mov	r7, r2
	str	r0, [sp, #36]
	str	r3, [sp, #40]
	mov	r4, r3
	mov	r6, r5
	ldr	r5, [sp, #76]
.LBB113_34:
	lsls	r2, r1, #1
	adds	r2, r5, r2
	mov	r3, r2
	subs	r3, #8
	stm	r3!, {r0, r4}
	subs	r2, #16
	ldr	r4, [r2]
	ldr	r0, [r2, #4]
	ands	r0, r6
	ldr	r2, [sp, #100]
	ands	r4, r2
	mov	r2, r4
	orrs	r2, r0
	beq	.LBB113_47
	lsls	r2, r4, #1
	adds	r2, r5, r2
	mov	r3, r2
	subs	r3, #8
	stm	r3!, {r1, r7}
	subs	r2, #16
	ldm	r2!, {r1, r3}
	ands	r3, r6
	ldr	r2, [sp, #100]
	ands	r1, r2
	mov	r2, r1
	orrs	r2, r3
	beq	.LBB113_46
	mov	r7, r3
	lsls	r2, r1, #1
	adds	r2, r5, r2
	mov	r3, r2
	subs	r3, #8
	str	r4, [r3]
	str	r0, [r3, #4]
	subs	r2, #16
	ldm	r2!, {r0, r4}
	ands	r4, r6
	ldr	r2, [sp, #100]
	ands	r0, r2
	mov	r2, r0
	orrs	r2, r4
	beq	.LBB113_47
	lsls	r2, r0, #1
	adds	r2, r5, r2
	mov	r3, r2
	subs	r3, #8
	stm	r3!, {r1, r7}
	subs	r2, #16
	ldm	r2!, {r1, r3}
	ands	r3, r6
	ldr	r2, [sp, #100]
	ands	r1, r2
	mov	r2, r1
	mov	r7, r3
	orrs	r2, r3
	bne	.LBB113_34
	mov	r1, r0
	mov	r7, r4
	b	.LBB113_47
.LBB113_39:
	orrs	r3, r4
	bne	.LBB113_42
	ldr	r0, [sp, #28]
	cmp	r0, #0
	bne	.LBB113_44
	ldr	r2, [sp, #24]
	ldr	r3, [sp, #40]
	ldr	r0, [sp, #36]
	ldr	r7, [sp, #60]
	ldr	r1, [sp, #20]
	b	.LBB113_48
.LBB113_42:
	ldr	r0, [sp, #96]
	ldr	r1, [sp, #72]
	ldr	r2, [sp, #12]
	ldr	r3, [sp, #16]
	bl	ic_raw.sort_calls.refusal.78cbab63d6c27224
	mov	r4, r0
	mov	r0, r4
	add	sp, #140
	pop	{r4, r5, r6, r7, pc}
.LBB113_43:
	ldr	r0, [sp, #52]
	ldr	r3, [sp, #56]
	ldr	r1, [sp, #48]
	ldr	r7, [sp, #44]
	ldr	r2, [sp, #24]
	b	.LBB113_48
.LBB113_44:
	movs	r0, #0
	mov	r3, r0
	mov	r1, r0
	mov	r7, r0
	ldr	r2, [sp, #24]
	b	.LBB113_48
.LBB113_45:
	mov	r1, r0
	mov	r7, r3
	ldr	r2, [sp, #24]
	b	.LBB113_48
.LBB113_46:
	mov	r1, r4
	mov	r7, r0
.LBB113_47:
	ldr	r2, [sp, #24]
	ldr	r3, [sp, #40]
	ldr	r0, [sp, #36]
.LBB113_48:
	strb	r1, [r2, #8]
	strb	r0, [r2]
	strb	r7, [r2, #12]
	lsrs	r4, r1, #24
	strb	r4, [r2, #11]
	lsrs	r4, r1, #16
	strb	r4, [r2, #10]
	lsrs	r1, r1, #8
	strb	r1, [r2, #9]
	strb	r3, [r2, #4]
	lsrs	r1, r0, #24
	strb	r1, [r2, #3]
	lsrs	r1, r0, #16
	strb	r1, [r2, #2]
	lsrs	r0, r0, #8
	strb	r0, [r2, #1]
	lsrs	r0, r7, #24
	strb	r0, [r2, #15]
	lsrs	r0, r7, #16
	strb	r0, [r2, #14]
	lsrs	r0, r7, #8
	strb	r0, [r2, #13]
	lsrs	r0, r3, #24
	strb	r0, [r2, #7]
	lsrs	r0, r3, #16
	strb	r0, [r2, #6]
	lsrs	r0, r3, #8
	strb	r0, [r2, #5]
	movs	r4, #0
	str	r4, [sp]
	movs	r2, #16
	ldr	r0, [sp, #32]
	mov	r1, r4
	mov	r3, r4
	bl	ic.clear
	mov	r0, r4
	add	sp, #140
	pop	{r4, r5, r6, r7, pc}
.Lfunc_end113:
	.size	ic_list_merge, .Lfunc_end113-ic_list_merge
	.cfi_endproc
	.section	.text.ic_list_move_after,"ax",%progbits
	.globl	ic_list_move_after
	.p2align	1
	.type	ic_list_move_after,%function
	.code	16
	.thumb_func
ic_list_move_after:
	.cfi_startproc
	push	{r4, r5, r6, r7, lr}
	.cfi_def_cfa_offset 20
	.cfi_offset lr, -4
	.cfi_offset r7, -8
	.cfi_offset r6, -12
	.cfi_offset r5, -16
	.cfi_offset r4, -20
	sub	sp, #108
	.cfi_def_cfa_offset 128
	str	r3, [sp, #104]
	str	r2, [sp, #100]
	movs	r3, #1
	cmp	r0, #0
	bne	.LBB114_2
	lsls	r1, r3, #12
	adds	r0, r0, r1
.LBB114_2:
	ldr	r2, [sp, #136]
	adds	r1, r2, #1
	blo	.LBB114_4
	movs	r0, #4
	add	sp, #108
	pop	{r4, r5, r6, r7, pc}
.LBB114_4:
	str	r3, [sp, #92]
	str	r2, [sp, #40]
	ldr	r2, [sp, #132]
	str	r2, [sp, #68]
	ldr	r2, [sp, #128]
	str	r2, [sp, #48]
	movs	r3, #0
	ldr	r2, [sp, #100]
	subs	r2, r2, r1
	ldr	r2, [sp, #104]
	str	r3, [sp, #76]
	sbcs	r2, r3
	bhs	.LBB114_5
	b	.LBB114_31
.LBB114_5:
	lsls	r2, r1, #3
	str	r2, [sp, #96]
	lsls	r2, r2, #1
	adds	r2, r0, r2
	mov	r5, r2
	subs	r2, #16
	str	r2, [sp, #64]
	ldr	r4, [r2]
	lsls	r2, r4, #31
	bne	.LBB114_6
	b	.LBB114_31
.LBB114_6:
	movs	r6, #15
	movs	r2, #7
	mvns	r7, r2
	subs	r5, #8
	ldr	r2, [r5]
	str	r5, [sp, #32]
	ldr	r5, [r5, #4]
	str	r6, [sp, #80]
	ands	r5, r6
	str	r7, [sp, #84]
	ands	r2, r7
	str	r2, [sp, #88]
	str	r5, [sp, #56]
	orrs	r2, r5
	bne	.LBB114_7
	b	.LBB114_31
.LBB114_7:
	ldr	r2, [sp, #64]
	ldr	r3, [r2, #4]
	ldr	r2, [sp, #84]
	ands	r4, r2
	ldr	r2, [sp, #80]
	ands	r3, r2
	str	r4, [sp, #72]
	str	r3, [sp, #52]
	orrs	r4, r3
	rsbs	r2, r4, #0
	adcs	r2, r4
	ldr	r4, [sp, #88]
	lsrs	r4, r4, #3
	ldr	r7, [sp, #56]
	lsls	r5, r7, #29
	adds	r4, r4, r5
	lsrs	r5, r7, #3
	ldr	r7, [sp, #100]
	subs	r4, r7, r4
	ldr	r4, [sp, #104]
	sbcs	r4, r5
	ldr	r4, [sp, #92]
	blo	.LBB114_9
	ldr	r4, [sp, #76]
.LBB114_9:
	orrs	r2, r4
	ldr	r7, [sp, #72]
	beq	.LBB114_10
	b	.LBB114_31
.LBB114_10:
	lsrs	r4, r1, #29
	movs	r1, #1
	ldr	r3, [sp, #96]
	orrs	r3, r1
	ldr	r2, [sp, #88]
	lsls	r2, r2, #1
	adds	r2, r0, r2
	subs	r2, #16
	ldr	r5, [r2]
	str	r2, [sp, #28]
	ldr	r2, [r2, #4]
	str	r5, [sp, #24]
	eors	r3, r5
	str	r2, [sp, #20]
	str	r4, [sp, #76]
	eors	r2, r4
	orrs	r2, r3
	lsrs	r3, r7, #3
	ldr	r5, [sp, #52]
	lsls	r4, r5, #29
	adds	r3, r3, r4
	lsrs	r4, r5, #3
	ldr	r5, [sp, #100]
	subs	r3, r5, r3
	ldr	r3, [sp, #104]
	sbcs	r3, r4
	bhs	.LBB114_13
	cmp	r2, #0
	ldr	r2, [sp, #92]
	beq	.LBB114_14
.LBB114_12:
	cmp	r2, #0
	beq	.LBB114_15
	b	.LBB114_31
.LBB114_13:
	movs	r1, #0
	cmp	r2, #0
	ldr	r2, [sp, #92]
	bne	.LBB114_12
.LBB114_14:
	mov	r2, r1
	cmp	r2, #0
	beq	.LBB114_15
	b	.LBB114_31
.LBB114_15:
	lsls	r1, r7, #1
	adds	r1, r0, r1
	mov	r3, r1
	subs	r3, #8
	ldr	r2, [r3]
	str	r3, [sp, #16]
	ldr	r3, [r3, #4]
	ldr	r4, [sp, #76]
	eors	r3, r4
	ldr	r4, [sp, #96]
	eors	r2, r4
	orrs	r2, r3
	beq	.LBB114_16
	b	.LBB114_31
.LBB114_16:
	ldr	r2, [sp, #68]
	adds	r3, r2, #1
	movs	r6, #0
	ldr	r2, [sp, #100]
	subs	r5, r2, r3
	ldr	r5, [sp, #104]
	sbcs	r5, r6
	bhs	.LBB114_17
	b	.LBB114_31
.LBB114_17:
	cmp	r3, #0
	bne	.LBB114_18
	b	.LBB114_31
.LBB114_18:
	subs	r1, #16
	ldr	r1, [r1]
	lsls	r1, r1, #31
	bne	.LBB114_19
	b	.LBB114_31
.LBB114_19:
	lsls	r1, r3, #3
	str	r1, [sp, #60]
	lsls	r1, r1, #1
	adds	r1, r0, r1
	subs	r1, #16
	str	r1, [sp, #44]
	ldr	r5, [r1]
	lsls	r1, r5, #31
	bne	.LBB114_20
	b	.LBB114_31
.LBB114_20:
	ldr	r1, [sp, #44]
	ldr	r7, [r1, #4]
	ldr	r1, [sp, #84]
	ands	r5, r1
	lsrs	r2, r5, #3
	ldr	r1, [sp, #80]
	ands	r7, r1
	lsls	r4, r7, #29
	adds	r2, r2, r4
	lsrs	r4, r7, #3
	ldr	r1, [sp, #100]
	subs	r2, r1, r2
	ldr	r2, [sp, #104]
	sbcs	r2, r4
	bhs	.LBB114_22
	movs	r6, #1
.LBB114_22:
	ldr	r1, [sp, #92]
	mov	r2, r5
	str	r7, [sp, #36]
	orrs	r2, r7
	beq	.LBB114_24
	mov	r1, r6
.LBB114_24:
	cmp	r1, #0
	bne	.LBB114_31
	lsrs	r1, r3, #29
	lsls	r2, r5, #1
	adds	r3, r0, r2
	mov	r2, r3
	subs	r2, #8
	ldm	r2!, {r4, r7}
	str	r1, [sp, #92]
	eors	r7, r1
	ldr	r1, [sp, #60]
	eors	r4, r1
	subs	r2, #8
	orrs	r4, r7
	ldr	r7, [sp, #72]
	bne	.LBB114_31
	subs	r3, #16
	ldr	r3, [r3]
	lsls	r3, r3, #31
	beq	.LBB114_31
	ldr	r3, [sp, #60]
	ldr	r6, [sp, #96]
	eors	r3, r6
	ldr	r4, [sp, #92]
	ldr	r1, [sp, #76]
	eors	r4, r1
	movs	r0, #0
	orrs	r4, r3
	beq	.LBB114_30
	mov	r3, r5
	eors	r3, r6
	ldr	r4, [sp, #36]
	eors	r4, r1
	orrs	r4, r3
	beq	.LBB114_30
	mov	r6, r7
	ldr	r7, [sp, #48]
	ldr	r0, [r7]
	str	r0, [sp, #104]
	ldr	r3, [r7, #4]
	ldr	r0, [r7, #8]
	ldr	r4, [r7, #12]
	ldr	r1, [sp, #80]
	ands	r4, r1
	str	r4, [sp, #68]
	ldr	r4, [sp, #84]
	ands	r0, r4
	ands	r3, r1
	str	r3, [sp, #100]
	ldr	r1, [sp, #104]
	ands	r1, r4
	str	r1, [sp, #104]
	movs	r4, #1
	orrs	r6, r4
	ldr	r3, [sp, #28]
	str	r6, [r3]
	ldr	r1, [sp, #52]
	str	r1, [r3, #4]
	ldr	r6, [sp, #88]
	ldr	r1, [sp, #16]
	str	r6, [r1]
	ldr	r6, [sp, #56]
	str	r6, [r1, #4]
	ldr	r1, [sp, #24]
	ldr	r3, [sp, #44]
	str	r1, [r3]
	ldr	r1, [sp, #20]
	str	r1, [r3, #4]
	ldr	r1, [sp, #96]
	str	r1, [r2]
	ldr	r1, [sp, #76]
	str	r1, [r2, #4]
	orrs	r5, r4
	ldr	r1, [sp, #64]
	str	r5, [r1]
	ldr	r2, [sp, #36]
	str	r2, [r1, #4]
	ldr	r1, [sp, #60]
	ldr	r2, [sp, #32]
	str	r1, [r2]
	ldr	r1, [sp, #92]
	str	r1, [r2, #4]
	lsrs	r1, r0, #24
	strb	r1, [r7, #11]
	lsrs	r1, r0, #16
	strb	r1, [r7, #10]
	lsrs	r1, r0, #8
	strb	r1, [r7, #9]
	strb	r0, [r7, #8]
	movs	r0, #0
	strb	r0, [r7, #15]
	strb	r0, [r7, #14]
	strb	r0, [r7, #13]
	ldr	r1, [sp, #68]
	strb	r1, [r7, #12]
	ldr	r2, [sp, #104]
	lsrs	r1, r2, #24
	strb	r1, [r7, #3]
	lsrs	r1, r2, #16
	strb	r1, [r7, #2]
	lsrs	r1, r2, #8
	strb	r1, [r7, #1]
	strb	r2, [r7]
	strb	r0, [r7, #7]
	strb	r0, [r7, #6]
	strb	r0, [r7, #5]
	ldr	r1, [sp, #100]
	strb	r1, [r7, #4]
.LBB114_30:
	add	sp, #108
	pop	{r4, r5, r6, r7, pc}
.LBB114_31:
	movs	r1, #0
	ldr	r2, [sp, #48]
	str	r2, [sp]
	str	r1, [sp, #4]
	ldr	r1, [sp, #68]
	str	r1, [sp, #8]
	ldr	r1, [sp, #40]
	str	r1, [sp, #12]
	ldr	r2, [sp, #100]
	ldr	r3, [sp, #104]
	bl	ic_raw.move_calls.move_slow.5386baa488213e47
	add	sp, #108
	pop	{r4, r5, r6, r7, pc}
.Lfunc_end114:
	.size	ic_list_move_after, .Lfunc_end114-ic_list_move_after
	.cfi_endproc
	.section	.text.ic_list_move_before,"ax",%progbits
	.globl	ic_list_move_before
	.p2align	1
	.type	ic_list_move_before,%function
	.code	16
	.thumb_func
ic_list_move_before:
	.cfi_startproc
	push	{r4, r5, r6, r7, lr}
	.cfi_def_cfa_offset 20
	.cfi_offset lr, -4
	.cfi_offset r7, -8
	.cfi_offset r6, -12
	.cfi_offset r5, -16
	.cfi_offset r4, -20
	sub	sp, #116
	.cfi_def_cfa_offset 136
	mov	r7, r3
	str	r2, [sp, #112]
	movs	r3, #1
	cmp	r0, #0
	bne	.LBB115_2
	lsls	r1, r3, #12
	adds	r0, r0, r1
.LBB115_2:
	ldr	r2, [sp, #144]
	adds	r1, r2, #1
	blo	.LBB115_4
	movs	r0, #4
	add	sp, #116
	pop	{r4, r5, r6, r7, pc}
.LBB115_4:
	str	r3, [sp, #104]
	str	r2, [sp, #48]
	ldr	r2, [sp, #140]
	str	r2, [sp, #76]
	ldr	r2, [sp, #136]
	str	r2, [sp, #56]
	movs	r2, #0
	ldr	r3, [sp, #112]
	subs	r3, r3, r1
	mov	r3, r7
	str	r2, [sp, #96]
	sbcs	r3, r2
	bhs	.LBB115_5
	b	.LBB115_30
.LBB115_5:
	lsls	r2, r1, #3
	str	r2, [sp, #108]
	lsls	r3, r2, #1
	adds	r3, r0, r3
	mov	r4, r3
	subs	r3, #16
	str	r3, [sp, #72]
	ldr	r3, [r3]
	mov	r5, r3
	lsls	r3, r3, #31
	bne	.LBB115_6
	b	.LBB115_30
.LBB115_6:
	movs	r2, #15
	movs	r3, #7
	mvns	r6, r3
	subs	r4, #8
	ldr	r3, [r4]
	str	r4, [sp, #40]
	ldr	r4, [r4, #4]
	str	r2, [sp, #84]
	ands	r4, r2
	str	r6, [sp, #88]
	ands	r3, r6
	str	r3, [sp, #100]
	str	r4, [sp, #68]
	orrs	r3, r4
	bne	.LBB115_7
	b	.LBB115_30
.LBB115_7:
	ldr	r3, [sp, #72]
	ldr	r2, [r3, #4]
	mov	r4, r5
	ldr	r3, [sp, #88]
	ands	r4, r3
	ldr	r3, [sp, #84]
	ands	r2, r3
	str	r4, [sp, #92]
	str	r2, [sp, #64]
	orrs	r4, r2
	rsbs	r3, r4, #0
	adcs	r3, r4
	ldr	r4, [sp, #100]
	lsrs	r4, r4, #3
	ldr	r6, [sp, #68]
	lsls	r5, r6, #29
	adds	r4, r4, r5
	lsrs	r5, r6, #3
	ldr	r6, [sp, #112]
	subs	r4, r6, r4
	mov	r4, r7
	sbcs	r4, r5
	ldr	r4, [sp, #104]
	blo	.LBB115_9
	ldr	r4, [sp, #96]
.LBB115_9:
	orrs	r3, r4
	beq	.LBB115_10
	b	.LBB115_30
.LBB115_10:
	lsrs	r4, r1, #29
	movs	r1, #1
	ldr	r3, [sp, #108]
	orrs	r3, r1
	ldr	r2, [sp, #100]
	lsls	r2, r2, #1
	adds	r2, r0, r2
	subs	r2, #16
	ldr	r5, [r2]
	str	r2, [sp, #36]
	ldr	r2, [r2, #4]
	str	r5, [sp, #32]
	eors	r3, r5
	str	r2, [sp, #28]
	str	r4, [sp, #80]
	eors	r2, r4
	orrs	r2, r3
	ldr	r3, [sp, #92]
	lsrs	r3, r3, #3
	ldr	r5, [sp, #64]
	lsls	r4, r5, #29
	adds	r3, r3, r4
	lsrs	r4, r5, #3
	ldr	r5, [sp, #112]
	subs	r3, r5, r3
	mov	r3, r7
	sbcs	r3, r4
	bhs	.LBB115_13
	cmp	r2, #0
	ldr	r2, [sp, #104]
	beq	.LBB115_14
.LBB115_12:
	cmp	r2, #0
	beq	.LBB115_15
	b	.LBB115_30
.LBB115_13:
	movs	r1, #0
	cmp	r2, #0
	ldr	r2, [sp, #104]
	bne	.LBB115_12
.LBB115_14:
	mov	r2, r1
	cmp	r2, #0
	beq	.LBB115_15
	b	.LBB115_30
.LBB115_15:
	ldr	r1, [sp, #92]
	lsls	r1, r1, #1
	adds	r1, r0, r1
	mov	r3, r1
	subs	r3, #8
	ldr	r2, [r3]
	str	r3, [sp, #24]
	ldr	r3, [r3, #4]
	ldr	r4, [sp, #80]
	eors	r3, r4
	ldr	r4, [sp, #108]
	eors	r2, r4
	orrs	r2, r3
	beq	.LBB115_16
	b	.LBB115_30
.LBB115_16:
	ldr	r2, [sp, #76]
	adds	r2, r2, #1
	movs	r4, #0
	ldr	r3, [sp, #112]
	subs	r3, r3, r2
	mov	r3, r7
	sbcs	r3, r4
	bhs	.LBB115_17
	b	.LBB115_30
.LBB115_17:
	cmp	r2, #0
	bne	.LBB115_18
	b	.LBB115_30
.LBB115_18:
	subs	r1, #16
	ldr	r1, [r1]
	lsls	r1, r1, #31
	bne	.LBB115_19
	b	.LBB115_30
.LBB115_19:
	lsls	r1, r2, #3
	str	r1, [sp, #52]
	lsls	r1, r1, #1
	adds	r3, r0, r1
	mov	r1, r3
	subs	r1, #16
	ldrb	r1, [r1]
	lsls	r1, r1, #31
	bne	.LBB115_20
	b	.LBB115_30
.LBB115_20:
	mov	r1, r3
	str	r4, [sp, #44]
	subs	r1, #8
	ldm	r1!, {r4, r6}
	ldr	r3, [sp, #84]
	ands	r6, r3
	lsls	r5, r6, #29
	ldr	r3, [sp, #88]
	ands	r4, r3
	mov	r3, r7
	str	r4, [sp, #96]
	lsrs	r7, r4, #3
	adds	r5, r7, r5
	lsrs	r7, r6, #3
	ldr	r4, [sp, #112]
	subs	r1, #8
	subs	r5, r4, r5
	str	r3, [sp, #60]
	mov	r5, r3
	sbcs	r5, r7
	bhs	.LBB115_22
	movs	r3, #1
	str	r3, [sp, #44]
.LBB115_22:
	ldr	r3, [sp, #104]
	ldr	r5, [sp, #96]
	orrs	r5, r6
	ldr	r7, [sp, #60]
	beq	.LBB115_24
	ldr	r3, [sp, #44]
.LBB115_24:
	cmp	r3, #0
	ldr	r3, [sp, #96]
	bne	.LBB115_30
	lsrs	r5, r2, #29
	movs	r2, #1
	ldr	r7, [sp, #52]
	str	r2, [sp, #20]
	orrs	r7, r2
	lsls	r2, r3, #1
	adds	r2, r0, r2
	subs	r2, #16
	ldm	r2!, {r3, r4}
	str	r3, [sp, #104]
	eors	r7, r3
	str	r4, [sp, #44]
	eors	r4, r5
	subs	r2, #8
	orrs	r4, r7
	ldr	r3, [sp, #96]
	ldr	r7, [sp, #60]
	ldr	r4, [sp, #108]
	bne	.LBB115_30
	str	r1, [sp, #112]
	eors	r3, r4
	mov	r7, r6
	ldr	r1, [sp, #80]
	eors	r7, r1
	movs	r0, #0
	orrs	r7, r3
	beq	.LBB115_29
	ldr	r3, [sp, #52]
	eors	r3, r4
	eors	r5, r1
	orrs	r5, r3
	beq	.LBB115_29
	ldr	r5, [sp, #56]
	ldr	r3, [r5]
	ldr	r1, [r5, #4]
	ldr	r0, [r5, #8]
	ldr	r4, [r5, #12]
	ldr	r7, [sp, #84]
	ands	r4, r7
	str	r4, [sp, #76]
	ldr	r4, [sp, #88]
	ands	r0, r4
	ands	r1, r7
	mov	r7, r1
	ands	r3, r4
	ldr	r4, [sp, #92]
	ldr	r1, [sp, #20]
	orrs	r4, r1
	ldr	r1, [sp, #36]
	str	r4, [r1]
	ldr	r4, [sp, #64]
	str	r4, [r1, #4]
	ldr	r4, [sp, #100]
	ldr	r1, [sp, #24]
	str	r4, [r1]
	ldr	r4, [sp, #68]
	str	r4, [r1, #4]
	ldr	r1, [sp, #32]
	str	r1, [r2]
	ldr	r1, [sp, #28]
	str	r1, [r2, #4]
	ldr	r1, [sp, #112]
	ldr	r2, [sp, #108]
	str	r2, [r1]
	ldr	r2, [sp, #80]
	str	r2, [r1, #4]
	ldr	r2, [sp, #72]
	ldr	r1, [sp, #104]
	str	r1, [r2]
	ldr	r1, [sp, #44]
	str	r1, [r2, #4]
	ldr	r2, [sp, #40]
	ldr	r1, [sp, #96]
	stm	r2!, {r1, r6}
	lsrs	r1, r0, #24
	strb	r1, [r5, #11]
	lsrs	r1, r0, #16
	strb	r1, [r5, #10]
	lsrs	r1, r0, #8
	strb	r1, [r5, #9]
	strb	r0, [r5, #8]
	movs	r0, #0
	strb	r0, [r5, #15]
	strb	r0, [r5, #14]
	strb	r0, [r5, #13]
	ldr	r1, [sp, #76]
	strb	r1, [r5, #12]
	lsrs	r1, r3, #24
	strb	r1, [r5, #3]
	lsrs	r1, r3, #16
	strb	r1, [r5, #2]
	lsrs	r1, r3, #8
	strb	r1, [r5, #1]
	strb	r3, [r5]
	strb	r0, [r5, #7]
	strb	r0, [r5, #6]
	strb	r0, [r5, #5]
	strb	r7, [r5, #4]
.LBB115_29:
	add	sp, #116
	pop	{r4, r5, r6, r7, pc}
.LBB115_30:
	movs	r1, #1
	ldr	r2, [sp, #56]
	str	r2, [sp]
	str	r1, [sp, #4]
	ldr	r1, [sp, #76]
	str	r1, [sp, #8]
	ldr	r1, [sp, #48]
	str	r1, [sp, #12]
	ldr	r2, [sp, #112]
	mov	r3, r7
	bl	ic_raw.move_calls.move_slow.5386baa488213e47
	add	sp, #116
	pop	{r4, r5, r6, r7, pc}
.Lfunc_end115:
	.size	ic_list_move_before, .Lfunc_end115-ic_list_move_before
	.cfi_endproc
	.section	.text.ic_list_move_to_back,"ax",%progbits
	.globl	ic_list_move_to_back
	.p2align	1
	.type	ic_list_move_to_back,%function
	.code	16
	.thumb_func
ic_list_move_to_back:
	.cfi_startproc
	push	{r4, r5, r6, r7, lr}
	.cfi_def_cfa_offset 20
	.cfi_offset lr, -4
	.cfi_offset r7, -8
	.cfi_offset r6, -12
	.cfi_offset r5, -16
	.cfi_offset r4, -20
	sub	sp, #92
	.cfi_def_cfa_offset 112
	mov	r4, r2
	movs	r5, #1
	cmp	r0, #0
	bne	.LBB116_2
	lsls	r1, r5, #12
	adds	r0, r0, r1
.LBB116_2:
	ldr	r2, [sp, #116]
	adds	r1, r2, #1
	blo	.LBB116_4
	movs	r0, #4
	add	sp, #92
	pop	{r4, r5, r6, r7, pc}
.LBB116_4:
	str	r5, [sp, #64]
	str	r2, [sp, #52]
	ldr	r2, [sp, #112]
	str	r2, [sp, #60]
	movs	r5, #0
	str	r4, [sp, #68]
	subs	r2, r4, r1
	str	r3, [sp, #72]
	mov	r2, r3
	sbcs	r2, r5
	bhs	.LBB116_5
	b	.LBB116_37
.LBB116_5:
	str	r5, [sp, #48]
	lsrs	r2, r1, #29
	str	r2, [sp, #88]
	lsls	r2, r1, #3
	ldr	r1, [sp, #60]
	ldr	r3, [r1, #8]
	ldr	r4, [r1, #12]
	movs	r1, #15
	str	r1, [sp, #76]
	ands	r4, r1
	movs	r1, #7
	mvns	r1, r1
	str	r1, [sp, #80]
	ands	r3, r1
	str	r2, [sp, #84]
	lsls	r1, r2, #1
	adds	r2, r0, r1
	mov	r1, r2
	subs	r1, #16
	ldr	r7, [r1]
	str	r1, [sp, #44]
	ldr	r1, [r1, #4]
	str	r1, [sp, #56]
	lsls	r5, r7, #31
	beq	.LBB116_13
	mov	r1, r2
	subs	r1, #8
	ldr	r5, [r1]
	str	r1, [sp, #20]
	ldr	r6, [r1, #4]
	ldr	r1, [sp, #76]
	ands	r6, r1
	ldr	r1, [sp, #80]
	ands	r5, r1
	mov	r1, r5
	orrs	r5, r6
	beq	.LBB116_13
	str	r3, [sp, #40]
	mov	r5, r7
	str	r6, [sp, #32]
	mov	r6, r1
	ldr	r1, [sp, #80]
	ands	r5, r1
	ldr	r3, [sp, #56]
	ldr	r1, [sp, #76]
	ands	r3, r1
	str	r5, [sp, #28]
	str	r3, [sp, #16]
	orrs	r5, r3
	str	r6, [sp, #36]
	lsrs	r3, r6, #3
	ldr	r6, [sp, #32]
	lsls	r1, r6, #29
	adds	r1, r3, r1
	str	r1, [sp, #24]
	lsrs	r3, r6, #3
	ldr	r1, [sp, #68]
	ldr	r6, [sp, #24]
	subs	r1, r1, r6
	ldr	r1, [sp, #72]
	sbcs	r1, r3
	blo	.LBB116_9
	ldr	r6, [sp, #48]
	b	.LBB116_10
.LBB116_9:
	movs	r6, #1
.LBB116_10:
	cmp	r5, #0
	ldr	r5, [sp, #64]
	ldr	r1, [sp, #36]
	ldr	r3, [sp, #40]
	beq	.LBB116_12
	mov	r5, r6
.LBB116_12:
	cmp	r5, #0
	beq	.LBB116_22
.LBB116_13:
	ldr	r1, [sp, #84]
	eors	r3, r1
	ldr	r1, [sp, #88]
	eors	r4, r1
	orrs	r4, r3
	beq	.LBB116_14
	b	.LBB116_37
.LBB116_14:
	movs	r3, #1
	eors	r7, r3
	ldr	r1, [sp, #56]
	orrs	r7, r1
	beq	.LBB116_15
	b	.LBB116_37
.LBB116_15:
	subs	r2, #8
	ldm	r2, {r1, r2}
	ldr	r4, [sp, #76]
	ands	r2, r4
	lsls	r4, r2, #29
	ldr	r5, [sp, #80]
	ands	r1, r5
	lsrs	r5, r1, #3
	adds	r4, r5, r4
	lsrs	r5, r2, #3
	ldr	r6, [sp, #68]
	subs	r4, r6, r4
	ldr	r4, [sp, #72]
	sbcs	r4, r5
	bhs	.LBB116_18
	orrs	r2, r1
	ldr	r2, [sp, #64]
	bne	.LBB116_19
.LBB116_17:
	cmp	r2, #0
	beq	.LBB116_20
	b	.LBB116_37
.LBB116_18:
	movs	r3, #0
	orrs	r2, r1
	ldr	r2, [sp, #64]
	beq	.LBB116_17
.LBB116_19:
	mov	r2, r3
	cmp	r2, #0
	beq	.LBB116_20
	b	.LBB116_37
.LBB116_20:
	movs	r2, #1
	ldr	r3, [sp, #84]
	orrs	r3, r2
	lsls	r1, r1, #1
	adds	r1, r0, r1
	subs	r1, #16
	ldr	r2, [r1]
	ldr	r1, [r1, #4]
	eors	r2, r3
	ldr	r3, [sp, #88]
	eors	r1, r3
	orrs	r1, r2
	beq	.LBB116_21
	b	.LBB116_37
.LBB116_21:
	movs	r0, #0
	add	sp, #92
	pop	{r4, r5, r6, r7, pc}
.LBB116_22:
	movs	r2, #1
	mov	r5, r1
	ldr	r1, [sp, #84]
	orrs	r1, r2
	lsls	r5, r5, #1
	adds	r3, r0, r5
	subs	r3, #16
	ldr	r5, [r3]
	str	r3, [sp, #56]
	ldr	r3, [r3, #4]
	str	r5, [sp, #48]
	eors	r1, r5
	str	r3, [sp, #24]
	mov	r5, r3
	ldr	r6, [sp, #88]
	eors	r5, r6
	orrs	r5, r1
	ldr	r1, [sp, #28]
	lsrs	r1, r1, #3
	ldr	r3, [sp, #16]
	lsls	r6, r3, #29
	adds	r1, r1, r6
	lsrs	r6, r3, #3
	ldr	r7, [sp, #68]
	subs	r1, r7, r1
	ldr	r1, [sp, #72]
	sbcs	r1, r6
	bhs	.LBB116_25
	cmp	r5, #0
	ldr	r5, [sp, #64]
	beq	.LBB116_26
.LBB116_24:
	cmp	r5, #0
	ldr	r3, [sp, #40]
	beq	.LBB116_27
	b	.LBB116_37
.LBB116_25:
	movs	r2, #0
	cmp	r5, #0
	ldr	r5, [sp, #64]
	bne	.LBB116_24
.LBB116_26:
	mov	r5, r2
	cmp	r5, #0
	ldr	r3, [sp, #40]
	bne	.LBB116_37
.LBB116_27:
	ldr	r1, [sp, #28]
	lsls	r1, r1, #1
	adds	r5, r0, r1
	mov	r2, r5
	subs	r2, #8
	ldr	r1, [r2]
	str	r2, [sp, #12]
	ldr	r6, [r2, #4]
	ldr	r2, [sp, #88]
	eors	r6, r2
	ldr	r2, [sp, #84]
	eors	r1, r2
	orrs	r1, r6
	bne	.LBB116_37
	subs	r5, #16
	ldr	r1, [r5]
	lsls	r1, r1, #31
	beq	.LBB116_37
	lsrs	r1, r3, #3
	lsls	r5, r4, #29
	adds	r1, r1, r5
	lsrs	r5, r4, #3
	ldr	r2, [sp, #68]
	subs	r1, r2, r1
	ldr	r1, [sp, #72]
	sbcs	r1, r5
	blo	.LBB116_31
	movs	r5, #0
	b	.LBB116_32
.LBB116_31:
	movs	r5, #1
.LBB116_32:
	ldr	r2, [sp, #64]
	mov	r1, r3
	orrs	r1, r4
	beq	.LBB116_34
	mov	r2, r5
.LBB116_34:
	cmp	r2, #0
	bne	.LBB116_37
	lsls	r1, r3, #1
	adds	r7, r0, r1
	subs	r7, #16
	ldm	r7!, {r1, r6}
	movs	r5, #1
	eors	r1, r5
	subs	r7, #8
	orrs	r1, r6
	bne	.LBB116_37
	ldr	r2, [sp, #60]
	ldr	r6, [r2]
	ldr	r1, [r2, #4]
	ldr	r0, [sp, #76]
	ands	r1, r0
	str	r1, [sp, #76]
	ldr	r0, [sp, #80]
	ands	r6, r0
	ldr	r0, [sp, #28]
	orrs	r0, r5
	ldr	r1, [sp, #56]
	str	r0, [r1]
	ldr	r0, [sp, #16]
	str	r0, [r1, #4]
	ldr	r0, [sp, #36]
	ldr	r1, [sp, #12]
	str	r0, [r1]
	ldr	r0, [sp, #32]
	str	r0, [r1, #4]
	ldr	r0, [sp, #48]
	str	r0, [r7]
	ldr	r0, [sp, #24]
	str	r0, [r7, #4]
	movs	r0, #0
	ldr	r1, [sp, #44]
	str	r5, [r1]
	str	r0, [r1, #4]
	ldr	r1, [sp, #20]
	stm	r1!, {r3, r4}
	ldr	r3, [sp, #84]
	lsrs	r1, r3, #24
	strb	r1, [r2, #11]
	lsrs	r1, r3, #16
	strb	r1, [r2, #10]
	lsrs	r1, r3, #8
	strb	r1, [r2, #9]
	strb	r3, [r2, #8]
	strb	r0, [r2, #15]
	strb	r0, [r2, #14]
	strb	r0, [r2, #13]
	ldr	r1, [sp, #88]
	strb	r1, [r2, #12]
	lsrs	r1, r6, #24
	strb	r1, [r2, #3]
	lsrs	r1, r6, #16
	strb	r1, [r2, #2]
	lsrs	r1, r6, #8
	strb	r1, [r2, #1]
	strb	r6, [r2]
	strb	r0, [r2, #7]
	strb	r0, [r2, #6]
	strb	r0, [r2, #5]
	ldr	r1, [sp, #76]
	strb	r1, [r2, #4]
	add	sp, #92
	pop	{r4, r5, r6, r7, pc}
.LBB116_37:
	movs	r1, #1
	ldr	r2, [sp, #60]
	str	r2, [sp]
	str	r1, [sp, #4]
	ldr	r1, [sp, #52]
	str	r1, [sp, #8]
	ldr	r2, [sp, #68]
	ldr	r3, [sp, #72]
	bl	ic_raw.move_calls.move_to_end_slow.5386baa488213e47
	add	sp, #92
	pop	{r4, r5, r6, r7, pc}
.Lfunc_end116:
	.size	ic_list_move_to_back, .Lfunc_end116-ic_list_move_to_back
	.cfi_endproc
	.section	.text.ic_list_move_to_front,"ax",%progbits
	.globl	ic_list_move_to_front
	.p2align	1
	.type	ic_list_move_to_front,%function
	.code	16
	.thumb_func
ic_list_move_to_front:
	.cfi_startproc
	push	{r4, r5, r6, r7, lr}
	.cfi_def_cfa_offset 20
	.cfi_offset lr, -4
	.cfi_offset r7, -8
	.cfi_offset r6, -12
	.cfi_offset r5, -16
	.cfi_offset r4, -20
	sub	sp, #108
	.cfi_def_cfa_offset 128
	movs	r5, #1
	cmp	r0, #0
	bne	.LBB117_2
	lsls	r1, r5, #12
	adds	r0, r0, r1
.LBB117_2:
	ldr	r4, [sp, #132]
	adds	r1, r4, #1
	blo	.LBB117_4
	movs	r0, #4
	add	sp, #108
	pop	{r4, r5, r6, r7, pc}
.LBB117_4:
	str	r5, [sp, #80]
	str	r4, [sp, #72]
	ldr	r7, [sp, #128]
	movs	r4, #0
	str	r2, [sp, #92]
	subs	r2, r2, r1
	str	r3, [sp, #96]
	mov	r2, r3
	sbcs	r2, r4
	bhs	.LBB117_5
	b	.LBB117_39
.LBB117_5:
	str	r4, [sp, #64]
	lsrs	r2, r1, #29
	str	r2, [sp, #104]
	lsls	r2, r1, #3
	movs	r3, #15
	movs	r1, #7
	mvns	r1, r1
	ldr	r6, [r7]
	ldr	r5, [r7, #4]
	str	r3, [sp, #88]
	ands	r5, r3
	str	r1, [sp, #84]
	ands	r6, r1
	str	r2, [sp, #100]
	lsls	r1, r2, #1
	adds	r4, r0, r1
	mov	r1, r4
	subs	r1, #16
	ldr	r3, [r1]
	str	r1, [sp, #60]
	ldr	r2, [r1, #4]
	lsls	r1, r3, #31
	str	r1, [sp, #76]
	bne	.LBB117_6
	b	.LBB117_21
.LBB117_6:
	mov	r1, r4
	subs	r1, #8
	str	r0, [sp, #56]
	mov	r0, r6
	mov	r6, r7
	ldr	r7, [r1]
	str	r1, [sp, #24]
	str	r5, [sp, #68]
	ldr	r5, [r1, #4]
	ldr	r1, [sp, #88]
	ands	r5, r1
	ldr	r1, [sp, #84]
	ands	r7, r1
	str	r7, [sp, #52]
	mov	r1, r7
	mov	r7, r6
	mov	r6, r0
	ldr	r0, [sp, #56]
	str	r5, [sp, #44]
	orrs	r1, r5
	ldr	r5, [sp, #68]
	bne	.LBB117_7
	b	.LBB117_21
.LBB117_7:
	str	r7, [sp, #48]
	mov	r5, r3
	ldr	r1, [sp, #84]
	ands	r5, r1
	mov	r7, r2
	ldr	r1, [sp, #88]
	ands	r7, r1
	str	r5, [sp, #28]
	str	r7, [sp, #40]
	orrs	r5, r7
	str	r5, [sp, #32]
	ldr	r7, [sp, #52]
	lsrs	r1, r7, #3
	str	r1, [sp, #36]
	ldr	r5, [sp, #44]
	lsls	r7, r5, #29
	ldr	r1, [sp, #36]
	adds	r1, r1, r7
	lsrs	r5, r5, #3
	ldr	r7, [sp, #92]
	subs	r7, r7, r1
	ldr	r7, [sp, #96]
	sbcs	r7, r5
	bhs	.LBB117_9
	movs	r5, #1
	str	r5, [sp, #64]
.LBB117_9:
	ldr	r1, [sp, #32]
	cmp	r1, #0
	ldr	r1, [sp, #80]
	ldr	r7, [sp, #48]
	ldr	r5, [sp, #68]
	beq	.LBB117_11
	ldr	r1, [sp, #64]
.LBB117_11:
	cmp	r1, #0
	bne	.LBB117_21
	movs	r1, #1
	ldr	r7, [sp, #100]
	str	r1, [sp, #32]
	orrs	r7, r1
	str	r7, [sp, #20]
	ldr	r1, [sp, #52]
	lsls	r7, r1, #1
	adds	r1, r0, r7
	subs	r1, #16
	ldr	r7, [r1]
	str	r7, [sp, #64]
	str	r1, [sp, #16]
	ldr	r1, [r1, #4]
	str	r1, [sp, #36]
	ldr	r1, [sp, #20]
	ldr	r7, [sp, #64]
	eors	r7, r1
	str	r7, [sp, #64]
	ldr	r7, [sp, #36]
	ldr	r1, [sp, #104]
	eors	r7, r1
	ldr	r1, [sp, #64]
	orrs	r7, r1
	str	r7, [sp, #36]
	ldr	r1, [sp, #28]
	lsrs	r1, r1, #3
	str	r1, [sp, #64]
	ldr	r1, [sp, #40]
	lsls	r1, r1, #29
	ldr	r7, [sp, #64]
	adds	r7, r7, r1
	ldr	r1, [sp, #40]
	lsrs	r1, r1, #3
	str	r1, [sp, #64]
	ldr	r1, [sp, #92]
	subs	r1, r1, r7
	ldr	r1, [sp, #96]
	ldr	r7, [sp, #64]
	sbcs	r1, r7
	bhs	.LBB117_15
	ldr	r1, [sp, #36]
	cmp	r1, #0
	ldr	r1, [sp, #80]
	beq	.LBB117_16
.LBB117_14:
	cmp	r1, #0
	ldr	r7, [sp, #48]
	beq	.LBB117_17
	b	.LBB117_21
.LBB117_15:
	movs	r1, #0
	str	r1, [sp, #32]
	ldr	r1, [sp, #36]
	cmp	r1, #0
	ldr	r1, [sp, #80]
	bne	.LBB117_14
.LBB117_16:
	ldr	r1, [sp, #32]
	cmp	r1, #0
	ldr	r7, [sp, #48]
	bne	.LBB117_21
.LBB117_17:
	ldr	r1, [sp, #28]
	lsls	r1, r1, #1
	adds	r1, r0, r1
	str	r1, [sp, #32]
	subs	r1, #8
	ldr	r7, [r1]
	str	r7, [sp, #36]
	str	r1, [sp, #20]
	ldr	r1, [r1, #4]
	str	r1, [sp, #64]
	ldr	r1, [sp, #104]
	ldr	r7, [sp, #64]
	eors	r7, r1
	str	r7, [sp, #64]
	ldr	r1, [sp, #100]
	ldr	r7, [sp, #36]
	eors	r7, r1
	ldr	r1, [sp, #64]
	orrs	r7, r1
	ldr	r7, [sp, #48]
	bne	.LBB117_21
	ldr	r1, [sp, #32]
	subs	r1, #16
	ldr	r1, [r1]
	lsls	r1, r1, #31
	beq	.LBB117_21
	lsrs	r1, r6, #3
	lsls	r2, r5, #29
	adds	r1, r1, r2
	lsrs	r2, r5, #3
	ldr	r3, [sp, #92]
	subs	r1, r3, r1
	ldr	r1, [sp, #96]
	sbcs	r1, r2
	blo	.LBB117_32
	movs	r1, #0
	b	.LBB117_33
.LBB117_21:
	ldr	r1, [sp, #100]
	eors	r6, r1
	ldr	r1, [sp, #104]
	eors	r5, r1
	orrs	r5, r6
	bne	.LBB117_39
	subs	r4, #8
	ldm	r4, {r1, r4}
	orrs	r4, r1
	bne	.LBB117_39
	ldr	r1, [sp, #76]
	cmp	r1, #0
	beq	.LBB117_39
	ldr	r1, [sp, #84]
	ands	r3, r1
	lsrs	r1, r3, #3
	ldr	r4, [sp, #88]
	ands	r2, r4
	lsls	r4, r2, #29
	adds	r1, r1, r4
	lsrs	r4, r2, #3
	ldr	r5, [sp, #92]
	subs	r1, r5, r1
	ldr	r1, [sp, #96]
	sbcs	r1, r4
	blo	.LBB117_26
	movs	r1, #0
	ldr	r4, [sp, #80]
	orrs	r2, r3
	bne	.LBB117_27
	b	.LBB117_28
.LBB117_26:
	movs	r1, #1
	ldr	r4, [sp, #80]
	orrs	r2, r3
	beq	.LBB117_28
.LBB117_27:
	mov	r4, r1
.LBB117_28:
	cmp	r4, #0
	bne	.LBB117_39
	lsls	r1, r3, #1
	adds	r1, r0, r1
	mov	r2, r1
	subs	r2, #8
	ldr	r3, [r2]
	ldr	r2, [r2, #4]
	ldr	r4, [sp, #104]
	eors	r2, r4
	ldr	r4, [sp, #100]
	eors	r3, r4
	orrs	r3, r2
	bne	.LBB117_39
	subs	r1, #16
	ldr	r1, [r1]
	lsls	r1, r1, #31
	beq	.LBB117_39
	movs	r0, #0
	add	sp, #108
	pop	{r4, r5, r6, r7, pc}
.LBB117_32:
	movs	r1, #1
.LBB117_33:
	mov	r2, r6
	orrs	r2, r5
	beq	.LBB117_35
	str	r1, [sp, #80]
.LBB117_35:
	ldr	r1, [sp, #80]
	cmp	r1, #0
	bne	.LBB117_39
	lsls	r1, r6, #1
	adds	r1, r0, r1
	mov	r3, r1
	subs	r3, #8
	ldm	r3!, {r2, r4}
	subs	r3, #8
	orrs	r4, r2
	bne	.LBB117_39
	subs	r1, #16
	ldr	r1, [r1]
	lsls	r1, r1, #31
	beq	.LBB117_39
	ldr	r4, [r7, #8]
	ldr	r1, [r7, #12]
	ldr	r0, [sp, #88]
	ands	r1, r0
	str	r1, [sp, #96]
	ldr	r0, [sp, #84]
	ands	r4, r0
	movs	r0, #1
	ldr	r1, [sp, #28]
	orrs	r1, r0
	ldr	r2, [sp, #16]
	str	r1, [r2]
	ldr	r1, [sp, #40]
	str	r1, [r2, #4]
	ldr	r1, [sp, #52]
	ldr	r2, [sp, #20]
	str	r1, [r2]
	ldr	r1, [sp, #44]
	str	r1, [r2, #4]
	ldr	r2, [sp, #100]
	str	r2, [r3]
	ldr	r1, [sp, #104]
	str	r1, [r3, #4]
	mov	r3, r1
	orrs	r6, r0
	ldr	r0, [sp, #60]
	str	r6, [r0]
	str	r5, [r0, #4]
	movs	r0, #0
	ldr	r1, [sp, #24]
	str	r0, [r1]
	str	r0, [r1, #4]
	lsrs	r1, r4, #24
	strb	r1, [r7, #11]
	lsrs	r1, r4, #16
	strb	r1, [r7, #10]
	lsrs	r1, r4, #8
	strb	r1, [r7, #9]
	strb	r4, [r7, #8]
	strb	r0, [r7, #15]
	strb	r0, [r7, #14]
	strb	r0, [r7, #13]
	ldr	r1, [sp, #96]
	strb	r1, [r7, #12]
	lsrs	r1, r2, #24
	strb	r1, [r7, #3]
	lsrs	r1, r2, #16
	strb	r1, [r7, #2]
	lsrs	r1, r2, #8
	strb	r1, [r7, #1]
	strb	r2, [r7]
	strb	r0, [r7, #7]
	strb	r0, [r7, #6]
	strb	r0, [r7, #5]
	strb	r3, [r7, #4]
	add	sp, #108
	pop	{r4, r5, r6, r7, pc}
.LBB117_39:
	movs	r1, #0
	str	r7, [sp]
	str	r1, [sp, #4]
	ldr	r1, [sp, #72]
	str	r1, [sp, #8]
	ldr	r2, [sp, #92]
	ldr	r3, [sp, #96]
	bl	ic_raw.move_calls.move_to_end_slow.5386baa488213e47
	add	sp, #108
	pop	{r4, r5, r6, r7, pc}
.Lfunc_end117:
	.size	ic_list_move_to_front, .Lfunc_end117-ic_list_move_to_front
	.cfi_endproc
	.section	.text.ic_list_pop_back,"ax",%progbits
	.globl	ic_list_pop_back
	.p2align	1
	.type	ic_list_pop_back,%function
	.code	16
	.thumb_func
ic_list_pop_back:
	.cfi_startproc
	push	{r4, r5, r6, r7, lr}
	.cfi_def_cfa_offset 20
	.cfi_offset lr, -4
	.cfi_offset r7, -8
	.cfi_offset r6, -12
	.cfi_offset r5, -16
	.cfi_offset r4, -20
	sub	sp, #52
	.cfi_def_cfa_offset 72
	str	r3, [sp, #32]
	str	r2, [sp, #28]
	mov	r6, r0
	ldr	r0, [sp, #72]
	ldr	r1, [r0, #8]
	ldr	r3, [r0, #12]
	movs	r2, #15
	mov	r5, r3
	str	r2, [sp, #48]
	ands	r5, r2
	movs	r2, #7
	mvns	r4, r2
	mov	r2, r1
	str	r4, [sp, #44]
	ands	r2, r4
	str	r2, [sp, #36]
	orrs	r2, r5
	movs	r4, #1
	cmp	r6, #0
	str	r4, [sp, #40]
	bne	.LBB118_2
	lsls	r4, r4, #12
	adds	r6, r6, r4
.LBB118_2:
	str	r6, [sp, #24]
	cmp	r2, #0
	beq	.LBB118_11
	lsls	r2, r3, #29
	lsrs	r1, r1, #3
	adds	r2, r1, r2
	lsrs	r1, r5, #3
	str	r2, [sp, #20]
	ldr	r3, [sp, #28]
	subs	r2, r3, r2
	ldr	r2, [sp, #32]
	sbcs	r2, r1
	blo	.LBB118_11
	movs	r1, #0
	ldr	r2, [sp, #44]
	adds	r2, r2, #1
	ldr	r3, [sp, #48]
	adcs	r3, r1
	ldr	r4, [sp, #36]
	lsls	r4, r4, #1
	ldr	r6, [sp, #24]
	adds	r7, r6, r4
	mov	r4, r7
	subs	r4, #16
	mov	r6, r5
	ldr	r5, [r4]
	str	r4, [sp, #12]
	ldr	r4, [r4, #4]
	ands	r4, r3
	ands	r5, r2
	ldr	r2, [sp, #40]
	eors	r5, r2
	orrs	r5, r4
	bne	.LBB118_11
	str	r6, [sp, #16]
	ldr	r6, [r0]
	ldr	r4, [r0, #4]
	ldr	r2, [sp, #48]
	ands	r4, r2
	ldr	r5, [sp, #44]
	ands	r6, r5
	subs	r7, #8
	ldm	r7, {r3, r7}
	ands	r7, r2
	ands	r3, r5
	mov	r2, r3
	orrs	r2, r7
	str	r7, [sp, #4]
	beq	.LBB118_9
	str	r4, [sp, #8]
	lsrs	r2, r3, #3
	lsls	r4, r7, #29
	adds	r2, r2, r4
	lsrs	r4, r7, #3
	ldr	r7, [sp, #28]
	subs	r2, r7, r2
	ldr	r2, [sp, #32]
	sbcs	r2, r4
	ldr	r5, [sp, #16]
	blo	.LBB118_11
	ldr	r2, [sp, #44]
	adds	r2, r2, #1
	str	r2, [sp, #44]
	ldr	r4, [sp, #48]
	adcs	r4, r1
	lsls	r2, r3, #1
	ldr	r7, [sp, #24]
	adds	r2, r7, r2
	subs	r2, #16
	str	r6, [sp, #48]
	ldm	r2!, {r6, r7}
	ands	r7, r4
	eors	r7, r5
	ldr	r5, [sp, #36]
	ldr	r4, [sp, #40]
	orrs	r5, r4
	ldr	r4, [sp, #44]
	ands	r6, r4
	eors	r6, r5
	subs	r2, #8
	orrs	r6, r7
	ldr	r5, [sp, #48]
	bne	.LBB118_11
	ldr	r4, [sp, #40]
	str	r4, [r2]
	str	r1, [r2, #4]
	b	.LBB118_10
.LBB118_9:
	ldr	r2, [sp, #36]
	eors	r6, r2
	ldr	r2, [sp, #16]
	eors	r4, r2
	orrs	r4, r6
	movs	r5, #0
	cmp	r4, #0
	str	r5, [sp, #8]
	bne	.LBB118_11
.LBB118_10:
	ldr	r2, [sp, #76]
	ldr	r4, [sp, #12]
	str	r1, [r4]
	str	r1, [r4, #4]
	strb	r1, [r0, #15]
	strb	r1, [r0, #14]
	strb	r1, [r0, #13]
	ldr	r4, [sp, #4]
	strb	r4, [r0, #12]
	lsrs	r4, r3, #24
	strb	r4, [r0, #11]
	lsrs	r4, r3, #16
	strb	r4, [r0, #10]
	lsrs	r4, r3, #8
	strb	r4, [r0, #9]
	strb	r3, [r0, #8]
	strb	r1, [r0, #7]
	strb	r1, [r0, #6]
	strb	r1, [r0, #5]
	ldr	r3, [sp, #8]
	strb	r3, [r0, #4]
	lsrs	r3, r5, #24
	strb	r3, [r0, #3]
	lsrs	r3, r5, #16
	strb	r3, [r0, #2]
	lsrs	r3, r5, #8
	strb	r3, [r0, #1]
	strb	r5, [r0]
	ldr	r0, [sp, #20]
	subs	r0, r0, #1
	str	r0, [r2]
	mov	r0, r1
	add	sp, #52
	pop	{r4, r5, r6, r7, pc}
.LBB118_11:
	movs	r1, #1
	bl	ic_raw.list_calls.refusal_to_pop
	mov	r1, r0
	mov	r0, r1
	add	sp, #52
	pop	{r4, r5, r6, r7, pc}
.Lfunc_end118:
	.size	ic_list_pop_back, .Lfunc_end118-ic_list_pop_back
	.cfi_endproc
	.section	.text.ic_list_pop_front,"ax",%progbits
	.globl	ic_list_pop_front
	.p2align	1
	.type	ic_list_pop_front,%function
	.code	16
	.thumb_func
ic_list_pop_front:
	.cfi_startproc
	push	{r4, r5, r6, r7, lr}
	.cfi_def_cfa_offset 20
	.cfi_offset lr, -4
	.cfi_offset r7, -8
	.cfi_offset r6, -12
	.cfi_offset r5, -16
	.cfi_offset r4, -20
	sub	sp, #44
	.cfi_def_cfa_offset 64
	mov	r1, r3
	str	r0, [sp, #40]
	ldr	r0, [sp, #64]
	ldr	r4, [r0]
	str	r0, [sp, #24]
	ldr	r7, [r0, #4]
	movs	r0, #15
	mov	r5, r7
	str	r0, [sp, #16]
	ands	r5, r0
	movs	r0, #7
	mov	r6, r4
	bics	r6, r0
	str	r6, [sp, #36]
	orrs	r6, r5
	rsbs	r3, r6, #0
	adcs	r3, r6
	lsrs	r6, r5, #3
	lsls	r7, r7, #29
	lsrs	r4, r4, #3
	adds	r7, r4, r7
	movs	r4, #1
	str	r2, [sp, #28]
	str	r7, [sp, #12]
	subs	r7, r2, r7
	str	r1, [sp, #32]
	sbcs	r1, r6
	mov	r7, r4
	bhs	.LBB119_3
	orrs	r3, r7
	ldr	r1, [sp, #40]
	cmp	r1, #0
	beq	.LBB119_4
.LBB119_2:
	ldr	r1, [sp, #68]
	str	r1, [sp, #20]
	cmp	r3, #0
	beq	.LBB119_5
	b	.LBB119_15
.LBB119_3:
	movs	r7, #0
	orrs	r3, r7
	ldr	r1, [sp, #40]
	cmp	r1, #0
	bne	.LBB119_2
.LBB119_4:
	lsls	r6, r4, #12
	adds	r1, r1, r6
	str	r1, [sp, #40]
	ldr	r1, [sp, #68]
	str	r1, [sp, #20]
	cmp	r3, #0
	bne	.LBB119_15
.LBB119_5:
	ldr	r1, [sp, #36]
	lsls	r3, r1, #1
	ldr	r1, [sp, #40]
	adds	r7, r1, r3
	mov	r3, r7
	subs	r3, #8
	ldr	r6, [r3]
	ldr	r3, [r3, #4]
	orrs	r3, r6
	bne	.LBB119_15
	subs	r7, #16
	ldr	r3, [r7]
	lsls	r6, r3, #31
	beq	.LBB119_15
	mvns	r6, r0
	ldr	r2, [r7, #4]
	ands	r3, r6
	lsrs	r6, r3, #3
	ldr	r0, [sp, #16]
	ands	r2, r0
	lsls	r1, r2, #29
	adds	r1, r6, r1
	lsrs	r6, r2, #3
	ldr	r0, [sp, #28]
	subs	r1, r0, r1
	ldr	r1, [sp, #32]
	sbcs	r1, r6
	blo	.LBB119_9
	movs	r1, #0
	mov	r6, r3
	orrs	r6, r2
	bne	.LBB119_10
	b	.LBB119_11
.LBB119_9:
	movs	r1, #1
	mov	r6, r3
	orrs	r6, r2
	beq	.LBB119_11
.LBB119_10:
	mov	r4, r1
.LBB119_11:
	cmp	r4, #0
	bne	.LBB119_15
	lsls	r1, r3, #1
	ldr	r0, [sp, #40]
	adds	r4, r0, r1
	mov	r1, r4
	subs	r1, #8
	ldr	r6, [r1]
	ldr	r0, [r1, #4]
	eors	r0, r5
	ldr	r5, [sp, #36]
	eors	r6, r5
	orrs	r6, r0
	bne	.LBB119_15
	subs	r4, #16
	ldr	r0, [r4]
	lsls	r0, r0, #31
	beq	.LBB119_15
	movs	r0, #0
	str	r0, [r1]
	str	r0, [r1, #4]
	str	r0, [r7]
	str	r0, [r7, #4]
	ldr	r1, [sp, #24]
	str	r3, [r1]
	str	r2, [r1, #4]
	ldr	r1, [sp, #12]
	subs	r1, r1, #1
	ldr	r2, [sp, #20]
	str	r1, [r2]
	add	sp, #44
	pop	{r4, r5, r6, r7, pc}
.LBB119_15:
	ldr	r0, [sp, #24]
	str	r0, [sp]
	ldr	r0, [sp, #20]
	str	r0, [sp, #4]
	ldr	r0, [sp, #40]
	ldr	r2, [sp, #28]
	ldr	r3, [sp, #32]
	bl	ic_raw.list_calls.pop_front_slow.5386baa488213e47
	add	sp, #44
	pop	{r4, r5, r6, r7, pc}
.Lfunc_end119:
	.size	ic_list_pop_front, .Lfunc_end119-ic_list_pop_front
	.cfi_endproc
	.section	.text.ic_list_push_back,"ax",%progbits
	.globl	ic_list_push_back
	.p2align	1
	.type	ic_list_push_back,%function
	.code	16
	.thumb_func
ic_list_push_back:
	.cfi_startproc
	push	{r4, r5, r6, r7, lr}
	.cfi_def_cfa_offset 20
	.cfi_offset lr, -4
	.cfi_offset r7, -8
	.cfi_offset r6, -12
	.cfi_offset r5, -16
	.cfi_offset r4, -20
	sub	sp, #36
	.cfi_def_cfa_offset 56
	ldr	r4, [sp, #56]
	ldr	r1, [r4, #8]
	str	r4, [sp, #16]
	ldr	r7, [r4, #12]
	movs	r5, #15
	ands	r5, r7
	movs	r4, #7
	mov	r6, r1
	bics	r6, r4
	str	r6, [sp, #28]
	mov	r4, r6
	str	r5, [sp, #32]
	orrs	r4, r5
	mov	r5, r0
	movs	r0, #1
	cmp	r5, #0
	str	r0, [sp, #24]
	bne	.LBB120_2
	lsls	r0, r0, #12
	adds	r5, r5, r0
.LBB120_2:
	ldr	r0, [sp, #60]
	str	r0, [sp, #20]
	cmp	r4, #0
	beq	.LBB120_9
	lsls	r0, r7, #29
	lsrs	r1, r1, #3
	adds	r0, r1, r0
	ldr	r1, [sp, #32]
	lsrs	r1, r1, #3
	subs	r0, r2, r0
	mov	r0, r3
	sbcs	r0, r1
	blo	.LBB120_9
	ldr	r0, [sp, #20]
	adds	r7, r0, #1
	movs	r0, #0
	subs	r1, r2, r7
	mov	r1, r3
	str	r0, [sp, #12]
	sbcs	r1, r0
	blo	.LBB120_9
	cmp	r7, #0
	beq	.LBB120_9
	ldr	r0, [sp, #28]
	lsls	r1, r0, #1
	adds	r6, r5, r1
	subs	r6, #16
	ldr	r1, [r6]
	ldr	r0, [r6, #4]
	ldr	r4, [sp, #24]
	eors	r1, r4
	orrs	r1, r0
	bne	.LBB120_9
	lsls	r0, r7, #3
	lsls	r1, r0, #1
	adds	r4, r5, r1
	mov	r1, r4
	subs	r1, #16
	str	r3, [sp, #8]
	mov	r3, r2
	mov	r2, r5
	ldrb	r5, [r1]
	lsls	r5, r5, #31
	mov	r5, r2
	mov	r2, r3
	ldr	r3, [sp, #8]
	bne	.LBB120_9
	lsrs	r5, r7, #29
	mov	r7, r0
	ldr	r3, [sp, #24]
	orrs	r7, r3
	str	r7, [r6]
	str	r5, [r6, #4]
	subs	r4, #8
	ldr	r2, [sp, #28]
	str	r2, [r4]
	ldr	r2, [sp, #32]
	str	r2, [r4, #4]
	str	r3, [r1]
	mov	r2, r0
	ldr	r0, [sp, #12]
	str	r0, [r1, #4]
	ldr	r1, [sp, #16]
	str	r2, [r1, #8]
	str	r5, [r1, #12]
	add	sp, #36
	pop	{r4, r5, r6, r7, pc}
.LBB120_9:
	ldr	r0, [sp, #16]
	str	r0, [sp]
	ldr	r0, [sp, #20]
	str	r0, [sp, #4]
	mov	r0, r5
	bl	ic_raw.list_calls.push_back_slow.5386baa488213e47
	add	sp, #36
	pop	{r4, r5, r6, r7, pc}
.Lfunc_end120:
	.size	ic_list_push_back, .Lfunc_end120-ic_list_push_back
	.cfi_endproc
	.section	.text.ic_list_push_front,"ax",%progbits
	.globl	ic_list_push_front
	.p2align	1
	.type	ic_list_push_front,%function
	.code	16
	.thumb_func
ic_list_push_front:
	.cfi_startproc
	push	{r4, r5, r6, r7, lr}
	.cfi_def_cfa_offset 20
	.cfi_offset lr, -4
	.cfi_offset r7, -8
	.cfi_offset r6, -12
	.cfi_offset r5, -16
	.cfi_offset r4, -20
	sub	sp, #44
	.cfi_def_cfa_offset 64
	str	r3, [sp, #36]
	str	r2, [sp, #32]
	ldr	r4, [sp, #64]
	ldr	r5, [r4]
	ldr	r3, [r4, #4]
	movs	r1, #15
	ands	r3, r1
	movs	r2, #7
	mvns	r2, r2
	ands	r5, r2
	mov	r6, r5
	str	r3, [sp, #28]
	orrs	r6, r3
	rsbs	r3, r6, #0
	adcs	r3, r6
	str	r3, [sp, #16]
	movs	r3, #1
	cmp	r0, #0
	str	r3, [sp, #20]
	bne	.LBB121_2
	lsls	r3, r3, #12
	adds	r0, r0, r3
.LBB121_2:
	str	r0, [sp, #40]
	ldr	r0, [r4, #8]
	ldr	r3, [r4, #12]
	ands	r3, r1
	ands	r0, r2
	ldr	r7, [sp, #68]
	str	r7, [sp, #24]
	cmp	r6, #0
	str	r0, [sp, #12]
	str	r3, [sp, #8]
	beq	.LBB121_6
	lsrs	r0, r5, #3
	ldr	r6, [sp, #28]
	lsls	r3, r6, #29
	adds	r0, r0, r3
	lsrs	r3, r6, #3
	ldr	r6, [sp, #32]
	subs	r0, r6, r0
	ldr	r0, [sp, #36]
	sbcs	r0, r3
	blo	.LBB121_13
	lsls	r0, r5, #1
	ldr	r3, [sp, #40]
	adds	r3, r3, r0
	mov	r0, r3
	subs	r0, #16
	ldrb	r0, [r0]
	lsls	r0, r0, #31
	beq	.LBB121_13
	subs	r3, #8
	ldm	r3, {r0, r3}
	ands	r3, r1
	ands	r0, r2
.LBB121_6:
	ldr	r1, [sp, #24]
	adds	r7, r1, #1
	beq	.LBB121_13
	movs	r1, #0
	ldr	r2, [sp, #32]
	subs	r2, r2, r7
	ldr	r2, [sp, #36]
	sbcs	r2, r1
	blo	.LBB121_13
	orrs	r0, r3
	bne	.LBB121_13
	lsls	r6, r7, #3
	lsls	r0, r6, #1
	ldr	r2, [sp, #40]
	adds	r3, r2, r0
	mov	r0, r3
	subs	r0, #16
	ldrb	r2, [r0]
	lsls	r2, r2, #31
	bne	.LBB121_13
	lsrs	r7, r7, #29
	ldr	r2, [sp, #16]
	cmp	r2, #0
	mov	r2, r6
	str	r7, [sp, #36]
	bne	.LBB121_12
	lsls	r2, r5, #1
	ldr	r7, [sp, #40]
	adds	r2, r7, r2
	subs	r2, #8
	str	r6, [r2]
	ldr	r7, [sp, #36]
	str	r7, [r2, #4]
	ldr	r2, [sp, #12]
	ldr	r7, [sp, #8]
.LBB121_12:
	str	r7, [sp, #40]
	ldr	r7, [sp, #20]
	orrs	r5, r7
	str	r5, [r0]
	ldr	r5, [sp, #28]
	str	r5, [r0, #4]
	subs	r3, #8
	str	r1, [r3]
	str	r1, [r3, #4]
	lsrs	r0, r2, #24
	strb	r0, [r4, #11]
	lsrs	r0, r2, #16
	strb	r0, [r4, #10]
	lsrs	r0, r2, #8
	strb	r0, [r4, #9]
	strb	r2, [r4, #8]
	strb	r1, [r4, #15]
	strb	r1, [r4, #14]
	strb	r1, [r4, #13]
	ldr	r0, [sp, #40]
	strb	r0, [r4, #12]
	lsrs	r0, r6, #24
	strb	r0, [r4, #3]
	lsrs	r0, r6, #16
	strb	r0, [r4, #2]
	lsrs	r0, r6, #8
	strb	r0, [r4, #1]
	strb	r6, [r4]
	strb	r1, [r4, #7]
	strb	r1, [r4, #6]
	strb	r1, [r4, #5]
	ldr	r0, [sp, #36]
	strb	r0, [r4, #4]
	mov	r0, r1
	add	sp, #44
	pop	{r4, r5, r6, r7, pc}
.LBB121_13:
	movs	r0, #0
	mvns	r0, r0
	str	r0, [sp]
	ldr	r0, [sp, #24]
	str	r0, [sp, #4]
	ldr	r0, [sp, #40]
	ldr	r2, [sp, #32]
	ldr	r3, [sp, #36]
	bl	ic_raw.table.RawTable.refusal.85cd03e557136797
	mov	r1, r0
	mov	r0, r1
	add	sp, #44
	pop	{r4, r5, r6, r7, pc}
.Lfunc_end121:
	.size	ic_list_push_front, .Lfunc_end121-ic_list_push_front
	.cfi_endproc
	.section	.text.ic_list_remove,"ax",%progbits
	.globl	ic_list_remove
	.p2align	1
	.type	ic_list_remove,%function
	.code	16
	.thumb_func
ic_list_remove:
	.cfi_startproc
	push	{r4, r5, r6, r7, lr}
	.cfi_def_cfa_offset 20
	.cfi_offset lr, -4
	.cfi_offset r7, -8
	.cfi_offset r6, -12
	.cfi_offset r5, -16
	.cfi_offset r4, -20
	sub	sp, #52
	.cfi_def_cfa_offset 72
	mov	r5, r3
	movs	r4, #1
	cmp	r0, #0
	bne	.LBB122_2
	lsls	r1, r4, #12
	adds	r0, r0, r1
.LBB122_2:
	ldr	r1, [sp, #76]
	adds	r7, r1, #1
	blo	.LBB122_4
	movs	r0, #4
	add	sp, #52
	pop	{r4, r5, r6, r7, pc}
.LBB122_4:
	str	r4, [sp, #40]
	str	r1, [sp, #12]
	movs	r3, #0
	str	r2, [sp, #44]
	subs	r1, r2, r7
	mov	r1, r5
	str	r3, [sp, #20]
	sbcs	r1, r3
	blo	.LBB122_18
	lsls	r1, r7, #3
	str	r1, [sp, #36]
	lsls	r1, r1, #1
	adds	r1, r0, r1
	mov	r2, r1
	subs	r2, #16
	str	r2, [sp, #32]
	ldr	r3, [r2]
	lsls	r2, r3, #31
	beq	.LBB122_18
	subs	r1, #8
	ldr	r6, [r1]
	ldr	r1, [r1, #4]
	movs	r2, #15
	ands	r1, r2
	movs	r4, #7
	bics	r6, r4
	str	r6, [sp, #48]
	str	r1, [sp, #28]
	orrs	r6, r1
	beq	.LBB122_18
	ldr	r1, [sp, #32]
	ldr	r1, [r1, #4]
	mvns	r4, r4
	ands	r3, r4
	ands	r1, r2
	mov	r4, r3
	str	r1, [sp, #24]
	orrs	r4, r1
	rsbs	r2, r4, #0
	adcs	r2, r4
	ldr	r1, [sp, #48]
	lsrs	r4, r1, #3
	ldr	r6, [sp, #28]
	lsls	r1, r6, #29
	adds	r1, r4, r1
	lsrs	r4, r6, #3
	ldr	r6, [sp, #44]
	subs	r1, r6, r1
	mov	r1, r5
	sbcs	r1, r4
	ldr	r4, [sp, #40]
	blo	.LBB122_9
	ldr	r4, [sp, #20]
.LBB122_9:
	orrs	r2, r4
	bne	.LBB122_18
	lsrs	r7, r7, #29
	movs	r2, #1
	ldr	r1, [sp, #36]
	str	r2, [sp, #20]
	orrs	r1, r2
	ldr	r2, [sp, #48]
	lsls	r2, r2, #1
	adds	r6, r0, r2
	subs	r6, #16
	ldm	r6!, {r2, r4}
	eors	r2, r1
	str	r7, [sp, #16]
	eors	r4, r7
	orrs	r4, r2
	lsrs	r1, r3, #3
	ldr	r7, [sp, #24]
	lsls	r2, r7, #29
	adds	r1, r1, r2
	lsrs	r2, r7, #3
	ldr	r7, [sp, #44]
	subs	r6, #8
	subs	r1, r7, r1
	mov	r1, r5
	sbcs	r1, r2
	bhs	.LBB122_13
	cmp	r4, #0
	ldr	r1, [sp, #40]
	beq	.LBB122_14
.LBB122_12:
	cmp	r1, #0
	beq	.LBB122_15
	b	.LBB122_18
.LBB122_13:
	movs	r1, #0
	str	r1, [sp, #20]
	cmp	r4, #0
	ldr	r1, [sp, #40]
	bne	.LBB122_12
.LBB122_14:
	ldr	r1, [sp, #20]
	cmp	r1, #0
	bne	.LBB122_18
.LBB122_15:
	lsls	r1, r3, #1
	adds	r4, r0, r1
	mov	r2, r4
	subs	r2, #8
	ldr	r1, [r2]
	str	r5, [sp, #40]
	ldr	r7, [r2, #4]
	ldr	r5, [sp, #16]
	eors	r7, r5
	ldr	r5, [sp, #36]
	eors	r1, r5
	orrs	r1, r7
	ldr	r5, [sp, #40]
	bne	.LBB122_18
	subs	r4, #16
	ldr	r1, [r4]
	lsls	r1, r1, #31
	beq	.LBB122_18
	movs	r0, #1
	orrs	r3, r0
	str	r3, [r6]
	ldr	r0, [sp, #24]
	str	r0, [r6, #4]
	ldr	r0, [sp, #48]
	str	r0, [r2]
	ldr	r0, [sp, #28]
	str	r0, [r2, #4]
	movs	r0, #0
	ldr	r1, [sp, #32]
	str	r0, [r1]
	str	r0, [r1, #4]
	add	sp, #52
	pop	{r4, r5, r6, r7, pc}
.LBB122_18:
	ldr	r1, [sp, #72]
	str	r1, [sp]
	ldr	r1, [sp, #12]
	str	r1, [sp, #4]
	ldr	r2, [sp, #44]
	mov	r3, r5
	bl	ic_raw.list_calls.remove_slow.5386baa488213e47
	add	sp, #52
	pop	{r4, r5, r6, r7, pc}
.Lfunc_end122:
	.size	ic_list_remove, .Lfunc_end122-ic_list_remove
	.cfi_endproc
	.section	.text.ic_list_replace,"ax",%progbits
	.globl	ic_list_replace
	.p2align	1
	.type	ic_list_replace,%function
	.code	16
	.thumb_func
ic_list_replace:
	.cfi_startproc
	push	{r4, r5, r6, r7, lr}
	.cfi_def_cfa_offset 20
	.cfi_offset lr, -4
	.cfi_offset r7, -8
	.cfi_offset r6, -12
	.cfi_offset r5, -16
	.cfi_offset r4, -20
	sub	sp, #92
	.cfi_def_cfa_offset 112
	movs	r1, #1
	cmp	r0, #0
	bne	.LBB123_2
	lsls	r4, r1, #12
	adds	r0, r0, r4
.LBB123_2:
	ldr	r4, [sp, #116]
	adds	r5, r4, #1
	blo	.LBB123_4
	movs	r0, #4
	add	sp, #92
	pop	{r4, r5, r6, r7, pc}
.LBB123_4:
	str	r4, [sp, #16]
	str	r0, [sp, #88]
	str	r1, [sp, #52]
	ldr	r0, [sp, #120]
	str	r0, [sp, #32]
	movs	r1, #0
	str	r2, [sp, #72]
	subs	r0, r2, r5
	str	r3, [sp, #76]
	str	r1, [sp, #68]
	sbcs	r3, r1
	bhs	.LBB123_5
	b	.LBB123_22
.LBB123_5:
	lsls	r0, r5, #3
	str	r0, [sp, #48]
	lsls	r3, r0, #1
	ldr	r1, [sp, #88]
	adds	r3, r1, r3
	mov	r1, r3
	subs	r1, #16
	str	r1, [sp, #44]
	ldr	r0, [r1]
	str	r0, [sp, #80]
	lsls	r4, r0, #31
	bne	.LBB123_6
	b	.LBB123_22
.LBB123_6:
	lsrs	r0, r5, #29
	str	r0, [sp, #36]
	ldr	r0, [sp, #112]
	ldm	r0!, {r4, r7}
	ldr	r1, [r0]
	str	r1, [sp, #64]
	subs	r0, #8
	str	r0, [sp, #20]
	ldr	r0, [r0, #12]
	str	r0, [sp, #60]
	movs	r5, #15
	movs	r2, #7
	mvns	r6, r2
	ands	r7, r5
	ands	r4, r6
	ldr	r1, [sp, #44]
	ldr	r0, [r1, #4]
	str	r0, [sp, #84]
	subs	r3, #8
	ldm	r3!, {r1, r2}
	str	r5, [sp, #56]
	ands	r2, r5
	mov	r0, r6
	ands	r1, r6
	mov	r3, r1
	orrs	r3, r2
	rsbs	r6, r3, #0
	adcs	r6, r3
	str	r6, [sp, #24]
	cmp	r3, #0
	str	r1, [sp, #40]
	str	r2, [sp, #28]
	str	r4, [sp, #12]
	str	r7, [sp, #8]
	beq	.LBB123_9
	lsrs	r3, r1, #3
	lsls	r4, r2, #29
	adds	r3, r3, r4
	lsrs	r4, r2, #3
	ldr	r1, [sp, #72]
	subs	r3, r1, r3
	ldr	r3, [sp, #76]
	sbcs	r3, r4
	bhs	.LBB123_8
	b	.LBB123_22
.LBB123_8:
	mov	r6, r0
	adds	r3, r0, #1
	ldr	r4, [sp, #56]
	ldr	r1, [sp, #68]
	adcs	r4, r1
	ldr	r1, [sp, #40]
	lsls	r7, r1, #1
	ldr	r1, [sp, #88]
	adds	r7, r1, r7
	subs	r7, #16
	ldm	r7, {r2, r7}
	ands	r7, r4
	ldr	r1, [sp, #36]
	eors	r7, r1
	ldr	r4, [sp, #48]
	ldr	r1, [sp, #52]
	orrs	r4, r1
	ands	r2, r3
	eors	r2, r4
	orrs	r2, r7
	beq	.LBB123_10
	b	.LBB123_22
.LBB123_9:
	mov	r2, r4
	ldr	r1, [sp, #48]
	eors	r2, r1
	mov	r3, r7
	ldr	r1, [sp, #36]
	eors	r3, r1
	orrs	r3, r2
	mov	r6, r0
	bne	.LBB123_22
.LBB123_10:
	ldr	r7, [sp, #60]
	ldr	r2, [sp, #56]
	ands	r7, r2
	ldr	r3, [sp, #64]
	ands	r3, r6
	ldr	r1, [sp, #80]
	ands	r1, r6
	ldr	r0, [sp, #84]
	ands	r0, r2
	mov	r2, r1
	str	r0, [sp, #84]
	orrs	r2, r0
	rsbs	r5, r2, #0
	adcs	r5, r2
	cmp	r2, #0
	str	r3, [sp, #64]
	str	r7, [sp, #60]
	beq	.LBB123_14
	mov	r0, r1
	lsrs	r2, r1, #3
	ldr	r1, [sp, #84]
	lsls	r3, r1, #29
	adds	r2, r2, r3
	lsrs	r3, r1, #3
	ldr	r1, [sp, #72]
	subs	r2, r1, r2
	ldr	r2, [sp, #76]
	sbcs	r2, r3
	blo	.LBB123_22
	lsls	r2, r0, #1
	ldr	r1, [sp, #88]
	adds	r4, r1, r2
	mov	r2, r4
	subs	r2, #16
	ldrb	r2, [r2]
	lsls	r2, r2, #31
	beq	.LBB123_22
	subs	r4, #8
	ldm	r4!, {r3, r7}
	ldr	r1, [sp, #56]
	ands	r7, r1
	ands	r3, r6
	mov	r1, r0
.LBB123_14:
	str	r1, [sp, #80]
	ldr	r0, [sp, #32]
	adds	r4, r0, #1
	ldr	r0, [sp, #72]
	subs	r2, r0, r4
	ldr	r2, [sp, #76]
	ldr	r0, [sp, #68]
	sbcs	r2, r0
	blo	.LBB123_22
	cmp	r4, #0
	beq	.LBB123_22
	ldr	r0, [sp, #48]
	eors	r3, r0
	ldr	r0, [sp, #36]
	eors	r7, r0
	orrs	r7, r3
	bne	.LBB123_22
	lsls	r1, r4, #3
	lsls	r3, r1, #1
	ldr	r2, [sp, #88]
	adds	r7, r2, r3
	mov	r6, r7
	subs	r6, #16
	ldrb	r3, [r6]
	lsls	r3, r3, #31
	bne	.LBB123_22
	lsrs	r4, r4, #29
	ldr	r0, [sp, #24]
	cmp	r0, #0
	mov	r3, r1
	mov	r0, r4
	bne	.LBB123_20
	ldr	r0, [sp, #40]
	lsls	r3, r0, #1
	ldr	r2, [sp, #88]
	adds	r3, r2, r3
	subs	r3, #16
	mov	r2, r1
	mov	r0, r4
	ldr	r4, [sp, #52]
	orrs	r2, r4
	mov	r4, r0
	str	r2, [r3]
	str	r0, [r3, #4]
	ldr	r3, [sp, #12]
	ldr	r0, [sp, #8]
.LBB123_20:
	str	r0, [sp, #76]
	cmp	r5, #0
	bne	.LBB123_23
	ldr	r0, [sp, #80]
	lsls	r2, r0, #1
	mov	r5, r4
	ldr	r4, [sp, #88]
	adds	r2, r4, r2
	subs	r2, #8
	stm	r2!, {r1, r5}
	ldr	r2, [sp, #64]
	ldr	r5, [sp, #60]
	b	.LBB123_24
.LBB123_22:
	ldr	r0, [sp, #16]
	str	r0, [sp]
	ldr	r0, [sp, #32]
	str	r0, [sp, #4]
	ldr	r0, [sp, #88]
	ldr	r2, [sp, #72]
	ldr	r3, [sp, #76]
	bl	ic_raw.table.RawTable.refusal.85cd03e557136797
	add	sp, #92
	pop	{r4, r5, r6, r7, pc}
.LBB123_23:
	mov	r2, r1
	mov	r5, r4
	ldr	r0, [sp, #80]
.LBB123_24:
	ldr	r1, [sp, #52]
	orrs	r0, r1
	subs	r7, #8
	str	r0, [r6]
	ldr	r0, [sp, #84]
	str	r0, [r6, #4]
	ldr	r0, [sp, #40]
	str	r0, [r7]
	ldr	r0, [sp, #28]
	str	r0, [r7, #4]
	ldr	r0, [sp, #68]
	ldr	r1, [sp, #44]
	str	r0, [r1]
	str	r0, [r1, #4]
	ldr	r4, [sp, #20]
	strb	r0, [r4, #15]
	strb	r0, [r4, #14]
	strb	r0, [r4, #13]
	strb	r5, [r4, #12]
	lsrs	r1, r2, #24
	strb	r1, [r4, #11]
	lsrs	r1, r2, #16
	strb	r1, [r4, #10]
	lsrs	r1, r2, #8
	strb	r1, [r4, #9]
	strb	r2, [r4, #8]
	strb	r0, [r4, #7]
	strb	r0, [r4, #6]
	strb	r0, [r4, #5]
	ldr	r1, [sp, #76]
	strb	r1, [r4, #4]
	lsrs	r1, r3, #24
	strb	r1, [r4, #3]
	lsrs	r1, r3, #16
	strb	r1, [r4, #2]
	lsrs	r1, r3, #8
	strb	r1, [r4, #1]
	strb	r3, [r4]
	add	sp, #92
	pop	{r4, r5, r6, r7, pc}
.Lfunc_end123:
	.size	ic_list_replace, .Lfunc_end123-ic_list_replace
	.cfi_endproc
	.section	.text.ic_list_sort,"ax",%progbits
	.globl	ic_list_sort
	.p2align	1
	.type	ic_list_sort,%function
	.code	16
	.thumb_func
ic_list_sort:
	.cfi_startproc
	push	{r4, r5, r6, r7, lr}
	.cfi_def_cfa_offset 20
	.cfi_offset lr, -4
	.cfi_offset r7, -8
	.cfi_offset r6, -12
	.cfi_offset r5, -16
	.cfi_offset r4, -20
	sub	sp, #140
	.cfi_def_cfa_offset 160
	ldr	r4, [sp, #172]
	str	r4, [sp, #108]
	ldr	r5, [sp, #168]
	str	r5, [sp, #104]
	movs	r1, #0
	str	r1, [sp, #100]
	add	r6, sp, #64
	stm	r6!, {r1, r2, r3}
	add	r6, sp, #84
	stm	r6!, {r1, r2, r3}
	movs	r3, #1
	lsls	r2, r3, #12
	ldr	r1, [sp, #160]
	cmp	r1, #0
	bne	.LBB124_2
	adds	r1, r1, r2
.LBB124_2:
	str	r1, [sp, #96]
	cmp	r0, #0
	str	r3, [sp, #32]
	bne	.LBB124_4
	adds	r0, r0, r2
.LBB124_4:
	str	r0, [sp, #40]
	str	r0, [sp, #80]
	ldr	r0, [sp, #68]
	str	r5, [sp, #24]
	subs	r0, r5, r0
	str	r4, [sp, #28]
	mov	r0, r4
	ldr	r1, [sp, #72]
	sbcs	r0, r1
	bhs	.LBB124_5
	b	.LBB124_25
.LBB124_5:
	ldr	r0, [sp, #176]
	ldr	r5, [r0]
	ldr	r1, [r0, #4]
	ldr	r4, [r0, #8]
	str	r0, [sp, #36]
	ldr	r6, [r0, #12]
	movs	r2, #15
	ands	r6, r2
	movs	r0, #7
	mvns	r3, r0
	ands	r4, r3
	ands	r1, r2
	ands	r5, r3
	mov	r0, r5
	orrs	r0, r1
	bne	.LBB124_6
	b	.LBB124_24
.LBB124_6:
	str	r6, [sp, #16]
	str	r4, [sp, #20]
	str	r3, [sp, #60]
	str	r2, [sp, #56]
	str	r5, [sp, #44]
	str	r1, [sp, #48]
	ldr	r7, [sp, #64]
	mov	r2, r7
	mov	r4, r7
.LBB124_7:
	str	r2, [sp, #52]
	str	r1, [sp, #76]
	ldr	r0, [sp, #68]
	subs	r1, r4, r0
	mov	r1, r7
	ldr	r0, [sp, #72]
	sbcs	r1, r0
	blo	.LBB124_8
	b	.LBB124_25
.LBB124_8:
	mov	r6, r5
	lsrs	r1, r5, #3
	ldr	r0, [sp, #76]
	lsls	r2, r0, #29
	adds	r1, r1, r2
	lsrs	r2, r0, #3
	ldr	r0, [sp, #68]
	subs	r1, r0, r1
	ldr	r1, [sp, #72]
	sbcs	r1, r2
	bhs	.LBB124_9
	b	.LBB124_25
.LBB124_9:
	lsls	r1, r6, #1
	ldr	r0, [sp, #40]
	adds	r2, r0, r1
	mov	r1, r2
	subs	r1, #16
	ldr	r5, [r1]
	lsls	r3, r5, #31
	bne	.LBB124_10
	b	.LBB124_25
.LBB124_10:
	subs	r2, #8
	ldr	r3, [r2]
	ldr	r2, [r2, #4]
	ldr	r0, [sp, #56]
	ands	r2, r0
	ldr	r0, [sp, #52]
	eors	r2, r0
	ldr	r0, [sp, #60]
	ands	r3, r0
	ldr	r0, [sp, #64]
	eors	r3, r0
	orrs	r3, r2
	beq	.LBB124_11
	b	.LBB124_25
.LBB124_11:
	ldr	r1, [r1, #4]
	movs	r3, #0
	adds	r4, r4, #1
	adcs	r7, r3
	ldr	r0, [sp, #60]
	ands	r5, r0
	ldr	r0, [sp, #56]
	ands	r1, r0
	mov	r2, r5
	orrs	r2, r1
	str	r6, [sp, #64]
	ldr	r0, [sp, #76]
	mov	r2, r0
	bne	.LBB124_7
	mov	r2, r0
	ldr	r0, [sp, #20]
	eors	r0, r6
	ldr	r1, [sp, #16]
	eors	r1, r2
	orrs	r1, r0
	beq	.LBB124_13
	b	.LBB124_25
.LBB124_13:
	mov	r5, r3
	ldr	r3, [sp, #44]
	lsls	r0, r3, #1
	ldr	r2, [sp, #40]
	adds	r1, r2, r0
	subs	r1, #16
	ldr	r6, [r1]
	ldr	r4, [sp, #32]
	str	r4, [r1]
	ldr	r7, [r1, #4]
	str	r5, [sp, #68]
	str	r5, [r1, #4]
	ldr	r5, [sp, #56]
	ands	r7, r5
	ldr	r1, [sp, #60]
	ands	r6, r1
	mov	r1, r6
	orrs	r1, r7
	beq	.LBB124_17
	ldr	r4, [sp, #68]
	mov	r5, r4
	ldr	r1, [sp, #48]
.LBB124_15:
	str	r3, [sp, #44]
	str	r1, [sp, #48]
	str	r6, [sp]
	str	r7, [sp, #4]
	str	r5, [sp, #8]
	str	r4, [sp, #12]
	add	r6, sp, #112
	add	r7, sp, #80
	add	r2, sp, #96
	str	r2, [sp, #72]
	mov	r0, r6
	mov	r1, r7
	bl	ic_list_algorithms.sort.sort_front.6bd71b5c7308988e
	ldrb	r0, [r6, #8]
	str	r0, [sp, #76]
	ldr	r2, [sp, #132]
	ldr	r6, [sp, #128]
	ldr	r0, [sp, #112]
	ldr	r1, [sp, #116]
	str	r0, [sp]
	str	r1, [sp, #4]
	mov	r0, r7
	mov	r7, r2
	ldr	r1, [sp, #72]
	ldr	r2, [sp, #44]
	ldr	r3, [sp, #48]
	bl	ic_list_algorithms.merge.merge_runs.6bd71b5c7308988e
	mov	r3, r0
	adds	r5, r5, #1
	ldr	r0, [sp, #68]
	adcs	r4, r0
	ldr	r0, [sp, #76]
	cmp	r0, #1
	beq	.LBB124_15
	str	r1, [sp, #48]
	lsls	r0, r3, #1
	ldr	r2, [sp, #80]
	ldr	r5, [sp, #56]
.LBB124_17:
	adds	r1, r2, r0
	subs	r1, #8
	movs	r2, #0
	str	r2, [r1]
	str	r2, [r1, #4]
	ldr	r4, [sp, #80]
	adds	r0, r4, r0
	subs	r0, #16
	ldr	r1, [r0]
	ldr	r0, [r0, #4]
	ands	r0, r5
	ldr	r7, [sp, #60]
	ands	r1, r7
	mov	r2, r1
	orrs	r2, r0
	str	r3, [sp, #44]
	beq	.LBB124_26
	mov	r2, r3
	ldr	r3, [sp, #48]
	mov	r6, r5
.LBB124_19:
	lsls	r5, r1, #1
	adds	r4, r4, r5
	subs	r4, #8
	stm	r4!, {r2, r3}
	ldr	r4, [sp, #80]
	adds	r2, r4, r5
	subs	r2, #16
	ldr	r3, [r2]
	ldr	r2, [r2, #4]
	ands	r2, r6
	ands	r3, r7
	mov	r5, r3
	orrs	r5, r2
	beq	.LBB124_28
	lsls	r5, r3, #1
	adds	r4, r4, r5
	subs	r4, #8
	str	r1, [r4]
	str	r0, [r4, #4]
	ldr	r4, [sp, #80]
	adds	r0, r4, r5
	subs	r0, #16
	ldr	r1, [r0]
	ldr	r0, [r0, #4]
	ands	r0, r6
	ands	r1, r7
	mov	r5, r1
	orrs	r5, r0
	beq	.LBB124_27
	lsls	r5, r1, #1
	adds	r4, r4, r5
	subs	r4, #8
	str	r3, [r4]
	str	r2, [r4, #4]
	ldr	r4, [sp, #80]
	adds	r3, r4, r5
	subs	r3, #16
	ldm	r3, {r2, r3}
	ands	r3, r6
	ands	r2, r7
	mov	r5, r2
	orrs	r5, r3
	beq	.LBB124_28
	lsls	r5, r2, #1
	adds	r4, r4, r5
	subs	r4, #8
	str	r1, [r4]
	str	r0, [r4, #4]
	ldr	r4, [sp, #80]
	adds	r0, r4, r5
	subs	r0, #16
	ldr	r1, [r0]
	ldr	r0, [r0, #4]
	ands	r0, r6
	ands	r1, r7
	mov	r5, r1
	orrs	r5, r0
	bne	.LBB124_19
	mov	r1, r2
	mov	r0, r3
	b	.LBB124_28
.LBB124_24:
	orrs	r4, r6
	movs	r0, #0
	cmp	r4, #0
	str	r0, [sp, #48]
	mov	r1, r0
	str	r0, [sp, #44]
	beq	.LBB124_28
.LBB124_25:
	ldr	r0, [sp, #68]
	ldr	r1, [sp, #72]
	ldr	r2, [sp, #24]
	ldr	r3, [sp, #28]
	bl	ic_raw.sort_calls.refusal.78cbab63d6c27224
	add	sp, #140
	pop	{r4, r5, r6, r7, pc}
.LBB124_26:
	mov	r1, r3
	ldr	r0, [sp, #48]
	b	.LBB124_28
.LBB124_27:
	mov	r1, r3
	mov	r0, r2
.LBB124_28:
	ldr	r3, [sp, #36]
	strb	r1, [r3, #8]
	ldr	r6, [sp, #44]
	strb	r6, [r3]
	strb	r0, [r3, #12]
	lsrs	r2, r1, #24
	strb	r2, [r3, #11]
	lsrs	r2, r1, #16
	strb	r2, [r3, #10]
	lsrs	r1, r1, #8
	strb	r1, [r3, #9]
	ldr	r2, [sp, #48]
	strb	r2, [r3, #4]
	lsrs	r1, r6, #24
	strb	r1, [r3, #3]
	lsrs	r1, r6, #16
	strb	r1, [r3, #2]
	lsrs	r1, r6, #8
	strb	r1, [r3, #1]
	lsrs	r1, r0, #24
	strb	r1, [r3, #15]
	lsrs	r1, r0, #16
	strb	r1, [r3, #14]
	lsrs	r0, r0, #8
	strb	r0, [r3, #13]
	lsrs	r0, r2, #24
	strb	r0, [r3, #7]
	lsrs	r0, r2, #16
	strb	r0, [r3, #6]
	lsrs	r0, r2, #8
	strb	r0, [r3, #5]
	movs	r0, #0
	add	sp, #140
	pop	{r4, r5, r6, r7, pc}
.Lfunc_end124:
	.size	ic_list_sort, .Lfunc_end124-ic_list_sort
	.cfi_endproc
	.section	.text.ic_list_splice_after,"ax",%progbits
	.globl	ic_list_splice_after
	.p2align	1
	.type	ic_list_splice_after,%function
	.code	16
	.thumb_func
ic_list_splice_after:
	.cfi_startproc
	push	{r4, r5, r6, r7, lr}
	.cfi_def_cfa_offset 20
	.cfi_offset lr, -4
	.cfi_offset r7, -8
	.cfi_offset r6, -12
	.cfi_offset r5, -16
	.cfi_offset r4, -20
	sub	sp, #76
	.cfi_def_cfa_offset 96
	str	r3, [sp, #64]
	mov	r3, r2
	str	r0, [sp, #56]
	ldr	r5, [sp, #96]
	ldm	r5!, {r1, r2}
	movs	r0, #15
	mov	r7, r2
	str	r0, [sp, #48]
	ands	r7, r0
	movs	r0, #7
	mvns	r4, r0
	mov	r0, r1
	str	r4, [sp, #44]
	ands	r0, r4
	str	r0, [sp, #52]
	orrs	r0, r7
	subs	r5, #8
	rsbs	r6, r0, #0
	adcs	r6, r0
	ldr	r0, [sp, #100]
	str	r0, [sp, #20]
	adds	r0, r0, #1
	subs	r4, r0, #1
	sbcs	r0, r4
	orrs	r0, r6
	str	r7, [sp, #36]
	lsrs	r4, r7, #3
	lsls	r2, r2, #29
	lsrs	r1, r1, #3
	adds	r1, r1, r2
	movs	r2, #1
	str	r3, [sp, #40]
	subs	r1, r3, r1
	ldr	r1, [sp, #64]
	sbcs	r1, r4
	str	r2, [sp, #72]
	mov	r1, r2
	bhs	.LBB125_3
	orrs	r0, r1
	ldr	r4, [sp, #56]
	cmp	r4, #0
	beq	.LBB125_4
.LBB125_2:
	ldr	r1, [sp, #104]
	str	r1, [sp, #60]
	cmp	r0, #0
	beq	.LBB125_5
	b	.LBB125_25
.LBB125_3:
	movs	r1, #0
	orrs	r0, r1
	ldr	r4, [sp, #56]
	cmp	r4, #0
	bne	.LBB125_2
.LBB125_4:
	ldr	r1, [sp, #72]
	lsls	r1, r1, #12
	adds	r4, r4, r1
	ldr	r1, [sp, #104]
	str	r1, [sp, #60]
	cmp	r0, #0
	beq	.LBB125_5
	b	.LBB125_25
.LBB125_5:
	ldr	r0, [sp, #52]
	lsls	r0, r0, #1
	adds	r0, r4, r0
	mov	r2, r0
	subs	r2, #8
	ldr	r1, [r2]
	str	r2, [sp, #28]
	ldr	r2, [r2, #4]
	orrs	r2, r1
	beq	.LBB125_6
	b	.LBB125_25
.LBB125_6:
	ldr	r1, [sp, #60]
	ldm	r1!, {r2, r6}
	ldr	r1, [sp, #48]
	ands	r6, r1
	ldr	r1, [sp, #44]
	ands	r2, r1
	str	r2, [sp, #68]
	lsrs	r1, r2, #3
	lsls	r2, r6, #29
	adds	r1, r1, r2
	lsrs	r2, r6, #3
	ldr	r3, [sp, #40]
	subs	r1, r3, r1
	ldr	r1, [sp, #64]
	sbcs	r1, r2
	blo	.LBB125_8
	movs	r1, #0
	subs	r0, #16
	ldr	r0, [r0]
	lsls	r0, r0, #31
	beq	.LBB125_9
	b	.LBB125_10
.LBB125_8:
	movs	r1, #1
	subs	r0, #16
	ldr	r0, [r0]
	lsls	r0, r0, #31
	bne	.LBB125_10
.LBB125_9:
	ldr	r1, [sp, #72]
.LBB125_10:
	ldr	r0, [sp, #68]
	str	r6, [sp, #32]
	orrs	r0, r6
	ldr	r0, [sp, #72]
	beq	.LBB125_12
	mov	r0, r1
.LBB125_12:
	cmp	r0, #0
	bne	.LBB125_25
	ldr	r0, [sp, #68]
	lsls	r0, r0, #1
	adds	r6, r4, r0
	mov	r7, r6
	subs	r7, #8
	ldm	r7!, {r0, r1}
	subs	r7, #8
	orrs	r1, r0
	bne	.LBB125_25
	str	r4, [sp, #56]
	ldr	r1, [sp, #60]
	ldr	r0, [r1, #8]
	ldr	r1, [r1, #12]
	ldr	r2, [sp, #48]
	ands	r1, r2
	ldr	r2, [sp, #44]
	ands	r0, r2
	lsrs	r2, r0, #3
	lsls	r3, r1, #29
	adds	r2, r2, r3
	lsrs	r3, r1, #3
	ldr	r4, [sp, #40]
	subs	r2, r4, r2
	ldr	r2, [sp, #64]
	sbcs	r2, r3
	blo	.LBB125_16
	movs	r2, #0
	b	.LBB125_17
.LBB125_16:
	movs	r2, #1
.LBB125_17:
	subs	r6, #16
	ldr	r3, [r6]
	lsls	r3, r3, #31
	ldr	r4, [sp, #56]
	beq	.LBB125_20
	mov	r3, r0
	orrs	r3, r1
	bne	.LBB125_21
.LBB125_19:
	ldr	r2, [sp, #72]
	cmp	r2, #0
	beq	.LBB125_22
	b	.LBB125_25
.LBB125_20:
	ldr	r2, [sp, #72]
	mov	r3, r0
	orrs	r3, r1
	beq	.LBB125_19
.LBB125_21:
	str	r2, [sp, #72]
	ldr	r2, [sp, #72]
	cmp	r2, #0
	bne	.LBB125_25
.LBB125_22:
	ldr	r2, [sp, #52]
	ldr	r3, [sp, #68]
	eors	r2, r3
	ldr	r3, [sp, #36]
	ldr	r6, [sp, #32]
	eors	r3, r6
	orrs	r3, r2
	beq	.LBB125_25
	lsls	r2, r0, #1
	adds	r6, r4, r2
	subs	r6, #16
	ldm	r6!, {r2, r3}
	str	r3, [sp, #72]
	mov	r3, r4
	movs	r4, #1
	str	r4, [sp, #24]
	eors	r2, r4
	mov	r4, r3
	ldr	r3, [sp, #72]
	subs	r6, #8
	orrs	r2, r3
	bne	.LBB125_25
	ldr	r2, [r5, #8]
	ldr	r3, [r5, #12]
	ldr	r4, [sp, #48]
	ands	r3, r4
	ldr	r4, [sp, #44]
	ands	r2, r4
	ldr	r4, [sp, #28]
	stm	r4!, {r0, r1}
	movs	r4, #0
	str	r4, [r7]
	str	r4, [r7, #4]
	ldr	r0, [sp, #52]
	ldr	r1, [sp, #24]
	orrs	r0, r1
	str	r0, [r6]
	ldr	r0, [sp, #36]
	str	r0, [r6, #4]
	strb	r4, [r5, #15]
	strb	r4, [r5, #14]
	strb	r4, [r5, #13]
	strb	r3, [r5, #12]
	lsrs	r0, r2, #24
	strb	r0, [r5, #11]
	lsrs	r0, r2, #16
	strb	r0, [r5, #10]
	lsrs	r0, r2, #8
	strb	r0, [r5, #9]
	strb	r2, [r5, #8]
	strb	r4, [r5, #7]
	strb	r4, [r5, #6]
	strb	r4, [r5, #5]
	ldr	r0, [sp, #32]
	strb	r0, [r5, #4]
	ldr	r1, [sp, #68]
	lsrs	r0, r1, #24
	strb	r0, [r5, #3]
	lsrs	r0, r1, #16
	strb	r0, [r5, #2]
	lsrs	r0, r1, #8
	strb	r0, [r5, #1]
	strb	r1, [r5]
	str	r4, [sp]
	movs	r2, #16
	ldr	r0, [sp, #60]
	mov	r1, r4
	mov	r3, r4
	bl	ic.clear
	mov	r0, r4
	add	sp, #76
	pop	{r4, r5, r6, r7, pc}
.LBB125_25:
	movs	r0, #0
	str	r5, [sp]
	ldr	r1, [sp, #20]
	str	r1, [sp, #4]
	ldr	r1, [sp, #60]
	str	r1, [sp, #8]
	str	r0, [sp, #12]
	mov	r0, r4
	ldr	r2, [sp, #40]
	ldr	r3, [sp, #64]
	bl	ic_raw.list_calls.splice_slow.5386baa488213e47
	mov	r4, r0
	mov	r0, r4
	add	sp, #76
	pop	{r4, r5, r6, r7, pc}
.Lfunc_end125:
	.size	ic_list_splice_after, .Lfunc_end125-ic_list_splice_after
	.cfi_endproc
	.section	.text.ic_list_splice_before,"ax",%progbits
	.globl	ic_list_splice_before
	.p2align	1
	.type	ic_list_splice_before,%function
	.code	16
	.thumb_func
ic_list_splice_before:
	.cfi_startproc
	push	{r4, r5, r6, r7, lr}
	.cfi_def_cfa_offset 20
	.cfi_offset lr, -4
	.cfi_offset r7, -8
	.cfi_offset r6, -12
	.cfi_offset r5, -16
	.cfi_offset r4, -20
	sub	sp, #76
	.cfi_def_cfa_offset 96
	str	r3, [sp, #68]
	str	r2, [sp, #64]
	str	r0, [sp, #72]
	ldr	r5, [sp, #96]
	ldr	r3, [r5, #8]
	ldr	r2, [r5, #12]
	movs	r0, #15
	mov	r1, r2
	str	r0, [sp, #56]
	ands	r1, r0
	movs	r0, #7
	mvns	r4, r0
	mov	r0, r3
	str	r4, [sp, #52]
	ands	r0, r4
	str	r0, [sp, #40]
	orrs	r0, r1
	rsbs	r6, r0, #0
	adcs	r6, r0
	ldr	r0, [sp, #100]
	str	r0, [sp, #20]
	adds	r7, r0, #1
	subs	r4, r7, #1
	sbcs	r7, r4
	orrs	r7, r6
	str	r1, [sp, #32]
	lsrs	r0, r1, #3
	lsls	r6, r2, #29
	lsrs	r1, r3, #3
	adds	r1, r1, r6
	movs	r2, #1
	ldr	r3, [sp, #64]
	subs	r1, r3, r1
	ldr	r1, [sp, #68]
	sbcs	r1, r0
	str	r2, [sp, #44]
	mov	r1, r2
	bhs	.LBB126_3
	orrs	r7, r1
	ldr	r0, [sp, #72]
	cmp	r0, #0
	beq	.LBB126_4
.LBB126_2:
	ldr	r1, [sp, #104]
	str	r1, [sp, #60]
	cmp	r7, #0
	beq	.LBB126_5
	b	.LBB126_24
.LBB126_3:
	movs	r1, #0
	orrs	r7, r1
	ldr	r0, [sp, #72]
	cmp	r0, #0
	bne	.LBB126_2
.LBB126_4:
	ldr	r1, [sp, #44]
	lsls	r1, r1, #12
	adds	r0, r0, r1
	ldr	r1, [sp, #104]
	str	r1, [sp, #60]
	cmp	r7, #0
	beq	.LBB126_5
	b	.LBB126_24
.LBB126_5:
	ldr	r1, [sp, #60]
	ldm	r1!, {r2, r7}
	ldr	r1, [sp, #56]
	ands	r7, r1
	ldr	r1, [sp, #52]
	ands	r2, r1
	ldr	r1, [sp, #40]
	lsls	r1, r1, #1
	adds	r3, r0, r1
	subs	r3, #16
	ldr	r1, [r3]
	str	r3, [sp, #28]
	ldr	r3, [r3, #4]
	movs	r4, #1
	eors	r1, r4
	orrs	r1, r3
	lsrs	r3, r2, #3
	lsls	r6, r7, #29
	adds	r3, r3, r6
	str	r7, [sp, #48]
	lsrs	r6, r7, #3
	ldr	r7, [sp, #64]
	subs	r3, r7, r3
	ldr	r3, [sp, #68]
	sbcs	r3, r6
	blo	.LBB126_7
	movs	r4, #0
.LBB126_7:
	cmp	r1, #0
	ldr	r6, [sp, #44]
	mov	r1, r6
	bne	.LBB126_9
	mov	r1, r4
.LBB126_9:
	mov	r3, r2
	ldr	r4, [sp, #48]
	orrs	r3, r4
	mov	r3, r6
	beq	.LBB126_11
	mov	r3, r1
.LBB126_11:
	cmp	r3, #0
	bne	.LBB126_24
	lsls	r1, r2, #1
	adds	r3, r0, r1
	mov	r1, r3
	subs	r1, #8
	ldr	r4, [r1]
	str	r1, [sp, #24]
	ldr	r1, [r1, #4]
	orrs	r1, r4
	bne	.LBB126_24
	str	r0, [sp, #72]
	ldr	r0, [sp, #60]
	ldr	r6, [r0, #8]
	ldr	r4, [r0, #12]
	ldr	r0, [sp, #56]
	ands	r4, r0
	ldr	r0, [sp, #52]
	ands	r6, r0
	lsrs	r1, r6, #3
	lsls	r7, r4, #29
	adds	r1, r1, r7
	str	r4, [sp, #36]
	lsrs	r7, r4, #3
	ldr	r4, [sp, #64]
	subs	r1, r4, r1
	ldr	r1, [sp, #68]
	sbcs	r1, r7
	blo	.LBB126_15
	movs	r7, #0
	b	.LBB126_16
.LBB126_15:
	movs	r7, #1
.LBB126_16:
	ldr	r4, [sp, #44]
	subs	r3, #16
	ldr	r1, [r3]
	lsls	r1, r1, #31
	ldr	r0, [sp, #72]
	beq	.LBB126_19
	mov	r1, r6
	ldr	r3, [sp, #36]
	orrs	r1, r3
	bne	.LBB126_20
.LBB126_18:
	cmp	r4, #0
	beq	.LBB126_21
	b	.LBB126_24
.LBB126_19:
	mov	r7, r4
	mov	r1, r6
	ldr	r3, [sp, #36]
	orrs	r1, r3
	beq	.LBB126_18
.LBB126_20:
	mov	r4, r7
	cmp	r4, #0
	bne	.LBB126_24
.LBB126_21:
	ldr	r7, [r5]
	ldr	r3, [r5, #4]
	ldr	r1, [sp, #56]
	ands	r3, r1
	ldr	r1, [sp, #52]
	ands	r7, r1
	mov	r1, r7
	eors	r1, r2
	str	r3, [sp, #56]
	ldr	r4, [sp, #48]
	eors	r3, r4
	orrs	r3, r1
	beq	.LBB126_24
	lsls	r1, r6, #1
	adds	r3, r0, r1
	subs	r3, #16
	ldr	r4, [r3]
	ldr	r0, [r3, #4]
	movs	r1, #1
	eors	r4, r1
	orrs	r4, r0
	ldr	r0, [sp, #72]
	bne	.LBB126_24
	orrs	r2, r1
	ldr	r4, [sp, #28]
	str	r2, [r4]
	ldr	r0, [sp, #48]
	str	r0, [r4, #4]
	ldr	r0, [sp, #40]
	ldr	r2, [sp, #24]
	str	r0, [r2]
	ldr	r0, [sp, #32]
	str	r0, [r2, #4]
	movs	r4, #0
	stm	r3!, {r1, r4}
	strb	r4, [r5, #15]
	strb	r4, [r5, #14]
	strb	r4, [r5, #13]
	ldr	r0, [sp, #36]
	strb	r0, [r5, #12]
	lsrs	r1, r6, #24
	strb	r1, [r5, #11]
	lsrs	r1, r6, #16
	strb	r1, [r5, #10]
	lsrs	r1, r6, #8
	strb	r1, [r5, #9]
	strb	r6, [r5, #8]
	strb	r4, [r5, #7]
	strb	r4, [r5, #6]
	strb	r4, [r5, #5]
	ldr	r0, [sp, #56]
	strb	r0, [r5, #4]
	lsrs	r0, r7, #24
	strb	r0, [r5, #3]
	lsrs	r0, r7, #16
	strb	r0, [r5, #2]
	lsrs	r0, r7, #8
	strb	r0, [r5, #1]
	strb	r7, [r5]
	str	r4, [sp]
	movs	r2, #16
	ldr	r0, [sp, #60]
	mov	r1, r4
	mov	r3, r4
	bl	ic.clear
	mov	r0, r4
	add	sp, #76
	pop	{r4, r5, r6, r7, pc}
.LBB126_24:
	movs	r1, #1
	str	r5, [sp]
	ldr	r2, [sp, #20]
	str	r2, [sp, #4]
	ldr	r2, [sp, #60]
	str	r2, [sp, #8]
	str	r1, [sp, #12]
	ldr	r2, [sp, #64]
	ldr	r3, [sp, #68]
	bl	ic_raw.list_calls.splice_slow.5386baa488213e47
	mov	r4, r0
	mov	r0, r4
	add	sp, #76
	pop	{r4, r5, r6, r7, pc}
.Lfunc_end126:
	.size	ic_list_splice_before, .Lfunc_end126-ic_list_splice_before
	.cfi_endproc
	.section	.text.ic_list_split_after,"ax",%progbits
	.globl	ic_list_split_after
	.p2align	1
	.type	ic_list_split_after,%function
	.code	16
	.thumb_func
ic_list_split_after:
	.cfi_startproc
	push	{r4, r5, r6, r7, lr}
	.cfi_def_cfa_offset 20
	.cfi_offset lr, -4
	.cfi_offset r7, -8
	.cfi_offset r6, -12
	.cfi_offset r5, -16
	.cfi_offset r4, -20
	sub	sp, #68
	.cfi_def_cfa_offset 88
	str	r3, [sp, #52]
	str	r2, [sp, #56]
	mov	r7, r0
	ldr	r4, [sp, #96]
	ldm	r4!, {r0, r1}
	movs	r2, #15
	str	r2, [sp, #64]
	ands	r1, r2
	movs	r2, #7
	mvns	r2, r2
	str	r2, [sp, #60]
	ands	r0, r2
	orrs	r0, r1
	movs	r1, #1
	subs	r4, #8
	cmp	r7, #0
	str	r1, [sp, #24]
	bne	.LBB127_2
	lsls	r1, r1, #12
	adds	r7, r7, r1
.LBB127_2:
	ldr	r5, [sp, #88]
	ldr	r1, [sp, #92]
	str	r1, [sp, #36]
	cmp	r0, #0
	beq	.LBB127_3
	b	.LBB127_12
.LBB127_3:
	ldr	r0, [r4, #8]
	ldr	r1, [r4, #12]
	ldr	r2, [sp, #64]
	ands	r1, r2
	ldr	r2, [sp, #60]
	ands	r0, r2
	orrs	r0, r1
	beq	.LBB127_4
	b	.LBB127_12
.LBB127_4:
	ldr	r0, [sp, #36]
	adds	r6, r0, #1
	blo	.LBB127_5
	b	.LBB127_12
.LBB127_5:
	movs	r0, #0
	ldr	r1, [sp, #56]
	subs	r1, r1, r6
	ldr	r1, [sp, #52]
	sbcs	r1, r0
	bhs	.LBB127_6
	b	.LBB127_12
.LBB127_6:
	lsls	r1, r6, #3
	str	r1, [sp, #32]
	lsls	r1, r1, #1
	adds	r1, r7, r1
	subs	r1, #16
	str	r1, [sp, #44]
	ldr	r1, [r1]
	lsls	r2, r1, #31
	beq	.LBB127_12
	mov	r3, r1
	ldr	r1, [sp, #44]
	str	r6, [sp, #20]
	ldr	r6, [r1, #4]
	ldr	r1, [sp, #60]
	mov	r2, r3
	ands	r2, r1
	ldr	r1, [sp, #64]
	ands	r6, r1
	str	r2, [sp, #48]
	str	r6, [sp, #28]
	orrs	r2, r6
	ldr	r3, [sp, #20]
	beq	.LBB127_12
	ldr	r1, [sp, #48]
	lsrs	r2, r1, #3
	str	r7, [sp, #40]
	ldr	r1, [sp, #28]
	lsls	r7, r1, #29
	adds	r2, r2, r7
	lsrs	r7, r1, #3
	ldr	r1, [sp, #56]
	subs	r2, r1, r2
	ldr	r2, [sp, #52]
	sbcs	r2, r7
	ldr	r7, [sp, #40]
	blo	.LBB127_12
	lsrs	r3, r3, #29
	ldr	r1, [sp, #48]
	lsls	r2, r1, #1
	adds	r2, r7, r2
	mov	r1, r2
	subs	r1, #8
	ldr	r7, [r1]
	ldr	r6, [r1, #4]
	str	r3, [sp, #20]
	eors	r6, r3
	ldr	r3, [sp, #32]
	eors	r7, r3
	orrs	r7, r6
	ldr	r7, [sp, #40]
	bne	.LBB127_12
	subs	r2, #16
	ldr	r2, [r2]
	lsls	r2, r2, #31
	beq	.LBB127_12
	ldr	r7, [r5]
	ldr	r2, [r5, #4]
	str	r2, [sp, #56]
	ldr	r3, [r5, #8]
	ldr	r6, [r5, #12]
	ldr	r2, [sp, #64]
	ands	r6, r2
	str	r6, [sp, #52]
	ldr	r2, [sp, #60]
	ands	r3, r2
	ldr	r2, [sp, #56]
	ldr	r6, [sp, #64]
	ands	r2, r6
	str	r2, [sp, #56]
	ldr	r2, [sp, #60]
	ands	r7, r2
	ldr	r2, [sp, #24]
	ldr	r6, [sp, #44]
	str	r2, [r6]
	str	r0, [r6, #4]
	str	r0, [r1]
	str	r0, [r1, #4]
	strb	r0, [r5, #15]
	strb	r0, [r5, #14]
	strb	r0, [r5, #13]
	ldr	r1, [sp, #20]
	strb	r1, [r5, #12]
	ldr	r1, [sp, #32]
	lsrs	r2, r1, #24
	strb	r2, [r5, #11]
	lsrs	r2, r1, #16
	strb	r2, [r5, #10]
	lsrs	r2, r1, #8
	strb	r2, [r5, #9]
	strb	r1, [r5, #8]
	strb	r0, [r5, #7]
	strb	r0, [r5, #6]
	strb	r0, [r5, #5]
	ldr	r1, [sp, #56]
	strb	r1, [r5, #4]
	lsrs	r2, r7, #24
	strb	r2, [r5, #3]
	lsrs	r2, r7, #16
	strb	r2, [r5, #2]
	lsrs	r2, r7, #8
	strb	r2, [r5, #1]
	strb	r7, [r5]
	lsrs	r2, r3, #16
	strb	r2, [r4, #10]
	lsrs	r2, r3, #24
	strb	r2, [r4, #11]
	strb	r3, [r4, #8]
	lsrs	r2, r3, #8
	strb	r2, [r4, #9]
	strb	r0, [r4, #14]
	strb	r0, [r4, #15]
	ldr	r1, [sp, #52]
	strb	r1, [r4, #12]
	strb	r0, [r4, #13]
	ldr	r1, [sp, #48]
	lsrs	r2, r1, #16
	strb	r2, [r4, #2]
	lsrs	r2, r1, #24
	strb	r2, [r4, #3]
	strb	r1, [r4]
	lsrs	r1, r1, #8
	strb	r1, [r4, #1]
	strb	r0, [r4, #6]
	strb	r0, [r4, #7]
	ldr	r1, [sp, #28]
	strb	r1, [r4, #4]
	strb	r0, [r4, #5]
	add	sp, #68
	pop	{r4, r5, r6, r7, pc}
.LBB127_12:
	movs	r0, #0
	str	r5, [sp]
	ldr	r1, [sp, #36]
	str	r1, [sp, #4]
	str	r4, [sp, #8]
	str	r0, [sp, #12]
	mov	r0, r7
	ldr	r2, [sp, #56]
	ldr	r3, [sp, #52]
	bl	ic_raw.list_calls.split_slow.5386baa488213e47
	add	sp, #68
	pop	{r4, r5, r6, r7, pc}
.Lfunc_end127:
	.size	ic_list_split_after, .Lfunc_end127-ic_list_split_after
	.cfi_endproc
	.section	.text.ic_list_split_before,"ax",%progbits
	.globl	ic_list_split_before
	.p2align	1
	.type	ic_list_split_before,%function
	.code	16
	.thumb_func
ic_list_split_before:
	.cfi_startproc
	push	{r4, r5, r6, r7, lr}
	.cfi_def_cfa_offset 20
	.cfi_offset lr, -4
	.cfi_offset r7, -8
	.cfi_offset r6, -12
	.cfi_offset r5, -16
	.cfi_offset r4, -20
	sub	sp, #60
	.cfi_def_cfa_offset 80
	str	r3, [sp, #44]
	str	r2, [sp, #40]
	ldr	r4, [sp, #88]
	ldr	r3, [r4]
	ldr	r1, [r4, #4]
	movs	r2, #15
	str	r2, [sp, #56]
	ands	r1, r2
	movs	r2, #7
	mvns	r2, r2
	str	r2, [sp, #52]
	ands	r3, r2
	orrs	r3, r1
	movs	r1, #1
	cmp	r0, #0
	str	r1, [sp, #32]
	bne	.LBB128_2
	lsls	r1, r1, #12
	adds	r0, r0, r1
.LBB128_2:
	str	r0, [sp, #36]
	ldr	r5, [sp, #80]
	ldr	r0, [sp, #84]
	str	r0, [sp, #20]
	cmp	r3, #0
	beq	.LBB128_3
	b	.LBB128_11
.LBB128_3:
	ldr	r0, [r4, #8]
	ldr	r1, [r4, #12]
	ldr	r2, [sp, #56]
	ands	r1, r2
	ldr	r2, [sp, #52]
	ands	r0, r2
	orrs	r0, r1
	beq	.LBB128_4
	b	.LBB128_11
.LBB128_4:
	ldr	r0, [sp, #20]
	adds	r6, r0, #1
	blo	.LBB128_5
	b	.LBB128_11
.LBB128_5:
	movs	r0, #0
	ldr	r1, [sp, #40]
	subs	r1, r1, r6
	ldr	r1, [sp, #44]
	sbcs	r1, r0
	blo	.LBB128_11
	lsls	r1, r6, #3
	str	r1, [sp, #28]
	lsls	r1, r1, #1
	ldr	r2, [sp, #36]
	adds	r7, r2, r1
	mov	r1, r7
	subs	r1, #16
	ldrb	r1, [r1]
	lsls	r1, r1, #31
	beq	.LBB128_11
	subs	r7, #8
	ldm	r7!, {r2, r3}
	ldr	r1, [sp, #56]
	ands	r3, r1
	ldr	r1, [sp, #52]
	ands	r2, r1
	str	r2, [sp, #48]
	str	r3, [sp, #24]
	subs	r7, #8
	orrs	r2, r3
	beq	.LBB128_11
	ldr	r1, [sp, #24]
	lsls	r2, r1, #29
	ldr	r3, [sp, #48]
	lsrs	r3, r3, #3
	adds	r2, r3, r2
	lsrs	r3, r1, #3
	ldr	r1, [sp, #40]
	subs	r2, r1, r2
	ldr	r2, [sp, #44]
	sbcs	r2, r3
	blo	.LBB128_11
	lsrs	r1, r6, #29
	str	r1, [sp, #16]
	ldr	r2, [sp, #28]
	ldr	r1, [sp, #32]
	orrs	r2, r1
	ldr	r1, [sp, #48]
	lsls	r3, r1, #1
	ldr	r1, [sp, #36]
	adds	r3, r1, r3
	subs	r3, #16
	ldr	r6, [r3]
	ldr	r1, [r3, #4]
	eors	r6, r2
	ldr	r2, [sp, #16]
	eors	r1, r2
	orrs	r1, r6
	bne	.LBB128_11
	ldr	r1, [r5]
	str	r1, [sp, #36]
	ldr	r1, [r5, #4]
	str	r1, [sp, #44]
	ldr	r2, [r5, #8]
	ldr	r1, [r5, #12]
	ldr	r6, [sp, #56]
	ands	r1, r6
	str	r1, [sp, #40]
	ldr	r1, [sp, #52]
	ands	r2, r1
	str	r7, [sp, #20]
	ldr	r7, [sp, #44]
	ands	r7, r6
	str	r7, [sp, #44]
	ldr	r7, [sp, #36]
	ands	r7, r1
	ldr	r6, [sp, #32]
	str	r6, [r3]
	str	r0, [r3, #4]
	ldr	r1, [sp, #20]
	str	r0, [r1]
	str	r0, [r1, #4]
	strb	r0, [r5, #15]
	strb	r0, [r5, #14]
	strb	r0, [r5, #13]
	ldr	r1, [sp, #40]
	strb	r1, [r5, #12]
	lsrs	r1, r2, #24
	strb	r1, [r5, #11]
	lsrs	r1, r2, #16
	strb	r1, [r5, #10]
	lsrs	r1, r2, #8
	strb	r1, [r5, #9]
	strb	r2, [r5, #8]
	strb	r0, [r5, #7]
	strb	r0, [r5, #6]
	strb	r0, [r5, #5]
	ldr	r1, [sp, #16]
	strb	r1, [r5, #4]
	ldr	r2, [sp, #28]
	lsrs	r1, r2, #24
	strb	r1, [r5, #3]
	lsrs	r1, r2, #16
	strb	r1, [r5, #2]
	lsrs	r1, r2, #8
	strb	r1, [r5, #1]
	strb	r2, [r5]
	ldr	r2, [sp, #48]
	lsrs	r1, r2, #16
	strb	r1, [r4, #10]
	lsrs	r1, r2, #24
	strb	r1, [r4, #11]
	strb	r2, [r4, #8]
	lsrs	r1, r2, #8
	strb	r1, [r4, #9]
	strb	r0, [r4, #14]
	strb	r0, [r4, #15]
	ldr	r1, [sp, #24]
	strb	r1, [r4, #12]
	strb	r0, [r4, #13]
	lsrs	r1, r7, #16
	strb	r1, [r4, #2]
	lsrs	r1, r7, #24
	strb	r1, [r4, #3]
	strb	r7, [r4]
	lsrs	r1, r7, #8
	strb	r1, [r4, #1]
	strb	r0, [r4, #6]
	strb	r0, [r4, #7]
	ldr	r1, [sp, #44]
	strb	r1, [r4, #4]
	strb	r0, [r4, #5]
	add	sp, #60
	pop	{r4, r5, r6, r7, pc}
.LBB128_11:
	str	r5, [sp]
	ldr	r0, [sp, #20]
	str	r0, [sp, #4]
	str	r4, [sp, #8]
	ldr	r0, [sp, #32]
	str	r0, [sp, #12]
	add	r3, sp, #36
	ldm	r3, {r0, r2, r3}
	bl	ic_raw.list_calls.split_slow.5386baa488213e47
	add	sp, #60
	pop	{r4, r5, r6, r7, pc}
.Lfunc_end128:
	.size	ic_list_split_before, .Lfunc_end128-ic_list_split_before
	.cfi_endproc
	.section	.text.ic_list_transfer_after,"ax",%progbits
	.globl	ic_list_transfer_after
	.p2align	1
	.type	ic_list_transfer_after,%function
	.code	16
	.thumb_func
ic_list_transfer_after:
	.cfi_startproc
	push	{r7, lr}
	.cfi_def_cfa_offset 8
	.cfi_offset lr, -4
	.cfi_offset r7, -8
	sub	sp, #24
	.cfi_def_cfa_offset 32
	ldr	r1, [sp, #44]
	str	r1, [sp, #16]
	ldr	r1, [sp, #40]
	str	r1, [sp, #12]
	ldr	r1, [sp, #36]
	str	r1, [sp, #8]
	movs	r1, #0
	str	r1, [sp, #4]
	ldr	r1, [sp, #32]
	str	r1, [sp]
	cmp	r0, #0
	bne	.LBB129_2
	movs	r1, #1
	lsls	r1, r1, #12
	adds	r0, r0, r1
.LBB129_2:
	bl	ic_raw_lists.transfer_calls.transfer_at.5386baa488213e47
	add	sp, #24
	pop	{r7, pc}
.Lfunc_end129:
	.size	ic_list_transfer_after, .Lfunc_end129-ic_list_transfer_after
	.cfi_endproc
	.section	.text.ic_list_transfer_before,"ax",%progbits
	.globl	ic_list_transfer_before
	.p2align	1
	.type	ic_list_transfer_before,%function
	.code	16
	.thumb_func
ic_list_transfer_before:
	.cfi_startproc
	push	{r4, lr}
	.cfi_def_cfa_offset 8
	.cfi_offset lr, -4
	.cfi_offset r4, -8
	sub	sp, #24
	.cfi_def_cfa_offset 32
	ldr	r1, [sp, #44]
	str	r1, [sp, #16]
	ldr	r1, [sp, #40]
	str	r1, [sp, #12]
	ldr	r1, [sp, #36]
	str	r1, [sp, #8]
	movs	r1, #1
	str	r1, [sp, #4]
	ldr	r4, [sp, #32]
	str	r4, [sp]
	cmp	r0, #0
	bne	.LBB130_2
	lsls	r1, r1, #12
	adds	r0, r0, r1
.LBB130_2:
	bl	ic_raw_lists.transfer_calls.transfer_at.5386baa488213e47
	add	sp, #24
	pop	{r4, pc}
.Lfunc_end130:
	.size	ic_list_transfer_before, .Lfunc_end130-ic_list_transfer_before
	.cfi_endproc
	.section	.text.ic_ring32_exchange,"ax",%progbits
	.globl	ic_ring32_exchange
	.p2align	2
	.type	ic_ring32_exchange,%function
	.code	16
	.thumb_func
ic_ring32_exchange:
	.cfi_startproc
	push	{r4, r5, r6, r7, lr}
	.cfi_def_cfa_offset 20
	.cfi_offset lr, -4
	.cfi_offset r7, -8
	.cfi_offset r6, -12
	.cfi_offset r5, -16
	.cfi_offset r4, -20
	sub	sp, #52
	.cfi_def_cfa_offset 72
	movs	r5, #1
	cmp	r0, #0
	bne	.LBB131_2
	lsls	r1, r5, #12
	adds	r0, r0, r1
.LBB131_2:
	ldr	r4, [sp, #72]
	adds	r7, r4, #1
	movs	r1, #4
	cmp	r7, r4
	bhs	.LBB131_3
	b	.LBB131_29
.LBB131_3:
	str	r4, [sp, #32]
	mov	r4, r5
	ldr	r5, [sp, #76]
	adds	r6, r5, #1
	str	r6, [sp, #48]
	bhs	.LBB131_29
	ldr	r1, .LCPI131_0
	cmp	r2, r1
	str	r2, [sp, #40]
	blo	.LBB131_6
	mov	r2, r1
.LBB131_6:
	str	r5, [sp, #12]
	str	r3, [sp, #44]
	cmp	r3, #0
	mov	r6, r4
	beq	.LBB131_8
	mov	r2, r1
.LBB131_8:
	movs	r1, #0
	subs	r3, r2, r7
	mov	r3, r1
	sbcs	r3, r1
	blo	.LBB131_30
	mov	r4, r2
	lsls	r2, r7, #3
	str	r2, [sp, #28]
	adds	r2, r0, r2
	subs	r2, #8
	str	r2, [sp, #16]
	ldr	r5, [r2]
	lsls	r3, r5, #31
	beq	.LBB131_30
	movs	r3, #7
	mov	r2, r5
	str	r3, [sp, #36]
	bics	r2, r3
	rsbs	r3, r2, #0
	str	r2, [sp, #24]
	adcs	r3, r2
	lsrs	r5, r5, #3
	ldr	r2, [sp, #40]
	subs	r5, r2, r5
	ldr	r5, [sp, #44]
	sbcs	r5, r1
	mov	r5, r6
	blo	.LBB131_12
	mov	r5, r1
.LBB131_12:
	orrs	r3, r5
	bne	.LBB131_30
	ldr	r1, [sp, #24]
	adds	r1, r0, r1
	mov	r3, r1
	subs	r3, #8
	ldrb	r3, [r3]
	lsls	r3, r3, #31
	beq	.LBB131_30
	lsrs	r7, r7, #29
	ldr	r2, [sp, #48]
	cmp	r4, r2
	blo	.LBB131_16
	movs	r2, #0
	b	.LBB131_17
.LBB131_16:
	movs	r2, #1
.LBB131_17:
	subs	r1, r1, #4
	str	r1, [sp, #8]
	ldr	r1, [r1]
	ldr	r3, [sp, #36]
	bics	r1, r3
	ldr	r3, [sp, #28]
	eors	r1, r3
	orrs	r1, r7
	mov	r1, r6
	bne	.LBB131_19
	mov	r1, r2
.LBB131_19:
	cmp	r1, #0
	bne	.LBB131_30
	ldr	r1, [sp, #48]
	lsls	r1, r1, #3
	str	r1, [sp, #20]
	adds	r1, r0, r1
	subs	r1, #8
	ldr	r7, [r1]
	lsls	r2, r7, #31
	beq	.LBB131_30
	lsrs	r3, r7, #3
	movs	r2, #0
	ldr	r5, [sp, #40]
	subs	r3, r5, r3
	ldr	r3, [sp, #44]
	sbcs	r3, r2
	blo	.LBB131_24
	ldr	r3, [sp, #36]
	bics	r7, r3
	bne	.LBB131_25
.LBB131_23:
	cmp	r6, #0
	beq	.LBB131_26
	b	.LBB131_30
.LBB131_24:
	movs	r2, #1
	ldr	r3, [sp, #36]
	bics	r7, r3
	beq	.LBB131_23
.LBB131_25:
	mov	r6, r2
	cmp	r6, #0
	bne	.LBB131_30
.LBB131_26:
	adds	r2, r0, r7
	mov	r3, r2
	subs	r3, #8
	ldrb	r3, [r3]
	lsls	r3, r3, #31
	beq	.LBB131_30
	ldr	r3, [sp, #48]
	lsrs	r3, r3, #29
	subs	r2, r2, #4
	ldr	r5, [r2]
	ldr	r4, [sp, #36]
	bics	r5, r4
	ldr	r4, [sp, #20]
	eors	r5, r4
	orrs	r5, r3
	bne	.LBB131_30
	movs	r0, #1
	orrs	r7, r0
	ldr	r3, [sp, #16]
	str	r7, [r3]
	ldr	r3, [sp, #28]
	str	r3, [r2]
	ldr	r2, [sp, #24]
	orrs	r2, r0
	str	r2, [r1]
	ldr	r0, [sp, #8]
	ldr	r1, [sp, #20]
	str	r1, [r0]
	movs	r1, #0
.LBB131_29:
	mov	r0, r1
	add	sp, #52
	pop	{r4, r5, r6, r7, pc}
.LBB131_30:
	ldr	r1, [sp, #32]
	str	r1, [sp]
	ldr	r1, [sp, #12]
	str	r1, [sp, #4]
	ldr	r2, [sp, #40]
	ldr	r3, [sp, #44]
	bl	ic_raw.table.RawTable.refusal_at_both.05a19227735374d3
	mov	r1, r0
	mov	r0, r1
	add	sp, #52
	pop	{r4, r5, r6, r7, pc}
	.p2align	2
.LCPI131_0:
	.long	536870911
.Lfunc_end131:
	.size	ic_ring32_exchange, .Lfunc_end131-ic_ring32_exchange
	.cfi_endproc
	.section	.text.ic_ring32_init,"ax",%progbits
	.globl	ic_ring32_init
	.p2align	2
	.type	ic_ring32_init,%function
	.code	16
	.thumb_func
ic_ring32_init:
	.cfi_startproc
	push	{r4, r5, r6, r7, lr}
	.cfi_def_cfa_offset 20
	.cfi_offset lr, -4
	.cfi_offset r7, -8
	.cfi_offset r6, -12
	.cfi_offset r5, -16
	.cfi_offset r4, -20
	sub	sp, #12
	.cfi_def_cfa_offset 32
	movs	r4, #1
	cmp	r0, #0
	bne	.LBB132_2
	lsls	r1, r4, #12
	adds	r0, r0, r1
.LBB132_2:
	ldr	r1, [sp, #32]
	str	r1, [sp, #4]
	adds	r6, r1, #1
	bhs	.LBB132_10
	ldr	r1, .LCPI132_0
	cmp	r2, r1
	mov	r7, r2
	blo	.LBB132_5
	mov	r7, r1
.LBB132_5:
	cmp	r3, #0
	beq	.LBB132_7
	mov	r7, r1
.LBB132_7:
	movs	r1, #0
	subs	r5, r7, r6
	mov	r5, r1
	sbcs	r5, r1
	blo	.LBB132_10
	lsls	r6, r6, #3
	adds	r5, r0, r6
	mov	r7, r5
	subs	r7, #8
	str	r1, [sp, #8]
	mov	r1, r3
	ldrb	r3, [r7]
	lsls	r3, r3, #31
	mov	r3, r1
	ldr	r1, [sp, #8]
	bne	.LBB132_10
	orrs	r4, r6
	str	r4, [r7]
	subs	r0, r5, #4
	str	r6, [r0]
	mov	r0, r1
	add	sp, #12
	pop	{r4, r5, r6, r7, pc}
.LBB132_10:
	ldr	r1, [sp, #4]
	str	r1, [sp]
	bl	ic_raw.table.refusal_at_end.05a19227735374d3
	mov	r1, r0
	mov	r0, r1
	add	sp, #12
	pop	{r4, r5, r6, r7, pc}
	.p2align	2
.LCPI132_0:
	.long	536870911
.Lfunc_end132:
	.size	ic_ring32_init, .Lfunc_end132-ic_ring32_init
	.cfi_endproc
	.section	.text.ic_ring32_insert_after,"ax",%progbits
	.globl	ic_ring32_insert_after
	.p2align	2
	.type	ic_ring32_insert_after,%function
	.code	16
	.thumb_func
ic_ring32_insert_after:
	.cfi_startproc
	push	{r4, r5, r6, r7, lr}
	.cfi_def_cfa_offset 20
	.cfi_offset lr, -4
	.cfi_offset r7, -8
	.cfi_offset r6, -12
	.cfi_offset r5, -16
	.cfi_offset r4, -20
	sub	sp, #44
	.cfi_def_cfa_offset 64
	movs	r4, #1
	cmp	r0, #0
	bne	.LBB133_2
	lsls	r1, r4, #12
	adds	r0, r0, r1
.LBB133_2:
	ldr	r1, [sp, #64]
	adds	r7, r1, #1
	blo	.LBB133_4
	movs	r0, #4
	add	sp, #44
	pop	{r4, r5, r6, r7, pc}
.LBB133_4:
	str	r1, [sp, #12]
	ldr	r1, .LCPI133_0
	cmp	r2, r1
	str	r2, [sp, #32]
	blo	.LBB133_6
	mov	r2, r1
.LBB133_6:
	str	r3, [sp, #36]
	cmp	r3, #0
	beq	.LBB133_8
	mov	r2, r1
.LBB133_8:
	ldr	r1, [sp, #68]
	str	r1, [sp, #28]
	movs	r3, #0
	str	r2, [sp, #24]
	subs	r1, r2, r7
	mov	r1, r3
	sbcs	r1, r3
	blo	.LBB133_24
	lsls	r1, r7, #3
	str	r1, [sp, #40]
	adds	r1, r0, r1
	subs	r1, #8
	str	r1, [sp, #16]
	ldr	r5, [r1]
	lsls	r1, r5, #31
	beq	.LBB133_24
	movs	r1, #7
	mov	r6, r5
	str	r1, [sp, #20]
	bics	r6, r1
	rsbs	r1, r6, #0
	adcs	r1, r6
	lsrs	r5, r5, #3
	mov	r2, r4
	ldr	r4, [sp, #32]
	subs	r5, r4, r5
	mov	r4, r2
	ldr	r5, [sp, #36]
	sbcs	r5, r3
	mov	r5, r2
	blo	.LBB133_12
	mov	r5, r3
.LBB133_12:
	orrs	r1, r5
	bne	.LBB133_24
	adds	r1, r0, r6
	mov	r3, r1
	subs	r3, #8
	ldrb	r3, [r3]
	lsls	r3, r3, #31
	beq	.LBB133_24
	ldr	r2, [sp, #28]
	adds	r3, r2, #1
	lsrs	r7, r7, #29
	ldr	r2, [sp, #24]
	cmp	r2, r3
	blo	.LBB133_16
	movs	r2, #0
	b	.LBB133_17
.LBB133_16:
	movs	r2, #1
.LBB133_17:
	str	r2, [sp, #24]
	ldr	r5, [sp, #20]
	subs	r2, r1, #4
	ldr	r1, [r2]
	bics	r1, r5
	ldr	r5, [sp, #40]
	eors	r1, r5
	orrs	r1, r7
	mov	r1, r4
	beq	.LBB133_20
	cmp	r3, #0
	bne	.LBB133_21
.LBB133_19:
	cmp	r4, #0
	beq	.LBB133_22
	b	.LBB133_24
.LBB133_20:
	ldr	r1, [sp, #24]
	cmp	r3, #0
	beq	.LBB133_19
.LBB133_21:
	mov	r4, r1
	cmp	r4, #0
	bne	.LBB133_24
.LBB133_22:
	lsls	r1, r3, #3
	adds	r3, r0, r1
	mov	r4, r3
	subs	r4, #8
	ldrb	r5, [r4]
	lsls	r5, r5, #31
	bne	.LBB133_24
	movs	r0, #1
	orrs	r6, r0
	str	r6, [r4]
	subs	r3, r3, #4
	ldr	r4, [sp, #40]
	str	r4, [r3]
	orrs	r0, r1
	ldr	r3, [sp, #16]
	str	r0, [r3]
	str	r1, [r2]
	movs	r0, #0
	add	sp, #44
	pop	{r4, r5, r6, r7, pc}
.LBB133_24:
	ldr	r1, [sp, #12]
	str	r1, [sp]
	ldr	r1, [sp, #28]
	str	r1, [sp, #4]
	ldr	r2, [sp, #32]
	ldr	r3, [sp, #36]
	bl	ic_raw.table.RawTable.refusal.05a19227735374d3
	add	sp, #44
	pop	{r4, r5, r6, r7, pc}
	.p2align	2
.LCPI133_0:
	.long	536870911
.Lfunc_end133:
	.size	ic_ring32_insert_after, .Lfunc_end133-ic_ring32_insert_after
	.cfi_endproc
	.section	.text.ic_ring32_insert_before,"ax",%progbits
	.globl	ic_ring32_insert_before
	.p2align	2
	.type	ic_ring32_insert_before,%function
	.code	16
	.thumb_func
ic_ring32_insert_before:
	.cfi_startproc
	push	{r4, r5, r6, r7, lr}
	.cfi_def_cfa_offset 20
	.cfi_offset lr, -4
	.cfi_offset r7, -8
	.cfi_offset r6, -12
	.cfi_offset r5, -16
	.cfi_offset r4, -20
	sub	sp, #44
	.cfi_def_cfa_offset 64
	movs	r4, #1
	cmp	r0, #0
	bne	.LBB134_2
	lsls	r1, r4, #12
	adds	r0, r0, r1
.LBB134_2:
	ldr	r1, [sp, #64]
	adds	r7, r1, #1
	blo	.LBB134_4
	movs	r0, #4
	add	sp, #44
	pop	{r4, r5, r6, r7, pc}
.LBB134_4:
	str	r1, [sp, #12]
	ldr	r1, .LCPI134_0
	cmp	r2, r1
	str	r2, [sp, #32]
	blo	.LBB134_6
	mov	r2, r1
.LBB134_6:
	str	r3, [sp, #36]
	cmp	r3, #0
	beq	.LBB134_8
	mov	r2, r1
.LBB134_8:
	ldr	r1, [sp, #68]
	str	r1, [sp, #28]
	movs	r1, #0
	str	r2, [sp, #24]
	subs	r3, r2, r7
	mov	r3, r1
	sbcs	r3, r1
	blo	.LBB134_24
	lsls	r2, r7, #3
	str	r2, [sp, #40]
	adds	r3, r0, r2
	mov	r5, r3
	subs	r5, #8
	ldrb	r5, [r5]
	lsls	r5, r5, #31
	beq	.LBB134_24
	subs	r2, r3, #4
	str	r2, [sp, #16]
	ldr	r6, [r2]
	movs	r2, #7
	mov	r5, r6
	str	r2, [sp, #20]
	bics	r5, r2
	rsbs	r3, r5, #0
	adcs	r3, r5
	lsrs	r6, r6, #3
	mov	r2, r4
	ldr	r4, [sp, #32]
	subs	r6, r4, r6
	mov	r4, r2
	ldr	r6, [sp, #36]
	sbcs	r6, r1
	mov	r6, r2
	blo	.LBB134_12
	mov	r6, r1
.LBB134_12:
	orrs	r3, r6
	bne	.LBB134_24
	adds	r3, r0, r5
	subs	r3, #8
	ldr	r6, [r3]
	lsls	r1, r6, #31
	beq	.LBB134_24
	ldr	r1, [sp, #28]
	adds	r1, r1, #1
	lsrs	r7, r7, #29
	ldr	r2, [sp, #24]
	cmp	r2, r1
	blo	.LBB134_16
	movs	r2, #0
	b	.LBB134_17
.LBB134_16:
	movs	r2, #1
.LBB134_17:
	str	r2, [sp, #24]
	ldr	r2, [sp, #20]
	bics	r6, r2
	ldr	r2, [sp, #40]
	eors	r6, r2
	orrs	r6, r7
	mov	r6, r4
	beq	.LBB134_20
	cmp	r1, #0
	bne	.LBB134_21
.LBB134_19:
	cmp	r4, #0
	beq	.LBB134_22
	b	.LBB134_24
.LBB134_20:
	ldr	r6, [sp, #24]
	cmp	r1, #0
	beq	.LBB134_19
.LBB134_21:
	mov	r4, r6
	cmp	r4, #0
	bne	.LBB134_24
.LBB134_22:
	lsls	r1, r1, #3
	adds	r2, r0, r1
	mov	r4, r2
	subs	r4, #8
	ldrb	r6, [r4]
	lsls	r6, r6, #31
	bne	.LBB134_24
	movs	r0, #1
	ldr	r6, [sp, #40]
	orrs	r6, r0
	str	r6, [r4]
	subs	r2, r2, #4
	str	r5, [r2]
	orrs	r0, r1
	str	r0, [r3]
	ldr	r0, [sp, #16]
	str	r1, [r0]
	movs	r0, #0
	add	sp, #44
	pop	{r4, r5, r6, r7, pc}
.LBB134_24:
	ldr	r1, [sp, #12]
	str	r1, [sp]
	ldr	r1, [sp, #28]
	str	r1, [sp, #4]
	ldr	r2, [sp, #32]
	ldr	r3, [sp, #36]
	bl	ic_raw.table.RawTable.refusal.05a19227735374d3
	add	sp, #44
	pop	{r4, r5, r6, r7, pc}
	.p2align	2
.LCPI134_0:
	.long	536870911
.Lfunc_end134:
	.size	ic_ring32_insert_before, .Lfunc_end134-ic_ring32_insert_before
	.cfi_endproc
	.section	.text.ic_ring32_move_after,"ax",%progbits
	.globl	ic_ring32_move_after
	.p2align	1
	.type	ic_ring32_move_after,%function
	.code	16
	.thumb_func
ic_ring32_move_after:
	.cfi_startproc
	push	{r7, lr}
	.cfi_def_cfa_offset 8
	.cfi_offset lr, -4
	.cfi_offset r7, -8
	sub	sp, #16
	.cfi_def_cfa_offset 24
	ldr	r1, [sp, #28]
	str	r1, [sp, #8]
	ldr	r1, [sp, #24]
	str	r1, [sp, #4]
	movs	r1, #0
	str	r1, [sp]
	cmp	r0, #0
	bne	.LBB135_2
	movs	r1, #1
	lsls	r1, r1, #12
	adds	r0, r0, r1
.LBB135_2:
	bl	ic_raw.ring_calls.move_beside.5b268f449b4ebf83
	add	sp, #16
	pop	{r7, pc}
.Lfunc_end135:
	.size	ic_ring32_move_after, .Lfunc_end135-ic_ring32_move_after
	.cfi_endproc
	.section	.text.ic_ring32_move_before,"ax",%progbits
	.globl	ic_ring32_move_before
	.p2align	1
	.type	ic_ring32_move_before,%function
	.code	16
	.thumb_func
ic_ring32_move_before:
	.cfi_startproc
	push	{r7, lr}
	.cfi_def_cfa_offset 8
	.cfi_offset lr, -4
	.cfi_offset r7, -8
	sub	sp, #16
	.cfi_def_cfa_offset 24
	ldr	r1, [sp, #28]
	str	r1, [sp, #8]
	ldr	r1, [sp, #24]
	str	r1, [sp, #4]
	movs	r1, #1
	str	r1, [sp]
	cmp	r0, #0
	bne	.LBB136_2
	lsls	r1, r1, #12
	adds	r0, r0, r1
.LBB136_2:
	bl	ic_raw.ring_calls.move_beside.5b268f449b4ebf83
	add	sp, #16
	pop	{r7, pc}
.Lfunc_end136:
	.size	ic_ring32_move_before, .Lfunc_end136-ic_ring32_move_before
	.cfi_endproc
	.section	.text.ic_ring32_pop_back,"ax",%progbits
	.globl	ic_ring32_pop_back
	.p2align	1
	.type	ic_ring32_pop_back,%function
	.code	16
	.thumb_func
ic_ring32_pop_back:
	.cfi_startproc
	push	{r7, lr}
	.cfi_def_cfa_offset 8
	.cfi_offset lr, -4
	.cfi_offset r7, -8
	sub	sp, #16
	.cfi_def_cfa_offset 24
	ldr	r1, [sp, #28]
	str	r1, [sp, #8]
	ldr	r1, [sp, #24]
	str	r1, [sp, #4]
	movs	r1, #1
	str	r1, [sp]
	cmp	r0, #0
	bne	.LBB137_2
	lsls	r1, r1, #12
	adds	r0, r0, r1
.LBB137_2:
	bl	ic_raw.ring_calls.pop.5b268f449b4ebf83
	add	sp, #16
	pop	{r7, pc}
.Lfunc_end137:
	.size	ic_ring32_pop_back, .Lfunc_end137-ic_ring32_pop_back
	.cfi_endproc
	.section	.text.ic_ring32_pop_front,"ax",%progbits
	.globl	ic_ring32_pop_front
	.p2align	1
	.type	ic_ring32_pop_front,%function
	.code	16
	.thumb_func
ic_ring32_pop_front:
	.cfi_startproc
	push	{r7, lr}
	.cfi_def_cfa_offset 8
	.cfi_offset lr, -4
	.cfi_offset r7, -8
	sub	sp, #16
	.cfi_def_cfa_offset 24
	ldr	r1, [sp, #28]
	str	r1, [sp, #8]
	ldr	r1, [sp, #24]
	str	r1, [sp, #4]
	movs	r1, #0
	str	r1, [sp]
	cmp	r0, #0
	bne	.LBB138_2
	movs	r1, #1
	lsls	r1, r1, #12
	adds	r0, r0, r1
.LBB138_2:
	bl	ic_raw.ring_calls.pop.5b268f449b4ebf83
	add	sp, #16
	pop	{r7, pc}
.Lfunc_end138:
	.size	ic_ring32_pop_front, .Lfunc_end138-ic_ring32_pop_front
	.cfi_endproc
	.section	.text.ic_ring32_remove,"ax",%progbits
	.globl	ic_ring32_remove
	.p2align	2
	.type	ic_ring32_remove,%function
	.code	16
	.thumb_func
ic_ring32_remove:
	.cfi_startproc
	push	{r4, r5, r6, r7, lr}
	.cfi_def_cfa_offset 20
	.cfi_offset lr, -4
	.cfi_offset r7, -8
	.cfi_offset r6, -12
	.cfi_offset r5, -16
	.cfi_offset r4, -20
	sub	sp, #36
	.cfi_def_cfa_offset 56
	movs	r5, #1
	cmp	r0, #0
	bne	.LBB139_2
	lsls	r1, r5, #12
	adds	r0, r0, r1
.LBB139_2:
	ldr	r1, [sp, #56]
	adds	r7, r1, #1
	blo	.LBB139_4
	movs	r0, #4
	add	sp, #36
	pop	{r4, r5, r6, r7, pc}
.LBB139_4:
	str	r1, [sp, #8]
	ldr	r4, .LCPI139_0
	cmp	r2, r4
	mov	r1, r2
	blo	.LBB139_6
	mov	r1, r4
.LBB139_6:
	str	r5, [sp, #20]
	str	r2, [sp, #24]
	str	r3, [sp, #28]
	cmp	r3, #0
	beq	.LBB139_8
	mov	r1, r4
.LBB139_8:
	movs	r5, #0
	subs	r1, r1, r7
	mov	r1, r5
	sbcs	r1, r5
	blo	.LBB139_23
	lsls	r1, r7, #3
	str	r1, [sp, #16]
	adds	r1, r0, r1
	mov	r2, r1
	subs	r2, #8
	str	r2, [sp, #12]
	ldr	r6, [r2]
	lsls	r2, r6, #31
	beq	.LBB139_23
	subs	r1, r1, #4
	ldr	r4, [r1]
	movs	r2, #7
	mov	r1, r4
	str	r2, [sp, #32]
	bics	r1, r2
	rsbs	r2, r1, #0
	adcs	r2, r1
	lsrs	r4, r4, #3
	ldr	r3, [sp, #24]
	subs	r4, r3, r4
	ldr	r4, [sp, #28]
	sbcs	r4, r5
	ldr	r4, [sp, #20]
	blo	.LBB139_12
	mov	r4, r5
.LBB139_12:
	orrs	r2, r4
	bne	.LBB139_23
	adds	r4, r0, r1
	subs	r4, #8
	ldr	r2, [r4]
	lsls	r5, r2, #31
	beq	.LBB139_23
	lsrs	r7, r7, #29
	ldr	r3, [sp, #32]
	bics	r2, r3
	ldr	r3, [sp, #16]
	eors	r2, r3
	orrs	r2, r7
	bne	.LBB139_23
	lsrs	r5, r6, #3
	movs	r2, #0
	ldr	r3, [sp, #24]
	subs	r5, r3, r5
	ldr	r5, [sp, #28]
	sbcs	r5, r2
	blo	.LBB139_18
	ldr	r3, [sp, #20]
	ldr	r5, [sp, #32]
	bics	r6, r5
	bne	.LBB139_19
.LBB139_17:
	cmp	r3, #0
	beq	.LBB139_20
	b	.LBB139_23
.LBB139_18:
	movs	r2, #1
	ldr	r3, [sp, #20]
	ldr	r5, [sp, #32]
	bics	r6, r5
	beq	.LBB139_17
.LBB139_19:
	mov	r3, r2
	cmp	r3, #0
	bne	.LBB139_23
.LBB139_20:
	adds	r2, r0, r6
	mov	r5, r2
	subs	r5, #8
	ldrb	r5, [r5]
	lsls	r5, r5, #31
	beq	.LBB139_23
	subs	r2, r2, #4
	ldr	r5, [r2]
	ldr	r3, [sp, #32]
	bics	r5, r3
	ldr	r3, [sp, #16]
	eors	r3, r5
	orrs	r3, r7
	bne	.LBB139_23
	movs	r0, #1
	orrs	r6, r0
	str	r6, [r4]
	str	r1, [r2]
	movs	r0, #0
	ldr	r1, [sp, #12]
	str	r0, [r1]
	add	sp, #36
	pop	{r4, r5, r6, r7, pc}
.LBB139_23:
	ldr	r1, [sp, #8]
	str	r1, [sp]
	ldr	r2, [sp, #24]
	ldr	r3, [sp, #28]
	bl	ic_raw.table.RawTable.refusal_at.05a19227735374d3
	add	sp, #36
	pop	{r4, r5, r6, r7, pc}
	.p2align	2
.LCPI139_0:
	.long	536870911
.Lfunc_end139:
	.size	ic_ring32_remove, .Lfunc_end139-ic_ring32_remove
	.cfi_endproc
	.section	.text.ic_ring32_replace,"ax",%progbits
	.globl	ic_ring32_replace
	.p2align	2
	.type	ic_ring32_replace,%function
	.code	16
	.thumb_func
ic_ring32_replace:
	.cfi_startproc
	push	{r4, r5, r6, r7, lr}
	.cfi_def_cfa_offset 20
	.cfi_offset lr, -4
	.cfi_offset r7, -8
	.cfi_offset r6, -12
	.cfi_offset r5, -16
	.cfi_offset r4, -20
	sub	sp, #60
	.cfi_def_cfa_offset 80
	movs	r6, #1
	cmp	r0, #0
	bne	.LBB140_2
	lsls	r1, r6, #12
	adds	r0, r0, r1
.LBB140_2:
	ldr	r1, [sp, #80]
	adds	r5, r1, #1
	blo	.LBB140_4
	movs	r0, #4
	add	sp, #60
	pop	{r4, r5, r6, r7, pc}
.LBB140_4:
	str	r1, [sp, #16]
	ldr	r1, .LCPI140_0
	cmp	r2, r1
	mov	r4, r2
	blo	.LBB140_6
	mov	r4, r1
.LBB140_6:
	str	r2, [sp, #36]
	str	r3, [sp, #40]
	cmp	r3, #0
	beq	.LBB140_8
	mov	r4, r1
.LBB140_8:
	ldr	r1, [sp, #84]
	str	r1, [sp, #32]
	movs	r7, #0
	str	r4, [sp, #44]
	subs	r1, r4, r5
	mov	r1, r7
	sbcs	r1, r7
	bhs	.LBB140_9
	b	.LBB140_34
.LBB140_9:
	lsls	r1, r5, #3
	str	r1, [sp, #48]
	adds	r1, r0, r1
	mov	r2, r1
	subs	r2, #8
	str	r2, [sp, #24]
	ldr	r2, [r2]
	str	r2, [sp, #56]
	lsls	r2, r2, #31
	beq	.LBB140_34
	subs	r1, r1, #4
	str	r1, [sp, #20]
	ldr	r4, [r1]
	movs	r2, #7
	mov	r1, r4
	str	r2, [sp, #52]
	bics	r1, r2
	rsbs	r2, r1, #0
	adcs	r2, r1
	lsrs	r4, r4, #3
	mov	r3, r6
	ldr	r6, [sp, #36]
	subs	r4, r6, r4
	mov	r6, r3
	ldr	r4, [sp, #40]
	sbcs	r4, r7
	mov	r4, r3
	blo	.LBB140_12
	mov	r4, r7
.LBB140_12:
	orrs	r2, r4
	bne	.LBB140_34
	adds	r2, r0, r1
	subs	r2, #8
	str	r2, [sp, #12]
	ldr	r2, [r2]
	lsls	r4, r2, #31
	beq	.LBB140_34
	lsrs	r4, r5, #29
	ldr	r3, [sp, #52]
	bics	r2, r3
	ldr	r3, [sp, #48]
	eors	r2, r3
	str	r4, [sp, #28]
	orrs	r2, r4
	bne	.LBB140_34
	ldr	r3, [sp, #56]
	lsrs	r2, r3, #3
	ldr	r4, [sp, #44]
	cmp	r4, r2
	blo	.LBB140_17
	movs	r2, #0
	b	.LBB140_18
.LBB140_17:
	movs	r2, #1
.LBB140_18:
	ldr	r4, [sp, #52]
	bics	r3, r4
	str	r3, [sp, #56]
	mov	r4, r6
	beq	.LBB140_20
	mov	r4, r2
.LBB140_20:
	cmp	r4, #0
	bne	.LBB140_34
	ldr	r2, [sp, #56]
	adds	r7, r0, r2
	mov	r2, r7
	subs	r2, #8
	ldrb	r2, [r2]
	lsls	r2, r2, #31
	beq	.LBB140_34
	ldr	r2, [sp, #32]
	adds	r5, r2, #1
	ldr	r2, [sp, #44]
	cmp	r2, r5
	blo	.LBB140_24
	movs	r2, #0
	b	.LBB140_25
.LBB140_24:
	movs	r2, #1
.LBB140_25:
	subs	r4, r7, #4
	ldr	r4, [r4]
	ldr	r3, [sp, #52]
	bics	r4, r3
	ldr	r3, [sp, #48]
	eors	r4, r3
	ldr	r3, [sp, #28]
	orrs	r4, r3
	mov	r3, r6
	beq	.LBB140_28
	cmp	r5, #0
	bne	.LBB140_29
.LBB140_27:
	cmp	r6, #0
	beq	.LBB140_30
	b	.LBB140_34
.LBB140_28:
	mov	r3, r2
	cmp	r5, #0
	beq	.LBB140_27
.LBB140_29:
	mov	r6, r3
	cmp	r6, #0
	bne	.LBB140_34
.LBB140_30:
	lsls	r2, r5, #3
	adds	r4, r0, r2
	mov	r3, r4
	subs	r3, #8
	ldrb	r5, [r3]
	lsls	r5, r5, #31
	bne	.LBB140_34
	subs	r4, r4, #4
	str	r1, [r4]
	movs	r1, #1
	mov	r4, r2
	orrs	r4, r1
	ldr	r5, [sp, #12]
	str	r4, [r5]
	ldr	r4, [sp, #20]
	str	r2, [r4]
	ldr	r4, [sp, #48]
	ldr	r5, [sp, #56]
	eors	r4, r5
	ldr	r6, [sp, #28]
	orrs	r4, r6
	mov	r4, r2
	beq	.LBB140_33
	mov	r4, r5
.LBB140_33:
	orrs	r1, r4
	str	r1, [r3]
	adds	r0, r0, r4
	subs	r0, r0, #4
	str	r2, [r0]
	movs	r0, #0
	ldr	r1, [sp, #24]
	str	r0, [r1]
	add	sp, #60
	pop	{r4, r5, r6, r7, pc}
.LBB140_34:
	ldr	r1, [sp, #16]
	str	r1, [sp]
	ldr	r1, [sp, #32]
	str	r1, [sp, #4]
	ldr	r2, [sp, #36]
	ldr	r3, [sp, #40]
	bl	ic_raw.table.RawTable.refusal.05a19227735374d3
	add	sp, #60
	pop	{r4, r5, r6, r7, pc}
	.p2align	2
.LCPI140_0:
	.long	536870911
.Lfunc_end140:
	.size	ic_ring32_replace, .Lfunc_end140-ic_ring32_replace
	.cfi_endproc
	.section	.text.ic_ring32_splice_after,"ax",%progbits
	.globl	ic_ring32_splice_after
	.p2align	1
	.type	ic_ring32_splice_after,%function
	.code	16
	.thumb_func
ic_ring32_splice_after:
	.cfi_startproc
	push	{r7, lr}
	.cfi_def_cfa_offset 8
	.cfi_offset lr, -4
	.cfi_offset r7, -8
	sub	sp, #16
	.cfi_def_cfa_offset 24
	ldr	r1, [sp, #28]
	str	r1, [sp, #8]
	ldr	r1, [sp, #24]
	str	r1, [sp, #4]
	movs	r1, #0
	str	r1, [sp]
	cmp	r0, #0
	bne	.LBB141_2
	movs	r1, #1
	lsls	r1, r1, #12
	adds	r0, r0, r1
.LBB141_2:
	bl	ic_raw.ring_calls.splice.5b268f449b4ebf83
	add	sp, #16
	pop	{r7, pc}
.Lfunc_end141:
	.size	ic_ring32_splice_after, .Lfunc_end141-ic_ring32_splice_after
	.cfi_endproc
	.section	.text.ic_ring32_splice_before,"ax",%progbits
	.globl	ic_ring32_splice_before
	.p2align	1
	.type	ic_ring32_splice_before,%function
	.code	16
	.thumb_func
ic_ring32_splice_before:
	.cfi_startproc
	push	{r7, lr}
	.cfi_def_cfa_offset 8
	.cfi_offset lr, -4
	.cfi_offset r7, -8
	sub	sp, #16
	.cfi_def_cfa_offset 24
	ldr	r1, [sp, #28]
	str	r1, [sp, #8]
	ldr	r1, [sp, #24]
	str	r1, [sp, #4]
	movs	r1, #1
	str	r1, [sp]
	cmp	r0, #0
	bne	.LBB142_2
	lsls	r1, r1, #12
	adds	r0, r0, r1
.LBB142_2:
	bl	ic_raw.ring_calls.splice.5b268f449b4ebf83
	add	sp, #16
	pop	{r7, pc}
.Lfunc_end142:
	.size	ic_ring32_splice_before, .Lfunc_end142-ic_ring32_splice_before
	.cfi_endproc
	.section	.text.ic_ring_check,"ax",%progbits
	.globl	ic_ring_check
	.p2align	1
	.type	ic_ring_check,%function
	.code	16
	.thumb_func
ic_ring_check:
	.cfi_startproc
	push	{r4, r5, r6, r7, lr}
	.cfi_def_cfa_offset 20
	.cfi_offset lr, -4
	.cfi_offset r7, -8
	.cfi_offset r6, -12
	.cfi_offset r5, -16
	.cfi_offset r4, -20
	sub	sp, #44
	.cfi_def_cfa_offset 64
	str	r3, [sp, #36]
	str	r2, [sp, #32]
	mov	r2, r0
	cmp	r0, #0
	bne	.LBB143_2
	movs	r0, #1
	lsls	r0, r0, #12
	adds	r2, r2, r0
.LBB143_2:
	ldr	r0, [sp, #64]
	adds	r0, r0, #1
	blo	.LBB143_4
	movs	r0, #4
	add	sp, #44
	pop	{r4, r5, r6, r7, pc}
.LBB143_4:
	lsrs	r1, r0, #29
	str	r1, [sp, #16]
	lsls	r0, r0, #3
	str	r0, [sp, #12]
	ldr	r0, [sp, #36]
	ldr	r1, [sp, #32]
	orrs	r0, r1
	beq	.LBB143_14
	ldr	r0, [sp, #68]
	str	r0, [sp, #8]
	movs	r0, #7
	mvns	r7, r0
	movs	r6, #0
	movs	r0, #15
	str	r0, [sp, #24]
	str	r6, [sp, #20]
	ldr	r0, [sp, #12]
	str	r0, [sp, #40]
	ldr	r0, [sp, #16]
	str	r0, [sp, #28]
.LBB143_6:
	ldr	r0, [sp, #40]
	lsrs	r0, r0, #3
	ldr	r1, [sp, #28]
	lsls	r4, r1, #29
	adds	r0, r0, r4
	lsrs	r4, r1, #3
	ldr	r3, [sp, #32]
	subs	r0, r3, r0
	ldr	r0, [sp, #36]
	sbcs	r0, r4
	blo	.LBB143_14
	ldr	r0, [sp, #40]
	lsls	r0, r0, #1
	adds	r0, r2, r0
	subs	r0, #16
	ldr	r4, [r0]
	lsls	r5, r4, #31
	beq	.LBB143_14
	ldr	r0, [r0, #4]
	ands	r4, r7
	ldr	r1, [sp, #24]
	ands	r0, r1
	mov	r5, r4
	orrs	r5, r0
	beq	.LBB143_14
	lsrs	r5, r4, #3
	lsls	r3, r0, #29
	adds	r3, r5, r3
	lsrs	r5, r0, #3
	mov	r1, r7
	mov	r7, r6
	mov	r6, r2
	ldr	r2, [sp, #32]
	subs	r3, r2, r3
	mov	r2, r6
	ldr	r3, [sp, #36]
	sbcs	r3, r5
	blo	.LBB143_14
	lsls	r3, r4, #1
	adds	r5, r2, r3
	mov	r3, r5
	subs	r3, #16
	ldrb	r3, [r3]
	lsls	r3, r3, #31
	beq	.LBB143_14
	mov	r6, r7
	mov	r7, r1
	subs	r5, #8
	ldm	r5, {r3, r5}
	ldr	r1, [sp, #24]
	ands	r5, r1
	ldr	r1, [sp, #28]
	eors	r5, r1
	ands	r3, r7
	ldr	r1, [sp, #40]
	eors	r3, r1
	orrs	r3, r5
	bne	.LBB143_14
	mov	r1, r4
	ldr	r3, [sp, #12]
	eors	r1, r3
	mov	r3, r0
	ldr	r5, [sp, #16]
	eors	r3, r5
	orrs	r3, r1
	beq	.LBB143_15
	movs	r1, #0
	ldr	r3, [sp, #20]
	adds	r3, r3, #1
	adcs	r6, r1
	ldr	r1, [sp, #32]
	str	r3, [sp, #20]
	subs	r1, r3, r1
	mov	r1, r6
	ldr	r3, [sp, #36]
	sbcs	r1, r3
	str	r4, [sp, #40]
	str	r0, [sp, #28]
	blo	.LBB143_6
.LBB143_14:
	ldr	r0, [sp, #12]
	str	r0, [sp]
	ldr	r0, [sp, #16]
	str	r0, [sp, #4]
	mov	r0, r2
	ldr	r2, [sp, #32]
	ldr	r3, [sp, #36]
	bl	ic_raw.table.RawTable.refusal_of.5f318a721acb0238
	add	sp, #44
	pop	{r4, r5, r6, r7, pc}
.LBB143_15:
	ldr	r0, [sp, #8]
	ldr	r1, [sp, #20]
	stm	r0!, {r1, r6}
	movs	r0, #0
	add	sp, #44
	pop	{r4, r5, r6, r7, pc}
.Lfunc_end143:
	.size	ic_ring_check, .Lfunc_end143-ic_ring_check
	.cfi_endproc
	.section	.text.ic_ring_exchange,"ax",%progbits
	.globl	ic_ring_exchange
	.p2align	1
	.type	ic_ring_exchange,%function
	.code	16
	.thumb_func
ic_ring_exchange:
	.cfi_startproc
	push	{r4, r5, r6, r7, lr}
	.cfi_def_cfa_offset 20
	.cfi_offset lr, -4
	.cfi_offset r7, -8
	.cfi_offset r6, -12
	.cfi_offset r5, -16
	.cfi_offset r4, -20
	sub	sp, #76
	.cfi_def_cfa_offset 96
	movs	r5, #1
	cmp	r0, #0
	bne	.LBB144_2
	lsls	r1, r5, #12
	adds	r0, r0, r1
.LBB144_2:
	ldr	r4, [sp, #96]
	adds	r6, r4, #1
	movs	r1, #4
	cmp	r6, r4
	bhs	.LBB144_3
	b	.LBB144_21
.LBB144_3:
	str	r4, [sp, #52]
	mov	r4, r5
	ldr	r5, [sp, #100]
	adds	r7, r5, #1
	str	r7, [sp, #72]
	blo	.LBB144_4
	b	.LBB144_21
.LBB144_4:
	str	r5, [sp, #24]
	movs	r7, #0
	str	r2, [sp, #64]
	subs	r1, r2, r6
	str	r3, [sp, #68]
	mov	r1, r3
	sbcs	r1, r7
	str	r4, [sp, #56]
	bhs	.LBB144_5
	b	.LBB144_22
.LBB144_5:
	lsls	r1, r6, #3
	str	r1, [sp, #40]
	lsls	r1, r1, #1
	adds	r1, r0, r1
	subs	r1, #16
	str	r1, [sp, #48]
	ldr	r5, [r1]
	lsls	r1, r5, #31
	bne	.LBB144_6
	b	.LBB144_22
.LBB144_6:
	ldr	r1, [sp, #48]
	ldr	r3, [r1, #4]
	movs	r1, #7
	mov	r2, r5
	str	r1, [sp, #36]
	bics	r2, r1
	movs	r1, #15
	mov	r4, r3
	str	r1, [sp, #60]
	ands	r4, r1
	str	r2, [sp, #44]
	orrs	r2, r4
	rsbs	r1, r2, #0
	adcs	r1, r2
	lsrs	r2, r4, #3
	lsrs	r5, r5, #3
	lsls	r3, r3, #29
	adds	r3, r5, r3
	ldr	r5, [sp, #64]
	subs	r3, r5, r3
	ldr	r3, [sp, #68]
	sbcs	r3, r2
	ldr	r5, [sp, #56]
	blo	.LBB144_8
	mov	r5, r7
.LBB144_8:
	orrs	r1, r5
	bne	.LBB144_22
	ldr	r1, [sp, #44]
	lsls	r1, r1, #1
	adds	r1, r0, r1
	mov	r3, r1
	subs	r1, #16
	ldrb	r1, [r1]
	lsls	r1, r1, #31
	beq	.LBB144_22
	movs	r5, #0
	ldr	r1, [sp, #64]
	ldr	r2, [sp, #72]
	subs	r1, r1, r2
	ldr	r1, [sp, #68]
	str	r5, [sp, #12]
	sbcs	r1, r5
	blo	.LBB144_22
	lsrs	r5, r6, #29
	ldr	r1, [sp, #36]
	mvns	r6, r1
	subs	r3, #8
	ldr	r1, [r3]
	str	r3, [sp, #20]
	ldr	r2, [r3, #4]
	ldr	r3, [sp, #60]
	ands	r2, r3
	str	r6, [sp, #36]
	ands	r1, r6
	ldr	r3, [sp, #40]
	eors	r1, r3
	str	r5, [sp, #16]
	eors	r2, r5
	orrs	r2, r1
	bne	.LBB144_22
	ldr	r1, [sp, #72]
	lsls	r1, r1, #3
	str	r1, [sp, #28]
	lsls	r1, r1, #1
	adds	r1, r0, r1
	subs	r1, #16
	str	r1, [sp, #32]
	ldr	r1, [r1]
	lsls	r2, r1, #31
	beq	.LBB144_22
	ldr	r2, [sp, #32]
	ldr	r5, [r2, #4]
	ldr	r2, [sp, #36]
	ands	r1, r2
	lsrs	r2, r1, #3
	ldr	r3, [sp, #60]
	ands	r5, r3
	lsls	r3, r5, #29
	adds	r2, r2, r3
	lsrs	r3, r5, #3
	ldr	r6, [sp, #64]
	subs	r2, r6, r2
	ldr	r2, [sp, #68]
	sbcs	r2, r3
	blo	.LBB144_15
	ldr	r3, [sp, #12]
	mov	r2, r1
	orrs	r2, r5
	bne	.LBB144_16
	b	.LBB144_17
.LBB144_15:
	movs	r3, #1
	mov	r2, r1
	orrs	r2, r5
	beq	.LBB144_17
.LBB144_16:
	str	r3, [sp, #56]
.LBB144_17:
	ldr	r2, [sp, #56]
	cmp	r2, #0
	bne	.LBB144_22
	lsls	r2, r1, #1
	adds	r7, r0, r2
	mov	r2, r7
	subs	r2, #16
	ldrb	r2, [r2]
	lsls	r2, r2, #31
	beq	.LBB144_22
	ldr	r2, [sp, #72]
	str	r4, [sp, #56]
	lsrs	r4, r2, #29
	subs	r7, #8
	ldm	r7!, {r2, r3}
	ldr	r6, [sp, #60]
	ands	r3, r6
	str	r4, [sp, #72]
	eors	r3, r4
	ldr	r4, [sp, #56]
	ldr	r6, [sp, #36]
	ands	r2, r6
	ldr	r6, [sp, #28]
	eors	r2, r6
	subs	r7, #8
	orrs	r2, r3
	bne	.LBB144_22
	movs	r0, #1
	orrs	r1, r0
	ldr	r2, [sp, #48]
	stm	r2!, {r1, r5}
	ldr	r1, [sp, #40]
	str	r1, [r7]
	ldr	r1, [sp, #16]
	str	r1, [r7, #4]
	ldr	r1, [sp, #44]
	orrs	r1, r0
	ldr	r0, [sp, #32]
	stm	r0!, {r1, r4}
	ldr	r0, [sp, #20]
	ldr	r1, [sp, #28]
	str	r1, [r0]
	ldr	r1, [sp, #72]
	str	r1, [r0, #4]
	movs	r1, #0
.LBB144_21:
	mov	r0, r1
	add	sp, #76
	pop	{r4, r5, r6, r7, pc}
.LBB144_22:
	ldr	r1, [sp, #52]
	str	r1, [sp]
	ldr	r1, [sp, #24]
	str	r1, [sp, #4]
	ldr	r2, [sp, #64]
	ldr	r3, [sp, #68]
	bl	ic_raw.table.RawTable.refusal_at_both.85cd03e557136797
	mov	r1, r0
	mov	r0, r1
	add	sp, #76
	pop	{r4, r5, r6, r7, pc}
.Lfunc_end144:
	.size	ic_ring_exchange, .Lfunc_end144-ic_ring_exchange
	.cfi_endproc
	.section	.text.ic_ring_init,"ax",%progbits
	.globl	ic_ring_init
	.p2align	1
	.type	ic_ring_init,%function
	.code	16
	.thumb_func
ic_ring_init:
	.cfi_startproc
	push	{r4, r5, r6, r7, lr}
	.cfi_def_cfa_offset 20
	.cfi_offset lr, -4
	.cfi_offset r7, -8
	.cfi_offset r6, -12
	.cfi_offset r5, -16
	.cfi_offset r4, -20
	sub	sp, #20
	.cfi_def_cfa_offset 40
	str	r3, [sp, #16]
	movs	r4, #1
	cmp	r0, #0
	bne	.LBB145_2
	lsls	r1, r4, #12
	adds	r0, r0, r1
.LBB145_2:
	ldr	r1, [sp, #40]
	str	r1, [sp, #8]
	adds	r6, r1, #1
	bhs	.LBB145_6
	movs	r1, #0
	subs	r3, r2, r6
	ldr	r3, [sp, #16]
	str	r1, [sp, #12]
	sbcs	r3, r1
	blo	.LBB145_6
	lsls	r7, r6, #3
	lsls	r3, r7, #1
	adds	r3, r0, r3
	mov	r5, r3
	subs	r5, #16
	mov	r1, r2
	ldrb	r2, [r5]
	lsls	r2, r2, #31
	mov	r2, r1
	bne	.LBB145_6
	lsrs	r0, r6, #29
	orrs	r4, r7
	str	r4, [r5]
	str	r0, [r5, #4]
	subs	r3, #8
	str	r7, [r3]
	str	r0, [r3, #4]
	ldr	r0, [sp, #12]
	add	sp, #20
	pop	{r4, r5, r6, r7, pc}
.LBB145_6:
	ldr	r1, [sp, #8]
	str	r1, [sp]
	ldr	r3, [sp, #16]
	bl	ic_raw.table.refusal_at_end.85cd03e557136797
	add	sp, #20
	pop	{r4, r5, r6, r7, pc}
.Lfunc_end145:
	.size	ic_ring_init, .Lfunc_end145-ic_ring_init
	.cfi_endproc
	.section	.text.ic_ring_insert_after,"ax",%progbits
	.globl	ic_ring_insert_after
	.p2align	1
	.type	ic_ring_insert_after,%function
	.code	16
	.thumb_func
ic_ring_insert_after:
	.cfi_startproc
	push	{r4, r5, r6, r7, lr}
	.cfi_def_cfa_offset 20
	.cfi_offset lr, -4
	.cfi_offset r7, -8
	.cfi_offset r6, -12
	.cfi_offset r5, -16
	.cfi_offset r4, -20
	sub	sp, #60
	.cfi_def_cfa_offset 80
	str	r3, [sp, #56]
	mov	r1, r0
	movs	r5, #1
	cmp	r0, #0
	bne	.LBB146_2
	lsls	r0, r5, #12
	adds	r1, r1, r0
.LBB146_2:
	ldr	r0, [sp, #80]
	adds	r4, r0, #1
	blo	.LBB146_4
	movs	r0, #4
	add	sp, #60
	pop	{r4, r5, r6, r7, pc}
.LBB146_4:
	str	r5, [sp, #24]
	str	r0, [sp, #12]
	ldr	r0, [sp, #84]
	str	r0, [sp, #28]
	movs	r5, #0
	str	r2, [sp, #48]
	subs	r0, r2, r4
	ldr	r0, [sp, #56]
	str	r5, [sp, #40]
	sbcs	r0, r5
	blo	.LBB146_14
	lsls	r0, r4, #3
	str	r0, [sp, #32]
	lsls	r0, r0, #1
	adds	r0, r1, r0
	subs	r0, #16
	str	r0, [sp, #44]
	ldr	r2, [r0]
	lsls	r0, r2, #31
	beq	.LBB146_14
	ldr	r0, [sp, #44]
	ldr	r7, [r0, #4]
	movs	r0, #7
	mov	r6, r2
	str	r0, [sp, #16]
	bics	r6, r0
	movs	r5, #15
	mov	r0, r7
	str	r5, [sp, #20]
	ands	r0, r5
	mov	r5, r6
	str	r0, [sp, #36]
	orrs	r5, r0
	beq	.LBB146_14
	lsrs	r2, r2, #3
	lsls	r0, r7, #29
	adds	r0, r2, r0
	ldr	r2, [sp, #36]
	lsrs	r2, r2, #3
	ldr	r5, [sp, #48]
	subs	r0, r5, r0
	ldr	r0, [sp, #56]
	sbcs	r0, r2
	blo	.LBB146_14
	lsls	r0, r6, #1
	adds	r5, r1, r0
	mov	r0, r5
	subs	r0, #16
	ldrb	r0, [r0]
	lsls	r0, r0, #31
	beq	.LBB146_14
	ldr	r0, [sp, #28]
	adds	r0, r0, #1
	str	r0, [sp, #52]
	beq	.LBB146_14
	ldr	r0, [sp, #48]
	ldr	r2, [sp, #52]
	subs	r0, r0, r2
	ldr	r0, [sp, #56]
	ldr	r2, [sp, #40]
	sbcs	r0, r2
	blo	.LBB146_14
	lsrs	r3, r4, #29
	ldr	r0, [sp, #16]
	mvns	r0, r0
	subs	r5, #8
	ldm	r5!, {r2, r4}
	ldr	r7, [sp, #20]
	ands	r4, r7
	ands	r2, r0
	ldr	r0, [sp, #32]
	eors	r2, r0
	str	r3, [sp, #20]
	eors	r4, r3
	subs	r5, #8
	orrs	r4, r2
	bne	.LBB146_14
	ldr	r0, [sp, #52]
	lsls	r4, r0, #3
	lsls	r0, r4, #1
	adds	r0, r1, r0
	mov	r2, r0
	subs	r2, #16
	ldrb	r7, [r2]
	lsls	r7, r7, #31
	ldr	r7, [sp, #24]
	bne	.LBB146_14
	ldr	r1, [sp, #52]
	lsrs	r1, r1, #29
	orrs	r6, r7
	subs	r0, #8
	str	r6, [r2]
	ldr	r3, [sp, #36]
	str	r3, [r2, #4]
	ldr	r2, [sp, #32]
	str	r2, [r0]
	ldr	r2, [sp, #20]
	str	r2, [r0, #4]
	orrs	r7, r4
	ldr	r0, [sp, #44]
	str	r7, [r0]
	str	r1, [r0, #4]
	str	r4, [r5]
	str	r1, [r5, #4]
	ldr	r0, [sp, #40]
	add	sp, #60
	pop	{r4, r5, r6, r7, pc}
.LBB146_14:
	ldr	r0, [sp, #12]
	str	r0, [sp]
	ldr	r0, [sp, #28]
	str	r0, [sp, #4]
	mov	r0, r1
	ldr	r2, [sp, #48]
	ldr	r3, [sp, #56]
	bl	ic_raw.table.RawTable.refusal.85cd03e557136797
	add	sp, #60
	pop	{r4, r5, r6, r7, pc}
.Lfunc_end146:
	.size	ic_ring_insert_after, .Lfunc_end146-ic_ring_insert_after
	.cfi_endproc
	.section	.text.ic_ring_insert_before,"ax",%progbits
	.globl	ic_ring_insert_before
	.p2align	1
	.type	ic_ring_insert_before,%function
	.code	16
	.thumb_func
ic_ring_insert_before:
	.cfi_startproc
	push	{r4, r5, r6, r7, lr}
	.cfi_def_cfa_offset 20
	.cfi_offset lr, -4
	.cfi_offset r7, -8
	.cfi_offset r6, -12
	.cfi_offset r5, -16
	.cfi_offset r4, -20
	sub	sp, #60
	.cfi_def_cfa_offset 80
	str	r3, [sp, #56]
	mov	r1, r0
	movs	r4, #1
	cmp	r0, #0
	bne	.LBB147_2
	lsls	r0, r4, #12
	adds	r1, r1, r0
.LBB147_2:
	ldr	r0, [sp, #80]
	adds	r3, r0, #1
	blo	.LBB147_4
	movs	r0, #4
	add	sp, #60
	pop	{r4, r5, r6, r7, pc}
.LBB147_4:
	str	r4, [sp, #44]
	str	r0, [sp, #12]
	ldr	r0, [sp, #84]
	str	r0, [sp, #24]
	movs	r4, #0
	str	r2, [sp, #48]
	subs	r0, r2, r3
	ldr	r0, [sp, #56]
	str	r4, [sp, #40]
	sbcs	r0, r4
	blo	.LBB147_14
	lsls	r0, r3, #3
	str	r0, [sp, #32]
	lsls	r0, r0, #1
	adds	r6, r1, r0
	mov	r0, r6
	subs	r0, #16
	ldrb	r0, [r0]
	lsls	r0, r0, #31
	beq	.LBB147_14
	subs	r6, #8
	ldm	r6!, {r0, r5}
	movs	r4, #15
	mov	r2, r5
	str	r4, [sp, #20]
	ands	r2, r4
	movs	r7, #7
	mov	r4, r0
	str	r7, [sp, #16]
	bics	r4, r7
	str	r4, [sp, #28]
	str	r2, [sp, #36]
	subs	r6, #8
	orrs	r4, r2
	beq	.LBB147_14
	lsls	r2, r5, #29
	lsrs	r0, r0, #3
	adds	r0, r0, r2
	ldr	r2, [sp, #36]
	lsrs	r2, r2, #3
	ldr	r4, [sp, #48]
	subs	r0, r4, r0
	ldr	r0, [sp, #56]
	sbcs	r0, r2
	blo	.LBB147_14
	ldr	r0, [sp, #24]
	adds	r0, r0, #1
	str	r0, [sp, #52]
	beq	.LBB147_14
	ldr	r0, [sp, #48]
	ldr	r2, [sp, #52]
	subs	r0, r0, r2
	ldr	r0, [sp, #56]
	ldr	r2, [sp, #40]
	sbcs	r0, r2
	blo	.LBB147_14
	ldr	r0, [sp, #28]
	lsls	r0, r0, #1
	adds	r2, r1, r0
	subs	r2, #16
	ldr	r0, [r2]
	mov	r4, r0
	ldr	r5, [sp, #44]
	ands	r4, r5
	beq	.LBB147_14
	lsrs	r3, r3, #29
	ldr	r4, [sp, #16]
	mvns	r7, r4
	ldr	r4, [r2, #4]
	ldr	r5, [sp, #20]
	ands	r4, r5
	ands	r0, r7
	ldr	r7, [sp, #32]
	eors	r0, r7
	eors	r4, r3
	orrs	r4, r0
	bne	.LBB147_14
	ldr	r0, [sp, #52]
	lsls	r7, r0, #3
	lsls	r0, r7, #1
	adds	r4, r1, r0
	mov	r0, r4
	subs	r0, #16
	ldrb	r5, [r0]
	lsls	r5, r5, #31
	ldr	r5, [sp, #44]
	bne	.LBB147_14
	ldr	r1, [sp, #52]
	lsrs	r1, r1, #29
	str	r3, [sp, #56]
	ldr	r3, [sp, #32]
	orrs	r3, r5
	subs	r4, #8
	str	r3, [r0]
	ldr	r3, [sp, #56]
	str	r3, [r0, #4]
	ldr	r0, [sp, #28]
	str	r0, [r4]
	ldr	r0, [sp, #36]
	str	r0, [r4, #4]
	orrs	r5, r7
	str	r5, [r2]
	str	r1, [r2, #4]
	str	r7, [r6]
	str	r1, [r6, #4]
	ldr	r0, [sp, #40]
	add	sp, #60
	pop	{r4, r5, r6, r7, pc}
.LBB147_14:
	ldr	r0, [sp, #12]
	str	r0, [sp]
	ldr	r0, [sp, #24]
	str	r0, [sp, #4]
	mov	r0, r1
	ldr	r2, [sp, #48]
	ldr	r3, [sp, #56]
	bl	ic_raw.table.RawTable.refusal.85cd03e557136797
	add	sp, #60
	pop	{r4, r5, r6, r7, pc}
.Lfunc_end147:
	.size	ic_ring_insert_before, .Lfunc_end147-ic_ring_insert_before
	.cfi_endproc
	.section	.text.ic_ring_merge,"ax",%progbits
	.globl	ic_ring_merge
	.p2align	1
	.type	ic_ring_merge,%function
	.code	16
	.thumb_func
ic_ring_merge:
	.cfi_startproc
	push	{r4, r5, r6, r7, lr}
	.cfi_def_cfa_offset 20
	.cfi_offset lr, -4
	.cfi_offset r7, -8
	.cfi_offset r6, -12
	.cfi_offset r5, -16
	.cfi_offset r4, -20
	sub	sp, #116
	.cfi_def_cfa_offset 136
	add	r1, sp, #68
	stm	r1!, {r0, r2, r3}
	movs	r0, #1
	str	r0, [sp, #52]
	lsls	r0, r0, #12
	ldr	r3, [sp, #136]
	cmp	r3, #0
	bne	.LBB148_2
	adds	r3, r3, r0
.LBB148_2:
	ldr	r1, [sp, #68]
	cmp	r1, #0
	bne	.LBB148_4
	ldr	r1, [sp, #68]
	adds	r1, r1, r0
	str	r1, [sp, #68]
.LBB148_4:
	ldr	r2, [sp, #152]
	adds	r0, r2, #1
	movs	r1, #4
	cmp	r0, r2
	bhs	.LBB148_5
	b	.LBB148_36
.LBB148_5:
	ldr	r2, [sp, #156]
	adds	r4, r2, #1
	blo	.LBB148_6
	b	.LBB148_36
.LBB148_6:
	str	r3, [sp, #20]
	lsrs	r1, r0, #29
	str	r1, [sp, #36]
	lsls	r0, r0, #3
	str	r0, [sp, #32]
	ldr	r2, [sp, #148]
	ldr	r3, [sp, #144]
	lsrs	r0, r4, #29
	str	r0, [sp, #44]
	lsls	r0, r4, #3
	str	r0, [sp, #48]
	movs	r0, #0
	str	r0, [sp, #56]
	str	r0, [sp, #84]
	ldr	r0, [sp, #68]
	str	r0, [sp, #80]
	ldr	r0, [sp, #72]
	str	r0, [sp, #88]
	ldr	r1, [sp, #76]
	str	r1, [sp, #92]
	str	r3, [sp, #24]
	subs	r0, r3, r0
	str	r2, [sp, #28]
	mov	r0, r2
	sbcs	r0, r1
	bhs	.LBB148_7
	b	.LBB148_35
.LBB148_7:
	ldr	r0, [sp, #76]
	ldr	r1, [sp, #72]
	orrs	r0, r1
	bne	.LBB148_8
	b	.LBB148_35
.LBB148_8:
	ldr	r0, [sp, #48]
	ldr	r1, [sp, #32]
	eors	r0, r1
	ldr	r1, [sp, #44]
	ldr	r3, [sp, #36]
	eors	r1, r3
	orrs	r1, r0
	bne	.LBB148_9
	b	.LBB148_35
.LBB148_9:
	movs	r0, #7
	mvns	r0, r0
	str	r0, [sp, #60]
	movs	r0, #15
	str	r0, [sp, #64]
	ldr	r1, [sp, #56]
	ldr	r4, [sp, #32]
	ldr	r7, [sp, #36]
.LBB148_10:
	lsrs	r0, r4, #3
	lsls	r3, r7, #29
	adds	r0, r0, r3
	lsrs	r3, r7, #3
	ldr	r2, [sp, #72]
	subs	r0, r2, r0
	ldr	r0, [sp, #76]
	sbcs	r0, r3
	bhs	.LBB148_11
	b	.LBB148_35
.LBB148_11:
	lsls	r3, r4, #1
	ldr	r0, [sp, #68]
	adds	r0, r0, r3
	subs	r0, #16
	ldr	r5, [r0]
	lsls	r3, r5, #31
	bne	.LBB148_12
	b	.LBB148_35
.LBB148_12:
	ldr	r0, [r0, #4]
	ldr	r3, [sp, #60]
	ands	r5, r3
	lsrs	r3, r5, #3
	ldr	r6, [sp, #64]
	ands	r0, r6
	lsls	r6, r0, #29
	adds	r3, r3, r6
	lsrs	r6, r0, #3
	ldr	r2, [sp, #72]
	subs	r3, r2, r3
	ldr	r3, [sp, #76]
	sbcs	r3, r6
	blo	.LBB148_14
	movs	r3, #0
	mov	r6, r5
	orrs	r6, r0
	ldr	r6, [sp, #52]
	bne	.LBB148_15
	b	.LBB148_16
.LBB148_14:
	movs	r3, #1
	mov	r6, r5
	orrs	r6, r0
	ldr	r6, [sp, #52]
	beq	.LBB148_16
.LBB148_15:
	mov	r6, r3
.LBB148_16:
	cmp	r6, #0
	beq	.LBB148_17
	b	.LBB148_35
.LBB148_17:
	lsls	r6, r5, #1
	ldr	r3, [sp, #68]
	adds	r6, r3, r6
	mov	r3, r6
	subs	r3, #16
	ldrb	r3, [r3]
	lsls	r3, r3, #31
	beq	.LBB148_35
	subs	r6, #8
	ldm	r6, {r3, r6}
	ldr	r2, [sp, #64]
	ands	r6, r2
	eors	r6, r7
	ldr	r7, [sp, #60]
	ands	r3, r7
	eors	r3, r4
	orrs	r3, r6
	bne	.LBB148_35
	mov	r3, r5
	ldr	r4, [sp, #32]
	eors	r3, r4
	mov	r4, r0
	ldr	r6, [sp, #36]
	eors	r4, r6
	orrs	r4, r3
	beq	.LBB148_22
	movs	r3, #0
	adds	r1, r1, #1
	ldr	r4, [sp, #56]
	adcs	r4, r3
	ldr	r2, [sp, #72]
	subs	r3, r1, r2
	str	r4, [sp, #56]
	mov	r3, r4
	ldr	r2, [sp, #76]
	sbcs	r3, r2
	bhs	.LBB148_35
	ldr	r3, [sp, #48]
	eors	r3, r5
	ldr	r4, [sp, #44]
	eors	r4, r0
	orrs	r4, r3
	mov	r4, r5
	mov	r7, r0
	bne	.LBB148_10
	b	.LBB148_35
.LBB148_22:
	movs	r5, #0
	mov	r6, r5
	ldr	r0, [sp, #48]
	ldr	r7, [sp, #44]
.LBB148_23:
	lsrs	r2, r0, #3
	lsls	r3, r7, #29
	adds	r2, r2, r3
	lsrs	r3, r7, #3
	ldr	r1, [sp, #72]
	subs	r2, r1, r2
	ldr	r2, [sp, #76]
	sbcs	r2, r3
	blo	.LBB148_35
	lsls	r3, r0, #1
	ldr	r2, [sp, #68]
	adds	r3, r2, r3
	subs	r3, #16
	ldr	r4, [r3]
	lsls	r2, r4, #31
	beq	.LBB148_35
	str	r6, [sp, #56]
	mov	r6, r5
	ldr	r5, [r3, #4]
	ldr	r2, [sp, #60]
	ands	r4, r2
	lsrs	r2, r4, #3
	ldr	r3, [sp, #64]
	ands	r5, r3
	lsls	r3, r5, #29
	adds	r2, r2, r3
	lsrs	r3, r5, #3
	ldr	r1, [sp, #72]
	subs	r2, r1, r2
	ldr	r2, [sp, #76]
	sbcs	r2, r3
	blo	.LBB148_27
	movs	r3, #0
	b	.LBB148_28
.LBB148_27:
	movs	r3, #1
.LBB148_28:
	mov	r2, r4
	str	r5, [sp, #40]
	orrs	r2, r5
	ldr	r2, [sp, #52]
	beq	.LBB148_30
	mov	r2, r3
.LBB148_30:
	cmp	r2, #0
	mov	r5, r6
	ldr	r6, [sp, #56]
	bne	.LBB148_35
	lsls	r3, r4, #1
	ldr	r2, [sp, #68]
	adds	r3, r2, r3
	mov	r2, r3
	subs	r2, #16
	ldrb	r2, [r2]
	lsls	r2, r2, #31
	beq	.LBB148_35
	subs	r3, #8
	ldm	r3, {r2, r3}
	ldr	r1, [sp, #64]
	ands	r3, r1
	eors	r3, r7
	ldr	r7, [sp, #60]
	ands	r2, r7
	eors	r2, r0
	orrs	r2, r3
	bne	.LBB148_35
	mov	r0, r4
	ldr	r1, [sp, #48]
	eors	r0, r1
	ldr	r7, [sp, #40]
	mov	r2, r7
	ldr	r3, [sp, #44]
	eors	r2, r3
	orrs	r2, r0
	beq	.LBB148_37
	movs	r0, #0
	adds	r6, r6, #1
	adcs	r5, r0
	ldr	r0, [sp, #72]
	subs	r0, r6, r0
	mov	r0, r5
	ldr	r1, [sp, #76]
	sbcs	r0, r1
	mov	r0, r4
	blo	.LBB148_23
.LBB148_35:
	ldr	r0, [sp, #32]
	str	r0, [sp]
	ldr	r0, [sp, #36]
	str	r0, [sp, #4]
	ldr	r0, [sp, #48]
	str	r0, [sp, #8]
	ldr	r0, [sp, #44]
	str	r0, [sp, #12]
	add	r0, sp, #80
	ldr	r2, [sp, #24]
	ldr	r3, [sp, #28]
	bl	ic_raw_lists.ring_sort_calls.refusal_at_both
	mov	r1, r0
.LBB148_36:
	mov	r0, r1
	add	sp, #116
	pop	{r4, r5, r6, r7, pc}
.LBB148_37:
	ldr	r0, [sp, #24]
	str	r0, [sp, #104]
	movs	r3, #0
	str	r3, [sp, #100]
	ldr	r0, [sp, #20]
	str	r0, [sp, #96]
	ldr	r0, [sp, #28]
	str	r0, [sp, #108]
	ldr	r4, [sp, #32]
	lsls	r1, r4, #1
	ldr	r0, [sp, #68]
	adds	r1, r0, r1
	str	r1, [sp, #76]
	subs	r1, #16
	ldr	r0, [r1]
	str	r1, [sp, #52]
	ldr	r1, [r1, #4]
	ldr	r2, [sp, #64]
	mov	r7, r2
	ands	r1, r2
	ldr	r2, [sp, #60]
	mov	r6, r2
	ands	r0, r2
	mov	r2, r0
	orrs	r2, r1
	str	r3, [sp, #24]
	beq	.LBB148_41
	mov	r2, r0
	eors	r2, r4
	mov	r4, r1
	ldr	r5, [sp, #36]
	eors	r4, r5
	orrs	r4, r2
	movs	r3, #0
	cmp	r4, #0
	str	r3, [sp, #72]
	beq	.LBB148_42
	ldr	r4, [sp, #76]
	subs	r4, #8
	ldm	r4, {r2, r4}
	ands	r4, r7
	ands	r2, r6
	mov	r5, r2
	orrs	r5, r4
	str	r3, [sp, #56]
	str	r3, [sp, #20]
	beq	.LBB148_43
	lsls	r5, r0, #1
	ldr	r6, [sp, #68]
	adds	r5, r6, r5
	subs	r5, #8
	movs	r7, #0
	str	r7, [r5]
	str	r7, [r5, #4]
	lsls	r5, r2, #1
	adds	r5, r6, r5
	subs	r5, #16
	movs	r6, #1
	str	r6, [r5]
	ldr	r6, [sp, #60]
	str	r7, [r5, #4]
	str	r0, [sp, #72]
	str	r1, [sp, #56]
	str	r2, [sp, #20]
	mov	r3, r4
	b	.LBB148_43
.LBB148_41:
	str	r3, [sp, #72]
.LBB148_42:
	str	r3, [sp, #56]
	str	r3, [sp, #20]
.LBB148_43:
	str	r3, [sp, #16]
	ldr	r7, [sp, #48]
	lsls	r1, r7, #1
	ldr	r0, [sp, #68]
	adds	r5, r0, r1
	mov	r2, r5
	subs	r2, #16
	ldm	r2!, {r0, r4}
	ldr	r1, [sp, #64]
	ands	r4, r1
	ands	r0, r6
	mov	r1, r0
	subs	r2, #8
	orrs	r1, r4
	str	r2, [sp, #40]
	str	r5, [sp, #28]
	beq	.LBB148_47
	mov	r1, r0
	eors	r1, r7
	mov	r2, r4
	ldr	r3, [sp, #44]
	eors	r2, r3
	orrs	r2, r1
	movs	r7, #0
	cmp	r2, #0
	beq	.LBB148_48
	mov	r1, r5
	subs	r1, #8
	ldr	r3, [r1]
	ldr	r2, [r1, #4]
	ldr	r1, [sp, #64]
	ands	r2, r1
	ldr	r1, [sp, #60]
	ands	r3, r1
	mov	r1, r3
	orrs	r1, r2
	mov	r6, r7
	mov	r5, r7
	mov	r1, r7
	beq	.LBB148_49
	lsls	r1, r0, #1
	str	r2, [sp, #24]
	ldr	r2, [sp, #68]
	adds	r1, r2, r1
	subs	r1, #8
	movs	r5, #0
	str	r5, [r1]
	str	r5, [r1, #4]
	lsls	r1, r3, #1
	adds	r1, r2, r1
	subs	r1, #16
	movs	r2, #1
	stm	r1!, {r2, r5}
	mov	r7, r0
	mov	r6, r4
	mov	r5, r3
	ldr	r1, [sp, #24]
	b	.LBB148_49
.LBB148_47:
	ldr	r7, [sp, #24]
.LBB148_48:
	mov	r6, r7
	mov	r5, r7
	mov	r1, r7
.LBB148_49:
	ldr	r2, [sp, #72]
	mov	r0, r2
	ldr	r3, [sp, #56]
	orrs	r0, r3
	beq	.LBB148_58
	mov	r0, r7
	orrs	r0, r6
	beq	.LBB148_59
	str	r7, [sp]
	str	r6, [sp, #4]
	add	r0, sp, #80
	add	r1, sp, #96
	bl	ic_list_algorithms.merge.merge_runs.e8da022ef74ca9e6
	mov	r7, r0
	ldr	r0, [sp, #68]
	mov	r6, r1
	lsls	r2, r7, #1
	adds	r0, r0, r2
	mov	r2, r0
	subs	r2, #8
	movs	r4, #0
	str	r4, [r2]
	str	r4, [r2, #4]
	subs	r0, #16
	ldr	r5, [r0]
	ldr	r1, [r0, #4]
	ldr	r0, [sp, #64]
	ands	r1, r0
	ldr	r0, [sp, #60]
	ands	r5, r0
	mov	r0, r5
	orrs	r0, r1
	beq	.LBB148_60
	str	r7, [sp, #24]
	mov	r0, r7
	str	r6, [sp, #72]
	mov	r4, r6
	ldr	r2, [sp, #60]
	ldr	r3, [sp, #64]
.LBB148_53:
	lsls	r7, r5, #1
	ldr	r6, [sp, #68]
	adds	r6, r6, r7
	mov	r7, r6
	subs	r7, #8
	stm	r7!, {r0, r4}
	subs	r6, #16
	ldr	r4, [r6]
	ldr	r0, [r6, #4]
	ands	r0, r3
	ands	r4, r2
	mov	r6, r4
	orrs	r6, r0
	beq	.LBB148_62
	lsls	r7, r4, #1
	ldr	r6, [sp, #68]
	adds	r6, r6, r7
	mov	r7, r6
	subs	r7, #8
	str	r5, [r7]
	str	r1, [r7, #4]
	subs	r6, #16
	ldr	r5, [r6]
	ldr	r1, [r6, #4]
	ands	r1, r3
	ands	r5, r2
	mov	r6, r5
	orrs	r6, r1
	beq	.LBB148_61
	lsls	r7, r5, #1
	ldr	r6, [sp, #68]
	adds	r6, r6, r7
	mov	r7, r6
	subs	r7, #8
	str	r4, [r7]
	str	r0, [r7, #4]
	subs	r6, #16
	ldm	r6!, {r0, r4}
	ands	r4, r3
	ands	r0, r2
	mov	r6, r0
	orrs	r6, r4
	beq	.LBB148_62
	lsls	r7, r0, #1
	ldr	r6, [sp, #68]
	adds	r6, r6, r7
	mov	r7, r6
	subs	r7, #8
	str	r5, [r7]
	str	r1, [r7, #4]
	subs	r6, #16
	ldr	r5, [r6]
	ldr	r1, [r6, #4]
	ands	r1, r3
	ands	r5, r2
	mov	r6, r5
	orrs	r6, r1
	bne	.LBB148_53
	mov	r5, r0
	mov	r1, r4
	b	.LBB148_62
.LBB148_58:
	ldr	r2, [sp, #32]
	b	.LBB148_63
.LBB148_59:
	mov	r7, r2
	mov	r6, r3
	ldr	r5, [sp, #20]
	ldr	r1, [sp, #16]
	ldr	r2, [sp, #32]
	b	.LBB148_63
.LBB148_60:
	mov	r5, r7
	mov	r1, r6
	ldr	r2, [sp, #32]
	b	.LBB148_63
.LBB148_61:
	mov	r5, r4
	mov	r1, r0
.LBB148_62:
	ldr	r2, [sp, #32]
	ldr	r7, [sp, #24]
	ldr	r6, [sp, #72]
.LBB148_63:
	mov	r0, r7
	orrs	r0, r6
	cmp	r0, #0
	ldr	r0, [sp, #36]
	beq	.LBB148_65
	mov	r0, r6
.LBB148_65:
	str	r0, [sp, #72]
	mov	r0, r2
	beq	.LBB148_67
	mov	r0, r7
.LBB148_67:
	mov	r7, r0
	lsls	r4, r0, #1
	ldr	r3, [sp, #68]
	adds	r3, r3, r4
	subs	r3, #8
	str	r2, [r3]
	ldr	r0, [sp, #36]
	str	r0, [r3, #4]
	movs	r3, #1
	mov	r6, r2
	orrs	r6, r3
	mov	r4, r5
	orrs	r4, r1
	cmp	r4, #0
	mov	r4, r0
	beq	.LBB148_69
	mov	r4, r1
.LBB148_69:
	beq	.LBB148_71
	str	r5, [sp, #32]
.LBB148_71:
	ldr	r0, [sp, #32]
	lsls	r5, r0, #1
	ldr	r2, [sp, #68]
	adds	r2, r2, r5
	subs	r2, #16
	str	r6, [r2]
	ldr	r5, [sp, #36]
	str	r5, [r2, #4]
	ldr	r2, [sp, #76]
	subs	r2, #8
	orrs	r7, r3
	stm	r2!, {r0, r4}
	ldr	r0, [sp, #52]
	str	r7, [r0]
	ldr	r1, [sp, #72]
	str	r1, [r0, #4]
	ldr	r1, [sp, #28]
	subs	r1, #8
	ldr	r2, [sp, #48]
	str	r2, [r1]
	ldr	r0, [sp, #44]
	str	r0, [r1, #4]
	orrs	r2, r3
	ldr	r1, [sp, #40]
	str	r2, [r1]
	str	r0, [r1, #4]
	movs	r1, #0
	mov	r0, r1
	add	sp, #116
	pop	{r4, r5, r6, r7, pc}
.Lfunc_end148:
	.size	ic_ring_merge, .Lfunc_end148-ic_ring_merge
	.cfi_endproc
	.section	.text.ic_ring_move_after,"ax",%progbits
	.globl	ic_ring_move_after
	.p2align	1
	.type	ic_ring_move_after,%function
	.code	16
	.thumb_func
ic_ring_move_after:
	.cfi_startproc
	push	{r7, lr}
	.cfi_def_cfa_offset 8
	.cfi_offset lr, -4
	.cfi_offset r7, -8
	sub	sp, #16
	.cfi_def_cfa_offset 24
	ldr	r1, [sp, #28]
	str	r1, [sp, #8]
	ldr	r1, [sp, #24]
	str	r1, [sp, #4]
	movs	r1, #0
	str	r1, [sp]
	cmp	r0, #0
	bne	.LBB149_2
	movs	r1, #1
	lsls	r1, r1, #12
	adds	r0, r0, r1
.LBB149_2:
	bl	ic_raw.ring_calls.move_beside.354f48d5d890d6b4
	add	sp, #16
	pop	{r7, pc}
.Lfunc_end149:
	.size	ic_ring_move_after, .Lfunc_end149-ic_ring_move_after
	.cfi_endproc
	.section	.text.ic_ring_move_before,"ax",%progbits
	.globl	ic_ring_move_before
	.p2align	1
	.type	ic_ring_move_before,%function
	.code	16
	.thumb_func
ic_ring_move_before:
	.cfi_startproc
	push	{r7, lr}
	.cfi_def_cfa_offset 8
	.cfi_offset lr, -4
	.cfi_offset r7, -8
	sub	sp, #16
	.cfi_def_cfa_offset 24
	ldr	r1, [sp, #28]
	str	r1, [sp, #8]
	ldr	r1, [sp, #24]
	str	r1, [sp, #4]
	movs	r1, #1
	str	r1, [sp]
	cmp	r0, #0
	bne	.LBB150_2
	lsls	r1, r1, #12
	adds	r0, r0, r1
.LBB150_2:
	bl	ic_raw.ring_calls.move_beside.354f48d5d890d6b4
	add	sp, #16
	pop	{r7, pc}
.Lfunc_end150:
	.size	ic_ring_move_before, .Lfunc_end150-ic_ring_move_before
	.cfi_endproc
	.section	.text.ic_ring_pop_back,"ax",%progbits
	.globl	ic_ring_pop_back
	.p2align	1
	.type	ic_ring_pop_back,%function
	.code	16
	.thumb_func
ic_ring_pop_back:
	.cfi_startproc
	push	{r7, lr}
	.cfi_def_cfa_offset 8
	.cfi_offset lr, -4
	.cfi_offset r7, -8
	sub	sp, #16
	.cfi_def_cfa_offset 24
	ldr	r1, [sp, #28]
	str	r1, [sp, #8]
	ldr	r1, [sp, #24]
	str	r1, [sp, #4]
	movs	r1, #1
	str	r1, [sp]
	cmp	r0, #0
	bne	.LBB151_2
	lsls	r1, r1, #12
	adds	r0, r0, r1
.LBB151_2:
	bl	ic_raw.ring_calls.pop.354f48d5d890d6b4
	add	sp, #16
	pop	{r7, pc}
.Lfunc_end151:
	.size	ic_ring_pop_back, .Lfunc_end151-ic_ring_pop_back
	.cfi_endproc
	.section	.text.ic_ring_pop_front,"ax",%progbits
	.globl	ic_ring_pop_front
	.p2align	1
	.type	ic_ring_pop_front,%function
	.code	16
	.thumb_func
ic_ring_pop_front:
	.cfi_startproc
	push	{r7, lr}
	.cfi_def_cfa_offset 8
	.cfi_offset lr, -4
	.cfi_offset r7, -8
	sub	sp, #16
	.cfi_def_cfa_offset 24
	ldr	r1, [sp, #28]
	str	r1, [sp, #8]
	ldr	r1, [sp, #24]
	str	r1, [sp, #4]
	movs	r1, #0
	str	r1, [sp]
	cmp	r0, #0
	bne	.LBB152_2
	movs	r1, #1
	lsls	r1, r1, #12
	adds	r0, r0, r1
.LBB152_2:
	bl	ic_raw.ring_calls.pop.354f48d5d890d6b4
	add	sp, #16
	pop	{r7, pc}
.Lfunc_end152:
	.size	ic_ring_pop_front, .Lfunc_end152-ic_ring_pop_front
	.cfi_endproc
	.section	.text.ic_ring_remove,"ax",%progbits
	.globl	ic_ring_remove
	.p2align	1
	.type	ic_ring_remove,%function
	.code	16
	.thumb_func
ic_ring_remove:
	.cfi_startproc
	push	{r4, r5, r6, r7, lr}
	.cfi_def_cfa_offset 20
	.cfi_offset lr, -4
	.cfi_offset r7, -8
	.cfi_offset r6, -12
	.cfi_offset r5, -16
	.cfi_offset r4, -20
	sub	sp, #52
	.cfi_def_cfa_offset 72
	movs	r4, #1
	cmp	r0, #0
	bne	.LBB153_2
	lsls	r1, r4, #12
	adds	r0, r0, r1
.LBB153_2:
	ldr	r1, [sp, #72]
	adds	r7, r1, #1
	blo	.LBB153_4
	movs	r0, #4
	add	sp, #52
	pop	{r4, r5, r6, r7, pc}
.LBB153_4:
	str	r1, [sp, #4]
	movs	r6, #0
	str	r2, [sp, #40]
	subs	r1, r2, r7
	str	r3, [sp, #44]
	mov	r1, r3
	sbcs	r1, r6
	blo	.LBB153_19
	lsls	r1, r7, #3
	str	r1, [sp, #32]
	lsls	r1, r1, #1
	adds	r1, r0, r1
	mov	r2, r1
	subs	r2, #16
	str	r2, [sp, #28]
	ldr	r2, [r2]
	lsls	r3, r2, #31
	beq	.LBB153_19
	str	r2, [sp, #16]
	str	r6, [sp, #8]
	subs	r1, #8
	ldr	r3, [r1]
	ldr	r2, [r1, #4]
	movs	r6, #15
	mov	r1, r2
	str	r6, [sp, #48]
	ands	r1, r6
	movs	r5, #7
	mov	r6, r3
	str	r5, [sp, #20]
	bics	r6, r5
	str	r4, [sp, #36]
	str	r6, [sp, #24]
	mov	r4, r6
	orrs	r4, r1
	rsbs	r6, r4, #0
	adcs	r6, r4
	str	r1, [sp, #12]
	lsrs	r4, r1, #3
	lsls	r1, r2, #29
	lsrs	r3, r3, #3
	adds	r1, r3, r1
	ldr	r3, [sp, #40]
	subs	r1, r3, r1
	ldr	r1, [sp, #44]
	sbcs	r1, r4
	ldr	r3, [sp, #36]
	blo	.LBB153_8
	ldr	r3, [sp, #8]
.LBB153_8:
	orrs	r6, r3
	ldr	r5, [sp, #16]
	bne	.LBB153_19
	ldr	r1, [sp, #24]
	lsls	r1, r1, #1
	adds	r3, r0, r1
	subs	r3, #16
	ldr	r6, [r3]
	lsls	r1, r6, #31
	beq	.LBB153_19
	lsrs	r7, r7, #29
	ldr	r1, [sp, #20]
	mvns	r4, r1
	ldr	r1, [r3, #4]
	ldr	r2, [sp, #48]
	ands	r1, r2
	str	r4, [sp, #20]
	ands	r6, r4
	ldr	r2, [sp, #32]
	eors	r6, r2
	str	r7, [sp, #8]
	eors	r1, r7
	orrs	r1, r6
	bne	.LBB153_19
	ldr	r1, [sp, #28]
	ldr	r2, [r1, #4]
	ldr	r1, [sp, #20]
	ands	r5, r1
	lsrs	r1, r5, #3
	ldr	r4, [sp, #48]
	ands	r2, r4
	lsls	r4, r2, #29
	adds	r1, r1, r4
	lsrs	r4, r2, #3
	ldr	r6, [sp, #40]
	subs	r1, r6, r1
	ldr	r1, [sp, #44]
	sbcs	r1, r4
	blo	.LBB153_13
	movs	r6, #0
	ldr	r4, [sp, #36]
	mov	r1, r5
	orrs	r1, r2
	bne	.LBB153_14
	b	.LBB153_15
.LBB153_13:
	movs	r6, #1
	ldr	r4, [sp, #36]
	mov	r1, r5
	orrs	r1, r2
	beq	.LBB153_15
.LBB153_14:
	mov	r4, r6
.LBB153_15:
	cmp	r4, #0
	bne	.LBB153_19
	lsls	r1, r5, #1
	adds	r7, r0, r1
	mov	r1, r7
	subs	r1, #16
	ldrb	r1, [r1]
	lsls	r1, r1, #31
	beq	.LBB153_19
	subs	r7, #8
	ldm	r7!, {r1, r4}
	ldr	r6, [sp, #48]
	ands	r4, r6
	ldr	r6, [sp, #8]
	eors	r4, r6
	ldr	r6, [sp, #20]
	ands	r1, r6
	ldr	r6, [sp, #32]
	eors	r1, r6
	subs	r7, #8
	orrs	r1, r4
	bne	.LBB153_19
	movs	r0, #1
	orrs	r5, r0
	str	r5, [r3]
	str	r2, [r3, #4]
	ldr	r0, [sp, #24]
	str	r0, [r7]
	ldr	r0, [sp, #12]
	str	r0, [r7, #4]
	movs	r0, #0
	ldr	r1, [sp, #28]
	str	r0, [r1]
	str	r0, [r1, #4]
	add	sp, #52
	pop	{r4, r5, r6, r7, pc}
.LBB153_19:
	ldr	r1, [sp, #4]
	str	r1, [sp]
	ldr	r2, [sp, #40]
	ldr	r3, [sp, #44]
	bl	ic_raw.table.RawTable.refusal_at.85cd03e557136797
	add	sp, #52
	pop	{r4, r5, r6, r7, pc}
.Lfunc_end153:
	.size	ic_ring_remove, .Lfunc_end153-ic_ring_remove
	.cfi_endproc
	.section	.text.ic_ring_replace,"ax",%progbits
	.globl	ic_ring_replace
	.p2align	1
	.type	ic_ring_replace,%function
	.code	16
	.thumb_func
ic_ring_replace:
	.cfi_startproc
	push	{r4, r5, r6, r7, lr}
	.cfi_def_cfa_offset 20
	.cfi_offset lr, -4
	.cfi_offset r7, -8
	.cfi_offset r6, -12
	.cfi_offset r5, -16
	.cfi_offset r4, -20
	sub	sp, #76
	.cfi_def_cfa_offset 96
	str	r3, [sp, #72]
	str	r2, [sp, #68]
	movs	r3, #1
	cmp	r0, #0
	bne	.LBB154_2
	lsls	r1, r3, #12
	adds	r0, r0, r1
.LBB154_2:
	ldr	r1, [sp, #96]
	adds	r4, r1, #1
	blo	.LBB154_4
	movs	r0, #4
	add	sp, #76
	pop	{r4, r5, r6, r7, pc}
.LBB154_4:
	str	r1, [sp, #16]
	ldr	r1, [sp, #100]
	str	r1, [sp, #32]
	movs	r2, #0
	ldr	r1, [sp, #68]
	subs	r1, r1, r4
	ldr	r1, [sp, #72]
	sbcs	r1, r2
	bhs	.LBB154_5
	b	.LBB154_26
.LBB154_5:
	lsls	r1, r4, #3
	str	r1, [sp, #52]
	lsls	r1, r1, #1
	adds	r1, r0, r1
	mov	r6, r1
	subs	r1, #16
	str	r1, [sp, #48]
	ldr	r5, [r1]
	lsls	r1, r5, #31
	bne	.LBB154_6
	b	.LBB154_26
.LBB154_6:
	str	r5, [sp, #56]
	str	r0, [sp, #60]
	subs	r6, #8
	ldr	r5, [r6]
	str	r6, [sp, #28]
	ldr	r6, [r6, #4]
	movs	r1, #15
	mov	r0, r6
	str	r1, [sp, #64]
	ands	r0, r1
	movs	r1, #7
	mov	r7, r5
	str	r1, [sp, #36]
	bics	r7, r1
	str	r7, [sp, #44]
	orrs	r7, r0
	rsbs	r1, r7, #0
	adcs	r1, r7
	str	r0, [sp, #24]
	lsrs	r7, r0, #3
	lsls	r6, r6, #29
	lsrs	r5, r5, #3
	adds	r5, r5, r6
	ldr	r0, [sp, #68]
	subs	r5, r0, r5
	ldr	r5, [sp, #72]
	sbcs	r5, r7
	mov	r7, r3
	mov	r5, r3
	blo	.LBB154_8
	mov	r5, r2
.LBB154_8:
	orrs	r1, r5
	ldr	r0, [sp, #60]
	ldr	r2, [sp, #56]
	beq	.LBB154_9
	b	.LBB154_26
.LBB154_9:
	ldr	r1, [sp, #44]
	lsls	r1, r1, #1
	adds	r1, r0, r1
	subs	r1, #16
	str	r1, [sp, #40]
	ldr	r1, [r1]
	lsls	r5, r1, #31
	bne	.LBB154_10
	b	.LBB154_26
.LBB154_10:
	lsrs	r6, r4, #29
	mov	r3, r7
	ldr	r4, [sp, #36]
	mvns	r7, r4
	ldr	r4, [sp, #40]
	ldr	r4, [r4, #4]
	ldr	r5, [sp, #64]
	ands	r4, r5
	str	r7, [sp, #36]
	ands	r1, r7
	mov	r7, r3
	mov	r3, r6
	ldr	r5, [sp, #52]
	eors	r1, r5
	eors	r4, r6
	orrs	r4, r1
	bne	.LBB154_26
	mov	r6, r2
	ldr	r1, [sp, #48]
	ldr	r5, [r1, #4]
	ldr	r1, [sp, #36]
	ands	r6, r1
	lsrs	r1, r6, #3
	ldr	r4, [sp, #64]
	ands	r5, r4
	lsls	r4, r5, #29
	adds	r1, r1, r4
	lsrs	r4, r5, #3
	ldr	r2, [sp, #68]
	subs	r1, r2, r1
	ldr	r1, [sp, #72]
	sbcs	r1, r4
	blo	.LBB154_13
	movs	r1, #0
	mov	r4, r6
	str	r5, [sp, #20]
	orrs	r4, r5
	bne	.LBB154_14
	b	.LBB154_15
.LBB154_13:
	movs	r1, #1
	mov	r4, r6
	str	r5, [sp, #20]
	orrs	r4, r5
	beq	.LBB154_15
.LBB154_14:
	mov	r7, r1
.LBB154_15:
	cmp	r7, #0
	bne	.LBB154_26
	lsls	r1, r6, #1
	adds	r1, r0, r1
	mov	r4, r1
	subs	r4, #16
	ldrb	r4, [r4]
	lsls	r4, r4, #31
	beq	.LBB154_26
	ldr	r4, [sp, #32]
	adds	r4, r4, #1
	movs	r5, #0
	ldr	r2, [sp, #68]
	subs	r7, r2, r4
	ldr	r7, [sp, #72]
	str	r5, [sp, #12]
	sbcs	r7, r5
	blo	.LBB154_26
	cmp	r4, #0
	beq	.LBB154_26
	subs	r1, #8
	ldr	r5, [r1]
	ldr	r1, [r1, #4]
	ldr	r7, [sp, #64]
	ands	r1, r7
	ldr	r7, [sp, #36]
	ands	r5, r7
	ldr	r7, [sp, #52]
	eors	r5, r7
	eors	r1, r3
	orrs	r1, r5
	bne	.LBB154_26
	lsls	r7, r4, #3
	lsls	r1, r7, #1
	adds	r1, r0, r1
	mov	r5, r1
	subs	r5, #16
	str	r6, [sp, #56]
	ldrb	r6, [r5]
	lsls	r6, r6, #31
	ldr	r0, [sp, #60]
	bne	.LBB154_26
	lsrs	r4, r4, #29
	subs	r1, #8
	ldr	r0, [sp, #44]
	str	r0, [r1]
	ldr	r0, [sp, #24]
	str	r0, [r1, #4]
	movs	r1, #1
	mov	r6, r7
	orrs	r6, r1
	ldr	r0, [sp, #40]
	str	r6, [r0]
	ldr	r6, [sp, #56]
	str	r4, [r0, #4]
	ldr	r0, [sp, #28]
	str	r7, [r0]
	str	r4, [r0, #4]
	ldr	r0, [sp, #52]
	eors	r0, r6
	ldr	r2, [sp, #20]
	eors	r3, r2
	orrs	r3, r0
	cmp	r3, #0
	mov	r3, r4
	beq	.LBB154_23
	mov	r3, r2
.LBB154_23:
	mov	r2, r7
	ldr	r0, [sp, #60]
	beq	.LBB154_25
	mov	r2, r6
.LBB154_25:
	orrs	r1, r2
	stm	r5!, {r1, r3}
	lsls	r1, r2, #1
	adds	r0, r0, r1
	subs	r0, #8
	str	r7, [r0]
	str	r4, [r0, #4]
	ldr	r0, [sp, #12]
	ldr	r1, [sp, #48]
	str	r0, [r1]
	str	r0, [r1, #4]
	add	sp, #76
	pop	{r4, r5, r6, r7, pc}
.LBB154_26:
	ldr	r1, [sp, #16]
	str	r1, [sp]
	ldr	r1, [sp, #32]
	str	r1, [sp, #4]
	ldr	r2, [sp, #68]
	ldr	r3, [sp, #72]
	bl	ic_raw.table.RawTable.refusal.85cd03e557136797
	add	sp, #76
	pop	{r4, r5, r6, r7, pc}
.Lfunc_end154:
	.size	ic_ring_replace, .Lfunc_end154-ic_ring_replace
	.cfi_endproc
	.section	.text.ic_ring_sort,"ax",%progbits
	.globl	ic_ring_sort
	.p2align	1
	.type	ic_ring_sort,%function
	.code	16
	.thumb_func
ic_ring_sort:
	.cfi_startproc
	push	{r4, r5, r6, r7, lr}
	.cfi_def_cfa_offset 20
	.cfi_offset lr, -4
	.cfi_offset r7, -8
	.cfi_offset r6, -12
	.cfi_offset r5, -16
	.cfi_offset r4, -20
	sub	sp, #132
	.cfi_def_cfa_offset 152
	str	r3, [sp, #40]
	str	r2, [sp, #68]
	mov	r2, r0
	movs	r1, #1
	lsls	r0, r1, #12
	ldr	r3, [sp, #152]
	cmp	r3, #0
	beq	.LBB155_4
	cmp	r2, #0
	beq	.LBB155_5
.LBB155_2:
	ldr	r0, [sp, #168]
	adds	r0, r0, #1
	blo	.LBB155_6
.LBB155_3:
	movs	r0, #4
	add	sp, #132
	pop	{r4, r5, r6, r7, pc}
.LBB155_4:
	adds	r3, r3, r0
	cmp	r2, #0
	bne	.LBB155_2
.LBB155_5:
	adds	r2, r2, r0
	ldr	r0, [sp, #168]
	adds	r0, r0, #1
	bhs	.LBB155_3
.LBB155_6:
	str	r3, [sp, #20]
	str	r1, [sp, #28]
	lsrs	r1, r0, #29
	str	r1, [sp, #44]
	lsls	r0, r0, #3
	str	r0, [sp, #36]
	ldr	r3, [sp, #164]
	ldr	r4, [sp, #160]
	str	r2, [sp, #60]
	str	r2, [sp, #72]
	movs	r2, #0
	str	r2, [sp, #76]
	ldr	r0, [sp, #68]
	str	r0, [sp, #80]
	ldr	r5, [sp, #40]
	str	r5, [sp, #84]
	subs	r0, r0, #1
	mov	r1, r5
	str	r2, [sp, #52]
	sbcs	r1, r2
	str	r4, [sp, #24]
	subs	r0, r0, r4
	str	r3, [sp, #32]
	sbcs	r1, r3
	bhs	.LBB155_16
	mov	r2, r5
	movs	r0, #7
	mvns	r0, r0
	str	r0, [sp, #56]
	movs	r0, #15
	str	r0, [sp, #64]
	ldr	r7, [sp, #52]
	ldr	r6, [sp, #36]
	ldr	r1, [sp, #44]
.LBB155_8:
	lsrs	r0, r6, #3
	lsls	r4, r1, #29
	adds	r0, r0, r4
	lsrs	r4, r1, #3
	ldr	r3, [sp, #68]
	subs	r0, r3, r0
	mov	r0, r2
	sbcs	r0, r4
	blo	.LBB155_16
	lsls	r0, r6, #1
	ldr	r3, [sp, #60]
	adds	r0, r3, r0
	subs	r0, #16
	ldr	r5, [r0]
	lsls	r4, r5, #31
	beq	.LBB155_16
	ldr	r4, [r0, #4]
	ldr	r0, [sp, #56]
	ands	r5, r0
	ldr	r0, [sp, #64]
	ands	r4, r0
	mov	r0, r5
	orrs	r0, r4
	beq	.LBB155_16
	lsrs	r0, r5, #3
	lsls	r3, r4, #29
	adds	r0, r0, r3
	lsrs	r3, r4, #3
	str	r1, [sp, #48]
	mov	r1, r6
	mov	r6, r7
	mov	r7, r2
	ldr	r2, [sp, #68]
	subs	r0, r2, r0
	mov	r0, r7
	mov	r7, r6
	mov	r6, r1
	ldr	r1, [sp, #48]
	sbcs	r0, r3
	blo	.LBB155_16
	lsls	r0, r5, #1
	ldr	r3, [sp, #60]
	adds	r0, r3, r0
	mov	r3, r0
	subs	r3, #16
	ldrb	r3, [r3]
	lsls	r3, r3, #31
	beq	.LBB155_16
	subs	r0, #8
	ldr	r3, [r0]
	ldr	r0, [r0, #4]
	ldr	r2, [sp, #64]
	ands	r0, r2
	ldr	r2, [sp, #40]
	eors	r0, r1
	ldr	r1, [sp, #56]
	ands	r3, r1
	eors	r3, r6
	orrs	r3, r0
	bne	.LBB155_16
	mov	r0, r5
	ldr	r6, [sp, #36]
	eors	r0, r6
	mov	r1, r4
	ldr	r3, [sp, #44]
	eors	r1, r3
	orrs	r1, r0
	beq	.LBB155_17
	movs	r0, #0
	adds	r7, r7, #1
	ldr	r1, [sp, #52]
	adcs	r1, r0
	ldr	r0, [sp, #68]
	subs	r0, r7, r0
	str	r1, [sp, #52]
	mov	r0, r1
	sbcs	r0, r2
	mov	r6, r5
	mov	r1, r4
	blo	.LBB155_8
.LBB155_16:
	ldr	r0, [sp, #36]
	str	r0, [sp]
	ldr	r0, [sp, #44]
	str	r0, [sp, #4]
	add	r0, sp, #72
	ldr	r2, [sp, #24]
	ldr	r3, [sp, #32]
	bl	ic_raw_lists.ring_sort_calls.refusal_at
	add	sp, #132
	pop	{r4, r5, r6, r7, pc}
.LBB155_17:
	ldr	r0, [sp, #24]
	str	r0, [sp, #96]
	movs	r3, #0
	str	r3, [sp, #92]
	ldr	r0, [sp, #20]
	str	r0, [sp, #88]
	ldr	r0, [sp, #32]
	str	r0, [sp, #100]
	lsls	r1, r6, #1
	ldr	r0, [sp, #60]
	str	r1, [sp, #24]
	adds	r1, r0, r1
	mov	r2, r1
	subs	r2, #16
	ldm	r2!, {r0, r4}
	ldr	r2, [sp, #64]
	ands	r4, r2
	ldr	r7, [sp, #56]
	ands	r0, r7
	mov	r2, r0
	orrs	r2, r4
	bne	.LBB155_18
	b	.LBB155_32
.LBB155_18:
	mov	r2, r0
	eors	r2, r6
	str	r4, [sp, #68]
	ldr	r5, [sp, #44]
	eors	r4, r5
	orrs	r4, r2
	movs	r3, #0
	cmp	r4, #0
	bne	.LBB155_19
	b	.LBB155_32
.LBB155_19:
	subs	r1, #8
	ldm	r1!, {r4, r5}
	ldr	r1, [sp, #64]
	ands	r5, r1
	ands	r4, r7
	mov	r1, r4
	orrs	r1, r5
	mov	r7, r3
	mov	r1, r3
	mov	r2, r3
	beq	.LBB155_21
	lsls	r1, r0, #1
	ldr	r3, [sp, #60]
	adds	r1, r3, r1
	subs	r1, #8
	movs	r2, #0
	str	r2, [r1]
	str	r2, [r1, #4]
	lsls	r1, r4, #1
	adds	r1, r3, r1
	subs	r1, #16
	ldr	r3, [sp, #28]
	str	r3, [r1]
	str	r2, [r1, #4]
	mov	r3, r0
	ldr	r7, [sp, #68]
	mov	r1, r4
	mov	r2, r5
.LBB155_21:
	mov	r0, r3
	orrs	r0, r7
	beq	.LBB155_33
.LBB155_22:
	str	r7, [sp, #68]
	lsls	r0, r3, #1
	ldr	r2, [sp, #60]
	adds	r1, r2, r0
	subs	r1, #16
	ldr	r4, [r1]
	ldr	r5, [sp, #28]
	str	r5, [r1]
	mov	r5, r4
	ldr	r6, [r1, #4]
	movs	r4, #0
	str	r4, [sp, #32]
	str	r4, [r1, #4]
	ldr	r7, [sp, #64]
	ands	r6, r7
	ldr	r4, [sp, #56]
	ands	r5, r4
	mov	r1, r5
	orrs	r1, r6
	beq	.LBB155_26
	ldr	r1, [sp, #68]
	mov	r0, r6
	mov	r6, r5
	ldr	r5, [sp, #32]
	mov	r4, r5
.LBB155_24:
	str	r3, [sp, #60]
	str	r1, [sp, #68]
	str	r6, [sp]
	add	r1, sp, #4
	stm	r1!, {r0, r4, r5}
	add	r6, sp, #104
	add	r7, sp, #72
	add	r2, sp, #88
	str	r2, [sp, #40]
	mov	r0, r6
	mov	r1, r7
	bl	ic_list_algorithms.sort.sort_front.e8da022ef74ca9e6
	ldrb	r0, [r6, #8]
	str	r0, [sp, #52]
	ldr	r0, [sp, #124]
	str	r0, [sp, #48]
	ldr	r6, [sp, #120]
	ldr	r0, [sp, #104]
	ldr	r1, [sp, #108]
	str	r0, [sp]
	str	r1, [sp, #4]
	mov	r0, r7
	ldr	r1, [sp, #40]
	ldr	r2, [sp, #60]
	ldr	r3, [sp, #68]
	bl	ic_list_algorithms.merge.merge_runs.e8da022ef74ca9e6
	mov	r3, r0
	adds	r4, r4, #1
	ldr	r0, [sp, #32]
	adcs	r5, r0
	ldr	r0, [sp, #48]
	ldr	r2, [sp, #52]
	cmp	r2, #1
	beq	.LBB155_24
	lsls	r0, r3, #1
	ldr	r2, [sp, #72]
	ldr	r4, [sp, #56]
	ldr	r7, [sp, #64]
	str	r1, [sp, #68]
.LBB155_26:
	adds	r1, r2, r0
	subs	r1, #8
	movs	r2, #0
	str	r2, [r1]
	str	r2, [r1, #4]
	ldr	r5, [sp, #72]
	adds	r0, r5, r0
	subs	r0, #16
	ldm	r0!, {r1, r2}
	ands	r2, r7
	ands	r1, r4
	mov	r0, r1
	orrs	r0, r2
	ldr	r6, [sp, #36]
	beq	.LBB155_34
	str	r3, [sp, #60]
	mov	r0, r3
	ldr	r3, [sp, #68]
	ldr	r7, [sp, #56]
.LBB155_28:
	lsls	r4, r1, #1
	adds	r5, r5, r4
	subs	r5, #8
	stm	r5!, {r0, r3}
	ldr	r5, [sp, #72]
	adds	r3, r5, r4
	subs	r3, #16
	ldm	r3, {r0, r3}
	ldr	r4, [sp, #64]
	ands	r3, r4
	ands	r0, r7
	mov	r4, r0
	orrs	r4, r3
	beq	.LBB155_31
	lsls	r4, r0, #1
	adds	r5, r5, r4
	subs	r5, #8
	stm	r5!, {r1, r2}
	ldr	r5, [sp, #72]
	adds	r2, r5, r4
	subs	r2, #16
	ldm	r2, {r1, r2}
	ldr	r4, [sp, #64]
	ands	r2, r4
	ands	r1, r7
	mov	r4, r1
	orrs	r4, r2
	bne	.LBB155_28
	mov	r1, r0
	mov	r2, r3
.LBB155_31:
	ldr	r4, [sp, #44]
	ldr	r3, [sp, #60]
	b	.LBB155_35
.LBB155_32:
	mov	r7, r3
	mov	r1, r3
	mov	r2, r3
	mov	r0, r3
	orrs	r0, r7
	bne	.LBB155_22
.LBB155_33:
	mov	r3, r6
	ldr	r4, [sp, #44]
	str	r4, [sp, #68]
	ldr	r5, [sp, #60]
	b	.LBB155_35
.LBB155_34:
	mov	r1, r3
	ldr	r2, [sp, #68]
	ldr	r4, [sp, #44]
.LBB155_35:
	mov	r7, r3
	lsls	r0, r3, #1
	adds	r0, r5, r0
	subs	r0, #8
	str	r6, [r0]
	str	r4, [r0, #4]
	mov	r3, r6
	ldr	r5, [sp, #28]
	orrs	r3, r5
	mov	r0, r1
	orrs	r0, r2
	cmp	r0, #0
	mov	r0, r4
	beq	.LBB155_37
	mov	r0, r2
.LBB155_37:
	beq	.LBB155_39
	mov	r6, r1
.LBB155_39:
	lsls	r1, r6, #1
	ldr	r2, [sp, #72]
	adds	r1, r2, r1
	subs	r1, #16
	stm	r1!, {r3, r4}
	orrs	r7, r5
	ldr	r1, [sp, #72]
	ldr	r3, [sp, #24]
	adds	r1, r1, r3
	subs	r1, #16
	str	r7, [r1]
	ldr	r2, [sp, #68]
	str	r2, [r1, #4]
	ldr	r1, [sp, #72]
	adds	r1, r1, r3
	subs	r1, #8
	str	r6, [r1]
	str	r0, [r1, #4]
	movs	r0, #0
	add	sp, #132
	pop	{r4, r5, r6, r7, pc}
.Lfunc_end155:
	.size	ic_ring_sort, .Lfunc_end155-ic_ring_sort
	.cfi_endproc
	.section	.text.ic_ring_splice_after,"ax",%progbits
	.globl	ic_ring_splice_after
	.p2align	1
	.type	ic_ring_splice_after,%function
	.code	16
	.thumb_func
ic_ring_splice_after:
	.cfi_startproc
	push	{r7, lr}
	.cfi_def_cfa_offset 8
	.cfi_offset lr, -4
	.cfi_offset r7, -8
	sub	sp, #16
	.cfi_def_cfa_offset 24
	ldr	r1, [sp, #28]
	str	r1, [sp, #8]
	ldr	r1, [sp, #24]
	str	r1, [sp, #4]
	movs	r1, #0
	str	r1, [sp]
	cmp	r0, #0
	bne	.LBB156_2
	movs	r1, #1
	lsls	r1, r1, #12
	adds	r0, r0, r1
.LBB156_2:
	bl	ic_raw.ring_calls.splice.354f48d5d890d6b4
	add	sp, #16
	pop	{r7, pc}
.Lfunc_end156:
	.size	ic_ring_splice_after, .Lfunc_end156-ic_ring_splice_after
	.cfi_endproc
	.section	.text.ic_ring_splice_before,"ax",%progbits
	.globl	ic_ring_splice_before
	.p2align	1
	.type	ic_ring_splice_before,%function
	.code	16
	.thumb_func
ic_ring_splice_before:
	.cfi_startproc
	push	{r7, lr}
	.cfi_def_cfa_offset 8
	.cfi_offset lr, -4
	.cfi_offset r7, -8
	sub	sp, #16
	.cfi_def_cfa_offset 24
	ldr	r1, [sp, #28]
	str	r1, [sp, #8]
	ldr	r1, [sp, #24]
	str	r1, [sp, #4]
	movs	r1, #1
	str	r1, [sp]
	cmp	r0, #0
	bne	.LBB157_2
	lsls	r1, r1, #12
	adds	r0, r0, r1
.LBB157_2:
	bl	ic_raw.ring_calls.splice.354f48d5d890d6b4
	add	sp, #16
	pop	{r7, pc}
.Lfunc_end157:
	.size	ic_ring_splice_before, .Lfunc_end157-ic_ring_splice_before
	.cfi_endproc
	.section	.text.ic_stack_check,"ax",%progbits
	.globl	ic_stack_check
	.p2align	1
	.type	ic_stack_check,%function
	.code	16
	.thumb_func
ic_stack_check:
	.cfi_startproc
	push	{r4, r5, r6, r7, lr}
	.cfi_def_cfa_offset 20
	.cfi_offset lr, -4
	.cfi_offset r7, -8
	.cfi_offset r6, -12
	.cfi_offset r5, -16
	.cfi_offset r4, -20
	sub	sp, #24
	.cfi_def_cfa_offset 44
	ldr	r1, [sp, #44]
	ldm	r1!, {r5, r7}
	movs	r1, #15
	str	r1, [sp, #16]
	ands	r7, r1
	movs	r1, #7
	bics	r5, r1
	mov	r4, r5
	orrs	r4, r7
	cmp	r0, #0
	bne	.LBB158_2
	movs	r6, #1
	lsls	r6, r6, #12
	adds	r0, r0, r6
.LBB158_2:
	movs	r6, #0
	cmp	r4, #0
	str	r6, [sp]
	beq	.LBB158_8
	str	r0, [sp, #12]
	mvns	r0, r1
	str	r0, [sp, #4]
	movs	r4, #0
	mov	r6, r4
	str	r2, [sp, #8]
.LBB158_4:
	movs	r0, #5
	str	r0, [sp, #20]
	subs	r1, r4, r2
	mov	r1, r6
	sbcs	r1, r3
	bhs	.LBB158_10
	lsrs	r0, r5, #3
	lsls	r1, r7, #29
	adds	r1, r0, r1
	lsrs	r7, r7, #3
	subs	r1, r2, r1
	mov	r2, r3
	sbcs	r3, r7
	blo	.LBB158_10
	ldr	r0, [sp, #12]
	adds	r7, r0, r5
	subs	r7, #8
	ldr	r5, [r7]
	lsls	r1, r5, #31
	beq	.LBB158_10
	ldr	r7, [r7, #4]
	movs	r0, #0
	adds	r4, r4, #1
	adcs	r6, r0
	ldr	r0, [sp, #4]
	ands	r5, r0
	ldr	r0, [sp, #16]
	ands	r7, r0
	mov	r0, r5
	orrs	r0, r7
	mov	r3, r2
	ldr	r2, [sp, #8]
	bne	.LBB158_4
	b	.LBB158_9
.LBB158_8:
	mov	r4, r6
.LBB158_9:
	ldr	r0, [sp, #48]
	stm	r0!, {r4, r6}
	ldr	r0, [sp]
	str	r0, [sp, #20]
.LBB158_10:
	ldr	r0, [sp, #20]
	add	sp, #24
	pop	{r4, r5, r6, r7, pc}
.Lfunc_end158:
	.size	ic_stack_check, .Lfunc_end158-ic_stack_check
	.cfi_endproc
	.section	.text.ic_stack_clear,"ax",%progbits
	.globl	ic_stack_clear
	.p2align	1
	.type	ic_stack_clear,%function
	.code	16
	.thumb_func
ic_stack_clear:
	.cfi_startproc
	push	{r4, r5, r6, r7, lr}
	.cfi_def_cfa_offset 20
	.cfi_offset lr, -4
	.cfi_offset r7, -8
	.cfi_offset r6, -12
	.cfi_offset r5, -16
	.cfi_offset r4, -20
	sub	sp, #24
	.cfi_def_cfa_offset 44
	str	r2, [sp, #20]
	mov	r6, r0
	ldr	r7, [sp, #44]
	ldm	r7!, {r0, r4}
	movs	r1, #15
	ands	r4, r1
	movs	r2, #7
	bics	r0, r2
	mov	r5, r0
	orrs	r5, r4
	subs	r7, #8
	cmp	r6, #0
	str	r7, [sp, #4]
	bne	.LBB159_2
	movs	r7, #1
	lsls	r7, r7, #12
	adds	r6, r6, r7
.LBB159_2:
	cmp	r5, #0
	ldr	r7, [sp, #20]
	beq	.LBB159_15
	movs	r5, #5
	str	r5, [sp]
	mov	r5, r7
	orrs	r5, r3
	beq	.LBB159_9
	str	r1, [sp, #12]
	mvns	r1, r2
	str	r1, [sp, #8]
	mov	r2, r7
	str	r3, [sp, #16]
	mov	r7, r0
	mov	r5, r6
.LBB159_5:
	lsrs	r6, r7, #3
	lsls	r1, r4, #29
	adds	r1, r6, r1
	lsrs	r4, r4, #3
	ldr	r6, [sp, #20]
	subs	r1, r6, r1
	ldr	r1, [sp, #16]
	sbcs	r1, r4
	blo	.LBB159_9
	adds	r4, r5, r7
	subs	r4, #8
	ldr	r7, [r4]
	lsls	r1, r7, #31
	beq	.LBB159_9
	ldr	r4, [r4, #4]
	ldr	r1, [sp, #8]
	ands	r7, r1
	ldr	r1, [sp, #12]
	ands	r4, r1
	mov	r1, r7
	orrs	r1, r4
	beq	.LBB159_10
	movs	r6, #0
	subs	r2, r2, #1
	sbcs	r3, r6
	mov	r6, r2
	orrs	r6, r3
	bne	.LBB159_5
.LBB159_9:
	ldr	r0, [sp]
	add	sp, #24
	pop	{r4, r5, r6, r7, pc}
.LBB159_10:
	ldr	r6, [sp, #12]
	ldr	r7, [sp, #8]
.LBB159_11:
	adds	r3, r5, r0
	subs	r3, #8
	ldr	r2, [r3]
	movs	r1, #0
	str	r1, [r3]
	ldr	r4, [r3, #4]
	str	r1, [r3, #4]
	ands	r4, r6
	ands	r2, r7
	orrs	r4, r2
	beq	.LBB159_15
	adds	r3, r5, r2
	subs	r3, #8
	ldr	r2, [r3]
	str	r1, [r3]
	ldr	r4, [r3, #4]
	str	r1, [r3, #4]
	ands	r4, r6
	ands	r2, r7
	orrs	r4, r2
	beq	.LBB159_15
	adds	r3, r5, r2
	subs	r3, #8
	ldr	r2, [r3]
	str	r1, [r3]
	ldr	r4, [r3, #4]
	str	r1, [r3, #4]
	ands	r4, r6
	ands	r2, r7
	orrs	r4, r2
	beq	.LBB159_15
	adds	r2, r5, r2
	subs	r2, #8
	ldr	r0, [r2]
	str	r1, [r2]
	ldr	r3, [r2, #4]
	str	r1, [r2, #4]
	ands	r3, r6
	ands	r0, r7
	orrs	r3, r0
	bne	.LBB159_11
.LBB159_15:
	movs	r0, #0
	ldr	r1, [sp, #4]
	str	r0, [r1]
	str	r0, [r1, #4]
	add	sp, #24
	pop	{r4, r5, r6, r7, pc}
.Lfunc_end159:
	.size	ic_stack_clear, .Lfunc_end159-ic_stack_clear
	.cfi_endproc
	.section	.text.ic_stack_fill,"ax",%progbits
	.globl	ic_stack_fill
	.p2align	1
	.type	ic_stack_fill,%function
	.code	16
	.thumb_func
ic_stack_fill:
	.cfi_startproc
	push	{r4, r5, r6, r7, lr}
	.cfi_def_cfa_offset 20
	.cfi_offset lr, -4
	.cfi_offset r7, -8
	.cfi_offset r6, -12
	.cfi_offset r5, -16
	.cfi_offset r4, -20
	sub	sp, #44
	.cfi_def_cfa_offset 64
	str	r3, [sp, #40]
	movs	r4, #1
	movs	r1, #0
	str	r0, [sp, #36]
	cmp	r0, #0
	str	r4, [sp, #28]
	beq	.LBB160_2
	mov	r7, r1
	ldr	r0, [sp, #72]
	str	r0, [sp, #32]
	cmp	r0, #0
	bne	.LBB160_3
	b	.LBB160_24
.LBB160_2:
	lsls	r7, r4, #12
	ldr	r0, [sp, #72]
	str	r0, [sp, #32]
	cmp	r0, #0
	bne	.LBB160_3
	b	.LBB160_24
.LBB160_3:
	ldr	r0, [sp, #36]
	adds	r5, r0, r7
	ldr	r0, [sp, #68]
	str	r0, [sp, #24]
	ldr	r0, [sp, #64]
	ldr	r1, [r0]
	str	r0, [sp, #8]
	ldr	r0, [r0, #4]
	movs	r4, #15
	ands	r4, r0
	movs	r0, #7
	bics	r1, r0
	mov	r0, r1
	orrs	r0, r4
	beq	.LBB160_7
	lsrs	r0, r1, #3
	mov	r6, r1
	lsls	r1, r4, #29
	adds	r0, r0, r1
	lsrs	r1, r4, #3
	movs	r3, #0
	subs	r0, r2, r0
	ldr	r0, [sp, #40]
	sbcs	r0, r1
	bhs	.LBB160_6
	str	r3, [sp, #20]
	mov	r1, r6
	mov	r6, r3
	b	.LBB160_8
.LBB160_6:
	adds	r0, r5, r6
	subs	r0, #8
	ldrb	r0, [r0]
	lsls	r0, r0, #31
	movs	r3, #0
	cmp	r0, #0
	str	r3, [sp, #20]
	mov	r1, r6
	mov	r6, r3
	beq	.LBB160_8
.LBB160_7:
	movs	r6, #1
	mov	r0, r1
	orrs	r0, r6
	str	r0, [sp, #28]
	str	r4, [sp, #20]
.LBB160_8:
	str	r1, [sp, #4]
	str	r5, [sp, #16]
	str	r4, [sp, #12]
	ldr	r1, [sp, #24]
	lsls	r0, r1, #3
	adds	r3, r7, r0
	ldr	r0, [sp, #36]
	str	r3, [sp]
	adds	r5, r0, r3
	adds	r4, r1, #1
	ldr	r0, [sp, #32]
.LBB160_9:
	movs	r1, #1
	cmp	r4, #0
	beq	.LBB160_24
	mov	r7, r6
	movs	r3, #0
	subs	r6, r2, r4
	ldr	r6, [sp, #40]
	sbcs	r6, r3
	blo	.LBB160_24
	ldr	r1, [r5]
	lsls	r1, r1, #31
	lsrs	r1, r1, #30
	bne	.LBB160_24
	adds	r4, r4, #1
	adds	r5, #8
	subs	r0, r0, #1
	mov	r6, r7
	bne	.LBB160_9
	cmp	r6, #0
	beq	.LBB160_25
	ldr	r0, [sp, #24]
	adds	r0, r0, #1
	bhs	.LBB160_26
	subs	r1, r2, r0
	ldr	r1, [sp, #40]
	sbcs	r1, r3
	blo	.LBB160_26
	lsls	r6, r0, #3
	ldr	r5, [sp, #16]
	adds	r4, r5, r6
	subs	r4, #8
	ldrb	r1, [r4]
	lsls	r1, r1, #31
	ldr	r1, [sp, #4]
	bne	.LBB160_27
	lsrs	r0, r0, #29
	str	r0, [sp, #12]
	ldr	r0, [sp, #28]
	str	r0, [r4]
	ldr	r0, [sp, #20]
	str	r0, [r4, #4]
	ldr	r0, [sp, #32]
	subs	r7, r0, #1
	beq	.LBB160_28
	str	r6, [sp, #32]
	ldr	r0, [sp, #36]
	ldr	r1, [sp]
	adds	r0, r0, r1
	ldr	r1, [sp, #24]
	adds	r6, r1, #2
.LBB160_19:
	cmp	r6, #0
	beq	.LBB160_23
	subs	r1, r2, r6
	ldr	r1, [sp, #40]
	sbcs	r1, r3
	blo	.LBB160_23
	lsls	r1, r6, #3
	adds	r5, r5, r1
	subs	r5, #8
	ldrb	r4, [r5]
	lsls	r4, r4, #31
	bne	.LBB160_23
	lsrs	r4, r6, #29
	str	r4, [sp, #36]
	movs	r4, #1
	orrs	r1, r4
	str	r1, [r0]
	ldr	r1, [sp, #36]
	str	r1, [r0, #4]
	ldr	r1, [sp, #28]
	str	r1, [r5]
	ldr	r1, [sp, #20]
	str	r1, [r5, #4]
	adds	r0, #8
	adds	r6, r6, #1
	subs	r7, r7, #1
	ldr	r5, [sp, #16]
	bne	.LBB160_19
.LBB160_23:
	ldr	r1, [sp, #32]
	b	.LBB160_27
.LBB160_24:
	mov	r0, r1
	add	sp, #44
	pop	{r4, r5, r6, r7, pc}
.LBB160_25:
	movs	r1, #5
	mov	r0, r1
	add	sp, #44
	pop	{r4, r5, r6, r7, pc}
.LBB160_26:
	ldr	r1, [sp, #4]
.LBB160_27:
	ldr	r0, [sp, #8]
	str	r1, [r0]
	ldr	r1, [sp, #12]
	str	r1, [r0, #4]
	mov	r1, r3
	mov	r0, r1
	add	sp, #44
	pop	{r4, r5, r6, r7, pc}
.LBB160_28:
	mov	r1, r6
	b	.LBB160_27
.Lfunc_end160:
	.size	ic_stack_fill, .Lfunc_end160-ic_stack_fill
	.cfi_endproc
	.section	.text.ic_stack_insert_after,"ax",%progbits
	.globl	ic_stack_insert_after
	.p2align	1
	.type	ic_stack_insert_after,%function
	.code	16
	.thumb_func
ic_stack_insert_after:
	.cfi_startproc
	push	{r4, r5, r6, r7, lr}
	.cfi_def_cfa_offset 20
	.cfi_offset lr, -4
	.cfi_offset r7, -8
	.cfi_offset r6, -12
	.cfi_offset r5, -16
	.cfi_offset r4, -20
	sub	sp, #60
	.cfi_def_cfa_offset 80
	mov	r5, r0
	str	r3, [sp, #52]
	str	r2, [sp, #32]
	str	r2, [sp, #48]
	movs	r0, #0
	str	r0, [sp, #36]
	str	r0, [sp, #44]
	movs	r0, #1
	cmp	r5, #0
	str	r0, [sp, #28]
	bne	.LBB161_2
	lsls	r0, r0, #12
	adds	r5, r5, r0
.LBB161_2:
	str	r5, [sp, #40]
	ldr	r0, [sp, #80]
	ldr	r4, [r0]
	str	r0, [sp, #16]
	ldr	r6, [r0, #4]
	movs	r0, #15
	str	r0, [sp, #4]
	ands	r6, r0
	movs	r2, #7
	bics	r4, r2
	ldr	r0, [sp, #88]
	str	r0, [sp, #24]
	ldr	r0, [sp, #84]
	adds	r7, r0, #1
	lsls	r1, r7, #3
	str	r1, [sp, #20]
	mov	r1, r7
	str	r0, [sp]
	cmp	r7, r0
	str	r4, [sp, #12]
	str	r6, [sp, #8]
	blo	.LBB161_6
	ldr	r0, [sp, #32]
	subs	r4, r0, r1
	mov	r4, r3
	ldr	r0, [sp, #36]
	sbcs	r4, r0
	blo	.LBB161_17
	ldr	r0, [sp, #20]
	adds	r6, r5, r0
	subs	r6, #8
	ldr	r4, [r6]
	lsls	r0, r4, #31
	beq	.LBB161_17
	mvns	r0, r2
	ldr	r6, [r6, #4]
	ands	r4, r0
	ldr	r0, [sp, #4]
	ands	r6, r0
.LBB161_6:
	ldr	r0, [sp, #24]
	adds	r7, r0, #1
	mov	r0, r4
	orrs	r0, r6
	beq	.LBB161_10
	lsrs	r0, r4, #3
	lsls	r2, r6, #29
	adds	r0, r0, r2
	lsrs	r2, r6, #3
	str	r2, [sp, #4]
	mov	r2, r1
	ldr	r1, [sp, #32]
	subs	r0, r1, r0
	mov	r1, r2
	mov	r0, r3
	ldr	r2, [sp, #4]
	sbcs	r0, r2
	blo	.LBB161_17
	cmp	r7, #0
	beq	.LBB161_17
	adds	r0, r5, r4
	subs	r0, #8
	ldr	r0, [r0]
	ldr	r2, [sp, #28]
	ands	r0, r2
	bne	.LBB161_11
	b	.LBB161_17
.LBB161_10:
	cmp	r7, #0
	beq	.LBB161_17
.LBB161_11:
	ldr	r0, [sp, #32]
	subs	r0, r0, r7
	ldr	r0, [sp, #36]
	sbcs	r3, r0
	blo	.LBB161_17
	lsls	r2, r7, #3
	adds	r3, r5, r2
	subs	r3, #8
	ldrb	r0, [r3]
	lsls	r0, r0, #31
	bne	.LBB161_17
	lsrs	r7, r7, #29
	cmp	r1, #0
	beq	.LBB161_15
	ldr	r0, [sp, #20]
	adds	r0, r5, r0
	subs	r0, #8
	ldr	r1, [sp, #28]
	orrs	r2, r1
	stm	r0!, {r2, r7}
	ldr	r2, [sp, #12]
	ldr	r7, [sp, #8]
	b	.LBB161_16
.LBB161_15:
	ldr	r1, [sp, #28]
.LBB161_16:
	orrs	r4, r1
	stm	r3!, {r4, r6}
	ldr	r0, [sp, #16]
	stm	r0!, {r2, r7}
	ldr	r0, [sp, #36]
	add	sp, #60
	pop	{r4, r5, r6, r7, pc}
.LBB161_17:
	add	r0, sp, #40
	ldr	r1, [sp]
	ldr	r2, [sp, #24]
	bl	ic_raw.table.RawTable.refusal.feecb86c9dd45d96
	str	r0, [sp, #36]
	ldr	r0, [sp, #36]
	add	sp, #60
	pop	{r4, r5, r6, r7, pc}
.Lfunc_end161:
	.size	ic_stack_insert_after, .Lfunc_end161-ic_stack_insert_after
	.cfi_endproc
	.section	.text.ic_stack_merge,"ax",%progbits
	.globl	ic_stack_merge
	.p2align	1
	.type	ic_stack_merge,%function
	.code	16
	.thumb_func
ic_stack_merge:
	.cfi_startproc
	push	{r4, r5, r6, r7, lr}
	.cfi_def_cfa_offset 20
	.cfi_offset lr, -4
	.cfi_offset r7, -8
	.cfi_offset r6, -12
	.cfi_offset r5, -16
	.cfi_offset r4, -20
	sub	sp, #108
	.cfi_def_cfa_offset 128
	ldr	r4, [sp, #140]
	str	r4, [sp, #100]
	ldr	r5, [sp, #136]
	str	r5, [sp, #96]
	movs	r1, #0
	str	r1, [sp, #92]
	str	r3, [sp, #64]
	str	r2, [sp, #60]
	str	r1, [sp, #68]
	add	r6, sp, #76
	stm	r6!, {r1, r2, r3}
	movs	r1, #1
	lsls	r2, r1, #12
	ldr	r1, [sp, #128]
	cmp	r1, #0
	bne	.LBB162_2
	adds	r1, r1, r2
.LBB162_2:
	str	r1, [sp, #88]
	cmp	r0, #0
	bne	.LBB162_4
	adds	r0, r0, r2
.LBB162_4:
	str	r0, [sp, #48]
	str	r0, [sp, #72]
	ldr	r0, [sp, #60]
	str	r5, [sp, #8]
	subs	r0, r5, r0
	str	r4, [sp, #12]
	mov	r0, r4
	ldr	r1, [sp, #64]
	sbcs	r0, r1
	bhs	.LBB162_5
	b	.LBB162_27
.LBB162_5:
	ldr	r0, [sp, #148]
	ldr	r1, [r0]
	str	r1, [sp, #44]
	str	r0, [sp, #36]
	ldr	r7, [r0, #4]
	movs	r2, #15
	movs	r0, #7
	mvns	r4, r0
	ldr	r0, [sp, #144]
	ldr	r6, [r0]
	str	r0, [sp, #32]
	ldr	r1, [r0, #4]
	str	r2, [sp, #56]
	ands	r1, r2
	str	r4, [sp, #52]
	ands	r6, r4
	mov	r0, r6
	orrs	r0, r1
	rsbs	r2, r0, #0
	adcs	r2, r0
	str	r2, [sp, #40]
	cmp	r0, #0
	str	r6, [sp, #28]
	str	r1, [sp, #24]
	beq	.LBB162_11
	ldr	r4, [sp, #60]
	mov	r0, r4
	ldr	r2, [sp, #64]
	orrs	r0, r2
	bne	.LBB162_7
	b	.LBB162_27
.LBB162_7:
	lsrs	r0, r6, #3
	lsls	r3, r1, #29
	adds	r0, r0, r3
	lsrs	r3, r1, #3
	ldr	r5, [sp, #60]
	subs	r0, r5, r0
	ldr	r0, [sp, #64]
	sbcs	r0, r3
	bhs	.LBB162_8
	b	.LBB162_27
.LBB162_8:
	ldr	r0, [sp, #48]
	adds	r0, r0, r6
	subs	r0, #8
	ldr	r3, [r0]
	lsls	r5, r3, #31
	beq	.LBB162_27
	ldr	r5, [r0, #4]
	ldr	r0, [sp, #52]
	ands	r3, r0
	ldr	r0, [sp, #56]
	ands	r5, r0
	mov	r0, r3
	orrs	r0, r5
	beq	.LBB162_12
	movs	r0, #0
	subs	r4, r4, #1
	sbcs	r2, r0
	mov	r0, r4
	orrs	r0, r2
	mov	r6, r3
	mov	r1, r5
	bne	.LBB162_7
	b	.LBB162_27
.LBB162_11:
	ldr	r1, [sp, #68]
	mov	r6, r1
.LBB162_12:
	ldr	r0, [sp, #56]
	ands	r7, r0
	ldr	r4, [sp, #44]
	ldr	r0, [sp, #52]
	ands	r4, r0
	mov	r0, r4
	orrs	r0, r7
	rsbs	r2, r0, #0
	adcs	r2, r0
	str	r2, [sp, #16]
	cmp	r0, #0
	str	r4, [sp, #44]
	str	r7, [sp, #20]
	beq	.LBB162_18
	ldr	r3, [sp, #64]
	mov	r0, r3
	ldr	r2, [sp, #60]
	orrs	r0, r2
	str	r4, [sp, #68]
	mov	r0, r7
	beq	.LBB162_27
.LBB162_14:
	ldr	r4, [sp, #68]
	lsrs	r4, r4, #3
	lsls	r5, r0, #29
	adds	r4, r4, r5
	lsrs	r5, r0, #3
	ldr	r7, [sp, #60]
	subs	r4, r7, r4
	ldr	r4, [sp, #64]
	sbcs	r4, r5
	blo	.LBB162_27
	ldr	r4, [sp, #48]
	ldr	r5, [sp, #68]
	adds	r4, r4, r5
	subs	r4, #8
	ldr	r5, [r4]
	lsls	r7, r5, #31
	beq	.LBB162_27
	ldr	r4, [r4, #4]
	ldr	r7, [sp, #52]
	ands	r5, r7
	ldr	r7, [sp, #56]
	ands	r4, r7
	mov	r7, r5
	orrs	r7, r4
	beq	.LBB162_19
	movs	r0, #0
	subs	r2, r2, #1
	sbcs	r3, r0
	mov	r0, r2
	orrs	r0, r3
	str	r5, [sp, #68]
	mov	r0, r4
	bne	.LBB162_14
	b	.LBB162_27
.LBB162_18:
	ldr	r0, [sp, #68]
.LBB162_19:
	ldr	r2, [sp, #68]
	eors	r2, r6
	eors	r0, r1
	orrs	r0, r2
	subs	r1, r0, #1
	sbcs	r0, r1
	ldr	r1, [sp, #40]
	orrs	r0, r1
	beq	.LBB162_27
	ldr	r0, [sp, #40]
	cmp	r0, #0
	ldr	r5, [sp, #20]
	mov	r1, r5
	ldr	r3, [sp, #24]
	beq	.LBB162_25
	ldr	r4, [sp, #44]
	mov	r0, r4
	ldr	r2, [sp, #28]
	beq	.LBB162_26
.LBB162_22:
	ldr	r6, [sp, #40]
	ldr	r7, [sp, #16]
	orrs	r6, r7
	bne	.LBB162_24
.LBB162_23:
	str	r4, [sp]
	str	r5, [sp, #4]
	add	r0, sp, #72
	add	r1, sp, #88
	bl	ic_list_algorithms.merge.merge_runs.07d679d1abf7571e
.LBB162_24:
	ldr	r2, [sp, #32]
	stm	r2!, {r0, r1}
	movs	r0, #0
	ldr	r1, [sp, #36]
	str	r0, [r1]
	str	r0, [r1, #4]
	add	sp, #108
	pop	{r4, r5, r6, r7, pc}
.LBB162_25:
	mov	r1, r3
	ldr	r4, [sp, #44]
	mov	r0, r4
	ldr	r2, [sp, #28]
	bne	.LBB162_22
.LBB162_26:
	mov	r0, r2
	ldr	r6, [sp, #40]
	ldr	r7, [sp, #16]
	orrs	r6, r7
	beq	.LBB162_23
	b	.LBB162_24
.LBB162_27:
	ldr	r0, [sp, #60]
	ldr	r1, [sp, #64]
	ldr	r2, [sp, #8]
	ldr	r3, [sp, #12]
	bl	ic_raw.sort_calls.refusal.1b4d7615ba81168a
	add	sp, #108
	pop	{r4, r5, r6, r7, pc}
.Lfunc_end162:
	.size	ic_stack_merge, .Lfunc_end162-ic_stack_merge
	.cfi_endproc
	.section	.text.ic_stack_pop_front,"ax",%progbits
	.globl	ic_stack_pop_front
	.p2align	1
	.type	ic_stack_pop_front,%function
	.code	16
	.thumb_func
ic_stack_pop_front:
	.cfi_startproc
	push	{r4, r5, r6, r7, lr}
	.cfi_def_cfa_offset 20
	.cfi_offset lr, -4
	.cfi_offset r7, -8
	.cfi_offset r6, -12
	.cfi_offset r5, -16
	.cfi_offset r4, -20
	sub	sp, #20
	.cfi_def_cfa_offset 40
	str	r3, [sp, #16]
	str	r2, [sp, #12]
	ldr	r1, [sp, #40]
	ldr	r7, [r1]
	ldr	r6, [r1, #4]
	movs	r4, #15
	ands	r6, r4
	movs	r5, #7
	bics	r7, r5
	mov	r3, r7
	orrs	r3, r6
	cmp	r0, #0
	bne	.LBB163_2
	movs	r2, #1
	lsls	r2, r2, #12
	adds	r0, r0, r2
.LBB163_2:
	ldr	r2, [sp, #44]
	str	r2, [sp, #8]
	cmp	r3, #0
	beq	.LBB163_6
	lsrs	r3, r7, #3
	lsls	r2, r6, #29
	adds	r3, r3, r2
	lsrs	r2, r6, #3
	ldr	r6, [sp, #12]
	subs	r6, r6, r3
	ldr	r6, [sp, #16]
	sbcs	r6, r2
	blo	.LBB163_6
	adds	r7, r0, r7
	subs	r7, #8
	ldr	r6, [r7]
	lsls	r2, r6, #31
	beq	.LBB163_6
	mvns	r2, r5
	ldr	r5, [r7, #4]
	movs	r0, #0
	str	r0, [r7]
	str	r0, [r7, #4]
	ands	r6, r2
	ands	r5, r4
	str	r6, [r1]
	str	r5, [r1, #4]
	subs	r1, r3, #1
	ldr	r2, [sp, #8]
	str	r1, [r2]
	add	sp, #20
	pop	{r4, r5, r6, r7, pc}
.LBB163_6:
	str	r1, [sp]
	ldr	r1, [sp, #8]
	str	r1, [sp, #4]
	ldr	r2, [sp, #12]
	ldr	r3, [sp, #16]
	bl	ic_raw.stack_calls.pop_front_slow
	add	sp, #20
	pop	{r4, r5, r6, r7, pc}
.Lfunc_end163:
	.size	ic_stack_pop_front, .Lfunc_end163-ic_stack_pop_front
	.cfi_endproc
	.section	.text.ic_stack_push_front,"ax",%progbits
	.globl	ic_stack_push_front
	.p2align	1
	.type	ic_stack_push_front,%function
	.code	16
	.thumb_func
ic_stack_push_front:
	.cfi_startproc
	push	{r4, r5, r6, r7, lr}
	.cfi_def_cfa_offset 20
	.cfi_offset lr, -4
	.cfi_offset r7, -8
	.cfi_offset r6, -12
	.cfi_offset r5, -16
	.cfi_offset r4, -20
	sub	sp, #28
	.cfi_def_cfa_offset 48
	ldr	r1, [sp, #48]
	ldr	r5, [r1]
	str	r1, [sp, #20]
	ldr	r1, [r1, #4]
	movs	r7, #15
	ands	r7, r1
	movs	r1, #7
	bics	r5, r1
	mov	r1, r5
	orrs	r1, r7
	movs	r4, #1
	cmp	r0, #0
	str	r4, [sp, #24]
	bne	.LBB164_2
	lsls	r4, r4, #12
	adds	r0, r0, r4
.LBB164_2:
	ldr	r4, [sp, #52]
	str	r4, [sp, #8]
	adds	r6, r4, #1
	cmp	r1, #0
	str	r7, [sp, #16]
	beq	.LBB164_6
	lsrs	r1, r5, #3
	lsls	r4, r7, #29
	adds	r1, r1, r4
	lsrs	r4, r7, #3
	subs	r1, r2, r1
	mov	r1, r3
	sbcs	r1, r4
	blo	.LBB164_10
	cmp	r6, #0
	beq	.LBB164_10
	adds	r1, r0, r5
	subs	r1, #8
	ldr	r1, [r1]
	ldr	r4, [sp, #24]
	ands	r1, r4
	bne	.LBB164_7
	b	.LBB164_10
.LBB164_6:
	cmp	r6, #0
	beq	.LBB164_10
.LBB164_7:
	movs	r4, #0
	subs	r1, r2, r6
	mov	r1, r3
	sbcs	r1, r4
	blo	.LBB164_10
	lsls	r1, r6, #3
	adds	r7, r0, r1
	subs	r7, #8
	str	r6, [sp, #12]
	mov	r6, r4
	ldrb	r4, [r7]
	lsls	r4, r4, #31
	mov	r4, r6
	ldr	r6, [sp, #12]
	bne	.LBB164_10
	lsrs	r3, r6, #29
	ldr	r0, [sp, #24]
	orrs	r5, r0
	str	r5, [r7]
	ldr	r0, [sp, #16]
	str	r0, [r7, #4]
	ldr	r0, [sp, #20]
	stm	r0!, {r1, r3}
	mov	r0, r4
	add	sp, #28
	pop	{r4, r5, r6, r7, pc}
.LBB164_10:
	ldr	r1, [sp, #8]
	str	r1, [sp]
	bl	ic_raw.table.refusal_at_end.feecb86c9dd45d96
	mov	r4, r0
	mov	r0, r4
	add	sp, #28
	pop	{r4, r5, r6, r7, pc}
.Lfunc_end164:
	.size	ic_stack_push_front, .Lfunc_end164-ic_stack_push_front
	.cfi_endproc
	.section	.text.ic_stack_remove_after,"ax",%progbits
	.globl	ic_stack_remove_after
	.p2align	1
	.type	ic_stack_remove_after,%function
	.code	16
	.thumb_func
ic_stack_remove_after:
	.cfi_startproc
	push	{r4, r5, r6, r7, lr}
	.cfi_def_cfa_offset 20
	.cfi_offset lr, -4
	.cfi_offset r7, -8
	.cfi_offset r6, -12
	.cfi_offset r5, -16
	.cfi_offset r4, -20
	sub	sp, #36
	.cfi_def_cfa_offset 56
	str	r3, [sp, #32]
	str	r2, [sp, #28]
	movs	r1, #1
	cmp	r0, #0
	str	r1, [sp, #8]
	bne	.LBB165_2
	lsls	r1, r1, #12
	adds	r0, r0, r1
.LBB165_2:
	ldr	r1, [sp, #56]
	ldr	r7, [r1]
	str	r1, [sp, #12]
	ldr	r1, [r1, #4]
	movs	r2, #15
	str	r2, [sp, #24]
	ands	r1, r2
	movs	r2, #7
	bics	r7, r2
	mvns	r2, r2
	str	r2, [sp, #20]
	ldr	r3, [sp, #60]
	adds	r5, r3, #1
	lsls	r2, r5, #3
	str	r2, [sp, #16]
	str	r3, [sp, #4]
	cmp	r5, r3
	mov	r2, r7
	mov	r4, r1
	blo	.LBB165_6
	movs	r2, #0
	ldr	r3, [sp, #28]
	subs	r4, r3, r5
	ldr	r4, [sp, #32]
	sbcs	r4, r2
	blo	.LBB165_14
	ldr	r2, [sp, #16]
	adds	r4, r0, r2
	subs	r4, #8
	ldr	r2, [r4]
	lsls	r6, r2, #31
	beq	.LBB165_14
	ldr	r4, [r4, #4]
	ldr	r3, [sp, #20]
	ands	r2, r3
	ldr	r3, [sp, #24]
	ands	r4, r3
.LBB165_6:
	mov	r6, r2
	orrs	r6, r4
	beq	.LBB165_11
	lsrs	r6, r2, #3
	lsls	r3, r4, #29
	adds	r6, r6, r3
	lsrs	r3, r4, #3
	ldr	r4, [sp, #28]
	subs	r4, r4, r6
	ldr	r4, [sp, #32]
	sbcs	r4, r3
	blo	.LBB165_14
	adds	r2, r0, r2
	subs	r2, #8
	ldr	r4, [r2]
	lsls	r3, r4, #31
	beq	.LBB165_14
	str	r6, [sp, #32]
	ldr	r3, [sp, #64]
	str	r3, [sp, #28]
	ldr	r6, [r2, #4]
	ldr	r3, [sp, #20]
	ands	r4, r3
	ldr	r3, [sp, #24]
	ands	r6, r3
	cmp	r5, #0
	beq	.LBB165_12
	ldr	r3, [sp, #16]
	adds	r0, r0, r3
	subs	r0, #8
	ldr	r5, [sp, #8]
	orrs	r4, r5
	stm	r0!, {r4, r6}
	b	.LBB165_13
.LBB165_11:
	movs	r0, #4
	add	sp, #36
	pop	{r4, r5, r6, r7, pc}
.LBB165_12:
	mov	r7, r4
	mov	r1, r6
.LBB165_13:
	movs	r0, #0
	str	r0, [r2]
	str	r0, [r2, #4]
	ldr	r2, [sp, #12]
	str	r7, [r2]
	str	r1, [r2, #4]
	ldr	r1, [sp, #32]
	subs	r1, r1, #1
	ldr	r2, [sp, #28]
	str	r1, [r2]
	add	sp, #36
	pop	{r4, r5, r6, r7, pc}
.LBB165_14:
	ldr	r1, [sp, #4]
	str	r1, [sp]
	ldr	r2, [sp, #28]
	ldr	r3, [sp, #32]
	bl	ic_raw.table.RawTable.refusal_at.feecb86c9dd45d96
	add	sp, #36
	pop	{r4, r5, r6, r7, pc}
.Lfunc_end165:
	.size	ic_stack_remove_after, .Lfunc_end165-ic_stack_remove_after
	.cfi_endproc
	.section	.text.ic_stack_replace_after,"ax",%progbits
	.globl	ic_stack_replace_after
	.p2align	1
	.type	ic_stack_replace_after,%function
	.code	16
	.thumb_func
ic_stack_replace_after:
	.cfi_startproc
	push	{r4, r5, r6, r7, lr}
	.cfi_def_cfa_offset 20
	.cfi_offset lr, -4
	.cfi_offset r7, -8
	.cfi_offset r6, -12
	.cfi_offset r5, -16
	.cfi_offset r4, -20
	sub	sp, #68
	.cfi_def_cfa_offset 88
	mov	r4, r0
	str	r3, [sp, #60]
	str	r2, [sp, #44]
	str	r2, [sp, #56]
	movs	r0, #0
	str	r0, [sp, #52]
	movs	r1, #1
	cmp	r4, #0
	str	r1, [sp, #12]
	bne	.LBB166_2
	lsls	r1, r1, #12
	adds	r4, r4, r1
.LBB166_2:
	str	r4, [sp, #48]
	ldr	r1, [sp, #88]
	ldr	r2, [r1]
	str	r1, [sp, #20]
	ldr	r5, [r1, #4]
	movs	r1, #15
	str	r1, [sp, #40]
	ands	r5, r1
	movs	r1, #7
	bics	r2, r1
	mvns	r1, r1
	str	r1, [sp, #36]
	ldr	r1, [sp, #92]
	adds	r6, r1, #1
	lsls	r7, r6, #3
	str	r7, [sp, #32]
	ldr	r7, [sp, #96]
	str	r7, [sp, #28]
	str	r1, [sp, #8]
	cmp	r6, r1
	str	r2, [sp, #24]
	str	r5, [sp, #16]
	mov	r1, r5
	blo	.LBB166_6
	ldr	r1, [sp, #44]
	subs	r1, r1, r6
	mov	r1, r3
	sbcs	r1, r0
	blo	.LBB166_15
	ldr	r1, [sp, #32]
	adds	r1, r4, r1
	subs	r1, #8
	ldr	r2, [r1]
	lsls	r5, r2, #31
	beq	.LBB166_15
	ldr	r1, [r1, #4]
	ldr	r5, [sp, #36]
	ands	r2, r5
	ldr	r5, [sp, #40]
	ands	r1, r5
.LBB166_6:
	mov	r5, r2
	orrs	r5, r1
	beq	.LBB166_14
	lsrs	r5, r2, #3
	lsls	r7, r1, #29
	adds	r7, r5, r7
	lsrs	r1, r1, #3
	ldr	r5, [sp, #44]
	str	r7, [sp, #4]
	subs	r5, r5, r7
	mov	r5, r3
	sbcs	r5, r1
	blo	.LBB166_15
	adds	r7, r4, r2
	subs	r7, #8
	ldr	r2, [r7]
	lsls	r1, r2, #31
	beq	.LBB166_15
	str	r2, [sp]
	ldr	r1, [sp, #28]
	adds	r5, r1, #1
	bhs	.LBB166_15
	ldr	r1, [sp, #44]
	subs	r1, r1, r5
	sbcs	r3, r0
	blo	.LBB166_15
	lsls	r1, r5, #3
	adds	r3, r4, r1
	subs	r3, #8
	ldrb	r2, [r3]
	lsls	r2, r2, #31
	bne	.LBB166_15
	ldr	r2, [sp, #100]
	str	r2, [sp, #44]
	ldr	r2, [r7, #4]
	lsrs	r5, r5, #29
	cmp	r6, #0
	beq	.LBB166_16
	ldr	r6, [sp, #32]
	adds	r4, r4, r6
	subs	r4, #8
	ldr	r6, [sp, #12]
	orrs	r1, r6
	stm	r4!, {r1, r5}
	ldr	r5, [sp, #16]
	b	.LBB166_17
.LBB166_14:
	movs	r0, #4
	add	sp, #68
	pop	{r4, r5, r6, r7, pc}
.LBB166_15:
	add	r0, sp, #48
	ldr	r1, [sp, #8]
	ldr	r2, [sp, #28]
	bl	ic_raw.table.RawTable.refusal.feecb86c9dd45d96
	add	sp, #68
	pop	{r4, r5, r6, r7, pc}
.LBB166_16:
	str	r1, [sp, #24]
.LBB166_17:
	ldr	r1, [sp, #36]
	adds	r1, r1, #1
	ldr	r6, [sp, #40]
	adcs	r6, r0
	ldr	r4, [sp]
	ands	r4, r1
	ands	r2, r6
	str	r4, [r3]
	str	r2, [r3, #4]
	str	r0, [r7]
	str	r0, [r7, #4]
	ldr	r1, [sp, #20]
	ldr	r2, [sp, #24]
	stm	r1!, {r2, r5}
	ldr	r1, [sp, #4]
	subs	r1, r1, #1
	ldr	r2, [sp, #44]
	str	r1, [r2]
	add	sp, #68
	pop	{r4, r5, r6, r7, pc}
.Lfunc_end166:
	.size	ic_stack_replace_after, .Lfunc_end166-ic_stack_replace_after
	.cfi_endproc
	.section	.text.ic_stack_sort,"ax",%progbits
	.globl	ic_stack_sort
	.p2align	1
	.type	ic_stack_sort,%function
	.code	16
	.thumb_func
ic_stack_sort:
	.cfi_startproc
	push	{r4, r5, r6, r7, lr}
	.cfi_def_cfa_offset 20
	.cfi_offset lr, -4
	.cfi_offset r7, -8
	.cfi_offset r6, -12
	.cfi_offset r5, -16
	.cfi_offset r4, -20
	sub	sp, #116
	.cfi_def_cfa_offset 136
	ldr	r4, [sp, #148]
	str	r4, [sp, #84]
	ldr	r6, [sp, #144]
	str	r6, [sp, #80]
	movs	r5, #0
	str	r5, [sp, #76]
	str	r3, [sp, #44]
	str	r3, [sp, #68]
	str	r2, [sp, #40]
	str	r2, [sp, #64]
	str	r5, [sp, #60]
	movs	r1, #1
	str	r1, [sp, #28]
	lsls	r1, r1, #12
	ldr	r3, [sp, #136]
	cmp	r3, #0
	bne	.LBB167_2
	adds	r3, r3, r1
.LBB167_2:
	str	r3, [sp, #72]
	cmp	r0, #0
	str	r5, [sp, #32]
	bne	.LBB167_4
	adds	r0, r0, r1
.LBB167_4:
	str	r0, [sp, #36]
	str	r0, [sp, #56]
	ldr	r0, [sp, #40]
	str	r6, [sp, #20]
	subs	r1, r6, r0
	str	r4, [sp, #24]
	mov	r1, r4
	ldr	r0, [sp, #44]
	sbcs	r1, r0
	blo	.LBB167_12
	ldr	r2, [sp, #152]
	ldm	r2!, {r4, r5}
	movs	r0, #15
	ands	r5, r0
	movs	r1, #7
	bics	r4, r1
	mov	r3, r4
	subs	r2, #8
	orrs	r3, r5
	beq	.LBB167_16
	str	r5, [sp, #48]
	str	r4, [sp, #52]
	str	r2, [sp, #16]
	ldr	r3, [sp, #44]
	ldr	r2, [sp, #40]
	orrs	r3, r2
	beq	.LBB167_12
	mvns	r1, r1
	ldr	r5, [sp, #40]
	ldr	r3, [sp, #44]
	ldr	r4, [sp, #52]
	ldr	r7, [sp, #48]
.LBB167_8:
	lsrs	r6, r4, #3
	lsls	r2, r7, #29
	adds	r2, r6, r2
	lsrs	r6, r7, #3
	ldr	r7, [sp, #40]
	subs	r2, r7, r2
	ldr	r2, [sp, #44]
	sbcs	r2, r6
	blo	.LBB167_12
	ldr	r2, [sp, #36]
	adds	r7, r2, r4
	subs	r7, #8
	ldr	r4, [r7]
	lsls	r2, r4, #31
	beq	.LBB167_12
	ldr	r7, [r7, #4]
	ands	r4, r1
	ands	r7, r0
	mov	r2, r4
	orrs	r2, r7
	beq	.LBB167_13
	movs	r6, #0
	subs	r5, r5, #1
	sbcs	r3, r6
	mov	r6, r5
	orrs	r6, r3
	bne	.LBB167_8
.LBB167_12:
	ldr	r0, [sp, #40]
	ldr	r1, [sp, #44]
	ldr	r2, [sp, #20]
	ldr	r3, [sp, #24]
	bl	ic_raw.sort_calls.refusal.1b4d7615ba81168a
	add	sp, #116
	pop	{r4, r5, r6, r7, pc}
.LBB167_13:
	ldr	r2, [sp, #52]
	mov	r3, r2
	ldr	r4, [sp, #36]
	adds	r2, r4, r2
	subs	r2, #8
	ldr	r4, [r2]
	ldr	r5, [sp, #28]
	str	r5, [r2]
	ldr	r7, [r2, #4]
	movs	r5, #0
	str	r5, [sp, #36]
	str	r5, [r2, #4]
	ands	r7, r0
	ands	r4, r1
	mov	r0, r4
	orrs	r0, r7
	beq	.LBB167_17
	ldr	r6, [sp, #36]
	mov	r5, r6
	mov	r0, r3
	ldr	r1, [sp, #48]
.LBB167_15:
	str	r0, [sp, #52]
	str	r1, [sp, #48]
	str	r4, [sp]
	str	r7, [sp, #4]
	str	r5, [sp, #8]
	str	r6, [sp, #12]
	add	r4, sp, #88
	add	r7, sp, #56
	add	r2, sp, #72
	str	r2, [sp, #40]
	mov	r0, r4
	mov	r1, r7
	bl	ic_list_algorithms.sort.sort_front.07d679d1abf7571e
	ldrb	r0, [r4, #8]
	str	r0, [sp, #44]
	ldr	r2, [sp, #108]
	ldr	r4, [sp, #104]
	ldr	r0, [sp, #88]
	ldr	r1, [sp, #92]
	str	r0, [sp]
	str	r1, [sp, #4]
	mov	r0, r7
	mov	r7, r2
	ldr	r1, [sp, #40]
	ldr	r2, [sp, #52]
	ldr	r3, [sp, #48]
	bl	ic_list_algorithms.merge.merge_runs.07d679d1abf7571e
	adds	r5, r5, #1
	ldr	r2, [sp, #36]
	adcs	r6, r2
	ldr	r2, [sp, #44]
	cmp	r2, #1
	beq	.LBB167_15
	b	.LBB167_18
.LBB167_16:
	ldr	r0, [sp, #32]
	mov	r3, r0
	mov	r1, r0
	str	r3, [r2]
	str	r1, [r2, #4]
	add	sp, #116
	pop	{r4, r5, r6, r7, pc}
.LBB167_17:
	mov	r0, r3
	ldr	r1, [sp, #48]
.LBB167_18:
	mov	r3, r0
	ldr	r0, [sp, #32]
	ldr	r2, [sp, #16]
	str	r3, [r2]
	str	r1, [r2, #4]
	add	sp, #116
	pop	{r4, r5, r6, r7, pc}
.Lfunc_end167:
	.size	ic_stack_sort, .Lfunc_end167-ic_stack_sort
	.cfi_endproc
	.section	.text.ic_stack_splice_after,"ax",%progbits
	.globl	ic_stack_splice_after
	.p2align	1
	.type	ic_stack_splice_after,%function
	.code	16
	.thumb_func
ic_stack_splice_after:
	.cfi_startproc
	push	{r4, r5, r6, r7, lr}
	.cfi_def_cfa_offset 20
	.cfi_offset lr, -4
	.cfi_offset r7, -8
	.cfi_offset r6, -12
	.cfi_offset r5, -16
	.cfi_offset r4, -20
	sub	sp, #76
	.cfi_def_cfa_offset 96
	str	r3, [sp, #68]
	str	r2, [sp, #64]
	str	r0, [sp, #72]
	ldr	r0, [sp, #104]
	ldr	r3, [r0]
	str	r0, [sp, #20]
	ldr	r5, [r0, #4]
	movs	r2, #15
	ands	r5, r2
	movs	r1, #7
	mvns	r1, r1
	ands	r3, r1
	mov	r0, r3
	orrs	r0, r5
	rsbs	r4, r0, #0
	adcs	r4, r0
	str	r4, [sp, #32]
	ldr	r7, [sp, #96]
	ldm	r7!, {r4, r6}
	str	r2, [sp, #60]
	ands	r6, r2
	str	r6, [sp, #48]
	str	r5, [sp, #28]
	eors	r6, r5
	str	r1, [sp, #56]
	ands	r4, r1
	ldr	r1, [sp, #72]
	str	r4, [sp, #52]
	str	r3, [sp, #24]
	eors	r4, r3
	orrs	r4, r6
	movs	r2, #1
	subs	r7, #8
	cmp	r1, #0
	str	r7, [sp, #16]
	str	r2, [sp, #36]
	bne	.LBB168_2
	lsls	r6, r2, #12
	adds	r1, r1, r6
	str	r1, [sp, #72]
.LBB168_2:
	ldr	r1, [sp, #100]
	str	r1, [sp, #44]
	cmp	r4, #0
	bne	.LBB168_4
	cmp	r0, #0
	bne	.LBB168_18
.LBB168_4:
	ldr	r0, [sp, #44]
	adds	r1, r0, #1
	lsls	r0, r1, #3
	str	r0, [sp, #12]
	str	r1, [sp, #40]
	cmp	r1, #0
	ldr	r5, [sp, #52]
	ldr	r0, [sp, #48]
	beq	.LBB168_8
	movs	r3, #0
	ldr	r2, [sp, #64]
	ldr	r0, [sp, #40]
	subs	r4, r2, r0
	ldr	r4, [sp, #68]
	sbcs	r4, r3
	blo	.LBB168_18
	ldr	r0, [sp, #72]
	ldr	r1, [sp, #12]
	adds	r3, r0, r1
	subs	r3, #8
	ldr	r0, [r3]
	lsls	r4, r0, #31
	beq	.LBB168_18
	mov	r5, r0
	ldr	r0, [r3, #4]
	ldr	r1, [sp, #56]
	ands	r5, r1
	ldr	r2, [sp, #60]
	ands	r0, r2
.LBB168_8:
	mov	r3, r5
	orrs	r3, r0
	str	r0, [sp, #8]
	beq	.LBB168_12
	lsrs	r3, r5, #3
	lsls	r4, r0, #29
	adds	r3, r3, r4
	lsrs	r4, r0, #3
	ldr	r2, [sp, #64]
	subs	r3, r2, r3
	ldr	r3, [sp, #68]
	sbcs	r3, r4
	blo	.LBB168_18
	mov	r1, r5
	ldr	r0, [sp, #72]
	adds	r3, r0, r1
	subs	r3, #8
	ldrb	r4, [r3]
	ldr	r1, [sp, #36]
	ands	r4, r1
	rsbs	r3, r4, #0
	adcs	r3, r4
	ldr	r0, [sp, #32]
	orrs	r0, r3
	beq	.LBB168_13
	cmp	r3, #0
	beq	.LBB168_23
	b	.LBB168_18
.LBB168_12:
	ldr	r0, [sp, #32]
	cmp	r0, #0
	bne	.LBB168_23
.LBB168_13:
	str	r5, [sp, #4]
	ldr	r2, [sp, #68]
	mov	r3, r2
	ldr	r5, [sp, #64]
	orrs	r3, r5
	mov	r3, r2
	ldr	r6, [sp, #24]
	ldr	r4, [sp, #28]
	beq	.LBB168_18
.LBB168_14:
	lsrs	r7, r6, #3
	lsls	r2, r4, #29
	adds	r2, r7, r2
	lsrs	r4, r4, #3
	ldr	r7, [sp, #64]
	subs	r2, r7, r2
	ldr	r2, [sp, #68]
	sbcs	r2, r4
	blo	.LBB168_18
	ldr	r0, [sp, #72]
	adds	r7, r0, r6
	subs	r7, #8
	ldr	r6, [r7]
	lsls	r2, r6, #31
	beq	.LBB168_18
	ldr	r4, [r7, #4]
	ldr	r1, [sp, #56]
	ands	r6, r1
	ldr	r2, [sp, #60]
	ands	r4, r2
	mov	r2, r6
	orrs	r2, r4
	beq	.LBB168_19
	movs	r7, #0
	subs	r5, r5, #1
	sbcs	r3, r7
	mov	r7, r5
	orrs	r7, r3
	bne	.LBB168_14
.LBB168_18:
	ldr	r0, [sp, #44]
	str	r0, [sp]
	ldr	r0, [sp, #72]
	ldr	r2, [sp, #64]
	ldr	r3, [sp, #68]
	bl	ic_raw.table.RawTable.refusal_at.feecb86c9dd45d96
	add	sp, #76
	pop	{r4, r5, r6, r7, pc}
.LBB168_19:
	ldr	r0, [sp, #40]
	cmp	r0, #0
	ldr	r0, [sp, #72]
	ldr	r2, [sp, #36]
	beq	.LBB168_21
	ldr	r1, [sp, #12]
	adds	r0, r0, r1
	subs	r0, #8
	ldr	r1, [sp, #24]
	orrs	r1, r2
	str	r1, [r0]
	ldr	r1, [sp, #28]
	str	r1, [r0, #4]
	b	.LBB168_22
.LBB168_21:
	ldr	r0, [sp, #24]
	str	r0, [sp, #52]
	ldr	r0, [sp, #28]
	str	r0, [sp, #48]
.LBB168_22:
	ldr	r0, [sp, #4]
	ldr	r1, [sp, #8]
	orrs	r0, r2
	stm	r7!, {r0, r1}
.LBB168_23:
	ldr	r0, [sp, #16]
	ldr	r1, [sp, #52]
	str	r1, [r0]
	ldr	r1, [sp, #48]
	str	r1, [r0, #4]
	movs	r0, #0
	ldr	r1, [sp, #20]
	str	r0, [r1]
	str	r0, [r1, #4]
	add	sp, #76
	pop	{r4, r5, r6, r7, pc}
.Lfunc_end168:
	.size	ic_stack_splice_after, .Lfunc_end168-ic_stack_splice_after
	.cfi_endproc
	.section	.text.ic_stack_split_after,"ax",%progbits
	.globl	ic_stack_split_after
	.p2align	1
	.type	ic_stack_split_after,%function
	.code	16
	.thumb_func
ic_stack_split_after:
	.cfi_startproc
	push	{r4, r5, r6, r7, lr}
	.cfi_def_cfa_offset 20
	.cfi_offset lr, -4
	.cfi_offset r7, -8
	.cfi_offset r6, -12
	.cfi_offset r5, -16
	.cfi_offset r4, -20
	sub	sp, #36
	.cfi_def_cfa_offset 56
	str	r3, [sp, #24]
	str	r2, [sp, #20]
	ldr	r2, [sp, #64]
	ldr	r1, [r2]
	str	r2, [sp, #8]
	ldr	r2, [r2, #4]
	movs	r3, #15
	str	r3, [sp, #28]
	ands	r2, r3
	movs	r3, #7
	mvns	r5, r3
	ands	r1, r5
	orrs	r1, r2
	movs	r2, #1
	cmp	r0, #0
	str	r2, [sp, #4]
	bne	.LBB169_2
	lsls	r2, r2, #12
	adds	r0, r0, r2
.LBB169_2:
	str	r0, [sp, #32]
	ldr	r0, [sp, #60]
	str	r0, [sp, #16]
	cmp	r1, #0
	bne	.LBB169_14
	ldr	r6, [sp, #56]
	ldm	r6!, {r2, r3}
	ldr	r0, [sp, #28]
	ands	r3, r0
	ands	r2, r5
	ldr	r0, [sp, #16]
	adds	r4, r0, #1
	lsls	r1, r4, #3
	str	r1, [sp, #12]
	subs	r6, #8
	cmp	r4, r0
	mov	r7, r2
	mov	r1, r3
	blo	.LBB169_7
	movs	r1, #0
	ldr	r0, [sp, #20]
	subs	r7, r0, r4
	ldr	r7, [sp, #24]
	sbcs	r7, r1
	blo	.LBB169_14
	ldr	r0, [sp, #32]
	ldr	r1, [sp, #12]
	adds	r1, r0, r1
	subs	r1, #8
	ldr	r7, [r1]
	lsls	r0, r7, #31
	beq	.LBB169_14
	ldr	r1, [r1, #4]
	ands	r7, r5
	ldr	r0, [sp, #28]
	ands	r1, r0
.LBB169_7:
	mov	r0, r7
	orrs	r0, r1
	beq	.LBB169_10
	lsrs	r0, r7, #3
	lsls	r5, r1, #29
	adds	r0, r0, r5
	lsrs	r5, r1, #3
	str	r5, [sp, #28]
	ldr	r5, [sp, #20]
	subs	r0, r5, r0
	ldr	r0, [sp, #24]
	ldr	r5, [sp, #28]
	sbcs	r0, r5
	blo	.LBB169_14
	ldr	r0, [sp, #32]
	adds	r0, r0, r7
	subs	r0, #8
	ldrb	r0, [r0]
	lsls	r0, r0, #31
	beq	.LBB169_14
.LBB169_10:
	movs	r5, #0
	cmp	r4, #0
	beq	.LBB169_12
	ldr	r0, [sp, #32]
	ldr	r4, [sp, #12]
	adds	r0, r0, r4
	subs	r0, #8
	movs	r4, #0
	str	r4, [sp, #32]
	ldr	r4, [sp, #4]
	str	r4, [r0]
	ldr	r4, [sp, #32]
	str	r4, [r0, #4]
	b	.LBB169_13
.LBB169_12:
	mov	r2, r5
	mov	r3, r5
.LBB169_13:
	stm	r6!, {r2, r3}
	ldr	r0, [sp, #8]
	str	r7, [r0]
	str	r1, [r0, #4]
	mov	r0, r5
	add	sp, #36
	pop	{r4, r5, r6, r7, pc}
.LBB169_14:
	ldr	r0, [sp, #16]
	str	r0, [sp]
	ldr	r0, [sp, #32]
	ldr	r2, [sp, #20]
	ldr	r3, [sp, #24]
	bl	ic_raw.table.RawTable.refusal_at.feecb86c9dd45d96
	mov	r5, r0
	mov	r0, r5
	add	sp, #36
	pop	{r4, r5, r6, r7, pc}
.Lfunc_end169:
	.size	ic_stack_split_after, .Lfunc_end169-ic_stack_split_after
	.cfi_endproc
	.section	.text.ic_tree_append,"ax",%progbits
	.globl	ic_tree_append
	.p2align	1
	.type	ic_tree_append,%function
	.code	16
	.thumb_func
ic_tree_append:
	.cfi_startproc
	push	{r4, r5, r6, r7, lr}
	.cfi_def_cfa_offset 20
	.cfi_offset lr, -4
	.cfi_offset r7, -8
	.cfi_offset r6, -12
	.cfi_offset r5, -16
	.cfi_offset r4, -20
	sub	sp, #196
	.cfi_def_cfa_offset 216
	str	r3, [sp, #164]
	str	r2, [sp, #160]
	movs	r1, #0
	str	r1, [sp, #124]
	str	r1, [sp, #156]
	movs	r1, #1
	cmp	r0, #0
	str	r1, [sp, #108]
	bne	.LBB170_2
	lsls	r1, r1, #12
	adds	r0, r0, r1
.LBB170_2:
	str	r0, [sp, #152]
	ldr	r0, [sp, #220]
	ldr	r6, [r0]
	str	r0, [sp, #112]
	ldr	r2, [r0, #4]
	movs	r1, #15
	ands	r2, r1
	movs	r0, #7
	mvns	r0, r0
	ands	r6, r0
	mov	r7, r6
	orrs	r7, r2
	rsbs	r3, r7, #0
	adcs	r3, r7
	str	r3, [sp, #136]
	ldr	r3, [sp, #216]
	ldm	r3!, {r4, r5}
	str	r1, [sp, #148]
	ands	r5, r1
	str	r0, [sp, #144]
	ands	r4, r0
	movs	r0, #5
	str	r0, [sp, #140]
	subs	r3, #8
	cmp	r7, #0
	beq	.LBB170_5
	mov	r0, r4
	eors	r0, r6
	mov	r1, r5
	eors	r1, r2
	orrs	r1, r0
	bne	.LBB170_5
.LBB170_4:
	ldr	r0, [sp, #140]
	add	sp, #196
	pop	{r4, r5, r6, r7, pc}
.LBB170_5:
	str	r2, [sp, #120]
	str	r6, [sp, #116]
	str	r3, [sp, #96]
	mov	r0, r5
	movs	r5, #66
	ldr	r6, [sp, #124]
	str	r6, [sp, #16]
	str	r6, [sp, #20]
	str	r5, [sp, #24]
	str	r4, [sp]
	str	r0, [sp, #4]
	str	r6, [sp, #8]
	str	r4, [sp, #92]
	mov	r2, r4
	str	r0, [sp, #88]
	orrs	r2, r0
	subs	r0, r2, #1
	sbcs	r2, r0
	add	r4, sp, #168
	add	r1, sp, #152
	mov	r0, r4
	str	r2, [sp, #84]
	bl	ic_check.tree.check_below.ffc36cde30076884
	ldrb	r0, [r4]
	cmp	r0, #1
	bne	.LBB170_4
	ldrb	r0, [r4, #20]
	cmp	r0, #1
	bne	.LBB170_4
	str	r6, [sp, #16]
	str	r6, [sp, #20]
	str	r5, [sp, #24]
	ldr	r0, [sp, #116]
	str	r0, [sp]
	mov	r0, r6
	ldr	r6, [sp, #120]
	str	r6, [sp, #4]
	str	r0, [sp, #8]
	subs	r0, r7, #1
	sbcs	r7, r0
	add	r4, sp, #168
	add	r1, sp, #152
	mov	r0, r4
	mov	r2, r7
	bl	ic_check.tree.check_below.ffc36cde30076884
	ldrb	r0, [r4]
	cmp	r0, #1
	bne	.LBB170_4
	ldrb	r0, [r4, #20]
	cmp	r0, #1
	ldr	r0, [sp, #140]
	beq	.LBB170_9
	bl	.LBB170_102
.LBB170_9:
	ldr	r0, [sp, #136]
	cmp	r0, #0
	bne	.LBB170_15
	ldr	r1, [sp, #152]
	mov	r0, r1
	subs	r0, #24
	str	r0, [sp, #132]
	ldr	r0, [sp, #116]
	str	r0, [sp, #136]
	str	r6, [sp, #128]
.LBB170_11:
	ldr	r0, [sp, #136]
	lsrs	r6, r0, #3
	movs	r0, #24
	str	r0, [sp, #140]
	muls	r6, r0, r6
	ldr	r4, [sp, #132]
	ldr	r2, [r4, r6]
	mov	r0, r2
	ldr	r3, [sp, #144]
	ands	r0, r3
	adds	r3, r4, r6
	ldr	r3, [r3, #4]
	ldr	r4, [sp, #148]
	ands	r3, r4
	mov	r4, r0
	orrs	r4, r3
	beq	.LBB170_17
	lsrs	r6, r2, #3
	cmp	r5, #0
	beq	.LBB170_16
	ldr	r2, [sp, #140]
	muls	r6, r2, r6
	ldr	r7, [sp, #132]
	ldr	r2, [r7, r6]
	ldr	r4, [sp, #144]
	ands	r2, r4
	adds	r4, r7, r6
	ldr	r4, [r4, #4]
	ldr	r7, [sp, #148]
	ands	r4, r7
	mov	r7, r2
	orrs	r7, r4
	str	r0, [sp, #136]
	str	r3, [sp, #128]
	beq	.LBB170_17
	subs	r5, r5, #2
	str	r2, [sp, #136]
	str	r4, [sp, #128]
	b	.LBB170_11
.LBB170_15:
	ldr	r3, [sp, #112]
	ldr	r4, [sp, #96]
	ldr	r1, [sp, #92]
	ldr	r2, [sp, #88]
	b	.LBB170_101
.LBB170_16:
	ldr	r2, [sp, #140]
	muls	r6, r2, r6
	str	r0, [sp, #136]
	str	r3, [sp, #128]
.LBB170_17:
	adds	r0, r1, r6
	mov	r2, r0
	subs	r2, #24
	ldm	r2!, {r3, r7}
	ldr	r5, [sp, #148]
	ands	r7, r5
	ldr	r4, [sp, #144]
	ands	r3, r4
	str	r3, [sp, #76]
	mov	r2, r3
	str	r7, [sp, #72]
	orrs	r2, r7
	mov	r3, r0
	subs	r3, #16
	ldr	r7, [r3]
	ldr	r3, [r3, #4]
	str	r3, [sp, #100]
	mov	r3, r4
	ldr	r4, [sp, #100]
	ands	r4, r5
	ands	r7, r3
	cmp	r2, #0
	str	r1, [sp, #80]
	beq	.LBB170_24
	mov	r2, r7
	str	r4, [sp, #100]
	orrs	r2, r4
	ldr	r4, [sp, #140]
	beq	.LBB170_25
	movs	r0, #66
	str	r0, [sp, #104]
.LBB170_20:
	lsrs	r4, r7, #3
	ldr	r0, [sp, #140]
	muls	r4, r0, r4
	ldr	r1, [sp, #132]
	ldr	r2, [r1, r4]
	mov	r0, r2
	ands	r0, r3
	adds	r3, r1, r4
	mov	r1, r7
	ldr	r7, [r3, #4]
	ldr	r3, [sp, #148]
	ands	r7, r3
	mov	r3, r0
	orrs	r3, r7
	beq	.LBB170_34
	ldr	r1, [sp, #104]
	lsrs	r4, r2, #3
	cmp	r1, #0
	beq	.LBB170_33
	ldr	r2, [sp, #140]
	muls	r4, r2, r4
	ldr	r1, [sp, #132]
	ldr	r5, [r1, r4]
	ldr	r2, [sp, #144]
	ands	r5, r2
	adds	r3, r1, r4
	ldr	r3, [r3, #4]
	ldr	r2, [sp, #148]
	ands	r3, r2
	mov	r2, r5
	orrs	r2, r3
	mov	r1, r0
	str	r7, [sp, #100]
	beq	.LBB170_34
	ldr	r0, [sp, #104]
	subs	r0, r0, #2
	str	r0, [sp, #104]
	mov	r7, r5
	str	r3, [sp, #100]
	ldr	r3, [sp, #144]
	b	.LBB170_20
.LBB170_24:
	str	r7, [sp, #76]
	str	r4, [sp, #72]
	ldr	r4, [sp, #140]
.LBB170_25:
	subs	r0, #8
	ldr	r2, [r0]
	ldr	r1, [r0, #4]
	ldr	r6, [sp, #148]
	ands	r1, r6
	mov	r0, r2
	ands	r0, r3
	str	r0, [sp, #132]
	str	r1, [sp, #104]
	orrs	r0, r1
	subs	r1, r0, #1
	mov	r7, r0
	sbcs	r7, r1
	movs	r5, #0
	cmp	r0, #0
	str	r2, [sp, #68]
	beq	.LBB170_28
	lsrs	r0, r2, #3
	muls	r0, r4, r0
	ldr	r1, [sp, #80]
	adds	r1, r1, r0
	mov	r0, r1
	subs	r0, #24
	ldr	r2, [r0]
	mov	r4, r3
	ldr	r3, [r0, #4]
	ands	r3, r6
	ldr	r6, [sp, #128]
	eors	r3, r6
	mov	r6, r2
	ands	r6, r4
	ldr	r4, [sp, #136]
	eors	r6, r4
	orrs	r6, r3
	bne	.LBB170_29
	movs	r1, #1
	ands	r2, r1
	ldr	r3, [sp, #76]
	orrs	r2, r3
	str	r2, [r0]
	ldr	r2, [sp, #72]
	str	r2, [r0, #4]
	ldr	r4, [sp, #140]
	ldr	r1, [sp, #116]
	ldr	r0, [sp, #120]
	mov	r6, r5
	b	.LBB170_30
.LBB170_28:
	ldr	r3, [sp, #76]
	mov	r1, r3
	ldr	r2, [sp, #72]
	mov	r0, r2
	mov	r6, r5
	b	.LBB170_30
.LBB170_29:
	subs	r1, #16
	ldr	r3, [sp, #76]
	str	r3, [r1]
	ldr	r2, [sp, #72]
	str	r2, [r1, #4]
	movs	r6, #1
	ldr	r4, [sp, #140]
	ldr	r1, [sp, #116]
	ldr	r0, [sp, #120]
.LBB170_30:
	orrs	r2, r3
	beq	.LBB170_32
	str	r0, [sp, #120]
	lsrs	r0, r3, #3
	muls	r4, r0, r4
	ldr	r0, [sp, #152]
	adds	r0, r0, r4
	subs	r0, #8
	mov	r5, r1
	ldr	r1, [r0]
	movs	r2, #1
	ands	r1, r2
	ldr	r3, [sp, #132]
	orrs	r1, r3
	str	r1, [r0]
	ldr	r1, [sp, #104]
	str	r1, [r0, #4]
	ldr	r0, [sp, #152]
	adds	r0, r0, r4
	subs	r0, #8
	ldr	r1, [r0]
	orrs	r1, r2
	str	r1, [r0]
	mov	r1, r5
	b	.LBB170_97
.LBB170_32:
	str	r7, [sp, #76]
	str	r1, [sp, #80]
	str	r0, [sp, #100]
	b	.LBB170_59
.LBB170_33:
	ldr	r1, [sp, #140]
	muls	r4, r1, r4
	mov	r1, r0
	str	r7, [sp, #100]
.LBB170_34:
	str	r1, [sp, #72]
	str	r4, [sp, #60]
	ldr	r0, [sp, #80]
	adds	r0, r0, r4
	mov	r2, r0
	subs	r2, #24
	ldm	r2!, {r1, r5}
	ldr	r3, [sp, #148]
	ands	r5, r3
	ldr	r4, [sp, #144]
	ands	r1, r4
	mov	r2, r1
	orrs	r2, r5
	bne	.LBB170_36
	mov	r2, r0
	subs	r2, #16
	ldm	r2!, {r1, r5}
	ands	r5, r3
	ands	r1, r4
.LBB170_36:
	subs	r0, #8
	ldr	r7, [r0]
	ldr	r2, [r0, #4]
	ands	r2, r3
	mov	r0, r7
	ands	r0, r4
	str	r0, [sp, #132]
	str	r2, [sp, #104]
	orrs	r0, r2
	subs	r2, r0, #1
	mov	r3, r0
	sbcs	r3, r2
	str	r3, [sp, #76]
	cmp	r0, #0
	ldr	r4, [sp, #100]
	str	r7, [sp, #68]
	beq	.LBB170_39
	lsrs	r0, r7, #3
	ldr	r2, [sp, #140]
	muls	r0, r2, r0
	ldr	r2, [sp, #80]
	adds	r0, r2, r0
	str	r0, [sp, #80]
	subs	r0, #24
	ldr	r7, [r0]
	ldr	r3, [r0, #4]
	ldr	r2, [sp, #148]
	ands	r3, r2
	eors	r3, r4
	mov	r2, r7
	ldr	r4, [sp, #144]
	ands	r2, r4
	ldr	r4, [sp, #72]
	eors	r2, r4
	orrs	r2, r3
	bne	.LBB170_40
	movs	r2, #1
	ands	r7, r2
	orrs	r7, r1
	str	r7, [r0]
	str	r5, [r0, #4]
	b	.LBB170_41
.LBB170_39:
	str	r1, [sp, #116]
	str	r5, [sp, #120]
	b	.LBB170_42
.LBB170_40:
	ldr	r0, [sp, #80]
	subs	r0, #16
	stm	r0!, {r1, r5}
	movs	r0, #1
	str	r0, [sp, #124]
.LBB170_41:
	ldr	r4, [sp, #100]
.LBB170_42:
	orrs	r5, r1
	ldr	r7, [sp, #72]
	beq	.LBB170_44
	lsrs	r0, r1, #3
	ldr	r1, [sp, #140]
	muls	r0, r1, r0
	ldr	r1, [sp, #152]
	adds	r1, r1, r0
	subs	r1, #8
	ldr	r2, [r1]
	ldr	r3, [sp, #108]
	ands	r2, r3
	ldr	r5, [sp, #132]
	orrs	r2, r5
	str	r2, [r1]
	ldr	r2, [sp, #104]
	str	r2, [r1, #4]
	ldr	r1, [sp, #152]
	adds	r0, r1, r0
	subs	r0, #8
	ldr	r1, [r0]
	orrs	r1, r3
	str	r1, [r0]
	movs	r0, #0
	str	r0, [sp, #68]
.LBB170_44:
	mov	r0, r7
	ldr	r1, [sp, #136]
	eors	r0, r1
	mov	r1, r4
	ldr	r2, [sp, #128]
	eors	r1, r2
	orrs	r1, r0
	bne	.LBB170_46
	ldr	r0, [sp, #116]
	str	r0, [sp, #80]
	ldr	r0, [sp, #120]
	str	r0, [sp, #100]
	b	.LBB170_58
.LBB170_46:
	ldr	r0, [sp, #152]
	adds	r1, r0, r6
	mov	r2, r1
	subs	r2, #8
	ldm	r2!, {r3, r6}
	ldr	r5, [sp, #148]
	ands	r6, r5
	str	r3, [sp, #48]
	mov	r2, r3
	ldr	r3, [sp, #144]
	ands	r2, r3
	str	r2, [sp, #36]
	str	r6, [sp, #40]
	orrs	r2, r6
	mov	r3, r1
	subs	r3, #16
	ldr	r6, [r3]
	str	r6, [sp, #44]
	ldr	r3, [r3, #4]
	str	r3, [sp, #64]
	ldr	r3, [sp, #144]
	subs	r1, #24
	ldr	r6, [r1]
	ldr	r1, [r1, #4]
	ands	r1, r5
	str	r1, [sp, #56]
	str	r6, [sp, #32]
	mov	r1, r6
	ands	r1, r3
	str	r1, [sp, #52]
	cmp	r2, #0
	str	r7, [sp, #80]
	str	r4, [sp, #100]
	beq	.LBB170_51
	ldr	r1, [sp, #48]
	lsrs	r2, r1, #3
	ldr	r1, [sp, #140]
	muls	r2, r1, r2
	adds	r6, r0, r2
	mov	r0, r6
	subs	r0, #24
	ldr	r2, [r0]
	mov	r1, r3
	ldr	r3, [r0, #4]
	ands	r3, r5
	ldr	r5, [sp, #128]
	eors	r3, r5
	mov	r7, r2
	ands	r7, r1
	ldr	r1, [sp, #136]
	eors	r7, r1
	orrs	r7, r3
	bne	.LBB170_49
	ldr	r1, [sp, #108]
	ands	r2, r1
	movs	r3, #0
	ldr	r7, [sp, #72]
	adds	r2, r2, r7
	str	r2, [r0]
	adcs	r3, r4
	str	r3, [r0, #4]
	b	.LBB170_50
.LBB170_49:
	subs	r6, #16
	ldr	r7, [sp, #72]
	str	r7, [r6]
	str	r4, [r6, #4]
.LBB170_50:
	ldr	r0, [sp, #116]
	str	r0, [sp, #80]
	ldr	r0, [sp, #120]
	str	r0, [sp, #100]
	ldr	r3, [sp, #144]
	ldr	r5, [sp, #148]
.LBB170_51:
	ldr	r0, [sp, #64]
	ands	r0, r5
	mov	r5, r0
	ldr	r6, [sp, #44]
	ands	r6, r3
	ldr	r0, [sp, #52]
	ldr	r1, [sp, #56]
	orrs	r0, r1
	ldr	r0, [sp, #152]
	beq	.LBB170_53
	ldr	r1, [sp, #32]
	lsrs	r2, r1, #3
	ldr	r1, [sp, #140]
	muls	r2, r1, r2
	adds	r0, r0, r2
	subs	r0, #8
	ldr	r2, [r0]
	ldr	r1, [sp, #108]
	ands	r2, r1
	movs	r3, #0
	adds	r2, r2, r7
	str	r2, [r0]
	adcs	r3, r4
	str	r3, [r0, #4]
	ldr	r0, [sp, #152]
.LBB170_53:
	mov	r2, r6
	str	r5, [sp, #64]
	orrs	r2, r5
	beq	.LBB170_55
	ldr	r1, [sp, #44]
	lsrs	r2, r1, #3
	ldr	r1, [sp, #140]
	muls	r2, r1, r2
	adds	r0, r0, r2
	subs	r0, #8
	ldr	r2, [r0]
	ldr	r3, [sp, #108]
	ands	r2, r3
	movs	r5, #0
	adds	r2, r2, r7
	str	r2, [r0]
	adcs	r5, r4
	str	r5, [r0, #4]
	ldr	r0, [sp, #152]
	b	.LBB170_56
.LBB170_55:
	ldr	r3, [sp, #108]
.LBB170_56:
	ldr	r5, [sp, #60]
	adds	r0, r0, r5
	subs	r0, #24
	ldr	r2, [r0]
	ands	r2, r3
	ldr	r1, [sp, #52]
	orrs	r2, r1
	str	r2, [r0]
	ldr	r1, [sp, #56]
	str	r1, [r0, #4]
	ldr	r0, [sp, #152]
	adds	r0, r0, r5
	subs	r0, #16
	str	r6, [r0]
	ldr	r1, [sp, #64]
	str	r1, [r0, #4]
	ldr	r0, [sp, #152]
	adds	r0, r0, r5
	subs	r0, #8
	ldr	r1, [r0]
	ands	r1, r3
	ldr	r2, [sp, #36]
	orrs	r1, r2
	str	r1, [r0]
	ldr	r1, [sp, #40]
	str	r1, [r0, #4]
	ldr	r2, [sp, #48]
	ands	r2, r3
	ldr	r0, [sp, #152]
	adds	r0, r0, r5
	subs	r0, #8
	ldr	r1, [r0]
	bics	r1, r3
	adds	r1, r1, r2
	str	r1, [r0]
	ldr	r0, [sp, #132]
	ldr	r1, [sp, #136]
	eors	r0, r1
	ldr	r1, [sp, #104]
	ldr	r2, [sp, #128]
	eors	r1, r2
	orrs	r1, r0
	bne	.LBB170_58
	str	r3, [sp, #76]
	str	r7, [sp, #132]
	str	r4, [sp, #104]
.LBB170_58:
	ldr	r4, [sp, #140]
	ldr	r6, [sp, #124]
.LBB170_59:
	ldr	r0, [sp, #68]
	lsls	r0, r0, #31
	bne	.LBB170_60
	b	.LBB170_95
.LBB170_60:
	ldr	r0, [sp, #76]
	cmp	r0, #0
	bne	.LBB170_61
	b	.LBB170_95
.LBB170_61:
	movs	r3, #67
	ldr	r2, [sp, #152]
	mov	r7, r4
.LBB170_62:
	str	r3, [sp, #76]
	ldr	r0, [sp, #132]
	lsrs	r0, r0, #3
	muls	r0, r7, r0
	str	r0, [sp, #124]
	mov	r1, r6
	mov	r3, r2
	adds	r6, r2, r0
	lsls	r0, r1, #31
	beq	.LBB170_66
	mov	r0, r6
	subs	r0, #24
	ldm	r0!, {r2, r5}
	ldr	r1, [sp, #148]
	ands	r5, r1
	mov	r4, r2
	ldr	r1, [sp, #144]
	ands	r4, r1
	mov	r1, r4
	str	r5, [sp, #72]
	subs	r0, #8
	orrs	r1, r5
	bne	.LBB170_64
	b	.LBB170_95
.LBB170_64:
	lsrs	r7, r2, #3
	ldr	r1, [sp, #140]
	muls	r7, r1, r7
	adds	r5, r3, r7
	mov	r1, r5
	subs	r1, #8
	ldr	r1, [r1]
	lsls	r1, r1, #31
	beq	.LBB170_69
	ldr	r1, [sp, #80]
	ldr	r0, [sp, #100]
	str	r0, [sp, #120]
	ldr	r6, [sp, #148]
	mov	r5, r3
	ldr	r2, [sp, #140]
	b	.LBB170_81
.LBB170_66:
	mov	r0, r6
	subs	r0, #16
	ldm	r0!, {r4, r5}
	ldr	r2, [sp, #148]
	ands	r5, r2
	mov	r1, r4
	ldr	r2, [sp, #144]
	ands	r1, r2
	str	r1, [sp, #108]
	str	r5, [sp, #72]
	subs	r0, #8
	orrs	r1, r5
	bne	.LBB170_67
	b	.LBB170_95
.LBB170_67:
	lsrs	r1, r4, #3
	ldr	r2, [sp, #140]
	muls	r1, r2, r1
	adds	r5, r3, r1
	mov	r2, r5
	subs	r2, #8
	ldr	r2, [r2]
	lsls	r2, r2, #31
	beq	.LBB170_74
	ldr	r1, [sp, #80]
	ldr	r0, [sp, #100]
	str	r0, [sp, #120]
	ldr	r6, [sp, #148]
	ldr	r2, [sp, #108]
	mov	r4, r3
	ldr	r3, [sp, #140]
	b	.LBB170_88
.LBB170_69:
	str	r4, [sp, #68]
	subs	r5, #16
	ldr	r1, [r5, #4]
	ldr	r3, [sp, #148]
	ands	r1, r3
	str	r1, [r0, #4]
	movs	r3, #1
	ands	r2, r3
	ldr	r4, [r5]
	str	r4, [sp, #120]
	ldr	r5, [sp, #144]
	ands	r4, r5
	orrs	r2, r4
	str	r2, [r0]
	orrs	r4, r1
	subs	r6, #8
	ldm	r6!, {r2, r5}
	mov	r6, r3
	cmp	r4, #0
	ldr	r4, [sp, #140]
	beq	.LBB170_71
	ldr	r0, [sp, #120]
	lsrs	r0, r0, #3
	muls	r0, r4, r0
	ldr	r1, [sp, #152]
	adds	r0, r1, r0
	subs	r0, #8
	ldr	r1, [sp, #104]
	str	r1, [r0, #4]
	ldr	r1, [r0]
	ands	r1, r6
	ldr	r3, [sp, #132]
	orrs	r1, r3
	str	r1, [r0]
.LBB170_71:
	ldr	r0, [sp, #148]
	ands	r5, r0
	mov	r0, r2
	ldr	r1, [sp, #144]
	ands	r0, r1
	ldr	r1, [sp, #152]
	adds	r1, r1, r7
	subs	r1, #8
	ldr	r3, [r1]
	ands	r3, r6
	orrs	r3, r0
	stm	r1!, {r3, r5}
	ldr	r1, [sp, #152]
	adds	r1, r1, r7
	subs	r1, #8
	ldr	r3, [r1]
	orrs	r3, r6
	str	r3, [r1]
	orrs	r0, r5
	ldr	r4, [sp, #68]
	mov	r0, r4
	mov	r5, r6
	ldr	r6, [sp, #72]
	str	r6, [sp, #120]
	beq	.LBB170_80
	mov	r3, r5
	lsrs	r0, r2, #3
	ldr	r1, [sp, #140]
	muls	r0, r1, r0
	ldr	r1, [sp, #152]
	adds	r2, r1, r0
	mov	r0, r2
	subs	r0, #24
	ldr	r4, [r0]
	ldr	r1, [r0, #4]
	ldr	r5, [sp, #148]
	ands	r1, r5
	ldr	r5, [sp, #104]
	eors	r1, r5
	mov	r5, r4
	ldr	r6, [sp, #144]
	ands	r5, r6
	ldr	r6, [sp, #132]
	eors	r5, r6
	orrs	r5, r1
	bne	.LBB170_79
	mov	r5, r3
	ands	r4, r3
	ldr	r1, [sp, #68]
	orrs	r4, r1
	str	r4, [r0]
	mov	r4, r1
	ldr	r6, [sp, #72]
	str	r6, [r0, #4]
	ldr	r0, [sp, #80]
	ldr	r1, [sp, #100]
	str	r1, [sp, #120]
	b	.LBB170_80
.LBB170_74:
	subs	r5, #24
	ldr	r2, [r5]
	mov	r4, r2
	ldr	r3, [sp, #144]
	ands	r4, r3
	str	r4, [r0]
	ldr	r7, [r5, #4]
	ldr	r5, [sp, #148]
	ands	r7, r5
	str	r7, [r0, #4]
	orrs	r7, r4
	subs	r6, #8
	ldm	r6, {r5, r6}
	cmp	r7, #0
	beq	.LBB170_76
	lsrs	r0, r2, #3
	ldr	r2, [sp, #140]
	muls	r0, r2, r0
	ldr	r2, [sp, #152]
	adds	r0, r2, r0
	subs	r0, #8
	ldr	r2, [sp, #104]
	str	r2, [r0, #4]
	ldr	r2, [r0]
	movs	r4, #1
	ands	r4, r2
	ldr	r2, [sp, #132]
	orrs	r4, r2
	str	r4, [r0]
.LBB170_76:
	ldr	r0, [sp, #148]
	ands	r6, r0
	mov	r0, r5
	ands	r0, r3
	ldr	r2, [sp, #152]
	adds	r2, r2, r1
	subs	r2, #8
	ldr	r7, [r2]
	movs	r4, #1
	ands	r7, r4
	orrs	r7, r0
	str	r7, [r2]
	str	r6, [r2, #4]
	ldr	r2, [sp, #152]
	adds	r2, r2, r1
	subs	r2, #8
	ldr	r7, [r2]
	orrs	r7, r4
	str	r7, [r2]
	orrs	r0, r6
	ldr	r7, [sp, #108]
	str	r7, [sp, #116]
	ldr	r6, [sp, #72]
	mov	r0, r6
	bne	.LBB170_77
	b	.LBB170_87
.LBB170_77:
	lsrs	r0, r5, #3
	ldr	r2, [sp, #140]
	muls	r0, r2, r0
	ldr	r2, [sp, #152]
	adds	r2, r2, r0
	mov	r0, r2
	subs	r0, #24
	ldm	r0!, {r5, r6}
	ldr	r7, [sp, #148]
	ands	r6, r7
	ldr	r7, [sp, #104]
	eors	r6, r7
	mov	r7, r5
	ands	r7, r3
	ldr	r3, [sp, #132]
	eors	r7, r3
	subs	r0, #8
	orrs	r7, r6
	bne	.LBB170_85
	ands	r5, r4
	ldr	r7, [sp, #108]
	orrs	r5, r7
	str	r5, [r0]
	ldr	r6, [sp, #72]
	str	r6, [r0, #4]
	b	.LBB170_86
.LBB170_79:
	subs	r2, #16
	ldr	r4, [sp, #68]
	str	r4, [r2]
	ldr	r6, [sp, #72]
	str	r6, [r2, #4]
	ldr	r0, [sp, #80]
	ldr	r1, [sp, #100]
	str	r1, [sp, #120]
	mov	r5, r3
.LBB170_80:
	str	r0, [sp, #116]
	ldr	r0, [sp, #152]
	adds	r1, r0, r7
	subs	r1, #16
	ldr	r0, [sp, #132]
	str	r0, [r1]
	ldr	r0, [sp, #152]
	ldr	r3, [sp, #124]
	adds	r0, r0, r3
	subs	r0, #8
	ldr	r2, [r0]
	ands	r2, r5
	orrs	r2, r4
	str	r2, [r0]
	ldr	r2, [sp, #104]
	str	r2, [r1, #4]
	ldr	r1, [sp, #152]
	adds	r1, r1, r3
	subs	r1, #8
	ldr	r2, [r1]
	bics	r2, r5
	str	r2, [r1]
	ldr	r1, [sp, #116]
	str	r6, [r0, #4]
	ldr	r5, [sp, #152]
	adds	r0, r5, r3
	subs	r0, #24
	ldr	r4, [r0]
	ldr	r2, [r0, #4]
	ldr	r6, [sp, #148]
	ands	r2, r6
	ldr	r0, [sp, #144]
	ands	r4, r0
	mov	r0, r4
	str	r2, [sp, #72]
	orrs	r0, r2
	ldr	r2, [sp, #140]
	bne	.LBB170_81
	b	.LBB170_97
.LBB170_81:
	str	r1, [sp, #116]
	lsrs	r0, r4, #3
	muls	r0, r2, r0
	str	r0, [sp, #100]
	str	r5, [sp, #108]
	adds	r7, r5, r0
	mov	r0, r7
	subs	r0, #24
	ldr	r3, [r0]
	ldr	r0, [r0, #4]
	ands	r0, r6
	mov	r1, r3
	ldr	r5, [sp, #144]
	ands	r1, r5
	orrs	r1, r0
	rsbs	r0, r1, #0
	adcs	r0, r1
	str	r0, [sp, #80]
	cmp	r1, #0
	str	r4, [sp, #68]
	beq	.LBB170_83
	lsrs	r6, r3, #3
	muls	r6, r2, r6
	ldr	r0, [sp, #108]
	adds	r1, r0, r6
	subs	r1, #8
	ldr	r0, [r1]
	lsls	r2, r0, #31
	bne	.LBB170_83
	b	.LBB170_111
.LBB170_83:
	str	r3, [sp, #60]
	mov	r1, r7
	subs	r1, #16
	ldm	r1!, {r0, r6}
	ldr	r4, [sp, #148]
	ands	r6, r4
	ldr	r4, [sp, #140]
	mov	r2, r0
	ands	r2, r5
	str	r2, [sp, #64]
	subs	r1, #8
	orrs	r2, r6
	beq	.LBB170_92
	lsrs	r0, r0, #3
	muls	r0, r4, r0
	ldr	r2, [sp, #108]
	adds	r2, r2, r0
	mov	r3, r2
	subs	r3, #8
	ldr	r3, [r3]
	lsls	r3, r3, #31
	bne	.LBB170_92
	b	.LBB170_112
.LBB170_85:
	subs	r2, #16
	ldr	r7, [sp, #108]
	str	r7, [r2]
	ldr	r6, [sp, #72]
	str	r6, [r2, #4]
.LBB170_86:
	ldr	r0, [sp, #80]
	str	r0, [sp, #116]
	ldr	r0, [sp, #100]
	ldr	r3, [sp, #144]
.LBB170_87:
	str	r0, [sp, #120]
	ldr	r0, [sp, #152]
	adds	r0, r0, r1
	subs	r0, #24
	ldr	r1, [r0]
	ands	r1, r4
	ldr	r2, [sp, #132]
	orrs	r1, r2
	str	r1, [r0]
	ldr	r1, [sp, #152]
	mov	r5, r3
	ldr	r3, [sp, #124]
	adds	r1, r1, r3
	subs	r1, #8
	ldr	r2, [r1]
	ands	r2, r4
	orrs	r2, r7
	str	r2, [r1]
	ldr	r2, [sp, #104]
	str	r2, [r0, #4]
	ldr	r0, [sp, #152]
	adds	r0, r0, r3
	subs	r0, #8
	ldr	r2, [r0]
	bics	r2, r4
	str	r2, [r0]
	str	r6, [r1, #4]
	ldr	r4, [sp, #152]
	adds	r0, r4, r3
	subs	r0, #16
	ldr	r2, [r0]
	ldr	r1, [r0, #4]
	ldr	r6, [sp, #148]
	ands	r1, r6
	ands	r2, r5
	mov	r0, r2
	str	r1, [sp, #72]
	orrs	r0, r1
	ldr	r3, [sp, #140]
	ldr	r1, [sp, #116]
	beq	.LBB170_97
.LBB170_88:
	str	r1, [sp, #116]
	str	r2, [sp, #108]
	lsrs	r0, r2, #3
	muls	r0, r3, r0
	str	r0, [sp, #80]
	adds	r1, r4, r0
	str	r1, [sp, #100]
	subs	r1, #24
	ldr	r7, [r1]
	ldr	r2, [r1, #4]
	ands	r2, r6
	mov	r5, r7
	ldr	r0, [sp, #144]
	ands	r5, r0
	str	r5, [sp, #68]
	str	r2, [sp, #64]
	orrs	r5, r2
	beq	.LBB170_90
	lsrs	r5, r7, #3
	muls	r5, r3, r5
	adds	r0, r4, r5
	mov	r2, r0
	subs	r2, #8
	ldr	r2, [r2]
	lsls	r2, r2, #31
	beq	.LBB170_104
.LBB170_90:
	ldr	r7, [sp, #100]
	mov	r1, r7
	subs	r1, #16
	ldm	r1, {r0, r1}
	ands	r1, r6
	mov	r2, r0
	ldr	r5, [sp, #144]
	ands	r2, r5
	orrs	r2, r1
	beq	.LBB170_92
	lsrs	r6, r0, #3
	muls	r6, r3, r6
	adds	r0, r4, r6
	subs	r0, #8
	ldr	r2, [r0]
	lsls	r1, r2, #31
	bne	.LBB170_92
	b	.LBB170_119
.LBB170_92:
	subs	r7, #8
	ldr	r1, [r7]
	movs	r0, #1
	bics	r1, r0
	str	r1, [r7]
	ldr	r7, [sp, #152]
	ldr	r1, [sp, #124]
	adds	r2, r7, r1
	subs	r2, #8
	ldr	r6, [r2]
	ldr	r1, [r2, #4]
	lsls	r5, r6, #31
	beq	.LBB170_103
	str	r7, [sp, #108]
	ldr	r0, [sp, #116]
	str	r0, [sp, #80]
	ldr	r0, [sp, #120]
	str	r0, [sp, #100]
	ldr	r5, [sp, #144]
	mov	r0, r6
	ands	r0, r5
	ldr	r4, [sp, #148]
	ands	r1, r4
	mov	r2, r0
	orrs	r2, r1
	ldr	r3, [sp, #76]
	beq	.LBB170_95
	lsrs	r2, r6, #3
	ldr	r7, [sp, #140]
	muls	r2, r7, r2
	ldr	r6, [sp, #108]
	adds	r2, r6, r2
	subs	r2, #24
	ldr	r6, [r2]
	str	r6, [sp, #124]
	ldr	r2, [r2, #4]
	ands	r2, r4
	ldr	r6, [sp, #104]
	eors	r2, r6
	ldr	r6, [sp, #124]
	ands	r6, r5
	ldr	r5, [sp, #132]
	eors	r6, r5
	orrs	r6, r2
	subs	r2, r6, #1
	sbcs	r6, r2
	ldr	r2, [sp, #108]
	subs	r3, r3, #1
	str	r0, [sp, #132]
	str	r1, [sp, #104]
	ldr	r1, [sp, #80]
	ldr	r0, [sp, #100]
	str	r0, [sp, #120]
	beq	.LBB170_97
	b	.LBB170_62
.LBB170_95:
	ldr	r1, [sp, #80]
	ldr	r0, [sp, #100]
.LBB170_96:
	str	r0, [sp, #120]
.LBB170_97:
	ldr	r0, [sp, #136]
	str	r0, [sp]
	str	r1, [sp, #16]
	ldr	r2, [sp, #120]
	str	r2, [sp, #20]
	ldr	r0, [sp, #128]
	str	r0, [sp, #4]
	orrs	r1, r2
	subs	r0, r1, #1
	sbcs	r1, r0
	str	r1, [sp, #8]
	add	r0, sp, #152
	ldr	r1, [sp, #84]
	ldr	r2, [sp, #92]
	ldr	r3, [sp, #88]
	bl	ic_rbtree.join.roots.join.f4da04d8a93b4f27
	uxtb	r0, r0
	cmp	r0, #0
	bne	.LBB170_99
	mov	r2, r0
.LBB170_99:
	ldr	r3, [sp, #112]
	ldr	r4, [sp, #96]
	bne	.LBB170_101
	mov	r1, r0
.LBB170_101:
	stm	r4!, {r1, r2}
	movs	r0, #0
	str	r0, [r3]
	str	r0, [r3, #4]
.LBB170_102:
	add	sp, #196
	pop	{r4, r5, r6, r7, pc}
.LBB170_103:
	orrs	r6, r0
	str	r6, [r2]
	str	r1, [r2, #4]
	b	.LBB170_135
.LBB170_104:
	str	r7, [sp, #76]
	mov	r7, r6
	ldr	r6, [sp, #100]
	subs	r6, #16
	ldm	r6!, {r2, r3}
	ands	r3, r7
	mov	r7, r2
	ldr	r6, [sp, #144]
	ands	r2, r6
	orrs	r2, r3
	beq	.LBB170_106
	lsrs	r6, r7, #3
	ldr	r2, [sp, #140]
	muls	r6, r2, r6
	adds	r3, r4, r6
	subs	r3, #8
	ldr	r2, [r3]
	str	r2, [sp, #60]
	lsls	r2, r2, #31
	bne	.LBB170_106
	b	.LBB170_120
.LBB170_106:
	str	r5, [sp, #60]
	subs	r0, #16
	ldr	r2, [r0, #4]
	ldr	r6, [sp, #148]
	ands	r2, r6
	str	r2, [r1, #4]
	movs	r4, #1
	ldr	r7, [sp, #76]
	ands	r7, r4
	ldr	r0, [r0]
	str	r0, [sp, #76]
	ldr	r3, [sp, #144]
	ands	r0, r3
	orrs	r7, r0
	str	r7, [r1]
	orrs	r0, r2
	ldr	r2, [sp, #100]
	subs	r2, #8
	ldm	r2!, {r1, r5}
	mov	r7, r4
	ands	r5, r6
	mov	r6, r1
	ands	r6, r3
	cmp	r0, #0
	beq	.LBB170_108
	ldr	r0, [sp, #76]
	lsrs	r0, r0, #3
	ldr	r2, [sp, #140]
	muls	r0, r2, r0
	ldr	r2, [sp, #152]
	adds	r0, r2, r0
	subs	r0, #8
	ldr	r2, [sp, #72]
	str	r2, [r0, #4]
	ldr	r2, [r0]
	ands	r2, r7
	ldr	r4, [sp, #108]
	orrs	r2, r4
	str	r2, [r0]
.LBB170_108:
	ldr	r0, [sp, #152]
	ldr	r4, [sp, #60]
	adds	r0, r0, r4
	subs	r0, #8
	ldr	r2, [r0]
	ands	r2, r7
	orrs	r2, r6
	stm	r0!, {r2, r5}
	ldr	r0, [sp, #152]
	adds	r0, r0, r4
	subs	r0, #8
	ldr	r2, [r0]
	orrs	r2, r7
	str	r2, [r0]
	orrs	r6, r5
	ldr	r2, [sp, #68]
	ldr	r4, [sp, #64]
	mov	r0, r4
	ldr	r5, [sp, #148]
	ldr	r6, [sp, #140]
	ldr	r3, [sp, #144]
	bne	.LBB170_109
	b	.LBB170_125
.LBB170_109:
	lsrs	r0, r1, #3
	muls	r0, r6, r0
	ldr	r1, [sp, #152]
	adds	r1, r1, r0
	mov	r0, r1
	subs	r0, #24
	ldm	r0!, {r2, r4}
	ands	r4, r5
	ldr	r5, [sp, #72]
	eors	r4, r5
	mov	r5, r2
	ands	r5, r3
	ldr	r6, [sp, #108]
	eors	r5, r6
	subs	r0, #8
	orrs	r5, r4
	bne	.LBB170_123
	ands	r2, r7
	ldr	r1, [sp, #68]
	orrs	r2, r1
	str	r2, [r0]
	ldr	r4, [sp, #64]
	str	r4, [r0, #4]
	b	.LBB170_124
.LBB170_111:
	str	r0, [sp, #80]
	ldr	r2, [r1, #4]
	b	.LBB170_122
.LBB170_112:
	str	r0, [sp, #56]
	str	r6, [sp, #76]
	ldr	r0, [sp, #80]
	cmp	r0, #0
	bne	.LBB170_114
	ldr	r0, [sp, #60]
	lsrs	r6, r0, #3
	muls	r6, r4, r6
	ldr	r0, [sp, #108]
	adds	r0, r0, r6
	subs	r0, #8
	ldr	r3, [r0]
	str	r3, [sp, #80]
	lsls	r3, r3, #31
	beq	.LBB170_121
.LBB170_114:
	subs	r2, #24
	ldr	r0, [r2]
	mov	r3, r0
	ldr	r4, [sp, #144]
	ands	r3, r4
	str	r3, [r1]
	ldr	r2, [r2, #4]
	ldr	r6, [sp, #148]
	ands	r2, r6
	str	r2, [r1, #4]
	orrs	r2, r3
	subs	r7, #8
	ldm	r7!, {r3, r5}
	ands	r5, r6
	mov	r6, r3
	ands	r6, r4
	ldr	r4, [sp, #140]
	cmp	r2, #0
	beq	.LBB170_116
	lsrs	r0, r0, #3
	muls	r0, r4, r0
	ldr	r1, [sp, #152]
	adds	r0, r1, r0
	subs	r0, #8
	ldr	r1, [sp, #72]
	str	r1, [r0, #4]
	ldr	r1, [r0]
	movs	r2, #1
	ands	r2, r1
	ldr	r1, [sp, #68]
	orrs	r2, r1
	str	r2, [r0]
.LBB170_116:
	ldr	r0, [sp, #152]
	ldr	r4, [sp, #56]
	adds	r0, r0, r4
	subs	r0, #8
	ldr	r2, [r0]
	movs	r1, #1
	ands	r2, r1
	orrs	r2, r6
	stm	r0!, {r2, r5}
	ldr	r0, [sp, #152]
	adds	r0, r0, r4
	subs	r0, #8
	ldr	r2, [r0]
	orrs	r2, r1
	str	r2, [r0]
	orrs	r6, r5
	ldr	r5, [sp, #64]
	mov	r2, r5
	ldr	r4, [sp, #76]
	mov	r0, r4
	ldr	r6, [sp, #148]
	ldr	r7, [sp, #100]
	bne	.LBB170_117
	b	.LBB170_139
.LBB170_117:
	lsrs	r0, r3, #3
	ldr	r2, [sp, #140]
	muls	r0, r2, r0
	ldr	r2, [sp, #152]
	adds	r2, r2, r0
	mov	r0, r2
	subs	r0, #24
	ldr	r4, [r0]
	ldr	r3, [r0, #4]
	ands	r3, r6
	ldr	r5, [sp, #72]
	eors	r3, r5
	mov	r5, r4
	ldr	r6, [sp, #144]
	ands	r5, r6
	ldr	r6, [sp, #68]
	eors	r5, r6
	orrs	r5, r3
	beq	.LBB170_118
	b	.LBB170_137
.LBB170_118:
	ands	r4, r1
	ldr	r5, [sp, #64]
	orrs	r4, r5
	str	r4, [r0]
	ldr	r4, [sp, #76]
	str	r4, [r0, #4]
	b	.LBB170_138
.LBB170_119:
	ldr	r5, [r0, #4]
	ldr	r0, [sp, #116]
	str	r0, [sp, #100]
	ldr	r0, [sp, #120]
	str	r0, [sp, #76]
	ldr	r3, [sp, #144]
	b	.LBB170_127
.LBB170_120:
	ldr	r5, [r3, #4]
	ldr	r0, [sp, #116]
	str	r0, [sp, #100]
	ldr	r0, [sp, #120]
	str	r0, [sp, #76]
	ldr	r3, [sp, #144]
	ldr	r2, [sp, #60]
	b	.LBB170_127
.LBB170_121:
	ldr	r2, [r0, #4]
.LBB170_122:
	ldr	r0, [sp, #120]
	str	r0, [sp, #76]
	ldr	r5, [sp, #108]
	b	.LBB170_141
.LBB170_123:
	subs	r1, #16
	ldr	r0, [sp, #68]
	str	r0, [r1]
	ldr	r4, [sp, #64]
	str	r4, [r1, #4]
.LBB170_124:
	ldr	r2, [sp, #116]
	ldr	r0, [sp, #120]
.LBB170_125:
	str	r2, [sp, #100]
	str	r0, [sp, #76]
	ldr	r0, [sp, #152]
	ldr	r1, [sp, #60]
	adds	r1, r0, r1
	subs	r1, #16
	ldr	r0, [sp, #108]
	str	r0, [r1]
	ldr	r0, [sp, #152]
	ldr	r5, [sp, #80]
	adds	r0, r0, r5
	subs	r0, #8
	ldr	r2, [r0]
	ands	r2, r7
	mov	r6, r3
	ldr	r3, [sp, #68]
	orrs	r2, r3
	str	r2, [r0]
	ldr	r2, [sp, #72]
	str	r2, [r1, #4]
	ldr	r1, [sp, #152]
	adds	r1, r1, r5
	ldr	r5, [sp, #60]
	subs	r1, #8
	ldr	r2, [r1]
	bics	r2, r7
	str	r2, [r1]
	str	r4, [r0, #4]
	ldr	r7, [sp, #152]
	adds	r1, r7, r5
	subs	r1, #16
	ldm	r1, {r0, r1}
	ldr	r2, [sp, #148]
	ands	r1, r2
	mov	r2, r0
	ands	r2, r6
	orrs	r2, r1
	bne	.LBB170_126
	b	.LBB170_136
.LBB170_126:
	mov	r3, r6
	lsrs	r6, r0, #3
	ldr	r0, [sp, #140]
	muls	r6, r0, r6
	adds	r0, r7, r6
	subs	r0, #8
	ldr	r2, [r0]
	mov	r1, r5
	ldr	r5, [r0, #4]
	ldr	r0, [sp, #68]
	str	r0, [sp, #108]
	str	r4, [sp, #72]
	str	r1, [sp, #80]
	mov	r4, r7
.LBB170_127:
	ldr	r7, [sp, #124]
	adds	r0, r4, r7
	subs	r0, #8
	ldr	r0, [r0]
	str	r0, [sp, #120]
	movs	r1, #1
	orrs	r2, r1
	adds	r0, r4, r6
	subs	r0, #8
	stm	r0!, {r2, r5}
	ldr	r2, [sp, #152]
	ldr	r0, [sp, #80]
	adds	r4, r2, r0
	subs	r4, #24
	ldr	r0, [r4]
	mov	r5, r0
	ands	r5, r3
	adds	r2, r2, r7
	mov	r6, r2
	subs	r6, #16
	str	r5, [r6]
	ldr	r4, [r4, #4]
	ldr	r7, [sp, #148]
	ands	r4, r7
	str	r4, [r6, #4]
	orrs	r4, r5
	subs	r2, #8
	ldr	r6, [r2]
	ldr	r5, [r2, #4]
	ands	r5, r7
	str	r6, [sp, #68]
	ands	r6, r3
	cmp	r4, #0
	ldr	r4, [sp, #140]
	beq	.LBB170_129
	lsrs	r0, r0, #3
	muls	r0, r4, r0
	ldr	r2, [sp, #152]
	adds	r0, r2, r0
	subs	r0, #8
	ldr	r2, [sp, #104]
	str	r2, [r0, #4]
	ldr	r2, [r0]
	ands	r2, r1
	ldr	r7, [sp, #132]
	orrs	r2, r7
	str	r2, [r0]
.LBB170_129:
	ldr	r0, [sp, #152]
	ldr	r7, [sp, #80]
	adds	r0, r0, r7
	subs	r0, #8
	ldr	r2, [r0]
	ands	r2, r1
	orrs	r2, r6
	stm	r0!, {r2, r5}
	ldr	r3, [sp, #120]
	ands	r3, r1
	ldr	r0, [sp, #152]
	adds	r0, r0, r7
	subs	r0, #8
	ldr	r2, [r0]
	bics	r2, r1
	adds	r2, r2, r3
	str	r2, [r0]
	orrs	r6, r5
	ldr	r5, [sp, #108]
	str	r5, [sp, #116]
	ldr	r6, [sp, #72]
	mov	r0, r6
	beq	.LBB170_134
	ldr	r0, [sp, #68]
	lsrs	r0, r0, #3
	muls	r4, r0, r4
	ldr	r0, [sp, #152]
	adds	r2, r0, r4
	mov	r0, r2
	subs	r0, #24
	ldm	r0!, {r4, r5}
	ldr	r6, [sp, #148]
	ands	r5, r6
	ldr	r6, [sp, #104]
	eors	r5, r6
	ldr	r3, [sp, #144]
	ands	r3, r4
	ldr	r6, [sp, #132]
	eors	r3, r6
	subs	r0, #8
	orrs	r3, r5
	bne	.LBB170_132
	ands	r4, r1
	movs	r2, #0
	ldr	r5, [sp, #108]
	adds	r4, r4, r5
	str	r4, [r0]
	ldr	r6, [sp, #72]
	adcs	r2, r6
	str	r2, [r0, #4]
	b	.LBB170_133
.LBB170_132:
	subs	r2, #16
	ldr	r5, [sp, #108]
	str	r5, [r2]
	ldr	r6, [sp, #72]
	str	r6, [r2, #4]
.LBB170_133:
	ldr	r0, [sp, #100]
	str	r0, [sp, #116]
	ldr	r0, [sp, #76]
.LBB170_134:
	str	r0, [sp, #120]
	ldr	r0, [sp, #152]
	ldr	r2, [sp, #80]
	adds	r0, r0, r2
	subs	r0, #24
	ldr	r2, [r0]
	ands	r2, r1
	ldr	r3, [sp, #132]
	orrs	r2, r3
	str	r2, [r0]
	ldr	r2, [sp, #104]
	str	r2, [r0, #4]
	ldr	r0, [sp, #152]
	ldr	r3, [sp, #124]
	adds	r0, r0, r3
	subs	r0, #8
	ldr	r2, [r0]
	ands	r2, r1
	movs	r4, #0
	adds	r2, r2, r5
	str	r2, [r0]
	adcs	r6, r4
	str	r6, [r0, #4]
	ldr	r0, [sp, #152]
	adds	r0, r0, r3
	subs	r0, #8
	ldr	r2, [r0]
	orrs	r2, r1
	str	r2, [r0]
.LBB170_135:
	ldr	r1, [sp, #116]
	b	.LBB170_97
.LBB170_136:
	ldr	r1, [sp, #100]
	b	.LBB170_150
.LBB170_137:
	subs	r2, #16
	ldr	r5, [sp, #64]
	str	r5, [r2]
	ldr	r4, [sp, #76]
	str	r4, [r2, #4]
.LBB170_138:
	ldr	r2, [sp, #116]
	ldr	r0, [sp, #120]
.LBB170_139:
	str	r2, [sp, #116]
	str	r0, [sp, #76]
	ldr	r0, [sp, #152]
	ldr	r6, [sp, #56]
	adds	r0, r0, r6
	subs	r0, #24
	ldr	r2, [r0]
	ands	r2, r1
	ldr	r3, [sp, #68]
	orrs	r2, r3
	str	r2, [r0]
	ldr	r2, [sp, #152]
	adds	r2, r2, r7
	subs	r2, #8
	ldr	r3, [r2]
	ands	r3, r1
	orrs	r3, r5
	str	r3, [r2]
	ldr	r3, [sp, #72]
	str	r3, [r0, #4]
	ldr	r0, [sp, #152]
	adds	r0, r0, r7
	subs	r0, #8
	ldr	r3, [r0]
	bics	r3, r1
	str	r3, [r0]
	str	r4, [r2, #4]
	ldr	r7, [sp, #152]
	adds	r1, r7, r6
	subs	r1, #24
	ldm	r1, {r0, r1}
	ldr	r2, [sp, #148]
	ands	r1, r2
	mov	r2, r0
	ldr	r3, [sp, #144]
	ands	r2, r3
	orrs	r2, r1
	bne	.LBB170_140
	b	.LBB170_149
.LBB170_140:
	lsrs	r6, r0, #3
	ldr	r0, [sp, #140]
	muls	r6, r0, r6
	adds	r0, r7, r6
	subs	r0, #8
	ldr	r1, [r0]
	str	r1, [sp, #80]
	ldr	r2, [r0, #4]
	str	r5, [sp, #68]
	str	r4, [sp, #72]
	ldr	r0, [sp, #56]
	str	r0, [sp, #100]
	mov	r5, r7
.LBB170_141:
	ldr	r1, [sp, #124]
	adds	r0, r5, r1
	subs	r0, #8
	ldr	r0, [r0]
	str	r0, [sp, #120]
	movs	r7, #1
	ldr	r3, [sp, #80]
	orrs	r3, r7
	adds	r0, r5, r6
	subs	r0, #8
	str	r3, [r0]
	str	r2, [r0, #4]
	ldr	r0, [sp, #152]
	ldr	r2, [sp, #100]
	adds	r2, r0, r2
	subs	r2, #16
	ldr	r4, [r2, #4]
	ldr	r3, [sp, #148]
	ands	r4, r3
	adds	r5, r0, r1
	mov	r3, r5
	subs	r3, #24
	str	r4, [r3, #4]
	ldr	r0, [r2]
	mov	r2, r0
	ldr	r1, [sp, #144]
	ands	r2, r1
	ldr	r6, [r3]
	ands	r6, r7
	orrs	r6, r2
	str	r6, [r3]
	mov	r3, r7
	orrs	r2, r4
	subs	r5, #8
	ldm	r5, {r4, r5}
	ldr	r6, [sp, #148]
	ands	r5, r6
	mov	r6, r4
	ands	r6, r1
	cmp	r2, #0
	beq	.LBB170_143
	lsrs	r0, r0, #3
	ldr	r1, [sp, #140]
	muls	r0, r1, r0
	ldr	r2, [sp, #152]
	adds	r0, r2, r0
	subs	r0, #8
	ldr	r1, [sp, #104]
	str	r1, [r0, #4]
	ldr	r2, [r0]
	ands	r2, r3
	ldr	r1, [sp, #132]
	orrs	r2, r1
	str	r2, [r0]
.LBB170_143:
	ldr	r0, [sp, #152]
	ldr	r1, [sp, #100]
	adds	r0, r0, r1
	subs	r0, #8
	ldr	r2, [r0]
	ands	r2, r3
	orrs	r2, r6
	stm	r0!, {r2, r5}
	ldr	r7, [sp, #120]
	ands	r7, r3
	ldr	r0, [sp, #152]
	adds	r0, r0, r1
	subs	r0, #8
	ldr	r2, [r0]
	bics	r2, r3
	adds	r2, r2, r7
	str	r2, [r0]
	orrs	r6, r5
	ldr	r6, [sp, #68]
	mov	r5, r6
	ldr	r7, [sp, #72]
	mov	r0, r7
	beq	.LBB170_148
	lsrs	r0, r4, #3
	ldr	r1, [sp, #140]
	muls	r1, r0, r1
	ldr	r0, [sp, #152]
	adds	r2, r0, r1
	mov	r0, r2
	subs	r0, #24
	ldm	r0!, {r4, r5}
	ldr	r1, [sp, #148]
	ands	r5, r1
	ldr	r1, [sp, #104]
	eors	r5, r1
	ldr	r1, [sp, #144]
	ands	r1, r4
	ldr	r6, [sp, #132]
	eors	r1, r6
	subs	r0, #8
	orrs	r1, r5
	bne	.LBB170_146
	ands	r4, r3
	movs	r2, #0
	ldr	r6, [sp, #68]
	adds	r4, r4, r6
	str	r4, [r0]
	adcs	r2, r7
	str	r2, [r0, #4]
	b	.LBB170_147
.LBB170_146:
	subs	r2, #16
	ldr	r6, [sp, #68]
	stm	r2!, {r6, r7}
.LBB170_147:
	ldr	r5, [sp, #116]
	ldr	r0, [sp, #76]
.LBB170_148:
	str	r0, [sp, #120]
	ldr	r0, [sp, #152]
	ldr	r1, [sp, #100]
	adds	r0, r0, r1
	subs	r0, #16
	ldr	r1, [sp, #132]
	str	r1, [r0]
	ldr	r1, [sp, #104]
	str	r1, [r0, #4]
	ldr	r0, [sp, #152]
	ldr	r1, [sp, #124]
	adds	r0, r0, r1
	subs	r0, #8
	ldr	r2, [r0]
	ands	r2, r3
	movs	r4, #0
	adds	r2, r2, r6
	str	r2, [r0]
	adcs	r7, r4
	str	r7, [r0, #4]
	ldr	r0, [sp, #152]
	adds	r0, r0, r1
	mov	r1, r5
	subs	r0, #8
	ldr	r2, [r0]
	orrs	r2, r3
	str	r2, [r0]
	b	.LBB170_97
.LBB170_149:
	ldr	r1, [sp, #116]
.LBB170_150:
	ldr	r0, [sp, #76]
	b	.LBB170_96
.Lfunc_end170:
	.size	ic_tree_append, .Lfunc_end170-ic_tree_append
	.cfi_endproc
	.section	.text.ic_tree_check,"ax",%progbits
	.globl	ic_tree_check
	.p2align	1
	.type	ic_tree_check,%function
	.code	16
	.thumb_func
ic_tree_check:
	.cfi_startproc
	push	{r4, r5, r7, lr}
	.cfi_def_cfa_offset 16
	.cfi_offset lr, -4
	.cfi_offset r7, -8
	.cfi_offset r5, -12
	.cfi_offset r4, -16
	sub	sp, #72
	.cfi_def_cfa_offset 88
	mov	r1, r2
	ldr	r4, [sp, #88]
	ldm	r4!, {r2, r5}
	str	r3, [sp, #44]
	str	r1, [sp, #40]
	movs	r4, #0
	str	r4, [sp, #36]
	cmp	r0, #0
	bne	.LBB171_2
	movs	r1, #1
	lsls	r1, r1, #12
	adds	r0, r0, r1
.LBB171_2:
	str	r0, [sp, #32]
	movs	r0, #66
	str	r4, [sp, #16]
	str	r4, [sp, #20]
	str	r0, [sp, #24]
	movs	r0, #15
	ands	r5, r0
	movs	r0, #7
	bics	r2, r0
	str	r2, [sp]
	str	r5, [sp, #4]
	str	r4, [sp, #8]
	orrs	r2, r5
	subs	r0, r2, #1
	sbcs	r2, r0
	add	r5, sp, #48
	add	r1, sp, #32
	mov	r0, r5
	bl	ic_check.tree.check_below.ffc36cde30076884
	ldrb	r0, [r5]
	cmp	r0, #1
	bne	.LBB171_5
	add	r0, sp, #48
	ldrb	r0, [r0, #20]
	cmp	r0, #1
	bne	.LBB171_5
	ldr	r0, [sp, #92]
	ldr	r1, [sp, #60]
	ldr	r2, [sp, #56]
	str	r2, [r0]
	str	r1, [r0, #4]
	mov	r0, r4
	add	sp, #72
	pop	{r4, r5, r7, pc}
.LBB171_5:
	movs	r4, #5
	mov	r0, r4
	add	sp, #72
	pop	{r4, r5, r7, pc}
.Lfunc_end171:
	.size	ic_tree_check, .Lfunc_end171-ic_tree_check
	.cfi_endproc
	.section	.text.ic_tree_clear,"ax",%progbits
	.globl	ic_tree_clear
	.p2align	1
	.type	ic_tree_clear,%function
	.code	16
	.thumb_func
ic_tree_clear:
	.cfi_startproc
	push	{r4, r5, r6, r7, lr}
	.cfi_def_cfa_offset 20
	.cfi_offset lr, -4
	.cfi_offset r7, -8
	.cfi_offset r6, -12
	.cfi_offset r5, -16
	.cfi_offset r4, -20
	sub	sp, #100
	.cfi_def_cfa_offset 120
	str	r2, [sp, #32]
	ldr	r4, [sp, #120]
	ldm	r4!, {r2, r6}
	movs	r1, #15
	str	r1, [sp, #96]
	ands	r6, r1
	movs	r5, #7
	bics	r2, r5
	str	r2, [sp, #52]
	mov	r1, r2
	str	r6, [sp, #76]
	orrs	r1, r6
	subs	r4, #8
	rsbs	r2, r1, #0
	adcs	r2, r1
	str	r2, [sp, #20]
	movs	r2, #1
	cmp	r0, #0
	str	r2, [sp, #64]
	bne	.LBB172_2
	lsls	r2, r2, #12
	adds	r0, r0, r2
.LBB172_2:
	str	r0, [sp, #88]
	mvns	r0, r5
	str	r0, [sp, #92]
	cmp	r1, #0
	str	r3, [sp, #36]
	bne	.LBB172_3
	b	.LBB172_12
.LBB172_3:
	ldr	r0, [sp, #52]
	lsrs	r0, r0, #3
	ldr	r2, [sp, #76]
	lsls	r1, r2, #29
	adds	r0, r0, r1
	lsrs	r2, r2, #3
	movs	r1, #5
	ldr	r5, [sp, #32]
	subs	r5, r5, r0
	sbcs	r3, r2
	bhs	.LBB172_4
	b	.LBB172_48
.LBB172_4:
	str	r4, [sp, #16]
	movs	r5, #24
	muls	r0, r5, r0
	ldr	r3, [sp, #88]
	adds	r0, r3, r0
	subs	r0, #24
	ldrb	r0, [r0]
	lsls	r0, r0, #31
	bne	.LBB172_5
	b	.LBB172_48
.LBB172_5:
	ldr	r2, [sp, #32]
	lsrs	r0, r2, #29
	ldr	r1, [sp, #36]
	lsls	r1, r1, #3
	adds	r0, r1, r0
	str	r0, [sp, #56]
	lsls	r6, r2, #3
	movs	r0, #64
	str	r0, [sp, #60]
	ldr	r2, [sp, #52]
	ldr	r0, [sp, #76]
	str	r0, [sp, #48]
	str	r3, [sp, #88]
	str	r5, [sp, #68]
	str	r6, [sp, #84]
.LBB172_6:
	lsrs	r1, r2, #3
	muls	r1, r5, r1
	adds	r1, r3, r1
	subs	r1, #24
	mov	r0, r2
	ldr	r5, [r1]
	ldr	r4, [r1, #4]
	ldr	r1, [sp, #96]
	ands	r4, r1
	mov	r7, r5
	ldr	r1, [sp, #92]
	ands	r7, r1
	movs	r2, #0
	subs	r1, r7, #1
	mov	r3, r4
	str	r2, [sp, #80]
	sbcs	r3, r2
	subs	r1, r1, r6
	ldr	r2, [sp, #56]
	sbcs	r3, r2
	blo	.LBB172_7
	b	.LBB172_62
.LBB172_7:
	lsrs	r0, r5, #3
	ldr	r1, [sp, #68]
	muls	r0, r1, r0
	ldr	r1, [sp, #88]
	adds	r0, r1, r0
	subs	r0, #24
	ldr	r5, [r0]
	ldr	r0, [r0, #4]
	ldr	r1, [sp, #96]
	ands	r0, r1
	mov	r1, r5
	ldr	r3, [sp, #92]
	ands	r1, r3
	str	r1, [sp, #72]
	subs	r1, r1, #1
	str	r1, [sp, #48]
	mov	r3, r0
	ldr	r1, [sp, #80]
	sbcs	r3, r1
	ldr	r1, [sp, #84]
	ldr	r6, [sp, #48]
	subs	r1, r6, r1
	sbcs	r3, r2
	blo	.LBB172_8
	b	.LBB172_49
.LBB172_8:
	lsrs	r1, r5, #3
	ldr	r3, [sp, #68]
	muls	r1, r3, r1
	ldr	r3, [sp, #88]
	adds	r1, r3, r1
	subs	r1, #24
	ldr	r5, [r1]
	ldr	r4, [r1, #4]
	ldr	r1, [sp, #96]
	ands	r4, r1
	mov	r7, r5
	ldr	r1, [sp, #92]
	ands	r7, r1
	subs	r6, r7, #1
	mov	r3, r4
	ldr	r1, [sp, #80]
	sbcs	r3, r1
	ldr	r1, [sp, #84]
	subs	r1, r6, r1
	sbcs	r3, r2
	blo	.LBB172_9
	b	.LBB172_63
.LBB172_9:
	ldr	r0, [sp, #60]
	cmp	r0, #0
	bne	.LBB172_10
	b	.LBB172_49
.LBB172_10:
	lsrs	r0, r5, #3
	ldr	r5, [sp, #68]
	muls	r0, r5, r0
	ldr	r1, [sp, #88]
	adds	r1, r1, r0
	subs	r1, #24
	ldr	r2, [r1]
	ldr	r0, [r1, #4]
	ldr	r1, [sp, #96]
	ands	r0, r1
	ldr	r1, [sp, #92]
	ands	r2, r1
	subs	r1, r2, #1
	str	r1, [sp, #72]
	mov	r3, r0
	ldr	r1, [sp, #80]
	sbcs	r3, r1
	ldr	r1, [sp, #84]
	ldr	r6, [sp, #72]
	subs	r1, r6, r1
	ldr	r1, [sp, #56]
	sbcs	r3, r1
	blo	.LBB172_11
	b	.LBB172_49
.LBB172_11:
	str	r0, [sp, #48]
	ldr	r0, [sp, #60]
	subs	r0, r0, #4
	str	r0, [sp, #60]
	ldr	r3, [sp, #88]
	ldr	r6, [sp, #84]
	b	.LBB172_6
.LBB172_12:
	str	r4, [sp, #16]
	movs	r5, #0
	str	r5, [sp, #72]
	mov	r0, r5
.LBB172_13:
	ldr	r4, [sp, #32]
	mov	r1, r4
	ldr	r3, [sp, #36]
	orrs	r1, r3
	rsbs	r2, r1, #0
	adcs	r2, r1
	str	r2, [sp, #12]
	cmp	r1, #0
	bne	.LBB172_14
	b	.LBB172_42
.LBB172_14:
	mov	r6, r5
	ldr	r1, [sp, #52]
	lsrs	r1, r1, #3
	ldr	r5, [sp, #76]
	lsls	r2, r5, #29
	adds	r1, r1, r2
	lsrs	r2, r5, #3
	movs	r5, #1
	str	r1, [sp, #4]
	subs	r1, r4, r1
	mov	r1, r3
	str	r2, [sp]
	sbcs	r1, r2
	str	r5, [sp, #40]
	mov	r1, r5
	bhs	.LBB172_16
	movs	r1, #0
.LBB172_16:
	ldr	r2, [sp, #20]
	orrs	r1, r2
	cmp	r1, #1
	beq	.LBB172_17
	b	.LBB172_46
.LBB172_17:
	mov	r5, r6
	lsrs	r1, r4, #29
	ldr	r3, [sp, #36]
	lsls	r2, r3, #3
	adds	r1, r2, r1
	str	r1, [sp, #56]
	lsls	r1, r4, #3
	str	r1, [sp, #84]
	movs	r1, #66
	mvns	r1, r1
	str	r1, [sp, #8]
	mov	r7, r4
	str	r3, [sp, #28]
	ldr	r6, [sp, #88]
	b	.LBB172_20
.LBB172_18:
	str	r3, [sp, #72]
	mov	r0, r2
.LBB172_19:
	movs	r1, #0
	ldr	r7, [sp, #24]
	subs	r7, r7, #1
	ldr	r2, [sp, #28]
	sbcs	r2, r1
	mov	r1, r7
	str	r2, [sp, #28]
	orrs	r1, r2
	ldr	r4, [sp, #32]
	ldr	r6, [sp, #88]
	ldr	r2, [sp, #76]
	ldr	r5, [sp, #64]
	bne	.LBB172_20
	b	.LBB172_43
.LBB172_20:
	uxtb	r1, r5
	cmp	r1, #1
	beq	.LBB172_21
	b	.LBB172_50
.LBB172_21:
	mov	r2, r0
	ldr	r0, [sp, #72]
	lsrs	r1, r0, #3
	mov	r0, r2
	lsls	r2, r2, #29
	adds	r2, r1, r2
	lsrs	r3, r0, #3
	movs	r1, #5
	subs	r4, r4, r2
	ldr	r4, [sp, #36]
	sbcs	r4, r3
	bhs	.LBB172_22
	b	.LBB172_48
.LBB172_22:
	str	r7, [sp, #24]
	movs	r4, #24
	muls	r2, r4, r2
	ldr	r3, [sp, #88]
	adds	r7, r3, r2
	mov	r2, r7
	subs	r2, #24
	ldrb	r2, [r2]
	lsls	r2, r2, #31
	bne	.LBB172_23
	b	.LBB172_48
.LBB172_23:
	str	r4, [sp, #80]
	mov	r1, r7
	subs	r1, #16
	ldr	r3, [r1]
	ldr	r2, [r1, #4]
	ldr	r1, [sp, #96]
	ands	r2, r1
	ldr	r1, [sp, #92]
	ands	r3, r1
	movs	r5, #0
	subs	r1, r3, #1
	mov	r4, r2
	sbcs	r4, r5
	ldr	r6, [sp, #84]
	subs	r1, r1, r6
	ldr	r6, [sp, #56]
	sbcs	r4, r6
	bhs	.LBB172_31
	movs	r0, #64
	str	r0, [sp, #60]
	ldr	r5, [sp, #96]
.LBB172_25:
	lsrs	r0, r3, #3
	ldr	r1, [sp, #80]
	muls	r0, r1, r0
	ldr	r1, [sp, #88]
	adds	r0, r1, r0
	subs	r0, #24
	ldr	r4, [r0]
	ldr	r0, [r0, #4]
	ands	r0, r5
	mov	r5, r4
	ldr	r6, [sp, #92]
	ands	r5, r6
	movs	r6, #0
	str	r5, [sp, #72]
	subs	r5, r5, #1
	str	r5, [sp, #48]
	mov	r7, r0
	str	r6, [sp, #68]
	sbcs	r7, r6
	movs	r5, #1
	str	r5, [sp, #64]
	ldr	r5, [sp, #84]
	ldr	r6, [sp, #48]
	subs	r5, r6, r5
	ldr	r6, [sp, #56]
	sbcs	r7, r6
	bhs	.LBB172_18
	lsrs	r2, r4, #3
	ldr	r3, [sp, #80]
	muls	r2, r3, r2
	adds	r2, r1, r2
	subs	r2, #24
	ldr	r4, [r2]
	ldr	r2, [r2, #4]
	ldr	r3, [sp, #96]
	ands	r2, r3
	mov	r3, r4
	ldr	r5, [sp, #92]
	ands	r3, r5
	subs	r5, r3, #1
	str	r5, [sp, #48]
	mov	r7, r2
	ldr	r5, [sp, #68]
	sbcs	r7, r5
	ldr	r5, [sp, #84]
	ldr	r1, [sp, #48]
	subs	r5, r1, r5
	sbcs	r7, r6
	bhs	.LBB172_19
	lsrs	r0, r4, #3
	ldr	r4, [sp, #80]
	muls	r0, r4, r0
	ldr	r1, [sp, #88]
	adds	r0, r1, r0
	subs	r0, #24
	ldm	r0!, {r4, r7}
	ldr	r1, [sp, #96]
	ands	r7, r1
	mov	r1, r4
	ldr	r5, [sp, #92]
	ands	r1, r5
	str	r1, [sp, #72]
	subs	r1, r1, #1
	str	r1, [sp, #44]
	str	r7, [sp, #48]
	ldr	r1, [sp, #68]
	sbcs	r7, r1
	ldr	r5, [sp, #84]
	ldr	r0, [sp, #44]
	subs	r5, r0, r5
	sbcs	r7, r6
	blo	.LBB172_28
	b	.LBB172_18
.LBB172_28:
	mov	r7, r1
	ldr	r1, [sp, #60]
	cmp	r1, #0
	beq	.LBB172_41
	lsrs	r2, r4, #3
	ldr	r1, [sp, #80]
	muls	r2, r1, r2
	ldr	r1, [sp, #88]
	adds	r2, r1, r2
	subs	r2, #24
	ldr	r3, [r2]
	ldr	r2, [r2, #4]
	ldr	r4, [sp, #96]
	ands	r2, r4
	ldr	r1, [sp, #92]
	ands	r3, r1
	subs	r0, r3, #1
	mov	r5, r2
	sbcs	r5, r7
	ldr	r1, [sp, #84]
	subs	r1, r0, r1
	sbcs	r5, r6
	ldr	r0, [sp, #48]
	blo	.LBB172_30
	b	.LBB172_19
.LBB172_30:
	mov	r5, r4
	ldr	r0, [sp, #60]
	subs	r0, r0, #4
	str	r0, [sp, #60]
	b	.LBB172_25
.LBB172_31:
	subs	r7, #8
	ldm	r7, {r4, r7}
	ldr	r1, [sp, #96]
	ands	r7, r1
	ldr	r1, [sp, #92]
	ands	r4, r1
	subs	r1, r4, #1
	mov	r2, r7
	sbcs	r2, r5
	ldr	r3, [sp, #84]
	subs	r1, r1, r3
	sbcs	r2, r6
	bhs	.LBB172_38
	ldr	r1, [sp, #8]
	ldr	r6, [sp, #92]
	ldr	r3, [sp, #72]
.LBB172_33:
	str	r7, [sp, #68]
	mov	r2, r4
	rsbs	r4, r1, #0
	adcs	r4, r1
	str	r4, [sp, #64]
	str	r2, [sp, #72]
	lsrs	r5, r2, #3
	ldr	r2, [sp, #80]
	muls	r5, r2, r5
	ldr	r2, [sp, #88]
	adds	r7, r2, r5
	mov	r5, r7
	subs	r5, #16
	ldm	r5, {r2, r5}
	ldr	r4, [sp, #96]
	ands	r5, r4
	eors	r5, r0
	ands	r2, r6
	eors	r2, r3
	orrs	r2, r5
	ldr	r0, [sp, #40]
	bne	.LBB172_35
	ldr	r0, [sp, #64]
.LBB172_35:
	str	r0, [sp, #64]
	cmp	r0, #0
	bne	.LBB172_40
	subs	r7, #8
	ldm	r7, {r4, r7}
	ldr	r0, [sp, #96]
	ands	r7, r0
	ldr	r6, [sp, #92]
	ands	r4, r6
	movs	r5, #0
	subs	r0, r4, #1
	mov	r2, r7
	sbcs	r2, r5
	adds	r1, r1, #1
	ldr	r3, [sp, #84]
	subs	r0, r0, r3
	ldr	r0, [sp, #56]
	sbcs	r2, r0
	ldr	r3, [sp, #72]
	ldr	r0, [sp, #68]
	blo	.LBB172_33
	str	r5, [sp, #72]
	b	.LBB172_39
.LBB172_38:
	str	r5, [sp, #72]
	str	r5, [sp, #64]
.LBB172_39:
	mov	r0, r5
	b	.LBB172_19
.LBB172_40:
	ldr	r0, [sp, #68]
	b	.LBB172_19
.LBB172_41:
	ldr	r0, [sp, #48]
	b	.LBB172_19
.LBB172_42:
	ldr	r6, [sp, #88]
	ldr	r2, [sp, #76]
.LBB172_43:
	ldr	r0, [sp, #20]
	orrs	r0, r5
	beq	.LBB172_53
.LBB172_44:
	cmp	r5, #0
	bne	.LBB172_45
	b	.LBB172_95
.LBB172_45:
	movs	r1, #5
	mov	r0, r1
	add	sp, #100
	pop	{r4, r5, r6, r7, pc}
.LBB172_46:
	mov	r3, r0
	ldr	r0, [sp, #72]
	lsrs	r2, r0, #3
	lsls	r1, r3, #29
	adds	r6, r2, r1
	lsrs	r2, r3, #3
	movs	r1, #5
	subs	r3, r4, r6
	ldr	r3, [sp, #36]
	sbcs	r3, r2
	blo	.LBB172_48
	movs	r2, #24
	muls	r2, r6, r2
	ldr	r6, [sp, #88]
	adds	r0, r6, r2
	subs	r0, #24
	ldrb	r0, [r0]
	lsls	r0, r0, #31
	bne	.LBB172_51
.LBB172_48:
	mov	r0, r1
	add	sp, #100
	pop	{r4, r5, r6, r7, pc}
.LBB172_49:
	str	r7, [sp, #72]
	mov	r0, r4
	ldr	r5, [sp, #64]
	b	.LBB172_13
.LBB172_50:
	ldr	r0, [sp, #20]
	cmp	r0, #0
	ldr	r0, [sp, #4]
	ldr	r1, [sp]
	beq	.LBB172_54
	b	.LBB172_95
.LBB172_51:
	movs	r0, #1
	ldr	r4, [sp, #32]
	eors	r0, r4
	ldr	r1, [sp, #36]
	orrs	r0, r1
	ldr	r2, [sp, #76]
	ldr	r0, [sp, #4]
	ldr	r1, [sp]
	bne	.LBB172_54
	movs	r5, #0
	ldr	r0, [sp, #20]
	orrs	r0, r5
	bne	.LBB172_44
.LBB172_53:
	ldr	r0, [sp, #52]
	lsrs	r0, r0, #3
	lsls	r1, r2, #29
	adds	r0, r0, r1
	lsrs	r1, r2, #3
.LBB172_54:
	subs	r0, r4, r0
	ldr	r0, [sp, #36]
	sbcs	r0, r1
	bhs	.LBB172_55
	b	.LBB172_95
.LBB172_55:
	lsrs	r0, r4, #29
	ldr	r1, [sp, #36]
	lsls	r1, r1, #3
	adds	r0, r1, r0
	str	r0, [sp, #72]
	lsls	r0, r4, #3
	str	r0, [sp, #84]
	movs	r0, #64
	str	r0, [sp, #68]
	ldr	r5, [sp, #52]
	ldr	r2, [sp, #96]
	str	r6, [sp, #88]
.LBB172_56:
	lsrs	r0, r5, #3
	mov	r1, r6
	movs	r6, #24
	muls	r0, r6, r0
	adds	r1, r1, r0
	subs	r1, #24
	ldm	r1, {r0, r1}
	ands	r1, r2
	mov	r3, r0
	ldr	r2, [sp, #92]
	ands	r3, r2
	movs	r7, #0
	subs	r2, r3, #1
	mov	r4, r1
	str	r7, [sp, #48]
	sbcs	r4, r7
	ldr	r7, [sp, #84]
	subs	r2, r2, r7
	ldr	r2, [sp, #72]
	sbcs	r4, r2
	ldr	r4, [sp, #76]
	str	r6, [sp, #80]
	bhs	.LBB172_65
	lsrs	r0, r0, #3
	ldr	r2, [sp, #80]
	muls	r0, r2, r0
	ldr	r2, [sp, #88]
	adds	r2, r2, r0
	subs	r2, #24
	ldm	r2!, {r0, r6}
	ldr	r2, [sp, #96]
	ands	r6, r2
	mov	r7, r0
	ldr	r2, [sp, #92]
	ands	r7, r2
	movs	r2, #0
	subs	r5, r7, #1
	mov	r4, r6
	str	r2, [sp, #76]
	sbcs	r4, r2
	ldr	r2, [sp, #84]
	subs	r2, r5, r2
	ldr	r2, [sp, #72]
	sbcs	r4, r2
	mov	r5, r3
	mov	r4, r1
	bhs	.LBB172_65
	lsrs	r0, r0, #3
	ldr	r1, [sp, #80]
	muls	r0, r1, r0
	ldr	r1, [sp, #88]
	adds	r1, r1, r0
	subs	r1, #24
	ldm	r1!, {r0, r4}
	ldr	r1, [sp, #96]
	ands	r4, r1
	mov	r1, r0
	ldr	r2, [sp, #92]
	ands	r1, r2
	subs	r2, r1, #1
	str	r4, [sp, #64]
	ldr	r3, [sp, #76]
	sbcs	r4, r3
	ldr	r3, [sp, #84]
	subs	r2, r2, r3
	ldr	r2, [sp, #72]
	sbcs	r4, r2
	mov	r5, r7
	mov	r4, r6
	bhs	.LBB172_65
	ldr	r5, [sp, #76]
	ldr	r2, [sp, #88]
	ldr	r3, [sp, #68]
	cmp	r3, #0
	beq	.LBB172_64
	lsrs	r0, r0, #3
	ldr	r3, [sp, #80]
	muls	r0, r3, r0
	adds	r2, r2, r0
	subs	r2, #24
	ldm	r2!, {r0, r6}
	ldr	r2, [sp, #96]
	ands	r6, r2
	ldr	r2, [sp, #92]
	ands	r0, r2
	subs	r2, r0, #1
	mov	r4, r6
	sbcs	r4, r5
	ldr	r3, [sp, #84]
	subs	r2, r2, r3
	ldr	r2, [sp, #72]
	sbcs	r4, r2
	mov	r5, r1
	ldr	r4, [sp, #64]
	bhs	.LBB172_65
	ldr	r1, [sp, #68]
	subs	r1, r1, #4
	str	r1, [sp, #68]
	mov	r5, r0
	str	r6, [sp, #76]
	ldr	r2, [sp, #96]
	ldr	r6, [sp, #88]
	b	.LBB172_56
.LBB172_62:
	str	r0, [sp, #72]
	ldr	r5, [sp, #64]
	ldr	r0, [sp, #48]
	b	.LBB172_13
.LBB172_63:
	ldr	r5, [sp, #64]
	b	.LBB172_13
.LBB172_64:
	mov	r5, r1
	ldr	r4, [sp, #64]
.LBB172_65:
	str	r5, [sp, #52]
	ldr	r0, [sp, #12]
	cmp	r0, #0
	ldr	r2, [sp, #32]
	ldr	r6, [sp, #88]
	ldr	r5, [sp, #72]
	beq	.LBB172_66
	b	.LBB172_95
.LBB172_66:
	mov	r3, r4
	movs	r0, #66
	mvns	r0, r0
	str	r0, [sp, #24]
	movs	r0, #1
	str	r0, [sp, #56]
	mov	r4, r2
	ldr	r7, [sp, #36]
.LBB172_67:
	ldr	r0, [sp, #52]
	lsrs	r0, r0, #3
	lsls	r1, r3, #29
	adds	r0, r0, r1
	lsrs	r1, r3, #3
	subs	r2, r2, r0
	ldr	r2, [sp, #36]
	sbcs	r2, r1
	bhs	.LBB172_68
	b	.LBB172_95
.LBB172_68:
	str	r7, [sp, #28]
	str	r4, [sp, #40]
	ldr	r1, [sp, #80]
	muls	r0, r1, r0
	adds	r0, r6, r0
	str	r0, [sp, #44]
	subs	r0, #16
	ldr	r7, [r0]
	ldr	r4, [r0, #4]
	ldr	r0, [sp, #96]
	ands	r4, r0
	ldr	r0, [sp, #92]
	ands	r7, r0
	subs	r0, r7, #1
	str	r0, [sp, #76]
	mov	r1, r4
	ldr	r0, [sp, #48]
	sbcs	r1, r0
	ldr	r0, [sp, #84]
	ldr	r2, [sp, #76]
	subs	r0, r2, r0
	sbcs	r1, r5
	bhs	.LBB172_76
	movs	r0, #64
	str	r0, [sp, #68]
.LBB172_70:
	lsrs	r0, r7, #3
	ldr	r1, [sp, #80]
	muls	r0, r1, r0
	adds	r0, r6, r0
	subs	r0, #24
	ldm	r0!, {r1, r5}
	ldr	r6, [sp, #96]
	ands	r5, r6
	mov	r2, r1
	ldr	r0, [sp, #92]
	ands	r2, r0
	movs	r3, #0
	str	r2, [sp, #52]
	subs	r2, r2, #1
	str	r5, [sp, #76]
	sbcs	r5, r3
	ldr	r0, [sp, #84]
	subs	r2, r2, r0
	ldr	r0, [sp, #72]
	sbcs	r5, r0
	blo	.LBB172_71
	b	.LBB172_86
.LBB172_71:
	lsrs	r1, r1, #3
	ldr	r2, [sp, #80]
	muls	r1, r2, r1
	ldr	r2, [sp, #88]
	adds	r1, r2, r1
	subs	r1, #24
	ldr	r2, [r1]
	ldr	r1, [r1, #4]
	ands	r1, r6
	mov	r4, r2
	ldr	r5, [sp, #92]
	ands	r4, r5
	subs	r5, r4, #1
	str	r5, [sp, #64]
	mov	r7, r1
	sbcs	r7, r3
	ldr	r5, [sp, #84]
	ldr	r6, [sp, #64]
	subs	r5, r6, r5
	sbcs	r7, r0
	blo	.LBB172_72
	b	.LBB172_87
.LBB172_72:
	lsrs	r2, r2, #3
	ldr	r0, [sp, #80]
	muls	r2, r0, r2
	ldr	r5, [sp, #88]
	adds	r5, r5, r2
	subs	r5, #24
	ldm	r5!, {r2, r7}
	ldr	r5, [sp, #96]
	ands	r7, r5
	mov	r5, r2
	ldr	r6, [sp, #92]
	ands	r5, r6
	str	r5, [sp, #52]
	subs	r5, r5, #1
	str	r7, [sp, #76]
	str	r3, [sp, #64]
	sbcs	r7, r3
	ldr	r3, [sp, #84]
	subs	r5, r5, r3
	ldr	r5, [sp, #72]
	sbcs	r7, r5
	bhs	.LBB172_89
	ldr	r1, [sp, #68]
	cmp	r1, #0
	beq	.LBB172_88
	lsrs	r1, r2, #3
	muls	r1, r0, r1
	ldr	r2, [sp, #88]
	adds	r1, r2, r1
	subs	r1, #24
	ldr	r7, [r1]
	ldr	r4, [r1, #4]
	ldr	r0, [sp, #96]
	ands	r4, r0
	ldr	r0, [sp, #92]
	ands	r7, r0
	subs	r1, r7, #1
	mov	r2, r4
	ldr	r0, [sp, #64]
	sbcs	r2, r0
	subs	r0, r1, r3
	sbcs	r2, r5
	ldr	r3, [sp, #76]
	bhs	.LBB172_90
	ldr	r0, [sp, #68]
	subs	r0, r0, #4
	str	r0, [sp, #68]
	ldr	r6, [sp, #88]
	b	.LBB172_70
.LBB172_76:
	ldr	r0, [sp, #44]
	subs	r0, #8
	ldr	r7, [r0]
	ldr	r4, [r0, #4]
	ldr	r0, [sp, #96]
	ands	r4, r0
	ldr	r0, [sp, #92]
	ands	r7, r0
	subs	r0, r7, #1
	str	r0, [sp, #76]
	mov	r1, r4
	ldr	r0, [sp, #48]
	sbcs	r1, r0
	ldr	r0, [sp, #84]
	ldr	r2, [sp, #76]
	subs	r0, r2, r0
	sbcs	r1, r5
	bhs	.LBB172_83
	ldr	r0, [sp, #24]
	ldr	r1, [sp, #52]
	ldr	r5, [sp, #92]
.LBB172_78:
	str	r3, [sp, #76]
	str	r4, [sp, #68]
	mov	r2, r7
	rsbs	r7, r0, #0
	adcs	r7, r0
	str	r2, [sp, #64]
	lsrs	r2, r2, #3
	ldr	r4, [sp, #80]
	muls	r2, r4, r2
	adds	r4, r6, r2
	mov	r2, r4
	subs	r2, #16
	ldr	r6, [r2]
	ldr	r2, [r2, #4]
	ldr	r3, [sp, #96]
	ands	r2, r3
	ldr	r3, [sp, #76]
	eors	r2, r3
	ands	r6, r5
	eors	r6, r1
	orrs	r6, r2
	ldr	r1, [sp, #56]
	mov	r2, r1
	bne	.LBB172_80
	mov	r2, r7
.LBB172_80:
	str	r2, [sp, #60]
	cmp	r2, #0
	bne	.LBB172_85
	subs	r4, #8
	ldr	r7, [r4]
	ldr	r4, [r4, #4]
	ldr	r1, [sp, #96]
	ands	r4, r1
	ands	r7, r5
	movs	r2, #0
	subs	r3, r7, #1
	mov	r1, r4
	sbcs	r1, r2
	adds	r0, r0, #1
	ldr	r6, [sp, #84]
	subs	r3, r3, r6
	ldr	r5, [sp, #92]
	ldr	r6, [sp, #88]
	ldr	r3, [sp, #72]
	sbcs	r1, r3
	ldr	r1, [sp, #64]
	ldr	r3, [sp, #68]
	blo	.LBB172_78
	str	r2, [sp, #52]
	mov	r3, r2
	ldr	r5, [sp, #72]
	ldr	r2, [sp, #48]
	b	.LBB172_84
.LBB172_83:
	ldr	r2, [sp, #48]
	str	r2, [sp, #60]
	str	r2, [sp, #52]
	mov	r3, r2
.LBB172_84:
	ldr	r1, [sp, #56]
	b	.LBB172_93
.LBB172_85:
	ldr	r0, [sp, #64]
	str	r0, [sp, #52]
	ldr	r3, [sp, #68]
	ldr	r6, [sp, #88]
	ldr	r5, [sp, #72]
	b	.LBB172_92
.LBB172_86:
	ldr	r1, [sp, #56]
	str	r1, [sp, #60]
	str	r7, [sp, #52]
	mov	r3, r4
	ldr	r6, [sp, #88]
	mov	r5, r0
	b	.LBB172_92
.LBB172_87:
	mov	r5, r0
.LBB172_88:
	ldr	r1, [sp, #56]
	str	r1, [sp, #60]
	ldr	r3, [sp, #76]
	b	.LBB172_91
.LBB172_89:
	ldr	r0, [sp, #56]
	str	r0, [sp, #60]
	str	r4, [sp, #52]
	mov	r3, r1
	mov	r1, r0
	b	.LBB172_91
.LBB172_90:
	ldr	r1, [sp, #56]
	str	r1, [sp, #60]
.LBB172_91:
	ldr	r6, [sp, #88]
.LBB172_92:
	ldr	r2, [sp, #48]
.LBB172_93:
	ldr	r0, [sp, #44]
	subs	r0, #24
	mov	r4, r0
	ldr	r0, [r0]
	bics	r0, r1
	str	r0, [r4]
	ldr	r4, [sp, #40]
	subs	r4, r4, #1
	ldr	r7, [sp, #28]
	sbcs	r7, r2
	mov	r0, r4
	orrs	r0, r7
	ldr	r2, [sp, #32]
	beq	.LBB172_95
	ldr	r0, [sp, #60]
	cmp	r0, #0
	beq	.LBB172_95
	b	.LBB172_67
.LBB172_95:
	movs	r1, #0
	ldr	r0, [sp, #16]
	str	r1, [r0]
	str	r1, [r0, #4]
	mov	r0, r1
	add	sp, #100
	pop	{r4, r5, r6, r7, pc}
.Lfunc_end172:
	.size	ic_tree_clear, .Lfunc_end172-ic_tree_clear
	.cfi_endproc
	.section	.text.ic_tree_ends_insert,"ax",%progbits
	.globl	ic_tree_ends_insert
	.p2align	1
	.type	ic_tree_ends_insert,%function
	.code	16
	.thumb_func
ic_tree_ends_insert:
	.cfi_startproc
	push	{r4, r5, r6, r7, lr}
	.cfi_def_cfa_offset 20
	.cfi_offset lr, -4
	.cfi_offset r7, -8
	.cfi_offset r6, -12
	.cfi_offset r5, -16
	.cfi_offset r4, -20
	sub	sp, #100
	.cfi_def_cfa_offset 120
	mov	r6, r3
	mov	r5, r2
	ldr	r4, [sp, #144]
	str	r4, [sp, #20]
	ldr	r7, [sp, #136]
	str	r7, [sp, #16]
	ldr	r1, [sp, #132]
	str	r1, [sp, #12]
	ldr	r1, [sp, #128]
	str	r1, [sp, #8]
	movs	r1, #1
	lsls	r2, r1, #12
	ldr	r1, [sp, #120]
	cmp	r1, #0
	bne	.LBB173_2
	adds	r1, r1, r2
.LBB173_2:
	str	r1, [sp]
	cmp	r0, #0
	bne	.LBB173_4
	adds	r0, r0, r2
.LBB173_4:
	str	r0, [sp, #96]
	mov	r2, r5
	mov	r3, r6
	bl	ic_raw.search_calls.insert
	cmp	r0, #0
	beq	.LBB173_6
.LBB173_5:
	add	sp, #100
	pop	{r4, r5, r6, r7, pc}
.LBB173_6:
	adds	r3, r4, #1
	bhs	.LBB173_5
	ldr	r2, [sp, #140]
	lsrs	r1, r3, #29
	str	r1, [sp, #68]
	lsls	r1, r3, #3
	str	r1, [sp, #64]
	movs	r4, #0
	subs	r1, r5, r3
	mov	r1, r6
	sbcs	r1, r4
	bhs	.LBB173_9
	ldr	r6, [sp, #64]
	mov	r3, r6
	ldr	r1, [sp, #68]
	mov	r5, r1
	b	.LBB173_33
.LBB173_9:
	str	r4, [sp, #92]
	str	r0, [sp, #44]
	ldr	r0, [r2]
	str	r0, [sp, #40]
	str	r2, [sp, #48]
	ldr	r0, [r2, #4]
	str	r0, [sp, #52]
	movs	r0, #15
	movs	r1, #7
	str	r1, [sp, #84]
	mvns	r2, r1
	ldr	r4, [r7]
	ldr	r1, [r7, #4]
	ands	r1, r0
	str	r2, [sp, #72]
	ands	r4, r2
	mov	r7, r4
	orrs	r7, r1
	beq	.LBB173_12
	lsls	r7, r1, #29
	lsrs	r4, r4, #3
	adds	r4, r4, r7
	lsrs	r1, r1, #3
	subs	r4, r5, r4
	mov	r4, r6
	sbcs	r4, r1
	bhs	.LBB173_12
	ldr	r6, [sp, #64]
	mov	r3, r6
	ldr	r1, [sp, #68]
	mov	r5, r1
	ldr	r0, [sp, #44]
	ldr	r2, [sp, #48]
	ldr	r4, [sp, #92]
	b	.LBB173_33
.LBB173_12:
	ldr	r1, [sp, #52]
	ands	r1, r0
	str	r1, [sp, #52]
	ldr	r7, [sp, #40]
	ldr	r1, [sp, #84]
	bics	r7, r1
	movs	r1, #24
	str	r1, [sp, #76]
	muls	r3, r1, r3
	mov	r4, r0
	str	r0, [sp, #88]
	ldr	r0, [sp, #96]
	adds	r0, r0, r3
	mov	r1, r0
	subs	r1, #24
	ldr	r2, [r1]
	ldr	r1, [r1, #4]
	ands	r1, r4
	ldr	r3, [sp, #72]
	ands	r2, r3
	subs	r2, r2, #1
	ldr	r3, [sp, #92]
	sbcs	r1, r3
	lsrs	r3, r5, #29
	lsls	r4, r6, #3
	adds	r4, r4, r3
	lsls	r5, r5, #3
	subs	r2, r2, r5
	ldr	r2, [sp, #88]
	sbcs	r1, r4
	str	r4, [sp, #80]
	str	r5, [sp, #84]
	str	r0, [sp, #36]
	bhs	.LBB173_14
	str	r7, [sp, #32]
	ldr	r0, [sp, #52]
	str	r0, [sp, #28]
	ldr	r4, [sp, #92]
	ldr	r6, [sp, #64]
	ldr	r5, [sp, #72]
	b	.LBB173_21
.LBB173_14:
	str	r7, [sp, #40]
	subs	r0, #8
	ldr	r7, [r0]
	ldr	r3, [r0, #4]
	ands	r3, r2
	ldr	r0, [sp, #72]
	ands	r7, r0
	subs	r1, r7, #1
	mov	r2, r3
	ldr	r0, [sp, #92]
	sbcs	r2, r0
	subs	r1, r1, r5
	sbcs	r2, r4
	ldr	r6, [sp, #64]
	str	r6, [sp, #32]
	ldr	r1, [sp, #68]
	str	r1, [sp, #28]
	mov	r4, r0
	ldr	r5, [sp, #72]
	bhs	.LBB173_21
	movs	r1, #66
	mov	r4, r6
	mvns	r6, r1
	mov	r2, r5
	ldr	r5, [sp, #68]
	ldr	r1, [sp, #88]
.LBB173_16:
	str	r3, [sp, #60]
	str	r7, [sp, #56]
	lsrs	r3, r7, #3
	ldr	r0, [sp, #76]
	muls	r3, r0, r3
	ldr	r0, [sp, #96]
	adds	r3, r0, r3
	mov	r7, r3
	subs	r7, #24
	ldm	r7, {r0, r7}
	ands	r7, r1
	eors	r7, r5
	ands	r0, r2
	eors	r0, r4
	orrs	r0, r7
	mov	r5, r2
	bne	.LBB173_20
	cmp	r6, #0
	beq	.LBB173_20
	subs	r3, #8
	ldr	r7, [r3]
	ldr	r3, [r3, #4]
	ldr	r1, [sp, #88]
	ands	r3, r1
	ands	r7, r5
	subs	r0, r7, #1
	mov	r4, r3
	mov	r2, r5
	ldr	r5, [sp, #92]
	sbcs	r4, r5
	adds	r6, r6, #1
	ldr	r5, [sp, #84]
	subs	r0, r0, r5
	ldr	r0, [sp, #80]
	sbcs	r4, r0
	ldr	r4, [sp, #56]
	ldr	r5, [sp, #60]
	blo	.LBB173_16
	ldr	r6, [sp, #64]
	str	r6, [sp, #32]
	ldr	r0, [sp, #68]
	str	r0, [sp, #28]
	ldr	r4, [sp, #92]
	mov	r5, r2
	b	.LBB173_21
.LBB173_20:
	ldr	r0, [sp, #40]
	str	r0, [sp, #32]
	ldr	r0, [sp, #52]
	str	r0, [sp, #28]
	ldr	r4, [sp, #92]
	ldr	r6, [sp, #64]
.LBB173_21:
	ldr	r0, [sp, #36]
	subs	r0, #16
	ldr	r1, [r0]
	ldr	r0, [r0, #4]
	ldr	r3, [sp, #88]
	ands	r0, r3
	ands	r1, r5
	subs	r1, r1, #1
	str	r1, [sp, #60]
	sbcs	r0, r4
	ldr	r2, [sp, #48]
	ldr	r1, [r2, #8]
	ldr	r7, [r2, #12]
	ands	r7, r3
	ands	r1, r5
	str	r1, [sp, #52]
	ldr	r3, [sp, #84]
	ldr	r1, [sp, #60]
	subs	r1, r1, r3
	ldr	r3, [sp, #80]
	sbcs	r0, r3
	ldr	r0, [sp, #44]
	bhs	.LBB173_23
	ldr	r6, [sp, #52]
	mov	r1, r7
	b	.LBB173_32
.LBB173_23:
	str	r7, [sp, #40]
	ldr	r2, [sp, #36]
	subs	r2, #8
	mov	r1, r5
	ldr	r5, [r2]
	mov	r7, r4
	ldr	r4, [r2, #4]
	ldr	r2, [sp, #88]
	ands	r4, r2
	ands	r5, r1
	subs	r2, r5, #1
	mov	r1, r4
	sbcs	r1, r7
	ldr	r7, [sp, #84]
	subs	r2, r2, r7
	sbcs	r1, r3
	bhs	.LBB173_29
	movs	r0, #66
	mvns	r7, r0
	mov	r2, r6
	ldr	r1, [sp, #68]
	ldr	r3, [sp, #88]
	ldr	r6, [sp, #72]
.LBB173_25:
	str	r4, [sp, #60]
	str	r5, [sp, #56]
	lsrs	r0, r5, #3
	ldr	r4, [sp, #76]
	muls	r0, r4, r0
	ldr	r4, [sp, #96]
	adds	r4, r4, r0
	mov	r0, r4
	subs	r0, #16
	ldr	r5, [r0]
	ldr	r0, [r0, #4]
	ands	r0, r3
	eors	r0, r1
	ands	r5, r6
	eors	r5, r2
	orrs	r5, r0
	bne	.LBB173_31
	cmp	r7, #0
	beq	.LBB173_31
	subs	r4, #8
	ldr	r5, [r4]
	ldr	r4, [r4, #4]
	ldr	r3, [sp, #88]
	ands	r4, r3
	ldr	r6, [sp, #72]
	ands	r5, r6
	subs	r0, r5, #1
	mov	r1, r4
	ldr	r2, [sp, #92]
	sbcs	r1, r2
	adds	r7, r7, #1
	ldr	r2, [sp, #84]
	subs	r0, r0, r2
	ldr	r0, [sp, #80]
	sbcs	r1, r0
	ldr	r2, [sp, #56]
	ldr	r1, [sp, #60]
	blo	.LBB173_25
	ldr	r0, [sp, #44]
	ldr	r2, [sp, #48]
	ldr	r4, [sp, #92]
	ldr	r6, [sp, #64]
	b	.LBB173_30
.LBB173_29:
	ldr	r2, [sp, #48]
	ldr	r4, [sp, #92]
.LBB173_30:
	ldr	r1, [sp, #68]
	b	.LBB173_32
.LBB173_31:
	ldr	r1, [sp, #40]
	add	r6, sp, #44
	ldm	r6, {r0, r2, r6}
	ldr	r4, [sp, #92]
.LBB173_32:
	ldr	r3, [sp, #32]
	ldr	r5, [sp, #28]
.LBB173_33:
	strb	r4, [r2, #15]
	strb	r4, [r2, #14]
	strb	r4, [r2, #13]
	strb	r6, [r2, #8]
	strb	r4, [r2, #7]
	strb	r4, [r2, #6]
	strb	r4, [r2, #5]
	strb	r3, [r2]
	strb	r1, [r2, #12]
	lsrs	r1, r6, #24
	strb	r1, [r2, #11]
	lsrs	r1, r6, #16
	strb	r1, [r2, #10]
	lsrs	r1, r6, #8
	strb	r1, [r2, #9]
	strb	r5, [r2, #4]
	lsrs	r1, r3, #24
	strb	r1, [r2, #3]
	lsrs	r1, r3, #16
	strb	r1, [r2, #2]
	lsrs	r1, r3, #8
	strb	r1, [r2, #1]
	add	sp, #100
	pop	{r4, r5, r6, r7, pc}
.Lfunc_end173:
	.size	ic_tree_ends_insert, .Lfunc_end173-ic_tree_ends_insert
	.cfi_endproc
	.section	.text.ic_tree_ends_insert_left,"ax",%progbits
	.globl	ic_tree_ends_insert_left
	.p2align	1
	.type	ic_tree_ends_insert_left,%function
	.code	16
	.thumb_func
ic_tree_ends_insert_left:
	.cfi_startproc
	push	{r4, r5, r6, r7, lr}
	.cfi_def_cfa_offset 20
	.cfi_offset lr, -4
	.cfi_offset r7, -8
	.cfi_offset r6, -12
	.cfi_offset r5, -16
	.cfi_offset r4, -20
	sub	sp, #52
	.cfi_def_cfa_offset 72
	ldr	r6, [sp, #84]
	str	r6, [sp, #12]
	ldr	r5, [sp, #80]
	str	r5, [sp, #8]
	movs	r4, #0
	str	r4, [sp, #4]
	ldr	r1, [sp, #72]
	str	r1, [sp]
	cmp	r0, #0
	beq	.LBB174_3
	bl	ic_raw.tree_calls.insert_at
	cmp	r0, #0
	beq	.LBB174_4
.LBB174_2:
	add	sp, #52
	pop	{r4, r5, r6, r7, pc}
.LBB174_3:
	movs	r1, #1
	lsls	r1, r1, #12
	adds	r0, r0, r1
	bl	ic_raw.tree_calls.insert_at
	cmp	r0, #0
	bne	.LBB174_2
.LBB174_4:
	str	r0, [sp, #48]
	ldr	r1, [sp, #76]
	adds	r6, r6, #1
	lsrs	r3, r6, #29
	lsls	r0, r6, #3
	adds	r5, r5, #1
	blo	.LBB174_6
	mov	r4, r0
	mov	r7, r3
	b	.LBB174_13
.LBB174_6:
	str	r3, [sp, #32]
	str	r5, [sp, #28]
	ldm	r1!, {r2, r3}
	movs	r7, #15
	str	r7, [sp, #40]
	ands	r3, r7
	movs	r7, #7
	mvns	r7, r7
	str	r7, [sp, #36]
	ands	r2, r7
	mov	r7, r2
	orrs	r7, r3
	subs	r1, #8
	rsbs	r5, r7, #0
	adcs	r5, r7
	str	r5, [sp, #20]
	rsbs	r7, r6, #0
	adcs	r7, r6
	str	r7, [sp, #44]
	ldr	r7, [sp, #28]
	lsrs	r6, r7, #29
	str	r3, [sp, #24]
	eors	r6, r3
	lsls	r7, r7, #3
	eors	r7, r2
	orrs	r7, r6
	cmp	r7, #0
	bne	.LBB174_14
	bne	.LBB174_15
.LBB174_8:
	ldr	r3, [sp, #32]
	bne	.LBB174_16
.LBB174_9:
	ldr	r5, [sp, #44]
	cmp	r5, #0
	mov	r7, r4
	beq	.LBB174_17
.LBB174_10:
	bne	.LBB174_12
.LBB174_11:
	mov	r4, r0
.LBB174_12:
	ldr	r0, [r1, #8]
	ldr	r3, [r1, #12]
	ldr	r5, [sp, #40]
	ands	r3, r5
	ldr	r5, [sp, #36]
	ands	r0, r5
.LBB174_13:
	movs	r5, #0
	strb	r5, [r1, #15]
	strb	r5, [r1, #14]
	strb	r5, [r1, #13]
	strb	r0, [r1, #8]
	strb	r5, [r1, #7]
	strb	r5, [r1, #6]
	strb	r5, [r1, #5]
	strb	r4, [r1]
	strb	r3, [r1, #12]
	lsrs	r3, r0, #24
	strb	r3, [r1, #11]
	lsrs	r3, r0, #16
	strb	r3, [r1, #10]
	lsrs	r2, r0, #8
	strb	r2, [r1, #9]
	strb	r7, [r1, #4]
	lsrs	r2, r4, #24
	strb	r2, [r1, #3]
	lsrs	r2, r4, #16
	strb	r2, [r1, #2]
	lsrs	r2, r4, #8
	strb	r2, [r1, #1]
	ldr	r0, [sp, #48]
	add	sp, #52
	pop	{r4, r5, r6, r7, pc}
.LBB174_14:
	ldr	r3, [sp, #20]
	str	r3, [sp, #44]
	beq	.LBB174_8
.LBB174_15:
	mov	r0, r2
	ldr	r3, [sp, #32]
	beq	.LBB174_9
.LBB174_16:
	ldr	r3, [sp, #24]
	ldr	r5, [sp, #44]
	cmp	r5, #0
	mov	r7, r4
	bne	.LBB174_10
.LBB174_17:
	mov	r7, r3
	beq	.LBB174_11
	b	.LBB174_12
.Lfunc_end174:
	.size	ic_tree_ends_insert_left, .Lfunc_end174-ic_tree_ends_insert_left
	.cfi_endproc
	.section	.text.ic_tree_ends_insert_right,"ax",%progbits
	.globl	ic_tree_ends_insert_right
	.p2align	1
	.type	ic_tree_ends_insert_right,%function
	.code	16
	.thumb_func
ic_tree_ends_insert_right:
	.cfi_startproc
	push	{r4, r5, r6, r7, lr}
	.cfi_def_cfa_offset 20
	.cfi_offset lr, -4
	.cfi_offset r7, -8
	.cfi_offset r6, -12
	.cfi_offset r5, -16
	.cfi_offset r4, -20
	sub	sp, #36
	.cfi_def_cfa_offset 56
	ldr	r5, [sp, #68]
	str	r5, [sp, #12]
	ldr	r4, [sp, #64]
	str	r4, [sp, #8]
	movs	r1, #1
	str	r1, [sp, #4]
	ldr	r6, [sp, #56]
	str	r6, [sp]
	cmp	r0, #0
	beq	.LBB175_3
	bl	ic_raw.tree_calls.insert_at
	cmp	r0, #0
	beq	.LBB175_4
.LBB175_2:
	add	sp, #36
	pop	{r4, r5, r6, r7, pc}
.LBB175_3:
	lsls	r1, r1, #12
	adds	r0, r0, r1
	bl	ic_raw.tree_calls.insert_at
	cmp	r0, #0
	bne	.LBB175_2
.LBB175_4:
	ldr	r1, [sp, #60]
	adds	r3, r5, #1
	lsrs	r7, r3, #29
	lsls	r2, r3, #3
	adds	r4, r4, #1
	blo	.LBB175_6
	mov	r6, r2
	mov	r4, r7
	b	.LBB175_13
.LBB175_6:
	str	r7, [sp, #32]
	ldr	r7, [r1, #8]
	ldr	r6, [r1, #12]
	str	r4, [sp, #20]
	movs	r4, #15
	str	r4, [sp, #28]
	ands	r6, r4
	movs	r4, #7
	mvns	r4, r4
	str	r4, [sp, #24]
	ands	r7, r4
	mov	r4, r7
	orrs	r4, r6
	rsbs	r5, r4, #0
	adcs	r5, r4
	str	r5, [sp, #16]
	rsbs	r4, r3, #0
	adcs	r4, r3
	ldr	r5, [sp, #20]
	lsrs	r3, r5, #29
	eors	r3, r6
	lsls	r5, r5, #3
	eors	r5, r7
	orrs	r5, r3
	cmp	r5, #0
	bne	.LBB175_14
	bne	.LBB175_15
.LBB175_8:
	bne	.LBB175_16
.LBB175_9:
	movs	r6, #0
	cmp	r4, #0
	mov	r4, r6
	beq	.LBB175_17
.LBB175_10:
	bne	.LBB175_12
.LBB175_11:
	mov	r6, r2
.LBB175_12:
	ldm	r1!, {r2, r7}
	ldr	r3, [sp, #28]
	ands	r7, r3
	ldr	r3, [sp, #24]
	ands	r2, r3
	subs	r1, #8
.LBB175_13:
	movs	r3, #0
	strb	r3, [r1, #15]
	strb	r3, [r1, #14]
	strb	r3, [r1, #13]
	strb	r6, [r1, #8]
	strb	r3, [r1, #7]
	strb	r3, [r1, #6]
	strb	r3, [r1, #5]
	strb	r2, [r1]
	strb	r4, [r1, #12]
	lsrs	r3, r6, #24
	strb	r3, [r1, #11]
	lsrs	r3, r6, #16
	strb	r3, [r1, #10]
	lsrs	r3, r6, #8
	strb	r3, [r1, #9]
	strb	r7, [r1, #4]
	lsrs	r3, r2, #24
	strb	r3, [r1, #3]
	lsrs	r3, r2, #16
	strb	r3, [r1, #2]
	lsrs	r2, r2, #8
	strb	r2, [r1, #1]
	add	sp, #36
	pop	{r4, r5, r6, r7, pc}
.LBB175_14:
	ldr	r4, [sp, #16]
	beq	.LBB175_8
.LBB175_15:
	mov	r2, r7
	beq	.LBB175_9
.LBB175_16:
	str	r6, [sp, #32]
	movs	r6, #0
	cmp	r4, #0
	mov	r4, r6
	bne	.LBB175_10
.LBB175_17:
	ldr	r4, [sp, #32]
	beq	.LBB175_11
	b	.LBB175_12
.Lfunc_end175:
	.size	ic_tree_ends_insert_right, .Lfunc_end175-ic_tree_ends_insert_right
	.cfi_endproc
	.section	.text.ic_tree_ends_pop_first,"ax",%progbits
	.globl	ic_tree_ends_pop_first
	.p2align	1
	.type	ic_tree_ends_pop_first,%function
	.code	16
	.thumb_func
ic_tree_ends_pop_first:
	.cfi_startproc
	push	{r4, r5, r6, r7, lr}
	.cfi_def_cfa_offset 20
	.cfi_offset lr, -4
	.cfi_offset r7, -8
	.cfi_offset r6, -12
	.cfi_offset r5, -16
	.cfi_offset r4, -20
	sub	sp, #28
	.cfi_def_cfa_offset 48
	str	r3, [sp, #24]
	str	r2, [sp, #20]
	ldr	r1, [sp, #52]
	ldr	r7, [r1]
	str	r1, [sp, #16]
	ldr	r1, [r1, #4]
	movs	r4, #15
	ands	r4, r1
	movs	r5, #7
	mov	r3, r7
	bics	r3, r5
	mov	r6, r3
	orrs	r6, r4
	cmp	r0, #0
	bne	.LBB176_2
	movs	r2, #1
	lsls	r2, r2, #12
	adds	r0, r0, r2
.LBB176_2:
	cmp	r6, #0
	beq	.LBB176_10
	ands	r5, r1
	lsrs	r2, r7, #3
	lsls	r1, r1, #29
	adds	r1, r2, r1
	cmp	r1, #0
	mov	r7, r3
	bne	.LBB176_5
	mov	r7, r1
.LBB176_5:
	bne	.LBB176_7
	mov	r5, r1
.LBB176_7:
	eors	r5, r4
	eors	r7, r3
	movs	r4, #5
	orrs	r7, r5
	bne	.LBB176_9
	ldr	r2, [sp, #48]
	subs	r5, r1, #1
	str	r2, [sp]
	ldr	r1, [sp, #16]
	str	r1, [sp, #4]
	str	r5, [sp, #8]
	ldr	r2, [sp, #20]
	ldr	r3, [sp, #24]
	bl	ic_raw_keyed.ends_calls.remove
	cmp	r0, #0
	beq	.LBB176_11
.LBB176_9:
	mov	r0, r4
	add	sp, #28
	pop	{r4, r5, r6, r7, pc}
.LBB176_10:
	movs	r4, #4
	mov	r0, r4
	add	sp, #28
	pop	{r4, r5, r6, r7, pc}
.LBB176_11:
	ldr	r0, [sp, #56]
	str	r5, [r0]
	movs	r4, #0
	mov	r0, r4
	add	sp, #28
	pop	{r4, r5, r6, r7, pc}
.Lfunc_end176:
	.size	ic_tree_ends_pop_first, .Lfunc_end176-ic_tree_ends_pop_first
	.cfi_endproc
	.section	.text.ic_tree_ends_remove,"ax",%progbits
	.globl	ic_tree_ends_remove
	.p2align	1
	.type	ic_tree_ends_remove,%function
	.code	16
	.thumb_func
ic_tree_ends_remove:
	.cfi_startproc
	push	{r7, lr}
	.cfi_def_cfa_offset 8
	.cfi_offset lr, -4
	.cfi_offset r7, -8
	sub	sp, #16
	.cfi_def_cfa_offset 24
	ldr	r1, [sp, #32]
	str	r1, [sp, #8]
	ldr	r1, [sp, #28]
	str	r1, [sp, #4]
	ldr	r1, [sp, #24]
	str	r1, [sp]
	cmp	r0, #0
	bne	.LBB177_2
	movs	r1, #1
	lsls	r1, r1, #12
	adds	r0, r0, r1
.LBB177_2:
	bl	ic_raw_keyed.ends_calls.remove
	add	sp, #16
	pop	{r7, pc}
.Lfunc_end177:
	.size	ic_tree_ends_remove, .Lfunc_end177-ic_tree_ends_remove
	.cfi_endproc
	.section	.text.ic_tree_ends_replace,"ax",%progbits
	.globl	ic_tree_ends_replace
	.p2align	1
	.type	ic_tree_ends_replace,%function
	.code	16
	.thumb_func
ic_tree_ends_replace:
	.cfi_startproc
	push	{r4, r5, r6, r7, lr}
	.cfi_def_cfa_offset 20
	.cfi_offset lr, -4
	.cfi_offset r7, -8
	.cfi_offset r6, -12
	.cfi_offset r5, -16
	.cfi_offset r4, -20
	sub	sp, #36
	.cfi_def_cfa_offset 56
	ldr	r1, [sp, #64]
	adds	r4, r1, #1
	blo	.LBB178_2
	movs	r0, #4
	add	sp, #36
	pop	{r4, r5, r6, r7, pc}
.LBB178_2:
	ldr	r5, [sp, #68]
	ldr	r6, [sp, #56]
	str	r6, [sp]
	str	r1, [sp, #4]
	str	r5, [sp, #8]
	cmp	r0, #0
	beq	.LBB178_5
	bl	ic_raw.tree_calls.replace
	cmp	r0, #0
	beq	.LBB178_6
.LBB178_4:
	add	sp, #36
	pop	{r4, r5, r6, r7, pc}
.LBB178_5:
	movs	r1, #1
	lsls	r1, r1, #12
	adds	r0, r0, r1
	bl	ic_raw.tree_calls.replace
	cmp	r0, #0
	bne	.LBB178_4
.LBB178_6:
	lsrs	r6, r4, #29
	lsls	r4, r4, #3
	ldr	r1, [sp, #60]
	ldr	r0, [r1, #8]
	str	r1, [sp, #24]
	ldr	r7, [r1, #12]
	movs	r1, #15
	str	r1, [sp, #16]
	ands	r7, r1
	movs	r1, #7
	mvns	r1, r1
	str	r1, [sp, #12]
	ands	r0, r1
	mov	r2, r0
	orrs	r2, r7
	subs	r1, r2, #1
	sbcs	r2, r1
	adds	r1, r5, #1
	subs	r3, r1, #1
	mov	r5, r1
	sbcs	r5, r3
	mov	r3, r7
	str	r6, [sp, #20]
	eors	r3, r6
	mov	r6, r0
	eors	r6, r4
	orrs	r6, r3
	lsls	r3, r1, #3
	str	r3, [sp, #32]
	lsrs	r3, r1, #29
	cmp	r6, #0
	mov	r1, r5
	bne	.LBB178_19
	str	r3, [sp, #28]
	mov	r2, r3
	bne	.LBB178_20
.LBB178_8:
	ldr	r7, [sp, #32]
	ldr	r3, [sp, #24]
	bne	.LBB178_21
.LBB178_9:
	cmp	r1, #0
	beq	.LBB178_22
.LBB178_10:
	str	r7, [r3, #8]
	bne	.LBB178_12
.LBB178_11:
	mov	r2, r1
.LBB178_12:
	str	r2, [r3, #12]
	ldr	r6, [r3]
	ldr	r1, [r3, #4]
	ldr	r0, [sp, #16]
	ands	r1, r0
	ldr	r0, [sp, #12]
	ands	r6, r0
	mov	r2, r6
	orrs	r2, r1
	subs	r0, r2, #1
	sbcs	r2, r0
	ldr	r0, [sp, #20]
	eors	r0, r1
	eors	r4, r6
	orrs	r4, r0
	cmp	r4, #0
	bne	.LBB178_23
	bne	.LBB178_24
.LBB178_14:
	bne	.LBB178_25
.LBB178_15:
	cmp	r5, #0
	beq	.LBB178_26
.LBB178_16:
	ldr	r0, [sp, #32]
	str	r0, [r3]
	bne	.LBB178_18
.LBB178_17:
	str	r5, [sp, #28]
.LBB178_18:
	ldr	r0, [sp, #28]
	str	r0, [r3, #4]
	movs	r0, #0
	add	sp, #36
	pop	{r4, r5, r6, r7, pc}
.LBB178_19:
	mov	r1, r2
	str	r3, [sp, #28]
	mov	r2, r3
	beq	.LBB178_8
.LBB178_20:
	mov	r2, r7
	ldr	r7, [sp, #32]
	ldr	r3, [sp, #24]
	beq	.LBB178_9
.LBB178_21:
	mov	r7, r0
	cmp	r1, #0
	bne	.LBB178_10
.LBB178_22:
	mov	r7, r1
	str	r7, [r3, #8]
	beq	.LBB178_11
	b	.LBB178_12
.LBB178_23:
	mov	r5, r2
	beq	.LBB178_14
.LBB178_24:
	str	r1, [sp, #28]
	beq	.LBB178_15
.LBB178_25:
	str	r6, [sp, #32]
	cmp	r5, #0
	bne	.LBB178_16
.LBB178_26:
	str	r5, [sp, #32]
	ldr	r0, [sp, #32]
	str	r0, [r3]
	beq	.LBB178_17
	b	.LBB178_18
.Lfunc_end178:
	.size	ic_tree_ends_replace, .Lfunc_end178-ic_tree_ends_replace
	.cfi_endproc
	.section	.text.ic_tree_find,"ax",%progbits
	.globl	ic_tree_find
	.p2align	1
	.type	ic_tree_find,%function
	.code	16
	.thumb_func
ic_tree_find:
	.cfi_startproc
	push	{r4, r5, r6, r7, lr}
	.cfi_def_cfa_offset 20
	.cfi_offset lr, -4
	.cfi_offset r7, -8
	.cfi_offset r6, -12
	.cfi_offset r5, -16
	.cfi_offset r4, -20
	sub	sp, #76
	.cfi_def_cfa_offset 96
	mov	r4, r0
	movs	r0, #1
	lsls	r0, r0, #12
	ldr	r6, [sp, #96]
	cmp	r6, #0
	bne	.LBB179_2
	adds	r6, r6, r0
.LBB179_2:
	cmp	r4, #0
	bne	.LBB179_4
	adds	r4, r4, r0
.LBB179_4:
	ldr	r1, [sp, #108]
	ldr	r0, [sp, #104]
	str	r0, [sp, #60]
	subs	r0, r0, r2
	str	r1, [sp, #64]
	mov	r0, r1
	sbcs	r0, r3
	bhs	.LBB179_5
	b	.LBB179_43
.LBB179_5:
	str	r3, [sp, #48]
	ldr	r0, [sp, #112]
	ldr	r5, [r0]
	ldr	r3, [r0, #4]
	movs	r0, #15
	str	r0, [sp, #72]
	ands	r3, r0
	movs	r7, #7
	bics	r5, r7
	movs	r0, #4
	mov	r1, r5
	orrs	r1, r3
	bne	.LBB179_6
	b	.LBB179_51
.LBB179_6:
	str	r7, [sp, #52]
	str	r0, [sp, #8]
	lsrs	r1, r5, #3
	str	r6, [sp, #68]
	lsls	r7, r3, #29
	adds	r1, r1, r7
	mov	r7, r3
	lsrs	r0, r3, #3
	subs	r6, r2, r1
	ldr	r3, [sp, #48]
	mov	r6, r3
	sbcs	r6, r0
	ldr	r6, [sp, #68]
	bhs	.LBB179_7
	b	.LBB179_43
.LBB179_7:
	movs	r0, #24
	str	r0, [sp, #56]
	muls	r1, r0, r1
	adds	r1, r4, r1
	subs	r1, #24
	ldrb	r1, [r1]
	lsls	r1, r1, #31
	bne	.LBB179_8
	b	.LBB179_43
.LBB179_8:
	ldr	r0, [sp, #52]
	mvns	r0, r0
	str	r0, [sp, #52]
	ldr	r0, [sp, #124]
	str	r0, [sp, #64]
	ldr	r0, [sp, #120]
	str	r0, [sp, #60]
	ldr	r0, [sp, #128]
	str	r0, [sp, #4]
	lsrs	r0, r2, #29
	lsls	r1, r3, #3
	adds	r0, r1, r0
	str	r0, [sp, #48]
	lsls	r0, r2, #3
	str	r0, [sp, #44]
	movs	r0, #0
	movs	r1, #22
	str	r0, [sp, #28]
	str	r0, [sp, #32]
	str	r4, [sp, #40]
.LBB179_9:
	str	r1, [sp, #36]
	lsrs	r0, r5, #3
	ldr	r1, [sp, #56]
	muls	r0, r1, r0
	adds	r3, r4, r0
	mov	r1, r3
	subs	r1, #24
	subs	r3, #16
	adds	r0, r6, r5
	subs	r0, #8
	ldr	r2, [r0]
	ldr	r0, [r0, #4]
	ldr	r6, [sp, #60]
	subs	r2, r2, r6
	ldr	r2, [sp, #64]
	sbcs	r0, r2
	blo	.LBB179_31
	str	r5, [sp, #28]
	bhs	.LBB179_32
.LBB179_11:
	ldr	r0, [r3]
	ldr	r2, [r1]
	str	r0, [sp, #20]
	blo	.LBB179_13
.LBB179_12:
	mov	r0, r2
.LBB179_13:
	str	r2, [sp, #24]
	ldr	r2, [r3, #4]
	ldr	r5, [r1, #4]
	mov	r7, r2
	blo	.LBB179_15
	mov	r7, r5
.LBB179_15:
	ldr	r1, [sp, #72]
	ands	r7, r1
	mov	r4, r0
	ldr	r1, [sp, #52]
	ands	r4, r1
	movs	r3, #0
	subs	r6, r4, #1
	mov	r1, r7
	str	r3, [sp, #16]
	sbcs	r1, r3
	ldr	r3, [sp, #44]
	subs	r6, r6, r3
	ldr	r3, [sp, #48]
	sbcs	r1, r3
	bhs	.LBB179_37
	lsrs	r1, r0, #3
	ldr	r0, [sp, #56]
	muls	r1, r0, r1
	ldr	r2, [sp, #40]
	adds	r5, r2, r1
	mov	r2, r5
	subs	r2, #24
	subs	r5, #16
	ldr	r0, [sp, #68]
	adds	r1, r0, r4
	subs	r1, #8
	ldr	r3, [r1]
	ldr	r1, [r1, #4]
	ldr	r0, [sp, #60]
	subs	r3, r3, r0
	ldr	r0, [sp, #64]
	sbcs	r1, r0
	blo	.LBB179_33
	str	r4, [sp, #28]
	bhs	.LBB179_34
.LBB179_18:
	ldr	r7, [r5]
	ldr	r0, [r2]
	str	r7, [sp, #20]
	blo	.LBB179_20
.LBB179_19:
	mov	r7, r0
.LBB179_20:
	str	r0, [sp, #24]
	ldr	r0, [r5, #4]
	ldr	r6, [r2, #4]
	str	r0, [sp, #12]
	blo	.LBB179_22
	mov	r0, r6
.LBB179_22:
	ldr	r1, [sp, #72]
	ands	r0, r1
	mov	r5, r7
	ldr	r1, [sp, #52]
	ands	r5, r1
	movs	r1, #0
	subs	r3, r5, #1
	mov	r4, r0
	sbcs	r4, r1
	ldr	r2, [sp, #44]
	subs	r3, r3, r2
	ldr	r3, [sp, #48]
	sbcs	r4, r3
	bhs	.LBB179_39
	lsrs	r2, r7, #3
	ldr	r3, [sp, #56]
	muls	r2, r3, r2
	ldr	r3, [sp, #40]
	adds	r2, r3, r2
	mov	r4, r2
	subs	r4, #24
	subs	r2, #16
	ldr	r3, [sp, #68]
	adds	r3, r3, r5
	subs	r3, #8
	ldr	r6, [r3]
	ldr	r3, [r3, #4]
	ldr	r7, [sp, #60]
	subs	r6, r6, r7
	ldr	r6, [sp, #64]
	sbcs	r3, r6
	blo	.LBB179_35
	str	r5, [sp, #28]
	bhs	.LBB179_36
.LBB179_25:
	ldr	r3, [r2]
	ldr	r0, [r4]
	mov	r5, r3
	blo	.LBB179_27
.LBB179_26:
	mov	r5, r0
.LBB179_27:
	str	r0, [sp, #24]
	ldr	r2, [r2, #4]
	ldr	r0, [r4, #4]
	mov	r6, r2
	blo	.LBB179_29
	mov	r6, r0
.LBB179_29:
	ldr	r4, [sp, #72]
	ands	r6, r4
	ldr	r4, [sp, #52]
	ands	r5, r4
	mov	r4, r6
	subs	r6, r5, #1
	mov	r7, r4
	sbcs	r4, r1
	ldr	r1, [sp, #44]
	subs	r1, r6, r1
	ldr	r1, [sp, #48]
	sbcs	r4, r1
	ldr	r1, [sp, #36]
	bhs	.LBB179_41
	subs	r1, r1, #1
	ldr	r4, [sp, #40]
	ldr	r6, [sp, #68]
	beq	.LBB179_49
	b	.LBB179_9
.LBB179_31:
	blo	.LBB179_11
.LBB179_32:
	str	r7, [sp, #32]
	ldr	r0, [r3]
	ldr	r2, [r1]
	str	r0, [sp, #20]
	bhs	.LBB179_12
	b	.LBB179_13
.LBB179_33:
	blo	.LBB179_18
.LBB179_34:
	str	r7, [sp, #32]
	ldr	r7, [r5]
	ldr	r0, [r2]
	str	r7, [sp, #20]
	bhs	.LBB179_19
	b	.LBB179_20
.LBB179_35:
	blo	.LBB179_25
.LBB179_36:
	str	r0, [sp, #32]
	ldr	r3, [r2]
	ldr	r0, [r4]
	mov	r5, r3
	bhs	.LBB179_26
	b	.LBB179_27
.LBB179_37:
	ldr	r0, [sp, #24]
	subs	r1, r0, r4
	sbcs	r5, r7
	ldr	r0, [sp, #8]
	bhs	.LBB179_44
	ldr	r1, [sp, #20]
	subs	r1, r1, r4
	sbcs	r2, r7
	ldr	r7, [sp, #40]
	blo	.LBB179_49
	b	.LBB179_46
.LBB179_39:
	ldr	r1, [sp, #24]
	subs	r1, r1, r5
	sbcs	r6, r0
	ldr	r7, [sp, #40]
	bhs	.LBB179_45
	ldr	r1, [sp, #20]
	subs	r1, r1, r5
	ldr	r1, [sp, #12]
	sbcs	r1, r0
	ldr	r0, [sp, #8]
	blo	.LBB179_49
	b	.LBB179_46
.LBB179_41:
	ldr	r1, [sp, #24]
	subs	r1, r1, r5
	mov	r4, r7
	sbcs	r0, r7
	ldr	r7, [sp, #40]
	ldr	r0, [sp, #8]
	bhs	.LBB179_46
	subs	r1, r3, r5
	sbcs	r2, r4
	blo	.LBB179_49
	b	.LBB179_46
.LBB179_43:
	mov	r0, r2
	mov	r1, r3
	ldr	r2, [sp, #60]
	ldr	r3, [sp, #64]
	bl	ic_raw.search.refusal
	add	sp, #76
	pop	{r4, r5, r6, r7, pc}
.LBB179_44:
	ldr	r7, [sp, #40]
	b	.LBB179_46
.LBB179_45:
	ldr	r0, [sp, #8]
.LBB179_46:
	ldr	r5, [sp, #28]
	mov	r1, r5
	ldr	r2, [sp, #32]
	orrs	r1, r2
	beq	.LBB179_51
	ldr	r1, [sp, #68]
	adds	r2, r1, r5
	subs	r2, #8
	ldm	r2, {r1, r2}
	ldr	r4, [sp, #64]
	eors	r4, r2
	ldr	r2, [sp, #60]
	eors	r2, r1
	orrs	r2, r4
	bne	.LBB179_51
	lsrs	r0, r5, #3
	ldr	r1, [sp, #32]
	lsls	r1, r1, #29
	adds	r0, r0, r1
	ldr	r1, [sp, #56]
	muls	r1, r0, r1
	adds	r1, r7, r1
	subs	r1, #24
	ldrb	r1, [r1]
	lsls	r1, r1, #31
	bne	.LBB179_50
.LBB179_49:
	movs	r0, #5
	add	sp, #76
	pop	{r4, r5, r6, r7, pc}
.LBB179_50:
	subs	r0, r0, #1
	ldr	r1, [sp, #4]
	str	r0, [r1]
	ldr	r0, [sp, #16]
.LBB179_51:
	add	sp, #76
	pop	{r4, r5, r6, r7, pc}
.Lfunc_end179:
	.size	ic_tree_find, .Lfunc_end179-ic_tree_find
	.cfi_endproc
	.section	.text.ic_tree_insert,"ax",%progbits
	.globl	ic_tree_insert
	.p2align	1
	.type	ic_tree_insert,%function
	.code	16
	.thumb_func
ic_tree_insert:
	.cfi_startproc
	push	{r4, lr}
	.cfi_def_cfa_offset 8
	.cfi_offset lr, -4
	.cfi_offset r4, -8
	sub	sp, #24
	.cfi_def_cfa_offset 32
	ldr	r1, [sp, #52]
	str	r1, [sp, #20]
	ldr	r1, [sp, #48]
	str	r1, [sp, #16]
	ldr	r1, [sp, #44]
	str	r1, [sp, #12]
	ldr	r1, [sp, #40]
	str	r1, [sp, #8]
	movs	r1, #1
	lsls	r1, r1, #12
	ldr	r4, [sp, #32]
	cmp	r4, #0
	beq	.LBB180_3
	str	r4, [sp]
	cmp	r0, #0
	beq	.LBB180_4
.LBB180_2:
	bl	ic_raw.search_calls.insert
	add	sp, #24
	pop	{r4, pc}
.LBB180_3:
	adds	r4, r4, r1
	str	r4, [sp]
	cmp	r0, #0
	bne	.LBB180_2
.LBB180_4:
	adds	r0, r0, r1
	bl	ic_raw.search_calls.insert
	add	sp, #24
	pop	{r4, pc}
.Lfunc_end180:
	.size	ic_tree_insert, .Lfunc_end180-ic_tree_insert
	.cfi_endproc
	.section	.text.ic_tree_insert_left,"ax",%progbits
	.globl	ic_tree_insert_left
	.p2align	1
	.type	ic_tree_insert_left,%function
	.code	16
	.thumb_func
ic_tree_insert_left:
	.cfi_startproc
	push	{r7, lr}
	.cfi_def_cfa_offset 8
	.cfi_offset lr, -4
	.cfi_offset r7, -8
	sub	sp, #16
	.cfi_def_cfa_offset 24
	ldr	r1, [sp, #32]
	str	r1, [sp, #12]
	ldr	r1, [sp, #28]
	str	r1, [sp, #8]
	movs	r1, #0
	str	r1, [sp, #4]
	ldr	r1, [sp, #24]
	str	r1, [sp]
	cmp	r0, #0
	bne	.LBB181_2
	movs	r1, #1
	lsls	r1, r1, #12
	adds	r0, r0, r1
.LBB181_2:
	bl	ic_raw.tree_calls.insert_at
	add	sp, #16
	pop	{r7, pc}
.Lfunc_end181:
	.size	ic_tree_insert_left, .Lfunc_end181-ic_tree_insert_left
	.cfi_endproc
	.section	.text.ic_tree_insert_right,"ax",%progbits
	.globl	ic_tree_insert_right
	.p2align	1
	.type	ic_tree_insert_right,%function
	.code	16
	.thumb_func
ic_tree_insert_right:
	.cfi_startproc
	push	{r4, lr}
	.cfi_def_cfa_offset 8
	.cfi_offset lr, -4
	.cfi_offset r4, -8
	sub	sp, #16
	.cfi_def_cfa_offset 24
	ldr	r1, [sp, #32]
	str	r1, [sp, #12]
	ldr	r1, [sp, #28]
	str	r1, [sp, #8]
	movs	r1, #1
	str	r1, [sp, #4]
	ldr	r4, [sp, #24]
	str	r4, [sp]
	cmp	r0, #0
	bne	.LBB182_2
	lsls	r1, r1, #12
	adds	r0, r0, r1
.LBB182_2:
	bl	ic_raw.tree_calls.insert_at
	add	sp, #16
	pop	{r4, pc}
.Lfunc_end182:
	.size	ic_tree_insert_right, .Lfunc_end182-ic_tree_insert_right
	.cfi_endproc
	.section	.text.ic_tree_join,"ax",%progbits
	.globl	ic_tree_join
	.p2align	1
	.type	ic_tree_join,%function
	.code	16
	.thumb_func
ic_tree_join:
	.cfi_startproc
	push	{r4, r5, r6, r7, lr}
	.cfi_def_cfa_offset 20
	.cfi_offset lr, -4
	.cfi_offset r7, -8
	.cfi_offset r6, -12
	.cfi_offset r5, -16
	.cfi_offset r4, -20
	sub	sp, #116
	.cfi_def_cfa_offset 136
	mov	r1, r0
	movs	r0, #1
	cmp	r1, #0
	bne	.LBB183_2
	lsls	r4, r0, #12
	adds	r1, r1, r4
.LBB183_2:
	ldr	r4, [sp, #140]
	adds	r7, r4, #1
	bhs	.LBB183_7
	movs	r5, #0
	subs	r4, r2, r7
	mov	r4, r3
	sbcs	r4, r5
	blo	.LBB183_7
	movs	r6, #24
	muls	r6, r7, r6
	adds	r0, r1, r6
	subs	r0, #24
	ldr	r0, [r0]
	lsls	r0, r0, #31
	lsrs	r0, r0, #30
	bne	.LBB183_7
	str	r7, [sp, #56]
	ldr	r4, [sp, #144]
	mov	r0, r5
	ldr	r5, [sp, #136]
	str	r0, [sp, #64]
	str	r1, [sp, #72]
	add	r1, sp, #76
	stm	r1!, {r0, r2, r3}
	ldr	r7, [r4]
	str	r4, [sp, #52]
	ldr	r4, [r4, #4]
	movs	r0, #15
	ands	r4, r0
	movs	r1, #7
	mvns	r1, r1
	ands	r7, r1
	mov	r2, r7
	orrs	r2, r4
	ldr	r3, [r5]
	str	r5, [sp, #48]
	ldr	r5, [r5, #4]
	ands	r5, r0
	ands	r3, r1
	movs	r0, #5
	str	r2, [sp, #68]
	cmp	r2, #0
	str	r7, [sp, #60]
	beq	.LBB183_8
	mov	r1, r3
	eors	r1, r7
	mov	r2, r5
	eors	r2, r4
	orrs	r2, r1
	bne	.LBB183_8
.LBB183_7:
	add	sp, #116
	pop	{r4, r5, r6, r7, pc}
.LBB183_8:
	str	r4, [sp, #40]
	str	r0, [sp, #44]
	movs	r1, #66
	mov	r0, r5
	ldr	r5, [sp, #64]
	str	r5, [sp, #16]
	str	r5, [sp, #20]
	str	r1, [sp, #32]
	str	r1, [sp, #24]
	str	r3, [sp]
	str	r0, [sp, #4]
	str	r5, [sp, #8]
	str	r3, [sp, #28]
	mov	r7, r3
	str	r0, [sp, #36]
	orrs	r7, r0
	subs	r0, r7, #1
	sbcs	r7, r0
	add	r4, sp, #88
	add	r1, sp, #72
	mov	r0, r4
	mov	r2, r7
	bl	ic_check.tree.check_below.ffc36cde30076884
	ldrb	r0, [r4]
	cmp	r0, #1
	bne	.LBB183_18
	ldrb	r0, [r4, #20]
	cmp	r0, #1
	bne	.LBB183_18
	str	r5, [sp, #16]
	str	r5, [sp, #20]
	ldr	r0, [sp, #32]
	str	r0, [sp, #24]
	ldr	r0, [sp, #60]
	str	r0, [sp]
	ldr	r0, [sp, #40]
	str	r0, [sp, #4]
	str	r5, [sp, #8]
	ldr	r2, [sp, #68]
	subs	r0, r2, #1
	sbcs	r2, r0
	add	r4, sp, #88
	add	r1, sp, #72
	mov	r0, r4
	str	r2, [sp, #68]
	bl	ic_check.tree.check_below.ffc36cde30076884
	ldrb	r0, [r4]
	cmp	r0, #1
	bne	.LBB183_18
	ldrb	r0, [r4, #20]
	cmp	r0, #1
	ldr	r0, [sp, #44]
	ldr	r2, [sp, #56]
	bne	.LBB183_7
	ldr	r0, [sp, #72]
	adds	r0, r0, r6
	subs	r0, #24
	ldrb	r1, [r0]
	lsls	r1, r1, #31
	bne	.LBB183_19
	lsrs	r1, r2, #29
	lsls	r2, r2, #3
	movs	r4, #0
	movs	r3, #1
	stm	r0!, {r3, r4}
	ldr	r0, [sp, #60]
	str	r0, [sp, #16]
	ldr	r0, [sp, #40]
	str	r0, [sp, #20]
	str	r2, [sp]
	str	r1, [sp, #4]
	ldr	r0, [sp, #68]
	str	r0, [sp, #8]
	add	r0, sp, #72
	mov	r1, r7
	ldr	r2, [sp, #28]
	ldr	r3, [sp, #36]
	bl	ic_rbtree.join.roots.join.f4da04d8a93b4f27
	str	r2, [sp, #36]
	uxtb	r0, r0
	cmp	r0, #0
	bne	.LBB183_15
	str	r0, [sp, #36]
.LBB183_15:
	bne	.LBB183_17
	mov	r1, r0
.LBB183_17:
	mov	r2, r4
	b	.LBB183_20
.LBB183_18:
	ldr	r0, [sp, #44]
	add	sp, #116
	pop	{r4, r5, r6, r7, pc}
.LBB183_19:
	ldr	r4, [sp, #60]
	ldr	r1, [sp, #28]
	ldr	r2, [sp, #40]
.LBB183_20:
	ldr	r0, [sp, #48]
	str	r1, [r0]
	ldr	r1, [sp, #36]
	str	r1, [r0, #4]
	ldr	r0, [sp, #52]
	str	r4, [r0]
	str	r2, [r0, #4]
	mov	r0, r5
	add	sp, #116
	pop	{r4, r5, r6, r7, pc}
.Lfunc_end183:
	.size	ic_tree_join, .Lfunc_end183-ic_tree_join
	.cfi_endproc
	.section	.text.ic_tree_lower_bound,"ax",%progbits
	.globl	ic_tree_lower_bound
	.p2align	1
	.type	ic_tree_lower_bound,%function
	.code	16
	.thumb_func
ic_tree_lower_bound:
	.cfi_startproc
	push	{r4, r5, r6, r7, lr}
	.cfi_def_cfa_offset 20
	.cfi_offset lr, -4
	.cfi_offset r7, -8
	.cfi_offset r6, -12
	.cfi_offset r5, -16
	.cfi_offset r4, -20
	sub	sp, #76
	.cfi_def_cfa_offset 96
	movs	r1, #1
	lsls	r1, r1, #12
	ldr	r7, [sp, #96]
	cmp	r7, #0
	bne	.LBB184_2
	adds	r7, r7, r1
.LBB184_2:
	cmp	r0, #0
	bne	.LBB184_4
	adds	r0, r0, r1
.LBB184_4:
	ldr	r4, [sp, #108]
	ldr	r1, [sp, #104]
	str	r2, [sp, #40]
	str	r1, [sp, #52]
	subs	r1, r1, r2
	str	r4, [sp, #56]
	mov	r2, r4
	mov	r1, r3
	sbcs	r2, r3
	bhs	.LBB184_5
	b	.LBB184_48
.LBB184_5:
	ldr	r3, [sp, #112]
	ldr	r5, [r3]
	ldr	r2, [r3, #4]
	movs	r3, #15
	str	r3, [sp, #72]
	ands	r2, r3
	movs	r4, #7
	bics	r5, r4
	movs	r6, #4
	mov	r3, r5
	orrs	r3, r2
	bne	.LBB184_6
	b	.LBB184_47
.LBB184_6:
	str	r6, [sp, #8]
	lsrs	r3, r5, #3
	str	r0, [sp, #68]
	lsls	r6, r2, #29
	adds	r3, r3, r6
	str	r2, [sp, #36]
	lsrs	r6, r2, #3
	str	r7, [sp, #64]
	ldr	r0, [sp, #40]
	subs	r7, r0, r3
	mov	r7, r1
	sbcs	r7, r6
	ldr	r7, [sp, #64]
	ldr	r6, [sp, #68]
	bhs	.LBB184_7
	b	.LBB184_48
.LBB184_7:
	movs	r0, #24
	str	r0, [sp, #60]
	muls	r3, r0, r3
	adds	r3, r6, r3
	subs	r3, #24
	ldrb	r3, [r3]
	lsls	r3, r3, #31
	bne	.LBB184_8
	b	.LBB184_48
.LBB184_8:
	mvns	r0, r4
	str	r0, [sp, #56]
	ldr	r0, [sp, #124]
	str	r0, [sp, #52]
	ldr	r0, [sp, #120]
	str	r0, [sp, #48]
	ldr	r0, [sp, #128]
	str	r0, [sp, #4]
	ldr	r3, [sp, #40]
	lsrs	r0, r3, #29
	lsls	r2, r1, #3
	adds	r0, r2, r0
	str	r0, [sp, #44]
	lsls	r0, r3, #3
	str	r0, [sp, #40]
	movs	r0, #0
	movs	r3, #22
	str	r0, [sp, #32]
	str	r0, [sp, #28]
	ldr	r1, [sp, #36]
.LBB184_9:
	str	r3, [sp, #36]
	lsrs	r0, r5, #3
	ldr	r2, [sp, #60]
	muls	r0, r2, r0
	adds	r4, r6, r0
	mov	r0, r4
	subs	r0, #24
	subs	r4, #16
	adds	r2, r7, r5
	subs	r2, #8
	ldr	r3, [r2]
	ldr	r2, [r2, #4]
	ldr	r6, [sp, #48]
	subs	r3, r3, r6
	ldr	r3, [sp, #52]
	sbcs	r2, r3
	blo	.LBB184_31
	str	r5, [sp, #32]
	bhs	.LBB184_32
.LBB184_11:
	ldr	r6, [r4]
	ldr	r1, [r0]
	str	r6, [sp, #20]
	blo	.LBB184_13
.LBB184_12:
	mov	r6, r1
.LBB184_13:
	str	r1, [sp, #24]
	ldr	r3, [r4, #4]
	ldr	r5, [r0, #4]
	mov	r2, r3
	blo	.LBB184_15
	mov	r2, r5
.LBB184_15:
	ldr	r1, [sp, #72]
	ands	r2, r1
	mov	r4, r6
	ldr	r1, [sp, #56]
	ands	r4, r1
	movs	r0, #0
	subs	r7, r4, #1
	mov	r1, r2
	str	r0, [sp, #16]
	sbcs	r1, r0
	ldr	r0, [sp, #40]
	subs	r7, r7, r0
	ldr	r7, [sp, #44]
	sbcs	r1, r7
	bhs	.LBB184_37
	lsrs	r0, r6, #3
	ldr	r1, [sp, #60]
	muls	r0, r1, r0
	ldr	r1, [sp, #68]
	adds	r5, r1, r0
	mov	r3, r5
	subs	r3, #24
	subs	r5, #16
	ldr	r0, [sp, #64]
	adds	r0, r0, r4
	subs	r0, #8
	ldr	r1, [r0]
	ldr	r0, [r0, #4]
	ldr	r6, [sp, #48]
	subs	r1, r1, r6
	ldr	r1, [sp, #52]
	sbcs	r0, r1
	blo	.LBB184_33
	str	r4, [sp, #32]
	bhs	.LBB184_34
.LBB184_18:
	ldr	r7, [r5]
	ldr	r0, [r3]
	str	r7, [sp, #20]
	blo	.LBB184_20
.LBB184_19:
	mov	r7, r0
.LBB184_20:
	str	r0, [sp, #24]
	ldr	r2, [r5, #4]
	ldr	r6, [r3, #4]
	str	r2, [sp, #12]
	blo	.LBB184_22
	mov	r2, r6
.LBB184_22:
	ldr	r0, [sp, #72]
	ands	r2, r0
	mov	r5, r7
	ldr	r0, [sp, #56]
	ands	r5, r0
	movs	r4, #0
	subs	r0, r5, #1
	mov	r1, r2
	sbcs	r1, r4
	ldr	r3, [sp, #40]
	subs	r0, r0, r3
	ldr	r0, [sp, #44]
	sbcs	r1, r0
	bhs	.LBB184_40
	lsrs	r0, r7, #3
	ldr	r1, [sp, #60]
	muls	r0, r1, r0
	ldr	r1, [sp, #68]
	adds	r3, r1, r0
	mov	r7, r3
	subs	r7, #24
	subs	r3, #16
	ldr	r0, [sp, #64]
	adds	r0, r0, r5
	subs	r0, #8
	ldr	r1, [r0]
	ldr	r0, [r0, #4]
	ldr	r6, [sp, #48]
	subs	r1, r1, r6
	ldr	r1, [sp, #52]
	sbcs	r0, r1
	blo	.LBB184_35
	str	r5, [sp, #32]
	bhs	.LBB184_36
.LBB184_25:
	ldr	r6, [r3]
	ldr	r0, [r7]
	mov	r5, r6
	blo	.LBB184_27
.LBB184_26:
	mov	r5, r0
.LBB184_27:
	str	r0, [sp, #24]
	ldr	r0, [r3, #4]
	ldr	r2, [r7, #4]
	mov	r1, r0
	blo	.LBB184_29
	mov	r1, r2
.LBB184_29:
	ldr	r3, [sp, #72]
	ands	r1, r3
	ldr	r3, [sp, #56]
	ands	r5, r3
	subs	r3, r5, #1
	mov	r7, r1
	sbcs	r7, r4
	ldr	r4, [sp, #40]
	subs	r3, r3, r4
	ldr	r3, [sp, #44]
	sbcs	r7, r3
	ldr	r3, [sp, #36]
	bhs	.LBB184_42
	subs	r3, r3, #1
	ldr	r6, [sp, #68]
	ldr	r7, [sp, #64]
	beq	.LBB184_46
	b	.LBB184_9
.LBB184_31:
	blo	.LBB184_11
.LBB184_32:
	str	r1, [sp, #28]
	ldr	r6, [r4]
	ldr	r1, [r0]
	str	r6, [sp, #20]
	bhs	.LBB184_12
	b	.LBB184_13
.LBB184_33:
	blo	.LBB184_18
.LBB184_34:
	str	r2, [sp, #28]
	ldr	r7, [r5]
	ldr	r0, [r3]
	str	r7, [sp, #20]
	bhs	.LBB184_19
	b	.LBB184_20
.LBB184_35:
	blo	.LBB184_25
.LBB184_36:
	str	r2, [sp, #28]
	ldr	r6, [r3]
	ldr	r0, [r7]
	mov	r5, r6
	bhs	.LBB184_26
	b	.LBB184_27
.LBB184_37:
	ldr	r0, [sp, #24]
	subs	r1, r0, r4
	sbcs	r5, r2
	bhs	.LBB184_44
	ldr	r0, [sp, #20]
	subs	r0, r0, r4
	sbcs	r3, r2
	bhs	.LBB184_44
	movs	r6, #5
	b	.LBB184_47
.LBB184_40:
	ldr	r0, [sp, #24]
	subs	r0, r0, r5
	sbcs	r6, r2
	bhs	.LBB184_44
	ldr	r0, [sp, #20]
	subs	r0, r0, r5
	ldr	r0, [sp, #12]
	sbcs	r0, r2
	blo	.LBB184_46
	b	.LBB184_44
.LBB184_42:
	ldr	r3, [sp, #24]
	subs	r3, r3, r5
	sbcs	r2, r1
	bhs	.LBB184_44
	mov	r2, r1
	subs	r1, r6, r5
	sbcs	r0, r2
	blo	.LBB184_46
.LBB184_44:
	ldr	r1, [sp, #32]
	mov	r0, r1
	ldr	r2, [sp, #28]
	orrs	r0, r2
	ldr	r6, [sp, #8]
	beq	.LBB184_47
	lsrs	r0, r1, #3
	lsls	r1, r2, #29
	adds	r0, r0, r1
	ldr	r2, [sp, #60]
	muls	r2, r0, r2
	ldr	r1, [sp, #68]
	adds	r1, r1, r2
	subs	r1, #24
	ldrb	r1, [r1]
	lsls	r1, r1, #31
	bne	.LBB184_49
.LBB184_46:
	movs	r6, #5
	mov	r0, r6
	add	sp, #76
	pop	{r4, r5, r6, r7, pc}
.LBB184_47:
	mov	r0, r6
	add	sp, #76
	pop	{r4, r5, r6, r7, pc}
.LBB184_48:
	ldr	r0, [sp, #40]
	ldr	r2, [sp, #52]
	ldr	r3, [sp, #56]
	bl	ic_raw.search.refusal
	mov	r6, r0
	mov	r0, r6
	add	sp, #76
	pop	{r4, r5, r6, r7, pc}
.LBB184_49:
	subs	r0, r0, #1
	ldr	r1, [sp, #4]
	str	r0, [r1]
	ldr	r6, [sp, #16]
	mov	r0, r6
	add	sp, #76
	pop	{r4, r5, r6, r7, pc}
.Lfunc_end184:
	.size	ic_tree_lower_bound, .Lfunc_end184-ic_tree_lower_bound
	.cfi_endproc
	.section	.text.ic_tree_next,"ax",%progbits
	.globl	ic_tree_next
	.p2align	1
	.type	ic_tree_next,%function
	.code	16
	.thumb_func
ic_tree_next:
	.cfi_startproc
	push	{r4, r5, r6, r7, lr}
	.cfi_def_cfa_offset 20
	.cfi_offset lr, -4
	.cfi_offset r7, -8
	.cfi_offset r6, -12
	.cfi_offset r5, -16
	.cfi_offset r4, -20
	sub	sp, #76
	.cfi_def_cfa_offset 96
	str	r3, [sp, #64]
	str	r2, [sp, #60]
	mov	r5, r0
	movs	r4, #1
	cmp	r0, #0
	bne	.LBB185_2
	lsls	r0, r4, #12
	adds	r5, r5, r0
.LBB185_2:
	ldr	r0, [sp, #96]
	ldm	r0!, {r6, r7}
	movs	r0, #15
	str	r0, [sp, #72]
	ands	r7, r0
	movs	r0, #7
	mov	r3, r6
	bics	r3, r0
	ldr	r1, [sp, #100]
	adds	r2, r1, #1
	ldr	r1, [sp, #104]
	blo	.LBB185_4
	movs	r0, #1
	str	r3, [sp]
	str	r7, [sp, #4]
	str	r0, [sp, #8]
	str	r1, [sp, #12]
	mov	r0, r5
	ldr	r2, [sp, #60]
	ldr	r3, [sp, #64]
	bl	ic_raw.tree.step_from_none
	add	sp, #76
	pop	{r4, r5, r6, r7, pc}
.LBB185_4:
	str	r1, [sp, #24]
	str	r4, [sp, #32]
	lsrs	r1, r2, #29
	str	r1, [sp, #20]
	lsls	r1, r2, #3
	str	r1, [sp, #68]
	movs	r1, #0
	ldr	r4, [sp, #60]
	subs	r4, r4, r2
	ldr	r4, [sp, #64]
	str	r1, [sp, #36]
	sbcs	r4, r1
	bhs	.LBB185_5
	b	.LBB185_19
.LBB185_5:
	movs	r4, #24
	str	r4, [sp, #56]
	muls	r2, r4, r2
	adds	r2, r5, r2
	str	r2, [sp, #28]
	subs	r2, #24
	ldrb	r2, [r2]
	lsls	r2, r2, #31
	bne	.LBB185_6
	b	.LBB185_19
.LBB185_6:
	subs	r1, r3, #1
	str	r1, [sp, #48]
	ldr	r3, [sp, #36]
	sbcs	r7, r3
	mov	r2, r0
	ldr	r0, [sp, #60]
	lsrs	r3, r0, #29
	ldr	r1, [sp, #64]
	lsls	r4, r1, #3
	adds	r3, r4, r3
	lsls	r1, r0, #3
	mov	r0, r2
	ldr	r2, [sp, #48]
	subs	r2, r2, r1
	str	r3, [sp, #52]
	sbcs	r7, r3
	blo	.LBB185_7
	b	.LBB185_19
.LBB185_7:
	lsrs	r2, r6, #3
	ldr	r3, [sp, #56]
	muls	r2, r3, r2
	adds	r2, r5, r2
	subs	r2, #24
	ldrb	r2, [r2]
	lsls	r2, r2, #31
	bne	.LBB185_8
	b	.LBB185_19
.LBB185_8:
	mvns	r0, r0
	mov	r6, r1
	ldr	r1, [sp, #28]
	mov	r2, r1
	subs	r2, #16
	ldr	r4, [r2]
	ldr	r2, [r2, #4]
	mov	r3, r2
	ldr	r7, [sp, #72]
	ands	r3, r7
	str	r4, [sp, #60]
	str	r0, [sp, #64]
	ands	r4, r0
	subs	r4, r4, #1
	ldr	r0, [sp, #36]
	sbcs	r3, r0
	subs	r4, r4, r6
	ldr	r0, [sp, #52]
	sbcs	r3, r0
	str	r5, [sp, #44]
	str	r6, [sp, #40]
	bhs	.LBB185_14
	ldr	r0, [sp, #60]
	lsrs	r0, r0, #3
	lsls	r1, r2, #29
	adds	r2, r0, r1
	movs	r0, #66
	str	r0, [sp, #68]
.LBB185_10:
	ldr	r1, [sp, #56]
	str	r2, [sp, #48]
	muls	r1, r2, r1
	adds	r0, r5, r1
	subs	r0, #24
	ldr	r5, [r0]
	ldr	r2, [r0, #4]
	mov	r6, r2
	ands	r6, r7
	mov	r7, r5
	ldr	r0, [sp, #64]
	ands	r7, r0
	movs	r0, #0
	subs	r7, r7, #1
	sbcs	r6, r0
	ldr	r3, [sp, #40]
	subs	r7, r7, r3
	ldr	r7, [sp, #52]
	sbcs	r6, r7
	bhs	.LBB185_21
	ldr	r1, [sp, #68]
	cmp	r1, #0
	beq	.LBB185_20
	lsrs	r1, r5, #3
	lsls	r2, r2, #29
	adds	r2, r1, r2
	ldr	r1, [sp, #56]
	str	r2, [sp, #48]
	muls	r1, r2, r1
	ldr	r2, [sp, #44]
	adds	r5, r2, r1
	subs	r5, #24
	ldm	r5, {r2, r5}
	mov	r6, r5
	ldr	r7, [sp, #72]
	ands	r6, r7
	mov	r7, r2
	ldr	r3, [sp, #64]
	ands	r7, r3
	subs	r7, r7, #1
	sbcs	r6, r0
	ldr	r0, [sp, #40]
	subs	r0, r7, r0
	ldr	r0, [sp, #52]
	sbcs	r6, r0
	bhs	.LBB185_21
	lsrs	r0, r2, #3
	lsls	r1, r5, #29
	adds	r2, r0, r1
	ldr	r0, [sp, #68]
	subs	r0, r0, #2
	str	r0, [sp, #68]
	ldr	r5, [sp, #44]
	ldr	r7, [sp, #72]
	b	.LBB185_10
.LBB185_14:
	subs	r1, #8
	mov	r0, r7
	ldr	r7, [r1]
	ldr	r4, [r1, #4]
	ands	r4, r0
	ldr	r3, [sp, #64]
	ands	r7, r3
	subs	r0, r7, #1
	mov	r2, r4
	ldr	r1, [sp, #36]
	sbcs	r2, r1
	subs	r0, r0, r6
	ldr	r0, [sp, #52]
	sbcs	r2, r0
	mov	r6, r3
	ldr	r1, [sp, #68]
	ldr	r3, [sp, #20]
	bhs	.LBB185_23
	movs	r0, #66
	mvns	r0, r0
.LBB185_16:
	str	r1, [sp, #68]
	str	r7, [sp, #60]
	lsrs	r1, r7, #3
	str	r4, [sp, #64]
	lsls	r2, r4, #29
	adds	r2, r1, r2
	ldr	r1, [sp, #56]
	str	r2, [sp, #48]
	muls	r1, r2, r1
	adds	r2, r5, r1
	mov	r7, r2
	subs	r7, #16
	ldm	r7, {r5, r7}
	ldr	r4, [sp, #72]
	ands	r7, r4
	eors	r7, r3
	ands	r5, r6
	ldr	r4, [sp, #68]
	eors	r5, r4
	orrs	r5, r7
	bne	.LBB185_21
	cmp	r0, #0
	beq	.LBB185_21
	mov	r3, r6
	subs	r2, #8
	ldr	r7, [r2]
	ldr	r4, [r2, #4]
	ldr	r1, [sp, #72]
	ands	r4, r1
	ands	r7, r3
	movs	r1, #0
	subs	r2, r7, #1
	mov	r5, r4
	str	r1, [sp, #36]
	sbcs	r5, r1
	adds	r0, r0, #1
	ldr	r1, [sp, #40]
	subs	r2, r2, r1
	ldr	r2, [sp, #52]
	sbcs	r5, r2
	ldr	r1, [sp, #60]
	ldr	r3, [sp, #64]
	ldr	r5, [sp, #44]
	blo	.LBB185_16
	b	.LBB185_23
.LBB185_19:
	ldr	r0, [sp, #68]
	str	r0, [sp]
	ldr	r0, [sp, #20]
	str	r0, [sp, #4]
	mov	r0, r5
	ldr	r2, [sp, #60]
	ldr	r3, [sp, #64]
	bl	ic_raw.table.RawTable.refusal_of.19bacce014a8892a
	add	sp, #76
	pop	{r4, r5, r6, r7, pc}
.LBB185_20:
	lsrs	r0, r5, #3
	lsls	r1, r2, #29
	adds	r0, r0, r1
	ldr	r1, [sp, #56]
	str	r0, [sp, #48]
	muls	r1, r0, r1
.LBB185_21:
	ldr	r0, [sp, #44]
	adds	r0, r0, r1
	subs	r0, #24
	ldrb	r0, [r0]
	lsls	r0, r0, #31
	ldr	r0, [sp, #32]
	str	r0, [sp, #36]
	beq	.LBB185_23
	ldr	r0, [sp, #48]
	subs	r0, r0, #1
	ldr	r1, [sp, #24]
	str	r0, [r1]
	movs	r0, #0
	add	sp, #76
	pop	{r4, r5, r6, r7, pc}
.LBB185_23:
	ldr	r0, [sp, #36]
	bl	ic_raw.tree.nothing_found
	add	sp, #76
	pop	{r4, r5, r6, r7, pc}
.Lfunc_end185:
	.size	ic_tree_next, .Lfunc_end185-ic_tree_next
	.cfi_endproc
	.section	.text.ic_tree_prev,"ax",%progbits
	.globl	ic_tree_prev
	.p2align	1
	.type	ic_tree_prev,%function
	.code	16
	.thumb_func
ic_tree_prev:
	.cfi_startproc
	push	{r4, r5, r6, r7, lr}
	.cfi_def_cfa_offset 20
	.cfi_offset lr, -4
	.cfi_offset r7, -8
	.cfi_offset r6, -12
	.cfi_offset r5, -16
	.cfi_offset r4, -20
	sub	sp, #76
	.cfi_def_cfa_offset 96
	str	r3, [sp, #64]
	mov	r6, r2
	mov	r2, r0
	movs	r0, #1
	cmp	r2, #0
	str	r0, [sp, #36]
	bne	.LBB186_2
	lsls	r0, r0, #12
	adds	r2, r2, r0
.LBB186_2:
	ldr	r0, [sp, #96]
	ldm	r0!, {r3, r7}
	movs	r0, #15
	str	r0, [sp, #72]
	ands	r7, r0
	movs	r0, #7
	mov	r4, r3
	bics	r4, r0
	ldr	r1, [sp, #100]
	adds	r5, r1, #1
	ldr	r1, [sp, #104]
	blo	.LBB186_4
	movs	r0, #0
	str	r4, [sp]
	str	r7, [sp, #4]
	str	r0, [sp, #8]
	str	r1, [sp, #12]
	mov	r0, r2
	mov	r2, r6
	ldr	r3, [sp, #64]
	bl	ic_raw.tree.step_from_none
	add	sp, #76
	pop	{r4, r5, r6, r7, pc}
.LBB186_4:
	str	r0, [sp, #44]
	str	r1, [sp, #28]
	lsrs	r0, r5, #29
	str	r0, [sp, #24]
	lsls	r0, r5, #3
	str	r0, [sp, #68]
	movs	r1, #0
	subs	r0, r6, r5
	ldr	r0, [sp, #64]
	str	r1, [sp, #60]
	sbcs	r0, r1
	bhs	.LBB186_5
	b	.LBB186_19
.LBB186_5:
	movs	r0, #24
	str	r0, [sp, #56]
	muls	r5, r0, r5
	adds	r5, r2, r5
	str	r5, [sp, #20]
	subs	r5, #24
	ldr	r0, [r5]
	str	r0, [sp, #32]
	lsls	r0, r0, #31
	bne	.LBB186_6
	b	.LBB186_19
.LBB186_6:
	subs	r0, r4, #1
	str	r0, [sp, #40]
	ldr	r0, [sp, #60]
	sbcs	r7, r0
	lsrs	r4, r6, #29
	ldr	r0, [sp, #64]
	lsls	r0, r0, #3
	adds	r4, r0, r4
	lsls	r0, r6, #3
	str	r0, [sp, #48]
	ldr	r1, [sp, #40]
	subs	r0, r1, r0
	str	r4, [sp, #52]
	sbcs	r7, r4
	blo	.LBB186_7
	b	.LBB186_19
.LBB186_7:
	lsrs	r0, r3, #3
	ldr	r3, [sp, #56]
	muls	r0, r3, r0
	adds	r0, r2, r0
	subs	r0, #24
	ldrb	r0, [r0]
	lsls	r0, r0, #31
	bne	.LBB186_8
	b	.LBB186_19
.LBB186_8:
	ldr	r0, [sp, #44]
	mvns	r1, r0
	ldr	r0, [r5, #4]
	mov	r3, r0
	ldr	r4, [sp, #72]
	ands	r3, r4
	ldr	r5, [sp, #32]
	mov	r4, r5
	ands	r4, r1
	subs	r4, r4, #1
	ldr	r7, [sp, #60]
	sbcs	r3, r7
	ldr	r6, [sp, #48]
	subs	r4, r4, r6
	ldr	r4, [sp, #52]
	sbcs	r3, r4
	str	r2, [sp, #40]
	bhs	.LBB186_14
	str	r1, [sp, #64]
	lsrs	r1, r5, #3
	lsls	r0, r0, #29
	adds	r4, r1, r0
	movs	r0, #66
	str	r0, [sp, #68]
.LBB186_10:
	ldr	r3, [sp, #72]
	ldr	r1, [sp, #56]
	str	r4, [sp, #44]
	muls	r1, r4, r1
	adds	r0, r2, r1
	subs	r0, #16
	ldr	r5, [r0]
	ldr	r2, [r0, #4]
	mov	r6, r2
	ands	r6, r3
	mov	r7, r5
	ldr	r0, [sp, #64]
	ands	r7, r0
	movs	r0, #0
	subs	r7, r7, #1
	sbcs	r6, r0
	ldr	r3, [sp, #48]
	subs	r7, r7, r3
	ldr	r7, [sp, #52]
	sbcs	r6, r7
	bhs	.LBB186_21
	ldr	r1, [sp, #68]
	cmp	r1, #0
	beq	.LBB186_20
	lsrs	r1, r5, #3
	lsls	r2, r2, #29
	adds	r2, r1, r2
	ldr	r1, [sp, #56]
	str	r2, [sp, #44]
	muls	r1, r2, r1
	ldr	r2, [sp, #40]
	adds	r5, r2, r1
	subs	r5, #16
	ldm	r5, {r2, r5}
	mov	r6, r5
	ldr	r7, [sp, #72]
	ands	r6, r7
	mov	r7, r2
	ldr	r3, [sp, #64]
	ands	r7, r3
	subs	r7, r7, #1
	sbcs	r6, r0
	ldr	r0, [sp, #48]
	subs	r0, r7, r0
	ldr	r0, [sp, #52]
	sbcs	r6, r0
	bhs	.LBB186_21
	lsrs	r0, r2, #3
	lsls	r1, r5, #29
	adds	r4, r0, r1
	ldr	r0, [sp, #68]
	subs	r0, r0, #2
	str	r0, [sp, #68]
	ldr	r2, [sp, #40]
	b	.LBB186_10
.LBB186_14:
	ldr	r0, [sp, #20]
	subs	r0, #8
	ldr	r4, [r0]
	ldr	r3, [r0, #4]
	ldr	r0, [sp, #72]
	ands	r3, r0
	ands	r4, r1
	subs	r6, r4, #1
	mov	r5, r3
	sbcs	r5, r7
	ldr	r0, [sp, #48]
	subs	r0, r6, r0
	ldr	r0, [sp, #52]
	sbcs	r5, r0
	mov	r5, r1
	ldr	r1, [sp, #68]
	ldr	r6, [sp, #24]
	bhs	.LBB186_23
	movs	r0, #66
	mvns	r0, r0
.LBB186_16:
	str	r1, [sp, #68]
	str	r4, [sp, #60]
	lsrs	r1, r4, #3
	str	r3, [sp, #64]
	lsls	r3, r3, #29
	adds	r3, r1, r3
	ldr	r1, [sp, #56]
	str	r3, [sp, #44]
	muls	r1, r3, r1
	adds	r2, r2, r1
	mov	r3, r2
	subs	r3, #24
	mov	r4, r6
	ldr	r6, [r3]
	ldr	r3, [r3, #4]
	ldr	r7, [sp, #72]
	ands	r3, r7
	eors	r3, r4
	ands	r6, r5
	ldr	r4, [sp, #68]
	eors	r6, r4
	orrs	r6, r3
	bne	.LBB186_21
	cmp	r0, #0
	beq	.LBB186_21
	mov	r7, r5
	subs	r2, #8
	ldr	r4, [r2]
	ldr	r3, [r2, #4]
	ldr	r1, [sp, #72]
	ands	r3, r1
	ands	r4, r7
	movs	r7, #0
	subs	r2, r4, #1
	mov	r6, r3
	sbcs	r6, r7
	adds	r0, r0, #1
	ldr	r1, [sp, #48]
	subs	r2, r2, r1
	ldr	r2, [sp, #52]
	sbcs	r6, r2
	ldr	r1, [sp, #60]
	ldr	r6, [sp, #64]
	ldr	r2, [sp, #40]
	blo	.LBB186_16
	b	.LBB186_23
.LBB186_19:
	ldr	r0, [sp, #68]
	str	r0, [sp]
	ldr	r0, [sp, #24]
	str	r0, [sp, #4]
	mov	r0, r2
	mov	r2, r6
	ldr	r3, [sp, #64]
	bl	ic_raw.table.RawTable.refusal_of.19bacce014a8892a
	add	sp, #76
	pop	{r4, r5, r6, r7, pc}
.LBB186_20:
	lsrs	r0, r5, #3
	lsls	r1, r2, #29
	adds	r0, r0, r1
	ldr	r1, [sp, #56]
	str	r0, [sp, #44]
	muls	r1, r0, r1
.LBB186_21:
	ldr	r0, [sp, #40]
	adds	r0, r0, r1
	subs	r0, #24
	ldrb	r0, [r0]
	lsls	r0, r0, #31
	ldr	r7, [sp, #36]
	beq	.LBB186_23
	ldr	r0, [sp, #44]
	subs	r0, r0, #1
	ldr	r1, [sp, #28]
	str	r0, [r1]
	movs	r0, #0
	add	sp, #76
	pop	{r4, r5, r6, r7, pc}
.LBB186_23:
	mov	r0, r7
	bl	ic_raw.tree.nothing_found
	add	sp, #76
	pop	{r4, r5, r6, r7, pc}
.Lfunc_end186:
	.size	ic_tree_prev, .Lfunc_end186-ic_tree_prev
	.cfi_endproc
	.section	.text.ic_tree_remove,"ax",%progbits
	.globl	ic_tree_remove
	.p2align	1
	.type	ic_tree_remove,%function
	.code	16
	.thumb_func
ic_tree_remove:
	.cfi_startproc
	push	{r7, lr}
	.cfi_def_cfa_offset 8
	.cfi_offset lr, -4
	.cfi_offset r7, -8
	sub	sp, #8
	.cfi_def_cfa_offset 16
	ldr	r1, [sp, #20]
	str	r1, [sp, #4]
	ldr	r1, [sp, #16]
	str	r1, [sp]
	cmp	r0, #0
	bne	.LBB187_2
	movs	r1, #1
	lsls	r1, r1, #12
	adds	r0, r0, r1
.LBB187_2:
	bl	ic_raw.tree_calls.remove
	add	sp, #8
	pop	{r7, pc}
.Lfunc_end187:
	.size	ic_tree_remove, .Lfunc_end187-ic_tree_remove
	.cfi_endproc
	.section	.text.ic_tree_replace,"ax",%progbits
	.globl	ic_tree_replace
	.p2align	1
	.type	ic_tree_replace,%function
	.code	16
	.thumb_func
ic_tree_replace:
	.cfi_startproc
	push	{r7, lr}
	.cfi_def_cfa_offset 8
	.cfi_offset lr, -4
	.cfi_offset r7, -8
	sub	sp, #16
	.cfi_def_cfa_offset 24
	ldr	r1, [sp, #32]
	str	r1, [sp, #8]
	ldr	r1, [sp, #28]
	str	r1, [sp, #4]
	ldr	r1, [sp, #24]
	str	r1, [sp]
	cmp	r0, #0
	bne	.LBB188_2
	movs	r1, #1
	lsls	r1, r1, #12
	adds	r0, r0, r1
.LBB188_2:
	bl	ic_raw.tree_calls.replace
	add	sp, #16
	pop	{r7, pc}
.Lfunc_end188:
	.size	ic_tree_replace, .Lfunc_end188-ic_tree_replace
	.cfi_endproc
	.section	.text.ic_tree_split,"ax",%progbits
	.globl	ic_tree_split
	.p2align	1
	.type	ic_tree_split,%function
	.code	16
	.thumb_func
ic_tree_split:
	.cfi_startproc
	push	{r4, r5, r6, r7, lr}
	.cfi_def_cfa_offset 20
	.cfi_offset lr, -4
	.cfi_offset r7, -8
	.cfi_offset r6, -12
	.cfi_offset r5, -16
	.cfi_offset r4, -20
	sub	sp, #228
	.cfi_def_cfa_offset 248
	mov	r1, r0
	movs	r0, #1
	cmp	r1, #0
	bne	.LBB189_2
	lsls	r4, r0, #12
	adds	r1, r1, r4
.LBB189_2:
	ldr	r4, [sp, #252]
	adds	r6, r4, #1
	blo	.LBB189_4
	movs	r0, #4
	add	sp, #228
	pop	{r4, r5, r6, r7, pc}
.LBB189_4:
	movs	r5, #0
	subs	r4, r2, r6
	mov	r4, r3
	sbcs	r4, r5
	blo	.LBB189_8
	movs	r7, #24
	str	r7, [sp, #132]
	muls	r7, r6, r7
	adds	r0, r1, r7
	subs	r0, #24
	ldrb	r0, [r0]
	lsls	r0, r0, #31
	bne	.LBB189_7
	movs	r0, #3
	add	sp, #228
	pop	{r4, r5, r6, r7, pc}
.LBB189_7:
	ldr	r4, [sp, #256]
	str	r2, [sp, #144]
	str	r5, [sp, #140]
	str	r1, [sp, #136]
	str	r3, [sp, #148]
	ldm	r4!, {r1, r2}
	movs	r0, #15
	str	r0, [sp, #124]
	ands	r2, r0
	movs	r0, #7
	mvns	r3, r0
	ands	r1, r3
	movs	r0, #5
	subs	r4, #8
	orrs	r1, r2
	beq	.LBB189_9
.LBB189_8:
	add	sp, #228
	pop	{r4, r5, r6, r7, pc}
.LBB189_9:
	str	r4, [sp, #36]
	str	r0, [sp, #84]
	ldr	r0, [sp, #248]
	ldr	r2, [r0]
	str	r0, [sp, #32]
	ldr	r1, [r0, #4]
	ldr	r0, [sp, #124]
	ands	r1, r0
	str	r3, [sp, #128]
	ands	r2, r3
	movs	r0, #66
	str	r5, [sp, #16]
	str	r5, [sp, #20]
	str	r0, [sp, #24]
	str	r2, [sp]
	str	r1, [sp, #4]
	str	r5, [sp, #8]
	str	r2, [sp, #80]
	str	r1, [sp, #76]
	orrs	r2, r1
	subs	r0, r2, #1
	sbcs	r2, r0
	add	r4, sp, #200
	add	r1, sp, #136
	mov	r0, r4
	bl	ic_check.tree.check_below.ffc36cde30076884
	ldrb	r0, [r4]
	cmp	r0, #1
	bne	.LBB189_20
	ldrb	r0, [r4, #20]
	cmp	r0, #1
	bne	.LBB189_20
	lsrs	r4, r6, #29
	lsls	r2, r6, #3
	ldr	r0, [sp, #136]
	str	r0, [sp, #112]
	adds	r0, r0, r7
	str	r0, [sp, #72]
	subs	r0, #8
	ldm	r0!, {r1, r3}
	ldr	r7, [sp, #124]
	ands	r3, r7
	ldr	r0, [sp, #128]
	ands	r1, r0
	mov	r0, r1
	orrs	r0, r3
	str	r2, [sp, #104]
	str	r4, [sp, #116]
	mov	r6, r4
	ldr	r0, [sp, #84]
	beq	.LBB189_21
	ldr	r2, [sp, #148]
	str	r2, [sp, #92]
	ldr	r2, [sp, #144]
	str	r2, [sp, #88]
	ldr	r4, [sp, #104]
	ldr	r2, [sp, #116]
	str	r2, [sp, #120]
	str	r5, [sp, #108]
	b	.LBB189_15
.LBB189_13:
	mov	r4, r6
	movs	r1, #0
	movs	r2, #64
	subs	r2, r2, r5
	ldr	r3, [sp, #108]
	sbcs	r1, r3
	blo	.LBB189_8
.LBB189_14:
	movs	r1, #0
	adds	r5, r5, #1
	adcs	r3, r1
	str	r3, [sp, #108]
	subs	r7, #8
	ldm	r7!, {r1, r3}
	mov	r7, r4
	ands	r3, r4
	ldr	r2, [sp, #128]
	ands	r1, r2
	mov	r2, r1
	orrs	r2, r3
	ldr	r2, [sp, #96]
	mov	r4, r2
	ldr	r6, [sp, #100]
	str	r6, [sp, #120]
	beq	.LBB189_21
.LBB189_15:
	mov	r7, r3
	mov	r6, r1
	lsrs	r1, r1, #3
	lsls	r3, r3, #29
	adds	r1, r1, r3
	str	r7, [sp, #100]
	lsrs	r3, r7, #3
	ldr	r7, [sp, #88]
	subs	r7, r7, r1
	ldr	r7, [sp, #92]
	sbcs	r7, r3
	blo	.LBB189_8
	str	r6, [sp, #96]
	ldr	r3, [sp, #132]
	muls	r1, r3, r1
	ldr	r2, [sp, #112]
	adds	r7, r2, r1
	mov	r3, r7
	subs	r3, #24
	ldr	r1, [r3]
	lsls	r6, r1, #31
	beq	.LBB189_8
	ldr	r3, [r3, #4]
	ldr	r2, [sp, #128]
	ands	r1, r2
	mov	r2, r4
	eors	r1, r4
	ldr	r6, [sp, #124]
	ands	r3, r6
	ldr	r4, [sp, #120]
	eors	r3, r4
	orrs	r3, r1
	beq	.LBB189_13
	mov	r1, r7
	subs	r1, #16
	ldr	r3, [r1]
	ldr	r1, [r1, #4]
	str	r4, [sp, #120]
	mov	r4, r6
	ands	r1, r6
	ldr	r6, [sp, #120]
	eors	r1, r6
	ldr	r6, [sp, #128]
	ands	r3, r6
	eors	r3, r2
	orrs	r3, r1
	beq	.LBB189_19
	b	.LBB189_8
.LBB189_19:
	movs	r1, #0
	mov	r2, r5
	subs	r2, #65
	ldr	r3, [sp, #108]
	mov	r2, r3
	sbcs	r2, r1
	blo	.LBB189_14
	b	.LBB189_8
.LBB189_20:
	ldr	r0, [sp, #84]
	add	sp, #228
	pop	{r4, r5, r6, r7, pc}
.LBB189_21:
	ldr	r1, [sp, #80]
	eors	r1, r2
	ldr	r2, [sp, #76]
	eors	r2, r6
	orrs	r2, r1
	beq	.LBB189_22
	b	.LBB189_8
.LBB189_22:
	ldr	r0, [sp, #72]
	subs	r0, #24
	ldm	r0!, {r1, r2}
	mov	r4, r7
	ands	r2, r7
	ldr	r5, [sp, #128]
	ands	r1, r5
	movs	r3, #0
	mov	r0, r1
	orrs	r0, r2
	str	r3, [sp, #108]
	str	r3, [sp, #100]
	ldr	r7, [sp, #132]
	ldr	r6, [sp, #104]
	beq	.LBB189_30
	ldr	r0, [sp, #112]
	subs	r0, #16
	str	r0, [sp, #112]
.LBB189_24:
	lsrs	r0, r1, #3
	muls	r0, r7, r0
	mov	r4, r5
	ldr	r5, [sp, #112]
	ldr	r3, [r5, r0]
	mov	r6, r3
	ands	r6, r4
	adds	r0, r5, r0
	mov	r5, r7
	ldr	r7, [r0, #4]
	ldr	r4, [sp, #124]
	ands	r7, r4
	movs	r0, #1
	str	r0, [sp, #100]
	mov	r0, r4
	mov	r4, r6
	str	r7, [sp, #116]
	orrs	r4, r7
	beq	.LBB189_28
	lsrs	r2, r3, #3
	muls	r2, r5, r2
	ldr	r4, [sp, #112]
	ldr	r3, [r4, r2]
	mov	r1, r3
	ldr	r7, [sp, #128]
	ands	r1, r7
	adds	r2, r4, r2
	ldr	r2, [r2, #4]
	ands	r2, r0
	mov	r4, r1
	orrs	r4, r2
	beq	.LBB189_29
	mov	r7, r5
	lsrs	r4, r3, #3
	muls	r4, r5, r4
	ldr	r5, [sp, #112]
	ldr	r3, [r5, r4]
	mov	r6, r3
	ldr	r0, [sp, #128]
	ands	r6, r0
	ldr	r0, [sp, #124]
	adds	r4, r5, r4
	mov	r5, r7
	ldr	r7, [r4, #4]
	ands	r7, r0
	mov	r4, r6
	str	r7, [sp, #116]
	orrs	r4, r7
	beq	.LBB189_28
	lsrs	r2, r3, #3
	muls	r2, r5, r2
	ldr	r3, [sp, #112]
	ldr	r1, [r3, r2]
	ldr	r4, [sp, #128]
	ands	r1, r4
	adds	r2, r3, r2
	ldr	r2, [r2, #4]
	ands	r2, r0
	mov	r3, r1
	orrs	r3, r2
	mov	r7, r5
	mov	r4, r0
	ldr	r5, [sp, #128]
	bne	.LBB189_24
	b	.LBB189_30
.LBB189_28:
	mov	r6, r1
	str	r2, [sp, #116]
.LBB189_29:
	mov	r4, r0
	ldr	r5, [sp, #128]
.LBB189_30:
	movs	r1, #23
	mvns	r0, r1
	str	r0, [sp, #56]
	movs	r1, #1
	movs	r0, #67
	ldr	r7, [sp, #108]
	str	r7, [sp, #72]
	str	r7, [sp, #40]
	str	r7, [sp, #44]
	str	r7, [sp, #52]
	str	r7, [sp, #48]
	str	r7, [sp, #60]
	str	r7, [sp, #64]
	str	r7, [sp, #68]
	b	.LBB189_34
.LBB189_31:
	add	r0, sp, #200
	ldr	r1, [sp, #104]
	str	r1, [sp]
	ldr	r1, [sp, #116]
	str	r1, [sp, #4]
	str	r0, [sp, #8]
	add	r0, sp, #152
	add	r1, sp, #136
	add	r2, sp, #176
	movs	r3, #0
.LBB189_32:
	bl	ic_rbtree.join.roots.join_higher.f4da04d8a93b4f27
	ldr	r4, [sp, #124]
	ldr	r6, [sp, #112]
	add	r0, sp, #152
	ldrb	r0, [r0]
	str	r0, [sp, #72]
	ldr	r0, [sp, #164]
	str	r0, [sp, #68]
	ldr	r0, [sp, #160]
	str	r0, [sp, #64]
	ldr	r0, [sp, #168]
	str	r0, [sp, #60]
.LBB189_33:
	ldr	r0, [sp, #96]
	ldr	r1, [sp, #92]
	ldr	r2, [sp, #120]
	adds	r7, r2, r7
	subs	r0, r0, #1
	ldr	r2, [sp, #84]
	str	r2, [sp, #100]
	ldr	r2, [sp, #88]
	str	r2, [sp, #116]
	bne	.LBB189_34
	b	.LBB189_50
.LBB189_34:
	lsls	r1, r1, #31
	bne	.LBB189_35
	b	.LBB189_50
.LBB189_35:
	str	r7, [sp, #108]
	str	r0, [sp, #96]
	lsrs	r2, r6, #3
	ldr	r0, [sp, #132]
	muls	r2, r0, r2
	ldr	r1, [sp, #136]
	adds	r3, r1, r2
	str	r3, [sp, #80]
	subs	r3, #8
	ldr	r2, [r3]
	ldr	r0, [r3, #4]
	ands	r0, r4
	mov	r3, r2
	ands	r3, r5
	str	r3, [sp, #112]
	str	r0, [sp, #88]
	orrs	r3, r0
	mov	r0, r4
	subs	r4, r3, #1
	mov	r7, r3
	sbcs	r7, r4
	str	r7, [sp, #92]
	cmp	r3, #0
	str	r2, [sp, #120]
	str	r1, [sp, #76]
	beq	.LBB189_37
	lsrs	r3, r2, #3
	ldr	r2, [sp, #132]
	muls	r3, r2, r3
	adds	r3, r1, r3
	subs	r3, #24
	ldm	r3, {r2, r3}
	mov	r7, r0
	ands	r3, r0
	ldr	r4, [sp, #116]
	eors	r3, r4
	mov	r1, r5
	ands	r2, r5
	eors	r2, r6
	orrs	r2, r3
	subs	r3, r2, #1
	sbcs	r2, r3
	str	r2, [sp, #84]
	b	.LBB189_38
.LBB189_37:
	mov	r1, r5
	mov	r7, r0
	movs	r0, #0
	str	r0, [sp, #84]
.LBB189_38:
	ldr	r0, [sp, #100]
	lsls	r0, r0, #24
	str	r0, [sp, #100]
	str	r6, [sp, #104]
	beq	.LBB189_40
	ldr	r4, [sp, #56]
	b	.LBB189_41
.LBB189_40:
	ldr	r4, [sp, #56]
	adds	r4, #8
.LBB189_41:
	ldr	r2, [sp, #80]
	ldr	r0, [r2, r4]
	mov	r3, r0
	ands	r3, r1
	adds	r2, r2, r4
	ldr	r2, [r2, #4]
	ands	r2, r7
	mov	r4, r3
	orrs	r4, r2
	subs	r5, r4, #1
	mov	r6, r4
	sbcs	r6, r5
	movs	r5, #1
	cmp	r4, #0
	ldr	r7, [sp, #108]
	mov	r4, r7
	beq	.LBB189_43
	lsrs	r0, r0, #3
	ldr	r4, [sp, #132]
	muls	r0, r4, r0
	ldr	r1, [sp, #76]
	adds	r1, r1, r0
	subs	r1, #8
	ldr	r4, [r1]
	ands	r4, r5
	movs	r7, #0
	stm	r1!, {r4, r7}
	ldr	r7, [sp, #108]
	ldr	r1, [sp, #136]
	adds	r0, r1, r0
	subs	r0, #8
	ldr	r1, [r0]
	orrs	r1, r5
	str	r1, [r0]
	subs	r0, r7, r4
	adds	r4, r0, #1
.LBB189_43:
	ldr	r0, [sp, #120]
	ands	r0, r5
	str	r0, [sp, #120]
	ldr	r0, [sp, #100]
	cmp	r0, #0
	beq	.LBB189_46
	movs	r0, #0
	str	r0, [sp, #220]
	str	r3, [sp, #208]
	str	r0, [sp, #204]
	str	r6, [sp, #200]
	str	r0, [sp, #196]
	str	r2, [sp, #212]
	ldr	r1, [sp, #68]
	str	r1, [sp, #188]
	ldr	r1, [sp, #64]
	str	r1, [sp, #184]
	str	r0, [sp, #180]
	ldr	r1, [sp, #72]
	str	r1, [sp, #176]
	str	r0, [sp, #152]
	str	r0, [sp, #156]
	str	r0, [sp, #160]
	str	r0, [sp, #164]
	str	r0, [sp, #168]
	str	r0, [sp, #172]
	str	r4, [sp, #216]
	ldr	r0, [sp, #60]
	str	r0, [sp, #192]
	cmp	r0, r4
	ldr	r5, [sp, #128]
	bls	.LBB189_45
	b	.LBB189_31
.LBB189_45:
	add	r0, sp, #176
	ldr	r1, [sp, #104]
	str	r1, [sp]
	ldr	r1, [sp, #116]
	str	r1, [sp, #4]
	str	r0, [sp, #8]
	add	r0, sp, #152
	add	r1, sp, #136
	add	r2, sp, #200
	movs	r3, #1
	b	.LBB189_32
.LBB189_46:
	movs	r0, #0
	str	r0, [sp, #220]
	ldr	r1, [sp, #44]
	str	r1, [sp, #208]
	str	r0, [sp, #204]
	ldr	r1, [sp, #48]
	str	r1, [sp, #200]
	str	r0, [sp, #196]
	ldr	r1, [sp, #52]
	str	r1, [sp, #212]
	str	r2, [sp, #188]
	str	r3, [sp, #184]
	str	r0, [sp, #180]
	str	r6, [sp, #176]
	str	r0, [sp, #152]
	str	r0, [sp, #156]
	str	r0, [sp, #160]
	str	r0, [sp, #164]
	str	r0, [sp, #168]
	str	r0, [sp, #172]
	ldr	r0, [sp, #40]
	str	r0, [sp, #216]
	str	r4, [sp, #192]
	cmp	r4, r0
	ldr	r5, [sp, #128]
	bls	.LBB189_48
	add	r0, sp, #200
	ldr	r1, [sp, #104]
	str	r1, [sp]
	ldr	r1, [sp, #116]
	str	r1, [sp, #4]
	str	r0, [sp, #8]
	add	r0, sp, #152
	add	r1, sp, #136
	add	r2, sp, #176
	movs	r3, #0
	b	.LBB189_49
.LBB189_48:
	add	r0, sp, #176
	ldr	r1, [sp, #104]
	str	r1, [sp]
	ldr	r1, [sp, #116]
	str	r1, [sp, #4]
	str	r0, [sp, #8]
	add	r0, sp, #152
	add	r1, sp, #136
	add	r2, sp, #200
	movs	r3, #1
.LBB189_49:
	bl	ic_rbtree.join.roots.join_higher.f4da04d8a93b4f27
	ldr	r4, [sp, #124]
	ldr	r6, [sp, #112]
	add	r0, sp, #152
	ldrb	r0, [r0]
	str	r0, [sp, #48]
	ldr	r0, [sp, #164]
	str	r0, [sp, #52]
	ldr	r0, [sp, #160]
	str	r0, [sp, #44]
	ldr	r0, [sp, #168]
	str	r0, [sp, #40]
	b	.LBB189_33
.LBB189_50:
	ldr	r3, [sp, #72]
	cmp	r3, #0
	ldr	r0, [sp, #64]
	bne	.LBB189_52
	mov	r0, r3
.LBB189_52:
	ldr	r1, [sp, #32]
	str	r0, [r1]
	ldr	r0, [sp, #36]
	ldr	r2, [sp, #48]
	ldr	r4, [sp, #68]
	bne	.LBB189_57
	mov	r4, r3
	str	r4, [r1, #4]
	cmp	r2, #0
	ldr	r1, [sp, #44]
	beq	.LBB189_58
.LBB189_54:
	str	r1, [r0]
	ldr	r1, [sp, #52]
	bne	.LBB189_56
.LBB189_55:
	mov	r1, r2
.LBB189_56:
	str	r1, [r0, #4]
	movs	r0, #0
	add	sp, #228
	pop	{r4, r5, r6, r7, pc}
.LBB189_57:
	str	r4, [r1, #4]
	cmp	r2, #0
	ldr	r1, [sp, #44]
	bne	.LBB189_54
.LBB189_58:
	mov	r1, r2
	str	r1, [r0]
	ldr	r1, [sp, #52]
	beq	.LBB189_55
	b	.LBB189_56
.Lfunc_end189:
	.size	ic_tree_split, .Lfunc_end189-ic_tree_split
	.cfi_endproc
	.section	.text.ic_tree_sums_before,"ax",%progbits
	.globl	ic_tree_sums_before
	.p2align	1
	.type	ic_tree_sums_before,%function
	.code	16
	.thumb_func
ic_tree_sums_before:
	.cfi_startproc
	push	{r4, r5, r6, r7, lr}
	.cfi_def_cfa_offset 20
	.cfi_offset lr, -4
	.cfi_offset r7, -8
	.cfi_offset r6, -12
	.cfi_offset r5, -16
	.cfi_offset r4, -20
	sub	sp, #100
	.cfi_def_cfa_offset 120
	mov	r4, r3
	mov	r5, r2
	str	r3, [sp, #92]
	str	r2, [sp, #88]
	movs	r2, #0
	str	r2, [sp, #76]
	str	r2, [sp, #84]
	movs	r2, #1
	lsls	r2, r2, #12
	cmp	r0, #0
	beq	.LBB190_4
	str	r0, [sp, #80]
	ldr	r6, [sp, #120]
	cmp	r6, #0
	beq	.LBB190_5
.LBB190_2:
	ldr	r7, [sp, #140]
	adds	r1, r7, #1
	blo	.LBB190_6
.LBB190_3:
	movs	r0, #4
	add	sp, #100
	pop	{r4, r5, r6, r7, pc}
.LBB190_4:
	adds	r0, r0, r2
	str	r0, [sp, #80]
	ldr	r6, [sp, #120]
	cmp	r6, #0
	bne	.LBB190_2
.LBB190_5:
	adds	r6, r6, r2
	ldr	r7, [sp, #140]
	adds	r1, r7, #1
	bhs	.LBB190_3
.LBB190_6:
	str	r0, [sp, #72]
	ldr	r0, [sp, #132]
	ldr	r2, [sp, #128]
	str	r2, [sp, #20]
	subs	r2, r2, r5
	str	r0, [sp, #24]
	mov	r2, r0
	sbcs	r2, r4
	bhs	.LBB190_7
	b	.LBB190_42
.LBB190_7:
	subs	r2, r5, r1
	mov	r2, r4
	ldr	r0, [sp, #76]
	sbcs	r2, r0
	bhs	.LBB190_8
	b	.LBB190_42
.LBB190_8:
	movs	r2, #24
	str	r2, [sp, #32]
	muls	r2, r1, r2
	ldr	r0, [sp, #72]
	adds	r2, r0, r2
	subs	r2, #24
	ldr	r3, [r2]
	mov	r0, r5
	lsls	r5, r3, #31
	bne	.LBB190_9
	b	.LBB190_42
.LBB190_9:
	mov	r5, r0
	str	r1, [sp, #60]
	str	r7, [sp, #8]
	str	r6, [sp, #16]
	ldr	r6, [r2, #4]
	movs	r7, #15
	ands	r6, r7
	movs	r1, #7
	str	r1, [sp, #56]
	bics	r3, r1
	subs	r0, r3, #1
	str	r0, [sp, #68]
	mov	r0, r6
	ldr	r1, [sp, #76]
	sbcs	r0, r1
	lsrs	r2, r5, #29
	lsls	r4, r4, #3
	adds	r2, r4, r2
	mov	r4, r1
	lsls	r1, r5, #3
	str	r1, [sp, #40]
	ldr	r5, [sp, #68]
	subs	r1, r5, r1
	str	r2, [sp, #44]
	sbcs	r0, r2
	str	r4, [sp, #36]
	str	r7, [sp, #64]
	bhs	.LBB190_12
	lsrs	r1, r3, #3
	lsls	r2, r6, #29
	adds	r1, r1, r2
	lsrs	r2, r6, #3
	movs	r4, #0
	subs	r1, r1, #1
	sbcs	r2, r4
	ldr	r0, [sp, #20]
	subs	r3, r1, r0
	ldr	r0, [sp, #24]
	sbcs	r2, r0
	ldr	r7, [sp, #64]
	str	r4, [sp, #36]
	bhs	.LBB190_12
	lsls	r1, r1, #4
	ldr	r0, [sp, #16]
	adds	r1, r0, r1
	ldr	r7, [sp, #64]
	ldr	r4, [r1, #8]
	ldr	r1, [r1, #12]
	str	r1, [sp, #36]
.LBB190_12:
	ldr	r2, [sp, #60]
	lsrs	r1, r2, #29
	str	r1, [sp, #68]
	lsls	r3, r2, #3
	ldr	r1, [sp, #144]
	str	r1, [sp, #12]
	ldr	r1, [sp, #136]
	str	r1, [sp, #28]
	ldr	r1, [sp, #56]
	mvns	r6, r1
	movs	r1, #67
	ldr	r0, [sp, #72]
	ldr	r2, [sp, #32]
	b	.LBB190_14
.LBB190_13:
	ldr	r0, [sp, #72]
	ldr	r2, [sp, #32]
	ldr	r4, [sp, #76]
	ldr	r1, [sp, #52]
	ldr	r3, [sp, #48]
	subs	r1, r1, #1
	bne	.LBB190_14
	b	.LBB190_43
.LBB190_14:
	str	r1, [sp, #52]
	str	r4, [sp, #76]
	ldr	r1, [sp, #68]
	str	r1, [sp, #56]
	str	r3, [sp, #60]
	lsrs	r1, r3, #3
	muls	r1, r2, r1
	adds	r1, r0, r1
	subs	r1, #8
	ldm	r1!, {r4, r5}
	ands	r5, r7
	ands	r4, r6
	movs	r7, #0
	mov	r1, r2
	subs	r2, r4, #1
	mov	r3, r5
	sbcs	r3, r7
	mov	r0, r6
	ldr	r6, [sp, #40]
	subs	r2, r2, r6
	ldr	r2, [sp, #44]
	sbcs	r3, r2
	blo	.LBB190_15
	b	.LBB190_41
.LBB190_15:
	str	r4, [sp, #48]
	lsrs	r3, r4, #3
	lsls	r2, r5, #29
	adds	r4, r3, r2
	muls	r1, r4, r1
	ldr	r2, [sp, #72]
	adds	r2, r2, r1
	mov	r1, r2
	subs	r1, #16
	ldr	r3, [r1]
	ldr	r1, [r1, #4]
	ldr	r7, [sp, #64]
	ands	r1, r7
	ldr	r6, [sp, #56]
	eors	r1, r6
	ands	r3, r0
	ldr	r6, [sp, #60]
	eors	r3, r6
	orrs	r3, r1
	mov	r6, r0
	str	r5, [sp, #68]
	bne	.LBB190_13
	lsrs	r0, r5, #3
	movs	r1, #0
	subs	r5, r4, #1
	sbcs	r0, r1
	ldr	r3, [sp, #20]
	subs	r3, r5, r3
	ldr	r3, [sp, #24]
	sbcs	r0, r3
	mov	r7, r1
	bhs	.LBB190_18
	lsls	r0, r5, #4
	ldr	r3, [sp, #16]
	ldr	r1, [r3, r0]
	adds	r0, r3, r0
	ldr	r7, [r0, #4]
.LBB190_18:
	ldr	r0, [sp, #28]
	cmp	r0, #0
	ldr	r4, [sp, #76]
	beq	.LBB190_24
	subs	r3, r4, r1
	ldr	r0, [sp, #36]
	mov	r3, r0
	sbcs	r3, r7
	blo	.LBB190_21
	mov	r7, r0
.LBB190_21:
	blo	.LBB190_23
	mov	r1, r4
.LBB190_23:
	str	r7, [sp, #76]
	b	.LBB190_29
.LBB190_24:
	movs	r3, #0
	adds	r5, r4, r1
	ldr	r4, [sp, #36]
	adcs	r4, r7
	mov	r0, r3
	adcs	r0, r3
	mvns	r1, r3
	cmp	r0, #0
	mov	r0, r1
	bne	.LBB190_26
	mov	r0, r4
.LBB190_26:
	bne	.LBB190_28
	mov	r1, r5
.LBB190_28:
	str	r0, [sp, #76]
.LBB190_29:
	subs	r2, #24
	ldr	r5, [r2]
	ldr	r2, [r2, #4]
	ldr	r3, [sp, #64]
	ands	r2, r3
	ands	r5, r6
	movs	r4, #0
	subs	r3, r5, #1
	mov	r7, r2
	sbcs	r7, r4
	ldr	r0, [sp, #40]
	subs	r3, r3, r0
	ldr	r3, [sp, #44]
	sbcs	r7, r3
	mov	r3, r4
	bhs	.LBB190_32
	lsrs	r3, r5, #3
	lsls	r5, r2, #29
	adds	r3, r3, r5
	lsrs	r5, r2, #3
	movs	r4, #0
	subs	r2, r3, #1
	sbcs	r5, r4
	ldr	r3, [sp, #20]
	subs	r3, r2, r3
	ldr	r3, [sp, #24]
	sbcs	r5, r3
	mov	r3, r4
	bhs	.LBB190_32
	lsls	r2, r2, #4
	ldr	r3, [sp, #16]
	adds	r2, r3, r2
	ldr	r4, [r2, #8]
	ldr	r3, [r2, #12]
.LBB190_32:
	ldr	r0, [sp, #28]
	cmp	r0, #0
	ldr	r5, [sp, #76]
	beq	.LBB190_38
	subs	r2, r1, r4
	mov	r2, r5
	sbcs	r2, r3
	blo	.LBB190_35
	mov	r3, r5
.LBB190_35:
	str	r3, [sp, #36]
	ldr	r0, [sp, #72]
	ldr	r2, [sp, #32]
	ldr	r3, [sp, #48]
	blo	.LBB190_37
.LBB190_36:
	mov	r4, r1
.LBB190_37:
	ldr	r7, [sp, #64]
	ldr	r1, [sp, #52]
	subs	r1, r1, #1
	beq	.LBB190_43
	b	.LBB190_14
.LBB190_38:
	movs	r2, #0
	adds	r1, r1, r4
	adcs	r5, r3
	mov	r3, r2
	adcs	r3, r2
	mvns	r4, r2
	cmp	r3, #0
	mov	r0, r4
	bne	.LBB190_40
	mov	r0, r5
.LBB190_40:
	str	r0, [sp, #36]
	ldr	r0, [sp, #72]
	ldr	r2, [sp, #32]
	ldr	r3, [sp, #48]
	beq	.LBB190_36
	b	.LBB190_37
.LBB190_41:
	ldr	r0, [sp, #76]
	ldr	r1, [sp, #12]
	str	r0, [r1]
	ldr	r0, [sp, #36]
	str	r0, [r1, #4]
	mov	r0, r7
	add	sp, #100
	pop	{r4, r5, r6, r7, pc}
.LBB190_42:
	str	r7, [sp]
	b	.LBB190_44
.LBB190_43:
	ldr	r0, [sp, #8]
	str	r0, [sp]
.LBB190_44:
	add	r0, sp, #80
	ldr	r2, [sp, #20]
	ldr	r3, [sp, #24]
	bl	ic_raw_augmented.sum_calls.refusal
	add	sp, #100
	pop	{r4, r5, r6, r7, pc}
.Lfunc_end190:
	.size	ic_tree_sums_before, .Lfunc_end190-ic_tree_sums_before
	.cfi_endproc
	.section	.text.ic_tree_sums_find,"ax",%progbits
	.globl	ic_tree_sums_find
	.p2align	1
	.type	ic_tree_sums_find,%function
	.code	16
	.thumb_func
ic_tree_sums_find:
	.cfi_startproc
	push	{r4, r5, r6, r7, lr}
	.cfi_def_cfa_offset 20
	.cfi_offset lr, -4
	.cfi_offset r7, -8
	.cfi_offset r6, -12
	.cfi_offset r5, -16
	.cfi_offset r4, -20
	sub	sp, #132
	.cfi_def_cfa_offset 152
	ldr	r1, [sp, #172]
	ldr	r5, [r1]
	ldr	r1, [r1, #4]
	str	r3, [sp, #84]
	str	r3, [sp, #100]
	str	r2, [sp, #80]
	str	r2, [sp, #96]
	movs	r4, #0
	str	r4, [sp, #92]
	movs	r2, #1
	lsls	r2, r2, #12
	cmp	r0, #0
	str	r2, [sp, #68]
	bne	.LBB191_2
	adds	r0, r0, r2
.LBB191_2:
	str	r0, [sp, #88]
	str	r4, [sp, #124]
	str	r4, [sp, #120]
	str	r4, [sp, #116]
	str	r4, [sp, #112]
	str	r4, [sp, #108]
	str	r4, [sp, #104]
	movs	r2, #15
	ands	r1, r2
	movs	r2, #7
	bics	r5, r2
	str	r5, [sp, #72]
	mov	r3, r5
	orrs	r3, r1
	subs	r2, r3, #1
	sbcs	r3, r2
	ldr	r7, [sp, #168]
	subs	r2, r7, #1
	sbcs	r7, r2
	ldr	r2, [sp, #176]
	str	r2, [sp, #52]
	adds	r6, r2, #1
	subs	r5, r6, #1
	mov	r2, r6
	sbcs	r2, r5
	str	r2, [sp, #56]
	ldr	r2, [sp, #152]
	cmp	r2, #0
	str	r0, [sp, #76]
	bne	.LBB191_4
	ldr	r0, [sp, #68]
	adds	r2, r2, r0
.LBB191_4:
	str	r2, [sp, #60]
	ldr	r2, [sp, #164]
	ldr	r5, [sp, #160]
	ldr	r0, [sp, #80]
	str	r5, [sp, #64]
	subs	r5, r5, r0
	str	r2, [sp, #68]
	mov	r5, r2
	ldr	r0, [sp, #84]
	sbcs	r5, r0
	blo	.LBB191_17
	cmp	r6, #0
	beq	.LBB191_8
	movs	r5, #0
	ldr	r0, [sp, #80]
	subs	r2, r0, r6
	ldr	r2, [sp, #84]
	sbcs	r2, r5
	blo	.LBB191_17
	movs	r2, #24
	muls	r2, r6, r2
	ldr	r0, [sp, #76]
	adds	r2, r0, r2
	subs	r2, #24
	ldrb	r2, [r2]
	lsls	r2, r2, #31
	beq	.LBB191_17
.LBB191_8:
	cmp	r3, #0
	beq	.LBB191_11
	ldr	r0, [sp, #72]
	lsrs	r2, r0, #3
	lsls	r5, r1, #29
	adds	r5, r2, r5
	lsrs	r2, r1, #3
	ldr	r0, [sp, #80]
	subs	r0, r0, r5
	ldr	r0, [sp, #84]
	sbcs	r0, r2
	blo	.LBB191_17
	movs	r0, #24
	muls	r0, r5, r0
	ldr	r2, [sp, #76]
	adds	r0, r2, r0
	subs	r0, #24
	ldrb	r0, [r0]
	lsls	r0, r0, #31
	beq	.LBB191_17
.LBB191_11:
	lsrs	r0, r6, #29
	lsls	r2, r6, #3
	ldr	r5, [sp, #188]
	ldr	r6, [sp, #184]
	str	r2, [sp, #32]
	str	r0, [sp, #36]
	str	r6, [sp, #40]
	str	r5, [sp, #44]
	ldr	r6, [sp, #64]
	str	r6, [sp]
	ldr	r5, [sp, #68]
	str	r5, [sp, #4]
	str	r7, [sp, #8]
	str	r3, [sp, #12]
	ldr	r0, [sp, #72]
	str	r0, [sp, #16]
	str	r1, [sp, #20]
	ldr	r0, [sp, #56]
	str	r0, [sp, #24]
	add	r7, sp, #104
	add	r1, sp, #88
	mov	r0, r7
	ldr	r2, [sp, #60]
	bl	ic_raw_augmented.find.find
	ldrb	r0, [r7]
	cmp	r0, #1
	bne	.LBB191_18
	add	r0, sp, #104
	ldrb	r0, [r0, #8]
	cmp	r0, #1
	bne	.LBB191_16
	ldr	r1, [sp, #124]
	lsls	r0, r1, #29
	ldr	r2, [sp, #120]
	lsrs	r2, r2, #3
	adds	r0, r2, r0
	lsrs	r1, r1, #3
	ldr	r2, [sp, #80]
	subs	r2, r2, r0
	ldr	r2, [sp, #84]
	sbcs	r2, r1
	blo	.LBB191_18
	movs	r1, #24
	muls	r1, r0, r1
	ldr	r2, [sp, #76]
	adds	r1, r2, r1
	subs	r1, #24
	ldrb	r1, [r1]
	lsls	r1, r1, #31
	beq	.LBB191_18
	ldr	r1, [sp, #192]
	subs	r0, r0, #1
	str	r0, [r1]
	mov	r0, r4
	add	sp, #132
	pop	{r4, r5, r6, r7, pc}
.LBB191_16:
	movs	r4, #4
	mov	r0, r4
	add	sp, #132
	pop	{r4, r5, r6, r7, pc}
.LBB191_17:
	ldr	r0, [sp, #52]
	str	r0, [sp]
	add	r0, sp, #88
	ldr	r2, [sp, #64]
	ldr	r3, [sp, #68]
	b	.LBB191_19
.LBB191_18:
	ldr	r0, [sp, #52]
	str	r0, [sp]
	add	r0, sp, #88
	mov	r2, r6
	mov	r3, r5
.LBB191_19:
	bl	ic_raw_augmented.sum_calls.refusal
	mov	r4, r0
	mov	r0, r4
	add	sp, #132
	pop	{r4, r5, r6, r7, pc}
.Lfunc_end191:
	.size	ic_tree_sums_find, .Lfunc_end191-ic_tree_sums_find
	.cfi_endproc
	.section	.text.ic_tree_sums_insert,"ax",%progbits
	.globl	ic_tree_sums_insert
	.p2align	1
	.type	ic_tree_sums_insert,%function
	.code	16
	.thumb_func
ic_tree_sums_insert:
	.cfi_startproc
	push	{r4, r5, r6, r7, lr}
	.cfi_def_cfa_offset 20
	.cfi_offset lr, -4
	.cfi_offset r7, -8
	.cfi_offset r6, -12
	.cfi_offset r5, -16
	.cfi_offset r4, -20
	sub	sp, #308
	.cfi_def_cfa_offset 328
	mov	r6, r0
	ldr	r1, [sp, #360]
	subs	r0, r1, #1
	sbcs	r1, r0
	movs	r5, #1
	lsls	r0, r5, #12
	ldr	r4, [sp, #344]
	cmp	r4, #0
	bne	.LBB192_1
	b	.LBB192_36
.LBB192_1:
	str	r4, [sp, #76]
	ldr	r4, [sp, #328]
	cmp	r4, #0
	bne	.LBB192_2
	b	.LBB192_37
.LBB192_2:
	str	r4, [sp, #148]
	cmp	r6, #0
	bne	.LBB192_4
.LBB192_3:
	adds	r6, r6, r0
.LBB192_4:
	ldr	r7, [sp, #356]
	ldr	r4, [sp, #352]
	subs	r0, r4, r2
	str	r7, [sp, #60]
	sbcs	r7, r3
	bhs	.LBB192_5
	b	.LBB192_73
.LBB192_5:
	str	r4, [sp, #36]
	str	r1, [sp, #40]
	ldr	r0, [sp, #340]
	str	r0, [sp, #52]
	ldr	r0, [sp, #336]
	str	r0, [sp, #48]
	ldr	r0, [sp, #368]
	ldr	r1, [sp, #364]
	str	r1, [sp, #56]
	str	r0, [sp, #28]
	adds	r4, r0, #1
	lsrs	r0, r4, #29
	str	r0, [sp, #32]
	str	r0, [sp, #156]
	lsls	r0, r4, #3
	str	r0, [sp, #44]
	str	r0, [sp, #152]
	movs	r5, #0
	str	r5, [sp]
	add	r0, sp, #152
	adds	r0, #8
	str	r2, [sp, #72]
	movs	r2, #104
	mov	r1, r5
	mov	r7, r3
	mov	r3, r5
	bl	ic.clear
	str	r5, [sp, #276]
	str	r5, [sp, #272]
	str	r5, [sp, #268]
	subs	r0, r4, #1
	str	r4, [sp, #64]
	sbcs	r4, r0
	str	r4, [sp, #264]
	str	r5, [sp, #100]
	str	r5, [sp, #292]
	str	r6, [sp, #288]
	ldr	r0, [sp, #56]
	ldr	r3, [r0]
	ldr	r0, [r0, #4]
	movs	r1, #15
	str	r1, [sp, #140]
	ands	r0, r1
	str	r0, [sp, #104]
	str	r0, [sp, #284]
	movs	r0, #7
	bics	r3, r0
	str	r3, [sp, #280]
	ldr	r2, [sp, #72]
	str	r2, [sp, #296]
	str	r7, [sp, #300]
	ldr	r1, [sp, #48]
	subs	r1, r1, r2
	ldr	r1, [sp, #52]
	str	r7, [sp, #68]
	sbcs	r1, r7
	ldr	r5, [sp, #76]
	ldr	r4, [sp, #148]
	str	r5, [sp, #76]
	bhs	.LBB192_6
	b	.LBB192_71
.LBB192_6:
	mov	r1, r3
	ldr	r7, [sp, #104]
	orrs	r1, r7
	bne	.LBB192_7
	b	.LBB192_39
.LBB192_7:
	lsrs	r1, r3, #3
	lsls	r2, r7, #29
	adds	r1, r1, r2
	lsrs	r2, r7, #3
	mov	r7, r3
	ldr	r3, [sp, #72]
	subs	r3, r3, r1
	ldr	r3, [sp, #68]
	sbcs	r3, r2
	bhs	.LBB192_8
	b	.LBB192_71
.LBB192_8:
	ldr	r2, [sp, #64]
	cmp	r2, #0
	bne	.LBB192_9
	b	.LBB192_71
.LBB192_9:
	ldr	r2, [sp, #72]
	ldr	r3, [sp, #64]
	subs	r2, r2, r3
	mov	r3, r7
	ldr	r2, [sp, #68]
	ldr	r7, [sp, #100]
	sbcs	r2, r7
	bhs	.LBB192_10
	b	.LBB192_71
.LBB192_10:
	movs	r2, #24
	str	r2, [sp, #144]
	muls	r1, r2, r1
	adds	r1, r6, r1
	subs	r1, #24
	ldr	r1, [r1]
	movs	r2, #1
	str	r2, [sp, #96]
	ands	r1, r2
	bne	.LBB192_11
	b	.LBB192_71
.LBB192_11:
	mvns	r0, r0
	str	r0, [sp, #132]
	ldr	r2, [sp, #72]
	lsrs	r0, r2, #29
	ldr	r1, [sp, #68]
	lsls	r1, r1, #3
	adds	r0, r1, r0
	str	r0, [sp, #128]
	ldr	r0, [sp, #44]
	adds	r0, r4, r0
	subs	r0, #8
	ldr	r1, [r0]
	str	r1, [sp, #124]
	ldr	r0, [r0, #4]
	str	r0, [sp, #120]
	lsls	r0, r2, #3
	str	r0, [sp, #116]
	movs	r0, #22
	str	r6, [sp, #136]
.LBB192_12:
	str	r0, [sp, #108]
	adds	r0, r4, r3
	subs	r0, #8
	ldr	r1, [r0]
	ldr	r0, [r0, #4]
	ldr	r2, [sp, #124]
	subs	r1, r2, r1
	ldr	r1, [sp, #120]
	sbcs	r1, r0
	ldr	r4, [sp, #96]
	bhs	.LBB192_14
	ldr	r4, [sp, #100]
.LBB192_14:
	str	r3, [sp, #92]
	lsrs	r0, r3, #3
	ldr	r1, [sp, #144]
	muls	r0, r1, r0
	adds	r3, r6, r0
	mov	r0, r3
	subs	r0, #16
	ldr	r2, [r0]
	subs	r3, #24
	ldr	r1, [r3]
	str	r4, [sp, #112]
	cmp	r4, #0
	mov	r6, r2
	bne	.LBB192_16
	mov	r6, r1
.LBB192_16:
	str	r1, [sp, #88]
	ldr	r0, [r0, #4]
	ldr	r1, [r3, #4]
	str	r0, [sp, #84]
	bne	.LBB192_18
	mov	r0, r1
.LBB192_18:
	ldr	r3, [sp, #140]
	ands	r0, r3
	mov	r4, r6
	ldr	r3, [sp, #132]
	ands	r4, r3
	subs	r3, r4, #1
	mov	r5, r0
	ldr	r7, [sp, #100]
	sbcs	r5, r7
	ldr	r7, [sp, #116]
	subs	r3, r3, r7
	ldr	r3, [sp, #128]
	sbcs	r5, r3
	blo	.LBB192_19
	b	.LBB192_42
.LBB192_19:
	ldr	r1, [sp, #148]
	adds	r1, r1, r4
	subs	r1, #8
	ldr	r2, [r1]
	ldr	r1, [r1, #4]
	movs	r5, #0
	ldr	r3, [sp, #124]
	subs	r2, r3, r2
	ldr	r2, [sp, #120]
	sbcs	r2, r1
	str	r5, [sp, #104]
	blo	.LBB192_21
	movs	r5, #1
.LBB192_21:
	lsrs	r1, r6, #3
	ldr	r2, [sp, #144]
	muls	r1, r2, r1
	ldr	r2, [sp, #136]
	adds	r6, r2, r1
	mov	r3, r6
	subs	r3, #16
	ldr	r1, [r3]
	subs	r6, #24
	ldr	r2, [r6]
	cmp	r5, #0
	str	r1, [sp, #84]
	bne	.LBB192_23
	mov	r1, r2
.LBB192_23:
	str	r2, [sp, #88]
	str	r5, [sp, #112]
	ldr	r2, [r3, #4]
	ldr	r5, [r6, #4]
	str	r2, [sp, #80]
	mov	r6, r2
	bne	.LBB192_25
	mov	r6, r5
.LBB192_25:
	ldr	r2, [sp, #140]
	ands	r6, r2
	mov	r7, r1
	ldr	r2, [sp, #132]
	ands	r7, r2
	subs	r2, r7, #1
	str	r6, [sp, #92]
	ldr	r3, [sp, #104]
	sbcs	r6, r3
	ldr	r3, [sp, #116]
	subs	r2, r2, r3
	ldr	r2, [sp, #128]
	sbcs	r6, r2
	bhs	.LBB192_51
	ldr	r0, [sp, #148]
	adds	r0, r0, r7
	subs	r0, #8
	ldm	r0!, {r2, r3}
	movs	r0, #0
	ldr	r4, [sp, #124]
	subs	r2, r4, r2
	ldr	r2, [sp, #120]
	sbcs	r2, r3
	ldr	r2, [sp, #136]
	bhs	.LBB192_28
	mov	r6, r0
	b	.LBB192_29
.LBB192_28:
	movs	r6, #1
.LBB192_29:
	lsrs	r1, r1, #3
	ldr	r3, [sp, #144]
	muls	r1, r3, r1
	adds	r4, r2, r1
	mov	r3, r4
	subs	r3, #16
	ldr	r1, [r3]
	subs	r4, #24
	ldr	r2, [r4]
	str	r6, [sp, #112]
	cmp	r6, #0
	str	r1, [sp, #84]
	bne	.LBB192_31
	mov	r1, r2
.LBB192_31:
	str	r2, [sp, #88]
	ldr	r2, [r3, #4]
	ldr	r5, [r4, #4]
	mov	r6, r2
	bne	.LBB192_33
	mov	r6, r5
.LBB192_33:
	ldr	r3, [sp, #140]
	ands	r6, r3
	ldr	r3, [sp, #132]
	ands	r1, r3
	mov	r3, r1
	subs	r4, r1, #1
	str	r6, [sp, #104]
	sbcs	r6, r0
	ldr	r0, [sp, #116]
	subs	r0, r4, r0
	ldr	r0, [sp, #128]
	sbcs	r6, r0
	ldr	r0, [sp, #108]
	bhs	.LBB192_58
	subs	r0, r0, #1
	ldr	r6, [sp, #136]
	ldr	r4, [sp, #148]
	beq	.LBB192_35
	b	.LBB192_12
.LBB192_35:
	b	.LBB192_71
.LBB192_36:
	adds	r4, r4, r0
	str	r4, [sp, #76]
	ldr	r4, [sp, #328]
	cmp	r4, #0
	beq	.LBB192_37
	b	.LBB192_2
.LBB192_37:
	adds	r4, r4, r0
	str	r4, [sp, #148]
	cmp	r6, #0
	bne	.LBB192_38
	b	.LBB192_3
.LBB192_38:
	b	.LBB192_4
.LBB192_39:
	ldr	r0, [sp, #64]
	cmp	r0, #0
	bne	.LBB192_40
	b	.LBB192_71
.LBB192_40:
	movs	r7, #0
	ldr	r0, [sp, #72]
	ldr	r1, [sp, #64]
	subs	r0, r0, r1
	ldr	r0, [sp, #68]
	sbcs	r0, r7
	bhs	.LBB192_41
	b	.LBB192_71
.LBB192_41:
	mov	r4, r7
	str	r7, [sp, #104]
	b	.LBB192_69
.LBB192_42:
	movs	r5, #1
	movs	r3, #0
	subs	r2, r2, r4
	ldr	r2, [sp, #84]
	sbcs	r2, r0
	mov	r7, r5
	bhs	.LBB192_44
	mov	r5, r3
.LBB192_44:
	ldr	r2, [sp, #88]
	subs	r2, r2, r4
	sbcs	r1, r0
	ldr	r6, [sp, #136]
	bhs	.LBB192_46
	mov	r7, r3
.LBB192_46:
	mov	r3, r7
	orrs	r3, r5
	cmp	r3, #0
	ldr	r7, [sp, #112]
	bne	.LBB192_48
	str	r3, [sp, #104]
.LBB192_48:
	ldr	r4, [sp, #92]
	bne	.LBB192_50
	mov	r4, r3
.LBB192_50:
	ands	r7, r3
	b	.LBB192_66
.LBB192_51:
	movs	r3, #1
	movs	r1, #0
	str	r1, [sp, #148]
	ldr	r1, [sp, #84]
	subs	r1, r1, r7
	ldr	r1, [sp, #92]
	ldr	r2, [sp, #80]
	sbcs	r2, r1
	mov	r2, r3
	mov	r1, r3
	ldr	r6, [sp, #136]
	bhs	.LBB192_53
	ldr	r1, [sp, #148]
.LBB192_53:
	ldr	r3, [sp, #88]
	subs	r3, r3, r7
	ldr	r3, [sp, #92]
	sbcs	r5, r3
	mov	r3, r2
	blo	.LBB192_74
	orrs	r3, r1
	cmp	r3, #0
	ldr	r7, [sp, #112]
	bne	.LBB192_55
	b	.LBB192_75
.LBB192_55:
	bne	.LBB192_57
.LBB192_56:
	mov	r4, r3
.LBB192_57:
	ands	r7, r3
	b	.LBB192_65
.LBB192_58:
	movs	r4, #1
	movs	r0, #0
	str	r0, [sp, #148]
	ldr	r0, [sp, #84]
	subs	r1, r0, r3
	ldr	r1, [sp, #104]
	sbcs	r2, r1
	mov	r0, r4
	mov	r2, r4
	ldr	r6, [sp, #136]
	bhs	.LBB192_60
	ldr	r2, [sp, #148]
.LBB192_60:
	ldr	r1, [sp, #88]
	subs	r1, r1, r3
	ldr	r1, [sp, #104]
	sbcs	r5, r1
	mov	r3, r0
	blo	.LBB192_77
	orrs	r3, r2
	cmp	r3, #0
	beq	.LBB192_78
.LBB192_62:
	bne	.LBB192_64
.LBB192_63:
	mov	r7, r3
.LBB192_64:
	ldr	r0, [sp, #112]
	ands	r0, r3
	mov	r4, r7
	mov	r7, r0
	ldr	r0, [sp, #92]
.LBB192_65:
	str	r0, [sp, #104]
.LBB192_66:
	cmp	r3, #0
	beq	.LBB192_71
	mov	r0, r4
	ldr	r1, [sp, #104]
	orrs	r0, r1
	beq	.LBB192_71
	lsrs	r0, r4, #3
	ldr	r1, [sp, #144]
	muls	r1, r0, r1
	adds	r0, r6, r1
	subs	r0, #24
	ldrb	r0, [r0]
	lsls	r0, r0, #31
	beq	.LBB192_71
.LBB192_69:
	movs	r0, #24
	ldr	r1, [sp, #64]
	muls	r0, r1, r0
	adds	r0, r6, r0
	mov	r1, r0
	subs	r1, #24
	ldrb	r2, [r1]
	lsls	r2, r2, #31
	bne	.LBB192_71
	movs	r5, #0
	strb	r5, [r1, #7]
	strb	r5, [r1, #6]
	strb	r5, [r1, #5]
	strb	r5, [r1, #4]
	strb	r5, [r1, #3]
	strb	r5, [r1, #2]
	strb	r5, [r1, #1]
	movs	r2, #1
	strb	r2, [r1]
	str	r5, [sp]
	subs	r0, #16
	movs	r2, #16
	mov	r1, r5
	mov	r3, r5
	bl	ic.clear
	ldr	r0, [sp, #44]
	str	r0, [sp, #16]
	ldr	r0, [sp, #32]
	str	r0, [sp, #20]
	str	r4, [sp]
	ldr	r0, [sp, #104]
	str	r0, [sp, #4]
	str	r7, [sp, #8]
	orrs	r4, r0
	subs	r0, r4, #1
	sbcs	r4, r0
	add	r0, sp, #152
	add	r1, sp, #288
	add	r2, sp, #280
	mov	r3, r4
	bl	ic_raw_augmented.noting.WrittenSurgery.attach
	ldr	r0, [sp, #284]
	ldr	r1, [sp, #280]
	ldr	r2, [sp, #56]
	str	r1, [r2]
	str	r0, [r2, #4]
	b	.LBB192_72
.LBB192_71:
	ldr	r0, [sp, #28]
	str	r0, [sp]
	add	r0, sp, #288
	ldr	r2, [sp, #48]
	ldr	r3, [sp, #52]
	bl	ic_raw.search.refusal_of
	mov	r5, r0
.LBB192_72:
	ldr	r1, [sp, #36]
	str	r5, [sp, #24]
	add	r0, sp, #152
	str	r0, [sp, #20]
	ldr	r0, [sp, #40]
	str	r0, [sp, #16]
	ldr	r0, [sp, #60]
	str	r0, [sp, #12]
	str	r1, [sp, #8]
	ldr	r0, [sp, #76]
	str	r0, [sp]
	mov	r0, r6
	ldr	r2, [sp, #72]
	ldr	r3, [sp, #68]
	bl	ic_raw_augmented.edit_calls.settle
.LBB192_73:
	mov	r0, r5
	add	sp, #308
	pop	{r4, r5, r6, r7, pc}
.LBB192_74:
	ldr	r3, [sp, #148]
	orrs	r3, r1
	cmp	r3, #0
	ldr	r7, [sp, #112]
	beq	.LBB192_75
	b	.LBB192_55
.LBB192_75:
	mov	r0, r3
	bne	.LBB192_76
	b	.LBB192_56
.LBB192_76:
	b	.LBB192_57
.LBB192_77:
	ldr	r3, [sp, #148]
	orrs	r3, r2
	cmp	r3, #0
	bne	.LBB192_62
.LBB192_78:
	str	r3, [sp, #92]
	beq	.LBB192_63
	b	.LBB192_64
.Lfunc_end192:
	.size	ic_tree_sums_insert, .Lfunc_end192-ic_tree_sums_insert
	.cfi_endproc
	.section	.text.ic_tree_sums_insert_left,"ax",%progbits
	.globl	ic_tree_sums_insert_left
	.p2align	1
	.type	ic_tree_sums_insert_left,%function
	.code	16
	.thumb_func
ic_tree_sums_insert_left:
	.cfi_startproc
	push	{r4, lr}
	.cfi_def_cfa_offset 8
	.cfi_offset lr, -4
	.cfi_offset r4, -8
	sub	sp, #40
	.cfi_def_cfa_offset 48
	ldr	r1, [sp, #76]
	str	r1, [sp, #32]
	ldr	r1, [sp, #72]
	str	r1, [sp, #28]
	movs	r1, #0
	str	r1, [sp, #24]
	ldr	r1, [sp, #68]
	str	r1, [sp, #20]
	ldr	r1, [sp, #60]
	str	r1, [sp, #12]
	ldr	r1, [sp, #56]
	str	r1, [sp, #8]
	ldr	r1, [sp, #64]
	subs	r4, r1, #1
	sbcs	r1, r4
	str	r1, [sp, #16]
	movs	r1, #1
	lsls	r1, r1, #12
	ldr	r4, [sp, #48]
	cmp	r4, #0
	beq	.LBB193_3
	str	r4, [sp]
	cmp	r0, #0
	beq	.LBB193_4
.LBB193_2:
	bl	ic_raw_augmented.edit_calls.insert_at
	add	sp, #40
	pop	{r4, pc}
.LBB193_3:
	adds	r4, r4, r1
	str	r4, [sp]
	cmp	r0, #0
	bne	.LBB193_2
.LBB193_4:
	adds	r0, r0, r1
	bl	ic_raw_augmented.edit_calls.insert_at
	add	sp, #40
	pop	{r4, pc}
.Lfunc_end193:
	.size	ic_tree_sums_insert_left, .Lfunc_end193-ic_tree_sums_insert_left
	.cfi_endproc
	.section	.text.ic_tree_sums_insert_right,"ax",%progbits
	.globl	ic_tree_sums_insert_right
	.p2align	1
	.type	ic_tree_sums_insert_right,%function
	.code	16
	.thumb_func
ic_tree_sums_insert_right:
	.cfi_startproc
	push	{r4, r5, r7, lr}
	.cfi_def_cfa_offset 16
	.cfi_offset lr, -4
	.cfi_offset r7, -8
	.cfi_offset r5, -12
	.cfi_offset r4, -16
	sub	sp, #40
	.cfi_def_cfa_offset 56
	ldr	r1, [sp, #84]
	str	r1, [sp, #32]
	ldr	r1, [sp, #80]
	str	r1, [sp, #28]
	movs	r1, #1
	str	r1, [sp, #24]
	ldr	r4, [sp, #76]
	str	r4, [sp, #20]
	ldr	r4, [sp, #68]
	str	r4, [sp, #12]
	ldr	r4, [sp, #64]
	str	r4, [sp, #8]
	ldr	r4, [sp, #72]
	subs	r5, r4, #1
	sbcs	r4, r5
	str	r4, [sp, #16]
	lsls	r1, r1, #12
	ldr	r4, [sp, #56]
	cmp	r4, #0
	beq	.LBB194_3
	str	r4, [sp]
	cmp	r0, #0
	beq	.LBB194_4
.LBB194_2:
	bl	ic_raw_augmented.edit_calls.insert_at
	add	sp, #40
	pop	{r4, r5, r7, pc}
.LBB194_3:
	adds	r4, r4, r1
	str	r4, [sp]
	cmp	r0, #0
	bne	.LBB194_2
.LBB194_4:
	adds	r0, r0, r1
	bl	ic_raw_augmented.edit_calls.insert_at
	add	sp, #40
	pop	{r4, r5, r7, pc}
.Lfunc_end194:
	.size	ic_tree_sums_insert_right, .Lfunc_end194-ic_tree_sums_insert_right
	.cfi_endproc
	.section	.text.ic_tree_sums_overlap,"ax",%progbits
	.globl	ic_tree_sums_overlap
	.p2align	1
	.type	ic_tree_sums_overlap,%function
	.code	16
	.thumb_func
ic_tree_sums_overlap:
	.cfi_startproc
	push	{r4, r5, r6, r7, lr}
	.cfi_def_cfa_offset 20
	.cfi_offset lr, -4
	.cfi_offset r7, -8
	.cfi_offset r6, -12
	.cfi_offset r5, -16
	.cfi_offset r4, -20
	sub	sp, #156
	.cfi_def_cfa_offset 176
	ldr	r1, [sp, #208]
	ldm	r1!, {r4, r7}
	str	r3, [sp, #124]
	str	r2, [sp, #120]
	movs	r1, #0
	str	r1, [sp, #84]
	str	r1, [sp, #116]
	movs	r1, #1
	str	r1, [sp, #76]
	lsls	r5, r1, #12
	cmp	r0, #0
	str	r2, [sp, #108]
	bne	.LBB195_2
	adds	r0, r0, r5
.LBB195_2:
	str	r0, [sp, #112]
	movs	r1, #15
	ands	r7, r1
	movs	r1, #7
	bics	r4, r1
	str	r4, [sp, #104]
	mov	r1, r4
	orrs	r1, r7
	subs	r2, r1, #1
	sbcs	r1, r2
	ldr	r2, [sp, #212]
	str	r2, [sp, #60]
	adds	r4, r2, #1
	subs	r2, r4, #1
	mov	r6, r4
	sbcs	r6, r2
	str	r6, [sp, #72]
	ldr	r2, [sp, #192]
	cmp	r2, #0
	bne	.LBB195_4
	adds	r2, r2, r5
.LBB195_4:
	str	r2, [sp, #68]
	ldr	r6, [sp, #176]
	cmp	r6, #0
	str	r7, [sp, #100]
	str	r1, [sp, #88]
	mov	r2, r3
	bne	.LBB195_6
	adds	r6, r6, r5
.LBB195_6:
	str	r6, [sp, #64]
	ldr	r6, [sp, #204]
	ldr	r3, [sp, #200]
	ldr	r7, [sp, #188]
	ldr	r5, [sp, #184]
	str	r5, [sp, #52]
	ldr	r1, [sp, #108]
	subs	r5, r5, r1
	str	r7, [sp, #56]
	sbcs	r7, r2
	bhs	.LBB195_7
	b	.LBB195_23
.LBB195_7:
	str	r3, [sp, #80]
	subs	r5, r3, r1
	mov	r5, r6
	str	r2, [sp, #96]
	sbcs	r5, r2
	mov	r7, r6
	ldr	r1, [sp, #88]
	blo	.LBB195_21
	cmp	r4, #0
	str	r0, [sp, #92]
	beq	.LBB195_11
	movs	r5, #0
	ldr	r0, [sp, #108]
	subs	r6, r0, r4
	ldr	r6, [sp, #96]
	sbcs	r6, r5
	ldr	r0, [sp, #92]
	blo	.LBB195_21
	movs	r5, #24
	muls	r5, r4, r5
	adds	r5, r0, r5
	subs	r5, #24
	ldrb	r5, [r5]
	lsls	r5, r5, #31
	beq	.LBB195_21
.LBB195_11:
	cmp	r1, #0
	beq	.LBB195_14
	ldr	r0, [sp, #104]
	lsrs	r5, r0, #3
	ldr	r0, [sp, #100]
	lsls	r6, r0, #29
	adds	r5, r5, r6
	lsrs	r6, r0, #3
	ldr	r0, [sp, #108]
	subs	r3, r0, r5
	ldr	r3, [sp, #96]
	sbcs	r3, r6
	ldr	r0, [sp, #92]
	blo	.LBB195_21
	movs	r3, #24
	muls	r3, r5, r3
	adds	r3, r0, r3
	subs	r3, #24
	ldrb	r3, [r3]
	lsls	r3, r3, #31
	beq	.LBB195_21
.LBB195_14:
	lsrs	r3, r4, #29
	lsls	r5, r4, #3
	ldr	r6, [sp, #220]
	ldr	r4, [sp, #216]
	ldr	r0, [sp, #84]
	str	r0, [sp, #148]
	str	r0, [sp, #144]
	str	r0, [sp, #140]
	str	r0, [sp, #136]
	str	r0, [sp, #132]
	str	r0, [sp, #128]
	str	r5, [sp, #32]
	add	r0, sp, #36
	stm	r0!, {r3, r4, r6}
	ldr	r6, [sp, #80]
	str	r6, [sp]
	mov	r5, r7
	str	r7, [sp, #4]
	ldr	r0, [sp, #76]
	str	r0, [sp, #8]
	str	r1, [sp, #12]
	ldr	r0, [sp, #104]
	str	r0, [sp, #16]
	ldr	r0, [sp, #100]
	str	r0, [sp, #20]
	ldr	r0, [sp, #72]
	str	r0, [sp, #24]
	add	r7, sp, #128
	add	r1, sp, #112
	mov	r0, r7
	ldr	r2, [sp, #68]
	bl	ic_raw_augmented.find.find
	ldrb	r0, [r7]
	cmp	r0, #1
	bne	.LBB195_22
	add	r0, sp, #128
	ldrb	r0, [r0, #8]
	cmp	r0, #1
	bne	.LBB195_20
	ldr	r1, [sp, #228]
	ldr	r2, [sp, #224]
	ldr	r0, [sp, #144]
	ldr	r3, [sp, #64]
	adds	r3, r3, r0
	subs	r3, #8
	ldr	r4, [r3]
	ldr	r3, [r3, #4]
	subs	r2, r4, r2
	sbcs	r3, r1
	bhs	.LBB195_20
	ldr	r1, [sp, #148]
	lsrs	r0, r0, #3
	lsls	r2, r1, #29
	adds	r0, r0, r2
	lsrs	r1, r1, #3
	ldr	r2, [sp, #108]
	subs	r2, r2, r0
	ldr	r2, [sp, #96]
	sbcs	r2, r1
	blo	.LBB195_22
	movs	r1, #24
	muls	r1, r0, r1
	ldr	r2, [sp, #92]
	adds	r1, r2, r1
	subs	r1, #24
	ldrb	r1, [r1]
	lsls	r1, r1, #31
	beq	.LBB195_22
	ldr	r1, [sp, #232]
	subs	r0, r0, #1
	str	r0, [r1]
	ldr	r0, [sp, #84]
	add	sp, #156
	pop	{r4, r5, r6, r7, pc}
.LBB195_20:
	movs	r0, #4
	add	sp, #156
	pop	{r4, r5, r6, r7, pc}
.LBB195_21:
	ldr	r0, [sp, #80]
	str	r0, [sp]
	str	r7, [sp, #4]
	b	.LBB195_24
.LBB195_22:
	str	r6, [sp]
	str	r5, [sp, #4]
	b	.LBB195_24
.LBB195_23:
	str	r3, [sp]
	str	r6, [sp, #4]
.LBB195_24:
	ldr	r0, [sp, #60]
	str	r0, [sp, #8]
	add	r0, sp, #112
	ldr	r2, [sp, #52]
	ldr	r3, [sp, #56]
	bl	ic_raw_augmented.sum_calls.refusal_of_starts
	add	sp, #156
	pop	{r4, r5, r6, r7, pc}
.Lfunc_end195:
	.size	ic_tree_sums_overlap, .Lfunc_end195-ic_tree_sums_overlap
	.cfi_endproc
	.section	.text.ic_tree_sums_remove,"ax",%progbits
	.globl	ic_tree_sums_remove
	.p2align	1
	.type	ic_tree_sums_remove,%function
	.code	16
	.thumb_func
ic_tree_sums_remove:
	.cfi_startproc
	push	{r4, r5, r6, r7, lr}
	.cfi_def_cfa_offset 20
	.cfi_offset lr, -4
	.cfi_offset r7, -8
	.cfi_offset r6, -12
	.cfi_offset r5, -16
	.cfi_offset r4, -20
	sub	sp, #308
	.cfi_def_cfa_offset 328
	mov	r4, r3
	mov	r6, r2
	ldr	r1, [sp, #344]
	subs	r2, r1, #1
	sbcs	r1, r2
	movs	r7, #1
	lsls	r3, r7, #12
	ldr	r2, [sp, #328]
	cmp	r2, #0
	bne	.LBB196_2
	adds	r2, r2, r3
.LBB196_2:
	cmp	r0, #0
	bne	.LBB196_4
	adds	r0, r0, r3
.LBB196_4:
	ldr	r3, [sp, #340]
	ldr	r5, [sp, #336]
	str	r5, [sp, #136]
	subs	r5, r5, r6
	str	r3, [sp, #140]
	sbcs	r3, r4
	bhs	.LBB196_5
	bl	.LBB196_346
.LBB196_5:
	str	r0, [sp, #172]
	str	r2, [sp, #112]
	str	r1, [sp, #116]
	ldr	r7, [sp, #352]
	movs	r5, #0
	str	r5, [sp]
	add	r0, sp, #176
	movs	r2, #128
	str	r0, [sp, #128]
	mov	r1, r5
	mov	r3, r5
	bl	ic.clear
	str	r7, [sp, #144]
	adds	r0, r7, #1
	blo	.LBB196_7
	movs	r7, #4
	ldr	r5, [sp, #172]
	bl	.LBB196_345
.LBB196_7:
	str	r6, [sp, #88]
	subs	r1, r6, r0
	str	r4, [sp, #92]
	sbcs	r4, r5
	str	r5, [sp, #148]
	ldr	r5, [sp, #172]
	bhs	.LBB196_8
	b	.LBB196_35
.LBB196_8:
	movs	r1, #24
	str	r1, [sp, #160]
	muls	r1, r0, r1
	adds	r1, r5, r1
	str	r1, [sp, #108]
	subs	r1, #24
	str	r1, [sp, #84]
	ldr	r1, [r1]
	str	r1, [sp, #124]
	lsls	r1, r1, #31
	bne	.LBB196_9
	b	.LBB196_35
.LBB196_9:
	ldr	r1, [sp, #348]
	ldr	r2, [r1]
	str	r1, [sp, #80]
	ldr	r6, [r1, #4]
	movs	r4, #15
	ands	r6, r4
	movs	r7, #7
	str	r2, [sp, #132]
	mov	r1, r2
	bics	r1, r7
	str	r1, [sp, #100]
	subs	r1, r1, #1
	str	r1, [sp, #168]
	str	r6, [sp, #96]
	ldr	r1, [sp, #148]
	sbcs	r6, r1
	ldr	r1, [sp, #88]
	lsrs	r3, r1, #29
	ldr	r5, [sp, #92]
	lsls	r5, r5, #3
	adds	r5, r5, r3
	ldr	r2, [sp, #172]
	lsls	r1, r1, #3
	str	r1, [sp, #152]
	ldr	r3, [sp, #168]
	subs	r3, r3, r1
	str	r5, [sp, #164]
	sbcs	r6, r5
	mov	r5, r2
	blo	.LBB196_10
	b	.LBB196_35
.LBB196_10:
	ldr	r1, [sp, #132]
	lsrs	r2, r1, #3
	ldr	r1, [sp, #160]
	muls	r2, r1, r2
	adds	r2, r5, r2
	subs	r2, #24
	ldrb	r2, [r2]
	lsls	r2, r2, #31
	bne	.LBB196_11
	b	.LBB196_35
.LBB196_11:
	lsrs	r6, r0, #29
	lsls	r1, r0, #3
	mvns	r3, r7
	ldr	r0, [sp, #84]
	ldr	r0, [r0, #4]
	str	r0, [sp, #120]
	ldr	r0, [sp, #100]
	str	r1, [sp, #76]
	eors	r0, r1
	ldr	r2, [sp, #96]
	str	r6, [sp, #72]
	eors	r2, r6
	orrs	r2, r0
	ldr	r6, [sp, #108]
	subs	r6, #8
	ldr	r7, [r6]
	ldr	r1, [r6, #4]
	ands	r1, r4
	mov	r0, r7
	str	r3, [sp, #168]
	ands	r0, r3
	cmp	r2, #0
	beq	.LBB196_13
	mov	r2, r0
	orrs	r2, r1
	bne	.LBB196_13
	b	.LBB196_35
.LBB196_13:
	str	r0, [sp, #132]
	str	r6, [sp, #64]
	str	r7, [sp, #68]
	ldr	r2, [sp, #128]
	adds	r2, #120
	str	r2, [sp, #128]
	ldr	r5, [sp, #120]
	ands	r5, r4
	ldr	r0, [sp, #168]
	ldr	r2, [sp, #124]
	ands	r2, r0
	str	r2, [sp, #124]
	subs	r3, r2, #1
	str	r5, [sp, #120]
	ldr	r7, [sp, #148]
	sbcs	r5, r7
	ldr	r2, [sp, #108]
	subs	r2, #16
	ldr	r6, [r2]
	str	r2, [sp, #108]
	ldr	r2, [r2, #4]
	str	r4, [sp, #156]
	ands	r2, r4
	ands	r6, r0
	ldr	r0, [sp, #152]
	subs	r3, r3, r0
	ldr	r4, [sp, #164]
	sbcs	r5, r4
	bhs	.LBB196_20
	movs	r7, #0
	subs	r3, r6, #1
	mov	r5, r2
	str	r7, [sp, #144]
	sbcs	r5, r7
	subs	r3, r3, r0
	sbcs	r5, r4
	ldr	r5, [sp, #156]
	ldr	r7, [sp, #124]
	ldr	r0, [sp, #132]
	bhs	.LBB196_24
	movs	r0, #66
	str	r0, [sp, #148]
.LBB196_16:
	lsrs	r5, r6, #3
	ldr	r1, [sp, #160]
	muls	r5, r1, r5
	ldr	r1, [sp, #172]
	adds	r7, r1, r5
	mov	r3, r7
	subs	r3, #24
	ldm	r3!, {r1, r4}
	ldr	r3, [sp, #156]
	ands	r4, r3
	mov	r3, r1
	ldr	r0, [sp, #168]
	ands	r3, r0
	str	r3, [sp, #120]
	subs	r3, r3, #1
	str	r4, [sp, #124]
	ldr	r0, [sp, #144]
	sbcs	r4, r0
	ldr	r0, [sp, #152]
	subs	r3, r3, r0
	ldr	r3, [sp, #164]
	sbcs	r4, r3
	blo	.LBB196_17
	b	.LBB196_41
.LBB196_17:
	ldr	r0, [sp, #148]
	lsrs	r5, r1, #3
	cmp	r0, #0
	bne	.LBB196_18
	b	.LBB196_40
.LBB196_18:
	ldr	r1, [sp, #160]
	muls	r5, r1, r5
	ldr	r1, [sp, #172]
	adds	r7, r1, r5
	mov	r2, r7
	subs	r2, #24
	ldm	r2!, {r1, r3}
	ldr	r2, [sp, #156]
	ands	r3, r2
	ldr	r0, [sp, #168]
	ands	r1, r0
	movs	r2, #0
	subs	r6, r1, #1
	mov	r4, r3
	sbcs	r4, r2
	ldr	r0, [sp, #152]
	subs	r2, r6, r0
	ldr	r2, [sp, #164]
	sbcs	r4, r2
	ldr	r6, [sp, #120]
	ldr	r2, [sp, #124]
	blo	.LBB196_19
	b	.LBB196_41
.LBB196_19:
	ldr	r0, [sp, #148]
	subs	r0, r0, #2
	str	r0, [sp, #148]
	mov	r6, r1
	mov	r2, r3
	b	.LBB196_16
.LBB196_20:
	subs	r3, r0, r6
	sbcs	r4, r2
	str	r7, [sp, #120]
	blo	.LBB196_22
	str	r2, [sp, #120]
.LBB196_22:
	ldr	r5, [sp, #156]
	ldr	r0, [sp, #132]
	blo	.LBB196_24
	mov	r7, r6
.LBB196_24:
	movs	r3, #0
	ldr	r6, [sp, #152]
	subs	r2, r6, r0
	ldr	r2, [sp, #164]
	sbcs	r2, r1
	str	r3, [sp, #144]
	blo	.LBB196_26
	str	r1, [sp, #144]
.LBB196_26:
	str	r3, [sp, #148]
	blo	.LBB196_28
	mov	r3, r0
.LBB196_28:
	mov	r0, r3
	ldr	r2, [sp, #144]
	orrs	r0, r2
	subs	r1, r0, #1
	mov	r4, r0
	sbcs	r4, r1
	cmp	r0, #0
	beq	.LBB196_36
	str	r7, [sp, #124]
	movs	r0, #1
	str	r0, [sp, #148]
	str	r0, [sp, #288]
	str	r3, [sp, #176]
	str	r2, [sp, #180]
	str	r3, [sp, #132]
	lsrs	r0, r3, #3
	ldr	r1, [sp, #160]
	muls	r0, r1, r0
	ldr	r1, [sp, #172]
	adds	r1, r1, r0
	mov	r0, r1
	subs	r0, #24
	ldr	r2, [r0]
	mov	r3, r6
	ldr	r6, [r0, #4]
	ands	r6, r5
	str	r2, [sp, #108]
	ldr	r5, [sp, #168]
	ands	r2, r5
	movs	r5, #0
	str	r5, [sp, #292]
	subs	r3, r3, r2
	ldr	r3, [sp, #164]
	sbcs	r3, r6
	mov	r7, r5
	blo	.LBB196_31
	mov	r7, r2
.LBB196_31:
	blo	.LBB196_33
	mov	r5, r6
.LBB196_33:
	ldr	r2, [sp, #72]
	eors	r5, r2
	ldr	r2, [sp, #76]
	eors	r7, r2
	orrs	r7, r5
	ldr	r3, [sp, #132]
	bne	.LBB196_37
	movs	r1, #1
	str	r1, [sp, #148]
	ldr	r5, [sp, #108]
	ands	r5, r1
	movs	r2, #0
	ldr	r7, [sp, #124]
	adds	r1, r5, r7
	str	r1, [r0]
	ldr	r5, [sp, #120]
	mov	r1, r5
	adcs	r1, r2
	str	r1, [r0, #4]
	str	r2, [sp, #104]
	mov	r1, r2
	mov	r2, r5
	b	.LBB196_38
.LBB196_35:
	ldr	r0, [sp, #144]
	str	r0, [sp]
	mov	r0, r5
	ldr	r6, [sp, #88]
	mov	r2, r6
	ldr	r4, [sp, #92]
	mov	r3, r4
	bl	ic_raw.table.RawTable.refusal_at.19bacce014a8892a
	mov	r7, r0
	bl	.LBB196_345
.LBB196_36:
	ldr	r1, [sp, #148]
	str	r1, [sp, #104]
	str	r7, [sp, #100]
	ldr	r2, [sp, #120]
	str	r2, [sp, #96]
	orrs	r2, r7
	bne	.LBB196_39
	b	.LBB196_103
.LBB196_37:
	subs	r1, #16
	ldr	r7, [sp, #124]
	str	r7, [r1]
	ldr	r2, [sp, #120]
	str	r2, [r1, #4]
	movs	r0, #0
	str	r0, [sp, #104]
	ldr	r1, [sp, #148]
.LBB196_38:
	ldr	r5, [sp, #156]
	ldr	r6, [sp, #152]
	orrs	r2, r7
	bne	.LBB196_39
	b	.LBB196_103
.LBB196_39:
	lsrs	r0, r7, #3
	ldr	r1, [sp, #160]
	muls	r1, r0, r1
	ldr	r0, [sp, #172]
	adds	r0, r0, r1
	subs	r0, #8
	movs	r1, #1
	orrs	r3, r1
	str	r3, [r0]
	ldr	r1, [sp, #144]
	str	r1, [r0, #4]
	bl	.LBB196_344
.LBB196_40:
	ldr	r0, [sp, #160]
	muls	r5, r0, r5
	ldr	r0, [sp, #172]
	adds	r7, r0, r5
	mov	r0, r7
	subs	r0, #24
	ldm	r0!, {r1, r2}
	ldr	r0, [sp, #156]
	ands	r2, r0
	ldr	r0, [sp, #168]
	ands	r1, r0
	movs	r0, #0
	str	r1, [sp, #56]
	subs	r1, r1, #1
	str	r2, [sp, #60]
	sbcs	r2, r0
	ldr	r0, [sp, #152]
	subs	r0, r1, r0
	ldr	r0, [sp, #164]
	sbcs	r2, r0
	ldr	r6, [sp, #120]
	ldr	r2, [sp, #124]
	blo	.LBB196_46
.LBB196_41:
	mov	r1, r7
	subs	r1, #16
	ldm	r1, {r0, r1}
	ldr	r3, [sp, #156]
	ands	r1, r3
	ldr	r3, [sp, #168]
	ands	r0, r3
	ldr	r3, [sp, #152]
	subs	r3, r3, r0
	ldr	r3, [sp, #164]
	sbcs	r3, r1
	ldr	r3, [sp, #144]
	str	r3, [sp, #60]
	blo	.LBB196_43
	str	r1, [sp, #60]
.LBB196_43:
	blo	.LBB196_45
	str	r0, [sp, #144]
.LBB196_45:
	str	r6, [sp, #120]
	str	r2, [sp, #124]
	ldr	r0, [sp, #144]
	str	r0, [sp, #56]
.LBB196_46:
	subs	r7, #8
	ldr	r2, [r7]
	ldr	r1, [r7, #4]
	ldr	r0, [sp, #156]
	ands	r1, r0
	str	r2, [sp, #68]
	mov	r0, r2
	ldr	r2, [sp, #168]
	ands	r0, r2
	movs	r3, #0
	ldr	r6, [sp, #152]
	subs	r2, r6, r0
	ldr	r2, [sp, #164]
	sbcs	r2, r1
	str	r3, [sp, #144]
	blo	.LBB196_48
	str	r1, [sp, #144]
.LBB196_48:
	str	r3, [sp, #148]
	blo	.LBB196_50
	mov	r3, r0
.LBB196_50:
	mov	r0, r3
	ldr	r2, [sp, #144]
	orrs	r0, r2
	subs	r1, r0, #1
	mov	r4, r0
	sbcs	r4, r1
	str	r4, [sp, #52]
	cmp	r0, #0
	str	r3, [sp, #132]
	beq	.LBB196_57
	movs	r0, #1
	str	r0, [sp, #148]
	str	r0, [sp, #288]
	str	r3, [sp, #176]
	str	r2, [sp, #180]
	lsrs	r0, r3, #3
	ldr	r1, [sp, #160]
	muls	r0, r1, r0
	ldr	r1, [sp, #172]
	adds	r1, r1, r0
	mov	r0, r1
	subs	r0, #24
	ldr	r3, [r0]
	mov	r4, r6
	ldr	r6, [r0, #4]
	ldr	r2, [sp, #156]
	ands	r6, r2
	str	r3, [sp, #104]
	ldr	r2, [sp, #168]
	ands	r3, r2
	movs	r2, #0
	str	r2, [sp, #292]
	subs	r4, r4, r3
	ldr	r4, [sp, #164]
	sbcs	r4, r6
	mov	r7, r2
	blo	.LBB196_53
	mov	r7, r3
.LBB196_53:
	blo	.LBB196_55
	mov	r2, r6
.LBB196_55:
	ldr	r3, [sp, #124]
	eors	r2, r3
	ldr	r3, [sp, #120]
	eors	r7, r3
	orrs	r7, r2
	ldr	r3, [sp, #132]
	bne	.LBB196_58
	movs	r4, #1
	ldr	r1, [sp, #104]
	ands	r1, r4
	movs	r2, #0
	ldr	r7, [sp, #56]
	adds	r1, r1, r7
	str	r1, [r0]
	ldr	r6, [sp, #60]
	mov	r1, r6
	adcs	r1, r2
	str	r1, [r0, #4]
	mov	r0, r7
	str	r2, [sp, #104]
	mov	r1, r2
	mov	r2, r6
	b	.LBB196_59
.LBB196_57:
	ldr	r4, [sp, #148]
	str	r4, [sp, #104]
	ldr	r0, [sp, #56]
	str	r0, [sp, #100]
	ldr	r2, [sp, #60]
	str	r2, [sp, #96]
	mov	r1, r4
	b	.LBB196_60
.LBB196_58:
	subs	r1, #16
	ldr	r4, [sp, #56]
	str	r4, [r1]
	ldr	r2, [sp, #60]
	str	r2, [r1, #4]
	movs	r0, #0
	str	r0, [sp, #104]
	mov	r0, r4
	ldr	r4, [sp, #148]
	mov	r1, r4
.LBB196_59:
	ldr	r6, [sp, #152]
.LBB196_60:
	str	r4, [sp, #148]
	orrs	r2, r0
	beq	.LBB196_62
	lsrs	r0, r0, #3
	ldr	r2, [sp, #160]
	muls	r0, r2, r0
	ldr	r2, [sp, #172]
	adds	r0, r2, r0
	subs	r0, #8
	movs	r2, #1
	orrs	r2, r3
	str	r2, [r0]
	ldr	r2, [sp, #144]
	str	r2, [r0, #4]
	movs	r0, #0
	str	r0, [sp, #68]
.LBB196_62:
	ldr	r0, [sp, #120]
	ldr	r2, [sp, #76]
	eors	r0, r2
	ldr	r2, [sp, #124]
	ldr	r4, [sp, #72]
	eors	r2, r4
	orrs	r2, r0
	bne	.LBB196_63
	b	.LBB196_102
.LBB196_63:
	ldr	r0, [sp, #64]
	ldr	r3, [r0]
	ldr	r2, [r0, #4]
	ldr	r0, [sp, #156]
	ands	r2, r0
	str	r3, [sp, #44]
	mov	r0, r3
	ldr	r3, [sp, #168]
	ands	r0, r3
	movs	r4, #0
	subs	r3, r6, r0
	ldr	r3, [sp, #164]
	sbcs	r3, r2
	mov	r3, r4
	mov	r6, r4
	blo	.LBB196_65
	mov	r6, r2
.LBB196_65:
	mov	r7, r3
	mov	r2, r3
	ldr	r4, [sp, #148]
	blo	.LBB196_67
	mov	r2, r0
.LBB196_67:
	str	r2, [sp, #60]
	mov	r0, r2
	str	r6, [sp, #48]
	orrs	r0, r6
	ldr	r3, [sp, #108]
	ldm	r3!, {r2, r6}
	ldr	r3, [sp, #156]
	ands	r6, r3
	ldr	r3, [sp, #168]
	ands	r2, r3
	ldr	r3, [sp, #152]
	subs	r3, r3, r2
	ldr	r3, [sp, #164]
	sbcs	r3, r6
	mov	r3, r7
	str	r7, [sp, #108]
	blo	.LBB196_69
	str	r6, [sp, #108]
.LBB196_69:
	blo	.LBB196_71
	mov	r3, r2
.LBB196_71:
	str	r3, [sp, #64]
	ldr	r3, [sp, #84]
	ldm	r3!, {r2, r6}
	ldr	r3, [sp, #156]
	ands	r6, r3
	ldr	r3, [sp, #168]
	ands	r2, r3
	ldr	r3, [sp, #152]
	subs	r3, r3, r2
	ldr	r3, [sp, #164]
	sbcs	r3, r6
	mov	r3, r7
	bhs	.LBB196_81
	bhs	.LBB196_82
.LBB196_73:
	cmp	r0, #0
	str	r3, [sp, #56]
	beq	.LBB196_83
.LBB196_74:
	str	r7, [sp, #40]
	ldr	r0, [sp, #60]
	lsrs	r0, r0, #3
	ldr	r2, [sp, #160]
	muls	r0, r2, r0
	ldr	r2, [sp, #172]
	adds	r6, r2, r0
	str	r6, [sp, #36]
	subs	r6, #24
	ldr	r3, [r6]
	ldr	r0, [r6, #4]
	ldr	r2, [sp, #156]
	ands	r0, r2
	str	r3, [sp, #32]
	ldr	r2, [sp, #168]
	ands	r3, r2
	movs	r7, #0
	ldr	r2, [sp, #152]
	subs	r2, r2, r3
	ldr	r2, [sp, #164]
	sbcs	r2, r0
	mov	r2, r7
	blo	.LBB196_76
	mov	r2, r3
.LBB196_76:
	blo	.LBB196_78
	mov	r7, r0
.LBB196_78:
	ldr	r0, [sp, #72]
	eors	r7, r0
	ldr	r0, [sp, #76]
	eors	r2, r0
	orrs	r2, r7
	lsls	r7, r4, #3
	add	r3, sp, #176
	ldr	r0, [r3, r7]
	adds	r3, r3, r7
	ldr	r3, [r3, #4]
	cmp	r2, #0
	bne	.LBB196_84
	orrs	r0, r3
	beq	.LBB196_86
	movs	r0, #1
	ldr	r2, [sp, #128]
	strb	r0, [r2]
	b	.LBB196_87
.LBB196_81:
	mov	r7, r6
	blo	.LBB196_73
.LBB196_82:
	mov	r3, r2
	cmp	r0, #0
	str	r3, [sp, #56]
	bne	.LBB196_74
.LBB196_83:
	ldr	r0, [sp, #120]
	str	r0, [sp, #100]
	ldr	r0, [sp, #124]
	str	r0, [sp, #96]
	ldr	r6, [sp, #64]
	b	.LBB196_90
.LBB196_84:
	orrs	r0, r3
	beq	.LBB196_88
	movs	r0, #1
	ldr	r2, [sp, #128]
	strb	r0, [r2]
	b	.LBB196_89
.LBB196_86:
	add	r0, sp, #176
	ldr	r2, [sp, #60]
	str	r2, [r0, r7]
	adds	r0, r0, r7
	ldr	r2, [sp, #48]
	str	r2, [r0, #4]
	movs	r0, #0
	str	r0, [sp, #104]
	str	r0, [sp, #292]
	adds	r4, r4, #1
	str	r4, [sp, #288]
.LBB196_87:
	ldr	r3, [sp, #56]
	ldr	r7, [sp, #40]
	movs	r0, #1
	ldr	r2, [sp, #32]
	ands	r2, r0
	ldr	r0, [sp, #120]
	orrs	r2, r0
	str	r2, [r6]
	ldr	r0, [sp, #124]
	str	r0, [r6, #4]
	ldr	r6, [sp, #64]
	b	.LBB196_90
.LBB196_88:
	add	r0, sp, #176
	ldr	r2, [sp, #60]
	str	r2, [r0, r7]
	adds	r0, r0, r7
	ldr	r2, [sp, #48]
	str	r2, [r0, #4]
	movs	r0, #0
	str	r0, [sp, #104]
	str	r0, [sp, #292]
	adds	r4, r4, #1
	str	r4, [sp, #288]
.LBB196_89:
	ldr	r6, [sp, #64]
	ldr	r3, [sp, #56]
	ldr	r7, [sp, #40]
	ldr	r2, [sp, #36]
	subs	r2, #16
	ldr	r0, [sp, #120]
	str	r0, [r2]
	ldr	r0, [sp, #124]
	str	r0, [r2, #4]
.LBB196_90:
	mov	r0, r3
	orrs	r0, r7
	beq	.LBB196_92
	lsrs	r0, r3, #3
	ldr	r2, [sp, #160]
	muls	r0, r2, r0
	ldr	r2, [sp, #172]
	adds	r0, r2, r0
	subs	r0, #8
	ldr	r2, [sp, #124]
	str	r2, [r0, #4]
	ldr	r2, [r0]
	movs	r3, #1
	ands	r3, r2
	ldr	r2, [sp, #120]
	orrs	r3, r2
	str	r3, [r0]
.LBB196_92:
	mov	r0, r6
	ldr	r2, [sp, #108]
	orrs	r0, r2
	beq	.LBB196_94
	lsrs	r0, r6, #3
	ldr	r2, [sp, #160]
	muls	r0, r2, r0
	ldr	r2, [sp, #172]
	adds	r0, r2, r0
	subs	r0, #8
	ldr	r2, [sp, #124]
	str	r2, [r0, #4]
	ldr	r2, [r0]
	movs	r3, #1
	ands	r3, r2
	ldr	r2, [sp, #120]
	orrs	r3, r2
	str	r3, [r0]
.LBB196_94:
	lsls	r6, r4, #3
	add	r0, sp, #176
	ldr	r2, [r0, r6]
	adds	r0, r0, r6
	ldr	r0, [r0, #4]
	orrs	r0, r2
	beq	.LBB196_96
	movs	r0, #1
	ldr	r2, [sp, #128]
	strb	r0, [r2]
	b	.LBB196_97
.LBB196_96:
	add	r0, sp, #176
	ldr	r2, [sp, #120]
	str	r2, [r0, r6]
	adds	r0, r0, r6
	ldr	r2, [sp, #124]
	str	r2, [r0, #4]
	adds	r4, r4, #1
	str	r4, [sp, #288]
	movs	r0, #0
	str	r0, [sp, #104]
	str	r0, [sp, #292]
	lsls	r6, r4, #3
.LBB196_97:
	ldr	r0, [sp, #172]
	adds	r5, r0, r5
	mov	r2, r5
	subs	r2, #24
	str	r7, [r2, #4]
	ldr	r3, [r2]
	movs	r0, #1
	ands	r3, r0
	ldr	r7, [sp, #56]
	orrs	r3, r7
	str	r3, [r2]
	add	r2, sp, #176
	ldr	r3, [r2, r6]
	adds	r2, r2, r6
	ldr	r2, [r2, #4]
	orrs	r2, r3
	beq	.LBB196_99
	str	r4, [sp, #148]
	ldr	r2, [sp, #128]
	strb	r0, [r2]
	b	.LBB196_100
.LBB196_99:
	add	r2, sp, #176
	ldr	r3, [sp, #120]
	str	r3, [r2, r6]
	adds	r2, r2, r6
	ldr	r3, [sp, #124]
	str	r3, [r2, #4]
	adds	r4, r4, #1
	str	r4, [sp, #148]
	str	r4, [sp, #288]
	movs	r2, #0
	str	r2, [sp, #104]
	str	r2, [sp, #292]
.LBB196_100:
	ldr	r3, [sp, #132]
	ldr	r6, [sp, #152]
	mov	r2, r5
	subs	r2, #8
	subs	r5, #16
	ldr	r4, [sp, #64]
	str	r4, [r5]
	ldr	r4, [sp, #108]
	str	r4, [r5, #4]
	ldr	r4, [sp, #44]
	ands	r4, r0
	ldr	r5, [sp, #60]
	orrs	r5, r4
	str	r5, [r2]
	ldr	r4, [sp, #48]
	str	r4, [r2, #4]
	ldr	r5, [sp, #76]
	eors	r5, r3
	ldr	r2, [sp, #144]
	ldr	r4, [sp, #72]
	eors	r4, r2
	orrs	r4, r5
	bne	.LBB196_102
	mov	r4, r0
	ldr	r3, [sp, #120]
	ldr	r0, [sp, #124]
	str	r0, [sp, #144]
	ldr	r5, [sp, #156]
	b	.LBB196_103
.LBB196_102:
	ldr	r5, [sp, #156]
	ldr	r4, [sp, #52]
.LBB196_103:
	ldr	r0, [sp, #68]
	lsls	r0, r0, #31
	bne	.LBB196_104
	bl	.LBB196_344
.LBB196_104:
	cmp	r4, #0
	bne	.LBB196_105
	bl	.LBB196_344
.LBB196_105:
	movs	r0, #67
	b	.LBB196_107
.LBB196_106:
	ldr	r4, [sp, #144]
	eors	r3, r4
	ldr	r4, [sp, #132]
	eors	r1, r4
	orrs	r1, r3
	subs	r3, r1, #1
	sbcs	r1, r3
	subs	r0, r0, #1
	mov	r3, r2
	ldr	r2, [sp, #124]
	str	r2, [sp, #144]
	ldr	r5, [sp, #156]
	bne	.LBB196_107
	bl	.LBB196_344
.LBB196_107:
	str	r0, [sp, #120]
	str	r3, [sp, #132]
	lsrs	r0, r3, #3
	ldr	r2, [sp, #160]
	muls	r0, r2, r0
	ldr	r2, [sp, #172]
	adds	r2, r2, r0
	lsls	r0, r1, #31
	str	r2, [sp, #124]
	beq	.LBB196_111
	mov	r0, r2
	subs	r0, #24
	ldr	r3, [r0]
	str	r0, [sp, #68]
	ldr	r1, [r0, #4]
	ands	r1, r5
	mov	r4, r3
	ldr	r0, [sp, #168]
	ands	r4, r0
	movs	r5, #0
	subs	r0, r4, #1
	str	r1, [sp, #76]
	sbcs	r1, r5
	subs	r0, r0, r6
	ldr	r0, [sp, #164]
	sbcs	r1, r0
	blo	.LBB196_109
	bl	.LBB196_344
.LBB196_109:
	lsrs	r0, r3, #3
	ldr	r1, [sp, #160]
	muls	r0, r1, r0
	ldr	r1, [sp, #172]
	adds	r7, r1, r0
	mov	r6, r7
	subs	r6, #8
	ldr	r1, [r6]
	lsls	r1, r1, #31
	beq	.LBB196_114
	ldr	r5, [sp, #156]
	ldr	r6, [sp, #152]
	b	.LBB196_170
.LBB196_111:
	subs	r2, #16
	ldr	r0, [r2]
	str	r2, [sp, #76]
	ldr	r3, [r2, #4]
	ands	r3, r5
	mov	r4, r0
	ldr	r1, [sp, #168]
	ands	r4, r1
	movs	r1, #0
	subs	r2, r4, #1
	str	r3, [sp, #108]
	sbcs	r3, r1
	subs	r2, r2, r6
	ldr	r2, [sp, #164]
	sbcs	r3, r2
	blo	.LBB196_112
	bl	.LBB196_344
.LBB196_112:
	lsrs	r0, r0, #3
	ldr	r2, [sp, #160]
	muls	r0, r2, r0
	ldr	r2, [sp, #172]
	adds	r0, r2, r0
	mov	r6, r0
	subs	r6, #8
	ldr	r2, [r6]
	lsls	r2, r2, #31
	bne	.LBB196_113
	b	.LBB196_137
.LBB196_113:
	ldr	r7, [sp, #152]
	b	.LBB196_185
.LBB196_114:
	str	r4, [sp, #72]
	subs	r2, #8
	ldr	r1, [r2]
	str	r2, [sp, #48]
	ldr	r2, [r2, #4]
	ldr	r0, [sp, #156]
	ands	r2, r0
	ldr	r0, [sp, #168]
	ands	r1, r0
	ldr	r0, [sp, #152]
	subs	r4, r0, r1
	ldr	r4, [sp, #164]
	sbcs	r4, r2
	str	r5, [sp, #64]
	blo	.LBB196_116
	str	r2, [sp, #64]
.LBB196_116:
	ldr	r0, [sp, #148]
	mov	r2, r5
	blo	.LBB196_118
	mov	r2, r1
.LBB196_118:
	str	r2, [sp, #56]
	mov	r1, r7
	subs	r1, #16
	ldr	r7, [r1]
	str	r1, [sp, #52]
	ldr	r2, [r1, #4]
	ldr	r1, [sp, #156]
	ands	r2, r1
	ldr	r1, [sp, #168]
	ands	r7, r1
	ldr	r1, [sp, #152]
	subs	r1, r1, r7
	ldr	r1, [sp, #164]
	sbcs	r1, r2
	mov	r1, r5
	blo	.LBB196_120
	mov	r1, r2
.LBB196_120:
	mov	r4, r5
	blo	.LBB196_122
	mov	r4, r7
.LBB196_122:
	movs	r2, #13
	mov	r7, r0
	str	r2, [sp, #108]
	subs	r2, r2, r0
	ldr	r2, [sp, #104]
	sbcs	r5, r2
	blo	.LBB196_124
	lsls	r2, r7, #3
	add	r5, sp, #176
	ldr	r7, [r5, r2]
	adds	r5, r5, r2
	ldr	r5, [r5, #4]
	orrs	r5, r7
	mov	r7, r0
	bne	.LBB196_124
	b	.LBB196_196
.LBB196_124:
	str	r7, [sp, #148]
	movs	r2, #1
	ldr	r5, [sp, #128]
	strb	r2, [r5]
.LBB196_125:
	movs	r2, #1
	ands	r3, r2
	orrs	r3, r4
	ldr	r0, [sp, #68]
	str	r3, [r0]
	str	r1, [r0, #4]
	mov	r0, r2
	orrs	r1, r4
	ldr	r7, [sp, #172]
	ldr	r3, [sp, #132]
	ldr	r5, [sp, #156]
	beq	.LBB196_127
	lsrs	r1, r4, #3
	ldr	r2, [sp, #160]
	muls	r1, r2, r1
	adds	r1, r7, r1
	subs	r1, #8
	ldr	r2, [sp, #144]
	str	r2, [r1, #4]
	ldr	r2, [r1]
	ands	r2, r0
	orrs	r2, r3
	str	r2, [r1]
.LBB196_127:
	ldr	r3, [sp, #56]
	mov	r1, r3
	orrs	r1, r0
	str	r1, [r6]
	ldr	r2, [sp, #64]
	str	r2, [r6, #4]
	mov	r1, r3
	orrs	r1, r2
	str	r0, [sp, #60]
	bne	.LBB196_128
	b	.LBB196_160
.LBB196_128:
	lsrs	r1, r3, #3
	ldr	r2, [sp, #160]
	muls	r1, r2, r1
	ldr	r2, [sp, #172]
	adds	r6, r2, r1
	mov	r3, r6
	subs	r3, #24
	ldr	r7, [r3]
	ldr	r2, [r3, #4]
	ands	r2, r5
	mov	r5, r7
	ldr	r1, [sp, #168]
	ands	r5, r1
	movs	r4, #0
	ldr	r1, [sp, #152]
	subs	r1, r1, r5
	ldr	r1, [sp, #164]
	sbcs	r1, r2
	mov	r1, r4
	blo	.LBB196_130
	mov	r1, r5
.LBB196_130:
	blo	.LBB196_132
	mov	r4, r2
.LBB196_132:
	ldr	r0, [sp, #144]
	eors	r4, r0
	ldr	r2, [sp, #132]
	eors	r1, r2
	orrs	r1, r4
	ldr	r5, [sp, #156]
	beq	.LBB196_133
	b	.LBB196_162
.LBB196_133:
	movs	r1, #0
	ldr	r0, [sp, #148]
	ldr	r2, [sp, #108]
	subs	r2, r2, r0
	mov	r2, r1
	ldr	r4, [sp, #104]
	sbcs	r2, r4
	blo	.LBB196_135
	lsls	r2, r0, #3
	add	r4, sp, #176
	ldr	r5, [r4, r2]
	adds	r4, r4, r2
	ldr	r4, [r4, #4]
	orrs	r4, r5
	ldr	r5, [sp, #156]
	bne	.LBB196_135
	b	.LBB196_200
.LBB196_135:
	ldr	r1, [sp, #128]
	ldr	r0, [sp, #60]
	strb	r0, [r1]
	ldr	r6, [sp, #152]
.LBB196_136:
	ands	r7, r0
	ldr	r4, [sp, #72]
	orrs	r7, r4
	str	r7, [r3]
	ldr	r0, [sp, #76]
	str	r0, [r3, #4]
	ldr	r7, [sp, #48]
	b	.LBB196_166
.LBB196_137:
	str	r0, [sp, #72]
	ldr	r0, [sp, #124]
	subs	r0, #8
	ldr	r3, [r0]
	str	r0, [sp, #56]
	ldr	r2, [r0, #4]
	ands	r2, r5
	ldr	r0, [sp, #168]
	ands	r3, r0
	ldr	r0, [sp, #152]
	subs	r5, r0, r3
	ldr	r5, [sp, #164]
	sbcs	r5, r2
	str	r1, [sp, #64]
	blo	.LBB196_139
	str	r2, [sp, #64]
.LBB196_139:
	ldr	r0, [sp, #148]
	mov	r2, r1
	blo	.LBB196_141
	mov	r2, r3
.LBB196_141:
	str	r2, [sp, #60]
	ldr	r2, [sp, #72]
	subs	r2, #24
	ldr	r7, [r2]
	str	r2, [sp, #72]
	ldr	r2, [r2, #4]
	ldr	r3, [sp, #156]
	ands	r2, r3
	ldr	r3, [sp, #168]
	ands	r7, r3
	ldr	r3, [sp, #152]
	subs	r3, r3, r7
	ldr	r3, [sp, #164]
	sbcs	r3, r2
	mov	r3, r1
	blo	.LBB196_143
	mov	r3, r2
.LBB196_143:
	mov	r5, r1
	blo	.LBB196_145
	mov	r5, r7
.LBB196_145:
	movs	r2, #13
	mov	r7, r0
	str	r2, [sp, #68]
	subs	r2, r2, r0
	ldr	r2, [sp, #104]
	sbcs	r1, r2
	blo	.LBB196_147
	lsls	r1, r7, #3
	add	r2, sp, #176
	ldr	r7, [r2, r1]
	adds	r2, r2, r1
	ldr	r2, [r2, #4]
	orrs	r2, r7
	mov	r7, r0
	bne	.LBB196_147
	b	.LBB196_197
.LBB196_147:
	str	r7, [sp, #148]
	movs	r1, #1
	ldr	r2, [sp, #128]
	strb	r1, [r2]
.LBB196_148:
	ldr	r0, [sp, #76]
	str	r5, [r0]
	str	r3, [r0, #4]
	orrs	r3, r5
	beq	.LBB196_150
	lsrs	r1, r5, #3
	ldr	r2, [sp, #160]
	muls	r1, r2, r1
	ldr	r2, [sp, #172]
	adds	r1, r2, r1
	subs	r1, #8
	ldr	r0, [sp, #144]
	str	r0, [r1, #4]
	ldr	r2, [r1]
	movs	r3, #1
	ands	r3, r2
	ldr	r2, [sp, #132]
	orrs	r3, r2
	str	r3, [r1]
.LBB196_150:
	movs	r7, #1
	ldr	r2, [sp, #60]
	mov	r1, r2
	orrs	r1, r7
	str	r1, [r6]
	ldr	r0, [sp, #64]
	str	r0, [r6, #4]
	mov	r1, r2
	orrs	r1, r0
	beq	.LBB196_161
	str	r7, [sp, #52]
	lsrs	r1, r2, #3
	ldr	r2, [sp, #160]
	muls	r1, r2, r1
	ldr	r2, [sp, #172]
	adds	r6, r2, r1
	str	r6, [sp, #48]
	subs	r6, #24
	ldr	r7, [r6]
	ldr	r2, [r6, #4]
	ldr	r1, [sp, #156]
	ands	r2, r1
	mov	r1, r7
	ldr	r3, [sp, #168]
	ands	r1, r3
	movs	r5, #0
	ldr	r3, [sp, #152]
	subs	r3, r3, r1
	ldr	r3, [sp, #164]
	sbcs	r3, r2
	mov	r3, r5
	blo	.LBB196_153
	mov	r3, r1
.LBB196_153:
	blo	.LBB196_155
	mov	r5, r2
.LBB196_155:
	ldr	r0, [sp, #144]
	eors	r5, r0
	ldr	r1, [sp, #132]
	eors	r3, r1
	orrs	r3, r5
	beq	.LBB196_156
	b	.LBB196_177
.LBB196_156:
	movs	r3, #0
	ldr	r0, [sp, #148]
	ldr	r1, [sp, #68]
	subs	r1, r1, r0
	mov	r1, r3
	ldr	r2, [sp, #104]
	sbcs	r1, r2
	blo	.LBB196_158
	lsls	r2, r0, #3
	add	r1, sp, #176
	ldr	r5, [r1, r2]
	adds	r1, r1, r2
	ldr	r1, [r1, #4]
	orrs	r1, r5
	bne	.LBB196_158
	b	.LBB196_201
.LBB196_158:
	ldr	r1, [sp, #128]
	ldr	r2, [sp, #52]
	strb	r2, [r1]
	ldr	r3, [sp, #132]
	ldr	r5, [sp, #156]
.LBB196_159:
	ands	r7, r2
	orrs	r7, r4
	str	r7, [r6]
	ldr	r0, [sp, #108]
	str	r0, [r6, #4]
	mov	r7, r2
	b	.LBB196_181
.LBB196_160:
	ldr	r4, [sp, #72]
	str	r4, [sp, #100]
	ldr	r1, [sp, #76]
	str	r1, [sp, #96]
	ldr	r6, [sp, #152]
	ldr	r7, [sp, #48]
	b	.LBB196_166
.LBB196_161:
	str	r4, [sp, #100]
	ldr	r0, [sp, #108]
	str	r0, [sp, #96]
	ldr	r3, [sp, #132]
	ldr	r5, [sp, #156]
	b	.LBB196_181
.LBB196_162:
	movs	r1, #0
	ldr	r0, [sp, #148]
	ldr	r2, [sp, #108]
	subs	r2, r2, r0
	mov	r2, r1
	ldr	r3, [sp, #104]
	sbcs	r2, r3
	blo	.LBB196_164
	lsls	r2, r0, #3
	add	r3, sp, #176
	ldr	r4, [r3, r2]
	adds	r3, r3, r2
	ldr	r3, [r3, #4]
	orrs	r3, r4
	bne	.LBB196_164
	b	.LBB196_202
.LBB196_164:
	str	r0, [sp, #148]
	ldr	r1, [sp, #128]
	ldr	r0, [sp, #60]
	strb	r0, [r1]
.LBB196_165:
	ldr	r4, [sp, #72]
	ldr	r7, [sp, #48]
	subs	r6, #16
	str	r4, [r6]
	ldr	r1, [sp, #76]
	str	r1, [r6, #4]
	ldr	r6, [sp, #152]
.LBB196_166:
	movs	r1, #0
	ldr	r0, [sp, #148]
	ldr	r2, [sp, #108]
	subs	r2, r2, r0
	mov	r2, r1
	ldr	r3, [sp, #104]
	sbcs	r2, r3
	blo	.LBB196_168
	lsls	r2, r0, #3
	add	r3, sp, #176
	ldr	r4, [r3, r2]
	adds	r3, r3, r2
	ldr	r3, [r3, #4]
	orrs	r3, r4
	ldr	r4, [sp, #72]
	bne	.LBB196_168
	b	.LBB196_198
.LBB196_168:
	ldr	r2, [sp, #128]
	ldr	r0, [sp, #60]
	strb	r0, [r2]
.LBB196_169:
	ldr	r2, [sp, #132]
	ldr	r0, [sp, #52]
	str	r2, [r0]
	ldr	r2, [sp, #144]
	str	r2, [r0, #4]
	str	r4, [r7]
	ldr	r0, [sp, #76]
	str	r0, [r7, #4]
	ldr	r0, [sp, #68]
	ldr	r4, [r0]
	ldr	r2, [r0, #4]
	ands	r2, r5
	ldr	r0, [sp, #168]
	ands	r4, r0
	subs	r0, r4, #1
	str	r2, [sp, #76]
	sbcs	r2, r1
	subs	r0, r0, r6
	ldr	r0, [sp, #164]
	sbcs	r2, r0
	blo	.LBB196_170
	bl	.LBB196_344
.LBB196_170:
	str	r4, [sp, #72]
	lsrs	r7, r4, #3
	ldr	r0, [sp, #160]
	muls	r7, r0, r7
	ldr	r0, [sp, #172]
	adds	r0, r0, r7
	str	r0, [sp, #108]
	subs	r0, #24
	ldr	r4, [r0]
	ldr	r1, [r0, #4]
	ands	r1, r5
	mov	r2, r4
	ldr	r0, [sp, #168]
	ands	r2, r0
	movs	r0, #0
	subs	r3, r2, #1
	sbcs	r1, r0
	movs	r2, #1
	subs	r3, r3, r6
	ldr	r3, [sp, #164]
	sbcs	r1, r3
	blo	.LBB196_172
	mov	r2, r0
.LBB196_172:
	bhs	.LBB196_174
	lsrs	r5, r4, #3
	ldr	r0, [sp, #160]
	muls	r5, r0, r5
	ldr	r0, [sp, #172]
	adds	r0, r0, r5
	subs	r0, #8
	ldr	r1, [r0]
	lsls	r3, r1, #31
	bne	.LBB196_174
	b	.LBB196_205
.LBB196_174:
	str	r7, [sp, #52]
	ldr	r0, [sp, #108]
	subs	r0, #16
	ldm	r0!, {r1, r6}
	ldr	r3, [sp, #156]
	ands	r6, r3
	mov	r5, r1
	ldr	r3, [sp, #168]
	ands	r5, r3
	movs	r3, #0
	str	r5, [sp, #60]
	subs	r0, #8
	subs	r5, r5, #1
	str	r6, [sp, #64]
	str	r3, [sp, #56]
	sbcs	r6, r3
	ldr	r3, [sp, #152]
	subs	r5, r5, r3
	ldr	r5, [sp, #164]
	sbcs	r6, r5
	ldr	r5, [sp, #172]
	bhs	.LBB196_176
	lsrs	r3, r1, #3
	ldr	r1, [sp, #160]
	muls	r3, r1, r3
	adds	r6, r5, r3
	mov	r7, r6
	subs	r7, #8
	ldr	r1, [r7]
	lsls	r1, r1, #31
	bne	.LBB196_176
	b	.LBB196_231
.LBB196_176:
	ldr	r7, [sp, #108]
	subs	r7, #8
	ldr	r0, [r7]
	movs	r2, #1
	bics	r0, r2
	str	r0, [r7]
	b	.LBB196_190
.LBB196_177:
	movs	r1, #0
	ldr	r6, [sp, #148]
	ldr	r0, [sp, #68]
	subs	r2, r0, r6
	mov	r2, r1
	ldr	r0, [sp, #104]
	sbcs	r2, r0
	blo	.LBB196_179
	lsls	r2, r6, #3
	add	r3, sp, #176
	ldr	r5, [r3, r2]
	adds	r3, r3, r2
	ldr	r3, [r3, #4]
	orrs	r3, r5
	bne	.LBB196_179
	b	.LBB196_203
.LBB196_179:
	str	r6, [sp, #148]
	ldr	r1, [sp, #128]
	ldr	r7, [sp, #52]
	strb	r7, [r1]
	ldr	r5, [sp, #156]
	ldr	r1, [sp, #108]
.LBB196_180:
	ldr	r0, [sp, #48]
	subs	r0, #16
	str	r4, [r0]
	str	r1, [r0, #4]
	ldr	r3, [sp, #132]
.LBB196_181:
	movs	r1, #0
	ldr	r6, [sp, #148]
	ldr	r0, [sp, #68]
	subs	r2, r0, r6
	mov	r2, r1
	ldr	r0, [sp, #104]
	sbcs	r2, r0
	blo	.LBB196_183
	lsls	r2, r6, #3
	add	r3, sp, #176
	ldr	r5, [r3, r2]
	adds	r3, r3, r2
	ldr	r3, [r3, #4]
	orrs	r3, r5
	ldr	r5, [sp, #156]
	ldr	r3, [sp, #132]
	bne	.LBB196_183
	b	.LBB196_199
.LBB196_183:
	ldr	r2, [sp, #128]
	strb	r7, [r2]
.LBB196_184:
	ldr	r0, [sp, #72]
	ldr	r2, [sp, #144]
	str	r2, [r0, #4]
	ldr	r2, [r0]
	ands	r2, r7
	orrs	r2, r3
	str	r2, [r0]
	ldr	r0, [sp, #56]
	str	r4, [r0]
	ldr	r2, [sp, #108]
	str	r2, [r0, #4]
	ldr	r0, [sp, #76]
	ldr	r4, [r0]
	ldr	r2, [r0, #4]
	ands	r2, r5
	ldr	r0, [sp, #168]
	ands	r4, r0
	subs	r0, r4, #1
	str	r2, [sp, #108]
	sbcs	r2, r1
	ldr	r7, [sp, #152]
	subs	r0, r0, r7
	ldr	r0, [sp, #164]
	sbcs	r2, r0
	blo	.LBB196_185
	bl	.LBB196_344
.LBB196_185:
	str	r4, [sp, #68]
	lsrs	r1, r4, #3
	ldr	r0, [sp, #160]
	muls	r1, r0, r1
	ldr	r6, [sp, #172]
	str	r1, [sp, #52]
	adds	r0, r6, r1
	str	r0, [sp, #72]
	subs	r0, #24
	ldr	r1, [r0]
	str	r0, [sp, #48]
	ldr	r3, [r0, #4]
	ands	r3, r5
	mov	r0, r7
	mov	r7, r1
	ldr	r2, [sp, #168]
	ands	r7, r2
	movs	r4, #0
	str	r7, [sp, #60]
	subs	r2, r7, #1
	mov	r7, r0
	str	r3, [sp, #64]
	str	r4, [sp, #56]
	sbcs	r3, r4
	subs	r2, r2, r0
	ldr	r2, [sp, #164]
	sbcs	r3, r2
	bhs	.LBB196_187
	lsrs	r4, r1, #3
	ldr	r2, [sp, #160]
	muls	r4, r2, r4
	adds	r6, r6, r4
	mov	r2, r6
	subs	r2, #8
	ldr	r3, [r2]
	lsls	r3, r3, #31
	bne	.LBB196_187
	b	.LBB196_206
.LBB196_187:
	ldr	r4, [sp, #72]
	mov	r2, r4
	subs	r2, #16
	ldm	r2, {r0, r2}
	ands	r2, r5
	mov	r3, r0
	ldr	r5, [sp, #168]
	ands	r3, r5
	movs	r5, #0
	subs	r3, r3, #1
	sbcs	r2, r5
	subs	r3, r3, r7
	ldr	r3, [sp, #164]
	sbcs	r2, r3
	bhs	.LBB196_189
	lsrs	r5, r0, #3
	ldr	r0, [sp, #160]
	muls	r5, r0, r5
	ldr	r0, [sp, #172]
	adds	r0, r0, r5
	subs	r0, #8
	ldr	r3, [r0]
	lsls	r2, r3, #31
	bne	.LBB196_189
	b	.LBB196_256
.LBB196_189:
	subs	r4, #8
	ldr	r0, [r4]
	movs	r2, #1
	bics	r0, r2
	str	r0, [r4]
.LBB196_190:
	ldr	r0, [sp, #124]
	subs	r0, #8
	ldr	r1, [r0]
	ldr	r6, [r0, #4]
	lsls	r3, r1, #31
	bne	.LBB196_191
	b	.LBB196_204
.LBB196_191:
	ldr	r0, [sp, #156]
	ands	r6, r0
	mov	r2, r1
	ldr	r3, [sp, #168]
	ands	r2, r3
	movs	r3, #0
	subs	r4, r2, #1
	str	r6, [sp, #124]
	mov	r5, r6
	sbcs	r5, r3
	ldr	r6, [sp, #152]
	subs	r4, r4, r6
	ldr	r7, [sp, #164]
	sbcs	r5, r7
	ldr	r4, [sp, #148]
	blo	.LBB196_192
	bl	.LBB196_344
.LBB196_192:
	str	r4, [sp, #148]
	lsrs	r1, r1, #3
	ldr	r4, [sp, #160]
	muls	r1, r4, r1
	ldr	r4, [sp, #172]
	adds	r1, r4, r1
	subs	r1, #24
	ldr	r5, [r1]
	ldr	r4, [r1, #4]
	ands	r4, r0
	ldr	r0, [sp, #168]
	ands	r5, r0
	subs	r1, r6, r5
	sbcs	r7, r4
	mov	r1, r3
	blo	.LBB196_194
	mov	r1, r5
.LBB196_194:
	ldr	r0, [sp, #120]
	bhs	.LBB196_195
	b	.LBB196_106
.LBB196_195:
	mov	r3, r4
	b	.LBB196_106
.LBB196_196:
	add	r5, sp, #176
	ldr	r0, [sp, #132]
	str	r0, [r5, r2]
	adds	r2, r5, r2
	ldr	r0, [sp, #144]
	str	r0, [r2, #4]
	movs	r2, #0
	adds	r7, r7, #1
	str	r7, [sp, #148]
	str	r7, [sp, #288]
	ldr	r5, [sp, #104]
	adcs	r5, r2
	str	r5, [sp, #104]
	str	r5, [sp, #292]
	b	.LBB196_125
.LBB196_197:
	add	r2, sp, #176
	ldr	r0, [sp, #132]
	str	r0, [r2, r1]
	adds	r1, r2, r1
	ldr	r0, [sp, #144]
	str	r0, [r1, #4]
	movs	r1, #0
	adds	r7, r7, #1
	str	r7, [sp, #148]
	str	r7, [sp, #288]
	ldr	r0, [sp, #104]
	adcs	r0, r1
	str	r0, [sp, #104]
	str	r0, [sp, #292]
	b	.LBB196_148
.LBB196_198:
	add	r3, sp, #176
	str	r4, [r3, r2]
	adds	r2, r3, r2
	ldr	r3, [sp, #76]
	str	r3, [r2, #4]
	adds	r0, r0, #1
	str	r0, [sp, #148]
	str	r0, [sp, #288]
	ldr	r2, [sp, #104]
	adcs	r2, r1
	str	r2, [sp, #104]
	str	r2, [sp, #292]
	b	.LBB196_169
.LBB196_199:
	add	r3, sp, #176
	str	r4, [r3, r2]
	adds	r2, r3, r2
	ldr	r3, [sp, #132]
	ldr	r0, [sp, #108]
	str	r0, [r2, #4]
	adds	r6, r6, #1
	str	r6, [sp, #148]
	str	r6, [sp, #288]
	ldr	r0, [sp, #104]
	adcs	r0, r1
	str	r0, [sp, #104]
	str	r0, [sp, #292]
	b	.LBB196_184
.LBB196_200:
	add	r4, sp, #176
	ldr	r6, [sp, #56]
	str	r6, [r4, r2]
	adds	r2, r4, r2
	ldr	r4, [sp, #64]
	str	r4, [r2, #4]
	adds	r0, r0, #1
	str	r0, [sp, #148]
	str	r0, [sp, #288]
	ldr	r0, [sp, #104]
	adcs	r0, r1
	str	r0, [sp, #104]
	str	r0, [sp, #292]
	ldr	r6, [sp, #152]
	ldr	r0, [sp, #60]
	b	.LBB196_136
.LBB196_201:
	add	r1, sp, #176
	ldr	r5, [sp, #60]
	str	r5, [r1, r2]
	adds	r1, r1, r2
	ldr	r2, [sp, #64]
	str	r2, [r1, #4]
	adds	r0, r0, #1
	str	r0, [sp, #148]
	str	r0, [sp, #288]
	ldr	r0, [sp, #104]
	adcs	r0, r3
	str	r0, [sp, #104]
	str	r0, [sp, #292]
	ldr	r3, [sp, #132]
	ldr	r5, [sp, #156]
	ldr	r2, [sp, #52]
	b	.LBB196_159
.LBB196_202:
	add	r3, sp, #176
	ldr	r4, [sp, #56]
	str	r4, [r3, r2]
	adds	r2, r3, r2
	ldr	r3, [sp, #64]
	str	r3, [r2, #4]
	adds	r0, r0, #1
	str	r0, [sp, #148]
	str	r0, [sp, #288]
	ldr	r2, [sp, #104]
	adcs	r2, r1
	str	r2, [sp, #104]
	str	r2, [sp, #292]
	b	.LBB196_165
.LBB196_203:
	add	r3, sp, #176
	ldr	r0, [sp, #60]
	str	r0, [r3, r2]
	adds	r2, r3, r2
	ldr	r0, [sp, #64]
	str	r0, [r2, #4]
	adds	r6, r6, #1
	str	r6, [sp, #148]
	str	r6, [sp, #288]
	ldr	r0, [sp, #104]
	adcs	r0, r1
	str	r0, [sp, #104]
	str	r0, [sp, #292]
	ldr	r5, [sp, #156]
	ldr	r1, [sp, #108]
	ldr	r7, [sp, #52]
	b	.LBB196_180
.LBB196_204:
	orrs	r1, r2
	b	.LBB196_299
.LBB196_205:
	ldr	r0, [r0, #4]
	b	.LBB196_312
.LBB196_206:
	str	r1, [sp, #40]
	mov	r3, r5
	ldr	r0, [sp, #72]
	mov	r5, r0
	subs	r5, #16
	ldm	r5, {r1, r5}
	ands	r5, r3
	str	r1, [sp, #44]
	ldr	r3, [sp, #168]
	ands	r1, r3
	mov	r3, r1
	movs	r1, #0
	subs	r3, r3, #1
	str	r1, [sp, #120]
	sbcs	r5, r1
	subs	r3, r3, r7
	ldr	r3, [sp, #164]
	sbcs	r5, r3
	bhs	.LBB196_208
	ldr	r1, [sp, #44]
	lsrs	r5, r1, #3
	ldr	r3, [sp, #160]
	muls	r5, r3, r5
	ldr	r3, [sp, #172]
	adds	r1, r3, r5
	subs	r1, #8
	str	r1, [sp, #44]
	ldr	r3, [r1]
	mov	r1, r6
	lsls	r6, r3, #31
	mov	r6, r1
	ldr	r7, [sp, #152]
	bne	.LBB196_208
	b	.LBB196_255
.LBB196_208:
	subs	r0, #8
	ldm	r0!, {r1, r3}
	ldr	r5, [sp, #156]
	ands	r3, r5
	ldr	r5, [sp, #168]
	ands	r1, r5
	subs	r0, #8
	subs	r5, r7, r1
	ldr	r5, [sp, #164]
	sbcs	r5, r3
	ldr	r5, [sp, #120]
	str	r5, [sp, #44]
	blo	.LBB196_210
	str	r3, [sp, #44]
.LBB196_210:
	str	r0, [sp, #72]
	ldr	r0, [sp, #120]
	ldr	r7, [sp, #40]
	blo	.LBB196_212
	mov	r0, r1
.LBB196_212:
	str	r0, [sp, #36]
	subs	r6, #16
	ldr	r5, [r6]
	ldr	r3, [r6, #4]
	ldr	r1, [sp, #156]
	ands	r3, r1
	ldr	r1, [sp, #168]
	ands	r5, r1
	ldr	r0, [sp, #152]
	subs	r1, r0, r5
	ldr	r1, [sp, #164]
	sbcs	r1, r3
	ldr	r1, [sp, #120]
	blo	.LBB196_214
	mov	r1, r3
.LBB196_214:
	str	r6, [sp, #32]
	ldr	r0, [sp, #120]
	blo	.LBB196_216
	mov	r0, r5
.LBB196_216:
	str	r0, [sp, #28]
	movs	r5, #13
	ldr	r3, [sp, #148]
	str	r5, [sp, #52]
	subs	r5, r5, r3
	ldr	r5, [sp, #104]
	ldr	r0, [sp, #120]
	sbcs	r0, r5
	blo	.LBB196_218
	lsls	r5, r3, #3
	add	r6, sp, #176
	ldr	r0, [r6, r5]
	adds	r6, r6, r5
	ldr	r6, [r6, #4]
	orrs	r6, r0
	bne	.LBB196_218
	b	.LBB196_349
.LBB196_218:
	movs	r5, #1
	ldr	r6, [sp, #128]
	strb	r5, [r6]
.LBB196_219:
	movs	r5, #1
	ands	r7, r5
	ldr	r3, [sp, #28]
	orrs	r7, r3
	ldr	r0, [sp, #48]
	str	r7, [r0]
	str	r1, [r0, #4]
	orrs	r1, r3
	ldr	r7, [sp, #172]
	ldr	r6, [sp, #152]
	str	r5, [sp, #120]
	beq	.LBB196_221
	lsrs	r0, r3, #3
	ldr	r1, [sp, #160]
	muls	r0, r1, r0
	adds	r0, r7, r0
	subs	r0, #8
	ldr	r1, [sp, #108]
	str	r1, [r0, #4]
	ldr	r1, [r0]
	ands	r1, r5
	ldr	r5, [sp, #68]
	orrs	r1, r5
	ldr	r5, [sp, #120]
	str	r1, [r0]
.LBB196_221:
	ldr	r1, [sp, #36]
	mov	r0, r1
	orrs	r0, r5
	mov	r5, r1
	str	r0, [r2]
	ldr	r1, [sp, #44]
	str	r1, [r2, #4]
	mov	r0, r5
	orrs	r0, r1
	bne	.LBB196_222
	b	.LBB196_253
.LBB196_222:
	lsrs	r0, r5, #3
	ldr	r1, [sp, #160]
	muls	r0, r1, r0
	adds	r0, r7, r0
	str	r0, [sp, #48]
	subs	r0, #24
	ldm	r0!, {r1, r5}
	ldr	r2, [sp, #156]
	ands	r5, r2
	mov	r2, r1
	ldr	r3, [sp, #168]
	ands	r2, r3
	movs	r3, #0
	subs	r0, #8
	subs	r6, r6, r2
	ldr	r6, [sp, #164]
	sbcs	r6, r5
	mov	r6, r3
	blo	.LBB196_224
	mov	r6, r2
.LBB196_224:
	blo	.LBB196_226
	mov	r3, r5
.LBB196_226:
	ldr	r2, [sp, #108]
	eors	r3, r2
	ldr	r2, [sp, #68]
	eors	r6, r2
	orrs	r6, r3
	beq	.LBB196_227
	b	.LBB196_258
.LBB196_227:
	movs	r2, #0
	ldr	r6, [sp, #148]
	ldr	r3, [sp, #52]
	subs	r3, r3, r6
	mov	r3, r2
	ldr	r5, [sp, #104]
	sbcs	r3, r5
	blo	.LBB196_229
	lsls	r3, r6, #3
	add	r5, sp, #176
	ldr	r7, [r5, r3]
	adds	r5, r5, r3
	ldr	r5, [r5, #4]
	orrs	r5, r7
	bne	.LBB196_229
	b	.LBB196_357
.LBB196_229:
	ldr	r2, [sp, #128]
	ldr	r3, [sp, #120]
	strb	r3, [r2]
	ldr	r6, [sp, #152]
.LBB196_230:
	ands	r1, r3
	ldr	r2, [sp, #60]
	orrs	r1, r2
	str	r1, [r0]
	ldr	r1, [sp, #64]
	str	r1, [r0, #4]
	ldr	r5, [sp, #156]
	b	.LBB196_262
.LBB196_231:
	cmp	r2, #0
	beq	.LBB196_233
	lsrs	r5, r4, #3
	ldr	r1, [sp, #160]
	muls	r5, r1, r5
	ldr	r1, [sp, #172]
	adds	r2, r1, r5
	subs	r2, #8
	ldr	r1, [r2]
	lsls	r4, r1, #31
	bne	.LBB196_233
	b	.LBB196_257
.LBB196_233:
	str	r3, [sp, #40]
	ldr	r2, [sp, #108]
	subs	r2, #8
	ldr	r1, [r2]
	str	r2, [sp, #108]
	ldr	r2, [r2, #4]
	ldr	r5, [sp, #156]
	ands	r2, r5
	ldr	r3, [sp, #168]
	ands	r1, r3
	ldr	r3, [sp, #152]
	subs	r4, r3, r1
	ldr	r4, [sp, #164]
	sbcs	r4, r2
	ldr	r3, [sp, #56]
	str	r3, [sp, #52]
	blo	.LBB196_235
	str	r2, [sp, #52]
.LBB196_235:
	mov	r2, r3
	blo	.LBB196_237
	mov	r2, r1
.LBB196_237:
	str	r2, [sp, #48]
	subs	r6, #24
	ldr	r4, [r6]
	ldr	r2, [r6, #4]
	ands	r2, r5
	ldr	r1, [sp, #168]
	ands	r4, r1
	ldr	r1, [sp, #152]
	subs	r1, r1, r4
	ldr	r1, [sp, #164]
	sbcs	r1, r2
	mov	r1, r3
	blo	.LBB196_239
	mov	r1, r2
.LBB196_239:
	str	r6, [sp, #44]
	mov	r2, r3
	blo	.LBB196_241
	mov	r2, r4
.LBB196_241:
	movs	r3, #13
	ldr	r6, [sp, #148]
	str	r3, [sp, #120]
	subs	r4, r3, r6
	ldr	r3, [sp, #104]
	ldr	r4, [sp, #56]
	sbcs	r4, r3
	blo	.LBB196_243
	lsls	r3, r6, #3
	add	r4, sp, #176
	ldr	r5, [r4, r3]
	adds	r4, r4, r3
	ldr	r4, [r4, #4]
	orrs	r4, r5
	ldr	r5, [sp, #156]
	bne	.LBB196_243
	b	.LBB196_351
.LBB196_243:
	movs	r3, #1
	ldr	r4, [sp, #128]
	strb	r3, [r4]
.LBB196_244:
	str	r2, [r0]
	str	r1, [r0, #4]
	orrs	r1, r2
	ldr	r4, [sp, #72]
	beq	.LBB196_246
	lsrs	r0, r2, #3
	ldr	r1, [sp, #160]
	muls	r0, r1, r0
	ldr	r1, [sp, #172]
	adds	r0, r1, r0
	subs	r0, #8
	ldr	r1, [sp, #76]
	str	r1, [r0, #4]
	ldr	r1, [r0]
	movs	r2, #1
	ands	r2, r1
	orrs	r2, r4
	str	r2, [r0]
.LBB196_246:
	movs	r1, #1
	str	r1, [sp, #56]
	ldr	r2, [sp, #48]
	mov	r0, r2
	orrs	r0, r1
	str	r0, [r7]
	ldr	r1, [sp, #52]
	str	r1, [r7, #4]
	mov	r0, r2
	orrs	r0, r1
	beq	.LBB196_254
	lsrs	r0, r2, #3
	ldr	r1, [sp, #160]
	muls	r0, r1, r0
	ldr	r1, [sp, #172]
	adds	r1, r1, r0
	mov	r0, r1
	subs	r0, #24
	ldr	r3, [r0]
	ldr	r2, [r0, #4]
	ands	r2, r5
	mov	r4, r3
	ldr	r5, [sp, #168]
	ands	r4, r5
	ldr	r5, [sp, #152]
	subs	r5, r5, r4
	ldr	r5, [sp, #164]
	sbcs	r5, r2
	ldr	r6, [sp, #60]
	ldr	r7, [sp, #148]
	bhs	.LBB196_248
	b	.LBB196_302
.LBB196_248:
	ldr	r5, [sp, #72]
	eors	r4, r5
	ldr	r5, [sp, #76]
	eors	r2, r5
	orrs	r2, r4
	beq	.LBB196_249
	b	.LBB196_302
.LBB196_249:
	movs	r1, #0
	ldr	r2, [sp, #120]
	subs	r2, r2, r7
	mov	r2, r1
	ldr	r4, [sp, #104]
	sbcs	r2, r4
	blo	.LBB196_251
	lsls	r2, r7, #3
	add	r4, sp, #176
	ldr	r5, [r4, r2]
	adds	r4, r4, r2
	ldr	r4, [r4, #4]
	orrs	r4, r5
	bne	.LBB196_251
	b	.LBB196_360
.LBB196_251:
	ldr	r1, [sp, #128]
	ldr	r2, [sp, #56]
	strb	r2, [r1]
.LBB196_252:
	ands	r3, r2
	orrs	r3, r6
	str	r3, [r0]
	ldr	r1, [sp, #64]
	str	r1, [r0, #4]
	ldr	r5, [sp, #156]
	b	.LBB196_306
.LBB196_253:
	ldr	r0, [sp, #60]
	str	r0, [sp, #100]
	ldr	r0, [sp, #64]
	str	r0, [sp, #96]
	ldr	r5, [sp, #156]
	b	.LBB196_262
.LBB196_254:
	ldr	r6, [sp, #60]
	str	r6, [sp, #100]
	ldr	r0, [sp, #64]
	str	r0, [sp, #96]
	ldr	r7, [sp, #148]
	b	.LBB196_307
.LBB196_255:
	ldr	r0, [sp, #44]
.LBB196_256:
	ldr	r0, [r0, #4]
	ldr	r4, [sp, #168]
	ldr	r1, [sp, #52]
	b	.LBB196_267
.LBB196_257:
	ldr	r0, [r2, #4]
	ldr	r7, [sp, #52]
	b	.LBB196_312
.LBB196_258:
	movs	r0, #0
	ldr	r3, [sp, #148]
	ldr	r1, [sp, #52]
	subs	r1, r1, r3
	mov	r1, r0
	ldr	r2, [sp, #104]
	sbcs	r1, r2
	ldr	r5, [sp, #156]
	blo	.LBB196_260
	lsls	r2, r3, #3
	add	r1, sp, #176
	ldr	r6, [r1, r2]
	adds	r1, r1, r2
	ldr	r1, [r1, #4]
	orrs	r1, r6
	bne	.LBB196_260
	b	.LBB196_358
.LBB196_260:
	ldr	r0, [sp, #128]
	ldr	r1, [sp, #120]
	strb	r1, [r0]
.LBB196_261:
	ldr	r6, [sp, #152]
	ldr	r1, [sp, #48]
	subs	r1, #16
	ldr	r0, [sp, #60]
	str	r0, [r1]
	ldr	r0, [sp, #64]
	str	r0, [r1, #4]
.LBB196_262:
	str	r4, [sp, #48]
	movs	r0, #0
	ldr	r3, [sp, #148]
	ldr	r1, [sp, #52]
	subs	r1, r1, r3
	mov	r1, r0
	ldr	r2, [sp, #104]
	sbcs	r1, r2
	blo	.LBB196_264
	lsls	r1, r3, #3
	add	r2, sp, #176
	ldr	r4, [r2, r1]
	adds	r2, r2, r1
	ldr	r2, [r2, #4]
	orrs	r2, r4
	bne	.LBB196_264
	b	.LBB196_350
.LBB196_264:
	ldr	r1, [sp, #128]
	ldr	r2, [sp, #120]
	strb	r2, [r1]
.LBB196_265:
	ldr	r2, [sp, #32]
	ldr	r1, [sp, #68]
	str	r1, [r2]
	ldr	r1, [sp, #108]
	str	r1, [r2, #4]
	ldr	r4, [sp, #60]
	ldr	r7, [sp, #72]
	str	r4, [r7]
	ldr	r1, [sp, #64]
	str	r1, [r7, #4]
	ldm	r2, {r1, r2}
	ands	r2, r5
	mov	r3, r1
	ldr	r5, [sp, #168]
	ands	r3, r5
	subs	r3, r3, #1
	sbcs	r2, r0
	subs	r0, r3, r6
	ldr	r0, [sp, #164]
	sbcs	r2, r0
	blo	.LBB196_266
	b	.LBB196_344
.LBB196_266:
	mov	r7, r5
	lsrs	r5, r1, #3
	ldr	r1, [sp, #160]
	muls	r5, r1, r5
	ldr	r0, [sp, #172]
	adds	r0, r0, r5
	subs	r0, #8
	ldr	r3, [r0]
	ldr	r0, [r0, #4]
	str	r4, [sp, #68]
	ldr	r1, [sp, #64]
	str	r1, [sp, #108]
	ldr	r1, [sp, #48]
	mov	r4, r7
.LBB196_267:
	ldr	r6, [sp, #172]
	adds	r2, r6, r5
	mov	r5, r6
	subs	r2, #8
	ldr	r7, [sp, #124]
	subs	r7, #8
	str	r0, [r2, #4]
	movs	r0, #1
	str	r0, [sp, #120]
	orrs	r3, r0
	ldr	r6, [r7]
	str	r3, [r2]
	ldr	r2, [r7, #4]
	ldr	r0, [sp, #156]
	ands	r2, r0
	str	r7, [sp, #124]
	ldr	r0, [r7]
	ands	r0, r4
	ldr	r3, [sp, #152]
	subs	r3, r3, r0
	ldr	r3, [sp, #164]
	sbcs	r3, r2
	ldr	r7, [sp, #56]
	str	r7, [sp, #64]
	ldr	r4, [sp, #148]
	blo	.LBB196_269
	str	r2, [sp, #64]
.LBB196_269:
	str	r7, [sp, #60]
	blo	.LBB196_271
	str	r0, [sp, #60]
.LBB196_271:
	adds	r1, r5, r1
	mov	r0, r1
	subs	r0, #24
	ldr	r5, [r0]
	str	r0, [sp, #52]
	ldr	r0, [r0, #4]
	ldr	r2, [sp, #156]
	ands	r0, r2
	ldr	r2, [sp, #168]
	ands	r5, r2
	ldr	r2, [sp, #152]
	subs	r2, r2, r5
	ldr	r2, [sp, #164]
	sbcs	r2, r0
	mov	r3, r7
	blo	.LBB196_273
	mov	r3, r0
.LBB196_273:
	mov	r2, r7
	blo	.LBB196_275
	mov	r2, r5
.LBB196_275:
	movs	r0, #13
	str	r0, [sp, #72]
	subs	r0, r0, r4
	ldr	r0, [sp, #104]
	sbcs	r7, r0
	blo	.LBB196_277
	lsls	r0, r4, #3
	add	r5, sp, #176
	ldr	r7, [r5, r0]
	adds	r5, r5, r0
	ldr	r5, [r5, #4]
	orrs	r5, r7
	ldr	r4, [sp, #148]
	bne	.LBB196_277
	b	.LBB196_300
.LBB196_277:
	str	r4, [sp, #148]
	ldr	r0, [sp, #128]
	ldr	r7, [sp, #120]
	strb	r7, [r0]
.LBB196_278:
	ldr	r0, [sp, #76]
	stm	r0!, {r2, r3}
	orrs	r3, r2
	ldr	r5, [sp, #172]
	ldr	r3, [sp, #132]
	ldr	r4, [sp, #60]
	beq	.LBB196_280
	lsrs	r0, r2, #3
	ldr	r2, [sp, #160]
	muls	r0, r2, r0
	adds	r0, r5, r0
	subs	r0, #8
	ldr	r2, [sp, #144]
	str	r2, [r0, #4]
	ldr	r2, [r0]
	ands	r2, r7
	orrs	r2, r3
	str	r2, [r0]
.LBB196_280:
	subs	r1, #8
	ands	r6, r7
	orrs	r6, r4
	str	r6, [r1]
	ldr	r2, [sp, #64]
	str	r2, [r1, #4]
	mov	r0, r4
	orrs	r0, r2
	beq	.LBB196_290
	lsrs	r0, r4, #3
	ldr	r1, [sp, #160]
	muls	r1, r0, r1
	adds	r5, r5, r1
	mov	r1, r5
	subs	r1, #24
	ldr	r6, [r1]
	ldr	r0, [r1, #4]
	ldr	r2, [sp, #156]
	ands	r0, r2
	ldr	r7, [sp, #168]
	ands	r7, r6
	movs	r2, #0
	ldr	r3, [sp, #152]
	subs	r3, r3, r7
	ldr	r3, [sp, #164]
	sbcs	r3, r0
	mov	r3, r2
	blo	.LBB196_283
	mov	r3, r7
.LBB196_283:
	blo	.LBB196_285
	mov	r2, r0
.LBB196_285:
	ldr	r0, [sp, #144]
	eors	r2, r0
	ldr	r0, [sp, #132]
	eors	r3, r0
	orrs	r3, r2
	ldr	r7, [sp, #120]
	bne	.LBB196_291
	movs	r3, #0
	ldr	r4, [sp, #148]
	ldr	r0, [sp, #72]
	subs	r0, r0, r4
	mov	r0, r3
	ldr	r2, [sp, #104]
	sbcs	r0, r2
	blo	.LBB196_288
	lsls	r0, r4, #3
	add	r2, sp, #176
	ldr	r5, [r2, r0]
	adds	r2, r2, r0
	ldr	r2, [r2, #4]
	orrs	r2, r5
	ldr	r4, [sp, #148]
	bne	.LBB196_288
	b	.LBB196_355
.LBB196_288:
	ldr	r0, [sp, #128]
	strb	r7, [r0]
.LBB196_289:
	ldr	r3, [sp, #132]
	ands	r6, r7
	ldr	r0, [sp, #68]
	orrs	r6, r0
	str	r6, [r1]
	ldr	r6, [sp, #108]
	str	r6, [r1, #4]
	b	.LBB196_295
.LBB196_290:
	ldr	r0, [sp, #68]
	str	r0, [sp, #100]
	ldr	r6, [sp, #108]
	str	r6, [sp, #96]
	b	.LBB196_295
.LBB196_291:
	movs	r1, #0
	ldr	r4, [sp, #148]
	ldr	r0, [sp, #72]
	subs	r0, r0, r4
	mov	r0, r1
	ldr	r2, [sp, #104]
	sbcs	r0, r2
	blo	.LBB196_293
	lsls	r0, r4, #3
	add	r2, sp, #176
	ldr	r3, [r2, r0]
	adds	r2, r2, r0
	ldr	r2, [r2, #4]
	orrs	r2, r3
	bne	.LBB196_293
	b	.LBB196_356
.LBB196_293:
	ldr	r0, [sp, #128]
	strb	r7, [r0]
.LBB196_294:
	ldr	r6, [sp, #108]
	subs	r5, #16
	ldr	r0, [sp, #68]
	stm	r5!, {r0, r6}
	ldr	r3, [sp, #132]
.LBB196_295:
	movs	r1, #0
	ldr	r4, [sp, #148]
	ldr	r0, [sp, #72]
	subs	r0, r0, r4
	mov	r0, r1
	ldr	r2, [sp, #104]
	sbcs	r0, r2
	blo	.LBB196_297
	lsls	r0, r4, #3
	add	r2, sp, #176
	ldr	r3, [r2, r0]
	adds	r2, r2, r0
	ldr	r2, [r2, #4]
	orrs	r2, r3
	ldr	r3, [sp, #132]
	beq	.LBB196_301
.LBB196_297:
	ldr	r0, [sp, #128]
	strb	r7, [r0]
.LBB196_298:
	ldr	r0, [sp, #144]
	ldr	r1, [sp, #52]
	str	r0, [r1, #4]
	ldr	r0, [r1]
	ands	r0, r7
	orrs	r0, r3
	str	r0, [r1]
	ldr	r1, [sp, #68]
	orrs	r1, r7
	ldr	r0, [sp, #124]
.LBB196_299:
	str	r1, [r0]
	str	r6, [r0, #4]
	b	.LBB196_344
.LBB196_300:
	add	r7, sp, #176
	ldr	r5, [sp, #132]
	str	r5, [r7, r0]
	adds	r0, r7, r0
	ldr	r5, [sp, #144]
	str	r5, [r0, #4]
	movs	r0, #0
	adds	r4, r4, #1
	str	r4, [sp, #148]
	str	r4, [sp, #288]
	ldr	r5, [sp, #104]
	adcs	r5, r0
	str	r5, [sp, #104]
	str	r5, [sp, #292]
	ldr	r7, [sp, #120]
	b	.LBB196_278
.LBB196_301:
	add	r2, sp, #176
	ldr	r5, [sp, #68]
	str	r5, [r2, r0]
	adds	r0, r2, r0
	str	r6, [r0, #4]
	adds	r0, r4, #1
	str	r0, [sp, #288]
	ldr	r0, [sp, #104]
	adcs	r0, r1
	str	r0, [sp, #292]
	b	.LBB196_298
.LBB196_302:
	movs	r0, #0
	ldr	r2, [sp, #120]
	subs	r2, r2, r7
	mov	r2, r0
	ldr	r3, [sp, #104]
	sbcs	r2, r3
	blo	.LBB196_304
	lsls	r2, r7, #3
	add	r3, sp, #176
	ldr	r4, [r3, r2]
	adds	r3, r3, r2
	ldr	r3, [r3, #4]
	orrs	r3, r4
	bne	.LBB196_304
	b	.LBB196_359
.LBB196_304:
	ldr	r0, [sp, #128]
	ldr	r2, [sp, #56]
	strb	r2, [r0]
.LBB196_305:
	ldr	r5, [sp, #156]
	subs	r1, #16
	str	r6, [r1]
	ldr	r0, [sp, #64]
	str	r0, [r1, #4]
.LBB196_306:
	ldr	r4, [sp, #72]
.LBB196_307:
	movs	r0, #0
	ldr	r1, [sp, #120]
	subs	r1, r1, r7
	mov	r1, r0
	ldr	r2, [sp, #104]
	sbcs	r1, r2
	blo	.LBB196_309
	lsls	r1, r7, #3
	add	r2, sp, #176
	ldr	r3, [r2, r1]
	adds	r2, r2, r1
	ldr	r2, [r2, #4]
	orrs	r2, r3
	bne	.LBB196_309
	b	.LBB196_352
.LBB196_309:
	str	r7, [sp, #148]
	ldr	r1, [sp, #128]
	ldr	r2, [sp, #56]
	strb	r2, [r1]
	ldr	r6, [sp, #64]
.LBB196_310:
	ldr	r1, [sp, #76]
	ldr	r3, [sp, #44]
	str	r1, [r3, #4]
	ldr	r1, [r3]
	ands	r1, r2
	orrs	r1, r4
	str	r1, [r3]
	ldr	r1, [sp, #108]
	ldr	r7, [sp, #60]
	str	r7, [r1]
	str	r6, [r1, #4]
	ldr	r2, [r3, #4]
	ands	r2, r5
	ldr	r1, [r3]
	mov	r3, r1
	ldr	r4, [sp, #168]
	ands	r3, r4
	subs	r3, r3, #1
	sbcs	r2, r0
	ldr	r0, [sp, #152]
	subs	r0, r3, r0
	ldr	r0, [sp, #164]
	sbcs	r2, r0
	blo	.LBB196_311
	b	.LBB196_344
.LBB196_311:
	lsrs	r5, r1, #3
	ldr	r1, [sp, #160]
	muls	r5, r1, r5
	ldr	r0, [sp, #172]
	adds	r0, r0, r5
	subs	r0, #8
	ldr	r1, [r0]
	ldr	r0, [r0, #4]
	str	r7, [sp, #72]
	str	r6, [sp, #76]
	ldr	r7, [sp, #40]
.LBB196_312:
	ldr	r2, [sp, #172]
	adds	r2, r2, r5
	subs	r2, #8
	ldr	r4, [sp, #124]
	subs	r4, #8
	str	r0, [r2, #4]
	movs	r0, #1
	str	r0, [sp, #120]
	orrs	r1, r0
	ldr	r6, [r4]
	str	r1, [r2]
	ldr	r2, [r4, #4]
	ldr	r0, [sp, #156]
	ands	r2, r0
	ldr	r1, [r4]
	ldr	r0, [sp, #168]
	ands	r1, r0
	movs	r5, #0
	ldr	r0, [sp, #152]
	subs	r3, r0, r1
	ldr	r0, [sp, #164]
	mov	r3, r0
	sbcs	r3, r2
	str	r5, [sp, #64]
	blo	.LBB196_314
	str	r2, [sp, #64]
.LBB196_314:
	str	r4, [sp, #124]
	mov	r2, r5
	blo	.LBB196_316
	mov	r2, r1
.LBB196_316:
	str	r2, [sp, #60]
	ldr	r1, [sp, #172]
	adds	r7, r1, r7
	mov	r1, r7
	subs	r1, #16
	ldr	r4, [r1]
	str	r1, [sp, #56]
	ldr	r2, [r1, #4]
	ldr	r1, [sp, #156]
	ands	r2, r1
	ldr	r1, [sp, #168]
	ands	r4, r1
	ldr	r1, [sp, #152]
	subs	r1, r1, r4
	mov	r1, r0
	sbcs	r1, r2
	mov	r1, r5
	blo	.LBB196_318
	mov	r1, r2
.LBB196_318:
	mov	r2, r5
	blo	.LBB196_320
	mov	r2, r4
.LBB196_320:
	movs	r3, #13
	ldr	r0, [sp, #148]
	str	r3, [sp, #108]
	subs	r4, r3, r0
	ldr	r3, [sp, #104]
	sbcs	r5, r3
	blo	.LBB196_322
	lsls	r4, r0, #3
	add	r5, sp, #176
	ldr	r3, [r5, r4]
	adds	r5, r5, r4
	ldr	r5, [r5, #4]
	orrs	r5, r3
	bne	.LBB196_322
	b	.LBB196_347
.LBB196_322:
	ldr	r3, [sp, #128]
	ldr	r5, [sp, #120]
	strb	r5, [r3]
.LBB196_323:
	ldr	r0, [sp, #68]
	str	r1, [r0, #4]
	ldr	r3, [r0]
	ands	r3, r5
	orrs	r3, r2
	str	r3, [r0]
	orrs	r1, r2
	mov	r0, r5
	ldr	r5, [sp, #172]
	ldr	r3, [sp, #144]
	ldr	r4, [sp, #132]
	beq	.LBB196_325
	lsrs	r1, r2, #3
	ldr	r2, [sp, #160]
	muls	r1, r2, r1
	adds	r1, r5, r1
	subs	r1, #8
	str	r3, [r1, #4]
	ldr	r2, [r1]
	ands	r2, r0
	orrs	r2, r4
	str	r2, [r1]
.LBB196_325:
	str	r3, [sp, #144]
	subs	r7, #8
	ands	r6, r0
	ldr	r2, [sp, #60]
	orrs	r6, r2
	str	r6, [r7]
	ldr	r0, [sp, #64]
	str	r0, [r7, #4]
	mov	r1, r2
	orrs	r1, r0
	beq	.LBB196_335
	lsrs	r1, r2, #3
	ldr	r2, [sp, #160]
	muls	r2, r1, r2
	adds	r6, r5, r2
	mov	r5, r6
	subs	r5, #24
	ldr	r7, [r5]
	ldr	r2, [r5, #4]
	ldr	r1, [sp, #156]
	ands	r2, r1
	ldr	r0, [sp, #168]
	ands	r0, r7
	movs	r1, #0
	ldr	r3, [sp, #152]
	subs	r3, r3, r0
	ldr	r3, [sp, #164]
	sbcs	r3, r2
	mov	r4, r1
	blo	.LBB196_328
	mov	r4, r0
.LBB196_328:
	ldr	r3, [sp, #132]
	blo	.LBB196_330
	mov	r1, r2
.LBB196_330:
	ldr	r0, [sp, #144]
	eors	r1, r0
	eors	r4, r3
	orrs	r4, r1
	bne	.LBB196_336
	movs	r1, #0
	ldr	r0, [sp, #148]
	ldr	r2, [sp, #108]
	subs	r2, r2, r0
	mov	r2, r1
	ldr	r4, [sp, #104]
	sbcs	r2, r4
	blo	.LBB196_333
	lsls	r2, r0, #3
	add	r3, sp, #176
	ldr	r4, [r3, r2]
	adds	r3, r3, r2
	ldr	r3, [r3, #4]
	orrs	r3, r4
	ldr	r3, [sp, #132]
	bne	.LBB196_333
	b	.LBB196_353
.LBB196_333:
	ldr	r1, [sp, #128]
	ldr	r0, [sp, #120]
	strb	r0, [r1]
.LBB196_334:
	ands	r7, r0
	ldr	r0, [sp, #72]
	orrs	r7, r0
	str	r7, [r5]
	ldr	r0, [sp, #76]
	str	r0, [r5, #4]
	ldr	r7, [sp, #148]
	ldr	r4, [sp, #124]
	b	.LBB196_340
.LBB196_335:
	ldr	r0, [sp, #72]
	str	r0, [sp, #100]
	ldr	r0, [sp, #76]
	str	r0, [sp, #96]
	ldr	r7, [sp, #148]
	ldr	r3, [sp, #132]
	ldr	r4, [sp, #124]
	b	.LBB196_340
.LBB196_336:
	movs	r1, #0
	ldr	r7, [sp, #148]
	ldr	r0, [sp, #108]
	subs	r2, r0, r7
	mov	r2, r1
	ldr	r0, [sp, #104]
	sbcs	r2, r0
	blo	.LBB196_338
	lsls	r2, r7, #3
	add	r3, sp, #176
	ldr	r4, [r3, r2]
	adds	r3, r3, r2
	ldr	r3, [r3, #4]
	orrs	r3, r4
	ldr	r3, [sp, #132]
	bne	.LBB196_338
	b	.LBB196_354
.LBB196_338:
	ldr	r1, [sp, #128]
	ldr	r0, [sp, #120]
	strb	r0, [r1]
.LBB196_339:
	ldr	r4, [sp, #124]
	subs	r6, #16
	ldr	r0, [sp, #72]
	str	r0, [r6]
	ldr	r0, [sp, #76]
	str	r0, [r6, #4]
.LBB196_340:
	movs	r1, #0
	ldr	r0, [sp, #108]
	subs	r2, r0, r7
	mov	r2, r1
	ldr	r0, [sp, #104]
	sbcs	r2, r0
	blo	.LBB196_342
	lsls	r2, r7, #3
	add	r3, sp, #176
	ldr	r4, [r3, r2]
	adds	r3, r3, r2
	ldr	r3, [r3, #4]
	orrs	r3, r4
	ldr	r4, [sp, #124]
	ldr	r3, [sp, #132]
	beq	.LBB196_348
.LBB196_342:
	ldr	r1, [sp, #128]
	ldr	r2, [sp, #120]
	strb	r2, [r1]
.LBB196_343:
	ldr	r0, [sp, #56]
	str	r3, [r0]
	ldr	r1, [sp, #144]
	str	r1, [r0, #4]
	ldr	r0, [sp, #72]
	orrs	r0, r2
	str	r0, [r4]
	ldr	r0, [sp, #76]
	str	r0, [r4, #4]
.LBB196_344:
	movs	r7, #0
	ldr	r0, [sp, #84]
	str	r7, [r0]
	str	r7, [r0, #4]
	ldr	r0, [sp, #80]
	ldr	r1, [sp, #100]
	str	r1, [r0]
	ldr	r1, [sp, #96]
	str	r1, [r0, #4]
	ldr	r4, [sp, #92]
	ldr	r5, [sp, #172]
	ldr	r6, [sp, #88]
.LBB196_345:
	str	r7, [sp, #24]
	add	r0, sp, #176
	str	r0, [sp, #20]
	ldr	r0, [sp, #116]
	str	r0, [sp, #16]
	ldr	r0, [sp, #136]
	str	r0, [sp, #8]
	ldr	r0, [sp, #112]
	str	r0, [sp]
	ldr	r0, [sp, #140]
	str	r0, [sp, #12]
	mov	r0, r5
	mov	r2, r6
	mov	r3, r4
	bl	ic_raw_augmented.edit_calls.settle
.LBB196_346:
	mov	r0, r7
	add	sp, #308
	pop	{r4, r5, r6, r7, pc}
.LBB196_347:
	add	r3, sp, #176
	ldr	r5, [sp, #132]
	str	r5, [r3, r4]
	adds	r3, r3, r4
	ldr	r4, [sp, #144]
	str	r4, [r3, #4]
	movs	r3, #0
	adds	r0, r0, #1
	str	r0, [sp, #148]
	str	r0, [sp, #288]
	ldr	r0, [sp, #104]
	adcs	r0, r3
	str	r0, [sp, #104]
	str	r0, [sp, #292]
	ldr	r5, [sp, #120]
	b	.LBB196_323
.LBB196_348:
	add	r3, sp, #176
	ldr	r0, [sp, #72]
	str	r0, [r3, r2]
	adds	r2, r3, r2
	ldr	r3, [sp, #132]
	ldr	r0, [sp, #76]
	str	r0, [r2, #4]
	adds	r2, r7, #1
	str	r2, [sp, #288]
	ldr	r0, [sp, #104]
	adcs	r0, r1
	str	r0, [sp, #292]
	ldr	r2, [sp, #120]
	b	.LBB196_343
.LBB196_349:
	add	r0, sp, #176
	ldr	r6, [sp, #68]
	str	r6, [r0, r5]
	adds	r5, r0, r5
	ldr	r6, [sp, #108]
	str	r6, [r5, #4]
	movs	r5, #0
	adds	r3, r3, #1
	str	r3, [sp, #148]
	str	r3, [sp, #288]
	ldr	r3, [sp, #104]
	adcs	r3, r5
	str	r3, [sp, #104]
	str	r3, [sp, #292]
	b	.LBB196_219
.LBB196_350:
	add	r2, sp, #176
	ldr	r4, [sp, #60]
	str	r4, [r2, r1]
	adds	r1, r2, r1
	ldr	r2, [sp, #64]
	str	r2, [r1, #4]
	adds	r3, r3, #1
	str	r3, [sp, #148]
	str	r3, [sp, #288]
	ldr	r1, [sp, #104]
	adcs	r1, r0
	str	r1, [sp, #104]
	str	r1, [sp, #292]
	b	.LBB196_265
.LBB196_351:
	add	r4, sp, #176
	str	r4, [sp, #56]
	ldr	r4, [sp, #72]
	ldr	r5, [sp, #56]
	str	r4, [r5, r3]
	ldr	r5, [sp, #156]
	ldr	r4, [sp, #56]
	adds	r3, r4, r3
	ldr	r4, [sp, #76]
	str	r4, [r3, #4]
	movs	r3, #0
	adds	r6, r6, #1
	str	r6, [sp, #148]
	str	r6, [sp, #288]
	ldr	r4, [sp, #104]
	adcs	r4, r3
	str	r4, [sp, #104]
	str	r4, [sp, #292]
	b	.LBB196_244
.LBB196_352:
	add	r2, sp, #176
	str	r6, [r2, r1]
	adds	r1, r2, r1
	ldr	r6, [sp, #64]
	str	r6, [r1, #4]
	adds	r7, r7, #1
	str	r7, [sp, #148]
	str	r7, [sp, #288]
	ldr	r1, [sp, #104]
	adcs	r1, r0
	str	r1, [sp, #104]
	str	r1, [sp, #292]
	ldr	r2, [sp, #56]
	b	.LBB196_310
.LBB196_353:
	add	r3, sp, #176
	ldr	r4, [sp, #60]
	str	r4, [r3, r2]
	adds	r2, r3, r2
	ldr	r3, [sp, #132]
	ldr	r4, [sp, #64]
	str	r4, [r2, #4]
	adds	r0, r0, #1
	str	r0, [sp, #148]
	str	r0, [sp, #288]
	ldr	r0, [sp, #104]
	adcs	r0, r1
	str	r0, [sp, #104]
	str	r0, [sp, #292]
	ldr	r0, [sp, #120]
	b	.LBB196_334
.LBB196_354:
	add	r3, sp, #176
	ldr	r0, [sp, #60]
	str	r0, [r3, r2]
	adds	r2, r3, r2
	ldr	r3, [sp, #132]
	ldr	r0, [sp, #64]
	str	r0, [r2, #4]
	adds	r7, r7, #1
	str	r7, [sp, #288]
	ldr	r0, [sp, #104]
	adcs	r0, r1
	str	r0, [sp, #104]
	str	r0, [sp, #292]
	b	.LBB196_339
.LBB196_355:
	add	r2, sp, #176
	ldr	r5, [sp, #60]
	str	r5, [r2, r0]
	adds	r0, r2, r0
	ldr	r2, [sp, #64]
	str	r2, [r0, #4]
	adds	r4, r4, #1
	str	r4, [sp, #148]
	str	r4, [sp, #288]
	ldr	r0, [sp, #104]
	adcs	r0, r3
	str	r0, [sp, #104]
	str	r0, [sp, #292]
	b	.LBB196_289
.LBB196_356:
	add	r2, sp, #176
	ldr	r3, [sp, #60]
	str	r3, [r2, r0]
	adds	r0, r2, r0
	ldr	r2, [sp, #64]
	str	r2, [r0, #4]
	adds	r4, r4, #1
	str	r4, [sp, #148]
	str	r4, [sp, #288]
	ldr	r0, [sp, #104]
	adcs	r0, r1
	str	r0, [sp, #104]
	str	r0, [sp, #292]
	b	.LBB196_294
.LBB196_357:
	add	r7, sp, #176
	ldr	r5, [sp, #36]
	str	r5, [r7, r3]
	adds	r3, r7, r3
	ldr	r5, [sp, #44]
	str	r5, [r3, #4]
	adds	r6, r6, #1
	str	r6, [sp, #148]
	str	r6, [sp, #288]
	ldr	r3, [sp, #104]
	adcs	r3, r2
	str	r3, [sp, #104]
	str	r3, [sp, #292]
	ldr	r6, [sp, #152]
	ldr	r3, [sp, #120]
	b	.LBB196_230
.LBB196_358:
	add	r1, sp, #176
	ldr	r6, [sp, #36]
	str	r6, [r1, r2]
	adds	r1, r1, r2
	ldr	r2, [sp, #44]
	str	r2, [r1, #4]
	adds	r3, r3, #1
	str	r3, [sp, #148]
	str	r3, [sp, #288]
	ldr	r1, [sp, #104]
	adcs	r1, r0
	str	r1, [sp, #104]
	str	r1, [sp, #292]
	b	.LBB196_261
.LBB196_359:
	add	r3, sp, #176
	ldr	r4, [sp, #48]
	str	r4, [r3, r2]
	adds	r2, r3, r2
	ldr	r3, [sp, #52]
	str	r3, [r2, #4]
	adds	r7, r7, #1
	str	r7, [sp, #288]
	ldr	r2, [sp, #104]
	adcs	r2, r0
	str	r2, [sp, #104]
	str	r2, [sp, #292]
	b	.LBB196_305
.LBB196_360:
	add	r4, sp, #176
	ldr	r5, [sp, #48]
	str	r5, [r4, r2]
	adds	r2, r4, r2
	ldr	r4, [sp, #52]
	str	r4, [r2, #4]
	adds	r7, r7, #1
	str	r7, [sp, #288]
	ldr	r2, [sp, #104]
	adcs	r2, r1
	str	r2, [sp, #104]
	str	r2, [sp, #292]
	ldr	r2, [sp, #56]
	b	.LBB196_252
.Lfunc_end196:
	.size	ic_tree_sums_remove, .Lfunc_end196-ic_tree_sums_remove
	.cfi_endproc
	.section	.text.ic_tree_sums_renew,"ax",%progbits
	.globl	ic_tree_sums_renew
	.p2align	1
	.type	ic_tree_sums_renew,%function
	.code	16
	.thumb_func
ic_tree_sums_renew:
	.cfi_startproc
	push	{r4, r5, r6, r7, lr}
	.cfi_def_cfa_offset 20
	.cfi_offset lr, -4
	.cfi_offset r7, -8
	.cfi_offset r6, -12
	.cfi_offset r5, -16
	.cfi_offset r4, -20
	sub	sp, #60
	.cfi_def_cfa_offset 80
	mov	r4, r3
	str	r3, [sp, #52]
	str	r2, [sp, #36]
	str	r2, [sp, #48]
	movs	r7, #0
	str	r7, [sp, #44]
	movs	r1, #1
	lsls	r3, r1, #12
	cmp	r0, #0
	bne	.LBB197_2
	adds	r0, r0, r3
.LBB197_2:
	str	r0, [sp, #40]
	ldr	r1, [sp, #96]
	subs	r2, r1, #1
	sbcs	r1, r2
	str	r1, [sp, #20]
	ldr	r1, [sp, #80]
	cmp	r1, #0
	bne	.LBB197_4
	adds	r1, r1, r3
.LBB197_4:
	ldr	r5, [sp, #100]
	ldr	r3, [sp, #92]
	ldr	r6, [sp, #88]
	ldr	r2, [sp, #36]
	str	r6, [sp, #24]
	subs	r2, r6, r2
	str	r3, [sp, #28]
	mov	r2, r3
	sbcs	r2, r4
	blo	.LBB197_16
	adds	r2, r5, #1
	beq	.LBB197_10
	ldr	r3, [sp, #36]
	subs	r3, r3, r2
	sbcs	r4, r7
	blo	.LBB197_16
	movs	r3, #24
	muls	r3, r2, r3
	adds	r0, r0, r3
	subs	r0, #24
	ldrb	r0, [r0]
	lsls	r0, r0, #31
	beq	.LBB197_16
	lsrs	r0, r2, #29
	lsls	r2, r2, #3
	ldr	r3, [sp, #20]
	str	r3, [sp]
	str	r2, [sp, #8]
	str	r0, [sp, #12]
	add	r0, sp, #40
	ldr	r2, [sp, #24]
	ldr	r3, [sp, #28]
	bl	ic_raw_augmented.recompute.recompute_up
.LBB197_9:
	mov	r0, r7
	add	sp, #60
	pop	{r4, r5, r6, r7, pc}
.LBB197_10:
	str	r1, [sp, #16]
	mov	r0, r4
	ldr	r1, [sp, #36]
	orrs	r0, r1
	beq	.LBB197_9
	movs	r6, #0
	mov	r5, r6
	str	r6, [sp, #32]
	b	.LBB197_13
.LBB197_12:
	movs	r7, #0
	adds	r5, r5, #1
	adcs	r6, r7
	ldr	r0, [sp, #36]
	subs	r0, r5, r0
	mov	r0, r6
	sbcs	r0, r4
	bhs	.LBB197_9
.LBB197_13:
	lsrs	r0, r5, #29
	lsls	r1, r6, #3
	adds	r2, r1, r0
	lsls	r0, r5, #3
	adds	r0, #8
	ldr	r1, [sp, #32]
	adcs	r2, r1
	movs	r1, #15
	ands	r1, r2
	mov	r3, r0
	orrs	r3, r1
	beq	.LBB197_12
	lsls	r2, r2, #29
	lsrs	r3, r0, #3
	adds	r2, r3, r2
	lsrs	r3, r1, #3
	ldr	r7, [sp, #36]
	subs	r2, r7, r2
	mov	r2, r4
	sbcs	r2, r3
	blo	.LBB197_12
	ldr	r2, [sp, #20]
	str	r2, [sp]
	str	r0, [sp, #8]
	str	r1, [sp, #12]
	add	r0, sp, #40
	ldr	r1, [sp, #16]
	ldr	r2, [sp, #24]
	ldr	r3, [sp, #28]
	bl	ic_raw_augmented.recompute.recompute_up
	b	.LBB197_12
.LBB197_16:
	str	r5, [sp]
	add	r0, sp, #40
	ldr	r2, [sp, #24]
	ldr	r3, [sp, #28]
	bl	ic_raw_augmented.sum_calls.refusal
	mov	r7, r0
	mov	r0, r7
	add	sp, #60
	pop	{r4, r5, r6, r7, pc}
.Lfunc_end197:
	.size	ic_tree_sums_renew, .Lfunc_end197-ic_tree_sums_renew
	.cfi_endproc
	.section	.text.ic_tree_upper_bound,"ax",%progbits
	.globl	ic_tree_upper_bound
	.p2align	1
	.type	ic_tree_upper_bound,%function
	.code	16
	.thumb_func
ic_tree_upper_bound:
	.cfi_startproc
	push	{r4, r5, r6, r7, lr}
	.cfi_def_cfa_offset 20
	.cfi_offset lr, -4
	.cfi_offset r7, -8
	.cfi_offset r6, -12
	.cfi_offset r5, -16
	.cfi_offset r4, -20
	sub	sp, #76
	.cfi_def_cfa_offset 96
	mov	r4, r2
	movs	r1, #1
	lsls	r1, r1, #12
	ldr	r7, [sp, #96]
	cmp	r7, #0
	bne	.LBB198_2
	adds	r7, r7, r1
.LBB198_2:
	cmp	r0, #0
	bne	.LBB198_4
	adds	r0, r0, r1
.LBB198_4:
	ldr	r2, [sp, #108]
	ldr	r1, [sp, #104]
	str	r1, [sp, #56]
	subs	r1, r1, r4
	str	r2, [sp, #60]
	mov	r1, r2
	str	r3, [sp, #48]
	sbcs	r1, r3
	bhs	.LBB198_5
	b	.LBB198_44
.LBB198_5:
	mov	r2, r4
	ldr	r3, [sp, #112]
	ldm	r3!, {r1, r4}
	movs	r3, #15
	str	r3, [sp, #72]
	ands	r4, r3
	movs	r5, #7
	bics	r1, r5
	movs	r6, #4
	mov	r3, r1
	orrs	r3, r4
	bne	.LBB198_6
	b	.LBB198_49
.LBB198_6:
	str	r6, [sp, #8]
	lsrs	r3, r1, #3
	lsls	r6, r4, #29
	adds	r3, r3, r6
	str	r4, [sp, #32]
	lsrs	r6, r4, #3
	str	r7, [sp, #68]
	mov	r4, r2
	subs	r7, r2, r3
	ldr	r7, [sp, #48]
	sbcs	r7, r6
	ldr	r7, [sp, #68]
	bhs	.LBB198_7
	b	.LBB198_44
.LBB198_7:
	movs	r6, #24
	str	r6, [sp, #64]
	muls	r3, r6, r3
	adds	r3, r0, r3
	subs	r3, #24
	ldrb	r3, [r3]
	lsls	r3, r3, #31
	bne	.LBB198_8
	b	.LBB198_44
.LBB198_8:
	mvns	r2, r5
	str	r2, [sp, #60]
	ldr	r2, [sp, #124]
	str	r2, [sp, #56]
	ldr	r2, [sp, #120]
	str	r2, [sp, #52]
	ldr	r2, [sp, #128]
	str	r2, [sp, #4]
	lsrs	r3, r4, #29
	ldr	r2, [sp, #48]
	lsls	r2, r2, #3
	adds	r2, r2, r3
	str	r2, [sp, #48]
	lsls	r2, r4, #3
	str	r2, [sp, #44]
	movs	r6, #0
	movs	r5, #22
	str	r6, [sp, #20]
	str	r0, [sp, #40]
.LBB198_9:
	str	r5, [sp, #28]
	lsrs	r2, r1, #3
	ldr	r3, [sp, #64]
	muls	r2, r3, r2
	adds	r4, r0, r2
	mov	r5, r4
	subs	r5, #16
	subs	r4, #24
	adds	r2, r7, r1
	subs	r2, #8
	ldr	r3, [r2]
	ldr	r2, [r2, #4]
	ldr	r7, [sp, #52]
	subs	r3, r7, r3
	ldr	r3, [sp, #56]
	sbcs	r3, r2
	blo	.LBB198_11
	str	r1, [sp, #20]
.LBB198_11:
	ldr	r1, [sp, #32]
	blo	.LBB198_13
	mov	r6, r1
.LBB198_13:
	str	r6, [sp, #36]
	ldr	r3, [r4]
	ldr	r1, [r5]
	str	r3, [sp, #32]
	blo	.LBB198_15
	mov	r3, r1
.LBB198_15:
	str	r1, [sp, #24]
	ldr	r6, [r4, #4]
	ldr	r2, [r5, #4]
	mov	r4, r6
	blo	.LBB198_17
	mov	r4, r2
.LBB198_17:
	ldr	r1, [sp, #72]
	ands	r4, r1
	mov	r5, r3
	ldr	r1, [sp, #60]
	ands	r5, r1
	movs	r0, #0
	subs	r7, r5, #1
	mov	r1, r4
	str	r0, [sp, #16]
	sbcs	r1, r0
	ldr	r0, [sp, #44]
	subs	r7, r7, r0
	ldr	r7, [sp, #48]
	sbcs	r1, r7
	bhs	.LBB198_37
	lsrs	r0, r3, #3
	ldr	r1, [sp, #64]
	muls	r0, r1, r0
	ldr	r1, [sp, #40]
	adds	r6, r1, r0
	mov	r3, r6
	subs	r3, #16
	subs	r6, #24
	ldr	r0, [sp, #68]
	adds	r0, r0, r5
	subs	r0, #8
	ldr	r1, [r0]
	ldr	r0, [r0, #4]
	ldr	r2, [sp, #52]
	subs	r1, r2, r1
	ldr	r1, [sp, #56]
	sbcs	r1, r0
	blo	.LBB198_29
	str	r5, [sp, #20]
	bhs	.LBB198_30
.LBB198_20:
	ldr	r2, [r6]
	ldr	r0, [r3]
	str	r2, [sp, #32]
	blo	.LBB198_22
.LBB198_21:
	mov	r2, r0
.LBB198_22:
	str	r0, [sp, #12]
	ldr	r0, [r6, #4]
	ldr	r6, [r3, #4]
	mov	r7, r0
	blo	.LBB198_24
	mov	r7, r6
.LBB198_24:
	ldr	r1, [sp, #72]
	ands	r7, r1
	mov	r5, r2
	ldr	r1, [sp, #60]
	ands	r5, r1
	movs	r4, #0
	subs	r3, r5, #1
	mov	r1, r7
	str	r4, [sp, #24]
	sbcs	r1, r4
	ldr	r4, [sp, #44]
	subs	r3, r3, r4
	ldr	r3, [sp, #48]
	sbcs	r1, r3
	bhs	.LBB198_40
	lsrs	r0, r2, #3
	ldr	r1, [sp, #64]
	muls	r0, r1, r0
	ldr	r1, [sp, #40]
	adds	r3, r1, r0
	mov	r2, r3
	subs	r2, #16
	subs	r3, #24
	ldr	r0, [sp, #68]
	adds	r0, r0, r5
	subs	r0, #8
	ldr	r1, [r0]
	ldr	r0, [r0, #4]
	ldr	r4, [sp, #52]
	subs	r1, r4, r1
	ldr	r1, [sp, #56]
	sbcs	r1, r0
	blo	.LBB198_31
	str	r5, [sp, #20]
	bhs	.LBB198_32
.LBB198_27:
	ldr	r0, [r3]
	ldr	r4, [r2]
	mov	r1, r0
	blo	.LBB198_33
.LBB198_28:
	mov	r1, r4
	ldr	r3, [r3, #4]
	ldr	r2, [r2, #4]
	mov	r7, r3
	bhs	.LBB198_34
	b	.LBB198_35
.LBB198_29:
	blo	.LBB198_20
.LBB198_30:
	str	r4, [sp, #36]
	ldr	r2, [r6]
	ldr	r0, [r3]
	str	r2, [sp, #32]
	bhs	.LBB198_21
	b	.LBB198_22
.LBB198_31:
	blo	.LBB198_27
.LBB198_32:
	str	r7, [sp, #36]
	ldr	r0, [r3]
	ldr	r4, [r2]
	mov	r1, r0
	bhs	.LBB198_28
.LBB198_33:
	ldr	r3, [r3, #4]
	ldr	r2, [r2, #4]
	mov	r7, r3
	blo	.LBB198_35
.LBB198_34:
	mov	r7, r2
.LBB198_35:
	ldr	r5, [sp, #72]
	ands	r7, r5
	ldr	r5, [sp, #60]
	ands	r1, r5
	mov	r5, r7
	subs	r7, r1, #1
	str	r5, [sp, #32]
	ldr	r6, [sp, #24]
	sbcs	r5, r6
	ldr	r6, [sp, #44]
	subs	r6, r7, r6
	ldr	r6, [sp, #48]
	sbcs	r5, r6
	ldr	r5, [sp, #28]
	bhs	.LBB198_42
	subs	r5, r5, #1
	ldr	r0, [sp, #40]
	ldr	r7, [sp, #68]
	ldr	r6, [sp, #36]
	beq	.LBB198_48
	b	.LBB198_9
.LBB198_37:
	ldr	r0, [sp, #32]
	subs	r1, r0, r5
	sbcs	r6, r4
	bhs	.LBB198_45
	ldr	r0, [sp, #24]
	subs	r1, r0, r5
	sbcs	r2, r4
	ldr	r3, [sp, #40]
	ldr	r6, [sp, #8]
	bhs	.LBB198_46
	movs	r6, #5
	b	.LBB198_49
.LBB198_40:
	ldr	r1, [sp, #32]
	subs	r1, r1, r5
	sbcs	r0, r7
	bhs	.LBB198_45
	ldr	r0, [sp, #12]
	subs	r0, r0, r5
	sbcs	r6, r7
	ldr	r3, [sp, #40]
	ldr	r6, [sp, #8]
	blo	.LBB198_48
	b	.LBB198_46
.LBB198_42:
	subs	r0, r0, r1
	ldr	r5, [sp, #32]
	sbcs	r3, r5
	ldr	r3, [sp, #40]
	ldr	r6, [sp, #8]
	bhs	.LBB198_46
	subs	r0, r4, r1
	sbcs	r2, r5
	blo	.LBB198_48
	b	.LBB198_46
.LBB198_44:
	mov	r0, r4
	ldr	r1, [sp, #48]
	ldr	r2, [sp, #56]
	ldr	r3, [sp, #60]
	bl	ic_raw.search.refusal
	mov	r6, r0
	mov	r0, r6
	add	sp, #76
	pop	{r4, r5, r6, r7, pc}
.LBB198_45:
	ldr	r3, [sp, #40]
	ldr	r6, [sp, #8]
.LBB198_46:
	ldr	r1, [sp, #20]
	mov	r0, r1
	ldr	r2, [sp, #36]
	orrs	r0, r2
	beq	.LBB198_49
	lsrs	r0, r1, #3
	lsls	r1, r2, #29
	adds	r0, r0, r1
	ldr	r1, [sp, #64]
	muls	r1, r0, r1
	adds	r1, r3, r1
	subs	r1, #24
	ldrb	r1, [r1]
	lsls	r1, r1, #31
	bne	.LBB198_50
.LBB198_48:
	movs	r6, #5
	mov	r0, r6
	add	sp, #76
	pop	{r4, r5, r6, r7, pc}
.LBB198_49:
	mov	r0, r6
	add	sp, #76
	pop	{r4, r5, r6, r7, pc}
.LBB198_50:
	subs	r0, r0, #1
	ldr	r1, [sp, #4]
	str	r0, [r1]
	ldr	r6, [sp, #16]
	mov	r0, r6
	add	sp, #76
	pop	{r4, r5, r6, r7, pc}
.Lfunc_end198:
	.size	ic_tree_upper_bound, .Lfunc_end198-ic_tree_upper_bound
	.cfi_endproc
	.section	.text.ic_xor_append,"ax",%progbits
	.globl	ic_xor_append
	.p2align	1
	.type	ic_xor_append,%function
	.code	16
	.thumb_func
ic_xor_append:
	.cfi_startproc
	push	{r4, r5, r6, r7, lr}
	.cfi_def_cfa_offset 20
	.cfi_offset lr, -4
	.cfi_offset r7, -8
	.cfi_offset r6, -12
	.cfi_offset r5, -16
	.cfi_offset r4, -20
	sub	sp, #36
	.cfi_def_cfa_offset 56
	ldr	r5, [sp, #56]
	ldr	r1, [r5, #8]
	ldr	r6, [r5, #12]
	movs	r4, #0
	str	r4, [sp, #28]
	str	r4, [sp, #24]
	str	r4, [sp, #20]
	ldr	r7, [sp, #60]
	str	r7, [sp, #16]
	movs	r7, #15
	ands	r7, r6
	str	r7, [sp, #12]
	movs	r6, #7
	bics	r1, r6
	str	r1, [sp, #8]
	str	r5, [sp]
	orrs	r1, r7
	subs	r5, r1, #1
	sbcs	r1, r5
	str	r1, [sp, #4]
	cmp	r0, #0
	beq	.LBB199_3
	bl	ic_raw.xor_calls.splice
	cmp	r0, #0
	beq	.LBB199_4
.LBB199_2:
	mov	r0, r4
	add	sp, #36
	pop	{r4, r5, r6, r7, pc}
.LBB199_3:
	movs	r1, #1
	lsls	r1, r1, #12
	adds	r0, r0, r1
	bl	ic_raw.xor_calls.splice
	cmp	r0, #0
	bne	.LBB199_2
.LBB199_4:
	movs	r4, #5
	mov	r0, r4
	add	sp, #36
	pop	{r4, r5, r6, r7, pc}
.Lfunc_end199:
	.size	ic_xor_append, .Lfunc_end199-ic_xor_append
	.cfi_endproc
	.section	.text.ic_xor_clear,"ax",%progbits
	.globl	ic_xor_clear
	.p2align	1
	.type	ic_xor_clear,%function
	.code	16
	.thumb_func
ic_xor_clear:
	.cfi_startproc
	push	{r4, r5, r6, r7, lr}
	.cfi_def_cfa_offset 20
	.cfi_offset lr, -4
	.cfi_offset r7, -8
	.cfi_offset r6, -12
	.cfi_offset r5, -16
	.cfi_offset r4, -20
	sub	sp, #60
	.cfi_def_cfa_offset 80
	mov	r5, r0
	ldr	r6, [sp, #80]
	ldm	r6!, {r4, r7}
	movs	r1, #15
	str	r1, [sp, #48]
	ands	r7, r1
	movs	r1, #7
	mvns	r1, r1
	str	r1, [sp, #44]
	ands	r4, r1
	mov	r0, r4
	orrs	r0, r7
	subs	r6, #8
	cmp	r5, #0
	str	r3, [sp, #40]
	str	r4, [sp, #28]
	bne	.LBB200_2
	movs	r1, #1
	lsls	r1, r1, #12
	adds	r5, r5, r1
.LBB200_2:
	ldr	r4, [r6, #8]
	str	r6, [sp, #20]
	ldr	r6, [r6, #12]
	ldr	r1, [sp, #48]
	ands	r6, r1
	ldr	r1, [sp, #44]
	ands	r4, r1
	cmp	r0, #0
	beq	.LBB200_10
	str	r6, [sp, #8]
	str	r4, [sp, #12]
	movs	r3, #5
	mov	r1, r2
	ldr	r4, [sp, #40]
	orrs	r1, r4
	bne	.LBB200_4
	b	.LBB200_20
.LBB200_4:
	str	r3, [sp, #16]
	movs	r0, #0
	str	r0, [sp, #56]
	str	r0, [sp, #52]
	ldr	r0, [sp, #28]
	str	r7, [sp, #24]
	mov	r3, r7
	mov	r1, r2
	str	r2, [sp, #36]
	str	r5, [sp, #32]
.LBB200_5:
	lsrs	r6, r0, #3
	lsls	r7, r3, #29
	adds	r6, r6, r7
	lsrs	r7, r3, #3
	subs	r6, r2, r6
	ldr	r6, [sp, #40]
	sbcs	r6, r7
	blo	.LBB200_12
	adds	r7, r5, r0
	subs	r7, #8
	ldr	r6, [r7]
	lsls	r5, r6, #31
	beq	.LBB200_12
	ldr	r7, [r7, #4]
	ldr	r2, [sp, #44]
	ands	r6, r2
	ldr	r2, [sp, #56]
	eors	r6, r2
	ldr	r2, [sp, #48]
	ands	r7, r2
	ldr	r2, [sp, #52]
	eors	r7, r2
	mov	r2, r6
	orrs	r2, r7
	beq	.LBB200_13
	movs	r2, #0
	subs	r1, r1, #1
	sbcs	r4, r2
	mov	r2, r1
	orrs	r2, r4
	str	r0, [sp, #56]
	str	r3, [sp, #52]
	mov	r0, r6
	mov	r3, r7
	ldr	r2, [sp, #36]
	ldr	r5, [sp, #32]
	bne	.LBB200_5
	ldr	r3, [sp, #16]
	b	.LBB200_20
.LBB200_10:
	orrs	r4, r6
	beq	.LBB200_19
	movs	r3, #5
	mov	r0, r3
	add	sp, #60
	pop	{r4, r5, r6, r7, pc}
.LBB200_12:
	ldr	r3, [sp, #16]
	mov	r0, r3
	add	sp, #60
	pop	{r4, r5, r6, r7, pc}
.LBB200_13:
	ldr	r1, [sp, #12]
	eors	r1, r0
	ldr	r0, [sp, #8]
	eors	r0, r3
	orrs	r0, r1
	ldr	r6, [sp, #36]
	ldr	r3, [sp, #16]
	bne	.LBB200_20
	movs	r1, #0
	mov	r0, r1
	str	r1, [sp, #56]
	ldr	r5, [sp, #40]
	ldr	r7, [sp, #28]
.LBB200_15:
	lsrs	r1, r7, #3
	ldr	r3, [sp, #24]
	lsls	r2, r3, #29
	adds	r1, r1, r2
	lsrs	r2, r3, #3
	ldr	r3, [sp, #36]
	subs	r1, r3, r1
	ldr	r1, [sp, #40]
	sbcs	r1, r2
	blo	.LBB200_19
	ldr	r1, [sp, #32]
	adds	r3, r1, r7
	subs	r3, #8
	ldr	r1, [r3]
	lsls	r2, r1, #31
	beq	.LBB200_19
	ldr	r2, [r3, #4]
	movs	r4, #0
	strb	r4, [r3, #7]
	strb	r4, [r3, #6]
	strb	r4, [r3, #5]
	strb	r4, [r3, #4]
	strb	r4, [r3, #3]
	strb	r4, [r3, #2]
	strb	r4, [r3, #1]
	strb	r4, [r3]
	subs	r6, r6, #1
	sbcs	r5, r4
	mov	r3, r6
	orrs	r3, r5
	beq	.LBB200_19
	ldr	r3, [sp, #44]
	ands	r1, r3
	mov	r3, r1
	eors	r3, r0
	ldr	r4, [sp, #48]
	ands	r2, r4
	mov	r4, r2
	str	r7, [sp, #28]
	ldr	r7, [sp, #56]
	eors	r4, r7
	eors	r1, r0
	eors	r2, r7
	orrs	r2, r1
	ldr	r0, [sp, #28]
	ldr	r1, [sp, #24]
	str	r1, [sp, #56]
	mov	r7, r3
	str	r4, [sp, #24]
	bne	.LBB200_15
.LBB200_19:
	movs	r4, #0
	str	r4, [sp]
	movs	r2, #16
	ldr	r0, [sp, #20]
	mov	r1, r4
	mov	r3, r4
	bl	ic.clear
	mov	r3, r4
	mov	r0, r3
	add	sp, #60
	pop	{r4, r5, r6, r7, pc}
.LBB200_20:
	mov	r0, r3
	add	sp, #60
	pop	{r4, r5, r6, r7, pc}
.Lfunc_end200:
	.size	ic_xor_clear, .Lfunc_end200-ic_xor_clear
	.cfi_endproc
	.section	.text.ic_xor_fill,"ax",%progbits
	.globl	ic_xor_fill
	.p2align	1
	.type	ic_xor_fill,%function
	.code	16
	.thumb_func
ic_xor_fill:
	.cfi_startproc
	push	{r4, r5, r6, r7, lr}
	.cfi_def_cfa_offset 20
	.cfi_offset lr, -4
	.cfi_offset r7, -8
	.cfi_offset r6, -12
	.cfi_offset r5, -16
	.cfi_offset r4, -20
	sub	sp, #68
	.cfi_def_cfa_offset 88
	movs	r6, #1
	movs	r1, #0
	cmp	r0, #0
	beq	.LBB201_3
	mov	r5, r1
	ldr	r4, [sp, #96]
	str	r4, [sp, #60]
	cmp	r4, #0
	bne	.LBB201_4
.LBB201_2:
	mov	r0, r1
	add	sp, #68
	pop	{r4, r5, r6, r7, pc}
.LBB201_3:
	lsls	r5, r6, #12
	ldr	r4, [sp, #96]
	str	r4, [sp, #60]
	cmp	r4, #0
	beq	.LBB201_2
.LBB201_4:
	str	r6, [sp, #40]
	str	r3, [sp, #64]
	str	r0, [sp, #48]
	str	r5, [sp, #44]
	adds	r1, r0, r5
	str	r1, [sp, #28]
	ldr	r0, [sp, #92]
	str	r0, [sp, #56]
	ldr	r4, [sp, #88]
	ldr	r3, [r4, #12]
	movs	r6, #15
	ands	r3, r6
	movs	r1, #7
	mvns	r5, r1
	ldr	r7, [r4, #8]
	ands	r7, r5
	mov	r1, r7
	orrs	r1, r3
	rsbs	r0, r1, #0
	adcs	r0, r1
	str	r0, [sp, #32]
	ldr	r0, [r4, #4]
	str	r6, [sp, #24]
	ands	r0, r6
	str	r4, [sp, #8]
	ldr	r4, [r4]
	str	r5, [sp, #20]
	ands	r4, r5
	cmp	r1, #0
	str	r3, [sp, #52]
	str	r7, [sp, #36]
	str	r4, [sp, #16]
	str	r0, [sp, #12]
	beq	.LBB201_9
	lsrs	r1, r7, #3
	lsls	r4, r3, #29
	adds	r1, r1, r4
	lsrs	r4, r3, #3
	subs	r1, r2, r1
	ldr	r1, [sp, #64]
	sbcs	r1, r4
	blo	.LBB201_7
	mov	r5, r7
	ldr	r1, [sp, #28]
	adds	r4, r1, r7
	subs	r4, #8
	ldr	r1, [r4]
	lsls	r6, r1, #31
	bne	.LBB201_11
.LBB201_7:
	movs	r1, #0
	ldr	r0, [sp, #40]
	str	r0, [sp, #32]
	str	r1, [sp, #4]
	str	r1, [sp, #40]
	str	r1, [sp]
	ldr	r3, [sp, #64]
.LBB201_8:
	ldr	r0, [sp, #48]
	ldr	r6, [sp, #44]
	b	.LBB201_18
.LBB201_9:
	mov	r1, r4
	orrs	r1, r0
	mov	r5, r7
	ldr	r0, [sp, #48]
	ldr	r6, [sp, #44]
	beq	.LBB201_16
.LBB201_10:
	movs	r3, #0
	ldr	r1, [sp, #40]
	str	r1, [sp, #32]
	str	r3, [sp, #4]
	str	r3, [sp, #40]
	b	.LBB201_17
.LBB201_11:
	ldr	r4, [r4, #4]
	ldr	r6, [sp, #20]
	ands	r1, r6
	ldr	r6, [sp, #24]
	ands	r4, r6
	mov	r6, r1
	orrs	r6, r4
	beq	.LBB201_14
	lsrs	r6, r1, #3
	lsls	r7, r4, #29
	adds	r6, r6, r7
	lsrs	r4, r4, #3
	subs	r6, r2, r6
	ldr	r3, [sp, #64]
	mov	r6, r3
	sbcs	r6, r4
	bhs	.LBB201_15
	movs	r1, #0
	ldr	r0, [sp, #40]
	str	r0, [sp, #32]
	str	r1, [sp, #4]
	str	r1, [sp, #40]
	str	r1, [sp]
	b	.LBB201_8
.LBB201_14:
	ldr	r1, [sp, #16]
	eors	r1, r5
	ldr	r4, [sp, #12]
	eors	r4, r3
	orrs	r4, r1
	ldr	r0, [sp, #48]
	ldr	r6, [sp, #44]
	bne	.LBB201_10
	b	.LBB201_16
.LBB201_15:
	ldr	r4, [sp, #28]
	adds	r1, r4, r1
	subs	r1, #8
	ldrb	r1, [r1]
	lsls	r1, r1, #31
	ldr	r3, [sp, #52]
	ldr	r0, [sp, #48]
	ldr	r6, [sp, #44]
	beq	.LBB201_10
.LBB201_16:
	str	r5, [sp, #4]
.LBB201_17:
	str	r3, [sp]
	ldr	r3, [sp, #64]
.LBB201_18:
	ldr	r4, [sp, #56]
	lsls	r1, r4, #3
	adds	r1, r6, r1
	adds	r0, r0, r1
	adds	r4, r4, #1
	ldr	r7, [sp, #60]
.LBB201_19:
	movs	r1, #1
	cmp	r4, #0
	bne	.LBB201_20
	b	.LBB201_2
.LBB201_20:
	movs	r5, #0
	subs	r6, r2, r4
	mov	r6, r3
	sbcs	r6, r5
	bhs	.LBB201_21
	b	.LBB201_2
.LBB201_21:
	ldr	r1, [r0]
	lsls	r1, r1, #31
	lsrs	r1, r1, #30
	beq	.LBB201_22
	b	.LBB201_2
.LBB201_22:
	adds	r4, r4, #1
	adds	r0, #8
	subs	r7, r7, #1
	bne	.LBB201_19
	ldr	r0, [sp, #40]
	cmp	r0, #0
	beq	.LBB201_36
	ldr	r0, [sp, #56]
	adds	r1, r0, #1
	bhs	.LBB201_37
	subs	r0, r2, r1
	mov	r0, r3
	sbcs	r0, r5
	ldr	r7, [sp, #52]
	blo	.LBB201_38
	lsls	r0, r1, #3
	ldr	r4, [sp, #28]
	adds	r6, r4, r0
	subs	r6, #8
	ldrb	r4, [r6]
	lsls	r4, r4, #31
	bne	.LBB201_38
	lsrs	r7, r1, #29
	movs	r1, #1
	stm	r6!, {r1, r5}
	ldr	r4, [sp, #32]
	subs	r6, #8
	cmp	r4, #0
	str	r0, [sp, #64]
	mov	r4, r7
	bne	.LBB201_29
	ldr	r5, [sp, #4]
	ldr	r0, [sp, #28]
	adds	r1, r0, r5
	subs	r1, #8
	ldr	r4, [r1, #4]
	ldr	r0, [sp, #24]
	ands	r4, r0
	eors	r4, r7
	str	r4, [r1, #4]
	ldr	r4, [r1]
	ldr	r0, [sp, #20]
	ands	r4, r0
	ldr	r0, [sp, #64]
	eors	r4, r0
	movs	r0, #1
	orrs	r4, r0
	str	r4, [r1]
	orrs	r5, r0
	mov	r1, r5
	ldr	r5, [sp]
	ldr	r0, [sp, #16]
	ldr	r4, [sp, #12]
.LBB201_29:
	str	r0, [sp, #48]
	stm	r6!, {r1, r5}
	ldr	r0, [sp, #60]
	subs	r1, r0, #1
	beq	.LBB201_40
	str	r7, [sp, #52]
	str	r4, [sp, #44]
	ldr	r0, [sp, #56]
	adds	r6, r0, #2
	ldr	r0, [sp, #64]
.LBB201_31:
	cmp	r6, #0
	beq	.LBB201_42
	str	r1, [sp, #60]
	movs	r5, #0
	subs	r1, r2, r6
	mov	r1, r3
	sbcs	r1, r5
	ldr	r7, [sp, #52]
	blo	.LBB201_43
	mov	r4, r0
	lsls	r1, r6, #3
	ldr	r0, [sp, #28]
	str	r1, [sp, #36]
	adds	r7, r0, r1
	subs	r7, #8
	ldrb	r1, [r7]
	lsls	r1, r1, #31
	bne	.LBB201_41
	lsrs	r1, r6, #29
	str	r1, [sp, #64]
	movs	r1, #1
	str	r1, [sp, #56]
	stm	r7!, {r1, r5}
	adds	r5, r0, r4
	subs	r5, #8
	ldr	r0, [r5, #4]
	ldr	r1, [sp, #24]
	ands	r0, r1
	ldr	r1, [sp, #64]
	eors	r0, r1
	str	r0, [r5, #4]
	ldr	r0, [r5]
	ldr	r1, [sp, #20]
	ands	r0, r1
	ldr	r1, [sp, #36]
	eors	r0, r1
	ldr	r1, [sp, #56]
	orrs	r0, r1
	str	r0, [r5]
	orrs	r4, r1
	subs	r7, #8
	str	r4, [r7]
	ldr	r0, [sp, #52]
	str	r0, [r7, #4]
	adds	r6, r6, #1
	ldr	r1, [sp, #60]
	subs	r1, r1, #1
	ldr	r5, [sp, #36]
	mov	r0, r5
	ldr	r4, [sp, #64]
	str	r4, [sp, #52]
	bne	.LBB201_31
	mov	r7, r4
	mov	r4, r5
	ldr	r0, [sp, #48]
	str	r0, [sp, #16]
	ldr	r5, [sp, #44]
	b	.LBB201_39
.LBB201_36:
	movs	r1, #5
	mov	r0, r1
	add	sp, #68
	pop	{r4, r5, r6, r7, pc}
.LBB201_37:
	ldr	r7, [sp, #52]
.LBB201_38:
	ldr	r4, [sp, #36]
	ldr	r5, [sp, #12]
.LBB201_39:
	ldr	r2, [sp, #8]
	strb	r4, [r2, #8]
	movs	r1, #0
	strb	r1, [r2, #7]
	strb	r1, [r2, #6]
	strb	r1, [r2, #5]
	ldr	r3, [sp, #16]
	strb	r3, [r2]
	strb	r7, [r2, #12]
	lsrs	r0, r4, #24
	strb	r0, [r2, #11]
	lsrs	r0, r4, #16
	strb	r0, [r2, #10]
	lsrs	r0, r4, #8
	strb	r0, [r2, #9]
	strb	r5, [r2, #4]
	lsrs	r0, r3, #24
	strb	r0, [r2, #3]
	lsrs	r0, r3, #16
	strb	r0, [r2, #2]
	lsrs	r0, r3, #8
	strb	r0, [r2, #1]
	lsrs	r0, r7, #24
	strb	r0, [r2, #15]
	lsrs	r0, r7, #16
	strb	r0, [r2, #14]
	lsrs	r0, r7, #8
	strb	r0, [r2, #13]
	mov	r0, r1
	add	sp, #68
	pop	{r4, r5, r6, r7, pc}
.LBB201_40:
	ldr	r0, [sp, #48]
	str	r0, [sp, #16]
	mov	r5, r4
	ldr	r4, [sp, #64]
	b	.LBB201_39
.LBB201_41:
	ldr	r0, [sp, #48]
	str	r0, [sp, #16]
	ldr	r5, [sp, #44]
	ldr	r7, [sp, #52]
	b	.LBB201_39
.LBB201_42:
	ldr	r1, [sp, #48]
	str	r1, [sp, #16]
	ldr	r5, [sp, #44]
	mov	r4, r0
	ldr	r7, [sp, #52]
	b	.LBB201_39
.LBB201_43:
	ldr	r1, [sp, #48]
	str	r1, [sp, #16]
	ldr	r5, [sp, #44]
	mov	r4, r0
	b	.LBB201_39
.Lfunc_end201:
	.size	ic_xor_fill, .Lfunc_end201-ic_xor_fill
	.cfi_endproc
	.section	.text.ic_xor_insert_between,"ax",%progbits
	.globl	ic_xor_insert_between
	.p2align	1
	.type	ic_xor_insert_between,%function
	.code	16
	.thumb_func
ic_xor_insert_between:
	.cfi_startproc
	push	{r4, r5, r6, r7, lr}
	.cfi_def_cfa_offset 20
	.cfi_offset lr, -4
	.cfi_offset r7, -8
	.cfi_offset r6, -12
	.cfi_offset r5, -16
	.cfi_offset r4, -20
	sub	sp, #92
	.cfi_def_cfa_offset 112
	str	r3, [sp, #48]
	str	r2, [sp, #44]
	mov	r1, r0
	movs	r0, #1
	cmp	r1, #0
	str	r0, [sp, #36]
	bne	.LBB202_2
	lsls	r0, r0, #12
	adds	r1, r1, r0
.LBB202_2:
	str	r1, [sp, #68]
	ldr	r7, [sp, #112]
	ldm	r7!, {r2, r6}
	ldr	r0, [r7]
	str	r0, [sp, #60]
	ldr	r0, [r7, #4]
	str	r0, [sp, #64]
	movs	r1, #15
	movs	r0, #7
	mvns	r0, r0
	str	r1, [sp, #52]
	ands	r6, r1
	str	r0, [sp, #56]
	ands	r2, r0
	ldr	r0, [sp, #124]
	str	r0, [sp, #8]
	adds	r1, r0, #1
	lsrs	r0, r1, #29
	str	r1, [sp, #24]
	lsls	r4, r1, #3
	ldr	r1, [sp, #120]
	str	r1, [sp, #20]
	ldr	r3, [sp, #116]
	adds	r5, r3, #1
	lsrs	r1, r5, #29
	str	r1, [sp, #32]
	lsls	r1, r5, #3
	str	r1, [sp, #40]
	str	r3, [sp, #4]
	subs	r7, #8
	cmp	r5, r3
	str	r0, [sp, #28]
	str	r2, [sp, #16]
	str	r6, [sp, #12]
	bhs	.LBB202_4
	mov	r1, r2
	eors	r1, r4
	mov	r2, r6
	eors	r2, r0
	orrs	r2, r1
	mov	r0, r4
	beq	.LBB202_10
	b	.LBB202_28
.LBB202_4:
	movs	r1, #0
	ldr	r0, [sp, #44]
	subs	r2, r0, r5
	ldr	r2, [sp, #48]
	sbcs	r2, r1
	bhs	.LBB202_5
	b	.LBB202_28
.LBB202_5:
	ldr	r1, [sp, #68]
	ldr	r2, [sp, #40]
	adds	r2, r1, r2
	subs	r2, #8
	ldr	r1, [r2]
	lsls	r3, r1, #31
	bne	.LBB202_6
	b	.LBB202_28
.LBB202_6:
	mov	r0, r4
	ldr	r2, [r2, #4]
	ldr	r3, [sp, #56]
	ands	r1, r3
	eors	r1, r4
	ldr	r3, [sp, #52]
	ands	r2, r3
	ldr	r3, [sp, #28]
	eors	r2, r3
	mov	r3, r1
	orrs	r3, r2
	bne	.LBB202_8
	ldr	r1, [sp, #16]
	ldr	r2, [sp, #40]
	eors	r1, r2
	ldr	r2, [sp, #12]
	ldr	r3, [sp, #32]
	eors	r2, r3
	orrs	r2, r1
	beq	.LBB202_10
	b	.LBB202_28
.LBB202_8:
	lsrs	r3, r1, #3
	lsls	r4, r2, #29
	adds	r3, r3, r4
	lsrs	r2, r2, #3
	ldr	r4, [sp, #44]
	subs	r3, r4, r3
	ldr	r3, [sp, #48]
	sbcs	r3, r2
	bhs	.LBB202_9
	b	.LBB202_28
.LBB202_9:
	ldr	r2, [sp, #68]
	adds	r1, r2, r1
	subs	r1, #8
	ldrb	r1, [r1]
	lsls	r1, r1, #31
	bne	.LBB202_10
	b	.LBB202_28
.LBB202_10:
	ldr	r1, [sp, #64]
	ldr	r2, [sp, #52]
	ands	r1, r2
	str	r1, [sp, #64]
	ldr	r1, [sp, #60]
	ldr	r2, [sp, #56]
	ands	r1, r2
	str	r1, [sp, #60]
	ldr	r1, [sp, #20]
	adds	r2, r1, #1
	ldr	r3, [sp, #24]
	cmp	r3, #0
	beq	.LBB202_16
	movs	r1, #0
	ldr	r4, [sp, #44]
	subs	r3, r4, r3
	ldr	r3, [sp, #48]
	sbcs	r3, r1
	bhs	.LBB202_12
	b	.LBB202_28
.LBB202_12:
	ldr	r1, [sp, #68]
	adds	r3, r1, r0
	subs	r3, #8
	ldr	r1, [r3]
	lsls	r4, r1, #31
	beq	.LBB202_28
	ldr	r3, [r3, #4]
	ldr	r4, [sp, #56]
	ands	r1, r4
	ldr	r4, [sp, #40]
	eors	r1, r4
	ldr	r4, [sp, #52]
	ands	r3, r4
	ldr	r4, [sp, #32]
	eors	r3, r4
	mov	r4, r1
	orrs	r4, r3
	bne	.LBB202_19
	cmp	r2, #0
	beq	.LBB202_28
	ldr	r1, [sp, #60]
	eors	r1, r0
	ldr	r3, [sp, #64]
	mov	r4, r0
	ldr	r0, [sp, #28]
	eors	r3, r0
	mov	r0, r4
	b	.LBB202_18
.LBB202_16:
	cmp	r2, #0
	beq	.LBB202_28
	ldr	r1, [sp, #60]
	ldr	r3, [sp, #40]
	eors	r1, r3
	ldr	r3, [sp, #64]
	ldr	r4, [sp, #32]
	eors	r3, r4
.LBB202_18:
	orrs	r3, r1
	beq	.LBB202_22
	b	.LBB202_28
.LBB202_19:
	lsrs	r4, r1, #3
	lsls	r6, r3, #29
	adds	r4, r4, r6
	lsrs	r3, r3, #3
	ldr	r6, [sp, #44]
	subs	r4, r6, r4
	ldr	r4, [sp, #48]
	sbcs	r4, r3
	blo	.LBB202_28
	cmp	r2, #0
	beq	.LBB202_28
	ldr	r3, [sp, #68]
	adds	r1, r3, r1
	subs	r1, #8
	ldr	r1, [r1]
	ldr	r3, [sp, #36]
	ands	r1, r3
	beq	.LBB202_28
.LBB202_22:
	movs	r6, #0
	ldr	r1, [sp, #44]
	subs	r1, r1, r2
	ldr	r1, [sp, #48]
	sbcs	r1, r6
	blo	.LBB202_28
	lsls	r1, r2, #3
	ldr	r3, [sp, #68]
	adds	r4, r3, r1
	subs	r4, #8
	ldrb	r3, [r4]
	lsls	r3, r3, #31
	bne	.LBB202_28
	mov	r3, r1
	lsrs	r1, r2, #29
	ldr	r2, [sp, #36]
	stm	r4!, {r2, r6}
	subs	r4, #8
	cmp	r5, #0
	str	r3, [sp, #48]
	mov	r2, r3
	mov	r3, r1
	beq	.LBB202_26
	ldr	r2, [sp, #68]
	ldr	r3, [sp, #40]
	adds	r2, r2, r3
	subs	r2, #8
	ldr	r5, [r2, #4]
	ldr	r3, [sp, #52]
	ands	r5, r3
	eors	r5, r1
	mov	r3, r0
	ldr	r0, [sp, #28]
	eors	r5, r0
	mov	r0, r3
	str	r5, [r2, #4]
	ldr	r5, [r2]
	ldr	r3, [sp, #56]
	ands	r5, r3
	ldr	r3, [sp, #48]
	eors	r5, r3
	eors	r5, r0
	ldr	r3, [sp, #36]
	orrs	r5, r3
	str	r5, [r2]
	ldr	r2, [sp, #16]
	ldr	r3, [sp, #12]
.LBB202_26:
	str	r1, [sp, #16]
	str	r3, [sp, #20]
	str	r2, [sp, #44]
	ldr	r2, [sp, #24]
	cmp	r2, #0
	beq	.LBB202_29
	ldr	r3, [sp, #68]
	adds	r5, r3, r0
	subs	r5, #8
	mov	r3, r0
	ldr	r0, [r5, #4]
	ldr	r2, [sp, #52]
	ands	r0, r2
	ldr	r1, [sp, #32]
	eors	r0, r1
	ldr	r1, [sp, #16]
	eors	r0, r1
	str	r0, [r5, #4]
	ldr	r0, [r5]
	ldr	r2, [sp, #56]
	ands	r0, r2
	ldr	r2, [sp, #40]
	eors	r0, r2
	ldr	r1, [sp, #48]
	eors	r0, r1
	ldr	r1, [sp, #36]
	orrs	r0, r1
	str	r0, [r5]
	ldr	r1, [sp, #60]
	b	.LBB202_30
.LBB202_28:
	ldr	r0, [sp, #44]
	str	r0, [sp, #80]
	movs	r0, #0
	str	r0, [sp, #76]
	ldr	r0, [sp, #68]
	str	r0, [sp, #72]
	ldr	r0, [sp, #48]
	str	r0, [sp, #84]
	add	r0, sp, #72
	ldr	r1, [sp, #4]
	ldr	r2, [sp, #8]
	ldr	r3, [sp, #20]
	bl	ic_raw.xor_calls.refusal_with_both
	mov	r6, r0
	mov	r0, r6
	add	sp, #92
	pop	{r4, r5, r6, r7, pc}
.LBB202_29:
	ldr	r1, [sp, #48]
	ldr	r2, [sp, #16]
	str	r2, [sp, #64]
	mov	r3, r0
	ldr	r2, [sp, #40]
.LBB202_30:
	ldr	r0, [sp, #28]
	ldr	r5, [sp, #32]
	eors	r0, r5
	eors	r3, r2
	ldr	r2, [sp, #36]
	orrs	r3, r2
	str	r3, [r4]
	str	r0, [r4, #4]
	strb	r6, [r7, #15]
	strb	r6, [r7, #14]
	strb	r6, [r7, #13]
	ldr	r0, [sp, #64]
	strb	r0, [r7, #12]
	lsrs	r0, r1, #24
	strb	r0, [r7, #11]
	lsrs	r0, r1, #16
	strb	r0, [r7, #10]
	lsrs	r0, r1, #8
	strb	r0, [r7, #9]
	strb	r1, [r7, #8]
	strb	r6, [r7, #7]
	strb	r6, [r7, #6]
	strb	r6, [r7, #5]
	ldr	r0, [sp, #20]
	strb	r0, [r7, #4]
	ldr	r1, [sp, #44]
	lsrs	r0, r1, #24
	strb	r0, [r7, #3]
	lsrs	r0, r1, #16
	strb	r0, [r7, #2]
	lsrs	r0, r1, #8
	strb	r0, [r7, #1]
	strb	r1, [r7]
	mov	r0, r6
	add	sp, #92
	pop	{r4, r5, r6, r7, pc}
.Lfunc_end202:
	.size	ic_xor_insert_between, .Lfunc_end202-ic_xor_insert_between
	.cfi_endproc
	.section	.text.ic_xor_pop_back,"ax",%progbits
	.globl	ic_xor_pop_back
	.p2align	1
	.type	ic_xor_pop_back,%function
	.code	16
	.thumb_func
ic_xor_pop_back:
	.cfi_startproc
	push	{r4, r5, r6, r7, lr}
	.cfi_def_cfa_offset 20
	.cfi_offset lr, -4
	.cfi_offset r7, -8
	.cfi_offset r6, -12
	.cfi_offset r5, -16
	.cfi_offset r4, -20
	sub	sp, #52
	.cfi_def_cfa_offset 72
	str	r3, [sp, #48]
	str	r2, [sp, #44]
	mov	r1, r0
	ldr	r2, [sp, #72]
	ldr	r0, [r2, #8]
	ldr	r7, [r2, #12]
	movs	r5, #15
	ands	r7, r5
	movs	r4, #7
	bics	r0, r4
	mov	r6, r0
	orrs	r6, r7
	movs	r3, #1
	cmp	r1, #0
	str	r3, [sp, #36]
	bne	.LBB203_2
	lsls	r3, r3, #12
	adds	r1, r1, r3
.LBB203_2:
	cmp	r6, #0
	beq	.LBB203_5
	str	r2, [sp, #32]
	lsrs	r3, r0, #3
	lsls	r6, r7, #29
	adds	r2, r3, r6
	lsrs	r3, r7, #3
	movs	r6, #5
	str	r6, [sp, #40]
	str	r2, [sp, #28]
	ldr	r6, [sp, #44]
	subs	r6, r6, r2
	ldr	r6, [sp, #48]
	sbcs	r6, r3
	bhs	.LBB203_6
	ldr	r0, [sp, #40]
	add	sp, #52
	pop	{r4, r5, r6, r7, pc}
.LBB203_5:
	movs	r0, #4
	add	sp, #52
	pop	{r4, r5, r6, r7, pc}
.LBB203_6:
	adds	r6, r1, r0
	subs	r6, #8
	ldr	r2, [r6]
	lsls	r3, r2, #31
	bne	.LBB203_8
	ldr	r0, [sp, #40]
	add	sp, #52
	pop	{r4, r5, r6, r7, pc}
.LBB203_8:
	mvns	r3, r4
	str	r3, [sp, #16]
	ldr	r3, [sp, #32]
	str	r6, [sp, #20]
	ldm	r3!, {r4, r6}
	ands	r6, r5
	ldr	r3, [sp, #16]
	ands	r4, r3
	str	r4, [sp, #12]
	ldr	r4, [sp, #20]
	ldr	r4, [r4, #4]
	ands	r2, r3
	ands	r4, r5
	str	r2, [sp, #24]
	orrs	r2, r4
	beq	.LBB203_11
	str	r6, [sp, #4]
	ldr	r2, [sp, #24]
	lsrs	r3, r2, #3
	lsls	r6, r4, #29
	adds	r3, r3, r6
	lsrs	r6, r4, #3
	ldr	r2, [sp, #44]
	subs	r3, r2, r3
	ldr	r3, [sp, #48]
	sbcs	r3, r6
	bhs	.LBB203_13
	ldr	r0, [sp, #40]
	add	sp, #52
	pop	{r4, r5, r6, r7, pc}
.LBB203_11:
	str	r4, [sp, #8]
	ldr	r1, [sp, #12]
	eors	r1, r0
	eors	r6, r7
	orrs	r6, r1
	movs	r7, #0
	cmp	r6, #0
	mov	r6, r7
	ldr	r0, [sp, #40]
	beq	.LBB203_21
.LBB203_12:
	add	sp, #52
	pop	{r4, r5, r6, r7, pc}
.LBB203_13:
	ldr	r2, [sp, #24]
	adds	r3, r1, r2
	subs	r3, #8
	str	r3, [sp]
	ldr	r6, [r3]
	lsls	r3, r6, #31
	bne	.LBB203_15
	ldr	r0, [sp, #40]
	add	sp, #52
	pop	{r4, r5, r6, r7, pc}
.LBB203_15:
	str	r4, [sp, #8]
	ldr	r2, [sp]
	ldr	r4, [r2, #4]
	ldr	r3, [sp, #16]
	ands	r6, r3
	eors	r6, r0
	ands	r4, r5
	eors	r4, r7
	mov	r0, r6
	orrs	r0, r4
	mov	r5, r6
	bne	.LBB203_17
	str	r4, [sp, #48]
	ldr	r7, [sp, #12]
	mov	r0, r7
	ldr	r1, [sp, #24]
	eors	r0, r1
	ldr	r6, [sp, #4]
	mov	r1, r6
	ldr	r4, [sp, #8]
	eors	r1, r4
	orrs	r1, r0
	ldr	r0, [sp, #40]
	bne	.LBB203_12
	b	.LBB203_20
.LBB203_17:
	lsrs	r0, r5, #3
	lsls	r3, r4, #29
	adds	r0, r0, r3
	lsrs	r3, r4, #3
	ldr	r2, [sp, #44]
	subs	r0, r2, r0
	ldr	r0, [sp, #48]
	sbcs	r0, r3
	ldr	r7, [sp, #12]
	bhs	.LBB203_19
	ldr	r0, [sp, #40]
	add	sp, #52
	pop	{r4, r5, r6, r7, pc}
.LBB203_19:
	str	r4, [sp, #48]
	adds	r0, r1, r5
	subs	r0, #8
	ldrb	r0, [r0]
	lsls	r0, r0, #31
	ldr	r0, [sp, #40]
	ldr	r6, [sp, #4]
	beq	.LBB203_12
.LBB203_20:
	ldr	r0, [sp, #36]
	orrs	r5, r0
	ldr	r1, [sp]
	str	r5, [r1]
	ldr	r0, [sp, #48]
	str	r0, [r1, #4]
.LBB203_21:
	ldr	r1, [sp, #76]
	movs	r0, #0
	ldr	r3, [sp, #20]
	str	r0, [r3]
	str	r0, [r3, #4]
	ldr	r5, [sp, #32]
	strb	r0, [r5, #15]
	strb	r0, [r5, #14]
	strb	r0, [r5, #13]
	ldr	r2, [sp, #8]
	strb	r2, [r5, #12]
	ldr	r2, [sp, #24]
	lsrs	r3, r2, #24
	strb	r3, [r5, #11]
	lsrs	r3, r2, #16
	strb	r3, [r5, #10]
	lsrs	r3, r2, #8
	strb	r3, [r5, #9]
	strb	r2, [r5, #8]
	strb	r0, [r5, #7]
	strb	r0, [r5, #6]
	strb	r0, [r5, #5]
	strb	r6, [r5, #4]
	lsrs	r3, r7, #24
	strb	r3, [r5, #3]
	lsrs	r3, r7, #16
	strb	r3, [r5, #2]
	lsrs	r3, r7, #8
	strb	r3, [r5, #1]
	strb	r7, [r5]
	ldr	r2, [sp, #28]
	subs	r2, r2, #1
	str	r2, [r1]
	add	sp, #52
	pop	{r4, r5, r6, r7, pc}
.Lfunc_end203:
	.size	ic_xor_pop_back, .Lfunc_end203-ic_xor_pop_back
	.cfi_endproc
	.section	.text.ic_xor_pop_front,"ax",%progbits
	.globl	ic_xor_pop_front
	.p2align	1
	.type	ic_xor_pop_front,%function
	.code	16
	.thumb_func
ic_xor_pop_front:
	.cfi_startproc
	push	{r4, r5, r6, r7, lr}
	.cfi_def_cfa_offset 20
	.cfi_offset lr, -4
	.cfi_offset r7, -8
	.cfi_offset r6, -12
	.cfi_offset r5, -16
	.cfi_offset r4, -20
	sub	sp, #52
	.cfi_def_cfa_offset 72
	str	r0, [sp, #48]
	ldr	r0, [sp, #72]
	ldr	r4, [r0]
	str	r0, [sp, #24]
	ldr	r7, [r0, #4]
	movs	r0, #15
	mov	r5, r7
	str	r0, [sp, #32]
	ands	r5, r0
	movs	r1, #7
	mov	r0, r4
	str	r1, [sp, #16]
	bics	r0, r1
	mov	r6, r0
	orrs	r6, r5
	rsbs	r1, r6, #0
	adcs	r1, r6
	str	r5, [sp, #12]
	lsrs	r6, r5, #3
	lsls	r5, r7, #29
	lsrs	r4, r4, #3
	adds	r4, r4, r5
	movs	r5, #1
	str	r2, [sp, #36]
	str	r4, [sp, #8]
	subs	r4, r2, r4
	str	r3, [sp, #40]
	mov	r4, r3
	sbcs	r4, r6
	str	r5, [sp, #44]
	mov	r4, r5
	bhs	.LBB204_3
	orrs	r1, r4
	ldr	r5, [sp, #48]
	cmp	r5, #0
	beq	.LBB204_4
.LBB204_2:
	ldr	r2, [sp, #76]
	str	r2, [sp, #20]
	cmp	r1, #0
	beq	.LBB204_5
	b	.LBB204_19
.LBB204_3:
	movs	r4, #0
	orrs	r1, r4
	ldr	r5, [sp, #48]
	cmp	r5, #0
	bne	.LBB204_2
.LBB204_4:
	ldr	r2, [sp, #44]
	lsls	r4, r2, #12
	adds	r5, r5, r4
	ldr	r2, [sp, #76]
	str	r2, [sp, #20]
	cmp	r1, #0
	bne	.LBB204_19
.LBB204_5:
	adds	r1, r5, r0
	subs	r1, #8
	str	r1, [sp, #28]
	ldr	r1, [r1]
	lsls	r4, r1, #31
	beq	.LBB204_19
	ldr	r2, [sp, #16]
	mvns	r4, r2
	ldr	r2, [sp, #28]
	ldr	r3, [r2, #4]
	str	r4, [sp, #16]
	ands	r1, r4
	lsrs	r4, r1, #3
	ldr	r2, [sp, #32]
	ands	r3, r2
	lsls	r6, r3, #29
	adds	r4, r4, r6
	lsrs	r6, r3, #3
	ldr	r2, [sp, #36]
	subs	r4, r2, r4
	ldr	r4, [sp, #40]
	sbcs	r4, r6
	blo	.LBB204_8
	movs	r4, #0
	mov	r6, r1
	orrs	r6, r3
	ldr	r6, [sp, #44]
	bne	.LBB204_9
	b	.LBB204_10
.LBB204_8:
	movs	r4, #1
	mov	r6, r1
	orrs	r6, r3
	ldr	r6, [sp, #44]
	beq	.LBB204_10
.LBB204_9:
	mov	r6, r4
.LBB204_10:
	cmp	r6, #0
	bne	.LBB204_19
	adds	r4, r5, r1
	subs	r4, #8
	ldr	r6, [r4]
	lsls	r7, r6, #31
	beq	.LBB204_19
	str	r5, [sp, #48]
	ldr	r7, [r4, #4]
	ldr	r2, [sp, #16]
	ands	r6, r2
	eors	r6, r0
	lsrs	r2, r6, #3
	ldr	r0, [sp, #32]
	ands	r7, r0
	ldr	r0, [sp, #12]
	eors	r7, r0
	lsls	r0, r7, #29
	adds	r0, r2, r0
	lsrs	r2, r7, #3
	ldr	r5, [sp, #36]
	subs	r0, r5, r0
	ldr	r0, [sp, #40]
	sbcs	r0, r2
	blo	.LBB204_14
	movs	r0, #0
	mov	r2, r6
	orrs	r2, r7
	ldr	r5, [sp, #48]
	bne	.LBB204_15
	b	.LBB204_16
.LBB204_14:
	movs	r0, #1
	mov	r2, r6
	orrs	r2, r7
	ldr	r5, [sp, #48]
	beq	.LBB204_16
.LBB204_15:
	str	r0, [sp, #44]
.LBB204_16:
	ldr	r0, [sp, #44]
	cmp	r0, #0
	bne	.LBB204_19
	adds	r0, r5, r6
	subs	r0, #8
	ldrb	r0, [r0]
	lsls	r0, r0, #31
	beq	.LBB204_19
	movs	r0, #1
	orrs	r6, r0
	stm	r4!, {r6, r7}
	movs	r0, #0
	ldr	r2, [sp, #28]
	str	r0, [r2]
	str	r0, [r2, #4]
	ldr	r2, [sp, #24]
	stm	r2!, {r1, r3}
	ldr	r1, [sp, #8]
	subs	r1, r1, #1
	ldr	r2, [sp, #20]
	str	r1, [r2]
	add	sp, #52
	pop	{r4, r5, r6, r7, pc}
.LBB204_19:
	ldr	r0, [sp, #24]
	str	r0, [sp]
	ldr	r0, [sp, #20]
	str	r0, [sp, #4]
	mov	r0, r5
	ldr	r2, [sp, #36]
	ldr	r3, [sp, #40]
	bl	ic_raw.xor_calls.pop_front_slow
	add	sp, #52
	pop	{r4, r5, r6, r7, pc}
.Lfunc_end204:
	.size	ic_xor_pop_front, .Lfunc_end204-ic_xor_pop_front
	.cfi_endproc
	.section	.text.ic_xor_push_back,"ax",%progbits
	.globl	ic_xor_push_back
	.p2align	1
	.type	ic_xor_push_back,%function
	.code	16
	.thumb_func
ic_xor_push_back:
	.cfi_startproc
	push	{r4, r5, r6, r7, lr}
	.cfi_def_cfa_offset 20
	.cfi_offset lr, -4
	.cfi_offset r7, -8
	.cfi_offset r6, -12
	.cfi_offset r5, -16
	.cfi_offset r4, -20
	sub	sp, #76
	.cfi_def_cfa_offset 96
	mov	r6, r2
	str	r0, [sp, #72]
	ldr	r0, [sp, #96]
	ldr	r7, [r0, #8]
	str	r0, [sp, #44]
	ldr	r4, [r0, #12]
	movs	r1, #15
	mov	r0, r4
	str	r1, [sp, #68]
	ands	r0, r1
	movs	r2, #7
	mov	r1, r7
	str	r2, [sp, #40]
	bics	r1, r2
	str	r1, [sp, #56]
	orrs	r1, r0
	rsbs	r2, r1, #0
	adcs	r2, r1
	str	r0, [sp, #36]
	lsrs	r5, r0, #3
	str	r4, [sp, #28]
	lsls	r1, r4, #29
	str	r7, [sp, #32]
	lsrs	r7, r7, #3
	adds	r7, r7, r1
	movs	r0, #1
	str	r6, [sp, #60]
	subs	r7, r6, r7
	str	r3, [sp, #64]
	mov	r7, r3
	sbcs	r7, r5
	mov	r5, r0
	bhs	.LBB205_3
	orrs	r2, r5
	ldr	r6, [sp, #72]
	cmp	r6, #0
	beq	.LBB205_4
.LBB205_2:
	ldr	r1, [sp, #100]
	str	r1, [sp, #48]
	cmp	r2, #0
	beq	.LBB205_5
	b	.LBB205_16
.LBB205_3:
	movs	r5, #0
	orrs	r2, r5
	ldr	r6, [sp, #72]
	cmp	r6, #0
	bne	.LBB205_2
.LBB205_4:
	lsls	r5, r0, #12
	adds	r6, r6, r5
	ldr	r1, [sp, #100]
	str	r1, [sp, #48]
	cmp	r2, #0
	bne	.LBB205_16
.LBB205_5:
	ldr	r1, [sp, #56]
	adds	r1, r6, r1
	subs	r1, #8
	str	r1, [sp, #52]
	ldr	r2, [r1]
	lsls	r5, r2, #31
	beq	.LBB205_16
	str	r6, [sp, #72]
	ldr	r1, [sp, #40]
	mvns	r7, r1
	ldr	r1, [sp, #52]
	ldr	r3, [r1, #4]
	ands	r2, r7
	lsrs	r5, r2, #3
	ldr	r1, [sp, #68]
	ands	r3, r1
	lsls	r1, r3, #29
	adds	r1, r5, r1
	lsrs	r5, r3, #3
	ldr	r6, [sp, #60]
	subs	r1, r6, r1
	ldr	r1, [sp, #64]
	sbcs	r1, r5
	blo	.LBB205_8
	movs	r5, #0
	orrs	r3, r2
	ldr	r6, [sp, #72]
	bne	.LBB205_9
	b	.LBB205_10
.LBB205_8:
	movs	r5, #1
	orrs	r3, r2
	ldr	r6, [sp, #72]
	beq	.LBB205_10
.LBB205_9:
	mov	r0, r5
.LBB205_10:
	cmp	r0, #0
	bne	.LBB205_16
	adds	r0, r6, r2
	subs	r0, #8
	ldrb	r0, [r0]
	lsls	r0, r0, #31
	beq	.LBB205_16
	ldr	r0, [sp, #48]
	adds	r3, r0, #1
	bhs	.LBB205_16
	movs	r1, #0
	ldr	r0, [sp, #60]
	subs	r0, r0, r3
	ldr	r0, [sp, #64]
	sbcs	r0, r1
	blo	.LBB205_16
	lsls	r2, r3, #3
	adds	r5, r6, r2
	subs	r5, #8
	ldrb	r0, [r5]
	lsls	r0, r0, #31
	bne	.LBB205_16
	str	r7, [sp, #40]
	ldr	r4, [sp, #44]
	ldm	r4!, {r0, r6}
	str	r3, [sp, #72]
	ldr	r3, [sp, #68]
	ands	r6, r3
	str	r6, [sp, #64]
	ands	r0, r7
	str	r0, [sp, #60]
	ldr	r0, [sp, #72]
	lsrs	r3, r0, #29
	str	r3, [sp, #72]
	movs	r3, #1
	str	r3, [r5]
	str	r1, [r5, #4]
	ldr	r0, [sp, #52]
	ldr	r6, [r0, #4]
	ldr	r7, [sp, #68]
	ands	r6, r7
	ldr	r7, [sp, #72]
	eors	r6, r7
	str	r6, [r0, #4]
	ldr	r6, [r0]
	ldr	r7, [sp, #40]
	ands	r6, r7
	eors	r6, r2
	orrs	r6, r3
	str	r6, [r0]
	ldr	r6, [sp, #56]
	orrs	r6, r3
	str	r6, [r5]
	ldr	r3, [sp, #36]
	str	r3, [r5, #4]
	strb	r1, [r4, #7]
	strb	r1, [r4, #6]
	strb	r1, [r4, #5]
	ldr	r3, [sp, #72]
	strb	r3, [r4, #4]
	lsrs	r3, r2, #24
	strb	r3, [r4, #3]
	lsrs	r3, r2, #16
	strb	r3, [r4, #2]
	lsrs	r3, r2, #8
	strb	r3, [r4, #1]
	strb	r2, [r4]
	subs	r4, #8
	strb	r1, [r4, #7]
	strb	r1, [r4, #6]
	strb	r1, [r4, #5]
	ldr	r2, [sp, #64]
	strb	r2, [r4, #4]
	ldr	r0, [sp, #60]
	lsrs	r2, r0, #24
	strb	r2, [r4, #3]
	lsrs	r2, r0, #16
	strb	r2, [r4, #2]
	lsrs	r2, r0, #8
	strb	r2, [r4, #1]
	strb	r0, [r4]
	mov	r0, r1
	add	sp, #76
	pop	{r4, r5, r6, r7, pc}
.LBB205_16:
	movs	r0, #0
	ldr	r1, [sp, #44]
	str	r1, [sp]
	ldr	r1, [sp, #48]
	str	r1, [sp, #4]
	ldr	r1, [sp, #32]
	str	r1, [sp, #8]
	ldr	r1, [sp, #28]
	str	r1, [sp, #12]
	str	r0, [sp, #16]
	str	r0, [sp, #20]
	mov	r0, r6
	ldr	r2, [sp, #60]
	ldr	r3, [sp, #64]
	bl	ic_raw.xor_calls.put_slow
	mov	r1, r0
	mov	r0, r1
	add	sp, #76
	pop	{r4, r5, r6, r7, pc}
.Lfunc_end205:
	.size	ic_xor_push_back, .Lfunc_end205-ic_xor_push_back
	.cfi_endproc
	.section	.text.ic_xor_push_front,"ax",%progbits
	.globl	ic_xor_push_front
	.p2align	1
	.type	ic_xor_push_front,%function
	.code	16
	.thumb_func
ic_xor_push_front:
	.cfi_startproc
	push	{r4, r5, r6, r7, lr}
	.cfi_def_cfa_offset 20
	.cfi_offset lr, -4
	.cfi_offset r7, -8
	.cfi_offset r6, -12
	.cfi_offset r5, -16
	.cfi_offset r4, -20
	sub	sp, #68
	.cfi_def_cfa_offset 88
	ldr	r1, [sp, #88]
	ldr	r6, [r1]
	str	r1, [sp, #40]
	ldr	r4, [r1, #4]
	movs	r1, #15
	mov	r5, r4
	str	r1, [sp, #48]
	ands	r5, r1
	movs	r7, #7
	mov	r1, r6
	str	r7, [sp, #36]
	bics	r1, r7
	str	r1, [sp, #52]
	orrs	r1, r5
	rsbs	r7, r1, #0
	adcs	r7, r1
	str	r5, [sp, #32]
	lsrs	r5, r5, #3
	str	r4, [sp, #24]
	lsls	r1, r4, #29
	str	r6, [sp, #28]
	lsrs	r6, r6, #3
	adds	r6, r6, r1
	movs	r1, #1
	str	r2, [sp, #56]
	subs	r6, r2, r6
	str	r3, [sp, #60]
	mov	r6, r3
	sbcs	r6, r5
	mov	r5, r1
	blo	.LBB206_2
	movs	r5, #0
.LBB206_2:
	orrs	r7, r5
	cmp	r0, #0
	beq	.LBB206_4
	mov	r5, r0
	ldr	r0, [sp, #92]
	str	r0, [sp, #44]
	cmp	r7, #0
	beq	.LBB206_5
	b	.LBB206_16
.LBB206_4:
	lsls	r5, r1, #12
	adds	r5, r0, r5
	ldr	r0, [sp, #92]
	str	r0, [sp, #44]
	cmp	r7, #0
	bne	.LBB206_16
.LBB206_5:
	ldr	r3, [sp, #52]
	adds	r7, r5, r3
	subs	r7, #8
	ldr	r3, [r7]
	str	r5, [sp, #64]
	lsls	r5, r3, #31
	ldr	r5, [sp, #64]
	beq	.LBB206_16
	ldr	r0, [sp, #36]
	mvns	r4, r0
	ldr	r2, [r7, #4]
	ands	r3, r4
	lsrs	r5, r3, #3
	ldr	r0, [sp, #48]
	ands	r2, r0
	lsls	r6, r2, #29
	adds	r5, r5, r6
	lsrs	r6, r2, #3
	ldr	r0, [sp, #56]
	subs	r5, r0, r5
	ldr	r5, [sp, #60]
	sbcs	r5, r6
	blo	.LBB206_8
	movs	r5, #0
	orrs	r2, r3
	bne	.LBB206_9
	b	.LBB206_10
.LBB206_8:
	movs	r5, #1
	orrs	r2, r3
	beq	.LBB206_10
.LBB206_9:
	mov	r1, r5
.LBB206_10:
	cmp	r1, #0
	ldr	r5, [sp, #64]
	bne	.LBB206_16
	adds	r1, r5, r3
	subs	r1, #8
	ldrb	r1, [r1]
	lsls	r1, r1, #31
	beq	.LBB206_16
	ldr	r0, [sp, #44]
	adds	r6, r0, #1
	bhs	.LBB206_16
	movs	r1, #0
	ldr	r0, [sp, #56]
	subs	r2, r0, r6
	ldr	r2, [sp, #60]
	sbcs	r2, r1
	blo	.LBB206_16
	lsls	r0, r6, #3
	adds	r3, r5, r0
	subs	r3, #8
	ldrb	r5, [r3]
	lsls	r5, r5, #31
	ldr	r5, [sp, #64]
	bne	.LBB206_16
	str	r6, [sp, #64]
	mov	r6, r4
	str	r4, [sp, #36]
	ldr	r4, [sp, #40]
	str	r0, [sp, #56]
	ldr	r0, [r4, #8]
	ldr	r5, [r4, #12]
	ldr	r2, [sp, #48]
	ands	r5, r2
	str	r5, [sp, #60]
	ands	r0, r6
	ldr	r5, [sp, #64]
	lsrs	r5, r5, #29
	str	r5, [sp, #64]
	movs	r6, #1
	str	r6, [r3]
	str	r1, [r3, #4]
	ldr	r5, [r7, #4]
	ands	r5, r2
	ldr	r2, [sp, #64]
	eors	r5, r2
	str	r5, [r7, #4]
	ldr	r5, [r7]
	ldr	r2, [sp, #36]
	ands	r5, r2
	ldr	r2, [sp, #56]
	eors	r5, r2
	orrs	r5, r6
	str	r5, [r7]
	ldr	r5, [sp, #52]
	orrs	r5, r6
	str	r5, [r3]
	ldr	r5, [sp, #32]
	str	r5, [r3, #4]
	strb	r1, [r4, #15]
	strb	r1, [r4, #14]
	strb	r1, [r4, #13]
	ldr	r3, [sp, #60]
	strb	r3, [r4, #12]
	lsrs	r3, r0, #24
	strb	r3, [r4, #11]
	lsrs	r3, r0, #16
	strb	r3, [r4, #10]
	lsrs	r3, r0, #8
	strb	r3, [r4, #9]
	strb	r0, [r4, #8]
	strb	r1, [r4, #7]
	strb	r1, [r4, #6]
	strb	r1, [r4, #5]
	ldr	r0, [sp, #64]
	strb	r0, [r4, #4]
	lsrs	r0, r2, #24
	strb	r0, [r4, #3]
	lsrs	r0, r2, #16
	strb	r0, [r4, #2]
	lsrs	r0, r2, #8
	strb	r0, [r4, #1]
	strb	r2, [r4]
	mov	r0, r1
	add	sp, #68
	pop	{r4, r5, r6, r7, pc}
.LBB206_16:
	movs	r1, #0
	ldr	r0, [sp, #40]
	str	r0, [sp]
	ldr	r0, [sp, #44]
	str	r0, [sp, #4]
	str	r1, [sp, #8]
	str	r1, [sp, #12]
	ldr	r0, [sp, #28]
	str	r0, [sp, #16]
	ldr	r0, [sp, #24]
	str	r0, [sp, #20]
	mov	r0, r5
	ldr	r2, [sp, #56]
	ldr	r3, [sp, #60]
	bl	ic_raw.xor_calls.put_slow
	mov	r1, r0
	mov	r0, r1
	add	sp, #68
	pop	{r4, r5, r6, r7, pc}
.Lfunc_end206:
	.size	ic_xor_push_front, .Lfunc_end206-ic_xor_push_front
	.cfi_endproc
	.section	.text.ic_xor_remove,"ax",%progbits
	.globl	ic_xor_remove
	.p2align	1
	.type	ic_xor_remove,%function
	.code	16
	.thumb_func
ic_xor_remove:
	.cfi_startproc
	push	{r4, r5, r6, r7, lr}
	.cfi_def_cfa_offset 20
	.cfi_offset lr, -4
	.cfi_offset r7, -8
	.cfi_offset r6, -12
	.cfi_offset r5, -16
	.cfi_offset r4, -20
	sub	sp, #100
	.cfi_def_cfa_offset 120
	mov	r1, r0
	movs	r4, #1
	cmp	r0, #0
	bne	.LBB207_2
	lsls	r0, r4, #12
	adds	r1, r1, r0
.LBB207_2:
	ldr	r0, [sp, #128]
	adds	r5, r0, #1
	blo	.LBB207_4
	movs	r0, #4
	add	sp, #100
	pop	{r4, r5, r6, r7, pc}
.LBB207_4:
	str	r0, [sp, #12]
	str	r4, [sp, #36]
	ldr	r0, [sp, #124]
	str	r0, [sp, #44]
	movs	r0, #0
	str	r2, [sp, #60]
	subs	r4, r2, r5
	str	r3, [sp, #64]
	str	r0, [sp, #40]
	sbcs	r3, r0
	bhs	.LBB207_5
	b	.LBB207_25
.LBB207_5:
	lsls	r3, r5, #3
	str	r3, [sp, #92]
	adds	r3, r1, r3
	subs	r3, #8
	str	r3, [sp, #48]
	ldr	r0, [r3]
	lsls	r3, r0, #31
	bne	.LBB207_6
	b	.LBB207_25
.LBB207_6:
	str	r1, [sp, #52]
	lsrs	r3, r5, #29
	ldr	r5, [sp, #120]
	ldm	r5!, {r6, r7}
	ldr	r2, [r5]
	str	r2, [sp, #76]
	ldr	r2, [r5, #4]
	str	r2, [sp, #72]
	movs	r1, #15
	movs	r2, #7
	mvns	r2, r2
	str	r1, [sp, #84]
	ands	r7, r1
	str	r2, [sp, #88]
	ands	r6, r2
	ldr	r1, [sp, #44]
	adds	r4, r1, #1
	lsrs	r1, r4, #29
	str	r1, [sp, #56]
	lsls	r2, r4, #3
	str	r2, [sp, #96]
	ldr	r2, [sp, #48]
	ldr	r1, [r2, #4]
	str	r1, [sp, #80]
	subs	r5, #8
	cmp	r4, #0
	str	r6, [sp, #24]
	str	r7, [sp, #20]
	str	r3, [sp, #68]
	str	r4, [sp, #28]
	beq	.LBB207_11
	ldr	r2, [sp, #60]
	subs	r2, r2, r4
	ldr	r2, [sp, #64]
	ldr	r1, [sp, #40]
	sbcs	r2, r1
	ldr	r1, [sp, #52]
	bhs	.LBB207_8
	b	.LBB207_25
.LBB207_8:
	ldr	r2, [sp, #96]
	adds	r6, r1, r2
	subs	r6, #8
	ldr	r2, [r6]
	lsls	r7, r2, #31
	bne	.LBB207_9
	b	.LBB207_25
.LBB207_9:
	ldr	r6, [r6, #4]
	ldr	r3, [sp, #88]
	ands	r2, r3
	ldr	r7, [sp, #92]
	eors	r2, r7
	ldr	r3, [sp, #84]
	ands	r6, r3
	ldr	r3, [sp, #68]
	eors	r6, r3
	mov	r7, r2
	orrs	r7, r6
	bne	.LBB207_12
	ldr	r2, [sp, #24]
	ldr	r3, [sp, #96]
	eors	r2, r3
	ldr	r6, [sp, #20]
	ldr	r3, [sp, #56]
	eors	r6, r3
	orrs	r6, r2
	beq	.LBB207_14
	b	.LBB207_25
.LBB207_11:
	mov	r2, r6
	ldr	r6, [sp, #92]
	eors	r2, r6
	mov	r6, r7
	eors	r6, r3
	orrs	r6, r2
	ldr	r1, [sp, #52]
	beq	.LBB207_14
	b	.LBB207_25
.LBB207_12:
	lsrs	r3, r2, #3
	lsls	r7, r6, #29
	adds	r7, r3, r7
	lsrs	r6, r6, #3
	ldr	r3, [sp, #60]
	subs	r7, r3, r7
	ldr	r7, [sp, #64]
	sbcs	r7, r6
	blo	.LBB207_25
	adds	r2, r1, r2
	subs	r2, #8
	ldrb	r2, [r2]
	lsls	r2, r2, #31
	beq	.LBB207_25
.LBB207_14:
	str	r5, [sp, #16]
	ldr	r7, [sp, #72]
	ldr	r1, [sp, #84]
	ands	r7, r1
	ldr	r6, [sp, #76]
	ldr	r2, [sp, #88]
	ands	r6, r2
	ands	r0, r2
	mov	r2, r0
	ldr	r3, [sp, #96]
	eors	r2, r3
	ldr	r4, [sp, #80]
	ands	r4, r1
	mov	r5, r4
	ldr	r1, [sp, #56]
	eors	r5, r1
	eors	r0, r3
	eors	r4, r1
	orrs	r4, r0
	str	r4, [sp, #80]
	str	r6, [sp, #76]
	str	r7, [sp, #72]
	str	r5, [sp, #32]
	bne	.LBB207_16
	mov	r4, r6
	ldr	r6, [sp, #92]
	eors	r4, r6
	mov	r6, r7
	ldr	r3, [sp, #68]
	eors	r6, r3
	orrs	r6, r4
	ldr	r1, [sp, #52]
	mov	r3, r2
	ldr	r5, [sp, #16]
	beq	.LBB207_22
	b	.LBB207_25
.LBB207_16:
	lsrs	r4, r2, #3
	lsls	r7, r5, #29
	adds	r4, r4, r7
	lsrs	r7, r5, #3
	ldr	r3, [sp, #60]
	subs	r4, r3, r4
	ldr	r4, [sp, #64]
	sbcs	r4, r7
	ldr	r1, [sp, #52]
	ldr	r5, [sp, #16]
	blo	.LBB207_25
	adds	r7, r1, r2
	subs	r7, #8
	ldr	r4, [r7]
	lsls	r6, r4, #31
	beq	.LBB207_25
	mov	r0, r2
	ldr	r7, [r7, #4]
	ldr	r3, [sp, #88]
	ands	r4, r3
	ldr	r6, [sp, #92]
	eors	r4, r6
	ldr	r3, [sp, #84]
	ands	r7, r3
	ldr	r3, [sp, #68]
	eors	r7, r3
	mov	r6, r4
	orrs	r6, r7
	bne	.LBB207_20
	ldr	r4, [sp, #76]
	mov	r3, r0
	eors	r4, r0
	ldr	r6, [sp, #72]
	ldr	r0, [sp, #32]
	eors	r6, r0
	orrs	r6, r4
	beq	.LBB207_22
	b	.LBB207_25
.LBB207_20:
	lsrs	r2, r4, #3
	lsls	r6, r7, #29
	adds	r6, r2, r6
	lsrs	r7, r7, #3
	ldr	r3, [sp, #60]
	subs	r6, r3, r6
	ldr	r6, [sp, #64]
	sbcs	r6, r7
	blo	.LBB207_25
	mov	r3, r0
	adds	r4, r1, r4
	subs	r4, #8
	ldrb	r4, [r4]
	lsls	r4, r4, #31
	beq	.LBB207_25
.LBB207_22:
	ldr	r0, [sp, #28]
	cmp	r0, #0
	beq	.LBB207_26
	mov	r0, r3
	ldr	r3, [sp, #96]
	adds	r4, r1, r3
	subs	r4, #8
	ldr	r6, [r4, #4]
	ldr	r3, [sp, #84]
	ands	r6, r3
	ldr	r3, [sp, #68]
	eors	r6, r3
	ldr	r2, [sp, #32]
	eors	r6, r2
	str	r6, [r4, #4]
	ldr	r2, [r4]
	ldr	r3, [sp, #88]
	ands	r2, r3
	mov	r3, r0
	ldr	r6, [sp, #92]
	eors	r2, r6
	eors	r2, r0
	ldr	r6, [sp, #36]
	orrs	r2, r6
	str	r2, [r4]
	ldr	r4, [sp, #24]
	ldr	r7, [sp, #20]
	ldr	r0, [sp, #40]
	ldr	r2, [sp, #80]
	cmp	r2, #0
	bne	.LBB207_27
.LBB207_24:
	ldr	r2, [sp, #96]
	ldr	r3, [sp, #56]
	b	.LBB207_28
.LBB207_25:
	ldr	r0, [sp, #12]
	str	r0, [sp]
	ldr	r0, [sp, #44]
	str	r0, [sp, #4]
	mov	r0, r1
	ldr	r2, [sp, #60]
	ldr	r3, [sp, #64]
	bl	ic_raw.table.RawTable.refusal_at_both.feecb86c9dd45d96
	add	sp, #100
	pop	{r4, r5, r6, r7, pc}
.LBB207_26:
	mov	r4, r3
	ldr	r7, [sp, #32]
	ldr	r6, [sp, #36]
	ldr	r0, [sp, #40]
	ldr	r2, [sp, #80]
	cmp	r2, #0
	beq	.LBB207_24
.LBB207_27:
	adds	r1, r1, r3
	subs	r1, #8
	ldr	r2, [r1, #4]
	ldr	r3, [sp, #84]
	ands	r2, r3
	ldr	r3, [sp, #56]
	eors	r3, r2
	ldr	r2, [sp, #68]
	eors	r3, r2
	str	r3, [r1, #4]
	ldr	r2, [r1]
	ldr	r3, [sp, #88]
	ands	r2, r3
	ldr	r3, [sp, #96]
	eors	r3, r2
	ldr	r2, [sp, #92]
	eors	r3, r2
	orrs	r3, r6
	str	r3, [r1]
	ldr	r2, [sp, #76]
	ldr	r3, [sp, #72]
.LBB207_28:
	ldr	r1, [sp, #48]
	str	r0, [r1]
	str	r0, [r1, #4]
	strb	r0, [r5, #15]
	strb	r0, [r5, #14]
	strb	r0, [r5, #13]
	strb	r3, [r5, #12]
	lsrs	r1, r2, #24
	strb	r1, [r5, #11]
	lsrs	r1, r2, #16
	strb	r1, [r5, #10]
	lsrs	r1, r2, #8
	strb	r1, [r5, #9]
	strb	r2, [r5, #8]
	strb	r0, [r5, #7]
	strb	r0, [r5, #6]
	strb	r0, [r5, #5]
	strb	r7, [r5, #4]
	lsrs	r1, r4, #24
	strb	r1, [r5, #3]
	lsrs	r1, r4, #16
	strb	r1, [r5, #2]
	lsrs	r1, r4, #8
	strb	r1, [r5, #1]
	strb	r4, [r5]
	add	sp, #100
	pop	{r4, r5, r6, r7, pc}
.Lfunc_end207:
	.size	ic_xor_remove, .Lfunc_end207-ic_xor_remove
	.cfi_endproc
	.section	.text.ic_xor_replace,"ax",%progbits
	.globl	ic_xor_replace
	.p2align	1
	.type	ic_xor_replace,%function
	.code	16
	.thumb_func
ic_xor_replace:
	.cfi_startproc
	push	{r4, r5, r6, r7, lr}
	.cfi_def_cfa_offset 20
	.cfi_offset lr, -4
	.cfi_offset r7, -8
	.cfi_offset r6, -12
	.cfi_offset r5, -16
	.cfi_offset r4, -20
	sub	sp, #116
	.cfi_def_cfa_offset 136
	mov	r4, r0
	movs	r5, #1
	cmp	r0, #0
	bne	.LBB208_2
	lsls	r0, r5, #12
	adds	r4, r4, r0
.LBB208_2:
	ldr	r0, [sp, #144]
	adds	r1, r0, #1
	blo	.LBB208_4
	movs	r0, #4
	add	sp, #116
	pop	{r4, r5, r6, r7, pc}
.LBB208_4:
	str	r0, [sp, #4]
	str	r5, [sp, #44]
	ldr	r0, [sp, #148]
	str	r0, [sp, #28]
	ldr	r0, [sp, #140]
	str	r0, [sp, #32]
	ldr	r7, [sp, #136]
	str	r4, [sp, #96]
	ldr	r5, [r7]
	str	r4, [sp, #92]
	ldr	r4, [r7, #4]
	ldr	r0, [r7, #8]
	str	r0, [sp, #88]
	ldr	r0, [r7, #12]
	str	r0, [sp, #84]
	movs	r0, #0
	add	r6, sp, #100
	stm	r6!, {r0, r2, r3}
	str	r2, [sp, #56]
	subs	r2, r2, r1
	str	r3, [sp, #60]
	mov	r2, r3
	mov	r3, r4
	ldr	r4, [sp, #92]
	sbcs	r2, r0
	bhs	.LBB208_5
	b	.LBB208_32
.LBB208_5:
	lsls	r2, r1, #3
	str	r2, [sp, #72]
	adds	r2, r4, r2
	subs	r2, #8
	str	r2, [sp, #36]
	ldr	r2, [r2]
	str	r2, [sp, #68]
	lsls	r2, r2, #31
	bne	.LBB208_6
	b	.LBB208_32
.LBB208_6:
	lsrs	r6, r1, #29
	movs	r2, #15
	movs	r1, #7
	mvns	r1, r1
	str	r2, [sp, #76]
	ands	r3, r2
	str	r1, [sp, #80]
	ands	r5, r1
	ldr	r1, [sp, #32]
	mov	r4, r3
	adds	r3, r1, #1
	lsrs	r1, r3, #29
	str	r1, [sp, #40]
	lsls	r1, r3, #3
	ldr	r2, [sp, #36]
	ldr	r2, [r2, #4]
	str	r2, [sp, #52]
	cmp	r3, #0
	str	r4, [sp, #12]
	str	r5, [sp, #16]
	str	r6, [sp, #64]
	str	r1, [sp, #24]
	str	r3, [sp, #8]
	beq	.LBB208_11
	ldr	r2, [sp, #56]
	subs	r2, r2, r3
	ldr	r2, [sp, #60]
	sbcs	r2, r0
	ldr	r4, [sp, #92]
	bhs	.LBB208_8
	b	.LBB208_32
.LBB208_8:
	adds	r5, r4, r1
	subs	r5, #8
	ldr	r2, [r5]
	lsls	r6, r2, #31
	bne	.LBB208_9
	b	.LBB208_32
.LBB208_9:
	ldr	r5, [r5, #4]
	ldr	r6, [sp, #80]
	ands	r2, r6
	ldr	r6, [sp, #72]
	eors	r2, r6
	ldr	r3, [sp, #76]
	ands	r5, r3
	ldr	r3, [sp, #64]
	eors	r5, r3
	mov	r6, r2
	orrs	r6, r5
	bne	.LBB208_13
	ldr	r2, [sp, #16]
	ldr	r1, [sp, #24]
	eors	r2, r1
	ldr	r5, [sp, #12]
	ldr	r6, [sp, #40]
	b	.LBB208_12
.LBB208_11:
	mov	r2, r5
	ldr	r5, [sp, #72]
	eors	r2, r5
	mov	r5, r4
.LBB208_12:
	eors	r5, r6
	orrs	r5, r2
	beq	.LBB208_15
	b	.LBB208_32
.LBB208_13:
	lsrs	r1, r2, #3
	lsls	r6, r5, #29
	adds	r6, r1, r6
	lsrs	r5, r5, #3
	ldr	r3, [sp, #56]
	subs	r6, r3, r6
	ldr	r6, [sp, #60]
	sbcs	r6, r5
	ldr	r1, [sp, #24]
	bhs	.LBB208_14
	b	.LBB208_32
.LBB208_14:
	adds	r2, r4, r2
	subs	r2, #8
	ldrb	r2, [r2]
	lsls	r2, r2, #31
	bne	.LBB208_15
	b	.LBB208_32
.LBB208_15:
	ldr	r2, [sp, #84]
	ldr	r6, [sp, #76]
	ands	r2, r6
	str	r2, [sp, #84]
	ldr	r2, [sp, #88]
	ldr	r5, [sp, #80]
	ands	r2, r5
	str	r2, [sp, #88]
	ldr	r2, [sp, #28]
	adds	r4, r2, #1
	ldr	r2, [sp, #68]
	ands	r2, r5
	str	r2, [sp, #68]
	mov	r5, r2
	eors	r5, r1
	ldr	r2, [sp, #52]
	ands	r2, r6
	str	r2, [sp, #52]
	ldr	r6, [sp, #40]
	eors	r6, r2
	mov	r2, r5
	orrs	r2, r6
	str	r2, [sp]
	str	r5, [sp, #20]
	str	r4, [sp, #48]
	bne	.LBB208_18
	cmp	r4, #0
	ldr	r4, [sp, #92]
	beq	.LBB208_32
	mov	r6, r1
	ldr	r1, [sp, #88]
	ldr	r2, [sp, #72]
	eors	r1, r2
	ldr	r2, [sp, #84]
	ldr	r5, [sp, #64]
	eors	r2, r5
	orrs	r2, r1
	beq	.LBB208_26
	b	.LBB208_32
.LBB208_18:
	lsrs	r2, r5, #3
	lsls	r5, r6, #29
	adds	r2, r2, r5
	str	r6, [sp, #40]
	lsrs	r5, r6, #3
	ldr	r3, [sp, #56]
	subs	r2, r3, r2
	ldr	r2, [sp, #60]
	sbcs	r2, r5
	ldr	r4, [sp, #92]
	blo	.LBB208_32
	ldr	r2, [sp, #20]
	adds	r2, r4, r2
	subs	r2, #8
	ldr	r5, [r2]
	lsls	r6, r5, #31
	beq	.LBB208_32
	ldr	r2, [r2, #4]
	ldr	r6, [sp, #80]
	ands	r5, r6
	ldr	r6, [sp, #72]
	eors	r5, r6
	ldr	r3, [sp, #76]
	ands	r2, r3
	ldr	r3, [sp, #64]
	eors	r2, r3
	mov	r6, r5
	orrs	r6, r2
	bne	.LBB208_23
	ldr	r1, [sp, #48]
	cmp	r1, #0
	ldr	r6, [sp, #24]
	beq	.LBB208_32
	ldr	r2, [sp, #88]
	ldr	r5, [sp, #20]
	eors	r2, r5
	ldr	r5, [sp, #84]
	ldr	r1, [sp, #40]
	eors	r1, r5
	orrs	r1, r2
	beq	.LBB208_26
	b	.LBB208_32
.LBB208_23:
	lsrs	r1, r5, #3
	lsls	r6, r2, #29
	adds	r1, r1, r6
	lsrs	r2, r2, #3
	ldr	r3, [sp, #56]
	subs	r1, r3, r1
	ldr	r1, [sp, #60]
	sbcs	r1, r2
	ldr	r6, [sp, #24]
	blo	.LBB208_32
	ldr	r1, [sp, #48]
	cmp	r1, #0
	beq	.LBB208_32
	adds	r1, r4, r5
	subs	r1, #8
	ldr	r1, [r1]
	ldr	r2, [sp, #44]
	ands	r1, r2
	beq	.LBB208_32
.LBB208_26:
	ldr	r1, [sp, #56]
	ldr	r2, [sp, #48]
	subs	r1, r1, r2
	ldr	r1, [sp, #60]
	sbcs	r1, r0
	blo	.LBB208_32
	ldr	r1, [sp, #48]
	lsls	r5, r1, #3
	adds	r1, r4, r5
	subs	r1, #8
	ldrb	r2, [r1]
	lsls	r2, r2, #31
	bne	.LBB208_32
	ldr	r2, [sp, #48]
	lsrs	r4, r2, #29
	ldr	r2, [sp, #44]
	str	r2, [r1]
	str	r0, [r1, #4]
	ldr	r2, [sp, #8]
	cmp	r2, #0
	mov	r2, r5
	str	r4, [sp, #60]
	beq	.LBB208_30
	ldr	r2, [sp, #92]
	adds	r2, r2, r6
	subs	r2, #8
	ldr	r6, [r2, #4]
	ldr	r3, [sp, #76]
	ands	r6, r3
	ldr	r3, [sp, #64]
	eors	r6, r3
	eors	r6, r4
	str	r6, [r2, #4]
	ldr	r6, [r2]
	mov	r3, r5
	ldr	r5, [sp, #80]
	ands	r6, r5
	ldr	r5, [sp, #72]
	eors	r6, r5
	mov	r5, r3
	eors	r6, r3
	ldr	r3, [sp, #44]
	orrs	r6, r3
	str	r6, [r2]
	ldr	r2, [sp, #16]
	ldr	r3, [sp, #12]
	str	r3, [sp, #60]
.LBB208_30:
	str	r4, [sp, #56]
	ldr	r3, [sp]
	cmp	r3, #0
	ldr	r3, [sp, #64]
	bne	.LBB208_33
	mov	r4, r5
	ldr	r5, [sp, #56]
	ldr	r3, [sp, #44]
	b	.LBB208_34
.LBB208_32:
	add	r0, sp, #96
	ldr	r1, [sp, #4]
	ldr	r2, [sp, #32]
	ldr	r3, [sp, #28]
	bl	ic_raw.xor_calls.refusal_with_both
	add	sp, #116
	pop	{r4, r5, r6, r7, pc}
.LBB208_33:
	str	r5, [sp, #48]
	ldr	r5, [sp, #20]
	ldr	r4, [sp, #92]
	adds	r4, r4, r5
	subs	r4, #8
	ldr	r6, [r4, #4]
	ldr	r5, [sp, #76]
	ands	r6, r5
	eors	r3, r6
	ldr	r5, [sp, #56]
	eors	r3, r5
	str	r3, [r4, #4]
	ldr	r5, [r4]
	ldr	r6, [sp, #80]
	ands	r5, r6
	ldr	r6, [sp, #72]
	eors	r6, r5
	ldr	r3, [sp, #48]
	eors	r6, r3
	ldr	r3, [sp, #44]
	orrs	r6, r3
	str	r6, [r4]
	ldr	r4, [sp, #88]
	ldr	r5, [sp, #84]
.LBB208_34:
	ldr	r6, [sp, #68]
	orrs	r6, r3
	str	r6, [r1]
	ldr	r3, [sp, #52]
	str	r3, [r1, #4]
	ldr	r1, [sp, #36]
	str	r0, [r1]
	str	r0, [r1, #4]
	strb	r0, [r7, #15]
	strb	r0, [r7, #14]
	strb	r0, [r7, #13]
	strb	r5, [r7, #12]
	lsrs	r1, r4, #24
	strb	r1, [r7, #11]
	lsrs	r1, r4, #16
	strb	r1, [r7, #10]
	lsrs	r1, r4, #8
	strb	r1, [r7, #9]
	strb	r4, [r7, #8]
	strb	r0, [r7, #7]
	strb	r0, [r7, #6]
	strb	r0, [r7, #5]
	ldr	r1, [sp, #60]
	strb	r1, [r7, #4]
	lsrs	r1, r2, #24
	strb	r1, [r7, #3]
	lsrs	r1, r2, #16
	strb	r1, [r7, #2]
	lsrs	r1, r2, #8
	strb	r1, [r7, #1]
	strb	r2, [r7]
	add	sp, #116
	pop	{r4, r5, r6, r7, pc}
.Lfunc_end208:
	.size	ic_xor_replace, .Lfunc_end208-ic_xor_replace
	.cfi_endproc
	.section	.text.ic_xor_reverse,"ax",%progbits
	.globl	ic_xor_reverse
	.p2align	1
	.type	ic_xor_reverse,%function
	.code	16
	.thumb_func
ic_xor_reverse:
	.cfi_startproc
	ldr	r1, [r0, #8]
	ldr	r2, [r0]
	str	r2, [r0, #8]
	ldr	r2, [r0, #12]
	ldr	r3, [r0, #4]
	str	r3, [r0, #12]
	stm	r0!, {r1, r2}
	movs	r0, #0
	bx	lr
.Lfunc_end209:
	.size	ic_xor_reverse, .Lfunc_end209-ic_xor_reverse
	.cfi_endproc
	.section	.text.ic_xor_splice_between,"ax",%progbits
	.globl	ic_xor_splice_between
	.p2align	1
	.type	ic_xor_splice_between,%function
	.code	16
	.thumb_func
ic_xor_splice_between:
	.cfi_startproc
	push	{r4, r5, r6, r7, lr}
	.cfi_def_cfa_offset 20
	.cfi_offset lr, -4
	.cfi_offset r7, -8
	.cfi_offset r6, -12
	.cfi_offset r5, -16
	.cfi_offset r4, -20
	sub	sp, #36
	.cfi_def_cfa_offset 56
	mov	r6, r0
	ldr	r0, [sp, #64]
	str	r0, [sp, #16]
	ldr	r0, [sp, #56]
	str	r0, [sp]
	ldr	r7, [sp, #68]
	adds	r0, r7, #1
	lsrs	r1, r0, #29
	str	r1, [sp, #28]
	lsls	r1, r0, #3
	str	r1, [sp, #24]
	ldr	r4, [sp, #60]
	adds	r1, r4, #1
	lsrs	r5, r1, #29
	str	r5, [sp, #12]
	lsls	r5, r1, #3
	str	r5, [sp, #8]
	subs	r5, r0, #1
	sbcs	r0, r5
	str	r0, [sp, #20]
	subs	r0, r1, #1
	sbcs	r1, r0
	str	r1, [sp, #4]
	cmp	r6, #0
	bne	.LBB210_2
	movs	r0, #1
	lsls	r0, r0, #12
	adds	r6, r6, r0
.LBB210_2:
	mov	r0, r6
	str	r2, [sp, #32]
	mov	r5, r3
	bl	ic_raw.xor_calls.splice
	cmp	r0, #0
	beq	.LBB210_4
	movs	r0, #0
	add	sp, #36
	pop	{r4, r5, r6, r7, pc}
.LBB210_4:
	str	r4, [sp]
	str	r7, [sp, #4]
	mov	r0, r6
	ldr	r2, [sp, #32]
	mov	r3, r5
	bl	ic_raw.table.RawTable.refusal_at_both.feecb86c9dd45d96
	add	sp, #36
	pop	{r4, r5, r6, r7, pc}
.Lfunc_end210:
	.size	ic_xor_splice_between, .Lfunc_end210-ic_xor_splice_between
	.cfi_endproc
	.section	.text.ic_xor_split_between,"ax",%progbits
	.globl	ic_xor_split_between
	.p2align	1
	.type	ic_xor_split_between,%function
	.code	16
	.thumb_func
ic_xor_split_between:
	.cfi_startproc
	push	{r4, r5, r6, r7, lr}
	.cfi_def_cfa_offset 20
	.cfi_offset lr, -4
	.cfi_offset r7, -8
	.cfi_offset r6, -12
	.cfi_offset r5, -16
	.cfi_offset r4, -20
	sub	sp, #84
	.cfi_def_cfa_offset 104
	str	r3, [sp, #56]
	str	r2, [sp, #52]
	ldr	r4, [sp, #116]
	ldr	r3, [r4]
	ldr	r1, [r4, #4]
	movs	r6, #15
	ands	r1, r6
	movs	r2, #7
	mvns	r2, r2
	str	r2, [sp, #80]
	ands	r3, r2
	orrs	r3, r1
	movs	r1, #1
	cmp	r0, #0
	str	r1, [sp, #20]
	bne	.LBB211_2
	lsls	r1, r1, #12
	adds	r0, r0, r1
.LBB211_2:
	str	r0, [sp, #72]
	ldr	r0, [sp, #112]
	str	r0, [sp, #32]
	ldr	r0, [sp, #108]
	str	r0, [sp, #28]
	cmp	r3, #0
	beq	.LBB211_3
	b	.LBB211_23
.LBB211_3:
	ldr	r0, [r4, #8]
	ldr	r1, [r4, #12]
	ands	r1, r6
	ldr	r2, [sp, #80]
	ands	r0, r2
	orrs	r0, r1
	beq	.LBB211_4
	b	.LBB211_23
.LBB211_4:
	ldr	r5, [sp, #104]
	ldr	r3, [r5]
	ldr	r1, [r5, #4]
	ldr	r0, [r5, #8]
	str	r0, [sp, #64]
	ldr	r0, [r5, #12]
	str	r0, [sp, #68]
	mov	r0, r3
	str	r6, [sp, #16]
	ands	r1, r6
	ldr	r3, [sp, #80]
	ands	r0, r3
	ldr	r3, [sp, #32]
	adds	r6, r3, #1
	lsrs	r3, r6, #29
	str	r6, [sp, #36]
	lsls	r7, r6, #3
	ldr	r6, [sp, #28]
	adds	r2, r6, #1
	lsrs	r6, r2, #29
	str	r6, [sp, #48]
	lsls	r6, r2, #3
	str	r6, [sp, #44]
	cmp	r2, #0
	str	r3, [sp, #60]
	str	r7, [sp, #76]
	str	r0, [sp, #40]
	str	r1, [sp, #24]
	str	r2, [sp, #12]
	beq	.LBB211_9
	movs	r1, #0
	ldr	r0, [sp, #52]
	subs	r3, r0, r2
	ldr	r3, [sp, #56]
	sbcs	r3, r1
	ldr	r7, [sp, #16]
	ldr	r2, [sp, #44]
	bhs	.LBB211_6
	b	.LBB211_23
.LBB211_6:
	ldr	r0, [sp, #72]
	adds	r3, r0, r2
	subs	r3, #8
	ldr	r1, [r3]
	lsls	r0, r1, #31
	bne	.LBB211_7
	b	.LBB211_23
.LBB211_7:
	ldr	r3, [r3, #4]
	ldr	r0, [sp, #80]
	ands	r1, r0
	ldr	r0, [sp, #76]
	eors	r1, r0
	ands	r3, r7
	ldr	r0, [sp, #60]
	eors	r3, r0
	mov	r0, r1
	orrs	r0, r3
	bne	.LBB211_10
	ldr	r0, [sp, #40]
	eors	r0, r2
	ldr	r1, [sp, #24]
	ldr	r3, [sp, #48]
	eors	r1, r3
	orrs	r1, r0
	beq	.LBB211_12
	b	.LBB211_23
.LBB211_9:
	eors	r0, r7
	eors	r1, r3
	orrs	r1, r0
	ldr	r7, [sp, #16]
	ldr	r2, [sp, #44]
	beq	.LBB211_12
	b	.LBB211_23
.LBB211_10:
	lsrs	r6, r1, #3
	lsls	r0, r3, #29
	adds	r0, r6, r0
	lsrs	r3, r3, #3
	str	r3, [sp, #8]
	ldr	r6, [sp, #52]
	subs	r0, r6, r0
	ldr	r0, [sp, #56]
	ldr	r3, [sp, #8]
	sbcs	r0, r3
	blo	.LBB211_23
	ldr	r0, [sp, #72]
	adds	r0, r0, r1
	subs	r0, #8
	ldrb	r0, [r0]
	lsls	r0, r0, #31
	beq	.LBB211_23
.LBB211_12:
	ldr	r1, [sp, #68]
	ands	r1, r7
	ldr	r0, [sp, #64]
	ldr	r3, [sp, #80]
	ands	r0, r3
	ldr	r3, [sp, #36]
	cmp	r3, #0
	str	r1, [sp, #68]
	str	r0, [sp, #64]
	beq	.LBB211_17
	movs	r0, #0
	ldr	r1, [sp, #52]
	subs	r1, r1, r3
	ldr	r1, [sp, #56]
	sbcs	r1, r0
	blo	.LBB211_23
	ldr	r0, [sp, #76]
	ldr	r1, [sp, #72]
	adds	r3, r1, r0
	subs	r3, #8
	ldr	r1, [r3]
	lsls	r0, r1, #31
	beq	.LBB211_23
	ldr	r3, [r3, #4]
	ldr	r0, [sp, #80]
	ands	r1, r0
	eors	r1, r2
	ands	r3, r7
	ldr	r0, [sp, #48]
	eors	r3, r0
	mov	r0, r1
	orrs	r0, r3
	bne	.LBB211_18
	ldr	r0, [sp, #64]
	ldr	r1, [sp, #76]
	eors	r0, r1
	ldr	r1, [sp, #68]
	ldr	r3, [sp, #60]
	eors	r1, r3
	orrs	r1, r0
	beq	.LBB211_20
	b	.LBB211_23
.LBB211_17:
	eors	r0, r2
	ldr	r3, [sp, #48]
	eors	r1, r3
	orrs	r1, r0
	beq	.LBB211_20
	b	.LBB211_23
.LBB211_18:
	lsrs	r6, r1, #3
	lsls	r0, r3, #29
	adds	r0, r6, r0
	lsrs	r3, r3, #3
	str	r3, [sp, #16]
	ldr	r6, [sp, #52]
	subs	r0, r6, r0
	ldr	r0, [sp, #56]
	ldr	r3, [sp, #16]
	sbcs	r0, r3
	blo	.LBB211_23
	ldr	r0, [sp, #72]
	adds	r0, r0, r1
	subs	r0, #8
	ldrb	r0, [r0]
	lsls	r0, r0, #31
	beq	.LBB211_23
.LBB211_20:
	movs	r1, #0
	ldr	r0, [sp, #12]
	cmp	r0, #0
	beq	.LBB211_24
	ldr	r0, [sp, #72]
	adds	r0, r0, r2
	subs	r0, #8
	ldr	r3, [r0, #4]
	ands	r3, r7
	ldr	r6, [sp, #60]
	eors	r3, r6
	str	r3, [r0, #4]
	ldr	r3, [r0]
	ldr	r2, [sp, #80]
	ands	r3, r2
	ldr	r2, [sp, #76]
	mov	r6, r2
	eors	r3, r2
	ldr	r2, [sp, #20]
	orrs	r3, r2
	str	r3, [r0]
	ldr	r0, [sp, #40]
	ldr	r2, [sp, #36]
	cmp	r2, #0
	beq	.LBB211_25
.LBB211_22:
	str	r0, [sp, #40]
	ldr	r0, [sp, #72]
	adds	r0, r0, r6
	subs	r0, #8
	ldr	r3, [r0, #4]
	ands	r3, r7
	ldr	r7, [sp, #48]
	eors	r3, r7
	str	r3, [r0, #4]
	ldr	r3, [r0]
	ldr	r2, [sp, #80]
	ands	r3, r2
	ldr	r6, [sp, #44]
	eors	r3, r6
	ldr	r2, [sp, #20]
	orrs	r3, r2
	mov	r2, r7
	str	r3, [r0]
	ldr	r0, [sp, #40]
	ldr	r3, [sp, #68]
	ldr	r7, [sp, #64]
	b	.LBB211_26
.LBB211_23:
	ldr	r0, [sp, #28]
	str	r0, [sp]
	ldr	r0, [sp, #32]
	str	r0, [sp, #4]
	ldr	r0, [sp, #72]
	ldr	r2, [sp, #52]
	ldr	r3, [sp, #56]
	bl	ic_raw.table.RawTable.refusal_at_both.feecb86c9dd45d96
	mov	r1, r0
	mov	r0, r1
	add	sp, #84
	pop	{r4, r5, r6, r7, pc}
.LBB211_24:
	mov	r0, r1
	str	r1, [sp, #24]
	ldr	r6, [sp, #76]
	ldr	r2, [sp, #36]
	cmp	r2, #0
	bne	.LBB211_22
.LBB211_25:
	str	r1, [sp, #76]
	str	r1, [sp, #60]
	mov	r7, r1
	mov	r3, r1
	ldr	r2, [sp, #48]
	ldr	r6, [sp, #44]
.LBB211_26:
	strb	r1, [r5, #15]
	strb	r1, [r5, #14]
	strb	r1, [r5, #13]
	strb	r6, [r5, #8]
	strb	r1, [r5, #7]
	strb	r1, [r5, #6]
	strb	r1, [r5, #5]
	strb	r0, [r5]
	strb	r2, [r5, #12]
	mov	r2, r0
	lsrs	r0, r6, #24
	strb	r0, [r5, #11]
	lsrs	r0, r6, #16
	strb	r0, [r5, #10]
	lsrs	r0, r6, #8
	strb	r0, [r5, #9]
	ldr	r0, [sp, #24]
	strb	r0, [r5, #4]
	lsrs	r0, r2, #24
	strb	r0, [r5, #3]
	lsrs	r0, r2, #16
	strb	r0, [r5, #2]
	lsrs	r0, r2, #8
	strb	r0, [r5, #1]
	lsrs	r0, r7, #16
	strb	r0, [r4, #10]
	lsrs	r0, r7, #24
	strb	r0, [r4, #11]
	strb	r7, [r4, #8]
	lsrs	r0, r7, #8
	strb	r0, [r4, #9]
	strb	r1, [r4, #14]
	strb	r1, [r4, #15]
	strb	r3, [r4, #12]
	strb	r1, [r4, #13]
	ldr	r2, [sp, #76]
	lsrs	r0, r2, #16
	strb	r0, [r4, #2]
	lsrs	r0, r2, #24
	strb	r0, [r4, #3]
	strb	r2, [r4]
	lsrs	r0, r2, #8
	strb	r0, [r4, #1]
	strb	r1, [r4, #6]
	strb	r1, [r4, #7]
	ldr	r0, [sp, #60]
	strb	r0, [r4, #4]
	strb	r1, [r4, #5]
	mov	r0, r1
	add	sp, #84
	pop	{r4, r5, r6, r7, pc}
.Lfunc_end211:
	.size	ic_xor_split_between, .Lfunc_end211-ic_xor_split_between
	.cfi_endproc
	.section	.text.ic.remainder,"ax",%progbits
	.p2align	1
	.type	ic.remainder,%function
	.code	16
	.thumb_func
ic.remainder:
	.cfi_startproc
	push	{r4, r5, r6, lr}
	.cfi_def_cfa_offset 16
	.cfi_offset lr, -4
	.cfi_offset r6, -8
	.cfi_offset r5, -12
	.cfi_offset r4, -16
	mov	r4, r0
	movs	r6, #0
	subs	r5, r2, #1
	mov	r0, r3
	sbcs	r0, r6
	ands	r3, r0
	mov	r6, r2
	ands	r6, r5
	orrs	r6, r3
	beq	.LBB212_2
	movs	r5, #0
	mov	r0, r5
	mov	r6, r2
	bl	ic.remainder.of.bits
	mov	r1, r4
	mov	r2, r6
	bl	ic.remainder.of.bits
	mov	r1, r5
	pop	{r4, r5, r6, pc}
.LBB212_2:
	ands	r4, r5
	ands	r1, r0
	mov	r0, r4
	pop	{r4, r5, r6, pc}
.Lfunc_end212:
	.size	ic.remainder, .Lfunc_end212-ic.remainder
	.cfi_endproc
	.section	.text.ic.remainder.of.bits,"ax",%progbits
	.p2align	1
	.type	ic.remainder.of.bits,%function
	.code	16
	.thumb_func
ic.remainder.of.bits:
	.cfi_startproc
	push	{r4, lr}
	.cfi_def_cfa_offset 8
	.cfi_offset lr, -4
	.cfi_offset r4, -8
	movs	r3, #31
	mvns	r3, r3
	b	.LBB213_2
.LBB213_1:
	lsls	r1, r1, #1
	adds	r3, r3, #1
	bhs	.LBB213_4
.LBB213_2:
	lsrs	r4, r1, #31
	lsls	r0, r0, #1
	adds	r4, r0, r4
	subs	r0, r4, r2
	bhs	.LBB213_1
	mov	r0, r4
	b	.LBB213_1
.LBB213_4:
	pop	{r4, pc}
.Lfunc_end213:
	.size	ic.remainder.of.bits, .Lfunc_end213-ic.remainder.of.bits
	.cfi_endproc
	.section	.text.ic.clear,"ax",%progbits
	.p2align	1
	.type	ic.clear,%function
	.code	16
	.thumb_func
ic.clear:
	.cfi_startproc
	mov	r1, r0
	orrs	r1, r2
	lsls	r1, r1, #29
	beq	.LBB214_4
	cmp	r2, #0
	beq	.LBB214_5
.LBB214_2:
	movs	r1, #0
	strb	r1, [r0]
	subs	r2, r2, #1
	adds	r0, r0, #1
	cmp	r2, #0
	bne	.LBB214_2
	b	.LBB214_5
.LBB214_3:
	movs	r1, #0
	str	r1, [r0]
	str	r1, [r0, #4]
	subs	r2, #8
	adds	r0, #8
.LBB214_4:
	cmp	r2, #0
	bne	.LBB214_3
.LBB214_5:
	bx	lr
.Lfunc_end214:
	.size	ic.clear, .Lfunc_end214-ic.clear
	.cfi_endproc
