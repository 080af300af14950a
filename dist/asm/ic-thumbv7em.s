/* Lists, rings, hash tables and a red-black tree over tables of links, with checks, sorts and merges: the calls of ic.h, for thumbv7em.
   the module of x86_64-linux, for thumbv7em-none-eabi
   Licensed under Apache 2.0 or MIT. Made by tools/build-library: do not edit. */
	.syntax	unified
	.code	16
	.globl	ic_version_0_1
ic_version_0_1 = 1
	.section	.text.unlikely.ic_raw.table.refusal_at_end.feecb86c9dd45d96,"ax",%progbits
	.p2align	2
	.type	ic_raw.table.refusal_at_end.feecb86c9dd45d96,%function
	.code	16
	.thumb_func
ic_raw.table.refusal_at_end.feecb86c9dd45d96:
	.cfi_sections .debug_frame
	.cfi_startproc
	push	{r7, lr}
	.cfi_def_cfa_offset 8
	.cfi_offset lr, -4
	.cfi_offset r7, -8
	sub	sp, #16
	.cfi_def_cfa_offset 24
	ldr.w	r12, [sp, #24]
	str	r0, [sp]
	movs	r0, #0
	add	r1, sp, #4
	stm	r1!, {r0, r2, r3}
	mov	r0, sp
	mov.w	r1, #-1
	mov	r2, r12
	bl	ic_raw.table.RawTable.refusal.feecb86c9dd45d96
	add	sp, #16
	pop	{r7, pc}
.Lfunc_end0:
	.size	ic_raw.table.refusal_at_end.feecb86c9dd45d96, .Lfunc_end0-ic_raw.table.refusal_at_end.feecb86c9dd45d96
	.cfi_endproc
	.section	.text.unlikely.ic_raw.table.RawTable.refusal.feecb86c9dd45d96,"ax",%progbits
	.p2align	2
	.type	ic_raw.table.RawTable.refusal.feecb86c9dd45d96,%function
	.code	16
	.thumb_func
ic_raw.table.RawTable.refusal.feecb86c9dd45d96:
	.cfi_startproc
	adds	r1, #1
	bhs	.LBB1_3
	ldrd	r3, r12, [r0, #8]
	subs	r3, r3, r1
	sbcs	r3, r12, #0
	itt	lo
	movlo	r0, #1
	bxlo	lr
.LBB1_2:
	ldr	r3, [r0]
	lsls	r1, r1, #3
	add	r1, r3
	ldrb	r1, [r1, #-8]
	lsls	r1, r1, #31
	itt	eq
	moveq	r0, #3
	bxeq	lr
.LBB1_3:
	adds	r1, r2, #1
	bhs	.LBB1_5
	ldrd	r2, r3, [r0, #8]
	subs	r2, r2, r1
	sbcs	r2, r3, #0
	bhs	.LBB1_6
.LBB1_5:
	movs	r0, #1
	bx	lr
	.p2align	2
.LBB1_6:
	ldr	r0, [r0]
	lsls	r1, r1, #3
	add	r0, r1
	ldrb	r0, [r0, #-8]
	lsls	r0, r0, #31
	mov.w	r0, #2
	it	eq
	moveq	r0, #5
	bx	lr
.Lfunc_end1:
	.size	ic_raw.table.RawTable.refusal.feecb86c9dd45d96, .Lfunc_end1-ic_raw.table.RawTable.refusal.feecb86c9dd45d96
	.cfi_endproc
	.section	.text.unlikely.ic_raw.table.RawTable.refusal_of.feecb86c9dd45d96,"ax",%progbits
	.p2align	2
	.type	ic_raw.table.RawTable.refusal_of.feecb86c9dd45d96,%function
	.code	16
	.thumb_func
ic_raw.table.RawTable.refusal_of.feecb86c9dd45d96:
	.cfi_startproc
	push	{r7, lr}
	.cfi_def_cfa_offset 8
	.cfi_offset lr, -4
	.cfi_offset r7, -8
	ldrd	r12, lr, [sp, #8]
	lsr.w	r1, r12, #3
	orr.w	r1, r1, lr, lsl #29
	subs	r1, r2, r1
	sbcs.w	r1, r3, lr, lsr #3
	itt	lo
	movlo	r0, #1
	poplo	{r7, pc}
.LBB2_1:
	add	r0, r12
	ldrb	r0, [r0, #-8]
	lsls	r0, r0, #31
	mov.w	r0, #5
	it	eq
	moveq	r0, #3
	pop	{r7, pc}
.Lfunc_end2:
	.size	ic_raw.table.RawTable.refusal_of.feecb86c9dd45d96, .Lfunc_end2-ic_raw.table.RawTable.refusal_of.feecb86c9dd45d96
	.cfi_endproc
	.section	.text.unlikely.ic_raw.list_calls.splice_slow.55ebd757a04f39fd,"ax",%progbits
	.p2align	2
	.type	ic_raw.list_calls.splice_slow.55ebd757a04f39fd,%function
	.code	16
	.thumb_func
ic_raw.list_calls.splice_slow.55ebd757a04f39fd:
	.cfi_startproc
	push.w	{r4, r5, r6, r7, r8, r9, r10, r11, lr}
	.cfi_def_cfa_offset 36
	.cfi_offset lr, -4
	.cfi_offset r11, -8
	.cfi_offset r10, -12
	.cfi_offset r9, -16
	.cfi_offset r8, -20
	.cfi_offset r7, -24
	.cfi_offset r6, -28
	.cfi_offset r5, -32
	.cfi_offset r4, -36
	sub	sp, #44
	.cfi_def_cfa_offset 80
	str	r0, [sp, #40]
	ldrd	r9, r1, [sp, #80]
	ldrd	r12, r10, [sp, #88]
	ldrd	r7, r6, [r9]
	ldrd	r5, r4, [r9, #8]
	and	r0, r6, #15
	str	r0, [sp, #32]
	bic	r0, r7, #7
	ldr.w	r7, [r12]
	ldr.w	r6, [r12, #4]
	str	r7, [sp, #16]
	adds	r7, r1, #1
	mov	lr, r7
	str	r1, [sp]
	it	ne
	movne.w	lr, #1
	ldr.w	r1, [r12, #8]
	and	r4, r4, #15
	str	r1, [sp, #12]
	ldr.w	r1, [r12, #12]
	bic	r5, r5, #7
	str	r1, [sp, #8]
	lsr.w	r1, r7, #29
	lsl.w	r8, r7, #3
	str	r0, [sp, #36]
	str	r4, [sp, #28]
	strd	r3, r5, [sp, #20]
	beq	.LBB3_6
	mvn	r4, #-536870912
	cmp	r2, r4
	mvn	r5, #-536870912
	it	lo
	movlo	r5, r2
	cmp	r3, #0
	it	ne
	movne	r5, r4
	movs	r4, #0
	subs	r7, r5, r7
	sbcs	r4, r4, #0
	blo.w	.LBB3_29
	ldr	r0, [sp, #40]
	add.w	r7, r0, r8
	ldr	r4, [r7, #-8]
	lsls.w	r11, r4, #31
	beq.w	.LBB3_29
	lsls.w	r3, r10, #31
	beq	.LBB3_12
	ldr	r3, [r7, #-4]
	ldr	r0, [sp, #36]
	bics	r7, r3, #7
	beq	.LBB3_19
	movs	r3, #0
	b	.LBB3_9
	.p2align	2
.LBB3_6:
	lsls.w	r7, r10, #31
	beq	.LBB3_14
	orrs.w	r3, r5, r4
	beq	.LBB3_19
	mvn	r3, #-536870912
	mvn	r5, #-536870912
	cmp	r2, r3
	it	lo
	movlo	r5, r2
	ldr	r0, [sp, #20]
	cmp	r0, #0
	it	ne
	movne	r5, r3
	ldrd	r7, r3, [sp, #24]
.LBB3_9:
	lsrs	r4, r7, #3
	orr.w	r4, r4, r3, lsl #29
	subs	r4, r5, r4
	mov.w	r4, #0
	sbcs.w	r3, r4, r3, lsr #3
	blo.w	.LBB3_29
	ldr	r0, [sp, #40]
	orr	r4, r8, #1
	adds	r3, r0, r7
	ldr	r3, [r3, #-8]
	bic	r3, r3, #6
	eors	r3, r4
	orrs	r3, r1
	bne.w	.LBB3_29
	movs	r1, #1
	str.w	r8, [sp, #4]
	mov	r8, r7
	b	.LBB3_23
	.p2align	2
.LBB3_12:
	bics	r0, r4, #7
	mov.w	r7, #0
	bne	.LBB3_16
	movs	r0, #0
	str	r0, [sp, #4]
	ldrd	r3, r5, [sp, #24]
	b	.LBB3_22
	.p2align	2
.LBB3_14:
	ldr.w	r10, [sp, #32]
	orrs.w	r7, r0, r10
	beq	.LBB3_21
	mvn	r4, #-536870912
	mvn	r5, #-536870912
	cmp	r2, r4
	it	lo
	movlo	r5, r2
	mov	r7, r10
	cmp	r3, #0
	it	ne
	movne	r5, r4
.LBB3_16:
	lsrs	r3, r0, #3
	orr.w	r3, r3, r7, lsl #29
	subs	r3, r5, r3
	mov.w	r3, #0
	sbcs.w	r3, r3, r7, lsr #3
	str	r0, [sp, #4]
	blo	.LBB3_29
	ldr	r0, [sp, #40]
	ldr	r3, [sp, #4]
	add	r3, r0
	ldrb	r4, [r3, #-8]
	lsls	r4, r4, #31
	beq	.LBB3_29
	ldr	r3, [r3, #-4]
	movs	r5, #0
	bic	r3, r3, #7
	movs	r7, #1
	b	.LBB3_22
	.p2align	2
.LBB3_19:
	eor.w	r3, r0, r8
	ldr	r0, [sp, #32]
	eor.w	r4, r0, r1
	orrs	r3, r4
	bne	.LBB3_29
	ldr	r0, [sp, #36]
	mov.w	r8, #0
	movs	r1, #0
	str	r0, [sp, #4]
	b	.LBB3_23
	.p2align	2
.LBB3_21:
	movs	r0, #0
	movs	r7, #0
	str	r0, [sp, #4]
	mov	r3, r5
	mov	r5, r4
.LBB3_22:
	eor.w	r3, r3, r8
	eor.w	r4, r5, r1
	orrs	r3, r4
	mov	r1, lr
	mov	lr, r7
	bne	.LBB3_29
.LBB3_23:
	ldr	r0, [sp, #8]
	and	r11, r6, #15
	and	r5, r0, #15
	ldr	r0, [sp, #12]
	bic	r4, r0, #7
	ldr	r0, [sp, #16]
	orrs.w	r3, r4, r5
	bic	r7, r0, #7
	beq	.LBB3_30
	mvn	r6, #-536870912
	mvn	r3, #-536870912
	cmp	r2, r6
	it	lo
	movlo	r3, r2
	ldr	r0, [sp, #20]
	mov.w	r10, #0
	cmp	r0, #0
	it	ne
	movne	r3, r6
	lsrs	r6, r4, #3
	orr.w	r6, r6, r5, lsl #29
	subs	r6, r3, r6
	sbcs.w	r6, r10, r5, lsr #3
	blo	.LBB3_29
	orrs.w	r6, r7, r11
	beq	.LBB3_29
	ldr	r0, [sp, #40]
	add	r0, r4
	ldr	r6, [r0, #-8]
	str	r0, [sp, #16]
	bic	r6, r6, #6
	cmp	r6, #1
	bne	.LBB3_29
	lsrs	r6, r7, #3
	orr.w	r6, r6, r11, lsl #29
	subs	r3, r3, r6
	lsr.w	r0, r11, #3
	mov.w	r3, #0
	sbcs.w	r0, r3, r0
	blo	.LBB3_29
	ldr	r0, [sp, #40]
	add.w	r10, r0, r7
	ldrb	r0, [r10, #-8]
	lsls	r0, r0, #31
	itttt	ne
	ldrne	r0, [sp, #36]
	eorne	r0, r7
	ldrne	r3, [sp, #32]
	eorne.w	r3, r3, r11
	it	ne
	orrsne.w	r0, r0, r3
	bne	.LBB3_31
.LBB3_29:
	ldr	r1, [sp]
	ldr	r0, [sp, #40]
	ldr	r3, [sp, #20]
	str	r1, [sp, #80]
	add	sp, #44
	pop.w	{r4, r5, r6, r7, r8, r9, r10, r11, lr}
	b	ic_raw.table.RawTable.refusal_at.05a19227735374d3
	.p2align	2
.LBB3_30:
	orrs.w	r0, r7, r11
	beq	.LBB3_38
	b	.LBB3_29
	.p2align	2
.LBB3_31:
	ldr	r0, [r10, #-4]
	cmp	r0, #7
	bhi	.LBB3_29
	cbz	r1, .LBB3_35
	ldr	r0, [sp, #40]
	orr	r2, r7, #1
	add	r0, r8
	str	r2, [r0, #-8]
	ldr	r2, [sp, #4]
	ldr	r3, [sp, #16]
	cmp.w	lr, #0
	beq	.LBB3_36
.LBB3_34:
	ldr	r0, [sp, #40]
	add	r0, r2
	str	r4, [r0, #-4]
	b	.LBB3_37
	.p2align	2
.LBB3_35:
	strd	r11, r7, [sp, #32]
	ldr	r2, [sp, #4]
	ldr	r3, [sp, #16]
	cmp.w	lr, #0
	bne	.LBB3_34
.LBB3_36:
	strd	r4, r5, [sp, #24]
.LBB3_37:
	cmp	r1, #0
	add.w	r0, r2, #1
	it	eq
	moveq	r8, r1
	str	r8, [r10, #-4]
	cmp.w	lr, #0
	it	eq
	moveq	r0, #1
	str	r0, [r3, #-8]
.LBB3_38:
	ldr	r0, [sp, #36]
	movs	r1, #0
	str.w	r0, [r9]
	ldr	r0, [sp, #32]
	str.w	r0, [r9, #4]
	ldr	r0, [sp, #24]
	str.w	r0, [r9, #8]
	ldr	r0, [sp, #28]
	str.w	r0, [r9, #12]
	str.w	r1, [r12, #12]
	str.w	r1, [r12, #8]
	str.w	r1, [r12, #4]
	movs	r0, #0
	str.w	r1, [r12]
	add	sp, #44
	pop.w	{r4, r5, r6, r7, r8, r9, r10, r11, pc}
.Lfunc_end3:
	.size	ic_raw.list_calls.splice_slow.55ebd757a04f39fd, .Lfunc_end3-ic_raw.list_calls.splice_slow.55ebd757a04f39fd
	.cfi_endproc
	.section	.text.unlikely.ic_raw.table.RawTable.refusal_at.05a19227735374d3,"ax",%progbits
	.p2align	2
	.type	ic_raw.table.RawTable.refusal_at.05a19227735374d3,%function
	.code	16
	.thumb_func
ic_raw.table.RawTable.refusal_at.05a19227735374d3:
	.cfi_startproc
	ldr	r1, [sp]
	adds	r1, #1
	itt	hs
	movhs	r0, #5
	bxhs	lr
.LBB4_1:
	mvn	r12, #-536870912
	cmp	r2, r12
	it	hs
	movhs	r2, r12
	cmp	r3, #0
	it	ne
	movne	r2, r12
	subs	r2, r2, r1
	mov.w	r2, #0
	sbcs	r2, r2, #0
	itt	lo
	movlo	r0, #1
	bxlo	lr
.LBB4_2:
	lsls	r1, r1, #3
	add	r0, r1
	ldrb	r0, [r0, #-8]
	lsls	r0, r0, #31
	mov.w	r0, #5
	it	eq
	moveq	r0, #3
	bx	lr
.Lfunc_end4:
	.size	ic_raw.table.RawTable.refusal_at.05a19227735374d3, .Lfunc_end4-ic_raw.table.RawTable.refusal_at.05a19227735374d3
	.cfi_endproc
	.section	.text.unlikely.ic_raw.table.RawTable.refusal.05a19227735374d3,"ax",%progbits
	.p2align	2
	.type	ic_raw.table.RawTable.refusal.05a19227735374d3,%function
	.code	16
	.thumb_func
ic_raw.table.RawTable.refusal.05a19227735374d3:
	.cfi_startproc
	push	{r7, lr}
	.cfi_def_cfa_offset 8
	.cfi_offset lr, -4
	.cfi_offset r7, -8
	ldr	r1, [sp, #8]
	adds.w	lr, r1, #1
	bhs	.LBB5_3
	mvn	r12, #-536870912
	mvn	r1, #-536870912
	cmp	r2, r12
	it	lo
	movlo	r1, r2
	cmp	r3, #0
	it	ne
	movne	r1, r12
	subs.w	r1, r1, lr
	mov.w	r1, #0
	sbcs	r1, r1, #0
	itt	lo
	movlo	r0, #1
	poplo	{r7, pc}
.LBB5_2:
	lsl.w	r1, lr, #3
	add	r1, r0
	ldrb	r1, [r1, #-8]
	lsls	r1, r1, #31
	itt	eq
	moveq	r0, #3
	popeq	{r7, pc}
.LBB5_3:
	ldr	r1, [sp, #12]
	adds	r1, #1
	bhs	.LBB5_5
	mvn	r12, #-536870912
	cmp	r2, r12
	it	hs
	movhs	r2, r12
	cmp	r3, #0
	it	ne
	movne	r2, r12
	subs	r2, r2, r1
	mov.w	r2, #0
	sbcs	r2, r2, #0
	bhs	.LBB5_6
.LBB5_5:
	movs	r0, #1
	pop	{r7, pc}
	.p2align	2
.LBB5_6:
	lsls	r1, r1, #3
	add	r0, r1
	ldrb	r0, [r0, #-8]
	lsls	r0, r0, #31
	mov.w	r0, #2
	it	eq
	moveq	r0, #5
	pop	{r7, pc}
.Lfunc_end5:
	.size	ic_raw.table.RawTable.refusal.05a19227735374d3, .Lfunc_end5-ic_raw.table.RawTable.refusal.05a19227735374d3
	.cfi_endproc
	.section	.text.unlikely.ic_raw.move_calls.move_slow.55ebd757a04f39fd,"ax",%progbits
	.p2align	2
	.type	ic_raw.move_calls.move_slow.55ebd757a04f39fd,%function
	.code	16
	.thumb_func
ic_raw.move_calls.move_slow.55ebd757a04f39fd:
	.cfi_startproc
	push.w	{r4, r5, r6, r7, r8, r9, r10, r11, lr}
	.cfi_def_cfa_offset 36
	.cfi_offset lr, -4
	.cfi_offset r11, -8
	.cfi_offset r10, -12
	.cfi_offset r9, -16
	.cfi_offset r8, -20
	.cfi_offset r7, -24
	.cfi_offset r6, -28
	.cfi_offset r5, -32
	.cfi_offset r4, -36
	sub	sp, #44
	.cfi_def_cfa_offset 80
	ldr.w	lr, [sp, #92]
	adds.w	r8, lr, #1
	blo	.LBB6_2
	movs	r0, #4
	add	sp, #44
	pop.w	{r4, r5, r6, r7, r8, r9, r10, r11, pc}
	.p2align	2
.LBB6_2:
	ldrd	r9, r12, [sp, #80]
	ldr	r4, [sp, #88]
	ldrd	r1, r7, [r9]
	ldrd	r5, r6, [r9, #8]
	bic	r11, r1, #7
	bic	r1, r5, #7
	adds	r5, r4, #1
	str	r1, [sp, #32]
	lsr.w	r1, r5, #29
	and	r10, r7, #15
	and	r7, r6, #15
	str	r4, [sp, #4]
	str	r1, [sp, #36]
	lsl.w	r1, r5, #3
	mov	r6, r5
	str	r1, [sp, #40]
	it	ne
	movne	r6, #1
	strd	r10, r11, [sp, #16]
	strd	r7, r6, [sp, #24]
	beq	.LBB6_8
	mvn	r1, #-536870912
	cmp	r2, r1
	mvn	r7, #-536870912
	it	lo
	movlo	r7, r2
	cmp	r3, #0
	it	ne
	movne	r7, r1
	movs	r1, #0
	subs	r6, r7, r5
	sbcs	r1, r1, #0
	blo.w	.LBB6_44
	ldr	r1, [sp, #40]
	adds	r5, r0, r1
	ldr	r1, [r5, #-8]
	lsls	r6, r1, #31
	beq.w	.LBB6_44
	lsls.w	r6, r12, #31
	beq	.LBB6_14
	ldr	r1, [r5, #-4]
	ldrd	r10, r11, [sp, #16]
	bics	r6, r1, #7
	beq	.LBB6_23
	movs	r5, #0
	b	.LBB6_11
	.p2align	2
.LBB6_8:
	lsls.w	r1, r12, #31
	beq	.LBB6_16
	ldr	r1, [sp, #32]
	orrs	r1, r7
	beq	.LBB6_23
	mvn	r1, #-536870912
	mvn	r7, #-536870912
	cmp	r2, r1
	it	lo
	movlo	r7, r2
	cmp	r3, #0
	it	ne
	movne	r7, r1
	ldr	r6, [sp, #32]
	ldr	r5, [sp, #24]
.LBB6_11:
	lsrs	r1, r6, #3
	orr.w	r1, r1, r5, lsl #29
	subs	r1, r7, r1
	mov.w	r1, #0
	sbcs.w	r1, r1, r5, lsr #3
	blo.w	.LBB6_44
	adds	r1, r0, r6
	ldr	r1, [r1, #-8]
	ldr	r7, [sp, #40]
	bic	r1, r1, #6
	orr	r7, r7, #1
	eors	r1, r7
	ldr	r7, [sp, #36]
	orrs	r1, r7
	bne.w	.LBB6_44
	movs	r1, #1
	str	r1, [sp, #8]
	ldr	r1, [sp, #40]
	str	r1, [sp, #12]
	ldr	r1, [sp, #36]
	str	r1, [sp]
	strd	r5, r6, [sp, #36]
	b	.LBB6_25
	.p2align	2
.LBB6_14:
	bics	r11, r1, #7
	mov.w	r10, #0
	bne	.LBB6_18
	movs	r1, #0
	str	r1, [sp]
	str	r1, [sp, #12]
	ldr	r7, [sp, #32]
	ldr	r4, [sp, #24]
	movs	r5, #0
	b	.LBB6_21
	.p2align	2
.LBB6_16:
	orrs.w	r1, r11, r10
	beq.w	.LBB6_48
	mvn	r1, #-536870912
	mvn	r7, #-536870912
	cmp	r2, r1
	it	lo
	movlo	r7, r2
	cmp	r3, #0
	it	ne
	movne	r7, r1
.LBB6_18:
	lsr.w	r1, r11, #3
	orr.w	r1, r1, r10, lsl #29
	subs	r1, r7, r1
	mov.w	r1, #0
	sbcs.w	r1, r1, r10, lsr #3
	str.w	r11, [sp, #12]
	str.w	r10, [sp]
	blo.w	.LBB6_44
	ldr	r1, [sp, #12]
	add	r1, r0
	ldrb	r7, [r1, #-8]
	lsls	r7, r7, #31
	beq.w	.LBB6_44
	ldr	r1, [r1, #-4]
	movs	r4, #0
	bic	r7, r1, #7
	movs	r5, #1
.LBB6_21:
	ldr	r6, [sp, #28]
.LBB6_22:
	ldr	r1, [sp, #40]
	eors	r1, r7
	ldr	r7, [sp, #36]
	str	r6, [sp, #8]
	eors	r7, r4
	orrs	r1, r7
	str	r5, [sp, #28]
	beq	.LBB6_25
	b	.LBB6_44
	.p2align	2
.LBB6_23:
	ldr	r1, [sp, #40]
	ldr	r7, [sp, #36]
	eor.w	r1, r1, r11
	eor.w	r7, r7, r10
	orrs	r1, r7
	bne.w	.LBB6_44
	movs	r1, #0
	str	r1, [sp, #40]
	ldr	r1, [sp, #20]
	str	r1, [sp, #12]
	ldr	r1, [sp, #16]
	str	r1, [sp]
	movs	r1, #0
	str	r1, [sp, #36]
	str	r1, [sp, #8]
.LBB6_25:
	mvn	r1, #-536870912
	cmp	r2, r1
	mvn	r12, #-536870912
	it	lo
	movlo	r12, r2
	cmp	r3, #0
	it	ne
	movne	r12, r1
	movs	r1, #0
	subs.w	r4, r12, r8
	sbcs	r1, r1, #0
	blo	.LBB6_44
	lsl.w	r10, r8, #3
	add.w	r6, r0, r10
	ldr	r4, [r6, #-8]
	lsls	r1, r4, #31
	beq	.LBB6_44
	ldr	r1, [r6, #-4]
	lsr.w	r7, r8, #29
	bics	r11, r1, #7
	beq	.LBB6_30
	cmp.w	r12, r11, lsr #3
	blo	.LBB6_44
	add.w	r1, r0, r11
	ldr	r1, [r1, #-8]
	orr	r5, r10, #1
	bic	r1, r1, #6
	eors	r1, r5
	orrs	r1, r7
	beq	.LBB6_31
	b	.LBB6_44
	.p2align	2
.LBB6_30:
	ldr	r1, [sp, #20]
	ldr	r5, [sp, #16]
	eor.w	r1, r1, r10
	eors	r5, r7
	orrs	r1, r5
	bne	.LBB6_44
.LBB6_31:
	ldr	r5, [sp, #32]
	ldr	r1, [sp, #24]
	bics	r4, r4, #7
	beq	.LBB6_35
	cmp.w	r12, r4, lsr #3
	blo	.LBB6_44
	adds	r1, r0, r4
	ldrb	r5, [r1, #-8]
	lsls	r5, r5, #31
	beq	.LBB6_44
	ldr	r1, [r1, #-4]
	bic	r5, r1, #7
	movs	r1, #0
.LBB6_35:
	eor.w	r5, r5, r10
	eors	r1, r7
	orrs	r1, r5
	bne	.LBB6_44
	mov	r8, r6
	ldr	r6, [sp, #8]
	mov	r1, r10
	ldr	r2, [sp, #40]
	cmp	r6, #0
	it	ne
	eorne	r1, r2
	mov	r2, r7
	ldr	r3, [sp, #36]
	it	ne
	eorne	r2, r3
	orrs	r1, r2
	beq	.LBB6_47
	ldr	r3, [sp, #28]
	mov	r1, r10
	ldr	r2, [sp, #12]
	cmp	r3, #0
	it	ne
	eorne	r1, r2
	mov	r2, r7
	ldr	r5, [sp]
	it	ne
	eorne	r2, r5
	orrs	r1, r2
	beq	.LBB6_47
	cmp.w	r11, #0
	beq	.LBB6_49
	ldr.w	lr, [sp, #32]
	ldr.w	r12, [sp, #16]
	add.w	r1, r0, r11
	orr	r2, r4, #1
	str	r2, [r1, #-8]
	cmp	r4, #0
	beq	.LBB6_50
.LBB6_40:
	adds	r1, r0, r4
	str	r11, [r1, #-4]
	mov	r2, r10
	mov	r4, r7
	cbz	r6, .LBB6_42
.LBB6_41:
	ldr	r1, [sp, #40]
	orr	r2, r10, #1
	add	r1, r0
	str	r2, [r1, #-8]
	ldr	r2, [sp, #20]
	mov	r4, r12
.LBB6_42:
	cbz	r3, .LBB6_45
	ldr	r5, [sp, #12]
	ldr	r7, [sp, #24]
	add	r0, r5
	str	r10, [r0, #-4]
	b	.LBB6_46
	.p2align	2
.LBB6_44:
	str.w	lr, [sp, #84]
	ldr	r1, [sp, #4]
	str	r1, [sp, #80]
	add	sp, #44
	pop.w	{r4, r5, r6, r7, r8, r9, r10, r11, lr}
	b	ic_raw.table.RawTable.refusal_at_both.05a19227735374d3
	.p2align	2
.LBB6_45:
	ldr	r5, [sp, #12]
	mov	lr, r10
.LBB6_46:
	cmp	r6, #0
	ldr	r1, [sp, #40]
	add.w	r0, r5, #1
	it	eq
	moveq	r1, r6
	cmp	r3, #0
	it	eq
	moveq	r0, #1
	strd	r0, r1, [r8, #-8]
	str.w	r4, [r9, #4]
	str.w	r2, [r9]
	str.w	r7, [r9, #12]
	str.w	lr, [r9, #8]
.LBB6_47:
	movs	r0, #0
	add	sp, #44
	pop.w	{r4, r5, r6, r7, r8, r9, r10, r11, pc}
	.p2align	2
.LBB6_48:
	movs	r1, #0
	str	r1, [sp, #12]
	str	r1, [sp]
	ldr	r7, [sp, #32]
	ldr	r4, [sp, #24]
	movs	r5, #0
	b	.LBB6_22
	.p2align	2
.LBB6_49:
	str	r4, [sp, #20]
	ldr.w	lr, [sp, #32]
	mov.w	r12, #0
	cmp	r4, #0
	bne	.LBB6_40
.LBB6_50:
	movs	r1, #0
	str	r1, [sp, #24]
	mov	lr, r11
	cmp	r6, #0
	mov	r2, r10
	mov	r4, r7
	bne	.LBB6_41
	b	.LBB6_42
.Lfunc_end6:
	.size	ic_raw.move_calls.move_slow.55ebd757a04f39fd, .Lfunc_end6-ic_raw.move_calls.move_slow.55ebd757a04f39fd
	.cfi_endproc
	.section	.text.unlikely.ic_raw.table.RawTable.refusal_at_both.05a19227735374d3,"ax",%progbits
	.p2align	2
	.type	ic_raw.table.RawTable.refusal_at_both.05a19227735374d3,%function
	.code	16
	.thumb_func
ic_raw.table.RawTable.refusal_at_both.05a19227735374d3:
	.cfi_startproc
	push	{r7, lr}
	.cfi_def_cfa_offset 8
	.cfi_offset lr, -4
	.cfi_offset r7, -8
	ldr	r1, [sp, #8]
	adds.w	lr, r1, #1
	bhs	.LBB7_3
	mvn	r12, #-536870912
	mvn	r1, #-536870912
	cmp	r2, r12
	it	lo
	movlo	r1, r2
	cmp	r3, #0
	it	ne
	movne	r1, r12
	subs.w	r1, r1, lr
	mov.w	r1, #0
	sbcs	r1, r1, #0
	itt	lo
	movlo	r0, #1
	poplo	{r7, pc}
.LBB7_2:
	lsl.w	r1, lr, #3
	add	r1, r0
	ldrb	r1, [r1, #-8]
	lsls	r1, r1, #31
	itt	eq
	moveq	r0, #3
	popeq	{r7, pc}
.LBB7_3:
	ldr	r1, [sp, #12]
	adds	r1, #1
	itt	hs
	movhs	r0, #5
	pophs	{r7, pc}
.LBB7_4:
	mvn	r12, #-536870912
	cmp	r2, r12
	it	hs
	movhs	r2, r12
	cmp	r3, #0
	it	ne
	movne	r2, r12
	subs	r2, r2, r1
	mov.w	r2, #0
	sbcs	r2, r2, #0
	itt	lo
	movlo	r0, #1
	poplo	{r7, pc}
.LBB7_5:
	lsls	r1, r1, #3
	add	r0, r1
	ldrb	r0, [r0, #-8]
	lsls	r0, r0, #31
	mov.w	r0, #5
	it	eq
	moveq	r0, #3
	pop	{r7, pc}
.Lfunc_end7:
	.size	ic_raw.table.RawTable.refusal_at_both.05a19227735374d3, .Lfunc_end7-ic_raw.table.RawTable.refusal_at_both.05a19227735374d3
	.cfi_endproc
	.section	.text.unlikely.ic_raw.move_calls.move_to_end_slow.55ebd757a04f39fd,"ax",%progbits
	.p2align	2
	.type	ic_raw.move_calls.move_to_end_slow.55ebd757a04f39fd,%function
	.code	16
	.thumb_func
ic_raw.move_calls.move_to_end_slow.55ebd757a04f39fd:
	.cfi_startproc
	push.w	{r4, r5, r6, r7, r8, r9, r10, r11, lr}
	.cfi_def_cfa_offset 36
	.cfi_offset lr, -4
	.cfi_offset r11, -8
	.cfi_offset r10, -12
	.cfi_offset r9, -16
	.cfi_offset r8, -20
	.cfi_offset r7, -24
	.cfi_offset r6, -28
	.cfi_offset r5, -32
	.cfi_offset r4, -36
	sub	sp, #20
	.cfi_def_cfa_offset 56
	ldr	r1, [sp, #64]
	adds	r6, r1, #1
	blo	.LBB8_2
	movs	r0, #4
	add	sp, #20
	pop.w	{r4, r5, r6, r7, r8, r9, r10, r11, pc}
	.p2align	2
.LBB8_2:
	ldrd	r12, r11, [sp, #56]
	lsr.w	lr, r6, #29
	ldm.w	r12, {r1, r4, r5, r7}
	and	r10, r7, #15
	mvn	r7, #-536870912
	bic	r9, r1, #7
	cmp	r2, r7
	mvn	r1, #-536870912
	it	lo
	movlo	r1, r2
	cmp	r3, #0
	lsl.w	r8, r6, #3
	and	r4, r4, #15
	it	ne
	movne	r1, r7
	lsls.w	r7, r11, #31
	bic	r11, r5, #7
	beq	.LBB8_8
	eor.w	r5, r9, r8
	eor.w	r4, r4, lr
	orrs	r4, r5
	bne	.LBB8_7
	cmp	r1, r6
	blo	.LBB8_7
	add.w	r1, r0, r8
	ldr	r4, [r1, #-4]
	cbnz	r4, .LBB8_7
	ldr	r1, [r1, #-8]
	lsls	r4, r1, #31
	it	ne
	bicsne	r7, r1, #7
	bne	.LBB8_19
.LBB8_7:
	ldr	r7, [sp, #60]
	mov.w	r1, #-1
	strd	r7, r1, [sp, #4]
	ldr	r1, [sp, #64]
	str.w	r12, [sp]
	str	r1, [sp, #12]
	bl	ic_raw.move_calls.move_slow.55ebd757a04f39fd
	add	sp, #20
	pop.w	{r4, r5, r6, r7, r8, r9, r10, r11, pc}
	.p2align	2
.LBB8_8:
	eor.w	r5, r11, r8
	eor.w	r7, r10, lr
	orrs	r5, r7
	bne	.LBB8_7
	cmp	r1, r6
	blo	.LBB8_7
	add.w	r1, r0, r8
	ldr	r5, [r1, #-8]
	cmp	r5, #1
	bne	.LBB8_7
	ldr	r1, [r1, #-4]
	bics	r5, r1, #7
	beq	.LBB8_7
	subs.w	r1, r2, r1, lsr #3
	sbcs	r1, r3, #0
	blo	.LBB8_7
	add.w	r10, r0, r5
	ldr	r1, [r10, #-8]
	orr	r6, r8, #1
	eors	r1, r6
	orrs.w	r1, r1, lr
	bne	.LBB8_7
	mvn	r7, #-536870912
	cmp	r2, r7
	mvn	r1, #-536870912
	orr.w	r6, r9, r4
	it	lo
	movlo	r1, r2
	cmp	r3, #0
	it	ne
	movne	r1, r7
	cmp	r6, #0
	beq	.LBB8_7
	lsr.w	r6, r9, #3
	orr.w	r6, r6, r4, lsl #29
	subs	r1, r1, r6
	lsr.w	r4, r4, #3
	mov.w	r1, #0
	sbcs	r1, r4
	blo	.LBB8_7
	add.w	r1, r0, r9
	ldr	r4, [r1, #-4]
	cmp	r4, #0
	bne	.LBB8_7
	ldr	r4, [r1, #-8]
	lsls	r4, r4, #31
	beq	.LBB8_7
	movs	r2, #1
	mov.w	r11, #0
	str	r2, [r10, #-8]
	str	r8, [r1, #-4]
	orr	r3, r9, #1
	mov	r7, r8
	mov	r2, lr
	mov.w	lr, #0
	b	.LBB8_26
	.p2align	2
.LBB8_19:
	subs.w	r1, r2, r1, lsr #3
	sbcs	r1, r3, #0
	blo	.LBB8_7
	adds	r4, r0, r7
	ldr	r1, [r4, #-4]
	eor.w	r1, r1, r8
	orrs.w	r1, r1, lr
	bne	.LBB8_7
	ldr	r1, [r4, #-8]
	lsls	r1, r1, #31
	beq.w	.LBB8_7
	mvn	r6, #-536870912
	cmp	r2, r6
	mvn	r1, #-536870912
	orr.w	r5, r11, r10
	it	lo
	movlo	r1, r2
	cmp	r3, #0
	it	ne
	movne	r1, r6
	cmp	r5, #0
	beq.w	.LBB8_7
	lsr.w	r5, r11, #3
	orr.w	r5, r5, r10, lsl #29
	subs	r1, r1, r5
	lsr.w	r6, r10, #3
	mov.w	r1, #0
	sbcs	r1, r6
	blo.w	.LBB8_7
	add.w	r1, r0, r11
	ldr	r5, [r1, #-8]
	cmp	r5, #1
	bne.w	.LBB8_7
	movs	r2, #0
	orr	r3, r8, #1
	str	r2, [r4, #-4]
	str	r3, [r1, #-8]
	movs	r3, #1
	mov	r5, r8
.LBB8_26:
	add	r0, r8
	strd	r3, r11, [r0, #-8]
	str.w	r2, [r12, #4]
	str.w	r7, [r12]
	str.w	lr, [r12, #12]
	str.w	r5, [r12, #8]
	movs	r0, #0
	add	sp, #20
	pop.w	{r4, r5, r6, r7, r8, r9, r10, r11, pc}
.Lfunc_end8:
	.size	ic_raw.move_calls.move_to_end_slow.55ebd757a04f39fd, .Lfunc_end8-ic_raw.move_calls.move_to_end_slow.55ebd757a04f39fd
	.cfi_endproc
	.section	.text.unlikely.ic_raw.list_calls.refusal_to_pop,"ax",%progbits
	.p2align	2
	.type	ic_raw.list_calls.refusal_to_pop,%function
	.code	16
	.thumb_func
ic_raw.list_calls.refusal_to_pop:
	.cfi_startproc
	uxtb	r1, r1
	add.w	r2, r0, r1, lsl #3
	ldr.w	r0, [r0, r1, lsl #3]
	ldr	r1, [r2, #4]
	bic	r0, r0, #7
	and	r1, r1, #15
	orrs	r0, r1
	mov.w	r0, #5
	it	eq
	moveq	r0, #4
	bx	lr
.Lfunc_end9:
	.size	ic_raw.list_calls.refusal_to_pop, .Lfunc_end9-ic_raw.list_calls.refusal_to_pop
	.cfi_endproc
	.section	.text.unlikely.ic_raw.list_calls.pop_front_slow.55ebd757a04f39fd,"ax",%progbits
	.p2align	2
	.type	ic_raw.list_calls.pop_front_slow.55ebd757a04f39fd,%function
	.code	16
	.thumb_func
ic_raw.list_calls.pop_front_slow.55ebd757a04f39fd:
	.cfi_startproc
	push.w	{r4, r5, r6, r7, r8, r9, r10, r11, lr}
	.cfi_def_cfa_offset 36
	.cfi_offset lr, -4
	.cfi_offset r11, -8
	.cfi_offset r10, -12
	.cfi_offset r9, -16
	.cfi_offset r8, -20
	.cfi_offset r7, -24
	.cfi_offset r6, -28
	.cfi_offset r5, -32
	.cfi_offset r4, -36
	ldr	r1, [sp, #36]
	ldrd	lr, r12, [r1]
	and	r5, r12, #15
	bic	r6, lr, #7
	orrs.w	r4, r6, r5
	beq	.LBB10_12
	mvn	r4, #-536870912
	cmp	r2, r4
	it	hs
	movhs	r2, r4
	cmp	r3, #0
	it	ne
	movne	r2, r4
	lsrs	r4, r6, #3
	orr.w	r4, r4, r5, lsl #29
	movs	r3, #0
	subs	r4, r2, r4
	sbcs.w	r3, r3, r5, lsr #3
	blo	.LBB10_12
	add.w	r11, r0, r6
	ldr	r7, [r11, #-8]
	lsls	r4, r7, #31
	beq	.LBB10_12
	ldr	r4, [r11, #-4]
	cmp	r4, #7
	bhi	.LBB10_12
	ldrd	r4, r3, [r1, #8]
	ldr.w	r8, [sp, #40]
	and	r10, r3, #15
	bics	r7, r7, #7
	bic	r9, r4, #7
	beq	.LBB10_9
	cmp.w	r2, r7, lsr #3
	blo	.LBB10_12
	add	r0, r7
	ldrb	r2, [r0, #-8]
	lsls	r2, r2, #31
	beq	.LBB10_12
	ldr	r2, [r0, #-4]
	bic	r2, r2, #7
	eors	r2, r6
	orrs	r2, r5
	bne	.LBB10_12
	movs	r2, #0
	str	r2, [r0, #-4]
	lsr.w	r0, lr, #3
	orr.w	r0, r0, r12, lsl #29
	b	.LBB10_11
	.p2align	2
.LBB10_9:
	eor.w	r0, r9, r6
	eor.w	r2, r10, r5
	orrs	r0, r2
	bne	.LBB10_12
	lsr.w	r0, lr, #3
	orr.w	r0, r0, r12, lsl #29
	mov.w	r9, #0
	mov.w	r10, #0
.LBB10_11:
	movs	r2, #0
	str	r2, [r11, #-8]
	str	r2, [r1, #4]
	str	r7, [r1]
	str.w	r10, [r1, #12]
	str.w	r9, [r1, #8]
	subs	r1, r0, #1
	movs	r0, #0
	str.w	r1, [r8]
	pop.w	{r4, r5, r6, r7, r8, r9, r10, r11, pc}
	.p2align	2
.LBB10_12:
	mov	r0, r1
	movs	r1, #0
	pop.w	{r4, r5, r6, r7, r8, r9, r10, r11, lr}
	b	ic_raw.list_calls.refusal_to_pop
.Lfunc_end10:
	.size	ic_raw.list_calls.pop_front_slow.55ebd757a04f39fd, .Lfunc_end10-ic_raw.list_calls.pop_front_slow.55ebd757a04f39fd
	.cfi_endproc
	.section	.text.unlikely.ic_raw.list_calls.push_back_slow.55ebd757a04f39fd,"ax",%progbits
	.p2align	2
	.type	ic_raw.list_calls.push_back_slow.55ebd757a04f39fd,%function
	.code	16
	.thumb_func
ic_raw.list_calls.push_back_slow.55ebd757a04f39fd:
	.cfi_startproc
	push.w	{r4, r5, r6, r7, r8, r9, r10, r11, lr}
	.cfi_def_cfa_offset 36
	.cfi_offset lr, -4
	.cfi_offset r11, -8
	.cfi_offset r10, -12
	.cfi_offset r9, -16
	.cfi_offset r8, -20
	.cfi_offset r7, -24
	.cfi_offset r6, -28
	.cfi_offset r5, -32
	.cfi_offset r4, -36
	ldrd	r1, r9, [sp, #36]
	ldrd	r6, r5, [r1, #8]
	ldrd	r4, r7, [r1]
	and	r5, r5, #15
	bic	r12, r6, #7
	and	lr, r7, #15
	orrs.w	r8, r12, r5
	bic	r11, r4, #7
	beq	.LBB11_4
	mvn	r7, #-536870912
	mvn	r6, #-536870912
	cmp	r2, r7
	it	lo
	movlo	r6, r2
	cmp	r3, #0
	it	ne
	movne	r6, r7
	lsr.w	r7, r12, #3
	orr.w	r7, r7, r5, lsl #29
	mov.w	r10, #0
	subs	r7, r6, r7
	sbcs.w	r5, r10, r5, lsr #3
	blo	.LBB11_12
	add.w	r5, r0, r12
	ldr	r5, [r5, #-8]
	bic	r5, r5, #6
	cmp	r5, #1
	bne	.LBB11_12
	adds.w	r5, r9, #1
	bne	.LBB11_6
	b	.LBB11_12
	.p2align	2
.LBB11_4:
	orrs.w	r5, r11, lr
	bne	.LBB11_12
	mvn	r5, #-536870912
	mvn	r6, #-536870912
	cmp	r2, r5
	it	lo
	movlo	r6, r2
	cmp	r3, #0
	it	ne
	movne	r6, r5
	adds.w	r5, r9, #1
	beq	.LBB11_12
.LBB11_6:
	cmp	r6, r5
	blo	.LBB11_12
	lsls	r7, r5, #3
	adds	r6, r0, r7
	ldrb	r4, [r6, #-8]
	lsls	r4, r4, #31
	bne	.LBB11_12
	clz	r2, r8
	lsrs	r2, r2, #5
	lsr.w	r2, r5, #29
	bne	.LBB11_10
	add	r0, r12
	orr	r3, r7, #1
	str	r3, [r0, #-8]
	b	.LBB11_11
	.p2align	2
.LBB11_10:
	mov.w	r12, #0
	mov	r11, r7
	mov	lr, r2
.LBB11_11:
	movs	r0, #1
	strd	r0, r12, [r6, #-8]
	movs	r0, #0
	str.w	lr, [r1, #4]
	str.w	r11, [r1]
	str	r2, [r1, #12]
	str	r7, [r1, #8]
	pop.w	{r4, r5, r6, r7, r8, r9, r10, r11, pc}
	.p2align	2
.LBB11_12:
	mov.w	r1, #-1
	str.w	r9, [sp, #40]
	str	r1, [sp, #36]
	pop.w	{r4, r5, r6, r7, r8, r9, r10, r11, lr}
	b	ic_raw.table.RawTable.refusal.05a19227735374d3
.Lfunc_end11:
	.size	ic_raw.list_calls.push_back_slow.55ebd757a04f39fd, .Lfunc_end11-ic_raw.list_calls.push_back_slow.55ebd757a04f39fd
	.cfi_endproc
	.section	.text.unlikely.ic_raw.list_calls.remove_slow.55ebd757a04f39fd,"ax",%progbits
	.p2align	2
	.type	ic_raw.list_calls.remove_slow.55ebd757a04f39fd,%function
	.code	16
	.thumb_func
ic_raw.list_calls.remove_slow.55ebd757a04f39fd:
	.cfi_startproc
	push.w	{r4, r5, r6, r7, r8, r9, r10, r11, lr}
	.cfi_def_cfa_offset 36
	.cfi_offset lr, -4
	.cfi_offset r11, -8
	.cfi_offset r10, -12
	.cfi_offset r9, -16
	.cfi_offset r8, -20
	.cfi_offset r7, -24
	.cfi_offset r6, -28
	.cfi_offset r5, -32
	.cfi_offset r4, -36
	sub	sp, #16
	.cfi_def_cfa_offset 52
	ldr.w	r12, [sp, #56]
	adds.w	r6, r12, #1
	blo	.LBB12_2
	movs	r1, #4
	mov	r0, r1
	add	sp, #16
	pop.w	{r4, r5, r6, r7, r8, r9, r10, r11, pc}
	.p2align	2
.LBB12_2:
	mvn	r7, #-536870912
	cmp	r2, r7
	mvn	r4, #-536870912
	it	lo
	movlo	r4, r2
	cmp	r3, #0
	str	r3, [sp, #4]
	it	ne
	movne	r4, r7
	movs	r7, #0
	subs	r5, r4, r6
	sbcs	r7, r7, #0
	blo	.LBB12_16
	lsl.w	r8, r6, #3
	add.w	r5, r0, r8
	ldr	r11, [r5, #-8]
	lsls.w	r1, r11, #31
	beq	.LBB12_16
	ldr.w	lr, [sp, #52]
	lsrs	r7, r6, #29
	ldm.w	lr, {r1, r3, r9, r10}
	ldr	r6, [r5, #-4]
	and	r3, r3, #15
	bics	r6, r6, #7
	bic	r1, r1, #7
	strd	r1, r3, [sp, #8]
	beq	.LBB12_7
	cmp.w	r4, r6, lsr #3
	blo	.LBB12_16
	adds	r1, r0, r6
	ldr	r1, [r1, #-8]
	orr	r3, r8, #1
	bic	r1, r1, #6
	eors	r1, r3
	orrs	r1, r7
	beq	.LBB12_8
	b	.LBB12_16
	.p2align	2
.LBB12_7:
	eor.w	r1, r1, r8
	eors	r3, r7
	orrs	r1, r3
	bne	.LBB12_16
.LBB12_8:
	and	r10, r10, #15
	mov	r3, r7
	bic	r7, r9, #7
	bics	r9, r11, #7
	mov	r11, r10
	str	r7, [sp]
	beq	.LBB12_12
	cmp.w	r4, r9, lsr #3
	blo	.LBB12_16
	add.w	r4, r0, r9
	ldrb	r1, [r4, #-8]
	lsls	r1, r1, #31
	beq	.LBB12_16
	ldr	r1, [r4, #-4]
	mov.w	r11, #0
	bic	r7, r1, #7
.LBB12_12:
	eor.w	r1, r7, r8
	eor.w	r4, r11, r3
	orrs	r1, r4
	bne	.LBB12_16
	mov	r4, r5
	cbz	r6, .LBB12_17
	adds	r1, r0, r6
	orr	r2, r9, #1
	str	r2, [r1, #-8]
	ldrd	r7, r2, [sp, #8]
	cmp.w	r9, #0
	mov.w	r1, #0
	beq	.LBB12_18
.LBB12_15:
	add	r0, r9
	str	r6, [r0, #-4]
	ldr	r6, [sp]
	b	.LBB12_19
	.p2align	2
.LBB12_16:
	ldr	r3, [sp, #4]
	str.w	r12, [sp, #52]
	add	sp, #16
	pop.w	{r4, r5, r6, r7, r8, r9, r10, r11, lr}
	b	ic_raw.table.RawTable.refusal_at.05a19227735374d3
	.p2align	2
.LBB12_17:
	movs	r2, #0
	mov	r7, r9
	cmp.w	r9, #0
	mov.w	r1, #0
	bne	.LBB12_15
.LBB12_18:
	mov.w	r10, #0
.LBB12_19:
	str	r1, [r4, #-8]
	str.w	r2, [lr, #4]
	str.w	r7, [lr]
	str.w	r10, [lr, #12]
	str.w	r6, [lr, #8]
	mov	r0, r1
	add	sp, #16
	pop.w	{r4, r5, r6, r7, r8, r9, r10, r11, pc}
.Lfunc_end12:
	.size	ic_raw.list_calls.remove_slow.55ebd757a04f39fd, .Lfunc_end12-ic_raw.list_calls.remove_slow.55ebd757a04f39fd
	.cfi_endproc
	.section	.text.unlikely.ic_raw.list_calls.split_slow.55ebd757a04f39fd,"ax",%progbits
	.p2align	2
	.type	ic_raw.list_calls.split_slow.55ebd757a04f39fd,%function
	.code	16
	.thumb_func
ic_raw.list_calls.split_slow.55ebd757a04f39fd:
	.cfi_startproc
	push.w	{r4, r5, r6, r7, r8, r9, r10, r11, lr}
	.cfi_def_cfa_offset 36
	.cfi_offset lr, -4
	.cfi_offset r11, -8
	.cfi_offset r10, -12
	.cfi_offset r9, -16
	.cfi_offset r8, -20
	.cfi_offset r7, -24
	.cfi_offset r6, -28
	.cfi_offset r5, -32
	.cfi_offset r4, -36
	sub	sp, #40
	.cfi_def_cfa_offset 76
	str	r3, [sp, #16]
	ldr	r1, [sp, #84]
	str	r1, [sp, #28]
	ldrd	r1, r3, [r1]
	ldr	r7, [sp, #80]
	and	r3, r3, #15
	bic	r1, r1, #7
	str	r7, [sp, #24]
	orrs	r1, r3
	str	r0, [sp, #36]
	itttt	eq
	ldreq	r0, [sp, #28]
	ldrdeq	r0, r1, [r0, #8]
	andeq	r1, r1, #15
	biceq	r0, r0, #7
	it	eq
	orrseq.w	r0, r0, r1
	beq	.LBB13_2
.LBB13_1:
	ldr	r1, [sp, #24]
	ldr	r0, [sp, #36]
	ldr	r3, [sp, #16]
	str	r1, [sp, #76]
	add	sp, #40
	pop.w	{r4, r5, r6, r7, r8, r9, r10, r11, lr}
	b	ic_raw.table.RawTable.refusal_at.05a19227735374d3
	.p2align	2
.LBB13_2:
	ldr.w	r11, [sp, #76]
	ldr	r1, [sp, #24]
	ldm.w	r11, {r0, r3, r7}
	ldr.w	r6, [r11, #12]
	ldr	r4, [sp, #88]
	bic	r5, r0, #7
	and	r0, r6, #15
	adds	r6, r1, #1
	and	r8, r3, #15
	bic	r7, r7, #7
	lsr.w	r1, r6, #29
	lsl.w	r3, r6, #3
	mov	r12, r6
	str	r3, [sp, #32]
	it	ne
	movne.w	r12, #1
	strd	r5, r8, [sp]
	str	r4, [sp, #20]
	strd	r7, r0, [sp, #8]
	beq	.LBB13_8
	mvn	r3, #-536870912
	mvn	lr, #-536870912
	cmp	r2, r3
	it	lo
	movlo	lr, r2
	ldr	r0, [sp, #16]
	cmp	r0, #0
	it	ne
	movne	lr, r3
	movs	r3, #0
	subs.w	r4, lr, r6
	sbcs	r3, r3, #0
	blo	.LBB13_1
	ldrd	r3, r0, [sp, #32]
	add	r3, r0
	ldr	r4, [r3, #-8]
	lsls	r5, r4, #31
	beq	.LBB13_1
	ldr	r0, [sp, #20]
	mov	r7, r1
	lsls	r5, r0, #31
	beq	.LBB13_13
	ldr	r3, [r3, #-4]
	ldrd	r5, r8, [sp]
	bics	r9, r3, #7
	beq	.LBB13_20
	mov.w	r10, #0
	b	.LBB13_11
	.p2align	2
.LBB13_8:
	lsls	r3, r4, #31
	beq	.LBB13_15
	orrs.w	r3, r7, r0
	mov	r7, r1
	beq	.LBB13_20
	mvn	r3, #-536870912
	mvn	lr, #-536870912
	cmp	r2, r3
	it	lo
	movlo	lr, r2
	ldr	r0, [sp, #16]
	cmp	r0, #0
	it	ne
	movne	lr, r3
	ldrd	r9, r10, [sp, #8]
.LBB13_11:
	lsr.w	r3, r9, #3
	orr.w	r3, r3, r10, lsl #29
	subs.w	r3, lr, r3
	mov.w	r3, #0
	sbcs.w	r3, r3, r10, lsr #3
	blo	.LBB13_1
	ldr	r0, [sp, #36]
	add.w	r3, r0, r9
	ldr	r3, [r3, #-8]
	ldr	r0, [sp, #32]
	bic	r3, r3, #6
	orr	r6, r0, #1
	eors	r3, r6
	orrs	r3, r7
	beq	.LBB13_26
	b	.LBB13_1
	.p2align	2
.LBB13_13:
	bics	r5, r4, #7
	mov.w	r8, #0
	bne	.LBB13_17
	ldrd	r4, r3, [sp, #8]
	mov.w	r12, #0
	movs	r5, #0
	b	.LBB13_23
	.p2align	2
.LBB13_15:
	orrs.w	r3, r5, r8
	beq	.LBB13_22
	mvn	r3, #-536870912
	mvn	lr, #-536870912
	cmp	r2, r3
	it	lo
	movlo	lr, r2
	ldr	r0, [sp, #16]
	cmp	r0, #0
	it	ne
	movne	lr, r3
.LBB13_17:
	lsrs	r3, r5, #3
	orr.w	r3, r3, r8, lsl #29
	subs.w	r3, lr, r3
	mov.w	r3, #0
	sbcs.w	r3, r3, r8, lsr #3
	blo.w	.LBB13_1
	ldr	r0, [sp, #36]
	adds	r3, r0, r5
	ldrb	r7, [r3, #-8]
	lsls	r7, r7, #31
	beq.w	.LBB13_1
	ldr	r3, [r3, #-4]
	mov	r7, r1
	bic	r4, r3, #7
	movs	r3, #0
	mov.w	r12, #1
	b	.LBB13_23
	.p2align	2
.LBB13_20:
	ldr	r0, [sp, #32]
	eor.w	r3, r5, r0
	eor.w	r0, r8, r7
	orrs	r0, r3
	bne.w	.LBB13_1
	ldrd	r5, r8, [sp]
	b	.LBB13_27
	.p2align	2
.LBB13_22:
	mov.w	r12, #0
	movs	r5, #0
	mov.w	r8, #0
	mov	r4, r7
	mov	r3, r0
	mov	r7, r1
.LBB13_23:
	ldr	r0, [sp, #32]
	eors	r3, r7
	eors	r4, r0
	orrs	r3, r4
	bne.w	.LBB13_1
	cbz	r6, .LBB13_27
	ldr.w	r9, [sp, #32]
	mov	r10, r7
	str	r5, [sp, #32]
	mov	r7, r8
.LBB13_26:
	ldr	r0, [sp, #36]
	movs	r3, #1
	add.w	r2, r0, r9
	str	r3, [r2, #-8]
	ldr	r5, [sp, #32]
	ldrd	lr, r3, [sp]
	mov	r8, r7
	b	.LBB13_28
	.p2align	2
.LBB13_27:
	mov.w	r9, #0
	mov.w	r10, #0
	mov.w	lr, #0
	movs	r3, #0
.LBB13_28:
	ldr	r1, [sp, #20]
	ldrd	r7, r6, [sp, #8]
	cmp.w	r12, #0
	mov.w	r0, #0
	beq	.LBB13_30
	ldr	r2, [sp, #36]
	add	r2, r5
	str	r0, [r2, #-4]
	b	.LBB13_31
	.p2align	2
.LBB13_30:
	movs	r7, #0
	movs	r6, #0
.LBB13_31:
	cmp.w	r12, #0
	itt	eq
	moveq	r8, r12
	moveq	r5, r12
	lsls	r0, r1, #31
	beq	.LBB13_33
	mov	r0, r5
	mov	r2, r8
	mov	r4, r7
	mov	r1, r6
	b	.LBB13_34
	.p2align	2
.LBB13_33:
	mov	r0, lr
	mov	r2, r3
	mov	r4, r9
	mov	r1, r10
	mov	lr, r5
	mov	r3, r8
	mov	r9, r7
	mov	r10, r6
.LBB13_34:
	str.w	r1, [r11, #12]
	ldr	r1, [sp, #28]
	str.w	r0, [r11]
	str.w	r2, [r11, #4]
	str.w	r4, [r11, #8]
	str.w	lr, [r1]
	str	r3, [r1, #4]
	str.w	r9, [r1, #8]
	movs	r0, #0
	str.w	r10, [r1, #12]
	add	sp, #40
	pop.w	{r4, r5, r6, r7, r8, r9, r10, r11, pc}
.Lfunc_end13:
	.size	ic_raw.list_calls.split_slow.55ebd757a04f39fd, .Lfunc_end13-ic_raw.list_calls.split_slow.55ebd757a04f39fd
	.cfi_endproc
	.section	.text.ic_raw_lists.transfer_calls.transfer_at.55ebd757a04f39fd,"ax",%progbits
	.p2align	2
	.type	ic_raw_lists.transfer_calls.transfer_at.55ebd757a04f39fd,%function
	.code	16
	.thumb_func
ic_raw_lists.transfer_calls.transfer_at.55ebd757a04f39fd:
	.cfi_startproc
	push.w	{r4, r5, r6, r7, r8, r9, r10, r11, lr}
	.cfi_def_cfa_offset 36
	.cfi_offset lr, -4
	.cfi_offset r11, -8
	.cfi_offset r10, -12
	.cfi_offset r9, -16
	.cfi_offset r8, -20
	.cfi_offset r7, -24
	.cfi_offset r6, -28
	.cfi_offset r5, -32
	.cfi_offset r4, -36
	sub	sp, #72
	.cfi_def_cfa_offset 108
	mov	r1, r3
	ldr	r3, [sp, #124]
	adds.w	lr, r3, #1
	blo	.LBB14_2
	movs	r0, #4
	add	sp, #72
	pop.w	{r4, r5, r6, r7, r8, r9, r10, r11, pc}
	.p2align	2
.LBB14_2:
	str	r3, [sp, #16]
	add.w	r12, sp, #108
	ldm.w	r12, {r4, r8, r12}
	ldr.w	r11, [sp, #120]
	ldm.w	r4, {r3, r5, r6}
	str	r4, [sp, #4]
	ldr	r7, [r4, #12]
	bic	r4, r3, #7
	ldr.w	r3, [r11]
	and	r10, r7, #15
	str	r3, [sp, #40]
	ldr.w	r3, [r11, #4]
	adds.w	r7, r12, #1
	str	r3, [sp, #36]
	ldr.w	r3, [r11, #8]
	and	r9, r5, #15
	str	r3, [sp, #28]
	ldr.w	r3, [r11, #12]
	str.w	r11, [sp, #8]
	str	r3, [sp, #24]
	lsr.w	r3, r7, #29
	bic	r5, r6, #7
	str.w	r12, [sp, #12]
	str	r3, [sp, #64]
	mov	r11, r7
	lsl.w	r3, r7, #3
	it	ne
	movne.w	r11, #1
	str	r3, [sp, #68]
	str.w	r10, [sp, #20]
	strd	r4, r9, [sp, #44]
	str	r5, [sp, #32]
	strd	r1, r11, [sp, #56]
	beq	.LBB14_8
	mvn	r5, #-536870912
	cmp	r2, r5
	mvn	r3, #-536870912
	it	lo
	movlo	r3, r2
	cmp	r1, #0
	it	ne
	movne	r3, r5
	movs	r5, #0
	subs	r7, r3, r7
	sbcs	r5, r5, #0
	blo.w	.LBB14_42
	ldr	r1, [sp, #68]
	adds	r7, r0, r1
	ldr	r5, [r7, #-8]
	lsls	r6, r5, #31
	beq.w	.LBB14_42
	lsls.w	r4, r8, #31
	beq	.LBB14_14
	ldr	r4, [r7, #-4]
	bics	r6, r4, #7
	ldrd	r4, r9, [sp, #44]
	beq	.LBB14_23
	movs	r7, #0
	b	.LBB14_11
	.p2align	2
.LBB14_8:
	lsls.w	r3, r8, #31
	beq	.LBB14_16
	orrs.w	r3, r5, r10
	beq	.LBB14_23
	mvn	r4, #-536870912
	mvn	r3, #-536870912
	cmp	r2, r4
	it	lo
	movlo	r3, r2
	ldr	r1, [sp, #56]
	mov	r7, r10
	cmp	r1, #0
	it	ne
	movne	r3, r4
	ldr	r6, [sp, #32]
.LBB14_11:
	lsrs	r5, r6, #3
	orr.w	r5, r5, r7, lsl #29
	subs	r3, r3, r5
	mov.w	r3, #0
	sbcs.w	r3, r3, r7, lsr #3
	blo.w	.LBB14_42
	adds	r3, r0, r6
	ldr	r3, [r3, #-8]
	ldr	r1, [sp, #68]
	bic	r3, r3, #6
	orr	r5, r1, #1
	ldr	r1, [sp, #64]
	eors	r3, r5
	orrs	r3, r1
	bne.w	.LBB14_42
	ldr	r1, [sp, #68]
	mov.w	r11, #1
	str	r1, [sp, #52]
	ldr	r1, [sp, #64]
	str	r1, [sp]
	strd	r7, r6, [sp, #64]
	b	.LBB14_25
	.p2align	2
.LBB14_14:
	ldr	r7, [sp, #20]
	bics	r4, r5, #7
	mov.w	r9, #0
	bne	.LBB14_18
	movs	r1, #0
	str	r1, [sp]
	str	r1, [sp, #52]
	ldr	r4, [sp, #32]
	movs	r3, #0
	b	.LBB14_21
	.p2align	2
.LBB14_16:
	orrs.w	r3, r4, r9
	beq.w	.LBB14_50
	mvn	r5, #-536870912
	mvn	r3, #-536870912
	cmp	r2, r5
	it	lo
	movlo	r3, r2
	cmp	r1, #0
	it	ne
	movne	r3, r5
.LBB14_18:
	str	r4, [sp, #52]
	lsrs	r4, r4, #3
	orr.w	r4, r4, r9, lsl #29
	subs	r3, r3, r4
	mov.w	r3, #0
	sbcs.w	r3, r3, r9, lsr #3
	str.w	r9, [sp]
	blo.w	.LBB14_42
	ldr	r1, [sp, #52]
	adds	r3, r0, r1
	ldrb	r4, [r3, #-8]
	lsls	r4, r4, #31
	beq.w	.LBB14_42
	ldr	r3, [r3, #-4]
	movs	r7, #0
	bic	r4, r3, #7
	movs	r3, #1
.LBB14_21:
	ldr.w	r11, [sp, #60]
.LBB14_22:
	ldr	r1, [sp, #68]
	eors	r4, r1
	ldr	r1, [sp, #64]
	str	r3, [sp, #60]
	eor.w	r5, r7, r1
	orrs	r4, r5
	beq	.LBB14_25
	b	.LBB14_42
	.p2align	2
.LBB14_23:
	ldr	r1, [sp, #68]
	eor.w	r3, r4, r1
	ldr	r1, [sp, #64]
	eor.w	r4, r9, r1
	orrs	r3, r4
	bne.w	.LBB14_42
	movs	r1, #0
	str	r1, [sp, #68]
	ldr	r1, [sp, #44]
	mov.w	r11, #0
	str	r1, [sp, #52]
	ldr	r1, [sp, #48]
	str	r1, [sp]
	movs	r1, #0
	str	r1, [sp, #64]
.LBB14_25:
	mvn	r3, #-536870912
	mvn	r8, #-536870912
	cmp	r2, r3
	it	lo
	movlo	r8, r2
	ldr	r1, [sp, #56]
	cmp	r1, #0
	it	ne
	movne	r8, r3
	movs	r3, #0
	subs.w	r4, r8, lr
	sbcs	r3, r3, #0
	blo	.LBB14_42
	lsl.w	r9, lr, #3
	add.w	r12, r0, r9
	ldr	r7, [r12, #-8]
	lsls	r3, r7, #31
	beq	.LBB14_42
	ldr	r6, [sp, #36]
	ldr	r3, [r12, #-4]
	and	r1, r6, #15
	ldr	r6, [sp, #40]
	lsr.w	r10, lr, #29
	bics	r3, r3, #7
	bic	r4, r6, #7
	beq	.LBB14_30
	cmp.w	r8, r3, lsr #3
	blo	.LBB14_42
	adds	r6, r0, r3
	ldr	r6, [r6, #-8]
	orr	r5, r9, #1
	bic	r6, r6, #6
	eors	r6, r5
	orrs.w	r6, r6, r10
	beq	.LBB14_31
	b	.LBB14_42
	.p2align	2
.LBB14_30:
	eor.w	r6, r4, r9
	eor.w	r5, r1, r10
	orrs	r6, r5
	bne	.LBB14_42
.LBB14_31:
	ldr	r6, [sp, #24]
	bics	r7, r7, #7
	and	r5, r6, #15
	ldr	r6, [sp, #28]
	bic	lr, r6, #7
	strd	lr, r5, [sp, #36]
	beq	.LBB14_35
	cmp.w	r8, r7, lsr #3
	blo	.LBB14_42
	adds	r5, r0, r7
	ldrb	r6, [r5, #-8]
	lsls	r6, r6, #31
	beq	.LBB14_42
	ldr	r6, [r5, #-4]
	movs	r5, #0
	bic	lr, r6, #7
.LBB14_35:
	eor.w	r6, lr, r9
	eor.w	r5, r5, r10
	orrs	r6, r5
	bne	.LBB14_42
	orrs.w	r6, r4, r1
	beq	.LBB14_38
	ldr	r6, [sp, #44]
	ldr	r5, [sp, #48]
	eors	r6, r4
	eors	r5, r1
	orrs	r6, r5
	beq	.LBB14_42
.LBB14_38:
	mov	r6, r9
	cmp.w	r11, #0
	ldr	r5, [sp, #68]
	it	ne
	eorne	r6, r5
	str	r1, [sp, #28]
	mov	r8, r4
	mov	r4, r10
	ldr	r1, [sp, #64]
	it	ne
	eorne	r4, r1
	orrs	r6, r4
	beq	.LBB14_42
	ldr	r6, [sp, #60]
	ldr	r1, [sp, #52]
	cmp	r6, #0
	mov	r6, r9
	it	ne
	eorne	r6, r1
	mov	r5, r10
	ldr	r1, [sp]
	it	ne
	eorne	r5, r1
	orrs	r6, r5
	beq	.LBB14_42
	cbz	r3, .LBB14_43
	adds	r2, r0, r3
	orr	r6, r7, #1
	str	r6, [r2, #-8]
	b	.LBB14_44
	.p2align	2
.LBB14_42:
	ldr	r1, [sp, #16]
	str	r1, [sp, #112]
	ldr	r1, [sp, #12]
	ldr	r3, [sp, #56]
	str	r1, [sp, #108]
	add	sp, #72
	pop.w	{r4, r5, r6, r7, r8, r9, r10, r11, lr}
	b	ic_raw.table.RawTable.refusal_at_both.05a19227735374d3
	.p2align	2
.LBB14_43:
	movs	r1, #0
	str	r1, [sp, #28]
	mov	r8, r7
.LBB14_44:
	ldr.w	lr, [sp, #32]
	ldrd	r6, r4, [sp, #4]
	cmp	r7, #0
	ittee	ne
	addne	r2, r0, r7
	strne	r3, [r2, #-4]
	moveq	r1, #0
	strdeq	r3, r1, [sp, #36]
	ldr	r7, [sp, #60]
	ldr	r1, [sp, #52]
	cmp.w	r11, #0
	mov	r2, r9
	mov	r3, r10
	beq	.LBB14_46
	ldr	r2, [sp, #68]
	orr	r3, r9, #1
	add	r2, r0
	str	r3, [r2, #-8]
	ldrd	r2, r3, [sp, #44]
.LBB14_46:
	cbz	r7, .LBB14_48
	add	r0, r1
	ldr.w	r10, [sp, #20]
	str	r9, [r0, #-4]
	b	.LBB14_49
	.p2align	2
.LBB14_48:
	mov	lr, r9
.LBB14_49:
	cmp.w	r11, #0
	ldr	r5, [sp, #68]
	add.w	r0, r1, #1
	it	eq
	moveq	r5, r11
	cmp	r7, #0
	it	eq
	moveq	r0, #1
	strd	r0, r5, [r12, #-8]
	ldr	r0, [sp, #28]
	str	r3, [r6, #4]
	str	r2, [r6]
	str.w	r10, [r6, #12]
	str.w	lr, [r6, #8]
	str	r0, [r4, #4]
	ldr	r0, [sp, #36]
	str.w	r8, [r4]
	str	r0, [r4, #8]
	ldr	r0, [sp, #40]
	str	r0, [r4, #12]
	movs	r0, #0
	add	sp, #72
	pop.w	{r4, r5, r6, r7, r8, r9, r10, r11, pc}
	.p2align	2
.LBB14_50:
	movs	r1, #0
	movs	r3, #0
	str	r1, [sp, #52]
	str	r1, [sp]
	mov	r4, r5
	mov	r7, r10
	b	.LBB14_22
.Lfunc_end14:
	.size	ic_raw_lists.transfer_calls.transfer_at.55ebd757a04f39fd, .Lfunc_end14-ic_raw_lists.transfer_calls.transfer_at.55ebd757a04f39fd
	.cfi_endproc
	.section	.text.unlikely.ic_raw.list_calls.splice_slow.5386baa488213e47,"ax",%progbits
	.p2align	2
	.type	ic_raw.list_calls.splice_slow.5386baa488213e47,%function
	.code	16
	.thumb_func
ic_raw.list_calls.splice_slow.5386baa488213e47:
	.cfi_startproc
	push.w	{r4, r5, r6, r7, r8, r9, r10, r11, lr}
	.cfi_def_cfa_offset 36
	.cfi_offset lr, -4
	.cfi_offset r11, -8
	.cfi_offset r10, -12
	.cfi_offset r9, -16
	.cfi_offset r8, -20
	.cfi_offset r7, -24
	.cfi_offset r6, -28
	.cfi_offset r5, -32
	.cfi_offset r4, -36
	sub	sp, #56
	.cfi_def_cfa_offset 92
	str	r0, [sp, #52]
	ldrd	r10, r1, [sp, #92]
	mov	r9, r2
	ldrd	r12, r8, [sp, #100]
	ldrd	r2, r7, [r10]
	ldrd	r6, r5, [r10, #8]
	bic	r0, r2, #7
	ldr.w	r2, [r12]
	and	r4, r7, #15
	str	r2, [sp, #24]
	ldr.w	r2, [r12, #4]
	and	r5, r5, #15
	str	r2, [sp, #20]
	adds	r2, r1, #1
	mov	r11, r2
	str	r1, [sp, #8]
	it	ne
	movne.w	r11, #1
	ldr.w	r1, [r12, #8]
	bic	r6, r6, #7
	str	r1, [sp, #16]
	ldr.w	r1, [r12, #12]
	lsr.w	lr, r2, #29
	str	r1, [sp, #12]
	lsl.w	r1, r2, #3
	add	r7, sp, #36
	str	r4, [sp, #48]
	strd	r6, r5, [sp, #28]
	stm.w	r7, {r0, r3, r9}
	beq	.LBB15_5
	subs.w	r2, r9, r2
	sbcs	r2, r3, #0
	blo.w	.LBB15_24
	ldr	r0, [sp, #52]
	add.w	r2, r0, r1, lsl #1
	ldr	r4, [r2, #-16]
	lsls	r5, r4, #31
	beq.w	.LBB15_24
	lsls.w	r3, r8, #31
	beq	.LBB15_10
	ldrd	r2, r3, [r2, #-8]
	and	r7, r3, #15
	ldr	r3, [sp, #40]
	bic	r4, r2, #7
	b	.LBB15_6
	.p2align	2
.LBB15_5:
	lsls.w	r2, r8, #31
	mov	r2, r4
	mov	r4, r6
	mov	r7, r5
	beq	.LBB15_11
.LBB15_6:
	ldr	r0, [sp, #44]
	orrs.w	r2, r4, r7
	beq	.LBB15_16
	lsrs	r2, r4, #3
	orr.w	r2, r2, r7, lsl #29
	subs	r2, r0, r2
	sbcs.w	r2, r3, r7, lsr #3
	blo.w	.LBB15_24
	ldr	r0, [sp, #52]
	orr	r6, r1, #1
	add.w	r2, r0, r4, lsl #1
	ldrd	r2, r5, [r2, #-16]
	bic	r2, r2, #6
	and	r5, r5, #15
	eor.w	r5, r5, lr
	eors	r2, r6
	orrs	r2, r5
	bne.w	.LBB15_24
	movs	r0, #1
	strd	lr, r1, [sp]
	mov	r1, r4
	mov	lr, r7
	b	.LBB15_18
	.p2align	2
.LBB15_10:
	ldr	r3, [r2, #-12]
	ldr	r6, [sp, #28]
	and	r2, r3, #15
	ldr	r3, [sp, #40]
	bic	r0, r4, #7
.LBB15_11:
	orrs.w	r7, r0, r2
	it	ne
	movne	r7, #1
	ldr	r4, [sp, #32]
	mov	r5, r6
	beq	.LBB15_15
	mov	r6, r0
	lsrs	r4, r0, #3
	ldr	r0, [sp, #44]
	orr.w	r4, r4, r2, lsl #29
	subs	r4, r0, r4
	sbcs.w	r4, r3, r2, lsr #3
	blo	.LBB15_24
	mov	r8, r2
	ldr	r2, [sp, #52]
	add.w	r4, r2, r6, lsl #1
	ldrb	r5, [r4, #-16]
	lsls	r5, r5, #31
	beq	.LBB15_24
	ldrd	r5, r4, [r4, #-8]
	mov	r0, r6
	and	r4, r4, #15
	bic	r5, r5, #7
	mov	r2, r8
.LBB15_15:
	eors	r5, r1
	eor.w	r4, r4, lr
	strd	r2, r0, [sp]
	orrs	r4, r5
	mov	r0, r11
	mov	r11, r7
	beq	.LBB15_18
	b	.LBB15_24
	.p2align	2
.LBB15_16:
	ldr	r0, [sp, #36]
	eor.w	r2, r0, r1
	ldr	r0, [sp, #48]
	eor.w	r3, r0, lr
	orrs	r2, r3
	bne	.LBB15_24
	ldr	r0, [sp, #36]
	movs	r1, #0
	str	r0, [sp, #4]
	ldr	r0, [sp, #48]
	mov.w	lr, #0
	str	r0, [sp]
	movs	r0, #0
.LBB15_18:
	ldr	r2, [sp, #20]
	and	r8, r2, #15
	ldr	r2, [sp, #12]
	and	r5, r2, #15
	ldr	r2, [sp, #16]
	bic	r6, r2, #7
	ldr	r2, [sp, #24]
	orrs.w	r3, r6, r5
	bic	r9, r2, #7
	beq	.LBB15_25
	lsrs	r3, r6, #3
	ldr	r2, [sp, #44]
	orr.w	r3, r3, r5, lsl #29
	subs	r3, r2, r3
	ldr	r2, [sp, #40]
	sbcs.w	r3, r2, r5, lsr #3
	blo	.LBB15_24
	orrs.w	r3, r9, r8
	beq	.LBB15_24
	ldr	r2, [sp, #52]
	add.w	r7, r2, r6, lsl #1
	ldrd	r3, r4, [r7, #-16]
	bic	r3, r3, #6
	and	r4, r4, #15
	eor	r3, r3, #1
	orrs	r3, r4
	bne	.LBB15_24
	lsr.w	r3, r9, #3
	ldr	r2, [sp, #44]
	orr.w	r3, r3, r8, lsl #29
	subs	r3, r2, r3
	ldr	r2, [sp, #40]
	lsr.w	r4, r8, #3
	sbcs.w	r3, r2, r4
	blo	.LBB15_24
	ldr	r2, [sp, #52]
	add.w	r3, r2, r9, lsl #1
	ldrb	r4, [r3, #-16]
	lsls	r4, r4, #31
	itttt	ne
	ldrne	r2, [sp, #36]
	eorne.w	r4, r2, r9
	ldrne	r2, [sp, #48]
	eorne.w	r2, r2, r8
	it	ne
	orrsne.w	r2, r2, r4
	bne	.LBB15_26
.LBB15_24:
	ldr	r1, [sp, #8]
	ldr	r0, [sp, #52]
	ldrd	r3, r2, [sp, #40]
	str	r1, [sp, #92]
	add	sp, #56
	pop.w	{r4, r5, r6, r7, r8, r9, r10, r11, lr}
	b	ic_raw.table.RawTable.refusal_at.85cd03e557136797
	.p2align	2
.LBB15_25:
	orrs.w	r0, r9, r8
	beq	.LBB15_33
	b	.LBB15_24
	.p2align	2
.LBB15_26:
	ldrd	r2, r4, [r3, #-8]
	and	r4, r4, #15
	bic	r2, r2, #7
	orrs	r2, r4
	bne	.LBB15_24
	cbz	r0, .LBB15_30
	ldr	r2, [sp, #52]
	orr	r4, r9, #1
	add.w	r2, r2, r1, lsl #1
	strd	r4, r8, [r2, #-16]
	ldr.w	r8, [sp, #48]
	cmp.w	r11, #0
	str.w	r8, [sp, #48]
	beq	.LBB15_31
.LBB15_29:
	ldr	r2, [sp, #52]
	ldr	r4, [sp, #4]
	add.w	r2, r2, r4, lsl #1
	strd	r6, r5, [r2, #-8]
	b	.LBB15_32
	.p2align	2
.LBB15_30:
	str.w	r9, [sp, #36]
	cmp.w	r11, #0
	str.w	r8, [sp, #48]
	bne	.LBB15_29
.LBB15_31:
	strd	r6, r5, [sp, #28]
	ldr	r4, [sp, #4]
.LBB15_32:
	cmp	r0, #0
	itt	eq
	moveq	lr, r0
	moveq	r1, r0
	strd	r1, lr, [r3, #-8]
	ldr	r1, [sp]
	adds	r0, r4, #1
	adc	r2, r1, #0
	cmp.w	r11, #0
	itt	eq
	moveq	r2, r11
	moveq	r0, #1
	strd	r0, r2, [r7, #-16]
.LBB15_33:
	ldr	r0, [sp, #36]
	movs	r1, #0
	str.w	r0, [r10]
	ldr	r0, [sp, #48]
	str.w	r0, [r10, #4]
	ldr	r0, [sp, #28]
	str.w	r0, [r10, #8]
	ldr	r0, [sp, #32]
	str.w	r0, [r10, #12]
	str.w	r1, [r12, #12]
	str.w	r1, [r12, #8]
	str.w	r1, [r12, #4]
	movs	r0, #0
	str.w	r1, [r12]
	add	sp, #56
	pop.w	{r4, r5, r6, r7, r8, r9, r10, r11, pc}
.Lfunc_end15:
	.size	ic_raw.list_calls.splice_slow.5386baa488213e47, .Lfunc_end15-ic_raw.list_calls.splice_slow.5386baa488213e47
	.cfi_endproc
	.section	.text.unlikely.ic_raw.table.RawTable.refusal_at.85cd03e557136797,"ax",%progbits
	.p2align	2
	.type	ic_raw.table.RawTable.refusal_at.85cd03e557136797,%function
	.code	16
	.thumb_func
ic_raw.table.RawTable.refusal_at.85cd03e557136797:
	.cfi_startproc
	ldr	r1, [sp]
	adds	r1, #1
	itt	hs
	movhs	r0, #5
	bxhs	lr
.LBB16_1:
	subs	r2, r2, r1
	sbcs	r2, r3, #0
	itt	lo
	movlo	r0, #1
	bxlo	lr
.LBB16_2:
	lsls	r1, r1, #4
	add	r0, r1
	ldrb	r0, [r0, #-16]
	lsls	r0, r0, #31
	mov.w	r0, #5
	it	eq
	moveq	r0, #3
	bx	lr
.Lfunc_end16:
	.size	ic_raw.table.RawTable.refusal_at.85cd03e557136797, .Lfunc_end16-ic_raw.table.RawTable.refusal_at.85cd03e557136797
	.cfi_endproc
	.section	.text.unlikely.ic_raw.table.RawTable.refusal.85cd03e557136797,"ax",%progbits
	.p2align	2
	.type	ic_raw.table.RawTable.refusal.85cd03e557136797,%function
	.code	16
	.thumb_func
ic_raw.table.RawTable.refusal.85cd03e557136797:
	.cfi_startproc
	ldr	r1, [sp]
	mov	r12, r0
	adds	r1, #1
	bhs	.LBB17_5
	subs	r0, r2, r1
	sbcs	r0, r3, #0
	itt	lo
	movlo	r0, #1
	bxlo	lr
.LBB17_2:
	lsls	r0, r1, #4
	add	r0, r12
	ldrb	r0, [r0, #-16]
	lsls	r0, r0, #31
	bne	.LBB17_5
	movs	r0, #3
.LBB17_4:
	bx	lr
	.p2align	2
.LBB17_5:
	ldr	r0, [sp, #4]
	adds	r1, r0, #1
	mov.w	r0, #1
	bhs	.LBB17_4
	subs	r2, r2, r1
	sbcs	r2, r3, #0
	it	lo
	bxlo	lr
.LBB17_7:
	add.w	r0, r12, r1, lsl #4
	ldrb	r0, [r0, #-16]
	lsls	r0, r0, #31
	mov.w	r0, #2
	it	eq
	moveq	r0, #5
	bx	lr
.Lfunc_end17:
	.size	ic_raw.table.RawTable.refusal.85cd03e557136797, .Lfunc_end17-ic_raw.table.RawTable.refusal.85cd03e557136797
	.cfi_endproc
	.section	.text.unlikely.ic_raw.sort_calls.refusal.78cbab63d6c27224,"ax",%progbits
	.p2align	2
	.type	ic_raw.sort_calls.refusal.78cbab63d6c27224,%function
	.code	16
	.thumb_func
ic_raw.sort_calls.refusal.78cbab63d6c27224:
	.cfi_startproc
	subs	r0, r2, r0
	sbcs.w	r0, r3, r1
	mov.w	r0, #5
	it	lo
	movlo	r0, #1
	bx	lr
.Lfunc_end18:
	.size	ic_raw.sort_calls.refusal.78cbab63d6c27224, .Lfunc_end18-ic_raw.sort_calls.refusal.78cbab63d6c27224
	.cfi_endproc
	.section	.text.ic_list_algorithms.merge.merge_runs.6bd71b5c7308988e,"ax",%progbits
	.p2align	2
	.type	ic_list_algorithms.merge.merge_runs.6bd71b5c7308988e,%function
	.code	16
	.thumb_func
ic_list_algorithms.merge.merge_runs.6bd71b5c7308988e:
	.cfi_startproc
	push.w	{r4, r5, r6, r7, r8, r9, r10, r11, lr}
	.cfi_def_cfa_offset 36
	.cfi_offset lr, -4
	.cfi_offset r11, -8
	.cfi_offset r10, -12
	.cfi_offset r9, -16
	.cfi_offset r8, -20
	.cfi_offset r7, -24
	.cfi_offset r6, -28
	.cfi_offset r5, -32
	.cfi_offset r4, -36
	sub	sp, #4
	.cfi_def_cfa_offset 40
	ldr	r6, [sp, #40]
	ldr	r7, [r1]
	mov	r12, r2
	adds	r2, r7, r6
	add	r7, r12
	ldrd	r4, r5, [r2, #-8]
	ldrd	r2, r7, [r7, #-8]
	ldr.w	lr, [sp, #44]
	subs	r4, r4, r2
	sbcs.w	r4, r5, r7
	ldr	r4, [r0]
	mov	r10, r3
	bhs	.LBB19_3
	add.w	r4, r4, r6, lsl #1
	ldrd	r2, r5, [r4, #-16]
	and	r5, r5, #15
	bic	r2, r2, #7
	orrs.w	r7, r2, r5
	beq	.LBB19_11
	mov	r9, r6
	mov	r8, lr
	mov	r6, r2
	mov	lr, r5
	mov	r11, r9
	b	.LBB19_6
	.p2align	2
.LBB19_3:
	add.w	r4, r4, r12, lsl #1
	ldrd	r2, r5, [r4, #-16]
	and	r5, r5, #15
	bic	r2, r2, #7
	orrs.w	r7, r2, r5
	beq	.LBB19_12
	mov	r9, r12
	mov	r8, r10
	mov	r12, r2
	mov	r10, r5
	mov	r11, r9
	b	.LBB19_6
	.p2align	2
.LBB19_5:
	add.w	r2, r7, r11, lsl #1
	ldrd	r2, r3, [r2, #-16]
	orr	r7, r11, #1
	strd	r7, r10, [r5, #-16]
	and	r10, r3, #15
	bic	r12, r2, #7
	orrs.w	r2, r12, r10
	beq	.LBB19_13
.LBB19_6:
	mov	r5, r6
	mov	r6, r11
	mov	r11, r12
	.p2align	2
.LBB19_7:
	ldr	r7, [r1]
	mov	r2, r6
	mov	r6, r5
	add	r5, r7
	add	r7, r11
	ldrd	r5, r3, [r5, #-8]
	ldrd	r7, r4, [r7, #-8]
	subs	r7, r5, r7
	ldr	r7, [r0]
	sbcs	r3, r4
	add.w	r5, r7, r2, lsl #1
	bhs	.LBB19_5
	add.w	r2, r7, r6, lsl #1
	ldrd	r2, r3, [r2, #-16]
	orr	r7, r6, #1
	strd	r7, lr, [r5, #-16]
	and	lr, r3, #15
	bic	r5, r2, #7
	orrs.w	r2, r5, lr
	bne	.LBB19_7
	ldr	r0, [r0]
	orr	r1, r11, #1
	add.w	r0, r0, r6, lsl #1
	strd	r1, r10, [r0, #-16]
.LBB19_10:
	mov	r12, r9
	mov	r10, r8
	mov	r0, r12
	mov	r1, r10
	add	sp, #4
	pop.w	{r4, r5, r6, r7, r8, r9, r10, r11, pc}
	.p2align	2
.LBB19_11:
	orr	r0, r12, #1
	strd	r0, r10, [r4, #-16]
	mov	r12, r6
	mov	r10, lr
	mov	r0, r12
	mov	r1, r10
	add	sp, #4
	pop.w	{r4, r5, r6, r7, r8, r9, r10, r11, pc}
	.p2align	2
.LBB19_12:
	orr	r0, r6, #1
	strd	r0, lr, [r4, #-16]
	mov	r0, r12
	mov	r1, r10
	add	sp, #4
	pop.w	{r4, r5, r6, r7, r8, r9, r10, r11, pc}
	.p2align	2
.LBB19_13:
	ldr	r0, [r0]
	adds	r1, r6, #1
	add.w	r0, r0, r11, lsl #1
	adc	r2, lr, #0
	strd	r1, r2, [r0, #-16]
	b	.LBB19_10
.Lfunc_end19:
	.size	ic_list_algorithms.merge.merge_runs.6bd71b5c7308988e, .Lfunc_end19-ic_list_algorithms.merge.merge_runs.6bd71b5c7308988e
	.cfi_endproc
	.section	.text.unlikely.ic_raw.move_calls.move_slow.5386baa488213e47,"ax",%progbits
	.p2align	2
	.type	ic_raw.move_calls.move_slow.5386baa488213e47,%function
	.code	16
	.thumb_func
ic_raw.move_calls.move_slow.5386baa488213e47:
	.cfi_startproc
	push.w	{r4, r5, r6, r7, r8, r9, r10, r11, lr}
	.cfi_def_cfa_offset 36
	.cfi_offset lr, -4
	.cfi_offset r11, -8
	.cfi_offset r10, -12
	.cfi_offset r9, -16
	.cfi_offset r8, -20
	.cfi_offset r7, -24
	.cfi_offset r6, -28
	.cfi_offset r5, -32
	.cfi_offset r4, -36
	sub	sp, #60
	.cfi_def_cfa_offset 96
	ldr	r1, [sp, #108]
	str	r0, [sp, #56]
	adds.w	r8, r1, #1
	blo	.LBB20_2
	movs	r0, #4
	add	sp, #60
	pop.w	{r4, r5, r6, r7, r8, r9, r10, r11, pc}
	.p2align	2
.LBB20_2:
	str	r1, [sp, #24]
	ldrd	r0, r12, [sp, #96]
	ldr	r7, [sp, #104]
	ldrd	r1, r5, [r0]
	ldr	r4, [r0, #8]
	and	r9, r5, #15
	adds	r5, r7, #1
	ldr	r6, [r0, #12]
	bic	r10, r1, #7
	lsr.w	r1, r5, #29
	str	r0, [sp, #8]
	str	r7, [sp, #20]
	str	r1, [sp, #52]
	lsl.w	r1, r5, #3
	and	r0, r6, #15
	bic	lr, r4, #7
	str	r1, [sp, #48]
	mov	r1, r5
	it	ne
	movne	r1, #1
	strd	r0, r1, [sp, #40]
	strd	r10, r9, [sp, #32]
	beq	.LBB20_7
	subs	r1, r2, r5
	sbcs	r1, r3, #0
	blo.w	.LBB20_36
	ldr	r0, [sp, #56]
	ldr	r1, [sp, #48]
	add.w	r5, r0, r1, lsl #1
	ldr	r4, [r5, #-16]
	lsls	r1, r4, #31
	beq.w	.LBB20_36
	lsls.w	r1, r12, #31
	beq	.LBB20_12
	ldrd	r1, r7, [r5, #-8]
	ldr.w	r9, [sp, #36]
	and	r7, r7, #15
	bic	r5, r1, #7
	b	.LBB20_8
	.p2align	2
.LBB20_7:
	lsls.w	r1, r12, #31
	mov	r6, r9
	mov	r5, lr
	mov	r7, r0
	beq	.LBB20_13
.LBB20_8:
	orrs.w	r1, r5, r7
	beq.w	.LBB20_34
	lsrs	r1, r5, #3
	orr.w	r1, r1, r7, lsl #29
	subs	r1, r2, r1
	sbcs.w	r1, r3, r7, lsr #3
	blo.w	.LBB20_36
	ldr	r0, [sp, #56]
	add.w	r1, r0, r5, lsl #1
	ldr	r0, [sp, #48]
	ldrd	r1, r6, [r1, #-16]
	orr	r4, r0, #1
	ldr	r0, [sp, #52]
	bic	r1, r1, #6
	and	r6, r6, #15
	eors	r6, r0
	eors	r1, r4
	orrs	r1, r6
	bne.w	.LBB20_36
	movs	r0, #1
	str	r0, [sp, #28]
	ldr	r0, [sp, #48]
	str	r0, [sp, #16]
	ldr	r0, [sp, #52]
	str	r0, [sp, #12]
	strd	r5, r7, [sp, #48]
	subs.w	r1, r2, r8
	sbcs	r1, r3, #0
	bhs	.LBB20_19
	b	.LBB20_36
	.p2align	2
.LBB20_12:
	ldr	r1, [r5, #-12]
	ldr	r0, [sp, #40]
	bic	r10, r4, #7
	and	r6, r1, #15
.LBB20_13:
	orrs.w	r7, r10, r6
	mov	r4, lr
	mov	r5, r0
	it	ne
	movne	r7, #1
	beq	.LBB20_17
	lsr.w	r1, r10, #3
	orr.w	r1, r1, r6, lsl #29
	subs	r1, r2, r1
	sbcs.w	r1, r3, r6, lsr #3
	blo.w	.LBB20_36
	ldr	r0, [sp, #56]
	mov	r12, r10
	add.w	r5, r0, r10, lsl #1
	ldrb	r1, [r5, #-16]
	lsls	r1, r1, #31
	beq.w	.LBB20_36
	mov	r9, r6
	ldrd	r1, r6, [r5, #-8]
	mov	r10, r12
	and	r5, r6, #15
	bic	r4, r1, #7
	mov	r6, r9
.LBB20_17:
	strd	r6, r10, [sp, #12]
	ldr	r0, [sp, #48]
	eor.w	r1, r4, r0
	ldr	r0, [sp, #52]
	eor.w	r6, r5, r0
	ldr	r0, [sp, #44]
	orrs	r1, r6
	str	r0, [sp, #28]
	str	r7, [sp, #44]
	bne.w	.LBB20_36
	subs.w	r1, r2, r8
	sbcs	r1, r3, #0
	blo.w	.LBB20_36
.LBB20_19:
	ldr	r0, [sp, #56]
	lsl.w	r10, r8, #3
	add.w	r0, r0, r10, lsl #1
	ldr	r4, [r0, #-16]
	lsls	r1, r4, #31
	beq.w	.LBB20_36
	ldrd	r1, r7, [r0, #-8]
	ldr	r5, [r0, #-12]
	and	r9, r7, #15
	bic	r11, r1, #7
	orrs.w	r1, r11, r9
	lsr.w	r12, r8, #29
	str	r1, [sp, #4]
	beq	.LBB20_23
	lsr.w	r1, r11, #3
	orr.w	r1, r1, r9, lsl #29
	subs	r1, r2, r1
	sbcs.w	r1, r3, r9, lsr #3
	blo.w	.LBB20_36
	ldr	r1, [sp, #56]
	orr	r7, r10, #1
	add.w	r1, r1, r11, lsl #1
	ldrd	r1, r6, [r1, #-16]
	bic	r1, r1, #6
	and	r6, r6, #15
	eor.w	r6, r6, r12
	eors	r1, r7
	orrs	r1, r6
	beq	.LBB20_24
	b	.LBB20_36
	.p2align	2
.LBB20_23:
	ldr	r1, [sp, #32]
	ldr	r6, [sp, #36]
	eor.w	r1, r1, r10
	eor.w	r7, r6, r12
	orrs	r1, r7
	bne	.LBB20_36
.LBB20_24:
	bic	r4, r4, #7
	and	r5, r5, #15
	orrs.w	r1, r4, r5
	str	r1, [sp]
	ldr.w	r8, [sp, #40]
	mov	r6, lr
	beq	.LBB20_28
	lsrs	r1, r4, #3
	orr.w	r1, r1, r5, lsl #29
	subs	r1, r2, r1
	sbcs.w	r1, r3, r5, lsr #3
	blo	.LBB20_36
	ldr	r1, [sp, #56]
	add.w	r1, r1, r4, lsl #1
	ldrb	r7, [r1, #-16]
	lsls	r7, r7, #31
	beq	.LBB20_36
	ldrd	r1, r7, [r1, #-8]
	and	r8, r7, #15
	bic	lr, r1, #7
.LBB20_28:
	eor.w	r1, lr, r10
	eor.w	r7, r8, r12
	orrs	r1, r7
	bne	.LBB20_36
	ldr	r2, [sp, #28]
	ldr	r1, [sp, #48]
	mov	lr, r2
	cmp	r2, #0
	it	ne
	movne	lr, r1
	ldr	r1, [sp, #52]
	it	eq
	moveq	r1, r2
	str	r1, [sp, #52]
	eor.w	r1, r1, r12
	eor.w	r3, lr, r10
	orrs	r1, r3
	beq.w	.LBB20_45
	ldr.w	r8, [sp, #44]
	mov	r1, r10
	ldr	r3, [sp, #16]
	cmp.w	r8, #0
	it	ne
	eorne	r1, r3
	mov	r3, r12
	ldr	r7, [sp, #12]
	it	ne
	eorne	r3, r7
	orrs	r1, r3
	beq	.LBB20_45
	ldr	r1, [sp, #4]
	clz	r1, r1
	lsrs	r1, r1, #5
	ldr	r1, [sp]
	clz	r1, r1
	lsr.w	r3, r1, #5
	bne	.LBB20_37
	ldr	r1, [sp, #56]
	orr	r7, r4, #1
	add.w	r1, r1, r11, lsl #1
	strd	r7, r5, [r1, #-16]
	ldr	r5, [sp, #36]
	cbnz	r3, .LBB20_38
.LBB20_33:
	ldr	r1, [sp, #56]
	add.w	r1, r1, r4, lsl #1
	strd	r11, r9, [r1, #-8]
	ldr	r4, [sp, #8]
	ldr.w	r9, [sp, #40]
	b	.LBB20_39
	.p2align	2
.LBB20_34:
	ldr	r0, [sp, #32]
	ldr	r1, [sp, #48]
	eors	r1, r0
	ldr	r0, [sp, #52]
	eor.w	r7, r9, r0
	orrs	r1, r7
	bne	.LBB20_36
	movs	r0, #0
	str	r0, [sp, #48]
	ldr	r0, [sp, #32]
	str	r0, [sp, #16]
	ldr	r0, [sp, #36]
	str	r0, [sp, #12]
	movs	r0, #0
	str	r0, [sp, #52]
	str	r0, [sp, #28]
	subs.w	r1, r2, r8
	sbcs	r1, r3, #0
	bhs.w	.LBB20_19
.LBB20_36:
	ldr	r0, [sp, #24]
	str	r0, [sp, #100]
	ldr	r1, [sp, #20]
	ldr	r0, [sp, #56]
	str	r1, [sp, #96]
	add	sp, #60
	pop.w	{r4, r5, r6, r7, r8, r9, r10, r11, lr}
	b	ic_raw.table.RawTable.refusal_at_both.85cd03e557136797
	.p2align	2
.LBB20_37:
	str	r4, [sp, #32]
	cmp	r3, #0
	beq	.LBB20_33
.LBB20_38:
	ldr	r4, [sp, #8]
	mov	r6, r11
.LBB20_39:
	ldr	r7, [sp, #16]
	cmp	r2, #0
	mov	r2, r10
	mov	r3, r12
	beq	.LBB20_41
	ldr	r1, [sp, #56]
	ldr	r3, [sp, #48]
	ldr	r2, [sp, #32]
	add.w	r1, r1, r3, lsl #1
	orr	r3, r10, #1
	strd	r3, r12, [r1, #-16]
	mov	r3, r5
.LBB20_41:
	cmp.w	r8, #0
	beq	.LBB20_43
	ldr	r1, [sp, #56]
	add.w	r1, r1, r7, lsl #1
	strd	r10, r12, [r1, #-8]
	b	.LBB20_44
	.p2align	2
.LBB20_43:
	mov	r6, r10
	mov	r9, r12
.LBB20_44:
	adds	r1, r7, #1
	ldr	r7, [sp, #12]
	sub.w	r12, r0, #16
	adc	r7, r7, #0
	cmp.w	r8, #0
	itt	eq
	moveq	r7, r8
	moveq	r1, #1
	stm.w	r12, {r1, r7, lr}
	ldr	r1, [sp, #52]
	str	r1, [r0, #-4]
	str	r2, [r4]
	str	r3, [r4, #4]
	str	r6, [r4, #8]
	str.w	r9, [r4, #12]
.LBB20_45:
	movs	r0, #0
	add	sp, #60
	pop.w	{r4, r5, r6, r7, r8, r9, r10, r11, pc}
.Lfunc_end20:
	.size	ic_raw.move_calls.move_slow.5386baa488213e47, .Lfunc_end20-ic_raw.move_calls.move_slow.5386baa488213e47
	.cfi_endproc
	.section	.text.unlikely.ic_raw.table.RawTable.refusal_at_both.85cd03e557136797,"ax",%progbits
	.p2align	2
	.type	ic_raw.table.RawTable.refusal_at_both.85cd03e557136797,%function
	.code	16
	.thumb_func
ic_raw.table.RawTable.refusal_at_both.85cd03e557136797:
	.cfi_startproc
	ldr	r1, [sp]
	adds.w	r12, r1, #1
	bhs	.LBB21_3
	subs.w	r1, r2, r12
	sbcs	r1, r3, #0
	itt	lo
	movlo	r0, #1
	bxlo	lr
.LBB21_2:
	lsl.w	r1, r12, #4
	add	r1, r0
	ldrb	r1, [r1, #-16]
	lsls	r1, r1, #31
	itt	eq
	moveq	r0, #3
	bxeq	lr
.LBB21_3:
	ldr	r1, [sp, #4]
	adds	r1, #1
	itt	hs
	movhs	r0, #5
	bxhs	lr
.LBB21_4:
	subs	r2, r2, r1
	sbcs	r2, r3, #0
	itt	lo
	movlo	r0, #1
	bxlo	lr
.LBB21_5:
	lsls	r1, r1, #4
	add	r0, r1
	ldrb	r0, [r0, #-16]
	lsls	r0, r0, #31
	mov.w	r0, #5
	it	eq
	moveq	r0, #3
	bx	lr
.Lfunc_end21:
	.size	ic_raw.table.RawTable.refusal_at_both.85cd03e557136797, .Lfunc_end21-ic_raw.table.RawTable.refusal_at_both.85cd03e557136797
	.cfi_endproc
	.section	.text.unlikely.ic_raw.move_calls.move_to_end_slow.5386baa488213e47,"ax",%progbits
	.p2align	2
	.type	ic_raw.move_calls.move_to_end_slow.5386baa488213e47,%function
	.code	16
	.thumb_func
ic_raw.move_calls.move_to_end_slow.5386baa488213e47:
	.cfi_startproc
	push.w	{r4, r5, r6, r7, r8, r9, r10, r11, lr}
	.cfi_def_cfa_offset 36
	.cfi_offset lr, -4
	.cfi_offset r11, -8
	.cfi_offset r10, -12
	.cfi_offset r9, -16
	.cfi_offset r8, -20
	.cfi_offset r7, -24
	.cfi_offset r6, -28
	.cfi_offset r5, -32
	.cfi_offset r4, -36
	sub	sp, #20
	.cfi_def_cfa_offset 56
	ldr	r1, [sp, #64]
	adds	r5, r1, #1
	blo	.LBB22_2
	movs	r0, #4
	add	sp, #20
	pop.w	{r4, r5, r6, r7, r8, r9, r10, r11, pc}
	.p2align	2
.LBB22_2:
	ldrd	r4, r8, [sp, #56]
	lsr.w	lr, r5, #29
	ldrd	r7, r6, [r4]
	ldrd	r1, r4, [r4, #8]
	lsl.w	r10, r5, #3
	and	r6, r6, #15
	bic	r9, r7, #7
	and	r12, r4, #15
	lsls.w	r4, r8, #31
	bic	r7, r1, #7
	beq	.LBB22_12
	subs	r1, r2, r5
	sbcs	r1, r3, #0
	blo.w	.LBB22_24
	eor.w	r1, r9, r10
	eor.w	r4, r6, lr
	orrs	r1, r4
	ittt	eq
	addeq.w	r4, r0, r10, lsl #1
	ldrdeq	r1, r5, [r4, #-8]
	orrseq.w	r1, r1, r5
	bne.w	.LBB22_24
	ldr	r5, [r4, #-16]
	lsls	r1, r5, #31
	itttt	ne
	ldrne	r4, [r4, #-12]
	bicne	r8, r5, #7
	andne	r9, r4, #15
	orrsne.w	r6, r8, r9
	beq.w	.LBB22_24
	lsrs	r5, r5, #3
	orr.w	r4, r5, r4, lsl #29
	lsr.w	r5, r9, #3
	subs	r4, r2, r4
	sbcs.w	r4, r3, r5
	blo.w	.LBB22_24
	add.w	r4, r0, r8, lsl #1
	ldrd	r5, r6, [r4, #-8]
	eor.w	r6, r6, lr
	eor.w	r5, r5, r10
	orrs	r5, r6
	bne.w	.LBB22_24
	ldr	r5, [r4, #-16]
	lsls	r5, r5, #31
	it	ne
	orrsne.w	r5, r7, r12
	beq.w	.LBB22_24
	lsrs	r5, r7, #3
	orr.w	r5, r5, r12, lsl #29
	lsr.w	r6, r12, #3
	subs	r5, r2, r5
	sbcs.w	r5, r3, r6
	blo	.LBB22_24
	add.w	r5, r0, r7, lsl #1
	ldrd	r6, r1, [r5, #-16]
	eor	r6, r6, #1
	orrs	r1, r6
	bne	.LBB22_24
	movs	r6, #0
	orr	r1, r10, #1
	movs	r2, #1
	mov	r11, r10
	strd	r6, r6, [r4, #-8]
	strd	r1, lr, [r5, #-16]
	b	.LBB22_23
	.p2align	2
.LBB22_12:
	eor.w	r1, r7, r10
	eor.w	r7, r12, lr
	orrs	r1, r7
	bne	.LBB22_24
	subs	r1, r2, r5
	sbcs	r1, r3, #0
	blo	.LBB22_24
	add.w	r7, r0, r10, lsl #1
	ldrd	r1, r5, [r7, #-16]
	eor	r1, r1, #1
	orrs	r1, r5
	bne	.LBB22_24
	ldrd	r5, r7, [r7, #-8]
	and	r8, r7, #15
	bic	r11, r5, #7
	orrs.w	r1, r11, r8
	beq	.LBB22_24
	lsrs	r1, r5, #3
	orr.w	r1, r1, r7, lsl #29
	lsr.w	r7, r8, #3
	subs	r1, r2, r1
	sbcs.w	r1, r3, r7
	blo	.LBB22_24
	add.w	r12, r0, r11, lsl #1
	ldrd	r1, r4, [r12, #-16]
	orr	r5, r10, #1
	eor.w	r4, r4, lr
	eors	r1, r5
	orrs	r1, r4
	bne	.LBB22_24
	orrs.w	r1, r9, r6
	beq	.LBB22_24
	lsr.w	r1, r9, #3
	orr.w	r1, r1, r6, lsl #29
	lsrs	r4, r6, #3
	subs	r1, r2, r1
	sbcs.w	r1, r3, r4
	blo	.LBB22_24
	add.w	r5, r0, r9, lsl #1
	ldrd	r1, r4, [r5, #-8]
	orrs	r1, r4
	bne	.LBB22_24
	ldr	r1, [r5, #-16]
	lsls	r1, r1, #31
	beq	.LBB22_24
	movs	r1, #1
	movs	r7, #0
	strd	r1, r7, [r12, #-16]
	mov	r1, r8
	strd	r10, lr, [r5, #-8]
	orr	r2, r9, #1
	mov	r8, r10
	mov	r9, lr
	mov.w	r12, #0
	mov	lr, r1
.LBB22_23:
	add.w	r0, r0, r10, lsl #1
	stmdb	r0, {r2, r6, r7, r12}
	ldr	r0, [sp, #56]
	str.w	r8, [r0]
	str.w	r9, [r0, #4]
	str.w	r11, [r0, #8]
	str.w	lr, [r0, #12]
	movs	r0, #0
	add	sp, #20
	pop.w	{r4, r5, r6, r7, r8, r9, r10, r11, pc}
	.p2align	2
.LBB22_24:
	ldr	r7, [sp, #56]
	mov.w	r1, #-1
	str	r7, [sp]
	ldr	r7, [sp, #60]
	strd	r7, r1, [sp, #4]
	ldr	r1, [sp, #64]
	str	r1, [sp, #12]
	bl	ic_raw.move_calls.move_slow.5386baa488213e47
	add	sp, #20
	pop.w	{r4, r5, r6, r7, r8, r9, r10, r11, pc}
.Lfunc_end22:
	.size	ic_raw.move_calls.move_to_end_slow.5386baa488213e47, .Lfunc_end22-ic_raw.move_calls.move_to_end_slow.5386baa488213e47
	.cfi_endproc
	.section	.text.unlikely.ic_raw.list_calls.pop_front_slow.5386baa488213e47,"ax",%progbits
	.p2align	2
	.type	ic_raw.list_calls.pop_front_slow.5386baa488213e47,%function
	.code	16
	.thumb_func
ic_raw.list_calls.pop_front_slow.5386baa488213e47:
	.cfi_startproc
	push.w	{r4, r5, r6, r7, r8, r9, r10, r11, lr}
	.cfi_def_cfa_offset 36
	.cfi_offset lr, -4
	.cfi_offset r11, -8
	.cfi_offset r10, -12
	.cfi_offset r9, -16
	.cfi_offset r8, -20
	.cfi_offset r7, -24
	.cfi_offset r6, -28
	.cfi_offset r5, -32
	.cfi_offset r4, -36
	sub	sp, #4
	.cfi_def_cfa_offset 40
	ldr.w	lr, [sp, #40]
	ldrd	r5, r1, [lr]
	and	r11, r1, #15
	bic	r12, r5, #7
	orrs.w	r4, r12, r11
	beq	.LBB23_12
	lsrs	r5, r5, #3
	orr.w	r9, r5, r1, lsl #29
	lsr.w	r1, r11, #3
	subs.w	r4, r2, r9
	sbcs.w	r1, r3, r1
	blo	.LBB23_12
	add.w	r1, r0, r12, lsl #1
	ldr	r4, [r1, #-16]
	lsls	r5, r4, #31
	beq	.LBB23_12
	ldrd	r5, r6, [r1, #-8]
	and	r6, r6, #15
	bic	r5, r5, #7
	orrs	r5, r6
	bne	.LBB23_12
	ldrd	r6, r5, [lr, #8]
	ldr	r7, [sp, #44]
	bic	r8, r4, #7
	str	r7, [sp]
	and	r7, r5, #15
	ldr	r5, [r1, #-12]
	bic	r10, r6, #7
	and	r4, r5, #15
	orrs.w	r5, r8, r4
	beq	.LBB23_9
	lsr.w	r5, r8, #3
	orr.w	r5, r5, r4, lsl #29
	subs	r2, r2, r5
	sbcs.w	r2, r3, r4, lsr #3
	blo	.LBB23_12
	add.w	r0, r0, r8, lsl #1
	ldrb	r2, [r0, #-16]
	lsls	r2, r2, #31
	beq	.LBB23_12
	ldrd	r2, r3, [r0, #-8]
	bic	r2, r2, #7
	and	r3, r3, #15
	eor.w	r3, r3, r11
	eor.w	r2, r2, r12
	orrs	r2, r3
	bne	.LBB23_12
	movs	r2, #0
	strd	r2, r2, [r0, #-8]
	b	.LBB23_11
	.p2align	2
.LBB23_9:
	eor.w	r0, r10, r12
	eor.w	r2, r7, r11
	orrs	r0, r2
	bne	.LBB23_12
	mov.w	r10, #0
	movs	r7, #0
.LBB23_11:
	movs	r0, #0
	ldr	r2, [sp]
	strd	r0, r0, [r1, #-16]
	sub.w	r1, r9, #1
	str.w	r4, [lr, #4]
	str.w	r8, [lr]
	str.w	r7, [lr, #12]
	str.w	r10, [lr, #8]
	str	r1, [r2]
	add	sp, #4
	pop.w	{r4, r5, r6, r7, r8, r9, r10, r11, pc}
	.p2align	2
.LBB23_12:
	mov	r0, lr
	movs	r1, #0
	add	sp, #4
	pop.w	{r4, r5, r6, r7, r8, r9, r10, r11, lr}
	b	ic_raw.list_calls.refusal_to_pop
.Lfunc_end23:
	.size	ic_raw.list_calls.pop_front_slow.5386baa488213e47, .Lfunc_end23-ic_raw.list_calls.pop_front_slow.5386baa488213e47
	.cfi_endproc
	.section	.text.unlikely.ic_raw.list_calls.push_back_slow.5386baa488213e47,"ax",%progbits
	.p2align	2
	.type	ic_raw.list_calls.push_back_slow.5386baa488213e47,%function
	.code	16
	.thumb_func
ic_raw.list_calls.push_back_slow.5386baa488213e47:
	.cfi_startproc
	push.w	{r4, r5, r6, r7, r8, r9, r10, r11, lr}
	.cfi_def_cfa_offset 36
	.cfi_offset lr, -4
	.cfi_offset r11, -8
	.cfi_offset r10, -12
	.cfi_offset r9, -16
	.cfi_offset r8, -20
	.cfi_offset r7, -24
	.cfi_offset r6, -28
	.cfi_offset r5, -32
	.cfi_offset r4, -36
	ldrd	r1, r11, [sp, #36]
	ldrd	r5, r6, [r1, #8]
	ldrd	r4, r7, [r1]
	and	r12, r6, #15
	bic	lr, r5, #7
	and	r8, r7, #15
	orrs.w	r10, lr, r12
	bic	r9, r4, #7
	beq	.LBB24_3
	lsr.w	r4, lr, #3
	orr.w	r4, r4, r12, lsl #29
	subs	r4, r2, r4
	sbcs.w	r4, r3, r12, lsr #3
	blo	.LBB24_10
	add.w	r4, r0, lr, lsl #1
	ldrd	r4, r5, [r4, #-16]
	bic	r4, r4, #6
	and	r5, r5, #15
	eor	r4, r4, #1
	orrs	r4, r5
	beq	.LBB24_4
	b	.LBB24_10
	.p2align	2
.LBB24_3:
	orrs.w	r4, r9, r8
	bne	.LBB24_10
.LBB24_4:
	adds.w	r7, r11, #1
	beq	.LBB24_10
	subs	r4, r2, r7
	sbcs	r4, r3, #0
	blo	.LBB24_10
	lsls	r4, r7, #3
	add.w	r5, r0, r4, lsl #1
	ldrb	r6, [r5, #-16]
	lsls	r6, r6, #31
	bne	.LBB24_10
	clz	r3, r10
	lsrs	r2, r7, #29
	lsrs	r3, r3, #5
	mov	r3, r4
	mov	r6, r2
	bne	.LBB24_9
	add.w	r0, r0, lr, lsl #1
	orr	r3, r4, #1
	strd	r3, r2, [r0, #-16]
	mov	r3, r9
	mov	r6, r8
.LBB24_9:
	movs	r0, #0
	movs	r7, #1
	strd	r7, r0, [r5, #-16]
	strd	lr, r12, [r5, #-8]
	str	r3, [r1]
	str	r6, [r1, #4]
	str	r4, [r1, #8]
	str	r2, [r1, #12]
	pop.w	{r4, r5, r6, r7, r8, r9, r10, r11, pc}
	.p2align	2
.LBB24_10:
	mov.w	r1, #-1
	str.w	r11, [sp, #40]
	str	r1, [sp, #36]
	pop.w	{r4, r5, r6, r7, r8, r9, r10, r11, lr}
	b	ic_raw.table.RawTable.refusal.85cd03e557136797
.Lfunc_end24:
	.size	ic_raw.list_calls.push_back_slow.5386baa488213e47, .Lfunc_end24-ic_raw.list_calls.push_back_slow.5386baa488213e47
	.cfi_endproc
	.section	.text.unlikely.ic_raw.list_calls.remove_slow.5386baa488213e47,"ax",%progbits
	.p2align	2
	.type	ic_raw.list_calls.remove_slow.5386baa488213e47,%function
	.code	16
	.thumb_func
ic_raw.list_calls.remove_slow.5386baa488213e47:
	.cfi_startproc
	push.w	{r4, r5, r6, r7, r8, r9, r10, r11, lr}
	.cfi_def_cfa_offset 36
	.cfi_offset lr, -4
	.cfi_offset r11, -8
	.cfi_offset r10, -12
	.cfi_offset r9, -16
	.cfi_offset r8, -20
	.cfi_offset r7, -24
	.cfi_offset r6, -28
	.cfi_offset r5, -32
	.cfi_offset r4, -36
	sub	sp, #32
	.cfi_def_cfa_offset 68
	ldr	r1, [sp, #72]
	adds	r6, r1, #1
	blo	.LBB25_2
	movs	r0, #4
	add	sp, #32
	pop.w	{r4, r5, r6, r7, r8, r9, r10, r11, pc}
	.p2align	2
.LBB25_2:
	str	r1, [sp, #4]
	subs	r1, r2, r6
	sbcs	r1, r3, #0
	blo.w	.LBB25_16
	lsls	r1, r6, #3
	add.w	r12, r0, r1, lsl #1
	ldr	r8, [r12, #-16]
	str	r1, [sp, #28]
	lsls.w	r1, r8, #31
	beq.w	.LBB25_16
	ldr.w	r10, [sp, #68]
	lsr.w	lr, r6, #29
	ldrd	r11, r6, [r10]
	ldrd	r1, r4, [r10, #8]
	and	r5, r6, #15
	ldrd	r6, r7, [r12, #-8]
	str	r4, [sp, #20]
	ldr	r9, [r12, #-12]
	and	r4, r7, #15
	bic	r6, r6, #7
	orrs.w	r7, r6, r4
	bic	r11, r11, #7
	str	r7, [sp, #12]
	str	r4, [sp, #16]
	str	r5, [sp, #8]
	str.w	lr, [sp, #24]
	beq	.LBB25_7
	lsrs	r7, r6, #3
	orr.w	r7, r7, r4, lsl #29
	subs	r7, r2, r7
	sbcs.w	r7, r3, r4, lsr #3
	blo	.LBB25_16
	add.w	r7, r0, r6, lsl #1
	mov	lr, r11
	mov	r11, r6
	ldrd	r7, r6, [r7, #-16]
	ldr	r4, [sp, #28]
	mov	r5, r1
	ldr	r1, [sp, #24]
	bic	r7, r7, #6
	and	r6, r6, #15
	orr	r4, r4, #1
	eors	r6, r1
	eors	r4, r7
	orrs	r4, r6
	mov	r6, r11
	mov	r11, lr
	mov	r1, r5
	beq	.LBB25_8
	b	.LBB25_16
	.p2align	2
.LBB25_7:
	ldr	r7, [sp, #28]
	eor.w	r4, r11, r7
	mov	r7, r6
	eor.w	r6, r5, lr
	orrs	r4, r6
	mov	r6, r7
	bne	.LBB25_16
.LBB25_8:
	ldr	r7, [sp, #20]
	bic	lr, r8, #7
	and	r5, r7, #15
	bic	r7, r1, #7
	and	r8, r9, #15
	orrs.w	r1, lr, r8
	mov	r9, r7
	str	r1, [sp, #20]
	str	r5, [sp]
	beq	.LBB25_12
	lsr.w	r4, lr, #3
	orr.w	r4, r4, r8, lsl #29
	subs	r4, r2, r4
	sbcs.w	r4, r3, r8, lsr #3
	blo	.LBB25_16
	add.w	r5, r0, lr, lsl #1
	ldrb	r4, [r5, #-16]
	lsls	r4, r4, #31
	beq	.LBB25_16
	ldrd	r4, r5, [r5, #-8]
	and	r5, r5, #15
	bic	r9, r4, #7
.LBB25_12:
	ldr	r4, [sp, #28]
	ldr	r1, [sp, #24]
	eor.w	r4, r4, r9
	eors	r5, r1
	orrs	r4, r5
	bne	.LBB25_16
	ldr	r1, [sp, #12]
	clz	r2, r1
	ldr	r1, [sp, #20]
	lsrs	r2, r2, #5
	clz	r2, r1
	lsr.w	r2, r2, #5
	bne	.LBB25_17
	add.w	r3, r0, r6, lsl #1
	orr	r4, lr, #1
	strd	r4, r8, [r3, #-16]
	ldr.w	r8, [sp, #8]
	cmp	r2, #0
	ldr	r2, [sp, #16]
	bne	.LBB25_18
.LBB25_15:
	add.w	r0, r0, lr, lsl #1
	strd	r6, r2, [r0, #-8]
	ldr	r2, [sp]
	b	.LBB25_19
	.p2align	2
.LBB25_16:
	ldr	r1, [sp, #4]
	str	r1, [sp, #68]
	add	sp, #32
	pop.w	{r4, r5, r6, r7, r8, r9, r10, r11, lr}
	b	ic_raw.table.RawTable.refusal_at.85cd03e557136797
	.p2align	2
.LBB25_17:
	mov	r11, lr
	cmp	r2, #0
	ldr	r2, [sp, #16]
	beq	.LBB25_15
.LBB25_18:
	mov	r7, r6
.LBB25_19:
	movs	r0, #0
	strd	r0, r0, [r12, #-16]
	str.w	r8, [r10, #4]
	str.w	r11, [r10]
	str.w	r2, [r10, #12]
	str.w	r7, [r10, #8]
	add	sp, #32
	pop.w	{r4, r5, r6, r7, r8, r9, r10, r11, pc}
.Lfunc_end25:
	.size	ic_raw.list_calls.remove_slow.5386baa488213e47, .Lfunc_end25-ic_raw.list_calls.remove_slow.5386baa488213e47
	.cfi_endproc
	.section	.text.ic_list_algorithms.sort.sort_front.6bd71b5c7308988e,"ax",%progbits
	.p2align	2
	.type	ic_list_algorithms.sort.sort_front.6bd71b5c7308988e,%function
	.code	16
	.thumb_func
ic_list_algorithms.sort.sort_front.6bd71b5c7308988e:
	.cfi_startproc
	push.w	{r4, r5, r6, r7, r8, r9, r10, r11, lr}
	.cfi_def_cfa_offset 36
	.cfi_offset lr, -4
	.cfi_offset r11, -8
	.cfi_offset r10, -12
	.cfi_offset r9, -16
	.cfi_offset r8, -20
	.cfi_offset r7, -24
	.cfi_offset r6, -28
	.cfi_offset r5, -32
	.cfi_offset r4, -36
	sub	sp, #68
	.cfi_def_cfa_offset 104
	add	r7, sp, #104
	mov	r12, r2
	ldm	r7, {r2, r3, r6, r7}
	orrs.w	r5, r6, r7
	mov	r4, r0
	beq	.LBB26_4
	eor	r0, r6, #1
	orrs	r0, r7
	bne	.LBB26_5
	ldr	r0, [r1]
	mov.w	lr, #1
	add.w	r0, r0, r2, lsl #1
	ldrd	r6, r7, [r0, #-16]
	mov.w	r8, #0
	and	r7, r7, #15
	bic	r6, r6, #7
	orrs.w	r5, r6, r7
	strd	lr, r8, [r0, #-16]
	beq.w	.LBB26_8
	ldr	r0, [r1]
	add.w	r0, r0, r6, lsl #1
	ldrd	r9, r5, [r0, #-16]
	and	r10, r5, #15
	bic	r9, r9, #7
	orrs.w	r5, r9, r10
	it	ne
	movne	r5, #1
	strd	lr, r8, [r0, #-16]
	mov	r0, r1
	mov	r1, r12
	strd	r6, r7, [sp]
	bl	ic_list_algorithms.merge.merge_runs.6bd71b5c7308988e
	str	r1, [r4, #4]
	str	r0, [r4]
	str.w	r8, [r4, #12]
	str	r5, [r4, #8]
	str.w	r10, [r4, #20]
	str.w	r9, [r4, #16]
	add	sp, #68
	pop.w	{r4, r5, r6, r7, r8, r9, r10, r11, pc}
	.p2align	2
.LBB26_4:
	ldr	r0, [r1]
	mov.w	r12, #1
	add.w	r0, r0, r2, lsl #1
	ldrd	r1, r7, [r0, #-16]
	movs	r5, #0
	and	r7, r7, #15
	bic	r1, r1, #7
	orrs.w	r6, r1, r7
	it	ne
	movne	r6, #1
	strd	r12, r5, [r0, #-16]
	str	r3, [r4, #4]
	str	r2, [r4]
	str	r5, [r4, #12]
	str	r6, [r4, #8]
	str	r7, [r4, #20]
	str	r1, [r4, #16]
	add	sp, #68
	pop.w	{r4, r5, r6, r7, r8, r9, r10, r11, pc}
	.p2align	2
.LBB26_5:
	subs	r5, r6, #1
	sbc	r7, r7, #0
	stm.w	sp, {r2, r3, r5}
	add	r0, sp, #40
	mov	r2, r12
	mov	r10, r1
	mov	r9, r12
	str	r7, [sp, #12]
	bl	ic_list_algorithms.sort.sort_front.6bd71b5c7308988e
	ldrb.w	r0, [sp, #48]
	ldr.w	r8, [sp, #40]
	ldr	r6, [sp, #44]
	cmp	r0, #1
	bne	.LBB26_7
	ldrd	r0, r3, [sp, #56]
	mov	r1, r10
	str	r0, [sp]
	add	r0, sp, #16
	mov	r2, r9
	strd	r5, r7, [sp, #8]
	mov	r7, r10
	mov	r5, r9
	str	r3, [sp, #4]
	bl	ic_list_algorithms.sort.sort_front.6bd71b5c7308988e
	ldrd	r12, lr, [sp, #16]
	ldrb.w	r9, [sp, #24]
	ldrd	r10, r11, [sp, #32]
	mov	r0, r7
	mov	r1, r5
	mov	r2, r8
	mov	r3, r6
	strd	r12, lr, [sp]
	bl	ic_list_algorithms.merge.merge_runs.6bd71b5c7308988e
	str	r0, [r4]
	movs	r0, #0
	str	r1, [r4, #4]
	str	r0, [r4, #12]
	str.w	r9, [r4, #8]
	str.w	r11, [r4, #20]
	str.w	r10, [r4, #16]
	add	sp, #68
	pop.w	{r4, r5, r6, r7, r8, r9, r10, r11, pc}
	.p2align	2
.LBB26_7:
	movs	r0, #0
	str.w	r8, [r4]
	str	r6, [r4, #4]
	str	r0, [r4, #8]
	str	r0, [r4, #12]
	str	r0, [r4, #16]
	str	r0, [r4, #20]
	add	sp, #68
	pop.w	{r4, r5, r6, r7, r8, r9, r10, r11, pc}
	.p2align	2
.LBB26_8:
	str	r2, [r4]
	str	r3, [r4, #4]
	str.w	r8, [r4, #8]
	str.w	r8, [r4, #12]
	str.w	r8, [r4, #16]
	str.w	r8, [r4, #20]
	add	sp, #68
	pop.w	{r4, r5, r6, r7, r8, r9, r10, r11, pc}
.Lfunc_end26:
	.size	ic_list_algorithms.sort.sort_front.6bd71b5c7308988e, .Lfunc_end26-ic_list_algorithms.sort.sort_front.6bd71b5c7308988e
	.cfi_endproc
	.section	.text.unlikely.ic_raw.list_calls.split_slow.5386baa488213e47,"ax",%progbits
	.p2align	2
	.type	ic_raw.list_calls.split_slow.5386baa488213e47,%function
	.code	16
	.thumb_func
ic_raw.list_calls.split_slow.5386baa488213e47:
	.cfi_startproc
	push.w	{r4, r5, r6, r7, r8, r9, r10, r11, lr}
	.cfi_def_cfa_offset 36
	.cfi_offset lr, -4
	.cfi_offset r11, -8
	.cfi_offset r10, -12
	.cfi_offset r9, -16
	.cfi_offset r8, -20
	.cfi_offset r7, -24
	.cfi_offset r6, -28
	.cfi_offset r5, -32
	.cfi_offset r4, -36
	sub	sp, #24
	.cfi_def_cfa_offset 60
	str	r3, [sp, #20]
	ldr.w	r12, [sp, #68]
	ldr	r7, [sp, #64]
	ldrd	r1, r3, [r12]
	str	r7, [sp, #4]
	and	r3, r3, #15
	bic	r1, r1, #7
	orrs	r1, r3
	itttt	eq
	ldrdeq	r1, r3, [r12, #8]
	andeq	r3, r3, #15
	biceq	r1, r1, #7
	orrseq.w	r1, r1, r3
	beq	.LBB27_2
.LBB27_1:
	ldr	r1, [sp, #4]
	ldr	r3, [sp, #20]
	str	r1, [sp, #60]
	add	sp, #24
	pop.w	{r4, r5, r6, r7, r8, r9, r10, r11, lr}
	b	ic_raw.table.RawTable.refusal_at.85cd03e557136797
	.p2align	2
.LBB27_2:
	ldr	r1, [sp, #60]
	ldr	r4, [sp, #72]
	ldrd	r3, r7, [r1]
	ldrd	r6, r5, [r1, #8]
	bic	r10, r3, #7
	ldr	r3, [sp, #4]
	and	r9, r5, #15
	adds	r5, r3, #1
	and	lr, r7, #15
	bic	r7, r6, #7
	lsr.w	r6, r5, #29
	lsl.w	r8, r5, #3
	mov	r11, r5
	it	ne
	movne.w	r11, #1
	str	r4, [sp]
	str.w	r9, [sp, #16]
	strd	lr, r7, [sp, #8]
	beq	.LBB27_7
	subs	r3, r2, r5
	ldr	r3, [sp, #20]
	sbcs	r3, r3, #0
	blo	.LBB27_1
	add.w	r7, r0, r8, lsl #1
	ldr	r3, [r7, #-16]
	lsls	r4, r3, #31
	beq	.LBB27_1
	ldr	r4, [sp]
	lsls	r4, r4, #31
	beq	.LBB27_11
	ldrd	r3, r7, [r7, #-8]
	and	r9, r7, #15
	bic	r7, r3, #7
	b	.LBB27_8
	.p2align	2
.LBB27_7:
	lsls	r3, r4, #31
	mov	r4, r10
	beq	.LBB27_12
.LBB27_8:
	orrs.w	r3, r7, r9
	beq	.LBB27_22
	lsrs	r3, r7, #3
	orr.w	r3, r3, r9, lsl #29
	subs	r3, r2, r3
	ldr	r3, [sp, #20]
	sbcs.w	r3, r3, r9, lsr #3
	blo	.LBB27_1
	add.w	r3, r0, r7, lsl #1
	ldrd	r3, r5, [r3, #-16]
	orr	r4, r8, #1
	bic	r3, r3, #6
	and	r5, r5, #15
	eors	r5, r6
	eors	r3, r4
	orrs	r3, r5
	beq	.LBB27_19
	b	.LBB27_1
	.p2align	2
.LBB27_11:
	ldr	r7, [r7, #-12]
	bic	r4, r3, #7
	and	lr, r7, #15
.LBB27_12:
	orrs.w	r11, r4, lr
	it	ne
	movne.w	r11, #1
	ldrd	r3, r7, [sp, #12]
	beq	.LBB27_16
	lsrs	r3, r4, #3
	orr.w	r3, r3, lr, lsl #29
	subs	r3, r2, r3
	ldr	r3, [sp, #20]
	sbcs.w	r3, r3, lr, lsr #3
	blo	.LBB27_1
	add.w	r3, r0, r4, lsl #1
	ldrb	r7, [r3, #-16]
	lsls	r7, r7, #31
	beq.w	.LBB27_1
	ldrd	r3, r7, [r3, #-8]
	and	r7, r7, #15
	bic	r3, r3, #7
.LBB27_16:
	eor.w	r3, r3, r8
	eors	r7, r6
	orrs	r3, r7
	bne.w	.LBB27_1
	cbz	r5, .LBB27_24
	mov	r7, r8
	mov	r9, r6
	mov	r8, r4
	mov	r6, lr
.LBB27_19:
	add.w	r2, r0, r7, lsl #1
	movs	r3, #0
	movs	r5, #1
	strd	r5, r3, [r2, #-16]
	mov	r4, r8
	mov	lr, r6
	cmp.w	r11, #0
	mov.w	r2, #0
	beq	.LBB27_26
.LBB27_20:
	add.w	r0, r0, r4, lsl #1
	strd	r2, r2, [r0, #-8]
	ldr	r0, [sp]
	lsls	r0, r0, #31
	beq	.LBB27_27
.LBB27_21:
	mov	r2, lr
	ldr	r6, [sp, #16]
	ldrd	lr, r5, [sp, #8]
	mov	r0, r4
	b	.LBB27_28
	.p2align	2
.LBB27_22:
	ldr	r7, [sp, #8]
	eor.w	r3, r10, r8
	eors	r7, r6
	orrs	r3, r7
	bne.w	.LBB27_1
	ldr.w	lr, [sp, #8]
	movs	r7, #0
	mov.w	r9, #0
	mov	r4, r10
	b	.LBB27_25
	.p2align	2
.LBB27_24:
	movs	r7, #0
	mov.w	r9, #0
.LBB27_25:
	mov.w	r10, #0
	movs	r2, #0
	str	r2, [sp, #8]
	cmp.w	r11, #0
	mov.w	r2, #0
	bne	.LBB27_20
.LBB27_26:
	movs	r0, #0
	movs	r4, #0
	mov.w	lr, #0
	strd	r0, r0, [sp, #12]
	ldr	r0, [sp]
	lsls	r0, r0, #31
	bne	.LBB27_21
.LBB27_27:
	ldr	r2, [sp, #8]
	mov	r5, r7
	mov	r6, r9
	ldrd	r7, r9, [sp, #12]
	mov	r0, r10
	mov	r10, r4
.LBB27_28:
	str	r0, [r1]
	str	r2, [r1, #4]
	str	r5, [r1, #8]
	str	r6, [r1, #12]
	str.w	r10, [r12]
	str.w	lr, [r12, #4]
	str.w	r7, [r12, #8]
	movs	r0, #0
	str.w	r9, [r12, #12]
	add	sp, #24
	pop.w	{r4, r5, r6, r7, r8, r9, r10, r11, pc}
.Lfunc_end27:
	.size	ic_raw.list_calls.split_slow.5386baa488213e47, .Lfunc_end27-ic_raw.list_calls.split_slow.5386baa488213e47
	.cfi_endproc
	.section	.text.ic_raw_lists.transfer_calls.transfer_at.5386baa488213e47,"ax",%progbits
	.p2align	2
	.type	ic_raw_lists.transfer_calls.transfer_at.5386baa488213e47,%function
	.code	16
	.thumb_func
ic_raw_lists.transfer_calls.transfer_at.5386baa488213e47:
	.cfi_startproc
	push.w	{r4, r5, r6, r7, r8, r9, r10, r11, lr}
	.cfi_def_cfa_offset 36
	.cfi_offset lr, -4
	.cfi_offset r11, -8
	.cfi_offset r10, -12
	.cfi_offset r9, -16
	.cfi_offset r8, -20
	.cfi_offset r7, -24
	.cfi_offset r6, -28
	.cfi_offset r5, -32
	.cfi_offset r4, -36
	sub	sp, #84
	.cfi_def_cfa_offset 120
	ldr	r1, [sp, #136]
	str	r0, [sp, #80]
	adds.w	r8, r1, #1
	blo	.LBB28_2
	movs	r0, #4
	add	sp, #84
	pop.w	{r4, r5, r6, r7, r8, r9, r10, r11, pc}
	.p2align	2
.LBB28_2:
	str	r1, [sp, #24]
	ldrd	r4, r12, [sp, #120]
	ldrd	r7, r0, [sp, #128]
	ldrd	r1, r6, [r4]
	str	r4, [sp, #12]
	bic	r9, r1, #7
	ldr	r1, [r0]
	ldr.w	r11, [r0, #8]
	str	r1, [sp, #40]
	ldr	r1, [r0, #4]
	and	lr, r6, #15
	str	r1, [sp, #56]
	str	r0, [sp, #16]
	ldr	r0, [r0, #12]
	adds	r6, r7, #1
	str	r0, [sp, #36]
	lsr.w	r0, r6, #29
	ldr	r5, [r4, #8]
	ldr	r4, [r4, #12]
	str	r7, [sp, #20]
	str	r0, [sp, #76]
	mov	r0, r6
	it	ne
	movne	r0, #1
	and	r4, r4, #15
	bic	r5, r5, #7
	str	r0, [sp, #68]
	lsl.w	r0, r6, #3
	str	r0, [sp, #72]
	strd	r4, r5, [sp, #28]
	strd	r9, lr, [sp, #60]
	beq	.LBB28_7
	subs	r1, r2, r6
	sbcs	r1, r3, #0
	blo.w	.LBB28_45
	ldr	r0, [sp, #80]
	ldr	r1, [sp, #72]
	add.w	r6, r0, r1, lsl #1
	ldr	r1, [r6, #-16]
	lsls	r5, r1, #31
	beq.w	.LBB28_45
	lsls.w	r7, r12, #31
	beq	.LBB28_12
	ldrd	r1, r7, [r6, #-8]
	ldrd	r9, lr, [sp, #60]
	and	r0, r7, #15
	bic	r6, r1, #7
	b	.LBB28_8
	.p2align	2
.LBB28_7:
	lsls.w	r1, r12, #31
	mov	r1, r9
	mov	r7, lr
	mov	r6, r5
	mov	r0, r4
	beq	.LBB28_13
.LBB28_8:
	orrs.w	r1, r6, r0
	beq.w	.LBB28_43
	lsrs	r1, r6, #3
	orr.w	r1, r1, r0, lsl #29
	subs	r1, r2, r1
	sbcs.w	r1, r3, r0, lsr #3
	blo.w	.LBB28_45
	ldr	r1, [sp, #80]
	ldr	r7, [sp, #72]
	add.w	r1, r1, r6, lsl #1
	ldrd	r1, r5, [r1, #-16]
	orr	r4, r7, #1
	ldr	r7, [sp, #76]
	bic	r1, r1, #6
	and	r5, r5, #15
	eors	r5, r7
	eors	r1, r4
	orrs	r1, r5
	bne.w	.LBB28_45
	movs	r1, #1
	str	r1, [sp, #52]
	ldr	r1, [sp, #72]
	str	r1, [sp, #48]
	ldr	r1, [sp, #76]
	str	r1, [sp, #44]
	strd	r6, r0, [sp, #72]
	subs.w	r1, r2, r8
	sbcs	r1, r3, #0
	bhs	.LBB28_19
	b	.LBB28_45
	.p2align	2
.LBB28_12:
	ldr	r7, [r6, #-12]
	ldrd	r4, r5, [sp, #28]
	bic	r1, r1, #7
	and	r7, r7, #15
.LBB28_13:
	orrs.w	r6, r1, r7
	it	ne
	movne	r6, #1
	beq	.LBB28_17
	mov	lr, r1
	lsrs	r1, r1, #3
	orr.w	r1, r1, r7, lsl #29
	subs	r1, r2, r1
	sbcs.w	r1, r3, r7, lsr #3
	blo.w	.LBB28_45
	ldr	r0, [sp, #80]
	mov	r12, r7
	add.w	r1, r0, lr, lsl #1
	ldrb	r7, [r1, #-16]
	lsls	r7, r7, #31
	beq.w	.LBB28_45
	ldrd	r1, r7, [r1, #-8]
	and	r4, r7, #15
	bic	r5, r1, #7
	mov	r1, lr
	mov	r7, r12
.LBB28_17:
	strd	r7, r1, [sp, #44]
	ldr	r0, [sp, #72]
	eor.w	r1, r5, r0
	ldr	r0, [sp, #76]
	eor.w	r7, r4, r0
	ldr	r0, [sp, #68]
	orrs	r1, r7
	str	r0, [sp, #52]
	str	r6, [sp, #68]
	bne.w	.LBB28_45
	subs.w	r1, r2, r8
	sbcs	r1, r3, #0
	blo.w	.LBB28_45
.LBB28_19:
	ldr	r0, [sp, #80]
	lsl.w	lr, r8, #3
	add.w	r9, r0, lr, lsl #1
	ldr	r7, [r9, #-16]
	lsls	r1, r7, #31
	beq.w	.LBB28_45
	ldrd	r1, r5, [r9, #-8]
	ldr	r0, [sp, #56]
	lsr.w	r4, r8, #29
	and	r8, r5, #15
	bic	r12, r1, #7
	and	r10, r0, #15
	orrs.w	r0, r12, r8
	str	r0, [sp, #8]
	ldr	r0, [sp, #40]
	ldr	r6, [r9, #-12]
	bic	r5, r0, #7
	str	r5, [sp, #40]
	str.w	r10, [sp, #56]
	beq	.LBB28_23
	lsr.w	r1, r12, #3
	orr.w	r1, r1, r8, lsl #29
	subs	r1, r2, r1
	sbcs.w	r1, r3, r8, lsr #3
	blo.w	.LBB28_45
	ldr	r0, [sp, #80]
	orr	r5, lr, #1
	add.w	r1, r0, r12, lsl #1
	ldrd	r1, r0, [r1, #-16]
	bic	r1, r1, #6
	and	r0, r0, #15
	eors	r0, r4
	eors	r1, r5
	ldr	r5, [sp, #40]
	orrs	r0, r1
	beq	.LBB28_24
	b	.LBB28_45
	.p2align	2
.LBB28_23:
	eor.w	r0, r5, lr
	eor.w	r1, r10, r4
	orrs	r0, r1
	bne.w	.LBB28_45
.LBB28_24:
	ldr	r0, [sp, #36]
	bic	r7, r7, #7
	and	r10, r6, #15
	and	r0, r0, #15
	bic	r1, r11, #7
	orrs.w	r6, r7, r10
	str	r1, [sp, #36]
	strd	r0, r6, [sp]
	mov	r6, r0
	beq	.LBB28_28
	lsrs	r0, r7, #3
	orr.w	r0, r0, r10, lsl #29
	subs	r0, r2, r0
	sbcs.w	r0, r3, r10, lsr #3
	blo.w	.LBB28_45
	ldr	r0, [sp, #80]
	add.w	r1, r0, r7, lsl #1
	ldrb	r0, [r1, #-16]
	lsls	r0, r0, #31
	beq.w	.LBB28_45
	ldrd	r0, r1, [r1, #-8]
	and	r6, r1, #15
	bic	r1, r0, #7
.LBB28_28:
	eor.w	r0, r1, lr
	eor.w	r1, r6, r4
	orrs	r0, r1
	bne.w	.LBB28_45
	ldr	r0, [sp, #56]
	orrs	r0, r5
	beq	.LBB28_31
	ldr	r0, [sp, #60]
	ldr	r1, [sp, #64]
	eors	r0, r5
	ldr	r5, [sp, #56]
	eors	r1, r5
	orrs	r0, r1
	beq.w	.LBB28_45
.LBB28_31:
	ldr	r1, [sp, #52]
	ldr	r0, [sp, #72]
	mov	r11, r1
	cmp	r1, #0
	it	ne
	movne	r11, r0
	ldr	r0, [sp, #76]
	it	eq
	moveq	r0, r1
	str	r0, [sp, #76]
	eors	r0, r4
	eor.w	r1, r11, lr
	orrs	r0, r1
	beq.w	.LBB28_45
	ldr	r0, [sp, #68]
	ldr	r1, [sp, #48]
	cmp	r0, #0
	mov	r0, lr
	it	ne
	eorne	r0, r1
	mov	r1, r4
	ldr	r5, [sp, #44]
	it	ne
	eorne	r1, r5
	orrs	r0, r1
	beq	.LBB28_45
	ldr	r0, [sp, #8]
	clz	r0, r0
	lsrs	r0, r0, #5
	ldr	r0, [sp, #4]
	clz	r0, r0
	lsr.w	r2, r0, #5
	bne	.LBB28_36
	ldr	r0, [sp, #80]
	orr	r1, r7, #1
	add.w	r0, r0, r12, lsl #1
	strd	r1, r10, [r0, #-16]
	ldr.w	r10, [sp, #56]
	ldrd	r6, r5, [sp, #12]
	cbnz	r2, .LBB28_37
.LBB28_35:
	ldr	r0, [sp, #80]
	add.w	r0, r0, r7, lsl #1
	strd	r12, r8, [r0, #-8]
	ldr.w	r8, [sp]
	b	.LBB28_38
	.p2align	2
.LBB28_36:
	str	r7, [sp, #40]
	ldrd	r6, r5, [sp, #12]
	cmp	r2, #0
	beq	.LBB28_35
.LBB28_37:
	str.w	r12, [sp, #36]
.LBB28_38:
	ldr	r0, [sp, #52]
	ldrd	r12, r7, [sp, #44]
	mov	r2, lr
	mov	r3, r4
	cbz	r0, .LBB28_40
	ldr	r0, [sp, #80]
	ldr	r1, [sp, #72]
	ldrd	r2, r3, [sp, #60]
	add.w	r0, r0, r1, lsl #1
	orr	r1, lr, #1
	strd	r1, r4, [r0, #-16]
.LBB28_40:
	ldr	r0, [sp, #68]
	cbz	r0, .LBB28_42
	ldr	r0, [sp, #80]
	add.w	r0, r0, r7, lsl #1
	strd	lr, r4, [r0, #-8]
	ldrd	r4, lr, [sp, #28]
.LBB28_42:
	adds	r0, r7, #1
	ldr	r7, [sp, #68]
	adc	r1, r12, #0
	cmp	r7, #0
	itt	eq
	moveq	r1, r7
	moveq	r0, #1
	sub.w	r12, r9, #16
	stm.w	r12, {r0, r1, r11}
	ldr	r0, [sp, #76]
	str	r0, [r9, #-4]
	ldr	r0, [sp, #40]
	str	r3, [r6, #4]
	str	r2, [r6]
	str	r4, [r6, #12]
	str.w	lr, [r6, #8]
	str	r0, [r5]
	ldr	r0, [sp, #36]
	str.w	r10, [r5, #4]
	str	r0, [r5, #8]
	str.w	r8, [r5, #12]
	movs	r0, #0
	add	sp, #84
	pop.w	{r4, r5, r6, r7, r8, r9, r10, r11, pc}
	.p2align	2
.LBB28_43:
	ldr	r0, [sp, #72]
	eor.w	r1, r9, r0
	ldr	r0, [sp, #76]
	eor.w	r7, lr, r0
	orrs	r1, r7
	bne	.LBB28_45
	movs	r0, #0
	str	r0, [sp, #72]
	ldr	r0, [sp, #60]
	str	r0, [sp, #48]
	ldr	r0, [sp, #64]
	str	r0, [sp, #44]
	movs	r0, #0
	str	r0, [sp, #76]
	str	r0, [sp, #52]
	subs.w	r1, r2, r8
	sbcs	r1, r3, #0
	bhs.w	.LBB28_19
.LBB28_45:
	ldr	r0, [sp, #24]
	str	r0, [sp, #124]
	ldr	r1, [sp, #20]
	ldr	r0, [sp, #80]
	str	r1, [sp, #120]
	add	sp, #84
	pop.w	{r4, r5, r6, r7, r8, r9, r10, r11, lr}
	b	ic_raw.table.RawTable.refusal_at_both.85cd03e557136797
.Lfunc_end28:
	.size	ic_raw_lists.transfer_calls.transfer_at.5386baa488213e47, .Lfunc_end28-ic_raw_lists.transfer_calls.transfer_at.5386baa488213e47
	.cfi_endproc
	.section	.text.unlikely.ic_raw.table.refusal_at_end.05a19227735374d3,"ax",%progbits
	.p2align	2
	.type	ic_raw.table.refusal_at_end.05a19227735374d3,%function
	.code	16
	.thumb_func
ic_raw.table.refusal_at_end.05a19227735374d3:
	.cfi_startproc
	push	{r7, lr}
	.cfi_def_cfa_offset 8
	.cfi_offset lr, -4
	.cfi_offset r7, -8
	sub	sp, #8
	.cfi_def_cfa_offset 16
	ldr.w	r12, [sp, #16]
	mov.w	r1, #-1
	strd	r1, r12, [sp]
	bl	ic_raw.table.RawTable.refusal.05a19227735374d3
	add	sp, #8
	pop	{r7, pc}
.Lfunc_end29:
	.size	ic_raw.table.refusal_at_end.05a19227735374d3, .Lfunc_end29-ic_raw.table.refusal_at_end.05a19227735374d3
	.cfi_endproc
	.section	.text.ic_raw.ring_calls.move_beside.5b268f449b4ebf83,"ax",%progbits
	.p2align	2
	.type	ic_raw.ring_calls.move_beside.5b268f449b4ebf83,%function
	.code	16
	.thumb_func
ic_raw.ring_calls.move_beside.5b268f449b4ebf83:
	.cfi_startproc
	push.w	{r4, r5, r6, r7, r8, r9, r10, r11, lr}
	.cfi_def_cfa_offset 36
	.cfi_offset lr, -4
	.cfi_offset r11, -8
	.cfi_offset r10, -12
	.cfi_offset r9, -16
	.cfi_offset r8, -20
	.cfi_offset r7, -24
	.cfi_offset r6, -28
	.cfi_offset r5, -32
	.cfi_offset r4, -36
	sub	sp, #20
	.cfi_def_cfa_offset 56
	ldr.w	r9, [sp, #60]
	adds.w	r8, r9, #1
	itt	lo
	ldrlo.w	lr, [sp, #64]
	addslo.w	r5, lr, #1
	blo	.LBB30_2
	movs	r0, #4
	add	sp, #20
	pop.w	{r4, r5, r6, r7, r8, r9, r10, r11, pc}
	.p2align	2
.LBB30_2:
	mvn	r7, #-536870912
	cmp	r2, r7
	mvn	r6, #-536870912
	it	lo
	movlo	r6, r2
	cmp	r3, #0
	it	ne
	movne	r6, r7
	movs	r7, #0
	subs	r4, r6, r5
	sbcs	r7, r7, #0
	blo.w	.LBB30_29
	lsl.w	r12, r5, #3
	add.w	r1, r0, r12
	ldr	r7, [r1, #-8]
	str	r1, [sp, #16]
	lsls	r4, r7, #31
	beq.w	.LBB30_29
	ldr	r1, [sp, #16]
	ldr	r4, [r1, #-4]
	bics	r1, r4, #7
	str	r1, [sp, #12]
	beq.w	.LBB30_29
	lsrs	r4, r4, #3
	subs	r4, r2, r4
	sbcs	r4, r3, #0
	blo.w	.LBB30_29
	ldr	r1, [sp, #12]
	add	r1, r0
	ldr	r4, [r1, #-8]
	str	r1, [sp]
	lsls	r1, r4, #31
	beq.w	.LBB30_29
	bic	r1, r4, #7
	lsr.w	r10, r5, #29
	eor.w	r1, r1, r12
	orrs.w	r1, r1, r10
	bne	.LBB30_29
	bics	r1, r7, #7
	str	r1, [sp, #8]
	beq	.LBB30_29
	lsrs	r1, r7, #3
	subs	r1, r2, r1
	sbcs	r1, r3, #0
	blo	.LBB30_29
	ldr	r1, [sp, #8]
	add	r1, r0
	str	r1, [sp, #4]
	ldrb	r1, [r1, #-8]
	lsls	r1, r1, #31
	beq	.LBB30_29
	ldr	r1, [sp, #4]
	ldr	r1, [r1, #-4]
	bic	r1, r1, #7
	eor.w	r1, r1, r12
	orrs.w	r1, r1, r10
	bne	.LBB30_29
	lsr.w	r1, r8, #29
	lsl.w	r11, r8, #3
	eor.w	r4, r11, r12
	eor.w	r5, r1, r10
	orrs	r4, r5
	beq	.LBB30_28
	cmp	r6, r8
	blo	.LBB30_29
	add.w	r5, r0, r11
	ldr	r7, [r5, #-8]
	lsls	r4, r7, #31
	beq	.LBB30_29
	ldr	r4, [sp, #56]
	lsls	r4, r4, #31
	beq	.LBB30_21
	ldr	r4, [r5, #-4]
	bics	r8, r4, #7
	beq	.LBB30_29
	lsrs	r4, r4, #3
	cmp	r4, r6
	bhi	.LBB30_29
	add.w	r4, r0, r8
	ldr	r4, [r4, #-8]
	lsls	r5, r4, #31
	beq	.LBB30_29
	bic	r4, r4, #7
	eor.w	r4, r4, r11
	orrs	r1, r4
	bne	.LBB30_29
	mov	r1, r8
	b	.LBB30_26
	.p2align	2
.LBB30_21:
	bics	r8, r7, #7
	beq	.LBB30_29
	lsrs	r4, r7, #3
	cmp	r4, r6
	bhi	.LBB30_29
	add.w	r5, r0, r8
	ldrb	r4, [r5, #-8]
	lsls	r4, r4, #31
	beq	.LBB30_29
	ldr	r4, [r5, #-4]
	bic	r4, r4, #7
	eor.w	r4, r4, r11
	orrs	r1, r4
	bne	.LBB30_29
	mov	r1, r11
	mov	r11, r8
.LBB30_26:
	eor.w	r2, r8, r12
	orrs.w	r2, r2, r10
	beq	.LBB30_28
	ldr	r2, [sp, #8]
	ldr	r3, [sp]
	orr	r2, r2, #1
	str	r2, [r3, #-8]
	ldr	r2, [sp, #12]
	ldr	r3, [sp, #4]
	str	r2, [r3, #-4]
	ldr	r3, [sp, #16]
	orr	r2, r11, #1
	strd	r2, r1, [r3, #-8]
	add	r1, r0
	orr	r2, r12, #1
	add	r0, r11
	str	r2, [r1, #-8]
	str	r12, [r0, #-4]
.LBB30_28:
	movs	r0, #0
	add	sp, #20
	pop.w	{r4, r5, r6, r7, r8, r9, r10, r11, pc}
	.p2align	2
.LBB30_29:
	strd	r9, lr, [sp, #56]
	add	sp, #20
	pop.w	{r4, r5, r6, r7, r8, r9, r10, r11, lr}
	b	ic_raw.table.RawTable.refusal_at_both.05a19227735374d3
.Lfunc_end30:
	.size	ic_raw.ring_calls.move_beside.5b268f449b4ebf83, .Lfunc_end30-ic_raw.ring_calls.move_beside.5b268f449b4ebf83
	.cfi_endproc
	.section	.text.ic_raw.ring_calls.pop.5b268f449b4ebf83,"ax",%progbits
	.p2align	2
	.type	ic_raw.ring_calls.pop.5b268f449b4ebf83,%function
	.code	16
	.thumb_func
ic_raw.ring_calls.pop.5b268f449b4ebf83:
	.cfi_startproc
	push.w	{r4, r5, r6, r7, r8, r9, lr}
	.cfi_def_cfa_offset 28
	.cfi_offset lr, -4
	.cfi_offset r9, -8
	.cfi_offset r8, -12
	.cfi_offset r7, -16
	.cfi_offset r6, -20
	.cfi_offset r5, -24
	.cfi_offset r4, -28
	sub	sp, #20
	.cfi_def_cfa_offset 48
	mov	r12, r3
	ldr	r3, [sp, #52]
	adds	r7, r3, #1
	blo	.LBB31_2
	movs	r0, #4
	add	sp, #20
	pop.w	{r4, r5, r6, r7, r8, r9, pc}
	.p2align	2
.LBB31_2:
	mov	r1, r2
	mvn	r5, #-536870912
	movs	r6, #0
	cmp	r1, r5
	mvn	r4, #-536870912
	str	r0, [sp]
	strd	r6, r1, [sp, #4]
	it	lo
	movlo	r4, r1
	cmp.w	r12, #0
	lsr.w	r3, r7, #29
	lsl.w	r2, r7, #3
	it	ne
	movne	r4, r5
	subs	r7, r4, r7
	sbcs	r7, r6, #0
	str.w	r12, [sp, #12]
	blo	.LBB31_24
	adds	r7, r0, r2
	ldr	r5, [r7, #-8]
	lsls	r6, r5, #31
	beq	.LBB31_24
	ldr	r6, [sp, #48]
	lsls	r6, r6, #31
	beq	.LBB31_9
	ldr	r5, [r7, #-4]
	bics	lr, r5, #7
	beq	.LBB31_24
	lsrs	r5, r5, #3
	cmp	r5, r4
	bhi	.LBB31_24
	add.w	r5, r0, lr
	ldr	r5, [r5, #-8]
	lsls	r6, r5, #31
	beq	.LBB31_24
	bic	r6, r5, #7
	eors	r6, r2
	orrs	r6, r3
	beq	.LBB31_13
	b	.LBB31_24
	.p2align	2
.LBB31_9:
	bics	lr, r5, #7
	beq	.LBB31_24
	lsrs	r5, r5, #3
	cmp	r5, r4
	bhi	.LBB31_24
	add.w	r6, r0, lr
	ldr	r5, [r6, #-8]
	lsls	r7, r5, #31
	beq	.LBB31_24
	ldr	r6, [r6, #-4]
	bic	r6, r6, #7
	eors	r6, r2
	orrs	r6, r3
	bne	.LBB31_24
.LBB31_13:
	eor.w	r6, lr, r2
	orrs	r6, r3
	beq	.LBB31_24
	cmp.w	r4, lr, lsr #3
	blo	.LBB31_24
	add.w	r8, r0, lr
	ldr	r4, [r8, #-4]
	bics	r9, r4, #7
	beq	.LBB31_24
	lsrs	r4, r4, #3
	subs	r4, r1, r4
	sbcs	r4, r12, #0
	blo	.LBB31_24
	add.w	r7, r0, r9
	ldr	r4, [r7, #-8]
	lsls	r6, r4, #31
	beq	.LBB31_24
	bic	r4, r4, #7
	teq.w	lr, r4
	bne	.LBB31_24
	bics	r4, r5, #7
	beq	.LBB31_24
	lsrs	r5, r5, #3
	subs	r1, r1, r5
	sbcs	r1, r12, #0
	blo	.LBB31_24
	add	r0, r4
	ldrb	r1, [r0, #-8]
	lsls	r1, r1, #31
	beq	.LBB31_24
	ldr	r1, [r0, #-4]
	bic	r1, r1, #7
	teq.w	lr, r1
	bne	.LBB31_24
	ldr	r1, [sp, #56]
	lsr.w	r2, lr, #3
	orr	r3, r4, #1
	str	r3, [r7, #-8]
	str	r9, [r0, #-4]
	movs	r0, #0
	subs	r2, #1
	str	r0, [r8, #-8]
	str	r2, [r1]
	add	sp, #20
	pop.w	{r4, r5, r6, r7, r8, r9, pc}
	.p2align	2
.LBB31_24:
	mov	r0, sp
	bl	ic_raw.ring_calls.refusal_to_pop.5b268f449b4ebf83
	add	sp, #20
	pop.w	{r4, r5, r6, r7, r8, r9, pc}
.Lfunc_end31:
	.size	ic_raw.ring_calls.pop.5b268f449b4ebf83, .Lfunc_end31-ic_raw.ring_calls.pop.5b268f449b4ebf83
	.cfi_endproc
	.section	.text.unlikely.ic_raw.ring_calls.refusal_to_pop.5b268f449b4ebf83,"ax",%progbits
	.p2align	2
	.type	ic_raw.ring_calls.refusal_to_pop.5b268f449b4ebf83,%function
	.code	16
	.thumb_func
ic_raw.ring_calls.refusal_to_pop.5b268f449b4ebf83:
	.cfi_startproc
	push	{r4, lr}
	.cfi_def_cfa_offset 8
	.cfi_offset lr, -4
	.cfi_offset r4, -8
	ldrd	lr, r12, [r0, #8]
	mvn	r4, #-536870912
	lsrs	r1, r2, #3
	cmp	lr, r4
	orr.w	r1, r1, r3, lsl #29
	it	hs
	movhs	lr, r4
	cmp.w	r12, #0
	it	ne
	movne	lr, r4
	subs.w	r1, lr, r1
	mov.w	r1, #0
	sbcs.w	r1, r1, r3, lsr #3
	blo	.LBB32_3
	ldr	r1, [r0]
	add.w	r12, r1, r2
	ldr	r1, [r12, #-8]
	lsls	r4, r1, #31
	beq	.LBB32_3
	bic	r1, r1, #7
	eors	r1, r2
	orrs	r1, r3
	itttt	eq
	ldreq	r1, [r12, #-4]
	biceq	r1, r1, #7
	eoreq	r1, r2
	orrseq.w	r1, r1, r3
	beq	.LBB32_4
.LBB32_3:
	pop.w	{r4, lr}
	b	ic_raw.table.RawTable.refusal_of.05a19227735374d3
	.p2align	2
.LBB32_4:
	movs	r0, #4
	pop	{r4, pc}
.Lfunc_end32:
	.size	ic_raw.ring_calls.refusal_to_pop.5b268f449b4ebf83, .Lfunc_end32-ic_raw.ring_calls.refusal_to_pop.5b268f449b4ebf83
	.cfi_endproc
	.section	.text.unlikely.ic_raw.table.RawTable.refusal_of.05a19227735374d3,"ax",%progbits
	.p2align	2
	.type	ic_raw.table.RawTable.refusal_of.05a19227735374d3,%function
	.code	16
	.thumb_func
ic_raw.table.RawTable.refusal_of.05a19227735374d3:
	.cfi_startproc
	push	{r4, lr}
	.cfi_def_cfa_offset 8
	.cfi_offset lr, -4
	.cfi_offset r4, -8
	ldrd	lr, r12, [r0, #8]
	mvn	r4, #-536870912
	lsrs	r1, r2, #3
	cmp	lr, r4
	orr.w	r1, r1, r3, lsl #29
	it	hs
	movhs	lr, r4
	cmp.w	r12, #0
	it	ne
	movne	lr, r4
	subs.w	r1, lr, r1
	mov.w	r1, #0
	sbcs.w	r1, r1, r3, lsr #3
	itt	lo
	movlo	r0, #1
	poplo	{r4, pc}
.LBB33_1:
	ldr	r0, [r0]
	add	r0, r2
	ldrb	r0, [r0, #-8]
	lsls	r0, r0, #31
	mov.w	r0, #5
	it	eq
	moveq	r0, #3
	pop	{r4, pc}
.Lfunc_end33:
	.size	ic_raw.table.RawTable.refusal_of.05a19227735374d3, .Lfunc_end33-ic_raw.table.RawTable.refusal_of.05a19227735374d3
	.cfi_endproc
	.section	.text.ic_raw.ring_calls.splice.5b268f449b4ebf83,"ax",%progbits
	.p2align	2
	.type	ic_raw.ring_calls.splice.5b268f449b4ebf83,%function
	.code	16
	.thumb_func
ic_raw.ring_calls.splice.5b268f449b4ebf83:
	.cfi_startproc
	push.w	{r4, r5, r6, r7, r8, r9, r10, r11, lr}
	.cfi_def_cfa_offset 36
	.cfi_offset lr, -4
	.cfi_offset r11, -8
	.cfi_offset r10, -12
	.cfi_offset r9, -16
	.cfi_offset r8, -20
	.cfi_offset r7, -24
	.cfi_offset r6, -28
	.cfi_offset r5, -32
	.cfi_offset r4, -36
	sub	sp, #20
	.cfi_def_cfa_offset 56
	ldr.w	r9, [sp, #60]
	adds.w	r8, r9, #1
	itt	lo
	ldrlo.w	r12, [sp, #64]
	addslo.w	r5, r12, #1
	blo	.LBB34_2
	movs	r0, #4
	add	sp, #20
	pop.w	{r4, r5, r6, r7, r8, r9, r10, r11, pc}
	.p2align	2
.LBB34_2:
	mvn	r7, #-536870912
	cmp	r2, r7
	mvn	r4, #-536870912
	it	lo
	movlo	r4, r2
	cmp	r3, #0
	it	ne
	movne	r4, r7
	movs	r7, #0
	subs	r6, r4, r5
	sbcs	r7, r7, #0
	blo.w	.LBB34_26
	lsl.w	lr, r5, #3
	add.w	r1, r0, lr
	ldr	r6, [r1, #-8]
	str	r1, [sp, #12]
	lsls	r7, r6, #31
	beq	.LBB34_26
	ldr	r1, [sp, #12]
	ldr	r7, [r1, #-4]
	bics	r1, r7, #7
	str	r1, [sp, #16]
	beq	.LBB34_26
	lsrs	r7, r7, #3
	cmp	r7, r4
	bhi	.LBB34_26
	ldr	r1, [sp, #16]
	add	r1, r0
	ldr	r7, [r1, #-8]
	str	r1, [sp]
	lsls	r1, r7, #31
	beq	.LBB34_26
	lsrs	r1, r5, #29
	bic	r5, r7, #7
	eor.w	r5, r5, lr
	orrs	r5, r1
	bne	.LBB34_26
	bics	r5, r6, #7
	str	r5, [sp, #8]
	beq	.LBB34_26
	lsrs	r5, r6, #3
	subs	r5, r2, r5
	sbcs	r5, r3, #0
	blo	.LBB34_26
	ldr	r5, [sp, #8]
	add	r5, r0
	str	r5, [sp, #4]
	ldrb	r5, [r5, #-8]
	lsls	r5, r5, #31
	beq	.LBB34_26
	ldr	r5, [sp, #4]
	ldr	r5, [r5, #-4]
	bic	r5, r5, #7
	eor.w	r5, r5, lr
	orrs	r5, r1
	bne	.LBB34_26
	cmp	r4, r8
	blo	.LBB34_26
	lsl.w	r10, r8, #3
	add.w	r11, r0, r10
	ldr	r6, [r11, #-8]
	lsls	r5, r6, #31
	beq	.LBB34_26
	ldr	r5, [sp, #56]
	lsls	r5, r5, #31
	lsr.w	r5, r8, #29
	beq	.LBB34_20
	ldr	r7, [r11, #-4]
	bics	r6, r7, #7
	beq	.LBB34_26
	lsrs	r7, r7, #3
	cmp	r7, r4
	bhi	.LBB34_26
	adds	r4, r0, r6
	ldr	r4, [r4, #-8]
	lsls	r7, r4, #31
	beq	.LBB34_26
	bic	r4, r4, #7
	eor.w	r4, r4, r10
	orrs	r4, r5
	bne	.LBB34_26
	movs	r5, #0
	b	.LBB34_25
	.p2align	2
.LBB34_20:
	bics	r8, r6, #7
	beq	.LBB34_26
	lsrs	r6, r6, #3
	cmp	r6, r4
	bhi	.LBB34_26
	add.w	r4, r0, r8
	ldrb	r6, [r4, #-8]
	lsls	r6, r6, #31
	beq	.LBB34_26
	ldr	r4, [r4, #-4]
	bic	r4, r4, #7
	eor.w	r4, r4, r10
	orrs	r4, r5
	bne	.LBB34_26
	mov	r6, r10
	mov	r10, r8
.LBB34_25:
	eor.w	r4, r6, lr
	eor.w	r7, r5, r1
	orrs	r4, r7
	ittt	ne
	ldrne	r4, [sp, #16]
	eorne	r4, r6
	orrsne.w	r4, r4, r5
	bne	.LBB34_27
.LBB34_26:
	strd	r9, r12, [sp, #56]
	add	sp, #20
	pop.w	{r4, r5, r6, r7, r8, r9, r10, r11, lr}
	b	ic_raw.table.RawTable.refusal_at_both.05a19227735374d3
	.p2align	2
.LBB34_27:
	ldr	r3, [sp, #16]
	eor.w	r2, lr, r3
	orrs	r1, r2
	beq	.LBB34_29
	ldr	r1, [sp, #8]
	adds	r2, r0, r6
	orr	r1, r1, #1
	str	r1, [r2, #-8]
	ldr	r1, [sp, #4]
	ldr	r2, [sp]
	str	r6, [r1, #-4]
	orr	r1, r10, #1
	str	r1, [r2, #-8]
	add	r0, r10
	ldr	r1, [sp, #12]
	str	r3, [r0, #-4]
	orr	r0, lr, #1
	strd	r0, lr, [r1, #-8]
.LBB34_29:
	movs	r0, #0
	add	sp, #20
	pop.w	{r4, r5, r6, r7, r8, r9, r10, r11, pc}
.Lfunc_end34:
	.size	ic_raw.ring_calls.splice.5b268f449b4ebf83, .Lfunc_end34-ic_raw.ring_calls.splice.5b268f449b4ebf83
	.cfi_endproc
	.section	.text.unlikely.ic_raw.table.RawTable.refusal_of.5f318a721acb0238,"ax",%progbits
	.p2align	2
	.type	ic_raw.table.RawTable.refusal_of.5f318a721acb0238,%function
	.code	16
	.thumb_func
ic_raw.table.RawTable.refusal_of.5f318a721acb0238:
	.cfi_startproc
	push	{r7, lr}
	.cfi_def_cfa_offset 8
	.cfi_offset lr, -4
	.cfi_offset r7, -8
	ldrd	r12, lr, [sp, #8]
	lsr.w	r1, r12, #3
	orr.w	r1, r1, lr, lsl #29
	subs	r1, r2, r1
	sbcs.w	r1, r3, lr, lsr #3
	itt	lo
	movlo	r0, #1
	poplo	{r7, pc}
.LBB35_1:
	add.w	r0, r0, r12, lsl #1
	ldrb	r0, [r0, #-16]
	lsls	r0, r0, #31
	mov.w	r0, #5
	it	eq
	moveq	r0, #3
	pop	{r7, pc}
.Lfunc_end35:
	.size	ic_raw.table.RawTable.refusal_of.5f318a721acb0238, .Lfunc_end35-ic_raw.table.RawTable.refusal_of.5f318a721acb0238
	.cfi_endproc
	.section	.text.unlikely.ic_raw.table.refusal_at_end.85cd03e557136797,"ax",%progbits
	.p2align	2
	.type	ic_raw.table.refusal_at_end.85cd03e557136797,%function
	.code	16
	.thumb_func
ic_raw.table.refusal_at_end.85cd03e557136797:
	.cfi_startproc
	push	{r7, lr}
	.cfi_def_cfa_offset 8
	.cfi_offset lr, -4
	.cfi_offset r7, -8
	sub	sp, #8
	.cfi_def_cfa_offset 16
	ldr.w	r12, [sp, #16]
	mov.w	r1, #-1
	strd	r1, r12, [sp]
	bl	ic_raw.table.RawTable.refusal.85cd03e557136797
	add	sp, #8
	pop	{r7, pc}
.Lfunc_end36:
	.size	ic_raw.table.refusal_at_end.85cd03e557136797, .Lfunc_end36-ic_raw.table.refusal_at_end.85cd03e557136797
	.cfi_endproc
	.section	.text.unlikely.ic_raw_lists.ring_sort_calls.refusal_at_both,"ax",%progbits
	.p2align	2
	.type	ic_raw_lists.ring_sort_calls.refusal_at_both,%function
	.code	16
	.thumb_func
ic_raw_lists.ring_sort_calls.refusal_at_both:
	.cfi_startproc
	push	{r4, r5, r7, lr}
	.cfi_def_cfa_offset 16
	.cfi_offset lr, -4
	.cfi_offset r7, -8
	.cfi_offset r5, -12
	.cfi_offset r4, -16
	ldrd	r12, r1, [sp, #16]
	ldrd	lr, r4, [r0, #8]
	lsr.w	r5, r12, #3
	orr.w	r5, r5, r1, lsl #29
	subs.w	r5, lr, r5
	sbcs.w	r1, r4, r1, lsr #3
	itt	lo
	movlo	r0, #1
	poplo	{r4, r5, r7, pc}
.LBB37_1:
	ldr	r1, [r0]
	add.w	r1, r1, r12, lsl #1
	ldrb	r1, [r1, #-16]
	lsls	r1, r1, #31
	itt	eq
	moveq	r0, #3
	popeq	{r4, r5, r7, pc}
.LBB37_2:
	ldrd	r1, r5, [sp, #24]
	strd	r1, r5, [sp, #16]
	pop.w	{r4, r5, r7, lr}
	b	ic_raw_lists.ring_sort_calls.refusal_at
.Lfunc_end37:
	.size	ic_raw_lists.ring_sort_calls.refusal_at_both, .Lfunc_end37-ic_raw_lists.ring_sort_calls.refusal_at_both
	.cfi_endproc
	.section	.text.unlikely.ic_raw_lists.ring_sort_calls.refusal_at,"ax",%progbits
	.p2align	2
	.type	ic_raw_lists.ring_sort_calls.refusal_at,%function
	.code	16
	.thumb_func
ic_raw_lists.ring_sort_calls.refusal_at:
	.cfi_startproc
	push	{r4, r5, r7, lr}
	.cfi_def_cfa_offset 16
	.cfi_offset lr, -4
	.cfi_offset r7, -8
	.cfi_offset r5, -12
	.cfi_offset r4, -16
	ldrd	lr, r4, [sp, #16]
	mov	r12, r0
	ldrd	r0, r1, [r0, #8]
	lsr.w	r5, lr, #3
	orr.w	r5, r5, r4, lsl #29
	subs	r5, r0, r5
	sbcs.w	r4, r1, r4, lsr #3
	itt	lo
	movlo	r0, #1
	poplo	{r4, r5, r7, pc}
.LBB38_1:
	ldr.w	r5, [r12]
	add.w	r5, r5, lr, lsl #1
	ldrb	r5, [r5, #-16]
	lsls	r5, r5, #31
	itt	eq
	moveq	r0, #3
	popeq	{r4, r5, r7, pc}
.LBB38_2:
	pop.w	{r4, r5, r7, lr}
	b	ic_raw.sort_calls.refusal.5f318a721acb0238
.Lfunc_end38:
	.size	ic_raw_lists.ring_sort_calls.refusal_at, .Lfunc_end38-ic_raw_lists.ring_sort_calls.refusal_at
	.cfi_endproc
	.section	.text.unlikely.ic_raw.sort_calls.refusal.5f318a721acb0238,"ax",%progbits
	.p2align	2
	.type	ic_raw.sort_calls.refusal.5f318a721acb0238,%function
	.code	16
	.thumb_func
ic_raw.sort_calls.refusal.5f318a721acb0238:
	.cfi_startproc
	subs	r0, r2, r0
	sbcs.w	r0, r3, r1
	mov.w	r0, #5
	it	lo
	movlo	r0, #1
	bx	lr
.Lfunc_end39:
	.size	ic_raw.sort_calls.refusal.5f318a721acb0238, .Lfunc_end39-ic_raw.sort_calls.refusal.5f318a721acb0238
	.cfi_endproc
	.section	.text.ic_list_algorithms.merge.merge_runs.e8da022ef74ca9e6,"ax",%progbits
	.p2align	2
	.type	ic_list_algorithms.merge.merge_runs.e8da022ef74ca9e6,%function
	.code	16
	.thumb_func
ic_list_algorithms.merge.merge_runs.e8da022ef74ca9e6:
	.cfi_startproc
	push.w	{r4, r5, r6, r7, r8, r9, r10, r11, lr}
	.cfi_def_cfa_offset 36
	.cfi_offset lr, -4
	.cfi_offset r11, -8
	.cfi_offset r10, -12
	.cfi_offset r9, -16
	.cfi_offset r8, -20
	.cfi_offset r7, -24
	.cfi_offset r6, -28
	.cfi_offset r5, -32
	.cfi_offset r4, -36
	sub	sp, #4
	.cfi_def_cfa_offset 40
	ldr	r6, [sp, #40]
	ldr	r7, [r1]
	mov	r12, r2
	adds	r2, r7, r6
	add	r7, r12
	ldrd	r4, r5, [r2, #-8]
	ldrd	r2, r7, [r7, #-8]
	ldr.w	lr, [sp, #44]
	subs	r4, r4, r2
	sbcs.w	r4, r5, r7
	ldr	r4, [r0]
	mov	r10, r3
	bhs	.LBB40_3
	add.w	r4, r4, r6, lsl #1
	ldrd	r2, r5, [r4, #-16]
	and	r5, r5, #15
	bic	r2, r2, #7
	orrs.w	r7, r2, r5
	beq	.LBB40_11
	mov	r9, r6
	mov	r8, lr
	mov	r6, r2
	mov	lr, r5
	mov	r11, r9
	b	.LBB40_6
	.p2align	2
.LBB40_3:
	add.w	r4, r4, r12, lsl #1
	ldrd	r2, r5, [r4, #-16]
	and	r5, r5, #15
	bic	r2, r2, #7
	orrs.w	r7, r2, r5
	beq	.LBB40_12
	mov	r9, r12
	mov	r8, r10
	mov	r12, r2
	mov	r10, r5
	mov	r11, r9
	b	.LBB40_6
	.p2align	2
.LBB40_5:
	add.w	r2, r7, r11, lsl #1
	ldrd	r2, r3, [r2, #-16]
	orr	r7, r11, #1
	strd	r7, r10, [r5, #-16]
	and	r10, r3, #15
	bic	r12, r2, #7
	orrs.w	r2, r12, r10
	beq	.LBB40_13
.LBB40_6:
	mov	r5, r6
	mov	r6, r11
	mov	r11, r12
	.p2align	2
.LBB40_7:
	ldr	r7, [r1]
	mov	r2, r6
	mov	r6, r5
	add	r5, r7
	add	r7, r11
	ldrd	r5, r3, [r5, #-8]
	ldrd	r7, r4, [r7, #-8]
	subs	r7, r5, r7
	ldr	r7, [r0]
	sbcs	r3, r4
	add.w	r5, r7, r2, lsl #1
	bhs	.LBB40_5
	add.w	r2, r7, r6, lsl #1
	ldrd	r2, r3, [r2, #-16]
	orr	r7, r6, #1
	strd	r7, lr, [r5, #-16]
	and	lr, r3, #15
	bic	r5, r2, #7
	orrs.w	r2, r5, lr
	bne	.LBB40_7
	ldr	r0, [r0]
	orr	r1, r11, #1
	add.w	r0, r0, r6, lsl #1
	strd	r1, r10, [r0, #-16]
.LBB40_10:
	mov	r12, r9
	mov	r10, r8
	mov	r0, r12
	mov	r1, r10
	add	sp, #4
	pop.w	{r4, r5, r6, r7, r8, r9, r10, r11, pc}
	.p2align	2
.LBB40_11:
	orr	r0, r12, #1
	strd	r0, r10, [r4, #-16]
	mov	r12, r6
	mov	r10, lr
	mov	r0, r12
	mov	r1, r10
	add	sp, #4
	pop.w	{r4, r5, r6, r7, r8, r9, r10, r11, pc}
	.p2align	2
.LBB40_12:
	orr	r0, r6, #1
	strd	r0, lr, [r4, #-16]
	mov	r0, r12
	mov	r1, r10
	add	sp, #4
	pop.w	{r4, r5, r6, r7, r8, r9, r10, r11, pc}
	.p2align	2
.LBB40_13:
	ldr	r0, [r0]
	adds	r1, r6, #1
	add.w	r0, r0, r11, lsl #1
	adc	r2, lr, #0
	strd	r1, r2, [r0, #-16]
	b	.LBB40_10
.Lfunc_end40:
	.size	ic_list_algorithms.merge.merge_runs.e8da022ef74ca9e6, .Lfunc_end40-ic_list_algorithms.merge.merge_runs.e8da022ef74ca9e6
	.cfi_endproc
	.section	.text.ic_raw.ring_calls.move_beside.354f48d5d890d6b4,"ax",%progbits
	.p2align	2
	.type	ic_raw.ring_calls.move_beside.354f48d5d890d6b4,%function
	.code	16
	.thumb_func
ic_raw.ring_calls.move_beside.354f48d5d890d6b4:
	.cfi_startproc
	push.w	{r4, r5, r6, r7, r8, r9, r10, r11, lr}
	.cfi_def_cfa_offset 36
	.cfi_offset lr, -4
	.cfi_offset r11, -8
	.cfi_offset r10, -12
	.cfi_offset r9, -16
	.cfi_offset r8, -20
	.cfi_offset r7, -24
	.cfi_offset r6, -28
	.cfi_offset r5, -32
	.cfi_offset r4, -36
	sub	sp, #32
	.cfi_def_cfa_offset 68
	ldr.w	r8, [sp, #72]
	adds.w	lr, r8, #1
	itt	lo
	ldrlo.w	r11, [sp, #76]
	addslo.w	r6, r11, #1
	blo	.LBB41_2
	movs	r0, #4
	add	sp, #32
	pop.w	{r4, r5, r6, r7, r8, r9, r10, r11, pc}
	.p2align	2
.LBB41_2:
	subs	r1, r2, r6
	sbcs	r1, r3, #0
	blo	.LBB41_4
	lsl.w	r10, r6, #3
	add.w	r12, r0, r10, lsl #1
	ldr	r9, [r12, #-16]
	lsls.w	r1, r9, #31
	itttt	ne
	ldrdne	r4, r1, [r12, #-8]
	andne	r5, r1, #15
	bicne	r7, r4, #7
	strdne	r7, r5, [sp, #24]
	it	ne
	orrsne.w	r5, r5, r7
	bne	.LBB41_5
.LBB41_4:
	strd	r8, r11, [sp, #68]
	add	sp, #32
	pop.w	{r4, r5, r6, r7, r8, r9, r10, r11, lr}
	b	ic_raw.table.RawTable.refusal_at_both.85cd03e557136797
	.p2align	2
.LBB41_5:
	lsrs	r4, r4, #3
	orr.w	r1, r4, r1, lsl #29
	ldr	r4, [sp, #28]
	subs	r1, r2, r1
	lsr.w	r4, r4, #3
	sbcs.w	r1, r3, r4
	blo	.LBB41_4
	ldr	r1, [sp, #24]
	add.w	r1, r0, r1, lsl #1
	str	r1, [sp, #20]
	ldr	r1, [r1, #-16]
	lsls	r4, r1, #31
	beq	.LBB41_4
	ldr	r4, [sp, #20]
	lsrs	r6, r6, #29
	ldr	r4, [r4, #-12]
	bic	r1, r1, #7
	and	r4, r4, #15
	eor.w	r1, r1, r10
	eors	r4, r6
	orrs	r1, r4
	bne	.LBB41_4
	ldr	r1, [r12, #-12]
	bic	r4, r9, #7
	and	r5, r1, #15
	strd	r4, r5, [sp, #12]
	orrs	r5, r4
	beq	.LBB41_4
	lsr.w	r5, r9, #3
	ldr	r4, [sp, #16]
	orr.w	r1, r5, r1, lsl #29
	lsrs	r5, r4, #3
	subs	r1, r2, r1
	sbcs.w	r1, r3, r5
	blo	.LBB41_4
	ldr	r1, [sp, #12]
	add.w	r4, r0, r1, lsl #1
	ldrb	r1, [r4, #-16]
	lsls	r1, r1, #31
	beq	.LBB41_4
	ldrd	r1, r5, [r4, #-8]
	bic	r1, r1, #7
	and	r5, r5, #15
	eors	r5, r6
	eor.w	r1, r1, r10
	orrs	r1, r5
	bne	.LBB41_4
	lsr.w	r7, lr, #29
	lsl.w	r5, lr, #3
	str	r4, [sp, #8]
	eor.w	r1, r5, r10
	eor.w	r4, r7, r6
	orrs	r1, r4
	beq.w	.LBB41_28
	subs.w	r1, r2, lr
	sbcs	r1, r3, #0
	str	r7, [sp, #4]
	blo	.LBB41_4
	add.w	r9, r0, r5, lsl #1
	ldr	lr, [r9, #-16]
	lsls.w	r1, lr, #31
	beq	.LBB41_4
	ldr	r1, [sp, #68]
	lsls	r1, r1, #31
	beq	.LBB41_21
	ldrd	r1, lr, [r9, #-8]
	and	r9, lr, #15
	bic	r4, r1, #7
	str	r4, [sp]
	orrs.w	r4, r4, r9
	beq	.LBB41_4
	lsrs	r1, r1, #3
	orr.w	r1, r1, lr, lsl #29
	lsr.w	r4, r9, #3
	subs	r1, r2, r1
	sbcs.w	r1, r3, r4
	blo.w	.LBB41_4
	ldr	r1, [sp]
	add.w	r1, r0, r1, lsl #1
	ldr	lr, [r1, #-16]
	lsls.w	r4, lr, #31
	beq.w	.LBB41_4
	ldr	r1, [r1, #-12]
	ldr	r7, [sp, #4]
	and	r1, r1, #15
	bic	r4, lr, #7
	eors	r4, r5
	eors	r1, r7
	ldr	r7, [sp, #8]
	orrs	r1, r4
	bne.w	.LBB41_4
	ldr	r1, [sp]
	ldr.w	r8, [sp, #4]
	mov	r2, r1
	mov	lr, r9
	b	.LBB41_26
	.p2align	2
.LBB41_21:
	ldr	r1, [r9, #-12]
	bic	r4, lr, #7
	and	r9, r1, #15
	str	r4, [sp]
	orrs.w	r4, r4, r9
	beq.w	.LBB41_4
	lsr.w	r4, lr, #3
	orr.w	r1, r4, r1, lsl #29
	lsr.w	r4, r9, #3
	subs	r1, r2, r1
	sbcs.w	r1, r3, r4
	blo.w	.LBB41_4
	ldr	r1, [sp]
	add.w	r1, r0, r1, lsl #1
	ldrb	r4, [r1, #-16]
	lsls	r4, r4, #31
	beq.w	.LBB41_4
	ldrd	r1, r4, [r1, #-8]
	ldr	r7, [sp, #4]
	bic	r1, r1, #7
	and	r4, r4, #15
	eors	r4, r7
	ldr	r7, [sp, #8]
	eors	r1, r5
	orrs	r1, r4
	bne.w	.LBB41_4
	ldrd	r1, lr, [sp]
	mov	r2, r5
	mov	r5, r1
	mov	r8, r9
.LBB41_26:
	eor.w	r1, r1, r10
	eor.w	r4, r9, r6
	orrs	r1, r4
	beq	.LBB41_28
	ldr	r1, [sp, #12]
	ldrd	r3, r4, [sp, #16]
	orr	r1, r1, #1
	strd	r1, r3, [r4, #-16]
	ldrd	r4, r1, [sp, #24]
	strd	r4, r1, [r7, #-8]
	orr	r1, r5, #1
	strd	r1, r8, [r12, #-16]
	strd	r2, lr, [r12, #-8]
	add.w	r1, r0, r2, lsl #1
	orr	r2, r10, #1
	add.w	r0, r0, r5, lsl #1
	strd	r2, r6, [r1, #-16]
	strd	r10, r6, [r0, #-8]
.LBB41_28:
	movs	r0, #0
	add	sp, #32
	pop.w	{r4, r5, r6, r7, r8, r9, r10, r11, pc}
.Lfunc_end41:
	.size	ic_raw.ring_calls.move_beside.354f48d5d890d6b4, .Lfunc_end41-ic_raw.ring_calls.move_beside.354f48d5d890d6b4
	.cfi_endproc
	.section	.text.ic_raw.ring_calls.pop.354f48d5d890d6b4,"ax",%progbits
	.p2align	2
	.type	ic_raw.ring_calls.pop.354f48d5d890d6b4,%function
	.code	16
	.thumb_func
ic_raw.ring_calls.pop.354f48d5d890d6b4:
	.cfi_startproc
	push.w	{r4, r5, r6, r7, r8, r9, r10, r11, lr}
	.cfi_def_cfa_offset 36
	.cfi_offset lr, -4
	.cfi_offset r11, -8
	.cfi_offset r10, -12
	.cfi_offset r9, -16
	.cfi_offset r8, -20
	.cfi_offset r7, -24
	.cfi_offset r6, -28
	.cfi_offset r5, -32
	.cfi_offset r4, -36
	sub	sp, #44
	.cfi_def_cfa_offset 80
	mov	r12, r3
	ldr	r3, [sp, #84]
	adds	r3, #1
	blo	.LBB42_2
	movs	r0, #4
	add	sp, #44
	pop.w	{r4, r5, r6, r7, r8, r9, r10, r11, pc}
	.p2align	2
.LBB42_2:
	mov	r11, r2
	lsr.w	r8, r3, #29
	lsls	r2, r3, #3
	subs.w	r3, r11, r3
	mov.w	r7, #0
	sbcs	r3, r12, #0
	str	r0, [sp, #24]
	strd	r7, r11, [sp, #28]
	str.w	r12, [sp, #36]
	blo	.LBB42_16
	add.w	r7, r0, r2, lsl #1
	ldr	r3, [r7, #-16]
	lsls	r6, r3, #31
	beq	.LBB42_16
	ldr	r6, [sp, #80]
	lsls	r6, r6, #31
	beq	.LBB42_9
	ldrd	r7, r3, [r7, #-8]
	and	r6, r3, #15
	bic	r1, r7, #7
	strd	r6, r1, [sp, #16]
	orrs	r6, r1
	beq	.LBB42_16
	lsrs	r7, r7, #3
	orr.w	r3, r7, r3, lsl #29
	ldr	r7, [sp, #16]
	str	r3, [sp, #12]
	lsrs	r6, r7, #3
	subs.w	r3, r11, r3
	sbcs.w	r3, r12, r6
	blo	.LBB42_16
	ldr	r1, [sp, #20]
	add.w	r7, r0, r1, lsl #1
	ldr	r3, [r7, #-16]
	lsls	r5, r3, #31
	beq	.LBB42_16
	ldr	r7, [r7, #-12]
	bic	r3, r3, #7
	and	r7, r7, #15
	eors	r3, r2
	eor.w	r7, r7, r8
	orrs	r3, r7
	beq	.LBB42_13
	b	.LBB42_16
	.p2align	2
.LBB42_9:
	ldr	r7, [r7, #-12]
	bic	r1, r3, #7
	and	r6, r7, #15
	strd	r6, r1, [sp, #16]
	orrs	r6, r1
	beq	.LBB42_16
	lsrs	r3, r3, #3
	orr.w	r3, r3, r7, lsl #29
	ldr	r7, [sp, #16]
	str	r3, [sp, #12]
	lsrs	r6, r7, #3
	subs.w	r3, r11, r3
	sbcs.w	r3, r12, r6
	blo	.LBB42_16
	ldr	r1, [sp, #20]
	add.w	r3, r0, r1, lsl #1
	ldrb	r7, [r3, #-16]
	lsls	r7, r7, #31
	beq	.LBB42_16
	ldrd	r3, r7, [r3, #-8]
	bic	r3, r3, #7
	and	r7, r7, #15
	eor.w	r7, r7, r8
	eors	r3, r2
	orrs	r3, r7
	bne	.LBB42_16
.LBB42_13:
	ldr	r1, [sp, #20]
	ldr	r7, [sp, #16]
	eor.w	r3, r1, r2
	eor.w	r7, r7, r8
	orrs	r3, r7
	beq	.LBB42_16
	ldr	r3, [sp, #12]
	subs.w	r3, r11, r3
	sbcs.w	r3, r12, r6
	blo	.LBB42_16
	ldr	r1, [sp, #20]
	add.w	r6, r0, r1, lsl #1
	ldr	r5, [r6, #-16]
	lsls	r3, r5, #31
	itttt	ne
	ldrdne	r7, r3, [r6, #-8]
	andne	r4, r3, #15
	bicne	r1, r7, #7
	strdne	r1, r4, [sp, #4]
	it	ne
	orrsne.w	r4, r4, r1
	bne	.LBB42_17
.LBB42_16:
	add	r0, sp, #24
	mov	r3, r8
	bl	ic_raw.ring_calls.refusal_to_pop.354f48d5d890d6b4
	add	sp, #44
	pop.w	{r4, r5, r6, r7, r8, r9, r10, r11, pc}
	.p2align	2
.LBB42_17:
	lsrs	r7, r7, #3
	orr.w	r3, r7, r3, lsl #29
	ldr	r7, [sp, #8]
	subs.w	r3, r11, r3
	lsr.w	r7, r7, #3
	sbcs.w	r3, r12, r7
	blo	.LBB42_16
	ldr	r3, [sp, #4]
	add.w	r10, r0, r3, lsl #1
	ldr	r3, [r10, #-16]
	lsls	r4, r3, #31
	beq	.LBB42_16
	ldr	r4, [r10, #-12]
	ldr	r1, [sp, #20]
	ldr	r7, [sp, #16]
	and	r4, r4, #15
	bic	r3, r3, #7
	eors	r3, r1
	eors	r4, r7
	orrs	r3, r4
	bne	.LBB42_16
	ldr	r3, [r6, #-12]
	bic	r4, r5, #7
	and	lr, r3, #15
	mov	r9, r2
	mov	r2, r8
	orrs.w	r8, r4, lr
	mov	r8, r2
	mov	r2, r9
	beq	.LBB42_16
	lsrs	r5, r5, #3
	orr.w	r3, r5, r3, lsl #29
	lsr.w	r5, lr, #3
	subs.w	r1, r11, r3
	sbcs.w	r1, r12, r5
	blo	.LBB42_16
	add.w	r0, r0, r4, lsl #1
	ldrb	r1, [r0, #-16]
	lsls	r1, r1, #31
	beq	.LBB42_16
	ldrd	r1, r3, [r0, #-8]
	ldr	r2, [sp, #16]
	and	r3, r3, #15
	eors	r2, r3
	ldr	r3, [sp, #20]
	bic	r1, r1, #7
	eors	r1, r3
	orrs	r1, r2
	mov	r2, r9
	bne	.LBB42_16
	orr	r2, r4, #1
	strd	r2, lr, [r10, #-16]
	ldrd	r3, r2, [sp, #4]
	ldr	r1, [sp, #88]
	strd	r3, r2, [r0, #-8]
	ldr	r2, [sp, #12]
	movs	r0, #0
	subs	r2, #1
	strd	r0, r0, [r6, #-16]
	str	r2, [r1]
	add	sp, #44
	pop.w	{r4, r5, r6, r7, r8, r9, r10, r11, pc}
.Lfunc_end42:
	.size	ic_raw.ring_calls.pop.354f48d5d890d6b4, .Lfunc_end42-ic_raw.ring_calls.pop.354f48d5d890d6b4
	.cfi_endproc
	.section	.text.unlikely.ic_raw.ring_calls.refusal_to_pop.354f48d5d890d6b4,"ax",%progbits
	.p2align	2
	.type	ic_raw.ring_calls.refusal_to_pop.354f48d5d890d6b4,%function
	.code	16
	.thumb_func
ic_raw.ring_calls.refusal_to_pop.354f48d5d890d6b4:
	.cfi_startproc
	push	{r4, lr}
	.cfi_def_cfa_offset 8
	.cfi_offset lr, -4
	.cfi_offset r4, -8
	ldrd	lr, r12, [r0, #8]
	lsrs	r1, r2, #3
	orr.w	r1, r1, r3, lsl #29
	subs.w	r1, lr, r1
	sbcs.w	r1, r12, r3, lsr #3
	blo	.LBB43_3
	ldr	r1, [r0]
	add.w	lr, r1, r2, lsl #1
	ldr	r12, [lr, #-16]
	lsls.w	r1, r12, #31
	beq	.LBB43_3
	ldr	r1, [lr, #-12]
	and	r4, r1, #15
	bic	r1, r12, #7
	eors	r1, r2
	eors	r4, r3
	orrs	r1, r4
	itttt	eq
	ldrdeq	r1, r4, [lr, #-8]
	biceq	r1, r1, #7
	andeq	r4, r4, #15
	eoreq	r4, r3
	itt	eq
	eoreq	r1, r2
	orrseq.w	r1, r1, r4
	beq	.LBB43_4
.LBB43_3:
	pop.w	{r4, lr}
	b	ic_raw.table.RawTable.refusal_of.85cd03e557136797
	.p2align	2
.LBB43_4:
	movs	r0, #4
	pop	{r4, pc}
.Lfunc_end43:
	.size	ic_raw.ring_calls.refusal_to_pop.354f48d5d890d6b4, .Lfunc_end43-ic_raw.ring_calls.refusal_to_pop.354f48d5d890d6b4
	.cfi_endproc
	.section	.text.unlikely.ic_raw.table.RawTable.refusal_of.85cd03e557136797,"ax",%progbits
	.p2align	2
	.type	ic_raw.table.RawTable.refusal_of.85cd03e557136797,%function
	.code	16
	.thumb_func
ic_raw.table.RawTable.refusal_of.85cd03e557136797:
	.cfi_startproc
	push	{r7, lr}
	.cfi_def_cfa_offset 8
	.cfi_offset lr, -4
	.cfi_offset r7, -8
	ldrd	lr, r12, [r0, #8]
	lsrs	r1, r2, #3
	orr.w	r1, r1, r3, lsl #29
	subs.w	r1, lr, r1
	sbcs.w	r1, r12, r3, lsr #3
	itt	lo
	movlo	r0, #1
	poplo	{r7, pc}
.LBB44_1:
	ldr	r0, [r0]
	add.w	r0, r0, r2, lsl #1
	ldrb	r0, [r0, #-16]
	lsls	r0, r0, #31
	mov.w	r0, #5
	it	eq
	moveq	r0, #3
	pop	{r7, pc}
.Lfunc_end44:
	.size	ic_raw.table.RawTable.refusal_of.85cd03e557136797, .Lfunc_end44-ic_raw.table.RawTable.refusal_of.85cd03e557136797
	.cfi_endproc
	.section	.text.ic_list_algorithms.sort.sort_front.e8da022ef74ca9e6,"ax",%progbits
	.p2align	2
	.type	ic_list_algorithms.sort.sort_front.e8da022ef74ca9e6,%function
	.code	16
	.thumb_func
ic_list_algorithms.sort.sort_front.e8da022ef74ca9e6:
	.cfi_startproc
	push.w	{r4, r5, r6, r7, r8, r9, r10, r11, lr}
	.cfi_def_cfa_offset 36
	.cfi_offset lr, -4
	.cfi_offset r11, -8
	.cfi_offset r10, -12
	.cfi_offset r9, -16
	.cfi_offset r8, -20
	.cfi_offset r7, -24
	.cfi_offset r6, -28
	.cfi_offset r5, -32
	.cfi_offset r4, -36
	sub	sp, #68
	.cfi_def_cfa_offset 104
	add	r7, sp, #104
	mov	r12, r2
	ldm	r7, {r2, r3, r6, r7}
	orrs.w	r5, r6, r7
	mov	r4, r0
	beq	.LBB45_4
	eor	r0, r6, #1
	orrs	r0, r7
	bne	.LBB45_5
	ldr	r0, [r1]
	mov.w	lr, #1
	add.w	r0, r0, r2, lsl #1
	ldrd	r6, r7, [r0, #-16]
	mov.w	r8, #0
	and	r7, r7, #15
	bic	r6, r6, #7
	orrs.w	r5, r6, r7
	strd	lr, r8, [r0, #-16]
	beq.w	.LBB45_8
	ldr	r0, [r1]
	add.w	r0, r0, r6, lsl #1
	ldrd	r9, r5, [r0, #-16]
	and	r10, r5, #15
	bic	r9, r9, #7
	orrs.w	r5, r9, r10
	it	ne
	movne	r5, #1
	strd	lr, r8, [r0, #-16]
	mov	r0, r1
	mov	r1, r12
	strd	r6, r7, [sp]
	bl	ic_list_algorithms.merge.merge_runs.e8da022ef74ca9e6
	str	r1, [r4, #4]
	str	r0, [r4]
	str.w	r8, [r4, #12]
	str	r5, [r4, #8]
	str.w	r10, [r4, #20]
	str.w	r9, [r4, #16]
	add	sp, #68
	pop.w	{r4, r5, r6, r7, r8, r9, r10, r11, pc}
	.p2align	2
.LBB45_4:
	ldr	r0, [r1]
	mov.w	r12, #1
	add.w	r0, r0, r2, lsl #1
	ldrd	r1, r7, [r0, #-16]
	movs	r5, #0
	and	r7, r7, #15
	bic	r1, r1, #7
	orrs.w	r6, r1, r7
	it	ne
	movne	r6, #1
	strd	r12, r5, [r0, #-16]
	str	r3, [r4, #4]
	str	r2, [r4]
	str	r5, [r4, #12]
	str	r6, [r4, #8]
	str	r7, [r4, #20]
	str	r1, [r4, #16]
	add	sp, #68
	pop.w	{r4, r5, r6, r7, r8, r9, r10, r11, pc}
	.p2align	2
.LBB45_5:
	subs	r5, r6, #1
	sbc	r7, r7, #0
	stm.w	sp, {r2, r3, r5}
	add	r0, sp, #40
	mov	r2, r12
	mov	r10, r1
	mov	r9, r12
	str	r7, [sp, #12]
	bl	ic_list_algorithms.sort.sort_front.e8da022ef74ca9e6
	ldrb.w	r0, [sp, #48]
	ldr.w	r8, [sp, #40]
	ldr	r6, [sp, #44]
	cmp	r0, #1
	bne	.LBB45_7
	ldrd	r0, r3, [sp, #56]
	mov	r1, r10
	str	r0, [sp]
	add	r0, sp, #16
	mov	r2, r9
	strd	r5, r7, [sp, #8]
	mov	r7, r10
	mov	r5, r9
	str	r3, [sp, #4]
	bl	ic_list_algorithms.sort.sort_front.e8da022ef74ca9e6
	ldrd	r12, lr, [sp, #16]
	ldrb.w	r9, [sp, #24]
	ldrd	r10, r11, [sp, #32]
	mov	r0, r7
	mov	r1, r5
	mov	r2, r8
	mov	r3, r6
	strd	r12, lr, [sp]
	bl	ic_list_algorithms.merge.merge_runs.e8da022ef74ca9e6
	str	r0, [r4]
	movs	r0, #0
	str	r1, [r4, #4]
	str	r0, [r4, #12]
	str.w	r9, [r4, #8]
	str.w	r11, [r4, #20]
	str.w	r10, [r4, #16]
	add	sp, #68
	pop.w	{r4, r5, r6, r7, r8, r9, r10, r11, pc}
	.p2align	2
.LBB45_7:
	movs	r0, #0
	str.w	r8, [r4]
	str	r6, [r4, #4]
	str	r0, [r4, #8]
	str	r0, [r4, #12]
	str	r0, [r4, #16]
	str	r0, [r4, #20]
	add	sp, #68
	pop.w	{r4, r5, r6, r7, r8, r9, r10, r11, pc}
	.p2align	2
.LBB45_8:
	str	r2, [r4]
	str	r3, [r4, #4]
	str.w	r8, [r4, #8]
	str.w	r8, [r4, #12]
	str.w	r8, [r4, #16]
	str.w	r8, [r4, #20]
	add	sp, #68
	pop.w	{r4, r5, r6, r7, r8, r9, r10, r11, pc}
.Lfunc_end45:
	.size	ic_list_algorithms.sort.sort_front.e8da022ef74ca9e6, .Lfunc_end45-ic_list_algorithms.sort.sort_front.e8da022ef74ca9e6
	.cfi_endproc
	.section	.text.ic_raw.ring_calls.splice.354f48d5d890d6b4,"ax",%progbits
	.p2align	2
	.type	ic_raw.ring_calls.splice.354f48d5d890d6b4,%function
	.code	16
	.thumb_func
ic_raw.ring_calls.splice.354f48d5d890d6b4:
	.cfi_startproc
	push.w	{r4, r5, r6, r7, r8, r9, r10, r11, lr}
	.cfi_def_cfa_offset 36
	.cfi_offset lr, -4
	.cfi_offset r11, -8
	.cfi_offset r10, -12
	.cfi_offset r9, -16
	.cfi_offset r8, -20
	.cfi_offset r7, -24
	.cfi_offset r6, -28
	.cfi_offset r5, -32
	.cfi_offset r4, -36
	sub	sp, #36
	.cfi_def_cfa_offset 72
	ldr.w	r12, [sp, #76]
	adds.w	r8, r12, #1
	itt	lo
	ldrlo.w	r9, [sp, #80]
	addslo.w	r7, r9, #1
	blo	.LBB46_2
	movs	r0, #4
	add	sp, #36
	pop.w	{r4, r5, r6, r7, r8, r9, r10, r11, pc}
	.p2align	2
.LBB46_2:
	subs	r1, r2, r7
	sbcs	r1, r3, #0
	blo.w	.LBB46_25
	lsl.w	lr, r7, #3
	add.w	r1, r0, lr, lsl #1
	ldr	r10, [r1, #-16]
	str	r1, [sp, #32]
	lsls.w	r1, r10, #31
	beq.w	.LBB46_25
	ldr	r1, [sp, #32]
	ldrd	r1, r4, [r1, #-8]
	and	r6, r4, #15
	bic	r5, r1, #7
	strd	r5, r6, [sp, #24]
	orrs	r6, r5
	beq.w	.LBB46_25
	lsrs	r1, r1, #3
	orr.w	r1, r1, r4, lsl #29
	ldr	r4, [sp, #28]
	subs	r1, r2, r1
	lsr.w	r4, r4, #3
	sbcs.w	r1, r3, r4
	blo.w	.LBB46_25
	ldr	r1, [sp, #24]
	add.w	r1, r0, r1, lsl #1
	ldr	r4, [r1, #-16]
	str	r1, [sp, #12]
	lsls	r1, r4, #31
	beq.w	.LBB46_25
	ldr	r1, [sp, #12]
	lsrs	r5, r7, #29
	ldr	r1, [r1, #-12]
	bic	r4, r4, #7
	and	r1, r1, #15
	eor.w	r4, r4, lr
	eors	r1, r5
	orrs	r1, r4
	str	r5, [sp, #20]
	bne.w	.LBB46_25
	ldr	r1, [sp, #32]
	bic	r5, r10, #7
	ldr	r4, [r1, #-12]
	and	r1, r4, #15
	strd	r5, r1, [sp, #4]
	orrs	r1, r5
	beq.w	.LBB46_25
	lsr.w	r1, r10, #3
	orr.w	r1, r1, r4, lsl #29
	ldr	r4, [sp, #8]
	subs	r1, r2, r1
	lsr.w	r4, r4, #3
	sbcs.w	r1, r3, r4
	blo.w	.LBB46_25
	ldr	r1, [sp, #4]
	add.w	r1, r0, r1, lsl #1
	str	r1, [sp]
	ldrb	r1, [r1, #-16]
	lsls	r1, r1, #31
	beq	.LBB46_25
	subs.w	r1, r2, r8
	sbcs	r1, r3, #0
	blo	.LBB46_25
	ldr	r1, [sp]
	ldr	r5, [sp, #20]
	ldrd	r1, r4, [r1, #-8]
	and	r4, r4, #15
	bic	r1, r1, #7
	eor.w	r1, r1, lr
	eors	r4, r5
	orrs	r1, r4
	bne	.LBB46_25
	lsl.w	r4, r8, #3
	add.w	r5, r0, r4, lsl #1
	ldr	r7, [r5, #-16]
	lsls	r1, r7, #31
	beq	.LBB46_25
	ldr	r1, [sp, #72]
	lsls	r1, r1, #31
	lsr.w	r1, r8, #29
	str	r1, [sp, #16]
	beq	.LBB46_19
	ldrd	r1, r5, [r5, #-8]
	and	r10, r5, #15
	bic	r6, r1, #7
	orrs.w	r7, r6, r10
	beq	.LBB46_25
	lsrs	r1, r1, #3
	orr.w	r1, r1, r5, lsl #29
	lsr.w	r5, r10, #3
	subs	r1, r2, r1
	sbcs.w	r1, r3, r5
	blo	.LBB46_25
	add.w	r5, r0, r6, lsl #1
	ldr	r1, [r5, #-16]
	lsls	r7, r1, #31
	beq	.LBB46_25
	ldr	r5, [r5, #-12]
	ldr	r7, [sp, #16]
	and	r5, r5, #15
	bic	r1, r1, #7
	eors	r1, r4
	eors	r5, r7
	orrs	r1, r5
	beq	.LBB46_24
	b	.LBB46_25
	.p2align	2
.LBB46_19:
	ldr	r5, [r5, #-12]
	bic	r8, r7, #7
	and	r11, r5, #15
	orrs.w	r1, r8, r11
	beq	.LBB46_25
	lsrs	r1, r7, #3
	orr.w	r1, r1, r5, lsl #29
	lsr.w	r5, r11, #3
	subs	r1, r2, r1
	sbcs.w	r1, r3, r5
	blo	.LBB46_25
	add.w	r5, r0, r8, lsl #1
	ldrb	r1, [r5, #-16]
	lsls	r1, r1, #31
	beq	.LBB46_25
	ldrd	r1, r5, [r5, #-8]
	ldr	r6, [sp, #16]
	bic	r1, r1, #7
	and	r5, r5, #15
	eors	r5, r6
	eors	r1, r4
	orrs	r1, r5
	bne	.LBB46_25
	ldr.w	r10, [sp, #16]
	mov	r6, r4
	mov	r4, r8
	str.w	r11, [sp, #16]
.LBB46_24:
	ldr	r5, [sp, #20]
	eor.w	r1, r6, lr
	eor.w	r5, r5, r10
	orrs	r1, r5
	itttt	ne
	ldrne	r1, [sp, #24]
	eorne	r1, r6
	ldrne	r5, [sp, #28]
	eorne.w	r5, r5, r10
	it	ne
	orrsne.w	r1, r1, r5
	bne	.LBB46_26
.LBB46_25:
	strd	r12, r9, [sp, #72]
	add	sp, #36
	pop.w	{r4, r5, r6, r7, r8, r9, r10, r11, lr}
	b	ic_raw.table.RawTable.refusal_at_both.85cd03e557136797
	.p2align	2
.LBB46_26:
	ldr	r7, [sp, #24]
	ldr	r3, [sp, #28]
	ldr	r5, [sp, #20]
	eor.w	r1, r7, lr
	eor.w	r2, r3, r5
	orrs	r1, r2
	beq	.LBB46_28
	ldr	r1, [sp, #4]
	add.w	r2, r0, r6, lsl #1
	orr	r12, r1, #1
	ldr	r1, [sp, #8]
	add.w	r0, r0, r4, lsl #1
	strd	r12, r1, [r2, #-16]
	ldr	r1, [sp]
	strd	r6, r10, [r1, #-8]
	ldrd	r2, r6, [sp, #12]
	orr	r1, r4, #1
	strd	r1, r6, [r2, #-16]
	ldr	r1, [sp, #32]
	strd	r7, r3, [r0, #-8]
	orr	r0, lr, #1
	sub.w	r2, r1, #16
	stm.w	r2, {r0, r5, lr}
	str	r5, [r1, #-4]
.LBB46_28:
	movs	r0, #0
	add	sp, #36
	pop.w	{r4, r5, r6, r7, r8, r9, r10, r11, pc}
.Lfunc_end46:
	.size	ic_raw.ring_calls.splice.354f48d5d890d6b4, .Lfunc_end46-ic_raw.ring_calls.splice.354f48d5d890d6b4
	.cfi_endproc
	.section	.text.unlikely.ic_raw.sort_calls.refusal.1b4d7615ba81168a,"ax",%progbits
	.p2align	2
	.type	ic_raw.sort_calls.refusal.1b4d7615ba81168a,%function
	.code	16
	.thumb_func
ic_raw.sort_calls.refusal.1b4d7615ba81168a:
	.cfi_startproc
	subs	r0, r2, r0
	sbcs.w	r0, r3, r1
	mov.w	r0, #5
	it	lo
	movlo	r0, #1
	bx	lr
.Lfunc_end47:
	.size	ic_raw.sort_calls.refusal.1b4d7615ba81168a, .Lfunc_end47-ic_raw.sort_calls.refusal.1b4d7615ba81168a
	.cfi_endproc
	.section	.text.ic_list_algorithms.merge.merge_runs.07d679d1abf7571e,"ax",%progbits
	.p2align	2
	.type	ic_list_algorithms.merge.merge_runs.07d679d1abf7571e,%function
	.code	16
	.thumb_func
ic_list_algorithms.merge.merge_runs.07d679d1abf7571e:
	.cfi_startproc
	push.w	{r4, r5, r6, r7, r8, r9, r10, r11, lr}
	.cfi_def_cfa_offset 36
	.cfi_offset lr, -4
	.cfi_offset r11, -8
	.cfi_offset r10, -12
	.cfi_offset r9, -16
	.cfi_offset r8, -20
	.cfi_offset r7, -24
	.cfi_offset r6, -28
	.cfi_offset r5, -32
	.cfi_offset r4, -36
	sub	sp, #4
	.cfi_def_cfa_offset 40
	ldr	r6, [sp, #40]
	ldr	r7, [r1]
	mov	r12, r2
	adds	r2, r7, r6
	add	r7, r12
	ldrd	r4, r5, [r2, #-8]
	ldrd	r2, r7, [r7, #-8]
	ldr.w	lr, [sp, #44]
	subs	r4, r4, r2
	sbcs.w	r4, r5, r7
	ldr	r4, [r0]
	mov	r10, r3
	bhs	.LBB48_3
	add	r4, r6
	ldrd	r2, r5, [r4, #-8]
	and	r5, r5, #15
	bic	r2, r2, #7
	orrs.w	r7, r2, r5
	beq	.LBB48_11
	mov	r9, r6
	mov	r8, lr
	mov	r6, r2
	mov	lr, r5
	mov	r11, r9
	b	.LBB48_6
	.p2align	2
.LBB48_3:
	add	r4, r12
	ldrd	r2, r5, [r4, #-8]
	and	r5, r5, #15
	bic	r2, r2, #7
	orrs.w	r7, r2, r5
	beq	.LBB48_12
	mov	r9, r12
	mov	r8, r10
	mov	r12, r2
	mov	r10, r5
	mov	r11, r9
	b	.LBB48_6
	.p2align	2
.LBB48_5:
	add.w	r2, r7, r11
	ldrd	r2, r3, [r2, #-8]
	orr	r7, r11, #1
	strd	r7, r10, [r5, #-8]
	and	r10, r3, #15
	bic	r12, r2, #7
	orrs.w	r2, r12, r10
	beq	.LBB48_13
.LBB48_6:
	mov	r5, r6
	mov	r6, r11
	mov	r11, r12
	.p2align	2
.LBB48_7:
	ldr	r7, [r1]
	mov	r2, r6
	mov	r6, r5
	add	r5, r7
	add	r7, r11
	ldrd	r5, r3, [r5, #-8]
	ldrd	r7, r4, [r7, #-8]
	subs	r7, r5, r7
	ldr	r7, [r0]
	sbcs	r3, r4
	add.w	r5, r7, r2
	bhs	.LBB48_5
	adds	r2, r7, r6
	ldrd	r2, r3, [r2, #-8]
	orr	r7, r6, #1
	strd	r7, lr, [r5, #-8]
	and	lr, r3, #15
	bic	r5, r2, #7
	orrs.w	r2, r5, lr
	bne	.LBB48_7
	ldr	r0, [r0]
	orr	r1, r11, #1
	add	r0, r6
	strd	r1, r10, [r0, #-8]
.LBB48_10:
	mov	r12, r9
	mov	r10, r8
	mov	r0, r12
	mov	r1, r10
	add	sp, #4
	pop.w	{r4, r5, r6, r7, r8, r9, r10, r11, pc}
	.p2align	2
.LBB48_11:
	orr	r0, r12, #1
	strd	r0, r10, [r4, #-8]
	mov	r12, r6
	mov	r10, lr
	mov	r0, r12
	mov	r1, r10
	add	sp, #4
	pop.w	{r4, r5, r6, r7, r8, r9, r10, r11, pc}
	.p2align	2
.LBB48_12:
	orr	r0, r6, #1
	strd	r0, lr, [r4, #-8]
	mov	r0, r12
	mov	r1, r10
	add	sp, #4
	pop.w	{r4, r5, r6, r7, r8, r9, r10, r11, pc}
	.p2align	2
.LBB48_13:
	ldr	r0, [r0]
	adds	r1, r6, #1
	add	r0, r11
	adc	r2, lr, #0
	strd	r1, r2, [r0, #-8]
	b	.LBB48_10
.Lfunc_end48:
	.size	ic_list_algorithms.merge.merge_runs.07d679d1abf7571e, .Lfunc_end48-ic_list_algorithms.merge.merge_runs.07d679d1abf7571e
	.cfi_endproc
	.section	.text.unlikely.ic_raw.stack_calls.pop_front_slow,"ax",%progbits
	.p2align	2
	.type	ic_raw.stack_calls.pop_front_slow,%function
	.code	16
	.thumb_func
ic_raw.stack_calls.pop_front_slow:
	.cfi_startproc
	push	{r4, r5, r7, lr}
	.cfi_def_cfa_offset 16
	.cfi_offset lr, -4
	.cfi_offset r7, -8
	.cfi_offset r5, -12
	.cfi_offset r4, -16
	ldr.w	lr, [sp, #16]
	ldrd	r1, r4, [lr]
	and	r4, r4, #15
	bic	r5, r1, #7
	orrs.w	r1, r5, r4
	beq	.LBB49_4
	lsrs	r1, r5, #3
	orr.w	r12, r1, r4, lsl #29
	subs.w	r1, r2, r12
	sbcs.w	r1, r3, r4, lsr #3
	blo	.LBB49_5
	adds	r1, r0, r5
	ldr	r4, [r1, #-8]
	lsls	r5, r4, #31
	beq	.LBB49_5
	ldr	r0, [r1, #-4]
	ldr	r2, [sp, #20]
	and	r3, r0, #15
	movs	r0, #0
	bic	r4, r4, #7
	strd	r0, r0, [r1, #-8]
	sub.w	r1, r12, #1
	strd	r4, r3, [lr]
	str	r1, [r2]
	pop	{r4, r5, r7, pc}
	.p2align	2
.LBB49_4:
	movs	r0, #4
	pop	{r4, r5, r7, pc}
	.p2align	2
.LBB49_5:
	mov.w	r1, #-1
	str	r1, [sp, #16]
	pop.w	{r4, r5, r7, lr}
	b	ic_raw.table.RawTable.refusal_at.feecb86c9dd45d96
.Lfunc_end49:
	.size	ic_raw.stack_calls.pop_front_slow, .Lfunc_end49-ic_raw.stack_calls.pop_front_slow
	.cfi_endproc
	.section	.text.unlikely.ic_raw.table.RawTable.refusal_at.feecb86c9dd45d96,"ax",%progbits
	.p2align	2
	.type	ic_raw.table.RawTable.refusal_at.feecb86c9dd45d96,%function
	.code	16
	.thumb_func
ic_raw.table.RawTable.refusal_at.feecb86c9dd45d96:
	.cfi_startproc
	ldr	r1, [sp]
	adds	r1, #1
	itt	hs
	movhs	r0, #5
	bxhs	lr
.LBB50_1:
	subs	r2, r2, r1
	sbcs	r2, r3, #0
	itt	lo
	movlo	r0, #1
	bxlo	lr
.LBB50_2:
	lsls	r1, r1, #3
	add	r0, r1
	ldrb	r0, [r0, #-8]
	lsls	r0, r0, #31
	mov.w	r0, #5
	it	eq
	moveq	r0, #3
	bx	lr
.Lfunc_end50:
	.size	ic_raw.table.RawTable.refusal_at.feecb86c9dd45d96, .Lfunc_end50-ic_raw.table.RawTable.refusal_at.feecb86c9dd45d96
	.cfi_endproc
	.section	.text.ic_list_algorithms.sort.sort_front.07d679d1abf7571e,"ax",%progbits
	.p2align	2
	.type	ic_list_algorithms.sort.sort_front.07d679d1abf7571e,%function
	.code	16
	.thumb_func
ic_list_algorithms.sort.sort_front.07d679d1abf7571e:
	.cfi_startproc
	push.w	{r4, r5, r6, r7, r8, r9, r10, r11, lr}
	.cfi_def_cfa_offset 36
	.cfi_offset lr, -4
	.cfi_offset r11, -8
	.cfi_offset r10, -12
	.cfi_offset r9, -16
	.cfi_offset r8, -20
	.cfi_offset r7, -24
	.cfi_offset r6, -28
	.cfi_offset r5, -32
	.cfi_offset r4, -36
	sub	sp, #68
	.cfi_def_cfa_offset 104
	add	r7, sp, #104
	mov	r12, r2
	ldm	r7, {r2, r3, r6, r7}
	orrs.w	r5, r6, r7
	mov	r4, r0
	beq	.LBB51_4
	eor	r0, r6, #1
	orrs	r0, r7
	bne	.LBB51_5
	ldr	r0, [r1]
	mov.w	lr, #1
	add	r0, r2
	ldrd	r6, r7, [r0, #-8]
	mov.w	r8, #0
	and	r7, r7, #15
	bic	r6, r6, #7
	orrs.w	r5, r6, r7
	strd	lr, r8, [r0, #-8]
	beq.w	.LBB51_8
	ldr	r0, [r1]
	add	r0, r6
	ldrd	r9, r5, [r0, #-8]
	and	r10, r5, #15
	bic	r9, r9, #7
	orrs.w	r5, r9, r10
	it	ne
	movne	r5, #1
	strd	lr, r8, [r0, #-8]
	mov	r0, r1
	mov	r1, r12
	strd	r6, r7, [sp]
	bl	ic_list_algorithms.merge.merge_runs.07d679d1abf7571e
	str	r1, [r4, #4]
	str	r0, [r4]
	str.w	r8, [r4, #12]
	str	r5, [r4, #8]
	str.w	r10, [r4, #20]
	str.w	r9, [r4, #16]
	add	sp, #68
	pop.w	{r4, r5, r6, r7, r8, r9, r10, r11, pc}
	.p2align	2
.LBB51_4:
	ldr	r0, [r1]
	mov.w	r12, #1
	add	r0, r2
	ldrd	r1, r7, [r0, #-8]
	movs	r5, #0
	and	r7, r7, #15
	bic	r1, r1, #7
	orrs.w	r6, r1, r7
	it	ne
	movne	r6, #1
	strd	r12, r5, [r0, #-8]
	str	r3, [r4, #4]
	str	r2, [r4]
	str	r5, [r4, #12]
	str	r6, [r4, #8]
	str	r7, [r4, #20]
	str	r1, [r4, #16]
	add	sp, #68
	pop.w	{r4, r5, r6, r7, r8, r9, r10, r11, pc}
	.p2align	2
.LBB51_5:
	subs	r5, r6, #1
	sbc	r7, r7, #0
	stm.w	sp, {r2, r3, r5}
	add	r0, sp, #40
	mov	r2, r12
	mov	r10, r1
	mov	r9, r12
	str	r7, [sp, #12]
	bl	ic_list_algorithms.sort.sort_front.07d679d1abf7571e
	ldrb.w	r0, [sp, #48]
	ldr.w	r8, [sp, #40]
	ldr	r6, [sp, #44]
	cmp	r0, #1
	bne	.LBB51_7
	ldrd	r0, r3, [sp, #56]
	mov	r1, r10
	str	r0, [sp]
	add	r0, sp, #16
	mov	r2, r9
	strd	r5, r7, [sp, #8]
	mov	r7, r10
	mov	r5, r9
	str	r3, [sp, #4]
	bl	ic_list_algorithms.sort.sort_front.07d679d1abf7571e
	ldrd	r12, lr, [sp, #16]
	ldrb.w	r9, [sp, #24]
	ldrd	r10, r11, [sp, #32]
	mov	r0, r7
	mov	r1, r5
	mov	r2, r8
	mov	r3, r6
	strd	r12, lr, [sp]
	bl	ic_list_algorithms.merge.merge_runs.07d679d1abf7571e
	str	r0, [r4]
	movs	r0, #0
	str	r1, [r4, #4]
	str	r0, [r4, #12]
	str.w	r9, [r4, #8]
	str.w	r11, [r4, #20]
	str.w	r10, [r4, #16]
	add	sp, #68
	pop.w	{r4, r5, r6, r7, r8, r9, r10, r11, pc}
	.p2align	2
.LBB51_7:
	movs	r0, #0
	str.w	r8, [r4]
	str	r6, [r4, #4]
	str	r0, [r4, #8]
	str	r0, [r4, #12]
	str	r0, [r4, #16]
	str	r0, [r4, #20]
	add	sp, #68
	pop.w	{r4, r5, r6, r7, r8, r9, r10, r11, pc}
	.p2align	2
.LBB51_8:
	str	r2, [r4]
	str	r3, [r4, #4]
	str.w	r8, [r4, #8]
	str.w	r8, [r4, #12]
	str.w	r8, [r4, #16]
	str.w	r8, [r4, #20]
	add	sp, #68
	pop.w	{r4, r5, r6, r7, r8, r9, r10, r11, pc}
.Lfunc_end51:
	.size	ic_list_algorithms.sort.sort_front.07d679d1abf7571e, .Lfunc_end51-ic_list_algorithms.sort.sort_front.07d679d1abf7571e
	.cfi_endproc
	.section	.text.ic_check.tree.check_below.ffc36cde30076884,"ax",%progbits
	.p2align	2
	.type	ic_check.tree.check_below.ffc36cde30076884,%function
	.code	16
	.thumb_func
ic_check.tree.check_below.ffc36cde30076884:
	.cfi_startproc
	push.w	{r4, r5, r6, r7, r8, r9, r10, r11, lr}
	.cfi_def_cfa_offset 36
	.cfi_offset lr, -4
	.cfi_offset r11, -8
	.cfi_offset r10, -12
	.cfi_offset r9, -16
	.cfi_offset r8, -20
	.cfi_offset r7, -24
	.cfi_offset r6, -28
	.cfi_offset r5, -32
	.cfi_offset r4, -36
	sub	sp, #100
	.cfi_def_cfa_offset 136
	lsls	r2, r2, #31
	beq	.LBB52_8
	ldr	r3, [sp, #160]
	cmp	r3, #0
	beq	.LBB52_7
	ldrd	r11, r10, [sp, #136]
	ldrd	r6, r4, [r1, #8]
	lsr.w	r2, r11, #3
	orr.w	r2, r2, r10, lsl #29
	subs	r6, r6, r2
	sbcs.w	r6, r4, r10, lsr #3
	blo	.LBB52_7
	ldr	r4, [r1]
	add.w	r8, r2, r2, lsl #1
	add.w	r2, r4, r8, lsl #3
	ldr	r4, [r2, #-24]
	lsls	r6, r4, #31
	beq	.LBB52_7
	ldrd	r6, r5, [r2, #-8]
	ldr.w	r9, [sp, #144]
	bic	r6, r6, #7
	and	r5, r5, #15
	lsls.w	r7, r9, #24
	ldrd	r12, lr, [sp, #152]
	itt	ne
	eorne.w	r5, r5, lr
	eorne.w	r6, r6, r12
	orrs.w	r7, r6, r5
	bne	.LBB52_7
	ldr	r7, [r2, #-20]
	bic	lr, r4, #7
	and	r12, r7, #15
	ldrd	r7, r6, [r2, #-16]
	orr.w	r2, lr, r12
	and	r4, r6, #15
	bic	r7, r7, #7
	orrs.w	r9, r7, r4
	it	ne
	movne.w	r9, #1
	cmp	r2, #0
	it	ne
	movne	r2, #1
	beq	.LBB52_9
	eor.w	r6, lr, r7
	eor.w	r5, r12, r4
	orrs	r6, r5
	bne	.LBB52_9
.LBB52_7:
	movs	r1, #0
	str	r1, [r0, #20]
	str	r1, [r0, #16]
	str	r1, [r0, #12]
	str	r1, [r0, #8]
	str	r1, [r0, #4]
	str	r1, [r0]
	add	sp, #100
	pop.w	{r4, r5, r6, r7, r8, r9, r10, r11, pc}
	.p2align	2
.LBB52_8:
	movs	r1, #0
	movs	r2, #1
	str	r1, [r0, #4]
	str	r2, [r0]
	str	r1, [r0, #12]
	str	r1, [r0, #8]
	str	r1, [r0, #16]
	strb	r2, [r0, #20]
	strh.w	r1, [r0, #21]
	strb	r1, [r0, #23]
	add	sp, #100
	pop.w	{r4, r5, r6, r7, r8, r9, r10, r11, pc}
	.p2align	2
.LBB52_9:
	mov	r5, r4
	str	r0, [sp, #44]
	subs	r6, r3, #1
	movs	r4, #1
	add	r0, sp, #72
	strd	r11, r10, [sp, #16]
	str	r6, [sp, #24]
	strd	lr, r12, [sp]
	str	r1, [sp, #40]
	str	r4, [sp, #8]
	bl	ic_check.tree.check_below.ffc36cde30076884
	ldrb.w	r0, [sp, #72]
	cmp	r0, #1
	bne	.LBB52_16
	ldr	r0, [sp, #80]
	ldr	r1, [sp, #40]
	str	r0, [sp, #36]
	ldr	r0, [sp, #84]
	mov	r3, r4
	str	r0, [sp, #32]
	ldrb.w	r0, [sp, #92]
	ldr	r4, [sp, #88]
	strd	r11, r10, [sp, #16]
	strd	r6, r0, [sp, #24]
	add	r0, sp, #48
	mov	r2, r9
	strd	r7, r5, [sp]
	str	r3, [sp, #8]
	bl	ic_check.tree.check_below.ffc36cde30076884
	ldrb.w	r0, [sp, #48]
	cmp	r0, #1
	bne	.LBB52_16
	ldr	r0, [sp, #64]
	cmp	r4, r0
	ldr	r0, [sp, #44]
	bne	.LBB52_17
	ldr	r1, [sp, #40]
	lsl.w	r3, r8, #3
	ldr	r1, [r1]
	ldr	r2, [sp, #56]
	add	r1, r3
	ldr	r1, [r1, #-8]
	ldr	r3, [sp, #60]
	lsls	r7, r1, #31
	bne	.LBB52_15
	ldr	r7, [sp, #28]
	cbz	r7, .LBB52_17
	ldrb.w	r7, [sp, #68]
	cbz	r7, .LBB52_17
.LBB52_15:
	ldr	r7, [sp, #36]
	and	r1, r1, #1
	adds	r2, r2, r7
	ldr	r7, [sp, #32]
	add.w	r6, r4, r1
	adcs	r7, r3
	adds	r3, r2, #1
	mov.w	r2, #0
	adc	r7, r7, #0
	strb.w	r2, [sp, #98]
	strh.w	r2, [sp, #96]
	movs	r2, #1
	b	.LBB52_18
	.p2align	2
.LBB52_16:
	ldr	r1, [sp, #44]
	movs	r0, #0
	str	r0, [r1, #20]
	str	r0, [r1, #16]
	str	r0, [r1, #12]
	str	r0, [r1, #8]
	str	r0, [r1, #4]
	str	r0, [r1]
	add	sp, #100
	pop.w	{r4, r5, r6, r7, r8, r9, r10, r11, pc}
	.p2align	2
.LBB52_17:
	movs	r2, #0
	strb.w	r2, [sp, #98]
	strh.w	r2, [sp, #96]
	movs	r3, #0
	movs	r7, #0
	movs	r6, #0
	movs	r1, #0
.LBB52_18:
	str	r2, [r0]
	strb	r1, [r0, #20]
	ldrh.w	r1, [sp, #96]
	ldrb.w	r2, [sp, #98]
	movs	r5, #0
	str	r5, [r0, #4]
	str	r3, [r0, #8]
	str	r7, [r0, #12]
	str	r6, [r0, #16]
	strh.w	r1, [r0, #21]
	strb	r2, [r0, #23]
	add	sp, #100
	pop.w	{r4, r5, r6, r7, r8, r9, r10, r11, pc}
.Lfunc_end52:
	.size	ic_check.tree.check_below.ffc36cde30076884, .Lfunc_end52-ic_check.tree.check_below.ffc36cde30076884
	.cfi_endproc
	.section	.text.ic_rbtree.join.roots.join.f4da04d8a93b4f27,"ax",%progbits
	.p2align	2
	.type	ic_rbtree.join.roots.join.f4da04d8a93b4f27,%function
	.code	16
	.thumb_func
ic_rbtree.join.roots.join.f4da04d8a93b4f27:
	.cfi_startproc
	push.w	{r4, r5, r6, r7, r8, r9, r10, r11, lr}
	.cfi_def_cfa_offset 36
	.cfi_offset lr, -4
	.cfi_offset r11, -8
	.cfi_offset r10, -12
	.cfi_offset r9, -16
	.cfi_offset r8, -20
	.cfi_offset r7, -24
	.cfi_offset r6, -28
	.cfi_offset r5, -32
	.cfi_offset r4, -36
	sub	sp, #92
	.cfi_def_cfa_offset 128
	ldr.w	lr, [sp, #136]
	lsls	r7, r1, #24
	mov	r12, r0
	beq	.LBB53_8
	ldr.w	r4, [r12]
	movs	r0, #0
	movs	r5, #0
	mov	r6, r2
	.p2align	2
.LBB53_2:
	lsrs	r6, r6, #3
	add.w	r6, r6, r6, lsl #1
	add.w	r6, r4, r6, lsl #3
	ldr	r7, [r6, #-8]
	cmp	r5, #65
	and	r7, r7, #1
	add	r0, r7
	bhi	.LBB53_4
	ldrd	r6, r7, [r6, #-24]
	adds	r5, #1
	and	r7, r7, #15
	bic	r6, r6, #7
	orrs	r7, r6
	bne	.LBB53_2
.LBB53_4:
	ldrd	r9, r8, [sp, #144]
	lsls.w	r4, lr, #24
	mov.w	r10, #0
	beq	.LBB53_9
.LBB53_5:
	ldr.w	r11, [r12]
	movs	r7, #0
	movs	r5, #0
	mov	r4, r9
	.p2align	2
.LBB53_6:
	lsrs	r4, r4, #3
	add.w	r4, r4, r4, lsl #1
	add.w	r4, r11, r4, lsl #3
	ldr	r6, [r4, #-8]
	cmp	r5, #65
	and	r6, r6, #1
	add	r7, r6
	bhi	.LBB53_10
	ldrd	r4, r6, [r4, #-24]
	adds	r5, #1
	and	r6, r6, #15
	bic	r4, r4, #7
	orrs	r6, r4
	bne	.LBB53_6
	b	.LBB53_10
	.p2align	2
.LBB53_8:
	movs	r0, #0
	ldrd	r9, r8, [sp, #144]
	lsls.w	r4, lr, #24
	mov.w	r10, #0
	bne	.LBB53_5
.LBB53_9:
	movs	r7, #0
.LBB53_10:
	ldrd	r5, r6, [sp, #128]
	uxtb.w	r4, lr
	uxtb	r1, r1
	cmp	r7, r0
	strd	r1, r10, [sp, #64]
	strd	r2, r3, [sp, #72]
	strd	r0, r10, [sp, #80]
	strd	r4, r10, [sp, #40]
	strd	r9, r8, [sp, #48]
	strd	r7, r10, [sp, #56]
	strd	r10, r10, [sp, #16]
	strd	r10, r10, [sp, #24]
	str.w	r10, [sp, #32]
	str.w	r10, [sp, #36]
	bls	.LBB53_12
	add	r7, sp, #64
	add	r0, sp, #16
	add	r2, sp, #40
	mov	r1, r12
	movs	r3, #0
	strd	r5, r6, [sp]
	b	.LBB53_13
	.p2align	2
.LBB53_12:
	add	r7, sp, #40
	strd	r5, r6, [sp]
	add	r0, sp, #16
	add	r2, sp, #64
	mov	r1, r12
	movs	r3, #1
.LBB53_13:
	str	r7, [sp, #8]
	bl	ic_rbtree.join.roots.join_higher.f4da04d8a93b4f27
	ldr	r2, [sp, #28]
	ldrb.w	r0, [sp, #16]
	ldr	r1, [sp, #24]
	add	sp, #92
	pop.w	{r4, r5, r6, r7, r8, r9, r10, r11, pc}
.Lfunc_end53:
	.size	ic_rbtree.join.roots.join.f4da04d8a93b4f27, .Lfunc_end53-ic_rbtree.join.roots.join.f4da04d8a93b4f27
	.cfi_endproc
	.section	.text.ic_rbtree.join.roots.join_higher.f4da04d8a93b4f27,"ax",%progbits
	.p2align	2
	.type	ic_rbtree.join.roots.join_higher.f4da04d8a93b4f27,%function
	.code	16
	.thumb_func
ic_rbtree.join.roots.join_higher.f4da04d8a93b4f27:
	.cfi_startproc
	push.w	{r4, r5, r6, r7, r8, r9, r10, r11, lr}
	.cfi_def_cfa_offset 36
	.cfi_offset lr, -4
	.cfi_offset r11, -8
	.cfi_offset r10, -12
	.cfi_offset r9, -16
	.cfi_offset r8, -20
	.cfi_offset r7, -24
	.cfi_offset r6, -28
	.cfi_offset r5, -32
	.cfi_offset r4, -36
	sub	sp, #52
	.cfi_def_cfa_offset 88
	ldr	r7, [sp, #96]
	mov	r5, r1
	ldrb	r1, [r7]
	ldrb.w	r12, [r2]
	str	r1, [sp, #44]
	ldr	r1, [r7, #8]
	ldr	r4, [r2, #12]
	ldr.w	r8, [r2, #8]
	ldr.w	r9, [r2, #16]
	str	r1, [sp, #20]
	lsls	r1, r3, #31
	mvn	r2, #23
	ldr	r6, [r7, #12]
	str	r1, [sp, #24]
	it	ne
	mvnne	r2, #15
	ldr.w	r11, [r5]
	cmp.w	r12, #1
	strd	r0, r9, [sp, #8]
	str	r6, [sp, #16]
	strd	r8, r4, [sp, #28]
	str.w	r11, [sp, #40]
	bne	.LBB54_4
	lsr.w	r1, r8, #3
	add.w	r1, r1, r1, lsl #1
	add.w	r3, r11, r1, lsl #3
	ldr	r7, [r7, #16]
	ldr	r1, [r3, #-8]
	cmp	r9, r7
	and	lr, r1, #1
	str	r7, [sp, #4]
	bne.w	.LBB54_18
	cmp.w	lr, #0
	beq.w	.LBB54_18
	mov.w	lr, #0
	mov.w	r9, #1
	mov	r10, r8
	mov	r3, r4
	mov.w	r8, #0
	b	.LBB54_5
	.p2align	2
.LBB54_4:
	mov	r10, r8
	mov.w	r8, #0
	mov.w	lr, #1
	mov	r3, r4
	mov.w	r9, #1
.LBB54_5:
	movs	r0, #0
.LBB54_6:
	str	r0, [sp, #48]
.LBB54_7:
	ldr	r0, [sp, #32]
	cmp.w	r12, #0
	it	eq
	moveq	r0, r12
	str	r0, [sp, #32]
	ldr	r0, [sp, #28]
	it	eq
	moveq	r0, r12
	ldr	r6, [sp, #88]
	ldr	r1, [sp, #24]
	str	r0, [sp, #28]
	lsrs	r0, r6, #3
	cmp	r1, #0
	ldr	r1, [sp, #40]
	add.w	r0, r0, r0, lsl #1
	lsl.w	r4, r0, #3
	add.w	r0, r1, r0, lsl #3
	beq	.LBB54_9
	ldr	r1, [sp, #44]
	ldr	r7, [sp, #16]
	cmp	r1, #0
	it	eq
	moveq	r7, r1
	ldr	r2, [sp, #20]
	it	ne
	movne	r1, r2
	strd	r1, r7, [r0, #-16]
	ldr	r0, [r5]
	add	r0, r4
	ldr	r1, [r0, #-24]
	and	r1, r1, #1
	adds.w	r2, r1, r10
	adc	r3, r3, #0
	cmp.w	lr, #0
	itt	ne
	movne	r2, r1
	movne	r3, #0
	strd	r2, r3, [r0, #-24]
	b	.LBB54_10
	.p2align	2
.LBB54_9:
	ldr	r1, [r0, #-24]
	ldr	r2, [sp, #20]
	and	r1, r1, #1
	ldr	r7, [sp, #16]
	adds	r2, r2, r1
	adc	r6, r7, #0
	ldr	r7, [sp, #44]
	cmp	r7, #0
	itt	eq
	moveq	r6, r7
	moveq	r2, r1
	strd	r2, r6, [r0, #-24]
	ldr	r0, [r5]
	ldr	r6, [sp, #88]
	add	r0, r4
	mov	r1, r10
	cmp.w	lr, #0
	itt	ne
	movne	r3, #0
	movne	r1, #0
	strd	r1, r3, [r0, #-16]
.LBB54_10:
	ldr	r0, [r5]
	ldr	r3, [sp, #48]
	add	r0, r4
	ldr	r1, [r0, #-8]
	ldr.w	r11, [sp, #12]
	and	r1, r1, #1
	adds.w	r2, r1, r8
	ldr	r7, [sp, #92]
	adc	r3, r3, #0
	cmp.w	r9, #0
	itt	ne
	movne	r2, r1
	movne	r3, #0
	cmp.w	lr, #0
	strd	r2, r3, [r0, #-8]
	bne	.LBB54_12
	ldr	r0, [r5]
	lsr.w	r1, r10, #3
	add.w	r1, r1, r1, lsl #1
	add.w	r0, r0, r1, lsl #3
	ldr	r1, [r0, #-8]
	and	r1, r1, #1
	orrs	r1, r6
	strd	r1, r7, [r0, #-8]
.LBB54_12:
	ldr	r0, [sp, #44]
	cmp	r0, #1
	bne	.LBB54_14
	ldr	r1, [sp, #20]
	ldr	r0, [r5]
	lsrs	r1, r1, #3
	add.w	r1, r1, r1, lsl #1
	add.w	r0, r0, r1, lsl #3
	ldr	r1, [r0, #-8]
	and	r1, r1, #1
	orrs	r1, r6
	strd	r1, r7, [r0, #-8]
.LBB54_14:
	ldr	r0, [r5]
	cmp.w	r9, #0
	add	r0, r4
	ldrd	r1, r2, [r0, #-8]
	beq	.LBB54_16
	orr	r1, r1, #1
	ldr	r5, [sp, #8]
	strd	r1, r2, [r0, #-8]
	movs	r0, #1
	b	.LBB54_77
	.p2align	2
.LBB54_16:
	bic	r1, r1, #1
	strd	r1, r2, [r0, #-8]
	ldr	r0, [r5]
	lsr.w	r1, r8, #3
	ldr	r2, [sp, #24]
	add.w	r1, r1, r1, lsl #1
	add.w	r0, r0, r1, lsl #3
	cbz	r2, .LBB54_22
	strd	r6, r7, [r0, #-16]
	b	.LBB54_23
	.p2align	2
.LBB54_18:
	adds	r1, r3, r2
	str	r5, [sp, #36]
	ldr	r5, [r3, r2]
	ldr	r1, [r1, #4]
	bic	r10, r5, #7
	and	r3, r1, #15
	orrs.w	r1, r10, r3
	beq.w	.LBB54_36
	lsrs	r1, r5, #3
	add.w	r5, r1, r1, lsl #1
	add.w	r1, r11, r5, lsl #3
	ldr	r1, [r1, #-8]
	sub.w	r0, r9, lr
	ands	r7, r1, #1
	beq.w	.LBB54_47
	ldr	r1, [sp, #4]
	cmp	r0, r1
	bne.w	.LBB54_47
	mov.w	lr, #0
	b	.LBB54_37
	.p2align	2
.LBB54_22:
	ldr	r1, [r0, #-24]
	and	r1, r1, #1
	orrs	r1, r6
	strd	r1, r7, [r0, #-24]
.LBB54_23:
	movs	r0, #0
	mov.w	r12, #67
	str	r5, [sp, #36]
	b	.LBB54_25
	.p2align	2
.LBB54_24:
	ldr	r0, [r5]
	bic	r1, r1, #7
	add	r0, r7
	ldr	r2, [r0, #-8]
	orrs	r1, r3
	orr	r2, r2, #1
	str	r2, [r0, #-8]
	ldr	r0, [r5]
	clz	r1, r1
	add	r0, r11
	ldr	r2, [r0, #-8]
	lsrs	r1, r1, #5
	bic	r2, r2, #1
	add	r1, r2
	str	r1, [r0, #-8]
	ldr	r0, [r5]
	ldr	r7, [sp, #40]
	add	r0, r11
	ldrd	r0, r1, [r0, #-8]
	subs.w	r12, r12, #1
	and	r1, r1, #15
	bic	r8, r0, #7
	orr.w	r0, r8, r1
	clz	r0, r0
	lsr.w	r0, r0, #5
	mov	r6, r10
	str	r1, [sp, #48]
	beq	.LBB54_35
.LBB54_25:
	lsls	r0, r0, #31
	bne	.LBB54_38
	ldr	r4, [r5]
	lsr.w	r0, r8, #3
	add.w	r10, r0, r0, lsl #1
	add.w	r2, r4, r10, lsl #3
	ldr	r0, [r2, #-8]
	str	r7, [sp, #20]
	lsls	r1, r0, #31
	bne	.LBB54_35
	str	r6, [sp, #24]
	ldr	r6, [r2, #-4]
	bic	r3, r0, #7
	and	r1, r6, #15
	strd	r1, r3, [sp, #40]
	orrs	r1, r3
	beq	.LBB54_35
	lsrs	r1, r0, #3
	add.w	r11, r1, r1, lsl #1
	add.w	r9, r4, r11, lsl #3
	ldrd	lr, r1, [r9, #-24]
	lsl.w	r3, r10, #3
	str	r3, [sp, #16]
	ldr	r3, [sp, #48]
	bic	r7, lr, #7
	and	r1, r1, #15
	eor.w	r5, r1, r3
	eor.w	r3, r7, r8
	orrs	r3, r5
	lsl.w	r11, r11, #3
	bne	.LBB54_32
	ldrd	r1, r3, [r9, #-16]
	ldr.w	r10, [sp, #44]
	and	r3, r3, #15
	bic	r5, r1, #7
	orrs	r3, r5
	beq.w	.LBB54_45
	lsrs	r1, r1, #3
	add.w	r7, r1, r1, lsl #1
	add.w	r1, r4, r7, lsl #3
	ldr	r1, [r1, #-8]
	lsls	r1, r1, #31
	bne.w	.LBB54_45
	ldrd	r1, r3, [r9, #-8]
	orr	r0, r0, #1
	ldr	r5, [sp, #36]
	lsls	r7, r7, #3
	and	r3, r3, #15
	strd	r0, r6, [r2, #-8]
	b	.LBB54_24
	.p2align	2
.LBB54_32:
	ldr	r5, [sp, #36]
	ldr.w	r10, [sp, #44]
	orrs	r1, r7
	beq	.LBB54_40
	lsr.w	r1, lr, #3
	add.w	r7, r1, r1, lsl #1
	add.w	r1, r4, r7, lsl #3
	ldr	r1, [r1, #-8]
	lsls	r1, r1, #31
	bne	.LBB54_40
	ldrd	r1, r3, [r9, #-8]
	lsls	r7, r7, #3
	and	r3, r3, #15
	orr	r0, r0, #1
	strd	r0, r6, [r2, #-8]
	b	.LBB54_24
	.p2align	2
.LBB54_35:
	movs	r0, #0
	b	.LBB54_39
	.p2align	2
.LBB54_36:
	mov.w	r10, #0
	mov.w	lr, #1
	movs	r3, #0
.LBB54_37:
	ldr	r0, [sp, #32]
	ldr	r5, [sp, #36]
	mov.w	r9, #0
	b	.LBB54_6
	.p2align	2
.LBB54_38:
	movs	r0, #1
.LBB54_39:
	ldrd	r6, r7, [sp, #28]
	ldrd	r5, r11, [sp, #8]
	b	.LBB54_77
	.p2align	2
.LBB54_40:
	ldrd	r0, r3, [r2, #-24]
	ldr	r1, [sp, #20]
	ldr	r6, [sp, #24]
	bic	r9, r0, #7
	and	r10, r3, #15
	eor.w	r1, r1, r10
	eor.w	r7, r9, r6
	mov	r12, r11
	orrs	r1, r7
	bne.w	.LBB54_52
	lsrs	r1, r6, #3
	add.w	r1, r1, r1, lsl #1
	add.w	r3, r4, r1, lsl #3
	ldrd	r3, r7, [r3, #-16]
	lsl.w	lr, r1, #3
	and	r1, r7, #15
	bic	r7, r3, #7
	orrs.w	r6, r7, r1
	and	r0, r0, #1
	ldr.w	r11, [sp, #12]
	ldr	r6, [sp, #48]
	add	r0, r7
	mov	r4, r8
	strd	r0, r1, [r2, #-24]
	beq	.LBB54_43
	ldr	r0, [r5]
	lsrs	r1, r3, #3
	add.w	r1, r1, r1, lsl #1
	add.w	r0, r0, r1, lsl #3
	ldr	r1, [r0, #-8]
	and	r1, r1, #1
	orrs	r1, r4
	strd	r1, r6, [r0, #-8]
.LBB54_43:
	ldr	r0, [r5]
	ldr	r2, [sp, #44]
	add	r0, lr
	ldr	r1, [r0, #-8]
	and	r1, r1, #1
	orrs	r1, r2
	ldr	r2, [sp, #40]
	strd	r1, r2, [r0, #-8]
	ldr	r0, [r5]
	add	r0, lr
	ldr	r1, [r0, #-8]
	bic	r1, r1, #1
	str	r1, [r0, #-8]
	ldr	r0, [r5]
	add	r0, r12
	ldrd	r2, r1, [r0, #-24]
	bic	r3, r2, #7
	and	r1, r1, #15
	eors	r1, r6
	eors	r3, r4
	orrs	r1, r3
	ldrd	r4, r3, [sp, #16]
	bne.w	.LBB54_59
	and	r1, r2, #1
	ldr	r2, [sp, #24]
	orrs	r1, r2
	strd	r1, r3, [r0, #-24]
	b	.LBB54_60
	.p2align	2
.LBB54_45:
	ldrd	r0, r1, [r2, #-24]
	ldr.w	r9, [sp, #20]
	ldr	r3, [sp, #24]
	bic	r0, r0, #7
	and	r1, r1, #15
	eor.w	r1, r1, r9
	eors	r0, r3
	ldr	r5, [sp, #36]
	orrs	r0, r1
	str.w	r11, [sp, #4]
	bne	.LBB54_53
	ldr.w	r9, [sp, #48]
	ldr	r2, [sp, #4]
	ldrd	r11, r0, [sp, #12]
	str.w	r8, [sp, #24]
	b	.LBB54_71
	.p2align	2
.LBB54_47:
	lsls	r4, r5, #3
	ldr	r5, [sp, #36]
	add	r2, r11
	mov.w	r11, #66
	.p2align	2
.LBB54_48:
	adds	r1, r2, r4
	ldr	r4, [r2, r4]
	ldr	r1, [r1, #4]
	str	r3, [sp, #48]
	mov	r8, r10
	bic	r10, r4, #7
	and	r3, r1, #15
	orr.w	r1, r10, r3
	clz	r1, r1
	subs.w	r11, r11, #1
	lsr.w	lr, r1, #5
	beq	.LBB54_58
	cmp.w	lr, #0
	bne	.LBB54_57
	lsrs	r1, r4, #3
	ldr	r6, [sp, #40]
	add.w	r1, r1, r1, lsl #1
	add.w	r4, r6, r1, lsl #3
	ldr	r4, [r4, #-8]
	subs	r0, r0, r7
	ands	r7, r4, #1
	lsl.w	r4, r1, #3
	beq	.LBB54_48
	ldr	r1, [sp, #4]
	mov.w	lr, #0
	cmp	r0, r1
	mov.w	r9, #0
	bne	.LBB54_48
	b	.LBB54_7
	.p2align	2
.LBB54_52:
	lsrs	r0, r0, #3
	orr.w	r2, r0, r3, lsl #29
	ldr	r0, [sp, #48]
	ldr.w	r11, [sp, #12]
	str.w	r8, [sp, #24]
	str	r0, [sp, #20]
	b	.LBB54_61
	.p2align	2
.LBB54_53:
	lsrs	r0, r3, #3
	add.w	r0, r0, r0, lsl #1
	add.w	r1, r4, r0, lsl #3
	ldrd	r3, r1, [r1, #-24]
	ldr.w	r11, [sp, #12]
	and	r1, r1, #15
	bic	r7, r3, #7
	orrs.w	r6, r7, r1
	ldr	r6, [sp, #48]
	lsl.w	r0, r0, #3
	strd	r7, r1, [r2, #-16]
	beq	.LBB54_55
	ldr	r1, [r5]
	lsrs	r2, r3, #3
	add.w	r2, r2, r2, lsl #1
	add.w	r1, r1, r2, lsl #3
	ldr	r2, [r1, #-8]
	and	r2, r2, #1
	orr.w	r2, r2, r8
	strd	r2, r6, [r1, #-8]
.LBB54_55:
	ldr	r1, [r5]
	ldr	r3, [sp, #40]
	add	r1, r0
	ldr	r2, [r1, #-8]
	and	r2, r2, #1
	orr.w	r2, r2, r10
	strd	r2, r3, [r1, #-8]
	ldr	r1, [r5]
	add	r1, r0
	ldr	r2, [r1, #-8]
	bic	r2, r2, #1
	str	r2, [r1, #-8]
	ldr	r1, [r5]
	ldr	r2, [sp, #4]
	add	r2, r1
	ldrd	r3, r1, [r2, #-24]
	bic	r7, r3, #7
	and	r1, r1, #15
	eors	r1, r6
	eor.w	r7, r7, r8
	orrs	r1, r7
	bne.w	.LBB54_69
	and	r1, r3, #1
	ldr	r3, [sp, #24]
	orrs	r1, r3
	strd	r1, r9, [r2, #-24]
	b	.LBB54_70
	.p2align	2
.LBB54_57:
	mov.w	r10, #0
	mov.w	lr, #1
	movs	r3, #0
.LBB54_58:
	mov.w	r9, #0
	b	.LBB54_7
	.p2align	2
.LBB54_59:
	ldr	r2, [sp, #24]
	strd	r2, r3, [r0, #-16]
.LBB54_60:
	ldr	r0, [r5]
	str.w	lr, [sp, #16]
	add	r0, lr
	strd	r8, r6, [r0, #-16]
	ldr	r0, [r5]
	add	r0, r4
	ldr	r1, [r0, #-8]
	and	r1, r1, #1
	orrs	r1, r2
	strd	r1, r3, [r0, #-8]
	ldr	r0, [r5]
	add	r0, r4
	ldr	r1, [r0, #-8]
	bic	r1, r1, #1
	str	r1, [r0, #-8]
	ldr	r4, [r5]
	add.w	r0, r4, lr
	ldrd	r0, r1, [r0, #-24]
	bic	r9, r0, #7
	lsrs	r0, r0, #3
	and	r10, r1, #15
	orr.w	r2, r0, r1, lsl #29
.LBB54_61:
	add.w	r1, r4, r12
	ldrd	r0, r3, [r1, #-8]
	orrs.w	r7, r9, r10
	strd	r9, r10, [r1, #-16]
	ldr	r5, [sp, #8]
	ldr.w	lr, [sp, #28]
	ldrd	r7, r9, [sp, #36]
	ldr.w	r8, [sp, #44]
	and	r3, r3, #15
	bic	r4, r0, #7
	beq	.LBB54_63
	ldr	r1, [r7]
	add.w	r2, r2, r2, lsl #1
	add.w	r1, r1, r2, lsl #3
	ldr	r2, [r1, #-8]
	and	r2, r2, #1
	orr.w	r2, r2, r8
	strd	r2, r9, [r1, #-8]
.LBB54_63:
	ldr	r1, [r7]
	ldr	r6, [sp, #16]
	add	r1, r6
	ldr	r2, [r1, #-8]
	and	r2, r2, #1
	orrs	r2, r4
	strd	r2, r3, [r1, #-8]
	ldr	r1, [r7]
	orrs	r3, r4
	add	r1, r6
	ldr	r2, [r1, #-8]
	ldr	r4, [sp, #20]
	orr	r2, r2, #1
	str	r2, [r1, #-8]
	ldr	r2, [sp, #24]
	mov	r3, r4
	mov	r10, r2
	beq	.LBB54_68
	ldr	r1, [r7]
	lsrs	r0, r0, #3
	add.w	r0, r0, r0, lsl #1
	add.w	r0, r1, r0, lsl #3
	ldrd	r2, r1, [r0, #-24]
	bic	r3, r2, #7
	and	r1, r1, #15
	eor.w	r1, r1, r9
	eor.w	r3, r3, r8
	orrs	r1, r3
	bne	.LBB54_66
	and	r1, r2, #1
	ldr	r2, [sp, #24]
	orrs	r1, r2
	strd	r1, r4, [r0, #-24]
	b	.LBB54_67
	.p2align	2
.LBB54_66:
	ldr	r2, [sp, #24]
	strd	r2, r4, [r0, #-16]
.LBB54_67:
	ldrd	r3, r7, [sp, #32]
	mov	r10, lr
.LBB54_68:
	ldr	r0, [r7]
	add	r0, r6
	ldr	r1, [r0, #-24]
	mov	r6, r10
	and	r1, r1, #1
	orr.w	r1, r1, r8
	strd	r1, r9, [r0, #-24]
	ldr	r0, [r7]
	add	r0, r12
	ldr	r1, [r0, #-8]
	and	r1, r1, #1
	orrs	r1, r2
	strd	r1, r4, [r0, #-8]
	ldr	r0, [r7]
	b	.LBB54_76
	.p2align	2
.LBB54_69:
	ldr	r3, [sp, #24]
	strd	r3, r9, [r2, #-16]
.LBB54_70:
	ldr	r1, [r5]
	ldr	r7, [sp, #16]
	add	r1, r0
	ldr	r2, [r1, #-24]
	and	r2, r2, #1
	orr.w	r2, r2, r8
	strd	r2, r6, [r1, #-24]
	ldr	r1, [r5]
	add	r1, r7
	ldr	r2, [r1, #-8]
	and	r2, r2, #1
	orrs	r2, r3
	strd	r2, r9, [r1, #-8]
	ldr	r1, [r5]
	add	r1, r7
	ldr	r2, [r1, #-8]
	bic	r2, r2, #1
	str	r2, [r1, #-8]
	ldr	r4, [r5]
	ldr	r2, [sp, #4]
	adds	r1, r4, r2
	ldr	lr, [r1, #-24]
.LBB54_71:
	mov	r12, r0
	add	r0, r4
	ldrd	r6, r0, [r0, #-16]
	adds	r5, r4, r2
	and	r1, r0, #15
	bic	r7, r6, #7
	and	r4, lr, #1
	ldrd	r0, r2, [r5, #-8]
	orrs.w	r3, r7, r1
	add	r7, r4
	strd	r7, r1, [r5, #-24]
	ldr	r5, [sp, #8]
	ldr.w	lr, [sp, #28]
	ldrd	r4, r8, [sp, #36]
	and	r2, r2, #15
	bic	r3, r0, #7
	beq	.LBB54_73
	ldr	r1, [r4]
	lsrs	r7, r6, #3
	add.w	r7, r7, r7, lsl #1
	add.w	r1, r1, r7, lsl #3
	ldr	r7, [r1, #-8]
	and	r7, r7, #1
	orr.w	r7, r7, r10
	strd	r7, r8, [r1, #-8]
.LBB54_73:
	ldr	r1, [r4]
	ldr	r6, [sp, #24]
	add	r1, r12
	ldr	r7, [r1, #-8]
	and	r7, r7, #1
	orrs	r7, r3
	strd	r7, r2, [r1, #-8]
	ldr	r1, [r4]
	orrs	r2, r3
	add	r1, r12
	ldr	r7, [r1, #-8]
	mov	r3, r9
	orr	r2, r7, #1
	str	r2, [r1, #-8]
	mov	r2, r6
	beq	.LBB54_75
	ldr	r1, [r4]
	lsrs	r0, r0, #3
	add.w	r0, r0, r0, lsl #1
	add.w	r0, r1, r0, lsl #3
	ldrd	r2, r1, [r0, #-24]
	bic	r3, r2, #7
	and	r1, r1, #15
	eor.w	r1, r1, r8
	eor.w	r3, r3, r10
	orrs	r1, r3
	iteee	ne
	strdne	r6, r9, [r0, #-16]
	andeq	r1, r2, #1
	orreq	r1, r6
	strdeq	r1, r9, [r0, #-24]
	ldrd	r3, r4, [sp, #32]
	mov	r2, lr
.LBB54_75:
	ldr	r0, [r4]
	add	r0, r12
	strd	r10, r8, [r0, #-16]
	ldr	r0, [r4]
	ldr.w	r12, [sp, #4]
	add	r0, r12
	ldr	r1, [r0, #-8]
	and	r1, r1, #1
	orrs	r1, r6
	strd	r1, r9, [r0, #-8]
	ldr	r0, [r4]
	mov	r6, r2
.LBB54_76:
	add	r0, r12
	ldr	r1, [r0, #-8]
	bic	r1, r1, #1
	str	r1, [r0, #-8]
	movs	r0, #0
	mov	r7, r3
.LBB54_77:
	orrs.w	r1, r6, r7
	add	r0, r11
	mov.w	r2, #0
	it	ne
	movne	r1, #1
	str	r2, [r5, #4]
	str	r1, [r5]
	str	r6, [r5, #8]
	str	r7, [r5, #12]
	str	r0, [r5, #16]
	add	sp, #52
	pop.w	{r4, r5, r6, r7, r8, r9, r10, r11, pc}
.Lfunc_end54:
	.size	ic_rbtree.join.roots.join_higher.f4da04d8a93b4f27, .Lfunc_end54-ic_rbtree.join.roots.join_higher.f4da04d8a93b4f27
	.cfi_endproc
	.section	.text.ic_raw.search_calls.insert,"ax",%progbits
	.p2align	2
	.type	ic_raw.search_calls.insert,%function
	.code	16
	.thumb_func
ic_raw.search_calls.insert:
	.cfi_startproc
	push.w	{r4, r5, r6, r7, r8, r9, r10, r11, lr}
	.cfi_def_cfa_offset 36
	.cfi_offset lr, -4
	.cfi_offset r11, -8
	.cfi_offset r10, -12
	.cfi_offset r9, -16
	.cfi_offset r8, -20
	.cfi_offset r7, -24
	.cfi_offset r6, -28
	.cfi_offset r5, -32
	.cfi_offset r4, -36
	sub	sp, #76
	.cfi_def_cfa_offset 112
	ldrd	r7, r1, [sp, #120]
	str	r0, [sp, #28]
	str	r0, [sp, #56]
	movs	r0, #0
	str	r0, [sp, #60]
	subs	r0, r7, r2
	sbcs.w	r0, r1, r3
	str	r3, [sp, #68]
	str	r3, [sp, #12]
	str	r2, [sp, #16]
	str	r2, [sp, #64]
	blo.w	.LBB55_18
	ldr	r0, [sp, #128]
	ldrd	r0, r1, [r0]
	and	r2, r1, #15
	bic	r1, r0, #7
	orrs.w	r0, r1, r2
	ldr	r0, [sp, #132]
	strd	r1, r2, [sp, #4]
	add.w	r0, r0, #1
	str	r0, [sp, #20]
	beq.w	.LBB55_11
	lsrs	r0, r1, #3
	ldr	r1, [sp, #16]
	orr.w	r0, r0, r2, lsl #29
	subs	r1, r1, r0
	ldr	r1, [sp, #12]
	sbcs.w	r1, r1, r2, lsr #3
	blo.w	.LBB55_18
	ldr	r1, [sp, #20]
	cmp	r1, #0
	beq.w	.LBB55_18
	ldrd	r1, r2, [sp, #16]
	subs	r1, r1, r2
	ldr	r1, [sp, #12]
	sbcs	r1, r1, #0
	blo.w	.LBB55_18
	ldr	r1, [sp, #28]
	add.w	r0, r0, r0, lsl #1
	add.w	r0, r1, r0, lsl #3
	ldr	r0, [r0, #-24]
	ands	r0, r0, #1
	beq.w	.LBB55_18
	ldr.w	r8, [sp, #112]
	ldr	r0, [sp, #20]
	ldr	r1, [sp, #16]
	add.w	r0, r8, r0, lsl #3
	ldrd	lr, r6, [r0, #-8]
	ldr	r0, [sp, #12]
	ldrd	r4, r5, [sp, #4]
	lsls	r0, r0, #3
	orr.w	r0, r0, r1, lsr #29
	str	r0, [sp, #52]
	lsls	r0, r1, #3
	str	r0, [sp, #48]
	movs	r1, #22
	.p2align	2
.LBB55_7:
	lsrs	r0, r4, #3
	ldr.w	r11, [sp, #28]
	add.w	r2, r8, r4
	add.w	r0, r0, r0, lsl #1
	ldrd	r2, r3, [r2, #-8]
	strd	r1, r5, [sp, #32]
	add.w	r1, r11, r0, lsl #3
	ldrd	r5, r0, [r1, #-24]
	ldr	r9, [r1, #-16]
	ldr	r7, [r1, #-12]
	subs.w	r1, lr, r2
	sbcs.w	r1, r6, r3
	mov	r12, r8
	mov.w	r1, #0
	mov	r8, r6
	mov	r6, r5
	mov	r2, r0
	str	r4, [sp, #40]
	it	hs
	movhs	r1, #1
	cmp	r1, #0
	itt	ne
	movne	r6, r9
	movne	r2, r7
	and	r3, r2, #15
	bic	r2, r6, #7
	str	r2, [sp, #44]
	subs	r2, #1
	ldr.w	r10, [sp, #48]
	str	r3, [sp, #24]
	sbc	r4, r3, #0
	ldr	r3, [sp, #52]
	subs.w	r2, r2, r10
	sbcs.w	r2, r4, r3
	mov.w	r2, #0
	bhs	.LBB55_14
	ldr	r4, [sp, #44]
	lsrs	r0, r6, #3
	add	r4, r12
	add.w	r0, r0, r0, lsl #1
	ldrd	r4, r6, [r4, #-8]
	add.w	r1, r11, r0, lsl #3
	mov	r9, r11
	ldrd	r0, r5, [r1, #-24]
	ldr	r3, [r1, #-16]
	ldr	r11, [r1, #-12]
	subs.w	r1, lr, r4
	sbcs.w	r1, r8, r6
	mov	r6, r0
	mov	r1, r5
	it	hs
	movhs	r2, #1
	cmp	r2, #0
	itt	ne
	movne	r6, r3
	movne	r1, r11
	and	r7, r1, #15
	bic	r1, r6, #7
	subs	r4, r1, #1
	str	r1, [sp, #40]
	sbc	r1, r7, #0
	subs.w	r4, r4, r10
	ldr	r4, [sp, #52]
	sbcs	r1, r4
	bhs	.LBB55_15
	ldr	r2, [sp, #40]
	lsrs	r0, r6, #3
	add.w	r0, r0, r0, lsl #1
	add	r2, r12
	add.w	r1, r9, r0, lsl #3
	ldrd	r2, r3, [r2, #-8]
	sub.w	r10, r1, #24
	str	r7, [sp, #44]
	ldm.w	r10, {r0, r7, r10}
	ldr	r6, [r1, #-12]
	subs.w	r1, lr, r2
	sbcs.w	r1, r8, r3
	mov.w	r2, #0
	mov	r1, r0
	mov	r3, r7
	it	hs
	movhs	r2, #1
	cmp	r2, #0
	itt	ne
	movne	r1, r10
	movne	r3, r6
	bic	r4, r1, #7
	ldr	r1, [sp, #48]
	mov	r9, r12
	mov	r12, lr
	and	r5, r3, #15
	subs.w	lr, r4, #1
	sbc	r3, r5, #0
	subs.w	r1, lr, r1
	ldr	r1, [sp, #52]
	sbcs.w	r1, r3, r1
	ldr	r1, [sp, #32]
	mov.w	r3, #0
	bhs	.LBB55_16
	mov	r11, r8
	subs	r1, #1
	mov	r8, r9
	mov	lr, r12
	mov	r6, r11
	bne.w	.LBB55_7
	b	.LBB55_18
	.p2align	2
.LBB55_11:
	cmp	r0, #0
	beq	.LBB55_18
	ldrd	r0, r1, [sp, #16]
	subs	r0, r0, r1
	ldr	r0, [sp, #12]
	sbcs	r0, r0, #0
	blo	.LBB55_18
	movs	r7, #0
	movs	r1, #1
	mov.w	r10, #0
	b	.LBB55_21
	.p2align	2
.LBB55_14:
	ldr	r4, [sp, #44]
	ldr	r6, [sp, #24]
	subs	r3, r5, r4
	sbcs	r0, r6
	mov.w	r0, #0
	it	hs
	movhs	r0, #1
	subs.w	r3, r9, r4
	sbcs.w	r3, r7, r6
	it	hs
	movhs	r2, #1
	ldr.w	r10, [sp, #36]
	orrs	r0, r2
	it	eq
	moveq	r10, r0
	ldr	r7, [sp, #40]
	it	eq
	moveq	r7, r0
	and.w	r2, r1, r0
	b	.LBB55_17
	.p2align	2
.LBB55_15:
	ldr	r6, [sp, #40]
	movs	r1, #0
	subs	r0, r0, r6
	sbcs.w	r0, r5, r7
	mov.w	r0, #0
	it	hs
	movhs	r1, #1
	subs	r3, r3, r6
	sbcs.w	r3, r11, r7
	it	hs
	movhs	r0, #1
	ldr.w	r10, [sp, #24]
	orrs	r0, r1
	it	eq
	moveq	r10, r0
	ldr.w	r8, [sp, #44]
	it	eq
	moveq	r8, r0
	ands	r2, r0
	mov	r7, r8
	b	.LBB55_17
	.p2align	2
.LBB55_16:
	subs	r0, r0, r4
	sbcs.w	r0, r7, r5
	mov.w	r0, #0
	it	hs
	movhs	r0, #1
	subs.w	r1, r10, r4
	sbcs.w	r1, r6, r5
	it	hs
	movhs	r3, #1
	orrs	r0, r3
	ldr.w	r10, [sp, #44]
	it	eq
	moveq	r10, r0
	ldr	r7, [sp, #40]
	and.w	r2, r2, r0
	it	eq
	moveq	r7, r0
.LBB55_17:
	cmp	r0, #0
	it	ne
	orrsne.w	r0, r7, r10
	bne	.LBB55_19
.LBB55_18:
	ldrd	r2, r3, [sp, #120]
	ldr	r1, [sp, #132]
	add	r0, sp, #56
	str	r1, [sp]
	bl	ic_raw.search.refusal_of
	add	sp, #76
	pop.w	{r4, r5, r6, r7, r8, r9, r10, r11, pc}
	.p2align	2
.LBB55_19:
	lsrs	r0, r7, #3
	ldr	r1, [sp, #28]
	add.w	r0, r0, r0, lsl #1
	add.w	r0, r1, r0, lsl #3
	ldrb	r0, [r0, #-24]
	lsls	r0, r0, #31
	beq	.LBB55_18
	eor	r1, r2, #1
.LBB55_21:
	ldr	r0, [sp, #20]
	ldr	r2, [sp, #28]
	add.w	r0, r0, r0, lsl #1
	add.w	r0, r2, r0, lsl #3
	ldrb	r2, [r0, #-24]
	lsls	r2, r2, #31
	bne	.LBB55_18
	ldr	r2, [sp, #20]
	movs	r3, #1
	lsr.w	r8, r2, #29
	lsl.w	r12, r2, #3
	orrs.w	r2, r7, r10
	mov.w	r2, #0
	strd	r3, r2, [r0, #-24]
	strd	r2, r2, [r0, #-16]
	beq	.LBB55_25
	strd	r7, r10, [r0, #-8]
	lsrs	r0, r7, #3
	ldr	r5, [sp, #28]
	add.w	r0, r0, r0, lsl #1
	add.w	r0, r5, r0, lsl #3
	cbz	r1, .LBB55_26
	ldr	r1, [r0, #-24]
	and	r1, r1, #1
	orr.w	r1, r1, r12
	strd	r1, r8, [r0, #-24]
	b	.LBB55_27
	.p2align	2
.LBB55_25:
	ldr	r4, [sp, #128]
	strd	r3, r2, [r0, #-8]
	strd	r12, r8, [r4]
	movs	r0, #0
	add	sp, #76
	pop.w	{r4, r5, r6, r7, r8, r9, r10, r11, pc}
	.p2align	2
.LBB55_26:
	strd	r12, r8, [r0, #-16]
.LBB55_27:
	ldr	r0, [sp, #12]
	ldr	r1, [sp, #16]
	lsls	r0, r0, #3
	orr.w	r11, r0, r1, lsr #29
	lsls	r3, r1, #3
	movs	r0, #0
	movs	r6, #67
	str.w	r11, [sp, #12]
	str	r3, [sp, #52]
	b	.LBB55_29
	.p2align	2
.LBB55_28:
	bic	r7, r1, #7
	and	r10, r0, #15
	subs	r0, r3, r7
	ldr	r2, [sp, #32]
	sbcs.w	r0, r11, r10
	ldr.w	r12, [sp, #48]
	itt	lo
	movlo.w	r10, #0
	movlo	r7, #0
	orr.w	r0, r7, r10
	clz	r0, r0
	subs	r2, #1
	lsr.w	r0, r0, #5
	mov	r8, lr
	mov	r6, r2
	mov	r5, r4
	beq.w	.LBB55_38
.LBB55_29:
	lsls	r0, r0, #31
	itttt	eq
	strdeq	r10, r7, [sp, #36]
	lsreq	r0, r7, #3
	addeq.w	r10, r0, r0, lsl #1
	addeq.w	r4, r5, r10, lsl #3
	itt	eq
	ldreq	r9, [r4, #-8]
	lslseq.w	r0, r9, #31
	bne.w	.LBB55_38
	ldr	r1, [r4, #-4]
	bic	r0, r9, #7
	ldr	r3, [sp, #52]
	and	r2, r1, #15
	str	r0, [sp, #48]
	subs	r0, #1
	sbc	r7, r2, #0
	subs	r0, r0, r3
	sbcs.w	r0, r7, r11
	bhs.w	.LBB55_38
	lsr.w	r0, r9, #3
	add.w	r0, r0, r0, lsl #1
	strd	r12, r8, [sp, #20]
	add.w	r12, r5, r0, lsl #3
	mov	lr, r2
	ldrd	r2, r0, [r12, #-24]
	str	r6, [sp, #32]
	and	r7, r0, #15
	bic	r0, r2, #7
	subs.w	r8, r3, r0
	str	r2, [sp, #16]
	sbcs.w	r2, r11, r7
	str	r4, [sp, #44]
	itt	lo
	movlo	r0, #0
	movlo	r7, #0
	ldr	r2, [sp, #36]
	ldr	r4, [sp, #40]
	eors	r2, r7
	eors	r4, r0
	mov	r6, r5
	orrs	r2, r4
	lsl.w	r4, r10, #3
	bne	.LBB55_35
	ldrd	r0, r2, [r12, #-16]
	mov	r10, r4
	bic	r4, r0, #7
	and	r2, r2, #15
	subs	r4, #1
	sbc	r2, r2, #0
	subs	r4, r4, r3
	mov	r7, r12
	sbcs.w	r2, r2, r11
	bhs.w	.LBB55_45
	lsrs	r0, r0, #3
	add.w	r0, r0, r0, lsl #1
	add.w	r0, r6, r0, lsl #3
	ldr	r2, [r0, #-8]
	lsls	r2, r2, #31
	bne.w	.LBB55_45
	mov	r4, r6
	mov	r6, r7
	ldrd	r2, r7, [r7, #-8]
	ldr	r3, [sp, #52]
	bic	r2, r2, #7
	and	r7, r7, #15
	subs	r2, #1
	sbc	r7, r7, #0
	subs	r2, r2, r3
	sbcs.w	r2, r7, r11
	ldr	r7, [sp, #44]
	orr	r2, r9, #1
	strd	r2, r1, [r7, #-8]
	ldr	r1, [r0, #-8]
	mov.w	r2, #0
	orr	r1, r1, #1
	str	r1, [r0, #-8]
	ldrd	r1, r0, [r6, #-8]
	it	hs
	movhs	r2, #1
	bic	r1, r1, #1
	add	r1, r2
	str	r1, [r6, #-8]
	b	.LBB55_28
	.p2align	2
.LBB55_35:
	mov	r10, r12
	orrs.w	r2, r0, r7
	beq	.LBB55_39
	lsrs	r0, r0, #3
	add.w	r0, r0, r0, lsl #1
	add.w	r0, r6, r0, lsl #3
	ldr	r2, [r0, #-8]
	lsls	r2, r2, #31
	bne	.LBB55_39
	ldrd	r2, r7, [r10, #-8]
	ldr	r3, [sp, #52]
	bic	r2, r2, #7
	and	r7, r7, #15
	subs	r2, #1
	ldr.w	r11, [sp, #12]
	sbc	r7, r7, #0
	subs	r2, r2, r3
	sbcs.w	r2, r7, r11
	ldr	r7, [sp, #44]
	orr	r2, r9, #1
	strd	r2, r1, [r7, #-8]
	ldr	r1, [r0, #-8]
	mov.w	r2, #0
	orr	r1, r1, #1
	str	r1, [r0, #-8]
	ldrd	r1, r0, [r10, #-8]
	it	hs
	movhs	r2, #1
	bic	r1, r1, #1
	add	r1, r2
	mov	r4, r6
	str	r1, [r10, #-8]
	b	.LBB55_28
	.p2align	2
.LBB55_38:
	ldrd	r12, r8, [sp, #4]
	ldr	r4, [sp, #128]
	strd	r12, r8, [r4]
	movs	r0, #0
	add	sp, #76
	pop.w	{r4, r5, r6, r7, r8, r9, r10, r11, pc}
	.p2align	2
.LBB55_39:
	ldr	r7, [sp, #44]
	ldr	r2, [sp, #52]
	ldrd	r0, r1, [r7, #-24]
	mov	r6, r4
	bic	r9, r0, #7
	ldr	r4, [sp, #12]
	and	r1, r1, #15
	subs.w	r2, r2, r9
	sbcs.w	r2, r4, r1
	blo	.LBB55_48
	ldr.w	r11, [sp, #20]
	ldr	r3, [sp, #24]
	eor.w	r2, r9, r11
	eors	r3, r1
	orrs	r2, r3
	bne	.LBB55_48
	lsr.w	r1, r11, #3
	ldr	r5, [sp, #28]
	add.w	r12, r1, r1, lsl #1
	add.w	r1, r5, r12, lsl #3
	ldrd	r2, r3, [r1, #-16]
	mov	r6, r7
	bic	r7, r2, #7
	ldr	r2, [sp, #52]
	and	r3, r3, #15
	subs	r2, r2, r7
	and	r0, r0, #1
	sbcs.w	r2, r4, r3
	itt	lo
	movlo	r3, #0
	movlo	r7, #0
	add	r0, r7
	strd	r0, r3, [r6, #-24]
	ldrd	r6, r9, [sp, #36]
	orrs.w	r2, r7, r3
	beq	.LBB55_43
	lsrs	r0, r7, #3
	add.w	r0, r0, r0, lsl #1
	add.w	r0, r5, r0, lsl #3
	ldr	r2, [r0, #-8]
	and	r2, r2, #1
	orr.w	r2, r2, r9
	strd	r2, r6, [r0, #-8]
.LBB55_43:
	ldr	r0, [sp, #48]
	ldr	r7, [sp, #52]
	strd	r0, lr, [r1, #-8]
	ldrd	r0, r2, [r10, #-24]
	mov	r5, r10
	bic	r3, r0, #7
	subs	r4, r7, r3
	ldr	r7, [sp, #12]
	and	r2, r2, #15
	sbcs.w	r4, r7, r2
	mov	r4, r6
	it	hs
	eorhs	r4, r2
	mov	r2, r9
	it	hs
	eorhs	r2, r3
	orrs	r2, r4
	lsl.w	r6, r12, #3
	bne.w	.LBB55_63
	and	r0, r0, #1
	ldr	r7, [sp, #24]
	orr.w	r0, r0, r11
	strd	r0, r7, [r5, #-24]
	b	.LBB55_64
	.p2align	2
.LBB55_45:
	ldr	r3, [sp, #44]
	ldr	r2, [sp, #52]
	ldrd	r1, r0, [r3, #-24]
	bic	r1, r1, #7
	and	r0, r0, #15
	subs	r2, r2, r1
	sbcs.w	r2, r11, r0
	ldrd	r9, r2, [sp, #20]
	blo	.LBB55_49
	eor.w	r1, r1, r9
	eors	r0, r2
	orrs	r0, r1
	bne	.LBB55_49
	ldrd	r0, r9, [sp, #36]
	mov	r5, r7
	str	r0, [sp, #24]
	b	.LBB55_55
	.p2align	2
.LBB55_48:
	ldrd	r0, r11, [sp, #36]
	str	r0, [sp, #24]
	b	.LBB55_65
	.p2align	2
.LBB55_49:
	lsr.w	r0, r9, #3
	ldr	r4, [sp, #28]
	add.w	r12, r0, r0, lsl #1
	add.w	r1, r4, r12, lsl #3
	ldrd	r0, r2, [r1, #-24]
	mov	r5, r3
	ldr	r3, [sp, #52]
	bic	r0, r0, #7
	and	r2, r2, #15
	subs	r3, r3, r0
	sbcs.w	r3, r11, r2
	itt	lo
	movlo	r2, #0
	movlo	r0, #0
	strd	r0, r2, [r5, #-16]
	mov	r5, r7
	ldrd	r6, r7, [sp, #36]
	orrs.w	r3, r0, r2
	beq	.LBB55_51
	lsrs	r0, r0, #3
	add.w	r0, r0, r0, lsl #1
	add.w	r0, r4, r0, lsl #3
	ldr	r2, [r0, #-8]
	and	r2, r2, #1
	orrs	r2, r7
	strd	r2, r6, [r0, #-8]
.LBB55_51:
	ldr	r0, [sp, #48]
	ldr	r4, [sp, #52]
	strd	r0, lr, [r1, #-8]
	ldrd	r0, r2, [r5, #-24]
	lsl.w	r10, r12, #3
	bic	r3, r0, #7
	subs	r4, r4, r3
	ldr	r4, [sp, #12]
	and	r2, r2, #15
	sbcs	r4, r2
	mov	r4, r6
	it	hs
	eorhs	r4, r2
	mov	r2, r7
	it	hs
	eorhs	r2, r3
	orrs	r2, r4
	bne	.LBB55_53
	and	r0, r0, #1
	ldr	r7, [sp, #24]
	orr.w	r0, r0, r9
	strd	r0, r7, [r5, #-24]
	b	.LBB55_54
	.p2align	2
.LBB55_53:
	ldr	r7, [sp, #24]
	strd	r9, r7, [r5, #-16]
.LBB55_54:
	ldr	r0, [r1, #-24]
	ldr	r2, [sp, #40]
	and	r0, r0, #1
	ldr	r3, [sp, #44]
	orrs	r0, r2
	ldr	r2, [sp, #36]
	ldr.w	r11, [sp, #12]
	strd	r0, r2, [r1, #-24]
	strd	r9, r7, [r3, #-8]
	ldr	r0, [r5, #-24]
	str	r0, [sp, #16]
.LBB55_55:
	ldr.w	r8, [sp, #28]
	ldr	r1, [sp, #52]
	add.w	r12, r8, r10
	ldrd	r0, r2, [r12, #-16]
	ldr	r4, [sp, #128]
	bic	r0, r0, #7
	and	r2, r2, #15
	subs	r3, r1, r0
	sbcs.w	r3, r11, r2
	itt	lo
	movlo	r2, #0
	movlo	r0, #0
	ldrd	r3, r7, [r5, #-8]
	orr.w	r10, r0, r2
	and	r6, r7, #15
	bic	r7, r3, #7
	subs	r3, r1, r7
	sbcs.w	r3, r11, r6
	itt	lo
	movlo	r6, #0
	movlo	r7, #0
	ldr	r1, [sp, #16]
	cmp.w	r10, #0
	and	r3, r1, #1
	ldr	r1, [sp, #48]
	add	r3, r0
	mov	r10, r5
	strd	r3, r2, [r5, #-24]
	beq	.LBB55_57
	lsrs	r0, r0, #3
	add.w	r0, r0, r0, lsl #1
	add.w	r0, r8, r0, lsl #3
	ldr	r2, [r0, #-8]
	and	r2, r2, #1
	orrs	r2, r1
	strd	r2, lr, [r0, #-8]
.LBB55_57:
	orrs.w	r0, r7, r6
	ldr	r3, [sp, #24]
	orr	r0, r7, #1
	strd	r0, r6, [r12, #-8]
	mov	r0, r9
	mov	r5, r3
	beq	.LBB55_62
	lsrs	r0, r7, #3
	ldr	r2, [sp, #28]
	add.w	r0, r0, r0, lsl #1
	add.w	r0, r2, r0, lsl #3
	ldrd	r7, r2, [r0, #-24]
	ldr	r6, [sp, #52]
	bic	r3, r7, #7
	subs	r5, r6, r3
	ldr	r6, [sp, #12]
	and	r2, r2, #15
	sbcs.w	r5, r6, r2
	mov	r5, lr
	it	hs
	eorhs	r5, r2
	mov	r2, r1
	it	hs
	eorhs	r2, r3
	orrs	r2, r5
	bne	.LBB55_60
	and	r2, r7, #1
	ldr	r3, [sp, #24]
	orr.w	r2, r2, r9
	strd	r2, r3, [r0, #-24]
	b	.LBB55_61
	.p2align	2
.LBB55_60:
	ldr	r3, [sp, #24]
	strd	r9, r3, [r0, #-16]
.LBB55_61:
	ldrd	r0, r5, [sp, #4]
.LBB55_62:
	strd	r1, lr, [r12, #-16]
	strd	r9, r3, [r10, #-8]
	mov	r12, r0
	mov	r8, r5
	strd	r12, r8, [r4]
	movs	r0, #0
	add	sp, #76
	pop.w	{r4, r5, r6, r7, r8, r9, r10, r11, pc}
	.p2align	2
.LBB55_63:
	ldr	r7, [sp, #24]
	strd	r11, r7, [r5, #-16]
.LBB55_64:
	ldr	r3, [sp, #44]
	ldrd	r2, r0, [sp, #36]
	ldr	r4, [sp, #12]
	strd	r0, r2, [r1, #-16]
	strd	r11, r7, [r3, #-8]
	ldrd	r1, r0, [r1, #-24]
	bic	r9, r1, #7
	and	r1, r0, #15
.LBB55_65:
	ldr	r2, [sp, #52]
	ldr.w	r8, [sp, #28]
	subs.w	r0, r2, r9
	sbcs.w	r0, r4, r1
	add.w	r12, r8, r6
	itt	lo
	movlo	r1, #0
	movlo.w	r9, #0
	mov	r6, r2
	ldrd	r2, r0, [r10, #-8]
	orr.w	r3, r9, r1
	bic	r5, r2, #7
	and	r0, r0, #15
	subs	r2, r6, r5
	sbcs.w	r2, r4, r0
	itt	lo
	movlo	r0, #0
	movlo	r5, #0
	ldr	r4, [sp, #128]
	ldr	r6, [sp, #48]
	mov	r7, r10
	strd	r9, r1, [r7, #-16]
	cbz	r3, .LBB55_67
	lsr.w	r1, r9, #3
	add.w	r1, r1, r1, lsl #1
	add.w	r1, r8, r1, lsl #3
	ldr	r2, [r1, #-8]
	and	r2, r2, #1
	orrs	r2, r6
	strd	r2, lr, [r1, #-8]
.LBB55_67:
	orrs.w	r1, r5, r0
	ldr	r7, [sp, #24]
	orr	r1, r5, #1
	strd	r1, r0, [r12, #-8]
	mov	r0, r11
	mov	r1, r7
	beq	.LBB55_69
	lsrs	r0, r5, #3
	ldr	r1, [sp, #28]
	add.w	r0, r0, r0, lsl #1
	add.w	r0, r1, r0, lsl #3
	ldrd	r1, r2, [r0, #-24]
	ldr	r5, [sp, #52]
	bic	r3, r1, #7
	subs	r5, r5, r3
	ldr	r5, [sp, #12]
	and	r2, r2, #15
	sbcs	r5, r2
	mov	r5, lr
	it	hs
	eorhs	r5, r2
	mov	r2, r6
	it	hs
	eorhs	r2, r3
	orrs	r2, r5
	iteee	ne
	strdne	r11, r7, [r0, #-16]
	andeq	r1, r1, #1
	orreq.w	r1, r1, r11
	strdeq	r1, r7, [r0, #-24]
	ldrd	r0, r1, [sp, #4]
.LBB55_69:
	ldr	r2, [r12, #-24]
	mov	r8, r1
	and	r2, r2, #1
	orrs	r2, r6
	strd	r2, lr, [r12, #-24]
	mov	r12, r0
	strd	r11, r7, [r10, #-8]
	strd	r12, r8, [r4]
	movs	r0, #0
	add	sp, #76
	pop.w	{r4, r5, r6, r7, r8, r9, r10, r11, pc}
.Lfunc_end55:
	.size	ic_raw.search_calls.insert, .Lfunc_end55-ic_raw.search_calls.insert
	.cfi_endproc
	.section	.text.unlikely.ic_raw.search.refusal_of,"ax",%progbits
	.p2align	2
	.type	ic_raw.search.refusal_of,%function
	.code	16
	.thumb_func
ic_raw.search.refusal_of:
	.cfi_startproc
	ldrd	r1, r12, [r0, #8]
	subs	r1, r2, r1
	sbcs.w	r1, r3, r12
	itt	lo
	movlo	r0, #1
	bxlo	lr
.LBB56_1:
	ldr	r2, [sp]
	mov.w	r1, #-1
	b	ic_raw.table.RawTable.refusal.19bacce014a8892a
.Lfunc_end56:
	.size	ic_raw.search.refusal_of, .Lfunc_end56-ic_raw.search.refusal_of
	.cfi_endproc
	.section	.text.unlikely.ic_raw.table.RawTable.refusal.19bacce014a8892a,"ax",%progbits
	.p2align	2
	.type	ic_raw.table.RawTable.refusal.19bacce014a8892a,%function
	.code	16
	.thumb_func
ic_raw.table.RawTable.refusal.19bacce014a8892a:
	.cfi_startproc
	adds	r1, #1
	bhs	.LBB57_3
	ldrd	r3, r12, [r0, #8]
	subs	r3, r3, r1
	sbcs	r3, r12, #0
	itt	lo
	movlo	r0, #1
	bxlo	lr
.LBB57_2:
	ldr	r3, [r0]
	add.w	r1, r1, r1, lsl #1
	add.w	r1, r3, r1, lsl #3
	ldrb	r1, [r1, #-24]
	lsls	r1, r1, #31
	itt	eq
	moveq	r0, #3
	bxeq	lr
.LBB57_3:
	adds	r1, r2, #1
	bhs	.LBB57_5
	ldrd	r2, r3, [r0, #8]
	subs	r2, r2, r1
	sbcs	r2, r3, #0
	bhs	.LBB57_6
.LBB57_5:
	movs	r0, #1
	bx	lr
	.p2align	2
.LBB57_6:
	ldr	r0, [r0]
	add.w	r1, r1, r1, lsl #1
	add.w	r0, r0, r1, lsl #3
	ldrb	r0, [r0, #-24]
	lsls	r0, r0, #31
	mov.w	r0, #2
	it	eq
	moveq	r0, #5
	bx	lr
.Lfunc_end57:
	.size	ic_raw.table.RawTable.refusal.19bacce014a8892a, .Lfunc_end57-ic_raw.table.RawTable.refusal.19bacce014a8892a
	.cfi_endproc
	.section	.text.ic_raw.tree_calls.insert_at,"ax",%progbits
	.p2align	2
	.type	ic_raw.tree_calls.insert_at,%function
	.code	16
	.thumb_func
ic_raw.tree_calls.insert_at:
	.cfi_startproc
	push.w	{r4, r5, r6, r7, r8, r9, r10, r11, lr}
	.cfi_def_cfa_offset 36
	.cfi_offset lr, -4
	.cfi_offset r11, -8
	.cfi_offset r10, -12
	.cfi_offset r9, -16
	.cfi_offset r8, -20
	.cfi_offset r7, -24
	.cfi_offset r6, -28
	.cfi_offset r5, -32
	.cfi_offset r4, -36
	sub	sp, #60
	.cfi_def_cfa_offset 96
	ldrd	r4, lr, [sp, #96]
	strd	r0, r0, [sp, #36]
	movs	r0, #0
	ldrd	r1, r12, [sp, #104]
	str	r0, [sp, #44]
	ldrd	r5, r0, [r4]
	adds	r6, r1, #1
	and	r0, r0, #15
	bic	r4, r5, #7
	str	r3, [sp, #52]
	str	r2, [sp, #48]
	strd	r4, r0, [sp]
	blo	.LBB58_2
	orrs	r0, r4
	beq	.LBB58_7
	b	.LBB58_14
	.p2align	2
.LBB58_2:
	subs	r0, r2, r6
	sbcs	r0, r3, #0
	blo	.LBB58_14
	ldr	r4, [sp, #36]
	add.w	r0, r6, r6, lsl #1
	ldr	r7, [sp]
	add.w	r4, r4, r0, lsl #3
	ldrb	r0, [r4, #-24]
	subs.w	r8, r7, #1
	ldr	r7, [sp, #4]
	sbc	r9, r7, #0
	lsls	r0, r0, #31
	beq	.LBB58_14
	lsls	r0, r3, #3
	lsls	r7, r2, #3
	orr.w	r0, r0, r2, lsr #29
	subs.w	r7, r8, r7
	sbcs.w	r0, r9, r0
	bhs	.LBB58_14
	lsrs	r0, r5, #3
	ldr	r5, [sp, #36]
	add.w	r0, r0, r0, lsl #1
	add.w	r0, r5, r0, lsl #3
	ldrb	r0, [r0, #-24]
	lsls	r0, r0, #31
	beq	.LBB58_14
	lsls.w	r0, lr, #31
	mvn	r0, #23
	it	ne
	mvnne	r0, #15
	adds	r5, r4, r0
	ldr	r0, [r4, r0]
	ldr	r4, [r5, #4]
	bic	r0, r0, #7
	and	r4, r4, #15
	orrs	r0, r4
	bne	.LBB58_14
.LBB58_7:
	adds.w	r0, r12, #1
	beq	.LBB58_14
	subs	r4, r2, r0
	sbcs	r4, r3, #0
	blo	.LBB58_14
	ldr	r5, [sp, #36]
	add.w	r4, r0, r0, lsl #1
	add.w	r5, r5, r4, lsl #3
	ldrb	r4, [r5, #-24]
	lsls	r4, r4, #31
	bne	.LBB58_14
	lsrs	r4, r0, #29
	lsl.w	r8, r0, #3
	movs	r0, #0
	movs	r1, #1
	str	r0, [r5, #-4]
	str	r0, [r5, #-8]
	strd	r1, r0, [r5, #-24]
	str	r0, [r5, #-16]
	str	r0, [r5, #-12]
	cbz	r6, .LBB58_13
	lsls.w	r7, lr, #24
	ldr	r7, [sp, #36]
	add.w	r0, r6, r6, lsl #1
	lsr.w	r12, r6, #29
	lsl.w	r1, r6, #3
	add.w	r0, r7, r0, lsl #3
	strd	r1, r12, [r5, #-8]
	beq	.LBB58_15
	strd	r8, r4, [r0, #-16]
	b	.LBB58_16
	.p2align	2
.LBB58_13:
	strd	r1, r0, [r5, #-8]
	b	.LBB58_30
	.p2align	2
.LBB58_14:
	add	r0, sp, #40
	mov	r2, r12
	bl	ic_raw.table.RawTable.refusal.19bacce014a8892a
	add	sp, #60
	pop.w	{r4, r5, r6, r7, r8, r9, r10, r11, pc}
	.p2align	2
.LBB58_15:
	ldr	r7, [r0, #-24]
	and	r7, r7, #1
	orr.w	r7, r7, r8
	strd	r7, r4, [r0, #-24]
.LBB58_16:
	lsls	r0, r3, #3
	orr.w	r3, r0, r2, lsr #29
	lsls	r0, r2, #3
	movs	r6, #0
	mov.w	lr, #67
	str	r0, [sp, #24]
	str	r3, [sp, #8]
	.p2align	2
.LBB58_17:
	lsls	r0, r6, #31
	bne.w	.LBB58_29
	lsrs	r0, r1, #3
	add.w	r10, r0, r0, lsl #1
	ldr	r0, [sp, #36]
	strd	r8, r4, [sp, #16]
	add.w	r4, r0, r10, lsl #3
	ldr	r9, [r4, #-8]
	lsls.w	r0, r9, #31
	bne.w	.LBB58_29
	ldr	r8, [r4, #-4]
	bic	r0, r9, #7
	ldr	r6, [sp, #24]
	and	r2, r8, #15
	str	r0, [sp, #32]
	subs	r0, #1
	sbc	r7, r2, #0
	subs	r0, r0, r6
	sbcs.w	r0, r7, r3
	bhs.w	.LBB58_29
	mov	r5, r2
	lsr.w	r0, r9, #3
	ldr	r2, [sp, #36]
	add.w	r0, r0, r0, lsl #1
	str	r4, [sp, #28]
	add.w	r4, r2, r0, lsl #3
	ldrd	r2, r0, [r4, #-24]
	lsl.w	r10, r10, #3
	bic	r7, r2, #7
	and	r0, r0, #15
	subs.w	r11, r6, r7
	str	r2, [sp, #12]
	sbcs.w	r2, r3, r0
	itt	lo
	movlo	r7, #0
	movlo	r0, #0
	eor.w	r2, r0, r12
	mov	r11, r3
	eor.w	r3, r7, r1
	orrs	r2, r3
	bne	.LBB58_24
	ldrd	r0, r2, [r4, #-16]
	bic	r3, r0, #7
	and	r2, r2, #15
	subs	r3, #1
	sbc	r2, r2, #0
	subs	r3, r3, r6
	sbcs.w	r2, r2, r11
	mov	r3, r11
	mov	r11, r4
	bhs.w	.LBB58_36
	lsrs	r0, r0, #3
	ldr	r2, [sp, #36]
	add.w	r0, r0, r0, lsl #1
	add.w	r7, r2, r0, lsl #3
	ldr	r0, [r7, #-8]
	lsls	r0, r0, #31
	bne.w	.LBB58_36
	ldrd	r0, r1, [r11, #-8]
	b	.LBB58_27
	.p2align	2
.LBB58_24:
	mov	r11, r4
	orrs	r0, r7
	beq	.LBB58_31
	lsrs	r0, r7, #3
	ldr	r2, [sp, #36]
	add.w	r0, r0, r0, lsl #1
	add.w	r7, r2, r0, lsl #3
	ldr	r0, [r7, #-8]
	lsls	r0, r0, #31
	bne	.LBB58_31
	ldrd	r0, r1, [r11, #-8]
	ldr	r3, [sp, #8]
.LBB58_27:
	bic	r0, r0, #7
	and	r1, r1, #15
	subs	r0, #1
	sbc	r1, r1, #0
	subs	r0, r0, r6
	sbcs.w	r0, r1, r3
	ldr	r1, [sp, #28]
	orr	r0, r9, #1
	strd	r0, r8, [r1, #-8]
	ldr	r0, [r7, #-8]
	mov.w	r2, #0
	orr	r0, r0, #1
	str	r0, [r7, #-8]
	ldrd	r0, r1, [r11, #-8]
	it	hs
	movhs	r2, #1
	bic	r0, r0, #1
	adds	r7, r0, r2
	and	r12, r1, #15
	bic	r1, r7, #7
	subs	r0, r6, r1
	sbcs.w	r0, r3, r12
	str	r7, [r11, #-8]
	itt	lo
	movlo.w	r12, #0
	movlo	r1, #0
	orr.w	r0, r1, r12
	clz	r0, r0
	ldr.w	r8, [sp, #32]
	lsrs	r6, r0, #5
	subs.w	lr, lr, #1
	mov	r4, r5
	bne.w	.LBB58_17
.LBB58_29:
	ldrd	r8, r4, [sp]
.LBB58_30:
	ldr	r1, [sp, #96]
	strd	r8, r4, [r1]
	movs	r0, #0
	add	sp, #60
	pop.w	{r4, r5, r6, r7, r8, r9, r10, r11, pc}
	.p2align	2
.LBB58_31:
	ldr	r0, [sp, #28]
	ldr	r3, [sp, #8]
	ldrd	r8, r0, [r0, #-24]
	str.w	r10, [sp, #12]
	bic	r7, r8, #7
	and	lr, r0, #15
	subs	r0, r6, r7
	sbcs.w	r0, r3, lr
	blo.w	.LBB58_39
	ldr.w	r10, [sp, #16]
	ldr.w	r9, [sp, #20]
	eor.w	r0, r7, r10
	eor.w	r2, lr, r9
	orrs	r0, r2
	bne	.LBB58_39
	lsr.w	r0, r10, #3
	add.w	r2, r0, r0, lsl #1
	ldr	r0, [sp, #36]
	str	r2, [sp, #12]
	add.w	lr, r0, r2, lsl #3
	ldrd	r0, r2, [lr, #-16]
	mov	r7, r6
	bic	r0, r0, #7
	and	r2, r2, #15
	mov	r6, r3
	subs	r3, r7, r0
	sbcs.w	r3, r6, r2
	itt	lo
	movlo	r2, #0
	movlo	r0, #0
	orrs.w	r3, r0, r2
	and	r3, r8, #1
	ldr	r4, [sp, #28]
	add	r3, r0
	strd	r3, r2, [r4, #-24]
	beq	.LBB58_35
	lsrs	r0, r0, #3
	ldr	r2, [sp, #36]
	add.w	r0, r0, r0, lsl #1
	add.w	r0, r2, r0, lsl #3
	ldr	r2, [r0, #-8]
	and	r2, r2, #1
	orrs	r2, r1
	strd	r2, r12, [r0, #-8]
.LBB58_35:
	ldr	r0, [sp, #32]
	ldr	r6, [sp, #24]
	strd	r0, r5, [lr, #-8]
	ldrd	r0, r2, [r11, #-24]
	mov	r4, r11
	bic	r3, r0, #7
	subs	r7, r6, r3
	ldr	r6, [sp, #8]
	and	r2, r2, #15
	sbcs.w	r7, r6, r2
	mov	r7, r12
	it	hs
	eorhs	r7, r2
	mov	r2, r1
	it	hs
	eorhs	r2, r3
	orrs	r2, r7
	ldr	r2, [sp, #12]
	lsl.w	r2, r2, #3
	str	r2, [sp, #12]
	iteee	ne
	strdne	r10, r9, [r4, #-16]
	andeq	r0, r0, #1
	orreq.w	r0, r0, r10
	strdeq	r0, r9, [r4, #-24]
	ldr	r0, [sp, #28]
	strd	r1, r12, [lr, #-16]
	strd	r10, r9, [r0, #-8]
	ldrd	r1, r0, [lr, #-24]
	ldr	r3, [sp, #8]
	ldr	r6, [sp, #24]
	bic	r7, r1, #7
	and	lr, r0, #15
	b	.LBB58_40
	.p2align	2
.LBB58_36:
	ldr.w	lr, [sp, #28]
	ldrd	r9, r4, [sp, #16]
	ldrd	r2, r0, [lr, #-24]
	bic	r7, r2, #7
	and	r0, r0, #15
	subs	r2, r6, r7
	sbcs.w	r2, r3, r0
	blo.w	.LBB58_45
	eor.w	r2, r7, r9
	eors	r0, r4
	orrs	r0, r2
	bne	.LBB58_45
	ldr.w	r8, [sp, #12]
	mov	r9, r1
	str.w	r12, [sp, #20]
	b	.LBB58_48
	.p2align	2
.LBB58_39:
	mov	r10, r1
	str.w	r12, [sp, #20]
.LBB58_40:
	ldr	r0, [sp, #36]
	ldr	r1, [sp, #12]
	mov	r9, r11
	add.w	r8, r0, r1
	subs	r0, r6, r7
	sbcs.w	r0, r3, lr
	itt	lo
	movlo.w	lr, #0
	movlo	r7, #0
	ldrd	r0, r2, [r11, #-8]
	mov	r1, r3
	mov	r3, r6
	bic	r4, r0, #7
	and	r6, r2, #15
	subs	r0, r3, r4
	orr.w	r12, r7, lr
	sbcs.w	r0, r1, r6
	itt	lo
	movlo	r6, #0
	movlo	r4, #0
	cmp.w	r12, #0
	ldr.w	r12, [sp, #32]
	strd	r7, lr, [r9, #-16]
	beq	.LBB58_42
	lsrs	r0, r7, #3
	ldr	r1, [sp, #36]
	add.w	r0, r0, r0, lsl #1
	add.w	r0, r1, r0, lsl #3
	ldr	r2, [r0, #-8]
	and	r2, r2, #1
	orr.w	r2, r2, r12
	strd	r2, r5, [r0, #-8]
.LBB58_42:
	orrs.w	r0, r4, r6
	ldr.w	lr, [sp, #20]
	orr	r0, r4, #1
	ldr	r1, [sp, #96]
	strd	r0, r6, [r8, #-8]
	mov	r7, r10
	mov	r0, lr
	beq	.LBB58_44
	lsrs	r0, r4, #3
	ldr	r2, [sp, #36]
	add.w	r0, r0, r0, lsl #1
	add.w	r7, r2, r0, lsl #3
	ldrd	r0, r2, [r7, #-24]
	ldr	r6, [sp, #24]
	bic	r3, r0, #7
	subs	r6, r6, r3
	ldr	r6, [sp, #8]
	and	r2, r2, #15
	sbcs	r6, r2
	mov	r6, r5
	it	hs
	eorhs	r6, r2
	mov	r2, r12
	it	hs
	eorhs	r2, r3
	orrs	r2, r6
	iteee	ne
	strdne	r10, lr, [r7, #-16]
	andeq	r0, r0, #1
	orreq.w	r0, r0, r10
	strdeq	r0, lr, [r7, #-24]
	ldrd	r7, r0, [sp]
.LBB58_44:
	ldr	r2, [r8, #-24]
	mov	r4, r0
	and	r2, r2, #1
	orr.w	r2, r2, r12
	strd	r2, r5, [r8, #-24]
	mov	r8, r7
	strd	r10, lr, [r11, #-8]
	strd	r8, r4, [r1]
	movs	r0, #0
	add	sp, #60
	pop.w	{r4, r5, r6, r7, r8, r9, r10, r11, pc}
	.p2align	2
.LBB58_45:
	lsr.w	r0, r9, #3
	add.w	r10, r0, r0, lsl #1
	ldr	r0, [sp, #36]
	mov	r7, r6
	add.w	r8, r0, r10, lsl #3
	ldrd	r0, r2, [r8, #-24]
	mov	r6, r3
	bic	r0, r0, #7
	and	r2, r2, #15
	subs	r3, r7, r0
	sbcs.w	r3, r6, r2
	itt	lo
	movlo	r2, #0
	movlo	r0, #0
	orrs.w	r3, r0, r2
	strd	r0, r2, [lr, #-16]
	beq	.LBB58_47
	lsrs	r0, r0, #3
	ldr	r2, [sp, #36]
	add.w	r0, r0, r0, lsl #1
	add.w	r0, r2, r0, lsl #3
	ldr	r2, [r0, #-8]
	and	r2, r2, #1
	orrs	r2, r1
	strd	r2, r12, [r0, #-8]
.LBB58_47:
	ldr	r0, [sp, #32]
	ldr	r6, [sp, #24]
	strd	r0, r5, [r8, #-8]
	ldrd	r0, r2, [r11, #-24]
	lsl.w	r10, r10, #3
	bic	r3, r0, #7
	subs	r7, r6, r3
	ldr	r6, [sp, #8]
	and	r2, r2, #15
	sbcs.w	r7, r6, r2
	mov	r7, r12
	it	hs
	eorhs	r7, r2
	mov	r2, r1
	it	hs
	eorhs	r2, r3
	orrs	r2, r7
	iteee	ne
	strdne	r9, r4, [r11, #-16]
	andeq	r0, r0, #1
	orreq.w	r0, r0, r9
	strdeq	r0, r4, [r11, #-24]
	ldr	r0, [r8, #-24]
	ldr	r3, [sp, #8]
	and	r0, r0, #1
	orrs	r0, r1
	strd	r0, r12, [r8, #-24]
	strd	r9, r4, [lr, #-8]
	ldr	r8, [r11, #-24]
	ldr	r6, [sp, #24]
.LBB58_48:
	ldr	r0, [sp, #36]
	mov	r7, r6
	add.w	lr, r0, r10
	ldrd	r0, r1, [lr, #-16]
	bic	r4, r0, #7
	and	r2, r1, #15
	subs	r0, r6, r4
	sbcs.w	r0, r3, r2
	itt	lo
	movlo	r2, #0
	movlo	r4, #0
	ldrd	r0, r1, [r11, #-8]
	orr.w	r12, r4, r2
	bic	r6, r0, #7
	and	r1, r1, #15
	subs	r0, r7, r6
	sbcs.w	r0, r3, r1
	itt	lo
	movlo	r1, #0
	movlo	r6, #0
	and	r0, r8, #1
	cmp.w	r12, #0
	ldr.w	r12, [sp, #32]
	add	r0, r4
	strd	r0, r2, [r11, #-24]
	beq	.LBB58_50
	lsrs	r0, r4, #3
	ldr	r2, [sp, #36]
	add.w	r0, r0, r0, lsl #1
	add.w	r0, r2, r0, lsl #3
	ldr	r2, [r0, #-8]
	and	r2, r2, #1
	orr.w	r2, r2, r12
	strd	r2, r5, [r0, #-8]
.LBB58_50:
	orrs.w	r0, r6, r1
	ldr	r3, [sp, #20]
	orr	r0, r6, #1
	strd	r0, r1, [lr, #-8]
	mov	r0, r9
	mov	r1, r3
	beq	.LBB58_52
	lsrs	r0, r6, #3
	ldr	r1, [sp, #36]
	add.w	r0, r0, r0, lsl #1
	add.w	r1, r1, r0, lsl #3
	ldrd	r0, r2, [r1, #-24]
	ldr	r4, [sp, #24]
	bic	r6, r0, #7
	subs	r7, r4, r6
	ldr	r4, [sp, #8]
	and	r2, r2, #15
	sbcs.w	r7, r4, r2
	mov	r7, r5
	it	hs
	eorhs	r7, r2
	mov	r2, r12
	it	hs
	eorhs	r2, r6
	orrs	r2, r7
	iteee	ne
	strdne	r9, r3, [r1, #-16]
	andeq	r0, r0, #1
	orreq.w	r0, r0, r9
	strdeq	r0, r3, [r1, #-24]
	ldrd	r0, r1, [sp]
.LBB58_52:
	mov	r4, r1
	ldr	r1, [sp, #96]
	strd	r12, r5, [lr, #-16]
	strd	r9, r3, [r11, #-8]
	mov	r8, r0
	strd	r8, r4, [r1]
	movs	r0, #0
	add	sp, #60
	pop.w	{r4, r5, r6, r7, r8, r9, r10, r11, pc}
.Lfunc_end58:
	.size	ic_raw.tree_calls.insert_at, .Lfunc_end58-ic_raw.tree_calls.insert_at
	.cfi_endproc
	.section	.text.ic_raw_keyed.ends_calls.remove,"ax",%progbits
	.p2align	2
	.type	ic_raw_keyed.ends_calls.remove,%function
	.code	16
	.thumb_func
ic_raw_keyed.ends_calls.remove:
	.cfi_startproc
	push.w	{r4, r5, r6, r7, r8, r9, r10, r11, lr}
	.cfi_def_cfa_offset 36
	.cfi_offset lr, -4
	.cfi_offset r11, -8
	.cfi_offset r10, -12
	.cfi_offset r9, -16
	.cfi_offset r8, -20
	.cfi_offset r7, -24
	.cfi_offset r6, -28
	.cfi_offset r5, -32
	.cfi_offset r4, -36
	sub	sp, #36
	.cfi_def_cfa_offset 72
	ldr.w	lr, [sp, #80]
	adds.w	r12, lr, #1
	blo	.LBB59_2
	movs	r0, #4
	add	sp, #36
	pop.w	{r4, r5, r6, r7, r8, r9, r10, r11, pc}
	.p2align	2
.LBB59_2:
	ldrd	r5, r11, [sp, #72]
	lsr.w	r1, r12, #29
	ldrd	r7, r6, [r11]
	lsl.w	r4, r12, #3
	bic	r9, r7, #7
	and	r8, r6, #15
	eor.w	r7, r8, r1
	eor.w	r6, r9, r4
	orrs	r7, r6
	str	r1, [sp, #32]
	str	r4, [sp, #28]
	bne.w	.LBB59_34
	subs.w	r7, r2, r12
	sbcs	r7, r3, #0
	bhs	.LBB59_5
	movs	r6, #0
	mov.w	r9, #0
	mov.w	r8, #0
	b	.LBB59_30
	.p2align	2
.LBB59_5:
	str.w	r11, [sp, #16]
	str	r5, [sp, #24]
	ldrd	r5, r7, [r5]
	str	r3, [sp, #20]
	and	r6, r7, #15
	bic	r4, r5, #7
	ldr	r3, [sp, #20]
	orrs	r4, r6
	beq	.LBB59_8
	lsrs	r5, r5, #3
	orr.w	r7, r5, r7, lsl #29
	lsrs	r6, r6, #3
	subs	r7, r2, r7
	sbcs.w	r7, r3, r6
	bhs	.LBB59_8
	movs	r6, #0
	mov.w	r9, #0
	mov.w	r8, #0
	b	.LBB59_28
	.p2align	2
.LBB59_8:
	add.w	r7, r12, r12, lsl #1
	add.w	r8, r0, r7, lsl #3
	ldrd	r6, r4, [r8, #-16]
	lsls	r7, r3, #3
	orr.w	r11, r7, r2, lsr #29
	bic	r7, r6, #7
	and	r4, r4, #15
	subs	r6, r7, #1
	sbc	r5, r4, #0
	subs.w	r6, r6, r2, lsl #3
	sbcs.w	r5, r5, r11
	lsl.w	r10, r2, #3
	bhs	.LBB59_16
	str.w	lr, [sp, #12]
	movs	r3, #64
	.p2align	2
.LBB59_10:
	lsrs	r1, r7, #3
	add.w	r1, r1, r1, lsl #1
	add.w	r1, r0, r1, lsl #3
	ldrd	r5, r1, [r1, #-24]
	bic	r9, r5, #7
	and	r8, r1, #15
	subs.w	r1, r9, #1
	sbc	r6, r8, #0
	subs.w	r1, r1, r10
	sbcs.w	r1, r6, r11
	bhs.w	.LBB59_22
	lsrs	r4, r5, #3
	add.w	r4, r4, r4, lsl #1
	add.w	r4, r0, r4, lsl #3
	ldrd	r7, r4, [r4, #-24]
	bic	r5, r7, #7
	and	r4, r4, #15
	subs	r6, r5, #1
	sbc	lr, r4, #0
	subs.w	r6, r6, r10
	sbcs.w	r6, lr, r11
	bhs	.LBB59_23
	lsrs	r7, r7, #3
	add.w	r7, r7, r7, lsl #1
	add.w	r7, r0, r7, lsl #3
	ldrd	r7, r6, [r7, #-24]
	ldr.w	lr, [sp, #12]
	bic	r9, r7, #7
	and	r8, r6, #15
	subs.w	r6, r9, #1
	sbc	r1, r8, #0
	subs.w	r6, r6, r10
	sbcs.w	r1, r1, r11
	bhs	.LBB59_25
	cmp	r3, #0
	beq	.LBB59_26
	lsrs	r1, r7, #3
	add.w	r1, r1, r1, lsl #1
	add.w	r1, r0, r1, lsl #3
	ldrd	r1, r7, [r1, #-24]
	ldr	r5, [sp, #24]
	and	r4, r7, #15
	bic	r7, r1, #7
	subs	r1, r7, #1
	sbc	r6, r4, #0
	subs.w	r1, r1, r10
	sbcs.w	r1, r6, r11
	bhs.w	.LBB59_65
	subs	r3, #4
	b	.LBB59_10
	.p2align	2
.LBB59_16:
	ldrd	r1, r3, [r8, #-8]
	bic	r5, r1, #7
	and	r4, r3, #15
	subs	r1, r5, #1
	sbc	r3, r4, #0
	subs.w	r1, r1, r10
	sbcs.w	r1, r3, r11
	bhs	.LBB59_20
	ldrd	r9, r8, [sp, #28]
	mvn	r7, #66
	.p2align	2
.LBB59_18:
	lsrs	r3, r5, #3
	add.w	r3, r3, r3, lsl #1
	mov	r1, r9
	mov	r9, r5
	add.w	r5, r0, r3, lsl #3
	ldrd	r3, r6, [r5, #-16]
	bic	r3, r3, #7
	and	r6, r6, #15
	eor.w	r6, r6, r8
	eors	r1, r3
	clz	r3, r7
	orrs	r1, r6
	lsr.w	r3, r3, #5
	it	ne
	movne	r1, #1
	orrs.w	r6, r1, r3
	mov	r8, r4
	bne	.LBB59_27
	ldrd	r1, r3, [r5, #-8]
	adds	r7, #1
	bic	r5, r1, #7
	and	r4, r3, #15
	subs	r1, r5, #1
	sbc	r3, r4, #0
	subs.w	r1, r1, r10
	sbcs.w	r1, r3, r11
	blo	.LBB59_18
	b	.LBB59_21
	.p2align	2
.LBB59_20:
	movs	r6, #0
.LBB59_21:
	mov.w	r9, #0
	mov.w	r8, #0
	b	.LBB59_27
	.p2align	2
.LBB59_22:
	movs	r6, #1
	mov	r9, r7
	mov	r8, r4
	b	.LBB59_24
	.p2align	2
.LBB59_23:
	movs	r6, #1
.LBB59_24:
	ldr	r3, [sp, #20]
	ldrd	lr, r11, [sp, #12]
	b	.LBB59_29
	.p2align	2
.LBB59_25:
	movs	r6, #1
	mov	r9, r5
	mov	r8, r4
	b	.LBB59_27
	.p2align	2
.LBB59_26:
	movs	r6, #1
.LBB59_27:
	ldr	r3, [sp, #20]
.LBB59_28:
	ldr.w	r11, [sp, #16]
.LBB59_29:
	ldr	r5, [sp, #24]
.LBB59_30:
	ldr	r1, [sp, #28]
	ldr	r7, [sp, #32]
	eor.w	r1, r1, r9
	eor.w	r7, r7, r8
	orrs	r1, r7
	beq.w	.LBB59_64
	cbz	r6, .LBB59_34
	lsr.w	r1, r9, #3
	orr.w	r7, r1, r8, lsl #29
	subs	r1, r2, r7
	sbcs.w	r1, r3, r8, lsr #3
	blo.w	.LBB59_64
	add.w	r1, r7, r7, lsl #1
	add.w	r1, r0, r1, lsl #3
	ldrb	r1, [r1, #-24]
	lsls	r1, r1, #31
	beq.w	.LBB59_64
.LBB59_34:
	ldrd	r1, r7, [r11, #8]
	bic	r10, r1, #7
	and	r6, r7, #15
	ldr	r1, [sp, #32]
	ldr	r7, [sp, #28]
	eors	r1, r6
	eor.w	r7, r7, r10
	orrs	r1, r7
	bne.w	.LBB59_62
	subs.w	r1, r2, r12
	sbcs	r1, r3, #0
	bhs	.LBB59_37
	mov.w	r12, #0
	mov.w	r10, #0
	movs	r6, #0
	b	.LBB59_58
	.p2align	2
.LBB59_37:
	str	r5, [sp, #24]
	ldrd	r5, r7, [r5]
	and	r6, r7, #15
	bic	r1, r5, #7
	orrs	r1, r6
	beq	.LBB59_40
	lsrs	r1, r5, #3
	orr.w	r1, r1, r7, lsl #29
	lsrs	r7, r6, #3
	subs	r1, r2, r1
	sbcs.w	r1, r3, r7
	bhs	.LBB59_40
	mov.w	r12, #0
	mov.w	r10, #0
	movs	r6, #0
	b	.LBB59_57
	.p2align	2
.LBB59_40:
	add.w	r1, r12, r12, lsl #1
	add.w	r7, r0, r1, lsl #3
	strd	lr, r11, [sp, #12]
	str	r3, [sp, #20]
	lsls	r1, r3, #3
	ldrd	r3, r6, [r7, #-24]
	orr.w	lr, r1, r2, lsr #29
	bic	r10, r3, #7
	and	r6, r6, #15
	subs.w	r3, r10, #1
	sbc	r5, r6, #0
	subs.w	r3, r3, r2, lsl #3
	sbcs.w	r3, r5, lr
	lsl.w	r11, r2, #3
	bhs	.LBB59_48
	mov.w	r12, #64
	.p2align	2
.LBB59_42:
	lsr.w	r3, r10, #3
	add.w	r3, r3, r3, lsl #1
	add.w	r3, r0, r3, lsl #3
	ldrd	r7, r3, [r3, #-16]
	bic	r5, r7, #7
	and	r4, r3, #15
	subs	r3, r5, #1
	sbc	r1, r4, #0
	subs.w	r3, r3, r11
	sbcs.w	r1, r1, lr
	bhs.w	.LBB59_55
	lsrs	r1, r7, #3
	add.w	r1, r1, r1, lsl #1
	add.w	r1, r0, r1, lsl #3
	ldrd	r7, r1, [r1, #-16]
	bic	r10, r7, #7
	and	r6, r1, #15
	subs.w	r1, r10, #1
	sbc	r3, r6, #0
	subs.w	r1, r1, r11
	sbcs.w	r1, r3, lr
	bhs	.LBB59_52
	lsrs	r1, r7, #3
	add.w	r1, r1, r1, lsl #1
	add.w	r1, r0, r1, lsl #3
	ldrd	r7, r1, [r1, #-16]
	bic	r5, r7, #7
	and	r4, r1, #15
	subs	r1, r5, #1
	sbc	r3, r4, #0
	subs.w	r1, r1, r11
	sbcs.w	r1, r3, lr
	bhs	.LBB59_55
	cmp.w	r12, #0
	beq	.LBB59_52
	lsrs	r1, r7, #3
	add.w	r1, r1, r1, lsl #1
	add.w	r1, r0, r1, lsl #3
	ldrd	r1, r3, [r1, #-16]
	bic	r10, r1, #7
	and	r6, r3, #15
	subs.w	r1, r10, #1
	sbc	r3, r6, #0
	subs.w	r1, r1, r11
	sbcs.w	r1, r3, lr
	bhs	.LBB59_52
	sub.w	r12, r12, #4
	b	.LBB59_42
	.p2align	2
.LBB59_48:
	ldrd	r1, r3, [r7, #-8]
	bic	r5, r1, #7
	and	r4, r3, #15
	subs	r1, r5, #1
	sbc	r3, r4, #0
	subs.w	r1, r1, r11
	sbcs.w	r1, r3, lr
	bhs	.LBB59_53
	ldrd	r10, r6, [sp, #28]
	mvn	r7, #66
	.p2align	2
.LBB59_50:
	lsrs	r3, r5, #3
	add.w	r3, r3, r3, lsl #1
	mov	r12, r10
	mov	r10, r5
	add.w	r5, r0, r3, lsl #3
	ldrd	r3, r1, [r5, #-24]
	bic	r3, r3, #7
	and	r1, r1, #15
	eors	r1, r6
	eor.w	r3, r3, r12
	orrs	r1, r3
	clz	r3, r7
	lsr.w	r3, r3, #5
	it	ne
	movne	r1, #1
	orrs.w	r12, r1, r3
	mov	r6, r4
	bne	.LBB59_56
	ldrd	r1, r3, [r5, #-8]
	adds	r7, #1
	bic	r5, r1, #7
	and	r4, r3, #15
	subs	r1, r5, #1
	sbc	r3, r4, #0
	subs.w	r1, r1, r11
	sbcs.w	r1, r3, lr
	blo	.LBB59_50
	b	.LBB59_54
	.p2align	2
.LBB59_52:
	mov.w	r12, #1
	mov	r10, r5
	mov	r6, r4
	b	.LBB59_56
	.p2align	2
.LBB59_53:
	mov.w	r12, #0
.LBB59_54:
	mov.w	r10, #0
	movs	r6, #0
	b	.LBB59_56
	.p2align	2
.LBB59_55:
	mov.w	r12, #1
.LBB59_56:
	ldr	r3, [sp, #20]
	ldrd	lr, r11, [sp, #12]
.LBB59_57:
	ldr	r5, [sp, #24]
.LBB59_58:
	ldr	r1, [sp, #28]
	ldr	r7, [sp, #32]
	eor.w	r1, r1, r10
	eors	r7, r6
	orrs	r1, r7
	beq	.LBB59_64
	cmp.w	r12, #0
	beq	.LBB59_62
	lsr.w	r1, r10, #3
	orr.w	r1, r1, r6, lsl #29
	subs	r7, r2, r1
	sbcs.w	r7, r3, r6, lsr #3
	blo	.LBB59_64
	add.w	r1, r1, r1, lsl #1
	add.w	r1, r0, r1, lsl #3
	ldrb	r1, [r1, #-24]
	lsls	r1, r1, #31
	beq	.LBB59_64
.LBB59_62:
	strd	r5, lr, [sp]
	bl	ic_raw.tree_calls.remove
	cmp	r0, #0
	itt	ne
	addne	sp, #36
	popne.w	{r4, r5, r6, r7, r8, r9, r10, r11, pc}
.LBB59_63:
	str.w	r9, [r11]
	str.w	r8, [r11, #4]
	str.w	r10, [r11, #8]
	str.w	r6, [r11, #12]
	movs	r0, #0
	add	sp, #36
	pop.w	{r4, r5, r6, r7, r8, r9, r10, r11, pc}
	.p2align	2
.LBB59_64:
	ldr	r1, [sp, #28]
	str	r1, [sp, #72]
	ldr	r1, [sp, #32]
	str	r1, [sp, #76]
	add	sp, #36
	pop.w	{r4, r5, r6, r7, r8, r9, r10, r11, lr}
	b	ic_raw.table.RawTable.refusal_of.59019f4869331413
	.p2align	2
.LBB59_65:
	ldrd	r11, r3, [sp, #16]
	movs	r6, #1
	b	.LBB59_30
.Lfunc_end59:
	.size	ic_raw_keyed.ends_calls.remove, .Lfunc_end59-ic_raw_keyed.ends_calls.remove
	.cfi_endproc
	.section	.text.unlikely.ic_raw.table.RawTable.refusal_of.59019f4869331413,"ax",%progbits
	.p2align	2
	.type	ic_raw.table.RawTable.refusal_of.59019f4869331413,%function
	.code	16
	.thumb_func
ic_raw.table.RawTable.refusal_of.59019f4869331413:
	.cfi_startproc
	ldrd	r1, r12, [sp]
	lsrs	r1, r1, #3
	orr.w	r1, r1, r12, lsl #29
	subs	r2, r2, r1
	sbcs.w	r2, r3, r12, lsr #3
	itt	lo
	movlo	r0, #1
	bxlo	lr
.LBB60_1:
	add.w	r1, r1, r1, lsl #1
	add.w	r0, r0, r1, lsl #3
	ldrb	r0, [r0, #-24]
	lsls	r0, r0, #31
	mov.w	r0, #5
	it	eq
	moveq	r0, #3
	bx	lr
.Lfunc_end60:
	.size	ic_raw.table.RawTable.refusal_of.59019f4869331413, .Lfunc_end60-ic_raw.table.RawTable.refusal_of.59019f4869331413
	.cfi_endproc
	.section	.text.ic_raw.tree_calls.remove,"ax",%progbits
	.p2align	2
	.type	ic_raw.tree_calls.remove,%function
	.code	16
	.thumb_func
ic_raw.tree_calls.remove:
	.cfi_startproc
	push.w	{r4, r5, r6, r7, r8, r9, r10, r11, lr}
	.cfi_def_cfa_offset 36
	.cfi_offset lr, -4
	.cfi_offset r11, -8
	.cfi_offset r10, -12
	.cfi_offset r9, -16
	.cfi_offset r8, -20
	.cfi_offset r7, -24
	.cfi_offset r6, -28
	.cfi_offset r5, -32
	.cfi_offset r4, -36
	sub	sp, #64
	.cfi_def_cfa_offset 100
	ldr.w	r9, [sp, #104]
	adds.w	r5, r9, #1
	blo	.LBB61_2
	movs	r0, #4
	add	sp, #64
	pop.w	{r4, r5, r6, r7, r8, r9, r10, r11, pc}
	.p2align	2
.LBB61_2:
	subs	r1, r2, r5
	mov	r11, r0
	sbcs	r1, r3, #0
	blo.w	.LBB61_18
	add.w	r1, r5, r5, lsl #1
	add.w	r12, r11, r1, lsl #3
	ldr	r8, [r12, #-24]
	lsls.w	r1, r8, #31
	beq.w	.LBB61_18
	ldr.w	r10, [sp, #100]
	ldrd	r1, r4, [r10]
	and	r0, r4, #15
	bic	r7, r1, #7
	lsls	r4, r3, #3
	orr.w	r6, r4, r2, lsr #29
	subs	r4, r7, #1
	str	r7, [sp, #48]
	sbc	r7, r0, #0
	subs.w	r4, r4, r2, lsl #3
	sbcs	r7, r6
	str	r0, [sp, #56]
	str	r6, [sp, #52]
	bhs.w	.LBB61_18
	lsrs	r1, r1, #3
	add.w	r1, r1, r1, lsl #1
	add.w	r1, r11, r1, lsl #3
	ldrb	r1, [r1, #-24]
	lsls	r1, r1, #31
	beq.w	.LBB61_18
	ldrd	r1, r7, [r12, #-8]
	lsls	r6, r5, #3
	and	r4, r7, #15
	ldr	r7, [sp, #48]
	str	r6, [sp, #28]
	eors	r7, r6
	ldr	r6, [sp, #56]
	lsrs	r0, r5, #29
	ldr	lr, [r12, #-20]
	eor.w	r5, r6, r0
	orrs	r7, r5
	bic	r5, r1, #7
	str	r0, [sp, #44]
	str	r1, [sp, #24]
	beq	.LBB61_8
	orrs.w	r7, r5, r4
	beq.w	.LBB61_18
.LBB61_8:
	bic	r6, r8, #7
	lsl.w	r9, r2, #3
	and	r3, lr, #15
	subs	r1, r6, #1
	str.w	r10, [sp, #32]
	sbc	r2, r3, #0
	subs.w	r1, r1, r9
	str.w	r12, [sp, #36]
	ldrd	r1, r7, [r12, #-16]
	ldr.w	r12, [sp, #52]
	and	r10, r7, #15
	sbcs.w	r2, r2, r12
	bic	r8, r1, #7
	str.w	r11, [sp, #60]
	bhs	.LBB61_17
	subs.w	r1, r8, #1
	sbc	r2, r10, #0
	subs.w	r1, r1, r9
	mov	r0, r9
	sbcs.w	r1, r2, r12
	bhs	.LBB61_19
	movs	r7, #64
	mov	r9, r0
	.p2align	2
.LBB61_11:
	lsr.w	r0, r8, #3
	add.w	r0, r0, r0, lsl #1
	add.w	r3, r11, r0, lsl #3
	ldrd	r1, r0, [r3, #-24]
	bic	lr, r1, #7
	and	r2, r0, #15
	subs.w	r0, lr, #1
	mov	r5, r2
	sbc	r2, r2, #0
	subs.w	r0, r0, r9
	sbcs.w	r0, r2, r12
	bhs.w	.LBB61_26
	lsrs	r1, r1, #3
	add.w	r1, r1, r1, lsl #1
	add.w	r3, r11, r1, lsl #3
	ldrd	r1, r2, [r3, #-24]
	bic	r6, r1, #7
	and	r2, r2, #15
	subs	r4, r6, #1
	sbc	r0, r2, #0
	subs.w	r4, r4, r9
	sbcs.w	r0, r0, r12
	bhs.w	.LBB61_29
	lsrs	r0, r1, #3
	add.w	r0, r0, r0, lsl #1
	add.w	r3, r11, r0, lsl #3
	ldrd	r1, r0, [r3, #-24]
	bic	lr, r1, #7
	and	r4, r0, #15
	subs.w	r0, lr, #1
	mov	r5, r4
	sbc	r4, r4, #0
	subs.w	r0, r0, r9
	sbcs.w	r0, r4, r12
	bhs.w	.LBB61_27
	lsrs	r0, r1, #3
	add.w	r0, r0, r0, lsl #1
	add.w	r3, r11, r0, lsl #3
	ldrd	r0, r1, [r3, #-24]
	bic	r8, r0, #7
	and	r10, r1, #15
	subs.w	r2, r8, #1
	sbc	r1, r10, #0
	cmp	r7, #0
	beq	.LBB61_28
	subs.w	r0, r2, r9
	sbcs.w	r0, r1, r12
	bhs	.LBB61_29
	subs	r7, #4
	b	.LBB61_11
	.p2align	2
.LBB61_17:
	subs.w	r0, r9, r8
	sbcs.w	r0, r12, r10
	itt	lo
	movlo.w	r10, #0
	movlo.w	r8, #0
	mov	r6, r8
	mov	r3, r10
	mov	lr, r5
	b	.LBB61_20
	.p2align	2
.LBB61_18:
	mov	r0, r11
	str.w	r9, [sp, #100]
	add	sp, #64
	pop.w	{r4, r5, r6, r7, r8, r9, r10, r11, lr}
	b	ic_raw.table.RawTable.refusal_at.19bacce014a8892a
	.p2align	2
.LBB61_19:
	mov	lr, r5
	mov	r9, r0
.LBB61_20:
	subs.w	r0, r9, lr
	sbcs.w	r0, r12, r4
	itt	lo
	movlo	r4, #0
	movlo.w	lr, #0
	orrs.w	r11, lr, r4
	it	ne
	movne.w	r11, #1
	ldr.w	r8, [sp, #48]
	mov	r10, r4
	beq	.LBB61_23
	lsr.w	r0, lr, #3
	ldr	r1, [sp, #60]
	add.w	r0, r0, r0, lsl #1
	add.w	r2, r1, r0, lsl #3
	ldrd	r1, r0, [r2, #-24]
	ldr	r5, [sp, #44]
	bic	r4, r1, #7
	and	r0, r0, #15
	subs.w	r7, r9, r4
	sbcs.w	r7, r12, r0
	it	hs
	eorhs	r5, r0
	ldr	r0, [sp, #28]
	it	hs
	eorhs	r0, r4
	orrs	r0, r5
	bne	.LBB61_24
	and	r0, r1, #1
	adds	r0, r0, r6
	adc	r1, r3, #0
	strd	r0, r1, [r2, #-24]
	movs	r7, #0
	mov	r12, r10
	orrs.w	r0, r6, r3
	bne	.LBB61_25
	b	.LBB61_53
	.p2align	2
.LBB61_23:
	movs	r7, #0
	mov	r8, r6
	str	r3, [sp, #56]
	mov	r12, r10
	orrs.w	r0, r6, r3
	bne	.LBB61_25
	b	.LBB61_53
	.p2align	2
.LBB61_24:
	movs	r7, #1
	strd	r6, r3, [r2, #-16]
	mov	r12, r10
	orrs.w	r0, r6, r3
	beq.w	.LBB61_53
.LBB61_25:
	lsrs	r0, r6, #3
	ldr	r1, [sp, #60]
	add.w	r0, r0, r0, lsl #1
	add.w	r0, r1, r0, lsl #3
	orr	r1, lr, #1
	strd	r1, r12, [r0, #-8]
	b	.LBB61_55
	.p2align	2
.LBB61_26:
	mov	lr, r8
	mov	r5, r10
	b	.LBB61_29
	.p2align	2
.LBB61_27:
	mov	lr, r6
	mov	r5, r2
	b	.LBB61_29
	.p2align	2
.LBB61_28:
	subs.w	r0, r2, r9
	sbcs.w	r0, r1, r12
	blo	.LBB61_30
.LBB61_29:
	ldrd	r0, r1, [r3, #-16]
	bic	r8, r0, #7
	and	r10, r1, #15
	subs.w	r0, r9, r8
	sbcs.w	r0, r12, r10
	itt	lo
	movlo.w	r10, #0
	movlo.w	r8, #0
.LBB61_30:
	ldrd	r2, r0, [r3, #-8]
	bic	r4, r2, #7
	and	r3, r0, #15
	subs.w	r0, r9, r4
	sbcs.w	r0, r12, r3
	itt	lo
	movlo	r3, #0
	movlo	r4, #0
	orrs.w	r11, r4, r3
	it	ne
	movne.w	r11, #1
	strd	r4, r3, [sp, #16]
	beq	.LBB61_33
	lsrs	r0, r4, #3
	ldr	r1, [sp, #60]
	add.w	r0, r0, r0, lsl #1
	mov	r6, r2
	add.w	r2, r1, r0, lsl #3
	ldrd	r1, r0, [r2, #-24]
	bic	r3, r1, #7
	and	r0, r0, #15
	subs.w	r4, r9, r3
	sbcs.w	r4, r12, r0
	mov	r4, r5
	it	hs
	eorhs	r4, r0
	mov	r0, lr
	it	hs
	eorhs	r0, r3
	orrs	r0, r4
	bne	.LBB61_34
	and	r0, r1, #1
	adds.w	r0, r0, r8
	adc	r1, r10, #0
	strd	r0, r1, [r2, #-24]
	movs	r7, #0
	b	.LBB61_35
	.p2align	2
.LBB61_33:
	movs	r7, #0
	str.w	r8, [sp, #48]
	str.w	r10, [sp, #56]
	b	.LBB61_36
	.p2align	2
.LBB61_34:
	movs	r7, #1
	strd	r8, r10, [r2, #-16]
.LBB61_35:
	ldrd	r4, r3, [sp, #16]
	mov	r2, r6
.LBB61_36:
	orrs.w	r0, r8, r10
	beq	.LBB61_38
	lsr.w	r0, r8, #3
	ldr	r1, [sp, #60]
	add.w	r0, r0, r0, lsl #1
	add.w	r0, r1, r0, lsl #3
	orr	r1, r4, #1
	movs	r2, #0
	strd	r1, r3, [r0, #-8]
.LBB61_38:
	ldr	r0, [sp, #28]
	ldr	r1, [sp, #44]
	eor.w	r0, r0, lr
	eors	r1, r5
	orrs	r0, r1
	bne	.LBB61_40
	ldr.w	r8, [sp, #48]
	mov	lr, r4
	mov	r12, r3
	b	.LBB61_54
	.p2align	2
.LBB61_40:
	str	r2, [sp, #24]
	ldr	r6, [sp, #36]
	mov	r10, r5
	ldrd	r3, r4, [r6, #-8]
	sub.w	r8, r6, #24
	str	r3, [sp, #4]
	bic	r3, r3, #7
	ldm.w	r8, {r0, r1, r2, r8}
	and	r6, r4, #15
	subs.w	r4, r9, r3
	sbcs.w	r4, r12, r6
	itt	lo
	movlo	r6, #0
	movlo	r3, #0
	strd	r6, r3, [sp, #8]
	orr.w	r4, r3, r6
	bic	r6, r0, #7
	and	r1, r1, #15
	subs.w	r0, r9, r6
	sbcs.w	r0, r12, r1
	bic	r3, r2, #7
	it	lo
	movlo	r1, #0
	str	r1, [sp]
	it	lo
	movlo	r6, #0
	and	r8, r8, #15
	subs.w	r0, r9, r3
	sbcs.w	r0, r12, r8
	itt	lo
	movlo.w	r8, #0
	movlo	r3, #0
	mov	r1, lr
	cbz	r4, .LBB61_45
	ldr	r0, [sp, #12]
	ldr	r1, [sp, #60]
	lsrs	r0, r0, #3
	add.w	r0, r0, r0, lsl #1
	add.w	r2, r1, r0, lsl #3
	ldrd	r10, r0, [r2, #-24]
	bic	r4, r10, #7
	and	r0, r0, #15
	subs.w	r1, r9, r4
	sbcs.w	r1, r12, r0
	ldr	r1, [sp, #44]
	it	hs
	eorhs	r1, r0
	ldr	r0, [sp, #28]
	it	hs
	eorhs	r0, r4
	orrs	r0, r1
	bne	.LBB61_43
	and	r0, r10, #1
	adds.w	r0, r0, lr
	adc	r1, r5, #0
	strd	r0, r1, [r2, #-24]
	b	.LBB61_44
	.p2align	2
.LBB61_43:
	strd	lr, r5, [r2, #-16]
.LBB61_44:
	ldr	r1, [sp, #48]
	ldr.w	r10, [sp, #56]
.LBB61_45:
	str.w	r10, [sp, #48]
	str	r1, [sp, #56]
	ldr.w	r10, [sp]
	mov	r12, r5
	orrs.w	r0, r6, r10
	beq	.LBB61_47
	lsrs	r0, r6, #3
	ldr	r1, [sp, #60]
	add.w	r0, r0, r0, lsl #1
	add.w	r0, r1, r0, lsl #3
	ldr	r1, [r0, #-8]
	and	r1, r1, #1
	adds.w	r1, r1, lr
	adc	r2, r12, #0
	strd	r1, r2, [r0, #-8]
.LBB61_47:
	ldr	r4, [sp, #60]
	orrs.w	r0, r3, r8
	beq	.LBB61_49
	lsrs	r0, r3, #3
	add.w	r0, r0, r0, lsl #1
	add.w	r0, r4, r0, lsl #3
	ldr	r1, [r0, #-8]
	and	r1, r1, #1
	adds.w	r1, r1, lr
	adc	r2, r12, #0
	strd	r1, r2, [r0, #-8]
.LBB61_49:
	lsr.w	r0, lr, #3
	add.w	r0, r0, r0, lsl #1
	add.w	r0, r4, r0, lsl #3
	ldr	r1, [r0, #-24]
	ldr	r2, [sp, #4]
	ldr	r4, [sp, #12]
	and	r1, r1, #1
	and	r2, r2, #1
	orrs	r1, r6
	orrs	r2, r4
	strd	r1, r10, [r0, #-24]
	strd	r3, r8, [r0, #-16]
	str	r2, [r0, #-8]
	ldr	r1, [sp, #28]
	ldr	r4, [sp, #16]
	ldr	r2, [sp, #44]
	ldr	r3, [sp, #20]
	eors	r1, r4
	eors	r2, r3
	orrs	r1, r2
	ldr	r1, [sp, #8]
	str	r1, [r0, #-4]
	bne	.LBB61_51
	ldr	r0, [sp, #48]
	ldr.w	r8, [sp, #56]
	mov.w	r11, #1
	b	.LBB61_52
	.p2align	2
.LBB61_51:
	ldr.w	r8, [sp, #56]
	ldr	r0, [sp, #48]
	mov	lr, r4
	mov	r12, r3
.LBB61_52:
	str	r0, [sp, #56]
.LBB61_53:
	ldr	r2, [sp, #24]
.LBB61_54:
	lsls	r0, r2, #31
	it	ne
	cmpne.w	r11, #0
	bne	.LBB61_56
.LBB61_55:
	ldr	r1, [sp, #36]
	movs	r0, #0
	strd	r0, r0, [r1, #-24]
	ldr	r1, [sp, #32]
	ldr	r2, [sp, #56]
	strd	r8, r2, [r1]
	add	sp, #64
	pop.w	{r4, r5, r6, r7, r8, r9, r10, r11, pc}
	.p2align	2
.LBB61_56:
	ldr	r5, [sp, #60]
	mov.w	r10, #67
	str.w	r9, [sp, #40]
	.p2align	2
.LBB61_57:
	lsr.w	r0, lr, #3
	add.w	r0, r0, r0, lsl #1
	lsls	r1, r7, #31
	add.w	r7, r5, r0, lsl #3
	str	r7, [sp, #44]
	beq	.LBB61_61
	ldrd	r2, r0, [r7, #-24]
	mov	r4, r8
	bic	r3, r2, #7
	and	r8, r0, #15
	subs	r0, r3, #1
	sbc	r1, r8, #0
	subs.w	r0, r0, r9
	ldr	r0, [sp, #52]
	sbcs.w	r0, r1, r0
	bhs.w	.LBB61_93
	lsrs	r0, r2, #3
	add.w	r0, r0, r0, lsl #1
	add.w	r11, r5, r0, lsl #3
	ldr	r0, [r11, #-8]
	lsls	r0, r0, #31
	beq	.LBB61_64
	str	r4, [sp, #24]
	ldr	r0, [sp, #56]
	str	r0, [sp, #48]
	b	.LBB61_85
	.p2align	2
.LBB61_61:
	ldrd	r1, r0, [r7, #-16]
	ldr	r5, [sp, #52]
	bic	r11, r1, #7
	and	r3, r0, #15
	subs.w	r0, r11, #1
	sbc	r2, r3, #0
	subs.w	r0, r0, r9
	sbcs.w	r0, r2, r5
	bhs	.LBB61_55
	lsrs	r0, r1, #3
	ldr	r1, [sp, #60]
	add.w	r0, r0, r0, lsl #1
	add.w	r7, r1, r0, lsl #3
	ldr	r0, [r7, #-8]
	lsls	r0, r0, #31
	beq	.LBB61_69
	str.w	r8, [sp, #24]
	ldr	r0, [sp, #56]
	str	r0, [sp, #48]
	b	.LBB61_75
	.p2align	2
.LBB61_64:
	ldrd	r0, r1, [r11, #-16]
	str	r3, [sp, #28]
	strd	r10, r8, [sp, #20]
	str	r4, [sp, #48]
	bic	r6, r0, #7
	ldr	r3, [sp, #52]
	and	r4, r1, #15
	subs.w	r0, r9, r6
	sbcs.w	r0, r3, r4
	itt	lo
	movlo	r4, #0
	movlo	r6, #0
	ldrd	r0, r1, [r7, #-8]
	mov	r10, r7
	and	r7, r1, #15
	bic	r1, r0, #7
	subs.w	r0, r9, r1
	sbcs.w	r0, r3, r7
	orr.w	r8, r6, r4
	and	r0, r2, #1
	itt	lo
	movlo	r7, #0
	movlo	r1, #0
	add	r0, r6
	cmp.w	r8, #0
	strd	r0, r4, [r10, #-24]
	beq	.LBB61_66
	lsrs	r0, r6, #3
	add.w	r0, r0, r0, lsl #1
	add.w	r0, r5, r0, lsl #3
	ldr	r2, [r0, #-8]
	and	r2, r2, #1
	orr.w	r2, r2, lr
	strd	r2, r12, [r0, #-8]
.LBB61_66:
	orrs.w	r0, r1, r7
	orr	r0, r1, #1
	ldr	r2, [sp, #28]
	ldr	r3, [sp, #24]
	strd	r0, r7, [r11, #-8]
	ldrd	r9, r7, [sp, #40]
	ldr.w	r10, [sp, #20]
	mov	r6, r2
	mov	r4, r3
	beq.w	.LBB61_83
	lsrs	r0, r1, #3
	add.w	r0, r0, r0, lsl #1
	add.w	r1, r5, r0, lsl #3
	ldrd	r2, r0, [r1, #-24]
	bic	r4, r2, #7
	subs.w	r6, r9, r4
	ldr	r6, [sp, #52]
	and	r0, r0, #15
	sbcs	r6, r0
	mov	r6, r12
	it	hs
	eorhs	r6, r0
	mov	r0, lr
	it	hs
	eorhs	r0, r4
	orrs	r0, r6
	bne.w	.LBB61_81
	and	r0, r2, #1
	ldr	r2, [sp, #28]
	orrs	r0, r2
	strd	r0, r3, [r1, #-24]
	b	.LBB61_82
	.p2align	2
.LBB61_69:
	ldrd	r0, r1, [r7, #-24]
	str.w	r8, [sp, #48]
	bic	r6, r0, #7
	and	r4, r1, #15
	subs.w	r0, r9, r6
	str	r3, [sp, #28]
	sbcs.w	r0, r5, r4
	itt	lo
	movlo	r4, #0
	movlo	r6, #0
	ldr.w	r8, [sp, #44]
	orr.w	r3, r6, r4
	ldrd	r0, r1, [r8, #-8]
	and	r2, r1, #15
	bic	r1, r0, #7
	subs.w	r0, r9, r1
	sbcs.w	r0, r5, r2
	itt	lo
	movlo	r2, #0
	movlo	r1, #0
	strd	r6, r4, [r8, #-16]
	cbz	r3, .LBB61_71
	lsrs	r0, r6, #3
	ldr	r3, [sp, #60]
	add.w	r0, r0, r0, lsl #1
	add.w	r0, r3, r0, lsl #3
	ldr	r3, [r0, #-8]
	and	r3, r3, #1
	orr.w	r3, r3, lr
	strd	r3, r12, [r0, #-8]
.LBB61_71:
	ldr	r6, [sp, #28]
	orrs.w	r0, r1, r2
	orr	r0, r1, #1
	mov	r8, r11
	mov	r4, r6
	strd	r0, r2, [r7, #-8]
	beq	.LBB61_73
	lsrs	r0, r1, #3
	ldr	r1, [sp, #60]
	add.w	r0, r0, r0, lsl #1
	add.w	r1, r1, r0, lsl #3
	ldrd	r2, r0, [r1, #-24]
	bic	r3, r2, #7
	and	r0, r0, #15
	subs.w	r4, r9, r3
	sbcs.w	r4, r5, r0
	mov	r4, r12
	it	hs
	eorhs	r4, r0
	mov	r0, lr
	it	hs
	eorhs	r0, r3
	orrs	r0, r4
	iteee	ne
	strdne	r11, r6, [r1, #-16]
	andeq	r0, r2, #1
	orreq.w	r0, r0, r11
	strdeq	r0, r6, [r1, #-24]
	ldr.w	r8, [sp, #48]
	ldr	r4, [sp, #56]
.LBB61_73:
	ldr	r0, [r7, #-24]
	ldr	r2, [sp, #44]
	and	r0, r0, #1
	orr.w	r0, r0, lr
	strd	r0, r12, [r7, #-24]
	ldrd	r0, r1, [r2, #-16]
	strd	r11, r6, [r2, #-8]
	bic	r11, r0, #7
	and	r3, r1, #15
	subs.w	r0, r11, #1
	sbc	r1, r3, #0
	subs.w	r0, r0, r9
	sbcs.w	r0, r1, r5
	bhs.w	.LBB61_97
	str.w	r8, [sp, #24]
	str	r4, [sp, #48]
.LBB61_75:
	str	r3, [sp, #28]
	lsr.w	r0, r11, #3
	ldr	r1, [sp, #60]
	add.w	r0, r0, r0, lsl #1
	add.w	r8, r1, r0, lsl #3
	ldrd	r9, r1, [r8, #-24]
	ldr	r4, [sp, #40]
	bic	r2, r9, #7
	and	r7, r1, #15
	subs	r1, r2, #1
	sbc	r3, r7, #0
	subs	r1, r1, r4
	sbcs.w	r1, r3, r5
	lsl.w	r4, r0, #3
	bhs	.LBB61_77
	lsr.w	r0, r9, #3
	add.w	r6, r0, r0, lsl #1
	ldr	r0, [sp, #60]
	add.w	r1, r0, r6, lsl #3
	ldr	r0, [r1, #-8]
	lsls	r0, r0, #31
	beq.w	.LBB61_98
.LBB61_77:
	ldrd	r1, r0, [r8, #-16]
	ldr.w	r9, [sp, #40]
	bic	r2, r1, #7
	and	r0, r0, #15
	subs	r2, #1
	sbc	r0, r0, #0
	subs.w	r2, r2, r9
	sbcs	r0, r5
	bhs	.LBB61_79
	lsrs	r0, r1, #3
	add.w	r1, r0, r0, lsl #1
	ldr	r0, [sp, #60]
	add.w	r2, r0, r1, lsl #3
	ldr	r7, [r2, #-8]
	lsls	r0, r7, #31
	beq.w	.LBB61_107
.LBB61_79:
	ldr	r0, [r8, #-8]
	ldr	r3, [sp, #44]
	bic	r0, r0, #1
	str	r0, [r8, #-8]
	ldrd	r2, r1, [r3, #-8]
	lsls	r0, r2, #31
	beq.w	.LBB61_94
	ldr	r0, [sp, #48]
	ldr.w	r8, [sp, #24]
	str	r0, [sp, #56]
	b	.LBB61_91
	.p2align	2
.LBB61_81:
	ldr	r2, [sp, #28]
	strd	r2, r3, [r1, #-16]
.LBB61_82:
	ldr	r6, [sp, #48]
	ldr	r4, [sp, #56]
.LBB61_83:
	strd	lr, r12, [r11, #-16]
	ldrd	r0, r1, [r7, #-24]
	strd	r2, r3, [r7, #-8]
	bic	r3, r0, #7
	and	r8, r1, #15
	subs	r0, r3, #1
	sbc	r1, r8, #0
	subs.w	r0, r0, r9
	ldr	r0, [sp, #52]
	sbcs.w	r0, r1, r0
	bhs.w	.LBB61_96
	str	r6, [sp, #24]
	str	r4, [sp, #48]
.LBB61_85:
	lsrs	r0, r3, #3
	add.w	r0, r0, r0, lsl #1
	str	r3, [sp, #28]
	add.w	r3, r5, r0, lsl #3
	ldrd	r11, r1, [r3, #-24]
	lsls	r4, r0, #3
	and	r0, r1, #15
	bic	r1, r11, #7
	subs	r1, #1
	ldr	r5, [sp, #52]
	sbc	r0, r0, #0
	subs.w	r1, r1, r9
	sbcs	r0, r5
	mov.w	r9, #0
	it	lo
	movlo.w	r9, #1
	bhs	.LBB61_87
	lsr.w	r0, r11, #3
	add.w	r1, r0, r0, lsl #1
	ldr	r0, [sp, #60]
	add.w	r6, r0, r1, lsl #3
	ldr	r2, [r6, #-8]
	lsls	r0, r2, #31
	beq.w	.LBB61_106
.LBB61_87:
	ldrd	r1, r0, [r3, #-16]
	str	r4, [sp, #56]
	and	r6, r0, #15
	bic	r0, r1, #7
	str	r0, [sp, #20]
	ldr	r4, [sp, #40]
	subs	r0, #1
	sbc	r2, r6, #0
	subs	r0, r0, r4
	sbcs.w	r0, r2, r5
	bhs	.LBB61_89
	lsrs	r0, r1, #3
	add.w	r7, r0, r0, lsl #1
	ldr	r0, [sp, #60]
	add.w	r1, r0, r7, lsl #3
	ldr	r0, [r1, #-8]
	lsls	r0, r0, #31
	beq.w	.LBB61_108
.LBB61_89:
	ldr	r0, [r3, #-8]
	ldr	r4, [sp, #48]
	bic	r0, r0, #1
	str	r0, [r3, #-8]
	ldr	r3, [sp, #44]
	ldr.w	r8, [sp, #24]
	ldrd	r2, r1, [r3, #-8]
	lsls	r0, r2, #31
	beq	.LBB61_95
	str	r4, [sp, #56]
	ldr.w	r9, [sp, #40]
.LBB61_91:
	and	r3, r1, #15
	bic	r1, r2, #7
	subs	r0, r1, #1
	sbc	r4, r3, #0
	subs.w	r0, r0, r9
	sbcs.w	r0, r4, r5
	mov	r6, r5
	ldr	r5, [sp, #60]
	bhs.w	.LBB61_55
	lsrs	r0, r2, #3
	add.w	r0, r0, r0, lsl #1
	add.w	r0, r5, r0, lsl #3
	ldrd	r0, r2, [r0, #-24]
	bic	r0, r0, #7
	and	r2, r2, #15
	subs.w	r4, r9, r0
	sbcs.w	r4, r6, r2
	itt	hs
	eorhs.w	r12, r12, r2
	eorhs.w	lr, lr, r0
	orrs.w	r7, lr, r12
	it	ne
	movne	r7, #1
	subs.w	r10, r10, #1
	mov	lr, r1
	mov	r12, r3
	bne.w	.LBB61_57
	b	.LBB61_55
	.p2align	2
.LBB61_93:
	mov	r8, r4
	b	.LBB61_55
	.p2align	2
.LBB61_94:
	orr	r0, r2, #1
	strd	r0, r1, [r3, #-8]
	ldr.w	r8, [sp, #24]
	ldr	r0, [sp, #48]
	str	r0, [sp, #56]
	b	.LBB61_55
	.p2align	2
.LBB61_95:
	orr	r0, r2, #1
	strd	r0, r1, [r3, #-8]
	str	r4, [sp, #56]
	b	.LBB61_55
	.p2align	2
.LBB61_96:
	mov	r8, r6
.LBB61_97:
	str	r4, [sp, #56]
	b	.LBB61_55
	.p2align	2
.LBB61_98:
	str	r4, [sp, #56]
	str	r7, [sp, #20]
	ldrd	r7, r0, [r8, #-16]
	ldr	r4, [sp, #40]
	bic	r3, r7, #7
	and	r0, r0, #15
	subs	r3, #1
	sbc	r0, r0, #0
	subs	r3, r3, r4
	sbcs	r0, r5
	bhs	.LBB61_100
	lsrs	r0, r7, #3
	add.w	r3, r0, r0, lsl #1
	ldr	r0, [sp, #60]
	add.w	r10, r0, r3, lsl #3
	ldr	r7, [r10, #-8]
	lsls	r0, r7, #31
	beq.w	.LBB61_116
.LBB61_100:
	ldrd	r0, r3, [r1, #-16]
	bic	r7, r0, #7
	ldr	r0, [sp, #40]
	and	r4, r3, #15
	subs	r0, r0, r7
	sbcs.w	r0, r5, r4
	itt	lo
	movlo	r4, #0
	movlo	r7, #0
	ldrd	r10, r0, [r8, #-8]
	orr.w	r3, r7, r4
	str	r3, [sp, #16]
	and	r3, r0, #15
	ldr	r0, [sp, #40]
	bic	r10, r10, #7
	subs.w	r0, r0, r10
	sbcs.w	r0, r5, r3
	it	lo
	movlo	r3, #0
	str	r3, [sp, #56]
	it	lo
	movlo.w	r10, #0
	ldr	r3, [sp, #16]
	and	r0, r9, #1
	add	r0, r7
	strd	r0, r4, [r8, #-24]
	cbz	r3, .LBB61_102
	lsrs	r0, r7, #3
	ldr	r3, [sp, #60]
	add.w	r0, r0, r0, lsl #1
	add.w	r0, r3, r0, lsl #3
	ldr	r3, [r0, #-8]
	ldr	r4, [sp, #28]
	and	r3, r3, #1
	orr.w	r3, r3, r11
	strd	r3, r4, [r0, #-8]
.LBB61_102:
	ldr	r7, [sp, #20]
	ldr	r3, [sp, #56]
	str	r7, [sp, #56]
	orrs.w	r0, r10, r3
	ldr	r4, [sp, #48]
	orr	r0, r10, #1
	mov	r9, r2
	strd	r0, r3, [r1, #-8]
	beq.w	.LBB61_120
	lsr.w	r0, r10, #3
	ldr	r3, [sp, #60]
	add.w	r0, r0, r0, lsl #1
	add.w	r10, r3, r0, lsl #3
	ldrd	r3, r0, [r10, #-24]
	str	r3, [sp, #56]
	and	r7, r0, #15
	ldr	r0, [sp, #40]
	bic	r9, r3, #7
	subs.w	r0, r0, r9
	sbcs.w	r0, r5, r7
	blo.w	.LBB61_118
	ldr	r3, [sp, #28]
	eor.w	r0, r9, r11
	eors	r3, r7
	orrs	r0, r3
	bne.w	.LBB61_118
	ldr	r0, [sp, #56]
	ldr	r7, [sp, #20]
	and	r0, r0, #1
	orrs	r0, r2
	strd	r0, r7, [r10, #-24]
	b	.LBB61_119
	.p2align	2
.LBB61_106:
	ldr	r3, [r6, #-4]
	ldr.w	r11, [sp, #60]
	lsls	r6, r1, #3
	b	.LBB61_131
	.p2align	2
.LBB61_107:
	ldr	r8, [r2, #-4]
	lsls	r1, r1, #3
	b	.LBB61_122
	.p2align	2
.LBB61_108:
	cmp.w	r9, #0
	str	r6, [sp, #16]
	beq	.LBB61_110
	lsr.w	r0, r11, #3
	add.w	r9, r0, r0, lsl #1
	ldr	r0, [sp, #60]
	add.w	r6, r0, r9, lsl #3
	ldr	r2, [r6, #-8]
	lsls	r0, r2, #31
	beq	.LBB61_117
.LBB61_110:
	ldrd	r0, r2, [r1, #-24]
	mov	r11, r8
	bic	r6, r0, #7
	ldr	r0, [sp, #40]
	and	r4, r2, #15
	mov	r8, r0
	subs	r0, r0, r6
	sbcs.w	r0, r5, r4
	itt	lo
	movlo	r4, #0
	movlo	r6, #0
	ldrd	r0, r2, [r3, #-8]
	orr.w	r10, r6, r4
	and	r9, r2, #15
	bic	r2, r0, #7
	subs.w	r0, r8, r2
	mov	r8, r11
	sbcs.w	r0, r5, r9
	itt	lo
	movlo.w	r9, #0
	movlo	r2, #0
	ldr.w	r11, [sp, #60]
	cmp.w	r10, #0
	strd	r6, r4, [r3, #-16]
	beq	.LBB61_112
	lsrs	r0, r6, #3
	add.w	r0, r0, r0, lsl #1
	add.w	r0, r11, r0, lsl #3
	ldr	r4, [r0, #-8]
	ldr	r5, [sp, #28]
	and	r4, r4, #1
	orrs	r4, r5
	strd	r4, r8, [r0, #-8]
.LBB61_112:
	orrs.w	r0, r2, r9
	ldr	r4, [sp, #20]
	orr	r0, r2, #1
	ldr	r5, [sp, #16]
	strd	r0, r9, [r1, #-8]
	mov	r9, r4
	str	r5, [sp, #56]
	beq.w	.LBB61_129
	lsrs	r0, r2, #3
	add.w	r0, r0, r0, lsl #1
	add.w	r10, r11, r0, lsl #3
	ldrd	r9, r0, [r10, #-24]
	and	r6, r0, #15
	ldr	r0, [sp, #40]
	bic	r2, r9, #7
	subs	r0, r0, r2
	ldr	r0, [sp, #52]
	sbcs	r0, r6
	blo.w	.LBB61_127
	ldr	r0, [sp, #28]
	eors	r0, r2
	eor.w	r2, r6, r8
	orrs	r0, r2
	bne.w	.LBB61_127
	ldr	r4, [sp, #20]
	and	r0, r9, #1
	ldr	r5, [sp, #16]
	orrs	r0, r4
	strd	r0, r5, [r10, #-24]
	b	.LBB61_128
	.p2align	2
.LBB61_116:
	ldr	r8, [r10, #-4]
	ldr	r4, [sp, #56]
	lsls	r1, r3, #3
	b	.LBB61_122
	.p2align	2
.LBB61_117:
	ldr	r3, [r6, #-4]
	ldr	r7, [sp, #44]
	ldrd	r4, r11, [sp, #56]
	lsl.w	r6, r9, #3
	b	.LBB61_131
	.p2align	2
.LBB61_118:
	ldr	r7, [sp, #20]
	strd	r2, r7, [r10, #-16]
.LBB61_119:
	ldr.w	r9, [sp, #24]
	str	r4, [sp, #56]
.LBB61_120:
	ldr	r0, [sp, #28]
	ldr	r4, [sp, #40]
	strd	r11, r0, [r1, #-16]
	strd	r2, r7, [r8, #-8]
	ldrd	r1, r0, [r1, #-16]
	bic	r3, r1, #7
	and	r0, r0, #15
	subs	r3, #1
	sbc	r0, r0, #0
	subs	r3, r3, r4
	sbcs	r0, r5
	bhs.w	.LBB61_136
	lsrs	r0, r1, #3
	ldr	r3, [sp, #60]
	add.w	r0, r0, r0, lsl #1
	lsls	r1, r0, #3
	add.w	r0, r3, r0, lsl #3
	str.w	r9, [sp, #24]
	mov	r3, r7
	ldrd	r7, r8, [r0, #-8]
	ldr	r0, [sp, #56]
	lsls	r4, r6, #3
	mov	r11, r2
	str	r0, [sp, #48]
	str	r3, [sp, #28]
.LBB61_122:
	ldr.w	r9, [sp, #44]
	ldr	r0, [r9, #-8]
	str	r0, [sp, #56]
	ldr	r5, [sp, #60]
	ldr	r6, [sp, #52]
	adds	r0, r5, r1
	orr	r1, r7, #1
	strd	r1, r8, [r0, #-8]
	add.w	r8, r5, r4
	ldrd	r0, r1, [r8, #-24]
	ldr	r4, [sp, #40]
	bic	r7, r0, #7
	and	r3, r1, #15
	subs	r0, r4, r7
	sbcs.w	r0, r6, r3
	itt	lo
	movlo	r3, #0
	movlo	r7, #0
	ldrd	r0, r1, [r9, #-8]
	orr.w	r10, r7, r3
	and	r2, r1, #15
	bic	r1, r0, #7
	subs	r0, r4, r1
	sbcs.w	r0, r6, r2
	itt	lo
	movlo	r2, #0
	movlo	r1, #0
	cmp.w	r10, #0
	strd	r7, r3, [r9, #-16]
	beq	.LBB61_124
	lsrs	r0, r7, #3
	add.w	r0, r0, r0, lsl #1
	add.w	r0, r5, r0, lsl #3
	ldr	r3, [r0, #-8]
	and	r3, r3, #1
	orr.w	r3, r3, lr
	strd	r3, r12, [r0, #-8]
.LBB61_124:
	orrs.w	r0, r1, r2
	ldr	r0, [sp, #56]
	ldr	r5, [sp, #28]
	and	r0, r0, #1
	orr.w	r0, r0, r1
	strd	r0, r2, [r8, #-8]
	mov	r2, r11
	str	r5, [sp, #56]
	beq	.LBB61_126
	lsrs	r0, r1, #3
	ldr	r1, [sp, #60]
	add.w	r0, r0, r0, lsl #1
	add.w	r2, r1, r0, lsl #3
	ldrd	r1, r0, [r2, #-24]
	ldr	r4, [sp, #40]
	bic	r3, r1, #7
	subs	r4, r4, r3
	ldr	r4, [sp, #52]
	and	r0, r0, #15
	sbcs.w	r7, r4, r0
	mov	r7, r12
	it	hs
	eorhs	r7, r0
	mov	r0, lr
	it	hs
	eorhs	r0, r3
	orrs	r0, r7
	iteee	ne
	strdne	r11, r5, [r2, #-16]
	andeq	r0, r1, #1
	orreq.w	r0, r0, r11
	strdeq	r0, r5, [r2, #-24]
	ldr	r2, [sp, #24]
	ldr	r0, [sp, #48]
	str	r0, [sp, #56]
.LBB61_126:
	ldr	r0, [r8, #-24]
	ldr	r1, [sp, #44]
	and	r0, r0, #1
	orr.w	r0, r0, lr
	strd	r0, r12, [r8, #-24]
	orr	r0, r11, #1
	strd	r0, r5, [r1, #-8]
	mov	r8, r2
	b.w	.LBB61_55
	.p2align	2
.LBB61_127:
	ldrd	r5, r4, [sp, #16]
	strd	r4, r5, [r10, #-16]
.LBB61_128:
	ldr.w	r9, [sp, #24]
	ldr	r0, [sp, #48]
	str	r0, [sp, #56]
.LBB61_129:
	ldr	r0, [r1, #-24]
	ldr	r2, [sp, #28]
	and	r0, r0, #1
	orrs	r0, r2
	strd	r0, r8, [r1, #-24]
	strd	r4, r5, [r3, #-8]
	ldrd	r1, r0, [r1, #-24]
	ldr	r3, [sp, #40]
	bic	r2, r1, #7
	and	r0, r0, #15
	subs	r2, #1
	sbc	r0, r0, #0
	subs	r2, r2, r3
	ldr	r2, [sp, #52]
	sbcs	r0, r2
	bhs.w	.LBB61_136
	lsrs	r0, r1, #3
	add.w	r0, r0, r0, lsl #1
	lsls	r6, r0, #3
	add.w	r0, r11, r0, lsl #3
	str.w	r9, [sp, #24]
	ldrd	r2, r3, [r0, #-8]
	ldr	r0, [sp, #56]
	lsls	r7, r7, #3
	str	r0, [sp, #48]
	str	r4, [sp, #28]
	mov	r4, r7
	ldr	r7, [sp, #44]
	mov	r8, r5
.LBB61_131:
	add.w	r0, r11, r6
	orr	r1, r2, #1
	ldr	r9, [r7, #-8]
	strd	r1, r3, [r0, #-8]
	add.w	r10, r11, r4
	ldrd	r0, r1, [r10, #-16]
	ldr	r3, [sp, #40]
	bic	r6, r0, #7
	ldr	r5, [sp, #52]
	and	r4, r1, #15
	subs	r0, r3, r6
	sbcs.w	r0, r5, r4
	itt	lo
	movlo	r4, #0
	movlo	r6, #0
	ldrd	r2, r1, [r7, #-8]
	ldr	r7, [sp, #44]
	bic	r2, r2, #7
	ldr	r7, [r7, #-24]
	and	r1, r1, #15
	subs	r3, r3, r2
	sbcs.w	r3, r5, r1
	orr.w	r0, r6, r4
	itt	lo
	movlo	r1, #0
	movlo	r2, #0
	and	r3, r7, #1
	ldr	r5, [sp, #44]
	add	r3, r6
	strd	r3, r4, [r5, #-24]
	cbz	r0, .LBB61_133
	lsrs	r0, r6, #3
	add.w	r0, r0, r0, lsl #1
	add.w	r0, r11, r0, lsl #3
	ldr	r3, [r0, #-8]
	and	r3, r3, #1
	orr.w	r3, r3, lr
	strd	r3, r12, [r0, #-8]
.LBB61_133:
	orrs.w	r0, r2, r1
	and	r0, r9, #1
	ldr	r6, [sp, #28]
	orr.w	r0, r0, r2
	strd	r0, r1, [r10, #-8]
	mov	r1, r6
	str.w	r8, [sp, #56]
	beq	.LBB61_135
	lsrs	r0, r2, #3
	add.w	r0, r0, r0, lsl #1
	add.w	r2, r11, r0, lsl #3
	ldrd	r1, r0, [r2, #-24]
	ldr	r4, [sp, #40]
	bic	r3, r1, #7
	subs	r4, r4, r3
	ldr	r4, [sp, #52]
	and	r0, r0, #15
	sbcs.w	r7, r4, r0
	mov	r7, r12
	it	hs
	eorhs	r7, r0
	mov	r0, lr
	it	hs
	eorhs	r0, r3
	orrs	r0, r7
	iteee	ne
	strdne	r6, r8, [r2, #-16]
	andeq	r0, r1, #1
	orreq	r0, r6
	strdeq	r0, r8, [r2, #-24]
	ldr	r0, [sp, #48]
	ldr	r1, [sp, #24]
	str	r0, [sp, #56]
	ldr	r5, [sp, #44]
.LBB61_135:
	orr	r0, r6, #1
	strd	lr, r12, [r10, #-16]
	strd	r0, r8, [r5, #-8]
	mov	r8, r1
	b.w	.LBB61_55
	.p2align	2
.LBB61_136:
	mov	r8, r9
	b.w	.LBB61_55
.Lfunc_end61:
	.size	ic_raw.tree_calls.remove, .Lfunc_end61-ic_raw.tree_calls.remove
	.cfi_endproc
	.section	.text.unlikely.ic_raw.table.RawTable.refusal_at.19bacce014a8892a,"ax",%progbits
	.p2align	2
	.type	ic_raw.table.RawTable.refusal_at.19bacce014a8892a,%function
	.code	16
	.thumb_func
ic_raw.table.RawTable.refusal_at.19bacce014a8892a:
	.cfi_startproc
	ldr	r1, [sp]
	adds	r1, #1
	itt	hs
	movhs	r0, #5
	bxhs	lr
.LBB62_1:
	subs	r2, r2, r1
	sbcs	r2, r3, #0
	itt	lo
	movlo	r0, #1
	bxlo	lr
.LBB62_2:
	add.w	r1, r1, r1, lsl #1
	add.w	r0, r0, r1, lsl #3
	ldrb	r0, [r0, #-24]
	lsls	r0, r0, #31
	mov.w	r0, #5
	it	eq
	moveq	r0, #3
	bx	lr
.Lfunc_end62:
	.size	ic_raw.table.RawTable.refusal_at.19bacce014a8892a, .Lfunc_end62-ic_raw.table.RawTable.refusal_at.19bacce014a8892a
	.cfi_endproc
	.section	.text.ic_raw.tree_calls.replace,"ax",%progbits
	.p2align	2
	.type	ic_raw.tree_calls.replace,%function
	.code	16
	.thumb_func
ic_raw.tree_calls.replace:
	.cfi_startproc
	push.w	{r4, r5, r6, r7, r8, r9, r10, r11, lr}
	.cfi_def_cfa_offset 36
	.cfi_offset lr, -4
	.cfi_offset r11, -8
	.cfi_offset r10, -12
	.cfi_offset r9, -16
	.cfi_offset r8, -20
	.cfi_offset r7, -24
	.cfi_offset r6, -28
	.cfi_offset r5, -32
	.cfi_offset r4, -36
	sub	sp, #60
	.cfi_def_cfa_offset 96
	ldr	r1, [sp, #100]
	adds	r4, r1, #1
	blo	.LBB63_2
	movs	r0, #4
	add	sp, #60
	pop.w	{r4, r5, r6, r7, r8, r9, r10, r11, pc}
	.p2align	2
.LBB63_2:
	movs	r7, #0
	ldr.w	r12, [sp, #104]
	strd	r7, r2, [sp, #44]
	subs	r7, r2, r4
	sbcs	r7, r3, #0
	str	r0, [sp, #40]
	str	r3, [sp, #52]
	blo	.LBB63_9
	add.w	r7, r4, r4, lsl #1
	add.w	lr, r0, r7, lsl #3
	ldrb	r5, [lr, #-24]
	lsls	r5, r5, #31
	beq	.LBB63_9
	ldr	r5, [sp, #96]
	ldrd	r5, r6, [r5]
	and	r10, r6, #15
	bic	r8, r5, #7
	lsls	r6, r3, #3
	orr.w	r11, r6, r2, lsr #29
	subs.w	r6, r8, #1
	sbc	r7, r10, #0
	subs.w	r6, r6, r2, lsl #3
	sbcs.w	r6, r7, r11
	bhs	.LBB63_9
	lsrs	r5, r5, #3
	add.w	r5, r5, r5, lsl #1
	add.w	r5, r0, r5, lsl #3
	ldrb	r5, [r5, #-24]
	lsls	r5, r5, #31
	beq	.LBB63_9
	lsrs	r6, r4, #29
	lsls	r7, r4, #3
	eor.w	r4, r8, r7
	eor.w	r5, r10, r6
	add.w	r9, r12, #1
	orrs	r4, r5
	it	ne
	movne	r4, #1
	subs.w	r5, r2, r9
	sbcs	r3, r3, #0
	blo	.LBB63_9
	cmp.w	r9, #0
	beq	.LBB63_9
	ldrd	r3, r5, [lr, #-8]
	and	r5, r5, #15
	bic	r3, r3, #7
	orrs	r3, r5
	clz	r3, r3
	lsrs	r3, r3, #5
	ands	r3, r4
	itttt	eq
	addeq.w	r3, r9, r9, lsl #1
	addeq.w	r3, r0, r3, lsl #3
	ldrbeq	r4, [r3, #-24]
	lslseq.w	r4, r4, #31
	beq	.LBB63_10
.LBB63_9:
	add	r0, sp, #40
	mov	r2, r12
	bl	ic_raw.table.RawTable.refusal.19bacce014a8892a
	add	sp, #60
	pop.w	{r4, r5, r6, r7, r8, r9, r10, r11, pc}
	.p2align	2
.LBB63_10:
	lsr.w	r1, r9, #29
	strd	r7, r6, [sp, #8]
	str	r1, [sp, #20]
	mov	r6, r11
	lsl.w	r11, r2, #3
	movs	r1, #0
	movs	r2, #1
	str	r1, [r3, #-20]
	str	r2, [r3, #-24]
	str	r1, [r3, #-16]
	str	r1, [r3, #-12]
	str	r1, [r3, #-8]
	str	r1, [r3, #-4]
	ldrd	r4, r1, [lr, #-8]
	ldrd	r7, r2, [lr, #-24]
	and	r5, r1, #15
	bic	r1, r4, #7
	str	r4, [sp, #24]
	subs.w	r4, r11, r1
	str.w	r10, [sp, #36]
	str.w	r8, [sp, #16]
	ldrd	r10, r12, [lr, #-16]
	sbcs.w	r4, r6, r5
	bic	r8, r7, #7
	itt	lo
	movlo	r5, #0
	movlo	r1, #0
	and	r2, r2, #15
	subs.w	r7, r11, r8
	sbcs.w	r7, r6, r2
	bic	r10, r10, #7
	str	r5, [sp, #28]
	orr.w	r4, r1, r5
	itt	lo
	movlo	r2, #0
	movlo.w	r8, #0
	and	r12, r12, #15
	subs.w	r5, r11, r10
	sbcs.w	r5, r6, r12
	itt	lo
	movlo.w	r12, #0
	movlo.w	r10, #0
	cmp	r4, #0
	lsl.w	r4, r9, #3
	str	r4, [sp, #32]
	beq	.LBB63_13
	lsrs	r4, r1, #3
	add.w	r4, r4, r4, lsl #1
	add.w	r5, r0, r4, lsl #3
	ldrd	r4, r7, [r5, #-24]
	bic	r9, r4, #7
	and	r7, r7, #15
	str	r4, [sp, #4]
	subs.w	r4, r11, r9
	sbcs.w	r4, r6, r7
	ldr	r4, [sp, #12]
	it	hs
	eorhs	r4, r7
	ldr	r6, [sp, #8]
	it	hs
	eorhs.w	r6, r6, r9
	orrs	r4, r6
	bne	.LBB63_14
	ldr	r4, [sp, #4]
	ldr	r6, [sp, #32]
	and	r4, r4, #1
	ldr	r7, [sp, #20]
	orrs	r4, r6
	strd	r4, r7, [r5, #-24]
	mov	r5, r7
	b	.LBB63_15
	.p2align	2
.LBB63_13:
	ldr	r5, [sp, #20]
	ldr.w	r9, [sp, #96]
	mov	r6, r4
	mov	r11, r5
	orrs.w	r4, r8, r2
	bne	.LBB63_16
	b	.LBB63_17
	.p2align	2
.LBB63_14:
	ldr	r4, [sp, #20]
	ldr	r6, [sp, #32]
	strd	r6, r4, [r5, #-16]
	mov	r5, r4
.LBB63_15:
	ldr.w	r9, [sp, #96]
	ldr	r6, [sp, #16]
	ldr.w	r11, [sp, #36]
	orrs.w	r4, r8, r2
	beq	.LBB63_17
.LBB63_16:
	lsr.w	r4, r8, #3
	add.w	r4, r4, r4, lsl #1
	add.w	r4, r0, r4, lsl #3
	str.w	r11, [sp, #36]
	mov	r11, r9
	mov	r9, r5
	ldr	r5, [r4, #-8]
	ldr	r7, [sp, #32]
	and	r5, r5, #1
	orrs	r5, r7
	strd	r5, r9, [r4, #-8]
	mov	r5, r9
	mov	r9, r11
	ldr.w	r11, [sp, #36]
.LBB63_17:
	orrs.w	r4, r10, r12
	beq	.LBB63_19
	lsr.w	r4, r10, #3
	add.w	r4, r4, r4, lsl #1
	add.w	r0, r0, r4, lsl #3
	ldr	r4, [r0, #-8]
	ldr	r7, [sp, #32]
	and	r4, r4, #1
	orrs	r4, r7
	strd	r4, r5, [r0, #-8]
.LBB63_19:
	ldr	r0, [r3, #-24]
	ldr	r4, [sp, #24]
	and	r0, r0, #1
	and	r4, r4, #1
	orr.w	r0, r0, r8
	orrs	r1, r4
	sub.w	r4, r3, #24
	stm.w	r4, {r0, r2, r10, r12}
	ldr	r0, [sp, #28]
	str	r1, [r3, #-8]
	str	r0, [r3, #-4]
	movs	r0, #0
	strd	r0, r0, [lr, #-24]
	strd	r6, r11, [r9]
	add	sp, #60
	pop.w	{r4, r5, r6, r7, r8, r9, r10, r11, pc}
.Lfunc_end63:
	.size	ic_raw.tree_calls.replace, .Lfunc_end63-ic_raw.tree_calls.replace
	.cfi_endproc
	.section	.text.unlikely.ic_raw.search.refusal,"ax",%progbits
	.p2align	2
	.type	ic_raw.search.refusal,%function
	.code	16
	.thumb_func
ic_raw.search.refusal:
	.cfi_startproc
	subs	r0, r2, r0
	sbcs.w	r0, r3, r1
	mov.w	r0, #5
	it	lo
	movlo	r0, #1
	bx	lr
.Lfunc_end64:
	.size	ic_raw.search.refusal, .Lfunc_end64-ic_raw.search.refusal
	.cfi_endproc
	.section	.text.ic_raw.tree.step_from_none,"ax",%progbits
	.p2align	2
	.type	ic_raw.tree.step_from_none,%function
	.code	16
	.thumb_func
ic_raw.tree.step_from_none:
	.cfi_startproc
	push.w	{r4, r5, r6, r7, r8, r9, lr}
	.cfi_def_cfa_offset 28
	.cfi_offset lr, -4
	.cfi_offset r9, -8
	.cfi_offset r8, -12
	.cfi_offset r7, -16
	.cfi_offset r6, -20
	.cfi_offset r5, -24
	.cfi_offset r4, -28
	sub	sp, #4
	.cfi_def_cfa_offset 32
	ldrd	r1, r12, [sp, #32]
	orrs.w	r7, r1, r12
	beq	.LBB65_10
	lsrs	r7, r1, #3
	orr.w	r7, r7, r12, lsl #29
	subs	r6, r2, r7
	sbcs.w	r6, r3, r12, lsr #3
	blo.w	.LBB65_20
	add.w	r7, r7, r7, lsl #1
	add.w	r7, r0, r7, lsl #3
	ldrb	r7, [r7, #-24]
	lsls	r7, r7, #31
	beq.w	.LBB65_20
	ldr	r7, [sp, #40]
	lsls	r3, r3, #3
	orr.w	r8, r3, r2, lsr #29
	lsls	r7, r7, #24
	lsl.w	r9, r2, #3
	mov.w	lr, #64
	beq	.LBB65_12
	.p2align	2
.LBB65_4:
	lsrs	r2, r1, #3
	add.w	r2, r2, r2, lsl #1
	add.w	r2, r0, r2, lsl #3
	ldrd	r6, r2, [r2, #-24]
	bic	r5, r6, #7
	and	r4, r2, #15
	subs	r2, r5, #1
	sbc	r3, r4, #0
	subs.w	r2, r2, r9
	sbcs.w	r2, r3, r8
	bhs.w	.LBB65_19
	lsrs	r1, r6, #3
	add.w	r1, r1, r1, lsl #1
	add.w	r1, r0, r1, lsl #3
	ldrd	r1, r2, [r1, #-24]
	bic	r7, r1, #7
	and	r6, r2, #15
	subs	r2, r7, #1
	sbc	r3, r6, #0
	subs.w	r2, r2, r9
	sbcs.w	r2, r3, r8
	bhs.w	.LBB65_17
	lsrs	r1, r1, #3
	add.w	r1, r1, r1, lsl #1
	add.w	r1, r0, r1, lsl #3
	ldrd	r4, r1, [r1, #-24]
	and	r12, r1, #15
	bic	r1, r4, #7
	subs	r2, r1, #1
	sbc	r3, r12, #0
	subs.w	r2, r2, r9
	sbcs.w	r2, r3, r8
	bhs	.LBB65_18
	cmp.w	lr, #0
	beq	.LBB65_19
	lsrs	r2, r4, #3
	add.w	r2, r2, r2, lsl #1
	add.w	r2, r0, r2, lsl #3
	ldrd	r2, r3, [r2, #-24]
	bic	r5, r2, #7
	and	r4, r3, #15
	subs	r2, r5, #1
	sbc	r3, r4, #0
	subs.w	r2, r2, r9
	sbcs.w	r2, r3, r8
	bhs	.LBB65_19
	sub.w	lr, lr, #4
	mov	r1, r5
	mov	r12, r4
	b	.LBB65_4
	.p2align	2
.LBB65_10:
	movs	r0, #4
	add	sp, #4
	pop.w	{r4, r5, r6, r7, r8, r9, pc}
	.p2align	2
.LBB65_11:
	sub.w	lr, lr, #4
	mov	r1, r5
	mov	r12, r4
.LBB65_12:
	lsrs	r4, r1, #3
	add.w	r4, r4, r4, lsl #1
	add.w	r4, r0, r4, lsl #3
	ldrd	r6, r4, [r4, #-16]
	bic	r5, r6, #7
	and	r4, r4, #15
	subs	r7, r5, #1
	sbc	r3, r4, #0
	subs.w	r7, r7, r9
	sbcs.w	r3, r3, r8
	bhs	.LBB65_19
	lsrs	r1, r6, #3
	add.w	r1, r1, r1, lsl #1
	add.w	r1, r0, r1, lsl #3
	ldrd	r1, r3, [r1, #-16]
	bic	r7, r1, #7
	and	r6, r3, #15
	subs	r3, r7, #1
	sbc	r2, r6, #0
	subs.w	r3, r3, r9
	sbcs.w	r2, r2, r8
	bhs	.LBB65_17
	lsrs	r1, r1, #3
	add.w	r1, r1, r1, lsl #1
	add.w	r1, r0, r1, lsl #3
	ldrd	r4, r1, [r1, #-16]
	and	r12, r1, #15
	bic	r1, r4, #7
	subs	r2, r1, #1
	sbc	r3, r12, #0
	subs.w	r2, r2, r9
	sbcs.w	r2, r3, r8
	bhs	.LBB65_18
	cmp.w	lr, #0
	beq	.LBB65_19
	lsrs	r2, r4, #3
	add.w	r2, r2, r2, lsl #1
	add.w	r2, r0, r2, lsl #3
	ldrd	r2, r3, [r2, #-16]
	bic	r5, r2, #7
	and	r4, r3, #15
	subs	r2, r5, #1
	sbc	r3, r4, #0
	subs.w	r2, r2, r9
	sbcs.w	r2, r3, r8
	blo	.LBB65_11
	b	.LBB65_19
	.p2align	2
.LBB65_17:
	mov	r1, r5
	mov	r12, r4
	b	.LBB65_19
	.p2align	2
.LBB65_18:
	mov	r1, r7
	mov	r12, r6
.LBB65_19:
	lsrs	r1, r1, #3
	add.w	r2, r1, r1, lsl #1
	add.w	r0, r0, r2, lsl #3
	ldrb	r0, [r0, #-24]
	lsls	r0, r0, #31
	bne	.LBB65_21
.LBB65_20:
	movs	r0, #5
	add	sp, #4
	pop.w	{r4, r5, r6, r7, r8, r9, pc}
	.p2align	2
.LBB65_21:
	ldr	r0, [sp, #44]
	orr.w	r1, r1, r12, lsl #29
	subs	r1, #1
	str	r1, [r0]
	movs	r0, #0
	add	sp, #4
	pop.w	{r4, r5, r6, r7, r8, r9, pc}
.Lfunc_end65:
	.size	ic_raw.tree.step_from_none, .Lfunc_end65-ic_raw.tree.step_from_none
	.cfi_endproc
	.section	.text.unlikely.ic_raw.table.RawTable.refusal_of.19bacce014a8892a,"ax",%progbits
	.p2align	2
	.type	ic_raw.table.RawTable.refusal_of.19bacce014a8892a,%function
	.code	16
	.thumb_func
ic_raw.table.RawTable.refusal_of.19bacce014a8892a:
	.cfi_startproc
	ldrd	r1, r12, [sp]
	lsrs	r1, r1, #3
	orr.w	r1, r1, r12, lsl #29
	subs	r2, r2, r1
	sbcs.w	r2, r3, r12, lsr #3
	itt	lo
	movlo	r0, #1
	bxlo	lr
.LBB66_1:
	add.w	r1, r1, r1, lsl #1
	add.w	r0, r0, r1, lsl #3
	ldrb	r0, [r0, #-24]
	lsls	r0, r0, #31
	mov.w	r0, #5
	it	eq
	moveq	r0, #3
	bx	lr
.Lfunc_end66:
	.size	ic_raw.table.RawTable.refusal_of.19bacce014a8892a, .Lfunc_end66-ic_raw.table.RawTable.refusal_of.19bacce014a8892a
	.cfi_endproc
	.section	.text.unlikely.ic_raw.tree.nothing_found,"ax",%progbits
	.p2align	2
	.type	ic_raw.tree.nothing_found,%function
	.code	16
	.thumb_func
ic_raw.tree.nothing_found:
	.cfi_startproc
	lsls	r0, r0, #24
	mov.w	r0, #5
	it	eq
	moveq	r0, #4
	bx	lr
.Lfunc_end67:
	.size	ic_raw.tree.nothing_found, .Lfunc_end67-ic_raw.tree.nothing_found
	.cfi_endproc
	.section	.text.unlikely.ic_raw_augmented.sum_calls.refusal,"ax",%progbits
	.p2align	2
	.type	ic_raw_augmented.sum_calls.refusal,%function
	.code	16
	.thumb_func
ic_raw_augmented.sum_calls.refusal:
	.cfi_startproc
	push	{r4, lr}
	.cfi_def_cfa_offset 8
	.cfi_offset lr, -4
	.cfi_offset r4, -8
	ldr	r1, [sp, #8]
	adds	r1, #1
	blo	.LBB68_2
	ldrd	lr, r12, [r0, #8]
	b	.LBB68_4
	.p2align	2
.LBB68_2:
	ldrd	lr, r12, [r0, #8]
	subs.w	r4, lr, r1
	sbcs	r4, r12, #0
	itt	lo
	movlo	r0, #1
	poplo	{r4, pc}
.LBB68_3:
	ldr	r0, [r0]
	add.w	r1, r1, r1, lsl #1
	add.w	r0, r0, r1, lsl #3
	ldrb	r0, [r0, #-24]
	lsls	r0, r0, #31
	itt	eq
	moveq	r0, #3
	popeq	{r4, pc}
.LBB68_4:
	subs.w	r0, r2, lr
	sbcs.w	r0, r3, r12
	mov.w	r0, #5
	it	lo
	movlo	r0, #1
	pop	{r4, pc}
.Lfunc_end68:
	.size	ic_raw_augmented.sum_calls.refusal, .Lfunc_end68-ic_raw_augmented.sum_calls.refusal
	.cfi_endproc
	.section	.text.ic_raw_augmented.find.find,"ax",%progbits
	.p2align	2
	.type	ic_raw_augmented.find.find,%function
	.code	16
	.thumb_func
ic_raw_augmented.find.find:
	.cfi_startproc
	push.w	{r4, r5, r6, r7, r8, r9, r10, r11, lr}
	.cfi_def_cfa_offset 36
	.cfi_offset lr, -4
	.cfi_offset r11, -8
	.cfi_offset r10, -12
	.cfi_offset r9, -16
	.cfi_offset r8, -20
	.cfi_offset r7, -24
	.cfi_offset r6, -28
	.cfi_offset r5, -32
	.cfi_offset r4, -36
	sub	sp, #28
	.cfi_def_cfa_offset 64
	ldr	r3, [sp, #88]
	ldr	r5, [sp, #96]
	lsls	r3, r3, #31
	str	r2, [sp, #12]
	beq	.LBB69_3
	ldr	r2, [r1]
	lsrs	r7, r5, #3
	add.w	r7, r7, r7, lsl #1
	add.w	r2, r2, r7, lsl #3
	ldrd	r2, r7, [r2, #-16]
	ldrd	r6, r4, [r1, #8]
	bic	r8, r2, #7
	and	r11, r7, #15
	lsls	r2, r4, #3
	subs.w	r7, r8, #1
	orr.w	r2, r2, r6, lsr #29
	sbc	r4, r11, #0
	subs.w	r7, r7, r6, lsl #3
	sbcs.w	r2, r4, r2
	blo	.LBB69_5
	mov.w	r9, #0
	movs	r7, #0
	b	.LBB69_28
	.p2align	2
.LBB69_3:
	ldr	r2, [sp, #76]
	lsls	r2, r2, #31
	beq.w	.LBB69_45
	ldrd	r8, r11, [sp, #80]
.LBB69_5:
	lsr.w	r2, r8, #3
	orr.w	r2, r2, r11, lsl #29
	ldr	r6, [sp, #64]
	lsr.w	r7, r11, #3
	subs	r2, #1
	sbc	r7, r7, #0
	subs	r6, r2, r6
	ldr	r6, [sp, #68]
	sbcs	r7, r6
	bhs.w	.LBB69_26
	ldr	r7, [sp, #12]
	add.w	r2, r7, r2, lsl #4
	ldrd	r9, r7, [r2, #8]
	ldr	r2, [sp, #104]
	subs.w	r2, r2, r9
	ldr	r2, [sp, #108]
	sbcs	r2, r7
	bhs.w	.LBB69_27
	str	r0, [sp, #8]
	ldrd	r0, r2, [r1, #8]
	ldr	r1, [r1]
	mov.w	r9, #0
	str	r1, [sp, #16]
	lsls	r1, r2, #3
	orr.w	r1, r1, r0, lsr #29
	lsls	r0, r0, #3
	movs	r4, #67
	movs	r6, #0
	str	r1, [sp, #24]
	str	r0, [sp, #20]
	b	.LBB69_9
	.p2align	2
.LBB69_8:
	subs	r4, #1
	beq.w	.LBB69_25
.LBB69_9:
	lsr.w	r3, r8, #3
	ldr	r1, [sp, #16]
	add.w	r0, r3, r3, lsl #1
	add.w	r10, r1, r0, lsl #3
	ldrd	r0, r2, [r10, #-24]
	ldr	r1, [sp, #20]
	bic	r0, r0, #7
	and	r7, r2, #15
	subs	r2, r0, #1
	sbc	r5, r7, #0
	subs	r2, r2, r1
	ldr	r1, [sp, #24]
	mov.w	r12, #0
	sbcs.w	r2, r5, r1
	it	lo
	movlo.w	r12, #1
	bhs	.LBB69_13
	lsrs	r2, r0, #3
	orr.w	r2, r2, r7, lsl #29
	ldr	r1, [sp, #64]
	lsrs	r5, r7, #3
	subs	r2, #1
	sbc	r5, r5, #0
	subs	r1, r2, r1
	ldr	r1, [sp, #68]
	sbcs.w	r1, r5, r1
	bhs	.LBB69_13
	ldr	r1, [sp, #12]
	add.w	r1, r1, r2, lsl #4
	ldrd	r2, r5, [r1, #8]
	ldr	r1, [sp, #72]
	lsls.w	lr, r1, #31
	bne	.LBB69_14
.LBB69_12:
	adds.w	r2, r2, r9
	adcs	r5, r6
	mov.w	r1, #0
	adcs	r1, r1, #0
	itt	ne
	movne.w	r5, #-1
	movne.w	r2, #-1
	b	.LBB69_15
	.p2align	2
.LBB69_13:
	movs	r2, #0
	movs	r5, #0
	ldr	r1, [sp, #72]
	lsls.w	lr, r1, #31
	beq	.LBB69_12
.LBB69_14:
	subs.w	r1, r2, r9
	sbcs.w	r1, r5, r6
	itt	lo
	movlo	r5, r6
	movlo	r2, r9
.LBB69_15:
	ldr	r1, [sp, #104]
	subs	r1, r1, r2
	ldr	r1, [sp, #108]
	sbcs	r1, r5
	bhs	.LBB69_18
	cmp.w	r12, #0
	beq	.LBB69_25
	mov	r8, r0
	mov	r11, r7
	b	.LBB69_8
	.p2align	2
.LBB69_18:
	orr.w	r0, r3, r11, lsl #29
	ldr	r3, [sp, #64]
	lsr.w	r1, r11, #3
	subs	r0, #1
	sbc	r1, r1, #0
	subs	r3, r0, r3
	ldr	r3, [sp, #68]
	sbcs	r1, r3
	bhs	.LBB69_21
	ldr	r3, [sp, #12]
	lsls	r1, r0, #4
	add.w	r0, r3, r0, lsl #4
	ldr.w	r9, [r3, r1]
	ldr	r6, [r0, #4]
	cmp.w	lr, #0
	bne	.LBB69_22
.LBB69_20:
	adds.w	r9, r9, r2
	adcs	r6, r5
	mov.w	r0, #0
	adcs	r0, r0, #0
	itt	ne
	movne.w	r6, #-1
	movne.w	r9, #-1
	b	.LBB69_23
	.p2align	2
.LBB69_21:
	mov.w	r9, #0
	movs	r6, #0
	cmp.w	lr, #0
	beq	.LBB69_20
.LBB69_22:
	subs.w	r0, r9, r2
	sbcs.w	r0, r6, r5
	itt	lo
	movlo	r6, r5
	movlo	r9, r2
.LBB69_23:
	ldr	r0, [sp, #104]
	subs.w	r0, r0, r9
	ldr	r0, [sp, #108]
	sbcs	r0, r6
	blo.w	.LBB69_72
	ldrd	r0, r1, [r10, #-16]
	ldr	r2, [sp, #20]
	bic	r8, r0, #7
	and	r11, r1, #15
	subs.w	r0, r8, #1
	sbc	r1, r11, #0
	subs	r0, r0, r2
	ldr	r0, [sp, #24]
	sbcs.w	r0, r1, r0
	blo.w	.LBB69_8
.LBB69_25:
	ldr	r1, [sp, #8]
	movs	r0, #0
	str	r0, [r1, #20]
	str	r0, [r1, #16]
	str	r0, [r1, #12]
	str	r0, [r1, #8]
	str	r0, [r1, #4]
	str	r0, [r1]
	add	sp, #28
	pop.w	{r4, r5, r6, r7, r8, r9, r10, r11, pc}
	.p2align	2
.LBB69_26:
	mov.w	r9, #0
	movs	r7, #0
.LBB69_27:
	cmp	r3, #0
	beq.w	.LBB69_45
.LBB69_28:
	ldrd	r3, r6, [r1, #8]
	str	r0, [sp, #8]
	ldr	r0, [r1]
	lsls	r1, r6, #3
	orr.w	r1, r1, r3, lsr #29
	ldr	r2, [sp, #100]
	str	r1, [sp, #24]
	lsls	r1, r3, #3
	str	r1, [sp, #20]
	movs	r1, #67
	str	r0, [sp, #16]
	b	.LBB69_32
	.p2align	2
.LBB69_29:
	subs.w	r2, r9, r8
	sbcs.w	r2, r7, lr
	itt	lo
	movlo	r7, lr
	movlo	r9, r8
.LBB69_30:
	ldr	r2, [sp, #104]
	subs.w	r2, r2, r9
	ldr	r2, [sp, #108]
	sbcs	r2, r7
	blo.w	.LBB69_48
.LBB69_31:
	ldr	r0, [sp, #16]
	subs	r1, #1
	mov	r5, r11
	mov	r2, r12
	beq.w	.LBB69_69
.LBB69_32:
	lsrs	r3, r5, #3
	add.w	r3, r3, r3, lsl #1
	add.w	r3, r0, r3, lsl #3
	ldrd	r3, r6, [r3, #-8]
	and	r12, r6, #15
	bic	r11, r3, #7
	ldr	r6, [sp, #20]
	subs.w	r3, r11, #1
	sbc	r4, r12, #0
	subs	r3, r3, r6
	ldr	r3, [sp, #24]
	sbcs.w	r3, r4, r3
	bhs.w	.LBB69_46
	lsr.w	r3, r11, #3
	add.w	r4, r3, r3, lsl #1
	add.w	r4, r0, r4, lsl #3
	ldrd	r4, r6, [r4, #-16]
	bic	r10, r4, #7
	and	r4, r6, #15
	eors	r2, r4
	eor.w	r0, r10, r5
	orrs	r0, r2
	beq	.LBB69_31
	orr.w	r0, r3, r12, lsl #29
	ldr	r3, [sp, #64]
	lsr.w	r2, r12, #3
	subs	r0, #1
	sbc	r2, r2, #0
	subs	r3, r0, r3
	ldr	r3, [sp, #68]
	sbcs	r2, r3
	bhs	.LBB69_37
	ldr	r3, [sp, #12]
	lsls	r2, r0, #4
	add.w	r0, r3, r0, lsl #4
	ldr.w	r8, [r3, r2]
	ldr.w	lr, [r0, #4]
	ldr	r0, [sp, #72]
	lsls	r6, r0, #31
	bne	.LBB69_38
.LBB69_36:
	adds.w	r8, r8, r9
	adcs.w	lr, lr, r7
	mov.w	r0, #0
	adcs	r0, r0, #0
	itt	ne
	movne.w	lr, #-1
	movne.w	r8, #-1
	b	.LBB69_39
	.p2align	2
.LBB69_37:
	mov.w	r8, #0
	mov.w	lr, #0
	ldr	r0, [sp, #72]
	lsls	r6, r0, #31
	beq	.LBB69_36
.LBB69_38:
	subs.w	r0, r8, r9
	sbcs.w	r0, lr, r7
	itt	lo
	movlo	lr, r7
	movlo	r8, r9
.LBB69_39:
	ldr	r0, [sp, #104]
	subs.w	r0, r0, r8
	ldr	r0, [sp, #108]
	sbcs.w	r0, r0, lr
	blo	.LBB69_47
	ldr	r3, [sp, #20]
	subs.w	r0, r10, #1
	sbc	r2, r4, #0
	subs	r0, r0, r3
	ldr	r0, [sp, #24]
	mov.w	r9, #0
	sbcs.w	r0, r2, r0
	mov.w	r0, #0
	it	lo
	movlo	r0, #1
	bhs	.LBB69_43
	lsr.w	r2, r10, #3
	orr.w	r2, r2, r4, lsl #29
	ldr	r5, [sp, #64]
	lsrs	r3, r4, #3
	subs	r2, #1
	sbc	r3, r3, #0
	subs	r5, r2, r5
	ldr	r5, [sp, #68]
	sbcs	r3, r5
	bhs	.LBB69_43
	ldr	r3, [sp, #12]
	add.w	r2, r3, r2, lsl #4
	ldrd	r9, r7, [r2, #8]
	cmp	r6, #0
	bne.w	.LBB69_29
	b	.LBB69_44
	.p2align	2
.LBB69_43:
	movs	r7, #0
	cmp	r6, #0
	bne.w	.LBB69_29
.LBB69_44:
	adds.w	r9, r9, r8
	adcs.w	r7, r7, lr
	mov.w	r2, #0
	adcs	r2, r2, #0
	itt	ne
	movne.w	r7, #-1
	movne.w	r9, #-1
	b	.LBB69_30
	.p2align	2
.LBB69_45:
	movs	r2, #0
	movs	r1, #1
	str	r2, [r0, #4]
	str	r1, [r0]
	str	r2, [r0, #8]
	str	r2, [r0, #12]
	str	r2, [r0, #16]
	str	r2, [r0, #20]
	add	sp, #28
	pop.w	{r4, r5, r6, r7, r8, r9, r10, r11, pc}
	.p2align	2
.LBB69_46:
	movs	r1, #1
	movs	r0, #0
	mov.w	r11, #0
	mov.w	r12, #0
	b	.LBB69_70
	.p2align	2
.LBB69_47:
	movs	r0, #1
	movs	r1, #1
	b	.LBB69_70
	.p2align	2
.LBB69_48:
	cmp	r0, #0
	beq.w	.LBB69_69
	str	r6, [sp, #4]
	movs	r1, #67
	mov	r11, r10
	mov	r12, r4
	movs	r6, #0
	b	.LBB69_53
	.p2align	2
.LBB69_50:
	cmp	r0, #0
	beq.w	.LBB69_68
	mov	r11, r4
	mov	r12, r7
.LBB69_52:
	subs	r1, #1
	beq.w	.LBB69_68
.LBB69_53:
	lsr.w	r0, r11, #3
	ldr	r2, [sp, #16]
	mov	r9, r0
	add.w	r0, r0, r0, lsl #1
	add.w	r0, r2, r0, lsl #3
	mov	r10, r0
	ldrd	r0, r2, [r0, #-24]
	ldr	r3, [sp, #20]
	bic	r4, r0, #7
	and	r7, r2, #15
	subs	r0, r4, #1
	sbc	r2, r7, #0
	subs	r0, r0, r3
	ldr	r0, [sp, #24]
	mov.w	r5, #0
	sbcs.w	r0, r2, r0
	mov.w	r0, #0
	it	lo
	movlo	r0, #1
	bhs	.LBB69_57
	lsrs	r2, r4, #3
	orr.w	r2, r2, r7, lsl #29
	ldr	r5, [sp, #64]
	lsrs	r3, r7, #3
	subs	r2, #1
	sbc	r3, r3, #0
	subs	r5, r2, r5
	ldr	r5, [sp, #68]
	sbcs	r3, r5
	bhs	.LBB69_63
	ldr	r3, [sp, #12]
	add.w	r2, r3, r2, lsl #4
	ldrd	r5, r2, [r2, #8]
	ldr	r3, [sp, #4]
	cbnz	r3, .LBB69_58
.LBB69_56:
	adds.w	r5, r5, r8
	adcs.w	r2, r2, lr
	mov.w	r3, #0
	adcs	r3, r3, #0
	itt	ne
	movne.w	r2, #-1
	movne.w	r5, #-1
	b	.LBB69_59
	.p2align	2
.LBB69_57:
	movs	r2, #0
	ldr	r3, [sp, #4]
	cmp	r3, #0
	beq	.LBB69_56
.LBB69_58:
	subs.w	r3, r5, r8
	sbcs.w	r3, r2, lr
	itt	lo
	movlo	r2, lr
	movlo	r5, r8
.LBB69_59:
	ldr	r3, [sp, #104]
	subs	r3, r3, r5
	ldr	r3, [sp, #108]
	sbcs	r3, r2
	blo	.LBB69_50
	orr.w	r0, r9, r12, lsl #29
	ldr	r7, [sp, #64]
	lsr.w	r3, r12, #3
	subs	r0, #1
	sbc	r3, r3, #0
	subs	r7, r0, r7
	ldr	r7, [sp, #68]
	sbcs	r3, r7
	bhs	.LBB69_64
	ldr	r7, [sp, #12]
	lsls	r3, r0, #4
	add.w	r0, r7, r0, lsl #4
	ldr.w	r8, [r7, r3]
	ldr.w	lr, [r0, #4]
	ldr	r0, [sp, #4]
	cbnz	r0, .LBB69_65
.LBB69_62:
	adds.w	r8, r8, r5
	adcs.w	lr, lr, r2
	mov.w	r0, #0
	adcs	r0, r0, #0
	itt	ne
	movne.w	lr, #-1
	movne.w	r8, #-1
	b	.LBB69_66
	.p2align	2
.LBB69_63:
	movs	r5, #0
	movs	r2, #0
	ldr	r3, [sp, #4]
	cmp	r3, #0
	bne	.LBB69_58
	b	.LBB69_56
	.p2align	2
.LBB69_64:
	mov.w	r8, #0
	mov.w	lr, #0
	ldr	r0, [sp, #4]
	cmp	r0, #0
	beq	.LBB69_62
.LBB69_65:
	subs.w	r0, r8, r5
	sbcs.w	r0, lr, r2
	itt	lo
	movlo	lr, r2
	movlo	r8, r5
.LBB69_66:
	ldr	r0, [sp, #104]
	subs.w	r0, r0, r8
	ldr	r0, [sp, #108]
	sbcs.w	r0, r0, lr
	blo	.LBB69_73
	ldrd	r0, r2, [r10, #-16]
	ldr	r3, [sp, #20]
	bic	r11, r0, #7
	and	r12, r2, #15
	subs.w	r0, r11, #1
	sbc	r2, r12, #0
	subs	r0, r0, r3
	ldr	r0, [sp, #24]
	sbcs.w	r0, r2, r0
	blo.w	.LBB69_52
.LBB69_68:
	movs	r0, #0
	mov.w	r11, #0
	mov.w	r12, #0
	movs	r1, #0
	b	.LBB69_71
	.p2align	2
.LBB69_69:
	movs	r0, #0
	mov.w	r11, #0
	mov.w	r12, #0
	movs	r1, #0
.LBB69_70:
	movs	r6, #0
.LBB69_71:
	ldr	r2, [sp, #8]
	str	r6, [r2, #4]
	str	r1, [r2]
	str	r6, [r2, #12]
	str	r0, [r2, #8]
	str.w	r11, [r2, #16]
	str.w	r12, [r2, #20]
	add	sp, #28
	pop.w	{r4, r5, r6, r7, r8, r9, r10, r11, pc}
	.p2align	2
.LBB69_72:
	ldr	r2, [sp, #8]
	movs	r0, #0
	movs	r1, #1
	str	r0, [r2, #4]
	str	r1, [r2]
	str	r0, [r2, #12]
	str	r1, [r2, #8]
	str.w	r8, [r2, #16]
	str.w	r11, [r2, #20]
	add	sp, #28
	pop.w	{r4, r5, r6, r7, r8, r9, r10, r11, pc}
	.p2align	2
.LBB69_73:
	movs	r0, #1
	movs	r1, #1
	b	.LBB69_71
.Lfunc_end69:
	.size	ic_raw_augmented.find.find, .Lfunc_end69-ic_raw_augmented.find.find
	.cfi_endproc
	.section	.text.ic_raw_augmented.noting.WrittenSurgery.attach,"ax",%progbits
	.p2align	2
	.type	ic_raw_augmented.noting.WrittenSurgery.attach,%function
	.code	16
	.thumb_func
ic_raw_augmented.noting.WrittenSurgery.attach:
	.cfi_startproc
	push.w	{r4, r5, r6, r7, r8, r9, r10, r11, lr}
	.cfi_def_cfa_offset 36
	.cfi_offset lr, -4
	.cfi_offset r11, -8
	.cfi_offset r10, -12
	.cfi_offset r9, -16
	.cfi_offset r8, -20
	.cfi_offset r7, -24
	.cfi_offset r6, -28
	.cfi_offset r5, -32
	.cfi_offset r4, -36
	sub	sp, #44
	.cfi_def_cfa_offset 80
	mov	r6, r0
	lsls	r0, r3, #31
	mov	r4, r2
	ldrd	r8, r5, [sp, #96]
	ldrd	r2, r0, [r6, #112]
	mov	lr, r1
	beq	.LBB70_12
	rsbs.w	r3, r2, #13
	mov.w	r3, #0
	sbcs	r3, r0
	str	r4, [sp]
	blo	.LBB70_3
	add.w	r3, r6, r2, lsl #3
	ldr.w	r7, [r6, r2, lsl #3]
	ldr	r3, [r3, #4]
	orrs	r3, r7
	beq.w	.LBB70_45
.LBB70_3:
	movs	r0, #1
	strb.w	r0, [r6, #120]
.LBB70_4:
	ldr.w	r0, [lr]
	lsr.w	r2, r8, #3
	add.w	r4, r2, r2, lsl #1
	add.w	r0, r0, r4, lsl #3
	ldr	r2, [r0, #-24]
	movs	r3, #0
	and	r2, r2, #1
	strd	r2, r3, [r0, #-24]
	ldrd	r1, r2, [r6, #112]
	ldr.w	r9, [sp, #84]
	rsbs.w	r0, r1, #13
	ldr	r7, [sp, #80]
	ldr.w	r12, [sp, #88]
	sbcs.w	r0, r3, r2
	lsl.w	r0, r4, #3
	blo	.LBB70_6
	add.w	r3, r6, r1, lsl #3
	ldr.w	r4, [r6, r1, lsl #3]
	ldr	r3, [r3, #4]
	orrs	r3, r4
	beq.w	.LBB70_46
.LBB70_6:
	movs	r2, #1
	strb.w	r2, [r6, #120]
.LBB70_7:
	ldr.w	r2, [lr]
	movs	r1, #0
	add	r2, r0
	strd	r1, r1, [r2, #-16]
	ldr.w	r2, [lr]
	lsls.w	r3, r12, #24
	add	r0, r2
	strd	r7, r9, [r0, #-8]
	ldrd	r2, r0, [r6, #112]
	str	r6, [sp, #4]
	str	r5, [sp, #20]
	str.w	r9, [sp, #40]
	beq	.LBB70_19
	rsbs.w	r3, r2, #13
	sbcs.w	r3, r1, r0
	blo	.LBB70_10
	add.w	r3, r6, r2, lsl #3
	ldr.w	r1, [r6, r2, lsl #3]
	ldr	r3, [r3, #4]
	orrs	r3, r1
	beq.w	.LBB70_52
.LBB70_10:
	movs	r0, #1
	strb.w	r0, [r6, #120]
	mov	r12, r7
.LBB70_11:
	ldr.w	r0, [lr]
	lsr.w	r2, r12, #3
	add.w	r2, r2, r2, lsl #1
	add.w	r0, r0, r2, lsl #3
	strd	r8, r5, [r0, #-16]
	b	.LBB70_23
	.p2align	2
.LBB70_12:
	rsbs.w	r3, r2, #13
	mov.w	r3, #0
	sbcs	r3, r0
	blo	.LBB70_14
	add.w	r3, r6, r2, lsl #3
	ldr.w	r7, [r6, r2, lsl #3]
	ldr	r3, [r3, #4]
	orrs	r3, r7
	beq.w	.LBB70_47
.LBB70_14:
	movs	r0, #1
	strb.w	r0, [r6, #120]
.LBB70_15:
	ldr.w	r0, [lr]
	lsr.w	r2, r8, #3
	add.w	r7, r2, r2, lsl #1
	add.w	r0, r0, r7, lsl #3
	ldr	r2, [r0, #-24]
	movs	r1, #0
	and	r2, r2, #1
	strd	r2, r1, [r0, #-24]
	ldrd	r3, r2, [r6, #112]
	rsbs.w	r0, r3, #13
	sbcs.w	r0, r1, r2
	lsl.w	r0, r7, #3
	blo	.LBB70_17
	add.w	r7, r6, r3, lsl #3
	ldr.w	r1, [r6, r3, lsl #3]
	ldr	r7, [r7, #4]
	orrs	r7, r1
	beq.w	.LBB70_48
.LBB70_17:
	movs	r2, #1
	strb.w	r2, [r6, #120]
.LBB70_18:
	ldr.w	r2, [lr]
	movs	r3, #0
	add	r2, r0
	strd	r3, r3, [r2, #-16]
	ldr.w	r1, [lr]
	add	r0, r1
	movs	r1, #1
	strd	r1, r3, [r0, #-8]
	str	r5, [r4, #4]
	str.w	r8, [r4]
	add	sp, #44
	pop.w	{r4, r5, r6, r7, r8, r9, r10, r11, pc}
	.p2align	2
.LBB70_19:
	rsbs.w	r3, r2, #13
	sbcs.w	r3, r1, r0
	blo	.LBB70_21
	add.w	r3, r6, r2, lsl #3
	ldr.w	r1, [r6, r2, lsl #3]
	ldr	r3, [r3, #4]
	orrs	r3, r1
	beq.w	.LBB70_64
.LBB70_21:
	movs	r0, #1
	strb.w	r0, [r6, #120]
	mov	r12, r7
.LBB70_22:
	ldr.w	r0, [lr]
	lsr.w	r2, r12, #3
	add.w	r2, r2, r2, lsl #1
	add.w	r0, r0, r2, lsl #3
	ldr	r2, [r0, #-24]
	and	r2, r2, #1
	orr.w	r2, r2, r8
	strd	r2, r5, [r0, #-24]
.LBB70_23:
	movs	r0, #0
	movs	r5, #67
	b	.LBB70_25
	.p2align	2
.LBB70_24:
	ldrd	r1, r7, [lr, #-8]
	orr	r6, r11, #1
	strd	r6, r0, [r10, #-8]
	bic	r1, r1, #7
	ldr	r0, [r5]
	lsls	r3, r3, #3
	and	r7, r7, #15
	subs	r1, #1
	sbc	r7, r7, #0
	subs.w	r1, r1, r8
	add	r0, r3
	ldr	r1, [r0, #-8]
	sbcs.w	r3, r7, r4
	orr	r1, r1, #1
	str	r1, [r0, #-8]
	ldr	r0, [r5]
	ldr	r3, [sp, #32]
	mov.w	r1, #0
	add	r0, r3
	ldr	r3, [r0, #-8]
	it	hs
	movhs	r1, #1
	bic	r3, r3, #1
	add	r1, r3
	mov	lr, r5
	str	r1, [r0, #-8]
	ldr.w	r0, [lr]
	ldr	r5, [sp, #24]
	add.w	r0, r0, r2, lsl #3
	ldrd	r0, r1, [r0, #-8]
	ldrd	r2, r3, [lr, #8]
	bic	r12, r0, #7
	lsls	r0, r3, #3
	and	r6, r1, #15
	orr.w	r0, r0, r2, lsr #29
	rsbs	r1, r12, r2, lsl #3
	sbcs	r0, r6
	itt	lo
	movlo	r6, #0
	movlo.w	r12, #0
	orr.w	r0, r12, r6
	clz	r0, r0
	ldr.w	r8, [sp, #28]
	ldr	r1, [sp, #36]
	lsrs	r0, r0, #5
	subs	r5, #1
	str	r6, [sp, #40]
	str	r1, [sp, #20]
	beq.w	.LBB70_121
.LBB70_25:
	lsls	r0, r0, #31
	bne.w	.LBB70_121
	ldr.w	r9, [lr]
	lsr.w	r0, r12, #3
	add.w	r2, r0, r0, lsl #1
	add.w	r10, r9, r2, lsl #3
	ldr	r11, [r10, #-8]
	lsls.w	r0, r11, #31
	bne.w	.LBB70_121
	ldrd	r4, r3, [lr, #8]
	ldr	r0, [r10, #-4]
	bic	r6, r11, #7
	lsls	r3, r3, #3
	and	r1, r0, #15
	orr.w	r7, r3, r4, lsr #29
	subs	r3, r6, #1
	str	r6, [sp, #28]
	sbc	r6, r1, #0
	subs.w	r3, r3, r4, lsl #3
	sbcs.w	r3, r6, r7
	str	r1, [sp, #36]
	bhs.w	.LBB70_121
	lsls	r1, r2, #3
	lsr.w	r2, r11, #3
	add.w	r2, r2, r2, lsl #1
	str	r5, [sp, #24]
	mov	r5, lr
	add.w	lr, r9, r2, lsl #3
	ldrd	r6, r3, [lr, #-24]
	str.w	r8, [sp, #12]
	lsl.w	r8, r4, #3
	mov	r4, r12
	bic	r12, r6, #7
	and	r3, r3, #15
	subs.w	r6, r8, r12
	str	r1, [sp, #8]
	sbcs.w	r6, r7, r3
	itt	lo
	movlo.w	r12, #0
	movlo	r3, #0
	ldr	r1, [sp, #40]
	str	r4, [sp, #16]
	eor.w	r6, r3, r1
	eor.w	r1, r12, r4
	orrs	r1, r6
	lsl.w	r1, r2, #3
	str	r1, [sp, #32]
	bne	.LBB70_31
	ldrd	r3, r1, [lr, #-16]
	mov	r4, r7
	bic	r6, r3, #7
	and	r1, r1, #15
	subs	r6, #1
	sbc	r1, r1, #0
	subs.w	r6, r6, r8
	sbcs	r1, r7
	bhs.w	.LBB70_49
	lsrs	r1, r3, #3
	add.w	r3, r1, r1, lsl #1
	add.w	r1, r9, r3, lsl #3
	ldr	r1, [r1, #-8]
	lsls	r1, r1, #31
	beq.w	.LBB70_24
	b	.LBB70_49
	.p2align	2
.LBB70_31:
	mov	r4, r7
	orrs.w	r1, r12, r3
	beq	.LBB70_33
	lsr.w	r1, r12, #3
	add.w	r3, r1, r1, lsl #1
	add.w	r1, r9, r3, lsl #3
	ldr	r1, [r1, #-8]
	lsls	r1, r1, #31
	beq.w	.LBB70_24
.LBB70_33:
	ldrd	r1, r0, [r10, #-24]
	ldr	r3, [sp, #12]
	bic	r2, r1, #7
	and	r0, r0, #15
	subs.w	r1, r8, r2
	sbcs.w	r1, r4, r0
	blo.w	.LBB70_53
	eor.w	r1, r2, r3
	ldr	r2, [sp, #20]
	eors	r0, r2
	orrs	r0, r1
	bne.w	.LBB70_53
	lsrs	r0, r3, #3
	add.w	lr, r0, r0, lsl #1
	add.w	r0, r9, lr, lsl #3
	ldrd	r0, r1, [r0, #-16]
	bic	r0, r0, #7
	and	r2, r1, #15
	subs.w	r1, r8, r0
	sbcs.w	r1, r4, r2
	it	lo
	movlo	r2, #0
	ldr.w	r12, [sp, #4]
	ldrd	r6, r4, [r12, #112]
	it	lo
	movlo	r0, #0
	rsbs.w	r1, r6, #13
	mov.w	r1, #0
	ldr.w	r11, [sp, #28]
	sbcs	r1, r4
	blo	.LBB70_37
	add.w	r1, r12, r6, lsl #3
	ldr.w	r3, [r12, r6, lsl #3]
	ldr	r1, [r1, #4]
	orrs	r1, r3
	beq.w	.LBB70_128
.LBB70_37:
	movs	r1, #1
	strb.w	r1, [r12, #120]
.LBB70_38:
	ldr	r1, [r5]
	lsl.w	r8, lr, #3
	ldr.w	lr, [sp, #8]
	orrs.w	r6, r0, r2
	add	r1, lr
	ldr	r3, [r1, #-24]
	ldr.w	r9, [sp, #20]
	and	r3, r3, #1
	ldr	r6, [sp, #40]
	ldr	r7, [sp, #16]
	mov	r4, r5
	orr.w	r3, r3, r0
	strd	r3, r2, [r1, #-24]
	beq	.LBB70_40
	ldr	r1, [r4]
	lsrs	r0, r0, #3
	add.w	r0, r0, r0, lsl #1
	add.w	r0, r1, r0, lsl #3
	ldr	r1, [r0, #-8]
	and	r1, r1, #1
	orrs	r1, r7
	strd	r1, r6, [r0, #-8]
.LBB70_40:
	ldr	r0, [r4]
	ldr	r1, [sp, #36]
	add	r0, r8
	strd	r11, r1, [r0, #-8]
	ldr	r0, [r4]
	ldr	r2, [sp, #32]
	ldr	r1, [r4, #12]
	add	r0, r2
	ldrd	r0, r2, [r0, #-24]
	ldr	r3, [r4, #8]
	bic	r0, r0, #7
	lsls	r1, r1, #3
	and	r2, r2, #15
	orr.w	r1, r1, r3, lsr #29
	rsbs	r3, r0, r3, lsl #3
	sbcs	r1, r2
	mov	r1, r6
	it	hs
	eorhs	r1, r2
	mov	r2, r7
	it	hs
	eorhs	r2, r0
	orrs.w	r0, r2, r1
	ldrd	r2, r0, [r12, #112]
	ldr	r6, [sp, #12]
	bne.w	.LBB70_93
	rsbs.w	r1, r2, #13
	mov.w	r1, #0
	sbcs	r1, r0
	blo	.LBB70_43
	add.w	r1, r12, r2, lsl #3
	ldr.w	r3, [r12, r2, lsl #3]
	ldr	r1, [r1, #4]
	orrs	r1, r3
	beq.w	.LBB70_136
.LBB70_43:
	movs	r0, #1
	strb.w	r0, [r12, #120]
.LBB70_44:
	ldr	r0, [r4]
	ldr	r1, [sp, #32]
	add	r0, r1
	ldr	r1, [r0, #-24]
	and	r1, r1, #1
	orrs	r1, r6
	strd	r1, r9, [r0, #-24]
	b	.LBB70_97
	.p2align	2
.LBB70_45:
	lsls	r3, r2, #3
	adds	r2, #1
	add.w	r7, r6, r3
	adc	r0, r0, #0
	str.w	r8, [r6, r3]
	str	r5, [r7, #4]
	strd	r2, r0, [r6, #112]
	b	.LBB70_4
	.p2align	2
.LBB70_46:
	lsls	r3, r1, #3
	adds	r4, r6, r3
	str.w	r8, [r6, r3]
	adds	r3, r1, #1
	adc	r2, r2, #0
	str	r5, [r4, #4]
	strd	r3, r2, [r6, #112]
	b	.LBB70_7
	.p2align	2
.LBB70_47:
	lsls	r3, r2, #3
	adds	r2, #1
	add.w	r7, r6, r3
	adc	r0, r0, #0
	str.w	r8, [r6, r3]
	str	r5, [r7, #4]
	strd	r2, r0, [r6, #112]
	b	.LBB70_15
	.p2align	2
.LBB70_48:
	lsls	r7, r3, #3
	adds	r3, #1
	add.w	r1, r6, r7
	adc	r2, r2, #0
	str.w	r8, [r6, r7]
	str	r5, [r1, #4]
	strd	r3, r2, [r6, #112]
	b	.LBB70_18
	.p2align	2
.LBB70_49:
	ldrd	r1, r0, [r10, #-24]
	ldr	r3, [sp, #12]
	bic	r2, r1, #7
	and	r0, r0, #15
	subs.w	r1, r8, r2
	sbcs.w	r1, r4, r0
	blo	.LBB70_54
	eor.w	r1, r2, r3
	ldr	r2, [sp, #20]
	eors	r0, r2
	orrs	r0, r1
	bne	.LBB70_54
	ldr	r1, [sp, #8]
	ldr	r0, [sp, #40]
	ldr.w	lr, [sp, #16]
	mov	r3, r8
	ldr.w	r8, [sp, #4]
	ldr.w	r11, [sp, #28]
	str	r0, [sp, #20]
	mov	r12, r5
	mov	r5, r1
	b	.LBB70_73
	.p2align	2
.LBB70_52:
	lsls	r3, r2, #3
	adds	r2, #1
	add.w	r1, r6, r3
	mov	r12, r7
	adc	r0, r0, #0
	str	r7, [r6, r3]
	str.w	r9, [r1, #4]
	strd	r2, r0, [r6, #112]
	b	.LBB70_11
	.p2align	2
.LBB70_53:
	mov	r7, r8
	ldr.w	r11, [sp, #28]
	ldrd	r12, r8, [sp, #4]
	b	.LBB70_101
	.p2align	2
.LBB70_54:
	lsrs	r0, r3, #3
	add.w	lr, r0, r0, lsl #1
	add.w	r0, r9, lr, lsl #3
	ldrd	r0, r1, [r0, #-24]
	bic	r0, r0, #7
	and	r2, r1, #15
	subs.w	r1, r8, r0
	sbcs.w	r1, r4, r2
	it	lo
	movlo	r2, #0
	ldr.w	r8, [sp, #4]
	ldrd	r6, r4, [r8, #112]
	it	lo
	movlo	r0, #0
	rsbs.w	r1, r6, #13
	mov.w	r1, #0
	ldr.w	r11, [sp, #28]
	ldr	r7, [sp, #16]
	sbcs	r1, r4
	blo	.LBB70_56
	add.w	r1, r8, r6, lsl #3
	ldr.w	r3, [r8, r6, lsl #3]
	ldr	r1, [r1, #4]
	orrs	r1, r3
	beq.w	.LBB70_126
.LBB70_56:
	movs	r1, #1
	ldr.w	r10, [sp, #20]
	ldr	r6, [sp, #32]
	ldr.w	r9, [sp, #40]
	strb.w	r1, [r8, #120]
.LBB70_57:
	orrs.w	r3, r0, r2
	ldr	r1, [r5]
	ldr	r3, [sp, #8]
	ldr	r7, [sp, #16]
	lsl.w	r4, lr, #3
	mov	r12, r5
	add	r1, r3
	strd	r0, r2, [r1, #-16]
	beq	.LBB70_59
	ldr.w	r1, [r12]
	lsrs	r0, r0, #3
	add.w	r0, r0, r0, lsl #1
	add.w	r0, r1, r0, lsl #3
	ldr	r1, [r0, #-8]
	and	r1, r1, #1
	orrs	r1, r7
	strd	r1, r9, [r0, #-8]
.LBB70_59:
	ldr.w	r0, [r12]
	ldr	r1, [sp, #36]
	add	r0, r4
	strd	r11, r1, [r0, #-8]
	ldr.w	r0, [r12]
	ldr.w	r1, [r12, #12]
	add	r0, r6
	ldrd	r0, r2, [r0, #-24]
	ldr.w	r3, [r12, #8]
	bic	r0, r0, #7
	lsls	r1, r1, #3
	and	r2, r2, #15
	orr.w	r1, r1, r3, lsr #29
	rsbs	r3, r0, r3, lsl #3
	sbcs	r1, r2
	mov	r1, r9
	it	hs
	eorhs	r1, r2
	mov	r2, r7
	it	hs
	eorhs	r2, r0
	orrs.w	r0, r2, r1
	ldrd	r2, r0, [r8, #112]
	ldr.w	lr, [sp, #12]
	mov	r5, r4
	bne	.LBB70_65
	rsbs.w	r1, r2, #13
	mov.w	r1, #0
	sbcs	r1, r0
	blo	.LBB70_62
	add.w	r1, r8, r2, lsl #3
	ldr.w	r3, [r8, r2, lsl #3]
	ldr	r1, [r1, #4]
	orrs	r1, r3
	beq.w	.LBB70_134
.LBB70_62:
	movs	r0, #1
	strb.w	r0, [r8, #120]
.LBB70_63:
	ldr.w	r0, [r12]
	add	r0, r6
	ldr	r1, [r0, #-24]
	and	r1, r1, #1
	orr.w	r1, r1, lr
	strd	r1, r10, [r0, #-24]
	b	.LBB70_69
	.p2align	2
.LBB70_64:
	lsls	r3, r2, #3
	adds	r2, #1
	add.w	r1, r6, r3
	mov	r12, r7
	adc	r0, r0, #0
	str	r7, [r6, r3]
	str.w	r9, [r1, #4]
	strd	r2, r0, [r6, #112]
	b	.LBB70_22
	.p2align	2
.LBB70_65:
	rsbs.w	r1, r2, #13
	mov.w	r1, #0
	sbcs	r1, r0
	blo	.LBB70_67
	add.w	r1, r8, r2, lsl #3
	ldr.w	r3, [r8, r2, lsl #3]
	ldr	r1, [r1, #4]
	orrs	r1, r3
	beq.w	.LBB70_135
.LBB70_67:
	movs	r0, #1
	strb.w	r0, [r8, #120]
.LBB70_68:
	ldr.w	r0, [r12]
	add	r0, r6
	strd	lr, r10, [r0, #-16]
.LBB70_69:
	ldrd	r2, r0, [r8, #112]
	rsbs.w	r1, r2, #13
	mov.w	r1, #0
	sbcs	r1, r0
	blo	.LBB70_71
	add.w	r1, r8, r2, lsl #3
	ldr.w	r3, [r8, r2, lsl #3]
	ldr	r1, [r1, #4]
	orrs	r1, r3
	beq.w	.LBB70_127
.LBB70_71:
	movs	r0, #1
	strb.w	r0, [r8, #120]
.LBB70_72:
	ldr.w	r0, [r12]
	ldr	r2, [sp, #16]
	add	r0, r5
	ldr	r1, [r0, #-24]
	and	r1, r1, #1
	orrs	r1, r2
	strd	r1, r9, [r0, #-24]
	ldr.w	r0, [r12]
	ldr	r1, [sp, #8]
	add	r0, r1
	strd	lr, r10, [r0, #-8]
	ldrd	r0, r1, [r12, #8]
	ldr.w	r9, [r12]
	lsls	r1, r1, #3
	orr.w	r4, r1, r0, lsr #29
	lsls	r3, r0, #3
.LBB70_73:
	add.w	r0, r9, r5
	ldrd	r0, r1, [r0, #-16]
	mov	r10, r5
	bic	r0, r0, #7
	and	r7, r1, #15
	subs	r1, r3, r0
	sbcs.w	r1, r4, r7
	it	lo
	movlo	r7, #0
	ldr	r2, [sp, #32]
	add.w	r1, r9, r2
	mov	r9, r2
	ldrd	r1, r2, [r1, #-8]
	it	lo
	movlo	r0, #0
	bic	r6, r1, #7
	and	r2, r2, #15
	subs	r1, r3, r6
	sbcs.w	r1, r4, r2
	it	lo
	movlo	r2, #0
	ldrd	r4, r5, [r8, #112]
	it	lo
	movlo	r6, #0
	rsbs.w	r1, r4, #13
	mov.w	r1, #0
	sbcs	r1, r5
	blo	.LBB70_75
	add.w	r1, r8, r4, lsl #3
	ldr.w	r3, [r8, r4, lsl #3]
	ldr	r1, [r1, #4]
	orrs	r1, r3
	beq.w	.LBB70_124
.LBB70_75:
	movs	r1, #1
	strb.w	r1, [r8, #120]
.LBB70_76:
	ldr.w	r1, [r12]
	ldr	r4, [sp, #20]
	add	r1, r9
	ldr	r3, [r1, #-24]
	orrs.w	r5, r0, r7
	and	r3, r3, #1
	orr.w	r3, r3, r0
	strd	r3, r7, [r1, #-24]
	beq	.LBB70_78
	ldr.w	r1, [r12]
	lsrs	r0, r0, #3
	add.w	r0, r0, r0, lsl #1
	add.w	r0, r1, r0, lsl #3
	ldr	r1, [r0, #-8]
	ldr	r3, [sp, #36]
	and	r1, r1, #1
	orr.w	r1, r1, r11
	strd	r1, r3, [r0, #-8]
.LBB70_78:
	ldr.w	r0, [r12]
	orrs.w	r1, r6, r2
	add	r0, r10
	orr	r1, r6, #1
	strd	r1, r2, [r0, #-8]
	beq	.LBB70_84
	ldr.w	r0, [r12]
	lsrs	r1, r6, #3
	add.w	r1, r1, r1, lsl #1
	add.w	r0, r0, r1, lsl #3
	ldrd	r0, r3, [r0, #-24]
	ldrd	r7, r5, [r12, #8]
	bic	r0, r0, #7
	lsls	r5, r5, #3
	and	r3, r3, #15
	orr.w	r5, r5, r7, lsr #29
	rsbs	r7, r0, r7, lsl #3
	sbcs.w	r7, r5, r3
	ldr	r7, [sp, #36]
	it	hs
	eorhs	r7, r3
	mov	r3, r11
	it	hs
	eorhs	r3, r0
	orrs.w	r0, r3, r7
	ldrd	r5, r7, [r8, #112]
	lsl.w	r0, r1, #3
	bne	.LBB70_85
	rsbs.w	r1, r5, #13
	mov.w	r1, #0
	sbcs	r1, r7
	blo	.LBB70_82
	add.w	r1, r8, r5, lsl #3
	ldr.w	r3, [r8, r5, lsl #3]
	ldr	r1, [r1, #4]
	orrs	r1, r3
	beq.w	.LBB70_132
.LBB70_82:
	movs	r1, #1
	strb.w	r1, [r8, #120]
.LBB70_83:
	ldr.w	r1, [r12]
	mov	r5, r10
	add	r0, r1
	ldr	r1, [r0, #-24]
	and	r1, r1, #1
	orr.w	r1, r1, lr
	strd	r1, r4, [r0, #-24]
	b	.LBB70_89
	.p2align	2
.LBB70_84:
	ldr	r0, [sp]
	mov	r5, r10
	str.w	lr, [r0]
	str	r4, [r0, #4]
	b	.LBB70_89
	.p2align	2
.LBB70_85:
	rsbs.w	r1, r5, #13
	mov.w	r1, #0
	sbcs	r1, r7
	blo	.LBB70_87
	add.w	r1, r8, r5, lsl #3
	ldr.w	r3, [r8, r5, lsl #3]
	ldr	r1, [r1, #4]
	orrs	r1, r3
	beq.w	.LBB70_133
.LBB70_87:
	movs	r1, #1
	strb.w	r1, [r8, #120]
.LBB70_88:
	ldr.w	r1, [r12]
	mov	r5, r10
	add	r0, r1
	strd	lr, r4, [r0, #-16]
.LBB70_89:
	ldrd	r2, r0, [r8, #112]
	rsbs.w	r1, r2, #13
	mov.w	r1, #0
	sbcs	r1, r0
	blo	.LBB70_91
	add.w	r1, r8, r2, lsl #3
	ldr.w	r3, [r8, r2, lsl #3]
	ldr	r1, [r1, #4]
	orrs	r1, r3
	beq.w	.LBB70_125
.LBB70_91:
	movs	r0, #1
	strb.w	r0, [r8, #120]
.LBB70_92:
	ldr.w	r0, [r12]
	ldr	r1, [sp, #36]
	add	r0, r5
	strd	r11, r1, [r0, #-16]
	ldr.w	r0, [r12]
	add	r0, r9
	strd	lr, r4, [r0, #-8]
	add	sp, #44
	pop.w	{r4, r5, r6, r7, r8, r9, r10, r11, pc}
	.p2align	2
.LBB70_93:
	rsbs.w	r1, r2, #13
	mov.w	r1, #0
	sbcs	r1, r0
	blo	.LBB70_95
	add.w	r1, r12, r2, lsl #3
	ldr.w	r3, [r12, r2, lsl #3]
	ldr	r1, [r1, #4]
	orrs	r1, r3
	beq.w	.LBB70_137
.LBB70_95:
	movs	r0, #1
	strb.w	r0, [r12, #120]
.LBB70_96:
	ldr	r0, [r4]
	ldr	r1, [sp, #32]
	add	r0, r1
	strd	r6, r9, [r0, #-16]
.LBB70_97:
	ldrd	r2, r0, [r12, #112]
	rsbs.w	r1, r2, #13
	mov.w	r1, #0
	sbcs	r1, r0
	blo	.LBB70_99
	add.w	r1, r12, r2, lsl #3
	ldr.w	r3, [r12, r2, lsl #3]
	ldr	r1, [r1, #4]
	orrs	r1, r3
	beq.w	.LBB70_129
.LBB70_99:
	movs	r0, #1
	strb.w	r0, [r12, #120]
.LBB70_100:
	ldr	r0, [r4]
	ldr	r1, [sp, #40]
	ldr	r2, [sp, #16]
	add	r0, r8
	strd	r2, r1, [r0, #-16]
	ldr	r0, [r4]
	mov	r2, r9
	add	r0, lr
	strd	r6, r9, [r0, #-8]
	ldrd	r0, r1, [r4, #8]
	ldr.w	r9, [r4]
	lsls	r1, r1, #3
	orr.w	r4, r1, r0, lsr #29
	lsls	r7, r0, #3
	str	r6, [sp, #16]
	str	r2, [sp, #40]
.LBB70_101:
	add.w	r0, r9, r8
	ldrd	r0, r1, [r0, #-24]
	mov	r10, r8
	bic	r0, r0, #7
	and	r2, r1, #15
	subs	r1, r7, r0
	sbcs.w	r1, r4, r2
	it	lo
	movlo	r2, #0
	ldr	r3, [sp, #32]
	add.w	r1, r9, r3
	mov	r9, r3
	ldrd	r1, r3, [r1, #-8]
	it	lo
	movlo	r0, #0
	bic	r8, r1, #7
	and	lr, r3, #15
	subs.w	r1, r7, r8
	sbcs.w	r1, r4, lr
	it	lo
	movlo.w	lr, #0
	ldrd	r6, r4, [r12, #112]
	it	lo
	movlo.w	r8, #0
	rsbs.w	r1, r6, #13
	mov.w	r1, #0
	sbcs	r1, r4
	blo	.LBB70_103
	add.w	r1, r12, r6, lsl #3
	ldr.w	r3, [r12, r6, lsl #3]
	ldr	r1, [r1, #4]
	orrs	r1, r3
	beq.w	.LBB70_122
.LBB70_103:
	movs	r1, #1
	strb.w	r1, [r12, #120]
.LBB70_104:
	ldr	r1, [r5]
	mov	r6, r5
	orrs.w	r3, r0, r2
	add	r1, r9
	strd	r0, r2, [r1, #-16]
	beq	.LBB70_106
	ldr	r1, [r6]
	lsrs	r0, r0, #3
	add.w	r0, r0, r0, lsl #1
	add.w	r0, r1, r0, lsl #3
	ldr	r1, [r0, #-8]
	ldr	r2, [sp, #36]
	and	r1, r1, #1
	orr.w	r1, r1, r11
	strd	r1, r2, [r0, #-8]
.LBB70_106:
	ldr	r0, [r6]
	orrs.w	r1, r8, lr
	add	r0, r10
	orr	r1, r8, #1
	strd	r1, lr, [r0, #-8]
	beq	.LBB70_112
	ldr	r0, [r6]
	lsr.w	r1, r8, #3
	add.w	r1, r1, r1, lsl #1
	add.w	r0, r0, r1, lsl #3
	ldrd	r0, r2, [r0, #-24]
	ldrd	r3, r6, [r6, #8]
	bic	r0, r0, #7
	lsls	r6, r6, #3
	and	r2, r2, #15
	orr.w	r6, r6, r3, lsr #29
	rsbs	r3, r0, r3, lsl #3
	sbcs.w	r3, r6, r2
	ldr	r3, [sp, #36]
	it	hs
	eorhs	r3, r2
	mov	r2, r11
	it	hs
	eorhs	r2, r0
	orrs.w	r0, r2, r3
	ldrd	r4, r2, [r12, #112]
	lsl.w	r0, r1, #3
	bne	.LBB70_113
	rsbs.w	r1, r4, #13
	mov.w	r1, #0
	sbcs	r1, r2
	blo	.LBB70_110
	add.w	r1, r12, r4, lsl #3
	ldr.w	r3, [r12, r4, lsl #3]
	ldr	r1, [r1, #4]
	orrs	r1, r3
	beq.w	.LBB70_130
.LBB70_110:
	movs	r1, #1
	strb.w	r1, [r12, #120]
.LBB70_111:
	ldr	r1, [r5]
	ldr	r2, [sp, #16]
	add	r0, r1
	ldr	r1, [r0, #-24]
	and	r1, r1, #1
	orrs	r1, r2
	ldr	r2, [sp, #40]
	strd	r1, r2, [r0, #-24]
	b	.LBB70_117
	.p2align	2
.LBB70_112:
	ldr	r0, [sp]
	ldr	r1, [sp, #16]
	mov	r5, r6
	str	r1, [r0]
	ldr	r1, [sp, #40]
	str	r1, [r0, #4]
	b	.LBB70_117
	.p2align	2
.LBB70_113:
	rsbs.w	r1, r4, #13
	mov.w	r1, #0
	sbcs	r1, r2
	blo	.LBB70_115
	add.w	r1, r12, r4, lsl #3
	ldr.w	r3, [r12, r4, lsl #3]
	ldr	r1, [r1, #4]
	orrs	r1, r3
	beq.w	.LBB70_131
.LBB70_115:
	movs	r1, #1
	strb.w	r1, [r12, #120]
.LBB70_116:
	ldr	r1, [r5]
	ldr	r2, [sp, #16]
	add	r0, r1
	ldr	r1, [sp, #40]
	strd	r2, r1, [r0, #-16]
.LBB70_117:
	ldrd	r2, r0, [r12, #112]
	rsbs.w	r1, r2, #13
	mov.w	r1, #0
	sbcs	r1, r0
	blo	.LBB70_119
	add.w	r1, r12, r2, lsl #3
	ldr.w	r3, [r12, r2, lsl #3]
	ldr	r1, [r1, #4]
	orrs	r1, r3
	beq	.LBB70_123
.LBB70_119:
	movs	r0, #1
	strb.w	r0, [r12, #120]
.LBB70_120:
	ldr	r0, [r5]
	ldr	r2, [sp, #36]
	add	r0, r10
	ldr	r1, [r0, #-24]
	and	r1, r1, #1
	orr.w	r1, r1, r11
	strd	r1, r2, [r0, #-24]
	ldr	r0, [r5]
	ldr	r1, [sp, #40]
	ldr	r2, [sp, #16]
	add	r0, r9
	strd	r2, r1, [r0, #-8]
.LBB70_121:
	add	sp, #44
	pop.w	{r4, r5, r6, r7, r8, r9, r10, r11, pc}
	.p2align	2
.LBB70_122:
	lsls	r1, r6, #3
	add.w	r3, r12, r1
	str.w	r11, [r12, r1]
	ldr	r1, [sp, #36]
	str	r1, [r3, #4]
	adds	r1, r6, #1
	adc	r3, r4, #0
	strd	r1, r3, [r12, #112]
	b	.LBB70_104
	.p2align	2
.LBB70_123:
	ldr	r7, [sp, #16]
	lsls	r1, r2, #3
	add.w	r3, r12, r1
	str.w	r7, [r12, r1]
	ldr	r1, [sp, #40]
	str	r1, [r3, #4]
	adds	r1, r2, #1
	adc	r0, r0, #0
	strd	r1, r0, [r12, #112]
	b	.LBB70_120
	.p2align	2
.LBB70_124:
	lsls	r1, r4, #3
	add.w	r3, r8, r1
	str.w	r11, [r8, r1]
	ldr	r1, [sp, #36]
	str	r1, [r3, #4]
	adds	r1, r4, #1
	adc	r3, r5, #0
	strd	r1, r3, [r8, #112]
	b	.LBB70_76
	.p2align	2
.LBB70_125:
	lsls	r1, r2, #3
	add.w	r3, r8, r1
	str.w	lr, [r8, r1]
	adds	r1, r2, #1
	adc	r0, r0, #0
	str	r4, [r3, #4]
	strd	r1, r0, [r8, #112]
	b	.LBB70_92
	.p2align	2
.LBB70_126:
	lsls	r1, r6, #3
	ldr.w	r9, [sp, #40]
	add.w	r3, r8, r1
	str.w	r7, [r8, r1]
	adds	r1, r6, #1
	ldr.w	r10, [sp, #20]
	ldr	r6, [sp, #32]
	str.w	r9, [r3, #4]
	adc	r3, r4, #0
	strd	r1, r3, [r8, #112]
	b	.LBB70_57
	.p2align	2
.LBB70_127:
	lsls	r1, r2, #3
	add.w	r3, r8, r1
	str.w	lr, [r8, r1]
	adds	r1, r2, #1
	adc	r0, r0, #0
	str.w	r10, [r3, #4]
	strd	r1, r0, [r8, #112]
	b	.LBB70_72
	.p2align	2
.LBB70_128:
	ldr	r7, [sp, #16]
	lsls	r1, r6, #3
	add.w	r3, r12, r1
	str.w	r7, [r12, r1]
	ldr	r1, [sp, #40]
	str	r1, [r3, #4]
	adds	r1, r6, #1
	adc	r3, r4, #0
	strd	r1, r3, [r12, #112]
	b.w	.LBB70_38
	.p2align	2
.LBB70_129:
	lsls	r1, r2, #3
	add.w	r3, r12, r1
	str.w	r6, [r12, r1]
	adds	r1, r2, #1
	adc	r0, r0, #0
	str.w	r9, [r3, #4]
	strd	r1, r0, [r12, #112]
	b	.LBB70_100
	.p2align	2
.LBB70_130:
	lsls	r1, r4, #3
	add.w	r3, r12, r1
	str.w	r8, [r12, r1]
	adds	r1, r4, #1
	adc	r2, r2, #0
	str.w	lr, [r3, #4]
	strd	r1, r2, [r12, #112]
	b	.LBB70_111
	.p2align	2
.LBB70_131:
	lsls	r1, r4, #3
	add.w	r3, r12, r1
	str.w	r8, [r12, r1]
	adds	r1, r4, #1
	adc	r2, r2, #0
	str.w	lr, [r3, #4]
	strd	r1, r2, [r12, #112]
	b	.LBB70_116
	.p2align	2
.LBB70_132:
	lsls	r1, r5, #3
	add.w	r3, r8, r1
	str.w	r6, [r8, r1]
	adds	r1, r5, #1
	str	r2, [r3, #4]
	adc	r2, r7, #0
	strd	r1, r2, [r8, #112]
	b	.LBB70_83
	.p2align	2
.LBB70_133:
	lsls	r1, r5, #3
	add.w	r3, r8, r1
	str.w	r6, [r8, r1]
	adds	r1, r5, #1
	str	r2, [r3, #4]
	adc	r2, r7, #0
	strd	r1, r2, [r8, #112]
	b	.LBB70_88
	.p2align	2
.LBB70_134:
	lsls	r1, r2, #3
	add.w	r3, r8, r1
	str.w	r11, [r8, r1]
	ldr	r1, [sp, #36]
	str	r1, [r3, #4]
	adds	r1, r2, #1
	adc	r0, r0, #0
	strd	r1, r0, [r8, #112]
	b	.LBB70_63
	.p2align	2
.LBB70_135:
	lsls	r1, r2, #3
	add.w	r3, r8, r1
	str.w	r11, [r8, r1]
	ldr	r1, [sp, #36]
	str	r1, [r3, #4]
	adds	r1, r2, #1
	adc	r0, r0, #0
	strd	r1, r0, [r8, #112]
	b	.LBB70_68
	.p2align	2
.LBB70_136:
	lsls	r1, r2, #3
	add.w	r3, r12, r1
	str.w	r11, [r12, r1]
	ldr	r1, [sp, #36]
	str	r1, [r3, #4]
	adds	r1, r2, #1
	adc	r0, r0, #0
	strd	r1, r0, [r12, #112]
	b.w	.LBB70_44
	.p2align	2
.LBB70_137:
	lsls	r1, r2, #3
	add.w	r3, r12, r1
	str.w	r11, [r12, r1]
	ldr	r1, [sp, #36]
	str	r1, [r3, #4]
	adds	r1, r2, #1
	adc	r0, r0, #0
	strd	r1, r0, [r12, #112]
	b	.LBB70_96
.Lfunc_end70:
	.size	ic_raw_augmented.noting.WrittenSurgery.attach, .Lfunc_end70-ic_raw_augmented.noting.WrittenSurgery.attach
	.cfi_endproc
	.section	.text.ic_raw_augmented.edit_calls.settle,"ax",%progbits
	.p2align	2
	.type	ic_raw_augmented.edit_calls.settle,%function
	.code	16
	.thumb_func
ic_raw_augmented.edit_calls.settle:
	.cfi_startproc
	push.w	{r4, r5, r6, r7, r8, r9, r10, r11, lr}
	.cfi_def_cfa_offset 36
	.cfi_offset lr, -4
	.cfi_offset r11, -8
	.cfi_offset r10, -12
	.cfi_offset r9, -16
	.cfi_offset r8, -20
	.cfi_offset r7, -24
	.cfi_offset r6, -28
	.cfi_offset r5, -32
	.cfi_offset r4, -36
	sub	sp, #36
	.cfi_def_cfa_offset 72
	ldr	r1, [sp, #96]
	cbz	r1, .LBB71_2
.LBB71_1:
	add	sp, #36
	pop.w	{r4, r5, r6, r7, r8, r9, r10, r11, pc}
	.p2align	2
.LBB71_2:
	ldrd	r9, r5, [sp, #88]
	str	r0, [sp, #16]
	movs	r0, #0
	str	r0, [sp, #20]
	ldrb.w	r0, [r5, #120]
	ldrd	r10, r8, [sp, #80]
	ldr.w	r11, [sp, #72]
	mov	r6, r3
	mov	r4, r2
	str	r2, [sp, #24]
	str	r3, [sp, #28]
	cbz	r0, .LBB71_9
	orrs.w	r0, r4, r6
	beq	.LBB71_1
	movs	r5, #0
	movs	r7, #0
	b	.LBB71_6
	.p2align	2
.LBB71_5:
	adds	r5, #1
	adc	r7, r7, #0
	subs	r0, r5, r4
	sbcs.w	r0, r7, r6
	bhs	.LBB71_1
.LBB71_6:
	lsls	r0, r7, #3
	orr.w	r1, r0, r5, lsr #29
	movs	r0, #8
	adds.w	r0, r0, r5, lsl #3
	adc	r2, r1, #0
	and	r1, r2, #15
	orrs.w	r3, r0, r1
	beq	.LBB71_5
	lsrs	r3, r0, #3
	orr.w	r2, r3, r2, lsl #29
	lsrs	r3, r1, #3
	subs	r2, r4, r2
	sbcs.w	r2, r6, r3
	blo	.LBB71_5
	strd	r0, r1, [sp, #8]
	add	r0, sp, #16
	mov	r1, r11
	mov	r2, r10
	mov	r3, r8
	str.w	r9, [sp]
	bl	ic_raw_augmented.recompute.recompute_up
	b	.LBB71_5
	.p2align	2
.LBB71_9:
	ldrd	r3, r2, [r5]
	and	r0, r2, #15
	bic	r1, r3, #7
	orrs.w	r7, r1, r0
	beq	.LBB71_12
	lsrs	r3, r3, #3
	orr.w	r2, r3, r2, lsl #29
	lsrs	r3, r0, #3
	subs	r2, r4, r2
	sbcs.w	r2, r6, r3
	blo	.LBB71_12
	strd	r1, r0, [sp, #8]
	add	r0, sp, #16
	mov	r1, r11
	mov	r2, r10
	mov	r3, r8
	str.w	r9, [sp]
	bl	ic_raw_augmented.recompute.recompute_up
.LBB71_12:
	ldrd	r3, r2, [r5, #8]
	and	r0, r2, #15
	bic	r1, r3, #7
	orrs.w	r7, r1, r0
	beq	.LBB71_15
	lsrs	r3, r3, #3
	orr.w	r2, r3, r2, lsl #29
	lsrs	r3, r0, #3
	subs	r2, r4, r2
	sbcs.w	r2, r6, r3
	blo	.LBB71_15
	strd	r1, r0, [sp, #8]
	add	r0, sp, #16
	mov	r1, r11
	mov	r2, r10
	mov	r3, r8
	str.w	r9, [sp]
	bl	ic_raw_augmented.recompute.recompute_up
.LBB71_15:
	ldrd	r3, r2, [r5, #16]
	and	r0, r2, #15
	bic	r1, r3, #7
	orrs.w	r7, r1, r0
	beq	.LBB71_18
	lsrs	r3, r3, #3
	orr.w	r2, r3, r2, lsl #29
	lsrs	r3, r0, #3
	subs	r2, r4, r2
	sbcs.w	r2, r6, r3
	blo	.LBB71_18
	strd	r1, r0, [sp, #8]
	add	r0, sp, #16
	mov	r1, r11
	mov	r2, r10
	mov	r3, r8
	str.w	r9, [sp]
	bl	ic_raw_augmented.recompute.recompute_up
.LBB71_18:
	ldrd	r3, r2, [r5, #24]
	and	r0, r2, #15
	bic	r1, r3, #7
	orrs.w	r7, r1, r0
	beq	.LBB71_21
	lsrs	r3, r3, #3
	orr.w	r2, r3, r2, lsl #29
	lsrs	r3, r0, #3
	subs	r2, r4, r2
	sbcs.w	r2, r6, r3
	blo	.LBB71_21
	strd	r1, r0, [sp, #8]
	add	r0, sp, #16
	mov	r1, r11
	mov	r2, r10
	mov	r3, r8
	str.w	r9, [sp]
	bl	ic_raw_augmented.recompute.recompute_up
.LBB71_21:
	ldrd	r3, r2, [r5, #32]
	and	r0, r2, #15
	bic	r1, r3, #7
	orrs.w	r7, r1, r0
	beq	.LBB71_24
	lsrs	r3, r3, #3
	orr.w	r2, r3, r2, lsl #29
	lsrs	r3, r0, #3
	subs	r2, r4, r2
	sbcs.w	r2, r6, r3
	blo	.LBB71_24
	strd	r1, r0, [sp, #8]
	add	r0, sp, #16
	mov	r1, r11
	mov	r2, r10
	mov	r3, r8
	str.w	r9, [sp]
	bl	ic_raw_augmented.recompute.recompute_up
.LBB71_24:
	ldrd	r3, r2, [r5, #40]
	and	r0, r2, #15
	bic	r1, r3, #7
	orrs.w	r7, r1, r0
	beq	.LBB71_27
	lsrs	r3, r3, #3
	orr.w	r2, r3, r2, lsl #29
	lsrs	r3, r0, #3
	subs	r2, r4, r2
	sbcs.w	r2, r6, r3
	blo	.LBB71_27
	strd	r1, r0, [sp, #8]
	add	r0, sp, #16
	mov	r1, r11
	mov	r2, r10
	mov	r3, r8
	str.w	r9, [sp]
	bl	ic_raw_augmented.recompute.recompute_up
.LBB71_27:
	ldrd	r3, r2, [r5, #48]
	and	r0, r2, #15
	bic	r1, r3, #7
	orrs.w	r7, r1, r0
	beq	.LBB71_30
	lsrs	r3, r3, #3
	orr.w	r2, r3, r2, lsl #29
	lsrs	r3, r0, #3
	subs	r2, r4, r2
	sbcs.w	r2, r6, r3
	blo	.LBB71_30
	strd	r1, r0, [sp, #8]
	add	r0, sp, #16
	mov	r1, r11
	mov	r2, r10
	mov	r3, r8
	str.w	r9, [sp]
	bl	ic_raw_augmented.recompute.recompute_up
.LBB71_30:
	ldrd	r3, r2, [r5, #56]
	and	r0, r2, #15
	bic	r1, r3, #7
	orrs.w	r7, r1, r0
	beq	.LBB71_33
	lsrs	r3, r3, #3
	orr.w	r2, r3, r2, lsl #29
	lsrs	r3, r0, #3
	subs	r2, r4, r2
	sbcs.w	r2, r6, r3
	blo	.LBB71_33
	strd	r1, r0, [sp, #8]
	add	r0, sp, #16
	mov	r1, r11
	mov	r2, r10
	mov	r3, r8
	str.w	r9, [sp]
	bl	ic_raw_augmented.recompute.recompute_up
.LBB71_33:
	ldrd	r3, r2, [r5, #64]
	and	r0, r2, #15
	bic	r1, r3, #7
	orrs.w	r7, r1, r0
	beq	.LBB71_36
	lsrs	r3, r3, #3
	orr.w	r2, r3, r2, lsl #29
	lsrs	r3, r0, #3
	subs	r2, r4, r2
	sbcs.w	r2, r6, r3
	blo	.LBB71_36
	strd	r1, r0, [sp, #8]
	add	r0, sp, #16
	mov	r1, r11
	mov	r2, r10
	mov	r3, r8
	str.w	r9, [sp]
	bl	ic_raw_augmented.recompute.recompute_up
.LBB71_36:
	ldrd	r3, r2, [r5, #72]
	and	r0, r2, #15
	bic	r1, r3, #7
	orrs.w	r7, r1, r0
	beq	.LBB71_39
	lsrs	r3, r3, #3
	orr.w	r2, r3, r2, lsl #29
	lsrs	r3, r0, #3
	subs	r2, r4, r2
	sbcs.w	r2, r6, r3
	blo	.LBB71_39
	strd	r1, r0, [sp, #8]
	add	r0, sp, #16
	mov	r1, r11
	mov	r2, r10
	mov	r3, r8
	str.w	r9, [sp]
	bl	ic_raw_augmented.recompute.recompute_up
.LBB71_39:
	ldrd	r3, r2, [r5, #80]
	and	r0, r2, #15
	bic	r1, r3, #7
	orrs.w	r7, r1, r0
	beq	.LBB71_42
	lsrs	r3, r3, #3
	orr.w	r2, r3, r2, lsl #29
	lsrs	r3, r0, #3
	subs	r2, r4, r2
	sbcs.w	r2, r6, r3
	blo	.LBB71_42
	strd	r1, r0, [sp, #8]
	add	r0, sp, #16
	mov	r1, r11
	mov	r2, r10
	mov	r3, r8
	str.w	r9, [sp]
	bl	ic_raw_augmented.recompute.recompute_up
.LBB71_42:
	ldrd	r3, r2, [r5, #88]
	and	r0, r2, #15
	bic	r1, r3, #7
	orrs.w	r7, r1, r0
	beq	.LBB71_45
	lsrs	r3, r3, #3
	orr.w	r2, r3, r2, lsl #29
	lsrs	r3, r0, #3
	subs	r2, r4, r2
	sbcs.w	r2, r6, r3
	blo	.LBB71_45
	strd	r1, r0, [sp, #8]
	add	r0, sp, #16
	mov	r1, r11
	mov	r2, r10
	mov	r3, r8
	str.w	r9, [sp]
	bl	ic_raw_augmented.recompute.recompute_up
.LBB71_45:
	ldrd	r3, r2, [r5, #96]
	and	r0, r2, #15
	bic	r1, r3, #7
	orrs.w	r7, r1, r0
	beq	.LBB71_48
	lsrs	r3, r3, #3
	orr.w	r2, r3, r2, lsl #29
	lsrs	r3, r0, #3
	subs	r2, r4, r2
	sbcs.w	r2, r6, r3
	blo	.LBB71_48
	strd	r1, r0, [sp, #8]
	add	r0, sp, #16
	mov	r1, r11
	mov	r2, r10
	mov	r3, r8
	str.w	r9, [sp]
	bl	ic_raw_augmented.recompute.recompute_up
.LBB71_48:
	ldrd	r3, r2, [r5, #104]
	and	r0, r2, #15
	bic	r1, r3, #7
	orrs.w	r7, r1, r0
	beq.w	.LBB71_1
	lsrs	r3, r3, #3
	orr.w	r2, r3, r2, lsl #29
	lsrs	r3, r0, #3
	subs	r2, r4, r2
	sbcs.w	r2, r6, r3
	blo.w	.LBB71_1
	strd	r1, r0, [sp, #8]
	add	r0, sp, #16
	mov	r1, r11
	mov	r2, r10
	mov	r3, r8
	str.w	r9, [sp]
	bl	ic_raw_augmented.recompute.recompute_up
	add	sp, #36
	pop.w	{r4, r5, r6, r7, r8, r9, r10, r11, pc}
.Lfunc_end71:
	.size	ic_raw_augmented.edit_calls.settle, .Lfunc_end71-ic_raw_augmented.edit_calls.settle
	.cfi_endproc
	.section	.text.ic_raw_augmented.recompute.recompute_up,"ax",%progbits
	.p2align	2
	.type	ic_raw_augmented.recompute.recompute_up,%function
	.code	16
	.thumb_func
ic_raw_augmented.recompute.recompute_up:
	.cfi_startproc
	push.w	{r4, r5, r6, r7, r8, r9, r10, r11, lr}
	.cfi_def_cfa_offset 36
	.cfi_offset lr, -4
	.cfi_offset r11, -8
	.cfi_offset r10, -12
	.cfi_offset r9, -16
	.cfi_offset r8, -20
	.cfi_offset r7, -24
	.cfi_offset r6, -28
	.cfi_offset r5, -32
	.cfi_offset r4, -36
	sub	sp, #28
	.cfi_def_cfa_offset 64
	ldrd	r9, r10, [sp, #72]
	ldr	r4, [r0]
	ldrd	r8, lr, [r0, #8]
	str	r0, [sp, #4]
	movs	r0, #0
	strd	r2, r3, [sp, #16]
	str	r1, [sp, #24]
	str	r0, [sp, #12]
	b	.LBB72_3
	.p2align	2
.LBB72_1:
	cmp.w	r12, #65
	bhi.w	.LBB72_22
.LBB72_2:
	add.w	r12, r12, #1
	str.w	r12, [sp, #12]
	mov	r9, r3
	mov	r10, r6
.LBB72_3:
	lsr.w	r12, r9, #3
	add.w	r0, r12, r12, lsl #1
	add.w	r2, r4, r0, lsl #3
	str	r0, [sp, #8]
	ldrd	r0, r3, [r2, #-24]
	bic	r0, r0, #7
	and	r4, r3, #15
	lsl.w	r3, lr, #3
	subs	r5, r0, #1
	orr.w	r3, r3, r8, lsr #29
	sbc	r6, r4, #0
	subs.w	r5, r5, r8, lsl #3
	sbcs	r6, r3
	bhs	.LBB72_6
	lsrs	r0, r0, #3
	orr.w	r0, r0, r4, lsl #29
	ldr	r7, [sp, #16]
	lsrs	r6, r4, #3
	subs	r0, #1
	sbc	r6, r6, #0
	subs	r5, r0, r7
	ldr	r7, [sp, #20]
	sbcs	r6, r7
	bhs	.LBB72_6
	ldr	r1, [sp, #24]
	add.w	r0, r1, r0, lsl #4
	ldrd	r11, r4, [r0, #8]
	b	.LBB72_7
	.p2align	2
.LBB72_6:
	mov.w	r11, #0
	movs	r4, #0
.LBB72_7:
	ldrd	r0, r2, [r2, #-16]
	lsl.w	r7, r8, #3
	bic	r0, r0, #7
	and	r2, r2, #15
	subs	r6, r0, #1
	sbc	r5, r2, #0
	subs	r7, r6, r7
	sbcs.w	r3, r5, r3
	mov.w	lr, #0
	bhs	.LBB72_10
	lsrs	r0, r0, #3
	orr.w	r0, r0, r2, lsl #29
	ldr	r3, [sp, #16]
	lsrs	r2, r2, #3
	subs	r0, #1
	sbc	r2, r2, #0
	subs	r3, r0, r3
	ldr	r3, [sp, #20]
	ldr	r1, [sp, #24]
	sbcs	r2, r3
	bhs	.LBB72_11
	add.w	r0, r1, r0, lsl #4
	ldrd	r7, r5, [r0, #8]
	b	.LBB72_12
	.p2align	2
.LBB72_10:
	ldr	r1, [sp, #24]
.LBB72_11:
	movs	r7, #0
	movs	r5, #0
.LBB72_12:
	orr.w	r0, r12, r10, lsl #29
	ldr	r3, [sp, #16]
	lsr.w	r2, r10, #3
	subs	r0, #1
	sbc	r2, r2, #0
	subs	r3, r0, r3
	ldr	r3, [sp, #20]
	mov.w	r12, #0
	sbcs	r2, r3
	add.w	r6, r1, r0, lsl #4
	it	lo
	movlo.w	r12, #1
	bhs	.LBB72_15
	lsls	r0, r0, #4
	ldr.w	lr, [r1, r0]
	ldr	r2, [r6, #4]
	ldr	r0, [sp, #64]
	lsls	r0, r0, #31
	bne	.LBB72_16
.LBB72_14:
	adds.w	r0, r7, lr
	adcs	r2, r5
	mov.w	r3, #0
	adcs	r7, r3, #0
	itt	ne
	movne.w	r2, #-1
	movne.w	r0, #-1
	adds.w	r7, r0, r11
	adcs.w	r5, r2, r4
	adcs	r0, r3, #0
	itt	ne
	movne.w	r5, #-1
	movne.w	r7, #-1
	b	.LBB72_17
	.p2align	2
.LBB72_15:
	movs	r2, #0
	ldr	r0, [sp, #64]
	lsls	r0, r0, #31
	beq	.LBB72_14
.LBB72_16:
	subs.w	r0, r7, lr
	sbcs.w	r0, r5, r2
	itt	lo
	movlo	r5, r2
	movlo	r7, lr
	subs.w	r0, r7, r11
	sbcs.w	r0, r5, r4
	itt	lo
	movlo	r5, r4
	movlo	r7, r11
.LBB72_17:
	cmp.w	r12, #0
	itee	ne
	ldrdne	r2, r0, [r6, #8]
	moveq	r2, #0
	moveq	r0, #0
	ldr.w	r12, [sp, #12]
	eors	r2, r7
	eors	r0, r5
	orrs	r0, r2
	beq	.LBB72_22
	ldr	r0, [sp, #24]
	ldr	r1, [sp, #4]
	add.w	r0, r0, r9, lsl #1
	strd	r7, r5, [r0, #-8]
	ldr	r0, [sp, #8]
	ldr	r4, [r1]
	lsls	r0, r0, #3
	add	r0, r4
	ldrd	r2, r0, [r0, #-8]
	ldrd	r8, lr, [r1, #8]
	bic	r3, r2, #7
	and	r6, r0, #15
	lsl.w	r0, lr, #3
	subs	r5, r3, #1
	orr.w	r0, r0, r8, lsr #29
	sbc	r7, r6, #0
	subs.w	r1, r5, r8, lsl #3
	sbcs.w	r0, r7, r0
	bhs	.LBB72_22
	lsrs	r0, r2, #3
	add.w	r0, r0, r0, lsl #1
	add.w	r2, r4, r0, lsl #3
	ldrd	r0, r1, [r2, #-24]
	bic	r0, r0, #7
	and	r1, r1, #15
	eor.w	r1, r1, r10
	eor.w	r0, r0, r9
	orrs	r0, r1
	beq.w	.LBB72_1
	ldrd	r0, r1, [r2, #-16]
	bic	r0, r0, #7
	and	r1, r1, #15
	eor.w	r1, r1, r10
	eor.w	r0, r0, r9
	orrs	r0, r1
	bne	.LBB72_22
	cmp.w	r12, #66
	blo.w	.LBB72_2
.LBB72_22:
	add	sp, #28
	pop.w	{r4, r5, r6, r7, r8, r9, r10, r11, pc}
.Lfunc_end72:
	.size	ic_raw_augmented.recompute.recompute_up, .Lfunc_end72-ic_raw_augmented.recompute.recompute_up
	.cfi_endproc
	.section	.text.ic_raw_augmented.edit_calls.insert_at,"ax",%progbits
	.p2align	2
	.type	ic_raw_augmented.edit_calls.insert_at,%function
	.code	16
	.thumb_func
ic_raw_augmented.edit_calls.insert_at:
	.cfi_startproc
	push.w	{r4, r5, r6, r7, r8, r9, r10, r11, lr}
	.cfi_def_cfa_offset 36
	.cfi_offset lr, -4
	.cfi_offset r11, -8
	.cfi_offset r10, -12
	.cfi_offset r9, -16
	.cfi_offset r8, -20
	.cfi_offset r7, -24
	.cfi_offset r6, -28
	.cfi_offset r5, -32
	.cfi_offset r4, -36
	sub	sp, #196
	.cfi_def_cfa_offset 232
	mov	r5, r2
	ldrd	r1, r2, [sp, #240]
	subs	r1, r1, r5
	sbcs.w	r1, r2, r3
	bhs	.LBB73_2
	movs	r7, #1
	mov	r0, r7
	add	sp, #196
	pop.w	{r4, r5, r6, r7, r8, r9, r10, r11, pc}
	.p2align	2
.LBB73_2:
	mov	r9, r0
	ldrd	r11, r0, [sp, #260]
	mov	r10, r3
	adds	r7, r0, #1
	lsl.w	r0, r7, #3
	lsr.w	r1, r7, #29
	mov	r4, r7
	it	ne
	movne	r4, #1
	strd	r1, r0, [sp, #32]
	strd	r0, r1, [sp, #40]
	add	r0, sp, #40
	ldr.w	r8, [sp, #252]
	adds	r0, #8
	movs	r6, #0
	movs	r1, #0
	movs	r2, #104
	movs	r3, #0
	str	r6, [sp]
	bl	ic.clear
	ldrd	r1, r0, [r8]
	strd	r4, r6, [sp, #152]
	and	r4, r0, #15
	adds.w	r0, r11, #1
	strd	r6, r6, [sp, #160]
	strd	r9, r6, [sp, #176]
	bic	r6, r1, #7
	mov	r3, r0
	str.w	r10, [sp, #188]
	str	r5, [sp, #184]
	strd	r6, r4, [sp, #168]
	it	ne
	movne	r3, #1
	beq	.LBB73_8
	subs	r2, r5, r0
	ldr.w	r8, [sp, #256]
	sbcs	r2, r10, #0
	blo	.LBB73_13
	add.w	r2, r0, r0, lsl #1
	add.w	r12, r9, r2, lsl #3
	ldrb	r2, [r12, #-24]
	subs	r6, #1
	sbc	lr, r4, #0
	lsls	r2, r2, #31
	beq	.LBB73_13
	lsl.w	r2, r10, #3
	lsls	r4, r5, #3
	orr.w	r2, r2, r5, lsr #29
	subs	r4, r6, r4
	sbcs.w	r2, lr, r2
	bhs	.LBB73_13
	lsrs	r1, r1, #3
	add.w	r1, r1, r1, lsl #1
	add.w	r1, r9, r1, lsl #3
	ldrb	r1, [r1, #-24]
	lsls	r1, r1, #31
	beq	.LBB73_13
	lsls.w	r1, r8, #31
	mvn	r1, #23
	it	ne
	mvnne	r1, #15
	add.w	r2, r12, r1
	ldr.w	r1, [r12, r1]
	ldr	r2, [r2, #4]
	bic	r1, r1, #7
	and	r2, r2, #15
	orrs	r1, r2
	beq	.LBB73_9
	b	.LBB73_13
	.p2align	2
.LBB73_8:
	ldr.w	r8, [sp, #256]
	orrs.w	r1, r6, r4
	bne	.LBB73_13
.LBB73_9:
	cbz	r7, .LBB73_13
	subs	r1, r5, r7
	sbcs	r1, r10, #0
	blo	.LBB73_13
	add.w	r1, r7, r7, lsl #1
	add.w	r1, r9, r1, lsl #3
	ldrb	r2, [r1, #-24]
	lsls	r2, r2, #31
	bne	.LBB73_13
	movs	r7, #0
	movs	r6, #1
	str	r7, [r1, #-20]
	str	r6, [r1, #-24]
	str	r7, [r1, #-16]
	str	r7, [r1, #-12]
	str	r7, [r1, #-8]
	str	r7, [r1, #-4]
	ldrd	r6, r1, [sp, #32]
	lsrs	r2, r0, #29
	lsls	r0, r0, #3
	strd	r1, r6, [sp, #16]
	strd	r0, r2, [sp]
	add	r0, sp, #40
	add	r1, sp, #176
	add	r2, sp, #168
	str.w	r8, [sp, #8]
	bl	ic_raw_augmented.noting.WrittenSurgery.attach
	ldrd	r0, r1, [sp, #168]
	ldr	r2, [sp, #252]
	strd	r0, r1, [r2]
	b	.LBB73_14
	.p2align	2
.LBB73_13:
	ldrd	r1, r2, [sp, #260]
	add	r0, sp, #176
	bl	ic_raw.table.RawTable.refusal.19bacce014a8892a
	mov	r7, r0
.LBB73_14:
	ldr	r0, [sp, #240]
	ldr	r1, [sp, #232]
	str	r0, [sp, #8]
	ldr	r0, [sp, #244]
	mov	r2, r5
	str	r0, [sp, #12]
	ldr	r0, [sp, #248]
	mov	r3, r10
	str	r0, [sp, #16]
	add	r0, sp, #40
	strd	r0, r7, [sp, #20]
	mov	r0, r9
	str	r1, [sp]
	bl	ic_raw_augmented.edit_calls.settle
	mov	r0, r7
	add	sp, #196
	pop.w	{r4, r5, r6, r7, r8, r9, r10, r11, pc}
.Lfunc_end73:
	.size	ic_raw_augmented.edit_calls.insert_at, .Lfunc_end73-ic_raw_augmented.edit_calls.insert_at
	.cfi_endproc
	.section	.text.unlikely.ic_raw_augmented.sum_calls.refusal_of_starts,"ax",%progbits
	.p2align	2
	.type	ic_raw_augmented.sum_calls.refusal_of_starts,%function
	.code	16
	.thumb_func
ic_raw_augmented.sum_calls.refusal_of_starts:
	.cfi_startproc
	push	{r4, lr}
	.cfi_def_cfa_offset 8
	.cfi_offset lr, -4
	.cfi_offset r4, -8
	ldr	r1, [sp, #16]
	adds	r1, #1
	blo	.LBB74_2
	ldrd	lr, r12, [r0, #8]
	b	.LBB74_4
	.p2align	2
.LBB74_2:
	ldrd	lr, r12, [r0, #8]
	subs.w	r4, lr, r1
	sbcs	r4, r12, #0
	itt	lo
	movlo	r0, #1
	poplo	{r4, pc}
.LBB74_3:
	ldr	r0, [r0]
	add.w	r1, r1, r1, lsl #1
	add.w	r0, r0, r1, lsl #3
	ldrb	r0, [r0, #-24]
	lsls	r0, r0, #31
	itt	eq
	moveq	r0, #3
	popeq	{r4, pc}
.LBB74_4:
	subs.w	r0, r2, lr
	sbcs.w	r0, r3, r12
	itt	lo
	movlo	r0, #1
	poplo	{r4, pc}
.LBB74_5:
	ldrd	r0, r1, [sp, #8]
	subs.w	r0, r0, lr
	sbcs.w	r0, r1, r12
	mov.w	r0, #5
	it	lo
	movlo	r0, #1
	pop	{r4, pc}
.Lfunc_end74:
	.size	ic_raw_augmented.sum_calls.refusal_of_starts, .Lfunc_end74-ic_raw_augmented.sum_calls.refusal_of_starts
	.cfi_endproc
	.section	.text.ic_raw.xor_calls.splice,"ax",%progbits
	.p2align	2
	.type	ic_raw.xor_calls.splice,%function
	.code	16
	.thumb_func
ic_raw.xor_calls.splice:
	.cfi_startproc
	push.w	{r4, r5, r6, r7, r8, r9, r10, r11, lr}
	.cfi_def_cfa_offset 36
	.cfi_offset lr, -4
	.cfi_offset r11, -8
	.cfi_offset r10, -12
	.cfi_offset r9, -16
	.cfi_offset r8, -20
	.cfi_offset r7, -24
	.cfi_offset r6, -28
	.cfi_offset r5, -32
	.cfi_offset r4, -36
	sub	sp, #36
	.cfi_def_cfa_offset 72
	ldr	r7, [sp, #72]
	ldr	r4, [sp, #88]
	ldrd	r5, r1, [r7]
	ldrd	r11, r10, [r7, #8]
	and	r7, r1, #15
	bic	r12, r5, #7
	ldrd	r5, r1, [r4]
	ldrd	lr, r6, [r4, #8]
	and	r8, r1, #15
	bic	r4, r5, #7
	orrs.w	r9, r4, r8
	it	ne
	movne.w	r9, #1
	beq	.LBB75_4
	eor.w	r5, r12, r4
	eor.w	r1, r7, r8
	orrs	r1, r5
	bne	.LBB75_4
.LBB75_2:
	movs	r1, #0
.LBB75_3:
	mov	r0, r1
	add	sp, #36
	pop.w	{r4, r5, r6, r7, r8, r9, r10, r11, pc}
	.p2align	2
.LBB75_4:
	add	r1, sp, #4
	strd	r0, r12, [sp, #20]
	add.w	r12, sp, #76
	stm.w	r1, {r4, r6, lr}
	ldm.w	r12, {r0, r1, r12}
	str.w	r11, [sp, #16]
	str	r2, [sp, #32]
	mov	r2, r3
	ldr.w	r11, [sp, #100]
	ldrd	r3, lr, [sp, #92]
	lsls	r0, r0, #31
	str	r7, [sp, #28]
	str.w	r11, [sp]
	beq	.LBB75_9
	lsrs	r0, r1, #3
	ldr	r7, [sp, #32]
	orr.w	r0, r0, r12, lsl #29
	subs	r0, r7, r0
	sbcs.w	r0, r2, r12, lsr #3
	blo	.LBB75_2
	ldr.w	lr, [sp, #20]
	add.w	r0, lr, r1
	ldr	r11, [r0, #-8]
	lsls.w	r1, r11, #31
	beq	.LBB75_2
	ldr	r0, [r0, #-4]
	lsls	r1, r3, #24
	mov	r7, r12
	and	r0, r0, #15
	bic	r11, r11, #7
	ldr.w	r12, [sp, #96]
	ldr	r1, [sp, #100]
	it	ne
	eorne.w	r11, r11, r12
	it	ne
	eorne	r0, r1
	orrs.w	r1, r11, r0
	bne.w	.LBB75_23
	ldr	r0, [sp, #24]
	ldr	r1, [sp, #80]
	eors	r0, r1
	ldr	r1, [sp, #28]
	eors	r1, r7
	orrs	r0, r1
	bne	.LBB75_2
	b	.LBB75_10
	.p2align	2
.LBB75_9:
	lsls	r0, r3, #24
	ldr	r0, [sp, #28]
	it	ne
	eorne.w	r0, r0, r11
	ldr	r1, [sp, #24]
	mov	r7, r12
	it	ne
	eorne.w	r1, r1, lr
	orrs	r0, r1
	mov	r12, lr
	bne	.LBB75_2
.LBB75_10:
	lsls	r0, r3, #31
	ldr	r0, [sp, #16]
	and	r11, r10, #15
	bic	r6, r0, #7
	beq	.LBB75_15
	ldr	r1, [sp, #100]
	lsr.w	r0, r12, #3
	ldr	r3, [sp, #32]
	orr.w	r0, r0, r1, lsl #29
	subs	r0, r3, r0
	ldr.w	lr, [sp, #20]
	sbcs.w	r0, r2, r1, lsr #3
	blo	.LBB75_2
	add.w	r0, lr, r12
	ldr	r1, [r0, #-8]
	str	r6, [sp, #16]
	lsls	r6, r1, #31
	beq	.LBB75_2
	bic	r6, r1, #7
	ldr	r1, [sp, #76]
	ldr	r0, [r0, #-4]
	lsls	r1, r1, #24
	and	r0, r0, #15
	ldr	r1, [sp, #80]
	mov	r3, r2
	itt	ne
	eorne	r6, r1
	eorne	r0, r7
	orrs.w	r1, r6, r0
	bne.w	.LBB75_27
	ldr	r0, [sp, #16]
	ldr	r1, [sp, #100]
	eor.w	r0, r0, r12
	eor.w	r1, r1, r11
	orrs	r0, r1
	bne.w	.LBB75_2
	b	.LBB75_16
	.p2align	2
.LBB75_15:
	ldr	r0, [sp, #76]
	mov	r1, r6
	lsls	r0, r0, #24
	mov	r0, r11
	it	ne
	eorne	r0, r7
	str	r6, [sp, #16]
	ldr	r6, [sp, #80]
	it	ne
	eorne	r1, r6
	ldr.w	lr, [sp, #20]
	orrs	r0, r1
	mov	r3, r2
	bne.w	.LBB75_2
.LBB75_16:
	ldr	r0, [sp, #8]
	cmp.w	r9, #0
	and	r12, r0, #15
	ldr	r0, [sp, #12]
	bic	r5, r0, #7
	beq	.LBB75_25
	ldr	r2, [sp, #4]
	ldr	r1, [sp, #32]
	lsrs	r0, r2, #3
	orr.w	r0, r0, r8, lsl #29
	subs	r0, r1, r0
	ldr.w	r9, [sp, #28]
	sbcs.w	r0, r3, r8, lsr #3
	blo.w	.LBB75_2
	add.w	r4, lr, r2
	ldr	r0, [r4, #-8]
	lsls	r1, r0, #31
	beq.w	.LBB75_2
	ldr	r1, [r4, #-4]
	bic	r6, r0, #7
	and	r0, r1, #15
	orrs.w	r1, r6, r0
	beq	.LBB75_29
	lsrs	r1, r6, #3
	ldr	r2, [sp, #32]
	orr.w	r1, r1, r0, lsl #29
	subs	r1, r2, r1
	sbcs.w	r0, r3, r0, lsr #3
	blo.w	.LBB75_2
	orrs.w	r0, r5, r12
	mov.w	r1, #0
	beq.w	.LBB75_3
	add.w	r0, lr, r6
	ldr	r0, [r0, #-8]
	ands	r0, r0, #1
	bne	.LBB75_30
	b	.LBB75_3
	.p2align	2
.LBB75_23:
	lsr.w	r1, r11, #3
	ldr.w	r12, [sp, #32]
	orr.w	r1, r1, r0, lsl #29
	subs.w	r1, r12, r1
	sbcs.w	r0, r2, r0, lsr #3
	blo.w	.LBB75_2
	add.w	r0, lr, r11
	ldrb	r0, [r0, #-8]
	ldr.w	r12, [sp, #96]
	lsls	r0, r0, #31
	beq.w	.LBB75_2
	b	.LBB75_10
	.p2align	2
.LBB75_25:
	ldr.w	r9, [sp, #28]
	ldr.w	r10, [sp, #16]
	orrs.w	r0, r5, r12
	bne.w	.LBB75_2
.LBB75_26:
	ldr	r0, [sp, #24]
	ldr	r1, [sp, #72]
	str	r0, [r1]
	str.w	r9, [r1, #4]
	str.w	r10, [r1, #8]
	str.w	r11, [r1, #12]
	ldr	r1, [sp, #88]
	movs	r0, #0
	str	r0, [r1, #12]
	str	r0, [r1, #8]
	str	r0, [r1, #4]
	str	r0, [r1]
	movs	r1, #1
	mov	r0, r1
	add	sp, #36
	pop.w	{r4, r5, r6, r7, r8, r9, r10, r11, pc}
	.p2align	2
.LBB75_27:
	lsrs	r1, r6, #3
	ldr	r2, [sp, #32]
	orr.w	r1, r1, r0, lsl #29
	subs	r1, r2, r1
	sbcs.w	r0, r3, r0, lsr #3
	blo.w	.LBB75_2
	add.w	r0, lr, r6
	ldrb	r0, [r0, #-8]
	lsls	r0, r0, #31
	beq.w	.LBB75_2
	b	.LBB75_16
	.p2align	2
.LBB75_29:
	ldr	r0, [sp, #4]
	eor.w	r1, r12, r8
	eors	r0, r5
	orrs	r0, r1
	mov.w	r1, #0
	bne.w	.LBB75_3
.LBB75_30:
	lsrs	r0, r5, #3
	ldr	r2, [sp, #32]
	orr.w	r0, r0, r12, lsl #29
	lsr.w	r6, r12, #3
	subs	r0, r2, r0
	sbcs.w	r0, r3, r6
	blo.w	.LBB75_3
	add.w	r1, lr, r5
	ldr	r0, [r1, #-8]
	lsls	r6, r0, #31
	beq.w	.LBB75_2
	ldr	r6, [r1, #-4]
	bic	r0, r0, #7
	and	r6, r6, #15
	strd	r5, r12, [sp, #8]
	mov	r12, r7
	orrs.w	r7, r0, r6
	beq	.LBB75_35
	lsrs	r7, r0, #3
	ldr	r2, [sp, #32]
	orr.w	r7, r7, r6, lsl #29
	subs	r2, r2, r7
	sbcs.w	r2, r3, r6, lsr #3
	blo.w	.LBB75_2
	add	r0, lr
	ldrb	r0, [r0, #-8]
	lsls	r0, r0, #31
	beq.w	.LBB75_2
	b	.LBB75_36
	.p2align	2
.LBB75_35:
	ldrd	r2, r0, [sp, #4]
	eors	r0, r2
	ldr	r2, [sp, #12]
	eor.w	r2, r2, r8
	orrs	r0, r2
	bne.w	.LBB75_2
.LBB75_36:
	ldr	r0, [sp, #76]
	str	r4, [sp, #32]
	lsls	r0, r0, #24
	beq	.LBB75_38
	ldr	r0, [sp, #80]
	ldr	r7, [sp, #92]
	add	r0, lr
	ldrd	r2, r3, [r0, #-8]
	lsls	r6, r7, #24
	bic	r2, r2, #7
	ldr	r6, [sp, #96]
	and	r3, r3, #15
	it	ne
	eorne	r2, r6
	ldr	r6, [sp, #100]
	it	ne
	eorne	r3, r6
	ldr	r6, [sp, #4]
	eor.w	r3, r3, r8
	eors	r2, r6
	adds	r2, #1
	ldr	r5, [sp, #24]
	adc	r3, r3, #0
	mov	r6, r12
	strd	r2, r3, [r0, #-8]
	b	.LBB75_39
	.p2align	2
.LBB75_38:
	ldr	r5, [sp, #4]
	ldr	r7, [sp, #92]
	mov	r9, r8
	mov	r6, r12
.LBB75_39:
	ldr.w	r12, [sp, #8]
	lsls	r0, r7, #24
	str	r5, [sp, #24]
	beq	.LBB75_41
	ldr.w	r8, [sp, #96]
	ldr	r0, [sp, #20]
	ldr	r7, [sp, #76]
	add	r0, r8
	ldrd	r2, r3, [r0, #-8]
	uxtb	r4, r7
	bic	r2, r2, #7
	ldr	r5, [sp, #80]
	and	r3, r3, #15
	cmp	r4, #0
	it	eq
	moveq	r6, r4
	it	eq
	moveq	r5, r4
	eors	r2, r5
	ldr	r7, [sp, #12]
	eors	r3, r6
	eor.w	r2, r2, r12
	eors	r3, r7
	adds	r2, #1
	adc	r3, r3, #0
	strd	r2, r3, [r0, #-8]
	b	.LBB75_42
	.p2align	2
.LBB75_41:
	ldr	r0, [sp, #76]
	ldr	r5, [sp, #80]
	uxtb	r0, r0
	cmp	r0, #0
	it	eq
	moveq	r6, r0
	it	eq
	moveq	r5, r0
	ldr.w	r11, [sp, #12]
	mov.w	r8, #0
	movs	r0, #0
	str.w	r12, [sp, #16]
	str	r0, [sp]
.LBB75_42:
	ldr	r3, [sp, #32]
	ldr.w	r10, [sp, #16]
	ldrd	r0, r2, [r3, #-8]
	bic	r0, r0, #7
	and	r2, r2, #15
	eors	r0, r5
	eors	r2, r6
	adds	r0, #1
	adc	r2, r2, #0
	strd	r0, r2, [r3, #-8]
	ldrd	r2, r0, [r1, #-8]
	ldr	r3, [sp]
	bic	r2, r2, #6
	and	r0, r0, #15
	eor.w	r2, r2, r8
	eors	r0, r3
	orr	r2, r2, #1
	strd	r2, r0, [r1, #-8]
	b	.LBB75_26
.Lfunc_end75:
	.size	ic_raw.xor_calls.splice, .Lfunc_end75-ic_raw.xor_calls.splice
	.cfi_endproc
	.section	.text.unlikely.ic_raw.xor_calls.refusal_with_both,"ax",%progbits
	.p2align	2
	.type	ic_raw.xor_calls.refusal_with_both,%function
	.code	16
	.thumb_func
ic_raw.xor_calls.refusal_with_both:
	.cfi_startproc
	push	{r7, lr}
	.cfi_def_cfa_offset 8
	.cfi_offset lr, -4
	.cfi_offset r7, -8
	adds.w	r12, r1, #1
	bhs	.LBB76_3
	ldrd	r1, lr, [r0, #8]
	subs.w	r1, r1, r12
	sbcs	r1, lr, #0
	itt	lo
	movlo	r0, #1
	poplo	{r7, pc}
.LBB76_2:
	ldr.w	lr, [r0]
	lsl.w	r1, r12, #3
	add	r1, lr
	ldrb	r1, [r1, #-8]
	lsls	r1, r1, #31
	itt	eq
	moveq	r0, #3
	popeq	{r7, pc}
.LBB76_3:
	mov	r1, r2
	mov	r2, r3
	pop.w	{r7, lr}
	b	ic_raw.table.RawTable.refusal.feecb86c9dd45d96
.Lfunc_end76:
	.size	ic_raw.xor_calls.refusal_with_both, .Lfunc_end76-ic_raw.xor_calls.refusal_with_both
	.cfi_endproc
	.section	.text.unlikely.ic_raw.xor_calls.pop_front_slow,"ax",%progbits
	.p2align	2
	.type	ic_raw.xor_calls.pop_front_slow,%function
	.code	16
	.thumb_func
ic_raw.xor_calls.pop_front_slow:
	.cfi_startproc
	push.w	{r4, r5, r6, r7, r8, r9, r10, r11, lr}
	.cfi_def_cfa_offset 36
	.cfi_offset lr, -4
	.cfi_offset r11, -8
	.cfi_offset r10, -12
	.cfi_offset r9, -16
	.cfi_offset r8, -20
	.cfi_offset r7, -24
	.cfi_offset r6, -28
	.cfi_offset r5, -32
	.cfi_offset r4, -36
	sub	sp, #24
	.cfi_def_cfa_offset 60
	ldr.w	r12, [sp, #60]
	ldrd	lr, r9, [r12]
	and	r4, r9, #15
	bic	r5, lr, #7
	orrs.w	r1, r5, r4
	beq	.LBB77_8
	lsrs	r1, r5, #3
	orr.w	r8, r1, r4, lsl #29
	subs.w	r1, r2, r8
	sbcs.w	r1, r3, r4, lsr #3
	blo	.LBB77_13
	adds	r7, r0, r5
	ldr	r1, [r7, #-8]
	lsls	r6, r1, #31
	beq	.LBB77_13
	ldrd	r10, r6, [r12, #8]
	bic	r11, r1, #7
	and	r6, r6, #15
	strd	r7, r6, [sp, #16]
	ldr	r6, [r7, #-4]
	bic	r7, r10, #7
	and	r1, r6, #15
	orrs.w	r6, r11, r1
	beq	.LBB77_9
	lsr.w	r6, r11, #3
	orr.w	r6, r6, r1, lsl #29
	subs	r6, r2, r6
	sbcs.w	r6, r3, r1, lsr #3
	blo	.LBB77_13
	add.w	r10, r0, r11
	str	r7, [sp, #12]
	ldr	r7, [r10, #-8]
	lsls	r6, r7, #31
	beq	.LBB77_13
	str.w	r10, [sp]
	ldr	r10, [r10, #-4]
	and	r6, r10, #15
	strd	r7, r6, [sp, #4]
	bic	r6, r7, #7
	eors	r5, r6
	ldr	r6, [sp, #8]
	eors	r4, r6
	orrs.w	r6, r5, r4
	bne	.LBB77_11
	ldr	r6, [sp, #12]
	ldr	r4, [sp, #20]
	eor.w	r0, r6, r11
	eor.w	r2, r4, r1
	orrs	r0, r2
	bne	.LBB77_13
	b	.LBB77_14
	.p2align	2
.LBB77_8:
	movs	r0, #4
	add	sp, #24
	pop.w	{r4, r5, r6, r7, r8, r9, r10, r11, pc}
	.p2align	2
.LBB77_9:
	ldr	r2, [sp, #20]
	eor.w	r0, r7, r5
	eors	r2, r4
	orrs	r0, r2
	bne	.LBB77_13
	movs	r6, #0
	movs	r4, #0
	b	.LBB77_15
	.p2align	2
.LBB77_11:
	lsrs	r6, r5, #3
	orr.w	r6, r6, r4, lsl #29
	subs	r2, r2, r6
	ldr	r6, [sp, #12]
	sbcs.w	r2, r3, r4, lsr #3
	blo	.LBB77_13
	add	r0, r5
	ldrb	r0, [r0, #-8]
	ldr	r4, [sp, #20]
	lsls	r0, r0, #31
	bne	.LBB77_14
.LBB77_13:
	movs	r0, #5
	add	sp, #24
	pop.w	{r4, r5, r6, r7, r8, r9, r10, r11, pc}
	.p2align	2
.LBB77_14:
	ldr	r0, [sp, #4]
	movs	r3, #1
	eor.w	r0, r0, lr
	eor.w	r2, r10, r9
	bfi	r0, r3, #0, #3
	ldr	r3, [sp]
	and	r2, r2, #15
	strd	r0, r2, [r3, #-8]
.LBB77_15:
	ldr	r3, [sp, #16]
	ldr	r2, [sp, #64]
	movs	r0, #0
	strd	r0, r0, [r3, #-8]
	str.w	r1, [r12, #4]
	sub.w	r1, r8, #1
	str.w	r11, [r12]
	str.w	r4, [r12, #12]
	str.w	r6, [r12, #8]
	str	r1, [r2]
	add	sp, #24
	pop.w	{r4, r5, r6, r7, r8, r9, r10, r11, pc}
.Lfunc_end77:
	.size	ic_raw.xor_calls.pop_front_slow, .Lfunc_end77-ic_raw.xor_calls.pop_front_slow
	.cfi_endproc
	.section	.text.unlikely.ic_raw.xor_calls.put_slow,"ax",%progbits
	.p2align	2
	.type	ic_raw.xor_calls.put_slow,%function
	.code	16
	.thumb_func
ic_raw.xor_calls.put_slow:
	.cfi_startproc
	push.w	{r4, r5, r6, r7, r8, r9, r10, r11, lr}
	.cfi_def_cfa_offset 36
	.cfi_offset lr, -4
	.cfi_offset r11, -8
	.cfi_offset r10, -12
	.cfi_offset r9, -16
	.cfi_offset r8, -20
	.cfi_offset r7, -24
	.cfi_offset r6, -28
	.cfi_offset r5, -32
	.cfi_offset r4, -36
	sub	sp, #44
	.cfi_def_cfa_offset 80
	ldrd	r7, r6, [sp, #88]
	ldrd	r1, r4, [sp, #96]
	ldrd	r12, r10, [sp, #80]
	str	r6, [sp, #8]
	and	r6, r6, #15
	str	r7, [sp, #12]
	bic	r7, r7, #7
	orrs.w	r5, r7, r6
	str	r5, [sp, #20]
	str	r4, [sp]
	and	lr, r4, #15
	ldrd	r5, r4, [r12]
	ldrd	r8, r9, [r12, #8]
	and	r4, r4, #15
	bic	r5, r5, #7
	str	r1, [sp, #4]
	bic	r1, r1, #7
	str	r6, [sp, #40]
	strd	r5, r4, [sp, #24]
	beq	.LBB78_5
	lsrs	r4, r7, #3
	orr.w	r4, r4, r6, lsl #29
	subs	r4, r2, r4
	sbcs.w	r4, r3, r6, lsr #3
	blo.w	.LBB78_27
	adds	r5, r0, r7
	ldr	r4, [r5, #-8]
	lsls	r6, r4, #31
	beq.w	.LBB78_27
	ldr	r5, [r5, #-4]
	bic	r4, r4, #7
	and	r5, r5, #15
	eors	r4, r1
	eor.w	r5, r5, lr
	orrs.w	r6, r4, r5
	bne	.LBB78_6
	ldr	r4, [sp, #24]
	ldr	r5, [sp, #28]
	ldr	r6, [sp, #40]
	eors	r4, r7
	eors	r5, r6
	orrs	r4, r5
	beq	.LBB78_8
	b	.LBB78_27
	.p2align	2
.LBB78_5:
	mov	r11, r10
	eor.w	r10, r5, r1
	eor.w	r5, r4, lr
	orrs.w	r4, r10, r5
	mov	r10, r11
	beq	.LBB78_8
	b	.LBB78_27
	.p2align	2
.LBB78_6:
	lsrs	r6, r4, #3
	orr.w	r6, r6, r5, lsl #29
	subs	r6, r2, r6
	sbcs.w	r5, r3, r5, lsr #3
	blo.w	.LBB78_27
	add	r4, r0
	ldrb	r4, [r4, #-8]
	lsls	r4, r4, #31
	beq.w	.LBB78_27
.LBB78_8:
	and	r4, r9, #15
	str	r4, [sp, #36]
	orrs.w	r4, r1, lr
	add.w	r11, r10, #1
	str	r4, [sp, #16]
	bic	r4, r8, #7
	str	r4, [sp, #32]
	beq	.LBB78_14
	lsrs	r4, r1, #3
	orr.w	r4, r4, lr, lsl #29
	subs	r4, r2, r4
	sbcs.w	r4, r3, lr, lsr #3
	blo.w	.LBB78_27
	adds	r5, r0, r1
	ldr	r4, [r5, #-8]
	lsls	r6, r4, #31
	beq.w	.LBB78_27
	ldr	r5, [r5, #-4]
	bic	r4, r4, #7
	and	r6, r5, #15
	eor.w	r5, r4, r7
	ldr	r4, [sp, #40]
	eors	r4, r6
	orrs.w	r6, r5, r4
	bne	.LBB78_17
	cmp.w	r11, #0
	beq.w	.LBB78_27
	ldr	r4, [sp, #32]
	ldr	r5, [sp, #36]
	eors	r4, r1
	eor.w	r5, r5, lr
	b	.LBB78_16
	.p2align	2
.LBB78_14:
	cmp.w	r11, #0
	beq	.LBB78_27
	ldr	r4, [sp, #32]
	ldrd	r6, r5, [sp, #36]
	eors	r4, r7
	eors	r5, r6
.LBB78_16:
	orrs	r4, r5
	beq	.LBB78_20
	b	.LBB78_27
	.p2align	2
.LBB78_17:
	lsrs	r6, r5, #3
	orr.w	r6, r6, r4, lsl #29
	subs	r6, r2, r6
	sbcs.w	r4, r3, r4, lsr #3
	blo	.LBB78_27
	cmp.w	r11, #0
	beq	.LBB78_27
	adds	r4, r0, r5
	ldr	r4, [r4, #-8]
	ands	r4, r4, #1
	beq	.LBB78_27
.LBB78_20:
	subs.w	r4, r2, r11
	sbcs	r4, r3, #0
	blo	.LBB78_27
	lsl.w	r9, r11, #3
	add.w	r8, r0, r9
	ldrb	r4, [r8, #-8]
	lsls	r4, r4, #31
	bne	.LBB78_27
	ldr	r2, [sp, #20]
	movs	r3, #0
	clz	r2, r2
	lsrs	r2, r2, #5
	lsr.w	r2, r11, #29
	mov.w	r4, #1
	mov	r11, r9
	mov	r10, r2
	strd	r4, r3, [r8, #-8]
	bne	.LBB78_24
	adds	r3, r0, r7
	ldrd	r4, r5, [r3, #-8]
	ldr	r6, [sp]
	ldrd	r11, r10, [sp, #24]
	eors	r5, r6
	ldr	r6, [sp, #4]
	and	r5, r5, #15
	eors	r4, r6
	bic	r4, r4, #6
	eor.w	r4, r4, r9
	eors	r5, r2
	orr	r4, r4, #1
	strd	r4, r5, [r3, #-8]
.LBB78_24:
	ldr	r3, [sp, #16]
	mov	r5, r1
	cbz	r3, .LBB78_26
	add	r0, r5
	ldrd	r4, r6, [r0, #-8]
	mov	r1, r7
	ldr	r7, [sp, #12]
	ldr	r3, [sp, #8]
	eors	r4, r7
	eors	r6, r3
	bic	r4, r4, #6
	and	r6, r6, #15
	eor.w	r4, r4, r9
	eors	r2, r6
	orr	r4, r4, #1
	strd	r4, r2, [r0, #-8]
	ldrd	r9, r2, [sp, #32]
	mov	r7, r1
.LBB78_26:
	ldr	r0, [sp, #40]
	eors	r7, r5
	eor.w	r0, r0, lr
	orr	r7, r7, #1
	strd	r7, r0, [r8, #-8]
	str.w	r10, [r12, #4]
	str.w	r11, [r12]
	str.w	r2, [r12, #12]
	movs	r0, #0
	str.w	r9, [r12, #8]
	add	sp, #44
	pop.w	{r4, r5, r6, r7, r8, r9, r10, r11, pc}
	.p2align	2
.LBB78_27:
	str.w	r10, [sp, #80]
	add	sp, #44
	pop.w	{r4, r5, r6, r7, r8, r9, r10, r11, lr}
	b	ic_raw.table.refusal_at_end.feecb86c9dd45d96
.Lfunc_end78:
	.size	ic_raw.xor_calls.put_slow, .Lfunc_end78-ic_raw.xor_calls.put_slow
	.cfi_endproc
	.section	.text.unlikely.ic_raw.table.RawTable.refusal_at_both.feecb86c9dd45d96,"ax",%progbits
	.p2align	2
	.type	ic_raw.table.RawTable.refusal_at_both.feecb86c9dd45d96,%function
	.code	16
	.thumb_func
ic_raw.table.RawTable.refusal_at_both.feecb86c9dd45d96:
	.cfi_startproc
	ldr	r1, [sp]
	adds.w	r12, r1, #1
	bhs	.LBB79_3
	subs.w	r1, r2, r12
	sbcs	r1, r3, #0
	itt	lo
	movlo	r0, #1
	bxlo	lr
.LBB79_2:
	lsl.w	r1, r12, #3
	add	r1, r0
	ldrb	r1, [r1, #-8]
	lsls	r1, r1, #31
	itt	eq
	moveq	r0, #3
	bxeq	lr
.LBB79_3:
	ldr	r1, [sp, #4]
	adds	r1, #1
	itt	hs
	movhs	r0, #5
	bxhs	lr
.LBB79_4:
	subs	r2, r2, r1
	sbcs	r2, r3, #0
	itt	lo
	movlo	r0, #1
	bxlo	lr
.LBB79_5:
	lsls	r1, r1, #3
	add	r0, r1
	ldrb	r0, [r0, #-8]
	lsls	r0, r0, #31
	mov.w	r0, #5
	it	eq
	moveq	r0, #3
	bx	lr
.Lfunc_end79:
	.size	ic_raw.table.RawTable.refusal_at_both.feecb86c9dd45d96, .Lfunc_end79-ic_raw.table.RawTable.refusal_at_both.feecb86c9dd45d96
	.cfi_endproc
	.section	.text.ic_hash_check,"ax",%progbits
	.globl	ic_hash_check
	.p2align	2
	.type	ic_hash_check,%function
	.code	16
	.thumb_func
ic_hash_check:
	.cfi_startproc
	push.w	{r4, r5, r6, r7, r8, r9, r10, r11, lr}
	.cfi_def_cfa_offset 36
	.cfi_offset lr, -4
	.cfi_offset r11, -8
	.cfi_offset r10, -12
	.cfi_offset r9, -16
	.cfi_offset r8, -20
	.cfi_offset r7, -24
	.cfi_offset r6, -28
	.cfi_offset r5, -32
	.cfi_offset r4, -36
	sub	sp, #20
	.cfi_def_cfa_offset 56
	ldr	r7, [sp, #56]
	mov	r4, r3
	add	r3, sp, #64
	cmp	r0, #0
	mov	r5, r2
	ldm	r3, {r1, r2, r3}
	it	eq
	addeq.w	r0, r0, #4096
	cmp	r7, #0
	str	r0, [sp, #16]
	it	eq
	addeq.w	r7, r7, #4096
	cmp	r3, #0
	str	r7, [sp, #12]
	it	eq
	addeq.w	r3, r3, #4096
	subs	r1, r1, r5
	sbcs.w	r0, r2, r4
	mov.w	r0, #1
	blo	.LBB80_11
	ldrd	r2, r1, [sp, #80]
	orrs	r1, r2
	beq	.LBB80_11
	mov.w	r11, #0
	mov.w	r9, #0
	movs	r1, #0
	movs	r2, #0
	str	r3, [sp]
.LBB80_3:
	add.w	r0, r3, r11, lsl #3
	strd	r2, r1, [sp, #4]
	ldr.w	r1, [r3, r11, lsl #3]
	ldr	r2, [r0, #4]
	bic	r0, r1, #7
	and	r1, r2, #15
	mov.w	r8, #0
	mov.w	r10, #0
	orrs.w	r2, r0, r1
	beq	.LBB80_9
.LBB80_4:
	subs.w	r2, r8, r5
	sbcs.w	r2, r10, r4
	bhs	.LBB80_12
	lsrs	r2, r0, #3
	orr.w	r2, r2, r1, lsl #29
	subs	r3, r5, r2
	sbcs.w	r1, r4, r1, lsr #3
	blo	.LBB80_12
	ldr	r1, [sp, #16]
	add	r0, r1
	ldr	r7, [r0, #-8]
	lsls	r1, r7, #31
	beq	.LBB80_12
	ldr	r6, [r0, #-4]
	ldr	r0, [sp, #12]
	add.w	r0, r0, r2, lsl #3
	ldrd	r0, r1, [r0, #-8]
	ldrd	r2, r3, [sp, #80]
	bl	ic.remainder.divided
	eor.w	r1, r1, r9
	eor.w	r0, r0, r11
	orrs	r0, r1
	bne	.LBB80_12
	adds.w	r8, r8, #1
	adc	r10, r10, #0
	bic	r0, r7, #7
	and	r1, r6, #15
	orrs.w	r2, r0, r1
	bne	.LBB80_4
.LBB80_9:
	ldr	r1, [sp, #8]
	ldr	r2, [sp, #4]
	adds.w	r1, r1, r8
	ldr	r0, [sp, #80]
	adc.w	r2, r2, r10
	adds.w	r11, r11, #1
	adc	r9, r9, #0
	subs.w	r0, r11, r0
	ldr	r0, [sp, #84]
	ldr	r3, [sp]
	sbcs.w	r0, r9, r0
	blo	.LBB80_3
	ldr	r0, [sp, #88]
	strd	r1, r2, [r0]
	movs	r0, #0
.LBB80_11:
	add	sp, #20
	pop.w	{r4, r5, r6, r7, r8, r9, r10, r11, pc}
	.p2align	2
.LBB80_12:
	movs	r0, #5
	add	sp, #20
	pop.w	{r4, r5, r6, r7, r8, r9, r10, r11, pc}
.Lfunc_end80:
	.size	ic_hash_check, .Lfunc_end80-ic_hash_check
	.cfi_endproc
	.section	.text.ic_hash_find,"ax",%progbits
	.globl	ic_hash_find
	.p2align	2
	.type	ic_hash_find,%function
	.code	16
	.thumb_func
ic_hash_find:
	.cfi_startproc
	push.w	{r4, r5, r6, r7, r8, r9, r10, r11, lr}
	.cfi_def_cfa_offset 36
	.cfi_offset lr, -4
	.cfi_offset r11, -8
	.cfi_offset r10, -12
	.cfi_offset r9, -16
	.cfi_offset r8, -20
	.cfi_offset r7, -24
	.cfi_offset r6, -28
	.cfi_offset r5, -32
	.cfi_offset r4, -36
	sub	sp, #4
	.cfi_def_cfa_offset 40
	mov	r11, r0
	ldr	r7, [sp, #40]
	ldrd	r1, r0, [sp, #48]
	cmp.w	r11, #0
	it	eq
	addeq.w	r11, r11, #4096
	cmp	r7, #0
	it	eq
	addeq.w	r7, r7, #4096
	subs	r1, r1, r2
	sbcs	r0, r3
	mov.w	r0, #1
	blo	.LBB81_10
	mov	r8, r3
	mov	r10, r2
	ldrd	r2, r3, [sp, #64]
	orrs.w	r1, r2, r3
	beq	.LBB81_10
	ldr	r5, [sp, #56]
	ldrd	r0, r1, [sp, #72]
	cmp	r5, #0
	it	eq
	addeq.w	r5, r5, #4096
	bl	ic.remainder.divided
	add.w	r1, r5, r0, lsl #3
	ldr.w	r0, [r5, r0, lsl #3]
	ldr	r1, [r1, #4]
	bic	r3, r0, #7
	and	r0, r1, #15
	orr.w	r1, r3, r0
	clz	r1, r1
	orrs.w	r2, r10, r8
	lsr.w	r2, r1, #5
	beq	.LBB81_9
	ldrd	r9, lr, [sp, #80]
	ldr.w	r12, [sp, #88]
	mov	r5, r10
	mov	r1, r8
	.p2align	2
.LBB81_4:
	lsls	r2, r2, #31
	bne	.LBB81_12
	lsrs	r2, r3, #3
	orr.w	r2, r2, r0, lsl #29
	subs.w	r4, r10, r2
	sbcs.w	r0, r8, r0, lsr #3
	blo	.LBB81_11
	add	r3, r11
	ldr	r0, [r3, #-8]
	lsls	r4, r0, #31
	beq	.LBB81_11
	add.w	r4, r7, r2, lsl #3
	ldrd	r4, r6, [r4, #-8]
	eor.w	r6, r6, lr
	eor.w	r4, r4, r9
	orrs	r4, r6
	beq	.LBB81_13
	ldr	r2, [r3, #-4]
	bic	r3, r0, #7
	and	r0, r2, #15
	orr.w	r2, r3, r0
	subs	r5, #1
	clz	r2, r2
	sbc	r1, r1, #0
	orrs.w	r4, r5, r1
	lsr.w	r2, r2, #5
	bne	.LBB81_4
.LBB81_9:
	movs	r0, #5
	cmp	r2, #0
	it	ne
	movne	r0, #4
.LBB81_10:
	add	sp, #4
	pop.w	{r4, r5, r6, r7, r8, r9, r10, r11, pc}
	.p2align	2
.LBB81_11:
	movs	r0, #5
	add	sp, #4
	pop.w	{r4, r5, r6, r7, r8, r9, r10, r11, pc}
	.p2align	2
.LBB81_12:
	movs	r0, #4
	add	sp, #4
	pop.w	{r4, r5, r6, r7, r8, r9, r10, r11, pc}
	.p2align	2
.LBB81_13:
	subs	r0, r2, #1
	str.w	r0, [r12]
	movs	r0, #0
	add	sp, #4
	pop.w	{r4, r5, r6, r7, r8, r9, r10, r11, pc}
.Lfunc_end81:
	.size	ic_hash_find, .Lfunc_end81-ic_hash_find
	.cfi_endproc
	.section	.text.ic_hash_insert,"ax",%progbits
	.globl	ic_hash_insert
	.p2align	2
	.type	ic_hash_insert,%function
	.code	16
	.thumb_func
ic_hash_insert:
	.cfi_startproc
	push.w	{r4, r5, r6, r7, r8, r9, r10, lr}
	.cfi_def_cfa_offset 32
	.cfi_offset lr, -4
	.cfi_offset r10, -8
	.cfi_offset r9, -12
	.cfi_offset r8, -16
	.cfi_offset r7, -20
	.cfi_offset r6, -24
	.cfi_offset r5, -28
	.cfi_offset r4, -32
	mov	r8, r3
	ldrd	r4, r3, [sp, #40]
	mov	r5, r0
	cmp	r0, #0
	it	eq
	addeq.w	r5, r5, #4096
	orrs.w	r0, r4, r3
	beq	.LBB82_4
	add.w	r9, sp, #48
	ldr	r7, [sp, #32]
	ldm.w	r9, {r0, r1, r9}
	mov	r10, r2
	mov	r2, r4
	cmp	r7, #0
	it	eq
	addeq.w	r7, r7, #4096
	bl	ic.remainder.divided
	add.w	r1, r7, r0, lsl #3
	ldr.w	r2, [r7, r0, lsl #3]
	ldr	r3, [r1, #4]
	bic	r12, r2, #7
	and	r2, r3, #15
	orrs.w	r3, r12, r2
	add.w	r3, r9, #1
	beq	.LBB82_5
	lsr.w	r6, r12, #3
	orr.w	r6, r6, r2, lsl #29
	subs.w	r6, r10, r6
	sbcs.w	r6, r8, r2, lsr #3
	blo	.LBB82_9
	cmp	r3, #0
	ittt	ne
	addne.w	r6, r5, r12
	ldrne	r6, [r6, #-8]
	andsne	r6, r6, #1
	bne	.LBB82_6
	b	.LBB82_9
	.p2align	2
.LBB82_4:
	movs	r0, #1
	pop.w	{r4, r5, r6, r7, r8, r9, r10, pc}
	.p2align	2
.LBB82_5:
	cbz	r3, .LBB82_9
.LBB82_6:
	subs.w	r6, r10, r3
	sbcs	r6, r8, #0
	blo	.LBB82_9
	lsls	r4, r3, #3
	adds	r6, r5, r4
	ldrb	r1, [r6, #-8]
	lsls	r1, r1, #31
	bne	.LBB82_9
	lsls	r0, r0, #3
	lsrs	r1, r3, #29
	orr	r3, r12, #1
	strd	r3, r2, [r6, #-8]
	adds	r2, r7, r0
	str	r4, [r7, r0]
	movs	r0, #0
	str	r1, [r2, #4]
	pop.w	{r4, r5, r6, r7, r8, r9, r10, pc}
	.p2align	2
.LBB82_9:
	mov	r0, r5
	mov	r2, r10
	mov	r3, r8
	str.w	r9, [sp, #32]
	pop.w	{r4, r5, r6, r7, r8, r9, r10, lr}
	b	ic_raw.table.refusal_at_end.feecb86c9dd45d96
.Lfunc_end82:
	.size	ic_hash_insert, .Lfunc_end82-ic_hash_insert
	.cfi_endproc
	.section	.text.ic_hash_move_chain,"ax",%progbits
	.globl	ic_hash_move_chain
	.p2align	2
	.type	ic_hash_move_chain,%function
	.code	16
	.thumb_func
ic_hash_move_chain:
	.cfi_startproc
	push.w	{r4, r5, r6, r7, r8, r9, r10, r11, lr}
	.cfi_def_cfa_offset 36
	.cfi_offset lr, -4
	.cfi_offset r11, -8
	.cfi_offset r10, -12
	.cfi_offset r9, -16
	.cfi_offset r8, -20
	.cfi_offset r7, -24
	.cfi_offset r6, -28
	.cfi_offset r5, -32
	.cfi_offset r4, -36
	sub	sp, #20
	.cfi_def_cfa_offset 56
	ldr	r7, [sp, #56]
	mov	r10, r3
	ldr	r3, [sp, #76]
	cmp	r0, #0
	mov	r9, r2
	ldrd	r1, r2, [sp, #64]
	it	eq
	addeq.w	r0, r0, #4096
	cmp	r7, #0
	str	r0, [sp, #16]
	it	eq
	addeq.w	r7, r7, #4096
	cmp	r3, #0
	str	r7, [sp, #8]
	it	eq
	addeq.w	r3, r3, #4096
	subs.w	r1, r1, r9
	sbcs.w	r0, r2, r10
	mov.w	r0, #1
	str	r3, [sp, #12]
	blo.w	.LBB83_21
	ldrd	r2, r1, [sp, #80]
	orrs	r1, r2
	beq.w	.LBB83_21
	ldr	r0, [sp, #72]
	ldrd	r0, r1, [r0]
	and	r8, r1, #15
	bic	r11, r0, #7
	orrs.w	r1, r11, r8
	clz	r0, r1
	it	ne
	movne	r1, #1
	str	r1, [sp, #4]
	orrs.w	r1, r9, r10
	clz	r1, r1
	lsr.w	r0, r0, #5
	lsr.w	r3, r1, #5
	str	r3, [sp]
	beq	.LBB83_11
	cmp	r0, #0
	bne	.LBB83_11
	mov	r5, r9
	mov	r4, r10
	mov	r1, r11
	mov	r2, r8
	b	.LBB83_6
	.p2align	2
.LBB83_5:
	subs	r5, #1
	bic	r1, r6, #7
	and	r2, r7, #15
	sbc	r4, r4, #0
	orr.w	r7, r1, r2
	orrs.w	r3, r5, r4
	clz	r0, r7
	clz	r3, r3
	lsr.w	r0, r0, #5
	lsr.w	r3, r3, #5
	it	ne
	cmpne	r7, #0
	beq	.LBB83_11
.LBB83_6:
	lsrs	r0, r1, #3
	orr.w	r0, r0, r2, lsl #29
	subs.w	r0, r9, r0
	sbcs.w	r0, r10, r2, lsr #3
	blo	.LBB83_13
	ldr	r0, [sp, #16]
	add	r0, r1
	ldr	r6, [r0, #-8]
	lsls	r2, r6, #31
	beq	.LBB83_13
	ldr	r7, [r0, #-4]
	ldr	r0, [sp, #8]
	ldrd	r2, r3, [sp, #80]
	add	r0, r1
	ldrd	r0, r1, [r0, #-8]
	bl	ic.remainder.divided
	ldr	r2, [sp, #12]
	add.w	r1, r2, r0, lsl #3
	ldr.w	r0, [r2, r0, lsl #3]
	ldr	r1, [r1, #4]
	bic	r0, r0, #7
	and	r1, r1, #15
	orrs.w	r2, r0, r1
	beq	.LBB83_5
	lsrs	r2, r0, #3
	orr.w	r2, r2, r1, lsl #29
	subs.w	r2, r9, r2
	sbcs.w	r1, r10, r1, lsr #3
	blo	.LBB83_13
	ldr	r1, [sp, #16]
	add	r0, r1
	ldrb	r0, [r0, #-8]
	lsls	r0, r0, #31
	bne	.LBB83_5
	b	.LBB83_13
	.p2align	2
.LBB83_11:
	cbnz	r0, .LBB83_14
	cbz	r3, .LBB83_14
.LBB83_13:
	movs	r0, #5
	add	sp, #20
	pop.w	{r4, r5, r6, r7, r8, r9, r10, r11, pc}
	.p2align	2
.LBB83_14:
	ldr	r0, [sp, #4]
	ldr	r1, [sp]
	eor	r0, r0, #1
	orrs	r0, r1
	bne	.LBB83_20
	ldr	r0, [sp, #16]
	movs	r6, #1
	add.w	r7, r0, r11
	subs.w	r0, r9, #1
	ldrd	r3, r2, [r7, #-8]
	sbc	r1, r10, #0
	movs	r5, #0
	orrs.w	r4, r0, r1
	strd	r6, r5, [r7, #-8]
	beq	.LBB83_19
	and	r2, r2, #15
	bic	r3, r3, #7
	orrs.w	r7, r3, r2
	beq	.LBB83_19
	.p2align	2
.LBB83_17:
	orr	r6, r11, #1
	mov	r11, r3
	ldr	r3, [sp, #16]
	subs	r0, #1
	add.w	r5, r3, r11
	ldrd	r3, r7, [r5, #-8]
	sbc	r1, r1, #0
	strd	r6, r8, [r5, #-8]
	orrs.w	r6, r0, r1
	mov	r8, r2
	beq	.LBB83_19
	and	r2, r7, #15
	bic	r3, r3, #7
	orrs.w	r7, r3, r2
	bne	.LBB83_17
	.p2align	2
.LBB83_19:
	ldr	r0, [sp, #8]
	ldrd	r2, r3, [sp, #80]
	add	r0, r11
	ldrd	r0, r1, [r0, #-8]
	bl	ic.remainder.divided
	ldr	r6, [sp, #12]
	movs	r4, #1
	add.w	r3, r6, r0, lsl #3
	ldr	r1, [r3, #4]
	ldr.w	r7, [r6, r0, lsl #3]
	and	r12, r1, #15
	ldr	r1, [sp, #16]
	subs.w	r9, r9, #1
	add.w	r5, r1, r11
	bfi	r7, r4, #0, #3
	sbc	r10, r10, #0
	ldrd	r1, r2, [r5, #-8]
	strd	r7, r12, [r5, #-8]
	str.w	r11, [r6, r0, lsl #3]
	orrs.w	r0, r9, r10
	str.w	r8, [r3, #4]
	ittt	ne
	andne	r8, r2, #15
	bicne	r11, r1, #7
	orrsne.w	r0, r11, r8
	bne	.LBB83_19
.LBB83_20:
	ldr	r1, [sp, #72]
	movs	r0, #0
	strd	r0, r0, [r1]
.LBB83_21:
	add	sp, #20
	pop.w	{r4, r5, r6, r7, r8, r9, r10, r11, pc}
.Lfunc_end83:
	.size	ic_hash_move_chain, .Lfunc_end83-ic_hash_move_chain
	.cfi_endproc
	.section	.text.ic_hash_next_equal,"ax",%progbits
	.globl	ic_hash_next_equal
	.p2align	2
	.type	ic_hash_next_equal,%function
	.code	16
	.thumb_func
ic_hash_next_equal:
	.cfi_startproc
	push.w	{r4, r5, r6, r7, r8, r9, r10, r11, lr}
	.cfi_def_cfa_offset 36
	.cfi_offset lr, -4
	.cfi_offset r11, -8
	.cfi_offset r10, -12
	.cfi_offset r9, -16
	.cfi_offset r8, -20
	.cfi_offset r7, -24
	.cfi_offset r6, -28
	.cfi_offset r5, -32
	.cfi_offset r4, -36
	sub	sp, #4
	.cfi_def_cfa_offset 40
	ldr.w	r9, [sp, #40]
	ldr	r7, [sp, #56]
	cmp	r0, #0
	it	eq
	addeq.w	r0, r0, #4096
	cmp.w	r9, #0
	it	eq
	addeq.w	r9, r9, #4096
	adds	r6, r7, #1
	blo	.LBB84_2
.LBB84_1:
	movs	r0, #4
	add	sp, #4
	pop.w	{r4, r5, r6, r7, r8, r9, r10, r11, pc}
	.p2align	2
.LBB84_2:
	ldrd	r1, r5, [sp, #48]
	subs	r1, r1, r2
	sbcs.w	r1, r5, r3
	bhs	.LBB84_4
	movs	r0, #1
	add	sp, #4
	pop.w	{r4, r5, r6, r7, r8, r9, r10, r11, pc}
	.p2align	2
.LBB84_4:
	subs	r1, r2, r6
	sbcs	r1, r3, #0
	lsl.w	r12, r6, #3
	blo	.LBB84_15
	add.w	r5, r0, r12
	ldr	r4, [r5, #-8]
	lsls	r1, r4, #31
	beq	.LBB84_15
	ldr	r1, [sp, #60]
	bic	r10, r4, #7
	str	r1, [sp]
	ldr	r1, [r5, #-4]
	add.w	r5, r9, r7, lsl #3
	and	r4, r1, #15
	orr.w	r1, r10, r4
	ldr.w	lr, [r9, r7, lsl #3]
	ldr.w	r8, [r5, #4]
	clz	r1, r1
	lsrs	r1, r1, #5
	mov	r11, r2
	mov	r6, r3
	.p2align	2
.LBB84_7:
	lsls	r1, r1, #31
	bne	.LBB84_1
	lsr.w	r1, r10, #3
	orr.w	r1, r1, r4, lsl #29
	subs	r7, r2, r1
	sbcs.w	r4, r3, r4, lsr #3
	blo	.LBB84_13
	add.w	r7, r0, r10
	ldr	r4, [r7, #-8]
	lsls	r5, r4, #31
	beq	.LBB84_13
	add.w	r5, r9, r1, lsl #3
	ldrd	r10, r5, [r5, #-8]
	eor.w	r12, r5, r8
	eor.w	r5, r10, lr
	orrs.w	r5, r5, r12
	beq	.LBB84_14
	ldr	r1, [r7, #-4]
	bic	r10, r4, #7
	and	r4, r1, #15
	orr.w	r1, r10, r4
	subs.w	r11, r11, #1
	clz	r1, r1
	sbc	r6, r6, #0
	orrs.w	r7, r11, r6
	lsr.w	r1, r1, #5
	bne	.LBB84_7
	movs	r0, #5
	cmp	r1, #0
	it	ne
	movne	r0, #4
	add	sp, #4
	pop.w	{r4, r5, r6, r7, r8, r9, r10, r11, pc}
	.p2align	2
.LBB84_13:
	movs	r0, #5
	add	sp, #4
	pop.w	{r4, r5, r6, r7, r8, r9, r10, r11, pc}
	.p2align	2
.LBB84_14:
	subs	r0, r1, #1
	ldr	r1, [sp]
	str	r0, [r1]
	movs	r0, #0
	add	sp, #4
	pop.w	{r4, r5, r6, r7, r8, r9, r10, r11, pc}
	.p2align	2
.LBB84_15:
	lsrs	r1, r6, #29
	strd	r12, r1, [sp, #40]
	add	sp, #4
	pop.w	{r4, r5, r6, r7, r8, r9, r10, r11, lr}
	b	ic_raw.table.RawTable.refusal_of.feecb86c9dd45d96
.Lfunc_end84:
	.size	ic_hash_next_equal, .Lfunc_end84-ic_hash_next_equal
	.cfi_endproc
	.section	.text.ic_hash_remove,"ax",%progbits
	.globl	ic_hash_remove
	.p2align	2
	.type	ic_hash_remove,%function
	.code	16
	.thumb_func
ic_hash_remove:
	.cfi_startproc
	push.w	{r4, r5, r6, r7, r8, r9, r10, r11, lr}
	.cfi_def_cfa_offset 36
	.cfi_offset lr, -4
	.cfi_offset r11, -8
	.cfi_offset r10, -12
	.cfi_offset r9, -16
	.cfi_offset r8, -20
	.cfi_offset r7, -24
	.cfi_offset r6, -28
	.cfi_offset r5, -32
	.cfi_offset r4, -36
	sub	sp, #20
	.cfi_def_cfa_offset 56
	ldr	r4, [sp, #56]
	ldr	r1, [sp, #80]
	cmp	r0, #0
	it	eq
	addeq.w	r0, r0, #4096
	cmp	r4, #0
	it	eq
	addeq.w	r4, r4, #4096
	adds	r5, r1, #1
	blo	.LBB85_2
	movs	r0, #4
	add	sp, #20
	pop.w	{r4, r5, r6, r7, r8, r9, r10, r11, pc}
	.p2align	2
.LBB85_2:
	ldrd	lr, r12, [sp, #64]
	orrs.w	r1, lr, r12
	beq	.LBB85_9
	str	r4, [sp, #8]
	ldrd	r4, r1, [sp, #72]
	lsrs	r6, r5, #29
	lsl.w	r10, r5, #3
	mov	r11, r0
	mov	r0, r4
	mov	r4, r2
	mov	r2, lr
	mov	r5, r3
	mov	r3, r12
	bl	ic.remainder.divided
	mov	r2, r4
	mov	r3, r5
	orrs.w	r1, r4, r5
	str	r0, [sp, #4]
	mov	r0, r6
	beq	.LBB85_17
	ldr	r7, [sp, #8]
	mov	r5, r0
	ldr	r0, [sp, #4]
	add.w	r1, r7, r0, lsl #3
	ldr.w	r7, [r7, r0, lsl #3]
	ldr	r1, [r1, #4]
	bic	r0, r7, #7
	and	r6, r1, #15
	strd	r6, r0, [sp, #12]
	orrs	r6, r0
	mov	r0, r5
	beq	.LBB85_17
	lsrs	r7, r7, #3
	orr.w	r1, r7, r1, lsl #29
	ldr	r7, [sp, #12]
	subs	r1, r2, r1
	lsr.w	r7, r7, #3
	sbcs.w	r1, r3, r7
	blo	.LBB85_17
	ldr	r0, [sp, #16]
	add.w	r1, r11, r0
	ldr	r9, [r1, #-8]
	mov	r0, r5
	lsls.w	r7, r9, #31
	beq	.LBB85_17
	ldr	r0, [sp, #16]
	ldr	r6, [sp, #12]
	eor.w	r7, r0, r10
	eors	r6, r5
	orrs	r7, r6
	bne	.LBB85_10
	add.w	r2, r11, r10
	ldr	r1, [r2, #-8]!
	ldr	r3, [r2, #4]
	bic	r7, r1, #7
	and	r6, r3, #15
	b	.LBB85_19
	.p2align	2
.LBB85_9:
	movs	r0, #1
	add	sp, #20
	pop.w	{r4, r5, r6, r7, r8, r9, r10, r11, pc}
	.p2align	2
.LBB85_10:
	mov	r0, r5
	subs	r5, r2, #1
	sbc	r6, r3, #0
	orrs.w	r7, r5, r6
	beq	.LBB85_17
	ldr	r12, [r1, #-4]
	ldr.w	r8, [sp, #16]
	.p2align	2
.LBB85_12:
	bic	r7, r9, #7
	and	lr, r12, #15
	orrs.w	r1, r7, lr
	beq	.LBB85_17
	lsr.w	r1, r9, #3
	orr.w	r1, r1, r12, lsl #29
	lsr.w	r4, lr, #3
	subs	r1, r2, r1
	sbcs.w	r1, r3, r4
	blo	.LBB85_17
	add.w	r1, r11, r7
	ldr	r9, [r1, #-8]
	lsls.w	r4, r9, #31
	beq	.LBB85_17
	eor.w	r12, r7, r10
	eor.w	r4, lr, r0
	orrs.w	r4, r4, r12
	beq	.LBB85_18
	subs	r5, #1
	ldr	r12, [r1, #-4]
	sbc	r6, r6, #0
	orrs.w	r1, r5, r6
	mov	r8, r7
	bne	.LBB85_12
.LBB85_17:
	mov	r1, r0
	str.w	r10, [sp, #56]
	mov	r0, r11
	str	r1, [sp, #60]
	add	sp, #20
	pop.w	{r4, r5, r6, r7, r8, r9, r10, r11, lr}
	b	ic_raw.table.RawTable.refusal_of.feecb86c9dd45d96
	.p2align	2
.LBB85_18:
	add.w	r2, r11, r10
	ldr	r1, [r2, #-8]!
	movs	r6, #1
	ldr	r3, [r2, #4]
	add.w	r7, r11, r8
	and	r3, r3, #15
	bfi	r1, r6, #0, #3
	strd	r1, r3, [r7, #-8]
	ldrd	r6, r7, [sp, #12]
.LBB85_19:
	ldr	r0, [sp, #4]
	ldr	r3, [sp, #8]
	lsls	r1, r0, #3
	movs	r0, #0
	strd	r0, r0, [r2]
	adds	r2, r3, r1
	str	r7, [r3, r1]
	str	r6, [r2, #4]
	add	sp, #20
	pop.w	{r4, r5, r6, r7, r8, r9, r10, r11, pc}
.Lfunc_end85:
	.size	ic_hash_remove, .Lfunc_end85-ic_hash_remove
	.cfi_endproc
	.section	.text.ic_list32_append,"ax",%progbits
	.globl	ic_list32_append
	.p2align	2
	.type	ic_list32_append,%function
	.code	16
	.thumb_func
ic_list32_append:
	.cfi_startproc
	push.w	{r4, r5, r6, r7, r8, r9, r10, r11, lr}
	.cfi_def_cfa_offset 36
	.cfi_offset lr, -4
	.cfi_offset r11, -8
	.cfi_offset r10, -12
	.cfi_offset r9, -16
	.cfi_offset r8, -20
	.cfi_offset r7, -24
	.cfi_offset r6, -28
	.cfi_offset r5, -32
	.cfi_offset r4, -36
	sub	sp, #28
	.cfi_def_cfa_offset 64
	ldrd	r1, lr, [sp, #64]
	cmp	r0, #0
	ldrd	r4, r1, [r1, #8]
	mvn	r8, #-536870912
	it	eq
	addeq.w	r0, r0, #4096
	and	r5, r1, #15
	bic	r9, r4, #7
	cmp	r2, r8
	mvn	r6, #-536870912
	orr.w	r7, r9, r5
	str	r2, [sp, #20]
	it	lo
	movlo	r6, r2
	cmp	r3, #0
	str	r3, [sp, #24]
	it	ne
	movne	r6, r8
	cbz	r7, .LBB86_7
	lsrs	r4, r4, #3
	orr.w	r1, r4, r1, lsl #29
	subs	r1, r6, r1
	lsr.w	r4, r5, #3
	mov.w	r1, #0
	sbcs	r1, r4
	blo	.LBB86_7
	ldrd	r1, r4, [lr]
	and	r5, r4, #15
	bic	r4, r1, #7
	orrs.w	r1, r4, r5
	beq	.LBB86_7
	add.w	r2, r0, r9
	ldr	r1, [r2, #-8]
	cmp	r1, #1
	bne	.LBB86_7
	lsrs	r1, r4, #3
	orr.w	r1, r1, r5, lsl #29
	subs	r1, r6, r1
	lsr.w	r7, r5, #3
	mov.w	r1, #0
	sbcs	r1, r7
	blo	.LBB86_7
	add.w	r10, r0, r4
	ldr	r1, [r10, #-4]
	cbnz	r1, .LBB86_7
	ldrd	r1, r7, [lr, #8]
	and	r7, r7, #15
	bic	r12, r1, #7
	orrs.w	r1, r12, r7
	itt	ne
	ldrne	r1, [r10, #-8]
	lslsne.w	r1, r1, #31
	bne	.LBB86_8
.LBB86_7:
	ldr	r6, [sp, #64]
	ldrd	r2, r3, [sp, #20]
	movs	r1, #1
	mov.w	r7, #-1
	stm.w	sp, {r6, r7, lr}
	str	r1, [sp, #12]
	bl	ic_raw.list_calls.splice_slow.55ebd757a04f39fd
	add	sp, #28
	pop.w	{r4, r5, r6, r7, r8, r9, r10, r11, pc}
	.p2align	2
.LBB86_8:
	lsr.w	r1, r12, #3
	orr.w	r1, r1, r7, lsl #29
	subs	r1, r6, r1
	lsr.w	r3, r7, #3
	mov.w	r1, #0
	sbcs	r1, r3
	blo	.LBB86_7
	ldr	r1, [sp, #64]
	ldrd	r1, r3, [r1]
	and	r11, r3, #15
	bic	r6, r1, #7
	eor.w	r1, r6, r4
	eor.w	r3, r11, r5
	orrs	r1, r3
	beq	.LBB86_7
	add.w	r5, r0, r12
	ldr	r1, [r5, #-8]
	cmp	r1, #1
	bne	.LBB86_7
	orr	r0, r4, #1
	str	r0, [r2, #-8]
	movs	r0, #1
	str	r9, [r10, #-4]
	str	r0, [r5, #-8]
	ldr	r0, [sp, #64]
	movs	r1, #0
	str.w	r11, [r0, #4]
	str	r6, [r0]
	str	r7, [r0, #12]
	str.w	r12, [r0, #8]
	str.w	r1, [lr, #12]
	str.w	r1, [lr, #8]
	str.w	r1, [lr, #4]
	movs	r0, #0
	str.w	r1, [lr]
	add	sp, #28
	pop.w	{r4, r5, r6, r7, r8, r9, r10, r11, pc}
.Lfunc_end86:
	.size	ic_list32_append, .Lfunc_end86-ic_list32_append
	.cfi_endproc
	.section	.text.ic_list32_check,"ax",%progbits
	.globl	ic_list32_check
	.p2align	2
	.type	ic_list32_check,%function
	.code	16
	.thumb_func
ic_list32_check:
	.cfi_startproc
	push.w	{r4, r5, r6, r7, r8, r9, r10, r11, lr}
	.cfi_def_cfa_offset 36
	.cfi_offset lr, -4
	.cfi_offset r11, -8
	.cfi_offset r10, -12
	.cfi_offset r9, -16
	.cfi_offset r8, -20
	.cfi_offset r7, -24
	.cfi_offset r6, -28
	.cfi_offset r5, -32
	.cfi_offset r4, -36
	ldr	r1, [sp, #36]
	cmp	r0, #0
	it	eq
	addeq.w	r0, r0, #4096
	ldm.w	r1, {r4, r5, r12, lr}
	and	r9, r5, #15
	bic	r6, r4, #7
	orrs.w	r1, r6, r9
	beq	.LBB87_7
	mvn	r1, #-536870912
	cmp	r2, r1
	it	hs
	movhs	r2, r1
	cmp	r3, #0
	it	ne
	movne	r2, r1
	mov.w	r8, #0
	mov.w	r10, #0
	mov.w	r11, #0
	movs	r1, #0
	.p2align	2
.LBB87_2:
	subs.w	r5, r11, r2
	sbcs	r5, r1, #0
	bhs	.LBB87_10
	mov	r5, r6
	lsrs	r6, r6, #3
	orr.w	r6, r6, r9, lsl #29
	subs	r6, r2, r6
	mov.w	r6, #0
	mov	r4, r9
	sbcs.w	r6, r6, r9, lsr #3
	blo	.LBB87_10
	adds	r7, r0, r5
	ldr	r6, [r7, #-8]
	lsls	r3, r6, #31
	beq	.LBB87_10
	ldr	r3, [r7, #-4]
	bic	r3, r3, #7
	eor.w	r3, r3, r8
	orrs.w	r3, r3, r10
	bne	.LBB87_10
	bic	r6, r6, #7
	adds.w	r11, r11, #1
	mov.w	r9, #0
	adc	r1, r1, #0
	cmp	r6, #0
	mov	r8, r5
	mov	r10, r4
	bne	.LBB87_2
	b	.LBB87_8
	.p2align	2
.LBB87_7:
	mov.w	r11, #0
	movs	r1, #0
	movs	r5, #0
	movs	r4, #0
.LBB87_8:
	and	r0, lr, #15
	bic	r2, r12, #7
	eors	r2, r5
	eors	r0, r4
	orrs	r0, r2
	bne	.LBB87_10
	ldr	r0, [sp, #40]
	strd	r11, r1, [r0]
	movs	r0, #0
	pop.w	{r4, r5, r6, r7, r8, r9, r10, r11, pc}
	.p2align	2
.LBB87_10:
	movs	r0, #5
	pop.w	{r4, r5, r6, r7, r8, r9, r10, r11, pc}
.Lfunc_end87:
	.size	ic_list32_check, .Lfunc_end87-ic_list32_check
	.cfi_endproc
	.section	.text.ic_list32_clear,"ax",%progbits
	.globl	ic_list32_clear
	.p2align	2
	.type	ic_list32_clear,%function
	.code	16
	.thumb_func
ic_list32_clear:
	.cfi_startproc
	push.w	{r4, r5, r6, r7, r8, r9, r10, r11, lr}
	.cfi_def_cfa_offset 36
	.cfi_offset lr, -4
	.cfi_offset r11, -8
	.cfi_offset r10, -12
	.cfi_offset r9, -16
	.cfi_offset r8, -20
	.cfi_offset r7, -24
	.cfi_offset r6, -28
	.cfi_offset r5, -32
	.cfi_offset r4, -36
	sub	sp, #8
	.cfi_def_cfa_offset 44
	ldr	r4, [sp, #44]
	cmp	r0, #0
	it	eq
	addeq.w	r0, r0, #4096
	ldrd	r7, r1, [r4]
	ldrd	r6, r5, [r4, #8]
	and	r12, r1, #15
	bic	r10, r7, #7
	and	r1, r5, #15
	orrs.w	r7, r10, r12
	bic	r6, r6, #7
	beq	.LBB88_8
	mvn	r7, #-536870912
	cmp	r2, r7
	mvn	r11, #-536870912
	it	lo
	movlo	r11, r2
	cmp	r3, #0
	it	ne
	movne	r11, r7
	orrs	r2, r3
	beq	.LBB88_9
	strd	r6, r1, [sp]
	movs	r2, #0
	mov.w	r9, #0
	movs	r5, #0
	movs	r4, #0
	mov	r3, r10
	mov	r6, r11
	.p2align	2
.LBB88_3:
	lsrs	r7, r3, #3
	orr.w	r7, r7, r12, lsl #29
	subs.w	r7, r11, r7
	sbcs.w	r7, r9, r12, lsr #3
	blo	.LBB88_9
	add.w	lr, r0, r3
	ldr	r7, [lr, #-8]
	lsls.w	r8, r7, #31
	beq	.LBB88_9
	ldr	r1, [lr, #-4]
	bic	r1, r1, #7
	eors	r1, r5
	orrs	r1, r4
	bne	.LBB88_9
	bics	r7, r7, #7
	beq	.LBB88_10
	subs	r6, #1
	sbc	r2, r2, #0
	orrs.w	r5, r6, r2
	mov	r5, r3
	mov	r4, r12
	mov	r3, r7
	mov.w	r12, #0
	bne	.LBB88_3
	b	.LBB88_9
	.p2align	2
.LBB88_8:
	orrs.w	r0, r6, r1
	beq	.LBB88_16
.LBB88_9:
	movs	r0, #5
	add	sp, #8
	pop.w	{r4, r5, r6, r7, r8, r9, r10, r11, pc}
	.p2align	2
.LBB88_10:
	ldr	r1, [sp]
	ldr	r2, [sp, #4]
	eors	r1, r3
	eor.w	r2, r2, r12
	orrs	r1, r2
	bne	.LBB88_9
	ldr	r4, [sp, #44]
	.p2align	2
.LBB88_12:
	add.w	r3, r0, r10
	ldr	r1, [r3, #-8]
	bics	r2, r1, #7
	mov.w	r1, #0
	str	r1, [r3, #-8]
	beq	.LBB88_16
	adds	r3, r0, r2
	ldr	r2, [r3, #-8]
	str	r1, [r3, #-8]
	bics	r2, r2, #7
	beq	.LBB88_16
	adds	r3, r0, r2
	ldr	r1, [r3, #-8]
	bics	r2, r1, #7
	mov.w	r1, #0
	str	r1, [r3, #-8]
	beq	.LBB88_16
	add	r2, r0
	ldr	r3, [r2, #-8]
	str	r1, [r2, #-8]
	bics	r10, r3, #7
	bne	.LBB88_12
.LBB88_16:
	movs	r0, #0
	str	r0, [r4, #12]
	str	r0, [r4, #8]
	str	r0, [r4, #4]
	str	r0, [r4]
	add	sp, #8
	pop.w	{r4, r5, r6, r7, r8, r9, r10, r11, pc}
.Lfunc_end88:
	.size	ic_list32_clear, .Lfunc_end88-ic_list32_clear
	.cfi_endproc
	.section	.text.ic_list32_insert_after,"ax",%progbits
	.globl	ic_list32_insert_after
	.p2align	2
	.type	ic_list32_insert_after,%function
	.code	16
	.thumb_func
ic_list32_insert_after:
	.cfi_startproc
	push.w	{r4, r5, r6, r7, r8, r9, r10, r11, lr}
	.cfi_def_cfa_offset 36
	.cfi_offset lr, -4
	.cfi_offset r11, -8
	.cfi_offset r10, -12
	.cfi_offset r9, -16
	.cfi_offset r8, -20
	.cfi_offset r7, -24
	.cfi_offset r6, -28
	.cfi_offset r5, -32
	.cfi_offset r4, -36
	sub	sp, #24
	.cfi_def_cfa_offset 60
	ldrd	r8, r1, [sp, #60]
	ldr.w	r12, [sp, #68]
	cmp	r0, #0
	it	eq
	addeq.w	r0, r0, #4096
	ldrd	r7, r6, [r8]
	ldrd	r5, r4, [r8, #8]
	and	r10, r6, #15
	bic	r6, r5, #7
	adds	r5, r1, #1
	bic	lr, r7, #7
	and	r4, r4, #15
	lsl.w	r11, r5, #3
	str	r1, [sp]
	strd	r4, r6, [sp, #12]
	strd	lr, r10, [sp, #4]
	blo	.LBB89_3
	orrs.w	r7, lr, r10
	beq	.LBB89_9
	mvn	r6, #-536870912
	mvn	r7, #-536870912
	cmp	r2, r6
	it	lo
	movlo	r7, r2
	mov	r1, r12
	cmp	r3, #0
	it	ne
	movne	r7, r6
	b	.LBB89_6
	.p2align	2
.LBB89_3:
	mvn	r6, #-536870912
	cmp	r2, r6
	mvn	r7, #-536870912
	it	lo
	movlo	r7, r2
	cmp	r3, #0
	it	ne
	movne	r7, r6
	movs	r6, #0
	subs	r4, r7, r5
	sbcs	r6, r6, #0
	mov	r1, r12
	blo.w	.LBB89_20
	add.w	r6, r0, r11
	ldr	r6, [r6, #-8]
	lsls	r4, r6, #31
	beq	.LBB89_20
	bics	lr, r6, #7
	mov.w	r10, #0
	beq	.LBB89_10
.LBB89_6:
	lsr.w	r4, lr, #3
	orr.w	r4, r4, r10, lsl #29
	subs	r7, r7, r4
	mov.w	r7, #0
	sbcs.w	r7, r7, r10, lsr #3
	blo	.LBB89_20
	add.w	r7, r0, lr
	ldrb	r4, [r7, #-8]
	lsls	r4, r4, #31
	beq	.LBB89_20
	ldr	r7, [r7, #-4]
	movs	r6, #0
	bic	r7, r7, #7
	mov.w	r10, #1
	movs	r4, #0
	str	r6, [sp, #20]
	b	.LBB89_11
	.p2align	2
.LBB89_9:
	movs	r1, #1
	mov.w	r10, #0
	str	r1, [sp, #20]
	mov.w	lr, #0
	mov	r7, r6
	mov	r1, r12
	b	.LBB89_11
	.p2align	2
.LBB89_10:
	movs	r7, #1
	str	r7, [sp, #20]
	ldrd	r4, r7, [sp, #12]
	mov.w	lr, #0
.LBB89_11:
	lsrs	r6, r5, #29
	eor.w	r7, r7, r11
	eors	r6, r4
	orrs	r7, r6
	bne	.LBB89_20
	mvn	r6, #-536870912
	cmp	r2, r6
	mvn	r7, #-536870912
	add.w	r9, r1, #1
	it	lo
	movlo	r7, r2
	cmp	r3, #0
	it	ne
	movne	r7, r6
	cmp.w	r9, #0
	beq	.LBB89_20
	cmp	r7, r9
	blo	.LBB89_20
	lsl.w	r7, r9, #3
	add.w	r12, r0, r7
	ldrb	r4, [r12, #-8]
	lsls	r4, r4, #31
	bne	.LBB89_20
	lsr.w	r3, r9, #29
	cmp	r5, #0
	mov	r2, r7
	mov	r5, r3
	beq	.LBB89_17
	add.w	r2, r0, r11
	orr	r4, r7, #1
	str	r4, [r2, #-8]
	ldrd	r2, r5, [sp, #4]
.LBB89_17:
	cmp.w	r10, #0
	beq	.LBB89_19
	add	r0, lr
	str	r7, [r0, #-4]
	ldrd	r3, r7, [sp, #12]
.LBB89_19:
	ldr	r1, [sp, #20]
	add.w	r0, lr, #1
	cmp	r1, #0
	it	ne
	movne	r0, #1
	strd	r0, r11, [r12, #-8]
	str.w	r5, [r8, #4]
	str.w	r2, [r8]
	str.w	r3, [r8, #12]
	movs	r0, #0
	str.w	r7, [r8, #8]
	add	sp, #24
	pop.w	{r4, r5, r6, r7, r8, r9, r10, r11, pc}
	.p2align	2
.LBB89_20:
	str	r1, [sp, #64]
	ldr	r1, [sp]
	str	r1, [sp, #60]
	add	sp, #24
	pop.w	{r4, r5, r6, r7, r8, r9, r10, r11, lr}
	b	ic_raw.table.RawTable.refusal.05a19227735374d3
.Lfunc_end89:
	.size	ic_list32_insert_after, .Lfunc_end89-ic_list32_insert_after
	.cfi_endproc
	.section	.text.ic_list32_insert_before,"ax",%progbits
	.globl	ic_list32_insert_before
	.p2align	2
	.type	ic_list32_insert_before,%function
	.code	16
	.thumb_func
ic_list32_insert_before:
	.cfi_startproc
	push.w	{r4, r5, r6, r7, r8, r9, r10, r11, lr}
	.cfi_def_cfa_offset 36
	.cfi_offset lr, -4
	.cfi_offset r11, -8
	.cfi_offset r10, -12
	.cfi_offset r9, -16
	.cfi_offset r8, -20
	.cfi_offset r7, -24
	.cfi_offset r6, -28
	.cfi_offset r5, -32
	.cfi_offset r4, -36
	sub	sp, #16
	.cfi_def_cfa_offset 52
	ldr	r1, [sp, #60]
	cmp	r0, #0
	str	r1, [sp, #12]
	ldrd	r1, r5, [sp, #52]
	it	eq
	addeq.w	r0, r0, #4096
	ldrd	r6, r4, [r1, #8]
	mov	r9, r2
	ldrd	r2, r7, [r1]
	and	lr, r4, #15
	adds	r4, r5, #1
	and	r7, r7, #15
	bic	r2, r2, #7
	bic	r12, r6, #7
	lsr.w	r8, r4, #29
	lsl.w	r10, r4, #3
	str	r7, [sp, #4]
	str	r2, [sp, #8]
	str	r5, [sp]
	blo	.LBB90_3
	orrs.w	r2, r12, lr
	beq	.LBB90_10
	mvn	r2, #-536870912
	mvn	r6, #-536870912
	cmp	r9, r2
	it	lo
	movlo	r6, r9
	cmp	r3, #0
	it	ne
	movne	r6, r2
	mov	r7, r12
	mov	r2, lr
	b	.LBB90_7
	.p2align	2
.LBB90_3:
	mvn	r2, #-536870912
	cmp	r9, r2
	mvn	r6, #-536870912
	it	lo
	movlo	r6, r9
	cmp	r3, #0
	it	ne
	movne	r6, r2
	movs	r2, #0
	subs	r7, r6, r4
	sbcs	r2, r2, #0
	blo	.LBB90_18
	add.w	r2, r0, r10
	ldrb	r7, [r2, #-8]
	lsls	r7, r7, #31
	beq	.LBB90_18
	ldr	r2, [r2, #-4]
	bics	r7, r2, #7
	beq	.LBB90_10
	movs	r2, #0
.LBB90_7:
	lsrs	r5, r7, #3
	orr.w	r5, r5, r2, lsl #29
	subs	r5, r6, r5
	mov.w	r5, #0
	sbcs.w	r2, r5, r2, lsr #3
	blo	.LBB90_18
	adds	r2, r0, r7
	ldr	r2, [r2, #-8]
	orr	r5, r10, #1
	bic	r2, r2, #6
	eors	r2, r5
	orrs.w	r2, r2, r8
	bne	.LBB90_18
	mov.w	r11, #0
	b	.LBB90_12
	.p2align	2
.LBB90_10:
	ldr	r2, [sp, #8]
	ldr	r5, [sp, #4]
	eor.w	r2, r2, r10
	eor.w	r5, r5, r8
	orrs	r2, r5
	bne	.LBB90_18
	ldr.w	r10, [sp, #8]
	movs	r7, #0
	mov.w	r11, #1
.LBB90_12:
	ldr	r2, [sp, #12]
	mvn	r5, #-536870912
	adds	r6, r2, #1
	cmp	r9, r5
	mvn	r2, #-536870912
	it	lo
	movlo	r2, r9
	cmp	r3, #0
	it	ne
	movne	r2, r5
	cbz	r6, .LBB90_18
	cmp	r2, r6
	blo	.LBB90_18
	lsls	r2, r6, #3
	add.w	r8, r0, r2
	ldrb	r5, [r8, #-8]
	lsls	r5, r5, #31
	bne	.LBB90_18
	lsrs	r3, r6, #29
	cmp.w	r11, #0
	mov	r5, r2
	mov	r6, r3
	bne	.LBB90_17
	adds	r5, r0, r7
	orr	r6, r2, #1
	str	r6, [r5, #-8]
	ldrd	r6, r5, [sp, #4]
.LBB90_17:
	cmp	r4, #0
	ittee	eq
	moveq	r12, r2
	moveq	lr, r3
	addne	r0, r10
	strne	r2, [r0, #-4]
	cmp.w	r11, #0
	add.w	r0, r10, #1
	it	ne
	movne	r7, #0
	cmp	r4, #0
	it	eq
	moveq	r0, #1
	strd	r0, r7, [r8, #-8]
	str	r6, [r1, #4]
	str	r5, [r1]
	str.w	lr, [r1, #12]
	movs	r0, #0
	str.w	r12, [r1, #8]
	add	sp, #16
	pop.w	{r4, r5, r6, r7, r8, r9, r10, r11, pc}
	.p2align	2
.LBB90_18:
	ldr	r1, [sp, #12]
	mov	r2, r9
	str	r1, [sp, #56]
	ldr	r1, [sp]
	str	r1, [sp, #52]
	add	sp, #16
	pop.w	{r4, r5, r6, r7, r8, r9, r10, r11, lr}
	b	ic_raw.table.RawTable.refusal.05a19227735374d3
.Lfunc_end90:
	.size	ic_list32_insert_before, .Lfunc_end90-ic_list32_insert_before
	.cfi_endproc
	.section	.text.ic_list32_move_after,"ax",%progbits
	.globl	ic_list32_move_after
	.p2align	2
	.type	ic_list32_move_after,%function
	.code	16
	.thumb_func
ic_list32_move_after:
	.cfi_startproc
	push.w	{r4, r5, r6, r7, r8, r9, r10, r11, lr}
	.cfi_def_cfa_offset 36
	.cfi_offset lr, -4
	.cfi_offset r11, -8
	.cfi_offset r10, -12
	.cfi_offset r9, -16
	.cfi_offset r8, -20
	.cfi_offset r7, -24
	.cfi_offset r6, -28
	.cfi_offset r5, -32
	.cfi_offset r4, -36
	sub	sp, #28
	.cfi_def_cfa_offset 64
	ldr	r1, [sp, #72]
	cmp	r0, #0
	it	eq
	addeq.w	r0, r0, #4096
	adds	r7, r1, #1
	blo	.LBB91_2
	movs	r0, #4
	add	sp, #28
	pop.w	{r4, r5, r6, r7, r8, r9, r10, r11, pc}
	.p2align	2
.LBB91_2:
	mvn	r1, #-536870912
	cmp	r2, r1
	mvn	r5, #-536870912
	it	lo
	movlo	r5, r2
	cmp	r3, #0
	it	ne
	movne	r5, r1
	movs	r6, #0
	subs	r1, r5, r7
	sbcs	r1, r6, #0
	blo	.LBB91_13
	lsl.w	r12, r7, #3
	add.w	lr, r0, r12
	ldr	r6, [lr, #-8]
	lsls	r4, r6, #31
	beq	.LBB91_13
	ldr	r4, [lr, #-4]
	bics	r1, r4, #7
	str	r1, [sp, #24]
	beq	.LBB91_13
	bics	r1, r6, #7
	str	r1, [sp, #20]
	beq	.LBB91_13
	lsrs	r4, r4, #3
	subs	r4, r2, r4
	sbcs	r4, r3, #0
	blo	.LBB91_13
	ldr	r1, [sp, #24]
	lsr.w	r8, r7, #29
	add	r1, r0
	ldr	r7, [r1, #-8]
	orr	r4, r12, #1
	eors	r7, r4
	orrs.w	r7, r7, r8
	str	r1, [sp, #16]
	bne	.LBB91_13
	lsrs	r7, r6, #3
	subs	r7, r2, r7
	sbcs	r7, r3, #0
	blo	.LBB91_13
	ldr	r1, [sp, #20]
	adds	r7, r0, r1
	ldr	r6, [r7, #-4]
	eor.w	r6, r6, r12
	orrs.w	r6, r6, r8
	bne	.LBB91_13
	ldr	r1, [sp, #68]
	adds.w	r11, r1, #1
	itt	ne
	ldrne	r6, [r7, #-8]
	lslsne.w	r6, r6, #31
	beq	.LBB91_13
	cmp	r5, r11
	blo	.LBB91_13
	lsl.w	r9, r11, #3
	add.w	r1, r0, r9
	ldr	r4, [r1, #-8]
	lsls	r6, r4, #31
	it	ne
	bicsne	r10, r4, #7
	bne	.LBB91_14
.LBB91_13:
	ldr	r1, [sp, #64]
	str	r1, [sp]
	movs	r1, #0
	str	r1, [sp, #4]
	ldr	r1, [sp, #68]
	str	r1, [sp, #8]
	ldr	r1, [sp, #72]
	str	r1, [sp, #12]
	bl	ic_raw.move_calls.move_slow.55ebd757a04f39fd
	add	sp, #28
	pop.w	{r4, r5, r6, r7, r8, r9, r10, r11, pc}
	.p2align	2
.LBB91_14:
	lsrs	r4, r4, #3
	cmp	r4, r5
	bhi	.LBB91_13
	add.w	r5, r0, r10
	ldr	r4, [r5, #-4]
	lsr.w	r6, r11, #29
	eor.w	r4, r4, r9
	orrs	r4, r6
	bne	.LBB91_13
	ldr	r4, [r5, #-8]
	lsls	r4, r4, #31
	beq	.LBB91_13
	eor.w	r0, r9, r12
	eor.w	r2, r6, r8
	orrs	r0, r2
	mov.w	r0, #0
	itt	ne
	eorne.w	r2, r12, r10
	orrsne.w	r2, r2, r8
	bne	.LBB91_19
	add	sp, #28
	pop.w	{r4, r5, r6, r7, r8, r9, r10, r11, pc}
	.p2align	2
.LBB91_19:
	ldr	r3, [sp, #64]
	ldm.w	r3, {r0, r2, r6}
	and	r11, r2, #15
	bic	r8, r0, #7
	bic	r0, r6, #7
	ldr	r6, [sp, #20]
	ldr	r2, [sp, #16]
	orr	r6, r6, #1
	ldr	r4, [r3, #12]
	str	r6, [r2, #-8]
	ldr	r6, [sp, #24]
	and	r4, r4, #15
	str	r6, [r7, #-4]
	orr	r6, r12, #1
	str	r6, [r1, #-8]
	orr	r1, r10, #1
	str	r12, [r5, #-4]
	strd	r1, r9, [lr, #-8]
	str	r0, [r3, #8]
	movs	r0, #0
	str.w	r11, [r3, #4]
	str.w	r8, [r3]
	str	r4, [r3, #12]
	add	sp, #28
	pop.w	{r4, r5, r6, r7, r8, r9, r10, r11, pc}
.Lfunc_end91:
	.size	ic_list32_move_after, .Lfunc_end91-ic_list32_move_after
	.cfi_endproc
	.section	.text.ic_list32_move_before,"ax",%progbits
	.globl	ic_list32_move_before
	.p2align	2
	.type	ic_list32_move_before,%function
	.code	16
	.thumb_func
ic_list32_move_before:
	.cfi_startproc
	push.w	{r4, r5, r6, r7, r8, r9, r10, r11, lr}
	.cfi_def_cfa_offset 36
	.cfi_offset lr, -4
	.cfi_offset r11, -8
	.cfi_offset r10, -12
	.cfi_offset r9, -16
	.cfi_offset r8, -20
	.cfi_offset r7, -24
	.cfi_offset r6, -28
	.cfi_offset r5, -32
	.cfi_offset r4, -36
	sub	sp, #28
	.cfi_def_cfa_offset 64
	ldr	r1, [sp, #72]
	cmp	r0, #0
	it	eq
	addeq.w	r0, r0, #4096
	adds	r6, r1, #1
	blo	.LBB92_2
	movs	r0, #4
	add	sp, #28
	pop.w	{r4, r5, r6, r7, r8, r9, r10, r11, pc}
	.p2align	2
.LBB92_2:
	mvn	r1, #-536870912
	cmp	r2, r1
	mvn	r7, #-536870912
	it	lo
	movlo	r7, r2
	cmp	r3, #0
	it	ne
	movne	r7, r1
	movs	r1, #0
	subs	r5, r7, r6
	sbcs	r1, r1, #0
	blo	.LBB92_13
	lsl.w	r11, r6, #3
	add.w	lr, r0, r11
	ldr	r5, [lr, #-8]
	lsls	r4, r5, #31
	beq	.LBB92_13
	ldr	r4, [lr, #-4]
	bics	r1, r4, #7
	str	r1, [sp, #24]
	beq	.LBB92_13
	bics	r1, r5, #7
	str	r1, [sp, #20]
	beq	.LBB92_13
	lsrs	r4, r4, #3
	subs	r4, r2, r4
	sbcs	r4, r3, #0
	blo	.LBB92_13
	ldr	r1, [sp, #24]
	lsrs	r4, r6, #29
	add	r1, r0
	ldr	r6, [r1, #-8]
	str	r1, [sp, #16]
	orr	r1, r11, #1
	eors	r1, r6
	orrs	r1, r4
	bne	.LBB92_13
	lsrs	r1, r5, #3
	subs	r1, r2, r1
	sbcs	r1, r3, #0
	blo	.LBB92_13
	ldr	r1, [sp, #20]
	adds	r5, r0, r1
	ldr	r1, [r5, #-4]
	eor.w	r1, r1, r11
	orrs	r1, r4
	bne	.LBB92_13
	ldr	r1, [sp, #68]
	adds.w	r10, r1, #1
	itt	ne
	ldrne	r1, [r5, #-8]
	lslsne.w	r1, r1, #31
	beq	.LBB92_13
	cmp	r7, r10
	blo	.LBB92_13
	lsl.w	r8, r10, #3
	add.w	r12, r0, r8
	ldrb	r1, [r12, #-8]
	lsls	r1, r1, #31
	itt	ne
	ldrne	r6, [r12, #-4]
	bicsne	r9, r6, #7
	bne	.LBB92_14
.LBB92_13:
	ldr	r7, [sp, #64]
	movs	r1, #1
	strd	r7, r1, [sp]
	ldr	r1, [sp, #68]
	str	r1, [sp, #8]
	ldr	r1, [sp, #72]
	str	r1, [sp, #12]
	bl	ic_raw.move_calls.move_slow.55ebd757a04f39fd
	add	sp, #28
	pop.w	{r4, r5, r6, r7, r8, r9, r10, r11, pc}
	.p2align	2
.LBB92_14:
	lsrs	r1, r6, #3
	cmp	r1, r7
	bhi	.LBB92_13
	lsr.w	r6, r10, #29
	add.w	r10, r0, r9
	ldr	r1, [r10, #-8]
	orr	r7, r8, #1
	eors	r1, r7
	orrs	r1, r6
	bne	.LBB92_13
	eor.w	r0, r11, r9
	orrs	r0, r4
	mov.w	r0, #0
	ittt	ne
	eorne.w	r1, r8, r11
	eorne.w	r2, r6, r4
	orrsne.w	r1, r1, r2
	bne	.LBB92_18
	add	sp, #28
	pop.w	{r4, r5, r6, r7, r8, r9, r10, r11, pc}
	.p2align	2
.LBB92_18:
	ldr	r4, [sp, #20]
	ldr	r6, [sp, #64]
	ldr	r7, [sp, #16]
	orr	r4, r4, #1
	ldm.w	r6, {r0, r1, r2, r3}
	str	r4, [r7, #-8]
	ldr	r4, [sp, #24]
	bic	r0, r0, #7
	str	r4, [r5, #-4]
	orr	r4, r11, #1
	orr	r7, r8, #1
	and	r1, r1, #15
	and	r3, r3, #15
	bic	r2, r2, #7
	str	r4, [r10, #-8]
	str	r11, [r12, #-4]
	strd	r7, r9, [lr, #-8]
	str	r0, [r6]
	movs	r0, #0
	str	r1, [r6, #4]
	str	r3, [r6, #12]
	str	r2, [r6, #8]
	add	sp, #28
	pop.w	{r4, r5, r6, r7, r8, r9, r10, r11, pc}
.Lfunc_end92:
	.size	ic_list32_move_before, .Lfunc_end92-ic_list32_move_before
	.cfi_endproc
	.section	.text.ic_list32_move_to_back,"ax",%progbits
	.globl	ic_list32_move_to_back
	.p2align	2
	.type	ic_list32_move_to_back,%function
	.code	16
	.thumb_func
ic_list32_move_to_back:
	.cfi_startproc
	push.w	{r4, r5, r6, r7, r8, r9, r10, r11, lr}
	.cfi_def_cfa_offset 36
	.cfi_offset lr, -4
	.cfi_offset r11, -8
	.cfi_offset r10, -12
	.cfi_offset r9, -16
	.cfi_offset r8, -20
	.cfi_offset r7, -24
	.cfi_offset r6, -28
	.cfi_offset r5, -32
	.cfi_offset r4, -36
	sub	sp, #28
	.cfi_def_cfa_offset 64
	ldr.w	lr, [sp, #68]
	cmp	r0, #0
	it	eq
	addeq.w	r0, r0, #4096
	adds.w	r1, lr, #1
	blo	.LBB93_2
	movs	r0, #4
	add	sp, #28
	pop.w	{r4, r5, r6, r7, r8, r9, r10, r11, pc}
	.p2align	2
.LBB93_2:
	mvn	r4, #-536870912
	cmp	r2, r4
	mvn	r7, #-536870912
	it	lo
	movlo	r7, r2
	cmp	r3, #0
	ldr.w	r12, [sp, #64]
	it	ne
	movne	r7, r4
	movs	r4, #0
	subs	r5, r7, r1
	sbcs	r4, r4, #0
	blo	.LBB93_16
	lsls	r4, r1, #3
	add.w	r8, r0, r4
	lsr.w	r11, r1, #29
	ldrd	r1, r5, [r12, #8]
	ldr	r6, [r8, #-8]
	and	r10, r5, #15
	lsls	r5, r6, #31
	bic	r9, r1, #7
	itt	ne
	ldrne	r1, [r8, #-4]
	bicsne	r5, r1, #7
	bne	.LBB93_10
.LBB93_4:
	eor.w	r1, r9, r4
	eor.w	r5, r10, r11
	orrs	r1, r5
	bne	.LBB93_16
	cmp	r6, #1
	bne	.LBB93_16
	ldr	r5, [r8, #-4]
	bics	r1, r5, #7
	beq	.LBB93_16
	subs.w	r5, r2, r5, lsr #3
	sbcs	r5, r3, #0
	blo	.LBB93_16
	add	r1, r0
	ldr	r1, [r1, #-8]
	orr	r4, r4, #1
	eors	r1, r4
	orrs.w	r1, r1, r11
	bne	.LBB93_16
	movs	r0, #0
	add	sp, #28
	pop.w	{r4, r5, r6, r7, r8, r9, r10, r11, pc}
	.p2align	2
.LBB93_10:
	bics	r12, r6, #7
	str.w	r12, [sp, #24]
	ldr.w	r12, [sp, #64]
	beq	.LBB93_4
	lsrs	r1, r1, #3
	subs	r1, r2, r1
	sbcs	r1, r3, #0
	blo	.LBB93_4
	adds	r1, r0, r5
	str	r1, [sp, #16]
	ldr	r1, [r1, #-8]
	str	r5, [sp, #20]
	orr	r5, r4, #1
	eors	r1, r5
	orrs.w	r1, r1, r11
	bne	.LBB93_16
	lsrs	r1, r6, #3
	subs	r1, r2, r1
	sbcs	r1, r3, #0
	blo	.LBB93_16
	ldr	r1, [sp, #24]
	adds	r6, r0, r1
	ldr	r1, [r6, #-4]
	eors	r1, r4
	orrs.w	r1, r1, r11
	bne	.LBB93_16
	ldr	r1, [r6, #-8]
	lsls	r1, r1, #31
	it	ne
	orrsne.w	r1, r9, r10
	bne	.LBB93_17
.LBB93_16:
	movs	r1, #1
	strd	r12, r1, [sp]
	str.w	lr, [sp, #8]
	bl	ic_raw.move_calls.move_to_end_slow.55ebd757a04f39fd
	add	sp, #28
	pop.w	{r4, r5, r6, r7, r8, r9, r10, r11, pc}
	.p2align	2
.LBB93_17:
	lsr.w	r1, r9, #3
	orr.w	r1, r1, r10, lsl #29
	subs	r1, r7, r1
	lsr.w	r5, r10, #3
	mov.w	r1, #0
	sbcs	r1, r5
	blo	.LBB93_16
	add.w	r1, r0, r9
	ldr	r5, [r1, #-8]
	cmp	r5, #1
	bne	.LBB93_16
	ldr	r3, [sp, #24]
	ldr	r7, [sp, #16]
	orr	r3, r3, #1
	ldrd	r0, r2, [r12]
	str	r3, [r7, #-8]
	ldr	r3, [sp, #20]
	and	r2, r2, #15
	str	r3, [r6, #-4]
	orr	r3, r4, #1
	bic	r0, r0, #7
	str	r3, [r1, #-8]
	movs	r1, #1
	strd	r1, r9, [r8, #-8]
	str.w	r2, [r12, #4]
	str.w	r0, [r12]
	str.w	r11, [r12, #12]
	str.w	r4, [r12, #8]
	movs	r0, #0
	add	sp, #28
	pop.w	{r4, r5, r6, r7, r8, r9, r10, r11, pc}
.Lfunc_end93:
	.size	ic_list32_move_to_back, .Lfunc_end93-ic_list32_move_to_back
	.cfi_endproc
	.section	.text.ic_list32_move_to_front,"ax",%progbits
	.globl	ic_list32_move_to_front
	.p2align	2
	.type	ic_list32_move_to_front,%function
	.code	16
	.thumb_func
ic_list32_move_to_front:
	.cfi_startproc
	push.w	{r4, r5, r6, r7, r8, r9, r10, r11, lr}
	.cfi_def_cfa_offset 36
	.cfi_offset lr, -4
	.cfi_offset r11, -8
	.cfi_offset r10, -12
	.cfi_offset r9, -16
	.cfi_offset r8, -20
	.cfi_offset r7, -24
	.cfi_offset r6, -28
	.cfi_offset r5, -32
	.cfi_offset r4, -36
	sub	sp, #20
	.cfi_def_cfa_offset 56
	ldr	r1, [sp, #60]
	cmp	r0, #0
	it	eq
	addeq.w	r0, r0, #4096
	adds	r5, r1, #1
	blo	.LBB94_2
	movs	r0, #4
	add	sp, #20
	pop.w	{r4, r5, r6, r7, r8, r9, r10, r11, pc}
	.p2align	2
.LBB94_2:
	mvn	r7, #-536870912
	cmp	r2, r7
	mvn	r1, #-536870912
	it	lo
	movlo	r1, r2
	cmp	r3, #0
	ldr	r4, [sp, #56]
	it	ne
	movne	r1, r7
	movs	r6, #0
	subs	r7, r1, r5
	sbcs	r7, r6, #0
	blo	.LBB94_10
	lsl.w	r9, r5, #3
	add.w	r6, r0, r9
	lsr.w	lr, r5, #29
	ldrd	r4, r5, [r4]
	ldr	r7, [r6, #-8]
	and	r8, r5, #15
	lsls.w	r10, r7, #31
	bic	r11, r4, #7
	itt	ne
	ldrne	r12, [r6, #-4]
	bicsne	r4, r12, #7
	bne	.LBB94_11
.LBB94_4:
	eor.w	r1, r11, r9
	eor.w	r5, r8, lr
	ldr	r4, [sp, #56]
	orrs	r1, r5
	bne	.LBB94_10
	ldr	r1, [r6, #-4]
	cbnz	r1, .LBB94_10
	cmp.w	r10, #0
	it	ne
	bicsne	r1, r7, #7
	beq	.LBB94_10
	subs.w	r7, r2, r7, lsr #3
	sbcs	r7, r3, #0
	blo	.LBB94_10
	add	r1, r0
	ldr	r7, [r1, #-4]
	eor.w	r7, r7, r9
	orrs.w	r7, r7, lr
	bne	.LBB94_10
	ldr	r1, [r1, #-8]
	lsls	r1, r1, #31
	ittt	ne
	movne	r0, #0
	addne	sp, #20
	popne.w	{r4, r5, r6, r7, r8, r9, r10, r11, pc}
.LBB94_10:
	movs	r1, #0
	str	r1, [sp, #4]
	ldr	r1, [sp, #60]
	str	r4, [sp]
	str	r1, [sp, #8]
	bl	ic_raw.move_calls.move_to_end_slow.55ebd757a04f39fd
	add	sp, #20
	pop.w	{r4, r5, r6, r7, r8, r9, r10, r11, pc}
	.p2align	2
.LBB94_11:
	bics	r5, r7, #7
	str	r5, [sp, #16]
	beq	.LBB94_4
	lsr.w	r5, r12, #3
	subs	r5, r2, r5
	sbcs	r5, r3, #0
	blo	.LBB94_4
	adds	r5, r0, r4
	str	r5, [sp, #12]
	ldr	r5, [r5, #-8]
	mov	r12, r4
	orr	r4, r9, #1
	eors	r5, r4
	orrs.w	r5, r5, lr
	bne	.LBB94_4
	lsrs	r5, r7, #3
	subs	r5, r2, r5
	sbcs	r5, r3, #0
	blo	.LBB94_4
	ldr	r4, [sp, #16]
	add	r4, r0
	ldr	r5, [r4, #-4]
	eor.w	r5, r5, r9
	orrs.w	r5, r5, lr
	bne	.LBB94_4
	ldr	r5, [r4, #-8]
	lsls	r5, r5, #31
	beq	.LBB94_4
	mov	r10, r4
	ldr	r4, [sp, #56]
	orrs.w	r7, r11, r8
	beq	.LBB94_10
	lsr.w	r7, r11, #3
	orr.w	r7, r7, r8, lsl #29
	subs	r1, r1, r7
	lsr.w	r5, r8, #3
	mov.w	r1, #0
	sbcs	r1, r5
	blo	.LBB94_10
	add.w	r1, r0, r11
	ldr	r7, [r1, #-4]
	cmp	r7, #0
	bne	.LBB94_10
	ldr	r7, [r1, #-8]
	lsls	r7, r7, #31
	beq	.LBB94_10
	ldrd	r0, r2, [r4, #8]
	ldr	r5, [sp, #12]
	bic	r3, r0, #7
	ldr	r0, [sp, #16]
	and	r2, r2, #15
	orr	r0, r0, #1
	str	r0, [r5, #-8]
	str	r12, [r10, #-4]
	str	r9, [r1, #-4]
	movs	r0, #0
	orr	r1, r11, #1
	strd	r1, r0, [r6, #-8]
	str.w	lr, [r4, #4]
	str.w	r9, [r4]
	str	r2, [r4, #12]
	str	r3, [r4, #8]
	add	sp, #20
	pop.w	{r4, r5, r6, r7, r8, r9, r10, r11, pc}
.Lfunc_end94:
	.size	ic_list32_move_to_front, .Lfunc_end94-ic_list32_move_to_front
	.cfi_endproc
	.section	.text.ic_list32_pop_back,"ax",%progbits
	.globl	ic_list32_pop_back
	.p2align	2
	.type	ic_list32_pop_back,%function
	.code	16
	.thumb_func
ic_list32_pop_back:
	.cfi_startproc
	push.w	{r4, r5, r6, r7, r8, r9, r10, r11, lr}
	.cfi_def_cfa_offset 36
	.cfi_offset lr, -4
	.cfi_offset r11, -8
	.cfi_offset r10, -12
	.cfi_offset r9, -16
	.cfi_offset r8, -20
	.cfi_offset r7, -24
	.cfi_offset r6, -28
	.cfi_offset r5, -32
	.cfi_offset r4, -36
	mov	r1, r0
	ldr	r0, [sp, #36]
	cmp	r1, #0
	ldrd	lr, r12, [r0, #8]
	it	eq
	addeq.w	r1, r1, #4096
	and	r6, r12, #15
	bic	r7, lr, #7
	orrs.w	r4, r7, r6
	beq	.LBB95_10
	mvn	r4, #-536870912
	cmp	r2, r4
	it	hs
	movhs	r2, r4
	cmp	r3, #0
	it	ne
	movne	r2, r4
	lsrs	r4, r7, #3
	orr.w	r4, r4, r6, lsl #29
	movs	r3, #0
	subs	r4, r2, r4
	sbcs.w	r3, r3, r6, lsr #3
	blo	.LBB95_10
	add.w	r11, r1, r7
	ldr	r3, [r11, #-8]
	bic	r3, r3, #6
	cmp	r3, #1
	bne	.LBB95_10
	ldrd	r3, r5, [r0]
	ldr	r4, [r11, #-4]
	ldr.w	r8, [sp, #40]
	and	r10, r5, #15
	bics	r5, r4, #7
	bic	r9, r3, #7
	beq	.LBB95_7
	cmp.w	r2, r5, lsr #3
	blo	.LBB95_10
	add	r1, r5
	ldr	r2, [r1, #-8]
	orr	r3, r7, #1
	bic	r2, r2, #6
	eors	r2, r3
	orrs	r2, r6
	bne	.LBB95_10
	movs	r2, #1
	str	r2, [r1, #-8]
	lsr.w	r1, lr, #3
	orr.w	r1, r1, r12, lsl #29
	b	.LBB95_9
	.p2align	2
.LBB95_7:
	eor.w	r1, r9, r7
	eor.w	r2, r10, r6
	orrs	r1, r2
	bne	.LBB95_10
	lsr.w	r1, lr, #3
	orr.w	r1, r1, r12, lsl #29
	mov.w	r9, #0
	mov.w	r10, #0
.LBB95_9:
	movs	r2, #0
	str	r2, [r11, #-8]
	str.w	r10, [r0, #4]
	str.w	r9, [r0]
	str	r2, [r0, #12]
	str	r5, [r0, #8]
	subs	r1, #1
	movs	r0, #0
	str.w	r1, [r8]
	pop.w	{r4, r5, r6, r7, r8, r9, r10, r11, pc}
	.p2align	2
.LBB95_10:
	movs	r1, #1
	pop.w	{r4, r5, r6, r7, r8, r9, r10, r11, lr}
	b	ic_raw.list_calls.refusal_to_pop
.Lfunc_end95:
	.size	ic_list32_pop_back, .Lfunc_end95-ic_list32_pop_back
	.cfi_endproc
	.section	.text.ic_list32_pop_front,"ax",%progbits
	.globl	ic_list32_pop_front
	.p2align	2
	.type	ic_list32_pop_front,%function
	.code	16
	.thumb_func
ic_list32_pop_front:
	.cfi_startproc
	push.w	{r4, r5, r6, r7, r8, r9, r10, r11, lr}
	.cfi_def_cfa_offset 36
	.cfi_offset lr, -4
	.cfi_offset r11, -8
	.cfi_offset r10, -12
	.cfi_offset r9, -16
	.cfi_offset r8, -20
	.cfi_offset r7, -24
	.cfi_offset r6, -28
	.cfi_offset r5, -32
	.cfi_offset r4, -36
	ldrd	r8, r12, [sp, #36]
	cmp	r0, #0
	ldrd	r9, lr, [r8]
	it	eq
	addeq.w	r0, r0, #4096
	and	r5, lr, #15
	bic	r6, r9, #7
	orrs.w	r1, r6, r5
	beq	.LBB96_4
	lsrs	r1, r6, #3
	mvn	r7, #-536870912
	orr.w	r4, r1, r5, lsl #29
	cmp	r2, r7
	mvn	r1, #-536870912
	it	lo
	movlo	r1, r2
	cmp	r3, #0
	it	ne
	movne	r1, r7
	movs	r7, #0
	subs	r4, r1, r4
	sbcs.w	r4, r7, r5, lsr #3
	blo	.LBB96_4
	add.w	r11, r0, r6
	ldr	r4, [r11, #-4]
	cbnz	r4, .LBB96_4
	ldr	r4, [r11, #-8]
	lsls	r7, r4, #31
	it	ne
	bicsne	r10, r4, #7
	bne	.LBB96_5
.LBB96_4:
	strd	r8, r12, [sp, #36]
	pop.w	{r4, r5, r6, r7, r8, r9, r10, r11, lr}
	b	ic_raw.list_calls.pop_front_slow.55ebd757a04f39fd
	.p2align	2
.LBB96_5:
	lsrs	r4, r4, #3
	cmp	r4, r1
	bhi	.LBB96_4
	add.w	r1, r0, r10
	ldr	r4, [r1, #-4]
	eors	r4, r6
	orrs	r4, r5
	bne	.LBB96_4
	ldr	r4, [r1, #-8]
	lsls	r4, r4, #31
	beq	.LBB96_4
	movs	r0, #0
	str	r0, [r1, #-4]
	str	r0, [r11, #-8]
	strd	r10, r0, [r8]
	lsr.w	r0, r9, #3
	orr.w	r0, r0, lr, lsl #29
	subs	r1, r0, #1
	movs	r0, #0
	str.w	r1, [r12]
	pop.w	{r4, r5, r6, r7, r8, r9, r10, r11, pc}
.Lfunc_end96:
	.size	ic_list32_pop_front, .Lfunc_end96-ic_list32_pop_front
	.cfi_endproc
	.section	.text.ic_list32_push_back,"ax",%progbits
	.globl	ic_list32_push_back
	.p2align	2
	.type	ic_list32_push_back,%function
	.code	16
	.thumb_func
ic_list32_push_back:
	.cfi_startproc
	push.w	{r4, r5, r6, r7, r8, lr}
	.cfi_def_cfa_offset 24
	.cfi_offset lr, -4
	.cfi_offset r8, -8
	.cfi_offset r7, -12
	.cfi_offset r6, -16
	.cfi_offset r5, -20
	.cfi_offset r4, -24
	ldrd	lr, r12, [sp, #24]
	cmp	r0, #0
	ldrd	r1, r4, [lr, #8]
	it	eq
	addeq.w	r0, r0, #4096
	and	r4, r4, #15
	bic	r1, r1, #7
	orrs.w	r5, r1, r4
	beq	.LBB97_7
	mvn	r7, #-536870912
	lsrs	r5, r1, #3
	cmp	r2, r7
	mvn	r6, #-536870912
	orr.w	r5, r5, r4, lsl #29
	it	lo
	movlo	r6, r2
	cmp	r3, #0
	it	ne
	movne	r6, r7
	movs	r7, #0
	subs	r5, r6, r5
	sbcs.w	r4, r7, r4, lsr #3
	blo	.LBB97_7
	adds.w	r5, r12, #1
	beq	.LBB97_7
	add.w	r8, r0, r1
	ldr	r7, [r8, #-8]
	cmp	r7, #1
	bne	.LBB97_7
	cmp	r6, r5
	blo	.LBB97_7
	lsls	r6, r5, #3
	adds	r7, r0, r6
	ldrb	r4, [r7, #-8]
	lsls	r4, r4, #31
	bne	.LBB97_7
	orr	r0, r6, #1
	str	r0, [r8, #-8]
	movs	r0, #1
	lsrs	r2, r5, #29
	strd	r0, r1, [r7, #-8]
	movs	r0, #0
	strd	r6, r2, [lr, #8]
	pop.w	{r4, r5, r6, r7, r8, pc}
	.p2align	2
.LBB97_7:
	strd	lr, r12, [sp, #24]
	pop.w	{r4, r5, r6, r7, r8, lr}
	b	ic_raw.list_calls.push_back_slow.55ebd757a04f39fd
.Lfunc_end97:
	.size	ic_list32_push_back, .Lfunc_end97-ic_list32_push_back
	.cfi_endproc
	.section	.text.ic_list32_push_front,"ax",%progbits
	.globl	ic_list32_push_front
	.p2align	2
	.type	ic_list32_push_front,%function
	.code	16
	.thumb_func
ic_list32_push_front:
	.cfi_startproc
	push.w	{r4, r5, r6, r7, r8, r9, r10, r11, lr}
	.cfi_def_cfa_offset 36
	.cfi_offset lr, -4
	.cfi_offset r11, -8
	.cfi_offset r10, -12
	.cfi_offset r9, -16
	.cfi_offset r8, -20
	.cfi_offset r7, -24
	.cfi_offset r6, -28
	.cfi_offset r5, -32
	.cfi_offset r4, -36
	ldrd	r11, r9, [sp, #36]
	cmp	r0, #0
	it	eq
	addeq.w	r0, r0, #4096
	ldrd	r7, r6, [r11]
	ldrd	r5, r1, [r11, #8]
	and	r4, r6, #15
	bic	r10, r7, #7
	and	lr, r1, #15
	bic	r12, r5, #7
	orrs.w	r8, r10, r4
	mov	r6, r12
	mov	r7, lr
	beq	.LBB98_4
	mvn	r1, #-536870912
	mvn	r5, #-536870912
	cmp	r2, r1
	it	lo
	movlo	r5, r2
	cmp	r3, #0
	it	ne
	movne	r5, r1
	lsr.w	r1, r10, #3
	orr.w	r1, r1, r4, lsl #29
	subs	r1, r5, r1
	mov.w	r1, #0
	sbcs.w	r1, r1, r4, lsr #3
	blo	.LBB98_12
	add.w	r4, r0, r10
	ldrb	r1, [r4, #-8]
	lsls	r1, r1, #31
	beq	.LBB98_12
	ldr	r1, [r4, #-4]
	movs	r7, #0
	bic	r6, r1, #7
.LBB98_4:
	orrs.w	r1, r6, r7
	bne	.LBB98_12
	mvn	r1, #-536870912
	cmp	r2, r1
	mvn	r6, #-536870912
	add.w	r4, r9, #1
	it	lo
	movlo	r6, r2
	cmp	r3, #0
	it	ne
	movne	r6, r1
	cbz	r4, .LBB98_12
	cmp	r6, r4
	blo	.LBB98_12
	lsls	r7, r4, #3
	adds	r6, r0, r7
	ldrb	r1, [r6, #-8]
	lsls	r1, r1, #31
	bne	.LBB98_12
	clz	r1, r8
	lsrs	r1, r1, #5
	lsr.w	r2, r4, #29
	bne	.LBB98_10
	add	r0, r10
	str	r7, [r0, #-4]
	orr	r0, r10, #1
	b	.LBB98_11
	.p2align	2
.LBB98_10:
	movs	r0, #1
	mov	r12, r7
	mov	lr, r2
.LBB98_11:
	movs	r1, #0
	strd	r0, r1, [r6, #-8]
	movs	r0, #0
	str.w	r2, [r11, #4]
	str.w	r7, [r11]
	str.w	lr, [r11, #12]
	str.w	r12, [r11, #8]
	pop.w	{r4, r5, r6, r7, r8, r9, r10, r11, pc}
	.p2align	2
.LBB98_12:
	mov.w	r1, #-1
	str.w	r9, [sp, #40]
	str	r1, [sp, #36]
	pop.w	{r4, r5, r6, r7, r8, r9, r10, r11, lr}
	b	ic_raw.table.RawTable.refusal.05a19227735374d3
.Lfunc_end98:
	.size	ic_list32_push_front, .Lfunc_end98-ic_list32_push_front
	.cfi_endproc
	.section	.text.ic_list32_remove,"ax",%progbits
	.globl	ic_list32_remove
	.p2align	2
	.type	ic_list32_remove,%function
	.code	16
	.thumb_func
ic_list32_remove:
	.cfi_startproc
	push.w	{r4, r5, r6, r7, r8, r9, r10, r11, lr}
	.cfi_def_cfa_offset 36
	.cfi_offset lr, -4
	.cfi_offset r11, -8
	.cfi_offset r10, -12
	.cfi_offset r9, -16
	.cfi_offset r8, -20
	.cfi_offset r7, -24
	.cfi_offset r6, -28
	.cfi_offset r5, -32
	.cfi_offset r4, -36
	ldr.w	r11, [sp, #40]
	cmp	r0, #0
	it	eq
	addeq.w	r0, r0, #4096
	adds.w	r5, r11, #1
	itt	hs
	movhs	r0, #4
	pophs.w	{r4, r5, r6, r7, r8, r9, r10, r11, pc}
.LBB99_1:
	mvn	r7, #-536870912
	cmp	r2, r7
	mvn	r6, #-536870912
	ldr.w	r12, [sp, #36]
	it	lo
	movlo	r6, r2
	cmp	r3, #0
	it	ne
	movne	r6, r7
	subs	r7, r6, r5
	mov.w	r7, #0
	sbcs	r7, r7, #0
	blo	.LBB99_9
	lsls	r6, r5, #3
	add.w	lr, r0, r6
	ldr	r4, [lr, #-8]
	lsls	r7, r4, #31
	beq	.LBB99_9
	ldr	r7, [lr, #-4]
	bics	r8, r7, #7
	it	ne
	bicsne	r9, r4, #7
	beq	.LBB99_9
	lsrs	r7, r7, #3
	subs	r7, r2, r7
	sbcs	r7, r3, #0
	blo	.LBB99_9
	add.w	r10, r0, r8
	lsrs	r7, r5, #29
	ldr	r5, [r10, #-8]
	orr	r1, r6, #1
	eors	r1, r5
	orrs	r1, r7
	bne	.LBB99_9
	lsrs	r1, r4, #3
	subs	r1, r2, r1
	sbcs	r1, r3, #0
	blo	.LBB99_9
	add.w	r4, r0, r9
	ldr	r1, [r4, #-4]
	eors	r1, r6
	orrs	r1, r7
	bne	.LBB99_9
	ldr	r1, [r4, #-8]
	lsls	r1, r1, #31
	itttt	ne
	orrne	r0, r9, #1
	strne	r0, [r10, #-8]
	strne	r8, [r4, #-4]
	movne	r0, #0
	itt	ne
	strne	r0, [lr, #-8]
	popne.w	{r4, r5, r6, r7, r8, r9, r10, r11, pc}
.LBB99_9:
	strd	r12, r11, [sp, #36]
	pop.w	{r4, r5, r6, r7, r8, r9, r10, r11, lr}
	b	ic_raw.list_calls.remove_slow.55ebd757a04f39fd
.Lfunc_end99:
	.size	ic_list32_remove, .Lfunc_end99-ic_list32_remove
	.cfi_endproc
	.section	.text.ic_list32_replace,"ax",%progbits
	.globl	ic_list32_replace
	.p2align	2
	.type	ic_list32_replace,%function
	.code	16
	.thumb_func
ic_list32_replace:
	.cfi_startproc
	push.w	{r4, r5, r6, r7, r8, r9, r10, r11, lr}
	.cfi_def_cfa_offset 36
	.cfi_offset lr, -4
	.cfi_offset r11, -8
	.cfi_offset r10, -12
	.cfi_offset r9, -16
	.cfi_offset r8, -20
	.cfi_offset r7, -24
	.cfi_offset r6, -28
	.cfi_offset r5, -32
	.cfi_offset r4, -36
	sub	sp, #24
	.cfi_def_cfa_offset 60
	ldr	r1, [sp, #64]
	cmp	r0, #0
	it	eq
	addeq.w	r0, r0, #4096
	adds	r4, r1, #1
	blo	.LBB100_2
	movs	r0, #4
	add	sp, #24
	pop.w	{r4, r5, r6, r7, r8, r9, r10, r11, pc}
	.p2align	2
.LBB100_2:
	str	r1, [sp, #8]
	ldr	r1, [sp, #68]
	mvn	r6, #-536870912
	str	r1, [sp, #16]
	mvn	r1, #-536870912
	cmp	r2, r1
	it	lo
	movlo	r6, r2
	cmp	r3, #0
	it	ne
	movne	r6, r1
	movs	r1, #0
	subs	r7, r6, r4
	sbcs	r1, r1, #0
	blo.w	.LBB100_21
	lsl.w	r8, r4, #3
	add.w	r1, r0, r8
	ldr	r10, [r1, #-8]
	str	r1, [sp, #20]
	lsls.w	r1, r10, #31
	beq	.LBB100_21
	ldr	r1, [sp, #60]
	lsr.w	lr, r4, #29
	ldr	r4, [sp, #20]
	ldm.w	r1, {r5, r7, r12}
	ldr	r4, [r4, #-4]
	ldr.w	r11, [r1, #12]
	and	r9, r7, #15
	bics	r7, r4, #7
	bic	r5, r5, #7
	str	r7, [sp, #12]
	str	r5, [sp, #4]
	beq	.LBB100_7
	subs.w	r4, r2, r4, lsr #3
	sbcs	r4, r3, #0
	blo	.LBB100_21
	ldr	r4, [sp, #12]
	orr	r5, r8, #1
	add	r4, r0
	ldr	r4, [r4, #-8]
	mov	r7, lr
	bic	r4, r4, #6
	eors	r4, r5
	orrs.w	r4, r4, lr
	beq	.LBB100_8
	b	.LBB100_21
	.p2align	2
.LBB100_7:
	eor.w	r4, r5, r8
	eor.w	r5, r9, lr
	mov	r7, lr
	orrs	r4, r5
	bne	.LBB100_21
.LBB100_8:
	and	lr, r11, #15
	bic	r5, r12, #7
	bics	r11, r10, #7
	mov	r12, lr
	str	r5, [sp]
	beq	.LBB100_12
	subs.w	r5, r2, r10, lsr #3
	sbcs	r5, r3, #0
	blo	.LBB100_21
	add.w	r5, r0, r11
	ldrb	r4, [r5, #-8]
	lsls	r4, r4, #31
	beq	.LBB100_21
	ldr	r5, [r5, #-4]
	mov.w	r12, #0
	bic	r5, r5, #7
.LBB100_12:
	ldr	r4, [sp, #16]
	adds	r4, #1
	beq	.LBB100_21
	eor.w	r5, r5, r8
	eor.w	r7, r7, r12
	orrs	r7, r5
	bne	.LBB100_21
	cmp	r6, r4
	blo	.LBB100_21
	lsls	r6, r4, #3
	add.w	r12, r0, r6
	ldrb	r7, [r12, #-8]
	lsls	r7, r7, #31
	bne	.LBB100_21
	ldr	r5, [sp, #12]
	lsrs	r2, r4, #29
	mov	r3, r6
	mov	r4, r2
	cbz	r5, .LBB100_18
	adds	r3, r0, r5
	orr	r7, r6, #1
	str	r7, [r3, #-8]
	ldr	r3, [sp, #4]
	mov	r4, r9
.LBB100_18:
	cmp.w	r11, #0
	beq	.LBB100_20
	add	r0, r11
	str	r6, [r0, #-4]
	ldr	r6, [sp]
	mov	r2, lr
.LBB100_20:
	orr	r0, r11, #1
	ldr	r7, [sp, #20]
	strd	r0, r5, [r12, #-8]
	movs	r0, #0
	str	r0, [r7, #-8]
	str	r4, [r1, #4]
	str	r3, [r1]
	str	r2, [r1, #12]
	str	r6, [r1, #8]
	add	sp, #24
	pop.w	{r4, r5, r6, r7, r8, r9, r10, r11, pc}
	.p2align	2
.LBB100_21:
	ldr	r1, [sp, #16]
	str	r1, [sp, #64]
	ldr	r1, [sp, #8]
	str	r1, [sp, #60]
	add	sp, #24
	pop.w	{r4, r5, r6, r7, r8, r9, r10, r11, lr}
	b	ic_raw.table.RawTable.refusal.05a19227735374d3
.Lfunc_end100:
	.size	ic_list32_replace, .Lfunc_end100-ic_list32_replace
	.cfi_endproc
	.section	.text.ic_list32_splice_after,"ax",%progbits
	.globl	ic_list32_splice_after
	.p2align	2
	.type	ic_list32_splice_after,%function
	.code	16
	.thumb_func
ic_list32_splice_after:
	.cfi_startproc
	push.w	{r4, r5, r6, r7, r8, r9, r10, r11, lr}
	.cfi_def_cfa_offset 36
	.cfi_offset lr, -4
	.cfi_offset r11, -8
	.cfi_offset r10, -12
	.cfi_offset r9, -16
	.cfi_offset r8, -20
	.cfi_offset r7, -24
	.cfi_offset r6, -28
	.cfi_offset r5, -32
	.cfi_offset r4, -36
	sub	sp, #20
	.cfi_def_cfa_offset 56
	cmp	r0, #0
	mvn	r7, #-536870912
	ldrd	r8, r6, [sp, #56]
	it	eq
	addeq.w	r0, r0, #4096
	cmp	r2, r7
	mvn	r1, #-536870912
	it	lo
	movlo	r1, r2
	cmp	r3, #0
	str	r3, [sp, #16]
	it	ne
	movne	r1, r7
	adds	r7, r6, #1
	bne	.LBB101_8
	ldrd	r6, r7, [r8]
	bic	r10, r6, #7
	and	r11, r7, #15
	orrs.w	r5, r10, r11
	beq	.LBB101_8
	lsrs	r6, r6, #3
	orr.w	r7, r6, r7, lsl #29
	subs	r7, r1, r7
	lsr.w	r6, r11, #3
	mov.w	r7, #0
	sbcs	r7, r6
	blo	.LBB101_8
	add.w	r9, r0, r10
	ldr	r7, [r9, #-4]
	cbnz	r7, .LBB101_8
	ldr	r3, [sp, #64]
	ldrd	r6, r7, [r3]
	and	r7, r7, #15
	bic	r6, r6, #7
	orrs.w	r5, r6, r7
	itt	ne
	ldrne	r5, [r9, #-8]
	lslsne.w	r5, r5, #31
	beq	.LBB101_8
	lsrs	r5, r6, #3
	orr.w	r5, r5, r7, lsl #29
	subs	r5, r1, r5
	lsr.w	r4, r7, #3
	mov.w	r5, #0
	sbcs	r5, r4
	blo	.LBB101_8
	add.w	r12, r0, r6
	ldr	r5, [r12, #-4]
	cbnz	r5, .LBB101_8
	ldrd	r5, r4, [r3, #8]
	and	lr, r4, #15
	bic	r5, r5, #7
	orrs.w	r4, r5, lr
	itt	ne
	ldrne	r4, [r12, #-8]
	lslsne.w	r4, r4, #31
	bne	.LBB101_9
.LBB101_8:
	ldr	r3, [sp, #60]
	movs	r1, #0
	str	r3, [sp, #4]
	ldr	r3, [sp, #64]
	str.w	r8, [sp]
	str	r3, [sp, #8]
	ldr	r3, [sp, #16]
	str	r1, [sp, #12]
	bl	ic_raw.list_calls.splice_slow.55ebd757a04f39fd
	add	sp, #20
	pop.w	{r4, r5, r6, r7, r8, r9, r10, r11, pc}
	.p2align	2
.LBB101_9:
	lsrs	r4, r5, #3
	orr.w	r4, r4, lr, lsl #29
	subs	r1, r1, r4
	lsr.w	r3, lr, #3
	mov.w	r1, #0
	sbcs	r1, r3
	blo	.LBB101_8
	eor.w	r1, r10, r6
	eor.w	r3, r11, r7
	orrs	r1, r3
	beq	.LBB101_8
	adds	r1, r0, r5
	ldr	r3, [r1, #-8]
	cmp	r3, #1
	bne	.LBB101_8
	ldrd	r0, r2, [r8, #8]
	str	r5, [r9, #-4]
	movs	r3, #0
	orr	r5, r10, #1
	str	r3, [r12, #-4]
	str	r5, [r1, #-8]
	ldr	r1, [sp, #64]
	and	r2, r2, #15
	bic	r0, r0, #7
	str.w	r7, [r8, #4]
	str.w	r6, [r8]
	str.w	r2, [r8, #12]
	str.w	r0, [r8, #8]
	str	r3, [r1, #12]
	str	r3, [r1, #8]
	str	r3, [r1, #4]
	movs	r0, #0
	str	r3, [r1]
	add	sp, #20
	pop.w	{r4, r5, r6, r7, r8, r9, r10, r11, pc}
.Lfunc_end101:
	.size	ic_list32_splice_after, .Lfunc_end101-ic_list32_splice_after
	.cfi_endproc
	.section	.text.ic_list32_splice_before,"ax",%progbits
	.globl	ic_list32_splice_before
	.p2align	2
	.type	ic_list32_splice_before,%function
	.code	16
	.thumb_func
ic_list32_splice_before:
	.cfi_startproc
	push.w	{r4, r5, r6, r7, r8, r9, r10, r11, lr}
	.cfi_def_cfa_offset 36
	.cfi_offset lr, -4
	.cfi_offset r11, -8
	.cfi_offset r10, -12
	.cfi_offset r9, -16
	.cfi_offset r8, -20
	.cfi_offset r7, -24
	.cfi_offset r6, -28
	.cfi_offset r5, -32
	.cfi_offset r4, -36
	sub	sp, #20
	.cfi_def_cfa_offset 56
	cmp	r0, #0
	mvn	r1, #-536870912
	ldrd	r8, r7, [sp, #56]
	it	eq
	addeq.w	r0, r0, #4096
	cmp	r2, r1
	mvn	r6, #-536870912
	it	lo
	movlo	r6, r2
	cmp	r3, #0
	str	r3, [sp, #16]
	it	ne
	movne	r6, r1
	adds	r1, r7, #1
	bne	.LBB102_8
	ldrd	r7, r1, [r8, #8]
	bic	r10, r7, #7
	and	r5, r1, #15
	orrs.w	r4, r10, r5
	beq	.LBB102_8
	lsrs	r7, r7, #3
	orr.w	r1, r7, r1, lsl #29
	subs	r1, r6, r1
	lsr.w	r7, r5, #3
	mov.w	r1, #0
	sbcs	r1, r7
	blo	.LBB102_8
	ldr	r1, [sp, #64]
	ldrd	r1, r7, [r1]
	and	r7, r7, #15
	bic	r5, r1, #7
	orrs.w	r1, r5, r7
	beq	.LBB102_8
	add.w	r9, r0, r10
	ldr	r1, [r9, #-8]
	cmp	r1, #1
	bne	.LBB102_8
	lsrs	r1, r5, #3
	orr.w	r1, r1, r7, lsl #29
	subs	r1, r6, r1
	lsr.w	r4, r7, #3
	mov.w	r1, #0
	sbcs	r1, r4
	blo	.LBB102_8
	add.w	r11, r0, r5
	ldr	r1, [r11, #-4]
	cbnz	r1, .LBB102_8
	ldr	r1, [sp, #64]
	ldrd	r4, r1, [r1, #8]
	and	r1, r1, #15
	bic	r12, r4, #7
	orrs.w	r4, r12, r1
	itt	ne
	ldrne	r4, [r11, #-8]
	lslsne.w	r4, r4, #31
	bne	.LBB102_9
.LBB102_8:
	ldr	r3, [sp, #60]
	movs	r1, #1
	str	r3, [sp, #4]
	ldr	r3, [sp, #64]
	str.w	r8, [sp]
	str	r3, [sp, #8]
	ldr	r3, [sp, #16]
	str	r1, [sp, #12]
	bl	ic_raw.list_calls.splice_slow.55ebd757a04f39fd
	add	sp, #20
	pop.w	{r4, r5, r6, r7, r8, r9, r10, r11, pc}
	.p2align	2
.LBB102_9:
	lsr.w	r4, r12, #3
	orr.w	r4, r4, r1, lsl #29
	subs	r6, r6, r4
	lsr.w	r3, r1, #3
	mov.w	r6, #0
	sbcs.w	r3, r6, r3
	blo	.LBB102_8
	ldrd	r3, r6, [r8]
	and	lr, r6, #15
	bic	r6, r3, #7
	eor.w	r3, r6, r5
	eor.w	r4, lr, r7
	orrs	r3, r4
	beq	.LBB102_8
	add.w	r7, r0, r12
	ldr	r3, [r7, #-8]
	cmp	r3, #1
	bne	.LBB102_8
	orr	r0, r5, #1
	str	r0, [r9, #-8]
	movs	r0, #1
	ldr	r2, [sp, #64]
	str	r10, [r11, #-4]
	str	r0, [r7, #-8]
	str.w	r1, [r8, #12]
	movs	r1, #0
	str.w	lr, [r8, #4]
	str.w	r6, [r8]
	str.w	r12, [r8, #8]
	str	r1, [r2, #12]
	str	r1, [r2, #8]
	str	r1, [r2, #4]
	movs	r0, #0
	str	r1, [r2]
	add	sp, #20
	pop.w	{r4, r5, r6, r7, r8, r9, r10, r11, pc}
.Lfunc_end102:
	.size	ic_list32_splice_before, .Lfunc_end102-ic_list32_splice_before
	.cfi_endproc
	.section	.text.ic_list32_split_after,"ax",%progbits
	.globl	ic_list32_split_after
	.p2align	2
	.type	ic_list32_split_after,%function
	.code	16
	.thumb_func
ic_list32_split_after:
	.cfi_startproc
	push.w	{r4, r5, r6, r7, r8, r9, r10, lr}
	.cfi_def_cfa_offset 32
	.cfi_offset lr, -4
	.cfi_offset r10, -8
	.cfi_offset r9, -12
	.cfi_offset r8, -16
	.cfi_offset r7, -20
	.cfi_offset r6, -24
	.cfi_offset r5, -28
	.cfi_offset r4, -32
	sub	sp, #16
	.cfi_def_cfa_offset 48
	ldr.w	r12, [sp, #56]
	ldrd	r8, lr, [sp, #48]
	ldrd	r1, r4, [r12]
	cmp	r0, #0
	and	r4, r4, #15
	bic	r1, r1, #7
	it	eq
	addeq.w	r0, r0, #4096
	orrs	r1, r4
	itttt	eq
	ldrdeq	r1, r4, [r12, #8]
	andeq	r4, r4, #15
	biceq	r1, r1, #7
	orrseq.w	r1, r1, r4
	bne	.LBB103_4
	adds.w	r7, lr, #1
	bhs	.LBB103_4
	mvn	r4, #-536870912
	cmp	r2, r4
	mvn	r1, #-536870912
	it	lo
	movlo	r1, r2
	cmp	r3, #0
	it	ne
	movne	r1, r4
	movs	r4, #0
	subs	r5, r1, r7
	sbcs	r4, r4, #0
	blo	.LBB103_4
	lsls	r4, r7, #3
	add.w	r10, r0, r4
	ldr	r5, [r10, #-8]
	lsls	r6, r5, #31
	it	ne
	bicsne	r9, r5, #7
	bne	.LBB103_5
.LBB103_4:
	movs	r1, #0
	strd	r8, lr, [sp]
	strd	r12, r1, [sp, #8]
	bl	ic_raw.list_calls.split_slow.55ebd757a04f39fd
	add	sp, #16
	pop.w	{r4, r5, r6, r7, r8, r9, r10, pc}
	.p2align	2
.LBB103_5:
	lsrs	r5, r5, #3
	cmp	r5, r1
	bhi	.LBB103_4
	add.w	r1, r0, r9
	ldr	r5, [r1, #-4]
	lsrs	r7, r7, #29
	eors	r5, r4
	orrs	r5, r7
	bne	.LBB103_4
	ldr	r5, [r1, #-8]
	lsls	r5, r5, #31
	beq	.LBB103_4
	ldm.w	r8, {r0, r2, r3, r6}
	movs	r5, #1
	and	r2, r2, #15
	bic	r0, r0, #7
	and	r6, r6, #15
	bic	r3, r3, #7
	str	r5, [r10, #-8]
	movs	r5, #0
	str	r5, [r1, #-4]
	str.w	r2, [r8, #4]
	str.w	r0, [r8]
	str.w	r7, [r8, #12]
	str.w	r4, [r8, #8]
	str.w	r9, [r12]
	str.w	r5, [r12, #4]
	str.w	r3, [r12, #8]
	movs	r0, #0
	str.w	r6, [r12, #12]
	add	sp, #16
	pop.w	{r4, r5, r6, r7, r8, r9, r10, pc}
.Lfunc_end103:
	.size	ic_list32_split_after, .Lfunc_end103-ic_list32_split_after
	.cfi_endproc
	.section	.text.ic_list32_split_before,"ax",%progbits
	.globl	ic_list32_split_before
	.p2align	2
	.type	ic_list32_split_before,%function
	.code	16
	.thumb_func
ic_list32_split_before:
	.cfi_startproc
	push.w	{r4, r5, r6, r7, r8, r9, r10, lr}
	.cfi_def_cfa_offset 32
	.cfi_offset lr, -4
	.cfi_offset r10, -8
	.cfi_offset r9, -12
	.cfi_offset r8, -16
	.cfi_offset r7, -20
	.cfi_offset r6, -24
	.cfi_offset r5, -28
	.cfi_offset r4, -32
	sub	sp, #16
	.cfi_def_cfa_offset 48
	ldr.w	r12, [sp, #56]
	ldrd	r8, lr, [sp, #48]
	ldrd	r1, r4, [r12]
	cmp	r0, #0
	and	r4, r4, #15
	bic	r1, r1, #7
	it	eq
	addeq.w	r0, r0, #4096
	orrs	r1, r4
	itttt	eq
	ldrdeq	r1, r4, [r12, #8]
	andeq	r4, r4, #15
	biceq	r1, r1, #7
	orrseq.w	r1, r1, r4
	bne	.LBB104_4
	adds.w	r7, lr, #1
	bhs	.LBB104_4
	mvn	r4, #-536870912
	cmp	r2, r4
	mvn	r1, #-536870912
	it	lo
	movlo	r1, r2
	cmp	r3, #0
	it	ne
	movne	r1, r4
	movs	r4, #0
	subs	r5, r1, r7
	sbcs	r4, r4, #0
	blo	.LBB104_4
	lsls	r4, r7, #3
	adds	r5, r0, r4
	ldrb	r6, [r5, #-8]
	lsls	r6, r6, #31
	itt	ne
	ldrne	r6, [r5, #-4]
	bicsne	r9, r6, #7
	bne	.LBB104_5
.LBB104_4:
	movs	r1, #1
	strd	r8, lr, [sp]
	strd	r12, r1, [sp, #8]
	bl	ic_raw.list_calls.split_slow.55ebd757a04f39fd
	add	sp, #16
	pop.w	{r4, r5, r6, r7, r8, r9, r10, pc}
	.p2align	2
.LBB104_5:
	lsrs	r6, r6, #3
	cmp	r6, r1
	bhi	.LBB104_4
	add.w	r1, r0, r9
	ldr	r6, [r1, #-8]
	lsr.w	r10, r7, #29
	orr	r7, r4, #1
	eors	r6, r7
	orrs.w	r6, r6, r10
	bne	.LBB104_4
	ldm.w	r8, {r0, r2, r3, r7}
	movs	r6, #1
	and	r2, r2, #15
	bic	r0, r0, #7
	and	r7, r7, #15
	bic	r3, r3, #7
	str	r6, [r1, #-8]
	movs	r1, #0
	str	r1, [r5, #-4]
	str.w	r10, [r8, #4]
	str.w	r4, [r8]
	str.w	r7, [r8, #12]
	str.w	r3, [r8, #8]
	str.w	r0, [r12]
	str.w	r2, [r12, #4]
	str.w	r9, [r12, #8]
	movs	r0, #0
	str.w	r1, [r12, #12]
	add	sp, #16
	pop.w	{r4, r5, r6, r7, r8, r9, r10, pc}
.Lfunc_end104:
	.size	ic_list32_split_before, .Lfunc_end104-ic_list32_split_before
	.cfi_endproc
	.section	.text.ic_list32_transfer_after,"ax",%progbits
	.globl	ic_list32_transfer_after
	.p2align	2
	.type	ic_list32_transfer_after,%function
	.code	16
	.thumb_func
ic_list32_transfer_after:
	.cfi_startproc
	push	{r4, r5, r7, lr}
	.cfi_def_cfa_offset 16
	.cfi_offset lr, -4
	.cfi_offset r7, -8
	.cfi_offset r5, -12
	.cfi_offset r4, -16
	sub	sp, #24
	.cfi_def_cfa_offset 40
	add.w	lr, sp, #40
	ldm.w	lr, {r1, r12, lr}
	ldr	r4, [sp, #52]
	cmp	r0, #0
	it	eq
	addeq.w	r0, r0, #4096
	movs	r5, #0
	stm.w	sp, {r1, r5, r12, lr}
	str	r4, [sp, #16]
	bl	ic_raw_lists.transfer_calls.transfer_at.55ebd757a04f39fd
	add	sp, #24
	pop	{r4, r5, r7, pc}
.Lfunc_end105:
	.size	ic_list32_transfer_after, .Lfunc_end105-ic_list32_transfer_after
	.cfi_endproc
	.section	.text.ic_list32_transfer_before,"ax",%progbits
	.globl	ic_list32_transfer_before
	.p2align	2
	.type	ic_list32_transfer_before,%function
	.code	16
	.thumb_func
ic_list32_transfer_before:
	.cfi_startproc
	push	{r4, r5, r7, lr}
	.cfi_def_cfa_offset 16
	.cfi_offset lr, -4
	.cfi_offset r7, -8
	.cfi_offset r5, -12
	.cfi_offset r4, -16
	sub	sp, #24
	.cfi_def_cfa_offset 40
	add.w	lr, sp, #40
	ldm.w	lr, {r1, r12, lr}
	ldr	r4, [sp, #52]
	cmp	r0, #0
	it	eq
	addeq.w	r0, r0, #4096
	movs	r5, #1
	stm.w	sp, {r1, r5, r12, lr}
	str	r4, [sp, #16]
	bl	ic_raw_lists.transfer_calls.transfer_at.55ebd757a04f39fd
	add	sp, #24
	pop	{r4, r5, r7, pc}
.Lfunc_end106:
	.size	ic_list32_transfer_before, .Lfunc_end106-ic_list32_transfer_before
	.cfi_endproc
	.section	.text.ic_list_append,"ax",%progbits
	.globl	ic_list_append
	.p2align	2
	.type	ic_list_append,%function
	.code	16
	.thumb_func
ic_list_append:
	.cfi_startproc
	push.w	{r4, r5, r6, r7, r8, r9, r10, r11, lr}
	.cfi_def_cfa_offset 36
	.cfi_offset lr, -4
	.cfi_offset r11, -8
	.cfi_offset r10, -12
	.cfi_offset r9, -16
	.cfi_offset r8, -20
	.cfi_offset r7, -24
	.cfi_offset r6, -28
	.cfi_offset r5, -32
	.cfi_offset r4, -36
	sub	sp, #28
	.cfi_def_cfa_offset 64
	ldr	r1, [sp, #64]
	str	r3, [sp, #24]
	ldrd	r7, r1, [r1, #8]
	cmp	r0, #0
	and	r10, r1, #15
	bic	r3, r7, #7
	it	eq
	addeq.w	r0, r0, #4096
	orrs.w	r6, r3, r10
	beq	.LBB107_7
	lsrs	r7, r7, #3
	orr.w	r1, r7, r1, lsl #29
	subs	r1, r2, r1
	ldr	r1, [sp, #24]
	lsr.w	r7, r10, #3
	sbcs	r1, r7
	blo	.LBB107_7
	ldr	r1, [sp, #68]
	ldrd	r1, r7, [r1]
	and	r5, r7, #15
	bic	r6, r1, #7
	orrs.w	r1, r6, r5
	beq	.LBB107_7
	add.w	r1, r0, r3, lsl #1
	str	r1, [sp, #20]
	ldrd	r1, r7, [r1, #-16]
	eor	r1, r1, #1
	orrs	r1, r7
	bne	.LBB107_7
	lsrs	r1, r6, #3
	orr.w	r1, r1, r5, lsl #29
	subs	r1, r2, r1
	ldr	r1, [sp, #24]
	lsr.w	r7, r5, #3
	sbcs	r1, r7
	blo	.LBB107_7
	add.w	r8, r0, r6, lsl #1
	ldrd	r1, r4, [r8, #-8]
	orrs	r1, r4
	bne	.LBB107_7
	ldr	r1, [sp, #68]
	ldrd	r4, r1, [r1, #8]
	and	r1, r1, #15
	bic	r9, r4, #7
	orrs.w	r7, r9, r1
	itt	ne
	ldrne	r7, [r8, #-16]
	lslsne.w	r7, r7, #31
	bne	.LBB107_8
.LBB107_7:
	ldr	r7, [sp, #64]
	mov.w	r3, #-1
	strd	r7, r3, [sp]
	ldr	r3, [sp, #68]
	movs	r1, #1
	str	r3, [sp, #8]
	ldr	r3, [sp, #24]
	str	r1, [sp, #12]
	bl	ic_raw.list_calls.splice_slow.5386baa488213e47
	add	sp, #28
	pop.w	{r4, r5, r6, r7, r8, r9, r10, r11, pc}
	.p2align	2
.LBB107_8:
	lsr.w	r7, r9, #3
	orr.w	r7, r7, r1, lsl #29
	subs	r7, r2, r7
	ldr	r7, [sp, #24]
	lsr.w	r4, r1, #3
	sbcs	r7, r4
	blo	.LBB107_7
	ldr	r7, [sp, #64]
	ldrd	r7, r4, [r7]
	and	r12, r4, #15
	bic	r11, r7, #7
	eor.w	r7, r11, r6
	eor.w	r4, r12, r5
	orrs	r7, r4
	beq	.LBB107_7
	add.w	lr, r0, r9, lsl #1
	ldrd	r4, r7, [lr, #-16]
	eor	r4, r4, #1
	orrs	r4, r7
	bne	.LBB107_7
	ldr	r2, [sp, #20]
	orr	r0, r6, #1
	strd	r0, r5, [r2, #-16]
	movs	r0, #1
	movs	r2, #0
	strd	r3, r10, [r8, #-8]
	strd	r0, r2, [lr, #-16]
	ldr	r0, [sp, #64]
	str	r1, [r0, #12]
	ldr	r1, [sp, #68]
	str.w	r12, [r0, #4]
	str.w	r11, [r0]
	str.w	r9, [r0, #8]
	str	r2, [r1, #12]
	str	r2, [r1, #8]
	str	r2, [r1, #4]
	movs	r0, #0
	str	r2, [r1]
	add	sp, #28
	pop.w	{r4, r5, r6, r7, r8, r9, r10, r11, pc}
.Lfunc_end107:
	.size	ic_list_append, .Lfunc_end107-ic_list_append
	.cfi_endproc
	.section	.text.ic_list_check,"ax",%progbits
	.globl	ic_list_check
	.p2align	2
	.type	ic_list_check,%function
	.code	16
	.thumb_func
ic_list_check:
	.cfi_startproc
	push.w	{r4, r5, r6, r7, r8, r9, r10, r11, lr}
	.cfi_def_cfa_offset 36
	.cfi_offset lr, -4
	.cfi_offset r11, -8
	.cfi_offset r10, -12
	.cfi_offset r9, -16
	.cfi_offset r8, -20
	.cfi_offset r7, -24
	.cfi_offset r6, -28
	.cfi_offset r5, -32
	.cfi_offset r4, -36
	sub	sp, #8
	.cfi_def_cfa_offset 44
	ldr	r1, [sp, #44]
	cmp	r0, #0
	it	eq
	addeq.w	r0, r0, #4096
	ldm.w	r1, {r4, r5, r7}
	ldr	r1, [r1, #12]
	and	r6, r5, #15
	str	r1, [sp]
	bic	r1, r4, #7
	orrs.w	r4, r1, r6
	str	r7, [sp, #4]
	beq	.LBB108_7
	mov.w	r8, #0
	mov.w	r9, #0
	mov.w	r10, #0
	mov.w	r12, #0
	.p2align	2
.LBB108_2:
	mov	r7, r1
	subs.w	r1, r10, r2
	sbcs.w	r1, r12, r3
	mov.w	r11, #5
	bhs	.LBB108_10
	mov	r4, r6
	lsrs	r6, r7, #3
	orr.w	r6, r6, r4, lsl #29
	lsrs	r1, r4, #3
	subs	r6, r2, r6
	sbcs.w	r1, r3, r1
	blo	.LBB108_10
	add.w	r6, r0, r7, lsl #1
	ldr	r1, [r6, #-16]
	lsls	r5, r1, #31
	beq	.LBB108_10
	ldrd	r5, r11, [r6, #-8]
	bic	lr, r5, #7
	and	r5, r11, #15
	eor.w	r9, r9, r5
	eor.w	r5, lr, r8
	orrs.w	r5, r5, r9
	bne	.LBB108_11
	ldr	r6, [r6, #-12]
	bic	r1, r1, #7
	and	r6, r6, #15
	adds.w	r10, r10, #1
	adc	r12, r12, #0
	orrs.w	r5, r1, r6
	mov	r8, r7
	mov	r9, r4
	bne	.LBB108_2
	b	.LBB108_8
	.p2align	2
.LBB108_7:
	mov.w	r10, #0
	mov.w	r12, #0
	movs	r7, #0
	movs	r4, #0
.LBB108_8:
	ldr	r0, [sp]
	ldr	r1, [sp, #4]
	and	r0, r0, #15
	bic	r1, r1, #7
	eors	r1, r7
	eors	r0, r4
	orrs	r0, r1
	bne	.LBB108_11
	ldr	r0, [sp, #48]
	mov.w	r11, #0
	strd	r10, r12, [r0]
.LBB108_10:
	mov	r0, r11
	add	sp, #8
	pop.w	{r4, r5, r6, r7, r8, r9, r10, r11, pc}
	.p2align	2
.LBB108_11:
	mov.w	r11, #5
	mov	r0, r11
	add	sp, #8
	pop.w	{r4, r5, r6, r7, r8, r9, r10, r11, pc}
.Lfunc_end108:
	.size	ic_list_check, .Lfunc_end108-ic_list_check
	.cfi_endproc
	.section	.text.ic_list_clear,"ax",%progbits
	.globl	ic_list_clear
	.p2align	2
	.type	ic_list_clear,%function
	.code	16
	.thumb_func
ic_list_clear:
	.cfi_startproc
	push.w	{r4, r5, r6, r7, r8, r9, r10, r11, lr}
	.cfi_def_cfa_offset 36
	.cfi_offset lr, -4
	.cfi_offset r11, -8
	.cfi_offset r10, -12
	.cfi_offset r9, -16
	.cfi_offset r8, -20
	.cfi_offset r7, -24
	.cfi_offset r6, -28
	.cfi_offset r5, -32
	.cfi_offset r4, -36
	sub	sp, #12
	.cfi_def_cfa_offset 48
	ldr	r4, [sp, #48]
	cmp	r0, #0
	it	eq
	addeq.w	r0, r0, #4096
	ldrd	r1, r7, [r4]
	ldrd	r6, r5, [r4, #8]
	and	r11, r7, #15
	bic	r10, r1, #7
	and	r7, r5, #15
	orrs.w	r1, r10, r11
	bic	r6, r6, #7
	beq	.LBB109_8
	orrs.w	r1, r2, r3
	beq	.LBB109_9
	strd	r6, r7, [sp, #4]
	mov.w	r12, #0
	mov.w	lr, #0
	mov	r7, r2
	mov	r5, r3
	str.w	r10, [sp]
	.p2align	2
.LBB109_3:
	lsr.w	r4, r10, #3
	orr.w	r4, r4, r11, lsl #29
	subs	r4, r2, r4
	sbcs.w	r4, r3, r11, lsr #3
	blo	.LBB109_9
	add.w	r6, r0, r10, lsl #1
	ldr	r4, [r6, #-16]
	lsls.w	r8, r4, #31
	beq	.LBB109_9
	ldrd	r1, r8, [r6, #-8]
	bic	r9, r1, #7
	and	r1, r8, #15
	eor.w	lr, lr, r1
	eor.w	r1, r9, r12
	orrs.w	r1, r1, lr
	bne	.LBB109_9
	ldr	r1, [r6, #-12]
	bic	r6, r4, #7
	and	r4, r1, #15
	orrs.w	r1, r6, r4
	beq	.LBB109_10
	subs	r7, #1
	sbc	r5, r5, #0
	orrs.w	r1, r7, r5
	mov	r12, r10
	mov	lr, r11
	mov	r10, r6
	mov	r11, r4
	bne	.LBB109_3
	b	.LBB109_9
	.p2align	2
.LBB109_8:
	orrs.w	r0, r6, r7
	beq	.LBB109_16
.LBB109_9:
	movs	r0, #5
	add	sp, #12
	pop.w	{r4, r5, r6, r7, r8, r9, r10, r11, pc}
	.p2align	2
.LBB109_10:
	ldr	r1, [sp, #4]
	ldr	r2, [sp, #8]
	eor.w	r1, r1, r10
	eor.w	r2, r2, r11
	orrs	r1, r2
	bne	.LBB109_9
	ldr	r4, [sp, #48]
	ldr	r6, [sp]
	.p2align	2
.LBB109_12:
	add.w	r3, r0, r6, lsl #1
	ldrd	r1, r2, [r3, #-16]
	and	r7, r2, #15
	bic	r2, r1, #7
	movs	r1, #0
	orrs	r7, r2
	str	r1, [r3, #-16]
	str	r1, [r3, #-12]
	beq	.LBB109_16
	add.w	r3, r0, r2, lsl #1
	ldrd	r2, r7, [r3, #-16]
	str	r1, [r3, #-16]
	and	r7, r7, #15
	bic	r2, r2, #7
	orrs	r7, r2
	str	r1, [r3, #-12]
	beq	.LBB109_16
	add.w	r3, r0, r2, lsl #1
	ldrd	r1, r2, [r3, #-16]
	and	r7, r2, #15
	bic	r2, r1, #7
	movs	r1, #0
	orrs	r7, r2
	str	r1, [r3, #-16]
	str	r1, [r3, #-12]
	beq	.LBB109_16
	add.w	r2, r0, r2, lsl #1
	ldrd	r3, r7, [r2, #-16]
	str	r1, [r2, #-16]
	and	r7, r7, #15
	bic	r6, r3, #7
	orrs.w	r3, r6, r7
	str	r1, [r2, #-12]
	bne	.LBB109_12
.LBB109_16:
	movs	r0, #0
	str	r0, [r4, #12]
	str	r0, [r4, #8]
	str	r0, [r4, #4]
	str	r0, [r4]
	add	sp, #12
	pop.w	{r4, r5, r6, r7, r8, r9, r10, r11, pc}
.Lfunc_end109:
	.size	ic_list_clear, .Lfunc_end109-ic_list_clear
	.cfi_endproc
	.section	.text.ic_list_fill,"ax",%progbits
	.globl	ic_list_fill
	.p2align	2
	.type	ic_list_fill,%function
	.code	16
	.thumb_func
ic_list_fill:
	.cfi_startproc
	push.w	{r4, r5, r6, r7, r8, r9, r10, r11, lr}
	.cfi_def_cfa_offset 36
	.cfi_offset lr, -4
	.cfi_offset r11, -8
	.cfi_offset r10, -12
	.cfi_offset r9, -16
	.cfi_offset r8, -20
	.cfi_offset r7, -24
	.cfi_offset r6, -28
	.cfi_offset r5, -32
	.cfi_offset r4, -36
	sub	sp, #20
	.cfi_def_cfa_offset 56
	ldr.w	r11, [sp, #64]
	cmp	r0, #0
	mov.w	r8, #0
	it	eq
	moveq.w	r8, #4096
	cmp.w	r11, #0
	mov.w	r1, #0
	beq	.LBB110_19
	ldr.w	r12, [sp, #56]
	add.w	r1, r0, r8
	ldrd	r5, r7, [r12, #8]
	str	r1, [sp, #16]
	ldrd	r4, r1, [r12]
	and	lr, r7, #15
	bic	r7, r5, #7
	and	r6, r1, #15
	orrs.w	r1, r7, lr
	bic	r5, r4, #7
	strd	r6, r5, [sp, #8]
	beq	.LBB110_5
	lsrs	r4, r7, #3
	orr.w	r4, r4, lr, lsl #29
	subs	r4, r2, r4
	sbcs.w	r4, r3, lr, lsr #3
	blo	.LBB110_6
	ldr	r4, [sp, #16]
	add.w	r4, r4, r7, lsl #1
	ldrd	r4, r5, [r4, #-16]
	bic	r4, r4, #6
	and	r5, r5, #15
	eor	r4, r4, #1
	orrs	r4, r5
	bne	.LBB110_6
.LBB110_4:
	clz	r1, r1
	lsrs	r1, r1, #5
	mov.w	r9, #1
	mov	r10, r7
	str	r1, [sp, #4]
	str.w	lr, [sp]
	b	.LBB110_7
	.p2align	2
.LBB110_5:
	orrs.w	r4, r5, r6
	beq	.LBB110_4
.LBB110_6:
	movs	r1, #1
	str	r1, [sp, #4]
	movs	r1, #0
	mov.w	r9, #0
	mov.w	r10, #0
	str	r1, [sp]
.LBB110_7:
	ldr	r4, [sp, #60]
	add.w	r1, r8, r4, lsl #4
	mov	r8, r4
	add	r0, r1
	adds	r6, r4, #1
	mov	r4, r11
	.p2align	2
.LBB110_8:
	mov.w	r1, #1
	cbz	r6, .LBB110_19
	subs	r5, r2, r6
	sbcs	r5, r3, #0
	blo	.LBB110_19
	ldr	r1, [r0]
	movs	r5, #2
	ands.w	r1, r5, r1, lsl #1
	bne	.LBB110_19
	subs	r4, #1
	add.w	r0, r0, #16
	add.w	r6, r6, #1
	bne	.LBB110_8
	cmp.w	r9, #0
	beq	.LBB110_18
	adds.w	r1, r8, #1
	bhs	.LBB110_20
	subs	r0, r2, r1
	sbcs	r0, r3, #0
	blo	.LBB110_20
	ldr	r0, [sp, #16]
	lsl.w	r9, r1, #3
	add.w	r8, r0, r9, lsl #1
	ldrb	r4, [r8, #-16]
	lsls	r4, r4, #31
	bne	.LBB110_20
	ldr	r0, [sp, #4]
	lsr.w	lr, r1, #29
	mov.w	r1, #0
	cbz	r0, .LBB110_21
	movs	r6, #0
	mov.w	r10, #0
	strd	lr, r9, [sp, #8]
	b	.LBB110_22
	.p2align	2
.LBB110_18:
	movs	r1, #5
.LBB110_19:
	mov	r0, r1
	add	sp, #20
	pop.w	{r4, r5, r6, r7, r8, r9, r10, r11, pc}
	.p2align	2
.LBB110_20:
	ldr.w	r10, [sp, #8]
	b	.LBB110_31
	.p2align	2
.LBB110_21:
	ldr	r0, [sp, #16]
	mov	r6, r10
	add.w	r4, r0, r10, lsl #1
	ldr.w	r10, [sp]
	orr	r5, r9, #1
	strd	r5, lr, [r4, #-16]
.LBB110_22:
	movs	r4, #1
	strd	r4, r1, [r8, #-16]
	subs.w	r1, r11, #1
	str	r6, [r8, #-8]
	str	r10, [r8, #-4]
	beq	.LBB110_29
	ldr	r0, [sp, #60]
	ldr.w	r10, [sp, #8]
	ldr.w	r11, [sp, #16]
	adds	r6, r0, #2
.LBB110_24:
	cbz	r6, .LBB110_30
	subs	r4, r2, r6
	sbcs	r4, r3, #0
	blo	.LBB110_30
	lsls	r7, r6, #3
	add.w	r4, r11, r7, lsl #1
	ldrb	r5, [r4, #-16]
	lsls	r5, r5, #31
	bne	.LBB110_30
	lsrs	r5, r6, #29
	add.w	r8, r11, r9, lsl #1
	orr	r0, r7, #1
	strd	r0, r5, [r8, #-16]
	movs	r0, #1
	mov.w	r8, #0
	stmdb	r4, {r0, r8, r9, lr}
	subs	r1, #1
	add.w	r6, r6, #1
	mov	r9, r7
	mov	lr, r5
	bne	.LBB110_24
	mov	lr, r5
	b	.LBB110_31
	.p2align	2
.LBB110_29:
	ldr.w	r10, [sp, #8]
.LBB110_30:
	mov	r7, r9
.LBB110_31:
	ldr	r0, [sp, #12]
	movs	r1, #0
	str.w	r0, [r12]
	str.w	r10, [r12, #4]
	str.w	r7, [r12, #8]
	str.w	lr, [r12, #12]
	mov	r0, r1
	add	sp, #20
	pop.w	{r4, r5, r6, r7, r8, r9, r10, r11, pc}
.Lfunc_end110:
	.size	ic_list_fill, .Lfunc_end110-ic_list_fill
	.cfi_endproc
	.section	.text.ic_list_insert_after,"ax",%progbits
	.globl	ic_list_insert_after
	.p2align	2
	.type	ic_list_insert_after,%function
	.code	16
	.thumb_func
ic_list_insert_after:
	.cfi_startproc
	push.w	{r4, r5, r6, r7, r8, r9, r10, r11, lr}
	.cfi_def_cfa_offset 36
	.cfi_offset lr, -4
	.cfi_offset r11, -8
	.cfi_offset r10, -12
	.cfi_offset r9, -16
	.cfi_offset r8, -20
	.cfi_offset r7, -24
	.cfi_offset r6, -28
	.cfi_offset r5, -32
	.cfi_offset r4, -36
	sub	sp, #28
	.cfi_def_cfa_offset 64
	ldr	r1, [sp, #72]
	cmp	r0, #0
	str	r1, [sp, #20]
	ldrd	r1, r7, [sp, #64]
	it	eq
	addeq.w	r0, r0, #4096
	ldrd	r6, r5, [r1]
	ldrd	r8, r9, [r1, #8]
	and	r12, r5, #15
	adds	r5, r7, #1
	bic	lr, r6, #7
	str	r7, [sp]
	lsl.w	r7, r5, #3
	str	r7, [sp, #24]
	strd	lr, r12, [sp, #8]
	bhs	.LBB111_4
	subs	r6, r2, r5
	sbcs	r6, r3, #0
	blo	.LBB111_11
	ldr	r7, [sp, #24]
	add.w	r6, r0, r7, lsl #1
	ldr	r4, [r6, #-16]
	lsls	r7, r4, #31
	beq	.LBB111_11
	ldr	r6, [r6, #-12]
	bic	lr, r4, #7
	and	r12, r6, #15
.LBB111_4:
	bic	r11, r8, #7
	and	r6, r9, #15
	orrs.w	r4, lr, r12
	mov	r7, r11
	str	r4, [sp, #16]
	str	r6, [sp, #4]
	beq	.LBB111_8
	lsr.w	r6, lr, #3
	orr.w	r6, r6, r12, lsl #29
	subs	r6, r2, r6
	sbcs.w	r6, r3, r12, lsr #3
	blo	.LBB111_11
	add.w	r6, r0, lr, lsl #1
	ldrb	r7, [r6, #-16]
	lsls	r7, r7, #31
	beq	.LBB111_11
	ldrd	r7, r6, [r6, #-8]
	and	r6, r6, #15
	bic	r7, r7, #7
.LBB111_8:
	ldr	r4, [sp, #20]
	adds.w	r9, r4, #1
	beq	.LBB111_11
	subs.w	r4, r2, r9
	sbcs	r4, r3, #0
	blo	.LBB111_11
	ldr	r4, [sp, #24]
	lsr.w	r8, r5, #29
	eors	r4, r7
	eor.w	r6, r6, r8
	orrs	r4, r6
	itttt	eq
	lsleq.w	r6, r9, #3
	addeq.w	r10, r0, r6, lsl #1
	ldrbeq	r4, [r10, #-16]
	lslseq.w	r4, r4, #31
	beq	.LBB111_12
.LBB111_11:
	ldr	r1, [sp, #20]
	str	r1, [sp, #68]
	ldr	r1, [sp]
	str	r1, [sp, #64]
	add	sp, #28
	pop.w	{r4, r5, r6, r7, r8, r9, r10, r11, lr}
	b	ic_raw.table.RawTable.refusal.85cd03e557136797
	.p2align	2
.LBB111_12:
	ldr	r2, [sp, #16]
	lsr.w	r3, r9, #29
	clz	r2, r2
	lsrs	r7, r2, #5
	cmp	r5, #0
	mov	r2, r6
	mov	r5, r3
	beq	.LBB111_14
	ldr	r2, [sp, #24]
	orr	r4, r6, #1
	add.w	r2, r0, r2, lsl #1
	strd	r4, r3, [r2, #-16]
	ldrd	r2, r5, [sp, #8]
.LBB111_14:
	cbnz	r7, .LBB111_16
	add.w	r0, r0, lr, lsl #1
	strd	r6, r3, [r0, #-8]
	ldr	r3, [sp, #4]
	b	.LBB111_17
	.p2align	2
.LBB111_16:
	mov	r11, r6
.LBB111_17:
	orr	r0, lr, #1
	strd	r0, r12, [r10, #-16]
	ldr	r0, [sp, #24]
	strd	r0, r8, [r10, #-8]
	str	r2, [r1]
	str	r5, [r1, #4]
	str.w	r11, [r1, #8]
	movs	r0, #0
	str	r3, [r1, #12]
	add	sp, #28
	pop.w	{r4, r5, r6, r7, r8, r9, r10, r11, pc}
.Lfunc_end111:
	.size	ic_list_insert_after, .Lfunc_end111-ic_list_insert_after
	.cfi_endproc
	.section	.text.ic_list_insert_before,"ax",%progbits
	.globl	ic_list_insert_before
	.p2align	2
	.type	ic_list_insert_before,%function
	.code	16
	.thumb_func
ic_list_insert_before:
	.cfi_startproc
	push.w	{r4, r5, r6, r7, r8, r9, r10, r11, lr}
	.cfi_def_cfa_offset 36
	.cfi_offset lr, -4
	.cfi_offset r11, -8
	.cfi_offset r10, -12
	.cfi_offset r9, -16
	.cfi_offset r8, -20
	.cfi_offset r7, -24
	.cfi_offset r6, -28
	.cfi_offset r5, -32
	.cfi_offset r4, -36
	sub	sp, #24
	.cfi_def_cfa_offset 60
	ldr	r1, [sp, #68]
	mov	lr, r2
	str	r1, [sp, #20]
	ldrd	r1, r6, [sp, #60]
	cmp	r0, #0
	it	eq
	addeq.w	r0, r0, #4096
	ldrd	r4, r2, [r1, #8]
	ldrd	r12, r5, [r1]
	bic	r11, r4, #7
	adds	r4, r6, #1
	and	r8, r2, #15
	lsl.w	r10, r4, #3
	str	r6, [sp]
	str.w	r11, [sp, #16]
	str.w	r8, [sp, #8]
	bhs	.LBB112_4
	subs.w	r2, lr, r4
	sbcs	r2, r3, #0
	blo	.LBB112_17
	add.w	r2, r0, r10, lsl #1
	ldrb	r6, [r2, #-16]
	lsls	r6, r6, #31
	beq	.LBB112_17
	ldrd	r2, r6, [r2, #-8]
	and	r8, r6, #15
	bic	r11, r2, #7
.LBB112_4:
	and	r6, r5, #15
	bic	r9, r12, #7
	orrs.w	r2, r11, r8
	lsr.w	r5, r4, #29
	str	r2, [sp, #12]
	str	r6, [sp, #4]
	beq	.LBB112_7
	lsr.w	r2, r11, #3
	orr.w	r2, r2, r8, lsl #29
	subs.w	r2, lr, r2
	sbcs.w	r2, r3, r8, lsr #3
	blo	.LBB112_17
	add.w	r2, r0, r11, lsl #1
	ldrd	r2, r6, [r2, #-16]
	orr	r7, r10, #1
	bic	r2, r2, #6
	and	r6, r6, #15
	eors	r6, r5
	eors	r2, r7
	orrs	r2, r6
	beq	.LBB112_8
	b	.LBB112_17
	.p2align	2
.LBB112_7:
	eor.w	r2, r9, r10
	eor.w	r7, r6, r5
	orrs	r2, r7
	mov	r10, r9
	mov	r5, r6
	bne	.LBB112_17
.LBB112_8:
	ldr	r2, [sp, #20]
	adds	r6, r2, #1
	beq	.LBB112_17
	subs.w	r2, lr, r6
	sbcs	r2, r3, #0
	blo	.LBB112_17
	lsls	r2, r6, #3
	add.w	r12, r0, r2, lsl #1
	ldrb	r7, [r12, #-16]
	lsls	r7, r7, #31
	bne	.LBB112_17
	ldr	r7, [sp, #12]
	lsrs	r3, r6, #29
	clz	r7, r7
	lsrs	r7, r7, #5
	mov	lr, r2
	mov	r6, r3
	bne	.LBB112_13
	add.w	r7, r0, r11, lsl #1
	orr	r6, r2, #1
	strd	r6, r3, [r7, #-16]
	ldr	r6, [sp, #4]
	mov	lr, r9
.LBB112_13:
	ldr	r7, [sp, #16]
	cbz	r4, .LBB112_15
	add.w	r0, r0, r10, lsl #1
	strd	r2, r3, [r0, #-8]
	ldr	r3, [sp, #8]
	b	.LBB112_16
	.p2align	2
.LBB112_15:
	mov	r7, r2
.LBB112_16:
	orr	r0, r10, #1
	cmp	r4, #0
	itt	eq
	moveq	r5, r4
	moveq	r0, #1
	sub.w	r2, r12, #16
	stm.w	r2, {r0, r5, r11}
	str	r8, [r12, #-4]
	str.w	lr, [r1]
	str	r6, [r1, #4]
	str	r7, [r1, #8]
	movs	r0, #0
	str	r3, [r1, #12]
	add	sp, #24
	pop.w	{r4, r5, r6, r7, r8, r9, r10, r11, pc}
	.p2align	2
.LBB112_17:
	ldr	r1, [sp, #20]
	mov	r2, lr
	str	r1, [sp, #64]
	ldr	r1, [sp]
	str	r1, [sp, #60]
	add	sp, #24
	pop.w	{r4, r5, r6, r7, r8, r9, r10, r11, lr}
	b	ic_raw.table.RawTable.refusal.85cd03e557136797
.Lfunc_end112:
	.size	ic_list_insert_before, .Lfunc_end112-ic_list_insert_before
	.cfi_endproc
	.section	.text.ic_list_merge,"ax",%progbits
	.globl	ic_list_merge
	.p2align	2
	.type	ic_list_merge,%function
	.code	16
	.thumb_func
ic_list_merge:
	.cfi_startproc
	push.w	{r4, r5, r6, r7, r8, r9, r10, r11, lr}
	.cfi_def_cfa_offset 36
	.cfi_offset lr, -4
	.cfi_offset r11, -8
	.cfi_offset r10, -12
	.cfi_offset r9, -16
	.cfi_offset r8, -20
	.cfi_offset r7, -24
	.cfi_offset r6, -28
	.cfi_offset r5, -32
	.cfi_offset r4, -36
	sub	sp, #100
	.cfi_def_cfa_offset 136
	ldr	r1, [sp, #156]
	mov	r10, r3
	ldrd	r7, r3, [sp, #144]
	str	r1, [sp, #60]
	ldr	r1, [sp, #152]
	cmp	r0, #0
	str	r1, [sp, #56]
	ldr	r1, [sp, #136]
	it	eq
	addeq.w	r0, r0, #4096
	cmp	r1, #0
	it	eq
	addeq.w	r1, r1, #4096
	str	r1, [sp, #80]
	movs	r1, #0
	strd	r1, r7, [sp, #84]
	strd	r0, r1, [sp, #64]
	subs	r1, r7, r2
	sbcs.w	r1, r3, r10
	str	r3, [sp, #92]
	str.w	r10, [sp, #76]
	str	r7, [sp, #12]
	str	r3, [sp, #16]
	str	r2, [sp, #72]
	blo.w	.LBB113_30
	ldr	r6, [sp, #56]
	ldm	r6, {r1, r3, r5, r6}
	and	r7, r3, #15
	bic	r3, r1, #7
	ldr	r1, [sp, #60]
	and	r6, r6, #15
	ldr	r4, [r1]
	str	r4, [sp, #44]
	ldr	r4, [r1, #4]
	str	r4, [sp, #32]
	ldr	r4, [r1, #8]
	ldr	r1, [r1, #12]
	str	r4, [sp, #40]
	str	r1, [sp, #28]
	orrs.w	r1, r3, r7
	str	r1, [sp, #36]
	bic	r1, r5, #7
	strd	r7, r3, [sp, #48]
	strd	r1, r6, [sp, #20]
	beq	.LBB113_9
	mov.w	lr, #0
	mov.w	r12, #0
	movs	r6, #0
	movs	r4, #0
	.p2align	2
.LBB113_3:
	subs	r5, r6, r2
	sbcs.w	r5, r4, r10
	bhs.w	.LBB113_30
	mov	r5, r3
	lsrs	r3, r3, #3
	orr.w	r3, r3, r7, lsl #29
	mov	r11, r7
	lsrs	r7, r7, #3
	subs	r3, r2, r3
	sbcs.w	r3, r10, r7
	blo.w	.LBB113_30
	add.w	r3, r0, r5, lsl #1
	ldr	r7, [r3, #-16]
	lsls.w	r9, r7, #31
	beq.w	.LBB113_30
	ldrd	r1, r9, [r3, #-8]
	bic	r8, r1, #7
	and	r1, r9, #15
	eor.w	r12, r12, r1
	eor.w	r1, r8, lr
	orrs.w	r1, r1, r12
	bne.w	.LBB113_30
	ldr	r1, [r3, #-12]
	bic	r3, r7, #7
	and	r7, r1, #15
	adds	r6, #1
	adc	r4, r4, #0
	orrs.w	r1, r3, r7
	mov	lr, r5
	mov	r12, r11
	bne	.LBB113_3
	ldr	r1, [sp, #20]
	ldr	r3, [sp, #24]
	eors	r1, r5
	eor.w	r3, r3, r11
	orrs	r1, r3
	beq	.LBB113_10
	b	.LBB113_30
	.p2align	2
.LBB113_9:
	orrs	r1, r6
	bne.w	.LBB113_30
.LBB113_10:
	ldr	r1, [sp, #32]
	and	r5, r1, #15
	ldr	r1, [sp, #44]
	bic	r4, r1, #7
	ldr	r1, [sp, #28]
	orrs.w	r3, r4, r5
	and	r6, r1, #15
	ldr	r1, [sp, #40]
	bic	r7, r1, #7
	ldr	r1, [sp, #36]
	clz	r1, r1
	lsr.w	r1, r1, #5
	str	r1, [sp, #44]
	beq.w	.LBB113_27
	strd	r6, r7, [sp, #28]
	mov.w	r11, #0
	strd	r4, r5, [sp, #36]
	mov	r3, r5
	mov.w	r12, #0
	movs	r5, #0
	movs	r6, #0
	.p2align	2
.LBB113_12:
	mov	r8, r3
	subs	r3, r5, r2
	sbcs.w	r3, r6, r10
	bhs.w	.LBB113_30
	lsrs	r3, r4, #3
	orr.w	r3, r3, r8, lsl #29
	mov	r7, r4
	lsr.w	r4, r8, #3
	subs	r3, r2, r3
	sbcs.w	r3, r10, r4
	blo.w	.LBB113_30
	add.w	r3, r0, r7, lsl #1
	ldr	r4, [r3, #-16]
	lsls.w	r9, r4, #31
	beq.w	.LBB113_30
	ldrd	r1, r9, [r3, #-8]
	bic	lr, r1, #7
	and	r1, r9, #15
	eor.w	r12, r12, r1
	eor.w	r1, lr, r11
	orrs.w	r1, r1, r12
	bne.w	.LBB113_30
	ldr	r1, [r3, #-12]
	bic	r4, r4, #7
	and	r3, r1, #15
	adds	r5, #1
	adc	r6, r6, #0
	orrs.w	r1, r4, r3
	mov	r11, r7
	mov	r12, r8
	bne	.LBB113_12
	ldr	r1, [sp, #52]
	ldr	r3, [sp, #36]
	ldr	r6, [sp, #40]
	eors	r1, r3
	ldr	r3, [sp, #48]
	eors	r3, r6
	orrs	r1, r3
	beq	.LBB113_30
	ldr	r1, [sp, #32]
	ldr	r3, [sp, #28]
	eors	r1, r7
	eor.w	r3, r3, r8
	orrs	r1, r3
	bne	.LBB113_30
	ldr	r1, [sp, #44]
	cmp	r1, #0
	bne	.LBB113_31
	add	r2, sp, #64
	mov	r4, r0
	mov	r0, r2
	ldrd	r3, r2, [sp, #48]
	ldrd	r6, r7, [sp, #36]
	add	r1, sp, #80
	strd	r6, r7, [sp]
	bl	ic_list_algorithms.merge.merge_runs.6bd71b5c7308988e
	add.w	r6, r4, r0, lsl #1
	ldrd	r3, r7, [r6, #-16]
	movs	r2, #0
	and	r8, r7, #15
	bic	r5, r3, #7
	orrs.w	r3, r5, r8
	str	r2, [r6, #-8]
	str	r2, [r6, #-4]
	beq	.LBB113_33
	mov	r12, r4
	mov	r2, r0
	mov	lr, r1
	.p2align	2
.LBB113_22:
	add.w	r7, r12, r5, lsl #1
	ldrd	r6, r3, [r7, #-16]
	strd	r2, lr, [r7, #-8]
	and	r3, r3, #15
	bic	r4, r6, #7
	orrs.w	r6, r4, r3
	beq	.LBB113_35
	add.w	r6, r12, r4, lsl #1
	ldrd	r2, r7, [r6, #-16]
	strd	r5, r8, [r6, #-8]
	and	r8, r7, #15
	bic	r5, r2, #7
	orrs.w	r2, r5, r8
	beq	.LBB113_34
	add.w	r7, r12, r5, lsl #1
	ldrd	r2, r6, [r7, #-16]
	strd	r4, r3, [r7, #-8]
	and	lr, r6, #15
	bic	r2, r2, #7
	orrs.w	r6, r2, lr
	beq	.LBB113_35
	add.w	r3, r12, r2, lsl #1
	ldrd	r7, r6, [r3, #-16]
	strd	r5, r8, [r3, #-8]
	and	r8, r6, #15
	bic	r5, r7, #7
	orrs.w	r3, r5, r8
	bne	.LBB113_22
	mov	r5, r2
	mov	r8, lr
	b	.LBB113_35
	.p2align	2
.LBB113_27:
	orrs.w	r0, r7, r6
	bne	.LBB113_30
	ldr	r0, [sp, #44]
	cbnz	r0, .LBB113_32
	ldrd	r5, r8, [sp, #20]
	ldrd	r1, r0, [sp, #48]
	b	.LBB113_35
	.p2align	2
.LBB113_30:
	mov	r0, r2
	ldrd	r2, r3, [sp, #12]
	mov	r1, r10
	add	sp, #100
	pop.w	{r4, r5, r6, r7, r8, r9, r10, r11, lr}
	b	ic_raw.sort_calls.refusal.78cbab63d6c27224
	.p2align	2
.LBB113_31:
	ldrd	r0, r1, [sp, #36]
	ldrd	r8, r5, [sp, #28]
	b	.LBB113_35
	.p2align	2
.LBB113_32:
	movs	r0, #0
	movs	r1, #0
	movs	r5, #0
	mov.w	r8, #0
	b	.LBB113_35
	.p2align	2
.LBB113_33:
	mov	r5, r0
	mov	r8, r1
	b	.LBB113_35
	.p2align	2
.LBB113_34:
	mov	r5, r4
	mov	r8, r3
.LBB113_35:
	ldr	r2, [sp, #56]
	str	r0, [r2]
	str	r1, [r2, #4]
	str	r5, [r2, #8]
	str.w	r8, [r2, #12]
	ldr	r2, [sp, #60]
	movs	r1, #0
	str	r1, [r2, #12]
	str	r1, [r2, #8]
	str	r1, [r2, #4]
	movs	r0, #0
	str	r1, [r2]
	add	sp, #100
	pop.w	{r4, r5, r6, r7, r8, r9, r10, r11, pc}
.Lfunc_end113:
	.size	ic_list_merge, .Lfunc_end113-ic_list_merge
	.cfi_endproc
	.section	.text.ic_list_move_after,"ax",%progbits
	.globl	ic_list_move_after
	.p2align	2
	.type	ic_list_move_after,%function
	.code	16
	.thumb_func
ic_list_move_after:
	.cfi_startproc
	push.w	{r4, r5, r6, r7, r8, r9, r10, r11, lr}
	.cfi_def_cfa_offset 36
	.cfi_offset lr, -4
	.cfi_offset r11, -8
	.cfi_offset r10, -12
	.cfi_offset r9, -16
	.cfi_offset r8, -20
	.cfi_offset r7, -24
	.cfi_offset r6, -28
	.cfi_offset r5, -32
	.cfi_offset r4, -36
	sub	sp, #60
	.cfi_def_cfa_offset 96
	ldr	r1, [sp, #104]
	cmp	r0, #0
	it	eq
	addeq.w	r0, r0, #4096
	adds	r7, r1, #1
	blo	.LBB114_2
	movs	r0, #4
	add	sp, #60
	pop.w	{r4, r5, r6, r7, r8, r9, r10, r11, pc}
	.p2align	2
.LBB114_2:
	subs	r1, r2, r7
	sbcs	r1, r3, #0
	blo	.LBB114_12
	lsls	r1, r7, #3
	add.w	lr, r0, r1, lsl #1
	ldr	r6, [lr, #-16]
	lsls	r5, r6, #31
	beq	.LBB114_12
	ldrd	r5, r4, [lr, #-8]
	and	r4, r4, #15
	bic	r5, r5, #7
	str	r4, [sp, #48]
	str	r5, [sp, #56]
	orrs	r5, r4
	itttt	ne
	ldrne	r5, [lr, #-12]
	bicne	r4, r6, #7
	andne	r6, r5, #15
	strne	r6, [sp, #44]
	itt	ne
	strne	r4, [sp, #52]
	orrsne.w	r6, r6, r4
	beq	.LBB114_12
	ldr	r6, [sp, #56]
	ldr	r5, [sp, #48]
	lsrs	r6, r6, #3
	orr.w	r6, r6, r5, lsl #29
	lsrs	r5, r5, #3
	subs	r6, r2, r6
	sbcs.w	r6, r3, r5
	blo	.LBB114_12
	ldr	r4, [sp, #56]
	lsr.w	r12, r7, #29
	add.w	r4, r0, r4, lsl #1
	str	r4, [sp, #24]
	ldrd	r4, r5, [r4, #-16]
	orr	r6, r1, #1
	str	r5, [sp, #28]
	eor.w	r5, r5, r12
	eors	r6, r4
	orrs	r6, r5
	str	r4, [sp, #32]
	bne	.LBB114_12
	ldr	r4, [sp, #52]
	lsrs	r6, r4, #3
	ldr	r4, [sp, #44]
	orr.w	r6, r6, r4, lsl #29
	lsrs	r5, r4, #3
	subs	r6, r2, r6
	sbcs.w	r6, r3, r5
	blo	.LBB114_12
	ldr	r4, [sp, #52]
	add.w	r4, r0, r4, lsl #1
	ldrd	r6, r5, [r4, #-8]
	str	r4, [sp, #40]
	eor.w	r5, r5, r12
	eors	r6, r1
	orrs	r6, r5
	bne	.LBB114_12
	ldr	r4, [sp, #100]
	adds	r5, r4, #1
	subs	r6, r2, r5
	sbcs	r6, r3, #0
	blo	.LBB114_12
	cmp	r5, #0
	ittt	ne
	ldrne	r4, [sp, #40]
	ldrne	r6, [r4, #-16]
	lslsne.w	r6, r6, #31
	beq	.LBB114_12
	lsl.w	r11, r5, #3
	add.w	r4, r0, r11, lsl #1
	str	r4, [sp, #36]
	ldr	r4, [r4, #-16]
	lsls	r6, r4, #31
	itttt	ne
	ldrne	r6, [sp, #36]
	ldrne	r6, [r6, #-12]
	bicne	r9, r4, #7
	andne	r8, r6, #15
	it	ne
	orrsne.w	r7, r9, r8
	bne	.LBB114_13
.LBB114_12:
	ldr	r7, [sp, #96]
	movs	r1, #0
	strd	r7, r1, [sp]
	ldr	r1, [sp, #100]
	str	r1, [sp, #8]
	ldr	r1, [sp, #104]
	str	r1, [sp, #12]
	bl	ic_raw.move_calls.move_slow.5386baa488213e47
	add	sp, #60
	pop.w	{r4, r5, r6, r7, r8, r9, r10, r11, pc}
	.p2align	2
.LBB114_13:
	lsrs	r4, r4, #3
	orr.w	r4, r4, r6, lsl #29
	lsr.w	r6, r8, #3
	subs	r4, r2, r4
	sbcs.w	r4, r3, r6
	blo	.LBB114_12
	add.w	r10, r0, r9, lsl #1
	ldrd	r6, r7, [r10, #-8]
	lsrs	r4, r5, #29
	eor.w	r5, r7, r4
	eor.w	r6, r6, r11
	orrs	r5, r6
	bne	.LBB114_12
	ldr	r5, [r10, #-16]
	lsls	r5, r5, #31
	beq	.LBB114_12
	eor.w	r0, r11, r1
	eor.w	r2, r4, r12
	orrs	r0, r2
	mov.w	r0, #0
	ittt	ne
	eorne.w	r2, r9, r1
	eorne.w	r3, r8, r12
	orrsne.w	r2, r2, r3
	beq	.LBB114_18
	ldr	r7, [sp, #96]
	ldr	r0, [sp, #52]
	ldm.w	r7, {r2, r3, r5}
	str	r5, [sp, #20]
	ldr	r5, [r7, #12]
	ldr	r6, [sp, #44]
	str	r5, [sp, #52]
	ldr	r5, [sp, #24]
	orr	r0, r0, #1
	strd	r0, r6, [r5, #-16]
	ldr	r0, [sp, #48]
	ldr	r6, [sp, #56]
	ldr	r5, [sp, #40]
	strd	r6, r0, [r5, #-8]
	ldrd	r6, r0, [sp, #28]
	ldr	r5, [sp, #36]
	strd	r0, r6, [r5, #-16]
	strd	r1, r12, [r10, #-8]
	orr	r0, r9, #1
	sub.w	r1, lr, #16
	stm.w	r1, {r0, r8, r11}
	bic	r0, r2, #7
	str	r4, [lr, #-4]
	str	r0, [r7]
	and	r0, r3, #15
	str	r0, [r7, #4]
	ldr	r0, [sp, #20]
	bic	r0, r0, #7
	str	r0, [r7, #8]
	ldr	r0, [sp, #52]
	and	r0, r0, #15
	str	r0, [r7, #12]
	movs	r0, #0
.LBB114_18:
	add	sp, #60
	pop.w	{r4, r5, r6, r7, r8, r9, r10, r11, pc}
.Lfunc_end114:
	.size	ic_list_move_after, .Lfunc_end114-ic_list_move_after
	.cfi_endproc
	.section	.text.ic_list_move_before,"ax",%progbits
	.globl	ic_list_move_before
	.p2align	2
	.type	ic_list_move_before,%function
	.code	16
	.thumb_func
ic_list_move_before:
	.cfi_startproc
	push.w	{r4, r5, r6, r7, r8, r9, r10, r11, lr}
	.cfi_def_cfa_offset 36
	.cfi_offset lr, -4
	.cfi_offset r11, -8
	.cfi_offset r10, -12
	.cfi_offset r9, -16
	.cfi_offset r8, -20
	.cfi_offset r7, -24
	.cfi_offset r6, -28
	.cfi_offset r5, -32
	.cfi_offset r4, -36
	sub	sp, #68
	.cfi_def_cfa_offset 104
	ldr	r1, [sp, #112]
	cmp	r0, #0
	it	eq
	addeq.w	r0, r0, #4096
	adds	r5, r1, #1
	blo	.LBB115_2
	movs	r0, #4
	add	sp, #68
	pop.w	{r4, r5, r6, r7, r8, r9, r10, r11, pc}
	.p2align	2
.LBB115_2:
	subs	r1, r2, r5
	sbcs	r1, r3, #0
	blo	.LBB115_12
	lsl.w	r11, r5, #3
	add.w	lr, r0, r11, lsl #1
	ldr	r7, [lr, #-16]
	lsls	r6, r7, #31
	beq	.LBB115_12
	ldrd	r6, r4, [lr, #-8]
	and	r4, r4, #15
	bic	r6, r6, #7
	str	r4, [sp, #56]
	str	r6, [sp, #64]
	orrs	r6, r4
	itttt	ne
	ldrne	r4, [lr, #-12]
	bicne	r7, r7, #7
	andne	r6, r4, #15
	strne	r7, [sp, #60]
	it	ne
	orrsne.w	r4, r7, r6
	beq	.LBB115_12
	ldr	r7, [sp, #64]
	lsrs	r4, r7, #3
	ldr	r7, [sp, #56]
	orr.w	r4, r4, r7, lsl #29
	lsrs	r7, r7, #3
	subs	r4, r2, r4
	sbcs.w	r7, r3, r7
	blo	.LBB115_12
	ldr	r7, [sp, #64]
	lsr.w	r8, r5, #29
	add.w	r1, r0, r7, lsl #1
	str	r1, [sp, #32]
	ldrd	r1, r4, [r1, #-16]
	orr	r7, r11, #1
	str	r4, [sp, #36]
	eor.w	r4, r4, r8
	eors	r7, r1
	orrs	r7, r4
	str	r1, [sp, #40]
	bne	.LBB115_12
	ldr	r7, [sp, #60]
	lsrs	r4, r6, #3
	lsrs	r7, r7, #3
	orr.w	r7, r7, r6, lsl #29
	subs	r7, r2, r7
	sbcs.w	r7, r3, r4
	blo	.LBB115_12
	ldr	r7, [sp, #60]
	add.w	r1, r0, r7, lsl #1
	ldrd	r7, r4, [r1, #-8]
	str	r1, [sp, #52]
	eor.w	r4, r4, r8
	eor.w	r7, r7, r11
	orrs	r7, r4
	bne	.LBB115_12
	ldr	r7, [sp, #108]
	add.w	r12, r7, #1
	subs.w	r7, r2, r12
	sbcs	r7, r3, #0
	blo	.LBB115_12
	cmp.w	r12, #0
	ittt	ne
	ldrne	r7, [sp, #52]
	ldrne	r7, [r7, #-16]
	lslsne.w	r7, r7, #31
	beq	.LBB115_12
	lsl.w	r1, r12, #3
	add.w	r7, r0, r1, lsl #1
	str	r7, [sp, #44]
	ldrb	r7, [r7, #-16]
	str	r1, [sp, #48]
	lsls	r7, r7, #31
	itttt	ne
	ldrne	r7, [sp, #44]
	ldrdne	r10, r4, [r7, #-8]
	andne	r1, r4, #15
	bicne	r9, r10, #7
	it	ne
	orrsne.w	r7, r9, r1
	bne	.LBB115_13
.LBB115_12:
	ldr	r7, [sp, #104]
	movs	r1, #1
	strd	r7, r1, [sp]
	ldr	r1, [sp, #108]
	str	r1, [sp, #8]
	ldr	r1, [sp, #112]
	str	r1, [sp, #12]
	bl	ic_raw.move_calls.move_slow.5386baa488213e47
	add	sp, #68
	pop.w	{r4, r5, r6, r7, r8, r9, r10, r11, pc}
	.p2align	2
.LBB115_13:
	lsr.w	r7, r10, #3
	orr.w	r4, r7, r4, lsl #29
	lsrs	r7, r1, #3
	subs	r4, r2, r4
	sbcs.w	r4, r3, r7
	blo	.LBB115_12
	add.w	r7, r0, r9, lsl #1
	mov	r5, r8
	mov	r8, r1
	ldr	r1, [sp, #48]
	lsr.w	r4, r12, #29
	mov	r12, r11
	mov	r11, lr
	ldrd	r10, lr, [r7, #-16]
	str	r7, [sp, #20]
	orr	r7, r1, #1
	mov	r1, r5
	mov	r5, r6
	eor.w	r6, lr, r4
	eor.w	r7, r7, r10
	orrs	r6, r7
	str.w	lr, [sp, #24]
	str.w	r10, [sp, #28]
	bne	.LBB115_12
	mov	lr, r11
	mov	r11, r12
	mov	r12, r8
	eor.w	r0, r9, r11
	eor.w	r2, r12, r1
	orrs	r0, r2
	mov	r8, r9
	mov	r6, r5
	mov	r5, r1
	mov.w	r0, #0
	itttt	ne
	ldrne	r1, [sp, #48]
	eorne.w	r2, r1, r11
	eorne.w	r3, r4, r5
	orrsne.w	r2, r2, r3
	beq	.LBB115_17
	ldr	r0, [sp, #60]
	ldr	r7, [sp, #104]
	ldr	r1, [sp, #32]
	orr	r0, r0, #1
	ldm.w	r7, {r2, r3, r4, r9}
	strd	r0, r6, [r1, #-16]
	ldr	r6, [sp, #64]
	ldrd	r1, r0, [sp, #52]
	strd	r6, r0, [r1, #-8]
	ldrd	r1, r0, [sp, #36]
	ldr	r6, [sp, #20]
	strd	r0, r1, [r6, #-16]
	ldr	r0, [sp, #44]
	strd	r11, r5, [r0, #-8]
	ldr	r0, [sp, #28]
	str	r0, [lr, #-16]
	ldr	r0, [sp, #24]
	stmdb	lr, {r0, r8, r12}
	bic	r0, r2, #7
	str	r0, [r7]
	and	r0, r3, #15
	str	r0, [r7, #4]
	bic	r0, r4, #7
	str	r0, [r7, #8]
	and	r0, r9, #15
	str	r0, [r7, #12]
	movs	r0, #0
.LBB115_17:
	add	sp, #68
	pop.w	{r4, r5, r6, r7, r8, r9, r10, r11, pc}
.Lfunc_end115:
	.size	ic_list_move_before, .Lfunc_end115-ic_list_move_before
	.cfi_endproc
	.section	.text.ic_list_move_to_back,"ax",%progbits
	.globl	ic_list_move_to_back
	.p2align	2
	.type	ic_list_move_to_back,%function
	.code	16
	.thumb_func
ic_list_move_to_back:
	.cfi_startproc
	push.w	{r4, r5, r6, r7, r8, r9, r10, r11, lr}
	.cfi_def_cfa_offset 36
	.cfi_offset lr, -4
	.cfi_offset r11, -8
	.cfi_offset r10, -12
	.cfi_offset r9, -16
	.cfi_offset r8, -20
	.cfi_offset r7, -24
	.cfi_offset r6, -28
	.cfi_offset r5, -32
	.cfi_offset r4, -36
	sub	sp, #36
	.cfi_def_cfa_offset 72
	ldr	r1, [sp, #76]
	cmp	r0, #0
	it	eq
	addeq.w	r0, r0, #4096
	adds	r7, r1, #1
	blo	.LBB116_2
	movs	r0, #4
	add	sp, #36
	pop.w	{r4, r5, r6, r7, r8, r9, r10, r11, pc}
	.p2align	2
.LBB116_2:
	subs	r1, r2, r7
	sbcs	r1, r3, #0
	blo.w	.LBB116_18
	lsl.w	r9, r7, #3
	ldr	r1, [sp, #72]
	add.w	r5, r0, r9, lsl #1
	ldrd	r10, r12, [r5, #-16]
	ldrd	r1, r6, [r1, #8]
	lsr.w	r11, r7, #29
	lsls.w	r7, r10, #31
	and	lr, r6, #15
	bic	r7, r1, #7
	beq.w	.LBB116_14
	ldrd	r1, r6, [r5, #-8]
	and	r8, r6, #15
	bic	r4, r1, #7
	orrs.w	r1, r4, r8
	beq	.LBB116_14
	bic	r6, r10, #7
	and	r1, r12, #15
	strd	r1, r6, [sp, #28]
	orrs	r6, r1
	beq	.LBB116_14
	lsrs	r6, r4, #3
	orr.w	r6, r6, r8, lsl #29
	lsr.w	r1, r8, #3
	subs	r6, r2, r6
	sbcs.w	r1, r3, r1
	blo	.LBB116_14
	add.w	r1, r0, r4, lsl #1
	str	r1, [sp, #12]
	ldrd	r1, r6, [r1, #-16]
	orr	r12, r9, #1
	str	r6, [sp, #16]
	eor.w	r6, r6, r11
	str	r1, [sp, #20]
	eor.w	r1, r1, r12
	ldr.w	r10, [sp, #28]
	orrs	r1, r6
	bne.w	.LBB116_18
	ldr	r1, [sp, #32]
	lsr.w	r6, r10, #3
	lsrs	r1, r1, #3
	orr.w	r1, r1, r10, lsl #29
	subs	r1, r2, r1
	sbcs.w	r1, r3, r6
	blo	.LBB116_18
	ldr	r1, [sp, #32]
	add.w	r1, r0, r1, lsl #1
	str	r1, [sp, #24]
	ldrd	r1, r6, [r1, #-8]
	eor.w	r6, r6, r11
	eor.w	r1, r1, r9
	orrs	r1, r6
	bne	.LBB116_18
	ldr	r1, [sp, #24]
	ldr	r1, [r1, #-16]
	lsls	r1, r1, #31
	it	ne
	orrsne.w	r1, r7, lr
	beq	.LBB116_18
	lsrs	r1, r7, #3
	orr.w	r1, r1, lr, lsl #29
	lsr.w	r6, lr, #3
	subs	r1, r2, r1
	sbcs.w	r1, r3, r6
	blo	.LBB116_18
	add.w	r12, r0, r7, lsl #1
	ldrd	r1, r6, [r12, #-16]
	eor	r1, r1, #1
	orrs	r1, r6
	bne	.LBB116_18
	ldr	r0, [sp, #32]
	ldr	r3, [sp, #72]
	ldr	r6, [sp, #12]
	orr	r0, r0, #1
	ldrd	r1, r2, [r3]
	strd	r0, r10, [r6, #-16]
	ldr	r0, [sp, #24]
	bic	r1, r1, #7
	strd	r4, r8, [r0, #-8]
	ldrd	r4, r0, [sp, #16]
	strd	r0, r4, [r12, #-16]
	movs	r0, #1
	str	r0, [r5, #-16]
	movs	r0, #0
	strd	r7, lr, [r5, #-8]
	str	r0, [r5, #-12]
	str	r1, [r3]
	and	r1, r2, #15
	str	r1, [r3, #4]
	str.w	r9, [r3, #8]
	str.w	r11, [r3, #12]
	add	sp, #36
	pop.w	{r4, r5, r6, r7, r8, r9, r10, r11, pc}
	.p2align	2
.LBB116_14:
	eor.w	r1, r7, r9
	eor.w	r7, lr, r11
	orrs	r1, r7
	itt	eq
	eoreq	r1, r10, #1
	orrseq.w	r1, r1, r12
	bne	.LBB116_18
	ldrd	r1, r6, [r5, #-8]
	and	r5, r6, #15
	bic	r7, r1, #7
	orrs.w	r4, r7, r5
	beq	.LBB116_18
	lsrs	r1, r1, #3
	orr.w	r1, r1, r6, lsl #29
	lsrs	r6, r5, #3
	subs	r1, r2, r1
	sbcs.w	r1, r3, r6
	blo	.LBB116_18
	add.w	r1, r0, r7, lsl #1
	ldrd	r1, r7, [r1, #-16]
	orr	r6, r9, #1
	eor.w	r7, r7, r11
	eors	r1, r6
	orrs	r1, r7
	ittt	eq
	moveq	r0, #0
	addeq	sp, #36
	popeq.w	{r4, r5, r6, r7, r8, r9, r10, r11, pc}
.LBB116_18:
	ldr	r7, [sp, #72]
	movs	r1, #1
	strd	r7, r1, [sp]
	ldr	r1, [sp, #76]
	str	r1, [sp, #8]
	bl	ic_raw.move_calls.move_to_end_slow.5386baa488213e47
	add	sp, #36
	pop.w	{r4, r5, r6, r7, r8, r9, r10, r11, pc}
.Lfunc_end116:
	.size	ic_list_move_to_back, .Lfunc_end116-ic_list_move_to_back
	.cfi_endproc
	.section	.text.ic_list_move_to_front,"ax",%progbits
	.globl	ic_list_move_to_front
	.p2align	2
	.type	ic_list_move_to_front,%function
	.code	16
	.thumb_func
ic_list_move_to_front:
	.cfi_startproc
	push.w	{r4, r5, r6, r7, r8, r9, r10, r11, lr}
	.cfi_def_cfa_offset 36
	.cfi_offset lr, -4
	.cfi_offset r11, -8
	.cfi_offset r10, -12
	.cfi_offset r9, -16
	.cfi_offset r8, -20
	.cfi_offset r7, -24
	.cfi_offset r6, -28
	.cfi_offset r5, -32
	.cfi_offset r4, -36
	sub	sp, #44
	.cfi_def_cfa_offset 80
	ldr	r1, [sp, #84]
	cmp	r0, #0
	it	eq
	addeq.w	r0, r0, #4096
	adds	r7, r1, #1
	blo	.LBB117_2
	movs	r0, #4
	add	sp, #44
	pop.w	{r4, r5, r6, r7, r8, r9, r10, r11, pc}
	.p2align	2
.LBB117_2:
	subs	r1, r2, r7
	sbcs	r1, r3, #0
	blo.w	.LBB117_21
	lsls	r4, r7, #3
	ldr	r1, [sp, #80]
	add.w	r5, r0, r4, lsl #1
	lsr.w	r9, r7, #29
	ldrd	r7, r1, [r1]
	ldrd	r12, r6, [r5, #-16]
	and	r10, r1, #15
	lsls.w	r11, r12, #31
	bic	lr, r7, #7
	beq.w	.LBB117_16
	ldrd	r1, r7, [r5, #-8]
	and	r8, r7, #15
	bic	r1, r1, #7
	orrs.w	r7, r1, r8
	str	r1, [sp, #40]
	beq	.LBB117_16
	bic	r7, r12, #7
	and	r1, r6, #15
	strd	r1, r7, [sp, #32]
	orrs	r7, r1
	beq	.LBB117_16
	ldr	r1, [sp, #40]
	lsrs	r7, r1, #3
	orr.w	r7, r7, r8, lsl #29
	lsr.w	r1, r8, #3
	subs	r7, r2, r7
	sbcs.w	r1, r3, r1
	blo	.LBB117_16
	ldr	r1, [sp, #40]
	add.w	r1, r0, r1, lsl #1
	str	r1, [sp, #16]
	ldrd	r1, r7, [r1, #-16]
	str	r1, [sp, #28]
	orr	r1, r4, #1
	str	r1, [sp, #24]
	eor.w	r1, r7, r9
	str	r1, [sp, #20]
	ldrd	r7, r1, [sp, #24]
	eors	r1, r7
	ldr	r7, [sp, #20]
	orrs	r1, r7
	bne	.LBB117_16
	ldr	r1, [sp, #36]
	ldr	r7, [sp, #32]
	lsrs	r1, r1, #3
	orr.w	r1, r1, r7, lsl #29
	lsrs	r7, r7, #3
	subs	r1, r2, r1
	sbcs.w	r1, r3, r7
	blo	.LBB117_16
	ldr	r1, [sp, #36]
	add.w	r1, r0, r1, lsl #1
	str	r1, [sp, #28]
	ldrd	r1, r7, [r1, #-8]
	eor.w	r7, r7, r9
	eors	r1, r4
	orrs	r1, r7
	bne	.LBB117_16
	ldr	r1, [sp, #28]
	ldr	r1, [r1, #-16]
	lsls	r1, r1, #31
	beq	.LBB117_16
	ldr.w	r11, [sp, #28]
	orrs.w	r1, lr, r10
	beq	.LBB117_21
	lsr.w	r1, lr, #3
	orr.w	r1, r1, r10, lsl #29
	lsr.w	r7, r10, #3
	subs	r1, r2, r1
	sbcs.w	r1, r3, r7
	blo	.LBB117_21
	add.w	r6, r0, lr, lsl #1
	ldrd	r1, r7, [r6, #-8]
	orrs	r1, r7
	bne	.LBB117_21
	ldr	r1, [r6, #-16]
	lsls	r1, r1, #31
	beq	.LBB117_21
	ldr	r7, [sp, #80]
	ldr	r3, [sp, #32]
	ldrd	r0, r1, [r7, #8]
	bic	r2, r0, #7
	ldr	r0, [sp, #36]
	and	r12, r1, #15
	ldr	r1, [sp, #16]
	orr	r0, r0, #1
	strd	r0, r3, [r1, #-16]
	ldr	r0, [sp, #40]
	orr	r3, lr, #1
	strd	r0, r8, [r11, #-8]
	movs	r0, #0
	strd	r4, r9, [r6, #-8]
	strd	r3, r10, [r5, #-16]
	strd	r0, r0, [r5, #-8]
	str	r4, [r7]
	str.w	r9, [r7, #4]
	str	r2, [r7, #8]
	str.w	r12, [r7, #12]
	add	sp, #44
	pop.w	{r4, r5, r6, r7, r8, r9, r10, r11, pc}
	.p2align	2
.LBB117_16:
	eor.w	r1, lr, r4
	eor.w	r7, r10, r9
	orrs	r1, r7
	itt	eq
	ldrdeq	r1, r7, [r5, #-8]
	orrseq.w	r1, r1, r7
	bne	.LBB117_21
	cmp.w	r11, #0
	ittt	ne
	bicne	r5, r12, #7
	andne	r7, r6, #15
	orrsne.w	r1, r5, r7
	beq	.LBB117_21
	lsr.w	r1, r12, #3
	orr.w	r1, r1, r6, lsl #29
	lsrs	r7, r7, #3
	subs	r1, r2, r1
	sbcs.w	r1, r3, r7
	blo	.LBB117_21
	add.w	r7, r0, r5, lsl #1
	ldrd	r1, r6, [r7, #-8]
	eor.w	r6, r6, r9
	eors	r1, r4
	orrs	r1, r6
	bne	.LBB117_21
	ldr	r1, [r7, #-16]
	lsls	r1, r1, #31
	ittt	ne
	movne	r0, #0
	addne	sp, #44
	popne.w	{r4, r5, r6, r7, r8, r9, r10, r11, pc}
.LBB117_21:
	ldr	r7, [sp, #80]
	movs	r1, #0
	strd	r7, r1, [sp]
	ldr	r1, [sp, #84]
	str	r1, [sp, #8]
	bl	ic_raw.move_calls.move_to_end_slow.5386baa488213e47
	add	sp, #44
	pop.w	{r4, r5, r6, r7, r8, r9, r10, r11, pc}
.Lfunc_end117:
	.size	ic_list_move_to_front, .Lfunc_end117-ic_list_move_to_front
	.cfi_endproc
	.section	.text.ic_list_pop_back,"ax",%progbits
	.globl	ic_list_pop_back
	.p2align	2
	.type	ic_list_pop_back,%function
	.code	16
	.thumb_func
ic_list_pop_back:
	.cfi_startproc
	push.w	{r4, r5, r6, r7, r8, r9, r10, r11, lr}
	.cfi_def_cfa_offset 36
	.cfi_offset lr, -4
	.cfi_offset r11, -8
	.cfi_offset r10, -12
	.cfi_offset r9, -16
	.cfi_offset r8, -20
	.cfi_offset r7, -24
	.cfi_offset r6, -28
	.cfi_offset r5, -32
	.cfi_offset r4, -36
	sub	sp, #4
	.cfi_def_cfa_offset 40
	mov	r1, r0
	ldr	r0, [sp, #40]
	cmp	r1, #0
	ldrd	r5, r6, [r0, #8]
	it	eq
	addeq.w	r1, r1, #4096
	and	r11, r6, #15
	bic	r12, r5, #7
	orrs.w	r7, r12, r11
	beq	.LBB118_10
	lsrs	r7, r5, #3
	orr.w	r9, r7, r6, lsl #29
	lsr.w	r7, r11, #3
	subs.w	r6, r2, r9
	sbcs.w	r7, r3, r7
	blo	.LBB118_10
	add.w	lr, r1, r12, lsl #1
	ldrd	r5, r6, [lr, #-16]
	bic	r5, r5, #6
	and	r6, r6, #15
	eor	r5, r5, #1
	orrs	r5, r6
	bne	.LBB118_10
	ldr	r4, [sp, #44]
	ldrd	r7, r5, [r0]
	str	r4, [sp]
	ldrd	r6, r4, [lr, #-8]
	and	r10, r5, #15
	and	r8, r4, #15
	bic	r5, r6, #7
	orrs.w	r4, r5, r8
	bic	r7, r7, #7
	beq	.LBB118_7
	lsrs	r4, r5, #3
	orr.w	r4, r4, r8, lsl #29
	subs	r2, r2, r4
	sbcs.w	r2, r3, r8, lsr #3
	blo	.LBB118_10
	add.w	r1, r1, r5, lsl #1
	ldrd	r2, r3, [r1, #-16]
	mov	r6, r7
	bic	r2, r2, #6
	and	r3, r3, #15
	orr	r7, r12, #1
	eor.w	r3, r3, r11
	eors	r2, r7
	orrs	r2, r3
	bne	.LBB118_10
	movs	r2, #0
	movs	r3, #1
	mov	r7, r6
	strd	r3, r2, [r1, #-16]
	b	.LBB118_9
	.p2align	2
.LBB118_7:
	eor.w	r1, r7, r12
	eor.w	r2, r10, r11
	orrs	r1, r2
	bne	.LBB118_10
	movs	r7, #0
	mov.w	r10, #0
.LBB118_9:
	movs	r1, #0
	ldr	r2, [sp]
	strd	r1, r1, [lr, #-16]
	sub.w	r1, r9, #1
	str.w	r10, [r0, #4]
	str	r7, [r0]
	str.w	r8, [r0, #12]
	str	r5, [r0, #8]
	movs	r0, #0
	str	r1, [r2]
	add	sp, #4
	pop.w	{r4, r5, r6, r7, r8, r9, r10, r11, pc}
	.p2align	2
.LBB118_10:
	movs	r1, #1
	add	sp, #4
	pop.w	{r4, r5, r6, r7, r8, r9, r10, r11, lr}
	b	ic_raw.list_calls.refusal_to_pop
.Lfunc_end118:
	.size	ic_list_pop_back, .Lfunc_end118-ic_list_pop_back
	.cfi_endproc
	.section	.text.ic_list_pop_front,"ax",%progbits
	.globl	ic_list_pop_front
	.p2align	2
	.type	ic_list_pop_front,%function
	.code	16
	.thumb_func
ic_list_pop_front:
	.cfi_startproc
	push.w	{r4, r5, r6, r7, r8, r9, r10, r11, lr}
	.cfi_def_cfa_offset 36
	.cfi_offset lr, -4
	.cfi_offset r11, -8
	.cfi_offset r10, -12
	.cfi_offset r9, -16
	.cfi_offset r8, -20
	.cfi_offset r7, -24
	.cfi_offset r6, -28
	.cfi_offset r5, -32
	.cfi_offset r4, -36
	ldrd	lr, r12, [sp, #36]
	cmp	r0, #0
	ldrd	r4, r1, [lr]
	it	eq
	addeq.w	r0, r0, #4096
	and	r5, r1, #15
	bic	r11, r4, #7
	orrs.w	r7, r11, r5
	beq	.LBB119_4
	lsrs	r4, r4, #3
	orr.w	r8, r4, r1, lsl #29
	lsrs	r1, r5, #3
	subs.w	r4, r2, r8
	sbcs.w	r1, r3, r1
	blo	.LBB119_4
	add.w	r4, r0, r11, lsl #1
	ldrd	r1, r7, [r4, #-8]
	orrs	r1, r7
	bne	.LBB119_4
	ldr	r7, [r4, #-16]
	lsls	r1, r7, #31
	itttt	ne
	ldrne	r1, [r4, #-12]
	bicne	r9, r7, #7
	andne	r10, r1, #15
	orrsne.w	r6, r9, r10
	bne	.LBB119_5
.LBB119_4:
	strd	lr, r12, [sp, #36]
	pop.w	{r4, r5, r6, r7, r8, r9, r10, r11, lr}
	b	ic_raw.list_calls.pop_front_slow.5386baa488213e47
	.p2align	2
.LBB119_5:
	lsrs	r6, r7, #3
	orr.w	r1, r6, r1, lsl #29
	lsr.w	r6, r10, #3
	subs	r1, r2, r1
	sbcs.w	r1, r3, r6
	blo	.LBB119_4
	add.w	r7, r0, r9, lsl #1
	ldrd	r1, r6, [r7, #-8]
	eors	r5, r6
	eor.w	r1, r1, r11
	orrs	r1, r5
	bne	.LBB119_4
	ldr	r1, [r7, #-16]
	lsls	r1, r1, #31
	beq	.LBB119_4
	movs	r0, #0
	sub.w	r1, r8, #1
	strd	r0, r0, [r7, #-8]
	strd	r0, r0, [r4, #-16]
	strd	r9, r10, [lr]
	str.w	r1, [r12]
	pop.w	{r4, r5, r6, r7, r8, r9, r10, r11, pc}
.Lfunc_end119:
	.size	ic_list_pop_front, .Lfunc_end119-ic_list_pop_front
	.cfi_endproc
	.section	.text.ic_list_push_back,"ax",%progbits
	.globl	ic_list_push_back
	.p2align	2
	.type	ic_list_push_back,%function
	.code	16
	.thumb_func
ic_list_push_back:
	.cfi_startproc
	push.w	{r4, r5, r6, r7, r8, r9, lr}
	.cfi_def_cfa_offset 28
	.cfi_offset lr, -4
	.cfi_offset r9, -8
	.cfi_offset r8, -12
	.cfi_offset r7, -16
	.cfi_offset r6, -20
	.cfi_offset r5, -24
	.cfi_offset r4, -28
	ldrd	r12, r8, [sp, #28]
	cmp	r0, #0
	ldrd	r5, r4, [r12, #8]
	it	eq
	addeq.w	r0, r0, #4096
	and	lr, r4, #15
	bic	r9, r5, #7
	orrs.w	r6, r9, lr
	beq	.LBB120_5
	lsrs	r5, r5, #3
	orr.w	r4, r5, r4, lsl #29
	lsr.w	r5, lr, #3
	subs	r4, r2, r4
	sbcs.w	r4, r3, r5
	blo	.LBB120_5
	add.w	r5, r8, #1
	subs	r4, r2, r5
	sbcs	r4, r3, #0
	blo	.LBB120_5
	cbz	r5, .LBB120_5
	add.w	r7, r0, r9, lsl #1
	ldrd	r4, r6, [r7, #-16]
	eor	r4, r4, #1
	orrs	r4, r6
	itttt	eq
	lsleq	r6, r5, #3
	addeq.w	r4, r0, r6, lsl #1
	ldrbeq	r1, [r4, #-16]
	lslseq.w	r1, r1, #31
	beq	.LBB120_6
.LBB120_5:
	strd	r12, r8, [sp, #28]
	pop.w	{r4, r5, r6, r7, r8, r9, lr}
	b	ic_raw.list_calls.push_back_slow.5386baa488213e47
	.p2align	2
.LBB120_6:
	lsrs	r1, r5, #29
	orr	r0, r6, #1
	strd	r0, r1, [r7, #-16]
	movs	r0, #1
	movs	r2, #0
	stmdb	r4, {r0, r2, r9, lr}
	movs	r0, #0
	strd	r6, r1, [r12, #8]
	pop.w	{r4, r5, r6, r7, r8, r9, pc}
.Lfunc_end120:
	.size	ic_list_push_back, .Lfunc_end120-ic_list_push_back
	.cfi_endproc
	.section	.text.ic_list_push_front,"ax",%progbits
	.globl	ic_list_push_front
	.p2align	2
	.type	ic_list_push_front,%function
	.code	16
	.thumb_func
ic_list_push_front:
	.cfi_startproc
	push.w	{r4, r5, r6, r7, r8, r9, r10, r11, lr}
	.cfi_def_cfa_offset 36
	.cfi_offset lr, -4
	.cfi_offset r11, -8
	.cfi_offset r10, -12
	.cfi_offset r9, -16
	.cfi_offset r8, -20
	.cfi_offset r7, -24
	.cfi_offset r6, -28
	.cfi_offset r5, -32
	.cfi_offset r4, -36
	ldrd	r1, r8, [sp, #36]
	cmp	r0, #0
	it	eq
	addeq.w	r0, r0, #4096
	ldrd	r7, r6, [r1]
	ldrd	r4, r5, [r1, #8]
	and	r12, r6, #15
	bic	lr, r7, #7
	and	r10, r5, #15
	bic	r11, r4, #7
	orrs.w	r9, lr, r12
	mov	r5, r11
	mov	r7, r10
	beq	.LBB121_4
	lsr.w	r4, lr, #3
	orr.w	r4, r4, r12, lsl #29
	subs	r4, r2, r4
	sbcs.w	r4, r3, r12, lsr #3
	blo	.LBB121_7
	add.w	r4, r0, lr, lsl #1
	ldrb	r5, [r4, #-16]
	lsls	r5, r5, #31
	beq	.LBB121_7
	ldrd	r4, r5, [r4, #-8]
	and	r7, r5, #15
	bic	r5, r4, #7
.LBB121_4:
	adds.w	r4, r8, #1
	beq	.LBB121_7
	subs	r6, r2, r4
	sbcs	r6, r3, #0
	blo	.LBB121_7
	orrs	r5, r7
	itttt	eq
	lsleq	r5, r4, #3
	addeq.w	r7, r0, r5, lsl #1
	ldrbeq	r6, [r7, #-16]
	lslseq.w	r6, r6, #31
	beq	.LBB121_8
.LBB121_7:
	mov.w	r1, #-1
	str.w	r8, [sp, #40]
	str	r1, [sp, #36]
	pop.w	{r4, r5, r6, r7, r8, r9, r10, r11, lr}
	b	ic_raw.table.RawTable.refusal.85cd03e557136797
	.p2align	2
.LBB121_8:
	clz	r3, r9
	lsrs	r2, r4, #29
	lsrs	r3, r3, #5
	mov	r4, r5
	mov	r3, r2
	bne	.LBB121_10
	add.w	r0, r0, lr, lsl #1
	mov	r4, r11
	mov	r3, r10
	strd	r5, r2, [r0, #-8]
.LBB121_10:
	movs	r0, #0
	orr	r6, lr, #1
	strd	r6, r12, [r7, #-16]
	strd	r0, r0, [r7, #-8]
	str	r5, [r1]
	str	r2, [r1, #4]
	str	r4, [r1, #8]
	str	r3, [r1, #12]
	pop.w	{r4, r5, r6, r7, r8, r9, r10, r11, pc}
.Lfunc_end121:
	.size	ic_list_push_front, .Lfunc_end121-ic_list_push_front
	.cfi_endproc
	.section	.text.ic_list_remove,"ax",%progbits
	.globl	ic_list_remove
	.p2align	2
	.type	ic_list_remove,%function
	.code	16
	.thumb_func
ic_list_remove:
	.cfi_startproc
	push.w	{r4, r5, r6, r7, r8, r9, r10, r11, lr}
	.cfi_def_cfa_offset 36
	.cfi_offset lr, -4
	.cfi_offset r11, -8
	.cfi_offset r10, -12
	.cfi_offset r9, -16
	.cfi_offset r8, -20
	.cfi_offset r7, -24
	.cfi_offset r6, -28
	.cfi_offset r5, -32
	.cfi_offset r4, -36
	sub	sp, #12
	.cfi_def_cfa_offset 48
	ldr	r1, [sp, #52]
	cmp	r0, #0
	it	eq
	addeq.w	r0, r0, #4096
	adds	r4, r1, #1
	blo	.LBB122_2
	movs	r0, #4
	add	sp, #12
	pop.w	{r4, r5, r6, r7, r8, r9, r10, r11, pc}
	.p2align	2
.LBB122_2:
	str	r1, [sp, #4]
	ldr	r1, [sp, #48]
	str	r1, [sp]
	subs	r1, r2, r4
	sbcs	r1, r3, #0
	blo	.LBB122_5
	lsl.w	r8, r4, #3
	add.w	r1, r0, r8, lsl #1
	ldr	r5, [r1, #-16]
	lsls	r6, r5, #31
	beq	.LBB122_5
	ldrd	r6, r7, [r1, #-8]
	and	r9, r7, #15
	bic	r11, r6, #7
	orrs.w	r6, r11, r9
	itttt	ne
	ldrne	r7, [r1, #-12]
	bicne	r12, r5, #7
	andne	lr, r7, #15
	orrsne.w	r5, r12, lr
	bne	.LBB122_6
.LBB122_5:
	ldr	r1, [sp, #4]
	str	r1, [sp, #52]
	ldr	r1, [sp]
	str	r1, [sp, #48]
	add	sp, #12
	pop.w	{r4, r5, r6, r7, r8, r9, r10, r11, lr}
	b	ic_raw.list_calls.remove_slow.5386baa488213e47
	.p2align	2
.LBB122_6:
	lsr.w	r5, r11, #3
	orr.w	r5, r5, r9, lsl #29
	lsr.w	r6, r9, #3
	subs	r5, r2, r5
	sbcs.w	r5, r3, r6
	blo	.LBB122_5
	lsrs	r5, r4, #29
	add.w	r4, r0, r11, lsl #1
	str	r4, [sp, #8]
	ldrd	r4, r6, [r4, #-16]
	orr	r10, r8, #1
	eors	r6, r5
	eor.w	r4, r4, r10
	orrs	r4, r6
	bne	.LBB122_5
	lsr.w	r4, r12, #3
	orr.w	r4, r4, lr, lsl #29
	lsr.w	r6, lr, #3
	subs	r4, r2, r4
	sbcs.w	r4, r3, r6
	blo	.LBB122_5
	add.w	r4, r0, r12, lsl #1
	ldrd	r6, r7, [r4, #-8]
	eors	r5, r7
	eor.w	r6, r6, r8
	orrs	r5, r6
	bne	.LBB122_5
	ldr	r5, [r4, #-16]
	lsls	r5, r5, #31
	beq	.LBB122_5
	ldr	r2, [sp, #8]
	orr	r0, r12, #1
	strd	r0, lr, [r2, #-16]
	movs	r0, #0
	strd	r11, r9, [r4, #-8]
	strd	r0, r0, [r1, #-16]
	add	sp, #12
	pop.w	{r4, r5, r6, r7, r8, r9, r10, r11, pc}
.Lfunc_end122:
	.size	ic_list_remove, .Lfunc_end122-ic_list_remove
	.cfi_endproc
	.section	.text.ic_list_replace,"ax",%progbits
	.globl	ic_list_replace
	.p2align	2
	.type	ic_list_replace,%function
	.code	16
	.thumb_func
ic_list_replace:
	.cfi_startproc
	push.w	{r4, r5, r6, r7, r8, r9, r10, r11, lr}
	.cfi_def_cfa_offset 36
	.cfi_offset lr, -4
	.cfi_offset r11, -8
	.cfi_offset r10, -12
	.cfi_offset r9, -16
	.cfi_offset r8, -20
	.cfi_offset r7, -24
	.cfi_offset r6, -28
	.cfi_offset r5, -32
	.cfi_offset r4, -36
	sub	sp, #40
	.cfi_def_cfa_offset 76
	ldr.w	r11, [sp, #80]
	cmp	r0, #0
	it	eq
	addeq.w	r0, r0, #4096
	adds.w	r6, r11, #1
	blo	.LBB123_2
	movs	r0, #4
	add	sp, #40
	pop.w	{r4, r5, r6, r7, r8, r9, r10, r11, pc}
	.p2align	2
.LBB123_2:
	ldr	r1, [sp, #84]
	str	r1, [sp, #28]
	subs	r1, r2, r6
	sbcs	r1, r3, #0
	blo.w	.LBB123_15
	lsl.w	r8, r6, #3
	add.w	r1, r0, r8, lsl #1
	ldr	r12, [r1, #-16]
	str	r1, [sp, #36]
	lsls.w	r1, r12, #31
	beq	.LBB123_15
	ldr	r1, [sp, #76]
	lsr.w	r9, r6, #29
	ldr	r5, [r1, #8]
	ldrd	r6, r4, [r1]
	str	r5, [sp, #24]
	ldr	r5, [r1, #12]
	and	r10, r4, #15
	str	r5, [sp, #20]
	ldr	r7, [sp, #36]
	bic	r6, r6, #7
	ldrd	r4, r5, [r7, #-8]
	ldr	r7, [r7, #-12]
	and	r5, r5, #15
	bic	r4, r4, #7
	orrs.w	lr, r4, r5
	str	r7, [sp, #16]
	str.w	lr, [sp, #8]
	str	r5, [sp, #12]
	str	r4, [sp, #32]
	strd	r6, r10, [sp]
	beq	.LBB123_7
	lsrs	r4, r4, #3
	orr.w	r4, r4, r5, lsl #29
	subs	r4, r2, r4
	sbcs.w	r4, r3, r5, lsr #3
	blo	.LBB123_15
	ldr	r4, [sp, #32]
	orr	r6, r8, #1
	add.w	r4, r0, r4, lsl #1
	ldrd	r4, r5, [r4, #-16]
	mov	lr, r9
	bic	r4, r4, #6
	and	r5, r5, #15
	eor.w	r5, r5, r9
	eors	r4, r6
	orrs	r4, r5
	beq	.LBB123_8
	b	.LBB123_15
	.p2align	2
.LBB123_7:
	eor.w	r4, r6, r8
	mov	lr, r9
	eor.w	r5, r10, r9
	orrs	r4, r5
	bne	.LBB123_15
.LBB123_8:
	ldr	r7, [sp, #16]
	ldr	r4, [sp, #20]
	ldr	r5, [sp, #24]
	bic	r10, r12, #7
	and	r9, r7, #15
	and	r4, r4, #15
	bic	r6, r5, #7
	orrs.w	r5, r10, r9
	str	r5, [sp, #24]
	strd	r6, r4, [sp, #16]
	beq	.LBB123_12
	lsr.w	r7, r10, #3
	orr.w	r7, r7, r9, lsl #29
	subs	r7, r2, r7
	sbcs.w	r7, r3, r9, lsr #3
	blo	.LBB123_15
	add.w	r4, r0, r10, lsl #1
	ldrb	r7, [r4, #-16]
	lsls	r7, r7, #31
	beq	.LBB123_15
	ldrd	r7, r6, [r4, #-8]
	and	r4, r6, #15
	bic	r6, r7, #7
.LBB123_12:
	ldr	r7, [sp, #28]
	adds	r7, #1
	subs	r5, r2, r7
	sbcs	r5, r3, #0
	blo	.LBB123_15
	cbz	r7, .LBB123_15
	eor.w	r6, r6, r8
	eor.w	r5, r4, lr
	orrs	r6, r5
	itttt	eq
	lsleq	r4, r7, #3
	addeq.w	r6, r0, r4, lsl #1
	ldrbeq	r5, [r6, #-16]
	lslseq.w	r5, r5, #31
	beq	.LBB123_16
.LBB123_15:
	ldr	r1, [sp, #28]
	strd	r11, r1, [sp, #76]
	add	sp, #40
	pop.w	{r4, r5, r6, r7, r8, r9, r10, r11, lr}
	b	ic_raw.table.RawTable.refusal.85cd03e557136797
	.p2align	2
.LBB123_16:
	ldr	r2, [sp, #8]
	lsrs	r5, r7, #29
	clz	r2, r2
	lsrs	r2, r2, #5
	ldr	r2, [sp, #24]
	mov	r3, r5
	clz	r2, r2
	lsr.w	r7, r2, #5
	mov	r2, r4
	bne	.LBB123_18
	ldr	r2, [sp, #32]
	orr	r3, r4, #1
	add.w	r2, r0, r2, lsl #1
	strd	r3, r5, [r2, #-16]
	ldrd	r2, r3, [sp]
.LBB123_18:
	cbnz	r7, .LBB123_20
	add.w	r0, r0, r10, lsl #1
	strd	r4, r5, [r0, #-8]
	ldrd	r4, r5, [sp, #16]
.LBB123_20:
	orr	r0, r10, #1
	strd	r0, r9, [r6, #-16]
	ldr	r0, [sp, #32]
	ldr	r7, [sp, #36]
	str	r0, [r6, #-8]
	ldr	r0, [sp, #12]
	str	r0, [r6, #-4]
	movs	r0, #0
	strd	r0, r0, [r7, #-16]
	str	r3, [r1, #4]
	str	r2, [r1]
	str	r5, [r1, #12]
	str	r4, [r1, #8]
	add	sp, #40
	pop.w	{r4, r5, r6, r7, r8, r9, r10, r11, pc}
.Lfunc_end123:
	.size	ic_list_replace, .Lfunc_end123-ic_list_replace
	.cfi_endproc
	.section	.text.ic_list_sort,"ax",%progbits
	.globl	ic_list_sort
	.p2align	2
	.type	ic_list_sort,%function
	.code	16
	.thumb_func
ic_list_sort:
	.cfi_startproc
	push.w	{r4, r5, r6, r7, r8, r9, r10, r11, lr}
	.cfi_def_cfa_offset 36
	.cfi_offset lr, -4
	.cfi_offset r11, -8
	.cfi_offset r10, -12
	.cfi_offset r9, -16
	.cfi_offset r8, -20
	.cfi_offset r7, -24
	.cfi_offset r6, -28
	.cfi_offset r5, -32
	.cfi_offset r4, -36
	sub	sp, #108
	.cfi_def_cfa_offset 144
	ldr	r1, [sp, #160]
	ldrd	r6, r7, [sp, #152]
	str	r1, [sp, #40]
	ldr	r1, [sp, #144]
	cmp	r0, #0
	it	eq
	addeq.w	r0, r0, #4096
	cmp	r1, #0
	it	eq
	addeq.w	r1, r1, #4096
	str	r1, [sp, #64]
	movs	r1, #0
	add.w	r12, sp, #68
	stm.w	r12, {r1, r6, r7}
	strd	r0, r1, [sp, #48]
	subs	r1, r6, r2
	sbcs.w	r1, r7, r3
	str	r3, [sp, #60]
	str	r6, [sp, #36]
	str	r7, [sp, #44]
	str	r2, [sp, #56]
	blo.w	.LBB124_15
	ldr	r5, [sp, #40]
	ldrd	r1, r7, [r5]
	ldrd	r6, r5, [r5, #8]
	and	r4, r7, #15
	bic	r7, r1, #7
	orrs.w	r1, r7, r4
	and	r5, r5, #15
	bic	r1, r6, #7
	beq.w	.LBB124_13
	strd	r1, r5, [sp, #28]
	mov.w	r10, #0
	str	r7, [sp, #24]
	mov	r1, r7
	str	r4, [sp, #20]
	mov	r7, r4
	mov.w	r12, #0
	movs	r4, #0
	movs	r5, #0
	.p2align	2
.LBB124_3:
	subs	r6, r4, r2
	sbcs.w	r6, r5, r3
	bhs	.LBB124_15
	mov	r9, r1
	lsrs	r1, r1, #3
	orr.w	r1, r1, r7, lsl #29
	mov	r8, r7
	lsrs	r7, r7, #3
	subs	r1, r2, r1
	sbcs.w	r1, r3, r7
	blo	.LBB124_15
	add.w	r1, r0, r9, lsl #1
	ldr	r7, [r1, #-16]
	lsls.w	lr, r7, #31
	beq	.LBB124_15
	ldrd	r6, lr, [r1, #-8]
	bic	r11, r6, #7
	and	r6, lr, #15
	eor.w	r12, r12, r6
	eor.w	r6, r11, r10
	orrs.w	r6, r6, r12
	bne	.LBB124_15
	ldr	r6, [r1, #-12]
	bic	r1, r7, #7
	and	r7, r6, #15
	adds	r4, #1
	adc	r5, r5, #0
	orrs.w	r6, r1, r7
	mov	r10, r9
	mov	r12, r8
	bne	.LBB124_3
	ldr	r1, [sp, #28]
	ldr	r7, [sp, #32]
	eor.w	r1, r1, r9
	eor.w	r7, r7, r8
	orrs	r1, r7
	bne	.LBB124_15
	ldr.w	r11, [sp, #24]
	add.w	r1, r0, r11, lsl #1
	ldrd	r2, r3, [r1, #-16]
	and	r9, r3, #15
	bic	r8, r2, #7
	orrs.w	r2, r8, r9
	mov.w	r2, #1
	mov.w	r3, #0
	strd	r2, r3, [r1, #-16]
	beq	.LBB124_16
	ldr.w	r10, [sp, #20]
	movs	r4, #0
	movs	r5, #0
	.p2align	2
.LBB124_11:
	add	r0, sp, #80
	add	r1, sp, #48
	add	r2, sp, #64
	strd	r8, r9, [sp]
	str	r4, [sp, #8]
	str	r5, [sp, #12]
	bl	ic_list_algorithms.sort.sort_front.6bd71b5c7308988e
	ldrb.w	r0, [sp, #88]
	ldrd	r6, r7, [sp, #80]
	str	r0, [sp, #44]
	ldrd	r8, r9, [sp, #96]
	add	r0, sp, #48
	add	r1, sp, #64
	mov	r2, r11
	mov	r3, r10
	strd	r6, r7, [sp]
	bl	ic_list_algorithms.merge.merge_runs.6bd71b5c7308988e
	mov	r11, r0
	ldr	r0, [sp, #44]
	adds	r4, #1
	adc	r5, r5, #0
	cmp	r0, #1
	mov	r10, r1
	beq	.LBB124_11
	ldr	r0, [sp, #48]
	lsl.w	r1, r11, #1
	movs	r3, #0
	b	.LBB124_17
	.p2align	2
.LBB124_13:
	orrs.w	r0, r1, r5
	bne	.LBB124_15
	mov.w	r11, #0
	mov.w	r10, #0
	movs	r0, #0
	movs	r1, #0
	b	.LBB124_27
	.p2align	2
.LBB124_15:
	mov	r0, r2
	mov	r1, r3
	ldr	r2, [sp, #36]
	ldr	r3, [sp, #44]
	add	sp, #108
	pop.w	{r4, r5, r6, r7, r8, r9, r10, r11, lr}
	b	ic_raw.sort_calls.refusal.78cbab63d6c27224
	.p2align	2
.LBB124_16:
	ldr.w	r10, [sp, #20]
	lsl.w	r1, r11, #1
.LBB124_17:
	add	r0, r1
	strd	r3, r3, [r0, #-8]
	ldr	r3, [sp, #48]
	adds	r0, r3, r1
	ldrd	r0, r1, [r0, #-16]
	and	r1, r1, #15
	bic	r0, r0, #7
	orrs.w	r2, r0, r1
	beq	.LBB124_24
	mov	r7, r11
	mov	r2, r10
	.p2align	2
.LBB124_19:
	add.w	r3, r3, r0, lsl #1
	strd	r7, r2, [r3, #-8]
	ldr	r7, [sp, #48]
	add.w	r2, r7, r0, lsl #1
	ldrd	r3, r2, [r2, #-16]
	and	r2, r2, #15
	bic	r3, r3, #7
	orrs.w	r6, r3, r2
	beq	.LBB124_27
	add.w	r7, r7, r3, lsl #1
	strd	r0, r1, [r7, #-8]
	ldr	r7, [sp, #48]
	add.w	r0, r7, r3, lsl #1
	ldrd	r0, r1, [r0, #-16]
	and	r1, r1, #15
	bic	r0, r0, #7
	orrs.w	r6, r0, r1
	beq	.LBB124_25
	add.w	r7, r7, r0, lsl #1
	strd	r3, r2, [r7, #-8]
	ldr	r3, [sp, #48]
	add.w	r2, r3, r0, lsl #1
	ldrd	r7, r2, [r2, #-16]
	and	r2, r2, #15
	bic	r7, r7, #7
	orrs.w	r6, r7, r2
	beq	.LBB124_27
	add.w	r3, r3, r7, lsl #1
	strd	r0, r1, [r3, #-8]
	ldr	r3, [sp, #48]
	add.w	r0, r3, r7, lsl #1
	ldrd	r0, r1, [r0, #-16]
	and	r1, r1, #15
	bic	r0, r0, #7
	orrs.w	r6, r0, r1
	bne	.LBB124_19
	mov	r0, r7
	b	.LBB124_26
	.p2align	2
.LBB124_24:
	mov	r0, r11
	mov	r1, r10
	b	.LBB124_27
	.p2align	2
.LBB124_25:
	mov	r0, r3
.LBB124_26:
	mov	r1, r2
.LBB124_27:
	ldr	r2, [sp, #40]
	str.w	r11, [r2]
	str.w	r10, [r2, #4]
	str	r0, [r2, #8]
	movs	r0, #0
	str	r1, [r2, #12]
	add	sp, #108
	pop.w	{r4, r5, r6, r7, r8, r9, r10, r11, pc}
.Lfunc_end124:
	.size	ic_list_sort, .Lfunc_end124-ic_list_sort
	.cfi_endproc
	.section	.text.ic_list_splice_after,"ax",%progbits
	.globl	ic_list_splice_after
	.p2align	2
	.type	ic_list_splice_after,%function
	.code	16
	.thumb_func
ic_list_splice_after:
	.cfi_startproc
	push.w	{r4, r5, r6, r7, r8, r9, r10, r11, lr}
	.cfi_def_cfa_offset 36
	.cfi_offset lr, -4
	.cfi_offset r11, -8
	.cfi_offset r10, -12
	.cfi_offset r9, -16
	.cfi_offset r8, -20
	.cfi_offset r7, -24
	.cfi_offset r6, -28
	.cfi_offset r5, -32
	.cfi_offset r4, -36
	sub	sp, #20
	.cfi_def_cfa_offset 56
	ldr	r1, [sp, #60]
	cmp	r0, #0
	it	eq
	addeq.w	r0, r0, #4096
	adds	r1, #1
	bne	.LBB125_8
	ldr	r1, [sp, #56]
	ldrd	r7, r1, [r1]
	bic	r10, r7, #7
	and	r11, r1, #15
	orrs.w	r6, r10, r11
	beq	.LBB125_8
	lsrs	r7, r7, #3
	orr.w	r1, r7, r1, lsl #29
	lsr.w	r7, r11, #3
	subs	r1, r2, r1
	sbcs.w	r1, r3, r7
	blo	.LBB125_8
	add.w	r9, r0, r10, lsl #1
	ldrd	r1, r7, [r9, #-8]
	orrs	r1, r7
	bne	.LBB125_8
	ldr	r1, [sp, #64]
	ldrd	r7, r1, [r1]
	and	r8, r1, #15
	bic	r12, r7, #7
	orrs.w	r6, r12, r8
	itt	ne
	ldrne	r6, [r9, #-16]
	lslsne.w	r6, r6, #31
	beq	.LBB125_8
	lsr.w	r6, r12, #3
	orr.w	r6, r6, r8, lsl #29
	lsr.w	r5, r8, #3
	subs	r6, r2, r6
	sbcs.w	r6, r3, r5
	blo	.LBB125_8
	add.w	r6, r0, r12, lsl #1
	ldrd	r5, r4, [r6, #-8]
	orrs	r5, r4
	bne	.LBB125_8
	ldr	r1, [sp, #64]
	ldrd	r4, r5, [r1, #8]
	and	r5, r5, #15
	bic	r4, r4, #7
	orrs.w	r7, r4, r5
	itt	ne
	ldrne	r7, [r6, #-16]
	lslsne.w	r7, r7, #31
	bne	.LBB125_9
.LBB125_8:
	ldr	r7, [sp, #56]
	movs	r1, #0
	str	r7, [sp]
	ldr	r7, [sp, #60]
	str	r7, [sp, #4]
	ldr	r7, [sp, #64]
	strd	r7, r1, [sp, #8]
	bl	ic_raw.list_calls.splice_slow.5386baa488213e47
	add	sp, #20
	pop.w	{r4, r5, r6, r7, r8, r9, r10, r11, pc}
	.p2align	2
.LBB125_9:
	lsrs	r7, r4, #3
	orr.w	r7, r7, r5, lsl #29
	lsrs	r1, r5, #3
	subs	r7, r2, r7
	sbcs.w	r1, r3, r1
	blo	.LBB125_8
	eor.w	r1, r10, r12
	eor.w	r7, r11, r8
	orrs	r1, r7
	beq	.LBB125_8
	add.w	lr, r0, r4, lsl #1
	ldrd	r1, r7, [lr, #-16]
	eor	r1, r1, #1
	orrs	r1, r7
	bne	.LBB125_8
	ldr	r7, [sp, #56]
	movs	r2, #0
	ldrd	r0, r1, [r7, #8]
	orr	r3, r10, #1
	and	r1, r1, #15
	strd	r4, r5, [r9, #-8]
	strd	r2, r2, [r6, #-8]
	strd	r3, r11, [lr, #-16]
	str	r1, [r7, #12]
	ldr	r1, [sp, #64]
	bic	r0, r0, #7
	str.w	r8, [r7, #4]
	str.w	r12, [r7]
	str	r0, [r7, #8]
	str	r2, [r1, #12]
	str	r2, [r1, #8]
	str	r2, [r1, #4]
	movs	r0, #0
	str	r2, [r1]
	add	sp, #20
	pop.w	{r4, r5, r6, r7, r8, r9, r10, r11, pc}
.Lfunc_end125:
	.size	ic_list_splice_after, .Lfunc_end125-ic_list_splice_after
	.cfi_endproc
	.section	.text.ic_list_splice_before,"ax",%progbits
	.globl	ic_list_splice_before
	.p2align	2
	.type	ic_list_splice_before,%function
	.code	16
	.thumb_func
ic_list_splice_before:
	.cfi_startproc
	push.w	{r4, r5, r6, r7, r8, r9, r10, r11, lr}
	.cfi_def_cfa_offset 36
	.cfi_offset lr, -4
	.cfi_offset r11, -8
	.cfi_offset r10, -12
	.cfi_offset r9, -16
	.cfi_offset r8, -20
	.cfi_offset r7, -24
	.cfi_offset r6, -28
	.cfi_offset r5, -32
	.cfi_offset r4, -36
	sub	sp, #28
	.cfi_def_cfa_offset 64
	ldr	r1, [sp, #68]
	cmp	r0, #0
	str	r3, [sp, #24]
	it	eq
	addeq.w	r0, r0, #4096
	adds	r1, #1
	bne	.LBB126_8
	ldr	r1, [sp, #64]
	ldrd	r7, r1, [r1, #8]
	bic	r3, r7, #7
	and	r11, r1, #15
	orrs.w	r6, r3, r11
	beq	.LBB126_8
	lsrs	r7, r7, #3
	orr.w	r1, r7, r1, lsl #29
	subs	r1, r2, r1
	ldr	r1, [sp, #24]
	lsr.w	r7, r11, #3
	sbcs	r1, r7
	blo	.LBB126_8
	ldr	r1, [sp, #72]
	ldrd	r1, r7, [r1]
	and	r6, r7, #15
	bic	r7, r1, #7
	orrs.w	r1, r7, r6
	beq	.LBB126_8
	add.w	r1, r0, r3, lsl #1
	str	r1, [sp, #20]
	ldrd	r1, r5, [r1, #-16]
	eor	r1, r1, #1
	orrs	r1, r5
	bne	.LBB126_8
	lsrs	r1, r7, #3
	orr.w	r1, r1, r6, lsl #29
	subs	r1, r2, r1
	ldr	r1, [sp, #24]
	lsr.w	r5, r6, #3
	sbcs	r1, r5
	blo	.LBB126_8
	add.w	r9, r0, r7, lsl #1
	ldrd	r5, r4, [r9, #-8]
	orrs	r5, r4
	bne	.LBB126_8
	ldr	r1, [sp, #72]
	ldrd	r4, r5, [r1, #8]
	and	r5, r5, #15
	bic	r10, r4, #7
	orrs.w	r1, r10, r5
	itt	ne
	ldrne	r1, [r9, #-16]
	lslsne.w	r1, r1, #31
	bne	.LBB126_9
.LBB126_8:
	ldr	r3, [sp, #64]
	movs	r1, #1
	str	r3, [sp]
	ldr	r3, [sp, #68]
	str	r1, [sp, #12]
	str	r3, [sp, #4]
	ldr	r3, [sp, #72]
	str	r3, [sp, #8]
	ldr	r3, [sp, #24]
	bl	ic_raw.list_calls.splice_slow.5386baa488213e47
	add	sp, #28
	pop.w	{r4, r5, r6, r7, r8, r9, r10, r11, pc}
	.p2align	2
.LBB126_9:
	lsr.w	r1, r10, #3
	orr.w	r1, r1, r5, lsl #29
	subs	r1, r2, r1
	ldr	r1, [sp, #24]
	lsr.w	r4, r5, #3
	sbcs	r1, r4
	blo	.LBB126_8
	ldr	r1, [sp, #64]
	ldrd	r1, r4, [r1]
	and	r12, r4, #15
	bic	lr, r1, #7
	eor.w	r1, lr, r7
	eor.w	r4, r12, r6
	orrs	r1, r4
	beq	.LBB126_8
	add.w	r8, r0, r10, lsl #1
	ldrd	r1, r4, [r8, #-16]
	eor	r1, r1, #1
	orrs	r1, r4
	bne	.LBB126_8
	ldr	r1, [sp, #20]
	orr	r0, r7, #1
	strd	r0, r6, [r1, #-16]
	movs	r0, #1
	movs	r1, #0
	strd	r3, r11, [r9, #-8]
	strd	r0, r1, [r8, #-16]
	ldr	r0, [sp, #64]
	ldr	r2, [sp, #72]
	str.w	r12, [r0, #4]
	str.w	lr, [r0]
	str	r5, [r0, #12]
	str.w	r10, [r0, #8]
	str	r1, [r2, #12]
	str	r1, [r2, #8]
	str	r1, [r2, #4]
	movs	r0, #0
	str	r1, [r2]
	add	sp, #28
	pop.w	{r4, r5, r6, r7, r8, r9, r10, r11, pc}
.Lfunc_end126:
	.size	ic_list_splice_before, .Lfunc_end126-ic_list_splice_before
	.cfi_endproc
	.section	.text.ic_list_split_after,"ax",%progbits
	.globl	ic_list_split_after
	.p2align	2
	.type	ic_list_split_after,%function
	.code	16
	.thumb_func
ic_list_split_after:
	.cfi_startproc
	push.w	{r4, r5, r6, r7, r8, r9, r10, r11, lr}
	.cfi_def_cfa_offset 36
	.cfi_offset lr, -4
	.cfi_offset r11, -8
	.cfi_offset r10, -12
	.cfi_offset r9, -16
	.cfi_offset r8, -20
	.cfi_offset r7, -24
	.cfi_offset r6, -28
	.cfi_offset r5, -32
	.cfi_offset r4, -36
	sub	sp, #20
	.cfi_def_cfa_offset 56
	ldr.w	r12, [sp, #64]
	ldr.w	r8, [sp, #56]
	ldrd	r1, r4, [r12]
	cmp	r0, #0
	and	r4, r4, #15
	bic	r1, r1, #7
	it	eq
	addeq.w	r0, r0, #4096
	orrs	r1, r4
	itttt	eq
	ldrdeq	r1, r4, [r12, #8]
	andeq	r4, r4, #15
	biceq	r1, r1, #7
	orrseq.w	r1, r1, r4
	bne	.LBB127_4
	ldr	r1, [sp, #60]
	adds	r4, r1, #1
	bhs	.LBB127_4
	subs	r1, r2, r4
	sbcs	r1, r3, #0
	blo	.LBB127_4
	lsl.w	r10, r4, #3
	add.w	r5, r0, r10, lsl #1
	ldr	r1, [r5, #-16]
	lsls	r6, r1, #31
	itttt	ne
	ldrne	r6, [r5, #-12]
	bicne	r11, r1, #7
	andne	lr, r6, #15
	orrsne.w	r7, r11, lr
	bne	.LBB127_5
.LBB127_4:
	ldr	r7, [sp, #60]
	movs	r1, #0
	str.w	r8, [sp]
	strd	r7, r12, [sp, #4]
	str	r1, [sp, #12]
	bl	ic_raw.list_calls.split_slow.5386baa488213e47
	add	sp, #20
	pop.w	{r4, r5, r6, r7, r8, r9, r10, r11, pc}
	.p2align	2
.LBB127_5:
	lsrs	r1, r1, #3
	orr.w	r1, r1, r6, lsl #29
	lsr.w	r6, lr, #3
	subs	r1, r2, r1
	sbcs.w	r1, r3, r6
	blo	.LBB127_4
	add.w	r1, r0, r11, lsl #1
	ldrd	r6, r7, [r1, #-8]
	lsr.w	r9, r4, #29
	eor.w	r4, r7, r9
	eor.w	r6, r6, r10
	orrs	r4, r6
	bne	.LBB127_4
	ldr	r4, [r1, #-16]
	lsls	r4, r4, #31
	beq	.LBB127_4
	ldm.w	r8, {r0, r2, r3, r4}
	and	r2, r2, #15
	bic	r0, r0, #7
	and	r4, r4, #15
	bic	r3, r3, #7
	movs	r6, #1
	movs	r7, #0
	strd	r6, r7, [r5, #-16]
	strd	r7, r7, [r1, #-8]
	str.w	r2, [r8, #4]
	str.w	r0, [r8]
	str.w	r9, [r8, #12]
	str.w	r10, [r8, #8]
	str.w	r11, [r12]
	str.w	lr, [r12, #4]
	str.w	r3, [r12, #8]
	movs	r0, #0
	str.w	r4, [r12, #12]
	add	sp, #20
	pop.w	{r4, r5, r6, r7, r8, r9, r10, r11, pc}
.Lfunc_end127:
	.size	ic_list_split_after, .Lfunc_end127-ic_list_split_after
	.cfi_endproc
	.section	.text.ic_list_split_before,"ax",%progbits
	.globl	ic_list_split_before
	.p2align	2
	.type	ic_list_split_before,%function
	.code	16
	.thumb_func
ic_list_split_before:
	.cfi_startproc
	push.w	{r4, r5, r6, r7, r8, r9, r10, r11, lr}
	.cfi_def_cfa_offset 36
	.cfi_offset lr, -4
	.cfi_offset r11, -8
	.cfi_offset r10, -12
	.cfi_offset r9, -16
	.cfi_offset r8, -20
	.cfi_offset r7, -24
	.cfi_offset r6, -28
	.cfi_offset r5, -32
	.cfi_offset r4, -36
	sub	sp, #20
	.cfi_def_cfa_offset 56
	ldr	r6, [sp, #64]
	ldrd	r8, lr, [sp, #56]
	ldrd	r1, r4, [r6]
	cmp	r0, #0
	and	r4, r4, #15
	bic	r1, r1, #7
	it	eq
	addeq.w	r0, r0, #4096
	orrs	r1, r4
	itttt	eq
	ldrdeq	r1, r4, [r6, #8]
	andeq	r4, r4, #15
	biceq	r1, r1, #7
	orrseq.w	r1, r1, r4
	bne	.LBB128_4
	adds.w	r1, lr, #1
	bhs	.LBB128_4
	subs	r4, r2, r1
	sbcs	r4, r3, #0
	blo	.LBB128_4
	lsl.w	r10, r1, #3
	add.w	r12, r0, r10, lsl #1
	ldrb	r4, [r12, #-16]
	lsls	r4, r4, #31
	itttt	ne
	ldrdne	r4, r5, [r12, #-8]
	andne	r9, r5, #15
	bicne	r11, r4, #7
	orrsne.w	r7, r11, r9
	bne	.LBB128_5
.LBB128_4:
	movs	r1, #1
	strd	r8, lr, [sp]
	strd	r6, r1, [sp, #8]
	bl	ic_raw.list_calls.split_slow.5386baa488213e47
	add	sp, #20
	pop.w	{r4, r5, r6, r7, r8, r9, r10, r11, pc}
	.p2align	2
.LBB128_5:
	lsrs	r4, r4, #3
	orr.w	r4, r4, r5, lsl #29
	lsr.w	r5, r9, #3
	subs	r4, r2, r4
	sbcs.w	r4, r3, r5
	blo	.LBB128_4
	add.w	r5, r0, r11, lsl #1
	ldrd	r4, r7, [r5, #-16]
	lsrs	r1, r1, #29
	mov	r6, lr
	orr	lr, r10, #1
	eors	r7, r1
	eor.w	r4, r4, lr
	mov	lr, r6
	ldr	r6, [sp, #64]
	orrs	r7, r4
	bne	.LBB128_4
	ldm.w	r8, {r0, r2, r3, r7}
	and	r2, r2, #15
	bic	r0, r0, #7
	and	r7, r7, #15
	bic	r3, r3, #7
	mov.w	lr, #1
	movs	r4, #0
	strd	lr, r4, [r5, #-16]
	strd	r4, r4, [r12, #-8]
	str.w	r1, [r8, #4]
	str.w	r10, [r8]
	str.w	r7, [r8, #12]
	str.w	r3, [r8, #8]
	str	r0, [r6]
	str	r2, [r6, #4]
	str.w	r11, [r6, #8]
	movs	r0, #0
	str.w	r9, [r6, #12]
	add	sp, #20
	pop.w	{r4, r5, r6, r7, r8, r9, r10, r11, pc}
.Lfunc_end128:
	.size	ic_list_split_before, .Lfunc_end128-ic_list_split_before
	.cfi_endproc
	.section	.text.ic_list_transfer_after,"ax",%progbits
	.globl	ic_list_transfer_after
	.p2align	2
	.type	ic_list_transfer_after,%function
	.code	16
	.thumb_func
ic_list_transfer_after:
	.cfi_startproc
	push	{r4, r5, r7, lr}
	.cfi_def_cfa_offset 16
	.cfi_offset lr, -4
	.cfi_offset r7, -8
	.cfi_offset r5, -12
	.cfi_offset r4, -16
	sub	sp, #24
	.cfi_def_cfa_offset 40
	add.w	lr, sp, #40
	ldm.w	lr, {r1, r12, lr}
	ldr	r4, [sp, #52]
	cmp	r0, #0
	it	eq
	addeq.w	r0, r0, #4096
	movs	r5, #0
	stm.w	sp, {r1, r5, r12, lr}
	str	r4, [sp, #16]
	bl	ic_raw_lists.transfer_calls.transfer_at.5386baa488213e47
	add	sp, #24
	pop	{r4, r5, r7, pc}
.Lfunc_end129:
	.size	ic_list_transfer_after, .Lfunc_end129-ic_list_transfer_after
	.cfi_endproc
	.section	.text.ic_list_transfer_before,"ax",%progbits
	.globl	ic_list_transfer_before
	.p2align	2
	.type	ic_list_transfer_before,%function
	.code	16
	.thumb_func
ic_list_transfer_before:
	.cfi_startproc
	push	{r4, r5, r7, lr}
	.cfi_def_cfa_offset 16
	.cfi_offset lr, -4
	.cfi_offset r7, -8
	.cfi_offset r5, -12
	.cfi_offset r4, -16
	sub	sp, #24
	.cfi_def_cfa_offset 40
	add.w	lr, sp, #40
	ldm.w	lr, {r1, r12, lr}
	ldr	r4, [sp, #52]
	cmp	r0, #0
	it	eq
	addeq.w	r0, r0, #4096
	movs	r5, #1
	stm.w	sp, {r1, r5, r12, lr}
	str	r4, [sp, #16]
	bl	ic_raw_lists.transfer_calls.transfer_at.5386baa488213e47
	add	sp, #24
	pop	{r4, r5, r7, pc}
.Lfunc_end130:
	.size	ic_list_transfer_before, .Lfunc_end130-ic_list_transfer_before
	.cfi_endproc
	.section	.text.ic_ring32_exchange,"ax",%progbits
	.globl	ic_ring32_exchange
	.p2align	2
	.type	ic_ring32_exchange,%function
	.code	16
	.thumb_func
ic_ring32_exchange:
	.cfi_startproc
	push.w	{r4, r5, r6, r7, r8, r9, r10, r11, lr}
	.cfi_def_cfa_offset 36
	.cfi_offset lr, -4
	.cfi_offset r11, -8
	.cfi_offset r10, -12
	.cfi_offset r9, -16
	.cfi_offset r8, -20
	.cfi_offset r7, -24
	.cfi_offset r6, -28
	.cfi_offset r5, -32
	.cfi_offset r4, -36
	sub	sp, #8
	.cfi_def_cfa_offset 44
	ldr	r1, [sp, #44]
	cmp	r0, #0
	it	eq
	addeq.w	r0, r0, #4096
	adds	r6, r1, #1
	itt	lo
	ldrlo.w	r12, [sp, #48]
	addslo.w	lr, r12, #1
	blo	.LBB131_2
	movs	r0, #4
	add	sp, #8
	pop.w	{r4, r5, r6, r7, r8, r9, r10, r11, pc}
	.p2align	2
.LBB131_2:
	mvn	r4, #-536870912
	cmp	r2, r4
	mvn	r5, #-536870912
	it	lo
	movlo	r5, r2
	cmp	r3, #0
	it	ne
	movne	r5, r4
	movs	r4, #0
	subs	r7, r5, r6
	sbcs	r4, r4, #0
	blo	.LBB131_10
	lsl.w	r11, r6, #3
	add.w	r8, r0, r11
	ldr	r4, [r8, #-8]
	lsls	r7, r4, #31
	beq	.LBB131_10
	bics	r7, r4, #7
	str	r7, [sp, #4]
	beq	.LBB131_10
	lsrs	r4, r4, #3
	subs	r4, r2, r4
	sbcs	r4, r3, #0
	blo	.LBB131_10
	ldr	r4, [sp, #4]
	add.w	r9, r0, r4
	ldrb	r4, [r9, #-8]
	lsls	r4, r4, #31
	beq	.LBB131_10
	ldr	r4, [r9, #-4]
	lsrs	r6, r6, #29
	bic	r4, r4, #7
	eor.w	r4, r4, r11
	orrs	r4, r6
	bne	.LBB131_10
	cmp	r5, lr
	blo	.LBB131_10
	lsl.w	r5, lr, #3
	adds	r4, r0, r5
	str	r4, [sp]
	ldr	r4, [r4, #-8]
	lsls	r6, r4, #31
	it	ne
	bicsne	r10, r4, #7
	bne	.LBB131_11
.LBB131_10:
	strd	r1, r12, [sp, #44]
	add	sp, #8
	pop.w	{r4, r5, r6, r7, r8, r9, r10, r11, lr}
	b	ic_raw.table.RawTable.refusal_at_both.05a19227735374d3
	.p2align	2
.LBB131_11:
	lsrs	r4, r4, #3
	subs	r4, r2, r4
	sbcs	r4, r3, #0
	blo	.LBB131_10
	add.w	r4, r0, r10
	mov	r6, r8
	ldrb	r8, [r4, #-8]
	lsls.w	r7, r8, #31
	beq	.LBB131_10
	ldr	r7, [r4, #-4]
	mov	r8, r6
	bic	r7, r7, #7
	lsr.w	r6, lr, #29
	eors	r7, r5
	orrs	r7, r6
	bne	.LBB131_10
	orr	r0, r10, #1
	str	r0, [r8, #-8]
	ldr	r0, [sp, #4]
	ldr	r1, [sp]
	orr	r0, r0, #1
	str	r11, [r4, #-4]
	str	r0, [r1, #-8]
	str	r5, [r9, #-4]
	movs	r0, #0
	add	sp, #8
	pop.w	{r4, r5, r6, r7, r8, r9, r10, r11, pc}
.Lfunc_end131:
	.size	ic_ring32_exchange, .Lfunc_end131-ic_ring32_exchange
	.cfi_endproc
	.section	.text.ic_ring32_init,"ax",%progbits
	.globl	ic_ring32_init
	.p2align	2
	.type	ic_ring32_init,%function
	.code	16
	.thumb_func
ic_ring32_init:
	.cfi_startproc
	push	{r4, lr}
	.cfi_def_cfa_offset 8
	.cfi_offset lr, -4
	.cfi_offset r4, -8
	ldr.w	r12, [sp, #8]
	cmp	r0, #0
	it	eq
	addeq.w	r0, r0, #4096
	adds.w	r1, r12, #1
	bhs	.LBB132_3
	mvn	lr, #-536870912
	mvn	r4, #-536870912
	cmp	r2, lr
	it	lo
	movlo	r4, r2
	cmp	r3, #0
	it	ne
	movne	r4, lr
	subs	r4, r4, r1
	mov.w	r4, #0
	sbcs	r4, r4, #0
	blo	.LBB132_3
	lsls	r1, r1, #3
	add.w	lr, r0, r1
	ldrb	r4, [lr, #-8]
	lsls	r4, r4, #31
	itttt	eq
	orreq	r2, r1, #1
	moveq	r0, #0
	strdeq	r2, r1, [lr, #-8]
	popeq	{r4, pc}
.LBB132_3:
	str.w	r12, [sp, #8]
	pop.w	{r4, lr}
	b	ic_raw.table.refusal_at_end.05a19227735374d3
.Lfunc_end132:
	.size	ic_ring32_init, .Lfunc_end132-ic_ring32_init
	.cfi_endproc
	.section	.text.ic_ring32_insert_after,"ax",%progbits
	.globl	ic_ring32_insert_after
	.p2align	2
	.type	ic_ring32_insert_after,%function
	.code	16
	.thumb_func
ic_ring32_insert_after:
	.cfi_startproc
	push.w	{r4, r5, r6, r7, r8, r9, r10, lr}
	.cfi_def_cfa_offset 32
	.cfi_offset lr, -4
	.cfi_offset r10, -8
	.cfi_offset r9, -12
	.cfi_offset r8, -16
	.cfi_offset r7, -20
	.cfi_offset r6, -24
	.cfi_offset r5, -28
	.cfi_offset r4, -32
	ldr.w	r9, [sp, #32]
	cmp	r0, #0
	it	eq
	addeq.w	r0, r0, #4096
	adds.w	r6, r9, #1
	itt	hs
	movhs	r0, #4
	pophs.w	{r4, r5, r6, r7, r8, r9, r10, pc}
.LBB133_1:
	mvn	r1, #-536870912
	cmp	r2, r1
	mvn	r5, #-536870912
	ldr.w	r12, [sp, #36]
	it	lo
	movlo	r5, r2
	cmp	r3, #0
	it	ne
	movne	r5, r1
	movs	r1, #0
	subs	r7, r5, r6
	sbcs	r1, r1, #0
	blo	.LBB133_5
	lsl.w	r10, r6, #3
	add.w	lr, r0, r10
	ldr	r1, [lr, #-8]
	lsls	r7, r1, #31
	it	ne
	bicsne	r8, r1, #7
	beq	.LBB133_5
	lsrs	r1, r1, #3
	subs	r1, r2, r1
	sbcs	r1, r3, #0
	blo	.LBB133_5
	add.w	r7, r0, r8
	ldrb	r1, [r7, #-8]
	lsls	r1, r1, #31
	it	ne
	addsne.w	r1, r12, #1
	bne	.LBB133_6
.LBB133_5:
	strd	r9, r12, [sp, #32]
	pop.w	{r4, r5, r6, r7, r8, r9, r10, lr}
	b	ic_raw.table.RawTable.refusal.05a19227735374d3
	.p2align	2
.LBB133_6:
	ldr	r4, [r7, #-4]
	lsrs	r6, r6, #29
	bic	r4, r4, #7
	eor.w	r4, r4, r10
	orrs	r4, r6
	bne	.LBB133_5
	cmp	r5, r1
	blo	.LBB133_5
	lsls	r1, r1, #3
	adds	r5, r0, r1
	ldrb	r4, [r5, #-8]
	lsls	r4, r4, #31
	bne	.LBB133_5
	orr	r0, r8, #1
	strd	r0, r10, [r5, #-8]
	orr	r0, r1, #1
	str	r0, [lr, #-8]
	movs	r0, #0
	str	r1, [r7, #-4]
	pop.w	{r4, r5, r6, r7, r8, r9, r10, pc}
.Lfunc_end133:
	.size	ic_ring32_insert_after, .Lfunc_end133-ic_ring32_insert_after
	.cfi_endproc
	.section	.text.ic_ring32_insert_before,"ax",%progbits
	.globl	ic_ring32_insert_before
	.p2align	2
	.type	ic_ring32_insert_before,%function
	.code	16
	.thumb_func
ic_ring32_insert_before:
	.cfi_startproc
	push.w	{r4, r5, r6, r7, r8, r9, r10, lr}
	.cfi_def_cfa_offset 32
	.cfi_offset lr, -4
	.cfi_offset r10, -8
	.cfi_offset r9, -12
	.cfi_offset r8, -16
	.cfi_offset r7, -20
	.cfi_offset r6, -24
	.cfi_offset r5, -28
	.cfi_offset r4, -32
	ldr.w	lr, [sp, #32]
	cmp	r0, #0
	it	eq
	addeq.w	r0, r0, #4096
	adds.w	r6, lr, #1
	itt	hs
	movhs	r0, #4
	pophs.w	{r4, r5, r6, r7, r8, r9, r10, pc}
.LBB134_1:
	mvn	r1, #-536870912
	cmp	r2, r1
	mvn	r5, #-536870912
	ldr.w	r12, [sp, #36]
	it	lo
	movlo	r5, r2
	cmp	r3, #0
	it	ne
	movne	r5, r1
	movs	r1, #0
	subs	r4, r5, r6
	sbcs	r1, r1, #0
	blo	.LBB134_5
	lsls	r4, r6, #3
	add.w	r10, r0, r4
	ldrb	r1, [r10, #-8]
	lsls	r1, r1, #31
	itt	ne
	ldrne	r1, [r10, #-4]
	bicsne	r8, r1, #7
	beq	.LBB134_5
	lsrs	r1, r1, #3
	subs	r1, r2, r1
	sbcs	r1, r3, #0
	blo	.LBB134_5
	add.w	r9, r0, r8
	ldr	r1, [r9, #-8]
	lsls	r7, r1, #31
	it	ne
	addsne.w	r7, r12, #1
	bne	.LBB134_6
.LBB134_5:
	strd	lr, r12, [sp, #32]
	pop.w	{r4, r5, r6, r7, r8, r9, r10, lr}
	b	ic_raw.table.RawTable.refusal.05a19227735374d3
	.p2align	2
.LBB134_6:
	bic	r1, r1, #7
	lsrs	r6, r6, #29
	eors	r1, r4
	orrs	r1, r6
	bne	.LBB134_5
	cmp	r5, r7
	blo	.LBB134_5
	lsls	r5, r7, #3
	adds	r6, r0, r5
	ldrb	r1, [r6, #-8]
	lsls	r1, r1, #31
	bne	.LBB134_5
	orr	r0, r4, #1
	strd	r0, r8, [r6, #-8]
	orr	r0, r5, #1
	str	r0, [r9, #-8]
	movs	r0, #0
	str	r5, [r10, #-4]
	pop.w	{r4, r5, r6, r7, r8, r9, r10, pc}
.Lfunc_end134:
	.size	ic_ring32_insert_before, .Lfunc_end134-ic_ring32_insert_before
	.cfi_endproc
	.section	.text.ic_ring32_move_after,"ax",%progbits
	.globl	ic_ring32_move_after
	.p2align	2
	.type	ic_ring32_move_after,%function
	.code	16
	.thumb_func
ic_ring32_move_after:
	.cfi_startproc
	push	{r7, lr}
	.cfi_def_cfa_offset 8
	.cfi_offset lr, -4
	.cfi_offset r7, -8
	sub	sp, #16
	.cfi_def_cfa_offset 24
	ldrd	lr, r12, [sp, #24]
	movs	r1, #0
	cmp	r0, #0
	it	eq
	addeq.w	r0, r0, #4096
	strd	r1, lr, [sp]
	str.w	r12, [sp, #8]
	bl	ic_raw.ring_calls.move_beside.5b268f449b4ebf83
	add	sp, #16
	pop	{r7, pc}
.Lfunc_end135:
	.size	ic_ring32_move_after, .Lfunc_end135-ic_ring32_move_after
	.cfi_endproc
	.section	.text.ic_ring32_move_before,"ax",%progbits
	.globl	ic_ring32_move_before
	.p2align	2
	.type	ic_ring32_move_before,%function
	.code	16
	.thumb_func
ic_ring32_move_before:
	.cfi_startproc
	push	{r7, lr}
	.cfi_def_cfa_offset 8
	.cfi_offset lr, -4
	.cfi_offset r7, -8
	sub	sp, #16
	.cfi_def_cfa_offset 24
	ldrd	lr, r12, [sp, #24]
	movs	r1, #1
	cmp	r0, #0
	it	eq
	addeq.w	r0, r0, #4096
	strd	r1, lr, [sp]
	str.w	r12, [sp, #8]
	bl	ic_raw.ring_calls.move_beside.5b268f449b4ebf83
	add	sp, #16
	pop	{r7, pc}
.Lfunc_end136:
	.size	ic_ring32_move_before, .Lfunc_end136-ic_ring32_move_before
	.cfi_endproc
	.section	.text.ic_ring32_pop_back,"ax",%progbits
	.globl	ic_ring32_pop_back
	.p2align	2
	.type	ic_ring32_pop_back,%function
	.code	16
	.thumb_func
ic_ring32_pop_back:
	.cfi_startproc
	push	{r7, lr}
	.cfi_def_cfa_offset 8
	.cfi_offset lr, -4
	.cfi_offset r7, -8
	sub	sp, #16
	.cfi_def_cfa_offset 24
	ldrd	lr, r12, [sp, #24]
	movs	r1, #1
	cmp	r0, #0
	it	eq
	addeq.w	r0, r0, #4096
	strd	r1, lr, [sp]
	str.w	r12, [sp, #8]
	bl	ic_raw.ring_calls.pop.5b268f449b4ebf83
	add	sp, #16
	pop	{r7, pc}
.Lfunc_end137:
	.size	ic_ring32_pop_back, .Lfunc_end137-ic_ring32_pop_back
	.cfi_endproc
	.section	.text.ic_ring32_pop_front,"ax",%progbits
	.globl	ic_ring32_pop_front
	.p2align	2
	.type	ic_ring32_pop_front,%function
	.code	16
	.thumb_func
ic_ring32_pop_front:
	.cfi_startproc
	push	{r7, lr}
	.cfi_def_cfa_offset 8
	.cfi_offset lr, -4
	.cfi_offset r7, -8
	sub	sp, #16
	.cfi_def_cfa_offset 24
	ldrd	lr, r12, [sp, #24]
	movs	r1, #0
	cmp	r0, #0
	it	eq
	addeq.w	r0, r0, #4096
	strd	r1, lr, [sp]
	str.w	r12, [sp, #8]
	bl	ic_raw.ring_calls.pop.5b268f449b4ebf83
	add	sp, #16
	pop	{r7, pc}
.Lfunc_end138:
	.size	ic_ring32_pop_front, .Lfunc_end138-ic_ring32_pop_front
	.cfi_endproc
	.section	.text.ic_ring32_remove,"ax",%progbits
	.globl	ic_ring32_remove
	.p2align	2
	.type	ic_ring32_remove,%function
	.code	16
	.thumb_func
ic_ring32_remove:
	.cfi_startproc
	push.w	{r4, r5, r6, r7, r8, r9, lr}
	.cfi_def_cfa_offset 28
	.cfi_offset lr, -4
	.cfi_offset r9, -8
	.cfi_offset r8, -12
	.cfi_offset r7, -16
	.cfi_offset r6, -20
	.cfi_offset r5, -24
	.cfi_offset r4, -28
	ldr.w	lr, [sp, #28]
	cmp	r0, #0
	it	eq
	addeq.w	r0, r0, #4096
	adds.w	r5, lr, #1
	itt	hs
	movhs	r0, #4
	pophs.w	{r4, r5, r6, r7, r8, r9, pc}
.LBB139_1:
	mvn	r1, #-536870912
	cmp	r2, r1
	mvn	r7, #-536870912
	it	lo
	movlo	r7, r2
	cmp	r3, #0
	it	ne
	movne	r7, r1
	subs	r1, r7, r5
	mov.w	r1, #0
	sbcs	r1, r1, #0
	blo	.LBB139_10
	lsls	r1, r5, #3
	add.w	r12, r0, r1
	ldr	r7, [r12, #-8]
	lsls	r4, r7, #31
	itt	ne
	ldrne	r4, [r12, #-4]
	bicsne	r8, r4, #7
	beq	.LBB139_10
	lsrs	r4, r4, #3
	subs	r4, r2, r4
	sbcs	r4, r3, #0
	blo	.LBB139_10
	add.w	r9, r0, r8
	ldr	r4, [r9, #-8]
	lsls	r6, r4, #31
	beq	.LBB139_10
	bic	r4, r4, #7
	lsrs	r5, r5, #29
	eors	r4, r1
	orrs	r4, r5
	bne	.LBB139_10
	bics	r4, r7, #7
	beq	.LBB139_10
	lsrs	r6, r7, #3
	subs	r6, r2, r6
	sbcs	r6, r3, #0
	blo	.LBB139_10
	adds	r7, r0, r4
	ldrb	r6, [r7, #-8]
	lsls	r6, r6, #31
	beq	.LBB139_10
	ldr	r6, [r7, #-4]
	bic	r6, r6, #7
	eors	r1, r6
	orrs	r1, r5
	itttt	eq
	orreq	r0, r4, #1
	streq	r0, [r9, #-8]
	streq	r8, [r7, #-4]
	moveq	r0, #0
	itt	eq
	streq	r0, [r12, #-8]
	popeq.w	{r4, r5, r6, r7, r8, r9, pc}
.LBB139_10:
	str.w	lr, [sp, #28]
	pop.w	{r4, r5, r6, r7, r8, r9, lr}
	b	ic_raw.table.RawTable.refusal_at.05a19227735374d3
.Lfunc_end139:
	.size	ic_ring32_remove, .Lfunc_end139-ic_ring32_remove
	.cfi_endproc
	.section	.text.ic_ring32_replace,"ax",%progbits
	.globl	ic_ring32_replace
	.p2align	2
	.type	ic_ring32_replace,%function
	.code	16
	.thumb_func
ic_ring32_replace:
	.cfi_startproc
	push.w	{r4, r5, r6, r7, r8, r9, r10, r11, lr}
	.cfi_def_cfa_offset 36
	.cfi_offset lr, -4
	.cfi_offset r11, -8
	.cfi_offset r10, -12
	.cfi_offset r9, -16
	.cfi_offset r8, -20
	.cfi_offset r7, -24
	.cfi_offset r6, -28
	.cfi_offset r5, -32
	.cfi_offset r4, -36
	sub	sp, #4
	.cfi_def_cfa_offset 40
	ldr.w	r10, [sp, #40]
	cmp	r0, #0
	it	eq
	addeq.w	r0, r0, #4096
	adds.w	r6, r10, #1
	blo	.LBB140_2
	movs	r0, #4
	add	sp, #4
	pop.w	{r4, r5, r6, r7, r8, r9, r10, r11, pc}
	.p2align	2
.LBB140_2:
	ldr	r1, [sp, #44]
	mvn	r5, #-536870912
	str	r1, [sp]
	mvn	r1, #-536870912
	cmp	r2, r1
	it	lo
	movlo	r5, r2
	cmp	r3, #0
	it	ne
	movne	r5, r1
	movs	r1, #0
	subs	r7, r5, r6
	sbcs	r1, r1, #0
	blo	.LBB140_10
	lsl.w	r12, r6, #3
	add.w	lr, r0, r12
	ldr	r1, [lr, #-8]
	lsls	r7, r1, #31
	itt	ne
	ldrne	r7, [lr, #-4]
	bicsne	r8, r7, #7
	beq	.LBB140_10
	lsrs	r7, r7, #3
	subs	r7, r2, r7
	sbcs	r7, r3, #0
	blo	.LBB140_10
	add.w	r9, r0, r8
	ldr	r7, [r9, #-8]
	lsls	r4, r7, #31
	beq	.LBB140_10
	bic	r4, r7, #7
	lsr.w	r11, r6, #29
	eor.w	r4, r4, r12
	orrs.w	r4, r4, r11
	bne	.LBB140_10
	bics	r7, r1, #7
	beq	.LBB140_10
	lsrs	r1, r1, #3
	cmp	r1, r5
	bhi	.LBB140_10
	adds	r6, r0, r7
	ldrb	r1, [r6, #-8]
	lsls	r1, r1, #31
	itt	ne
	ldrne	r1, [sp]
	addsne.w	r1, r1, #1
	bne	.LBB140_11
.LBB140_10:
	ldr	r1, [sp]
	strd	r10, r1, [sp, #40]
	add	sp, #4
	pop.w	{r4, r5, r6, r7, r8, r9, r10, r11, lr}
	b	ic_raw.table.RawTable.refusal.05a19227735374d3
	.p2align	2
.LBB140_11:
	ldr	r4, [r6, #-4]
	bic	r4, r4, #7
	eor.w	r4, r4, r12
	orrs.w	r4, r4, r11
	bne	.LBB140_10
	cmp	r5, r1
	blo	.LBB140_10
	lsls	r1, r1, #3
	adds	r5, r0, r1
	ldrb	r4, [r5, #-8]
	lsls	r4, r4, #31
	bne	.LBB140_10
	orr	r2, r1, #1
	str	r8, [r5, #-4]
	str	r2, [r9, #-8]
	eor.w	r2, r12, r7
	orrs.w	r2, r2, r11
	str	r1, [lr, #-4]
	it	eq
	moveq	r7, r1
	orr	r2, r7, #1
	add	r0, r7
	str	r2, [r5, #-8]
	str	r1, [r0, #-4]
	movs	r0, #0
	str	r0, [lr, #-8]
	add	sp, #4
	pop.w	{r4, r5, r6, r7, r8, r9, r10, r11, pc}
.Lfunc_end140:
	.size	ic_ring32_replace, .Lfunc_end140-ic_ring32_replace
	.cfi_endproc
	.section	.text.ic_ring32_splice_after,"ax",%progbits
	.globl	ic_ring32_splice_after
	.p2align	2
	.type	ic_ring32_splice_after,%function
	.code	16
	.thumb_func
ic_ring32_splice_after:
	.cfi_startproc
	push	{r7, lr}
	.cfi_def_cfa_offset 8
	.cfi_offset lr, -4
	.cfi_offset r7, -8
	sub	sp, #16
	.cfi_def_cfa_offset 24
	ldrd	lr, r12, [sp, #24]
	movs	r1, #0
	cmp	r0, #0
	it	eq
	addeq.w	r0, r0, #4096
	strd	r1, lr, [sp]
	str.w	r12, [sp, #8]
	bl	ic_raw.ring_calls.splice.5b268f449b4ebf83
	add	sp, #16
	pop	{r7, pc}
.Lfunc_end141:
	.size	ic_ring32_splice_after, .Lfunc_end141-ic_ring32_splice_after
	.cfi_endproc
	.section	.text.ic_ring32_splice_before,"ax",%progbits
	.globl	ic_ring32_splice_before
	.p2align	2
	.type	ic_ring32_splice_before,%function
	.code	16
	.thumb_func
ic_ring32_splice_before:
	.cfi_startproc
	push	{r7, lr}
	.cfi_def_cfa_offset 8
	.cfi_offset lr, -4
	.cfi_offset r7, -8
	sub	sp, #16
	.cfi_def_cfa_offset 24
	ldrd	lr, r12, [sp, #24]
	movs	r1, #1
	cmp	r0, #0
	it	eq
	addeq.w	r0, r0, #4096
	strd	r1, lr, [sp]
	str.w	r12, [sp, #8]
	bl	ic_raw.ring_calls.splice.5b268f449b4ebf83
	add	sp, #16
	pop	{r7, pc}
.Lfunc_end142:
	.size	ic_ring32_splice_before, .Lfunc_end142-ic_ring32_splice_before
	.cfi_endproc
	.section	.text.ic_ring_check,"ax",%progbits
	.globl	ic_ring_check
	.p2align	2
	.type	ic_ring_check,%function
	.code	16
	.thumb_func
ic_ring_check:
	.cfi_startproc
	push.w	{r4, r5, r6, r7, r8, r9, r10, r11, lr}
	.cfi_def_cfa_offset 36
	.cfi_offset lr, -4
	.cfi_offset r11, -8
	.cfi_offset r10, -12
	.cfi_offset r9, -16
	.cfi_offset r8, -20
	.cfi_offset r7, -24
	.cfi_offset r6, -28
	.cfi_offset r5, -32
	.cfi_offset r4, -36
	sub	sp, #4
	.cfi_def_cfa_offset 40
	ldr	r1, [sp, #40]
	cmp	r0, #0
	it	eq
	addeq.w	r0, r0, #4096
	adds	r1, #1
	blo	.LBB143_2
	movs	r0, #4
	add	sp, #4
	pop.w	{r4, r5, r6, r7, r8, r9, r10, r11, pc}
	.p2align	2
.LBB143_2:
	lsr.w	r12, r1, #29
	orrs.w	r7, r2, r3
	lsl.w	r8, r1, #3
	beq	.LBB143_11
	ldr	r1, [sp, #44]
	mov.w	r9, #0
	mov.w	r10, #0
	mov	r11, r8
	mov	r4, r12
	str	r1, [sp]
.LBB143_4:
	lsr.w	r1, r11, #3
	orr.w	r1, r1, r4, lsl #29
	subs	r1, r2, r1
	sbcs.w	r1, r3, r4, lsr #3
	blo	.LBB143_11
	add.w	r1, r0, r11, lsl #1
	ldr	r5, [r1, #-16]
	lsls	r6, r5, #31
	itttt	ne
	ldrne	r1, [r1, #-12]
	bicne	r6, r5, #7
	andne	r7, r1, #15
	orrsne.w	lr, r6, r7
	beq	.LBB143_11
	lsrs	r5, r5, #3
	orr.w	r1, r5, r1, lsl #29
	lsrs	r5, r7, #3
	subs	r1, r2, r1
	sbcs.w	r1, r3, r5
	blo	.LBB143_11
	add.w	r1, r0, r6, lsl #1
	ldrb	r5, [r1, #-16]
	lsls	r5, r5, #31
	beq	.LBB143_11
	ldrd	r1, r5, [r1, #-8]
	bic	r1, r1, #7
	and	r5, r5, #15
	eors	r5, r4
	eor.w	r1, r1, r11
	orrs	r1, r5
	bne	.LBB143_11
	eor.w	r1, r6, r8
	eor.w	r5, r7, r12
	orrs	r1, r5
	beq	.LBB143_12
	adds.w	r9, r9, #1
	adc	r10, r10, #0
	subs.w	r1, r9, r2
	sbcs.w	r1, r10, r3
	mov	r11, r6
	mov	r4, r7
	blo	.LBB143_4
.LBB143_11:
	strd	r8, r12, [sp, #40]
	add	sp, #4
	pop.w	{r4, r5, r6, r7, r8, r9, r10, r11, lr}
	b	ic_raw.table.RawTable.refusal_of.5f318a721acb0238
	.p2align	2
.LBB143_12:
	ldr	r0, [sp]
	strd	r9, r10, [r0]
	movs	r0, #0
	add	sp, #4
	pop.w	{r4, r5, r6, r7, r8, r9, r10, r11, pc}
.Lfunc_end143:
	.size	ic_ring_check, .Lfunc_end143-ic_ring_check
	.cfi_endproc
	.section	.text.ic_ring_exchange,"ax",%progbits
	.globl	ic_ring_exchange
	.p2align	2
	.type	ic_ring_exchange,%function
	.code	16
	.thumb_func
ic_ring_exchange:
	.cfi_startproc
	push.w	{r4, r5, r6, r7, r8, r9, r10, r11, lr}
	.cfi_def_cfa_offset 36
	.cfi_offset lr, -4
	.cfi_offset r11, -8
	.cfi_offset r10, -12
	.cfi_offset r9, -16
	.cfi_offset r8, -20
	.cfi_offset r7, -24
	.cfi_offset r6, -28
	.cfi_offset r5, -32
	.cfi_offset r4, -36
	sub	sp, #28
	.cfi_def_cfa_offset 64
	ldr.w	r11, [sp, #64]
	cmp	r0, #0
	it	eq
	addeq.w	r0, r0, #4096
	adds.w	r4, r11, #1
	itt	lo
	ldrlo.w	r12, [sp, #68]
	addslo.w	r10, r12, #1
	blo	.LBB144_2
	movs	r0, #4
	add	sp, #28
	pop.w	{r4, r5, r6, r7, r8, r9, r10, r11, pc}
	.p2align	2
.LBB144_2:
	subs	r6, r2, r4
	sbcs	r6, r3, #0
	blo	.LBB144_10
	lsls	r7, r4, #3
	str	r7, [sp, #12]
	add.w	r7, r0, r7, lsl #1
	ldr	r6, [r7, #-16]
	str	r7, [sp, #24]
	lsls	r5, r6, #31
	beq	.LBB144_10
	ldr	r7, [sp, #24]
	ldr	r5, [r7, #-12]
	bic	r7, r6, #7
	and	r1, r5, #15
	strd	r7, r1, [sp, #16]
	orrs	r7, r1
	beq	.LBB144_10
	lsrs	r7, r6, #3
	ldr	r6, [sp, #20]
	orr.w	r7, r7, r5, lsl #29
	lsrs	r6, r6, #3
	subs	r7, r2, r7
	sbcs.w	r7, r3, r6
	blo	.LBB144_10
	ldr	r7, [sp, #16]
	add.w	r1, r0, r7, lsl #1
	ldrb	r7, [r1, #-16]
	str	r1, [sp, #8]
	lsls	r7, r7, #31
	beq	.LBB144_10
	subs.w	r7, r2, r10
	sbcs	r7, r3, #0
	blo	.LBB144_10
	ldr	r1, [sp, #8]
	ldr	r5, [sp, #12]
	ldrd	r7, r6, [r1, #-8]
	lsrs	r4, r4, #29
	and	r6, r6, #15
	bic	r7, r7, #7
	eors	r7, r5
	eors	r6, r4
	orrs	r7, r6
	str	r4, [sp]
	bne	.LBB144_10
	lsl.w	r1, r10, #3
	add.w	r6, r0, r1, lsl #1
	ldr	r5, [r6, #-16]
	str	r1, [sp, #4]
	lsls	r7, r5, #31
	itttt	ne
	ldrne	r4, [r6, #-12]
	bicne	r9, r5, #7
	andne	lr, r4, #15
	orrsne.w	r7, r9, lr
	bne	.LBB144_11
.LBB144_10:
	strd	r11, r12, [sp, #64]
	add	sp, #28
	pop.w	{r4, r5, r6, r7, r8, r9, r10, r11, lr}
	b	ic_raw.table.RawTable.refusal_at_both.85cd03e557136797
	.p2align	2
.LBB144_11:
	lsrs	r5, r5, #3
	orr.w	r4, r5, r4, lsl #29
	lsr.w	r5, lr, #3
	subs	r4, r2, r4
	sbcs.w	r4, r3, r5
	blo	.LBB144_10
	add.w	r8, r0, r9, lsl #1
	ldrb	r4, [r8, #-16]
	lsls	r4, r4, #31
	beq	.LBB144_10
	ldrd	r4, r5, [r8, #-8]
	ldr	r1, [sp, #4]
	lsr.w	r7, r10, #29
	bic	r4, r4, #7
	and	r5, r5, #15
	eors	r5, r7
	eors	r4, r1
	orrs	r4, r5
	bne	.LBB144_10
	ldr	r1, [sp, #24]
	orr	r0, r9, #1
	strd	r0, lr, [r1, #-16]
	ldr	r0, [sp, #12]
	ldr	r1, [sp]
	strd	r0, r1, [r8, #-8]
	ldr	r0, [sp, #16]
	ldr	r1, [sp, #20]
	orr	r0, r0, #1
	strd	r0, r1, [r6, #-16]
	ldrd	r0, r1, [sp, #4]
	strd	r0, r7, [r1, #-8]
	movs	r0, #0
	add	sp, #28
	pop.w	{r4, r5, r6, r7, r8, r9, r10, r11, pc}
.Lfunc_end144:
	.size	ic_ring_exchange, .Lfunc_end144-ic_ring_exchange
	.cfi_endproc
	.section	.text.ic_ring_init,"ax",%progbits
	.globl	ic_ring_init
	.p2align	2
	.type	ic_ring_init,%function
	.code	16
	.thumb_func
ic_ring_init:
	.cfi_startproc
	push	{r4, r5, r7, lr}
	.cfi_def_cfa_offset 16
	.cfi_offset lr, -4
	.cfi_offset r7, -8
	.cfi_offset r5, -12
	.cfi_offset r4, -16
	ldr.w	r12, [sp, #16]
	cmp	r0, #0
	it	eq
	addeq.w	r0, r0, #4096
	adds.w	lr, r12, #1
	bhs	.LBB145_4
	subs.w	r1, r2, lr
	sbcs	r1, r3, #0
	blo	.LBB145_4
	lsl.w	r4, lr, #3
	add.w	r1, r0, r4, lsl #1
	ldrb	r5, [r1, #-16]
	lsls	r5, r5, #31
	bne	.LBB145_4
	orr	r0, r4, #1
	sub.w	r3, r1, #16
	lsr.w	r2, lr, #29
	stm	r3!, {r0, r2, r4}
	movs	r0, #0
	str	r2, [r1, #-4]
	pop	{r4, r5, r7, pc}
	.p2align	2
.LBB145_4:
	str.w	r12, [sp, #16]
	pop.w	{r4, r5, r7, lr}
	b	ic_raw.table.refusal_at_end.85cd03e557136797
.Lfunc_end145:
	.size	ic_ring_init, .Lfunc_end145-ic_ring_init
	.cfi_endproc
	.section	.text.ic_ring_insert_after,"ax",%progbits
	.globl	ic_ring_insert_after
	.p2align	2
	.type	ic_ring_insert_after,%function
	.code	16
	.thumb_func
ic_ring_insert_after:
	.cfi_startproc
	push.w	{r4, r5, r6, r7, r8, r9, r10, r11, lr}
	.cfi_def_cfa_offset 36
	.cfi_offset lr, -4
	.cfi_offset r11, -8
	.cfi_offset r10, -12
	.cfi_offset r9, -16
	.cfi_offset r8, -20
	.cfi_offset r7, -24
	.cfi_offset r6, -28
	.cfi_offset r5, -32
	.cfi_offset r4, -36
	sub	sp, #8
	.cfi_def_cfa_offset 44
	ldr	r1, [sp, #44]
	cmp	r0, #0
	it	eq
	addeq.w	r0, r0, #4096
	adds	r7, r1, #1
	blo	.LBB146_2
	movs	r0, #4
	add	sp, #8
	pop.w	{r4, r5, r6, r7, r8, r9, r10, r11, pc}
	.p2align	2
.LBB146_2:
	str	r1, [sp]
	ldr.w	r9, [sp, #48]
	subs	r1, r2, r7
	sbcs	r1, r3, #0
	blo	.LBB146_6
	lsl.w	r8, r7, #3
	add.w	r12, r0, r8, lsl #1
	ldr	r1, [r12, #-16]
	lsls	r4, r1, #31
	itttt	ne
	ldrne	r4, [r12, #-12]
	bicne	lr, r1, #7
	andne	r10, r4, #15
	orrsne.w	r5, lr, r10
	beq	.LBB146_6
	lsrs	r1, r1, #3
	orr.w	r1, r1, r4, lsl #29
	lsr.w	r4, r10, #3
	subs	r1, r2, r1
	sbcs.w	r1, r3, r4
	blo	.LBB146_6
	add.w	r4, r0, lr, lsl #1
	ldrb	r1, [r4, #-16]
	lsls	r1, r1, #31
	it	ne
	addsne.w	r5, r9, #1
	bne	.LBB146_7
.LBB146_6:
	str.w	r9, [sp, #48]
	ldr	r1, [sp]
	str	r1, [sp, #44]
	add	sp, #8
	pop.w	{r4, r5, r6, r7, r8, r9, r10, r11, lr}
	b	ic_raw.table.RawTable.refusal.85cd03e557136797
	.p2align	2
.LBB146_7:
	subs	r1, r2, r5
	sbcs	r1, r3, #0
	blo	.LBB146_6
	ldrd	r1, r6, [r4, #-8]
	lsrs	r7, r7, #29
	and	r6, r6, #15
	bic	r1, r1, #7
	eor.w	r1, r1, r8
	eors	r6, r7
	orrs	r1, r6
	str	r7, [sp, #4]
	bne	.LBB146_6
	lsls	r6, r5, #3
	add.w	r1, r0, r6, lsl #1
	mov	r11, r10
	mov	r10, r9
	mov	r9, r12
	mov	r12, r8
	ldrb	r8, [r1, #-16]
	mov	r7, r4
	lsls.w	r4, r8, #31
	mov	r8, r12
	mov	r12, r9
	mov	r9, r10
	bne	.LBB146_6
	orr	r2, lr, #1
	strd	r2, r11, [r1, #-16]
	ldr	r2, [sp, #4]
	lsrs	r0, r5, #29
	str	r8, [r1, #-8]
	str	r2, [r1, #-4]
	orr	r1, r6, #1
	strd	r1, r0, [r12, #-16]
	strd	r6, r0, [r7, #-8]
	movs	r0, #0
	add	sp, #8
	pop.w	{r4, r5, r6, r7, r8, r9, r10, r11, pc}
.Lfunc_end146:
	.size	ic_ring_insert_after, .Lfunc_end146-ic_ring_insert_after
	.cfi_endproc
	.section	.text.ic_ring_insert_before,"ax",%progbits
	.globl	ic_ring_insert_before
	.p2align	2
	.type	ic_ring_insert_before,%function
	.code	16
	.thumb_func
ic_ring_insert_before:
	.cfi_startproc
	push.w	{r4, r5, r6, r7, r8, r9, r10, r11, lr}
	.cfi_def_cfa_offset 36
	.cfi_offset lr, -4
	.cfi_offset r11, -8
	.cfi_offset r10, -12
	.cfi_offset r9, -16
	.cfi_offset r8, -20
	.cfi_offset r7, -24
	.cfi_offset r6, -28
	.cfi_offset r5, -32
	.cfi_offset r4, -36
	sub	sp, #8
	.cfi_def_cfa_offset 44
	ldr	r1, [sp, #44]
	cmp	r0, #0
	it	eq
	addeq.w	r0, r0, #4096
	adds	r7, r1, #1
	blo	.LBB147_2
	movs	r0, #4
	add	sp, #8
	pop.w	{r4, r5, r6, r7, r8, r9, r10, r11, pc}
	.p2align	2
.LBB147_2:
	str	r1, [sp]
	ldr.w	r8, [sp, #48]
	subs	r1, r2, r7
	sbcs	r1, r3, #0
	blo	.LBB147_4
	lsl.w	r9, r7, #3
	add.w	lr, r0, r9, lsl #1
	ldrb	r1, [lr, #-16]
	lsls	r1, r1, #31
	itttt	ne
	ldrdne	r4, r1, [lr, #-8]
	andne	r10, r1, #15
	bicne	r12, r4, #7
	orrsne.w	r5, r12, r10
	bne	.LBB147_5
.LBB147_4:
	str.w	r8, [sp, #48]
	ldr	r1, [sp]
	str	r1, [sp, #44]
	add	sp, #8
	pop.w	{r4, r5, r6, r7, r8, r9, r10, r11, lr}
	b	ic_raw.table.RawTable.refusal.85cd03e557136797
	.p2align	2
.LBB147_5:
	lsrs	r4, r4, #3
	orr.w	r1, r4, r1, lsl #29
	lsr.w	r4, r10, #3
	subs	r1, r2, r1
	sbcs.w	r1, r3, r4
	blo	.LBB147_4
	adds.w	r5, r8, #1
	beq	.LBB147_4
	subs	r1, r2, r5
	sbcs	r1, r3, #0
	blo	.LBB147_4
	add.w	r4, r0, r12, lsl #1
	ldr	r1, [r4, #-16]
	ands	r6, r1, #1
	beq	.LBB147_4
	ldr	r6, [r4, #-12]
	lsrs	r7, r7, #29
	and	r6, r6, #15
	bic	r1, r1, #7
	eor.w	r1, r1, r9
	eors	r6, r7
	orrs	r1, r6
	str	r7, [sp, #4]
	bne	.LBB147_4
	lsls	r6, r5, #3
	add.w	r1, r0, r6, lsl #1
	mov	r11, r10
	mov	r10, r9
	mov	r9, r8
	mov	r8, lr
	ldrb	lr, [r1, #-16]
	lsls.w	r7, lr, #31
	mov	lr, r8
	mov	r8, r9
	bne	.LBB147_4
	orr	r2, r10, #1
	str	r2, [r1, #-16]
	ldr	r2, [sp, #4]
	lsrs	r0, r5, #29
	strd	r2, r12, [r1, #-12]
	str	r11, [r1, #-4]
	orr	r1, r6, #1
	strd	r1, r0, [r4, #-16]
	strd	r6, r0, [lr, #-8]
	movs	r0, #0
	add	sp, #8
	pop.w	{r4, r5, r6, r7, r8, r9, r10, r11, pc}
.Lfunc_end147:
	.size	ic_ring_insert_before, .Lfunc_end147-ic_ring_insert_before
	.cfi_endproc
	.section	.text.ic_ring_merge,"ax",%progbits
	.globl	ic_ring_merge
	.p2align	2
	.type	ic_ring_merge,%function
	.code	16
	.thumb_func
ic_ring_merge:
	.cfi_startproc
	push.w	{r4, r5, r6, r7, r8, r9, r10, r11, lr}
	.cfi_def_cfa_offset 36
	.cfi_offset lr, -4
	.cfi_offset r11, -8
	.cfi_offset r10, -12
	.cfi_offset r9, -16
	.cfi_offset r8, -20
	.cfi_offset r7, -24
	.cfi_offset r6, -28
	.cfi_offset r5, -32
	.cfi_offset r4, -36
	sub	sp, #76
	.cfi_def_cfa_offset 112
	ldr	r7, [sp, #112]
	ldr	r1, [sp, #128]
	cmp	r0, #0
	it	eq
	addeq.w	r0, r0, #4096
	cmp	r7, #0
	it	eq
	addeq.w	r7, r7, #4096
	adds	r1, #1
	bhs	.LBB148_2
	mov	r12, r3
	ldr	r3, [sp, #132]
	adds	r3, #1
	blo	.LBB148_3
.LBB148_2:
	movs	r0, #4
	add	sp, #76
	pop.w	{r4, r5, r6, r7, r8, r9, r10, r11, pc}
	.p2align	2
.LBB148_3:
	str	r7, [sp, #28]
	ldrd	r5, r6, [sp, #120]
	lsrs	r7, r1, #29
	lsls	r1, r1, #3
	str	r1, [sp, #36]
	movs	r1, #0
	strd	r1, r2, [sp, #44]
	subs	r1, r5, r2
	lsr.w	r10, r3, #29
	lsl.w	r8, r3, #3
	sbcs.w	r1, r6, r12
	str	r7, [sp, #32]
	str	r0, [sp, #40]
	str.w	r12, [sp, #52]
	blo	.LBB148_5
	orrs.w	r1, r2, r12
	itttt	ne
	ldrne	r1, [sp, #36]
	eorne.w	r1, r1, r8
	ldrne	r3, [sp, #32]
	eorne.w	r3, r3, r10
	it	ne
	orrsne.w	r1, r1, r3
	bne	.LBB148_6
.LBB148_5:
	ldr	r0, [sp, #36]
	ldrd	r2, r3, [sp, #120]
	str	r0, [sp]
	ldr	r0, [sp, #32]
	str.w	r10, [sp, #12]
	strd	r0, r8, [sp, #4]
	add	r0, sp, #40
	bl	ic_raw_lists.ring_sort_calls.refusal_at_both
	add	sp, #76
	pop.w	{r4, r5, r6, r7, r8, r9, r10, r11, pc}
	.p2align	2
.LBB148_6:
	ldrd	r11, r9, [sp, #32]
	movs	r4, #0
	movs	r7, #0
.LBB148_7:
	lsr.w	r1, r9, #3
	orr.w	r1, r1, r11, lsl #29
	subs	r1, r2, r1
	sbcs.w	r1, r12, r11, lsr #3
	blo	.LBB148_5
	add.w	r3, r0, r9, lsl #1
	ldr	r1, [r3, #-16]
	lsls	r5, r1, #31
	itttt	ne
	ldrne	r3, [r3, #-12]
	bicne	r5, r1, #7
	andne	r6, r3, #15
	orrsne.w	lr, r5, r6
	beq	.LBB148_5
	lsrs	r1, r1, #3
	orr.w	r1, r1, r3, lsl #29
	lsrs	r3, r6, #3
	subs	r1, r2, r1
	sbcs.w	r1, r12, r3
	blo	.LBB148_5
	add.w	r1, r0, r5, lsl #1
	ldrb	r3, [r1, #-16]
	lsls	r3, r3, #31
	beq	.LBB148_5
	ldrd	r1, r3, [r1, #-8]
	bic	r1, r1, #7
	and	r3, r3, #15
	eor.w	r3, r3, r11
	eor.w	r1, r1, r9
	orrs	r1, r3
	bne	.LBB148_5
	ldr	r1, [sp, #36]
	ldr	r3, [sp, #32]
	eors	r1, r5
	eors	r3, r6
	orrs	r1, r3
	beq	.LBB148_15
	adds	r4, #1
	adc	r7, r7, #0
	subs	r1, r4, r2
	sbcs.w	r1, r7, r12
	bhs	.LBB148_5
	eor.w	r1, r8, r5
	eor.w	r3, r10, r6
	orrs	r1, r3
	mov	r9, r5
	mov	r11, r6
	bne	.LBB148_7
	b	.LBB148_5
	.p2align	2
.LBB148_15:
	mov.w	r9, #0
	mov.w	r11, #0
	mov	lr, r8
	mov	r3, r10
.LBB148_16:
	lsr.w	r7, lr, #3
	orr.w	r7, r7, r3, lsl #29
	subs	r7, r2, r7
	sbcs.w	r7, r12, r3, lsr #3
	blo	.LBB148_5
	add.w	r5, r0, lr, lsl #1
	ldr	r4, [r5, #-16]
	lsls	r7, r4, #31
	itttt	ne
	ldrne	r7, [r5, #-12]
	bicne	r5, r4, #7
	andne	r6, r7, #15
	orrsne.w	r1, r5, r6
	beq.w	.LBB148_5
	lsrs	r1, r4, #3
	orr.w	r1, r1, r7, lsl #29
	lsrs	r4, r6, #3
	subs	r1, r2, r1
	sbcs.w	r1, r12, r4
	blo.w	.LBB148_5
	add.w	r4, r0, r5, lsl #1
	ldrb	r1, [r4, #-16]
	lsls	r1, r1, #31
	beq.w	.LBB148_5
	ldrd	r1, r4, [r4, #-8]
	bic	r1, r1, #7
	and	r4, r4, #15
	eors	r3, r4
	eor.w	r1, r1, lr
	orrs	r1, r3
	bne.w	.LBB148_5
	eor.w	r1, r5, r8
	eor.w	r3, r6, r10
	orrs	r1, r3
	beq	.LBB148_23
	adds.w	r9, r9, #1
	adc	r11, r11, #0
	subs.w	r1, r9, r2
	sbcs.w	r1, r11, r12
	mov	lr, r5
	mov	r3, r6
	blo	.LBB148_16
	b	.LBB148_5
	.p2align	2
.LBB148_23:
	ldr	r7, [sp, #36]
	ldr	r1, [sp, #28]
	add.w	r9, r0, r7, lsl #1
	str	r1, [sp, #56]
	ldrd	r2, r1, [r9, #-16]
	ldr	r3, [sp, #120]
	and	r1, r1, #15
	bic	r2, r2, #7
	str	r3, [sp, #64]
	orrs.w	r3, r2, r1
	ldr	r3, [sp, #124]
	mov.w	r6, #0
	str	r6, [sp, #60]
	str	r3, [sp, #68]
	beq	.LBB148_27
	eor.w	r3, r2, r7
	ldr	r7, [sp, #32]
	eors	r7, r1
	orrs	r3, r7
	beq	.LBB148_27
	ldrd	r3, r7, [r9, #-8]
	mov.w	r12, #0
	and	lr, r7, #15
	bic	r5, r3, #7
	orrs.w	r3, r5, lr
	mov.w	r3, #0
	mov.w	r7, #0
	beq	.LBB148_28
	add.w	r3, r0, r2, lsl #1
	strd	r12, r12, [r3, #-8]
	add.w	r3, r0, r5, lsl #1
	movs	r4, #1
	strd	r4, r12, [r3, #-16]
	mov	r6, r2
	mov	r3, r1
	mov	r12, r5
	mov	r7, lr
	b	.LBB148_28
	.p2align	2
.LBB148_27:
	movs	r3, #0
	mov.w	r12, #0
	movs	r7, #0
.LBB148_28:
	add.w	r5, r0, r8, lsl #1
	ldrd	r1, r2, [r5, #-16]
	strd	r5, r9, [sp, #24]
	and	lr, r2, #15
	bic	r4, r1, #7
	orrs.w	r1, r4, lr
	strd	r7, r12, [sp, #16]
	beq	.LBB148_32
	eor.w	r1, r4, r8
	eor.w	r2, lr, r10
	orrs	r1, r2
	mov.w	r12, #0
	beq	.LBB148_33
	ldrd	r1, r2, [r5, #-8]
	mov.w	r11, #0
	and	r5, r2, #15
	bic	r7, r1, #7
	orrs.w	r1, r7, r5
	mov.w	r1, #0
	mov.w	r9, #0
	beq	.LBB148_34
	add.w	r1, r0, r4, lsl #1
	strd	r12, r12, [r1, #-8]
	add.w	r1, r0, r7, lsl #1
	movs	r2, #1
	strd	r2, r12, [r1, #-16]
	mov	r12, r4
	mov	r1, lr
	mov	r11, r7
	mov	r9, r5
	b	.LBB148_34
	.p2align	2
.LBB148_32:
	mov.w	r12, #0
.LBB148_33:
	movs	r1, #0
	mov.w	r11, #0
	mov.w	r9, #0
.LBB148_34:
	orrs.w	r4, r6, r3
	beq	.LBB148_47
	mov	r2, r6
	orrs.w	r7, r12, r1
	beq	.LBB148_43
	add	r7, sp, #40
	mov	r6, r1
	add	r1, sp, #56
	mov	r4, r0
	mov	r0, r7
	strd	r12, r6, [sp]
	bl	ic_list_algorithms.merge.merge_runs.e8da022ef74ca9e6
	mov	r12, r0
	add.w	r3, r4, r12, lsl #1
	ldrd	r7, r2, [r3, #-16]
	mov	r0, r4
	and	r9, r2, #15
	bic	r11, r7, #7
	movs	r4, #0
	orrs.w	r6, r11, r9
	str	r4, [r3, #-8]
	str	r4, [r3, #-4]
	beq	.LBB148_44
	mov	r6, r12
	mov	r2, r1
.LBB148_38:
	add.w	r5, r0, r11, lsl #1
	ldrd	r7, r4, [r5, #-16]
	strd	r6, r1, [r5, #-8]
	and	r4, r4, #15
	bic	r7, r7, #7
	orrs.w	r3, r7, r4
	beq	.LBB148_46
	add.w	r3, r0, r7, lsl #1
	ldrd	r5, r6, [r3, #-16]
	strd	r11, r9, [r3, #-8]
	and	r9, r6, #15
	bic	r11, r5, #7
	orrs.w	r3, r11, r9
	beq	.LBB148_45
	add.w	r3, r0, r11, lsl #1
	ldrd	r5, r6, [r3, #-16]
	strd	r7, r4, [r3, #-8]
	and	r1, r6, #15
	bic	r6, r5, #7
	orrs.w	r5, r6, r1
	beq	.LBB148_46
	add.w	r3, r0, r6, lsl #1
	ldrd	r4, r5, [r3, #-16]
	strd	r11, r9, [r3, #-8]
	and	r9, r5, #15
	bic	r11, r4, #7
	orrs.w	r3, r11, r9
	bne	.LBB148_38
	mov	r11, r6
	mov	r9, r1
	b	.LBB148_46
	.p2align	2
.LBB148_43:
	ldrd	r9, r11, [sp, #16]
	mov	r12, r2
	mov	r1, r3
	b	.LBB148_47
	.p2align	2
.LBB148_44:
	mov	r11, r12
	mov	r9, r1
	b	.LBB148_47
	.p2align	2
.LBB148_45:
	mov	r11, r7
	mov	r9, r4
.LBB148_46:
	mov	r1, r2
.LBB148_47:
	orrs.w	r3, r12, r1
	ldr	r4, [sp, #32]
	it	eq
	moveq	r1, r4
	ldr	r5, [sp, #36]
	it	eq
	moveq	r12, r5
	orrs.w	r3, r11, r9
	add.w	r3, r0, r12, lsl #1
	itt	eq
	moveq	r9, r4
	moveq	r11, r5
	strd	r5, r4, [r3, #-8]
	add.w	r0, r0, r11, lsl #1
	orr	r3, r5, #1
	strd	r3, r4, [r0, #-16]
	ldr	r3, [sp, #28]
	orr	r0, r12, #1
	sub.w	r2, r3, #16
	stm.w	r2, {r0, r1, r11}
	ldr	r1, [sp, #24]
	orr	r0, r8, #1
	str	r9, [r3, #-4]
	strd	r0, r10, [r1, #-16]
	strd	r8, r10, [r1, #-8]
	movs	r0, #0
	add	sp, #76
	pop.w	{r4, r5, r6, r7, r8, r9, r10, r11, pc}
.Lfunc_end148:
	.size	ic_ring_merge, .Lfunc_end148-ic_ring_merge
	.cfi_endproc
	.section	.text.ic_ring_move_after,"ax",%progbits
	.globl	ic_ring_move_after
	.p2align	2
	.type	ic_ring_move_after,%function
	.code	16
	.thumb_func
ic_ring_move_after:
	.cfi_startproc
	push	{r7, lr}
	.cfi_def_cfa_offset 8
	.cfi_offset lr, -4
	.cfi_offset r7, -8
	sub	sp, #16
	.cfi_def_cfa_offset 24
	ldrd	lr, r12, [sp, #24]
	movs	r1, #0
	cmp	r0, #0
	it	eq
	addeq.w	r0, r0, #4096
	strd	r1, lr, [sp]
	str.w	r12, [sp, #8]
	bl	ic_raw.ring_calls.move_beside.354f48d5d890d6b4
	add	sp, #16
	pop	{r7, pc}
.Lfunc_end149:
	.size	ic_ring_move_after, .Lfunc_end149-ic_ring_move_after
	.cfi_endproc
	.section	.text.ic_ring_move_before,"ax",%progbits
	.globl	ic_ring_move_before
	.p2align	2
	.type	ic_ring_move_before,%function
	.code	16
	.thumb_func
ic_ring_move_before:
	.cfi_startproc
	push	{r7, lr}
	.cfi_def_cfa_offset 8
	.cfi_offset lr, -4
	.cfi_offset r7, -8
	sub	sp, #16
	.cfi_def_cfa_offset 24
	ldrd	lr, r12, [sp, #24]
	movs	r1, #1
	cmp	r0, #0
	it	eq
	addeq.w	r0, r0, #4096
	strd	r1, lr, [sp]
	str.w	r12, [sp, #8]
	bl	ic_raw.ring_calls.move_beside.354f48d5d890d6b4
	add	sp, #16
	pop	{r7, pc}
.Lfunc_end150:
	.size	ic_ring_move_before, .Lfunc_end150-ic_ring_move_before
	.cfi_endproc
	.section	.text.ic_ring_pop_back,"ax",%progbits
	.globl	ic_ring_pop_back
	.p2align	2
	.type	ic_ring_pop_back,%function
	.code	16
	.thumb_func
ic_ring_pop_back:
	.cfi_startproc
	push	{r7, lr}
	.cfi_def_cfa_offset 8
	.cfi_offset lr, -4
	.cfi_offset r7, -8
	sub	sp, #16
	.cfi_def_cfa_offset 24
	ldrd	lr, r12, [sp, #24]
	movs	r1, #1
	cmp	r0, #0
	it	eq
	addeq.w	r0, r0, #4096
	strd	r1, lr, [sp]
	str.w	r12, [sp, #8]
	bl	ic_raw.ring_calls.pop.354f48d5d890d6b4
	add	sp, #16
	pop	{r7, pc}
.Lfunc_end151:
	.size	ic_ring_pop_back, .Lfunc_end151-ic_ring_pop_back
	.cfi_endproc
	.section	.text.ic_ring_pop_front,"ax",%progbits
	.globl	ic_ring_pop_front
	.p2align	2
	.type	ic_ring_pop_front,%function
	.code	16
	.thumb_func
ic_ring_pop_front:
	.cfi_startproc
	push	{r7, lr}
	.cfi_def_cfa_offset 8
	.cfi_offset lr, -4
	.cfi_offset r7, -8
	sub	sp, #16
	.cfi_def_cfa_offset 24
	ldrd	lr, r12, [sp, #24]
	movs	r1, #0
	cmp	r0, #0
	it	eq
	addeq.w	r0, r0, #4096
	strd	r1, lr, [sp]
	str.w	r12, [sp, #8]
	bl	ic_raw.ring_calls.pop.354f48d5d890d6b4
	add	sp, #16
	pop	{r7, pc}
.Lfunc_end152:
	.size	ic_ring_pop_front, .Lfunc_end152-ic_ring_pop_front
	.cfi_endproc
	.section	.text.ic_ring_remove,"ax",%progbits
	.globl	ic_ring_remove
	.p2align	2
	.type	ic_ring_remove,%function
	.code	16
	.thumb_func
ic_ring_remove:
	.cfi_startproc
	push.w	{r4, r5, r6, r7, r8, r9, r10, r11, lr}
	.cfi_def_cfa_offset 36
	.cfi_offset lr, -4
	.cfi_offset r11, -8
	.cfi_offset r10, -12
	.cfi_offset r9, -16
	.cfi_offset r8, -20
	.cfi_offset r7, -24
	.cfi_offset r6, -28
	.cfi_offset r5, -32
	.cfi_offset r4, -36
	sub	sp, #4
	.cfi_def_cfa_offset 40
	ldr.w	r12, [sp, #40]
	cmp	r0, #0
	it	eq
	addeq.w	r0, r0, #4096
	adds.w	r4, r12, #1
	blo	.LBB153_2
	movs	r0, #4
	add	sp, #4
	pop.w	{r4, r5, r6, r7, r8, r9, r10, r11, pc}
	.p2align	2
.LBB153_2:
	subs	r1, r2, r4
	sbcs	r1, r3, #0
	blo	.LBB153_4
	lsl.w	r9, r4, #3
	add.w	lr, r0, r9, lsl #1
	ldr	r7, [lr, #-16]
	lsls	r6, r7, #31
	itttt	ne
	ldrdne	r6, r5, [lr, #-8]
	andne	r1, r5, #15
	bicne	r8, r6, #7
	strne	r1, [sp]
	it	ne
	orrsne.w	r1, r1, r8
	bne	.LBB153_5
.LBB153_4:
	str.w	r12, [sp, #40]
	add	sp, #4
	pop.w	{r4, r5, r6, r7, r8, r9, r10, r11, lr}
	b	ic_raw.table.RawTable.refusal_at.85cd03e557136797
	.p2align	2
.LBB153_5:
	lsrs	r1, r6, #3
	orr.w	r1, r1, r5, lsl #29
	ldr	r5, [sp]
	subs	r1, r2, r1
	lsr.w	r5, r5, #3
	sbcs.w	r1, r3, r5
	blo	.LBB153_4
	add.w	r11, r0, r8, lsl #1
	ldr	r5, [r11, #-16]
	lsls	r1, r5, #31
	beq	.LBB153_4
	ldr	r1, [r11, #-12]
	lsr.w	r10, r4, #29
	and	r1, r1, #15
	bic	r4, r5, #7
	eor.w	r4, r4, r9
	eor.w	r1, r1, r10
	orrs	r1, r4
	bne	.LBB153_4
	ldr	r6, [lr, #-12]
	bic	r5, r7, #7
	and	r4, r6, #15
	orrs.w	r1, r5, r4
	beq	.LBB153_4
	lsrs	r1, r7, #3
	orr.w	r1, r1, r6, lsl #29
	lsrs	r6, r4, #3
	subs	r1, r2, r1
	sbcs.w	r1, r3, r6
	blo	.LBB153_4
	add.w	r7, r0, r5, lsl #1
	ldrb	r1, [r7, #-16]
	lsls	r1, r1, #31
	beq	.LBB153_4
	ldrd	r1, r6, [r7, #-8]
	bic	r1, r1, #7
	and	r6, r6, #15
	eor.w	r6, r6, r10
	eor.w	r1, r1, r9
	orrs	r1, r6
	bne	.LBB153_4
	orr	r0, r5, #1
	strd	r0, r4, [r11, #-16]
	ldr	r0, [sp]
	strd	r8, r0, [r7, #-8]
	movs	r0, #0
	strd	r0, r0, [lr, #-16]
	add	sp, #4
	pop.w	{r4, r5, r6, r7, r8, r9, r10, r11, pc}
.Lfunc_end153:
	.size	ic_ring_remove, .Lfunc_end153-ic_ring_remove
	.cfi_endproc
	.section	.text.ic_ring_replace,"ax",%progbits
	.globl	ic_ring_replace
	.p2align	2
	.type	ic_ring_replace,%function
	.code	16
	.thumb_func
ic_ring_replace:
	.cfi_startproc
	push.w	{r4, r5, r6, r7, r8, r9, r10, r11, lr}
	.cfi_def_cfa_offset 36
	.cfi_offset lr, -4
	.cfi_offset r11, -8
	.cfi_offset r10, -12
	.cfi_offset r9, -16
	.cfi_offset r8, -20
	.cfi_offset r7, -24
	.cfi_offset r6, -28
	.cfi_offset r5, -32
	.cfi_offset r4, -36
	sub	sp, #16
	.cfi_def_cfa_offset 52
	ldr.w	r12, [sp, #52]
	cmp	r0, #0
	it	eq
	addeq.w	r0, r0, #4096
	adds.w	r5, r12, #1
	blo	.LBB154_2
	movs	r0, #4
	add	sp, #16
	pop.w	{r4, r5, r6, r7, r8, r9, r10, r11, pc}
	.p2align	2
.LBB154_2:
	ldr	r1, [sp, #56]
	str	r1, [sp]
	subs	r1, r2, r5
	sbcs	r1, r3, #0
	blo	.LBB154_4
	lsl.w	lr, r5, #3
	add.w	r11, r0, lr, lsl #1
	ldr	r8, [r11, #-16]
	lsls.w	r6, r8, #31
	itttt	ne
	ldrdne	r7, r6, [r11, #-8]
	andne	r1, r6, #15
	bicne	r4, r7, #7
	strdne	r4, r1, [sp, #8]
	it	ne
	orrsne.w	r1, r1, r4
	bne	.LBB154_5
.LBB154_4:
	ldr	r1, [sp]
	strd	r12, r1, [sp, #52]
	add	sp, #16
	pop.w	{r4, r5, r6, r7, r8, r9, r10, r11, lr}
	b	ic_raw.table.RawTable.refusal.85cd03e557136797
	.p2align	2
.LBB154_5:
	lsrs	r1, r7, #3
	orr.w	r1, r1, r6, lsl #29
	ldr	r6, [sp, #12]
	subs	r1, r2, r1
	lsr.w	r6, r6, #3
	sbcs.w	r1, r3, r6
	blo	.LBB154_4
	ldr	r1, [sp, #8]
	add.w	r10, r0, r1, lsl #1
	ldr	r6, [r10, #-16]
	lsls	r1, r6, #31
	beq	.LBB154_4
	ldr	r7, [r10, #-12]
	lsrs	r1, r5, #29
	and	r5, r7, #15
	bic	r6, r6, #7
	eor.w	r6, r6, lr
	eors	r5, r1
	orrs	r5, r6
	str	r1, [sp, #4]
	bne	.LBB154_4
	ldr	r7, [r11, #-12]
	bic	r6, r8, #7
	and	r5, r7, #15
	orrs.w	r1, r6, r5
	beq	.LBB154_4
	lsr.w	r1, r8, #3
	orr.w	r1, r1, r7, lsl #29
	lsrs	r4, r5, #3
	subs	r1, r2, r1
	sbcs.w	r1, r3, r4
	blo	.LBB154_4
	add.w	r4, r0, r6, lsl #1
	ldrb	r1, [r4, #-16]
	lsls	r1, r1, #31
	beq	.LBB154_4
	ldr	r1, [sp]
	add.w	r9, r1, #1
	subs.w	r1, r2, r9
	sbcs	r1, r3, #0
	blo	.LBB154_4
	cmp.w	r9, #0
	beq	.LBB154_4
	ldrd	r1, r4, [r4, #-8]
	ldr	r7, [sp, #4]
	and	r4, r4, #15
	bic	r1, r1, #7
	eor.w	r1, r1, lr
	eors	r4, r7
	orrs	r1, r4
	itttt	eq
	lsleq.w	r4, r9, #3
	addeq.w	r8, r0, r4, lsl #1
	ldrbeq	r1, [r8, #-16]
	lslseq.w	r1, r1, #31
	bne	.LBB154_4
	ldr	r2, [sp, #12]
	ldr	r3, [sp, #4]
	str	r2, [r8, #-4]
	ldr	r2, [sp, #8]
	lsr.w	r1, r9, #29
	str	r2, [r8, #-8]
	orr	r2, r4, #1
	strd	r2, r1, [r10, #-16]
	eor.w	r2, r6, lr
	eors	r3, r5
	orrs	r2, r3
	strd	r4, r1, [r11, #-8]
	itt	eq
	moveq	r5, r1
	moveq	r6, r4
	orr	r2, r6, #1
	add.w	r0, r0, r6, lsl #1
	strd	r2, r5, [r8, #-16]
	strd	r4, r1, [r0, #-8]
	movs	r0, #0
	strd	r0, r0, [r11, #-16]
	add	sp, #16
	pop.w	{r4, r5, r6, r7, r8, r9, r10, r11, pc}
.Lfunc_end154:
	.size	ic_ring_replace, .Lfunc_end154-ic_ring_replace
	.cfi_endproc
	.section	.text.ic_ring_sort,"ax",%progbits
	.globl	ic_ring_sort
	.p2align	2
	.type	ic_ring_sort,%function
	.code	16
	.thumb_func
ic_ring_sort:
	.cfi_startproc
	push.w	{r4, r5, r6, r7, r8, r9, r10, r11, lr}
	.cfi_def_cfa_offset 36
	.cfi_offset lr, -4
	.cfi_offset r11, -8
	.cfi_offset r10, -12
	.cfi_offset r9, -16
	.cfi_offset r8, -20
	.cfi_offset r7, -24
	.cfi_offset r6, -28
	.cfi_offset r5, -32
	.cfi_offset r4, -36
	sub	sp, #92
	.cfi_def_cfa_offset 128
	mov	lr, r3
	ldr	r3, [sp, #128]
	ldr	r1, [sp, #144]
	cmp	r0, #0
	it	eq
	addeq.w	r0, r0, #4096
	cmp	r3, #0
	it	eq
	addeq.w	r3, r3, #4096
	adds	r1, #1
	blo	.LBB155_2
	movs	r0, #4
	add	sp, #92
	pop.w	{r4, r5, r6, r7, r8, r9, r10, r11, pc}
	.p2align	2
.LBB155_2:
	lsr.w	r12, r1, #29
	lsls	r1, r1, #3
	mov	r8, r2
	ldrd	r2, r5, [sp, #136]
	strd	r1, r0, [sp, #28]
	movs	r1, #0
	strd	r1, r8, [sp, #36]
	subs.w	r1, r8, #1
	sbc	r4, lr, #0
	subs	r1, r1, r2
	sbcs.w	r1, r4, r5
	str.w	lr, [sp, #44]
	bhs	.LBB155_12
	ldr.w	r11, [sp, #28]
	mov.w	r9, #0
	mov.w	r10, #0
	mov	r6, r12
	str.w	r12, [sp, #24]
	.p2align	2
.LBB155_4:
	lsr.w	r1, r11, #3
	orr.w	r1, r1, r6, lsl #29
	subs.w	r1, r8, r1
	sbcs.w	r1, lr, r6, lsr #3
	blo	.LBB155_12
	add.w	r1, r0, r11, lsl #1
	ldr	r4, [r1, #-16]
	lsls	r5, r4, #31
	beq	.LBB155_12
	ldr	r5, [r1, #-12]
	bic	r7, r4, #7
	and	r1, r5, #15
	orrs.w	r12, r7, r1
	ldr.w	r12, [sp, #24]
	beq	.LBB155_12
	lsrs	r4, r4, #3
	orr.w	r5, r4, r5, lsl #29
	lsrs	r4, r1, #3
	subs.w	r5, r8, r5
	sbcs.w	r5, lr, r4
	blo	.LBB155_12
	add.w	r4, r0, r7, lsl #1
	ldrb	r5, [r4, #-16]
	lsls	r5, r5, #31
	beq	.LBB155_12
	ldrd	r5, r4, [r4, #-8]
	bic	r5, r5, #7
	and	r4, r4, #15
	eors	r6, r4
	eor.w	r5, r5, r11
	orrs	r6, r5
	bne	.LBB155_12
	ldr	r4, [sp, #28]
	eor.w	r5, r1, r12
	eor.w	r6, r7, r4
	orrs	r6, r5
	beq	.LBB155_13
	adds.w	r9, r9, #1
	adc	r10, r10, #0
	subs.w	r6, r9, r8
	sbcs.w	r6, r10, lr
	mov	r11, r7
	mov	r6, r1
	blo	.LBB155_4
.LBB155_12:
	ldr	r3, [sp, #140]
	ldr	r1, [sp, #28]
	add	r0, sp, #32
	strd	r1, r12, [sp]
	bl	ic_raw_lists.ring_sort_calls.refusal_at
	add	sp, #92
	pop.w	{r4, r5, r6, r7, r8, r9, r10, r11, pc}
	.p2align	2
.LBB155_13:
	add.w	r7, r0, r4, lsl #1
	str	r3, [sp, #48]
	ldrd	r3, r1, [r7, #-16]
	str	r2, [sp, #56]
	and	r1, r1, #15
	bic	r6, r3, #7
	orrs.w	r2, r6, r1
	ldr	r2, [sp, #140]
	mov.w	r10, #0
	str.w	r10, [sp, #52]
	str	r2, [sp, #60]
	ittt	ne
	eorne.w	r2, r6, r4
	eorne.w	r3, r1, r12
	orrsne.w	r2, r2, r3
	bne	.LBB155_15
	mov.w	r11, #0
	movs	r5, #0
	movs	r2, #0
	b	.LBB155_17
	.p2align	2
.LBB155_15:
	ldrd	r2, r3, [r7, #-8]
	mov.w	r11, #0
	and	lr, r3, #15
	bic	r3, r2, #7
	orrs.w	r2, r3, lr
	mov.w	r5, #0
	mov.w	r2, #0
	beq	.LBB155_17
	add.w	r2, r0, r6, lsl #1
	movs	r7, #0
	strd	r7, r7, [r2, #-8]
	add.w	r2, r0, r3, lsl #1
	movs	r5, #1
	strd	r5, r7, [r2, #-16]
	mov	r10, r6
	mov	r11, r1
	mov	r5, r3
	mov	r2, lr
.LBB155_17:
	orrs.w	r1, r10, r11
	lsl.w	lr, r4, #1
	beq	.LBB155_22
	add.w	r1, r0, r10, lsl #1
	ldrd	r2, r3, [r1, #-16]
	and	r8, r3, #15
	bic	r9, r2, #7
	orrs.w	r2, r9, r8
	mov.w	r2, #1
	mov.w	r3, #0
	strd	r2, r3, [r1, #-16]
	beq	.LBB155_23
	mov	r6, r11
	mov.w	r11, #0
	mov	r7, r10
	mov.w	r10, #0
	str.w	lr, [sp, #16]
	.p2align	2
.LBB155_20:
	add	r0, sp, #64
	add	r1, sp, #32
	add	r2, sp, #48
	strd	r9, r8, [sp]
	str.w	r11, [sp, #8]
	str.w	r10, [sp, #12]
	bl	ic_list_algorithms.sort.sort_front.e8da022ef74ca9e6
	ldrb.w	r0, [sp, #72]
	ldrd	r4, r5, [sp, #64]
	str	r0, [sp, #20]
	ldrd	r9, r8, [sp, #80]
	add	r0, sp, #32
	add	r1, sp, #48
	mov	r2, r7
	mov	r3, r6
	strd	r4, r5, [sp]
	bl	ic_list_algorithms.merge.merge_runs.e8da022ef74ca9e6
	mov	r7, r0
	ldr	r0, [sp, #20]
	adds.w	r11, r11, #1
	adc	r10, r10, #0
	cmp	r0, #1
	mov	r6, r1
	beq	.LBB155_20
	ldr	r0, [sp, #32]
	ldrd	r12, r4, [sp, #24]
	ldr.w	lr, [sp, #16]
	lsls	r1, r7, #1
	mov	r10, r7
	mov	r11, r6
	movs	r3, #0
	b	.LBB155_24
	.p2align	2
.LBB155_22:
	mov	r10, r4
	mov	r11, r12
	b	.LBB155_34
	.p2align	2
.LBB155_23:
	lsl.w	r1, r10, #1
.LBB155_24:
	add	r0, r1
	strd	r3, r3, [r0, #-8]
	ldr	r0, [sp, #32]
	add	r1, r0
	ldrd	r1, r2, [r1, #-16]
	and	r2, r2, #15
	bic	r5, r1, #7
	orrs.w	r1, r5, r2
	beq	.LBB155_31
	mov	r7, r10
	mov	r3, r11
	.p2align	2
.LBB155_26:
	add.w	r0, r0, r5, lsl #1
	strd	r7, r3, [r0, #-8]
	ldr	r0, [sp, #32]
	add.w	r1, r0, r5, lsl #1
	ldrd	r1, r3, [r1, #-16]
	and	r3, r3, #15
	bic	r1, r1, #7
	orrs.w	r6, r1, r3
	beq	.LBB155_34
	add.w	r0, r0, r1, lsl #1
	strd	r5, r2, [r0, #-8]
	ldr	r0, [sp, #32]
	add.w	r2, r0, r1, lsl #1
	ldrd	r7, r2, [r2, #-16]
	and	r2, r2, #15
	bic	r5, r7, #7
	orrs.w	r6, r5, r2
	beq	.LBB155_32
	add.w	r0, r0, r5, lsl #1
	strd	r1, r3, [r0, #-8]
	ldr	r0, [sp, #32]
	add.w	r1, r0, r5, lsl #1
	ldrd	r1, r3, [r1, #-16]
	and	r3, r3, #15
	bic	r7, r1, #7
	orrs.w	r1, r7, r3
	beq	.LBB155_34
	add.w	r0, r0, r7, lsl #1
	strd	r5, r2, [r0, #-8]
	ldr	r0, [sp, #32]
	add.w	r1, r0, r7, lsl #1
	ldrd	r1, r2, [r1, #-16]
	and	r2, r2, #15
	bic	r5, r1, #7
	orrs.w	r1, r5, r2
	bne	.LBB155_26
	mov	r5, r7
	b	.LBB155_33
	.p2align	2
.LBB155_31:
	mov	r5, r10
	mov	r2, r11
	b	.LBB155_34
	.p2align	2
.LBB155_32:
	mov	r5, r1
.LBB155_33:
	mov	r2, r3
.LBB155_34:
	add.w	r0, r0, r10, lsl #1
	strd	r4, r12, [r0, #-8]
	ldr	r0, [sp, #32]
	orrs.w	r1, r5, r2
	it	eq
	moveq	r5, r4
	add.w	r0, r0, r5, lsl #1
	orr	r1, r4, #1
	strd	r1, r12, [r0, #-16]
	ldr	r0, [sp, #32]
	orr	r3, r10, #1
	add	r0, lr
	strd	r3, r11, [r0, #-16]
	ldr	r0, [sp, #32]
	mov	r1, r12
	add	r0, lr
	it	ne
	movne	r1, r2
	strd	r5, r1, [r0, #-8]
	movs	r0, #0
	add	sp, #92
	pop.w	{r4, r5, r6, r7, r8, r9, r10, r11, pc}
.Lfunc_end155:
	.size	ic_ring_sort, .Lfunc_end155-ic_ring_sort
	.cfi_endproc
	.section	.text.ic_ring_splice_after,"ax",%progbits
	.globl	ic_ring_splice_after
	.p2align	2
	.type	ic_ring_splice_after,%function
	.code	16
	.thumb_func
ic_ring_splice_after:
	.cfi_startproc
	push	{r7, lr}
	.cfi_def_cfa_offset 8
	.cfi_offset lr, -4
	.cfi_offset r7, -8
	sub	sp, #16
	.cfi_def_cfa_offset 24
	ldrd	lr, r12, [sp, #24]
	movs	r1, #0
	cmp	r0, #0
	it	eq
	addeq.w	r0, r0, #4096
	strd	r1, lr, [sp]
	str.w	r12, [sp, #8]
	bl	ic_raw.ring_calls.splice.354f48d5d890d6b4
	add	sp, #16
	pop	{r7, pc}
.Lfunc_end156:
	.size	ic_ring_splice_after, .Lfunc_end156-ic_ring_splice_after
	.cfi_endproc
	.section	.text.ic_ring_splice_before,"ax",%progbits
	.globl	ic_ring_splice_before
	.p2align	2
	.type	ic_ring_splice_before,%function
	.code	16
	.thumb_func
ic_ring_splice_before:
	.cfi_startproc
	push	{r7, lr}
	.cfi_def_cfa_offset 8
	.cfi_offset lr, -4
	.cfi_offset r7, -8
	sub	sp, #16
	.cfi_def_cfa_offset 24
	ldrd	lr, r12, [sp, #24]
	movs	r1, #1
	cmp	r0, #0
	it	eq
	addeq.w	r0, r0, #4096
	strd	r1, lr, [sp]
	str.w	r12, [sp, #8]
	bl	ic_raw.ring_calls.splice.354f48d5d890d6b4
	add	sp, #16
	pop	{r7, pc}
.Lfunc_end157:
	.size	ic_ring_splice_before, .Lfunc_end157-ic_ring_splice_before
	.cfi_endproc
	.section	.text.ic_stack_check,"ax",%progbits
	.globl	ic_stack_check
	.p2align	2
	.type	ic_stack_check,%function
	.code	16
	.thumb_func
ic_stack_check:
	.cfi_startproc
	push	{r4, r5, r6, lr}
	.cfi_def_cfa_offset 16
	.cfi_offset lr, -4
	.cfi_offset r6, -8
	.cfi_offset r5, -12
	.cfi_offset r4, -16
	ldr	r1, [sp, #16]
	cmp	r0, #0
	ldrd	r1, r5, [r1]
	it	eq
	addeq.w	r0, r0, #4096
	and	r5, r5, #15
	bic	r6, r1, #7
	mov.w	lr, #0
	orrs.w	r1, r6, r5
	beq	.LBB158_6
	movs	r1, #0
	.p2align	2
.LBB158_2:
	subs.w	r4, lr, r2
	sbcs.w	r4, r1, r3
	mov.w	r12, #5
	bhs	.LBB158_8
	lsrs	r4, r6, #3
	orr.w	r4, r4, r5, lsl #29
	lsrs	r5, r5, #3
	subs	r4, r2, r4
	sbcs.w	r4, r3, r5
	blo	.LBB158_8
	adds	r4, r0, r6
	ldr	r5, [r4, #-8]
	lsls	r6, r5, #31
	beq	.LBB158_8
	ldr	r4, [r4, #-4]
	bic	r6, r5, #7
	and	r5, r4, #15
	adds.w	lr, lr, #1
	adc	r1, r1, #0
	orrs.w	r4, r6, r5
	bne	.LBB158_2
	b	.LBB158_7
	.p2align	2
.LBB158_6:
	movs	r1, #0
.LBB158_7:
	ldr	r0, [sp, #20]
	mov.w	r12, #0
	strd	lr, r1, [r0]
.LBB158_8:
	mov	r0, r12
	pop	{r4, r5, r6, pc}
.Lfunc_end158:
	.size	ic_stack_check, .Lfunc_end158-ic_stack_check
	.cfi_endproc
	.section	.text.ic_stack_clear,"ax",%progbits
	.globl	ic_stack_clear
	.p2align	2
	.type	ic_stack_clear,%function
	.code	16
	.thumb_func
ic_stack_clear:
	.cfi_startproc
	push	{r4, r5, r6, r7, lr}
	.cfi_def_cfa_offset 20
	.cfi_offset lr, -4
	.cfi_offset r7, -8
	.cfi_offset r6, -12
	.cfi_offset r5, -16
	.cfi_offset r4, -20
	ldr.w	r12, [sp, #20]
	cmp	r0, #0
	ldrd	r6, r1, [r12]
	it	eq
	addeq.w	r0, r0, #4096
	and	r1, r1, #15
	bic	lr, r6, #7
	orrs.w	r4, lr, r1
	beq	.LBB159_12
	orrs.w	r4, r2, r3
	beq	.LBB159_7
	mov	r4, r2
	mov	r5, r3
	mov	r6, lr
	.p2align	2
.LBB159_3:
	lsrs	r7, r6, #3
	orr.w	r7, r7, r1, lsl #29
	subs	r7, r2, r7
	sbcs.w	r1, r3, r1, lsr #3
	blo	.LBB159_7
	add	r6, r0
	ldr	r1, [r6, #-8]
	lsls	r7, r1, #31
	beq	.LBB159_7
	ldr	r7, [r6, #-4]
	bic	r6, r1, #7
	and	r1, r7, #15
	orrs.w	r7, r6, r1
	beq	.LBB159_11
	subs	r4, #1
	sbc	r5, r5, #0
	orrs.w	r7, r4, r5
	bne	.LBB159_3
.LBB159_7:
	movs	r0, #5
	pop	{r4, r5, r6, r7, pc}
	.p2align	2
.LBB159_8:
	adds	r3, r0, r2
	ldrd	r2, r7, [r3, #-8]
	str	r1, [r3, #-8]
	and	r7, r7, #15
	bic	r2, r2, #7
	orrs	r7, r2
	str	r1, [r3, #-4]
	beq	.LBB159_12
	adds	r3, r0, r2
	ldrd	r1, r2, [r3, #-8]
	and	r7, r2, #15
	bic	r2, r1, #7
	movs	r1, #0
	orrs	r7, r2
	str	r1, [r3, #-8]
	str	r1, [r3, #-4]
	beq	.LBB159_12
	add	r2, r0
	ldrd	r3, r7, [r2, #-8]
	str	r1, [r2, #-8]
	and	r4, r7, #15
	bic	lr, r3, #7
	orrs.w	r3, lr, r4
	str	r1, [r2, #-4]
	beq	.LBB159_12
.LBB159_11:
	add.w	r3, r0, lr
	ldrd	r1, r2, [r3, #-8]
	and	r7, r2, #15
	bic	r2, r1, #7
	movs	r1, #0
	orrs	r7, r2
	str	r1, [r3, #-8]
	str	r1, [r3, #-4]
	bne	.LBB159_8
.LBB159_12:
	movs	r0, #0
	strd	r0, r0, [r12]
	pop	{r4, r5, r6, r7, pc}
.Lfunc_end159:
	.size	ic_stack_clear, .Lfunc_end159-ic_stack_clear
	.cfi_endproc
	.section	.text.ic_stack_fill,"ax",%progbits
	.globl	ic_stack_fill
	.p2align	2
	.type	ic_stack_fill,%function
	.code	16
	.thumb_func
ic_stack_fill:
	.cfi_startproc
	push.w	{r4, r5, r6, r7, r8, r9, r10, r11, lr}
	.cfi_def_cfa_offset 36
	.cfi_offset lr, -4
	.cfi_offset r11, -8
	.cfi_offset r10, -12
	.cfi_offset r9, -16
	.cfi_offset r8, -20
	.cfi_offset r7, -24
	.cfi_offset r6, -28
	.cfi_offset r5, -32
	.cfi_offset r4, -36
	sub	sp, #12
	.cfi_def_cfa_offset 48
	ldr.w	r8, [sp, #56]
	cmp	r0, #0
	mov.w	r5, #0
	it	eq
	moveq.w	r5, #4096
	cmp.w	r8, #0
	mov.w	r1, #0
	beq	.LBB160_23
	ldr.w	r11, [sp, #48]
	ldrd	r1, r7, [r11]
	and	lr, r7, #15
	bic	r6, r1, #7
	orrs.w	r1, r6, lr
	add.w	r7, r0, r5
	str	r7, [sp, #8]
	beq	.LBB160_5
	lsrs	r1, r6, #3
	orr.w	r1, r1, lr, lsl #29
	subs	r1, r2, r1
	sbcs.w	r1, r3, lr, lsr #3
	blo	.LBB160_4
	adds	r1, r7, r6
	ldrb	r1, [r1, #-8]
	lsls	r1, r1, #31
	bne	.LBB160_5
.LBB160_4:
	movs	r1, #1
	str	r1, [sp, #4]
	movs	r1, #0
	mov.w	r10, #0
	str	r1, [sp]
	b	.LBB160_6
	.p2align	2
.LBB160_5:
	orr	r1, r6, #1
	mov.w	r10, #1
	str	r1, [sp, #4]
	str.w	lr, [sp]
.LBB160_6:
	ldr	r4, [sp, #52]
	mov	r7, r8
	add.w	r1, r5, r4, lsl #3
	add.w	r12, r0, r1
	adds	r5, r4, #1
	mov	r0, r12
	.p2align	2
.LBB160_7:
	cmp	r5, #0
	mov.w	r1, #1
	beq	.LBB160_23
	subs.w	r9, r2, r5
	sbcs	r4, r3, #0
	blo	.LBB160_23
	ldr	r1, [r0]
	movs	r4, #2
	ands.w	r1, r4, r1, lsl #1
	bne	.LBB160_23
	subs	r7, #1
	add.w	r0, r0, #8
	add.w	r5, r5, #1
	bne	.LBB160_7
	cmp.w	r10, #0
	beq	.LBB160_24
	ldr	r0, [sp, #52]
	adds	r0, #1
	bhs	.LBB160_22
	subs	r1, r2, r0
	sbcs	r1, r3, #0
	blo	.LBB160_22
	ldr	r1, [sp, #8]
	lsl.w	r9, r0, #3
	add.w	r5, r1, r9
	ldrb	r4, [r5, #-8]
	lsls	r4, r4, #31
	bne	.LBB160_22
	subs.w	r4, r8, #1
	ldrd	r10, r8, [sp]
	lsr.w	lr, r0, #29
	strd	r8, r10, [r5, #-8]
	beq	.LBB160_21
	ldr	r0, [sp, #52]
	adds	r5, r0, #2
.LBB160_17:
	cbz	r5, .LBB160_21
	subs	r0, r2, r5
	sbcs	r0, r3, #0
	blo	.LBB160_21
	lsls	r6, r5, #3
	adds	r0, r1, r6
	ldrb	r7, [r0, #-8]
	lsls	r7, r7, #31
	bne	.LBB160_21
	lsrs	r7, r5, #29
	orr	r6, r6, #1
	strd	r6, r7, [r12], #8
	subs	r4, #1
	add.w	r5, r5, #1
	strd	r8, r10, [r0, #-8]
	bne	.LBB160_17
.LBB160_21:
	mov	r6, r9
.LBB160_22:
	movs	r1, #0
	strd	r6, lr, [r11]
.LBB160_23:
	mov	r0, r1
	add	sp, #12
	pop.w	{r4, r5, r6, r7, r8, r9, r10, r11, pc}
	.p2align	2
.LBB160_24:
	movs	r1, #5
	mov	r0, r1
	add	sp, #12
	pop.w	{r4, r5, r6, r7, r8, r9, r10, r11, pc}
.Lfunc_end160:
	.size	ic_stack_fill, .Lfunc_end160-ic_stack_fill
	.cfi_endproc
	.section	.text.ic_stack_insert_after,"ax",%progbits
	.globl	ic_stack_insert_after
	.p2align	2
	.type	ic_stack_insert_after,%function
	.code	16
	.thumb_func
ic_stack_insert_after:
	.cfi_startproc
	push.w	{r4, r5, r6, r7, r8, r9, r10, r11, lr}
	.cfi_def_cfa_offset 36
	.cfi_offset lr, -4
	.cfi_offset r11, -8
	.cfi_offset r10, -12
	.cfi_offset r9, -16
	.cfi_offset r8, -20
	.cfi_offset r7, -24
	.cfi_offset r6, -28
	.cfi_offset r5, -32
	.cfi_offset r4, -36
	sub	sp, #20
	.cfi_def_cfa_offset 56
	ldrd	r7, r1, [sp, #56]
	movs	r4, #0
	cmp	r0, #0
	it	eq
	addeq.w	r0, r0, #4096
	str	r4, [sp, #4]
	ldrd	r4, r5, [r7]
	mov	r12, r2
	ldr	r2, [sp, #64]
	and	r9, r5, #15
	bic	lr, r4, #7
	adds.w	r11, r1, #1
	lsl.w	r8, r11, #3
	mov	r10, lr
	mov	r5, r9
	str	r0, [sp]
	str	r3, [sp, #12]
	str.w	r12, [sp, #8]
	bhs	.LBB161_4
	subs.w	r4, r12, r11
	sbcs	r4, r3, #0
	blo	.LBB161_14
	add.w	r5, r0, r8
	ldr	r4, [r5, #-8]
	lsls	r6, r4, #31
	beq	.LBB161_14
	ldr	r5, [r5, #-4]
	bic	r10, r4, #7
	and	r5, r5, #15
.LBB161_4:
	orrs.w	r4, r10, r5
	add.w	r4, r2, #1
	beq	.LBB161_7
	lsr.w	r6, r10, #3
	orr.w	r6, r6, r5, lsl #29
	subs.w	r6, r12, r6
	sbcs.w	r6, r3, r5, lsr #3
	blo	.LBB161_14
	cmp	r4, #0
	ittt	ne
	addne.w	r6, r0, r10
	ldrne	r6, [r6, #-8]
	andsne	r6, r6, #1
	bne	.LBB161_8
	b	.LBB161_14
	.p2align	2
.LBB161_7:
	cbz	r4, .LBB161_14
.LBB161_8:
	subs.w	r6, r12, r4
	sbcs	r3, r3, #0
	blo	.LBB161_14
	lsls	r6, r4, #3
	adds	r3, r0, r6
	ldrb	r7, [r3, #-8]
	lsls	r7, r7, #31
	bne	.LBB161_14
	cmp.w	r11, #0
	lsr.w	r1, r4, #29
	beq	.LBB161_12
	add	r0, r8
	orr	r7, r6, #1
	strd	r7, r1, [r0, #-8]
	mov	r1, r9
	b	.LBB161_13
	.p2align	2
.LBB161_12:
	mov	lr, r6
.LBB161_13:
	ldr	r2, [sp, #56]
	orr	r0, r10, #1
	strd	r0, r5, [r3, #-8]
	strd	lr, r1, [r2]
	movs	r0, #0
	add	sp, #20
	pop.w	{r4, r5, r6, r7, r8, r9, r10, r11, pc}
	.p2align	2
.LBB161_14:
	mov	r0, sp
	bl	ic_raw.table.RawTable.refusal.feecb86c9dd45d96
	add	sp, #20
	pop.w	{r4, r5, r6, r7, r8, r9, r10, r11, pc}
.Lfunc_end161:
	.size	ic_stack_insert_after, .Lfunc_end161-ic_stack_insert_after
	.cfi_endproc
	.section	.text.ic_stack_merge,"ax",%progbits
	.globl	ic_stack_merge
	.p2align	2
	.type	ic_stack_merge,%function
	.code	16
	.thumb_func
ic_stack_merge:
	.cfi_startproc
	push.w	{r4, r5, r6, r7, r8, r9, r10, r11, lr}
	.cfi_def_cfa_offset 36
	.cfi_offset lr, -4
	.cfi_offset r11, -8
	.cfi_offset r10, -12
	.cfi_offset r9, -16
	.cfi_offset r8, -20
	.cfi_offset r7, -24
	.cfi_offset r6, -28
	.cfi_offset r5, -32
	.cfi_offset r4, -36
	sub	sp, #84
	.cfi_def_cfa_offset 120
	ldr	r1, [sp, #140]
	mov	r12, r3
	ldrd	r7, r3, [sp, #128]
	str	r1, [sp, #44]
	ldr	r1, [sp, #136]
	mov	r8, r2
	str	r1, [sp, #40]
	ldr	r2, [sp, #120]
	cmp	r0, #0
	it	eq
	addeq.w	r0, r0, #4096
	cmp	r2, #0
	it	eq
	addeq.w	r2, r2, #4096
	str	r2, [sp, #64]
	movs	r2, #0
	strd	r2, r7, [sp, #68]
	strd	r0, r2, [sp, #48]
	subs.w	r2, r7, r8
	sbcs.w	r2, r3, r12
	str	r3, [sp, #76]
	str.w	r12, [sp, #60]
	str	r7, [sp, #12]
	str	r3, [sp, #16]
	str.w	r8, [sp, #56]
	blo.w	.LBB162_19
	ldr	r1, [sp, #40]
	ldrd	r2, r3, [r1]
	ldr	r1, [sp, #44]
	and	r10, r3, #15
	bic	r11, r2, #7
	ldrd	r9, r6, [r1]
	orrs.w	r1, r11, r10
	str	r1, [sp, #36]
	strd	r11, r10, [sp, #28]
	beq	.LBB162_7
	orrs.w	r2, r8, r12
	mov	r7, r8
	mov	r2, r12
	beq.w	.LBB162_19
	.p2align	2
.LBB162_3:
	lsr.w	r3, r11, #3
	orr.w	r3, r3, r10, lsl #29
	subs.w	r3, r8, r3
	sbcs.w	r3, r12, r10, lsr #3
	blo.w	.LBB162_19
	add.w	r4, r0, r11
	ldr	r5, [r4, #-8]
	lsls	r3, r5, #31
	beq	.LBB162_19
	ldr	r3, [r4, #-4]
	bic	r5, r5, #7
	and	r4, r3, #15
	orrs.w	r3, r5, r4
	beq	.LBB162_8
	subs	r7, #1
	sbc	r2, r2, #0
	orrs.w	r3, r7, r2
	mov	r11, r5
	mov	r10, r4
	bne	.LBB162_3
	b	.LBB162_19
	.p2align	2
.LBB162_7:
	mov.w	r11, #0
	mov.w	r10, #0
.LBB162_8:
	and	r6, r6, #15
	bic	r9, r9, #7
	orrs.w	r1, r9, r6
	strd	r1, r6, [sp, #20]
	beq	.LBB162_14
	orrs.w	r2, r8, r12
	mov	r2, r8
	mov	r3, r12
	mov	r7, r9
	beq	.LBB162_19
	.p2align	2
.LBB162_10:
	lsrs	r4, r7, #3
	orr.w	r4, r4, r6, lsl #29
	subs.w	r4, r8, r4
	sbcs.w	r4, r12, r6, lsr #3
	blo	.LBB162_19
	adds	r5, r0, r7
	ldr	r4, [r5, #-8]
	lsls.w	lr, r4, #31
	beq	.LBB162_19
	ldr	r5, [r5, #-4]
	bic	r4, r4, #7
	and	r5, r5, #15
	orrs.w	r1, r4, r5
	beq	.LBB162_15
	subs	r2, #1
	sbc	r3, r3, #0
	orrs.w	r6, r2, r3
	mov	r7, r4
	mov	r6, r5
	bne	.LBB162_10
	b	.LBB162_19
	.p2align	2
.LBB162_14:
	movs	r7, #0
	movs	r6, #0
.LBB162_15:
	ldr	r0, [sp, #36]
	eor.w	r1, r7, r11
	eor.w	r2, r6, r10
	clz	r0, r0
	orrs	r1, r2
	lsr.w	r0, r0, #5
	it	ne
	movne	r1, #1
	orrs	r1, r0
	beq	.LBB162_19
	ldr	r1, [sp, #20]
	ldr	r3, [sp, #32]
	clz	r1, r1
	lsrs	r1, r1, #5
	orr.w	r7, r0, r1
	mov	r1, r3
	cmp	r0, #0
	ldr	r6, [sp, #24]
	it	ne
	movne	r1, r6
	ldr	r2, [sp, #28]
	mov	r0, r2
	it	ne
	movne	r0, r9
	cbnz	r7, .LBB162_18
	add	r0, sp, #48
	add	r1, sp, #64
	strd	r9, r6, [sp]
	bl	ic_list_algorithms.merge.merge_runs.07d679d1abf7571e
.LBB162_18:
	ldr	r2, [sp, #40]
	strd	r0, r1, [r2]
	ldr	r2, [sp, #44]
	movs	r1, #0
	str	r1, [r2]
	movs	r0, #0
	str	r1, [r2, #4]
	add	sp, #84
	pop.w	{r4, r5, r6, r7, r8, r9, r10, r11, pc}
	.p2align	2
.LBB162_19:
	ldrd	r2, r3, [sp, #12]
	mov	r0, r8
	mov	r1, r12
	add	sp, #84
	pop.w	{r4, r5, r6, r7, r8, r9, r10, r11, lr}
	b	ic_raw.sort_calls.refusal.1b4d7615ba81168a
.Lfunc_end162:
	.size	ic_stack_merge, .Lfunc_end162-ic_stack_merge
	.cfi_endproc
	.section	.text.ic_stack_pop_front,"ax",%progbits
	.globl	ic_stack_pop_front
	.p2align	2
	.type	ic_stack_pop_front,%function
	.code	16
	.thumb_func
ic_stack_pop_front:
	.cfi_startproc
	push	{r4, r5, r6, lr}
	.cfi_def_cfa_offset 16
	.cfi_offset lr, -4
	.cfi_offset r6, -8
	.cfi_offset r5, -12
	.cfi_offset r4, -16
	ldrd	lr, r12, [sp, #16]
	cmp	r0, #0
	ldrd	r1, r4, [lr]
	it	eq
	addeq.w	r0, r0, #4096
	and	r5, r4, #15
	bic	r4, r1, #7
	orrs.w	r1, r4, r5
	beq	.LBB163_4
	lsrs	r1, r4, #3
	orr.w	r1, r1, r5, lsl #29
	subs	r6, r2, r1
	sbcs.w	r5, r3, r5, lsr #3
	blo	.LBB163_4
	add	r4, r0
	ldr	r5, [r4, #-8]
	lsls	r6, r5, #31
	beq	.LBB163_4
	ldr	r0, [r4, #-4]
	bic	r2, r5, #7
	and	r0, r0, #15
	movs	r3, #0
	strd	r3, r3, [r4, #-8]
	strd	r2, r0, [lr]
	subs	r1, #1
	movs	r0, #0
	str.w	r1, [r12]
	pop	{r4, r5, r6, pc}
	.p2align	2
.LBB163_4:
	strd	lr, r12, [sp, #16]
	pop.w	{r4, r5, r6, lr}
	b	ic_raw.stack_calls.pop_front_slow
.Lfunc_end163:
	.size	ic_stack_pop_front, .Lfunc_end163-ic_stack_pop_front
	.cfi_endproc
	.section	.text.ic_stack_push_front,"ax",%progbits
	.globl	ic_stack_push_front
	.p2align	2
	.type	ic_stack_push_front,%function
	.code	16
	.thumb_func
ic_stack_push_front:
	.cfi_startproc
	push.w	{r4, r5, r6, r7, r8, lr}
	.cfi_def_cfa_offset 24
	.cfi_offset lr, -4
	.cfi_offset r8, -8
	.cfi_offset r7, -12
	.cfi_offset r6, -16
	.cfi_offset r5, -20
	.cfi_offset r4, -24
	ldrd	lr, r12, [sp, #24]
	cmp	r0, #0
	ldrd	r4, r1, [lr]
	it	eq
	addeq.w	r0, r0, #4096
	and	r8, r1, #15
	bic	r4, r4, #7
	orrs.w	r5, r4, r8
	add.w	r5, r12, #1
	beq	.LBB164_3
	lsrs	r6, r4, #3
	orr.w	r6, r6, r8, lsl #29
	subs	r6, r2, r6
	sbcs.w	r6, r3, r8, lsr #3
	blo	.LBB164_6
	cmp	r5, #0
	ittt	ne
	addne	r6, r0, r4
	ldrne	r6, [r6, #-8]
	andsne	r6, r6, #1
	bne	.LBB164_4
	b	.LBB164_6
	.p2align	2
.LBB164_3:
	cbz	r5, .LBB164_6
.LBB164_4:
	subs	r6, r2, r5
	sbcs	r6, r3, #0
	blo	.LBB164_6
	lsls	r6, r5, #3
	adds	r7, r0, r6
	ldrb	r1, [r7, #-8]
	lsls	r1, r1, #31
	itttt	eq
	lsreq	r1, r5, #29
	orreq	r0, r4, #1
	strdeq	r0, r8, [r7, #-8]
	moveq	r0, #0
	itt	eq
	strdeq	r6, r1, [lr]
	popeq.w	{r4, r5, r6, r7, r8, pc}
.LBB164_6:
	str.w	r12, [sp, #24]
	pop.w	{r4, r5, r6, r7, r8, lr}
	b	ic_raw.table.refusal_at_end.feecb86c9dd45d96
.Lfunc_end164:
	.size	ic_stack_push_front, .Lfunc_end164-ic_stack_push_front
	.cfi_endproc
	.section	.text.ic_stack_remove_after,"ax",%progbits
	.globl	ic_stack_remove_after
	.p2align	2
	.type	ic_stack_remove_after,%function
	.code	16
	.thumb_func
ic_stack_remove_after:
	.cfi_startproc
	push.w	{r4, r5, r6, r7, r8, r9, r10, r11, lr}
	.cfi_def_cfa_offset 36
	.cfi_offset lr, -4
	.cfi_offset r11, -8
	.cfi_offset r10, -12
	.cfi_offset r9, -16
	.cfi_offset r8, -20
	.cfi_offset r7, -24
	.cfi_offset r6, -28
	.cfi_offset r5, -32
	.cfi_offset r4, -36
	ldrd	lr, r9, [sp, #36]
	cmp	r0, #0
	ldrd	r1, r4, [lr]
	ldr.w	r12, [sp, #44]
	it	eq
	addeq.w	r0, r0, #4096
	and	r11, r4, #15
	bic	r1, r1, #7
	adds.w	r7, r9, #1
	lsl.w	r8, r7, #3
	mov	r4, r1
	mov	r5, r11
	bhs	.LBB165_4
	subs	r4, r2, r7
	sbcs	r4, r3, #0
	blo	.LBB165_12
	add.w	r5, r0, r8
	ldr	r4, [r5, #-8]
	lsls	r6, r4, #31
	beq	.LBB165_12
	ldr	r5, [r5, #-4]
	bic	r4, r4, #7
	and	r5, r5, #15
.LBB165_4:
	orrs.w	r6, r4, r5
	beq	.LBB165_9
	lsrs	r6, r4, #3
	orr.w	r10, r6, r5, lsl #29
	subs.w	r6, r2, r10
	sbcs.w	r5, r3, r5, lsr #3
	blo	.LBB165_12
	add	r4, r0
	ldr	r5, [r4, #-8]
	lsls	r6, r5, #31
	beq	.LBB165_12
	ldr	r2, [r4, #-4]
	bic	r3, r5, #7
	and	r2, r2, #15
	cbz	r7, .LBB165_10
	add	r0, r8
	orr	r3, r3, #1
	strd	r3, r2, [r0, #-8]
	mov	r2, r11
	b	.LBB165_11
	.p2align	2
.LBB165_9:
	movs	r0, #4
	pop.w	{r4, r5, r6, r7, r8, r9, r10, r11, pc}
	.p2align	2
.LBB165_10:
	mov	r1, r3
.LBB165_11:
	movs	r0, #0
	strd	r0, r0, [r4, #-8]
	strd	r1, r2, [lr]
	sub.w	r1, r10, #1
	str.w	r1, [r12]
	pop.w	{r4, r5, r6, r7, r8, r9, r10, r11, pc}
	.p2align	2
.LBB165_12:
	str.w	r9, [sp, #36]
	pop.w	{r4, r5, r6, r7, r8, r9, r10, r11, lr}
	b	ic_raw.table.RawTable.refusal_at.feecb86c9dd45d96
.Lfunc_end165:
	.size	ic_stack_remove_after, .Lfunc_end165-ic_stack_remove_after
	.cfi_endproc
	.section	.text.ic_stack_replace_after,"ax",%progbits
	.globl	ic_stack_replace_after
	.p2align	2
	.type	ic_stack_replace_after,%function
	.code	16
	.thumb_func
ic_stack_replace_after:
	.cfi_startproc
	push.w	{r4, r5, r6, r7, r8, r9, r10, r11, lr}
	.cfi_def_cfa_offset 36
	.cfi_offset lr, -4
	.cfi_offset r11, -8
	.cfi_offset r10, -12
	.cfi_offset r9, -16
	.cfi_offset r8, -20
	.cfi_offset r7, -24
	.cfi_offset r6, -28
	.cfi_offset r5, -32
	.cfi_offset r4, -36
	sub	sp, #20
	.cfi_def_cfa_offset 56
	ldrd	r6, r1, [sp, #56]
	movs	r7, #0
	cmp	r0, #0
	it	eq
	addeq.w	r0, r0, #4096
	str	r7, [sp, #4]
	ldrd	r7, r6, [r6]
	mov	r12, r2
	ldr	r2, [sp, #64]
	and	r11, r6, #15
	bic	lr, r7, #7
	adds	r7, r1, #1
	lsl.w	r8, r7, #3
	mov	r5, lr
	mov	r4, r11
	str	r0, [sp]
	str	r3, [sp, #12]
	str.w	r12, [sp, #8]
	bhs	.LBB166_4
	subs.w	r4, r12, r7
	sbcs	r4, r3, #0
	blo	.LBB166_13
	add.w	r5, r0, r8
	ldr	r4, [r5, #-8]
	lsls	r6, r4, #31
	beq	.LBB166_13
	ldr	r6, [r5, #-4]
	bic	r5, r4, #7
	and	r4, r6, #15
.LBB166_4:
	orrs.w	r6, r5, r4
	beq	.LBB166_12
	lsrs	r6, r5, #3
	orr.w	r9, r6, r4, lsl #29
	subs.w	r6, r12, r9
	sbcs.w	r4, r3, r4, lsr #3
	blo	.LBB166_13
	adds	r6, r0, r5
	ldr	r10, [r6, #-8]
	lsls.w	r4, r10, #31
	beq	.LBB166_13
	adds	r5, r2, #1
	bhs	.LBB166_13
	subs.w	r4, r12, r5
	sbcs	r3, r3, #0
	blo	.LBB166_13
	lsls	r4, r5, #3
	add.w	r12, r0, r4
	ldrb	r3, [r12, #-8]
	lsls	r3, r3, #31
	bne	.LBB166_13
	ldr	r1, [sp, #68]
	ldr	r2, [r6, #-4]
	cmp	r7, #0
	lsr.w	r7, r5, #29
	beq	.LBB166_14
	add	r0, r8
	orr	r3, r4, #1
	strd	r3, r7, [r0, #-8]
	mov	r7, r11
	b	.LBB166_15
	.p2align	2
.LBB166_12:
	movs	r0, #4
	add	sp, #20
	pop.w	{r4, r5, r6, r7, r8, r9, r10, r11, pc}
	.p2align	2
.LBB166_13:
	mov	r0, sp
	bl	ic_raw.table.RawTable.refusal.feecb86c9dd45d96
	add	sp, #20
	pop.w	{r4, r5, r6, r7, r8, r9, r10, r11, pc}
	.p2align	2
.LBB166_14:
	mov	lr, r4
.LBB166_15:
	and	r0, r2, #15
	bic	r2, r10, #6
	strd	r2, r0, [r12, #-8]
	ldr	r2, [sp, #56]
	movs	r0, #0
	strd	r0, r0, [r6, #-8]
	strd	lr, r7, [r2]
	sub.w	r2, r9, #1
	str	r2, [r1]
	add	sp, #20
	pop.w	{r4, r5, r6, r7, r8, r9, r10, r11, pc}
.Lfunc_end166:
	.size	ic_stack_replace_after, .Lfunc_end166-ic_stack_replace_after
	.cfi_endproc
	.section	.text.ic_stack_sort,"ax",%progbits
	.globl	ic_stack_sort
	.p2align	2
	.type	ic_stack_sort,%function
	.code	16
	.thumb_func
ic_stack_sort:
	.cfi_startproc
	push.w	{r4, r5, r6, r7, r8, r9, r10, r11, lr}
	.cfi_def_cfa_offset 36
	.cfi_offset lr, -4
	.cfi_offset r11, -8
	.cfi_offset r10, -12
	.cfi_offset r9, -16
	.cfi_offset r8, -20
	.cfi_offset r7, -24
	.cfi_offset r6, -28
	.cfi_offset r5, -32
	.cfi_offset r4, -36
	sub	sp, #84
	.cfi_def_cfa_offset 120
	ldr	r1, [sp, #120]
	cmp	r0, #0
	ldrd	lr, r12, [sp, #128]
	ldr.w	r8, [sp, #136]
	it	eq
	addeq.w	r0, r0, #4096
	cmp	r1, #0
	it	eq
	addeq.w	r1, r1, #4096
	str	r1, [sp, #40]
	movs	r1, #0
	strd	r1, lr, [sp, #44]
	strd	r0, r1, [sp, #24]
	subs.w	r1, lr, r2
	sbcs.w	r1, r12, r3
	str.w	r12, [sp, #52]
	str	r3, [sp, #36]
	str	r2, [sp, #32]
	blo	.LBB167_7
	ldrd	r1, r4, [r8]
	and	r9, r4, #15
	bic	r11, r1, #7
	orrs.w	r1, r11, r9
	beq	.LBB167_12
	orrs.w	r1, r2, r3
	mov	r1, r2
	mov	r4, r3
	mov	r5, r11
	mov	r6, r9
	beq	.LBB167_7
	.p2align	2
.LBB167_3:
	lsrs	r7, r5, #3
	orr.w	r7, r7, r6, lsl #29
	subs	r7, r2, r7
	sbcs.w	r6, r3, r6, lsr #3
	blo	.LBB167_7
	adds	r6, r0, r5
	ldr	r5, [r6, #-8]
	lsls	r7, r5, #31
	beq	.LBB167_7
	ldr	r6, [r6, #-4]
	bic	r5, r5, #7
	and	r6, r6, #15
	orrs.w	r7, r5, r6
	beq	.LBB167_8
	subs	r1, #1
	sbc	r4, r4, #0
	orrs.w	r7, r1, r4
	bne	.LBB167_3
.LBB167_7:
	mov	r0, r2
	mov	r1, r3
	mov	r2, lr
	mov	r3, r12
	add	sp, #84
	pop.w	{r4, r5, r6, r7, r8, r9, r10, r11, lr}
	b	ic_raw.sort_calls.refusal.1b4d7615ba81168a
	.p2align	2
.LBB167_8:
	add	r0, r11
	ldrd	r1, r2, [r0, #-8]
	str.w	r8, [sp, #20]
	and	r10, r2, #15
	bic	r8, r1, #7
	orrs.w	r1, r8, r10
	mov.w	r1, #1
	mov.w	r2, #0
	strd	r1, r2, [r0, #-8]
	beq	.LBB167_11
	movs	r4, #0
	movs	r5, #0
	.p2align	2
.LBB167_10:
	add	r0, sp, #56
	add	r1, sp, #24
	add	r2, sp, #40
	strd	r8, r10, [sp]
	str	r4, [sp, #8]
	str	r5, [sp, #12]
	bl	ic_list_algorithms.sort.sort_front.07d679d1abf7571e
	ldrd	r7, r6, [sp, #56]
	mov	r3, r9
	ldrb.w	r9, [sp, #64]
	ldrd	r8, r10, [sp, #72]
	add	r0, sp, #24
	add	r1, sp, #40
	mov	r2, r11
	strd	r7, r6, [sp]
	bl	ic_list_algorithms.merge.merge_runs.07d679d1abf7571e
	adds	r4, #1
	mov	r11, r0
	adc	r5, r5, #0
	cmp.w	r9, #1
	mov	r9, r1
	beq	.LBB167_10
.LBB167_11:
	ldr.w	r8, [sp, #20]
	movs	r0, #0
	strd	r11, r9, [r8]
	add	sp, #84
	pop.w	{r4, r5, r6, r7, r8, r9, r10, r11, pc}
	.p2align	2
.LBB167_12:
	mov.w	r11, #0
	mov.w	r9, #0
	movs	r0, #0
	strd	r11, r9, [r8]
	add	sp, #84
	pop.w	{r4, r5, r6, r7, r8, r9, r10, r11, pc}
.Lfunc_end167:
	.size	ic_stack_sort, .Lfunc_end167-ic_stack_sort
	.cfi_endproc
	.section	.text.ic_stack_splice_after,"ax",%progbits
	.globl	ic_stack_splice_after
	.p2align	2
	.type	ic_stack_splice_after,%function
	.code	16
	.thumb_func
ic_stack_splice_after:
	.cfi_startproc
	push.w	{r4, r5, r6, r7, r8, r9, r10, r11, lr}
	.cfi_def_cfa_offset 36
	.cfi_offset lr, -4
	.cfi_offset r11, -8
	.cfi_offset r10, -12
	.cfi_offset r9, -16
	.cfi_offset r8, -20
	.cfi_offset r7, -24
	.cfi_offset r6, -28
	.cfi_offset r5, -32
	.cfi_offset r4, -36
	sub	sp, #24
	.cfi_def_cfa_offset 60
	mov	r9, r3
	ldrd	r1, r3, [sp, #64]
	mov	r8, r2
	str	r1, [sp, #12]
	ldr	r1, [sp, #60]
	cmp	r0, #0
	str	r1, [sp, #4]
	ldrd	r1, r2, [r1]
	it	eq
	addeq.w	r0, r0, #4096
	bic	r7, r1, #7
	str	r3, [sp, #8]
	ldrd	r1, r3, [r3]
	and	r2, r2, #15
	and	r11, r3, #15
	bic	r10, r1, #7
	str	r2, [sp, #16]
	eor.w	r1, r2, r11
	eor.w	r2, r7, r10
	orrs	r1, r2
	orr.w	r2, r10, r11
	str	r7, [sp, #20]
	bne	.LBB168_2
	cmp	r2, #0
	bne	.LBB168_16
.LBB168_2:
	ldr	r1, [sp, #12]
	adds.w	r12, r1, #1
	lsl.w	r1, r12, #3
	str	r1, [sp]
	ldrd	r4, r1, [sp, #16]
	beq	.LBB168_6
	subs.w	r1, r8, r12
	sbcs	r1, r9, #0
	blo	.LBB168_16
	ldr	r1, [sp]
	adds	r3, r0, r1
	ldr	r1, [r3, #-8]
	lsls	r7, r1, #31
	beq	.LBB168_16
	ldr	r3, [r3, #-4]
	bic	r1, r1, #7
	and	r4, r3, #15
.LBB168_6:
	clz	r2, r2
	orrs.w	r3, r1, r4
	lsr.w	r2, r2, #5
	beq	.LBB168_10
	lsrs	r3, r1, #3
	orr.w	r3, r3, r4, lsl #29
	subs.w	r3, r8, r3
	sbcs.w	r3, r9, r4, lsr #3
	blo	.LBB168_16
	adds	r3, r0, r1
	ldrb	r3, [r3, #-8]
	movs	r7, #1
	bic.w	r3, r7, r3
	orrs	r2, r3
	beq	.LBB168_11
	cmp	r3, #0
	beq	.LBB168_21
	b	.LBB168_16
	.p2align	2
.LBB168_10:
	cmp	r2, #0
	bne	.LBB168_21
.LBB168_11:
	orrs.w	r2, r8, r9
	mov	r2, r8
	mov	r3, r9
	mov	r7, r10
	mov	r6, r11
	beq	.LBB168_16
	.p2align	2
.LBB168_12:
	lsrs	r5, r7, #3
	orr.w	r5, r5, r6, lsl #29
	subs.w	r5, r8, r5
	sbcs.w	r6, r9, r6, lsr #3
	blo	.LBB168_16
	add.w	lr, r0, r7
	ldr	r6, [lr, #-8]
	lsls	r5, r6, #31
	beq	.LBB168_16
	ldr	r5, [lr, #-4]
	bic	r7, r6, #7
	and	r6, r5, #15
	orrs.w	r5, r7, r6
	beq	.LBB168_17
	subs	r2, #1
	sbc	r3, r3, #0
	orrs.w	r5, r2, r3
	bne	.LBB168_12
.LBB168_16:
	ldr	r1, [sp, #12]
	mov	r2, r8
	mov	r3, r9
	str	r1, [sp, #60]
	add	sp, #24
	pop.w	{r4, r5, r6, r7, r8, r9, r10, r11, lr}
	b	ic_raw.table.RawTable.refusal_at.feecb86c9dd45d96
	.p2align	2
.LBB168_17:
	cmp.w	r12, #0
	beq	.LBB168_19
	ldr	r2, [sp]
	add	r0, r2
	orr	r2, r10, #1
	strd	r2, r11, [r0, #-8]
	b	.LBB168_20
	.p2align	2
.LBB168_19:
	strd	r11, r10, [sp, #16]
.LBB168_20:
	orr	r0, r1, #1
	strd	r0, r4, [lr, #-8]
.LBB168_21:
	ldr	r0, [sp, #4]
	ldrd	r2, r1, [sp, #16]
	strd	r1, r2, [r0]
	ldr	r2, [sp, #8]
	movs	r1, #0
	str	r1, [r2]
	movs	r0, #0
	str	r1, [r2, #4]
	add	sp, #24
	pop.w	{r4, r5, r6, r7, r8, r9, r10, r11, pc}
.Lfunc_end168:
	.size	ic_stack_splice_after, .Lfunc_end168-ic_stack_splice_after
	.cfi_endproc
	.section	.text.ic_stack_split_after,"ax",%progbits
	.globl	ic_stack_split_after
	.p2align	2
	.type	ic_stack_split_after,%function
	.code	16
	.thumb_func
ic_stack_split_after:
	.cfi_startproc
	push.w	{r4, r5, r6, r7, r8, r9, r10, lr}
	.cfi_def_cfa_offset 32
	.cfi_offset lr, -4
	.cfi_offset r10, -8
	.cfi_offset r9, -12
	.cfi_offset r8, -16
	.cfi_offset r7, -20
	.cfi_offset r6, -24
	.cfi_offset r5, -28
	.cfi_offset r4, -32
	ldrd	r12, lr, [sp, #36]
	cmp	r0, #0
	ldrd	r1, r4, [lr]
	it	eq
	addeq.w	r0, r0, #4096
	and	r4, r4, #15
	bic	r1, r1, #7
	orrs	r1, r4
	bne	.LBB169_11
	ldr.w	r9, [sp, #32]
	ldrd	r1, r4, [r9]
	and	r5, r4, #15
	bic	r10, r1, #7
	adds.w	r1, r12, #1
	lsl.w	r8, r1, #3
	mov	r6, r10
	mov	r7, r5
	bhs	.LBB169_5
	subs	r6, r2, r1
	sbcs	r6, r3, #0
	blo	.LBB169_11
	add.w	r7, r0, r8
	ldr	r6, [r7, #-8]
	lsls	r4, r6, #31
	beq	.LBB169_11
	ldr	r4, [r7, #-4]
	bic	r6, r6, #7
	and	r7, r4, #15
.LBB169_5:
	orrs.w	r4, r6, r7
	beq	.LBB169_8
	lsrs	r4, r6, #3
	orr.w	r4, r4, r7, lsl #29
	subs	r4, r2, r4
	sbcs.w	r4, r3, r7, lsr #3
	blo	.LBB169_11
	adds	r4, r0, r6
	ldrb	r4, [r4, #-8]
	lsls	r4, r4, #31
	beq	.LBB169_11
.LBB169_8:
	cmp	r1, #0
	mov.w	r1, #0
	beq	.LBB169_10
	add	r0, r8
	movs	r2, #1
	strd	r2, r1, [r0, #-8]
	movs	r0, #0
	strd	r10, r5, [r9]
	strd	r6, r7, [lr]
	pop.w	{r4, r5, r6, r7, r8, r9, r10, pc}
	.p2align	2
.LBB169_10:
	mov.w	r10, #0
	movs	r5, #0
	movs	r0, #0
	strd	r10, r5, [r9]
	strd	r6, r7, [lr]
	pop.w	{r4, r5, r6, r7, r8, r9, r10, pc}
	.p2align	2
.LBB169_11:
	str.w	r12, [sp, #32]
	pop.w	{r4, r5, r6, r7, r8, r9, r10, lr}
	b	ic_raw.table.RawTable.refusal_at.feecb86c9dd45d96
.Lfunc_end169:
	.size	ic_stack_split_after, .Lfunc_end169-ic_stack_split_after
	.cfi_endproc
	.section	.text.ic_tree_append,"ax",%progbits
	.globl	ic_tree_append
	.p2align	2
	.type	ic_tree_append,%function
	.code	16
	.thumb_func
ic_tree_append:
	.cfi_startproc
	push.w	{r4, r5, r6, r7, r8, r9, r10, r11, lr}
	.cfi_def_cfa_offset 36
	.cfi_offset lr, -4
	.cfi_offset r11, -8
	.cfi_offset r10, -12
	.cfi_offset r9, -16
	.cfi_offset r8, -20
	.cfi_offset r7, -24
	.cfi_offset r6, -28
	.cfi_offset r5, -32
	.cfi_offset r4, -36
	sub	sp, #124
	.cfi_def_cfa_offset 160
	ldrd	r6, r5, [sp, #160]
	cmp	r0, #0
	it	eq
	addeq.w	r0, r0, #4096
	str	r0, [sp, #80]
	movs	r0, #0
	add	r1, sp, #84
	stm	r1!, {r0, r2, r3}
	ldrd	r3, r7, [r5]
	ldrd	r1, r2, [r6]
	and	r11, r7, #15
	bic	r8, r3, #7
	and	r4, r2, #15
	orrs.w	r9, r8, r11
	bic	r7, r1, #7
	beq	.LBB170_3
	eor.w	r1, r7, r8
	eor.w	r2, r4, r11
	orrs	r1, r2
	bne	.LBB170_3
	movs	r0, #5
	add	sp, #124
	pop.w	{r4, r5, r6, r7, r8, r9, r10, r11, pc}
	.p2align	2
.LBB170_3:
	orrs.w	r10, r7, r4
	mov.w	r1, #66
	it	ne
	movne.w	r10, #1
	strd	r0, r0, [sp, #16]
	str	r1, [sp, #24]
	str	r0, [sp, #8]
	add	r0, sp, #96
	add	r1, sp, #80
	mov	r2, r10
	str	r7, [sp]
	str	r4, [sp, #4]
	bl	ic_check.tree.check_below.ffc36cde30076884
	ldrb.w	r0, [sp, #96]
	cmp	r0, #1
	mov.w	r0, #5
	bne.w	.LBB170_69
	ldrb.w	r1, [sp, #116]
	cmp	r1, #1
	bne.w	.LBB170_69
	mov	r2, r9
	movs	r0, #66
	movs	r1, #0
	cmp.w	r9, #0
	it	ne
	movne	r2, #1
	strd	r1, r1, [sp, #16]
	str	r0, [sp, #24]
	str	r1, [sp, #8]
	add	r0, sp, #96
	add	r1, sp, #80
	str.w	r8, [sp]
	str.w	r11, [sp, #4]
	bl	ic_check.tree.check_below.ffc36cde30076884
	ldrb.w	r0, [sp, #96]
	cmp	r0, #1
	mov.w	r0, #5
	bne.w	.LBB170_69
	ldrb.w	r1, [sp, #116]
	cmp	r1, #1
	bne.w	.LBB170_69
	clz	r0, r9
	lsrs	r0, r0, #5
	bne.w	.LBB170_68
	ldr.w	r12, [sp, #80]
	strd	r7, r4, [sp, #68]
	sub.w	r5, r12, #24
	movs	r2, #64
	mov	r3, r8
	mov	r1, r11
	.p2align	2
.LBB170_9:
	lsrs	r0, r3, #3
	add.w	r7, r0, r0, lsl #1
	add.w	r0, r5, r7, lsl #3
	ldr.w	r6, [r5, r7, lsl #3]
	ldr	r4, [r0, #4]
	bic	r9, r6, #7
	and	lr, r4, #15
	orrs.w	r4, r9, lr
	beq	.LBB170_15
	lsrs	r1, r6, #3
	add.w	r7, r1, r1, lsl #1
	add.w	r1, r5, r7, lsl #3
	ldr.w	r6, [r5, r7, lsl #3]
	ldr	r3, [r1, #4]
	bic	r1, r6, #7
	and	r3, r3, #15
	orrs.w	r4, r1, r3
	beq	.LBB170_16
	lsrs	r0, r6, #3
	add.w	r7, r0, r0, lsl #1
	add.w	r0, r5, r7, lsl #3
	ldr.w	r6, [r5, r7, lsl #3]
	ldr	r4, [r0, #4]
	bic	r9, r6, #7
	and	lr, r4, #15
	orrs.w	r4, r9, lr
	beq	.LBB170_17
	lsrs	r1, r6, #3
	add.w	r1, r1, r1, lsl #1
	lsl.w	r4, r1, #3
	cbz	r2, .LBB170_18
	adds	r1, r5, r4
	ldr	r3, [r5, r4]
	ldr	r1, [r1, #4]
	bic	r3, r3, #7
	and	r1, r1, #15
	orrs.w	r7, r3, r1
	beq	.LBB170_18
	subs	r2, #4
	b	.LBB170_9
	.p2align	2
.LBB170_15:
	lsls	r4, r7, #3
	mov	r9, r3
	mov	lr, r1
	b	.LBB170_18
	.p2align	2
.LBB170_16:
	lsls	r4, r7, #3
	b	.LBB170_18
	.p2align	2
.LBB170_17:
	lsls	r4, r7, #3
	mov	r9, r1
	mov	lr, r3
.LBB170_18:
	add.w	r1, r12, r4
	ldrd	r3, r2, [r1, #-24]
	ldrd	r7, r6, [r1, #-16]
	and	r2, r2, #15
	bic	r3, r3, #7
	orrs.w	r0, r3, r2
	and	r6, r6, #15
	bic	r7, r7, #7
	str.w	r10, [sp, #64]
	beq	.LBB170_27
	orrs.w	r0, r7, r6
	beq	.LBB170_28
	str.w	r12, [sp, #56]
	movs	r2, #64
	.p2align	2
.LBB170_21:
	lsrs	r0, r7, #3
	add.w	r1, r0, r0, lsl #1
	add.w	r0, r5, r1, lsl #3
	ldr.w	r3, [r5, r1, lsl #3]
	ldr	r0, [r0, #4]
	bic	r12, r3, #7
	and	r10, r0, #15
	orrs.w	r0, r12, r10
	beq.w	.LBB170_37
	lsrs	r0, r3, #3
	add.w	r3, r0, r0, lsl #1
	add.w	r0, r5, r3, lsl #3
	ldr.w	r7, [r5, r3, lsl #3]
	ldr	r0, [r0, #4]
	bic	r1, r7, #7
	and	r6, r0, #15
	orrs.w	r0, r1, r6
	beq	.LBB170_38
	lsrs	r0, r7, #3
	add.w	r3, r0, r0, lsl #1
	add.w	r0, r5, r3, lsl #3
	ldr.w	r7, [r5, r3, lsl #3]
	ldr	r0, [r0, #4]
	bic	r12, r7, #7
	and	r10, r0, #15
	orrs.w	r0, r12, r10
	beq	.LBB170_39
	lsrs	r0, r7, #3
	add.w	r0, r0, r0, lsl #1
	cmp	r2, #0
	lsl.w	r3, r0, #3
	beq	.LBB170_41
	adds	r0, r5, r3
	ldr	r1, [r5, r3]
	ldr	r0, [r0, #4]
	bic	r7, r1, #7
	and	r6, r0, #15
	orrs.w	r0, r7, r6
	beq	.LBB170_41
	subs	r2, #4
	b	.LBB170_21
	.p2align	2
.LBB170_27:
	mov	r4, r12
	b	.LBB170_29
	.p2align	2
.LBB170_28:
	mov	r4, r12
	mov	r7, r3
	mov	r6, r2
.LBB170_29:
	ldrd	r2, r0, [r1, #-8]
	and	r10, r0, #15
	bic	r12, r2, #7
	orrs.w	r1, r12, r10
	it	ne
	movne	r1, #1
	beq	.LBB170_32
	lsrs	r0, r2, #3
	add.w	r0, r0, r0, lsl #1
	str	r1, [sp, #60]
	add.w	r1, r4, r0, lsl #3
	ldrd	r3, r0, [r1, #-24]
	str	r2, [sp, #76]
	bic	r2, r3, #7
	and	r0, r0, #15
	eor.w	r0, r0, lr
	eor.w	r2, r2, r9
	orrs	r0, r2
	bne	.LBB170_33
	and	r0, r3, #1
	orrs	r0, r7
	strd	r0, r6, [r1, #-24]
	movs	r5, #0
	b	.LBB170_34
	.p2align	2
.LBB170_32:
	movs	r5, #0
	mov	r8, r7
	mov	r11, r6
	b	.LBB170_35
	.p2align	2
.LBB170_33:
	movs	r5, #1
	strd	r7, r6, [r1, #-16]
.LBB170_34:
	ldr	r1, [sp, #60]
	ldr	r2, [sp, #76]
.LBB170_35:
	orrs.w	r0, r7, r6
	beq.w	.LBB170_66
	ldr	r0, [sp, #80]
	lsrs	r1, r7, #3
	add.w	r1, r1, r1, lsl #1
	add.w	r0, r0, r1, lsl #3
	ldr	r2, [r0, #-8]
	and	r2, r2, #1
	orr.w	r2, r2, r12
	strd	r2, r10, [r0, #-8]
	ldr	r0, [sp, #80]
	add.w	r0, r0, r1, lsl #3
	ldr	r1, [r0, #-8]
	orr	r1, r1, #1
	str	r1, [r0, #-8]
	b	.LBB170_67
	.p2align	2
.LBB170_37:
	lsls	r3, r1, #3
	mov	r12, r7
	b	.LBB170_40
	.p2align	2
.LBB170_38:
	lsls	r3, r3, #3
	b	.LBB170_41
	.p2align	2
.LBB170_39:
	lsls	r3, r3, #3
	mov	r12, r1
.LBB170_40:
	mov	r10, r6
.LBB170_41:
	ldr	r0, [sp, #56]
	adds	r1, r0, r3
	ldrd	r0, r2, [r1, #-24]
	and	r7, r2, #15
	bic	r6, r0, #7
	orrs.w	r0, r6, r7
	bne	.LBB170_43
	ldrd	r0, r2, [r1, #-16]
	and	r7, r2, #15
	bic	r6, r0, #7
.LBB170_43:
	ldrd	r2, r0, [r1, #-8]
	and	r0, r0, #15
	bic	r1, r2, #7
	strd	r0, r1, [sp, #48]
	orrs	r0, r1
	it	ne
	movne	r0, #1
	str	r0, [sp, #60]
	beq	.LBB170_46
	lsrs	r0, r2, #3
	ldr	r1, [sp, #56]
	add.w	r0, r0, r0, lsl #1
	add.w	r1, r1, r0, lsl #3
	ldrd	r5, r0, [r1, #-24]
	str	r2, [sp, #76]
	bic	r2, r5, #7
	and	r0, r0, #15
	eor.w	r0, r0, r10
	eor.w	r2, r2, r12
	orrs	r0, r2
	bne	.LBB170_47
	and	r0, r5, #1
	orrs	r0, r6
	strd	r0, r7, [r1, #-24]
	movs	r5, #0
	b	.LBB170_48
	.p2align	2
.LBB170_46:
	movs	r5, #0
	mov	r8, r6
	mov	r11, r7
	b	.LBB170_49
	.p2align	2
.LBB170_47:
	movs	r5, #1
	strd	r6, r7, [r1, #-16]
.LBB170_48:
	ldr	r2, [sp, #76]
.LBB170_49:
	orrs.w	r0, r6, r7
	ldr	r7, [sp, #48]
	beq	.LBB170_51
	ldr	r0, [sp, #80]
	lsrs	r1, r6, #3
	add.w	r1, r1, r1, lsl #1
	add.w	r0, r0, r1, lsl #3
	ldr	r2, [r0, #-8]
	ldr	r6, [sp, #52]
	and	r2, r2, #1
	orrs	r2, r6
	strd	r2, r7, [r0, #-8]
	ldr	r0, [sp, #80]
	movs	r2, #0
	add.w	r0, r0, r1, lsl #3
	ldr	r1, [r0, #-8]
	orr	r1, r1, #1
	str	r1, [r0, #-8]
.LBB170_51:
	eor.w	r0, r12, r9
	eor.w	r1, r10, lr
	orrs	r0, r1
	bne	.LBB170_53
	ldr.w	r12, [sp, #52]
	ldr	r1, [sp, #60]
	mov	r10, r7
	b	.LBB170_66
	.p2align	2
.LBB170_53:
	ldr	r6, [sp, #80]
	str	r2, [sp, #76]
	adds	r0, r6, r4
	sub.w	r4, r0, #24
	ldm	r4, {r1, r2, r4}
	str	r4, [sp, #36]
	ldr	r7, [r0, #-4]
	ldrd	r4, r0, [r0, #-12]
	and	r7, r7, #15
	str	r0, [sp, #40]
	bic	r0, r0, #7
	strd	r0, r7, [sp, #28]
	orrs	r0, r7
	and	r0, r2, #15
	str	r0, [sp, #56]
	bic	r0, r1, #7
	str	r0, [sp, #44]
	mov	r0, r12
	mov	r2, r10
	beq	.LBB170_58
	ldr	r0, [sp, #40]
	lsrs	r0, r0, #3
	add.w	r0, r0, r0, lsl #1
	add.w	r6, r6, r0, lsl #3
	ldrd	r7, r0, [r6, #-24]
	bic	r2, r7, #7
	and	r0, r0, #15
	eor.w	r0, r0, lr
	eor.w	r2, r2, r9
	orrs	r0, r2
	bne	.LBB170_56
	and	r0, r7, #1
	adds.w	r0, r0, r12
	adc	r2, r10, #0
	strd	r0, r2, [r6, #-24]
	b	.LBB170_57
	.p2align	2
.LBB170_56:
	strd	r12, r10, [r6, #-16]
.LBB170_57:
	mov	r0, r8
	mov	r2, r11
.LBB170_58:
	mov	r11, r2
	mov	r8, r0
	ldr	r0, [sp, #56]
	ldr	r2, [sp, #44]
	ldr	r7, [sp, #80]
	orrs	r0, r2
	ldr	r0, [sp, #36]
	and	r4, r4, #15
	bic	r6, r0, #7
	beq	.LBB170_60
	lsrs	r0, r1, #3
	add.w	r0, r0, r0, lsl #1
	add.w	r0, r7, r0, lsl #3
	ldr	r1, [r0, #-8]
	and	r1, r1, #1
	adds.w	r1, r1, r12
	adc	r2, r10, #0
	strd	r1, r2, [r0, #-8]
	ldr	r7, [sp, #80]
.LBB170_60:
	orrs.w	r0, r6, r4
	beq	.LBB170_62
	ldr	r0, [sp, #36]
	lsrs	r0, r0, #3
	add.w	r0, r0, r0, lsl #1
	add.w	r0, r7, r0, lsl #3
	ldr	r1, [r0, #-8]
	and	r1, r1, #1
	adds.w	r1, r1, r12
	adc	r2, r10, #0
	strd	r1, r2, [r0, #-8]
	ldr	r7, [sp, #80]
.LBB170_62:
	adds	r0, r7, r3
	ldr	r1, [r0, #-24]
	ldr	r2, [sp, #44]
	and	r1, r1, #1
	orrs	r1, r2
	ldr	r2, [sp, #56]
	strd	r1, r2, [r0, #-24]
	ldr	r0, [sp, #80]
	ldr	r2, [sp, #28]
	add	r0, r3
	strd	r6, r4, [r0, #-16]
	ldr	r0, [sp, #80]
	ldr	r6, [sp, #52]
	add	r0, r3
	ldr	r1, [r0, #-8]
	ldr	r4, [sp, #48]
	and	r1, r1, #1
	orrs	r1, r2
	ldr	r2, [sp, #32]
	strd	r1, r2, [r0, #-8]
	ldr	r0, [sp, #80]
	ldr	r2, [sp, #40]
	add	r0, r3
	ldr	r1, [r0, #-8]
	eor.w	r3, r4, lr
	bfi	r1, r2, #0, #1
	eor.w	r2, r6, r9
	orrs	r2, r3
	str	r1, [r0, #-8]
	bne	.LBB170_64
	movs	r1, #1
	b	.LBB170_65
	.p2align	2
.LBB170_64:
	ldr	r1, [sp, #60]
	mov	r12, r6
	mov	r10, r4
.LBB170_65:
	ldr	r2, [sp, #76]
.LBB170_66:
	lsls	r0, r2, #31
	it	ne
	cmpne	r1, #0
	bne	.LBB170_70
.LBB170_67:
	orrs.w	r7, r8, r11
	add	r3, sp, #64
	it	ne
	movne	r7, #1
	ldm	r3, {r1, r2, r3}
	add	r0, sp, #80
	strd	r8, r11, [sp, #16]
	strd	r9, lr, [sp]
	str	r7, [sp, #8]
	bl	ic_rbtree.join.roots.join.f4da04d8a93b4f27
	ldrd	r6, r5, [sp, #160]
	mov	r7, r1
	mov	r4, r2
	uxtb	r0, r0
	cmp	r0, #0
	itt	eq
	moveq	r4, r0
	moveq	r7, r0
.LBB170_68:
	movs	r0, #0
	strd	r7, r4, [r6]
	strd	r0, r0, [r5]
.LBB170_69:
	add	sp, #124
	pop.w	{r4, r5, r6, r7, r8, r9, r10, r11, pc}
	.p2align	2
.LBB170_70:
	ldr	r4, [sp, #80]
	movs	r1, #67
.LBB170_71:
	lsr.w	r0, r12, #3
	add.w	r0, r0, r0, lsl #1
	lsls	r2, r0, #3
	str	r2, [sp, #76]
	lsls	r2, r5, #31
	add.w	r3, r4, r0, lsl #3
	beq	.LBB170_78
	ldrd	r6, r0, [r3, #-24]
	str	r1, [sp, #56]
	and	r7, r0, #15
	bic	r0, r6, #7
	mov	r1, r0
	orrs	r0, r7
	beq	.LBB170_67
	lsrs	r0, r6, #3
	add.w	r2, r0, r0, lsl #1
	add.w	r5, r4, r2, lsl #3
	ldr	r0, [r5, #-8]
	str	r7, [sp, #60]
	lsls	r0, r0, #31
	bne.w	.LBB170_87
	ldrd	r7, r0, [r5, #-16]
	str.w	r8, [sp, #44]
	and	r0, r0, #15
	bic	r4, r7, #7
	orrs.w	r5, r4, r0
	mov	r8, r12
	mov	r12, r10
	ldrd	r5, r10, [r3, #-8]
	and	r6, r6, #1
	str.w	r10, [sp, #48]
	mov	r10, r12
	mov	r12, r8
	add	r4, r6
	str	r5, [sp, #52]
	strd	r4, r0, [r3, #-24]
	beq	.LBB170_76
	ldr	r0, [sp, #80]
	lsrs	r3, r7, #3
	add.w	r3, r3, r3, lsl #1
	add.w	r0, r0, r3, lsl #3
	ldr	r3, [r0, #-8]
	and	r3, r3, #1
	orr.w	r3, r3, r12
	strd	r3, r10, [r0, #-8]
.LBB170_76:
	ldr	r0, [sp, #80]
	lsls	r3, r2, #3
	add	r0, r3
	ldr	r4, [r0, #-8]
	ldr	r6, [sp, #52]
	ldr	r2, [sp, #48]
	bic	r5, r6, #7
	and	r4, r4, #1
	and	r2, r2, #15
	orrs	r4, r5
	strd	r4, r2, [r0, #-8]
	ldr	r0, [sp, #80]
	orrs	r2, r5
	add	r0, r3
	ldr	r4, [r0, #-8]
	ldr.w	r8, [sp, #44]
	orr	r2, r4, #1
	str	r2, [r0, #-8]
	beq.w	.LBB170_84
	ldr	r0, [sp, #80]
	lsrs	r2, r6, #3
	add.w	r2, r2, r2, lsl #1
	add.w	r2, r0, r2, lsl #3
	ldrd	r4, r0, [r2, #-24]
	bic	r5, r4, #7
	and	r0, r0, #15
	eor.w	r0, r0, r10
	eor.w	r5, r5, r12
	orrs	r0, r5
	ldr	r5, [sp, #60]
	iteee	ne
	strdne	r1, r5, [r2, #-16]
	andeq	r0, r4, #1
	orreq	r0, r1
	strdeq	r0, r5, [r2, #-24]
	b	.LBB170_85
	.p2align	2
.LBB170_78:
	ldrd	r2, r0, [r3, #-16]
	and	r6, r0, #15
	bic	r7, r2, #7
	orrs.w	r0, r7, r6
	beq.w	.LBB170_67
	lsrs	r0, r2, #3
	add.w	r5, r0, r0, lsl #1
	add.w	r2, r4, r5, lsl #3
	ldr	r0, [r2, #-8]
	str	r6, [sp, #60]
	lsls	r0, r0, #31
	bne.w	.LBB170_96
	ldrd	r6, r0, [r2, #-24]
	str	r7, [sp, #56]
	and	r0, r0, #15
	bic	r7, r6, #7
	orrs.w	r2, r7, r0
	ldrd	r4, r2, [r3, #-8]
	strd	r7, r0, [r3, #-16]
	beq	.LBB170_82
	ldr	r0, [sp, #80]
	lsrs	r3, r6, #3
	add.w	r3, r3, r3, lsl #1
	add.w	r0, r0, r3, lsl #3
	ldr	r3, [r0, #-8]
	and	r3, r3, #1
	orr.w	r3, r3, r12
	strd	r3, r10, [r0, #-8]
.LBB170_82:
	ldr	r0, [sp, #80]
	lsls	r3, r5, #3
	add	r0, r3
	ldr	r5, [r0, #-8]
	bic	r6, r4, #7
	and	r5, r5, #1
	and	r2, r2, #15
	orrs	r5, r6
	strd	r5, r2, [r0, #-8]
	ldr	r0, [sp, #80]
	orrs	r2, r6
	add	r0, r3
	ldr	r5, [r0, #-8]
	ldrd	r7, r6, [sp, #56]
	orr	r2, r5, #1
	str	r2, [r0, #-8]
	beq.w	.LBB170_93
	ldr	r0, [sp, #80]
	lsrs	r2, r4, #3
	add.w	r2, r2, r2, lsl #1
	add.w	r2, r0, r2, lsl #3
	ldrd	r4, r0, [r2, #-24]
	bic	r5, r4, #7
	and	r0, r0, #15
	eor.w	r0, r0, r10
	eor.w	r5, r5, r12
	orrs	r0, r5
	iteee	ne
	strdne	r7, r6, [r2, #-16]
	andeq	r0, r4, #1
	orreq	r0, r7
	strdeq	r0, r6, [r2, #-24]
	b	.LBB170_94
	.p2align	2
.LBB170_84:
	ldr	r5, [sp, #60]
	mov	r8, r1
	mov	r11, r5
.LBB170_85:
	ldr	r0, [sp, #80]
	add	r0, r3
	strd	r12, r10, [r0, #-16]
	ldrd	r3, r0, [sp, #76]
	add	r0, r3
	ldr	r2, [r0, #-8]
	and	r2, r2, #1
	orrs	r2, r1
	strd	r2, r5, [r0, #-8]
	ldr	r0, [sp, #80]
	add	r0, r3
	ldr	r2, [r0, #-8]
	bic	r2, r2, #1
	str	r2, [r0, #-8]
	ldr	r4, [sp, #80]
	adds	r0, r4, r3
	ldrd	r0, r2, [r0, #-24]
	and	r2, r2, #15
	bic	r1, r0, #7
	orrs.w	r0, r1, r2
	beq.w	.LBB170_67
	str	r2, [sp, #60]
.LBB170_87:
	lsrs	r0, r1, #3
	add.w	r0, r0, r0, lsl #1
	add.w	r6, r4, r0, lsl #3
	ldrd	r3, r2, [r6, #-24]
	str	r1, [sp, #52]
	and	r2, r2, #15
	bic	r5, r3, #7
	orrs.w	r1, r5, r2
	str	r1, [sp, #48]
	lsl.w	r1, r0, #3
	beq	.LBB170_89
	lsrs	r0, r3, #3
	add.w	r2, r0, r0, lsl #1
	add.w	r7, r4, r2, lsl #3
	ldr	r5, [r7, #-8]
	lsls	r0, r5, #31
	beq.w	.LBB170_111
.LBB170_89:
	ldrd	r2, r0, [r6, #-16]
	and	r5, r0, #15
	bic	r0, r2, #7
	str	r0, [sp, #44]
	orrs	r0, r5
	beq	.LBB170_91
	lsrs	r0, r2, #3
	add.w	r2, r0, r0, lsl #1
	add.w	r7, r4, r2, lsl #3
	ldr	r0, [r7, #-8]
	lsls	r0, r0, #31
	beq.w	.LBB170_112
.LBB170_91:
	ldr	r0, [r6, #-8]
	bic	r0, r0, #1
	str	r0, [r6, #-8]
	ldrd	r0, r4, [sp, #76]
	adds	r5, r4, r0
	ldrd	r2, r3, [r5, #-8]
	lsls	r0, r2, #31
	beq.w	.LBB170_103
	ldr	r1, [sp, #56]
	b	.LBB170_101
	.p2align	2
.LBB170_93:
	mov	r8, r7
	mov	r11, r6
.LBB170_94:
	ldr	r0, [sp, #80]
	add	r0, r3
	ldr	r2, [r0, #-24]
	and	r2, r2, #1
	orr.w	r2, r2, r12
	strd	r2, r10, [r0, #-24]
	ldrd	r3, r0, [sp, #76]
	add	r0, r3
	ldr	r2, [r0, #-8]
	and	r2, r2, #1
	orrs	r2, r7
	strd	r2, r6, [r0, #-8]
	ldr	r0, [sp, #80]
	add	r0, r3
	ldr	r2, [r0, #-8]
	bic	r2, r2, #1
	str	r2, [r0, #-8]
	ldr	r4, [sp, #80]
	adds	r0, r4, r3
	ldrd	r0, r2, [r0, #-16]
	and	r2, r2, #15
	bic	r7, r0, #7
	orrs.w	r0, r7, r2
	beq.w	.LBB170_67
	str	r2, [sp, #60]
.LBB170_96:
	lsrs	r0, r7, #3
	add.w	r0, r0, r0, lsl #1
	add.w	r6, r4, r0, lsl #3
	ldrd	r3, r2, [r6, #-24]
	lsls	r0, r0, #3
	and	r5, r2, #15
	bic	r2, r3, #7
	str	r2, [sp, #48]
	orrs	r2, r5
	str	r7, [sp, #56]
	str	r0, [sp, #52]
	beq	.LBB170_98
	lsrs	r0, r3, #3
	add.w	r2, r0, r0, lsl #1
	add.w	r7, r4, r2, lsl #3
	ldr	r0, [r7, #-8]
	lsls	r0, r0, #31
	beq	.LBB170_104
.LBB170_98:
	ldrd	r2, r0, [r6, #-16]
	and	r0, r0, #15
	bic	r3, r2, #7
	orrs	r0, r3
	beq	.LBB170_100
	lsrs	r0, r2, #3
	add.w	r2, r0, r0, lsl #1
	add.w	r3, r4, r2, lsl #3
	ldr	r5, [r3, #-8]
	lsls	r0, r5, #31
	beq.w	.LBB170_119
.LBB170_100:
	ldr	r0, [r6, #-8]
	bic	r0, r0, #1
	str	r0, [r6, #-8]
	ldrd	r0, r4, [sp, #76]
	adds	r5, r4, r0
	ldrd	r2, r3, [r5, #-8]
	lsls	r0, r2, #31
	beq	.LBB170_103
.LBB170_101:
	bic	r6, r2, #7
	and	r3, r3, #15
	orrs.w	r0, r6, r3
	beq.w	.LBB170_67
	lsrs	r0, r2, #3
	add.w	r0, r0, r0, lsl #1
	add.w	r0, r4, r0, lsl #3
	ldrd	r0, r2, [r0, #-24]
	bic	r0, r0, #7
	and	r2, r2, #15
	eor.w	r2, r2, r10
	eor.w	r0, r0, r12
	orrs.w	r5, r0, r2
	it	ne
	movne	r5, #1
	subs	r1, #1
	mov	r12, r6
	mov	r10, r3
	bne.w	.LBB170_71
	b	.LBB170_67
	.p2align	2
.LBB170_103:
	orr	r0, r2, #1
	strd	r0, r3, [r5, #-8]
	b	.LBB170_67
	.p2align	2
.LBB170_104:
	ldrd	r1, r0, [r6, #-16]
	str	r5, [sp, #44]
	and	r0, r0, #15
	bic	r5, r1, #7
	orrs	r0, r5
	beq	.LBB170_106
	lsrs	r0, r1, #3
	add.w	r0, r0, r0, lsl #1
	add.w	r1, r4, r0, lsl #3
	ldr	r5, [r1, #-8]
	str	r0, [sp, #40]
	lsls	r0, r5, #31
	beq.w	.LBB170_120
.LBB170_106:
	ldrd	r1, r0, [r7, #-16]
	lsls	r5, r2, #3
	and	r0, r0, #15
	str	r1, [sp, #40]
	bic	r2, r1, #7
	ldrd	r7, r1, [r6, #-8]
	orrs.w	r4, r2, r0
	and	r3, r3, #1
	and	r1, r1, #15
	bic	r4, r7, #7
	add	r2, r3
	str	r7, [sp, #36]
	strd	r2, r0, [r6, #-24]
	beq	.LBB170_108
	ldr	r2, [sp, #40]
	ldr	r0, [sp, #80]
	lsrs	r2, r2, #3
	add.w	r2, r2, r2, lsl #1
	add.w	r0, r0, r2, lsl #3
	ldr	r2, [r0, #-8]
	ldr	r3, [sp, #56]
	and	r2, r2, #1
	orrs	r2, r3
	ldr	r3, [sp, #60]
	strd	r2, r3, [r0, #-8]
.LBB170_108:
	ldr	r0, [sp, #80]
	str	r5, [sp, #40]
	add	r0, r5
	ldr	r2, [r0, #-8]
	ldr	r7, [sp, #44]
	and	r2, r2, #1
	orrs	r2, r4
	strd	r2, r1, [r0, #-8]
	ldr	r0, [sp, #80]
	orrs	r1, r4
	add	r0, r5
	ldr	r2, [r0, #-8]
	ldr	r5, [sp, #48]
	orr	r1, r2, #1
	ldrd	r6, r4, [sp, #56]
	str	r1, [r0, #-8]
	mov	r0, r5
	mov	r1, r7
	beq.w	.LBB170_124
	ldr	r1, [sp, #36]
	ldr	r0, [sp, #80]
	lsrs	r1, r1, #3
	add.w	r1, r1, r1, lsl #1
	add.w	r1, r0, r1, lsl #3
	ldrd	r2, r0, [r1, #-24]
	bic	r3, r2, #7
	and	r0, r0, #15
	eors	r0, r4
	eors	r3, r6
	orrs	r0, r3
	bne.w	.LBB170_122
	ldr	r5, [sp, #48]
	and	r0, r2, #1
	ldr	r7, [sp, #44]
	orrs	r0, r5
	strd	r0, r7, [r1, #-24]
	b	.LBB170_123
	.p2align	2
.LBB170_111:
	ldr	r6, [r7, #-4]
	str	r1, [sp, #56]
	lsls	r1, r2, #3
	b	.LBB170_138
	.p2align	2
.LBB170_112:
	ldr	r0, [sp, #48]
	str	r5, [sp, #40]
	clz	r0, r0
	lsrs	r0, r0, #5
	str	r1, [sp, #56]
	bne	.LBB170_114
	lsrs	r0, r3, #3
	add.w	r1, r0, r0, lsl #1
	add.w	r3, r4, r1, lsl #3
	ldr	r5, [r3, #-8]
	lsls	r0, r5, #31
	beq	.LBB170_121
.LBB170_114:
	ldrd	r3, r0, [r7, #-24]
	ldrd	r5, r1, [r6, #-8]
	and	r0, r0, #15
	bic	r4, r3, #7
	lsls	r7, r2, #3
	orrs.w	r2, r4, r0
	strd	r4, r0, [r6, #-16]
	ldr	r4, [sp, #60]
	ldr	r6, [sp, #52]
	and	r1, r1, #15
	bic	r2, r5, #7
	beq	.LBB170_116
	ldr	r0, [sp, #80]
	lsrs	r3, r3, #3
	add.w	r3, r3, r3, lsl #1
	add.w	r0, r0, r3, lsl #3
	ldr	r3, [r0, #-8]
	and	r3, r3, #1
	orrs	r3, r6
	strd	r3, r4, [r0, #-8]
.LBB170_116:
	ldr	r0, [sp, #80]
	str	r7, [sp, #48]
	add	r0, r7
	ldr	r3, [r0, #-8]
	and	r3, r3, #1
	orrs	r3, r2
	strd	r3, r1, [r0, #-8]
	ldr	r0, [sp, #80]
	orrs	r1, r2
	add	r0, r7
	ldr	r3, [r0, #-8]
	ldr	r7, [sp, #44]
	orr	r1, r3, #1
	ldr	r3, [sp, #40]
	str	r1, [r0, #-8]
	mov	r0, r7
	mov	r1, r3
	beq.w	.LBB170_136
	ldr	r0, [sp, #80]
	lsrs	r1, r5, #3
	add.w	r1, r1, r1, lsl #1
	add.w	r1, r0, r1, lsl #3
	ldrd	r2, r0, [r1, #-24]
	bic	r3, r2, #7
	and	r0, r0, #15
	eors	r0, r4
	eors	r3, r6
	orrs	r0, r3
	bne.w	.LBB170_134
	and	r0, r2, #1
	ldr	r3, [sp, #40]
	orrs	r0, r7
	strd	r0, r3, [r1, #-24]
	b	.LBB170_135
	.p2align	2
.LBB170_119:
	ldr	r7, [r3, #-4]
	lsls	r1, r2, #3
	b	.LBB170_126
	.p2align	2
.LBB170_120:
	ldr	r0, [sp, #40]
	ldr	r7, [r1, #-4]
	lsls	r1, r0, #3
	b	.LBB170_126
	.p2align	2
.LBB170_121:
	ldr	r6, [r3, #-4]
	lsls	r1, r1, #3
	b	.LBB170_138
	.p2align	2
.LBB170_122:
	ldrd	r7, r5, [sp, #44]
	strd	r5, r7, [r1, #-16]
.LBB170_123:
	mov	r0, r8
	mov	r1, r11
.LBB170_124:
	mov	r8, r0
	ldr	r0, [sp, #80]
	ldr	r3, [sp, #40]
	ldr	r2, [sp, #52]
	add	r0, r3
	strd	r6, r4, [r0, #-16]
	ldr	r0, [sp, #80]
	mov	r11, r1
	add	r0, r2
	ldr	r1, [r0, #-8]
	and	r1, r1, #1
	orrs	r1, r5
	strd	r1, r7, [r0, #-8]
	ldr	r0, [sp, #80]
	add	r0, r2
	ldr	r1, [r0, #-8]
	bic	r1, r1, #1
	str	r1, [r0, #-8]
	ldr	r4, [sp, #80]
	adds	r0, r4, r3
	ldrd	r1, r0, [r0, #-16]
	and	r0, r0, #15
	bic	r2, r1, #7
	orrs	r0, r2
	beq.w	.LBB170_67
	lsrs	r0, r1, #3
	add.w	r0, r0, r0, lsl #1
	lsls	r1, r0, #3
	add.w	r0, r4, r0, lsl #3
	mov	r6, r5
	mov	r2, r7
	ldrd	r5, r7, [r0, #-8]
	str	r2, [sp, #60]
	strd	r3, r6, [sp, #52]
.LBB170_126:
	ldr	r6, [sp, #76]
	adds	r0, r4, r6
	ldr	r3, [r0, #-8]
	adds	r0, r4, r1
	orr	r1, r5, #1
	strd	r1, r7, [r0, #-8]
	ldr	r0, [sp, #80]
	ldr	r1, [sp, #52]
	add	r1, r0
	ldrd	r2, r1, [r1, #-24]
	add	r0, r6
	and	r5, r1, #15
	bic	r7, r2, #7
	ldrd	r6, r1, [r0, #-8]
	orrs.w	r4, r7, r5
	and	r1, r1, #15
	bic	r4, r6, #7
	strd	r7, r5, [r0, #-16]
	beq	.LBB170_128
	ldr	r0, [sp, #80]
	lsrs	r2, r2, #3
	add.w	r2, r2, r2, lsl #1
	add.w	r0, r0, r2, lsl #3
	ldr	r2, [r0, #-8]
	and	r2, r2, #1
	orr.w	r2, r2, r12
	strd	r2, r10, [r0, #-8]
.LBB170_128:
	ldr	r0, [sp, #80]
	ldr	r5, [sp, #52]
	add	r0, r5
	ldr	r2, [r0, #-8]
	and	r2, r2, #1
	orrs	r2, r4
	strd	r2, r1, [r0, #-8]
	ldr	r0, [sp, #80]
	orrs	r1, r4
	add	r0, r5
	ldr	r2, [r0, #-8]
	ldr	r5, [sp, #56]
	ldr	r4, [sp, #60]
	bfi	r2, r3, #0, #1
	mov	r1, r5
	mov	r3, r4
	str	r2, [r0, #-8]
	beq	.LBB170_133
	ldr	r0, [sp, #80]
	lsrs	r1, r6, #3
	add.w	r1, r1, r1, lsl #1
	add.w	r1, r0, r1, lsl #3
	ldrd	r2, r0, [r1, #-24]
	bic	r3, r2, #7
	and	r0, r0, #15
	eor.w	r0, r0, r10
	eor.w	r3, r3, r12
	orrs	r0, r3
	bne	.LBB170_131
	and	r0, r2, #1
	adds	r0, r0, r5
	adc	r2, r4, #0
	strd	r0, r2, [r1, #-24]
	b	.LBB170_132
	.p2align	2
.LBB170_131:
	strd	r5, r4, [r1, #-16]
.LBB170_132:
	mov	r1, r8
	mov	r3, r11
.LBB170_133:
	ldr	r0, [sp, #80]
	ldr	r2, [sp, #52]
	mov	r8, r1
	add	r0, r2
	ldr	r2, [r0, #-24]
	mov	r11, r3
	and	r2, r2, #1
	orr.w	r2, r2, r12
	strd	r2, r10, [r0, #-24]
	ldrd	r6, r0, [sp, #76]
	add	r0, r6
	ldr	r2, [r0, #-8]
	and	r2, r2, #1
	adds	r2, r2, r5
	adc	r7, r4, #0
	strd	r2, r7, [r0, #-8]
	ldr	r0, [sp, #80]
	add	r0, r6
	ldr	r2, [r0, #-8]
	orr	r2, r2, #1
	str	r2, [r0, #-8]
	b	.LBB170_67
	.p2align	2
.LBB170_134:
	ldr	r3, [sp, #40]
	strd	r7, r3, [r1, #-16]
.LBB170_135:
	mov	r0, r8
	mov	r1, r11
.LBB170_136:
	mov	r8, r0
	ldr	r0, [sp, #80]
	mov	r5, r7
	ldr	r7, [sp, #48]
	mov	r11, r1
	add	r0, r7
	ldr	r1, [r0, #-24]
	ldr	r2, [sp, #56]
	and	r1, r1, #1
	orrs	r1, r6
	strd	r1, r4, [r0, #-24]
	ldr	r0, [sp, #80]
	add	r0, r2
	ldr	r1, [r0, #-8]
	and	r1, r1, #1
	orrs	r1, r5
	strd	r1, r3, [r0, #-8]
	ldr	r0, [sp, #80]
	add	r0, r2
	ldr	r1, [r0, #-8]
	bic	r1, r1, #1
	str	r1, [r0, #-8]
	ldr	r4, [sp, #80]
	adds	r0, r4, r7
	ldrd	r1, r0, [r0, #-24]
	and	r0, r0, #15
	bic	r2, r1, #7
	orrs	r0, r2
	beq.w	.LBB170_67
	lsrs	r0, r1, #3
	add.w	r0, r0, r0, lsl #1
	lsls	r1, r0, #3
	add.w	r0, r4, r0, lsl #3
	mov	r2, r5
	ldrd	r5, r6, [r0, #-8]
	str	r3, [sp, #60]
	strd	r2, r7, [sp, #52]
.LBB170_138:
	ldr	r2, [sp, #76]
	adds	r0, r4, r2
	ldr	r0, [r0, #-8]
	str	r0, [sp, #48]
	adds	r0, r4, r1
	orr	r1, r5, #1
	strd	r1, r6, [r0, #-8]
	ldr	r0, [sp, #80]
	ldr	r1, [sp, #56]
	add	r1, r0
	ldrd	r4, r1, [r1, #-16]
	add	r0, r2
	and	r5, r1, #15
	bic	r7, r4, #7
	orrs.w	r1, r7, r5
	ldr	r3, [r0, #-24]
	ldrd	r6, r1, [r0, #-8]
	and	r3, r3, #1
	and	r1, r1, #15
	bic	r2, r6, #7
	add	r3, r7
	strd	r3, r5, [r0, #-24]
	beq	.LBB170_140
	ldr	r0, [sp, #80]
	lsrs	r3, r4, #3
	add.w	r3, r3, r3, lsl #1
	add.w	r0, r0, r3, lsl #3
	ldr	r3, [r0, #-8]
	and	r3, r3, #1
	orr.w	r3, r3, r12
	strd	r3, r10, [r0, #-8]
.LBB170_140:
	ldr	r0, [sp, #80]
	ldr	r4, [sp, #56]
	ldr	r5, [sp, #52]
	add	r0, r4
	ldr	r3, [r0, #-8]
	and	r3, r3, #1
	orrs	r3, r2
	strd	r3, r1, [r0, #-8]
	ldr	r0, [sp, #80]
	orrs	r1, r2
	add	r0, r4
	ldr	r3, [r0, #-8]
	ldr	r1, [sp, #48]
	ldr	r4, [sp, #60]
	bfi	r3, r1, #0, #1
	mov	r1, r5
	mov	r2, r4
	str	r3, [r0, #-8]
	beq	.LBB170_145
	ldr	r0, [sp, #80]
	lsrs	r1, r6, #3
	add.w	r1, r1, r1, lsl #1
	add.w	r1, r0, r1, lsl #3
	ldrd	r2, r0, [r1, #-24]
	bic	r3, r2, #7
	and	r0, r0, #15
	eor.w	r0, r0, r10
	eor.w	r3, r3, r12
	orrs	r0, r3
	bne	.LBB170_143
	and	r0, r2, #1
	adds	r0, r0, r5
	adc	r2, r4, #0
	strd	r0, r2, [r1, #-24]
	b	.LBB170_144
	.p2align	2
.LBB170_143:
	strd	r5, r4, [r1, #-16]
.LBB170_144:
	mov	r1, r8
	mov	r2, r11
.LBB170_145:
	ldr	r0, [sp, #80]
	ldr	r3, [sp, #56]
	mov	r8, r1
	add	r0, r3
	strd	r12, r10, [r0, #-16]
	ldrd	r6, r0, [sp, #76]
	mov	r11, r2
	add	r0, r6
	ldr	r3, [r0, #-8]
	and	r3, r3, #1
	adds	r3, r3, r5
	adc	r7, r4, #0
	strd	r3, r7, [r0, #-8]
	ldr	r0, [sp, #80]
	add	r0, r6
	ldr	r3, [r0, #-8]
	orr	r3, r3, #1
	str	r3, [r0, #-8]
	b.w	.LBB170_67
.Lfunc_end170:
	.size	ic_tree_append, .Lfunc_end170-ic_tree_append
	.cfi_endproc
	.section	.text.ic_tree_check,"ax",%progbits
	.globl	ic_tree_check
	.p2align	2
	.type	ic_tree_check,%function
	.code	16
	.thumb_func
ic_tree_check:
	.cfi_startproc
	push	{r7, lr}
	.cfi_def_cfa_offset 8
	.cfi_offset lr, -4
	.cfi_offset r7, -8
	sub	sp, #72
	.cfi_def_cfa_offset 80
	ldr	r1, [sp, #80]
	cmp	r0, #0
	it	eq
	addeq.w	r0, r0, #4096
	ldrd	r12, r1, [r1]
	str	r0, [sp, #32]
	mov.w	lr, #0
	and	r0, r1, #15
	bic	r1, r12, #7
	strd	lr, r2, [sp, #36]
	orrs.w	r2, r1, r0
	str	r3, [sp, #44]
	it	ne
	movne	r2, #1
	movs	r3, #66
	strd	r1, r0, [sp]
	add	r0, sp, #48
	add	r1, sp, #32
	strd	lr, lr, [sp, #16]
	str	r3, [sp, #24]
	str.w	lr, [sp, #8]
	bl	ic_check.tree.check_below.ffc36cde30076884
	ldrb.w	r0, [sp, #48]
	cmp	r0, #1
	bne	.LBB171_3
	ldrb.w	r0, [sp, #68]
	cmp	r0, #1
	bne	.LBB171_3
	ldr	r0, [sp, #84]
	ldrd	r1, r2, [sp, #56]
	strd	r1, r2, [r0]
	movs	r0, #0
	add	sp, #72
	pop	{r7, pc}
	.p2align	2
.LBB171_3:
	movs	r0, #5
	add	sp, #72
	pop	{r7, pc}
.Lfunc_end171:
	.size	ic_tree_check, .Lfunc_end171-ic_tree_check
	.cfi_endproc
	.section	.text.ic_tree_clear,"ax",%progbits
	.globl	ic_tree_clear
	.p2align	2
	.type	ic_tree_clear,%function
	.code	16
	.thumb_func
ic_tree_clear:
	.cfi_startproc
	push.w	{r4, r5, r6, r7, r8, r9, r10, r11, lr}
	.cfi_def_cfa_offset 36
	.cfi_offset lr, -4
	.cfi_offset r11, -8
	.cfi_offset r10, -12
	.cfi_offset r9, -16
	.cfi_offset r8, -20
	.cfi_offset r7, -24
	.cfi_offset r6, -28
	.cfi_offset r5, -32
	.cfi_offset r4, -36
	sub	sp, #32
	.cfi_def_cfa_offset 68
	ldr	r1, [sp, #68]
	cmp	r0, #0
	ldrd	r1, r7, [r1]
	it	eq
	addeq.w	r0, r0, #4096
	and	r9, r7, #15
	bic	r5, r1, #7
	orrs.w	r11, r5, r9
	mov	r7, r2
	strd	r2, r3, [sp, #24]
	beq	.LBB172_10
	lsrs	r1, r5, #3
	orr.w	r1, r1, r9, lsl #29
	subs	r2, r7, r1
	sbcs.w	r2, r3, r9, lsr #3
	blo.w	.LBB172_42
	add.w	r1, r1, r1, lsl #1
	add.w	r1, r0, r1, lsl #3
	ldrb	r1, [r1, #-24]
	lsls	r1, r1, #31
	beq.w	.LBB172_42
	lsls	r1, r3, #3
	orr.w	r8, r1, r7, lsr #29
	lsls	r1, r7, #3
	mov.w	lr, #64
	mov	r10, r5
	mov	r7, r9
	str.w	r9, [sp, #16]
	.p2align	2
.LBB172_4:
	lsrs	r2, r5, #3
	add.w	r2, r2, r2, lsl #1
	add.w	r2, r0, r2, lsl #3
	ldrd	r3, r2, [r2, #-24]
	bic	r12, r3, #7
	and	r4, r2, #15
	subs.w	r2, r12, #1
	sbc	r6, r4, #0
	subs	r2, r2, r1
	sbcs.w	r2, r6, r8
	bhs.w	.LBB172_45
	lsrs	r3, r3, #3
	add.w	r3, r3, r3, lsl #1
	add.w	r3, r0, r3, lsl #3
	ldrd	r7, r3, [r3, #-24]
	bic	r5, r7, #7
	and	r3, r3, #15
	subs	r6, r5, #1
	sbc	r2, r3, #0
	subs	r6, r6, r1
	sbcs.w	r2, r2, r8
	bhs.w	.LBB172_43
	lsrs	r2, r7, #3
	add.w	r2, r2, r2, lsl #1
	add.w	r2, r0, r2, lsl #3
	ldrd	r7, r2, [r2, #-24]
	bic	r12, r7, #7
	and	r4, r2, #15
	subs.w	r2, r12, #1
	sbc	r6, r4, #0
	subs	r2, r2, r1
	sbcs.w	r2, r6, r8
	bhs.w	.LBB172_46
	cmp.w	lr, #0
	beq.w	.LBB172_43
	lsrs	r2, r7, #3
	add.w	r2, r2, r2, lsl #1
	add.w	r2, r0, r2, lsl #3
	ldrd	r2, r3, [r2, #-24]
	bic	r5, r2, #7
	and	r7, r3, #15
	subs	r2, r5, #1
	sbc	r3, r7, #0
	subs	r2, r2, r1
	sbcs.w	r2, r3, r8
	bhs.w	.LBB172_43
	sub.w	lr, lr, #4
	b	.LBB172_4
	.p2align	2
.LBB172_10:
	str.w	r9, [sp, #16]
	mov.w	r9, #0
	mov.w	r12, #0
	movs	r4, #0
	clz	r1, r11
	orrs.w	lr, r7, r3
	lsr.w	r11, r1, #5
	beq.w	.LBB172_48
.LBB172_11:
	ldr	r2, [sp, #16]
	lsrs	r1, r5, #3
	orr.w	r6, r1, r2, lsl #29
	subs	r1, r7, r6
	sbcs.w	r1, r3, r2, lsr #3
	mov.w	r1, #0
	it	hs
	movhs	r1, #1
	orr.w	r1, r1, r11
	cmp	r1, #1
	lsr.w	r8, r2, #3
	bne.w	.LBB172_36
	lsls	r1, r3, #3
	strd	r8, r6, [sp]
	strd	lr, r5, [sp, #8]
	orr.w	r10, r1, r7, lsr #29
	lsl.w	lr, r7, #3
	mov	r5, r7
	mov	r8, r3
	b	.LBB172_16
	.p2align	2
.LBB172_13:
	mov.w	r9, #1
.LBB172_14:
	ldrd	r7, r3, [sp, #24]
.LBB172_15:
	ldr	r5, [sp, #20]
	subs	r5, #1
	sbc	r8, r8, #0
	orrs.w	r1, r5, r8
	beq.w	.LBB172_40
.LBB172_16:
	uxtb.w	r1, r9
	cmp	r1, #1
	bne.w	.LBB172_44
	lsr.w	r1, r12, #3
	orr.w	r1, r1, r4, lsl #29
	subs	r2, r7, r1
	sbcs.w	r2, r3, r4, lsr #3
	blo.w	.LBB172_42
	add.w	r1, r1, r1, lsl #1
	add.w	r1, r0, r1, lsl #3
	ldrb	r2, [r1, #-24]
	lsls	r2, r2, #31
	beq.w	.LBB172_42
	str	r5, [sp, #20]
	ldrd	r2, r5, [r1, #-16]
	bic	r2, r2, #7
	and	r9, r5, #15
	subs	r5, r2, #1
	sbc	r6, r9, #0
	subs.w	r5, r5, lr
	sbcs.w	r5, r6, r10
	bhs	.LBB172_27
	movs	r1, #64
	mov	r12, r2
	mov	r4, r9
	.p2align	2
.LBB172_21:
	lsr.w	r2, r12, #3
	add.w	r2, r2, r2, lsl #1
	add.w	r2, r0, r2, lsl #3
	ldrd	r2, r3, [r2, #-24]
	bic	r5, r2, #7
	and	r3, r3, #15
	subs	r7, r5, #1
	sbc	r6, r3, #0
	subs.w	r7, r7, lr
	sbcs.w	r6, r6, r10
	bhs	.LBB172_13
	lsrs	r2, r2, #3
	add.w	r2, r2, r2, lsl #1
	add.w	r2, r0, r2, lsl #3
	ldrd	r2, r7, [r2, #-24]
	bic	r12, r2, #7
	and	r4, r7, #15
	subs.w	r6, r12, #1
	sbc	r7, r4, #0
	subs.w	r6, r6, lr
	sbcs.w	r6, r7, r10
	bhs	.LBB172_35
	lsrs	r2, r2, #3
	add.w	r2, r2, r2, lsl #1
	add.w	r2, r0, r2, lsl #3
	ldrd	r2, r3, [r2, #-24]
	and	r5, r3, #15
	bic	r3, r2, #7
	subs	r6, r3, #1
	sbc	r7, r5, #0
	subs.w	r6, r6, lr
	sbcs.w	r6, r7, r10
	bhs	.LBB172_13
	cmp	r1, #0
	beq	.LBB172_34
	lsrs	r2, r2, #3
	add.w	r2, r2, r2, lsl #1
	add.w	r2, r0, r2, lsl #3
	ldrd	r2, r7, [r2, #-24]
	bic	r12, r2, #7
	and	r4, r7, #15
	subs.w	r2, r12, #1
	sbc	r6, r4, #0
	subs.w	r2, r2, lr
	sbcs.w	r2, r6, r10
	bhs	.LBB172_34
	subs	r1, #4
	b	.LBB172_21
	.p2align	2
.LBB172_27:
	ldrd	r2, r1, [r1, #-8]
	bic	r5, r2, #7
	and	r1, r1, #15
	subs	r2, r5, #1
	sbc	r6, r1, #0
	subs.w	r2, r2, lr
	sbcs.w	r2, r6, r10
	bhs	.LBB172_33
	mov	r6, r11
	mvn	r11, #66
	.p2align	2
.LBB172_29:
	lsrs	r3, r5, #3
	add.w	r3, r3, r3, lsl #1
	add.w	r3, r0, r3, lsl #3
	mov	r2, r12
	mov	r12, r5
	ldrd	r5, r7, [r3, #-16]
	bic	r5, r5, #7
	and	r7, r7, #15
	eors	r4, r7
	eors	r2, r5
	orrs	r2, r4
	clz	r4, r11
	lsr.w	r4, r4, #5
	it	ne
	movne	r2, #1
	orrs.w	r9, r2, r4
	mov	r4, r1
	bne	.LBB172_32
	ldrd	r2, r1, [r3, #-8]
	add.w	r11, r11, #1
	bic	r5, r2, #7
	and	r1, r1, #15
	subs	r2, r5, #1
	sbc	r3, r1, #0
	subs.w	r2, r2, lr
	sbcs.w	r2, r3, r10
	blo	.LBB172_29
	mov.w	r12, #0
	movs	r4, #0
.LBB172_32:
	ldrd	r7, r3, [sp, #24]
	mov	r11, r6
	b	.LBB172_15
	.p2align	2
.LBB172_33:
	mov.w	r9, #0
	mov.w	r12, #0
	movs	r4, #0
	b	.LBB172_15
	.p2align	2
.LBB172_34:
	mov.w	r9, #1
	mov	r12, r3
	mov	r4, r5
	b	.LBB172_14
	.p2align	2
.LBB172_35:
	mov.w	r9, #1
	mov	r12, r5
	mov	r4, r3
	b	.LBB172_14
	.p2align	2
.LBB172_36:
	lsr.w	r1, r12, #3
	orr.w	r1, r1, r4, lsl #29
	subs	r2, r7, r1
	sbcs.w	r2, r3, r4, lsr #3
	blo	.LBB172_42
	add.w	r1, r1, r1, lsl #1
	add.w	r1, r0, r1, lsl #3
	ldrb	r1, [r1, #-24]
	lsls	r1, r1, #31
	beq	.LBB172_42
	eor	r1, r7, #1
	ldr	r4, [sp, #16]
	orrs	r1, r3
	str.w	lr, [sp, #8]
	bne	.LBB172_50
	mov.w	r9, #0
	str	r5, [sp, #12]
.LBB172_40:
	orrs.w	r1, r11, r9
	beq	.LBB172_49
.LBB172_41:
	cmp.w	r9, #0
	beq.w	.LBB172_82
.LBB172_42:
	movs	r0, #5
	add	sp, #32
	pop.w	{r4, r5, r6, r7, r8, r9, r10, r11, pc}
	.p2align	2
.LBB172_43:
	mov.w	r9, #1
	b	.LBB172_47
	.p2align	2
.LBB172_44:
	ldrd	r5, r4, [sp, #12]
	ldrd	r8, r6, [sp]
	cmp.w	r11, #0
	beq	.LBB172_50
	b	.LBB172_82
	.p2align	2
.LBB172_45:
	mov.w	r9, #1
	mov	r12, r5
	mov	r4, r7
	b	.LBB172_47
	.p2align	2
.LBB172_46:
	mov.w	r9, #1
	mov	r12, r5
	mov	r4, r3
.LBB172_47:
	ldrd	r7, r3, [sp, #24]
	mov	r5, r10
	clz	r1, r11
	orrs.w	lr, r7, r3
	lsr.w	r11, r1, #5
	bne.w	.LBB172_11
.LBB172_48:
	strd	lr, r5, [sp, #8]
	orrs.w	r1, r11, r9
	bne	.LBB172_41
.LBB172_49:
	ldr	r5, [sp, #12]
	ldr	r4, [sp, #16]
	lsrs	r1, r5, #3
	orr.w	r6, r1, r4, lsl #29
	lsr.w	r8, r4, #3
.LBB172_50:
	subs	r1, r7, r6
	sbcs.w	r1, r3, r8
	blo.w	.LBB172_82
	ldr	r1, [sp, #8]
	lsl.w	r11, r7, #3
	clz	r1, r1
	lsr.w	r12, r1, #5
	lsls	r1, r3, #3
	orr.w	r10, r1, r7, lsr #29
	mov	r2, r5
	mov.w	lr, #64
	.p2align	2
.LBB172_52:
	lsrs	r1, r2, #3
	add.w	r1, r1, r1, lsl #1
	add.w	r1, r0, r1, lsl #3
	mov	r5, r2
	ldrd	r2, r1, [r1, #-24]
	bic	r7, r2, #7
	and	r1, r1, #15
	subs	r3, r7, #1
	sbc	r6, r1, #0
	subs.w	r3, r3, r11
	sbcs.w	r3, r6, r10
	bhs	.LBB172_60
	lsrs	r2, r2, #3
	add.w	r2, r2, r2, lsl #1
	add.w	r2, r0, r2, lsl #3
	ldrd	r3, r2, [r2, #-24]
	and	r6, r2, #15
	bic	r2, r3, #7
	subs	r4, r2, #1
	sbc	r5, r6, #0
	subs.w	r4, r4, r11
	sbcs.w	r4, r5, r10
	bhs	.LBB172_58
	lsrs	r1, r3, #3
	add.w	r1, r1, r1, lsl #1
	add.w	r1, r0, r1, lsl #3
	ldrd	r1, r3, [r1, #-24]
	and	r4, r3, #15
	bic	r3, r1, #7
	mov	r5, r3
	subs	r3, #1
	sbc	r7, r4, #0
	subs.w	r3, r3, r11
	sbcs.w	r3, r7, r10
	bhs	.LBB172_59
	cmp.w	lr, #0
	beq	.LBB172_60
	lsrs	r1, r1, #3
	add.w	r1, r1, r1, lsl #1
	add.w	r1, r0, r1, lsl #3
	ldrd	r2, r1, [r1, #-24]
	bic	r2, r2, #7
	and	r1, r1, #15
	subs	r3, r2, #1
	sbc	r6, r1, #0
	subs.w	r3, r3, r11
	sbcs.w	r3, r6, r10
	bhs	.LBB172_60
	sub.w	lr, lr, #4
	mov	r4, r1
	b	.LBB172_52
	.p2align	2
.LBB172_58:
	mov	r5, r7
	mov	r4, r1
	b	.LBB172_60
	.p2align	2
.LBB172_59:
	mov	r5, r2
	mov	r4, r6
.LBB172_60:
	ldrd	r7, r8, [sp, #24]
	cmp.w	r12, #0
	bne.w	.LBB172_82
	mov	lr, r5
	mov	r3, r7
	mov	r5, r8
.LBB172_62:
	lsr.w	r1, lr, #3
	orr.w	r1, r1, r4, lsl #29
	subs	r2, r7, r1
	sbcs.w	r2, r8, r4, lsr #3
	blo.w	.LBB172_82
	add.w	r1, r1, r1, lsl #1
	add.w	r12, r0, r1, lsl #3
	ldrd	r2, r1, [r12, #-16]
	strd	r5, r3, [sp, #16]
	bic	r2, r2, #7
	and	r1, r1, #15
	subs	r3, r2, #1
	sbc	r7, r1, #0
	subs.w	r3, r3, r11
	sbcs.w	r3, r7, r10
	bhs	.LBB172_71
	ldrd	r7, r8, [sp, #24]
	str.w	r12, [sp, #12]
	mov.w	r9, #64
	mov	r12, r1
	.p2align	2
.LBB172_65:
	lsrs	r1, r2, #3
	add.w	r1, r1, r1, lsl #1
	add.w	r1, r0, r1, lsl #3
	mov	lr, r2
	ldrd	r2, r1, [r1, #-24]
	bic	r6, r2, #7
	and	r1, r1, #15
	subs	r3, r6, #1
	sbc	r4, r1, #0
	subs.w	r3, r3, r11
	sbcs.w	r3, r4, r10
	bhs.w	.LBB172_80
	lsrs	r2, r2, #3
	add.w	r2, r2, r2, lsl #1
	add.w	r2, r0, r2, lsl #3
	ldrd	r7, r2, [r2, #-24]
	bic	r3, r7, #7
	and	r2, r2, #15
	subs	r4, r3, #1
	sbc	r5, r2, #0
	subs.w	r4, r4, r11
	sbcs.w	r4, r5, r10
	bhs	.LBB172_77
	lsrs	r1, r7, #3
	add.w	r1, r1, r1, lsl #1
	add.w	r1, r0, r1, lsl #3
	ldrd	r1, r4, [r1, #-24]
	and	r5, r4, #15
	bic	r4, r1, #7
	mov	lr, r4
	subs	r4, #1
	mov	r12, r5
	sbc	r5, r5, #0
	subs.w	r4, r4, r11
	sbcs.w	r4, r5, r10
	bhs	.LBB172_78
	ldrd	r7, r8, [sp, #24]
	cmp.w	r9, #0
	beq	.LBB172_80
	lsrs	r1, r1, #3
	add.w	r1, r1, r1, lsl #1
	add.w	r1, r0, r1, lsl #3
	ldrd	r2, r1, [r1, #-24]
	bic	r2, r2, #7
	and	r1, r1, #15
	subs	r3, r2, #1
	sbc	r4, r1, #0
	subs.w	r3, r3, r11
	sbcs.w	r3, r4, r10
	bhs	.LBB172_80
	sub.w	r9, r9, #4
	mov	r12, r1
	b	.LBB172_65
	.p2align	2
.LBB172_71:
	ldrd	r2, r1, [r12, #-8]
	bic	r6, r2, #7
	and	r1, r1, #15
	subs	r2, r6, #1
	sbc	r3, r1, #0
	subs.w	r2, r2, r11
	sbcs.w	r2, r3, r10
	bhs	.LBB172_81
	mvn	r7, #66
	.p2align	2
.LBB172_73:
	lsrs	r2, r6, #3
	add.w	r2, r2, r2, lsl #1
	add.w	r2, r0, r2, lsl #3
	mov	r3, lr
	mov	lr, r6
	ldrd	r6, r5, [r2, #-16]
	bic	r6, r6, #7
	and	r5, r5, #15
	eors	r5, r4
	eors	r3, r6
	orrs	r3, r5
	mov	r4, r1
	bne	.LBB172_76
	cbz	r7, .LBB172_76
	ldrd	r2, r1, [r2, #-8]
	adds	r7, #1
	bic	r6, r2, #7
	and	r1, r1, #15
	subs	r2, r6, #1
	sbc	r3, r1, #0
	subs.w	r2, r2, r11
	sbcs.w	r2, r3, r10
	blo	.LBB172_73
	b	.LBB172_81
	.p2align	2
.LBB172_76:
	str.w	r12, [sp, #12]
	mov	r12, r4
	b	.LBB172_79
	.p2align	2
.LBB172_77:
	mov	lr, r6
	mov	r12, r1
	b	.LBB172_79
	.p2align	2
.LBB172_78:
	mov	lr, r3
	mov	r12, r2
.LBB172_79:
	ldrd	r7, r8, [sp, #24]
.LBB172_80:
	ldr	r4, [sp, #12]
	ldr	r3, [sp, #20]
	ldr	r1, [r4, #-24]
	ldr	r5, [sp, #16]
	subs	r3, #1
	bic	r1, r1, #1
	sbc	r5, r5, #0
	orrs.w	r2, r3, r5
	str	r1, [r4, #-24]
	mov	r4, r12
	bne.w	.LBB172_62
	b	.LBB172_82
	.p2align	2
.LBB172_81:
	ldr	r0, [r12, #-24]
	bic	r0, r0, #1
	str	r0, [r12, #-24]
.LBB172_82:
	ldr	r1, [sp, #68]
	movs	r0, #0
	strd	r0, r0, [r1]
	add	sp, #32
	pop.w	{r4, r5, r6, r7, r8, r9, r10, r11, pc}
.Lfunc_end172:
	.size	ic_tree_clear, .Lfunc_end172-ic_tree_clear
	.cfi_endproc
	.section	.text.ic_tree_ends_insert,"ax",%progbits
	.globl	ic_tree_ends_insert
	.p2align	2
	.type	ic_tree_ends_insert,%function
	.code	16
	.thumb_func
ic_tree_ends_insert:
	.cfi_startproc
	push.w	{r4, r5, r6, r7, r8, r9, r10, r11, lr}
	.cfi_def_cfa_offset 36
	.cfi_offset lr, -4
	.cfi_offset r11, -8
	.cfi_offset r10, -12
	.cfi_offset r9, -16
	.cfi_offset r8, -20
	.cfi_offset r7, -24
	.cfi_offset r6, -28
	.cfi_offset r5, -32
	.cfi_offset r4, -36
	sub	sp, #44
	.cfi_def_cfa_offset 80
	mov	r5, r2
	mov	r4, r0
	add.w	r8, sp, #88
	ldr	r2, [sp, #80]
	ldm.w	r8, {r0, r1, r8}
	cmp	r4, #0
	ldr	r7, [sp, #104]
	it	eq
	addeq.w	r4, r4, #4096
	cmp	r2, #0
	it	eq
	addeq.w	r2, r2, #4096
	add.w	r12, sp, #8
	stm.w	r12, {r0, r1, r8}
	str	r2, [sp]
	mov	r0, r4
	mov	r2, r5
	mov	r6, r3
	str	r7, [sp, #20]
	bl	ic_raw.search_calls.insert
	cbz	r0, .LBB173_2
.LBB173_1:
	add	sp, #44
	pop.w	{r4, r5, r6, r7, r8, r9, r10, r11, pc}
	.p2align	2
.LBB173_2:
	adds	r1, r7, #1
	bhs	.LBB173_1
	ldr	r3, [sp, #100]
	subs	r2, r5, r1
	lsr.w	r11, r1, #29
	sbcs	r2, r6, #0
	lsl.w	r9, r1, #3
	blo	.LBB173_6
	ldrd	r2, r10, [r8]
	ldrd	lr, r8, [r3]
	and	r12, r10, #15
	bic	r7, r2, #7
	orrs.w	r7, r7, r12
	beq	.LBB173_8
	lsrs	r2, r2, #3
	orr.w	r2, r2, r10, lsl #29
	lsr.w	r7, r12, #3
	subs	r2, r5, r2
	sbcs.w	r2, r6, r7
	bhs	.LBB173_8
.LBB173_6:
	mov	r6, r9
	mov	lr, r11
.LBB173_7:
	str	r6, [r3]
	str.w	lr, [r3, #4]
	str.w	r9, [r3, #8]
	str.w	r11, [r3, #12]
	add	sp, #44
	pop.w	{r4, r5, r6, r7, r8, r9, r10, r11, pc}
	.p2align	2
.LBB173_8:
	add.w	r1, r1, r1, lsl #1
	add.w	r7, r4, r1, lsl #3
	ldrd	r2, r3, [r7, #-24]
	lsls	r1, r6, #3
	bic	r2, r2, #7
	str.w	r9, [sp, #40]
	orr.w	r9, r1, r5, lsr #29
	and	r1, r3, #15
	subs	r2, #1
	sbc	r1, r1, #0
	subs.w	r2, r2, r5, lsl #3
	and	r10, r8, #15
	bic	lr, lr, #7
	sbcs.w	r1, r1, r9
	lsl.w	r12, r5, #3
	str	r7, [sp, #36]
	bhs	.LBB173_10
	mov	r6, lr
	mov	lr, r10
	b	.LBB173_17
	.p2align	2
.LBB173_10:
	ldrd	r1, r2, [r7, #-8]
	ldr	r6, [sp, #40]
	bic	r1, r1, #7
	and	r8, r2, #15
	subs	r2, r1, #1
	sbc	r3, r8, #0
	subs.w	r2, r2, r12
	str.w	lr, [sp, #32]
	sbcs.w	r2, r3, r9
	mov	lr, r11
	bhs	.LBB173_17
	ldr	r3, [sp, #40]
	mvn	r2, #66
	mov	r7, r11
	str.w	r10, [sp, #28]
.LBB173_12:
	mov	lr, r3
	mov	r3, r1
	lsrs	r1, r1, #3
	add.w	r1, r1, r1, lsl #1
	add.w	r1, r4, r1, lsl #3
	ldrd	r6, r5, [r1, #-24]
	bic	r6, r6, #7
	and	r5, r5, #15
	eors	r5, r7
	eor.w	r7, r6, lr
	orrs	r7, r5
	bne	.LBB173_16
	cbz	r2, .LBB173_16
	ldrd	r1, r6, [r1, #-8]
	mov	r7, r8
	bic	r1, r1, #7
	and	r8, r6, #15
	subs	r6, r1, #1
	sbc	r5, r8, #0
	subs.w	r6, r6, r12
	sbcs.w	r6, r5, r9
	add.w	r2, r2, #1
	blo	.LBB173_12
	ldr	r6, [sp, #40]
	mov	lr, r11
	b	.LBB173_17
	.p2align	2
.LBB173_16:
	ldrd	lr, r6, [sp, #28]
.LBB173_17:
	ldr	r7, [sp, #36]
	ldr	r1, [sp, #100]
	ldrd	r3, r5, [r7, #-16]
	ldrd	r1, r2, [r1, #8]
	bic	r3, r3, #7
	and	r8, r2, #15
	and	r2, r5, #15
	subs	r3, #1
	sbc	r2, r2, #0
	subs.w	r3, r3, r12
	sbcs.w	r2, r2, r9
	bic	r5, r1, #7
	bhs	.LBB173_19
	ldr	r3, [sp, #100]
	mov	r9, r5
	mov	r11, r8
	b	.LBB173_7
	.p2align	2
.LBB173_19:
	ldrd	r1, r2, [r7, #-8]
	bic	r3, r1, #7
	and	r7, r2, #15
	subs	r1, r3, #1
	sbc	r2, r7, #0
	subs.w	r1, r1, r12
	sbcs.w	r1, r2, r9
	bhs	.LBB173_25
	ldr	r2, [sp, #40]
	mvn	r1, #66
	mov	r10, r11
	strd	r5, r8, [sp, #28]
	str	r6, [sp, #36]
	str.w	r11, [sp, #24]
.LBB173_21:
	mov	r11, r2
	mov	r2, r3
	lsrs	r3, r3, #3
	add.w	r3, r3, r3, lsl #1
	add.w	r3, r4, r3, lsl #3
	ldrd	r6, r8, [r3, #-16]
	bic	r6, r6, #7
	and	r5, r8, #15
	eor.w	r5, r5, r10
	eor.w	r6, r6, r11
	orrs	r5, r6
	bne	.LBB173_26
	cbz	r1, .LBB173_26
	ldrd	r3, r5, [r3, #-8]
	mov	r10, r7
	bic	r3, r3, #7
	and	r7, r5, #15
	subs	r5, r3, #1
	sbc	r6, r7, #0
	subs.w	r5, r5, r12
	sbcs.w	r5, r6, r9
	add.w	r1, r1, #1
	blo	.LBB173_21
	ldr	r3, [sp, #100]
	ldr.w	r11, [sp, #24]
	ldr.w	r9, [sp, #40]
	b	.LBB173_27
	.p2align	2
.LBB173_25:
	ldr	r3, [sp, #100]
	ldr.w	r9, [sp, #40]
	b	.LBB173_7
	.p2align	2
.LBB173_26:
	ldrd	r9, r11, [sp, #28]
	ldr	r3, [sp, #100]
.LBB173_27:
	ldr	r6, [sp, #36]
	b	.LBB173_7
.Lfunc_end173:
	.size	ic_tree_ends_insert, .Lfunc_end173-ic_tree_ends_insert
	.cfi_endproc
	.section	.text.ic_tree_ends_insert_left,"ax",%progbits
	.globl	ic_tree_ends_insert_left
	.p2align	2
	.type	ic_tree_ends_insert_left,%function
	.code	16
	.thumb_func
ic_tree_ends_insert_left:
	.cfi_startproc
	push.w	{r4, r5, r6, r7, r8, r9, r10, lr}
	.cfi_def_cfa_offset 32
	.cfi_offset lr, -4
	.cfi_offset r10, -8
	.cfi_offset r9, -12
	.cfi_offset r8, -16
	.cfi_offset r7, -20
	.cfi_offset r6, -24
	.cfi_offset r5, -28
	.cfi_offset r4, -32
	sub	sp, #16
	.cfi_def_cfa_offset 48
	ldr	r1, [sp, #48]
	ldrd	r5, r6, [sp, #56]
	cmp	r0, #0
	it	eq
	addeq.w	r0, r0, #4096
	movs	r4, #0
	stm.w	sp, {r1, r4, r5, r6}
	bl	ic_raw.tree_calls.insert_at
	cbz	r0, .LBB174_2
	add	sp, #16
	pop.w	{r4, r5, r6, r7, r8, r9, r10, pc}
	.p2align	2
.LBB174_2:
	ldr.w	r10, [sp, #52]
	adds	r4, r6, #1
	adds	r5, #1
	lsr.w	r2, r4, #29
	lsl.w	r3, r4, #3
	blo	.LBB174_4
	mov	lr, r3
	mov	r12, r2
	b	.LBB174_5
	.p2align	2
.LBB174_4:
	ldrd	r8, r9, [r10]
	ldrd	r7, r6, [r10, #8]
	and	r12, r6, #15
	bic	lr, r7, #7
	and	r6, r9, #15
	bic	r7, r8, #7
	orr.w	r1, r7, r6
	clz	r1, r1
	lsrs	r1, r1, #5
	clz	r8, r4
	eor.w	r4, r6, r5, lsr #29
	eor.w	r5, r7, r5, lsl #3
	orrs	r4, r5
	itte	ne
	movne	r3, r7
	movne	r2, r6
	lsreq.w	r1, r8, #5
	cmp	r1, #0
	itt	ne
	movne	r2, #0
	movne	r3, #0
.LBB174_5:
	str.w	r3, [r10]
	str.w	r2, [r10, #4]
	str.w	lr, [r10, #8]
	str.w	r12, [r10, #12]
	add	sp, #16
	pop.w	{r4, r5, r6, r7, r8, r9, r10, pc}
.Lfunc_end174:
	.size	ic_tree_ends_insert_left, .Lfunc_end174-ic_tree_ends_insert_left
	.cfi_endproc
	.section	.text.ic_tree_ends_insert_right,"ax",%progbits
	.globl	ic_tree_ends_insert_right
	.p2align	2
	.type	ic_tree_ends_insert_right,%function
	.code	16
	.thumb_func
ic_tree_ends_insert_right:
	.cfi_startproc
	push.w	{r4, r5, r6, r7, r8, r9, lr}
	.cfi_def_cfa_offset 28
	.cfi_offset lr, -4
	.cfi_offset r9, -8
	.cfi_offset r8, -12
	.cfi_offset r7, -16
	.cfi_offset r6, -20
	.cfi_offset r5, -24
	.cfi_offset r4, -28
	sub	sp, #20
	.cfi_def_cfa_offset 48
	ldr	r1, [sp, #48]
	ldrd	r5, r6, [sp, #56]
	cmp	r0, #0
	it	eq
	addeq.w	r0, r0, #4096
	movs	r4, #1
	stm.w	sp, {r1, r4, r5, r6}
	bl	ic_raw.tree_calls.insert_at
	cbz	r0, .LBB175_2
	add	sp, #20
	pop.w	{r4, r5, r6, r7, r8, r9, pc}
	.p2align	2
.LBB175_2:
	ldr.w	r8, [sp, #52]
	adds	r4, r6, #1
	adds	r5, #1
	lsr.w	r3, r4, #29
	lsl.w	r2, r4, #3
	blo	.LBB175_4
	mov	r4, r2
	mov	r5, r3
	b	.LBB175_5
	.p2align	2
.LBB175_4:
	ldrd	r7, r6, [r8, #8]
	ldrd	r12, lr, [r8]
	and	r6, r6, #15
	bic	r7, r7, #7
	orr.w	r1, r7, r6
	clz	r1, r1
	lsrs	r1, r1, #5
	clz	r9, r4
	eor.w	r4, r6, r5, lsr #29
	eor.w	r5, r7, r5, lsl #3
	orrs	r4, r5
	itte	ne
	movne	r2, r7
	movne	r3, r6
	lsreq.w	r1, r9, #5
	and	lr, lr, #15
	bic	r12, r12, #7
	cmp	r1, #0
	itt	ne
	movne	r3, #0
	movne	r2, #0
	mov	r5, r3
	mov	r4, r2
	mov	r2, r12
	mov	r3, lr
.LBB175_5:
	str.w	r2, [r8]
	str.w	r3, [r8, #4]
	str.w	r4, [r8, #8]
	str.w	r5, [r8, #12]
	add	sp, #20
	pop.w	{r4, r5, r6, r7, r8, r9, pc}
.Lfunc_end175:
	.size	ic_tree_ends_insert_right, .Lfunc_end175-ic_tree_ends_insert_right
	.cfi_endproc
	.section	.text.ic_tree_ends_pop_first,"ax",%progbits
	.globl	ic_tree_ends_pop_first
	.p2align	2
	.type	ic_tree_ends_pop_first,%function
	.code	16
	.thumb_func
ic_tree_ends_pop_first:
	.cfi_startproc
	push	{r4, r5, r6, lr}
	.cfi_def_cfa_offset 16
	.cfi_offset lr, -4
	.cfi_offset r6, -8
	.cfi_offset r5, -12
	.cfi_offset r4, -16
	sub	sp, #16
	.cfi_def_cfa_offset 32
	ldr.w	r12, [sp, #36]
	cmp	r0, #0
	ldrd	lr, r5, [r12]
	it	eq
	addeq.w	r0, r0, #4096
	and	r1, r5, #15
	bic	r4, lr, #7
	orrs.w	r6, r4, r1
	beq	.LBB176_4
	lsr.w	r6, lr, #3
	orrs.w	lr, r6, r5, lsl #29
	and	r5, r5, #7
	itt	ne
	eorne	r1, r5
	eorne	r4, r4
	orrs	r1, r4
	bne	.LBB176_3
	ldr	r1, [sp, #32]
	sub.w	r4, lr, #1
	strd	r1, r12, [sp]
	str	r4, [sp, #8]
	bl	ic_raw_keyed.ends_calls.remove
	cbz	r0, .LBB176_5
.LBB176_3:
	movs	r0, #5
	add	sp, #16
	pop	{r4, r5, r6, pc}
	.p2align	2
.LBB176_4:
	movs	r0, #4
	add	sp, #16
	pop	{r4, r5, r6, pc}
	.p2align	2
.LBB176_5:
	ldr	r0, [sp, #40]
	str	r4, [r0]
	movs	r0, #0
	add	sp, #16
	pop	{r4, r5, r6, pc}
.Lfunc_end176:
	.size	ic_tree_ends_pop_first, .Lfunc_end176-ic_tree_ends_pop_first
	.cfi_endproc
	.section	.text.ic_tree_ends_remove,"ax",%progbits
	.globl	ic_tree_ends_remove
	.p2align	2
	.type	ic_tree_ends_remove,%function
	.code	16
	.thumb_func
ic_tree_ends_remove:
	.cfi_startproc
	push	{r7, lr}
	.cfi_def_cfa_offset 8
	.cfi_offset lr, -4
	.cfi_offset r7, -8
	ldr.w	r12, [sp, #16]
	ldrd	r1, lr, [sp, #8]
	cmp	r0, #0
	it	eq
	addeq.w	r0, r0, #4096
	strd	r1, lr, [sp, #8]
	str.w	r12, [sp, #16]
	pop.w	{r7, lr}
	b	ic_raw_keyed.ends_calls.remove
.Lfunc_end177:
	.size	ic_tree_ends_remove, .Lfunc_end177-ic_tree_ends_remove
	.cfi_endproc
	.section	.text.ic_tree_ends_replace,"ax",%progbits
	.globl	ic_tree_ends_replace
	.p2align	2
	.type	ic_tree_ends_replace,%function
	.code	16
	.thumb_func
ic_tree_ends_replace:
	.cfi_startproc
	push.w	{r4, r5, r6, r7, r8, r9, r10, r11, lr}
	.cfi_def_cfa_offset 36
	.cfi_offset lr, -4
	.cfi_offset r11, -8
	.cfi_offset r10, -12
	.cfi_offset r9, -16
	.cfi_offset r8, -20
	.cfi_offset r7, -24
	.cfi_offset r6, -28
	.cfi_offset r5, -32
	.cfi_offset r4, -36
	sub	sp, #12
	.cfi_def_cfa_offset 48
	ldr	r1, [sp, #56]
	adds	r4, r1, #1
	blo	.LBB178_2
	movs	r0, #4
	add	sp, #12
	pop.w	{r4, r5, r6, r7, r8, r9, r10, r11, pc}
	.p2align	2
.LBB178_2:
	ldr	r6, [sp, #60]
	ldr	r5, [sp, #48]
	cmp	r0, #0
	it	eq
	addeq.w	r0, r0, #4096
	strd	r5, r1, [sp]
	str	r6, [sp, #8]
	bl	ic_raw.tree_calls.replace
	cbz	r0, .LBB178_4
	add	sp, #12
	pop.w	{r4, r5, r6, r7, r8, r9, r10, r11, pc}
	.p2align	2
.LBB178_4:
	ldr.w	r12, [sp, #52]
	adds	r3, r6, #1
	mov	r11, r3
	it	ne
	movne.w	r11, #1
	ldrd	r2, r1, [r12]
	lsr.w	r10, r4, #29
	lsl.w	lr, r4, #3
	and	r1, r1, #15
	bic	r4, r2, #7
	ldrd	r8, r9, [r12, #8]
	orrs.w	r2, r4, r1
	eor.w	r6, r1, r10
	eor.w	r7, r4, lr
	it	ne
	movne	r2, #1
	orrs	r6, r7
	and	r6, r9, #15
	bic	r7, r8, #7
	ittt	eq
	lsleq	r4, r3, #3
	lsreq	r1, r3, #29
	moveq	r2, r11
	orrs.w	r5, r7, r6
	eor.w	r8, r6, r10
	eor.w	r0, r7, lr
	it	ne
	movne	r5, #1
	orrs.w	r0, r0, r8
	ittt	eq
	lsleq	r7, r3, #3
	lsreq	r6, r3, #29
	moveq	r5, r11
	cmp	r2, #0
	mov.w	r0, #0
	ite	eq
	moveq	r1, r2
	movne	r2, r4
	cmp	r5, #0
	ite	eq
	moveq	r6, r5
	movne	r5, r7
	strd	r2, r1, [r12]
	strd	r5, r6, [r12, #8]
	add	sp, #12
	pop.w	{r4, r5, r6, r7, r8, r9, r10, r11, pc}
.Lfunc_end178:
	.size	ic_tree_ends_replace, .Lfunc_end178-ic_tree_ends_replace
	.cfi_endproc
	.section	.text.ic_tree_find,"ax",%progbits
	.globl	ic_tree_find
	.p2align	2
	.type	ic_tree_find,%function
	.code	16
	.thumb_func
ic_tree_find:
	.cfi_startproc
	push.w	{r4, r5, r6, r7, r8, r9, r10, r11, lr}
	.cfi_def_cfa_offset 36
	.cfi_offset lr, -4
	.cfi_offset r11, -8
	.cfi_offset r10, -12
	.cfi_offset r9, -16
	.cfi_offset r8, -20
	.cfi_offset r7, -24
	.cfi_offset r6, -28
	.cfi_offset r5, -32
	.cfi_offset r4, -36
	sub	sp, #44
	.cfi_def_cfa_offset 80
	ldr.w	r11, [sp, #80]
	mov	lr, r0
	ldrd	r7, r12, [sp, #88]
	cmp	r0, #0
	it	eq
	addeq.w	lr, lr, #4096
	cmp.w	r11, #0
	it	eq
	addeq.w	r11, r11, #4096
	subs	r1, r7, r2
	sbcs.w	r1, r12, r3
	blo.w	.LBB179_15
	ldr	r1, [sp, #96]
	ldrd	r1, r4, [r1]
	and	r5, r4, #15
	bic	r1, r1, #7
	orrs.w	r4, r1, r5
	beq.w	.LBB179_23
	lsrs	r4, r1, #3
	orr.w	r4, r4, r5, lsl #29
	subs	r6, r2, r4
	sbcs.w	r6, r3, r5, lsr #3
	blo.w	.LBB179_15
	add.w	r4, r4, r4, lsl #1
	add.w	r4, lr, r4, lsl #3
	ldrb	r4, [r4, #-24]
	lsls	r4, r4, #31
	beq.w	.LBB179_15
	ldr	r7, [sp, #112]
	lsls	r3, r3, #3
	ldrd	r8, r9, [sp, #104]
	orr.w	r6, r3, r2, lsr #29
	lsls	r2, r2, #3
	str	r7, [sp, #4]
	str	r2, [sp, #36]
	movs	r4, #0
	movs	r0, #22
	movs	r2, #0
	strd	r11, r9, [sp, #8]
	strd	lr, r8, [sp, #28]
	str	r6, [sp, #40]
	.p2align	2
.LBB179_5:
	add.w	r7, r11, r1
	str	r0, [sp, #16]
	lsrs	r3, r1, #3
	ldrd	r0, r7, [r7, #-8]
	add.w	r3, r3, r3, lsl #1
	add.w	r6, lr, r3, lsl #3
	mov	r3, r8
	str	r7, [sp, #24]
	ldrd	r8, r12, [r6, #-24]
	ldr	r10, [r6, #-16]
	ldr	r7, [r6, #-12]
	subs	r6, r0, r3
	ldr.w	r9, [sp, #12]
	ldr	r0, [sp, #24]
	mov	r6, r8
	sbcs.w	r0, r0, r9
	mov	r0, r12
	itett	lo
	movlo	r5, r4
	movhs	r2, r1
	movlo	r6, r10
	movlo	r0, r7
	bic	r1, r6, #7
	and	r4, r0, #15
	subs	r0, r1, #1
	str	r0, [sp, #24]
	sbc	r0, r4, #0
	str	r0, [sp, #20]
	ldr	r0, [sp, #36]
	ldr	r3, [sp, #24]
	subs	r0, r3, r0
	ldr	r0, [sp, #40]
	ldr	r3, [sp, #20]
	sbcs.w	r0, r3, r0
	bhs	.LBB179_9
	lsrs	r0, r6, #3
	add.w	r0, r0, r0, lsl #1
	add.w	r0, lr, r0, lsl #3
	add.w	r3, r11, r1
	sub.w	lr, r0, #24
	ldrd	r6, r7, [r3, #-8]
	ldr	r3, [r0, #-12]
	ldr	r0, [sp, #32]
	ldm.w	lr, {r8, r12, lr}
	subs	r0, r6, r0
	sbcs.w	r0, r7, r9
	mov	r6, r8
	mov	r0, r12
	ittee	hs
	movhs	r5, r4
	movhs	r2, r1
	movlo	r6, lr
	movlo	r0, r3
	bic	r1, r6, #7
	ldr	r7, [sp, #36]
	and	r4, r0, #15
	subs	r0, r1, #1
	sbc	r10, r4, #0
	subs	r0, r0, r7
	ldr	r0, [sp, #40]
	sbcs.w	r0, r10, r0
	ldr.w	r10, [sp, #28]
	bhs	.LBB179_11
	lsrs	r0, r6, #3
	add.w	r3, r11, r1
	add.w	r0, r0, r0, lsl #1
	ldrd	r8, r11, [r3, #-8]
	ldr	r6, [sp, #32]
	add.w	r0, r10, r0, lsl #3
	ldrd	r10, lr, [r0, #-24]
	ldr	r12, [r0, #-16]
	ldr	r3, [r0, #-12]
	subs.w	r0, r8, r6
	sbcs.w	r0, r11, r9
	mov	r0, r10
	itet	lo
	movlo	r4, r5
	movhs	r2, r1
	movlo	r0, r12
	mov	r1, lr
	it	lo
	movlo	r1, r3
	and	r5, r1, #15
	bic	r1, r0, #7
	subs	r0, r1, #1
	ldr.w	r11, [sp, #40]
	sbc	r8, r5, #0
	subs	r0, r0, r7
	sbcs.w	r0, r8, r11
	ldr	r0, [sp, #16]
	mov	r8, r6
	bhs	.LBB179_13
	ldr.w	r11, [sp, #8]
	ldr.w	lr, [sp, #28]
	subs	r0, #1
	bne.w	.LBB179_5
	b	.LBB179_21
	.p2align	2
.LBB179_9:
	ldr	r3, [sp, #32]
	subs.w	r0, r8, r1
	sbcs.w	r0, r12, r4
	bhs	.LBB179_16
	subs.w	r0, r10, r1
	sbcs.w	r0, r7, r4
	mov	r10, lr
	mov	r8, r3
	blo	.LBB179_21
	b	.LBB179_18
	.p2align	2
.LBB179_11:
	ldr.w	r11, [sp, #32]
	subs.w	r0, r8, r1
	sbcs.w	r0, r12, r4
	bhs	.LBB179_17
	subs.w	r0, lr, r1
	ldr.w	r9, [sp, #12]
	sbcs.w	r0, r3, r4
	mov	r8, r11
	blo	.LBB179_21
	b	.LBB179_18
	.p2align	2
.LBB179_13:
	subs.w	r0, r10, r1
	sbcs.w	r0, lr, r5
	bhs	.LBB179_22
	subs.w	r0, r12, r1
	ldr.w	r10, [sp, #28]
	sbcs.w	r0, r3, r5
	mov	r5, r4
	blo	.LBB179_21
	b	.LBB179_18
	.p2align	2
.LBB179_15:
	mov	r0, r2
	mov	r1, r3
	mov	r2, r7
	mov	r3, r12
	add	sp, #44
	pop.w	{r4, r5, r6, r7, r8, r9, r10, r11, lr}
	b	ic_raw.search.refusal
	.p2align	2
.LBB179_16:
	mov	r10, lr
	mov	r8, r3
	orrs.w	r0, r2, r5
	bne	.LBB179_19
	b	.LBB179_23
	.p2align	2
.LBB179_17:
	ldr.w	r9, [sp, #12]
	mov	r8, r11
.LBB179_18:
	orrs.w	r0, r2, r5
	beq	.LBB179_23
.LBB179_19:
	ldr	r0, [sp, #8]
	add	r0, r2
	ldrd	r0, r1, [r0, #-8]
	eor.w	r1, r1, r9
	eor.w	r0, r0, r8
	orrs	r0, r1
	bne	.LBB179_23
	lsrs	r1, r2, #3
	add.w	r0, r1, r1, lsl #1
	add.w	r0, r10, r0, lsl #3
	ldrb	r0, [r0, #-24]
	lsls	r0, r0, #31
	bne	.LBB179_24
.LBB179_21:
	movs	r0, #5
	add	sp, #44
	pop.w	{r4, r5, r6, r7, r8, r9, r10, r11, pc}
	.p2align	2
.LBB179_22:
	ldr.w	r10, [sp, #28]
	mov	r5, r4
	orrs.w	r0, r2, r5
	bne	.LBB179_19
.LBB179_23:
	movs	r0, #4
	add	sp, #44
	pop.w	{r4, r5, r6, r7, r8, r9, r10, r11, pc}
	.p2align	2
.LBB179_24:
	orr.w	r0, r1, r5, lsl #29
	ldr	r1, [sp, #4]
	subs	r0, #1
	str	r0, [r1]
	movs	r0, #0
	add	sp, #44
	pop.w	{r4, r5, r6, r7, r8, r9, r10, r11, pc}
.Lfunc_end179:
	.size	ic_tree_find, .Lfunc_end179-ic_tree_find
	.cfi_endproc
	.section	.text.ic_tree_insert,"ax",%progbits
	.globl	ic_tree_insert
	.p2align	2
	.type	ic_tree_insert,%function
	.code	16
	.thumb_func
ic_tree_insert:
	.cfi_startproc
	push	{r4, r5, r7, lr}
	.cfi_def_cfa_offset 16
	.cfi_offset lr, -4
	.cfi_offset r7, -8
	.cfi_offset r5, -12
	.cfi_offset r4, -16
	ldrd	lr, r12, [sp, #32]
	ldrd	r4, r1, [sp, #24]
	ldr	r5, [sp, #16]
	cmp	r0, #0
	it	eq
	addeq.w	r0, r0, #4096
	cmp	r5, #0
	it	eq
	addeq.w	r5, r5, #4096
	strd	r4, r1, [sp, #24]
	strd	lr, r12, [sp, #32]
	str	r5, [sp, #16]
	pop.w	{r4, r5, r7, lr}
	b	ic_raw.search_calls.insert
.Lfunc_end180:
	.size	ic_tree_insert, .Lfunc_end180-ic_tree_insert
	.cfi_endproc
	.section	.text.ic_tree_insert_left,"ax",%progbits
	.globl	ic_tree_insert_left
	.p2align	2
	.type	ic_tree_insert_left,%function
	.code	16
	.thumb_func
ic_tree_insert_left:
	.cfi_startproc
	push	{r4, lr}
	.cfi_def_cfa_offset 8
	.cfi_offset lr, -4
	.cfi_offset r4, -8
	sub	sp, #16
	.cfi_def_cfa_offset 24
	add.w	lr, sp, #24
	ldm.w	lr, {r1, r12, lr}
	cmp	r0, #0
	it	eq
	addeq.w	r0, r0, #4096
	movs	r4, #0
	stm.w	sp, {r1, r4, r12, lr}
	bl	ic_raw.tree_calls.insert_at
	add	sp, #16
	pop	{r4, pc}
.Lfunc_end181:
	.size	ic_tree_insert_left, .Lfunc_end181-ic_tree_insert_left
	.cfi_endproc
	.section	.text.ic_tree_insert_right,"ax",%progbits
	.globl	ic_tree_insert_right
	.p2align	2
	.type	ic_tree_insert_right,%function
	.code	16
	.thumb_func
ic_tree_insert_right:
	.cfi_startproc
	push	{r4, lr}
	.cfi_def_cfa_offset 8
	.cfi_offset lr, -4
	.cfi_offset r4, -8
	sub	sp, #16
	.cfi_def_cfa_offset 24
	add.w	lr, sp, #24
	ldm.w	lr, {r1, r12, lr}
	cmp	r0, #0
	it	eq
	addeq.w	r0, r0, #4096
	movs	r4, #1
	stm.w	sp, {r1, r4, r12, lr}
	bl	ic_raw.tree_calls.insert_at
	add	sp, #16
	pop	{r4, pc}
.Lfunc_end182:
	.size	ic_tree_insert_right, .Lfunc_end182-ic_tree_insert_right
	.cfi_endproc
	.section	.text.ic_tree_join,"ax",%progbits
	.globl	ic_tree_join
	.p2align	2
	.type	ic_tree_join,%function
	.code	16
	.thumb_func
ic_tree_join:
	.cfi_startproc
	push.w	{r4, r5, r6, r7, r8, r9, r10, r11, lr}
	.cfi_def_cfa_offset 36
	.cfi_offset lr, -4
	.cfi_offset r11, -8
	.cfi_offset r10, -12
	.cfi_offset r9, -16
	.cfi_offset r8, -20
	.cfi_offset r7, -24
	.cfi_offset r6, -28
	.cfi_offset r5, -32
	.cfi_offset r4, -36
	sub	sp, #76
	.cfi_def_cfa_offset 112
	mov	r1, r0
	ldr	r0, [sp, #116]
	cmp	r1, #0
	it	eq
	addeq.w	r1, r1, #4096
	adds	r6, r0, #1
	mov.w	r0, #1
	bhs.w	.LBB183_13
	subs	r7, r2, r6
	sbcs	r7, r3, #0
	blo.w	.LBB183_13
	add.w	r9, r6, r6, lsl #1
	add.w	r0, r1, r9, lsl #3
	ldr	r0, [r0, #-24]
	movs	r7, #2
	ands.w	r0, r7, r0, lsl #1
	bne.w	.LBB183_13
	ldr	r7, [sp, #120]
	ldr	r5, [sp, #112]
	str	r1, [sp, #32]
	movs	r0, #0
	add	r1, sp, #36
	stm	r1!, {r0, r2, r3}
	ldrd	r3, r7, [r7]
	ldrd	r1, r2, [r5]
	and	r8, r7, #15
	bic	r7, r3, #7
	and	r4, r2, #15
	orrs.w	r10, r7, r8
	bic	r5, r1, #7
	beq	.LBB183_6
	eor.w	r1, r5, r7
	eor.w	r2, r4, r8
	orrs	r1, r2
	bne	.LBB183_6
	movs	r0, #5
	add	sp, #76
	pop.w	{r4, r5, r6, r7, r8, r9, r10, r11, pc}
	.p2align	2
.LBB183_6:
	orrs.w	r11, r5, r4
	mov.w	r1, #66
	it	ne
	movne.w	r11, #1
	strd	r0, r0, [sp, #16]
	str	r1, [sp, #24]
	str	r0, [sp, #8]
	add	r0, sp, #48
	add	r1, sp, #32
	mov	r2, r11
	str	r5, [sp]
	str	r4, [sp, #4]
	bl	ic_check.tree.check_below.ffc36cde30076884
	ldrb.w	r0, [sp, #48]
	cmp	r0, #1
	mov.w	r0, #5
	bne	.LBB183_13
	ldrb.w	r1, [sp, #68]
	cmp	r1, #1
	bne	.LBB183_13
	movs	r0, #66
	movs	r1, #0
	cmp.w	r10, #0
	it	ne
	movne.w	r10, #1
	strd	r1, r1, [sp, #16]
	str	r0, [sp, #24]
	str	r1, [sp, #8]
	add	r0, sp, #48
	add	r1, sp, #32
	mov	r2, r10
	str	r7, [sp]
	str.w	r8, [sp, #4]
	bl	ic_check.tree.check_below.ffc36cde30076884
	ldrb.w	r0, [sp, #48]
	cmp	r0, #1
	mov.w	r0, #5
	bne	.LBB183_13
	ldrb.w	r1, [sp, #68]
	cmp	r1, #1
	bne	.LBB183_13
	ldr	r0, [sp, #32]
	lsl.w	r1, r9, #3
	add	r0, r1
	ldrb	r1, [r0, #-24]
	lsls	r1, r1, #31
	bne	.LBB183_12
	lsrs	r1, r6, #29
	lsls	r2, r6, #3
	movs	r3, #0
	movs	r6, #1
	strd	r6, r3, [r0, #-24]
	strd	r2, r1, [sp]
	add	r0, sp, #32
	mov	r1, r11
	mov	r2, r5
	mov	r3, r4
	strd	r7, r8, [sp, #16]
	str.w	r10, [sp, #8]
	bl	ic_rbtree.join.roots.join.f4da04d8a93b4f27
	mov	r5, r1
	mov	r4, r2
	uxtb	r0, r0
	movs	r7, #0
	mov.w	r8, #0
	cmp	r0, #0
	itt	eq
	moveq	r4, r0
	moveq	r5, r0
.LBB183_12:
	ldr	r0, [sp, #120]
	ldr	r1, [sp, #112]
	strd	r5, r4, [r1]
	strd	r7, r8, [r0]
	movs	r0, #0
.LBB183_13:
	add	sp, #76
	pop.w	{r4, r5, r6, r7, r8, r9, r10, r11, pc}
.Lfunc_end183:
	.size	ic_tree_join, .Lfunc_end183-ic_tree_join
	.cfi_endproc
	.section	.text.ic_tree_lower_bound,"ax",%progbits
	.globl	ic_tree_lower_bound
	.p2align	2
	.type	ic_tree_lower_bound,%function
	.code	16
	.thumb_func
ic_tree_lower_bound:
	.cfi_startproc
	push.w	{r4, r5, r6, r7, r8, r9, r10, r11, lr}
	.cfi_def_cfa_offset 36
	.cfi_offset lr, -4
	.cfi_offset r11, -8
	.cfi_offset r10, -12
	.cfi_offset r9, -16
	.cfi_offset r8, -20
	.cfi_offset r7, -24
	.cfi_offset r6, -28
	.cfi_offset r5, -32
	.cfi_offset r4, -36
	sub	sp, #28
	.cfi_def_cfa_offset 64
	ldr.w	r9, [sp, #64]
	mov	r8, r0
	ldrd	lr, r12, [sp, #72]
	cmp	r0, #0
	it	eq
	addeq.w	r8, r8, #4096
	cmp.w	r9, #0
	it	eq
	addeq.w	r9, r9, #4096
	subs.w	r0, lr, r2
	sbcs.w	r0, r12, r3
	blo.w	.LBB184_19
	ldr	r0, [sp, #80]
	ldrd	r0, r1, [r0]
	and	r5, r1, #15
	bic	r4, r0, #7
	orrs.w	r0, r4, r5
	beq.w	.LBB184_21
	lsrs	r0, r4, #3
	orr.w	r0, r0, r5, lsl #29
	subs	r1, r2, r0
	sbcs.w	r1, r3, r5, lsr #3
	blo.w	.LBB184_19
	add.w	r0, r0, r0, lsl #1
	add.w	r0, r8, r0, lsl #3
	ldrb	r0, [r0, #-24]
	lsls	r0, r0, #31
	beq.w	.LBB184_19
	ldr	r0, [sp, #92]
	lsl.w	lr, r2, #3
	str	r0, [sp, #4]
	ldr	r0, [sp, #96]
	ldr	r7, [sp, #88]
	str	r0, [sp]
	lsls	r0, r3, #3
	orr.w	r0, r0, r2, lsr #29
	movs	r1, #0
	movs	r3, #22
	movs	r2, #0
	str	r0, [sp, #24]
	str.w	r8, [sp, #20]
	strd	r7, r9, [sp, #12]
	.p2align	2
.LBB184_5:
	lsrs	r0, r4, #3
	str	r3, [sp, #8]
	add.w	r0, r0, r0, lsl #1
	mov	r3, r7
	add.w	r7, r9, r4
	add.w	r0, r8, r0, lsl #3
	ldrd	r8, r9, [r7, #-8]
	ldr	r7, [sp, #4]
	ldrd	r11, r12, [r0, #-24]
	ldr	r10, [r0, #-16]
	ldr	r6, [r0, #-12]
	subs.w	r0, r8, r3
	sbcs.w	r0, r9, r7
	mov	r0, r11
	itet	lo
	movlo	r5, r1
	movhs	r2, r4
	movlo	r0, r10
	mov	r1, r12
	it	lo
	movlo	r1, r6
	and	r4, r1, #15
	bic	r1, r0, #7
	subs	r3, r1, #1
	sbc	r8, r4, #0
	subs.w	r3, r3, lr
	ldr	r3, [sp, #24]
	sbcs.w	r3, r8, r3
	bhs	.LBB184_9
	lsrs	r0, r0, #3
	ldr	r3, [sp, #20]
	add.w	r0, r0, r0, lsl #1
	add.w	r0, r3, r0, lsl #3
	ldr	r3, [sp, #16]
	sub.w	r12, r0, #24
	adds	r6, r3, r1
	ldrd	r6, r8, [r6, #-8]
	ldr	r3, [sp, #12]
	ldm.w	r12, {r10, r11, r12}
	subs	r6, r6, r3
	sbcs.w	r6, r8, r7
	mov	r6, r10
	ldr	r0, [r0, #-12]
	itte	hs
	movhs	r5, r4
	movhs	r2, r1
	movlo	r6, r12
	mov	r1, r11
	it	lo
	movlo	r1, r0
	bic	r4, r6, #7
	and	r1, r1, #15
	subs.w	r8, r4, #1
	sbc	r9, r1, #0
	subs.w	r3, r8, lr
	ldr	r3, [sp, #24]
	sbcs.w	r3, r9, r3
	ldr.w	r9, [sp, #24]
	bhs	.LBB184_11
	lsrs	r0, r6, #3
	ldr	r3, [sp, #20]
	add.w	r0, r0, r0, lsl #1
	add.w	r0, r3, r0, lsl #3
	ldr	r3, [sp, #16]
	ldr	r6, [sp, #12]
	add	r3, r4
	ldrd	r3, r8, [r3, #-8]
	sub.w	r12, r0, #24
	ldm.w	r12, {r10, r11, r12}
	subs	r3, r3, r6
	sbcs.w	r3, r8, r7
	mov	r3, r10
	ldr	r0, [r0, #-12]
	itet	lo
	movlo	r1, r5
	movhs	r2, r4
	movlo	r3, r12
	mov	r4, r11
	it	lo
	movlo	r4, r0
	and	r5, r4, #15
	bic	r4, r3, #7
	subs	r3, r4, #1
	sbc	r8, r5, #0
	subs.w	r3, r3, lr
	sbcs.w	r3, r8, r9
	ldrd	r9, r8, [sp, #16]
	ldr	r3, [sp, #8]
	bhs	.LBB184_16
	mov	r7, r6
	subs	r3, #1
	bne.w	.LBB184_5
	b	.LBB184_18
	.p2align	2
.LBB184_9:
	ldr.w	r8, [sp, #20]
	subs.w	r0, r11, r1
	sbcs.w	r0, r12, r4
	bhs	.LBB184_13
	subs.w	r0, r10, r1
	sbcs.w	r0, r6, r4
	blo	.LBB184_18
	b	.LBB184_13
	.p2align	2
.LBB184_11:
	ldr.w	r8, [sp, #20]
	subs.w	r3, r10, r4
	sbcs.w	r3, r11, r1
	bhs	.LBB184_13
	subs.w	r3, r12, r4
	sbcs	r0, r1
	blo	.LBB184_18
.LBB184_13:
	orrs.w	r0, r2, r5
	beq	.LBB184_21
.LBB184_14:
	lsrs	r0, r2, #3
	add.w	r1, r0, r0, lsl #1
	add.w	r1, r8, r1, lsl #3
	ldrb	r1, [r1, #-24]
	lsls	r1, r1, #31
	beq	.LBB184_18
	orr.w	r0, r0, r5, lsl #29
	ldr	r1, [sp]
	subs	r0, #1
	str	r0, [r1]
	movs	r0, #0
	add	sp, #28
	pop.w	{r4, r5, r6, r7, r8, r9, r10, r11, pc}
	.p2align	2
.LBB184_16:
	subs.w	r3, r10, r4
	sbcs.w	r3, r11, r5
	bhs	.LBB184_20
	subs.w	r3, r12, r4
	sbcs	r0, r5
	mov	r5, r1
	bhs	.LBB184_13
.LBB184_18:
	movs	r0, #5
	add	sp, #28
	pop.w	{r4, r5, r6, r7, r8, r9, r10, r11, pc}
	.p2align	2
.LBB184_19:
	mov	r0, r2
	mov	r1, r3
	mov	r2, lr
	mov	r3, r12
	add	sp, #28
	pop.w	{r4, r5, r6, r7, r8, r9, r10, r11, lr}
	b	ic_raw.search.refusal
	.p2align	2
.LBB184_20:
	mov	r5, r1
	orrs.w	r0, r2, r5
	bne	.LBB184_14
.LBB184_21:
	movs	r0, #4
	add	sp, #28
	pop.w	{r4, r5, r6, r7, r8, r9, r10, r11, pc}
.Lfunc_end184:
	.size	ic_tree_lower_bound, .Lfunc_end184-ic_tree_lower_bound
	.cfi_endproc
	.section	.text.ic_tree_next,"ax",%progbits
	.globl	ic_tree_next
	.p2align	2
	.type	ic_tree_next,%function
	.code	16
	.thumb_func
ic_tree_next:
	.cfi_startproc
	push.w	{r4, r5, r6, r7, r8, r9, r10, r11, lr}
	.cfi_def_cfa_offset 36
	.cfi_offset lr, -4
	.cfi_offset r11, -8
	.cfi_offset r10, -12
	.cfi_offset r9, -16
	.cfi_offset r8, -20
	.cfi_offset r7, -24
	.cfi_offset r6, -28
	.cfi_offset r5, -32
	.cfi_offset r4, -36
	sub	sp, #20
	.cfi_def_cfa_offset 56
	ldrd	r7, r1, [sp, #56]
	ldr	r4, [sp, #64]
	ldrd	r6, r7, [r7]
	cmp	r0, #0
	it	eq
	addeq.w	r0, r0, #4096
	and	lr, r7, #15
	adds	r1, #1
	bic	r7, r6, #7
	blo	.LBB185_2
	movs	r1, #1
	strd	r7, lr, [sp]
	strd	r1, r4, [sp, #8]
	bl	ic_raw.tree.step_from_none
	add	sp, #20
	pop.w	{r4, r5, r6, r7, r8, r9, r10, r11, pc}
	.p2align	2
.LBB185_2:
	subs	r5, r2, r1
	lsr.w	r11, r1, #29
	sbcs	r5, r3, #0
	lsl.w	r12, r1, #3
	blo.w	.LBB185_20
	add.w	r1, r1, r1, lsl #1
	add.w	r8, r0, r1, lsl #3
	ldrb	r1, [r8, #-24]
	subs	r7, #1
	sbc	r9, lr, #0
	lsls	r1, r1, #31
	beq.w	.LBB185_20
	lsls	r1, r3, #3
	lsl.w	r10, r2, #3
	orr.w	lr, r1, r2, lsr #29
	subs.w	r7, r7, r10
	sbcs.w	r7, r9, lr
	bhs.w	.LBB185_20
	lsrs	r6, r6, #3
	add.w	r6, r6, r6, lsl #1
	add.w	r6, r0, r6, lsl #3
	ldrb	r6, [r6, #-24]
	lsls	r6, r6, #31
	beq.w	.LBB185_20
	ldrd	r3, r2, [r8, #-16]
	bic	r7, r3, #7
	and	r6, r2, #15
	subs	r7, #1
	sbc	r6, r6, #0
	subs.w	r7, r7, r10
	sbcs.w	r6, r6, lr
	bhs	.LBB185_14
	lsrs	r3, r3, #3
	mov	r9, r4
	orr.w	r2, r3, r2, lsl #29
	mov.w	r8, #64
	.p2align	2
.LBB185_8:
	add.w	r5, r2, r2, lsl #1
	add.w	r1, r0, r5, lsl #3
	ldrd	r6, r4, [r1, #-24]
	bic	r3, r6, #7
	and	r1, r4, #15
	subs	r3, #1
	sbc	r1, r1, #0
	subs.w	r3, r3, r10
	sbcs.w	r1, r1, lr
	bhs.w	.LBB185_22
	lsrs	r6, r6, #3
	add.w	r5, r6, r6, lsl #1
	add.w	r2, r0, r5, lsl #3
	ldrd	r7, r2, [r2, #-24]
	bic	r1, r7, #7
	and	r3, r2, #15
	subs	r1, #1
	sbc	r3, r3, #0
	subs.w	r1, r1, r10
	sbcs.w	r1, r3, lr
	bhs	.LBB185_21
	lsrs	r5, r7, #3
	add.w	r4, r5, r5, lsl #1
	add.w	r1, r0, r4, lsl #3
	ldrd	r7, r6, [r1, #-24]
	bic	r3, r7, #7
	and	r1, r6, #15
	subs	r3, #1
	sbc	r1, r1, #0
	subs.w	r3, r3, r10
	sbcs.w	r1, r1, lr
	bhs	.LBB185_23
	lsrs	r1, r7, #3
	orr.w	r2, r1, r6, lsl #29
	add.w	r1, r1, r1, lsl #1
	cmp.w	r8, #0
	lsl.w	r6, r1, #3
	beq	.LBB185_24
	adds	r1, r0, r6
	ldrd	r5, r4, [r1, #-24]
	bic	r3, r5, #7
	and	r1, r4, #15
	subs	r3, #1
	sbc	r1, r1, #0
	subs.w	r3, r3, r10
	sbcs.w	r1, r1, lr
	bhs	.LBB185_24
	lsrs	r1, r5, #3
	orr.w	r2, r1, r4, lsl #29
	sub.w	r8, r8, #4
	b	.LBB185_8
	.p2align	2
.LBB185_14:
	ldrd	r1, r2, [r8, #-8]
	bic	r6, r1, #7
	and	r2, r2, #15
	subs	r1, r6, #1
	sbc	r3, r2, #0
	subs.w	r1, r1, r10
	sbcs.w	r1, r3, lr
	bhs	.LBB185_19
	mov	r9, r4
	mvn	r3, #66
	.p2align	2
.LBB185_16:
	mov	r8, r12
	mov	r12, r6
	lsrs	r6, r6, #3
	add.w	r4, r6, r6, lsl #1
	add.w	r7, r0, r4, lsl #3
	ldrd	r5, r1, [r7, #-16]
	and	r1, r1, #15
	bic	r5, r5, #7
	eor.w	r1, r1, r11
	eor.w	r5, r5, r8
	mov	r11, r2
	orr.w	r2, r6, r2, lsl #29
	orrs	r1, r5
	lsl.w	r6, r4, #3
	bne	.LBB185_24
	cbz	r3, .LBB185_24
	ldrd	r1, r2, [r7, #-8]
	adds	r3, #1
	bic	r6, r1, #7
	and	r2, r2, #15
	subs	r1, r6, #1
	sbc	r4, r2, #0
	subs.w	r1, r1, r10
	sbcs.w	r1, r4, lr
	blo	.LBB185_16
.LBB185_19:
	movs	r0, #0
	add	sp, #20
	pop.w	{r4, r5, r6, r7, r8, r9, r10, r11, lr}
	b	ic_raw.tree.nothing_found
	.p2align	2
.LBB185_20:
	strd	r12, r11, [sp, #56]
	add	sp, #20
	pop.w	{r4, r5, r6, r7, r8, r9, r10, r11, lr}
	b	ic_raw.table.RawTable.refusal_of.19bacce014a8892a
	.p2align	2
.LBB185_21:
	orr.w	r2, r6, r4, lsl #29
.LBB185_22:
	lsls	r6, r5, #3
	b	.LBB185_24
	.p2align	2
.LBB185_23:
	orr.w	r2, r5, r2, lsl #29
	lsls	r6, r4, #3
.LBB185_24:
	add	r0, r6
	ldrb	r0, [r0, #-24]
	lsls	r0, r0, #31
	itttt	ne
	subne	r1, r2, #1
	movne	r0, #0
	strne.w	r1, [r9]
	addne	sp, #20
	it	ne
	popne.w	{r4, r5, r6, r7, r8, r9, r10, r11, pc}
.LBB185_25:
	movs	r0, #1
	add	sp, #20
	pop.w	{r4, r5, r6, r7, r8, r9, r10, r11, lr}
	b	ic_raw.tree.nothing_found
.Lfunc_end185:
	.size	ic_tree_next, .Lfunc_end185-ic_tree_next
	.cfi_endproc
	.section	.text.ic_tree_prev,"ax",%progbits
	.globl	ic_tree_prev
	.p2align	2
	.type	ic_tree_prev,%function
	.code	16
	.thumb_func
ic_tree_prev:
	.cfi_startproc
	push.w	{r4, r5, r6, r7, r8, r9, r10, r11, lr}
	.cfi_def_cfa_offset 36
	.cfi_offset lr, -4
	.cfi_offset r11, -8
	.cfi_offset r10, -12
	.cfi_offset r9, -16
	.cfi_offset r8, -20
	.cfi_offset r7, -24
	.cfi_offset r6, -28
	.cfi_offset r5, -32
	.cfi_offset r4, -36
	sub	sp, #20
	.cfi_def_cfa_offset 56
	ldrd	r7, r1, [sp, #56]
	ldr	r5, [sp, #64]
	ldrd	r6, r7, [r7]
	cmp	r0, #0
	it	eq
	addeq.w	r0, r0, #4096
	and	lr, r7, #15
	adds	r1, #1
	bic	r7, r6, #7
	blo	.LBB186_2
	movs	r1, #0
	strd	r7, lr, [sp]
	strd	r1, r5, [sp, #8]
	bl	ic_raw.tree.step_from_none
	add	sp, #20
	pop.w	{r4, r5, r6, r7, r8, r9, r10, r11, pc}
	.p2align	2
.LBB186_2:
	str	r5, [sp, #16]
	subs	r5, r2, r1
	lsr.w	r12, r1, #29
	sbcs	r5, r3, #0
	lsl.w	r8, r1, #3
	blo.w	.LBB186_20
	add.w	r1, r1, r1, lsl #1
	add.w	r4, r0, r1, lsl #3
	ldr	r9, [r4, #-24]
	subs	r7, #1
	sbc	r10, lr, #0
	lsls.w	r1, r9, #31
	beq.w	.LBB186_20
	lsls	r1, r3, #3
	lsl.w	r11, r2, #3
	orr.w	lr, r1, r2, lsr #29
	subs.w	r7, r7, r11
	sbcs.w	r7, r10, lr
	bhs.w	.LBB186_20
	lsrs	r6, r6, #3
	add.w	r6, r6, r6, lsl #1
	add.w	r6, r0, r6, lsl #3
	ldrb	r6, [r6, #-24]
	lsls	r6, r6, #31
	beq.w	.LBB186_20
	ldr	r2, [r4, #-20]
	bic	r6, r9, #7
	and	r3, r2, #15
	subs	r6, #1
	sbc	r3, r3, #0
	subs.w	r6, r6, r11
	sbcs.w	r3, r3, lr
	bhs	.LBB186_14
	lsr.w	r3, r9, #3
	orr.w	r2, r3, r2, lsl #29
	mov.w	r8, #64
	.p2align	2
.LBB186_8:
	add.w	r5, r2, r2, lsl #1
	add.w	r4, r0, r5, lsl #3
	ldrd	r6, r4, [r4, #-16]
	bic	r3, r6, #7
	and	r7, r4, #15
	subs	r3, #1
	sbc	r7, r7, #0
	subs.w	r3, r3, r11
	sbcs.w	r3, r7, lr
	bhs.w	.LBB186_22
	lsrs	r6, r6, #3
	add.w	r5, r6, r6, lsl #1
	add.w	r2, r0, r5, lsl #3
	ldrd	r7, r2, [r2, #-16]
	bic	r1, r7, #7
	and	r3, r2, #15
	subs	r1, #1
	sbc	r3, r3, #0
	subs.w	r1, r1, r11
	sbcs.w	r1, r3, lr
	bhs	.LBB186_21
	lsrs	r5, r7, #3
	add.w	r4, r5, r5, lsl #1
	add.w	r1, r0, r4, lsl #3
	ldrd	r7, r6, [r1, #-16]
	bic	r3, r7, #7
	and	r1, r6, #15
	subs	r3, #1
	sbc	r1, r1, #0
	subs.w	r3, r3, r11
	sbcs.w	r1, r1, lr
	bhs	.LBB186_25
	lsrs	r1, r7, #3
	orr.w	r2, r1, r6, lsl #29
	add.w	r1, r1, r1, lsl #1
	cmp.w	r8, #0
	lsl.w	r6, r1, #3
	beq	.LBB186_23
	adds	r1, r0, r6
	ldrd	r5, r4, [r1, #-16]
	bic	r3, r5, #7
	and	r1, r4, #15
	subs	r3, #1
	sbc	r1, r1, #0
	subs.w	r3, r3, r11
	sbcs.w	r1, r1, lr
	bhs	.LBB186_23
	lsrs	r1, r5, #3
	orr.w	r2, r1, r4, lsl #29
	sub.w	r8, r8, #4
	b	.LBB186_8
	.p2align	2
.LBB186_14:
	ldrd	r1, r2, [r4, #-8]
	bic	r6, r1, #7
	and	r2, r2, #15
	subs	r1, r6, #1
	sbc	r3, r2, #0
	subs.w	r1, r1, r11
	sbcs.w	r1, r3, lr
	bhs	.LBB186_19
	mvn	r3, #66
	.p2align	2
.LBB186_16:
	mov	r9, r8
	mov	r8, r6
	lsrs	r6, r6, #3
	add.w	r4, r6, r6, lsl #1
	add.w	r7, r0, r4, lsl #3
	ldrd	r5, r1, [r7, #-24]
	and	r1, r1, #15
	bic	r5, r5, #7
	eor.w	r1, r1, r12
	eor.w	r5, r5, r9
	mov	r12, r2
	orr.w	r2, r6, r2, lsl #29
	orrs	r1, r5
	lsl.w	r6, r4, #3
	bne	.LBB186_23
	cbz	r3, .LBB186_23
	ldrd	r1, r2, [r7, #-8]
	adds	r3, #1
	bic	r6, r1, #7
	and	r2, r2, #15
	subs	r1, r6, #1
	sbc	r4, r2, #0
	subs.w	r1, r1, r11
	sbcs.w	r1, r4, lr
	blo	.LBB186_16
.LBB186_19:
	movs	r0, #0
	add	sp, #20
	pop.w	{r4, r5, r6, r7, r8, r9, r10, r11, lr}
	b	ic_raw.tree.nothing_found
	.p2align	2
.LBB186_20:
	strd	r8, r12, [sp, #56]
	add	sp, #20
	pop.w	{r4, r5, r6, r7, r8, r9, r10, r11, lr}
	b	ic_raw.table.RawTable.refusal_of.19bacce014a8892a
	.p2align	2
.LBB186_21:
	orr.w	r2, r6, r4, lsl #29
.LBB186_22:
	lsls	r6, r5, #3
.LBB186_23:
	add	r0, r6
	ldrb	r0, [r0, #-24]
	lsls	r0, r0, #31
	beq	.LBB186_26
.LBB186_24:
	subs	r1, r2, #1
	ldr	r2, [sp, #16]
	movs	r0, #0
	str	r1, [r2]
	add	sp, #20
	pop.w	{r4, r5, r6, r7, r8, r9, r10, r11, pc}
	.p2align	2
.LBB186_25:
	orr.w	r2, r5, r2, lsl #29
	lsls	r6, r4, #3
	add	r0, r6
	ldrb	r0, [r0, #-24]
	lsls	r0, r0, #31
	bne	.LBB186_24
.LBB186_26:
	movs	r0, #1
	add	sp, #20
	pop.w	{r4, r5, r6, r7, r8, r9, r10, r11, lr}
	b	ic_raw.tree.nothing_found
.Lfunc_end186:
	.size	ic_tree_prev, .Lfunc_end186-ic_tree_prev
	.cfi_endproc
	.section	.text.ic_tree_remove,"ax",%progbits
	.globl	ic_tree_remove
	.p2align	2
	.type	ic_tree_remove,%function
	.code	16
	.thumb_func
ic_tree_remove:
	.cfi_startproc
	ldrd	r1, r12, [sp]
	cmp	r0, #0
	it	eq
	addeq.w	r0, r0, #4096
	strd	r1, r12, [sp]
	b	ic_raw.tree_calls.remove
.Lfunc_end187:
	.size	ic_tree_remove, .Lfunc_end187-ic_tree_remove
	.cfi_endproc
	.section	.text.ic_tree_replace,"ax",%progbits
	.globl	ic_tree_replace
	.p2align	2
	.type	ic_tree_replace,%function
	.code	16
	.thumb_func
ic_tree_replace:
	.cfi_startproc
	push	{r7, lr}
	.cfi_def_cfa_offset 8
	.cfi_offset lr, -4
	.cfi_offset r7, -8
	ldr.w	r12, [sp, #16]
	ldrd	r1, lr, [sp, #8]
	cmp	r0, #0
	it	eq
	addeq.w	r0, r0, #4096
	strd	r1, lr, [sp, #8]
	str.w	r12, [sp, #16]
	pop.w	{r7, lr}
	b	ic_raw.tree_calls.replace
.Lfunc_end188:
	.size	ic_tree_replace, .Lfunc_end188-ic_tree_replace
	.cfi_endproc
	.section	.text.ic_tree_split,"ax",%progbits
	.globl	ic_tree_split
	.p2align	2
	.type	ic_tree_split,%function
	.code	16
	.thumb_func
ic_tree_split:
	.cfi_startproc
	push.w	{r4, r5, r6, r7, r8, r9, r10, r11, lr}
	.cfi_def_cfa_offset 36
	.cfi_offset lr, -4
	.cfi_offset r11, -8
	.cfi_offset r10, -12
	.cfi_offset r9, -16
	.cfi_offset r8, -20
	.cfi_offset r7, -24
	.cfi_offset r6, -28
	.cfi_offset r5, -32
	.cfi_offset r4, -36
	sub	sp, #164
	.cfi_def_cfa_offset 200
	ldr	r1, [sp, #204]
	cmp	r0, #0
	it	eq
	addeq.w	r0, r0, #4096
	adds	r6, r1, #1
	blo	.LBB189_2
	movs	r0, #4
	add	sp, #164
	pop.w	{r4, r5, r6, r7, r8, r9, r10, r11, pc}
	.p2align	2
.LBB189_2:
	subs	r1, r2, r6
	sbcs	r1, r3, #0
	bhs	.LBB189_4
	movs	r0, #1
	add	sp, #164
	pop.w	{r4, r5, r6, r7, r8, r9, r10, r11, pc}
	.p2align	2
.LBB189_4:
	add.w	r4, r6, r6, lsl #1
	add.w	r1, r0, r4, lsl #3
	ldrb	r1, [r1, #-24]
	lsls	r1, r1, #31
	bne	.LBB189_6
	movs	r0, #3
	add	sp, #164
	pop.w	{r4, r5, r6, r7, r8, r9, r10, r11, pc}
	.p2align	2
.LBB189_6:
	ldr	r1, [sp, #208]
	str	r0, [sp, #72]
	ldrd	r1, r7, [r1]
	movs	r0, #0
	and	r7, r7, #15
	bic	r1, r1, #7
	orrs	r1, r7
	add	r1, sp, #76
	stm	r1!, {r0, r2, r3}
	beq	.LBB189_8
.LBB189_7:
	movs	r0, #5
	add	sp, #164
	pop.w	{r4, r5, r6, r7, r8, r9, r10, r11, pc}
	.p2align	2
.LBB189_8:
	ldr	r1, [sp, #200]
	ldrd	r1, r2, [r1]
	and	r5, r2, #15
	bic	r7, r1, #7
	orrs.w	r2, r7, r5
	mov.w	r1, #66
	it	ne
	movne	r2, #1
	strd	r0, r0, [sp, #16]
	str	r1, [sp, #24]
	str	r0, [sp, #8]
	add	r0, sp, #136
	add	r1, sp, #72
	str	r7, [sp]
	str	r5, [sp, #4]
	bl	ic_check.tree.check_below.ffc36cde30076884
	ldrb.w	r0, [sp, #136]
	cmp	r0, #1
	mov.w	r0, #5
	bne.w	.LBB189_47
	ldrb.w	r1, [sp, #156]
	strd	r7, r5, [sp, #64]
	cmp	r1, #1
	bne.w	.LBB189_47
	ldr.w	r8, [sp, #72]
	lsls	r0, r4, #3
	add	r0, r8
	str	r0, [sp, #60]
	ldrd	r0, r1, [r0, #-8]
	lsr.w	r10, r6, #29
	lsls	r5, r6, #3
	and	r3, r1, #15
	bic	r2, r0, #7
	orrs.w	r0, r2, r3
	mov	r9, r5
	mov	r12, r10
	beq	.LBB189_19
	ldrd	lr, r4, [sp, #80]
	movs	r6, #0
	mov	r0, r5
	mov	r1, r10
	movs	r7, #0
	b	.LBB189_14
	.p2align	2
.LBB189_12:
	rsbs.w	r0, r6, #64
	mov.w	r0, #0
	sbcs	r0, r7
	blo	.LBB189_7
.LBB189_13:
	ldrd	r0, r1, [r11, #-8]
	adds	r6, #1
	and	r3, r1, #15
	bic	r2, r0, #7
	adc	r7, r7, #0
	orrs.w	r0, r2, r3
	mov	r0, r9
	mov	r1, r12
	beq	.LBB189_19
.LBB189_14:
	mov	r9, r2
	lsrs	r2, r2, #3
	orr.w	r2, r2, r3, lsl #29
	mov	r12, r3
	subs.w	r3, lr, r2
	sbcs.w	r3, r4, r12, lsr #3
	blo	.LBB189_7
	add.w	r2, r2, r2, lsl #1
	add.w	r11, r8, r2, lsl #3
	ldr	r2, [r11, #-24]
	lsls	r3, r2, #31
	beq	.LBB189_7
	ldr	r3, [r11, #-20]
	bic	r2, r2, #7
	and	r3, r3, #15
	eors	r2, r0
	eors	r3, r1
	orrs	r2, r3
	beq	.LBB189_12
	ldrd	r2, r3, [r11, #-16]
	bic	r2, r2, #7
	and	r3, r3, #15
	eors	r1, r3
	eors	r0, r2
	orrs	r0, r1
	mov.w	r0, #5
	bne.w	.LBB189_47
	subs.w	r1, r6, #65
	sbcs	r1, r7, #0
	blo	.LBB189_13
	b	.LBB189_47
	.p2align	2
.LBB189_19:
	ldr	r0, [sp, #64]
	ldr	r1, [sp, #68]
	eor.w	r0, r0, r9
	eor.w	r1, r1, r12
	orrs	r0, r1
	bne.w	.LBB189_7
	ldr	r0, [sp, #60]
	ldrd	r0, r1, [r0, #-24]
	and	r1, r1, #15
	bic	r2, r0, #7
	orrs.w	r0, r2, r1
	beq	.LBB189_27
	sub.w	r0, r8, #16
	mov	r5, r2
	mov	r10, r1
.LBB189_22:
	lsrs	r1, r5, #3
	add.w	r1, r1, r1, lsl #1
	add.w	r2, r0, r1, lsl #3
	ldr.w	r3, [r0, r1, lsl #3]
	ldr	r2, [r2, #4]
	bic	r1, r3, #7
	and	r2, r2, #15
	orrs.w	r7, r1, r2
	beq	.LBB189_28
	lsrs	r3, r3, #3
	add.w	r3, r3, r3, lsl #1
	add.w	r7, r0, r3, lsl #3
	ldr.w	r3, [r0, r3, lsl #3]
	ldr	r7, [r7, #4]
	bic	r5, r3, #7
	and	r10, r7, #15
	orrs.w	r7, r5, r10
	beq	.LBB189_26
	lsrs	r1, r3, #3
	add.w	r1, r1, r1, lsl #1
	add.w	r2, r0, r1, lsl #3
	ldr.w	r3, [r0, r1, lsl #3]
	ldr	r2, [r2, #4]
	bic	r1, r3, #7
	and	r2, r2, #15
	orrs.w	r7, r1, r2
	beq	.LBB189_28
	lsrs	r3, r3, #3
	add.w	r3, r3, r3, lsl #1
	add.w	r7, r0, r3, lsl #3
	ldr.w	r3, [r0, r3, lsl #3]
	ldr	r7, [r7, #4]
	bic	r5, r3, #7
	and	r10, r7, #15
	orrs.w	r3, r5, r10
	bne	.LBB189_22
.LBB189_26:
	movs	r0, #1
	mov	r5, r1
	mov	r10, r2
	b	.LBB189_29
	.p2align	2
.LBB189_27:
	movs	r0, #0
	b	.LBB189_29
	.p2align	2
.LBB189_28:
	movs	r0, #1
.LBB189_29:
	movs	r1, #1
	str	r1, [sp, #68]
	movs	r1, #67
	mov.w	r11, #0
	str	r1, [sp, #64]
	movs	r1, #0
	mov.w	r8, #0
	mov.w	r9, #0
	strd	r1, r1, [sp, #36]
	strd	r1, r1, [sp, #28]
	strd	r1, r1, [sp, #44]
	b	.LBB189_33
	.p2align	2
.LBB189_30:
	add	r0, sp, #88
	add	r1, sp, #72
	add	r2, sp, #112
	movs	r3, #0
	add	r7, sp, #136
	strd	r5, r10, [sp]
.LBB189_31:
	str	r7, [sp, #8]
	bl	ic_rbtree.join.roots.join_higher.f4da04d8a93b4f27
	ldrb.w	r0, [sp, #88]
	ldrd	r8, r9, [sp, #96]
	str	r0, [sp, #48]
	ldr	r0, [sp, #104]
	str	r0, [sp, #44]
.LBB189_32:
	ldr	r0, [sp, #64]
	add.w	r10, sp, #52
	subs	r0, #1
	str	r0, [sp, #64]
	ldm.w	r10, {r0, r5, r10}
	add	r11, r4
	beq.w	.LBB189_46
.LBB189_33:
	ldr	r1, [sp, #68]
	lsls	r1, r1, #31
	beq.w	.LBB189_46
	ldr	r4, [sp, #72]
	lsrs	r1, r5, #3
	add.w	r1, r1, r1, lsl #1
	add.w	r2, r4, r1, lsl #3
	ldrd	r1, r3, [r2, #-8]
	and	r3, r3, #15
	bic	r7, r1, #7
	strd	r7, r3, [sp, #56]
	orrs	r3, r7
	it	ne
	movne	r3, #1
	str	r3, [sp, #68]
	beq	.LBB189_36
	lsrs	r3, r1, #3
	add.w	r3, r3, r3, lsl #1
	add.w	r3, r4, r3, lsl #3
	ldrd	r3, r7, [r3, #-24]
	bic	r3, r3, #7
	and	r7, r7, #15
	eor.w	r7, r7, r10
	eors	r3, r5
	orrs	r3, r7
	it	ne
	movne	r3, #1
	b	.LBB189_37
	.p2align	2
.LBB189_36:
	movs	r3, #0
.LBB189_37:
	lsls.w	r12, r0, #24
	mvn	r0, #23
	str	r3, [sp, #52]
	it	eq
	mvneq	r0, #15
	adds	r3, r2, r0
	ldr	r7, [r2, r0]
	ldr	r0, [r3, #4]
	bic	r2, r7, #7
	and	r6, r0, #15
	orrs.w	r3, r2, r6
	mov	r0, r11
	it	ne
	movne	r3, #1
	beq	.LBB189_39
	lsrs	r0, r7, #3
	add.w	r0, r0, r0, lsl #1
	add.w	r7, r4, r0, lsl #3
	ldr	r4, [r7, #-8]
	mov	lr, r9
	and	r4, r4, #1
	mov	r9, r8
	mov	r8, r5
	movs	r5, #0
	strd	r4, r5, [r7, #-8]
	ldr	r5, [sp, #72]
	add.w	r0, r5, r0, lsl #3
	ldr	r5, [r0, #-8]
	orr	r5, r5, #1
	str	r5, [r0, #-8]
	sub.w	r0, r11, r4
	mov	r5, r8
	mov	r8, r9
	mov	r9, lr
	adds	r0, #1
.LBB189_39:
	cmp.w	r12, #0
	and	r4, r1, #1
	mov.w	r1, #0
	beq	.LBB189_42
	add.w	r12, sp, #140
	stm.w	r12, {r1, r2, r6}
	ldr	r2, [sp, #48]
	strd	r0, r1, [sp, #152]
	str	r2, [sp, #112]
	ldr	r2, [sp, #44]
	strd	r1, r3, [sp, #132]
	cmp	r2, r0
	str	r1, [sp, #116]
	strd	r8, r9, [sp, #120]
	str	r2, [sp, #128]
	strd	r1, r1, [sp, #88]
	strd	r1, r1, [sp, #96]
	str	r1, [sp, #104]
	str	r1, [sp, #108]
	bhi.w	.LBB189_30
	add	r7, sp, #112
	strd	r5, r10, [sp]
	add	r0, sp, #88
	add	r1, sp, #72
	add	r2, sp, #136
	movs	r3, #1
	b	.LBB189_31
	.p2align	2
.LBB189_42:
	ldr	r7, [sp, #32]
	str	r1, [sp, #156]
	str	r7, [sp, #136]
	ldr	r7, [sp, #36]
	str	r1, [sp, #140]
	str	r7, [sp, #144]
	ldr	r7, [sp, #40]
	strd	r3, r1, [sp, #112]
	str	r7, [sp, #148]
	ldr	r7, [sp, #28]
	strd	r2, r6, [sp, #120]
	cmp	r0, r7
	str	r7, [sp, #152]
	strd	r0, r1, [sp, #128]
	strd	r1, r1, [sp, #88]
	strd	r1, r1, [sp, #96]
	str	r1, [sp, #104]
	str	r1, [sp, #108]
	bls	.LBB189_44
	add	r0, sp, #88
	add	r1, sp, #72
	add	r2, sp, #112
	movs	r3, #0
	add	r7, sp, #136
	strd	r5, r10, [sp]
	b	.LBB189_45
	.p2align	2
.LBB189_44:
	add	r7, sp, #112
	strd	r5, r10, [sp]
	add	r0, sp, #88
	add	r1, sp, #72
	add	r2, sp, #136
	movs	r3, #1
.LBB189_45:
	str	r7, [sp, #8]
	bl	ic_rbtree.join.roots.join_higher.f4da04d8a93b4f27
	ldrb.w	r0, [sp, #88]
	str	r0, [sp, #32]
	ldr	r0, [sp, #100]
	str	r0, [sp, #40]
	ldr	r0, [sp, #96]
	str	r0, [sp, #36]
	ldr	r0, [sp, #104]
	str	r0, [sp, #28]
	b	.LBB189_32
	.p2align	2
.LBB189_46:
	ldr	r0, [sp, #48]
	cmp	r0, #0
	itt	eq
	moveq	r9, r0
	moveq	r8, r0
	ldr	r0, [sp, #32]
	ldr	r1, [sp, #40]
	cmp	r0, #0
	it	eq
	moveq	r1, r0
	ldr	r2, [sp, #36]
	it	eq
	moveq	r2, r0
	ldr	r0, [sp, #200]
	strd	r8, r9, [r0]
	ldr	r0, [sp, #208]
	strd	r2, r1, [r0]
	movs	r0, #0
.LBB189_47:
	add	sp, #164
	pop.w	{r4, r5, r6, r7, r8, r9, r10, r11, pc}
.Lfunc_end189:
	.size	ic_tree_split, .Lfunc_end189-ic_tree_split
	.cfi_endproc
	.section	.text.ic_tree_sums_before,"ax",%progbits
	.globl	ic_tree_sums_before
	.p2align	2
	.type	ic_tree_sums_before,%function
	.code	16
	.thumb_func
ic_tree_sums_before:
	.cfi_startproc
	push.w	{r4, r5, r6, r7, r8, r9, r10, r11, lr}
	.cfi_def_cfa_offset 36
	.cfi_offset lr, -4
	.cfi_offset r11, -8
	.cfi_offset r10, -12
	.cfi_offset r9, -16
	.cfi_offset r8, -20
	.cfi_offset r7, -24
	.cfi_offset r6, -28
	.cfi_offset r5, -32
	.cfi_offset r4, -36
	sub	sp, #52
	.cfi_def_cfa_offset 88
	ldr	r1, [sp, #88]
	mov	r5, r0
	ldr	r6, [sp, #108]
	cmp	r0, #0
	it	eq
	addeq.w	r5, r5, #4096
	cmp	r1, #0
	it	eq
	addeq.w	r1, r1, #4096
	str	r1, [sp, #4]
	movs	r1, #0
	adds	r0, r6, #1
	str	r5, [sp, #32]
	str	r1, [sp, #36]
	str	r3, [sp, #44]
	str	r2, [sp, #40]
	blo	.LBB190_2
	movs	r0, #4
	add	sp, #52
	pop.w	{r4, r5, r6, r7, r8, r9, r10, r11, pc}
	.p2align	2
.LBB190_2:
	mov	r4, r3
	ldrd	r1, r3, [sp, #96]
	subs	r1, r1, r2
	sbcs.w	r1, r3, r4
	blo.w	.LBB190_43
	subs	r1, r2, r0
	sbcs	r1, r4, #0
	blo.w	.LBB190_43
	add.w	r1, r0, r0, lsl #1
	add.w	r1, r5, r1, lsl #3
	ldr	r7, [r1, #-24]
	lsls	r3, r7, #31
	beq.w	.LBB190_43
	ldr	r3, [r1, #-20]
	bic	r7, r7, #7
	lsls	r6, r4, #3
	and	r3, r3, #15
	orr.w	r12, r6, r2, lsr #29
	subs	r6, r7, #1
	sbc	r4, r3, #0
	subs.w	r6, r6, r2, lsl #3
	lsr.w	r1, r0, #29
	sbcs.w	r6, r4, r12
	lsl.w	r10, r0, #3
	bhs	.LBB190_8
	lsrs	r7, r7, #3
	orr.w	r7, r7, r3, lsl #29
	subs	r6, r7, #1
	ldr	r7, [sp, #96]
	lsr.w	r3, r3, #3
	sbc	r3, r3, #0
	subs	r7, r6, r7
	ldr	r7, [sp, #100]
	sbcs	r3, r7
	bhs	.LBB190_8
	ldr	r3, [sp, #4]
	add.w	r3, r3, r6, lsl #4
	ldrd	r0, r6, [r3, #8]
	b	.LBB190_9
	.p2align	2
.LBB190_8:
	movs	r0, #0
	movs	r6, #0
.LBB190_9:
	ldr.w	r11, [sp, #104]
	lsl.w	r8, r2, #3
	mov.w	r9, #66
	str	r1, [sp, #28]
	strd	r5, r8, [sp, #8]
	b	.LBB190_12
	.p2align	2
.LBB190_10:
	ldr.w	r10, [sp, #28]
	ldr	r5, [sp, #8]
.LBB190_11:
	str	r1, [sp, #28]
	sub.w	r9, r9, #2
.LBB190_12:
	lsr.w	r2, r10, #3
	add.w	r2, r2, r2, lsl #1
	add.w	r2, r5, r2, lsl #3
	ldrd	r1, r2, [r2, #-8]
	bic	lr, r1, #7
	and	r4, r2, #15
	subs.w	r2, lr, #1
	sbc	r3, r4, #0
	subs.w	r2, r2, r8
	sbcs.w	r2, r3, r12
	bhs.w	.LBB190_42
	lsr.w	r2, lr, #3
	add.w	r3, r2, r2, lsl #1
	strd	r1, r9, [sp, #20]
	add.w	r1, r5, r3, lsl #3
	mov	r9, r11
	mov	r3, r10
	ldrd	r10, r11, [r1, #-16]
	str	r1, [sp, #16]
	ldr	r1, [sp, #28]
	mov	r8, r6
	mov	r6, r0
	mov	r0, r5
	bic	r7, r10, #7
	and	r5, r11, #15
	eors	r1, r5
	eor.w	r5, r7, r3
	orrs	r1, r5
	bne	.LBB190_16
	orr.w	r1, r2, r4, lsl #29
	ldr	r5, [sp, #96]
	lsrs	r2, r4, #3
	subs	r1, #1
	sbc	r2, r2, #0
	subs	r5, r1, r5
	ldr	r5, [sp, #100]
	sbcs	r2, r5
	bhs	.LBB190_17
	ldr	r7, [sp, #4]
	lsls	r2, r1, #4
	add.w	r5, r7, r1, lsl #4
	ldr	r1, [r7, r2]
	ldr	r2, [r5, #4]
	b	.LBB190_18
	.p2align	2
.LBB190_16:
	mov	r10, r0
	mov	r0, r6
	mov	r6, r8
	mov	r11, r9
	ldr.w	r8, [sp, #12]
	ldr.w	r9, [sp, #24]
	b	.LBB190_27
	.p2align	2
.LBB190_17:
	movs	r1, #0
	movs	r2, #0
.LBB190_18:
	mov	r10, r0
	mov	r11, r9
	cmp.w	r9, #0
	mov	r0, r6
	mov	r6, r8
	beq	.LBB190_20
	subs	r5, r0, r1
	sbcs.w	r5, r6, r2
	itt	lo
	movlo	r6, r2
	movlo	r0, r1
	b	.LBB190_21
	.p2align	2
.LBB190_20:
	adds	r0, r0, r1
	adcs	r6, r2
	mov.w	r1, #0
	adcs	r1, r1, #0
	itt	ne
	movne.w	r6, #-1
	movne.w	r0, #-1
.LBB190_21:
	ldrd	r8, r1, [sp, #12]
	ldr.w	r9, [sp, #24]
	ldrd	r2, r1, [r1, #-24]
	bic	r2, r2, #7
	and	r1, r1, #15
	subs	r3, r2, #1
	sbc	r5, r1, #0
	subs.w	r3, r3, r8
	sbcs.w	r3, r5, r12
	bhs	.LBB190_25
	lsrs	r2, r2, #3
	orr.w	r2, r2, r1, lsl #29
	lsrs	r3, r1, #3
	subs	r1, r2, #1
	sbc	r2, r3, #0
	ldr	r3, [sp, #96]
	subs	r3, r1, r3
	ldr	r3, [sp, #100]
	sbcs	r2, r3
	bhs	.LBB190_25
	ldr	r2, [sp, #4]
	add.w	r1, r2, r1, lsl #4
	ldrd	r1, r3, [r1, #8]
	cmp.w	r11, #0
	bne	.LBB190_26
.LBB190_24:
	adds	r0, r0, r1
	adcs	r6, r3
	mov.w	r1, #0
	adcs	r1, r1, #0
	itt	ne
	movne.w	r6, #-1
	movne.w	r0, #-1
	b	.LBB190_27
	.p2align	2
.LBB190_25:
	movs	r1, #0
	movs	r3, #0
	cmp.w	r11, #0
	beq	.LBB190_24
.LBB190_26:
	subs	r2, r0, r1
	sbcs.w	r2, r6, r3
	itt	lo
	movlo	r6, r3
	movlo	r0, r1
.LBB190_27:
	cmp.w	r9, #0
	beq.w	.LBB190_44
	ldr	r1, [sp, #20]
	lsrs	r1, r1, #3
	add.w	r1, r1, r1, lsl #1
	add.w	r1, r10, r1, lsl #3
	ldrd	r2, r1, [r1, #-8]
	bic	r5, r2, #7
	and	r1, r1, #15
	subs	r2, r5, #1
	sbc	r3, r1, #0
	subs.w	r2, r2, r8
	sbcs.w	r2, r3, r12
	bhs.w	.LBB190_42
	lsrs	r2, r5, #3
	add.w	r3, r2, r2, lsl #1
	add.w	r3, r10, r3, lsl #3
	str	r5, [sp, #28]
	ldrd	r5, r7, [r3, #-16]
	bic	r5, r5, #7
	and	r7, r7, #15
	eors	r4, r7
	eor.w	r7, r5, lr
	orrs	r7, r4
	bne.w	.LBB190_10
	orr.w	r2, r2, r1, lsl #29
	ldr	r5, [sp, #96]
	lsrs	r7, r1, #3
	subs	r2, #1
	sbc	r7, r7, #0
	subs	r5, r2, r5
	ldr	r5, [sp, #100]
	sbcs	r7, r5
	bhs	.LBB190_33
	ldr	r5, [sp, #4]
	lsls	r7, r2, #4
	add.w	r2, r5, r2, lsl #4
	ldr	r4, [r5, r7]
	ldr	r2, [r2, #4]
	cmp.w	r11, #0
	beq	.LBB190_34
.LBB190_32:
	subs	r7, r0, r4
	sbcs.w	r7, r6, r2
	itt	lo
	movlo	r6, r2
	movlo	r0, r4
	b	.LBB190_35
	.p2align	2
.LBB190_33:
	movs	r4, #0
	movs	r2, #0
	cmp.w	r11, #0
	bne	.LBB190_32
.LBB190_34:
	adds	r0, r0, r4
	adcs	r6, r2
	mov.w	r2, #0
	adcs	r2, r2, #0
	itt	ne
	movne.w	r6, #-1
	movne.w	r0, #-1
.LBB190_35:
	ldrd	r3, r2, [r3, #-24]
	bic	r3, r3, #7
	and	r2, r2, #15
	subs	r7, r3, #1
	sbc	r5, r2, #0
	subs.w	r7, r7, r8
	sbcs.w	r7, r5, r12
	bhs	.LBB190_39
	lsrs	r3, r3, #3
	orr.w	r3, r3, r2, lsl #29
	lsrs	r7, r2, #3
	subs	r2, r3, #1
	sbc	r3, r7, #0
	ldr	r7, [sp, #96]
	ldr.w	r10, [sp, #28]
	subs	r7, r2, r7
	ldr	r7, [sp, #100]
	sbcs	r3, r7
	bhs	.LBB190_40
	ldr	r3, [sp, #4]
	add.w	r2, r3, r2, lsl #4
	ldrd	r3, r4, [r2, #8]
	ldr	r5, [sp, #8]
	cmp.w	r11, #0
	bne	.LBB190_41
.LBB190_38:
	adds	r0, r0, r3
	adcs	r6, r4
	mov.w	r2, #0
	adcs	r2, r2, #0
	itt	ne
	movne.w	r6, #-1
	movne.w	r0, #-1
	b	.LBB190_11
	.p2align	2
.LBB190_39:
	ldr.w	r10, [sp, #28]
.LBB190_40:
	movs	r3, #0
	movs	r4, #0
	ldr	r5, [sp, #8]
	cmp.w	r11, #0
	beq	.LBB190_38
.LBB190_41:
	subs	r2, r0, r3
	sbcs.w	r2, r6, r4
	itt	lo
	movlo	r6, r4
	movlo	r0, r3
	b	.LBB190_11
	.p2align	2
.LBB190_42:
	ldr	r1, [sp, #112]
	strd	r0, r6, [r1]
	movs	r0, #0
	add	sp, #52
	pop.w	{r4, r5, r6, r7, r8, r9, r10, r11, pc}
	.p2align	2
.LBB190_43:
	ldrd	r2, r3, [sp, #96]
	add	r0, sp, #32
	str	r6, [sp]
	bl	ic_raw_augmented.sum_calls.refusal
	add	sp, #52
	pop.w	{r4, r5, r6, r7, r8, r9, r10, r11, pc}
	.p2align	2
.LBB190_44:
	ldrd	r2, r3, [sp, #96]
	ldr	r1, [sp, #108]
	add	r0, sp, #32
	str	r1, [sp]
	bl	ic_raw_augmented.sum_calls.refusal
	add	sp, #52
	pop.w	{r4, r5, r6, r7, r8, r9, r10, r11, pc}
.Lfunc_end190:
	.size	ic_tree_sums_before, .Lfunc_end190-ic_tree_sums_before
	.cfi_endproc
	.section	.text.ic_tree_sums_find,"ax",%progbits
	.globl	ic_tree_sums_find
	.p2align	2
	.type	ic_tree_sums_find,%function
	.code	16
	.thumb_func
ic_tree_sums_find:
	.cfi_startproc
	push.w	{r4, r5, r6, r7, r8, r9, r10, r11, lr}
	.cfi_def_cfa_offset 36
	.cfi_offset lr, -4
	.cfi_offset r11, -8
	.cfi_offset r10, -12
	.cfi_offset r9, -16
	.cfi_offset r8, -20
	.cfi_offset r7, -24
	.cfi_offset r6, -28
	.cfi_offset r5, -32
	.cfi_offset r4, -36
	sub	sp, #92
	.cfi_def_cfa_offset 128
	mov	r9, r2
	mov	r6, r0
	add	r4, sp, #144
	ldr	r2, [sp, #128]
	ldm	r4, {r0, r1, r4}
	cmp	r6, #0
	it	eq
	addeq.w	r6, r6, #4096
	cmp	r2, #0
	it	eq
	addeq.w	r2, r2, #4096
	ldrd	r7, r1, [r1]
	movs	r5, #0
	add.w	r12, sp, #52
	mov	r11, r3
	cmp	r0, #0
	it	ne
	movne	r0, #1
	stm.w	r12, {r5, r9, r11}
	and	r1, r1, #15
	bic	r12, r7, #7
	orrs.w	r7, r12, r1
	ldrd	r8, r3, [sp, #136]
	str	r6, [sp, #48]
	str	r5, [sp, #84]
	strd	r5, r5, [sp, #76]
	strd	r5, r5, [sp, #68]
	it	ne
	movne	r7, #1
	adds.w	lr, r4, #1
	mov	r10, lr
	it	ne
	movne.w	r10, #1
	subs.w	r4, r8, r9
	sbcs.w	r4, r3, r11
	str	r5, [sp, #64]
	blo	.LBB191_13
	cmp.w	lr, #0
	beq	.LBB191_4
	subs.w	r4, r9, lr
	sbcs	r4, r11, #0
	blo	.LBB191_13
	add.w	r4, lr, lr, lsl #1
	add.w	r4, r6, r4, lsl #3
	ldrb	r4, [r4, #-24]
	lsls	r4, r4, #31
	beq	.LBB191_13
.LBB191_4:
	cbz	r7, .LBB191_7
	lsr.w	r4, r12, #3
	orr.w	r5, r4, r1, lsl #29
	subs.w	r4, r9, r5
	sbcs.w	r4, r11, r1, lsr #3
	blo	.LBB191_13
	add.w	r4, r5, r5, lsl #1
	add.w	r4, r6, r4, lsl #3
	ldrb	r4, [r4, #-24]
	lsls	r4, r4, #31
	beq	.LBB191_13
.LBB191_7:
	mov	r4, r3
	lsr.w	r8, lr, #29
	lsl.w	r3, lr, #3
	strd	r3, r8, [sp, #32]
	ldr	r3, [sp, #164]
	ldr	r5, [sp, #160]
	mov	r8, r4
	str	r3, [sp, #44]
	ldr	r4, [sp, #136]
	add	r3, sp, #8
	stm.w	r3, {r0, r7, r12}
	str	r1, [sp, #20]
	add	r0, sp, #64
	add	r1, sp, #48
	str	r5, [sp, #40]
	strd	r4, r8, [sp]
	str.w	r10, [sp, #24]
	bl	ic_raw_augmented.find.find
	ldrb.w	r0, [sp, #64]
	cmp	r0, #1
	bne	.LBB191_14
	ldrb.w	r0, [sp, #72]
	cmp	r0, #1
	bne	.LBB191_12
	ldrd	r0, r1, [sp, #80]
	lsrs	r0, r0, #3
	orr.w	r0, r0, r1, lsl #29
	subs.w	r2, r9, r0
	sbcs.w	r1, r11, r1, lsr #3
	blo	.LBB191_14
	add.w	r1, r0, r0, lsl #1
	add.w	r1, r6, r1, lsl #3
	ldrb	r1, [r1, #-24]
	lsls	r1, r1, #31
	beq	.LBB191_14
	ldr	r1, [sp, #168]
	subs	r0, #1
	str	r0, [r1]
	movs	r0, #0
	add	sp, #92
	pop.w	{r4, r5, r6, r7, r8, r9, r10, r11, pc}
	.p2align	2
.LBB191_12:
	movs	r0, #4
	add	sp, #92
	pop.w	{r4, r5, r6, r7, r8, r9, r10, r11, pc}
	.p2align	2
.LBB191_13:
	ldr	r2, [sp, #136]
	add	r0, sp, #48
	b	.LBB191_15
	.p2align	2
.LBB191_14:
	add	r0, sp, #48
	mov	r2, r4
	mov	r3, r8
.LBB191_15:
	ldr	r1, [sp, #152]
	str	r1, [sp]
	bl	ic_raw_augmented.sum_calls.refusal
	add	sp, #92
	pop.w	{r4, r5, r6, r7, r8, r9, r10, r11, pc}
.Lfunc_end191:
	.size	ic_tree_sums_find, .Lfunc_end191-ic_tree_sums_find
	.cfi_endproc
	.section	.text.ic_tree_sums_insert,"ax",%progbits
	.globl	ic_tree_sums_insert
	.p2align	2
	.type	ic_tree_sums_insert,%function
	.code	16
	.thumb_func
ic_tree_sums_insert:
	.cfi_startproc
	push.w	{r4, r5, r6, r7, r8, r9, r10, r11, lr}
	.cfi_def_cfa_offset 36
	.cfi_offset lr, -4
	.cfi_offset r11, -8
	.cfi_offset r10, -12
	.cfi_offset r9, -16
	.cfi_offset r8, -20
	.cfi_offset r7, -24
	.cfi_offset r6, -28
	.cfi_offset r5, -32
	.cfi_offset r4, -36
	sub	sp, #252
	.cfi_def_cfa_offset 288
	mov	r11, r0
	ldr	r5, [sp, #288]
	ldr	r1, [sp, #304]
	cmp.w	r11, #0
	mov	r6, r3
	add	r3, sp, #312
	it	eq
	addeq.w	r11, r11, #4096
	cmp	r5, #0
	mov	r7, r2
	ldm	r3, {r0, r2, r3}
	it	eq
	addeq.w	r5, r5, #4096
	cmp	r1, #0
	it	eq
	addeq.w	r1, r1, #4096
	cmp	r3, #0
	it	ne
	movne	r3, #1
	subs	r0, r0, r7
	sbcs.w	r0, r2, r6
	bhs	.LBB192_2
	movs	r7, #1
	mov	r0, r7
	add	sp, #252
	pop.w	{r4, r5, r6, r7, r8, r9, r10, r11, pc}
	.p2align	2
.LBB192_2:
	ldrd	r8, r0, [sp, #324]
	strd	r3, r1, [sp, #40]
	adds	r4, r0, #1
	lsl.w	r0, r4, #3
	lsr.w	r1, r4, #29
	str	r4, [sp, #56]
	it	ne
	movne	r4, #1
	strd	r1, r0, [sp, #32]
	strd	r0, r1, [sp, #96]
	add	r0, sp, #96
	ldr.w	r10, [sp, #296]
	adds	r0, #8
	mov.w	r9, #0
	movs	r1, #0
	movs	r2, #104
	movs	r3, #0
	str.w	r9, [sp]
	bl	ic.clear
	ldrd	r0, r1, [r8]
	strd	r4, r9, [sp, #208]
	bic	r12, r0, #7
	subs.w	r0, r10, r7
	ldr	r0, [sp, #300]
	and	r2, r1, #15
	sbcs	r0, r6
	strd	r9, r9, [sp, #216]
	strd	r11, r9, [sp, #232]
	str	r6, [sp, #244]
	str	r7, [sp, #240]
	str	r2, [sp, #228]
	str	r7, [sp, #48]
	str	r6, [sp, #52]
	str.w	r12, [sp, #224]
	blo.w	.LBB192_21
	orrs.w	r0, r12, r2
	beq.w	.LBB192_13
	lsr.w	r0, r12, #3
	ldr	r1, [sp, #48]
	orr.w	r0, r0, r2, lsl #29
	subs	r1, r1, r0
	ldr	r1, [sp, #52]
	sbcs.w	r1, r1, r2, lsr #3
	blo.w	.LBB192_21
	ldr	r1, [sp, #56]
	cmp	r1, #0
	beq.w	.LBB192_21
	ldr	r1, [sp, #48]
	mov	r3, r2
	ldr	r2, [sp, #56]
	subs	r1, r1, r2
	ldr	r1, [sp, #52]
	sbcs	r1, r1, #0
	blo.w	.LBB192_21
	add.w	r0, r0, r0, lsl #1
	add.w	r0, r11, r0, lsl #3
	ldr	r0, [r0, #-24]
	ands	r0, r0, #1
	beq.w	.LBB192_21
	ldr	r0, [sp, #56]
	ldr	r1, [sp, #48]
	add.w	r0, r5, r0, lsl #3
	ldrd	r9, r0, [r0, #-8]
	mov	lr, r5
	str	r0, [sp, #76]
	ldr	r0, [sp, #52]
	mov	r2, r3
	lsls	r0, r0, #3
	orr.w	r0, r0, r1, lsr #29
	str	r0, [sp, #72]
	lsls	r0, r1, #3
	str	r0, [sp, #68]
	movs	r0, #22
	str.w	r11, [sp, #88]
	.p2align	2
.LBB192_9:
	strd	r0, r2, [sp, #80]
	lsr.w	r0, r12, #3
	add.w	r3, lr, r12
	add.w	r0, r0, r0, lsl #1
	ldrd	r4, r5, [r3, #-8]
	str.w	r12, [sp, #60]
	add.w	r0, r11, r0, lsl #3
	ldr.w	r12, [sp, #76]
	ldrd	r8, r10, [r0, #-24]
	ldr	r6, [r0, #-16]
	ldr	r3, [r0, #-12]
	subs.w	r0, r9, r4
	sbcs.w	r0, r12, r5
	mov.w	r0, #0
	mov	r5, r8
	mov	r4, r10
	it	hs
	movhs	r0, #1
	cmp	r0, #0
	itt	ne
	movne	r5, r6
	movne	r4, r3
	bic	r2, r5, #7
	and	r1, r4, #15
	subs	r7, r2, #1
	str	r2, [sp, #92]
	str	r1, [sp, #64]
	sbc	r2, r1, #0
	ldr	r1, [sp, #68]
	ldr	r4, [sp, #72]
	subs	r7, r7, r1
	sbcs	r2, r4
	mov	r7, r11
	mov.w	r11, #0
	bhs	.LBB192_16
	ldr	r3, [sp, #92]
	lsrs	r0, r5, #3
	add.w	r0, r0, r0, lsl #1
	add	r3, lr
	add.w	r0, r7, r0, lsl #3
	ldrd	r3, r6, [r3, #-8]
	sub.w	r8, r0, #24
	ldm.w	r8, {r2, r7, r8}
	ldr	r5, [r0, #-12]
	subs.w	r0, r9, r3
	sbcs.w	r0, r12, r6
	mov	r3, r2
	mov	r0, r7
	it	hs
	movhs.w	r11, #1
	cmp.w	r11, #0
	itt	ne
	movne	r3, r8
	movne	r0, r5
	bic	r6, r3, #7
	and	r0, r0, #15
	str	r6, [sp, #84]
	subs	r6, #1
	str	r0, [sp, #60]
	sbc	r0, r0, #0
	subs	r6, r6, r1
	sbcs	r0, r4
	bhs	.LBB192_17
	mov	r10, r1
	lsrs	r0, r3, #3
	ldr	r1, [sp, #88]
	add.w	r0, r0, r0, lsl #1
	add.w	r0, r1, r0, lsl #3
	ldr	r1, [sp, #84]
	sub.w	r8, r0, #24
	add	r1, lr
	ldrd	r1, r2, [r1, #-8]
	ldm.w	r8, {r3, r7, r8}
	ldr	r5, [r0, #-12]
	subs.w	r0, r9, r1
	sbcs.w	r0, r12, r2
	mov	r6, r4
	mov.w	r4, #0
	mov	r0, r3
	mov	r1, r7
	it	hs
	movhs	r4, #1
	cmp	r4, #0
	itt	ne
	movne	r0, r8
	movne	r1, r5
	bic	r12, r0, #7
	and	r2, r1, #15
	subs.w	r0, r12, #1
	sbc	r1, r2, #0
	subs.w	r0, r0, r10
	sbcs.w	r0, r1, r6
	ldr	r6, [sp, #88]
	ldr	r0, [sp, #80]
	mov.w	r1, #0
	bhs	.LBB192_18
	subs	r0, #1
	mov	r11, r6
	bne.w	.LBB192_9
	b	.LBB192_21
	.p2align	2
.LBB192_13:
	ldr	r0, [sp, #56]
	cmp	r0, #0
	beq	.LBB192_21
	ldr	r0, [sp, #48]
	ldr	r1, [sp, #56]
	subs	r0, r0, r1
	ldr	r0, [sp, #52]
	sbcs	r0, r0, #0
	blo	.LBB192_21
	movs	r5, #0
	movs	r4, #0
	mov.w	r12, #0
	b	.LBB192_22
	.p2align	2
.LBB192_16:
	ldr	r1, [sp, #92]
	ldr	r5, [sp, #64]
	subs.w	r2, r8, r1
	sbcs.w	r2, r10, r5
	mov.w	r2, #0
	it	hs
	movhs	r2, #1
	subs	r1, r6, r1
	sbcs.w	r1, r3, r5
	it	hs
	movhs.w	r11, #1
	ldr.w	r12, [sp, #84]
	orrs.w	r3, r2, r11
	it	eq
	moveq	r12, r3
	ldr	r4, [sp, #60]
	it	eq
	moveq	r4, r3
	and.w	r5, r0, r3
	mov	r11, r7
	b	.LBB192_19
	.p2align	2
.LBB192_17:
	ldr	r6, [sp, #84]
	ldr	r3, [sp, #60]
	subs	r0, r2, r6
	sbcs.w	r0, r7, r3
	mov.w	r1, #0
	mov.w	r0, #0
	it	hs
	movhs	r1, #1
	subs.w	r2, r8, r6
	sbcs.w	r2, r5, r3
	it	hs
	movhs	r0, #1
	ldr.w	r12, [sp, #64]
	orrs.w	r3, r1, r0
	it	eq
	moveq	r12, r3
	ldr	r4, [sp, #92]
	it	eq
	moveq	r4, r3
	and.w	r5, r11, r3
	ldr.w	r11, [sp, #88]
	b	.LBB192_19
	.p2align	2
.LBB192_18:
	subs.w	r0, r3, r12
	sbcs.w	r0, r7, r2
	mov.w	r0, #0
	it	hs
	movhs	r0, #1
	mov	r3, r2
	subs.w	r2, r8, r12
	sbcs.w	r2, r5, r3
	it	hs
	movhs	r1, #1
	ldr.w	r12, [sp, #60]
	orrs.w	r3, r0, r1
	it	eq
	moveq	r12, r3
	ldr	r0, [sp, #84]
	it	eq
	moveq	r0, r3
	and.w	r5, r4, r3
	mov	r4, r0
	mov	r11, r6
.LBB192_19:
	cbz	r3, .LBB192_21
	orrs.w	r0, r4, r12
	itttt	ne
	lsrne	r0, r4, #3
	addne.w	r0, r0, r0, lsl #1
	addne.w	r0, r11, r0, lsl #3
	ldrbne	r0, [r0, #-24]
	it	ne
	lslsne.w	r0, r0, #31
	bne	.LBB192_22
.LBB192_21:
	ldrd	r2, r3, [sp, #296]
	ldr	r1, [sp, #328]
	add	r0, sp, #232
	str	r1, [sp]
	bl	ic_raw.search.refusal_of
	mov	r7, r0
	b	.LBB192_24
	.p2align	2
.LBB192_22:
	ldr	r0, [sp, #56]
	add.w	r0, r0, r0, lsl #1
	add.w	r0, r11, r0, lsl #3
	ldrb	r1, [r0, #-24]
	lsls	r1, r1, #31
	bne	.LBB192_21
	orrs.w	r3, r4, r12
	mov.w	r7, #0
	mov.w	r1, #1
	it	ne
	movne	r3, #1
	str	r7, [r0, #-20]
	str	r1, [r0, #-24]
	str	r7, [r0, #-16]
	str	r7, [r0, #-12]
	str	r7, [r0, #-8]
	str	r7, [r0, #-4]
	ldrd	r1, r0, [sp, #32]
	add	r2, sp, #224
	strd	r0, r1, [sp, #16]
	add	r0, sp, #96
	add	r1, sp, #232
	strd	r4, r12, [sp]
	str	r5, [sp, #8]
	bl	ic_raw_augmented.noting.WrittenSurgery.attach
	ldrd	r0, r1, [sp, #224]
	ldr	r2, [sp, #324]
	strd	r0, r1, [r2]
.LBB192_24:
	ldrd	r2, r1, [sp, #40]
	ldrd	r3, r0, [sp, #312]
	str	r2, [sp, #16]
	strd	r3, r0, [sp, #8]
	add	r0, sp, #96
	ldrd	r2, r3, [sp, #48]
	strd	r0, r7, [sp, #20]
	mov	r0, r11
	str	r1, [sp]
	bl	ic_raw_augmented.edit_calls.settle
	mov	r0, r7
	add	sp, #252
	pop.w	{r4, r5, r6, r7, r8, r9, r10, r11, pc}
.Lfunc_end192:
	.size	ic_tree_sums_insert, .Lfunc_end192-ic_tree_sums_insert
	.cfi_endproc
	.section	.text.ic_tree_sums_insert_left,"ax",%progbits
	.globl	ic_tree_sums_insert_left
	.p2align	2
	.type	ic_tree_sums_insert_left,%function
	.code	16
	.thumb_func
ic_tree_sums_insert_left:
	.cfi_startproc
	push.w	{r4, r5, r6, r7, r8, lr}
	.cfi_def_cfa_offset 24
	.cfi_offset lr, -4
	.cfi_offset r8, -8
	.cfi_offset r7, -12
	.cfi_offset r6, -16
	.cfi_offset r5, -20
	.cfi_offset r4, -24
	sub	sp, #40
	.cfi_def_cfa_offset 64
	ldr	r7, [sp, #64]
	ldrd	r1, r12, [sp, #72]
	ldrd	r8, r5, [sp, #88]
	ldrd	r6, lr, [sp, #80]
	cmp	r0, #0
	it	eq
	addeq.w	r0, r0, #4096
	cmp	r7, #0
	mov.w	r4, #0
	it	eq
	addeq.w	r7, r7, #4096
	cmp	r6, #0
	it	ne
	movne	r6, #1
	strd	r1, r12, [sp, #8]
	strd	r6, lr, [sp, #16]
	strd	r4, r8, [sp, #24]
	str	r5, [sp, #32]
	str	r7, [sp]
	bl	ic_raw_augmented.edit_calls.insert_at
	add	sp, #40
	pop.w	{r4, r5, r6, r7, r8, pc}
.Lfunc_end193:
	.size	ic_tree_sums_insert_left, .Lfunc_end193-ic_tree_sums_insert_left
	.cfi_endproc
	.section	.text.ic_tree_sums_insert_right,"ax",%progbits
	.globl	ic_tree_sums_insert_right
	.p2align	2
	.type	ic_tree_sums_insert_right,%function
	.code	16
	.thumb_func
ic_tree_sums_insert_right:
	.cfi_startproc
	push.w	{r4, r5, r6, r7, r8, lr}
	.cfi_def_cfa_offset 24
	.cfi_offset lr, -4
	.cfi_offset r8, -8
	.cfi_offset r7, -12
	.cfi_offset r6, -16
	.cfi_offset r5, -20
	.cfi_offset r4, -24
	sub	sp, #40
	.cfi_def_cfa_offset 64
	ldr	r7, [sp, #64]
	ldrd	r1, r12, [sp, #72]
	ldrd	r8, r5, [sp, #88]
	ldrd	r6, lr, [sp, #80]
	cmp	r0, #0
	it	eq
	addeq.w	r0, r0, #4096
	cmp	r7, #0
	mov.w	r4, #1
	it	eq
	addeq.w	r7, r7, #4096
	cmp	r6, #0
	it	ne
	movne	r6, #1
	strd	r1, r12, [sp, #8]
	strd	r6, lr, [sp, #16]
	strd	r4, r8, [sp, #24]
	str	r5, [sp, #32]
	str	r7, [sp]
	bl	ic_raw_augmented.edit_calls.insert_at
	add	sp, #40
	pop.w	{r4, r5, r6, r7, r8, pc}
.Lfunc_end194:
	.size	ic_tree_sums_insert_right, .Lfunc_end194-ic_tree_sums_insert_right
	.cfi_endproc
	.section	.text.ic_tree_sums_overlap,"ax",%progbits
	.globl	ic_tree_sums_overlap
	.p2align	2
	.type	ic_tree_sums_overlap,%function
	.code	16
	.thumb_func
ic_tree_sums_overlap:
	.cfi_startproc
	push.w	{r4, r5, r6, r7, r8, r9, r10, r11, lr}
	.cfi_def_cfa_offset 36
	.cfi_offset lr, -4
	.cfi_offset r11, -8
	.cfi_offset r10, -12
	.cfi_offset r9, -16
	.cfi_offset r8, -20
	.cfi_offset r7, -24
	.cfi_offset r6, -28
	.cfi_offset r5, -32
	.cfi_offset r4, -36
	sub	sp, #92
	.cfi_def_cfa_offset 128
	mov	r6, r0
	ldr.w	r9, [sp, #128]
	mov	r11, r2
	ldrd	r0, r7, [sp, #160]
	ldr	r2, [sp, #144]
	cmp	r6, #0
	it	eq
	addeq.w	r6, r6, #4096
	cmp.w	r9, #0
	it	eq
	addeq.w	r9, r9, #4096
	cmp	r2, #0
	it	eq
	addeq.w	r2, r2, #4096
	ldrd	r1, r0, [r0]
	mov	r10, r3
	and	r0, r0, #15
	bic	r12, r1, #7
	movs	r3, #0
	orrs.w	r5, r12, r0
	ldrd	r4, lr, [sp, #136]
	str	r6, [sp, #48]
	str	r3, [sp, #52]
	str.w	r10, [sp, #60]
	it	ne
	movne	r5, #1
	adds	r3, r7, #1
	mov	r7, r3
	ldr.w	r8, [sp, #152]
	it	ne
	movne	r7, #1
	subs.w	r1, r4, r11
	sbcs.w	r1, lr, r10
	str.w	r11, [sp, #56]
	blo	.LBB195_17
	ldr.w	lr, [sp, #156]
	subs.w	r1, r8, r11
	sbcs.w	r1, lr, r10
	blo	.LBB195_15
	cbz	r3, .LBB195_5
	subs.w	r1, r11, r3
	sbcs	r1, r10, #0
	blo	.LBB195_15
	add.w	r1, r3, r3, lsl #1
	add.w	r1, r6, r1, lsl #3
	ldrb	r1, [r1, #-24]
	lsls	r1, r1, #31
	beq	.LBB195_15
.LBB195_5:
	cbz	r5, .LBB195_8
	lsr.w	r1, r12, #3
	orr.w	r1, r1, r0, lsl #29
	subs.w	r4, r11, r1
	sbcs.w	r4, r10, r0, lsr #3
	blo	.LBB195_15
	add.w	r1, r1, r1, lsl #1
	add.w	r1, r6, r1, lsl #3
	ldrb	r1, [r1, #-24]
	lsls	r1, r1, #31
	beq	.LBB195_15
.LBB195_8:
	lsrs	r1, r3, #29
	lsls	r3, r3, #3
	ldr	r4, [sp, #168]
	strd	r3, r1, [sp, #32]
	ldr	r1, [sp, #172]
	str	r4, [sp, #40]
	str	r1, [sp, #44]
	movs	r1, #1
	ldr	r4, [sp, #152]
	add	r3, sp, #8
	mov.w	r8, #0
	stm.w	r3, {r1, r5, r12}
	str	r0, [sp, #20]
	add	r0, sp, #64
	add	r1, sp, #48
	strd	r8, r8, [sp, #80]
	strd	r8, r8, [sp, #72]
	strd	r8, r8, [sp, #64]
	mov	r8, lr
	strd	r4, lr, [sp]
	str	r7, [sp, #24]
	bl	ic_raw_augmented.find.find
	ldrb.w	r0, [sp, #64]
	cmp	r0, #1
	bne	.LBB195_16
	ldrb.w	r0, [sp, #72]
	cmp	r0, #1
	bne	.LBB195_14
	ldr	r0, [sp, #80]
	ldr	r1, [sp, #176]
	add.w	r2, r9, r0
	ldrd	r2, r3, [r2, #-8]
	ldr	r7, [sp, #180]
	subs	r1, r2, r1
	sbcs.w	r1, r3, r7
	bhs	.LBB195_14
	ldr	r1, [sp, #84]
	lsrs	r0, r0, #3
	orr.w	r0, r0, r1, lsl #29
	subs.w	r2, r11, r0
	sbcs.w	r1, r10, r1, lsr #3
	blo	.LBB195_16
	add.w	r1, r0, r0, lsl #1
	add.w	r1, r6, r1, lsl #3
	ldrb	r1, [r1, #-24]
	lsls	r1, r1, #31
	beq	.LBB195_16
	ldr	r1, [sp, #184]
	subs	r0, #1
	str	r0, [r1]
	movs	r0, #0
	add	sp, #92
	pop.w	{r4, r5, r6, r7, r8, r9, r10, r11, pc}
	.p2align	2
.LBB195_14:
	movs	r0, #4
	add	sp, #92
	pop.w	{r4, r5, r6, r7, r8, r9, r10, r11, pc}
	.p2align	2
.LBB195_15:
	ldr	r0, [sp, #152]
	strd	r0, lr, [sp]
	b	.LBB195_18
	.p2align	2
.LBB195_16:
	strd	r4, r8, [sp]
	b	.LBB195_18
	.p2align	2
.LBB195_17:
	ldr	r0, [sp, #156]
	str.w	r8, [sp]
	str	r0, [sp, #4]
.LBB195_18:
	ldrd	r2, r3, [sp, #136]
	ldr	r1, [sp, #164]
	add	r0, sp, #48
	str	r1, [sp, #8]
	bl	ic_raw_augmented.sum_calls.refusal_of_starts
	add	sp, #92
	pop.w	{r4, r5, r6, r7, r8, r9, r10, r11, pc}
.Lfunc_end195:
	.size	ic_tree_sums_overlap, .Lfunc_end195-ic_tree_sums_overlap
	.cfi_endproc
	.section	.text.ic_tree_sums_remove,"ax",%progbits
	.globl	ic_tree_sums_remove
	.p2align	2
	.type	ic_tree_sums_remove,%function
	.code	16
	.thumb_func
ic_tree_sums_remove:
	.cfi_startproc
	push.w	{r4, r5, r6, r7, r8, r9, r10, r11, lr}
	.cfi_def_cfa_offset 36
	.cfi_offset lr, -4
	.cfi_offset r11, -8
	.cfi_offset r10, -12
	.cfi_offset r9, -16
	.cfi_offset r8, -20
	.cfi_offset r7, -24
	.cfi_offset r6, -28
	.cfi_offset r5, -32
	.cfi_offset r4, -36
	sub	sp, #260
	.cfi_def_cfa_offset 296
	mov	r8, r0
	ldr	r4, [sp, #296]
	ldr	r1, [sp, #312]
	cmp.w	r8, #0
	ldrd	r0, r5, [sp, #304]
	it	eq
	addeq.w	r8, r8, #4096
	cmp	r4, #0
	it	eq
	addeq.w	r4, r4, #4096
	cmp	r1, #0
	it	ne
	movne	r1, #1
	subs	r0, r0, r2
	sbcs.w	r0, r5, r3
	bhs	.LBB196_2
	movs	r7, #1
	mov	r0, r7
	add	sp, #260
	pop.w	{r4, r5, r6, r7, r8, r9, r10, r11, pc}
	.p2align	2
.LBB196_2:
	ldr.w	r9, [sp, #320]
	mov	r11, r3
	mov	r6, r2
	str	r1, [sp, #116]
	movs	r7, #0
	add	r0, sp, #128
	movs	r1, #0
	movs	r2, #128
	movs	r3, #0
	add.w	r10, r9, #1
	str	r7, [sp]
	bl	ic.clear
	cmp	r10, r9
	bhs	.LBB196_4
	movs	r7, #4
	b	.LBB196_69
	.p2align	2
.LBB196_4:
	subs.w	r0, r6, r10
	sbcs	r0, r11, #0
	str	r4, [sp, #84]
	str	r6, [sp, #112]
	blo.w	.LBB196_20
	add.w	r0, r10, r10, lsl #1
	add.w	lr, r8, r0, lsl #3
	ldr	r0, [lr, #-24]
	lsls	r1, r0, #31
	beq.w	.LBB196_20
	ldr	r1, [sp, #316]
	ldr	r7, [sp, #112]
	ldrd	r1, r2, [r1]
	and	r6, r2, #15
	bic	r3, r1, #7
	lsl.w	r2, r11, #3
	orr.w	r5, r2, r7, lsr #29
	subs	r2, r3, #1
	str	r3, [sp, #100]
	sbc	r3, r6, #0
	subs.w	r2, r2, r7, lsl #3
	sbcs.w	r2, r3, r5
	str	r6, [sp, #96]
	bhs.w	.LBB196_20
	lsrs	r1, r1, #3
	add.w	r1, r1, r1, lsl #1
	add.w	r1, r8, r1, lsl #3
	ldrb	r1, [r1, #-24]
	lsls	r1, r1, #31
	beq.w	.LBB196_20
	ldrd	r7, r2, [lr, #-8]
	lsl.w	r3, r10, #3
	and	r12, r2, #15
	ldr	r2, [sp, #100]
	str	r3, [sp, #88]
	eors	r2, r3
	ldr	r3, [sp, #96]
	lsr.w	r4, r10, #29
	ldr	r1, [lr, #-20]
	eors	r3, r4
	mov	r6, r5
	orrs	r2, r3
	bic	r10, r7, #7
	str	r4, [sp, #104]
	beq	.LBB196_10
	orrs.w	r2, r10, r12
	beq.w	.LBB196_20
.LBB196_10:
	ldr	r2, [sp, #112]
	bic	r0, r0, #7
	lsl.w	r9, r2, #3
	and	r4, r1, #15
	subs	r1, r0, #1
	sbc	r2, r4, #0
	subs.w	r1, r1, r9
	ldrd	r1, r3, [lr, #-16]
	sbcs	r2, r6
	and	r3, r3, #15
	bic	r2, r1, #7
	str.w	r11, [sp, #92]
	strd	r9, r6, [sp, #120]
	str.w	lr, [sp, #80]
	bhs	.LBB196_19
	subs	r1, r2, #1
	sbc	r5, r3, #0
	subs.w	r1, r1, r9
	sbcs.w	r1, r5, r6
	bhs	.LBB196_21
	mov.w	r11, #64
	.p2align	2
.LBB196_13:
	lsrs	r0, r2, #3
	add.w	r5, r0, r0, lsl #1
	add.w	r0, r8, r5, lsl #3
	ldrd	r4, r7, [r0, #-24]
	ldr	r6, [sp, #124]
	bic	r10, r4, #7
	and	r12, r7, #15
	subs.w	r7, r10, #1
	sbc	r1, r12, #0
	subs.w	r7, r7, r9
	sbcs.w	r7, r1, r6
	bhs.w	.LBB196_29
	lsrs	r0, r4, #3
	add.w	r5, r0, r0, lsl #1
	add.w	r0, r8, r5, lsl #3
	ldrd	r4, r2, [r0, #-24]
	bic	r3, r4, #7
	and	r2, r2, #15
	subs	r7, r3, #1
	sbc	r6, r2, #0
	subs.w	r7, r7, r9
	ldr	r7, [sp, #124]
	sbcs.w	r7, r6, r7
	ldr	r6, [sp, #124]
	bhs.w	.LBB196_30
	lsrs	r0, r4, #3
	add.w	r5, r0, r0, lsl #1
	add.w	r0, r8, r5, lsl #3
	ldrd	r4, r7, [r0, #-24]
	bic	r10, r4, #7
	and	r12, r7, #15
	subs.w	r7, r10, #1
	sbc	r6, r12, #0
	subs.w	r7, r7, r9
	ldr	r7, [sp, #124]
	sbcs.w	r7, r6, r7
	ldr	r6, [sp, #124]
	bhs.w	.LBB196_31
	lsrs	r0, r4, #3
	add.w	r7, r0, r0, lsl #1
	add.w	r0, r8, r7, lsl #3
	ldrd	r2, r3, [r0, #-24]
	lsl.w	r9, r7, #3
	bic	r2, r2, #7
	and	r3, r3, #15
	subs	r4, r2, #1
	sbc	r5, r3, #0
	cmp.w	r11, #0
	beq.w	.LBB196_32
	ldr	r1, [sp, #120]
	subs	r7, r4, r1
	sbcs.w	r7, r5, r6
	bhs.w	.LBB196_33
	ldr.w	r9, [sp, #120]
	sub.w	r11, r11, #4
	b	.LBB196_13
	.p2align	2
.LBB196_19:
	subs.w	r0, r9, r2
	sbcs.w	r0, r6, r3
	str	r7, [sp, #76]
	itt	lo
	movlo	r3, #0
	movlo	r2, #0
	mov	r0, r2
	mov	r4, r3
	b	.LBB196_22
	.p2align	2
.LBB196_20:
	ldr	r6, [sp, #112]
	mov	r0, r8
	mov	r2, r6
	mov	r3, r11
	str.w	r9, [sp]
	bl	ic_raw.table.RawTable.refusal_at.19bacce014a8892a
	mov	r7, r0
	b	.LBB196_68
	.p2align	2
.LBB196_21:
	str	r7, [sp, #76]
.LBB196_22:
	subs.w	r1, r9, r10
	sbcs.w	r1, r6, r12
	itt	lo
	movlo.w	r12, #0
	movlo.w	r10, #0
	orrs.w	lr, r10, r12
	mov.w	r7, #0
	it	ne
	movne.w	lr, #1
	beq	.LBB196_25
	lsr.w	r1, r10, #3
	add.w	r1, r1, r1, lsl #1
	add.w	r1, r8, r1, lsl #3
	ldrd	r2, r3, [r1, #-24]
	mov	r11, r7
	bic	r5, r2, #7
	and	r3, r3, #15
	mov	r7, r6
	subs.w	r6, r9, r5
	sbcs.w	r6, r7, r3
	ldr	r6, [sp, #104]
	it	hs
	eorhs	r6, r3
	ldr	r3, [sp, #88]
	it	hs
	eorhs	r3, r5
	orrs	r3, r6
	mov.w	r3, #1
	strd	r10, r12, [sp, #128]
	str.w	r11, [sp, #244]
	str	r3, [sp, #240]
	bne	.LBB196_26
	and	r2, r2, #1
	adds	r2, r2, r0
	adc	r3, r4, #0
	strd	r2, r3, [r1, #-24]
	movs	r1, #0
	str	r1, [sp, #108]
	movs	r7, #1
	b	.LBB196_27
	.p2align	2
.LBB196_25:
	movs	r1, #0
	str	r1, [sp, #108]
	strd	r4, r0, [sp, #96]
	orrs.w	r2, r0, r4
	bne	.LBB196_28
	b	.LBB196_66
	.p2align	2
.LBB196_26:
	strd	r0, r4, [r1, #-16]
	movs	r1, #0
	str	r1, [sp, #108]
	movs	r7, #1
	movs	r1, #1
.LBB196_27:
	ldr.w	r11, [sp, #92]
	ldr	r6, [sp, #124]
	orrs.w	r2, r0, r4
	beq.w	.LBB196_66
.LBB196_28:
	lsrs	r0, r0, #3
	add.w	r0, r0, r0, lsl #1
	add.w	r0, r8, r0, lsl #3
	orr	r1, r10, #1
	strd	r1, r12, [r0, #-8]
	b	.LBB196_67
	.p2align	2
.LBB196_29:
	lsl.w	r9, r5, #3
	mov	r10, r2
	mov	r12, r3
	b	.LBB196_33
	.p2align	2
.LBB196_30:
	lsl.w	r9, r5, #3
	b	.LBB196_33
	.p2align	2
.LBB196_31:
	lsl.w	r9, r5, #3
	mov	r10, r3
	mov	r12, r2
	b	.LBB196_33
	.p2align	2
.LBB196_32:
	ldr	r1, [sp, #120]
	subs	r1, r4, r1
	sbcs.w	r1, r5, r6
	blo	.LBB196_34
.LBB196_33:
	ldrd	r1, r2, [r0, #-16]
	and	r3, r2, #15
	bic	r2, r1, #7
	ldr	r1, [sp, #120]
	subs	r1, r1, r2
	sbcs.w	r1, r6, r3
	itt	lo
	movlo	r3, #0
	movlo	r2, #0
.LBB196_34:
	ldrd	r1, r0, [r0, #-8]
	str	r1, [sp, #76]
	bic	r4, r1, #7
	ldr	r1, [sp, #120]
	and	r5, r0, #15
	subs	r0, r1, r4
	sbcs.w	r0, r6, r5
	itt	lo
	movlo	r5, #0
	movlo	r4, #0
	orrs.w	r0, r4, r5
	it	ne
	movne	r0, #1
	str	r0, [sp, #64]
	str	r4, [sp, #72]
	beq	.LBB196_37
	lsrs	r0, r4, #3
	add.w	r0, r0, r0, lsl #1
	add.w	r0, r8, r0, lsl #3
	mov	lr, r4
	ldrd	r7, r4, [r0, #-24]
	mov	r11, r5
	bic	r5, r7, #7
	and	r4, r4, #15
	str	r7, [sp, #108]
	mov	r7, r6
	subs	r6, r1, r5
	sbcs.w	r6, r7, r4
	mov	r6, r12
	it	hs
	eorhs	r6, r4
	mov	r4, r10
	it	hs
	eorhs	r4, r5
	orrs	r4, r6
	mov	r5, r11
	mov.w	r1, #0
	mov.w	r4, #1
	strd	lr, r11, [sp, #128]
	str	r1, [sp, #244]
	str	r4, [sp, #240]
	bne	.LBB196_38
	ldr	r1, [sp, #108]
	movs	r7, #1
	and	r1, r1, #1
	adds	r1, r1, r2
	adc	r4, r3, #0
	strd	r1, r4, [r0, #-24]
	movs	r0, #0
	str	r0, [sp, #108]
	movs	r1, #0
	b	.LBB196_39
	.p2align	2
.LBB196_37:
	movs	r0, #0
	ldr.w	r11, [sp, #92]
	str	r0, [sp, #108]
	strd	r3, r2, [sp, #96]
	movs	r1, #0
	movs	r7, #0
	b	.LBB196_40
	.p2align	2
.LBB196_38:
	strd	r2, r3, [r0, #-16]
	movs	r0, #0
	movs	r7, #1
	movs	r1, #1
	str	r0, [sp, #108]
.LBB196_39:
	ldr.w	r11, [sp, #92]
	ldr	r6, [sp, #124]
	ldr	r4, [sp, #72]
.LBB196_40:
	orrs.w	r0, r2, r3
	beq	.LBB196_42
	lsrs	r0, r2, #3
	add.w	r0, r0, r0, lsl #1
	add.w	r0, r8, r0, lsl #3
	orr	r2, r4, #1
	strd	r2, r5, [r0, #-8]
	movs	r0, #0
	str	r0, [sp, #76]
.LBB196_42:
	ldr	r0, [sp, #88]
	ldr	r2, [sp, #104]
	eor.w	r0, r0, r10
	eor.w	r2, r2, r12
	ldr.w	lr, [sp, #64]
	orrs	r0, r2
	bne	.LBB196_44
	ldr.w	r9, [sp, #120]
	mov	r10, r4
	mov	r12, r5
	b	.LBB196_66
	.p2align	2
.LBB196_44:
	ldr	r6, [sp, #80]
	str	r7, [sp, #68]
	ldrd	r4, r7, [r6, #-12]
	str	r5, [sp, #40]
	ldr	r0, [r6, #-16]
	ldr	r5, [r6, #-4]
	str	r7, [sp, #36]
	bic	r2, r7, #7
	ldr	r7, [sp, #120]
	ldrd	r3, r11, [r6, #-24]
	ldr	r6, [sp, #124]
	str	r0, [sp, #60]
	and	r0, r5, #15
	subs	r5, r7, r2
	sbcs.w	r5, r6, r0
	itt	lo
	movlo	r0, #0
	movlo	r2, #0
	str	r2, [sp, #52]
	orr.w	r5, r2, r0
	bic	r2, r3, #7
	str	r0, [sp, #44]
	and	r11, r11, #15
	subs	r0, r7, r2
	sbcs.w	r0, r6, r11
	it	lo
	movlo.w	r11, #0
	str.w	r11, [sp, #56]
	it	lo
	movlo	r2, #0
	ldr	r0, [sp, #60]
	and	r3, r4, #15
	bic	r4, r0, #7
	subs	r0, r7, r4
	sbcs.w	r0, r6, r3
	it	lo
	movlo	r3, #0
	str	r3, [sp, #60]
	it	lo
	movlo	r4, #0
	str	r4, [sp, #48]
	cbz	r5, .LBB196_48
	ldr.w	r11, [sp, #52]
	lsr.w	r0, r11, #3
	add.w	r0, r0, r0, lsl #1
	add.w	r0, r8, r0, lsl #3
	str	r0, [sp, #32]
	ldrd	r3, r0, [r0, #-24]
	bic	r4, r3, #7
	and	r0, r0, #15
	subs	r5, r7, r4
	sbcs.w	r5, r6, r0
	ldr	r5, [sp, #104]
	it	hs
	eorhs	r5, r0
	ldr	r0, [sp, #88]
	it	hs
	eorhs	r0, r4
	ldr	r6, [sp, #68]
	orrs	r0, r5
	add	r7, sp, #128
	add.w	r0, r7, r6, lsl #3
	ldr.w	r5, [r7, r6, lsl #3]
	ldr	r0, [r0, #4]
	lsl.w	r4, r6, #3
	bne	.LBB196_49
	orrs	r0, r5
	beq	.LBB196_51
	movs	r0, #1
	strb.w	r0, [sp, #248]
	b	.LBB196_52
	.p2align	2
.LBB196_48:
	ldr	r6, [sp, #68]
	strd	r12, r10, [sp, #96]
	add	r7, sp, #128
	b	.LBB196_55
	.p2align	2
.LBB196_49:
	orrs	r0, r5
	beq	.LBB196_53
	movs	r0, #1
	strb.w	r0, [sp, #248]
	b	.LBB196_54
	.p2align	2
.LBB196_51:
	adds	r0, r7, r4
	str.w	r11, [r7, r4]
	ldr	r4, [sp, #44]
	adds	r6, #1
	str	r4, [r0, #4]
	movs	r0, #0
	str	r0, [sp, #108]
	strd	r6, r0, [sp, #240]
.LBB196_52:
	and	r0, r3, #1
	ldr	r3, [sp, #32]
	ldr	r4, [sp, #48]
	orr.w	r0, r0, r10
	strd	r0, r12, [r3, #-24]
	b	.LBB196_55
	.p2align	2
.LBB196_53:
	ldr	r3, [sp, #44]
	adds	r0, r7, r4
	str	r3, [r0, #4]
	adds	r6, #1
	movs	r0, #0
	str.w	r11, [r7, r4]
	str	r0, [sp, #108]
	strd	r6, r0, [sp, #240]
.LBB196_54:
	ldr	r4, [sp, #48]
	ldr	r0, [sp, #32]
	strd	r10, r12, [r0, #-16]
.LBB196_55:
	ldr	r0, [sp, #56]
	orrs	r0, r2
	beq	.LBB196_57
	lsrs	r0, r2, #3
	add.w	r0, r0, r0, lsl #1
	add.w	r0, r8, r0, lsl #3
	ldr	r3, [r0, #-8]
	and	r3, r3, #1
	orr.w	r3, r3, r10
	strd	r3, r12, [r0, #-8]
.LBB196_57:
	ldr	r0, [sp, #60]
	orrs	r0, r4
	beq	.LBB196_59
	lsrs	r0, r4, #3
	add.w	r0, r0, r0, lsl #1
	add.w	r0, r8, r0, lsl #3
	ldr	r3, [r0, #-8]
	and	r3, r3, #1
	orr.w	r3, r3, r10
	strd	r3, r12, [r0, #-8]
.LBB196_59:
	add.w	r0, r7, r6, lsl #3
	ldr.w	r3, [r7, r6, lsl #3]
	ldr	r0, [r0, #4]
	orrs	r0, r3
	lsl.w	r3, r6, #3
	beq	.LBB196_61
	movs	r0, #1
	str	r6, [sp, #68]
	strb.w	r0, [sp, #248]
	b	.LBB196_62
	.p2align	2
.LBB196_61:
	adds	r0, r7, r3
	adds	r6, #1
	str.w	r10, [r7, r3]
	str.w	r12, [r0, #4]
	movs	r0, #0
	lsls	r3, r6, #3
	str	r0, [sp, #108]
	strd	r6, r0, [sp, #240]
	str	r6, [sp, #68]
.LBB196_62:
	adds	r4, r7, r3
	add.w	r0, r8, r9
	ldr	r5, [r7, r3]
	ldr	r6, [r4, #4]
	mov	r9, r7
	ldr	r7, [r0, #-24]
	orrs	r5, r6
	and	r5, r7, #1
	orr.w	r2, r2, r5
	ldr	r5, [sp, #56]
	strd	r2, r5, [r0, #-24]
	beq	.LBB196_64
	movs	r2, #1
	ldr.w	r11, [sp, #92]
	ldr	r6, [sp, #124]
	ldr	r7, [sp, #68]
	strb.w	r2, [sp, #248]
	b	.LBB196_65
	.p2align	2
.LBB196_64:
	ldr	r7, [sp, #68]
	ldr.w	r11, [sp, #92]
	ldr	r6, [sp, #124]
	adds	r7, #1
	movs	r2, #0
	str.w	r10, [r9, r3]
	str.w	r12, [r4, #4]
	str	r2, [sp, #108]
	strd	r7, r2, [sp, #240]
.LBB196_65:
	ldrd	r2, r4, [sp, #36]
	ldr	r3, [sp, #52]
	and	r2, r2, #1
	orrs	r2, r3
	ldr	r3, [sp, #48]
	ldr	r5, [sp, #72]
	str	r3, [r0, #-16]
	ldr	r3, [sp, #60]
	ldr.w	r9, [sp, #120]
	strd	r3, r2, [r0, #-12]
	ldr	r2, [sp, #88]
	ldr	r3, [sp, #104]
	eors	r2, r5
	eors	r3, r4
	orrs	r2, r3
	ldr	r2, [sp, #44]
	str	r2, [r0, #-4]
	itte	ne
	movne	r10, r5
	movne	r12, r4
	moveq.w	lr, #1
.LBB196_66:
	ldr	r0, [sp, #76]
	lsls	r0, r0, #31
	it	ne
	cmpne.w	lr, #0
	bne	.LBB196_70
.LBB196_67:
	ldr	r0, [sp, #80]
	movs	r7, #0
	strd	r7, r7, [r0, #-24]
	ldr	r0, [sp, #316]
	ldrd	r2, r1, [sp, #96]
	ldr	r6, [sp, #112]
	strd	r1, r2, [r0]
.LBB196_68:
	ldr	r4, [sp, #84]
	ldr	r5, [sp, #308]
.LBB196_69:
	ldr	r0, [sp, #304]
	mov	r2, r6
	strd	r0, r5, [sp, #8]
	ldr	r0, [sp, #116]
	mov	r3, r11
	str	r0, [sp, #16]
	add	r0, sp, #128
	strd	r0, r7, [sp, #20]
	mov	r0, r8
	str	r4, [sp]
	bl	ic_raw_augmented.edit_calls.settle
	mov	r0, r7
	add	sp, #260
	pop.w	{r4, r5, r6, r7, r8, r9, r10, r11, pc}
	.p2align	2
.LBB196_70:
	movs	r5, #67
	.p2align	2
.LBB196_71:
	lsr.w	r0, r10, #3
	add.w	r0, r0, r0, lsl #1
	str	r5, [sp, #88]
	lsls	r1, r1, #31
	add.w	r5, r8, r0, lsl #3
	str	r5, [sp, #104]
	beq	.LBB196_75
	ldrd	r4, r0, [r5, #-24]
	and	r1, r0, #15
	bic	r0, r4, #7
	mov	lr, r0
	subs	r0, #1
	str	r1, [sp, #76]
	sbc	r1, r1, #0
	subs.w	r0, r0, r9
	sbcs.w	r0, r1, r6
	bhs	.LBB196_67
	lsrs	r0, r4, #3
	add.w	r0, r0, r0, lsl #1
	add.w	r0, r8, r0, lsl #3
	ldr	r1, [r0, #-8]
	lsls	r1, r1, #31
	beq.w	.LBB196_87
	mov	r4, lr
	b	.LBB196_124
	.p2align	2
.LBB196_75:
	ldrd	r0, r1, [r5, #-16]
	bic	r4, r0, #7
	and	r3, r1, #15
	subs	r1, r4, #1
	sbc	r2, r3, #0
	subs.w	r1, r1, r9
	sbcs.w	r1, r2, r6
	bhs	.LBB196_67
	lsrs	r0, r0, #3
	add.w	r0, r0, r0, lsl #1
	add.w	lr, r8, r0, lsl #3
	ldr	r1, [lr, #-8]
	str	r3, [sp, #72]
	lsls	r1, r1, #31
	bne.w	.LBB196_109
	ldrd	r1, r2, [lr, #-24]
	str	r4, [sp, #76]
	and	r4, r2, #15
	bic	r2, r1, #7
	subs.w	r1, r9, r2
	sbcs.w	r1, r6, r4
	it	lo
	movlo	r4, #0
	ldrd	r3, r1, [r5, #-8]
	it	lo
	movlo	r2, #0
	bic	r3, r3, #7
	and	r1, r1, #15
	subs.w	r5, r9, r3
	sbcs.w	r5, r6, r1
	itt	lo
	movlo	r1, #0
	movlo	r3, #0
	rsbs.w	r5, r7, #13
	ldr	r0, [sp, #108]
	mov.w	r5, #0
	sbcs	r5, r0
	blo	.LBB196_79
	add	r0, sp, #128
	add.w	r5, r0, r7, lsl #3
	ldr.w	r6, [r0, r7, lsl #3]
	ldr	r5, [r5, #4]
	ldr.w	r11, [sp, #92]
	orrs	r5, r6
	ldr	r6, [sp, #124]
	beq.w	.LBB196_132
.LBB196_79:
	movs	r5, #1
	strb.w	r5, [sp, #248]
	orrs.w	r5, r2, r4
	ldr	r5, [sp, #104]
	strd	r2, r4, [r5, #-16]
	beq	.LBB196_81
.LBB196_80:
	lsrs	r2, r2, #3
	add.w	r2, r2, r2, lsl #1
	add.w	r2, r8, r2, lsl #3
	ldr	r4, [r2, #-8]
	and	r4, r4, #1
	orr.w	r4, r4, r10
	strd	r4, r12, [r2, #-8]
.LBB196_81:
	orrs.w	r2, r3, r1
	orr	r2, r3, #1
	strd	r2, r1, [lr, #-8]
	beq.w	.LBB196_98
	lsrs	r2, r3, #3
	add.w	r2, r2, r2, lsl #1
	mov	r0, r9
	add.w	r9, r8, r2, lsl #3
	ldrd	r2, r4, [r9, #-24]
	mov	r11, r7
	bic	r5, r2, #7
	and	r4, r4, #15
	mov	r7, r6
	subs	r6, r0, r5
	sbcs.w	r6, r7, r4
	mov	r6, r12
	it	hs
	eorhs	r6, r4
	mov	r4, r10
	it	hs
	eorhs	r4, r5
	mov	r7, r11
	orrs	r4, r6
	bne.w	.LBB196_100
	rsbs.w	r4, r11, #13
	ldr	r0, [sp, #108]
	mov.w	r4, #0
	sbcs	r4, r0
	blo	.LBB196_85
	add	r0, sp, #128
	add.w	r4, r0, r7, lsl #3
	ldr.w	r5, [r0, r7, lsl #3]
	ldr	r4, [r4, #4]
	orrs	r4, r5
	beq.w	.LBB196_136
.LBB196_85:
	movs	r1, #1
	strb.w	r1, [sp, #248]
.LBB196_86:
	ldr	r4, [sp, #76]
	and	r1, r2, #1
	ldr	r3, [sp, #72]
	orrs	r1, r4
	ldr.w	r11, [sp, #92]
	ldr	r6, [sp, #124]
	strd	r1, r3, [r9, #-24]
	ldr.w	r9, [sp, #120]
	ldr	r5, [sp, #104]
	b	.LBB196_104
	.p2align	2
.LBB196_87:
	ldrd	r2, r1, [r0, #-16]
	str	r0, [sp, #72]
	mov	r0, r7
	mov	r7, r9
	bic	r9, r2, #7
	and	r1, r1, #15
	subs.w	r2, r7, r9
	sbcs.w	r2, r6, r1
	it	lo
	movlo	r1, #0
	ldrd	r3, r2, [r5, #-8]
	it	lo
	movlo.w	r9, #0
	bic	r3, r3, #7
	and	r2, r2, #15
	subs	r5, r7, r3
	sbcs.w	r5, r6, r2
	mov	r7, r0
	itt	lo
	movlo	r2, #0
	movlo	r3, #0
	rsbs.w	r5, r0, #13
	ldr	r0, [sp, #108]
	mov.w	r5, #0
	sbcs	r5, r0
	blo	.LBB196_89
	add	r0, sp, #128
	add.w	r5, r0, r7, lsl #3
	ldr.w	r6, [r0, r7, lsl #3]
	ldr	r5, [r5, #4]
	ldr.w	r11, [sp, #92]
	orrs	r5, r6
	ldr	r6, [sp, #124]
	beq.w	.LBB196_133
.LBB196_89:
	movs	r5, #1
	strb.w	r5, [sp, #248]
.LBB196_90:
	orrs.w	r5, r9, r1
	and	r4, r4, #1
	ldr	r5, [sp, #104]
	ldr	r0, [sp, #72]
	orr.w	r4, r4, r9
	strd	r4, r1, [r5, #-24]
	beq	.LBB196_92
	lsr.w	r1, r9, #3
	add.w	r1, r1, r1, lsl #1
	add.w	r1, r8, r1, lsl #3
	ldr	r4, [r1, #-8]
	and	r4, r4, #1
	orr.w	r4, r4, r10
	strd	r4, r12, [r1, #-8]
.LBB196_92:
	orrs.w	r1, r3, r2
	orr	r1, r3, #1
	strd	r1, r2, [r0, #-8]
	beq	.LBB196_99
	lsrs	r1, r3, #3
	add.w	r1, r1, r1, lsl #1
	add.w	r9, r8, r1, lsl #3
	ldrd	r1, r5, [r9, #-24]
	mov	r0, r7
	ldr	r7, [sp, #120]
	mov	r4, r6
	bic	r6, r1, #7
	and	r5, r5, #15
	subs	r7, r7, r6
	sbcs.w	r7, r4, r5
	mov	r7, r12
	it	hs
	eorhs	r7, r5
	mov	r5, r10
	it	hs
	eorhs	r5, r6
	orrs	r5, r7
	bne.w	.LBB196_114
	rsbs.w	r5, r0, #13
	ldr	r4, [sp, #108]
	mov.w	r5, #0
	sbcs	r5, r4
	add	r4, sp, #128
	mov	r7, r0
	blo	.LBB196_96
	add.w	r5, r4, r7, lsl #3
	ldr.w	r6, [r4, r7, lsl #3]
	ldr	r5, [r5, #4]
	orrs	r5, r6
	beq.w	.LBB196_137
.LBB196_96:
	movs	r2, #1
	strb.w	r2, [sp, #248]
.LBB196_97:
	and	r1, r1, #1
	ldr	r4, [sp, #76]
	orr.w	r1, r1, lr
	ldr.w	r11, [sp, #92]
	ldr	r6, [sp, #124]
	strd	r1, r4, [r9, #-24]
	b	.LBB196_118
	.p2align	2
.LBB196_98:
	ldr	r4, [sp, #76]
	ldr	r3, [sp, #72]
	str	r4, [sp, #100]
	str	r3, [sp, #96]
	b	.LBB196_104
	.p2align	2
.LBB196_99:
	ldr	r4, [sp, #76]
	str.w	lr, [sp, #100]
	str	r4, [sp, #96]
	b	.LBB196_119
	.p2align	2
.LBB196_100:
	rsbs.w	r2, r11, #13
	ldr	r0, [sp, #108]
	mov.w	r2, #0
	sbcs	r2, r0
	blo	.LBB196_102
	add	r0, sp, #128
	add.w	r2, r0, r7, lsl #3
	ldr.w	r4, [r0, r7, lsl #3]
	ldr	r2, [r2, #4]
	orrs	r2, r4
	beq.w	.LBB196_138
.LBB196_102:
	movs	r1, #1
	strb.w	r1, [sp, #248]
.LBB196_103:
	ldrd	r3, r4, [sp, #72]
	ldr.w	r11, [sp, #92]
	ldr	r6, [sp, #124]
	ldr	r5, [sp, #104]
	strd	r4, r3, [r9, #-16]
	ldr.w	r9, [sp, #120]
.LBB196_104:
	rsbs.w	r1, r7, #13
	ldr	r0, [sp, #108]
	mov.w	r1, #0
	sbcs	r1, r0
	blo	.LBB196_106
	add	r0, sp, #128
	add.w	r1, r0, r7, lsl #3
	ldr.w	r2, [r0, r7, lsl #3]
	ldr	r1, [r1, #4]
	orrs	r1, r2
	beq.w	.LBB196_134
.LBB196_106:
	movs	r1, #1
	strb.w	r1, [sp, #248]
.LBB196_107:
	ldr	r1, [lr, #-24]
	and	r1, r1, #1
	orr.w	r1, r1, r10
	strd	r1, r12, [lr, #-24]
	ldrd	r0, r1, [r5, #-16]
	strd	r4, r3, [r5, #-8]
	bic	r4, r0, #7
	and	lr, r1, #15
	subs	r0, r4, #1
	sbc	r1, lr, #0
	subs.w	r0, r0, r9
	sbcs.w	r0, r1, r6
	bhs.w	.LBB196_67
	str.w	lr, [sp, #72]
.LBB196_109:
	lsrs	r0, r4, #3
	add.w	r1, r0, r0, lsl #1
	add.w	r0, r8, r1, lsl #3
	ldrd	r9, r2, [r0, #-24]
	str	r4, [sp, #76]
	and	r3, r2, #15
	bic	r2, r9, #7
	ldr	r4, [sp, #120]
	str	r2, [sp, #68]
	subs	r2, #1
	mov	lr, r3
	sbc	r3, r3, #0
	subs	r2, r2, r4
	sbcs.w	r2, r3, r6
	lsl.w	r3, r1, #3
	bhs	.LBB196_111
	lsr.w	r1, r9, #3
	add.w	r4, r1, r1, lsl #1
	add.w	r1, r8, r4, lsl #3
	ldr	r2, [r1, #-8]
	lsls	r2, r2, #31
	beq.w	.LBB196_142
.LBB196_111:
	ldrd	r1, r2, [r0, #-16]
	ldr.w	r9, [sp, #120]
	bic	r4, r1, #7
	and	r2, r2, #15
	subs	r4, #1
	sbc	r2, r2, #0
	subs.w	r4, r4, r9
	sbcs	r2, r6
	bhs	.LBB196_113
	lsrs	r1, r1, #3
	add.w	r1, r1, r1, lsl #1
	add.w	r4, r8, r1, lsl #3
	ldr	r2, [r4, #-8]
	lsls	r5, r2, #31
	ldr	r5, [sp, #104]
	beq.w	.LBB196_156
.LBB196_113:
	ldr	r1, [r0, #-8]
	bic	r1, r1, #1
	str	r1, [r0, #-8]
	ldrd	r0, r1, [r5, #-8]
	lsls	r2, r0, #31
	bne.w	.LBB196_130
	b	.LBB196_141
	.p2align	2
.LBB196_114:
	rsbs.w	r1, r0, #13
	ldr	r4, [sp, #108]
	mov.w	r1, #0
	sbcs	r1, r4
	add	r4, sp, #128
	mov	r7, r0
	blo	.LBB196_116
	add.w	r1, r4, r7, lsl #3
	ldr.w	r5, [r4, r7, lsl #3]
	ldr	r1, [r1, #4]
	orrs	r1, r5
	beq.w	.LBB196_139
.LBB196_116:
	movs	r1, #1
	strb.w	r1, [sp, #248]
.LBB196_117:
	ldr.w	r11, [sp, #92]
	ldr	r6, [sp, #124]
	ldr	r4, [sp, #76]
	strd	lr, r4, [r9, #-16]
.LBB196_118:
	ldr	r5, [sp, #104]
.LBB196_119:
	rsbs.w	r1, r7, #13
	ldr	r0, [sp, #108]
	mov.w	r1, #0
	ldr	r3, [sp, #120]
	sbcs	r1, r0
	blo	.LBB196_121
	add	r0, sp, #128
	add.w	r1, r0, r7, lsl #3
	ldr.w	r2, [r0, r7, lsl #3]
	ldr	r1, [r1, #4]
	orrs	r1, r2
	beq.w	.LBB196_135
.LBB196_121:
	movs	r1, #1
	strb.w	r1, [sp, #248]
.LBB196_122:
	ldr	r0, [sp, #72]
	strd	r10, r12, [r0, #-16]
	ldrd	r0, r1, [r5, #-24]
	strd	lr, r4, [r5, #-8]
	bic	r4, r0, #7
	and	r2, r1, #15
	subs	r0, r4, #1
	sbc	r1, r2, #0
	subs	r0, r0, r3
	sbcs.w	r0, r1, r6
	bhs.w	.LBB196_67
	str	r2, [sp, #76]
.LBB196_124:
	lsrs	r0, r4, #3
	add.w	r1, r0, r0, lsl #1
	add.w	r0, r8, r1, lsl #3
	ldrd	r5, r2, [r0, #-24]
	lsl.w	r9, r1, #3
	and	r1, r2, #15
	bic	r2, r5, #7
	ldr	r3, [sp, #120]
	subs	r2, #1
	sbc	r1, r1, #0
	subs	r2, r2, r3
	mov	lr, r7
	str	r4, [sp, #72]
	sbcs	r1, r6
	mov.w	r4, #0
	it	lo
	movlo	r4, #1
	bhs	.LBB196_126
	lsrs	r1, r5, #3
	add.w	r2, r1, r1, lsl #1
	add.w	r3, r8, r2, lsl #3
	ldr	r1, [r3, #-8]
	ldr.w	r11, [sp, #92]
	lsls	r6, r1, #31
	ldr	r6, [sp, #124]
	beq.w	.LBB196_155
.LBB196_126:
	ldrd	r1, r2, [r0, #-16]
	ldr	r7, [sp, #120]
	and	r3, r2, #15
	bic	r2, r1, #7
	str	r2, [sp, #68]
	subs	r2, #1
	str	r3, [sp, #64]
	sbc	r3, r3, #0
	subs	r2, r2, r7
	sbcs.w	r2, r3, r6
	bhs	.LBB196_128
	lsrs	r1, r1, #3
	add.w	r3, r1, r1, lsl #1
	add.w	r2, r8, r3, lsl #3
	ldr	r1, [r2, #-8]
	lsls	r1, r1, #31
	beq.w	.LBB196_157
.LBB196_128:
	ldr	r1, [r0, #-8]
	ldr	r3, [sp, #104]
	bic	r1, r1, #1
	str	r1, [r0, #-8]
	ldrd	r0, r1, [r3, #-8]
	lsls	r2, r0, #31
	beq.w	.LBB196_140
	ldr.w	r9, [sp, #120]
	mov	r7, lr
.LBB196_130:
	bic	r3, r0, #7
	and	r2, r1, #15
	subs	r1, r3, #1
	sbc	r4, r2, #0
	subs.w	r1, r1, r9
	ldr	r5, [sp, #88]
	sbcs.w	r1, r4, r6
	bhs.w	.LBB196_67
	lsrs	r0, r0, #3
	add.w	r0, r0, r0, lsl #1
	add.w	r0, r8, r0, lsl #3
	ldrd	r0, r1, [r0, #-24]
	bic	r0, r0, #7
	and	r1, r1, #15
	subs.w	r4, r9, r0
	sbcs.w	r4, r6, r1
	itt	hs
	eorhs.w	r12, r12, r1
	eorhs.w	r10, r10, r0
	orrs.w	r1, r10, r12
	it	ne
	movne	r1, #1
	subs	r5, #1
	mov	r10, r3
	mov	r12, r2
	bne.w	.LBB196_71
	b	.LBB196_67
	.p2align	2
.LBB196_132:
	lsls	r5, r7, #3
	adds	r6, r0, r5
	str.w	r10, [r0, r5]
	ldr	r0, [sp, #108]
	str.w	r12, [r6, #4]
	ldr	r6, [sp, #124]
	ldr.w	r11, [sp, #92]
	adds	r7, #1
	adc	r0, r0, #0
	str	r0, [sp, #108]
	strd	r7, r0, [sp, #240]
	orrs.w	r5, r2, r4
	ldr	r5, [sp, #104]
	strd	r2, r4, [r5, #-16]
	bne.w	.LBB196_80
	b	.LBB196_81
	.p2align	2
.LBB196_133:
	lsls	r5, r7, #3
	adds	r6, r0, r5
	str.w	r10, [r0, r5]
	ldr	r0, [sp, #108]
	str.w	r12, [r6, #4]
	ldr	r6, [sp, #124]
	ldr.w	r11, [sp, #92]
	adds	r7, #1
	adc	r0, r0, #0
	str	r0, [sp, #108]
	strd	r7, r0, [sp, #240]
	b	.LBB196_90
	.p2align	2
.LBB196_134:
	lsls	r1, r7, #3
	adds	r2, r0, r1
	str	r4, [r0, r1]
	ldr	r0, [sp, #108]
	adds	r7, #1
	adc	r0, r0, #0
	str	r3, [r2, #4]
	str	r0, [sp, #108]
	strd	r7, r0, [sp, #240]
	b	.LBB196_107
	.p2align	2
.LBB196_135:
	lsls	r1, r7, #3
	adds	r2, r0, r1
	str.w	lr, [r0, r1]
	ldr	r0, [sp, #108]
	adds	r7, #1
	adc	r0, r0, #0
	str	r4, [r2, #4]
	str	r0, [sp, #108]
	strd	r7, r0, [sp, #240]
	b	.LBB196_122
	.p2align	2
.LBB196_136:
	lsls	r4, r7, #3
	adds	r5, r0, r4
	str	r3, [r0, r4]
	ldr	r0, [sp, #108]
	adds	r7, #1
	adc	r0, r0, #0
	str	r1, [r5, #4]
	str	r0, [sp, #108]
	strd	r7, r0, [sp, #240]
	b	.LBB196_86
	.p2align	2
.LBB196_137:
	ldr	r0, [sp, #108]
	lsls	r5, r7, #3
	adds	r7, #1
	add.w	r6, r4, r5
	adc	r0, r0, #0
	str	r3, [r4, r5]
	str	r2, [r6, #4]
	str	r0, [sp, #108]
	strd	r7, r0, [sp, #240]
	b	.LBB196_97
	.p2align	2
.LBB196_138:
	lsls	r2, r7, #3
	adds	r4, r0, r2
	str	r3, [r0, r2]
	ldr	r0, [sp, #108]
	adds	r7, #1
	adc	r0, r0, #0
	str	r1, [r4, #4]
	str	r0, [sp, #108]
	strd	r7, r0, [sp, #240]
	b	.LBB196_103
	.p2align	2
.LBB196_139:
	ldr	r0, [sp, #108]
	lsls	r1, r7, #3
	adds	r7, #1
	add.w	r5, r4, r1
	adc	r0, r0, #0
	str	r3, [r4, r1]
	str	r2, [r5, #4]
	str	r0, [sp, #108]
	strd	r7, r0, [sp, #240]
	b	.LBB196_117
	.p2align	2
.LBB196_140:
	orr	r0, r0, #1
	strd	r0, r1, [r3, #-8]
	b	.LBB196_67
	.p2align	2
.LBB196_141:
	orr	r0, r0, #1
	strd	r0, r1, [r5, #-8]
	b	.LBB196_67
	.p2align	2
.LBB196_142:
	mov	r11, r7
	ldrd	r2, r7, [r0, #-16]
	ldr	r5, [sp, #120]
	bic	r6, r2, #7
	and	r7, r7, #15
	subs	r6, #1
	sbc	r7, r7, #0
	subs	r6, r6, r5
	ldr	r6, [sp, #124]
	str	r4, [sp, #64]
	sbcs	r7, r6
	bhs	.LBB196_144
	lsrs	r2, r2, #3
	add.w	r5, r2, r2, lsl #1
	add.w	r4, r8, r5, lsl #3
	ldr	r2, [r4, #-8]
	lsls	r7, r2, #31
	beq.w	.LBB196_172
.LBB196_144:
	ldrd	r2, r3, [r1, #-16]
	ldr	r5, [sp, #120]
	bic	r2, r2, #7
	and	r4, r3, #15
	subs	r3, r5, r2
	sbcs.w	r3, r6, r4
	it	lo
	movlo	r4, #0
	ldrd	r3, r7, [r0, #-8]
	it	lo
	movlo	r2, #0
	bic	r3, r3, #7
	and	r7, r7, #15
	subs	r5, r5, r3
	sbcs.w	r5, r6, r7
	it	lo
	movlo	r7, #0
	str	r7, [sp, #88]
	it	lo
	movlo	r3, #0
	rsbs.w	r5, r11, #13
	ldr	r7, [sp, #108]
	mov.w	r5, #0
	sbcs	r5, r7
	add	r5, sp, #128
	mov	r7, r11
	blo	.LBB196_146
	mov	r11, r5
	add.w	r5, r5, r7, lsl #3
	ldr.w	r6, [r11, r7, lsl #3]
	ldr	r5, [r5, #4]
	orrs	r5, r6
	ldr	r6, [sp, #124]
	beq.w	.LBB196_235
.LBB196_146:
	movs	r5, #1
	strb.w	r5, [sp, #248]
.LBB196_147:
	orrs.w	r5, r2, r4
	and	r5, r9, #1
	orr.w	r5, r5, r2
	strd	r5, r4, [r0, #-24]
	beq	.LBB196_149
	lsrs	r2, r2, #3
	add.w	r2, r2, r2, lsl #1
	add.w	r2, r8, r2, lsl #3
	ldr	r4, [r2, #-8]
	ldr	r5, [sp, #76]
	and	r4, r4, #1
	orrs	r4, r5
	ldr	r5, [sp, #72]
	strd	r4, r5, [r2, #-8]
.LBB196_149:
	ldr	r4, [sp, #88]
	orrs.w	r2, r3, r4
	orr	r2, r3, #1
	strd	r2, r4, [r1, #-8]
	beq.w	.LBB196_170
	lsrs	r2, r3, #3
	add.w	r2, r2, r2, lsl #1
	add.w	r9, r8, r2, lsl #3
	ldrd	r2, r4, [r9, #-24]
	mov	r11, r7
	mov	r7, r6
	ldr	r6, [sp, #120]
	bic	r5, r2, #7
	and	r4, r4, #15
	subs	r6, r6, r5
	sbcs.w	r6, r7, r4
	ldr	r6, [sp, #72]
	it	hs
	eorhs	r6, r4
	ldr	r4, [sp, #76]
	it	hs
	eorhs	r4, r5
	mov	r7, r11
	orrs	r4, r6
	bne.w	.LBB196_174
	rsbs.w	r4, r11, #13
	ldr	r5, [sp, #108]
	mov.w	r4, #0
	sbcs	r4, r5
	blo	.LBB196_153
	add	r5, sp, #128
	add.w	r4, r5, r7, lsl #3
	ldr.w	r5, [r5, r7, lsl #3]
	ldr	r4, [r4, #4]
	orrs	r4, r5
	beq.w	.LBB196_243
.LBB196_153:
	movs	r3, #1
	strb.w	r3, [sp, #248]
.LBB196_154:
	ldr	r3, [sp, #68]
	and	r2, r2, #1
	ldr.w	r11, [sp, #92]
	ldr	r6, [sp, #124]
	orrs	r2, r3
	strd	r2, lr, [r9, #-24]
	b	.LBB196_178
	.p2align	2
.LBB196_155:
	ldr	r4, [r3, #-4]
	lsls	r5, r2, #3
	b	.LBB196_213
	.p2align	2
.LBB196_156:
	ldr	r0, [r4, #-4]
	lsls	r1, r1, #3
	b	.LBB196_183
	.p2align	2
.LBB196_157:
	cbz	r4, .LBB196_159
	lsrs	r1, r5, #3
	add.w	r5, r1, r1, lsl #1
	add.w	r4, r8, r5, lsl #3
	ldr	r1, [r4, #-8]
	lsls	r7, r1, #31
	beq.w	.LBB196_173
.LBB196_159:
	ldrd	r1, r7, [r2, #-24]
	ldr	r4, [sp, #120]
	bic	r1, r1, #7
	and	r11, r7, #15
	subs	r7, r4, r1
	sbcs.w	r7, r6, r11
	it	lo
	movlo.w	r11, #0
	ldrd	r9, r7, [r0, #-8]
	it	lo
	movlo	r1, #0
	and	r5, r7, #15
	str	r5, [sp, #88]
	bic	r5, r9, #7
	mov	r7, r6
	subs	r6, r4, r5
	ldr	r4, [sp, #88]
	sbcs.w	r6, r7, r4
	itt	lo
	movlo	r4, #0
	movlo	r5, #0
	rsbs.w	r6, lr, #13
	ldr.w	r9, [sp, #108]
	mov.w	r6, #0
	mov	r7, lr
	sbcs.w	r6, r6, r9
	str	r5, [sp, #88]
	blo	.LBB196_161
	add	r7, sp, #128
	add.w	r6, r7, lr, lsl #3
	ldr.w	r7, [r7, lr, lsl #3]
	ldr	r6, [r6, #4]
	orrs	r6, r7
	mov	r7, lr
	beq.w	.LBB196_237
.LBB196_161:
	movs	r6, #1
	ldr.w	r9, [sp, #72]
	strb.w	r6, [sp, #248]
	orrs.w	r6, r1, r11
	strd	r1, r11, [r0, #-16]
	beq	.LBB196_163
.LBB196_162:
	lsrs	r1, r1, #3
	add.w	r1, r1, r1, lsl #1
	add.w	r1, r8, r1, lsl #3
	ldr	r5, [r1, #-8]
	ldr	r6, [sp, #76]
	and	r5, r5, #1
	orr.w	r5, r5, r9
	strd	r5, r6, [r1, #-8]
.LBB196_163:
	ldr	r5, [sp, #88]
	mov	lr, r7
	orrs.w	r1, r5, r4
	orr	r1, r5, #1
	strd	r1, r4, [r2, #-8]
	beq	.LBB196_171
	ldr	r1, [sp, #88]
	ldr	r6, [sp, #120]
	lsrs	r1, r1, #3
	add.w	r1, r1, r1, lsl #1
	add.w	r7, r8, r1, lsl #3
	ldrd	r9, r1, [r7, #-24]
	str	r7, [sp, #60]
	and	r5, r1, #15
	bic	r1, r9, #7
	subs	r6, r6, r1
	ldr	r6, [sp, #124]
	sbcs	r6, r5
	blo.w	.LBB196_204
	ldr	r6, [sp, #72]
	eors	r1, r6
	ldr	r6, [sp, #76]
	eors	r5, r6
	orrs	r1, r5
	bne.w	.LBB196_204
	rsbs.w	r1, lr, #13
	ldr	r5, [sp, #108]
	mov.w	r1, #0
	sbcs	r1, r5
	blo	.LBB196_168
	add	r5, sp, #128
	add.w	r1, r5, lr, lsl #3
	ldr.w	r5, [r5, lr, lsl #3]
	ldr	r1, [r1, #4]
	orrs	r1, r5
	beq.w	.LBB196_246
.LBB196_168:
	movs	r1, #1
	strb.w	r1, [sp, #248]
.LBB196_169:
	ldr	r7, [sp, #68]
	and	r1, r9, #1
	ldrd	r4, r5, [sp, #60]
	ldr.w	r11, [sp, #92]
	ldr	r6, [sp, #124]
	orrs	r1, r7
	ldr.w	r9, [sp, #72]
	strd	r1, r5, [r4, #-24]
	b	.LBB196_208
	.p2align	2
.LBB196_170:
	ldr	r2, [sp, #68]
	ldr.w	r11, [sp, #92]
	strd	lr, r2, [sp, #96]
	b	.LBB196_178
	.p2align	2
.LBB196_171:
	ldr	r7, [sp, #68]
	ldr	r5, [sp, #64]
	ldr.w	r11, [sp, #92]
	ldr	r6, [sp, #124]
	str	r7, [sp, #100]
	str	r5, [sp, #96]
	b	.LBB196_208
	.p2align	2
.LBB196_172:
	ldr	r0, [r4, #-4]
	lsls	r1, r5, #3
	ldr.w	r9, [sp, #120]
	ldr	r5, [sp, #104]
	mov	r7, r11
	b	.LBB196_183
	.p2align	2
.LBB196_173:
	ldr	r4, [r4, #-4]
	lsls	r5, r5, #3
	b	.LBB196_213
	.p2align	2
.LBB196_174:
	rsbs.w	r2, r11, #13
	ldr	r4, [sp, #108]
	mov.w	r2, #0
	sbcs	r2, r4
	blo	.LBB196_176
	add	r4, sp, #128
	add.w	r2, r4, r7, lsl #3
	ldr.w	r4, [r4, r7, lsl #3]
	ldr	r2, [r2, #4]
	orrs	r2, r4
	beq.w	.LBB196_244
.LBB196_176:
	movs	r2, #1
	strb.w	r2, [sp, #248]
.LBB196_177:
	ldr.w	r11, [sp, #92]
	ldr	r6, [sp, #124]
	ldr	r2, [sp, #68]
	strd	r2, lr, [r9, #-16]
.LBB196_178:
	rsbs.w	r2, r7, #13
	ldr	r3, [sp, #108]
	ldr	r5, [sp, #104]
	ldr	r4, [sp, #76]
	mov.w	r2, #0
	ldr.w	r9, [sp, #120]
	sbcs	r2, r3
	blo	.LBB196_180
	add	r3, sp, #128
	add.w	r2, r3, r7, lsl #3
	ldr.w	r3, [r3, r7, lsl #3]
	ldr	r2, [r2, #4]
	orrs	r2, r3
	beq.w	.LBB196_236
.LBB196_180:
	movs	r2, #1
	strb.w	r2, [sp, #248]
.LBB196_181:
	ldr	r2, [sp, #72]
	strd	r4, r2, [r1, #-16]
	ldr	r4, [sp, #68]
	strd	r4, lr, [r0, #-8]
	ldrd	r0, r1, [r1, #-16]
	bic	r2, r0, #7
	and	r1, r1, #15
	subs	r2, #1
	sbc	r1, r1, #0
	subs.w	r2, r2, r9
	sbcs	r1, r6
	bhs.w	.LBB196_67
	ldr	r1, [sp, #64]
	lsrs	r0, r0, #3
	add.w	r0, r0, r0, lsl #1
	lsls	r3, r1, #3
	lsls	r1, r0, #3
	add.w	r0, r8, r0, lsl #3
	ldrd	r2, r0, [r0, #-8]
	strd	lr, r4, [sp, #72]
.LBB196_183:
	add	r1, r8
	orr	r2, r2, #1
	ldr	r11, [r5, #-8]
	strd	r2, r0, [r1, #-8]
	add.w	lr, r8, r3
	ldrd	r1, r2, [lr, #-24]
	and	r4, r2, #15
	bic	r2, r1, #7
	subs.w	r1, r9, r2
	sbcs.w	r1, r6, r4
	it	lo
	movlo	r4, #0
	ldrd	r3, r1, [r5, #-8]
	it	lo
	movlo	r2, #0
	bic	r3, r3, #7
	and	r1, r1, #15
	subs.w	r5, r9, r3
	sbcs.w	r5, r6, r1
	itt	lo
	movlo	r1, #0
	movlo	r3, #0
	rsbs.w	r5, r7, #13
	ldr	r0, [sp, #108]
	mov.w	r5, #0
	sbcs	r5, r0
	add	r0, sp, #128
	blo	.LBB196_185
	add.w	r5, r0, r7, lsl #3
	ldr.w	r6, [r0, r7, lsl #3]
	ldr	r5, [r5, #4]
	orrs	r5, r6
	ldr	r6, [sp, #124]
	beq.w	.LBB196_202
.LBB196_185:
	movs	r5, #1
	strb.w	r5, [sp, #248]
	orrs.w	r5, r2, r4
	ldr	r5, [sp, #104]
	strd	r2, r4, [r5, #-16]
	beq	.LBB196_187
.LBB196_186:
	lsrs	r2, r2, #3
	add.w	r2, r2, r2, lsl #1
	add.w	r2, r8, r2, lsl #3
	ldr	r4, [r2, #-8]
	and	r4, r4, #1
	orr.w	r4, r4, r10
	strd	r4, r12, [r2, #-8]
.LBB196_187:
	orrs.w	r2, r3, r1
	and	r2, r11, #1
	orr.w	r2, r2, r3
	strd	r2, r1, [lr, #-8]
	beq	.LBB196_193
	lsrs	r2, r3, #3
	add.w	r2, r2, r2, lsl #1
	add.w	r2, r8, r2, lsl #3
	ldrd	r11, r4, [r2, #-24]
	mov	r0, r7
	bic	r5, r11, #7
	and	r4, r4, #15
	mov	r7, r6
	subs.w	r6, r9, r5
	sbcs	r7, r4
	mov	r7, r12
	mov	r6, r10
	itt	hs
	eorhs	r7, r4
	eorhs	r6, r5
	orrs	r7, r6
	bne	.LBB196_194
	rsbs.w	r7, r0, #13
	ldr	r4, [sp, #108]
	mov.w	r7, #0
	mov	r5, r0
	sbcs	r7, r4
	blo	.LBB196_191
	add	r4, sp, #128
	add.w	r7, r4, r5, lsl #3
	ldr.w	r6, [r4, r5, lsl #3]
	ldr	r7, [r7, #4]
	orrs	r7, r6
	beq.w	.LBB196_241
.LBB196_191:
	movs	r1, #1
	mov	r6, lr
	strb.w	r1, [sp, #248]
	mov	r7, r5
.LBB196_192:
	ldr.w	lr, [sp, #76]
	and	r1, r11, #1
	ldr	r3, [sp, #72]
	ldr	r5, [sp, #104]
	orr.w	r1, r1, lr
	ldr.w	r11, [sp, #92]
	strd	r1, r3, [r2, #-24]
	b	.LBB196_198
	.p2align	2
.LBB196_193:
	mov	r6, lr
	ldr.w	lr, [sp, #76]
	ldr	r3, [sp, #72]
	ldr.w	r11, [sp, #92]
	str.w	lr, [sp, #100]
	str	r3, [sp, #96]
	b	.LBB196_198
	.p2align	2
.LBB196_194:
	mov	r9, r2
	rsbs.w	r2, r0, #13
	ldr	r4, [sp, #108]
	mov.w	r2, #0
	sbcs	r2, r4
	blo	.LBB196_196
	add	r4, sp, #128
	add.w	r2, r4, r0, lsl #3
	ldr.w	r7, [r4, r0, lsl #3]
	ldr	r2, [r2, #4]
	orrs	r2, r7
	beq.w	.LBB196_242
.LBB196_196:
	movs	r1, #1
	ldr.w	r11, [sp, #92]
	mov	r6, lr
	strb.w	r1, [sp, #248]
	mov	r7, r0
.LBB196_197:
	ldrd	r3, lr, [sp, #72]
	ldr	r5, [sp, #104]
	strd	lr, r3, [r9, #-16]
.LBB196_198:
	rsbs.w	r1, r7, #13
	ldr	r0, [sp, #108]
	mov.w	r1, #0
	sbcs	r1, r0
	blo	.LBB196_200
	add	r0, sp, #128
	add.w	r1, r0, r7, lsl #3
	ldr.w	r2, [r0, r7, lsl #3]
	ldr	r1, [r1, #4]
	orrs	r1, r2
	beq	.LBB196_203
.LBB196_200:
	movs	r1, #1
	strb.w	r1, [sp, #248]
.LBB196_201:
	ldr	r1, [r6, #-24]
	orr	r0, lr, #1
	and	r1, r1, #1
	orr.w	r1, r1, r10
	strd	r1, r12, [r6, #-24]
	strd	r0, r3, [r5, #-8]
	b.w	.LBB196_67
	.p2align	2
.LBB196_202:
	lsls	r5, r7, #3
	adds	r6, r0, r5
	str.w	r10, [r0, r5]
	ldr	r0, [sp, #108]
	str.w	r12, [r6, #4]
	ldr	r6, [sp, #124]
	adds	r7, #1
	adc	r0, r0, #0
	str	r0, [sp, #108]
	strd	r7, r0, [sp, #240]
	orrs.w	r5, r2, r4
	ldr	r5, [sp, #104]
	strd	r2, r4, [r5, #-16]
	bne.w	.LBB196_186
	b	.LBB196_187
	.p2align	2
.LBB196_203:
	lsls	r1, r7, #3
	adds	r2, r0, r1
	str.w	lr, [r0, r1]
	ldr	r0, [sp, #108]
	adds	r1, r7, #1
	str	r3, [r2, #4]
	adc	r2, r0, #0
	strd	r1, r2, [sp, #240]
	b	.LBB196_201
	.p2align	2
.LBB196_204:
	rsbs.w	r1, lr, #13
	ldr	r5, [sp, #108]
	mov.w	r1, #0
	sbcs	r1, r5
	blo	.LBB196_206
	add	r5, sp, #128
	add.w	r1, r5, lr, lsl #3
	ldr.w	r5, [r5, lr, lsl #3]
	ldr	r1, [r1, #4]
	orrs	r1, r5
	beq.w	.LBB196_245
.LBB196_206:
	movs	r1, #1
	strb.w	r1, [sp, #248]
.LBB196_207:
	add.w	r9, sp, #60
	ldr.w	r11, [sp, #92]
	ldr	r6, [sp, #124]
	ldm.w	r9, {r1, r5, r7, r9}
	strd	r7, r5, [r1, #-16]
.LBB196_208:
	rsbs.w	r1, lr, #13
	ldr	r4, [sp, #108]
	mov.w	r1, #0
	sbcs	r1, r4
	blo	.LBB196_210
	add	r1, sp, #128
	add.w	r1, r1, lr, lsl #3
	add	r7, sp, #128
	ldr.w	r7, [r7, lr, lsl #3]
	ldr	r1, [r1, #4]
	orrs	r1, r7
	ldr	r7, [sp, #68]
	beq.w	.LBB196_238
.LBB196_210:
	movs	r1, #1
	strb.w	r1, [sp, #248]
.LBB196_211:
	ldr	r1, [r2, #-24]
	ldr	r4, [sp, #76]
	and	r1, r1, #1
	orr.w	r1, r1, r9
	strd	r1, r4, [r2, #-24]
	strd	r7, r5, [r0, #-8]
	ldrd	r0, r1, [r2, #-24]
	ldr	r4, [sp, #120]
	bic	r2, r0, #7
	and	r1, r1, #15
	subs	r2, #1
	sbc	r1, r1, #0
	subs	r2, r2, r4
	sbcs	r1, r6
	bhs.w	.LBB196_67
	lsrs	r0, r0, #3
	add.w	r0, r0, r0, lsl #1
	mov	r2, r5
	lsls	r5, r0, #3
	add.w	r0, r8, r0, lsl #3
	ldrd	r1, r4, [r0, #-8]
	lsl.w	r9, r3, #3
	strd	r7, r2, [sp, #72]
.LBB196_213:
	ldr	r0, [sp, #104]
	add.w	r2, r8, r5
	orr	r1, r1, #1
	ldr	r11, [r0, #-8]
	strd	r1, r4, [r2, #-8]
	add	r9, r8
	ldrd	r2, r1, [r9, #-16]
	ldr	r7, [sp, #120]
	bic	r4, r2, #7
	and	r1, r1, #15
	subs	r2, r7, r4
	sbcs.w	r2, r6, r1
	it	lo
	movlo	r1, #0
	ldrd	r3, r2, [r0, #-8]
	it	lo
	movlo	r4, #0
	bic	r3, r3, #7
	and	r2, r2, #15
	subs	r5, r7, r3
	sbcs.w	r5, r6, r2
	itt	lo
	movlo	r2, #0
	movlo	r3, #0
	rsbs.w	r5, lr, #13
	ldr	r6, [sp, #108]
	mov.w	r5, #0
	sbcs	r5, r6
	blo	.LBB196_215
	add	r6, sp, #128
	add.w	r5, r6, lr, lsl #3
	ldr.w	r6, [r6, lr, lsl #3]
	ldr	r5, [r5, #4]
	mov	r0, lr
	orrs	r5, r6
	beq.w	.LBB196_233
.LBB196_215:
	movs	r5, #1
	strb.w	r5, [sp, #248]
.LBB196_216:
	ldr	r0, [sp, #104]
	orrs.w	r6, r4, r1
	ldr	r5, [r0, #-24]
	and	r5, r5, #1
	orr.w	r5, r5, r4
	strd	r5, r1, [r0, #-24]
	mov	r5, r0
	beq	.LBB196_218
	lsrs	r1, r4, #3
	add.w	r1, r1, r1, lsl #1
	add.w	r1, r8, r1, lsl #3
	ldr	r4, [r1, #-8]
	and	r4, r4, #1
	orr.w	r4, r4, r10
	strd	r4, r12, [r1, #-8]
.LBB196_218:
	and	r0, r11, #1
	orrs.w	r1, r3, r2
	orr.w	r0, r0, r3
	strd	r0, r2, [r9, #-8]
	beq	.LBB196_224
	lsrs	r0, r3, #3
	add.w	r0, r0, r0, lsl #1
	add.w	r0, r8, r0, lsl #3
	ldrd	r1, r4, [r0, #-24]
	bic	r5, r1, #7
	subs	r6, r7, r5
	ldr	r6, [sp, #124]
	and	r4, r4, #15
	sbcs.w	r7, r6, r4
	mov	r7, r12
	mov	r6, r10
	itt	hs
	eorhs	r7, r4
	eorhs	r6, r5
	orrs	r7, r6
	bne	.LBB196_225
	rsbs.w	r7, lr, #13
	ldr	r4, [sp, #108]
	mov.w	r7, #0
	sbcs	r7, r4
	blo	.LBB196_222
	add	r4, sp, #128
	add.w	r7, r4, lr, lsl #3
	ldr.w	r6, [r4, lr, lsl #3]
	ldr	r7, [r7, #4]
	orrs	r7, r6
	beq.w	.LBB196_239
.LBB196_222:
	movs	r2, #1
	strb.w	r2, [sp, #248]
.LBB196_223:
	ldr	r2, [sp, #72]
	and	r1, r1, #1
	ldr	r3, [sp, #76]
	ldr	r5, [sp, #104]
	orrs	r1, r2
	ldr.w	r11, [sp, #92]
	strd	r1, r3, [r0, #-24]
	b	.LBB196_229
	.p2align	2
.LBB196_224:
	ldr	r0, [sp, #72]
	ldr	r3, [sp, #76]
	ldr.w	r11, [sp, #92]
	str	r0, [sp, #100]
	str	r3, [sp, #96]
	b	.LBB196_229
	.p2align	2
.LBB196_225:
	rsbs.w	r1, lr, #13
	ldr	r4, [sp, #108]
	mov.w	r1, #0
	sbcs	r1, r4
	blo	.LBB196_227
	add	r4, sp, #128
	add.w	r1, r4, lr, lsl #3
	ldr.w	r7, [r4, lr, lsl #3]
	ldr	r1, [r1, #4]
	orrs	r1, r7
	beq.w	.LBB196_240
.LBB196_227:
	movs	r1, #1
	strb.w	r1, [sp, #248]
.LBB196_228:
	ldr.w	r11, [sp, #92]
	ldrd	r1, r3, [sp, #72]
	ldr	r5, [sp, #104]
	strd	r1, r3, [r0, #-16]
.LBB196_229:
	rsbs.w	r0, lr, #13
	ldr	r1, [sp, #108]
	mov.w	r0, #0
	sbcs	r0, r1
	blo	.LBB196_231
	add	r1, sp, #128
	add.w	r0, r1, lr, lsl #3
	ldr.w	r1, [r1, lr, lsl #3]
	ldr	r0, [r0, #4]
	orrs	r0, r1
	beq	.LBB196_234
.LBB196_231:
	movs	r0, #1
	strb.w	r0, [sp, #248]
.LBB196_232:
	ldr	r0, [sp, #72]
	strd	r10, r12, [r9, #-16]
	orr	r0, r0, #1
	strd	r0, r3, [r5, #-8]
	b.w	.LBB196_67
	.p2align	2
.LBB196_233:
	lsls	r5, r0, #3
	add	r6, sp, #128
	add.w	lr, r6, r5
	str.w	r10, [r6, r5]
	ldr	r5, [sp, #108]
	adds	r0, #1
	str.w	r12, [lr, #4]
	adc	r5, r5, #0
	mov	lr, r0
	str	r5, [sp, #108]
	strd	r0, r5, [sp, #240]
	b	.LBB196_216
	.p2align	2
.LBB196_234:
	lsl.w	r0, lr, #3
	add	r2, sp, #128
	adds	r1, r2, r0
	ldr	r4, [sp, #72]
	str	r3, [r1, #4]
	ldr	r1, [sp, #108]
	str	r4, [r2, r0]
	adds.w	r0, lr, #1
	adc	r1, r1, #0
	strd	r0, r1, [sp, #240]
	b	.LBB196_232
	.p2align	2
.LBB196_235:
	lsls	r5, r7, #3
	add.w	r6, r11, r5
	str	r6, [sp, #60]
	ldr	r6, [sp, #76]
	adds	r7, #1
	str.w	r6, [r11, r5]
	ldr	r5, [sp, #72]
	ldr	r6, [sp, #60]
	str	r5, [r6, #4]
	ldr	r5, [sp, #108]
	ldr	r6, [sp, #124]
	adc	r5, r5, #0
	str	r5, [sp, #108]
	strd	r7, r5, [sp, #240]
	b	.LBB196_147
	.p2align	2
.LBB196_236:
	lsls	r2, r7, #3
	add	r3, sp, #128
	add	r3, r2
	ldr	r5, [sp, #68]
	str	r3, [sp, #88]
	add	r3, sp, #128
	str	r5, [r3, r2]
	ldr	r2, [sp, #88]
	ldr	r5, [sp, #104]
	str.w	lr, [r2, #4]
	ldr	r2, [sp, #108]
	adds	r7, #1
	adc	r2, r2, #0
	str	r2, [sp, #108]
	strd	r7, r2, [sp, #240]
	b	.LBB196_181
	.p2align	2
.LBB196_237:
	ldr.w	r9, [sp, #72]
	lsls	r6, r7, #3
	add	r5, sp, #128
	adds	r7, r5, r6
	str.w	r9, [r5, r6]
	ldr	r6, [sp, #76]
	str	r6, [r7, #4]
	ldr	r6, [sp, #108]
	adds.w	r7, lr, #1
	adc	r6, r6, #0
	str	r6, [sp, #108]
	strd	r7, r6, [sp, #240]
	orrs.w	r6, r1, r11
	strd	r1, r11, [r0, #-16]
	bne.w	.LBB196_162
	b	.LBB196_163
	.p2align	2
.LBB196_238:
	lsl.w	r1, lr, #3
	add	r7, sp, #128
	mov	r4, lr
	add.w	lr, r7, r1
	ldr	r7, [sp, #68]
	add	r6, sp, #128
	str	r7, [r6, r1]
	ldr	r1, [sp, #108]
	ldr	r6, [sp, #124]
	str.w	r5, [lr, #4]
	ldr	r7, [sp, #68]
	adds.w	lr, r4, #1
	adc	r1, r1, #0
	str	r1, [sp, #108]
	strd	lr, r1, [sp, #240]
	b	.LBB196_211
	.p2align	2
.LBB196_239:
	lsl.w	r7, lr, #3
	adds	r6, r4, r7
	str	r2, [r6, #4]
	ldr	r2, [sp, #108]
	adds.w	lr, lr, #1
	adc	r2, r2, #0
	str	r3, [r4, r7]
	str	r2, [sp, #108]
	strd	lr, r2, [sp, #240]
	b	.LBB196_223
	.p2align	2
.LBB196_240:
	lsl.w	r1, lr, #3
	adds	r7, r4, r1
	str	r3, [r4, r1]
	ldr	r1, [sp, #108]
	adds.w	lr, lr, #1
	adc	r1, r1, #0
	str	r2, [r7, #4]
	str	r1, [sp, #108]
	strd	lr, r1, [sp, #240]
	b	.LBB196_228
	.p2align	2
.LBB196_241:
	lsls	r7, r5, #3
	add	r0, sp, #128
	adds	r4, r0, r7
	str	r3, [r0, r7]
	ldr	r0, [sp, #108]
	adds	r7, r5, #1
	mov	r6, lr
	adc	r0, r0, #0
	str	r1, [r4, #4]
	str	r0, [sp, #108]
	strd	r7, r0, [sp, #240]
	b	.LBB196_192
	.p2align	2
.LBB196_242:
	lsls	r2, r0, #3
	adds	r7, r4, r2
	str	r1, [r7, #4]
	adds	r7, r0, #1
	ldr	r0, [sp, #108]
	ldr.w	r11, [sp, #92]
	mov	r6, lr
	adc	r0, r0, #0
	str	r3, [r4, r2]
	str	r0, [sp, #108]
	strd	r7, r0, [sp, #240]
	b	.LBB196_197
	.p2align	2
.LBB196_243:
	lsls	r4, r7, #3
	add	r6, sp, #128
	str	r3, [r6, r4]
	ldr	r3, [sp, #88]
	adds	r5, r6, r4
	str	r3, [r5, #4]
	ldr	r3, [sp, #108]
	adds	r7, #1
	adc	r3, r3, #0
	str	r3, [sp, #108]
	strd	r7, r3, [sp, #240]
	b.w	.LBB196_154
	.p2align	2
.LBB196_244:
	lsls	r2, r7, #3
	add	r5, sp, #128
	adds	r4, r5, r2
	str	r3, [r5, r2]
	ldr	r2, [sp, #88]
	adds	r7, #1
	str	r2, [r4, #4]
	ldr	r2, [sp, #108]
	adc	r2, r2, #0
	str	r2, [sp, #108]
	strd	r7, r2, [sp, #240]
	b	.LBB196_177
	.p2align	2
.LBB196_245:
	ldr	r6, [sp, #88]
	lsl.w	r1, lr, #3
	add.w	r9, sp, #128
	add.w	r5, r9, r1
	str.w	r6, [r9, r1]
	ldr	r1, [sp, #108]
	adds.w	lr, lr, #1
	adc	r1, r1, #0
	str	r4, [r5, #4]
	str	r1, [sp, #108]
	strd	lr, r1, [sp, #240]
	b	.LBB196_207
	.p2align	2
.LBB196_246:
	ldr	r6, [sp, #88]
	lsl.w	r1, lr, #3
	add.w	r11, sp, #128
	add.w	r5, r11, r1
	str.w	r6, [r11, r1]
	ldr	r1, [sp, #108]
	adds.w	lr, lr, #1
	adc	r1, r1, #0
	str	r4, [r5, #4]
	str	r1, [sp, #108]
	strd	lr, r1, [sp, #240]
	b	.LBB196_169
.Lfunc_end196:
	.size	ic_tree_sums_remove, .Lfunc_end196-ic_tree_sums_remove
	.cfi_endproc
	.section	.text.ic_tree_sums_renew,"ax",%progbits
	.globl	ic_tree_sums_renew
	.p2align	2
	.type	ic_tree_sums_renew,%function
	.code	16
	.thumb_func
ic_tree_sums_renew:
	.cfi_startproc
	push.w	{r4, r5, r6, r7, r8, r9, r10, r11, lr}
	.cfi_def_cfa_offset 36
	.cfi_offset lr, -4
	.cfi_offset r11, -8
	.cfi_offset r10, -12
	.cfi_offset r9, -16
	.cfi_offset r8, -20
	.cfi_offset r7, -24
	.cfi_offset r6, -28
	.cfi_offset r5, -32
	.cfi_offset r4, -36
	sub	sp, #36
	.cfi_def_cfa_offset 72
	ldr.w	r11, [sp, #72]
	ldrd	r10, r1, [sp, #88]
	cmp	r0, #0
	ldrd	r9, r8, [sp, #80]
	it	eq
	addeq.w	r0, r0, #4096
	cmp.w	r11, #0
	mov	r4, r2
	it	eq
	addeq.w	r11, r11, #4096
	cmp.w	r10, #0
	mov.w	r2, #0
	it	ne
	movne.w	r10, #1
	str	r2, [sp, #20]
	subs.w	r2, r9, r4
	sbcs.w	r2, r8, r3
	str	r0, [sp, #16]
	str	r3, [sp, #28]
	str	r4, [sp, #24]
	blo	.LBB197_12
	mov	r7, r3
	adds	r2, r1, #1
	beq	.LBB197_5
	subs	r3, r4, r2
	sbcs	r3, r7, #0
	blo	.LBB197_12
	add.w	r3, r2, r2, lsl #1
	add.w	r0, r0, r3, lsl #3
	ldrb	r0, [r0, #-24]
	lsls	r0, r0, #31
	beq	.LBB197_12
	lsrs	r0, r2, #29
	lsls	r1, r2, #3
	strd	r1, r0, [sp, #8]
	add	r0, sp, #16
	mov	r1, r11
	mov	r2, r9
	mov	r3, r8
	str.w	r10, [sp]
	bl	ic_raw_augmented.recompute.recompute_up
	b	.LBB197_11
	.p2align	2
.LBB197_5:
	orrs.w	r0, r4, r7
	beq	.LBB197_11
	movs	r5, #0
	movs	r6, #0
	b	.LBB197_8
	.p2align	2
.LBB197_7:
	adds	r5, #1
	adc	r6, r6, #0
	subs	r0, r5, r4
	sbcs.w	r0, r6, r7
	bhs	.LBB197_11
.LBB197_8:
	lsls	r0, r6, #3
	orr.w	r1, r0, r5, lsr #29
	movs	r0, #8
	adds.w	r0, r0, r5, lsl #3
	adc	r2, r1, #0
	and	r1, r2, #15
	orrs.w	r3, r0, r1
	beq	.LBB197_7
	lsrs	r3, r0, #3
	orr.w	r2, r3, r2, lsl #29
	lsrs	r3, r1, #3
	subs	r2, r4, r2
	sbcs.w	r2, r7, r3
	blo	.LBB197_7
	strd	r0, r1, [sp, #8]
	add	r0, sp, #16
	mov	r1, r11
	mov	r2, r9
	mov	r3, r8
	str.w	r10, [sp]
	bl	ic_raw_augmented.recompute.recompute_up
	b	.LBB197_7
	.p2align	2
.LBB197_11:
	movs	r0, #0
	add	sp, #36
	pop.w	{r4, r5, r6, r7, r8, r9, r10, r11, pc}
	.p2align	2
.LBB197_12:
	add	r0, sp, #16
	mov	r2, r9
	mov	r3, r8
	str	r1, [sp]
	bl	ic_raw_augmented.sum_calls.refusal
	add	sp, #36
	pop.w	{r4, r5, r6, r7, r8, r9, r10, r11, pc}
.Lfunc_end197:
	.size	ic_tree_sums_renew, .Lfunc_end197-ic_tree_sums_renew
	.cfi_endproc
	.section	.text.ic_tree_upper_bound,"ax",%progbits
	.globl	ic_tree_upper_bound
	.p2align	2
	.type	ic_tree_upper_bound,%function
	.code	16
	.thumb_func
ic_tree_upper_bound:
	.cfi_startproc
	push.w	{r4, r5, r6, r7, r8, r9, r10, r11, lr}
	.cfi_def_cfa_offset 36
	.cfi_offset lr, -4
	.cfi_offset r11, -8
	.cfi_offset r10, -12
	.cfi_offset r9, -16
	.cfi_offset r8, -20
	.cfi_offset r7, -24
	.cfi_offset r6, -28
	.cfi_offset r5, -32
	.cfi_offset r4, -36
	sub	sp, #28
	.cfi_def_cfa_offset 64
	ldr.w	r9, [sp, #64]
	mov	r8, r0
	ldrd	lr, r12, [sp, #72]
	cmp	r0, #0
	it	eq
	addeq.w	r8, r8, #4096
	cmp.w	r9, #0
	it	eq
	addeq.w	r9, r9, #4096
	subs.w	r0, lr, r2
	sbcs.w	r0, r12, r3
	blo.w	.LBB198_19
	ldr	r0, [sp, #80]
	ldrd	r0, r1, [r0]
	and	r5, r1, #15
	bic	r4, r0, #7
	orrs.w	r0, r4, r5
	beq.w	.LBB198_21
	lsrs	r0, r4, #3
	orr.w	r0, r0, r5, lsl #29
	subs	r1, r2, r0
	sbcs.w	r1, r3, r5, lsr #3
	blo.w	.LBB198_19
	add.w	r0, r0, r0, lsl #1
	add.w	r0, r8, r0, lsl #3
	ldrb	r0, [r0, #-24]
	lsls	r0, r0, #31
	beq.w	.LBB198_19
	ldr	r0, [sp, #92]
	movs	r1, #0
	str	r0, [sp, #4]
	ldr	r0, [sp, #96]
	ldr.w	lr, [sp, #88]
	str	r0, [sp]
	lsls	r0, r3, #3
	orr.w	r0, r0, r2, lsr #29
	lsls	r3, r2, #3
	movs	r7, #22
	movs	r2, #0
	str	r0, [sp, #24]
	str.w	r8, [sp, #20]
	strd	r3, r9, [sp, #12]
	.p2align	2
.LBB198_5:
	lsrs	r0, r4, #3
	str	r7, [sp, #8]
	add.w	r0, r0, r0, lsl #1
	add.w	r7, r9, r4
	add.w	r0, r8, r0, lsl #3
	ldrd	r8, r9, [r7, #-8]
	ldr	r6, [sp, #4]
	ldrd	r11, r12, [r0, #-24]
	ldr	r10, [r0, #-16]
	ldr	r7, [r0, #-12]
	subs.w	r0, lr, r8
	sbcs.w	r0, r6, r9
	mov	r0, r10
	itet	lo
	movlo	r5, r1
	movhs	r2, r4
	movlo	r0, r11
	mov	r1, r7
	it	lo
	movlo	r1, r12
	and	r4, r1, #15
	bic	r1, r0, #7
	subs.w	r9, r1, #1
	sbc	r8, r4, #0
	subs.w	r3, r9, r3
	ldr	r3, [sp, #24]
	sbcs.w	r3, r8, r3
	bhs	.LBB198_9
	lsrs	r0, r0, #3
	ldr	r3, [sp, #20]
	add.w	r0, r0, r0, lsl #1
	add.w	r0, r3, r0, lsl #3
	ldr	r3, [sp, #16]
	sub.w	r12, r0, #24
	add	r3, r1
	ldrd	r3, r8, [r3, #-8]
	ldr	r0, [r0, #-12]
	subs.w	r3, lr, r3
	sbcs.w	r3, r6, r8
	ldm.w	r12, {r10, r11, r12}
	mov	r3, r12
	itte	hs
	movhs	r5, r4
	movhs	r2, r1
	movlo	r3, r10
	mov	r1, r0
	it	lo
	movlo	r1, r11
	bic	r4, r3, #7
	mov	r7, r6
	ldr	r6, [sp, #12]
	and	r1, r1, #15
	subs.w	r8, r4, #1
	sbc	r9, r1, #0
	subs.w	r6, r8, r6
	ldr	r6, [sp, #24]
	sbcs.w	r6, r9, r6
	ldr.w	r9, [sp, #24]
	bhs	.LBB198_11
	lsrs	r0, r3, #3
	ldr	r3, [sp, #20]
	add.w	r0, r0, r0, lsl #1
	add.w	r0, r3, r0, lsl #3
	ldr	r3, [sp, #16]
	sub.w	r12, r0, #24
	add	r3, r4
	ldrd	r3, r8, [r3, #-8]
	ldr	r0, [r0, #-12]
	subs.w	r3, lr, r3
	sbcs.w	r3, r7, r8
	ldm.w	r12, {r10, r11, r12}
	mov	r3, r12
	itet	lo
	movlo	r1, r5
	movhs	r2, r4
	movlo	r3, r10
	mov	r4, r0
	it	lo
	movlo	r4, r11
	and	r5, r4, #15
	bic	r4, r3, #7
	ldr	r7, [sp, #12]
	subs	r3, r4, #1
	sbc	r8, r5, #0
	subs	r3, r3, r7
	sbcs.w	r3, r8, r9
	ldrd	r9, r8, [sp, #16]
	mov	r3, r7
	ldr	r7, [sp, #8]
	bhs	.LBB198_16
	subs	r7, #1
	bne.w	.LBB198_5
	b	.LBB198_18
	.p2align	2
.LBB198_9:
	ldr.w	r8, [sp, #20]
	subs.w	r0, r11, r1
	sbcs.w	r0, r12, r4
	bhs	.LBB198_13
	subs.w	r0, r10, r1
	sbcs.w	r0, r7, r4
	blo	.LBB198_18
	b	.LBB198_13
	.p2align	2
.LBB198_11:
	ldr.w	r8, [sp, #20]
	subs.w	r3, r10, r4
	sbcs.w	r3, r11, r1
	bhs	.LBB198_13
	subs.w	r3, r12, r4
	sbcs	r0, r1
	blo	.LBB198_18
.LBB198_13:
	orrs.w	r0, r2, r5
	beq	.LBB198_21
.LBB198_14:
	lsrs	r0, r2, #3
	add.w	r1, r0, r0, lsl #1
	add.w	r1, r8, r1, lsl #3
	ldrb	r1, [r1, #-24]
	lsls	r1, r1, #31
	beq	.LBB198_18
	orr.w	r0, r0, r5, lsl #29
	ldr	r1, [sp]
	subs	r0, #1
	str	r0, [r1]
	movs	r0, #0
	add	sp, #28
	pop.w	{r4, r5, r6, r7, r8, r9, r10, r11, pc}
	.p2align	2
.LBB198_16:
	subs.w	r3, r10, r4
	sbcs.w	r3, r11, r5
	bhs	.LBB198_20
	subs.w	r3, r12, r4
	sbcs	r0, r5
	mov	r5, r1
	bhs	.LBB198_13
.LBB198_18:
	movs	r0, #5
	add	sp, #28
	pop.w	{r4, r5, r6, r7, r8, r9, r10, r11, pc}
	.p2align	2
.LBB198_19:
	mov	r0, r2
	mov	r1, r3
	mov	r2, lr
	mov	r3, r12
	add	sp, #28
	pop.w	{r4, r5, r6, r7, r8, r9, r10, r11, lr}
	b	ic_raw.search.refusal
	.p2align	2
.LBB198_20:
	mov	r5, r1
	orrs.w	r0, r2, r5
	bne	.LBB198_14
.LBB198_21:
	movs	r0, #4
	add	sp, #28
	pop.w	{r4, r5, r6, r7, r8, r9, r10, r11, pc}
.Lfunc_end198:
	.size	ic_tree_upper_bound, .Lfunc_end198-ic_tree_upper_bound
	.cfi_endproc
	.section	.text.ic_xor_append,"ax",%progbits
	.globl	ic_xor_append
	.p2align	2
	.type	ic_xor_append,%function
	.code	16
	.thumb_func
ic_xor_append:
	.cfi_startproc
	push	{r4, r5, r6, lr}
	.cfi_def_cfa_offset 16
	.cfi_offset lr, -4
	.cfi_offset r6, -8
	.cfi_offset r5, -12
	.cfi_offset r4, -16
	sub	sp, #32
	.cfi_def_cfa_offset 48
	ldrd	lr, r12, [sp, #48]
	cmp	r0, #0
	ldrd	r1, r4, [lr, #8]
	it	eq
	addeq.w	r0, r0, #4096
	and	r4, r4, #15
	bic	r1, r1, #7
	orrs.w	r5, r1, r4
	it	ne
	movne	r5, #1
	movs	r6, #0
	strd	lr, r5, [sp]
	add.w	lr, sp, #8
	stm.w	lr, {r1, r4, r12}
	strd	r6, r6, [sp, #20]
	str	r6, [sp, #28]
	bl	ic_raw.xor_calls.splice
	cmp	r0, #0
	mov.w	r0, #5
	it	ne
	movne	r0, #0
	add	sp, #32
	pop	{r4, r5, r6, pc}
.Lfunc_end199:
	.size	ic_xor_append, .Lfunc_end199-ic_xor_append
	.cfi_endproc
	.section	.text.ic_xor_clear,"ax",%progbits
	.globl	ic_xor_clear
	.p2align	2
	.type	ic_xor_clear,%function
	.code	16
	.thumb_func
ic_xor_clear:
	.cfi_startproc
	push.w	{r4, r5, r6, r7, r8, r9, r10, r11, lr}
	.cfi_def_cfa_offset 36
	.cfi_offset lr, -4
	.cfi_offset r11, -8
	.cfi_offset r10, -12
	.cfi_offset r9, -16
	.cfi_offset r8, -20
	.cfi_offset r7, -24
	.cfi_offset r6, -28
	.cfi_offset r5, -32
	.cfi_offset r4, -36
	sub	sp, #8
	.cfi_def_cfa_offset 44
	ldr	r6, [sp, #44]
	cmp	r0, #0
	it	eq
	addeq.w	r0, r0, #4096
	ldrd	r1, r7, [r6]
	ldrd	r4, r5, [r6, #8]
	and	lr, r7, #15
	bic	r10, r1, #7
	and	r7, r5, #15
	orrs.w	r1, r10, lr
	bic	r6, r4, #7
	beq	.LBB200_7
	orrs.w	r1, r2, r3
	beq	.LBB200_8
	mov.w	r8, #0
	movs	r1, #0
	mov	r11, r10
	mov	r9, lr
	mov	r4, r2
	mov	r5, r3
	strd	r6, r7, [sp]
	.p2align	2
.LBB200_3:
	lsr.w	r6, r11, #3
	orr.w	r6, r6, r9, lsl #29
	subs	r6, r2, r6
	sbcs.w	r6, r3, r9, lsr #3
	blo	.LBB200_8
	add.w	r7, r0, r11
	ldr	r6, [r7, #-8]
	lsls.w	r12, r6, #31
	beq	.LBB200_8
	ldr	r7, [r7, #-4]
	bic	r6, r6, #7
	and	r7, r7, #15
	eor.w	r6, r6, r8
	eors	r7, r1
	orrs.w	r1, r6, r7
	beq	.LBB200_9
	subs	r4, #1
	sbc	r5, r5, #0
	orrs.w	r1, r4, r5
	mov	r8, r11
	mov	r1, r9
	mov	r11, r6
	mov	r9, r7
	bne	.LBB200_3
	b	.LBB200_8
	.p2align	2
.LBB200_7:
	orrs.w	r0, r6, r7
	beq	.LBB200_15
.LBB200_8:
	movs	r0, #5
	add	sp, #8
	pop.w	{r4, r5, r6, r7, r8, r9, r10, r11, pc}
	.p2align	2
.LBB200_9:
	ldr	r1, [sp]
	ldr	r7, [sp, #4]
	eor.w	r1, r1, r11
	eor.w	r7, r7, r9
	orrs	r1, r7
	bne	.LBB200_8
	mov.w	r8, #0
	mov.w	r9, #0
	mov	r11, r2
	mov	r5, r3
	.p2align	2
.LBB200_11:
	lsr.w	r1, r10, #3
	orr.w	r1, r1, lr, lsl #29
	subs	r1, r2, r1
	sbcs.w	r1, r3, lr, lsr #3
	blo	.LBB200_15
	add.w	r6, r0, r10
	ldr	r1, [r6, #-8]
	lsls	r7, r1, #31
	beq	.LBB200_15
	subs.w	r11, r11, #1
	ldr	r7, [r6, #-4]
	sbc	r5, r5, #0
	mov.w	r12, #0
	orrs.w	r4, r11, r5
	str	r12, [r6, #-4]
	str	r12, [r6, #-8]
	beq	.LBB200_15
	and	r7, r7, #15
	bic	r1, r1, #7
	eor.w	r1, r1, r8
	eor.w	r7, r7, r9
	orrs.w	r6, r1, r7
	mov	r8, r10
	mov	r9, lr
	mov	r10, r1
	mov	lr, r7
	bne	.LBB200_11
.LBB200_15:
	ldr	r1, [sp, #44]
	movs	r0, #0
	str	r0, [r1, #12]
	str	r0, [r1, #8]
	str	r0, [r1, #4]
	str	r0, [r1]
	add	sp, #8
	pop.w	{r4, r5, r6, r7, r8, r9, r10, r11, pc}
.Lfunc_end200:
	.size	ic_xor_clear, .Lfunc_end200-ic_xor_clear
	.cfi_endproc
	.section	.text.ic_xor_fill,"ax",%progbits
	.globl	ic_xor_fill
	.p2align	2
	.type	ic_xor_fill,%function
	.code	16
	.thumb_func
ic_xor_fill:
	.cfi_startproc
	push.w	{r4, r5, r6, r7, r8, r9, r10, r11, lr}
	.cfi_def_cfa_offset 36
	.cfi_offset lr, -4
	.cfi_offset r11, -8
	.cfi_offset r10, -12
	.cfi_offset r9, -16
	.cfi_offset r8, -20
	.cfi_offset r7, -24
	.cfi_offset r6, -28
	.cfi_offset r5, -32
	.cfi_offset r4, -36
	sub	sp, #16
	.cfi_def_cfa_offset 52
	ldr.w	r10, [sp, #60]
	cmp	r0, #0
	mov.w	r6, #0
	it	eq
	moveq.w	r6, #4096
	cmp.w	r10, #0
	mov.w	r1, #0
	beq	.LBB201_21
	ldr	r4, [sp, #52]
	add.w	r8, r0, r6
	ldrd	r5, r1, [r4]
	ldrd	r7, r4, [r4, #8]
	and	r1, r1, #15
	and	r9, r4, #15
	bic	lr, r7, #7
	orrs.w	r12, lr, r9
	bic	r7, r5, #7
	str.w	r8, [sp, #12]
	strd	r7, r1, [sp, #4]
	beq	.LBB201_7
	lsr.w	r5, lr, #3
	orr.w	r5, r5, r9, lsl #29
	subs	r5, r2, r5
	sbcs.w	r5, r3, r9, lsr #3
	blo	.LBB201_8
	add.w	r4, r8, lr
	ldr	r5, [r4, #-8]
	lsls	r1, r5, #31
	beq	.LBB201_8
	ldr	r1, [r4, #-4]
	bic	r5, r5, #7
	and	r4, r1, #15
	orrs.w	r1, r5, r4
	beq	.LBB201_23
	lsrs	r1, r5, #3
	orr.w	r1, r1, r4, lsl #29
	subs	r1, r2, r1
	sbcs.w	r1, r3, r4, lsr #3
	blo	.LBB201_8
	add.w	r1, r8, r5
	ldrb	r1, [r1, #-8]
	lsls	r1, r1, #31
	beq	.LBB201_8
	b	.LBB201_24
	.p2align	2
.LBB201_7:
	orrs	r1, r7
	beq	.LBB201_24
.LBB201_8:
	movs	r1, #1
	movs	r7, #0
	str	r1, [sp]
	mov.w	r8, #0
	mov.w	r12, #0
.LBB201_9:
	ldr	r4, [sp, #56]
	mov	r5, r10
	add.w	r1, r6, r4, lsl #3
	add	r0, r1
	adds	r6, r4, #1
	.p2align	2
.LBB201_10:
	mov.w	r1, #1
	cbz	r6, .LBB201_21
	subs.w	r11, r2, r6
	sbcs	r4, r3, #0
	blo	.LBB201_21
	ldr	r1, [r0]
	movs	r4, #2
	ands.w	r1, r4, r1, lsl #1
	bne	.LBB201_21
	subs	r5, #1
	add.w	r0, r0, #8
	add.w	r6, r6, #1
	bne	.LBB201_10
	cbz	r7, .LBB201_20
	ldr	r0, [sp, #56]
	adds	r1, r0, #1
	bhs	.LBB201_22
	subs	r0, r2, r1
	sbcs	r0, r3, #0
	blo	.LBB201_22
	ldr	r0, [sp, #12]
	lsl.w	r11, r1, #3
	add.w	r6, r0, r11
	ldrb	r5, [r6, #-8]
	lsls	r5, r5, #31
	bne	.LBB201_22
	ldr	r0, [sp]
	lsr.w	r9, r1, #29
	movs	r5, #0
	movs	r7, #1
	strd	r7, r5, [r6, #-8]
	cbz	r0, .LBB201_25
	mov	r12, r11
	str.w	r9, [sp, #8]
	b	.LBB201_26
	.p2align	2
.LBB201_20:
	movs	r1, #5
.LBB201_21:
	mov	r0, r1
	add	sp, #16
	pop.w	{r4, r5, r6, r7, r8, r9, r10, r11, pc}
	.p2align	2
.LBB201_22:
	ldr.w	r10, [sp, #52]
	ldr.w	r12, [sp, #4]
	b	.LBB201_35
	.p2align	2
.LBB201_23:
	ldr	r5, [sp, #8]
	eor.w	r1, r7, lr
	eor.w	r4, r5, r9
	orrs	r1, r4
	bne	.LBB201_8
.LBB201_24:
	clz	r1, r12
	lsrs	r1, r1, #5
	movs	r7, #1
	mov	r8, lr
	mov	r12, r9
	str	r1, [sp]
	b	.LBB201_9
	.p2align	2
.LBB201_25:
	ldr	r0, [sp, #12]
	add.w	r1, r0, r8
	ldrd	r7, r5, [r1, #-8]
	bic	r7, r7, #6
	and	r5, r5, #15
	eor.w	r7, r7, r11
	eor.w	r5, r5, r9
	orr	r7, r7, #1
	strd	r7, r5, [r1, #-8]
	mov	r5, r12
	ldr.w	r12, [sp, #4]
	orr	r7, r8, #1
.LBB201_26:
	subs.w	r1, r10, #1
	strd	r7, r5, [r6, #-8]
	beq	.LBB201_33
	ldr	r0, [sp, #56]
	adds	r6, r0, #2
.LBB201_28:
	cbz	r6, .LBB201_33
	subs	r7, r2, r6
	sbcs	r7, r3, #0
	blo	.LBB201_33
	ldr	r0, [sp, #12]
	lsl.w	lr, r6, #3
	add.w	r5, r0, lr
	ldrb	r4, [r5, #-8]
	lsls	r4, r4, #31
	bne	.LBB201_33
	mov	r10, r12
	mov.w	r12, #0
	movs	r4, #1
	strd	r4, r12, [r5, #-8]
	add	r0, r11
	ldrd	r7, r12, [r0, #-8]
	lsrs	r4, r6, #29
	bic	r8, r7, #6
	and	r7, r12, #15
	eor.w	r12, r7, r4
	eor.w	r7, r8, lr
	orr	r7, r7, #1
	strd	r7, r12, [r0, #-8]
	orr	r0, r11, #1
	mov	r12, r10
	strd	r0, r9, [r5, #-8]
	subs	r1, #1
	add.w	r6, r6, #1
	mov	r11, lr
	mov	r9, r4
	bne	.LBB201_28
	mov	r9, r4
	b	.LBB201_34
	.p2align	2
.LBB201_33:
	mov	lr, r11
.LBB201_34:
	ldr.w	r10, [sp, #52]
.LBB201_35:
	ldr	r0, [sp, #8]
	movs	r1, #0
	str.w	r12, [r10]
	str.w	r0, [r10, #4]
	str.w	lr, [r10, #8]
	str.w	r9, [r10, #12]
	mov	r0, r1
	add	sp, #16
	pop.w	{r4, r5, r6, r7, r8, r9, r10, r11, pc}
.Lfunc_end201:
	.size	ic_xor_fill, .Lfunc_end201-ic_xor_fill
	.cfi_endproc
	.section	.text.ic_xor_insert_between,"ax",%progbits
	.globl	ic_xor_insert_between
	.p2align	2
	.type	ic_xor_insert_between,%function
	.code	16
	.thumb_func
ic_xor_insert_between:
	.cfi_startproc
	push.w	{r4, r5, r6, r7, r8, r9, r10, r11, lr}
	.cfi_def_cfa_offset 36
	.cfi_offset lr, -4
	.cfi_offset r11, -8
	.cfi_offset r10, -12
	.cfi_offset r9, -16
	.cfi_offset r8, -20
	.cfi_offset r7, -24
	.cfi_offset r6, -28
	.cfi_offset r5, -32
	.cfi_offset r4, -36
	sub	sp, #44
	.cfi_def_cfa_offset 80
	mov	lr, r2
	ldrd	r6, r1, [sp, #88]
	ldrd	r5, r2, [sp, #80]
	cmp	r0, #0
	mov	r12, r3
	it	eq
	addeq.w	r0, r0, #4096
	adds.w	r10, r2, #1
	add.w	r11, r1, #1
	ldrd	r1, r3, [r5]
	lsl.w	r2, r10, #3
	str	r2, [sp, #20]
	ldr	r2, [r5, #8]
	and	r7, r3, #15
	ldr	r3, [r5, #12]
	lsr.w	r8, r10, #29
	lsr.w	r4, r11, #29
	bic	r1, r1, #7
	lsl.w	r9, r11, #3
	str	r4, [sp, #16]
	strd	r1, r7, [sp, #4]
	blo	.LBB202_2
	eor.w	r1, r1, r9
	eors	r4, r7
	ldr	r5, [sp, #20]
	orrs	r1, r4
	beq	.LBB202_8
	b	.LBB202_27
	.p2align	2
.LBB202_2:
	subs.w	r1, lr, r10
	ldr	r5, [sp, #20]
	sbcs	r1, r12, #0
	blo.w	.LBB202_27
	adds	r4, r0, r5
	ldr	r1, [r4, #-8]
	lsls	r6, r1, #31
	ldr	r6, [sp, #88]
	beq.w	.LBB202_27
	ldr	r4, [r4, #-4]
	ldr	r6, [sp, #16]
	and	r4, r4, #15
	bic	r1, r1, #7
	eor.w	r1, r1, r9
	eors	r4, r6
	orrs.w	r6, r1, r4
	bne	.LBB202_6
	ldr	r1, [sp, #4]
	ldr	r4, [sp, #8]
	eors	r1, r5
	eor.w	r4, r4, r8
	ldr	r6, [sp, #88]
	orrs	r1, r4
	beq	.LBB202_8
	b	.LBB202_27
	.p2align	2
.LBB202_6:
	lsrs	r6, r1, #3
	orr.w	r6, r6, r4, lsl #29
	subs.w	r6, lr, r6
	ldr	r6, [sp, #88]
	sbcs.w	r4, r12, r4, lsr #3
	blo.w	.LBB202_27
	add	r1, r0
	ldrb	r1, [r1, #-8]
	lsls	r1, r1, #31
	beq.w	.LBB202_27
.LBB202_8:
	adds	r1, r6, #1
	and	r7, r3, #15
	cmp.w	r11, #0
	bic	r2, r2, #7
	str	r2, [sp, #12]
	beq	.LBB202_14
	subs.w	r2, lr, r11
	sbcs	r2, r12, #0
	blo.w	.LBB202_27
	add.w	r3, r0, r9
	ldr	r2, [r3, #-8]
	lsls	r4, r2, #31
	beq.w	.LBB202_27
	ldr	r3, [r3, #-4]
	bic	r2, r2, #7
	and	r3, r3, #15
	eors	r2, r5
	eor.w	r3, r3, r8
	orrs.w	r4, r2, r3
	bne	.LBB202_17
	cmp	r1, #0
	beq.w	.LBB202_27
	ldr	r2, [sp, #12]
	ldr	r3, [sp, #16]
	eor.w	r2, r2, r9
	eors	r3, r7
	b	.LBB202_16
	.p2align	2
.LBB202_14:
	cmp	r1, #0
	beq	.LBB202_27
	ldr	r2, [sp, #12]
	eor.w	r3, r7, r8
	eors	r2, r5
.LBB202_16:
	orrs	r2, r3
	beq	.LBB202_20
	b	.LBB202_27
	.p2align	2
.LBB202_17:
	lsrs	r4, r2, #3
	orr.w	r4, r4, r3, lsl #29
	subs.w	r4, lr, r4
	sbcs.w	r3, r12, r3, lsr #3
	blo	.LBB202_27
	cmp	r1, #0
	beq	.LBB202_27
	add	r2, r0
	ldr	r2, [r2, #-8]
	ands	r2, r2, #1
	beq	.LBB202_27
.LBB202_20:
	subs.w	r2, lr, r1
	sbcs	r2, r12, #0
	blo	.LBB202_27
	lsls	r2, r1, #3
	adds	r3, r0, r2
	ldrb	r4, [r3, #-8]
	lsls	r4, r4, #31
	bne	.LBB202_27
	ldr.w	lr, [sp, #80]
	lsrs	r1, r1, #29
	movs	r6, #0
	movs	r4, #1
	strd	r4, r6, [r3, #-8]
	cmp.w	r10, #0
	mov	r12, r2
	mov	r6, r1
	beq	.LBB202_24
	adds	r6, r0, r5
	ldrd	r4, r5, [r6, #-8]
	mov	r12, r8
	bic	r4, r4, #6
	and	r5, r5, #15
	eor.w	r8, r2, r4
	mov	r4, r7
	ldr	r7, [sp, #16]
	eors	r5, r1
	eors	r5, r7
	mov	r7, r4
	eor.w	r4, r8, r9
	orr	r4, r4, #1
	strd	r4, r5, [r6, #-8]
	ldr	r5, [sp, #20]
	mov	r8, r12
	ldrd	r12, r6, [sp, #4]
.LBB202_24:
	cmp.w	r11, #0
	beq	.LBB202_26
	add	r0, r9
	mov	r10, r7
	ldrd	r7, r5, [r0, #-8]
	mov	r4, r8
	and	r8, r5, #15
	ldr	r5, [sp, #20]
	bic	r7, r7, #6
	eors	r7, r5
	eor.w	r5, r4, r8
	eors	r2, r7
	eors	r1, r5
	orr	r2, r2, #1
	ldr	r5, [sp, #20]
	strd	r2, r1, [r0, #-8]
	ldr	r2, [sp, #12]
	mov	r8, r4
	mov	r1, r10
.LBB202_26:
	ldr	r0, [sp, #16]
	eor.w	r7, r9, r5
	eor.w	r0, r0, r8
	orr	r7, r7, #1
	strd	r7, r0, [r3, #-8]
	str.w	r6, [lr, #4]
	str.w	r12, [lr]
	str.w	r1, [lr, #12]
	str.w	r2, [lr, #8]
	movs	r0, #0
	add	sp, #44
	pop.w	{r4, r5, r6, r7, r8, r9, r10, r11, pc}
	.p2align	2
.LBB202_27:
	str	r0, [sp, #24]
	movs	r0, #0
	ldr	r1, [sp, #84]
	ldr	r2, [sp, #92]
	strd	r0, lr, [sp, #28]
	add	r0, sp, #24
	mov	r3, r6
	str.w	r12, [sp, #36]
	bl	ic_raw.xor_calls.refusal_with_both
	add	sp, #44
	pop.w	{r4, r5, r6, r7, r8, r9, r10, r11, pc}
.Lfunc_end202:
	.size	ic_xor_insert_between, .Lfunc_end202-ic_xor_insert_between
	.cfi_endproc
	.section	.text.ic_xor_pop_back,"ax",%progbits
	.globl	ic_xor_pop_back
	.p2align	2
	.type	ic_xor_pop_back,%function
	.code	16
	.thumb_func
ic_xor_pop_back:
	.cfi_startproc
	push.w	{r4, r5, r6, r7, r8, r9, r10, r11, lr}
	.cfi_def_cfa_offset 36
	.cfi_offset lr, -4
	.cfi_offset r11, -8
	.cfi_offset r10, -12
	.cfi_offset r9, -16
	.cfi_offset r8, -20
	.cfi_offset r7, -24
	.cfi_offset r6, -28
	.cfi_offset r5, -32
	.cfi_offset r4, -36
	sub	sp, #8
	.cfi_def_cfa_offset 44
	ldr.w	r12, [sp, #44]
	cmp	r0, #0
	ldrd	r1, r7, [r12, #8]
	it	eq
	addeq.w	r0, r0, #4096
	and	r6, r7, #15
	bic	r7, r1, #7
	orrs.w	r1, r7, r6
	beq	.LBB203_8
	lsrs	r1, r7, #3
	orr.w	r1, r1, r6, lsl #29
	subs	r5, r2, r1
	sbcs.w	r5, r3, r6, lsr #3
	blo	.LBB203_13
	add.w	lr, r0, r7
	ldr	r4, [lr, #-8]
	lsls	r5, r4, #31
	beq	.LBB203_13
	ldrd	r9, r5, [r12]
	bic	r4, r4, #7
	and	r8, r5, #15
	ldr	r5, [lr, #-4]
	bic	r9, r9, #7
	and	r10, r5, #15
	orrs.w	r5, r4, r10
	beq	.LBB203_9
	lsrs	r5, r4, #3
	orr.w	r5, r5, r10, lsl #29
	subs	r5, r2, r5
	sbcs.w	r5, r3, r10, lsr #3
	blo	.LBB203_13
	str.w	r8, [sp, #4]
	add.w	r8, r0, r4
	ldr	r11, [r8, #-8]
	lsls.w	r5, r11, #31
	beq	.LBB203_13
	ldr	r5, [r8, #-4]
	str.w	r8, [sp]
	and	r8, r5, #15
	bic	r5, r11, #7
	eors	r7, r5
	eor.w	r6, r6, r8
	orrs.w	r5, r7, r6
	bne	.LBB203_11
	ldr	r3, [sp, #4]
	eor.w	r0, r9, r4
	eor.w	r2, r3, r10
	orrs	r0, r2
	bne	.LBB203_13
	b	.LBB203_14
	.p2align	2
.LBB203_8:
	movs	r0, #4
	add	sp, #8
	pop.w	{r4, r5, r6, r7, r8, r9, r10, r11, pc}
	.p2align	2
.LBB203_9:
	eor.w	r0, r9, r7
	eor.w	r2, r8, r6
	orrs	r0, r2
	bne	.LBB203_13
	mov.w	r9, #0
	movs	r3, #0
	b	.LBB203_15
	.p2align	2
.LBB203_11:
	lsrs	r5, r7, #3
	orr.w	r5, r5, r6, lsl #29
	subs	r2, r2, r5
	sbcs.w	r2, r3, r6, lsr #3
	ldr	r3, [sp, #4]
	blo	.LBB203_13
	add	r0, r7
	ldrb	r0, [r0, #-8]
	lsls	r0, r0, #31
	bne	.LBB203_14
.LBB203_13:
	movs	r0, #5
	add	sp, #8
	pop.w	{r4, r5, r6, r7, r8, r9, r10, r11, pc}
	.p2align	2
.LBB203_14:
	ldr	r2, [sp]
	orr	r0, r7, #1
	strd	r0, r6, [r2, #-8]
.LBB203_15:
	ldr	r2, [sp, #48]
	movs	r0, #0
	subs	r1, #1
	strd	r0, r0, [lr, #-8]
	str.w	r3, [r12, #4]
	str.w	r9, [r12]
	str.w	r10, [r12, #12]
	str.w	r4, [r12, #8]
	str	r1, [r2]
	add	sp, #8
	pop.w	{r4, r5, r6, r7, r8, r9, r10, r11, pc}
.Lfunc_end203:
	.size	ic_xor_pop_back, .Lfunc_end203-ic_xor_pop_back
	.cfi_endproc
	.section	.text.ic_xor_pop_front,"ax",%progbits
	.globl	ic_xor_pop_front
	.p2align	2
	.type	ic_xor_pop_front,%function
	.code	16
	.thumb_func
ic_xor_pop_front:
	.cfi_startproc
	push.w	{r4, r5, r6, r7, r8, r9, r10, r11, lr}
	.cfi_def_cfa_offset 36
	.cfi_offset lr, -4
	.cfi_offset r11, -8
	.cfi_offset r10, -12
	.cfi_offset r9, -16
	.cfi_offset r8, -20
	.cfi_offset r7, -24
	.cfi_offset r6, -28
	.cfi_offset r5, -32
	.cfi_offset r4, -36
	ldrd	lr, r12, [sp, #36]
	cmp	r0, #0
	ldrd	r5, r4, [lr]
	it	eq
	addeq.w	r0, r0, #4096
	and	r7, r4, #15
	bic	r1, r5, #7
	orrs.w	r6, r1, r7
	beq	.LBB204_5
	lsrs	r5, r5, #3
	orr.w	r8, r5, r4, lsl #29
	lsrs	r4, r7, #3
	subs.w	r5, r2, r8
	sbcs.w	r4, r3, r4
	blo	.LBB204_5
	add.w	r11, r0, r1
	ldr	r5, [r11, #-8]
	lsls	r6, r5, #31
	itttt	ne
	ldrne	r6, [r11, #-4]
	bicne	r9, r5, #7
	andne	r10, r6, #15
	orrsne.w	r4, r9, r10
	beq	.LBB204_5
	lsrs	r4, r5, #3
	orr.w	r4, r4, r6, lsl #29
	lsr.w	r5, r10, #3
	subs	r4, r2, r4
	sbcs.w	r4, r3, r5
	blo	.LBB204_5
	add.w	r5, r0, r9
	ldr	r6, [r5, #-8]
	lsls	r4, r6, #31
	itttt	ne
	ldrne	r4, [r5, #-4]
	andne	r4, r4, #15
	bicne	r6, r6, #7
	eorne	r6, r1
	itt	ne
	eorne.w	r1, r4, r7
	orrsne.w	r4, r6, r1
	bne	.LBB204_6
.LBB204_5:
	strd	lr, r12, [sp, #36]
	pop.w	{r4, r5, r6, r7, r8, r9, r10, r11, lr}
	b	ic_raw.xor_calls.pop_front_slow
	.p2align	2
.LBB204_6:
	lsrs	r4, r6, #3
	orr.w	r4, r4, r1, lsl #29
	lsrs	r7, r1, #3
	subs	r4, r2, r4
	sbcs.w	r4, r3, r7
	blo	.LBB204_5
	adds	r4, r0, r6
	ldrb	r4, [r4, #-8]
	lsls	r4, r4, #31
	beq	.LBB204_5
	orr	r0, r6, #1
	strd	r0, r1, [r5, #-8]
	movs	r0, #0
	sub.w	r1, r8, #1
	strd	r0, r0, [r11, #-8]
	strd	r9, r10, [lr]
	str.w	r1, [r12]
	pop.w	{r4, r5, r6, r7, r8, r9, r10, r11, pc}
.Lfunc_end204:
	.size	ic_xor_pop_front, .Lfunc_end204-ic_xor_pop_front
	.cfi_endproc
	.section	.text.ic_xor_push_back,"ax",%progbits
	.globl	ic_xor_push_back
	.p2align	2
	.type	ic_xor_push_back,%function
	.code	16
	.thumb_func
ic_xor_push_back:
	.cfi_startproc
	push.w	{r4, r5, r6, r7, r8, r9, r10, r11, lr}
	.cfi_def_cfa_offset 36
	.cfi_offset lr, -4
	.cfi_offset r11, -8
	.cfi_offset r10, -12
	.cfi_offset r9, -16
	.cfi_offset r8, -20
	.cfi_offset r7, -24
	.cfi_offset r6, -28
	.cfi_offset r5, -32
	.cfi_offset r4, -36
	sub	sp, #28
	.cfi_def_cfa_offset 64
	ldrd	r7, r8, [sp, #64]
	cmp	r0, #0
	ldrd	r11, r10, [r7, #8]
	it	eq
	addeq.w	r0, r0, #4096
	and	r5, r10, #15
	bic	r9, r11, #7
	orrs.w	r1, r9, r5
	beq	.LBB205_10
	lsr.w	r1, r11, #3
	orr.w	r1, r1, r10, lsl #29
	lsrs	r4, r5, #3
	subs	r1, r2, r1
	sbcs.w	r1, r3, r4
	blo	.LBB205_10
	add.w	lr, r0, r9
	ldr	r4, [lr, #-8]
	lsls	r1, r4, #31
	beq	.LBB205_10
	ldr	r12, [lr, #-4]
	bic	r1, r4, #7
	and	r6, r12, #15
	mov	r7, r8
	orrs.w	r8, r1, r6
	mov	r8, r7
	ldr	r7, [sp, #64]
	str	r5, [sp, #24]
	beq	.LBB205_10
	lsrs	r4, r4, #3
	orr.w	r4, r4, r12, lsl #29
	lsrs	r5, r6, #3
	subs	r4, r2, r4
	sbcs.w	r4, r3, r5
	blo	.LBB205_10
	add	r1, r0
	ldrb	r1, [r1, #-8]
	lsls	r1, r1, #31
	beq	.LBB205_10
	adds.w	r5, r8, #1
	bhs	.LBB205_10
	subs	r1, r2, r5
	sbcs	r1, r3, #0
	blo	.LBB205_10
	lsls	r4, r5, #3
	adds	r1, r0, r4
	ldrb	r6, [r1, #-8]
	lsls	r6, r6, #31
	bne	.LBB205_10
	lsrs	r3, r5, #29
	movs	r5, #0
	movs	r6, #1
	ldrd	r0, r2, [r7]
	strd	r6, r5, [r1, #-8]
	ldrd	r6, r5, [lr, #-8]
	and	r2, r2, #15
	bic	r6, r6, #6
	and	r5, r5, #15
	eors	r6, r4
	eors	r5, r3
	orr	r6, r6, #1
	strd	r6, r5, [lr, #-8]
	ldr	r6, [sp, #24]
	bic	r0, r0, #7
	orr	r5, r9, #1
	strd	r5, r6, [r1, #-8]
	str	r2, [r7, #4]
	str	r0, [r7]
	str	r3, [r7, #12]
	movs	r0, #0
	str	r4, [r7, #8]
	add	sp, #28
	pop.w	{r4, r5, r6, r7, r8, r9, r10, r11, pc}
	.p2align	2
.LBB205_10:
	movs	r1, #0
	stm.w	sp, {r7, r8, r11}
	strd	r10, r1, [sp, #12]
	str	r1, [sp, #20]
	bl	ic_raw.xor_calls.put_slow
	add	sp, #28
	pop.w	{r4, r5, r6, r7, r8, r9, r10, r11, pc}
.Lfunc_end205:
	.size	ic_xor_push_back, .Lfunc_end205-ic_xor_push_back
	.cfi_endproc
	.section	.text.ic_xor_push_front,"ax",%progbits
	.globl	ic_xor_push_front
	.p2align	2
	.type	ic_xor_push_front,%function
	.code	16
	.thumb_func
ic_xor_push_front:
	.cfi_startproc
	push.w	{r4, r5, r6, r7, r8, r9, r10, r11, lr}
	.cfi_def_cfa_offset 36
	.cfi_offset lr, -4
	.cfi_offset r11, -8
	.cfi_offset r10, -12
	.cfi_offset r9, -16
	.cfi_offset r8, -20
	.cfi_offset r7, -24
	.cfi_offset r6, -28
	.cfi_offset r5, -32
	.cfi_offset r4, -36
	sub	sp, #28
	.cfi_def_cfa_offset 64
	ldrd	r7, r8, [sp, #64]
	cmp	r0, #0
	ldrd	r10, r12, [r7]
	it	eq
	addeq.w	r0, r0, #4096
	and	r4, r12, #15
	bic	r11, r10, #7
	orrs.w	r1, r11, r4
	beq	.LBB206_10
	lsr.w	r1, r10, #3
	orr.w	r1, r1, r12, lsl #29
	lsrs	r6, r4, #3
	subs	r1, r2, r1
	sbcs.w	r1, r3, r6
	blo	.LBB206_10
	add.w	r9, r0, r11
	ldr	r5, [r9, #-8]
	lsls	r1, r5, #31
	beq	.LBB206_10
	ldr	r6, [r9, #-4]
	bic	lr, r5, #7
	and	r1, r6, #15
	mov	r7, r8
	orrs.w	r8, lr, r1
	mov	r8, r7
	ldr	r7, [sp, #64]
	str	r4, [sp, #24]
	beq	.LBB206_10
	lsrs	r5, r5, #3
	orr.w	r5, r5, r6, lsl #29
	lsrs	r1, r1, #3
	subs	r5, r2, r5
	sbcs.w	r1, r3, r1
	blo	.LBB206_10
	add.w	r1, r0, lr
	ldrb	r1, [r1, #-8]
	lsls	r1, r1, #31
	beq	.LBB206_10
	adds.w	r6, r8, #1
	bhs	.LBB206_10
	subs	r1, r2, r6
	sbcs	r1, r3, #0
	blo	.LBB206_10
	lsls	r5, r6, #3
	adds	r4, r0, r5
	ldrb	r1, [r4, #-8]
	lsls	r1, r1, #31
	bne	.LBB206_10
	lsrs	r2, r6, #29
	movs	r3, #0
	movs	r6, #1
	ldrd	r0, r1, [r7, #8]
	strd	r6, r3, [r4, #-8]
	ldrd	r6, r3, [r9, #-8]
	and	r8, r1, #15
	bic	r1, r0, #7
	bic	r0, r6, #6
	and	r3, r3, #15
	eors	r0, r5
	eors	r3, r2
	orr	r0, r0, #1
	strd	r0, r3, [r9, #-8]
	ldr	r3, [sp, #24]
	orr	r0, r11, #1
	strd	r0, r3, [r4, #-8]
	str	r2, [r7, #4]
	str	r5, [r7]
	str.w	r8, [r7, #12]
	movs	r0, #0
	str	r1, [r7, #8]
	add	sp, #28
	pop.w	{r4, r5, r6, r7, r8, r9, r10, r11, pc}
	.p2align	2
.LBB206_10:
	movs	r1, #0
	strd	r7, r8, [sp]
	strd	r1, r1, [sp, #8]
	strd	r10, r12, [sp, #16]
	bl	ic_raw.xor_calls.put_slow
	add	sp, #28
	pop.w	{r4, r5, r6, r7, r8, r9, r10, r11, pc}
.Lfunc_end206:
	.size	ic_xor_push_front, .Lfunc_end206-ic_xor_push_front
	.cfi_endproc
	.section	.text.ic_xor_remove,"ax",%progbits
	.globl	ic_xor_remove
	.p2align	2
	.type	ic_xor_remove,%function
	.code	16
	.thumb_func
ic_xor_remove:
	.cfi_startproc
	push.w	{r4, r5, r6, r7, r8, r9, r10, r11, lr}
	.cfi_def_cfa_offset 36
	.cfi_offset lr, -4
	.cfi_offset r11, -8
	.cfi_offset r10, -12
	.cfi_offset r9, -16
	.cfi_offset r8, -20
	.cfi_offset r7, -24
	.cfi_offset r6, -28
	.cfi_offset r5, -32
	.cfi_offset r4, -36
	sub	sp, #40
	.cfi_def_cfa_offset 76
	ldr	r1, [sp, #84]
	cmp	r0, #0
	it	eq
	addeq.w	r0, r0, #4096
	adds	r4, r1, #1
	blo	.LBB207_2
	movs	r0, #4
	add	sp, #40
	pop.w	{r4, r5, r6, r7, r8, r9, r10, r11, pc}
	.p2align	2
.LBB207_2:
	str	r1, [sp, #4]
	ldr	r1, [sp, #80]
	str	r1, [sp, #20]
	subs	r1, r2, r4
	sbcs	r1, r3, #0
	blo.w	.LBB207_23
	lsls	r1, r4, #3
	add.w	r11, r0, r1
	ldr	r10, [r11, #-8]
	str	r1, [sp, #36]
	lsls.w	r1, r10, #31
	beq.w	.LBB207_23
	ldr	r6, [sp, #20]
	ldr.w	lr, [sp, #76]
	adds.w	r12, r6, #1
	lsr.w	r7, r4, #29
	lsr.w	r4, r12, #29
	str	r4, [sp, #24]
	lsl.w	r4, r12, #3
	ldrd	r5, r6, [lr]
	str	r4, [sp, #32]
	ldr.w	r4, [lr, #8]
	ldr.w	r1, [lr, #12]
	ldr	r9, [r11, #-4]
	and	r6, r6, #15
	bic	r5, r5, #7
	str	r4, [sp, #16]
	str	r7, [sp, #28]
	strd	r6, r5, [sp, #8]
	beq	.LBB207_9
	subs.w	r5, r2, r12
	sbcs	r5, r3, #0
	blo.w	.LBB207_23
	ldr	r4, [sp, #32]
	adds	r6, r0, r4
	ldr	r5, [r6, #-8]
	lsls	r4, r5, #31
	beq.w	.LBB207_23
	ldr	r4, [r6, #-4]
	ldr	r6, [sp, #36]
	bic	r5, r5, #7
	eor.w	r8, r5, r6
	ldr	r5, [sp, #28]
	and	r4, r4, #15
	mov	r7, r9
	mov	r9, r11
	eor.w	r11, r4, r5
	orrs.w	r4, r8, r11
	bne	.LBB207_10
	ldr	r4, [sp, #32]
	ldr	r5, [sp, #12]
	ldr	r6, [sp, #8]
	eors	r4, r5
	ldr	r5, [sp, #24]
	mov	r11, r9
	eors	r5, r6
	orrs	r4, r5
	mov	r9, r7
	beq	.LBB207_12
	b	.LBB207_23
	.p2align	2
.LBB207_9:
	ldr	r4, [sp, #36]
	eors	r4, r5
	eor.w	r5, r6, r7
	orrs	r4, r5
	beq	.LBB207_12
	b	.LBB207_23
	.p2align	2
.LBB207_10:
	lsr.w	r4, r8, #3
	orr.w	r4, r4, r11, lsl #29
	subs	r4, r2, r4
	sbcs.w	r4, r3, r11, lsr #3
	blo	.LBB207_23
	add.w	r4, r0, r8
	ldrb	r4, [r4, #-8]
	mov	r11, r9
	mov	r9, r7
	lsls	r4, r4, #31
	beq	.LBB207_23
.LBB207_12:
	ldr	r6, [sp, #32]
	bic	r5, r10, #7
	and	r4, r9, #15
	eor.w	r9, r5, r6
	ldr	r5, [sp, #24]
	and	r7, r1, #15
	eor.w	r10, r4, r5
	ldr	r4, [sp, #16]
	orrs.w	r8, r9, r10
	bic	r5, r4, #7
	str	r7, [sp]
	str	r5, [sp, #16]
	bne	.LBB207_14
	ldr	r4, [sp, #36]
	eors	r4, r5
	ldr	r5, [sp, #28]
	eors	r5, r7
	orrs	r4, r5
	beq	.LBB207_20
	b	.LBB207_23
	.p2align	2
.LBB207_14:
	lsr.w	r4, r9, #3
	orr.w	r4, r4, r10, lsl #29
	subs	r4, r2, r4
	sbcs.w	r4, r3, r10, lsr #3
	blo	.LBB207_23
	add.w	r6, r0, r9
	ldr	r5, [r6, #-8]
	lsls	r4, r5, #31
	beq	.LBB207_23
	ldr	r4, [r6, #-4]
	ldr	r6, [sp, #36]
	bic	r5, r5, #7
	eor.w	r7, r5, r6
	ldr	r5, [sp, #28]
	and	r4, r4, #15
	eors	r5, r4
	orrs.w	r4, r7, r5
	bne	.LBB207_18
	ldr	r4, [sp, #16]
	ldr	r5, [sp]
	eor.w	r4, r4, r9
	eor.w	r5, r5, r10
	orrs	r4, r5
	beq	.LBB207_20
	b	.LBB207_23
	.p2align	2
.LBB207_18:
	lsrs	r4, r7, #3
	orr.w	r4, r4, r5, lsl #29
	subs	r4, r2, r4
	sbcs.w	r4, r3, r5, lsr #3
	blo	.LBB207_23
	adds	r4, r0, r7
	ldrb	r4, [r4, #-8]
	lsls	r4, r4, #31
	beq	.LBB207_23
.LBB207_20:
	cmp.w	r12, #0
	beq	.LBB207_24
	ldr	r6, [sp, #32]
	ldr	r5, [sp, #36]
	adds	r2, r0, r6
	ldrd	r3, r7, [r2, #-8]
	bic	r3, r3, #6
	eors	r3, r5
	ldr	r5, [sp, #28]
	and	r7, r7, #15
	eors	r7, r5
	eor.w	r7, r7, r10
	eor.w	r3, r3, r9
	ldrd	r10, r5, [sp, #8]
	orr	r3, r3, #1
	strd	r3, r7, [r2, #-8]
	cmp.w	r8, #0
	bne	.LBB207_25
.LBB207_22:
	ldr	r2, [sp, #24]
	b	.LBB207_26
	.p2align	2
.LBB207_23:
	ldr	r1, [sp, #20]
	str	r1, [sp, #80]
	ldr	r1, [sp, #4]
	str	r1, [sp, #76]
	add	sp, #40
	pop.w	{r4, r5, r6, r7, r8, r9, r10, r11, lr}
	b	ic_raw.table.RawTable.refusal_at_both.feecb86c9dd45d96
	.p2align	2
.LBB207_24:
	ldr	r6, [sp, #32]
	mov	r5, r9
	cmp.w	r8, #0
	beq	.LBB207_22
.LBB207_25:
	add	r0, r9
	ldrd	r2, r3, [r0, #-8]
	ldr	r7, [sp, #24]
	and	r3, r3, #15
	eors	r3, r7
	ldr	r7, [sp, #28]
	bic	r2, r2, #6
	eors	r3, r7
	ldr	r7, [sp, #36]
	eors	r2, r6
	eors	r2, r7
	orr	r2, r2, #1
	strd	r2, r3, [r0, #-8]
	ldr	r6, [sp, #16]
	ldr	r2, [sp]
.LBB207_26:
	movs	r0, #0
	strd	r0, r0, [r11, #-8]
	str.w	r10, [lr, #4]
	str.w	r5, [lr]
	str.w	r2, [lr, #12]
	str.w	r6, [lr, #8]
	add	sp, #40
	pop.w	{r4, r5, r6, r7, r8, r9, r10, r11, pc}
.Lfunc_end207:
	.size	ic_xor_remove, .Lfunc_end207-ic_xor_remove
	.cfi_endproc
	.section	.text.ic_xor_replace,"ax",%progbits
	.globl	ic_xor_replace
	.p2align	2
	.type	ic_xor_replace,%function
	.code	16
	.thumb_func
ic_xor_replace:
	.cfi_startproc
	push.w	{r4, r5, r6, r7, r8, r9, r10, r11, lr}
	.cfi_def_cfa_offset 36
	.cfi_offset lr, -4
	.cfi_offset r11, -8
	.cfi_offset r10, -12
	.cfi_offset r9, -16
	.cfi_offset r8, -20
	.cfi_offset r7, -24
	.cfi_offset r6, -28
	.cfi_offset r5, -32
	.cfi_offset r4, -36
	sub	sp, #60
	.cfi_def_cfa_offset 96
	ldr	r1, [sp, #104]
	cmp	r0, #0
	it	eq
	addeq.w	r0, r0, #4096
	adds	r1, #1
	blo	.LBB208_2
	movs	r0, #4
	add	sp, #60
	pop.w	{r4, r5, r6, r7, r8, r9, r10, r11, pc}
	.p2align	2
.LBB208_2:
	mov	lr, r2
	movs	r2, #0
	strd	r2, lr, [sp, #44]
	subs.w	r2, lr, r1
	mov	r12, r3
	sbcs	r2, r3, #0
	str	r0, [sp, #40]
	str	r3, [sp, #52]
	blo.w	.LBB208_31
	lsl.w	r9, r1, #3
	add.w	r8, r0, r9
	ldr	r2, [r8, #-8]
	lsls	r3, r2, #31
	beq.w	.LBB208_31
	ldr	r4, [sp, #96]
	lsrs	r6, r1, #29
	ldm.w	r4, {r1, r3, r5}
	str	r5, [sp, #28]
	bic	r11, r1, #7
	ldr	r1, [sp, #100]
	ldr.w	r10, [r4, #12]
	adds	r5, r1, #1
	ldr	r4, [r8, #-4]
	and	r7, r3, #15
	lsr.w	r3, r5, #29
	lsl.w	r1, r5, #3
	strd	r6, r1, [sp, #32]
	strd	r11, r7, [sp, #16]
	beq	.LBB208_9
	subs.w	r1, lr, r5
	sbcs	r1, r12, #0
	blo.w	.LBB208_31
	ldr	r1, [sp, #36]
	mov	r7, r8
	adds	r6, r0, r1
	ldr	r1, [r6, #-8]
	lsls.w	r8, r1, #31
	beq.w	.LBB208_31
	ldr	r6, [r6, #-4]
	bic	r1, r1, #7
	mov	r8, r7
	and	r7, r6, #15
	eor.w	r6, r1, r9
	ldr	r1, [sp, #32]
	mov	r11, r9
	eors	r1, r7
	orrs.w	r7, r6, r1
	bne	.LBB208_11
	ldr	r1, [sp, #16]
	ldr	r6, [sp, #36]
	eors	r1, r6
	ldr	r6, [sp, #20]
	eors	r6, r3
	b	.LBB208_10
	.p2align	2
.LBB208_9:
	eor.w	r1, r11, r9
	mov	r11, r9
	eors	r6, r7
.LBB208_10:
	orrs	r1, r6
	beq	.LBB208_13
	b	.LBB208_31
	.p2align	2
.LBB208_11:
	lsrs	r7, r6, #3
	orr.w	r7, r7, r1, lsl #29
	subs.w	r7, lr, r7
	sbcs.w	r1, r12, r1, lsr #3
	blo.w	.LBB208_31
	adds	r1, r0, r6
	ldrb	r1, [r1, #-8]
	lsls	r1, r1, #31
	beq.w	.LBB208_31
.LBB208_13:
	and	r1, r10, #15
	str	r1, [sp, #24]
	ldr	r1, [sp, #28]
	and	r4, r4, #15
	bic	r1, r1, #7
	str	r1, [sp, #28]
	ldr	r1, [sp, #36]
	bic	r2, r2, #7
	eor.w	r10, r2, r1
	eor.w	r1, r4, r3
	str	r2, [sp, #8]
	orrs.w	r2, r10, r1
	str	r2, [sp, #4]
	ldr	r2, [sp, #108]
	str	r4, [sp, #12]
	add.w	r9, r2, #1
	bne	.LBB208_16
	cmp.w	r9, #0
	beq.w	.LBB208_31
	ldr	r1, [sp, #28]
	ldr	r2, [sp, #32]
	ldr	r3, [sp, #24]
	eor.w	r1, r1, r11
	eors	r3, r2
	orrs	r1, r3
	beq	.LBB208_24
	b	.LBB208_31
	.p2align	2
.LBB208_16:
	lsr.w	r3, r10, #3
	orr.w	r3, r3, r1, lsl #29
	subs.w	r3, lr, r3
	sbcs.w	r3, r12, r1, lsr #3
	blo.w	.LBB208_31
	add.w	r4, r0, r10
	ldr	r3, [r4, #-8]
	lsls	r6, r3, #31
	beq	.LBB208_31
	ldr	r4, [r4, #-4]
	ldr	r6, [sp, #32]
	and	r4, r4, #15
	bic	r3, r3, #7
	eor.w	r3, r3, r11
	eors	r4, r6
	orrs.w	r6, r3, r4
	bne	.LBB208_21
	cmp.w	r9, #0
	beq	.LBB208_31
	ldr	r2, [sp, #28]
	eor.w	r3, r2, r10
	ldr	r2, [sp, #24]
	eors	r1, r2
	orrs	r1, r3
	beq	.LBB208_24
	b	.LBB208_31
	.p2align	2
.LBB208_21:
	lsrs	r1, r3, #3
	orr.w	r1, r1, r4, lsl #29
	subs.w	r1, lr, r1
	sbcs.w	r1, r12, r4, lsr #3
	blo	.LBB208_31
	cmp.w	r9, #0
	beq	.LBB208_31
	adds	r1, r0, r3
	ldr	r1, [r1, #-8]
	ands	r1, r1, #1
	beq	.LBB208_31
.LBB208_24:
	subs.w	r1, lr, r9
	sbcs	r1, r12, #0
	blo	.LBB208_31
	lsl.w	r3, r9, #3
	adds	r1, r0, r3
	ldrb	r7, [r1, #-8]
	lsls	r7, r7, #31
	bne	.LBB208_31
	lsr.w	r7, r9, #29
	movs	r6, #0
	movs	r4, #1
	strd	r4, r6, [r1, #-8]
	cmp	r5, #0
	mov	r5, r3
	mov	r4, r7
	beq	.LBB208_28
	ldr	r2, [sp, #36]
	adds	r6, r0, r2
	ldrd	r5, r4, [r6, #-8]
	ldr	r2, [sp, #32]
	bic	r5, r5, #6
	and	r4, r4, #15
	eor.w	r5, r5, r11
	eors	r4, r2
	eors	r5, r3
	eors	r4, r7
	orr	r5, r5, #1
	strd	r5, r4, [r6, #-8]
	ldrd	r5, r4, [sp, #16]
.LBB208_28:
	ldr	r2, [sp, #4]
	cbz	r2, .LBB208_30
	add	r0, r10
	ldrd	r2, r6, [r0, #-8]
	bic	r2, r2, #6
	eor.w	r12, r11, r2
	ldr	r2, [sp, #32]
	and	r6, r6, #15
	eors	r6, r2
	eor.w	r2, r12, r3
	eors	r7, r6
	orr	r2, r2, #1
	strd	r2, r7, [r0, #-8]
	ldrd	r7, r3, [sp, #24]
.LBB208_30:
	ldr	r0, [sp, #8]
	ldr	r2, [sp, #12]
	orr	r0, r0, #1
	strd	r0, r2, [r1, #-8]
	ldr	r1, [sp, #96]
	movs	r0, #0
	strd	r0, r0, [r8, #-8]
	str	r4, [r1, #4]
	str	r5, [r1]
	str	r7, [r1, #12]
	str	r3, [r1, #8]
	add	sp, #60
	pop.w	{r4, r5, r6, r7, r8, r9, r10, r11, pc}
	.p2align	2
.LBB208_31:
	ldrd	r2, r1, [sp, #100]
	ldr	r3, [sp, #108]
	add	r0, sp, #40
	bl	ic_raw.xor_calls.refusal_with_both
	add	sp, #60
	pop.w	{r4, r5, r6, r7, r8, r9, r10, r11, pc}
.Lfunc_end208:
	.size	ic_xor_replace, .Lfunc_end208-ic_xor_replace
	.cfi_endproc
	.section	.text.ic_xor_reverse,"ax",%progbits
	.globl	ic_xor_reverse
	.p2align	2
	.type	ic_xor_reverse,%function
	.code	16
	.thumb_func
ic_xor_reverse:
	.cfi_startproc
	mov	r1, r0
	ldr	r0, [r0]
	ldrd	r12, r3, [r1, #4]
	ldr	r2, [r1, #12]
	str	r0, [r1, #8]
	movs	r0, #0
	strd	r3, r2, [r1]
	str.w	r12, [r1, #12]
	bx	lr
.Lfunc_end209:
	.size	ic_xor_reverse, .Lfunc_end209-ic_xor_reverse
	.cfi_endproc
	.section	.text.ic_xor_splice_between,"ax",%progbits
	.globl	ic_xor_splice_between
	.p2align	2
	.type	ic_xor_splice_between,%function
	.code	16
	.thumb_func
ic_xor_splice_between:
	.cfi_startproc
	push.w	{r4, r5, r6, r7, r8, r9, r10, r11, lr}
	.cfi_def_cfa_offset 36
	.cfi_offset lr, -4
	.cfi_offset r11, -8
	.cfi_offset r10, -12
	.cfi_offset r9, -16
	.cfi_offset r8, -20
	.cfi_offset r7, -24
	.cfi_offset r6, -28
	.cfi_offset r5, -32
	.cfi_offset r4, -36
	sub	sp, #36
	.cfi_def_cfa_offset 72
	mov	r6, r0
	ldr.w	r11, [sp, #84]
	add.w	r12, sp, #72
	cmp	r6, #0
	mov	r9, r2
	ldm.w	r12, {r0, r10, r12}
	it	eq
	addeq.w	r6, r6, #4096
	adds.w	r2, r10, #1
	mov	r8, r3
	lsl.w	r3, r2, #3
	lsr.w	r5, r2, #29
	it	ne
	movne	r2, #1
	adds.w	r7, r11, #1
	lsl.w	r4, r7, #3
	lsr.w	r1, r7, #29
	it	ne
	movne	r7, #1
	stm.w	sp, {r0, r2, r3, r5, r12}
	mov	r0, r6
	mov	r2, r9
	mov	r3, r8
	strd	r7, r4, [sp, #20]
	str	r1, [sp, #28]
	bl	ic_raw.xor_calls.splice
	cmp	r0, #0
	ittt	ne
	movne	r0, #0
	addne	sp, #36
	popne.w	{r4, r5, r6, r7, r8, r9, r10, r11, pc}
.LBB210_1:
	str.w	r11, [sp, #76]
	mov	r0, r6
	mov	r2, r9
	mov	r3, r8
	str.w	r10, [sp, #72]
	add	sp, #36
	pop.w	{r4, r5, r6, r7, r8, r9, r10, r11, lr}
	b	ic_raw.table.RawTable.refusal_at_both.feecb86c9dd45d96
.Lfunc_end210:
	.size	ic_xor_splice_between, .Lfunc_end210-ic_xor_splice_between
	.cfi_endproc
	.section	.text.ic_xor_split_between,"ax",%progbits
	.globl	ic_xor_split_between
	.p2align	2
	.type	ic_xor_split_between,%function
	.code	16
	.thumb_func
ic_xor_split_between:
	.cfi_startproc
	push.w	{r4, r5, r6, r7, r8, r9, r10, r11, lr}
	.cfi_def_cfa_offset 36
	.cfi_offset lr, -4
	.cfi_offset r11, -8
	.cfi_offset r10, -12
	.cfi_offset r9, -16
	.cfi_offset r8, -20
	.cfi_offset r7, -24
	.cfi_offset r6, -28
	.cfi_offset r5, -32
	.cfi_offset r4, -36
	sub	sp, #28
	.cfi_def_cfa_offset 64
	str	r3, [sp, #24]
	ldrd	r1, r12, [sp, #72]
	cmp	r0, #0
	str	r1, [sp, #8]
	ldr	r1, [sp, #68]
	str	r1, [sp, #12]
	ldrd	r1, r3, [r12]
	it	eq
	addeq.w	r0, r0, #4096
	and	r3, r3, #15
	bic	r1, r1, #7
	orrs	r1, r3
	str	r2, [sp, #20]
	itttt	eq
	ldrdeq	r1, r3, [r12, #8]
	andeq	r3, r3, #15
	biceq	r1, r1, #7
	orrseq.w	r1, r1, r3
	beq	.LBB211_2
.LBB211_1:
	ldr	r1, [sp, #8]
	str	r1, [sp, #68]
	ldr	r1, [sp, #12]
	ldrd	r2, r3, [sp, #20]
	str	r1, [sp, #64]
	add	sp, #28
	pop.w	{r4, r5, r6, r7, r8, r9, r10, r11, lr}
	b	ic_raw.table.RawTable.refusal_at_both.feecb86c9dd45d96
	.p2align	2
.LBB211_2:
	ldr	r1, [sp, #64]
	ldr	r6, [sp, #8]
	ldrd	r3, r7, [r1]
	ldrd	r2, r8, [r1, #8]
	and	r5, r7, #15
	ldr	r7, [sp, #12]
	adds	r6, #1
	adds.w	r10, r7, #1
	bic	r3, r3, #7
	lsr.w	r7, r10, #29
	lsl.w	r11, r10, #3
	lsr.w	r4, r6, #29
	lsl.w	r9, r6, #3
	strd	r5, r3, [sp]
	str	r4, [sp, #16]
	beq	.LBB211_7
	ldr	r3, [sp, #20]
	subs.w	r5, r3, r10
	ldr	r3, [sp, #24]
	sbcs	r5, r3, #0
	blo	.LBB211_1
	add.w	r4, r0, r11
	ldr	r5, [r4, #-8]
	lsls	r3, r5, #31
	beq	.LBB211_1
	ldr	r3, [r4, #-4]
	ldr	r4, [sp, #16]
	and	r3, r3, #15
	bic	r5, r5, #7
	eor.w	r5, r5, r9
	eor.w	lr, r3, r4
	orrs.w	r3, r5, lr
	bne	.LBB211_9
	ldr	r3, [sp, #4]
	ldr	r5, [sp]
	eor.w	r3, r3, r11
	eors	r5, r7
	b	.LBB211_8
	.p2align	2
.LBB211_7:
	eor.w	r3, r3, r9
	eors	r5, r4
.LBB211_8:
	orrs	r3, r5
	beq	.LBB211_11
	b	.LBB211_1
	.p2align	2
.LBB211_9:
	lsrs	r3, r5, #3
	ldr	r4, [sp, #20]
	orr.w	r3, r3, lr, lsl #29
	subs	r3, r4, r3
	ldr	r3, [sp, #24]
	sbcs.w	r3, r3, lr, lsr #3
	blo	.LBB211_1
	adds	r3, r0, r5
	ldrb	r3, [r3, #-8]
	lsls	r3, r3, #31
	beq	.LBB211_1
.LBB211_11:
	and	r8, r8, #15
	bic	lr, r2, #7
	cbz	r6, .LBB211_16
	ldr	r2, [sp, #20]
	subs	r3, r2, r6
	ldr	r2, [sp, #24]
	sbcs	r3, r2, #0
	blo	.LBB211_1
	add.w	r4, r0, r9
	ldr	r5, [r4, #-8]
	lsls	r3, r5, #31
	beq	.LBB211_1
	ldr	r3, [r4, #-4]
	bic	r5, r5, #7
	and	r3, r3, #15
	eor.w	r5, r5, r11
	eor.w	r4, r3, r7
	orrs.w	r3, r5, r4
	bne	.LBB211_18
	ldr	r2, [sp, #16]
	eor.w	r3, lr, r9
	eor.w	r5, r8, r2
	b	.LBB211_17
	.p2align	2
.LBB211_16:
	eor.w	r3, lr, r11
	eor.w	r5, r8, r7
.LBB211_17:
	orrs	r3, r5
	beq	.LBB211_20
	b	.LBB211_1
	.p2align	2
.LBB211_18:
	lsrs	r3, r5, #3
	ldr	r2, [sp, #20]
	orr.w	r3, r3, r4, lsl #29
	subs	r3, r2, r3
	ldr	r2, [sp, #24]
	sbcs.w	r3, r2, r4, lsr #3
	blo.w	.LBB211_1
	adds	r3, r0, r5
	ldrb	r3, [r3, #-8]
	lsls	r3, r3, #31
	beq.w	.LBB211_1
.LBB211_20:
	cmp.w	r10, #0
	beq	.LBB211_23
	add.w	r2, r0, r11
	ldrd	r3, r5, [r2, #-8]
	ldr	r4, [sp, #16]
	bic	r3, r3, #6
	and	r5, r5, #15
	eor.w	r3, r3, r9
	eors	r5, r4
	orr	r3, r3, #1
	strd	r3, r5, [r2, #-8]
	ldrd	r5, r10, [sp]
	cbz	r6, .LBB211_24
.LBB211_22:
	add	r0, r9
	ldrd	r2, r3, [r0, #-8]
	bic	r2, r2, #6
	and	r3, r3, #15
	eor.w	r2, r2, r11
	eors	r3, r7
	orr	r2, r2, #1
	strd	r2, r3, [r0, #-8]
	b	.LBB211_25
	.p2align	2
.LBB211_23:
	ldr	r4, [sp, #16]
	mov.w	r10, #0
	movs	r5, #0
	cmp	r6, #0
	bne	.LBB211_22
.LBB211_24:
	mov.w	r9, #0
	movs	r4, #0
	mov.w	lr, #0
	mov.w	r8, #0
.LBB211_25:
	str.w	r10, [r1]
	str	r5, [r1, #4]
	str.w	r11, [r1, #8]
	str	r7, [r1, #12]
	str.w	r9, [r12]
	str.w	r4, [r12, #4]
	str.w	lr, [r12, #8]
	movs	r0, #0
	str.w	r8, [r12, #12]
	add	sp, #28
	pop.w	{r4, r5, r6, r7, r8, r9, r10, r11, pc}
.Lfunc_end211:
	.size	ic_xor_split_between, .Lfunc_end211-ic_xor_split_between
	.cfi_endproc
	.section	.text.ic.remainder.divided,"ax",%progbits
	.p2align	2
	.type	ic.remainder.divided,%function
	.code	16
	.thumb_func
ic.remainder.divided:
	.cfi_startproc
	push	{r4, lr}
	.cfi_def_cfa_offset 8
	.cfi_offset lr, -4
	.cfi_offset r4, -8
	subs.w	r12, r2, #1
	sbc	lr, r3, #0
	and.w	r4, r2, r12
	and.w	r3, r3, lr
	orrs	r3, r4
	beq	.LBB212_3
	udiv	r3, r1, r2
	mls	r3, r3, r2, r1
	movs	r1, #0
	cmp.w	r1, r2, lsr #16
	bne	.LBB212_4
	lsls	r1, r3, #16
	orr.w	r1, r1, r0, lsr #16
	udiv	r1, r1, r2
	muls	r1, r2, r1
	rsb	r1, r1, r0, lsr #16
	pkhbt	r0, r0, r1, lsl #16
	udiv	r1, r0, r2
	mls	r0, r1, r2, r0
	movs	r1, #0
	pop	{r4, pc}
	.p2align	2
.LBB212_3:
	and.w	r0, r0, r12
	and.w	r1, r1, lr
	pop	{r4, pc}
	.p2align	2
.LBB212_4:
	mov	r1, r0
	mov	r0, r3
	bl	ic.remainder.of.bits
	movs	r1, #0
	pop	{r4, pc}
.Lfunc_end212:
	.size	ic.remainder.divided, .Lfunc_end212-ic.remainder.divided
	.cfi_endproc
	.section	.text.ic.remainder.of.bits,"ax",%progbits
	.p2align	2
	.type	ic.remainder.of.bits,%function
	.code	16
	.thumb_func
ic.remainder.of.bits:
	.cfi_startproc
	mvn	r3, #31
	.p2align	2
.LBB213_1:
	lsls	r0, r0, #1
	orr.w	r12, r0, r1, lsr #31
	subs.w	r0, r12, r2
	it	lo
	movlo	r0, r12
	adds	r3, #1
	lsl.w	r1, r1, #1
	blo	.LBB213_1
	bx	lr
.Lfunc_end213:
	.size	ic.remainder.of.bits, .Lfunc_end213-ic.remainder.of.bits
	.cfi_endproc
	.section	.text.ic.clear,"ax",%progbits
	.p2align	2
	.type	ic.clear,%function
	.code	16
	.thumb_func
ic.clear:
	.cfi_startproc
	orr.w	r1, r0, r2
	lsls	r1, r1, #29
	beq	.LBB214_4
	.p2align	2
.LBB214_1:
	cmp	r2, #0
	it	eq
	bxeq	lr
.LBB214_2:
	movs	r1, #0
	strb	r1, [r0], #1
	subs	r2, #1
	b	.LBB214_1
	.p2align	2
.LBB214_3:
	movs	r1, #0
	strd	r1, r1, [r0], #8
	subs	r2, #8
.LBB214_4:
	cmp	r2, #0
	bne	.LBB214_3
	bx	lr
.Lfunc_end214:
	.size	ic.clear, .Lfunc_end214-ic.clear
	.cfi_endproc
