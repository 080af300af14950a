/* Lists, rings, hash tables and a red-black tree over tables of links, with checks, sorts and merges: the calls of ic.h, for aarch64-linux.
   logic=proved functions=132 target=aarch64-unknown-linux-gnu sum=dac8208d650f15bf native=nat,char,string logic-built=trusted libraries-built=trusted statements=trusted incremental=trusted
   Licensed under Apache 2.0 or MIT. Made by tools/build-library: do not edit. */
	.section	.note.gnu.property,"a",@note
	.p2align	3, 0x0
	.word	4
	.word	16
	.word	5
	.asciz	"GNU"
	.word	3221225472
	.word	4
	.word	1
	.word	0
.Lsec_end0:
	.text
	.globl	ic_version_0_1
ic_version_0_1 = 1
	.section	.text.unlikely.ic_raw.table.refusal_at_end.feecb86c9dd45d96,"ax",@progbits
	.p2align	2
	.type	ic_raw.table.refusal_at_end.feecb86c9dd45d96,@function
ic_raw.table.refusal_at_end.feecb86c9dd45d96:
	.cfi_startproc
	sub	sp, sp, #32
	.cfi_def_cfa_offset 32
	stp	x29, x30, [sp, #16]
	add	x29, sp, #16
	.cfi_def_cfa w29, 16
	.cfi_offset w30, -8
	.cfi_offset w29, -16
	stp	x0, x1, [sp]
	mov	x0, sp
	mov	w1, #-1
	bl	ic_raw.table.RawTable.refusal.feecb86c9dd45d96
	.cfi_def_cfa wsp, 32
	ldp	x29, x30, [sp, #16]
	add	sp, sp, #32
	.cfi_def_cfa_offset 0
	.cfi_restore w30
	.cfi_restore w29
	ret
.Lfunc_end0:
	.size	ic_raw.table.refusal_at_end.feecb86c9dd45d96, .Lfunc_end0-ic_raw.table.refusal_at_end.feecb86c9dd45d96
	.cfi_endproc
	.section	.text.unlikely.ic_raw.table.RawTable.refusal.feecb86c9dd45d96,"ax",@progbits
	.p2align	2
	.type	ic_raw.table.RawTable.refusal.feecb86c9dd45d96,@function
ic_raw.table.RawTable.refusal.feecb86c9dd45d96:
	.cfi_startproc
	adds	w8, w1, #1
	b.lo	.LBB1_3
.LBB1_1:
	adds	w8, w2, #1
	b.lo	.LBB1_5
	mov	w0, #1
	ret
.LBB1_3:
	ldr	x9, [x0, #8]
	cmp	x9, x8
	b.hs	.LBB1_7
	mov	w0, #1
	ret
.LBB1_5:
	ldr	x9, [x0, #8]
	cmp	x9, x8
	b.hs	.LBB1_9
	mov	w0, #1
	ret
.LBB1_7:
	ubfiz	x8, x8, #3, #32
	ldr	x9, [x0]
	add	x8, x9, x8
	ldurb	w8, [x8, #-8]
	tbnz	w8, #0, .LBB1_1
	mov	w0, #3
	ret
.LBB1_9:
	ubfiz	x8, x8, #3, #32
	ldr	x9, [x0]
	add	x8, x9, x8
	mov	w9, #5
	ldurb	w8, [x8, #-8]
	tst	w8, #0x1
	mov	w8, #2
	csel	w0, w9, w8, eq
	ret
.Lfunc_end1:
	.size	ic_raw.table.RawTable.refusal.feecb86c9dd45d96, .Lfunc_end1-ic_raw.table.RawTable.refusal.feecb86c9dd45d96
	.cfi_endproc
	.section	.text.unlikely.ic_raw.table.RawTable.refusal_of.feecb86c9dd45d96,"ax",@progbits
	.p2align	2
	.type	ic_raw.table.RawTable.refusal_of.feecb86c9dd45d96,@function
ic_raw.table.RawTable.refusal_of.feecb86c9dd45d96:
	.cfi_startproc
	cmp	x1, x2, lsr #3
	b.hs	.LBB2_2
	mov	w0, #1
	ret
.LBB2_2:
	add	x8, x0, x2
	mov	w9, #3
	ldurb	w8, [x8, #-8]
	tst	w8, #0x1
	mov	w8, #5
	csel	w0, w9, w8, eq
	ret
.Lfunc_end2:
	.size	ic_raw.table.RawTable.refusal_of.feecb86c9dd45d96, .Lfunc_end2-ic_raw.table.RawTable.refusal_of.feecb86c9dd45d96
	.cfi_endproc
	.section	.text.unlikely.ic_raw.list_calls.splice_slow.55ebd757a04f39fd,"ax",@progbits
	.p2align	2
	.type	ic_raw.list_calls.splice_slow.55ebd757a04f39fd,@function
ic_raw.list_calls.splice_slow.55ebd757a04f39fd:
	.cfi_startproc
	ldp	x8, x9, [x2]
	adds	w14, w3, #1
	ldp	x12, x13, [x4]
	ubfiz	x10, x14, #3, #32
	and	x11, x8, #0xffffffff8
	and	x8, x9, #0xffffffff8
	cset	w9, ne
	cbz	w14, .LBB3_6
	mov	w15, #536870911
	cmp	x1, x15
	csel	x15, x1, x15, lo
	cmp	x15, x14
	b.lo	.LBB3_35
	add	x14, x0, x10
	ldur	w16, [x14, #-8]
	tbz	w16, #0, .LBB3_35
	tbz	w5, #0, .LBB3_11
	ldur	w14, [x14, #-4]
	and	x14, x14, #0xfffffff8
	cbz	w14, .LBB3_30
	cmp	x15, x14, lsr #3
	b.hs	.LBB3_9
	b	.LBB3_35
.LBB3_6:
	tbz	w5, #0, .LBB3_13
	cbz	x8, .LBB3_30
	mov	w14, #536870911
	cmp	x1, x14
	csel	x15, x1, x14, lo
	mov	x14, x8
	cmp	x15, x8, lsr #3
	b.lo	.LBB3_35
.LBB3_9:
	add	x15, x0, x14
	orr	x16, x10, #0x1
	ldur	w15, [x15, #-8]
	and	x15, x15, #0xfffffffffffffff9
	cmp	x16, x15
	b.ne	.LBB3_35
	mov	w15, #1
	and	x13, x13, #0xffffffff8
	and	x12, x12, #0xffffffff8
	cbnz	x13, .LBB3_18
	b	.LBB3_32
.LBB3_11:
	and	x16, x16, #0xfffffff8
	cbz	w16, .LBB3_34
	cmp	x15, x16, lsr #3
	b.hs	.LBB3_15
	b	.LBB3_35
.LBB3_13:
	cbz	x11, .LBB3_34
	mov	w14, #536870911
	mov	x16, x11
	cmp	x1, x14
	csel	x15, x1, x14, lo
	cmp	x15, x11, lsr #3
	b.lo	.LBB3_35
.LBB3_15:
	add	x14, x0, x16
	ldurb	w15, [x14, #-8]
	tbz	w15, #0, .LBB3_35
	ldur	w14, [x14, #-4]
	mov	w17, #1
	and	x14, x14, #0xfffffff8
	cmp	x14, x10
	mov	w15, w9
	mov	x14, x10
	mov	w9, w17
	mov	x10, x16
	b.ne	.LBB3_35
.LBB3_17:
	and	x13, x13, #0xffffffff8
	and	x12, x12, #0xffffffff8
	cbz	x13, .LBB3_32
.LBB3_18:
	mov	w16, #536870911
	cmp	x1, x16
	csel	x17, x1, x16, lo
	cmp	x17, x13, lsr #3
	b.lo	.LBB3_35
	cbz	x12, .LBB3_35
	add	x16, x0, x13
	ldur	w5, [x16, #-8]
	and	w5, w5, #0xfffffff9
	cmp	w5, #1
	b.ne	.LBB3_35
	lsr	x5, x12, #3
	cmp	x5, x17
	b.hi	.LBB3_35
	add	x17, x0, x12
	ldurb	w5, [x17, #-8]
	tbz	w5, #0, .LBB3_35
	cmp	x11, x12
	b.eq	.LBB3_35
	ldur	w5, [x17, #-4]
	cmp	w5, #7
	b.hi	.LBB3_35
	cbz	w15, .LBB3_27
	add	x1, x0, x14
	orr	w12, w12, #0x1
	stur	w12, [x1, #-8]
	mov	x12, x11
.LBB3_27:
	cbz	w9, .LBB3_29
	add	x11, x0, x10
	stur	w13, [x11, #-4]
	mov	x13, x8
.LBB3_29:
	cmp	w15, #0
	csel	w8, wzr, w14, eq
	cmp	w9, #0
	mov	w9, #1
	stur	w8, [x17, #-4]
	csinc	w8, w9, w10, eq
	stur	w8, [x16, #-8]
	mov	w0, wzr
	stp	x12, x13, [x2]
	stp	xzr, xzr, [x4]
	ret
.LBB3_30:
	cmp	x11, x10
	b.ne	.LBB3_35
	mov	w15, wzr
	mov	x14, xzr
	mov	x10, x11
	and	x13, x13, #0xffffffff8
	and	x12, x12, #0xffffffff8
	cbnz	x13, .LBB3_18
.LBB3_32:
	cbnz	x12, .LBB3_35
	mov	w0, wzr
	stp	x11, x8, [x2]
	stp	xzr, xzr, [x4]
	ret
.LBB3_34:
	mov	w17, wzr
	mov	x16, xzr
	cmp	x8, x10
	mov	w15, w9
	mov	x14, x10
	mov	w9, w17
	mov	x10, x16
	b.eq	.LBB3_17
.LBB3_35:
	mov	w2, w3
	b	ic_raw.table.RawTable.refusal_at.05a19227735374d3
.Lfunc_end3:
	.size	ic_raw.list_calls.splice_slow.55ebd757a04f39fd, .Lfunc_end3-ic_raw.list_calls.splice_slow.55ebd757a04f39fd
	.cfi_endproc
	.section	.text.unlikely.ic_raw.table.RawTable.refusal_at.05a19227735374d3,"ax",@progbits
	.p2align	2
	.type	ic_raw.table.RawTable.refusal_at.05a19227735374d3,@function
ic_raw.table.RawTable.refusal_at.05a19227735374d3:
	.cfi_startproc
	adds	w8, w2, #1
	b.lo	.LBB4_2
	mov	w0, #5
	ret
.LBB4_2:
	mov	w9, #536870911
	cmp	x1, x9
	csel	x9, x1, x9, lo
	cmp	x9, x8
	b.hs	.LBB4_4
	mov	w0, #1
	ret
.LBB4_4:
	ubfiz	x8, x8, #3, #32
	mov	w9, #3
	add	x8, x0, x8
	ldurb	w8, [x8, #-8]
	tst	w8, #0x1
	mov	w8, #5
	csel	w0, w9, w8, eq
	ret
.Lfunc_end4:
	.size	ic_raw.table.RawTable.refusal_at.05a19227735374d3, .Lfunc_end4-ic_raw.table.RawTable.refusal_at.05a19227735374d3
	.cfi_endproc
	.section	.text.unlikely.ic_raw.table.RawTable.refusal.05a19227735374d3,"ax",@progbits
	.p2align	2
	.type	ic_raw.table.RawTable.refusal.05a19227735374d3,@function
ic_raw.table.RawTable.refusal.05a19227735374d3:
	.cfi_startproc
	adds	w8, w2, #1
	mov	w9, #536870911
	cset	w10, hs
	cmp	x1, x9
	csel	x9, x1, x9, lo
	tbz	w10, #0, .LBB5_4
.LBB5_1:
	adds	w10, w3, #1
	mov	w8, #1
	b.hs	.LBB5_8
	cmp	x9, x10
	b.lo	.LBB5_8
	add	x8, x0, x10, lsl #3
	mov	w9, #5
	ldurb	w8, [x8, #-8]
	tst	w8, #0x1
	mov	w8, #2
	csel	w0, w9, w8, eq
	ret
.LBB5_4:
	cmp	x9, x8
	b.hs	.LBB5_6
	mov	w0, #1
	ret
.LBB5_6:
	ubfiz	x8, x8, #3, #32
	add	x8, x0, x8
	ldurb	w8, [x8, #-8]
	tbnz	w8, #0, .LBB5_1
	mov	w8, #3
.LBB5_8:
	mov	w0, w8
	ret
.Lfunc_end5:
	.size	ic_raw.table.RawTable.refusal.05a19227735374d3, .Lfunc_end5-ic_raw.table.RawTable.refusal.05a19227735374d3
	.cfi_endproc
	.section	.text.unlikely.ic_raw.move_calls.move_slow.55ebd757a04f39fd,"ax",@progbits
	.p2align	2
	.type	ic_raw.move_calls.move_slow.55ebd757a04f39fd,@function
ic_raw.move_calls.move_slow.55ebd757a04f39fd:
	.cfi_startproc
	adds	w12, w5, #1
	b.lo	.LBB6_2
	mov	w0, #4
	ret
.LBB6_2:
	ldp	x8, x10, [x2]
	adds	w13, w4, #1
	ubfiz	x9, x13, #3, #32
	and	x11, x8, #0xffffffff8
	and	x10, x10, #0xffffffff8
	cset	w8, ne
	cbz	w13, .LBB6_8
	mov	w14, #536870911
	cmp	x1, x14
	csel	x14, x1, x14, lo
	cmp	x14, x13
	b.lo	.LBB6_37
	add	x13, x0, x9
	ldur	w15, [x13, #-8]
	tbz	w15, #0, .LBB6_37
	tbz	w3, #0, .LBB6_13
	ldur	w13, [x13, #-4]
	and	x13, x13, #0xfffffff8
	cbz	w13, .LBB6_34
	cmp	x14, x13, lsr #3
	b.hs	.LBB6_11
	b	.LBB6_37
.LBB6_8:
	tbz	w3, #0, .LBB6_15
	cbz	x10, .LBB6_34
	mov	w13, #536870911
	cmp	x1, x13
	csel	x14, x1, x13, lo
	mov	x13, x10
	cmp	x14, x10, lsr #3
	b.lo	.LBB6_37
.LBB6_11:
	add	x14, x0, x13
	orr	x15, x9, #0x1
	ldur	w14, [x14, #-8]
	and	x14, x14, #0xfffffffffffffff9
	cmp	x15, x14
	b.ne	.LBB6_37
	mov	w14, #1
	mov	w15, #536870911
	cmp	x1, x15
	csel	x3, x1, x15, lo
	cmp	x3, x12
	b.hs	.LBB6_20
	b	.LBB6_37
.LBB6_13:
	and	x15, x15, #0xfffffff8
	cbz	w15, .LBB6_36
	cmp	x14, x15, lsr #3
	b.hs	.LBB6_17
	b	.LBB6_37
.LBB6_15:
	cbz	x11, .LBB6_36
	mov	w13, #536870911
	mov	x15, x11
	cmp	x1, x13
	csel	x14, x1, x13, lo
	cmp	x14, x11, lsr #3
	b.lo	.LBB6_37
.LBB6_17:
	add	x13, x0, x15
	ldurb	w14, [x13, #-8]
	tbz	w14, #0, .LBB6_37
	ldur	w13, [x13, #-4]
	mov	w16, #1
	and	x13, x13, #0xfffffff8
	cmp	x13, x9
	mov	w14, w8
	mov	x13, x9
	mov	w8, w16
	mov	x9, x15
	b.ne	.LBB6_37
.LBB6_19:
	mov	w15, #536870911
	cmp	x1, x15
	csel	x3, x1, x15, lo
	cmp	x3, x12
	b.lo	.LBB6_37
.LBB6_20:
	ubfiz	x12, x12, #3, #32
	add	x15, x0, x12
	ldur	w17, [x15, #-8]
	tbz	w17, #0, .LBB6_37
	ldur	w16, [x15, #-4]
	and	x16, x16, #0xfffffff8
	cbz	w16, .LBB6_24
	cmp	x3, x16, lsr #3
	b.lo	.LBB6_37
	add	x6, x0, x16
	orr	x7, x12, #0x1
	ldur	w6, [x6, #-8]
	and	x6, x6, #0xfffffffffffffff9
	cmp	x7, x6
	b.eq	.LBB6_25
	b	.LBB6_37
.LBB6_24:
	cmp	x11, x12
	b.ne	.LBB6_37
.LBB6_25:
	and	x17, x17, #0xfffffff8
	mov	x6, x10
	cbz	w17, .LBB6_29
	cmp	x3, x17, lsr #3
	b.lo	.LBB6_37
	add	x3, x0, x17
	ldurb	w6, [x3, #-8]
	tbz	w6, #0, .LBB6_37
	ldur	w3, [x3, #-4]
	and	x6, x3, #0xfffffff8
.LBB6_29:
	cmp	x6, x12
	b.ne	.LBB6_37
	cmp	w14, #0
	csel	x1, xzr, x13, eq
	cmp	x1, x12
	b.ne	.LBB6_32
	mov	w0, wzr
	ret
.LBB6_32:
	cmp	w8, #0
	csel	x1, xzr, x9, eq
	cmp	x1, x12
	b.ne	.LBB6_38
	mov	w0, wzr
	ret
.LBB6_34:
	cmp	x11, x9
	b.ne	.LBB6_37
	mov	w14, wzr
	mov	x13, xzr
	mov	x9, x11
	mov	w15, #536870911
	cmp	x1, x15
	csel	x3, x1, x15, lo
	cmp	x3, x12
	b.hs	.LBB6_20
	b	.LBB6_37
.LBB6_36:
	mov	w16, wzr
	mov	x15, xzr
	cmp	x10, x9
	mov	w14, w8
	mov	x13, x9
	mov	w8, w16
	mov	x9, x15
	b.eq	.LBB6_19
.LBB6_37:
	mov	w2, w4
	mov	w3, w5
	b	ic_raw.table.RawTable.refusal_at_both.05a19227735374d3
.LBB6_38:
	cbz	w16, .LBB6_45
	add	x1, x0, x16
	orr	w3, w17, #0x1
	stur	w3, [x1, #-8]
	cbz	w17, .LBB6_46
.LBB6_40:
	add	x17, x0, x17
	stur	w16, [x17, #-4]
	mov	x16, x12
	cbz	w14, .LBB6_42
.LBB6_41:
	add	x16, x0, x13
	orr	w17, w12, #0x1
	stur	w17, [x16, #-8]
	mov	x16, x11
.LBB6_42:
	cbz	w8, .LBB6_44
	add	x11, x0, x9
	stur	w12, [x11, #-4]
	mov	x12, x10
.LBB6_44:
	cmp	w14, #0
	mov	w10, #1
	mov	w0, wzr
	csel	w11, wzr, w13, eq
	cmp	w8, #0
	csinc	w8, w10, w9, eq
	stp	w8, w11, [x15, #-8]
	stp	x16, x12, [x2]
	ret
.LBB6_45:
	mov	x11, x17
	cbnz	w17, .LBB6_40
.LBB6_46:
	mov	x10, x16
	mov	x16, x12
	cbnz	w14, .LBB6_41
	b	.LBB6_42
.Lfunc_end6:
	.size	ic_raw.move_calls.move_slow.55ebd757a04f39fd, .Lfunc_end6-ic_raw.move_calls.move_slow.55ebd757a04f39fd
	.cfi_endproc
	.section	.text.unlikely.ic_raw.table.RawTable.refusal_at_both.05a19227735374d3,"ax",@progbits
	.p2align	2
	.type	ic_raw.table.RawTable.refusal_at_both.05a19227735374d3,@function
ic_raw.table.RawTable.refusal_at_both.05a19227735374d3:
	.cfi_startproc
	adds	w8, w2, #1
	b.lo	.LBB7_3
.LBB7_1:
	adds	w8, w3, #1
	b.lo	.LBB7_5
	mov	w0, #5
	ret
.LBB7_3:
	mov	w9, #536870911
	cmp	x1, x9
	csel	x9, x1, x9, lo
	cmp	x9, x8
	b.hs	.LBB7_7
	mov	w0, #1
	ret
.LBB7_5:
	mov	w9, #536870911
	cmp	x1, x9
	csel	x9, x1, x9, lo
	cmp	x9, x8
	b.hs	.LBB7_9
	mov	w0, #1
	ret
.LBB7_7:
	ubfiz	x8, x8, #3, #32
	add	x8, x0, x8
	ldurb	w8, [x8, #-8]
	tbnz	w8, #0, .LBB7_1
	mov	w0, #3
	ret
.LBB7_9:
	ubfiz	x8, x8, #3, #32
	mov	w9, #3
	add	x8, x0, x8
	ldurb	w8, [x8, #-8]
	tst	w8, #0x1
	mov	w8, #5
	csel	w0, w9, w8, eq
	ret
.Lfunc_end7:
	.size	ic_raw.table.RawTable.refusal_at_both.05a19227735374d3, .Lfunc_end7-ic_raw.table.RawTable.refusal_at_both.05a19227735374d3
	.cfi_endproc
	.section	.text.unlikely.ic_raw.move_calls.move_to_end_slow.55ebd757a04f39fd,"ax",@progbits
	.p2align	2
	.type	ic_raw.move_calls.move_to_end_slow.55ebd757a04f39fd,@function
ic_raw.move_calls.move_to_end_slow.55ebd757a04f39fd:
	.cfi_startproc
	adds	w13, w4, #1
	b.lo	.LBB8_2
	mov	w0, #4
	ret
.LBB8_2:
	ldp	x8, x11, [x2]
	ubfiz	x9, x13, #3, #32
	mov	w5, w4
	and	x10, x8, #0xffffffff8
	and	x8, x11, #0xffffffff8
	tbz	w3, #0, .LBB8_15
	cmp	x10, x9
	b.ne	.LBB8_26
	mov	w10, #536870911
	cmp	x1, x10
	csel	x11, x1, x10, lo
	cmp	x11, x13
	b.lo	.LBB8_26
	add	x12, x0, x9
	ldur	w10, [x12, #-4]
	cbnz	w10, .LBB8_26
	ldur	w13, [x12, #-8]
	tbz	w13, #0, .LBB8_26
	and	x10, x13, #0xfffffff8
	cbz	w10, .LBB8_26
	lsr	w13, w13, #3
	cmp	x13, x11
	b.hi	.LBB8_26
	add	x13, x0, x10
	ldur	w14, [x13, #-4]
	cmp	x9, x14
	b.ne	.LBB8_26
	cbz	x8, .LBB8_26
	ldur	w14, [x13, #-8]
	tbz	w14, #0, .LBB8_26
	lsr	x14, x8, #3
	cmp	x14, x11
	b.hi	.LBB8_26
	add	x11, x0, x8
	ldur	w14, [x11, #-8]
	cmp	w14, #1
	b.ne	.LBB8_26
	stur	wzr, [x13, #-4]
	orr	w13, w9, #0x1
	stur	w13, [x11, #-8]
	mov	w13, #1
	mov	x11, x9
	stur	w8, [x12, #-4]
	add	x9, x0, x9
	mov	w0, wzr
	stur	w13, [x9, #-8]
	stp	x10, x11, [x2]
	ret
.LBB8_15:
	cmp	x8, x9
	b.ne	.LBB8_26
	mov	w8, #536870911
	cmp	x1, x8
	csel	x12, x1, x8, lo
	cmp	x12, x13
	b.lo	.LBB8_26
	add	x8, x0, x9
	ldur	w11, [x8, #-8]
	cmp	w11, #1
	b.ne	.LBB8_26
	ldur	w13, [x8, #-4]
	and	x11, x13, #0xfffffff8
	cbz	w11, .LBB8_26
	lsr	w13, w13, #3
	cmp	x13, x12
	b.hi	.LBB8_26
	cbz	x10, .LBB8_26
	add	x13, x0, x11
	orr	x15, x9, #0x1
	ldur	w14, [x13, #-8]
	cmp	x15, x14
	b.ne	.LBB8_26
	lsr	x14, x10, #3
	cmp	x14, x12
	b.hi	.LBB8_26
	add	x12, x0, x10
	ldur	w14, [x12, #-4]
	cbnz	w14, .LBB8_26
	ldur	w14, [x12, #-8]
	tbz	w14, #0, .LBB8_26
	mov	w14, #1
	stur	w14, [x13, #-8]
	orr	w13, w10, #0x1
	mov	x10, x9
	stur	w9, [x12, #-4]
	stur	wzr, [x8, #-4]
	add	x9, x0, x9
	mov	w0, wzr
	stur	w13, [x9, #-8]
	stp	x10, x11, [x2]
	ret
.LBB8_26:
	mov	w4, #-1
	b	ic_raw.move_calls.move_slow.55ebd757a04f39fd
.Lfunc_end8:
	.size	ic_raw.move_calls.move_to_end_slow.55ebd757a04f39fd, .Lfunc_end8-ic_raw.move_calls.move_to_end_slow.55ebd757a04f39fd
	.cfi_endproc
	.section	.text.unlikely.ic_raw.list_calls.refusal_to_pop,"ax",@progbits
	.p2align	2
	.type	ic_raw.list_calls.refusal_to_pop,@function
ic_raw.list_calls.refusal_to_pop:
	.cfi_startproc
	and	x9, x1, #0xff
	mov	w8, #4
	ldr	x9, [x0, x9, lsl #3]
	tst	x9, #0xffffffff8
	cinc	w0, w8, ne
	ret
.Lfunc_end9:
	.size	ic_raw.list_calls.refusal_to_pop, .Lfunc_end9-ic_raw.list_calls.refusal_to_pop
	.cfi_endproc
	.section	.text.unlikely.ic_raw.list_calls.pop_front_slow.55ebd757a04f39fd,"ax",@progbits
	.p2align	2
	.type	ic_raw.list_calls.pop_front_slow.55ebd757a04f39fd,@function
ic_raw.list_calls.pop_front_slow.55ebd757a04f39fd:
	.cfi_startproc
	ldr	x8, [x2]
	ands	x8, x8, #0xffffffff8
	b.eq	.LBB10_12
	mov	w9, #536870911
	cmp	x1, x9
	csel	x12, x1, x9, lo
	cmp	x12, x8, lsr #3
	b.lo	.LBB10_12
	add	x9, x0, x8
	ldur	w10, [x9, #-8]
	tbz	w10, #0, .LBB10_12
	ldur	w11, [x9, #-4]
	cmp	w11, #7
	b.hi	.LBB10_12
	ldr	x11, [x2, #8]
	and	x10, x10, #0xfffffff8
	and	x11, x11, #0xffffffff8
	cbz	w10, .LBB10_9
	cmp	x12, x10, lsr #3
	b.lo	.LBB10_12
	add	x12, x0, x10
	ldurb	w13, [x12, #-8]
	tbz	w13, #0, .LBB10_12
	ldur	w13, [x12, #-4]
	and	x13, x13, #0xfffffff8
	cmp	x8, x13
	b.ne	.LBB10_12
	stur	wzr, [x12, #-4]
	b	.LBB10_11
.LBB10_9:
	cmp	x11, x8
	b.ne	.LBB10_12
	mov	x11, xzr
.LBB10_11:
	stur	wzr, [x9, #-8]
	mov	w9, #-1
	mov	w0, wzr
	add	x8, x9, x8, lsr #3
	stp	x10, x11, [x2]
	str	w8, [x3]
	ret
.LBB10_12:
	mov	x0, x2
	mov	w1, wzr
	b	ic_raw.list_calls.refusal_to_pop
.Lfunc_end10:
	.size	ic_raw.list_calls.pop_front_slow.55ebd757a04f39fd, .Lfunc_end10-ic_raw.list_calls.pop_front_slow.55ebd757a04f39fd
	.cfi_endproc
	.section	.text.unlikely.ic_raw.list_calls.push_back_slow.55ebd757a04f39fd,"ax",@progbits
	.p2align	2
	.type	ic_raw.list_calls.push_back_slow.55ebd757a04f39fd,@function
ic_raw.list_calls.push_back_slow.55ebd757a04f39fd:
	.cfi_startproc
	ldp	x9, x8, [x2]
	ands	x8, x8, #0xffffffff8
	and	x9, x9, #0xffffffff8
	b.eq	.LBB11_4
	mov	w10, #536870911
	cmp	x1, x10
	csel	x10, x1, x10, lo
	cmp	x10, x8, lsr #3
	b.lo	.LBB11_11
	add	x11, x0, x8
	ldur	w11, [x11, #-8]
	and	w11, w11, #0xfffffff9
	cmp	w11, #1
	b.ne	.LBB11_11
	add	w11, w3, #1
	cbnz	w11, .LBB11_6
	b	.LBB11_11
.LBB11_4:
	cbnz	x9, .LBB11_11
	mov	w10, #536870911
	cmp	x1, x10
	csel	x10, x1, x10, lo
	add	w11, w3, #1
	cbz	w11, .LBB11_11
.LBB11_6:
	cmp	x10, x11
	b.lo	.LBB11_11
	ubfiz	x10, x11, #3, #32
	add	x11, x0, x10
	ldurb	w12, [x11, #-8]
	tbnz	w12, #0, .LBB11_11
	mov	x12, x10
	cbz	x8, .LBB11_10
	add	x12, x0, x8
	orr	w13, w10, #0x1
	stur	w13, [x12, #-8]
	mov	x12, x9
.LBB11_10:
	mov	w0, wzr
	mov	w9, #1
	stp	w9, w8, [x11, #-8]
	stp	x12, x10, [x2]
	ret
.LBB11_11:
	mov	w2, #-1
	b	ic_raw.table.RawTable.refusal.05a19227735374d3
.Lfunc_end11:
	.size	ic_raw.list_calls.push_back_slow.55ebd757a04f39fd, .Lfunc_end11-ic_raw.list_calls.push_back_slow.55ebd757a04f39fd
	.cfi_endproc
	.section	.text.unlikely.ic_raw.list_calls.remove_slow.55ebd757a04f39fd,"ax",@progbits
	.p2align	2
	.type	ic_raw.list_calls.remove_slow.55ebd757a04f39fd,@function
ic_raw.list_calls.remove_slow.55ebd757a04f39fd:
	.cfi_startproc
	adds	w8, w3, #1
	b.lo	.LBB12_2
	mov	w0, #4
	ret
.LBB12_2:
	mov	w9, #536870911
	cmp	x1, x9
	csel	x13, x1, x9, lo
	cmp	x13, x8
	b.lo	.LBB12_16
	ubfiz	x11, x8, #3, #32
	add	x8, x0, x11
	ldur	w14, [x8, #-8]
	tbz	w14, #0, .LBB12_16
	ldp	x15, x12, [x2]
	ldur	w9, [x8, #-4]
	and	x10, x9, #0xfffffff8
	and	x9, x15, #0xffffffff8
	cbz	w10, .LBB12_7
	cmp	x13, x10, lsr #3
	b.lo	.LBB12_16
	add	x15, x0, x10
	orr	x16, x11, #0x1
	ldur	w15, [x15, #-8]
	and	x15, x15, #0xfffffffffffffff9
	cmp	x16, x15
	b.eq	.LBB12_8
	b	.LBB12_16
.LBB12_7:
	cmp	x9, x11
	b.ne	.LBB12_16
.LBB12_8:
	and	x12, x12, #0xffffffff8
	and	x14, x14, #0xfffffff8
	mov	x15, x12
	cbz	w14, .LBB12_12
	cmp	x13, x14, lsr #3
	b.lo	.LBB12_16
	add	x13, x0, x14
	ldurb	w15, [x13, #-8]
	tbz	w15, #0, .LBB12_16
	ldur	w13, [x13, #-4]
	and	x15, x13, #0xfffffff8
.LBB12_12:
	cmp	x15, x11
	b.ne	.LBB12_16
	cbz	w10, .LBB12_17
	add	x11, x0, x10
	orr	w13, w14, #0x1
	stur	w13, [x11, #-8]
	cbz	w14, .LBB12_18
.LBB12_15:
	add	x11, x0, x14
	stur	w10, [x11, #-4]
	mov	w0, wzr
	stur	wzr, [x8, #-8]
	stp	x9, x12, [x2]
	ret
.LBB12_16:
	mov	w2, w3
	b	ic_raw.table.RawTable.refusal_at.05a19227735374d3
.LBB12_17:
	mov	x9, x14
	cbnz	w14, .LBB12_15
.LBB12_18:
	mov	w0, wzr
	stur	wzr, [x8, #-8]
	stp	x9, x10, [x2]
	ret
.Lfunc_end12:
	.size	ic_raw.list_calls.remove_slow.55ebd757a04f39fd, .Lfunc_end12-ic_raw.list_calls.remove_slow.55ebd757a04f39fd
	.cfi_endproc
	.section	.text.unlikely.ic_raw.list_calls.split_slow.55ebd757a04f39fd,"ax",@progbits
	.p2align	2
	.type	ic_raw.list_calls.split_slow.55ebd757a04f39fd,@function
ic_raw.list_calls.split_slow.55ebd757a04f39fd:
	.cfi_startproc
	ldr	x8, [x4]
	tst	x8, #0xffffffff8
	b.ne	.LBB13_33
	ldr	x8, [x4, #8]
	tst	x8, #0xffffffff8
	b.ne	.LBB13_33
	ldp	x8, x9, [x2]
	adds	w11, w3, #1
	ubfiz	x10, x11, #3, #32
	cset	w12, ne
	and	x8, x8, #0xffffffff8
	and	x9, x9, #0xffffffff8
	cbz	w11, .LBB13_8
	mov	w13, #536870911
	cmp	x1, x13
	csel	x14, x1, x13, lo
	cmp	x14, x11
	b.lo	.LBB13_33
	add	x13, x0, x10
	ldur	w15, [x13, #-8]
	tbz	w15, #0, .LBB13_33
	tbz	w5, #0, .LBB13_12
	ldur	w11, [x13, #-4]
	and	x11, x11, #0xfffffff8
	cbz	w11, .LBB13_24
	cmp	x14, x11, lsr #3
	b.hs	.LBB13_11
	b	.LBB13_33
.LBB13_8:
	tbz	w5, #0, .LBB13_15
	cbz	x9, .LBB13_24
	mov	w11, #536870911
	cmp	x1, x11
	csel	x14, x1, x11, lo
	mov	x11, x9
	cmp	x14, x9, lsr #3
	b.lo	.LBB13_33
.LBB13_11:
	add	x13, x0, x11
	orr	x14, x10, #0x1
	ldur	w13, [x13, #-8]
	and	x13, x13, #0xfffffffffffffff9
	cmp	x14, x13
	mov	x13, x10
	b.eq	.LBB13_23
	b	.LBB13_33
.LBB13_12:
	and	x13, x15, #0xfffffff8
	cbnz	w13, .LBB13_17
	cmp	x9, x10
	b.ne	.LBB13_33
	mov	x13, xzr
	mov	w12, wzr
	b	.LBB13_22
.LBB13_15:
	cbz	x8, .LBB13_31
	mov	w12, #536870911
	mov	x13, x8
	cmp	x1, x12
	csel	x14, x1, x12, lo
.LBB13_17:
	cmp	x14, x13, lsr #3
	b.lo	.LBB13_33
	add	x12, x0, x13
	ldurb	w14, [x12, #-8]
	tbz	w14, #0, .LBB13_33
	ldur	w12, [x12, #-4]
	and	x12, x12, #0xfffffff8
	cmp	x10, x12
	b.ne	.LBB13_33
	cbz	w11, .LBB13_28
	mov	w12, #1
.LBB13_22:
	mov	x11, x10
.LBB13_23:
	add	x10, x0, x11
	mov	w14, #1
	stur	w14, [x10, #-8]
	cbz	w12, .LBB13_26
	b	.LBB13_29
.LBB13_24:
	cmp	x8, x10
	b.ne	.LBB13_33
	mov	x11, xzr
	mov	x13, x8
	mov	x8, xzr
	cbnz	w12, .LBB13_29
.LBB13_26:
	mov	x9, xzr
	mov	x13, xzr
	tbnz	w5, #0, .LBB13_30
.LBB13_27:
	mov	x10, x8
	mov	x12, x11
	mov	w0, wzr
	stp	x10, x12, [x2]
	stp	x13, x9, [x4]
	ret
.LBB13_28:
	mov	x8, xzr
	mov	x11, xzr
.LBB13_29:
	add	x10, x0, x13
	stur	wzr, [x10, #-4]
	tbz	w5, #0, .LBB13_27
.LBB13_30:
	mov	w0, wzr
	stp	x13, x9, [x2]
	stp	x8, x11, [x4]
	ret
.LBB13_31:
	cmp	x9, x10
	b.ne	.LBB13_33
	mov	w0, wzr
	stp	xzr, xzr, [x2]
	stp	xzr, xzr, [x4]
	ret
.LBB13_33:
	mov	w2, w3
	b	ic_raw.table.RawTable.refusal_at.05a19227735374d3
.Lfunc_end13:
	.size	ic_raw.list_calls.split_slow.55ebd757a04f39fd, .Lfunc_end13-ic_raw.list_calls.split_slow.55ebd757a04f39fd
	.cfi_endproc
	.section	.text.ic_raw_lists.transfer_calls.transfer_at.55ebd757a04f39fd,"ax",@progbits
	.p2align	2
	.type	ic_raw_lists.transfer_calls.transfer_at.55ebd757a04f39fd,@function
ic_raw_lists.transfer_calls.transfer_at.55ebd757a04f39fd:
	.cfi_startproc
	str	x21, [sp, #-32]!
	.cfi_def_cfa_offset 32
	stp	x20, x19, [sp, #16]
	.cfi_offset w19, -8
	.cfi_offset w20, -16
	.cfi_offset w21, -32
	.cfi_remember_state
	adds	w14, w6, #1
	b.lo	.LBB14_2
	mov	w0, #4
	ldp	x20, x19, [sp, #16]
	ldr	x21, [sp], #32
	.cfi_def_cfa_offset 0
	.cfi_restore w19
	.cfi_restore w20
	.cfi_restore w21
	ret
.LBB14_2:
	.cfi_restore_state
	.cfi_remember_state
	ldp	x8, x10, [x2]
	adds	w13, w4, #1
	ldp	x15, x12, [x5]
	ubfiz	x9, x13, #3, #32
	and	x11, x8, #0xffffffff8
	and	x10, x10, #0xffffffff8
	cset	w8, ne
	cbz	w13, .LBB14_8
	mov	w16, #536870911
	cmp	x1, x16
	csel	x16, x1, x16, lo
	cmp	x16, x13
	b.lo	.LBB14_46
	add	x13, x0, x9
	ldur	w17, [x13, #-8]
	tbz	w17, #0, .LBB14_46
	tbz	w3, #0, .LBB14_13
	ldur	w13, [x13, #-4]
	and	x13, x13, #0xfffffff8
	cbz	w13, .LBB14_43
	cmp	x16, x13, lsr #3
	b.hs	.LBB14_11
	b	.LBB14_46
.LBB14_8:
	tbz	w3, #0, .LBB14_15
	cbz	x10, .LBB14_43
	mov	w13, #536870911
	cmp	x1, x13
	csel	x16, x1, x13, lo
	mov	x13, x10
	cmp	x16, x10, lsr #3
	b.lo	.LBB14_46
.LBB14_11:
	add	x16, x0, x13
	orr	x17, x9, #0x1
	ldur	w16, [x16, #-8]
	and	x16, x16, #0xfffffffffffffff9
	cmp	x17, x16
	b.ne	.LBB14_46
	mov	w16, #1
	mov	w17, #536870911
	cmp	x1, x17
	csel	x19, x1, x17, lo
	cmp	x19, x14
	b.hs	.LBB14_20
	b	.LBB14_46
.LBB14_13:
	and	x17, x17, #0xfffffff8
	cbz	w17, .LBB14_45
	cmp	x16, x17, lsr #3
	b.hs	.LBB14_17
	b	.LBB14_46
.LBB14_15:
	cbz	x11, .LBB14_45
	mov	w13, #536870911
	mov	x17, x11
	cmp	x1, x13
	csel	x16, x1, x13, lo
	cmp	x16, x11, lsr #3
	b.lo	.LBB14_46
.LBB14_17:
	add	x13, x0, x17
	ldurb	w16, [x13, #-8]
	tbz	w16, #0, .LBB14_46
	ldur	w13, [x13, #-4]
	mov	w3, #1
	and	x13, x13, #0xfffffff8
	cmp	x13, x9
	mov	w16, w8
	mov	x13, x9
	mov	w8, w3
	mov	x9, x17
	b.ne	.LBB14_46
.LBB14_19:
	mov	w17, #536870911
	cmp	x1, x17
	csel	x19, x1, x17, lo
	cmp	x19, x14
	b.lo	.LBB14_46
.LBB14_20:
	ubfiz	x14, x14, #3, #32
	add	x17, x0, x14
	ldur	w7, [x17, #-8]
	tbz	w7, #0, .LBB14_46
	ldur	w3, [x17, #-4]
	and	x15, x15, #0xffffffff8
	and	x3, x3, #0xfffffff8
	cbz	w3, .LBB14_24
	cmp	x19, x3, lsr #3
	b.lo	.LBB14_46
	add	x20, x0, x3
	orr	x21, x14, #0x1
	ldur	w20, [x20, #-8]
	and	x20, x20, #0xfffffffffffffff9
	cmp	x21, x20
	b.eq	.LBB14_25
	b	.LBB14_46
.LBB14_24:
	cmp	x15, x14
	b.ne	.LBB14_46
.LBB14_25:
	and	x12, x12, #0xffffffff8
	and	x7, x7, #0xfffffff8
	mov	x20, x12
	cbz	w7, .LBB14_29
	cmp	x19, x7, lsr #3
	b.lo	.LBB14_46
	add	x19, x0, x7
	ldurb	w20, [x19, #-8]
	tbz	w20, #0, .LBB14_46
	ldur	w19, [x19, #-4]
	and	x20, x19, #0xfffffff8
.LBB14_29:
	cmp	x20, x14
	b.ne	.LBB14_46
	cbz	x15, .LBB14_32
	cmp	x11, x15
	b.eq	.LBB14_46
.LBB14_32:
	cmp	w16, #0
	csel	x19, xzr, x13, eq
	cmp	x19, x14
	b.eq	.LBB14_46
	cmp	w8, #0
	csel	x19, xzr, x9, eq
	cmp	x19, x14
	b.eq	.LBB14_46
	cbz	w3, .LBB14_41
	add	x1, x0, x3
	orr	w4, w7, #0x1
	stur	w4, [x1, #-8]
	cbz	w7, .LBB14_42
.LBB14_36:
	add	x1, x0, x7
	stur	w3, [x1, #-4]
	mov	x1, x14
	cbz	w16, .LBB14_38
.LBB14_37:
	add	x1, x0, x13
	orr	w3, w14, #0x1
	stur	w3, [x1, #-8]
	mov	x1, x11
.LBB14_38:
	cbz	w8, .LBB14_40
	add	x11, x0, x9
	stur	w14, [x11, #-4]
	mov	x14, x10
.LBB14_40:
	cmp	w16, #0
	mov	w10, #1
	mov	w0, wzr
	csel	w11, wzr, w13, eq
	cmp	w8, #0
	csinc	w8, w10, w9, eq
	stp	w8, w11, [x17, #-8]
	stp	x1, x14, [x2]
	stp	x15, x12, [x5]
	ldp	x20, x19, [sp, #16]
	ldr	x21, [sp], #32
	.cfi_def_cfa_offset 0
	.cfi_restore w19
	.cfi_restore w20
	.cfi_restore w21
	ret
.LBB14_41:
	.cfi_restore_state
	mov	x15, x7
	cbnz	w7, .LBB14_36
.LBB14_42:
	mov	x12, x3
	mov	x1, x14
	cbnz	w16, .LBB14_37
	b	.LBB14_38
.LBB14_43:
	cmp	x11, x9
	b.ne	.LBB14_46
	mov	w16, wzr
	mov	x13, xzr
	mov	x9, x11
	mov	w17, #536870911
	cmp	x1, x17
	csel	x19, x1, x17, lo
	cmp	x19, x14
	b.hs	.LBB14_20
	b	.LBB14_46
.LBB14_45:
	mov	w3, wzr
	mov	x17, xzr
	cmp	x10, x9
	mov	w16, w8
	mov	x13, x9
	mov	w8, w3
	mov	x9, x17
	b.eq	.LBB14_19
.LBB14_46:
	ldp	x20, x19, [sp, #16]
	mov	w2, w4
	mov	w3, w6
	ldr	x21, [sp], #32
	.cfi_def_cfa_offset 0
	.cfi_restore w19
	.cfi_restore w20
	.cfi_restore w21
	b	ic_raw.table.RawTable.refusal_at_both.05a19227735374d3
.Lfunc_end14:
	.size	ic_raw_lists.transfer_calls.transfer_at.55ebd757a04f39fd, .Lfunc_end14-ic_raw_lists.transfer_calls.transfer_at.55ebd757a04f39fd
	.cfi_endproc
	.section	.text.unlikely.ic_raw.list_calls.splice_slow.5386baa488213e47,"ax",@progbits
	.p2align	2
	.type	ic_raw.list_calls.splice_slow.5386baa488213e47,@function
ic_raw.list_calls.splice_slow.5386baa488213e47:
	.cfi_startproc
	ldp	x8, x9, [x2]
	adds	w11, w3, #1
	ldp	x12, x13, [x4]
	ubfiz	x15, x11, #3, #32
	and	x10, x8, #0xffffffff8
	and	x8, x9, #0xffffffff8
	cset	w9, ne
	cbz	w11, .LBB15_5
	cmp	x1, x11
	b.lo	.LBB15_32
	add	x11, x0, x11, lsl #4
	ldur	x14, [x11, #-16]
	tbz	w14, #0, .LBB15_32
	tbz	w5, #0, .LBB15_10
	ldur	x11, [x11, #-8]
	and	x14, x11, #0xffffffff8
	b	.LBB15_6
.LBB15_5:
	mov	x11, x10
	mov	x14, x8
	tbz	w5, #0, .LBB15_11
.LBB15_6:
	cbz	x14, .LBB15_28
	cmp	x1, x14, lsr #3
	b.lo	.LBB15_32
	add	x11, x0, x14, lsl #1
	orr	x16, x15, #0x1
	ldur	x11, [x11, #-16]
	and	x11, x11, #0xfffffffff
	and	x11, x11, #0xfffffffffffffff9
	cmp	x11, x16
	b.ne	.LBB15_32
	mov	w16, #1
	mov	x11, x15
	and	x15, x13, #0xffffffff8
	and	x12, x12, #0xffffffff8
	cbnz	x15, .LBB15_17
	b	.LBB15_30
.LBB15_10:
	and	x11, x14, #0xffffffff8
.LBB15_11:
	cmp	x11, #0
	mov	x14, x8
	cset	w17, ne
	cbz	x11, .LBB15_15
	cmp	x1, x11, lsr #3
	b.lo	.LBB15_32
	add	x14, x0, x11, lsl #1
	ldurb	w16, [x14, #-16]
	tbz	w16, #0, .LBB15_32
	ldur	x14, [x14, #-8]
	and	x14, x14, #0xffffffff8
.LBB15_15:
	cmp	x14, x15
	mov	w16, w9
	mov	x14, x15
	mov	w9, w17
	b.ne	.LBB15_32
	and	x15, x13, #0xffffffff8
	and	x12, x12, #0xffffffff8
	cbz	x15, .LBB15_30
.LBB15_17:
	cmp	x1, x15, lsr #3
	b.lo	.LBB15_32
	cbz	x12, .LBB15_32
	add	x13, x0, x15, lsl #1
	ldur	x17, [x13, #-16]
	and	x17, x17, #0xfffffffff
	and	x17, x17, #0xfffffffffffffff9
	cmp	x17, #1
	b.ne	.LBB15_32
	lsr	x17, x12, #3
	cmp	x17, x1
	b.hi	.LBB15_32
	add	x17, x0, x12, lsl #1
	ldurb	w5, [x17, #-16]
	tbz	w5, #0, .LBB15_32
	cmp	x10, x12
	b.eq	.LBB15_32
	ldur	x5, [x17, #-8]
	and	x5, x5, #0xffffffff8
	cbnz	x5, .LBB15_32
	cbz	w16, .LBB15_26
	add	x1, x0, x14, lsl #1
	orr	x12, x12, #0x1
	stur	x12, [x1, #-16]
	mov	x12, x10
.LBB15_26:
	cbz	w9, .LBB15_33
	add	x10, x0, x11, lsl #1
	stur	x15, [x10, #-8]
	b	.LBB15_34
.LBB15_28:
	cmp	x10, x15
	b.ne	.LBB15_32
	mov	w16, wzr
	mov	x14, xzr
	mov	x11, x10
	and	x15, x13, #0xffffffff8
	and	x12, x12, #0xffffffff8
	cbnz	x15, .LBB15_17
.LBB15_30:
	cbnz	x12, .LBB15_32
	mov	w0, wzr
	stp	x10, x8, [x2]
	stp	xzr, xzr, [x4]
	ret
.LBB15_32:
	mov	w2, w3
	b	ic_raw.table.RawTable.refusal_at.85cd03e557136797
.LBB15_33:
	mov	x8, x15
.LBB15_34:
	cmp	w16, #0
	csel	x10, xzr, x14, eq
	cmp	w9, #0
	mov	w9, #1
	csinc	x9, x9, x11, eq
	stur	x10, [x17, #-8]
	stur	x9, [x13, #-16]
	mov	w0, wzr
	stp	x12, x8, [x2]
	stp	xzr, xzr, [x4]
	ret
.Lfunc_end15:
	.size	ic_raw.list_calls.splice_slow.5386baa488213e47, .Lfunc_end15-ic_raw.list_calls.splice_slow.5386baa488213e47
	.cfi_endproc
	.section	.text.unlikely.ic_raw.table.RawTable.refusal_at.85cd03e557136797,"ax",@progbits
	.p2align	2
	.type	ic_raw.table.RawTable.refusal_at.85cd03e557136797,@function
ic_raw.table.RawTable.refusal_at.85cd03e557136797:
	.cfi_startproc
	adds	w8, w2, #1
	b.lo	.LBB16_2
	mov	w0, #5
	ret
.LBB16_2:
	cmp	x1, x8
	b.hs	.LBB16_4
	mov	w0, #1
	ret
.LBB16_4:
	ubfiz	x8, x8, #4, #32
	mov	w9, #3
	add	x8, x0, x8
	ldurb	w8, [x8, #-16]
	tst	w8, #0x1
	mov	w8, #5
	csel	w0, w9, w8, eq
	ret
.Lfunc_end16:
	.size	ic_raw.table.RawTable.refusal_at.85cd03e557136797, .Lfunc_end16-ic_raw.table.RawTable.refusal_at.85cd03e557136797
	.cfi_endproc
	.section	.text.unlikely.ic_raw.table.RawTable.refusal.85cd03e557136797,"ax",@progbits
	.p2align	2
	.type	ic_raw.table.RawTable.refusal.85cd03e557136797,@function
ic_raw.table.RawTable.refusal.85cd03e557136797:
	.cfi_startproc
	adds	w8, w2, #1
	b.lo	.LBB17_4
.LBB17_1:
	adds	w9, w3, #1
	mov	w8, #1
	b.hs	.LBB17_8
	cmp	x1, x9
	b.lo	.LBB17_8
	add	x8, x0, x9, lsl #4
	mov	w9, #5
	ldurb	w8, [x8, #-16]
	tst	w8, #0x1
	mov	w8, #2
	csel	w0, w9, w8, eq
	ret
.LBB17_4:
	cmp	x1, x8
	b.hs	.LBB17_6
	mov	w0, #1
	ret
.LBB17_6:
	ubfiz	x8, x8, #4, #32
	add	x8, x0, x8
	ldurb	w8, [x8, #-16]
	tbnz	w8, #0, .LBB17_1
	mov	w8, #3
.LBB17_8:
	mov	w0, w8
	ret
.Lfunc_end17:
	.size	ic_raw.table.RawTable.refusal.85cd03e557136797, .Lfunc_end17-ic_raw.table.RawTable.refusal.85cd03e557136797
	.cfi_endproc
	.section	.text.unlikely.ic_raw.sort_calls.refusal.78cbab63d6c27224,"ax",@progbits
	.p2align	2
	.type	ic_raw.sort_calls.refusal.78cbab63d6c27224,@function
ic_raw.sort_calls.refusal.78cbab63d6c27224:
	.cfi_startproc
	mov	w8, #5
	cmp	x1, x0
	csinc	w0, w8, wzr, hs
	ret
.Lfunc_end18:
	.size	ic_raw.sort_calls.refusal.78cbab63d6c27224, .Lfunc_end18-ic_raw.sort_calls.refusal.78cbab63d6c27224
	.cfi_endproc
	.section	.text.ic_list_algorithms.merge.merge_runs.6bd71b5c7308988e,"ax",@progbits
	.p2align	2
	.type	ic_list_algorithms.merge.merge_runs.6bd71b5c7308988e,@function
ic_list_algorithms.merge.merge_runs.6bd71b5c7308988e:
	.cfi_startproc
	ldr	x9, [x1]
	ldr	x8, [x0]
	add	x10, x9, x3
	add	x9, x9, x2
	ldur	x10, [x10, #-8]
	ldur	x9, [x9, #-8]
	cmp	x10, x9
	b.hs	.LBB19_3
	add	x8, x8, x3, lsl #1
	ldur	x9, [x8, #-16]
	ands	x9, x9, #0xffffffff8
	b.eq	.LBB19_10
	mov	x4, x3
	mov	x3, x9
	mov	x8, x4
	b	.LBB19_6
.LBB19_3:
	add	x8, x8, x2, lsl #1
	ldur	x9, [x8, #-16]
	ands	x9, x9, #0xffffffff8
	b.eq	.LBB19_11
	mov	x4, x2
	mov	x2, x9
	mov	x8, x4
	b	.LBB19_6
.LBB19_5:
	add	x10, x10, x8, lsl #1
	ldur	x10, [x10, #-16]
	ands	x2, x10, #0xffffffff8
	orr	x10, x8, #0x1
	stur	x10, [x9, #-16]
	b.eq	.LBB19_12
.LBB19_6:
	mov	x10, x3
	mov	x3, x8
	mov	x8, x2
.LBB19_7:
	ldr	x9, [x1]
	mov	x11, x3
	mov	x3, x10
	add	x10, x9, x10
	add	x9, x9, x8
	ldur	x12, [x10, #-8]
	ldr	x10, [x0]
	ldur	x13, [x9, #-8]
	add	x9, x10, x11, lsl #1
	cmp	x12, x13
	b.hs	.LBB19_5
	add	x10, x10, x3, lsl #1
	orr	x11, x3, #0x1
	ldur	x10, [x10, #-16]
	stur	x11, [x9, #-16]
	ands	x10, x10, #0xffffffff8
	b.ne	.LBB19_7
	ldr	x9, [x0]
	add	x8, x8, #1
	add	x9, x9, x3, lsl #1
	stur	x8, [x9, #-16]
	mov	x0, x4
	ret
.LBB19_10:
	orr	x9, x2, #0x1
	mov	x0, x3
	stur	x9, [x8, #-16]
	ret
.LBB19_11:
	orr	x9, x3, #0x1
	mov	x0, x2
	stur	x9, [x8, #-16]
	ret
.LBB19_12:
	ldr	x9, [x0]
	add	x8, x9, x8, lsl #1
	add	x9, x3, #1
	stur	x9, [x8, #-16]
	mov	x0, x4
	ret
.Lfunc_end19:
	.size	ic_list_algorithms.merge.merge_runs.6bd71b5c7308988e, .Lfunc_end19-ic_list_algorithms.merge.merge_runs.6bd71b5c7308988e
	.cfi_endproc
	.section	.text.unlikely.ic_raw.move_calls.move_slow.5386baa488213e47,"ax",@progbits
	.p2align	2
	.type	ic_raw.move_calls.move_slow.5386baa488213e47,@function
ic_raw.move_calls.move_slow.5386baa488213e47:
	.cfi_startproc
	adds	w13, w5, #1
	b.lo	.LBB20_2
	mov	w0, #4
	ret
.LBB20_2:
	ldp	x8, x9, [x2]
	adds	w11, w4, #1
	ubfiz	x14, x11, #3, #32
	and	x10, x8, #0xffffffff8
	and	x8, x9, #0xffffffff8
	cset	w9, ne
	cbz	w11, .LBB20_7
	cmp	x1, x11
	b.lo	.LBB20_35
	add	x11, x0, x11, lsl #4
	ldur	x12, [x11, #-16]
	tbz	w12, #0, .LBB20_35
	tbz	w3, #0, .LBB20_12
	ldur	x11, [x11, #-8]
	and	x12, x11, #0xffffffff8
	b	.LBB20_8
.LBB20_7:
	mov	x11, x10
	mov	x12, x8
	tbz	w3, #0, .LBB20_13
.LBB20_8:
	cbz	x12, .LBB20_33
	cmp	x1, x12, lsr #3
	b.lo	.LBB20_35
	add	x11, x0, x12, lsl #1
	orr	x15, x14, #0x1
	ldur	x11, [x11, #-16]
	and	x11, x11, #0xfffffffff
	and	x11, x11, #0xfffffffffffffff9
	cmp	x11, x15
	b.ne	.LBB20_35
	mov	w15, #1
	mov	x11, x14
	cmp	x1, x13
	b.hs	.LBB20_19
	b	.LBB20_35
.LBB20_12:
	and	x11, x12, #0xffffffff8
.LBB20_13:
	cmp	x11, #0
	mov	x12, x8
	cset	w16, ne
	cbz	x11, .LBB20_17
	cmp	x1, x11, lsr #3
	b.lo	.LBB20_35
	add	x12, x0, x11, lsl #1
	ldurb	w15, [x12, #-16]
	tbz	w15, #0, .LBB20_35
	ldur	x12, [x12, #-8]
	and	x12, x12, #0xffffffff8
.LBB20_17:
	cmp	x12, x14
	mov	w15, w9
	mov	x12, x14
	mov	w9, w16
	b.ne	.LBB20_35
	cmp	x1, x13
	b.lo	.LBB20_35
.LBB20_19:
	add	x14, x0, x13, lsl #4
	ldur	x17, [x14, #-16]
	tbz	w17, #0, .LBB20_35
	ldur	x16, [x14, #-8]
	ubfiz	x13, x13, #3, #32
	ands	x16, x16, #0xffffffff8
	b.eq	.LBB20_23
	cmp	x1, x16, lsr #3
	b.lo	.LBB20_35
	add	x3, x0, x16, lsl #1
	orr	x6, x13, #0x1
	ldur	x3, [x3, #-16]
	and	x3, x3, #0xfffffffff
	and	x3, x3, #0xfffffffffffffff9
	cmp	x3, x6
	b.eq	.LBB20_24
	b	.LBB20_35
.LBB20_23:
	cmp	x10, x13
	b.ne	.LBB20_35
.LBB20_24:
	ands	x3, x17, #0xffffffff8
	mov	x17, x8
	b.eq	.LBB20_28
	cmp	x1, x3, lsr #3
	b.lo	.LBB20_35
	add	x17, x0, x3, lsl #1
	ldurb	w6, [x17, #-16]
	tbz	w6, #0, .LBB20_35
	ldur	x17, [x17, #-8]
	and	x17, x17, #0xffffffff8
.LBB20_28:
	cmp	x17, x13
	b.ne	.LBB20_35
	cmp	w15, #0
	csel	x17, xzr, x12, eq
	cmp	x17, x13
	b.ne	.LBB20_31
	mov	w0, wzr
	ret
.LBB20_31:
	cmp	w9, #0
	csel	x1, xzr, x11, eq
	cmp	x1, x13
	b.ne	.LBB20_36
	mov	w0, wzr
	ret
.LBB20_33:
	cmp	x10, x14
	b.ne	.LBB20_35
	mov	w15, wzr
	mov	x12, xzr
	mov	x11, x10
	cmp	x1, x13
	b.hs	.LBB20_19
.LBB20_35:
	mov	w2, w4
	mov	w3, w5
	b	ic_raw.table.RawTable.refusal_at_both.85cd03e557136797
.LBB20_36:
	mov	x1, x3
	cbz	x16, .LBB20_38
	add	x1, x0, x16, lsl #1
	orr	x4, x3, #0x1
	stur	x4, [x1, #-16]
	mov	x1, x10
.LBB20_38:
	cbz	x3, .LBB20_43
	add	x10, x0, x3, lsl #1
	stur	x16, [x10, #-8]
	mov	x10, x13
	cbz	w15, .LBB20_41
.LBB20_40:
	add	x10, x0, x12, lsl #1
	orr	x12, x13, #0x1
	stur	x12, [x10, #-16]
	mov	x10, x1
.LBB20_41:
	cbz	w9, .LBB20_44
	add	x12, x0, x11, lsl #1
	stur	x13, [x12, #-8]
	b	.LBB20_45
.LBB20_43:
	mov	x8, x16
	mov	x10, x13
	cbnz	w15, .LBB20_40
	b	.LBB20_41
.LBB20_44:
	mov	x8, x13
.LBB20_45:
	cmp	w9, #0
	mov	w9, #1
	mov	w0, wzr
	csinc	x9, x9, x11, eq
	stp	x9, x17, [x14, #-16]
	stp	x10, x8, [x2]
	ret
.Lfunc_end20:
	.size	ic_raw.move_calls.move_slow.5386baa488213e47, .Lfunc_end20-ic_raw.move_calls.move_slow.5386baa488213e47
	.cfi_endproc
	.section	.text.unlikely.ic_raw.table.RawTable.refusal_at_both.85cd03e557136797,"ax",@progbits
	.p2align	2
	.type	ic_raw.table.RawTable.refusal_at_both.85cd03e557136797,@function
ic_raw.table.RawTable.refusal_at_both.85cd03e557136797:
	.cfi_startproc
	adds	w8, w2, #1
	b.lo	.LBB21_3
.LBB21_1:
	adds	w8, w3, #1
	b.lo	.LBB21_5
	mov	w0, #5
	ret
.LBB21_3:
	cmp	x1, x8
	b.hs	.LBB21_7
	mov	w0, #1
	ret
.LBB21_5:
	cmp	x1, x8
	b.hs	.LBB21_9
	mov	w0, #1
	ret
.LBB21_7:
	ubfiz	x8, x8, #4, #32
	add	x8, x0, x8
	ldurb	w8, [x8, #-16]
	tbnz	w8, #0, .LBB21_1
	mov	w0, #3
	ret
.LBB21_9:
	ubfiz	x8, x8, #4, #32
	mov	w9, #3
	add	x8, x0, x8
	ldurb	w8, [x8, #-16]
	tst	w8, #0x1
	mov	w8, #5
	csel	w0, w9, w8, eq
	ret
.Lfunc_end21:
	.size	ic_raw.table.RawTable.refusal_at_both.85cd03e557136797, .Lfunc_end21-ic_raw.table.RawTable.refusal_at_both.85cd03e557136797
	.cfi_endproc
	.section	.text.unlikely.ic_raw.move_calls.move_to_end_slow.5386baa488213e47,"ax",@progbits
	.p2align	2
	.type	ic_raw.move_calls.move_to_end_slow.5386baa488213e47,@function
ic_raw.move_calls.move_to_end_slow.5386baa488213e47:
	.cfi_startproc
	adds	w8, w4, #1
	b.lo	.LBB22_2
	mov	w0, #4
	ret
.LBB22_2:
	ldp	x10, x12, [x2]
	ubfiz	x9, x8, #3, #32
	mov	w5, w4
	and	x11, x10, #0xffffffff8
	and	x12, x12, #0xffffffff8
	tbz	w3, #0, .LBB22_15
	cmp	x1, x8
	b.lo	.LBB22_26
	cmp	x11, x9
	b.ne	.LBB22_26
	lsl	x10, x8, #4
	add	x8, x0, x10
	ldur	x11, [x8, #-8]
	cbnz	x11, .LBB22_26
	ldur	x13, [x8, #-16]
	tbz	w13, #0, .LBB22_26
	ands	x11, x13, #0xffffffff8
	b.eq	.LBB22_26
	ubfx	x13, x13, #3, #33
	cmp	x13, x1
	b.hi	.LBB22_26
	add	x13, x0, x11, lsl #1
	ldur	x14, [x13, #-8]
	cmp	x14, x9
	b.ne	.LBB22_26
	cbz	x12, .LBB22_26
	ldur	w14, [x13, #-16]
	tbz	w14, #0, .LBB22_26
	lsr	x14, x12, #3
	cmp	x14, x1
	b.hi	.LBB22_26
	add	x14, x0, x12, lsl #1
	ldur	x15, [x14, #-16]
	cmp	x15, #1
	b.ne	.LBB22_26
	stur	xzr, [x13, #-8]
	orr	x13, x9, #0x1
	stur	x13, [x14, #-16]
	mov	w13, #1
	stur	x12, [x8, #-8]
	add	x10, x0, x10
	mov	w0, wzr
	stur	x13, [x10, #-16]
	stp	x11, x9, [x2]
	ret
.LBB22_15:
	cmp	x12, x9
	b.ne	.LBB22_26
	cmp	x1, x8
	b.lo	.LBB22_26
	add	x10, x0, x8, lsl #4
	ldur	x12, [x10, #-16]
	cmp	x12, #1
	b.ne	.LBB22_26
	ldur	x10, [x10, #-8]
	ands	x12, x10, #0xffffffff8
	b.eq	.LBB22_26
	ubfx	x10, x10, #3, #33
	cmp	x10, x1
	b.hi	.LBB22_26
	add	x13, x0, x12, lsl #1
	orr	x14, x9, #0x1
	ldur	x10, [x13, #-16]
	cmp	x10, x14
	b.ne	.LBB22_26
	cbz	x11, .LBB22_26
	lsr	x10, x11, #3
	cmp	x10, x1
	b.hi	.LBB22_26
	add	x14, x0, x11, lsl #1
	ldur	x10, [x14, #-8]
	cbnz	x10, .LBB22_26
	ldur	w10, [x14, #-16]
	tbz	w10, #0, .LBB22_26
	lsl	x10, x8, #4
	mov	w15, #1
	stur	x15, [x13, #-16]
	orr	x13, x11, #0x1
	mov	x11, x9
	add	x8, x0, x10
	stur	x9, [x14, #-8]
	stur	xzr, [x8, #-8]
	add	x10, x0, x10
	mov	w0, wzr
	stur	x13, [x10, #-16]
	stp	x11, x12, [x2]
	ret
.LBB22_26:
	mov	w4, #-1
	b	ic_raw.move_calls.move_slow.5386baa488213e47
.Lfunc_end22:
	.size	ic_raw.move_calls.move_to_end_slow.5386baa488213e47, .Lfunc_end22-ic_raw.move_calls.move_to_end_slow.5386baa488213e47
	.cfi_endproc
	.section	.text.unlikely.ic_raw.list_calls.pop_front_slow.5386baa488213e47,"ax",@progbits
	.p2align	2
	.type	ic_raw.list_calls.pop_front_slow.5386baa488213e47,@function
ic_raw.list_calls.pop_front_slow.5386baa488213e47:
	.cfi_startproc
	ldr	x9, [x2]
	ands	x8, x9, #0xffffffff8
	b.eq	.LBB23_12
	ubfx	x9, x9, #3, #33
	cmp	x9, x1
	b.hi	.LBB23_12
	add	x9, x0, x8, lsl #1
	ldur	x10, [x9, #-16]
	tbz	w10, #0, .LBB23_12
	ldur	x11, [x9, #-8]
	tst	x11, #0xffffffff8
	b.ne	.LBB23_12
	ldr	x11, [x2, #8]
	ands	x10, x10, #0xffffffff8
	and	x11, x11, #0xffffffff8
	b.eq	.LBB23_9
	cmp	x1, x10, lsr #3
	b.lo	.LBB23_12
	add	x12, x0, x10, lsl #1
	ldurb	w13, [x12, #-16]
	tbz	w13, #0, .LBB23_12
	ldur	x13, [x12, #-8]
	and	x13, x13, #0xffffffff8
	cmp	x13, x8
	b.ne	.LBB23_12
	stur	xzr, [x12, #-8]
	b	.LBB23_11
.LBB23_9:
	cmp	x11, x8
	b.ne	.LBB23_12
	mov	x11, xzr
.LBB23_11:
	stur	xzr, [x9, #-16]
	mov	w9, #-1
	mov	w0, wzr
	add	x8, x9, x8, lsr #3
	stp	x10, x11, [x2]
	str	w8, [x3]
	ret
.LBB23_12:
	mov	x0, x2
	mov	w1, wzr
	b	ic_raw.list_calls.refusal_to_pop
.Lfunc_end23:
	.size	ic_raw.list_calls.pop_front_slow.5386baa488213e47, .Lfunc_end23-ic_raw.list_calls.pop_front_slow.5386baa488213e47
	.cfi_endproc
	.section	.text.unlikely.ic_raw.list_calls.push_back_slow.5386baa488213e47,"ax",@progbits
	.p2align	2
	.type	ic_raw.list_calls.push_back_slow.5386baa488213e47,@function
ic_raw.list_calls.push_back_slow.5386baa488213e47:
	.cfi_startproc
	ldp	x9, x8, [x2]
	ands	x8, x8, #0xffffffff8
	and	x9, x9, #0xffffffff8
	add	x10, x0, x8, lsl #1
	b.eq	.LBB24_3
	cmp	x1, x8, lsr #3
	b.lo	.LBB24_10
	ldur	x11, [x10, #-16]
	and	x11, x11, #0xfffffffff
	and	x11, x11, #0xfffffffffffffff9
	cmp	x11, #1
	b.eq	.LBB24_4
	b	.LBB24_10
.LBB24_3:
	cbnz	x9, .LBB24_10
.LBB24_4:
	add	w12, w3, #1
	cbz	w12, .LBB24_10
	cmp	x1, x12
	b.lo	.LBB24_10
	add	x11, x0, x12, lsl #4
	ldurb	w13, [x11, #-16]
	tbnz	w13, #0, .LBB24_10
	ubfiz	x12, x12, #3, #32
	mov	x13, x12
	cbz	x8, .LBB24_9
	orr	x13, x12, #0x1
	stur	x13, [x10, #-16]
	mov	x13, x9
.LBB24_9:
	mov	w0, wzr
	mov	w9, #1
	stp	x9, x8, [x11, #-16]
	stp	x13, x12, [x2]
	ret
.LBB24_10:
	mov	w2, #-1
	b	ic_raw.table.RawTable.refusal.85cd03e557136797
.Lfunc_end24:
	.size	ic_raw.list_calls.push_back_slow.5386baa488213e47, .Lfunc_end24-ic_raw.list_calls.push_back_slow.5386baa488213e47
	.cfi_endproc
	.section	.text.unlikely.ic_raw.list_calls.remove_slow.5386baa488213e47,"ax",@progbits
	.p2align	2
	.type	ic_raw.list_calls.remove_slow.5386baa488213e47,@function
ic_raw.list_calls.remove_slow.5386baa488213e47:
	.cfi_startproc
	adds	w10, w3, #1
	b.lo	.LBB25_2
	mov	w0, #4
	ret
.LBB25_2:
	cmp	x1, x10
	b.lo	.LBB25_17
	add	x8, x0, x10, lsl #4
	ldur	x12, [x8, #-16]
	tbz	w12, #0, .LBB25_17
	ldur	x9, [x8, #-8]
	ldp	x14, x15, [x2]
	ubfiz	x13, x10, #3, #32
	ands	x9, x9, #0xffffffff8
	add	x11, x0, x9, lsl #1
	and	x10, x14, #0xffffffff8
	b.eq	.LBB25_7
	cmp	x1, x9, lsr #3
	b.lo	.LBB25_17
	ldur	x14, [x11, #-16]
	orr	x16, x13, #0x1
	and	x14, x14, #0xfffffffff
	and	x14, x14, #0xfffffffffffffff9
	cmp	x14, x16
	b.eq	.LBB25_8
	b	.LBB25_17
.LBB25_7:
	cmp	x10, x13
	b.ne	.LBB25_17
.LBB25_8:
	ands	x14, x12, #0xffffffff8
	and	x12, x15, #0xffffffff8
	add	x15, x0, x14, lsl #1
	mov	x16, x12
	b.eq	.LBB25_12
	cmp	x1, x14, lsr #3
	b.lo	.LBB25_17
	ldurb	w16, [x15, #-16]
	tbz	w16, #0, .LBB25_17
	ldur	x16, [x15, #-8]
	and	x16, x16, #0xffffffff8
.LBB25_12:
	cmp	x16, x13
	b.ne	.LBB25_17
	mov	x13, x14
	cbz	x9, .LBB25_15
	orr	x13, x14, #0x1
	stur	x13, [x11, #-16]
	mov	x13, x10
.LBB25_15:
	cbz	x14, .LBB25_18
	stur	x9, [x15, #-8]
	mov	w0, wzr
	stur	xzr, [x8, #-16]
	stp	x13, x12, [x2]
	ret
.LBB25_17:
	mov	w2, w3
	b	ic_raw.table.RawTable.refusal_at.85cd03e557136797
.LBB25_18:
	mov	w0, wzr
	stur	xzr, [x8, #-16]
	stp	x13, x9, [x2]
	ret
.Lfunc_end25:
	.size	ic_raw.list_calls.remove_slow.5386baa488213e47, .Lfunc_end25-ic_raw.list_calls.remove_slow.5386baa488213e47
	.cfi_endproc
	.section	.text.ic_list_algorithms.sort.sort_front.6bd71b5c7308988e,"ax",@progbits
	.p2align	2
	.type	ic_list_algorithms.sort.sort_front.6bd71b5c7308988e,@function
ic_list_algorithms.sort.sort_front.6bd71b5c7308988e:
	.cfi_startproc
	sub	sp, sp, #112
	.cfi_def_cfa_offset 112
	stp	x29, x30, [sp, #48]
	stp	x24, x23, [sp, #64]
	stp	x22, x21, [sp, #80]
	stp	x20, x19, [sp, #96]
	add	x29, sp, #48
	.cfi_def_cfa w29, 64
	.cfi_offset w19, -8
	.cfi_offset w20, -16
	.cfi_offset w21, -24
	.cfi_offset w22, -32
	.cfi_offset w23, -40
	.cfi_offset w24, -48
	.cfi_offset w30, -56
	.cfi_offset w29, -64
	.cfi_remember_state
	mov	x19, x0
	cbz	x4, .LBB26_4
	subs	x20, x4, #1
	b.ne	.LBB26_5
	ldr	x8, [x1]
	mov	w10, #1
	add	x9, x8, x3, lsl #1
	ldur	x8, [x9, #-16]
	stur	x10, [x9, #-16]
	ands	x8, x8, #0xffffffff8
	b.eq	.LBB26_8
	ldr	x9, [x1]
	mov	x0, x1
	mov	x1, x2
	mov	x2, x3
	mov	x3, x8
	add	x9, x9, x8, lsl #1
	ldur	x10, [x9, #-16]
	ands	x20, x10, #0xffffffff8
	mov	w10, #1
	cset	w21, ne
	stur	x10, [x9, #-16]
	bl	ic_list_algorithms.merge.merge_runs.6bd71b5c7308988e
	stp	x0, x21, [x19]
	str	x20, [x19, #16]
	.cfi_def_cfa wsp, 112
	ldp	x20, x19, [sp, #96]
	ldp	x22, x21, [sp, #80]
	ldp	x24, x23, [sp, #64]
	ldp	x29, x30, [sp, #48]
	add	sp, sp, #112
	.cfi_def_cfa_offset 0
	.cfi_restore w19
	.cfi_restore w20
	.cfi_restore w21
	.cfi_restore w22
	.cfi_restore w23
	.cfi_restore w24
	.cfi_restore w30
	.cfi_restore w29
	ret
.LBB26_4:
	.cfi_restore_state
	.cfi_remember_state
	ldr	x8, [x1]
	mov	w10, #1
	add	x8, x8, x3, lsl #1
	ldur	x9, [x8, #-16]
	stur	x10, [x8, #-16]
	ands	x8, x9, #0xffffffff8
	cset	w9, ne
	str	x8, [x19, #16]
	stp	x3, x9, [x19]
	.cfi_def_cfa wsp, 112
	ldp	x20, x19, [sp, #96]
	ldp	x22, x21, [sp, #80]
	ldp	x24, x23, [sp, #64]
	ldp	x29, x30, [sp, #48]
	add	sp, sp, #112
	.cfi_def_cfa_offset 0
	.cfi_restore w19
	.cfi_restore w20
	.cfi_restore w21
	.cfi_restore w22
	.cfi_restore w23
	.cfi_restore w24
	.cfi_restore w30
	.cfi_restore w29
	ret
.LBB26_5:
	.cfi_restore_state
	.cfi_remember_state
	add	x0, sp, #24
	mov	x4, x20
	mov	x22, x1
	mov	x23, x2
	bl	ic_list_algorithms.sort.sort_front.6bd71b5c7308988e
	ldrb	w8, [sp, #32]
	ldr	x21, [sp, #24]
	cmp	w8, #1
	b.ne	.LBB26_7
	ldr	x3, [sp, #40]
	mov	x0, sp
	mov	x1, x22
	mov	x2, x23
	mov	x4, x20
	bl	ic_list_algorithms.sort.sort_front.6bd71b5c7308988e
	ldr	x3, [sp]
	ldrb	w20, [sp, #8]
	mov	x0, x22
	ldr	x24, [sp, #16]
	mov	x1, x23
	mov	x2, x21
	bl	ic_list_algorithms.merge.merge_runs.6bd71b5c7308988e
	stp	x0, x20, [x19]
	str	x24, [x19, #16]
	.cfi_def_cfa wsp, 112
	ldp	x20, x19, [sp, #96]
	ldp	x22, x21, [sp, #80]
	ldp	x24, x23, [sp, #64]
	ldp	x29, x30, [sp, #48]
	add	sp, sp, #112
	.cfi_def_cfa_offset 0
	.cfi_restore w19
	.cfi_restore w20
	.cfi_restore w21
	.cfi_restore w22
	.cfi_restore w23
	.cfi_restore w24
	.cfi_restore w30
	.cfi_restore w29
	ret
.LBB26_7:
	.cfi_restore_state
	str	x21, [x19]
	b	.LBB26_9
.LBB26_8:
	str	x3, [x19]
.LBB26_9:
	stp	xzr, xzr, [x19, #8]
	.cfi_def_cfa wsp, 112
	ldp	x20, x19, [sp, #96]
	ldp	x22, x21, [sp, #80]
	ldp	x24, x23, [sp, #64]
	ldp	x29, x30, [sp, #48]
	add	sp, sp, #112
	.cfi_def_cfa_offset 0
	.cfi_restore w19
	.cfi_restore w20
	.cfi_restore w21
	.cfi_restore w22
	.cfi_restore w23
	.cfi_restore w24
	.cfi_restore w30
	.cfi_restore w29
	ret
.Lfunc_end26:
	.size	ic_list_algorithms.sort.sort_front.6bd71b5c7308988e, .Lfunc_end26-ic_list_algorithms.sort.sort_front.6bd71b5c7308988e
	.cfi_endproc
	.section	.text.unlikely.ic_raw.list_calls.split_slow.5386baa488213e47,"ax",@progbits
	.p2align	2
	.type	ic_raw.list_calls.split_slow.5386baa488213e47,@function
ic_raw.list_calls.split_slow.5386baa488213e47:
	.cfi_startproc
	ldr	x8, [x4]
	tst	x8, #0xffffffff8
	b.ne	.LBB27_24
	ldr	x8, [x4, #8]
	tst	x8, #0xffffffff8
	b.ne	.LBB27_24
	ldp	x8, x9, [x2]
	adds	w14, w3, #1
	ubfiz	x13, x14, #3, #32
	cset	w10, ne
	and	x8, x8, #0xffffffff8
	and	x9, x9, #0xffffffff8
	cbz	w14, .LBB27_7
	cmp	x1, x14
	b.lo	.LBB27_24
	add	x11, x0, x14, lsl #4
	ldur	x12, [x11, #-16]
	tbz	w12, #0, .LBB27_24
	tbz	w5, #0, .LBB27_11
	ldur	x11, [x11, #-8]
	and	x12, x11, #0xffffffff8
	b	.LBB27_8
.LBB27_7:
	mov	x11, x8
	mov	x12, x9
	tbz	w5, #0, .LBB27_12
.LBB27_8:
	cbz	x12, .LBB27_20
	cmp	x1, x12, lsr #3
	b.lo	.LBB27_24
	lsl	x14, x12, #1
	orr	x15, x13, #0x1
	add	x11, x0, x14
	ldur	x11, [x11, #-16]
	and	x11, x11, #0xfffffffff
	and	x11, x11, #0xfffffffffffffff9
	cmp	x11, x15
	mov	x11, x13
	b.eq	.LBB27_19
	b	.LBB27_24
.LBB27_11:
	and	x11, x12, #0xffffffff8
.LBB27_12:
	cmp	x11, #0
	mov	x12, x9
	cset	w10, ne
	cbz	x11, .LBB27_16
	cmp	x1, x11, lsr #3
	b.lo	.LBB27_24
	add	x12, x0, x11, lsl #1
	ldurb	w15, [x12, #-16]
	tbz	w15, #0, .LBB27_24
	ldur	x12, [x12, #-8]
	and	x12, x12, #0xffffffff8
.LBB27_16:
	cmp	x12, x13
	b.ne	.LBB27_24
	cbz	w14, .LBB27_25
	lsl	x14, x14, #4
	mov	x12, x13
.LBB27_19:
	add	x13, x0, x14
	mov	w14, #1
	stur	x14, [x13, #-16]
	cbnz	w10, .LBB27_22
	b	.LBB27_26
.LBB27_20:
	cmp	x8, x13
	b.ne	.LBB27_24
	mov	x12, xzr
	mov	x11, x8
	mov	x8, xzr
	cbz	w10, .LBB27_26
.LBB27_22:
	add	x13, x0, x11, lsl #1
	stur	xzr, [x13, #-8]
	cmp	w10, #0
	csel	x13, xzr, x11, eq
	tbnz	w5, #0, .LBB27_27
.LBB27_23:
	mov	x10, x8
	mov	x11, x12
	mov	w0, wzr
	stp	x10, x11, [x2]
	stp	x13, x9, [x4]
	ret
.LBB27_24:
	mov	w2, w3
	b	ic_raw.table.RawTable.refusal_at.85cd03e557136797
.LBB27_25:
	mov	x12, xzr
	mov	x8, xzr
	cbnz	w10, .LBB27_22
.LBB27_26:
	mov	x9, xzr
	cmp	w10, #0
	csel	x13, xzr, x11, eq
	tbz	w5, #0, .LBB27_23
.LBB27_27:
	mov	w0, wzr
	stp	x13, x9, [x2]
	stp	x8, x12, [x4]
	ret
.Lfunc_end27:
	.size	ic_raw.list_calls.split_slow.5386baa488213e47, .Lfunc_end27-ic_raw.list_calls.split_slow.5386baa488213e47
	.cfi_endproc
	.section	.text.ic_raw_lists.transfer_calls.transfer_at.5386baa488213e47,"ax",@progbits
	.p2align	2
	.type	ic_raw_lists.transfer_calls.transfer_at.5386baa488213e47,@function
ic_raw_lists.transfer_calls.transfer_at.5386baa488213e47:
	.cfi_startproc
	stp	x22, x21, [sp, #-32]!
	.cfi_def_cfa_offset 32
	stp	x20, x19, [sp, #16]
	.cfi_offset w19, -8
	.cfi_offset w20, -16
	.cfi_offset w21, -24
	.cfi_offset w22, -32
	.cfi_remember_state
	adds	w14, w6, #1
	b.lo	.LBB28_2
	mov	w0, #4
	ldp	x20, x19, [sp, #16]
	ldp	x22, x21, [sp], #32
	.cfi_def_cfa_offset 0
	.cfi_restore w19
	.cfi_restore w20
	.cfi_restore w21
	.cfi_restore w22
	ret
.LBB28_2:
	.cfi_restore_state
	.cfi_remember_state
	ldp	x8, x9, [x2]
	adds	w11, w4, #1
	ldp	x17, x13, [x5]
	ubfiz	x15, x11, #3, #32
	and	x10, x8, #0xffffffff8
	and	x8, x9, #0xffffffff8
	cset	w9, ne
	cbz	w11, .LBB28_7
	cmp	x1, x11
	b.lo	.LBB28_45
	add	x11, x0, x11, lsl #4
	ldur	x12, [x11, #-16]
	tbz	w12, #0, .LBB28_45
	tbz	w3, #0, .LBB28_12
	ldur	x11, [x11, #-8]
	and	x12, x11, #0xffffffff8
	b	.LBB28_8
.LBB28_7:
	mov	x11, x10
	mov	x12, x8
	tbz	w3, #0, .LBB28_13
.LBB28_8:
	cbz	x12, .LBB28_43
	cmp	x1, x12, lsr #3
	b.lo	.LBB28_45
	add	x11, x0, x12, lsl #1
	orr	x16, x15, #0x1
	ldur	x11, [x11, #-16]
	and	x11, x11, #0xfffffffff
	and	x11, x11, #0xfffffffffffffff9
	cmp	x11, x16
	b.ne	.LBB28_45
	mov	w16, #1
	mov	x11, x15
	cmp	x1, x14
	b.hs	.LBB28_19
	b	.LBB28_45
.LBB28_12:
	and	x11, x12, #0xffffffff8
.LBB28_13:
	cmp	x11, #0
	mov	x12, x8
	cset	w3, ne
	cbz	x11, .LBB28_17
	cmp	x1, x11, lsr #3
	b.lo	.LBB28_45
	add	x12, x0, x11, lsl #1
	ldurb	w16, [x12, #-16]
	tbz	w16, #0, .LBB28_45
	ldur	x12, [x12, #-8]
	and	x12, x12, #0xffffffff8
.LBB28_17:
	cmp	x12, x15
	mov	w16, w9
	mov	x12, x15
	mov	w9, w3
	b.ne	.LBB28_45
	cmp	x1, x14
	b.lo	.LBB28_45
.LBB28_19:
	add	x15, x0, x14, lsl #4
	ldur	x19, [x15, #-16]
	tbz	w19, #0, .LBB28_45
	ldur	x3, [x15, #-8]
	ubfiz	x14, x14, #3, #32
	and	x17, x17, #0xffffffff8
	ands	x3, x3, #0xffffffff8
	add	x7, x0, x3, lsl #1
	b.eq	.LBB28_23
	cmp	x1, x3, lsr #3
	b.lo	.LBB28_45
	ldur	x20, [x7, #-16]
	orr	x21, x14, #0x1
	and	x20, x20, #0xfffffffff
	and	x20, x20, #0xfffffffffffffff9
	cmp	x20, x21
	b.eq	.LBB28_24
	b	.LBB28_45
.LBB28_23:
	cmp	x17, x14
	b.ne	.LBB28_45
.LBB28_24:
	ands	x20, x19, #0xffffffff8
	and	x13, x13, #0xffffffff8
	add	x21, x0, x20, lsl #1
	mov	x19, x13
	b.eq	.LBB28_28
	cmp	x1, x20, lsr #3
	b.lo	.LBB28_45
	ldurb	w19, [x21, #-16]
	tbz	w19, #0, .LBB28_45
	ldur	x19, [x21, #-8]
	and	x19, x19, #0xffffffff8
.LBB28_28:
	cmp	x19, x14
	b.ne	.LBB28_45
	cbz	x17, .LBB28_31
	cmp	x10, x17
	b.eq	.LBB28_45
.LBB28_31:
	cmp	w16, #0
	csel	x19, xzr, x12, eq
	cmp	x19, x14
	b.eq	.LBB28_45
	cmp	w9, #0
	csel	x22, xzr, x11, eq
	cmp	x22, x14
	b.eq	.LBB28_45
	mov	x1, x20
	cbz	x3, .LBB28_35
	orr	x1, x20, #0x1
	stur	x1, [x7, #-16]
	mov	x1, x17
.LBB28_35:
	cbz	x20, .LBB28_40
	stur	x3, [x21, #-8]
	mov	x17, x14
	cbz	w16, .LBB28_38
.LBB28_37:
	add	x12, x0, x12, lsl #1
	orr	x16, x14, #0x1
	mov	x17, x10
	stur	x16, [x12, #-16]
.LBB28_38:
	cbz	w9, .LBB28_41
	add	x10, x0, x11, lsl #1
	stur	x14, [x10, #-8]
	b	.LBB28_42
.LBB28_40:
	mov	x13, x3
	mov	x17, x14
	cbnz	w16, .LBB28_37
	b	.LBB28_38
.LBB28_41:
	mov	x8, x14
.LBB28_42:
	cmp	w9, #0
	mov	w9, #1
	mov	w0, wzr
	csinc	x9, x9, x11, eq
	stp	x9, x19, [x15, #-16]
	stp	x17, x8, [x2]
	stp	x1, x13, [x5]
	ldp	x20, x19, [sp, #16]
	ldp	x22, x21, [sp], #32
	.cfi_def_cfa_offset 0
	.cfi_restore w19
	.cfi_restore w20
	.cfi_restore w21
	.cfi_restore w22
	ret
.LBB28_43:
	.cfi_restore_state
	cmp	x10, x15
	b.ne	.LBB28_45
	mov	w16, wzr
	mov	x12, xzr
	mov	x11, x10
	cmp	x1, x14
	b.hs	.LBB28_19
.LBB28_45:
	ldp	x20, x19, [sp, #16]
	mov	w2, w4
	mov	w3, w6
	ldp	x22, x21, [sp], #32
	.cfi_def_cfa_offset 0
	.cfi_restore w19
	.cfi_restore w20
	.cfi_restore w21
	.cfi_restore w22
	b	ic_raw.table.RawTable.refusal_at_both.85cd03e557136797
.Lfunc_end28:
	.size	ic_raw_lists.transfer_calls.transfer_at.5386baa488213e47, .Lfunc_end28-ic_raw_lists.transfer_calls.transfer_at.5386baa488213e47
	.cfi_endproc
	.section	.text.unlikely.ic_raw.table.refusal_at_end.05a19227735374d3,"ax",@progbits
	.p2align	2
	.type	ic_raw.table.refusal_at_end.05a19227735374d3,@function
ic_raw.table.refusal_at_end.05a19227735374d3:
	.cfi_startproc
	mov	w3, w2
	mov	w2, #-1
	b	ic_raw.table.RawTable.refusal.05a19227735374d3
.Lfunc_end29:
	.size	ic_raw.table.refusal_at_end.05a19227735374d3, .Lfunc_end29-ic_raw.table.refusal_at_end.05a19227735374d3
	.cfi_endproc
	.section	.text.ic_raw.ring_calls.move_beside.5b268f449b4ebf83,"ax",@progbits
	.p2align	2
	.type	ic_raw.ring_calls.move_beside.5b268f449b4ebf83,@function
ic_raw.ring_calls.move_beside.5b268f449b4ebf83:
	.cfi_startproc
	adds	w16, w3, #1
	b.hs	.LBB30_2
	adds	w8, w4, #1
	b.lo	.LBB30_3
.LBB30_2:
	mov	w0, #4
	ret
.LBB30_3:
	mov	w9, #536870911
	cmp	x1, x9
	csel	x13, x1, x9, lo
	cmp	x13, x8
	b.lo	.LBB30_28
	ubfiz	x8, x8, #3, #32
	add	x9, x0, x8
	ldur	w14, [x9, #-8]
	tbz	w14, #0, .LBB30_28
	ldur	w11, [x9, #-4]
	and	x10, x11, #0xfffffff8
	cbz	w10, .LBB30_28
	lsr	w11, w11, #3
	cmp	x11, x13
	b.hi	.LBB30_28
	add	x11, x0, x10
	ldur	w12, [x11, #-8]
	tbz	w12, #0, .LBB30_28
	and	x12, x12, #0xfffffff8
	cmp	x8, x12
	b.ne	.LBB30_28
	and	x12, x14, #0xfffffff8
	cbz	w12, .LBB30_28
	lsr	w14, w14, #3
	cmp	x14, x13
	b.hi	.LBB30_28
	add	x14, x0, x12
	ldurb	w15, [x14, #-8]
	tbz	w15, #0, .LBB30_28
	ldur	w15, [x14, #-4]
	and	x15, x15, #0xfffffff8
	cmp	x8, x15
	b.ne	.LBB30_28
	ubfiz	x15, x16, #3, #32
	cmp	x15, x8
	b.ne	.LBB30_15
	mov	w0, wzr
	ret
.LBB30_15:
	cmp	x13, x16
	b.lo	.LBB30_28
	add	x16, x0, x15
	ldur	w17, [x16, #-8]
	tbz	w17, #0, .LBB30_28
	tbz	w2, #0, .LBB30_22
	ldur	w17, [x16, #-4]
	and	x16, x17, #0xfffffff8
	cbz	w16, .LBB30_28
	lsr	w17, w17, #3
	cmp	x17, x13
	b.hi	.LBB30_28
	add	x13, x0, x16
	ldur	w13, [x13, #-8]
	tbz	w13, #0, .LBB30_28
	and	x13, x13, #0xfffffff8
	cmp	x15, x13
	mov	x13, x16
	b.eq	.LBB30_26
	b	.LBB30_28
.LBB30_22:
	and	x16, x17, #0xfffffff8
	cbz	w16, .LBB30_28
	lsr	w17, w17, #3
	cmp	x17, x13
	b.hi	.LBB30_28
	add	x13, x0, x16
	ldurb	w17, [x13, #-8]
	tbz	w17, #0, .LBB30_28
	ldur	w13, [x13, #-4]
	and	x13, x13, #0xfffffff8
	cmp	x15, x13
	mov	x13, x15
	mov	x15, x16
	b.ne	.LBB30_28
.LBB30_26:
	cmp	x16, x8
	b.ne	.LBB30_29
	mov	w0, wzr
	ret
.LBB30_28:
	mov	w2, w3
	mov	w3, w4
	b	ic_raw.table.RawTable.refusal_at_both.05a19227735374d3
.LBB30_29:
	orr	w12, w12, #0x1
	stur	w12, [x11, #-8]
	stur	w10, [x14, #-4]
	orr	w10, w15, #0x1
	stp	w10, w13, [x9, #-8]
	add	x9, x0, x13
	orr	w10, w8, #0x1
	stur	w10, [x9, #-8]
	add	x9, x0, x15
	mov	w0, wzr
	stur	w8, [x9, #-4]
	ret
.Lfunc_end30:
	.size	ic_raw.ring_calls.move_beside.5b268f449b4ebf83, .Lfunc_end30-ic_raw.ring_calls.move_beside.5b268f449b4ebf83
	.cfi_endproc
	.section	.text.ic_raw.ring_calls.pop.5b268f449b4ebf83,"ax",@progbits
	.p2align	2
	.type	ic_raw.ring_calls.pop.5b268f449b4ebf83,@function
ic_raw.ring_calls.pop.5b268f449b4ebf83:
	.cfi_startproc
	adds	w8, w3, #1
	b.lo	.LBB31_2
	mov	w0, #4
	ret
.LBB31_2:
	sub	sp, sp, #32
	.cfi_def_cfa_offset 32
	stp	x29, x30, [sp, #16]
	add	x29, sp, #16
	.cfi_def_cfa w29, 16
	.cfi_offset w30, -8
	.cfi_offset w29, -16
	.cfi_remember_state
	mov	w9, #536870911
	cmp	x1, x9
	stp	x0, x1, [sp]
	csel	x9, x1, x9, lo
	ubfiz	x1, x8, #3, #32
	cmp	x9, x8
	b.lo	.LBB31_25
	add	x8, x0, x1
	ldur	w10, [x8, #-8]
	tbz	w10, #0, .LBB31_25
	tbz	w2, #0, .LBB31_9
	ldur	w10, [x8, #-4]
	and	x8, x10, #0xfffffff8
	cbz	w8, .LBB31_25
	lsr	w10, w10, #3
	cmp	x10, x9
	b.hi	.LBB31_25
	add	x10, x0, x8
	ldur	w10, [x10, #-8]
	tbz	w10, #0, .LBB31_25
	and	x11, x10, #0xfffffff8
	cmp	x1, x11
	b.eq	.LBB31_13
	b	.LBB31_25
.LBB31_9:
	and	x8, x10, #0xfffffff8
	cbz	w8, .LBB31_25
	lsr	w10, w10, #3
	cmp	x10, x9
	b.hi	.LBB31_25
	add	x11, x0, x8
	ldur	w10, [x11, #-8]
	tbz	w10, #0, .LBB31_25
	ldur	w11, [x11, #-4]
	and	x11, x11, #0xfffffff8
	cmp	x1, x11
	b.ne	.LBB31_25
.LBB31_13:
	cmp	x8, x1
	b.eq	.LBB31_25
	cmp	x9, x8, lsr #3
	b.lo	.LBB31_25
	tbz	w10, #0, .LBB31_25
	add	x11, x0, x8
	ldur	w13, [x11, #-4]
	and	x12, x13, #0xfffffff8
	cbz	w12, .LBB31_25
	lsr	w13, w13, #3
	cmp	x13, x9
	b.hi	.LBB31_25
	add	x13, x0, x12
	ldur	w14, [x13, #-8]
	tbz	w14, #0, .LBB31_25
	and	x14, x14, #0xfffffff8
	cmp	x8, x14
	b.ne	.LBB31_25
	ands	w10, w10, #0xfffffff8
	b.eq	.LBB31_25
	lsr	x14, x10, #3
	cmp	x14, x9
	b.hi	.LBB31_25
	add	x9, x0, x10
	ldurb	w14, [x9, #-8]
	tbz	w14, #0, .LBB31_25
	ldur	w14, [x9, #-4]
	and	x14, x14, #0xfffffff8
	cmp	x8, x14
	b.ne	.LBB31_25
	mov	w14, #-1
	mov	w0, wzr
	orr	w10, w10, #0x1
	add	x8, x14, x8, lsr #3
	stur	w10, [x13, #-8]
	stur	w12, [x9, #-4]
	stur	wzr, [x11, #-8]
	str	w8, [x4]
	.cfi_def_cfa wsp, 32
	ldp	x29, x30, [sp, #16]
	add	sp, sp, #32
	.cfi_def_cfa_offset 0
	.cfi_restore w30
	.cfi_restore w29
	ret
.LBB31_25:
	.cfi_restore_state
	mov	x0, sp
	bl	ic_raw.ring_calls.refusal_to_pop.5b268f449b4ebf83
	.cfi_def_cfa wsp, 32
	ldp	x29, x30, [sp, #16]
	add	sp, sp, #32
	.cfi_def_cfa_offset 0
	.cfi_restore w30
	.cfi_restore w29
	ret
.Lfunc_end31:
	.size	ic_raw.ring_calls.pop.5b268f449b4ebf83, .Lfunc_end31-ic_raw.ring_calls.pop.5b268f449b4ebf83
	.cfi_endproc
	.section	.text.unlikely.ic_raw.ring_calls.refusal_to_pop.5b268f449b4ebf83,"ax",@progbits
	.p2align	2
	.type	ic_raw.ring_calls.refusal_to_pop.5b268f449b4ebf83,@function
ic_raw.ring_calls.refusal_to_pop.5b268f449b4ebf83:
	.cfi_startproc
	ldr	x8, [x0, #8]
	mov	w9, #536870911
	cmp	x8, x9
	csel	x8, x8, x9, lo
	cmp	x8, x1, lsr #3
	b.lo	.LBB32_5
	ldr	x8, [x0]
	add	x8, x8, x1
	ldur	w9, [x8, #-8]
	tbz	w9, #0, .LBB32_5
	and	x9, x9, #0xfffffff8
	cmp	x1, x9
	b.ne	.LBB32_5
	ldur	w8, [x8, #-4]
	and	x8, x8, #0xfffffff8
	cmp	x1, x8
	b.ne	.LBB32_5
	mov	w0, #4
	ret
.LBB32_5:
	b	ic_raw.table.RawTable.refusal_of.05a19227735374d3
.Lfunc_end32:
	.size	ic_raw.ring_calls.refusal_to_pop.5b268f449b4ebf83, .Lfunc_end32-ic_raw.ring_calls.refusal_to_pop.5b268f449b4ebf83
	.cfi_endproc
	.section	.text.unlikely.ic_raw.table.RawTable.refusal_of.05a19227735374d3,"ax",@progbits
	.p2align	2
	.type	ic_raw.table.RawTable.refusal_of.05a19227735374d3,@function
ic_raw.table.RawTable.refusal_of.05a19227735374d3:
	.cfi_startproc
	ldr	x8, [x0, #8]
	mov	w9, #536870911
	cmp	x8, x9
	csel	x8, x8, x9, lo
	cmp	x8, x1, lsr #3
	b.hs	.LBB33_2
	mov	w0, #1
	ret
.LBB33_2:
	ldr	x8, [x0]
	mov	w9, #3
	add	x8, x8, x1
	ldurb	w8, [x8, #-8]
	tst	w8, #0x1
	mov	w8, #5
	csel	w0, w9, w8, eq
	ret
.Lfunc_end33:
	.size	ic_raw.table.RawTable.refusal_of.05a19227735374d3, .Lfunc_end33-ic_raw.table.RawTable.refusal_of.05a19227735374d3
	.cfi_endproc
	.section	.text.ic_raw.ring_calls.splice.5b268f449b4ebf83,"ax",@progbits
	.p2align	2
	.type	ic_raw.ring_calls.splice.5b268f449b4ebf83,@function
ic_raw.ring_calls.splice.5b268f449b4ebf83:
	.cfi_startproc
	adds	w15, w3, #1
	b.hs	.LBB34_2
	adds	w8, w4, #1
	b.lo	.LBB34_3
.LBB34_2:
	mov	w0, #4
	ret
.LBB34_3:
	mov	w9, #536870911
	cmp	x1, x9
	csel	x14, x1, x9, lo
	cmp	x14, x8
	b.lo	.LBB34_28
	ubfiz	x9, x8, #3, #32
	add	x8, x0, x9
	ldur	w13, [x8, #-8]
	tbz	w13, #0, .LBB34_28
	ldur	w11, [x8, #-4]
	and	x10, x11, #0xfffffff8
	cbz	w10, .LBB34_28
	lsr	w11, w11, #3
	cmp	x11, x14
	b.hi	.LBB34_28
	add	x11, x0, x10
	ldur	w12, [x11, #-8]
	tbz	w12, #0, .LBB34_28
	and	x12, x12, #0xfffffff8
	cmp	x9, x12
	b.ne	.LBB34_28
	and	x12, x13, #0xfffffff8
	cbz	w12, .LBB34_28
	lsr	w13, w13, #3
	cmp	x13, x14
	b.hi	.LBB34_28
	add	x13, x0, x12
	ldurb	w16, [x13, #-8]
	tbz	w16, #0, .LBB34_28
	ldur	w16, [x13, #-4]
	and	x16, x16, #0xfffffff8
	cmp	x9, x16
	b.ne	.LBB34_28
	cmp	x14, x15
	b.lo	.LBB34_28
	ubfiz	x15, x15, #3, #32
	add	x17, x0, x15
	ldur	w16, [x17, #-8]
	tbz	w16, #0, .LBB34_28
	tbz	w2, #0, .LBB34_20
	ldur	w17, [x17, #-4]
	and	x16, x17, #0xfffffff8
	cbz	w16, .LBB34_28
	lsr	w17, w17, #3
	cmp	x17, x14
	b.hi	.LBB34_28
	add	x14, x0, x16
	ldur	w14, [x14, #-8]
	tbz	w14, #0, .LBB34_28
	and	x14, x14, #0xfffffff8
	cmp	x15, x14
	b.eq	.LBB34_24
	b	.LBB34_28
.LBB34_20:
	and	x17, x16, #0xfffffff8
	cbz	w17, .LBB34_28
	lsr	w16, w16, #3
	cmp	x16, x14
	b.hi	.LBB34_28
	add	x14, x0, x17
	ldurb	w16, [x14, #-8]
	tbz	w16, #0, .LBB34_28
	ldur	w14, [x14, #-4]
	mov	x16, x15
	and	x14, x14, #0xfffffff8
	cmp	x15, x14
	mov	x15, x17
	b.ne	.LBB34_28
.LBB34_24:
	cmp	x16, x9
	b.eq	.LBB34_28
	cmp	x16, x10
	b.eq	.LBB34_28
	cmp	x9, x10
	b.ne	.LBB34_29
	mov	w0, wzr
	ret
.LBB34_28:
	mov	w2, w3
	mov	w3, w4
	b	ic_raw.table.RawTable.refusal_at_both.05a19227735374d3
.LBB34_29:
	orr	w12, w12, #0x1
	add	x17, x0, x16
	stur	w12, [x17, #-8]
	orr	w12, w15, #0x1
	stur	w16, [x13, #-4]
	stur	w12, [x11, #-8]
	add	x11, x0, x15
	mov	w0, wzr
	stur	w10, [x11, #-4]
	orr	w10, w9, #0x1
	stp	w10, w9, [x8, #-8]
	ret
.Lfunc_end34:
	.size	ic_raw.ring_calls.splice.5b268f449b4ebf83, .Lfunc_end34-ic_raw.ring_calls.splice.5b268f449b4ebf83
	.cfi_endproc
	.section	.text.unlikely.ic_raw.table.RawTable.refusal_of.5f318a721acb0238,"ax",@progbits
	.p2align	2
	.type	ic_raw.table.RawTable.refusal_of.5f318a721acb0238,@function
ic_raw.table.RawTable.refusal_of.5f318a721acb0238:
	.cfi_startproc
	cmp	x1, x2, lsr #3
	b.hs	.LBB35_2
	mov	w0, #1
	ret
.LBB35_2:
	add	x8, x0, x2, lsl #1
	mov	w9, #3
	ldurb	w8, [x8, #-16]
	tst	w8, #0x1
	mov	w8, #5
	csel	w0, w9, w8, eq
	ret
.Lfunc_end35:
	.size	ic_raw.table.RawTable.refusal_of.5f318a721acb0238, .Lfunc_end35-ic_raw.table.RawTable.refusal_of.5f318a721acb0238
	.cfi_endproc
	.section	.text.unlikely.ic_raw.table.refusal_at_end.85cd03e557136797,"ax",@progbits
	.p2align	2
	.type	ic_raw.table.refusal_at_end.85cd03e557136797,@function
ic_raw.table.refusal_at_end.85cd03e557136797:
	.cfi_startproc
	mov	w3, w2
	mov	w2, #-1
	b	ic_raw.table.RawTable.refusal.85cd03e557136797
.Lfunc_end36:
	.size	ic_raw.table.refusal_at_end.85cd03e557136797, .Lfunc_end36-ic_raw.table.refusal_at_end.85cd03e557136797
	.cfi_endproc
	.section	.text.unlikely.ic_raw_lists.ring_sort_calls.refusal_at_both,"ax",@progbits
	.p2align	2
	.type	ic_raw_lists.ring_sort_calls.refusal_at_both,@function
ic_raw_lists.ring_sort_calls.refusal_at_both:
	.cfi_startproc
	ldr	x8, [x0, #8]
	cmp	x8, x2, lsr #3
	b.hs	.LBB37_2
	mov	w0, #1
	ret
.LBB37_2:
	ldr	x8, [x0]
	add	x8, x8, x2, lsl #1
	ldurb	w8, [x8, #-16]
	tbnz	w8, #0, .LBB37_4
	mov	w0, #3
	ret
.LBB37_4:
	mov	x2, x3
	b	ic_raw_lists.ring_sort_calls.refusal_at
.Lfunc_end37:
	.size	ic_raw_lists.ring_sort_calls.refusal_at_both, .Lfunc_end37-ic_raw_lists.ring_sort_calls.refusal_at_both
	.cfi_endproc
	.section	.text.unlikely.ic_raw_lists.ring_sort_calls.refusal_at,"ax",@progbits
	.p2align	2
	.type	ic_raw_lists.ring_sort_calls.refusal_at,@function
ic_raw_lists.ring_sort_calls.refusal_at:
	.cfi_startproc
	mov	x8, x0
	ldr	x0, [x0, #8]
	cmp	x0, x2, lsr #3
	b.hs	.LBB38_2
	mov	w0, #1
	ret
.LBB38_2:
	ldr	x8, [x8]
	add	x8, x8, x2, lsl #1
	ldurb	w8, [x8, #-16]
	tbnz	w8, #0, .LBB38_4
	mov	w0, #3
	ret
.LBB38_4:
	b	ic_raw.sort_calls.refusal.5f318a721acb0238
.Lfunc_end38:
	.size	ic_raw_lists.ring_sort_calls.refusal_at, .Lfunc_end38-ic_raw_lists.ring_sort_calls.refusal_at
	.cfi_endproc
	.section	.text.unlikely.ic_raw.sort_calls.refusal.5f318a721acb0238,"ax",@progbits
	.p2align	2
	.type	ic_raw.sort_calls.refusal.5f318a721acb0238,@function
ic_raw.sort_calls.refusal.5f318a721acb0238:
	.cfi_startproc
	mov	w8, #5
	cmp	x1, x0
	csinc	w0, w8, wzr, hs
	ret
.Lfunc_end39:
	.size	ic_raw.sort_calls.refusal.5f318a721acb0238, .Lfunc_end39-ic_raw.sort_calls.refusal.5f318a721acb0238
	.cfi_endproc
	.section	.text.ic_list_algorithms.merge.merge_runs.e8da022ef74ca9e6,"ax",@progbits
	.p2align	2
	.type	ic_list_algorithms.merge.merge_runs.e8da022ef74ca9e6,@function
ic_list_algorithms.merge.merge_runs.e8da022ef74ca9e6:
	.cfi_startproc
	ldr	x9, [x1]
	ldr	x8, [x0]
	add	x10, x9, x3
	add	x9, x9, x2
	ldur	x10, [x10, #-8]
	ldur	x9, [x9, #-8]
	cmp	x10, x9
	b.hs	.LBB40_3
	add	x8, x8, x3, lsl #1
	ldur	x9, [x8, #-16]
	ands	x9, x9, #0xffffffff8
	b.eq	.LBB40_10
	mov	x4, x3
	mov	x3, x9
	mov	x8, x4
	b	.LBB40_6
.LBB40_3:
	add	x8, x8, x2, lsl #1
	ldur	x9, [x8, #-16]
	ands	x9, x9, #0xffffffff8
	b.eq	.LBB40_11
	mov	x4, x2
	mov	x2, x9
	mov	x8, x4
	b	.LBB40_6
.LBB40_5:
	add	x10, x10, x8, lsl #1
	ldur	x10, [x10, #-16]
	ands	x2, x10, #0xffffffff8
	orr	x10, x8, #0x1
	stur	x10, [x9, #-16]
	b.eq	.LBB40_12
.LBB40_6:
	mov	x10, x3
	mov	x3, x8
	mov	x8, x2
.LBB40_7:
	ldr	x9, [x1]
	mov	x11, x3
	mov	x3, x10
	add	x10, x9, x10
	add	x9, x9, x8
	ldur	x12, [x10, #-8]
	ldr	x10, [x0]
	ldur	x13, [x9, #-8]
	add	x9, x10, x11, lsl #1
	cmp	x12, x13
	b.hs	.LBB40_5
	add	x10, x10, x3, lsl #1
	orr	x11, x3, #0x1
	ldur	x10, [x10, #-16]
	stur	x11, [x9, #-16]
	ands	x10, x10, #0xffffffff8
	b.ne	.LBB40_7
	ldr	x9, [x0]
	add	x8, x8, #1
	add	x9, x9, x3, lsl #1
	stur	x8, [x9, #-16]
	mov	x0, x4
	ret
.LBB40_10:
	orr	x9, x2, #0x1
	mov	x0, x3
	stur	x9, [x8, #-16]
	ret
.LBB40_11:
	orr	x9, x3, #0x1
	mov	x0, x2
	stur	x9, [x8, #-16]
	ret
.LBB40_12:
	ldr	x9, [x0]
	add	x8, x9, x8, lsl #1
	add	x9, x3, #1
	stur	x9, [x8, #-16]
	mov	x0, x4
	ret
.Lfunc_end40:
	.size	ic_list_algorithms.merge.merge_runs.e8da022ef74ca9e6, .Lfunc_end40-ic_list_algorithms.merge.merge_runs.e8da022ef74ca9e6
	.cfi_endproc
	.section	.text.ic_raw.ring_calls.move_beside.354f48d5d890d6b4,"ax",@progbits
	.p2align	2
	.type	ic_raw.ring_calls.move_beside.354f48d5d890d6b4,@function
ic_raw.ring_calls.move_beside.354f48d5d890d6b4:
	.cfi_startproc
	adds	w15, w3, #1
	b.hs	.LBB41_2
	adds	w10, w4, #1
	b.lo	.LBB41_3
.LBB41_2:
	mov	w0, #4
	ret
.LBB41_3:
	cmp	x1, x10
	b.lo	.LBB41_28
	add	x8, x0, x10, lsl #4
	ldur	x13, [x8, #-16]
	tbz	w13, #0, .LBB41_28
	ldur	x11, [x8, #-8]
	ands	x9, x11, #0xffffffff8
	b.eq	.LBB41_28
	ubfx	x11, x11, #3, #33
	cmp	x11, x1
	b.hi	.LBB41_28
	add	x11, x0, x9, lsl #1
	ldur	x12, [x11, #-16]
	tbz	w12, #0, .LBB41_28
	ubfiz	x10, x10, #3, #32
	and	x12, x12, #0xffffffff8
	cmp	x12, x10
	b.ne	.LBB41_28
	ands	x12, x13, #0xffffffff8
	b.eq	.LBB41_28
	ubfx	x13, x13, #3, #33
	cmp	x13, x1
	b.hi	.LBB41_28
	add	x13, x0, x12, lsl #1
	ldurb	w14, [x13, #-16]
	tbz	w14, #0, .LBB41_28
	ldur	x14, [x13, #-8]
	and	x14, x14, #0xffffffff8
	cmp	x14, x10
	b.ne	.LBB41_28
	ubfiz	x14, x15, #3, #32
	cmp	x14, x10
	b.ne	.LBB41_15
	mov	w0, wzr
	ret
.LBB41_15:
	cmp	x1, x15
	b.lo	.LBB41_28
	add	x15, x0, x15, lsl #4
	ldur	x16, [x15, #-16]
	tbz	w16, #0, .LBB41_28
	tbz	w2, #0, .LBB41_22
	ldur	x16, [x15, #-8]
	ands	x15, x16, #0xffffffff8
	b.eq	.LBB41_28
	ubfx	x16, x16, #3, #33
	cmp	x16, x1
	b.hi	.LBB41_28
	add	x16, x0, x15, lsl #1
	ldur	x16, [x16, #-16]
	tbz	w16, #0, .LBB41_28
	and	x16, x16, #0xffffffff8
	cmp	x16, x14
	mov	x16, x15
	b.eq	.LBB41_26
	b	.LBB41_28
.LBB41_22:
	ands	x15, x16, #0xffffffff8
	b.eq	.LBB41_28
	ubfx	x16, x16, #3, #33
	cmp	x16, x1
	b.hi	.LBB41_28
	add	x16, x0, x15, lsl #1
	ldurb	w17, [x16, #-16]
	tbz	w17, #0, .LBB41_28
	ldur	x16, [x16, #-8]
	and	x16, x16, #0xffffffff8
	cmp	x16, x14
	mov	x16, x14
	mov	x14, x15
	b.ne	.LBB41_28
.LBB41_26:
	cmp	x15, x10
	b.ne	.LBB41_29
	mov	w0, wzr
	ret
.LBB41_28:
	mov	w2, w3
	mov	w3, w4
	b	ic_raw.table.RawTable.refusal_at_both.85cd03e557136797
.LBB41_29:
	orr	x12, x12, #0x1
	stur	x12, [x11, #-16]
	add	x11, x0, x16, lsl #1
	stur	x9, [x13, #-8]
	orr	x9, x14, #0x1
	stp	x9, x16, [x8, #-16]
	add	x9, x0, x14, lsl #1
	orr	x8, x10, #0x1
	mov	w0, wzr
	stur	x8, [x11, #-16]
	stur	x10, [x9, #-8]
	ret
.Lfunc_end41:
	.size	ic_raw.ring_calls.move_beside.354f48d5d890d6b4, .Lfunc_end41-ic_raw.ring_calls.move_beside.354f48d5d890d6b4
	.cfi_endproc
	.section	.text.ic_raw.ring_calls.pop.354f48d5d890d6b4,"ax",@progbits
	.p2align	2
	.type	ic_raw.ring_calls.pop.354f48d5d890d6b4,@function
ic_raw.ring_calls.pop.354f48d5d890d6b4:
	.cfi_startproc
	adds	w9, w3, #1
	b.lo	.LBB42_2
	mov	w0, #4
	ret
.LBB42_2:
	sub	sp, sp, #32
	.cfi_def_cfa_offset 32
	stp	x29, x30, [sp, #16]
	add	x29, sp, #16
	.cfi_def_cfa w29, 16
	.cfi_offset w30, -8
	.cfi_offset w29, -16
	.cfi_remember_state
	mov	x8, x1
	ubfiz	x1, x9, #3, #32
	cmp	x8, x9
	stp	x0, x8, [sp]
	b.lo	.LBB42_25
	add	x10, x0, x9, lsl #4
	ldur	x9, [x10, #-16]
	tbz	w9, #0, .LBB42_25
	tbz	w2, #0, .LBB42_9
	ldur	x9, [x10, #-8]
	ands	x10, x9, #0xffffffff8
	b.eq	.LBB42_25
	ubfx	x9, x9, #3, #33
	cmp	x9, x8
	b.hi	.LBB42_25
	add	x11, x0, x10, lsl #1
	ldur	x11, [x11, #-16]
	tbz	w11, #0, .LBB42_25
	and	x11, x11, #0xffffffff8
	cmp	x11, x1
	b.eq	.LBB42_13
	b	.LBB42_25
.LBB42_9:
	ands	x10, x9, #0xffffffff8
	b.eq	.LBB42_25
	ubfx	x9, x9, #3, #33
	cmp	x9, x8
	b.hi	.LBB42_25
	add	x11, x0, x10, lsl #1
	ldurb	w12, [x11, #-16]
	tbz	w12, #0, .LBB42_25
	ldur	x11, [x11, #-8]
	and	x11, x11, #0xffffffff8
	cmp	x11, x1
	b.ne	.LBB42_25
.LBB42_13:
	cmp	x10, x1
	b.eq	.LBB42_25
	cmp	x9, x8
	b.hi	.LBB42_25
	add	x11, x0, x10, lsl #1
	ldur	x14, [x11, #-16]
	tbz	w14, #0, .LBB42_25
	ldur	x13, [x11, #-8]
	ands	x12, x13, #0xffffffff8
	b.eq	.LBB42_25
	ubfx	x13, x13, #3, #33
	cmp	x13, x8
	b.hi	.LBB42_25
	add	x13, x0, x12, lsl #1
	ldur	x15, [x13, #-16]
	tbz	w15, #0, .LBB42_25
	and	x15, x15, #0xffffffff8
	cmp	x15, x10
	b.ne	.LBB42_25
	ands	x15, x14, #0xffffffff8
	b.eq	.LBB42_25
	ubfx	x14, x14, #3, #33
	cmp	x14, x8
	b.hi	.LBB42_25
	add	x8, x0, x15, lsl #1
	ldurb	w14, [x8, #-16]
	tbz	w14, #0, .LBB42_25
	ldur	x14, [x8, #-8]
	and	x14, x14, #0xffffffff8
	cmp	x14, x10
	b.ne	.LBB42_25
	orr	x10, x15, #0x1
	mov	w0, wzr
	stur	x10, [x13, #-16]
	stur	x12, [x8, #-8]
	sub	w8, w9, #1
	stur	xzr, [x11, #-16]
	str	w8, [x4]
	.cfi_def_cfa wsp, 32
	ldp	x29, x30, [sp, #16]
	add	sp, sp, #32
	.cfi_def_cfa_offset 0
	.cfi_restore w30
	.cfi_restore w29
	ret
.LBB42_25:
	.cfi_restore_state
	mov	x0, sp
	bl	ic_raw.ring_calls.refusal_to_pop.354f48d5d890d6b4
	.cfi_def_cfa wsp, 32
	ldp	x29, x30, [sp, #16]
	add	sp, sp, #32
	.cfi_def_cfa_offset 0
	.cfi_restore w30
	.cfi_restore w29
	ret
.Lfunc_end42:
	.size	ic_raw.ring_calls.pop.354f48d5d890d6b4, .Lfunc_end42-ic_raw.ring_calls.pop.354f48d5d890d6b4
	.cfi_endproc
	.section	.text.unlikely.ic_raw.ring_calls.refusal_to_pop.354f48d5d890d6b4,"ax",@progbits
	.p2align	2
	.type	ic_raw.ring_calls.refusal_to_pop.354f48d5d890d6b4,@function
ic_raw.ring_calls.refusal_to_pop.354f48d5d890d6b4:
	.cfi_startproc
	ldr	x8, [x0, #8]
	cmp	x8, x1, lsr #3
	b.lo	.LBB43_5
	ldr	x8, [x0]
	add	x8, x8, x1, lsl #1
	ldur	x9, [x8, #-16]
	tbz	w9, #0, .LBB43_5
	and	x9, x9, #0xffffffff8
	cmp	x9, x1
	b.ne	.LBB43_5
	ldur	x8, [x8, #-8]
	and	x8, x8, #0xffffffff8
	cmp	x8, x1
	b.ne	.LBB43_5
	mov	w0, #4
	ret
.LBB43_5:
	b	ic_raw.table.RawTable.refusal_of.85cd03e557136797
.Lfunc_end43:
	.size	ic_raw.ring_calls.refusal_to_pop.354f48d5d890d6b4, .Lfunc_end43-ic_raw.ring_calls.refusal_to_pop.354f48d5d890d6b4
	.cfi_endproc
	.section	.text.unlikely.ic_raw.table.RawTable.refusal_of.85cd03e557136797,"ax",@progbits
	.p2align	2
	.type	ic_raw.table.RawTable.refusal_of.85cd03e557136797,@function
ic_raw.table.RawTable.refusal_of.85cd03e557136797:
	.cfi_startproc
	ldr	x8, [x0, #8]
	cmp	x8, x1, lsr #3
	b.hs	.LBB44_2
	mov	w0, #1
	ret
.LBB44_2:
	ldr	x8, [x0]
	mov	w9, #3
	add	x8, x8, x1, lsl #1
	ldurb	w8, [x8, #-16]
	tst	w8, #0x1
	mov	w8, #5
	csel	w0, w9, w8, eq
	ret
.Lfunc_end44:
	.size	ic_raw.table.RawTable.refusal_of.85cd03e557136797, .Lfunc_end44-ic_raw.table.RawTable.refusal_of.85cd03e557136797
	.cfi_endproc
	.section	.text.ic_list_algorithms.sort.sort_front.e8da022ef74ca9e6,"ax",@progbits
	.p2align	2
	.type	ic_list_algorithms.sort.sort_front.e8da022ef74ca9e6,@function
ic_list_algorithms.sort.sort_front.e8da022ef74ca9e6:
	.cfi_startproc
	sub	sp, sp, #112
	.cfi_def_cfa_offset 112
	stp	x29, x30, [sp, #48]
	stp	x24, x23, [sp, #64]
	stp	x22, x21, [sp, #80]
	stp	x20, x19, [sp, #96]
	add	x29, sp, #48
	.cfi_def_cfa w29, 64
	.cfi_offset w19, -8
	.cfi_offset w20, -16
	.cfi_offset w21, -24
	.cfi_offset w22, -32
	.cfi_offset w23, -40
	.cfi_offset w24, -48
	.cfi_offset w30, -56
	.cfi_offset w29, -64
	.cfi_remember_state
	mov	x19, x0
	cbz	x4, .LBB45_4
	subs	x20, x4, #1
	b.ne	.LBB45_5
	ldr	x8, [x1]
	mov	w10, #1
	add	x9, x8, x3, lsl #1
	ldur	x8, [x9, #-16]
	stur	x10, [x9, #-16]
	ands	x8, x8, #0xffffffff8
	b.eq	.LBB45_8
	ldr	x9, [x1]
	mov	x0, x1
	mov	x1, x2
	mov	x2, x3
	mov	x3, x8
	add	x9, x9, x8, lsl #1
	ldur	x10, [x9, #-16]
	ands	x20, x10, #0xffffffff8
	mov	w10, #1
	cset	w21, ne
	stur	x10, [x9, #-16]
	bl	ic_list_algorithms.merge.merge_runs.e8da022ef74ca9e6
	stp	x0, x21, [x19]
	str	x20, [x19, #16]
	.cfi_def_cfa wsp, 112
	ldp	x20, x19, [sp, #96]
	ldp	x22, x21, [sp, #80]
	ldp	x24, x23, [sp, #64]
	ldp	x29, x30, [sp, #48]
	add	sp, sp, #112
	.cfi_def_cfa_offset 0
	.cfi_restore w19
	.cfi_restore w20
	.cfi_restore w21
	.cfi_restore w22
	.cfi_restore w23
	.cfi_restore w24
	.cfi_restore w30
	.cfi_restore w29
	ret
.LBB45_4:
	.cfi_restore_state
	.cfi_remember_state
	ldr	x8, [x1]
	mov	w10, #1
	add	x8, x8, x3, lsl #1
	ldur	x9, [x8, #-16]
	stur	x10, [x8, #-16]
	ands	x8, x9, #0xffffffff8
	cset	w9, ne
	str	x8, [x19, #16]
	stp	x3, x9, [x19]
	.cfi_def_cfa wsp, 112
	ldp	x20, x19, [sp, #96]
	ldp	x22, x21, [sp, #80]
	ldp	x24, x23, [sp, #64]
	ldp	x29, x30, [sp, #48]
	add	sp, sp, #112
	.cfi_def_cfa_offset 0
	.cfi_restore w19
	.cfi_restore w20
	.cfi_restore w21
	.cfi_restore w22
	.cfi_restore w23
	.cfi_restore w24
	.cfi_restore w30
	.cfi_restore w29
	ret
.LBB45_5:
	.cfi_restore_state
	.cfi_remember_state
	add	x0, sp, #24
	mov	x4, x20
	mov	x22, x1
	mov	x23, x2
	bl	ic_list_algorithms.sort.sort_front.e8da022ef74ca9e6
	ldrb	w8, [sp, #32]
	ldr	x21, [sp, #24]
	cmp	w8, #1
	b.ne	.LBB45_7
	ldr	x3, [sp, #40]
	mov	x0, sp
	mov	x1, x22
	mov	x2, x23
	mov	x4, x20
	bl	ic_list_algorithms.sort.sort_front.e8da022ef74ca9e6
	ldr	x3, [sp]
	ldrb	w20, [sp, #8]
	mov	x0, x22
	ldr	x24, [sp, #16]
	mov	x1, x23
	mov	x2, x21
	bl	ic_list_algorithms.merge.merge_runs.e8da022ef74ca9e6
	stp	x0, x20, [x19]
	str	x24, [x19, #16]
	.cfi_def_cfa wsp, 112
	ldp	x20, x19, [sp, #96]
	ldp	x22, x21, [sp, #80]
	ldp	x24, x23, [sp, #64]
	ldp	x29, x30, [sp, #48]
	add	sp, sp, #112
	.cfi_def_cfa_offset 0
	.cfi_restore w19
	.cfi_restore w20
	.cfi_restore w21
	.cfi_restore w22
	.cfi_restore w23
	.cfi_restore w24
	.cfi_restore w30
	.cfi_restore w29
	ret
.LBB45_7:
	.cfi_restore_state
	str	x21, [x19]
	b	.LBB45_9
.LBB45_8:
	str	x3, [x19]
.LBB45_9:
	stp	xzr, xzr, [x19, #8]
	.cfi_def_cfa wsp, 112
	ldp	x20, x19, [sp, #96]
	ldp	x22, x21, [sp, #80]
	ldp	x24, x23, [sp, #64]
	ldp	x29, x30, [sp, #48]
	add	sp, sp, #112
	.cfi_def_cfa_offset 0
	.cfi_restore w19
	.cfi_restore w20
	.cfi_restore w21
	.cfi_restore w22
	.cfi_restore w23
	.cfi_restore w24
	.cfi_restore w30
	.cfi_restore w29
	ret
.Lfunc_end45:
	.size	ic_list_algorithms.sort.sort_front.e8da022ef74ca9e6, .Lfunc_end45-ic_list_algorithms.sort.sort_front.e8da022ef74ca9e6
	.cfi_endproc
	.section	.text.ic_raw.ring_calls.splice.354f48d5d890d6b4,"ax",@progbits
	.p2align	2
	.type	ic_raw.ring_calls.splice.354f48d5d890d6b4,@function
ic_raw.ring_calls.splice.354f48d5d890d6b4:
	.cfi_startproc
	adds	w14, w3, #1
	b.hs	.LBB46_2
	adds	w11, w4, #1
	b.lo	.LBB46_3
.LBB46_2:
	mov	w0, #4
	ret
.LBB46_3:
	cmp	x1, x11
	b.lo	.LBB46_28
	add	x8, x0, x11, lsl #4
	ldur	x13, [x8, #-16]
	tbz	w13, #0, .LBB46_28
	ldur	x10, [x8, #-8]
	ands	x9, x10, #0xffffffff8
	b.eq	.LBB46_28
	ubfx	x10, x10, #3, #33
	cmp	x10, x1
	b.hi	.LBB46_28
	add	x10, x0, x9, lsl #1
	ldur	x12, [x10, #-16]
	tbz	w12, #0, .LBB46_28
	ubfiz	x11, x11, #3, #32
	and	x12, x12, #0xffffffff8
	cmp	x12, x11
	b.ne	.LBB46_28
	ands	x12, x13, #0xffffffff8
	b.eq	.LBB46_28
	ubfx	x13, x13, #3, #33
	cmp	x13, x1
	b.hi	.LBB46_28
	add	x13, x0, x12, lsl #1
	ldurb	w15, [x13, #-16]
	tbz	w15, #0, .LBB46_28
	cmp	x1, x14
	b.lo	.LBB46_28
	ldur	x15, [x13, #-8]
	and	x15, x15, #0xffffffff8
	cmp	x15, x11
	b.ne	.LBB46_28
	add	x16, x0, x14, lsl #4
	ldur	x15, [x16, #-16]
	tbz	w15, #0, .LBB46_28
	ubfiz	x14, x14, #3, #32
	tbz	w2, #0, .LBB46_20
	ldur	x16, [x16, #-8]
	ands	x15, x16, #0xffffffff8
	b.eq	.LBB46_28
	ubfx	x16, x16, #3, #33
	cmp	x16, x1
	b.hi	.LBB46_28
	add	x16, x0, x15, lsl #1
	ldur	x16, [x16, #-16]
	tbz	w16, #0, .LBB46_28
	and	x16, x16, #0xffffffff8
	cmp	x16, x14
	b.eq	.LBB46_24
	b	.LBB46_28
.LBB46_20:
	ands	x16, x15, #0xffffffff8
	b.eq	.LBB46_28
	ubfx	x15, x15, #3, #33
	cmp	x15, x1
	b.hi	.LBB46_28
	add	x15, x0, x16, lsl #1
	ldurb	w17, [x15, #-16]
	tbz	w17, #0, .LBB46_28
	ldur	x15, [x15, #-8]
	and	x15, x15, #0xffffffff8
	cmp	x15, x14
	mov	x15, x14
	mov	x14, x16
	b.ne	.LBB46_28
.LBB46_24:
	cmp	x15, x11
	b.eq	.LBB46_28
	cmp	x15, x9
	b.eq	.LBB46_28
	cmp	x9, x11
	b.ne	.LBB46_29
	mov	w0, wzr
	ret
.LBB46_28:
	mov	w2, w3
	mov	w3, w4
	b	ic_raw.table.RawTable.refusal_at_both.85cd03e557136797
.LBB46_29:
	add	x17, x0, x15, lsl #1
	orr	x12, x12, #0x1
	stur	x12, [x17, #-16]
	orr	x12, x14, #0x1
	add	x14, x0, x14, lsl #1
	mov	w0, wzr
	stur	x15, [x13, #-8]
	stur	x12, [x10, #-16]
	stur	x9, [x14, #-8]
	orr	x9, x11, #0x1
	stp	x9, x11, [x8, #-16]
	ret
.Lfunc_end46:
	.size	ic_raw.ring_calls.splice.354f48d5d890d6b4, .Lfunc_end46-ic_raw.ring_calls.splice.354f48d5d890d6b4
	.cfi_endproc
	.section	.text.unlikely.ic_raw.sort_calls.refusal.1b4d7615ba81168a,"ax",@progbits
	.p2align	2
	.type	ic_raw.sort_calls.refusal.1b4d7615ba81168a,@function
ic_raw.sort_calls.refusal.1b4d7615ba81168a:
	.cfi_startproc
	mov	w8, #5
	cmp	x1, x0
	csinc	w0, w8, wzr, hs
	ret
.Lfunc_end47:
	.size	ic_raw.sort_calls.refusal.1b4d7615ba81168a, .Lfunc_end47-ic_raw.sort_calls.refusal.1b4d7615ba81168a
	.cfi_endproc
	.section	.text.ic_list_algorithms.merge.merge_runs.07d679d1abf7571e,"ax",@progbits
	.p2align	2
	.type	ic_list_algorithms.merge.merge_runs.07d679d1abf7571e,@function
ic_list_algorithms.merge.merge_runs.07d679d1abf7571e:
	.cfi_startproc
	ldr	x9, [x1]
	ldr	x8, [x0]
	add	x10, x9, x3
	add	x9, x9, x2
	ldur	x10, [x10, #-8]
	ldur	x9, [x9, #-8]
	cmp	x10, x9
	b.hs	.LBB48_3
	add	x8, x8, x3
	ldur	x9, [x8, #-8]
	ands	x9, x9, #0xffffffff8
	b.eq	.LBB48_10
	mov	x4, x3
	mov	x3, x9
	mov	x8, x4
	b	.LBB48_6
.LBB48_3:
	add	x8, x8, x2
	ldur	x9, [x8, #-8]
	ands	x9, x9, #0xffffffff8
	b.eq	.LBB48_11
	mov	x4, x2
	mov	x2, x9
	mov	x8, x4
	b	.LBB48_6
.LBB48_5:
	add	x9, x9, x8
	ldur	x9, [x9, #-8]
	ands	x2, x9, #0xffffffff8
	orr	x9, x8, #0x1
	stur	x9, [x10, #-8]
	b.eq	.LBB48_12
.LBB48_6:
	mov	x9, x3
	mov	x3, x8
	mov	x8, x2
.LBB48_7:
	ldr	x10, [x1]
	mov	x11, x3
	mov	x3, x9
	add	x9, x10, x9
	add	x10, x10, x8
	ldur	x12, [x9, #-8]
	ldur	x10, [x10, #-8]
	ldr	x9, [x0]
	cmp	x12, x10
	add	x10, x9, x11
	b.hs	.LBB48_5
	add	x9, x9, x3
	orr	x11, x3, #0x1
	ldur	x9, [x9, #-8]
	stur	x11, [x10, #-8]
	ands	x9, x9, #0xffffffff8
	b.ne	.LBB48_7
	ldr	x9, [x0]
	add	x8, x8, #1
	add	x9, x9, x3
	stur	x8, [x9, #-8]
	mov	x0, x4
	ret
.LBB48_10:
	orr	x9, x2, #0x1
	mov	x0, x3
	stur	x9, [x8, #-8]
	ret
.LBB48_11:
	orr	x9, x3, #0x1
	mov	x0, x2
	stur	x9, [x8, #-8]
	ret
.LBB48_12:
	ldr	x9, [x0]
	add	x8, x9, x8
	add	x9, x3, #1
	stur	x9, [x8, #-8]
	mov	x0, x4
	ret
.Lfunc_end48:
	.size	ic_list_algorithms.merge.merge_runs.07d679d1abf7571e, .Lfunc_end48-ic_list_algorithms.merge.merge_runs.07d679d1abf7571e
	.cfi_endproc
	.section	.text.unlikely.ic_raw.stack_calls.pop_front_slow,"ax",@progbits
	.p2align	2
	.type	ic_raw.stack_calls.pop_front_slow,@function
ic_raw.stack_calls.pop_front_slow:
	.cfi_startproc
	ldr	x8, [x2]
	ands	x8, x8, #0xffffffff8
	b.eq	.LBB49_4
	cmp	x1, x8, lsr #3
	b.lo	.LBB49_5
	add	x9, x0, x8
	ldur	x10, [x9, #-8]
	tbz	w10, #0, .LBB49_5
	mov	w11, #-1
	mov	w0, wzr
	and	x10, x10, #0xffffffff8
	add	x8, x11, x8, lsr #3
	stur	xzr, [x9, #-8]
	str	x10, [x2]
	str	w8, [x3]
	ret
.LBB49_4:
	mov	w0, #4
	ret
.LBB49_5:
	mov	w2, #-1
	b	ic_raw.table.RawTable.refusal_at.feecb86c9dd45d96
.Lfunc_end49:
	.size	ic_raw.stack_calls.pop_front_slow, .Lfunc_end49-ic_raw.stack_calls.pop_front_slow
	.cfi_endproc
	.section	.text.unlikely.ic_raw.table.RawTable.refusal_at.feecb86c9dd45d96,"ax",@progbits
	.p2align	2
	.type	ic_raw.table.RawTable.refusal_at.feecb86c9dd45d96,@function
ic_raw.table.RawTable.refusal_at.feecb86c9dd45d96:
	.cfi_startproc
	adds	w8, w2, #1
	b.lo	.LBB50_2
	mov	w0, #5
	ret
.LBB50_2:
	cmp	x1, x8
	b.hs	.LBB50_4
	mov	w0, #1
	ret
.LBB50_4:
	ubfiz	x8, x8, #3, #32
	mov	w9, #3
	add	x8, x0, x8
	ldurb	w8, [x8, #-8]
	tst	w8, #0x1
	mov	w8, #5
	csel	w0, w9, w8, eq
	ret
.Lfunc_end50:
	.size	ic_raw.table.RawTable.refusal_at.feecb86c9dd45d96, .Lfunc_end50-ic_raw.table.RawTable.refusal_at.feecb86c9dd45d96
	.cfi_endproc
	.section	.text.ic_list_algorithms.sort.sort_front.07d679d1abf7571e,"ax",@progbits
	.p2align	2
	.type	ic_list_algorithms.sort.sort_front.07d679d1abf7571e,@function
ic_list_algorithms.sort.sort_front.07d679d1abf7571e:
	.cfi_startproc
	sub	sp, sp, #112
	.cfi_def_cfa_offset 112
	stp	x29, x30, [sp, #48]
	stp	x24, x23, [sp, #64]
	stp	x22, x21, [sp, #80]
	stp	x20, x19, [sp, #96]
	add	x29, sp, #48
	.cfi_def_cfa w29, 64
	.cfi_offset w19, -8
	.cfi_offset w20, -16
	.cfi_offset w21, -24
	.cfi_offset w22, -32
	.cfi_offset w23, -40
	.cfi_offset w24, -48
	.cfi_offset w30, -56
	.cfi_offset w29, -64
	.cfi_remember_state
	mov	x19, x0
	cbz	x4, .LBB51_4
	subs	x20, x4, #1
	b.ne	.LBB51_5
	ldr	x8, [x1]
	mov	w10, #1
	add	x9, x8, x3
	ldur	x8, [x9, #-8]
	stur	x10, [x9, #-8]
	ands	x8, x8, #0xffffffff8
	b.eq	.LBB51_8
	ldr	x9, [x1]
	mov	x0, x1
	mov	x1, x2
	mov	x2, x3
	mov	x3, x8
	add	x9, x9, x8
	ldur	x10, [x9, #-8]
	ands	x20, x10, #0xffffffff8
	mov	w10, #1
	cset	w21, ne
	stur	x10, [x9, #-8]
	bl	ic_list_algorithms.merge.merge_runs.07d679d1abf7571e
	stp	x0, x21, [x19]
	str	x20, [x19, #16]
	.cfi_def_cfa wsp, 112
	ldp	x20, x19, [sp, #96]
	ldp	x22, x21, [sp, #80]
	ldp	x24, x23, [sp, #64]
	ldp	x29, x30, [sp, #48]
	add	sp, sp, #112
	.cfi_def_cfa_offset 0
	.cfi_restore w19
	.cfi_restore w20
	.cfi_restore w21
	.cfi_restore w22
	.cfi_restore w23
	.cfi_restore w24
	.cfi_restore w30
	.cfi_restore w29
	ret
.LBB51_4:
	.cfi_restore_state
	.cfi_remember_state
	ldr	x8, [x1]
	mov	w10, #1
	add	x8, x8, x3
	ldur	x9, [x8, #-8]
	stur	x10, [x8, #-8]
	ands	x8, x9, #0xffffffff8
	cset	w9, ne
	str	x8, [x19, #16]
	stp	x3, x9, [x19]
	.cfi_def_cfa wsp, 112
	ldp	x20, x19, [sp, #96]
	ldp	x22, x21, [sp, #80]
	ldp	x24, x23, [sp, #64]
	ldp	x29, x30, [sp, #48]
	add	sp, sp, #112
	.cfi_def_cfa_offset 0
	.cfi_restore w19
	.cfi_restore w20
	.cfi_restore w21
	.cfi_restore w22
	.cfi_restore w23
	.cfi_restore w24
	.cfi_restore w30
	.cfi_restore w29
	ret
.LBB51_5:
	.cfi_restore_state
	.cfi_remember_state
	add	x0, sp, #24
	mov	x4, x20
	mov	x22, x1
	mov	x23, x2
	bl	ic_list_algorithms.sort.sort_front.07d679d1abf7571e
	ldrb	w8, [sp, #32]
	ldr	x21, [sp, #24]
	cmp	w8, #1
	b.ne	.LBB51_7
	ldr	x3, [sp, #40]
	mov	x0, sp
	mov	x1, x22
	mov	x2, x23
	mov	x4, x20
	bl	ic_list_algorithms.sort.sort_front.07d679d1abf7571e
	ldr	x3, [sp]
	ldrb	w20, [sp, #8]
	mov	x0, x22
	ldr	x24, [sp, #16]
	mov	x1, x23
	mov	x2, x21
	bl	ic_list_algorithms.merge.merge_runs.07d679d1abf7571e
	stp	x0, x20, [x19]
	str	x24, [x19, #16]
	.cfi_def_cfa wsp, 112
	ldp	x20, x19, [sp, #96]
	ldp	x22, x21, [sp, #80]
	ldp	x24, x23, [sp, #64]
	ldp	x29, x30, [sp, #48]
	add	sp, sp, #112
	.cfi_def_cfa_offset 0
	.cfi_restore w19
	.cfi_restore w20
	.cfi_restore w21
	.cfi_restore w22
	.cfi_restore w23
	.cfi_restore w24
	.cfi_restore w30
	.cfi_restore w29
	ret
.LBB51_7:
	.cfi_restore_state
	str	x21, [x19]
	b	.LBB51_9
.LBB51_8:
	str	x3, [x19]
.LBB51_9:
	stp	xzr, xzr, [x19, #8]
	.cfi_def_cfa wsp, 112
	ldp	x20, x19, [sp, #96]
	ldp	x22, x21, [sp, #80]
	ldp	x24, x23, [sp, #64]
	ldp	x29, x30, [sp, #48]
	add	sp, sp, #112
	.cfi_def_cfa_offset 0
	.cfi_restore w19
	.cfi_restore w20
	.cfi_restore w21
	.cfi_restore w22
	.cfi_restore w23
	.cfi_restore w24
	.cfi_restore w30
	.cfi_restore w29
	ret
.Lfunc_end51:
	.size	ic_list_algorithms.sort.sort_front.07d679d1abf7571e, .Lfunc_end51-ic_list_algorithms.sort.sort_front.07d679d1abf7571e
	.cfi_endproc
	.section	.text.ic_check.tree.check_below.ffc36cde30076884,"ax",@progbits
	.p2align	2
	.type	ic_check.tree.check_below.ffc36cde30076884,@function
ic_check.tree.check_below.ffc36cde30076884:
	.cfi_startproc
	sub	sp, sp, #160
	.cfi_def_cfa_offset 160
	stp	x29, x30, [sp, #64]
	stp	x28, x27, [sp, #80]
	stp	x26, x25, [sp, #96]
	stp	x24, x23, [sp, #112]
	stp	x22, x21, [sp, #128]
	stp	x20, x19, [sp, #144]
	add	x29, sp, #64
	.cfi_def_cfa w29, 96
	.cfi_offset w19, -8
	.cfi_offset w20, -16
	.cfi_offset w21, -24
	.cfi_offset w22, -32
	.cfi_offset w23, -40
	.cfi_offset w24, -48
	.cfi_offset w25, -56
	.cfi_offset w26, -64
	.cfi_offset w27, -72
	.cfi_offset w28, -80
	.cfi_offset w30, -88
	.cfi_offset w29, -96
	.cfi_remember_state
	tbz	w2, #0, .LBB52_8
	cbz	w6, .LBB52_7
	ldr	x9, [x1, #8]
	lsr	x8, x3, #3
	cmp	x8, x9
	b.hi	.LBB52_7
	add	x8, x8, x8, lsl #1
	ldr	x9, [x1]
	lsl	x24, x8, #3
	add	x8, x9, x24
	ldur	x9, [x8, #-24]
	tbz	w9, #0, .LBB52_7
	ldur	x10, [x8, #-8]
	tst	w4, #0xff
	csel	x11, xzr, x5, eq
	and	x10, x10, #0xffffffff8
	cmp	x10, x11
	b.ne	.LBB52_7
	ldur	x10, [x8, #-16]
	and	x8, x9, #0xffffffff8
	ands	x20, x10, #0xffffffff8
	cset	w21, ne
	cbz	x8, .LBB52_10
	cmp	x8, x20
	b.ne	.LBB52_10
.LBB52_7:
	stp	xzr, xzr, [x0, #8]
	str	xzr, [x0]
	.cfi_def_cfa wsp, 160
	b	.LBB52_9
.LBB52_8:
	.cfi_restore_state
	.cfi_remember_state
	mov	w8, #1
	str	wzr, [x0, #16]
	stp	x8, xzr, [x0]
	strb	w8, [x0, #20]
	sturh	wzr, [x0, #21]
	strb	wzr, [x0, #23]
	.cfi_def_cfa wsp, 160
.LBB52_9:
	ldp	x20, x19, [sp, #144]
	ldp	x22, x21, [sp, #128]
	ldp	x24, x23, [sp, #112]
	ldp	x26, x25, [sp, #96]
	ldp	x28, x27, [sp, #80]
	ldp	x29, x30, [sp, #64]
	add	sp, sp, #160
	.cfi_def_cfa_offset 0
	.cfi_restore w19
	.cfi_restore w20
	.cfi_restore w21
	.cfi_restore w22
	.cfi_restore w23
	.cfi_restore w24
	.cfi_restore w25
	.cfi_restore w26
	.cfi_restore w27
	.cfi_restore w28
	.cfi_restore w30
	.cfi_restore w29
	ret
.LBB52_10:
	.cfi_restore_state
	.cfi_remember_state
	cmp	x8, #0
	sub	w22, w6, #1
	mov	x26, x0
	cset	w2, ne
	add	x0, sp, #32
	mov	x5, x3
	mov	x3, x8
	mov	w4, #1
	mov	w6, w22
	mov	x19, x1
	mov	x23, x5
	bl	ic_check.tree.check_below.ffc36cde30076884
	ldrb	w8, [sp, #32]
	cmp	w8, #1
	b.ne	.LBB52_17
	ldr	x27, [sp, #40]
	ldr	w25, [sp, #48]
	add	x0, sp, #8
	ldrb	w28, [sp, #52]
	mov	x1, x19
	mov	w2, w21
	mov	x3, x20
	mov	w4, #1
	mov	x5, x23
	mov	w6, w22
	bl	ic_check.tree.check_below.ffc36cde30076884
	ldrb	w8, [sp, #8]
	cmp	w8, #1
	b.ne	.LBB52_17
	ldr	w8, [sp, #24]
	cmp	w25, w8
	mov	x8, x26
	b.ne	.LBB52_18
	ldr	x9, [x19]
	ldr	x10, [sp, #16]
	add	x9, x9, x24
	ldur	x9, [x9, #-8]
	tbnz	w9, #0, .LBB52_16
	cbz	w28, .LBB52_18
	ldrb	w11, [sp, #28]
	cbz	w11, .LBB52_18
.LBB52_16:
	add	x10, x27, x10
	and	w9, w9, #0x1
	mov	w11, #1
	add	x10, x10, #1
	add	w12, w25, w9
	b	.LBB52_19
.LBB52_17:
	stp	xzr, xzr, [x26, #8]
	str	xzr, [x26]
	.cfi_def_cfa wsp, 160
	b	.LBB52_9
.LBB52_18:
	.cfi_restore_state
	mov	x11, xzr
	mov	x10, xzr
	mov	w12, wzr
	mov	w9, wzr
.LBB52_19:
	sturb	wzr, [x29, #-2]
	sturh	wzr, [x29, #-4]
	stp	x11, x10, [x8]
	and	w10, wzr, #0xffff
	strb	w9, [x8, #20]
	and	w9, wzr, #0xff
	str	w12, [x8, #16]
	sturh	w10, [x8, #21]
	strb	w9, [x8, #23]
	.cfi_def_cfa wsp, 160
	b	.LBB52_9
.Lfunc_end52:
	.size	ic_check.tree.check_below.ffc36cde30076884, .Lfunc_end52-ic_check.tree.check_below.ffc36cde30076884
	.cfi_endproc
	.section	.text.ic_rbtree.join.roots.join.f4da04d8a93b4f27,"ax",@progbits
	.p2align	2
	.type	ic_rbtree.join.roots.join.f4da04d8a93b4f27,@function
ic_rbtree.join.roots.join.f4da04d8a93b4f27:
	.cfi_startproc
	sub	sp, sp, #96
	.cfi_def_cfa_offset 96
	stp	x29, x30, [sp, #80]
	add	x29, sp, #80
	.cfi_def_cfa w29, 16
	.cfi_offset w30, -8
	.cfi_offset w29, -16
	mov	x8, x3
	mov	x9, x0
	tst	w1, #0xff
	and	x12, x1, #0xff
	and	x10, x4, #0xff
	b.eq	.LBB53_8
	ldr	x14, [x9]
	mov	w13, wzr
	mov	w11, wzr
	mov	x15, x2
.LBB53_2:
	lsr	x15, x15, #3
	mov	w16, #24
	cmp	w13, #65
	madd	x15, x15, x16, x14
	ldur	w16, [x15, #-8]
	and	w16, w16, #0x1
	add	w11, w16, w11
	b.hi	.LBB53_4
	ldur	x15, [x15, #-24]
	add	w13, w13, #1
	and	x15, x15, #0xffffffff8
	cbnz	x15, .LBB53_2
.LBB53_4:
	tst	w4, #0xff
	b.eq	.LBB53_9
.LBB53_5:
	ldr	x15, [x9]
	mov	w14, wzr
	mov	w13, wzr
	mov	x16, x5
.LBB53_6:
	lsr	x16, x16, #3
	mov	w17, #24
	cmp	w14, #65
	madd	x16, x16, x17, x15
	ldur	w17, [x16, #-8]
	and	w17, w17, #0x1
	add	w13, w17, w13
	b.hi	.LBB53_10
	ldur	x16, [x16, #-24]
	add	w14, w14, #1
	and	x16, x16, #0xffffffff8
	cbnz	x16, .LBB53_6
	b	.LBB53_10
.LBB53_8:
	mov	w11, wzr
	tst	w4, #0xff
	b.ne	.LBB53_5
.LBB53_9:
	mov	w13, wzr
.LBB53_10:
	cmp	w13, w11
	add	x0, sp, #8
	stp	x2, xzr, [x29, #-16]
	stur	x12, [x29, #-24]
	stur	w11, [x29, #-8]
	stp	x5, xzr, [sp, #40]
	stp	xzr, x10, [sp, #24]
	str	w13, [sp, #48]
	stp	xzr, xzr, [sp, #8]
	b.ls	.LBB53_12
	add	x2, sp, #32
	sub	x5, x29, #24
	mov	x1, x9
	mov	w3, wzr
	b	.LBB53_13
.LBB53_12:
	sub	x2, x29, #24
	add	x5, sp, #32
	mov	x1, x9
	mov	w3, #1
.LBB53_13:
	mov	x4, x8
	bl	ic_rbtree.join.roots.join_higher.f4da04d8a93b4f27
	ldr	x1, [sp, #16]
	ldrb	w0, [sp, #8]
	.cfi_def_cfa wsp, 96
	ldp	x29, x30, [sp, #80]
	add	sp, sp, #96
	.cfi_def_cfa_offset 0
	.cfi_restore w30
	.cfi_restore w29
	ret
.Lfunc_end53:
	.size	ic_rbtree.join.roots.join.f4da04d8a93b4f27, .Lfunc_end53-ic_rbtree.join.roots.join.f4da04d8a93b4f27
	.cfi_endproc
	.section	.text.ic_rbtree.join.roots.join_higher.f4da04d8a93b4f27,"ax",@progbits
	.p2align	2
	.type	ic_rbtree.join.roots.join_higher.f4da04d8a93b4f27,@function
ic_rbtree.join.roots.join_higher.f4da04d8a93b4f27:
	.cfi_startproc
	str	x19, [sp, #-16]!
	.cfi_def_cfa_offset 16
	.cfi_offset w19, -16
	ldrb	w12, [x2]
	tst	w3, #0x1
	ldr	x9, [x2, #8]
	ldr	w8, [x2, #16]
	mov	x10, #-24
	mov	x11, #-16
	ldr	x13, [x1]
	csel	x10, x11, x10, ne
	cmp	w12, #1
	b.ne	.LBB54_4
	lsr	x11, x9, #3
	mov	w14, #24
	ldr	w16, [x5, #16]
	madd	x11, x11, x14, x13
	cmp	w8, w16
	ldur	w14, [x11, #-8]
	and	w14, w14, #0x1
	b.ne	.LBB54_16
	cbz	w14, .LBB54_16
	mov	w15, wzr
	mov	x10, xzr
	mov	w14, #1
	mov	x11, x9
	b	.LBB54_5
.LBB54_4:
	mov	x10, xzr
	mov	w15, #1
	mov	x11, x9
	mov	w14, #1
.LBB54_5:
	lsr	x16, x4, #2
	ldrb	w2, [x5]
	ldr	x17, [x5, #8]
	cmp	w12, #0
	add	x16, x16, x4, lsr #3
	csel	x9, xzr, x9, eq
	lsl	x16, x16, #3
	add	x12, x13, x16
	tbz	w3, #0, .LBB54_7
	cmp	w2, #0
	csel	x13, xzr, x17, eq
	cmp	w15, #0
	stur	x13, [x12, #-16]
	csel	x5, xzr, x11, ne
	ldr	x12, [x1]
	add	x12, x12, x16
	ldur	x13, [x12, #-24]
	and	x13, x13, #0x1
	add	x13, x13, x5
	stur	x13, [x12, #-24]
	b	.LBB54_8
.LBB54_7:
	ldur	x13, [x12, #-24]
	cmp	w2, #0
	csel	x5, xzr, x17, eq
	cmp	w15, #0
	and	x13, x13, #0x1
	add	x13, x13, x5
	stur	x13, [x12, #-24]
	csel	x13, xzr, x11, ne
	ldr	x12, [x1]
	add	x12, x12, x16
	stur	x13, [x12, #-16]
.LBB54_8:
	ldr	x12, [x1]
	cmp	w14, #0
	csel	x5, xzr, x10, ne
	add	x12, x12, x16
	ldur	x13, [x12, #-8]
	and	x13, x13, #0x1
	add	x13, x13, x5
	stur	x13, [x12, #-8]
	tbz	w15, #0, .LBB54_12
	cmp	w2, #1
	b.eq	.LBB54_13
.LBB54_10:
	ldr	x11, [x1]
	add	x11, x11, x16
	ldur	x12, [x11, #-8]
	cbz	w14, .LBB54_14
.LBB54_11:
	orr	x9, x12, #0x1
	mov	w10, #1
	stur	x9, [x11, #-8]
	b	.LBB54_76
.LBB54_12:
	lsr	x11, x11, #3
	mov	w12, #24
	ldr	x13, [x1]
	madd	x11, x11, x12, x13
	ldur	x12, [x11, #-8]
	and	x12, x12, #0x1
	orr	x12, x12, x4
	stur	x12, [x11, #-8]
	cmp	w2, #1
	b.ne	.LBB54_10
.LBB54_13:
	lsr	x11, x17, #3
	mov	w12, #24
	ldr	x13, [x1]
	madd	x11, x11, x12, x13
	ldur	x12, [x11, #-8]
	and	x12, x12, #0x1
	orr	x12, x12, x4
	stur	x12, [x11, #-8]
	ldr	x11, [x1]
	add	x11, x11, x16
	ldur	x12, [x11, #-8]
	cbnz	w14, .LBB54_11
.LBB54_14:
	and	x12, x12, #0xfffffffffffffffe
	lsr	x13, x10, #3
	stur	x12, [x11, #-8]
	mov	w11, #24
	ldr	x12, [x1]
	madd	x11, x13, x11, x12
	tbz	w3, #0, .LBB54_20
	stur	x4, [x11, #-16]
	b	.LBB54_21
.LBB54_16:
	ldr	x11, [x11, x10]
	ands	x11, x11, #0xffffffff8
	b.eq	.LBB54_34
	lsr	x15, x11, #2
	sub	w17, w8, w14
	add	x15, x15, x11, lsr #3
	lsl	x19, x15, #3
	add	x15, x13, x19
	ldur	w15, [x15, #-8]
	tbz	w15, #0, .LBB54_43
	cmp	w17, w16
	b.ne	.LBB54_43
	mov	w15, wzr
	mov	w14, wzr
	mov	x10, x9
	b	.LBB54_5
.LBB54_20:
	ldur	x12, [x11, #-24]
	and	x12, x12, #0x1
	orr	x12, x12, x4
	stur	x12, [x11, #-24]
.LBB54_21:
	mov	w11, wzr
	mov	w14, #67
	b	.LBB54_23
.LBB54_22:
	ldur	x15, [x10, #-8]
	tst	x13, #0xffffffff8
	mov	x4, x12
	orr	x15, x15, #0x1
	stur	x15, [x10, #-8]
	ldr	x10, [x1]
	add	x10, x10, x11
	ldur	x15, [x10, #-8]
	and	x13, x15, #0xfffffffffffffffe
	cinc	x13, x13, eq
	stur	x13, [x10, #-8]
	ldr	x10, [x1]
	add	x10, x10, x11
	ldur	x10, [x10, #-8]
	ands	x10, x10, #0xffffffff8
	cset	w11, eq
	subs	w14, w14, #1
	b.eq	.LBB54_33
.LBB54_23:
	tbnz	w11, #0, .LBB54_35
	lsr	x11, x10, #2
	ldr	x15, [x1]
	add	x11, x11, x10, lsr #3
	lsl	x13, x11, #3
	add	x16, x15, x13
	ldur	x17, [x16, #-8]
	tbnz	w17, #0, .LBB54_33
	ands	x12, x17, #0xffffffff8
	b.eq	.LBB54_33
	lsr	x11, x12, #2
	add	x11, x11, x12, lsr #3
	lsl	x11, x11, #3
	add	x3, x15, x11
	ldur	x2, [x3, #-24]
	and	x5, x2, #0xffffffff8
	cmp	x5, x10
	b.ne	.LBB54_30
	ldur	x5, [x3, #-16]
	ands	x5, x5, #0xffffffff8
	b.eq	.LBB54_41
	lsr	x6, x5, #2
	add	x5, x6, x5, lsr #3
	lsl	x5, x5, #3
	add	x6, x15, x5
	ldur	w6, [x6, #-8]
	tbnz	w6, #0, .LBB54_41
	orr	x10, x17, #0x1
	ldur	x13, [x3, #-8]
	stur	x10, [x16, #-8]
	ldr	x10, [x1]
	add	x10, x10, x5
	b	.LBB54_22
.LBB54_30:
	cbz	x5, .LBB54_36
	lsr	x2, x5, #2
	add	x2, x2, x5, lsr #3
	lsl	x2, x2, #3
	add	x5, x15, x2
	ldur	w5, [x5, #-8]
	tbnz	w5, #0, .LBB54_36
	orr	x10, x17, #0x1
	ldur	x13, [x3, #-8]
	stur	x10, [x16, #-8]
	ldr	x10, [x1]
	add	x10, x10, x2
	b	.LBB54_22
.LBB54_33:
	mov	w10, wzr
	mov	x4, x9
	b	.LBB54_76
.LBB54_34:
	mov	w14, wzr
	mov	w15, #1
	mov	x10, x9
	b	.LBB54_5
.LBB54_35:
	mov	w10, #1
	mov	x4, x9
	b	.LBB54_76
.LBB54_36:
	ldur	x17, [x16, #-24]
	and	x14, x17, #0xffffffff8
	cmp	x14, x4
	b.ne	.LBB54_48
	lsr	x14, x4, #2
	add	x14, x14, x4, lsr #3
	lsl	x14, x14, #3
	add	x15, x15, x14
	ldur	x15, [x15, #-16]
	ands	x15, x15, #0xffffffff8
	mov	x2, x15
	bfxil	x2, x17, #0, #1
	stur	x2, [x16, #-24]
	b.eq	.LBB54_39
	lsr	x15, x15, #3
	mov	w16, #24
	ldr	x17, [x1]
	madd	x15, x15, x16, x17
	ldur	x16, [x15, #-8]
	and	x16, x16, #0x1
	orr	x16, x16, x10
	stur	x16, [x15, #-8]
.LBB54_39:
	ldr	x15, [x1]
	add	x15, x15, x14
	ldur	x16, [x15, #-8]
	and	x16, x16, #0x1
	orr	x16, x16, x12
	stur	x16, [x15, #-8]
	ldr	x15, [x1]
	add	x15, x15, x14
	ldur	x16, [x15, #-8]
	and	x16, x16, #0xfffffffffffffffe
	stur	x16, [x15, #-8]
	ldr	x15, [x1]
	add	x15, x15, x11
	ldur	x16, [x15, #-24]
	and	x17, x16, #0xffffffff8
	cmp	x17, x10
	b.ne	.LBB54_55
	and	x16, x16, #0x1
	orr	x16, x16, x4
	stur	x16, [x15, #-24]
	b	.LBB54_56
.LBB54_41:
	ldur	x14, [x16, #-24]
	and	x14, x14, #0xffffffff8
	cmp	x14, x4
	b.ne	.LBB54_49
	mov	x4, x10
	b	.LBB54_67
.LBB54_43:
	and	w2, w15, #0x1
	add	x6, x13, x10
	mov	w7, #66
.LBB54_44:
	ldr	x14, [x6, x19]
	mov	x10, x11
	ands	x11, x14, #0xffffffff8
	cset	w15, eq
	subs	w7, w7, #1
	b.eq	.LBB54_53
	cbz	x11, .LBB54_54
	lsr	x14, x11, #2
	sub	w17, w17, w2
	add	x14, x14, x11, lsr #3
	lsl	x19, x14, #3
	add	x14, x13, x19
	ldur	w14, [x14, #-8]
	and	w2, w14, #0x1
	tbz	w14, #0, .LBB54_44
	mov	w15, wzr
	cmp	w17, w16
	mov	w14, wzr
	b.ne	.LBB54_44
	b	.LBB54_5
.LBB54_48:
	mov	x4, x10
	b	.LBB54_57
.LBB54_49:
	lsr	x14, x4, #2
	add	x14, x14, x4, lsr #3
	lsl	x14, x14, #3
	add	x15, x15, x14
	ldur	x15, [x15, #-24]
	ands	x15, x15, #0xffffffff8
	stur	x15, [x16, #-16]
	b.eq	.LBB54_51
	lsr	x15, x15, #3
	mov	w16, #24
	ldr	x17, [x1]
	madd	x15, x15, x16, x17
	ldur	x16, [x15, #-8]
	and	x16, x16, #0x1
	orr	x16, x16, x10
	stur	x16, [x15, #-8]
.LBB54_51:
	ldr	x15, [x1]
	add	x15, x15, x14
	ldur	x16, [x15, #-8]
	and	x16, x16, #0x1
	orr	x16, x16, x12
	stur	x16, [x15, #-8]
	ldr	x15, [x1]
	add	x15, x15, x14
	ldur	x16, [x15, #-8]
	and	x16, x16, #0xfffffffffffffffe
	stur	x16, [x15, #-8]
	ldr	x15, [x1]
	add	x15, x15, x11
	ldur	x16, [x15, #-24]
	and	x17, x16, #0xffffffff8
	cmp	x17, x10
	b.ne	.LBB54_65
	and	x16, x16, #0x1
	orr	x16, x16, x4
	stur	x16, [x15, #-24]
	b	.LBB54_66
.LBB54_53:
	mov	w14, wzr
	b	.LBB54_5
.LBB54_54:
	mov	w14, wzr
	mov	w15, #1
	b	.LBB54_5
.LBB54_55:
	stur	x4, [x15, #-16]
.LBB54_56:
	ldr	x15, [x1]
	add	x15, x15, x14
	stur	x10, [x15, #-16]
	ldr	x10, [x1]
	add	x10, x10, x13
	ldur	x15, [x10, #-8]
	and	x15, x15, #0x1
	orr	x15, x15, x4
	stur	x15, [x10, #-8]
	ldr	x10, [x1]
	add	x10, x10, x13
	mov	x13, x14
	ldur	x15, [x10, #-8]
	and	x15, x15, #0xfffffffffffffffe
	stur	x15, [x10, #-8]
	ldr	x15, [x1]
	add	x10, x15, x14
	ldur	x10, [x10, #-24]
	and	x14, x10, #0xffffffff8
.LBB54_57:
	add	x15, x15, x11
	ldur	x10, [x15, #-8]
	stur	x14, [x15, #-16]
	and	x10, x10, #0xffffffff8
	cbz	x14, .LBB54_59
	lsr	x14, x14, #3
	mov	w15, #24
	ldr	x16, [x1]
	madd	x14, x14, x15, x16
	ldur	x15, [x14, #-8]
	and	x15, x15, #0x1
	orr	x15, x15, x12
	stur	x15, [x14, #-8]
.LBB54_59:
	ldr	x14, [x1]
	mov	x2, x4
	add	x14, x14, x13
	ldur	x15, [x14, #-8]
	and	x15, x15, #0x1
	orr	x15, x15, x10
	stur	x15, [x14, #-8]
	ldr	x14, [x1]
	add	x14, x14, x13
	ldur	x15, [x14, #-8]
	orr	x15, x15, #0x1
	stur	x15, [x14, #-8]
	cbz	x10, .LBB54_64
	lsr	x10, x10, #3
	mov	w14, #24
	ldr	x15, [x1]
	madd	x10, x10, x14, x15
	ldur	x14, [x10, #-24]
	and	x15, x14, #0xffffffff8
	cmp	x15, x12
	b.ne	.LBB54_62
	and	x14, x14, #0x1
	orr	x14, x14, x4
	stur	x14, [x10, #-24]
	b	.LBB54_63
.LBB54_62:
	stur	x4, [x10, #-16]
.LBB54_63:
	mov	x2, x9
.LBB54_64:
	ldr	x9, [x1]
	mov	w10, wzr
	add	x9, x9, x13
	ldur	x13, [x9, #-24]
	and	x13, x13, #0x1
	orr	x12, x13, x12
	stur	x12, [x9, #-24]
	b	.LBB54_75
.LBB54_65:
	stur	x4, [x15, #-16]
.LBB54_66:
	ldr	x15, [x1]
	add	x15, x15, x14
	ldur	x16, [x15, #-24]
	and	x16, x16, #0x1
	orr	x10, x16, x10
	stur	x10, [x15, #-24]
	ldr	x10, [x1]
	add	x10, x10, x13
	ldur	x15, [x10, #-8]
	and	x15, x15, #0x1
	orr	x15, x15, x4
	stur	x15, [x10, #-8]
	ldr	x10, [x1]
	add	x10, x10, x13
	ldur	x13, [x10, #-8]
	and	x13, x13, #0xfffffffffffffffe
	stur	x13, [x10, #-8]
	mov	x13, x14
	ldr	x15, [x1]
	add	x10, x15, x11
	ldur	x2, [x10, #-24]
.LBB54_67:
	add	x10, x15, x13
	add	x15, x15, x11
	ldur	x10, [x10, #-16]
	ands	x14, x10, #0xffffffff8
	ldur	x10, [x15, #-8]
	mov	x16, x14
	bfxil	x16, x2, #0, #1
	and	x10, x10, #0xffffffff8
	stur	x16, [x15, #-24]
	b.eq	.LBB54_69
	lsr	x14, x14, #3
	mov	w15, #24
	ldr	x16, [x1]
	madd	x14, x14, x15, x16
	ldur	x15, [x14, #-8]
	and	x15, x15, #0x1
	orr	x15, x15, x12
	stur	x15, [x14, #-8]
.LBB54_69:
	ldr	x14, [x1]
	mov	x2, x4
	add	x14, x14, x13
	ldur	x15, [x14, #-8]
	and	x15, x15, #0x1
	orr	x15, x15, x10
	stur	x15, [x14, #-8]
	ldr	x14, [x1]
	add	x14, x14, x13
	ldur	x15, [x14, #-8]
	orr	x15, x15, #0x1
	stur	x15, [x14, #-8]
	cbz	x10, .LBB54_74
	lsr	x10, x10, #3
	mov	w14, #24
	ldr	x15, [x1]
	madd	x10, x10, x14, x15
	ldur	x14, [x10, #-24]
	and	x15, x14, #0xffffffff8
	cmp	x15, x12
	b.ne	.LBB54_72
	and	x14, x14, #0x1
	orr	x14, x14, x4
	stur	x14, [x10, #-24]
	b	.LBB54_73
.LBB54_72:
	stur	x4, [x10, #-16]
.LBB54_73:
	mov	x2, x9
.LBB54_74:
	ldr	x9, [x1]
	mov	w10, wzr
	add	x9, x9, x13
	stur	x12, [x9, #-16]
.LBB54_75:
	ldr	x9, [x1]
	add	x9, x9, x11
	ldur	x12, [x9, #-8]
	and	x12, x12, #0x1
	orr	x12, x12, x4
	mov	x4, x2
	stur	x12, [x9, #-8]
	ldr	x9, [x1]
	add	x9, x9, x11
	ldur	x11, [x9, #-8]
	and	x11, x11, #0xfffffffffffffffe
	stur	x11, [x9, #-8]
.LBB54_76:
	cmp	x4, #0
	add	w8, w10, w8
	cset	w9, ne
	str	w8, [x0, #16]
	stp	x9, x4, [x0]
	ldr	x19, [sp], #16
	.cfi_def_cfa_offset 0
	.cfi_restore w19
	ret
.Lfunc_end54:
	.size	ic_rbtree.join.roots.join_higher.f4da04d8a93b4f27, .Lfunc_end54-ic_rbtree.join.roots.join_higher.f4da04d8a93b4f27
	.cfi_endproc
	.section	.text.ic_raw.search_calls.insert,"ax",@progbits
	.p2align	2
	.type	ic_raw.search_calls.insert,@function
ic_raw.search_calls.insert:
	.cfi_startproc
	sub	sp, sp, #32
	.cfi_def_cfa_offset 32
	stp	x29, x30, [sp, #16]
	add	x29, sp, #16
	.cfi_def_cfa w29, 16
	.cfi_offset w30, -8
	.cfi_offset w29, -16
	.cfi_remember_state
	cmp	x3, x1
	stp	x0, x1, [sp]
	b.lo	.LBB55_23
	ldr	x8, [x4]
	add	w11, w5, #1
	lsl	x9, x1, #3
	ubfiz	x10, x11, #3, #32
	and	x8, x8, #0xffffffff8
	cbz	x8, .LBB55_11
	lsr	x12, x8, #3
	cmp	x12, x1
	b.hi	.LBB55_23
	cbz	w11, .LBB55_23
	cmp	x1, x11
	b.lo	.LBB55_23
	mov	w13, #24
	madd	x12, x12, x13, x0
	ldur	x12, [x12, #-24]
	tbz	w12, #0, .LBB55_23
	add	x12, x2, x10
	mov	w13, #22
	mov	x14, x8
	ldur	x12, [x12, #-8]
.LBB55_7:
	lsr	x15, x14, #3
	mov	w16, #24
	madd	x16, x15, x16, x0
	add	x15, x2, x14
	ldur	x1, [x15, #-8]
	cmp	x12, x1
	ldp	x15, x17, [x16, #-24]
	csel	x16, x17, x15, hs
	and	x16, x16, #0xffffffff8
	sub	x6, x16, #1
	cmp	x6, x9
	b.hs	.LBB55_14
	lsr	x14, x16, #3
	mov	w15, #24
	madd	x15, x14, x15, x0
	add	x14, x2, x16
	ldur	x1, [x14, #-8]
	cmp	x12, x1
	ldp	x14, x15, [x15, #-24]
	csel	x17, x15, x14, hs
	and	x17, x17, #0xffffffff8
	sub	x6, x17, #1
	cmp	x6, x9
	b.hs	.LBB55_15
	lsr	x14, x17, #3
	mov	w15, #24
	madd	x14, x14, x15, x0
	add	x15, x2, x17
	ldur	x1, [x15, #-8]
	cmp	x12, x1
	ldp	x15, x16, [x14, #-24]
	csel	x14, x16, x15, hs
	and	x14, x14, #0xffffffff8
	sub	x6, x14, #1
	cmp	x6, x9
	b.hs	.LBB55_16
	subs	w13, w13, #1
	b.ne	.LBB55_7
	b	.LBB55_23
.LBB55_11:
	cbz	w11, .LBB55_23
	cmp	x1, x11
	b.lo	.LBB55_23
	mov	x13, xzr
	mov	w12, #1
	mov	w14, #24
	umaddl	x11, w11, w14, x0
	ldurb	w14, [x11, #-24]
	tbz	w14, #0, .LBB55_19
	b	.LBB55_23
.LBB55_14:
	cmp	x12, x1
	cset	w12, hs
	cmp	x15, x16
	ccmp	x17, x16, #2, lo
	cset	w15, hs
	csel	w12, wzr, w12, lo
	cmp	w15, #0
	csel	x13, x14, xzr, ne
	cmp	w15, #0
	ccmp	x13, #0, #4, ne
	b.ne	.LBB55_17
	b	.LBB55_23
.LBB55_15:
	cmp	x12, x1
	cset	w12, hs
	cmp	x14, x17
	ccmp	x15, x17, #2, lo
	cset	w15, hs
	csel	w12, wzr, w12, lo
	cmp	w15, #0
	csel	x13, x16, xzr, ne
	cmp	w15, #0
	ccmp	x13, #0, #4, ne
	b.ne	.LBB55_17
	b	.LBB55_23
.LBB55_16:
	cmp	x12, x1
	cset	w12, hs
	cmp	x15, x14
	ccmp	x16, x14, #2, lo
	cset	w15, hs
	csel	w12, wzr, w12, lo
	cmp	w15, #0
	csel	x13, x17, xzr, ne
	cmp	w15, #0
	ccmp	x13, #0, #4, ne
	b.eq	.LBB55_23
.LBB55_17:
	lsr	x14, x13, #3
	mov	w15, #24
	madd	x14, x14, x15, x0
	ldurb	w14, [x14, #-24]
	tbz	w14, #0, .LBB55_23
	eor	w12, w12, #0x1
	mov	w14, #24
	umaddl	x11, w11, w14, x0
	ldurb	w14, [x11, #-24]
	tbnz	w14, #0, .LBB55_23
.LBB55_19:
	mov	w14, #1
	stp	x14, xzr, [x11, #-24]
	cbz	x13, .LBB55_22
	lsr	x14, x13, #3
	mov	w15, #24
	stur	x13, [x11, #-8]
	madd	x14, x14, x15, x0
	cbz	w12, .LBB55_24
	ldur	x11, [x14, #-24]
	and	x11, x11, #0x1
	orr	x11, x11, x10
	stur	x11, [x14, #-24]
	b	.LBB55_25
.LBB55_22:
	mov	w8, #1
	stur	x8, [x11, #-8]
	mov	w0, wzr
	str	x10, [x4]
	.cfi_def_cfa wsp, 32
	ldp	x29, x30, [sp, #16]
	add	sp, sp, #32
	.cfi_def_cfa_offset 0
	.cfi_restore w30
	.cfi_restore w29
	ret
.LBB55_23:
	.cfi_restore_state
	.cfi_remember_state
	mov	x0, sp
	mov	x1, x3
	mov	w2, w5
	bl	ic_raw.search.refusal_of
	.cfi_def_cfa wsp, 32
	ldp	x29, x30, [sp, #16]
	add	sp, sp, #32
	.cfi_def_cfa_offset 0
	.cfi_restore w30
	.cfi_restore w29
	ret
.LBB55_24:
	.cfi_restore_state
	.cfi_remember_state
	stur	x10, [x14, #-16]
.LBB55_25:
	mov	w12, wzr
	mov	w16, #67
	b	.LBB55_27
.LBB55_26:
	and	x10, x13, #0xffffffff8
	ldur	x13, [x12, #-8]
	sub	x10, x10, #1
	cmp	x10, x9
	and	x10, x13, #0xfffffffffffffffe
	cinc	x10, x10, hs
	stur	x10, [x12, #-8]
	and	x10, x10, #0xffffffff8
	cmp	x10, x9
	csel	x13, xzr, x10, hi
	mov	x10, x11
	cmp	x13, #0
	cset	w12, eq
	subs	w16, w16, #1
	b.eq	.LBB55_37
.LBB55_27:
	tbnz	w12, #0, .LBB55_37
	lsr	x11, x13, #2
	add	x11, x11, x13, lsr #3
	lsl	x14, x11, #3
	add	x15, x0, x14
	ldur	x1, [x15, #-8]
	tbnz	w1, #0, .LBB55_37
	and	x11, x1, #0xffffffff8
	sub	x12, x11, #1
	cmp	x12, x9
	b.hs	.LBB55_37
	lsr	x12, x11, #3
	mov	w17, #24
	madd	x12, x12, x17, x0
	ldur	x17, [x12, #-24]
	and	x2, x17, #0xffffffff8
	cmp	x2, x9
	csel	x2, xzr, x2, hi
	cmp	x2, x13
	b.ne	.LBB55_34
	ldur	x2, [x12, #-16]
	and	x2, x2, #0xffffffff8
	sub	x3, x2, #1
	cmp	x3, x9
	b.hs	.LBB55_44
	lsr	x2, x2, #3
	mov	w3, #24
	madd	x2, x2, x3, x0
	ldur	w3, [x2, #-8]
	tbnz	w3, #0, .LBB55_44
	orr	x10, x1, #0x1
	ldur	x13, [x12, #-8]
	stur	x10, [x15, #-8]
	ldur	x10, [x2, #-8]
	orr	x10, x10, #0x1
	stur	x10, [x2, #-8]
	b	.LBB55_26
.LBB55_34:
	cbz	x2, .LBB55_38
	lsr	x17, x2, #3
	mov	w2, #24
	madd	x17, x17, x2, x0
	ldur	w2, [x17, #-8]
	tbnz	w2, #0, .LBB55_38
	orr	x10, x1, #0x1
	ldur	x13, [x12, #-8]
	stur	x10, [x15, #-8]
	ldur	x10, [x17, #-8]
	orr	x10, x10, #0x1
	stur	x10, [x17, #-8]
	b	.LBB55_26
.LBB55_37:
	mov	w0, wzr
	str	x8, [x4]
	.cfi_def_cfa wsp, 32
	ldp	x29, x30, [sp, #16]
	add	sp, sp, #32
	.cfi_def_cfa_offset 0
	.cfi_restore w30
	.cfi_restore w29
	ret
.LBB55_38:
	.cfi_restore_state
	ldur	x17, [x15, #-24]
	and	x16, x17, #0xffffffff8
	cmp	x16, x9
	b.hi	.LBB55_47
	cmp	x16, x10
	b.ne	.LBB55_47
	lsr	x14, x10, #2
	add	x14, x14, x10, lsr #3
	lsl	x14, x14, #3
	add	x16, x0, x14
	ldur	x1, [x16, #-16]
	and	x1, x1, #0xffffffff8
	cmp	x1, x9
	csel	x1, xzr, x1, hi
	mov	x2, x1
	bfxil	x2, x17, #0, #1
	stur	x2, [x15, #-24]
	cbz	x1, .LBB55_42
	lsr	x17, x1, #3
	mov	w1, #24
	madd	x17, x17, x1, x0
	ldur	x1, [x17, #-8]
	and	x1, x1, #0x1
	orr	x1, x1, x13
	stur	x1, [x17, #-8]
.LBB55_42:
	ldur	x17, [x12, #-24]
	stur	x11, [x16, #-8]
	and	x1, x17, #0xffffffff8
	cmp	x1, x9
	csel	x1, xzr, x1, hi
	cmp	x1, x13
	b.ne	.LBB55_59
	and	x17, x17, #0x1
	orr	x17, x17, x10
	stur	x17, [x12, #-24]
	b	.LBB55_60
.LBB55_44:
	ldur	x16, [x15, #-24]
	and	x16, x16, #0xffffffff8
	cmp	x16, x9
	b.hi	.LBB55_48
	cmp	x16, x10
	b.ne	.LBB55_48
	mov	x10, x13
	b	.LBB55_51
.LBB55_47:
	mov	x10, x13
	b	.LBB55_61
.LBB55_48:
	lsr	x14, x10, #2
	add	x14, x14, x10, lsr #3
	lsl	x14, x14, #3
	add	x16, x0, x14
	ldur	x1, [x16, #-24]
	and	x1, x1, #0xffffffff8
	cmp	x1, x9
	csel	x1, xzr, x1, hi
	stur	x1, [x15, #-16]
	cbz	x1, .LBB55_50
	lsr	x1, x1, #3
	mov	w2, #24
	madd	x1, x1, x2, x0
	ldur	x2, [x1, #-8]
	and	x2, x2, #0x1
	orr	x2, x2, x13
	stur	x2, [x1, #-8]
.LBB55_50:
	and	x17, x17, #0x1
	stur	x11, [x16, #-8]
	orr	x17, x17, x10
	stur	x10, [x15, #-8]
	stur	x17, [x12, #-24]
	ldur	x17, [x16, #-24]
	and	x17, x17, #0x1
	orr	x13, x17, x13
	stur	x13, [x16, #-24]
	ldur	x17, [x12, #-24]
.LBB55_51:
	add	x13, x0, x14
	ldur	x14, [x13, #-16]
	and	x14, x14, #0xffffffff8
	cmp	x14, x9
	csel	x15, xzr, x14, hi
	ldur	x14, [x12, #-8]
	mov	x16, x15
	and	x14, x14, #0xffffffff8
	bfxil	x16, x17, #0, #1
	cmp	x14, x9
	csel	x14, xzr, x14, hi
	stur	x16, [x12, #-24]
	cbz	x15, .LBB55_53
	lsr	x15, x15, #3
	mov	w16, #24
	madd	x15, x15, x16, x0
	ldur	x16, [x15, #-8]
	and	x16, x16, #0x1
	orr	x16, x16, x11
	stur	x16, [x15, #-8]
.LBB55_53:
	orr	x15, x14, #0x1
	mov	x1, x10
	stur	x15, [x13, #-8]
	cbz	x14, .LBB55_58
	lsr	x14, x14, #3
	mov	w15, #24
	madd	x14, x14, x15, x0
	ldur	x15, [x14, #-24]
	and	x16, x15, #0xffffffff8
	cmp	x16, x9
	csel	x9, xzr, x16, hi
	cmp	x9, x11
	b.ne	.LBB55_56
	and	x9, x15, #0x1
	orr	x9, x9, x10
	stur	x9, [x14, #-24]
	b	.LBB55_57
.LBB55_56:
	stur	x10, [x14, #-16]
.LBB55_57:
	mov	x1, x8
.LBB55_58:
	stur	x11, [x13, #-16]
	b	.LBB55_69
.LBB55_59:
	stur	x10, [x12, #-16]
.LBB55_60:
	ldur	x17, [x16, #-24]
	stur	x13, [x16, #-16]
	stur	x10, [x15, #-8]
	and	x16, x17, #0xffffffff8
.LBB55_61:
	ldur	x13, [x12, #-8]
	cmp	x16, x9
	csel	x15, xzr, x16, hi
	and	x17, x13, #0xffffffff8
	add	x13, x0, x14
	stur	x15, [x12, #-16]
	cmp	x17, x9
	csel	x14, xzr, x17, hi
	cbz	x15, .LBB55_63
	lsr	x15, x15, #3
	mov	w16, #24
	madd	x15, x15, x16, x0
	ldur	x16, [x15, #-8]
	and	x16, x16, #0x1
	orr	x16, x16, x11
	stur	x16, [x15, #-8]
.LBB55_63:
	orr	x15, x14, #0x1
	mov	x1, x10
	stur	x15, [x13, #-8]
	cbz	x14, .LBB55_68
	lsr	x14, x14, #3
	mov	w15, #24
	madd	x14, x14, x15, x0
	ldur	x15, [x14, #-24]
	and	x16, x15, #0xffffffff8
	cmp	x16, x9
	csel	x9, xzr, x16, hi
	cmp	x9, x11
	b.ne	.LBB55_66
	and	x9, x15, #0x1
	orr	x9, x9, x10
	stur	x9, [x14, #-24]
	b	.LBB55_67
.LBB55_66:
	stur	x10, [x14, #-16]
.LBB55_67:
	mov	x1, x8
.LBB55_68:
	ldur	x8, [x13, #-24]
	and	x8, x8, #0x1
	orr	x8, x8, x11
	stur	x8, [x13, #-24]
.LBB55_69:
	stur	x10, [x12, #-8]
	mov	w0, wzr
	str	x1, [x4]
	.cfi_def_cfa wsp, 32
	ldp	x29, x30, [sp, #16]
	add	sp, sp, #32
	.cfi_def_cfa_offset 0
	.cfi_restore w30
	.cfi_restore w29
	ret
.Lfunc_end55:
	.size	ic_raw.search_calls.insert, .Lfunc_end55-ic_raw.search_calls.insert
	.cfi_endproc
	.section	.text.unlikely.ic_raw.search.refusal_of,"ax",@progbits
	.p2align	2
	.type	ic_raw.search.refusal_of,@function
ic_raw.search.refusal_of:
	.cfi_startproc
	ldr	x8, [x0, #8]
	cmp	x1, x8
	b.hs	.LBB56_2
	mov	w0, #1
	ret
.LBB56_2:
	mov	w1, #-1
	b	ic_raw.table.RawTable.refusal.19bacce014a8892a
.Lfunc_end56:
	.size	ic_raw.search.refusal_of, .Lfunc_end56-ic_raw.search.refusal_of
	.cfi_endproc
	.section	.text.unlikely.ic_raw.table.RawTable.refusal.19bacce014a8892a,"ax",@progbits
	.p2align	2
	.type	ic_raw.table.RawTable.refusal.19bacce014a8892a,@function
ic_raw.table.RawTable.refusal.19bacce014a8892a:
	.cfi_startproc
	adds	w8, w1, #1
	b.lo	.LBB57_3
.LBB57_1:
	adds	w8, w2, #1
	b.lo	.LBB57_5
	mov	w0, #1
	ret
.LBB57_3:
	ldr	x9, [x0, #8]
	cmp	x9, x8
	b.hs	.LBB57_7
	mov	w0, #1
	ret
.LBB57_5:
	ldr	x9, [x0, #8]
	cmp	x9, x8
	b.hs	.LBB57_9
	mov	w0, #1
	ret
.LBB57_7:
	mov	w9, #24
	ldr	x10, [x0]
	umaddl	x8, w8, w9, x10
	ldurb	w8, [x8, #-24]
	tbnz	w8, #0, .LBB57_1
	mov	w0, #3
	ret
.LBB57_9:
	mov	w9, #24
	ldr	x10, [x0]
	umaddl	x8, w8, w9, x10
	mov	w9, #5
	ldurb	w8, [x8, #-24]
	tst	w8, #0x1
	mov	w8, #2
	csel	w0, w9, w8, eq
	ret
.Lfunc_end57:
	.size	ic_raw.table.RawTable.refusal.19bacce014a8892a, .Lfunc_end57-ic_raw.table.RawTable.refusal.19bacce014a8892a
	.cfi_endproc
	.section	.text.ic_raw.tree_calls.insert_at,"ax",@progbits
	.p2align	2
	.type	ic_raw.tree_calls.insert_at,@function
ic_raw.tree_calls.insert_at:
	.cfi_startproc
	sub	sp, sp, #32
	.cfi_def_cfa_offset 32
	stp	x29, x30, [sp, #16]
	add	x29, sp, #16
	.cfi_def_cfa w29, 16
	.cfi_offset w30, -8
	.cfi_offset w29, -16
	.cfi_remember_state
	ldr	x8, [x2]
	adds	w10, w4, #1
	stp	x0, x1, [sp]
	and	x8, x8, #0xffffffff8
	b.lo	.LBB58_2
	cbz	x8, .LBB58_7
	b	.LBB58_14
.LBB58_2:
	cmp	x1, x10
	b.lo	.LBB58_14
	mov	w9, #24
	umaddl	x9, w10, w9, x0
	ldurb	w11, [x9, #-24]
	tbz	w11, #0, .LBB58_14
	sub	x11, x8, #1
	cmp	x11, x1, lsl #3
	b.hs	.LBB58_14
	lsr	x11, x8, #3
	mov	w12, #24
	madd	x11, x11, x12, x0
	ldurb	w11, [x11, #-24]
	tbz	w11, #0, .LBB58_14
	tst	w3, #0x1
	mov	x11, #-24
	mov	x12, #-16
	csel	x11, x12, x11, ne
	ldr	x9, [x9, x11]
	tst	x9, #0xffffffff8
	b.ne	.LBB58_14
.LBB58_7:
	add	w9, w5, #1
	cbz	w9, .LBB58_14
	cmp	x1, x9
	b.lo	.LBB58_14
	mov	w11, #24
	umaddl	x11, w9, w11, x0
	ldurb	w12, [x11, #-24]
	tbnz	w12, #0, .LBB58_14
	ubfiz	x9, x9, #3, #32
	mov	w12, #1
	stp	xzr, xzr, [x11, #-16]
	stur	x12, [x11, #-24]
	cbz	w10, .LBB58_13
	mov	w12, #24
	ubfiz	x13, x10, #3, #32
	tst	w3, #0xff
	umaddl	x10, w10, w12, x0
	stur	x13, [x11, #-8]
	b.eq	.LBB58_15
	stur	x9, [x10, #-16]
	b	.LBB58_16
.LBB58_13:
	mov	w8, #1
	stur	x8, [x11, #-8]
	mov	w0, wzr
	str	x9, [x2]
	.cfi_def_cfa wsp, 32
	ldp	x29, x30, [sp, #16]
	add	sp, sp, #32
	.cfi_def_cfa_offset 0
	.cfi_restore w30
	.cfi_restore w29
	ret
.LBB58_14:
	.cfi_restore_state
	.cfi_remember_state
	mov	x0, sp
	mov	w1, w4
	mov	w2, w5
	bl	ic_raw.table.RawTable.refusal.19bacce014a8892a
	.cfi_def_cfa wsp, 32
	ldp	x29, x30, [sp, #16]
	add	sp, sp, #32
	.cfi_def_cfa_offset 0
	.cfi_restore w30
	.cfi_restore w29
	ret
.LBB58_15:
	.cfi_restore_state
	.cfi_remember_state
	ldur	x11, [x10, #-24]
	and	x11, x11, #0x1
	orr	x11, x11, x9
	stur	x11, [x10, #-24]
.LBB58_16:
	lsl	x11, x1, #3
	mov	w12, wzr
	mov	w16, #67
	b	.LBB58_18
.LBB58_17:
	and	x9, x13, #0xffffffff8
	ldur	x13, [x12, #-8]
	sub	x9, x9, #1
	cmp	x9, x11
	and	x9, x13, #0xfffffffffffffffe
	cinc	x9, x9, hs
	stur	x9, [x12, #-8]
	and	x9, x9, #0xffffffff8
	cmp	x9, x11
	csel	x13, xzr, x9, hi
	mov	x9, x10
	cmp	x13, #0
	cset	w12, eq
	subs	w16, w16, #1
	b.eq	.LBB58_28
.LBB58_18:
	tbnz	w12, #0, .LBB58_28
	lsr	x10, x13, #2
	add	x10, x10, x13, lsr #3
	lsl	x14, x10, #3
	add	x15, x0, x14
	ldur	x1, [x15, #-8]
	tbnz	w1, #0, .LBB58_28
	and	x10, x1, #0xffffffff8
	sub	x12, x10, #1
	cmp	x12, x11
	b.hs	.LBB58_28
	lsr	x12, x10, #3
	mov	w17, #24
	madd	x12, x12, x17, x0
	ldur	x17, [x12, #-24]
	and	x3, x17, #0xffffffff8
	cmp	x3, x11
	csel	x3, xzr, x3, hi
	cmp	x3, x13
	b.ne	.LBB58_25
	ldur	x3, [x12, #-16]
	and	x3, x3, #0xffffffff8
	sub	x4, x3, #1
	cmp	x4, x11
	b.hs	.LBB58_35
	lsr	x3, x3, #3
	mov	w4, #24
	madd	x3, x3, x4, x0
	ldur	w4, [x3, #-8]
	tbnz	w4, #0, .LBB58_35
	orr	x9, x1, #0x1
	ldur	x13, [x12, #-8]
	stur	x9, [x15, #-8]
	ldur	x9, [x3, #-8]
	orr	x9, x9, #0x1
	stur	x9, [x3, #-8]
	b	.LBB58_17
.LBB58_25:
	cbz	x3, .LBB58_29
	lsr	x17, x3, #3
	mov	w3, #24
	madd	x17, x17, x3, x0
	ldur	w3, [x17, #-8]
	tbnz	w3, #0, .LBB58_29
	orr	x9, x1, #0x1
	ldur	x13, [x12, #-8]
	stur	x9, [x15, #-8]
	ldur	x9, [x17, #-8]
	orr	x9, x9, #0x1
	stur	x9, [x17, #-8]
	b	.LBB58_17
.LBB58_28:
	mov	w0, wzr
	str	x8, [x2]
	.cfi_def_cfa wsp, 32
	ldp	x29, x30, [sp, #16]
	add	sp, sp, #32
	.cfi_def_cfa_offset 0
	.cfi_restore w30
	.cfi_restore w29
	ret
.LBB58_29:
	.cfi_restore_state
	ldur	x17, [x15, #-24]
	and	x16, x17, #0xffffffff8
	cmp	x16, x11
	b.hi	.LBB58_38
	cmp	x16, x9
	b.ne	.LBB58_38
	lsr	x14, x9, #2
	add	x14, x14, x9, lsr #3
	lsl	x14, x14, #3
	add	x16, x0, x14
	ldur	x1, [x16, #-16]
	and	x1, x1, #0xffffffff8
	cmp	x1, x11
	csel	x1, xzr, x1, hi
	mov	x3, x1
	bfxil	x3, x17, #0, #1
	stur	x3, [x15, #-24]
	cbz	x1, .LBB58_33
	lsr	x17, x1, #3
	mov	w1, #24
	madd	x17, x17, x1, x0
	ldur	x1, [x17, #-8]
	and	x1, x1, #0x1
	orr	x1, x1, x13
	stur	x1, [x17, #-8]
.LBB58_33:
	ldur	x17, [x12, #-24]
	stur	x10, [x16, #-8]
	and	x1, x17, #0xffffffff8
	cmp	x1, x11
	csel	x1, xzr, x1, hi
	cmp	x1, x13
	b.ne	.LBB58_50
	and	x17, x17, #0x1
	orr	x17, x17, x9
	stur	x17, [x12, #-24]
	b	.LBB58_51
.LBB58_35:
	ldur	x16, [x15, #-24]
	and	x16, x16, #0xffffffff8
	cmp	x16, x11
	b.hi	.LBB58_39
	cmp	x16, x9
	b.ne	.LBB58_39
	mov	x9, x13
	b	.LBB58_42
.LBB58_38:
	mov	x9, x13
	b	.LBB58_52
.LBB58_39:
	lsr	x14, x9, #2
	add	x14, x14, x9, lsr #3
	lsl	x14, x14, #3
	add	x16, x0, x14
	ldur	x1, [x16, #-24]
	and	x1, x1, #0xffffffff8
	cmp	x1, x11
	csel	x1, xzr, x1, hi
	stur	x1, [x15, #-16]
	cbz	x1, .LBB58_41
	lsr	x1, x1, #3
	mov	w3, #24
	madd	x1, x1, x3, x0
	ldur	x3, [x1, #-8]
	and	x3, x3, #0x1
	orr	x3, x3, x13
	stur	x3, [x1, #-8]
.LBB58_41:
	and	x17, x17, #0x1
	stur	x10, [x16, #-8]
	orr	x17, x17, x9
	stur	x9, [x15, #-8]
	stur	x17, [x12, #-24]
	ldur	x17, [x16, #-24]
	and	x17, x17, #0x1
	orr	x13, x17, x13
	stur	x13, [x16, #-24]
	ldur	x17, [x12, #-24]
.LBB58_42:
	add	x13, x0, x14
	ldur	x14, [x13, #-16]
	and	x14, x14, #0xffffffff8
	cmp	x14, x11
	csel	x15, xzr, x14, hi
	ldur	x14, [x12, #-8]
	mov	x16, x15
	and	x14, x14, #0xffffffff8
	bfxil	x16, x17, #0, #1
	cmp	x14, x11
	csel	x14, xzr, x14, hi
	stur	x16, [x12, #-24]
	cbz	x15, .LBB58_44
	lsr	x15, x15, #3
	mov	w16, #24
	madd	x15, x15, x16, x0
	ldur	x16, [x15, #-8]
	and	x16, x16, #0x1
	orr	x16, x16, x10
	stur	x16, [x15, #-8]
.LBB58_44:
	orr	x15, x14, #0x1
	mov	x1, x9
	stur	x15, [x13, #-8]
	cbz	x14, .LBB58_49
	lsr	x14, x14, #3
	mov	w15, #24
	madd	x14, x14, x15, x0
	ldur	x15, [x14, #-24]
	and	x16, x15, #0xffffffff8
	cmp	x16, x11
	csel	x11, xzr, x16, hi
	cmp	x11, x10
	b.ne	.LBB58_47
	and	x11, x15, #0x1
	orr	x11, x11, x9
	stur	x11, [x14, #-24]
	b	.LBB58_48
.LBB58_47:
	stur	x9, [x14, #-16]
.LBB58_48:
	mov	x1, x8
.LBB58_49:
	stur	x10, [x13, #-16]
	b	.LBB58_60
.LBB58_50:
	stur	x9, [x12, #-16]
.LBB58_51:
	ldur	x17, [x16, #-24]
	stur	x13, [x16, #-16]
	stur	x9, [x15, #-8]
	and	x16, x17, #0xffffffff8
.LBB58_52:
	ldur	x13, [x12, #-8]
	cmp	x16, x11
	csel	x15, xzr, x16, hi
	and	x17, x13, #0xffffffff8
	add	x13, x0, x14
	stur	x15, [x12, #-16]
	cmp	x17, x11
	csel	x14, xzr, x17, hi
	cbz	x15, .LBB58_54
	lsr	x15, x15, #3
	mov	w16, #24
	madd	x15, x15, x16, x0
	ldur	x16, [x15, #-8]
	and	x16, x16, #0x1
	orr	x16, x16, x10
	stur	x16, [x15, #-8]
.LBB58_54:
	orr	x15, x14, #0x1
	mov	x1, x9
	stur	x15, [x13, #-8]
	cbz	x14, .LBB58_59
	lsr	x14, x14, #3
	mov	w15, #24
	madd	x14, x14, x15, x0
	ldur	x15, [x14, #-24]
	and	x16, x15, #0xffffffff8
	cmp	x16, x11
	csel	x11, xzr, x16, hi
	cmp	x11, x10
	b.ne	.LBB58_57
	and	x11, x15, #0x1
	orr	x11, x11, x9
	stur	x11, [x14, #-24]
	b	.LBB58_58
.LBB58_57:
	stur	x9, [x14, #-16]
.LBB58_58:
	mov	x1, x8
.LBB58_59:
	ldur	x8, [x13, #-24]
	and	x8, x8, #0x1
	orr	x8, x8, x10
	stur	x8, [x13, #-24]
.LBB58_60:
	stur	x9, [x12, #-8]
	mov	w0, wzr
	str	x1, [x2]
	.cfi_def_cfa wsp, 32
	ldp	x29, x30, [sp, #16]
	add	sp, sp, #32
	.cfi_def_cfa_offset 0
	.cfi_restore w30
	.cfi_restore w29
	ret
.Lfunc_end58:
	.size	ic_raw.tree_calls.insert_at, .Lfunc_end58-ic_raw.tree_calls.insert_at
	.cfi_endproc
	.section	.text.ic_raw_keyed.ends_calls.remove,"ax",@progbits
	.p2align	2
	.type	ic_raw_keyed.ends_calls.remove,@function
ic_raw_keyed.ends_calls.remove:
	.cfi_startproc
	stp	x29, x30, [sp, #-48]!
	.cfi_def_cfa_offset 48
	str	x21, [sp, #16]
	stp	x20, x19, [sp, #32]
	mov	x29, sp
	.cfi_def_cfa w29, 48
	.cfi_offset w19, -8
	.cfi_offset w20, -16
	.cfi_offset w21, -32
	.cfi_offset w30, -40
	.cfi_offset w29, -48
	.cfi_remember_state
	adds	w9, w4, #1
	b.lo	.LBB59_3
	mov	w0, #4
.LBB59_2:
	.cfi_def_cfa wsp, 48
	ldp	x20, x19, [sp, #32]
	ldr	x21, [sp, #16]
	ldp	x29, x30, [sp], #48
	.cfi_def_cfa_offset 0
	.cfi_restore w19
	.cfi_restore w20
	.cfi_restore w21
	.cfi_restore w30
	.cfi_restore w29
	ret
.LBB59_3:
	.cfi_restore_state
	.cfi_remember_state
	ldr	x10, [x3]
	ubfiz	x8, x9, #3, #32
	and	x19, x10, #0xffffffff8
	cmp	x19, x8
	b.ne	.LBB59_13
	cmp	x1, x9
	b.lo	.LBB59_7
	ldr	x10, [x2]
	tst	x10, #0xffffffff8
	b.eq	.LBB59_25
	ubfx	x10, x10, #3, #33
	cmp	x10, x1
	b.ls	.LBB59_25
.LBB59_7:
	mov	w11, wzr
.LBB59_8:
	mov	x19, xzr
.LBB59_9:
	cmp	x19, x8
	b.eq	.LBB59_35
	cbz	w11, .LBB59_13
	lsr	x10, x19, #3
	cmp	x10, x1
	b.hi	.LBB59_35
	mov	w11, #24
	madd	x10, x10, x11, x0
	ldurb	w10, [x10, #-24]
	tbz	w10, #0, .LBB59_35
.LBB59_13:
	ldr	x10, [x3, #8]
	and	x20, x10, #0xffffffff8
	cmp	x20, x8
	b.ne	.LBB59_23
	cmp	x1, x9
	b.lo	.LBB59_17
	ldr	x10, [x2]
	tst	x10, #0xffffffff8
	b.eq	.LBB59_30
	ubfx	x10, x10, #3, #33
	cmp	x10, x1
	b.ls	.LBB59_30
.LBB59_17:
	mov	w10, wzr
.LBB59_18:
	mov	x20, xzr
.LBB59_19:
	cmp	x20, x8
	b.eq	.LBB59_35
	cbz	w10, .LBB59_23
	lsr	x9, x20, #3
	cmp	x9, x1
	b.hi	.LBB59_35
	mov	w10, #24
	madd	x9, x9, x10, x0
	ldurb	w9, [x9, #-24]
	tbz	w9, #0, .LBB59_35
.LBB59_23:
	mov	x21, x3
	mov	w3, w4
	bl	ic_raw.tree_calls.remove
	cbnz	w0, .LBB59_2
	stp	x19, x20, [x21]
	.cfi_def_cfa wsp, 48
	ldp	x20, x19, [sp, #32]
	ldr	x21, [sp, #16]
	ldp	x29, x30, [sp], #48
	.cfi_def_cfa_offset 0
	.cfi_restore w19
	.cfi_restore w20
	.cfi_restore w21
	.cfi_restore w30
	.cfi_restore w29
	ret
.LBB59_25:
	.cfi_restore_state
	.cfi_remember_state
	mov	w10, #24
	umaddl	x11, w9, w10, x0
	lsl	x10, x1, #3
	ldur	x12, [x11, #-16]
	and	x12, x12, #0xffffffff8
	sub	x13, x12, #1
	cmp	x13, x10
	b.hs	.LBB59_36
	mov	w11, #67
.LBB59_27:
	lsr	x13, x12, #3
	mov	w14, #24
	madd	x13, x13, x14, x0
	ldur	x13, [x13, #-24]
	and	x19, x13, #0xffffffff8
	sub	x13, x19, #1
	cmp	x13, x10
	b.hs	.LBB59_44
	subs	w11, w11, #1
	mov	x12, x19
	b.ne	.LBB59_27
	mov	w11, #1
	b	.LBB59_9
.LBB59_30:
	mov	w10, #24
	umaddl	x10, w9, w10, x0
	lsl	x9, x1, #3
	ldur	x11, [x10, #-24]
	and	x20, x11, #0xffffffff8
	sub	x11, x20, #1
	cmp	x11, x9
	b.hs	.LBB59_40
	mov	w10, #67
.LBB59_32:
	lsr	x11, x20, #3
	mov	w12, #24
	madd	x11, x11, x12, x0
	ldur	x11, [x11, #-16]
	and	x11, x11, #0xffffffff8
	sub	x12, x11, #1
	cmp	x12, x9
	b.hs	.LBB59_45
	subs	w10, w10, #1
	mov	x20, x11
	b.ne	.LBB59_32
	mov	w10, #1
	mov	x20, x11
	b	.LBB59_19
.LBB59_35:
	mov	x2, x8
	.cfi_def_cfa wsp, 48
	ldp	x20, x19, [sp, #32]
	ldr	x21, [sp, #16]
	ldp	x29, x30, [sp], #48
	.cfi_def_cfa_offset 0
	.cfi_restore w19
	.cfi_restore w20
	.cfi_restore w21
	.cfi_restore w30
	.cfi_restore w29
	b	ic_raw.table.RawTable.refusal_of.59019f4869331413
.LBB59_36:
	.cfi_restore_state
	ldur	x11, [x11, #-8]
	and	x13, x11, #0xffffffff8
	sub	x11, x13, #1
	cmp	x11, x10
	b.hs	.LBB59_7
	mov	w12, #-67
	mov	x19, x8
.LBB59_38:
	mov	x11, x19
	mov	x19, x13
	lsr	x13, x13, #3
	mov	w14, #24
	madd	x13, x13, x14, x0
	ldur	x14, [x13, #-16]
	and	x14, x14, #0xffffffff8
	cmp	x14, x11
	ccmp	w12, #0, #4, eq
	cset	w11, eq
	b.eq	.LBB59_9
	ldur	x13, [x13, #-8]
	add	w12, w12, #1
	and	x13, x13, #0xffffffff8
	sub	x14, x13, #1
	cmp	x14, x10
	b.lo	.LBB59_38
	b	.LBB59_8
.LBB59_40:
	ldur	x10, [x10, #-8]
	and	x12, x10, #0xffffffff8
	sub	x10, x12, #1
	cmp	x10, x9
	b.hs	.LBB59_17
	mov	w11, #-67
	mov	x20, x8
.LBB59_42:
	mov	x10, x20
	mov	x20, x12
	lsr	x12, x12, #3
	mov	w13, #24
	madd	x12, x12, x13, x0
	ldur	x13, [x12, #-24]
	and	x13, x13, #0xffffffff8
	cmp	x13, x10
	ccmp	w11, #0, #4, eq
	cset	w10, eq
	b.eq	.LBB59_19
	ldur	x12, [x12, #-8]
	add	w11, w11, #1
	and	x12, x12, #0xffffffff8
	sub	x13, x12, #1
	cmp	x13, x9
	b.lo	.LBB59_42
	b	.LBB59_18
.LBB59_44:
	mov	w11, #1
	mov	x19, x12
	b	.LBB59_9
.LBB59_45:
	mov	w10, #1
	b	.LBB59_19
.Lfunc_end59:
	.size	ic_raw_keyed.ends_calls.remove, .Lfunc_end59-ic_raw_keyed.ends_calls.remove
	.cfi_endproc
	.section	.text.unlikely.ic_raw.table.RawTable.refusal_of.59019f4869331413,"ax",@progbits
	.p2align	2
	.type	ic_raw.table.RawTable.refusal_of.59019f4869331413,@function
ic_raw.table.RawTable.refusal_of.59019f4869331413:
	.cfi_startproc
	lsr	x8, x2, #3
	cmp	x8, x1
	b.ls	.LBB60_2
	mov	w0, #1
	ret
.LBB60_2:
	mov	w9, #24
	madd	x8, x8, x9, x0
	mov	w9, #3
	ldurb	w8, [x8, #-24]
	tst	w8, #0x1
	mov	w8, #5
	csel	w0, w9, w8, eq
	ret
.Lfunc_end60:
	.size	ic_raw.table.RawTable.refusal_of.59019f4869331413, .Lfunc_end60-ic_raw.table.RawTable.refusal_of.59019f4869331413
	.cfi_endproc
	.section	.text.ic_raw.tree_calls.remove,"ax",@progbits
	.p2align	2
	.type	ic_raw.tree_calls.remove,@function
ic_raw.tree_calls.remove:
	.cfi_startproc
	adds	w11, w3, #1
	b.lo	.LBB61_2
	mov	w0, #4
	ret
.LBB61_2:
	cmp	x1, x11
	b.lo	.LBB61_20
	mov	w8, #24
	umaddl	x8, w11, w8, x0
	ldur	x13, [x8, #-24]
	tbz	w13, #0, .LBB61_20
	ldr	x9, [x2]
	and	x10, x9, #0xffffffff8
	lsl	x9, x1, #3
	sub	x12, x10, #1
	cmp	x12, x9
	b.hs	.LBB61_20
	lsr	x12, x10, #3
	mov	w14, #24
	madd	x12, x12, x14, x0
	ldurb	w12, [x12, #-24]
	tbz	w12, #0, .LBB61_20
	ubfiz	x12, x11, #3, #32
	ldur	x16, [x8, #-8]
	cmp	x10, x12
	and	x11, x16, #0xffffffff8
	b.eq	.LBB61_8
	cbz	x11, .LBB61_20
.LBB61_8:
	and	x15, x13, #0xffffffff8
	ldur	x14, [x8, #-16]
	sub	x13, x15, #1
	cmp	x13, x9
	and	x13, x14, #0xffffffff8
	b.hs	.LBB61_14
	sub	x14, x13, #1
	cmp	x14, x9
	b.hs	.LBB61_15
	mov	w14, #67
.LBB61_11:
	lsr	x11, x13, #3
	mov	w15, #24
	madd	x11, x11, x15, x0
	ldur	x15, [x11, #-24]
	and	x15, x15, #0xffffffff8
	sub	x16, x15, #1
	cmp	x16, x9
	b.hs	.LBB61_25
	subs	w14, w14, #1
	mov	x13, x15
	b.ne	.LBB61_11
	lsr	x11, x15, #3
	mov	w13, #24
	madd	x11, x11, x13, x0
	ldur	x13, [x11, #-24]
	and	x17, x13, #0xffffffff8
	sub	x13, x17, #1
	cmp	x13, x9
	b.hs	.LBB61_26
	b	.LBB61_27
.LBB61_14:
	cmp	x13, x9
	csel	x15, xzr, x13, hi
.LBB61_15:
	cmp	x11, x9
	csel	x11, xzr, x11, hi
	cmp	x11, #0
	cset	w13, ne
	cbz	x11, .LBB61_21
	lsr	x14, x11, #3
	mov	w17, #24
	madd	x17, x14, x17, x0
	ldur	x1, [x17, #-24]
	and	x14, x1, #0xffffffff8
	cmp	x14, x9
	csel	x14, xzr, x14, hi
	cmp	x14, x12
	b.ne	.LBB61_24
	and	x12, x1, #0x1
	mov	w14, wzr
	add	x12, x12, x15
	stur	x12, [x17, #-24]
	cbnz	x15, .LBB61_22
.LBB61_18:
	mov	x1, x10
	tbnz	w16, #0, .LBB61_46
.LBB61_19:
	mov	w0, wzr
	stur	xzr, [x8, #-24]
	str	x1, [x2]
	ret
.LBB61_20:
	mov	w2, w3
	b	ic_raw.table.RawTable.refusal_at.19bacce014a8892a
.LBB61_21:
	mov	w14, wzr
	mov	x10, x15
	cbz	x15, .LBB61_18
.LBB61_22:
	lsr	x9, x15, #3
	mov	w12, #24
	orr	x11, x11, #0x1
	madd	x9, x9, x12, x0
	stur	x11, [x9, #-8]
.LBB61_23:
	mov	w0, wzr
	stur	xzr, [x8, #-24]
	str	x10, [x2]
	ret
.LBB61_24:
	mov	w14, #1
	stur	x15, [x17, #-16]
	cbnz	x15, .LBB61_22
	b	.LBB61_18
.LBB61_25:
	mov	x15, x13
.LBB61_26:
	ldur	x13, [x11, #-16]
	and	x13, x13, #0xffffffff8
	cmp	x13, x9
	csel	x17, xzr, x13, hi
.LBB61_27:
	ldur	x16, [x11, #-8]
	and	x11, x16, #0xffffffff8
	cmp	x11, x9
	csel	x11, xzr, x11, hi
	cmp	x11, #0
	cset	w13, ne
	cbz	x11, .LBB61_30
	lsr	x14, x11, #3
	mov	w1, #24
	madd	x1, x14, x1, x0
	ldur	x3, [x1, #-24]
	and	x14, x3, #0xffffffff8
	cmp	x14, x9
	csel	x14, xzr, x14, hi
	cmp	x14, x15
	b.ne	.LBB61_31
	and	x3, x3, #0x1
	mov	w14, wzr
	add	x3, x3, x17
	stur	x3, [x1, #-24]
	b	.LBB61_32
.LBB61_30:
	mov	w14, wzr
	mov	x10, x17
	b	.LBB61_32
.LBB61_31:
	mov	w14, #1
	stur	x17, [x1, #-16]
.LBB61_32:
	cbz	x17, .LBB61_34
	lsr	x17, x17, #3
	mov	w1, #24
	mov	w16, wzr
	madd	x17, x17, x1, x0
	orr	x1, x11, #0x1
	stur	x1, [x17, #-8]
.LBB61_34:
	cmp	x15, x12
	b.ne	.LBB61_36
	mov	x1, x10
	tbnz	w16, #0, .LBB61_46
	b	.LBB61_19
.LBB61_36:
	ldp	x4, x17, [x8, #-16]
	ldur	x1, [x8, #-24]
	and	x1, x1, #0xffffffff8
	and	x3, x17, #0xffffffff8
	and	x4, x4, #0xffffffff8
	cmp	x3, x9
	csel	x3, xzr, x3, hi
	cmp	x1, x9
	csel	x5, xzr, x1, hi
	cmp	x4, x9
	mov	x1, x15
	csel	x4, xzr, x4, hi
	cbz	x3, .LBB61_41
	lsr	x1, x3, #3
	mov	w6, #24
	madd	x1, x1, x6, x0
	ldur	x6, [x1, #-24]
	and	x7, x6, #0xffffffff8
	cmp	x7, x9
	csel	x7, xzr, x7, hi
	cmp	x7, x12
	b.ne	.LBB61_39
	and	x6, x6, #0x1
	add	x6, x6, x15
	stur	x6, [x1, #-24]
	b	.LBB61_40
.LBB61_39:
	stur	x15, [x1, #-16]
.LBB61_40:
	mov	x1, x10
.LBB61_41:
	cbz	x5, .LBB61_43
	lsr	x10, x5, #3
	mov	w6, #24
	madd	x10, x10, x6, x0
	ldur	x6, [x10, #-8]
	and	x6, x6, #0x1
	add	x6, x6, x15
	stur	x6, [x10, #-8]
.LBB61_43:
	cbz	x4, .LBB61_45
	lsr	x10, x4, #3
	mov	w6, #24
	madd	x10, x10, x6, x0
	ldur	x6, [x10, #-8]
	and	x6, x6, #0x1
	add	x6, x6, x15
	stur	x6, [x10, #-8]
.LBB61_45:
	lsr	x10, x15, #3
	mov	w6, #24
	and	x17, x17, #0x1
	cmp	x11, x12
	orr	x12, x3, x17
	madd	x10, x10, x6, x0
	csel	x11, x15, x11, eq
	ldur	x6, [x10, #-24]
	stur	x12, [x10, #-8]
	and	x6, x6, #0x1
	orr	x5, x6, x5
	stp	x5, x4, [x10, #-24]
	tbz	w16, #0, .LBB61_19
.LBB61_46:
	cbz	w13, .LBB61_19
	mov	w13, #67
	mov	x10, x1
.LBB61_48:
	lsr	x12, x11, #3
	mov	w15, #24
	madd	x12, x12, x15, x0
	tbz	w14, #0, .LBB61_52
	ldur	x1, [x12, #-24]
	and	x15, x1, #0xffffffff8
	sub	x14, x15, #1
	cmp	x14, x9
	b.hs	.LBB61_23
	lsr	x14, x15, #2
	add	x14, x14, x15, lsr #3
	lsl	x16, x14, #3
	add	x17, x0, x16
	ldur	w14, [x17, #-8]
	tbz	w14, #0, .LBB61_55
	mov	x14, x15
	add	x17, x0, x16
	ldur	x15, [x17, #-24]
	and	x1, x15, #0xffffffff8
	sub	x3, x1, #1
	cmp	x3, x9
	b.lo	.LBB61_70
	b	.LBB61_71
.LBB61_52:
	ldur	x14, [x12, #-16]
	and	x15, x14, #0xffffffff8
	sub	x14, x15, #1
	cmp	x14, x9
	b.hs	.LBB61_23
	lsr	x14, x15, #2
	add	x14, x14, x15, lsr #3
	lsl	x1, x14, #3
	add	x16, x0, x1
	ldur	w14, [x16, #-8]
	tbz	w14, #0, .LBB61_60
	mov	x14, x15
	add	x15, x0, x1
	ldur	x5, [x15, #-24]
	and	x16, x5, #0xffffffff8
	sub	x17, x16, #1
	cmp	x17, x9
	b.lo	.LBB61_77
	b	.LBB61_78
.LBB61_55:
	ldur	x14, [x17, #-16]
	ldur	x16, [x12, #-8]
	and	x14, x14, #0xffffffff8
	and	x16, x16, #0xffffffff8
	cmp	x14, x9
	csel	x14, xzr, x14, hi
	cmp	x16, x9
	mov	x3, x14
	csel	x16, xzr, x16, hi
	bfxil	x3, x1, #0, #1
	stur	x3, [x12, #-24]
	cbz	x14, .LBB61_57
	lsr	x1, x14, #3
	mov	w3, #24
	madd	x1, x1, x3, x0
	ldur	x3, [x1, #-8]
	and	x3, x3, #0x1
	orr	x3, x3, x11
	stur	x3, [x1, #-8]
.LBB61_57:
	orr	x1, x16, #0x1
	stur	x1, [x17, #-8]
	cbz	x16, .LBB61_65
	lsr	x16, x16, #3
	mov	w1, #24
	madd	x16, x16, x1, x0
	ldur	x1, [x16, #-24]
	and	x3, x1, #0xffffffff8
	cmp	x3, x9
	csel	x3, xzr, x3, hi
	cmp	x3, x11
	b.ne	.LBB61_67
	and	x14, x1, #0x1
	orr	x14, x14, x15
	stur	x14, [x16, #-24]
	ldur	x14, [x12, #-24]
	and	x14, x14, #0xffffffff8
	b	.LBB61_68
.LBB61_60:
	ldur	x17, [x16, #-24]
	ldur	x14, [x12, #-8]
	and	x1, x17, #0xffffffff8
	and	x3, x14, #0xffffffff8
	cmp	x1, x9
	csel	x14, xzr, x1, hi
	cmp	x3, x9
	csel	x1, xzr, x3, hi
	stur	x14, [x12, #-16]
	cbz	x14, .LBB61_62
	lsr	x3, x14, #3
	mov	w4, #24
	madd	x3, x3, x4, x0
	ldur	x4, [x3, #-8]
	and	x4, x4, #0x1
	orr	x4, x4, x11
	stur	x4, [x3, #-8]
.LBB61_62:
	orr	x3, x1, #0x1
	stur	x3, [x16, #-8]
	cbz	x1, .LBB61_66
	lsr	x1, x1, #3
	mov	w3, #24
	madd	x1, x1, x3, x0
	ldur	x3, [x1, #-24]
	and	x4, x3, #0xffffffff8
	cmp	x4, x9
	csel	x4, xzr, x4, hi
	cmp	x4, x11
	b.ne	.LBB61_74
	and	x17, x3, #0x1
	orr	x17, x17, x15
	stur	x17, [x1, #-24]
	ldur	x17, [x16, #-24]
	b	.LBB61_75
.LBB61_65:
	mov	x10, x15
	b	.LBB61_68
.LBB61_66:
	mov	x10, x15
	b	.LBB61_75
.LBB61_67:
	stur	x15, [x16, #-16]
.LBB61_68:
	sub	x16, x14, #1
	stur	x11, [x17, #-16]
	cmp	x16, x9
	stur	x15, [x12, #-8]
	b.hs	.LBB61_23
	lsr	x15, x14, #2
	add	x15, x15, x14, lsr #3
	lsl	x16, x15, #3
	add	x17, x0, x16
	ldur	x15, [x17, #-24]
	and	x1, x15, #0xffffffff8
	sub	x3, x1, #1
	cmp	x3, x9
	b.hs	.LBB61_71
.LBB61_70:
	lsr	x15, x1, #3
	mov	w4, #24
	madd	x15, x15, x4, x0
	ldur	x15, [x15, #-8]
	tbz	w15, #0, .LBB61_94
.LBB61_71:
	ldur	x15, [x17, #-16]
	and	x15, x15, #0xffffffff8
	sub	x4, x15, #1
	cmp	x4, x9
	b.hs	.LBB61_73
	lsr	x5, x15, #3
	mov	w6, #24
	madd	x5, x5, x6, x0
	ldur	w5, [x5, #-8]
	tbz	w5, #0, .LBB61_92
.LBB61_73:
	ldur	x14, [x17, #-8]
	and	x14, x14, #0xfffffffffffffffe
	stur	x14, [x17, #-8]
	b	.LBB61_81
.LBB61_74:
	stur	x15, [x1, #-16]
	ldur	x14, [x12, #-16]
	and	x14, x14, #0xffffffff8
.LBB61_75:
	and	x17, x17, #0x1
	sub	x1, x14, #1
	stur	x15, [x12, #-8]
	orr	x17, x17, x11
	cmp	x1, x9
	stur	x17, [x16, #-24]
	b.hs	.LBB61_23
	lsr	x15, x14, #2
	add	x15, x15, x14, lsr #3
	lsl	x1, x15, #3
	add	x15, x0, x1
	ldur	x5, [x15, #-24]
	and	x16, x5, #0xffffffff8
	sub	x17, x16, #1
	cmp	x17, x9
	b.hs	.LBB61_78
.LBB61_77:
	lsr	x17, x16, #2
	add	x17, x17, x16, lsr #3
	lsl	x17, x17, #3
	add	x3, x0, x17
	ldur	w4, [x3, #-8]
	tbz	w4, #0, .LBB61_85
.LBB61_78:
	ldur	x16, [x15, #-16]
	and	x16, x16, #0xffffffff8
	sub	x17, x16, #1
	cmp	x17, x9
	b.hs	.LBB61_80
	lsr	x17, x16, #2
	add	x16, x17, x16, lsr #3
	lsl	x4, x16, #3
	add	x16, x0, x4
	ldur	x6, [x16, #-8]
	tbz	w6, #0, .LBB61_107
.LBB61_80:
	ldur	x14, [x15, #-8]
	and	x14, x14, #0xfffffffffffffffe
	stur	x14, [x15, #-8]
.LBB61_81:
	ldur	x14, [x12, #-8]
	tbz	w14, #0, .LBB61_84
	and	x12, x14, #0xffffffff8
	sub	x14, x12, #1
	cmp	x14, x9
	b.hs	.LBB61_23
	lsr	x14, x12, #3
	mov	w15, #24
	madd	x14, x14, x15, x0
	ldur	x14, [x14, #-24]
	and	x14, x14, #0xffffffff8
	cmp	x14, x9
	csel	x14, xzr, x14, hi
	cmp	x14, x11
	mov	x11, x12
	cset	w14, ne
	subs	w13, w13, #1
	b.ne	.LBB61_48
	b	.LBB61_23
.LBB61_84:
	orr	x9, x14, #0x1
	stur	x9, [x12, #-8]
	mov	w0, wzr
	stur	xzr, [x8, #-24]
	str	x10, [x2]
	ret
.LBB61_85:
	ldur	x13, [x15, #-16]
	and	x13, x13, #0xffffffff8
	sub	x4, x13, #1
	cmp	x4, x9
	b.hs	.LBB61_87
	lsr	x4, x13, #2
	add	x13, x4, x13, lsr #3
	lsl	x4, x13, #3
	add	x13, x0, x4
	ldur	x6, [x13, #-8]
	tbz	w6, #0, .LBB61_107
.LBB61_87:
	ldur	x13, [x3, #-16]
	and	x13, x13, #0xffffffff8
	cmp	x13, x9
	csel	x1, xzr, x13, hi
	ldur	x13, [x15, #-8]
	mov	x4, x1
	and	x13, x13, #0xffffffff8
	bfxil	x4, x5, #0, #1
	cmp	x13, x9
	csel	x13, xzr, x13, hi
	stur	x4, [x15, #-24]
	cbz	x1, .LBB61_89
	lsr	x1, x1, #3
	mov	w4, #24
	madd	x1, x1, x4, x0
	ldur	x4, [x1, #-8]
	and	x4, x4, #0x1
	orr	x4, x4, x14
	stur	x4, [x1, #-8]
.LBB61_89:
	orr	x1, x13, #0x1
	stur	x1, [x3, #-8]
	mov	x1, x16
	cbz	x13, .LBB61_105
	lsr	x13, x13, #3
	mov	w1, #24
	madd	x13, x13, x1, x0
	ldur	x1, [x13, #-24]
	and	x4, x1, #0xffffffff8
	cmp	x4, x9
	ccmp	x4, x14, #0, ls
	b.eq	.LBB61_103
	stur	x16, [x13, #-16]
	b	.LBB61_104
.LBB61_92:
	cmp	x3, x9
	b.hs	.LBB61_96
	lsr	x13, x1, #3
	mov	w15, #24
	madd	x13, x13, x15, x0
	ldur	x15, [x13, #-8]
.LBB61_94:
	tbz	w15, #0, .LBB61_102
	ldur	x13, [x17, #-16]
	and	x15, x13, #0xffffffff8
	sub	x4, x15, #1
.LBB61_96:
	cmp	x4, x9
	b.hs	.LBB61_23
	lsr	x13, x15, #2
	ldur	x3, [x17, #-8]
	add	x13, x13, x15, lsr #3
	and	x4, x3, #0xffffffff8
	lsl	x16, x13, #3
	add	x13, x0, x16
	ldur	x1, [x13, #-24]
	and	x1, x1, #0xffffffff8
	cmp	x1, x9
	csel	x3, xzr, x1, hi
	cmp	x4, x9
	csel	x1, xzr, x4, hi
	stur	x3, [x17, #-16]
	cbz	x3, .LBB61_99
	lsr	x3, x3, #3
	mov	w4, #24
	madd	x3, x3, x4, x0
	ldur	x4, [x3, #-8]
	and	x4, x4, #0x1
	orr	x4, x4, x14
	stur	x4, [x3, #-8]
.LBB61_99:
	orr	x3, x1, #0x1
	mov	x4, x15
	stur	x3, [x13, #-8]
	cbz	x1, .LBB61_117
	lsr	x1, x1, #3
	mov	w3, #24
	madd	x1, x1, x3, x0
	ldur	x3, [x1, #-24]
	and	x4, x3, #0xffffffff8
	cmp	x4, x9
	ccmp	x4, x14, #0, ls
	b.eq	.LBB61_115
	stur	x15, [x1, #-16]
	b	.LBB61_116
.LBB61_102:
	mov	x15, x14
	b	.LBB61_118
.LBB61_103:
	and	x1, x1, #0x1
	orr	x1, x1, x16
	stur	x1, [x13, #-24]
.LBB61_104:
	mov	x1, x10
.LBB61_105:
	stur	x14, [x3, #-16]
	stur	x16, [x15, #-8]
	ldur	x10, [x3, #-16]
	and	x10, x10, #0xffffffff8
	sub	x13, x10, #1
	cmp	x13, x9
	b.hs	.LBB61_19
	lsr	x13, x10, #2
	mov	x14, x16
	add	x10, x13, x10, lsr #3
	lsl	x4, x10, #3
	add	x10, x0, x4
	ldur	x6, [x10, #-8]
	mov	x10, x1
	mov	x1, x17
.LBB61_107:
	add	x13, x0, x4
	orr	x15, x6, #0x1
	ldur	x16, [x12, #-8]
	stur	x15, [x13, #-8]
	add	x13, x0, x1
	ldur	x15, [x13, #-24]
	ldur	x17, [x12, #-8]
	and	x16, x16, #0x1
	and	x15, x15, #0xffffffff8
	and	x1, x17, #0xffffffff8
	cmp	x15, x9
	csel	x17, xzr, x15, hi
	cmp	x1, x9
	csel	x15, xzr, x1, hi
	stur	x17, [x12, #-16]
	cbz	x17, .LBB61_109
	lsr	x17, x17, #3
	mov	w1, #24
	madd	x17, x17, x1, x0
	ldur	x1, [x17, #-8]
	and	x1, x1, #0x1
	orr	x1, x1, x11
	stur	x1, [x17, #-8]
.LBB61_109:
	orr	x16, x15, x16
	mov	x1, x14
	stur	x16, [x13, #-8]
	cbz	x15, .LBB61_114
	lsr	x15, x15, #3
	mov	w16, #24
	madd	x15, x15, x16, x0
	ldur	x16, [x15, #-24]
	and	x17, x16, #0xffffffff8
	cmp	x17, x9
	csel	x9, xzr, x17, hi
	cmp	x9, x11
	b.ne	.LBB61_112
	and	x9, x16, #0x1
	orr	x9, x9, x14
	stur	x9, [x15, #-24]
	b	.LBB61_113
.LBB61_112:
	stur	x14, [x15, #-16]
.LBB61_113:
	mov	x1, x10
.LBB61_114:
	ldur	x9, [x13, #-24]
	orr	x10, x14, #0x1
	and	x9, x9, #0x1
	orr	x9, x9, x11
	stur	x9, [x13, #-24]
	stur	x10, [x12, #-8]
	mov	w0, wzr
	stur	xzr, [x8, #-24]
	str	x1, [x2]
	ret
.LBB61_115:
	and	x3, x3, #0x1
	orr	x3, x3, x15
	stur	x3, [x1, #-24]
.LBB61_116:
	mov	x4, x10
.LBB61_117:
	ldur	x10, [x13, #-24]
	and	x10, x10, #0x1
	orr	x10, x10, x14
	stur	x10, [x13, #-24]
	stur	x15, [x17, #-8]
	ldur	x10, [x13, #-24]
	and	x1, x10, #0xffffffff8
	mov	x10, x4
	sub	x3, x1, #1
.LBB61_118:
	cmp	x3, x9
	b.hs	.LBB61_23
	lsr	x13, x1, #3
	mov	w14, #24
	ldur	x17, [x12, #-8]
	ldur	x1, [x12, #-24]
	madd	x13, x13, x14, x0
	and	x17, x17, #0x1
	ldur	x14, [x13, #-8]
	orr	x14, x14, #0x1
	stur	x14, [x13, #-8]
	add	x13, x0, x16
	ldur	x14, [x13, #-16]
	and	x14, x14, #0xffffffff8
	cmp	x14, x9
	csel	x16, xzr, x14, hi
	ldur	x14, [x12, #-8]
	mov	x3, x16
	and	x14, x14, #0xffffffff8
	bfxil	x3, x1, #0, #1
	cmp	x14, x9
	csel	x14, xzr, x14, hi
	stur	x3, [x12, #-24]
	cbz	x16, .LBB61_121
	lsr	x16, x16, #3
	mov	w1, #24
	madd	x16, x16, x1, x0
	ldur	x1, [x16, #-8]
	and	x1, x1, #0x1
	orr	x1, x1, x11
	stur	x1, [x16, #-8]
.LBB61_121:
	orr	x16, x14, x17
	mov	x1, x15
	stur	x16, [x13, #-8]
	cbz	x14, .LBB61_126
	lsr	x14, x14, #3
	mov	w16, #24
	madd	x14, x14, x16, x0
	ldur	x16, [x14, #-24]
	and	x17, x16, #0xffffffff8
	cmp	x17, x9
	csel	x9, xzr, x17, hi
	cmp	x9, x11
	b.ne	.LBB61_124
	and	x9, x16, #0x1
	orr	x9, x9, x15
	stur	x9, [x14, #-24]
	b	.LBB61_125
.LBB61_124:
	stur	x15, [x14, #-16]
.LBB61_125:
	mov	x1, x10
.LBB61_126:
	orr	x9, x15, #0x1
	stur	x11, [x13, #-16]
	stur	x9, [x12, #-8]
	mov	w0, wzr
	stur	xzr, [x8, #-24]
	str	x1, [x2]
	ret
.Lfunc_end61:
	.size	ic_raw.tree_calls.remove, .Lfunc_end61-ic_raw.tree_calls.remove
	.cfi_endproc
	.section	.text.unlikely.ic_raw.table.RawTable.refusal_at.19bacce014a8892a,"ax",@progbits
	.p2align	2
	.type	ic_raw.table.RawTable.refusal_at.19bacce014a8892a,@function
ic_raw.table.RawTable.refusal_at.19bacce014a8892a:
	.cfi_startproc
	adds	w8, w2, #1
	b.lo	.LBB62_2
	mov	w0, #5
	ret
.LBB62_2:
	cmp	x1, x8
	b.hs	.LBB62_4
	mov	w0, #1
	ret
.LBB62_4:
	mov	w9, #24
	umaddl	x8, w8, w9, x0
	mov	w9, #3
	ldurb	w8, [x8, #-24]
	tst	w8, #0x1
	mov	w8, #5
	csel	w0, w9, w8, eq
	ret
.Lfunc_end62:
	.size	ic_raw.table.RawTable.refusal_at.19bacce014a8892a, .Lfunc_end62-ic_raw.table.RawTable.refusal_at.19bacce014a8892a
	.cfi_endproc
	.section	.text.ic_raw.tree_calls.replace,"ax",@progbits
	.p2align	2
	.type	ic_raw.tree_calls.replace,@function
ic_raw.tree_calls.replace:
	.cfi_startproc
	adds	w10, w3, #1
	b.lo	.LBB63_2
	mov	w0, #4
	ret
.LBB63_2:
	sub	sp, sp, #32
	.cfi_def_cfa_offset 32
	stp	x29, x30, [sp, #16]
	add	x29, sp, #16
	.cfi_def_cfa w29, 16
	.cfi_offset w30, -8
	.cfi_offset w29, -16
	.cfi_remember_state
	cmp	x1, x10
	stp	x0, x1, [sp]
	b.lo	.LBB63_13
	mov	w8, #24
	umaddl	x8, w10, w8, x0
	ldurb	w9, [x8, #-24]
	tbz	w9, #0, .LBB63_13
	ldr	x9, [x2]
	lsl	x11, x1, #3
	and	x9, x9, #0xffffffff8
	sub	x12, x9, #1
	cmp	x12, x11
	b.hs	.LBB63_13
	lsr	x12, x9, #3
	mov	w13, #24
	madd	x12, x12, x13, x0
	ldurb	w12, [x12, #-24]
	tbz	w12, #0, .LBB63_13
	ldur	x12, [x8, #-8]
	ubfiz	x15, x10, #3, #32
	add	w14, w4, #1
	tst	x12, #0xffffffff8
	ccmp	x9, x15, #4, eq
	cset	w10, ne
	cmp	x1, x14
	b.lo	.LBB63_13
	cbz	w14, .LBB63_13
	tbnz	w10, #0, .LBB63_13
	mov	w10, #24
	umaddl	x10, w14, w10, x0
	ldurb	w12, [x10, #-24]
	tbnz	w12, #0, .LBB63_13
	stp	xzr, xzr, [x10, #-16]
	mov	w13, #1
	ldp	x17, x12, [x8, #-16]
	stur	x13, [x10, #-24]
	ldur	x13, [x8, #-24]
	and	x16, x12, #0xffffffff8
	and	x1, x13, #0xffffffff8
	and	x3, x17, #0xffffffff8
	cmp	x16, x11
	ubfiz	x17, x14, #3, #32
	csel	x13, xzr, x16, hi
	cmp	x1, x11
	csel	x16, xzr, x1, hi
	cmp	x3, x11
	csel	x14, xzr, x3, hi
	cbz	x13, .LBB63_14
	lsr	x1, x13, #3
	mov	w3, #24
	madd	x1, x1, x3, x0
	ldur	x3, [x1, #-24]
	and	x4, x3, #0xffffffff8
	cmp	x4, x11
	csel	x11, xzr, x4, hi
	cmp	x11, x15
	b.ne	.LBB63_19
	and	x11, x3, #0x1
	orr	x11, x11, x17
	stur	x11, [x1, #-24]
	cbnz	x16, .LBB63_15
	b	.LBB63_16
.LBB63_13:
	mov	x0, sp
	mov	w1, w3
	mov	w2, w4
	bl	ic_raw.table.RawTable.refusal.19bacce014a8892a
	.cfi_def_cfa wsp, 32
	ldp	x29, x30, [sp, #16]
	add	sp, sp, #32
	.cfi_def_cfa_offset 0
	.cfi_restore w30
	.cfi_restore w29
	ret
.LBB63_14:
	.cfi_restore_state
	.cfi_remember_state
	mov	x9, x17
	cbz	x16, .LBB63_16
.LBB63_15:
	lsr	x11, x16, #3
	mov	w15, #24
	madd	x11, x11, x15, x0
	ldur	x15, [x11, #-8]
	and	x15, x15, #0x1
	orr	x15, x15, x17
	stur	x15, [x11, #-8]
.LBB63_16:
	cbz	x14, .LBB63_18
	lsr	x11, x14, #3
	mov	w15, #24
	madd	x11, x11, x15, x0
	ldur	x15, [x11, #-8]
	and	x15, x15, #0x1
	orr	x15, x15, x17
	stur	x15, [x11, #-8]
.LBB63_18:
	ldur	x11, [x10, #-24]
	and	x12, x12, #0x1
	mov	w0, wzr
	orr	x12, x13, x12
	and	x11, x11, #0x1
	stp	x14, x12, [x10, #-16]
	orr	x11, x11, x16
	stur	x11, [x10, #-24]
	stur	xzr, [x8, #-24]
	str	x9, [x2]
	.cfi_def_cfa wsp, 32
	ldp	x29, x30, [sp, #16]
	add	sp, sp, #32
	.cfi_def_cfa_offset 0
	.cfi_restore w30
	.cfi_restore w29
	ret
.LBB63_19:
	.cfi_restore_state
	stur	x17, [x1, #-16]
	cbnz	x16, .LBB63_15
	b	.LBB63_16
.Lfunc_end63:
	.size	ic_raw.tree_calls.replace, .Lfunc_end63-ic_raw.tree_calls.replace
	.cfi_endproc
	.section	.text.ic_raw.search_calls.find_target,"ax",@progbits
	.p2align	2
	.type	ic_raw.search_calls.find_target,@function
ic_raw.search_calls.find_target:
	.cfi_startproc
	cmp	x3, x1
	b.lo	.LBB64_23
	and	x12, x4, #0xffffffff8
	cbz	x12, .LBB64_9
	lsr	x8, x12, #3
	cmp	x8, x1
	b.hi	.LBB64_23
	mov	w9, #24
	madd	x8, x8, x9, x0
	ldurb	w8, [x8, #-24]
	tbz	w8, #0, .LBB64_23
	lsl	x10, x1, #3
	mov	x8, xzr
	mov	x9, xzr
	mov	w11, #22
.LBB64_5:
	lsr	x13, x12, #3
	mov	w14, #24
	madd	x14, x13, x14, x0
	add	x13, x2, x12
	ldur	x15, [x13, #-8]
	and	w13, w6, #0xff
	cmp	x5, x15
	cset	w17, lo
	cset	w1, ls
	cmp	w13, #2
	ldp	x15, x16, [x14, #-24]
	csel	w14, w17, w1, eq
	cmp	w14, #0
	csel	x9, x9, x12, ne
	csel	x8, x12, x8, ne
	csel	x14, x15, x16, ne
	and	x14, x14, #0xffffffff8
	sub	x17, x14, #1
	cmp	x17, x10
	b.hs	.LBB64_19
	lsr	x12, x14, #3
	mov	w15, #24
	madd	x15, x12, x15, x0
	add	x12, x2, x14
	ldur	x12, [x12, #-8]
	cmp	x5, x12
	cset	w16, lo
	cset	w17, ls
	cmp	w13, #2
	ldp	x12, x15, [x15, #-24]
	csel	w13, w16, w17, eq
	cmp	w13, #0
	csel	x9, x9, x14, ne
	csel	x8, x14, x8, ne
	csel	x13, x12, x15, ne
	and	x13, x13, #0xffffffff8
	sub	x16, x13, #1
	cmp	x16, x10
	b.hs	.LBB64_20
	lsr	x12, x13, #3
	mov	w14, #24
	and	w15, w6, #0xff
	madd	x12, x12, x14, x0
	add	x14, x2, x13
	ldur	x14, [x14, #-8]
	cmp	x5, x14
	cset	w16, lo
	cset	w17, ls
	cmp	w15, #2
	ldp	x14, x15, [x12, #-24]
	csel	w12, w16, w17, eq
	cmp	w12, #0
	csel	x9, x9, x13, ne
	csel	x8, x13, x8, ne
	csel	x12, x14, x15, ne
	and	x12, x12, #0xffffffff8
	sub	x16, x12, #1
	cmp	x16, x10
	b.hs	.LBB64_21
	subs	w11, w11, #1
	b.ne	.LBB64_5
	b	.LBB64_22
.LBB64_9:
	mov	x8, xzr
	mov	x9, xzr
.LBB64_10:
	and	w10, w6, #0xff
	cmp	w10, #2
	b.eq	.LBB64_13
	cmp	w10, #1
	b.ne	.LBB64_14
	cbnz	x8, .LBB64_16
	b	.LBB64_18
.LBB64_13:
	mov	x8, x9
	cbnz	x9, .LBB64_16
	b	.LBB64_18
.LBB64_14:
	cbz	x8, .LBB64_18
	add	x9, x2, x8
	ldur	x9, [x9, #-8]
	cmp	x5, x9
	b.ne	.LBB64_18
.LBB64_16:
	lsr	x9, x8, #3
	mov	w10, #24
	madd	x9, x9, x10, x0
	ldurb	w9, [x9, #-24]
	tbz	w9, #0, .LBB64_22
	mov	w9, #-1
	mov	w0, wzr
	add	x8, x9, x8, lsr #3
	str	w8, [x7]
	ret
.LBB64_18:
	mov	w0, #4
	ret
.LBB64_19:
	cmp	x15, x14
	ccmp	x16, x14, #2, lo
	b.lo	.LBB64_22
	b	.LBB64_10
.LBB64_20:
	cmp	x12, x13
	ccmp	x15, x13, #2, lo
	b.lo	.LBB64_22
	b	.LBB64_10
.LBB64_21:
	cmp	x14, x12
	ccmp	x15, x12, #2, lo
	b.hs	.LBB64_10
.LBB64_22:
	mov	w0, #5
	ret
.LBB64_23:
	mov	x0, x1
	mov	x1, x3
	b	ic_raw.search.refusal
.Lfunc_end64:
	.size	ic_raw.search_calls.find_target, .Lfunc_end64-ic_raw.search_calls.find_target
	.cfi_endproc
	.section	.text.unlikely.ic_raw.search.refusal,"ax",@progbits
	.p2align	2
	.type	ic_raw.search.refusal,@function
ic_raw.search.refusal:
	.cfi_startproc
	mov	w8, #5
	cmp	x1, x0
	csinc	w0, w8, wzr, hs
	ret
.Lfunc_end65:
	.size	ic_raw.search.refusal, .Lfunc_end65-ic_raw.search.refusal
	.cfi_endproc
	.section	.text.ic_raw.tree.step_from_none,"ax",@progbits
	.p2align	2
	.type	ic_raw.tree.step_from_none,@function
ic_raw.tree.step_from_none:
	.cfi_startproc
	cbz	x2, .LBB66_10
	lsr	x8, x2, #3
	cmp	x8, x1
	b.hi	.LBB66_9
	mov	w9, #24
	madd	x8, x8, x9, x0
	ldurb	w8, [x8, #-24]
	tbz	w8, #0, .LBB66_9
	lsl	x8, x1, #3
	tst	w3, #0xff
	mov	w9, #67
	b.eq	.LBB66_7
.LBB66_4:
	lsr	x10, x2, #3
	mov	w11, #24
	madd	x10, x10, x11, x0
	ldur	x10, [x10, #-24]
	and	x10, x10, #0xffffffff8
	sub	x11, x10, #1
	cmp	x11, x8
	b.hs	.LBB66_8
	subs	w9, w9, #1
	mov	x2, x10
	b.ne	.LBB66_4
	b	.LBB66_8
.LBB66_6:
	subs	w9, w9, #1
	mov	x2, x10
	b.eq	.LBB66_8
.LBB66_7:
	lsr	x10, x2, #3
	mov	w11, #24
	madd	x10, x10, x11, x0
	ldur	x10, [x10, #-16]
	and	x10, x10, #0xffffffff8
	sub	x11, x10, #1
	cmp	x11, x8
	b.lo	.LBB66_6
.LBB66_8:
	lsr	x8, x2, #3
	mov	w9, #24
	madd	x8, x8, x9, x0
	ldurb	w8, [x8, #-24]
	tbnz	w8, #0, .LBB66_11
.LBB66_9:
	mov	w0, #5
	ret
.LBB66_10:
	mov	w0, #4
	ret
.LBB66_11:
	mov	w8, #-1
	mov	w0, wzr
	add	x8, x8, x2, lsr #3
	str	w8, [x4]
	ret
.Lfunc_end66:
	.size	ic_raw.tree.step_from_none, .Lfunc_end66-ic_raw.tree.step_from_none
	.cfi_endproc
	.section	.text.unlikely.ic_raw.table.RawTable.refusal_of.19bacce014a8892a,"ax",@progbits
	.p2align	2
	.type	ic_raw.table.RawTable.refusal_of.19bacce014a8892a,@function
ic_raw.table.RawTable.refusal_of.19bacce014a8892a:
	.cfi_startproc
	lsr	x8, x2, #3
	cmp	x8, x1
	b.ls	.LBB67_2
	mov	w0, #1
	ret
.LBB67_2:
	mov	w9, #24
	madd	x8, x8, x9, x0
	mov	w9, #3
	ldurb	w8, [x8, #-24]
	tst	w8, #0x1
	mov	w8, #5
	csel	w0, w9, w8, eq
	ret
.Lfunc_end67:
	.size	ic_raw.table.RawTable.refusal_of.19bacce014a8892a, .Lfunc_end67-ic_raw.table.RawTable.refusal_of.19bacce014a8892a
	.cfi_endproc
	.section	.text.unlikely.ic_raw.tree.nothing_found,"ax",@progbits
	.p2align	2
	.type	ic_raw.tree.nothing_found,@function
ic_raw.tree.nothing_found:
	.cfi_startproc
	mov	w8, #4
	tst	w0, #0xff
	cinc	w0, w8, ne
	ret
.Lfunc_end68:
	.size	ic_raw.tree.nothing_found, .Lfunc_end68-ic_raw.tree.nothing_found
	.cfi_endproc
	.section	.text.unlikely.ic_raw_augmented.sum_calls.refusal,"ax",@progbits
	.p2align	2
	.type	ic_raw_augmented.sum_calls.refusal,@function
ic_raw_augmented.sum_calls.refusal:
	.cfi_startproc
	ldr	x8, [x0, #8]
	adds	w9, w2, #1
	b.lo	.LBB69_2
.LBB69_1:
	cmp	x1, x8
	mov	w8, #5
	csinc	w0, w8, wzr, hs
	ret
.LBB69_2:
	cmp	x8, x9
	b.hs	.LBB69_4
	mov	w0, #1
	ret
.LBB69_4:
	mov	w10, #24
	ldr	x11, [x0]
	umaddl	x9, w9, w10, x11
	ldurb	w9, [x9, #-24]
	tbnz	w9, #0, .LBB69_1
	mov	w0, #3
	ret
.Lfunc_end69:
	.size	ic_raw_augmented.sum_calls.refusal, .Lfunc_end69-ic_raw_augmented.sum_calls.refusal
	.cfi_endproc
	.section	.text.ic_raw_augmented.find.find,"ax",@progbits
	.p2align	2
	.type	ic_raw_augmented.find.find,@function
ic_raw_augmented.find.find:
	.cfi_startproc
	stp	x29, x30, [sp, #-32]!
	.cfi_def_cfa_offset 32
	str	x19, [sp, #16]
	mov	x29, sp
	.cfi_def_cfa w29, 32
	.cfi_offset w19, -16
	.cfi_offset w30, -24
	.cfi_offset w29, -32
	.cfi_remember_state
	mov	x8, x6
	ldp	x9, x6, [x29, #32]
	tbz	w7, #0, .LBB70_3
	lsr	x8, x9, #3
	mov	w10, #24
	ldp	x11, x12, [x1]
	madd	x8, x8, x10, x11
	ldur	x8, [x8, #-16]
	and	x8, x8, #0xffffffff8
	sub	x10, x8, #1
	cmp	x10, x12, lsl #3
	b.lo	.LBB70_4
	mov	x5, xzr
	b	.LBB70_10
.LBB70_3:
	tbz	w5, #0, .LBB70_35
.LBB70_4:
	lsr	x10, x8, #3
	sub	x10, x10, #1
	cmp	x10, x3
	b.hs	.LBB70_8
	add	x10, x2, x10, lsl #4
	ldr	x5, [x10, #8]
	cmp	x6, x5
	b.hs	.LBB70_9
	mov	x19, x0
	mov	x0, x1
	mov	x1, x2
	mov	x2, x3
	mov	w3, w4
	mov	x4, x8
	mov	x5, xzr
	bl	ic_raw_augmented.find.first_below
	and	w8, w0, #0xff
	cmp	w8, #1
	b.ne	.LBB70_38
	mov	w8, #1
	str	x1, [x19, #16]
	stp	x8, x8, [x19]
	.cfi_def_cfa wsp, 32
	ldr	x19, [sp, #16]
	ldp	x29, x30, [sp], #32
	.cfi_def_cfa_offset 0
	.cfi_restore w19
	.cfi_restore w30
	.cfi_restore w29
	ret
.LBB70_8:
	.cfi_restore_state
	.cfi_remember_state
	mov	x5, xzr
.LBB70_9:
	tbz	w7, #0, .LBB70_35
.LBB70_10:
	ldp	x10, x8, [x1]
	mov	w12, #67
	lsl	x11, x8, #3
	tbnz	w4, #0, .LBB70_13
	b	.LBB70_24
.LBB70_11:
	mov	x14, x5
.LBB70_12:
	subs	w12, w12, #1
	mov	x5, x14
	mov	x9, x8
	b.eq	.LBB70_34
.LBB70_13:
	lsr	x8, x9, #3
	mov	w13, #24
	madd	x8, x8, x13, x10
	ldur	x8, [x8, #-8]
	and	x8, x8, #0xffffffff8
	sub	x13, x8, #1
	cmp	x13, x11
	b.hs	.LBB70_36
	lsr	x14, x8, #3
	mov	w13, #24
	madd	x13, x14, x13, x10
	ldur	x13, [x13, #-16]
	and	x13, x13, #0xffffffff8
	cmp	x13, x9
	b.eq	.LBB70_11
	sub	x9, x14, #1
	cmp	x9, x3
	b.hs	.LBB70_17
	lsl	x9, x9, #4
	ldr	x9, [x2, x9]
	cmp	x5, x9
	csel	x5, x5, x9, hi
.LBB70_17:
	cmp	x6, x5
	b.lo	.LBB70_37
	cmp	x13, x11
	mov	x14, x5
	csel	x9, xzr, x13, hi
	cmp	x9, #0
	cset	w13, eq
	cbz	x9, .LBB70_21
	lsr	x14, x9, #3
	sub	x15, x14, #1
	mov	x14, x5
	cmp	x15, x3
	b.hs	.LBB70_21
	add	x14, x2, x15, lsl #4
	ldr	x14, [x14, #8]
	cmp	x5, x14
	csel	x14, x5, x14, hi
.LBB70_21:
	cmp	x6, x14
	b.hs	.LBB70_12
	b	.LBB70_33
.LBB70_22:
	mov	x14, x5
.LBB70_23:
	subs	w12, w12, #1
	mov	x5, x14
	mov	x9, x8
	b.eq	.LBB70_34
.LBB70_24:
	lsr	x8, x9, #3
	mov	w13, #24
	madd	x8, x8, x13, x10
	ldur	x8, [x8, #-8]
	and	x8, x8, #0xffffffff8
	sub	x13, x8, #1
	cmp	x13, x11
	b.hs	.LBB70_36
	lsr	x14, x8, #3
	mov	w13, #24
	madd	x13, x14, x13, x10
	ldur	x13, [x13, #-16]
	and	x13, x13, #0xffffffff8
	cmp	x13, x9
	b.eq	.LBB70_22
	sub	x9, x14, #1
	cmp	x9, x3
	b.hs	.LBB70_28
	lsl	x9, x9, #4
	ldr	x9, [x2, x9]
	adds	x9, x9, x5
	csinv	x5, x9, xzr, lo
.LBB70_28:
	cmp	x6, x5
	b.lo	.LBB70_37
	cmp	x13, x11
	mov	x14, x5
	csel	x9, xzr, x13, hi
	cmp	x9, #0
	cset	w13, eq
	cbz	x9, .LBB70_32
	lsr	x14, x9, #3
	sub	x15, x14, #1
	mov	x14, x5
	cmp	x15, x3
	b.hs	.LBB70_32
	add	x14, x2, x15, lsl #4
	ldr	x14, [x14, #8]
	adds	x14, x14, x5
	csinv	x14, x14, xzr, lo
.LBB70_32:
	cmp	x6, x14
	b.hs	.LBB70_23
.LBB70_33:
	tbz	w13, #0, .LBB70_39
.LBB70_34:
	stp	xzr, xzr, [x0]
	str	xzr, [x0, #16]
	.cfi_def_cfa wsp, 32
	ldr	x19, [sp, #16]
	ldp	x29, x30, [sp], #32
	.cfi_def_cfa_offset 0
	.cfi_restore w19
	.cfi_restore w30
	.cfi_restore w29
	ret
.LBB70_35:
	.cfi_restore_state
	.cfi_remember_state
	mov	w8, #1
	stp	x8, xzr, [x0]
	str	xzr, [x0, #16]
	.cfi_def_cfa wsp, 32
	ldr	x19, [sp, #16]
	ldp	x29, x30, [sp], #32
	.cfi_def_cfa_offset 0
	.cfi_restore w19
	.cfi_restore w30
	.cfi_restore w29
	ret
.LBB70_36:
	.cfi_restore_state
	.cfi_remember_state
	mov	w9, #1
	stp	x9, xzr, [x0]
	str	xzr, [x0, #16]
	.cfi_def_cfa wsp, 32
	ldr	x19, [sp, #16]
	ldp	x29, x30, [sp], #32
	.cfi_def_cfa_offset 0
	.cfi_restore w19
	.cfi_restore w30
	.cfi_restore w29
	ret
.LBB70_37:
	.cfi_restore_state
	.cfi_remember_state
	mov	w9, #1
	mov	w10, #1
	stp	x9, x10, [x0]
	str	x8, [x0, #16]
	.cfi_def_cfa wsp, 32
	ldr	x19, [sp, #16]
	ldp	x29, x30, [sp], #32
	.cfi_def_cfa_offset 0
	.cfi_restore w19
	.cfi_restore w30
	.cfi_restore w29
	ret
.LBB70_38:
	.cfi_restore_state
	.cfi_remember_state
	stp	xzr, xzr, [x19, #8]
	str	xzr, [x19]
	.cfi_def_cfa wsp, 32
	ldr	x19, [sp, #16]
	ldp	x29, x30, [sp], #32
	.cfi_def_cfa_offset 0
	.cfi_restore w19
	.cfi_restore w30
	.cfi_restore w29
	ret
.LBB70_39:
	.cfi_restore_state
	.cfi_remember_state
	mov	x19, x0
	mov	x0, x1
	mov	x1, x2
	mov	x2, x3
	mov	w3, w4
	mov	x4, x9
	bl	ic_raw_augmented.find.first_below
	and	w8, w0, #0xff
	cmp	w8, #1
	b.ne	.LBB70_41
	mov	w9, #1
	mov	w10, #1
	stp	x9, x10, [x19]
	str	x1, [x19, #16]
	.cfi_def_cfa wsp, 32
	ldr	x19, [sp, #16]
	ldp	x29, x30, [sp], #32
	.cfi_def_cfa_offset 0
	.cfi_restore w19
	.cfi_restore w30
	.cfi_restore w29
	ret
.LBB70_41:
	.cfi_restore_state
	stp	xzr, xzr, [x19]
	str	xzr, [x19, #16]
	.cfi_def_cfa wsp, 32
	ldr	x19, [sp, #16]
	ldp	x29, x30, [sp], #32
	.cfi_def_cfa_offset 0
	.cfi_restore w19
	.cfi_restore w30
	.cfi_restore w29
	ret
.Lfunc_end70:
	.size	ic_raw_augmented.find.find, .Lfunc_end70-ic_raw_augmented.find.find
	.cfi_endproc
	.section	.text.ic_raw_augmented.find.first_below,"ax",@progbits
	.p2align	2
	.type	ic_raw_augmented.find.first_below,@function
ic_raw_augmented.find.first_below:
	.cfi_startproc
	ldp	x8, x9, [x0]
	mov	w10, #67
	lsl	x9, x9, #3
	tbnz	w3, #0, .LBB71_4
	b	.LBB71_14
.LBB71_1:
	mov	x5, x14
	cmp	x6, x14
	b.lo	.LBB71_21
.LBB71_2:
	ldur	x11, [x11, #-16]
	and	x12, x11, #0xffffffff8
	sub	x11, x12, #1
	cmp	x11, x9
	b.hs	.LBB71_22
.LBB71_3:
	subs	w10, w10, #1
	mov	x4, x12
	b.eq	.LBB71_22
.LBB71_4:
	lsr	x13, x4, #3
	mov	w11, #24
	madd	x11, x13, x11, x8
	ldur	x12, [x11, #-24]
	and	x12, x12, #0xffffffff8
	sub	x14, x12, #1
	cmp	x14, x9
	b.hs	.LBB71_8
	lsr	x14, x12, #3
	sub	x15, x14, #1
	mov	x14, x5
	cmp	x15, x2
	b.hs	.LBB71_7
	add	x14, x1, x15, lsl #4
	ldr	x14, [x14, #8]
	cmp	x5, x14
	csel	x14, x5, x14, hi
.LBB71_7:
	cmp	x6, x14
	b.lo	.LBB71_3
	b	.LBB71_9
.LBB71_8:
	cmp	x6, x5
	mov	x14, x5
	b.lo	.LBB71_22
.LBB71_9:
	sub	x12, x13, #1
	cmp	x12, x2
	b.hs	.LBB71_1
	lsl	x12, x12, #4
	ldr	x12, [x1, x12]
	cmp	x14, x12
	csel	x5, x14, x12, hi
	cmp	x6, x5
	b.hs	.LBB71_2
	b	.LBB71_21
.LBB71_11:
	mov	x5, x14
	cmp	x6, x14
	b.lo	.LBB71_21
.LBB71_12:
	ldur	x11, [x11, #-16]
	and	x12, x11, #0xffffffff8
	sub	x11, x12, #1
	cmp	x11, x9
	b.hs	.LBB71_22
.LBB71_13:
	subs	w10, w10, #1
	mov	x4, x12
	b.eq	.LBB71_22
.LBB71_14:
	lsr	x13, x4, #3
	mov	w11, #24
	madd	x11, x13, x11, x8
	ldur	x12, [x11, #-24]
	and	x12, x12, #0xffffffff8
	sub	x14, x12, #1
	cmp	x14, x9
	b.hs	.LBB71_18
	lsr	x14, x12, #3
	sub	x15, x14, #1
	mov	x14, x5
	cmp	x15, x2
	b.hs	.LBB71_17
	add	x14, x1, x15, lsl #4
	ldr	x14, [x14, #8]
	adds	x14, x14, x5
	csinv	x14, x14, xzr, lo
.LBB71_17:
	cmp	x6, x14
	b.lo	.LBB71_13
	b	.LBB71_19
.LBB71_18:
	cmp	x6, x5
	mov	x14, x5
	b.lo	.LBB71_22
.LBB71_19:
	sub	x12, x13, #1
	cmp	x12, x2
	b.hs	.LBB71_11
	lsl	x12, x12, #4
	ldr	x12, [x1, x12]
	adds	x12, x12, x14
	csinv	x5, x12, xzr, lo
	cmp	x6, x5
	b.hs	.LBB71_12
.LBB71_21:
	mov	w0, #1
	mov	x1, x4
	ret
.LBB71_22:
	mov	w0, wzr
	mov	x1, xzr
	ret
.Lfunc_end71:
	.size	ic_raw_augmented.find.first_below, .Lfunc_end71-ic_raw_augmented.find.first_below
	.cfi_endproc
	.section	.text.ic_raw_augmented.noting.WrittenSurgery.attach,"ax",@progbits
	.p2align	2
	.type	ic_raw_augmented.noting.WrittenSurgery.attach,@function
ic_raw_augmented.noting.WrittenSurgery.attach:
	.cfi_startproc
	ldr	x9, [x0, #112]
	lsr	x8, x6, #2
	cmp	x9, #13
	tbz	w3, #0, .LBB72_12
	b.hi	.LBB72_3
	ldr	x10, [x0, x9, lsl #3]
	cbz	x10, .LBB72_45
.LBB72_3:
	mov	w9, #1
	strb	w9, [x0, #120]
.LBB72_4:
	add	x8, x8, x6, lsr #3
	ldr	x9, [x1]
	lsl	x8, x8, #3
	add	x9, x9, x8
	ldur	x10, [x9, #-24]
	and	x10, x10, #0x1
	stur	x10, [x9, #-24]
	ldr	x9, [x0, #112]
	cmp	x9, #13
	b.hi	.LBB72_6
	ldr	x10, [x0, x9, lsl #3]
	cbz	x10, .LBB72_46
.LBB72_6:
	mov	w9, #1
	strb	w9, [x0, #120]
.LBB72_7:
	ldr	x9, [x1]
	tst	w5, #0xff
	add	x9, x9, x8
	stur	xzr, [x9, #-16]
	ldr	x9, [x1]
	add	x8, x9, x8
	stur	x4, [x8, #-8]
	lsr	x8, x4, #3
	ldr	x9, [x0, #112]
	b.eq	.LBB72_19
	cmp	x9, #13
	b.hi	.LBB72_10
	ldr	x10, [x0, x9, lsl #3]
	cbz	x10, .LBB72_52
.LBB72_10:
	mov	w9, #1
	strb	w9, [x0, #120]
.LBB72_11:
	mov	w9, #24
	ldr	x10, [x1]
	madd	x8, x8, x9, x10
	stur	x6, [x8, #-16]
	b	.LBB72_23
.LBB72_12:
	b.hi	.LBB72_14
	ldr	x10, [x0, x9, lsl #3]
	cbz	x10, .LBB72_47
.LBB72_14:
	mov	w9, #1
	strb	w9, [x0, #120]
.LBB72_15:
	add	x8, x8, x6, lsr #3
	ldr	x9, [x1]
	lsl	x8, x8, #3
	add	x9, x9, x8
	ldur	x10, [x9, #-24]
	and	x10, x10, #0x1
	stur	x10, [x9, #-24]
	ldr	x9, [x0, #112]
	cmp	x9, #13
	b.hi	.LBB72_17
	ldr	x10, [x0, x9, lsl #3]
	cbz	x10, .LBB72_48
.LBB72_17:
	mov	w9, #1
	strb	w9, [x0, #120]
.LBB72_18:
	ldr	x9, [x1]
	mov	w10, #1
	add	x9, x9, x8
	stur	xzr, [x9, #-16]
	ldr	x9, [x1]
	add	x8, x9, x8
	stur	x10, [x8, #-8]
	str	x6, [x2]
	ret
.LBB72_19:
	cmp	x9, #13
	b.hi	.LBB72_21
	ldr	x10, [x0, x9, lsl #3]
	cbz	x10, .LBB72_62
.LBB72_21:
	mov	w9, #1
	strb	w9, [x0, #120]
.LBB72_22:
	mov	w9, #24
	ldr	x10, [x1]
	madd	x8, x8, x9, x10
	ldur	x9, [x8, #-24]
	and	x9, x9, #0x1
	orr	x9, x9, x6
	stur	x9, [x8, #-24]
.LBB72_23:
	mov	w9, wzr
	mov	w11, #67
	b	.LBB72_25
.LBB72_24:
	orr	x10, x15, #0x1
	ldur	x13, [x16, #-8]
	mov	x6, x8
	stur	x10, [x14, #-8]
	ldr	x10, [x1]
	add	x10, x10, x17
	ldur	x14, [x10, #-8]
	orr	x14, x14, #0x1
	stur	x14, [x10, #-8]
	ldr	x10, [x1]
	add	x9, x10, x9
	and	x10, x13, #0xffffffff8
	ldur	x13, [x9, #-8]
	sub	x10, x10, #1
	cmp	x10, x12
	and	x10, x13, #0xfffffffffffffffe
	cinc	x10, x10, hs
	stur	x10, [x9, #-8]
	lsr	x9, x8, #3
	mov	w10, #24
	ldp	x12, x13, [x1]
	madd	x9, x9, x10, x12
	ldur	x9, [x9, #-8]
	and	x9, x9, #0xffffffff8
	cmp	x9, x13, lsl #3
	csel	x4, xzr, x9, hi
	cmp	x4, #0
	cset	w9, eq
	subs	w11, w11, #1
	b.eq	.LBB72_114
.LBB72_25:
	tbnz	w9, #0, .LBB72_114
	lsr	x8, x4, #2
	ldr	x13, [x1]
	add	x8, x8, x4, lsr #3
	lsl	x10, x8, #3
	add	x14, x13, x10
	ldur	x15, [x14, #-8]
	tbnz	w15, #0, .LBB72_114
	ldr	x9, [x1, #8]
	and	x8, x15, #0xffffffff8
	lsl	x12, x9, #3
	sub	x9, x8, #1
	cmp	x9, x12
	b.hs	.LBB72_114
	lsr	x9, x8, #2
	add	x9, x9, x8, lsr #3
	lsl	x9, x9, #3
	add	x16, x13, x9
	ldur	x17, [x16, #-24]
	and	x17, x17, #0xffffffff8
	cmp	x17, x12
	csel	x17, xzr, x17, hi
	cmp	x17, x4
	b.ne	.LBB72_31
	ldur	x17, [x16, #-16]
	and	x17, x17, #0xffffffff8
	sub	x3, x17, #1
	cmp	x3, x12
	b.hs	.LBB72_49
	lsr	x3, x17, #2
	add	x17, x3, x17, lsr #3
	lsl	x17, x17, #3
	add	x3, x13, x17
	ldur	w3, [x3, #-8]
	tbz	w3, #0, .LBB72_24
	b	.LBB72_49
.LBB72_31:
	cbz	x17, .LBB72_33
	lsr	x3, x17, #2
	add	x17, x3, x17, lsr #3
	lsl	x17, x17, #3
	add	x3, x13, x17
	ldur	w3, [x3, #-8]
	tbz	w3, #0, .LBB72_24
.LBB72_33:
	ldur	x11, [x14, #-24]
	and	x11, x11, #0xffffffff8
	cmp	x11, x12
	b.hi	.LBB72_96
	cmp	x11, x6
	b.ne	.LBB72_96
	lsr	x11, x6, #2
	add	x11, x11, x6, lsr #3
	lsl	x11, x11, #3
	add	x13, x13, x11
	ldur	x13, [x13, #-16]
	and	x14, x13, #0xffffffff8
	ldr	x13, [x0, #112]
	cmp	x14, x12
	csel	x12, xzr, x14, hi
	cmp	x13, #13
	b.hi	.LBB72_37
	ldr	x14, [x0, x13, lsl #3]
	cbz	x14, .LBB72_121
.LBB72_37:
	mov	w13, #1
	strb	w13, [x0, #120]
.LBB72_38:
	ldr	x13, [x1]
	add	x13, x13, x10
	ldur	x14, [x13, #-24]
	and	x14, x14, #0x1
	orr	x14, x14, x12
	stur	x14, [x13, #-24]
	cbz	x12, .LBB72_40
	lsr	x12, x12, #3
	mov	w13, #24
	ldr	x14, [x1]
	madd	x12, x12, x13, x14
	ldur	x13, [x12, #-8]
	and	x13, x13, #0x1
	orr	x13, x13, x4
	stur	x13, [x12, #-8]
.LBB72_40:
	ldr	x12, [x1]
	add	x12, x12, x11
	stur	x8, [x12, #-8]
	ldp	x12, x13, [x1]
	add	x12, x12, x9
	ldur	x12, [x12, #-24]
	and	x12, x12, #0xffffffff8
	cmp	x12, x13, lsl #3
	csel	x13, xzr, x12, hi
	ldr	x12, [x0, #112]
	cmp	x13, x4
	b.ne	.LBB72_89
	cmp	x12, #13
	b.hi	.LBB72_43
	ldr	x13, [x0, x12, lsl #3]
	cbz	x13, .LBB72_129
.LBB72_43:
	mov	w12, #1
	strb	w12, [x0, #120]
.LBB72_44:
	ldr	x12, [x1]
	add	x12, x12, x9
	ldur	x13, [x12, #-24]
	and	x13, x13, #0x1
	orr	x13, x13, x6
	stur	x13, [x12, #-24]
	ldr	x12, [x0, #112]
	cmp	x12, #13
	b.ls	.LBB72_93
	b	.LBB72_94
.LBB72_45:
	str	x6, [x0, x9, lsl #3]
	add	x9, x9, #1
	str	x9, [x0, #112]
	b	.LBB72_4
.LBB72_46:
	str	x6, [x0, x9, lsl #3]
	add	x9, x9, #1
	str	x9, [x0, #112]
	b	.LBB72_7
.LBB72_47:
	str	x6, [x0, x9, lsl #3]
	add	x9, x9, #1
	str	x9, [x0, #112]
	b	.LBB72_15
.LBB72_48:
	str	x6, [x0, x9, lsl #3]
	add	x9, x9, #1
	str	x9, [x0, #112]
	b	.LBB72_18
.LBB72_49:
	ldur	x11, [x14, #-24]
	and	x11, x11, #0xffffffff8
	cmp	x11, x12
	b.hi	.LBB72_53
	cmp	x11, x6
	b.ne	.LBB72_53
	mov	x11, x10
	mov	x6, x4
	b	.LBB72_70
.LBB72_52:
	str	x4, [x0, x9, lsl #3]
	add	x9, x9, #1
	str	x9, [x0, #112]
	b	.LBB72_11
.LBB72_53:
	lsr	x11, x6, #2
	add	x11, x11, x6, lsr #3
	lsl	x11, x11, #3
	add	x13, x13, x11
	ldur	x13, [x13, #-24]
	and	x14, x13, #0xffffffff8
	ldr	x13, [x0, #112]
	cmp	x14, x12
	csel	x12, xzr, x14, hi
	cmp	x13, #13
	b.hi	.LBB72_55
	ldr	x14, [x0, x13, lsl #3]
	cbz	x14, .LBB72_119
.LBB72_55:
	mov	w13, #1
	strb	w13, [x0, #120]
	ldr	x13, [x1]
	add	x13, x13, x10
	stur	x12, [x13, #-16]
	cbz	x12, .LBB72_57
.LBB72_56:
	lsr	x12, x12, #3
	mov	w13, #24
	ldr	x14, [x1]
	madd	x12, x12, x13, x14
	ldur	x13, [x12, #-8]
	and	x13, x13, #0x1
	orr	x13, x13, x4
	stur	x13, [x12, #-8]
.LBB72_57:
	ldr	x12, [x1]
	add	x12, x12, x11
	stur	x8, [x12, #-8]
	ldp	x12, x13, [x1]
	add	x12, x12, x9
	ldur	x12, [x12, #-24]
	and	x12, x12, #0xffffffff8
	cmp	x12, x13, lsl #3
	csel	x13, xzr, x12, hi
	ldr	x12, [x0, #112]
	cmp	x13, x4
	b.ne	.LBB72_63
	cmp	x12, #13
	b.hi	.LBB72_60
	ldr	x13, [x0, x12, lsl #3]
	cbz	x13, .LBB72_127
.LBB72_60:
	mov	w12, #1
	strb	w12, [x0, #120]
.LBB72_61:
	ldr	x12, [x1]
	add	x12, x12, x9
	ldur	x13, [x12, #-24]
	and	x13, x13, #0x1
	orr	x13, x13, x6
	stur	x13, [x12, #-24]
	ldr	x12, [x0, #112]
	cmp	x12, #13
	b.ls	.LBB72_67
	b	.LBB72_68
.LBB72_62:
	str	x4, [x0, x9, lsl #3]
	add	x9, x9, #1
	str	x9, [x0, #112]
	b	.LBB72_22
.LBB72_63:
	cmp	x12, #13
	b.hi	.LBB72_65
	ldr	x13, [x0, x12, lsl #3]
	cbz	x13, .LBB72_128
.LBB72_65:
	mov	w12, #1
	strb	w12, [x0, #120]
.LBB72_66:
	ldr	x12, [x1]
	add	x12, x12, x9
	stur	x6, [x12, #-16]
	ldr	x12, [x0, #112]
	cmp	x12, #13
	b.hi	.LBB72_68
.LBB72_67:
	ldr	x13, [x0, x12, lsl #3]
	cbz	x13, .LBB72_120
.LBB72_68:
	mov	w12, #1
	strb	w12, [x0, #120]
.LBB72_69:
	ldr	x12, [x1]
	add	x12, x12, x11
	ldur	x13, [x12, #-24]
	and	x13, x13, #0x1
	orr	x13, x13, x4
	stur	x13, [x12, #-24]
	ldr	x12, [x1]
	add	x10, x12, x10
	stur	x6, [x10, #-8]
	ldp	x13, x10, [x1]
	lsl	x12, x10, #3
.LBB72_70:
	add	x10, x13, x11
	add	x13, x13, x9
	ldr	x14, [x0, #112]
	ldur	x10, [x10, #-16]
	ldur	x13, [x13, #-8]
	and	x10, x10, #0xffffffff8
	and	x15, x13, #0xffffffff8
	cmp	x10, x12
	csel	x13, xzr, x10, hi
	cmp	x15, x12
	csel	x10, xzr, x15, hi
	cmp	x14, #13
	b.hi	.LBB72_72
	ldr	x12, [x0, x14, lsl #3]
	cbz	x12, .LBB72_117
.LBB72_72:
	mov	w12, #1
	strb	w12, [x0, #120]
.LBB72_73:
	ldr	x12, [x1]
	add	x12, x12, x9
	ldur	x14, [x12, #-24]
	and	x14, x14, #0x1
	orr	x14, x14, x13
	stur	x14, [x12, #-24]
	cbz	x13, .LBB72_75
	lsr	x12, x13, #3
	mov	w13, #24
	ldr	x14, [x1]
	madd	x12, x12, x13, x14
	ldur	x13, [x12, #-8]
	and	x13, x13, #0x1
	orr	x13, x13, x8
	stur	x13, [x12, #-8]
.LBB72_75:
	ldr	x12, [x1]
	orr	x13, x10, #0x1
	add	x12, x12, x11
	stur	x13, [x12, #-8]
	cbz	x10, .LBB72_81
	lsr	x12, x10, #2
	ldp	x13, x14, [x1]
	add	x12, x12, x10, lsr #3
	lsl	x12, x12, #3
	add	x13, x13, x12
	ldur	x13, [x13, #-24]
	and	x13, x13, #0xffffffff8
	cmp	x13, x14, lsl #3
	csel	x14, xzr, x13, hi
	ldr	x13, [x0, #112]
	cmp	x14, x8
	b.ne	.LBB72_82
	cmp	x13, #13
	b.hi	.LBB72_79
	ldr	x14, [x0, x13, lsl #3]
	cbz	x14, .LBB72_125
.LBB72_79:
	mov	w10, #1
	strb	w10, [x0, #120]
.LBB72_80:
	ldr	x10, [x1]
	add	x10, x10, x12
	ldur	x12, [x10, #-24]
	and	x12, x12, #0x1
	orr	x12, x12, x6
	stur	x12, [x10, #-24]
	ldr	x10, [x0, #112]
	cmp	x10, #13
	b.ls	.LBB72_86
	b	.LBB72_87
.LBB72_81:
	str	x6, [x2]
	ldr	x10, [x0, #112]
	cmp	x10, #13
	b.ls	.LBB72_86
	b	.LBB72_87
.LBB72_82:
	cmp	x13, #13
	b.hi	.LBB72_84
	ldr	x14, [x0, x13, lsl #3]
	cbz	x14, .LBB72_126
.LBB72_84:
	mov	w10, #1
	strb	w10, [x0, #120]
.LBB72_85:
	ldr	x10, [x1]
	add	x10, x10, x12
	stur	x6, [x10, #-16]
	ldr	x10, [x0, #112]
	cmp	x10, #13
	b.hi	.LBB72_87
.LBB72_86:
	ldr	x12, [x0, x10, lsl #3]
	cbz	x12, .LBB72_118
.LBB72_87:
	mov	w10, #1
	strb	w10, [x0, #120]
.LBB72_88:
	ldr	x10, [x1]
	add	x10, x10, x11
	stur	x8, [x10, #-16]
	ldr	x8, [x1]
	add	x8, x8, x9
	stur	x6, [x8, #-8]
	ret
.LBB72_89:
	cmp	x12, #13
	b.hi	.LBB72_91
	ldr	x13, [x0, x12, lsl #3]
	cbz	x13, .LBB72_130
.LBB72_91:
	mov	w12, #1
	strb	w12, [x0, #120]
.LBB72_92:
	ldr	x12, [x1]
	add	x12, x12, x9
	stur	x6, [x12, #-16]
	ldr	x12, [x0, #112]
	cmp	x12, #13
	b.hi	.LBB72_94
.LBB72_93:
	ldr	x13, [x0, x12, lsl #3]
	cbz	x13, .LBB72_122
.LBB72_94:
	mov	w12, #1
	strb	w12, [x0, #120]
.LBB72_95:
	ldr	x12, [x1]
	add	x12, x12, x11
	stur	x4, [x12, #-16]
	mov	x4, x6
	ldr	x12, [x1]
	add	x10, x12, x10
	stur	x6, [x10, #-8]
	ldp	x13, x10, [x1]
	lsl	x12, x10, #3
	mov	x10, x11
.LBB72_96:
	add	x11, x13, x10
	add	x13, x13, x9
	ldr	x14, [x0, #112]
	ldur	x11, [x11, #-24]
	ldur	x13, [x13, #-8]
	and	x11, x11, #0xffffffff8
	and	x15, x13, #0xffffffff8
	cmp	x11, x12
	csel	x13, xzr, x11, hi
	cmp	x15, x12
	csel	x11, xzr, x15, hi
	cmp	x14, #13
	b.hi	.LBB72_98
	ldr	x12, [x0, x14, lsl #3]
	cbz	x12, .LBB72_115
.LBB72_98:
	mov	w12, #1
	strb	w12, [x0, #120]
	ldr	x12, [x1]
	add	x12, x12, x9
	stur	x13, [x12, #-16]
	cbz	x13, .LBB72_100
.LBB72_99:
	lsr	x12, x13, #3
	mov	w13, #24
	ldr	x14, [x1]
	madd	x12, x12, x13, x14
	ldur	x13, [x12, #-8]
	and	x13, x13, #0x1
	orr	x13, x13, x8
	stur	x13, [x12, #-8]
.LBB72_100:
	ldr	x12, [x1]
	orr	x13, x11, #0x1
	add	x12, x12, x10
	stur	x13, [x12, #-8]
	cbz	x11, .LBB72_106
	lsr	x12, x11, #2
	ldp	x13, x14, [x1]
	add	x12, x12, x11, lsr #3
	lsl	x12, x12, #3
	add	x13, x13, x12
	ldur	x13, [x13, #-24]
	and	x13, x13, #0xffffffff8
	cmp	x13, x14, lsl #3
	csel	x14, xzr, x13, hi
	ldr	x13, [x0, #112]
	cmp	x14, x8
	b.ne	.LBB72_107
	cmp	x13, #13
	b.hi	.LBB72_104
	ldr	x14, [x0, x13, lsl #3]
	cbz	x14, .LBB72_123
.LBB72_104:
	mov	w11, #1
	strb	w11, [x0, #120]
.LBB72_105:
	ldr	x11, [x1]
	add	x11, x11, x12
	ldur	x12, [x11, #-24]
	and	x12, x12, #0x1
	orr	x12, x12, x4
	stur	x12, [x11, #-24]
	ldr	x11, [x0, #112]
	cmp	x11, #13
	b.ls	.LBB72_111
	b	.LBB72_112
.LBB72_106:
	str	x4, [x2]
	ldr	x11, [x0, #112]
	cmp	x11, #13
	b.ls	.LBB72_111
	b	.LBB72_112
.LBB72_107:
	cmp	x13, #13
	b.hi	.LBB72_109
	ldr	x14, [x0, x13, lsl #3]
	cbz	x14, .LBB72_124
.LBB72_109:
	mov	w11, #1
	strb	w11, [x0, #120]
.LBB72_110:
	ldr	x11, [x1]
	add	x11, x11, x12
	stur	x4, [x11, #-16]
	ldr	x11, [x0, #112]
	cmp	x11, #13
	b.hi	.LBB72_112
.LBB72_111:
	ldr	x12, [x0, x11, lsl #3]
	cbz	x12, .LBB72_116
.LBB72_112:
	mov	w11, #1
	strb	w11, [x0, #120]
.LBB72_113:
	ldr	x11, [x1]
	add	x10, x11, x10
	ldur	x11, [x10, #-24]
	and	x11, x11, #0x1
	orr	x8, x11, x8
	stur	x8, [x10, #-24]
	ldr	x8, [x1]
	add	x8, x8, x9
	stur	x4, [x8, #-8]
.LBB72_114:
	ret
.LBB72_115:
	add	x12, x14, #1
	str	x8, [x0, x14, lsl #3]
	str	x12, [x0, #112]
	ldr	x12, [x1]
	add	x12, x12, x9
	stur	x13, [x12, #-16]
	cbnz	x13, .LBB72_99
	b	.LBB72_100
.LBB72_116:
	str	x4, [x0, x11, lsl #3]
	add	x11, x11, #1
	str	x11, [x0, #112]
	b	.LBB72_113
.LBB72_117:
	add	x12, x14, #1
	str	x8, [x0, x14, lsl #3]
	str	x12, [x0, #112]
	b	.LBB72_73
.LBB72_118:
	str	x6, [x0, x10, lsl #3]
	add	x10, x10, #1
	str	x10, [x0, #112]
	b	.LBB72_88
.LBB72_119:
	str	x4, [x0, x13, lsl #3]
	add	x13, x13, #1
	str	x13, [x0, #112]
	ldr	x13, [x1]
	add	x13, x13, x10
	stur	x12, [x13, #-16]
	cbnz	x12, .LBB72_56
	b	.LBB72_57
.LBB72_120:
	str	x6, [x0, x12, lsl #3]
	add	x12, x12, #1
	str	x12, [x0, #112]
	b	.LBB72_69
.LBB72_121:
	str	x4, [x0, x13, lsl #3]
	add	x13, x13, #1
	str	x13, [x0, #112]
	b	.LBB72_38
.LBB72_122:
	str	x6, [x0, x12, lsl #3]
	add	x12, x12, #1
	str	x12, [x0, #112]
	b	.LBB72_95
.LBB72_123:
	str	x11, [x0, x13, lsl #3]
	add	x11, x13, #1
	str	x11, [x0, #112]
	b	.LBB72_105
.LBB72_124:
	str	x11, [x0, x13, lsl #3]
	add	x11, x13, #1
	str	x11, [x0, #112]
	b	.LBB72_110
.LBB72_125:
	str	x10, [x0, x13, lsl #3]
	add	x10, x13, #1
	str	x10, [x0, #112]
	b	.LBB72_80
.LBB72_126:
	str	x10, [x0, x13, lsl #3]
	add	x10, x13, #1
	str	x10, [x0, #112]
	b	.LBB72_85
.LBB72_127:
	str	x8, [x0, x12, lsl #3]
	add	x12, x12, #1
	str	x12, [x0, #112]
	b	.LBB72_61
.LBB72_128:
	str	x8, [x0, x12, lsl #3]
	add	x12, x12, #1
	str	x12, [x0, #112]
	b	.LBB72_66
.LBB72_129:
	str	x8, [x0, x12, lsl #3]
	add	x12, x12, #1
	str	x12, [x0, #112]
	b	.LBB72_44
.LBB72_130:
	str	x8, [x0, x12, lsl #3]
	add	x12, x12, #1
	str	x12, [x0, #112]
	b	.LBB72_92
.Lfunc_end72:
	.size	ic_raw_augmented.noting.WrittenSurgery.attach, .Lfunc_end72-ic_raw_augmented.noting.WrittenSurgery.attach
	.cfi_endproc
	.section	.text.ic_raw_augmented.edit_calls.settle,"ax",@progbits
	.p2align	2
	.type	ic_raw_augmented.edit_calls.settle,@function
ic_raw_augmented.edit_calls.settle:
	.cfi_startproc
	cbz	w6, .LBB73_2
	ret
.LBB73_2:
	sub	sp, sp, #80
	.cfi_def_cfa_offset 80
	stp	x29, x30, [sp, #16]
	stp	x24, x23, [sp, #32]
	stp	x22, x21, [sp, #48]
	stp	x20, x19, [sp, #64]
	add	x29, sp, #16
	.cfi_def_cfa w29, 64
	.cfi_offset w19, -8
	.cfi_offset w20, -16
	.cfi_offset w21, -24
	.cfi_offset w22, -32
	.cfi_offset w23, -40
	.cfi_offset w24, -48
	.cfi_offset w30, -56
	.cfi_offset w29, -64
	ldrb	w8, [x5, #120]
	mov	x23, x5
	mov	w19, w4
	mov	x20, x3
	mov	x21, x2
	mov	x22, x1
	stp	x0, x1, [sp]
	tbz	w8, #0, .LBB73_9
	cbz	x22, .LBB73_51
	mov	w23, #8
	mov	x24, x22
	b	.LBB73_6
.LBB73_5:
	subs	x24, x24, #1
	add	x23, x23, #8
	b.eq	.LBB73_51
.LBB73_6:
	ands	x4, x23, #0xffffffff8
	b.eq	.LBB73_5
	ubfx	x8, x23, #3, #33
	cmp	x8, x22
	b.hi	.LBB73_5
	mov	x0, sp
	mov	x1, x21
	mov	x2, x20
	mov	w3, w19
	bl	ic_raw_augmented.recompute.recompute_up
	b	.LBB73_5
.LBB73_9:
	ldr	x8, [x23]
	ands	x4, x8, #0xffffffff8
	b.eq	.LBB73_12
	ubfx	x8, x8, #3, #33
	cmp	x8, x22
	b.hi	.LBB73_12
	mov	x0, sp
	mov	x1, x21
	mov	x2, x20
	mov	w3, w19
	bl	ic_raw_augmented.recompute.recompute_up
.LBB73_12:
	ldr	x8, [x23, #8]
	ands	x4, x8, #0xffffffff8
	b.eq	.LBB73_15
	ubfx	x8, x8, #3, #33
	cmp	x8, x22
	b.hi	.LBB73_15
	mov	x0, sp
	mov	x1, x21
	mov	x2, x20
	mov	w3, w19
	bl	ic_raw_augmented.recompute.recompute_up
.LBB73_15:
	ldr	x8, [x23, #16]
	ands	x4, x8, #0xffffffff8
	b.eq	.LBB73_18
	ubfx	x8, x8, #3, #33
	cmp	x8, x22
	b.hi	.LBB73_18
	mov	x0, sp
	mov	x1, x21
	mov	x2, x20
	mov	w3, w19
	bl	ic_raw_augmented.recompute.recompute_up
.LBB73_18:
	ldr	x8, [x23, #24]
	ands	x4, x8, #0xffffffff8
	b.eq	.LBB73_21
	ubfx	x8, x8, #3, #33
	cmp	x8, x22
	b.hi	.LBB73_21
	mov	x0, sp
	mov	x1, x21
	mov	x2, x20
	mov	w3, w19
	bl	ic_raw_augmented.recompute.recompute_up
.LBB73_21:
	ldr	x8, [x23, #32]
	ands	x4, x8, #0xffffffff8
	b.eq	.LBB73_24
	ubfx	x8, x8, #3, #33
	cmp	x8, x22
	b.hi	.LBB73_24
	mov	x0, sp
	mov	x1, x21
	mov	x2, x20
	mov	w3, w19
	bl	ic_raw_augmented.recompute.recompute_up
.LBB73_24:
	ldr	x8, [x23, #40]
	ands	x4, x8, #0xffffffff8
	b.eq	.LBB73_27
	ubfx	x8, x8, #3, #33
	cmp	x8, x22
	b.hi	.LBB73_27
	mov	x0, sp
	mov	x1, x21
	mov	x2, x20
	mov	w3, w19
	bl	ic_raw_augmented.recompute.recompute_up
.LBB73_27:
	ldr	x8, [x23, #48]
	ands	x4, x8, #0xffffffff8
	b.eq	.LBB73_30
	ubfx	x8, x8, #3, #33
	cmp	x8, x22
	b.hi	.LBB73_30
	mov	x0, sp
	mov	x1, x21
	mov	x2, x20
	mov	w3, w19
	bl	ic_raw_augmented.recompute.recompute_up
.LBB73_30:
	ldr	x8, [x23, #56]
	ands	x4, x8, #0xffffffff8
	b.eq	.LBB73_33
	ubfx	x8, x8, #3, #33
	cmp	x8, x22
	b.hi	.LBB73_33
	mov	x0, sp
	mov	x1, x21
	mov	x2, x20
	mov	w3, w19
	bl	ic_raw_augmented.recompute.recompute_up
.LBB73_33:
	ldr	x8, [x23, #64]
	ands	x4, x8, #0xffffffff8
	b.eq	.LBB73_36
	ubfx	x8, x8, #3, #33
	cmp	x8, x22
	b.hi	.LBB73_36
	mov	x0, sp
	mov	x1, x21
	mov	x2, x20
	mov	w3, w19
	bl	ic_raw_augmented.recompute.recompute_up
.LBB73_36:
	ldr	x8, [x23, #72]
	ands	x4, x8, #0xffffffff8
	b.eq	.LBB73_39
	ubfx	x8, x8, #3, #33
	cmp	x8, x22
	b.hi	.LBB73_39
	mov	x0, sp
	mov	x1, x21
	mov	x2, x20
	mov	w3, w19
	bl	ic_raw_augmented.recompute.recompute_up
.LBB73_39:
	ldr	x8, [x23, #80]
	ands	x4, x8, #0xffffffff8
	b.eq	.LBB73_42
	ubfx	x8, x8, #3, #33
	cmp	x8, x22
	b.hi	.LBB73_42
	mov	x0, sp
	mov	x1, x21
	mov	x2, x20
	mov	w3, w19
	bl	ic_raw_augmented.recompute.recompute_up
.LBB73_42:
	ldr	x8, [x23, #88]
	ands	x4, x8, #0xffffffff8
	b.eq	.LBB73_45
	ubfx	x8, x8, #3, #33
	cmp	x8, x22
	b.hi	.LBB73_45
	mov	x0, sp
	mov	x1, x21
	mov	x2, x20
	mov	w3, w19
	bl	ic_raw_augmented.recompute.recompute_up
.LBB73_45:
	ldr	x8, [x23, #96]
	ands	x4, x8, #0xffffffff8
	b.eq	.LBB73_48
	ubfx	x8, x8, #3, #33
	cmp	x8, x22
	b.hi	.LBB73_48
	mov	x0, sp
	mov	x1, x21
	mov	x2, x20
	mov	w3, w19
	bl	ic_raw_augmented.recompute.recompute_up
.LBB73_48:
	ldr	x8, [x23, #104]
	ands	x4, x8, #0xffffffff8
	b.eq	.LBB73_51
	ubfx	x8, x8, #3, #33
	cmp	x8, x22
	b.hi	.LBB73_51
	mov	x0, sp
	mov	x1, x21
	mov	x2, x20
	mov	w3, w19
	bl	ic_raw_augmented.recompute.recompute_up
.LBB73_51:
	.cfi_def_cfa wsp, 80
	ldp	x20, x19, [sp, #64]
	ldp	x22, x21, [sp, #48]
	ldp	x24, x23, [sp, #32]
	ldp	x29, x30, [sp, #16]
	add	sp, sp, #80
	.cfi_def_cfa_offset 0
	.cfi_restore w19
	.cfi_restore w20
	.cfi_restore w21
	.cfi_restore w22
	.cfi_restore w23
	.cfi_restore w24
	.cfi_restore w30
	.cfi_restore w29
	ret
.Lfunc_end73:
	.size	ic_raw_augmented.edit_calls.settle, .Lfunc_end73-ic_raw_augmented.edit_calls.settle
	.cfi_endproc
	.section	.text.ic_raw_augmented.recompute.recompute_up,"ax",@progbits
	.p2align	2
	.type	ic_raw_augmented.recompute.recompute_up,@function
ic_raw_augmented.recompute.recompute_up:
	.cfi_startproc
	ldp	x11, x10, [x0]
	mov	w8, wzr
	b	.LBB74_3
.LBB74_1:
	cmp	w8, #65
	b.hi	.LBB74_19
.LBB74_2:
	add	w8, w8, #1
	mov	x4, x9
.LBB74_3:
	lsr	x12, x4, #3
	add	x9, x12, x4, lsr #2
	lsl	x9, x9, #3
	add	x11, x11, x9
	ldur	x13, [x11, #-24]
	and	x14, x13, #0xffffffff8
	lsl	x13, x10, #3
	sub	x10, x14, #1
	cmp	x10, x13
	b.hs	.LBB74_6
	lsr	x10, x14, #3
	sub	x10, x10, #1
	cmp	x10, x2
	b.hs	.LBB74_6
	add	x10, x1, x10, lsl #4
	ldr	x10, [x10, #8]
	ldur	x11, [x11, #-16]
	and	x11, x11, #0xffffffff8
	sub	x14, x11, #1
	cmp	x14, x13
	b.lo	.LBB74_7
	b	.LBB74_10
.LBB74_6:
	mov	x10, xzr
	ldur	x11, [x11, #-16]
	and	x11, x11, #0xffffffff8
	sub	x14, x11, #1
	cmp	x14, x13
	b.hs	.LBB74_10
.LBB74_7:
	lsr	x11, x11, #3
	sub	x11, x11, #1
	cmp	x11, x2
	b.hs	.LBB74_10
	add	x11, x1, x11, lsl #4
	ldr	x13, [x11, #8]
	sub	x11, x12, #1
	cmp	x11, x2
	b.lo	.LBB74_11
.LBB74_9:
	mov	x12, xzr
	b	.LBB74_12
.LBB74_10:
	mov	x13, xzr
	sub	x11, x12, #1
	cmp	x11, x2
	b.hs	.LBB74_9
.LBB74_11:
	lsl	x12, x11, #4
	ldr	x12, [x1, x12]
.LBB74_12:
	adds	x14, x13, x12
	csinv	x14, x14, xzr, lo
	cmp	x12, x13
	csel	x12, x12, x13, hi
	tst	w3, #0x1
	csel	x12, x12, x14, ne
	adds	x13, x12, x10
	csinv	x13, x13, xzr, lo
	cmp	x10, x12
	csel	x10, x10, x12, hi
	tst	w3, #0x1
	csel	x10, x10, x13, ne
	cmp	x11, x2
	b.hs	.LBB74_14
	add	x11, x1, x11, lsl #4
	ldr	x11, [x11, #8]
	cmp	x11, x10
	b.ne	.LBB74_15
	b	.LBB74_19
.LBB74_14:
	cmp	xzr, x10
	b.eq	.LBB74_19
.LBB74_15:
	add	x11, x1, x4, lsl #1
	stur	x10, [x11, #-8]
	ldp	x11, x10, [x0]
	add	x9, x11, x9
	ldur	x9, [x9, #-8]
	and	x9, x9, #0xffffffff8
	sub	x12, x9, #1
	cmp	x12, x10, lsl #3
	b.hs	.LBB74_19
	lsr	x12, x9, #3
	mov	w13, #24
	madd	x12, x12, x13, x11
	ldur	x13, [x12, #-24]
	and	x13, x13, #0xffffffff8
	cmp	x13, x4
	b.eq	.LBB74_1
	ldur	x12, [x12, #-16]
	and	x12, x12, #0xffffffff8
	cmp	x12, x4
	b.ne	.LBB74_19
	cmp	w8, #66
	b.lo	.LBB74_2
.LBB74_19:
	ret
.Lfunc_end74:
	.size	ic_raw_augmented.recompute.recompute_up, .Lfunc_end74-ic_raw_augmented.recompute.recompute_up
	.cfi_endproc
	.section	.text.ic_raw_augmented.edit_calls.insert_at,"ax",@progbits
	.p2align	2
	.type	ic_raw_augmented.edit_calls.insert_at,@function
ic_raw_augmented.edit_calls.insert_at:
	.cfi_startproc
	sub	sp, sp, #224
	.cfi_def_cfa_offset 224
	stp	x29, x30, [sp, #144]
	str	x25, [sp, #160]
	stp	x24, x23, [sp, #176]
	stp	x22, x21, [sp, #192]
	stp	x20, x19, [sp, #208]
	add	x29, sp, #144
	.cfi_def_cfa w29, 80
	.cfi_offset w19, -8
	.cfi_offset w20, -16
	.cfi_offset w21, -24
	.cfi_offset w22, -32
	.cfi_offset w23, -40
	.cfi_offset w24, -48
	.cfi_offset w25, -64
	.cfi_offset w30, -72
	.cfi_offset w29, -80
	cmp	x3, x1
	b.hs	.LBB75_2
	mov	w24, #1
	b	.LBB75_15
.LBB75_2:
	mov	x21, x2
	ldr	w2, [x29, #80]
	mov	x20, x3
	mov	w19, w4
	stp	xzr, xzr, [sp, #16]
	adds	w9, w2, #1
	stp	xzr, xzr, [sp, #32]
	cset	w10, ne
	ubfiz	x8, x9, #3, #32
	stp	xzr, xzr, [sp, #48]
	stp	x10, xzr, [sp, #112]
	ldr	x10, [x5]
	stp	x8, xzr, [sp]
	and	x11, x10, #0xffffffff8
	adds	w10, w7, #1
	stp	xzr, xzr, [sp, #64]
	cset	w3, ne
	stp	xzr, xzr, [sp, #80]
	stp	xzr, xzr, [sp, #96]
	stp	x0, x1, [x29, #-16]
	str	x11, [x29, #24]
	cbz	w10, .LBB75_8
	cmp	x1, x10
	b.lo	.LBB75_13
	mov	w12, #24
	umaddl	x12, w10, w12, x0
	ldurb	w13, [x12, #-24]
	tbz	w13, #0, .LBB75_13
	sub	x13, x11, #1
	cmp	x13, x1, lsl #3
	b.hs	.LBB75_13
	lsr	x11, x11, #3
	mov	w13, #24
	madd	x11, x11, x13, x0
	ldurb	w11, [x11, #-24]
	tbz	w11, #0, .LBB75_13
	tst	w6, #0x1
	mov	x11, #-24
	mov	x13, #-16
	csel	x11, x13, x11, ne
	ldr	x11, [x12, x11]
	tst	x11, #0xffffffff8
	b.eq	.LBB75_9
	b	.LBB75_13
.LBB75_8:
	cbnz	x11, .LBB75_13
.LBB75_9:
	cbz	w9, .LBB75_13
	cmp	x1, x9
	b.lo	.LBB75_13
	mov	w11, #24
	umaddl	x9, w9, w11, x0
	ldurb	w11, [x9, #-24]
	tbnz	w11, #0, .LBB75_13
	ubfiz	x4, x10, #3, #32
	mov	x23, x0
	mov	x22, x1
	mov	w11, #1
	mov	x0, sp
	sub	x1, x29, #16
	add	x2, x29, #24
	mov	x25, x5
	mov	w5, w6
	mov	x6, x8
	stp	x11, xzr, [x9, #-24]
	stur	xzr, [x9, #-8]
	bl	ic_raw_augmented.noting.WrittenSurgery.attach
	ldr	x8, [x29, #24]
	mov	w24, wzr
	str	x8, [x25]
	b	.LBB75_14
.LBB75_13:
	mov	x23, x0
	mov	x22, x1
	sub	x0, x29, #16
	mov	w1, w7
	bl	ic_raw.table.RawTable.refusal.19bacce014a8892a
	mov	w24, w0
.LBB75_14:
	mov	x5, sp
	mov	x0, x23
	mov	x1, x22
	mov	x2, x21
	mov	x3, x20
	mov	w4, w19
	mov	w6, w24
	bl	ic_raw_augmented.edit_calls.settle
.LBB75_15:
	mov	w0, w24
	.cfi_def_cfa wsp, 224
	ldp	x20, x19, [sp, #208]
	ldr	x25, [sp, #160]
	ldp	x22, x21, [sp, #192]
	ldp	x24, x23, [sp, #176]
	ldp	x29, x30, [sp, #144]
	add	sp, sp, #224
	.cfi_def_cfa_offset 0
	.cfi_restore w19
	.cfi_restore w20
	.cfi_restore w21
	.cfi_restore w22
	.cfi_restore w23
	.cfi_restore w24
	.cfi_restore w25
	.cfi_restore w30
	.cfi_restore w29
	ret
.Lfunc_end75:
	.size	ic_raw_augmented.edit_calls.insert_at, .Lfunc_end75-ic_raw_augmented.edit_calls.insert_at
	.cfi_endproc
	.section	.text.unlikely.ic_raw_augmented.sum_calls.refusal_of_starts,"ax",@progbits
	.p2align	2
	.type	ic_raw_augmented.sum_calls.refusal_of_starts,@function
ic_raw_augmented.sum_calls.refusal_of_starts:
	.cfi_startproc
	ldr	x8, [x0, #8]
	adds	w9, w3, #1
	b.lo	.LBB76_2
.LBB76_1:
	cmp	x2, x8
	mov	w9, #5
	csinc	w9, w9, wzr, hs
	cmp	x1, x8
	csinc	w0, w9, wzr, hs
	ret
.LBB76_2:
	cmp	x8, x9
	b.hs	.LBB76_4
	mov	w0, #1
	ret
.LBB76_4:
	mov	w10, #24
	ldr	x11, [x0]
	umaddl	x9, w9, w10, x11
	ldurb	w9, [x9, #-24]
	tbnz	w9, #0, .LBB76_1
	mov	w0, #3
	ret
.Lfunc_end76:
	.size	ic_raw_augmented.sum_calls.refusal_of_starts, .Lfunc_end76-ic_raw_augmented.sum_calls.refusal_of_starts
	.cfi_endproc
	.section	.text.ic_raw.xor_calls.splice,"ax",@progbits
	.p2align	2
	.type	ic_raw.xor_calls.splice,@function
ic_raw.xor_calls.splice:
	.cfi_startproc
	ldp	x9, x8, [x5]
	ldp	x11, x10, [x2]
	ands	x9, x9, #0xffffffff8
	and	x11, x11, #0xffffffff8
	b.eq	.LBB77_4
	cmp	x11, x9
	b.ne	.LBB77_4
.LBB77_2:
	mov	w8, wzr
.LBB77_3:
	mov	w0, w8
	ret
.LBB77_4:
	tbz	w3, #0, .LBB77_9
	cmp	x1, x4, lsr #3
	b.lo	.LBB77_2
	add	x12, x0, x4
	ldur	x12, [x12, #-8]
	tbz	w12, #0, .LBB77_2
	tst	w6, #0xff
	and	x12, x12, #0xffffffff8
	csel	x13, xzr, x7, eq
	cmp	x12, x13
	b.ne	.LBB77_23
	cmp	x11, x4
	b.ne	.LBB77_2
	b	.LBB77_10
.LBB77_9:
	tst	w6, #0xff
	csel	x12, xzr, x7, eq
	cmp	x11, x12
	b.ne	.LBB77_2
.LBB77_10:
	and	x10, x10, #0xffffffff8
	tbz	w6, #0, .LBB77_15
	cmp	x1, x7, lsr #3
	b.lo	.LBB77_2
	add	x12, x0, x7
	ldur	x12, [x12, #-8]
	tbz	w12, #0, .LBB77_2
	tst	w3, #0xff
	and	x12, x12, #0xffffffff8
	csel	x13, xzr, x4, eq
	cmp	x12, x13
	b.ne	.LBB77_27
	cmp	x10, x7
	b.ne	.LBB77_2
	b	.LBB77_16
.LBB77_15:
	tst	w3, #0xff
	csel	x12, xzr, x4, eq
	cmp	x10, x12
	b.ne	.LBB77_2
.LBB77_16:
	and	x13, x8, #0xffffffff8
	cbz	x9, .LBB77_25
	cmp	x1, x9, lsr #3
	b.lo	.LBB77_2
	add	x12, x0, x9
	ldur	x8, [x12, #-8]
	tbz	w8, #0, .LBB77_2
	ands	x14, x8, #0xffffffff8
	b.eq	.LBB77_29
	cmp	x1, x14, lsr #3
	b.lo	.LBB77_2
	mov	w8, wzr
	cbz	x13, .LBB77_3
	add	x14, x0, x14
	ldur	x14, [x14, #-8]
	tbnz	w14, #0, .LBB77_30
	b	.LBB77_3
.LBB77_23:
	eor	x12, x12, x13
	cmp	x1, x12, lsr #3
	b.lo	.LBB77_2
	add	x12, x0, x12
	ldurb	w12, [x12, #-8]
	tbz	w12, #0, .LBB77_2
	b	.LBB77_10
.LBB77_25:
	mov	x9, x11
	cbnz	x13, .LBB77_2
	mov	w0, #1
	stp	x9, x10, [x2]
	stp	xzr, xzr, [x5]
	ret
.LBB77_27:
	eor	x12, x12, x13
	cmp	x1, x12, lsr #3
	b.lo	.LBB77_2
	add	x12, x0, x12
	ldurb	w12, [x12, #-8]
	tbz	w12, #0, .LBB77_2
	b	.LBB77_16
.LBB77_29:
	cmp	x13, x9
	b.ne	.LBB77_2
.LBB77_30:
	cmp	x1, x13, lsr #3
	b.lo	.LBB77_2
	add	x8, x0, x13
	ldur	x14, [x8, #-8]
	tbz	w14, #0, .LBB77_2
	ands	x14, x14, #0xffffffff8
	b.eq	.LBB77_35
	cmp	x1, x14, lsr #3
	b.lo	.LBB77_2
	add	x14, x0, x14
	ldurb	w14, [x14, #-8]
	tbz	w14, #0, .LBB77_2
	b	.LBB77_36
.LBB77_35:
	cmp	x9, x13
	b.ne	.LBB77_2
.LBB77_36:
	tst	w3, #0xff
	b.eq	.LBB77_38
	add	x14, x0, x4
	tst	w6, #0xff
	ldur	x15, [x14, #-8]
	csel	x16, xzr, x7, eq
	eor	x9, x16, x9
	and	x15, x15, #0xffffffff8
	eor	x9, x9, x15
	add	x9, x9, #1
	stur	x9, [x14, #-8]
	mov	x9, x11
.LBB77_38:
	tst	w6, #0xff
	b.eq	.LBB77_40
	add	x14, x0, x7
	tst	w3, #0xff
	ldur	x11, [x14, #-8]
	and	x15, x11, #0xffffffff8
	csel	x11, xzr, x4, eq
	eor	x15, x11, x15
	eor	x13, x15, x13
	add	x13, x13, #1
	stur	x13, [x14, #-8]
	b	.LBB77_41
.LBB77_40:
	tst	w3, #0xff
	mov	x7, xzr
	mov	x10, x13
	csel	x11, xzr, x4, eq
.LBB77_41:
	ldur	x13, [x12, #-8]
	and	x13, x13, #0xffffffff8
	eor	x11, x13, x11
	add	x11, x11, #1
	stur	x11, [x12, #-8]
	ldur	x11, [x8, #-8]
	and	x11, x11, #0xffffffff8
	eor	x11, x11, x7
	orr	x11, x11, #0x1
	stur	x11, [x8, #-8]
	mov	w0, #1
	stp	x9, x10, [x2]
	stp	xzr, xzr, [x5]
	ret
.Lfunc_end77:
	.size	ic_raw.xor_calls.splice, .Lfunc_end77-ic_raw.xor_calls.splice
	.cfi_endproc
	.section	.text.unlikely.ic_raw.xor_calls.refusal_with_both,"ax",@progbits
	.p2align	2
	.type	ic_raw.xor_calls.refusal_with_both,@function
ic_raw.xor_calls.refusal_with_both:
	.cfi_startproc
	adds	w8, w1, #1
	b.hs	.LBB78_5
	ldr	x9, [x0, #8]
	cmp	x9, x8
	b.hs	.LBB78_3
	mov	w0, #1
	ret
.LBB78_3:
	ubfiz	x8, x8, #3, #32
	ldr	x9, [x0]
	add	x8, x9, x8
	ldurb	w8, [x8, #-8]
	tbnz	w8, #0, .LBB78_5
	mov	w0, #3
	ret
.LBB78_5:
	mov	w1, w2
	mov	w2, w3
	b	ic_raw.table.RawTable.refusal.feecb86c9dd45d96
.Lfunc_end78:
	.size	ic_raw.xor_calls.refusal_with_both, .Lfunc_end78-ic_raw.xor_calls.refusal_with_both
	.cfi_endproc
	.section	.text.unlikely.ic_raw.xor_calls.pop_front_slow,"ax",@progbits
	.p2align	2
	.type	ic_raw.xor_calls.pop_front_slow,@function
ic_raw.xor_calls.pop_front_slow:
	.cfi_startproc
	ldr	x12, [x2]
	ands	x8, x12, #0xffffffff8
	b.eq	.LBB79_8
	cmp	x1, x8, lsr #3
	b.lo	.LBB79_13
	add	x9, x0, x8
	ldur	x10, [x9, #-8]
	tbz	w10, #0, .LBB79_13
	ldr	x11, [x2, #8]
	ands	x10, x10, #0xffffffff8
	and	x11, x11, #0xffffffff8
	b.eq	.LBB79_9
	cmp	x1, x10, lsr #3
	b.lo	.LBB79_13
	add	x13, x0, x10
	ldur	x14, [x13, #-8]
	tbz	w14, #0, .LBB79_13
	and	x15, x14, #0xffffffff8
	cmp	x15, x8
	b.ne	.LBB79_11
	cmp	x11, x10
	b.ne	.LBB79_13
	b	.LBB79_14
.LBB79_8:
	mov	w0, #4
	ret
.LBB79_9:
	cmp	x11, x8
	b.ne	.LBB79_13
	mov	x11, xzr
	b	.LBB79_15
.LBB79_11:
	eor	x15, x15, x8
	cmp	x1, x15, lsr #3
	b.lo	.LBB79_13
	add	x15, x0, x15
	ldurb	w15, [x15, #-8]
	tbnz	w15, #0, .LBB79_14
.LBB79_13:
	mov	w0, #5
	ret
.LBB79_14:
	eor	x12, x14, x12
	and	x12, x12, #0xffffffff8
	orr	x12, x12, #0x1
	stur	x12, [x13, #-8]
.LBB79_15:
	stur	xzr, [x9, #-8]
	mov	w9, #-1
	mov	w0, wzr
	add	x8, x9, x8, lsr #3
	stp	x10, x11, [x2]
	str	w8, [x3]
	ret
.Lfunc_end79:
	.size	ic_raw.xor_calls.pop_front_slow, .Lfunc_end79-ic_raw.xor_calls.pop_front_slow
	.cfi_endproc
	.section	.text.unlikely.ic_raw.xor_calls.put_slow,"ax",@progbits
	.p2align	2
	.type	ic_raw.xor_calls.put_slow,@function
ic_raw.xor_calls.put_slow:
	.cfi_startproc
	ldp	x10, x11, [x2]
	ands	x8, x4, #0xffffffff8
	and	x9, x5, #0xffffffff8
	and	x10, x10, #0xffffffff8
	b.eq	.LBB80_5
	cmp	x1, x8, lsr #3
	b.lo	.LBB80_26
	add	x12, x0, x8
	ldur	x12, [x12, #-8]
	tbz	w12, #0, .LBB80_26
	and	x12, x12, #0xffffffff8
	cmp	x12, x9
	b.ne	.LBB80_6
	cmp	x10, x8
	b.eq	.LBB80_8
	b	.LBB80_26
.LBB80_5:
	cmp	x10, x9
	b.eq	.LBB80_8
	b	.LBB80_26
.LBB80_6:
	eor	x12, x12, x9
	cmp	x1, x12, lsr #3
	b.lo	.LBB80_26
	add	x12, x0, x12
	ldurb	w12, [x12, #-8]
	tbz	w12, #0, .LBB80_26
.LBB80_8:
	add	w12, w3, #1
	and	x11, x11, #0xffffffff8
	cbz	x9, .LBB80_14
	cmp	x1, x9, lsr #3
	b.lo	.LBB80_26
	add	x13, x0, x9
	ldur	x13, [x13, #-8]
	tbz	w13, #0, .LBB80_26
	and	x13, x13, #0xffffffff8
	cmp	x13, x8
	b.ne	.LBB80_16
	cbz	w12, .LBB80_26
	cmp	x11, x9
	b.eq	.LBB80_19
	b	.LBB80_26
.LBB80_14:
	cbz	w12, .LBB80_26
	cmp	x11, x8
	b.eq	.LBB80_19
	b	.LBB80_26
.LBB80_16:
	eor	x13, x13, x8
	cmp	x1, x13, lsr #3
	b.lo	.LBB80_26
	cbz	w12, .LBB80_26
	add	x13, x0, x13
	ldur	x13, [x13, #-8]
	tbz	w13, #0, .LBB80_26
.LBB80_19:
	cmp	x1, x12
	b.lo	.LBB80_26
	ubfiz	x12, x12, #3, #32
	add	x13, x0, x12
	ldurb	w14, [x13, #-8]
	tbnz	w14, #0, .LBB80_26
	mov	w14, #1
	stur	x14, [x13, #-8]
	mov	x14, x12
	cbz	x8, .LBB80_23
	add	x14, x0, x8
	ldur	x15, [x14, #-8]
	eor	x15, x15, x5
	and	x15, x15, #0xffffffff8
	eor	x15, x15, x12
	orr	x15, x15, #0x1
	stur	x15, [x14, #-8]
	mov	x14, x10
.LBB80_23:
	cbz	x9, .LBB80_25
	add	x10, x0, x9
	ldur	x15, [x10, #-8]
	eor	x15, x15, x4
	and	x15, x15, #0xffffffff8
	eor	x15, x15, x12
	mov	x12, x11
	orr	x11, x15, #0x1
	stur	x11, [x10, #-8]
.LBB80_25:
	eor	x8, x9, x8
	mov	w0, wzr
	orr	x8, x8, #0x1
	stur	x8, [x13, #-8]
	stp	x14, x12, [x2]
	ret
.LBB80_26:
	mov	w2, w3
	b	ic_raw.table.refusal_at_end.feecb86c9dd45d96
.Lfunc_end80:
	.size	ic_raw.xor_calls.put_slow, .Lfunc_end80-ic_raw.xor_calls.put_slow
	.cfi_endproc
	.section	.text.unlikely.ic_raw.table.RawTable.refusal_at_both.feecb86c9dd45d96,"ax",@progbits
	.p2align	2
	.type	ic_raw.table.RawTable.refusal_at_both.feecb86c9dd45d96,@function
ic_raw.table.RawTable.refusal_at_both.feecb86c9dd45d96:
	.cfi_startproc
	adds	w8, w2, #1
	b.lo	.LBB81_3
.LBB81_1:
	adds	w8, w3, #1
	b.lo	.LBB81_5
	mov	w0, #5
	ret
.LBB81_3:
	cmp	x1, x8
	b.hs	.LBB81_7
	mov	w0, #1
	ret
.LBB81_5:
	cmp	x1, x8
	b.hs	.LBB81_9
	mov	w0, #1
	ret
.LBB81_7:
	ubfiz	x8, x8, #3, #32
	add	x8, x0, x8
	ldurb	w8, [x8, #-8]
	tbnz	w8, #0, .LBB81_1
	mov	w0, #3
	ret
.LBB81_9:
	ubfiz	x8, x8, #3, #32
	mov	w9, #3
	add	x8, x0, x8
	ldurb	w8, [x8, #-8]
	tst	w8, #0x1
	mov	w8, #5
	csel	w0, w9, w8, eq
	ret
.Lfunc_end81:
	.size	ic_raw.table.RawTable.refusal_at_both.feecb86c9dd45d96, .Lfunc_end81-ic_raw.table.RawTable.refusal_at_both.feecb86c9dd45d96
	.cfi_endproc
	.section	.text.ic_hash_check,"ax",@progbits
	.globl	ic_hash_check
	.p2align	2
	.type	ic_hash_check,@function
ic_hash_check:
	.cfi_startproc
	hint	#34
	cmp	x0, #0
	mov	w9, #4096
	mov	x8, x0
	csel	x11, x9, xzr, eq
	cmp	x2, #0
	mov	w0, #1
	csel	x12, x9, xzr, eq
	cmp	x4, #0
	csel	x13, x9, xzr, eq
	cmp	x3, x1
	b.lo	.LBB82_13
	cbz	x5, .LBB82_13
	mov	x10, xzr
	mov	x9, xzr
	add	x8, x8, x11
	add	x11, x2, x12
	add	x12, x4, x13
.LBB82_3:
	ldr	x13, [x12, x10, lsl #3]
	ands	x14, x13, #0xffffffff8
	b.eq	.LBB82_11
	mov	x13, xzr
.LBB82_5:
	cmp	x1, x13
	mov	w0, #5
	b.ls	.LBB82_13
	lsr	x15, x14, #3
	cmp	x15, x1
	b.hi	.LBB82_13
	add	x15, x8, x14
	ldur	x15, [x15, #-8]
	tbz	w15, #0, .LBB82_13
	add	x14, x11, x14
	ldur	x14, [x14, #-8]
	udiv	x16, x14, x5
	msub	x14, x16, x5, x14
	cmp	x14, x10
	b.ne	.LBB82_13
	ands	x14, x15, #0xffffffff8
	add	x13, x13, #1
	b.ne	.LBB82_5
	add	x10, x10, #1
	add	x9, x13, x9
	cmp	x10, x5
	b.ne	.LBB82_3
	b	.LBB82_12
.LBB82_11:
	add	x10, x10, #1
	add	x9, xzr, x9
	cmp	x10, x5
	b.ne	.LBB82_3
.LBB82_12:
	mov	w0, wzr
	str	x9, [x6]
.LBB82_13:
	ret
.Lfunc_end82:
	.size	ic_hash_check, .Lfunc_end82-ic_hash_check
	.cfi_endproc
	.section	.text.ic_hash_find,"ax",@progbits
	.globl	ic_hash_find
	.p2align	2
	.type	ic_hash_find,@function
ic_hash_find:
	.cfi_startproc
	hint	#34
	cmp	x0, #0
	mov	w8, #4096
	csel	x11, x8, xzr, eq
	cmp	x2, #0
	csel	x12, x8, xzr, eq
	cmp	x3, x1
	mov	w8, #1
	b.lo	.LBB83_10
	cbz	x5, .LBB83_10
	udiv	x8, x6, x5
	cmp	x4, #0
	mov	w9, #4096
	csel	x9, x9, xzr, eq
	add	x9, x4, x9
	msub	x8, x8, x5, x6
	ldr	x8, [x9, x8, lsl #3]
	ands	x9, x8, #0xffffffff8
	cset	w13, eq
	cbz	x1, .LBB83_9
	ldr	x10, [sp]
	add	x8, x0, x11
	add	x11, x2, x12
	mov	x12, x1
.LBB83_4:
	tbnz	w13, #0, .LBB83_12
	cmp	x1, x9, lsr #3
	b.lo	.LBB83_11
	add	x13, x8, x9
	ldur	x13, [x13, #-8]
	tbz	w13, #0, .LBB83_11
	add	x14, x11, x9
	ldur	x14, [x14, #-8]
	cmp	x14, x7
	b.eq	.LBB83_13
	ands	x9, x13, #0xffffffff8
	cset	w13, eq
	subs	x12, x12, #1
	b.ne	.LBB83_4
.LBB83_9:
	cmp	w13, #0
	mov	w8, #4
	cinc	w8, w8, eq
.LBB83_10:
	mov	w0, w8
	ret
.LBB83_11:
	mov	w0, #5
	ret
.LBB83_12:
	mov	w0, #4
	ret
.LBB83_13:
	mov	w11, #-1
	mov	w0, wzr
	add	x9, x11, x9, lsr #3
	str	w9, [x10]
	ret
.Lfunc_end83:
	.size	ic_hash_find, .Lfunc_end83-ic_hash_find
	.cfi_endproc
	.section	.text.ic_hash_insert,"ax",@progbits
	.globl	ic_hash_insert
	.p2align	2
	.type	ic_hash_insert,@function
ic_hash_insert:
	.cfi_startproc
	hint	#34
	cmp	x0, #0
	mov	w8, #4096
	csel	x11, x8, xzr, eq
	cbz	x3, .LBB84_5
	udiv	x8, x4, x3
	cmp	x2, #0
	mov	w9, #4096
	csel	x9, x9, xzr, eq
	add	x0, x0, x11
	add	w11, w5, #1
	add	x9, x2, x9
	msub	x8, x8, x3, x4
	ldr	x10, [x9, x8, lsl #3]
	ands	x10, x10, #0xffffffff8
	b.eq	.LBB84_6
	cmp	x1, x10, lsr #3
	b.lo	.LBB84_10
	cbz	w11, .LBB84_10
	add	x12, x0, x10
	ldur	x12, [x12, #-8]
	tbnz	w12, #0, .LBB84_7
	b	.LBB84_10
.LBB84_5:
	mov	w0, #1
	ret
.LBB84_6:
	cbz	w11, .LBB84_10
.LBB84_7:
	cmp	x1, x11
	b.lo	.LBB84_10
	ubfiz	x11, x11, #3, #32
	add	x12, x0, x11
	ldurb	w13, [x12, #-8]
	tbnz	w13, #0, .LBB84_10
	mov	w0, wzr
	orr	x10, x10, #0x1
	stur	x10, [x12, #-8]
	str	x11, [x9, x8, lsl #3]
	ret
.LBB84_10:
	mov	w2, w5
	b	ic_raw.table.refusal_at_end.feecb86c9dd45d96
.Lfunc_end84:
	.size	ic_hash_insert, .Lfunc_end84-ic_hash_insert
	.cfi_endproc
	.section	.text.ic_hash_move_chain,"ax",@progbits
	.globl	ic_hash_move_chain
	.p2align	2
	.type	ic_hash_move_chain,@function
ic_hash_move_chain:
	.cfi_startproc
	hint	#34
	cmp	x0, #0
	mov	w9, #4096
	mov	x8, x0
	csel	x12, x9, xzr, eq
	cmp	x2, #0
	mov	w0, #1
	csel	x10, x9, xzr, eq
	cmp	x5, #0
	csel	x11, x9, xzr, eq
	cmp	x3, x1
	b.lo	.LBB85_25
	cbz	x6, .LBB85_25
	ldr	x9, [x4]
	add	x8, x8, x12
	add	x10, x2, x10
	add	x11, x5, x11
	ands	x9, x9, #0xffffffff8
	cset	w13, eq
	cmp	x1, #0
	cset	w14, eq
	cbz	x1, .LBB85_12
	tbnz	w13, #0, .LBB85_12
	sub	x12, x1, #1
	mov	x15, x9
.LBB85_5:
	cmp	x1, x15, lsr #3
	b.lo	.LBB85_14
	add	x13, x8, x15
	ldur	x13, [x13, #-8]
	tbz	w13, #0, .LBB85_14
	add	x14, x10, x15
	ldur	x14, [x14, #-8]
	udiv	x15, x14, x6
	msub	x14, x15, x6, x14
	ldr	x14, [x11, x14, lsl #3]
	ands	x14, x14, #0xffffffff8
	b.eq	.LBB85_10
	cmp	x1, x14, lsr #3
	b.lo	.LBB85_14
	add	x14, x8, x14
	ldurb	w14, [x14, #-8]
	tbz	w14, #0, .LBB85_14
.LBB85_10:
	ands	x15, x13, #0xffffffff8
	cset	w13, eq
	cmp	x12, #0
	cset	w14, eq
	cbz	x12, .LBB85_12
	sub	x12, x12, #1
	cbnz	x15, .LBB85_5
.LBB85_12:
	tbnz	w13, #0, .LBB85_15
	cbz	w14, .LBB85_15
.LBB85_14:
	mov	w0, #5
	ret
.LBB85_15:
	cbz	x1, .LBB85_24
	cbz	x9, .LBB85_24
	add	x14, x8, x9
	mov	w15, #1
	subs	x12, x1, #1
	ldur	x13, [x14, #-8]
	stur	x15, [x14, #-8]
	b.eq	.LBB85_23
	and	x14, x13, #0xffffffff8
	cbz	x14, .LBB85_23
	sub	x13, x1, #2
.LBB85_20:
	add	x16, x8, x14
	mov	x15, x9
	mov	x9, x14
	ldur	x14, [x16, #-8]
	orr	x15, x15, #0x1
	subs	x13, x13, #1
	stur	x15, [x16, #-8]
	b.lo	.LBB85_23
	and	x14, x14, #0xffffffff8
	cbnz	x14, .LBB85_20
	b	.LBB85_23
.LBB85_22:
	and	x9, x13, #0xffffffff8
	cbz	x9, .LBB85_24
.LBB85_23:
	add	x13, x10, x9
	add	x15, x8, x9
	subs	x12, x12, #1
	ldur	x13, [x13, #-8]
	udiv	x14, x13, x6
	msub	x14, x14, x6, x13
	ldr	x13, [x11, x14, lsl #3]
	and	x13, x13, #0xffffffff8
	orr	x16, x13, #0x1
	ldur	x13, [x15, #-8]
	stur	x16, [x15, #-8]
	str	x9, [x11, x14, lsl #3]
	b.hs	.LBB85_22
.LBB85_24:
	mov	w0, wzr
	str	xzr, [x4]
.LBB85_25:
	ret
.Lfunc_end85:
	.size	ic_hash_move_chain, .Lfunc_end85-ic_hash_move_chain
	.cfi_endproc
	.section	.text.ic_hash_next_equal,"ax",@progbits
	.globl	ic_hash_next_equal
	.p2align	2
	.type	ic_hash_next_equal,@function
ic_hash_next_equal:
	.cfi_startproc
	hint	#34
	mov	w8, #4096
	cmp	x0, #0
	csel	x10, x8, xzr, eq
	cmp	x2, #0
	csel	x9, x8, xzr, eq
	adds	w11, w4, #1
	b.lo	.LBB86_2
.LBB86_1:
	mov	w0, #4
	ret
.LBB86_2:
	cmp	x3, x1
	b.hs	.LBB86_4
	mov	w0, #1
	ret
.LBB86_4:
	ubfiz	x8, x11, #3, #32
	cmp	x1, x11
	add	x0, x0, x10
	b.lo	.LBB86_15
	add	x10, x0, x8
	ldur	x11, [x10, #-8]
	tbz	w11, #0, .LBB86_15
	add	x9, x2, x9
	add	x8, x9, x8
	ldur	x10, [x8, #-8]
	ands	x8, x11, #0xffffffff8
	mov	x11, x1
	cset	w12, eq
.LBB86_7:
	tbnz	w12, #0, .LBB86_1
	cmp	x1, x8, lsr #3
	b.lo	.LBB86_13
	add	x12, x0, x8
	ldur	x12, [x12, #-8]
	tbz	w12, #0, .LBB86_13
	add	x13, x9, x8
	ldur	x13, [x13, #-8]
	cmp	x13, x10
	b.eq	.LBB86_14
	ands	x8, x12, #0xffffffff8
	cset	w12, eq
	subs	x11, x11, #1
	b.ne	.LBB86_7
	cmp	x8, #0
	mov	w8, #4
	cinc	w0, w8, ne
	ret
.LBB86_13:
	mov	w0, #5
	ret
.LBB86_14:
	mov	w9, #-1
	mov	w0, wzr
	add	x8, x9, x8, lsr #3
	str	w8, [x5]
	ret
.LBB86_15:
	mov	x2, x8
	b	ic_raw.table.RawTable.refusal_of.feecb86c9dd45d96
.Lfunc_end86:
	.size	ic_hash_next_equal, .Lfunc_end86-ic_hash_next_equal
	.cfi_endproc
	.section	.text.ic_hash_remove,"ax",@progbits
	.globl	ic_hash_remove
	.p2align	2
	.type	ic_hash_remove,@function
ic_hash_remove:
	.cfi_startproc
	hint	#34
	mov	w9, #4096
	cmp	x0, #0
	csel	x8, x9, xzr, eq
	cmp	x2, #0
	csel	x9, x9, xzr, eq
	adds	w11, w5, #1
	b.lo	.LBB87_2
	mov	w0, #4
	ret
.LBB87_2:
	cbz	x3, .LBB87_8
	mov	x10, x2
	ubfiz	x2, x11, #3, #32
	add	x0, x0, x8
	cbz	x1, .LBB87_16
	udiv	x8, x4, x3
	add	x9, x10, x9
	msub	x8, x8, x3, x4
	ldr	x11, [x9, x8, lsl #3]
	and	x10, x11, #0xffffffff8
	ubfx	x11, x11, #3, #33
	cmp	x10, #0
	ccmp	x11, x1, #2, ne
	b.hi	.LBB87_16
	add	x11, x0, x10
	ldur	x11, [x11, #-8]
	tbz	w11, #0, .LBB87_16
	cmp	x10, x2
	b.ne	.LBB87_9
	add	x11, x0, x2
	ldr	x10, [x11, #-8]!
	and	x10, x10, #0xffffffff8
	mov	w0, wzr
	str	xzr, [x11]
	str	x10, [x9, x8, lsl #3]
	ret
.LBB87_8:
	mov	w0, #1
	ret
.LBB87_9:
	subs	x12, x1, #1
	b.eq	.LBB87_16
	mov	x13, x10
.LBB87_11:
	ands	x14, x11, #0xffffffff8
	b.eq	.LBB87_16
	ubfx	x11, x11, #3, #33
	cmp	x11, x1
	b.hi	.LBB87_16
	add	x11, x0, x14
	ldur	x11, [x11, #-8]
	tbz	w11, #0, .LBB87_16
	cmp	x14, x2
	b.eq	.LBB87_17
	subs	x12, x12, #1
	mov	x13, x14
	b.ne	.LBB87_11
.LBB87_16:
	b	ic_raw.table.RawTable.refusal_of.feecb86c9dd45d96
.LBB87_17:
	add	x11, x0, x2
	add	x13, x0, x13
	ldr	x12, [x11, #-8]!
	and	x12, x12, #0xffffffff8
	orr	x12, x12, #0x1
	stur	x12, [x13, #-8]
	mov	w0, wzr
	str	xzr, [x11]
	str	x10, [x9, x8, lsl #3]
	ret
.Lfunc_end87:
	.size	ic_hash_remove, .Lfunc_end87-ic_hash_remove
	.cfi_endproc
	.section	.text.ic_list32_append,"ax",@progbits
	.globl	ic_list32_append
	.p2align	2
	.type	ic_list32_append,@function
ic_list32_append:
	.cfi_startproc
	hint	#34
	ldr	x8, [x2, #8]
	cmp	x0, #0
	mov	w9, #4096
	csel	x9, x9, xzr, eq
	mov	x4, x3
	ands	x8, x8, #0xffffffff8
	add	x0, x0, x9
	b.eq	.LBB88_12
	mov	w9, #536870911
	cmp	x1, x9
	csel	x13, x1, x9, lo
	cmp	x13, x8, lsr #3
	b.lo	.LBB88_12
	ldr	x9, [x4]
	and	x9, x9, #0xffffffff8
	cbz	x9, .LBB88_12
	add	x10, x0, x8
	ldur	w11, [x10, #-8]
	cmp	w11, #1
	b.ne	.LBB88_12
	lsr	x11, x9, #3
	cmp	x11, x13
	b.hi	.LBB88_12
	add	x11, x0, x9
	ldur	w12, [x11, #-4]
	cbnz	w12, .LBB88_12
	ldr	x12, [x4, #8]
	and	x12, x12, #0xffffffff8
	cbz	x12, .LBB88_12
	ldur	w14, [x11, #-8]
	tbz	w14, #0, .LBB88_12
	lsr	x14, x12, #3
	cmp	x14, x13
	b.hi	.LBB88_12
	ldr	x13, [x2]
	and	x13, x13, #0xffffffff8
	cmp	x13, x9
	b.eq	.LBB88_12
	add	x14, x0, x12
	ldur	w15, [x14, #-8]
	cmp	w15, #1
	b.ne	.LBB88_12
	orr	w9, w9, #0x1
	mov	w0, wzr
	stur	w9, [x10, #-8]
	mov	w9, #1
	stur	w8, [x11, #-4]
	stur	w9, [x14, #-8]
	stp	x13, x12, [x2]
	stp	xzr, xzr, [x4]
	ret
.LBB88_12:
	mov	w3, #-1
	mov	w5, #1
	b	ic_raw.list_calls.splice_slow.55ebd757a04f39fd
.Lfunc_end88:
	.size	ic_list32_append, .Lfunc_end88-ic_list32_append
	.cfi_endproc
	.section	.text.ic_list32_check,"ax",@progbits
	.globl	ic_list32_check
	.p2align	2
	.type	ic_list32_check,@function
ic_list32_check:
	.cfi_startproc
	hint	#34
	cmp	x0, #0
	mov	w8, #4096
	csel	x10, x8, xzr, eq
	ldp	x9, x8, [x2]
	ands	x14, x9, #0xffffffff8
	b.eq	.LBB89_9
	mov	w11, #536870911
	mov	x12, xzr
	mov	x9, xzr
	cmp	x1, x11
	add	x10, x0, x10
	csel	x11, x1, x11, lo
.LBB89_2:
	cmp	x11, x9
	b.eq	.LBB89_10
	mov	x13, x14
	cmp	x11, x14, lsr #3
	b.lo	.LBB89_10
	add	x15, x10, x13
	ldur	w14, [x15, #-8]
	tbz	w14, #0, .LBB89_10
	ldur	w15, [x15, #-4]
	and	x15, x15, #0xfffffff8
	cmp	x12, x15
	b.ne	.LBB89_10
	and	x14, x14, #0xfffffff8
	add	x9, x9, #1
	mov	x12, x13
	cbnz	w14, .LBB89_2
	and	x8, x8, #0xffffffff8
	cmp	x8, x13
	b.ne	.LBB89_10
.LBB89_8:
	mov	w0, wzr
	str	x9, [x3]
	ret
.LBB89_9:
	mov	x9, xzr
	and	x8, x8, #0xffffffff8
	cmp	x8, xzr
	b.eq	.LBB89_8
.LBB89_10:
	mov	w0, #5
	ret
.Lfunc_end89:
	.size	ic_list32_check, .Lfunc_end89-ic_list32_check
	.cfi_endproc
	.section	.text.ic_list32_clear,"ax",@progbits
	.globl	ic_list32_clear
	.p2align	2
	.type	ic_list32_clear,@function
ic_list32_clear:
	.cfi_startproc
	hint	#34
	ldp	x8, x10, [x2]
	cmp	x0, #0
	mov	w9, #4096
	csel	x9, x9, xzr, eq
	ands	x8, x8, #0xffffffff8
	and	x10, x10, #0xffffffff8
	b.eq	.LBB90_8
	mov	w11, #536870911
	cmp	x1, x11
	csel	x11, x1, x11, lo
	cbz	x1, .LBB90_9
	mov	x14, xzr
	add	x9, x0, x9
	mov	x12, x8
	mov	x13, x11
.LBB90_3:
	cmp	x11, x12, lsr #3
	b.lo	.LBB90_9
	add	x16, x9, x12
	ldur	w15, [x16, #-8]
	tbz	w15, #0, .LBB90_9
	ldur	w16, [x16, #-4]
	and	x16, x16, #0xfffffff8
	cmp	x14, x16
	b.ne	.LBB90_9
	and	x15, x15, #0xfffffff8
	cbz	w15, .LBB90_10
	subs	x13, x13, #1
	mov	x14, x12
	mov	x12, x15
	b.ne	.LBB90_3
	b	.LBB90_9
.LBB90_8:
	cbz	x10, .LBB90_12
.LBB90_9:
	mov	w0, #5
	ret
.LBB90_10:
	cmp	x10, x12
	b.ne	.LBB90_9
.LBB90_11:
	add	x10, x9, x8
	ldur	w8, [x10, #-8]
	stur	wzr, [x10, #-8]
	and	x8, x8, #0xfffffff8
	cbnz	w8, .LBB90_11
.LBB90_12:
	mov	w0, wzr
	stp	xzr, xzr, [x2]
	ret
.Lfunc_end90:
	.size	ic_list32_clear, .Lfunc_end90-ic_list32_clear
	.cfi_endproc
	.section	.text.ic_list32_insert_after,"ax",@progbits
	.globl	ic_list32_insert_after
	.p2align	2
	.type	ic_list32_insert_after,@function
ic_list32_insert_after:
	.cfi_startproc
	hint	#34
	mov	w8, #4096
	cmp	x0, #0
	ldp	x10, x12, [x2]
	csel	x9, x8, xzr, eq
	adds	w11, w3, #1
	add	x0, x0, x9
	ubfiz	x8, x11, #3, #32
	and	x10, x10, #0xffffffff8
	and	x9, x12, #0xffffffff8
	b.lo	.LBB91_3
	cbz	x10, .LBB91_9
	mov	w12, #536870911
	cmp	x1, x12
	csel	x13, x1, x12, lo
	mov	x12, x10
	b	.LBB91_6
.LBB91_3:
	mov	w12, #536870911
	cmp	x1, x12
	csel	x13, x1, x12, lo
	cmp	x13, x11
	b.lo	.LBB91_18
	add	x12, x0, x8
	ldur	w12, [x12, #-8]
	tbz	w12, #0, .LBB91_18
	and	x12, x12, #0xfffffff8
	cbz	w12, .LBB91_9
.LBB91_6:
	cmp	x13, x12, lsr #3
	b.lo	.LBB91_18
	add	x14, x0, x12
	ldurb	w13, [x14, #-8]
	tbz	w13, #0, .LBB91_18
	ldur	w14, [x14, #-4]
	mov	w13, wzr
	and	x15, x14, #0xfffffff8
	mov	w14, #1
	cmp	x15, x8
	b.eq	.LBB91_10
	b	.LBB91_18
.LBB91_9:
	mov	w14, wzr
	mov	x12, xzr
	mov	w13, #1
	cmp	x9, x8
	b.ne	.LBB91_18
.LBB91_10:
	mov	w16, #536870911
	add	w15, w4, #1
	cmp	x1, x16
	csel	x16, x1, x16, lo
	cbz	w15, .LBB91_18
	cmp	x16, x15
	b.lo	.LBB91_18
	ubfiz	x15, x15, #3, #32
	add	x16, x0, x15
	ldurb	w17, [x16, #-8]
	tbnz	w17, #0, .LBB91_18
	mov	x17, x15
	cbz	w11, .LBB91_15
	add	x11, x0, x8
	orr	w17, w15, #0x1
	stur	w17, [x11, #-8]
	mov	x17, x10
.LBB91_15:
	cbz	w14, .LBB91_17
	add	x10, x0, x12
	stur	w15, [x10, #-4]
	mov	x15, x9
.LBB91_17:
	cmp	w13, #0
	mov	w9, #1
	mov	w0, wzr
	csinc	w9, w9, w12, ne
	stp	w9, w8, [x16, #-8]
	stp	x17, x15, [x2]
	ret
.LBB91_18:
	mov	w2, w3
	mov	w3, w4
	b	ic_raw.table.RawTable.refusal.05a19227735374d3
.Lfunc_end91:
	.size	ic_list32_insert_after, .Lfunc_end91-ic_list32_insert_after
	.cfi_endproc
	.section	.text.ic_list32_insert_before,"ax",@progbits
	.globl	ic_list32_insert_before
	.p2align	2
	.type	ic_list32_insert_before,@function
ic_list32_insert_before:
	.cfi_startproc
	hint	#34
	mov	w8, #4096
	cmp	x0, #0
	ldp	x11, x12, [x2]
	csel	x10, x8, xzr, eq
	adds	w8, w3, #1
	add	x0, x0, x10
	ubfiz	x9, x8, #3, #32
	and	x11, x11, #0xffffffff8
	and	x10, x12, #0xffffffff8
	b.lo	.LBB92_3
	cbz	x10, .LBB92_9
	mov	w12, #536870911
	cmp	x1, x12
	csel	x13, x1, x12, lo
	mov	x12, x10
	b	.LBB92_6
.LBB92_3:
	mov	w12, #536870911
	cmp	x1, x12
	csel	x13, x1, x12, lo
	cmp	x13, x8
	b.lo	.LBB92_18
	add	x12, x0, x9
	ldurb	w14, [x12, #-8]
	tbz	w14, #0, .LBB92_18
	ldur	w12, [x12, #-4]
	and	x12, x12, #0xfffffff8
	cbz	w12, .LBB92_9
.LBB92_6:
	cmp	x13, x12, lsr #3
	b.lo	.LBB92_18
	add	x13, x0, x12
	orr	x14, x9, #0x1
	ldur	w13, [x13, #-8]
	and	x13, x13, #0xfffffffffffffff9
	cmp	x14, x13
	b.ne	.LBB92_18
	mov	w13, wzr
	mov	w15, #536870911
	add	w14, w4, #1
	cmp	x1, x15
	csel	x15, x1, x15, lo
	cbnz	w14, .LBB92_11
	b	.LBB92_18
.LBB92_9:
	cmp	x11, x9
	b.ne	.LBB92_18
	mov	x12, xzr
	mov	w13, #1
	mov	x9, x11
	mov	w15, #536870911
	add	w14, w4, #1
	cmp	x1, x15
	csel	x15, x1, x15, lo
	cbz	w14, .LBB92_18
.LBB92_11:
	cmp	x15, x14
	b.lo	.LBB92_18
	ubfiz	x14, x14, #3, #32
	add	x15, x0, x14
	ldurb	w16, [x15, #-8]
	tbnz	w16, #0, .LBB92_18
	mov	x16, x14
	tbnz	w13, #0, .LBB92_15
	add	x16, x0, x12
	orr	w17, w14, #0x1
	stur	w17, [x16, #-8]
	mov	x16, x11
.LBB92_15:
	cbz	w8, .LBB92_17
	add	x11, x0, x9
	stur	w14, [x11, #-4]
	mov	x14, x10
.LBB92_17:
	cmp	w13, #0
	mov	w10, #1
	mov	w0, wzr
	csel	w11, wzr, w12, ne
	cmp	w8, #0
	csinc	w8, w10, w9, eq
	stp	w8, w11, [x15, #-8]
	stp	x16, x14, [x2]
	ret
.LBB92_18:
	mov	w2, w3
	mov	w3, w4
	b	ic_raw.table.RawTable.refusal.05a19227735374d3
.Lfunc_end92:
	.size	ic_list32_insert_before, .Lfunc_end92-ic_list32_insert_before
	.cfi_endproc
	.section	.text.ic_list32_move_after,"ax",@progbits
	.globl	ic_list32_move_after
	.p2align	2
	.type	ic_list32_move_after,@function
ic_list32_move_after:
	.cfi_startproc
	hint	#34
	mov	w8, #4096
	cmp	x0, #0
	mov	w5, w4
	csel	x9, x8, xzr, eq
	adds	w8, w4, #1
	b.lo	.LBB93_2
	mov	w0, #4
	ret
.LBB93_2:
	mov	w10, #536870911
	mov	w4, w3
	add	x0, x0, x9
	cmp	x1, x10
	csel	x13, x1, x10, lo
	cmp	x13, x8
	b.lo	.LBB93_22
	ubfiz	x9, x8, #3, #32
	add	x8, x0, x9
	ldur	w11, [x8, #-8]
	tbz	w11, #0, .LBB93_22
	ldur	w10, [x8, #-4]
	and	x10, x10, #0xfffffff8
	cbz	w10, .LBB93_22
	and	x11, x11, #0xfffffff8
	cbz	w11, .LBB93_22
	lsr	x12, x10, #3
	cmp	x12, x13
	b.hi	.LBB93_22
	add	x12, x0, x10
	orr	x15, x9, #0x1
	ldur	w14, [x12, #-8]
	cmp	x15, x14
	b.ne	.LBB93_22
	lsr	x14, x11, #3
	cmp	x14, x13
	b.hi	.LBB93_22
	add	x14, x0, x11
	ldur	w15, [x14, #-4]
	cmp	x9, x15
	b.ne	.LBB93_22
	add	w15, w4, #1
	cbz	w15, .LBB93_22
	ldur	w16, [x14, #-8]
	tbz	w16, #0, .LBB93_22
	cmp	x13, x15
	b.lo	.LBB93_22
	ubfiz	x15, x15, #3, #32
	add	x16, x0, x15
	ldur	w3, [x16, #-8]
	tbz	w3, #0, .LBB93_22
	and	x17, x3, #0xfffffff8
	cbz	w17, .LBB93_22
	lsr	w3, w3, #3
	cmp	x3, x13
	b.hi	.LBB93_22
	add	x13, x0, x17
	ldur	w3, [x13, #-4]
	cmp	x15, x3
	b.ne	.LBB93_22
	ldur	w3, [x13, #-8]
	tbz	w3, #0, .LBB93_22
	cmp	x15, x9
	mov	w0, wzr
	b.eq	.LBB93_21
	cmp	x9, x17
	b.eq	.LBB93_21
	orr	w11, w11, #0x1
	ldp	x1, x3, [x2]
	stur	w11, [x12, #-8]
	mov	w0, wzr
	stur	w10, [x14, #-4]
	orr	w10, w9, #0x1
	stur	w10, [x16, #-8]
	and	x10, x1, #0xffffffff8
	stur	w9, [x13, #-4]
	orr	w9, w17, #0x1
	stp	w9, w15, [x8, #-8]
	and	x8, x3, #0xffffffff8
	stp	x10, x8, [x2]
.LBB93_21:
	ret
.LBB93_22:
	mov	w3, wzr
	b	ic_raw.move_calls.move_slow.55ebd757a04f39fd
.Lfunc_end93:
	.size	ic_list32_move_after, .Lfunc_end93-ic_list32_move_after
	.cfi_endproc
	.section	.text.ic_list32_move_before,"ax",@progbits
	.globl	ic_list32_move_before
	.p2align	2
	.type	ic_list32_move_before,@function
ic_list32_move_before:
	.cfi_startproc
	hint	#34
	mov	w8, #4096
	cmp	x0, #0
	mov	w5, w4
	csel	x9, x8, xzr, eq
	adds	w8, w4, #1
	b.lo	.LBB94_2
	mov	w0, #4
	ret
.LBB94_2:
	mov	w10, #536870911
	mov	w4, w3
	add	x0, x0, x9
	cmp	x1, x10
	csel	x13, x1, x10, lo
	cmp	x13, x8
	b.lo	.LBB94_21
	ubfiz	x9, x8, #3, #32
	add	x8, x0, x9
	ldur	w11, [x8, #-8]
	tbz	w11, #0, .LBB94_21
	ldur	w10, [x8, #-4]
	and	x10, x10, #0xfffffff8
	cbz	w10, .LBB94_21
	and	x11, x11, #0xfffffff8
	cbz	w11, .LBB94_21
	lsr	x12, x10, #3
	cmp	x12, x13
	b.hi	.LBB94_21
	add	x12, x0, x10
	orr	x15, x9, #0x1
	ldur	w14, [x12, #-8]
	cmp	x15, x14
	b.ne	.LBB94_21
	lsr	x14, x11, #3
	cmp	x14, x13
	b.hi	.LBB94_21
	add	x14, x0, x11
	ldur	w15, [x14, #-4]
	cmp	x9, x15
	b.ne	.LBB94_21
	add	w15, w4, #1
	cbz	w15, .LBB94_21
	ldur	w16, [x14, #-8]
	tbz	w16, #0, .LBB94_21
	cmp	x13, x15
	b.lo	.LBB94_21
	ubfiz	x15, x15, #3, #32
	add	x16, x0, x15
	ldurb	w17, [x16, #-8]
	tbz	w17, #0, .LBB94_21
	ldur	w3, [x16, #-4]
	and	x17, x3, #0xfffffff8
	cbz	w17, .LBB94_21
	lsr	w3, w3, #3
	cmp	x3, x13
	b.hi	.LBB94_21
	add	x13, x0, x17
	orr	x6, x15, #0x1
	ldur	w3, [x13, #-8]
	cmp	x6, x3
	b.ne	.LBB94_21
	cmp	x9, x17
	mov	w0, wzr
	b.eq	.LBB94_20
	cmp	x15, x9
	b.eq	.LBB94_20
	orr	w11, w11, #0x1
	ldp	x1, x3, [x2]
	stur	w11, [x12, #-8]
	mov	w0, wzr
	stur	w10, [x14, #-4]
	orr	w10, w9, #0x1
	stur	w10, [x13, #-8]
	and	x10, x1, #0xffffffff8
	stur	w9, [x16, #-4]
	orr	w9, w15, #0x1
	stp	w9, w17, [x8, #-8]
	and	x8, x3, #0xffffffff8
	stp	x10, x8, [x2]
.LBB94_20:
	ret
.LBB94_21:
	mov	w3, #1
	b	ic_raw.move_calls.move_slow.55ebd757a04f39fd
.Lfunc_end94:
	.size	ic_list32_move_before, .Lfunc_end94-ic_list32_move_before
	.cfi_endproc
	.section	.text.ic_list32_move_to_back,"ax",@progbits
	.globl	ic_list32_move_to_back
	.p2align	2
	.type	ic_list32_move_to_back,@function
ic_list32_move_to_back:
	.cfi_startproc
	hint	#34
	cmp	x0, #0
	mov	w8, #4096
	csel	x9, x8, xzr, eq
	adds	w8, w3, #1
	b.lo	.LBB95_2
	mov	w0, #4
	ret
.LBB95_2:
	mov	w10, #536870911
	mov	w4, w3
	add	x0, x0, x9
	cmp	x1, x10
	csel	x10, x1, x10, lo
	cmp	x10, x8
	b.lo	.LBB95_21
	ubfiz	x8, x8, #3, #32
	ldr	x11, [x2, #8]
	add	x9, x0, x8
	and	x11, x11, #0xffffffff8
	ldur	w14, [x9, #-8]
	tbz	w14, #0, .LBB95_15
	ldur	w12, [x9, #-4]
	and	x12, x12, #0xfffffff8
	cbz	w12, .LBB95_15
	and	x13, x14, #0xfffffff8
	cbz	w13, .LBB95_15
	lsr	x15, x12, #3
	cmp	x15, x10
	b.hi	.LBB95_15
	add	x14, x0, x12
	orr	x16, x8, #0x1
	ldur	w15, [x14, #-8]
	cmp	x16, x15
	b.ne	.LBB95_21
	lsr	x15, x13, #3
	cmp	x15, x10
	b.hi	.LBB95_21
	add	x15, x0, x13
	ldur	w16, [x15, #-4]
	cmp	x8, x16
	b.ne	.LBB95_21
	ldur	w16, [x15, #-8]
	tbz	w16, #0, .LBB95_21
	cbz	x11, .LBB95_21
	lsr	x16, x11, #3
	cmp	x16, x10
	b.hi	.LBB95_21
	add	x10, x0, x11
	ldur	w16, [x10, #-8]
	cmp	w16, #1
	b.ne	.LBB95_21
	orr	w13, w13, #0x1
	ldr	x16, [x2]
	mov	w0, wzr
	stur	w13, [x14, #-8]
	orr	w13, w8, #0x1
	stur	w12, [x15, #-4]
	stur	w13, [x10, #-8]
	mov	w10, #1
	stp	w10, w11, [x9, #-8]
	and	x11, x16, #0xffffffff8
	stp	x11, x8, [x2]
	ret
.LBB95_15:
	cmp	x11, x8
	b.ne	.LBB95_21
	cmp	w14, #1
	b.ne	.LBB95_21
	ldur	w11, [x9, #-4]
	and	x9, x11, #0xfffffff8
	cbz	w9, .LBB95_21
	lsr	w11, w11, #3
	cmp	x11, x10
	b.hi	.LBB95_21
	add	x9, x0, x9
	orr	x8, x8, #0x1
	ldur	w9, [x9, #-8]
	cmp	x8, x9
	b.ne	.LBB95_21
	mov	w0, wzr
	ret
.LBB95_21:
	mov	w3, #1
	b	ic_raw.move_calls.move_to_end_slow.55ebd757a04f39fd
.Lfunc_end95:
	.size	ic_list32_move_to_back, .Lfunc_end95-ic_list32_move_to_back
	.cfi_endproc
	.section	.text.ic_list32_move_to_front,"ax",@progbits
	.globl	ic_list32_move_to_front
	.p2align	2
	.type	ic_list32_move_to_front,@function
ic_list32_move_to_front:
	.cfi_startproc
	hint	#34
	cmp	x0, #0
	mov	w8, #4096
	csel	x9, x8, xzr, eq
	adds	w8, w3, #1
	b.lo	.LBB96_2
	mov	w0, #4
	ret
.LBB96_2:
	mov	w10, #536870911
	mov	w4, w3
	add	x0, x0, x9
	cmp	x1, x10
	csel	x10, x1, x10, lo
	cmp	x10, x8
	b.lo	.LBB96_24
	ubfiz	x8, x8, #3, #32
	ldr	x11, [x2]
	add	x9, x0, x8
	and	x11, x11, #0xffffffff8
	ldur	w13, [x9, #-8]
	tbz	w13, #0, .LBB96_16
	ldur	w12, [x9, #-4]
	and	x12, x12, #0xfffffff8
	cbz	w12, .LBB96_16
	and	x14, x13, #0xfffffff8
	cbz	w14, .LBB96_16
	lsr	x15, x12, #3
	cmp	x15, x10
	b.hi	.LBB96_16
	add	x15, x0, x12
	orr	x17, x8, #0x1
	ldur	w16, [x15, #-8]
	cmp	x17, x16
	b.ne	.LBB96_16
	lsr	x16, x14, #3
	cmp	x16, x10
	b.hi	.LBB96_16
	add	x16, x0, x14
	ldur	w17, [x16, #-4]
	cmp	x8, x17
	b.ne	.LBB96_16
	ldur	w17, [x16, #-8]
	tbz	w17, #0, .LBB96_16
	cbz	x11, .LBB96_24
	lsr	x13, x11, #3
	cmp	x13, x10
	b.hi	.LBB96_24
	add	x10, x0, x11
	ldur	w13, [x10, #-4]
	cbnz	w13, .LBB96_24
	ldur	w13, [x10, #-8]
	tbz	w13, #0, .LBB96_24
	orr	w13, w14, #0x1
	ldr	x14, [x2, #8]
	mov	w0, wzr
	stur	w13, [x15, #-8]
	stur	w12, [x16, #-4]
	stur	w8, [x10, #-4]
	orr	w10, w11, #0x1
	stp	w10, wzr, [x9, #-8]
	and	x9, x14, #0xffffffff8
	stp	x8, x9, [x2]
	ret
.LBB96_16:
	cmp	x11, x8
	b.ne	.LBB96_24
	ldur	w9, [x9, #-4]
	cbnz	w9, .LBB96_24
	tbz	w13, #0, .LBB96_24
	ands	w9, w13, #0xfffffff8
	b.eq	.LBB96_24
	lsr	x11, x9, #3
	cmp	x11, x10
	b.hi	.LBB96_24
	add	x9, x0, x9
	ldur	w10, [x9, #-4]
	cmp	x8, x10
	b.ne	.LBB96_24
	ldur	w8, [x9, #-8]
	tbz	w8, #0, .LBB96_24
	mov	w0, wzr
	ret
.LBB96_24:
	mov	w3, wzr
	b	ic_raw.move_calls.move_to_end_slow.55ebd757a04f39fd
.Lfunc_end96:
	.size	ic_list32_move_to_front, .Lfunc_end96-ic_list32_move_to_front
	.cfi_endproc
	.section	.text.ic_list32_pop_back,"ax",@progbits
	.globl	ic_list32_pop_back
	.p2align	2
	.type	ic_list32_pop_back,@function
ic_list32_pop_back:
	.cfi_startproc
	hint	#34
	ldr	x8, [x2, #8]
	cmp	x0, #0
	mov	w9, #4096
	csel	x9, x9, xzr, eq
	ands	x10, x8, #0xffffffff8
	b.eq	.LBB97_10
	mov	w11, #536870911
	lsr	x8, x10, #3
	cmp	x1, x11
	csel	x13, x1, x11, lo
	cmp	x8, x13
	b.hi	.LBB97_10
	add	x9, x0, x9
	add	x11, x9, x10
	ldur	w12, [x11, #-8]
	and	w12, w12, #0xfffffff9
	cmp	w12, #1
	b.ne	.LBB97_10
	ldur	w11, [x11, #-4]
	ldr	x12, [x2]
	and	x11, x11, #0xfffffff8
	and	x12, x12, #0xffffffff8
	cbz	w11, .LBB97_7
	cmp	x13, x11, lsr #3
	b.lo	.LBB97_10
	add	x13, x9, x11
	orr	x15, x10, #0x1
	ldur	w14, [x13, #-8]
	and	x14, x14, #0xfffffffffffffff9
	cmp	x15, x14
	b.ne	.LBB97_10
	mov	w14, #1
	stur	w14, [x13, #-8]
	mov	x13, x12
	mov	x12, x10
	b	.LBB97_9
.LBB97_7:
	cmp	x12, x10
	b.ne	.LBB97_10
	lsr	x8, x12, #3
	mov	x13, xzr
.LBB97_9:
	add	x9, x9, x12
	sub	w8, w8, #1
	mov	w0, wzr
	stur	wzr, [x9, #-8]
	stp	x13, x11, [x2]
	str	w8, [x3]
	ret
.LBB97_10:
	mov	x0, x2
	mov	w1, #1
	b	ic_raw.list_calls.refusal_to_pop
.Lfunc_end97:
	.size	ic_list32_pop_back, .Lfunc_end97-ic_list32_pop_back
	.cfi_endproc
	.section	.text.ic_list32_pop_front,"ax",@progbits
	.globl	ic_list32_pop_front
	.p2align	2
	.type	ic_list32_pop_front,@function
ic_list32_pop_front:
	.cfi_startproc
	hint	#34
	ldr	x8, [x2]
	cmp	x0, #0
	mov	w9, #4096
	csel	x9, x9, xzr, eq
	ands	x10, x8, #0xffffffff8
	add	x0, x0, x9
	b.eq	.LBB98_9
	mov	w9, #536870911
	cmp	x1, x9
	csel	x12, x1, x9, lo
	cmp	x12, x10, lsr #3
	b.lo	.LBB98_9
	add	x9, x0, x10
	ldur	w11, [x9, #-4]
	cbnz	w11, .LBB98_9
	ldur	w13, [x9, #-8]
	tbz	w13, #0, .LBB98_9
	and	x11, x13, #0xfffffff8
	cbz	w11, .LBB98_9
	lsr	w13, w13, #3
	cmp	x13, x12
	b.hi	.LBB98_9
	add	x12, x0, x11
	ldur	w13, [x12, #-4]
	cmp	x10, x13
	b.ne	.LBB98_9
	ldur	w10, [x12, #-8]
	tbz	w10, #0, .LBB98_9
	mov	w10, #-1
	mov	w0, wzr
	stur	wzr, [x12, #-4]
	add	x8, x10, x8, lsr #3
	stur	wzr, [x9, #-8]
	str	x11, [x2]
	str	w8, [x3]
	ret
.LBB98_9:
	b	ic_raw.list_calls.pop_front_slow.55ebd757a04f39fd
.Lfunc_end98:
	.size	ic_list32_pop_front, .Lfunc_end98-ic_list32_pop_front
	.cfi_endproc
	.section	.text.ic_list32_push_back,"ax",@progbits
	.globl	ic_list32_push_back
	.p2align	2
	.type	ic_list32_push_back,@function
ic_list32_push_back:
	.cfi_startproc
	hint	#34
	ldr	x8, [x2, #8]
	cmp	x0, #0
	mov	w9, #4096
	csel	x9, x9, xzr, eq
	ands	x8, x8, #0xffffffff8
	add	x0, x0, x9
	b.eq	.LBB99_7
	mov	w9, #536870911
	cmp	x1, x9
	csel	x11, x1, x9, lo
	cmp	x11, x8, lsr #3
	b.lo	.LBB99_7
	add	w10, w3, #1
	cbz	w10, .LBB99_7
	add	x9, x0, x8
	ldur	w12, [x9, #-8]
	cmp	w12, #1
	b.ne	.LBB99_7
	cmp	x11, x10
	b.lo	.LBB99_7
	ubfiz	x10, x10, #3, #32
	add	x11, x0, x10
	ldurb	w12, [x11, #-8]
	tbnz	w12, #0, .LBB99_7
	orr	w12, w10, #0x1
	mov	w0, wzr
	stur	w12, [x9, #-8]
	mov	w9, #1
	stp	w9, w8, [x11, #-8]
	str	x10, [x2, #8]
	ret
.LBB99_7:
	b	ic_raw.list_calls.push_back_slow.55ebd757a04f39fd
.Lfunc_end99:
	.size	ic_list32_push_back, .Lfunc_end99-ic_list32_push_back
	.cfi_endproc
	.section	.text.ic_list32_push_front,"ax",@progbits
	.globl	ic_list32_push_front
	.p2align	2
	.type	ic_list32_push_front,@function
ic_list32_push_front:
	.cfi_startproc
	hint	#34
	ldp	x8, x9, [x2]
	cmp	x0, #0
	mov	w10, #4096
	csel	x10, x10, xzr, eq
	and	x9, x9, #0xffffffff8
	ands	x8, x8, #0xffffffff8
	add	x0, x0, x10
	mov	x10, x9
	b.eq	.LBB100_4
	mov	w10, #536870911
	cmp	x1, x10
	csel	x10, x1, x10, lo
	cmp	x10, x8, lsr #3
	b.lo	.LBB100_11
	add	x10, x0, x8
	ldurb	w11, [x10, #-8]
	tbz	w11, #0, .LBB100_11
	ldur	w10, [x10, #-4]
	and	x10, x10, #0xfffffff8
.LBB100_4:
	cbnz	x10, .LBB100_11
	mov	w11, #536870911
	add	w10, w3, #1
	cmp	x1, x11
	csel	x11, x1, x11, lo
	cbz	w10, .LBB100_11
	cmp	x11, x10
	b.lo	.LBB100_11
	ubfiz	x10, x10, #3, #32
	add	x11, x0, x10
	ldurb	w12, [x11, #-8]
	tbnz	w12, #0, .LBB100_11
	mov	x12, x10
	cbz	x8, .LBB100_10
	add	x12, x0, x8
	stur	w10, [x12, #-4]
	mov	x12, x9
.LBB100_10:
	mov	w0, wzr
	orr	w8, w8, #0x1
	stp	w8, wzr, [x11, #-8]
	stp	x10, x12, [x2]
	ret
.LBB100_11:
	mov	w2, #-1
	b	ic_raw.table.RawTable.refusal.05a19227735374d3
.Lfunc_end100:
	.size	ic_list32_push_front, .Lfunc_end100-ic_list32_push_front
	.cfi_endproc
	.section	.text.ic_list32_remove,"ax",@progbits
	.globl	ic_list32_remove
	.p2align	2
	.type	ic_list32_remove,@function
ic_list32_remove:
	.cfi_startproc
	hint	#34
	cmp	x0, #0
	mov	w8, #4096
	csel	x9, x8, xzr, eq
	adds	w8, w3, #1
	b.lo	.LBB101_2
	mov	w0, #4
	ret
.LBB101_2:
	mov	w10, #536870911
	add	x0, x0, x9
	cmp	x1, x10
	csel	x11, x1, x10, lo
	cmp	x11, x8
	b.lo	.LBB101_12
	ubfiz	x10, x8, #3, #32
	add	x8, x0, x10
	ldur	w12, [x8, #-8]
	tbz	w12, #0, .LBB101_12
	ldur	w9, [x8, #-4]
	and	x9, x9, #0xfffffff8
	cbz	w9, .LBB101_12
	and	x12, x12, #0xfffffff8
	cbz	w12, .LBB101_12
	lsr	x13, x9, #3
	cmp	x13, x11
	b.hi	.LBB101_12
	add	x13, x0, x9
	orr	x15, x10, #0x1
	ldur	w14, [x13, #-8]
	cmp	x15, x14
	b.ne	.LBB101_12
	lsr	x14, x12, #3
	cmp	x14, x11
	b.hi	.LBB101_12
	add	x11, x0, x12
	ldur	w14, [x11, #-4]
	cmp	x10, x14
	b.ne	.LBB101_12
	ldur	w10, [x11, #-8]
	tbz	w10, #0, .LBB101_12
	mov	w0, wzr
	orr	w10, w12, #0x1
	stur	w10, [x13, #-8]
	stur	w9, [x11, #-4]
	stur	wzr, [x8, #-8]
	ret
.LBB101_12:
	b	ic_raw.list_calls.remove_slow.55ebd757a04f39fd
.Lfunc_end101:
	.size	ic_list32_remove, .Lfunc_end101-ic_list32_remove
	.cfi_endproc
	.section	.text.ic_list32_replace,"ax",@progbits
	.globl	ic_list32_replace
	.p2align	2
	.type	ic_list32_replace,@function
ic_list32_replace:
	.cfi_startproc
	hint	#34
	mov	w8, #4096
	cmp	x0, #0
	csel	x9, x8, xzr, eq
	adds	w8, w3, #1
	b.lo	.LBB102_2
	mov	w0, #4
	ret
.LBB102_2:
	mov	w10, #536870911
	add	x0, x0, x9
	cmp	x1, x10
	csel	x10, x1, x10, lo
	cmp	x10, x8
	b.lo	.LBB102_21
	ubfiz	x12, x8, #3, #32
	add	x8, x0, x12
	ldur	w13, [x8, #-8]
	tbz	w13, #0, .LBB102_21
	ldp	x11, x14, [x2]
	ldur	w9, [x8, #-4]
	and	x9, x9, #0xfffffff8
	and	x11, x11, #0xffffffff8
	cbz	w9, .LBB102_7
	cmp	x10, x9, lsr #3
	b.lo	.LBB102_21
	add	x15, x0, x9
	orr	x16, x12, #0x1
	ldur	w15, [x15, #-8]
	and	x15, x15, #0xfffffffffffffff9
	cmp	x16, x15
	b.eq	.LBB102_8
	b	.LBB102_21
.LBB102_7:
	cmp	x11, x12
	b.ne	.LBB102_21
.LBB102_8:
	and	x14, x14, #0xffffffff8
	and	x13, x13, #0xfffffff8
	mov	x16, x14
	cbz	w13, .LBB102_12
	cmp	x10, x13, lsr #3
	b.lo	.LBB102_21
	add	x15, x0, x13
	ldurb	w16, [x15, #-8]
	tbz	w16, #0, .LBB102_21
	ldur	w15, [x15, #-4]
	and	x16, x15, #0xfffffff8
.LBB102_12:
	add	w15, w4, #1
	cbz	w15, .LBB102_21
	cmp	x16, x12
	b.ne	.LBB102_21
	cmp	x10, x15
	b.lo	.LBB102_21
	ubfiz	x10, x15, #3, #32
	add	x12, x0, x10
	ldurb	w15, [x12, #-8]
	tbnz	w15, #0, .LBB102_21
	mov	x15, x10
	cbz	w9, .LBB102_18
	add	x15, x0, x9
	orr	w16, w10, #0x1
	stur	w16, [x15, #-8]
	mov	x15, x11
.LBB102_18:
	cbz	w13, .LBB102_20
	add	x11, x0, x13
	stur	w10, [x11, #-4]
	mov	x10, x14
.LBB102_20:
	mov	w0, wzr
	orr	w11, w13, #0x1
	stp	w11, w9, [x12, #-8]
	stur	wzr, [x8, #-8]
	stp	x15, x10, [x2]
	ret
.LBB102_21:
	mov	w2, w3
	mov	w3, w4
	b	ic_raw.table.RawTable.refusal.05a19227735374d3
.Lfunc_end102:
	.size	ic_list32_replace, .Lfunc_end102-ic_list32_replace
	.cfi_endproc
	.section	.text.ic_list32_splice_after,"ax",@progbits
	.globl	ic_list32_splice_after
	.p2align	2
	.type	ic_list32_splice_after,@function
ic_list32_splice_after:
	.cfi_startproc
	hint	#34
	mov	w8, #4096
	cmp	x0, #0
	csel	x8, x8, xzr, eq
	cmn	w3, #1
	add	x0, x0, x8
	b.ne	.LBB103_14
	ldr	x8, [x2]
	and	x8, x8, #0xffffffff8
	cbz	x8, .LBB103_14
	mov	w9, #536870911
	cmp	x1, x9
	csel	x11, x1, x9, lo
	cmp	x11, x8, lsr #3
	b.lo	.LBB103_14
	add	x10, x0, x8
	ldur	w9, [x10, #-4]
	cbnz	w9, .LBB103_14
	ldr	x9, [x4]
	and	x9, x9, #0xffffffff8
	cbz	x9, .LBB103_14
	ldur	w12, [x10, #-8]
	tbz	w12, #0, .LBB103_14
	lsr	x12, x9, #3
	cmp	x12, x11
	b.hi	.LBB103_14
	add	x12, x0, x9
	ldur	w13, [x12, #-4]
	cbnz	w13, .LBB103_14
	ldr	x13, [x4, #8]
	and	x13, x13, #0xffffffff8
	cbz	x13, .LBB103_14
	ldur	w14, [x12, #-8]
	tbz	w14, #0, .LBB103_14
	lsr	x14, x13, #3
	cmp	x14, x11
	b.hi	.LBB103_14
	cmp	x8, x9
	b.eq	.LBB103_14
	add	x11, x0, x13
	ldur	w14, [x11, #-8]
	cmp	w14, #1
	b.ne	.LBB103_14
	ldr	x14, [x2, #8]
	orr	w8, w8, #0x1
	mov	w0, wzr
	stur	w13, [x10, #-4]
	stur	wzr, [x12, #-4]
	stur	w8, [x11, #-8]
	and	x8, x14, #0xffffffff8
	stp	x9, x8, [x2]
	stp	xzr, xzr, [x4]
	ret
.LBB103_14:
	mov	w5, wzr
	b	ic_raw.list_calls.splice_slow.55ebd757a04f39fd
.Lfunc_end103:
	.size	ic_list32_splice_after, .Lfunc_end103-ic_list32_splice_after
	.cfi_endproc
	.section	.text.ic_list32_splice_before,"ax",@progbits
	.globl	ic_list32_splice_before
	.p2align	2
	.type	ic_list32_splice_before,@function
ic_list32_splice_before:
	.cfi_startproc
	hint	#34
	mov	w8, #4096
	cmp	x0, #0
	csel	x8, x8, xzr, eq
	cmn	w3, #1
	add	x0, x0, x8
	b.ne	.LBB104_13
	ldr	x8, [x2, #8]
	and	x8, x8, #0xffffffff8
	cbz	x8, .LBB104_13
	mov	w9, #536870911
	cmp	x1, x9
	csel	x13, x1, x9, lo
	cmp	x13, x8, lsr #3
	b.lo	.LBB104_13
	ldr	x9, [x4]
	and	x9, x9, #0xffffffff8
	cbz	x9, .LBB104_13
	add	x10, x0, x8
	ldur	w11, [x10, #-8]
	cmp	w11, #1
	b.ne	.LBB104_13
	lsr	x11, x9, #3
	cmp	x11, x13
	b.hi	.LBB104_13
	add	x11, x0, x9
	ldur	w12, [x11, #-4]
	cbnz	w12, .LBB104_13
	ldr	x12, [x4, #8]
	and	x12, x12, #0xffffffff8
	cbz	x12, .LBB104_13
	ldur	w14, [x11, #-8]
	tbz	w14, #0, .LBB104_13
	lsr	x14, x12, #3
	cmp	x14, x13
	b.hi	.LBB104_13
	ldr	x13, [x2]
	and	x13, x13, #0xffffffff8
	cmp	x13, x9
	b.eq	.LBB104_13
	add	x14, x0, x12
	ldur	w15, [x14, #-8]
	cmp	w15, #1
	b.ne	.LBB104_13
	orr	w9, w9, #0x1
	mov	w0, wzr
	stur	w9, [x10, #-8]
	mov	w9, #1
	stur	w8, [x11, #-4]
	stur	w9, [x14, #-8]
	stp	x13, x12, [x2]
	stp	xzr, xzr, [x4]
	ret
.LBB104_13:
	mov	w5, #1
	b	ic_raw.list_calls.splice_slow.55ebd757a04f39fd
.Lfunc_end104:
	.size	ic_list32_splice_before, .Lfunc_end104-ic_list32_splice_before
	.cfi_endproc
	.section	.text.ic_list32_split_after,"ax",@progbits
	.globl	ic_list32_split_after
	.p2align	2
	.type	ic_list32_split_after,@function
ic_list32_split_after:
	.cfi_startproc
	hint	#34
	ldr	x8, [x4]
	cmp	x0, #0
	mov	w9, #4096
	csel	x9, x9, xzr, eq
	tst	x8, #0xffffffff8
	add	x0, x0, x9
	b.ne	.LBB105_10
	ldr	x8, [x4, #8]
	tst	x8, #0xffffffff8
	b.ne	.LBB105_10
	adds	w8, w3, #1
	b.hs	.LBB105_10
	mov	w9, #536870911
	cmp	x1, x9
	csel	x11, x1, x9, lo
	cmp	x11, x8
	b.lo	.LBB105_10
	ubfiz	x8, x8, #3, #32
	add	x9, x0, x8
	ldur	w12, [x9, #-8]
	tbz	w12, #0, .LBB105_10
	and	x10, x12, #0xfffffff8
	cbz	w10, .LBB105_10
	lsr	w12, w12, #3
	cmp	x12, x11
	b.hi	.LBB105_10
	add	x11, x0, x10
	ldur	w12, [x11, #-4]
	cmp	x8, x12
	b.ne	.LBB105_10
	ldur	w12, [x11, #-8]
	tbz	w12, #0, .LBB105_10
	ldp	x13, x14, [x2]
	mov	w12, #1
	stur	w12, [x9, #-8]
	mov	w0, wzr
	stur	wzr, [x11, #-4]
	and	x9, x13, #0xffffffff8
	stp	x9, x8, [x2]
	and	x8, x14, #0xffffffff8
	stp	x10, x8, [x4]
	ret
.LBB105_10:
	mov	w5, wzr
	b	ic_raw.list_calls.split_slow.55ebd757a04f39fd
.Lfunc_end105:
	.size	ic_list32_split_after, .Lfunc_end105-ic_list32_split_after
	.cfi_endproc
	.section	.text.ic_list32_split_before,"ax",@progbits
	.globl	ic_list32_split_before
	.p2align	2
	.type	ic_list32_split_before,@function
ic_list32_split_before:
	.cfi_startproc
	hint	#34
	ldr	x8, [x4]
	cmp	x0, #0
	mov	w9, #4096
	csel	x9, x9, xzr, eq
	tst	x8, #0xffffffff8
	add	x0, x0, x9
	b.ne	.LBB106_9
	ldr	x8, [x4, #8]
	tst	x8, #0xffffffff8
	b.ne	.LBB106_9
	adds	w8, w3, #1
	b.hs	.LBB106_9
	mov	w9, #536870911
	cmp	x1, x9
	csel	x11, x1, x9, lo
	cmp	x11, x8
	b.lo	.LBB106_9
	ubfiz	x8, x8, #3, #32
	add	x9, x0, x8
	ldurb	w10, [x9, #-8]
	tbz	w10, #0, .LBB106_9
	ldur	w12, [x9, #-4]
	and	x10, x12, #0xfffffff8
	cbz	w10, .LBB106_9
	lsr	w12, w12, #3
	cmp	x12, x11
	b.hi	.LBB106_9
	add	x11, x0, x10
	orr	x13, x8, #0x1
	ldur	w12, [x11, #-8]
	cmp	x13, x12
	b.ne	.LBB106_9
	ldp	x13, x14, [x2]
	mov	w12, #1
	stur	w12, [x11, #-8]
	mov	w0, wzr
	stur	wzr, [x9, #-4]
	and	x9, x14, #0xffffffff8
	stp	x8, x9, [x2]
	and	x8, x13, #0xffffffff8
	stp	x8, x10, [x4]
	ret
.LBB106_9:
	mov	w5, #1
	b	ic_raw.list_calls.split_slow.55ebd757a04f39fd
.Lfunc_end106:
	.size	ic_list32_split_before, .Lfunc_end106-ic_list32_split_before
	.cfi_endproc
	.section	.text.ic_list32_transfer_after,"ax",@progbits
	.globl	ic_list32_transfer_after
	.p2align	2
	.type	ic_list32_transfer_after,@function
ic_list32_transfer_after:
	.cfi_startproc
	hint	#34
	cmp	x0, #0
	mov	w8, #4096
	mov	w6, w5
	csel	x8, x8, xzr, eq
	mov	x5, x4
	mov	w4, w3
	add	x0, x0, x8
	mov	w3, wzr
	b	ic_raw_lists.transfer_calls.transfer_at.55ebd757a04f39fd
.Lfunc_end107:
	.size	ic_list32_transfer_after, .Lfunc_end107-ic_list32_transfer_after
	.cfi_endproc
	.section	.text.ic_list32_transfer_before,"ax",@progbits
	.globl	ic_list32_transfer_before
	.p2align	2
	.type	ic_list32_transfer_before,@function
ic_list32_transfer_before:
	.cfi_startproc
	hint	#34
	cmp	x0, #0
	mov	w8, #4096
	mov	w6, w5
	csel	x8, x8, xzr, eq
	mov	x5, x4
	mov	w4, w3
	add	x0, x0, x8
	mov	w3, #1
	b	ic_raw_lists.transfer_calls.transfer_at.55ebd757a04f39fd
.Lfunc_end108:
	.size	ic_list32_transfer_before, .Lfunc_end108-ic_list32_transfer_before
	.cfi_endproc
	.section	.text.ic_list_append,"ax",@progbits
	.globl	ic_list_append
	.p2align	2
	.type	ic_list_append,@function
ic_list_append:
	.cfi_startproc
	hint	#34
	ldr	x9, [x2, #8]
	cmp	x0, #0
	mov	w8, #4096
	csel	x10, x8, xzr, eq
	mov	x4, x3
	ands	x8, x9, #0xffffffff8
	add	x0, x0, x10
	b.eq	.LBB109_12
	ubfx	x9, x9, #3, #33
	cmp	x9, x1
	b.hi	.LBB109_12
	ldr	x9, [x4]
	and	x9, x9, #0xffffffff8
	cbz	x9, .LBB109_12
	add	x10, x0, x8, lsl #1
	ldur	x11, [x10, #-16]
	cmp	x11, #1
	b.ne	.LBB109_12
	lsr	x11, x9, #3
	cmp	x11, x1
	b.hi	.LBB109_12
	add	x11, x0, x9, lsl #1
	ldur	x12, [x11, #-8]
	cbnz	x12, .LBB109_12
	ldr	x12, [x4, #8]
	and	x12, x12, #0xffffffff8
	cbz	x12, .LBB109_12
	ldur	w13, [x11, #-16]
	tbz	w13, #0, .LBB109_12
	lsr	x13, x12, #3
	cmp	x13, x1
	b.hi	.LBB109_12
	ldr	x13, [x2]
	and	x13, x13, #0xffffffff8
	cmp	x13, x9
	b.eq	.LBB109_12
	add	x14, x0, x12, lsl #1
	ldur	x15, [x14, #-16]
	cmp	x15, #1
	b.ne	.LBB109_12
	orr	x9, x9, #0x1
	mov	w0, wzr
	stur	x9, [x10, #-16]
	mov	w9, #1
	stur	x8, [x11, #-8]
	stur	x9, [x14, #-16]
	stp	x13, x12, [x2]
	stp	xzr, xzr, [x4]
	ret
.LBB109_12:
	mov	w3, #-1
	mov	w5, #1
	b	ic_raw.list_calls.splice_slow.5386baa488213e47
.Lfunc_end109:
	.size	ic_list_append, .Lfunc_end109-ic_list_append
	.cfi_endproc
	.section	.text.ic_list_check,"ax",@progbits
	.globl	ic_list_check
	.p2align	2
	.type	ic_list_check,@function
ic_list_check:
	.cfi_startproc
	hint	#34
	cmp	x0, #0
	mov	w8, #4096
	csel	x10, x8, xzr, eq
	ldp	x9, x8, [x2]
	ands	x13, x9, #0xffffffff8
	b.eq	.LBB110_10
	mov	x11, xzr
	mov	x9, xzr
	add	x10, x0, x10
.LBB110_2:
	cmp	x1, x9
	mov	w0, #5
	b.eq	.LBB110_9
	mov	x12, x13
	lsr	x13, x13, #3
	cmp	x13, x1
	b.hi	.LBB110_9
	add	x14, x10, x12, lsl #1
	ldur	x13, [x14, #-16]
	tbz	w13, #0, .LBB110_9
	ldur	x14, [x14, #-8]
	and	x14, x14, #0xffffffff8
	cmp	x14, x11
	b.ne	.LBB110_9
	ands	x13, x13, #0xffffffff8
	add	x9, x9, #1
	mov	x11, x12
	b.ne	.LBB110_2
	and	x8, x8, #0xffffffff8
	cmp	x8, x12
	b.ne	.LBB110_11
.LBB110_8:
	mov	w0, wzr
	str	x9, [x3]
.LBB110_9:
	ret
.LBB110_10:
	mov	x9, xzr
	and	x8, x8, #0xffffffff8
	cmp	x8, xzr
	b.eq	.LBB110_8
.LBB110_11:
	mov	w0, #5
	ret
.Lfunc_end110:
	.size	ic_list_check, .Lfunc_end110-ic_list_check
	.cfi_endproc
	.section	.text.ic_list_clear,"ax",@progbits
	.globl	ic_list_clear
	.p2align	2
	.type	ic_list_clear,@function
ic_list_clear:
	.cfi_startproc
	hint	#34
	ldp	x8, x10, [x2]
	cmp	x0, #0
	mov	w9, #4096
	csel	x9, x9, xzr, eq
	ands	x8, x8, #0xffffffff8
	and	x10, x10, #0xffffffff8
	b.eq	.LBB111_8
	cbz	x1, .LBB111_9
	mov	x13, xzr
	add	x9, x0, x9
	mov	x11, x8
	mov	x12, x1
.LBB111_3:
	cmp	x1, x11, lsr #3
	b.lo	.LBB111_9
	add	x15, x9, x11, lsl #1
	ldur	x14, [x15, #-16]
	tbz	w14, #0, .LBB111_9
	ldur	x15, [x15, #-8]
	and	x15, x15, #0xffffffff8
	cmp	x15, x13
	b.ne	.LBB111_9
	ands	x14, x14, #0xffffffff8
	b.eq	.LBB111_10
	subs	x12, x12, #1
	mov	x13, x11
	mov	x11, x14
	b.ne	.LBB111_3
	b	.LBB111_9
.LBB111_8:
	cbz	x10, .LBB111_12
.LBB111_9:
	mov	w0, #5
	ret
.LBB111_10:
	cmp	x10, x11
	b.ne	.LBB111_9
.LBB111_11:
	add	x10, x9, x8, lsl #1
	ldur	x8, [x10, #-16]
	stur	xzr, [x10, #-16]
	ands	x8, x8, #0xffffffff8
	b.ne	.LBB111_11
.LBB111_12:
	mov	w0, wzr
	stp	xzr, xzr, [x2]
	ret
.Lfunc_end111:
	.size	ic_list_clear, .Lfunc_end111-ic_list_clear
	.cfi_endproc
	.section	.text.ic_list_fill,"ax",@progbits
	.globl	ic_list_fill
	.p2align	2
	.type	ic_list_fill,@function
ic_list_fill:
	.cfi_startproc
	hint	#34
	mov	w8, #4096
	cmp	x0, #0
	csel	x11, x8, xzr, eq
	cbz	w4, .LBB112_5
	ldp	x9, x8, [x2]
	add	x10, x0, x11
	ands	x8, x8, #0xffffffff8
	and	x9, x9, #0xffffffff8
	cset	w13, eq
	cbz	x8, .LBB112_6
	cmp	x1, x8, lsr #3
	b.lo	.LBB112_7
	add	x12, x10, x8, lsl #1
	ldur	x12, [x12, #-16]
	and	x12, x12, #0xfffffffff
	and	x12, x12, #0xfffffffffffffff9
	cmp	x12, #1
	b.ne	.LBB112_7
.LBB112_4:
	mov	w14, #1
	mov	x12, x8
	b	.LBB112_8
.LBB112_5:
	mov	w0, wzr
	ret
.LBB112_6:
	cbz	x9, .LBB112_4
.LBB112_7:
	mov	w14, wzr
	mov	x12, xzr
	mov	w13, #1
.LBB112_8:
	mov	w15, w3
	mov	w16, w4
	add	x15, x15, #1
.LBB112_9:
	mov	w17, w15
	sub	x5, x17, #1
	cmp	x5, x1
	b.hs	.LBB112_18
	add	x17, x10, x17, lsl #4
	ldur	w17, [x17, #-16]
	lsl	w17, w17, #1
	tbnz	w17, #1, .LBB112_19
	subs	w16, w16, #1
	add	x15, x15, #1
	b.ne	.LBB112_9
	cbz	w14, .LBB112_20
	adds	w14, w3, #1
	b.hs	.LBB112_29
	cmp	x1, x14
	b.lo	.LBB112_29
	add	x15, x10, x14, lsl #4
	ldurb	w16, [x15, #-16]
	tbnz	w16, #0, .LBB112_29
	ubfiz	x8, x14, #3, #32
	tbz	w13, #0, .LBB112_21
	mov	x12, xzr
	mov	x9, x8
	b	.LBB112_22
.LBB112_18:
	mov	w0, #1
	ret
.LBB112_19:
	and	w0, w17, #0x2
	ret
.LBB112_20:
	mov	w0, #5
	ret
.LBB112_21:
	add	x13, x10, x12, lsl #1
	orr	x16, x8, #0x1
	stur	x16, [x13, #-16]
.LBB112_22:
	mov	w16, #1
	subs	w13, w4, #1
	stp	x16, x12, [x15, #-16]
	b.eq	.LBB112_29
	add	x11, x11, x14, lsl #4
	add	w12, w3, #2
	add	x11, x11, x0
	sub	x11, x11, #16
.LBB112_24:
	cbz	w12, .LBB112_29
	mov	w14, w12
	cmp	x1, x14
	b.lo	.LBB112_29
	add	x16, x10, x14, lsl #4
	ldurb	w15, [x16, #-16]
	tbnz	w15, #0, .LBB112_29
	ubfiz	x15, x12, #3, #32
	subs	w13, w13, #1
	orr	x12, x15, #0x1
	str	x12, [x11], #16
	mov	w12, #1
	stp	x12, x8, [x16, #-16]
	add	x8, x8, #8
	add	w12, w14, #1
	b.ne	.LBB112_24
	mov	x8, x15
.LBB112_29:
	mov	w0, wzr
	stp	x9, x8, [x2]
	ret
.Lfunc_end112:
	.size	ic_list_fill, .Lfunc_end112-ic_list_fill
	.cfi_endproc
	.section	.text.ic_list_insert_after,"ax",@progbits
	.globl	ic_list_insert_after
	.p2align	2
	.type	ic_list_insert_after,@function
ic_list_insert_after:
	.cfi_startproc
	hint	#34
	ldp	x9, x10, [x2]
	mov	w8, #4096
	cmp	x0, #0
	csel	x12, x8, xzr, eq
	adds	w11, w3, #1
	and	x8, x9, #0xffffffff8
	add	x0, x0, x12
	mov	x9, x8
	b.hs	.LBB113_4
	cmp	x1, x11
	b.lo	.LBB113_17
	add	x9, x0, x11, lsl #4
	ldur	x9, [x9, #-16]
	tbz	w9, #0, .LBB113_17
	and	x9, x9, #0xffffffff8
.LBB113_4:
	and	x10, x10, #0xffffffff8
	add	x12, x0, x9, lsl #1
	mov	x14, x10
	cbz	x9, .LBB113_8
	cmp	x1, x9, lsr #3
	b.lo	.LBB113_17
	ldurb	w13, [x12, #-16]
	tbz	w13, #0, .LBB113_17
	ldur	x13, [x12, #-8]
	and	x14, x13, #0xffffffff8
.LBB113_8:
	add	w15, w4, #1
	cbz	w15, .LBB113_17
	cmp	x1, x15
	b.lo	.LBB113_17
	ubfiz	x13, x11, #3, #32
	cmp	x14, x13
	b.ne	.LBB113_17
	add	x14, x0, x15, lsl #4
	ldurb	w16, [x14, #-16]
	tbnz	w16, #0, .LBB113_17
	ubfiz	x16, x15, #3, #32
	mov	x15, x16
	cbz	w11, .LBB113_14
	add	x11, x0, x11, lsl #4
	orr	x15, x16, #0x1
	stur	x15, [x11, #-16]
	mov	x15, x8
.LBB113_14:
	cbz	x9, .LBB113_16
	stur	x16, [x12, #-8]
	mov	w0, wzr
	orr	x8, x9, #0x1
	stp	x8, x13, [x14, #-16]
	stp	x15, x10, [x2]
	ret
.LBB113_16:
	mov	w0, wzr
	orr	x8, x9, #0x1
	stp	x8, x13, [x14, #-16]
	stp	x15, x16, [x2]
	ret
.LBB113_17:
	mov	w2, w3
	mov	w3, w4
	b	ic_raw.table.RawTable.refusal.85cd03e557136797
.Lfunc_end113:
	.size	ic_list_insert_after, .Lfunc_end113-ic_list_insert_after
	.cfi_endproc
	.section	.text.ic_list_insert_before,"ax",@progbits
	.globl	ic_list_insert_before
	.p2align	2
	.type	ic_list_insert_before,@function
ic_list_insert_before:
	.cfi_startproc
	hint	#34
	ldp	x12, x8, [x2]
	cmp	x0, #0
	mov	w9, #4096
	csel	x10, x9, xzr, eq
	adds	w9, w3, #1
	and	x8, x8, #0xffffffff8
	add	x0, x0, x10
	mov	x10, x8
	b.hs	.LBB114_4
	cmp	x1, x9
	b.lo	.LBB114_17
	add	x10, x0, x9, lsl #4
	ldurb	w11, [x10, #-16]
	tbz	w11, #0, .LBB114_17
	ldur	x10, [x10, #-8]
	and	x10, x10, #0xffffffff8
.LBB114_4:
	ubfiz	x11, x9, #3, #32
	add	x13, x0, x10, lsl #1
	and	x12, x12, #0xffffffff8
	cbz	x10, .LBB114_7
	cmp	x1, x10, lsr #3
	b.lo	.LBB114_17
	ldur	x14, [x13, #-16]
	orr	x15, x11, #0x1
	and	x14, x14, #0xfffffffff
	and	x14, x14, #0xfffffffffffffff9
	cmp	x14, x15
	b.eq	.LBB114_8
	b	.LBB114_17
.LBB114_7:
	cmp	x12, x11
	mov	x11, x12
	b.ne	.LBB114_17
.LBB114_8:
	add	w15, w4, #1
	cbz	w15, .LBB114_17
	cmp	x1, x15
	b.lo	.LBB114_17
	add	x14, x0, x15, lsl #4
	ldurb	w16, [x14, #-16]
	tbnz	w16, #0, .LBB114_17
	ubfiz	x16, x15, #3, #32
	mov	x15, x16
	cbz	x10, .LBB114_13
	orr	x15, x16, #0x1
	stur	x15, [x13, #-16]
	mov	x15, x12
.LBB114_13:
	cbz	w9, .LBB114_15
	add	x12, x0, x11, lsl #1
	stur	x16, [x12, #-8]
	b	.LBB114_16
.LBB114_15:
	mov	x8, x16
.LBB114_16:
	cmp	w9, #0
	mov	w9, #1
	mov	w0, wzr
	csinc	x9, x9, x11, eq
	stp	x9, x10, [x14, #-16]
	stp	x15, x8, [x2]
	ret
.LBB114_17:
	mov	w2, w3
	mov	w3, w4
	b	ic_raw.table.RawTable.refusal.85cd03e557136797
.Lfunc_end114:
	.size	ic_list_insert_before, .Lfunc_end114-ic_list_insert_before
	.cfi_endproc
	.section	.text.ic_list_merge,"ax",@progbits
	.globl	ic_list_merge
	.p2align	2
	.type	ic_list_merge,@function
ic_list_merge:
	.cfi_startproc
	hint	#34
	sub	sp, sp, #80
	.cfi_def_cfa_offset 80
	stp	x29, x30, [sp, #32]
	str	x21, [sp, #48]
	stp	x20, x19, [sp, #64]
	add	x29, sp, #32
	.cfi_def_cfa w29, 48
	.cfi_offset w19, -8
	.cfi_offset w20, -16
	.cfi_offset w21, -32
	.cfi_offset w30, -40
	.cfi_offset w29, -48
	.cfi_remember_state
	cmp	x0, #0
	mov	w8, #4096
	csel	x9, x8, xzr, eq
	cmp	x2, #0
	csel	x8, x8, xzr, eq
	add	x19, x0, x9
	cmp	x3, x1
	add	x8, x2, x8
	stp	x19, x1, [sp]
	stp	x8, x3, [sp, #16]
	b.lo	.LBB115_24
	ldp	x8, x10, [x4]
	and	x2, x8, #0xffffffff8
	ldp	x8, x9, [x5]
	and	x10, x10, #0xffffffff8
	cbz	x2, .LBB115_9
	mov	x13, xzr
	mov	x11, x1
	mov	x14, x2
.LBB115_3:
	cbz	x11, .LBB115_24
	mov	x12, x14
	lsr	x14, x14, #3
	cmp	x14, x1
	b.hi	.LBB115_24
	add	x15, x19, x12, lsl #1
	ldur	x14, [x15, #-16]
	tbz	w14, #0, .LBB115_24
	ldur	x15, [x15, #-8]
	and	x15, x15, #0xffffffff8
	cmp	x15, x13
	b.ne	.LBB115_24
	and	x14, x14, #0xffffffff8
	sub	x11, x11, #1
	mov	x13, x12
	cbnz	x14, .LBB115_3
	cmp	x10, x12
	b.eq	.LBB115_10
	b	.LBB115_24
.LBB115_9:
	cbnz	x10, .LBB115_24
.LBB115_10:
	and	x8, x8, #0xffffffff8
	and	x9, x9, #0xffffffff8
	cbz	x8, .LBB115_22
	mov	x12, xzr
	mov	x11, x1
	mov	x13, x8
.LBB115_12:
	cbz	x11, .LBB115_24
	mov	x10, x13
	lsr	x13, x13, #3
	cmp	x13, x1
	b.hi	.LBB115_24
	add	x14, x19, x10, lsl #1
	ldur	x13, [x14, #-16]
	tbz	w13, #0, .LBB115_24
	ldur	x14, [x14, #-8]
	and	x14, x14, #0xffffffff8
	cmp	x14, x12
	b.ne	.LBB115_24
	and	x13, x13, #0xffffffff8
	sub	x11, x11, #1
	mov	x12, x10
	cbnz	x13, .LBB115_12
	cmp	x2, x8
	b.eq	.LBB115_24
	cmp	x9, x10
	b.ne	.LBB115_24
	cbz	x2, .LBB115_25
	mov	x0, sp
	add	x1, sp, #16
	mov	x3, x8
	mov	x20, x4
	mov	x21, x5
	bl	ic_list_algorithms.merge.merge_runs.6bd71b5c7308988e
	add	x9, x19, x0, lsl #1
	mov	x2, x0
	mov	x5, x21
	mov	x4, x20
	ldur	x8, [x9, #-16]
	stur	xzr, [x9, #-8]
	mov	x9, x0
	ands	x8, x8, #0xffffffff8
	b.eq	.LBB115_26
.LBB115_21:
	add	x11, x19, x8, lsl #1
	mov	x10, x9
	mov	x9, x8
	ldur	x8, [x11, #-16]
	stur	x10, [x11, #-8]
	ands	x8, x8, #0xffffffff8
	b.ne	.LBB115_21
	b	.LBB115_26
.LBB115_22:
	cbnz	x9, .LBB115_24
	cmp	x2, #0
	csel	x9, xzr, x10, eq
	b	.LBB115_26
.LBB115_24:
	mov	x0, x1
	mov	x1, x3
	.cfi_def_cfa wsp, 80
	ldp	x20, x19, [sp, #64]
	ldr	x21, [sp, #48]
	ldp	x29, x30, [sp, #32]
	add	sp, sp, #80
	.cfi_def_cfa_offset 0
	.cfi_restore w19
	.cfi_restore w20
	.cfi_restore w21
	.cfi_restore w30
	.cfi_restore w29
	b	ic_raw.sort_calls.refusal.78cbab63d6c27224
.LBB115_25:
	.cfi_restore_state
	mov	x2, x8
.LBB115_26:
	mov	w0, wzr
	stp	x2, x9, [x4]
	stp	xzr, xzr, [x5]
	.cfi_def_cfa wsp, 80
	ldp	x20, x19, [sp, #64]
	ldr	x21, [sp, #48]
	ldp	x29, x30, [sp, #32]
	add	sp, sp, #80
	.cfi_def_cfa_offset 0
	.cfi_restore w19
	.cfi_restore w20
	.cfi_restore w21
	.cfi_restore w30
	.cfi_restore w29
	ret
.Lfunc_end115:
	.size	ic_list_merge, .Lfunc_end115-ic_list_merge
	.cfi_endproc
	.section	.text.ic_list_move_after,"ax",@progbits
	.globl	ic_list_move_after
	.p2align	2
	.type	ic_list_move_after,@function
ic_list_move_after:
	.cfi_startproc
	hint	#34
	mov	w8, #4096
	cmp	x0, #0
	mov	w5, w4
	csel	x8, x8, xzr, eq
	adds	w11, w4, #1
	b.lo	.LBB116_2
	mov	w0, #4
	ret
.LBB116_2:
	mov	w4, w3
	cmp	x1, x11
	add	x0, x0, x8
	b.lo	.LBB116_22
	add	x8, x0, x11, lsl #4
	ldur	x10, [x8, #-16]
	tbz	w10, #0, .LBB116_22
	ldur	x9, [x8, #-8]
	ands	x9, x9, #0xffffffff8
	b.eq	.LBB116_22
	ands	x10, x10, #0xffffffff8
	b.eq	.LBB116_22
	lsr	x12, x9, #3
	cmp	x12, x1
	b.hi	.LBB116_22
	add	x12, x0, x9, lsl #1
	ubfiz	x11, x11, #3, #32
	ldur	x13, [x12, #-16]
	orr	x14, x11, #0x1
	cmp	x13, x14
	b.ne	.LBB116_22
	lsr	x14, x10, #3
	cmp	x14, x1
	b.hi	.LBB116_22
	add	x14, x0, x10, lsl #1
	ldur	x15, [x14, #-8]
	cmp	x15, x11
	b.ne	.LBB116_22
	add	w17, w4, #1
	cmp	x1, x17
	b.lo	.LBB116_22
	cbz	w17, .LBB116_22
	ldur	w15, [x14, #-16]
	tbz	w15, #0, .LBB116_22
	add	x15, x0, x17, lsl #4
	ldur	x3, [x15, #-16]
	tbz	w3, #0, .LBB116_22
	ands	x16, x3, #0xffffffff8
	b.eq	.LBB116_22
	ubfx	x3, x3, #3, #33
	cmp	x3, x1
	b.hi	.LBB116_22
	add	x3, x0, x16, lsl #1
	ubfiz	x17, x17, #3, #32
	ldur	x6, [x3, #-8]
	cmp	x6, x17
	b.ne	.LBB116_22
	ldur	w6, [x3, #-16]
	tbz	w6, #0, .LBB116_22
	cmp	x17, x11
	mov	w0, wzr
	b.eq	.LBB116_21
	cmp	x16, x11
	b.eq	.LBB116_21
	ldp	x1, x4, [x2]
	orr	x10, x10, #0x1
	stur	x10, [x12, #-16]
	mov	w0, wzr
	stur	x9, [x14, #-8]
	orr	x9, x16, #0x1
	stur	x13, [x15, #-16]
	and	x10, x1, #0xffffffff8
	stur	x11, [x3, #-8]
	stp	x9, x17, [x8, #-16]
	and	x8, x4, #0xffffffff8
	stp	x10, x8, [x2]
.LBB116_21:
	ret
.LBB116_22:
	mov	w3, wzr
	b	ic_raw.move_calls.move_slow.5386baa488213e47
.Lfunc_end116:
	.size	ic_list_move_after, .Lfunc_end116-ic_list_move_after
	.cfi_endproc
	.section	.text.ic_list_move_before,"ax",@progbits
	.globl	ic_list_move_before
	.p2align	2
	.type	ic_list_move_before,@function
ic_list_move_before:
	.cfi_startproc
	hint	#34
	mov	w8, #4096
	cmp	x0, #0
	mov	w5, w4
	csel	x8, x8, xzr, eq
	adds	w11, w4, #1
	b.lo	.LBB117_2
	mov	w0, #4
	ret
.LBB117_2:
	mov	w4, w3
	cmp	x1, x11
	add	x0, x0, x8
	b.lo	.LBB117_21
	add	x8, x0, x11, lsl #4
	ldur	x10, [x8, #-16]
	tbz	w10, #0, .LBB117_21
	ldur	x9, [x8, #-8]
	ands	x9, x9, #0xffffffff8
	b.eq	.LBB117_21
	ands	x10, x10, #0xffffffff8
	b.eq	.LBB117_21
	lsr	x12, x9, #3
	cmp	x12, x1
	b.hi	.LBB117_21
	add	x12, x0, x9, lsl #1
	ubfiz	x11, x11, #3, #32
	ldur	x13, [x12, #-16]
	orr	x14, x11, #0x1
	cmp	x13, x14
	b.ne	.LBB117_21
	lsr	x14, x10, #3
	cmp	x14, x1
	b.hi	.LBB117_21
	add	x14, x0, x10, lsl #1
	ldur	x15, [x14, #-8]
	cmp	x15, x11
	b.ne	.LBB117_21
	add	w17, w4, #1
	cmp	x1, x17
	b.lo	.LBB117_21
	cbz	w17, .LBB117_21
	ldur	w15, [x14, #-16]
	tbz	w15, #0, .LBB117_21
	add	x15, x0, x17, lsl #4
	ldurb	w16, [x15, #-16]
	tbz	w16, #0, .LBB117_21
	ldur	x3, [x15, #-8]
	ands	x16, x3, #0xffffffff8
	b.eq	.LBB117_21
	ubfx	x3, x3, #3, #33
	cmp	x3, x1
	b.hi	.LBB117_21
	add	x3, x0, x16, lsl #1
	ubfiz	x6, x17, #3, #32
	ldur	x17, [x3, #-16]
	orr	x7, x6, #0x1
	cmp	x17, x7
	b.ne	.LBB117_21
	cmp	x16, x11
	mov	w0, wzr
	b.eq	.LBB117_20
	cmp	x6, x11
	b.eq	.LBB117_20
	ldp	x1, x4, [x2]
	orr	x10, x10, #0x1
	mov	w0, wzr
	stur	x10, [x12, #-16]
	stur	x9, [x14, #-8]
	stur	x13, [x3, #-16]
	and	x9, x1, #0xffffffff8
	stur	x11, [x15, #-8]
	stp	x17, x16, [x8, #-16]
	and	x8, x4, #0xffffffff8
	stp	x9, x8, [x2]
.LBB117_20:
	ret
.LBB117_21:
	mov	w3, #1
	b	ic_raw.move_calls.move_slow.5386baa488213e47
.Lfunc_end117:
	.size	ic_list_move_before, .Lfunc_end117-ic_list_move_before
	.cfi_endproc
	.section	.text.ic_list_move_to_back,"ax",@progbits
	.globl	ic_list_move_to_back
	.p2align	2
	.type	ic_list_move_to_back,@function
ic_list_move_to_back:
	.cfi_startproc
	hint	#34
	cmp	x0, #0
	mov	w8, #4096
	csel	x9, x8, xzr, eq
	adds	w8, w3, #1
	b.lo	.LBB118_2
	mov	w0, #4
	ret
.LBB118_2:
	mov	w4, w3
	cmp	x1, x8
	add	x0, x0, x9
	b.lo	.LBB118_21
	add	x9, x0, x8, lsl #4
	ldr	x10, [x2, #8]
	ubfiz	x8, x8, #3, #32
	ldur	x13, [x9, #-16]
	and	x10, x10, #0xffffffff8
	tbz	w13, #0, .LBB118_15
	ldur	x11, [x9, #-8]
	ands	x11, x11, #0xffffffff8
	b.eq	.LBB118_15
	ands	x12, x13, #0xffffffff8
	b.eq	.LBB118_15
	lsr	x14, x11, #3
	cmp	x14, x1
	b.hi	.LBB118_15
	add	x14, x0, x11, lsl #1
	orr	x15, x8, #0x1
	ldur	x13, [x14, #-16]
	cmp	x13, x15
	b.ne	.LBB118_21
	lsr	x15, x12, #3
	cmp	x15, x1
	b.hi	.LBB118_21
	add	x15, x0, x12, lsl #1
	ldur	x16, [x15, #-8]
	cmp	x16, x8
	b.ne	.LBB118_21
	ldur	w16, [x15, #-16]
	tbz	w16, #0, .LBB118_21
	cbz	x10, .LBB118_21
	lsr	x16, x10, #3
	cmp	x16, x1
	b.hi	.LBB118_21
	add	x16, x0, x10, lsl #1
	ldur	x17, [x16, #-16]
	cmp	x17, #1
	b.ne	.LBB118_21
	orr	x12, x12, #0x1
	ldr	x17, [x2]
	mov	w0, wzr
	stur	x12, [x14, #-16]
	stur	x11, [x15, #-8]
	mov	w11, #1
	stur	x13, [x16, #-16]
	stp	x11, x10, [x9, #-16]
	and	x10, x17, #0xffffffff8
	stp	x10, x8, [x2]
	ret
.LBB118_15:
	cmp	x10, x8
	b.ne	.LBB118_21
	cmp	x13, #1
	b.ne	.LBB118_21
	ldur	x10, [x9, #-8]
	ands	x9, x10, #0xffffffff8
	b.eq	.LBB118_21
	ubfx	x10, x10, #3, #33
	cmp	x10, x1
	b.hi	.LBB118_21
	add	x9, x0, x9, lsl #1
	orr	x8, x8, #0x1
	ldur	x9, [x9, #-16]
	cmp	x9, x8
	b.ne	.LBB118_21
	mov	w0, wzr
	ret
.LBB118_21:
	mov	w3, #1
	b	ic_raw.move_calls.move_to_end_slow.5386baa488213e47
.Lfunc_end118:
	.size	ic_list_move_to_back, .Lfunc_end118-ic_list_move_to_back
	.cfi_endproc
	.section	.text.ic_list_move_to_front,"ax",@progbits
	.globl	ic_list_move_to_front
	.p2align	2
	.type	ic_list_move_to_front,@function
ic_list_move_to_front:
	.cfi_startproc
	hint	#34
	cmp	x0, #0
	mov	w8, #4096
	csel	x9, x8, xzr, eq
	adds	w8, w3, #1
	b.lo	.LBB119_2
	mov	w0, #4
	ret
.LBB119_2:
	mov	w4, w3
	cmp	x1, x8
	add	x0, x0, x9
	b.lo	.LBB119_24
	add	x9, x0, x8, lsl #4
	ldr	x10, [x2]
	ubfiz	x8, x8, #3, #32
	ldur	x12, [x9, #-16]
	and	x10, x10, #0xffffffff8
	tbz	w12, #0, .LBB119_16
	ldur	x11, [x9, #-8]
	ands	x11, x11, #0xffffffff8
	b.eq	.LBB119_16
	ands	x13, x12, #0xffffffff8
	b.eq	.LBB119_16
	lsr	x14, x11, #3
	cmp	x14, x1
	b.hi	.LBB119_16
	add	x14, x0, x11, lsl #1
	orr	x16, x8, #0x1
	ldur	x15, [x14, #-16]
	cmp	x15, x16
	b.ne	.LBB119_16
	lsr	x15, x13, #3
	cmp	x15, x1
	b.hi	.LBB119_16
	add	x15, x0, x13, lsl #1
	ldur	x16, [x15, #-8]
	cmp	x16, x8
	b.ne	.LBB119_16
	ldur	w16, [x15, #-16]
	tbz	w16, #0, .LBB119_16
	cbz	x10, .LBB119_24
	lsr	x12, x10, #3
	cmp	x12, x1
	b.hi	.LBB119_24
	add	x12, x0, x10, lsl #1
	ldur	x16, [x12, #-8]
	cbnz	x16, .LBB119_24
	ldur	w16, [x12, #-16]
	tbz	w16, #0, .LBB119_24
	ldr	x16, [x2, #8]
	orr	x13, x13, #0x1
	orr	x10, x10, #0x1
	mov	w0, wzr
	stur	x13, [x14, #-16]
	stur	x11, [x15, #-8]
	stur	x8, [x12, #-8]
	stp	x10, xzr, [x9, #-16]
	and	x9, x16, #0xffffffff8
	stp	x8, x9, [x2]
	ret
.LBB119_16:
	cmp	x10, x8
	b.ne	.LBB119_24
	ldur	x9, [x9, #-8]
	cbnz	x9, .LBB119_24
	tbz	w12, #0, .LBB119_24
	ands	x9, x12, #0xffffffff8
	b.eq	.LBB119_24
	ubfx	x10, x12, #3, #33
	cmp	x10, x1
	b.hi	.LBB119_24
	add	x9, x0, x9, lsl #1
	ldur	x10, [x9, #-8]
	cmp	x10, x8
	b.ne	.LBB119_24
	ldur	w8, [x9, #-16]
	tbz	w8, #0, .LBB119_24
	mov	w0, wzr
	ret
.LBB119_24:
	mov	w3, wzr
	b	ic_raw.move_calls.move_to_end_slow.5386baa488213e47
.Lfunc_end119:
	.size	ic_list_move_to_front, .Lfunc_end119-ic_list_move_to_front
	.cfi_endproc
	.section	.text.ic_list_pop_back,"ax",@progbits
	.globl	ic_list_pop_back
	.p2align	2
	.type	ic_list_pop_back,@function
ic_list_pop_back:
	.cfi_startproc
	hint	#34
	ldr	x8, [x2, #8]
	cmp	x0, #0
	mov	w9, #4096
	csel	x9, x9, xzr, eq
	ands	x11, x8, #0xffffffff8
	b.eq	.LBB120_9
	ubfx	x8, x8, #3, #33
	cmp	x8, x1
	b.hi	.LBB120_9
	add	x13, x0, x9
	mov	x14, #68719411200
	add	x9, x13, x11, lsl #1
	movk	x14, #65529
	ldur	x10, [x9, #-16]
	and	x10, x10, x14
	cmp	x10, #1
	b.ne	.LBB120_9
	ldur	x10, [x9, #-8]
	ldr	x12, [x2]
	ands	x10, x10, #0xffffffff8
	and	x12, x12, #0xffffffff8
	b.eq	.LBB120_7
	cmp	x1, x10, lsr #3
	b.lo	.LBB120_9
	add	x13, x13, x10, lsl #1
	orr	x11, x11, #0x1
	ldur	x15, [x13, #-16]
	and	x14, x15, x14
	cmp	x14, x11
	b.ne	.LBB120_9
	mov	w11, #1
	stur	x11, [x13, #-16]
	sub	w8, w8, #1
	mov	w0, wzr
	stur	xzr, [x9, #-16]
	stp	x12, x10, [x2]
	str	w8, [x3]
	ret
.LBB120_7:
	cmp	x12, x11
	b.ne	.LBB120_9
	lsr	x8, x12, #3
	sub	w8, w8, #1
	mov	w0, wzr
	stur	xzr, [x9, #-16]
	stp	xzr, x10, [x2]
	str	w8, [x3]
	ret
.LBB120_9:
	mov	x0, x2
	mov	w1, #1
	b	ic_raw.list_calls.refusal_to_pop
.Lfunc_end120:
	.size	ic_list_pop_back, .Lfunc_end120-ic_list_pop_back
	.cfi_endproc
	.section	.text.ic_list_pop_front,"ax",@progbits
	.globl	ic_list_pop_front
	.p2align	2
	.type	ic_list_pop_front,@function
ic_list_pop_front:
	.cfi_startproc
	hint	#34
	ldr	x8, [x2]
	cmp	x0, #0
	mov	w9, #4096
	csel	x9, x9, xzr, eq
	ands	x10, x8, #0xffffffff8
	add	x0, x0, x9
	b.eq	.LBB121_9
	ubfx	x9, x8, #3, #33
	cmp	x9, x1
	b.hi	.LBB121_9
	add	x9, x0, x10, lsl #1
	ldur	x11, [x9, #-8]
	cbnz	x11, .LBB121_9
	ldur	x12, [x9, #-16]
	tbz	w12, #0, .LBB121_9
	ands	x11, x12, #0xffffffff8
	b.eq	.LBB121_9
	ubfx	x12, x12, #3, #33
	cmp	x12, x1
	b.hi	.LBB121_9
	add	x12, x0, x11, lsl #1
	ldur	x13, [x12, #-8]
	cmp	x13, x10
	b.ne	.LBB121_9
	ldur	w10, [x12, #-16]
	tbz	w10, #0, .LBB121_9
	mov	w10, #-1
	mov	w0, wzr
	stur	xzr, [x12, #-8]
	add	x8, x10, x8, lsr #3
	stur	xzr, [x9, #-16]
	str	x11, [x2]
	str	w8, [x3]
	ret
.LBB121_9:
	b	ic_raw.list_calls.pop_front_slow.5386baa488213e47
.Lfunc_end121:
	.size	ic_list_pop_front, .Lfunc_end121-ic_list_pop_front
	.cfi_endproc
	.section	.text.ic_list_push_back,"ax",@progbits
	.globl	ic_list_push_back
	.p2align	2
	.type	ic_list_push_back,@function
ic_list_push_back:
	.cfi_startproc
	hint	#34
	ldr	x9, [x2, #8]
	cmp	x0, #0
	mov	w8, #4096
	csel	x10, x8, xzr, eq
	ands	x8, x9, #0xffffffff8
	add	x0, x0, x10
	b.eq	.LBB122_7
	ubfx	x9, x9, #3, #33
	cmp	x9, x1
	b.hi	.LBB122_7
	add	w9, w3, #1
	cmp	x1, x9
	b.lo	.LBB122_7
	cbz	w9, .LBB122_7
	add	x10, x0, x8, lsl #1
	ldur	x11, [x10, #-16]
	cmp	x11, #1
	b.ne	.LBB122_7
	add	x11, x0, x9, lsl #4
	ldurb	w12, [x11, #-16]
	tbnz	w12, #0, .LBB122_7
	ubfiz	x9, x9, #3, #32
	mov	w0, wzr
	orr	x12, x9, #0x1
	stur	x12, [x10, #-16]
	mov	w10, #1
	stp	x10, x8, [x11, #-16]
	str	x9, [x2, #8]
	ret
.LBB122_7:
	b	ic_raw.list_calls.push_back_slow.5386baa488213e47
.Lfunc_end122:
	.size	ic_list_push_back, .Lfunc_end122-ic_list_push_back
	.cfi_endproc
	.section	.text.ic_list_push_front,"ax",@progbits
	.globl	ic_list_push_front
	.p2align	2
	.type	ic_list_push_front,@function
ic_list_push_front:
	.cfi_startproc
	hint	#34
	ldp	x9, x10, [x2]
	mov	w8, #4096
	cmp	x0, #0
	csel	x8, x8, xzr, eq
	add	x0, x0, x8
	ands	x8, x9, #0xffffffff8
	and	x9, x10, #0xffffffff8
	add	x10, x0, x8, lsl #1
	mov	x11, x9
	b.eq	.LBB123_4
	cmp	x1, x8, lsr #3
	b.lo	.LBB123_11
	ldurb	w11, [x10, #-16]
	tbz	w11, #0, .LBB123_11
	ldur	x11, [x10, #-8]
	and	x11, x11, #0xffffffff8
.LBB123_4:
	add	w12, w3, #1
	cbz	w12, .LBB123_11
	cmp	x1, x12
	b.lo	.LBB123_11
	cbnz	x11, .LBB123_11
	add	x11, x0, x12, lsl #4
	ldurb	w13, [x11, #-16]
	tbnz	w13, #0, .LBB123_11
	ubfiz	x12, x12, #3, #32
	mov	x13, x12
	cbz	x8, .LBB123_10
	mov	x13, x9
	stur	x12, [x10, #-8]
.LBB123_10:
	mov	w0, wzr
	orr	x8, x8, #0x1
	stp	x8, xzr, [x11, #-16]
	stp	x12, x13, [x2]
	ret
.LBB123_11:
	mov	w2, #-1
	b	ic_raw.table.RawTable.refusal.85cd03e557136797
.Lfunc_end123:
	.size	ic_list_push_front, .Lfunc_end123-ic_list_push_front
	.cfi_endproc
	.section	.text.ic_list_remove,"ax",@progbits
	.globl	ic_list_remove
	.p2align	2
	.type	ic_list_remove,@function
ic_list_remove:
	.cfi_startproc
	hint	#34
	cmp	x0, #0
	mov	w8, #4096
	csel	x8, x8, xzr, eq
	adds	w11, w3, #1
	b.lo	.LBB124_2
	mov	w0, #4
	ret
.LBB124_2:
	cmp	x1, x11
	add	x0, x0, x8
	b.lo	.LBB124_12
	add	x8, x0, x11, lsl #4
	ldur	x10, [x8, #-16]
	tbz	w10, #0, .LBB124_12
	ldur	x9, [x8, #-8]
	ands	x9, x9, #0xffffffff8
	b.eq	.LBB124_12
	ands	x10, x10, #0xffffffff8
	b.eq	.LBB124_12
	lsr	x12, x9, #3
	cmp	x12, x1
	b.hi	.LBB124_12
	add	x12, x0, x9, lsl #1
	ubfiz	x13, x11, #3, #32
	ldur	x11, [x12, #-16]
	orr	x14, x13, #0x1
	cmp	x11, x14
	b.ne	.LBB124_12
	lsr	x11, x10, #3
	cmp	x11, x1
	b.hi	.LBB124_12
	add	x11, x0, x10, lsl #1
	ldur	x14, [x11, #-8]
	cmp	x14, x13
	b.ne	.LBB124_12
	ldur	w13, [x11, #-16]
	tbz	w13, #0, .LBB124_12
	mov	w0, wzr
	orr	x10, x10, #0x1
	stur	x10, [x12, #-16]
	stur	x9, [x11, #-8]
	stur	xzr, [x8, #-16]
	ret
.LBB124_12:
	b	ic_raw.list_calls.remove_slow.5386baa488213e47
.Lfunc_end124:
	.size	ic_list_remove, .Lfunc_end124-ic_list_remove
	.cfi_endproc
	.section	.text.ic_list_replace,"ax",@progbits
	.globl	ic_list_replace
	.p2align	2
	.type	ic_list_replace,@function
ic_list_replace:
	.cfi_startproc
	hint	#34
	mov	w8, #4096
	cmp	x0, #0
	csel	x8, x8, xzr, eq
	adds	w10, w3, #1
	b.lo	.LBB125_2
	mov	w0, #4
	ret
.LBB125_2:
	cmp	x1, x10
	add	x0, x0, x8
	b.lo	.LBB125_20
	add	x8, x0, x10, lsl #4
	ldur	x12, [x8, #-16]
	tbz	w12, #0, .LBB125_20
	ldur	x9, [x8, #-8]
	ldp	x13, x15, [x2]
	ubfiz	x14, x10, #3, #32
	ands	x9, x9, #0xffffffff8
	add	x11, x0, x9, lsl #1
	and	x10, x13, #0xffffffff8
	b.eq	.LBB125_7
	cmp	x1, x9, lsr #3
	b.lo	.LBB125_20
	ldur	x13, [x11, #-16]
	orr	x16, x14, #0x1
	and	x13, x13, #0xfffffffff
	and	x13, x13, #0xfffffffffffffff9
	cmp	x13, x16
	b.eq	.LBB125_8
	b	.LBB125_20
.LBB125_7:
	cmp	x10, x14
	b.ne	.LBB125_20
.LBB125_8:
	ands	x13, x12, #0xffffffff8
	and	x12, x15, #0xffffffff8
	add	x15, x0, x13, lsl #1
	mov	x17, x12
	b.eq	.LBB125_12
	cmp	x1, x13, lsr #3
	b.lo	.LBB125_20
	ldurb	w16, [x15, #-16]
	tbz	w16, #0, .LBB125_20
	ldur	x16, [x15, #-8]
	and	x17, x16, #0xffffffff8
.LBB125_12:
	add	w16, w4, #1
	cmp	x1, x16
	b.lo	.LBB125_20
	cbz	w16, .LBB125_20
	cmp	x17, x14
	b.ne	.LBB125_20
	add	x14, x0, x16, lsl #4
	ldurb	w17, [x14, #-16]
	tbnz	w17, #0, .LBB125_20
	ubfiz	x17, x16, #3, #32
	mov	x16, x17
	cbz	x9, .LBB125_18
	orr	x16, x17, #0x1
	stur	x16, [x11, #-16]
	mov	x16, x10
.LBB125_18:
	cbz	x13, .LBB125_21
	stur	x17, [x15, #-8]
	mov	w0, wzr
	orr	x10, x13, #0x1
	stp	x10, x9, [x14, #-16]
	stur	xzr, [x8, #-16]
	stp	x16, x12, [x2]
	ret
.LBB125_20:
	mov	w2, w3
	mov	w3, w4
	b	ic_raw.table.RawTable.refusal.85cd03e557136797
.LBB125_21:
	mov	w0, wzr
	orr	x10, x13, #0x1
	stp	x10, x9, [x14, #-16]
	stur	xzr, [x8, #-16]
	stp	x16, x17, [x2]
	ret
.Lfunc_end125:
	.size	ic_list_replace, .Lfunc_end125-ic_list_replace
	.cfi_endproc
	.section	.text.ic_list_sort,"ax",@progbits
	.globl	ic_list_sort
	.p2align	2
	.type	ic_list_sort,@function
ic_list_sort:
	.cfi_startproc
	hint	#34
	sub	sp, sp, #128
	.cfi_def_cfa_offset 128
	stp	x29, x30, [sp, #64]
	str	x23, [sp, #80]
	stp	x22, x21, [sp, #96]
	stp	x20, x19, [sp, #112]
	add	x29, sp, #64
	.cfi_def_cfa w29, 64
	.cfi_offset w19, -8
	.cfi_offset w20, -16
	.cfi_offset w21, -24
	.cfi_offset w22, -32
	.cfi_offset w23, -48
	.cfi_offset w30, -56
	.cfi_offset w29, -64
	.cfi_remember_state
	mov	w8, #4096
	cmp	x0, #0
	csel	x9, x8, xzr, eq
	cmp	x2, #0
	csel	x8, x8, xzr, eq
	cmp	x3, x1
	add	x8, x2, x8
	stp	x8, x3, [sp, #24]
	add	x8, x0, x9
	stp	x8, x1, [sp, #8]
	b.lo	.LBB126_18
	ldp	x9, x10, [x4]
	and	x19, x9, #0xffffffff8
	and	x9, x10, #0xffffffff8
	cbz	x19, .LBB126_16
	mov	x12, xzr
	mov	x10, x1
	mov	x13, x19
.LBB126_3:
	cbz	x10, .LBB126_18
	mov	x11, x13
	lsr	x13, x13, #3
	cmp	x13, x1
	b.hi	.LBB126_18
	add	x14, x8, x11, lsl #1
	ldur	x13, [x14, #-16]
	tbz	w13, #0, .LBB126_18
	ldur	x14, [x14, #-8]
	and	x14, x14, #0xffffffff8
	cmp	x14, x12
	b.ne	.LBB126_18
	and	x13, x13, #0xffffffff8
	sub	x10, x10, #1
	mov	x12, x11
	cbnz	x13, .LBB126_3
	cmp	x9, x11
	b.ne	.LBB126_18
	lsl	x9, x19, #1
	add	x10, x8, x9
	ldur	x11, [x10, #-16]
	ands	x20, x11, #0xffffffff8
	mov	w11, #1
	stur	x11, [x10, #-16]
	b.eq	.LBB126_13
	mov	x22, x4
	mov	x21, xzr
.LBB126_11:
	sub	x0, x29, #24
	add	x1, sp, #8
	add	x2, sp, #24
	mov	x3, x20
	mov	x4, x21
	bl	ic_list_algorithms.sort.sort_front.6bd71b5c7308988e
	ldur	x3, [x29, #-24]
	ldurb	w23, [x29, #-16]
	add	x0, sp, #8
	ldur	x20, [x29, #-8]
	add	x1, sp, #24
	mov	x2, x19
	bl	ic_list_algorithms.merge.merge_runs.6bd71b5c7308988e
	mov	x19, x0
	cmp	w23, #1
	add	x21, x21, #1
	b.eq	.LBB126_11
	lsl	x9, x19, #1
	ldr	x8, [sp, #8]
	mov	x4, x22
.LBB126_13:
	add	x8, x8, x9
	stur	xzr, [x8, #-8]
	ldr	x10, [sp, #8]
	add	x8, x10, x9
	ldur	x8, [x8, #-16]
	ands	x9, x8, #0xffffffff8
	b.eq	.LBB126_19
	mov	x8, x19
.LBB126_15:
	mov	x11, x8
	mov	x8, x9
	lsl	x9, x9, #1
	add	x10, x10, x9
	stur	x11, [x10, #-8]
	ldr	x10, [sp, #8]
	add	x9, x10, x9
	ldur	x9, [x9, #-16]
	ands	x9, x9, #0xffffffff8
	b.ne	.LBB126_15
	b	.LBB126_20
.LBB126_16:
	cbnz	x9, .LBB126_18
	mov	x19, xzr
	mov	x8, xzr
	b	.LBB126_20
.LBB126_18:
	mov	x0, x1
	mov	x1, x3
	.cfi_def_cfa wsp, 128
	ldp	x20, x19, [sp, #112]
	ldr	x23, [sp, #80]
	ldp	x22, x21, [sp, #96]
	ldp	x29, x30, [sp, #64]
	add	sp, sp, #128
	.cfi_def_cfa_offset 0
	.cfi_restore w19
	.cfi_restore w20
	.cfi_restore w21
	.cfi_restore w22
	.cfi_restore w23
	.cfi_restore w30
	.cfi_restore w29
	b	ic_raw.sort_calls.refusal.78cbab63d6c27224
.LBB126_19:
	.cfi_restore_state
	mov	x8, x19
.LBB126_20:
	mov	w0, wzr
	stp	x19, x8, [x4]
	.cfi_def_cfa wsp, 128
	ldp	x20, x19, [sp, #112]
	ldr	x23, [sp, #80]
	ldp	x22, x21, [sp, #96]
	ldp	x29, x30, [sp, #64]
	add	sp, sp, #128
	.cfi_def_cfa_offset 0
	.cfi_restore w19
	.cfi_restore w20
	.cfi_restore w21
	.cfi_restore w22
	.cfi_restore w23
	.cfi_restore w30
	.cfi_restore w29
	ret
.Lfunc_end126:
	.size	ic_list_sort, .Lfunc_end126-ic_list_sort
	.cfi_endproc
	.section	.text.ic_list_splice_after,"ax",@progbits
	.globl	ic_list_splice_after
	.p2align	2
	.type	ic_list_splice_after,@function
ic_list_splice_after:
	.cfi_startproc
	hint	#34
	mov	w8, #4096
	cmp	x0, #0
	csel	x8, x8, xzr, eq
	cmn	w3, #1
	add	x0, x0, x8
	b.ne	.LBB127_14
	ldr	x9, [x2]
	and	x8, x9, #0xffffffff8
	cbz	x8, .LBB127_14
	ubfx	x9, x9, #3, #33
	cmp	x9, x1
	b.hi	.LBB127_14
	add	x10, x0, x8, lsl #1
	ldur	x9, [x10, #-8]
	cbnz	x9, .LBB127_14
	ldr	x9, [x4]
	and	x9, x9, #0xffffffff8
	cbz	x9, .LBB127_14
	ldur	w11, [x10, #-16]
	tbz	w11, #0, .LBB127_14
	lsr	x11, x9, #3
	cmp	x11, x1
	b.hi	.LBB127_14
	add	x11, x0, x9, lsl #1
	ldur	x12, [x11, #-8]
	cbnz	x12, .LBB127_14
	ldr	x12, [x4, #8]
	and	x12, x12, #0xffffffff8
	cbz	x12, .LBB127_14
	ldur	w13, [x11, #-16]
	tbz	w13, #0, .LBB127_14
	lsr	x13, x12, #3
	cmp	x13, x1
	b.hi	.LBB127_14
	cmp	x8, x9
	b.eq	.LBB127_14
	add	x13, x0, x12, lsl #1
	ldur	x14, [x13, #-16]
	cmp	x14, #1
	b.ne	.LBB127_14
	ldr	x14, [x2, #8]
	orr	x8, x8, #0x1
	mov	w0, wzr
	stur	x12, [x10, #-8]
	stur	xzr, [x11, #-8]
	stur	x8, [x13, #-16]
	and	x8, x14, #0xffffffff8
	stp	x9, x8, [x2]
	stp	xzr, xzr, [x4]
	ret
.LBB127_14:
	mov	w5, wzr
	b	ic_raw.list_calls.splice_slow.5386baa488213e47
.Lfunc_end127:
	.size	ic_list_splice_after, .Lfunc_end127-ic_list_splice_after
	.cfi_endproc
	.section	.text.ic_list_splice_before,"ax",@progbits
	.globl	ic_list_splice_before
	.p2align	2
	.type	ic_list_splice_before,@function
ic_list_splice_before:
	.cfi_startproc
	hint	#34
	mov	w8, #4096
	cmp	x0, #0
	csel	x8, x8, xzr, eq
	cmn	w3, #1
	add	x0, x0, x8
	b.ne	.LBB128_13
	ldr	x9, [x2, #8]
	and	x8, x9, #0xffffffff8
	cbz	x8, .LBB128_13
	ubfx	x9, x9, #3, #33
	cmp	x9, x1
	b.hi	.LBB128_13
	ldr	x9, [x4]
	and	x9, x9, #0xffffffff8
	cbz	x9, .LBB128_13
	add	x10, x0, x8, lsl #1
	ldur	x11, [x10, #-16]
	cmp	x11, #1
	b.ne	.LBB128_13
	lsr	x11, x9, #3
	cmp	x11, x1
	b.hi	.LBB128_13
	add	x11, x0, x9, lsl #1
	ldur	x12, [x11, #-8]
	cbnz	x12, .LBB128_13
	ldr	x12, [x4, #8]
	and	x12, x12, #0xffffffff8
	cbz	x12, .LBB128_13
	ldur	w13, [x11, #-16]
	tbz	w13, #0, .LBB128_13
	lsr	x13, x12, #3
	cmp	x13, x1
	b.hi	.LBB128_13
	ldr	x13, [x2]
	and	x13, x13, #0xffffffff8
	cmp	x13, x9
	b.eq	.LBB128_13
	add	x14, x0, x12, lsl #1
	ldur	x15, [x14, #-16]
	cmp	x15, #1
	b.ne	.LBB128_13
	orr	x9, x9, #0x1
	mov	w0, wzr
	stur	x9, [x10, #-16]
	mov	w9, #1
	stur	x8, [x11, #-8]
	stur	x9, [x14, #-16]
	stp	x13, x12, [x2]
	stp	xzr, xzr, [x4]
	ret
.LBB128_13:
	mov	w5, #1
	b	ic_raw.list_calls.splice_slow.5386baa488213e47
.Lfunc_end128:
	.size	ic_list_splice_before, .Lfunc_end128-ic_list_splice_before
	.cfi_endproc
	.section	.text.ic_list_split_after,"ax",@progbits
	.globl	ic_list_split_after
	.p2align	2
	.type	ic_list_split_after,@function
ic_list_split_after:
	.cfi_startproc
	hint	#34
	ldr	x8, [x4]
	cmp	x0, #0
	mov	w9, #4096
	csel	x9, x9, xzr, eq
	tst	x8, #0xffffffff8
	add	x0, x0, x9
	b.ne	.LBB129_10
	ldr	x8, [x4, #8]
	tst	x8, #0xffffffff8
	b.ne	.LBB129_10
	adds	w10, w3, #1
	b.hs	.LBB129_10
	cmp	x1, x10
	b.lo	.LBB129_10
	add	x9, x0, x10, lsl #4
	ldur	x11, [x9, #-16]
	tbz	w11, #0, .LBB129_10
	ands	x8, x11, #0xffffffff8
	b.eq	.LBB129_10
	ubfx	x11, x11, #3, #33
	cmp	x11, x1
	b.hi	.LBB129_10
	add	x11, x0, x8, lsl #1
	ubfiz	x10, x10, #3, #32
	ldur	x12, [x11, #-8]
	cmp	x12, x10
	b.ne	.LBB129_10
	ldur	w12, [x11, #-16]
	tbz	w12, #0, .LBB129_10
	ldp	x13, x14, [x2]
	mov	w12, #1
	stur	x12, [x9, #-16]
	mov	w0, wzr
	stur	xzr, [x11, #-8]
	and	x9, x13, #0xffffffff8
	stp	x9, x10, [x2]
	and	x9, x14, #0xffffffff8
	stp	x8, x9, [x4]
	ret
.LBB129_10:
	mov	w5, wzr
	b	ic_raw.list_calls.split_slow.5386baa488213e47
.Lfunc_end129:
	.size	ic_list_split_after, .Lfunc_end129-ic_list_split_after
	.cfi_endproc
	.section	.text.ic_list_split_before,"ax",@progbits
	.globl	ic_list_split_before
	.p2align	2
	.type	ic_list_split_before,@function
ic_list_split_before:
	.cfi_startproc
	hint	#34
	ldr	x8, [x4]
	cmp	x0, #0
	mov	w9, #4096
	csel	x9, x9, xzr, eq
	tst	x8, #0xffffffff8
	add	x0, x0, x9
	b.ne	.LBB130_9
	ldr	x8, [x4, #8]
	tst	x8, #0xffffffff8
	b.ne	.LBB130_9
	adds	w10, w3, #1
	b.hs	.LBB130_9
	cmp	x1, x10
	b.lo	.LBB130_9
	add	x8, x0, x10, lsl #4
	ldurb	w9, [x8, #-16]
	tbz	w9, #0, .LBB130_9
	ldur	x11, [x8, #-8]
	ands	x9, x11, #0xffffffff8
	b.eq	.LBB130_9
	ubfx	x11, x11, #3, #33
	cmp	x11, x1
	b.hi	.LBB130_9
	add	x11, x0, x9, lsl #1
	ubfiz	x10, x10, #3, #32
	ldur	x12, [x11, #-16]
	orr	x13, x10, #0x1
	cmp	x12, x13
	b.ne	.LBB130_9
	ldp	x13, x14, [x2]
	mov	w12, #1
	stur	x12, [x11, #-16]
	mov	w0, wzr
	stur	xzr, [x8, #-8]
	and	x8, x14, #0xffffffff8
	stp	x10, x8, [x2]
	and	x10, x13, #0xffffffff8
	stp	x10, x9, [x4]
	ret
.LBB130_9:
	mov	w5, #1
	b	ic_raw.list_calls.split_slow.5386baa488213e47
.Lfunc_end130:
	.size	ic_list_split_before, .Lfunc_end130-ic_list_split_before
	.cfi_endproc
	.section	.text.ic_list_transfer_after,"ax",@progbits
	.globl	ic_list_transfer_after
	.p2align	2
	.type	ic_list_transfer_after,@function
ic_list_transfer_after:
	.cfi_startproc
	hint	#34
	cmp	x0, #0
	mov	w8, #4096
	mov	w6, w5
	csel	x8, x8, xzr, eq
	mov	x5, x4
	mov	w4, w3
	add	x0, x0, x8
	mov	w3, wzr
	b	ic_raw_lists.transfer_calls.transfer_at.5386baa488213e47
.Lfunc_end131:
	.size	ic_list_transfer_after, .Lfunc_end131-ic_list_transfer_after
	.cfi_endproc
	.section	.text.ic_list_transfer_before,"ax",@progbits
	.globl	ic_list_transfer_before
	.p2align	2
	.type	ic_list_transfer_before,@function
ic_list_transfer_before:
	.cfi_startproc
	hint	#34
	cmp	x0, #0
	mov	w8, #4096
	mov	w6, w5
	csel	x8, x8, xzr, eq
	mov	x5, x4
	mov	w4, w3
	add	x0, x0, x8
	mov	w3, #1
	b	ic_raw_lists.transfer_calls.transfer_at.5386baa488213e47
.Lfunc_end132:
	.size	ic_list_transfer_before, .Lfunc_end132-ic_list_transfer_before
	.cfi_endproc
	.section	.text.ic_ring32_exchange,"ax",@progbits
	.globl	ic_ring32_exchange
	.p2align	2
	.type	ic_ring32_exchange,@function
ic_ring32_exchange:
	.cfi_startproc
	hint	#34
	cmp	x0, #0
	mov	w8, #4096
	csel	x9, x8, xzr, eq
	adds	w8, w2, #1
	b.lo	.LBB133_2
	mov	w0, #4
	ret
.LBB133_2:
	adds	w13, w3, #1
	b.lo	.LBB133_4
	mov	w0, #4
	ret
.LBB133_4:
	mov	w10, #536870911
	add	x0, x0, x9
	cmp	x1, x10
	csel	x12, x1, x10, lo
	cmp	x12, x8
	b.lo	.LBB133_17
	ubfiz	x8, x8, #3, #32
	add	x9, x0, x8
	ldur	w11, [x9, #-8]
	tbz	w11, #0, .LBB133_17
	and	x10, x11, #0xfffffff8
	cbz	w10, .LBB133_17
	lsr	w11, w11, #3
	cmp	x11, x12
	b.hi	.LBB133_17
	add	x11, x0, x10
	ldurb	w14, [x11, #-8]
	tbz	w14, #0, .LBB133_17
	ldur	w14, [x11, #-4]
	and	x14, x14, #0xfffffff8
	cmp	x8, x14
	b.ne	.LBB133_17
	cmp	x12, x13
	b.lo	.LBB133_17
	ubfiz	x13, x13, #3, #32
	add	x14, x0, x13
	ldur	w16, [x14, #-8]
	tbz	w16, #0, .LBB133_17
	and	x15, x16, #0xfffffff8
	cbz	w15, .LBB133_17
	lsr	w16, w16, #3
	cmp	x16, x12
	b.hi	.LBB133_17
	add	x12, x0, x15
	ldurb	w16, [x12, #-8]
	tbz	w16, #0, .LBB133_17
	ldur	w16, [x12, #-4]
	and	x16, x16, #0xfffffff8
	cmp	x13, x16
	b.ne	.LBB133_17
	orr	w15, w15, #0x1
	mov	w0, wzr
	stur	w15, [x9, #-8]
	orr	w9, w10, #0x1
	stur	w8, [x12, #-4]
	stur	w9, [x14, #-8]
	stur	w13, [x11, #-4]
	ret
.LBB133_17:
	b	ic_raw.table.RawTable.refusal_at_both.05a19227735374d3
.Lfunc_end133:
	.size	ic_ring32_exchange, .Lfunc_end133-ic_ring32_exchange
	.cfi_endproc
	.section	.text.ic_ring32_init,"ax",@progbits
	.globl	ic_ring32_init
	.p2align	2
	.type	ic_ring32_init,@function
ic_ring32_init:
	.cfi_startproc
	hint	#34
	cmp	x0, #0
	mov	w8, #4096
	mov	w10, #536870911
	csel	x9, x8, xzr, eq
	adds	w8, w2, #1
	cset	w11, hs
	cmp	x1, x10
	add	x0, x0, x9
	csel	x9, x1, x10, lo
	tbnz	w11, #0, .LBB134_4
	cmp	x9, x8
	b.lo	.LBB134_4
	ubfiz	x9, x8, #3, #32
	add	x8, x0, x9
	ldurb	w10, [x8, #-8]
	tbnz	w10, #0, .LBB134_4
	mov	w0, wzr
	orr	w10, w9, #0x1
	stp	w10, w9, [x8, #-8]
	ret
.LBB134_4:
	b	ic_raw.table.refusal_at_end.05a19227735374d3
.Lfunc_end134:
	.size	ic_ring32_init, .Lfunc_end134-ic_ring32_init
	.cfi_endproc
	.section	.text.ic_ring32_insert_after,"ax",@progbits
	.globl	ic_ring32_insert_after
	.p2align	2
	.type	ic_ring32_insert_after,@function
ic_ring32_insert_after:
	.cfi_startproc
	hint	#34
	cmp	x0, #0
	mov	w8, #4096
	csel	x9, x8, xzr, eq
	adds	w8, w2, #1
	b.lo	.LBB135_2
	mov	w0, #4
	ret
.LBB135_2:
	mov	w10, #536870911
	add	x0, x0, x9
	cmp	x1, x10
	csel	x11, x1, x10, lo
	cmp	x11, x8
	b.lo	.LBB135_12
	ubfiz	x9, x8, #3, #32
	add	x8, x0, x9
	ldur	w12, [x8, #-8]
	tbz	w12, #0, .LBB135_12
	and	x10, x12, #0xfffffff8
	cbz	w10, .LBB135_12
	lsr	w12, w12, #3
	cmp	x12, x11
	b.hi	.LBB135_12
	add	x12, x0, x10
	ldurb	w13, [x12, #-8]
	tbz	w13, #0, .LBB135_12
	add	w13, w3, #1
	cbz	w13, .LBB135_12
	ldur	w14, [x12, #-4]
	and	x14, x14, #0xfffffff8
	cmp	x9, x14
	b.ne	.LBB135_12
	cmp	x11, x13
	b.lo	.LBB135_12
	ubfiz	x11, x13, #3, #32
	add	x13, x0, x11
	ldurb	w14, [x13, #-8]
	tbnz	w14, #0, .LBB135_12
	orr	w10, w10, #0x1
	mov	w0, wzr
	stp	w10, w9, [x13, #-8]
	orr	w9, w11, #0x1
	stur	w9, [x8, #-8]
	stur	w11, [x12, #-4]
	ret
.LBB135_12:
	b	ic_raw.table.RawTable.refusal.05a19227735374d3
.Lfunc_end135:
	.size	ic_ring32_insert_after, .Lfunc_end135-ic_ring32_insert_after
	.cfi_endproc
	.section	.text.ic_ring32_insert_before,"ax",@progbits
	.globl	ic_ring32_insert_before
	.p2align	2
	.type	ic_ring32_insert_before,@function
ic_ring32_insert_before:
	.cfi_startproc
	hint	#34
	cmp	x0, #0
	mov	w8, #4096
	csel	x9, x8, xzr, eq
	adds	w8, w2, #1
	b.lo	.LBB136_2
	mov	w0, #4
	ret
.LBB136_2:
	mov	w10, #536870911
	add	x0, x0, x9
	cmp	x1, x10
	csel	x11, x1, x10, lo
	cmp	x11, x8
	b.lo	.LBB136_12
	ubfiz	x9, x8, #3, #32
	add	x8, x0, x9
	ldurb	w10, [x8, #-8]
	tbz	w10, #0, .LBB136_12
	ldur	w12, [x8, #-4]
	and	x10, x12, #0xfffffff8
	cbz	w10, .LBB136_12
	lsr	w12, w12, #3
	cmp	x12, x11
	b.hi	.LBB136_12
	add	w13, w3, #1
	cbz	w13, .LBB136_12
	add	x12, x0, x10
	ldur	w14, [x12, #-8]
	tbz	w14, #0, .LBB136_12
	and	x14, x14, #0xfffffff8
	cmp	x9, x14
	b.ne	.LBB136_12
	cmp	x11, x13
	b.lo	.LBB136_12
	ubfiz	x11, x13, #3, #32
	add	x13, x0, x11
	ldurb	w14, [x13, #-8]
	tbnz	w14, #0, .LBB136_12
	orr	w9, w9, #0x1
	mov	w0, wzr
	stp	w9, w10, [x13, #-8]
	orr	w10, w11, #0x1
	stur	w10, [x12, #-8]
	stur	w11, [x8, #-4]
	ret
.LBB136_12:
	b	ic_raw.table.RawTable.refusal.05a19227735374d3
.Lfunc_end136:
	.size	ic_ring32_insert_before, .Lfunc_end136-ic_ring32_insert_before
	.cfi_endproc
	.section	.text.ic_ring32_move_after,"ax",@progbits
	.globl	ic_ring32_move_after
	.p2align	2
	.type	ic_ring32_move_after,@function
ic_ring32_move_after:
	.cfi_startproc
	hint	#34
	mov	w8, #4096
	cmp	x0, #0
	mov	w4, w3
	csel	x8, x8, xzr, eq
	mov	w3, w2
	mov	w2, wzr
	add	x0, x0, x8
	b	ic_raw.ring_calls.move_beside.5b268f449b4ebf83
.Lfunc_end137:
	.size	ic_ring32_move_after, .Lfunc_end137-ic_ring32_move_after
	.cfi_endproc
	.section	.text.ic_ring32_move_before,"ax",@progbits
	.globl	ic_ring32_move_before
	.p2align	2
	.type	ic_ring32_move_before,@function
ic_ring32_move_before:
	.cfi_startproc
	hint	#34
	mov	w8, #4096
	cmp	x0, #0
	mov	w4, w3
	csel	x8, x8, xzr, eq
	mov	w3, w2
	mov	w2, #1
	add	x0, x0, x8
	b	ic_raw.ring_calls.move_beside.5b268f449b4ebf83
.Lfunc_end138:
	.size	ic_ring32_move_before, .Lfunc_end138-ic_ring32_move_before
	.cfi_endproc
	.section	.text.ic_ring32_pop_back,"ax",@progbits
	.globl	ic_ring32_pop_back
	.p2align	2
	.type	ic_ring32_pop_back,@function
ic_ring32_pop_back:
	.cfi_startproc
	hint	#34
	mov	w8, #4096
	cmp	x0, #0
	mov	x4, x3
	csel	x8, x8, xzr, eq
	mov	w3, w2
	mov	w2, #1
	add	x0, x0, x8
	b	ic_raw.ring_calls.pop.5b268f449b4ebf83
.Lfunc_end139:
	.size	ic_ring32_pop_back, .Lfunc_end139-ic_ring32_pop_back
	.cfi_endproc
	.section	.text.ic_ring32_pop_front,"ax",@progbits
	.globl	ic_ring32_pop_front
	.p2align	2
	.type	ic_ring32_pop_front,@function
ic_ring32_pop_front:
	.cfi_startproc
	hint	#34
	mov	w8, #4096
	cmp	x0, #0
	mov	x4, x3
	csel	x8, x8, xzr, eq
	mov	w3, w2
	mov	w2, wzr
	add	x0, x0, x8
	b	ic_raw.ring_calls.pop.5b268f449b4ebf83
.Lfunc_end140:
	.size	ic_ring32_pop_front, .Lfunc_end140-ic_ring32_pop_front
	.cfi_endproc
	.section	.text.ic_ring32_remove,"ax",@progbits
	.globl	ic_ring32_remove
	.p2align	2
	.type	ic_ring32_remove,@function
ic_ring32_remove:
	.cfi_startproc
	hint	#34
	mov	w8, #4096
	cmp	x0, #0
	csel	x9, x8, xzr, eq
	adds	w8, w2, #1
	b.lo	.LBB141_2
	mov	w0, #4
	ret
.LBB141_2:
	mov	w10, #536870911
	add	x0, x0, x9
	cmp	x1, x10
	csel	x11, x1, x10, lo
	cmp	x11, x8
	b.lo	.LBB141_13
	ubfiz	x9, x8, #3, #32
	add	x8, x0, x9
	ldur	w13, [x8, #-8]
	tbz	w13, #0, .LBB141_13
	ldur	w12, [x8, #-4]
	and	x10, x12, #0xfffffff8
	cbz	w10, .LBB141_13
	lsr	w12, w12, #3
	cmp	x12, x11
	b.hi	.LBB141_13
	add	x12, x0, x10
	ldur	w14, [x12, #-8]
	tbz	w14, #0, .LBB141_13
	and	x14, x14, #0xfffffff8
	cmp	x9, x14
	b.ne	.LBB141_13
	and	x14, x13, #0xfffffff8
	cbz	w14, .LBB141_13
	lsr	w13, w13, #3
	cmp	x13, x11
	b.hi	.LBB141_13
	add	x11, x0, x14
	ldurb	w13, [x11, #-8]
	tbz	w13, #0, .LBB141_13
	ldur	w13, [x11, #-4]
	and	x13, x13, #0xfffffff8
	cmp	x9, x13
	b.ne	.LBB141_13
	mov	w0, wzr
	orr	w9, w14, #0x1
	stur	w9, [x12, #-8]
	stur	w10, [x11, #-4]
	stur	wzr, [x8, #-8]
	ret
.LBB141_13:
	b	ic_raw.table.RawTable.refusal_at.05a19227735374d3
.Lfunc_end141:
	.size	ic_ring32_remove, .Lfunc_end141-ic_ring32_remove
	.cfi_endproc
	.section	.text.ic_ring32_replace,"ax",@progbits
	.globl	ic_ring32_replace
	.p2align	2
	.type	ic_ring32_replace,@function
ic_ring32_replace:
	.cfi_startproc
	hint	#34
	cmp	x0, #0
	mov	w8, #4096
	csel	x10, x8, xzr, eq
	adds	w9, w2, #1
	b.lo	.LBB142_2
	mov	w0, #4
	ret
.LBB142_2:
	mov	w8, #536870911
	add	x0, x0, x10
	cmp	x1, x8
	csel	x8, x1, x8, lo
	cmp	x8, x9
	b.lo	.LBB142_16
	ubfiz	x10, x9, #3, #32
	add	x9, x0, x10
	ldur	w14, [x9, #-8]
	tbz	w14, #0, .LBB142_16
	ldur	w12, [x9, #-4]
	and	x11, x12, #0xfffffff8
	cbz	w11, .LBB142_16
	lsr	w12, w12, #3
	cmp	x12, x8
	b.hi	.LBB142_16
	add	x12, x0, x11
	ldur	w13, [x12, #-8]
	tbz	w13, #0, .LBB142_16
	and	x13, x13, #0xfffffff8
	cmp	x10, x13
	b.ne	.LBB142_16
	and	x13, x14, #0xfffffff8
	cbz	w13, .LBB142_16
	lsr	w14, w14, #3
	cmp	x14, x8
	b.hi	.LBB142_16
	add	x15, x0, x13
	ldurb	w14, [x15, #-8]
	tbz	w14, #0, .LBB142_16
	add	w14, w3, #1
	cbz	w14, .LBB142_16
	ldur	w15, [x15, #-4]
	and	x15, x15, #0xfffffff8
	cmp	x10, x15
	b.ne	.LBB142_16
	cmp	x8, x14
	b.lo	.LBB142_16
	ubfiz	x14, x14, #3, #32
	add	x15, x0, x14
	ldurb	w8, [x15, #-8]
	tbnz	w8, #0, .LBB142_16
	cmp	x10, x13
	stur	w11, [x15, #-4]
	orr	w11, w14, #0x1
	csel	x10, x14, x13, eq
	stur	w11, [x12, #-8]
	orr	w11, w10, #0x1
	add	x10, x0, x10
	mov	w0, wzr
	stur	w14, [x9, #-4]
	stur	w11, [x15, #-8]
	stur	w14, [x10, #-4]
	stur	wzr, [x9, #-8]
	ret
.LBB142_16:
	b	ic_raw.table.RawTable.refusal.05a19227735374d3
.Lfunc_end142:
	.size	ic_ring32_replace, .Lfunc_end142-ic_ring32_replace
	.cfi_endproc
	.section	.text.ic_ring32_splice_after,"ax",@progbits
	.globl	ic_ring32_splice_after
	.p2align	2
	.type	ic_ring32_splice_after,@function
ic_ring32_splice_after:
	.cfi_startproc
	hint	#34
	mov	w8, #4096
	cmp	x0, #0
	mov	w4, w3
	csel	x8, x8, xzr, eq
	mov	w3, w2
	mov	w2, wzr
	add	x0, x0, x8
	b	ic_raw.ring_calls.splice.5b268f449b4ebf83
.Lfunc_end143:
	.size	ic_ring32_splice_after, .Lfunc_end143-ic_ring32_splice_after
	.cfi_endproc
	.section	.text.ic_ring32_splice_before,"ax",@progbits
	.globl	ic_ring32_splice_before
	.p2align	2
	.type	ic_ring32_splice_before,@function
ic_ring32_splice_before:
	.cfi_startproc
	hint	#34
	mov	w8, #4096
	cmp	x0, #0
	mov	w4, w3
	csel	x8, x8, xzr, eq
	mov	w3, w2
	mov	w2, #1
	add	x0, x0, x8
	b	ic_raw.ring_calls.splice.5b268f449b4ebf83
.Lfunc_end144:
	.size	ic_ring32_splice_before, .Lfunc_end144-ic_ring32_splice_before
	.cfi_endproc
	.section	.text.ic_ring_check,"ax",@progbits
	.globl	ic_ring_check
	.p2align	2
	.type	ic_ring_check,@function
ic_ring_check:
	.cfi_startproc
	hint	#34
	cmp	x0, #0
	mov	w8, #4096
	csel	x8, x8, xzr, eq
	adds	w9, w2, #1
	b.lo	.LBB145_2
	mov	w0, #4
	ret
.LBB145_2:
	ubfiz	x2, x9, #3, #32
	add	x0, x0, x8
	cbz	x1, .LBB145_12
	mov	x8, xzr
	mov	x9, x2
.LBB145_4:
	cmp	x1, x9, lsr #3
	b.lo	.LBB145_12
	add	x10, x0, x9, lsl #1
	ldur	x11, [x10, #-16]
	tbz	w11, #0, .LBB145_12
	ands	x10, x11, #0xffffffff8
	b.eq	.LBB145_12
	ubfx	x11, x11, #3, #33
	cmp	x11, x1
	b.hi	.LBB145_12
	add	x11, x0, x10, lsl #1
	ldurb	w12, [x11, #-16]
	tbz	w12, #0, .LBB145_12
	ldur	x11, [x11, #-8]
	and	x11, x11, #0xffffffff8
	cmp	x11, x9
	b.ne	.LBB145_12
	cmp	x10, x2
	b.eq	.LBB145_13
	add	x8, x8, #1
	mov	x9, x10
	cmp	x1, x8
	b.ne	.LBB145_4
.LBB145_12:
	b	ic_raw.table.RawTable.refusal_of.5f318a721acb0238
.LBB145_13:
	mov	w0, wzr
	str	x8, [x3]
	ret
.Lfunc_end145:
	.size	ic_ring_check, .Lfunc_end145-ic_ring_check
	.cfi_endproc
	.section	.text.ic_ring_exchange,"ax",@progbits
	.globl	ic_ring_exchange
	.p2align	2
	.type	ic_ring_exchange,@function
ic_ring_exchange:
	.cfi_startproc
	hint	#34
	cmp	x0, #0
	mov	w8, #4096
	csel	x8, x8, xzr, eq
	adds	w12, w2, #1
	b.lo	.LBB146_2
	mov	w0, #4
	ret
.LBB146_2:
	adds	w9, w3, #1
	b.lo	.LBB146_4
	mov	w0, #4
	ret
.LBB146_4:
	cmp	x1, x12
	add	x0, x0, x8
	b.lo	.LBB146_17
	add	x8, x0, x12, lsl #4
	ldur	x11, [x8, #-16]
	tbz	w11, #0, .LBB146_17
	ands	x10, x11, #0xffffffff8
	b.eq	.LBB146_17
	ubfx	x11, x11, #3, #33
	cmp	x11, x1
	b.hi	.LBB146_17
	add	x11, x0, x10, lsl #1
	ldurb	w13, [x11, #-16]
	tbz	w13, #0, .LBB146_17
	cmp	x1, x9
	b.lo	.LBB146_17
	ldur	x13, [x11, #-8]
	ubfiz	x12, x12, #3, #32
	and	x13, x13, #0xffffffff8
	cmp	x13, x12
	b.ne	.LBB146_17
	add	x13, x0, x9, lsl #4
	ldur	x15, [x13, #-16]
	tbz	w15, #0, .LBB146_17
	ands	x14, x15, #0xffffffff8
	b.eq	.LBB146_17
	ubfx	x15, x15, #3, #33
	cmp	x15, x1
	b.hi	.LBB146_17
	add	x15, x0, x14, lsl #1
	ldurb	w16, [x15, #-16]
	tbz	w16, #0, .LBB146_17
	ldur	x16, [x15, #-8]
	ubfiz	x9, x9, #3, #32
	and	x16, x16, #0xffffffff8
	cmp	x16, x9
	b.ne	.LBB146_17
	orr	x14, x14, #0x1
	mov	w0, wzr
	stur	x14, [x8, #-16]
	orr	x8, x10, #0x1
	stur	x12, [x15, #-8]
	stur	x8, [x13, #-16]
	stur	x9, [x11, #-8]
	ret
.LBB146_17:
	b	ic_raw.table.RawTable.refusal_at_both.85cd03e557136797
.Lfunc_end146:
	.size	ic_ring_exchange, .Lfunc_end146-ic_ring_exchange
	.cfi_endproc
	.section	.text.ic_ring_init,"ax",@progbits
	.globl	ic_ring_init
	.p2align	2
	.type	ic_ring_init,@function
ic_ring_init:
	.cfi_startproc
	hint	#34
	cmp	x0, #0
	mov	w8, #4096
	csel	x9, x8, xzr, eq
	adds	w8, w2, #1
	add	x0, x0, x9
	b.hs	.LBB147_4
	cmp	x1, x8
	b.lo	.LBB147_4
	add	x9, x0, x8, lsl #4
	ldurb	w10, [x9, #-16]
	tbnz	w10, #0, .LBB147_4
	ubfiz	x8, x8, #3, #32
	mov	w0, wzr
	orr	x10, x8, #0x1
	stp	x10, x8, [x9, #-16]
	ret
.LBB147_4:
	b	ic_raw.table.refusal_at_end.85cd03e557136797
.Lfunc_end147:
	.size	ic_ring_init, .Lfunc_end147-ic_ring_init
	.cfi_endproc
	.section	.text.ic_ring_insert_after,"ax",@progbits
	.globl	ic_ring_insert_after
	.p2align	2
	.type	ic_ring_insert_after,@function
ic_ring_insert_after:
	.cfi_startproc
	hint	#34
	cmp	x0, #0
	mov	w8, #4096
	csel	x8, x8, xzr, eq
	adds	w10, w2, #1
	b.lo	.LBB148_2
	mov	w0, #4
	ret
.LBB148_2:
	cmp	x1, x10
	add	x0, x0, x8
	b.lo	.LBB148_12
	add	x8, x0, x10, lsl #4
	ldur	x11, [x8, #-16]
	tbz	w11, #0, .LBB148_12
	ands	x9, x11, #0xffffffff8
	b.eq	.LBB148_12
	ubfx	x11, x11, #3, #33
	cmp	x11, x1
	b.hi	.LBB148_12
	add	x11, x0, x9, lsl #1
	ldurb	w12, [x11, #-16]
	tbz	w12, #0, .LBB148_12
	add	w12, w3, #1
	cbz	w12, .LBB148_12
	cmp	x1, x12
	b.lo	.LBB148_12
	ldur	x13, [x11, #-8]
	ubfiz	x10, x10, #3, #32
	and	x13, x13, #0xffffffff8
	cmp	x13, x10
	b.ne	.LBB148_12
	add	x13, x0, x12, lsl #4
	ldurb	w14, [x13, #-16]
	tbnz	w14, #0, .LBB148_12
	ubfiz	x12, x12, #3, #32
	orr	x9, x9, #0x1
	mov	w0, wzr
	stp	x9, x10, [x13, #-16]
	orr	x9, x12, #0x1
	stur	x9, [x8, #-16]
	stur	x12, [x11, #-8]
	ret
.LBB148_12:
	b	ic_raw.table.RawTable.refusal.85cd03e557136797
.Lfunc_end148:
	.size	ic_ring_insert_after, .Lfunc_end148-ic_ring_insert_after
	.cfi_endproc
	.section	.text.ic_ring_insert_before,"ax",@progbits
	.globl	ic_ring_insert_before
	.p2align	2
	.type	ic_ring_insert_before,@function
ic_ring_insert_before:
	.cfi_startproc
	hint	#34
	cmp	x0, #0
	mov	w8, #4096
	csel	x8, x8, xzr, eq
	adds	w10, w2, #1
	b.lo	.LBB149_2
	mov	w0, #4
	ret
.LBB149_2:
	cmp	x1, x10
	add	x0, x0, x8
	b.lo	.LBB149_12
	add	x8, x0, x10, lsl #4
	ldurb	w9, [x8, #-16]
	tbz	w9, #0, .LBB149_12
	ldur	x11, [x8, #-8]
	ands	x9, x11, #0xffffffff8
	b.eq	.LBB149_12
	ubfx	x11, x11, #3, #33
	cmp	x11, x1
	b.hi	.LBB149_12
	add	w11, w3, #1
	cbz	w11, .LBB149_12
	cmp	x1, x11
	b.lo	.LBB149_12
	add	x12, x0, x9, lsl #1
	ldur	x13, [x12, #-16]
	tbz	w13, #0, .LBB149_12
	ubfiz	x10, x10, #3, #32
	and	x13, x13, #0xffffffff8
	cmp	x13, x10
	b.ne	.LBB149_12
	add	x13, x0, x11, lsl #4
	ldurb	w14, [x13, #-16]
	tbnz	w14, #0, .LBB149_12
	ubfiz	x11, x11, #3, #32
	orr	x10, x10, #0x1
	mov	w0, wzr
	stp	x10, x9, [x13, #-16]
	orr	x9, x11, #0x1
	stur	x9, [x12, #-16]
	stur	x11, [x8, #-8]
	ret
.LBB149_12:
	b	ic_raw.table.RawTable.refusal.85cd03e557136797
.Lfunc_end149:
	.size	ic_ring_insert_before, .Lfunc_end149-ic_ring_insert_before
	.cfi_endproc
	.section	.text.ic_ring_merge,"ax",@progbits
	.globl	ic_ring_merge
	.p2align	2
	.type	ic_ring_merge,@function
ic_ring_merge:
	.cfi_startproc
	hint	#34
	mov	w9, #4096
	cmp	x0, #0
	csel	x13, x9, xzr, eq
	cmp	x2, #0
	csel	x11, x9, xzr, eq
	adds	w10, w4, #1
	b.hs	.LBB150_2
	adds	w9, w5, #1
	b.lo	.LBB150_3
.LBB150_2:
	mov	w0, #4
	ret
.LBB150_3:
	sub	sp, sp, #96
	.cfi_def_cfa_offset 96
	stp	x29, x30, [sp, #32]
	str	x23, [sp, #48]
	stp	x22, x21, [sp, #64]
	stp	x20, x19, [sp, #80]
	add	x29, sp, #32
	.cfi_def_cfa w29, 64
	.cfi_offset w19, -8
	.cfi_offset w20, -16
	.cfi_offset w21, -24
	.cfi_offset w22, -32
	.cfi_offset w23, -48
	.cfi_offset w30, -56
	.cfi_offset w29, -64
	.cfi_remember_state
	mov	x8, x3
	mov	x12, x2
	ubfiz	x2, x10, #3, #32
	ubfiz	x3, x9, #3, #32
	add	x19, x0, x13
	cmp	x8, x1
	stp	x19, x1, [sp]
	b.lo	.LBB150_25
	cbz	x1, .LBB150_25
	cmp	x3, x2
	b.eq	.LBB150_25
	add	x11, x12, x11
	mov	w12, #1
	mov	x14, x2
.LBB150_7:
	cmp	x1, x14, lsr #3
	b.lo	.LBB150_25
	add	x13, x19, x14, lsl #1
	ldur	x15, [x13, #-16]
	tbz	w15, #0, .LBB150_25
	ands	x13, x15, #0xffffffff8
	b.eq	.LBB150_25
	ubfx	x15, x15, #3, #33
	cmp	x15, x1
	b.hi	.LBB150_25
	add	x15, x19, x13, lsl #1
	ldurb	w16, [x15, #-16]
	tbz	w16, #0, .LBB150_25
	ldur	x15, [x15, #-8]
	and	x15, x15, #0xffffffff8
	cmp	x15, x14
	b.ne	.LBB150_25
	cmp	x13, x2
	b.eq	.LBB150_16
	cmp	x12, x1
	b.hs	.LBB150_25
	cmp	x3, x13
	add	x12, x12, #1
	mov	x14, x13
	b.ne	.LBB150_7
	b	.LBB150_25
.LBB150_16:
	mov	x12, x1
	mov	x13, x3
.LBB150_17:
	cmp	x1, x13, lsr #3
	b.lo	.LBB150_25
	add	x14, x19, x13, lsl #1
	ldur	x15, [x14, #-16]
	tbz	w15, #0, .LBB150_25
	ands	x14, x15, #0xffffffff8
	b.eq	.LBB150_25
	ubfx	x15, x15, #3, #33
	cmp	x15, x1
	b.hi	.LBB150_25
	add	x15, x19, x14, lsl #1
	ldurb	w16, [x15, #-16]
	tbz	w16, #0, .LBB150_25
	ldur	x15, [x15, #-8]
	and	x15, x15, #0xffffffff8
	cmp	x15, x13
	b.ne	.LBB150_25
	cmp	x14, x3
	b.eq	.LBB150_26
	subs	x12, x12, #1
	mov	x13, x14
	b.ne	.LBB150_17
.LBB150_25:
	mov	x0, sp
	mov	x1, x8
	bl	ic_raw_lists.ring_sort_calls.refusal_at_both
	.cfi_def_cfa wsp, 96
	ldp	x20, x19, [sp, #80]
	ldr	x23, [sp, #48]
	ldp	x22, x21, [sp, #64]
	ldp	x29, x30, [sp, #32]
	add	sp, sp, #96
	.cfi_def_cfa_offset 0
	.cfi_restore w19
	.cfi_restore w20
	.cfi_restore w21
	.cfi_restore w22
	.cfi_restore w23
	.cfi_restore w30
	.cfi_restore w29
	ret
.LBB150_26:
	.cfi_restore_state
	.cfi_remember_state
	add	x20, x19, x10, lsl #4
	stp	x11, x8, [sp, #16]
	ldur	x10, [x20, #-16]
	ands	x10, x10, #0xffffffff8
	b.eq	.LBB150_30
	cmp	x10, x2
	mov	x8, xzr
	b.eq	.LBB150_35
	ldur	x11, [x20, #-8]
	mov	x0, x8
	and	x11, x11, #0xffffffff8
	cbz	x11, .LBB150_31
	add	x8, x19, x10, lsl #1
	add	x12, x19, x11, lsl #1
	mov	w13, #1
	mov	x0, x11
	stur	xzr, [x8, #-8]
	mov	x8, x10
	stur	x13, [x12, #-16]
	add	x21, x19, x9, lsl #4
	ldur	x9, [x21, #-16]
	ands	x11, x9, #0xffffffff8
	b.ne	.LBB150_32
	b	.LBB150_36
.LBB150_30:
	mov	x8, xzr
	mov	x0, xzr
.LBB150_31:
	add	x21, x19, x9, lsl #4
	ldur	x9, [x21, #-16]
	ands	x11, x9, #0xffffffff8
	b.eq	.LBB150_36
.LBB150_32:
	cmp	x11, x3
	mov	x9, xzr
	b.eq	.LBB150_43
	ldur	x10, [x21, #-8]
	and	x12, x10, #0xffffffff8
	mov	x10, x9
	cbz	x12, .LBB150_37
	add	x9, x19, x11, lsl #1
	add	x10, x19, x12, lsl #1
	mov	w13, #1
	stur	xzr, [x9, #-8]
	mov	x9, x11
	stur	x13, [x10, #-16]
	mov	x10, x12
	cbnz	x8, .LBB150_38
	b	.LBB150_42
.LBB150_35:
	mov	x0, x8
	add	x21, x19, x9, lsl #4
	ldur	x9, [x21, #-16]
	ands	x11, x9, #0xffffffff8
	b.ne	.LBB150_32
.LBB150_36:
	mov	x9, xzr
	mov	x10, xzr
.LBB150_37:
	cbz	x8, .LBB150_42
.LBB150_38:
	cbz	x9, .LBB150_41
	mov	x22, x2
	mov	x23, x3
	mov	x0, sp
	add	x1, sp, #16
	mov	x2, x8
	mov	x3, x9
	bl	ic_list_algorithms.merge.merge_runs.e8da022ef74ca9e6
	add	x10, x19, x0, lsl #1
	mov	x9, x0
	mov	x3, x23
	mov	x2, x22
	ldur	x8, [x10, #-16]
	stur	xzr, [x10, #-8]
	mov	x10, x0
	ands	x8, x8, #0xffffffff8
	b.eq	.LBB150_42
.LBB150_40:
	add	x12, x19, x8, lsl #1
	mov	x11, x10
	mov	x10, x8
	ldur	x8, [x12, #-16]
	stur	x11, [x12, #-8]
	ands	x8, x8, #0xffffffff8
	b.ne	.LBB150_40
	b	.LBB150_42
.LBB150_41:
	mov	x9, x8
	mov	x10, x0
.LBB150_42:
	cmp	x9, #0
	mov	w0, wzr
	csel	x8, x2, x9, eq
	cmp	x10, #0
	csel	x9, x2, x10, eq
	add	x10, x19, x8, lsl #1
	orr	x8, x8, #0x1
	add	x11, x19, x9, lsl #1
	stur	x2, [x10, #-8]
	orr	x10, x2, #0x1
	stur	x10, [x11, #-16]
	stp	x8, x9, [x20, #-16]
	orr	x8, x3, #0x1
	stp	x8, x3, [x21, #-16]
	.cfi_def_cfa wsp, 96
	ldp	x20, x19, [sp, #80]
	ldr	x23, [sp, #48]
	ldp	x22, x21, [sp, #64]
	ldp	x29, x30, [sp, #32]
	add	sp, sp, #96
	.cfi_def_cfa_offset 0
	.cfi_restore w19
	.cfi_restore w20
	.cfi_restore w21
	.cfi_restore w22
	.cfi_restore w23
	.cfi_restore w30
	.cfi_restore w29
	ret
.LBB150_43:
	.cfi_restore_state
	mov	x10, x9
	cbnz	x8, .LBB150_38
	b	.LBB150_42
.Lfunc_end150:
	.size	ic_ring_merge, .Lfunc_end150-ic_ring_merge
	.cfi_endproc
	.section	.text.ic_ring_move_after,"ax",@progbits
	.globl	ic_ring_move_after
	.p2align	2
	.type	ic_ring_move_after,@function
ic_ring_move_after:
	.cfi_startproc
	hint	#34
	mov	w8, #4096
	cmp	x0, #0
	mov	w4, w3
	csel	x8, x8, xzr, eq
	mov	w3, w2
	mov	w2, wzr
	add	x0, x0, x8
	b	ic_raw.ring_calls.move_beside.354f48d5d890d6b4
.Lfunc_end151:
	.size	ic_ring_move_after, .Lfunc_end151-ic_ring_move_after
	.cfi_endproc
	.section	.text.ic_ring_move_before,"ax",@progbits
	.globl	ic_ring_move_before
	.p2align	2
	.type	ic_ring_move_before,@function
ic_ring_move_before:
	.cfi_startproc
	hint	#34
	mov	w8, #4096
	cmp	x0, #0
	mov	w4, w3
	csel	x8, x8, xzr, eq
	mov	w3, w2
	mov	w2, #1
	add	x0, x0, x8
	b	ic_raw.ring_calls.move_beside.354f48d5d890d6b4
.Lfunc_end152:
	.size	ic_ring_move_before, .Lfunc_end152-ic_ring_move_before
	.cfi_endproc
	.section	.text.ic_ring_pop_back,"ax",@progbits
	.globl	ic_ring_pop_back
	.p2align	2
	.type	ic_ring_pop_back,@function
ic_ring_pop_back:
	.cfi_startproc
	hint	#34
	mov	w8, #4096
	cmp	x0, #0
	mov	x4, x3
	csel	x8, x8, xzr, eq
	mov	w3, w2
	mov	w2, #1
	add	x0, x0, x8
	b	ic_raw.ring_calls.pop.354f48d5d890d6b4
.Lfunc_end153:
	.size	ic_ring_pop_back, .Lfunc_end153-ic_ring_pop_back
	.cfi_endproc
	.section	.text.ic_ring_pop_front,"ax",@progbits
	.globl	ic_ring_pop_front
	.p2align	2
	.type	ic_ring_pop_front,@function
ic_ring_pop_front:
	.cfi_startproc
	hint	#34
	mov	w8, #4096
	cmp	x0, #0
	mov	x4, x3
	csel	x8, x8, xzr, eq
	mov	w3, w2
	mov	w2, wzr
	add	x0, x0, x8
	b	ic_raw.ring_calls.pop.354f48d5d890d6b4
.Lfunc_end154:
	.size	ic_ring_pop_front, .Lfunc_end154-ic_ring_pop_front
	.cfi_endproc
	.section	.text.ic_ring_remove,"ax",@progbits
	.globl	ic_ring_remove
	.p2align	2
	.type	ic_ring_remove,@function
ic_ring_remove:
	.cfi_startproc
	hint	#34
	mov	w8, #4096
	cmp	x0, #0
	csel	x8, x8, xzr, eq
	adds	w11, w2, #1
	b.lo	.LBB155_2
	mov	w0, #4
	ret
.LBB155_2:
	cmp	x1, x11
	add	x0, x0, x8
	b.lo	.LBB155_13
	add	x8, x0, x11, lsl #4
	ldur	x12, [x8, #-16]
	tbz	w12, #0, .LBB155_13
	ldur	x10, [x8, #-8]
	ands	x9, x10, #0xffffffff8
	b.eq	.LBB155_13
	ubfx	x10, x10, #3, #33
	cmp	x10, x1
	b.hi	.LBB155_13
	add	x10, x0, x9, lsl #1
	ldur	x14, [x10, #-16]
	tbz	w14, #0, .LBB155_13
	ubfiz	x13, x11, #3, #32
	and	x11, x14, #0xffffffff8
	cmp	x11, x13
	b.ne	.LBB155_13
	ands	x11, x12, #0xffffffff8
	b.eq	.LBB155_13
	ubfx	x12, x12, #3, #33
	cmp	x12, x1
	b.hi	.LBB155_13
	add	x12, x0, x11, lsl #1
	ldurb	w14, [x12, #-16]
	tbz	w14, #0, .LBB155_13
	ldur	x14, [x12, #-8]
	and	x14, x14, #0xffffffff8
	cmp	x14, x13
	b.ne	.LBB155_13
	mov	w0, wzr
	orr	x11, x11, #0x1
	stur	x11, [x10, #-16]
	stur	x9, [x12, #-8]
	stur	xzr, [x8, #-16]
	ret
.LBB155_13:
	b	ic_raw.table.RawTable.refusal_at.85cd03e557136797
.Lfunc_end155:
	.size	ic_ring_remove, .Lfunc_end155-ic_ring_remove
	.cfi_endproc
	.section	.text.ic_ring_replace,"ax",@progbits
	.globl	ic_ring_replace
	.p2align	2
	.type	ic_ring_replace,@function
ic_ring_replace:
	.cfi_startproc
	hint	#34
	cmp	x0, #0
	mov	w8, #4096
	csel	x9, x8, xzr, eq
	adds	w8, w2, #1
	b.lo	.LBB156_2
	mov	w0, #4
	ret
.LBB156_2:
	cmp	x1, x8
	add	x0, x0, x9
	b.lo	.LBB156_16
	add	x9, x0, x8, lsl #4
	ldur	x14, [x9, #-16]
	tbz	w14, #0, .LBB156_16
	ldur	x11, [x9, #-8]
	ands	x10, x11, #0xffffffff8
	b.eq	.LBB156_16
	ubfx	x11, x11, #3, #33
	cmp	x11, x1
	b.hi	.LBB156_16
	add	x11, x0, x10, lsl #1
	ldur	x13, [x11, #-16]
	tbz	w13, #0, .LBB156_16
	ubfiz	x12, x8, #3, #32
	and	x8, x13, #0xffffffff8
	cmp	x8, x12
	b.ne	.LBB156_16
	ands	x13, x14, #0xffffffff8
	b.eq	.LBB156_16
	ubfx	x8, x14, #3, #33
	cmp	x8, x1
	b.hi	.LBB156_16
	add	x8, x0, x13, lsl #1
	ldurb	w14, [x8, #-16]
	tbz	w14, #0, .LBB156_16
	add	w14, w3, #1
	cmp	x1, x14
	b.lo	.LBB156_16
	cbz	w14, .LBB156_16
	ldur	x8, [x8, #-8]
	and	x8, x8, #0xffffffff8
	cmp	x8, x12
	b.ne	.LBB156_16
	add	x15, x0, x14, lsl #4
	ldurb	w8, [x15, #-16]
	tbnz	w8, #0, .LBB156_16
	ubfiz	x14, x14, #3, #32
	cmp	x13, x12
	stur	x10, [x15, #-8]
	orr	x10, x14, #0x1
	csel	x12, x14, x13, eq
	stur	x10, [x11, #-16]
	add	x11, x0, x12, lsl #1
	orr	x10, x12, #0x1
	mov	w0, wzr
	stur	x14, [x9, #-8]
	stur	x10, [x15, #-16]
	stur	x14, [x11, #-8]
	stur	xzr, [x9, #-16]
	ret
.LBB156_16:
	b	ic_raw.table.RawTable.refusal.85cd03e557136797
.Lfunc_end156:
	.size	ic_ring_replace, .Lfunc_end156-ic_ring_replace
	.cfi_endproc
	.section	.text.ic_ring_sort,"ax",@progbits
	.globl	ic_ring_sort
	.p2align	2
	.type	ic_ring_sort,@function
ic_ring_sort:
	.cfi_startproc
	hint	#34
	mov	w9, #4096
	cmp	x0, #0
	csel	x8, x9, xzr, eq
	cmp	x2, #0
	csel	x10, x9, xzr, eq
	adds	w9, w4, #1
	b.lo	.LBB157_2
	mov	w0, #4
	ret
.LBB157_2:
	sub	sp, sp, #128
	.cfi_def_cfa_offset 128
	stp	x29, x30, [sp, #64]
	stp	x24, x23, [sp, #80]
	stp	x22, x21, [sp, #96]
	stp	x20, x19, [sp, #112]
	add	x29, sp, #64
	.cfi_def_cfa w29, 64
	.cfi_offset w19, -8
	.cfi_offset w20, -16
	.cfi_offset w21, -24
	.cfi_offset w22, -32
	.cfi_offset w23, -40
	.cfi_offset w24, -48
	.cfi_offset w30, -56
	.cfi_offset w29, -64
	.cfi_remember_state
	sub	x11, x1, #1
	ubfiz	x19, x9, #3, #32
	add	x8, x0, x8
	cmp	x11, x3
	stp	x8, x1, [sp, #8]
	b.hs	.LBB157_12
	add	x10, x2, x10
	mov	x11, x1
	mov	x12, x19
.LBB157_4:
	cmp	x1, x12, lsr #3
	b.lo	.LBB157_12
	add	x13, x8, x12, lsl #1
	ldur	x14, [x13, #-16]
	tbz	w14, #0, .LBB157_12
	ands	x13, x14, #0xffffffff8
	b.eq	.LBB157_12
	ubfx	x14, x14, #3, #33
	cmp	x14, x1
	b.hi	.LBB157_12
	add	x14, x8, x13, lsl #1
	ldurb	w15, [x14, #-16]
	tbz	w15, #0, .LBB157_12
	ldur	x14, [x14, #-8]
	and	x14, x14, #0xffffffff8
	cmp	x14, x12
	b.ne	.LBB157_12
	cmp	x13, x19
	b.eq	.LBB157_13
	subs	x11, x11, #1
	mov	x12, x13
	b.ne	.LBB157_4
.LBB157_12:
	add	x0, sp, #8
	mov	x1, x3
	mov	x2, x19
	bl	ic_raw_lists.ring_sort_calls.refusal_at
	.cfi_def_cfa wsp, 128
	ldp	x20, x19, [sp, #112]
	ldp	x22, x21, [sp, #96]
	ldp	x24, x23, [sp, #80]
	ldp	x29, x30, [sp, #64]
	add	sp, sp, #128
	.cfi_def_cfa_offset 0
	.cfi_restore w19
	.cfi_restore w20
	.cfi_restore w21
	.cfi_restore w22
	.cfi_restore w23
	.cfi_restore w24
	.cfi_restore w30
	.cfi_restore w29
	ret
.LBB157_13:
	.cfi_restore_state
	lsl	x23, x9, #4
	stp	x10, x3, [sp, #24]
	add	x9, x8, x23
	ldur	x11, [x9, #-16]
	ands	x11, x11, #0xffffffff8
	b.eq	.LBB157_17
	cmp	x11, x19
	mov	x20, xzr
	b.eq	.LBB157_27
	ldur	x9, [x9, #-8]
	and	x10, x9, #0xffffffff8
	mov	x9, x20
	cbz	x10, .LBB157_18
	add	x9, x8, x11, lsl #1
	add	x12, x8, x10, lsl #1
	mov	w13, #1
	mov	x20, x11
	stur	xzr, [x9, #-8]
	mov	x9, x10
	stur	x13, [x12, #-16]
	cbnz	x11, .LBB157_19
	b	.LBB157_28
.LBB157_17:
	mov	x20, xzr
	mov	x9, xzr
.LBB157_18:
	cbz	x20, .LBB157_28
.LBB157_19:
	lsl	x9, x20, #1
	add	x10, x8, x9
	ldur	x11, [x10, #-16]
	ands	x21, x11, #0xffffffff8
	mov	w11, #1
	stur	x11, [x10, #-16]
	b.eq	.LBB157_23
	mov	x22, xzr
.LBB157_21:
	sub	x0, x29, #24
	add	x1, sp, #8
	add	x2, sp, #24
	mov	x3, x21
	mov	x4, x22
	bl	ic_list_algorithms.sort.sort_front.e8da022ef74ca9e6
	ldur	x3, [x29, #-24]
	ldurb	w24, [x29, #-16]
	add	x0, sp, #8
	ldur	x21, [x29, #-8]
	add	x1, sp, #24
	mov	x2, x20
	bl	ic_list_algorithms.merge.merge_runs.e8da022ef74ca9e6
	mov	x20, x0
	cmp	w24, #1
	add	x22, x22, #1
	b.eq	.LBB157_21
	lsl	x9, x20, #1
	ldr	x8, [sp, #8]
.LBB157_23:
	add	x8, x8, x9
	stur	xzr, [x8, #-8]
	ldr	x8, [sp, #8]
	add	x9, x8, x9
	ldur	x9, [x9, #-16]
	ands	x10, x9, #0xffffffff8
	b.eq	.LBB157_26
	mov	x9, x20
.LBB157_25:
	mov	x11, x9
	mov	x9, x10
	lsl	x10, x10, #1
	add	x8, x8, x10
	stur	x11, [x8, #-8]
	ldr	x8, [sp, #8]
	add	x10, x8, x10
	ldur	x10, [x10, #-16]
	ands	x10, x10, #0xffffffff8
	b.ne	.LBB157_25
	b	.LBB157_29
.LBB157_26:
	mov	x9, x20
	b	.LBB157_29
.LBB157_27:
	mov	x9, x20
	cbnz	x20, .LBB157_19
.LBB157_28:
	mov	x20, x19
.LBB157_29:
	add	x8, x8, x20, lsl #1
	cmp	x9, #0
	orr	x10, x19, #0x1
	csel	x9, x19, x9, eq
	mov	w0, wzr
	stur	x19, [x8, #-8]
	ldr	x8, [sp, #8]
	add	x8, x8, x9, lsl #1
	stur	x10, [x8, #-16]
	orr	x10, x20, #0x1
	ldr	x8, [sp, #8]
	add	x8, x8, x23
	stur	x10, [x8, #-16]
	ldr	x8, [sp, #8]
	add	x8, x8, x23
	stur	x9, [x8, #-8]
	.cfi_def_cfa wsp, 128
	ldp	x20, x19, [sp, #112]
	ldp	x22, x21, [sp, #96]
	ldp	x24, x23, [sp, #80]
	ldp	x29, x30, [sp, #64]
	add	sp, sp, #128
	.cfi_def_cfa_offset 0
	.cfi_restore w19
	.cfi_restore w20
	.cfi_restore w21
	.cfi_restore w22
	.cfi_restore w23
	.cfi_restore w24
	.cfi_restore w30
	.cfi_restore w29
	ret
.Lfunc_end157:
	.size	ic_ring_sort, .Lfunc_end157-ic_ring_sort
	.cfi_endproc
	.section	.text.ic_ring_splice_after,"ax",@progbits
	.globl	ic_ring_splice_after
	.p2align	2
	.type	ic_ring_splice_after,@function
ic_ring_splice_after:
	.cfi_startproc
	hint	#34
	mov	w8, #4096
	cmp	x0, #0
	mov	w4, w3
	csel	x8, x8, xzr, eq
	mov	w3, w2
	mov	w2, wzr
	add	x0, x0, x8
	b	ic_raw.ring_calls.splice.354f48d5d890d6b4
.Lfunc_end158:
	.size	ic_ring_splice_after, .Lfunc_end158-ic_ring_splice_after
	.cfi_endproc
	.section	.text.ic_ring_splice_before,"ax",@progbits
	.globl	ic_ring_splice_before
	.p2align	2
	.type	ic_ring_splice_before,@function
ic_ring_splice_before:
	.cfi_startproc
	hint	#34
	mov	w8, #4096
	cmp	x0, #0
	mov	w4, w3
	csel	x8, x8, xzr, eq
	mov	w3, w2
	mov	w2, #1
	add	x0, x0, x8
	b	ic_raw.ring_calls.splice.354f48d5d890d6b4
.Lfunc_end159:
	.size	ic_ring_splice_before, .Lfunc_end159-ic_ring_splice_before
	.cfi_endproc
	.section	.text.ic_stack_check,"ax",@progbits
	.globl	ic_stack_check
	.p2align	2
	.type	ic_stack_check,@function
ic_stack_check:
	.cfi_startproc
	hint	#34
	ldr	x8, [x2]
	cmp	x0, #0
	mov	w9, #4096
	csel	x9, x9, xzr, eq
	ands	x10, x8, #0xffffffff8
	b.eq	.LBB160_6
	mov	x8, xzr
	add	x9, x0, x9
.LBB160_2:
	cmp	x1, x8
	mov	w0, #5
	b.eq	.LBB160_8
	lsr	x11, x10, #3
	cmp	x11, x1
	b.hi	.LBB160_8
	add	x10, x9, x10
	ldur	x10, [x10, #-8]
	tbz	w10, #0, .LBB160_8
	ands	x10, x10, #0xffffffff8
	add	x8, x8, #1
	b.ne	.LBB160_2
	b	.LBB160_7
.LBB160_6:
	mov	x8, xzr
.LBB160_7:
	mov	w0, wzr
	str	x8, [x3]
.LBB160_8:
	ret
.Lfunc_end160:
	.size	ic_stack_check, .Lfunc_end160-ic_stack_check
	.cfi_endproc
	.section	.text.ic_stack_clear,"ax",@progbits
	.globl	ic_stack_clear
	.p2align	2
	.type	ic_stack_clear,@function
ic_stack_clear:
	.cfi_startproc
	hint	#34
	ldr	x10, [x2]
	mov	w8, #4096
	cmp	x0, #0
	csel	x9, x8, xzr, eq
	ands	x8, x10, #0xffffffff8
	b.eq	.LBB161_8
	add	x9, x0, x9
	mov	x10, x1
	mov	x11, x8
	cbz	x1, .LBB161_6
.LBB161_2:
	cmp	x1, x11, lsr #3
	b.lo	.LBB161_6
	add	x11, x9, x11
	ldur	x11, [x11, #-8]
	tbz	w11, #0, .LBB161_6
	ands	x11, x11, #0xffffffff8
	b.eq	.LBB161_7
	subs	x10, x10, #1
	b.ne	.LBB161_2
.LBB161_6:
	mov	w0, #5
	ret
.LBB161_7:
	add	x10, x9, x8
	ldur	x8, [x10, #-8]
	stur	xzr, [x10, #-8]
	ands	x8, x8, #0xffffffff8
	b.ne	.LBB161_7
.LBB161_8:
	mov	w0, wzr
	str	xzr, [x2]
	ret
.Lfunc_end161:
	.size	ic_stack_clear, .Lfunc_end161-ic_stack_clear
	.cfi_endproc
	.section	.text.ic_stack_fill,"ax",@progbits
	.globl	ic_stack_fill
	.p2align	2
	.type	ic_stack_fill,@function
ic_stack_fill:
	.cfi_startproc
	hint	#34
	mov	w8, #4096
	cmp	x0, #0
	csel	x8, x8, xzr, eq
	cbz	w4, .LBB162_5
	ldr	x9, [x2]
	add	x8, x0, x8
	ands	x10, x9, #0xffffffff8
	b.eq	.LBB162_6
	cmp	x1, x10, lsr #3
	b.lo	.LBB162_4
	add	x9, x8, x10
	ldurb	w9, [x9, #-8]
	tbnz	w9, #0, .LBB162_6
.LBB162_4:
	mov	w11, wzr
	mov	w9, #1
	b	.LBB162_7
.LBB162_5:
	mov	w0, wzr
	ret
.LBB162_6:
	orr	x9, x10, #0x1
	mov	w11, #1
.LBB162_7:
	mov	w12, w3
	mov	w13, w4
	add	x12, x12, #1
.LBB162_8:
	mov	w14, w12
	sub	x15, x14, #1
	cmp	x15, x1
	b.hs	.LBB162_23
	add	x14, x8, x14, lsl #3
	ldur	w14, [x14, #-8]
	lsl	w14, w14, #1
	tbnz	w14, #1, .LBB162_24
	subs	w13, w13, #1
	add	x12, x12, #1
	b.ne	.LBB162_8
	cbz	w11, .LBB162_25
	adds	w11, w3, #1
	b.hs	.LBB162_22
	cmp	x1, x11
	b.lo	.LBB162_22
	ubfiz	x11, x11, #3, #32
	add	x12, x8, x11
	ldurb	w13, [x12, #-8]
	tbnz	w13, #0, .LBB162_22
	subs	w10, w4, #1
	stur	x9, [x12, #-8]
	b.eq	.LBB162_21
	add	w12, w3, #2
	mov	x13, x11
.LBB162_17:
	cbz	w12, .LBB162_21
	mov	w14, w12
	cmp	x1, x14
	b.lo	.LBB162_21
	ubfiz	x14, x12, #3, #32
	add	x15, x8, x14
	ldurb	w16, [x15, #-8]
	tbnz	w16, #0, .LBB162_21
	add	x13, x8, x13
	orr	x16, x14, #0x1
	subs	w10, w10, #1
	stur	x16, [x13, #-8]
	add	w12, w12, #1
	mov	x13, x14
	stur	x9, [x15, #-8]
	b.ne	.LBB162_17
.LBB162_21:
	mov	x10, x11
.LBB162_22:
	mov	w0, wzr
	str	x10, [x2]
	ret
.LBB162_23:
	mov	w0, #1
	ret
.LBB162_24:
	and	w0, w14, #0x2
	ret
.LBB162_25:
	mov	w0, #5
	ret
.Lfunc_end162:
	.size	ic_stack_fill, .Lfunc_end162-ic_stack_fill
	.cfi_endproc
	.section	.text.ic_stack_insert_after,"ax",@progbits
	.globl	ic_stack_insert_after
	.p2align	2
	.type	ic_stack_insert_after,@function
ic_stack_insert_after:
	.cfi_startproc
	hint	#34
	sub	sp, sp, #32
	.cfi_def_cfa_offset 32
	stp	x29, x30, [sp, #16]
	add	x29, sp, #16
	.cfi_def_cfa w29, 16
	.cfi_offset w30, -8
	.cfi_offset w29, -16
	.cfi_remember_state
	mov	w8, #4096
	cmp	x0, #0
	ldr	x11, [x2]
	csel	x8, x8, xzr, eq
	adds	w10, w3, #1
	add	x9, x0, x8
	and	x8, x11, #0xffffffff8
	ubfiz	x11, x10, #3, #32
	mov	x12, x8
	stp	x9, x1, [sp]
	b.hs	.LBB163_4
	cmp	x1, x10
	b.lo	.LBB163_15
	add	x12, x9, x11
	ldur	x12, [x12, #-8]
	tbz	w12, #0, .LBB163_15
	and	x12, x12, #0xffffffff8
.LBB163_4:
	add	w13, w4, #1
	cbz	x12, .LBB163_8
	cmp	x1, x12, lsr #3
	b.lo	.LBB163_15
	cbz	w13, .LBB163_15
	add	x14, x9, x12
	ldur	x14, [x14, #-8]
	tbnz	w14, #0, .LBB163_9
	b	.LBB163_15
.LBB163_8:
	cbz	w13, .LBB163_15
.LBB163_9:
	cmp	x1, x13
	b.lo	.LBB163_15
	ubfiz	x14, x13, #3, #32
	add	x13, x9, x14
	ldurb	w15, [x13, #-8]
	tbnz	w15, #0, .LBB163_15
	cbz	w10, .LBB163_13
	add	x9, x9, x11
	orr	x10, x14, #0x1
	stur	x10, [x9, #-8]
	b	.LBB163_14
.LBB163_13:
	mov	x8, x14
.LBB163_14:
	mov	w0, wzr
	orr	x9, x12, #0x1
	stur	x9, [x13, #-8]
	str	x8, [x2]
	.cfi_def_cfa wsp, 32
	ldp	x29, x30, [sp, #16]
	add	sp, sp, #32
	.cfi_def_cfa_offset 0
	.cfi_restore w30
	.cfi_restore w29
	ret
.LBB163_15:
	.cfi_restore_state
	mov	x0, sp
	mov	w1, w3
	mov	w2, w4
	bl	ic_raw.table.RawTable.refusal.feecb86c9dd45d96
	.cfi_def_cfa wsp, 32
	ldp	x29, x30, [sp, #16]
	add	sp, sp, #32
	.cfi_def_cfa_offset 0
	.cfi_restore w30
	.cfi_restore w29
	ret
.Lfunc_end163:
	.size	ic_stack_insert_after, .Lfunc_end163-ic_stack_insert_after
	.cfi_endproc
	.section	.text.ic_stack_merge,"ax",@progbits
	.globl	ic_stack_merge
	.p2align	2
	.type	ic_stack_merge,@function
ic_stack_merge:
	.cfi_startproc
	hint	#34
	sub	sp, sp, #64
	.cfi_def_cfa_offset 64
	stp	x29, x30, [sp, #32]
	stp	x20, x19, [sp, #48]
	add	x29, sp, #32
	.cfi_def_cfa w29, 32
	.cfi_offset w19, -8
	.cfi_offset w20, -16
	.cfi_offset w30, -24
	.cfi_offset w29, -32
	.cfi_remember_state
	cmp	x0, #0
	mov	w8, #4096
	csel	x9, x8, xzr, eq
	cmp	x2, #0
	csel	x8, x8, xzr, eq
	add	x9, x0, x9
	cmp	x3, x1
	add	x8, x2, x8
	stp	x9, x1, [sp]
	stp	x8, x3, [sp, #16]
	b.lo	.LBB164_21
	ldr	x8, [x4]
	and	x2, x8, #0xffffffff8
	ldr	x8, [x5]
	cbz	x2, .LBB164_7
	mov	x11, x1
	mov	x10, x2
	cbz	x1, .LBB164_21
.LBB164_3:
	cmp	x1, x10, lsr #3
	b.lo	.LBB164_21
	add	x12, x9, x10
	ldur	x12, [x12, #-8]
	tbz	w12, #0, .LBB164_21
	ands	x12, x12, #0xffffffff8
	b.eq	.LBB164_8
	subs	x11, x11, #1
	mov	x10, x12
	b.ne	.LBB164_3
	b	.LBB164_21
.LBB164_7:
	mov	x10, xzr
.LBB164_8:
	and	x8, x8, #0xffffffff8
	cbz	x8, .LBB164_14
	mov	x12, x1
	mov	x11, x8
	cbz	x1, .LBB164_21
.LBB164_10:
	cmp	x1, x11, lsr #3
	b.lo	.LBB164_21
	add	x13, x9, x11
	ldur	x13, [x13, #-8]
	tbz	w13, #0, .LBB164_21
	ands	x13, x13, #0xffffffff8
	b.eq	.LBB164_15
	subs	x12, x12, #1
	mov	x11, x13
	b.ne	.LBB164_10
	b	.LBB164_21
.LBB164_14:
	mov	x11, xzr
.LBB164_15:
	cbz	x2, .LBB164_17
	cmp	x11, x10
	b.eq	.LBB164_21
.LBB164_17:
	cmp	x2, #0
	csel	x0, x8, x2, eq
	cbz	x2, .LBB164_20
	cbz	x8, .LBB164_20
	mov	x0, sp
	add	x1, sp, #16
	mov	x3, x8
	mov	x19, x5
	mov	x20, x4
	bl	ic_list_algorithms.merge.merge_runs.07d679d1abf7571e
	mov	x4, x20
	mov	x5, x19
.LBB164_20:
	str	x0, [x4]
	mov	w0, wzr
	str	xzr, [x5]
	.cfi_def_cfa wsp, 64
	ldp	x20, x19, [sp, #48]
	ldp	x29, x30, [sp, #32]
	add	sp, sp, #64
	.cfi_def_cfa_offset 0
	.cfi_restore w19
	.cfi_restore w20
	.cfi_restore w30
	.cfi_restore w29
	ret
.LBB164_21:
	.cfi_restore_state
	mov	x0, x1
	mov	x1, x3
	.cfi_def_cfa wsp, 64
	ldp	x20, x19, [sp, #48]
	ldp	x29, x30, [sp, #32]
	add	sp, sp, #64
	.cfi_def_cfa_offset 0
	.cfi_restore w19
	.cfi_restore w20
	.cfi_restore w30
	.cfi_restore w29
	b	ic_raw.sort_calls.refusal.1b4d7615ba81168a
.Lfunc_end164:
	.size	ic_stack_merge, .Lfunc_end164-ic_stack_merge
	.cfi_endproc
	.section	.text.ic_stack_pop_front,"ax",@progbits
	.globl	ic_stack_pop_front
	.p2align	2
	.type	ic_stack_pop_front,@function
ic_stack_pop_front:
	.cfi_startproc
	hint	#34
	ldr	x8, [x2]
	cmp	x0, #0
	mov	w9, #4096
	csel	x9, x9, xzr, eq
	ands	x8, x8, #0xffffffff8
	add	x0, x0, x9
	b.eq	.LBB165_4
	cmp	x1, x8, lsr #3
	b.lo	.LBB165_4
	add	x9, x0, x8
	ldur	x10, [x9, #-8]
	tbz	w10, #0, .LBB165_4
	mov	w11, #-1
	and	x10, x10, #0xffffffff8
	mov	w0, wzr
	add	x8, x11, x8, lsr #3
	stur	xzr, [x9, #-8]
	str	x10, [x2]
	str	w8, [x3]
	ret
.LBB165_4:
	b	ic_raw.stack_calls.pop_front_slow
.Lfunc_end165:
	.size	ic_stack_pop_front, .Lfunc_end165-ic_stack_pop_front
	.cfi_endproc
	.section	.text.ic_stack_push_front,"ax",@progbits
	.globl	ic_stack_push_front
	.p2align	2
	.type	ic_stack_push_front,@function
ic_stack_push_front:
	.cfi_startproc
	hint	#34
	ldr	x8, [x2]
	cmp	x0, #0
	mov	w9, #4096
	csel	x9, x9, xzr, eq
	ands	x8, x8, #0xffffffff8
	add	x0, x0, x9
	add	w9, w3, #1
	b.eq	.LBB166_4
	cmp	x1, x8, lsr #3
	b.lo	.LBB166_8
	cbz	w9, .LBB166_8
	add	x10, x0, x8
	ldur	x10, [x10, #-8]
	tbnz	w10, #0, .LBB166_5
	b	.LBB166_8
.LBB166_4:
	cbz	w9, .LBB166_8
.LBB166_5:
	cmp	x1, x9
	b.lo	.LBB166_8
	ubfiz	x9, x9, #3, #32
	add	x10, x0, x9
	ldurb	w11, [x10, #-8]
	tbnz	w11, #0, .LBB166_8
	orr	x8, x8, #0x1
	mov	w0, wzr
	stur	x8, [x10, #-8]
	str	x9, [x2]
	ret
.LBB166_8:
	mov	w2, w3
	b	ic_raw.table.refusal_at_end.feecb86c9dd45d96
.Lfunc_end166:
	.size	ic_stack_push_front, .Lfunc_end166-ic_stack_push_front
	.cfi_endproc
	.section	.text.ic_stack_remove_after,"ax",@progbits
	.globl	ic_stack_remove_after
	.p2align	2
	.type	ic_stack_remove_after,@function
ic_stack_remove_after:
	.cfi_startproc
	hint	#34
	mov	w8, #4096
	cmp	x0, #0
	ldr	x9, [x2]
	csel	x12, x8, xzr, eq
	adds	w10, w3, #1
	and	x8, x9, #0xffffffff8
	ubfiz	x11, x10, #3, #32
	add	x0, x0, x12
	mov	x9, x8
	b.hs	.LBB167_4
	cmp	x1, x10
	b.lo	.LBB167_12
	add	x9, x0, x11
	ldur	x9, [x9, #-8]
	tbz	w9, #0, .LBB167_12
	and	x9, x9, #0xffffffff8
.LBB167_4:
	cbz	x9, .LBB167_9
	cmp	x1, x9, lsr #3
	b.lo	.LBB167_12
	add	x12, x0, x9
	ldur	x13, [x12, #-8]
	tbz	w13, #0, .LBB167_12
	and	x13, x13, #0xffffffff8
	cbz	w10, .LBB167_10
	add	x10, x0, x11
	orr	x11, x13, #0x1
	stur	x11, [x10, #-8]
	b	.LBB167_11
.LBB167_9:
	mov	w0, #4
	ret
.LBB167_10:
	mov	x8, x13
.LBB167_11:
	mov	w10, #-1
	mov	w0, wzr
	stur	xzr, [x12, #-8]
	add	x9, x10, x9, lsr #3
	str	x8, [x2]
	str	w9, [x4]
	ret
.LBB167_12:
	mov	w2, w3
	b	ic_raw.table.RawTable.refusal_at.feecb86c9dd45d96
.Lfunc_end167:
	.size	ic_stack_remove_after, .Lfunc_end167-ic_stack_remove_after
	.cfi_endproc
	.section	.text.ic_stack_replace_after,"ax",@progbits
	.globl	ic_stack_replace_after
	.p2align	2
	.type	ic_stack_replace_after,@function
ic_stack_replace_after:
	.cfi_startproc
	hint	#34
	sub	sp, sp, #32
	.cfi_def_cfa_offset 32
	stp	x29, x30, [sp, #16]
	add	x29, sp, #16
	.cfi_def_cfa w29, 16
	.cfi_offset w30, -8
	.cfi_offset w29, -16
	.cfi_remember_state
	cmp	x0, #0
	mov	w8, #4096
	ldr	x9, [x2]
	csel	x8, x8, xzr, eq
	adds	w11, w3, #1
	add	x10, x0, x8
	and	x8, x9, #0xffffffff8
	ubfiz	x12, x11, #3, #32
	mov	x9, x8
	stp	x10, x1, [sp]
	b.hs	.LBB168_4
	cmp	x1, x11
	b.lo	.LBB168_13
	add	x9, x10, x12
	ldur	x9, [x9, #-8]
	tbz	w9, #0, .LBB168_13
	and	x9, x9, #0xffffffff8
.LBB168_4:
	cbz	x9, .LBB168_12
	cmp	x1, x9, lsr #3
	b.lo	.LBB168_13
	add	x13, x10, x9
	ldur	x14, [x13, #-8]
	tbz	w14, #0, .LBB168_13
	adds	w15, w4, #1
	b.hs	.LBB168_13
	cmp	x1, x15
	b.lo	.LBB168_13
	ubfiz	x16, x15, #3, #32
	add	x15, x10, x16
	ldurb	w17, [x15, #-8]
	tbnz	w17, #0, .LBB168_13
	cbz	w11, .LBB168_14
	add	x10, x10, x12
	orr	x11, x16, #0x1
	stur	x11, [x10, #-8]
	b	.LBB168_15
.LBB168_12:
	mov	w0, #4
	.cfi_def_cfa wsp, 32
	ldp	x29, x30, [sp, #16]
	add	sp, sp, #32
	.cfi_def_cfa_offset 0
	.cfi_restore w30
	.cfi_restore w29
	ret
.LBB168_13:
	.cfi_restore_state
	.cfi_remember_state
	mov	x0, sp
	mov	w1, w3
	mov	w2, w4
	bl	ic_raw.table.RawTable.refusal.feecb86c9dd45d96
	.cfi_def_cfa wsp, 32
	ldp	x29, x30, [sp, #16]
	add	sp, sp, #32
	.cfi_def_cfa_offset 0
	.cfi_restore w30
	.cfi_restore w29
	ret
.LBB168_14:
	.cfi_restore_state
	mov	x8, x16
.LBB168_15:
	mov	w11, #-1
	and	x10, x14, #0xfffffffff
	mov	w0, wzr
	add	x9, x11, x9, lsr #3
	and	x10, x10, #0xfffffffffffffff9
	stur	x10, [x15, #-8]
	stur	xzr, [x13, #-8]
	str	x8, [x2]
	str	w9, [x5]
	.cfi_def_cfa wsp, 32
	ldp	x29, x30, [sp, #16]
	add	sp, sp, #32
	.cfi_def_cfa_offset 0
	.cfi_restore w30
	.cfi_restore w29
	ret
.Lfunc_end168:
	.size	ic_stack_replace_after, .Lfunc_end168-ic_stack_replace_after
	.cfi_endproc
	.section	.text.ic_stack_sort,"ax",@progbits
	.globl	ic_stack_sort
	.p2align	2
	.type	ic_stack_sort,@function
ic_stack_sort:
	.cfi_startproc
	hint	#34
	sub	sp, sp, #128
	.cfi_def_cfa_offset 128
	stp	x29, x30, [sp, #64]
	str	x23, [sp, #80]
	stp	x22, x21, [sp, #96]
	stp	x20, x19, [sp, #112]
	add	x29, sp, #64
	.cfi_def_cfa w29, 64
	.cfi_offset w19, -8
	.cfi_offset w20, -16
	.cfi_offset w21, -24
	.cfi_offset w22, -32
	.cfi_offset w23, -48
	.cfi_offset w30, -56
	.cfi_offset w29, -64
	.cfi_remember_state
	mov	w8, #4096
	cmp	x0, #0
	csel	x9, x8, xzr, eq
	cmp	x2, #0
	csel	x8, x8, xzr, eq
	cmp	x3, x1
	add	x8, x2, x8
	stp	x8, x3, [sp, #24]
	add	x8, x0, x9
	stp	x8, x1, [sp, #8]
	b.lo	.LBB169_7
	ldr	x9, [x4]
	mov	x19, x4
	and	x20, x9, #0xffffffff8
	cbz	x20, .LBB169_11
	mov	x9, x1
	mov	x10, x20
	cbz	x1, .LBB169_7
.LBB169_3:
	cmp	x1, x10, lsr #3
	b.lo	.LBB169_7
	add	x10, x8, x10
	ldur	x10, [x10, #-8]
	tbz	w10, #0, .LBB169_7
	ands	x10, x10, #0xffffffff8
	b.eq	.LBB169_8
	subs	x9, x9, #1
	b.ne	.LBB169_3
.LBB169_7:
	mov	x0, x1
	mov	x1, x3
	.cfi_def_cfa wsp, 128
	ldp	x20, x19, [sp, #112]
	ldr	x23, [sp, #80]
	ldp	x22, x21, [sp, #96]
	ldp	x29, x30, [sp, #64]
	add	sp, sp, #128
	.cfi_def_cfa_offset 0
	.cfi_restore w19
	.cfi_restore w20
	.cfi_restore w21
	.cfi_restore w22
	.cfi_restore w23
	.cfi_restore w30
	.cfi_restore w29
	b	ic_raw.sort_calls.refusal.1b4d7615ba81168a
.LBB169_8:
	.cfi_restore_state
	add	x8, x8, x20
	ldur	x9, [x8, #-8]
	ands	x21, x9, #0xffffffff8
	mov	w9, #1
	stur	x9, [x8, #-8]
	b.eq	.LBB169_11
	mov	x22, xzr
.LBB169_10:
	sub	x0, x29, #24
	add	x1, sp, #8
	add	x2, sp, #24
	mov	x3, x21
	mov	x4, x22
	bl	ic_list_algorithms.sort.sort_front.07d679d1abf7571e
	ldur	x3, [x29, #-24]
	ldurb	w23, [x29, #-16]
	add	x0, sp, #8
	ldur	x21, [x29, #-8]
	add	x1, sp, #24
	mov	x2, x20
	bl	ic_list_algorithms.merge.merge_runs.07d679d1abf7571e
	mov	x20, x0
	cmp	w23, #1
	add	x22, x22, #1
	b.eq	.LBB169_10
.LBB169_11:
	mov	w0, wzr
	str	x20, [x19]
	.cfi_def_cfa wsp, 128
	ldp	x20, x19, [sp, #112]
	ldr	x23, [sp, #80]
	ldp	x22, x21, [sp, #96]
	ldp	x29, x30, [sp, #64]
	add	sp, sp, #128
	.cfi_def_cfa_offset 0
	.cfi_restore w19
	.cfi_restore w20
	.cfi_restore w21
	.cfi_restore w22
	.cfi_restore w23
	.cfi_restore w30
	.cfi_restore w29
	ret
.Lfunc_end169:
	.size	ic_stack_sort, .Lfunc_end169-ic_stack_sort
	.cfi_endproc
	.section	.text.ic_stack_splice_after,"ax",@progbits
	.globl	ic_stack_splice_after
	.p2align	2
	.type	ic_stack_splice_after,@function
ic_stack_splice_after:
	.cfi_startproc
	hint	#34
	ldr	x8, [x2]
	ldr	x9, [x4]
	cmp	x0, #0
	mov	w10, #4096
	and	x8, x8, #0xffffffff8
	and	x9, x9, #0xffffffff8
	csel	x10, x10, xzr, eq
	cmp	x8, x9
	add	x0, x0, x10
	b.ne	.LBB170_2
	cbnz	x9, .LBB170_18
.LBB170_2:
	add	w10, w3, #1
	mov	x12, x8
	ubfiz	x11, x10, #3, #32
	cbz	w10, .LBB170_6
	cmp	x1, x10
	b.lo	.LBB170_18
	add	x12, x0, x11
	ldur	x12, [x12, #-8]
	tbz	w12, #0, .LBB170_18
	and	x12, x12, #0xffffffff8
.LBB170_6:
	cbz	x12, .LBB170_12
	cmp	x1, x12, lsr #3
	b.lo	.LBB170_18
	add	x13, x0, x12
	ldur	x13, [x13, #-8]
	cbz	x9, .LBB170_10
	tbnz	w13, #0, .LBB170_13
.LBB170_10:
	tbz	w13, #0, .LBB170_18
.LBB170_11:
	mov	w0, wzr
	str	x8, [x2]
	str	xzr, [x4]
	ret
.LBB170_12:
	cbz	x9, .LBB170_11
.LBB170_13:
	mov	x13, x1
	mov	x15, x9
	cbz	x1, .LBB170_18
.LBB170_14:
	cmp	x1, x15, lsr #3
	b.lo	.LBB170_18
	add	x14, x0, x15
	ldur	x15, [x14, #-8]
	tbz	w15, #0, .LBB170_18
	ands	x15, x15, #0xffffffff8
	b.eq	.LBB170_19
	subs	x13, x13, #1
	b.ne	.LBB170_14
.LBB170_18:
	mov	w2, w3
	b	ic_raw.table.RawTable.refusal_at.feecb86c9dd45d96
.LBB170_19:
	cbz	w10, .LBB170_21
	add	x10, x0, x11
	orr	x9, x9, #0x1
	stur	x9, [x10, #-8]
	mov	x9, x8
.LBB170_21:
	orr	x8, x12, #0x1
	stur	x8, [x14, #-8]
	mov	w0, wzr
	str	x9, [x2]
	str	xzr, [x4]
	ret
.Lfunc_end170:
	.size	ic_stack_splice_after, .Lfunc_end170-ic_stack_splice_after
	.cfi_endproc
	.section	.text.ic_stack_split_after,"ax",@progbits
	.globl	ic_stack_split_after
	.p2align	2
	.type	ic_stack_split_after,@function
ic_stack_split_after:
	.cfi_startproc
	hint	#34
	ldr	x8, [x4]
	cmp	x0, #0
	mov	w9, #4096
	csel	x9, x9, xzr, eq
	tst	x8, #0xffffffff8
	add	x0, x0, x9
	b.ne	.LBB171_11
	ldr	x8, [x2]
	adds	w10, w3, #1
	ubfiz	x11, x10, #3, #32
	and	x8, x8, #0xffffffff8
	mov	x9, x8
	b.hs	.LBB171_5
	cmp	x1, x10
	b.lo	.LBB171_11
	add	x9, x0, x11
	ldur	x9, [x9, #-8]
	tbz	w9, #0, .LBB171_11
	and	x9, x9, #0xffffffff8
.LBB171_5:
	cbz	x9, .LBB171_8
	cmp	x1, x9, lsr #3
	b.lo	.LBB171_11
	add	x12, x0, x9
	ldurb	w12, [x12, #-8]
	tbz	w12, #0, .LBB171_11
.LBB171_8:
	cbz	w10, .LBB171_10
	add	x10, x0, x11
	mov	w11, #1
	stur	x11, [x10, #-8]
	mov	w0, wzr
	str	x8, [x2]
	str	x9, [x4]
	ret
.LBB171_10:
	mov	w0, wzr
	str	xzr, [x2]
	str	x9, [x4]
	ret
.LBB171_11:
	mov	w2, w3
	b	ic_raw.table.RawTable.refusal_at.feecb86c9dd45d96
.Lfunc_end171:
	.size	ic_stack_split_after, .Lfunc_end171-ic_stack_split_after
	.cfi_endproc
	.section	.text.ic_tree_append,"ax",@progbits
	.globl	ic_tree_append
	.p2align	2
	.type	ic_tree_append,@function
ic_tree_append:
	.cfi_startproc
	hint	#34
	sub	sp, sp, #112
	.cfi_def_cfa_offset 112
	stp	x29, x30, [sp, #48]
	str	x23, [sp, #64]
	stp	x22, x21, [sp, #80]
	stp	x20, x19, [sp, #96]
	add	x29, sp, #48
	.cfi_def_cfa w29, 64
	.cfi_offset w19, -8
	.cfi_offset w20, -16
	.cfi_offset w21, -24
	.cfi_offset w22, -32
	.cfi_offset w23, -48
	.cfi_offset w30, -56
	.cfi_offset w29, -64
	.cfi_remember_state
	mov	w8, #4096
	cmp	x0, #0
	ldr	x9, [x3]
	ldr	x10, [x2]
	csel	x8, x8, xzr, eq
	mov	x19, x3
	mov	x20, x2
	add	x8, x0, x8
	ands	x23, x9, #0xffffffff8
	and	x21, x10, #0xffffffff8
	stp	x8, x1, [sp, #8]
	b.eq	.LBB172_4
	cmp	x21, x23
	b.ne	.LBB172_4
	mov	w0, #5
.LBB172_3:
	.cfi_def_cfa wsp, 112
	ldp	x20, x19, [sp, #96]
	ldr	x23, [sp, #64]
	ldp	x22, x21, [sp, #80]
	ldp	x29, x30, [sp, #48]
	add	sp, sp, #112
	.cfi_def_cfa_offset 0
	.cfi_restore w19
	.cfi_restore w20
	.cfi_restore w21
	.cfi_restore w22
	.cfi_restore w23
	.cfi_restore w30
	.cfi_restore w29
	ret
.LBB172_4:
	.cfi_restore_state
	.cfi_remember_state
	cmp	x21, #0
	add	x0, sp, #24
	add	x1, sp, #8
	cset	w22, ne
	mov	x3, x21
	mov	w4, wzr
	mov	w2, w22
	mov	x5, xzr
	mov	w6, #66
	bl	ic_check.tree.check_below.ffc36cde30076884
	ldrb	w8, [sp, #24]
	mov	w0, #5
	cmp	w8, #1
	b.ne	.LBB172_3
	ldrb	w8, [sp, #44]
	cmp	w8, #1
	b.ne	.LBB172_3
	cmp	x23, #0
	add	x0, sp, #24
	add	x1, sp, #8
	cset	w2, ne
	mov	x3, x23
	mov	w4, wzr
	mov	x5, xzr
	mov	w6, #66
	bl	ic_check.tree.check_below.ffc36cde30076884
	ldrb	w8, [sp, #24]
	mov	w0, #5
	cmp	w8, #1
	b.ne	.LBB172_3
	ldrb	w8, [sp, #44]
	cmp	w8, #1
	b.ne	.LBB172_3
	cbz	x23, .LBB172_117
	ldr	x12, [sp, #8]
	mov	w9, #67
	mov	x10, x23
	sub	x8, x12, #24
.LBB172_10:
	lsr	x11, x10, #2
	add	x11, x11, x10, lsr #3
	lsl	x14, x11, #3
	ldr	x11, [x8, x14]
	ands	x3, x11, #0xffffffff8
	b.eq	.LBB172_13
	subs	w9, w9, #1
	mov	x10, x3
	b.ne	.LBB172_10
	lsr	x9, x3, #2
	add	x9, x9, x3, lsr #3
	lsl	x14, x9, #3
	add	x9, x12, x14
	ldp	x10, x11, [x9, #-24]
	ands	x10, x10, #0xffffffff8
	and	x13, x11, #0xffffffff8
	b.ne	.LBB172_14
	b	.LBB172_20
.LBB172_13:
	mov	x3, x10
	add	x9, x12, x14
	ldp	x10, x11, [x9, #-24]
	ands	x10, x10, #0xffffffff8
	and	x13, x11, #0xffffffff8
	b.eq	.LBB172_20
.LBB172_14:
	cbz	x13, .LBB172_19
	mov	w9, #67
.LBB172_16:
	lsr	x10, x13, #2
	add	x10, x10, x13, lsr #3
	lsl	x11, x10, #3
	ldr	x10, [x8, x11]
	ands	x10, x10, #0xffffffff8
	b.eq	.LBB172_24
	subs	w9, w9, #1
	mov	x13, x10
	b.ne	.LBB172_16
	lsr	x8, x10, #2
	add	x8, x8, x10, lsr #3
	lsl	x11, x8, #3
	b	.LBB172_25
.LBB172_19:
	mov	x13, x10
.LBB172_20:
	ldur	x10, [x9, #-8]
	ands	x8, x10, #0xffffffff8
	cset	w9, ne
	cbz	x8, .LBB172_23
	lsr	x11, x8, #3
	mov	w14, #24
	madd	x11, x11, x14, x12
	ldur	x14, [x11, #-24]
	and	x12, x14, #0xffffffff8
	cmp	x12, x3
	b.ne	.LBB172_30
	and	x14, x14, #0x1
	mov	w12, wzr
	orr	x14, x14, x13
	stur	x14, [x11, #-24]
	b	.LBB172_31
.LBB172_23:
	mov	w12, wzr
	mov	x23, x13
	b	.LBB172_31
.LBB172_24:
	mov	x10, x13
.LBB172_25:
	add	x8, x12, x11
	ldur	x9, [x8, #-24]
	ands	x15, x9, #0xffffffff8
	b.ne	.LBB172_27
	ldur	x9, [x8, #-16]
	and	x15, x9, #0xffffffff8
.LBB172_27:
	ldur	x13, [x8, #-8]
	ands	x8, x13, #0xffffffff8
	cset	w9, ne
	cbz	x8, .LBB172_35
	lsr	x16, x8, #3
	mov	w17, #24
	madd	x16, x16, x17, x12
	ldur	x17, [x16, #-24]
	and	x12, x17, #0xffffffff8
	cmp	x12, x10
	b.ne	.LBB172_36
	and	x17, x17, #0x1
	mov	w12, wzr
	orr	x17, x17, x15
	stur	x17, [x16, #-24]
	b	.LBB172_37
.LBB172_30:
	mov	w12, #1
	stur	x13, [x11, #-16]
.LBB172_31:
	cbz	x13, .LBB172_34
	lsr	x9, x13, #2
	ldr	x10, [sp, #8]
	add	x9, x9, x13, lsr #3
	lsl	x9, x9, #3
	add	x10, x10, x9
	ldur	x11, [x10, #-8]
	and	x11, x11, #0x1
	orr	x8, x11, x8
	stur	x8, [x10, #-8]
.LBB172_33:
	ldr	x8, [sp, #8]
	add	x8, x8, x9
	ldur	x9, [x8, #-8]
	orr	x9, x9, #0x1
	stur	x9, [x8, #-8]
	b	.LBB172_116
.LBB172_34:
	mov	x0, x23
	mov	w13, w10
	b	.LBB172_51
.LBB172_35:
	mov	w12, wzr
	mov	x23, x15
	b	.LBB172_37
.LBB172_36:
	mov	w12, #1
	stur	x15, [x16, #-16]
.LBB172_37:
	cbz	x15, .LBB172_39
	lsr	x16, x15, #2
	mov	w13, wzr
	add	x15, x16, x15, lsr #3
	ldr	x16, [sp, #8]
	lsl	x15, x15, #3
	add	x16, x16, x15
	ldur	x17, [x16, #-8]
	and	x17, x17, #0x1
	orr	x17, x17, x8
	stur	x17, [x16, #-8]
	ldr	x16, [sp, #8]
	add	x15, x16, x15
	ldur	x16, [x15, #-8]
	orr	x16, x16, #0x1
	stur	x16, [x15, #-8]
.LBB172_39:
	cmp	x10, x3
	b.ne	.LBB172_41
	mov	x0, x23
	b	.LBB172_51
.LBB172_41:
	ldr	x1, [sp, #8]
	add	x15, x1, x14
	ldp	x0, x14, [x15, #-16]
	ldur	x16, [x15, #-24]
	and	x17, x16, #0xffffffff8
	ands	x15, x14, #0xffffffff8
	and	x16, x0, #0xffffffff8
	mov	x0, x10
	b.eq	.LBB172_46
	lsr	x0, x15, #3
	mov	w2, #24
	madd	x0, x0, x2, x1
	ldur	x1, [x0, #-24]
	and	x2, x1, #0xffffffff8
	cmp	x2, x3
	b.ne	.LBB172_44
	and	x1, x1, #0x1
	add	x1, x1, x10
	stur	x1, [x0, #-24]
	b	.LBB172_45
.LBB172_44:
	stur	x10, [x0, #-16]
.LBB172_45:
	mov	x0, x23
.LBB172_46:
	ldr	x1, [sp, #8]
	cbz	x17, .LBB172_48
	lsr	x2, x17, #3
	mov	w4, #24
	madd	x1, x2, x4, x1
	ldur	x2, [x1, #-8]
	and	x2, x2, #0x1
	add	x2, x2, x10
	stur	x2, [x1, #-8]
	ldr	x1, [sp, #8]
.LBB172_48:
	cbz	x16, .LBB172_50
	lsr	x2, x16, #3
	mov	w4, #24
	madd	x1, x2, x4, x1
	ldur	x2, [x1, #-8]
	and	x2, x2, #0x1
	add	x2, x2, x10
	stur	x2, [x1, #-8]
	ldr	x1, [sp, #8]
.LBB172_50:
	add	x1, x1, x11
	cmp	x8, x3
	ldur	x2, [x1, #-24]
	csel	x8, x10, x8, eq
	and	x2, x2, #0x1
	orr	x17, x2, x17
	stur	x17, [x1, #-24]
	ldr	x17, [sp, #8]
	add	x17, x17, x11
	stur	x16, [x17, #-16]
	ldr	x16, [sp, #8]
	add	x16, x16, x11
	ldur	x17, [x16, #-8]
	and	x17, x17, #0x1
	orr	x15, x17, x15
	stur	x15, [x16, #-8]
	ldr	x15, [sp, #8]
	add	x11, x15, x11
	ldur	x15, [x11, #-8]
	bfxil	x15, x14, #0, #1
	stur	x15, [x11, #-8]
.LBB172_51:
	tbz	w13, #0, .LBB172_115
	cbz	w9, .LBB172_115
	ldr	x11, [sp, #8]
	mov	w10, #67
	mov	x23, x0
.LBB172_54:
	lsr	x9, x8, #2
	add	x9, x9, x8, lsr #3
	lsl	x9, x9, #3
	add	x14, x11, x9
	tbz	w12, #0, .LBB172_62
	ldur	x15, [x14, #-24]
	ands	x12, x15, #0xffffffff8
	b.eq	.LBB172_116
	lsr	x13, x12, #2
	add	x13, x13, x12, lsr #3
	lsl	x13, x13, #3
	add	x16, x11, x13
	ldur	w17, [x16, #-8]
	tbnz	w17, #0, .LBB172_74
	ldur	x11, [x16, #-16]
	ands	x16, x11, #0xffffffff8
	ldur	x11, [x14, #-8]
	mov	x17, x16
	bfxil	x17, x15, #0, #1
	stur	x17, [x14, #-24]
	b.eq	.LBB172_59
	lsr	x14, x16, #3
	mov	w15, #24
	ldr	x16, [sp, #8]
	madd	x14, x14, x15, x16
	ldur	x15, [x14, #-8]
	and	x15, x15, #0x1
	orr	x15, x15, x8
	stur	x15, [x14, #-8]
.LBB172_59:
	ldr	x14, [sp, #8]
	and	x11, x11, #0xffffffff8
	add	x14, x14, x13
	ldur	x15, [x14, #-8]
	and	x15, x15, #0x1
	orr	x15, x15, x11
	stur	x15, [x14, #-8]
	ldr	x14, [sp, #8]
	add	x14, x14, x13
	ldur	x15, [x14, #-8]
	orr	x15, x15, #0x1
	stur	x15, [x14, #-8]
	cbz	x11, .LBB172_69
	lsr	x11, x11, #3
	mov	w14, #24
	ldr	x15, [sp, #8]
	madd	x11, x11, x14, x15
	ldur	x14, [x11, #-24]
	and	x15, x14, #0xffffffff8
	cmp	x15, x8
	b.ne	.LBB172_71
	and	x14, x14, #0x1
	orr	x14, x14, x12
	stur	x14, [x11, #-24]
	b	.LBB172_72
.LBB172_62:
	ldur	x12, [x14, #-16]
	ands	x12, x12, #0xffffffff8
	b.eq	.LBB172_116
	lsr	x13, x12, #2
	add	x13, x13, x12, lsr #3
	lsl	x13, x13, #3
	add	x15, x11, x13
	ldur	w16, [x15, #-8]
	tbnz	w16, #0, .LBB172_81
	ldur	x11, [x15, #-24]
	ands	x15, x11, #0xffffffff8
	ldur	x11, [x14, #-8]
	stur	x15, [x14, #-16]
	b.eq	.LBB172_66
	lsr	x14, x15, #3
	mov	w15, #24
	ldr	x16, [sp, #8]
	madd	x14, x14, x15, x16
	ldur	x15, [x14, #-8]
	and	x15, x15, #0x1
	orr	x15, x15, x8
	stur	x15, [x14, #-8]
.LBB172_66:
	ldr	x14, [sp, #8]
	and	x11, x11, #0xffffffff8
	add	x14, x14, x13
	ldur	x15, [x14, #-8]
	and	x15, x15, #0x1
	orr	x15, x15, x11
	stur	x15, [x14, #-8]
	ldr	x14, [sp, #8]
	add	x14, x14, x13
	ldur	x15, [x14, #-8]
	orr	x15, x15, #0x1
	stur	x15, [x14, #-8]
	cbz	x11, .LBB172_70
	lsr	x11, x11, #3
	mov	w14, #24
	ldr	x15, [sp, #8]
	madd	x11, x11, x14, x15
	ldur	x14, [x11, #-24]
	and	x15, x14, #0xffffffff8
	cmp	x15, x8
	b.ne	.LBB172_78
	and	x14, x14, #0x1
	orr	x14, x14, x12
	stur	x14, [x11, #-24]
	b	.LBB172_79
.LBB172_69:
	mov	x23, x12
	b	.LBB172_72
.LBB172_70:
	mov	x23, x12
	b	.LBB172_79
.LBB172_71:
	stur	x12, [x11, #-16]
.LBB172_72:
	ldr	x11, [sp, #8]
	add	x11, x11, x13
	stur	x8, [x11, #-16]
	ldr	x11, [sp, #8]
	add	x11, x11, x9
	ldur	x13, [x11, #-8]
	and	x13, x13, #0x1
	orr	x12, x13, x12
	stur	x12, [x11, #-8]
	ldr	x11, [sp, #8]
	add	x11, x11, x9
	ldur	x12, [x11, #-8]
	and	x12, x12, #0xfffffffffffffffe
	stur	x12, [x11, #-8]
	ldr	x11, [sp, #8]
	add	x12, x11, x9
	ldur	x12, [x12, #-24]
	ands	x12, x12, #0xffffffff8
	b.eq	.LBB172_116
	lsr	x13, x12, #2
	add	x13, x13, x12, lsr #3
	lsl	x13, x13, #3
.LBB172_74:
	add	x16, x11, x13
	ldur	x14, [x16, #-24]
	ands	x17, x14, #0xffffffff8
	b.eq	.LBB172_76
	lsr	x14, x17, #3
	mov	w15, #24
	madd	x14, x14, x15, x11
	ldur	x14, [x14, #-8]
	tbz	w14, #0, .LBB172_98
.LBB172_76:
	ldur	x14, [x16, #-16]
	ands	x14, x14, #0xffffffff8
	b.eq	.LBB172_85
	lsr	x15, x14, #2
	add	x15, x15, x14, lsr #3
	lsl	x15, x15, #3
	add	x0, x11, x15
	ldur	w0, [x0, #-8]
	tbnz	w0, #0, .LBB172_85
	b	.LBB172_96
.LBB172_78:
	stur	x12, [x11, #-16]
.LBB172_79:
	ldr	x11, [sp, #8]
	add	x11, x11, x13
	ldur	x13, [x11, #-24]
	and	x13, x13, #0x1
	orr	x13, x13, x8
	stur	x13, [x11, #-24]
	ldr	x11, [sp, #8]
	add	x11, x11, x9
	ldur	x13, [x11, #-8]
	and	x13, x13, #0x1
	orr	x12, x13, x12
	stur	x12, [x11, #-8]
	ldr	x11, [sp, #8]
	add	x11, x11, x9
	ldur	x12, [x11, #-8]
	and	x12, x12, #0xfffffffffffffffe
	stur	x12, [x11, #-8]
	ldr	x11, [sp, #8]
	add	x12, x11, x9
	ldur	x12, [x12, #-16]
	ands	x12, x12, #0xffffffff8
	b.eq	.LBB172_116
	lsr	x13, x12, #2
	add	x13, x13, x12, lsr #3
	lsl	x13, x13, #3
.LBB172_81:
	add	x16, x11, x13
	ldur	x1, [x16, #-24]
	ands	x14, x1, #0xffffffff8
	b.eq	.LBB172_83
	lsr	x15, x14, #2
	add	x15, x15, x14, lsr #3
	lsl	x15, x15, #3
	add	x2, x11, x15
	ldur	w17, [x2, #-8]
	tbz	w17, #0, .LBB172_89
.LBB172_83:
	ldur	x14, [x16, #-16]
	ands	x14, x14, #0xffffffff8
	b.eq	.LBB172_85
	lsr	x15, x14, #2
	add	x14, x15, x14, lsr #3
	lsl	x17, x14, #3
	add	x14, x11, x17
	ldur	x0, [x14, #-8]
	tbz	w0, #0, .LBB172_125
.LBB172_85:
	ldur	x11, [x16, #-8]
	and	x11, x11, #0xfffffffffffffffe
	stur	x11, [x16, #-8]
	ldr	x11, [sp, #8]
	add	x12, x11, x9
	ldur	x9, [x12, #-8]
	tbz	w9, #0, .LBB172_88
	ands	x9, x9, #0xffffffff8
	b.eq	.LBB172_116
	lsr	x12, x9, #3
	mov	w13, #24
	madd	x12, x12, x13, x11
	ldur	x12, [x12, #-24]
	and	x12, x12, #0xffffffff8
	cmp	x12, x8
	mov	x8, x9
	cset	w12, ne
	subs	w10, w10, #1
	b.ne	.LBB172_54
	b	.LBB172_116
.LBB172_88:
	orr	x8, x9, #0x1
	stur	x8, [x12, #-8]
	b	.LBB172_116
.LBB172_89:
	ldur	x10, [x16, #-16]
	ands	x10, x10, #0xffffffff8
	b.eq	.LBB172_91
	lsr	x17, x10, #2
	add	x10, x17, x10, lsr #3
	lsl	x17, x10, #3
	add	x10, x11, x17
	ldur	x0, [x10, #-8]
	tbz	w0, #0, .LBB172_125
.LBB172_91:
	ldur	x10, [x2, #-16]
	ands	x11, x10, #0xffffffff8
	ldur	x10, [x16, #-8]
	mov	x17, x11
	bfxil	x17, x1, #0, #1
	and	x10, x10, #0xffffffff8
	stur	x17, [x16, #-24]
	b.eq	.LBB172_93
	lsr	x11, x11, #3
	mov	w16, #24
	ldr	x17, [sp, #8]
	madd	x11, x11, x16, x17
	ldur	x16, [x11, #-8]
	and	x16, x16, #0x1
	orr	x16, x16, x12
	stur	x16, [x11, #-8]
.LBB172_93:
	ldr	x11, [sp, #8]
	mov	x1, x14
	add	x11, x11, x15
	ldur	x16, [x11, #-8]
	and	x16, x16, #0x1
	orr	x16, x16, x10
	stur	x16, [x11, #-8]
	ldr	x11, [sp, #8]
	add	x11, x11, x15
	ldur	x16, [x11, #-8]
	orr	x16, x16, #0x1
	stur	x16, [x11, #-8]
	cbz	x10, .LBB172_123
	lsr	x10, x10, #3
	mov	w11, #24
	ldr	x16, [sp, #8]
	madd	x10, x10, x11, x16
	ldur	x11, [x10, #-24]
	and	x16, x11, #0xffffffff8
	cmp	x16, x12
	b.ne	.LBB172_121
	and	x11, x11, #0x1
	orr	x11, x11, x14
	stur	x11, [x10, #-24]
	b	.LBB172_122
.LBB172_96:
	cbz	x17, .LBB172_101
	lsr	x10, x17, #3
	mov	w14, #24
	madd	x10, x10, x14, x11
	ldur	x14, [x10, #-8]
.LBB172_98:
	tbz	w14, #0, .LBB172_106
	ldur	x10, [x16, #-16]
	ands	x14, x10, #0xffffffff8
	b.eq	.LBB172_116
	lsr	x10, x14, #2
	add	x10, x10, x14, lsr #3
	lsl	x15, x10, #3
.LBB172_101:
	add	x10, x11, x15
	ldur	x17, [x16, #-8]
	ldur	x10, [x10, #-24]
	ands	x11, x10, #0xffffffff8
	and	x10, x17, #0xffffffff8
	stur	x11, [x16, #-16]
	b.eq	.LBB172_103
	lsr	x11, x11, #3
	mov	w16, #24
	ldr	x17, [sp, #8]
	madd	x11, x11, x16, x17
	ldur	x16, [x11, #-8]
	and	x16, x16, #0x1
	orr	x16, x16, x12
	stur	x16, [x11, #-8]
.LBB172_103:
	ldr	x11, [sp, #8]
	mov	x0, x14
	add	x11, x11, x15
	ldur	x16, [x11, #-8]
	and	x16, x16, #0x1
	orr	x16, x16, x10
	stur	x16, [x11, #-8]
	ldr	x11, [sp, #8]
	add	x11, x11, x15
	ldur	x16, [x11, #-8]
	orr	x16, x16, #0x1
	stur	x16, [x11, #-8]
	cbz	x10, .LBB172_109
	lsr	x10, x10, #3
	mov	w11, #24
	ldr	x16, [sp, #8]
	madd	x10, x10, x11, x16
	ldur	x11, [x10, #-24]
	and	x16, x11, #0xffffffff8
	cmp	x16, x12
	b.ne	.LBB172_107
	and	x11, x11, #0x1
	orr	x11, x11, x14
	stur	x11, [x10, #-24]
	b	.LBB172_108
.LBB172_106:
	mov	x0, x23
	mov	x14, x12
	mov	x15, x13
	b	.LBB172_110
.LBB172_107:
	stur	x14, [x10, #-16]
.LBB172_108:
	mov	x0, x23
.LBB172_109:
	ldr	x10, [sp, #8]
	add	x10, x10, x15
	ldur	x11, [x10, #-24]
	and	x11, x11, #0x1
	orr	x11, x11, x12
	stur	x11, [x10, #-24]
	ldr	x10, [sp, #8]
	add	x10, x10, x13
	ldur	x11, [x10, #-8]
	and	x11, x11, #0x1
	orr	x11, x11, x14
	stur	x11, [x10, #-8]
	ldr	x10, [sp, #8]
	add	x10, x10, x13
	ldur	x11, [x10, #-8]
	and	x11, x11, #0xfffffffffffffffe
	stur	x11, [x10, #-8]
	ldr	x11, [sp, #8]
	add	x10, x11, x15
	ldur	x10, [x10, #-24]
	ands	x17, x10, #0xffffffff8
	b.eq	.LBB172_115
.LBB172_110:
	lsr	x10, x17, #3
	mov	w12, #24
	madd	x10, x10, x12, x11
	add	x11, x11, x9
	ldur	x11, [x11, #-8]
	and	x11, x11, #0x1
	ldur	x12, [x10, #-8]
	orr	x12, x12, #0x1
	stur	x12, [x10, #-8]
	ldr	x10, [sp, #8]
	add	x12, x10, x15
	add	x13, x10, x9
	ldur	x12, [x12, #-16]
	ldur	x10, [x13, #-24]
	ldur	x17, [x13, #-8]
	ands	x12, x12, #0xffffffff8
	mov	x16, x12
	bfxil	x16, x10, #0, #1
	and	x10, x17, #0xffffffff8
	stur	x16, [x13, #-24]
	b.eq	.LBB172_112
	lsr	x12, x12, #3
	mov	w13, #24
	ldr	x16, [sp, #8]
	madd	x12, x12, x13, x16
	ldur	x13, [x12, #-8]
	and	x13, x13, #0x1
	orr	x13, x13, x8
	stur	x13, [x12, #-8]
.LBB172_112:
	ldr	x12, [sp, #8]
	mov	x23, x14
	add	x12, x12, x15
	ldur	x13, [x12, #-8]
	and	x13, x13, #0x1
	orr	x13, x13, x10
	stur	x13, [x12, #-8]
	ldr	x12, [sp, #8]
	add	x12, x12, x15
	ldur	x13, [x12, #-8]
	and	x13, x13, #0xfffffffffffffffe
	orr	x11, x13, x11
	stur	x11, [x12, #-8]
	cbz	x10, .LBB172_120
	lsr	x10, x10, #3
	mov	w11, #24
	ldr	x12, [sp, #8]
	madd	x10, x10, x11, x12
	ldur	x11, [x10, #-24]
	and	x12, x11, #0xffffffff8
	cmp	x12, x8
	b.ne	.LBB172_118
	and	x11, x11, #0x1
	add	x11, x11, x14
	stur	x11, [x10, #-24]
	b	.LBB172_119
.LBB172_115:
	mov	x23, x0
.LBB172_116:
	cmp	x23, #0
	add	x0, sp, #8
	mov	w1, w22
	cset	w4, ne
	mov	x2, x21
	mov	x5, x23
	bl	ic_rbtree.join.roots.join.f4da04d8a93b4f27
	tst	w0, #0xff
	csel	x21, xzr, x1, eq
.LBB172_117:
	mov	w0, wzr
	str	x21, [x20]
	str	xzr, [x19]
	.cfi_def_cfa wsp, 112
	ldp	x20, x19, [sp, #96]
	ldr	x23, [sp, #64]
	ldp	x22, x21, [sp, #80]
	ldp	x29, x30, [sp, #48]
	add	sp, sp, #112
	.cfi_def_cfa_offset 0
	.cfi_restore w19
	.cfi_restore w20
	.cfi_restore w21
	.cfi_restore w22
	.cfi_restore w23
	.cfi_restore w30
	.cfi_restore w29
	ret
.LBB172_118:
	.cfi_restore_state
	stur	x14, [x10, #-16]
.LBB172_119:
	mov	x23, x0
.LBB172_120:
	ldr	x10, [sp, #8]
	add	x10, x10, x15
	stur	x8, [x10, #-16]
	ldr	x8, [sp, #8]
	add	x8, x8, x9
	ldur	x10, [x8, #-8]
	and	x10, x10, #0x1
	add	x10, x10, x14
	b	.LBB172_133
.LBB172_121:
	stur	x14, [x10, #-16]
.LBB172_122:
	mov	x1, x23
.LBB172_123:
	ldr	x10, [sp, #8]
	add	x10, x10, x15
	stur	x12, [x10, #-16]
	ldr	x10, [sp, #8]
	add	x10, x10, x13
	ldur	x11, [x10, #-8]
	and	x11, x11, #0x1
	orr	x11, x11, x14
	stur	x11, [x10, #-8]
	ldr	x10, [sp, #8]
	add	x10, x10, x13
	ldur	x11, [x10, #-8]
	and	x11, x11, #0xfffffffffffffffe
	stur	x11, [x10, #-8]
	ldr	x11, [sp, #8]
	add	x10, x11, x15
	ldur	x10, [x10, #-16]
	ands	x10, x10, #0xffffffff8
	b.eq	.LBB172_134
	lsr	x12, x10, #2
	mov	x23, x1
	mov	x13, x15
	add	x10, x12, x10, lsr #3
	mov	x12, x14
	lsl	x17, x10, #3
	add	x10, x11, x17
	ldur	x0, [x10, #-8]
.LBB172_125:
	add	x10, x11, x9
	add	x11, x11, x17
	orr	x14, x0, #0x1
	ldur	x10, [x10, #-8]
	stur	x14, [x11, #-8]
	ldr	x11, [sp, #8]
	add	x14, x11, x13
	add	x15, x11, x9
	and	x11, x10, #0x1
	ldur	x14, [x14, #-24]
	ldur	x16, [x15, #-8]
	ands	x14, x14, #0xffffffff8
	and	x10, x16, #0xffffffff8
	stur	x14, [x15, #-16]
	b.eq	.LBB172_127
	lsr	x14, x14, #3
	mov	w15, #24
	ldr	x16, [sp, #8]
	madd	x14, x14, x15, x16
	ldur	x15, [x14, #-8]
	and	x15, x15, #0x1
	orr	x15, x15, x8
	stur	x15, [x14, #-8]
.LBB172_127:
	ldr	x14, [sp, #8]
	mov	x0, x12
	add	x14, x14, x13
	ldur	x15, [x14, #-8]
	and	x15, x15, #0x1
	orr	x15, x15, x10
	stur	x15, [x14, #-8]
	ldr	x14, [sp, #8]
	add	x14, x14, x13
	ldur	x15, [x14, #-8]
	and	x15, x15, #0xfffffffffffffffe
	orr	x11, x15, x11
	stur	x11, [x14, #-8]
	cbz	x10, .LBB172_132
	lsr	x10, x10, #3
	mov	w11, #24
	ldr	x14, [sp, #8]
	madd	x10, x10, x11, x14
	ldur	x11, [x10, #-24]
	and	x14, x11, #0xffffffff8
	cmp	x14, x8
	b.ne	.LBB172_130
	and	x11, x11, #0x1
	add	x11, x11, x12
	stur	x11, [x10, #-24]
	b	.LBB172_131
.LBB172_130:
	stur	x12, [x10, #-16]
.LBB172_131:
	mov	x0, x23
.LBB172_132:
	ldr	x10, [sp, #8]
	mov	x23, x0
	add	x10, x10, x13
	ldur	x11, [x10, #-24]
	and	x11, x11, #0x1
	orr	x8, x11, x8
	stur	x8, [x10, #-24]
	ldr	x8, [sp, #8]
	add	x8, x8, x9
	ldur	x10, [x8, #-8]
	and	x10, x10, #0x1
	add	x10, x10, x12
.LBB172_133:
	stur	x10, [x8, #-8]
	b	.LBB172_33
.LBB172_134:
	mov	x23, x1
	b	.LBB172_116
.Lfunc_end172:
	.size	ic_tree_append, .Lfunc_end172-ic_tree_append
	.cfi_endproc
	.section	.text.ic_tree_check,"ax",@progbits
	.globl	ic_tree_check
	.p2align	2
	.type	ic_tree_check,@function
ic_tree_check:
	.cfi_startproc
	hint	#34
	sub	sp, sp, #80
	.cfi_def_cfa_offset 80
	stp	x29, x30, [sp, #48]
	str	x19, [sp, #64]
	add	x29, sp, #48
	.cfi_def_cfa w29, 32
	.cfi_offset w19, -16
	.cfi_offset w30, -24
	.cfi_offset w29, -32
	mov	w8, #4096
	cmp	x0, #0
	ldr	x9, [x2]
	csel	x8, x8, xzr, eq
	mov	x19, x3
	mov	w4, wzr
	add	x8, x0, x8
	ands	x3, x9, #0xffffffff8
	add	x0, sp, #24
	stp	x8, x1, [sp, #8]
	cset	w2, ne
	add	x1, sp, #8
	mov	x5, xzr
	mov	w6, #66
	bl	ic_check.tree.check_below.ffc36cde30076884
	ldrb	w8, [sp, #24]
	mov	w0, #5
	cmp	w8, #1
	b.ne	.LBB173_3
	ldrb	w8, [sp, #44]
	cmp	w8, #1
	b.ne	.LBB173_3
	ldr	x8, [sp, #32]
	mov	w0, wzr
	str	x8, [x19]
.LBB173_3:
	.cfi_def_cfa wsp, 80
	ldp	x29, x30, [sp, #48]
	ldr	x19, [sp, #64]
	add	sp, sp, #80
	.cfi_def_cfa_offset 0
	.cfi_restore w19
	.cfi_restore w30
	.cfi_restore w29
	ret
.Lfunc_end173:
	.size	ic_tree_check, .Lfunc_end173-ic_tree_check
	.cfi_endproc
	.section	.text.ic_tree_clear,"ax",@progbits
	.globl	ic_tree_clear
	.p2align	2
	.type	ic_tree_clear,@function
ic_tree_clear:
	.cfi_startproc
	hint	#34
	ldr	x8, [x2]
	cmp	x0, #0
	mov	w9, #4096
	csel	x10, x9, xzr, eq
	ands	x9, x8, #0xffffffff8
	add	x8, x0, x10
	b.eq	.LBB174_7
	lsr	x10, x9, #3
	cmp	x10, x1
	b.hi	.LBB174_53
	mov	w11, #24
	madd	x10, x10, x11, x8
	ldurb	w10, [x10, #-24]
	tbz	w10, #0, .LBB174_53
	lsl	x10, x1, #3
	mov	w12, #67
	mov	x13, x9
.LBB174_4:
	lsr	x11, x13, #3
	mov	w14, #24
	madd	x11, x11, x14, x8
	ldur	x11, [x11, #-24]
	and	x11, x11, #0xffffffff8
	sub	x14, x11, #1
	cmp	x14, x10
	b.hs	.LBB174_31
	subs	w12, w12, #1
	mov	x13, x11
	b.ne	.LBB174_4
	mov	w14, #1
	cbnz	x1, .LBB174_8
	b	.LBB174_32
.LBB174_7:
	mov	w14, wzr
	mov	x11, xzr
	cbz	x1, .LBB174_32
.LBB174_8:
	lsr	x10, x9, #3
	lsl	x12, x1, #3
	cbz	x9, .LBB174_14
	cmp	x10, x1
	b.ls	.LBB174_14
	lsr	x11, x11, #3
	cmp	x11, x1
	b.hi	.LBB174_53
	mov	w12, #24
	madd	x11, x11, x12, x8
	ldurb	w11, [x11, #-24]
	tbz	w11, #0, .LBB174_53
	cmp	x1, #1
	b.ne	.LBB174_35
	mov	w14, wzr
	b	.LBB174_32
.LBB174_14:
	mov	x13, x1
	b	.LBB174_17
.LBB174_15:
	mov	w14, #1
.LBB174_16:
	subs	x13, x13, #1
	b.eq	.LBB174_32
.LBB174_17:
	and	w14, w14, #0xff
	cmp	w14, #1
	b.ne	.LBB174_54
	lsr	x14, x11, #3
	cmp	x14, x1
	b.hi	.LBB174_53
	mov	w15, #24
	madd	x14, x14, x15, x8
	ldurb	w15, [x14, #-24]
	tbz	w15, #0, .LBB174_53
	ldur	x15, [x14, #-16]
	and	x15, x15, #0xffffffff8
	sub	x16, x15, #1
	cmp	x16, x12
	b.hs	.LBB174_25
	mov	w14, #67
	mov	x11, x15
.LBB174_22:
	lsr	x15, x11, #3
	mov	w16, #24
	madd	x15, x15, x16, x8
	ldur	x15, [x15, #-24]
	and	x15, x15, #0xffffffff8
	sub	x16, x15, #1
	cmp	x16, x12
	b.hs	.LBB174_15
	subs	w14, w14, #1
	mov	x11, x15
	b.ne	.LBB174_22
	mov	w14, #1
	mov	x11, x15
	b	.LBB174_16
.LBB174_25:
	ldur	x14, [x14, #-8]
	and	x16, x14, #0xffffffff8
	sub	x14, x16, #1
	cmp	x14, x12
	b.hs	.LBB174_30
	mov	w15, #-67
.LBB174_27:
	mov	x14, x11
	mov	x11, x16
	lsr	x16, x16, #3
	mov	w17, #24
	madd	x16, x16, x17, x8
	ldur	x17, [x16, #-16]
	and	x17, x17, #0xffffffff8
	cmp	x17, x14
	ccmp	w15, #0, #4, eq
	cset	w14, eq
	b.eq	.LBB174_16
	ldur	x16, [x16, #-8]
	add	w15, w15, #1
	and	x16, x16, #0xffffffff8
	sub	x17, x16, #1
	cmp	x17, x12
	b.lo	.LBB174_27
	mov	x11, xzr
	b	.LBB174_16
.LBB174_30:
	mov	w14, wzr
	mov	x11, xzr
	b	.LBB174_16
.LBB174_31:
	mov	w14, #1
	mov	x11, x13
	cbnz	x1, .LBB174_8
.LBB174_32:
	cbz	x9, .LBB174_52
	cbnz	w14, .LBB174_52
	lsr	x10, x9, #3
.LBB174_35:
	cmp	x10, x1
	b.hi	.LBB174_55
	lsl	x10, x1, #3
	mov	w11, #67
.LBB174_37:
	lsr	x12, x9, #3
	mov	w13, #24
	madd	x12, x12, x13, x8
	ldur	x12, [x12, #-24]
	and	x12, x12, #0xffffffff8
	sub	x13, x12, #1
	cmp	x13, x10
	b.hs	.LBB174_39
	subs	w11, w11, #1
	mov	x9, x12
	b.ne	.LBB174_37
.LBB174_39:
	cbz	x1, .LBB174_55
	mov	x11, x1
	b	.LBB174_42
.LBB174_41:
	ldur	x13, [x12, #-24]
	subs	x11, x11, #1
	and	x13, x13, #0xfffffffffffffffe
	stur	x13, [x12, #-24]
	b.eq	.LBB174_55
.LBB174_42:
	lsr	x12, x9, #3
	cmp	x12, x1
	b.hi	.LBB174_55
	mov	w13, #24
	madd	x12, x12, x13, x8
	ldur	x13, [x12, #-16]
	and	x14, x13, #0xffffffff8
	sub	x13, x14, #1
	cmp	x13, x10
	b.hs	.LBB174_47
	mov	w13, #67
	mov	x9, x14
.LBB174_45:
	lsr	x14, x9, #3
	mov	w15, #24
	madd	x14, x14, x15, x8
	ldur	x14, [x14, #-24]
	and	x14, x14, #0xffffffff8
	sub	x15, x14, #1
	cmp	x15, x10
	b.hs	.LBB174_41
	subs	w13, w13, #1
	mov	x9, x14
	b.ne	.LBB174_45
	b	.LBB174_41
.LBB174_47:
	ldur	x13, [x12, #-8]
	and	x14, x13, #0xffffffff8
	sub	x13, x14, #1
	cmp	x13, x10
	b.hs	.LBB174_51
	mov	w13, #-67
.LBB174_49:
	mov	x15, x9
	mov	x9, x14
	lsr	x14, x14, #3
	mov	w16, #24
	madd	x14, x14, x16, x8
	ldur	x16, [x14, #-16]
	and	x16, x16, #0xffffffff8
	cmp	x16, x15
	ccmp	w13, #0, #4, eq
	b.eq	.LBB174_41
	ldur	x14, [x14, #-8]
	add	w13, w13, #1
	and	x14, x14, #0xffffffff8
	sub	x15, x14, #1
	cmp	x15, x10
	b.lo	.LBB174_49
.LBB174_51:
	ldur	x8, [x12, #-24]
	and	x8, x8, #0xfffffffffffffffe
	stur	x8, [x12, #-24]
	mov	w0, wzr
	str	xzr, [x2]
	ret
.LBB174_52:
	cbz	w14, .LBB174_55
.LBB174_53:
	mov	w0, #5
	ret
.LBB174_54:
	cbnz	x9, .LBB174_35
.LBB174_55:
	mov	w0, wzr
	str	xzr, [x2]
	ret
.Lfunc_end174:
	.size	ic_tree_clear, .Lfunc_end174-ic_tree_clear
	.cfi_endproc
	.section	.text.ic_tree_ends_insert,"ax",@progbits
	.globl	ic_tree_ends_insert
	.p2align	2
	.type	ic_tree_ends_insert,@function
ic_tree_ends_insert:
	.cfi_startproc
	hint	#34
	stp	x29, x30, [sp, #-64]!
	.cfi_def_cfa_offset 64
	str	x23, [sp, #16]
	stp	x22, x21, [sp, #32]
	stp	x20, x19, [sp, #48]
	mov	x29, sp
	.cfi_def_cfa w29, 64
	.cfi_offset w19, -8
	.cfi_offset w20, -16
	.cfi_offset w21, -24
	.cfi_offset w22, -32
	.cfi_offset w23, -48
	.cfi_offset w30, -56
	.cfi_offset w29, -64
	.cfi_remember_state
	cmp	x0, #0
	mov	w8, #4096
	mov	x19, x5
	csel	x9, x8, xzr, eq
	cmp	x2, #0
	mov	w5, w6
	add	x20, x0, x9
	csel	x8, x8, xzr, eq
	mov	w23, w6
	add	x2, x2, x8
	mov	x0, x20
	mov	x22, x4
	mov	x21, x1
	bl	ic_raw.search_calls.insert
	cbnz	w0, .LBB175_2
	adds	w9, w23, #1
	b.lo	.LBB175_3
.LBB175_2:
	.cfi_def_cfa wsp, 64
	ldp	x20, x19, [sp, #48]
	ldr	x23, [sp, #16]
	ldp	x22, x21, [sp, #32]
	ldp	x29, x30, [sp], #64
	.cfi_def_cfa_offset 0
	.cfi_restore w19
	.cfi_restore w20
	.cfi_restore w21
	.cfi_restore w22
	.cfi_restore w23
	.cfi_restore w30
	.cfi_restore w29
	ret
.LBB175_3:
	.cfi_restore_state
	.cfi_remember_state
	ubfiz	x8, x9, #3, #32
	cmp	x21, x9
	b.hs	.LBB175_6
	mov	x10, x8
.LBB175_5:
	stp	x10, x8, [x19]
	.cfi_def_cfa wsp, 64
	ldp	x20, x19, [sp, #48]
	ldr	x23, [sp, #16]
	ldp	x22, x21, [sp, #32]
	ldp	x29, x30, [sp], #64
	.cfi_def_cfa_offset 0
	.cfi_restore w19
	.cfi_restore w20
	.cfi_restore w21
	.cfi_restore w22
	.cfi_restore w23
	.cfi_restore w30
	.cfi_restore w29
	ret
.LBB175_6:
	.cfi_restore_state
	.cfi_remember_state
	ldr	x11, [x22]
	ldr	x10, [x19]
	tst	x11, #0xffffffff8
	b.eq	.LBB175_9
	ubfx	x11, x11, #3, #33
	cmp	x11, x21
	b.ls	.LBB175_9
	stp	x8, x8, [x19]
	.cfi_def_cfa wsp, 64
	ldp	x20, x19, [sp, #48]
	ldr	x23, [sp, #16]
	ldp	x22, x21, [sp, #32]
	ldp	x29, x30, [sp], #64
	.cfi_def_cfa_offset 0
	.cfi_restore w19
	.cfi_restore w20
	.cfi_restore w21
	.cfi_restore w22
	.cfi_restore w23
	.cfi_restore w30
	.cfi_restore w29
	ret
.LBB175_9:
	.cfi_restore_state
	.cfi_remember_state
	mov	w11, #24
	umaddl	x11, w9, w11, x20
	lsl	x9, x21, #3
	ldur	x12, [x11, #-24]
	and	x12, x12, #0xffffffff8
	sub	x12, x12, #1
	cmp	x12, x9
	and	x12, x10, #0xffffffff8
	b.hs	.LBB175_11
.LBB175_10:
	mov	x10, x12
	b	.LBB175_16
.LBB175_11:
	ldur	x10, [x11, #-8]
	and	x14, x10, #0xffffffff8
	sub	x10, x14, #1
	cmp	x10, x9
	mov	x10, x8
	b.hs	.LBB175_16
	mov	w10, #-67
	mov	x13, x8
.LBB175_13:
	mov	x15, x13
	mov	x13, x14
	lsr	x14, x14, #3
	mov	w16, #24
	madd	x14, x14, x16, x20
	ldur	x16, [x14, #-24]
	and	x16, x16, #0xffffffff8
	cmp	x16, x15
	ccmp	w10, #0, #4, eq
	b.eq	.LBB175_10
	ldur	x14, [x14, #-8]
	add	w10, w10, #1
	and	x14, x14, #0xffffffff8
	sub	x15, x14, #1
	cmp	x15, x9
	b.lo	.LBB175_13
	mov	x10, x8
.LBB175_16:
	ldur	x12, [x11, #-16]
	ldr	x13, [x19, #8]
	and	x12, x12, #0xffffffff8
	sub	x12, x12, #1
	cmp	x12, x9
	and	x12, x13, #0xffffffff8
	b.hs	.LBB175_18
.LBB175_17:
	stp	x10, x12, [x19]
	.cfi_def_cfa wsp, 64
	ldp	x20, x19, [sp, #48]
	ldr	x23, [sp, #16]
	ldp	x22, x21, [sp, #32]
	ldp	x29, x30, [sp], #64
	.cfi_def_cfa_offset 0
	.cfi_restore w19
	.cfi_restore w20
	.cfi_restore w21
	.cfi_restore w22
	.cfi_restore w23
	.cfi_restore w30
	.cfi_restore w29
	ret
.LBB175_18:
	.cfi_restore_state
	ldur	x11, [x11, #-8]
	and	x14, x11, #0xffffffff8
	sub	x11, x14, #1
	cmp	x11, x9
	b.hs	.LBB175_5
	mov	w11, #-67
	mov	x13, x8
.LBB175_20:
	mov	x15, x13
	mov	x13, x14
	lsr	x14, x14, #3
	mov	w16, #24
	madd	x14, x14, x16, x20
	ldur	x16, [x14, #-16]
	and	x16, x16, #0xffffffff8
	cmp	x16, x15
	ccmp	w11, #0, #4, eq
	b.eq	.LBB175_17
	ldur	x14, [x14, #-8]
	add	w11, w11, #1
	and	x14, x14, #0xffffffff8
	sub	x15, x14, #1
	cmp	x15, x9
	b.lo	.LBB175_20
	b	.LBB175_5
.Lfunc_end175:
	.size	ic_tree_ends_insert, .Lfunc_end175-ic_tree_ends_insert
	.cfi_endproc
	.section	.text.ic_tree_ends_insert_left,"ax",@progbits
	.globl	ic_tree_ends_insert_left
	.p2align	2
	.type	ic_tree_ends_insert_left,@function
ic_tree_ends_insert_left:
	.cfi_startproc
	hint	#34
	stp	x29, x30, [sp, #-48]!
	.cfi_def_cfa_offset 48
	str	x21, [sp, #16]
	stp	x20, x19, [sp, #32]
	mov	x29, sp
	.cfi_def_cfa w29, 48
	.cfi_offset w19, -8
	.cfi_offset w20, -16
	.cfi_offset w21, -32
	.cfi_offset w30, -40
	.cfi_offset w29, -48
	.cfi_remember_state
	cmp	x0, #0
	mov	w8, #4096
	mov	x19, x3
	csel	x8, x8, xzr, eq
	mov	w3, wzr
	mov	w21, w5
	add	x0, x0, x8
	mov	w20, w4
	bl	ic_raw.tree_calls.insert_at
	cbz	w0, .LBB176_2
	.cfi_def_cfa wsp, 48
	ldp	x20, x19, [sp, #32]
	ldr	x21, [sp, #16]
	ldp	x29, x30, [sp], #48
	.cfi_def_cfa_offset 0
	.cfi_restore w19
	.cfi_restore w20
	.cfi_restore w21
	.cfi_restore w30
	.cfi_restore w29
	ret
.LBB176_2:
	.cfi_restore_state
	add	w9, w21, #1
	adds	w10, w20, #1
	ubfiz	x8, x9, #3, #32
	mov	x11, x8
	b.hs	.LBB176_4
	ldr	x11, [x19]
	ands	x11, x11, #0xffffffff8
	cset	w12, eq
	cmp	w9, #0
	cset	w9, eq
	cmp	x11, w10, uxtw #3
	ldr	x10, [x19, #8]
	csel	w9, w9, w12, eq
	csel	x8, x8, x11, eq
	cmp	w9, #0
	and	x11, x10, #0xffffffff8
	csel	x8, xzr, x8, ne
.LBB176_4:
	stp	x8, x11, [x19]
	.cfi_def_cfa wsp, 48
	ldp	x20, x19, [sp, #32]
	ldr	x21, [sp, #16]
	ldp	x29, x30, [sp], #48
	.cfi_def_cfa_offset 0
	.cfi_restore w19
	.cfi_restore w20
	.cfi_restore w21
	.cfi_restore w30
	.cfi_restore w29
	ret
.Lfunc_end176:
	.size	ic_tree_ends_insert_left, .Lfunc_end176-ic_tree_ends_insert_left
	.cfi_endproc
	.section	.text.ic_tree_ends_insert_right,"ax",@progbits
	.globl	ic_tree_ends_insert_right
	.p2align	2
	.type	ic_tree_ends_insert_right,@function
ic_tree_ends_insert_right:
	.cfi_startproc
	hint	#34
	stp	x29, x30, [sp, #-48]!
	.cfi_def_cfa_offset 48
	str	x21, [sp, #16]
	stp	x20, x19, [sp, #32]
	mov	x29, sp
	.cfi_def_cfa w29, 48
	.cfi_offset w19, -8
	.cfi_offset w20, -16
	.cfi_offset w21, -32
	.cfi_offset w30, -40
	.cfi_offset w29, -48
	.cfi_remember_state
	cmp	x0, #0
	mov	w8, #4096
	mov	x19, x3
	csel	x8, x8, xzr, eq
	mov	w3, #1
	mov	w21, w5
	add	x0, x0, x8
	mov	w20, w4
	bl	ic_raw.tree_calls.insert_at
	cbz	w0, .LBB177_2
	.cfi_def_cfa wsp, 48
	ldp	x20, x19, [sp, #32]
	ldr	x21, [sp, #16]
	ldp	x29, x30, [sp], #48
	.cfi_def_cfa_offset 0
	.cfi_restore w19
	.cfi_restore w20
	.cfi_restore w21
	.cfi_restore w30
	.cfi_restore w29
	ret
.LBB177_2:
	.cfi_restore_state
	add	w9, w21, #1
	adds	w10, w20, #1
	ubfiz	x8, x9, #3, #32
	mov	x11, x8
	b.hs	.LBB177_4
	ldp	x12, x11, [x19]
	ands	x11, x11, #0xffffffff8
	cset	w13, eq
	cmp	w9, #0
	cset	w9, eq
	cmp	x11, w10, uxtw #3
	and	x10, x12, #0xffffffff8
	csel	w9, w9, w13, eq
	csel	x8, x8, x11, eq
	cmp	w9, #0
	csel	x11, xzr, x8, ne
	mov	x8, x10
.LBB177_4:
	stp	x8, x11, [x19]
	.cfi_def_cfa wsp, 48
	ldp	x20, x19, [sp, #32]
	ldr	x21, [sp, #16]
	ldp	x29, x30, [sp], #48
	.cfi_def_cfa_offset 0
	.cfi_restore w19
	.cfi_restore w20
	.cfi_restore w21
	.cfi_restore w30
	.cfi_restore w29
	ret
.Lfunc_end177:
	.size	ic_tree_ends_insert_right, .Lfunc_end177-ic_tree_ends_insert_right
	.cfi_endproc
	.section	.text.ic_tree_ends_pop_first,"ax",@progbits
	.globl	ic_tree_ends_pop_first
	.p2align	2
	.type	ic_tree_ends_pop_first,@function
ic_tree_ends_pop_first:
	.cfi_startproc
	hint	#34
	ldr	x9, [x3]
	cmp	x0, #0
	mov	w8, #4096
	csel	x8, x8, xzr, eq
	ands	x10, x9, #0xffffffff8
	b.eq	.LBB178_4
	lsr	x11, x9, #3
	and	x9, x9, #0x7fffffff8
	cmp	w11, #0
	csel	x9, xzr, x9, eq
	cmp	x9, x10
	b.ne	.LBB178_5
	stp	x29, x30, [sp, #-32]!
	.cfi_def_cfa_offset 32
	stp	x20, x19, [sp, #16]
	mov	x29, sp
	.cfi_def_cfa w29, 32
	.cfi_offset w19, -8
	.cfi_offset w20, -16
	.cfi_offset w30, -24
	.cfi_offset w29, -32
	.cfi_remember_state
	sub	w19, w11, #1
	mov	x20, x4
	add	x0, x0, x8
	mov	w4, w19
	bl	ic_raw_keyed.ends_calls.remove
	cbz	w0, .LBB178_6
	mov	w0, #5
	.cfi_def_cfa wsp, 32
	ldp	x20, x19, [sp, #16]
	ldp	x29, x30, [sp], #32
	.cfi_def_cfa_offset 0
	.cfi_restore w19
	.cfi_restore w20
	.cfi_restore w30
	.cfi_restore w29
	ret
.LBB178_4:
	mov	w0, #4
	ret
.LBB178_5:
	mov	w0, #5
	ret
.LBB178_6:
	.cfi_restore_state
	str	w19, [x20]
	.cfi_def_cfa wsp, 32
	ldp	x20, x19, [sp, #16]
	ldp	x29, x30, [sp], #32
	.cfi_def_cfa_offset 0
	.cfi_restore w19
	.cfi_restore w20
	.cfi_restore w30
	.cfi_restore w29
	ret
.Lfunc_end178:
	.size	ic_tree_ends_pop_first, .Lfunc_end178-ic_tree_ends_pop_first
	.cfi_endproc
	.section	.text.ic_tree_ends_remove,"ax",@progbits
	.globl	ic_tree_ends_remove
	.p2align	2
	.type	ic_tree_ends_remove,@function
ic_tree_ends_remove:
	.cfi_startproc
	hint	#34
	mov	w8, #4096
	cmp	x0, #0
	csel	x8, x8, xzr, eq
	add	x0, x0, x8
	b	ic_raw_keyed.ends_calls.remove
.Lfunc_end179:
	.size	ic_tree_ends_remove, .Lfunc_end179-ic_tree_ends_remove
	.cfi_endproc
	.section	.text.ic_tree_ends_replace,"ax",@progbits
	.globl	ic_tree_ends_replace
	.p2align	2
	.type	ic_tree_ends_replace,@function
ic_tree_ends_replace:
	.cfi_startproc
	hint	#34
	stp	x29, x30, [sp, #-48]!
	.cfi_def_cfa_offset 48
	str	x21, [sp, #16]
	stp	x20, x19, [sp, #32]
	mov	x29, sp
	.cfi_def_cfa w29, 48
	.cfi_offset w19, -8
	.cfi_offset w20, -16
	.cfi_offset w21, -32
	.cfi_offset w30, -40
	.cfi_offset w29, -48
	.cfi_remember_state
	adds	w19, w4, #1
	b.lo	.LBB180_3
	mov	w0, #4
.LBB180_2:
	.cfi_def_cfa wsp, 48
	ldp	x20, x19, [sp, #32]
	ldr	x21, [sp, #16]
	ldp	x29, x30, [sp], #48
	.cfi_def_cfa_offset 0
	.cfi_restore w19
	.cfi_restore w20
	.cfi_restore w21
	.cfi_restore w30
	.cfi_restore w29
	ret
.LBB180_3:
	.cfi_restore_state
	cmp	x0, #0
	mov	w8, #4096
	mov	x20, x3
	csel	x8, x8, xzr, eq
	mov	w3, w4
	mov	w4, w5
	add	x0, x0, x8
	mov	w21, w5
	bl	ic_raw.tree_calls.replace
	cbnz	w0, .LBB180_2
	ldp	x9, x12, [x20]
	adds	w8, w21, #1
	ubfiz	x10, x19, #3, #32
	ubfiz	x8, x8, #3, #32
	cset	w11, ne
	ands	x9, x9, #0xffffffff8
	cset	w13, ne
	cmp	x9, x10
	csel	w13, w11, w13, eq
	csel	x9, x8, x9, eq
	ands	x12, x12, #0xffffffff8
	cset	w14, ne
	cmp	x12, x10
	csel	w10, w11, w14, eq
	csel	x8, x8, x12, eq
	cmp	w13, #0
	csel	x9, xzr, x9, eq
	cmp	w10, #0
	csel	x8, xzr, x8, eq
	stp	x9, x8, [x20]
	.cfi_def_cfa wsp, 48
	ldp	x20, x19, [sp, #32]
	ldr	x21, [sp, #16]
	ldp	x29, x30, [sp], #48
	.cfi_def_cfa_offset 0
	.cfi_restore w19
	.cfi_restore w20
	.cfi_restore w21
	.cfi_restore w30
	.cfi_restore w29
	ret
.Lfunc_end180:
	.size	ic_tree_ends_replace, .Lfunc_end180-ic_tree_ends_replace
	.cfi_endproc
	.section	.text.ic_tree_find,"ax",@progbits
	.globl	ic_tree_find
	.p2align	2
	.type	ic_tree_find,@function
ic_tree_find:
	.cfi_startproc
	hint	#34
	cmp	x0, #0
	mov	w8, #4096
	ldr	x4, [x4]
	csel	x9, x8, xzr, eq
	cmp	x2, #0
	mov	x7, x6
	csel	x8, x8, xzr, eq
	add	x0, x0, x9
	mov	w6, wzr
	add	x2, x2, x8
	b	ic_raw.search_calls.find_target
.Lfunc_end181:
	.size	ic_tree_find, .Lfunc_end181-ic_tree_find
	.cfi_endproc
	.section	.text.ic_tree_insert,"ax",@progbits
	.globl	ic_tree_insert
	.p2align	2
	.type	ic_tree_insert,@function
ic_tree_insert:
	.cfi_startproc
	hint	#34
	cmp	x0, #0
	mov	w8, #4096
	csel	x9, x8, xzr, eq
	cmp	x2, #0
	csel	x8, x8, xzr, eq
	add	x0, x0, x9
	add	x2, x2, x8
	b	ic_raw.search_calls.insert
.Lfunc_end182:
	.size	ic_tree_insert, .Lfunc_end182-ic_tree_insert
	.cfi_endproc
	.section	.text.ic_tree_insert_left,"ax",@progbits
	.globl	ic_tree_insert_left
	.p2align	2
	.type	ic_tree_insert_left,@function
ic_tree_insert_left:
	.cfi_startproc
	hint	#34
	mov	w8, #4096
	cmp	x0, #0
	mov	w5, w4
	csel	x8, x8, xzr, eq
	mov	w4, w3
	mov	w3, wzr
	add	x0, x0, x8
	b	ic_raw.tree_calls.insert_at
.Lfunc_end183:
	.size	ic_tree_insert_left, .Lfunc_end183-ic_tree_insert_left
	.cfi_endproc
	.section	.text.ic_tree_insert_right,"ax",@progbits
	.globl	ic_tree_insert_right
	.p2align	2
	.type	ic_tree_insert_right,@function
ic_tree_insert_right:
	.cfi_startproc
	hint	#34
	mov	w8, #4096
	cmp	x0, #0
	mov	w5, w4
	csel	x8, x8, xzr, eq
	mov	w4, w3
	mov	w3, #1
	add	x0, x0, x8
	b	ic_raw.tree_calls.insert_at
.Lfunc_end184:
	.size	ic_tree_insert_right, .Lfunc_end184-ic_tree_insert_right
	.cfi_endproc
	.section	.text.ic_tree_join,"ax",@progbits
	.globl	ic_tree_join
	.p2align	2
	.type	ic_tree_join,@function
ic_tree_join:
	.cfi_startproc
	hint	#34
	sub	sp, sp, #128
	.cfi_def_cfa_offset 128
	stp	x29, x30, [sp, #48]
	stp	x26, x25, [sp, #64]
	stp	x24, x23, [sp, #80]
	stp	x22, x21, [sp, #96]
	stp	x20, x19, [sp, #112]
	add	x29, sp, #48
	.cfi_def_cfa w29, 80
	.cfi_offset w19, -8
	.cfi_offset w20, -16
	.cfi_offset w21, -24
	.cfi_offset w22, -32
	.cfi_offset w23, -40
	.cfi_offset w24, -48
	.cfi_offset w25, -56
	.cfi_offset w26, -64
	.cfi_offset w30, -72
	.cfi_offset w29, -80
	.cfi_remember_state
	mov	w9, #4096
	cmp	x0, #0
	mov	x8, x0
	csel	x9, x9, xzr, eq
	adds	w23, w3, #1
	mov	w0, #1
	b.hs	.LBB185_7
	cmp	x1, x23
	b.lo	.LBB185_7
	add	x10, x23, x23, lsl #1
	add	x8, x8, x9
	lsl	x24, x10, #3
	add	x9, x8, x24
	ldur	w9, [x9, #-24]
	lsl	w9, w9, #1
	tbnz	w9, #1, .LBB185_6
	ldr	x9, [x4]
	ldr	x10, [x2]
	stp	x8, x1, [sp, #8]
	ands	x19, x9, #0xffffffff8
	and	x20, x10, #0xffffffff8
	b.eq	.LBB185_8
	cmp	x20, x19
	b.ne	.LBB185_8
	mov	w0, #5
	b	.LBB185_7
.LBB185_6:
	and	w0, w9, #0x2
.LBB185_7:
	.cfi_def_cfa wsp, 128
	ldp	x20, x19, [sp, #112]
	ldp	x22, x21, [sp, #96]
	ldp	x24, x23, [sp, #80]
	ldp	x26, x25, [sp, #64]
	ldp	x29, x30, [sp, #48]
	add	sp, sp, #128
	.cfi_def_cfa_offset 0
	.cfi_restore w19
	.cfi_restore w20
	.cfi_restore w21
	.cfi_restore w22
	.cfi_restore w23
	.cfi_restore w24
	.cfi_restore w25
	.cfi_restore w26
	.cfi_restore w30
	.cfi_restore w29
	ret
.LBB185_8:
	.cfi_restore_state
	cmp	x20, #0
	mov	x26, x2
	mov	x25, x4
	cset	w21, ne
	add	x0, sp, #24
	add	x1, sp, #8
	mov	w2, w21
	mov	x3, x20
	mov	w4, wzr
	mov	x5, xzr
	mov	w6, #66
	bl	ic_check.tree.check_below.ffc36cde30076884
	ldrb	w8, [sp, #24]
	mov	w0, #5
	cmp	w8, #1
	b.ne	.LBB185_7
	ldrb	w8, [sp, #44]
	cmp	w8, #1
	b.ne	.LBB185_7
	cmp	x19, #0
	add	x0, sp, #24
	add	x1, sp, #8
	cset	w22, ne
	mov	x3, x19
	mov	w4, wzr
	mov	w2, w22
	mov	x5, xzr
	mov	w6, #66
	bl	ic_check.tree.check_below.ffc36cde30076884
	ldrb	w8, [sp, #24]
	mov	w0, #5
	cmp	w8, #1
	b.ne	.LBB185_7
	ldrb	w8, [sp, #44]
	cmp	w8, #1
	b.ne	.LBB185_7
	ldr	x10, [sp, #8]
	add	x10, x10, x24
	ldurb	w11, [x10, #-24]
	tbnz	w11, #0, .LBB185_14
	ubfiz	x3, x23, #3, #32
	mov	w8, #1
	add	x0, sp, #8
	mov	w1, w21
	mov	x2, x20
	mov	w4, w22
	mov	x5, x19
	stur	x8, [x10, #-24]
	bl	ic_rbtree.join.roots.join.f4da04d8a93b4f27
	tst	w0, #0xff
	mov	x9, x26
	mov	x8, x25
	mov	x19, xzr
	csel	x20, xzr, x1, eq
	b	.LBB185_15
.LBB185_14:
	mov	x8, x25
	mov	x9, x26
.LBB185_15:
	mov	w0, wzr
	str	x20, [x9]
	str	x19, [x8]
	b	.LBB185_7
.Lfunc_end185:
	.size	ic_tree_join, .Lfunc_end185-ic_tree_join
	.cfi_endproc
	.section	.text.ic_tree_lower_bound,"ax",@progbits
	.globl	ic_tree_lower_bound
	.p2align	2
	.type	ic_tree_lower_bound,@function
ic_tree_lower_bound:
	.cfi_startproc
	hint	#34
	cmp	x0, #0
	mov	w8, #4096
	ldr	x4, [x4]
	csel	x9, x8, xzr, eq
	cmp	x2, #0
	mov	x7, x6
	csel	x8, x8, xzr, eq
	add	x0, x0, x9
	mov	w6, #1
	add	x2, x2, x8
	b	ic_raw.search_calls.find_target
.Lfunc_end186:
	.size	ic_tree_lower_bound, .Lfunc_end186-ic_tree_lower_bound
	.cfi_endproc
	.section	.text.ic_tree_next,"ax",@progbits
	.globl	ic_tree_next
	.p2align	2
	.type	ic_tree_next,@function
ic_tree_next:
	.cfi_startproc
	hint	#34
	mov	w8, #4096
	cmp	x0, #0
	ldr	x10, [x2]
	csel	x8, x8, xzr, eq
	adds	w9, w3, #1
	add	x0, x0, x8
	and	x8, x10, #0xffffffff8
	b.lo	.LBB187_2
	mov	x2, x8
	mov	w3, #1
	b	ic_raw.tree.step_from_none
.LBB187_2:
	ubfiz	x2, x9, #3, #32
	cmp	x1, x9
	b.lo	.LBB187_18
	mov	w10, #24
	umaddl	x10, w9, w10, x0
	ldurb	w9, [x10, #-24]
	tbz	w9, #0, .LBB187_18
	lsl	x9, x1, #3
	sub	x11, x8, #1
	cmp	x11, x9
	b.hs	.LBB187_18
	lsr	x8, x8, #3
	mov	w11, #24
	madd	x8, x8, x11, x0
	ldurb	w8, [x8, #-24]
	tbz	w8, #0, .LBB187_18
	ldur	x8, [x10, #-16]
	and	x11, x8, #0xffffffff8
	sub	x8, x11, #1
	cmp	x8, x9
	b.hs	.LBB187_13
	mov	w12, #67
.LBB187_8:
	lsr	x8, x11, #3
	add	x10, x8, x11, lsr #2
	lsl	x10, x10, #3
	add	x11, x0, x10
	ldur	x11, [x11, #-24]
	and	x11, x11, #0xffffffff8
	sub	x13, x11, #1
	cmp	x13, x9
	b.hs	.LBB187_11
	subs	w12, w12, #1
	b.ne	.LBB187_8
	lsr	x8, x11, #3
	add	x9, x8, x11, lsr #2
	lsl	x10, x9, #3
.LBB187_11:
	add	x9, x0, x10
	ldurb	w9, [x9, #-24]
	tbz	w9, #0, .LBB187_19
	sub	w8, w8, #1
	mov	w0, wzr
	str	w8, [x4]
	ret
.LBB187_13:
	ldur	x8, [x10, #-8]
	and	x8, x8, #0xffffffff8
	sub	x10, x8, #1
	cmp	x10, x9
	b.hs	.LBB187_17
	mov	w11, #-67
.LBB187_15:
	mov	x13, x2
	mov	x2, x8
	lsr	x8, x8, #3
	add	x10, x8, x2, lsr #2
	lsl	x10, x10, #3
	add	x12, x0, x10
	ldur	x14, [x12, #-16]
	and	x14, x14, #0xffffffff8
	cmp	x14, x13
	ccmp	w11, #0, #4, eq
	b.eq	.LBB187_11
	ldur	x8, [x12, #-8]
	add	w11, w11, #1
	and	x8, x8, #0xffffffff8
	sub	x10, x8, #1
	cmp	x10, x9
	b.lo	.LBB187_15
.LBB187_17:
	mov	w0, wzr
	b	ic_raw.tree.nothing_found
.LBB187_18:
	b	ic_raw.table.RawTable.refusal_of.19bacce014a8892a
.LBB187_19:
	mov	w0, #1
	b	ic_raw.tree.nothing_found
.Lfunc_end187:
	.size	ic_tree_next, .Lfunc_end187-ic_tree_next
	.cfi_endproc
	.section	.text.ic_tree_prev,"ax",@progbits
	.globl	ic_tree_prev
	.p2align	2
	.type	ic_tree_prev,@function
ic_tree_prev:
	.cfi_startproc
	hint	#34
	mov	w8, #4096
	cmp	x0, #0
	ldr	x10, [x2]
	csel	x8, x8, xzr, eq
	adds	w9, w3, #1
	add	x0, x0, x8
	and	x8, x10, #0xffffffff8
	b.lo	.LBB188_2
	mov	x2, x8
	mov	w3, wzr
	b	ic_raw.tree.step_from_none
.LBB188_2:
	ubfiz	x2, x9, #3, #32
	cmp	x1, x9
	b.lo	.LBB188_18
	mov	w10, #24
	umaddl	x10, w9, w10, x0
	ldur	x11, [x10, #-24]
	tbz	w11, #0, .LBB188_18
	lsl	x9, x1, #3
	sub	x12, x8, #1
	cmp	x12, x9
	b.hs	.LBB188_18
	lsr	x8, x8, #3
	mov	w12, #24
	madd	x8, x8, x12, x0
	ldurb	w8, [x8, #-24]
	tbz	w8, #0, .LBB188_18
	and	x11, x11, #0xffffffff8
	sub	x8, x11, #1
	cmp	x8, x9
	b.hs	.LBB188_13
	mov	w12, #67
.LBB188_8:
	lsr	x8, x11, #3
	add	x10, x8, x11, lsr #2
	lsl	x10, x10, #3
	add	x11, x0, x10
	ldur	x11, [x11, #-16]
	and	x11, x11, #0xffffffff8
	sub	x13, x11, #1
	cmp	x13, x9
	b.hs	.LBB188_11
	subs	w12, w12, #1
	b.ne	.LBB188_8
	lsr	x8, x11, #3
	add	x9, x8, x11, lsr #2
	lsl	x10, x9, #3
.LBB188_11:
	add	x9, x0, x10
	ldurb	w9, [x9, #-24]
	tbz	w9, #0, .LBB188_19
	sub	w8, w8, #1
	mov	w0, wzr
	str	w8, [x4]
	ret
.LBB188_13:
	ldur	x8, [x10, #-8]
	and	x8, x8, #0xffffffff8
	sub	x10, x8, #1
	cmp	x10, x9
	b.hs	.LBB188_17
	mov	w11, #-67
.LBB188_15:
	mov	x13, x2
	mov	x2, x8
	lsr	x8, x8, #3
	add	x10, x8, x2, lsr #2
	lsl	x10, x10, #3
	add	x12, x0, x10
	ldur	x14, [x12, #-24]
	and	x14, x14, #0xffffffff8
	cmp	x14, x13
	ccmp	w11, #0, #4, eq
	b.eq	.LBB188_11
	ldur	x8, [x12, #-8]
	add	w11, w11, #1
	and	x8, x8, #0xffffffff8
	sub	x10, x8, #1
	cmp	x10, x9
	b.lo	.LBB188_15
.LBB188_17:
	mov	w0, wzr
	b	ic_raw.tree.nothing_found
.LBB188_18:
	b	ic_raw.table.RawTable.refusal_of.19bacce014a8892a
.LBB188_19:
	mov	w0, #1
	b	ic_raw.tree.nothing_found
.Lfunc_end188:
	.size	ic_tree_prev, .Lfunc_end188-ic_tree_prev
	.cfi_endproc
	.section	.text.ic_tree_remove,"ax",@progbits
	.globl	ic_tree_remove
	.p2align	2
	.type	ic_tree_remove,@function
ic_tree_remove:
	.cfi_startproc
	hint	#34
	mov	w8, #4096
	cmp	x0, #0
	csel	x8, x8, xzr, eq
	add	x0, x0, x8
	b	ic_raw.tree_calls.remove
.Lfunc_end189:
	.size	ic_tree_remove, .Lfunc_end189-ic_tree_remove
	.cfi_endproc
	.section	.text.ic_tree_replace,"ax",@progbits
	.globl	ic_tree_replace
	.p2align	2
	.type	ic_tree_replace,@function
ic_tree_replace:
	.cfi_startproc
	hint	#34
	mov	w8, #4096
	cmp	x0, #0
	csel	x8, x8, xzr, eq
	add	x0, x0, x8
	b	ic_raw.tree_calls.replace
.Lfunc_end190:
	.size	ic_tree_replace, .Lfunc_end190-ic_tree_replace
	.cfi_endproc
	.section	.text.ic_tree_split,"ax",@progbits
	.globl	ic_tree_split
	.p2align	2
	.type	ic_tree_split,@function
ic_tree_split:
	.cfi_startproc
	hint	#34
	sub	sp, sp, #224
	.cfi_def_cfa_offset 224
	stp	x29, x30, [sp, #128]
	stp	x28, x27, [sp, #144]
	stp	x26, x25, [sp, #160]
	stp	x24, x23, [sp, #176]
	stp	x22, x21, [sp, #192]
	stp	x20, x19, [sp, #208]
	add	x29, sp, #128
	.cfi_def_cfa w29, 96
	.cfi_offset w19, -8
	.cfi_offset w20, -16
	.cfi_offset w21, -24
	.cfi_offset w22, -32
	.cfi_offset w23, -40
	.cfi_offset w24, -48
	.cfi_offset w25, -56
	.cfi_offset w26, -64
	.cfi_offset w27, -72
	.cfi_offset w28, -80
	.cfi_offset w30, -88
	.cfi_offset w29, -96
	.cfi_remember_state
	mov	w8, #4096
	cmp	x0, #0
	csel	x8, x8, xzr, eq
	adds	w20, w3, #1
	b.lo	.LBB191_2
	mov	w0, #4
	b	.LBB191_8
.LBB191_2:
	cmp	x1, x20
	b.hs	.LBB191_4
	mov	w0, #1
	b	.LBB191_8
.LBB191_4:
	add	x9, x20, x20, lsl #1
	add	x8, x0, x8
	lsl	x21, x9, #3
	add	x9, x8, x21
	ldurb	w9, [x9, #-24]
	tbnz	w9, #0, .LBB191_6
	mov	w0, #3
	b	.LBB191_8
.LBB191_6:
	ldr	x9, [x4]
	stp	x8, x1, [sp, #40]
	tst	x9, #0xffffffff8
	b.eq	.LBB191_9
.LBB191_7:
	mov	w0, #5
.LBB191_8:
	.cfi_def_cfa wsp, 224
	ldp	x20, x19, [sp, #208]
	ldp	x22, x21, [sp, #192]
	ldp	x24, x23, [sp, #176]
	ldp	x26, x25, [sp, #160]
	ldp	x28, x27, [sp, #144]
	ldp	x29, x30, [sp, #128]
	add	sp, sp, #224
	.cfi_def_cfa_offset 0
	.cfi_restore w19
	.cfi_restore w20
	.cfi_restore w21
	.cfi_restore w22
	.cfi_restore w23
	.cfi_restore w24
	.cfi_restore w25
	.cfi_restore w26
	.cfi_restore w27
	.cfi_restore w28
	.cfi_restore w30
	.cfi_restore w29
	ret
.LBB191_9:
	.cfi_restore_state
	ldr	x8, [x2]
	stp	x2, x4, [sp, #24]
	sub	x0, x29, #24
	add	x1, sp, #40
	mov	w4, wzr
	mov	x5, xzr
	ands	x19, x8, #0xffffffff8
	mov	w6, #66
	cset	w2, ne
	mov	x3, x19
	bl	ic_check.tree.check_below.ffc36cde30076884
	ldurb	w8, [x29, #-24]
	mov	w0, #5
	cmp	w8, #1
	b.ne	.LBB191_8
	ldurb	w8, [x29, #-4]
	cmp	w8, #1
	ldp	x9, x8, [sp, #24]
	b.ne	.LBB191_8
	ldr	x10, [sp, #40]
	ubfiz	x4, x20, #3, #32
	add	x11, x10, x21
	mov	x14, x4
	ldur	x12, [x11, #-8]
	ands	x16, x12, #0xffffffff8
	b.eq	.LBB191_20
	ldr	x13, [sp, #48]
	mov	x12, xzr
	mov	x15, x4
	b	.LBB191_15
.LBB191_13:
	cmp	x12, #64
	b.hi	.LBB191_7
.LBB191_14:
	ldur	x15, [x16, #-8]
	add	x12, x12, #1
	ands	x16, x15, #0xffffffff8
	mov	x15, x14
	b.eq	.LBB191_20
.LBB191_15:
	mov	x14, x16
	lsr	x16, x16, #3
	cmp	x16, x13
	b.hi	.LBB191_7
	mov	w17, #24
	madd	x16, x16, x17, x10
	ldur	x17, [x16, #-24]
	tbz	w17, #0, .LBB191_7
	and	x17, x17, #0xffffffff8
	cmp	x17, x15
	b.eq	.LBB191_13
	ldur	x17, [x16, #-16]
	mov	w0, #5
	and	x17, x17, #0xffffffff8
	cmp	x17, x15
	b.ne	.LBB191_8
	cmp	x12, #65
	b.lo	.LBB191_14
	b	.LBB191_8
.LBB191_20:
	cmp	x19, x14
	b.ne	.LBB191_7
	ldur	x11, [x11, #-24]
	ands	x11, x11, #0xffffffff8
	b.eq	.LBB191_25
	sub	x10, x10, #16
.LBB191_23:
	mov	x4, x11
	lsr	x11, x11, #3
	mov	w12, #24
	mul	x11, x11, x12
	ldr	x11, [x10, x11]
	ands	x11, x11, #0xffffffff8
	b.ne	.LBB191_23
	mov	w10, #1
	b	.LBB191_26
.LBB191_25:
	mov	w10, wzr
.LBB191_26:
	mov	w19, wzr
	mov	x24, xzr
	mov	w28, wzr
	mov	w25, wzr
	mov	x27, xzr
	mov	w23, #1
	mov	w22, #67
	stp	xzr, xzr, [sp, #8]
	b	.LBB191_30
.LBB191_27:
	sub	x2, x29, #48
	sub	x5, x29, #24
	mov	w3, wzr
.LBB191_28:
	bl	ic_rbtree.join.roots.join_higher.f4da04d8a93b4f27
	ldrb	w24, [sp, #56]
	ldr	x27, [sp, #64]
	ldr	w25, [sp, #72]
.LBB191_29:
	ldp	x9, x8, [sp, #24]
	and	w10, w20, #0x1
	subs	w22, w22, #1
	add	w19, w10, w19
	mov	w10, w21
	mov	x4, x26
	b.eq	.LBB191_43
.LBB191_30:
	tbz	w23, #0, .LBB191_43
	lsr	x8, x4, #3
	mov	w9, #24
	ldr	x11, [sp, #40]
	madd	x8, x8, x9, x11
	ldur	x20, [x8, #-8]
	ands	x26, x20, #0xffffffff8
	cset	w23, ne
	cbz	x26, .LBB191_33
	lsr	x9, x26, #3
	mov	w12, #24
	madd	x9, x9, x12, x11
	ldur	x9, [x9, #-24]
	and	x9, x9, #0xffffffff8
	cmp	x9, x4
	cset	w21, ne
	b	.LBB191_34
.LBB191_33:
	mov	w21, wzr
.LBB191_34:
	tst	w10, #0xff
	mov	x9, #-24
	mov	x12, #-16
	csel	x9, x12, x9, eq
	ldr	x8, [x8, x9]
	mov	w9, w19
	ands	x8, x8, #0xffffffff8
	b.eq	.LBB191_36
	lsr	x9, x8, #2
	add	x9, x9, x8, lsr #3
	lsl	x9, x9, #3
	add	x11, x11, x9
	ldur	x12, [x11, #-8]
	and	x13, x12, #0x1
	and	w12, w12, #0x1
	stur	x13, [x11, #-8]
	sub	w12, w19, w12
	ldr	x11, [sp, #40]
	add	x9, x11, x9
	ldur	x11, [x9, #-8]
	orr	x11, x11, #0x1
	stur	x11, [x9, #-8]
	add	w9, w12, #1
.LBB191_36:
	cmp	x8, #0
	cset	w11, ne
	tst	w10, #0xff
	b.eq	.LBB191_39
	cmp	w25, w9
	add	x0, sp, #56
	add	x1, sp, #40
	stp	x8, xzr, [x29, #-16]
	stp	xzr, x11, [x29, #-32]
	stur	w9, [x29, #-8]
	stp	x24, x27, [x29, #-48]
	stur	w25, [x29, #-32]
	stp	xzr, xzr, [sp, #56]
	str	xzr, [sp, #72]
	b.hi	.LBB191_27
	sub	x2, x29, #24
	sub	x5, x29, #48
	mov	w3, #1
	b	.LBB191_28
.LBB191_39:
	ldr	x10, [sp, #8]
	cmp	w9, w28
	add	x0, sp, #56
	add	x1, sp, #40
	stp	x11, x8, [x29, #-48]
	stp	xzr, x10, [x29, #-32]
	ldr	x10, [sp, #16]
	stur	w9, [x29, #-32]
	stp	x10, xzr, [x29, #-16]
	stur	w28, [x29, #-8]
	stp	xzr, xzr, [sp, #56]
	str	xzr, [sp, #72]
	b.ls	.LBB191_41
	sub	x2, x29, #48
	sub	x5, x29, #24
	mov	w3, wzr
	b	.LBB191_42
.LBB191_41:
	sub	x2, x29, #24
	sub	x5, x29, #48
	mov	w3, #1
.LBB191_42:
	bl	ic_rbtree.join.roots.join_higher.f4da04d8a93b4f27
	ldrb	w8, [sp, #56]
	ldr	w28, [sp, #72]
	str	x8, [sp, #8]
	ldr	x8, [sp, #64]
	str	x8, [sp, #16]
	b	.LBB191_29
.LBB191_43:
	ldr	x11, [sp, #8]
	cmp	x24, #0
	mov	w0, wzr
	csel	x10, xzr, x27, eq
	cmp	x11, #0
	ldr	x11, [sp, #16]
	str	x10, [x9]
	csel	x11, xzr, x11, eq
	str	x11, [x8]
	b	.LBB191_8
.Lfunc_end191:
	.size	ic_tree_split, .Lfunc_end191-ic_tree_split
	.cfi_endproc
	.section	.text.ic_tree_sums_before,"ax",@progbits
	.globl	ic_tree_sums_before
	.p2align	2
	.type	ic_tree_sums_before,@function
ic_tree_sums_before:
	.cfi_startproc
	hint	#34
	sub	sp, sp, #32
	.cfi_def_cfa_offset 32
	stp	x29, x30, [sp, #16]
	add	x29, sp, #16
	.cfi_def_cfa w29, 16
	.cfi_offset w30, -8
	.cfi_offset w29, -16
	.cfi_remember_state
	cmp	x0, #0
	mov	w9, #4096
	csel	x8, x9, xzr, eq
	cmp	x2, #0
	add	x8, x0, x8
	csel	x10, x9, xzr, eq
	adds	w11, w5, #1
	stp	x8, x1, [sp]
	b.lo	.LBB192_2
	mov	w0, #4
	.cfi_def_cfa wsp, 32
	ldp	x29, x30, [sp, #16]
	add	sp, sp, #32
	.cfi_def_cfa_offset 0
	.cfi_restore w30
	.cfi_restore w29
	ret
.LBB192_2:
	.cfi_restore_state
	.cfi_remember_state
	cmp	x3, x1
	b.lo	.LBB192_27
	cmp	x1, x11
	b.lo	.LBB192_27
	mov	w9, #24
	umaddl	x9, w11, w9, x8
	ldur	x9, [x9, #-24]
	tbz	w9, #0, .LBB192_27
	and	x13, x9, #0xffffffff8
	lsl	x9, x1, #3
	ubfiz	x12, x11, #3, #32
	sub	x14, x13, #1
	add	x10, x2, x10
	cmp	x14, x9
	b.hs	.LBB192_8
	lsr	x11, x13, #3
	sub	x11, x11, #1
	cmp	x11, x3
	b.hs	.LBB192_9
	add	x11, x10, x11, lsl #4
	ldr	x11, [x11, #8]
	mov	w13, #67
	cbnz	w4, .LBB192_11
	b	.LBB192_19
.LBB192_8:
	mov	x11, xzr
	mov	w13, #67
	cbnz	w4, .LBB192_11
	b	.LBB192_19
.LBB192_9:
	mov	x11, xzr
	mov	w13, #67
	cbnz	w4, .LBB192_11
	b	.LBB192_19
.LBB192_10:
	subs	w13, w13, #1
	mov	x12, x14
	b.eq	.LBB192_27
.LBB192_11:
	lsr	x14, x12, #3
	mov	w15, #24
	madd	x14, x14, x15, x8
	ldur	x14, [x14, #-8]
	and	x14, x14, #0xffffffff8
	sub	x15, x14, #1
	cmp	x15, x9
	b.hs	.LBB192_26
	lsr	x16, x14, #3
	mov	w15, #24
	madd	x15, x16, x15, x8
	ldur	x17, [x15, #-16]
	and	x17, x17, #0xffffffff8
	cmp	x17, x12
	b.ne	.LBB192_10
	sub	x12, x16, #1
	cmp	x12, x3
	b.hs	.LBB192_15
	lsl	x12, x12, #4
	ldr	x12, [x10, x12]
	cmp	x12, x11
	csel	x11, x12, x11, hi
.LBB192_15:
	ldur	x12, [x15, #-24]
	and	x12, x12, #0xffffffff8
	sub	x15, x12, #1
	cmp	x15, x9
	b.hs	.LBB192_10
	lsr	x12, x12, #3
	sub	x12, x12, #1
	cmp	x12, x3
	b.hs	.LBB192_10
	add	x12, x10, x12, lsl #4
	ldr	x12, [x12, #8]
	cmp	x12, x11
	csel	x11, x12, x11, hi
	b	.LBB192_10
.LBB192_18:
	subs	w13, w13, #1
	mov	x12, x14
	b.eq	.LBB192_27
.LBB192_19:
	lsr	x14, x12, #3
	mov	w15, #24
	madd	x14, x14, x15, x8
	ldur	x14, [x14, #-8]
	and	x14, x14, #0xffffffff8
	sub	x15, x14, #1
	cmp	x15, x9
	b.hs	.LBB192_26
	lsr	x16, x14, #3
	mov	w15, #24
	madd	x15, x16, x15, x8
	ldur	x17, [x15, #-16]
	and	x17, x17, #0xffffffff8
	cmp	x17, x12
	b.ne	.LBB192_18
	sub	x12, x16, #1
	cmp	x12, x3
	b.hs	.LBB192_23
	lsl	x12, x12, #4
	ldr	x12, [x10, x12]
	adds	x11, x11, x12
	csinv	x11, x11, xzr, lo
.LBB192_23:
	ldur	x12, [x15, #-24]
	and	x12, x12, #0xffffffff8
	sub	x15, x12, #1
	cmp	x15, x9
	b.hs	.LBB192_18
	lsr	x12, x12, #3
	sub	x12, x12, #1
	cmp	x12, x3
	b.hs	.LBB192_18
	add	x12, x10, x12, lsl #4
	ldr	x12, [x12, #8]
	adds	x11, x11, x12
	csinv	x11, x11, xzr, lo
	b	.LBB192_18
.LBB192_26:
	mov	w0, wzr
	str	x11, [x6]
	.cfi_def_cfa wsp, 32
	ldp	x29, x30, [sp, #16]
	add	sp, sp, #32
	.cfi_def_cfa_offset 0
	.cfi_restore w30
	.cfi_restore w29
	ret
.LBB192_27:
	.cfi_restore_state
	mov	x0, sp
	mov	x1, x3
	mov	w2, w5
	bl	ic_raw_augmented.sum_calls.refusal
	.cfi_def_cfa wsp, 32
	ldp	x29, x30, [sp, #16]
	add	sp, sp, #32
	.cfi_def_cfa_offset 0
	.cfi_restore w30
	.cfi_restore w29
	ret
.Lfunc_end192:
	.size	ic_tree_sums_before, .Lfunc_end192-ic_tree_sums_before
	.cfi_endproc
	.section	.text.ic_tree_sums_find,"ax",@progbits
	.globl	ic_tree_sums_find
	.p2align	2
	.type	ic_tree_sums_find,@function
ic_tree_sums_find:
	.cfi_startproc
	hint	#34
	sub	sp, sp, #112
	.cfi_def_cfa_offset 112
	stp	x29, x30, [sp, #64]
	stp	x22, x21, [sp, #80]
	stp	x20, x19, [sp, #96]
	add	x29, sp, #64
	.cfi_def_cfa w29, 48
	.cfi_offset w19, -8
	.cfi_offset w20, -16
	.cfi_offset w21, -24
	.cfi_offset w22, -32
	.cfi_offset w30, -40
	.cfi_offset w29, -48
	.cfi_remember_state
	cmp	x0, #0
	mov	w8, #4096
	ldr	x10, [x5]
	csel	x9, x8, xzr, eq
	cmp	x2, #0
	mov	w19, w6
	add	x22, x0, x9
	csel	x9, x8, xzr, eq
	cmp	w4, #0
	cset	w4, ne
	ands	x6, x10, #0xffffffff8
	mov	x20, x3
	cset	w5, ne
	adds	w10, w19, #1
	stp	x22, x1, [sp, #24]
	cset	w8, ne
	cmp	x3, x1
	stp	xzr, xzr, [x29, #-16]
	stur	xzr, [x29, #-24]
	b.lo	.LBB193_13
	mov	x21, x1
	cbz	w10, .LBB193_4
	cmp	x21, x10
	b.lo	.LBB193_13
	mov	w11, #24
	umaddl	x11, w10, w11, x22
	ldurb	w11, [x11, #-24]
	tbz	w11, #0, .LBB193_13
.LBB193_4:
	cbz	x6, .LBB193_7
	lsr	x11, x6, #3
	cmp	x11, x21
	b.hi	.LBB193_13
	mov	w12, #24
	madd	x11, x11, x12, x22
	ldurb	w11, [x11, #-24]
	tbz	w11, #0, .LBB193_13
.LBB193_7:
	ubfiz	x10, x10, #3, #32
	sub	x0, x29, #24
	add	x1, sp, #24
	add	x2, x2, x9
	mov	x3, x20
	stp	x10, x7, [sp]
	mov	w7, w8
	bl	ic_raw_augmented.find.find
	ldurb	w8, [x29, #-24]
	cmp	w8, #1
	b.ne	.LBB193_13
	ldurb	w8, [x29, #-16]
	cmp	w8, #1
	b.ne	.LBB193_12
	ldur	x8, [x29, #-8]
	lsr	x9, x8, #3
	cmp	x9, x21
	b.hi	.LBB193_13
	mov	w10, #24
	madd	x9, x9, x10, x22
	ldurb	w9, [x9, #-24]
	tbz	w9, #0, .LBB193_13
	mov	w9, #-1
	ldr	x10, [x29, #48]
	mov	w0, wzr
	add	x8, x9, x8, lsr #3
	str	w8, [x10]
	.cfi_def_cfa wsp, 112
	ldp	x20, x19, [sp, #96]
	ldp	x22, x21, [sp, #80]
	ldp	x29, x30, [sp, #64]
	add	sp, sp, #112
	.cfi_def_cfa_offset 0
	.cfi_restore w19
	.cfi_restore w20
	.cfi_restore w21
	.cfi_restore w22
	.cfi_restore w30
	.cfi_restore w29
	ret
.LBB193_12:
	.cfi_restore_state
	.cfi_remember_state
	mov	w0, #4
	.cfi_def_cfa wsp, 112
	ldp	x20, x19, [sp, #96]
	ldp	x22, x21, [sp, #80]
	ldp	x29, x30, [sp, #64]
	add	sp, sp, #112
	.cfi_def_cfa_offset 0
	.cfi_restore w19
	.cfi_restore w20
	.cfi_restore w21
	.cfi_restore w22
	.cfi_restore w30
	.cfi_restore w29
	ret
.LBB193_13:
	.cfi_restore_state
	add	x0, sp, #24
	mov	x1, x20
	mov	w2, w19
	bl	ic_raw_augmented.sum_calls.refusal
	.cfi_def_cfa wsp, 112
	ldp	x20, x19, [sp, #96]
	ldp	x22, x21, [sp, #80]
	ldp	x29, x30, [sp, #64]
	add	sp, sp, #112
	.cfi_def_cfa_offset 0
	.cfi_restore w19
	.cfi_restore w20
	.cfi_restore w21
	.cfi_restore w22
	.cfi_restore w30
	.cfi_restore w29
	ret
.Lfunc_end193:
	.size	ic_tree_sums_find, .Lfunc_end193-ic_tree_sums_find
	.cfi_endproc
	.section	.text.ic_tree_sums_insert,"ax",@progbits
	.globl	ic_tree_sums_insert
	.p2align	2
	.type	ic_tree_sums_insert,@function
ic_tree_sums_insert:
	.cfi_startproc
	hint	#34
	sub	sp, sp, #240
	.cfi_def_cfa_offset 240
	stp	x29, x30, [sp, #160]
	stp	x26, x25, [sp, #176]
	stp	x24, x23, [sp, #192]
	stp	x22, x21, [sp, #208]
	stp	x20, x19, [sp, #224]
	add	x29, sp, #160
	.cfi_def_cfa w29, 80
	.cfi_offset w19, -8
	.cfi_offset w20, -16
	.cfi_offset w21, -24
	.cfi_offset w22, -32
	.cfi_offset w23, -40
	.cfi_offset w24, -48
	.cfi_offset w25, -56
	.cfi_offset w26, -64
	.cfi_offset w30, -72
	.cfi_offset w29, -80
	cmp	x0, #0
	mov	w9, #4096
	csel	x11, x9, xzr, eq
	cmp	x2, #0
	csel	x10, x9, xzr, eq
	cmp	x4, #0
	csel	x25, x9, xzr, eq
	cmp	w6, #0
	cset	w21, ne
	cmp	x5, x1
	b.hs	.LBB194_2
	mov	w24, #1
	b	.LBB194_25
.LBB194_2:
	mov	x8, x2
	ldr	w2, [x29, #80]
	add	x22, x0, x11
	ldr	x11, [x7]
	mov	x19, x5
	mov	x20, x4
	adds	w9, w2, #1
	stp	xzr, xzr, [sp, #24]
	ubfiz	x6, x9, #3, #32
	cset	w12, ne
	and	x11, x11, #0xffffffff8
	cmp	x3, x1
	stp	xzr, x12, [sp, #112]
	stp	x6, xzr, [sp, #8]
	stp	xzr, xzr, [sp, #40]
	stp	xzr, xzr, [sp, #56]
	stp	xzr, xzr, [sp, #72]
	stp	xzr, xzr, [sp, #88]
	str	xzr, [sp, #104]
	str	xzr, [sp, #128]
	stp	x22, x1, [x29, #-16]
	stur	x11, [x29, #-24]
	b.lo	.LBB194_23
	cbz	x11, .LBB194_13
	lsr	x12, x11, #3
	cmp	x12, x1
	b.hi	.LBB194_23
	cbz	w9, .LBB194_23
	cmp	x1, x9
	b.lo	.LBB194_23
	mov	w13, #24
	madd	x12, x12, x13, x22
	ldur	x12, [x12, #-24]
	tbz	w12, #0, .LBB194_23
	add	x10, x8, x10
	lsl	x12, x1, #3
	mov	w13, #22
	add	x8, x10, x6
	ldur	x8, [x8, #-8]
.LBB194_9:
	lsr	x14, x11, #3
	mov	w15, #24
	madd	x14, x14, x15, x22
	add	x15, x10, x11
	ldur	x17, [x15, #-8]
	cmp	x8, x17
	ldp	x15, x16, [x14, #-24]
	csel	x14, x16, x15, hs
	and	x14, x14, #0xffffffff8
	sub	x0, x14, #1
	cmp	x0, x12
	b.hs	.LBB194_16
	lsr	x11, x14, #3
	mov	w15, #24
	madd	x15, x11, x15, x22
	add	x11, x10, x14
	ldur	x17, [x11, #-8]
	cmp	x8, x17
	ldp	x11, x16, [x15, #-24]
	csel	x15, x16, x11, hs
	and	x15, x15, #0xffffffff8
	sub	x0, x15, #1
	cmp	x0, x12
	b.hs	.LBB194_17
	lsr	x11, x15, #3
	mov	w14, #24
	madd	x11, x11, x14, x22
	add	x14, x10, x15
	ldur	x17, [x14, #-8]
	cmp	x8, x17
	ldp	x14, x16, [x11, #-24]
	csel	x11, x16, x14, hs
	and	x11, x11, #0xffffffff8
	sub	x0, x11, #1
	cmp	x0, x12
	b.hs	.LBB194_18
	subs	w13, w13, #1
	b.ne	.LBB194_9
	b	.LBB194_23
.LBB194_13:
	cbz	w9, .LBB194_23
	cmp	x1, x9
	b.lo	.LBB194_23
	mov	w5, wzr
	mov	x4, xzr
	b	.LBB194_21
.LBB194_16:
	cmp	x8, x17
	cset	w10, hs
	cmp	x15, x14
	ccmp	x16, x14, #2, lo
	cset	w8, hs
	csel	w5, wzr, w10, lo
	cmp	w8, #0
	csel	x4, x11, xzr, ne
	b	.LBB194_19
.LBB194_17:
	cmp	x8, x17
	cset	w10, hs
	cmp	x11, x15
	ccmp	x16, x15, #2, lo
	cset	w8, hs
	csel	w5, wzr, w10, lo
	cmp	w8, #0
	csel	x4, x14, xzr, ne
	b	.LBB194_19
.LBB194_18:
	cmp	x8, x17
	cset	w10, hs
	cmp	x14, x11
	ccmp	x16, x11, #2, lo
	cset	w8, hs
	csel	w5, wzr, w10, lo
	cmp	w8, #0
	csel	x4, x15, xzr, ne
.LBB194_19:
	cmp	w8, #0
	ccmp	x4, #0, #4, ne
	b.eq	.LBB194_23
	lsr	x8, x4, #3
	mov	w10, #24
	madd	x8, x8, x10, x22
	ldurb	w8, [x8, #-24]
	tbz	w8, #0, .LBB194_23
.LBB194_21:
	mov	w8, #24
	umaddl	x8, w9, w8, x22
	ldurb	w9, [x8, #-24]
	tbnz	w9, #0, .LBB194_23
	cmp	x4, #0
	mov	x23, x1
	mov	w9, #1
	cset	w3, ne
	add	x0, sp, #8
	sub	x1, x29, #16
	sub	x2, x29, #24
	stp	x9, xzr, [x8, #-24]
	mov	x26, x7
	stur	xzr, [x8, #-8]
	bl	ic_raw_augmented.noting.WrittenSurgery.attach
	ldur	x8, [x29, #-24]
	mov	w24, wzr
	str	x8, [x26]
	b	.LBB194_24
.LBB194_23:
	mov	x23, x1
	sub	x0, x29, #16
	mov	x1, x3
	bl	ic_raw.search.refusal_of
	mov	w24, w0
.LBB194_24:
	add	x2, x20, x25
	add	x5, sp, #8
	mov	x0, x22
	mov	x1, x23
	mov	x3, x19
	mov	w4, w21
	mov	w6, w24
	bl	ic_raw_augmented.edit_calls.settle
.LBB194_25:
	mov	w0, w24
	.cfi_def_cfa wsp, 240
	ldp	x20, x19, [sp, #224]
	ldp	x22, x21, [sp, #208]
	ldp	x24, x23, [sp, #192]
	ldp	x26, x25, [sp, #176]
	ldp	x29, x30, [sp, #160]
	add	sp, sp, #240
	.cfi_def_cfa_offset 0
	.cfi_restore w19
	.cfi_restore w20
	.cfi_restore w21
	.cfi_restore w22
	.cfi_restore w23
	.cfi_restore w24
	.cfi_restore w25
	.cfi_restore w26
	.cfi_restore w30
	.cfi_restore w29
	ret
.Lfunc_end194:
	.size	ic_tree_sums_insert, .Lfunc_end194-ic_tree_sums_insert
	.cfi_endproc
	.section	.text.ic_tree_sums_insert_left,"ax",@progbits
	.globl	ic_tree_sums_insert_left
	.p2align	2
	.type	ic_tree_sums_insert_left,@function
ic_tree_sums_insert_left:
	.cfi_startproc
	hint	#34
	sub	sp, sp, #32
	.cfi_def_cfa_offset 32
	stp	x29, x30, [sp, #16]
	add	x29, sp, #16
	.cfi_def_cfa w29, 16
	.cfi_offset w30, -8
	.cfi_offset w29, -16
	cmp	x0, #0
	mov	w9, #4096
	mov	w8, w7
	csel	x10, x9, xzr, eq
	cmp	x2, #0
	mov	w7, w6
	csel	x9, x9, xzr, eq
	cmp	w4, #0
	add	x0, x0, x10
	cset	w4, ne
	add	x2, x2, x9
	mov	w6, wzr
	str	w8, [sp]
	bl	ic_raw_augmented.edit_calls.insert_at
	.cfi_def_cfa wsp, 32
	ldp	x29, x30, [sp, #16]
	add	sp, sp, #32
	.cfi_def_cfa_offset 0
	.cfi_restore w30
	.cfi_restore w29
	ret
.Lfunc_end195:
	.size	ic_tree_sums_insert_left, .Lfunc_end195-ic_tree_sums_insert_left
	.cfi_endproc
	.section	.text.ic_tree_sums_insert_right,"ax",@progbits
	.globl	ic_tree_sums_insert_right
	.p2align	2
	.type	ic_tree_sums_insert_right,@function
ic_tree_sums_insert_right:
	.cfi_startproc
	hint	#34
	sub	sp, sp, #32
	.cfi_def_cfa_offset 32
	stp	x29, x30, [sp, #16]
	add	x29, sp, #16
	.cfi_def_cfa w29, 16
	.cfi_offset w30, -8
	.cfi_offset w29, -16
	cmp	x0, #0
	mov	w9, #4096
	mov	w8, w7
	csel	x10, x9, xzr, eq
	cmp	x2, #0
	mov	w7, w6
	csel	x9, x9, xzr, eq
	cmp	w4, #0
	add	x0, x0, x10
	cset	w4, ne
	add	x2, x2, x9
	mov	w6, #1
	str	w8, [sp]
	bl	ic_raw_augmented.edit_calls.insert_at
	.cfi_def_cfa wsp, 32
	ldp	x29, x30, [sp, #16]
	add	sp, sp, #32
	.cfi_def_cfa_offset 0
	.cfi_restore w30
	.cfi_restore w29
	ret
.Lfunc_end196:
	.size	ic_tree_sums_insert_right, .Lfunc_end196-ic_tree_sums_insert_right
	.cfi_endproc
	.section	.text.ic_tree_sums_overlap,"ax",@progbits
	.globl	ic_tree_sums_overlap
	.p2align	2
	.type	ic_tree_sums_overlap,@function
ic_tree_sums_overlap:
	.cfi_startproc
	hint	#34
	sub	sp, sp, #144
	.cfi_def_cfa_offset 144
	stp	x29, x30, [sp, #64]
	str	x25, [sp, #80]
	stp	x24, x23, [sp, #96]
	stp	x22, x21, [sp, #112]
	stp	x20, x19, [sp, #128]
	add	x29, sp, #64
	.cfi_def_cfa w29, 80
	.cfi_offset w19, -8
	.cfi_offset w20, -16
	.cfi_offset w21, -24
	.cfi_offset w22, -32
	.cfi_offset w23, -40
	.cfi_offset w24, -48
	.cfi_offset w25, -64
	.cfi_offset w30, -72
	.cfi_offset w29, -80
	cmp	x0, #0
	mov	w8, #4096
	ldr	x10, [x6]
	csel	x9, x8, xzr, eq
	cmp	x2, #0
	mov	x20, x5
	csel	x25, x8, xzr, eq
	cmp	x4, #0
	add	x24, x0, x9
	csel	x8, x8, xzr, eq
	ands	x6, x10, #0xffffffff8
	mov	w19, w7
	cset	w5, ne
	adds	w9, w7, #1
	mov	x21, x3
	cset	w7, ne
	cmp	x3, x1
	stp	x24, x1, [sp, #24]
	b.lo	.LBB197_15
	mov	x22, x1
	cmp	x20, x1
	b.lo	.LBB197_15
	mov	x23, x2
	cbz	w9, .LBB197_5
	cmp	x22, x9
	b.lo	.LBB197_15
	mov	w10, #24
	umaddl	x10, w9, w10, x24
	ldurb	w10, [x10, #-24]
	tbz	w10, #0, .LBB197_15
.LBB197_5:
	cbz	x6, .LBB197_8
	lsr	x10, x6, #3
	cmp	x10, x22
	b.hi	.LBB197_15
	mov	w11, #24
	madd	x10, x10, x11, x24
	ldurb	w10, [x10, #-24]
	tbz	w10, #0, .LBB197_15
.LBB197_8:
	ldr	x10, [x29, #80]
	ubfiz	x9, x9, #3, #32
	sub	x0, x29, #24
	add	x1, sp, #24
	add	x2, x4, x8
	mov	x3, x20
	mov	w4, #1
	stp	xzr, xzr, [x29, #-16]
	stur	xzr, [x29, #-24]
	stp	x9, x10, [sp]
	bl	ic_raw_augmented.find.find
	ldurb	w8, [x29, #-24]
	cmp	w8, #1
	b.ne	.LBB197_15
	ldurb	w8, [x29, #-16]
	cmp	w8, #1
	b.ne	.LBB197_14
	ldur	x8, [x29, #-8]
	add	x9, x23, x25
	ldr	x10, [x29, #88]
	add	x9, x9, x8
	ldur	x9, [x9, #-8]
	cmp	x9, x10
	b.hs	.LBB197_14
	lsr	x9, x8, #3
	cmp	x9, x22
	b.hi	.LBB197_15
	mov	w10, #24
	madd	x9, x9, x10, x24
	ldurb	w9, [x9, #-24]
	tbz	w9, #0, .LBB197_15
	mov	w9, #-1
	ldr	x10, [x29, #96]
	mov	w0, wzr
	add	x8, x9, x8, lsr #3
	str	w8, [x10]
	b	.LBB197_16
.LBB197_14:
	mov	w0, #4
	b	.LBB197_16
.LBB197_15:
	add	x0, sp, #24
	mov	x1, x21
	mov	x2, x20
	mov	w3, w19
	bl	ic_raw_augmented.sum_calls.refusal_of_starts
.LBB197_16:
	.cfi_def_cfa wsp, 144
	ldp	x20, x19, [sp, #128]
	ldr	x25, [sp, #80]
	ldp	x22, x21, [sp, #112]
	ldp	x24, x23, [sp, #96]
	ldp	x29, x30, [sp, #64]
	add	sp, sp, #144
	.cfi_def_cfa_offset 0
	.cfi_restore w19
	.cfi_restore w20
	.cfi_restore w21
	.cfi_restore w22
	.cfi_restore w23
	.cfi_restore w24
	.cfi_restore w25
	.cfi_restore w30
	.cfi_restore w29
	ret
.Lfunc_end197:
	.size	ic_tree_sums_overlap, .Lfunc_end197-ic_tree_sums_overlap
	.cfi_endproc
	.section	.text.ic_tree_sums_remove,"ax",@progbits
	.globl	ic_tree_sums_remove
	.p2align	2
	.type	ic_tree_sums_remove,@function
ic_tree_sums_remove:
	.cfi_startproc
	hint	#34
	sub	sp, sp, #208
	.cfi_def_cfa_offset 208
	stp	x29, x30, [sp, #128]
	stp	x26, x25, [sp, #144]
	stp	x24, x23, [sp, #160]
	stp	x22, x21, [sp, #176]
	stp	x20, x19, [sp, #192]
	add	x29, sp, #128
	.cfi_def_cfa w29, 80
	.cfi_offset w19, -8
	.cfi_offset w20, -16
	.cfi_offset w21, -24
	.cfi_offset w22, -32
	.cfi_offset w23, -40
	.cfi_offset w24, -48
	.cfi_offset w25, -56
	.cfi_offset w26, -64
	.cfi_offset w30, -72
	.cfi_offset w29, -80
	.cfi_remember_state
	cmp	x0, #0
	mov	w9, #4096
	csel	x8, x9, xzr, eq
	cmp	x2, #0
	csel	x21, x9, xzr, eq
	cmp	w4, #0
	cset	w4, ne
	cmp	x3, x1
	b.hs	.LBB198_2
	mov	w19, #1
	b	.LBB198_204
.LBB198_2:
	adds	w10, w6, #1
	add	x0, x0, x8
	stp	xzr, xzr, [sp, #112]
	stp	xzr, xzr, [sp, #96]
	stp	xzr, xzr, [sp, #80]
	stp	xzr, xzr, [sp, #64]
	stp	xzr, xzr, [sp, #48]
	stp	xzr, xzr, [sp, #32]
	stp	xzr, xzr, [sp, #16]
	stp	xzr, xzr, [sp]
	b.lo	.LBB198_4
	mov	w19, #4
	b	.LBB198_203
.LBB198_4:
	cmp	x1, x10
	b.lo	.LBB198_20
	mov	w8, #24
	umaddl	x8, w10, w8, x0
	ldur	x12, [x8, #-24]
	tbz	w12, #0, .LBB198_20
	ldr	x9, [x5]
	lsl	x11, x1, #3
	and	x9, x9, #0xffffffff8
	sub	x13, x9, #1
	cmp	x13, x11
	b.hs	.LBB198_20
	lsr	x13, x9, #3
	mov	w14, #24
	madd	x13, x13, x14, x0
	ldurb	w13, [x13, #-24]
	tbz	w13, #0, .LBB198_20
	ubfiz	x13, x10, #3, #32
	ldur	x17, [x8, #-8]
	cmp	x9, x13
	and	x10, x17, #0xffffffff8
	b.eq	.LBB198_10
	cbz	x10, .LBB198_20
.LBB198_10:
	and	x15, x12, #0xffffffff8
	ldur	x14, [x8, #-16]
	sub	x12, x15, #1
	cmp	x12, x11
	and	x12, x14, #0xffffffff8
	b.hs	.LBB198_16
	sub	x14, x12, #1
	cmp	x14, x11
	b.hs	.LBB198_17
	mov	w14, #67
.LBB198_13:
	lsr	x10, x12, #2
	add	x10, x10, x12, lsr #3
	lsl	x6, x10, #3
	add	x10, x0, x6
	ldur	x15, [x10, #-24]
	and	x15, x15, #0xffffffff8
	sub	x16, x15, #1
	cmp	x16, x11
	b.hs	.LBB198_25
	subs	w14, w14, #1
	mov	x12, x15
	b.ne	.LBB198_13
	lsr	x10, x15, #2
	add	x10, x10, x15, lsr #3
	lsl	x6, x10, #3
	add	x10, x0, x6
	ldur	x12, [x10, #-24]
	and	x7, x12, #0xffffffff8
	sub	x12, x7, #1
	cmp	x12, x11
	b.hs	.LBB198_26
	b	.LBB198_27
.LBB198_16:
	cmp	x12, x11
	csel	x15, xzr, x12, hi
.LBB198_17:
	cmp	x10, x11
	csel	x10, xzr, x10, hi
	cmp	x10, #0
	cset	w14, ne
	cbz	x10, .LBB198_21
	lsr	x12, x10, #3
	mov	w16, #24
	mov	w7, #1
	str	x10, [sp]
	madd	x12, x12, x16, x0
	str	x7, [sp, #112]
	ldur	x6, [x12, #-24]
	and	x16, x6, #0xffffffff8
	cmp	x16, x11
	csel	x16, xzr, x16, hi
	cmp	x16, x13
	b.ne	.LBB198_23
	and	x13, x6, #0x1
	mov	w16, wzr
	add	x13, x13, x15
	stur	x13, [x12, #-24]
	mov	w12, #1
	cbnz	x15, .LBB198_22
	b	.LBB198_24
.LBB198_20:
	mov	x22, x2
	mov	w2, w6
	mov	x20, x0
	mov	x19, x1
	mov	x23, x3
	mov	w24, w4
	bl	ic_raw.table.RawTable.refusal_at.19bacce014a8892a
	mov	w4, w24
	mov	x2, x22
	mov	x1, x19
	mov	x3, x23
	mov	w19, w0
	mov	x0, x20
	b	.LBB198_203
.LBB198_21:
	mov	x12, xzr
	mov	w16, wzr
	mov	x9, x15
	cbz	x15, .LBB198_24
.LBB198_22:
	lsr	x11, x15, #3
	mov	w12, #24
	orr	x10, x10, #0x1
	madd	x11, x11, x12, x0
	stur	x10, [x11, #-8]
	b	.LBB198_202
.LBB198_23:
	stur	x15, [x12, #-16]
	mov	w12, #1
	mov	w16, #1
	cbnz	x15, .LBB198_22
.LBB198_24:
	b	.LBB198_57
.LBB198_25:
	mov	x15, x12
.LBB198_26:
	ldur	x12, [x10, #-16]
	and	x12, x12, #0xffffffff8
	cmp	x12, x11
	csel	x7, xzr, x12, hi
.LBB198_27:
	ldur	x17, [x10, #-8]
	and	x10, x17, #0xffffffff8
	cmp	x10, x11
	csel	x10, xzr, x10, hi
	cmp	x10, #0
	cset	w14, ne
	cbz	x10, .LBB198_30
	lsr	x12, x10, #3
	mov	w16, #24
	mov	w20, #1
	str	x10, [sp]
	madd	x12, x12, x16, x0
	str	x20, [sp, #112]
	ldur	x19, [x12, #-24]
	and	x16, x19, #0xffffffff8
	cmp	x16, x11
	csel	x16, xzr, x16, hi
	cmp	x16, x15
	b.ne	.LBB198_31
	and	x19, x19, #0x1
	mov	w16, wzr
	add	x19, x19, x7
	stur	x19, [x12, #-24]
	mov	w12, #1
	b	.LBB198_32
.LBB198_30:
	mov	x12, xzr
	mov	w16, wzr
	mov	x9, x7
	b	.LBB198_32
.LBB198_31:
	stur	x7, [x12, #-16]
	mov	w12, #1
	mov	w16, #1
.LBB198_32:
	cbz	x7, .LBB198_34
	lsr	x7, x7, #3
	mov	w19, #24
	mov	w17, wzr
	madd	x7, x7, x19, x0
	orr	x19, x10, #0x1
	stur	x19, [x7, #-8]
.LBB198_34:
	cmp	x15, x13
	b.eq	.LBB198_57
	ldp	x22, x7, [x8, #-16]
	ldur	x19, [x8, #-24]
	and	x23, x19, #0xffffffff8
	and	x20, x7, #0xffffffff8
	cmp	x20, x11
	csel	x19, xzr, x20, hi
	cmp	x23, x11
	and	x20, x22, #0xffffffff8
	csel	x22, xzr, x23, hi
	cmp	x20, x11
	csel	x20, xzr, x20, hi
	cbz	x19, .LBB198_39
	lsr	x23, x19, #3
	mov	w24, #24
	madd	x23, x23, x24, x0
	ldur	x24, [x23, #-24]
	and	x25, x24, #0xffffffff8
	cmp	x25, x11
	csel	x26, xzr, x25, hi
	mov	x25, sp
	ldr	x25, [x25, x12, lsl #3]
	cmp	x26, x13
	b.ne	.LBB198_40
	cbz	x25, .LBB198_42
	mov	w25, #1
	strb	w25, [sp, #120]
	b	.LBB198_43
.LBB198_39:
	mov	x9, x15
	b	.LBB198_46
.LBB198_40:
	cbz	x25, .LBB198_44
	mov	w24, #1
	strb	w24, [sp, #120]
	b	.LBB198_45
.LBB198_42:
	mov	x25, sp
	str	x19, [x25, x12, lsl #3]
	add	x12, x12, #1
	str	x12, [sp, #112]
.LBB198_43:
	and	x24, x24, #0x1
	orr	x24, x24, x15
	stur	x24, [x23, #-24]
	b	.LBB198_46
.LBB198_44:
	mov	x24, sp
	str	x19, [x24, x12, lsl #3]
	add	x12, x12, #1
	str	x12, [sp, #112]
.LBB198_45:
	stur	x15, [x23, #-16]
.LBB198_46:
	cbz	x22, .LBB198_48
	lsr	x23, x22, #3
	mov	w24, #24
	madd	x23, x23, x24, x0
	ldur	x24, [x23, #-8]
	and	x24, x24, #0x1
	orr	x24, x24, x15
	stur	x24, [x23, #-8]
.LBB198_48:
	cbz	x20, .LBB198_50
	lsr	x23, x20, #3
	mov	w24, #24
	madd	x23, x23, x24, x0
	ldur	x24, [x23, #-8]
	and	x24, x24, #0x1
	orr	x24, x24, x15
	stur	x24, [x23, #-8]
.LBB198_50:
	lsl	x23, x12, #3
	mov	x24, sp
	ldr	x25, [x24, x23]
	cbz	x25, .LBB198_52
	mov	w24, #1
	strb	w24, [sp, #120]
	b	.LBB198_53
.LBB198_52:
	str	x15, [x24, x12, lsl #3]
	add	x12, x12, #1
	lsl	x23, x12, #3
	str	x12, [sp, #112]
.LBB198_53:
	add	x6, x0, x6
	mov	x24, sp
	ldur	x25, [x6, #-24]
	ldr	x26, [x24, x23]
	and	x25, x25, #0x1
	orr	x22, x25, x22
	stur	x22, [x6, #-24]
	cbz	x26, .LBB198_55
	mov	w22, #1
	strb	w22, [sp, #120]
	b	.LBB198_56
.LBB198_55:
	add	x12, x12, #1
	str	x15, [x24, x23]
	str	x12, [sp, #112]
.LBB198_56:
	and	x7, x7, #0x1
	cmp	x10, x13
	orr	x7, x19, x7
	csel	x10, x15, x10, eq
	stp	x20, x7, [x6, #-16]
.LBB198_57:
	tbz	w17, #0, .LBB198_202
	cbz	w14, .LBB198_202
	mov	w15, #67
.LBB198_60:
	lsr	x13, x10, #3
	mov	w14, #24
	madd	x13, x13, x14, x0
	tbz	w16, #0, .LBB198_72
	ldur	x6, [x13, #-24]
	and	x14, x6, #0xffffffff8
	sub	x16, x14, #1
	cmp	x16, x11
	b.hs	.LBB198_202
	lsr	x16, x14, #2
	add	x16, x16, x14, lsr #3
	lsl	x17, x16, #3
	add	x16, x0, x17
	ldur	w7, [x16, #-8]
	tbnz	w7, #0, .LBB198_92
	ldur	x17, [x16, #-16]
	ldur	x7, [x13, #-8]
	and	x17, x17, #0xffffffff8
	and	x19, x7, #0xffffffff8
	cmp	x17, x11
	csel	x7, xzr, x17, hi
	cmp	x19, x11
	csel	x17, xzr, x19, hi
	cmp	x12, #13
	b.hi	.LBB198_65
	mov	x19, sp
	ldr	x20, [x19, x12, lsl #3]
	cbz	x20, .LBB198_112
.LBB198_65:
	mov	w19, #1
	strb	w19, [sp, #120]
	and	x6, x6, #0x1
	orr	x6, x7, x6
	stur	x6, [x13, #-24]
	cbz	x7, .LBB198_67
.LBB198_66:
	lsr	x6, x7, #3
	mov	w7, #24
	madd	x6, x6, x7, x0
	ldur	x7, [x6, #-8]
	and	x7, x7, #0x1
	orr	x7, x7, x10
	stur	x7, [x6, #-8]
.LBB198_67:
	orr	x6, x17, #0x1
	stur	x6, [x16, #-8]
	cbz	x17, .LBB198_83
	lsr	x6, x17, #3
	mov	w7, #24
	madd	x6, x6, x7, x0
	ldur	x7, [x6, #-24]
	and	x19, x7, #0xffffffff8
	cmp	x19, x11
	csel	x19, xzr, x19, hi
	cmp	x19, x10
	b.ne	.LBB198_85
	cmp	x12, #13
	b.hi	.LBB198_71
	mov	x19, sp
	ldr	x20, [x19, x12, lsl #3]
	cbz	x20, .LBB198_116
.LBB198_71:
	mov	w17, #1
	strb	w17, [sp, #120]
	and	x17, x7, #0x1
	orr	x17, x17, x14
	stur	x17, [x6, #-24]
	cmp	x12, #13
	b.ls	.LBB198_88
	b	.LBB198_89
.LBB198_72:
	ldur	x14, [x13, #-16]
	and	x14, x14, #0xffffffff8
	sub	x16, x14, #1
	cmp	x16, x11
	b.hs	.LBB198_202
	lsr	x16, x14, #2
	add	x16, x16, x14, lsr #3
	lsl	x19, x16, #3
	add	x16, x0, x19
	ldur	w17, [x16, #-8]
	tbnz	w17, #0, .LBB198_104
	ldur	x17, [x16, #-24]
	ldur	x6, [x13, #-8]
	and	x17, x17, #0xffffffff8
	and	x7, x6, #0xffffffff8
	cmp	x17, x11
	csel	x6, xzr, x17, hi
	cmp	x7, x11
	csel	x17, xzr, x7, hi
	cmp	x12, #13
	b.hi	.LBB198_76
	mov	x7, sp
	ldr	x19, [x7, x12, lsl #3]
	cbz	x19, .LBB198_113
.LBB198_76:
	mov	w7, #1
	strb	w7, [sp, #120]
	stur	x6, [x13, #-16]
	cbz	x6, .LBB198_78
.LBB198_77:
	lsr	x6, x6, #3
	mov	w7, #24
	madd	x6, x6, x7, x0
	ldur	x7, [x6, #-8]
	and	x7, x7, #0x1
	orr	x7, x7, x10
	stur	x7, [x6, #-8]
.LBB198_78:
	orr	x6, x17, #0x1
	stur	x6, [x16, #-8]
	cbz	x17, .LBB198_84
	lsr	x6, x17, #3
	mov	w7, #24
	madd	x6, x6, x7, x0
	ldur	x7, [x6, #-24]
	and	x19, x7, #0xffffffff8
	cmp	x19, x11
	csel	x19, xzr, x19, hi
	cmp	x19, x10
	b.ne	.LBB198_97
	cmp	x12, #13
	b.hi	.LBB198_82
	mov	x19, sp
	ldr	x20, [x19, x12, lsl #3]
	cbz	x20, .LBB198_117
.LBB198_82:
	mov	w17, #1
	strb	w17, [sp, #120]
	and	x17, x7, #0x1
	orr	x17, x17, x14
	stur	x17, [x6, #-24]
	cmp	x12, #13
	b.ls	.LBB198_100
	b	.LBB198_101
.LBB198_83:
	mov	x9, x14
	cmp	x12, #13
	b.ls	.LBB198_88
	b	.LBB198_89
.LBB198_84:
	mov	x9, x14
	cmp	x12, #13
	b.ls	.LBB198_100
	b	.LBB198_101
.LBB198_85:
	cmp	x12, #13
	b.hi	.LBB198_87
	mov	x7, sp
	ldr	x19, [x7, x12, lsl #3]
	cbz	x19, .LBB198_118
.LBB198_87:
	mov	w17, #1
	strb	w17, [sp, #120]
	stur	x14, [x6, #-16]
	cmp	x12, #13
	b.hi	.LBB198_89
.LBB198_88:
	mov	x17, sp
	ldr	x6, [x17, x12, lsl #3]
	cbz	x6, .LBB198_114
.LBB198_89:
	mov	w17, #1
	strb	w17, [sp, #120]
.LBB198_90:
	ldur	x17, [x13, #-24]
	stur	x14, [x13, #-8]
	stur	x10, [x16, #-16]
	and	x14, x17, #0xffffffff8
	sub	x17, x14, #1
	cmp	x17, x11
	b.hs	.LBB198_202
	lsr	x16, x14, #2
	add	x16, x16, x14, lsr #3
	lsl	x17, x16, #3
.LBB198_92:
	add	x6, x0, x17
	ldur	x16, [x6, #-24]
	and	x7, x16, #0xffffffff8
	sub	x19, x7, #1
	cmp	x19, x11
	b.hs	.LBB198_94
	lsr	x16, x7, #3
	mov	w20, #24
	madd	x16, x16, x20, x0
	ldur	x16, [x16, #-8]
	tbz	w16, #0, .LBB198_137
.LBB198_94:
	ldur	x16, [x6, #-16]
	and	x16, x16, #0xffffffff8
	sub	x20, x16, #1
	cmp	x20, x11
	b.hs	.LBB198_96
	lsr	x22, x16, #3
	mov	w23, #24
	madd	x22, x22, x23, x0
	ldur	w22, [x22, #-8]
	tbz	w22, #0, .LBB198_135
.LBB198_96:
	ldur	x14, [x6, #-8]
	and	x14, x14, #0xfffffffffffffffe
	stur	x14, [x6, #-8]
	b	.LBB198_109
.LBB198_97:
	cmp	x12, #13
	b.hi	.LBB198_99
	mov	x7, sp
	ldr	x19, [x7, x12, lsl #3]
	cbz	x19, .LBB198_119
.LBB198_99:
	mov	w17, #1
	strb	w17, [sp, #120]
	stur	x14, [x6, #-16]
	cmp	x12, #13
	b.hi	.LBB198_101
.LBB198_100:
	mov	x17, sp
	ldr	x6, [x17, x12, lsl #3]
	cbz	x6, .LBB198_115
.LBB198_101:
	mov	w17, #1
	strb	w17, [sp, #120]
.LBB198_102:
	ldur	x17, [x13, #-16]
	ldur	x6, [x16, #-24]
	stur	x14, [x13, #-8]
	and	x14, x17, #0xffffffff8
	and	x17, x6, #0x1
	sub	x6, x14, #1
	orr	x17, x17, x10
	cmp	x6, x11
	stur	x17, [x16, #-24]
	b.hs	.LBB198_202
	lsr	x16, x14, #2
	add	x16, x16, x14, lsr #3
	lsl	x19, x16, #3
.LBB198_104:
	add	x16, x0, x19
	ldur	x17, [x16, #-24]
	and	x17, x17, #0xffffffff8
	sub	x6, x17, #1
	cmp	x6, x11
	b.hs	.LBB198_106
	lsr	x6, x17, #2
	add	x6, x6, x17, lsr #3
	lsl	x6, x6, #3
	add	x7, x0, x6
	ldur	w20, [x7, #-8]
	tbz	w20, #0, .LBB198_122
.LBB198_106:
	ldur	x17, [x16, #-16]
	and	x17, x17, #0xffffffff8
	sub	x6, x17, #1
	cmp	x6, x11
	b.hs	.LBB198_108
	lsr	x6, x17, #2
	add	x17, x6, x17, lsr #3
	lsl	x20, x17, #3
	add	x17, x0, x20
	ldur	x22, [x17, #-8]
	tbz	w22, #0, .LBB198_161
.LBB198_108:
	ldur	x14, [x16, #-8]
	and	x14, x14, #0xfffffffffffffffe
	stur	x14, [x16, #-8]
.LBB198_109:
	ldur	x14, [x13, #-8]
	tbz	w14, #0, .LBB198_120
	and	x13, x14, #0xffffffff8
	sub	x14, x13, #1
	cmp	x14, x11
	b.hs	.LBB198_202
	lsr	x14, x13, #3
	mov	w16, #24
	madd	x14, x14, x16, x0
	ldur	x14, [x14, #-24]
	and	x14, x14, #0xffffffff8
	cmp	x14, x11
	csel	x14, xzr, x14, hi
	cmp	x14, x10
	mov	x10, x13
	cset	w16, ne
	subs	w15, w15, #1
	b.ne	.LBB198_60
	b	.LBB198_202
.LBB198_112:
	str	x10, [x19, x12, lsl #3]
	add	x12, x12, #1
	str	x12, [sp, #112]
	and	x6, x6, #0x1
	orr	x6, x7, x6
	stur	x6, [x13, #-24]
	cbnz	x7, .LBB198_66
	b	.LBB198_67
.LBB198_113:
	str	x10, [x7, x12, lsl #3]
	add	x12, x12, #1
	str	x12, [sp, #112]
	stur	x6, [x13, #-16]
	cbnz	x6, .LBB198_77
	b	.LBB198_78
.LBB198_114:
	str	x14, [x17, x12, lsl #3]
	add	x12, x12, #1
	str	x12, [sp, #112]
	b	.LBB198_90
.LBB198_115:
	str	x14, [x17, x12, lsl #3]
	add	x12, x12, #1
	str	x12, [sp, #112]
	b	.LBB198_102
.LBB198_116:
	str	x17, [x19, x12, lsl #3]
	add	x12, x12, #1
	str	x12, [sp, #112]
	and	x17, x7, #0x1
	orr	x17, x17, x14
	stur	x17, [x6, #-24]
	cmp	x12, #13
	b.ls	.LBB198_88
	b	.LBB198_89
.LBB198_117:
	str	x17, [x19, x12, lsl #3]
	add	x12, x12, #1
	str	x12, [sp, #112]
	and	x17, x7, #0x1
	orr	x17, x17, x14
	stur	x17, [x6, #-24]
	cmp	x12, #13
	b.ls	.LBB198_100
	b	.LBB198_101
.LBB198_118:
	str	x17, [x7, x12, lsl #3]
	add	x12, x12, #1
	str	x12, [sp, #112]
	stur	x14, [x6, #-16]
	cmp	x12, #13
	b.ls	.LBB198_88
	b	.LBB198_89
.LBB198_119:
	str	x17, [x7, x12, lsl #3]
	add	x12, x12, #1
	str	x12, [sp, #112]
	stur	x14, [x6, #-16]
	cmp	x12, #13
	b.ls	.LBB198_100
	b	.LBB198_101
.LBB198_120:
	orr	x10, x14, #0x1
.LBB198_121:
	stur	x10, [x13, #-8]
	b	.LBB198_202
.LBB198_122:
	ldur	x15, [x16, #-16]
	and	x15, x15, #0xffffffff8
	sub	x20, x15, #1
	cmp	x20, x11
	b.hs	.LBB198_124
	lsr	x20, x15, #2
	add	x15, x20, x15, lsr #3
	lsl	x20, x15, #3
	add	x15, x0, x20
	ldur	x22, [x15, #-8]
	tbz	w22, #0, .LBB198_161
.LBB198_124:
	ldur	x15, [x7, #-16]
	ldur	x19, [x16, #-8]
	and	x15, x15, #0xffffffff8
	and	x20, x19, #0xffffffff8
	cmp	x15, x11
	csel	x19, xzr, x15, hi
	cmp	x20, x11
	csel	x15, xzr, x20, hi
	cmp	x12, #13
	b.hi	.LBB198_126
	mov	x20, sp
	ldr	x22, [x20, x12, lsl #3]
	cbz	x22, .LBB198_214
.LBB198_126:
	mov	w20, #1
	strb	w20, [sp, #120]
.LBB198_127:
	lsr	x20, x14, #3
	mov	w22, #24
	madd	x20, x20, x22, x0
	ldur	x22, [x20, #-24]
	and	x22, x22, #0x1
	orr	x22, x22, x19
	stur	x22, [x20, #-24]
	cbz	x19, .LBB198_129
	lsr	x19, x19, #3
	mov	w20, #24
	madd	x19, x19, x20, x0
	ldur	x20, [x19, #-8]
	and	x20, x20, #0x1
	orr	x20, x20, x14
	stur	x20, [x19, #-8]
.LBB198_129:
	orr	x19, x15, #0x1
	stur	x19, [x7, #-8]
	cbz	x15, .LBB198_151
	lsr	x19, x15, #3
	mov	w20, #24
	madd	x19, x19, x20, x0
	ldur	x20, [x19, #-24]
	and	x22, x20, #0xffffffff8
	cmp	x22, x11
	csel	x22, xzr, x22, hi
	cmp	x22, x14
	b.ne	.LBB198_152
	cmp	x12, #13
	b.hi	.LBB198_133
	mov	x22, sp
	ldr	x23, [x22, x12, lsl #3]
	cbz	x23, .LBB198_222
.LBB198_133:
	mov	w15, #1
	strb	w15, [sp, #120]
.LBB198_134:
	and	x15, x20, #0x1
	orr	x15, x15, x17
	stur	x15, [x19, #-24]
	b	.LBB198_156
.LBB198_135:
	cmp	x19, x11
	b.hs	.LBB198_139
	lsr	x15, x7, #3
	mov	w16, #24
	madd	x15, x15, x16, x0
	ldur	x16, [x15, #-8]
.LBB198_137:
	tbz	w16, #0, .LBB198_150
	ldur	x15, [x6, #-16]
	and	x16, x15, #0xffffffff8
	sub	x20, x16, #1
.LBB198_139:
	cmp	x20, x11
	b.hs	.LBB198_202
	lsr	x15, x16, #2
	ldur	x19, [x6, #-8]
	add	x15, x15, x16, lsr #3
	and	x20, x19, #0xffffffff8
	lsl	x17, x15, #3
	add	x15, x0, x17
	ldur	x7, [x15, #-24]
	and	x7, x7, #0xffffffff8
	cmp	x7, x11
	csel	x19, xzr, x7, hi
	cmp	x20, x11
	csel	x7, xzr, x20, hi
	cmp	x12, #13
	b.hi	.LBB198_142
	mov	x20, sp
	ldr	x22, [x20, x12, lsl #3]
	cbz	x22, .LBB198_218
.LBB198_142:
	mov	w20, #1
	strb	w20, [sp, #120]
	stur	x19, [x6, #-16]
	cbz	x19, .LBB198_144
.LBB198_143:
	lsr	x19, x19, #3
	mov	w20, #24
	madd	x19, x19, x20, x0
	ldur	x20, [x19, #-8]
	and	x20, x20, #0x1
	orr	x20, x20, x14
	stur	x20, [x19, #-8]
.LBB198_144:
	orr	x19, x7, #0x1
	stur	x19, [x15, #-8]
	cbz	x7, .LBB198_182
	lsr	x19, x7, #3
	mov	w20, #24
	madd	x19, x19, x20, x0
	ldur	x20, [x19, #-24]
	and	x22, x20, #0xffffffff8
	cmp	x22, x11
	ccmp	x22, x14, #0, ls
	b.eq	.LBB198_183
	cmp	x12, #13
	b.hi	.LBB198_148
	mov	x20, sp
	ldr	x22, [x20, x12, lsl #3]
	cbz	x22, .LBB198_226
.LBB198_148:
	mov	w7, #1
	strb	w7, [sp, #120]
.LBB198_149:
	stur	x16, [x19, #-16]
	b	.LBB198_187
.LBB198_150:
	mov	x16, x14
	b	.LBB198_191
.LBB198_151:
	mov	x9, x17
	b	.LBB198_156
.LBB198_152:
	cmp	x12, #13
	b.hi	.LBB198_154
	mov	x20, sp
	ldr	x22, [x20, x12, lsl #3]
	cbz	x22, .LBB198_223
.LBB198_154:
	mov	w15, #1
	strb	w15, [sp, #120]
.LBB198_155:
	stur	x17, [x19, #-16]
.LBB198_156:
	cmp	x12, #13
	b.hi	.LBB198_158
	mov	x15, sp
	ldr	x19, [x15, x12, lsl #3]
	cbz	x19, .LBB198_215
.LBB198_158:
	mov	w15, #1
	strb	w15, [sp, #120]
.LBB198_159:
	stur	x14, [x7, #-16]
	stur	x17, [x16, #-8]
	ldur	x14, [x7, #-16]
	and	x14, x14, #0xffffffff8
	sub	x15, x14, #1
	cmp	x15, x11
	b.hs	.LBB198_202
	lsr	x15, x14, #2
	mov	x19, x6
	add	x14, x15, x14, lsr #3
	lsl	x20, x14, #3
	add	x14, x0, x20
	ldur	x22, [x14, #-8]
	mov	x14, x17
.LBB198_161:
	add	x15, x0, x20
	orr	x16, x22, #0x1
	ldur	x17, [x13, #-8]
	stur	x16, [x15, #-8]
	add	x15, x0, x19
	ldur	x16, [x15, #-24]
	ldur	x6, [x13, #-8]
	and	x16, x16, #0xffffffff8
	and	x7, x6, #0xffffffff8
	cmp	x16, x11
	csel	x6, xzr, x16, hi
	cmp	x7, x11
	csel	x16, xzr, x7, hi
	cmp	x12, #13
	b.hi	.LBB198_163
	mov	x7, sp
	ldr	x19, [x7, x12, lsl #3]
	cbz	x19, .LBB198_180
.LBB198_163:
	mov	w7, #1
	strb	w7, [sp, #120]
	and	x17, x17, #0x1
	stur	x6, [x13, #-16]
	cbz	x6, .LBB198_165
.LBB198_164:
	lsr	x6, x6, #3
	mov	w7, #24
	madd	x6, x6, x7, x0
	ldur	x7, [x6, #-8]
	and	x7, x7, #0x1
	orr	x7, x7, x10
	stur	x7, [x6, #-8]
.LBB198_165:
	orr	x17, x16, x17
	stur	x17, [x15, #-8]
	cbz	x16, .LBB198_171
	lsr	x17, x16, #3
	mov	w6, #24
	madd	x17, x17, x6, x0
	ldur	x6, [x17, #-24]
	and	x7, x6, #0xffffffff8
	cmp	x7, x11
	csel	x11, xzr, x7, hi
	cmp	x11, x10
	b.ne	.LBB198_172
	cmp	x12, #13
	b.hi	.LBB198_169
	mov	x11, sp
	ldr	x7, [x11, x12, lsl #3]
	cbz	x7, .LBB198_220
.LBB198_169:
	mov	w11, #1
	strb	w11, [sp, #120]
.LBB198_170:
	and	x11, x6, #0x1
	orr	x11, x11, x14
	stur	x11, [x17, #-24]
	b	.LBB198_176
.LBB198_171:
	mov	x9, x14
	b	.LBB198_176
.LBB198_172:
	cmp	x12, #13
	b.hi	.LBB198_174
	mov	x11, sp
	ldr	x6, [x11, x12, lsl #3]
	cbz	x6, .LBB198_221
.LBB198_174:
	mov	w11, #1
	strb	w11, [sp, #120]
.LBB198_175:
	stur	x14, [x17, #-16]
.LBB198_176:
	cmp	x12, #13
	b.hi	.LBB198_178
	mov	x11, sp
	ldr	x16, [x11, x12, lsl #3]
	cbz	x16, .LBB198_181
.LBB198_178:
	mov	w11, #1
	strb	w11, [sp, #120]
.LBB198_179:
	ldur	x11, [x15, #-24]
	and	x11, x11, #0x1
	orr	x10, x11, x10
	orr	x11, x14, #0x1
	stur	x10, [x15, #-24]
	stur	x11, [x13, #-8]
	b	.LBB198_202
.LBB198_180:
	str	x10, [x7, x12, lsl #3]
	add	x12, x12, #1
	str	x12, [sp, #112]
	and	x17, x17, #0x1
	stur	x6, [x13, #-16]
	cbnz	x6, .LBB198_164
	b	.LBB198_165
.LBB198_181:
	str	x14, [x11, x12, lsl #3]
	add	x11, x12, #1
	str	x11, [sp, #112]
	b	.LBB198_179
.LBB198_182:
	mov	x9, x16
	b	.LBB198_187
.LBB198_183:
	cmp	x12, #13
	b.hi	.LBB198_185
	mov	x22, sp
	ldr	x23, [x22, x12, lsl #3]
	cbz	x23, .LBB198_227
.LBB198_185:
	mov	w7, #1
	strb	w7, [sp, #120]
.LBB198_186:
	and	x7, x20, #0x1
	orr	x7, x7, x16
	stur	x7, [x19, #-24]
.LBB198_187:
	cmp	x12, #13
	b.hi	.LBB198_189
	mov	x7, sp
	ldr	x19, [x7, x12, lsl #3]
	cbz	x19, .LBB198_219
.LBB198_189:
	mov	w7, #1
	strb	w7, [sp, #120]
.LBB198_190:
	ldur	x7, [x15, #-24]
	and	x7, x7, #0x1
	orr	x14, x7, x14
	stur	x14, [x15, #-24]
	stur	x16, [x6, #-8]
	ldur	x14, [x15, #-24]
	and	x7, x14, #0xffffffff8
	sub	x19, x7, #1
.LBB198_191:
	cmp	x19, x11
	b.hs	.LBB198_202
	lsr	x14, x7, #3
	mov	w15, #24
	ldur	x6, [x13, #-8]
	madd	x14, x14, x15, x0
	ldur	x15, [x14, #-8]
	orr	x15, x15, #0x1
	stur	x15, [x14, #-8]
	add	x14, x0, x17
	ldur	x15, [x14, #-16]
	ldur	x17, [x13, #-8]
	and	x15, x15, #0xffffffff8
	and	x7, x17, #0xffffffff8
	cmp	x15, x11
	csel	x17, xzr, x15, hi
	cmp	x7, x11
	csel	x15, xzr, x7, hi
	cmp	x12, #13
	b.hi	.LBB198_194
	mov	x7, sp
	ldr	x19, [x7, x12, lsl #3]
	cbz	x19, .LBB198_216
.LBB198_194:
	mov	w7, #1
	strb	w7, [sp, #120]
	ldur	x7, [x13, #-24]
	and	x6, x6, #0x1
	and	x7, x7, #0x1
	orr	x7, x7, x17
	stur	x7, [x13, #-24]
	cbz	x17, .LBB198_196
.LBB198_195:
	lsr	x17, x17, #3
	mov	w7, #24
	madd	x17, x17, x7, x0
	ldur	x7, [x17, #-8]
	and	x7, x7, #0x1
	orr	x7, x7, x10
	stur	x7, [x17, #-8]
.LBB198_196:
	orr	x17, x15, x6
	stur	x17, [x14, #-8]
	cbz	x15, .LBB198_205
	lsr	x17, x15, #3
	mov	w6, #24
	madd	x17, x17, x6, x0
	ldur	x6, [x17, #-24]
	and	x7, x6, #0xffffffff8
	cmp	x7, x11
	csel	x11, xzr, x7, hi
	cmp	x11, x10
	b.ne	.LBB198_206
	cmp	x12, #13
	b.hi	.LBB198_200
	mov	x11, sp
	ldr	x7, [x11, x12, lsl #3]
	cbz	x7, .LBB198_224
.LBB198_200:
	mov	w11, #1
	strb	w11, [sp, #120]
.LBB198_201:
	and	x11, x6, #0x1
	orr	x11, x11, x16
	stur	x11, [x17, #-24]
	b	.LBB198_210
.LBB198_202:
	mov	w19, wzr
	stur	xzr, [x8, #-24]
	str	x9, [x5]
.LBB198_203:
	add	x2, x2, x21
	mov	x5, sp
	mov	w6, w19
	bl	ic_raw_augmented.edit_calls.settle
.LBB198_204:
	mov	w0, w19
	.cfi_def_cfa wsp, 208
	ldp	x20, x19, [sp, #192]
	ldp	x22, x21, [sp, #176]
	ldp	x24, x23, [sp, #160]
	ldp	x26, x25, [sp, #144]
	ldp	x29, x30, [sp, #128]
	add	sp, sp, #208
	.cfi_def_cfa_offset 0
	.cfi_restore w19
	.cfi_restore w20
	.cfi_restore w21
	.cfi_restore w22
	.cfi_restore w23
	.cfi_restore w24
	.cfi_restore w25
	.cfi_restore w26
	.cfi_restore w30
	.cfi_restore w29
	ret
.LBB198_205:
	.cfi_restore_state
	mov	x9, x16
	b	.LBB198_210
.LBB198_206:
	cmp	x12, #13
	b.hi	.LBB198_208
	mov	x11, sp
	ldr	x6, [x11, x12, lsl #3]
	cbz	x6, .LBB198_225
.LBB198_208:
	mov	w11, #1
	strb	w11, [sp, #120]
.LBB198_209:
	stur	x16, [x17, #-16]
.LBB198_210:
	cmp	x12, #13
	b.hi	.LBB198_212
	mov	x11, sp
	ldr	x15, [x11, x12, lsl #3]
	cbz	x15, .LBB198_217
.LBB198_212:
	mov	w11, #1
	strb	w11, [sp, #120]
.LBB198_213:
	stur	x10, [x14, #-16]
	orr	x10, x16, #0x1
	b	.LBB198_121
.LBB198_214:
	str	x14, [x20, x12, lsl #3]
	add	x12, x12, #1
	str	x12, [sp, #112]
	b	.LBB198_127
.LBB198_215:
	str	x17, [x15, x12, lsl #3]
	add	x12, x12, #1
	str	x12, [sp, #112]
	b	.LBB198_159
.LBB198_216:
	str	x10, [x7, x12, lsl #3]
	add	x12, x12, #1
	str	x12, [sp, #112]
	ldur	x7, [x13, #-24]
	and	x6, x6, #0x1
	and	x7, x7, #0x1
	orr	x7, x7, x17
	stur	x7, [x13, #-24]
	cbnz	x17, .LBB198_195
	b	.LBB198_196
.LBB198_217:
	str	x16, [x11, x12, lsl #3]
	add	x11, x12, #1
	str	x11, [sp, #112]
	b	.LBB198_213
.LBB198_218:
	str	x14, [x20, x12, lsl #3]
	add	x12, x12, #1
	str	x12, [sp, #112]
	stur	x19, [x6, #-16]
	cbnz	x19, .LBB198_143
	b	.LBB198_144
.LBB198_219:
	str	x16, [x7, x12, lsl #3]
	add	x12, x12, #1
	str	x12, [sp, #112]
	b	.LBB198_190
.LBB198_220:
	str	x16, [x11, x12, lsl #3]
	add	x12, x12, #1
	str	x12, [sp, #112]
	b	.LBB198_170
.LBB198_221:
	str	x16, [x11, x12, lsl #3]
	add	x12, x12, #1
	str	x12, [sp, #112]
	b	.LBB198_175
.LBB198_222:
	str	x15, [x22, x12, lsl #3]
	add	x12, x12, #1
	str	x12, [sp, #112]
	b	.LBB198_134
.LBB198_223:
	str	x15, [x20, x12, lsl #3]
	add	x12, x12, #1
	str	x12, [sp, #112]
	b	.LBB198_155
.LBB198_224:
	str	x15, [x11, x12, lsl #3]
	add	x12, x12, #1
	str	x12, [sp, #112]
	b	.LBB198_201
.LBB198_225:
	str	x15, [x11, x12, lsl #3]
	add	x12, x12, #1
	str	x12, [sp, #112]
	b	.LBB198_209
.LBB198_226:
	str	x7, [x20, x12, lsl #3]
	add	x12, x12, #1
	str	x12, [sp, #112]
	b	.LBB198_149
.LBB198_227:
	str	x7, [x22, x12, lsl #3]
	add	x12, x12, #1
	str	x12, [sp, #112]
	b	.LBB198_186
.Lfunc_end198:
	.size	ic_tree_sums_remove, .Lfunc_end198-ic_tree_sums_remove
	.cfi_endproc
	.section	.text.ic_tree_sums_renew,"ax",@progbits
	.globl	ic_tree_sums_renew
	.p2align	2
	.type	ic_tree_sums_renew,@function
ic_tree_sums_renew:
	.cfi_startproc
	hint	#34
	sub	sp, sp, #96
	.cfi_def_cfa_offset 96
	stp	x29, x30, [sp, #16]
	str	x25, [sp, #32]
	stp	x24, x23, [sp, #48]
	stp	x22, x21, [sp, #64]
	stp	x20, x19, [sp, #80]
	add	x29, sp, #16
	.cfi_def_cfa w29, 80
	.cfi_offset w19, -8
	.cfi_offset w20, -16
	.cfi_offset w21, -24
	.cfi_offset w22, -32
	.cfi_offset w23, -40
	.cfi_offset w24, -48
	.cfi_offset w25, -64
	.cfi_offset w30, -72
	.cfi_offset w29, -80
	.cfi_remember_state
	cmp	x0, #0
	mov	w9, #4096
	mov	x19, x3
	csel	x8, x9, xzr, eq
	cmp	x2, #0
	csel	x23, x9, xzr, eq
	cmp	w4, #0
	add	x8, x0, x8
	cset	w21, ne
	cmp	x3, x1
	stp	x8, x1, [sp]
	b.lo	.LBB199_13
	mov	x20, x2
	mov	x22, x1
	add	w9, w5, #1
	cbz	w9, .LBB199_5
	cmp	x22, x9
	b.lo	.LBB199_13
	mov	w10, #24
	umaddl	x8, w9, w10, x8
	ldurb	w8, [x8, #-24]
	tbz	w8, #0, .LBB199_13
	ubfiz	x4, x9, #3, #32
	mov	x0, sp
	add	x1, x20, x23
	mov	x2, x19
	mov	w3, w21
	bl	ic_raw_augmented.recompute.recompute_up
	b	.LBB199_11
.LBB199_5:
	cbz	x22, .LBB199_11
	mov	w24, #8
	mov	x25, x22
	b	.LBB199_8
.LBB199_7:
	subs	x25, x25, #1
	add	x24, x24, #8
	b.eq	.LBB199_11
.LBB199_8:
	ands	x4, x24, #0xffffffff8
	b.eq	.LBB199_7
	ubfx	x8, x24, #3, #33
	cmp	x8, x22
	b.hi	.LBB199_7
	mov	x0, sp
	add	x1, x20, x23
	mov	x2, x19
	mov	w3, w21
	bl	ic_raw_augmented.recompute.recompute_up
	b	.LBB199_7
.LBB199_11:
	mov	w0, wzr
.LBB199_12:
	.cfi_def_cfa wsp, 96
	ldp	x20, x19, [sp, #80]
	ldr	x25, [sp, #32]
	ldp	x22, x21, [sp, #64]
	ldp	x24, x23, [sp, #48]
	ldp	x29, x30, [sp, #16]
	add	sp, sp, #96
	.cfi_def_cfa_offset 0
	.cfi_restore w19
	.cfi_restore w20
	.cfi_restore w21
	.cfi_restore w22
	.cfi_restore w23
	.cfi_restore w24
	.cfi_restore w25
	.cfi_restore w30
	.cfi_restore w29
	ret
.LBB199_13:
	.cfi_restore_state
	mov	x0, sp
	mov	x1, x19
	mov	w2, w5
	bl	ic_raw_augmented.sum_calls.refusal
	b	.LBB199_12
.Lfunc_end199:
	.size	ic_tree_sums_renew, .Lfunc_end199-ic_tree_sums_renew
	.cfi_endproc
	.section	.text.ic_tree_upper_bound,"ax",@progbits
	.globl	ic_tree_upper_bound
	.p2align	2
	.type	ic_tree_upper_bound,@function
ic_tree_upper_bound:
	.cfi_startproc
	hint	#34
	cmp	x0, #0
	mov	w8, #4096
	ldr	x4, [x4]
	csel	x9, x8, xzr, eq
	cmp	x2, #0
	mov	x7, x6
	csel	x8, x8, xzr, eq
	add	x0, x0, x9
	mov	w6, #2
	add	x2, x2, x8
	b	ic_raw.search_calls.find_target
.Lfunc_end200:
	.size	ic_tree_upper_bound, .Lfunc_end200-ic_tree_upper_bound
	.cfi_endproc
	.section	.text.ic_xor_append,"ax",@progbits
	.globl	ic_xor_append
	.p2align	2
	.type	ic_xor_append,@function
ic_xor_append:
	.cfi_startproc
	hint	#34
	stp	x29, x30, [sp, #-16]!
	.cfi_def_cfa_offset 16
	mov	x29, sp
	.cfi_def_cfa w29, 16
	.cfi_offset w30, -8
	.cfi_offset w29, -16
	ldr	x8, [x2, #8]
	cmp	x0, #0
	mov	w9, #4096
	csel	x9, x9, xzr, eq
	mov	x5, x3
	mov	w6, wzr
	ands	x4, x8, #0xffffffff8
	add	x0, x0, x9
	mov	x7, xzr
	cset	w3, ne
	bl	ic_raw.xor_calls.splice
	mov	w8, #5
	cmp	w0, #0
	csel	w0, wzr, w8, ne
	.cfi_def_cfa wsp, 16
	ldp	x29, x30, [sp], #16
	.cfi_def_cfa_offset 0
	.cfi_restore w30
	.cfi_restore w29
	ret
.Lfunc_end201:
	.size	ic_xor_append, .Lfunc_end201-ic_xor_append
	.cfi_endproc
	.section	.text.ic_xor_clear,"ax",@progbits
	.globl	ic_xor_clear
	.p2align	2
	.type	ic_xor_clear,@function
ic_xor_clear:
	.cfi_startproc
	hint	#34
	ldp	x8, x10, [x2]
	cmp	x0, #0
	mov	w9, #4096
	csel	x9, x9, xzr, eq
	ands	x8, x8, #0xffffffff8
	and	x10, x10, #0xffffffff8
	b.eq	.LBB202_7
	cbz	x1, .LBB202_8
	mov	x11, xzr
	add	x9, x0, x9
	mov	x12, x8
	mov	x13, x1
.LBB202_3:
	cmp	x1, x12, lsr #3
	b.lo	.LBB202_8
	add	x14, x9, x12
	ldur	x14, [x14, #-8]
	tbz	w14, #0, .LBB202_8
	and	x14, x14, #0xffffffff8
	cmp	x14, x11
	b.eq	.LBB202_9
	eor	x14, x14, x11
	subs	x13, x13, #1
	mov	x11, x12
	mov	x12, x14
	b.ne	.LBB202_3
	b	.LBB202_8
.LBB202_7:
	cbz	x10, .LBB202_15
.LBB202_8:
	mov	w0, #5
	ret
.LBB202_9:
	cmp	x10, x12
	b.ne	.LBB202_8
	mov	x11, xzr
	sub	x10, x1, #1
.LBB202_11:
	cmp	x1, x8, lsr #3
	b.lo	.LBB202_15
	add	x13, x9, x8
	ldur	x12, [x13, #-8]
	tbz	w12, #0, .LBB202_15
	subs	x10, x10, #1
	stur	xzr, [x13, #-8]
	b.lo	.LBB202_15
	and	x12, x12, #0xffffffff8
	eor	x13, x12, x11
	cmp	x12, x11
	mov	x11, x8
	mov	x8, x13
	b.ne	.LBB202_11
.LBB202_15:
	mov	w0, wzr
	stp	xzr, xzr, [x2]
	ret
.Lfunc_end202:
	.size	ic_xor_clear, .Lfunc_end202-ic_xor_clear
	.cfi_endproc
	.section	.text.ic_xor_fill,"ax",@progbits
	.globl	ic_xor_fill
	.p2align	2
	.type	ic_xor_fill,@function
ic_xor_fill:
	.cfi_startproc
	hint	#34
	mov	w8, #4096
	cmp	x0, #0
	csel	x10, x8, xzr, eq
	cbz	w4, .LBB203_7
	ldp	x11, x8, [x2]
	ands	x9, x8, #0xffffffff8
	add	x8, x0, x10
	and	x11, x11, #0xffffffff8
	cset	w12, eq
	cbz	x9, .LBB203_8
	cmp	x1, x9, lsr #3
	b.lo	.LBB203_9
	add	x13, x8, x9
	ldur	x13, [x13, #-8]
	tbz	w13, #0, .LBB203_9
	ands	x13, x13, #0xffffffff8
	b.eq	.LBB203_30
	cmp	x1, x13, lsr #3
	b.lo	.LBB203_9
	add	x13, x8, x13
	ldurb	w13, [x13, #-8]
	tbz	w13, #0, .LBB203_9
	b	.LBB203_31
.LBB203_7:
	mov	w0, wzr
	ret
.LBB203_8:
	cbz	x11, .LBB203_31
.LBB203_9:
	mov	w14, wzr
	mov	x13, xzr
	mov	w12, #1
.LBB203_10:
	mov	w15, w3
	mov	w16, w4
	add	x15, x15, #1
.LBB203_11:
	mov	w17, w15
	sub	x5, x17, #1
	cmp	x5, x1
	b.hs	.LBB203_26
	add	x17, x8, x17, lsl #3
	ldur	w17, [x17, #-8]
	lsl	w17, w17, #1
	tbnz	w17, #1, .LBB203_27
	subs	w16, w16, #1
	add	x15, x15, #1
	b.ne	.LBB203_11
	cbz	w14, .LBB203_28
	adds	w14, w3, #1
	b.hs	.LBB203_29
	cmp	x1, x14
	b.lo	.LBB203_32
	ubfiz	x15, x14, #3, #32
	add	x16, x8, x15
	ldurb	w14, [x16, #-8]
	tbnz	w14, #0, .LBB203_29
	mov	w9, #1
	mov	x14, x15
	stur	x9, [x16, #-8]
	tbnz	w12, #0, .LBB203_20
	add	x9, x8, x13
	mov	x14, x11
	ldur	x12, [x9, #-8]
	and	x12, x12, #0xffffffff8
	eor	x12, x12, x15
	orr	x12, x12, #0x1
	stur	x12, [x9, #-8]
	orr	x9, x13, #0x1
.LBB203_20:
	subs	w11, w4, #1
	stur	x9, [x16, #-8]
	b.eq	.LBB203_34
	add	x9, x10, x15
	mov	x12, xzr
	add	w13, w3, #2
	add	x9, x9, x0
	sub	x10, x9, #8
.LBB203_22:
	adds	w9, w13, w12
	b.eq	.LBB203_34
	cmp	x1, x9
	b.lo	.LBB203_34
	ubfiz	x9, x9, #3, #32
	add	x16, x8, x9
	ldurb	w17, [x16, #-8]
	tbnz	w17, #0, .LBB203_34
	mov	w17, #1
	stur	x17, [x16, #-8]
	ldr	x17, [x10, x12, lsl #3]
	and	x17, x17, #0xffffffff8
	eor	x17, x17, x9
	orr	x17, x17, #0x1
	str	x17, [x10, x12, lsl #3]
	add	x12, x12, #1
	add	x17, x15, #1
	cmp	w11, w12
	add	x15, x15, #8
	stur	x17, [x16, #-8]
	b.ne	.LBB203_22
	b	.LBB203_33
.LBB203_26:
	mov	w0, #1
	ret
.LBB203_27:
	and	w0, w17, #0x2
	ret
.LBB203_28:
	mov	w0, #5
	ret
.LBB203_29:
	mov	w0, wzr
	stp	x11, x9, [x2]
	ret
.LBB203_30:
	cmp	x11, x9
	b.ne	.LBB203_9
.LBB203_31:
	mov	w14, #1
	mov	x13, x9
	b	.LBB203_10
.LBB203_32:
	mov	x14, x11
.LBB203_33:
	mov	w0, wzr
	stp	x14, x9, [x2]
	ret
.LBB203_34:
	mov	w0, wzr
	stp	x14, x15, [x2]
	ret
.Lfunc_end203:
	.size	ic_xor_fill, .Lfunc_end203-ic_xor_fill
	.cfi_endproc
	.section	.text.ic_xor_insert_between,"ax",@progbits
	.globl	ic_xor_insert_between
	.p2align	2
	.type	ic_xor_insert_between,@function
ic_xor_insert_between:
	.cfi_startproc
	hint	#34
	cmp	x0, #0
	mov	w8, #4096
	add	w10, w5, #1
	ldp	x13, x14, [x2]
	csel	x11, x8, xzr, eq
	adds	w12, w3, #1
	ubfiz	x9, x10, #3, #32
	add	x11, x0, x11
	ubfiz	x8, x12, #3, #32
	and	x13, x13, #0xffffffff8
	b.lo	.LBB204_2
	cmp	x13, x9
	b.eq	.LBB204_8
	b	.LBB204_26
.LBB204_2:
	cmp	x1, x12
	b.lo	.LBB204_26
	add	x15, x11, x8
	ldur	x15, [x15, #-8]
	tbz	w15, #0, .LBB204_26
	and	x15, x15, #0xffffffff8
	cmp	x15, x9
	b.ne	.LBB204_6
	cmp	x13, x8
	b.eq	.LBB204_8
	b	.LBB204_26
.LBB204_6:
	eor	x15, x15, x9
	cmp	x1, x15, lsr #3
	b.lo	.LBB204_26
	add	x15, x11, x15
	ldurb	w15, [x15, #-8]
	tbz	w15, #0, .LBB204_26
.LBB204_8:
	add	w15, w4, #1
	and	x14, x14, #0xffffffff8
	cbz	w10, .LBB204_14
	cmp	x1, x10
	b.lo	.LBB204_26
	add	x16, x11, x9
	ldur	x16, [x16, #-8]
	tbz	w16, #0, .LBB204_26
	and	x16, x16, #0xffffffff8
	cmp	x16, x8
	b.ne	.LBB204_16
	cbz	w15, .LBB204_26
	cmp	x14, x9
	b.eq	.LBB204_19
	b	.LBB204_26
.LBB204_14:
	cbz	w15, .LBB204_26
	cmp	x14, x8
	b.eq	.LBB204_19
	b	.LBB204_26
.LBB204_16:
	eor	x16, x16, x8
	cmp	x1, x16, lsr #3
	b.lo	.LBB204_26
	cbz	w15, .LBB204_26
	add	x16, x11, x16
	ldur	x16, [x16, #-8]
	tbz	w16, #0, .LBB204_26
.LBB204_19:
	cmp	x1, x15
	b.lo	.LBB204_26
	ubfiz	x16, x15, #3, #32
	add	x15, x11, x16
	ldurb	w17, [x15, #-8]
	tbnz	w17, #0, .LBB204_26
	mov	w17, #1
	stur	x17, [x15, #-8]
	mov	x17, x16
	cbz	w12, .LBB204_23
	add	x12, x11, x8
	eor	x0, x16, x9
	ldur	x17, [x12, #-8]
	and	x17, x17, #0xffffffff8
	eor	x17, x0, x17
	orr	x17, x17, #0x1
	stur	x17, [x12, #-8]
	mov	x17, x13
.LBB204_23:
	cbz	w10, .LBB204_25
	add	x10, x11, x9
	eor	x12, x8, x16
	mov	x16, x14
	ldur	x11, [x10, #-8]
	and	x11, x11, #0xffffffff8
	eor	x11, x12, x11
	orr	x11, x11, #0x1
	stur	x11, [x10, #-8]
.LBB204_25:
	eor	x8, x9, x8
	mov	w0, wzr
	orr	x8, x8, #0x1
	stur	x8, [x15, #-8]
	stp	x17, x16, [x2]
	ret
.LBB204_26:
	sub	sp, sp, #32
	.cfi_def_cfa_offset 32
	stp	x29, x30, [sp, #16]
	add	x29, sp, #16
	.cfi_def_cfa w29, 16
	.cfi_offset w30, -8
	.cfi_offset w29, -16
	stp	x11, x1, [sp]
	mov	x0, sp
	mov	w1, w3
	mov	w2, w5
	mov	w3, w4
	bl	ic_raw.xor_calls.refusal_with_both
	.cfi_def_cfa wsp, 32
	ldp	x29, x30, [sp, #16]
	add	sp, sp, #32
	.cfi_def_cfa_offset 0
	.cfi_restore w30
	.cfi_restore w29
	ret
.Lfunc_end204:
	.size	ic_xor_insert_between, .Lfunc_end204-ic_xor_insert_between
	.cfi_endproc
	.section	.text.ic_xor_pop_back,"ax",@progbits
	.globl	ic_xor_pop_back
	.p2align	2
	.type	ic_xor_pop_back,@function
ic_xor_pop_back:
	.cfi_startproc
	hint	#34
	ldr	x8, [x2, #8]
	cmp	x0, #0
	mov	w9, #4096
	csel	x9, x9, xzr, eq
	ands	x8, x8, #0xffffffff8
	b.eq	.LBB205_8
	cmp	x1, x8, lsr #3
	b.lo	.LBB205_13
	add	x12, x0, x9
	add	x9, x12, x8
	ldur	x10, [x9, #-8]
	tbz	w10, #0, .LBB205_13
	ldr	x11, [x2]
	ands	x10, x10, #0xffffffff8
	and	x11, x11, #0xffffffff8
	b.eq	.LBB205_9
	cmp	x1, x10, lsr #3
	b.lo	.LBB205_13
	add	x13, x12, x10
	ldur	x14, [x13, #-8]
	tbz	w14, #0, .LBB205_13
	and	x14, x14, #0xffffffff8
	cmp	x14, x8
	eor	x14, x14, x8
	b.ne	.LBB205_11
	cmp	x11, x10
	b.ne	.LBB205_13
	b	.LBB205_14
.LBB205_8:
	mov	w0, #4
	ret
.LBB205_9:
	cmp	x11, x8
	b.ne	.LBB205_13
	mov	x11, xzr
	b	.LBB205_15
.LBB205_11:
	cmp	x1, x14, lsr #3
	b.lo	.LBB205_13
	add	x12, x12, x14
	ldurb	w12, [x12, #-8]
	tbnz	w12, #0, .LBB205_14
.LBB205_13:
	mov	w0, #5
	ret
.LBB205_14:
	orr	x12, x14, #0x1
	stur	x12, [x13, #-8]
.LBB205_15:
	stur	xzr, [x9, #-8]
	mov	w9, #-1
	mov	w0, wzr
	add	x8, x9, x8, lsr #3
	stp	x11, x10, [x2]
	str	w8, [x3]
	ret
.Lfunc_end205:
	.size	ic_xor_pop_back, .Lfunc_end205-ic_xor_pop_back
	.cfi_endproc
	.section	.text.ic_xor_pop_front,"ax",@progbits
	.globl	ic_xor_pop_front
	.p2align	2
	.type	ic_xor_pop_front,@function
ic_xor_pop_front:
	.cfi_startproc
	hint	#34
	ldr	x8, [x2]
	cmp	x0, #0
	mov	w9, #4096
	csel	x9, x9, xzr, eq
	ands	x11, x8, #0xffffffff8
	add	x0, x0, x9
	b.eq	.LBB206_10
	ubfx	x9, x8, #3, #33
	cmp	x9, x1
	b.hi	.LBB206_10
	add	x9, x0, x11
	ldur	x12, [x9, #-8]
	tbz	w12, #0, .LBB206_10
	ands	x10, x12, #0xffffffff8
	b.eq	.LBB206_10
	ubfx	x12, x12, #3, #33
	cmp	x12, x1
	b.hi	.LBB206_10
	add	x12, x0, x10
	ldur	x13, [x12, #-8]
	tbz	w13, #0, .LBB206_10
	and	x13, x13, #0xffffffff8
	cmp	x13, x11
	b.eq	.LBB206_10
	eor	x11, x13, x11
	lsr	x13, x11, #3
	cmp	x13, x1
	b.hi	.LBB206_10
	add	x13, x0, x11
	ldurb	w13, [x13, #-8]
	tbz	w13, #0, .LBB206_10
	mov	w13, #-1
	orr	x11, x11, #0x1
	mov	w0, wzr
	add	x8, x13, x8, lsr #3
	stur	x11, [x12, #-8]
	stur	xzr, [x9, #-8]
	str	x10, [x2]
	str	w8, [x3]
	ret
.LBB206_10:
	b	ic_raw.xor_calls.pop_front_slow
.Lfunc_end206:
	.size	ic_xor_pop_front, .Lfunc_end206-ic_xor_pop_front
	.cfi_endproc
	.section	.text.ic_xor_push_back,"ax",@progbits
	.globl	ic_xor_push_back
	.p2align	2
	.type	ic_xor_push_back,@function
ic_xor_push_back:
	.cfi_startproc
	hint	#34
	ldr	x4, [x2, #8]
	cmp	x0, #0
	mov	w8, #4096
	csel	x9, x8, xzr, eq
	ands	x8, x4, #0xffffffff8
	add	x0, x0, x9
	b.eq	.LBB207_10
	ubfx	x9, x4, #3, #33
	cmp	x9, x1
	b.hi	.LBB207_10
	add	x9, x0, x8
	ldur	x10, [x9, #-8]
	tbz	w10, #0, .LBB207_10
	ands	x11, x10, #0xffffffff8
	b.eq	.LBB207_10
	ubfx	x10, x10, #3, #33
	cmp	x10, x1
	b.hi	.LBB207_10
	add	x10, x0, x11
	ldurb	w10, [x10, #-8]
	tbz	w10, #0, .LBB207_10
	adds	w10, w3, #1
	b.hs	.LBB207_10
	cmp	x1, x10
	b.lo	.LBB207_10
	ubfiz	x10, x10, #3, #32
	add	x11, x0, x10
	ldurb	w12, [x11, #-8]
	tbnz	w12, #0, .LBB207_10
	mov	w12, #1
	ldr	x13, [x2]
	mov	w0, wzr
	stur	x12, [x11, #-8]
	orr	x8, x8, #0x1
	ldur	x12, [x9, #-8]
	and	x12, x12, #0xffffffff8
	eor	x12, x12, x10
	orr	x12, x12, #0x1
	stur	x12, [x9, #-8]
	and	x9, x13, #0xffffffff8
	stur	x8, [x11, #-8]
	stp	x9, x10, [x2]
	ret
.LBB207_10:
	mov	x5, xzr
	b	ic_raw.xor_calls.put_slow
.Lfunc_end207:
	.size	ic_xor_push_back, .Lfunc_end207-ic_xor_push_back
	.cfi_endproc
	.section	.text.ic_xor_push_front,"ax",@progbits
	.globl	ic_xor_push_front
	.p2align	2
	.type	ic_xor_push_front,@function
ic_xor_push_front:
	.cfi_startproc
	hint	#34
	ldr	x5, [x2]
	cmp	x0, #0
	mov	w8, #4096
	csel	x9, x8, xzr, eq
	ands	x8, x5, #0xffffffff8
	add	x0, x0, x9
	b.eq	.LBB208_10
	ubfx	x9, x5, #3, #33
	cmp	x9, x1
	b.hi	.LBB208_10
	add	x9, x0, x8
	ldur	x10, [x9, #-8]
	tbz	w10, #0, .LBB208_10
	ands	x11, x10, #0xffffffff8
	b.eq	.LBB208_10
	ubfx	x10, x10, #3, #33
	cmp	x10, x1
	b.hi	.LBB208_10
	add	x10, x0, x11
	ldurb	w10, [x10, #-8]
	tbz	w10, #0, .LBB208_10
	adds	w10, w3, #1
	b.hs	.LBB208_10
	cmp	x1, x10
	b.lo	.LBB208_10
	ubfiz	x10, x10, #3, #32
	add	x11, x0, x10
	ldurb	w12, [x11, #-8]
	tbnz	w12, #0, .LBB208_10
	mov	w12, #1
	ldr	x13, [x2, #8]
	orr	x8, x8, #0x1
	stur	x12, [x11, #-8]
	mov	w0, wzr
	ldur	x12, [x9, #-8]
	and	x12, x12, #0xffffffff8
	eor	x12, x12, x10
	orr	x12, x12, #0x1
	stur	x12, [x9, #-8]
	stur	x8, [x11, #-8]
	and	x8, x13, #0xffffffff8
	stp	x10, x8, [x2]
	ret
.LBB208_10:
	mov	x4, xzr
	b	ic_raw.xor_calls.put_slow
.Lfunc_end208:
	.size	ic_xor_push_front, .Lfunc_end208-ic_xor_push_front
	.cfi_endproc
	.section	.text.ic_xor_remove,"ax",@progbits
	.globl	ic_xor_remove
	.p2align	2
	.type	ic_xor_remove,@function
ic_xor_remove:
	.cfi_startproc
	hint	#34
	mov	w8, #4096
	cmp	x0, #0
	csel	x9, x8, xzr, eq
	adds	w8, w4, #1
	b.lo	.LBB209_2
	mov	w0, #4
	ret
.LBB209_2:
	cmp	x1, x8
	add	x0, x0, x9
	b.lo	.LBB209_24
	ubfiz	x9, x8, #3, #32
	add	x8, x0, x9
	ldur	x13, [x8, #-8]
	tbz	w13, #0, .LBB209_24
	ldp	x11, x14, [x2]
	add	w12, w3, #1
	ubfiz	x10, x12, #3, #32
	and	x11, x11, #0xffffffff8
	cbz	w12, .LBB209_9
	cmp	x1, x12
	b.lo	.LBB209_24
	add	x15, x0, x10
	ldur	x15, [x15, #-8]
	tbz	w15, #0, .LBB209_24
	and	x15, x15, #0xffffffff8
	cmp	x15, x9
	b.ne	.LBB209_10
	cmp	x11, x10
	b.eq	.LBB209_12
	b	.LBB209_24
.LBB209_9:
	cmp	x11, x9
	b.eq	.LBB209_12
	b	.LBB209_24
.LBB209_10:
	eor	x15, x15, x9
	cmp	x1, x15, lsr #3
	b.lo	.LBB209_24
	add	x15, x0, x15
	ldurb	w15, [x15, #-8]
	tbz	w15, #0, .LBB209_24
.LBB209_12:
	and	x15, x13, #0xffffffff8
	and	x13, x14, #0xffffffff8
	cmp	x15, x10
	eor	x14, x15, x10
	b.ne	.LBB209_14
	cmp	x13, x9
	b.eq	.LBB209_20
	b	.LBB209_24
.LBB209_14:
	cmp	x1, x14, lsr #3
	b.lo	.LBB209_24
	add	x16, x0, x14
	ldur	x16, [x16, #-8]
	tbz	w16, #0, .LBB209_24
	and	x16, x16, #0xffffffff8
	cmp	x16, x9
	b.ne	.LBB209_18
	cmp	x13, x14
	b.eq	.LBB209_20
	b	.LBB209_24
.LBB209_18:
	eor	x16, x16, x9
	cmp	x1, x16, lsr #3
	b.lo	.LBB209_24
	add	x16, x0, x16
	ldurb	w16, [x16, #-8]
	tbz	w16, #0, .LBB209_24
.LBB209_20:
	cbz	w12, .LBB209_25
	add	x12, x0, x10
	ldur	x16, [x12, #-8]
	and	x16, x16, #0xffffffff8
	eor	x16, x9, x16
	eor	x16, x16, x14
	orr	x16, x16, #0x1
	stur	x16, [x12, #-8]
	cmp	x15, x10
	b.eq	.LBB209_23
.LBB209_22:
	add	x12, x0, x14
	eor	x9, x10, x9
	mov	x10, x13
	ldur	x14, [x12, #-8]
	and	x14, x14, #0xffffffff8
	eor	x9, x9, x14
	orr	x9, x9, #0x1
	stur	x9, [x12, #-8]
.LBB209_23:
	mov	w0, wzr
	stur	xzr, [x8, #-8]
	stp	x11, x10, [x2]
	ret
.LBB209_24:
	mov	w2, w4
	b	ic_raw.table.RawTable.refusal_at_both.feecb86c9dd45d96
.LBB209_25:
	eor	x11, x15, x10
	cmp	x15, x10
	b.ne	.LBB209_22
	b	.LBB209_23
.Lfunc_end209:
	.size	ic_xor_remove, .Lfunc_end209-ic_xor_remove
	.cfi_endproc
	.section	.text.ic_xor_replace,"ax",@progbits
	.globl	ic_xor_replace
	.p2align	2
	.type	ic_xor_replace,@function
ic_xor_replace:
	.cfi_startproc
	hint	#34
	mov	w8, #4096
	cmp	x0, #0
	csel	x9, x8, xzr, eq
	adds	w8, w4, #1
	b.lo	.LBB210_2
	mov	w0, #4
	ret
.LBB210_2:
	sub	sp, sp, #32
	.cfi_def_cfa_offset 32
	stp	x29, x30, [sp, #16]
	add	x29, sp, #16
	.cfi_def_cfa w29, 16
	.cfi_offset w30, -8
	.cfi_offset w29, -16
	.cfi_remember_state
	add	x9, x0, x9
	cmp	x1, x8
	stp	x9, x1, [sp]
	b.lo	.LBB210_30
	ubfiz	x10, x8, #3, #32
	add	x8, x9, x10
	ldur	x14, [x8, #-8]
	tbz	w14, #0, .LBB210_30
	ldp	x12, x15, [x2]
	add	w13, w3, #1
	ubfiz	x11, x13, #3, #32
	and	x12, x12, #0xffffffff8
	cbz	w13, .LBB210_9
	cmp	x1, x13
	b.lo	.LBB210_30
	add	x16, x9, x11
	ldur	x16, [x16, #-8]
	tbz	w16, #0, .LBB210_30
	and	x16, x16, #0xffffffff8
	cmp	x16, x10
	b.ne	.LBB210_10
	cmp	x12, x11
	b.eq	.LBB210_12
	b	.LBB210_30
.LBB210_9:
	cmp	x12, x10
	b.eq	.LBB210_12
	b	.LBB210_30
.LBB210_10:
	eor	x16, x16, x10
	cmp	x1, x16, lsr #3
	b.lo	.LBB210_30
	add	x16, x9, x16
	ldurb	w16, [x16, #-8]
	tbz	w16, #0, .LBB210_30
.LBB210_12:
	and	x14, x14, #0xffffffff8
	and	x15, x15, #0xffffffff8
	add	w17, w5, #1
	cmp	x14, x11
	eor	x16, x14, x11
	b.ne	.LBB210_15
	cbz	w17, .LBB210_30
	cmp	x15, x10
	b.eq	.LBB210_23
	b	.LBB210_30
.LBB210_15:
	cmp	x1, x16, lsr #3
	b.lo	.LBB210_30
	add	x0, x9, x16
	ldur	x0, [x0, #-8]
	tbz	w0, #0, .LBB210_30
	and	x0, x0, #0xffffffff8
	cmp	x0, x10
	b.ne	.LBB210_20
	cbz	w17, .LBB210_30
	cmp	x15, x16
	b.eq	.LBB210_23
	b	.LBB210_30
.LBB210_20:
	eor	x0, x0, x10
	cmp	x1, x0, lsr #3
	b.lo	.LBB210_30
	cbz	w17, .LBB210_30
	add	x0, x9, x0
	ldur	x0, [x0, #-8]
	tbz	w0, #0, .LBB210_30
.LBB210_23:
	cmp	x1, x17
	b.lo	.LBB210_30
	ubfiz	x17, x17, #3, #32
	add	x1, x9, x17
	ldurb	w0, [x1, #-8]
	tbnz	w0, #0, .LBB210_30
	mov	w0, #1
	mov	x3, x17
	stur	x0, [x1, #-8]
	cbz	w13, .LBB210_27
	add	x13, x9, x11
	eor	x3, x10, x17
	ldur	x0, [x13, #-8]
	and	x0, x0, #0xffffffff8
	eor	x0, x3, x0
	mov	x3, x12
	orr	x0, x0, #0x1
	stur	x0, [x13, #-8]
.LBB210_27:
	cmp	x14, x11
	b.eq	.LBB210_29
	add	x9, x9, x16
	eor	x10, x10, x17
	mov	x17, x15
	ldur	x11, [x9, #-8]
	and	x11, x11, #0xffffffff8
	eor	x10, x10, x11
	orr	x10, x10, #0x1
	stur	x10, [x9, #-8]
.LBB210_29:
	orr	x9, x14, #0x1
	mov	w0, wzr
	stur	x9, [x1, #-8]
	stur	xzr, [x8, #-8]
	stp	x3, x17, [x2]
	.cfi_def_cfa wsp, 32
	ldp	x29, x30, [sp, #16]
	add	sp, sp, #32
	.cfi_def_cfa_offset 0
	.cfi_restore w30
	.cfi_restore w29
	ret
.LBB210_30:
	.cfi_restore_state
	mov	x0, sp
	mov	w1, w4
	mov	w2, w3
	mov	w3, w5
	bl	ic_raw.xor_calls.refusal_with_both
	.cfi_def_cfa wsp, 32
	ldp	x29, x30, [sp, #16]
	add	sp, sp, #32
	.cfi_def_cfa_offset 0
	.cfi_restore w30
	.cfi_restore w29
	ret
.Lfunc_end210:
	.size	ic_xor_replace, .Lfunc_end210-ic_xor_replace
	.cfi_endproc
	.section	.text.ic_xor_reverse,"ax",@progbits
	.globl	ic_xor_reverse
	.p2align	2
	.type	ic_xor_reverse,@function
ic_xor_reverse:
	.cfi_startproc
	hint	#34
	mov	x8, x0
	mov	w0, wzr
	ldp	x10, x9, [x8]
	stp	x9, x10, [x8]
	ret
.Lfunc_end211:
	.size	ic_xor_reverse, .Lfunc_end211-ic_xor_reverse
	.cfi_endproc
	.section	.text.ic_xor_splice_between,"ax",@progbits
	.globl	ic_xor_splice_between
	.p2align	2
	.type	ic_xor_splice_between,@function
ic_xor_splice_between:
	.cfi_startproc
	hint	#34
	stp	x29, x30, [sp, #-64]!
	.cfi_def_cfa_offset 64
	str	x23, [sp, #16]
	stp	x22, x21, [sp, #32]
	stp	x20, x19, [sp, #48]
	mov	x29, sp
	.cfi_def_cfa w29, 64
	.cfi_offset w19, -8
	.cfi_offset w20, -16
	.cfi_offset w21, -24
	.cfi_offset w22, -32
	.cfi_offset w23, -48
	.cfi_offset w30, -56
	.cfi_offset w29, -64
	.cfi_remember_state
	cmp	x0, #0
	mov	w8, #4096
	mov	w19, w5
	csel	x23, x8, xzr, eq
	adds	w8, w3, #1
	mov	w20, w3
	cset	w3, ne
	adds	w9, w5, #1
	mov	x5, x4
	ubfiz	x4, x8, #3, #32
	ubfiz	x7, x9, #3, #32
	mov	x21, x0
	cset	w6, ne
	add	x0, x0, x23
	mov	x22, x1
	bl	ic_raw.xor_calls.splice
	tbz	w0, #0, .LBB212_2
	mov	w0, wzr
	.cfi_def_cfa wsp, 64
	ldp	x20, x19, [sp, #48]
	ldr	x23, [sp, #16]
	ldp	x22, x21, [sp, #32]
	ldp	x29, x30, [sp], #64
	.cfi_def_cfa_offset 0
	.cfi_restore w19
	.cfi_restore w20
	.cfi_restore w21
	.cfi_restore w22
	.cfi_restore w23
	.cfi_restore w30
	.cfi_restore w29
	ret
.LBB212_2:
	.cfi_restore_state
	add	x0, x21, x23
	mov	x1, x22
	mov	w2, w20
	mov	w3, w19
	.cfi_def_cfa wsp, 64
	ldp	x20, x19, [sp, #48]
	ldr	x23, [sp, #16]
	ldp	x22, x21, [sp, #32]
	ldp	x29, x30, [sp], #64
	.cfi_def_cfa_offset 0
	.cfi_restore w19
	.cfi_restore w20
	.cfi_restore w21
	.cfi_restore w22
	.cfi_restore w23
	.cfi_restore w30
	.cfi_restore w29
	b	ic_raw.table.RawTable.refusal_at_both.feecb86c9dd45d96
.Lfunc_end212:
	.size	ic_xor_splice_between, .Lfunc_end212-ic_xor_splice_between
	.cfi_endproc
	.section	.text.ic_xor_split_between,"ax",@progbits
	.globl	ic_xor_split_between
	.p2align	2
	.type	ic_xor_split_between,@function
ic_xor_split_between:
	.cfi_startproc
	hint	#34
	ldr	x8, [x5]
	cmp	x0, #0
	mov	w9, #4096
	csel	x9, x9, xzr, eq
	tst	x8, #0xffffffff8
	add	x0, x0, x9
	b.ne	.LBB213_21
	ldr	x8, [x5, #8]
	tst	x8, #0xffffffff8
	b.ne	.LBB213_21
	ldp	x10, x13, [x2]
	add	w12, w3, #1
	add	w11, w4, #1
	ubfiz	x8, x12, #3, #32
	ubfiz	x9, x11, #3, #32
	and	x10, x10, #0xffffffff8
	cbz	w12, .LBB213_7
	cmp	x1, x12
	b.lo	.LBB213_21
	add	x14, x0, x8
	ldur	x14, [x14, #-8]
	tbz	w14, #0, .LBB213_21
	and	x14, x14, #0xffffffff8
	cmp	x14, x9
	b.ne	.LBB213_8
	cmp	x10, x8
	b.eq	.LBB213_10
	b	.LBB213_21
.LBB213_7:
	cmp	x10, x9
	b.eq	.LBB213_10
	b	.LBB213_21
.LBB213_8:
	eor	x14, x14, x9
	cmp	x1, x14, lsr #3
	b.lo	.LBB213_21
	add	x14, x0, x14
	ldurb	w14, [x14, #-8]
	tbz	w14, #0, .LBB213_21
.LBB213_10:
	and	x13, x13, #0xffffffff8
	cbz	w11, .LBB213_15
	cmp	x1, x11
	b.lo	.LBB213_21
	add	x14, x0, x9
	ldur	x14, [x14, #-8]
	tbz	w14, #0, .LBB213_21
	and	x14, x14, #0xffffffff8
	cmp	x14, x8
	b.ne	.LBB213_16
	cmp	x13, x9
	b.eq	.LBB213_18
	b	.LBB213_21
.LBB213_15:
	cmp	x13, x8
	b.eq	.LBB213_18
	b	.LBB213_21
.LBB213_16:
	eor	x14, x14, x8
	cmp	x1, x14, lsr #3
	b.lo	.LBB213_21
	add	x14, x0, x14
	ldurb	w14, [x14, #-8]
	tbz	w14, #0, .LBB213_21
.LBB213_18:
	cbz	w12, .LBB213_22
	add	x12, x0, x8
	ldur	x14, [x12, #-8]
	and	x14, x14, #0xffffffff8
	eor	x14, x14, x9
	orr	x14, x14, #0x1
	stur	x14, [x12, #-8]
	cbz	w11, .LBB213_23
.LBB213_20:
	add	x11, x0, x9
	ldur	x12, [x11, #-8]
	and	x12, x12, #0xffffffff8
	eor	x12, x12, x8
	orr	x12, x12, #0x1
	stur	x12, [x11, #-8]
	mov	w0, wzr
	stp	x10, x8, [x2]
	stp	x9, x13, [x5]
	ret
.LBB213_21:
	mov	w2, w3
	mov	w3, w4
	b	ic_raw.table.RawTable.refusal_at_both.feecb86c9dd45d96
.LBB213_22:
	mov	x10, xzr
	cbnz	w11, .LBB213_20
.LBB213_23:
	mov	w0, wzr
	stp	x10, x8, [x2]
	stp	xzr, xzr, [x5]
	ret
.Lfunc_end213:
	.size	ic_xor_split_between, .Lfunc_end213-ic_xor_split_between
	.cfi_endproc
	.section	".note.GNU-stack","",@progbits
