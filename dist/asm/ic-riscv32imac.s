/* Lists, rings, hash tables and a red-black tree over tables of links, with checks, sorts and merges: the calls of ic.h, for riscv32imac.
   the module of x86_64-linux, for riscv32-unknown-elf
   Licensed under Apache 2.0 or MIT. Made by tools/build-library: do not edit. */
	.globl	ic_version_0_1
ic_version_0_1 = 1
	.section	.text.unlikely.ic_raw.table.refusal_at_end.feecb86c9dd45d96,"ax",@progbits
	.p2align	1
	.type	ic_raw.table.refusal_at_end.feecb86c9dd45d96,@function
ic_raw.table.refusal_at_end.feecb86c9dd45d96:
	.cfi_sections .debug_frame
	.cfi_startproc
	addi	sp, sp, -32
	.cfi_def_cfa_offset 32
	sw	ra, 28(sp)
	.cfi_offset ra, -4
	sw	a0, 8(sp)
	sw	zero, 12(sp)
	sw	a1, 16(sp)
	sw	a2, 20(sp)
	addi	a0, sp, 8
	li	a1, -1
	mv	a2, a3
	call	ic_raw.table.RawTable.refusal.feecb86c9dd45d96
	lw	ra, 28(sp)
	.cfi_restore ra
	addi	sp, sp, 32
	.cfi_def_cfa_offset 0
	ret
.Lfunc_end0:
	.size	ic_raw.table.refusal_at_end.feecb86c9dd45d96, .Lfunc_end0-ic_raw.table.refusal_at_end.feecb86c9dd45d96
	.cfi_endproc
	.section	.text.unlikely.ic_raw.table.RawTable.refusal.feecb86c9dd45d96,"ax",@progbits
	.p2align	1
	.type	ic_raw.table.RawTable.refusal.feecb86c9dd45d96,@function
ic_raw.table.RawTable.refusal.feecb86c9dd45d96:
	.cfi_startproc
	addi	a1, a1, 1
	bnez	a1, .LBB1_5
.LBB1_1:
	addi	a2, a2, 1
	li	a1, 1
	beqz	a2, .LBB1_9
	lw	a3, 8(a0)
	lw	a4, 12(a0)
	sltu	a3, a3, a2
	seqz	a4, a4
	and	a3, a3, a4
	bnez	a3, .LBB1_9
	lw	a0, 0(a0)
	slli	a2, a2, 3
	add	a0, a0, a2
	lbu	a0, -8(a0)
	andi	a0, a0, 1
	beqz	a0, .LBB1_10
	li	a0, 2
	ret
.LBB1_5:
	lw	a3, 8(a0)
	lw	a4, 12(a0)
	sltu	a3, a3, a1
	seqz	a4, a4
	and	a3, a3, a4
	beqz	a3, .LBB1_7
	li	a0, 1
	ret
.LBB1_7:
	lw	a3, 0(a0)
	slli	a1, a1, 3
	add	a1, a1, a3
	lbu	a1, -8(a1)
	andi	a1, a1, 1
	bnez	a1, .LBB1_1
	li	a1, 3
.LBB1_9:
	mv	a0, a1
	ret
.LBB1_10:
	li	a0, 5
	ret
.Lfunc_end1:
	.size	ic_raw.table.RawTable.refusal.feecb86c9dd45d96, .Lfunc_end1-ic_raw.table.RawTable.refusal.feecb86c9dd45d96
	.cfi_endproc
	.section	.text.unlikely.ic_raw.table.RawTable.refusal_of.feecb86c9dd45d96,"ax",@progbits
	.p2align	1
	.type	ic_raw.table.RawTable.refusal_of.feecb86c9dd45d96,@function
ic_raw.table.RawTable.refusal_of.feecb86c9dd45d96:
	.cfi_startproc
	srli	a5, a4, 3
	beq	a5, a2, .LBB2_4
	sltu	a1, a2, a5
	bnez	a1, .LBB2_5
.LBB2_2:
	add	a0, a0, a3
	lbu	a0, -8(a0)
	andi	a0, a0, 1
	beqz	a0, .LBB2_6
	li	a0, 5
	ret
.LBB2_4:
	slli	a4, a4, 29
	srli	a2, a3, 3
	or	a2, a2, a4
	sltu	a1, a1, a2
	beqz	a1, .LBB2_2
.LBB2_5:
	li	a0, 1
	ret
.LBB2_6:
	li	a0, 3
	ret
.Lfunc_end2:
	.size	ic_raw.table.RawTable.refusal_of.feecb86c9dd45d96, .Lfunc_end2-ic_raw.table.RawTable.refusal_of.feecb86c9dd45d96
	.cfi_endproc
	.section	.text.unlikely.ic_raw.list_calls.splice_slow.55ebd757a04f39fd,"ax",@progbits
	.p2align	1
	.type	ic_raw.list_calls.splice_slow.55ebd757a04f39fd,@function
ic_raw.list_calls.splice_slow.55ebd757a04f39fd:
	.cfi_startproc
	addi	sp, sp, -32
	.cfi_def_cfa_offset 32
	sw	ra, 28(sp)
	sw	s0, 24(sp)
	sw	s1, 20(sp)
	sw	s2, 16(sp)
	sw	s3, 12(sp)
	sw	s4, 8(sp)
	sw	s5, 4(sp)
	sw	s6, 0(sp)
	.cfi_offset ra, -4
	.cfi_offset s0, -8
	.cfi_offset s1, -12
	.cfi_offset s2, -16
	.cfi_offset s3, -20
	.cfi_offset s4, -24
	.cfi_offset s5, -28
	.cfi_offset s6, -32
	.cfi_remember_state
	lw	a7, 0(a3)
	lw	s0, 4(a3)
	lw	t4, 8(a3)
	lw	t1, 12(a3)
	lw	t5, 0(a5)
	lw	s2, 4(a5)
	lw	t6, 8(a5)
	lw	s3, 12(a5)
	addi	s1, a4, 1
	srli	s4, s1, 29
	slli	t3, s1, 3
	andi	t2, s0, 15
	andi	t0, a7, -8
	andi	t1, t1, 15
	andi	a7, t4, -8
	snez	t4, s1
	beqz	s1, .LBB3_12
	seqz	s0, a2
	lui	s6, 131072
	addi	s0, s0, -1
	or	s5, s0, a1
	addi	s0, s6, -1
	bltu	s5, s0, .LBB3_3
	mv	s5, s0
.LBB3_3:
	bltu	s5, s1, .LBB3_54
	add	s6, a0, t3
	lw	s1, -8(s6)
	andi	s0, s1, 1
	beqz	s0, .LBB3_54
	andi	s0, a6, 1
	beqz	s0, .LBB3_17
	lw	s1, -4(s6)
	andi	s6, s1, -8
	beqz	s6, .LBB3_45
	li	a6, 0
	li	s0, 0
.LBB3_8:
	srli	s0, s6, 3
	slli	a6, a6, 29
	or	s0, s0, a6
	sltu	s0, s5, s0
.LBB3_9:
	bnez	s0, .LBB3_54
	add	s1, a0, s6
	lw	s1, -8(s1)
	andi	s1, s1, -7
	addi	s0, t3, 1
	xor	s0, s0, s1
	or	s1, s0, s4
	bnez	s1, .LBB3_54
	li	s4, 1
	mv	a6, t3
	mv	t3, s6
	andi	s5, s2, 15
	andi	s2, s3, 15
	andi	t6, t6, -8
	or	s1, t6, s2
	andi	s6, t5, -8
	bnez	s1, .LBB3_29
	j	.LBB3_47
.LBB3_12:
	andi	s1, a6, 1
	beqz	s1, .LBB3_19
	or	s1, a7, t1
	beqz	s1, .LBB3_45
	seqz	s1, a2
	lui	s0, 131072
	addi	s1, s1, -1
	or	s5, s1, a1
	addi	s1, s0, -1
	bltu	s5, s1, .LBB3_16
	mv	s5, s1
.LBB3_16:
	mv	s6, a7
	mv	a6, t1
	srli	s0, t1, 3
	beqz	s0, .LBB3_8
	j	.LBB3_9
.LBB3_17:
	andi	a6, s1, -8
	li	s1, 0
	bnez	a6, .LBB3_23
	li	s5, 0
	j	.LBB3_53
.LBB3_19:
	or	s1, t0, t2
	beqz	s1, .LBB3_52
	seqz	s1, a2
	lui	s0, 131072
	addi	s1, s1, -1
	or	s5, s1, a1
	addi	s1, s0, -1
	bltu	s5, s1, .LBB3_22
	mv	s5, s1
.LBB3_22:
	mv	a6, t0
	mv	s1, t2
.LBB3_23:
	srli	s0, s1, 3
	bnez	s0, .LBB3_25
	srli	s0, a6, 3
	slli	s1, s1, 29
	or	s0, s0, s1
	sltu	s0, s5, s0
.LBB3_25:
	bnez	s0, .LBB3_54
	add	s0, a0, a6
	lbu	s1, -8(s0)
	andi	s1, s1, 1
	beqz	s1, .LBB3_54
	lw	s0, -4(s0)
	andi	s0, s0, -8
	li	s5, 1
	xor	s0, s0, t3
	or	s0, s0, s4
	mv	s4, t4
	mv	t4, s5
	bnez	s0, .LBB3_54
.LBB3_28:
	andi	s5, s2, 15
	andi	s2, s3, 15
	andi	t6, t6, -8
	or	s1, t6, s2
	andi	s6, t5, -8
	beqz	s1, .LBB3_47
.LBB3_29:
	seqz	s1, a2
	lui	t5, 131072
	addi	s1, s1, -1
	or	s3, s1, a1
	addi	s1, t5, -1
	bgeu	s3, s1, .LBB3_32
	srli	s1, s2, 3
	beqz	s1, .LBB3_33
.LBB3_31:
	beqz	s1, .LBB3_34
	j	.LBB3_54
.LBB3_32:
	mv	s3, s1
	srli	s1, s2, 3
	bnez	s1, .LBB3_31
.LBB3_33:
	srli	t5, t6, 3
	slli	s1, s2, 29
	or	s1, t5, s1
	sltu	s1, s3, s1
	bnez	s1, .LBB3_54
.LBB3_34:
	or	s1, s6, s5
	beqz	s1, .LBB3_54
	add	t5, a0, t6
	lw	s1, -8(t5)
	andi	s1, s1, -7
	li	s0, 1
	bne	s1, s0, .LBB3_54
	srli	s1, s5, 3
	bnez	s1, .LBB3_38
	srli	s0, s6, 3
	slli	s1, s5, 29
	or	s0, s0, s1
	sltu	s1, s3, s0
.LBB3_38:
	bnez	s1, .LBB3_54
	add	s3, a0, s6
	lbu	s0, -8(s3)
	andi	s0, s0, 1
	beqz	s0, .LBB3_54
	xor	s0, t0, s6
	xor	s1, t2, s5
	or	s0, s0, s1
	beqz	s0, .LBB3_54
	lw	s0, -4(s3)
	li	s1, 7
	bltu	s1, s0, .LBB3_54
	beqz	s4, .LBB3_48
	add	a1, a0, t3
	addi	s6, s6, 1
	sw	s6, -8(a1)
	beqz	t4, .LBB3_49
.LBB3_44:
	add	a0, a0, a6
	sw	t6, -4(a0)
	j	.LBB3_50
.LBB3_45:
	xor	s1, t0, t3
	xor	s0, t2, s4
	or	s0, s0, s1
	bnez	s0, .LBB3_54
	li	t3, 0
	li	s4, 0
	mv	a6, t0
	andi	s5, s2, 15
	andi	s2, s3, 15
	andi	t6, t6, -8
	or	s1, t6, s2
	andi	s6, t5, -8
	bnez	s1, .LBB3_29
.LBB3_47:
	or	s1, s6, s5
	beqz	s1, .LBB3_51
	j	.LBB3_54
.LBB3_48:
	mv	t0, s6
	mv	t2, s5
	bnez	t4, .LBB3_44
.LBB3_49:
	mv	a7, t6
	mv	t1, s2
.LBB3_50:
	seqz	a0, s4
	seqz	a1, t4
	addi	a0, a0, -1
	addi	a1, a1, -1
	and	a0, a0, t3
	and	a1, a1, a6
	sw	a0, -4(s3)
	addi	a1, a1, 1
	sw	a1, -8(t5)
.LBB3_51:
	sb	t2, 4(a3)
	sb	zero, 5(a3)
	sb	zero, 6(a3)
	sb	zero, 7(a3)
	srli	a0, t0, 24
	srli	a1, t0, 16
	srli	a2, t0, 8
	sb	t1, 12(a3)
	sb	zero, 13(a3)
	sb	zero, 14(a3)
	sb	zero, 15(a3)
	srli	a4, a7, 24
	srli	s1, a7, 16
	sb	t0, 0(a3)
	sb	a2, 1(a3)
	sb	a1, 2(a3)
	sb	a0, 3(a3)
	srli	a0, a7, 8
	sb	a7, 8(a3)
	sb	a0, 9(a3)
	sb	s1, 10(a3)
	sb	a4, 11(a3)
	li	a2, 16
	mv	a0, a5
	li	a1, 0
	li	a3, 0
	li	a4, 0
	call	ic.clear
	li	a0, 0
	lw	ra, 28(sp)
	lw	s0, 24(sp)
	lw	s1, 20(sp)
	lw	s2, 16(sp)
	lw	s3, 12(sp)
	lw	s4, 8(sp)
	lw	s5, 4(sp)
	lw	s6, 0(sp)
	.cfi_restore ra
	.cfi_restore s0
	.cfi_restore s1
	.cfi_restore s2
	.cfi_restore s3
	.cfi_restore s4
	.cfi_restore s5
	.cfi_restore s6
	addi	sp, sp, 32
	.cfi_def_cfa_offset 0
	ret
.LBB3_52:
	.cfi_restore_state
	li	s5, 0
	li	a6, 0
.LBB3_53:
	xor	s0, a7, t3
	xor	s1, t1, s4
	or	s0, s0, s1
	mv	s4, t4
	mv	t4, s5
	beqz	s0, .LBB3_28
.LBB3_54:
	mv	a3, a4
	lw	ra, 28(sp)
	lw	s0, 24(sp)
	lw	s1, 20(sp)
	lw	s2, 16(sp)
	lw	s3, 12(sp)
	lw	s4, 8(sp)
	lw	s5, 4(sp)
	lw	s6, 0(sp)
	.cfi_restore ra
	.cfi_restore s0
	.cfi_restore s1
	.cfi_restore s2
	.cfi_restore s3
	.cfi_restore s4
	.cfi_restore s5
	.cfi_restore s6
	addi	sp, sp, 32
	.cfi_def_cfa_offset 0
	tail	ic_raw.table.RawTable.refusal_at.05a19227735374d3
.Lfunc_end3:
	.size	ic_raw.list_calls.splice_slow.55ebd757a04f39fd, .Lfunc_end3-ic_raw.list_calls.splice_slow.55ebd757a04f39fd
	.cfi_endproc
	.section	.text.unlikely.ic_raw.table.RawTable.refusal_at.05a19227735374d3,"ax",@progbits
	.p2align	1
	.type	ic_raw.table.RawTable.refusal_at.05a19227735374d3,@function
ic_raw.table.RawTable.refusal_at.05a19227735374d3:
	.cfi_startproc
	addi	a3, a3, 1
	bnez	a3, .LBB4_2
.LBB4_1:
	li	a0, 5
	ret
.LBB4_2:
	seqz	a2, a2
	addi	a2, a2, -1
	or	a1, a1, a2
	lui	a2, 131072
	addi	a2, a2, -1
	bltu	a1, a2, .LBB4_4
	mv	a1, a2
.LBB4_4:
	bgeu	a1, a3, .LBB4_6
	li	a0, 1
	ret
.LBB4_6:
	slli	a3, a3, 3
	add	a0, a0, a3
	lbu	a0, -8(a0)
	andi	a0, a0, 1
	bnez	a0, .LBB4_1
	li	a0, 3
	ret
.Lfunc_end4:
	.size	ic_raw.table.RawTable.refusal_at.05a19227735374d3, .Lfunc_end4-ic_raw.table.RawTable.refusal_at.05a19227735374d3
	.cfi_endproc
	.section	.text.ic_raw.list_calls.insert_at.55ebd757a04f39fd,"ax",@progbits
	.p2align	1
	.type	ic_raw.list_calls.insert_at.55ebd757a04f39fd,@function
ic_raw.list_calls.insert_at.55ebd757a04f39fd:
	.cfi_startproc
	addi	sp, sp, -16
	.cfi_def_cfa_offset 16
	sw	s0, 12(sp)
	sw	s1, 8(sp)
	sw	s2, 4(sp)
	.cfi_offset s0, -4
	.cfi_offset s1, -8
	.cfi_offset s2, -12
	.cfi_remember_state
	lw	a7, 0(a3)
	lw	s0, 4(a3)
	lw	t2, 8(a3)
	lw	t0, 12(a3)
	addi	s1, a5, 1
	srli	t5, s1, 29
	slli	t1, s1, 3
	andi	t3, s0, 15
	andi	t4, a7, -8
	andi	t0, t0, 15
	andi	a7, t2, -8
	snez	t2, s1
	beqz	s1, .LBB5_12
	seqz	s0, a2
	lui	t6, 131072
	addi	s0, s0, -1
	or	s2, s0, a1
	addi	s0, t6, -1
	bltu	s2, s0, .LBB5_3
	mv	s2, s0
.LBB5_3:
	bltu	s2, s1, .LBB5_43
	add	t6, a0, t1
	lw	s1, -8(t6)
	andi	s0, s1, 1
	beqz	s0, .LBB5_43
	andi	a4, a4, 1
	beqz	a4, .LBB5_17
	lw	s1, -4(t6)
	andi	s1, s1, -8
	beqz	s1, .LBB5_28
	li	s0, 0
	li	a4, 0
.LBB5_8:
	srli	a4, s1, 3
	slli	s0, s0, 29
	or	a4, a4, s0
	sltu	a4, s2, a4
.LBB5_9:
	bnez	a4, .LBB5_43
	add	a4, a0, s1
	lw	a4, -8(a4)
	andi	a4, a4, -7
	addi	s0, t1, 1
	xor	a4, a4, s0
	or	a4, a4, t5
	bnez	a4, .LBB5_43
	li	t5, 1
	mv	t6, t1
	mv	t1, s1
	j	.LBB5_32
.LBB5_12:
	andi	a4, a4, 1
	beqz	a4, .LBB5_19
	or	a4, a7, t0
	beqz	a4, .LBB5_28
	seqz	a4, a2
	lui	s1, 131072
	addi	a4, a4, -1
	or	s2, a4, a1
	addi	a4, s1, -1
	bltu	s2, a4, .LBB5_16
	mv	s2, a4
.LBB5_16:
	mv	s1, a7
	mv	s0, t0
	srli	a4, t0, 3
	beqz	a4, .LBB5_8
	j	.LBB5_9
.LBB5_17:
	andi	t6, s1, -8
	bnez	t6, .LBB5_23
	li	s0, 0
	j	.LBB5_31
.LBB5_19:
	or	a4, t4, t3
	beqz	a4, .LBB5_30
	seqz	a4, a2
	lui	s1, 131072
	addi	a4, a4, -1
	or	s2, a4, a1
	addi	a4, s1, -1
	bltu	s2, a4, .LBB5_22
	mv	s2, a4
.LBB5_22:
	mv	t6, t4
	mv	a4, t3
.LBB5_23:
	srli	s0, a4, 3
	bnez	s0, .LBB5_25
	srli	s0, t6, 3
	slli	a4, a4, 29
	or	a4, a4, s0
	sltu	s0, s2, a4
.LBB5_25:
	bnez	s0, .LBB5_43
	add	s0, a0, t6
	lbu	a4, -8(s0)
	andi	a4, a4, 1
	beqz	a4, .LBB5_43
	lw	s1, -4(s0)
	andi	s1, s1, -8
	li	s0, 1
	xor	s1, s1, t1
	or	a4, s1, t5
	mv	t5, t2
	mv	t2, s0
	beqz	a4, .LBB5_32
	j	.LBB5_43
.LBB5_28:
	xor	a4, t4, t1
	xor	s1, t3, t5
	or	a4, a4, s1
	bnez	a4, .LBB5_43
	li	t1, 0
	li	t5, 0
	mv	t6, t4
	j	.LBB5_32
.LBB5_30:
	li	s0, 0
	li	t6, 0
.LBB5_31:
	xor	s1, a7, t1
	xor	a4, t0, t5
	or	a4, a4, s1
	mv	t5, t2
	mv	t2, s0
	bnez	a4, .LBB5_43
.LBB5_32:
	seqz	a4, a2
	lui	s1, 131072
	addi	a4, a4, -1
	or	a4, a4, a1
	addi	s1, s1, -1
	addi	s0, a6, 1
	bltu	a4, s1, .LBB5_34
	mv	a4, s1
.LBB5_34:
	beqz	s0, .LBB5_43
	bltu	a4, s0, .LBB5_43
	slli	s1, s0, 3
	add	s2, a0, s1
	lbu	a4, -8(s2)
	andi	a4, a4, 1
	bnez	a4, .LBB5_43
	srli	s0, s0, 29
	mv	a1, s1
	mv	a6, s0
	beqz	t5, .LBB5_39
	add	a1, a0, t1
	addi	a2, s1, 1
	sw	a2, -8(a1)
	mv	a1, t4
	mv	a6, t3
.LBB5_39:
	beqz	t2, .LBB5_41
	add	a0, a0, t6
	sw	s1, -4(a0)
	j	.LBB5_42
.LBB5_41:
	mv	a7, s1
	mv	t0, s0
.LBB5_42:
	seqz	a0, t5
	seqz	a4, t2
	srli	a5, a1, 24
	srli	s1, a1, 16
	addi	a0, a0, -1
	and	a0, a0, t1
	srli	s0, a1, 8
	addi	a4, a4, -1
	and	a4, a4, t6
	srli	a2, a7, 24
	addi	a4, a4, 1
	sw	a4, -8(s2)
	sw	a0, -4(s2)
	srli	a0, a7, 16
	srli	a4, a7, 8
	sb	a6, 4(a3)
	sb	zero, 5(a3)
	sb	zero, 6(a3)
	sb	zero, 7(a3)
	sb	a1, 0(a3)
	sb	s0, 1(a3)
	sb	s1, 2(a3)
	sb	a5, 3(a3)
	sb	t0, 12(a3)
	sb	zero, 13(a3)
	sb	zero, 14(a3)
	sb	zero, 15(a3)
	sb	a7, 8(a3)
	sb	a4, 9(a3)
	sb	a0, 10(a3)
	sb	a2, 11(a3)
	li	a0, 0
	lw	s0, 12(sp)
	lw	s1, 8(sp)
	lw	s2, 4(sp)
	.cfi_restore s0
	.cfi_restore s1
	.cfi_restore s2
	addi	sp, sp, 16
	.cfi_def_cfa_offset 0
	ret
.LBB5_43:
	.cfi_restore_state
	mv	a3, a5
	mv	a4, a6
	lw	s0, 12(sp)
	lw	s1, 8(sp)
	lw	s2, 4(sp)
	.cfi_restore s0
	.cfi_restore s1
	.cfi_restore s2
	addi	sp, sp, 16
	.cfi_def_cfa_offset 0
	tail	ic_raw.table.RawTable.refusal.05a19227735374d3
.Lfunc_end5:
	.size	ic_raw.list_calls.insert_at.55ebd757a04f39fd, .Lfunc_end5-ic_raw.list_calls.insert_at.55ebd757a04f39fd
	.cfi_endproc
	.section	.text.unlikely.ic_raw.table.RawTable.refusal.05a19227735374d3,"ax",@progbits
	.p2align	1
	.type	ic_raw.table.RawTable.refusal.05a19227735374d3,@function
ic_raw.table.RawTable.refusal.05a19227735374d3:
	.cfi_startproc
	addi	a3, a3, 1
	bnez	a3, .LBB6_7
.LBB6_1:
	addi	a4, a4, 1
	li	a3, 1
	beqz	a4, .LBB6_13
	seqz	a2, a2
	addi	a2, a2, -1
	or	a1, a1, a2
	lui	a2, 131072
	addi	a2, a2, -1
	bltu	a1, a2, .LBB6_4
	mv	a1, a2
.LBB6_4:
	bltu	a1, a4, .LBB6_13
	slli	a4, a4, 3
	add	a0, a0, a4
	lbu	a0, -8(a0)
	andi	a0, a0, 1
	beqz	a0, .LBB6_14
	li	a0, 2
	ret
.LBB6_7:
	seqz	a5, a2
	lui	a6, 131072
	addi	a5, a5, -1
	or	a5, a5, a1
	addi	a6, a6, -1
	bltu	a5, a6, .LBB6_9
	mv	a5, a6
.LBB6_9:
	bgeu	a5, a3, .LBB6_11
	li	a0, 1
	ret
.LBB6_11:
	slli	a3, a3, 3
	add	a3, a3, a0
	lbu	a3, -8(a3)
	andi	a3, a3, 1
	bnez	a3, .LBB6_1
	li	a3, 3
.LBB6_13:
	mv	a0, a3
	ret
.LBB6_14:
	li	a0, 5
	ret
.Lfunc_end6:
	.size	ic_raw.table.RawTable.refusal.05a19227735374d3, .Lfunc_end6-ic_raw.table.RawTable.refusal.05a19227735374d3
	.cfi_endproc
	.section	.text.unlikely.ic_raw.move_calls.move_slow.55ebd757a04f39fd,"ax",@progbits
	.p2align	1
	.type	ic_raw.move_calls.move_slow.55ebd757a04f39fd,@function
ic_raw.move_calls.move_slow.55ebd757a04f39fd:
	.cfi_startproc
	addi	sp, sp, -48
	.cfi_def_cfa_offset 48
	sw	s0, 44(sp)
	sw	s1, 40(sp)
	sw	s2, 36(sp)
	sw	s3, 32(sp)
	sw	s4, 28(sp)
	sw	s5, 24(sp)
	sw	s6, 20(sp)
	sw	s7, 16(sp)
	sw	s8, 12(sp)
	.cfi_offset s0, -4
	.cfi_offset s1, -8
	.cfi_offset s2, -12
	.cfi_offset s3, -16
	.cfi_offset s4, -20
	.cfi_offset s5, -24
	.cfi_offset s6, -28
	.cfi_offset s7, -32
	.cfi_offset s8, -36
	.cfi_remember_state
	addi	t6, a6, 1
	bnez	t6, .LBB7_2
	li	a0, 4
	j	.LBB7_59
.LBB7_2:
	lw	a7, 0(a3)
	lw	s0, 4(a3)
	lw	t1, 8(a3)
	lw	t0, 12(a3)
	addi	s1, a5, 1
	srli	t5, s1, 29
	slli	t4, s1, 3
	andi	t2, s0, 15
	andi	t3, a7, -8
	andi	t0, t0, 15
	andi	a7, t1, -8
	snez	t1, s1
	beqz	s1, .LBB7_14
	seqz	s0, a2
	lui	s2, 131072
	addi	s0, s0, -1
	or	s3, s0, a1
	addi	s0, s2, -1
	bltu	s3, s0, .LBB7_5
	mv	s3, s0
.LBB7_5:
	bltu	s3, s1, .LBB7_50
	add	s2, a0, t4
	lw	s1, -8(s2)
	andi	s0, s1, 1
	beqz	s0, .LBB7_50
	andi	a4, a4, 1
	beqz	a4, .LBB7_19
	lw	a4, -4(s2)
	andi	a4, a4, -8
	beqz	a4, .LBB7_30
	li	s5, 0
	li	s0, 0
.LBB7_10:
	srli	s0, a4, 3
	slli	s1, s5, 29
	or	s0, s0, s1
	sltu	s0, s3, s0
.LBB7_11:
	bnez	s0, .LBB7_50
	add	s0, a0, a4
	lw	s0, -8(s0)
	andi	s0, s0, -7
	addi	s1, t4, 1
	xor	s0, s0, s1
	or	s0, s0, t5
	bnez	s0, .LBB7_50
	li	s3, 1
	mv	s2, t4
	mv	s4, t5
	mv	t4, a4
	mv	t5, s5
	seqz	a4, a2
	lui	s0, 131072
	addi	a4, a4, -1
	or	a4, a4, a1
	addi	s0, s0, -1
	bgeu	a4, s0, .LBB7_35
	j	.LBB7_36
.LBB7_14:
	andi	a4, a4, 1
	beqz	a4, .LBB7_21
	or	a4, a7, t0
	beqz	a4, .LBB7_30
	seqz	a4, a2
	lui	s0, 131072
	addi	a4, a4, -1
	or	s3, a4, a1
	addi	a4, s0, -1
	bltu	s3, a4, .LBB7_18
	mv	s3, a4
.LBB7_18:
	mv	a4, a7
	mv	s5, t0
	srli	s0, t0, 3
	beqz	s0, .LBB7_10
	j	.LBB7_11
.LBB7_19:
	andi	s2, s1, -8
	li	s4, 0
	bnez	s2, .LBB7_25
	li	a4, 0
	j	.LBB7_33
.LBB7_21:
	or	a4, t3, t2
	beqz	a4, .LBB7_32
	seqz	a4, a2
	lui	s0, 131072
	addi	a4, a4, -1
	or	s3, a4, a1
	addi	a4, s0, -1
	bltu	s3, a4, .LBB7_24
	mv	s3, a4
.LBB7_24:
	mv	s2, t3
	mv	s4, t2
.LBB7_25:
	srli	a4, s4, 3
	bnez	a4, .LBB7_27
	srli	a4, s2, 3
	slli	s0, s4, 29
	or	a4, a4, s0
	sltu	a4, s3, a4
.LBB7_27:
	bnez	a4, .LBB7_50
	add	a4, a0, s2
	lbu	s0, -8(a4)
	andi	s0, s0, 1
	beqz	s0, .LBB7_50
	lw	s1, -4(a4)
	andi	s1, s1, -8
	li	a4, 1
	xor	s1, s1, t4
	or	s0, s1, t5
	mv	s3, t1
	mv	t1, a4
	beqz	s0, .LBB7_34
	j	.LBB7_50
.LBB7_30:
	xor	a4, t3, t4
	xor	s1, t2, t5
	or	a4, a4, s1
	bnez	a4, .LBB7_50
	li	t4, 0
	li	t5, 0
	li	s3, 0
	mv	s2, t3
	mv	s4, t2
	seqz	a4, a2
	lui	s0, 131072
	addi	a4, a4, -1
	or	a4, a4, a1
	addi	s0, s0, -1
	bgeu	a4, s0, .LBB7_35
	j	.LBB7_36
.LBB7_32:
	li	s2, 0
.LBB7_33:
	li	s4, 0
	xor	s1, a7, t4
	xor	s0, t0, t5
	or	s0, s0, s1
	mv	s3, t1
	mv	t1, a4
	bnez	s0, .LBB7_50
.LBB7_34:
	seqz	a4, a2
	lui	s0, 131072
	addi	a4, a4, -1
	or	a4, a4, a1
	addi	s0, s0, -1
	bltu	a4, s0, .LBB7_36
.LBB7_35:
	mv	a4, s0
.LBB7_36:
	bltu	a4, t6, .LBB7_50
	slli	s7, t6, 3
	add	s5, a0, s7
	lw	s0, -8(s5)
	andi	s1, s0, 1
	beqz	s1, .LBB7_50
	lw	s1, -4(s5)
	andi	s6, s1, -8
	srli	t6, t6, 29
	beqz	s6, .LBB7_41
	srli	s1, s6, 3
	bltu	a4, s1, .LBB7_50
	add	s1, a0, s6
	lw	s1, -8(s1)
	andi	s8, s1, -7
	addi	s1, s7, 1
	xor	s1, s1, s8
	or	s1, s1, t6
	beqz	s1, .LBB7_42
	j	.LBB7_50
.LBB7_41:
	xor	s8, t3, s7
	xor	s1, t2, t6
	or	s1, s8, s1
	bnez	s1, .LBB7_50
.LBB7_42:
	andi	s8, s0, -8
	mv	s0, a7
	mv	s1, t0
	beqz	s8, .LBB7_46
	srli	s0, s8, 3
	bltu	a4, s0, .LBB7_50
	add	a4, a0, s8
	lbu	s0, -8(a4)
	andi	s0, s0, 1
	beqz	s0, .LBB7_50
	li	s1, 0
	lw	s0, -4(a4)
	andi	s0, s0, -8
.LBB7_46:
	xor	a4, s0, s7
	xor	s0, s1, t6
	or	a4, a4, s0
	bnez	a4, .LBB7_50
	seqz	a1, s3
	addi	a2, a1, -1
	and	a1, a2, t4
	and	a2, a2, t5
	xor	a2, a2, t6
	xor	a4, a1, s7
	or	a2, a2, a4
	beqz	a2, .LBB7_49
	seqz	a2, t1
	addi	a2, a2, -1
	and	a4, a2, s2
	and	a5, a2, s4
	xor	a5, a5, t6
	xor	a4, a4, s7
	or	a4, a4, a5
	bnez	a4, .LBB7_51
.LBB7_49:
	li	a0, 0
	j	.LBB7_59
.LBB7_50:
	mv	a3, a5
	mv	a4, a6
	lw	s0, 44(sp)
	lw	s1, 40(sp)
	lw	s2, 36(sp)
	lw	s3, 32(sp)
	lw	s4, 28(sp)
	lw	s5, 24(sp)
	lw	s6, 20(sp)
	lw	s7, 16(sp)
	lw	s8, 12(sp)
	.cfi_restore s0
	.cfi_restore s1
	.cfi_restore s2
	.cfi_restore s3
	.cfi_restore s4
	.cfi_restore s5
	.cfi_restore s6
	.cfi_restore s7
	.cfi_restore s8
	addi	sp, sp, 48
	.cfi_def_cfa_offset 0
	tail	ic_raw.table.RawTable.refusal_at_both.05a19227735374d3
.LBB7_51:
	.cfi_restore_state
	.cfi_remember_state
	beqz	s6, .LBB7_60
	add	a4, a0, s6
	addi	a5, s8, 1
	sw	a5, -8(a4)
	beqz	s8, .LBB7_61
.LBB7_53:
	add	s8, s8, a0
	sw	s6, -4(s8)
	mv	a4, s7
	mv	a6, t6
	beqz	s3, .LBB7_55
.LBB7_54:
	add	t4, t4, a0
	addi	a4, s7, 1
	sw	a4, -8(t4)
	mv	a4, t3
	mv	a6, t2
.LBB7_55:
	beqz	t1, .LBB7_57
	add	a0, a0, s2
	sw	s7, -4(a0)
	j	.LBB7_58
.LBB7_57:
	mv	a7, s7
	mv	t0, t6
.LBB7_58:
	li	a0, 0
	and	a2, a2, s2
	srli	t1, a4, 24
	srli	s0, a4, 16
	srli	a5, a4, 8
	srli	s1, a7, 24
	addi	a2, a2, 1
	sw	a2, -8(s5)
	sw	a1, -4(s5)
	srli	a1, a7, 16
	srli	a2, a7, 8
	sb	a6, 4(a3)
	sb	zero, 5(a3)
	sb	zero, 6(a3)
	sb	zero, 7(a3)
	sb	a4, 0(a3)
	sb	a5, 1(a3)
	sb	s0, 2(a3)
	sb	t1, 3(a3)
	sb	t0, 12(a3)
	sb	zero, 13(a3)
	sb	zero, 14(a3)
	sb	zero, 15(a3)
	sb	a7, 8(a3)
	sb	a2, 9(a3)
	sb	a1, 10(a3)
	sb	s1, 11(a3)
.LBB7_59:
	lw	s0, 44(sp)
	lw	s1, 40(sp)
	lw	s2, 36(sp)
	lw	s3, 32(sp)
	lw	s4, 28(sp)
	lw	s5, 24(sp)
	lw	s6, 20(sp)
	lw	s7, 16(sp)
	lw	s8, 12(sp)
	.cfi_restore s0
	.cfi_restore s1
	.cfi_restore s2
	.cfi_restore s3
	.cfi_restore s4
	.cfi_restore s5
	.cfi_restore s6
	.cfi_restore s7
	.cfi_restore s8
	addi	sp, sp, 48
	.cfi_def_cfa_offset 0
	ret
.LBB7_60:
	.cfi_restore_state
	li	t2, 0
	mv	t3, s8
	bnez	s8, .LBB7_53
.LBB7_61:
	li	t0, 0
	mv	a7, s6
	mv	a4, s7
	mv	a6, t6
	bnez	s3, .LBB7_54
	j	.LBB7_55
.Lfunc_end7:
	.size	ic_raw.move_calls.move_slow.55ebd757a04f39fd, .Lfunc_end7-ic_raw.move_calls.move_slow.55ebd757a04f39fd
	.cfi_endproc
	.section	.text.unlikely.ic_raw.table.RawTable.refusal_at_both.05a19227735374d3,"ax",@progbits
	.p2align	1
	.type	ic_raw.table.RawTable.refusal_at_both.05a19227735374d3,@function
ic_raw.table.RawTable.refusal_at_both.05a19227735374d3:
	.cfi_startproc
	addi	a3, a3, 1
	bnez	a3, .LBB8_3
.LBB8_1:
	addi	a4, a4, 1
	bnez	a4, .LBB8_7
	li	a0, 5
	ret
.LBB8_3:
	seqz	a5, a2
	lui	a6, 131072
	addi	a5, a5, -1
	or	a5, a5, a1
	addi	a6, a6, -1
	bltu	a5, a6, .LBB8_5
	mv	a5, a6
.LBB8_5:
	bgeu	a5, a3, .LBB8_11
	li	a0, 1
	ret
.LBB8_7:
	seqz	a2, a2
	addi	a2, a2, -1
	or	a1, a1, a2
	lui	a2, 131072
	addi	a2, a2, -1
	bltu	a1, a2, .LBB8_9
	mv	a1, a2
.LBB8_9:
	bgeu	a1, a4, .LBB8_12
	li	a0, 1
	ret
.LBB8_11:
	slli	a3, a3, 3
	add	a3, a3, a0
	lbu	a3, -8(a3)
	andi	a3, a3, 1
	bnez	a3, .LBB8_1
	j	.LBB8_14
.LBB8_12:
	slli	a4, a4, 3
	add	a0, a0, a4
	lbu	a0, -8(a0)
	andi	a0, a0, 1
	beqz	a0, .LBB8_14
	li	a0, 5
	ret
.LBB8_14:
	li	a0, 3
	ret
.Lfunc_end8:
	.size	ic_raw.table.RawTable.refusal_at_both.05a19227735374d3, .Lfunc_end8-ic_raw.table.RawTable.refusal_at_both.05a19227735374d3
	.cfi_endproc
	.section	.text.unlikely.ic_raw.move_calls.move_to_end_slow.55ebd757a04f39fd,"ax",@progbits
	.p2align	1
	.type	ic_raw.move_calls.move_to_end_slow.55ebd757a04f39fd,@function
ic_raw.move_calls.move_to_end_slow.55ebd757a04f39fd:
	.cfi_startproc
	addi	sp, sp, -16
	.cfi_def_cfa_offset 16
	sw	s0, 12(sp)
	sw	s1, 8(sp)
	sw	s2, 4(sp)
	sw	s3, 0(sp)
	.cfi_offset s0, -4
	.cfi_offset s1, -8
	.cfi_offset s2, -12
	.cfi_offset s3, -16
	.cfi_remember_state
	addi	s3, a5, 1
	bnez	s3, .LBB9_2
	li	a0, 4
	lw	s0, 12(sp)
	lw	s1, 8(sp)
	lw	s2, 4(sp)
	lw	s3, 0(sp)
	.cfi_restore s0
	.cfi_restore s1
	.cfi_restore s2
	.cfi_restore s3
	addi	sp, sp, 16
	.cfi_def_cfa_offset 0
	ret
.LBB9_2:
	.cfi_restore_state
	.cfi_remember_state
	mv	a6, a5
	slli	t2, s3, 3
	lw	t1, 0(a3)
	lw	t4, 4(a3)
	lw	t0, 8(a3)
	lw	t5, 12(a3)
	seqz	s2, a2
	lui	s1, 131072
	addi	t3, s2, -1
	or	s0, t3, a1
	addi	s1, s1, -1
	andi	a5, a4, 1
	bltu	s0, s1, .LBB9_4
	mv	s0, s1
.LBB9_4:
	srli	a7, s3, 29
	andi	t6, t4, 15
	andi	t4, t1, -8
	andi	t5, t5, 15
	andi	t1, t0, -8
	add	t0, a0, t2
	beqz	a5, .LBB9_17
	xor	a5, t4, t2
	xor	s1, t6, a7
	or	a5, a5, s1
	bnez	a5, .LBB9_37
	bltu	s0, s3, .LBB9_37
	lw	a5, -4(t0)
	bnez	a5, .LBB9_37
	lw	s1, -8(t0)
	andi	a5, s1, 1
	beqz	a5, .LBB9_37
	andi	t4, s1, -8
	beqz	t4, .LBB9_37
	srli	s1, s1, 3
	sltu	a5, a1, s1
	and	a5, s2, a5
	bnez	a5, .LBB9_37
	add	t6, a0, t4
	lw	a5, -4(t6)
	xor	a5, t2, a5
	or	a5, a5, a7
	bnez	a5, .LBB9_37
	lw	a5, -8(t6)
	andi	a5, a5, 1
	beqz	a5, .LBB9_37
	or	a5, t1, t5
	beqz	a5, .LBB9_37
	or	a5, t3, a1
	lui	s0, 131072
	addi	s0, s0, -1
	srli	s1, t5, 3
	bgeu	a5, s0, .LBB9_32
	beqz	s1, .LBB9_33
.LBB9_16:
	beqz	s1, .LBB9_34
	j	.LBB9_37
.LBB9_17:
	xor	a5, t1, t2
	xor	s1, t5, a7
	or	a5, a5, s1
	bnez	a5, .LBB9_37
	bltu	s0, s3, .LBB9_37
	lw	a5, -8(t0)
	li	s1, 1
	bne	a5, s1, .LBB9_37
	lw	a5, -4(t0)
	andi	t5, a5, -8
	beqz	t5, .LBB9_37
	srli	a5, a5, 3
	sltu	a5, a1, a5
	and	a5, s2, a5
	bnez	a5, .LBB9_37
	add	s2, a0, t5
	lw	a5, -8(s2)
	addi	s1, t2, 1
	xor	a5, a5, s1
	or	a5, a5, a7
	bnez	a5, .LBB9_37
	or	a5, t4, t6
	beqz	a5, .LBB9_37
	or	a5, t3, a1
	lui	s0, 131072
	addi	s0, s0, -1
	srli	s1, t6, 3
	bgeu	a5, s0, .LBB9_27
	beqz	s1, .LBB9_28
.LBB9_26:
	beqz	s1, .LBB9_29
	j	.LBB9_37
.LBB9_27:
	mv	a5, s0
	bnez	s1, .LBB9_26
.LBB9_28:
	srli	s1, t4, 3
	slli	t6, t6, 29
	or	s1, s1, t6
	sltu	s1, a5, s1
	bnez	s1, .LBB9_37
.LBB9_29:
	add	s1, a0, t4
	lw	a5, -4(s1)
	bnez	a5, .LBB9_37
	lw	a5, -8(s1)
	andi	a5, a5, 1
	beqz	a5, .LBB9_37
	li	t1, 0
	li	a0, 1
	sw	a0, -8(s2)
	sw	t2, -4(s1)
	ori	s0, t4, 1
	mv	t4, t2
	mv	a1, a7
	mv	t2, t5
	li	a7, 0
	j	.LBB9_36
.LBB9_32:
	mv	a5, s0
	bnez	s1, .LBB9_16
.LBB9_33:
	srli	s1, t1, 3
	slli	t5, t5, 29
	or	s1, s1, t5
	sltu	s1, a5, s1
	bnez	s1, .LBB9_37
.LBB9_34:
	add	s1, a0, t1
	lw	a5, -8(s1)
	li	s0, 1
	bne	a5, s0, .LBB9_37
	li	a1, 0
	sw	zero, -4(t6)
	ori	a0, t2, 1
	sw	a0, -8(s1)
.LBB9_36:
	li	a0, 0
	sw	s0, -8(t0)
	sw	t1, -4(t0)
	sb	a1, 4(a3)
	sb	zero, 5(a3)
	sb	zero, 6(a3)
	sb	zero, 7(a3)
	srli	a1, t4, 24
	srli	a2, t4, 16
	srli	a4, t4, 8
	sb	a7, 12(a3)
	sb	zero, 13(a3)
	sb	zero, 14(a3)
	sb	zero, 15(a3)
	srli	a5, t2, 24
	srli	s1, t2, 16
	srli	s0, t2, 8
	sb	t4, 0(a3)
	sb	a4, 1(a3)
	sb	a2, 2(a3)
	sb	a1, 3(a3)
	sb	t2, 8(a3)
	sb	s0, 9(a3)
	sb	s1, 10(a3)
	sb	a5, 11(a3)
	lw	s0, 12(sp)
	lw	s1, 8(sp)
	lw	s2, 4(sp)
	lw	s3, 0(sp)
	.cfi_restore s0
	.cfi_restore s1
	.cfi_restore s2
	.cfi_restore s3
	addi	sp, sp, 16
	.cfi_def_cfa_offset 0
	ret
.LBB9_37:
	.cfi_restore_state
	li	a5, -1
	lw	s0, 12(sp)
	lw	s1, 8(sp)
	lw	s2, 4(sp)
	lw	s3, 0(sp)
	.cfi_restore s0
	.cfi_restore s1
	.cfi_restore s2
	.cfi_restore s3
	addi	sp, sp, 16
	.cfi_def_cfa_offset 0
	tail	ic_raw.move_calls.move_slow.55ebd757a04f39fd
.Lfunc_end9:
	.size	ic_raw.move_calls.move_to_end_slow.55ebd757a04f39fd, .Lfunc_end9-ic_raw.move_calls.move_to_end_slow.55ebd757a04f39fd
	.cfi_endproc
	.section	.text.unlikely.ic_raw.list_calls.refusal_to_pop,"ax",@progbits
	.p2align	1
	.type	ic_raw.list_calls.refusal_to_pop,@function
ic_raw.list_calls.refusal_to_pop:
	.cfi_startproc
	slli	a1, a1, 27
	srli	a1, a1, 24
	add	a0, a0, a1
	lw	a1, 4(a0)
	lw	a0, 0(a0)
	andi	a1, a1, 15
	andi	a0, a0, -8
	or	a0, a0, a1
	seqz	a0, a0
	xori	a0, a0, 5
	ret
.Lfunc_end10:
	.size	ic_raw.list_calls.refusal_to_pop, .Lfunc_end10-ic_raw.list_calls.refusal_to_pop
	.cfi_endproc
	.section	.text.unlikely.ic_raw.list_calls.pop_front_slow.55ebd757a04f39fd,"ax",@progbits
	.p2align	1
	.type	ic_raw.list_calls.pop_front_slow.55ebd757a04f39fd,@function
ic_raw.list_calls.pop_front_slow.55ebd757a04f39fd:
	.cfi_startproc
	lw	a6, 4(a3)
	lw	a7, 0(a3)
	andi	t1, a6, 15
	andi	t4, a7, -8
	or	a5, t4, t1
	beqz	a5, .LBB11_16
	seqz	a2, a2
	addi	a2, a2, -1
	or	t5, a2, a1
	lui	a2, 131072
	addi	a2, a2, -1
	bgeu	t5, a2, .LBB11_4
	srli	a2, t1, 3
	beqz	a2, .LBB11_5
.LBB11_3:
	beqz	a2, .LBB11_6
	j	.LBB11_16
.LBB11_4:
	mv	t5, a2
	srli	a2, t1, 3
	bnez	a2, .LBB11_3
.LBB11_5:
	srli	a2, t4, 3
	slli	a5, t1, 29
	or	a2, a2, a5
	sltu	a2, t5, a2
	bnez	a2, .LBB11_16
.LBB11_6:
	add	t0, a0, t4
	lw	a2, -8(t0)
	andi	a5, a2, 1
	beqz	a5, .LBB11_16
	lw	a5, -4(t0)
	li	a1, 7
	bltu	a1, a5, .LBB11_16
	lw	a1, 12(a3)
	lw	a5, 8(a3)
	andi	a2, a2, -8
	andi	t2, a1, 15
	andi	t3, a5, -8
	beqz	a2, .LBB11_13
	srli	a1, a2, 3
	bltu	t5, a1, .LBB11_16
	add	a0, a0, a2
	lbu	a1, -8(a0)
	andi	a1, a1, 1
	beqz	a1, .LBB11_16
	lw	a1, -4(a0)
	andi	a1, a1, -8
	xor	a1, t4, a1
	or	a1, a1, t1
	bnez	a1, .LBB11_16
	sw	zero, -4(a0)
	j	.LBB11_15
.LBB11_13:
	xor	a0, t3, t4
	xor	a1, t2, t1
	or	a0, a0, a1
	bnez	a0, .LBB11_16
	li	t3, 0
	li	t2, 0
.LBB11_15:
	srli	a0, a7, 3
	slli	a6, a6, 29
	or	a6, a0, a6
	sw	zero, -8(t0)
	sb	zero, 4(a3)
	sb	zero, 5(a3)
	sb	zero, 6(a3)
	sb	zero, 7(a3)
	srli	a7, a2, 24
	srli	t0, a2, 16
	srli	a0, a2, 8
	sb	t2, 12(a3)
	sb	zero, 13(a3)
	sb	zero, 14(a3)
	sb	zero, 15(a3)
	srli	a1, t3, 24
	srli	a5, t3, 16
	sb	a2, 0(a3)
	sb	a0, 1(a3)
	sb	t0, 2(a3)
	sb	a7, 3(a3)
	srli	a0, t3, 8
	addi	a6, a6, -1
	sb	t3, 8(a3)
	sb	a0, 9(a3)
	sb	a5, 10(a3)
	sb	a1, 11(a3)
	sw	a6, 0(a4)
	li	a0, 0
	ret
.LBB11_16:
	mv	a0, a3
	li	a1, 0
	tail	ic_raw.list_calls.refusal_to_pop
.Lfunc_end11:
	.size	ic_raw.list_calls.pop_front_slow.55ebd757a04f39fd, .Lfunc_end11-ic_raw.list_calls.pop_front_slow.55ebd757a04f39fd
	.cfi_endproc
	.section	.text.unlikely.ic_raw.list_calls.push_back_slow.55ebd757a04f39fd,"ax",@progbits
	.p2align	1
	.type	ic_raw.list_calls.push_back_slow.55ebd757a04f39fd,@function
ic_raw.list_calls.push_back_slow.55ebd757a04f39fd:
	.cfi_startproc
	lw	a6, 4(a3)
	lw	a7, 0(a3)
	lw	a5, 12(a3)
	lw	t0, 8(a3)
	andi	a6, a6, 15
	andi	t2, a7, -8
	andi	t4, a5, 15
	andi	a7, t0, -8
	or	t1, a7, t4
	add	t0, a0, a7
	beqz	t1, .LBB12_4
	seqz	a5, a2
	lui	t5, 131072
	addi	a5, a5, -1
	or	t3, a5, a1
	addi	a5, t5, -1
	bgeu	t3, a5, .LBB12_7
	srli	a5, t4, 3
	beqz	a5, .LBB12_8
.LBB12_3:
	beqz	a5, .LBB12_9
	j	.LBB12_17
.LBB12_4:
	or	a5, t2, a6
	bnez	a5, .LBB12_17
	seqz	a5, a2
	lui	t4, 131072
	addi	a5, a5, -1
	or	t3, a5, a1
	addi	a5, t4, -1
	bltu	t3, a5, .LBB12_10
	mv	t3, a5
	j	.LBB12_10
.LBB12_7:
	mv	t3, a5
	srli	a5, t4, 3
	bnez	a5, .LBB12_3
.LBB12_8:
	srli	a5, a7, 3
	slli	t4, t4, 29
	or	a5, a5, t4
	sltu	a5, t3, a5
	bnez	a5, .LBB12_17
.LBB12_9:
	lw	a5, -8(t0)
	andi	t4, a5, -7
	li	a5, 1
	bne	t4, a5, .LBB12_17
.LBB12_10:
	addi	t5, a4, 1
	beqz	t5, .LBB12_17
	bltu	t3, t5, .LBB12_17
	slli	t4, t5, 3
	add	t3, a0, t4
	lbu	a5, -8(t3)
	andi	a5, a5, 1
	bnez	a5, .LBB12_17
	seqz	a1, t1
	srli	t1, t5, 29
	bnez	a1, .LBB12_15
	addi	a1, t4, 1
	sw	a1, -8(t0)
	j	.LBB12_16
.LBB12_15:
	li	a7, 0
	mv	t2, t4
	mv	a6, t1
.LBB12_16:
	li	t0, 1
	srli	t5, t2, 24
	srli	a4, t2, 16
	srli	a5, t2, 8
	srli	a1, t4, 24
	sw	t0, -8(t3)
	sw	a7, -4(t3)
	srli	a0, t4, 16
	srli	a2, t4, 8
	sb	a6, 4(a3)
	sb	zero, 5(a3)
	sb	zero, 6(a3)
	sb	zero, 7(a3)
	sb	t2, 0(a3)
	sb	a5, 1(a3)
	sb	a4, 2(a3)
	sb	t5, 3(a3)
	sb	t1, 12(a3)
	sb	zero, 13(a3)
	sb	zero, 14(a3)
	sb	zero, 15(a3)
	sb	t4, 8(a3)
	sb	a2, 9(a3)
	sb	a0, 10(a3)
	sb	a1, 11(a3)
	li	a0, 0
	ret
.LBB12_17:
	li	a3, -1
	tail	ic_raw.table.RawTable.refusal.05a19227735374d3
.Lfunc_end12:
	.size	ic_raw.list_calls.push_back_slow.55ebd757a04f39fd, .Lfunc_end12-ic_raw.list_calls.push_back_slow.55ebd757a04f39fd
	.cfi_endproc
	.section	.text.unlikely.ic_raw.list_calls.remove_slow.55ebd757a04f39fd,"ax",@progbits
	.p2align	1
	.type	ic_raw.list_calls.remove_slow.55ebd757a04f39fd,@function
ic_raw.list_calls.remove_slow.55ebd757a04f39fd:
	.cfi_startproc
	addi	sp, sp, -32
	.cfi_def_cfa_offset 32
	sw	s0, 28(sp)
	sw	s1, 24(sp)
	sw	s2, 20(sp)
	sw	s3, 16(sp)
	sw	s4, 12(sp)
	.cfi_offset s0, -4
	.cfi_offset s1, -8
	.cfi_offset s2, -12
	.cfi_offset s3, -16
	.cfi_offset s4, -20
	.cfi_remember_state
	addi	s0, a4, 1
	bnez	s0, .LBB13_2
	li	a0, 4
	j	.LBB13_22
.LBB13_2:
	seqz	a5, a2
	lui	s1, 131072
	addi	a5, a5, -1
	or	s4, a5, a1
	addi	a5, s1, -1
	bltu	s4, a5, .LBB13_4
	mv	s4, a5
.LBB13_4:
	bltu	s4, s0, .LBB13_18
	slli	t3, s0, 3
	add	a6, a0, t3
	lw	s2, -8(a6)
	andi	a5, s2, 1
	beqz	a5, .LBB13_18
	lw	t0, 0(a3)
	lw	s1, 4(a3)
	lw	t2, 8(a3)
	lw	t1, 12(a3)
	lw	a5, -4(a6)
	srli	t6, s0, 29
	andi	a7, s1, 15
	andi	t0, t0, -8
	andi	t4, a5, -8
	add	t5, a0, t4
	beqz	t4, .LBB13_9
	srli	a5, t4, 3
	bltu	s4, a5, .LBB13_18
	lw	a5, -8(t5)
	andi	a5, a5, -7
	addi	s0, t3, 1
	xor	a5, a5, s0
	or	a5, a5, t6
	beqz	a5, .LBB13_10
	j	.LBB13_18
.LBB13_9:
	xor	a5, t0, t3
	xor	s0, a7, t6
	or	a5, a5, s0
	bnez	a5, .LBB13_18
.LBB13_10:
	andi	t1, t1, 15
	andi	t2, t2, -8
	andi	s1, s2, -8
	add	s2, a0, s1
	mv	s0, t2
	mv	s3, t1
	beqz	s1, .LBB13_14
	srli	a5, s1, 3
	bltu	s4, a5, .LBB13_18
	lbu	a5, -8(s2)
	andi	a5, a5, 1
	beqz	a5, .LBB13_18
	li	s3, 0
	lw	s0, -4(s2)
	andi	s0, s0, -8
.LBB13_14:
	xor	a5, s0, t3
	xor	s0, s3, t6
	or	a5, a5, s0
	bnez	a5, .LBB13_18
	beqz	t4, .LBB13_19
	addi	a0, s1, 1
	sw	a0, -8(t5)
	beqz	s1, .LBB13_20
.LBB13_17:
	sw	t4, -4(s2)
	j	.LBB13_21
.LBB13_18:
	mv	a3, a4
	lw	s0, 28(sp)
	lw	s1, 24(sp)
	lw	s2, 20(sp)
	lw	s3, 16(sp)
	lw	s4, 12(sp)
	.cfi_restore s0
	.cfi_restore s1
	.cfi_restore s2
	.cfi_restore s3
	.cfi_restore s4
	addi	sp, sp, 32
	.cfi_def_cfa_offset 0
	tail	ic_raw.table.RawTable.refusal_at.05a19227735374d3
.LBB13_19:
	.cfi_restore_state
	li	a7, 0
	mv	t0, s1
	bnez	s1, .LBB13_17
.LBB13_20:
	li	t1, 0
	mv	t2, t4
.LBB13_21:
	li	a0, 0
	sw	zero, -8(a6)
	sb	a7, 4(a3)
	sb	zero, 5(a3)
	sb	zero, 6(a3)
	sb	zero, 7(a3)
	srli	a1, t0, 24
	srli	a2, t0, 16
	srli	a4, t0, 8
	sb	t1, 12(a3)
	sb	zero, 13(a3)
	sb	zero, 14(a3)
	sb	zero, 15(a3)
	srli	a5, t2, 24
	srli	s1, t2, 16
	sb	t0, 0(a3)
	sb	a4, 1(a3)
	sb	a2, 2(a3)
	sb	a1, 3(a3)
	srli	a1, t2, 8
	sb	t2, 8(a3)
	sb	a1, 9(a3)
	sb	s1, 10(a3)
	sb	a5, 11(a3)
.LBB13_22:
	lw	s0, 28(sp)
	lw	s1, 24(sp)
	lw	s2, 20(sp)
	lw	s3, 16(sp)
	lw	s4, 12(sp)
	.cfi_restore s0
	.cfi_restore s1
	.cfi_restore s2
	.cfi_restore s3
	.cfi_restore s4
	addi	sp, sp, 32
	.cfi_def_cfa_offset 0
	ret
.Lfunc_end13:
	.size	ic_raw.list_calls.remove_slow.55ebd757a04f39fd, .Lfunc_end13-ic_raw.list_calls.remove_slow.55ebd757a04f39fd
	.cfi_endproc
	.section	.text.unlikely.ic_raw.list_calls.split_slow.55ebd757a04f39fd,"ax",@progbits
	.p2align	1
	.type	ic_raw.list_calls.split_slow.55ebd757a04f39fd,@function
ic_raw.list_calls.split_slow.55ebd757a04f39fd:
	.cfi_startproc
	addi	sp, sp, -32
	.cfi_def_cfa_offset 32
	sw	s0, 28(sp)
	sw	s1, 24(sp)
	sw	s2, 20(sp)
	sw	s3, 16(sp)
	sw	s4, 12(sp)
	sw	s5, 8(sp)
	sw	s6, 4(sp)
	sw	s7, 0(sp)
	.cfi_offset s0, -4
	.cfi_offset s1, -8
	.cfi_offset s2, -12
	.cfi_offset s3, -16
	.cfi_offset s4, -20
	.cfi_offset s5, -24
	.cfi_offset s6, -28
	.cfi_offset s7, -32
	.cfi_remember_state
	lw	s1, 4(a5)
	lw	s0, 0(a5)
	andi	s1, s1, 15
	andi	s0, s0, -8
	or	s0, s0, s1
	bnez	s0, .LBB14_38
	lw	s1, 12(a5)
	lw	s0, 8(a5)
	li	a7, 15
	li	t0, -8
	and	s1, s1, a7
	and	s0, s0, t0
	or	s0, s0, s1
	bnez	s0, .LBB14_38
	lw	t0, 0(a3)
	lw	s0, 4(a3)
	lw	t2, 8(a3)
	lw	s1, 12(a3)
	addi	s5, a4, 1
	srli	t3, s5, 29
	slli	t4, s5, 3
	snez	t5, s5
	andi	a7, s0, 15
	andi	t0, t0, -8
	andi	t1, s1, 15
	andi	t2, t2, -8
	andi	a6, a6, 1
	beqz	s5, .LBB14_13
	seqz	s1, a2
	lui	s0, 131072
	addi	s1, s1, -1
	or	s4, s1, a1
	addi	s1, s0, -1
	bltu	s4, s1, .LBB14_5
	mv	s4, s1
.LBB14_5:
	bltu	s4, s5, .LBB14_38
	add	t6, a0, t4
	lw	s1, -8(t6)
	andi	s0, s1, 1
	beqz	s0, .LBB14_38
	beqz	a6, .LBB14_18
	lw	s1, -4(t6)
	andi	t6, s1, -8
	beqz	t6, .LBB14_29
	li	s5, 0
	li	s1, 0
.LBB14_10:
	srli	s0, t6, 3
	slli	s1, s5, 29
	or	s0, s0, s1
	sltu	s1, s4, s0
.LBB14_11:
	bnez	s1, .LBB14_38
	add	s0, a0, t6
	lw	s0, -8(s0)
	andi	s0, s0, -7
	addi	s1, t4, 1
	xor	s0, s0, s1
	or	s0, s0, t3
	beqz	s0, .LBB14_35
	j	.LBB14_38
.LBB14_13:
	beqz	a6, .LBB14_20
	or	s1, t2, t1
	beqz	s1, .LBB14_29
	seqz	s1, a2
	lui	s0, 131072
	addi	s1, s1, -1
	or	s4, s1, a1
	addi	s1, s0, -1
	bltu	s4, s1, .LBB14_17
	mv	s4, s1
.LBB14_17:
	mv	t6, t2
	mv	s5, t1
	srli	s1, t1, 3
	beqz	s1, .LBB14_10
	j	.LBB14_11
.LBB14_18:
	andi	s3, s1, -8
	li	s2, 0
	bnez	s3, .LBB14_24
	li	t5, 0
	j	.LBB14_32
.LBB14_20:
	or	s1, t0, a7
	beqz	s1, .LBB14_31
	seqz	s1, a2
	lui	s0, 131072
	addi	s1, s1, -1
	or	s4, s1, a1
	addi	s1, s0, -1
	bltu	s4, s1, .LBB14_23
	mv	s4, s1
.LBB14_23:
	mv	s3, t0
	mv	s2, a7
.LBB14_24:
	srli	s1, s2, 3
	bnez	s1, .LBB14_26
	srli	s1, s3, 3
	slli	s0, s2, 29
	or	s0, s0, s1
	sltu	s1, s4, s0
.LBB14_26:
	bnez	s1, .LBB14_38
	add	s1, a0, s3
	lbu	s0, -8(s1)
	andi	s0, s0, 1
	beqz	s0, .LBB14_38
	lw	s1, -4(s1)
	andi	s1, s1, -8
	li	t5, 1
	xor	s0, s1, t4
	or	s0, s0, t3
	beqz	s0, .LBB14_33
	j	.LBB14_38
.LBB14_29:
	xor	s1, t0, t4
	xor	s0, a7, t3
	or	s0, s0, s1
	bnez	s0, .LBB14_38
	li	t6, 0
	li	s5, 0
	mv	s3, t0
	mv	s2, a7
	j	.LBB14_40
.LBB14_31:
	li	t5, 0
	li	s3, 0
.LBB14_32:
	li	s2, 0
	xor	s0, t2, t4
	xor	s1, t1, t3
	or	s0, s0, s1
	bnez	s0, .LBB14_38
.LBB14_33:
	beqz	s5, .LBB14_39
	mv	t6, t4
	mv	s5, t3
	mv	t4, s3
	mv	t3, s2
.LBB14_35:
	add	a1, a0, t6
	li	a2, 1
	sw	a2, -8(a1)
	mv	s3, t4
	mv	s2, t3
	beqz	t5, .LBB14_41
.LBB14_36:
	add	a0, a0, s3
	sw	zero, -4(a0)
	seqz	a0, t5
	addi	a0, a0, -1
	and	a1, a0, s2
	and	a2, a0, s3
	bnez	a6, .LBB14_42
.LBB14_37:
	mv	s0, t0
	mv	s1, a7
	mv	a0, t6
	mv	t3, s5
	mv	t0, a2
	mv	a7, a1
	mv	t6, t2
	mv	s5, t1
	j	.LBB14_43
.LBB14_38:
	mv	a3, a4
	lw	s0, 28(sp)
	lw	s1, 24(sp)
	lw	s2, 20(sp)
	lw	s3, 16(sp)
	lw	s4, 12(sp)
	lw	s5, 8(sp)
	lw	s6, 4(sp)
	lw	s7, 0(sp)
	.cfi_restore s0
	.cfi_restore s1
	.cfi_restore s2
	.cfi_restore s3
	.cfi_restore s4
	.cfi_restore s5
	.cfi_restore s6
	.cfi_restore s7
	addi	sp, sp, 32
	.cfi_def_cfa_offset 0
	tail	ic_raw.table.RawTable.refusal_at.05a19227735374d3
.LBB14_39:
	.cfi_restore_state
	li	t6, 0
.LBB14_40:
	li	t0, 0
	li	a7, 0
	bnez	t5, .LBB14_36
.LBB14_41:
	li	t2, 0
	li	t1, 0
	seqz	a0, t5
	addi	a0, a0, -1
	and	a1, a0, s2
	and	a2, a0, s3
	beqz	a6, .LBB14_37
.LBB14_42:
	mv	s0, a2
	mv	s1, a1
	mv	a0, t2
	mv	t3, t1
.LBB14_43:
	srli	a6, s0, 24
	srli	t4, s0, 16
	srli	s2, s0, 8
	srli	t1, s1, 24
	srli	t2, s1, 16
	srli	t5, s1, 8
	sb	t3, 12(a3)
	sb	zero, 13(a3)
	sb	zero, 14(a3)
	sb	zero, 15(a3)
	srli	s4, a0, 24
	srli	a4, a0, 16
	srli	a1, a0, 8
	srli	t3, t0, 16
	srli	s3, t0, 24
	srli	a2, t0, 8
	srli	s6, a7, 16
	srli	s7, a7, 24
	sb	s0, 0(a3)
	sb	s2, 1(a3)
	sb	t4, 2(a3)
	sb	a6, 3(a3)
	srli	s0, a7, 8
	sb	s1, 4(a3)
	sb	t5, 5(a3)
	sb	t2, 6(a3)
	sb	t1, 7(a3)
	srli	s1, t6, 16
	sb	a0, 8(a3)
	sb	a1, 9(a3)
	sb	a4, 10(a3)
	sb	s4, 11(a3)
	srli	a0, t6, 24
	srli	a1, t6, 8
	sb	t0, 0(a5)
	sb	a2, 1(a5)
	sb	t3, 2(a5)
	sb	s3, 3(a5)
	sb	a7, 4(a5)
	sb	s0, 5(a5)
	sb	s6, 6(a5)
	sb	s7, 7(a5)
	sb	t6, 8(a5)
	sb	a1, 9(a5)
	sb	s1, 10(a5)
	sb	a0, 11(a5)
	sb	s5, 12(a5)
	sb	zero, 13(a5)
	sb	zero, 14(a5)
	sb	zero, 15(a5)
	li	a0, 0
	lw	s0, 28(sp)
	lw	s1, 24(sp)
	lw	s2, 20(sp)
	lw	s3, 16(sp)
	lw	s4, 12(sp)
	lw	s5, 8(sp)
	lw	s6, 4(sp)
	lw	s7, 0(sp)
	.cfi_restore s0
	.cfi_restore s1
	.cfi_restore s2
	.cfi_restore s3
	.cfi_restore s4
	.cfi_restore s5
	.cfi_restore s6
	.cfi_restore s7
	addi	sp, sp, 32
	.cfi_def_cfa_offset 0
	ret
.Lfunc_end14:
	.size	ic_raw.list_calls.split_slow.55ebd757a04f39fd, .Lfunc_end14-ic_raw.list_calls.split_slow.55ebd757a04f39fd
	.cfi_endproc
	.section	.text.ic_raw_lists.transfer_calls.transfer_at.55ebd757a04f39fd,"ax",@progbits
	.p2align	1
	.type	ic_raw_lists.transfer_calls.transfer_at.55ebd757a04f39fd,@function
ic_raw_lists.transfer_calls.transfer_at.55ebd757a04f39fd:
	.cfi_startproc
	addi	sp, sp, -80
	.cfi_def_cfa_offset 80
	sw	ra, 76(sp)
	sw	s0, 72(sp)
	sw	s1, 68(sp)
	sw	s2, 64(sp)
	sw	s3, 60(sp)
	sw	s4, 56(sp)
	sw	s5, 52(sp)
	sw	s6, 48(sp)
	sw	s7, 44(sp)
	sw	s8, 40(sp)
	sw	s9, 36(sp)
	sw	s10, 32(sp)
	sw	s11, 28(sp)
	.cfi_offset ra, -4
	.cfi_offset s0, -8
	.cfi_offset s1, -12
	.cfi_offset s2, -16
	.cfi_offset s3, -20
	.cfi_offset s4, -24
	.cfi_offset s5, -28
	.cfi_offset s6, -32
	.cfi_offset s7, -36
	.cfi_offset s8, -40
	.cfi_offset s9, -44
	.cfi_offset s10, -48
	.cfi_offset s11, -52
	.cfi_remember_state
	addi	s6, a7, 1
	bnez	s6, .LBB15_2
	li	a0, 4
	j	.LBB15_55
.LBB15_2:
	mv	t3, a5
	mv	s3, a2
	mv	t4, a1
	lw	a5, 0(a3)
	lw	s1, 4(a3)
	lw	t0, 8(a3)
	lw	a1, 12(a3)
	lw	s4, 0(a6)
	lw	t1, 4(a6)
	lw	s2, 8(a6)
	lw	s10, 12(a6)
	addi	s0, t3, 1
	srli	t6, s0, 29
	slli	t5, s0, 3
	andi	s1, s1, 15
	sw	s1, 20(sp)
	andi	a5, a5, -8
	sw	a5, 16(sp)
	andi	s1, a1, 15
	andi	a2, t0, -8
	snez	a1, s0
	sw	a1, 24(sp)
	sw	a2, 12(sp)
	sw	s1, 8(sp)
	beqz	s0, .LBB15_14
	seqz	a1, s3
	lui	a5, 131072
	addi	a1, a1, -1
	or	s1, a1, t4
	addi	a5, a5, -1
	bltu	s1, a5, .LBB15_5
	mv	s1, a5
.LBB15_5:
	bltu	s1, s0, .LBB15_61
	add	a5, a0, t5
	lw	s0, -8(a5)
	andi	a1, s0, 1
	beqz	a1, .LBB15_61
	andi	a4, a4, 1
	beqz	a4, .LBB15_19
	lw	a4, -4(a5)
	andi	a4, a4, -8
	beqz	a4, .LBB15_58
	li	s0, 0
	li	a5, 0
.LBB15_10:
	srli	a1, a4, 3
	slli	a5, s0, 29
	or	a1, a1, a5
	sltu	a5, s1, a1
.LBB15_11:
	bnez	a5, .LBB15_61
	add	a1, a0, a4
	lw	a1, -8(a1)
	andi	a1, a1, -7
	addi	a5, t5, 1
	xor	a1, a1, a5
	or	a1, a1, t6
	bnez	a1, .LBB15_61
	li	s8, 1
	mv	s5, t5
	mv	s7, t6
	mv	t5, a4
	mv	t6, s0
	seqz	a1, s3
	lui	a4, 131072
	addi	a1, a1, -1
	or	t2, a1, t4
	addi	a4, a4, -1
	bgeu	t2, a4, .LBB15_31
	j	.LBB15_32
.LBB15_14:
	andi	a4, a4, 1
	beqz	a4, .LBB15_21
	or	a1, a2, s1
	beqz	a1, .LBB15_58
	seqz	a1, s3
	lui	a4, 131072
	addi	a1, a1, -1
	or	s1, a1, t4
	addi	a4, a4, -1
	bltu	s1, a4, .LBB15_18
	mv	s1, a4
.LBB15_18:
	lw	a4, 12(sp)
	lw	s0, 8(sp)
	srli	a5, s0, 3
	beqz	a5, .LBB15_10
	j	.LBB15_11
.LBB15_19:
	andi	s5, s0, -8
	li	s7, 0
	bnez	s5, .LBB15_25
	li	s7, 0
	lw	s0, 12(sp)
	lw	s1, 8(sp)
	xor	a1, s0, t5
	xor	a5, s1, t6
	or	a1, a1, a5
	lw	s8, 24(sp)
	sw	zero, 24(sp)
	beqz	a1, .LBB15_30
	j	.LBB15_61
.LBB15_21:
	lw	a1, 20(sp)
	lw	a4, 16(sp)
	or	a1, a1, a4
	beqz	a1, .LBB15_60
	seqz	a1, s3
	lui	a4, 131072
	addi	a1, a1, -1
	or	s1, a1, t4
	addi	a4, a4, -1
	bltu	s1, a4, .LBB15_24
	mv	s1, a4
.LBB15_24:
	lw	s5, 16(sp)
	lw	s7, 20(sp)
.LBB15_25:
	srli	a4, s7, 3
	bnez	a4, .LBB15_27
	srli	a1, s5, 3
	slli	a4, s7, 29
	or	a1, a1, a4
	sltu	a4, s1, a1
.LBB15_27:
	bnez	a4, .LBB15_61
	add	a4, a0, s5
	lbu	a1, -8(a4)
	andi	a1, a1, 1
	beqz	a1, .LBB15_61
	lw	s0, -4(a4)
	andi	s0, s0, -8
	li	a4, 1
	xor	a1, s0, t5
	or	a1, a1, t6
	lw	s8, 24(sp)
	sw	a4, 24(sp)
	bnez	a1, .LBB15_61
.LBB15_30:
	seqz	a1, s3
	lui	a4, 131072
	addi	a1, a1, -1
	or	t2, a1, t4
	addi	a4, a4, -1
	bltu	t2, a4, .LBB15_32
.LBB15_31:
	mv	t2, a4
.LBB15_32:
	bltu	t2, s6, .LBB15_61
	slli	a2, s6, 3
	add	s9, a0, a2
	lw	s0, -8(s9)
	andi	a1, s0, 1
	beqz	a1, .LBB15_61
	lw	s1, -4(s9)
	srli	a5, s6, 29
	andi	s6, t1, 15
	andi	t1, s4, -8
	andi	s1, s1, -8
	add	s11, a0, s1
	beqz	s1, .LBB15_37
	srli	a1, s1, 3
	bltu	t2, a1, .LBB15_61
	lw	a1, -8(s11)
	andi	a1, a1, -7
	addi	a4, a2, 1
	xor	a1, a1, a4
	or	a1, a1, a5
	beqz	a1, .LBB15_38
	j	.LBB15_61
.LBB15_37:
	xor	a1, t1, a2
	xor	a4, s6, a5
	or	a1, a1, a4
	bnez	a1, .LBB15_61
.LBB15_38:
	andi	t0, s10, 15
	andi	s2, s2, -8
	andi	s10, s0, -8
	add	ra, a0, s10
	mv	a1, s2
	mv	s0, t0
	beqz	s10, .LBB15_42
	srli	a1, s10, 3
	bltu	t2, a1, .LBB15_61
	lbu	a1, -8(ra)
	andi	a1, a1, 1
	beqz	a1, .LBB15_61
	li	s0, 0
	lw	a1, -4(ra)
	andi	a1, a1, -8
.LBB15_42:
	xor	a1, a1, a2
	xor	s0, s0, a5
	or	a1, a1, s0
	bnez	a1, .LBB15_61
	or	a1, t1, s6
	beqz	a1, .LBB15_45
	lw	a1, 16(sp)
	xor	a1, a1, t1
	lw	a4, 20(sp)
	xor	s0, a4, s6
	or	a1, a1, s0
	beqz	a1, .LBB15_61
.LBB15_45:
	seqz	a1, s8
	addi	a1, a1, -1
	and	s4, a1, t5
	and	a1, a1, t6
	xor	a1, a1, a5
	xor	s0, s4, a2
	or	a1, a1, s0
	beqz	a1, .LBB15_61
	lw	a1, 24(sp)
	seqz	t6, a1
	addi	t6, t6, -1
	and	a1, t6, s5
	and	s0, t6, s7
	xor	s0, s0, a5
	xor	a1, a1, a2
	or	a1, a1, s0
	beqz	a1, .LBB15_61
	beqz	s1, .LBB15_56
	addi	a1, s10, 1
	sw	a1, -8(s11)
	beqz	s10, .LBB15_57
.LBB15_49:
	sw	s1, -4(ra)
	mv	s1, a2
	mv	a7, a5
	beqz	s8, .LBB15_51
.LBB15_50:
	add	t5, t5, a0
	addi	a1, a2, 1
	sw	a1, -8(t5)
	lw	s1, 16(sp)
	lw	a7, 20(sp)
.LBB15_51:
	lw	a1, 24(sp)
	beqz	a1, .LBB15_53
	add	a0, a0, s5
	sw	a2, -4(a0)
	lw	s0, 12(sp)
	lw	s7, 8(sp)
	j	.LBB15_54
.LBB15_53:
	mv	s0, a2
	mv	s7, a5
.LBB15_54:
	li	a0, 0
	and	a2, t6, s5
	srli	t5, s1, 24
	srli	s5, s1, 16
	srli	a4, s1, 8
	srli	t2, s0, 24
	srli	t3, s0, 16
	srli	s3, s0, 8
	srli	t4, t1, 16
	srli	t6, t1, 24
	srli	a5, t1, 8
	addi	a2, a2, 1
	sw	a2, -8(s9)
	sw	s4, -4(s9)
	srli	a2, s2, 16
	srli	a1, s2, 24
	sb	s1, 0(a3)
	sb	a4, 1(a3)
	sb	s5, 2(a3)
	sb	t5, 3(a3)
	srli	a4, s2, 8
	sb	a7, 4(a3)
	sb	zero, 5(a3)
	sb	zero, 6(a3)
	sb	zero, 7(a3)
	sb	s7, 12(a3)
	sb	zero, 13(a3)
	sb	zero, 14(a3)
	sb	zero, 15(a3)
	sb	s0, 8(a3)
	sb	s3, 9(a3)
	sb	t3, 10(a3)
	sb	t2, 11(a3)
	sb	t1, 0(a6)
	sb	a5, 1(a6)
	sb	t4, 2(a6)
	sb	t6, 3(a6)
	sb	s6, 4(a6)
	sb	zero, 5(a6)
	sb	zero, 6(a6)
	sb	zero, 7(a6)
	sb	s2, 8(a6)
	sb	a4, 9(a6)
	sb	a2, 10(a6)
	sb	a1, 11(a6)
	sb	t0, 12(a6)
	sb	zero, 13(a6)
	sb	zero, 14(a6)
	sb	zero, 15(a6)
.LBB15_55:
	lw	ra, 76(sp)
	lw	s0, 72(sp)
	lw	s1, 68(sp)
	lw	s2, 64(sp)
	lw	s3, 60(sp)
	lw	s4, 56(sp)
	lw	s5, 52(sp)
	lw	s6, 48(sp)
	lw	s7, 44(sp)
	lw	s8, 40(sp)
	lw	s9, 36(sp)
	lw	s10, 32(sp)
	lw	s11, 28(sp)
	.cfi_restore ra
	.cfi_restore s0
	.cfi_restore s1
	.cfi_restore s2
	.cfi_restore s3
	.cfi_restore s4
	.cfi_restore s5
	.cfi_restore s6
	.cfi_restore s7
	.cfi_restore s8
	.cfi_restore s9
	.cfi_restore s10
	.cfi_restore s11
	addi	sp, sp, 80
	.cfi_def_cfa_offset 0
	ret
.LBB15_56:
	.cfi_restore_state
	li	s6, 0
	mv	t1, s10
	bnez	s10, .LBB15_49
.LBB15_57:
	li	t0, 0
	mv	s2, s1
	mv	s1, a2
	mv	a7, a5
	bnez	s8, .LBB15_50
	j	.LBB15_51
.LBB15_58:
	lw	a1, 16(sp)
	xor	a1, a1, t5
	lw	a2, 20(sp)
	xor	a4, a2, t6
	or	a1, a1, a4
	bnez	a1, .LBB15_61
	li	t5, 0
	li	t6, 0
	li	s8, 0
	lw	s5, 16(sp)
	lw	s7, 20(sp)
	seqz	a1, s3
	lui	a4, 131072
	addi	a1, a1, -1
	or	t2, a1, t4
	addi	a4, a4, -1
	bgeu	t2, a4, .LBB15_31
	j	.LBB15_32
.LBB15_60:
	li	s5, 0
	li	s7, 0
	xor	a1, a2, t5
	xor	a5, s1, t6
	or	a1, a1, a5
	lw	s8, 24(sp)
	sw	zero, 24(sp)
	beqz	a1, .LBB15_30
.LBB15_61:
	mv	a1, t4
	mv	a2, s3
	mv	a3, t3
	mv	a4, a7
	lw	ra, 76(sp)
	lw	s0, 72(sp)
	lw	s1, 68(sp)
	lw	s2, 64(sp)
	lw	s3, 60(sp)
	lw	s4, 56(sp)
	lw	s5, 52(sp)
	lw	s6, 48(sp)
	lw	s7, 44(sp)
	lw	s8, 40(sp)
	lw	s9, 36(sp)
	lw	s10, 32(sp)
	lw	s11, 28(sp)
	.cfi_restore ra
	.cfi_restore s0
	.cfi_restore s1
	.cfi_restore s2
	.cfi_restore s3
	.cfi_restore s4
	.cfi_restore s5
	.cfi_restore s6
	.cfi_restore s7
	.cfi_restore s8
	.cfi_restore s9
	.cfi_restore s10
	.cfi_restore s11
	addi	sp, sp, 80
	.cfi_def_cfa_offset 0
	tail	ic_raw.table.RawTable.refusal_at_both.05a19227735374d3
.Lfunc_end15:
	.size	ic_raw_lists.transfer_calls.transfer_at.55ebd757a04f39fd, .Lfunc_end15-ic_raw_lists.transfer_calls.transfer_at.55ebd757a04f39fd
	.cfi_endproc
	.section	.text.unlikely.ic_raw.list_calls.splice_slow.5386baa488213e47,"ax",@progbits
	.p2align	1
	.type	ic_raw.list_calls.splice_slow.5386baa488213e47,@function
ic_raw.list_calls.splice_slow.5386baa488213e47:
	.cfi_startproc
	addi	sp, sp, -64
	.cfi_def_cfa_offset 64
	sw	ra, 60(sp)
	sw	s0, 56(sp)
	sw	s1, 52(sp)
	sw	s2, 48(sp)
	sw	s3, 44(sp)
	sw	s4, 40(sp)
	sw	s5, 36(sp)
	sw	s6, 32(sp)
	sw	s7, 28(sp)
	sw	s8, 24(sp)
	sw	s9, 20(sp)
	sw	s10, 16(sp)
	sw	s11, 12(sp)
	.cfi_offset ra, -4
	.cfi_offset s0, -8
	.cfi_offset s1, -12
	.cfi_offset s2, -16
	.cfi_offset s3, -20
	.cfi_offset s4, -24
	.cfi_offset s5, -28
	.cfi_offset s6, -32
	.cfi_offset s7, -36
	.cfi_offset s8, -40
	.cfi_offset s9, -44
	.cfi_offset s10, -48
	.cfi_offset s11, -52
	.cfi_remember_state
	li	s2, 15
	li	t6, -8
	lw	a7, 0(a3)
	lw	s1, 4(a3)
	lw	t5, 8(a3)
	lw	t1, 12(a3)
	lw	s3, 0(a5)
	lw	s5, 4(a5)
	lw	s4, 8(a5)
	lw	s6, 12(a5)
	addi	s0, a4, 1
	srli	t4, s0, 29
	slli	t3, s0, 3
	andi	t2, s1, 15
	andi	t0, a7, -8
	andi	t1, t1, 15
	andi	a7, t5, -8
	snez	t5, s0
	beqz	s0, .LBB16_5
	sltu	s0, a1, s0
	seqz	s1, a2
	and	s0, s0, s1
	bnez	s0, .LBB16_41
	slli	s0, t3, 1
	add	s0, s0, a0
	lw	s7, -16(s0)
	andi	s1, s7, 1
	beqz	s1, .LBB16_41
	andi	s1, a6, 1
	beqz	s1, .LBB16_9
	lw	s1, -4(s0)
	lw	s0, -8(s0)
	and	s9, s1, s2
	and	s10, s0, t6
	j	.LBB16_6
.LBB16_5:
	andi	s0, a6, 1
	mv	s8, t0
	mv	s7, t2
	mv	s10, a7
	mv	s9, t1
	beqz	s0, .LBB16_10
.LBB16_6:
	or	s0, s10, s9
	beqz	s0, .LBB16_13
	srli	s0, s9, 3
	beq	s0, a2, .LBB16_15
	sltu	a6, a2, s0
	j	.LBB16_16
.LBB16_9:
	lw	s1, -12(s0)
	and	s8, s7, t6
	and	s7, s1, s2
.LBB16_10:
	or	a6, s8, s7
	mv	s1, a7
	mv	s0, t1
	beqz	a6, .LBB16_24
	srli	s0, s7, 3
	beq	s0, a2, .LBB16_20
	sltu	s0, a2, s0
	j	.LBB16_21
.LBB16_13:
	xor	s1, t0, t3
	xor	s0, t2, t4
	or	s0, s0, s1
	bnez	s0, .LBB16_41
	li	t3, 0
	li	t4, 0
	li	a6, 0
	mv	s8, t0
	mv	s7, t2
	andi	s9, s5, 15
	andi	s5, s6, 15
	andi	s4, s4, -8
	or	s1, s4, s5
	andi	s6, s3, -8
	bnez	s1, .LBB16_26
	j	.LBB16_19
.LBB16_15:
	srli	a6, s10, 3
	slli	s0, s9, 29
	or	s0, a6, s0
	sltu	a6, a1, s0
.LBB16_16:
	bnez	a6, .LBB16_41
	slli	s1, s10, 1
	add	s1, s1, a0
	lw	s7, -16(s1)
	lw	s1, -12(s1)
	addi	a6, t6, 1
	seqz	s0, a6
	add	s0, s0, s2
	and	s0, s0, s1
	addi	s8, t3, 1
	and	s1, s7, a6
	xor	s0, s0, t4
	xor	s1, s1, s8
	or	s0, s0, s1
	bnez	s0, .LBB16_41
	li	a6, 1
	mv	s8, t3
	mv	s7, t4
	mv	t3, s10
	mv	t4, s9
	andi	s9, s5, 15
	andi	s5, s6, 15
	andi	s4, s4, -8
	or	s1, s4, s5
	andi	s6, s3, -8
	bnez	s1, .LBB16_26
.LBB16_19:
	or	s1, s6, s9
	beqz	s1, .LBB16_45
	j	.LBB16_41
.LBB16_20:
	srli	s0, s8, 3
	slli	s1, s7, 29
	or	s0, s0, s1
	sltu	s0, a1, s0
.LBB16_21:
	bnez	s0, .LBB16_41
	slli	s0, s8, 1
	add	s0, s0, a0
	lbu	s1, -16(s0)
	andi	s1, s1, 1
	beqz	s1, .LBB16_41
	lw	s1, -4(s0)
	lw	s9, -8(s0)
	and	s0, s1, s2
	and	s1, s9, t6
.LBB16_24:
	xor	s1, s1, t3
	xor	s0, s0, t4
	or	s0, s0, s1
	bnez	s0, .LBB16_41
	snez	s0, a6
	mv	a6, t5
	mv	t5, s0
	andi	s9, s5, 15
	andi	s5, s6, 15
	andi	s4, s4, -8
	or	s1, s4, s5
	andi	s6, s3, -8
	beqz	s1, .LBB16_19
.LBB16_26:
	srli	s1, s5, 3
	beq	s1, a2, .LBB16_28
	sltu	s1, a2, s1
	beqz	s1, .LBB16_29
	j	.LBB16_41
.LBB16_28:
	srli	s3, s4, 3
	slli	s1, s5, 29
	or	s1, s3, s1
	sltu	s1, a1, s1
	bnez	s1, .LBB16_41
.LBB16_29:
	or	s1, s6, s9
	beqz	s1, .LBB16_41
	slli	s3, s4, 1
	add	s3, s3, a0
	lw	s11, -16(s3)
	lw	s0, -12(s3)
	addi	s10, t6, 1
	seqz	s1, s10
	add	s1, s1, s2
	and	s0, s0, s1
	and	s1, s11, s10
	xori	s1, s1, 1
	or	s0, s0, s1
	bnez	s0, .LBB16_41
	srli	s1, s9, 3
	beq	s1, a2, .LBB16_33
	sltu	s1, a2, s1
	j	.LBB16_34
.LBB16_33:
	srli	s0, s6, 3
	slli	s1, s9, 29
	or	s0, s0, s1
	sltu	s1, a1, s0
.LBB16_34:
	bnez	s1, .LBB16_41
	slli	s1, s6, 1
	add	s10, a0, s1
	lbu	s0, -16(s10)
	andi	s0, s0, 1
	beqz	s0, .LBB16_41
	xor	s0, t0, s6
	xor	s1, t2, s9
	or	s0, s0, s1
	beqz	s0, .LBB16_41
	lw	s0, -4(s10)
	lw	s1, -8(s10)
	and	s0, s0, s2
	and	s1, s1, t6
	or	s0, s0, s1
	bnez	s0, .LBB16_41
	beqz	a6, .LBB16_42
	slli	a1, t3, 1
	addi	s6, s6, 1
	add	a1, a1, a0
	sw	s6, -16(a1)
	sw	s9, -12(a1)
	beqz	t5, .LBB16_43
.LBB16_40:
	slli	a1, s8, 1
	add	a0, a0, a1
	sw	s4, -8(a0)
	sw	s5, -4(a0)
	j	.LBB16_44
.LBB16_41:
	mv	a3, a4
	lw	ra, 60(sp)
	lw	s0, 56(sp)
	lw	s1, 52(sp)
	lw	s2, 48(sp)
	lw	s3, 44(sp)
	lw	s4, 40(sp)
	lw	s5, 36(sp)
	lw	s6, 32(sp)
	lw	s7, 28(sp)
	lw	s8, 24(sp)
	lw	s9, 20(sp)
	lw	s10, 16(sp)
	lw	s11, 12(sp)
	.cfi_restore ra
	.cfi_restore s0
	.cfi_restore s1
	.cfi_restore s2
	.cfi_restore s3
	.cfi_restore s4
	.cfi_restore s5
	.cfi_restore s6
	.cfi_restore s7
	.cfi_restore s8
	.cfi_restore s9
	.cfi_restore s10
	.cfi_restore s11
	addi	sp, sp, 64
	.cfi_def_cfa_offset 0
	tail	ic_raw.table.RawTable.refusal_at.85cd03e557136797
.LBB16_42:
	.cfi_restore_state
	mv	t0, s6
	mv	t2, s9
	bnez	t5, .LBB16_40
.LBB16_43:
	mv	a7, s4
	mv	t1, s5
.LBB16_44:
	seqz	a0, t5
	seqz	a1, a6
	addi	a1, a1, -1
	addi	a0, a0, -1
	and	a2, a1, t4
	and	a1, a1, t3
	and	a4, a0, s7
	and	a0, a0, s8
	sw	a1, -8(s10)
	sw	a2, -4(s10)
	addi	a0, a0, 1
	seqz	a1, a0
	add	a1, a1, a4
	sw	a0, -16(s3)
	sw	a1, -12(s3)
.LBB16_45:
	sb	t2, 4(a3)
	sb	zero, 5(a3)
	sb	zero, 6(a3)
	sb	zero, 7(a3)
	srli	a0, t0, 24
	srli	a1, t0, 16
	srli	a2, t0, 8
	sb	t1, 12(a3)
	sb	zero, 13(a3)
	sb	zero, 14(a3)
	sb	zero, 15(a3)
	srli	a4, a7, 24
	srli	s1, a7, 16
	sb	t0, 0(a3)
	sb	a2, 1(a3)
	sb	a1, 2(a3)
	sb	a0, 3(a3)
	srli	a0, a7, 8
	sb	a7, 8(a3)
	sb	a0, 9(a3)
	sb	s1, 10(a3)
	sb	a4, 11(a3)
	li	a2, 16
	mv	a0, a5
	li	a1, 0
	li	a3, 0
	li	a4, 0
	call	ic.clear
	li	a0, 0
	lw	ra, 60(sp)
	lw	s0, 56(sp)
	lw	s1, 52(sp)
	lw	s2, 48(sp)
	lw	s3, 44(sp)
	lw	s4, 40(sp)
	lw	s5, 36(sp)
	lw	s6, 32(sp)
	lw	s7, 28(sp)
	lw	s8, 24(sp)
	lw	s9, 20(sp)
	lw	s10, 16(sp)
	lw	s11, 12(sp)
	.cfi_restore ra
	.cfi_restore s0
	.cfi_restore s1
	.cfi_restore s2
	.cfi_restore s3
	.cfi_restore s4
	.cfi_restore s5
	.cfi_restore s6
	.cfi_restore s7
	.cfi_restore s8
	.cfi_restore s9
	.cfi_restore s10
	.cfi_restore s11
	addi	sp, sp, 64
	.cfi_def_cfa_offset 0
	ret
.Lfunc_end16:
	.size	ic_raw.list_calls.splice_slow.5386baa488213e47, .Lfunc_end16-ic_raw.list_calls.splice_slow.5386baa488213e47
	.cfi_endproc
	.section	.text.unlikely.ic_raw.table.RawTable.refusal_at.85cd03e557136797,"ax",@progbits
	.p2align	1
	.type	ic_raw.table.RawTable.refusal_at.85cd03e557136797,@function
ic_raw.table.RawTable.refusal_at.85cd03e557136797:
	.cfi_startproc
	addi	a3, a3, 1
	bnez	a3, .LBB17_2
.LBB17_1:
	li	a0, 5
	ret
.LBB17_2:
	sltu	a1, a1, a3
	seqz	a2, a2
	and	a1, a1, a2
	beqz	a1, .LBB17_4
	li	a0, 1
	ret
.LBB17_4:
	slli	a3, a3, 4
	add	a0, a0, a3
	lbu	a0, -16(a0)
	andi	a0, a0, 1
	bnez	a0, .LBB17_1
	li	a0, 3
	ret
.Lfunc_end17:
	.size	ic_raw.table.RawTable.refusal_at.85cd03e557136797, .Lfunc_end17-ic_raw.table.RawTable.refusal_at.85cd03e557136797
	.cfi_endproc
	.section	.text.unlikely.ic_raw.table.RawTable.refusal.85cd03e557136797,"ax",@progbits
	.p2align	1
	.type	ic_raw.table.RawTable.refusal.85cd03e557136797,@function
ic_raw.table.RawTable.refusal.85cd03e557136797:
	.cfi_startproc
	addi	a5, a3, 1
	mv	a6, a0
	bnez	a5, .LBB18_5
.LBB18_1:
	addi	a4, a4, 1
	li	a0, 1
	beqz	a4, .LBB18_9
	sltu	a1, a1, a4
	seqz	a2, a2
	and	a1, a1, a2
	bnez	a1, .LBB18_9
	slli	a4, a4, 4
	add	a4, a4, a6
	lbu	a0, -16(a4)
	andi	a0, a0, 1
	beqz	a0, .LBB18_10
	li	a0, 2
	ret
.LBB18_5:
	sltu	a0, a1, a5
	seqz	a3, a2
	and	a0, a0, a3
	beqz	a0, .LBB18_7
	li	a0, 1
	ret
.LBB18_7:
	slli	a5, a5, 4
	add	a5, a5, a6
	lbu	a0, -16(a5)
	andi	a0, a0, 1
	bnez	a0, .LBB18_1
	li	a0, 3
.LBB18_9:
	ret
.LBB18_10:
	li	a0, 5
	ret
.Lfunc_end18:
	.size	ic_raw.table.RawTable.refusal.85cd03e557136797, .Lfunc_end18-ic_raw.table.RawTable.refusal.85cd03e557136797
	.cfi_endproc
	.section	.text.unlikely.ic_raw.sort_calls.refusal.78cbab63d6c27224,"ax",@progbits
	.p2align	1
	.type	ic_raw.sort_calls.refusal.78cbab63d6c27224,@function
ic_raw.sort_calls.refusal.78cbab63d6c27224:
	.cfi_startproc
	beq	a3, a1, .LBB19_3
	sltu	a0, a3, a1
	beqz	a0, .LBB19_4
.LBB19_2:
	li	a0, 1
	ret
.LBB19_3:
	sltu	a0, a2, a0
	bnez	a0, .LBB19_2
.LBB19_4:
	li	a0, 5
	ret
.Lfunc_end19:
	.size	ic_raw.sort_calls.refusal.78cbab63d6c27224, .Lfunc_end19-ic_raw.sort_calls.refusal.78cbab63d6c27224
	.cfi_endproc
	.section	.text.ic_list_algorithms.merge.merge_runs.6bd71b5c7308988e,"ax",@progbits
	.p2align	1
	.type	ic_list_algorithms.merge.merge_runs.6bd71b5c7308988e,@function
ic_list_algorithms.merge.merge_runs.6bd71b5c7308988e:
	.cfi_startproc
	mv	a6, a3
	mv	a7, a2
	lbu	t0, 1(a1)
	lbu	t1, 2(a1)
	lbu	a2, 3(a1)
	lbu	a3, 0(a1)
	slli	t0, t0, 8
	slli	t1, t1, 16
	slli	a2, a2, 24
	or	a3, t0, a3
	or	a2, a2, t1
	or	a2, a2, a3
	add	t0, a2, a4
	add	t1, a2, a7
	lw	a2, -4(t0)
	lw	a3, -4(t1)
	bne	a2, a3, .LBB20_2
	lw	a2, -8(t0)
	lw	a3, -8(t1)
.LBB20_2:
	sltu	a2, a2, a3
	addi	sp, sp, -16
	.cfi_def_cfa_offset 16
	sw	s0, 12(sp)
	.cfi_offset s0, -4
	.cfi_remember_state
	lw	a3, 0(a0)
	li	t3, 15
	li	t4, -8
	beqz	a2, .LBB20_5
	slli	a2, a4, 1
	add	a2, a2, a3
	lw	a3, -12(a2)
	lw	t0, -16(a2)
	and	t6, a3, t3
	and	s0, t0, t4
	or	a3, s0, t6
	beqz	a3, .LBB20_15
	mv	t0, a4
	mv	t1, a5
	mv	t5, a7
	mv	t2, a6
	mv	a4, s0
	mv	a5, t6
	mv	a7, t0
	j	.LBB20_8
.LBB20_5:
	slli	a2, a7, 1
	add	a2, a2, a3
	lw	a3, -12(a2)
	lw	t0, -16(a2)
	and	t2, a3, t3
	and	t5, t0, t4
	or	a3, t5, t2
	beqz	a3, .LBB20_16
	mv	t0, a7
	mv	t1, a6
	j	.LBB20_8
.LBB20_7:
	slli	a6, a7, 1
	add	a3, a3, a6
	lw	a2, -12(a3)
	lw	a3, -16(a3)
	addi	s0, a7, 1
	and	a2, a2, t3
	and	t5, a3, t4
	or	a3, t5, a2
	sw	s0, -16(t6)
	sw	t2, -12(t6)
	mv	t2, a2
	beqz	a3, .LBB20_17
.LBB20_8:
	mv	t6, a7
	mv	a7, t5
	mv	a2, a4
.LBB20_9:
	lbu	a6, 1(a1)
	lbu	t5, 2(a1)
	lbu	a3, 3(a1)
	lbu	s0, 0(a1)
	mv	a4, a2
	slli	a6, a6, 8
	slli	t5, t5, 16
	slli	a3, a3, 24
	or	a2, a6, s0
	or	a3, a3, t5
	or	a2, a2, a3
	add	a6, a2, a4
	add	t5, a2, a7
	lw	a2, -4(a6)
	lw	a3, -4(t5)
	bne	a2, a3, .LBB20_11
	lw	a2, -8(a6)
	lw	a3, -8(t5)
.LBB20_11:
	sltu	a2, a2, a3
	lw	a3, 0(a0)
	slli	t6, t6, 1
	add	t6, t6, a3
	beqz	a2, .LBB20_7
	slli	a6, a4, 1
	add	a3, a3, a6
	lw	a2, -12(a3)
	lw	a3, -16(a3)
	addi	t5, a4, 1
	and	s0, a2, t3
	and	a2, a3, t4
	or	a3, a2, s0
	sw	t5, -16(t6)
	sw	a5, -12(t6)
	mv	a5, s0
	mv	t6, a4
	bnez	a3, .LBB20_9
	lw	a0, 0(a0)
	addi	a7, a7, 1
	add	a0, a0, a6
	sw	a7, -16(a0)
	sw	t2, -12(a0)
.LBB20_14:
	mv	a0, t0
	mv	a1, t1
	lw	s0, 12(sp)
	.cfi_restore s0
	addi	sp, sp, 16
	.cfi_def_cfa_offset 0
	ret
.LBB20_15:
	.cfi_restore_state
	.cfi_remember_state
	addi	a7, a7, 1
	sw	a7, -16(a2)
	sw	a6, -12(a2)
	mv	a0, a4
	mv	a1, a5
	lw	s0, 12(sp)
	.cfi_restore s0
	addi	sp, sp, 16
	.cfi_def_cfa_offset 0
	ret
.LBB20_16:
	.cfi_restore_state
	.cfi_remember_state
	addi	a4, a4, 1
	sw	a4, -16(a2)
	sw	a5, -12(a2)
	mv	a0, a7
	mv	a1, a6
	lw	s0, 12(sp)
	.cfi_restore s0
	addi	sp, sp, 16
	.cfi_def_cfa_offset 0
	ret
.LBB20_17:
	.cfi_restore_state
	lw	a0, 0(a0)
	addi	a4, a4, 1
	seqz	a1, a4
	add	a1, a1, a5
	add	a0, a0, a6
	sw	a4, -16(a0)
	sw	a1, -12(a0)
	j	.LBB20_14
.Lfunc_end20:
	.size	ic_list_algorithms.merge.merge_runs.6bd71b5c7308988e, .Lfunc_end20-ic_list_algorithms.merge.merge_runs.6bd71b5c7308988e
	.cfi_endproc
	.section	.text.unlikely.ic_raw.move_calls.move_slow.5386baa488213e47,"ax",@progbits
	.p2align	1
	.type	ic_raw.move_calls.move_slow.5386baa488213e47,@function
ic_raw.move_calls.move_slow.5386baa488213e47:
	.cfi_startproc
	addi	sp, sp, -64
	.cfi_def_cfa_offset 64
	sw	ra, 60(sp)
	sw	s0, 56(sp)
	sw	s1, 52(sp)
	sw	s2, 48(sp)
	sw	s3, 44(sp)
	sw	s4, 40(sp)
	sw	s5, 36(sp)
	sw	s6, 32(sp)
	sw	s7, 28(sp)
	sw	s8, 24(sp)
	sw	s9, 20(sp)
	sw	s10, 16(sp)
	sw	s11, 12(sp)
	.cfi_offset ra, -4
	.cfi_offset s0, -8
	.cfi_offset s1, -12
	.cfi_offset s2, -16
	.cfi_offset s3, -20
	.cfi_offset s4, -24
	.cfi_offset s5, -28
	.cfi_offset s6, -32
	.cfi_offset s7, -36
	.cfi_offset s8, -40
	.cfi_offset s9, -44
	.cfi_offset s10, -48
	.cfi_offset s11, -52
	.cfi_remember_state
	addi	s5, a6, 1
	bnez	s5, .LBB21_2
	li	a0, 4
	j	.LBB21_58
.LBB21_2:
	li	t6, 15
	li	t5, -8
	lw	a7, 0(a3)
	lw	t1, 4(a3)
	lw	t0, 8(a3)
	lw	t2, 12(a3)
	addi	s1, a5, 1
	srli	s2, s1, 29
	slli	t4, s1, 3
	snez	s0, s1
	sw	s0, 8(sp)
	andi	s6, t1, 15
	andi	s3, a7, -8
	andi	a7, t2, 15
	andi	t3, t0, -8
	seqz	s7, a2
	sw	s6, 0(sp)
	sw	s3, 4(sp)
	beqz	s1, .LBB21_7
	sltu	s1, a1, s1
	and	s1, s7, s1
	bnez	s1, .LBB21_47
	slli	s1, t4, 1
	add	s1, s1, a0
	lw	t0, -16(s1)
	andi	s0, t0, 1
	beqz	s0, .LBB21_47
	andi	a4, a4, 1
	beqz	a4, .LBB21_11
	lw	a4, -4(s1)
	lw	s1, -8(s1)
	and	t0, a4, t6
	and	s1, s1, t5
	j	.LBB21_8
.LBB21_7:
	andi	a4, a4, 1
	mv	s1, t3
	mv	t0, a7
	beqz	a4, .LBB21_12
.LBB21_8:
	or	a4, s1, t0
	beqz	a4, .LBB21_15
	srli	a4, t0, 3
	beq	a4, a2, .LBB21_17
	sltu	a4, a2, a4
	j	.LBB21_18
.LBB21_11:
	lw	a4, -12(s1)
	and	s3, t0, t5
	and	s6, a4, t6
.LBB21_12:
	or	a4, s3, s6
	mv	s0, t3
	mv	s1, a7
	beqz	a4, .LBB21_25
	srli	s1, s6, 3
	beq	s1, a2, .LBB21_21
	sltu	s1, a2, s1
	j	.LBB21_22
.LBB21_15:
	lw	a4, 4(sp)
	xor	a4, a4, t4
	lw	s1, 0(sp)
	xor	s1, s1, s2
	or	a4, a4, s1
	bnez	a4, .LBB21_47
	li	t4, 0
	li	s2, 0
	li	s4, 0
	lw	s3, 4(sp)
	lw	s6, 0(sp)
	j	.LBB21_27
.LBB21_17:
	srli	a4, s1, 3
	slli	s0, t0, 29
	or	a4, a4, s0
	sltu	a4, a1, a4
.LBB21_18:
	bnez	a4, .LBB21_47
	slli	a4, s1, 1
	add	a4, a4, a0
	lw	s4, -16(a4)
	lw	a4, -12(a4)
	addi	s3, t5, 1
	seqz	s0, s3
	add	s0, s0, t6
	and	a4, a4, s0
	addi	s6, t4, 1
	and	s0, s4, s3
	xor	a4, a4, s2
	xor	s0, s0, s6
	or	a4, a4, s0
	bnez	a4, .LBB21_47
	li	s4, 1
	mv	s3, t4
	mv	s6, s2
	mv	t4, s1
	mv	s2, t0
	j	.LBB21_27
.LBB21_21:
	srli	s1, s3, 3
	slli	s0, s6, 29
	or	s0, s0, s1
	sltu	s1, a1, s0
.LBB21_22:
	bnez	s1, .LBB21_47
	slli	s1, s3, 1
	add	s1, s1, a0
	lbu	s0, -16(s1)
	andi	s0, s0, 1
	beqz	s0, .LBB21_47
	lw	s0, -4(s1)
	lw	t0, -8(s1)
	and	s1, s0, t6
	and	s0, t0, t5
.LBB21_25:
	xor	s0, s0, t4
	xor	s1, s1, s2
	or	s0, s0, s1
	bnez	s0, .LBB21_47
	snez	a4, a4
	lw	s4, 8(sp)
	sw	a4, 8(sp)
.LBB21_27:
	sltu	a4, a1, s5
	and	a4, s7, a4
	bnez	a4, .LBB21_47
	slli	t2, s5, 3
	slli	s10, t2, 1
	add	s10, s10, a0
	lw	t1, -16(s10)
	andi	a4, t1, 1
	beqz	a4, .LBB21_47
	lw	a4, -4(s10)
	lw	s1, -8(s10)
	lw	t0, -12(s10)
	and	s7, a4, t6
	and	s8, s1, t5
	or	s9, s8, s7
	srli	s5, s5, 29
	beqz	s9, .LBB21_32
	srli	s1, s7, 3
	beq	s1, a2, .LBB21_33
	sltu	s1, a2, s1
	j	.LBB21_34
.LBB21_32:
	lw	a4, 4(sp)
	xor	a4, a4, t2
	lw	s0, 0(sp)
	xor	s0, s0, s5
	or	a4, a4, s0
	beqz	a4, .LBB21_36
	j	.LBB21_47
.LBB21_33:
	srli	a4, s8, 3
	slli	s1, s7, 29
	or	a4, a4, s1
	sltu	s1, a1, a4
.LBB21_34:
	bnez	s1, .LBB21_47
	slli	a4, s8, 1
	add	a4, a4, a0
	lw	ra, -16(a4)
	lw	a4, -12(a4)
	addi	s11, t5, 1
	seqz	s1, s11
	add	s1, s1, t6
	and	a4, a4, s1
	addi	s1, t2, 1
	and	s0, ra, s11
	xor	a4, a4, s5
	xor	s0, s0, s1
	or	a4, a4, s0
	bnez	a4, .LBB21_47
.LBB21_36:
	and	ra, t1, t5
	and	t1, t0, t6
	or	s11, ra, t1
	mv	t0, t3
	mv	a4, a7
	beqz	s11, .LBB21_43
	srli	a4, t1, 3
	beq	a4, a2, .LBB21_39
	sltu	a4, a2, a4
	j	.LBB21_40
.LBB21_39:
	srli	a4, ra, 3
	slli	s1, t1, 29
	or	a4, a4, s1
	sltu	a4, a1, a4
.LBB21_40:
	bnez	a4, .LBB21_47
	slli	a4, ra, 1
	add	a4, a4, a0
	lbu	s1, -16(a4)
	andi	s1, s1, 1
	beqz	s1, .LBB21_47
	lw	s1, -4(a4)
	lw	s0, -8(a4)
	and	a4, s1, t6
	and	t0, s0, t5
.LBB21_43:
	xor	s1, t0, t2
	xor	a4, a4, s5
	or	a4, a4, s1
	bnez	a4, .LBB21_47
	seqz	a1, s4
	addi	a2, a1, -1
	and	a1, a2, t4
	and	a2, a2, s2
	xor	a4, a2, s5
	xor	a5, a1, t2
	or	a4, a4, a5
	beqz	a4, .LBB21_46
	lw	s0, 8(sp)
	seqz	a4, s0
	addi	a4, a4, -1
	and	a5, a4, s3
	and	a6, a4, s6
	xor	a4, a6, s5
	xor	s1, a5, t2
	or	a4, a4, s1
	bnez	a4, .LBB21_48
.LBB21_46:
	li	a0, 0
	j	.LBB21_58
.LBB21_47:
	mv	a3, a5
	mv	a4, a6
	lw	ra, 60(sp)
	lw	s0, 56(sp)
	lw	s1, 52(sp)
	lw	s2, 48(sp)
	lw	s3, 44(sp)
	lw	s4, 40(sp)
	lw	s5, 36(sp)
	lw	s6, 32(sp)
	lw	s7, 28(sp)
	lw	s8, 24(sp)
	lw	s9, 20(sp)
	lw	s10, 16(sp)
	lw	s11, 12(sp)
	.cfi_restore ra
	.cfi_restore s0
	.cfi_restore s1
	.cfi_restore s2
	.cfi_restore s3
	.cfi_restore s4
	.cfi_restore s5
	.cfi_restore s6
	.cfi_restore s7
	.cfi_restore s8
	.cfi_restore s9
	.cfi_restore s10
	.cfi_restore s11
	addi	sp, sp, 64
	.cfi_def_cfa_offset 0
	tail	ic_raw.table.RawTable.refusal_at_both.85cd03e557136797
.LBB21_48:
	.cfi_restore_state
	seqz	a4, s9
	seqz	t5, s11
	bnez	a4, .LBB21_54
	slli	a4, s8, 1
	addi	s1, ra, 1
	add	a4, a4, a0
	sw	s1, -16(a4)
	sw	t1, -12(a4)
	lw	t1, 0(sp)
	bnez	t5, .LBB21_55
.LBB21_50:
	slli	ra, ra, 1
	add	ra, ra, a0
	sw	s8, -8(ra)
	sw	s7, -4(ra)
	mv	s1, t2
	mv	t0, s5
	beqz	s4, .LBB21_52
.LBB21_51:
	slli	t4, t4, 1
	addi	a4, t2, 1
	add	t4, t4, a0
	sw	a4, -16(t4)
	sw	s5, -12(t4)
	lw	s1, 4(sp)
	mv	t0, t1
.LBB21_52:
	beqz	s0, .LBB21_56
	slli	s3, s3, 1
	add	a0, a0, s3
	sw	t2, -8(a0)
	sw	s5, -4(a0)
	j	.LBB21_57
.LBB21_54:
	sw	ra, 4(sp)
	beqz	t5, .LBB21_50
.LBB21_55:
	mv	t3, s8
	mv	a7, s7
	mv	s1, t2
	mv	t0, s5
	bnez	s4, .LBB21_51
	j	.LBB21_52
.LBB21_56:
	mv	t3, t2
	mv	a7, s5
.LBB21_57:
	li	a0, 0
	addi	a5, a5, 1
	srli	t1, s1, 24
	srli	t2, s1, 16
	srli	s0, s1, 8
	seqz	a4, a5
	add	a4, a4, a6
	srli	a6, t3, 24
	sw	a5, -16(s10)
	sw	a4, -12(s10)
	sw	a1, -8(s10)
	sw	a2, -4(s10)
	srli	a1, t3, 16
	srli	a2, t3, 8
	sb	s1, 0(a3)
	sb	s0, 1(a3)
	sb	t2, 2(a3)
	sb	t1, 3(a3)
	sb	t0, 4(a3)
	sb	zero, 5(a3)
	sb	zero, 6(a3)
	sb	zero, 7(a3)
	sb	t3, 8(a3)
	sb	a2, 9(a3)
	sb	a1, 10(a3)
	sb	a6, 11(a3)
	sb	a7, 12(a3)
	sb	zero, 13(a3)
	sb	zero, 14(a3)
	sb	zero, 15(a3)
.LBB21_58:
	lw	ra, 60(sp)
	lw	s0, 56(sp)
	lw	s1, 52(sp)
	lw	s2, 48(sp)
	lw	s3, 44(sp)
	lw	s4, 40(sp)
	lw	s5, 36(sp)
	lw	s6, 32(sp)
	lw	s7, 28(sp)
	lw	s8, 24(sp)
	lw	s9, 20(sp)
	lw	s10, 16(sp)
	lw	s11, 12(sp)
	.cfi_restore ra
	.cfi_restore s0
	.cfi_restore s1
	.cfi_restore s2
	.cfi_restore s3
	.cfi_restore s4
	.cfi_restore s5
	.cfi_restore s6
	.cfi_restore s7
	.cfi_restore s8
	.cfi_restore s9
	.cfi_restore s10
	.cfi_restore s11
	addi	sp, sp, 64
	.cfi_def_cfa_offset 0
	ret
.Lfunc_end21:
	.size	ic_raw.move_calls.move_slow.5386baa488213e47, .Lfunc_end21-ic_raw.move_calls.move_slow.5386baa488213e47
	.cfi_endproc
	.section	.text.unlikely.ic_raw.table.RawTable.refusal_at_both.85cd03e557136797,"ax",@progbits
	.p2align	1
	.type	ic_raw.table.RawTable.refusal_at_both.85cd03e557136797,@function
ic_raw.table.RawTable.refusal_at_both.85cd03e557136797:
	.cfi_startproc
	addi	a3, a3, 1
	bnez	a3, .LBB22_3
.LBB22_1:
	addi	a4, a4, 1
	bnez	a4, .LBB22_5
	li	a0, 5
	ret
.LBB22_3:
	sltu	a6, a1, a3
	seqz	a5, a2
	and	a5, a5, a6
	beqz	a5, .LBB22_7
	li	a0, 1
	ret
.LBB22_5:
	sltu	a1, a1, a4
	seqz	a2, a2
	and	a1, a1, a2
	beqz	a1, .LBB22_8
	li	a0, 1
	ret
.LBB22_7:
	slli	a3, a3, 4
	add	a3, a3, a0
	lbu	a3, -16(a3)
	andi	a3, a3, 1
	bnez	a3, .LBB22_1
	j	.LBB22_10
.LBB22_8:
	slli	a4, a4, 4
	add	a0, a0, a4
	lbu	a0, -16(a0)
	andi	a0, a0, 1
	beqz	a0, .LBB22_10
	li	a0, 5
	ret
.LBB22_10:
	li	a0, 3
	ret
.Lfunc_end22:
	.size	ic_raw.table.RawTable.refusal_at_both.85cd03e557136797, .Lfunc_end22-ic_raw.table.RawTable.refusal_at_both.85cd03e557136797
	.cfi_endproc
	.section	.text.unlikely.ic_raw.move_calls.move_to_end_slow.5386baa488213e47,"ax",@progbits
	.p2align	1
	.type	ic_raw.move_calls.move_to_end_slow.5386baa488213e47,@function
ic_raw.move_calls.move_to_end_slow.5386baa488213e47:
	.cfi_startproc
	addi	sp, sp, -16
	.cfi_def_cfa_offset 16
	sw	s0, 12(sp)
	sw	s1, 8(sp)
	sw	s2, 4(sp)
	sw	s3, 0(sp)
	.cfi_offset s0, -4
	.cfi_offset s1, -8
	.cfi_offset s2, -12
	.cfi_offset s3, -16
	.cfi_remember_state
	addi	t6, a5, 1
	bnez	t6, .LBB23_2
	li	a1, 4
	j	.LBB23_39
.LBB23_2:
	mv	a6, a5
	srli	a7, t6, 29
	slli	t5, t6, 3
	li	t4, 15
	li	s2, -8
	lw	t2, 0(a3)
	lw	s0, 4(a3)
	lw	t0, 8(a3)
	lw	a5, 12(a3)
	andi	s1, a4, 1
	andi	t1, s0, 15
	andi	s3, t2, -8
	andi	t2, a5, 15
	andi	t3, t0, -8
	slli	t0, t5, 1
	beqz	s1, .LBB23_10
	sltu	a5, a1, t6
	seqz	s1, a2
	and	a5, a5, s1
	bnez	a5, .LBB23_40
	xor	a5, s3, t5
	xor	s1, t1, a7
	or	a5, a5, s1
	bnez	a5, .LBB23_40
	add	a5, a0, t0
	lw	s1, -8(a5)
	lw	s0, -4(a5)
	or	s0, s0, s1
	bnez	s0, .LBB23_40
	lw	s0, -16(a5)
	andi	s1, s0, 1
	beqz	s1, .LBB23_40
	lw	s1, -12(a5)
	and	s3, s0, s2
	and	t4, s1, t4
	or	s1, s3, t4
	beqz	s1, .LBB23_40
	srli	s1, t4, 3
	beq	s1, a2, .LBB23_22
	sltu	s1, a2, s1
	j	.LBB23_23
.LBB23_10:
	xor	a5, t3, t5
	xor	s1, t2, a7
	or	a5, a5, s1
	bnez	a5, .LBB23_40
	sltu	a5, a1, t6
	seqz	s1, a2
	and	a5, a5, s1
	bnez	a5, .LBB23_40
	add	s1, a0, t0
	lw	a5, -16(s1)
	lw	s0, -12(s1)
	xori	a5, a5, 1
	or	a5, a5, s0
	bnez	a5, .LBB23_40
	lw	a5, -4(s1)
	lw	s1, -8(s1)
	and	t6, a5, t4
	and	s2, s1, s2
	or	a5, s2, t6
	beqz	a5, .LBB23_40
	srli	s1, t6, 3
	beq	s1, a2, .LBB23_16
	sltu	s1, a2, s1
	j	.LBB23_17
.LBB23_16:
	slli	a5, t6, 29
	srli	s1, s2, 3
	or	a5, a5, s1
	sltu	s1, a1, a5
.LBB23_17:
	bnez	s1, .LBB23_40
	slli	s0, s2, 1
	add	t4, a0, s0
	lw	a5, -12(t4)
	lw	s1, -16(t4)
	addi	t2, t5, 1
	xor	a5, a5, a7
	xor	s1, s1, t2
	or	a5, a5, s1
	bnez	a5, .LBB23_40
	or	a5, s3, t1
	beqz	a5, .LBB23_40
	srli	s1, t1, 3
	beq	s1, a2, .LBB23_29
	sltu	s1, a2, s1
	j	.LBB23_30
.LBB23_22:
	srli	s1, s3, 3
	slli	s0, t4, 29
	or	s0, s0, s1
	sltu	s1, a1, s0
.LBB23_23:
	bnez	s1, .LBB23_40
	slli	s1, s3, 1
	add	s1, s1, a0
	lw	s0, -4(s1)
	lw	a5, -8(s1)
	xor	s0, s0, a7
	xor	a5, a5, t5
	or	a5, a5, s0
	bnez	a5, .LBB23_40
	lw	a5, -16(s1)
	andi	a5, a5, 1
	beqz	a5, .LBB23_40
	or	a5, t3, t2
	beqz	a5, .LBB23_40
	srli	s0, t2, 3
	beq	s0, a2, .LBB23_34
	sltu	s0, a2, s0
	j	.LBB23_35
.LBB23_29:
	srli	a5, s3, 3
	slli	s1, t1, 29
	or	a5, a5, s1
	sltu	s1, a1, a5
.LBB23_30:
	bnez	s1, .LBB23_40
	slli	s1, s3, 1
	add	s1, s1, a0
	lw	a5, -8(s1)
	lw	s0, -4(s1)
	or	a5, a5, s0
	bnez	a5, .LBB23_40
	lw	a5, -16(s1)
	andi	a5, a5, 1
	beqz	a5, .LBB23_40
	li	t3, 0
	li	t2, 0
	li	a1, 1
	sw	a1, -16(t4)
	sw	zero, -12(t4)
	sw	t5, -8(s1)
	sw	a7, -4(s1)
	addi	a2, s3, 1
	mv	s3, t5
	mv	t4, a7
	mv	t5, s2
	mv	a7, t6
	j	.LBB23_38
.LBB23_34:
	srli	a5, t3, 3
	slli	s0, t2, 29
	or	a5, a5, s0
	sltu	s0, a1, a5
.LBB23_35:
	bnez	s0, .LBB23_40
	slli	s0, t3, 1
	add	s0, s0, a0
	lw	a5, -16(s0)
	lw	t1, -12(s0)
	xori	a5, a5, 1
	or	a5, a5, t1
	bnez	a5, .LBB23_40
	li	t1, 0
	sw	zero, -8(s1)
	sw	zero, -4(s1)
	addi	a1, t5, 1
	sw	a1, -16(s0)
	sw	a7, -12(s0)
	li	a2, 1
.LBB23_38:
	li	a1, 0
	add	a0, a0, t0
	srli	a4, s3, 24
	srli	a5, s3, 16
	srli	s1, s3, 8
	srli	s0, t5, 24
	sw	a2, -16(a0)
	sw	t1, -12(a0)
	sw	t3, -8(a0)
	sw	t2, -4(a0)
	srli	a0, t5, 16
	srli	a2, t5, 8
	sb	s3, 0(a3)
	sb	s1, 1(a3)
	sb	a5, 2(a3)
	sb	a4, 3(a3)
	sb	t4, 4(a3)
	sb	zero, 5(a3)
	sb	zero, 6(a3)
	sb	zero, 7(a3)
	sb	t5, 8(a3)
	sb	a2, 9(a3)
	sb	a0, 10(a3)
	sb	s0, 11(a3)
	sb	a7, 12(a3)
	sb	zero, 13(a3)
	sb	zero, 14(a3)
	sb	zero, 15(a3)
.LBB23_39:
	mv	a0, a1
	lw	s0, 12(sp)
	lw	s1, 8(sp)
	lw	s2, 4(sp)
	lw	s3, 0(sp)
	.cfi_restore s0
	.cfi_restore s1
	.cfi_restore s2
	.cfi_restore s3
	addi	sp, sp, 16
	.cfi_def_cfa_offset 0
	ret
.LBB23_40:
	.cfi_restore_state
	li	a5, -1
	lw	s0, 12(sp)
	lw	s1, 8(sp)
	lw	s2, 4(sp)
	lw	s3, 0(sp)
	.cfi_restore s0
	.cfi_restore s1
	.cfi_restore s2
	.cfi_restore s3
	addi	sp, sp, 16
	.cfi_def_cfa_offset 0
	tail	ic_raw.move_calls.move_slow.5386baa488213e47
.Lfunc_end23:
	.size	ic_raw.move_calls.move_to_end_slow.5386baa488213e47, .Lfunc_end23-ic_raw.move_calls.move_to_end_slow.5386baa488213e47
	.cfi_endproc
	.section	.text.unlikely.ic_raw.list_calls.pop_front_slow.5386baa488213e47,"ax",@progbits
	.p2align	1
	.type	ic_raw.list_calls.pop_front_slow.5386baa488213e47,@function
ic_raw.list_calls.pop_front_slow.5386baa488213e47:
	.cfi_startproc
	addi	sp, sp, -16
	.cfi_def_cfa_offset 16
	sw	s0, 12(sp)
	sw	s1, 8(sp)
	sw	s2, 4(sp)
	.cfi_offset s0, -4
	.cfi_offset s1, -8
	.cfi_offset s2, -12
	.cfi_remember_state
	lw	s0, 4(a3)
	lw	a5, 0(a3)
	andi	t1, s0, 15
	andi	t2, a5, -8
	or	a6, t2, t1
	beqz	a6, .LBB24_16
	slli	a6, s0, 29
	srli	s0, a5, 3
	srli	a5, t1, 3
	or	a6, s0, a6
	beq	a5, a2, .LBB24_3
	sltu	a5, a2, a5
	beqz	a5, .LBB24_4
	j	.LBB24_16
.LBB24_3:
	sltu	a5, a1, a6
	bnez	a5, .LBB24_16
.LBB24_4:
	slli	s0, t2, 1
	add	s2, a0, s0
	lw	s0, -16(s2)
	andi	a5, s0, 1
	beqz	a5, .LBB24_16
	lw	a5, -4(s2)
	lw	s1, -8(s2)
	li	t5, 15
	li	t6, -8
	and	a5, a5, t5
	and	s1, s1, t6
	or	a5, a5, s1
	bnez	a5, .LBB24_16
	lw	t0, 12(a3)
	lw	s1, -12(s2)
	lw	a5, 8(a3)
	and	a7, s0, t6
	andi	t3, t0, 15
	and	t4, s1, t5
	or	s0, a7, t4
	andi	t0, a5, -8
	beqz	s0, .LBB24_9
	srli	a5, t4, 3
	beq	a5, a2, .LBB24_11
	sltu	a1, a2, a5
	beqz	a1, .LBB24_12
	j	.LBB24_16
.LBB24_9:
	xor	a0, t0, t2
	xor	a1, t3, t1
	or	a0, a0, a1
	bnez	a0, .LBB24_16
	li	t0, 0
	li	t3, 0
	j	.LBB24_15
.LBB24_11:
	srli	a2, a7, 3
	slli	a5, t4, 29
	or	a2, a2, a5
	sltu	a1, a1, a2
	bnez	a1, .LBB24_16
.LBB24_12:
	slli	a1, a7, 1
	add	a0, a0, a1
	lbu	a1, -16(a0)
	andi	a1, a1, 1
	beqz	a1, .LBB24_16
	lw	a1, -8(a0)
	lw	a2, -4(a0)
	and	a1, a1, t6
	and	a2, a2, t5
	xor	a2, a2, t1
	xor	a1, a1, t2
	or	a1, a1, a2
	bnez	a1, .LBB24_16
	sw	zero, -8(a0)
	sw	zero, -4(a0)
.LBB24_15:
	sw	zero, -16(s2)
	sw	zero, -12(s2)
	sb	t4, 4(a3)
	sb	zero, 5(a3)
	sb	zero, 6(a3)
	sb	zero, 7(a3)
	srli	a0, a7, 24
	srli	a1, a7, 16
	srli	a2, a7, 8
	sb	t3, 12(a3)
	sb	zero, 13(a3)
	sb	zero, 14(a3)
	sb	zero, 15(a3)
	srli	a5, t0, 24
	srli	s1, t0, 16
	srli	s0, t0, 8
	addi	a6, a6, -1
	sb	a7, 0(a3)
	sb	a2, 1(a3)
	sb	a1, 2(a3)
	sb	a0, 3(a3)
	sb	t0, 8(a3)
	sb	s0, 9(a3)
	sb	s1, 10(a3)
	sb	a5, 11(a3)
	sw	a6, 0(a4)
	li	a0, 0
	lw	s0, 12(sp)
	lw	s1, 8(sp)
	lw	s2, 4(sp)
	.cfi_restore s0
	.cfi_restore s1
	.cfi_restore s2
	addi	sp, sp, 16
	.cfi_def_cfa_offset 0
	ret
.LBB24_16:
	.cfi_restore_state
	mv	a0, a3
	li	a1, 0
	lw	s0, 12(sp)
	lw	s1, 8(sp)
	lw	s2, 4(sp)
	.cfi_restore s0
	.cfi_restore s1
	.cfi_restore s2
	addi	sp, sp, 16
	.cfi_def_cfa_offset 0
	tail	ic_raw.list_calls.refusal_to_pop
.Lfunc_end24:
	.size	ic_raw.list_calls.pop_front_slow.5386baa488213e47, .Lfunc_end24-ic_raw.list_calls.pop_front_slow.5386baa488213e47
	.cfi_endproc
	.section	.text.unlikely.ic_raw.list_calls.push_back_slow.5386baa488213e47,"ax",@progbits
	.p2align	1
	.type	ic_raw.list_calls.push_back_slow.5386baa488213e47,@function
ic_raw.list_calls.push_back_slow.5386baa488213e47:
	.cfi_startproc
	addi	sp, sp, -16
	.cfi_def_cfa_offset 16
	sw	s0, 12(sp)
	.cfi_offset s0, -4
	.cfi_remember_state
	lw	a7, 4(a3)
	lw	a6, 0(a3)
	lw	a5, 12(a3)
	lw	t1, 8(a3)
	andi	a7, a7, 15
	andi	t0, a6, -8
	andi	a6, a5, 15
	andi	t2, t1, -8
	or	t3, t2, a6
	slli	t1, t2, 1
	beqz	t3, .LBB25_3
	srli	a5, a6, 3
	beq	a5, a2, .LBB25_4
	sltu	a5, a2, a5
	beqz	a5, .LBB25_5
	j	.LBB25_12
.LBB25_3:
	or	a5, t0, a7
	beqz	a5, .LBB25_6
	j	.LBB25_12
.LBB25_4:
	srli	t4, t2, 3
	slli	a5, a6, 29
	or	a5, t4, a5
	sltu	a5, a1, a5
	bnez	a5, .LBB25_12
.LBB25_5:
	li	t4, 15
	li	t5, -8
	add	a5, a0, t1
	lw	t6, -16(a5)
	lw	a5, -12(a5)
	addi	t5, t5, 1
	seqz	s0, t5
	add	t4, t4, s0
	and	a5, a5, t4
	and	s0, t6, t5
	xori	s0, s0, 1
	or	a5, a5, s0
	bnez	a5, .LBB25_12
.LBB25_6:
	addi	a5, a4, 1
	beqz	a5, .LBB25_12
	sltu	t4, a1, a5
	seqz	s0, a2
	and	s0, s0, t4
	bnez	s0, .LBB25_12
	slli	t5, a5, 3
	slli	t4, t5, 1
	add	t4, t4, a0
	lbu	s0, -16(t4)
	andi	s0, s0, 1
	bnez	s0, .LBB25_12
	srli	a1, a5, 29
	seqz	a5, t3
	mv	a4, t5
	mv	t3, a1
	bnez	a5, .LBB25_11
	add	a0, a0, t1
	addi	a2, t5, 1
	sw	a2, -16(a0)
	sw	a1, -12(a0)
	mv	a4, t0
	mv	t3, a7
.LBB25_11:
	li	a7, 1
	srli	t0, a4, 24
	srli	s0, a4, 16
	srli	a0, a4, 8
	srli	t1, t5, 24
	sw	a7, -16(t4)
	sw	zero, -12(t4)
	sw	t2, -8(t4)
	sw	a6, -4(t4)
	srli	a2, t5, 16
	srli	a5, t5, 8
	sb	a4, 0(a3)
	sb	a0, 1(a3)
	sb	s0, 2(a3)
	sb	t0, 3(a3)
	sb	t3, 4(a3)
	sb	zero, 5(a3)
	sb	zero, 6(a3)
	sb	zero, 7(a3)
	sb	t5, 8(a3)
	sb	a5, 9(a3)
	sb	a2, 10(a3)
	sb	t1, 11(a3)
	sb	a1, 12(a3)
	sb	zero, 13(a3)
	sb	zero, 14(a3)
	sb	zero, 15(a3)
	li	a0, 0
	lw	s0, 12(sp)
	.cfi_restore s0
	addi	sp, sp, 16
	.cfi_def_cfa_offset 0
	ret
.LBB25_12:
	.cfi_restore_state
	li	a3, -1
	lw	s0, 12(sp)
	.cfi_restore s0
	addi	sp, sp, 16
	.cfi_def_cfa_offset 0
	tail	ic_raw.table.RawTable.refusal.85cd03e557136797
.Lfunc_end25:
	.size	ic_raw.list_calls.push_back_slow.5386baa488213e47, .Lfunc_end25-ic_raw.list_calls.push_back_slow.5386baa488213e47
	.cfi_endproc
	.section	.text.unlikely.ic_raw.list_calls.remove_slow.5386baa488213e47,"ax",@progbits
	.p2align	1
	.type	ic_raw.list_calls.remove_slow.5386baa488213e47,@function
ic_raw.list_calls.remove_slow.5386baa488213e47:
	.cfi_startproc
	addi	sp, sp, -48
	.cfi_def_cfa_offset 48
	sw	s0, 44(sp)
	sw	s1, 40(sp)
	sw	s2, 36(sp)
	sw	s3, 32(sp)
	sw	s4, 28(sp)
	sw	s5, 24(sp)
	sw	s6, 20(sp)
	sw	s7, 16(sp)
	sw	s8, 12(sp)
	sw	s9, 8(sp)
	.cfi_offset s0, -4
	.cfi_offset s1, -8
	.cfi_offset s2, -12
	.cfi_offset s3, -16
	.cfi_offset s4, -20
	.cfi_offset s5, -24
	.cfi_offset s6, -28
	.cfi_offset s7, -32
	.cfi_offset s8, -36
	.cfi_offset s9, -40
	.cfi_remember_state
	addi	a5, a4, 1
	bnez	a5, .LBB26_2
	li	a0, 4
	j	.LBB26_26
.LBB26_2:
	sltu	s1, a1, a5
	seqz	s0, a2
	and	s0, s0, s1
	bnez	s0, .LBB26_22
	slli	t3, a5, 3
	slli	t2, t3, 1
	add	t2, t2, a0
	lw	s8, -16(t2)
	andi	s1, s8, 1
	beqz	s1, .LBB26_22
	srli	t4, a5, 29
	li	s2, 15
	li	t6, -8
	lw	s4, -12(t2)
	lw	t1, -8(t2)
	lw	s1, -4(t2)
	lw	s0, 4(a3)
	lw	a5, 0(a3)
	lw	s6, 8(a3)
	lw	t5, 12(a3)
	andi	a7, s0, 15
	andi	a6, a5, -8
	and	t0, s1, s2
	and	t1, t1, t6
	or	s5, t1, t0
	slli	s3, t1, 1
	beqz	s5, .LBB26_7
	srli	a5, t0, 3
	beq	a5, a2, .LBB26_8
	sltu	a5, a2, a5
	j	.LBB26_9
.LBB26_7:
	xor	a5, a6, t3
	xor	s0, a7, t4
	or	a5, a5, s0
	beqz	a5, .LBB26_11
	j	.LBB26_22
.LBB26_8:
	srli	a5, t1, 3
	slli	s0, t0, 29
	or	a5, a5, s0
	sltu	a5, a1, a5
.LBB26_9:
	bnez	a5, .LBB26_22
	add	a5, a0, s3
	lw	s0, -16(a5)
	lw	a5, -12(a5)
	addi	s7, t6, 1
	seqz	s1, s7
	add	s1, s1, s2
	and	a5, a5, s1
	addi	s1, t3, 1
	and	s0, s0, s7
	xor	a5, a5, t4
	xor	s0, s0, s1
	or	a5, a5, s0
	bnez	a5, .LBB26_22
.LBB26_11:
	andi	t5, t5, 15
	andi	s7, s6, -8
	and	s0, s8, t6
	and	s8, s4, s2
	or	s6, s0, s8
	slli	s4, s0, 1
	mv	s1, s7
	mv	a5, t5
	beqz	s6, .LBB26_18
	srli	a5, s8, 3
	beq	a5, a2, .LBB26_14
	sltu	a5, a2, a5
	j	.LBB26_15
.LBB26_14:
	srli	a5, s0, 3
	slli	s1, s8, 29
	or	a5, a5, s1
	sltu	a5, a1, a5
.LBB26_15:
	bnez	a5, .LBB26_22
	add	a5, a0, s4
	lbu	s1, -16(a5)
	andi	s1, s1, 1
	beqz	s1, .LBB26_22
	lw	s1, -4(a5)
	lw	s9, -8(a5)
	and	a5, s1, s2
	and	s1, s9, t6
.LBB26_18:
	xor	s1, s1, t3
	xor	a5, a5, t4
	or	a5, a5, s1
	bnez	a5, .LBB26_22
	seqz	a2, s5
	seqz	a1, s6
	bnez	a2, .LBB26_23
	add	s3, s3, a0
	addi	s0, s0, 1
	sw	s0, -16(s3)
	sw	s8, -12(s3)
	bnez	a1, .LBB26_24
.LBB26_21:
	add	a0, a0, s4
	sw	t1, -8(a0)
	sw	t0, -4(a0)
	j	.LBB26_25
.LBB26_22:
	mv	a3, a4
	lw	s0, 44(sp)
	lw	s1, 40(sp)
	lw	s2, 36(sp)
	lw	s3, 32(sp)
	lw	s4, 28(sp)
	lw	s5, 24(sp)
	lw	s6, 20(sp)
	lw	s7, 16(sp)
	lw	s8, 12(sp)
	lw	s9, 8(sp)
	.cfi_restore s0
	.cfi_restore s1
	.cfi_restore s2
	.cfi_restore s3
	.cfi_restore s4
	.cfi_restore s5
	.cfi_restore s6
	.cfi_restore s7
	.cfi_restore s8
	.cfi_restore s9
	addi	sp, sp, 48
	.cfi_def_cfa_offset 0
	tail	ic_raw.table.RawTable.refusal_at.85cd03e557136797
.LBB26_23:
	.cfi_restore_state
	mv	a6, s0
	mv	a7, s8
	beqz	a1, .LBB26_21
.LBB26_24:
	mv	s7, t1
	mv	t5, t0
.LBB26_25:
	li	a0, 0
	sw	zero, -16(t2)
	sw	zero, -12(t2)
	sb	a7, 4(a3)
	sb	zero, 5(a3)
	sb	zero, 6(a3)
	sb	zero, 7(a3)
	srli	a1, a6, 24
	srli	a2, a6, 16
	srli	a4, a6, 8
	sb	t5, 12(a3)
	sb	zero, 13(a3)
	sb	zero, 14(a3)
	sb	zero, 15(a3)
	srli	a5, s7, 24
	srli	s1, s7, 16
	sb	a6, 0(a3)
	sb	a4, 1(a3)
	sb	a2, 2(a3)
	sb	a1, 3(a3)
	srli	a1, s7, 8
	sb	s7, 8(a3)
	sb	a1, 9(a3)
	sb	s1, 10(a3)
	sb	a5, 11(a3)
.LBB26_26:
	lw	s0, 44(sp)
	lw	s1, 40(sp)
	lw	s2, 36(sp)
	lw	s3, 32(sp)
	lw	s4, 28(sp)
	lw	s5, 24(sp)
	lw	s6, 20(sp)
	lw	s7, 16(sp)
	lw	s8, 12(sp)
	lw	s9, 8(sp)
	.cfi_restore s0
	.cfi_restore s1
	.cfi_restore s2
	.cfi_restore s3
	.cfi_restore s4
	.cfi_restore s5
	.cfi_restore s6
	.cfi_restore s7
	.cfi_restore s8
	.cfi_restore s9
	addi	sp, sp, 48
	.cfi_def_cfa_offset 0
	ret
.Lfunc_end26:
	.size	ic_raw.list_calls.remove_slow.5386baa488213e47, .Lfunc_end26-ic_raw.list_calls.remove_slow.5386baa488213e47
	.cfi_endproc
	.section	.text.ic_list_algorithms.sort.sort_front.6bd71b5c7308988e,"ax",@progbits
	.p2align	1
	.type	ic_list_algorithms.sort.sort_front.6bd71b5c7308988e,@function
ic_list_algorithms.sort.sort_front.6bd71b5c7308988e:
	.cfi_startproc
	addi	sp, sp, -96
	.cfi_def_cfa_offset 96
	sw	ra, 92(sp)
	sw	s0, 88(sp)
	sw	s1, 84(sp)
	sw	s2, 80(sp)
	sw	s3, 76(sp)
	sw	s4, 72(sp)
	sw	s5, 68(sp)
	sw	s6, 64(sp)
	sw	s7, 60(sp)
	.cfi_offset ra, -4
	.cfi_offset s0, -8
	.cfi_offset s1, -12
	.cfi_offset s2, -16
	.cfi_offset s3, -20
	.cfi_offset s4, -24
	.cfi_offset s5, -28
	.cfi_offset s6, -32
	.cfi_offset s7, -36
	.cfi_remember_state
	or	s1, a5, a6
	mv	s0, a0
	beqz	s1, .LBB27_4
	xori	a0, a5, 1
	or	a0, a0, a6
	bnez	a0, .LBB27_5
	lw	a0, 0(a1)
	slli	a5, a3, 1
	add	a0, a0, a5
	lw	a5, -12(a0)
	lw	s1, -16(a0)
	li	a6, 1
	andi	a5, a5, 15
	andi	a7, s1, -8
	or	s1, a7, a5
	sw	a6, -16(a0)
	sw	zero, -12(a0)
	beqz	s1, .LBB27_10
	lw	a0, 0(a1)
	slli	s1, a7, 1
	add	a0, a0, s1
	lw	s1, -12(a0)
	lw	t0, -16(a0)
	li	t1, 15
	li	t2, -8
	and	s3, s1, t1
	and	s2, t0, t2
	or	s1, s2, s3
	snez	s1, s1
	sw	a6, -16(a0)
	sw	zero, -12(a0)
	mv	a0, a1
	mv	a1, a2
	mv	a2, a3
	mv	a3, a4
	mv	a4, a7
	call	ic_list_algorithms.merge.merge_runs.6bd71b5c7308988e
	srli	a6, a1, 24
	srli	a3, a1, 16
	srli	a4, a1, 8
	srli	a7, a0, 24
	srli	t0, a0, 16
	srli	a5, a0, 8
	sb	zero, 12(s0)
	sb	zero, 13(s0)
	sb	zero, 14(s0)
	sb	zero, 15(s0)
	sb	s1, 8(s0)
	sb	zero, 9(s0)
	sb	zero, 10(s0)
	sb	zero, 11(s0)
	sb	s3, 20(s0)
	sb	zero, 21(s0)
	sb	zero, 22(s0)
	sb	zero, 23(s0)
	srli	s1, s2, 24
	srli	a2, s2, 16
	sb	a1, 4(s0)
	sb	a4, 5(s0)
	sb	a3, 6(s0)
	sb	a6, 7(s0)
	srli	a1, s2, 8
	sb	a0, 0(s0)
	sb	a5, 1(s0)
	sb	t0, 2(s0)
	sb	a7, 3(s0)
	sb	s2, 16(s0)
	sb	a1, 17(s0)
	sb	a2, 18(s0)
	sb	s1, 19(s0)
	j	.LBB27_8
.LBB27_4:
	lw	a7, 0(a1)
	slli	t0, a3, 1
	li	a6, 1
	srli	t1, a4, 24
	srli	s1, a4, 16
	srli	a2, a4, 8
	srli	t2, a3, 24
	srli	a1, a3, 16
	add	a7, a7, t0
	lw	a5, -16(a7)
	lw	t0, -12(a7)
	sw	a6, -16(a7)
	sw	zero, -12(a7)
	srli	a0, a3, 8
	sb	a4, 4(s0)
	sb	a2, 5(s0)
	sb	s1, 6(s0)
	sb	t1, 7(s0)
	sb	a3, 0(s0)
	sb	a0, 1(s0)
	sb	a1, 2(s0)
	sb	t2, 3(s0)
	sb	zero, 12(s0)
	sb	zero, 13(s0)
	sb	zero, 14(s0)
	sb	zero, 15(s0)
	andi	a0, t0, 15
	andi	a1, a5, -8
	srli	a2, a5, 24
	srli	a3, a5, 16
	srli	a5, a5, 8
	or	a4, a1, a0
	sb	a0, 20(s0)
	sb	zero, 21(s0)
	sb	zero, 22(s0)
	sb	zero, 23(s0)
	snez	a0, a4
	sb	a0, 8(s0)
	sb	zero, 9(s0)
	sb	zero, 10(s0)
	sb	zero, 11(s0)
	sb	a1, 16(s0)
	sb	a5, 17(s0)
	sb	a3, 18(s0)
	j	.LBB27_7
.LBB27_5:
	seqz	a0, a5
	sub	s3, a6, a0
	addi	s4, a5, -1
	addi	a0, sp, 32
	mv	s5, a1
	mv	s6, a2
	mv	a5, s4
	mv	a6, s3
	call	ic_list_algorithms.sort.sort_front.6bd71b5c7308988e
	lw	s2, 36(sp)
	lbu	a0, 40(sp)
	lw	s1, 32(sp)
	li	a1, 1
	bne	a0, a1, .LBB27_9
	lw	a3, 48(sp)
	lw	a4, 52(sp)
	addi	a0, sp, 8
	mv	a1, s5
	mv	a2, s6
	mv	a5, s4
	mv	a6, s3
	call	ic_list_algorithms.sort.sort_front.6bd71b5c7308988e
	lw	a4, 8(sp)
	lw	a5, 12(sp)
	lbu	s7, 16(sp)
	lw	s3, 24(sp)
	lw	s4, 28(sp)
	mv	a0, s5
	mv	a1, s6
	mv	a2, s1
	mv	a3, s2
	call	ic_list_algorithms.merge.merge_runs.6bd71b5c7308988e
	srli	a6, a1, 24
	srli	t0, a1, 16
	srli	a4, a1, 8
	srli	a7, a0, 24
	srli	t1, a0, 16
	srli	t2, a0, 8
	sb	zero, 12(s0)
	sb	zero, 13(s0)
	sb	zero, 14(s0)
	sb	zero, 15(s0)
	sb	s7, 8(s0)
	sb	zero, 9(s0)
	sb	zero, 10(s0)
	sb	zero, 11(s0)
	srli	a5, s4, 24
	srli	a3, s4, 16
	srli	s1, s4, 8
	srli	a2, s3, 24
	sb	a1, 4(s0)
	sb	a4, 5(s0)
	sb	t0, 6(s0)
	sb	a6, 7(s0)
	srli	a1, s3, 16
	sb	a0, 0(s0)
	sb	t2, 1(s0)
	sb	t1, 2(s0)
	sb	a7, 3(s0)
	srli	a0, s3, 8
	sb	s4, 20(s0)
	sb	s1, 21(s0)
	sb	a3, 22(s0)
	sb	a5, 23(s0)
	sb	s3, 16(s0)
	sb	a0, 17(s0)
	sb	a1, 18(s0)
.LBB27_7:
	sb	a2, 19(s0)
.LBB27_8:
	lw	ra, 92(sp)
	lw	s0, 88(sp)
	lw	s1, 84(sp)
	lw	s2, 80(sp)
	lw	s3, 76(sp)
	lw	s4, 72(sp)
	lw	s5, 68(sp)
	lw	s6, 64(sp)
	lw	s7, 60(sp)
	.cfi_restore ra
	.cfi_restore s0
	.cfi_restore s1
	.cfi_restore s2
	.cfi_restore s3
	.cfi_restore s4
	.cfi_restore s5
	.cfi_restore s6
	.cfi_restore s7
	addi	sp, sp, 96
	.cfi_def_cfa_offset 0
	ret
.LBB27_9:
	.cfi_restore_state
	srli	a1, s1, 24
	srli	a2, s1, 16
	srli	a3, s1, 8
	srli	a6, s2, 24
	srli	a5, s2, 16
	srli	a4, s2, 8
	addi	a0, s0, 8
	sb	s1, 0(s0)
	sb	a3, 1(s0)
	sb	a2, 2(s0)
	sb	a1, 3(s0)
	li	a2, 16
	sb	s2, 4(s0)
	sb	a4, 5(s0)
	sb	a5, 6(s0)
	j	.LBB27_11
.LBB27_10:
	srli	a7, a3, 24
	srli	a2, a3, 16
	srli	a5, a3, 8
	srli	a6, a4, 24
	srli	s1, a4, 16
	srli	a1, a4, 8
	addi	a0, s0, 8
	sb	a3, 0(s0)
	sb	a5, 1(s0)
	sb	a2, 2(s0)
	sb	a7, 3(s0)
	li	a2, 16
	sb	a4, 4(s0)
	sb	a1, 5(s0)
	sb	s1, 6(s0)
.LBB27_11:
	sb	a6, 7(s0)
	li	a1, 0
	li	a3, 0
	li	a4, 0
	lw	ra, 92(sp)
	lw	s0, 88(sp)
	lw	s1, 84(sp)
	lw	s2, 80(sp)
	lw	s3, 76(sp)
	lw	s4, 72(sp)
	lw	s5, 68(sp)
	lw	s6, 64(sp)
	lw	s7, 60(sp)
	.cfi_restore ra
	.cfi_restore s0
	.cfi_restore s1
	.cfi_restore s2
	.cfi_restore s3
	.cfi_restore s4
	.cfi_restore s5
	.cfi_restore s6
	.cfi_restore s7
	addi	sp, sp, 96
	.cfi_def_cfa_offset 0
	tail	ic.clear
.Lfunc_end27:
	.size	ic_list_algorithms.sort.sort_front.6bd71b5c7308988e, .Lfunc_end27-ic_list_algorithms.sort.sort_front.6bd71b5c7308988e
	.cfi_endproc
	.section	.text.unlikely.ic_raw.list_calls.split_slow.5386baa488213e47,"ax",@progbits
	.p2align	1
	.type	ic_raw.list_calls.split_slow.5386baa488213e47,@function
ic_raw.list_calls.split_slow.5386baa488213e47:
	.cfi_startproc
	addi	sp, sp, -32
	.cfi_def_cfa_offset 32
	sw	s0, 28(sp)
	sw	s1, 24(sp)
	sw	s2, 20(sp)
	sw	s3, 16(sp)
	sw	s4, 12(sp)
	sw	s5, 8(sp)
	sw	s6, 4(sp)
	sw	s7, 0(sp)
	.cfi_offset s0, -4
	.cfi_offset s1, -8
	.cfi_offset s2, -12
	.cfi_offset s3, -16
	.cfi_offset s4, -20
	.cfi_offset s5, -24
	.cfi_offset s6, -28
	.cfi_offset s7, -32
	.cfi_remember_state
	lw	s1, 4(a5)
	lw	s0, 0(a5)
	andi	s1, s1, 15
	andi	s0, s0, -8
	or	s0, s0, s1
	bnez	s0, .LBB28_30
	lw	s1, 12(a5)
	lw	s0, 8(a5)
	li	s2, 15
	li	s3, -8
	and	s1, s1, s2
	and	s0, s0, s3
	or	s0, s0, s1
	bnez	s0, .LBB28_30
	lw	t0, 0(a3)
	lw	s1, 4(a3)
	lw	t2, 8(a3)
	lw	s0, 12(a3)
	addi	s7, a4, 1
	srli	t5, s7, 29
	slli	t6, s7, 3
	andi	a7, s1, 15
	andi	t0, t0, -8
	andi	t1, s0, 15
	andi	t2, t2, -8
	andi	a6, a6, 1
	beqz	s7, .LBB28_7
	sltu	s1, a1, s7
	seqz	s0, a2
	and	s0, s0, s1
	bnez	s0, .LBB28_30
	slli	s0, t6, 1
	add	s0, s0, a0
	lw	t3, -16(s0)
	andi	s1, t3, 1
	beqz	s1, .LBB28_30
	beqz	a6, .LBB28_11
	lw	s1, -4(s0)
	lw	s0, -8(s0)
	and	t3, s1, s2
	and	t4, s0, s3
	j	.LBB28_8
.LBB28_7:
	mv	s6, t0
	mv	s5, a7
	mv	t4, t2
	mv	t3, t1
	beqz	a6, .LBB28_12
.LBB28_8:
	or	s0, t4, t3
	snez	s4, s7
	beqz	s0, .LBB28_15
	srli	s0, t3, 3
	beq	s0, a2, .LBB28_17
	sltu	s0, a2, s0
	j	.LBB28_18
.LBB28_11:
	lw	s1, -12(s0)
	and	s6, t3, s3
	and	s5, s1, s2
.LBB28_12:
	or	t3, s6, s5
	mv	s0, t2
	mv	t4, t1
	beqz	t3, .LBB28_24
	srli	s0, s5, 3
	beq	s0, a2, .LBB28_20
	sltu	s0, a2, s0
	j	.LBB28_21
.LBB28_15:
	xor	s1, t0, t6
	xor	s0, a7, t5
	or	s0, s0, s1
	bnez	s0, .LBB28_30
	li	t4, 0
	li	t3, 0
	mv	s6, t0
	mv	s5, a7
	j	.LBB28_32
.LBB28_17:
	srli	s0, t4, 3
	slli	s1, t3, 29
	or	s0, s0, s1
	sltu	s0, a1, s0
.LBB28_18:
	bnez	s0, .LBB28_30
	slli	s0, t4, 1
	addi	s3, s3, 1
	add	s0, s0, a0
	lw	s5, -16(s0)
	lw	s0, -12(s0)
	seqz	s1, s3
	add	s1, s1, s2
	addi	s2, t6, 1
	and	s0, s0, s1
	and	s1, s5, s3
	xor	s0, s0, t5
	xor	s1, s1, s2
	or	s0, s0, s1
	beqz	s0, .LBB28_27
	j	.LBB28_30
.LBB28_20:
	srli	s1, s6, 3
	slli	s0, s5, 29
	or	s0, s0, s1
	sltu	s0, a1, s0
.LBB28_21:
	bnez	s0, .LBB28_30
	slli	s0, s6, 1
	add	s0, s0, a0
	lbu	s1, -16(s0)
	andi	s1, s1, 1
	beqz	s1, .LBB28_30
	lw	s1, -4(s0)
	lw	s0, -8(s0)
	and	t4, s1, s2
	and	s0, s0, s3
.LBB28_24:
	xor	s0, s0, t6
	xor	s1, t4, t5
	or	s0, s0, s1
	bnez	s0, .LBB28_30
	snez	s4, t3
	beqz	s7, .LBB28_31
	mv	t4, t6
	mv	t3, t5
	mv	t6, s6
	mv	t5, s5
.LBB28_27:
	slli	a1, t4, 1
	li	a2, 1
	add	a1, a1, a0
	sw	a2, -16(a1)
	sw	zero, -12(a1)
	mv	s6, t6
	mv	s5, t5
	beqz	s4, .LBB28_33
.LBB28_28:
	slli	a1, s6, 1
	add	a0, a0, a1
	sw	zero, -8(a0)
	sw	zero, -4(a0)
	beqz	a6, .LBB28_34
.LBB28_29:
	mv	a1, s6
	mv	a4, s5
	mv	a0, t2
	mv	a2, t1
	j	.LBB28_35
.LBB28_30:
	mv	a3, a4
	lw	s0, 28(sp)
	lw	s1, 24(sp)
	lw	s2, 20(sp)
	lw	s3, 16(sp)
	lw	s4, 12(sp)
	lw	s5, 8(sp)
	lw	s6, 4(sp)
	lw	s7, 0(sp)
	.cfi_restore s0
	.cfi_restore s1
	.cfi_restore s2
	.cfi_restore s3
	.cfi_restore s4
	.cfi_restore s5
	.cfi_restore s6
	.cfi_restore s7
	addi	sp, sp, 32
	.cfi_def_cfa_offset 0
	tail	ic_raw.table.RawTable.refusal_at.85cd03e557136797
.LBB28_31:
	.cfi_restore_state
	li	t4, 0
	li	t3, 0
.LBB28_32:
	li	t0, 0
	li	a7, 0
	bnez	s4, .LBB28_28
.LBB28_33:
	li	s6, 0
	li	s5, 0
	li	t2, 0
	li	t1, 0
	bnez	a6, .LBB28_29
.LBB28_34:
	mv	a1, t0
	mv	a4, a7
	mv	a0, t4
	mv	a2, t3
	mv	t0, s6
	mv	a7, s5
	mv	t4, t2
	mv	t3, t1
.LBB28_35:
	sb	a4, 4(a3)
	sb	zero, 5(a3)
	sb	zero, 6(a3)
	sb	zero, 7(a3)
	srli	a6, a1, 24
	srli	t1, a1, 16
	srli	s0, a1, 8
	sb	a2, 12(a3)
	sb	zero, 13(a3)
	sb	zero, 14(a3)
	sb	zero, 15(a3)
	srli	t6, a0, 24
	srli	a4, a0, 16
	srli	s1, a0, 8
	srli	t2, t0, 16
	srli	t5, t0, 24
	srli	a2, t0, 8
	sb	a1, 0(a3)
	sb	s0, 1(a3)
	sb	t1, 2(a3)
	sb	a6, 3(a3)
	srli	a1, t4, 16
	sb	a0, 8(a3)
	sb	s1, 9(a3)
	sb	a4, 10(a3)
	sb	t6, 11(a3)
	srli	a0, t4, 24
	srli	a3, t4, 8
	sb	t0, 0(a5)
	sb	a2, 1(a5)
	sb	t2, 2(a5)
	sb	t5, 3(a5)
	sb	a7, 4(a5)
	sb	zero, 5(a5)
	sb	zero, 6(a5)
	sb	zero, 7(a5)
	sb	t4, 8(a5)
	sb	a3, 9(a5)
	sb	a1, 10(a5)
	sb	a0, 11(a5)
	sb	t3, 12(a5)
	sb	zero, 13(a5)
	sb	zero, 14(a5)
	sb	zero, 15(a5)
	li	a0, 0
	lw	s0, 28(sp)
	lw	s1, 24(sp)
	lw	s2, 20(sp)
	lw	s3, 16(sp)
	lw	s4, 12(sp)
	lw	s5, 8(sp)
	lw	s6, 4(sp)
	lw	s7, 0(sp)
	.cfi_restore s0
	.cfi_restore s1
	.cfi_restore s2
	.cfi_restore s3
	.cfi_restore s4
	.cfi_restore s5
	.cfi_restore s6
	.cfi_restore s7
	addi	sp, sp, 32
	.cfi_def_cfa_offset 0
	ret
.Lfunc_end28:
	.size	ic_raw.list_calls.split_slow.5386baa488213e47, .Lfunc_end28-ic_raw.list_calls.split_slow.5386baa488213e47
	.cfi_endproc
	.section	.text.ic_raw_lists.transfer_calls.transfer_at.5386baa488213e47,"ax",@progbits
	.p2align	1
	.type	ic_raw_lists.transfer_calls.transfer_at.5386baa488213e47,@function
ic_raw_lists.transfer_calls.transfer_at.5386baa488213e47:
	.cfi_startproc
	addi	sp, sp, -96
	.cfi_def_cfa_offset 96
	sw	ra, 92(sp)
	sw	s0, 88(sp)
	sw	s1, 84(sp)
	sw	s2, 80(sp)
	sw	s3, 76(sp)
	sw	s4, 72(sp)
	sw	s5, 68(sp)
	sw	s6, 64(sp)
	sw	s7, 60(sp)
	sw	s8, 56(sp)
	sw	s9, 52(sp)
	sw	s10, 48(sp)
	sw	s11, 44(sp)
	.cfi_offset ra, -4
	.cfi_offset s0, -8
	.cfi_offset s1, -12
	.cfi_offset s2, -16
	.cfi_offset s3, -20
	.cfi_offset s4, -24
	.cfi_offset s5, -28
	.cfi_offset s6, -32
	.cfi_offset s7, -36
	.cfi_offset s8, -40
	.cfi_offset s9, -44
	.cfi_offset s10, -48
	.cfi_offset s11, -52
	.cfi_remember_state
	addi	s7, a7, 1
	bnez	s7, .LBB29_2
	li	a0, 4
	j	.LBB29_55
.LBB29_2:
	li	s3, 15
	li	s2, -8
	lw	t0, 0(a3)
	lw	s0, 4(a3)
	lw	t2, 8(a3)
	lw	t3, 12(a3)
	lw	s10, 0(a6)
	lw	s5, 4(a6)
	lw	t1, 8(a6)
	lw	s6, 12(a6)
	sw	a5, 8(sp)
	addi	s1, a5, 1
	srli	t6, s1, 29
	slli	t5, s1, 3
	snez	a5, s1
	sw	a5, 40(sp)
	andi	s8, s0, 15
	andi	a5, t0, -8
	andi	t3, t3, 15
	andi	s0, t2, -8
	seqz	t0, a2
	sw	s0, 12(sp)
	sw	t3, 16(sp)
	sw	s8, 32(sp)
	sw	a5, 28(sp)
	beqz	s1, .LBB29_7
	sltu	s1, a1, s1
	and	s1, t0, s1
	bnez	s1, .LBB29_56
	slli	s1, t5, 1
	add	s1, s1, a0
	lw	t2, -16(s1)
	andi	s0, t2, 1
	beqz	s0, .LBB29_56
	andi	a4, a4, 1
	beqz	a4, .LBB29_11
	lw	a4, -4(s1)
	lw	s1, -8(s1)
	and	t2, a4, s3
	and	s1, s1, s2
	j	.LBB29_8
.LBB29_7:
	andi	a4, a4, 1
	mv	s1, s0
	mv	t2, t3
	beqz	a4, .LBB29_12
.LBB29_8:
	or	a4, s1, t2
	beqz	a4, .LBB29_15
	srli	a4, t2, 3
	beq	a4, a2, .LBB29_17
	sltu	a4, a2, a4
	j	.LBB29_18
.LBB29_11:
	lw	a4, -12(s1)
	and	a5, t2, s2
	and	s8, a4, s3
	lw	s0, 12(sp)
.LBB29_12:
	or	a4, a5, s8
	lw	s1, 16(sp)
	sw	a5, 24(sp)
	beqz	a4, .LBB29_25
	srli	s1, s8, 3
	beq	s1, a2, .LBB29_21
	sltu	s1, a2, s1
	j	.LBB29_22
.LBB29_15:
	lw	a4, 28(sp)
	xor	a4, a4, t5
	lw	a5, 32(sp)
	xor	s1, a5, t6
	or	a4, a4, s1
	bnez	a4, .LBB29_56
	li	t5, 0
	li	t6, 0
	sw	zero, 20(sp)
	lw	a4, 28(sp)
	sw	a4, 24(sp)
	lw	s8, 32(sp)
	j	.LBB29_27
.LBB29_17:
	srli	a4, s1, 3
	slli	s0, t2, 29
	or	a4, a4, s0
	sltu	a4, a1, a4
.LBB29_18:
	bnez	a4, .LBB29_56
	slli	a4, s1, 1
	add	a4, a4, a0
	lw	t4, -16(a4)
	lw	a4, -12(a4)
	addi	t3, s2, 1
	seqz	s0, t3
	add	s0, s0, s3
	and	a4, a4, s0
	addi	s4, t5, 1
	and	s0, t4, t3
	xor	a4, a4, t6
	xor	s0, s0, s4
	or	a4, a4, s0
	bnez	a4, .LBB29_56
	li	a4, 1
	sw	a4, 20(sp)
	sw	t5, 24(sp)
	mv	s8, t6
	mv	t5, s1
	mv	t6, t2
	j	.LBB29_27
.LBB29_21:
	srli	s1, a5, 3
	slli	s0, s8, 29
	or	s0, s0, s1
	sltu	s1, a1, s0
.LBB29_22:
	bnez	s1, .LBB29_56
	lw	s1, 24(sp)
	slli	s1, s1, 1
	add	s1, s1, a0
	lbu	s0, -16(s1)
	andi	s0, s0, 1
	beqz	s0, .LBB29_56
	lw	s0, -4(s1)
	lw	t2, -8(s1)
	and	s1, s0, s3
	and	s0, t2, s2
.LBB29_25:
	xor	s0, s0, t5
	xor	s1, s1, t6
	or	s0, s0, s1
	bnez	s0, .LBB29_56
	snez	a4, a4
	lw	a5, 40(sp)
	sw	a5, 20(sp)
	sw	a4, 40(sp)
.LBB29_27:
	sltu	a4, a1, s7
	and	a4, t0, a4
	bnez	a4, .LBB29_56
	slli	s11, s7, 3
	slli	t2, s11, 1
	add	t2, t2, a0
	lw	s0, -16(t2)
	andi	a4, s0, 1
	beqz	a4, .LBB29_56
	lw	t0, -12(t2)
	lw	a4, -8(t2)
	lw	s1, -4(t2)
	srli	s7, s7, 29
	andi	a5, s5, 15
	andi	s9, s10, -8
	and	ra, s1, s3
	and	s4, a4, s2
	or	t3, s4, ra
	slli	a4, s4, 1
	sw	a4, 4(sp)
	sw	a5, 36(sp)
	beqz	t3, .LBB29_32
	srli	a4, ra, 3
	beq	a4, a2, .LBB29_33
	sltu	a4, a2, a4
	j	.LBB29_34
.LBB29_32:
	xor	a4, s9, s11
	xor	a5, a5, s7
	or	a4, a4, a5
	beqz	a4, .LBB29_36
	j	.LBB29_56
.LBB29_33:
	srli	a4, s4, 3
	slli	s1, ra, 29
	or	a4, a4, s1
	sltu	a4, a1, a4
.LBB29_34:
	bnez	a4, .LBB29_56
	lw	a4, 4(sp)
	add	a4, a4, a0
	lw	s1, -16(a4)
	lw	a4, -12(a4)
	addi	t4, s2, 1
	seqz	a5, t4
	add	a5, a5, s3
	and	a4, a4, a5
	and	s1, s1, t4
	xor	a4, a4, s7
	addi	a5, s11, 1
	xor	a5, a5, s1
	or	a4, a4, a5
	bnez	a4, .LBB29_56
.LBB29_36:
	andi	a5, s6, 15
	andi	t1, t1, -8
	and	s10, s0, s2
	and	s5, t0, s3
	or	s6, s10, s5
	slli	t4, s10, 1
	mv	a4, t1
	sw	a5, 0(sp)
	mv	s0, a5
	beqz	s6, .LBB29_43
	srli	a4, s5, 3
	beq	a4, a2, .LBB29_39
	sltu	a4, a2, a4
	j	.LBB29_40
.LBB29_39:
	srli	a4, s10, 3
	slli	a5, s5, 29
	or	a4, a4, a5
	sltu	a4, a1, a4
.LBB29_40:
	bnez	a4, .LBB29_56
	add	a4, a0, t4
	lbu	a5, -16(a4)
	andi	a5, a5, 1
	beqz	a5, .LBB29_56
	lw	a5, -4(a4)
	lw	a4, -8(a4)
	and	s0, a5, s3
	and	a4, a4, s2
.LBB29_43:
	xor	a4, a4, s11
	xor	a5, s0, s7
	or	a4, a4, a5
	bnez	a4, .LBB29_56
	lw	a4, 36(sp)
	or	a4, s9, a4
	beqz	a4, .LBB29_46
	lw	a4, 28(sp)
	xor	a4, a4, s9
	lw	a5, 32(sp)
	lw	s1, 36(sp)
	xor	a5, a5, s1
	or	a4, a4, a5
	beqz	a4, .LBB29_56
.LBB29_46:
	lw	a4, 20(sp)
	seqz	a4, a4
	addi	a4, a4, -1
	and	s2, a4, t5
	and	t6, a4, t6
	xor	a4, t6, s7
	xor	a5, s2, s11
	or	a4, a4, a5
	beqz	a4, .LBB29_56
	lw	a4, 40(sp)
	seqz	a4, a4
	addi	a4, a4, -1
	lw	a5, 24(sp)
	and	t0, a4, a5
	and	s3, a4, s8
	xor	a4, s3, s7
	xor	a5, t0, s11
	or	a4, a4, a5
	beqz	a4, .LBB29_56
	seqz	a2, t3
	seqz	a1, s6
	bnez	a2, .LBB29_57
	lw	a2, 4(sp)
	add	a2, a2, a0
	addi	s10, s10, 1
	sw	s10, -16(a2)
	sw	s5, -12(a2)
	lw	a4, 32(sp)
	lw	a5, 28(sp)
	bnez	a1, .LBB29_58
.LBB29_50:
	add	t4, t4, a0
	sw	s4, -8(t4)
	sw	ra, -4(t4)
	lw	ra, 0(sp)
	mv	a2, s11
	mv	a7, s7
	lw	a1, 20(sp)
	beqz	a1, .LBB29_52
.LBB29_51:
	slli	t5, t5, 1
	add	t5, t5, a0
	addi	a1, s11, 1
	sw	a1, -16(t5)
	sw	s7, -12(t5)
	mv	a2, a5
	mv	a7, a4
.LBB29_52:
	lw	a1, 40(sp)
	beqz	a1, .LBB29_54
	lw	a4, 24(sp)
	slli	a4, a4, 1
	add	a0, a0, a4
	sw	s11, -8(a0)
	sw	s7, -4(a0)
	lw	s11, 12(sp)
	lw	s7, 16(sp)
.LBB29_54:
	li	a0, 0
	addi	t0, t0, 1
	srli	s4, a2, 24
	srli	a5, a2, 16
	srli	s1, a2, 8
	srli	t3, s11, 24
	srli	t4, s11, 16
	srli	s6, s11, 8
	srli	t5, s9, 16
	srli	s5, s9, 24
	seqz	a4, t0
	add	a4, a4, s3
	srli	a1, s9, 8
	sw	t0, -16(t2)
	sw	a4, -12(t2)
	sw	s2, -8(t2)
	sw	t6, -4(t2)
	srli	a4, t1, 16
	srli	s0, t1, 24
	sb	a2, 0(a3)
	sb	s1, 1(a3)
	sb	a5, 2(a3)
	sb	s4, 3(a3)
	srli	a2, t1, 8
	sb	a7, 4(a3)
	sb	zero, 5(a3)
	sb	zero, 6(a3)
	sb	zero, 7(a3)
	sb	s7, 12(a3)
	sb	zero, 13(a3)
	sb	zero, 14(a3)
	sb	zero, 15(a3)
	sb	s11, 8(a3)
	sb	s6, 9(a3)
	sb	t4, 10(a3)
	sb	t3, 11(a3)
	sb	s9, 0(a6)
	sb	a1, 1(a6)
	sb	t5, 2(a6)
	sb	s5, 3(a6)
	lw	a1, 36(sp)
	sb	a1, 4(a6)
	sb	zero, 5(a6)
	sb	zero, 6(a6)
	sb	zero, 7(a6)
	sb	t1, 8(a6)
	sb	a2, 9(a6)
	sb	a4, 10(a6)
	sb	s0, 11(a6)
	sb	ra, 12(a6)
	sb	zero, 13(a6)
	sb	zero, 14(a6)
	sb	zero, 15(a6)
.LBB29_55:
	lw	ra, 92(sp)
	lw	s0, 88(sp)
	lw	s1, 84(sp)
	lw	s2, 80(sp)
	lw	s3, 76(sp)
	lw	s4, 72(sp)
	lw	s5, 68(sp)
	lw	s6, 64(sp)
	lw	s7, 60(sp)
	lw	s8, 56(sp)
	lw	s9, 52(sp)
	lw	s10, 48(sp)
	lw	s11, 44(sp)
	.cfi_restore ra
	.cfi_restore s0
	.cfi_restore s1
	.cfi_restore s2
	.cfi_restore s3
	.cfi_restore s4
	.cfi_restore s5
	.cfi_restore s6
	.cfi_restore s7
	.cfi_restore s8
	.cfi_restore s9
	.cfi_restore s10
	.cfi_restore s11
	addi	sp, sp, 96
	.cfi_def_cfa_offset 0
	ret
.LBB29_56:
	.cfi_restore_state
	.cfi_remember_state
	lw	a3, 8(sp)
	mv	a4, a7
	lw	ra, 92(sp)
	lw	s0, 88(sp)
	lw	s1, 84(sp)
	lw	s2, 80(sp)
	lw	s3, 76(sp)
	lw	s4, 72(sp)
	lw	s5, 68(sp)
	lw	s6, 64(sp)
	lw	s7, 60(sp)
	lw	s8, 56(sp)
	lw	s9, 52(sp)
	lw	s10, 48(sp)
	lw	s11, 44(sp)
	.cfi_restore ra
	.cfi_restore s0
	.cfi_restore s1
	.cfi_restore s2
	.cfi_restore s3
	.cfi_restore s4
	.cfi_restore s5
	.cfi_restore s6
	.cfi_restore s7
	.cfi_restore s8
	.cfi_restore s9
	.cfi_restore s10
	.cfi_restore s11
	addi	sp, sp, 96
	.cfi_def_cfa_offset 0
	tail	ic_raw.table.RawTable.refusal_at_both.85cd03e557136797
.LBB29_57:
	.cfi_restore_state
	mv	s9, s10
	sw	s5, 36(sp)
	lw	a4, 32(sp)
	lw	a5, 28(sp)
	beqz	a1, .LBB29_50
.LBB29_58:
	mv	t1, s4
	mv	a2, s11
	mv	a7, s7
	lw	a1, 20(sp)
	bnez	a1, .LBB29_51
	j	.LBB29_52
.Lfunc_end29:
	.size	ic_raw_lists.transfer_calls.transfer_at.5386baa488213e47, .Lfunc_end29-ic_raw_lists.transfer_calls.transfer_at.5386baa488213e47
	.cfi_endproc
	.section	.text.unlikely.ic_raw.table.refusal_at_end.05a19227735374d3,"ax",@progbits
	.p2align	1
	.type	ic_raw.table.refusal_at_end.05a19227735374d3,@function
ic_raw.table.refusal_at_end.05a19227735374d3:
	.cfi_startproc
	mv	a4, a3
	li	a3, -1
	tail	ic_raw.table.RawTable.refusal.05a19227735374d3
.Lfunc_end30:
	.size	ic_raw.table.refusal_at_end.05a19227735374d3, .Lfunc_end30-ic_raw.table.refusal_at_end.05a19227735374d3
	.cfi_endproc
	.section	.text.ic_raw.ring_calls.move_beside.5b268f449b4ebf83,"ax",@progbits
	.p2align	1
	.type	ic_raw.ring_calls.move_beside.5b268f449b4ebf83,@function
ic_raw.ring_calls.move_beside.5b268f449b4ebf83:
	.cfi_startproc
	addi	sp, sp, -16
	.cfi_def_cfa_offset 16
	sw	s0, 12(sp)
	sw	s1, 8(sp)
	sw	s2, 4(sp)
	sw	s3, 0(sp)
	.cfi_offset s0, -4
	.cfi_offset s1, -8
	.cfi_offset s2, -12
	.cfi_offset s3, -16
	.cfi_remember_state
	addi	s2, a4, 1
	li	a6, 4
	beqz	s2, .LBB31_30
	addi	t3, a5, 1
	beqz	t3, .LBB31_30
	seqz	t4, a2
	lui	s1, 131072
	addi	s0, t4, -1
	or	t5, s0, a1
	addi	s1, s1, -1
	bltu	t5, s1, .LBB31_4
	mv	t5, s1
.LBB31_4:
	bltu	t5, t3, .LBB31_28
	slli	a7, t3, 3
	add	t0, a0, a7
	lw	t6, -8(t0)
	andi	s1, t6, 1
	beqz	s1, .LBB31_28
	lw	s0, -4(t0)
	andi	t1, s0, -8
	beqz	t1, .LBB31_28
	srli	s0, s0, 3
	sltu	s1, a1, s0
	and	s1, t4, s1
	bnez	s1, .LBB31_28
	add	t2, a0, t1
	lw	s1, -8(t2)
	andi	s0, s1, 1
	beqz	s0, .LBB31_28
	srli	a6, t3, 29
	andi	s1, s1, -8
	xor	s1, a7, s1
	or	s1, s1, a6
	bnez	s1, .LBB31_28
	andi	t3, t6, -8
	beqz	t3, .LBB31_28
	srli	s1, t6, 3
	sltu	s1, a1, s1
	and	s1, t4, s1
	bnez	s1, .LBB31_28
	add	t4, a0, t3
	lbu	s1, -8(t4)
	andi	s1, s1, 1
	beqz	s1, .LBB31_28
	lw	s1, -4(t4)
	andi	s1, s1, -8
	xor	s1, a7, s1
	or	s1, s1, a6
	bnez	s1, .LBB31_28
	srli	s3, s2, 29
	slli	t6, s2, 3
	xor	s0, t6, a7
	xor	s1, s3, a6
	or	s0, s0, s1
	beqz	s0, .LBB31_27
	bltu	t5, s2, .LBB31_28
	add	s2, a0, t6
	lw	s1, -8(s2)
	andi	s0, s1, 1
	beqz	s0, .LBB31_28
	andi	a3, a3, 1
	beqz	a3, .LBB31_22
	lw	s0, -4(s2)
	andi	s2, s0, -8
	beqz	s2, .LBB31_28
	srli	s0, s0, 3
	bltu	t5, s0, .LBB31_28
	add	a3, a0, s2
	lw	s1, -8(a3)
	andi	a3, s1, 1
	beqz	a3, .LBB31_28
	andi	s1, s1, -8
	xor	a3, t6, s1
	or	a3, a3, s3
	mv	s1, s2
	beqz	a3, .LBB31_26
	j	.LBB31_28
.LBB31_22:
	andi	s2, s1, -8
	beqz	s2, .LBB31_28
	srli	s1, s1, 3
	bltu	t5, s1, .LBB31_28
	add	s1, a0, s2
	lbu	s0, -8(s1)
	andi	s0, s0, 1
	beqz	s0, .LBB31_28
	lw	s1, -4(s1)
	andi	s1, s1, -8
	xor	s1, t6, s1
	or	s0, s1, s3
	mv	s1, t6
	mv	t6, s2
	bnez	s0, .LBB31_28
.LBB31_26:
	xor	a1, s2, a7
	or	a1, a1, a6
	bnez	a1, .LBB31_29
.LBB31_27:
	li	a6, 0
	j	.LBB31_30
.LBB31_28:
	mv	a3, a4
	mv	a4, a5
	lw	s0, 12(sp)
	lw	s1, 8(sp)
	lw	s2, 4(sp)
	lw	s3, 0(sp)
	.cfi_restore s0
	.cfi_restore s1
	.cfi_restore s2
	.cfi_restore s3
	addi	sp, sp, 16
	.cfi_def_cfa_offset 0
	tail	ic_raw.table.RawTable.refusal_at_both.05a19227735374d3
.LBB31_29:
	.cfi_restore_state
	li	a6, 0
	addi	t3, t3, 1
	sw	t3, -8(t2)
	addi	a1, t6, 1
	sw	t1, -4(t4)
	add	a2, a0, s1
	addi	a3, a7, 1
	add	a0, a0, t6
	sw	a1, -8(t0)
	sw	s1, -4(t0)
	sw	a3, -8(a2)
	sw	a7, -4(a0)
.LBB31_30:
	mv	a0, a6
	lw	s0, 12(sp)
	lw	s1, 8(sp)
	lw	s2, 4(sp)
	lw	s3, 0(sp)
	.cfi_restore s0
	.cfi_restore s1
	.cfi_restore s2
	.cfi_restore s3
	addi	sp, sp, 16
	.cfi_def_cfa_offset 0
	ret
.Lfunc_end31:
	.size	ic_raw.ring_calls.move_beside.5b268f449b4ebf83, .Lfunc_end31-ic_raw.ring_calls.move_beside.5b268f449b4ebf83
	.cfi_endproc
	.section	.text.ic_raw.ring_calls.pop.5b268f449b4ebf83,"ax",@progbits
	.p2align	1
	.type	ic_raw.ring_calls.pop.5b268f449b4ebf83,@function
ic_raw.ring_calls.pop.5b268f449b4ebf83:
	.cfi_startproc
	addi	a4, a4, 1
	bnez	a4, .LBB32_2
	li	a0, 4
	ret
.LBB32_2:
	addi	sp, sp, -32
	.cfi_def_cfa_offset 32
	sw	ra, 28(sp)
	.cfi_offset ra, -4
	.cfi_remember_state
	seqz	a6, a2
	lui	a7, 131072
	addi	t0, a6, -1
	addi	a7, a7, -1
	or	t2, t0, a1
	sw	a0, 8(sp)
	sw	zero, 12(sp)
	sw	a1, 16(sp)
	sw	a2, 20(sp)
	bltu	t2, a7, .LBB32_4
	mv	t2, a7
.LBB32_4:
	srli	a2, a4, 29
	slli	a7, a4, 3
	bltu	t2, a4, .LBB32_26
	add	t0, a0, a7
	lw	t1, -8(t0)
	andi	a4, t1, 1
	beqz	a4, .LBB32_26
	andi	a3, a3, 1
	beqz	a3, .LBB32_11
	lw	a4, -4(t0)
	andi	t5, a4, -8
	beqz	t5, .LBB32_26
	srli	a4, a4, 3
	bltu	t2, a4, .LBB32_26
	add	a4, a0, t5
	lw	t0, -8(a4)
	andi	a4, t0, 1
	beqz	a4, .LBB32_26
	andi	a4, t0, -8
	xor	a4, a7, a4
	or	a4, a4, a2
	beqz	a4, .LBB32_15
	j	.LBB32_26
.LBB32_11:
	andi	t5, t1, -8
	beqz	t5, .LBB32_26
	srli	a4, t1, 3
	bltu	t2, a4, .LBB32_26
	add	t1, a0, t5
	lw	t0, -8(t1)
	andi	a4, t0, 1
	beqz	a4, .LBB32_26
	lw	a4, -4(t1)
	andi	a4, a4, -8
	xor	a4, a7, a4
	or	a4, a4, a2
	bnez	a4, .LBB32_26
.LBB32_15:
	xor	a4, t5, a7
	or	a4, a4, a2
	beqz	a4, .LBB32_26
	srli	t1, t5, 3
	bltu	t2, t1, .LBB32_26
	add	t2, a0, t5
	lw	a4, -4(t2)
	andi	t4, a4, -8
	beqz	t4, .LBB32_26
	srli	a4, a4, 3
	sltu	a4, a1, a4
	and	a4, a6, a4
	bnez	a4, .LBB32_26
	add	t3, a0, t4
	lw	a3, -8(t3)
	andi	a4, a3, 1
	beqz	a4, .LBB32_26
	andi	a3, a3, -8
	bne	t5, a3, .LBB32_26
	andi	a4, t0, -8
	beqz	a4, .LBB32_26
	srli	a3, t0, 3
	sltu	a1, a1, a3
	and	a1, a6, a1
	bnez	a1, .LBB32_26
	add	a1, a0, a4
	lbu	a0, -8(a1)
	andi	a0, a0, 1
	beqz	a0, .LBB32_26
	lw	a0, -4(a1)
	andi	a0, a0, -8
	bne	t5, a0, .LBB32_26
	li	a0, 0
	addi	a4, a4, 1
	sw	a4, -8(t3)
	addi	t1, t1, -1
	sw	t4, -4(a1)
	sw	zero, -8(t2)
	sw	t1, 0(a5)
	lw	ra, 28(sp)
	.cfi_restore ra
	addi	sp, sp, 32
	.cfi_def_cfa_offset 0
	ret
.LBB32_26:
	.cfi_restore_state
	addi	a0, sp, 8
	mv	a1, a7
	call	ic_raw.ring_calls.refusal_to_pop.5b268f449b4ebf83
	lw	ra, 28(sp)
	.cfi_restore ra
	addi	sp, sp, 32
	.cfi_def_cfa_offset 0
	ret
.Lfunc_end32:
	.size	ic_raw.ring_calls.pop.5b268f449b4ebf83, .Lfunc_end32-ic_raw.ring_calls.pop.5b268f449b4ebf83
	.cfi_endproc
	.section	.text.unlikely.ic_raw.ring_calls.refusal_to_pop.5b268f449b4ebf83,"ax",@progbits
	.p2align	1
	.type	ic_raw.ring_calls.refusal_to_pop.5b268f449b4ebf83,@function
ic_raw.ring_calls.refusal_to_pop.5b268f449b4ebf83:
	.cfi_startproc
	lw	a7, 8(a0)
	lw	a4, 12(a0)
	slli	a5, a2, 29
	srli	a3, a1, 3
	or	a6, a3, a5
	lui	a3, 131072
	seqz	a4, a4
	addi	a4, a4, -1
	or	a5, a4, a7
	addi	a3, a3, -1
	srli	a4, a2, 3
	bltu	a5, a3, .LBB33_2
	mv	a5, a3
.LBB33_2:
	sltu	a3, a5, a6
	snez	a4, a4
	or	a3, a3, a4
	bnez	a3, .LBB33_7
	lw	a3, 0(a0)
	add	a3, a3, a1
	lw	a4, -8(a3)
	andi	a5, a4, 1
	beqz	a5, .LBB33_7
	andi	a4, a4, -8
	xor	a4, a4, a1
	or	a4, a4, a2
	bnez	a4, .LBB33_7
	lw	a3, -4(a3)
	andi	a3, a3, -8
	xor	a3, a3, a1
	or	a3, a3, a2
	bnez	a3, .LBB33_7
	li	a0, 4
	ret
.LBB33_7:
	tail	ic_raw.table.RawTable.refusal_of.05a19227735374d3
.Lfunc_end33:
	.size	ic_raw.ring_calls.refusal_to_pop.5b268f449b4ebf83, .Lfunc_end33-ic_raw.ring_calls.refusal_to_pop.5b268f449b4ebf83
	.cfi_endproc
	.section	.text.unlikely.ic_raw.table.RawTable.refusal_of.05a19227735374d3,"ax",@progbits
	.p2align	1
	.type	ic_raw.table.RawTable.refusal_of.05a19227735374d3,@function
ic_raw.table.RawTable.refusal_of.05a19227735374d3:
	.cfi_startproc
	lw	a6, 8(a0)
	lw	a5, 12(a0)
	slli	a4, a2, 29
	srli	a3, a1, 3
	or	a3, a3, a4
	lui	a7, 131072
	seqz	a4, a5
	addi	a4, a4, -1
	or	a4, a4, a6
	addi	a5, a7, -1
	srli	a2, a2, 3
	bltu	a4, a5, .LBB34_2
	mv	a4, a5
.LBB34_2:
	sltu	a3, a4, a3
	snez	a2, a2
	or	a2, a2, a3
	beqz	a2, .LBB34_4
	li	a0, 1
	ret
.LBB34_4:
	lw	a0, 0(a0)
	add	a0, a0, a1
	lbu	a0, -8(a0)
	andi	a0, a0, 1
	beqz	a0, .LBB34_6
	li	a0, 5
	ret
.LBB34_6:
	li	a0, 3
	ret
.Lfunc_end34:
	.size	ic_raw.table.RawTable.refusal_of.05a19227735374d3, .Lfunc_end34-ic_raw.table.RawTable.refusal_of.05a19227735374d3
	.cfi_endproc
	.section	.text.ic_raw.ring_calls.splice.5b268f449b4ebf83,"ax",@progbits
	.p2align	1
	.type	ic_raw.ring_calls.splice.5b268f449b4ebf83,@function
ic_raw.ring_calls.splice.5b268f449b4ebf83:
	.cfi_startproc
	addi	sp, sp, -32
	.cfi_def_cfa_offset 32
	sw	s0, 28(sp)
	sw	s1, 24(sp)
	sw	s2, 20(sp)
	sw	s3, 16(sp)
	sw	s4, 12(sp)
	.cfi_offset s0, -4
	.cfi_offset s1, -8
	.cfi_offset s2, -12
	.cfi_offset s3, -16
	.cfi_offset s4, -20
	.cfi_remember_state
	addi	t6, a4, 1
	li	a6, 4
	beqz	t6, .LBB35_2
	addi	t3, a5, 1
	bnez	t3, .LBB35_3
.LBB35_2:
	mv	a0, a6
	lw	s0, 28(sp)
	lw	s1, 24(sp)
	lw	s2, 20(sp)
	lw	s3, 16(sp)
	lw	s4, 12(sp)
	.cfi_restore s0
	.cfi_restore s1
	.cfi_restore s2
	.cfi_restore s3
	.cfi_restore s4
	addi	sp, sp, 32
	.cfi_def_cfa_offset 0
	ret
.LBB35_3:
	.cfi_restore_state
	.cfi_remember_state
	seqz	t4, a2
	lui	s1, 131072
	addi	s0, t4, -1
	or	t5, s0, a1
	addi	s1, s1, -1
	bltu	t5, s1, .LBB35_5
	mv	t5, s1
.LBB35_5:
	bltu	t5, t3, .LBB35_31
	slli	a7, t3, 3
	add	t0, a0, a7
	lw	s2, -8(t0)
	andi	s1, s2, 1
	beqz	s1, .LBB35_31
	lw	s0, -4(t0)
	andi	t1, s0, -8
	beqz	t1, .LBB35_31
	srli	s0, s0, 3
	bltu	t5, s0, .LBB35_31
	add	t2, a0, t1
	lw	s1, -8(t2)
	andi	s0, s1, 1
	beqz	s0, .LBB35_31
	srli	a6, t3, 29
	andi	s1, s1, -8
	xor	s1, a7, s1
	or	s1, s1, a6
	bnez	s1, .LBB35_31
	andi	t3, s2, -8
	beqz	t3, .LBB35_31
	srli	s0, s2, 3
	sltu	s0, a1, s0
	and	s1, t4, s0
	bnez	s1, .LBB35_31
	add	t4, a0, t3
	lbu	s0, -8(t4)
	andi	s0, s0, 1
	beqz	s0, .LBB35_31
	lw	s0, -4(t4)
	andi	s0, s0, -8
	xor	s0, a7, s0
	or	s0, s0, a6
	bnez	s0, .LBB35_31
	bltu	t5, t6, .LBB35_31
	slli	s2, t6, 3
	add	s4, a0, s2
	lw	s0, -8(s4)
	andi	s1, s0, 1
	beqz	s1, .LBB35_31
	andi	a3, a3, 1
	srli	s3, t6, 29
	beqz	a3, .LBB35_23
	lw	s1, -4(s4)
	andi	s0, s1, -8
	beqz	s0, .LBB35_31
	srli	s1, s1, 3
	bltu	t5, s1, .LBB35_31
	add	a3, a0, s0
	lw	s1, -8(a3)
	andi	a3, s1, 1
	beqz	a3, .LBB35_31
	andi	s1, s1, -8
	xor	a3, s2, s1
	or	a3, a3, s3
	bnez	a3, .LBB35_31
	li	s3, 0
	j	.LBB35_27
.LBB35_23:
	andi	t6, s0, -8
	beqz	t6, .LBB35_31
	srli	s0, s0, 3
	bltu	t5, s0, .LBB35_31
	add	a3, a0, t6
	lbu	s1, -8(a3)
	andi	s1, s1, 1
	beqz	s1, .LBB35_31
	lw	a3, -4(a3)
	andi	a3, a3, -8
	xor	a3, s2, a3
	or	s1, a3, s3
	mv	s0, s2
	mv	s2, t6
	bnez	s1, .LBB35_31
.LBB35_27:
	xor	a3, s0, a7
	xor	s1, s3, a6
	or	a3, a3, s1
	beqz	a3, .LBB35_31
	xor	a3, s0, t1
	or	a3, a3, s3
	beqz	a3, .LBB35_31
	xor	a1, a7, t1
	or	a1, a1, a6
	bnez	a1, .LBB35_32
	li	a6, 0
	j	.LBB35_2
.LBB35_31:
	mv	a3, a4
	mv	a4, a5
	lw	s0, 28(sp)
	lw	s1, 24(sp)
	lw	s2, 20(sp)
	lw	s3, 16(sp)
	lw	s4, 12(sp)
	.cfi_restore s0
	.cfi_restore s1
	.cfi_restore s2
	.cfi_restore s3
	.cfi_restore s4
	addi	sp, sp, 32
	.cfi_def_cfa_offset 0
	tail	ic_raw.table.RawTable.refusal_at_both.05a19227735374d3
.LBB35_32:
	.cfi_restore_state
	li	a6, 0
	addi	t3, t3, 1
	add	a1, a0, s0
	sw	t3, -8(a1)
	addi	a1, s2, 1
	add	a0, a0, s2
	addi	a2, a7, 1
	sw	s0, -4(t4)
	sw	a1, -8(t2)
	sw	t1, -4(a0)
	sw	a2, -8(t0)
	sw	a7, -4(t0)
	j	.LBB35_2
.Lfunc_end35:
	.size	ic_raw.ring_calls.splice.5b268f449b4ebf83, .Lfunc_end35-ic_raw.ring_calls.splice.5b268f449b4ebf83
	.cfi_endproc
	.section	.text.unlikely.ic_raw.table.RawTable.refusal_of.5f318a721acb0238,"ax",@progbits
	.p2align	1
	.type	ic_raw.table.RawTable.refusal_of.5f318a721acb0238,@function
ic_raw.table.RawTable.refusal_of.5f318a721acb0238:
	.cfi_startproc
	srli	a5, a4, 3
	beq	a5, a2, .LBB36_4
	sltu	a1, a2, a5
	bnez	a1, .LBB36_5
.LBB36_2:
	slli	a3, a3, 1
	add	a0, a0, a3
	lbu	a0, -16(a0)
	andi	a0, a0, 1
	beqz	a0, .LBB36_6
	li	a0, 5
	ret
.LBB36_4:
	slli	a4, a4, 29
	srli	a2, a3, 3
	or	a2, a2, a4
	sltu	a1, a1, a2
	beqz	a1, .LBB36_2
.LBB36_5:
	li	a0, 1
	ret
.LBB36_6:
	li	a0, 3
	ret
.Lfunc_end36:
	.size	ic_raw.table.RawTable.refusal_of.5f318a721acb0238, .Lfunc_end36-ic_raw.table.RawTable.refusal_of.5f318a721acb0238
	.cfi_endproc
	.section	.text.unlikely.ic_raw.table.refusal_at_end.85cd03e557136797,"ax",@progbits
	.p2align	1
	.type	ic_raw.table.refusal_at_end.85cd03e557136797,@function
ic_raw.table.refusal_at_end.85cd03e557136797:
	.cfi_startproc
	mv	a4, a3
	li	a3, -1
	tail	ic_raw.table.RawTable.refusal.85cd03e557136797
.Lfunc_end37:
	.size	ic_raw.table.refusal_at_end.85cd03e557136797, .Lfunc_end37-ic_raw.table.refusal_at_end.85cd03e557136797
	.cfi_endproc
	.section	.text.unlikely.ic_raw_lists.ring_sort_calls.refusal_at_both,"ax",@progbits
	.p2align	1
	.type	ic_raw_lists.ring_sort_calls.refusal_at_both,@function
ic_raw_lists.ring_sort_calls.refusal_at_both:
	.cfi_startproc
	lw	a7, 12(a0)
	srli	t0, a4, 3
	beq	t0, a7, .LBB38_4
	sltu	a4, a7, t0
	bnez	a4, .LBB38_5
.LBB38_2:
	lw	a4, 0(a0)
	slli	a3, a3, 1
	add	a3, a3, a4
	lbu	a3, -16(a3)
	andi	a3, a3, 1
	bnez	a3, .LBB38_6
	li	a0, 3
	ret
.LBB38_4:
	lw	a7, 8(a0)
	slli	t0, a4, 29
	srli	a4, a3, 3
	or	a4, a4, t0
	sltu	a4, a7, a4
	beqz	a4, .LBB38_2
.LBB38_5:
	li	a0, 1
	ret
.LBB38_6:
	mv	a3, a5
	mv	a4, a6
	tail	ic_raw_lists.ring_sort_calls.refusal_at
.Lfunc_end38:
	.size	ic_raw_lists.ring_sort_calls.refusal_at_both, .Lfunc_end38-ic_raw_lists.ring_sort_calls.refusal_at_both
	.cfi_endproc
	.section	.text.unlikely.ic_raw_lists.ring_sort_calls.refusal_at,"ax",@progbits
	.p2align	1
	.type	ic_raw_lists.ring_sort_calls.refusal_at,@function
ic_raw_lists.ring_sort_calls.refusal_at:
	.cfi_startproc
	mv	a6, a2
	mv	a5, a0
	lw	a7, 12(a0)
	lw	a0, 8(a0)
	srli	a2, a4, 3
	beq	a2, a7, .LBB39_4
	sltu	a2, a7, a2
	bnez	a2, .LBB39_5
.LBB39_2:
	lw	a2, 0(a5)
	slli	a3, a3, 1
	add	a2, a2, a3
	lbu	a2, -16(a2)
	andi	a2, a2, 1
	bnez	a2, .LBB39_6
	li	a0, 3
	ret
.LBB39_4:
	slli	a4, a4, 29
	srli	a2, a3, 3
	or	a2, a2, a4
	sltu	a2, a0, a2
	beqz	a2, .LBB39_2
.LBB39_5:
	li	a0, 1
	ret
.LBB39_6:
	mv	a2, a1
	mv	a1, a7
	mv	a3, a6
	tail	ic_raw.sort_calls.refusal.5f318a721acb0238
.Lfunc_end39:
	.size	ic_raw_lists.ring_sort_calls.refusal_at, .Lfunc_end39-ic_raw_lists.ring_sort_calls.refusal_at
	.cfi_endproc
	.section	.text.unlikely.ic_raw.sort_calls.refusal.5f318a721acb0238,"ax",@progbits
	.p2align	1
	.type	ic_raw.sort_calls.refusal.5f318a721acb0238,@function
ic_raw.sort_calls.refusal.5f318a721acb0238:
	.cfi_startproc
	beq	a3, a1, .LBB40_3
	sltu	a0, a3, a1
	beqz	a0, .LBB40_4
.LBB40_2:
	li	a0, 1
	ret
.LBB40_3:
	sltu	a0, a2, a0
	bnez	a0, .LBB40_2
.LBB40_4:
	li	a0, 5
	ret
.Lfunc_end40:
	.size	ic_raw.sort_calls.refusal.5f318a721acb0238, .Lfunc_end40-ic_raw.sort_calls.refusal.5f318a721acb0238
	.cfi_endproc
	.section	.text.ic_list_algorithms.merge.merge_runs.e8da022ef74ca9e6,"ax",@progbits
	.p2align	1
	.type	ic_list_algorithms.merge.merge_runs.e8da022ef74ca9e6,@function
ic_list_algorithms.merge.merge_runs.e8da022ef74ca9e6:
	.cfi_startproc
	mv	a6, a3
	mv	a7, a2
	lbu	t0, 1(a1)
	lbu	t1, 2(a1)
	lbu	a2, 3(a1)
	lbu	a3, 0(a1)
	slli	t0, t0, 8
	slli	t1, t1, 16
	slli	a2, a2, 24
	or	a3, t0, a3
	or	a2, a2, t1
	or	a2, a2, a3
	add	t0, a2, a4
	add	t1, a2, a7
	lw	a2, -4(t0)
	lw	a3, -4(t1)
	bne	a2, a3, .LBB41_2
	lw	a2, -8(t0)
	lw	a3, -8(t1)
.LBB41_2:
	sltu	a2, a2, a3
	addi	sp, sp, -16
	.cfi_def_cfa_offset 16
	sw	s0, 12(sp)
	.cfi_offset s0, -4
	.cfi_remember_state
	lw	a3, 0(a0)
	li	t3, 15
	li	t4, -8
	beqz	a2, .LBB41_5
	slli	a2, a4, 1
	add	a2, a2, a3
	lw	a3, -12(a2)
	lw	t0, -16(a2)
	and	t6, a3, t3
	and	s0, t0, t4
	or	a3, s0, t6
	beqz	a3, .LBB41_15
	mv	t0, a4
	mv	t1, a5
	mv	t5, a7
	mv	t2, a6
	mv	a4, s0
	mv	a5, t6
	mv	a7, t0
	j	.LBB41_8
.LBB41_5:
	slli	a2, a7, 1
	add	a2, a2, a3
	lw	a3, -12(a2)
	lw	t0, -16(a2)
	and	t2, a3, t3
	and	t5, t0, t4
	or	a3, t5, t2
	beqz	a3, .LBB41_16
	mv	t0, a7
	mv	t1, a6
	j	.LBB41_8
.LBB41_7:
	slli	a6, a7, 1
	add	a3, a3, a6
	lw	a2, -12(a3)
	lw	a3, -16(a3)
	addi	s0, a7, 1
	and	a2, a2, t3
	and	t5, a3, t4
	or	a3, t5, a2
	sw	s0, -16(t6)
	sw	t2, -12(t6)
	mv	t2, a2
	beqz	a3, .LBB41_17
.LBB41_8:
	mv	t6, a7
	mv	a7, t5
	mv	a2, a4
.LBB41_9:
	lbu	a6, 1(a1)
	lbu	t5, 2(a1)
	lbu	a3, 3(a1)
	lbu	s0, 0(a1)
	mv	a4, a2
	slli	a6, a6, 8
	slli	t5, t5, 16
	slli	a3, a3, 24
	or	a2, a6, s0
	or	a3, a3, t5
	or	a2, a2, a3
	add	a6, a2, a4
	add	t5, a2, a7
	lw	a2, -4(a6)
	lw	a3, -4(t5)
	bne	a2, a3, .LBB41_11
	lw	a2, -8(a6)
	lw	a3, -8(t5)
.LBB41_11:
	sltu	a2, a2, a3
	lw	a3, 0(a0)
	slli	t6, t6, 1
	add	t6, t6, a3
	beqz	a2, .LBB41_7
	slli	a6, a4, 1
	add	a3, a3, a6
	lw	a2, -12(a3)
	lw	a3, -16(a3)
	addi	t5, a4, 1
	and	s0, a2, t3
	and	a2, a3, t4
	or	a3, a2, s0
	sw	t5, -16(t6)
	sw	a5, -12(t6)
	mv	a5, s0
	mv	t6, a4
	bnez	a3, .LBB41_9
	lw	a0, 0(a0)
	addi	a7, a7, 1
	add	a0, a0, a6
	sw	a7, -16(a0)
	sw	t2, -12(a0)
.LBB41_14:
	mv	a0, t0
	mv	a1, t1
	lw	s0, 12(sp)
	.cfi_restore s0
	addi	sp, sp, 16
	.cfi_def_cfa_offset 0
	ret
.LBB41_15:
	.cfi_restore_state
	.cfi_remember_state
	addi	a7, a7, 1
	sw	a7, -16(a2)
	sw	a6, -12(a2)
	mv	a0, a4
	mv	a1, a5
	lw	s0, 12(sp)
	.cfi_restore s0
	addi	sp, sp, 16
	.cfi_def_cfa_offset 0
	ret
.LBB41_16:
	.cfi_restore_state
	.cfi_remember_state
	addi	a4, a4, 1
	sw	a4, -16(a2)
	sw	a5, -12(a2)
	mv	a0, a7
	mv	a1, a6
	lw	s0, 12(sp)
	.cfi_restore s0
	addi	sp, sp, 16
	.cfi_def_cfa_offset 0
	ret
.LBB41_17:
	.cfi_restore_state
	lw	a0, 0(a0)
	addi	a4, a4, 1
	seqz	a1, a4
	add	a1, a1, a5
	add	a0, a0, a6
	sw	a4, -16(a0)
	sw	a1, -12(a0)
	j	.LBB41_14
.Lfunc_end41:
	.size	ic_list_algorithms.merge.merge_runs.e8da022ef74ca9e6, .Lfunc_end41-ic_list_algorithms.merge.merge_runs.e8da022ef74ca9e6
	.cfi_endproc
	.section	.text.ic_raw.ring_calls.move_beside.354f48d5d890d6b4,"ax",@progbits
	.p2align	1
	.type	ic_raw.ring_calls.move_beside.354f48d5d890d6b4,@function
ic_raw.ring_calls.move_beside.354f48d5d890d6b4:
	.cfi_startproc
	addi	sp, sp, -32
	.cfi_def_cfa_offset 32
	sw	s0, 28(sp)
	sw	s1, 24(sp)
	sw	s2, 20(sp)
	sw	s3, 16(sp)
	sw	s4, 12(sp)
	sw	s5, 8(sp)
	sw	s6, 4(sp)
	sw	s7, 0(sp)
	.cfi_offset s0, -4
	.cfi_offset s1, -8
	.cfi_offset s2, -12
	.cfi_offset s3, -16
	.cfi_offset s4, -20
	.cfi_offset s5, -24
	.cfi_offset s6, -28
	.cfi_offset s7, -32
	.cfi_remember_state
	addi	s7, a4, 1
	li	a6, 4
	beqz	s7, .LBB42_39
	addi	t3, a5, 1
	beqz	t3, .LBB42_39
	sltu	s1, a1, t3
	seqz	s6, a2
	and	s1, s6, s1
	bnez	s1, .LBB42_40
	slli	a7, t3, 3
	slli	t0, a7, 1
	add	t0, t0, a0
	lw	t5, -16(t0)
	andi	s1, t5, 1
	beqz	s1, .LBB42_40
	lw	s1, -4(t0)
	lw	a6, -8(t0)
	andi	t1, s1, 15
	andi	t2, a6, -8
	or	s0, t2, t1
	beqz	s0, .LBB42_40
	srli	s0, t1, 3
	beq	s0, a2, .LBB42_7
	sltu	s1, a2, s0
	j	.LBB42_8
.LBB42_7:
	slli	s1, s1, 29
	srli	s0, a6, 3
	or	s0, s0, s1
	sltu	s1, a1, s0
.LBB42_8:
	bnez	s1, .LBB42_40
	slli	t4, t2, 1
	add	t4, t4, a0
	lw	s1, -16(t4)
	andi	s0, s1, 1
	beqz	s0, .LBB42_40
	srli	t3, t3, 29
	lw	s0, -12(t4)
	li	a6, 15
	li	s3, -8
	and	s1, s1, s3
	and	s0, s0, a6
	xor	s1, s1, a7
	xor	s0, s0, t3
	or	s0, s0, s1
	bnez	s0, .LBB42_40
	lw	s0, -12(t0)
	and	t6, t5, s3
	and	t5, s0, a6
	or	s0, t6, t5
	beqz	s0, .LBB42_40
	srli	s0, t5, 3
	beq	s0, a2, .LBB42_14
	sltu	s0, a2, s0
	j	.LBB42_15
.LBB42_14:
	srli	s0, t6, 3
	slli	s1, t5, 29
	or	s0, s0, s1
	sltu	s0, a1, s0
.LBB42_15:
	bnez	s0, .LBB42_40
	slli	s5, t6, 1
	add	s5, s5, a0
	lbu	s0, -16(s5)
	andi	s0, s0, 1
	beqz	s0, .LBB42_40
	lw	s0, -8(s5)
	lw	s1, -4(s5)
	and	s0, s0, s3
	and	s1, s1, a6
	xor	s1, s1, t3
	xor	s0, s0, a7
	or	s0, s0, s1
	bnez	s0, .LBB42_40
	srli	s2, s7, 29
	slli	s4, s7, 3
	xor	s0, s4, a7
	xor	s1, s2, t3
	or	s0, s0, s1
	bnez	s0, .LBB42_20
	li	a6, 0
	j	.LBB42_39
.LBB42_20:
	sltu	s0, a1, s7
	and	s0, s6, s0
	bnez	s0, .LBB42_40
	slli	s0, s4, 1
	add	s0, s0, a0
	lw	s6, -16(s0)
	andi	s1, s6, 1
	beqz	s1, .LBB42_40
	andi	a3, a3, 1
	beqz	a3, .LBB42_26
	lw	a3, -4(s0)
	lw	s0, -8(s0)
	and	s6, a3, a6
	and	s7, s0, s3
	or	a3, s7, s6
	beqz	a3, .LBB42_40
	srli	a3, s6, 3
	beq	a3, a2, .LBB42_29
	sltu	s1, a2, a3
	j	.LBB42_30
.LBB42_26:
	lw	a3, -12(s0)
	and	s7, s6, s3
	and	s6, a3, a6
	or	a3, s7, s6
	beqz	a3, .LBB42_40
	srli	a3, s6, 3
	beq	a3, a2, .LBB42_33
	sltu	s1, a2, a3
	j	.LBB42_34
.LBB42_29:
	slli	a3, s6, 29
	srli	s1, s7, 3
	or	a3, a3, s1
	sltu	s1, a1, a3
.LBB42_30:
	bnez	s1, .LBB42_40
	slli	a3, s7, 1
	add	a3, a3, a0
	lw	s0, -16(a3)
	andi	s1, s0, 1
	beqz	s1, .LBB42_40
	lw	a3, -12(a3)
	and	s0, s0, s3
	and	a3, a3, a6
	xor	s1, s0, s4
	xor	a3, a3, s2
	or	a3, a3, s1
	mv	s1, s7
	mv	s3, s6
	beqz	a3, .LBB42_37
	j	.LBB42_40
.LBB42_33:
	srli	a3, s7, 3
	slli	s1, s6, 29
	or	a3, a3, s1
	sltu	s1, a1, a3
.LBB42_34:
	bnez	s1, .LBB42_40
	slli	s1, s7, 1
	add	s1, s1, a0
	lbu	a3, -16(s1)
	andi	a3, a3, 1
	beqz	a3, .LBB42_40
	lw	a3, -8(s1)
	lw	s1, -4(s1)
	and	a3, a3, s3
	and	s1, s1, a6
	xor	s1, s1, s2
	xor	a3, a3, s4
	or	a3, a3, s1
	mv	s1, s4
	mv	s3, s2
	mv	s4, s7
	mv	s2, s6
	bnez	a3, .LBB42_40
.LBB42_37:
	xor	a1, s7, a7
	xor	a2, s6, t3
	li	a6, 0
	or	a1, a1, a2
	beqz	a1, .LBB42_39
	addi	t6, t6, 1
	addi	a1, s4, 1
	sw	t6, -16(t4)
	sw	t5, -12(t4)
	slli	a2, s1, 1
	addi	a3, a7, 1
	slli	s4, s4, 1
	sw	t2, -8(s5)
	sw	t1, -4(s5)
	sw	a1, -16(t0)
	sw	s2, -12(t0)
	sw	s1, -8(t0)
	sw	s3, -4(t0)
	add	a2, a2, a0
	add	a0, a0, s4
	sw	a3, -16(a2)
	sw	t3, -12(a2)
	sw	a7, -8(a0)
	sw	t3, -4(a0)
.LBB42_39:
	mv	a0, a6
	lw	s0, 28(sp)
	lw	s1, 24(sp)
	lw	s2, 20(sp)
	lw	s3, 16(sp)
	lw	s4, 12(sp)
	lw	s5, 8(sp)
	lw	s6, 4(sp)
	lw	s7, 0(sp)
	.cfi_restore s0
	.cfi_restore s1
	.cfi_restore s2
	.cfi_restore s3
	.cfi_restore s4
	.cfi_restore s5
	.cfi_restore s6
	.cfi_restore s7
	addi	sp, sp, 32
	.cfi_def_cfa_offset 0
	ret
.LBB42_40:
	.cfi_restore_state
	mv	a3, a4
	mv	a4, a5
	lw	s0, 28(sp)
	lw	s1, 24(sp)
	lw	s2, 20(sp)
	lw	s3, 16(sp)
	lw	s4, 12(sp)
	lw	s5, 8(sp)
	lw	s6, 4(sp)
	lw	s7, 0(sp)
	.cfi_restore s0
	.cfi_restore s1
	.cfi_restore s2
	.cfi_restore s3
	.cfi_restore s4
	.cfi_restore s5
	.cfi_restore s6
	.cfi_restore s7
	addi	sp, sp, 32
	.cfi_def_cfa_offset 0
	tail	ic_raw.table.RawTable.refusal_at_both.85cd03e557136797
.Lfunc_end42:
	.size	ic_raw.ring_calls.move_beside.354f48d5d890d6b4, .Lfunc_end42-ic_raw.ring_calls.move_beside.354f48d5d890d6b4
	.cfi_endproc
	.section	.text.ic_raw.ring_calls.pop.354f48d5d890d6b4,"ax",@progbits
	.p2align	1
	.type	ic_raw.ring_calls.pop.354f48d5d890d6b4,@function
ic_raw.ring_calls.pop.354f48d5d890d6b4:
	.cfi_startproc
	addi	a4, a4, 1
	bnez	a4, .LBB43_2
	li	a0, 4
	ret
.LBB43_2:
	addi	sp, sp, -48
	.cfi_def_cfa_offset 48
	sw	ra, 44(sp)
	sw	s0, 40(sp)
	sw	s1, 36(sp)
	sw	s2, 32(sp)
	sw	s3, 28(sp)
	.cfi_offset ra, -4
	.cfi_offset s0, -8
	.cfi_offset s1, -12
	.cfi_offset s2, -16
	.cfi_offset s3, -20
	mv	a7, a2
	mv	a6, a1
	srli	a2, a4, 29
	slli	a1, a4, 3
	sltu	a4, a6, a4
	seqz	s1, a7
	and	a4, a4, s1
	sw	a0, 8(sp)
	sw	zero, 12(sp)
	sw	a6, 16(sp)
	sw	a7, 20(sp)
	bnez	a4, .LBB43_40
	slli	a4, a1, 1
	add	a4, a4, a0
	lw	s0, -16(a4)
	andi	s1, s0, 1
	beqz	s1, .LBB43_40
	li	t0, 15
	andi	a3, a3, 1
	li	t1, -8
	beqz	a3, .LBB43_8
	lw	a3, -4(a4)
	lw	a4, -8(a4)
	and	t3, a3, t0
	and	t6, a4, t1
	or	a3, t6, t3
	beqz	a3, .LBB43_40
	slli	a4, t3, 29
	srli	s1, t6, 3
	srli	a3, t3, 3
	or	t2, s1, a4
	beq	a3, a7, .LBB43_11
	sltu	a4, a7, a3
	j	.LBB43_12
.LBB43_8:
	lw	a3, -12(a4)
	and	t6, s0, t1
	and	t3, a3, t0
	or	a3, t6, t3
	beqz	a3, .LBB43_40
	srli	a4, t6, 3
	slli	s1, t3, 29
	srli	a3, t3, 3
	or	t2, a4, s1
	beq	a3, a7, .LBB43_15
	sltu	a4, a7, a3
	j	.LBB43_16
.LBB43_11:
	sltu	a4, a6, t2
.LBB43_12:
	bnez	a4, .LBB43_40
	slli	s1, t6, 1
	add	s1, s1, a0
	lw	s0, -16(s1)
	andi	a4, s0, 1
	beqz	a4, .LBB43_40
	lw	a4, -12(s1)
	and	s1, s0, t1
	and	a4, a4, t0
	xor	s1, s1, a1
	xor	a4, a4, a2
	or	a4, a4, s1
	beqz	a4, .LBB43_19
	j	.LBB43_40
.LBB43_15:
	sltu	a4, a6, t2
.LBB43_16:
	bnez	a4, .LBB43_40
	slli	a4, t6, 1
	add	a4, a4, a0
	lbu	s1, -16(a4)
	andi	s1, s1, 1
	beqz	s1, .LBB43_40
	lw	s1, -8(a4)
	lw	a4, -4(a4)
	and	s1, s1, t1
	and	a4, a4, t0
	xor	a4, a4, a2
	xor	s1, s1, a1
	or	a4, a4, s1
	bnez	a4, .LBB43_40
.LBB43_19:
	xor	a4, t6, a1
	xor	s1, t3, a2
	or	a4, a4, s1
	beqz	a4, .LBB43_40
	beq	a3, a7, .LBB43_22
	sltu	a3, a7, a3
	j	.LBB43_23
.LBB43_22:
	sltu	a3, a6, t2
.LBB43_23:
	bnez	a3, .LBB43_40
	slli	a3, t6, 1
	add	s3, a0, a3
	lw	s0, -16(s3)
	andi	a4, s0, 1
	beqz	a4, .LBB43_40
	lw	a4, -4(s3)
	lw	s1, -8(s3)
	and	t4, a4, t0
	and	t5, s1, t1
	or	a4, t5, t4
	beqz	a4, .LBB43_40
	srli	a4, t4, 3
	beq	a4, a7, .LBB43_28
	sltu	a4, a7, a4
	j	.LBB43_29
.LBB43_28:
	slli	a4, t4, 29
	srli	s1, t5, 3
	or	a4, a4, s1
	sltu	a4, a6, a4
.LBB43_29:
	bnez	a4, .LBB43_40
	slli	s2, t5, 1
	add	s2, s2, a0
	lw	a4, -16(s2)
	andi	s1, a4, 1
	beqz	s1, .LBB43_40
	lw	s1, -12(s2)
	and	a4, a4, t1
	and	s1, s1, t0
	xor	a4, a4, t6
	xor	s1, s1, t3
	or	a4, a4, s1
	bnez	a4, .LBB43_40
	lw	a4, -12(s3)
	and	s1, s0, t1
	and	a3, a4, t0
	or	a4, s1, a3
	beqz	a4, .LBB43_40
	srli	a4, a3, 3
	beq	a4, a7, .LBB43_35
	sltu	a4, a7, a4
	j	.LBB43_36
.LBB43_35:
	srli	a4, s1, 3
	slli	s0, a3, 29
	or	a4, a4, s0
	sltu	a4, a6, a4
.LBB43_36:
	bnez	a4, .LBB43_40
	slli	a4, s1, 1
	add	a4, a4, a0
	lbu	a0, -16(a4)
	andi	a0, a0, 1
	beqz	a0, .LBB43_40
	lw	a0, -8(a4)
	lw	s0, -4(a4)
	and	a0, a0, t1
	and	s0, s0, t0
	xor	s0, s0, t3
	xor	a0, a0, t6
	or	a0, a0, s0
	bnez	a0, .LBB43_40
	addi	s1, s1, 1
	addi	t2, t2, -1
	sw	s1, -16(s2)
	sw	a3, -12(s2)
	sw	t5, -8(a4)
	sw	t4, -4(a4)
	sw	zero, -16(s3)
	sw	zero, -12(s3)
	sw	t2, 0(a5)
	j	.LBB43_41
.LBB43_40:
	addi	a0, sp, 8
	call	ic_raw.ring_calls.refusal_to_pop.354f48d5d890d6b4
.LBB43_41:
	lw	ra, 44(sp)
	lw	s0, 40(sp)
	lw	s1, 36(sp)
	lw	s2, 32(sp)
	lw	s3, 28(sp)
	.cfi_restore ra
	.cfi_restore s0
	.cfi_restore s1
	.cfi_restore s2
	.cfi_restore s3
	addi	sp, sp, 48
	.cfi_def_cfa_offset 0
	ret
.Lfunc_end43:
	.size	ic_raw.ring_calls.pop.354f48d5d890d6b4, .Lfunc_end43-ic_raw.ring_calls.pop.354f48d5d890d6b4
	.cfi_endproc
	.section	.text.unlikely.ic_raw.ring_calls.refusal_to_pop.354f48d5d890d6b4,"ax",@progbits
	.p2align	1
	.type	ic_raw.ring_calls.refusal_to_pop.354f48d5d890d6b4,@function
ic_raw.ring_calls.refusal_to_pop.354f48d5d890d6b4:
	.cfi_startproc
	lw	a3, 12(a0)
	srli	a4, a2, 3
	bne	a4, a3, .LBB44_2
	lw	a3, 8(a0)
	slli	a4, a2, 29
	srli	a5, a1, 3
	or	a4, a4, a5
.LBB44_2:
	sltu	a3, a3, a4
	bnez	a3, .LBB44_7
	lw	a3, 0(a0)
	slli	a4, a1, 1
	add	a3, a3, a4
	lw	a4, -16(a3)
	andi	a5, a4, 1
	beqz	a5, .LBB44_7
	lw	a5, -12(a3)
	andi	a4, a4, -8
	andi	a5, a5, 15
	xor	a4, a4, a1
	xor	a5, a5, a2
	or	a4, a4, a5
	bnez	a4, .LBB44_7
	lw	a4, -8(a3)
	lw	a3, -4(a3)
	li	a6, 15
	li	a5, -8
	and	a4, a4, a5
	and	a3, a3, a6
	xor	a3, a3, a2
	xor	a4, a4, a1
	or	a3, a3, a4
	bnez	a3, .LBB44_7
	li	a0, 4
	ret
.LBB44_7:
	tail	ic_raw.table.RawTable.refusal_of.85cd03e557136797
.Lfunc_end44:
	.size	ic_raw.ring_calls.refusal_to_pop.354f48d5d890d6b4, .Lfunc_end44-ic_raw.ring_calls.refusal_to_pop.354f48d5d890d6b4
	.cfi_endproc
	.section	.text.unlikely.ic_raw.table.RawTable.refusal_of.85cd03e557136797,"ax",@progbits
	.p2align	1
	.type	ic_raw.table.RawTable.refusal_of.85cd03e557136797,@function
ic_raw.table.RawTable.refusal_of.85cd03e557136797:
	.cfi_startproc
	lw	a3, 12(a0)
	srli	a4, a2, 3
	beq	a4, a3, .LBB45_4
	sltu	a2, a3, a4
	bnez	a2, .LBB45_5
.LBB45_2:
	lw	a0, 0(a0)
	slli	a1, a1, 1
	add	a0, a0, a1
	lbu	a0, -16(a0)
	andi	a0, a0, 1
	beqz	a0, .LBB45_6
	li	a0, 5
	ret
.LBB45_4:
	lw	a3, 8(a0)
	slli	a2, a2, 29
	srli	a4, a1, 3
	or	a2, a2, a4
	sltu	a2, a3, a2
	beqz	a2, .LBB45_2
.LBB45_5:
	li	a0, 1
	ret
.LBB45_6:
	li	a0, 3
	ret
.Lfunc_end45:
	.size	ic_raw.table.RawTable.refusal_of.85cd03e557136797, .Lfunc_end45-ic_raw.table.RawTable.refusal_of.85cd03e557136797
	.cfi_endproc
	.section	.text.ic_list_algorithms.sort.sort_front.e8da022ef74ca9e6,"ax",@progbits
	.p2align	1
	.type	ic_list_algorithms.sort.sort_front.e8da022ef74ca9e6,@function
ic_list_algorithms.sort.sort_front.e8da022ef74ca9e6:
	.cfi_startproc
	addi	sp, sp, -96
	.cfi_def_cfa_offset 96
	sw	ra, 92(sp)
	sw	s0, 88(sp)
	sw	s1, 84(sp)
	sw	s2, 80(sp)
	sw	s3, 76(sp)
	sw	s4, 72(sp)
	sw	s5, 68(sp)
	sw	s6, 64(sp)
	sw	s7, 60(sp)
	.cfi_offset ra, -4
	.cfi_offset s0, -8
	.cfi_offset s1, -12
	.cfi_offset s2, -16
	.cfi_offset s3, -20
	.cfi_offset s4, -24
	.cfi_offset s5, -28
	.cfi_offset s6, -32
	.cfi_offset s7, -36
	.cfi_remember_state
	or	s1, a5, a6
	mv	s0, a0
	beqz	s1, .LBB46_4
	xori	a0, a5, 1
	or	a0, a0, a6
	bnez	a0, .LBB46_5
	lw	a0, 0(a1)
	slli	a5, a3, 1
	add	a0, a0, a5
	lw	a5, -12(a0)
	lw	s1, -16(a0)
	li	a6, 1
	andi	a5, a5, 15
	andi	a7, s1, -8
	or	s1, a7, a5
	sw	a6, -16(a0)
	sw	zero, -12(a0)
	beqz	s1, .LBB46_10
	lw	a0, 0(a1)
	slli	s1, a7, 1
	add	a0, a0, s1
	lw	s1, -12(a0)
	lw	t0, -16(a0)
	li	t1, 15
	li	t2, -8
	and	s3, s1, t1
	and	s2, t0, t2
	or	s1, s2, s3
	snez	s1, s1
	sw	a6, -16(a0)
	sw	zero, -12(a0)
	mv	a0, a1
	mv	a1, a2
	mv	a2, a3
	mv	a3, a4
	mv	a4, a7
	call	ic_list_algorithms.merge.merge_runs.e8da022ef74ca9e6
	srli	a6, a1, 24
	srli	a3, a1, 16
	srli	a4, a1, 8
	srli	a7, a0, 24
	srli	t0, a0, 16
	srli	a5, a0, 8
	sb	zero, 12(s0)
	sb	zero, 13(s0)
	sb	zero, 14(s0)
	sb	zero, 15(s0)
	sb	s1, 8(s0)
	sb	zero, 9(s0)
	sb	zero, 10(s0)
	sb	zero, 11(s0)
	sb	s3, 20(s0)
	sb	zero, 21(s0)
	sb	zero, 22(s0)
	sb	zero, 23(s0)
	srli	s1, s2, 24
	srli	a2, s2, 16
	sb	a1, 4(s0)
	sb	a4, 5(s0)
	sb	a3, 6(s0)
	sb	a6, 7(s0)
	srli	a1, s2, 8
	sb	a0, 0(s0)
	sb	a5, 1(s0)
	sb	t0, 2(s0)
	sb	a7, 3(s0)
	sb	s2, 16(s0)
	sb	a1, 17(s0)
	sb	a2, 18(s0)
	sb	s1, 19(s0)
	j	.LBB46_8
.LBB46_4:
	lw	a7, 0(a1)
	slli	t0, a3, 1
	li	a6, 1
	srli	t1, a4, 24
	srli	s1, a4, 16
	srli	a2, a4, 8
	srli	t2, a3, 24
	srli	a1, a3, 16
	add	a7, a7, t0
	lw	a5, -16(a7)
	lw	t0, -12(a7)
	sw	a6, -16(a7)
	sw	zero, -12(a7)
	srli	a0, a3, 8
	sb	a4, 4(s0)
	sb	a2, 5(s0)
	sb	s1, 6(s0)
	sb	t1, 7(s0)
	sb	a3, 0(s0)
	sb	a0, 1(s0)
	sb	a1, 2(s0)
	sb	t2, 3(s0)
	sb	zero, 12(s0)
	sb	zero, 13(s0)
	sb	zero, 14(s0)
	sb	zero, 15(s0)
	andi	a0, t0, 15
	andi	a1, a5, -8
	srli	a2, a5, 24
	srli	a3, a5, 16
	srli	a5, a5, 8
	or	a4, a1, a0
	sb	a0, 20(s0)
	sb	zero, 21(s0)
	sb	zero, 22(s0)
	sb	zero, 23(s0)
	snez	a0, a4
	sb	a0, 8(s0)
	sb	zero, 9(s0)
	sb	zero, 10(s0)
	sb	zero, 11(s0)
	sb	a1, 16(s0)
	sb	a5, 17(s0)
	sb	a3, 18(s0)
	j	.LBB46_7
.LBB46_5:
	seqz	a0, a5
	sub	s3, a6, a0
	addi	s4, a5, -1
	addi	a0, sp, 32
	mv	s5, a1
	mv	s6, a2
	mv	a5, s4
	mv	a6, s3
	call	ic_list_algorithms.sort.sort_front.e8da022ef74ca9e6
	lw	s2, 36(sp)
	lbu	a0, 40(sp)
	lw	s1, 32(sp)
	li	a1, 1
	bne	a0, a1, .LBB46_9
	lw	a3, 48(sp)
	lw	a4, 52(sp)
	addi	a0, sp, 8
	mv	a1, s5
	mv	a2, s6
	mv	a5, s4
	mv	a6, s3
	call	ic_list_algorithms.sort.sort_front.e8da022ef74ca9e6
	lw	a4, 8(sp)
	lw	a5, 12(sp)
	lbu	s7, 16(sp)
	lw	s3, 24(sp)
	lw	s4, 28(sp)
	mv	a0, s5
	mv	a1, s6
	mv	a2, s1
	mv	a3, s2
	call	ic_list_algorithms.merge.merge_runs.e8da022ef74ca9e6
	srli	a6, a1, 24
	srli	t0, a1, 16
	srli	a4, a1, 8
	srli	a7, a0, 24
	srli	t1, a0, 16
	srli	t2, a0, 8
	sb	zero, 12(s0)
	sb	zero, 13(s0)
	sb	zero, 14(s0)
	sb	zero, 15(s0)
	sb	s7, 8(s0)
	sb	zero, 9(s0)
	sb	zero, 10(s0)
	sb	zero, 11(s0)
	srli	a5, s4, 24
	srli	a3, s4, 16
	srli	s1, s4, 8
	srli	a2, s3, 24
	sb	a1, 4(s0)
	sb	a4, 5(s0)
	sb	t0, 6(s0)
	sb	a6, 7(s0)
	srli	a1, s3, 16
	sb	a0, 0(s0)
	sb	t2, 1(s0)
	sb	t1, 2(s0)
	sb	a7, 3(s0)
	srli	a0, s3, 8
	sb	s4, 20(s0)
	sb	s1, 21(s0)
	sb	a3, 22(s0)
	sb	a5, 23(s0)
	sb	s3, 16(s0)
	sb	a0, 17(s0)
	sb	a1, 18(s0)
.LBB46_7:
	sb	a2, 19(s0)
.LBB46_8:
	lw	ra, 92(sp)
	lw	s0, 88(sp)
	lw	s1, 84(sp)
	lw	s2, 80(sp)
	lw	s3, 76(sp)
	lw	s4, 72(sp)
	lw	s5, 68(sp)
	lw	s6, 64(sp)
	lw	s7, 60(sp)
	.cfi_restore ra
	.cfi_restore s0
	.cfi_restore s1
	.cfi_restore s2
	.cfi_restore s3
	.cfi_restore s4
	.cfi_restore s5
	.cfi_restore s6
	.cfi_restore s7
	addi	sp, sp, 96
	.cfi_def_cfa_offset 0
	ret
.LBB46_9:
	.cfi_restore_state
	srli	a1, s1, 24
	srli	a2, s1, 16
	srli	a3, s1, 8
	srli	a6, s2, 24
	srli	a5, s2, 16
	srli	a4, s2, 8
	addi	a0, s0, 8
	sb	s1, 0(s0)
	sb	a3, 1(s0)
	sb	a2, 2(s0)
	sb	a1, 3(s0)
	li	a2, 16
	sb	s2, 4(s0)
	sb	a4, 5(s0)
	sb	a5, 6(s0)
	j	.LBB46_11
.LBB46_10:
	srli	a7, a3, 24
	srli	a2, a3, 16
	srli	a5, a3, 8
	srli	a6, a4, 24
	srli	s1, a4, 16
	srli	a1, a4, 8
	addi	a0, s0, 8
	sb	a3, 0(s0)
	sb	a5, 1(s0)
	sb	a2, 2(s0)
	sb	a7, 3(s0)
	li	a2, 16
	sb	a4, 4(s0)
	sb	a1, 5(s0)
	sb	s1, 6(s0)
.LBB46_11:
	sb	a6, 7(s0)
	li	a1, 0
	li	a3, 0
	li	a4, 0
	lw	ra, 92(sp)
	lw	s0, 88(sp)
	lw	s1, 84(sp)
	lw	s2, 80(sp)
	lw	s3, 76(sp)
	lw	s4, 72(sp)
	lw	s5, 68(sp)
	lw	s6, 64(sp)
	lw	s7, 60(sp)
	.cfi_restore ra
	.cfi_restore s0
	.cfi_restore s1
	.cfi_restore s2
	.cfi_restore s3
	.cfi_restore s4
	.cfi_restore s5
	.cfi_restore s6
	.cfi_restore s7
	addi	sp, sp, 96
	.cfi_def_cfa_offset 0
	tail	ic.clear
.Lfunc_end46:
	.size	ic_list_algorithms.sort.sort_front.e8da022ef74ca9e6, .Lfunc_end46-ic_list_algorithms.sort.sort_front.e8da022ef74ca9e6
	.cfi_endproc
	.section	.text.ic_raw.ring_calls.splice.354f48d5d890d6b4,"ax",@progbits
	.p2align	1
	.type	ic_raw.ring_calls.splice.354f48d5d890d6b4,@function
ic_raw.ring_calls.splice.354f48d5d890d6b4:
	.cfi_startproc
	addi	sp, sp, -48
	.cfi_def_cfa_offset 48
	sw	s0, 44(sp)
	sw	s1, 40(sp)
	sw	s2, 36(sp)
	sw	s3, 32(sp)
	sw	s4, 28(sp)
	sw	s5, 24(sp)
	sw	s6, 20(sp)
	sw	s7, 16(sp)
	sw	s8, 12(sp)
	.cfi_offset s0, -4
	.cfi_offset s1, -8
	.cfi_offset s2, -12
	.cfi_offset s3, -16
	.cfi_offset s4, -20
	.cfi_offset s5, -24
	.cfi_offset s6, -28
	.cfi_offset s7, -32
	.cfi_offset s8, -36
	.cfi_remember_state
	addi	s5, a4, 1
	li	a6, 4
	beqz	s5, .LBB47_2
	addi	t3, a5, 1
	bnez	t3, .LBB47_3
.LBB47_2:
	mv	a0, a6
	lw	s0, 44(sp)
	lw	s1, 40(sp)
	lw	s2, 36(sp)
	lw	s3, 32(sp)
	lw	s4, 28(sp)
	lw	s5, 24(sp)
	lw	s6, 20(sp)
	lw	s7, 16(sp)
	lw	s8, 12(sp)
	.cfi_restore s0
	.cfi_restore s1
	.cfi_restore s2
	.cfi_restore s3
	.cfi_restore s4
	.cfi_restore s5
	.cfi_restore s6
	.cfi_restore s7
	.cfi_restore s8
	addi	sp, sp, 48
	.cfi_def_cfa_offset 0
	ret
.LBB47_3:
	.cfi_restore_state
	sltu	s1, a1, t3
	seqz	s4, a2
	and	s1, s4, s1
	bnez	s1, .LBB47_40
	slli	a7, t3, 3
	slli	t0, a7, 1
	add	t0, t0, a0
	lw	t5, -16(t0)
	andi	s1, t5, 1
	beqz	s1, .LBB47_40
	lw	s1, -4(t0)
	lw	a6, -8(t0)
	andi	t1, s1, 15
	andi	t2, a6, -8
	or	s0, t2, t1
	beqz	s0, .LBB47_40
	srli	s0, t1, 3
	beq	s0, a2, .LBB47_8
	sltu	s1, a2, s0
	j	.LBB47_9
.LBB47_8:
	slli	s1, s1, 29
	srli	s0, a6, 3
	or	s0, s0, s1
	sltu	s1, a1, s0
.LBB47_9:
	bnez	s1, .LBB47_40
	slli	t4, t2, 1
	add	t4, t4, a0
	lw	s1, -16(t4)
	andi	s0, s1, 1
	beqz	s0, .LBB47_40
	srli	t3, t3, 29
	lw	s0, -12(t4)
	li	a6, 15
	li	s2, -8
	and	s1, s1, s2
	and	s0, s0, a6
	xor	s1, s1, a7
	xor	s0, s0, t3
	or	s0, s0, s1
	bnez	s0, .LBB47_40
	lw	s0, -12(t0)
	and	t6, t5, s2
	and	t5, s0, a6
	or	s0, t6, t5
	beqz	s0, .LBB47_40
	srli	s0, t5, 3
	beq	s0, a2, .LBB47_15
	sltu	s0, a2, s0
	j	.LBB47_16
.LBB47_15:
	srli	s0, t6, 3
	slli	s1, t5, 29
	or	s0, s0, s1
	sltu	s0, a1, s0
.LBB47_16:
	bnez	s0, .LBB47_40
	slli	s3, t6, 1
	add	s3, s3, a0
	lbu	s0, -16(s3)
	andi	s0, s0, 1
	beqz	s0, .LBB47_40
	sltu	s0, a1, s5
	and	s0, s4, s0
	bnez	s0, .LBB47_40
	lw	s0, -4(s3)
	lw	s1, -8(s3)
	and	s0, s0, a6
	and	s1, s1, s2
	xor	s1, s1, a7
	xor	s0, s0, t3
	or	s0, s0, s1
	bnez	s0, .LBB47_40
	slli	s4, s5, 3
	slli	s0, s4, 1
	add	s0, s0, a0
	lw	s7, -16(s0)
	andi	s1, s7, 1
	beqz	s1, .LBB47_40
	andi	a3, a3, 1
	srli	s6, s5, 29
	beqz	a3, .LBB47_25
	lw	a3, -4(s0)
	lw	s0, -8(s0)
	and	s7, a3, a6
	and	s8, s0, s2
	or	a3, s8, s7
	beqz	a3, .LBB47_40
	srli	a3, s7, 3
	beq	a3, a2, .LBB47_28
	sltu	s1, a2, a3
	j	.LBB47_29
.LBB47_25:
	lw	a3, -12(s0)
	and	s1, s7, s2
	and	s5, a3, a6
	or	a3, s1, s5
	beqz	a3, .LBB47_40
	srli	a3, s5, 3
	beq	a3, a2, .LBB47_32
	sltu	a3, a2, a3
	j	.LBB47_33
.LBB47_28:
	slli	a3, s7, 29
	srli	s1, s8, 3
	or	a3, a3, s1
	sltu	s1, a1, a3
.LBB47_29:
	bnez	s1, .LBB47_40
	slli	a3, s8, 1
	add	a3, a3, a0
	lw	s0, -16(a3)
	andi	s1, s0, 1
	beqz	s1, .LBB47_40
	lw	a3, -12(a3)
	and	s0, s0, s2
	and	a3, a3, a6
	xor	s1, s0, s4
	xor	a3, a3, s6
	or	a3, a3, s1
	mv	s1, s4
	mv	s5, s6
	beqz	a3, .LBB47_36
	j	.LBB47_40
.LBB47_32:
	srli	a3, s1, 3
	slli	s0, s5, 29
	or	a3, a3, s0
	sltu	a3, a1, a3
.LBB47_33:
	bnez	a3, .LBB47_40
	slli	a3, s1, 1
	add	a3, a3, a0
	lbu	s0, -16(a3)
	andi	s0, s0, 1
	beqz	s0, .LBB47_40
	lw	s0, -8(a3)
	lw	a3, -4(a3)
	and	s0, s0, s2
	and	a3, a3, a6
	xor	a3, a3, s6
	xor	s0, s0, s4
	or	a3, a3, s0
	mv	s8, s4
	mv	s7, s6
	bnez	a3, .LBB47_40
.LBB47_36:
	xor	a3, s8, a7
	xor	s0, s7, t3
	or	a3, a3, s0
	beqz	a3, .LBB47_40
	xor	a3, s8, t2
	xor	s0, s7, t1
	or	a3, a3, s0
	beqz	a3, .LBB47_40
	xor	a1, t2, a7
	xor	a2, t1, t3
	li	a6, 0
	or	a1, a1, a2
	beqz	a1, .LBB47_2
	addi	t6, t6, 1
	slli	a1, s8, 1
	add	a1, a1, a0
	sw	t6, -16(a1)
	sw	t5, -12(a1)
	addi	a1, s1, 1
	slli	s1, s1, 1
	addi	a2, a7, 1
	add	a0, a0, s1
	sw	s8, -8(s3)
	sw	s7, -4(s3)
	sw	a1, -16(t4)
	sw	s5, -12(t4)
	sw	t2, -8(a0)
	sw	t1, -4(a0)
	sw	a2, -16(t0)
	sw	t3, -12(t0)
	sw	a7, -8(t0)
	sw	t3, -4(t0)
	j	.LBB47_2
.LBB47_40:
	mv	a3, a4
	mv	a4, a5
	lw	s0, 44(sp)
	lw	s1, 40(sp)
	lw	s2, 36(sp)
	lw	s3, 32(sp)
	lw	s4, 28(sp)
	lw	s5, 24(sp)
	lw	s6, 20(sp)
	lw	s7, 16(sp)
	lw	s8, 12(sp)
	.cfi_restore s0
	.cfi_restore s1
	.cfi_restore s2
	.cfi_restore s3
	.cfi_restore s4
	.cfi_restore s5
	.cfi_restore s6
	.cfi_restore s7
	.cfi_restore s8
	addi	sp, sp, 48
	.cfi_def_cfa_offset 0
	tail	ic_raw.table.RawTable.refusal_at_both.85cd03e557136797
.Lfunc_end47:
	.size	ic_raw.ring_calls.splice.354f48d5d890d6b4, .Lfunc_end47-ic_raw.ring_calls.splice.354f48d5d890d6b4
	.cfi_endproc
	.section	.text.unlikely.ic_raw.sort_calls.refusal.1b4d7615ba81168a,"ax",@progbits
	.p2align	1
	.type	ic_raw.sort_calls.refusal.1b4d7615ba81168a,@function
ic_raw.sort_calls.refusal.1b4d7615ba81168a:
	.cfi_startproc
	beq	a3, a1, .LBB48_3
	sltu	a0, a3, a1
	beqz	a0, .LBB48_4
.LBB48_2:
	li	a0, 1
	ret
.LBB48_3:
	sltu	a0, a2, a0
	bnez	a0, .LBB48_2
.LBB48_4:
	li	a0, 5
	ret
.Lfunc_end48:
	.size	ic_raw.sort_calls.refusal.1b4d7615ba81168a, .Lfunc_end48-ic_raw.sort_calls.refusal.1b4d7615ba81168a
	.cfi_endproc
	.section	.text.ic_list_algorithms.merge.merge_runs.07d679d1abf7571e,"ax",@progbits
	.p2align	1
	.type	ic_list_algorithms.merge.merge_runs.07d679d1abf7571e,@function
ic_list_algorithms.merge.merge_runs.07d679d1abf7571e:
	.cfi_startproc
	mv	a6, a3
	mv	a7, a2
	lbu	t0, 1(a1)
	lbu	t1, 2(a1)
	lbu	a2, 3(a1)
	lbu	a3, 0(a1)
	slli	t0, t0, 8
	slli	t1, t1, 16
	slli	a2, a2, 24
	or	a3, t0, a3
	or	a2, a2, t1
	or	a2, a2, a3
	add	t0, a2, a4
	add	t1, a2, a7
	lw	a2, -4(t0)
	lw	a3, -4(t1)
	bne	a2, a3, .LBB49_2
	lw	a2, -8(t0)
	lw	a3, -8(t1)
.LBB49_2:
	sltu	a2, a2, a3
	addi	sp, sp, -16
	.cfi_def_cfa_offset 16
	sw	s0, 12(sp)
	.cfi_offset s0, -4
	.cfi_remember_state
	lw	a3, 0(a0)
	li	t3, 15
	li	t4, -8
	beqz	a2, .LBB49_5
	add	a2, a3, a4
	lw	a3, -4(a2)
	lw	t0, -8(a2)
	and	t6, a3, t3
	and	s0, t0, t4
	or	a3, s0, t6
	beqz	a3, .LBB49_15
	mv	t0, a4
	mv	t1, a5
	mv	t5, a7
	mv	t2, a6
	mv	a4, s0
	mv	a5, t6
	mv	a6, t0
	j	.LBB49_8
.LBB49_5:
	add	a2, a3, a7
	lw	a3, -4(a2)
	lw	t0, -8(a2)
	and	t2, a3, t3
	and	t5, t0, t4
	or	a3, t5, t2
	beqz	a3, .LBB49_16
	mv	t0, a7
	mv	t1, a6
	mv	a6, a7
	j	.LBB49_8
.LBB49_7:
	add	a3, a3, a6
	lw	a2, -4(a3)
	lw	a3, -8(a3)
	addi	s0, a6, 1
	and	a2, a2, t3
	and	t5, a3, t4
	or	a3, t5, a2
	sw	s0, -8(a7)
	sw	t2, -4(a7)
	mv	t2, a2
	beqz	a3, .LBB49_17
.LBB49_8:
	mv	a7, a6
	mv	a6, t5
	mv	a2, a4
.LBB49_9:
	lbu	t5, 1(a1)
	lbu	t6, 2(a1)
	lbu	a3, 3(a1)
	lbu	s0, 0(a1)
	mv	a4, a2
	slli	t5, t5, 8
	slli	t6, t6, 16
	slli	a3, a3, 24
	or	a2, t5, s0
	or	a3, a3, t6
	or	a2, a2, a3
	add	t5, a2, a4
	add	t6, a2, a6
	lw	a2, -4(t5)
	lw	a3, -4(t6)
	bne	a2, a3, .LBB49_11
	lw	a2, -8(t5)
	lw	a3, -8(t6)
.LBB49_11:
	sltu	a2, a2, a3
	lw	a3, 0(a0)
	add	a7, a7, a3
	beqz	a2, .LBB49_7
	add	a3, a3, a4
	lw	a2, -4(a3)
	lw	a3, -8(a3)
	addi	t5, a4, 1
	and	s0, a2, t3
	and	a2, a3, t4
	or	a3, a2, s0
	sw	t5, -8(a7)
	sw	a5, -4(a7)
	mv	a5, s0
	mv	a7, a4
	bnez	a3, .LBB49_9
	lw	a0, 0(a0)
	addi	a6, a6, 1
	add	a0, a0, a4
	sw	a6, -8(a0)
	sw	t2, -4(a0)
.LBB49_14:
	mv	a0, t0
	mv	a1, t1
	lw	s0, 12(sp)
	.cfi_restore s0
	addi	sp, sp, 16
	.cfi_def_cfa_offset 0
	ret
.LBB49_15:
	.cfi_restore_state
	.cfi_remember_state
	addi	a7, a7, 1
	sw	a7, -8(a2)
	sw	a6, -4(a2)
	mv	a0, a4
	mv	a1, a5
	lw	s0, 12(sp)
	.cfi_restore s0
	addi	sp, sp, 16
	.cfi_def_cfa_offset 0
	ret
.LBB49_16:
	.cfi_restore_state
	.cfi_remember_state
	addi	a4, a4, 1
	sw	a4, -8(a2)
	sw	a5, -4(a2)
	mv	a0, a7
	mv	a1, a6
	lw	s0, 12(sp)
	.cfi_restore s0
	addi	sp, sp, 16
	.cfi_def_cfa_offset 0
	ret
.LBB49_17:
	.cfi_restore_state
	lw	a0, 0(a0)
	addi	a4, a4, 1
	seqz	a1, a4
	add	a1, a1, a5
	add	a0, a0, a6
	sw	a4, -8(a0)
	sw	a1, -4(a0)
	j	.LBB49_14
.Lfunc_end49:
	.size	ic_list_algorithms.merge.merge_runs.07d679d1abf7571e, .Lfunc_end49-ic_list_algorithms.merge.merge_runs.07d679d1abf7571e
	.cfi_endproc
	.section	.text.unlikely.ic_raw.stack_calls.pop_front_slow,"ax",@progbits
	.p2align	1
	.type	ic_raw.stack_calls.pop_front_slow,@function
ic_raw.stack_calls.pop_front_slow:
	.cfi_startproc
	lw	a5, 4(a3)
	lw	a6, 0(a3)
	andi	a5, a5, 15
	andi	a7, a6, -8
	or	a6, a7, a5
	beqz	a6, .LBB50_3
	srli	a6, a7, 3
	slli	t0, a5, 29
	srli	a5, a5, 3
	or	a6, a6, t0
	beq	a5, a2, .LBB50_4
	sltu	a5, a2, a5
	beqz	a5, .LBB50_5
	j	.LBB50_7
.LBB50_3:
	li	a0, 4
	ret
.LBB50_4:
	sltu	a5, a1, a6
	bnez	a5, .LBB50_7
.LBB50_5:
	add	t0, a0, a7
	lw	a7, -8(t0)
	andi	a5, a7, 1
	beqz	a5, .LBB50_7
	li	a0, 0
	li	a1, 15
	lw	a2, -4(t0)
	sw	zero, -8(t0)
	sw	zero, -4(t0)
	li	a5, -8
	addi	a6, a6, -1
	and	a5, a7, a5
	and	a1, a1, a2
	sw	a5, 0(a3)
	sw	a1, 4(a3)
	sw	a6, 0(a4)
	ret
.LBB50_7:
	li	a3, -1
	tail	ic_raw.table.RawTable.refusal_at.feecb86c9dd45d96
.Lfunc_end50:
	.size	ic_raw.stack_calls.pop_front_slow, .Lfunc_end50-ic_raw.stack_calls.pop_front_slow
	.cfi_endproc
	.section	.text.unlikely.ic_raw.table.RawTable.refusal_at.feecb86c9dd45d96,"ax",@progbits
	.p2align	1
	.type	ic_raw.table.RawTable.refusal_at.feecb86c9dd45d96,@function
ic_raw.table.RawTable.refusal_at.feecb86c9dd45d96:
	.cfi_startproc
	addi	a3, a3, 1
	bnez	a3, .LBB51_2
.LBB51_1:
	li	a0, 5
	ret
.LBB51_2:
	sltu	a1, a1, a3
	seqz	a2, a2
	and	a1, a1, a2
	beqz	a1, .LBB51_4
	li	a0, 1
	ret
.LBB51_4:
	slli	a3, a3, 3
	add	a0, a0, a3
	lbu	a0, -8(a0)
	andi	a0, a0, 1
	bnez	a0, .LBB51_1
	li	a0, 3
	ret
.Lfunc_end51:
	.size	ic_raw.table.RawTable.refusal_at.feecb86c9dd45d96, .Lfunc_end51-ic_raw.table.RawTable.refusal_at.feecb86c9dd45d96
	.cfi_endproc
	.section	.text.ic_list_algorithms.sort.sort_front.07d679d1abf7571e,"ax",@progbits
	.p2align	1
	.type	ic_list_algorithms.sort.sort_front.07d679d1abf7571e,@function
ic_list_algorithms.sort.sort_front.07d679d1abf7571e:
	.cfi_startproc
	addi	sp, sp, -96
	.cfi_def_cfa_offset 96
	sw	ra, 92(sp)
	sw	s0, 88(sp)
	sw	s1, 84(sp)
	sw	s2, 80(sp)
	sw	s3, 76(sp)
	sw	s4, 72(sp)
	sw	s5, 68(sp)
	sw	s6, 64(sp)
	sw	s7, 60(sp)
	.cfi_offset ra, -4
	.cfi_offset s0, -8
	.cfi_offset s1, -12
	.cfi_offset s2, -16
	.cfi_offset s3, -20
	.cfi_offset s4, -24
	.cfi_offset s5, -28
	.cfi_offset s6, -32
	.cfi_offset s7, -36
	.cfi_remember_state
	or	s1, a5, a6
	mv	s0, a0
	beqz	s1, .LBB52_4
	xori	a0, a5, 1
	or	a0, a0, a6
	bnez	a0, .LBB52_5
	lw	a0, 0(a1)
	add	a0, a0, a3
	lw	a5, -4(a0)
	lw	s1, -8(a0)
	li	a6, 1
	andi	a5, a5, 15
	andi	a7, s1, -8
	or	s1, a7, a5
	sw	a6, -8(a0)
	sw	zero, -4(a0)
	beqz	s1, .LBB52_9
	lw	a0, 0(a1)
	add	a0, a0, a7
	lw	s1, -4(a0)
	lw	t0, -8(a0)
	li	t1, 15
	li	t2, -8
	and	s3, s1, t1
	and	s2, t0, t2
	or	s1, s2, s3
	snez	s1, s1
	sw	a6, -8(a0)
	sw	zero, -4(a0)
	mv	a0, a1
	mv	a1, a2
	mv	a2, a3
	mv	a3, a4
	mv	a4, a7
	call	ic_list_algorithms.merge.merge_runs.07d679d1abf7571e
	srli	a6, a1, 24
	srli	a3, a1, 16
	srli	a4, a1, 8
	srli	a7, a0, 24
	srli	t0, a0, 16
	srli	a5, a0, 8
	sb	zero, 12(s0)
	sb	zero, 13(s0)
	sb	zero, 14(s0)
	sb	zero, 15(s0)
	sb	s1, 8(s0)
	sb	zero, 9(s0)
	sb	zero, 10(s0)
	sb	zero, 11(s0)
	sb	s3, 20(s0)
	sb	zero, 21(s0)
	sb	zero, 22(s0)
	sb	zero, 23(s0)
	srli	s1, s2, 24
	srli	a2, s2, 16
	sb	a1, 4(s0)
	sb	a4, 5(s0)
	sb	a3, 6(s0)
	sb	a6, 7(s0)
	srli	a1, s2, 8
	sb	a0, 0(s0)
	sb	a5, 1(s0)
	sb	t0, 2(s0)
	sb	a7, 3(s0)
	sb	s2, 16(s0)
	sb	a1, 17(s0)
	sb	a2, 18(s0)
	sb	s1, 19(s0)
	j	.LBB52_7
.LBB52_4:
	lw	a7, 0(a1)
	li	a6, 1
	srli	t0, a4, 24
	srli	a5, a4, 16
	srli	s1, a4, 8
	srli	t2, a3, 24
	srli	a0, a3, 16
	add	a7, a7, a3
	lw	a2, -8(a7)
	lw	t1, -4(a7)
	sw	a6, -8(a7)
	sw	zero, -4(a7)
	srli	a1, a3, 8
	sb	a4, 4(s0)
	sb	s1, 5(s0)
	sb	a5, 6(s0)
	sb	t0, 7(s0)
	sb	a3, 0(s0)
	sb	a1, 1(s0)
	sb	a0, 2(s0)
	sb	t2, 3(s0)
	sb	zero, 12(s0)
	sb	zero, 13(s0)
	sb	zero, 14(s0)
	sb	zero, 15(s0)
	andi	a0, t1, 15
	andi	a1, a2, -8
	srli	a3, a2, 24
	srli	a4, a2, 16
	srli	a2, a2, 8
	or	a5, a1, a0
	sb	a0, 20(s0)
	sb	zero, 21(s0)
	sb	zero, 22(s0)
	sb	zero, 23(s0)
	snez	a0, a5
	sb	a0, 8(s0)
	sb	zero, 9(s0)
	sb	zero, 10(s0)
	sb	zero, 11(s0)
	sb	a1, 16(s0)
	sb	a2, 17(s0)
	sb	a4, 18(s0)
	sb	a3, 19(s0)
	j	.LBB52_7
.LBB52_5:
	seqz	a0, a5
	sub	s3, a6, a0
	addi	s4, a5, -1
	addi	a0, sp, 32
	mv	s5, a1
	mv	s6, a2
	mv	a5, s4
	mv	a6, s3
	call	ic_list_algorithms.sort.sort_front.07d679d1abf7571e
	lw	s2, 36(sp)
	lbu	a0, 40(sp)
	lw	s1, 32(sp)
	li	a1, 1
	bne	a0, a1, .LBB52_8
	lw	a3, 48(sp)
	lw	a4, 52(sp)
	addi	a0, sp, 8
	mv	a1, s5
	mv	a2, s6
	mv	a5, s4
	mv	a6, s3
	call	ic_list_algorithms.sort.sort_front.07d679d1abf7571e
	lw	a4, 8(sp)
	lw	a5, 12(sp)
	lbu	s7, 16(sp)
	lw	s3, 24(sp)
	lw	s4, 28(sp)
	mv	a0, s5
	mv	a1, s6
	mv	a2, s1
	mv	a3, s2
	call	ic_list_algorithms.merge.merge_runs.07d679d1abf7571e
	srli	a6, a1, 24
	srli	t0, a1, 16
	srli	a4, a1, 8
	srli	a7, a0, 24
	srli	t1, a0, 16
	srli	t2, a0, 8
	sb	zero, 12(s0)
	sb	zero, 13(s0)
	sb	zero, 14(s0)
	sb	zero, 15(s0)
	sb	s7, 8(s0)
	sb	zero, 9(s0)
	sb	zero, 10(s0)
	sb	zero, 11(s0)
	srli	a5, s4, 24
	srli	a3, s4, 16
	srli	s1, s4, 8
	srli	a2, s3, 24
	sb	a1, 4(s0)
	sb	a4, 5(s0)
	sb	t0, 6(s0)
	sb	a6, 7(s0)
	srli	a1, s3, 16
	sb	a0, 0(s0)
	sb	t2, 1(s0)
	sb	t1, 2(s0)
	sb	a7, 3(s0)
	srli	a0, s3, 8
	sb	s4, 20(s0)
	sb	s1, 21(s0)
	sb	a3, 22(s0)
	sb	a5, 23(s0)
	sb	s3, 16(s0)
	sb	a0, 17(s0)
	sb	a1, 18(s0)
	sb	a2, 19(s0)
.LBB52_7:
	lw	ra, 92(sp)
	lw	s0, 88(sp)
	lw	s1, 84(sp)
	lw	s2, 80(sp)
	lw	s3, 76(sp)
	lw	s4, 72(sp)
	lw	s5, 68(sp)
	lw	s6, 64(sp)
	lw	s7, 60(sp)
	.cfi_restore ra
	.cfi_restore s0
	.cfi_restore s1
	.cfi_restore s2
	.cfi_restore s3
	.cfi_restore s4
	.cfi_restore s5
	.cfi_restore s6
	.cfi_restore s7
	addi	sp, sp, 96
	.cfi_def_cfa_offset 0
	ret
.LBB52_8:
	.cfi_restore_state
	srli	a1, s1, 24
	srli	a2, s1, 16
	srli	a3, s1, 8
	srli	a6, s2, 24
	srli	a5, s2, 16
	srli	a4, s2, 8
	addi	a0, s0, 8
	sb	s1, 0(s0)
	sb	a3, 1(s0)
	sb	a2, 2(s0)
	sb	a1, 3(s0)
	li	a2, 16
	sb	s2, 4(s0)
	sb	a4, 5(s0)
	sb	a5, 6(s0)
	j	.LBB52_10
.LBB52_9:
	srli	a7, a3, 24
	srli	a2, a3, 16
	srli	a5, a3, 8
	srli	a6, a4, 24
	srli	s1, a4, 16
	srli	a1, a4, 8
	addi	a0, s0, 8
	sb	a3, 0(s0)
	sb	a5, 1(s0)
	sb	a2, 2(s0)
	sb	a7, 3(s0)
	li	a2, 16
	sb	a4, 4(s0)
	sb	a1, 5(s0)
	sb	s1, 6(s0)
.LBB52_10:
	sb	a6, 7(s0)
	li	a1, 0
	li	a3, 0
	li	a4, 0
	lw	ra, 92(sp)
	lw	s0, 88(sp)
	lw	s1, 84(sp)
	lw	s2, 80(sp)
	lw	s3, 76(sp)
	lw	s4, 72(sp)
	lw	s5, 68(sp)
	lw	s6, 64(sp)
	lw	s7, 60(sp)
	.cfi_restore ra
	.cfi_restore s0
	.cfi_restore s1
	.cfi_restore s2
	.cfi_restore s3
	.cfi_restore s4
	.cfi_restore s5
	.cfi_restore s6
	.cfi_restore s7
	addi	sp, sp, 96
	.cfi_def_cfa_offset 0
	tail	ic.clear
.Lfunc_end52:
	.size	ic_list_algorithms.sort.sort_front.07d679d1abf7571e, .Lfunc_end52-ic_list_algorithms.sort.sort_front.07d679d1abf7571e
	.cfi_endproc
	.section	.text.ic_check.tree.check_below.ffc36cde30076884,"ax",@progbits
	.p2align	1
	.type	ic_check.tree.check_below.ffc36cde30076884,@function
ic_check.tree.check_below.ffc36cde30076884:
	.cfi_startproc
	addi	sp, sp, -112
	.cfi_def_cfa_offset 112
	sw	ra, 108(sp)
	sw	s0, 104(sp)
	sw	s1, 100(sp)
	sw	s2, 96(sp)
	sw	s3, 92(sp)
	sw	s4, 88(sp)
	sw	s5, 84(sp)
	sw	s6, 80(sp)
	sw	s7, 76(sp)
	sw	s8, 72(sp)
	sw	s9, 68(sp)
	sw	s10, 64(sp)
	sw	s11, 60(sp)
	.cfi_offset ra, -4
	.cfi_offset s0, -8
	.cfi_offset s1, -12
	.cfi_offset s2, -16
	.cfi_offset s3, -20
	.cfi_offset s4, -24
	.cfi_offset s5, -28
	.cfi_offset s6, -32
	.cfi_offset s7, -36
	.cfi_offset s8, -40
	.cfi_offset s9, -44
	.cfi_offset s10, -48
	.cfi_offset s11, -52
	.cfi_remember_state
	andi	a2, a2, 1
	beqz	a2, .LBB53_4
	beqz	t3, .LBB53_11
	lw	s1, 12(a1)
	srli	t0, a3, 3
	slli	a2, a4, 29
	srli	s0, a4, 3
	or	a2, t0, a2
	beq	s0, s1, .LBB53_6
	sltu	s1, s1, s0
	beqz	s1, .LBB53_7
	j	.LBB53_11
.LBB53_4:
	sb	zero, 4(a0)
	sb	zero, 5(a0)
	sb	zero, 6(a0)
	sb	zero, 7(a0)
	li	a1, 1
	sb	zero, 12(a0)
	sb	zero, 13(a0)
	sb	zero, 14(a0)
	sb	zero, 15(a0)
	sb	zero, 8(a0)
	sb	zero, 9(a0)
	sb	zero, 10(a0)
	sb	zero, 11(a0)
	sb	zero, 16(a0)
	sb	zero, 17(a0)
	sb	zero, 18(a0)
	sb	zero, 19(a0)
	sb	a1, 0(a0)
	sb	zero, 1(a0)
	sb	zero, 2(a0)
	sb	zero, 3(a0)
	sb	a1, 20(a0)
	sb	zero, 21(a0)
	sb	zero, 22(a0)
	sb	zero, 23(a0)
.LBB53_5:
	lw	ra, 108(sp)
	lw	s0, 104(sp)
	lw	s1, 100(sp)
	lw	s2, 96(sp)
	lw	s3, 92(sp)
	lw	s4, 88(sp)
	lw	s5, 84(sp)
	lw	s6, 80(sp)
	lw	s7, 76(sp)
	lw	s8, 72(sp)
	lw	s9, 68(sp)
	lw	s10, 64(sp)
	lw	s11, 60(sp)
	.cfi_restore ra
	.cfi_restore s0
	.cfi_restore s1
	.cfi_restore s2
	.cfi_restore s3
	.cfi_restore s4
	.cfi_restore s5
	.cfi_restore s6
	.cfi_restore s7
	.cfi_restore s8
	.cfi_restore s9
	.cfi_restore s10
	.cfi_restore s11
	addi	sp, sp, 112
	.cfi_def_cfa_offset 0
	ret
.LBB53_6:
	.cfi_restore_state
	.cfi_remember_state
	lw	s1, 8(a1)
	sltu	s1, s1, a2
	bnez	s1, .LBB53_11
.LBB53_7:
	lw	s1, 0(a1)
	slli	s9, a2, 3
	slli	a2, a2, 4
	add	s9, s9, a2
	add	a2, s1, s9
	lw	s0, -24(a2)
	andi	s1, s0, 1
	beqz	s1, .LBB53_11
	lw	t1, -8(a2)
	lw	t0, -4(a2)
	zext.b	a5, a5
	seqz	a5, a5
	addi	a5, a5, -1
	and	a6, a5, a6
	and	a7, a5, a7
	andi	s1, t1, -8
	andi	a5, t0, 15
	xor	a5, a5, a7
	xor	s1, s1, a6
	or	a5, a5, s1
	bnez	a5, .LBB53_11
	li	a7, 15
	li	a6, -8
	lw	t1, -20(a2)
	lw	s1, -16(a2)
	lw	a5, -12(a2)
	and	t0, s0, a6
	and	s0, t1, a7
	or	a2, t0, s0
	and	s7, a5, a7
	and	s8, s1, a6
	beqz	a2, .LBB53_13
	xor	a5, t0, s8
	xor	s1, s0, s7
	or	a5, a5, s1
	bnez	a5, .LBB53_13
.LBB53_11:
	li	a2, 24
.LBB53_12:
	li	a1, 0
	li	a3, 0
	li	a4, 0
	lw	ra, 108(sp)
	lw	s0, 104(sp)
	lw	s1, 100(sp)
	lw	s2, 96(sp)
	lw	s3, 92(sp)
	lw	s4, 88(sp)
	lw	s5, 84(sp)
	lw	s6, 80(sp)
	lw	s7, 76(sp)
	lw	s8, 72(sp)
	lw	s9, 68(sp)
	lw	s10, 64(sp)
	lw	s11, 60(sp)
	.cfi_restore ra
	.cfi_restore s0
	.cfi_restore s1
	.cfi_restore s2
	.cfi_restore s3
	.cfi_restore s4
	.cfi_restore s5
	.cfi_restore s6
	.cfi_restore s7
	.cfi_restore s8
	.cfi_restore s9
	.cfi_restore s10
	.cfi_restore s11
	addi	sp, sp, 112
	.cfi_def_cfa_offset 0
	tail	ic.clear
.LBB53_13:
	.cfi_restore_state
	mv	s2, a0
	snez	a2, a2
	addi	s4, t3, -1
	addi	a0, sp, 32
	li	a5, 1
	li	s11, 1
	mv	s3, a1
	mv	a6, a3
	mv	a3, t0
	mv	a7, a4
	mv	a4, s0
	mv	s6, a6
	mv	s5, a7
	mv	t3, s4
	call	ic_check.tree.check_below.ffc36cde30076884
	lbu	a0, 32(sp)
	bne	a0, s11, .LBB53_20
	lw	s0, 40(sp)
	lw	a0, 44(sp)
	sw	a0, 4(sp)
	lw	s1, 48(sp)
	lbu	s10, 52(sp)
	or	a0, s8, s7
	snez	a2, a0
	addi	a0, sp, 8
	li	a5, 1
	mv	a1, s3
	mv	a3, s8
	mv	a4, s7
	mv	a6, s6
	mv	a7, s5
	mv	t3, s4
	call	ic_check.tree.check_below.ffc36cde30076884
	lbu	a0, 8(sp)
	bne	a0, s11, .LBB53_20
	lw	a0, 24(sp)
	bne	s1, a0, .LBB53_21
	lw	a0, 0(s3)
	add	a0, a0, s9
	lw	a0, -8(a0)
	lw	a2, 16(sp)
	lw	a1, 20(sp)
	andi	a3, a0, 1
	bnez	a3, .LBB53_19
	beqz	s10, .LBB53_21
	lbu	a3, 28(sp)
	beqz	a3, .LBB53_21
.LBB53_19:
	andi	a6, a0, 1
	add	a2, a2, s0
	lw	a3, 4(sp)
	add	a3, a3, a1
	sh	zero, 56(sp)
	sb	zero, 58(sp)
	sltu	a4, a2, s0
	addi	a5, a2, 1
	add	a7, s1, a6
	add	a3, a3, a4
	seqz	a4, a5
	add	s0, a3, a4
	li	a2, 1
	j	.LBB53_22
.LBB53_20:
	li	a2, 24
	mv	a0, s2
	j	.LBB53_12
.LBB53_21:
	li	a2, 0
	li	a5, 0
	li	s0, 0
	li	a7, 0
	li	a6, 0
	sh	zero, 56(sp)
	sb	zero, 58(sp)
.LBB53_22:
	sb	zero, 4(s2)
	sb	zero, 5(s2)
	sb	zero, 6(s2)
	sb	zero, 7(s2)
	sb	a2, 0(s2)
	sb	zero, 1(s2)
	sb	zero, 2(s2)
	sb	zero, 3(s2)
	srli	a0, a5, 24
	srli	s1, a5, 16
	srli	a2, a5, 8
	srli	a1, s0, 24
	srli	a3, s0, 16
	srli	a4, s0, 8
	srli	t0, a7, 24
	srli	t1, a7, 16
	sb	a5, 8(s2)
	sb	a2, 9(s2)
	sb	s1, 10(s2)
	sb	a0, 11(s2)
	srli	a0, a7, 8
	sb	s0, 12(s2)
	sb	a4, 13(s2)
	sb	a3, 14(s2)
	sb	a1, 15(s2)
	lbu	a1, 56(sp)
	lbu	a2, 57(sp)
	lbu	a3, 58(sp)
	sb	a7, 16(s2)
	sb	a0, 17(s2)
	sb	t1, 18(s2)
	sb	t0, 19(s2)
	sb	a6, 20(s2)
	sb	a1, 21(s2)
	sb	a2, 22(s2)
	sb	a3, 23(s2)
	j	.LBB53_5
.Lfunc_end53:
	.size	ic_check.tree.check_below.ffc36cde30076884, .Lfunc_end53-ic_check.tree.check_below.ffc36cde30076884
	.cfi_endproc
	.section	.text.ic_rbtree.join.roots.join.f4da04d8a93b4f27,"ax",@progbits
	.p2align	1
	.type	ic_rbtree.join.roots.join.f4da04d8a93b4f27,@function
ic_rbtree.join.roots.join.f4da04d8a93b4f27:
	.cfi_startproc
	addi	sp, sp, -96
	.cfi_def_cfa_offset 96
	sw	ra, 92(sp)
	sw	s0, 88(sp)
	sw	s1, 84(sp)
	sw	s2, 80(sp)
	sw	s3, 76(sp)
	sw	s4, 72(sp)
	.cfi_offset ra, -4
	.cfi_offset s0, -8
	.cfi_offset s1, -12
	.cfi_offset s2, -16
	.cfi_offset s3, -20
	.cfi_offset s4, -24
	mv	t0, a6
	mv	t1, a5
	mv	s2, a0
	zext.b	a6, a2
	li	t2, 15
	li	t5, -8
	beqz	a6, .LBB54_8
	li	a2, 0
	li	s4, 0
	lw	t6, 0(a1)
	mv	a5, a3
.LBB54_2:
	andi	s0, a5, -8
	slli	a5, a5, 1
	andi	a5, a5, -16
	add	a5, a5, s0
	add	a5, a5, t6
	lw	s0, -8(a5)
	andi	s0, s0, 1
	li	s1, 65
	add	s4, s4, s0
	bltu	s1, a2, .LBB54_4
	lw	s0, -20(a5)
	lw	a5, -24(a5)
	and	s0, s0, t2
	and	a5, a5, t5
	or	s0, s0, a5
	addi	a2, a2, 1
	bnez	s0, .LBB54_2
.LBB54_4:
	zext.b	a7, a7
	beqz	a7, .LBB54_9
.LBB54_5:
	li	a2, 0
	li	s1, 0
	lw	t6, 0(a1)
	mv	s0, t3
.LBB54_6:
	andi	a5, s0, -8
	slli	s0, s0, 1
	andi	s0, s0, -16
	add	a5, a5, s0
	add	a5, a5, t6
	lw	s0, -8(a5)
	andi	s0, s0, 1
	li	s3, 65
	add	s1, s1, s0
	bltu	s3, a2, .LBB54_10
	lw	s0, -20(a5)
	lw	a5, -24(a5)
	and	a0, s0, t2
	and	s0, a5, t5
	or	a0, a0, s0
	addi	a2, a2, 1
	bnez	a0, .LBB54_6
	j	.LBB54_10
.LBB54_8:
	li	s4, 0
	zext.b	a7, a7
	bnez	a7, .LBB54_5
.LBB54_9:
	li	s1, 0
.LBB54_10:
	sw	s4, 64(sp)
	sw	zero, 68(sp)
	sw	a6, 48(sp)
	sw	zero, 52(sp)
	sw	a3, 56(sp)
	sw	a4, 60(sp)
	sw	s1, 40(sp)
	sw	zero, 44(sp)
	sw	a7, 24(sp)
	sw	zero, 28(sp)
	sw	t3, 32(sp)
	sw	t4, 36(sp)
	sw	zero, 0(sp)
	sw	zero, 4(sp)
	sw	zero, 8(sp)
	sw	zero, 12(sp)
	sw	zero, 16(sp)
	sw	zero, 20(sp)
	mv	a0, sp
	bgeu	s4, s1, .LBB54_12
	addi	a2, sp, 24
	addi	a6, sp, 48
	li	a3, 0
	j	.LBB54_13
.LBB54_12:
	addi	a2, sp, 48
	li	a3, 1
	addi	a6, sp, 24
.LBB54_13:
	mv	a4, t1
	mv	a5, t0
	call	ic_rbtree.join.roots.join_higher.f4da04d8a93b4f27
	lbu	a0, 0(sp)
	lw	a1, 8(sp)
	lw	a2, 12(sp)
	sb	a0, 0(s2)
	sw	a1, 8(s2)
	sw	a2, 12(s2)
	lw	ra, 92(sp)
	lw	s0, 88(sp)
	lw	s1, 84(sp)
	lw	s2, 80(sp)
	lw	s3, 76(sp)
	lw	s4, 72(sp)
	.cfi_restore ra
	.cfi_restore s0
	.cfi_restore s1
	.cfi_restore s2
	.cfi_restore s3
	.cfi_restore s4
	addi	sp, sp, 96
	.cfi_def_cfa_offset 0
	ret
.Lfunc_end54:
	.size	ic_rbtree.join.roots.join.f4da04d8a93b4f27, .Lfunc_end54-ic_rbtree.join.roots.join.f4da04d8a93b4f27
	.cfi_endproc
	.section	.text.ic_rbtree.join.roots.join_higher.f4da04d8a93b4f27,"ax",@progbits
	.p2align	1
	.type	ic_rbtree.join.roots.join_higher.f4da04d8a93b4f27,@function
ic_rbtree.join.roots.join_higher.f4da04d8a93b4f27:
	.cfi_startproc
	addi	sp, sp, -64
	.cfi_def_cfa_offset 64
	sw	ra, 60(sp)
	sw	s0, 56(sp)
	sw	s1, 52(sp)
	sw	s2, 48(sp)
	sw	s3, 44(sp)
	sw	s4, 40(sp)
	sw	s5, 36(sp)
	sw	s6, 32(sp)
	sw	s7, 28(sp)
	sw	s8, 24(sp)
	sw	s9, 20(sp)
	sw	s10, 16(sp)
	sw	s11, 12(sp)
	.cfi_offset ra, -4
	.cfi_offset s0, -8
	.cfi_offset s1, -12
	.cfi_offset s2, -16
	.cfi_offset s3, -20
	.cfi_offset s4, -24
	.cfi_offset s5, -28
	.cfi_offset s6, -32
	.cfi_offset s7, -36
	.cfi_offset s8, -40
	.cfi_offset s9, -44
	.cfi_offset s10, -48
	.cfi_offset s11, -52
	.cfi_remember_state
	lbu	t1, 11(a2)
	lbu	t0, 12(a2)
	lbu	s1, 13(a2)
	lbu	t2, 14(a2)
	lbu	ra, 0(a2)
	lbu	t4, 8(a2)
	lbu	t5, 9(a2)
	lbu	t6, 10(a2)
	lbu	s0, 15(a2)
	lbu	s2, 16(a2)
	lbu	s3, 17(a2)
	lbu	s4, 18(a2)
	lbu	a2, 19(a2)
	slli	s1, s1, 8
	slli	t2, t2, 16
	slli	s0, s0, 24
	or	t0, s1, t0
	or	t2, s0, t2
	lbu	t3, 12(a6)
	lbu	s5, 13(a6)
	lbu	s9, 14(a6)
	lbu	s10, 15(a6)
	slli	t5, t5, 8
	slli	s1, t6, 16
	slli	t1, t1, 24
	slli	s3, s3, 8
	slli	s4, s4, 16
	slli	a2, a2, 24
	or	t6, t5, t4
	or	s8, t1, s1
	or	s6, s3, s2
	or	s7, a2, s4
	lbu	t4, 8(a6)
	lbu	s1, 9(a6)
	lbu	a2, 10(a6)
	lbu	s0, 11(a6)
	andi	t1, a3, 1
	slli	s2, s5, 8
	slli	t5, s9, 16
	slli	s3, s10, 24
	slli	s1, s1, 8
	slli	a2, a2, 16
	slli	a3, s0, 24
	bnez	t1, .LBB55_2
	li	s11, -24
	j	.LBB55_3
.LBB55_2:
	li	s11, -16
.LBB55_3:
	or	s2, s2, t3
	or	s4, s3, t5
	or	s3, s1, t4
	or	s5, a3, a2
	or	s9, t2, t0
	lbu	t4, 0(a6)
	lw	t5, 0(a1)
	or	t3, s8, t6
	li	a2, 1
	or	a7, s7, s6
	sw	a7, 4(sp)
	sw	s9, 8(sp)
	bne	ra, a2, .LBB55_7
	andi	a2, t3, -8
	slli	a3, t3, 1
	andi	a3, a3, -16
	add	a2, a2, t5
	add	t0, a2, a3
	lbu	a2, 17(a6)
	lbu	s1, 16(a6)
	lbu	s0, 18(a6)
	lbu	a3, 19(a6)
	slli	a2, a2, 8
	or	a2, a2, s1
	lw	s1, -8(t0)
	slli	s0, s0, 16
	slli	a3, a3, 24
	or	a3, a3, s0
	or	s8, a3, a2
	andi	a2, s1, 1
	bne	a7, s8, .LBB55_20
	beqz	a2, .LBB55_20
	mv	s10, ra
	li	a7, 0
	li	s7, 0
	li	t2, 0
	j	.LBB55_8
.LBB55_7:
	mv	s10, ra
	li	s7, 0
	li	t2, 0
	li	a7, 1
.LBB55_8:
	mv	s6, t3
	mv	t6, s9
	li	a6, 1
.LBB55_9:
	or	s4, s4, s2
	or	s2, s5, s3
	andi	a3, a4, -8
	slli	a2, a4, 1
	seqz	s1, t4
	andi	a2, a2, -16
	add	s5, a2, a3
	add	t5, t5, s5
	addi	t0, a7, -1
	beqz	t1, .LBB55_11
	addi	s1, s1, -1
	and	a2, s1, s4
	and	s1, s1, s2
	sw	s1, -16(t5)
	sw	a2, -12(t5)
	lw	a2, 0(a1)
	add	a2, a2, s5
	lw	s3, -24(a2)
	and	t5, t0, t6
	and	t0, t0, s6
	andi	s1, s3, 1
	add	t0, t0, s1
	sltu	s1, t0, s1
	add	t5, t5, s1
	sw	t0, -24(a2)
	sw	t5, -20(a2)
	j	.LBB55_12
.LBB55_11:
	lw	a2, -24(t5)
	addi	s1, s1, -1
	and	s3, s1, s4
	and	s1, s1, s2
	andi	a2, a2, 1
	add	s1, s1, a2
	sltu	a2, s1, a2
	add	a2, a2, s3
	sw	s1, -24(t5)
	sw	a2, -20(t5)
	lw	t5, 0(a1)
	and	s1, t0, t6
	and	a2, t0, s6
	add	t5, t5, s5
	sw	a2, -16(t5)
	sw	s1, -12(t5)
.LBB55_12:
	lw	a2, 0(a1)
	add	a2, a2, s5
	lw	s1, -8(a2)
	addi	a3, a6, -1
	and	s0, a3, t2
	and	a3, a3, s7
	andi	s1, s1, 1
	add	a3, a3, s1
	sltu	s1, a3, s1
	add	s0, s0, s1
	sw	a3, -8(a2)
	sw	s0, -4(a2)
	beqz	a7, .LBB55_17
	li	a2, 1
	lw	a7, 8(sp)
	bne	t4, a2, .LBB55_18
.LBB55_14:
	lw	a2, 0(a1)
	andi	a3, s2, -8
	slli	s2, s2, 1
	andi	s1, s2, -16
	add	a3, a3, s1
	add	a2, a2, a3
	lw	a3, -8(a2)
	andi	a3, a3, 1
	or	a3, a3, a4
	sw	a3, -8(a2)
	sw	a5, -4(a2)
	lw	a2, 0(a1)
	add	a2, a2, s5
	lw	a3, -8(a2)
	lw	s1, -4(a2)
	bnez	a6, .LBB55_19
.LBB55_15:
	seqz	s0, s10
	andi	a3, a3, -2
	addi	s0, s0, -1
	sw	a3, -8(a2)
	sw	s1, -4(a2)
	lw	a2, 0(a1)
	andi	a3, s7, -8
	slli	s1, s7, 1
	andi	s1, s1, -16
	add	a3, a3, s1
	add	a2, a2, a3
	beqz	t1, .LBB55_24
	sw	a4, -16(a2)
	sw	a5, -12(a2)
	j	.LBB55_25
.LBB55_17:
	lw	a2, 0(a1)
	andi	a3, s6, -8
	slli	s6, s6, 1
	andi	s1, s6, -16
	add	a2, a2, a3
	add	a2, a2, s1
	lw	a3, -8(a2)
	andi	a3, a3, 1
	or	a3, a3, a4
	sw	a3, -8(a2)
	sw	a5, -4(a2)
	li	a2, 1
	lw	a7, 8(sp)
	beq	t4, a2, .LBB55_14
.LBB55_18:
	lw	a2, 0(a1)
	add	a2, a2, s5
	lw	a3, -8(a2)
	lw	s1, -4(a2)
	beqz	a6, .LBB55_15
.LBB55_19:
	ori	a1, a3, 1
	sw	a1, -8(a2)
	sw	s1, -4(a2)
	li	a2, 1
	j	.LBB55_44
.LBB55_20:
	mv	s10, ra
	add	t0, t0, s11
	lw	s1, 4(t0)
	lw	a3, 0(t0)
	andi	t6, s1, 15
	andi	s6, a3, -8
	or	s1, s6, t6
	beqz	s1, .LBB55_41
	andi	t0, a3, -8
	slli	a3, a3, 1
	andi	a3, a3, -16
	add	t0, t0, a3
	add	a3, t5, t0
	lw	a3, -8(a3)
	andi	s9, a3, 1
	sub	ra, a7, a2
	beqz	s9, .LBB55_48
	bne	ra, s8, .LBB55_48
	li	a7, 0
	li	a6, 0
	mv	s7, t3
	lw	t2, 8(sp)
	j	.LBB55_9
.LBB55_24:
	lw	a3, -24(a2)
	andi	a3, a3, 1
	or	a3, a3, a4
	sw	a3, -24(a2)
	sw	a5, -20(a2)
.LBB55_25:
	li	a2, 0
	and	a6, s0, a7
	and	a7, s0, t3
	li	s6, 15
	li	t3, -8
	li	t0, 67
	j	.LBB55_27
.LBB55_26:
	lw	a4, -8(s0)
	lw	a5, -4(s0)
	addi	a2, a2, 1
	sw	a2, -8(s5)
	sw	t6, -4(s5)
	lw	a2, 0(a1)
	add	a2, a2, a3
	lw	a3, -8(a2)
	ori	a3, a3, 1
	sw	a3, -8(a2)
	lw	a2, 0(a1)
	and	a3, a5, s6
	add	a2, a2, t1
	lw	a5, -8(a2)
	and	a4, a4, t3
	or	a3, a3, a4
	seqz	a3, a3
	andi	a5, a5, -2
	or	a3, a3, a5
	sw	a3, -8(a2)
	lw	a2, 0(a1)
	add	a2, a2, t1
	lw	a3, -4(a2)
	lw	a2, -8(a2)
	and	t2, a3, s6
	and	s7, a2, t3
	or	a2, s7, t2
	addi	t0, t0, -1
	seqz	a2, a2
	mv	a4, t5
	mv	a5, t4
	beqz	t0, .LBB55_40
.LBB55_27:
	andi	a2, a2, 1
	bnez	a2, .LBB55_42
	lw	s4, 0(a1)
	andi	s2, s7, -8
	slli	a2, s7, 1
	andi	a2, a2, -16
	add	s2, s2, a2
	add	s5, s4, s2
	lw	a2, -8(s5)
	andi	a3, a2, 1
	bnez	a3, .LBB55_40
	lw	t6, -4(s5)
	and	t5, a2, t3
	and	t4, t6, s6
	or	a3, t5, t4
	beqz	a3, .LBB55_40
	andi	t1, a2, -8
	slli	a3, a2, 1
	andi	a3, a3, -16
	add	t1, t1, a3
	add	s0, s4, t1
	lw	s3, -24(s0)
	lw	s1, -20(s0)
	and	s9, s3, t3
	and	s1, s1, s6
	xor	s8, s1, t2
	xor	a3, s9, s7
	or	a3, a3, s8
	bnez	a3, .LBB55_33
	lw	s1, -12(s0)
	lw	a3, -16(s0)
	and	s8, s1, s6
	and	s1, a3, t3
	or	s1, s1, s8
	beqz	s1, .LBB55_46
	andi	s1, a3, -8
	slli	a3, a3, 1
	andi	a3, a3, -16
	add	a3, a3, s1
	add	s1, s4, a3
	lw	s1, -8(s1)
	andi	s1, s1, 1
	beqz	s1, .LBB55_26
	j	.LBB55_46
.LBB55_33:
	or	a3, s9, s1
	beqz	a3, .LBB55_35
	andi	a3, s3, -8
	slli	s3, s3, 1
	andi	s1, s3, -16
	add	a3, a3, s1
	add	s1, s4, a3
	lw	s1, -8(s1)
	andi	s1, s1, 1
	beqz	s1, .LBB55_26
.LBB55_35:
	lw	s0, -24(s5)
	lw	a3, -20(s5)
	and	s9, s0, t3
	and	s8, a3, s6
	xor	a2, s8, a5
	xor	s1, s9, a4
	or	a2, a2, s1
	bnez	a2, .LBB55_53
	andi	t0, a4, -8
	slli	a2, a4, 1
	andi	a2, a2, -16
	add	t0, t0, a2
	add	s4, s4, t0
	lw	a3, -12(s4)
	lw	a2, -16(s4)
	andi	s0, s0, 1
	and	a3, a3, s6
	and	s1, a2, t3
	or	t6, s1, a3
	or	s0, s0, s1
	sw	s0, -24(s5)
	sw	a3, -20(s5)
	beqz	t6, .LBB55_38
	lw	a3, 0(a1)
	andi	s1, a2, -8
	slli	a2, a2, 1
	andi	a2, a2, -16
	add	a3, a3, s1
	add	a2, a2, a3
	lw	a3, -8(a2)
	andi	a3, a3, 1
	or	a3, a3, s7
	sw	a3, -8(a2)
	sw	t2, -4(a2)
.LBB55_38:
	lw	a2, 0(a1)
	add	a2, a2, t0
	lw	a3, -8(a2)
	andi	a3, a3, 1
	or	a3, a3, t5
	sw	a3, -8(a2)
	sw	t4, -4(a2)
	lw	a2, 0(a1)
	add	a2, a2, t0
	lw	a3, -8(a2)
	andi	a3, a3, -2
	sw	a3, -8(a2)
	lw	a2, 0(a1)
	add	a2, a2, t1
	lw	a3, -24(a2)
	lw	s1, -20(a2)
	and	s0, a3, t3
	and	s1, s1, s6
	xor	s1, s1, t2
	xor	s0, s0, s7
	or	s0, s0, s1
	bnez	s0, .LBB55_60
	andi	a3, a3, 1
	or	a3, a3, a4
	sw	a3, -24(a2)
	sw	a5, -20(a2)
	j	.LBB55_61
.LBB55_40:
	li	a2, 0
	j	.LBB55_43
.LBB55_41:
	li	s6, 0
	li	t6, 0
	li	a6, 0
	li	a7, 1
	mv	s7, t3
	mv	t2, s9
	j	.LBB55_9
.LBB55_42:
	li	a2, 1
.LBB55_43:
	mv	a4, a7
	mv	a5, a6
.LBB55_44:
	lw	s2, 4(sp)
.LBB55_45:
	or	a6, a4, a5
	add	a2, a2, s2
	sb	zero, 4(a0)
	sb	zero, 5(a0)
	sb	zero, 6(a0)
	sb	zero, 7(a0)
	srli	a3, a4, 24
	srli	s1, a4, 16
	srli	s0, a4, 8
	srli	a7, a5, 24
	srli	a1, a5, 16
	sb	a4, 8(a0)
	sb	s0, 9(a0)
	sb	s1, 10(a0)
	sb	a3, 11(a0)
	srli	a3, a5, 8
	snez	a4, a6
	sb	a5, 12(a0)
	sb	a3, 13(a0)
	sb	a1, 14(a0)
	sb	a7, 15(a0)
	srli	a1, a2, 24
	srli	a3, a2, 16
	srli	a5, a2, 8
	sb	a4, 0(a0)
	sb	zero, 1(a0)
	sb	zero, 2(a0)
	sb	zero, 3(a0)
	sb	a2, 16(a0)
	sb	a5, 17(a0)
	sb	a3, 18(a0)
	sb	a1, 19(a0)
	lw	ra, 60(sp)
	lw	s0, 56(sp)
	lw	s1, 52(sp)
	lw	s2, 48(sp)
	lw	s3, 44(sp)
	lw	s4, 40(sp)
	lw	s5, 36(sp)
	lw	s6, 32(sp)
	lw	s7, 28(sp)
	lw	s8, 24(sp)
	lw	s9, 20(sp)
	lw	s10, 16(sp)
	lw	s11, 12(sp)
	.cfi_restore ra
	.cfi_restore s0
	.cfi_restore s1
	.cfi_restore s2
	.cfi_restore s3
	.cfi_restore s4
	.cfi_restore s5
	.cfi_restore s6
	.cfi_restore s7
	.cfi_restore s8
	.cfi_restore s9
	.cfi_restore s10
	.cfi_restore s11
	addi	sp, sp, 64
	.cfi_def_cfa_offset 0
	ret
.LBB55_46:
	.cfi_restore_state
	lw	a2, -24(s5)
	lw	a3, -20(s5)
	and	a2, a2, t3
	and	a3, a3, s6
	xor	a3, a3, a5
	xor	a2, a2, a4
	or	a2, a2, a3
	bnez	a2, .LBB55_54
	mv	t0, s2
	mv	a4, s7
	mv	a5, t2
	j	.LBB55_72
.LBB55_48:
	add	s11, s11, t5
	li	a2, 66
.LBB55_49:
	add	t0, t0, s11
	lw	s0, 4(t0)
	lw	a3, 0(t0)
	mv	t2, t6
	mv	s7, s6
	li	s1, 15
	and	t6, s0, s1
	li	s1, -8
	and	s6, a3, s1
	or	s0, s6, t6
	addi	a2, a2, -1
	seqz	a7, s0
	beqz	a2, .LBB55_58
	bnez	a7, .LBB55_59
	andi	t0, a3, -8
	slli	a3, a3, 1
	andi	a3, a3, -16
	add	t0, t0, a3
	add	a3, t5, t0
	lw	a3, -8(a3)
	sub	ra, ra, s9
	andi	s9, a3, 1
	beqz	s9, .LBB55_49
	li	a7, 0
	li	a6, 0
	bne	ra, s8, .LBB55_49
	j	.LBB55_9
.LBB55_53:
	slli	a3, a3, 29
	srli	s0, s0, 3
	or	s3, s0, a3
	mv	t0, s2
	mv	a4, s7
	mv	a5, t2
	j	.LBB55_62
.LBB55_54:
	andi	t0, a4, -8
	slli	a2, a4, 1
	andi	a2, a2, -16
	add	t0, t0, a2
	add	s4, s4, t0
	lw	a3, -20(s4)
	lw	a2, -24(s4)
	and	a3, a3, s6
	and	s1, a2, t3
	or	s0, s1, a3
	sw	s1, -16(s5)
	sw	a3, -12(s5)
	beqz	s0, .LBB55_56
	lw	a3, 0(a1)
	andi	s1, a2, -8
	slli	a2, a2, 1
	andi	a2, a2, -16
	add	a3, a3, s1
	add	a2, a2, a3
	lw	a3, -8(a2)
	andi	a3, a3, 1
	or	a3, a3, s7
	sw	a3, -8(a2)
	sw	t2, -4(a2)
.LBB55_56:
	lw	a2, 0(a1)
	add	a2, a2, t0
	lw	a3, -8(a2)
	andi	a3, a3, 1
	or	a3, a3, t5
	sw	a3, -8(a2)
	sw	t4, -4(a2)
	lw	a2, 0(a1)
	add	a2, a2, t0
	lw	a3, -8(a2)
	andi	a3, a3, -2
	sw	a3, -8(a2)
	lw	a2, 0(a1)
	add	a2, a2, t1
	lw	a3, -24(a2)
	lw	s1, -20(a2)
	and	s0, a3, t3
	and	s1, s1, s6
	xor	s1, s1, t2
	xor	s0, s0, s7
	or	s0, s0, s1
	bnez	s0, .LBB55_70
	andi	a3, a3, 1
	or	a3, a3, a4
	sw	a3, -24(a2)
	sw	a5, -20(a2)
	j	.LBB55_71
.LBB55_58:
	li	a6, 0
	j	.LBB55_9
.LBB55_59:
	li	s6, 0
	li	t6, 0
	li	a6, 0
	li	a7, 1
	j	.LBB55_9
.LBB55_60:
	sw	a4, -16(a2)
	sw	a5, -12(a2)
.LBB55_61:
	lw	a2, 0(a1)
	add	a2, a2, t0
	sw	s7, -16(a2)
	sw	t2, -12(a2)
	lw	a2, 0(a1)
	add	a2, a2, s2
	lw	a3, -8(a2)
	andi	a3, a3, 1
	or	a3, a3, a4
	sw	a3, -8(a2)
	sw	a5, -4(a2)
	lw	a2, 0(a1)
	add	a2, a2, s2
	lw	a3, -8(a2)
	andi	a3, a3, -2
	sw	a3, -8(a2)
	lw	s4, 0(a1)
	add	a2, s4, t0
	lw	a3, -20(a2)
	lw	a2, -24(a2)
	and	s8, a3, s6
	and	s9, a2, t3
	slli	a3, a3, 29
	srli	a2, a2, 3
	or	s3, a2, a3
.LBB55_62:
	add	s4, s4, t1
	lw	a2, -4(s4)
	lw	t6, -8(s4)
	or	s1, s9, s8
	and	s0, a2, s6
	and	a3, t6, t3
	sw	s9, -16(s4)
	sw	s8, -12(s4)
	lw	s2, 4(sp)
	beqz	s1, .LBB55_64
	lw	a2, 0(a1)
	slli	s1, s3, 3
	slli	s3, s3, 4
	add	s1, s1, s3
	add	a2, a2, s1
	lw	s1, -8(a2)
	andi	s1, s1, 1
	or	s1, s1, t5
	sw	s1, -8(a2)
	sw	t4, -4(a2)
.LBB55_64:
	lw	a2, 0(a1)
	add	a2, a2, t0
	lw	s1, -8(a2)
	andi	s1, s1, 1
	or	s1, s1, a3
	sw	s1, -8(a2)
	sw	s0, -4(a2)
	lw	a2, 0(a1)
	add	a2, a2, t0
	lw	s1, -8(a2)
	or	a3, a3, s0
	ori	s1, s1, 1
	sw	s1, -8(a2)
	mv	t2, a4
	mv	s0, a5
	beqz	a3, .LBB55_69
	lw	s1, 0(a1)
	andi	a3, t6, -8
	slli	t6, t6, 1
	andi	a2, t6, -16
	add	a3, a3, s1
	add	a2, a2, a3
	lw	a3, -24(a2)
	lw	s1, -20(a2)
	and	s0, a3, t3
	and	s1, s1, s6
	xor	s1, s1, t4
	xor	s0, s0, t5
	or	s0, s0, s1
	bnez	s0, .LBB55_67
	andi	a3, a3, 1
	or	a3, a3, a4
	sw	a3, -24(a2)
	sw	a5, -20(a2)
	j	.LBB55_68
.LBB55_67:
	sw	a4, -16(a2)
	sw	a5, -12(a2)
.LBB55_68:
	mv	t2, a7
	mv	s0, a6
.LBB55_69:
	li	a2, 0
	lw	a3, 0(a1)
	add	a3, a3, t0
	lw	s1, -24(a3)
	andi	s1, s1, 1
	or	s1, s1, t5
	sw	s1, -24(a3)
	sw	t4, -20(a3)
	lw	a3, 0(a1)
	add	a3, a3, t1
	lw	s1, -8(a3)
	andi	s1, s1, 1
	or	a4, a4, s1
	sw	a4, -8(a3)
	sw	a5, -4(a3)
	lw	a1, 0(a1)
	add	a1, a1, t1
	lw	a3, -8(a1)
	andi	a3, a3, -2
	sw	a3, -8(a1)
	mv	a4, t2
	mv	a5, s0
	j	.LBB55_45
.LBB55_70:
	sw	a4, -16(a2)
	sw	a5, -12(a2)
.LBB55_71:
	lw	a2, 0(a1)
	add	a2, a2, t0
	lw	a3, -24(a2)
	andi	a3, a3, 1
	or	a3, a3, s7
	sw	a3, -24(a2)
	sw	t2, -20(a2)
	lw	a2, 0(a1)
	add	a2, a2, s2
	lw	a3, -8(a2)
	andi	a3, a3, 1
	or	a3, a3, a4
	sw	a3, -8(a2)
	sw	a5, -4(a2)
	lw	a2, 0(a1)
	add	a2, a2, s2
	lw	a3, -8(a2)
	andi	a3, a3, -2
	sw	a3, -8(a2)
	lw	s4, 0(a1)
	add	a2, s4, t1
	lw	s3, -24(a2)
.LBB55_72:
	add	a2, s4, t0
	add	s4, s4, t1
	lw	s0, -16(a2)
	lw	a3, -12(a2)
	lw	t2, -8(s4)
	lw	s1, -4(s4)
	andi	s2, s3, 1
	and	a3, a3, s6
	and	a2, s0, t3
	and	t6, s1, s6
	and	s3, t2, t3
	or	s1, a2, a3
	or	a2, a2, s2
	sw	a2, -24(s4)
	sw	a3, -20(s4)
	lw	s2, 4(sp)
	beqz	s1, .LBB55_74
	lw	a2, 0(a1)
	andi	a3, s0, -8
	slli	s0, s0, 1
	andi	s0, s0, -16
	add	a2, a2, a3
	add	a2, a2, s0
	lw	a3, -8(a2)
	andi	a3, a3, 1
	or	a3, a3, t5
	sw	a3, -8(a2)
	sw	t4, -4(a2)
.LBB55_74:
	lw	a2, 0(a1)
	add	a2, a2, t0
	lw	a3, -8(a2)
	andi	a3, a3, 1
	or	a3, a3, s3
	sw	a3, -8(a2)
	sw	t6, -4(a2)
	lw	a2, 0(a1)
	add	a2, a2, t0
	lw	a3, -8(a2)
	or	s0, s3, t6
	ori	a3, a3, 1
	sw	a3, -8(a2)
	mv	t6, a4
	mv	s1, a5
	beqz	s0, .LBB55_79
	lw	s1, 0(a1)
	andi	a3, t2, -8
	slli	t2, t2, 1
	andi	a2, t2, -16
	add	a3, a3, s1
	add	a2, a2, a3
	lw	a3, -24(a2)
	lw	s1, -20(a2)
	and	s0, a3, t3
	and	s1, s1, s6
	xor	s1, s1, t4
	xor	s0, s0, t5
	or	s0, s0, s1
	bnez	s0, .LBB55_77
	andi	a3, a3, 1
	or	a3, a3, a4
	sw	a3, -24(a2)
	sw	a5, -20(a2)
	j	.LBB55_78
.LBB55_77:
	sw	a4, -16(a2)
	sw	a5, -12(a2)
.LBB55_78:
	mv	t6, a7
	mv	s1, a6
.LBB55_79:
	li	a2, 0
	lw	s0, 0(a1)
	add	t0, t0, s0
	sw	t5, -16(t0)
	sw	t4, -12(t0)
	lw	s0, 0(a1)
	add	s0, s0, t1
	lw	a3, -8(s0)
	andi	a3, a3, 1
	or	a3, a3, a4
	sw	a3, -8(s0)
	sw	a5, -4(s0)
	lw	a1, 0(a1)
	add	a1, a1, t1
	lw	a3, -8(a1)
	andi	a3, a3, -2
	sw	a3, -8(a1)
	mv	a4, t6
	mv	a5, s1
	j	.LBB55_45
.Lfunc_end55:
	.size	ic_rbtree.join.roots.join_higher.f4da04d8a93b4f27, .Lfunc_end55-ic_rbtree.join.roots.join_higher.f4da04d8a93b4f27
	.cfi_endproc
	.section	.text.ic_raw.search_calls.insert,"ax",@progbits
	.p2align	1
	.type	ic_raw.search_calls.insert,@function
ic_raw.search_calls.insert:
	.cfi_startproc
	addi	sp, sp, -128
	.cfi_def_cfa_offset 128
	sw	ra, 124(sp)
	sw	s0, 120(sp)
	sw	s1, 116(sp)
	sw	s2, 112(sp)
	sw	s3, 108(sp)
	sw	s4, 104(sp)
	sw	s5, 100(sp)
	sw	s6, 96(sp)
	sw	s7, 92(sp)
	sw	s8, 88(sp)
	sw	s9, 84(sp)
	sw	s10, 80(sp)
	sw	s11, 76(sp)
	.cfi_offset ra, -4
	.cfi_offset s0, -8
	.cfi_offset s1, -12
	.cfi_offset s2, -16
	.cfi_offset s3, -20
	.cfi_offset s4, -24
	.cfi_offset s5, -28
	.cfi_offset s6, -32
	.cfi_offset s7, -36
	.cfi_offset s8, -40
	.cfi_offset s9, -44
	.cfi_offset s10, -48
	.cfi_offset s11, -52
	mv	s6, a7
	mv	s7, a5
	mv	s8, a4
	mv	s9, a3
	mv	s3, a2
	mv	s10, a1
	mv	s5, a0
	lw	s1, 0(a6)
	sw	a6, 12(sp)
	lw	s0, 4(a6)
	sw	a0, 16(sp)
	sw	zero, 20(sp)
	sw	a1, 24(sp)
	sw	a2, 28(sp)
	addi	a0, sp, 32
	li	a2, 40
	li	a1, 0
	li	a3, 0
	li	a4, 0
	call	ic.clear
	beq	s7, s3, .LBB56_2
	sltu	a0, s7, s3
	beqz	a0, .LBB56_3
	j	.LBB56_18
.LBB56_2:
	sltu	a0, s8, s10
	bnez	a0, .LBB56_18
.LBB56_3:
	andi	a3, s0, 15
	andi	a2, s1, -8
	or	s11, a2, a3
	addi	s2, s6, 1
	beqz	s11, .LBB56_6
	srli	a0, a2, 3
	slli	a4, a3, 29
	srli	a1, a3, 3
	or	a0, a0, a4
	beq	a1, s3, .LBB56_7
	sltu	a1, s3, a1
	beqz	a1, .LBB56_8
	j	.LBB56_18
.LBB56_6:
	snez	a0, s2
	sltu	a1, s10, s2
	seqz	a4, s3
	and	a1, a1, a4
	beqz	a1, .LBB56_9
	j	.LBB56_18
.LBB56_7:
	sltu	a1, s10, a0
	bnez	a1, .LBB56_18
.LBB56_8:
	slli	a1, a0, 3
	slli	a0, a0, 4
	add	a0, a0, a1
	add	a0, a0, s5
	lbu	a0, -24(a0)
	snez	a1, s2
	and	a0, a0, a1
	sltu	a1, s10, s2
	seqz	a4, s3
	and	a1, a1, a4
	bnez	a1, .LBB56_18
.LBB56_9:
	beqz	a0, .LBB56_18
	slli	s4, s2, 3
	add	a0, s9, s4
	lw	a5, -8(a0)
	lw	a6, -4(a0)
	addi	a0, sp, 32
	addi	a1, sp, 16
	li	a7, 1
	li	s0, 1
	mv	a4, s9
	mv	s1, a3
	sw	a2, 8(sp)
	call	ic_raw.search.descend
	lbu	a0, 32(sp)
	bne	a0, s0, .LBB56_18
	mv	ra, s1
	lw	s1, 40(sp)
	lw	s9, 44(sp)
	lbu	a0, 48(sp)
	or	a3, s1, s9
	andi	s0, s1, -8
	slli	a4, s1, 1
	beqz	a3, .LBB56_13
	andi	a5, a4, -16
	add	a2, s5, s0
	add	a2, a2, a5
	lbu	a2, -24(a2)
	andi	a2, a2, 1
	bnez	a2, .LBB56_14
	j	.LBB56_18
.LBB56_13:
	seqz	a5, s11
	beqz	a5, .LBB56_18
.LBB56_14:
	slli	a2, s2, 4
	add	a2, a2, s4
	add	a5, s5, a2
	lbu	a2, -24(a5)
	andi	a2, a2, 1
	bnez	a2, .LBB56_18
	srli	t3, s2, 29
	slli	t4, s2, 3
	seqz	a2, a3
	li	a3, 1
	sw	a3, -24(a5)
	sw	zero, -20(a5)
	sw	zero, -16(a5)
	sw	zero, -12(a5)
	bnez	a2, .LBB56_19
	sw	s1, -8(a5)
	sw	s9, -4(a5)
	andi	a2, a4, -16
	add	s0, s0, s5
	add	a2, a2, s0
	beqz	a0, .LBB56_20
	sw	t4, -16(a2)
	sw	t3, -12(a2)
	j	.LBB56_21
.LBB56_18:
	addi	a0, sp, 16
	mv	a1, s8
	mv	a2, s7
	mv	a3, s6
	call	ic_raw.search.refusal_of
	j	.LBB56_117
.LBB56_19:
	sw	a3, -8(a5)
	sw	zero, -4(a5)
	j	.LBB56_46
.LBB56_20:
	lw	a0, -24(a2)
	andi	a0, a0, 1
	or	a0, a0, t4
	sw	a0, -24(a2)
	sw	t3, -20(a2)
.LBB56_21:
	li	a0, 0
	li	a7, 15
	li	a6, -8
	srli	a2, s10, 29
	slli	s3, s3, 3
	slli	t0, s10, 3
	or	t6, s3, a2
	li	a5, 67
	j	.LBB56_24
.LBB56_22:
	sltu	a2, t6, a0
.LBB56_23:
	addi	a2, a2, -1
	and	s9, a2, a0
	and	s1, a2, a1
	or	a0, s1, s9
	addi	a5, a5, -1
	seqz	a0, a0
	mv	t4, t2
	mv	t3, t1
	beqz	a5, .LBB56_45
.LBB56_24:
	andi	a0, a0, 1
	bnez	a0, .LBB56_45
	andi	t5, s1, -8
	slli	a0, s1, 1
	andi	a0, a0, -16
	add	t5, t5, a0
	add	a0, s5, t5
	lw	a2, -8(a0)
	andi	a3, a2, 1
	bnez	a3, .LBB56_45
	lw	s6, -4(a0)
	and	t2, a2, a6
	and	t1, s6, a7
	seqz	a3, t2
	sub	a3, t1, a3
	beq	a3, t6, .LBB56_28
	sltu	a3, a3, t6
	bnez	a3, .LBB56_29
	j	.LBB56_45
.LBB56_28:
	addi	a3, t2, -1
	sltu	a3, a3, t0
	beqz	a3, .LBB56_45
.LBB56_29:
	andi	a3, a2, -8
	slli	a4, a2, 1
	andi	a4, a4, -16
	add	a3, a3, s5
	add	s3, a3, a4
	lw	a3, -20(s3)
	lw	s2, -24(s3)
	and	a3, a3, a7
	and	a4, s2, a6
	beq	a3, t6, .LBB56_31
	sltu	s0, t6, a3
	j	.LBB56_32
.LBB56_31:
	sltu	s0, t0, a4
.LBB56_32:
	addi	s0, s0, -1
	and	a4, a4, s0
	and	a3, a3, s0
	xor	s0, a3, s9
	xor	a1, a4, s1
	or	a1, a1, s0
	bnez	a1, .LBB56_35
	lw	a1, -12(s3)
	lw	a3, -16(s3)
	and	a1, a1, a7
	and	a4, a3, a6
	seqz	s0, a4
	sub	s0, a1, s0
	beq	s0, t6, .LBB56_37
	sltu	a4, s0, t6
	j	.LBB56_38
.LBB56_35:
	or	a3, a3, a4
	beqz	a3, .LBB56_47
	andi	a1, a4, -8
	slli	a4, a4, 1
	andi	a3, a4, -16
	add	a1, a1, s5
	add	a3, a3, a1
	lw	a1, -8(a3)
	andi	a1, a1, 1
	beqz	a1, .LBB56_40
	j	.LBB56_47
.LBB56_37:
	addi	a4, a4, -1
	sltu	a4, a4, t0
.LBB56_38:
	beqz	a4, .LBB56_49
	andi	a1, a3, -8
	slli	a3, a3, 1
	andi	a3, a3, -16
	add	a1, a1, s5
	add	a3, a3, a1
	lw	a1, -8(a3)
	andi	a1, a1, 1
	bnez	a1, .LBB56_49
.LBB56_40:
	lw	a1, -4(s3)
	lw	a4, -8(s3)
	and	s1, a1, a7
	and	a1, a4, a6
	seqz	a4, a1
	sub	a4, s1, a4
	beq	a4, t6, .LBB56_42
	sltu	a1, a4, t6
	j	.LBB56_43
.LBB56_42:
	addi	a1, a1, -1
	sltu	a1, a1, t0
.LBB56_43:
	addi	a2, a2, 1
	sw	a2, -8(a0)
	sw	s6, -4(a0)
	lw	a0, -8(a3)
	ori	a0, a0, 1
	sw	a0, -8(a3)
	lw	a2, -8(s3)
	xori	a1, a1, 1
	lw	a0, -4(s3)
	andi	a2, a2, -2
	or	a1, a1, a2
	sw	a1, -8(s3)
	and	a0, a0, a7
	and	a1, a1, a6
	bne	a0, t6, .LBB56_22
	sltu	a2, t0, a1
	j	.LBB56_23
.LBB56_45:
	lw	t4, 8(sp)
	mv	t3, ra
.LBB56_46:
	lw	a5, 12(sp)
	j	.LBB56_116
.LBB56_47:
	lw	a1, -20(a0)
	lw	a5, -24(a0)
	and	a4, a1, a7
	and	a2, a5, a6
	beq	a4, t6, .LBB56_51
	sltu	a3, t6, a4
	j	.LBB56_52
.LBB56_49:
	lw	a1, -20(a0)
	lw	a3, -24(a0)
	and	a2, a1, a7
	and	a3, a3, a6
	beq	a2, t6, .LBB56_58
	sltu	a4, t6, a2
	j	.LBB56_59
.LBB56_51:
	sltu	a3, t0, a2
.LBB56_52:
	bnez	a3, .LBB56_56
	xor	a1, a2, t4
	xor	a3, a4, t3
	or	a1, a1, a3
	bnez	a1, .LBB56_56
	andi	t5, t4, -8
	slli	a1, t4, 1
	andi	a1, a1, -16
	add	t5, t5, a1
	add	a2, s5, t5
	lw	a1, -12(a2)
	lw	a3, -16(a2)
	and	a4, a1, a7
	and	a3, a3, a6
	beq	a4, t6, .LBB56_90
	sltu	s0, t6, a4
	j	.LBB56_91
.LBB56_56:
	mv	t4, s1
	mv	t3, s9
	beq	a4, t6, .LBB56_100
.LBB56_57:
	sltu	a0, t6, a4
	j	.LBB56_101
.LBB56_58:
	sltu	a4, t0, a3
.LBB56_59:
	bnez	a4, .LBB56_63
	xor	a1, a3, t4
	xor	a2, a2, t3
	or	a1, a1, a2
	bnez	a1, .LBB56_63
	mv	t4, s1
	mv	t3, s9
	add	t5, t5, s5
	lw	a0, -12(t5)
	lw	a2, -16(t5)
	and	a1, a0, a7
	and	a0, a2, a6
	bne	a1, t6, .LBB56_75
.LBB56_62:
	sltu	a2, t0, a0
	j	.LBB56_76
.LBB56_63:
	andi	t5, t4, -8
	slli	a1, t4, 1
	andi	a1, a1, -16
	add	t5, t5, a1
	add	a2, s5, t5
	lw	a1, -20(a2)
	lw	a3, -24(a2)
	and	a4, a1, a7
	and	a3, a3, a6
	beq	a4, t6, .LBB56_65
	sltu	a5, t6, a4
	j	.LBB56_66
.LBB56_65:
	sltu	a5, t0, a3
.LBB56_66:
	addi	a5, a5, -1
	and	a4, a4, a5
	and	a3, a3, a5
	or	a1, a3, a4
	sw	a3, -16(a0)
	sw	a4, -12(a0)
	beqz	a1, .LBB56_68
	andi	a1, a3, -8
	slli	a3, a3, 1
	andi	a3, a3, -16
	add	a1, a1, s5
	add	a1, a1, a3
	lw	a3, -8(a1)
	andi	a3, a3, 1
	or	a3, a3, s1
	sw	a3, -8(a1)
	sw	s9, -4(a1)
.LBB56_68:
	sw	t2, -8(a2)
	sw	t1, -4(a2)
	lw	a1, -20(s3)
	lw	a3, -24(s3)
	and	a4, a1, a7
	and	a5, a3, a6
	beq	a4, t6, .LBB56_70
	sltu	s0, t6, a4
	j	.LBB56_71
.LBB56_70:
	sltu	s0, t0, a5
.LBB56_71:
	addi	s0, s0, -1
	and	a5, a5, s0
	and	a4, a4, s0
	xor	a1, a4, s9
	xor	a5, a5, s1
	or	a1, a1, a5
	bnez	a1, .LBB56_73
	andi	a3, a3, 1
	or	a1, a3, t4
	sw	a1, -24(s3)
	sw	t3, -20(s3)
	j	.LBB56_74
.LBB56_73:
	sw	t4, -16(s3)
	sw	t3, -12(s3)
.LBB56_74:
	lw	a1, -24(a2)
	andi	a1, a1, 1
	or	a1, a1, s1
	sw	a1, -24(a2)
	sw	s9, -20(a2)
	sw	t4, -8(a0)
	sw	t3, -4(a0)
	lw	s2, -24(s3)
	add	t5, t5, s5
	lw	a0, -12(t5)
	lw	a2, -16(t5)
	and	a1, a0, a7
	and	a0, a2, a6
	beq	a1, t6, .LBB56_62
.LBB56_75:
	sltu	a2, t6, a1
.LBB56_76:
	addi	a3, a2, -1
	lw	a4, -8(s3)
	lw	s0, -4(s3)
	and	a2, a3, a1
	and	a1, a3, a0
	or	a5, a1, a2
	and	a3, s0, a7
	and	a0, a4, a6
	beq	a3, t6, .LBB56_78
	sltu	a4, t6, a3
	j	.LBB56_79
.LBB56_78:
	sltu	a4, t0, a0
.LBB56_79:
	addi	a4, a4, -1
	andi	s0, s2, 1
	and	a3, a3, a4
	and	a0, a0, a4
	or	s0, s0, a1
	sw	s0, -24(s3)
	sw	a2, -20(s3)
	beqz	a5, .LBB56_81
	andi	a2, a1, -8
	slli	a1, a1, 1
	andi	a1, a1, -16
	add	a2, a2, s5
	add	a1, a1, a2
	lw	a2, -8(a1)
	andi	a2, a2, 1
	or	a2, a2, t2
	sw	a2, -8(a1)
	sw	t1, -4(a1)
.LBB56_81:
	or	a4, a0, a3
	addi	a1, a0, 1
	sw	a1, -8(t5)
	sw	a3, -4(t5)
	mv	a1, t4
	mv	a2, t3
	lw	a5, 12(sp)
	beqz	a4, .LBB56_89
	andi	a1, a0, -8
	slli	a0, a0, 1
	andi	a0, a0, -16
	add	a1, a1, s5
	add	a0, a0, a1
	lw	a2, -20(a0)
	lw	a1, -24(a0)
	and	a2, a2, a7
	and	a3, a1, a6
	beq	a2, t6, .LBB56_84
	sltu	a4, t6, a2
	j	.LBB56_85
.LBB56_84:
	sltu	a4, t0, a3
.LBB56_85:
	lw	s1, 8(sp)
	addi	a4, a4, -1
	and	a3, a3, a4
	and	a2, a2, a4
	xor	a2, a2, t1
	xor	a3, a3, t2
	or	a2, a2, a3
	bnez	a2, .LBB56_87
	andi	a1, a1, 1
	or	a1, a1, t4
	sw	a1, -24(a0)
	sw	t3, -20(a0)
	j	.LBB56_88
.LBB56_87:
	sw	t4, -16(a0)
	sw	t3, -12(a0)
.LBB56_88:
	mv	a1, s1
	mv	a2, ra
.LBB56_89:
	sw	t2, -16(t5)
	sw	t1, -12(t5)
	j	.LBB56_115
.LBB56_90:
	sltu	s0, t0, a3
.LBB56_91:
	addi	s0, s0, -1
	andi	a5, a5, 1
	and	a4, a4, s0
	and	a3, a3, s0
	or	a1, a3, a4
	or	a5, a5, a3
	sw	a5, -24(a0)
	sw	a4, -20(a0)
	beqz	a1, .LBB56_93
	andi	a1, a3, -8
	slli	a3, a3, 1
	andi	a3, a3, -16
	add	a1, a1, s5
	add	a1, a1, a3
	lw	a3, -8(a1)
	andi	a3, a3, 1
	or	a3, a3, s1
	sw	a3, -8(a1)
	sw	s9, -4(a1)
.LBB56_93:
	sw	t2, -8(a2)
	sw	t1, -4(a2)
	lw	a1, -20(s3)
	lw	a3, -24(s3)
	and	a4, a1, a7
	and	a5, a3, a6
	beq	a4, t6, .LBB56_95
	sltu	s0, t6, a4
	j	.LBB56_96
.LBB56_95:
	sltu	s0, t0, a5
.LBB56_96:
	addi	s0, s0, -1
	and	a5, a5, s0
	and	a4, a4, s0
	xor	a1, a4, s9
	xor	a5, a5, s1
	or	a1, a1, a5
	bnez	a1, .LBB56_98
	andi	a3, a3, 1
	or	a1, a3, t4
	sw	a1, -24(s3)
	sw	t3, -20(s3)
	j	.LBB56_99
.LBB56_98:
	sw	t4, -16(s3)
	sw	t3, -12(s3)
.LBB56_99:
	sw	s1, -16(a2)
	sw	s9, -12(a2)
	sw	t4, -8(a0)
	sw	t3, -4(a0)
	lw	a0, -24(a2)
	lw	a1, -20(a2)
	and	a2, a0, a6
	and	a4, a1, a7
	bne	a4, t6, .LBB56_57
.LBB56_100:
	sltu	a0, t0, a2
.LBB56_101:
	addi	a0, a0, -1
	lw	a5, -8(s3)
	lw	s0, -4(s3)
	and	a3, a0, a4
	and	a1, a0, a2
	or	a4, a1, a3
	and	a2, s0, a7
	and	a0, a5, a6
	beq	a2, t6, .LBB56_103
	sltu	a5, t6, a2
	j	.LBB56_104
.LBB56_103:
	sltu	a5, t0, a0
.LBB56_104:
	add	t5, t5, s5
	addi	a5, a5, -1
	and	a2, a2, a5
	and	a0, a0, a5
	sw	a1, -16(s3)
	sw	a3, -12(s3)
	beqz	a4, .LBB56_106
	andi	a3, a1, -8
	slli	a1, a1, 1
	andi	a1, a1, -16
	add	a3, a3, s5
	add	a1, a1, a3
	lw	a3, -8(a1)
	andi	a3, a3, 1
	or	a3, a3, t2
	sw	a3, -8(a1)
	sw	t1, -4(a1)
.LBB56_106:
	or	a3, a0, a2
	addi	a1, a0, 1
	sw	a1, -8(t5)
	sw	a2, -4(t5)
	mv	a1, t4
	mv	a2, t3
	lw	a5, 12(sp)
	beqz	a3, .LBB56_114
	andi	a1, a0, -8
	slli	a0, a0, 1
	andi	a0, a0, -16
	add	a1, a1, s5
	add	a0, a0, a1
	lw	a2, -20(a0)
	lw	a1, -24(a0)
	and	a2, a2, a7
	and	a3, a1, a6
	beq	a2, t6, .LBB56_109
	sltu	a4, t6, a2
	j	.LBB56_110
.LBB56_109:
	sltu	a4, t0, a3
.LBB56_110:
	lw	s1, 8(sp)
	addi	a4, a4, -1
	and	a3, a3, a4
	and	a2, a2, a4
	xor	a2, a2, t1
	xor	a3, a3, t2
	or	a2, a2, a3
	bnez	a2, .LBB56_112
	andi	a1, a1, 1
	or	a1, a1, t4
	sw	a1, -24(a0)
	sw	t3, -20(a0)
	j	.LBB56_113
.LBB56_112:
	sw	t4, -16(a0)
	sw	t3, -12(a0)
.LBB56_113:
	mv	a1, s1
	mv	a2, ra
.LBB56_114:
	lw	a0, -24(t5)
	andi	a0, a0, 1
	or	a0, a0, t2
	sw	a0, -24(t5)
	sw	t1, -20(t5)
.LBB56_115:
	sw	t4, -8(s3)
	sw	t3, -4(s3)
	mv	t4, a1
	mv	t3, a2
.LBB56_116:
	li	a0, 0
	sw	t4, 0(a5)
	sw	t3, 4(a5)
.LBB56_117:
	lw	ra, 124(sp)
	lw	s0, 120(sp)
	lw	s1, 116(sp)
	lw	s2, 112(sp)
	lw	s3, 108(sp)
	lw	s4, 104(sp)
	lw	s5, 100(sp)
	lw	s6, 96(sp)
	lw	s7, 92(sp)
	lw	s8, 88(sp)
	lw	s9, 84(sp)
	lw	s10, 80(sp)
	lw	s11, 76(sp)
	.cfi_restore ra
	.cfi_restore s0
	.cfi_restore s1
	.cfi_restore s2
	.cfi_restore s3
	.cfi_restore s4
	.cfi_restore s5
	.cfi_restore s6
	.cfi_restore s7
	.cfi_restore s8
	.cfi_restore s9
	.cfi_restore s10
	.cfi_restore s11
	addi	sp, sp, 128
	.cfi_def_cfa_offset 0
	ret
.Lfunc_end56:
	.size	ic_raw.search_calls.insert, .Lfunc_end56-ic_raw.search_calls.insert
	.cfi_endproc
	.section	.text.ic_raw.search.descend,"ax",@progbits
	.p2align	1
	.type	ic_raw.search.descend,@function
ic_raw.search.descend:
	.cfi_startproc
	addi	sp, sp, -64
	.cfi_def_cfa_offset 64
	sw	ra, 60(sp)
	sw	s0, 56(sp)
	sw	s1, 52(sp)
	sw	s2, 48(sp)
	sw	s3, 44(sp)
	sw	s4, 40(sp)
	sw	s5, 36(sp)
	sw	s6, 32(sp)
	sw	s7, 28(sp)
	sw	s8, 24(sp)
	sw	s9, 20(sp)
	sw	s10, 16(sp)
	sw	s11, 12(sp)
	.cfi_offset ra, -4
	.cfi_offset s0, -8
	.cfi_offset s1, -12
	.cfi_offset s2, -16
	.cfi_offset s3, -20
	.cfi_offset s4, -24
	.cfi_offset s5, -28
	.cfi_offset s6, -32
	.cfi_offset s7, -36
	.cfi_offset s8, -40
	.cfi_offset s9, -44
	.cfi_offset s10, -48
	.cfi_offset s11, -52
	.cfi_remember_state
	or	s1, a2, a3
	beqz	s1, .LBB57_31
	li	t2, 0
	li	t3, 0
	li	s1, 0
	li	t1, 0
	lw	t4, 0(a1)
	lw	s2, 8(a1)
	lw	a1, 12(a1)
	li	t5, 15
	li	t6, -8
	srli	s0, s2, 29
	slli	a1, a1, 3
	slli	s2, s2, 3
	or	s5, a1, s0
	li	t0, 22
.LBB57_2:
	add	a1, a4, a2
	lw	s0, -4(a1)
	beq	a6, s0, .LBB57_4
	sltu	a1, a6, s0
	sltu	s0, s0, a6
	mv	s4, s1
	andi	s6, a7, 1
	beqz	s6, .LBB57_5
	j	.LBB57_6
.LBB57_4:
	lw	s0, -8(a1)
	sltu	a1, a5, s0
	sltu	s0, s0, a5
	mv	s4, s1
	andi	s6, a7, 1
	bnez	s6, .LBB57_6
.LBB57_5:
	xori	a1, s0, 1
.LBB57_6:
	andi	s0, a2, -8
	slli	s1, a2, 1
	andi	s1, s1, -16
	add	s0, s0, s1
	add	s0, s0, t4
	lw	s9, -24(s0)
	lw	s10, -20(s0)
	lw	s7, -16(s0)
	lw	s8, -12(s0)
	beqz	a1, .LBB57_9
	li	s3, 0
	mv	t2, a2
	mv	t3, a3
	mv	s0, s9
	mv	s1, s4
	and	s4, s10, t5
	and	s11, s9, t6
	seqz	a1, s11
	sub	a1, s4, a1
	bne	a1, s5, .LBB57_10
.LBB57_8:
	addi	a1, s11, -1
	sltu	a1, a1, s2
	bnez	a1, .LBB57_11
	j	.LBB57_33
.LBB57_9:
	li	s3, 1
	mv	s1, a2
	mv	t1, a3
	mv	s0, s7
	and	s4, s8, t5
	and	s11, s7, t6
	seqz	a1, s11
	sub	a1, s4, a1
	beq	a1, s5, .LBB57_8
.LBB57_10:
	sltu	a1, a1, s5
	beqz	a1, .LBB57_33
.LBB57_11:
	add	a1, a4, s11
	lw	a2, -4(a1)
	beq	a6, a2, .LBB57_13
	sltu	a3, a6, a2
	sltu	a2, a2, a6
	beqz	s6, .LBB57_14
	j	.LBB57_15
.LBB57_13:
	lw	a1, -8(a1)
	sltu	a3, a5, a1
	sltu	a2, a1, a5
	bnez	s6, .LBB57_15
.LBB57_14:
	xori	a3, a2, 1
.LBB57_15:
	andi	a1, s0, -8
	slli	s0, s0, 1
	andi	s0, s0, -16
	add	a1, a1, t4
	add	a1, a1, s0
	lw	s10, -24(a1)
	lw	a2, -20(a1)
	lw	s8, -16(a1)
	lw	s9, -12(a1)
	beqz	a3, .LBB57_18
	li	s7, 0
	mv	t2, s11
	mv	t3, s4
	mv	a3, s10
	and	s3, a2, t5
	and	ra, s10, t6
	seqz	a1, ra
	sub	a1, s3, a1
	bne	a1, s5, .LBB57_19
.LBB57_17:
	addi	a1, ra, -1
	sltu	a1, a1, s2
	bnez	a1, .LBB57_20
	j	.LBB57_36
.LBB57_18:
	li	s7, 1
	mv	s1, s11
	mv	t1, s4
	mv	a3, s8
	and	s3, s9, t5
	and	ra, s8, t6
	seqz	a1, ra
	sub	a1, s3, a1
	beq	a1, s5, .LBB57_17
.LBB57_19:
	sltu	a1, a1, s5
	beqz	a1, .LBB57_36
.LBB57_20:
	add	a1, a4, ra
	lw	s0, -4(a1)
	beq	a6, s0, .LBB57_22
	sltu	a2, a6, s0
	sltu	a1, s0, a6
	beqz	s6, .LBB57_23
	j	.LBB57_24
.LBB57_22:
	lw	a1, -8(a1)
	sltu	a2, a5, a1
	sltu	a1, a1, a5
	bnez	s6, .LBB57_24
.LBB57_23:
	xori	a2, a1, 1
.LBB57_24:
	andi	a1, a3, -8
	slli	a3, a3, 1
	andi	a3, a3, -16
	add	a1, a1, t4
	add	a1, a1, a3
	lw	s8, -24(a1)
	lw	s9, -20(a1)
	lw	s6, -16(a1)
	lw	s7, -12(a1)
	beqz	a2, .LBB57_27
	li	s4, 0
	mv	t2, ra
	mv	t3, s3
	and	a3, s9, t5
	and	a2, s8, t6
	seqz	a1, a2
	sub	a1, a3, a1
	bne	a1, s5, .LBB57_28
.LBB57_26:
	addi	a1, a2, -1
	sltu	a1, a1, s2
	bnez	a1, .LBB57_29
	j	.LBB57_39
.LBB57_27:
	li	s4, 1
	mv	s1, ra
	mv	t1, s3
	and	a3, s7, t5
	and	a2, s6, t6
	seqz	a1, a2
	sub	a1, a3, a1
	beq	a1, s5, .LBB57_26
.LBB57_28:
	sltu	a1, a1, s5
	beqz	a1, .LBB57_39
.LBB57_29:
	addi	t0, t0, -1
	bnez	t0, .LBB57_2
	li	a2, 40
	j	.LBB57_32
.LBB57_31:
	sb	zero, 4(a0)
	sb	zero, 5(a0)
	sb	zero, 6(a0)
	sb	zero, 7(a0)
	li	a3, 1
	addi	a1, a0, 8
	li	a2, 32
	sb	a3, 0(a0)
	sb	zero, 1(a0)
	sb	zero, 2(a0)
	sb	zero, 3(a0)
	mv	a0, a1
.LBB57_32:
	li	a1, 0
	li	a3, 0
	li	a4, 0
	lw	ra, 60(sp)
	lw	s0, 56(sp)
	lw	s1, 52(sp)
	lw	s2, 48(sp)
	lw	s3, 44(sp)
	lw	s4, 40(sp)
	lw	s5, 36(sp)
	lw	s6, 32(sp)
	lw	s7, 28(sp)
	lw	s8, 24(sp)
	lw	s9, 20(sp)
	lw	s10, 16(sp)
	lw	s11, 12(sp)
	.cfi_restore ra
	.cfi_restore s0
	.cfi_restore s1
	.cfi_restore s2
	.cfi_restore s3
	.cfi_restore s4
	.cfi_restore s5
	.cfi_restore s6
	.cfi_restore s7
	.cfi_restore s8
	.cfi_restore s9
	.cfi_restore s10
	.cfi_restore s11
	addi	sp, sp, 64
	.cfi_def_cfa_offset 0
	tail	ic.clear
.LBB57_33:
	.cfi_restore_state
	beq	s10, s4, .LBB57_42
	sltu	a4, s10, s4
	mv	a5, s1
	bne	s8, s4, .LBB57_43
.LBB57_35:
	sltu	a1, s7, s11
	j	.LBB57_44
.LBB57_36:
	beq	a2, s3, .LBB57_45
	sltu	a2, a2, s3
	bne	s9, s3, .LBB57_46
.LBB57_38:
	sltu	a1, s8, ra
	j	.LBB57_47
.LBB57_39:
	beq	s9, a3, .LBB57_48
	sltu	a1, s9, a3
	bne	s7, a3, .LBB57_49
.LBB57_41:
	sltu	a2, s6, a2
	j	.LBB57_50
.LBB57_42:
	sltu	a4, s9, s11
	mv	a5, s1
	beq	s8, s4, .LBB57_35
.LBB57_43:
	sltu	a1, s8, s4
.LBB57_44:
	and	a1, a1, a4
	sw	zero, 4(sp)
	sh	zero, 8(sp)
	sb	zero, 10(sp)
	sb	zero, 4(a0)
	sb	zero, 5(a0)
	sb	zero, 6(a0)
	sb	zero, 7(a0)
	xori	s1, a1, 1
	lbu	t0, 5(sp)
	lbu	t4, 6(sp)
	lbu	a6, 7(sp)
	lbu	a7, 9(sp)
	neg	a1, s1
	sb	s1, 0(a0)
	sb	zero, 1(a0)
	sb	zero, 2(a0)
	sb	zero, 3(a0)
	and	a2, a2, a1
	and	a3, a3, a1
	and	t5, a1, s3
	and	s1, a1, a5
	and	s0, a1, t1
	and	a4, a1, t2
	and	a1, a1, t3
	srli	t1, a3, 24
	srli	t2, a3, 16
	srli	a5, a3, 8
	srli	t3, a2, 24
	srli	t6, a2, 16
	srli	s2, a2, 8
	srli	s3, s0, 24
	srli	s4, s0, 16
	srli	s5, s0, 8
	srli	s6, s1, 24
	srli	s7, s1, 16
	srli	s8, s1, 8
	srli	s9, a1, 24
	srli	s10, a1, 16
	sb	a3, 12(a0)
	sb	a5, 13(a0)
	sb	t2, 14(a0)
	sb	t1, 15(a0)
	srli	a3, a1, 8
	sb	a2, 8(a0)
	sb	s2, 9(a0)
	sb	t6, 10(a0)
	sb	t3, 11(a0)
	srli	a2, a4, 24
	sb	t5, 16(a0)
	sb	zero, 17(a0)
	sb	t0, 18(a0)
	sb	t4, 19(a0)
	srli	a5, a4, 16
	sb	s0, 28(a0)
	sb	s5, 29(a0)
	sb	s4, 30(a0)
	sb	s3, 31(a0)
	srli	s0, a4, 8
	sb	a6, 20(a0)
	sb	zero, 21(a0)
	sb	a7, 22(a0)
	sb	zero, 23(a0)
	sb	s1, 24(a0)
	sb	s8, 25(a0)
	sb	s7, 26(a0)
	sb	s6, 27(a0)
	sb	a1, 36(a0)
	sb	a3, 37(a0)
	sb	s10, 38(a0)
	sb	s9, 39(a0)
	sb	a4, 32(a0)
	sb	s0, 33(a0)
	sb	a5, 34(a0)
	sb	a2, 35(a0)
	j	.LBB57_51
.LBB57_45:
	sltu	a2, s10, ra
	beq	s9, s3, .LBB57_38
.LBB57_46:
	sltu	a1, s9, s3
.LBB57_47:
	and	a1, a1, a2
	sw	zero, 4(sp)
	sh	zero, 8(sp)
	sb	zero, 10(sp)
	sb	zero, 4(a0)
	sb	zero, 5(a0)
	sb	zero, 6(a0)
	sb	zero, 7(a0)
	xori	a1, a1, 1
	lbu	t0, 5(sp)
	lbu	t4, 6(sp)
	lbu	a6, 7(sp)
	lbu	a7, 9(sp)
	neg	a2, a1
	sb	a1, 0(a0)
	sb	zero, 1(a0)
	sb	zero, 2(a0)
	sb	zero, 3(a0)
	and	a3, a2, s11
	and	a4, a2, s4
	and	t5, a2, s7
	and	s1, s1, a2
	and	s0, a2, t1
	and	a1, a2, t2
	and	a2, a2, t3
	srli	t1, a4, 24
	srli	t2, a4, 16
	srli	a5, a4, 8
	srli	t3, a3, 24
	srli	t6, a3, 16
	srli	s2, a3, 8
	srli	s3, s0, 24
	srli	s4, s0, 16
	srli	s5, s0, 8
	srli	s6, s1, 24
	srli	s7, s1, 16
	srli	s8, s1, 8
	srli	s9, a2, 24
	srli	s10, a2, 16
	sb	a4, 12(a0)
	sb	a5, 13(a0)
	sb	t2, 14(a0)
	sb	t1, 15(a0)
	srli	a4, a2, 8
	sb	a3, 8(a0)
	sb	s2, 9(a0)
	sb	t6, 10(a0)
	sb	t3, 11(a0)
	srli	a3, a1, 24
	sb	t5, 16(a0)
	sb	zero, 17(a0)
	sb	t0, 18(a0)
	sb	t4, 19(a0)
	srli	a5, a1, 16
	sb	s0, 28(a0)
	sb	s5, 29(a0)
	sb	s4, 30(a0)
	sb	s3, 31(a0)
	srli	s0, a1, 8
	sb	a6, 20(a0)
	sb	zero, 21(a0)
	sb	a7, 22(a0)
	sb	zero, 23(a0)
	sb	s1, 24(a0)
	sb	s8, 25(a0)
	sb	s7, 26(a0)
	sb	s6, 27(a0)
	sb	a2, 36(a0)
	sb	a4, 37(a0)
	sb	s10, 38(a0)
	sb	s9, 39(a0)
	sb	a1, 32(a0)
	sb	s0, 33(a0)
	sb	a5, 34(a0)
	sb	a3, 35(a0)
	j	.LBB57_51
.LBB57_48:
	sltu	a1, s8, a2
	beq	s7, a3, .LBB57_41
.LBB57_49:
	sltu	a2, s7, a3
.LBB57_50:
	and	a1, a1, a2
	sw	zero, 4(sp)
	sh	zero, 8(sp)
	sb	zero, 10(sp)
	sb	zero, 4(a0)
	sb	zero, 5(a0)
	sb	zero, 6(a0)
	sb	zero, 7(a0)
	xori	a1, a1, 1
	lbu	t0, 5(sp)
	lbu	t4, 6(sp)
	lbu	a6, 7(sp)
	lbu	a7, 9(sp)
	neg	a4, a1
	sb	a1, 0(a0)
	sb	zero, 1(a0)
	sb	zero, 2(a0)
	sb	zero, 3(a0)
	and	s0, a4, ra
	and	a3, a4, s3
	and	t5, a4, s4
	and	s1, s1, a4
	and	a2, a4, t1
	and	a1, a4, t2
	and	a4, a4, t3
	srli	t1, a3, 24
	srli	t2, a3, 16
	srli	a5, a3, 8
	srli	t3, s0, 24
	srli	t6, s0, 16
	srli	s2, s0, 8
	srli	s3, a2, 24
	srli	s4, a2, 16
	srli	s5, a2, 8
	srli	s6, s1, 24
	srli	s7, s1, 16
	srli	s8, s1, 8
	srli	s9, a4, 24
	srli	s10, a4, 16
	sb	a3, 12(a0)
	sb	a5, 13(a0)
	sb	t2, 14(a0)
	sb	t1, 15(a0)
	srli	a3, a4, 8
	sb	s0, 8(a0)
	sb	s2, 9(a0)
	sb	t6, 10(a0)
	sb	t3, 11(a0)
	srli	a5, a1, 24
	sb	t5, 16(a0)
	sb	zero, 17(a0)
	sb	t0, 18(a0)
	sb	t4, 19(a0)
	srli	s0, a1, 16
	sb	a2, 28(a0)
	sb	s5, 29(a0)
	sb	s4, 30(a0)
	sb	s3, 31(a0)
	srli	a2, a1, 8
	sb	a6, 20(a0)
	sb	zero, 21(a0)
	sb	a7, 22(a0)
	sb	zero, 23(a0)
	sb	s1, 24(a0)
	sb	s8, 25(a0)
	sb	s7, 26(a0)
	sb	s6, 27(a0)
	sb	a4, 36(a0)
	sb	a3, 37(a0)
	sb	s10, 38(a0)
	sb	s9, 39(a0)
	sb	a1, 32(a0)
	sb	a2, 33(a0)
	sb	s0, 34(a0)
	sb	a5, 35(a0)
.LBB57_51:
	lw	ra, 60(sp)
	lw	s0, 56(sp)
	lw	s1, 52(sp)
	lw	s2, 48(sp)
	lw	s3, 44(sp)
	lw	s4, 40(sp)
	lw	s5, 36(sp)
	lw	s6, 32(sp)
	lw	s7, 28(sp)
	lw	s8, 24(sp)
	lw	s9, 20(sp)
	lw	s10, 16(sp)
	lw	s11, 12(sp)
	.cfi_restore ra
	.cfi_restore s0
	.cfi_restore s1
	.cfi_restore s2
	.cfi_restore s3
	.cfi_restore s4
	.cfi_restore s5
	.cfi_restore s6
	.cfi_restore s7
	.cfi_restore s8
	.cfi_restore s9
	.cfi_restore s10
	.cfi_restore s11
	addi	sp, sp, 64
	.cfi_def_cfa_offset 0
	ret
.Lfunc_end57:
	.size	ic_raw.search.descend, .Lfunc_end57-ic_raw.search.descend
	.cfi_endproc
	.section	.text.unlikely.ic_raw.search.refusal_of,"ax",@progbits
	.p2align	1
	.type	ic_raw.search.refusal_of,@function
ic_raw.search.refusal_of:
	.cfi_startproc
	lw	a4, 12(a0)
	beq	a2, a4, .LBB58_3
	sltu	a1, a2, a4
	bnez	a1, .LBB58_4
.LBB58_2:
	li	a1, -1
	mv	a2, a3
	tail	ic_raw.table.RawTable.refusal.19bacce014a8892a
.LBB58_3:
	lw	a2, 8(a0)
	sltu	a1, a1, a2
	beqz	a1, .LBB58_2
.LBB58_4:
	li	a0, 1
	ret
.Lfunc_end58:
	.size	ic_raw.search.refusal_of, .Lfunc_end58-ic_raw.search.refusal_of
	.cfi_endproc
	.section	.text.unlikely.ic_raw.table.RawTable.refusal.19bacce014a8892a,"ax",@progbits
	.p2align	1
	.type	ic_raw.table.RawTable.refusal.19bacce014a8892a,@function
ic_raw.table.RawTable.refusal.19bacce014a8892a:
	.cfi_startproc
	addi	a1, a1, 1
	bnez	a1, .LBB59_5
.LBB59_1:
	addi	a2, a2, 1
	li	a1, 1
	beqz	a2, .LBB59_9
	lw	a3, 8(a0)
	lw	a4, 12(a0)
	sltu	a3, a3, a2
	seqz	a4, a4
	and	a3, a3, a4
	bnez	a3, .LBB59_9
	lw	a0, 0(a0)
	slli	a1, a2, 3
	slli	a2, a2, 4
	add	a1, a1, a2
	add	a0, a0, a1
	lbu	a0, -24(a0)
	andi	a0, a0, 1
	beqz	a0, .LBB59_10
	li	a0, 2
	ret
.LBB59_5:
	lw	a3, 8(a0)
	lw	a4, 12(a0)
	sltu	a3, a3, a1
	seqz	a4, a4
	and	a3, a3, a4
	beqz	a3, .LBB59_7
	li	a0, 1
	ret
.LBB59_7:
	lw	a3, 0(a0)
	slli	a4, a1, 3
	slli	a1, a1, 4
	add	a1, a1, a4
	add	a1, a1, a3
	lbu	a1, -24(a1)
	andi	a1, a1, 1
	bnez	a1, .LBB59_1
	li	a1, 3
.LBB59_9:
	mv	a0, a1
	ret
.LBB59_10:
	li	a0, 5
	ret
.Lfunc_end59:
	.size	ic_raw.table.RawTable.refusal.19bacce014a8892a, .Lfunc_end59-ic_raw.table.RawTable.refusal.19bacce014a8892a
	.cfi_endproc
	.section	.text.ic_raw.tree_calls.insert_at,"ax",@progbits
	.p2align	1
	.type	ic_raw.tree_calls.insert_at,@function
ic_raw.tree_calls.insert_at:
	.cfi_startproc
	addi	sp, sp, -64
	.cfi_def_cfa_offset 64
	sw	ra, 60(sp)
	sw	s0, 56(sp)
	sw	s1, 52(sp)
	sw	s2, 48(sp)
	sw	s3, 44(sp)
	sw	s4, 40(sp)
	sw	s5, 36(sp)
	sw	s6, 32(sp)
	sw	s7, 28(sp)
	sw	s8, 24(sp)
	sw	s9, 20(sp)
	.cfi_offset ra, -4
	.cfi_offset s0, -8
	.cfi_offset s1, -12
	.cfi_offset s2, -16
	.cfi_offset s3, -20
	.cfi_offset s4, -24
	.cfi_offset s5, -28
	.cfi_offset s6, -32
	.cfi_offset s7, -36
	.cfi_offset s8, -40
	.cfi_offset s9, -44
	li	t2, 15
	li	t1, -8
	lw	s0, 0(a3)
	lw	s1, 4(a3)
	sw	a0, 0(sp)
	sw	zero, 4(sp)
	sw	a1, 8(sp)
	sw	a2, 12(sp)
	addi	t5, a5, 1
	andi	a7, s1, 15
	andi	t0, s0, -8
	seqz	t3, a2
	bnez	t5, .LBB60_2
	or	s1, t0, a7
	beqz	s1, .LBB60_12
	j	.LBB60_19
.LBB60_2:
	sltu	s1, a1, t5
	and	s1, t3, s1
	bnez	s1, .LBB60_19
	slli	t4, t5, 3
	slli	s1, t5, 4
	add	t4, t4, s1
	add	t4, t4, a0
	lbu	s1, -24(t4)
	andi	s1, s1, 1
	beqz	s1, .LBB60_19
	srli	t6, a1, 29
	slli	s1, a2, 3
	or	t6, s1, t6
	seqz	s1, t0
	sub	s1, a7, s1
	bne	s1, t6, .LBB60_6
	slli	t6, a1, 3
	addi	s1, t0, -1
.LBB60_6:
	sltu	s1, s1, t6
	beqz	s1, .LBB60_19
	andi	s1, s0, -8
	slli	s0, s0, 1
	andi	s0, s0, -16
	add	s1, s1, a0
	add	s0, s0, s1
	lbu	s1, -24(s0)
	andi	s1, s1, 1
	beqz	s1, .LBB60_19
	andi	s1, a4, 1
	bnez	s1, .LBB60_10
	li	s1, -24
	j	.LBB60_11
.LBB60_10:
	li	s1, -16
.LBB60_11:
	add	t4, t4, s1
	lw	s1, 4(t4)
	lw	s0, 0(t4)
	and	s1, s1, t2
	and	s0, s0, t1
	or	s0, s0, s1
	bnez	s0, .LBB60_19
.LBB60_12:
	addi	t6, a6, 1
	beqz	t6, .LBB60_19
	sltu	s1, a1, t6
	and	s1, t3, s1
	bnez	s1, .LBB60_19
	slli	s1, t6, 3
	slli	s0, t6, 4
	add	s0, s0, s1
	add	s1, a0, s0
	lbu	s0, -24(s1)
	andi	s0, s0, 1
	bnez	s0, .LBB60_19
	srli	a6, t6, 29
	slli	t6, t6, 3
	sb	zero, -4(s1)
	sb	zero, -3(s1)
	sb	zero, -2(s1)
	sb	zero, -1(s1)
	sb	zero, -8(s1)
	sb	zero, -7(s1)
	sb	zero, -6(s1)
	sb	zero, -5(s1)
	li	a5, 1
	sw	a5, -24(s1)
	sw	zero, -20(s1)
	sw	zero, -16(s1)
	sw	zero, -12(s1)
	beqz	t5, .LBB60_18
	srli	s4, t5, 29
	slli	s8, t5, 3
	zext.b	a5, a4
	slli	t5, t5, 4
	sw	s8, -8(s1)
	sw	s4, -4(s1)
	add	a4, t5, s8
	add	a4, a4, a0
	beqz	a5, .LBB60_20
	sw	t6, -16(a4)
	sw	a6, -12(a4)
	j	.LBB60_21
.LBB60_18:
	sw	a5, -8(s1)
	sw	zero, -4(s1)
	j	.LBB60_115
.LBB60_19:
	mv	a0, sp
	mv	a1, a5
	mv	a2, a6
	call	ic_raw.table.RawTable.refusal.19bacce014a8892a
	j	.LBB60_116
.LBB60_20:
	lw	a5, -24(a4)
	andi	a5, a5, 1
	or	a5, a5, t6
	sw	a5, -24(a4)
	sw	a6, -20(a4)
.LBB60_21:
	li	a4, 0
	srli	a5, a1, 29
	slli	a2, a2, 3
	slli	t3, a1, 3
	or	s3, a2, a5
	li	a2, 67
	j	.LBB60_24
.LBB60_22:
	sltu	a5, s3, a1
.LBB60_23:
	addi	a5, a5, -1
	and	s4, a5, a1
	and	s8, a5, a4
	or	a1, s8, s4
	addi	a2, a2, -1
	seqz	a4, a1
	mv	t6, t5
	mv	a6, t4
	beqz	a2, .LBB60_45
.LBB60_24:
	andi	a4, a4, 1
	bnez	a4, .LBB60_45
	andi	s2, s8, -8
	slli	a1, s8, 1
	andi	a1, a1, -16
	add	s2, s2, a1
	add	s9, a0, s2
	lw	a4, -8(s9)
	andi	a1, a4, 1
	bnez	a1, .LBB60_45
	lw	s7, -4(s9)
	and	t5, a4, t1
	and	t4, s7, t2
	seqz	a1, t5
	sub	a1, t4, a1
	beq	a1, s3, .LBB60_28
	sltu	a1, a1, s3
	bnez	a1, .LBB60_29
	j	.LBB60_45
.LBB60_28:
	addi	a1, t5, -1
	sltu	a1, a1, t3
	beqz	a1, .LBB60_45
.LBB60_29:
	andi	a1, a4, -8
	slli	a5, a4, 1
	andi	a5, a5, -16
	add	a1, a1, a0
	add	s6, a1, a5
	lw	a1, -20(s6)
	lw	s5, -24(s6)
	and	a1, a1, t2
	and	a5, s5, t1
	beq	a1, s3, .LBB60_31
	sltu	s0, s3, a1
	j	.LBB60_32
.LBB60_31:
	sltu	s0, t3, a5
.LBB60_32:
	addi	s0, s0, -1
	and	a5, a5, s0
	and	a1, a1, s0
	xor	s0, a1, s4
	xor	s1, a5, s8
	or	s0, s0, s1
	bnez	s0, .LBB60_35
	lw	a5, -12(s6)
	lw	a1, -16(s6)
	and	s0, a5, t2
	and	a5, a1, t1
	seqz	s1, a5
	sub	s0, s0, s1
	beq	s0, s3, .LBB60_37
	sltu	a5, s0, s3
	j	.LBB60_38
.LBB60_35:
	or	a1, a1, a5
	beqz	a1, .LBB60_46
	andi	a1, a5, -8
	slli	a5, a5, 1
	andi	a5, a5, -16
	add	a1, a1, a0
	add	a1, a1, a5
	lw	a5, -8(a1)
	andi	a5, a5, 1
	beqz	a5, .LBB60_40
	j	.LBB60_46
.LBB60_37:
	addi	a5, a5, -1
	sltu	a5, a5, t3
.LBB60_38:
	beqz	a5, .LBB60_48
	andi	a5, a1, -8
	slli	a1, a1, 1
	andi	a1, a1, -16
	add	a5, a5, a0
	add	a1, a1, a5
	lw	a5, -8(a1)
	andi	a5, a5, 1
	bnez	a5, .LBB60_48
.LBB60_40:
	lw	a5, -4(s6)
	lw	s1, -8(s6)
	and	s0, a5, t2
	and	a5, s1, t1
	seqz	s1, a5
	sub	s0, s0, s1
	beq	s0, s3, .LBB60_42
	sltu	s0, s0, s3
	j	.LBB60_43
.LBB60_42:
	addi	a5, a5, -1
	sltu	s0, a5, t3
.LBB60_43:
	addi	a4, a4, 1
	sw	a4, -8(s9)
	sw	s7, -4(s9)
	lw	a4, -8(a1)
	ori	a4, a4, 1
	sw	a4, -8(a1)
	lw	a4, -8(s6)
	xori	a5, s0, 1
	lw	a1, -4(s6)
	andi	a4, a4, -2
	or	a4, a4, a5
	sw	a4, -8(s6)
	and	a1, a1, t2
	and	a4, a4, t1
	bne	a1, s3, .LBB60_22
	sltu	a5, t3, a4
	j	.LBB60_23
.LBB60_45:
	mv	t6, t0
	mv	a6, a7
	j	.LBB60_115
.LBB60_46:
	lw	a1, -20(s9)
	lw	a5, -24(s9)
	and	a4, a1, t2
	and	a2, a5, t1
	beq	a4, s3, .LBB60_50
	sltu	a1, s3, a4
	j	.LBB60_51
.LBB60_48:
	lw	a1, -20(s9)
	lw	a2, -24(s9)
	and	a1, a1, t2
	and	a2, a2, t1
	beq	a1, s3, .LBB60_57
	sltu	a4, s3, a1
	j	.LBB60_58
.LBB60_50:
	sltu	a1, t3, a2
.LBB60_51:
	bnez	a1, .LBB60_55
	xor	a1, a2, t6
	xor	s0, a4, a6
	or	a1, a1, s0
	bnez	a1, .LBB60_55
	andi	s2, t6, -8
	slli	a1, t6, 1
	andi	a1, a1, -16
	add	s2, s2, a1
	add	a2, a0, s2
	lw	a1, -12(a2)
	lw	s0, -16(a2)
	and	a4, a1, t2
	and	a1, s0, t1
	beq	a4, s3, .LBB60_89
	sltu	s0, s3, a4
	j	.LBB60_90
.LBB60_55:
	mv	t6, s8
	mv	a6, s4
	beq	a4, s3, .LBB60_99
.LBB60_56:
	sltu	a1, s3, a4
	j	.LBB60_100
.LBB60_57:
	sltu	a4, t3, a2
.LBB60_58:
	bnez	a4, .LBB60_62
	xor	a2, a2, t6
	xor	a1, a1, a6
	or	a1, a1, a2
	bnez	a1, .LBB60_62
	mv	t6, s8
	mv	a6, s4
	add	s2, s2, a0
	lw	a1, -12(s2)
	lw	a4, -16(s2)
	and	a2, a1, t2
	and	a1, a4, t1
	bne	a2, s3, .LBB60_74
.LBB60_61:
	sltu	a4, t3, a1
	j	.LBB60_75
.LBB60_62:
	andi	s2, t6, -8
	slli	a1, t6, 1
	andi	a1, a1, -16
	add	s2, s2, a1
	add	a2, a0, s2
	lw	a1, -20(a2)
	lw	a5, -24(a2)
	and	a4, a1, t2
	and	a1, a5, t1
	beq	a4, s3, .LBB60_64
	sltu	a5, s3, a4
	j	.LBB60_65
.LBB60_64:
	sltu	a5, t3, a1
.LBB60_65:
	addi	a5, a5, -1
	and	a4, a4, a5
	and	a1, a1, a5
	or	a5, a1, a4
	sw	a1, -16(s9)
	sw	a4, -12(s9)
	beqz	a5, .LBB60_67
	andi	a4, a1, -8
	slli	a1, a1, 1
	andi	a1, a1, -16
	add	a4, a4, a0
	add	a1, a1, a4
	lw	a4, -8(a1)
	andi	a4, a4, 1
	or	a4, a4, s8
	sw	a4, -8(a1)
	sw	s4, -4(a1)
.LBB60_67:
	sw	t5, -8(a2)
	sw	t4, -4(a2)
	lw	a4, -20(s6)
	lw	a1, -24(s6)
	and	a4, a4, t2
	and	a5, a1, t1
	beq	a4, s3, .LBB60_69
	sltu	s0, s3, a4
	j	.LBB60_70
.LBB60_69:
	sltu	s0, t3, a5
.LBB60_70:
	addi	s0, s0, -1
	and	a5, a5, s0
	and	a4, a4, s0
	xor	a4, a4, s4
	xor	a5, a5, s8
	or	a4, a4, a5
	bnez	a4, .LBB60_72
	andi	a1, a1, 1
	or	a1, a1, t6
	sw	a1, -24(s6)
	sw	a6, -20(s6)
	j	.LBB60_73
.LBB60_72:
	sw	t6, -16(s6)
	sw	a6, -12(s6)
.LBB60_73:
	lw	a1, -24(a2)
	andi	a1, a1, 1
	or	a1, a1, s8
	sw	a1, -24(a2)
	sw	s4, -20(a2)
	sw	t6, -8(s9)
	sw	a6, -4(s9)
	lw	s5, -24(s6)
	add	s2, s2, a0
	lw	a1, -12(s2)
	lw	a4, -16(s2)
	and	a2, a1, t2
	and	a1, a4, t1
	beq	a2, s3, .LBB60_61
.LBB60_74:
	sltu	a4, s3, a2
.LBB60_75:
	addi	a5, a4, -1
	lw	s1, -8(s6)
	lw	s0, -4(s6)
	and	a4, a5, a2
	and	a1, a1, a5
	or	s4, a1, a4
	and	a5, s0, t2
	and	a2, s1, t1
	beq	a5, s3, .LBB60_77
	sltu	s1, s3, a5
	j	.LBB60_78
.LBB60_77:
	sltu	s1, t3, a2
.LBB60_78:
	addi	s1, s1, -1
	andi	s0, s5, 1
	and	a5, a5, s1
	and	a2, a2, s1
	or	s0, s0, a1
	sw	s0, -24(s6)
	sw	a4, -20(s6)
	beqz	s4, .LBB60_80
	andi	a4, a1, -8
	slli	a1, a1, 1
	andi	a1, a1, -16
	add	a4, a4, a0
	add	a1, a1, a4
	lw	a4, -8(a1)
	andi	a4, a4, 1
	or	a4, a4, t5
	sw	a4, -8(a1)
	sw	t4, -4(a1)
.LBB60_80:
	or	s0, a2, a5
	addi	a1, a2, 1
	sw	a1, -8(s2)
	sw	a5, -4(s2)
	mv	a1, t6
	mv	a4, a6
	beqz	s0, .LBB60_88
	andi	a1, a2, -8
	slli	a2, a2, 1
	andi	a2, a2, -16
	add	a0, a0, a1
	add	a0, a0, a2
	lw	a2, -20(a0)
	lw	a1, -24(a0)
	and	a2, a2, t2
	and	a4, a1, t1
	beq	a2, s3, .LBB60_83
	sltu	a5, s3, a2
	j	.LBB60_84
.LBB60_83:
	sltu	a5, t3, a4
.LBB60_84:
	addi	a5, a5, -1
	and	a4, a4, a5
	and	a2, a2, a5
	xor	a2, a2, t4
	xor	a4, a4, t5
	or	a2, a2, a4
	bnez	a2, .LBB60_86
	andi	a1, a1, 1
	or	a1, a1, t6
	sw	a1, -24(a0)
	sw	a6, -20(a0)
	j	.LBB60_87
.LBB60_86:
	sw	t6, -16(a0)
	sw	a6, -12(a0)
.LBB60_87:
	mv	a1, t0
	mv	a4, a7
.LBB60_88:
	sw	t5, -16(s2)
	sw	t4, -12(s2)
	sw	t6, -8(s6)
	sw	a6, -4(s6)
	mv	t6, a1
	j	.LBB60_114
.LBB60_89:
	sltu	s0, t3, a1
.LBB60_90:
	addi	s0, s0, -1
	andi	a5, a5, 1
	and	a4, a4, s0
	and	a1, a1, s0
	or	s0, a1, a4
	or	a5, a5, a1
	sw	a5, -24(s9)
	sw	a4, -20(s9)
	beqz	s0, .LBB60_92
	andi	a4, a1, -8
	slli	a1, a1, 1
	andi	a1, a1, -16
	add	a4, a4, a0
	add	a1, a1, a4
	lw	a4, -8(a1)
	andi	a4, a4, 1
	or	a4, a4, s8
	sw	a4, -8(a1)
	sw	s4, -4(a1)
.LBB60_92:
	sw	t5, -8(a2)
	sw	t4, -4(a2)
	lw	a4, -20(s6)
	lw	a1, -24(s6)
	and	a4, a4, t2
	and	a5, a1, t1
	beq	a4, s3, .LBB60_94
	sltu	s0, s3, a4
	j	.LBB60_95
.LBB60_94:
	sltu	s0, t3, a5
.LBB60_95:
	addi	s0, s0, -1
	and	a5, a5, s0
	and	a4, a4, s0
	xor	a4, a4, s4
	xor	a5, a5, s8
	or	a4, a4, a5
	bnez	a4, .LBB60_97
	andi	a1, a1, 1
	or	a1, a1, t6
	sw	a1, -24(s6)
	sw	a6, -20(s6)
	j	.LBB60_98
.LBB60_97:
	sw	t6, -16(s6)
	sw	a6, -12(s6)
.LBB60_98:
	sw	s8, -16(a2)
	sw	s4, -12(a2)
	sw	t6, -8(s9)
	sw	a6, -4(s9)
	lw	a1, -24(a2)
	lw	a4, -20(a2)
	and	a2, a1, t1
	and	a4, a4, t2
	bne	a4, s3, .LBB60_56
.LBB60_99:
	sltu	a1, t3, a2
.LBB60_100:
	addi	a1, a1, -1
	lw	s1, -8(s6)
	lw	s0, -4(s6)
	and	a5, a1, a4
	and	a2, a2, a1
	or	s4, a2, a5
	and	a4, s0, t2
	and	a1, s1, t1
	beq	a4, s3, .LBB60_102
	sltu	s1, s3, a4
	j	.LBB60_103
.LBB60_102:
	sltu	s1, t3, a1
.LBB60_103:
	add	s2, s2, a0
	addi	s1, s1, -1
	and	a4, a4, s1
	and	a1, a1, s1
	sw	a2, -16(s6)
	sw	a5, -12(s6)
	beqz	s4, .LBB60_105
	andi	a5, a2, -8
	slli	a2, a2, 1
	andi	a2, a2, -16
	add	a5, a5, a0
	add	a2, a2, a5
	lw	a5, -8(a2)
	andi	a5, a5, 1
	or	a5, a5, t5
	sw	a5, -8(a2)
	sw	t4, -4(a2)
.LBB60_105:
	or	a5, a1, a4
	addi	a2, a1, 1
	sw	a2, -8(s2)
	sw	a4, -4(s2)
	mv	a2, t6
	mv	a4, a6
	beqz	a5, .LBB60_113
	andi	a2, a1, -8
	slli	a1, a1, 1
	andi	a1, a1, -16
	add	a0, a0, a2
	add	a0, a0, a1
	lw	a2, -20(a0)
	lw	a1, -24(a0)
	and	a2, a2, t2
	and	a4, a1, t1
	beq	a2, s3, .LBB60_108
	sltu	a5, s3, a2
	j	.LBB60_109
.LBB60_108:
	sltu	a5, t3, a4
.LBB60_109:
	addi	a5, a5, -1
	and	a4, a4, a5
	and	a2, a2, a5
	xor	a2, a2, t4
	xor	a4, a4, t5
	or	a2, a2, a4
	bnez	a2, .LBB60_111
	andi	a1, a1, 1
	or	a1, a1, t6
	sw	a1, -24(a0)
	sw	a6, -20(a0)
	j	.LBB60_112
.LBB60_111:
	sw	t6, -16(a0)
	sw	a6, -12(a0)
.LBB60_112:
	mv	a2, t0
	mv	a4, a7
.LBB60_113:
	lw	a0, -24(s2)
	andi	a0, a0, 1
	or	a0, a0, t5
	sw	a0, -24(s2)
	sw	t4, -20(s2)
	sw	t6, -8(s6)
	sw	a6, -4(s6)
	mv	t6, a2
.LBB60_114:
	mv	a6, a4
.LBB60_115:
	li	a0, 0
	sw	t6, 0(a3)
	sw	a6, 4(a3)
.LBB60_116:
	lw	ra, 60(sp)
	lw	s0, 56(sp)
	lw	s1, 52(sp)
	lw	s2, 48(sp)
	lw	s3, 44(sp)
	lw	s4, 40(sp)
	lw	s5, 36(sp)
	lw	s6, 32(sp)
	lw	s7, 28(sp)
	lw	s8, 24(sp)
	lw	s9, 20(sp)
	.cfi_restore ra
	.cfi_restore s0
	.cfi_restore s1
	.cfi_restore s2
	.cfi_restore s3
	.cfi_restore s4
	.cfi_restore s5
	.cfi_restore s6
	.cfi_restore s7
	.cfi_restore s8
	.cfi_restore s9
	addi	sp, sp, 64
	.cfi_def_cfa_offset 0
	ret
.Lfunc_end60:
	.size	ic_raw.tree_calls.insert_at, .Lfunc_end60-ic_raw.tree_calls.insert_at
	.cfi_endproc
	.section	.text.ic_raw_keyed.ends_calls.remove,"ax",@progbits
	.p2align	1
	.type	ic_raw_keyed.ends_calls.remove,@function
ic_raw_keyed.ends_calls.remove:
	.cfi_startproc
	addi	sp, sp, -48
	.cfi_def_cfa_offset 48
	sw	ra, 44(sp)
	sw	s0, 40(sp)
	sw	s1, 36(sp)
	sw	s2, 32(sp)
	sw	s3, 28(sp)
	sw	s4, 24(sp)
	sw	s5, 20(sp)
	sw	s6, 16(sp)
	sw	s7, 12(sp)
	.cfi_offset ra, -4
	.cfi_offset s0, -8
	.cfi_offset s1, -12
	.cfi_offset s2, -16
	.cfi_offset s3, -20
	.cfi_offset s4, -24
	.cfi_offset s5, -28
	.cfi_offset s6, -32
	.cfi_offset s7, -36
	.cfi_remember_state
	addi	t2, a5, 1
	bnez	t2, .LBB61_2
	li	a0, 4
	j	.LBB61_72
.LBB61_2:
	srli	a6, t2, 29
	lw	s1, 0(a4)
	lw	s0, 4(a4)
	slli	a7, t2, 3
	li	t0, 15
	andi	s3, s1, -8
	andi	s2, s0, 15
	xor	s1, s2, a6
	xor	s0, s3, a7
	or	s0, s0, s1
	li	t1, -8
	bnez	s0, .LBB61_36
	sltu	s1, a1, t2
	seqz	s0, a2
	and	s0, s0, s1
	bnez	s0, .LBB61_23
	lw	s1, 4(a3)
	lw	s0, 0(a3)
	and	s1, s1, t0
	and	t4, s0, t1
	or	s0, t4, s1
	beqz	s0, .LBB61_8
	srli	t3, s1, 3
	beq	t3, a2, .LBB61_7
	sltu	s1, a2, t3
	bnez	s1, .LBB61_23
	j	.LBB61_8
.LBB61_7:
	slli	s1, s1, 29
	srli	s0, t4, 3
	or	s0, s0, s1
	sltu	s1, a1, s0
	bnez	s1, .LBB61_23
.LBB61_8:
	slli	s1, t2, 3
	slli	s0, t2, 4
	add	s0, s0, s1
	add	s2, a0, s0
	lw	t3, -16(s2)
	lw	t5, -12(s2)
	srli	s1, a1, 29
	slli	s0, a2, 3
	or	t4, s0, s1
	and	t5, t5, t0
	and	s5, t3, t1
	seqz	s1, s5
	sub	s0, t5, s1
	slli	t3, a1, 3
	beq	s0, t4, .LBB61_12
	sltu	t6, s0, t4
	bnez	t6, .LBB61_13
.LBB61_10:
	lw	s1, -4(s2)
	lw	s0, -8(s2)
	and	t5, s1, t0
	and	t6, s0, t1
	seqz	s0, t6
	sub	s0, t5, s0
	beq	s0, t4, .LBB61_20
	sltu	s0, s0, t4
	j	.LBB61_21
.LBB61_12:
	addi	s1, s5, -1
	sltu	t6, s1, t3
	beqz	t6, .LBB61_10
.LBB61_13:
	li	s0, 67
.LBB61_14:
	andi	t6, s5, -8
	slli	s1, s5, 1
	andi	s1, s1, -16
	add	t6, t6, a0
	add	t6, t6, s1
	lw	s1, -20(t6)
	lw	t6, -24(t6)
	and	s2, s1, t0
	and	s3, t6, t1
	seqz	s1, s3
	sub	s1, s2, s1
	beq	s1, t4, .LBB61_16
	sltu	t6, s1, t4
	j	.LBB61_17
.LBB61_16:
	addi	s1, s3, -1
	sltu	t6, s1, t3
.LBB61_17:
	li	s4, 1
	beqz	t6, .LBB61_19
	addi	s0, s0, -1
	mv	s5, s3
	mv	t5, s2
	bnez	s0, .LBB61_14
	j	.LBB61_25
.LBB61_19:
	mv	s3, s5
	mv	s2, t5
	j	.LBB61_25
.LBB61_20:
	addi	s0, t6, -1
	sltu	s0, s0, t3
.LBB61_21:
	beqz	s0, .LBB61_23
	li	s6, -67
	mv	s3, a7
	mv	s2, a6
	j	.LBB61_30
.LBB61_23:
	li	s4, 0
.LBB61_24:
	li	s3, 0
	li	s2, 0
.LBB61_25:
	xor	s1, s3, a7
	xor	s0, s2, a6
	or	s0, s0, s1
	beqz	s0, .LBB61_73
	beqz	s4, .LBB61_36
	srli	t3, s3, 3
	slli	s1, s2, 29
	srli	s0, s2, 3
	or	s1, t3, s1
	beq	s0, a2, .LBB61_33
	sltu	s0, a2, s0
	j	.LBB61_34
.LBB61_29:
	sltu	s0, s0, t4
	addi	s6, s6, 1
	beqz	s0, .LBB61_24
.LBB61_30:
	mv	s4, s3
	mv	s3, t6
	andi	t6, t6, -8
	slli	s0, s3, 1
	andi	s0, s0, -16
	add	t6, t6, a0
	add	s0, s0, t6
	lw	t6, -16(s0)
	lw	s5, -12(s0)
	and	t6, t6, t1
	and	s1, s5, t0
	xor	s2, s1, s2
	xor	s1, t6, s4
	or	s1, s1, s2
	snez	t6, s1
	seqz	s1, s6
	or	s4, t6, s1
	mv	s2, t5
	bnez	s4, .LBB61_25
	lw	s1, -4(s0)
	lw	s0, -8(s0)
	and	t5, s1, t0
	and	t6, s0, t1
	seqz	s0, t6
	sub	s0, t5, s0
	bne	s0, t4, .LBB61_29
	addi	s0, t6, -1
	sltu	s0, s0, t3
	addi	s6, s6, 1
	bnez	s0, .LBB61_30
	j	.LBB61_24
.LBB61_33:
	sltu	s0, a1, s1
.LBB61_34:
	bnez	s0, .LBB61_73
	slli	s0, s1, 3
	slli	s1, s1, 4
	add	s0, s0, s1
	add	s0, s0, a0
	lbu	s1, -24(s0)
	andi	s1, s1, 1
	beqz	s1, .LBB61_73
.LBB61_36:
	lw	s1, 8(a4)
	lw	s0, 12(a4)
	and	s5, s1, t1
	and	s4, s0, t0
	xor	s1, s4, a6
	xor	s0, s5, a7
	or	s0, s0, s1
	bnez	s0, .LBB61_70
	sltu	s1, a1, t2
	seqz	s0, a2
	and	s0, s0, s1
	bnez	s0, .LBB61_57
	lw	s1, 4(a3)
	lw	s0, 0(a3)
	and	s1, s1, t0
	and	t4, s0, t1
	or	s0, t4, s1
	beqz	s0, .LBB61_42
	srli	t3, s1, 3
	beq	t3, a2, .LBB61_41
	sltu	s1, a2, t3
	bnez	s1, .LBB61_57
	j	.LBB61_42
.LBB61_41:
	slli	s1, s1, 29
	srli	s0, t4, 3
	or	s0, s0, s1
	sltu	s1, a1, s0
	bnez	s1, .LBB61_57
.LBB61_42:
	slli	s1, t2, 3
	slli	t2, t2, 4
	add	t2, t2, s1
	add	t6, a0, t2
	lw	t3, -24(t6)
	lw	t4, -20(t6)
	srli	s1, a1, 29
	slli	s0, a2, 3
	or	t2, s0, s1
	and	t4, t4, t0
	and	s6, t3, t1
	seqz	s1, s6
	sub	s0, t4, s1
	slli	t3, a1, 3
	beq	s0, t2, .LBB61_46
	sltu	t5, s0, t2
	bnez	t5, .LBB61_47
.LBB61_44:
	lw	s1, -4(t6)
	lw	s0, -8(t6)
	and	t4, s1, t0
	and	t5, s0, t1
	seqz	s1, t5
	sub	s1, t4, s1
	beq	s1, t2, .LBB61_54
	sltu	s1, s1, t2
	j	.LBB61_55
.LBB61_46:
	addi	s1, s6, -1
	sltu	t5, s1, t3
	beqz	t5, .LBB61_44
.LBB61_47:
	li	s0, 67
.LBB61_48:
	andi	t5, s6, -8
	slli	s1, s6, 1
	andi	s1, s1, -16
	add	t5, t5, a0
	add	t5, t5, s1
	lw	s1, -12(t5)
	lw	t5, -16(t5)
	and	s4, s1, t0
	and	s5, t5, t1
	seqz	s1, s5
	sub	s1, s4, s1
	beq	s1, t2, .LBB61_50
	sltu	t5, s1, t2
	j	.LBB61_51
.LBB61_50:
	addi	s1, s5, -1
	sltu	t5, s1, t3
.LBB61_51:
	li	t6, 1
	beqz	t5, .LBB61_53
	addi	s0, s0, -1
	mv	s6, s5
	mv	t4, s4
	bnez	s0, .LBB61_48
	j	.LBB61_59
.LBB61_53:
	mv	s5, s6
	mv	s4, t4
	j	.LBB61_59
.LBB61_54:
	addi	s1, t5, -1
	sltu	s1, s1, t3
.LBB61_55:
	beqz	s1, .LBB61_57
	li	s7, -67
	mv	s5, a7
	mv	s4, a6
	j	.LBB61_64
.LBB61_57:
	li	t6, 0
.LBB61_58:
	li	s5, 0
	li	s4, 0
.LBB61_59:
	xor	s1, s5, a7
	xor	s0, s4, a6
	or	s0, s0, s1
	beqz	s0, .LBB61_73
	beqz	t6, .LBB61_70
	srli	t0, s5, 3
	slli	s1, s4, 29
	srli	s0, s4, 3
	or	s1, t0, s1
	beq	s0, a2, .LBB61_67
	sltu	s0, a2, s0
	j	.LBB61_68
.LBB61_63:
	sltu	s0, s0, t2
	addi	s7, s7, 1
	beqz	s0, .LBB61_58
.LBB61_64:
	mv	t6, s5
	mv	s5, t5
	andi	t5, t5, -8
	slli	s0, s5, 1
	andi	s0, s0, -16
	add	t5, t5, a0
	add	s0, s0, t5
	lw	t5, -24(s0)
	lw	s6, -20(s0)
	and	t5, t5, t1
	and	s1, s6, t0
	xor	s4, s1, s4
	xor	s1, t5, t6
	or	s1, s1, s4
	snez	t5, s1
	seqz	s1, s7
	or	t6, t5, s1
	mv	s4, t4
	bnez	t6, .LBB61_59
	lw	s1, -4(s0)
	lw	s0, -8(s0)
	and	t4, s1, t0
	and	t5, s0, t1
	seqz	s0, t5
	sub	s0, t4, s0
	bne	s0, t2, .LBB61_63
	addi	s0, t5, -1
	sltu	s0, s0, t3
	addi	s7, s7, 1
	bnez	s0, .LBB61_64
	j	.LBB61_58
.LBB61_67:
	sltu	s0, a1, s1
.LBB61_68:
	bnez	s0, .LBB61_73
	slli	s0, s1, 3
	slli	s1, s1, 4
	add	s0, s0, s1
	add	s0, s0, a0
	lbu	s1, -24(s0)
	andi	s1, s1, 1
	beqz	s1, .LBB61_73
.LBB61_70:
	mv	s0, a4
	mv	a4, a5
	call	ic_raw.tree_calls.remove
	bnez	a0, .LBB61_72
	srli	a6, s3, 24
	srli	a2, s3, 16
	srli	a3, s3, 8
	srli	a7, s2, 24
	srli	a5, s2, 16
	srli	s1, s2, 8
	srli	t0, s5, 24
	srli	a4, s5, 16
	srli	a1, s5, 8
	sb	s3, 0(s0)
	sb	a3, 1(s0)
	sb	a2, 2(s0)
	sb	a6, 3(s0)
	srli	a2, s4, 24
	sb	s2, 4(s0)
	sb	s1, 5(s0)
	sb	a5, 6(s0)
	sb	a7, 7(s0)
	srli	a3, s4, 16
	sb	s5, 8(s0)
	sb	a1, 9(s0)
	sb	a4, 10(s0)
	sb	t0, 11(s0)
	srli	a1, s4, 8
	sb	s4, 12(s0)
	sb	a1, 13(s0)
	sb	a3, 14(s0)
	sb	a2, 15(s0)
.LBB61_72:
	lw	ra, 44(sp)
	lw	s0, 40(sp)
	lw	s1, 36(sp)
	lw	s2, 32(sp)
	lw	s3, 28(sp)
	lw	s4, 24(sp)
	lw	s5, 20(sp)
	lw	s6, 16(sp)
	lw	s7, 12(sp)
	.cfi_restore ra
	.cfi_restore s0
	.cfi_restore s1
	.cfi_restore s2
	.cfi_restore s3
	.cfi_restore s4
	.cfi_restore s5
	.cfi_restore s6
	.cfi_restore s7
	addi	sp, sp, 48
	.cfi_def_cfa_offset 0
	ret
.LBB61_73:
	.cfi_restore_state
	mv	a3, a7
	mv	a4, a6
	lw	ra, 44(sp)
	lw	s0, 40(sp)
	lw	s1, 36(sp)
	lw	s2, 32(sp)
	lw	s3, 28(sp)
	lw	s4, 24(sp)
	lw	s5, 20(sp)
	lw	s6, 16(sp)
	lw	s7, 12(sp)
	.cfi_restore ra
	.cfi_restore s0
	.cfi_restore s1
	.cfi_restore s2
	.cfi_restore s3
	.cfi_restore s4
	.cfi_restore s5
	.cfi_restore s6
	.cfi_restore s7
	addi	sp, sp, 48
	.cfi_def_cfa_offset 0
	tail	ic_raw.table.RawTable.refusal_of.59019f4869331413
.Lfunc_end61:
	.size	ic_raw_keyed.ends_calls.remove, .Lfunc_end61-ic_raw_keyed.ends_calls.remove
	.cfi_endproc
	.section	.text.unlikely.ic_raw.table.RawTable.refusal_of.59019f4869331413,"ax",@progbits
	.p2align	1
	.type	ic_raw.table.RawTable.refusal_of.59019f4869331413,@function
ic_raw.table.RawTable.refusal_of.59019f4869331413:
	.cfi_startproc
	slli	a5, a4, 29
	srli	a3, a3, 3
	srli	a4, a4, 3
	or	a3, a3, a5
	beq	a4, a2, .LBB62_4
	sltu	a1, a2, a4
	bnez	a1, .LBB62_5
.LBB62_2:
	slli	a1, a3, 3
	slli	a3, a3, 4
	add	a1, a1, a3
	add	a0, a0, a1
	lbu	a0, -24(a0)
	andi	a0, a0, 1
	beqz	a0, .LBB62_6
	li	a0, 5
	ret
.LBB62_4:
	sltu	a1, a1, a3
	beqz	a1, .LBB62_2
.LBB62_5:
	li	a0, 1
	ret
.LBB62_6:
	li	a0, 3
	ret
.Lfunc_end62:
	.size	ic_raw.table.RawTable.refusal_of.59019f4869331413, .Lfunc_end62-ic_raw.table.RawTable.refusal_of.59019f4869331413
	.cfi_endproc
	.section	.text.ic_raw.tree_calls.remove,"ax",@progbits
	.p2align	1
	.type	ic_raw.tree_calls.remove,@function
ic_raw.tree_calls.remove:
	.cfi_startproc
	addi	sp, sp, -96
	.cfi_def_cfa_offset 96
	sw	ra, 92(sp)
	sw	s0, 88(sp)
	sw	s1, 84(sp)
	sw	s2, 80(sp)
	sw	s3, 76(sp)
	sw	s4, 72(sp)
	sw	s5, 68(sp)
	sw	s6, 64(sp)
	sw	s7, 60(sp)
	sw	s8, 56(sp)
	sw	s9, 52(sp)
	sw	s10, 48(sp)
	sw	s11, 44(sp)
	.cfi_offset ra, -4
	.cfi_offset s0, -8
	.cfi_offset s1, -12
	.cfi_offset s2, -16
	.cfi_offset s3, -20
	.cfi_offset s4, -24
	.cfi_offset s5, -28
	.cfi_offset s6, -32
	.cfi_offset s7, -36
	.cfi_offset s8, -40
	.cfi_offset s9, -44
	.cfi_offset s10, -48
	.cfi_offset s11, -52
	.cfi_remember_state
	addi	a7, a4, 1
	bnez	a7, .LBB63_2
	li	a0, 4
	j	.LBB63_143
.LBB63_2:
	sw	a0, 24(sp)
	sw	zero, 28(sp)
	sw	a1, 32(sp)
	sw	a2, 36(sp)
	lw	t1, 0(a3)
	lw	s1, 4(a3)
	sltu	a5, a1, a7
	seqz	s0, a2
	and	a5, a5, s0
	andi	t6, t1, -8
	andi	a6, s1, 15
	sw	t6, 16(sp)
	sw	a6, 20(sp)
	bnez	a5, .LBB63_21
	slli	s2, a7, 3
	slli	a5, a7, 4
	add	a5, a5, s2
	add	ra, a0, a5
	lw	t0, -24(ra)
	andi	a5, t0, 1
	beqz	a5, .LBB63_21
	srli	a5, a1, 29
	slli	s1, a2, 3
	seqz	s0, t6
	or	s7, s1, a5
	sub	s1, a6, s0
	slli	s6, a1, 3
	beq	s1, s7, .LBB63_6
	sltu	s1, s1, s7
	bnez	s1, .LBB63_7
	j	.LBB63_21
.LBB63_6:
	addi	a5, t6, -1
	sltu	s1, a5, s6
	beqz	s1, .LBB63_21
.LBB63_7:
	andi	a5, t1, -8
	slli	t1, t1, 1
	andi	s1, t1, -16
	add	a5, a5, a0
	add	a5, a5, s1
	lbu	a5, -24(a5)
	andi	a5, a5, 1
	beqz	a5, .LBB63_21
	srli	s3, a7, 29
	li	s8, 15
	li	s11, -8
	lw	t1, -20(ra)
	lw	s9, -8(ra)
	lw	s1, -4(ra)
	xor	s0, t6, s2
	xor	a5, a6, s3
	or	a5, a5, s0
	and	s0, s1, s8
	and	a7, s9, s11
	beqz	a5, .LBB63_10
	or	a5, a7, s0
	beqz	a5, .LBB63_21
.LBB63_10:
	and	t1, t1, s8
	and	a1, t0, s11
	seqz	a4, a1
	sub	a4, t1, a4
	beq	a4, s7, .LBB63_14
	sltu	a5, a4, s7
	lw	a4, -12(ra)
	lw	a2, -16(ra)
	and	s1, a4, s8
	and	a4, a2, s11
	bnez	a5, .LBB63_15
.LBB63_12:
	beq	s1, s7, .LBB63_22
	sltu	a1, s7, s1
	addi	a1, a1, -1
	and	t1, a1, s1
	and	a1, a1, a4
	bne	s0, s7, .LBB63_18
	j	.LBB63_23
.LBB63_14:
	addi	a4, a1, -1
	sltu	a5, a4, s6
	lw	a4, -12(ra)
	lw	a2, -16(ra)
	and	s1, a4, s8
	and	a4, a2, s11
	beqz	a5, .LBB63_12
.LBB63_15:
	seqz	a2, a4
	sub	a5, s1, a2
	beq	a5, s7, .LBB63_26
	sltu	a5, a5, s7
	bnez	a5, .LBB63_27
.LBB63_17:
	beq	s0, s7, .LBB63_23
.LBB63_18:
	sltu	a4, s7, s0
	addi	a4, a4, -1
	and	s5, a4, s0
	and	s10, a4, a7
	or	a7, s10, s5
	bnez	a7, .LBB63_24
.LBB63_19:
	li	s1, 0
	sw	a1, 16(sp)
	sw	t1, 20(sp)
	mv	t6, a1
	mv	a6, t1
	or	a2, a1, t1
	beqz	a2, .LBB63_36
.LBB63_20:
	andi	a2, a1, -8
	slli	a1, a1, 1
	addi	s10, s10, 1
	andi	a1, a1, -16
	add	a0, a0, a2
	add	a0, a0, a1
	sw	s10, -8(a0)
	sw	s5, -4(a0)
	j	.LBB63_142
.LBB63_21:
	mv	a3, a4
	lw	ra, 92(sp)
	lw	s0, 88(sp)
	lw	s1, 84(sp)
	lw	s2, 80(sp)
	lw	s3, 76(sp)
	lw	s4, 72(sp)
	lw	s5, 68(sp)
	lw	s6, 64(sp)
	lw	s7, 60(sp)
	lw	s8, 56(sp)
	lw	s9, 52(sp)
	lw	s10, 48(sp)
	lw	s11, 44(sp)
	.cfi_restore ra
	.cfi_restore s0
	.cfi_restore s1
	.cfi_restore s2
	.cfi_restore s3
	.cfi_restore s4
	.cfi_restore s5
	.cfi_restore s6
	.cfi_restore s7
	.cfi_restore s8
	.cfi_restore s9
	.cfi_restore s10
	.cfi_restore s11
	addi	sp, sp, 96
	.cfi_def_cfa_offset 0
	tail	ic_raw.table.RawTable.refusal_at.19bacce014a8892a
.LBB63_22:
	.cfi_restore_state
	.cfi_remember_state
	sltu	a1, s6, a4
	addi	a1, a1, -1
	and	t1, a1, s1
	and	a1, a1, a4
	bne	s0, s7, .LBB63_18
.LBB63_23:
	sltu	a4, s6, a7
	addi	a4, a4, -1
	and	s5, a4, s0
	and	s10, a4, a7
	or	a7, s10, s5
	beqz	a7, .LBB63_19
.LBB63_24:
	andi	a2, s10, -8
	slli	a4, s10, 1
	andi	a4, a4, -16
	add	a2, a2, a0
	add	a5, a2, a4
	lw	a2, -20(a5)
	lw	t0, -24(a5)
	and	s1, a2, s8
	and	a4, t0, s11
	beq	s1, s7, .LBB63_32
	sltu	s0, s7, s1
	j	.LBB63_33
.LBB63_26:
	addi	a2, a4, -1
	sltu	a5, a2, s6
	beqz	a5, .LBB63_17
.LBB63_27:
	li	a1, 67
	j	.LBB63_30
.LBB63_28:
	addi	s0, s10, -1
	sltu	s0, s0, s6
	beqz	s0, .LBB63_41
.LBB63_29:
	addi	a1, a1, -1
	mv	a4, s10
	mv	s1, s5
	beqz	a1, .LBB63_37
.LBB63_30:
	andi	a2, a4, -8
	slli	a5, a4, 1
	andi	a5, a5, -16
	add	a2, a2, a0
	add	a5, a5, a2
	lw	s0, -20(a5)
	lw	a2, -24(a5)
	and	s5, s0, s8
	and	s10, a2, s11
	seqz	s0, s10
	sub	s0, s5, s0
	beq	s0, s7, .LBB63_28
	sltu	s0, s0, s7
	bnez	s0, .LBB63_29
	j	.LBB63_41
.LBB63_32:
	sltu	s0, s6, a4
.LBB63_33:
	addi	s0, s0, -1
	and	a4, a4, s0
	and	s0, s0, s1
	xor	a2, s0, s3
	xor	a4, a4, s2
	or	a2, a2, a4
	bnez	a2, .LBB63_35
	li	s1, 0
	andi	a2, t0, 1
	add	a4, a2, a1
	sltu	a2, a4, a2
	add	a2, a2, t1
	sw	a4, -24(a5)
	sw	a2, -20(a5)
	or	a2, a1, t1
	bnez	a2, .LBB63_20
	j	.LBB63_36
.LBB63_35:
	sw	a1, -16(a5)
	sw	t1, -12(a5)
	li	s1, 1
	or	a2, a1, t1
	bnez	a2, .LBB63_20
.LBB63_36:
	snez	s0, a7
	lw	t3, 16(sp)
	lw	t2, 20(sp)
	andi	a1, s9, 1
	bnez	a1, .LBB63_63
	j	.LBB63_141
.LBB63_37:
	andi	a1, a2, -8
	slli	a2, a2, 1
	andi	a2, a2, -16
	add	a1, a1, a0
	add	a5, a1, a2
	lw	a1, -20(a5)
	lw	a2, -24(a5)
	and	a6, a1, s8
	and	a1, a2, s11
	seqz	a2, a1
	sub	a2, a6, a2
	beq	a2, s7, .LBB63_39
	sltu	s0, a2, s7
	j	.LBB63_40
.LBB63_39:
	addi	a2, a1, -1
	sltu	s0, a2, s6
.LBB63_40:
	mv	a4, s10
	mv	s1, s5
	bnez	s0, .LBB63_45
.LBB63_41:
	lw	a1, -12(a5)
	lw	s0, -16(a5)
	and	a2, a1, s8
	and	a1, s0, s11
	beq	a2, s7, .LBB63_43
	sltu	s0, s7, a2
	j	.LBB63_44
.LBB63_43:
	sltu	s0, s6, a1
.LBB63_44:
	addi	s0, s0, -1
	and	a6, s0, a2
	and	a1, a1, s0
	mv	s10, a4
	mv	s5, s1
.LBB63_45:
	lw	a2, -4(a5)
	lw	s9, -8(a5)
	and	a5, a2, s8
	and	a4, s9, s11
	li	s0, -8
	beq	a5, s7, .LBB63_48
	sltu	a2, s7, a5
	addi	a2, a2, -1
	and	s11, a2, a5
	and	s4, a2, a4
	or	a7, s4, s11
	bnez	a7, .LBB63_49
.LBB63_47:
	li	s1, 0
	sw	a1, 16(sp)
	sw	a6, 20(sp)
	j	.LBB63_55
.LBB63_48:
	sltu	a2, s6, a4
	addi	a2, a2, -1
	and	s11, a2, a5
	and	s4, a2, a4
	or	a7, s4, s11
	beqz	a7, .LBB63_47
.LBB63_49:
	andi	a2, s4, -8
	slli	a4, s4, 1
	andi	a4, a4, -16
	add	a2, a2, a0
	add	a5, a2, a4
	lw	a2, -20(a5)
	lw	t0, -24(a5)
	and	s1, a2, s8
	and	a2, t0, s0
	beq	s1, s7, .LBB63_51
	sltu	a4, s7, s1
	j	.LBB63_52
.LBB63_51:
	sltu	a4, s6, a2
.LBB63_52:
	addi	a4, a4, -1
	and	a2, a2, a4
	and	a4, a4, s1
	xor	a4, a4, s5
	xor	a2, a2, s10
	or	a2, a2, a4
	bnez	a2, .LBB63_54
	li	s1, 0
	andi	s0, t0, 1
	add	a2, s0, a1
	sltu	a4, a2, s0
	add	a4, a4, a6
	sw	a2, -24(a5)
	sw	a4, -20(a5)
	j	.LBB63_55
.LBB63_54:
	sw	a1, -16(a5)
	sw	a6, -12(a5)
	li	s1, 1
.LBB63_55:
	or	a2, a1, a6
	beqz	a2, .LBB63_57
	li	s9, 0
	andi	a2, a1, -8
	slli	a1, a1, 1
	andi	a1, a1, -16
	add	a2, a2, a0
	add	a1, a1, a2
	addi	a2, s4, 1
	sw	a2, -8(a1)
	sw	s11, -4(a1)
.LBB63_57:
	xor	a1, s10, s2
	xor	a2, s5, s3
	or	a1, a1, a2
	snez	s0, a7
	bnez	a1, .LBB63_59
	mv	s10, s4
	mv	s5, s11
	li	s11, -8
	lw	t3, 16(sp)
	lw	t2, 20(sp)
	andi	a1, s9, 1
	bnez	a1, .LBB63_63
	j	.LBB63_141
.LBB63_59:
	sw	ra, 4(sp)
	sw	a0, 12(sp)
	sw	a3, 8(sp)
	addi	a0, sp, 24
	addi	a1, sp, 16
	mv	a2, s2
	mv	a3, s3
	mv	a4, s10
	mv	a5, s5
	call	ic_rbtree.repair.writers.take_place.b5b364724df62b0f
	xor	a0, s4, s2
	xor	a1, s11, s3
	or	a0, a0, a1
	bnez	a0, .LBB63_61
	li	s0, 1
	j	.LBB63_62
.LBB63_61:
	mv	s10, s4
	mv	s5, s11
.LBB63_62:
	lw	a3, 8(sp)
	lw	a0, 12(sp)
	lw	ra, 4(sp)
	li	s11, -8
	lw	t3, 16(sp)
	lw	t2, 20(sp)
	andi	a1, s9, 1
	beqz	a1, .LBB63_141
.LBB63_63:
	beqz	s0, .LBB63_141
	li	s3, 67
	j	.LBB63_67
.LBB63_65:
	sltu	a4, s7, a1
.LBB63_66:
	addi	a4, a4, -1
	and	a2, a2, a4
	and	a1, a1, a4
	xor	a1, a1, s5
	xor	a2, a2, s10
	or	a1, a1, a2
	addi	s3, s3, -1
	snez	s1, a1
	mv	s10, s0
	mv	s5, a5
	mv	t6, t3
	mv	a6, t2
	beqz	s3, .LBB63_142
.LBB63_67:
	andi	a1, s10, -8
	slli	a2, s10, 1
	andi	a2, a2, -16
	add	a1, a1, a0
	andi	s1, s1, 1
	add	t1, a1, a2
	beqz	s1, .LBB63_70
	lw	a1, -20(t1)
	lw	a5, -24(t1)
	and	a7, a1, s8
	and	t0, a5, s11
	seqz	a1, t0
	sub	a1, a7, a1
	beq	a1, s7, .LBB63_72
	sltu	a1, a1, s7
	j	.LBB63_73
.LBB63_70:
	lw	a2, -12(t1)
	lw	a1, -16(t1)
	and	a7, a2, s8
	and	t0, a1, s11
	seqz	a2, t0
	sub	a2, a7, a2
	beq	a2, s7, .LBB63_76
	sltu	a2, a2, s7
	j	.LBB63_77
.LBB63_72:
	addi	a1, t0, -1
	sltu	a1, a1, s6
.LBB63_73:
	beqz	a1, .LBB63_141
	andi	a1, a5, -8
	slli	a2, a5, 1
	andi	a2, a2, -16
	add	a1, a1, a0
	add	s1, a1, a2
	lw	a1, -8(s1)
	andi	a1, a1, 1
	beqz	a1, .LBB63_80
	mv	t6, t3
	mv	a6, t2
	j	.LBB63_112
.LBB63_76:
	addi	a2, t0, -1
	sltu	a2, a2, s6
.LBB63_77:
	beqz	a2, .LBB63_141
	andi	a2, a1, -8
	slli	a1, a1, 1
	andi	a1, a1, -16
	add	a2, a2, a0
	add	s1, a2, a1
	lw	a1, -8(s1)
	andi	a1, a1, 1
	beqz	a1, .LBB63_83
	mv	t6, t3
	mv	a6, t2
	j	.LBB63_126
.LBB63_80:
	lw	a1, -12(s1)
	lw	a2, -16(s1)
	and	s0, a1, s8
	and	a1, a2, s11
	beq	s0, s7, .LBB63_86
	sltu	t5, s7, s0
	lw	a4, -4(t1)
	lw	a2, -8(t1)
	and	a4, a4, s8
	and	a6, a2, s11
	bne	a4, s7, .LBB63_87
.LBB63_82:
	sltu	t4, s6, a6
	j	.LBB63_88
.LBB63_83:
	lw	a1, -20(s1)
	lw	a2, -24(s1)
	and	s0, a1, s8
	and	a1, a2, s11
	beq	s0, s7, .LBB63_93
	sltu	t4, s7, s0
	lw	a4, -4(t1)
	lw	a2, -8(t1)
	and	a5, a4, s8
	and	a4, a2, s11
	bne	a5, s7, .LBB63_94
.LBB63_85:
	sltu	a6, s6, a4
	j	.LBB63_95
.LBB63_86:
	sltu	t5, s6, a1
	lw	a4, -4(t1)
	lw	a2, -8(t1)
	and	a4, a4, s8
	and	a6, a2, s11
	beq	a4, s7, .LBB63_82
.LBB63_87:
	sltu	t4, s7, a4
.LBB63_88:
	addi	t5, t5, -1
	andi	a5, a5, 1
	and	a2, t5, s0
	and	a1, t5, a1
	or	s0, a1, a2
	or	a5, a5, a1
	sw	a5, -24(t1)
	sw	a2, -20(t1)
	beqz	s0, .LBB63_90
	andi	a2, a1, -8
	slli	a1, a1, 1
	andi	a1, a1, -16
	add	a2, a2, a0
	add	a1, a1, a2
	lw	a2, -8(a1)
	andi	a2, a2, 1
	or	a2, a2, s10
	sw	a2, -8(a1)
	sw	s5, -4(a1)
.LBB63_90:
	addi	t4, t4, -1
	and	a2, t4, a4
	and	a1, t4, a6
	or	a4, a1, a2
	addi	a5, a1, 1
	sw	a5, -8(s1)
	sw	a2, -4(s1)
	mv	t6, t0
	mv	a6, a7
	beqz	a4, .LBB63_108
	andi	a2, a1, -8
	slli	a1, a1, 1
	andi	a1, a1, -16
	add	a2, a2, a0
	add	a1, a1, a2
	lw	a2, -20(a1)
	lw	a4, -24(a1)
	and	a2, a2, s8
	and	a5, a4, s11
	beq	a2, s7, .LBB63_100
	sltu	s0, s7, a2
	j	.LBB63_101
.LBB63_93:
	sltu	t4, s6, a1
	lw	a4, -4(t1)
	lw	a2, -8(t1)
	and	a5, a4, s8
	and	a4, a2, s11
	beq	a5, s7, .LBB63_85
.LBB63_94:
	sltu	a6, s7, a5
.LBB63_95:
	addi	t4, t4, -1
	and	a2, t4, s0
	and	a1, t4, a1
	or	s0, a1, a2
	sw	a1, -16(t1)
	sw	a2, -12(t1)
	beqz	s0, .LBB63_97
	andi	a2, a1, -8
	slli	a1, a1, 1
	andi	a1, a1, -16
	add	a2, a2, a0
	add	a1, a1, a2
	lw	a2, -8(a1)
	andi	a2, a2, 1
	or	a2, a2, s10
	sw	a2, -8(a1)
	sw	s5, -4(a1)
.LBB63_97:
	addi	a1, a6, -1
	and	a5, a5, a1
	and	a1, a1, a4
	or	a2, a1, a5
	addi	a4, a1, 1
	sw	a4, -8(s1)
	sw	a5, -4(s1)
	mv	t6, t0
	mv	a6, a7
	beqz	a2, .LBB63_122
	andi	a2, a1, -8
	slli	a1, a1, 1
	andi	a1, a1, -16
	add	a2, a2, a0
	add	a1, a1, a2
	lw	a2, -20(a1)
	lw	a4, -24(a1)
	and	a2, a2, s8
	and	a5, a4, s11
	beq	a2, s7, .LBB63_103
	sltu	s0, s7, a2
	j	.LBB63_104
.LBB63_100:
	sltu	s0, s6, a5
.LBB63_101:
	addi	s0, s0, -1
	and	a5, a5, s0
	and	a2, a2, s0
	xor	a2, a2, s5
	xor	a5, a5, s10
	or	a2, a2, a5
	bnez	a2, .LBB63_106
	andi	a4, a4, 1
	or	a2, a4, t0
	sw	a2, -24(a1)
	sw	a7, -20(a1)
	j	.LBB63_107
.LBB63_103:
	sltu	s0, s6, a5
.LBB63_104:
	addi	s0, s0, -1
	and	a5, a5, s0
	and	a2, a2, s0
	xor	a2, a2, s5
	xor	a5, a5, s10
	or	a2, a2, a5
	bnez	a2, .LBB63_120
	andi	a4, a4, 1
	or	a2, a4, t0
	sw	a2, -24(a1)
	sw	a7, -20(a1)
	j	.LBB63_121
.LBB63_106:
	sw	t0, -16(a1)
	sw	a7, -12(a1)
.LBB63_107:
	mv	t6, t3
	mv	a6, t2
.LBB63_108:
	sw	s10, -16(s1)
	sw	s5, -12(s1)
	lw	a1, -20(t1)
	lw	a2, -24(t1)
	sw	t0, -8(t1)
	sw	a7, -4(t1)
	and	a7, a1, s8
	and	t0, a2, s11
	seqz	a1, t0
	sub	a1, a7, a1
	beq	a1, s7, .LBB63_110
	sltu	a1, a1, s7
	j	.LBB63_111
.LBB63_110:
	addi	a1, t0, -1
	sltu	a1, a1, s6
.LBB63_111:
	beqz	a1, .LBB63_142
.LBB63_112:
	andi	s2, t0, -8
	slli	a1, t0, 1
	andi	a1, a1, -16
	add	s2, s2, a1
	add	a1, a0, s2
	lw	a2, -20(a1)
	lw	a5, -24(a1)
	and	a4, a2, s8
	and	a2, a5, s11
	seqz	s1, a2
	sub	a4, a4, s1
	beq	a4, s7, .LBB63_114
	sltu	s1, a4, s7
	bnez	s1, .LBB63_115
	j	.LBB63_116
.LBB63_114:
	addi	a2, a2, -1
	sltu	s1, a2, s6
	beqz	s1, .LBB63_116
.LBB63_115:
	andi	s0, a5, -8
	slli	a2, a5, 1
	andi	a2, a2, -16
	add	s4, a2, s0
	add	a2, a0, s4
	lw	s0, -8(a2)
	andi	a4, s0, 1
	beqz	a4, .LBB63_151
.LBB63_116:
	lw	a4, -12(a1)
	lw	a2, -16(a1)
	and	t2, a4, s8
	and	t4, a2, s11
	seqz	a4, t4
	sub	a4, t2, a4
	beq	a4, s7, .LBB63_118
	sltu	a4, a4, s7
	bnez	a4, .LBB63_119
	j	.LBB63_134
.LBB63_118:
	addi	a4, t4, -1
	sltu	a4, a4, s6
	beqz	a4, .LBB63_134
.LBB63_119:
	andi	t3, a2, -8
	slli	a2, a2, 1
	andi	a2, a2, -16
	add	t3, t3, a2
	add	t5, a0, t3
	lw	a2, -8(t5)
	andi	a2, a2, 1
	bnez	a2, .LBB63_134
	j	.LBB63_147
.LBB63_120:
	sw	t0, -16(a1)
	sw	a7, -12(a1)
.LBB63_121:
	mv	t6, t3
	mv	a6, t2
.LBB63_122:
	lw	a1, -24(s1)
	andi	a1, a1, 1
	or	a1, a1, s10
	sw	a1, -24(s1)
	sw	s5, -20(s1)
	lw	a1, -12(t1)
	lw	a2, -16(t1)
	sw	t0, -8(t1)
	sw	a7, -4(t1)
	and	a7, a1, s8
	and	t0, a2, s11
	seqz	a1, t0
	sub	a1, a7, a1
	beq	a1, s7, .LBB63_124
	sltu	a1, a1, s7
	j	.LBB63_125
.LBB63_124:
	addi	a1, t0, -1
	sltu	a1, a1, s6
.LBB63_125:
	beqz	a1, .LBB63_142
.LBB63_126:
	andi	a4, t0, -8
	slli	a1, t0, 1
	andi	a1, a1, -16
	add	s2, a1, a4
	add	a1, a0, s2
	lw	a2, -20(a1)
	lw	s1, -24(a1)
	and	t2, a2, s8
	and	t4, s1, s11
	seqz	a2, t4
	sub	a2, t2, a2
	beq	a2, s7, .LBB63_128
	sltu	a2, a2, s7
	bnez	a2, .LBB63_129
	j	.LBB63_130
.LBB63_128:
	addi	a2, t4, -1
	sltu	a2, a2, s6
	beqz	a2, .LBB63_130
.LBB63_129:
	andi	t3, s1, -8
	slli	a2, s1, 1
	andi	a2, a2, -16
	add	t3, t3, a2
	add	t5, a0, t3
	lw	a2, -8(t5)
	andi	a2, a2, 1
	beqz	a2, .LBB63_145
.LBB63_130:
	lw	a5, -12(a1)
	lw	a2, -16(a1)
	and	s1, a5, s8
	and	a5, a2, s11
	seqz	s0, a5
	sub	s1, s1, s0
	beq	s1, s7, .LBB63_132
	sltu	a5, s1, s7
	bnez	a5, .LBB63_133
	j	.LBB63_134
.LBB63_132:
	addi	a5, a5, -1
	sltu	a5, a5, s6
	beqz	a5, .LBB63_134
.LBB63_133:
	andi	a5, a2, -8
	slli	a2, a2, 1
	andi	a2, a2, -16
	add	a5, a5, a2
	add	a2, a0, a5
	lw	a4, -8(a2)
	andi	s0, a4, 1
	beqz	s0, .LBB63_157
.LBB63_134:
	lw	a2, -8(a1)
	andi	a2, a2, -2
	sw	a2, -8(a1)
	lw	s1, -8(t1)
	lw	a1, -4(t1)
	andi	a2, s1, 1
	beqz	a2, .LBB63_144
	mv	t3, t6
	mv	t2, a6
	and	a5, a1, s8
	and	s0, s1, s11
	seqz	a1, s0
	sub	a1, a5, a1
	beq	a1, s7, .LBB63_137
	sltu	a1, a1, s7
	j	.LBB63_138
.LBB63_137:
	addi	a1, s0, -1
	sltu	a1, a1, s6
.LBB63_138:
	beqz	a1, .LBB63_141
	andi	a1, s1, -8
	slli	s1, s1, 1
	andi	s1, s1, -16
	add	a1, a1, a0
	add	a1, a1, s1
	lw	a2, -20(a1)
	lw	a4, -24(a1)
	and	a1, a2, s8
	and	a2, a4, s11
	bne	a1, s7, .LBB63_65
	sltu	a4, s6, a2
	j	.LBB63_66
.LBB63_141:
	mv	t6, t3
	mv	a6, t2
.LBB63_142:
	li	a0, 0
	sw	zero, -24(ra)
	sw	zero, -20(ra)
	sw	t6, 0(a3)
	sw	a6, 4(a3)
.LBB63_143:
	lw	ra, 92(sp)
	lw	s0, 88(sp)
	lw	s1, 84(sp)
	lw	s2, 80(sp)
	lw	s3, 76(sp)
	lw	s4, 72(sp)
	lw	s5, 68(sp)
	lw	s6, 64(sp)
	lw	s7, 60(sp)
	lw	s8, 56(sp)
	lw	s9, 52(sp)
	lw	s10, 48(sp)
	lw	s11, 44(sp)
	.cfi_restore ra
	.cfi_restore s0
	.cfi_restore s1
	.cfi_restore s2
	.cfi_restore s3
	.cfi_restore s4
	.cfi_restore s5
	.cfi_restore s6
	.cfi_restore s7
	.cfi_restore s8
	.cfi_restore s9
	.cfi_restore s10
	.cfi_restore s11
	addi	sp, sp, 96
	.cfi_def_cfa_offset 0
	ret
.LBB63_144:
	.cfi_restore_state
	addi	s1, s1, 1
	sw	s1, -8(t1)
	sw	a1, -4(t1)
	j	.LBB63_142
.LBB63_145:
	lw	a4, -12(a1)
	lw	a2, -16(a1)
	and	a4, a4, s8
	and	a5, a2, s11
	seqz	s0, a5
	sub	s0, a4, s0
	beq	s0, s7, .LBB63_152
	sltu	a5, s0, s7
	j	.LBB63_153
.LBB63_147:
	beqz	s1, .LBB63_149
	andi	s4, a5, -8
	slli	a5, a5, 1
	andi	a5, a5, -16
	add	s4, s4, a5
	add	a2, a0, s4
	lw	s0, -8(a2)
	andi	a4, s0, 1
	beqz	a4, .LBB63_151
.LBB63_149:
	lw	a2, -20(t5)
	lw	a5, -24(t5)
	and	a4, a2, s8
	and	a2, a5, s11
	beq	a4, s7, .LBB63_167
	sltu	a5, s7, a4
	j	.LBB63_168
.LBB63_151:
	lw	a1, -4(a2)
	j	.LBB63_216
.LBB63_152:
	addi	a5, a5, -1
	sltu	a5, a5, s6
.LBB63_153:
	beqz	a5, .LBB63_155
	andi	a5, a2, -8
	slli	a2, a2, 1
	andi	a2, a2, -16
	add	a5, a5, a2
	add	a2, a0, a5
	lw	a4, -8(a2)
	andi	s0, a4, 1
	beqz	s0, .LBB63_157
.LBB63_155:
	lw	a2, -12(t5)
	lw	a5, -16(t5)
	and	a4, a2, s8
	and	a2, a5, s11
	beq	a4, s7, .LBB63_158
	sltu	a5, s7, a4
	j	.LBB63_159
.LBB63_157:
	lw	s1, -4(a2)
	j	.LBB63_187
.LBB63_158:
	sltu	a5, s6, a2
.LBB63_159:
	addi	a5, a5, -1
	lw	s4, -8(a1)
	lw	s0, -4(a1)
	and	s3, a5, a4
	and	a2, a2, a5
	or	s2, a2, s3
	and	s0, s0, s8
	and	a5, s4, s11
	beq	s0, s7, .LBB63_161
	sltu	a4, s7, s0
	j	.LBB63_162
.LBB63_161:
	sltu	a4, s6, a5
.LBB63_162:
	addi	a4, a4, -1
	andi	s1, s1, 1
	and	s0, s0, a4
	and	a5, a5, a4
	or	s1, s1, a2
	sw	s1, -24(a1)
	sw	s3, -20(a1)
	beqz	s2, .LBB63_164
	andi	a4, a2, -8
	slli	a2, a2, 1
	andi	a2, a2, -16
	add	a4, a4, a0
	add	a2, a2, a4
	lw	a4, -8(a2)
	andi	a4, a4, 1
	or	a4, a4, t0
	sw	a4, -8(a2)
	sw	a7, -4(a2)
.LBB63_164:
	or	a4, a5, s0
	addi	a2, a5, 1
	sw	a2, -8(t5)
	sw	s0, -4(t5)
	mv	a2, t4
	mv	s0, t2
	beqz	a4, .LBB63_182
	andi	a2, a5, -8
	slli	a5, a5, 1
	andi	a5, a5, -16
	add	a2, a2, a0
	add	a2, a2, a5
	lw	a5, -20(a2)
	lw	a4, -24(a2)
	and	a5, a5, s8
	and	s0, a4, s11
	beq	a5, s7, .LBB63_176
	sltu	s1, s7, a5
	j	.LBB63_177
.LBB63_167:
	sltu	a5, s6, a2
.LBB63_168:
	addi	a5, a5, -1
	lw	s3, -8(a1)
	lw	s1, -4(a1)
	and	s0, a5, a4
	and	a2, a2, a5
	or	s2, a2, s0
	and	a5, s1, s8
	and	a4, s3, s11
	beq	a5, s7, .LBB63_170
	sltu	s1, s7, a5
	j	.LBB63_171
.LBB63_170:
	sltu	s1, s6, a4
.LBB63_171:
	addi	s1, s1, -1
	and	a5, a5, s1
	and	a4, a4, s1
	sw	a2, -16(a1)
	sw	s0, -12(a1)
	beqz	s2, .LBB63_173
	andi	s0, a2, -8
	slli	a2, a2, 1
	andi	a2, a2, -16
	add	s0, s0, a0
	add	a2, a2, s0
	lw	s0, -8(a2)
	andi	s0, s0, 1
	or	s0, s0, t0
	sw	s0, -8(a2)
	sw	a7, -4(a2)
.LBB63_173:
	or	s0, a4, a5
	addi	a2, a4, 1
	sw	a2, -8(t5)
	sw	a5, -4(t5)
	mv	a2, t4
	mv	a5, t2
	beqz	s0, .LBB63_211
	andi	a2, a4, -8
	slli	a4, a4, 1
	andi	a4, a4, -16
	add	a2, a2, a0
	add	a2, a2, a4
	lw	a5, -20(a2)
	lw	a4, -24(a2)
	and	a5, a5, s8
	and	s0, a4, s11
	beq	a5, s7, .LBB63_205
	sltu	s1, s7, a5
	j	.LBB63_206
.LBB63_176:
	sltu	s1, s6, s0
.LBB63_177:
	bnez	s1, .LBB63_180
	xor	s0, s0, t0
	xor	a5, a5, a7
	or	a5, a5, s0
	bnez	a5, .LBB63_180
	andi	a4, a4, 1
	or	a4, a4, t4
	sw	a4, -24(a2)
	sw	t2, -20(a2)
	j	.LBB63_181
.LBB63_180:
	sw	t4, -16(a2)
	sw	t2, -12(a2)
.LBB63_181:
	mv	a2, t6
	mv	s0, a6
.LBB63_182:
	sw	t0, -16(t5)
	sw	a7, -12(t5)
	sw	t4, -8(a1)
	sw	t2, -4(a1)
	lw	a4, -12(t5)
	lw	a1, -16(t5)
	and	a4, a4, s8
	and	a5, a1, s11
	seqz	s1, a5
	sub	s1, a4, s1
	beq	s1, s7, .LBB63_184
	sltu	a5, s1, s7
	j	.LBB63_185
.LBB63_184:
	addi	a5, a5, -1
	sltu	a5, a5, s6
.LBB63_185:
	beqz	a5, .LBB63_204
	andi	a5, a1, -8
	slli	a1, a1, 1
	andi	a1, a1, -16
	add	a5, a5, a1
	add	a1, a0, a5
	lw	a4, -8(a1)
	lw	s1, -4(a1)
	mv	t6, a2
	mv	a6, s0
	mv	t0, t4
	mv	a7, t2
	mv	s2, t3
.LBB63_187:
	lw	t2, -8(t1)
	add	a5, a5, a0
	ori	a1, a4, 1
	sw	a1, -8(a5)
	sw	s1, -4(a5)
	add	s2, s2, a0
	lw	a1, -20(s2)
	lw	a5, -24(s2)
	and	a2, a1, s8
	and	a1, a5, s11
	beq	a2, s7, .LBB63_189
	sltu	a5, s7, a2
	j	.LBB63_190
.LBB63_189:
	sltu	a5, s6, a1
.LBB63_190:
	addi	a5, a5, -1
	lw	a4, -8(t1)
	lw	s1, -4(t1)
	and	s0, a5, a2
	and	a5, a5, a1
	or	t3, a5, s0
	and	s1, s1, s8
	and	a2, a4, s11
	beq	s1, s7, .LBB63_192
	sltu	a1, s7, s1
	j	.LBB63_193
.LBB63_192:
	sltu	a1, s6, a2
.LBB63_193:
	addi	a1, a1, -1
	and	s1, s1, a1
	and	a2, a2, a1
	sw	a5, -16(t1)
	sw	s0, -12(t1)
	beqz	t3, .LBB63_195
	andi	a1, a5, -8
	slli	a5, a5, 1
	andi	a5, a5, -16
	add	a1, a1, a0
	add	a1, a1, a5
	lw	a4, -8(a1)
	andi	a4, a4, 1
	or	a4, a4, s10
	sw	a4, -8(a1)
	sw	s5, -4(a1)
.LBB63_195:
	or	a4, a2, s1
	andi	a1, t2, 1
	or	a1, a1, a2
	sw	a1, -8(s2)
	sw	s1, -4(s2)
	mv	a1, t0
	mv	a5, a7
	beqz	a4, .LBB63_203
	andi	a1, a2, -8
	slli	a2, a2, 1
	andi	a2, a2, -16
	add	a0, a0, a1
	add	a0, a0, a2
	lw	a2, -20(a0)
	lw	a1, -24(a0)
	and	a2, a2, s8
	and	a5, a1, s11
	beq	a2, s7, .LBB63_198
	sltu	s1, s7, a2
	j	.LBB63_199
.LBB63_198:
	sltu	s1, s6, a5
.LBB63_199:
	addi	s1, s1, -1
	and	a5, a5, s1
	and	a2, a2, s1
	xor	a2, a2, s5
	xor	a4, a5, s10
	or	a2, a2, a4
	bnez	a2, .LBB63_201
	andi	a1, a1, 1
	or	a1, a1, t0
	sw	a1, -24(a0)
	sw	a7, -20(a0)
	j	.LBB63_202
.LBB63_201:
	sw	t0, -16(a0)
	sw	a7, -12(a0)
.LBB63_202:
	mv	a1, t6
	mv	a5, a6
.LBB63_203:
	lw	a0, -24(s2)
	addi	t0, t0, 1
	andi	a0, a0, 1
	or	a0, a0, s10
	sw	a0, -24(s2)
	sw	s5, -20(s2)
	sw	t0, -8(t1)
	sw	a7, -4(t1)
	mv	t6, a1
	mv	a6, a5
	j	.LBB63_142
.LBB63_204:
	mv	t6, a2
	mv	a6, s0
	j	.LBB63_142
.LBB63_205:
	sltu	s1, s6, s0
.LBB63_206:
	bnez	s1, .LBB63_209
	xor	s0, s0, t0
	xor	a5, a5, a7
	or	a5, a5, s0
	bnez	a5, .LBB63_209
	andi	a4, a4, 1
	or	a4, a4, t4
	sw	a4, -24(a2)
	sw	t2, -20(a2)
	j	.LBB63_210
.LBB63_209:
	sw	t4, -16(a2)
	sw	t2, -12(a2)
.LBB63_210:
	mv	a2, t6
	mv	a5, a6
.LBB63_211:
	lw	a4, -24(t5)
	andi	a4, a4, 1
	or	a4, a4, t0
	sw	a4, -24(t5)
	sw	a7, -20(t5)
	sw	t4, -8(a1)
	sw	t2, -4(a1)
	lw	a4, -20(t5)
	lw	a1, -24(t5)
	and	s1, a4, s8
	and	a4, a1, s11
	seqz	s0, a4
	sub	s1, s1, s0
	beq	s1, s7, .LBB63_213
	sltu	a4, s1, s7
	j	.LBB63_214
.LBB63_213:
	addi	a4, a4, -1
	sltu	a4, a4, s6
.LBB63_214:
	beqz	a4, .LBB63_233
	andi	s4, a1, -8
	slli	a1, a1, 1
	andi	a1, a1, -16
	add	s4, s4, a1
	add	a1, a0, s4
	lw	s0, -8(a1)
	lw	a1, -4(a1)
	mv	t6, a2
	mv	a6, a5
	mv	t0, t4
	mv	a7, t2
	mv	s2, t3
.LBB63_216:
	lw	t2, -8(t1)
	add	s4, s4, a0
	ori	a2, s0, 1
	sw	a2, -8(s4)
	sw	a1, -4(s4)
	add	s2, s2, a0
	lw	a2, -12(s2)
	lw	a5, -16(s2)
	and	a4, a2, s8
	and	a2, a5, s11
	beq	a4, s7, .LBB63_218
	sltu	a5, s7, a4
	j	.LBB63_219
.LBB63_218:
	sltu	a5, s6, a2
.LBB63_219:
	addi	a5, a5, -1
	lw	a1, -8(t1)
	lw	s0, -4(t1)
	and	s1, a5, a4
	and	a5, a5, a2
	or	t3, a5, s1
	and	s0, s0, s8
	and	a4, a1, s11
	beq	s0, s7, .LBB63_221
	sltu	a2, s7, s0
	j	.LBB63_222
.LBB63_221:
	sltu	a2, s6, a4
.LBB63_222:
	lw	a1, -24(t1)
	addi	a2, a2, -1
	and	s0, s0, a2
	and	a4, a4, a2
	andi	a1, a1, 1
	or	a1, a1, a5
	sw	a1, -24(t1)
	sw	s1, -20(t1)
	beqz	t3, .LBB63_224
	andi	a1, a5, -8
	slli	a5, a5, 1
	andi	a5, a5, -16
	add	a1, a1, a0
	add	a1, a1, a5
	lw	a2, -8(a1)
	andi	a2, a2, 1
	or	a2, a2, s10
	sw	a2, -8(a1)
	sw	s5, -4(a1)
.LBB63_224:
	or	a1, a4, s0
	andi	a2, t2, 1
	or	a2, a2, a4
	sw	a2, -8(s2)
	sw	s0, -4(s2)
	mv	a2, t0
	mv	a5, a7
	beqz	a1, .LBB63_232
	andi	a1, a4, -8
	slli	a4, a4, 1
	andi	a4, a4, -16
	add	a0, a0, a1
	add	a0, a0, a4
	lw	a1, -20(a0)
	lw	a2, -24(a0)
	and	a4, a1, s8
	and	a5, a2, s11
	beq	a4, s7, .LBB63_227
	sltu	s1, s7, a4
	j	.LBB63_228
.LBB63_227:
	sltu	s1, s6, a5
.LBB63_228:
	addi	s1, s1, -1
	and	a5, a5, s1
	and	a4, a4, s1
	xor	a1, a4, s5
	xor	a4, a5, s10
	or	a1, a1, a4
	bnez	a1, .LBB63_230
	andi	a2, a2, 1
	or	a1, a2, t0
	sw	a1, -24(a0)
	sw	a7, -20(a0)
	j	.LBB63_231
.LBB63_230:
	sw	t0, -16(a0)
	sw	a7, -12(a0)
.LBB63_231:
	mv	a2, t6
	mv	a5, a6
.LBB63_232:
	sw	s10, -16(s2)
	sw	s5, -12(s2)
	addi	t0, t0, 1
	sw	t0, -8(t1)
	sw	a7, -4(t1)
.LBB63_233:
	mv	t6, a2
	mv	a6, a5
	j	.LBB63_142
.Lfunc_end63:
	.size	ic_raw.tree_calls.remove, .Lfunc_end63-ic_raw.tree_calls.remove
	.cfi_endproc
	.section	.text.ic_rbtree.repair.writers.take_place.b5b364724df62b0f,"ax",@progbits
	.p2align	1
	.type	ic_rbtree.repair.writers.take_place.b5b364724df62b0f,@function
ic_rbtree.repair.writers.take_place.b5b364724df62b0f:
	.cfi_startproc
	addi	sp, sp, -32
	.cfi_def_cfa_offset 32
	sw	s0, 28(sp)
	sw	s1, 24(sp)
	sw	s2, 20(sp)
	sw	s3, 16(sp)
	sw	s4, 12(sp)
	sw	s5, 8(sp)
	.cfi_offset s0, -4
	.cfi_offset s1, -8
	.cfi_offset s2, -12
	.cfi_offset s3, -16
	.cfi_offset s4, -20
	.cfi_offset s5, -24
	lw	t5, 0(a0)
	lw	s2, 8(a0)
	lw	a7, 12(a0)
	andi	s1, a2, -8
	slli	s0, a2, 1
	andi	s0, s0, -16
	add	s0, s0, s1
	add	s1, t5, s0
	lw	a6, -8(s1)
	lw	s0, -4(s1)
	srli	t1, s2, 29
	slli	a7, a7, 3
	andi	t0, a6, -8
	andi	t3, s0, 15
	or	t6, a7, t1
	slli	s2, s2, 3
	beq	t3, t6, .LBB64_2
	sltu	a7, t6, t3
	j	.LBB64_3
.LBB64_2:
	sltu	a7, s2, t0
.LBB64_3:
	lw	t1, -24(s1)
	lw	t2, -20(s1)
	addi	s0, a7, -1
	and	a7, s0, t3
	and	t0, s0, t0
	andi	s5, t2, 15
	andi	t2, t1, -8
	beq	s5, t6, .LBB64_5
	sltu	t1, t6, s5
	j	.LBB64_6
.LBB64_5:
	sltu	t1, s2, t2
.LBB64_6:
	lw	s0, -12(s1)
	lw	t3, -16(s1)
	or	s4, t0, a7
	addi	s1, t1, -1
	andi	t4, s0, 15
	andi	t3, t3, -8
	beq	t4, t6, .LBB64_10
	sltu	s3, t6, t4
	and	t1, s1, s5
	and	t2, s1, t2
	addi	s3, s3, -1
	beqz	s4, .LBB64_11
.LBB64_8:
	andi	a1, t0, -8
	slli	s0, t0, 1
	andi	s0, s0, -16
	add	a1, a1, t5
	add	a1, a1, s0
	lw	s0, -20(a1)
	lw	t5, -24(a1)
	li	s1, 15
	li	s4, -8
	and	s1, s1, s0
	and	s0, t5, s4
	beq	s1, t6, .LBB64_12
	sltu	t6, t6, s1
	j	.LBB64_13
.LBB64_10:
	sltu	s3, s2, t3
	and	t1, s1, s5
	and	t2, s1, t2
	addi	s3, s3, -1
	bnez	s4, .LBB64_8
.LBB64_11:
	srli	t5, a4, 24
	srli	a3, a4, 16
	srli	s1, a4, 8
	srli	s0, a5, 24
	srli	a2, a5, 16
	sb	a4, 0(a1)
	sb	s1, 1(a1)
	sb	a3, 2(a1)
	sb	t5, 3(a1)
	srli	a3, a5, 8
	sb	a5, 4(a1)
	sb	a3, 5(a1)
	sb	a2, 6(a1)
	sb	s0, 7(a1)
	and	t4, s3, t4
	or	a3, t2, t1
	and	a1, s3, t3
	bnez	a3, .LBB64_16
	j	.LBB64_17
.LBB64_12:
	sltu	t6, s2, s0
.LBB64_13:
	addi	t6, t6, -1
	and	s0, t6, s0
	and	s1, t6, s1
	xor	a3, a3, s1
	xor	a2, a2, s0
	or	a2, a2, a3
	bnez	a2, .LBB64_15
	andi	a2, t5, 1
	add	a3, a2, a4
	sltu	a2, a3, a2
	add	a2, a2, a5
	sw	a3, -24(a1)
	sw	a2, -20(a1)
	and	t4, s3, t4
	or	a3, t2, t1
	and	a1, s3, t3
	bnez	a3, .LBB64_16
	j	.LBB64_17
.LBB64_15:
	sw	a4, -16(a1)
	sw	a5, -12(a1)
	and	t4, s3, t4
	or	a3, t2, t1
	and	a1, s3, t3
	beqz	a3, .LBB64_17
.LBB64_16:
	lw	a3, 0(a0)
	andi	s1, t2, -8
	slli	s0, t2, 1
	andi	s0, s0, -16
	add	a3, a3, s1
	add	a3, a3, s0
	lw	s1, -8(a3)
	andi	s1, s1, 1
	add	s0, s1, a4
	sltu	s1, s0, s1
	add	s1, s1, a5
	sw	s0, -8(a3)
	sw	s1, -4(a3)
.LBB64_17:
	or	a3, a1, t4
	beqz	a3, .LBB64_19
	lw	a3, 0(a0)
	andi	s1, a1, -8
	slli	a2, a1, 1
	andi	a2, a2, -16
	add	a3, a3, s1
	add	a2, a2, a3
	lw	a3, -8(a2)
	andi	a3, a3, 1
	add	s1, a3, a4
	sltu	a3, s1, a3
	add	a3, a3, a5
	sw	s1, -8(a2)
	sw	a3, -4(a2)
.LBB64_19:
	lw	a2, 0(a0)
	andi	a3, a4, -8
	slli	a4, a4, 1
	andi	a4, a4, -16
	add	a3, a3, a4
	add	a2, a2, a3
	lw	a4, -24(a2)
	andi	a4, a4, 1
	or	a4, a4, t2
	sw	a4, -24(a2)
	sw	t1, -20(a2)
	lw	a2, 0(a0)
	add	a2, a2, a3
	sw	a1, -16(a2)
	sw	t4, -12(a2)
	lw	a0, 0(a0)
	andi	a1, a6, 1
	or	a1, t0, a1
	add	a0, a0, a3
	sw	a1, -8(a0)
	sw	a7, -4(a0)
	lw	s0, 28(sp)
	lw	s1, 24(sp)
	lw	s2, 20(sp)
	lw	s3, 16(sp)
	lw	s4, 12(sp)
	lw	s5, 8(sp)
	.cfi_restore s0
	.cfi_restore s1
	.cfi_restore s2
	.cfi_restore s3
	.cfi_restore s4
	.cfi_restore s5
	addi	sp, sp, 32
	.cfi_def_cfa_offset 0
	ret
.Lfunc_end64:
	.size	ic_rbtree.repair.writers.take_place.b5b364724df62b0f, .Lfunc_end64-ic_rbtree.repair.writers.take_place.b5b364724df62b0f
	.cfi_endproc
	.section	.text.unlikely.ic_raw.table.RawTable.refusal_at.19bacce014a8892a,"ax",@progbits
	.p2align	1
	.type	ic_raw.table.RawTable.refusal_at.19bacce014a8892a,@function
ic_raw.table.RawTable.refusal_at.19bacce014a8892a:
	.cfi_startproc
	addi	a3, a3, 1
	bnez	a3, .LBB65_2
.LBB65_1:
	li	a0, 5
	ret
.LBB65_2:
	sltu	a1, a1, a3
	seqz	a2, a2
	and	a1, a1, a2
	beqz	a1, .LBB65_4
	li	a0, 1
	ret
.LBB65_4:
	slli	a1, a3, 3
	slli	a3, a3, 4
	add	a1, a1, a3
	add	a0, a0, a1
	lbu	a0, -24(a0)
	andi	a0, a0, 1
	bnez	a0, .LBB65_1
	li	a0, 3
	ret
.Lfunc_end65:
	.size	ic_raw.table.RawTable.refusal_at.19bacce014a8892a, .Lfunc_end65-ic_raw.table.RawTable.refusal_at.19bacce014a8892a
	.cfi_endproc
	.section	.text.unlikely.ic_raw.search.refusal,"ax",@progbits
	.p2align	1
	.type	ic_raw.search.refusal,@function
ic_raw.search.refusal:
	.cfi_startproc
	beq	a3, a1, .LBB66_3
	sltu	a0, a3, a1
	beqz	a0, .LBB66_4
.LBB66_2:
	li	a0, 1
	ret
.LBB66_3:
	sltu	a0, a2, a0
	bnez	a0, .LBB66_2
.LBB66_4:
	li	a0, 5
	ret
.Lfunc_end66:
	.size	ic_raw.search.refusal, .Lfunc_end66-ic_raw.search.refusal
	.cfi_endproc
	.section	.text.ic_raw.tree.step_from_none,"ax",@progbits
	.p2align	1
	.type	ic_raw.tree.step_from_none,@function
ic_raw.tree.step_from_none:
	.cfi_startproc
	or	t0, a3, a4
	beqz	t0, .LBB67_4
	mv	a7, a0
	srli	t0, a3, 3
	slli	t1, a4, 29
	srli	a0, a4, 3
	or	t0, t0, t1
	beq	a0, a2, .LBB67_5
	sltu	t1, a2, a0
	li	a0, 5
	beqz	t1, .LBB67_6
.LBB67_3:
	ret
.LBB67_4:
	li	a0, 4
	ret
.LBB67_5:
	sltu	t1, a1, t0
	li	a0, 5
	bnez	t1, .LBB67_3
.LBB67_6:
	slli	t1, t0, 3
	slli	t0, t0, 4
	add	t0, t0, t1
	add	t0, t0, a7
	lbu	t0, -24(t0)
	andi	t0, t0, 1
	beqz	t0, .LBB67_3
	li	t0, 15
	li	t1, -8
	zext.b	t4, a5
	srli	a5, a1, 29
	slli	a2, a2, 3
	or	t3, a2, a5
	slli	t2, a1, 3
	li	a5, 67
	beqz	t4, .LBB67_13
.LBB67_8:
	andi	a1, a3, -8
	slli	a2, a3, 1
	andi	a2, a2, -16
	add	a1, a1, a7
	add	a1, a1, a2
	lw	a2, -20(a1)
	lw	a1, -24(a1)
	and	t5, a2, t0
	and	a2, a1, t1
	seqz	a1, a2
	sub	a1, t5, a1
	beq	a1, t3, .LBB67_10
	sltu	t4, a1, t3
	bnez	t4, .LBB67_11
	j	.LBB67_17
.LBB67_10:
	addi	a1, a2, -1
	sltu	t4, a1, t2
	beqz	t4, .LBB67_17
.LBB67_11:
	addi	a5, a5, -1
	mv	a3, a2
	mv	a4, t5
	bnez	a5, .LBB67_8
	j	.LBB67_17
.LBB67_12:
	addi	a5, a5, -1
	mv	a3, a2
	mv	a4, t5
	beqz	a5, .LBB67_17
.LBB67_13:
	andi	a1, a3, -8
	slli	a2, a3, 1
	andi	a2, a2, -16
	add	a1, a1, a7
	add	a1, a1, a2
	lw	a2, -12(a1)
	lw	a1, -16(a1)
	and	t5, a2, t0
	and	a2, a1, t1
	seqz	a1, a2
	sub	a1, t5, a1
	beq	a1, t3, .LBB67_15
	sltu	t4, a1, t3
	j	.LBB67_16
.LBB67_15:
	addi	a1, a2, -1
	sltu	t4, a1, t2
.LBB67_16:
	bnez	t4, .LBB67_12
.LBB67_17:
	srli	a1, a3, 3
	andi	a3, a3, -8
	slli	a2, a1, 4
	add	a3, a3, a7
	add	a2, a2, a3
	lbu	a2, -24(a2)
	andi	a2, a2, 1
	beqz	a2, .LBB67_3
	li	a0, 0
	slli	a4, a4, 29
	or	a1, a1, a4
	addi	a1, a1, -1
	sw	a1, 0(a6)
	ret
.Lfunc_end67:
	.size	ic_raw.tree.step_from_none, .Lfunc_end67-ic_raw.tree.step_from_none
	.cfi_endproc
	.section	.text.unlikely.ic_raw.table.RawTable.refusal_of.19bacce014a8892a,"ax",@progbits
	.p2align	1
	.type	ic_raw.table.RawTable.refusal_of.19bacce014a8892a,@function
ic_raw.table.RawTable.refusal_of.19bacce014a8892a:
	.cfi_startproc
	slli	a5, a4, 29
	srli	a3, a3, 3
	srli	a4, a4, 3
	or	a3, a3, a5
	beq	a4, a2, .LBB68_4
	sltu	a1, a2, a4
	bnez	a1, .LBB68_5
.LBB68_2:
	slli	a1, a3, 3
	slli	a3, a3, 4
	add	a1, a1, a3
	add	a0, a0, a1
	lbu	a0, -24(a0)
	andi	a0, a0, 1
	beqz	a0, .LBB68_6
	li	a0, 5
	ret
.LBB68_4:
	sltu	a1, a1, a3
	beqz	a1, .LBB68_2
.LBB68_5:
	li	a0, 1
	ret
.LBB68_6:
	li	a0, 3
	ret
.Lfunc_end68:
	.size	ic_raw.table.RawTable.refusal_of.19bacce014a8892a, .Lfunc_end68-ic_raw.table.RawTable.refusal_of.19bacce014a8892a
	.cfi_endproc
	.section	.text.unlikely.ic_raw.tree.nothing_found,"ax",@progbits
	.p2align	1
	.type	ic_raw.tree.nothing_found,@function
ic_raw.tree.nothing_found:
	.cfi_startproc
	zext.b	a0, a0
	seqz	a0, a0
	xori	a0, a0, 5
	ret
.Lfunc_end69:
	.size	ic_raw.tree.nothing_found, .Lfunc_end69-ic_raw.tree.nothing_found
	.cfi_endproc
	.section	.text.unlikely.ic_raw_augmented.sum_calls.refusal,"ax",@progbits
	.p2align	1
	.type	ic_raw_augmented.sum_calls.refusal,@function
ic_raw_augmented.sum_calls.refusal:
	.cfi_startproc
	addi	a5, a3, 1
	bnez	a5, .LBB70_5
	lw	a6, 8(a0)
	lw	a4, 12(a0)
.LBB70_2:
	beq	a2, a4, .LBB70_7
	sltu	a0, a2, a4
	beqz	a0, .LBB70_8
.LBB70_4:
	li	a0, 1
	ret
.LBB70_5:
	lw	a6, 8(a0)
	lw	a4, 12(a0)
	sltu	a7, a6, a5
	seqz	a3, a4
	and	a3, a3, a7
	beqz	a3, .LBB70_9
	li	a0, 1
	ret
.LBB70_7:
	sltu	a0, a1, a6
	bnez	a0, .LBB70_4
.LBB70_8:
	li	a0, 5
	ret
.LBB70_9:
	lw	a0, 0(a0)
	slli	a3, a5, 3
	slli	a5, a5, 4
	add	a3, a3, a5
	add	a0, a0, a3
	lbu	a0, -24(a0)
	andi	a0, a0, 1
	bnez	a0, .LBB70_2
	li	a0, 3
	ret
.Lfunc_end70:
	.size	ic_raw_augmented.sum_calls.refusal, .Lfunc_end70-ic_raw_augmented.sum_calls.refusal
	.cfi_endproc
	.section	.text.ic_raw_augmented.find.find,"ax",@progbits
	.p2align	1
	.type	ic_raw_augmented.find.find,@function
ic_raw_augmented.find.find:
	.cfi_startproc
	addi	sp, sp, -64
	.cfi_def_cfa_offset 64
	sw	ra, 60(sp)
	sw	s0, 56(sp)
	sw	s1, 52(sp)
	sw	s2, 48(sp)
	sw	s3, 44(sp)
	sw	s4, 40(sp)
	sw	s5, 36(sp)
	sw	s6, 32(sp)
	sw	s7, 28(sp)
	sw	s8, 24(sp)
	sw	s9, 20(sp)
	sw	s10, 16(sp)
	sw	s11, 12(sp)
	.cfi_offset ra, -4
	.cfi_offset s0, -8
	.cfi_offset s1, -12
	.cfi_offset s2, -16
	.cfi_offset s3, -20
	.cfi_offset s4, -24
	.cfi_offset s5, -28
	.cfi_offset s6, -32
	.cfi_offset s7, -36
	.cfi_offset s8, -40
	.cfi_offset s9, -44
	.cfi_offset s10, -48
	.cfi_offset s11, -52
	.cfi_remember_state
	lw	t0, 68(sp)
	lw	t1, 64(sp)
	li	t2, 15
	li	s2, -8
	andi	s3, t4, 1
	andi	t4, a5, 1
	beqz	s3, .LBB71_3
	lw	s1, 0(a1)
	lw	s4, 8(a1)
	lw	a6, 12(a1)
	andi	s0, t5, -8
	slli	a5, t5, 1
	andi	a5, a5, -16
	add	a5, a5, s0
	add	a5, a5, s1
	lw	s1, -12(a5)
	lw	a5, -16(a5)
	srli	s0, s4, 29
	slli	a6, a6, 3
	and	t3, s1, t2
	and	a7, a5, s2
	or	s1, a6, s0
	seqz	a5, a7
	sub	s0, t3, a5
	beq	s0, s1, .LBB71_4
	sltu	a5, s0, s1
	bnez	a5, .LBB71_5
	j	.LBB71_10
.LBB71_3:
	andi	a5, a6, 1
	bnez	a5, .LBB71_5
	j	.LBB71_54
.LBB71_4:
	slli	s4, s4, 3
	addi	a5, a7, -1
	sltu	a5, a5, s4
	beqz	a5, .LBB71_10
.LBB71_5:
	srli	a5, a7, 3
	slli	s1, t3, 29
	or	a5, a5, s1
	srli	s1, t3, 3
	seqz	s0, a5
	sub	s1, s1, s0
	addi	a5, a5, -1
	beq	s1, a4, .LBB71_11
	sltu	s1, s1, a4
	beqz	s1, .LBB71_12
.LBB71_7:
	slli	a5, a5, 4
	add	a5, a5, a2
	lw	s5, 12(a5)
	lw	s6, 8(a5)
	beq	t0, s5, .LBB71_102
	sltu	a5, t0, s5
	bnez	a5, .LBB71_103
.LBB71_9:
	bnez	s3, .LBB71_13
	j	.LBB71_54
.LBB71_10:
	li	s6, 0
	li	s5, 0
	j	.LBB71_13
.LBB71_11:
	sltu	s1, a5, a3
	bnez	s1, .LBB71_7
.LBB71_12:
	li	s6, 0
	li	s5, 0
	beqz	s3, .LBB71_54
.LBB71_13:
	lw	a6, 8(a1)
	lw	a5, 12(a1)
	lw	t3, 0(a1)
	srli	a1, a6, 29
	slli	a5, a5, 3
	slli	a6, a6, 3
	or	s3, a5, a1
	li	s1, 67
	j	.LBB71_16
.LBB71_14:
	sltu	a1, t1, s6
	bnez	a1, .LBB71_52
.LBB71_15:
	addi	s1, s1, -1
	mv	t5, s9
	mv	t6, s8
	beqz	s1, .LBB71_96
.LBB71_16:
	andi	a1, t5, -8
	slli	a5, t5, 1
	andi	a5, a5, -16
	add	a1, a1, a5
	add	a1, a1, t3
	lw	a5, -4(a1)
	lw	a1, -8(a1)
	and	s8, a5, t2
	and	s9, a1, s2
	seqz	a1, s9
	sub	a1, s8, a1
	beq	a1, s3, .LBB71_18
	sltu	a1, a1, s3
	bnez	a1, .LBB71_19
	j	.LBB71_98
.LBB71_18:
	addi	a1, s9, -1
	sltu	a1, a1, a6
	beqz	a1, .LBB71_98
.LBB71_19:
	srli	s0, s9, 3
	andi	a5, s9, -8
	slli	a1, s0, 4
	add	a5, a5, t3
	add	a1, a1, a5
	lw	a5, -16(a1)
	lw	a1, -12(a1)
	and	s10, a5, s2
	and	s4, a1, t2
	xor	a1, s4, t6
	xor	a5, s10, t5
	or	a1, a1, a5
	beqz	a1, .LBB71_15
	slli	a1, s8, 29
	or	a1, a1, s0
	srli	a5, s8, 3
	seqz	s0, a1
	sub	a5, a5, s0
	addi	a1, a1, -1
	beq	a5, a4, .LBB71_27
	sltu	a5, a5, a4
	bnez	a5, .LBB71_28
.LBB71_22:
	li	s0, 0
	li	a1, 0
	bnez	t4, .LBB71_29
.LBB71_23:
	add	s6, s6, s0
	sltu	a5, s6, s0
	add	s0, a1, s5
	add	s0, s0, a5
	beq	s0, a1, .LBB71_25
	sltu	a5, s0, a1
.LBB71_25:
	neg	a1, a5
	or	t6, a1, s0
	or	t5, a1, s6
	bne	t0, t6, .LBB71_34
.LBB71_26:
	sltu	a1, t1, t5
	li	a7, 1
	beqz	a1, .LBB71_35
	j	.LBB71_99
.LBB71_27:
	sltu	a5, a1, a3
	beqz	a5, .LBB71_22
.LBB71_28:
	slli	a1, a1, 4
	add	a1, a1, a2
	lw	s0, 0(a1)
	lw	a1, 4(a1)
	beqz	t4, .LBB71_23
.LBB71_29:
	beq	s5, a1, .LBB71_31
	sltu	a5, a1, s5
	beqz	a5, .LBB71_32
	j	.LBB71_33
.LBB71_31:
	sltu	a5, s0, s6
	bnez	a5, .LBB71_33
.LBB71_32:
	mv	s5, a1
	mv	s6, s0
.LBB71_33:
	mv	t5, s6
	mv	t6, s5
	beq	t0, s5, .LBB71_26
.LBB71_34:
	sltu	a1, t0, t6
	li	a7, 1
	bnez	a1, .LBB71_99
.LBB71_35:
	seqz	a1, s10
	sub	a1, s4, a1
	beq	a1, s3, .LBB71_37
	sltu	s7, a1, s3
	bnez	s7, .LBB71_38
	j	.LBB71_40
.LBB71_37:
	addi	a1, s10, -1
	sltu	s7, a1, a6
	beqz	s7, .LBB71_40
.LBB71_38:
	srli	a1, s10, 3
	slli	a5, s4, 29
	or	a1, a1, a5
	srli	a5, s4, 3
	seqz	s0, a1
	sub	a5, a5, s0
	addi	a1, a1, -1
	beq	a5, a4, .LBB71_43
	sltu	a5, a5, a4
	bnez	a5, .LBB71_44
.LBB71_40:
	li	s0, 0
	li	a1, 0
	beqz	t4, .LBB71_45
.LBB71_41:
	beq	t6, a1, .LBB71_48
	sltu	a5, a1, t6
	mv	s5, t6
	mv	s6, t5
	beqz	a5, .LBB71_49
	j	.LBB71_50
.LBB71_43:
	sltu	a5, a1, a3
	beqz	a5, .LBB71_40
.LBB71_44:
	slli	a1, a1, 4
	add	a1, a1, a2
	lw	s0, 8(a1)
	lw	a1, 12(a1)
	bnez	t4, .LBB71_41
.LBB71_45:
	add	s6, s0, t5
	sltu	s0, s6, s0
	add	a5, a1, t6
	add	a5, a5, s0
	beq	a5, a1, .LBB71_47
	sltu	s0, a5, a1
.LBB71_47:
	neg	a1, s0
	or	s5, a1, a5
	or	s6, a1, s6
	j	.LBB71_50
.LBB71_48:
	sltu	a5, s0, t5
	mv	s5, t6
	mv	s6, t5
	bnez	a5, .LBB71_50
.LBB71_49:
	mv	s5, a1
	mv	s6, s0
.LBB71_50:
	beq	t0, s5, .LBB71_14
	sltu	a1, t0, s5
	beqz	a1, .LBB71_15
.LBB71_52:
	beqz	s7, .LBB71_96
	li	s8, 67
	j	.LBB71_58
.LBB71_54:
	sb	zero, 4(a0)
	sb	zero, 5(a0)
	sb	zero, 6(a0)
	sb	zero, 7(a0)
	li	a3, 1
	addi	a1, a0, 8
	li	a2, 16
	sb	a3, 0(a0)
	sb	zero, 1(a0)
	sb	zero, 2(a0)
	sb	zero, 3(a0)
	mv	a0, a1
.LBB71_55:
	li	a1, 0
	li	a3, 0
	li	a4, 0
	lw	ra, 60(sp)
	lw	s0, 56(sp)
	lw	s1, 52(sp)
	lw	s2, 48(sp)
	lw	s3, 44(sp)
	lw	s4, 40(sp)
	lw	s5, 36(sp)
	lw	s6, 32(sp)
	lw	s7, 28(sp)
	lw	s8, 24(sp)
	lw	s9, 20(sp)
	lw	s10, 16(sp)
	lw	s11, 12(sp)
	.cfi_restore ra
	.cfi_restore s0
	.cfi_restore s1
	.cfi_restore s2
	.cfi_restore s3
	.cfi_restore s4
	.cfi_restore s5
	.cfi_restore s6
	.cfi_restore s7
	.cfi_restore s8
	.cfi_restore s9
	.cfi_restore s10
	.cfi_restore s11
	addi	sp, sp, 64
	.cfi_def_cfa_offset 0
	tail	ic.clear
.LBB71_56:
	.cfi_restore_state
	.cfi_remember_state
	beqz	s7, .LBB71_96
.LBB71_57:
	addi	s8, s8, -1
	mv	s10, ra
	mv	s4, s11
	beqz	s8, .LBB71_146
.LBB71_58:
	srli	s6, s10, 3
	andi	a1, s10, -8
	slli	a5, s6, 4
	add	a1, a1, a5
	add	s5, t3, a1
	lw	a1, -20(s5)
	lw	a5, -24(s5)
	and	s11, a1, t2
	and	ra, a5, s2
	seqz	a1, ra
	sub	a1, s11, a1
	beq	a1, s3, .LBB71_60
	sltu	s7, a1, s3
	bnez	s7, .LBB71_61
	j	.LBB71_63
.LBB71_60:
	addi	a1, ra, -1
	sltu	s7, a1, a6
	beqz	s7, .LBB71_63
.LBB71_61:
	srli	a1, ra, 3
	slli	a5, s11, 29
	or	a1, a1, a5
	srli	a5, s11, 3
	seqz	s0, a1
	sub	a5, a5, s0
	addi	a1, a1, -1
	beq	a5, a4, .LBB71_66
	sltu	a5, a5, a4
	bnez	a5, .LBB71_67
.LBB71_63:
	li	s1, 0
	li	a1, 0
	beqz	t4, .LBB71_68
.LBB71_64:
	beq	t6, a1, .LBB71_71
	sltu	s0, a1, t6
	mv	a5, t6
	mv	s9, t5
	beqz	s0, .LBB71_72
	j	.LBB71_73
.LBB71_66:
	sltu	a5, a1, a3
	beqz	a5, .LBB71_63
.LBB71_67:
	slli	a1, a1, 4
	add	a1, a1, a2
	lw	s1, 8(a1)
	lw	a1, 12(a1)
	bnez	t4, .LBB71_64
.LBB71_68:
	add	s0, s1, t5
	sltu	s1, s0, s1
	add	a5, a1, t6
	add	a5, a5, s1
	beq	a5, a1, .LBB71_70
	sltu	s1, a5, a1
.LBB71_70:
	neg	a1, s1
	or	a5, a5, a1
	or	s9, a1, s0
	j	.LBB71_73
.LBB71_71:
	sltu	s0, s1, t5
	mv	a5, t6
	mv	s9, t5
	bnez	s0, .LBB71_73
.LBB71_72:
	mv	a5, a1
	mv	s9, s1
.LBB71_73:
	beq	t0, a5, .LBB71_75
	sltu	a1, t0, a5
	bnez	a1, .LBB71_56
	j	.LBB71_76
.LBB71_75:
	sltu	a1, t1, s9
	bnez	a1, .LBB71_56
.LBB71_76:
	slli	a1, s4, 29
	or	a1, s6, a1
	srli	s1, s4, 3
	seqz	s0, a1
	sub	s1, s1, s0
	addi	a1, a1, -1
	beq	s1, a4, .LBB71_83
	sltu	s1, s1, a4
	bnez	s1, .LBB71_84
.LBB71_78:
	li	a1, 0
	bnez	t4, .LBB71_85
.LBB71_79:
	add	s9, s9, s1
	sltu	s1, s9, s1
	add	a5, a5, a1
	add	a5, a5, s1
	beq	a5, a1, .LBB71_81
	sltu	s1, a5, a1
.LBB71_81:
	neg	a1, s1
	or	t6, a1, a5
	or	t5, a1, s9
	bne	t0, t6, .LBB71_90
.LBB71_82:
	sltu	a1, t1, t5
	j	.LBB71_91
.LBB71_83:
	sltu	s1, a1, a3
	beqz	s1, .LBB71_78
.LBB71_84:
	slli	a1, a1, 4
	add	a1, a1, a2
	lw	s1, 0(a1)
	lw	a1, 4(a1)
	beqz	t4, .LBB71_79
.LBB71_85:
	beq	a5, a1, .LBB71_87
	sltu	s0, a1, a5
	beqz	s0, .LBB71_88
	j	.LBB71_89
.LBB71_87:
	sltu	s0, s1, s9
	bnez	s0, .LBB71_89
.LBB71_88:
	mv	a5, a1
	mv	s9, s1
.LBB71_89:
	mv	t5, s9
	mv	t6, a5
	beq	t0, a5, .LBB71_82
.LBB71_90:
	sltu	a1, t0, t6
.LBB71_91:
	bnez	a1, .LBB71_147
	lw	a1, -12(s5)
	lw	a5, -16(s5)
	and	s11, a1, t2
	and	ra, a5, s2
	seqz	a1, ra
	sub	a1, s11, a1
	beq	a1, s3, .LBB71_94
	sltu	a1, a1, s3
	bnez	a1, .LBB71_57
	j	.LBB71_95
.LBB71_94:
	addi	a1, ra, -1
	sltu	a1, a1, a6
	bnez	a1, .LBB71_57
.LBB71_95:
	li	a7, 0
	li	s9, 0
	li	s8, 0
	j	.LBB71_100
.LBB71_96:
	li	a7, 0
	li	s9, 0
	li	s8, 0
.LBB71_97:
	li	a1, 0
	j	.LBB71_100
.LBB71_98:
	li	a7, 0
	li	s9, 0
	li	s8, 0
.LBB71_99:
	li	a1, 1
.LBB71_100:
	sb	zero, 4(a0)
	sb	zero, 5(a0)
	sb	zero, 6(a0)
	sb	zero, 7(a0)
	sb	a1, 0(a0)
	sb	zero, 1(a0)
	sb	zero, 2(a0)
	sb	zero, 3(a0)
	sb	zero, 12(a0)
	sb	zero, 13(a0)
	sb	zero, 14(a0)
	sb	zero, 15(a0)
	sb	a7, 8(a0)
	sb	zero, 9(a0)
	sb	zero, 10(a0)
	sb	zero, 11(a0)
	srli	a1, s9, 24
	srli	a2, s9, 16
	srli	a3, s9, 8
	srli	a4, s8, 24
	srli	a5, s8, 16
	sb	s9, 16(a0)
	sb	a3, 17(a0)
	sb	a2, 18(a0)
	sb	a1, 19(a0)
	srli	a1, s8, 8
	sb	s8, 20(a0)
	sb	a1, 21(a0)
	sb	a5, 22(a0)
	sb	a4, 23(a0)
.LBB71_101:
	lw	ra, 60(sp)
	lw	s0, 56(sp)
	lw	s1, 52(sp)
	lw	s2, 48(sp)
	lw	s3, 44(sp)
	lw	s4, 40(sp)
	lw	s5, 36(sp)
	lw	s6, 32(sp)
	lw	s7, 28(sp)
	lw	s8, 24(sp)
	lw	s9, 20(sp)
	lw	s10, 16(sp)
	lw	s11, 12(sp)
	.cfi_restore ra
	.cfi_restore s0
	.cfi_restore s1
	.cfi_restore s2
	.cfi_restore s3
	.cfi_restore s4
	.cfi_restore s5
	.cfi_restore s6
	.cfi_restore s7
	.cfi_restore s8
	.cfi_restore s9
	.cfi_restore s10
	.cfi_restore s11
	addi	sp, sp, 64
	.cfi_def_cfa_offset 0
	ret
.LBB71_102:
	.cfi_restore_state
	sltu	a5, t1, s6
	beqz	a5, .LBB71_9
.LBB71_103:
	li	s3, 0
	li	s4, 0
	lw	a6, 8(a1)
	lw	a5, 12(a1)
	lw	t5, 0(a1)
	srli	a1, a6, 29
	slli	a5, a5, 3
	slli	a6, a6, 3
	or	t6, a5, a1
	li	s8, 67
	j	.LBB71_106
.LBB71_104:
	beqz	s7, .LBB71_144
.LBB71_105:
	addi	s8, s8, -1
	mv	a7, s11
	mv	t3, s10
	beqz	s8, .LBB71_144
.LBB71_106:
	srli	s6, a7, 3
	andi	a1, a7, -8
	slli	a5, s6, 4
	add	a1, a1, a5
	add	s5, t5, a1
	lw	a1, -20(s5)
	lw	a5, -24(s5)
	and	s10, a1, t2
	and	s11, a5, s2
	seqz	a1, s11
	sub	a1, s10, a1
	beq	a1, t6, .LBB71_111
	sltu	s7, a1, t6
	bnez	s7, .LBB71_112
.LBB71_108:
	li	a5, 0
	li	a1, 0
	beqz	t4, .LBB71_121
.LBB71_109:
	beq	s4, a1, .LBB71_115
	sltu	s1, a1, s4
	mv	s0, s4
	mv	s9, s3
	beqz	s1, .LBB71_116
	j	.LBB71_117
.LBB71_111:
	addi	a1, s11, -1
	sltu	s7, a1, a6
	beqz	s7, .LBB71_108
.LBB71_112:
	srli	a1, s11, 3
	slli	a5, s10, 29
	or	a1, a1, a5
	srli	a5, s10, 3
	seqz	s0, a1
	sub	a5, a5, s0
	addi	a1, a1, -1
	beq	a5, a4, .LBB71_119
	sltu	a5, a5, a4
	bnez	a5, .LBB71_120
.LBB71_114:
	li	a1, 0
	bnez	t4, .LBB71_109
	j	.LBB71_121
.LBB71_115:
	sltu	s1, a5, s3
	mv	s0, s4
	mv	s9, s3
	bnez	s1, .LBB71_117
.LBB71_116:
	mv	s0, a1
	mv	s9, a5
.LBB71_117:
	beq	t0, s0, .LBB71_124
.LBB71_118:
	sltu	a1, t0, s0
	bnez	a1, .LBB71_104
	j	.LBB71_125
.LBB71_119:
	sltu	a5, a1, a3
	beqz	a5, .LBB71_114
.LBB71_120:
	slli	a1, a1, 4
	add	a1, a1, a2
	lw	a5, 8(a1)
	lw	a1, 12(a1)
	bnez	t4, .LBB71_109
.LBB71_121:
	add	s1, a5, s3
	sltu	s0, s1, a5
	add	a5, a1, s4
	add	a5, a5, s0
	beq	a5, a1, .LBB71_123
	sltu	s0, a5, a1
.LBB71_123:
	neg	a1, s0
	or	s0, a1, a5
	or	s9, a1, s1
	bne	t0, s0, .LBB71_118
.LBB71_124:
	sltu	a1, t1, s9
	bnez	a1, .LBB71_104
.LBB71_125:
	slli	a1, t3, 29
	or	a1, s6, a1
	srli	a5, t3, 3
	seqz	s1, a1
	sub	a5, a5, s1
	addi	a1, a1, -1
	beq	a5, a4, .LBB71_132
	sltu	a5, a5, a4
	bnez	a5, .LBB71_133
.LBB71_127:
	li	a1, 0
	bnez	t4, .LBB71_134
.LBB71_128:
	add	s9, s9, a5
	sltu	s1, s9, a5
	add	a5, a1, s0
	add	a5, a5, s1
	beq	a5, a1, .LBB71_130
	sltu	s1, a5, a1
.LBB71_130:
	neg	a1, s1
	or	s4, a1, a5
	or	s3, a1, s9
	bne	t0, s4, .LBB71_139
.LBB71_131:
	sltu	a1, t1, s3
	j	.LBB71_140
.LBB71_132:
	sltu	a5, a1, a3
	beqz	a5, .LBB71_127
.LBB71_133:
	slli	a1, a1, 4
	add	a1, a1, a2
	lw	a5, 0(a1)
	lw	a1, 4(a1)
	beqz	t4, .LBB71_128
.LBB71_134:
	beq	s0, a1, .LBB71_136
	sltu	s1, a1, s0
	beqz	s1, .LBB71_137
	j	.LBB71_138
.LBB71_136:
	sltu	s1, a5, s9
	bnez	s1, .LBB71_138
.LBB71_137:
	mv	s0, a1
	mv	s9, a5
.LBB71_138:
	mv	s3, s9
	mv	s4, s0
	beq	t0, s0, .LBB71_131
.LBB71_139:
	sltu	a1, t0, s4
.LBB71_140:
	bnez	a1, .LBB71_145
	lw	a1, -12(s5)
	lw	a5, -16(s5)
	and	s10, a1, t2
	and	s11, a5, s2
	seqz	a1, s11
	sub	a1, s10, a1
	beq	a1, t6, .LBB71_143
	sltu	a1, a1, t6
	bnez	a1, .LBB71_105
	j	.LBB71_144
.LBB71_143:
	addi	a1, s11, -1
	sltu	a1, a1, a6
	bnez	a1, .LBB71_105
.LBB71_144:
	li	a2, 24
	j	.LBB71_55
.LBB71_145:
	sb	zero, 4(a0)
	sb	zero, 5(a0)
	sb	zero, 6(a0)
	sb	zero, 7(a0)
	li	a1, 1
	sb	zero, 12(a0)
	sb	zero, 13(a0)
	sb	zero, 14(a0)
	sb	zero, 15(a0)
	srli	a2, a7, 24
	srli	a3, a7, 16
	srli	a4, a7, 8
	srli	a5, t3, 24
	srli	s1, t3, 16
	sb	a7, 16(a0)
	sb	a4, 17(a0)
	sb	a3, 18(a0)
	sb	a2, 19(a0)
	srli	a2, t3, 8
	sb	a1, 0(a0)
	sb	zero, 1(a0)
	sb	zero, 2(a0)
	sb	zero, 3(a0)
	sb	a1, 8(a0)
	sb	zero, 9(a0)
	sb	zero, 10(a0)
	sb	zero, 11(a0)
	sb	t3, 20(a0)
	sb	a2, 21(a0)
	sb	s1, 22(a0)
	sb	a5, 23(a0)
	j	.LBB71_101
.LBB71_146:
	li	a7, 0
	li	s9, 0
	j	.LBB71_97
.LBB71_147:
	mv	s9, s10
	mv	s8, s4
	j	.LBB71_99
.Lfunc_end71:
	.size	ic_raw_augmented.find.find, .Lfunc_end71-ic_raw_augmented.find.find
	.cfi_endproc
	.section	.text.ic_raw_augmented.noting.WrittenSurgery.attach,"ax",@progbits
	.p2align	1
	.type	ic_raw_augmented.noting.WrittenSurgery.attach,@function
ic_raw_augmented.noting.WrittenSurgery.attach:
	.cfi_startproc
	addi	sp, sp, -64
	.cfi_def_cfa_offset 64
	sw	ra, 60(sp)
	sw	s0, 56(sp)
	sw	s1, 52(sp)
	sw	s2, 48(sp)
	sw	s3, 44(sp)
	sw	s4, 40(sp)
	sw	s5, 36(sp)
	sw	s6, 32(sp)
	sw	s7, 28(sp)
	sw	s8, 24(sp)
	sw	s9, 20(sp)
	sw	s10, 16(sp)
	sw	s11, 12(sp)
	.cfi_offset ra, -4
	.cfi_offset s0, -8
	.cfi_offset s1, -12
	.cfi_offset s2, -16
	.cfi_offset s3, -20
	.cfi_offset s4, -24
	.cfi_offset s5, -28
	.cfi_offset s6, -32
	.cfi_offset s7, -36
	.cfi_offset s8, -40
	.cfi_offset s9, -44
	.cfi_offset s10, -48
	.cfi_offset s11, -52
	.cfi_remember_state
	lw	t4, 112(a0)
	lw	t2, 116(a0)
	andi	a3, a3, 1
	andi	t0, a7, -8
	sltiu	s1, t4, 14
	seqz	s0, t2
	slli	t1, a7, 1
	and	s0, s0, s1
	beqz	a3, .LBB72_12
	beqz	s0, .LBB72_3
	slli	a3, t4, 3
	add	a3, a3, a0
	lw	s1, 0(a3)
	lw	s0, 4(a3)
	or	s0, s0, s1
	beqz	s0, .LBB72_48
.LBB72_3:
	li	a3, 1
	sb	a3, 120(a0)
.LBB72_4:
	lw	a3, 0(a1)
	andi	s1, t1, -16
	add	t0, t0, s1
	add	a3, a3, t0
	lw	s1, -24(a3)
	andi	s1, s1, 1
	sw	s1, -24(a3)
	sw	zero, -20(a3)
	lw	t1, 116(a0)
	lw	s1, 112(a0)
	seqz	s0, t1
	sltiu	a3, s1, 14
	and	a3, a3, s0
	beqz	a3, .LBB72_6
	slli	s0, s1, 3
	add	s0, s0, a0
	lw	t2, 0(s0)
	lw	a3, 4(s0)
	or	a3, t2, a3
	beqz	a3, .LBB72_49
.LBB72_6:
	li	a3, 1
	sb	a3, 120(a0)
.LBB72_7:
	lw	a3, 0(a1)
	add	a3, a3, t0
	sw	zero, -16(a3)
	sw	zero, -12(a3)
	lw	a3, 0(a1)
	add	a3, a3, t0
	sw	a4, -8(a3)
	sw	a5, -4(a3)
	lw	t4, 112(a0)
	lw	t2, 116(a0)
	zext.b	a3, a6
	andi	a6, a4, -8
	sltiu	s1, t4, 14
	seqz	s0, t2
	slli	t1, a4, 1
	sw	a2, 8(sp)
	and	s0, s0, s1
	beqz	a3, .LBB72_20
	beqz	s0, .LBB72_10
	slli	s1, t4, 3
	add	s1, s1, a0
	lw	a3, 0(s1)
	lw	s0, 4(s1)
	or	a3, a3, s0
	beqz	a3, .LBB72_56
.LBB72_10:
	li	a3, 1
	sb	a3, 120(a0)
.LBB72_11:
	lw	a3, 0(a1)
	andi	s1, t1, -16
	add	a6, a6, s1
	add	a3, a3, a6
	sw	a7, -16(a3)
	sw	t3, -12(a3)
	j	.LBB72_24
.LBB72_12:
	beqz	s0, .LBB72_14
	slli	a4, t4, 3
	add	a4, a4, a0
	lw	a3, 0(a4)
	lw	a5, 4(a4)
	or	a3, a3, a5
	beqz	a3, .LBB72_50
.LBB72_14:
	li	a3, 1
	sb	a3, 120(a0)
.LBB72_15:
	lw	a4, 0(a1)
	andi	a3, t1, -16
	add	a3, a3, t0
	add	a4, a4, a3
	lw	a5, -24(a4)
	andi	a5, a5, 1
	sw	a5, -24(a4)
	sw	zero, -20(a4)
	lw	a4, 116(a0)
	lw	a5, 112(a0)
	seqz	s1, a4
	sltiu	s0, a5, 14
	and	s0, s0, s1
	beqz	s0, .LBB72_17
	slli	s1, a5, 3
	add	s1, s1, a0
	lw	a6, 0(s1)
	lw	s0, 4(s1)
	or	s0, a6, s0
	beqz	s0, .LBB72_51
.LBB72_17:
	li	a4, 1
	sb	a4, 120(a0)
.LBB72_18:
	lw	a0, 0(a1)
	li	a4, 1
	srli	a5, t3, 24
	add	a0, a0, a3
	sw	zero, -16(a0)
	sw	zero, -12(a0)
	lw	a0, 0(a1)
	srli	a1, t3, 16
	srli	s1, t3, 8
	srli	s0, a7, 24
	add	a0, a0, a3
	srli	a3, a7, 16
	sw	a4, -8(a0)
	sw	zero, -4(a0)
	srli	a0, a7, 8
	sb	t3, 4(a2)
	sb	s1, 5(a2)
	sb	a1, 6(a2)
	sb	a5, 7(a2)
	sb	a7, 0(a2)
	sb	a0, 1(a2)
	sb	a3, 2(a2)
	sb	s0, 3(a2)
.LBB72_19:
	lw	ra, 60(sp)
	lw	s0, 56(sp)
	lw	s1, 52(sp)
	lw	s2, 48(sp)
	lw	s3, 44(sp)
	lw	s4, 40(sp)
	lw	s5, 36(sp)
	lw	s6, 32(sp)
	lw	s7, 28(sp)
	lw	s8, 24(sp)
	lw	s9, 20(sp)
	lw	s10, 16(sp)
	lw	s11, 12(sp)
	.cfi_restore ra
	.cfi_restore s0
	.cfi_restore s1
	.cfi_restore s2
	.cfi_restore s3
	.cfi_restore s4
	.cfi_restore s5
	.cfi_restore s6
	.cfi_restore s7
	.cfi_restore s8
	.cfi_restore s9
	.cfi_restore s10
	.cfi_restore s11
	addi	sp, sp, 64
	.cfi_def_cfa_offset 0
	ret
.LBB72_20:
	.cfi_restore_state
	beqz	s0, .LBB72_22
	slli	t0, t4, 3
	add	t0, t0, a0
	lw	a3, 0(t0)
	lw	s1, 4(t0)
	or	a3, a3, s1
	beqz	a3, .LBB72_68
.LBB72_22:
	li	a3, 1
	sb	a3, 120(a0)
.LBB72_23:
	lw	a3, 0(a1)
	andi	s1, t1, -16
	add	a6, a6, s1
	add	a3, a3, a6
	lw	s1, -24(a3)
	andi	s1, s1, 1
	or	s1, s1, a7
	sw	s1, -24(a3)
	sw	t3, -20(a3)
.LBB72_24:
	li	a3, 0
	li	t2, 15
	li	t1, -8
	li	s7, 67
	j	.LBB72_27
.LBB72_25:
	sltu	a3, a5, a4
.LBB72_26:
	addi	a3, a3, -1
	and	a5, a3, a4
	and	a4, a3, s1
	or	a2, a4, a5
	addi	s7, s7, -1
	seqz	a3, a2
	mv	a7, t4
	mv	t3, a6
	beqz	s7, .LBB72_19
.LBB72_27:
	andi	a3, a3, 1
	bnez	a3, .LBB72_19
	lw	s4, 0(a1)
	andi	s8, a4, -8
	slli	a3, a4, 1
	andi	s9, a3, -16
	add	t6, s9, s8
	add	s10, s4, t6
	lw	s11, -8(s10)
	andi	a3, s11, 1
	bnez	a3, .LBB72_19
	lw	s6, -4(s10)
	lw	s2, 8(a1)
	lw	a3, 12(a1)
	and	t4, s11, t1
	seqz	s1, t4
	srli	s0, s2, 29
	slli	a3, a3, 3
	or	s3, a3, s0
	and	a6, s6, t2
	sub	a3, a6, s1
	slli	s2, s2, 3
	beq	a3, s3, .LBB72_31
	sltu	a3, a3, s3
	bnez	a3, .LBB72_32
	j	.LBB72_19
.LBB72_31:
	addi	a3, t4, -1
	sltu	a3, a3, s2
	beqz	a3, .LBB72_19
.LBB72_32:
	andi	t5, s11, -8
	slli	a3, s11, 1
	andi	s5, a3, -16
	add	t0, s5, t5
	add	ra, s4, t0
	lw	a3, -20(ra)
	lw	s0, -24(ra)
	and	s1, a3, t2
	and	a3, s0, t1
	beq	s1, s3, .LBB72_34
	sltu	s0, s3, s1
	j	.LBB72_35
.LBB72_34:
	sltu	s0, s2, a3
.LBB72_35:
	addi	s0, s0, -1
	and	t1, s0, a3
	and	s1, s1, s0
	xor	s0, s1, a5
	xor	a3, t1, a4
	or	a3, a3, s0
	bnez	a3, .LBB72_38
	lw	a3, -12(ra)
	lw	s1, -16(ra)
	and	s0, a3, t2
	li	t1, -8
	and	a3, s1, t1
	seqz	a2, a3
	sub	s0, s0, a2
	beq	s0, s3, .LBB72_42
	sltu	a3, s0, s3
	bnez	a3, .LBB72_43
	j	.LBB72_54
.LBB72_38:
	or	a2, t1, s1
	beqz	a2, .LBB72_52
	andi	s1, t1, -8
	slli	t1, t1, 1
	andi	a2, t1, -16
	add	s1, s1, a2
	add	a2, s4, s1
	lw	a2, -8(a2)
	andi	a2, a2, 1
	bnez	a2, .LBB72_52
	lw	a2, -4(ra)
	lw	a3, -8(ra)
	and	a2, a2, t2
	li	t1, -8
	and	a3, a3, t1
	seqz	a4, a3
	sub	a4, a2, a4
	bne	a4, s3, .LBB72_45
.LBB72_41:
	addi	a3, a3, -1
	sltu	a4, a3, s2
	j	.LBB72_46
.LBB72_42:
	addi	a3, a3, -1
	sltu	a3, a3, s2
	beqz	a3, .LBB72_54
.LBB72_43:
	andi	a2, s1, -8
	slli	s1, s1, 1
	andi	s1, s1, -16
	add	s1, s1, a2
	add	a2, s4, s1
	lw	a2, -8(a2)
	andi	a2, a2, 1
	bnez	a2, .LBB72_54
	lw	a2, -4(ra)
	lw	a3, -8(ra)
	and	a2, a2, t2
	and	a3, a3, t1
	seqz	a4, a3
	sub	a4, a2, a4
	beq	a4, s3, .LBB72_41
.LBB72_45:
	sltu	a4, a4, s3
.LBB72_46:
	addi	s11, s11, 1
	sw	s11, -8(s10)
	sw	s6, -4(s10)
	lw	a2, 0(a1)
	add	a2, a2, s1
	lw	a3, -8(a2)
	ori	a3, a3, 1
	sw	a3, -8(a2)
	lw	a2, 0(a1)
	add	a2, a2, t0
	lw	a3, -8(a2)
	xori	a4, a4, 1
	andi	a3, a3, -2
	or	a3, a3, a4
	sw	a3, -8(a2)
	lw	a2, 0(a1)
	lw	s0, 8(a1)
	lw	a4, 12(a1)
	add	a2, a2, t5
	add	a2, a2, s5
	lw	s1, -4(a2)
	lw	a2, -8(a2)
	srli	a3, s0, 29
	slli	a5, a4, 3
	and	a4, s1, t2
	or	a5, a5, a3
	and	s1, a2, t1
	bne	a4, a5, .LBB72_25
	slli	s0, s0, 3
	sltu	a3, s0, s1
	j	.LBB72_26
.LBB72_48:
	sw	a7, 0(a3)
	sw	t3, 4(a3)
	addi	t4, t4, 1
	seqz	a3, t4
	add	a3, a3, t2
	sw	t4, 112(a0)
	sw	a3, 116(a0)
	j	.LBB72_4
.LBB72_49:
	sw	a7, 0(s0)
	sw	t3, 4(s0)
	addi	s1, s1, 1
	seqz	a3, s1
	add	a3, a3, t1
	sw	s1, 112(a0)
	sw	a3, 116(a0)
	j	.LBB72_7
.LBB72_50:
	sw	a7, 0(a4)
	sw	t3, 4(a4)
	addi	t4, t4, 1
	seqz	a3, t4
	add	a3, a3, t2
	sw	t4, 112(a0)
	sw	a3, 116(a0)
	j	.LBB72_15
.LBB72_51:
	sw	a7, 0(s1)
	sw	t3, 4(s1)
	addi	a5, a5, 1
	seqz	s1, a5
	add	a4, a4, s1
	sw	a5, 112(a0)
	sw	a4, 116(a0)
	j	.LBB72_18
.LBB72_52:
	lw	a2, -20(s10)
	lw	s1, -24(s10)
	and	a3, a2, t2
	li	t1, -8
	and	s1, s1, t1
	beq	a3, s3, .LBB72_57
	sltu	s0, s3, a3
	j	.LBB72_58
.LBB72_54:
	lw	a2, -20(s10)
	lw	s1, -24(s10)
	and	a3, a2, t2
	and	s1, s1, t1
	beq	a3, s3, .LBB72_62
	sltu	s0, s3, a3
	beqz	s0, .LBB72_63
	j	.LBB72_66
.LBB72_56:
	sw	a4, 0(s1)
	sw	a5, 4(s1)
	addi	t4, t4, 1
	seqz	a3, t4
	add	a3, a3, t2
	sw	t4, 112(a0)
	sw	a3, 116(a0)
	j	.LBB72_11
.LBB72_57:
	sltu	s0, s2, s1
.LBB72_58:
	bnez	s0, .LBB72_136
	xor	a2, s1, a7
	xor	a3, a3, t3
	or	a2, a2, a3
	bnez	a2, .LBB72_136
	andi	t5, a7, -8
	slli	a2, a7, 1
	andi	a2, a2, -16
	add	t5, t5, a2
	add	s4, s4, t5
	lw	a2, -12(s4)
	lw	a3, -16(s4)
	and	s1, a2, t2
	li	s4, -8
	li	a2, -8
	and	t1, a3, a2
	beq	s1, s3, .LBB72_115
	sltu	s3, s3, s1
	j	.LBB72_116
.LBB72_62:
	sltu	s0, s2, s1
	bnez	s0, .LBB72_66
.LBB72_63:
	xor	a2, s1, a7
	xor	a3, a3, t3
	or	a2, a2, a3
	bnez	a2, .LBB72_66
	add	t5, s9, s8
	mv	a7, a4
	mv	t3, a5
	add	a2, s4, t5
	lw	a3, -12(a2)
	lw	a2, -16(a2)
	and	s1, a3, t2
	and	a5, a2, t1
	bne	s1, s3, .LBB72_89
.LBB72_65:
	sltu	a3, s2, a5
	j	.LBB72_90
.LBB72_66:
	andi	t5, a7, -8
	slli	a2, a7, 1
	andi	a2, a2, -16
	add	t5, t5, a2
	add	s4, s4, t5
	lw	a2, -20(s4)
	lw	a3, -24(s4)
	and	s0, a2, t2
	li	s4, -8
	li	a2, -8
	and	t1, a3, a2
	beq	s0, s3, .LBB72_69
	sltu	s3, s3, s0
	j	.LBB72_70
.LBB72_68:
	sw	a4, 0(t0)
	sw	a5, 4(t0)
	addi	t4, t4, 1
	seqz	a3, t4
	add	a3, a3, t2
	sw	t4, 112(a0)
	sw	a3, 116(a0)
	j	.LBB72_23
.LBB72_69:
	sltu	s3, s2, t1
.LBB72_70:
	lw	s2, 116(a0)
	lw	s1, 112(a0)
	seqz	a2, s2
	sltiu	a3, s1, 14
	and	a2, a2, a3
	addi	a3, s3, -1
	and	s3, a3, s0
	and	a3, a3, t1
	beqz	a2, .LBB72_72
	slli	s0, s1, 3
	add	s0, s0, a0
	lw	t1, 0(s0)
	lw	a2, 4(s0)
	or	a2, t1, a2
	beqz	a2, .LBB72_168
.LBB72_72:
	li	a2, 1
	sb	a2, 120(a0)
	lw	a2, 0(a1)
	or	s1, a3, s3
	add	a2, a2, t6
	sw	a3, -16(a2)
	sw	s3, -12(a2)
	beqz	s1, .LBB72_74
.LBB72_73:
	lw	a2, 0(a1)
	andi	s1, a3, -8
	slli	a3, a3, 1
	andi	a3, a3, -16
	add	a2, a2, s1
	add	a2, a2, a3
	lw	a3, -8(a2)
	andi	a3, a3, 1
	or	a3, a3, a4
	sw	a3, -8(a2)
	sw	a5, -4(a2)
.LBB72_74:
	lw	a2, 0(a1)
	add	a2, a2, t5
	sw	t4, -8(a2)
	sw	a6, -4(a2)
	lw	a2, 0(a1)
	lw	t1, 8(a1)
	lw	a3, 12(a1)
	add	a2, a2, t0
	lw	s1, -20(a2)
	lw	a2, -24(a2)
	srli	s0, t1, 29
	slli	a3, a3, 3
	and	s1, s1, t2
	or	a3, a3, s0
	and	s3, a2, s4
	beq	s1, a3, .LBB72_76
	sltu	s0, a3, s1
	j	.LBB72_77
.LBB72_76:
	slli	t1, t1, 3
	sltu	s0, t1, s3
.LBB72_77:
	addi	a2, s0, -1
	lw	s0, 112(a0)
	lw	s2, 116(a0)
	and	a3, a2, s3
	and	a2, a2, s1
	xor	a2, a2, a5
	xor	a3, a3, a4
	or	a2, a2, a3
	sltiu	a3, s0, 14
	seqz	s1, s2
	li	t1, -8
	and	a3, a3, s1
	bnez	a2, .LBB72_82
	beqz	a3, .LBB72_80
	slli	a3, s0, 3
	add	a3, a3, a0
	lw	a2, 0(a3)
	lw	s1, 4(a3)
	or	a2, a2, s1
	beqz	a2, .LBB72_176
.LBB72_80:
	li	a2, 1
	sb	a2, 120(a0)
.LBB72_81:
	lw	a2, 0(a1)
	add	a2, a2, t0
	lw	a3, -24(a2)
	andi	a3, a3, 1
	or	a3, a3, a7
	sw	a3, -24(a2)
	sw	t3, -20(a2)
	lw	a3, 116(a0)
	lw	s0, 112(a0)
	seqz	a2, a3
	sltiu	s1, s0, 14
	and	a2, a2, s1
	bnez	a2, .LBB72_86
	j	.LBB72_87
.LBB72_82:
	beqz	a3, .LBB72_84
	slli	a3, s0, 3
	add	a3, a3, a0
	lw	a2, 0(a3)
	lw	s1, 4(a3)
	or	a2, a2, s1
	beqz	a2, .LBB72_177
.LBB72_84:
	li	a2, 1
	sb	a2, 120(a0)
.LBB72_85:
	lw	a2, 0(a1)
	add	a2, a2, t0
	sw	a7, -16(a2)
	sw	t3, -12(a2)
	lw	a3, 116(a0)
	lw	s0, 112(a0)
	seqz	a2, a3
	sltiu	s1, s0, 14
	and	a2, a2, s1
	beqz	a2, .LBB72_87
.LBB72_86:
	slli	s1, s0, 3
	add	s1, s1, a0
	lw	t1, 0(s1)
	lw	a2, 4(s1)
	or	a2, t1, a2
	li	t1, -8
	beqz	a2, .LBB72_169
.LBB72_87:
	li	a2, 1
	sb	a2, 120(a0)
.LBB72_88:
	lw	a2, 0(a1)
	add	a2, a2, t5
	lw	a3, -24(a2)
	andi	a3, a3, 1
	or	a3, a3, a4
	sw	a3, -24(a2)
	sw	a5, -20(a2)
	lw	a2, 0(a1)
	add	a2, a2, t6
	sw	a7, -8(a2)
	sw	t3, -4(a2)
	lw	s2, 8(a1)
	lw	a2, 12(a1)
	lw	s4, 0(a1)
	srli	a3, s2, 29
	slli	a2, a2, 3
	or	s3, a2, a3
	slli	s2, s2, 3
	add	a2, s4, t5
	lw	a3, -12(a2)
	lw	a2, -16(a2)
	and	s1, a3, t2
	and	a5, a2, t1
	beq	s1, s3, .LBB72_65
.LBB72_89:
	sltu	a3, s3, s1
.LBB72_90:
	add	s4, s4, t0
	lw	a2, -4(s4)
	lw	a4, -8(s4)
	addi	a3, a3, -1
	and	s4, a2, t2
	and	t6, a4, t1
	beq	s4, s3, .LBB72_92
	sltu	a4, s3, s4
	j	.LBB72_93
.LBB72_92:
	sltu	a4, s2, t6
.LBB72_93:
	li	s3, -8
	lw	s2, 116(a0)
	lw	s0, 112(a0)
	and	s1, s1, a3
	and	a5, a5, a3
	seqz	a2, s2
	sltiu	a3, s0, 14
	and	a2, a2, a3
	addi	a3, a4, -1
	beqz	a2, .LBB72_95
	slli	a4, s0, 3
	add	a4, a4, a0
	lw	t1, 0(a4)
	lw	a2, 4(a4)
	or	a2, t1, a2
	beqz	a2, .LBB72_166
.LBB72_95:
	li	a2, 1
	sb	a2, 120(a0)
.LBB72_96:
	lw	a2, 0(a1)
	add	a2, a2, t0
	lw	s0, -24(a2)
	and	t1, a3, s4
	and	s2, a3, t6
	or	a3, a5, s1
	andi	s0, s0, 1
	or	s0, s0, a5
	sw	s0, -24(a2)
	sw	s1, -20(a2)
	beqz	a3, .LBB72_98
	lw	a2, 0(a1)
	andi	a3, a5, -8
	slli	a5, a5, 1
	andi	a5, a5, -16
	add	a2, a2, a3
	add	a2, a2, a5
	lw	a3, -8(a2)
	andi	a3, a3, 1
	or	a3, a3, t4
	sw	a3, -8(a2)
	sw	a6, -4(a2)
.LBB72_98:
	lw	a2, 0(a1)
	or	a3, s2, t1
	addi	a5, s2, 1
	add	a2, a2, t5
	sw	a5, -8(a2)
	sw	t1, -4(a2)
	lw	s0, 8(sp)
	beqz	a3, .LBB72_101
	lw	a2, 0(a1)
	lw	a4, 8(a1)
	lw	s0, 12(a1)
	andi	t6, s2, -8
	slli	a3, s2, 1
	andi	a3, a3, -16
	add	t6, t6, a3
	add	a2, a2, t6
	lw	a3, -20(a2)
	lw	a2, -24(a2)
	and	a3, a3, t2
	srli	a5, a4, 29
	slli	s0, s0, 3
	or	s0, s0, a5
	and	s1, a2, s3
	beq	a3, s0, .LBB72_102
	sltu	a5, s0, a3
	j	.LBB72_103
.LBB72_101:
	srli	a2, a7, 24
	srli	a3, a7, 16
	srli	a4, a7, 8
	srli	a5, t3, 24
	srli	s1, t3, 16
	sb	a7, 0(s0)
	sb	a4, 1(s0)
	sb	a3, 2(s0)
	sb	a2, 3(s0)
	srli	a2, t3, 8
	sb	t3, 4(s0)
	sb	a2, 5(s0)
	sb	s1, 6(s0)
	sb	a5, 7(s0)
	lw	a2, 116(a0)
	lw	a3, 112(a0)
	seqz	a4, a2
	sltiu	a5, a3, 14
	and	a4, a4, a5
	bnez	a4, .LBB72_112
	j	.LBB72_113
.LBB72_102:
	slli	a4, a4, 3
	sltu	a5, a4, s1
.LBB72_103:
	addi	a5, a5, -1
	and	a2, a5, s1
	and	a3, a3, a5
	lw	s1, 112(a0)
	lw	a5, 116(a0)
	xor	a3, a3, a6
	xor	a2, a2, t4
	or	a2, a2, a3
	bnez	a2, .LBB72_108
	sltiu	a2, s1, 14
	seqz	a3, a5
	and	a2, a2, a3
	beqz	a2, .LBB72_106
	slli	a3, s1, 3
	add	a3, a3, a0
	lw	a2, 0(a3)
	lw	a4, 4(a3)
	or	a2, a2, a4
	beqz	a2, .LBB72_174
.LBB72_106:
	li	a2, 1
	sb	a2, 120(a0)
.LBB72_107:
	lw	a2, 0(a1)
	add	a2, a2, t6
	lw	a3, -24(a2)
	andi	a3, a3, 1
	or	a3, a3, a7
	sw	a3, -24(a2)
	sw	t3, -20(a2)
	lw	a2, 116(a0)
	lw	a3, 112(a0)
	seqz	a4, a2
	sltiu	a5, a3, 14
	and	a4, a4, a5
	bnez	a4, .LBB72_112
	j	.LBB72_113
.LBB72_108:
	sltiu	a2, s1, 14
	seqz	a3, a5
	and	a2, a2, a3
	beqz	a2, .LBB72_110
	slli	a3, s1, 3
	add	a3, a3, a0
	lw	a2, 0(a3)
	lw	a4, 4(a3)
	or	a2, a2, a4
	beqz	a2, .LBB72_175
.LBB72_110:
	li	a2, 1
	sb	a2, 120(a0)
.LBB72_111:
	lw	a2, 0(a1)
	add	a2, a2, t6
	sw	a7, -16(a2)
	sw	t3, -12(a2)
	lw	a2, 116(a0)
	lw	a3, 112(a0)
	seqz	a4, a2
	sltiu	a5, a3, 14
	and	a4, a4, a5
	beqz	a4, .LBB72_113
.LBB72_112:
	slli	a4, a3, 3
	add	a4, a4, a0
	lw	a5, 0(a4)
	lw	s1, 4(a4)
	or	a5, a5, s1
	beqz	a5, .LBB72_167
.LBB72_113:
	li	a2, 1
	sb	a2, 120(a0)
.LBB72_114:
	lw	a0, 0(a1)
	add	a0, a0, t5
	sw	t4, -16(a0)
	sw	a6, -12(a0)
	lw	a0, 0(a1)
	add	a0, a0, t0
	sw	a7, -8(a0)
	sw	t3, -4(a0)
	j	.LBB72_19
.LBB72_115:
	sltu	s3, s2, t1
.LBB72_116:
	lw	s2, 116(a0)
	lw	s0, 112(a0)
	seqz	a2, s2
	sltiu	a3, s0, 14
	and	a2, a2, a3
	addi	a3, s3, -1
	and	s3, a3, s1
	and	a3, a3, t1
	beqz	a2, .LBB72_118
	slli	s1, s0, 3
	add	s1, s1, a0
	lw	t1, 0(s1)
	lw	a2, 4(s1)
	or	a2, t1, a2
	beqz	a2, .LBB72_170
.LBB72_118:
	li	a2, 1
	sb	a2, 120(a0)
.LBB72_119:
	lw	a2, 0(a1)
	add	a2, a2, t6
	lw	s1, -24(a2)
	or	s0, a3, s3
	andi	s1, s1, 1
	or	s1, s1, a3
	sw	s1, -24(a2)
	sw	s3, -20(a2)
	beqz	s0, .LBB72_121
	lw	a2, 0(a1)
	andi	s1, a3, -8
	slli	a3, a3, 1
	andi	a3, a3, -16
	add	a2, a2, s1
	add	a2, a2, a3
	lw	a3, -8(a2)
	andi	a3, a3, 1
	or	a3, a3, a4
	sw	a3, -8(a2)
	sw	a5, -4(a2)
.LBB72_121:
	lw	a2, 0(a1)
	add	a2, a2, t5
	sw	t4, -8(a2)
	sw	a6, -4(a2)
	lw	a2, 0(a1)
	lw	t1, 8(a1)
	lw	a3, 12(a1)
	add	a2, a2, t0
	lw	s0, -20(a2)
	lw	a2, -24(a2)
	srli	s1, t1, 29
	slli	a3, a3, 3
	and	s0, s0, t2
	or	a3, a3, s1
	and	s3, a2, s4
	beq	s0, a3, .LBB72_123
	sltu	s1, a3, s0
	j	.LBB72_124
.LBB72_123:
	slli	t1, t1, 3
	sltu	s1, t1, s3
.LBB72_124:
	addi	a2, s1, -1
	lw	s1, 112(a0)
	lw	s2, 116(a0)
	and	a3, a2, s3
	and	a2, a2, s0
	xor	a2, a2, a5
	xor	a3, a3, a4
	or	a2, a2, a3
	sltiu	a3, s1, 14
	seqz	s0, s2
	li	t1, -8
	and	a3, a3, s0
	bnez	a2, .LBB72_129
	beqz	a3, .LBB72_127
	slli	a3, s1, 3
	add	a3, a3, a0
	lw	a2, 0(a3)
	lw	s0, 4(a3)
	or	a2, a2, s0
	beqz	a2, .LBB72_178
.LBB72_127:
	li	a2, 1
	sb	a2, 120(a0)
.LBB72_128:
	lw	a2, 0(a1)
	add	a2, a2, t0
	lw	a3, -24(a2)
	andi	a3, a3, 1
	or	a3, a3, a7
	sw	a3, -24(a2)
	sw	t3, -20(a2)
	lw	a3, 116(a0)
	lw	s0, 112(a0)
	seqz	a2, a3
	sltiu	s1, s0, 14
	and	a2, a2, s1
	bnez	a2, .LBB72_133
	j	.LBB72_134
.LBB72_129:
	beqz	a3, .LBB72_131
	slli	a3, s1, 3
	add	a3, a3, a0
	lw	a2, 0(a3)
	lw	s0, 4(a3)
	or	a2, a2, s0
	beqz	a2, .LBB72_179
.LBB72_131:
	li	a2, 1
	sb	a2, 120(a0)
.LBB72_132:
	lw	a2, 0(a1)
	add	a2, a2, t0
	sw	a7, -16(a2)
	sw	t3, -12(a2)
	lw	a3, 116(a0)
	lw	s0, 112(a0)
	seqz	a2, a3
	sltiu	s1, s0, 14
	and	a2, a2, s1
	beqz	a2, .LBB72_134
.LBB72_133:
	slli	s1, s0, 3
	add	s1, s1, a0
	lw	t1, 0(s1)
	lw	a2, 4(s1)
	or	a2, t1, a2
	li	t1, -8
	beqz	a2, .LBB72_171
.LBB72_134:
	li	a2, 1
	sb	a2, 120(a0)
.LBB72_135:
	lw	a2, 0(a1)
	add	a2, a2, t5
	sw	a4, -16(a2)
	sw	a5, -12(a2)
	lw	a2, 0(a1)
	add	a2, a2, t6
	sw	a7, -8(a2)
	sw	t3, -4(a2)
	lw	s2, 8(a1)
	lw	a2, 12(a1)
	lw	s4, 0(a1)
	srli	a3, s2, 29
	slli	a2, a2, 3
	or	s3, a2, a3
	slli	s2, s2, 3
	mv	t6, t5
	mv	a4, a7
	mv	a5, t3
.LBB72_136:
	add	a2, s4, t6
	lw	a3, -20(a2)
	lw	a2, -24(a2)
	and	s0, a3, t2
	and	s5, a2, t1
	beq	s0, s3, .LBB72_138
	sltu	a3, s3, s0
	j	.LBB72_139
.LBB72_138:
	sltu	a3, s2, s5
.LBB72_139:
	add	s4, s4, t0
	lw	a2, -4(s4)
	lw	s1, -8(s4)
	addi	a3, a3, -1
	and	t3, a2, t2
	and	a7, s1, t1
	beq	t3, s3, .LBB72_141
	sltu	s3, s3, t3
	j	.LBB72_142
.LBB72_141:
	sltu	s3, s2, a7
.LBB72_142:
	lw	t5, 116(a0)
	lw	s1, 112(a0)
	and	s2, a3, s0
	and	s0, a3, s5
	seqz	a2, t5
	sltiu	a3, s1, 14
	and	a2, a2, a3
	addi	s3, s3, -1
	beqz	a2, .LBB72_144
	slli	a3, s1, 3
	add	a3, a3, a0
	lw	t1, 0(a3)
	lw	a2, 4(a3)
	or	a2, t1, a2
	beqz	a2, .LBB72_164
.LBB72_144:
	li	a2, 1
	sb	a2, 120(a0)
.LBB72_145:
	lw	a2, 0(a1)
	and	t3, s3, t3
	and	t5, s3, a7
	or	a3, s0, s2
	add	a2, a2, t0
	sw	s0, -16(a2)
	sw	s2, -12(a2)
	beqz	a3, .LBB72_147
	lw	a2, 0(a1)
	andi	a3, s0, -8
	slli	s0, s0, 1
	andi	s0, s0, -16
	add	a2, a2, a3
	add	a2, a2, s0
	lw	a3, -8(a2)
	andi	a3, a3, 1
	or	a3, a3, t4
	sw	a3, -8(a2)
	sw	a6, -4(a2)
.LBB72_147:
	lw	a2, 0(a1)
	or	a3, t5, t3
	addi	s1, t5, 1
	add	a2, a2, t6
	sw	s1, -8(a2)
	sw	t3, -4(a2)
	beqz	a3, .LBB72_150
	lw	a2, 0(a1)
	li	s2, -8
	lw	t1, 8(a1)
	lw	a3, 12(a1)
	andi	a7, t5, -8
	slli	s0, t5, 1
	andi	s0, s0, -16
	add	a7, a7, s0
	add	a2, a2, a7
	lw	s0, -20(a2)
	lw	a2, -24(a2)
	and	s1, s0, t2
	srli	s0, t1, 29
	slli	a3, a3, 3
	or	a3, a3, s0
	and	s0, a2, s2
	beq	s1, a3, .LBB72_151
	sltu	a2, a3, s1
	j	.LBB72_152
.LBB72_150:
	srli	a7, a4, 24
	srli	a3, a4, 16
	srli	s1, a4, 8
	srli	t1, a5, 24
	srli	a2, a5, 16
	lw	s0, 8(sp)
	sb	a4, 0(s0)
	sb	s1, 1(s0)
	sb	a3, 2(s0)
	sb	a7, 3(s0)
	srli	a3, a5, 8
	sb	a5, 4(s0)
	sb	a3, 5(s0)
	sb	a2, 6(s0)
	sb	t1, 7(s0)
	lw	a2, 116(a0)
	lw	a3, 112(a0)
	seqz	s1, a2
	sltiu	s0, a3, 14
	and	s0, s0, s1
	bnez	s0, .LBB72_161
	j	.LBB72_162
.LBB72_151:
	slli	t1, t1, 3
	sltu	a2, t1, s0
.LBB72_152:
	addi	a2, a2, -1
	and	a3, a2, s0
	and	s1, s1, a2
	lw	a2, 112(a0)
	lw	s0, 116(a0)
	xor	s1, s1, a6
	xor	a3, a3, t4
	or	a3, a3, s1
	bnez	a3, .LBB72_157
	sltiu	a3, a2, 14
	seqz	s1, s0
	and	a3, a3, s1
	beqz	a3, .LBB72_155
	slli	s1, a2, 3
	add	s1, s1, a0
	lw	t1, 0(s1)
	lw	a3, 4(s1)
	or	a3, t1, a3
	beqz	a3, .LBB72_172
.LBB72_155:
	li	a2, 1
	sb	a2, 120(a0)
.LBB72_156:
	lw	a2, 0(a1)
	add	a2, a2, a7
	lw	a3, -24(a2)
	andi	a3, a3, 1
	or	a3, a3, a4
	sw	a3, -24(a2)
	sw	a5, -20(a2)
	lw	a2, 116(a0)
	lw	a3, 112(a0)
	seqz	s1, a2
	sltiu	s0, a3, 14
	and	s0, s0, s1
	bnez	s0, .LBB72_161
	j	.LBB72_162
.LBB72_157:
	sltiu	a3, a2, 14
	seqz	s1, s0
	and	a3, a3, s1
	beqz	a3, .LBB72_159
	slli	s1, a2, 3
	add	s1, s1, a0
	lw	t1, 0(s1)
	lw	a3, 4(s1)
	or	a3, t1, a3
	beqz	a3, .LBB72_173
.LBB72_159:
	li	a2, 1
	sb	a2, 120(a0)
.LBB72_160:
	lw	a2, 0(a1)
	add	a2, a2, a7
	sw	a4, -16(a2)
	sw	a5, -12(a2)
	lw	a2, 116(a0)
	lw	a3, 112(a0)
	seqz	s1, a2
	sltiu	s0, a3, 14
	and	s0, s0, s1
	beqz	s0, .LBB72_162
.LBB72_161:
	slli	s1, a3, 3
	add	s1, s1, a0
	lw	a7, 0(s1)
	lw	s0, 4(s1)
	or	s0, a7, s0
	beqz	s0, .LBB72_165
.LBB72_162:
	li	a2, 1
	sb	a2, 120(a0)
.LBB72_163:
	lw	a0, 0(a1)
	add	a0, a0, t6
	lw	a2, -24(a0)
	andi	a2, a2, 1
	or	a2, a2, t4
	sw	a2, -24(a0)
	sw	a6, -20(a0)
	lw	a0, 0(a1)
	add	a0, a0, t0
	sw	a4, -8(a0)
	sw	a5, -4(a0)
	j	.LBB72_19
.LBB72_164:
	sw	t4, 0(a3)
	sw	a6, 4(a3)
	addi	s1, s1, 1
	seqz	a2, s1
	add	a2, a2, t5
	sw	s1, 112(a0)
	sw	a2, 116(a0)
	j	.LBB72_145
.LBB72_165:
	sw	a4, 0(s1)
	sw	a5, 4(s1)
	addi	a3, a3, 1
	seqz	s1, a3
	add	a2, a2, s1
	sw	a3, 112(a0)
	sw	a2, 116(a0)
	j	.LBB72_163
.LBB72_166:
	sw	t4, 0(a4)
	sw	a6, 4(a4)
	addi	s0, s0, 1
	seqz	a2, s0
	add	a2, a2, s2
	sw	s0, 112(a0)
	sw	a2, 116(a0)
	j	.LBB72_96
.LBB72_167:
	sw	a7, 0(a4)
	sw	t3, 4(a4)
	addi	a3, a3, 1
	seqz	a4, a3
	add	a2, a2, a4
	sw	a3, 112(a0)
	sw	a2, 116(a0)
	j	.LBB72_114
.LBB72_168:
	sw	a4, 0(s0)
	sw	a5, 4(s0)
	addi	s1, s1, 1
	seqz	a2, s1
	add	a2, a2, s2
	sw	s1, 112(a0)
	sw	a2, 116(a0)
	lw	a2, 0(a1)
	or	s1, a3, s3
	add	a2, a2, t6
	sw	a3, -16(a2)
	sw	s3, -12(a2)
	bnez	s1, .LBB72_73
	j	.LBB72_74
.LBB72_169:
	sw	a7, 0(s1)
	sw	t3, 4(s1)
	addi	s0, s0, 1
	seqz	a2, s0
	add	a2, a2, a3
	sw	s0, 112(a0)
	sw	a2, 116(a0)
	j	.LBB72_88
.LBB72_170:
	sw	a4, 0(s1)
	sw	a5, 4(s1)
	addi	s0, s0, 1
	seqz	a2, s0
	add	a2, a2, s2
	sw	s0, 112(a0)
	sw	a2, 116(a0)
	j	.LBB72_119
.LBB72_171:
	sw	a7, 0(s1)
	sw	t3, 4(s1)
	addi	s0, s0, 1
	seqz	a2, s0
	add	a2, a2, a3
	sw	s0, 112(a0)
	sw	a2, 116(a0)
	j	.LBB72_135
.LBB72_172:
	sw	t5, 0(s1)
	sw	t3, 4(s1)
	addi	a2, a2, 1
	seqz	a3, a2
	add	a3, a3, s0
	sw	a2, 112(a0)
	sw	a3, 116(a0)
	j	.LBB72_156
.LBB72_173:
	sw	t5, 0(s1)
	sw	t3, 4(s1)
	addi	a2, a2, 1
	seqz	a3, a2
	add	a3, a3, s0
	sw	a2, 112(a0)
	sw	a3, 116(a0)
	j	.LBB72_160
.LBB72_174:
	sw	s2, 0(a3)
	sw	t1, 4(a3)
	addi	s1, s1, 1
	seqz	a2, s1
	add	a2, a2, a5
	sw	s1, 112(a0)
	sw	a2, 116(a0)
	j	.LBB72_107
.LBB72_175:
	sw	s2, 0(a3)
	sw	t1, 4(a3)
	addi	s1, s1, 1
	seqz	a2, s1
	add	a2, a2, a5
	sw	s1, 112(a0)
	sw	a2, 116(a0)
	j	.LBB72_111
.LBB72_176:
	sw	t4, 0(a3)
	sw	a6, 4(a3)
	addi	s0, s0, 1
	seqz	a2, s0
	add	a2, a2, s2
	sw	s0, 112(a0)
	sw	a2, 116(a0)
	j	.LBB72_81
.LBB72_177:
	sw	t4, 0(a3)
	sw	a6, 4(a3)
	addi	s0, s0, 1
	seqz	a2, s0
	add	a2, a2, s2
	sw	s0, 112(a0)
	sw	a2, 116(a0)
	j	.LBB72_85
.LBB72_178:
	sw	t4, 0(a3)
	sw	a6, 4(a3)
	addi	s1, s1, 1
	seqz	a2, s1
	add	a2, a2, s2
	sw	s1, 112(a0)
	sw	a2, 116(a0)
	j	.LBB72_128
.LBB72_179:
	sw	t4, 0(a3)
	sw	a6, 4(a3)
	addi	s1, s1, 1
	seqz	a2, s1
	add	a2, a2, s2
	sw	s1, 112(a0)
	sw	a2, 116(a0)
	j	.LBB72_132
.Lfunc_end72:
	.size	ic_raw_augmented.noting.WrittenSurgery.attach, .Lfunc_end72-ic_raw_augmented.noting.WrittenSurgery.attach
	.cfi_endproc
	.section	.text.ic_raw_augmented.edit_calls.settle,"ax",@progbits
	.p2align	1
	.type	ic_raw_augmented.edit_calls.settle,@function
ic_raw_augmented.edit_calls.settle:
	.cfi_startproc
	beqz	t3, .LBB73_2
	ret
.LBB73_2:
	addi	sp, sp, -64
	.cfi_def_cfa_offset 64
	sw	ra, 60(sp)
	sw	s0, 56(sp)
	sw	s1, 52(sp)
	sw	s2, 48(sp)
	sw	s3, 44(sp)
	sw	s4, 40(sp)
	sw	s5, 36(sp)
	sw	s6, 32(sp)
	sw	s7, 28(sp)
	sw	s8, 24(sp)
	sw	s9, 20(sp)
	.cfi_offset ra, -4
	.cfi_offset s0, -8
	.cfi_offset s1, -12
	.cfi_offset s2, -16
	.cfi_offset s3, -20
	.cfi_offset s4, -24
	.cfi_offset s5, -28
	.cfi_offset s6, -32
	.cfi_offset s7, -36
	.cfi_offset s8, -40
	.cfi_offset s9, -44
	mv	s0, a7
	mv	s2, a6
	mv	s3, a5
	mv	s4, a4
	mv	s5, a3
	mv	s9, a2
	mv	s6, a1
	lbu	a1, 120(a7)
	sw	a0, 0(sp)
	sw	zero, 4(sp)
	sw	s6, 8(sp)
	sw	a2, 12(sp)
	beqz	a1, .LBB73_13
	or	a0, s6, s9
	beqz	a0, .LBB73_83
	li	s0, 0
	li	s1, 0
	li	s7, 15
	li	s8, -8
	j	.LBB73_6
.LBB73_5:
	sltu	a0, s0, s6
	beqz	a0, .LBB73_83
.LBB73_6:
	srli	a0, s0, 29
	slli	a1, s1, 3
	slli	a2, s0, 3
	or	a0, a0, a1
	addi	a1, a2, 8
	sltu	a2, a1, a2
	add	a0, a0, a2
	and	a6, a0, s7
	and	a5, a1, s8
	or	a0, a5, a6
	beqz	a0, .LBB73_11
	srli	a0, a6, 3
	beq	a0, s9, .LBB73_9
	sltu	a0, s9, a0
	beqz	a0, .LBB73_10
	j	.LBB73_11
.LBB73_9:
	slli	a0, a6, 29
	srli	a1, a5, 3
	or	a0, a0, a1
	sltu	a0, s6, a0
	bnez	a0, .LBB73_11
.LBB73_10:
	mv	a0, sp
	mv	a1, s5
	mv	a2, s4
	mv	a3, s3
	mv	a4, s2
	call	ic_raw_augmented.recompute.recompute_up
.LBB73_11:
	addi	s0, s0, 1
	seqz	a0, s0
	add	s1, s1, a0
	beq	s1, s9, .LBB73_5
	sltu	a0, s1, s9
	bnez	a0, .LBB73_6
	j	.LBB73_83
.LBB73_13:
	lw	a1, 4(s0)
	lw	a0, 0(s0)
	li	s7, 15
	andi	a6, a1, 15
	andi	a5, a0, -8
	or	a2, a5, a6
	li	s8, -8
	beqz	a2, .LBB73_18
	srli	a2, a6, 3
	beq	a2, s9, .LBB73_16
	sltu	a0, s9, a2
	beqz	a0, .LBB73_17
	j	.LBB73_18
.LBB73_16:
	slli	a1, a1, 29
	srli	a0, a0, 3
	or	a0, a0, a1
	sltu	a0, s6, a0
	bnez	a0, .LBB73_18
.LBB73_17:
	mv	a0, sp
	mv	a1, s5
	mv	a2, s4
	mv	a3, s3
	mv	a4, s2
	call	ic_raw_augmented.recompute.recompute_up
.LBB73_18:
	lw	a0, 12(s0)
	lw	a1, 8(s0)
	and	a6, a0, s7
	and	a5, a1, s8
	or	a0, a5, a6
	beqz	a0, .LBB73_23
	srli	a0, a6, 3
	beq	a0, s9, .LBB73_21
	sltu	a0, s9, a0
	beqz	a0, .LBB73_22
	j	.LBB73_23
.LBB73_21:
	slli	a0, a6, 29
	srli	a1, a5, 3
	or	a0, a0, a1
	sltu	a0, s6, a0
	bnez	a0, .LBB73_23
.LBB73_22:
	mv	a0, sp
	mv	a1, s5
	mv	a2, s4
	mv	a3, s3
	mv	a4, s2
	call	ic_raw_augmented.recompute.recompute_up
.LBB73_23:
	lw	a0, 20(s0)
	lw	a1, 16(s0)
	and	a6, a0, s7
	and	a5, a1, s8
	or	a0, a5, a6
	beqz	a0, .LBB73_28
	srli	a0, a6, 3
	beq	a0, s9, .LBB73_26
	sltu	a0, s9, a0
	beqz	a0, .LBB73_27
	j	.LBB73_28
.LBB73_26:
	slli	a0, a6, 29
	srli	a1, a5, 3
	or	a0, a0, a1
	sltu	a0, s6, a0
	bnez	a0, .LBB73_28
.LBB73_27:
	mv	a0, sp
	mv	a1, s5
	mv	a2, s4
	mv	a3, s3
	mv	a4, s2
	call	ic_raw_augmented.recompute.recompute_up
.LBB73_28:
	lw	a0, 28(s0)
	lw	a1, 24(s0)
	and	a6, a0, s7
	and	a5, a1, s8
	or	a0, a5, a6
	beqz	a0, .LBB73_33
	srli	a0, a6, 3
	beq	a0, s9, .LBB73_31
	sltu	a0, s9, a0
	beqz	a0, .LBB73_32
	j	.LBB73_33
.LBB73_31:
	slli	a0, a6, 29
	srli	a1, a5, 3
	or	a0, a0, a1
	sltu	a0, s6, a0
	bnez	a0, .LBB73_33
.LBB73_32:
	mv	a0, sp
	mv	a1, s5
	mv	a2, s4
	mv	a3, s3
	mv	a4, s2
	call	ic_raw_augmented.recompute.recompute_up
.LBB73_33:
	lw	a0, 36(s0)
	lw	a1, 32(s0)
	and	a6, a0, s7
	and	a5, a1, s8
	or	a0, a5, a6
	beqz	a0, .LBB73_38
	srli	a0, a6, 3
	beq	a0, s9, .LBB73_36
	sltu	a0, s9, a0
	beqz	a0, .LBB73_37
	j	.LBB73_38
.LBB73_36:
	slli	a0, a6, 29
	srli	a1, a5, 3
	or	a0, a0, a1
	sltu	a0, s6, a0
	bnez	a0, .LBB73_38
.LBB73_37:
	mv	a0, sp
	mv	a1, s5
	mv	a2, s4
	mv	a3, s3
	mv	a4, s2
	call	ic_raw_augmented.recompute.recompute_up
.LBB73_38:
	lw	a0, 44(s0)
	lw	a1, 40(s0)
	and	a6, a0, s7
	and	a5, a1, s8
	or	a0, a5, a6
	beqz	a0, .LBB73_43
	srli	a0, a6, 3
	beq	a0, s9, .LBB73_41
	sltu	a0, s9, a0
	beqz	a0, .LBB73_42
	j	.LBB73_43
.LBB73_41:
	slli	a0, a6, 29
	srli	a1, a5, 3
	or	a0, a0, a1
	sltu	a0, s6, a0
	bnez	a0, .LBB73_43
.LBB73_42:
	mv	a0, sp
	mv	a1, s5
	mv	a2, s4
	mv	a3, s3
	mv	a4, s2
	call	ic_raw_augmented.recompute.recompute_up
.LBB73_43:
	lw	a0, 52(s0)
	lw	a1, 48(s0)
	and	a6, a0, s7
	and	a5, a1, s8
	or	a0, a5, a6
	beqz	a0, .LBB73_48
	srli	a0, a6, 3
	beq	a0, s9, .LBB73_46
	sltu	a0, s9, a0
	beqz	a0, .LBB73_47
	j	.LBB73_48
.LBB73_46:
	slli	a0, a6, 29
	srli	a1, a5, 3
	or	a0, a0, a1
	sltu	a0, s6, a0
	bnez	a0, .LBB73_48
.LBB73_47:
	mv	a0, sp
	mv	a1, s5
	mv	a2, s4
	mv	a3, s3
	mv	a4, s2
	call	ic_raw_augmented.recompute.recompute_up
.LBB73_48:
	lw	a0, 60(s0)
	lw	a1, 56(s0)
	and	a6, a0, s7
	and	a5, a1, s8
	or	a0, a5, a6
	beqz	a0, .LBB73_53
	srli	a0, a6, 3
	beq	a0, s9, .LBB73_51
	sltu	a0, s9, a0
	beqz	a0, .LBB73_52
	j	.LBB73_53
.LBB73_51:
	slli	a0, a6, 29
	srli	a1, a5, 3
	or	a0, a0, a1
	sltu	a0, s6, a0
	bnez	a0, .LBB73_53
.LBB73_52:
	mv	a0, sp
	mv	a1, s5
	mv	a2, s4
	mv	a3, s3
	mv	a4, s2
	call	ic_raw_augmented.recompute.recompute_up
.LBB73_53:
	lw	a0, 68(s0)
	lw	a1, 64(s0)
	and	a6, a0, s7
	and	a5, a1, s8
	or	a0, a5, a6
	beqz	a0, .LBB73_58
	srli	a0, a6, 3
	beq	a0, s9, .LBB73_56
	sltu	a0, s9, a0
	beqz	a0, .LBB73_57
	j	.LBB73_58
.LBB73_56:
	slli	a0, a6, 29
	srli	a1, a5, 3
	or	a0, a0, a1
	sltu	a0, s6, a0
	bnez	a0, .LBB73_58
.LBB73_57:
	mv	a0, sp
	mv	a1, s5
	mv	a2, s4
	mv	a3, s3
	mv	a4, s2
	call	ic_raw_augmented.recompute.recompute_up
.LBB73_58:
	lw	a0, 76(s0)
	lw	a1, 72(s0)
	and	a6, a0, s7
	and	a5, a1, s8
	or	a0, a5, a6
	beqz	a0, .LBB73_63
	srli	a0, a6, 3
	beq	a0, s9, .LBB73_61
	sltu	a0, s9, a0
	beqz	a0, .LBB73_62
	j	.LBB73_63
.LBB73_61:
	slli	a0, a6, 29
	srli	a1, a5, 3
	or	a0, a0, a1
	sltu	a0, s6, a0
	bnez	a0, .LBB73_63
.LBB73_62:
	mv	a0, sp
	mv	a1, s5
	mv	a2, s4
	mv	a3, s3
	mv	a4, s2
	call	ic_raw_augmented.recompute.recompute_up
.LBB73_63:
	lw	a0, 84(s0)
	lw	a1, 80(s0)
	and	a6, a0, s7
	and	a5, a1, s8
	or	a0, a5, a6
	beqz	a0, .LBB73_68
	srli	a0, a6, 3
	beq	a0, s9, .LBB73_66
	sltu	a0, s9, a0
	beqz	a0, .LBB73_67
	j	.LBB73_68
.LBB73_66:
	slli	a0, a6, 29
	srli	a1, a5, 3
	or	a0, a0, a1
	sltu	a0, s6, a0
	bnez	a0, .LBB73_68
.LBB73_67:
	mv	a0, sp
	mv	a1, s5
	mv	a2, s4
	mv	a3, s3
	mv	a4, s2
	call	ic_raw_augmented.recompute.recompute_up
.LBB73_68:
	lw	a0, 92(s0)
	lw	a1, 88(s0)
	and	a6, a0, s7
	and	a5, a1, s8
	or	a0, a5, a6
	beqz	a0, .LBB73_73
	srli	a0, a6, 3
	beq	a0, s9, .LBB73_71
	sltu	a0, s9, a0
	beqz	a0, .LBB73_72
	j	.LBB73_73
.LBB73_71:
	slli	a0, a6, 29
	srli	a1, a5, 3
	or	a0, a0, a1
	sltu	a0, s6, a0
	bnez	a0, .LBB73_73
.LBB73_72:
	mv	a0, sp
	mv	a1, s5
	mv	a2, s4
	mv	a3, s3
	mv	a4, s2
	call	ic_raw_augmented.recompute.recompute_up
.LBB73_73:
	lw	a0, 100(s0)
	lw	a1, 96(s0)
	and	a6, a0, s7
	and	a5, a1, s8
	or	a0, a5, a6
	beqz	a0, .LBB73_78
	srli	a0, a6, 3
	beq	a0, s9, .LBB73_76
	sltu	a0, s9, a0
	beqz	a0, .LBB73_77
	j	.LBB73_78
.LBB73_76:
	slli	a0, a6, 29
	srli	a1, a5, 3
	or	a0, a0, a1
	sltu	a0, s6, a0
	bnez	a0, .LBB73_78
.LBB73_77:
	mv	a0, sp
	mv	a1, s5
	mv	a2, s4
	mv	a3, s3
	mv	a4, s2
	call	ic_raw_augmented.recompute.recompute_up
.LBB73_78:
	lw	a0, 108(s0)
	lw	a1, 104(s0)
	and	a6, a0, s7
	and	a5, a1, s8
	or	a0, a5, a6
	beqz	a0, .LBB73_83
	srli	a0, a6, 3
	beq	a0, s9, .LBB73_81
	sltu	a0, s9, a0
	beqz	a0, .LBB73_82
	j	.LBB73_83
.LBB73_81:
	slli	a0, a6, 29
	srli	a1, a5, 3
	or	a0, a0, a1
	sltu	a0, s6, a0
	bnez	a0, .LBB73_83
.LBB73_82:
	mv	a0, sp
	mv	a1, s5
	mv	a2, s4
	mv	a3, s3
	mv	a4, s2
	call	ic_raw_augmented.recompute.recompute_up
.LBB73_83:
	lw	ra, 60(sp)
	lw	s0, 56(sp)
	lw	s1, 52(sp)
	lw	s2, 48(sp)
	lw	s3, 44(sp)
	lw	s4, 40(sp)
	lw	s5, 36(sp)
	lw	s6, 32(sp)
	lw	s7, 28(sp)
	lw	s8, 24(sp)
	lw	s9, 20(sp)
	.cfi_restore ra
	.cfi_restore s0
	.cfi_restore s1
	.cfi_restore s2
	.cfi_restore s3
	.cfi_restore s4
	.cfi_restore s5
	.cfi_restore s6
	.cfi_restore s7
	.cfi_restore s8
	.cfi_restore s9
	addi	sp, sp, 64
	.cfi_def_cfa_offset 0
	ret
.Lfunc_end73:
	.size	ic_raw_augmented.edit_calls.settle, .Lfunc_end73-ic_raw_augmented.edit_calls.settle
	.cfi_endproc
	.section	.text.ic_raw_augmented.recompute.recompute_up,"ax",@progbits
	.p2align	1
	.type	ic_raw_augmented.recompute.recompute_up,@function
ic_raw_augmented.recompute.recompute_up:
	.cfi_startproc
	addi	sp, sp, -32
	.cfi_def_cfa_offset 32
	sw	s0, 28(sp)
	sw	s1, 24(sp)
	sw	s2, 20(sp)
	sw	s3, 16(sp)
	sw	s4, 12(sp)
	sw	s5, 8(sp)
	.cfi_offset s0, -4
	.cfi_offset s1, -8
	.cfi_offset s2, -12
	.cfi_offset s3, -16
	.cfi_offset s4, -20
	.cfi_offset s5, -24
	li	a7, 0
	lw	t6, 0(a0)
	lw	t3, 8(a0)
	lw	t4, 12(a0)
	li	t0, 15
	li	t1, -8
	j	.LBB74_3
.LBB74_1:
	li	a5, 65
	bltu	a5, a7, .LBB74_46
.LBB74_2:
	addi	a7, a7, 1
	mv	a5, t5
	mv	a6, t2
.LBB74_3:
	srli	t5, a5, 3
	andi	t2, a5, -8
	slli	s0, t5, 4
	add	t2, t2, s0
	add	t6, t6, t2
	lw	s3, -20(t6)
	lw	s2, -24(t6)
	srli	s1, t3, 29
	slli	s0, t4, 3
	and	t4, s3, t0
	and	s4, s2, t1
	or	s3, s0, s1
	seqz	s0, s4
	sub	s1, t4, s0
	slli	s2, t3, 3
	beq	s1, s3, .LBB74_5
	sltu	s1, s1, s3
	bnez	s1, .LBB74_6
	j	.LBB74_8
.LBB74_5:
	addi	s1, s4, -1
	sltu	s1, s1, s2
	beqz	s1, .LBB74_8
.LBB74_6:
	srli	s1, s4, 3
	slli	s0, t4, 29
	or	s1, s1, s0
	srli	t3, t4, 3
	seqz	s0, s1
	sub	s0, t3, s0
	addi	s1, s1, -1
	beq	s0, a3, .LBB74_9
	sltu	s0, s0, a3
	bnez	s0, .LBB74_10
.LBB74_8:
	li	t4, 0
	li	t3, 0
	j	.LBB74_11
.LBB74_9:
	sltu	s0, s1, a2
	beqz	s0, .LBB74_8
.LBB74_10:
	slli	s1, s1, 4
	add	s1, s1, a1
	lw	t4, 8(s1)
	lw	t3, 12(s1)
.LBB74_11:
	lw	s0, -12(t6)
	lw	s1, -16(t6)
	and	s4, s0, t0
	and	s5, s1, t1
	seqz	s1, s5
	sub	s1, s4, s1
	beq	s1, s3, .LBB74_13
	sltu	t6, s1, s3
	bnez	t6, .LBB74_14
	j	.LBB74_16
.LBB74_13:
	addi	s0, s5, -1
	sltu	t6, s0, s2
	beqz	t6, .LBB74_16
.LBB74_14:
	srli	s1, s5, 3
	slli	s0, s4, 29
	or	s1, s1, s0
	srli	t6, s4, 3
	seqz	s0, s1
	sub	s0, t6, s0
	addi	s1, s1, -1
	beq	s0, a3, .LBB74_17
	sltu	s0, s0, a3
	bnez	s0, .LBB74_18
.LBB74_16:
	li	s2, 0
	li	s3, 0
	j	.LBB74_19
.LBB74_17:
	sltu	s0, s1, a2
	beqz	s0, .LBB74_16
.LBB74_18:
	slli	s1, s1, 4
	add	s1, s1, a1
	lw	s2, 8(s1)
	lw	s3, 12(s1)
.LBB74_19:
	slli	s1, a6, 29
	or	t6, t5, s1
	srli	s1, a6, 3
	seqz	s0, t6
	sub	s1, s1, s0
	addi	t6, t6, -1
	beq	s1, a3, .LBB74_27
	sltu	t5, s1, a3
	slli	t6, t6, 4
	bnez	t5, .LBB74_28
.LBB74_21:
	li	s5, 0
	li	s1, 0
	andi	s0, a4, 1
	bnez	s0, .LBB74_29
.LBB74_22:
	add	s4, s2, s5
	sltu	s0, s4, s2
	add	s1, s1, s3
	add	s1, s1, s0
	beq	s1, s3, .LBB74_24
	sltu	s0, s1, s3
.LBB74_24:
	neg	s0, s0
	or	s2, s0, s1
	or	s0, s0, s4
	add	t4, t4, s0
	sltu	s1, t4, s0
	add	t3, t3, s2
	add	t3, t3, s1
	beq	t3, s2, .LBB74_26
	sltu	s1, t3, s2
.LBB74_26:
	neg	s0, s1
	or	t3, s0, t3
	or	t4, s0, t4
	j	.LBB74_37
.LBB74_27:
	sltu	t5, t6, a2
	slli	t6, t6, 4
	beqz	t5, .LBB74_21
.LBB74_28:
	add	s1, a1, t6
	lw	s5, 0(s1)
	lw	s1, 4(s1)
	andi	s0, a4, 1
	beqz	s0, .LBB74_22
.LBB74_29:
	beq	s1, s3, .LBB74_31
	sltu	s4, s3, s1
	beqz	s4, .LBB74_32
	j	.LBB74_33
.LBB74_31:
	sltu	s4, s2, s5
	bnez	s4, .LBB74_33
.LBB74_32:
	mv	s5, s2
	mv	s1, s3
.LBB74_33:
	beq	t3, s1, .LBB74_35
	sltu	s2, s1, t3
	beqz	s2, .LBB74_36
	j	.LBB74_37
.LBB74_35:
	sltu	s2, s5, t4
	bnez	s2, .LBB74_37
.LBB74_36:
	mv	t3, s1
	mv	t4, s5
.LBB74_37:
	beqz	t5, .LBB74_39
	add	t6, t6, a1
	lw	s1, 8(t6)
	lw	s0, 12(t6)
	xor	s1, s1, t4
	xor	s0, s0, t3
	or	s0, s0, s1
	bnez	s0, .LBB74_40
	j	.LBB74_46
.LBB74_39:
	or	s0, t4, t3
	beqz	s0, .LBB74_46
.LBB74_40:
	slli	s1, a5, 1
	add	s1, s1, a1
	sw	t4, -8(s1)
	sw	t3, -4(s1)
	lw	t6, 0(a0)
	lw	t3, 8(a0)
	lw	t4, 12(a0)
	add	t2, t2, t6
	lw	t5, -4(t2)
	lw	s2, -8(t2)
	srli	s1, t3, 29
	slli	s0, t4, 3
	and	t2, t5, t0
	and	t5, s2, t1
	or	s0, s0, s1
	seqz	s1, t5
	sub	s1, t2, s1
	bne	s1, s0, .LBB74_42
	slli	s0, t3, 3
	addi	s1, t5, -1
.LBB74_42:
	sltu	s0, s1, s0
	beqz	s0, .LBB74_46
	andi	s0, s2, -8
	slli	s2, s2, 1
	andi	s1, s2, -16
	add	s0, s0, t6
	add	s1, s1, s0
	lw	s0, -24(s1)
	lw	s2, -20(s1)
	and	s3, s0, t1
	and	s0, s2, t0
	xor	s2, s0, a6
	xor	s0, s3, a5
	or	s0, s0, s2
	beqz	s0, .LBB74_1
	lw	s0, -16(s1)
	lw	s1, -12(s1)
	and	s0, s0, t1
	and	s1, s1, t0
	xor	s1, s1, a6
	xor	a5, a5, s0
	or	a5, a5, s1
	bnez	a5, .LBB74_46
	li	a5, 66
	bltu	a7, a5, .LBB74_2
.LBB74_46:
	lw	s0, 28(sp)
	lw	s1, 24(sp)
	lw	s2, 20(sp)
	lw	s3, 16(sp)
	lw	s4, 12(sp)
	lw	s5, 8(sp)
	.cfi_restore s0
	.cfi_restore s1
	.cfi_restore s2
	.cfi_restore s3
	.cfi_restore s4
	.cfi_restore s5
	addi	sp, sp, 32
	.cfi_def_cfa_offset 0
	ret
.Lfunc_end74:
	.size	ic_raw_augmented.recompute.recompute_up, .Lfunc_end74-ic_raw_augmented.recompute.recompute_up
	.cfi_endproc
	.section	.text.ic_raw_augmented.edit_calls.insert_at,"ax",@progbits
	.p2align	1
	.type	ic_raw_augmented.edit_calls.insert_at,@function
ic_raw_augmented.edit_calls.insert_at:
	.cfi_startproc
	addi	sp, sp, -224
	.cfi_def_cfa_offset 224
	sw	ra, 220(sp)
	sw	s0, 216(sp)
	sw	s1, 212(sp)
	sw	s2, 208(sp)
	sw	s3, 204(sp)
	sw	s4, 200(sp)
	sw	s5, 196(sp)
	sw	s6, 192(sp)
	sw	s7, 188(sp)
	sw	s8, 184(sp)
	sw	s9, 180(sp)
	sw	s10, 176(sp)
	sw	s11, 172(sp)
	.cfi_offset ra, -4
	.cfi_offset s0, -8
	.cfi_offset s1, -12
	.cfi_offset s2, -16
	.cfi_offset s3, -20
	.cfi_offset s4, -24
	.cfi_offset s5, -28
	.cfi_offset s6, -32
	.cfi_offset s7, -36
	.cfi_offset s8, -40
	.cfi_offset s9, -44
	.cfi_offset s10, -48
	.cfi_offset s11, -52
	mv	s11, t5
	mv	s3, t4
	mv	s8, t3
	mv	s7, a7
	mv	s10, a2
	mv	s5, a1
	mv	s2, a0
	beq	a5, a2, .LBB75_7
	sltu	a0, a5, s10
	bnez	a0, .LBB75_8
.LBB75_2:
	sw	a3, 0(sp)
	sw	a4, 4(sp)
	sw	a5, 8(sp)
	sw	a6, 12(sp)
	addi	s9, s11, 1
	slli	s6, s9, 3
	srli	s0, s9, 29
	snez	s1, s9
	sw	s6, 16(sp)
	sw	s0, 20(sp)
	addi	a0, sp, 24
	li	a2, 104
	li	a1, 0
	li	a3, 0
	li	a4, 0
	call	ic.clear
	sw	s1, 128(sp)
	sw	zero, 132(sp)
	sw	zero, 136(sp)
	sw	zero, 140(sp)
	sw	s2, 152(sp)
	sw	zero, 156(sp)
	sw	s5, 160(sp)
	sw	s10, 164(sp)
	lw	a1, 0(s7)
	lw	a5, 4(s7)
	addi	a0, s3, 1
	slli	s4, a0, 3
	andi	a2, a1, -8
	andi	a5, a5, 15
	sw	a2, 144(sp)
	sw	a5, 148(sp)
	seqz	a6, s10
	beqz	a0, .LBB75_9
	sltu	a3, s5, a0
	and	a3, a6, a3
	bnez	a3, .LBB75_21
	slli	a3, a0, 4
	add	a3, a3, s4
	add	a7, s2, a3
	lbu	s1, -24(a7)
	andi	s1, s1, 1
	beqz	s1, .LBB75_21
	mv	a3, s0
	srli	s1, s5, 29
	slli	s0, s10, 3
	or	s1, s1, s0
	seqz	s0, a2
	sub	a5, a5, s0
	beq	a5, s1, .LBB75_10
	sltu	a5, a5, s1
	j	.LBB75_11
.LBB75_7:
	sltu	a0, a4, s5
	beqz	a0, .LBB75_2
.LBB75_8:
	li	s1, 1
	j	.LBB75_23
.LBB75_9:
	or	a4, a2, a5
	beqz	a4, .LBB75_17
	j	.LBB75_21
.LBB75_10:
	slli	a5, s5, 3
	addi	a4, a2, -1
	sltu	a5, a4, a5
.LBB75_11:
	beqz	a5, .LBB75_21
	slli	a1, a1, 1
	andi	a1, a1, -16
	add	a2, a2, s2
	add	a1, a1, a2
	lbu	a1, -24(a1)
	andi	a1, a1, 1
	beqz	a1, .LBB75_21
	mv	s0, a3
	li	a2, 15
	andi	a1, s8, 1
	li	a4, -8
	bnez	a1, .LBB75_15
	li	a5, -24
	j	.LBB75_16
.LBB75_15:
	li	a5, -16
.LBB75_16:
	add	a3, a7, a5
	lw	a1, 4(a3)
	lw	a3, 0(a3)
	and	a1, a1, a2
	and	a3, a3, a4
	or	a1, a1, a3
	bnez	a1, .LBB75_21
.LBB75_17:
	beqz	s9, .LBB75_21
	sltu	a1, s5, s9
	and	a1, a6, a1
	bnez	a1, .LBB75_21
	slli	s9, s9, 4
	add	a1, s9, s6
	add	a1, a1, s2
	lbu	a2, -24(a1)
	andi	a2, a2, 1
	bnez	a2, .LBB75_21
	srli	s3, a0, 29
	snez	s1, a0
	sb	zero, -20(a1)
	sb	zero, -19(a1)
	sb	zero, -18(a1)
	sb	zero, -17(a1)
	li	a0, 1
	sb	a0, -24(a1)
	sb	zero, -23(a1)
	sb	zero, -22(a1)
	sb	zero, -21(a1)
	addi	a0, a1, -16
	li	a2, 16
	li	a1, 0
	li	a3, 0
	li	a4, 0
	call	ic.clear
	addi	a0, sp, 16
	addi	a1, sp, 152
	addi	a2, sp, 144
	mv	a3, s1
	mv	a4, s4
	mv	a5, s3
	mv	a6, s8
	mv	a7, s6
	mv	t3, s0
	call	ic_raw_augmented.noting.WrittenSurgery.attach
	li	s1, 0
	lw	a0, 144(sp)
	lw	a1, 148(sp)
	sw	a0, 0(s7)
	sw	a1, 4(s7)
	j	.LBB75_22
.LBB75_21:
	addi	a0, sp, 152
	mv	a1, s3
	mv	a2, s11
	call	ic_raw.table.RawTable.refusal.19bacce014a8892a
	mv	s1, a0
.LBB75_22:
	addi	a7, sp, 16
	mv	a0, s2
	mv	a1, s5
	mv	a2, s10
	lw	a3, 0(sp)
	lw	a4, 4(sp)
	lw	a5, 8(sp)
	lw	a6, 12(sp)
	mv	t3, s1
	call	ic_raw_augmented.edit_calls.settle
.LBB75_23:
	mv	a0, s1
	lw	ra, 220(sp)
	lw	s0, 216(sp)
	lw	s1, 212(sp)
	lw	s2, 208(sp)
	lw	s3, 204(sp)
	lw	s4, 200(sp)
	lw	s5, 196(sp)
	lw	s6, 192(sp)
	lw	s7, 188(sp)
	lw	s8, 184(sp)
	lw	s9, 180(sp)
	lw	s10, 176(sp)
	lw	s11, 172(sp)
	.cfi_restore ra
	.cfi_restore s0
	.cfi_restore s1
	.cfi_restore s2
	.cfi_restore s3
	.cfi_restore s4
	.cfi_restore s5
	.cfi_restore s6
	.cfi_restore s7
	.cfi_restore s8
	.cfi_restore s9
	.cfi_restore s10
	.cfi_restore s11
	addi	sp, sp, 224
	.cfi_def_cfa_offset 0
	ret
.Lfunc_end75:
	.size	ic_raw_augmented.edit_calls.insert_at, .Lfunc_end75-ic_raw_augmented.edit_calls.insert_at
	.cfi_endproc
	.section	.text.unlikely.ic_raw_augmented.sum_calls.refusal_of_starts,"ax",@progbits
	.p2align	1
	.type	ic_raw_augmented.sum_calls.refusal_of_starts,@function
ic_raw_augmented.sum_calls.refusal_of_starts:
	.cfi_startproc
	addi	t1, a5, 1
	bnez	t1, .LBB76_7
	lw	a6, 8(a0)
	lw	a7, 12(a0)
.LBB76_2:
	beq	a2, a7, .LBB76_9
	sltu	a0, a2, a7
	bnez	a0, .LBB76_10
.LBB76_4:
	beq	a4, a7, .LBB76_13
	sltu	a0, a4, a7
	beqz	a0, .LBB76_14
.LBB76_6:
	li	a0, 1
	ret
.LBB76_7:
	lw	a6, 8(a0)
	lw	a7, 12(a0)
	sltu	t0, a6, t1
	seqz	a5, a7
	and	a5, a5, t0
	beqz	a5, .LBB76_11
	li	a0, 1
	ret
.LBB76_9:
	sltu	a0, a1, a6
	beqz	a0, .LBB76_4
.LBB76_10:
	li	a0, 1
	ret
.LBB76_11:
	lw	a0, 0(a0)
	slli	a5, t1, 3
	slli	t1, t1, 4
	add	a5, a5, t1
	add	a0, a0, a5
	lbu	a0, -24(a0)
	andi	a0, a0, 1
	bnez	a0, .LBB76_2
	li	a0, 3
	ret
.LBB76_13:
	sltu	a0, a3, a6
	bnez	a0, .LBB76_6
.LBB76_14:
	li	a0, 5
	ret
.Lfunc_end76:
	.size	ic_raw_augmented.sum_calls.refusal_of_starts, .Lfunc_end76-ic_raw_augmented.sum_calls.refusal_of_starts
	.cfi_endproc
	.section	.text.ic_raw.xor_calls.splice,"ax",@progbits
	.p2align	1
	.type	ic_raw.xor_calls.splice,@function
ic_raw.xor_calls.splice:
	.cfi_startproc
	addi	sp, sp, -64
	.cfi_def_cfa_offset 64
	sw	ra, 60(sp)
	sw	s0, 56(sp)
	sw	s1, 52(sp)
	sw	s2, 48(sp)
	sw	s3, 44(sp)
	sw	s4, 40(sp)
	sw	s5, 36(sp)
	sw	s6, 32(sp)
	sw	s7, 28(sp)
	sw	s8, 24(sp)
	sw	s9, 20(sp)
	sw	s10, 16(sp)
	sw	s11, 12(sp)
	.cfi_offset ra, -4
	.cfi_offset s0, -8
	.cfi_offset s1, -12
	.cfi_offset s2, -16
	.cfi_offset s3, -20
	.cfi_offset s4, -24
	.cfi_offset s5, -28
	.cfi_offset s6, -32
	.cfi_offset s7, -36
	.cfi_offset s8, -40
	.cfi_offset s9, -44
	.cfi_offset s10, -48
	.cfi_offset s11, -52
	.cfi_remember_state
	lw	t1, 0(a3)
	lw	t2, 4(a3)
	lw	s3, 8(a3)
	lw	s7, 12(a3)
	lw	s1, 0(a7)
	lw	s0, 4(a7)
	lw	t0, 8(a7)
	lw	s5, 12(a7)
	andi	t2, t2, 15
	andi	s9, s0, 15
	andi	s8, s1, -8
	or	s10, s8, s9
	andi	t1, t1, -8
	beqz	s10, .LBB77_4
	xor	s1, t1, s8
	xor	s0, t2, s9
	or	s0, s0, s1
	bnez	s0, .LBB77_4
.LBB77_2:
	li	t0, 0
.LBB77_3:
	mv	a0, t0
	lw	ra, 60(sp)
	lw	s0, 56(sp)
	lw	s1, 52(sp)
	lw	s2, 48(sp)
	lw	s3, 44(sp)
	lw	s4, 40(sp)
	lw	s5, 36(sp)
	lw	s6, 32(sp)
	lw	s7, 28(sp)
	lw	s8, 24(sp)
	lw	s9, 20(sp)
	lw	s10, 16(sp)
	lw	s11, 12(sp)
	.cfi_restore ra
	.cfi_restore s0
	.cfi_restore s1
	.cfi_restore s2
	.cfi_restore s3
	.cfi_restore s4
	.cfi_restore s5
	.cfi_restore s6
	.cfi_restore s7
	.cfi_restore s8
	.cfi_restore s9
	.cfi_restore s10
	.cfi_restore s11
	addi	sp, sp, 64
	.cfi_def_cfa_offset 0
	ret
.LBB77_4:
	.cfi_restore_state
	li	t6, 15
	andi	s0, a4, 1
	li	s4, -8
	beqz	s0, .LBB77_7
	srli	s1, a6, 3
	beq	s1, a2, .LBB77_11
	sltu	s1, a2, s1
	bnez	s1, .LBB77_2
	j	.LBB77_12
.LBB77_7:
	zext.b	s0, t3
	seqz	s0, s0
	addi	s0, s0, -1
	and	s1, s0, t4
	and	s0, s0, t5
	xor	s0, t2, s0
	xor	s1, t1, s1
	or	s0, s0, s1
	bnez	s0, .LBB77_2
.LBB77_8:
	andi	s2, s7, 15
	andi	s0, t3, 1
	andi	s3, s3, -8
	beqz	s0, .LBB77_15
	srli	s1, t5, 3
	beq	s1, a2, .LBB77_19
	sltu	s1, a2, s1
	j	.LBB77_20
.LBB77_11:
	srli	s0, a5, 3
	slli	s1, a6, 29
	or	s0, s0, s1
	sltu	s1, a1, s0
	bnez	s1, .LBB77_2
.LBB77_12:
	add	s2, a0, a5
	lw	s1, -8(s2)
	andi	s0, s1, 1
	beqz	s0, .LBB77_2
	lw	s6, -4(s2)
	and	s2, s1, s4
	zext.b	s1, t3
	seqz	s1, s1
	addi	s1, s1, -1
	and	s11, s1, t4
	and	s1, s1, t5
	and	s0, s6, t6
	xor	s6, s0, s1
	xor	s2, s2, s11
	or	s0, s2, s6
	bnez	s0, .LBB77_24
	xor	s0, t1, a5
	xor	s1, t2, a6
	or	s0, s0, s1
	bnez	s0, .LBB77_2
	j	.LBB77_8
.LBB77_15:
	zext.b	s0, a4
	seqz	s0, s0
	addi	s0, s0, -1
	and	s1, s0, a5
	and	s0, s0, a6
	xor	s0, s2, s0
	xor	s1, s3, s1
	or	s0, s0, s1
	bnez	s0, .LBB77_2
.LBB77_16:
	andi	s6, s5, 15
	snez	s0, s10
	andi	s7, t0, -8
	beqz	s0, .LBB77_26
	srli	s1, s9, 3
	beq	s1, a2, .LBB77_31
	sltu	s1, a2, s1
	j	.LBB77_32
.LBB77_19:
	srli	s0, t4, 3
	slli	s1, t5, 29
	or	s0, s0, s1
	sltu	s1, a1, s0
.LBB77_20:
	bnez	s1, .LBB77_2
	add	s6, a0, t4
	lw	s1, -8(s6)
	andi	s0, s1, 1
	beqz	s0, .LBB77_2
	lw	s7, -4(s6)
	and	s6, s1, s4
	zext.b	s1, a4
	seqz	s1, s1
	addi	s1, s1, -1
	and	s11, s1, a5
	and	s0, s1, a6
	and	s1, s7, t6
	xor	s1, s1, s0
	xor	s6, s6, s11
	or	s0, s6, s1
	bnez	s0, .LBB77_37
	xor	s0, s3, t4
	xor	s1, s2, t5
	or	s0, s0, s1
	bnez	s0, .LBB77_2
	j	.LBB77_16
.LBB77_24:
	srli	s1, s6, 3
	beq	s1, a2, .LBB77_28
	sltu	s1, a2, s1
	j	.LBB77_29
.LBB77_26:
	or	a0, s7, s6
	bnez	a0, .LBB77_2
.LBB77_27:
	sb	t2, 4(a3)
	sb	zero, 5(a3)
	sb	zero, 6(a3)
	sb	zero, 7(a3)
	srli	a0, t1, 24
	srli	a1, t1, 16
	srli	a2, t1, 8
	sb	s2, 12(a3)
	sb	zero, 13(a3)
	sb	zero, 14(a3)
	sb	zero, 15(a3)
	srli	a4, s3, 24
	srli	a5, s3, 16
	sb	t1, 0(a3)
	sb	a2, 1(a3)
	sb	a1, 2(a3)
	sb	a0, 3(a3)
	srli	a0, s3, 8
	sb	s3, 8(a3)
	sb	a0, 9(a3)
	sb	a5, 10(a3)
	sb	a4, 11(a3)
	li	a2, 16
	mv	a0, a7
	li	a1, 0
	li	a3, 0
	li	a4, 0
	call	ic.clear
	li	t0, 1
	j	.LBB77_3
.LBB77_28:
	srli	s0, s2, 3
	slli	s6, s6, 29
	or	s0, s0, s6
	sltu	s1, a1, s0
.LBB77_29:
	bnez	s1, .LBB77_2
	add	s2, s2, a0
	lbu	s0, -8(s2)
	andi	s0, s0, 1
	beqz	s0, .LBB77_2
	j	.LBB77_8
.LBB77_31:
	srli	s1, s8, 3
	slli	s0, s9, 29
	or	s0, s0, s1
	sltu	s1, a1, s0
.LBB77_32:
	bnez	s1, .LBB77_2
	add	s5, a0, s8
	lw	s0, -8(s5)
	andi	s1, s0, 1
	beqz	s1, .LBB77_2
	lw	s1, -4(s5)
	and	s10, s0, s4
	and	s1, s1, t6
	or	s0, s10, s1
	beqz	s0, .LBB77_42
	srli	s0, s1, 3
	beq	s0, a2, .LBB77_43
	sltu	s1, a2, s0
	j	.LBB77_44
.LBB77_37:
	srli	s7, s1, 3
	beq	s7, a2, .LBB77_39
	sltu	s1, a2, s7
	j	.LBB77_40
.LBB77_39:
	srli	s0, s6, 3
	slli	s1, s1, 29
	or	s0, s0, s1
	sltu	s1, a1, s0
.LBB77_40:
	bnez	s1, .LBB77_2
	add	s6, s6, a0
	lbu	s0, -8(s6)
	andi	s0, s0, 1
	beqz	s0, .LBB77_2
	j	.LBB77_16
.LBB77_42:
	xor	s1, s7, s8
	xor	s0, s6, s9
	or	s0, s0, s1
	bnez	s0, .LBB77_2
	j	.LBB77_47
.LBB77_43:
	srli	s0, s10, 3
	slli	s1, s1, 29
	or	s0, s0, s1
	sltu	s1, a1, s0
.LBB77_44:
	bnez	s1, .LBB77_2
	or	s0, s7, s6
	li	t0, 0
	beqz	s0, .LBB77_3
	add	s10, s10, a0
	lw	s0, -8(s10)
	andi	s0, s0, 1
	beqz	s0, .LBB77_3
.LBB77_47:
	srli	s1, s6, 3
	beq	s1, a2, .LBB77_49
	sltu	s1, a2, s1
	j	.LBB77_50
.LBB77_49:
	srli	s1, s7, 3
	slli	s0, s6, 29
	or	s0, s0, s1
	sltu	s1, a1, s0
.LBB77_50:
	bnez	s1, .LBB77_2
	add	t0, a0, s7
	lw	s0, -8(t0)
	andi	s1, s0, 1
	beqz	s1, .LBB77_2
	lw	s1, -4(t0)
	and	s11, s0, s4
	and	s0, s1, t6
	or	s1, s11, s0
	beqz	s1, .LBB77_55
	srli	s10, s0, 3
	beq	s10, a2, .LBB77_56
	sltu	a1, a2, s10
	j	.LBB77_57
.LBB77_55:
	xor	a1, s8, s7
	xor	a2, s9, s6
	or	a1, a1, a2
	bnez	a1, .LBB77_2
	j	.LBB77_59
.LBB77_56:
	srli	a2, s11, 3
	slli	s0, s0, 29
	or	a2, a2, s0
	sltu	a1, a1, a2
.LBB77_57:
	bnez	a1, .LBB77_2
	add	s11, s11, a0
	lbu	a1, -8(s11)
	andi	a1, a1, 1
	beqz	a1, .LBB77_2
.LBB77_59:
	zext.b	a1, a4
	beqz	a1, .LBB77_61
	add	a2, a0, a5
	zext.b	a4, t3
	lw	s10, -8(a2)
	lw	s1, -4(a2)
	seqz	a4, a4
	addi	a4, a4, -1
	and	s0, a4, t5
	and	a4, a4, t4
	xor	s9, s0, s9
	xor	a4, a4, s8
	and	s1, s1, t6
	and	s0, s10, s4
	xor	s1, s9, s1
	xor	a4, a4, s0
	addi	a4, a4, 1
	seqz	s0, a4
	add	s0, s0, s1
	sw	a4, -8(a2)
	sw	s0, -4(a2)
	j	.LBB77_62
.LBB77_61:
	mv	t1, s8
	mv	t2, s9
.LBB77_62:
	zext.b	a2, t3
	beqz	a2, .LBB77_64
	seqz	a1, a1
	add	a2, a0, t4
	lw	a4, -8(a2)
	lw	s1, -4(a2)
	addi	a1, a1, -1
	and	a0, a1, a6
	and	a1, a1, a5
	xor	a5, a0, s6
	xor	s0, a1, s7
	and	s1, s1, t6
	and	a4, a4, s4
	xor	a5, a5, s1
	xor	a4, a4, s0
	addi	a4, a4, 1
	seqz	s1, a4
	add	a5, a5, s1
	sw	a4, -8(a2)
	sw	a5, -4(a2)
	j	.LBB77_65
.LBB77_64:
	li	t4, 0
	li	t5, 0
	seqz	a0, a1
	addi	a1, a0, -1
	and	a0, a1, a6
	and	a1, a1, a5
	mv	s3, s7
	mv	s2, s6
.LBB77_65:
	lw	a2, -8(s5)
	lw	a4, -4(s5)
	and	a2, a2, s4
	and	a4, a4, t6
	xor	a0, a0, a4
	xor	a1, a1, a2
	addi	a1, a1, 1
	seqz	a2, a1
	add	a0, a0, a2
	sw	a1, -8(s5)
	sw	a0, -4(s5)
	lw	a0, -8(t0)
	lw	a1, -4(t0)
	and	a0, a0, s4
	and	a1, a1, t6
	xor	a1, a1, t5
	xor	a0, a0, t4
	addi	a0, a0, 1
	sw	a0, -8(t0)
	sw	a1, -4(t0)
	j	.LBB77_27
.Lfunc_end77:
	.size	ic_raw.xor_calls.splice, .Lfunc_end77-ic_raw.xor_calls.splice
	.cfi_endproc
	.section	.text.unlikely.ic_raw.xor_calls.refusal_with_both,"ax",@progbits
	.p2align	1
	.type	ic_raw.xor_calls.refusal_with_both,@function
ic_raw.xor_calls.refusal_with_both:
	.cfi_startproc
	addi	a1, a1, 1
	beqz	a1, .LBB78_5
	lw	a4, 8(a0)
	lw	a5, 12(a0)
	sltu	a4, a4, a1
	seqz	a5, a5
	and	a4, a4, a5
	beqz	a4, .LBB78_3
	li	a0, 1
	ret
.LBB78_3:
	lw	a4, 0(a0)
	slli	a1, a1, 3
	add	a1, a1, a4
	lbu	a1, -8(a1)
	andi	a1, a1, 1
	bnez	a1, .LBB78_5
	li	a0, 3
	ret
.LBB78_5:
	mv	a1, a2
	mv	a2, a3
	tail	ic_raw.table.RawTable.refusal.feecb86c9dd45d96
.Lfunc_end78:
	.size	ic_raw.xor_calls.refusal_with_both, .Lfunc_end78-ic_raw.xor_calls.refusal_with_both
	.cfi_endproc
	.section	.text.unlikely.ic_raw.xor_calls.pop_front_slow,"ax",@progbits
	.p2align	1
	.type	ic_raw.xor_calls.pop_front_slow,@function
ic_raw.xor_calls.pop_front_slow:
	.cfi_startproc
	addi	sp, sp, -48
	.cfi_def_cfa_offset 48
	sw	s0, 44(sp)
	sw	s1, 40(sp)
	sw	s2, 36(sp)
	sw	s3, 32(sp)
	sw	s4, 28(sp)
	sw	s5, 24(sp)
	sw	s6, 20(sp)
	sw	s7, 16(sp)
	sw	s8, 12(sp)
	.cfi_offset s0, -4
	.cfi_offset s1, -8
	.cfi_offset s2, -12
	.cfi_offset s3, -16
	.cfi_offset s4, -20
	.cfi_offset s5, -24
	.cfi_offset s6, -28
	.cfi_offset s7, -32
	.cfi_offset s8, -36
	lw	t3, 4(a3)
	lw	s6, 0(a3)
	andi	s8, t3, 15
	andi	s7, s6, -8
	or	a5, s7, s8
	beqz	a5, .LBB79_3
	mv	t2, a0
	srli	a5, s7, 3
	slli	s0, s8, 29
	srli	a0, s8, 3
	or	a6, a5, s0
	beq	a0, a2, .LBB79_4
	sltu	s1, a2, a0
	li	a0, 5
	beqz	s1, .LBB79_5
	j	.LBB79_22
.LBB79_3:
	li	a0, 4
	j	.LBB79_22
.LBB79_4:
	sltu	s1, a1, a6
	li	a0, 5
	bnez	s1, .LBB79_22
.LBB79_5:
	add	t1, t2, s7
	lw	s1, -8(t1)
	andi	a5, s1, 1
	beqz	a5, .LBB79_22
	li	t6, 15
	lw	t0, 8(a3)
	lw	s0, 12(a3)
	lw	a5, -4(t1)
	li	s2, -8
	and	a7, s1, s2
	and	t4, s0, t6
	and	t5, a5, t6
	or	a5, a7, t5
	and	t0, t0, s2
	beqz	a5, .LBB79_9
	srli	s1, t5, 3
	beq	s1, a2, .LBB79_11
	sltu	s1, a2, s1
	beqz	s1, .LBB79_12
	j	.LBB79_22
.LBB79_9:
	xor	a1, t0, s7
	xor	a2, t4, s8
	or	a1, a1, a2
	bnez	a1, .LBB79_22
	li	t0, 0
	li	t4, 0
	j	.LBB79_21
.LBB79_11:
	srli	a5, a7, 3
	slli	s0, t5, 29
	or	a5, a5, s0
	sltu	s1, a1, a5
	bnez	s1, .LBB79_22
.LBB79_12:
	add	s3, t2, a7
	lw	s4, -8(s3)
	andi	a5, s4, 1
	beqz	a5, .LBB79_22
	lw	s5, -4(s3)
	and	a5, s4, s2
	and	s0, s5, t6
	xor	a5, a5, s7
	xor	s0, s0, s8
	or	s1, a5, s0
	bnez	s1, .LBB79_15
	xor	a1, t0, a7
	xor	a2, t4, t5
	or	a1, a1, a2
	beqz	a1, .LBB79_20
	j	.LBB79_22
.LBB79_15:
	srli	s1, s0, 3
	beq	s1, a2, .LBB79_17
	sltu	a1, a2, s1
	j	.LBB79_18
.LBB79_17:
	srli	a2, a5, 3
	slli	s0, s0, 29
	or	a2, a2, s0
	sltu	a1, a1, a2
.LBB79_18:
	bnez	a1, .LBB79_22
	add	a5, a5, t2
	lbu	a1, -8(a5)
	andi	a1, a1, 1
	beqz	a1, .LBB79_22
.LBB79_20:
	xor	a0, s4, s6
	xor	a1, s5, t3
	and	a1, a1, t6
	and	a0, a0, s2
	addi	a0, a0, 1
	sw	a0, -8(s3)
	sw	a1, -4(s3)
.LBB79_21:
	li	a0, 0
	sw	zero, -8(t1)
	sw	zero, -4(t1)
	sb	t5, 4(a3)
	sb	zero, 5(a3)
	sb	zero, 6(a3)
	sb	zero, 7(a3)
	srli	a1, a7, 24
	srli	a2, a7, 16
	srli	a5, a7, 8
	sb	t4, 12(a3)
	sb	zero, 13(a3)
	sb	zero, 14(a3)
	sb	zero, 15(a3)
	srli	s1, t0, 24
	srli	s0, t0, 16
	sb	a7, 0(a3)
	sb	a5, 1(a3)
	sb	a2, 2(a3)
	sb	a1, 3(a3)
	srli	a1, t0, 8
	addi	a6, a6, -1
	sb	t0, 8(a3)
	sb	a1, 9(a3)
	sb	s0, 10(a3)
	sb	s1, 11(a3)
	sw	a6, 0(a4)
.LBB79_22:
	lw	s0, 44(sp)
	lw	s1, 40(sp)
	lw	s2, 36(sp)
	lw	s3, 32(sp)
	lw	s4, 28(sp)
	lw	s5, 24(sp)
	lw	s6, 20(sp)
	lw	s7, 16(sp)
	lw	s8, 12(sp)
	.cfi_restore s0
	.cfi_restore s1
	.cfi_restore s2
	.cfi_restore s3
	.cfi_restore s4
	.cfi_restore s5
	.cfi_restore s6
	.cfi_restore s7
	.cfi_restore s8
	addi	sp, sp, 48
	.cfi_def_cfa_offset 0
	ret
.Lfunc_end79:
	.size	ic_raw.xor_calls.pop_front_slow, .Lfunc_end79-ic_raw.xor_calls.pop_front_slow
	.cfi_endproc
	.section	.text.unlikely.ic_raw.xor_calls.put_slow,"ax",@progbits
	.p2align	1
	.type	ic_raw.xor_calls.put_slow,@function
ic_raw.xor_calls.put_slow:
	.cfi_startproc
	addi	sp, sp, -48
	.cfi_def_cfa_offset 48
	sw	s0, 44(sp)
	sw	s1, 40(sp)
	sw	s2, 36(sp)
	sw	s3, 32(sp)
	sw	s4, 28(sp)
	sw	s5, 24(sp)
	sw	s6, 20(sp)
	sw	s7, 16(sp)
	sw	s8, 12(sp)
	sw	s9, 8(sp)
	sw	s10, 4(sp)
	sw	s11, 0(sp)
	.cfi_offset s0, -4
	.cfi_offset s1, -8
	.cfi_offset s2, -12
	.cfi_offset s3, -16
	.cfi_offset s4, -20
	.cfi_offset s5, -24
	.cfi_offset s6, -28
	.cfi_offset s7, -32
	.cfi_offset s8, -36
	.cfi_offset s9, -40
	.cfi_offset s10, -44
	.cfi_offset s11, -48
	.cfi_remember_state
	li	t5, 15
	li	t6, -8
	andi	t1, a6, 15
	andi	t0, a5, -8
	andi	t4, t3, 15
	andi	t2, a7, -8
	lw	s0, 0(a3)
	lw	s1, 4(a3)
	lw	s6, 8(a3)
	lw	s4, 12(a3)
	or	s5, t0, t1
	andi	s2, s1, 15
	andi	s3, s0, -8
	beqz	s5, .LBB80_3
	srli	s0, t1, 3
	beq	s0, a2, .LBB80_4
	sltu	s0, a2, s0
	beqz	s0, .LBB80_5
	j	.LBB80_35
.LBB80_3:
	xor	s0, s3, t2
	xor	s1, s2, t4
	or	s0, s0, s1
	beqz	s0, .LBB80_13
	j	.LBB80_35
.LBB80_4:
	srli	s0, t0, 3
	slli	s1, t1, 29
	or	s0, s0, s1
	sltu	s0, a1, s0
	bnez	s0, .LBB80_35
.LBB80_5:
	add	s1, a0, t0
	lw	s7, -8(s1)
	andi	s0, s7, 1
	beqz	s0, .LBB80_35
	lw	s0, -4(s1)
	and	s1, s7, t6
	and	s0, s0, t5
	xor	s8, s1, t2
	xor	s1, s0, t4
	or	s0, s8, s1
	bnez	s0, .LBB80_8
	xor	s0, s3, t0
	xor	s1, s2, t1
	or	s0, s0, s1
	beqz	s0, .LBB80_13
	j	.LBB80_35
.LBB80_8:
	srli	s7, s1, 3
	beq	s7, a2, .LBB80_10
	sltu	s1, a2, s7
	j	.LBB80_11
.LBB80_10:
	srli	s0, s8, 3
	slli	s1, s1, 29
	or	s0, s0, s1
	sltu	s1, a1, s0
.LBB80_11:
	bnez	s1, .LBB80_35
	add	s8, s8, a0
	lbu	s0, -8(s8)
	andi	s0, s0, 1
	beqz	s0, .LBB80_35
.LBB80_13:
	addi	s9, a4, 1
	andi	s4, s4, 15
	andi	s7, s6, -8
	or	s6, t2, t4
	add	s8, a0, t2
	beqz	s6, .LBB80_16
	srli	s0, t4, 3
	beq	s0, a2, .LBB80_18
	sltu	s0, a2, s0
	beqz	s0, .LBB80_19
	j	.LBB80_35
.LBB80_16:
	beqz	s9, .LBB80_35
	xor	s0, s7, t0
	xor	s1, s4, t1
	or	s0, s0, s1
	beqz	s0, .LBB80_29
	j	.LBB80_35
.LBB80_18:
	srli	s0, t2, 3
	slli	s1, t4, 29
	or	s0, s0, s1
	sltu	s0, a1, s0
	bnez	s0, .LBB80_35
.LBB80_19:
	lw	s0, -8(s8)
	andi	s1, s0, 1
	beqz	s1, .LBB80_35
	lw	s1, -4(s8)
	and	s0, s0, t6
	and	s1, s1, t5
	xor	s11, s0, t0
	xor	s1, s1, t1
	or	s0, s11, s1
	bnez	s0, .LBB80_23
	beqz	s9, .LBB80_35
	xor	s0, s7, t2
	xor	s1, s4, t4
	or	s0, s0, s1
	beqz	s0, .LBB80_29
	j	.LBB80_35
.LBB80_23:
	srli	s10, s1, 3
	beq	s10, a2, .LBB80_25
	sltu	s1, a2, s10
	j	.LBB80_26
.LBB80_25:
	srli	s0, s11, 3
	slli	s1, s1, 29
	or	s0, s0, s1
	sltu	s1, a1, s0
.LBB80_26:
	bnez	s1, .LBB80_35
	beqz	s9, .LBB80_35
	add	s11, s11, a0
	lw	s0, -8(s11)
	andi	s0, s0, 1
	beqz	s0, .LBB80_35
.LBB80_29:
	sltu	s0, a1, s9
	seqz	s1, a2
	and	s0, s0, s1
	bnez	s0, .LBB80_35
	slli	s0, s9, 3
	add	s10, a0, s0
	lbu	s1, -8(s10)
	andi	s1, s1, 1
	bnez	s1, .LBB80_35
	seqz	s1, s5
	srli	a4, s9, 29
	li	a1, 1
	sw	a1, -8(s10)
	sw	zero, -4(s10)
	mv	a1, s0
	mv	s5, a4
	bnez	s1, .LBB80_33
	add	a0, a0, t0
	lw	a1, -4(a0)
	lw	a2, -8(a0)
	xor	a1, a1, t3
	xor	a2, a2, a7
	and	a2, a2, t6
	and	a1, a1, t5
	xor	a1, a1, a4
	xor	a2, a2, s0
	addi	a2, a2, 1
	sw	a2, -8(a0)
	sw	a1, -4(a0)
	mv	a1, s3
	mv	s5, s2
.LBB80_33:
	beqz	s6, .LBB80_36
	lw	a0, -4(s8)
	lw	s1, -8(s8)
	xor	a0, a0, a6
	xor	a5, a5, s1
	and	a5, a5, t6
	and	a0, a0, t5
	xor	a0, a0, a4
	xor	a5, a5, s0
	addi	a5, a5, 1
	sw	a5, -8(s8)
	sw	a0, -4(s8)
	j	.LBB80_37
.LBB80_35:
	mv	a3, a4
	lw	s0, 44(sp)
	lw	s1, 40(sp)
	lw	s2, 36(sp)
	lw	s3, 32(sp)
	lw	s4, 28(sp)
	lw	s5, 24(sp)
	lw	s6, 20(sp)
	lw	s7, 16(sp)
	lw	s8, 12(sp)
	lw	s9, 8(sp)
	lw	s10, 4(sp)
	lw	s11, 0(sp)
	.cfi_restore s0
	.cfi_restore s1
	.cfi_restore s2
	.cfi_restore s3
	.cfi_restore s4
	.cfi_restore s5
	.cfi_restore s6
	.cfi_restore s7
	.cfi_restore s8
	.cfi_restore s9
	.cfi_restore s10
	.cfi_restore s11
	addi	sp, sp, 48
	.cfi_def_cfa_offset 0
	tail	ic_raw.table.refusal_at_end.feecb86c9dd45d96
.LBB80_36:
	.cfi_restore_state
	mv	s7, s0
	mv	s4, a4
.LBB80_37:
	xor	a0, t4, t1
	xor	a4, t2, t0
	srli	a5, a1, 24
	srli	s1, a1, 16
	srli	s0, a1, 8
	srli	a2, s7, 24
	addi	a4, a4, 1
	sw	a4, -8(s10)
	sw	a0, -4(s10)
	srli	a0, s7, 16
	srli	a4, s7, 8
	sb	s5, 4(a3)
	sb	zero, 5(a3)
	sb	zero, 6(a3)
	sb	zero, 7(a3)
	sb	a1, 0(a3)
	sb	s0, 1(a3)
	sb	s1, 2(a3)
	sb	a5, 3(a3)
	sb	s4, 12(a3)
	sb	zero, 13(a3)
	sb	zero, 14(a3)
	sb	zero, 15(a3)
	sb	s7, 8(a3)
	sb	a4, 9(a3)
	sb	a0, 10(a3)
	sb	a2, 11(a3)
	li	a0, 0
	lw	s0, 44(sp)
	lw	s1, 40(sp)
	lw	s2, 36(sp)
	lw	s3, 32(sp)
	lw	s4, 28(sp)
	lw	s5, 24(sp)
	lw	s6, 20(sp)
	lw	s7, 16(sp)
	lw	s8, 12(sp)
	lw	s9, 8(sp)
	lw	s10, 4(sp)
	lw	s11, 0(sp)
	.cfi_restore s0
	.cfi_restore s1
	.cfi_restore s2
	.cfi_restore s3
	.cfi_restore s4
	.cfi_restore s5
	.cfi_restore s6
	.cfi_restore s7
	.cfi_restore s8
	.cfi_restore s9
	.cfi_restore s10
	.cfi_restore s11
	addi	sp, sp, 48
	.cfi_def_cfa_offset 0
	ret
.Lfunc_end80:
	.size	ic_raw.xor_calls.put_slow, .Lfunc_end80-ic_raw.xor_calls.put_slow
	.cfi_endproc
	.section	.text.unlikely.ic_raw.table.RawTable.refusal_at_both.feecb86c9dd45d96,"ax",@progbits
	.p2align	1
	.type	ic_raw.table.RawTable.refusal_at_both.feecb86c9dd45d96,@function
ic_raw.table.RawTable.refusal_at_both.feecb86c9dd45d96:
	.cfi_startproc
	addi	a3, a3, 1
	bnez	a3, .LBB81_3
.LBB81_1:
	addi	a4, a4, 1
	bnez	a4, .LBB81_5
	li	a0, 5
	ret
.LBB81_3:
	sltu	a6, a1, a3
	seqz	a5, a2
	and	a5, a5, a6
	beqz	a5, .LBB81_7
	li	a0, 1
	ret
.LBB81_5:
	sltu	a1, a1, a4
	seqz	a2, a2
	and	a1, a1, a2
	beqz	a1, .LBB81_8
	li	a0, 1
	ret
.LBB81_7:
	slli	a3, a3, 3
	add	a3, a3, a0
	lbu	a3, -8(a3)
	andi	a3, a3, 1
	bnez	a3, .LBB81_1
	j	.LBB81_10
.LBB81_8:
	slli	a4, a4, 3
	add	a0, a0, a4
	lbu	a0, -8(a0)
	andi	a0, a0, 1
	beqz	a0, .LBB81_10
	li	a0, 5
	ret
.LBB81_10:
	li	a0, 3
	ret
.Lfunc_end81:
	.size	ic_raw.table.RawTable.refusal_at_both.feecb86c9dd45d96, .Lfunc_end81-ic_raw.table.RawTable.refusal_at_both.feecb86c9dd45d96
	.cfi_endproc
	.section	.text.ic_hash_check,"ax",@progbits
	.globl	ic_hash_check
	.p2align	1
	.type	ic_hash_check,@function
ic_hash_check:
	.cfi_startproc
	addi	sp, sp, -80
	.cfi_def_cfa_offset 80
	sw	ra, 76(sp)
	sw	s0, 72(sp)
	sw	s1, 68(sp)
	sw	s2, 64(sp)
	sw	s3, 60(sp)
	sw	s4, 56(sp)
	sw	s5, 52(sp)
	sw	s6, 48(sp)
	sw	s7, 44(sp)
	sw	s8, 40(sp)
	sw	s9, 36(sp)
	sw	s10, 32(sp)
	sw	s11, 28(sp)
	.cfi_offset ra, -4
	.cfi_offset s0, -8
	.cfi_offset s1, -12
	.cfi_offset s2, -16
	.cfi_offset s3, -20
	.cfi_offset s4, -24
	.cfi_offset s5, -28
	.cfi_offset s6, -32
	.cfi_offset s7, -36
	.cfi_offset s8, -40
	.cfi_offset s9, -44
	.cfi_offset s10, -48
	.cfi_offset s11, -52
	mv	s4, a7
	mv	s1, a2
	mv	s2, a1
	beq	a5, a2, .LBB82_2
	sltu	a1, a5, s1
	li	s0, 1
	beqz	a1, .LBB82_3
	j	.LBB82_20
.LBB82_2:
	sltu	a1, a4, s2
	li	s0, 1
	bnez	a1, .LBB82_20
.LBB82_3:
	lw	s11, 80(sp)
	or	a1, s4, s11
	beqz	a1, .LBB82_20
	li	s6, 0
	li	s8, 0
	sw	zero, 20(sp)
	li	s7, 0
	seqz	a1, a0
	seqz	a2, a3
	seqz	a4, a6
	slli	a1, a1, 12
	add	s10, a0, a1
	slli	a2, a2, 12
	slli	a4, a4, 12
	add	a2, a2, a3
	sw	a2, 24(sp)
	add	a6, a6, a4
	li	s0, 15
	li	a4, -8
	sw	a6, 12(sp)
.LBB82_5:
	sw	s7, 16(sp)
	slli	a0, s6, 3
	add	a0, a0, a6
	lw	a1, 4(a0)
	lw	a0, 0(a0)
	and	a1, a1, s0
	and	a0, a0, a4
	li	s5, 0
	li	s7, 0
	or	a2, a0, a1
	beqz	a2, .LBB82_15
.LBB82_6:
	beq	s1, s7, .LBB82_8
	sltu	a2, s7, s1
	li	s0, 5
	bnez	a2, .LBB82_9
	j	.LBB82_20
.LBB82_8:
	sltu	a2, s5, s2
	li	s0, 5
	beqz	a2, .LBB82_20
.LBB82_9:
	srli	a3, a0, 3
	slli	a4, a1, 29
	srli	a2, a1, 3
	or	a1, a3, a4
	beq	a2, s1, .LBB82_11
	sltu	a2, s1, a2
	beqz	a2, .LBB82_12
	j	.LBB82_20
.LBB82_11:
	sltu	a2, s2, a1
	bnez	a2, .LBB82_20
.LBB82_12:
	add	a0, a0, s10
	lw	s3, -8(a0)
	andi	a2, s3, 1
	beqz	a2, .LBB82_20
	lw	s9, -4(a0)
	slli	a1, a1, 3
	lw	a0, 24(sp)
	add	a1, a1, a0
	lw	a0, -8(a1)
	lw	a1, -4(a1)
	mv	a2, s4
	mv	a3, s11
	call	ic.remainder.divided
	xor	a1, a1, s8
	xor	a0, a0, s6
	or	a0, a0, a1
	bnez	a0, .LBB82_20
	addi	s5, s5, 1
	li	a4, -8
	and	a0, s3, a4
	li	s0, 15
	and	a1, s9, s0
	seqz	a2, s5
	or	a3, a0, a1
	add	s7, s7, a2
	bnez	a3, .LBB82_6
.LBB82_15:
	addi	s6, s6, 1
	seqz	a0, s6
	add	s8, s8, a0
	beq	s8, s11, .LBB82_17
	sltu	a0, s8, s11
	j	.LBB82_18
.LBB82_17:
	sltu	a0, s6, s4
.LBB82_18:
	lw	a1, 20(sp)
	lw	a6, 12(sp)
	add	a1, a1, s5
	sw	a1, 20(sp)
	sltu	a1, a1, s5
	lw	a2, 16(sp)
	add	s7, s7, a2
	add	s7, s7, a1
	bnez	a0, .LBB82_5
	li	s0, 0
	lw	a0, 20(sp)
	lw	a1, 84(sp)
	sw	a0, 0(a1)
	sw	s7, 4(a1)
.LBB82_20:
	mv	a0, s0
	lw	ra, 76(sp)
	lw	s0, 72(sp)
	lw	s1, 68(sp)
	lw	s2, 64(sp)
	lw	s3, 60(sp)
	lw	s4, 56(sp)
	lw	s5, 52(sp)
	lw	s6, 48(sp)
	lw	s7, 44(sp)
	lw	s8, 40(sp)
	lw	s9, 36(sp)
	lw	s10, 32(sp)
	lw	s11, 28(sp)
	.cfi_restore ra
	.cfi_restore s0
	.cfi_restore s1
	.cfi_restore s2
	.cfi_restore s3
	.cfi_restore s4
	.cfi_restore s5
	.cfi_restore s6
	.cfi_restore s7
	.cfi_restore s8
	.cfi_restore s9
	.cfi_restore s10
	.cfi_restore s11
	addi	sp, sp, 80
	.cfi_def_cfa_offset 0
	ret
.Lfunc_end82:
	.size	ic_hash_check, .Lfunc_end82-ic_hash_check
	.cfi_endproc
	.section	.text.ic_hash_find,"ax",@progbits
	.globl	ic_hash_find
	.p2align	1
	.type	ic_hash_find,@function
ic_hash_find:
	.cfi_startproc
	addi	sp, sp, -32
	.cfi_def_cfa_offset 32
	sw	ra, 28(sp)
	sw	s0, 24(sp)
	sw	s1, 20(sp)
	sw	s2, 16(sp)
	sw	s3, 12(sp)
	sw	s4, 8(sp)
	sw	s5, 4(sp)
	.cfi_offset ra, -4
	.cfi_offset s0, -8
	.cfi_offset s1, -12
	.cfi_offset s2, -16
	.cfi_offset s3, -20
	.cfi_offset s4, -24
	.cfi_offset s5, -28
	mv	s2, a3
	mv	s5, a2
	mv	s4, a1
	mv	s3, a0
	beq	a5, a2, .LBB83_2
	sltu	a1, a5, s5
	li	a0, 1
	beqz	a1, .LBB83_3
	j	.LBB83_16
.LBB83_2:
	sltu	a1, a4, s4
	li	a0, 1
	bnez	a1, .LBB83_16
.LBB83_3:
	lw	a3, 32(sp)
	or	a1, a7, a3
	beqz	a1, .LBB83_16
	lw	a1, 44(sp)
	lw	a0, 40(sp)
	seqz	a2, a6
	slli	a2, a2, 12
	add	s0, a6, a2
	mv	a2, a7
	call	ic.remainder.divided
	slli	a0, a0, 3
	add	a0, a0, s0
	lw	a1, 4(a0)
	lw	a4, 0(a0)
	andi	a0, a1, 15
	andi	a4, a4, -8
	or	a1, a4, a0
	or	a2, s4, s5
	seqz	a1, a1
	beqz	a2, .LBB83_13
	seqz	a2, s3
	seqz	a3, s2
	lw	a7, 52(sp)
	lw	t0, 48(sp)
	lw	a6, 56(sp)
	slli	a2, a2, 12
	slli	a3, a3, 12
	add	s3, s3, a2
	add	s2, s2, a3
	li	t1, 15
	li	a2, -8
	mv	s1, s4
	mv	s0, s5
.LBB83_6:
	andi	a1, a1, 1
	bnez	a1, .LBB83_14
	srli	a1, a4, 3
	slli	a3, a0, 29
	srli	a0, a0, 3
	or	a1, a1, a3
	beq	a0, s5, .LBB83_9
	sltu	a3, s5, a0
	li	a0, 5
	beqz	a3, .LBB83_10
	j	.LBB83_16
.LBB83_9:
	sltu	a3, s4, a1
	li	a0, 5
	bnez	a3, .LBB83_16
.LBB83_10:
	add	a3, s3, a4
	lw	a5, -8(a3)
	andi	a4, a5, 1
	beqz	a4, .LBB83_16
	slli	a0, a1, 3
	add	a0, a0, s2
	lw	a4, -4(a0)
	lw	a0, -8(a0)
	xor	a4, a4, a7
	xor	a0, a0, t0
	or	a0, a0, a4
	beqz	a0, .LBB83_15
	lw	a0, -4(a3)
	and	a4, a5, a2
	seqz	a1, s1
	addi	s1, s1, -1
	sub	s0, s0, a1
	and	a0, a0, t1
	or	a1, a4, a0
	or	a3, s1, s0
	seqz	a1, a1
	bnez	a3, .LBB83_6
.LBB83_13:
	xori	a0, a1, 5
	j	.LBB83_16
.LBB83_14:
	li	a0, 4
	j	.LBB83_16
.LBB83_15:
	addi	a1, a1, -1
	sw	a1, 0(a6)
.LBB83_16:
	lw	ra, 28(sp)
	lw	s0, 24(sp)
	lw	s1, 20(sp)
	lw	s2, 16(sp)
	lw	s3, 12(sp)
	lw	s4, 8(sp)
	lw	s5, 4(sp)
	.cfi_restore ra
	.cfi_restore s0
	.cfi_restore s1
	.cfi_restore s2
	.cfi_restore s3
	.cfi_restore s4
	.cfi_restore s5
	addi	sp, sp, 32
	.cfi_def_cfa_offset 0
	ret
.Lfunc_end83:
	.size	ic_hash_find, .Lfunc_end83-ic_hash_find
	.cfi_endproc
	.section	.text.ic_hash_insert,"ax",@progbits
	.globl	ic_hash_insert
	.p2align	1
	.type	ic_hash_insert,@function
ic_hash_insert:
	.cfi_startproc
	addi	sp, sp, -32
	.cfi_def_cfa_offset 32
	sw	ra, 28(sp)
	sw	s0, 24(sp)
	sw	s1, 20(sp)
	sw	s2, 16(sp)
	sw	s3, 12(sp)
	sw	s4, 8(sp)
	.cfi_offset ra, -4
	.cfi_offset s0, -8
	.cfi_offset s1, -12
	.cfi_offset s2, -16
	.cfi_offset s3, -20
	.cfi_offset s4, -24
	.cfi_remember_state
	mv	s3, a1
	or	a1, a4, a5
	beqz	a1, .LBB84_4
	mv	s0, a2
	lw	s2, 32(sp)
	seqz	a1, a0
	slli	a1, a1, 12
	add	s4, a0, a1
	seqz	a0, a3
	slli	a0, a0, 12
	add	s1, a3, a0
	mv	a0, a6
	mv	a1, a7
	mv	a2, a4
	mv	a3, a5
	call	ic.remainder.divided
	slli	a0, a0, 3
	add	a1, s1, a0
	lw	a2, 4(a1)
	lw	a3, 0(a1)
	andi	a2, a2, 15
	andi	a3, a3, -8
	or	a0, a3, a2
	addi	s1, s2, 1
	beqz	a0, .LBB84_5
	srli	a0, a2, 3
	beq	a0, s0, .LBB84_6
	sltu	a0, s0, a0
	beqz	a0, .LBB84_7
	j	.LBB84_13
.LBB84_4:
	li	a0, 1
	j	.LBB84_12
.LBB84_5:
	bnez	s1, .LBB84_9
	j	.LBB84_13
.LBB84_6:
	srli	a0, a3, 3
	slli	a4, a2, 29
	or	a0, a0, a4
	sltu	a0, s3, a0
	bnez	a0, .LBB84_13
.LBB84_7:
	beqz	s1, .LBB84_13
	add	a0, s4, a3
	lw	a0, -8(a0)
	andi	a0, a0, 1
	beqz	a0, .LBB84_13
.LBB84_9:
	sltu	a0, s3, s1
	seqz	a4, s0
	and	a0, a0, a4
	bnez	a0, .LBB84_13
	slli	a4, s1, 3
	add	a5, s4, a4
	lbu	a0, -8(a5)
	andi	a0, a0, 1
	bnez	a0, .LBB84_13
	srli	s1, s1, 29
	addi	a3, a3, 1
	sw	a3, -8(a5)
	sw	a2, -4(a5)
	sw	a4, 0(a1)
	sw	s1, 4(a1)
.LBB84_12:
	lw	ra, 28(sp)
	lw	s0, 24(sp)
	lw	s1, 20(sp)
	lw	s2, 16(sp)
	lw	s3, 12(sp)
	lw	s4, 8(sp)
	.cfi_restore ra
	.cfi_restore s0
	.cfi_restore s1
	.cfi_restore s2
	.cfi_restore s3
	.cfi_restore s4
	addi	sp, sp, 32
	.cfi_def_cfa_offset 0
	ret
.LBB84_13:
	.cfi_restore_state
	mv	a0, s4
	mv	a1, s3
	mv	a2, s0
	mv	a3, s2
	lw	ra, 28(sp)
	lw	s0, 24(sp)
	lw	s1, 20(sp)
	lw	s2, 16(sp)
	lw	s3, 12(sp)
	lw	s4, 8(sp)
	.cfi_restore ra
	.cfi_restore s0
	.cfi_restore s1
	.cfi_restore s2
	.cfi_restore s3
	.cfi_restore s4
	addi	sp, sp, 32
	.cfi_def_cfa_offset 0
	tail	ic_raw.table.refusal_at_end.feecb86c9dd45d96
.Lfunc_end84:
	.size	ic_hash_insert, .Lfunc_end84-ic_hash_insert
	.cfi_endproc
	.section	.text.ic_hash_move_chain,"ax",@progbits
	.globl	ic_hash_move_chain
	.p2align	1
	.type	ic_hash_move_chain,@function
ic_hash_move_chain:
	.cfi_startproc
	addi	sp, sp, -80
	.cfi_def_cfa_offset 80
	sw	ra, 76(sp)
	sw	s0, 72(sp)
	sw	s1, 68(sp)
	sw	s2, 64(sp)
	sw	s3, 60(sp)
	sw	s4, 56(sp)
	sw	s5, 52(sp)
	sw	s6, 48(sp)
	sw	s7, 44(sp)
	sw	s8, 40(sp)
	sw	s9, 36(sp)
	sw	s10, 32(sp)
	sw	s11, 28(sp)
	.cfi_offset ra, -4
	.cfi_offset s0, -8
	.cfi_offset s1, -12
	.cfi_offset s2, -16
	.cfi_offset s3, -20
	.cfi_offset s4, -24
	.cfi_offset s5, -28
	.cfi_offset s6, -32
	.cfi_offset s7, -36
	.cfi_offset s8, -40
	.cfi_offset s9, -44
	.cfi_offset s10, -48
	.cfi_offset s11, -52
	sw	a6, 16(sp)
	mv	s3, a2
	mv	s4, a1
	beq	a5, a2, .LBB85_2
	sltu	a1, a5, s3
	li	s0, 1
	beqz	a1, .LBB85_3
	j	.LBB85_30
.LBB85_2:
	sltu	a1, a4, s4
	li	s0, 1
	bnez	a1, .LBB85_30
.LBB85_3:
	lw	a1, 84(sp)
	lw	a2, 80(sp)
	or	a1, a1, a2
	beqz	a1, .LBB85_30
	seqz	a1, a0
	seqz	a2, a3
	seqz	a4, a7
	li	s10, 15
	li	s7, -8
	lw	a5, 16(sp)
	lw	s1, 0(a5)
	lw	a5, 4(a5)
	or	s0, s4, s3
	slli	a1, a1, 12
	slli	a2, a2, 12
	slli	a4, a4, 12
	add	s8, a0, a1
	add	a2, a2, a3
	sw	a2, 20(sp)
	add	a4, a4, a7
	sw	a4, 24(sp)
	andi	s2, a5, 15
	andi	s6, s1, -8
	or	a0, s6, s2
	sw	a0, 8(sp)
	seqz	a1, a0
	seqz	a2, s0
	sw	s0, 12(sp)
	beqz	s0, .LBB85_19
	bnez	a1, .LBB85_19
	mv	s5, s4
	mv	s11, s3
	mv	a0, s6
	mv	a3, s2
.LBB85_7:
	srli	a1, a3, 3
	beq	a1, s3, .LBB85_9
	sltu	a1, s3, a1
	li	s0, 5
	beqz	a1, .LBB85_10
	j	.LBB85_30
.LBB85_9:
	srli	a1, a0, 3
	slli	a3, a3, 29
	or	a1, a1, a3
	sltu	a1, s4, a1
	li	s0, 5
	bnez	a1, .LBB85_30
.LBB85_10:
	add	a1, s8, a0
	lw	s9, -8(a1)
	andi	a2, s9, 1
	beqz	a2, .LBB85_30
	li	s1, 15
	lw	s10, -4(a1)
	lw	a1, 20(sp)
	add	a1, a1, a0
	lw	a0, -8(a1)
	lw	a1, -4(a1)
	lw	a2, 80(sp)
	lw	a3, 84(sp)
	call	ic.remainder.divided
	slli	a0, a0, 3
	lw	a1, 24(sp)
	add	a0, a0, a1
	lw	a1, 4(a0)
	lw	a0, 0(a0)
	and	a1, a1, s1
	and	a0, a0, s7
	or	a2, a0, a1
	beqz	a2, .LBB85_17
	srli	a2, a1, 3
	beq	a2, s3, .LBB85_14
	sltu	a1, s3, a2
	j	.LBB85_15
.LBB85_14:
	srli	a2, a0, 3
	slli	a1, a1, 29
	or	a1, a1, a2
	sltu	a1, s4, a1
.LBB85_15:
	bnez	a1, .LBB85_30
	add	a0, a0, s8
	lbu	a0, -8(a0)
	andi	a0, a0, 1
	beqz	a0, .LBB85_30
.LBB85_17:
	and	a0, s9, s7
	li	a1, 15
	and	a3, s10, a1
	li	s10, 15
	seqz	a1, s5
	addi	s5, s5, -1
	or	a4, a0, a3
	sub	s11, s11, a1
	seqz	a1, a4
	or	a5, s5, s11
	seqz	a2, a5
	beqz	a5, .LBB85_19
	bnez	a4, .LBB85_7
.LBB85_19:
	bnez	a1, .LBB85_22
	beqz	a2, .LBB85_22
	li	s0, 5
	j	.LBB85_30
.LBB85_22:
	lw	a0, 8(sp)
	snez	a0, a0
	lw	a1, 12(sp)
	snez	a1, a1
	and	a0, a0, a1
	lw	s5, 84(sp)
	lw	s9, 80(sp)
	lw	s11, 20(sp)
	beqz	a0, .LBB85_29
	add	a4, s8, s6
	li	a5, 1
	seqz	a0, s4
	lw	a3, -8(a4)
	lw	a2, -4(a4)
	sub	a0, s3, a0
	addi	a1, s4, -1
	or	s0, a1, a0
	sw	a5, -8(a4)
	sw	zero, -4(a4)
	beqz	s0, .LBB85_28
	and	a2, a2, s10
	and	a3, a3, s7
	or	a4, a3, a2
	beqz	a4, .LBB85_28
.LBB85_25:
	addi	a5, s6, 1
	mv	s6, a3
	add	s1, s8, a3
	seqz	s0, a1
	lw	a3, -8(s1)
	lw	a4, -4(s1)
	sub	a0, a0, s0
	addi	a1, a1, -1
	or	s0, a1, a0
	sw	a5, -8(s1)
	sw	s2, -4(s1)
	mv	s2, a2
	beqz	s0, .LBB85_28
	and	a2, a4, s10
	and	a3, a3, s7
	or	a4, a3, a2
	bnez	a4, .LBB85_25
	j	.LBB85_28
.LBB85_27:
	and	s2, a1, s10
	and	s6, a0, s7
	or	a0, s6, s2
	beqz	a0, .LBB85_29
.LBB85_28:
	add	a1, s11, s6
	lw	a0, -8(a1)
	lw	a1, -4(a1)
	mv	a2, s9
	mv	a3, s5
	call	ic.remainder.divided
	slli	a0, a0, 3
	add	a2, s8, s6
	seqz	a3, s4
	addi	s4, s4, -1
	lw	a4, 24(sp)
	add	a4, a4, a0
	lw	a5, 0(a4)
	lw	s1, 4(a4)
	lw	a0, -8(a2)
	lw	a1, -4(a2)
	sub	s3, s3, a3
	or	a3, s4, s3
	and	s1, s1, s10
	and	a5, a5, s7
	addi	a5, a5, 1
	sw	a5, -8(a2)
	sw	s1, -4(a2)
	sw	s6, 0(a4)
	sw	s2, 4(a4)
	bnez	a3, .LBB85_27
.LBB85_29:
	li	s0, 0
	lw	a0, 16(sp)
	sw	zero, 0(a0)
	sw	zero, 4(a0)
.LBB85_30:
	mv	a0, s0
	lw	ra, 76(sp)
	lw	s0, 72(sp)
	lw	s1, 68(sp)
	lw	s2, 64(sp)
	lw	s3, 60(sp)
	lw	s4, 56(sp)
	lw	s5, 52(sp)
	lw	s6, 48(sp)
	lw	s7, 44(sp)
	lw	s8, 40(sp)
	lw	s9, 36(sp)
	lw	s10, 32(sp)
	lw	s11, 28(sp)
	.cfi_restore ra
	.cfi_restore s0
	.cfi_restore s1
	.cfi_restore s2
	.cfi_restore s3
	.cfi_restore s4
	.cfi_restore s5
	.cfi_restore s6
	.cfi_restore s7
	.cfi_restore s8
	.cfi_restore s9
	.cfi_restore s10
	.cfi_restore s11
	addi	sp, sp, 80
	.cfi_def_cfa_offset 0
	ret
.Lfunc_end85:
	.size	ic_hash_move_chain, .Lfunc_end85-ic_hash_move_chain
	.cfi_endproc
	.section	.text.ic_hash_next_equal,"ax",@progbits
	.globl	ic_hash_next_equal
	.p2align	1
	.type	ic_hash_next_equal,@function
ic_hash_next_equal:
	.cfi_startproc
	addi	sp, sp, -16
	.cfi_def_cfa_offset 16
	sw	s0, 12(sp)
	.cfi_offset s0, -4
	.cfi_remember_state
	addi	t0, a6, 1
	bnez	t0, .LBB86_3
	li	a3, 4
.LBB86_2:
	mv	a0, a3
	lw	s0, 12(sp)
	.cfi_restore s0
	addi	sp, sp, 16
	.cfi_def_cfa_offset 0
	ret
.LBB86_3:
	.cfi_restore_state
	.cfi_remember_state
	beq	a5, a2, .LBB86_16
	sltu	a4, a5, a2
	bnez	a4, .LBB86_17
.LBB86_5:
	seqz	t1, a0
	sltu	a5, a1, t0
	seqz	a4, a2
	slli	t1, t1, 12
	and	a4, a4, a5
	add	a0, a0, t1
	slli	t1, t0, 3
	bnez	a4, .LBB86_20
	add	a5, a0, t1
	lw	t4, -8(a5)
	andi	a4, t4, 1
	beqz	a4, .LBB86_20
	seqz	a4, a3
	lw	a5, -4(a5)
	li	t0, 15
	li	t1, -8
	slli	a6, a6, 3
	slli	a4, a4, 12
	add	t3, a3, a4
	add	a3, t3, a6
	lw	a6, 0(a3)
	lw	t2, 4(a3)
	andi	t6, t4, -8
	andi	a3, a5, 15
	or	a4, t6, a3
	seqz	a4, a4
	mv	a5, a1
	mv	t4, a2
.LBB86_8:
	andi	a4, a4, 1
	bnez	a4, .LBB86_18
	srli	t5, t6, 3
	slli	a4, a3, 29
	srli	a3, a3, 3
	or	t5, t5, a4
	beq	a3, a2, .LBB86_11
	sltu	a4, a2, a3
	li	a3, 5
	beqz	a4, .LBB86_12
	j	.LBB86_2
.LBB86_11:
	sltu	a4, a1, t5
	li	a3, 5
	bnez	a4, .LBB86_2
.LBB86_12:
	add	t6, t6, a0
	lw	a4, -8(t6)
	andi	s0, a4, 1
	beqz	s0, .LBB86_2
	slli	a3, t5, 3
	add	a3, a3, t3
	lw	s0, -4(a3)
	lw	a3, -8(a3)
	xor	s0, s0, t2
	xor	a3, a3, a6
	or	a3, a3, s0
	beqz	a3, .LBB86_19
	lw	a3, -4(t6)
	and	t6, a4, t1
	seqz	a4, a5
	addi	a5, a5, -1
	sub	t4, t4, a4
	and	a3, a3, t0
	or	a4, t6, a3
	or	s0, a5, t4
	seqz	a4, a4
	bnez	s0, .LBB86_8
	xori	a0, a4, 5
	lw	s0, 12(sp)
	.cfi_restore s0
	addi	sp, sp, 16
	.cfi_def_cfa_offset 0
	ret
.LBB86_16:
	.cfi_restore_state
	.cfi_remember_state
	sltu	a4, a4, a1
	beqz	a4, .LBB86_5
.LBB86_17:
	li	a0, 1
	lw	s0, 12(sp)
	.cfi_restore s0
	addi	sp, sp, 16
	.cfi_def_cfa_offset 0
	ret
.LBB86_18:
	.cfi_restore_state
	.cfi_remember_state
	li	a0, 4
	lw	s0, 12(sp)
	.cfi_restore s0
	addi	sp, sp, 16
	.cfi_def_cfa_offset 0
	ret
.LBB86_19:
	.cfi_restore_state
	.cfi_remember_state
	addi	t5, t5, -1
	sw	t5, 0(a7)
	mv	a0, a3
	lw	s0, 12(sp)
	.cfi_restore s0
	addi	sp, sp, 16
	.cfi_def_cfa_offset 0
	ret
.LBB86_20:
	.cfi_restore_state
	srli	a4, t0, 29
	mv	a3, t1
	lw	s0, 12(sp)
	.cfi_restore s0
	addi	sp, sp, 16
	.cfi_def_cfa_offset 0
	tail	ic_raw.table.RawTable.refusal_of.feecb86c9dd45d96
.Lfunc_end86:
	.size	ic_hash_next_equal, .Lfunc_end86-ic_hash_next_equal
	.cfi_endproc
	.section	.text.ic_hash_remove,"ax",@progbits
	.globl	ic_hash_remove
	.p2align	1
	.type	ic_hash_remove,@function
ic_hash_remove:
	.cfi_startproc
	addi	sp, sp, -32
	.cfi_def_cfa_offset 32
	sw	ra, 28(sp)
	sw	s0, 24(sp)
	sw	s1, 20(sp)
	sw	s2, 16(sp)
	sw	s3, 12(sp)
	sw	s4, 8(sp)
	sw	s5, 4(sp)
	.cfi_offset ra, -4
	.cfi_offset s0, -8
	.cfi_offset s1, -12
	.cfi_offset s2, -16
	.cfi_offset s3, -20
	.cfi_offset s4, -24
	.cfi_offset s5, -28
	.cfi_remember_state
	lw	s4, 32(sp)
	addi	s4, s4, 1
	bnez	s4, .LBB87_2
	li	a0, 4
	j	.LBB87_26
.LBB87_2:
	or	s1, a4, a5
	beqz	s1, .LBB87_7
	mv	s5, a3
	seqz	a3, a0
	slli	a3, a3, 12
	add	s3, a0, a3
	srli	s2, s4, 29
	slli	s4, s4, 3
	mv	a0, a6
	mv	s1, a1
	mv	a1, a7
	mv	s0, a2
	mv	a2, a4
	mv	a3, a5
	call	ic.remainder.divided
	mv	a1, s1
	mv	a2, s0
	or	a3, s1, s0
	beqz	a3, .LBB87_23
	seqz	a3, s5
	slli	a0, a0, 3
	slli	a3, a3, 12
	add	a3, a3, s5
	add	a6, a3, a0
	lw	a0, 0(a6)
	lw	a3, 4(a6)
	andi	t0, a0, -8
	andi	a7, a3, 15
	or	a4, t0, a7
	beqz	a4, .LBB87_23
	srli	a4, a7, 3
	beq	a4, a2, .LBB87_8
	sltu	a0, a2, a4
	j	.LBB87_9
.LBB87_7:
	li	a0, 1
	j	.LBB87_26
.LBB87_8:
	slli	a3, a3, 29
	srli	a0, a0, 3
	or	a0, a0, a3
	sltu	a0, a1, a0
.LBB87_9:
	bnez	a0, .LBB87_23
	add	a3, s3, t0
	lw	a0, -8(a3)
	andi	a4, a0, 1
	beqz	a4, .LBB87_23
	li	t1, 15
	xor	a4, t0, s4
	xor	a5, a7, s2
	or	a4, a4, a5
	li	t2, -8
	bnez	a4, .LBB87_13
	add	a1, s3, s4
	lw	a0, -4(a1)
	lw	a2, -8(a1)
	addi	a1, a1, -8
	and	a7, a0, t1
	and	t0, a2, t2
	j	.LBB87_25
.LBB87_13:
	seqz	a4, a1
	sub	t4, a2, a4
	addi	a5, a1, -1
	or	a4, a5, t4
	beqz	a4, .LBB87_23
	lw	s1, -4(a3)
	mv	t3, t0
.LBB87_15:
	and	s0, a0, t2
	and	s1, s1, t1
	or	a0, s0, s1
	beqz	a0, .LBB87_23
	srli	a0, s1, 3
	beq	a0, a2, .LBB87_18
	sltu	a0, a2, a0
	j	.LBB87_19
.LBB87_18:
	srli	a0, s0, 3
	slli	a3, s1, 29
	or	a0, a0, a3
	sltu	a0, a1, a0
.LBB87_19:
	bnez	a0, .LBB87_23
	add	a3, s3, s0
	lw	a0, -8(a3)
	andi	a4, a0, 1
	beqz	a4, .LBB87_23
	xor	a4, s0, s4
	xor	s1, s1, s2
	or	a4, a4, s1
	beqz	a4, .LBB87_24
	lw	s1, -4(a3)
	seqz	a3, a5
	sub	t4, t4, a3
	addi	a5, a5, -1
	or	a3, a5, t4
	mv	t3, s0
	bnez	a3, .LBB87_15
.LBB87_23:
	mv	a0, s3
	mv	a3, s4
	mv	a4, s2
	lw	ra, 28(sp)
	lw	s0, 24(sp)
	lw	s1, 20(sp)
	lw	s2, 16(sp)
	lw	s3, 12(sp)
	lw	s4, 8(sp)
	lw	s5, 4(sp)
	.cfi_restore ra
	.cfi_restore s0
	.cfi_restore s1
	.cfi_restore s2
	.cfi_restore s3
	.cfi_restore s4
	.cfi_restore s5
	addi	sp, sp, 32
	.cfi_def_cfa_offset 0
	tail	ic_raw.table.RawTable.refusal_of.feecb86c9dd45d96
.LBB87_24:
	.cfi_restore_state
	add	a1, s3, s4
	lw	a0, -4(a1)
	lw	a2, -8(a1)
	add	t3, t3, s3
	addi	a1, a1, -8
	and	a0, a0, t1
	and	a2, a2, t2
	addi	a2, a2, 1
	sw	a2, -8(t3)
	sw	a0, -4(t3)
.LBB87_25:
	li	a0, 0
	sw	zero, 0(a1)
	sw	zero, 4(a1)
	sw	t0, 0(a6)
	sw	a7, 4(a6)
.LBB87_26:
	lw	ra, 28(sp)
	lw	s0, 24(sp)
	lw	s1, 20(sp)
	lw	s2, 16(sp)
	lw	s3, 12(sp)
	lw	s4, 8(sp)
	lw	s5, 4(sp)
	.cfi_restore ra
	.cfi_restore s0
	.cfi_restore s1
	.cfi_restore s2
	.cfi_restore s3
	.cfi_restore s4
	.cfi_restore s5
	addi	sp, sp, 32
	.cfi_def_cfa_offset 0
	ret
.Lfunc_end87:
	.size	ic_hash_remove, .Lfunc_end87-ic_hash_remove
	.cfi_endproc
	.section	.text.ic_list32_append,"ax",@progbits
	.globl	ic_list32_append
	.p2align	1
	.type	ic_list32_append,@function
ic_list32_append:
	.cfi_startproc
	addi	sp, sp, -16
	.cfi_def_cfa_offset 16
	sw	ra, 12(sp)
	sw	s0, 8(sp)
	sw	s1, 4(sp)
	.cfi_offset ra, -4
	.cfi_offset s0, -8
	.cfi_offset s1, -12
	.cfi_remember_state
	mv	a7, a4
	lw	a6, 12(a3)
	lw	a5, 8(a3)
	seqz	a4, a0
	slli	a4, a4, 12
	andi	t0, a6, 15
	andi	a6, a5, -8
	or	a5, a6, t0
	add	a0, a0, a4
	beqz	a5, .LBB88_20
	seqz	a4, a2
	lui	a5, 131072
	addi	a4, a4, -1
	or	t1, a4, a1
	addi	a4, a5, -1
	srli	a5, t0, 3
	bgeu	t1, a4, .LBB88_4
	beqz	a5, .LBB88_5
.LBB88_3:
	beqz	a5, .LBB88_6
	j	.LBB88_20
.LBB88_4:
	mv	t1, a4
	bnez	a5, .LBB88_3
.LBB88_5:
	srli	a4, a6, 3
	slli	t0, t0, 29
	or	a4, a4, t0
	sltu	a5, t1, a4
	bnez	a5, .LBB88_20
.LBB88_6:
	lw	a4, 4(a7)
	lw	a5, 0(a7)
	andi	t3, a4, 15
	andi	t5, a5, -8
	or	a4, t5, t3
	beqz	a4, .LBB88_20
	add	t2, a0, a6
	lw	a4, -8(t2)
	li	a5, 1
	bne	a4, a5, .LBB88_20
	srli	a4, t3, 3
	bnez	a4, .LBB88_10
	srli	a4, t5, 3
	slli	a5, t3, 29
	or	a4, a4, a5
	sltu	a4, t1, a4
.LBB88_10:
	bnez	a4, .LBB88_20
	add	t4, a0, t5
	lw	a4, -4(t4)
	bnez	a4, .LBB88_20
	lw	a4, 12(a7)
	lw	a5, 8(a7)
	andi	t0, a4, 15
	andi	s1, a5, -8
	or	a4, s1, t0
	beqz	a4, .LBB88_20
	lw	a4, -8(t4)
	andi	a4, a4, 1
	beqz	a4, .LBB88_20
	srli	a4, t0, 3
	bnez	a4, .LBB88_16
	srli	t6, s1, 3
	slli	a4, t0, 29
	or	a4, t6, a4
	sltu	a4, t1, a4
.LBB88_16:
	bnez	a4, .LBB88_20
	lw	a4, 4(a3)
	lw	a5, 0(a3)
	andi	t1, a4, 15
	andi	a4, a5, -8
	xor	a5, a4, t5
	xor	s0, t1, t3
	or	a5, a5, s0
	beqz	a5, .LBB88_20
	add	t3, a0, s1
	lw	a5, -8(t3)
	li	t6, 1
	bne	a5, t6, .LBB88_20
	addi	t5, t5, 1
	sw	t5, -8(t2)
	srli	t2, a4, 24
	srli	a1, a4, 16
	sw	a6, -4(t4)
	srli	a2, a4, 8
	srli	a5, s1, 24
	sw	t6, -8(t3)
	srli	s0, s1, 16
	srli	a0, s1, 8
	sb	t1, 4(a3)
	sb	zero, 5(a3)
	sb	zero, 6(a3)
	sb	zero, 7(a3)
	sb	a4, 0(a3)
	sb	a2, 1(a3)
	sb	a1, 2(a3)
	sb	t2, 3(a3)
	sb	t0, 12(a3)
	sb	zero, 13(a3)
	sb	zero, 14(a3)
	sb	zero, 15(a3)
	sb	s1, 8(a3)
	sb	a0, 9(a3)
	sb	s0, 10(a3)
	sb	a5, 11(a3)
	li	a2, 16
	mv	a0, a7
	li	a1, 0
	li	a3, 0
	li	a4, 0
	call	ic.clear
	li	a0, 0
	lw	ra, 12(sp)
	lw	s0, 8(sp)
	lw	s1, 4(sp)
	.cfi_restore ra
	.cfi_restore s0
	.cfi_restore s1
	addi	sp, sp, 16
	.cfi_def_cfa_offset 0
	ret
.LBB88_20:
	.cfi_restore_state
	li	a4, -1
	li	a6, 1
	mv	a5, a7
	lw	ra, 12(sp)
	lw	s0, 8(sp)
	lw	s1, 4(sp)
	.cfi_restore ra
	.cfi_restore s0
	.cfi_restore s1
	addi	sp, sp, 16
	.cfi_def_cfa_offset 0
	tail	ic_raw.list_calls.splice_slow.55ebd757a04f39fd
.Lfunc_end88:
	.size	ic_list32_append, .Lfunc_end88-ic_list32_append
	.cfi_endproc
	.section	.text.ic_list32_check,"ax",@progbits
	.globl	ic_list32_check
	.p2align	1
	.type	ic_list32_check,@function
ic_list32_check:
	.cfi_startproc
	lw	a5, 4(a3)
	lw	t0, 0(a3)
	lw	a6, 8(a3)
	lw	a7, 12(a3)
	andi	a3, a5, 15
	andi	a5, t0, -8
	or	t0, a5, a3
	beqz	t0, .LBB89_14
	seqz	t0, a0
	seqz	a2, a2
	addi	a2, a2, -1
	or	t1, a2, a1
	lui	a1, 131072
	addi	a1, a1, -1
	slli	t0, t0, 12
	bltu	t1, a1, .LBB89_3
	mv	t1, a1
.LBB89_3:
	li	t2, 0
	li	t3, 0
	li	a1, 0
	li	t6, 0
	add	t0, t0, a0
.LBB89_4:
	mv	t4, a3
	mv	t5, a5
	beqz	t6, .LBB89_6
	li	a3, 1
	li	a0, 5
	beqz	a3, .LBB89_7
	j	.LBB89_13
.LBB89_6:
	sltu	a0, a1, t1
	xori	a3, a0, 1
	li	a0, 5
	bnez	a3, .LBB89_13
.LBB89_7:
	srli	a3, t5, 3
	slli	a5, t4, 29
	or	a3, a3, a5
	srli	a5, t4, 3
	sltu	a3, t1, a3
	snez	a5, a5
	or	a3, a3, a5
	bnez	a3, .LBB89_13
	add	a3, t0, t5
	lw	a2, -8(a3)
	andi	a5, a2, 1
	beqz	a5, .LBB89_13
	lw	a3, -4(a3)
	andi	a3, a3, -8
	xor	a3, t2, a3
	or	a3, a3, t3
	bnez	a3, .LBB89_13
	andi	a5, a2, -8
	addi	a1, a1, 1
	seqz	a0, a1
	add	t6, t6, a0
	mv	t2, t5
	mv	t3, t4
	bnez	a5, .LBB89_4
	andi	a0, a7, 15
	andi	a2, a6, -8
	xor	a2, a2, t5
	xor	a0, a0, t4
	or	a0, a0, a2
	bnez	a0, .LBB89_15
.LBB89_12:
	sw	a1, 0(a4)
	sw	t6, 4(a4)
.LBB89_13:
	ret
.LBB89_14:
	li	a1, 0
	li	t6, 0
	andi	a0, a7, 15
	andi	a2, a6, -8
	mv	a2, a2
	mv	a0, a0
	or	a0, a0, a2
	beqz	a0, .LBB89_12
.LBB89_15:
	li	a0, 5
	ret
.Lfunc_end89:
	.size	ic_list32_check, .Lfunc_end89-ic_list32_check
	.cfi_endproc
	.section	.text.ic_list32_clear,"ax",@progbits
	.globl	ic_list32_clear
	.p2align	1
	.type	ic_list32_clear,@function
ic_list32_clear:
	.cfi_startproc
	addi	sp, sp, -16
	.cfi_def_cfa_offset 16
	sw	ra, 12(sp)
	sw	s0, 8(sp)
	.cfi_offset ra, -4
	.cfi_offset s0, -8
	.cfi_remember_state
	mv	a7, a0
	lw	a0, 4(a3)
	lw	a4, 0(a3)
	lw	a5, 12(a3)
	lw	t0, 8(a3)
	andi	t5, a0, 15
	andi	t2, a4, -8
	andi	a6, a5, 15
	or	a0, t2, t5
	andi	t0, t0, -8
	beqz	a0, .LBB90_11
	seqz	a0, a2
	lui	a4, 131072
	addi	a0, a0, -1
	or	t1, a0, a1
	addi	a0, a4, -1
	bltu	t1, a0, .LBB90_3
	mv	t1, a0
.LBB90_3:
	or	a1, a1, a2
	li	a0, 5
	beqz	a1, .LBB90_10
	li	t3, 0
	li	t4, 0
	li	t6, 0
	seqz	a1, a7
	slli	a1, a1, 12
	add	a7, a7, a1
	mv	a1, t2
	mv	a5, t1
.LBB90_5:
	srli	a2, a1, 3
	slli	a4, t5, 29
	or	a2, a2, a4
	srli	a4, t5, 3
	sltu	a2, t1, a2
	snez	a4, a4
	or	a2, a2, a4
	bnez	a2, .LBB90_10
	add	a4, a7, a1
	lw	a2, -8(a4)
	andi	s0, a2, 1
	beqz	s0, .LBB90_10
	lw	a4, -4(a4)
	andi	a4, a4, -8
	xor	a4, t3, a4
	or	a4, a4, t4
	bnez	a4, .LBB90_10
	andi	a2, a2, -8
	beqz	a2, .LBB90_13
	seqz	a4, a5
	sub	t6, t6, a4
	addi	a5, a5, -1
	or	a4, a5, t6
	mv	t3, a1
	mv	t4, t5
	mv	a1, a2
	li	t5, 0
	bnez	a4, .LBB90_5
.LBB90_10:
	lw	ra, 12(sp)
	lw	s0, 8(sp)
	.cfi_restore ra
	.cfi_restore s0
	addi	sp, sp, 16
	.cfi_def_cfa_offset 0
	ret
.LBB90_11:
	.cfi_restore_state
	.cfi_remember_state
	or	a0, t0, a6
	beqz	a0, .LBB90_15
	li	a0, 5
	lw	ra, 12(sp)
	lw	s0, 8(sp)
	.cfi_restore ra
	.cfi_restore s0
	addi	sp, sp, 16
	.cfi_def_cfa_offset 0
	ret
.LBB90_13:
	.cfi_restore_state
	xor	a1, t0, a1
	xor	a2, a6, t5
	or	a1, a1, a2
	bnez	a1, .LBB90_10
.LBB90_14:
	add	a0, a7, t2
	lw	a1, -8(a0)
	andi	t2, a1, -8
	sw	zero, -8(a0)
	bnez	t2, .LBB90_14
.LBB90_15:
	li	a2, 16
	mv	a0, a3
	li	a1, 0
	li	a3, 0
	li	a4, 0
	call	ic.clear
	li	a0, 0
	lw	ra, 12(sp)
	lw	s0, 8(sp)
	.cfi_restore ra
	.cfi_restore s0
	addi	sp, sp, 16
	.cfi_def_cfa_offset 0
	ret
.Lfunc_end90:
	.size	ic_list32_clear, .Lfunc_end90-ic_list32_clear
	.cfi_endproc
	.section	.text.ic_list32_insert_after,"ax",@progbits
	.globl	ic_list32_insert_after
	.p2align	1
	.type	ic_list32_insert_after,@function
ic_list32_insert_after:
	.cfi_startproc
	mv	a6, a5
	mv	a5, a4
	seqz	a4, a0
	slli	a4, a4, 12
	add	a0, a0, a4
	li	a4, 0
	tail	ic_raw.list_calls.insert_at.55ebd757a04f39fd
.Lfunc_end91:
	.size	ic_list32_insert_after, .Lfunc_end91-ic_list32_insert_after
	.cfi_endproc
	.section	.text.ic_list32_insert_before,"ax",@progbits
	.globl	ic_list32_insert_before
	.p2align	1
	.type	ic_list32_insert_before,@function
ic_list32_insert_before:
	.cfi_startproc
	mv	a6, a5
	mv	a5, a4
	seqz	a4, a0
	slli	a4, a4, 12
	add	a0, a0, a4
	li	a4, 1
	tail	ic_raw.list_calls.insert_at.55ebd757a04f39fd
.Lfunc_end92:
	.size	ic_list32_insert_before, .Lfunc_end92-ic_list32_insert_before
	.cfi_endproc
	.section	.text.ic_list32_move_after,"ax",@progbits
	.globl	ic_list32_move_after
	.p2align	1
	.type	ic_list32_move_after,@function
ic_list32_move_after:
	.cfi_startproc
	addi	sp, sp, -32
	.cfi_def_cfa_offset 32
	sw	s0, 28(sp)
	sw	s1, 24(sp)
	sw	s2, 20(sp)
	sw	s3, 16(sp)
	sw	s4, 12(sp)
	sw	s5, 8(sp)
	.cfi_offset s0, -4
	.cfi_offset s1, -8
	.cfi_offset s2, -12
	.cfi_offset s3, -16
	.cfi_offset s4, -20
	.cfi_offset s5, -24
	.cfi_remember_state
	addi	t2, a5, 1
	bnez	t2, .LBB93_2
	li	a0, 4
	j	.LBB93_23
.LBB93_2:
	mv	a6, a5
	mv	a7, a4
	seqz	a5, a0
	seqz	a4, a2
	lui	s0, 131072
	addi	s1, a4, -1
	or	s4, s1, a1
	addi	s0, s0, -1
	slli	a5, a5, 12
	bltu	s4, s0, .LBB93_4
	mv	s4, s0
.LBB93_4:
	add	a0, a0, a5
	bltu	s4, t2, .LBB93_24
	slli	t6, t2, 3
	add	t4, a0, t6
	lw	s0, -8(t4)
	andi	a5, s0, 1
	beqz	a5, .LBB93_24
	lw	a5, -4(t4)
	andi	t0, a5, -8
	beqz	t0, .LBB93_24
	andi	t1, s0, -8
	beqz	t1, .LBB93_24
	srli	a5, a5, 3
	sltu	a5, a1, a5
	and	a5, a5, a4
	bnez	a5, .LBB93_24
	add	t3, a0, t0
	lw	a5, -8(t3)
	srli	s1, t2, 29
	addi	t2, t6, 1
	xor	a5, t2, a5
	or	a5, a5, s1
	bnez	a5, .LBB93_24
	srli	s0, s0, 3
	sltu	a5, a1, s0
	and	a4, a4, a5
	bnez	a4, .LBB93_24
	add	t5, a0, t1
	lw	a4, -4(t5)
	xor	a4, t6, a4
	or	a4, a4, s1
	bnez	a4, .LBB93_24
	addi	s3, a7, 1
	beqz	s3, .LBB93_24
	lw	a4, -8(t5)
	andi	a4, a4, 1
	beqz	a4, .LBB93_24
	bltu	s4, s3, .LBB93_24
	slli	s5, s3, 3
	add	s2, a0, s5
	lw	a5, -8(s2)
	andi	a4, a5, 1
	beqz	a4, .LBB93_24
	andi	a4, a5, -8
	beqz	a4, .LBB93_24
	srli	a5, a5, 3
	bltu	s4, a5, .LBB93_24
	add	s4, a0, a4
	lw	s0, -4(s4)
	srli	a5, s3, 29
	xor	s0, s5, s0
	or	s0, s0, a5
	bnez	s0, .LBB93_24
	lw	s0, -8(s4)
	andi	s0, s0, 1
	beqz	s0, .LBB93_24
	xor	a0, s5, t6
	xor	a5, a5, s1
	or	a5, a5, a0
	li	a0, 0
	beqz	a5, .LBB93_23
	xor	a1, t6, a4
	or	a1, a1, s1
	beqz	a1, .LBB93_23
	li	a0, 0
	lw	a1, 0(a3)
	lw	a2, 4(a3)
	lw	a5, 8(a3)
	lw	s1, 12(a3)
	addi	t1, t1, 1
	sw	t1, -8(t3)
	addi	a4, a4, 1
	sw	t0, -4(t5)
	sw	t2, -8(s2)
	sw	t6, -4(s4)
	sw	a4, -8(t4)
	sw	s5, -4(t4)
	andi	a2, a2, 15
	andi	a1, a1, -8
	andi	s1, s1, 15
	andi	a5, a5, -8
	sb	a2, 4(a3)
	sb	zero, 5(a3)
	sb	zero, 6(a3)
	sb	zero, 7(a3)
	srli	a6, a1, 24
	srli	a7, a1, 16
	srli	s0, a1, 8
	sb	s1, 12(a3)
	sb	zero, 13(a3)
	sb	zero, 14(a3)
	sb	zero, 15(a3)
	srli	s1, a5, 24
	srli	a2, a5, 16
	srli	a4, a5, 8
	sb	a1, 0(a3)
	sb	s0, 1(a3)
	sb	a7, 2(a3)
	sb	a6, 3(a3)
	sb	a5, 8(a3)
	sb	a4, 9(a3)
	sb	a2, 10(a3)
	sb	s1, 11(a3)
.LBB93_23:
	lw	s0, 28(sp)
	lw	s1, 24(sp)
	lw	s2, 20(sp)
	lw	s3, 16(sp)
	lw	s4, 12(sp)
	lw	s5, 8(sp)
	.cfi_restore s0
	.cfi_restore s1
	.cfi_restore s2
	.cfi_restore s3
	.cfi_restore s4
	.cfi_restore s5
	addi	sp, sp, 32
	.cfi_def_cfa_offset 0
	ret
.LBB93_24:
	.cfi_restore_state
	li	a4, 0
	mv	a5, a7
	lw	s0, 28(sp)
	lw	s1, 24(sp)
	lw	s2, 20(sp)
	lw	s3, 16(sp)
	lw	s4, 12(sp)
	lw	s5, 8(sp)
	.cfi_restore s0
	.cfi_restore s1
	.cfi_restore s2
	.cfi_restore s3
	.cfi_restore s4
	.cfi_restore s5
	addi	sp, sp, 32
	.cfi_def_cfa_offset 0
	tail	ic_raw.move_calls.move_slow.55ebd757a04f39fd
.Lfunc_end93:
	.size	ic_list32_move_after, .Lfunc_end93-ic_list32_move_after
	.cfi_endproc
	.section	.text.ic_list32_move_before,"ax",@progbits
	.globl	ic_list32_move_before
	.p2align	1
	.type	ic_list32_move_before,@function
ic_list32_move_before:
	.cfi_startproc
	addi	sp, sp, -32
	.cfi_def_cfa_offset 32
	sw	s0, 28(sp)
	sw	s1, 24(sp)
	sw	s2, 20(sp)
	sw	s3, 16(sp)
	sw	s4, 12(sp)
	sw	s5, 8(sp)
	.cfi_offset s0, -4
	.cfi_offset s1, -8
	.cfi_offset s2, -12
	.cfi_offset s3, -16
	.cfi_offset s4, -20
	.cfi_offset s5, -24
	.cfi_remember_state
	addi	t3, a5, 1
	bnez	t3, .LBB94_2
	li	a0, 4
	j	.LBB94_22
.LBB94_2:
	mv	a6, a5
	mv	a7, a4
	seqz	a5, a0
	seqz	a4, a2
	lui	s1, 131072
	addi	s0, a4, -1
	or	s4, s0, a1
	addi	s1, s1, -1
	slli	a5, a5, 12
	bltu	s4, s1, .LBB94_4
	mv	s4, s1
.LBB94_4:
	add	a0, a0, a5
	bltu	s4, t3, .LBB94_23
	slli	t6, t3, 3
	add	t4, a0, t6
	lw	s1, -8(t4)
	andi	a5, s1, 1
	beqz	a5, .LBB94_23
	lw	a5, -4(t4)
	andi	t0, a5, -8
	beqz	t0, .LBB94_23
	andi	t1, s1, -8
	beqz	t1, .LBB94_23
	srli	a5, a5, 3
	sltu	a5, a1, a5
	and	a5, a5, a4
	bnez	a5, .LBB94_23
	add	t2, a0, t0
	lw	a5, -8(t2)
	srli	s5, t3, 29
	addi	t3, t6, 1
	xor	a5, t3, a5
	or	a5, a5, s5
	bnez	a5, .LBB94_23
	srli	s1, s1, 3
	sltu	a5, a1, s1
	and	a4, a4, a5
	bnez	a4, .LBB94_23
	add	t5, a0, t1
	lw	a4, -4(t5)
	xor	a4, t6, a4
	or	a4, a4, s5
	bnez	a4, .LBB94_23
	addi	s2, a7, 1
	beqz	s2, .LBB94_23
	lw	a4, -8(t5)
	andi	a4, a4, 1
	beqz	a4, .LBB94_23
	bltu	s4, s2, .LBB94_23
	slli	s0, s2, 3
	add	s3, a0, s0
	lbu	a4, -8(s3)
	andi	a4, a4, 1
	beqz	a4, .LBB94_23
	lw	a5, -4(s3)
	andi	s1, a5, -8
	beqz	s1, .LBB94_23
	srli	a5, a5, 3
	bltu	s4, a5, .LBB94_23
	add	s4, a0, s1
	lw	a4, -8(s4)
	srli	a5, s2, 29
	addi	s2, s0, 1
	xor	a4, s2, a4
	or	a4, a4, a5
	bnez	a4, .LBB94_23
	xor	a0, t6, s1
	or	a1, a0, s5
	li	a0, 0
	beqz	a1, .LBB94_22
	xor	a1, s0, t6
	xor	a2, a5, s5
	or	a1, a1, a2
	beqz	a1, .LBB94_22
	li	a0, 0
	lw	a1, 0(a3)
	lw	a2, 4(a3)
	lw	a4, 8(a3)
	lw	a5, 12(a3)
	addi	t1, t1, 1
	sw	t1, -8(t2)
	sw	t0, -4(t5)
	sw	t3, -8(s4)
	sw	t6, -4(s3)
	sw	s2, -8(t4)
	sw	s1, -4(t4)
	andi	a2, a2, 15
	andi	a1, a1, -8
	andi	a5, a5, 15
	andi	a4, a4, -8
	sb	a2, 4(a3)
	sb	zero, 5(a3)
	sb	zero, 6(a3)
	sb	zero, 7(a3)
	srli	a6, a1, 24
	srli	a7, a1, 16
	srli	s0, a1, 8
	sb	a5, 12(a3)
	sb	zero, 13(a3)
	sb	zero, 14(a3)
	sb	zero, 15(a3)
	srli	a5, a4, 24
	srli	a2, a4, 16
	srli	s1, a4, 8
	sb	a1, 0(a3)
	sb	s0, 1(a3)
	sb	a7, 2(a3)
	sb	a6, 3(a3)
	sb	a4, 8(a3)
	sb	s1, 9(a3)
	sb	a2, 10(a3)
	sb	a5, 11(a3)
.LBB94_22:
	lw	s0, 28(sp)
	lw	s1, 24(sp)
	lw	s2, 20(sp)
	lw	s3, 16(sp)
	lw	s4, 12(sp)
	lw	s5, 8(sp)
	.cfi_restore s0
	.cfi_restore s1
	.cfi_restore s2
	.cfi_restore s3
	.cfi_restore s4
	.cfi_restore s5
	addi	sp, sp, 32
	.cfi_def_cfa_offset 0
	ret
.LBB94_23:
	.cfi_restore_state
	li	a4, 1
	mv	a5, a7
	lw	s0, 28(sp)
	lw	s1, 24(sp)
	lw	s2, 20(sp)
	lw	s3, 16(sp)
	lw	s4, 12(sp)
	lw	s5, 8(sp)
	.cfi_restore s0
	.cfi_restore s1
	.cfi_restore s2
	.cfi_restore s3
	.cfi_restore s4
	.cfi_restore s5
	addi	sp, sp, 32
	.cfi_def_cfa_offset 0
	tail	ic_raw.move_calls.move_slow.55ebd757a04f39fd
.Lfunc_end94:
	.size	ic_list32_move_before, .Lfunc_end94-ic_list32_move_before
	.cfi_endproc
	.section	.text.ic_list32_move_to_back,"ax",@progbits
	.globl	ic_list32_move_to_back
	.p2align	1
	.type	ic_list32_move_to_back,@function
ic_list32_move_to_back:
	.cfi_startproc
	addi	sp, sp, -32
	.cfi_def_cfa_offset 32
	sw	s0, 28(sp)
	sw	s1, 24(sp)
	sw	s2, 20(sp)
	sw	s3, 16(sp)
	sw	s4, 12(sp)
	.cfi_offset s0, -4
	.cfi_offset s1, -8
	.cfi_offset s2, -12
	.cfi_offset s3, -16
	.cfi_offset s4, -20
	.cfi_remember_state
	addi	s0, a4, 1
	bnez	s0, .LBB95_2
	li	a0, 4
	j	.LBB95_25
.LBB95_2:
	mv	a5, a4
	seqz	s1, a0
	seqz	t4, a2
	lui	a6, 131072
	addi	a4, t4, -1
	or	s3, a4, a1
	addi	a4, a6, -1
	slli	s1, s1, 12
	bltu	s3, a4, .LBB95_4
	mv	s3, a4
.LBB95_4:
	add	a0, a0, s1
	bltu	s3, s0, .LBB95_26
	lw	a4, 12(a3)
	slli	a7, s0, 3
	add	t3, a0, a7
	lw	s4, -8(t3)
	lw	s1, 8(a3)
	srli	a6, s0, 29
	andi	s2, a4, 15
	andi	a4, s4, 1
	andi	t0, s1, -8
	beqz	a4, .LBB95_19
	lw	s0, -4(t3)
	andi	t1, s0, -8
	beqz	t1, .LBB95_19
	andi	t5, s4, -8
	beqz	t5, .LBB95_19
	srli	s0, s0, 3
	sltu	a4, a1, s0
	and	a4, t4, a4
	bnez	a4, .LBB95_19
	add	t6, a0, t1
	lw	a4, -8(t6)
	addi	t2, a7, 1
	xor	a4, t2, a4
	or	a4, a4, a6
	bnez	a4, .LBB95_26
	srli	a4, s4, 3
	sltu	a4, a1, a4
	and	a4, t4, a4
	bnez	a4, .LBB95_26
	add	t4, a0, t5
	lw	a4, -4(t4)
	xor	a4, a7, a4
	or	a4, a4, a6
	bnez	a4, .LBB95_26
	lw	a4, -8(t4)
	andi	a4, a4, 1
	beqz	a4, .LBB95_26
	or	a4, t0, s2
	beqz	a4, .LBB95_26
	srli	s0, s2, 3
	bnez	s0, .LBB95_16
	srli	a4, t0, 3
	slli	s2, s2, 29
	or	a4, a4, s2
	sltu	s0, s3, a4
.LBB95_16:
	bnez	s0, .LBB95_26
	add	a4, a0, t0
	lw	s1, -8(a4)
	li	s2, 1
	bne	s1, s2, .LBB95_26
	li	a0, 0
	lw	a1, 0(a3)
	lw	a2, 4(a3)
	addi	t5, t5, 1
	sw	t5, -8(t6)
	srli	t5, a7, 24
	sw	t1, -4(t4)
	srli	s1, a7, 16
	srli	s0, a7, 8
	sw	t2, -8(a4)
	sw	s2, -8(t3)
	sw	t0, -4(t3)
	sb	a6, 12(a3)
	sb	zero, 13(a3)
	sb	zero, 14(a3)
	sb	zero, 15(a3)
	andi	a2, a2, 15
	andi	a1, a1, -8
	sb	a2, 4(a3)
	sb	zero, 5(a3)
	sb	zero, 6(a3)
	sb	zero, 7(a3)
	srli	a2, a1, 24
	srli	a4, a1, 16
	srli	a5, a1, 8
	sb	a1, 0(a3)
	sb	a5, 1(a3)
	sb	a4, 2(a3)
	sb	a2, 3(a3)
	sb	a7, 8(a3)
	sb	s0, 9(a3)
	sb	s1, 10(a3)
	sb	t5, 11(a3)
	j	.LBB95_25
.LBB95_19:
	xor	a4, t0, a7
	xor	s1, s2, a6
	or	a4, a4, s1
	bnez	a4, .LBB95_26
	li	a4, 1
	bne	s4, a4, .LBB95_26
	lw	a4, -4(t3)
	andi	s1, a4, -8
	beqz	s1, .LBB95_26
	srli	a4, a4, 3
	sltu	a4, a1, a4
	and	a4, t4, a4
	bnez	a4, .LBB95_26
	add	s1, s1, a0
	lw	a4, -8(s1)
	addi	a7, a7, 1
	xor	a4, a7, a4
	or	a4, a4, a6
	bnez	a4, .LBB95_26
	li	a0, 0
.LBB95_25:
	lw	s0, 28(sp)
	lw	s1, 24(sp)
	lw	s2, 20(sp)
	lw	s3, 16(sp)
	lw	s4, 12(sp)
	.cfi_restore s0
	.cfi_restore s1
	.cfi_restore s2
	.cfi_restore s3
	.cfi_restore s4
	addi	sp, sp, 32
	.cfi_def_cfa_offset 0
	ret
.LBB95_26:
	.cfi_restore_state
	li	a4, 1
	lw	s0, 28(sp)
	lw	s1, 24(sp)
	lw	s2, 20(sp)
	lw	s3, 16(sp)
	lw	s4, 12(sp)
	.cfi_restore s0
	.cfi_restore s1
	.cfi_restore s2
	.cfi_restore s3
	.cfi_restore s4
	addi	sp, sp, 32
	.cfi_def_cfa_offset 0
	tail	ic_raw.move_calls.move_to_end_slow.55ebd757a04f39fd
.Lfunc_end95:
	.size	ic_list32_move_to_back, .Lfunc_end95-ic_list32_move_to_back
	.cfi_endproc
	.section	.text.ic_list32_move_to_front,"ax",@progbits
	.globl	ic_list32_move_to_front
	.p2align	1
	.type	ic_list32_move_to_front,@function
ic_list32_move_to_front:
	.cfi_startproc
	addi	sp, sp, -32
	.cfi_def_cfa_offset 32
	sw	s0, 28(sp)
	sw	s1, 24(sp)
	sw	s2, 20(sp)
	sw	s3, 16(sp)
	sw	s4, 12(sp)
	.cfi_offset s0, -4
	.cfi_offset s1, -8
	.cfi_offset s2, -12
	.cfi_offset s3, -16
	.cfi_offset s4, -20
	.cfi_remember_state
	addi	s1, a4, 1
	bnez	s1, .LBB96_2
	li	a0, 4
	j	.LBB96_28
.LBB96_2:
	mv	a5, a4
	seqz	a4, a0
	seqz	t4, a2
	lui	a6, 131072
	addi	s0, t4, -1
	or	t5, s0, a1
	addi	s0, a6, -1
	slli	a4, a4, 12
	bltu	t5, s0, .LBB96_4
	mv	t5, s0
.LBB96_4:
	add	a0, a0, a4
	bltu	t5, s1, .LBB96_29
	lw	s0, 0(a3)
	lw	a4, 4(a3)
	slli	a7, s1, 3
	add	t1, a0, a7
	lw	s4, -8(t1)
	srli	a6, s1, 29
	andi	s3, a4, 15
	andi	t2, s0, -8
	andi	s0, s4, 1
	andi	t0, s4, -8
	beqz	s0, .LBB96_20
	lw	s1, -4(t1)
	andi	t3, s1, -8
	beqz	t3, .LBB96_20
	beqz	t0, .LBB96_20
	srli	s1, s1, 3
	sltu	a4, a1, s1
	and	a4, t4, a4
	bnez	a4, .LBB96_20
	add	t6, a0, t3
	lw	a4, -8(t6)
	addi	s1, a7, 1
	xor	a4, a4, s1
	or	a4, a4, a6
	bnez	a4, .LBB96_20
	srli	a4, s4, 3
	sltu	a4, a1, a4
	and	a4, t4, a4
	bnez	a4, .LBB96_20
	add	s2, a0, t0
	lw	a4, -4(s2)
	xor	a4, a7, a4
	or	a4, a4, a6
	bnez	a4, .LBB96_20
	lw	a4, -8(s2)
	andi	a4, a4, 1
	beqz	a4, .LBB96_20
	or	a4, t2, s3
	beqz	a4, .LBB96_29
	srli	a4, s3, 3
	bnez	a4, .LBB96_16
	srli	a4, t2, 3
	slli	s3, s3, 29
	or	a4, a4, s3
	sltu	a4, t5, a4
.LBB96_16:
	bnez	a4, .LBB96_29
	add	a4, a0, t2
	lw	s1, -4(a4)
	bnez	s1, .LBB96_29
	lw	s1, -8(a4)
	andi	s1, s1, 1
	beqz	s1, .LBB96_29
	li	a0, 0
	lw	a1, 8(a3)
	lw	a2, 12(a3)
	addi	t0, t0, 1
	sw	t0, -8(t6)
	addi	t2, t2, 1
	srli	a5, a7, 24
	sw	t3, -4(s2)
	srli	s1, a7, 16
	srli	s0, a7, 8
	sw	a7, -4(a4)
	sw	t2, -8(t1)
	sw	zero, -4(t1)
	sb	a6, 4(a3)
	sb	zero, 5(a3)
	sb	zero, 6(a3)
	sb	zero, 7(a3)
	sb	a7, 0(a3)
	sb	s0, 1(a3)
	sb	s1, 2(a3)
	sb	a5, 3(a3)
	andi	a2, a2, 15
	andi	a1, a1, -8
	sb	a2, 12(a3)
	sb	zero, 13(a3)
	sb	zero, 14(a3)
	sb	zero, 15(a3)
	srli	a2, a1, 24
	srli	a4, a1, 16
	srli	a5, a1, 8
	sb	a1, 8(a3)
	sb	a5, 9(a3)
	sb	a4, 10(a3)
	sb	a2, 11(a3)
	j	.LBB96_28
.LBB96_20:
	xor	a4, t2, a7
	xor	s1, s3, a6
	or	a4, a4, s1
	bnez	a4, .LBB96_29
	lw	a4, -4(t1)
	bnez	a4, .LBB96_29
	beqz	s0, .LBB96_29
	beqz	t0, .LBB96_29
	srli	a4, s4, 3
	sltu	a4, a1, a4
	and	a4, t4, a4
	bnez	a4, .LBB96_29
	add	t0, t0, a0
	lw	a4, -4(t0)
	xor	a4, a7, a4
	or	a4, a4, a6
	bnez	a4, .LBB96_29
	lw	a4, -8(t0)
	andi	a4, a4, 1
	beqz	a4, .LBB96_29
	li	a0, 0
.LBB96_28:
	lw	s0, 28(sp)
	lw	s1, 24(sp)
	lw	s2, 20(sp)
	lw	s3, 16(sp)
	lw	s4, 12(sp)
	.cfi_restore s0
	.cfi_restore s1
	.cfi_restore s2
	.cfi_restore s3
	.cfi_restore s4
	addi	sp, sp, 32
	.cfi_def_cfa_offset 0
	ret
.LBB96_29:
	.cfi_restore_state
	li	a4, 0
	lw	s0, 28(sp)
	lw	s1, 24(sp)
	lw	s2, 20(sp)
	lw	s3, 16(sp)
	lw	s4, 12(sp)
	.cfi_restore s0
	.cfi_restore s1
	.cfi_restore s2
	.cfi_restore s3
	.cfi_restore s4
	addi	sp, sp, 32
	.cfi_def_cfa_offset 0
	tail	ic_raw.move_calls.move_to_end_slow.55ebd757a04f39fd
.Lfunc_end96:
	.size	ic_list32_move_to_front, .Lfunc_end96-ic_list32_move_to_front
	.cfi_endproc
	.section	.text.ic_list32_pop_back,"ax",@progbits
	.globl	ic_list32_pop_back
	.p2align	1
	.type	ic_list32_pop_back,@function
ic_list32_pop_back:
	.cfi_startproc
	lw	a6, 12(a3)
	lw	a7, 8(a3)
	andi	t0, a6, 15
	andi	t4, a7, -8
	or	a5, t4, t0
	beqz	a5, .LBB97_14
	seqz	a2, a2
	addi	a2, a2, -1
	or	a2, a2, a1
	lui	a1, 131072
	addi	a1, a1, -1
	bgeu	a2, a1, .LBB97_4
	srli	a1, t0, 3
	beqz	a1, .LBB97_5
.LBB97_3:
	beqz	a1, .LBB97_6
	j	.LBB97_14
.LBB97_4:
	mv	a2, a1
	srli	a1, t0, 3
	bnez	a1, .LBB97_3
.LBB97_5:
	srli	a1, t4, 3
	slli	a5, t0, 29
	or	a1, a1, a5
	sltu	a1, a2, a1
	bnez	a1, .LBB97_14
.LBB97_6:
	seqz	a1, a0
	slli	a1, a1, 12
	add	t3, a0, a1
	add	t2, t3, t4
	lw	a0, -8(t2)
	andi	a0, a0, -7
	li	a1, 1
	bne	a0, a1, .LBB97_14
	lw	a0, 4(a3)
	lw	a1, -4(t2)
	lw	a5, 0(a3)
	andi	t1, a0, 15
	andi	a0, a1, -8
	andi	a1, a5, -8
	beqz	a0, .LBB97_11
	srli	a5, a0, 3
	bltu	a2, a5, .LBB97_14
	add	t3, t3, a0
	lw	a2, -8(t3)
	andi	a2, a2, -7
	addi	t4, t4, 1
	xor	a2, t4, a2
	or	a2, a2, t0
	bnez	a2, .LBB97_14
	li	a2, 1
	srli	a5, a7, 3
	slli	a6, a6, 29
	sw	a2, -8(t3)
	or	a6, a5, a6
	j	.LBB97_13
.LBB97_11:
	xor	a1, a1, t4
	xor	a2, t1, t0
	or	a1, a1, a2
	bnez	a1, .LBB97_14
	li	t1, 0
	srli	a2, a7, 3
	slli	a5, a6, 29
	or	a6, a2, a5
.LBB97_13:
	sw	zero, -8(t2)
	sb	t1, 4(a3)
	sb	zero, 5(a3)
	sb	zero, 6(a3)
	sb	zero, 7(a3)
	srli	a7, a1, 24
	srli	t0, a1, 16
	srli	a2, a1, 8
	sb	zero, 12(a3)
	sb	zero, 13(a3)
	sb	zero, 14(a3)
	sb	zero, 15(a3)
	srli	t1, a0, 24
	srli	a5, a0, 16
	sb	a1, 0(a3)
	sb	a2, 1(a3)
	sb	t0, 2(a3)
	sb	a7, 3(a3)
	srli	a1, a0, 8
	addi	a6, a6, -1
	sb	a0, 8(a3)
	sb	a1, 9(a3)
	sb	a5, 10(a3)
	sb	t1, 11(a3)
	sw	a6, 0(a4)
	li	a0, 0
	ret
.LBB97_14:
	li	a1, 1
	mv	a0, a3
	tail	ic_raw.list_calls.refusal_to_pop
.Lfunc_end97:
	.size	ic_list32_pop_back, .Lfunc_end97-ic_list32_pop_back
	.cfi_endproc
	.section	.text.ic_list32_pop_front,"ax",@progbits
	.globl	ic_list32_pop_front
	.p2align	1
	.type	ic_list32_pop_front,@function
ic_list32_pop_front:
	.cfi_startproc
	lw	a6, 4(a3)
	lw	a7, 0(a3)
	seqz	a5, a0
	slli	t2, a5, 12
	andi	t0, a6, 15
	andi	t1, a7, -8
	or	a5, t1, t0
	add	a0, a0, t2
	beqz	a5, .LBB98_13
	seqz	a5, a2
	lui	t2, 131072
	addi	a5, a5, -1
	or	t3, a5, a1
	addi	t2, t2, -1
	srli	a5, t0, 3
	bgeu	t3, t2, .LBB98_4
	beqz	a5, .LBB98_5
.LBB98_3:
	beqz	a5, .LBB98_6
	j	.LBB98_13
.LBB98_4:
	mv	t3, t2
	bnez	a5, .LBB98_3
.LBB98_5:
	srli	t2, t1, 3
	slli	a5, t0, 29
	or	a5, t2, a5
	sltu	a5, t3, a5
	bnez	a5, .LBB98_13
.LBB98_6:
	add	t2, a0, t1
	lw	a5, -4(t2)
	bnez	a5, .LBB98_13
	lw	t5, -8(t2)
	andi	a5, t5, 1
	beqz	a5, .LBB98_13
	andi	t4, t5, -8
	beqz	t4, .LBB98_13
	srli	a5, t5, 3
	bltu	t3, a5, .LBB98_13
	add	t3, a0, t4
	lw	a5, -4(t3)
	xor	a5, t1, a5
	or	a5, a5, t0
	bnez	a5, .LBB98_13
	lw	a5, -8(t3)
	andi	a5, a5, 1
	beqz	a5, .LBB98_13
	sw	zero, -4(t3)
	sw	zero, -8(t2)
	sw	t4, 0(a3)
	sw	zero, 4(a3)
	srli	a0, a7, 3
	slli	a6, a6, 29
	or	a0, a0, a6
	addi	a0, a0, -1
	sw	a0, 0(a4)
	li	a0, 0
	ret
.LBB98_13:
	tail	ic_raw.list_calls.pop_front_slow.55ebd757a04f39fd
.Lfunc_end98:
	.size	ic_list32_pop_front, .Lfunc_end98-ic_list32_pop_front
	.cfi_endproc
	.section	.text.ic_list32_push_back,"ax",@progbits
	.globl	ic_list32_push_back
	.p2align	1
	.type	ic_list32_push_back,@function
ic_list32_push_back:
	.cfi_startproc
	lw	a7, 12(a3)
	lw	a6, 8(a3)
	seqz	a5, a0
	slli	t1, a5, 12
	andi	t0, a7, 15
	andi	a6, a6, -8
	or	a5, a6, t0
	add	a0, a0, t1
	beqz	a5, .LBB99_11
	seqz	a5, a2
	lui	t1, 131072
	addi	a5, a5, -1
	or	a7, a5, a1
	addi	t1, t1, -1
	srli	a5, t0, 3
	bgeu	a7, t1, .LBB99_4
	beqz	a5, .LBB99_5
.LBB99_3:
	beqz	a5, .LBB99_6
	j	.LBB99_11
.LBB99_4:
	mv	a7, t1
	bnez	a5, .LBB99_3
.LBB99_5:
	srli	a5, a6, 3
	slli	t0, t0, 29
	or	a5, a5, t0
	sltu	a5, a7, a5
	bnez	a5, .LBB99_11
.LBB99_6:
	addi	t2, a4, 1
	beqz	t2, .LBB99_11
	add	t0, a0, a6
	lw	t1, -8(t0)
	li	a5, 1
	bne	t1, a5, .LBB99_11
	bltu	a7, t2, .LBB99_11
	slli	a7, t2, 3
	add	t1, a0, a7
	lbu	a5, -8(t1)
	andi	a5, a5, 1
	bnez	a5, .LBB99_11
	srli	a0, t2, 29
	addi	a1, a7, 1
	sw	a1, -8(t0)
	li	a1, 1
	sw	a1, -8(t1)
	sw	a6, -4(t1)
	sw	a7, 8(a3)
	sw	a0, 12(a3)
	li	a0, 0
	ret
.LBB99_11:
	tail	ic_raw.list_calls.push_back_slow.55ebd757a04f39fd
.Lfunc_end99:
	.size	ic_list32_push_back, .Lfunc_end99-ic_list32_push_back
	.cfi_endproc
	.section	.text.ic_list32_push_front,"ax",@progbits
	.globl	ic_list32_push_front
	.p2align	1
	.type	ic_list32_push_front,@function
ic_list32_push_front:
	.cfi_startproc
	seqz	a7, a0
	lw	a6, 0(a3)
	lw	a5, 4(a3)
	lw	t0, 8(a3)
	lw	t1, 12(a3)
	slli	a7, a7, 12
	add	a0, a0, a7
	andi	t5, a5, 15
	andi	a7, a6, -8
	andi	a6, t1, 15
	andi	t2, t0, -8
	or	t1, a7, t5
	seqz	t3, a2
	add	t0, a0, a7
	mv	a5, t2
	mv	t4, a6
	beqz	t1, .LBB100_8
	addi	t4, t3, -1
	lui	a5, 131072
	or	t4, t4, a1
	addi	a5, a5, -1
	bgeu	t4, a5, .LBB100_4
	srli	a5, t5, 3
	beqz	a5, .LBB100_5
.LBB100_3:
	beqz	a5, .LBB100_6
	j	.LBB100_18
.LBB100_4:
	mv	t4, a5
	srli	a5, t5, 3
	bnez	a5, .LBB100_3
.LBB100_5:
	srli	a5, a7, 3
	slli	t5, t5, 29
	or	a5, a5, t5
	sltu	a5, t4, a5
	bnez	a5, .LBB100_18
.LBB100_6:
	lbu	a5, -8(t0)
	andi	a5, a5, 1
	beqz	a5, .LBB100_18
	li	t4, 0
	lw	a5, -4(t0)
	andi	a5, a5, -8
.LBB100_8:
	or	a5, a5, t4
	bnez	a5, .LBB100_18
	addi	t3, t3, -1
	lui	t4, 131072
	or	t3, t3, a1
	addi	t4, t4, -1
	addi	t5, a4, 1
	bltu	t3, t4, .LBB100_11
	mv	t3, t4
.LBB100_11:
	beqz	t5, .LBB100_18
	bltu	t3, t5, .LBB100_18
	slli	t4, t5, 3
	add	t3, a0, t4
	lbu	a5, -8(t3)
	andi	a5, a5, 1
	bnez	a5, .LBB100_18
	seqz	a1, t1
	srli	a0, t5, 29
	bnez	a1, .LBB100_16
	sw	t4, -4(t0)
	ori	a1, a7, 1
	j	.LBB100_17
.LBB100_16:
	li	a1, 1
	mv	t2, t4
	mv	a6, a0
.LBB100_17:
	sw	a1, -8(t3)
	sw	zero, -4(t3)
	sb	a0, 4(a3)
	sb	zero, 5(a3)
	sb	zero, 6(a3)
	sb	zero, 7(a3)
	srli	a7, t4, 24
	srli	a1, t4, 16
	srli	a2, t4, 8
	sb	a6, 12(a3)
	sb	zero, 13(a3)
	sb	zero, 14(a3)
	sb	zero, 15(a3)
	srli	a4, t2, 24
	srli	a5, t2, 16
	srli	a0, t2, 8
	sb	t4, 0(a3)
	sb	a2, 1(a3)
	sb	a1, 2(a3)
	sb	a7, 3(a3)
	sb	t2, 8(a3)
	sb	a0, 9(a3)
	sb	a5, 10(a3)
	sb	a4, 11(a3)
	li	a0, 0
	ret
.LBB100_18:
	li	a3, -1
	tail	ic_raw.table.RawTable.refusal.05a19227735374d3
.Lfunc_end100:
	.size	ic_list32_push_front, .Lfunc_end100-ic_list32_push_front
	.cfi_endproc
	.section	.text.ic_list32_remove,"ax",@progbits
	.globl	ic_list32_remove
	.p2align	1
	.type	ic_list32_remove,@function
ic_list32_remove:
	.cfi_startproc
	addi	a7, a4, 1
	bnez	a7, .LBB101_2
	li	a0, 4
	ret
.LBB101_2:
	seqz	a6, a0
	seqz	t1, a2
	lui	t0, 131072
	addi	a5, t1, -1
	or	a5, a5, a1
	addi	t0, t0, -1
	slli	a6, a6, 12
	bltu	a5, t0, .LBB101_4
	mv	a5, t0
.LBB101_4:
	add	a0, a0, a6
	bltu	a5, a7, .LBB101_14
	slli	t3, a7, 3
	add	a6, a0, t3
	lw	t5, -8(a6)
	andi	a5, t5, 1
	beqz	a5, .LBB101_14
	lw	a5, -4(a6)
	andi	t0, a5, -8
	beqz	t0, .LBB101_14
	andi	t2, t5, -8
	beqz	t2, .LBB101_14
	srli	a5, a5, 3
	sltu	a5, a1, a5
	and	a5, t1, a5
	bnez	a5, .LBB101_14
	add	t4, a0, t0
	lw	t6, -8(t4)
	srli	a7, a7, 29
	addi	a5, t3, 1
	xor	a5, a5, t6
	or	a5, a5, a7
	bnez	a5, .LBB101_14
	srli	a5, t5, 3
	sltu	a5, a1, a5
	and	a5, t1, a5
	bnez	a5, .LBB101_14
	add	t1, a0, t2
	lw	a5, -4(t1)
	xor	a5, t3, a5
	or	a5, a5, a7
	bnez	a5, .LBB101_14
	lw	a5, -8(t1)
	andi	a5, a5, 1
	beqz	a5, .LBB101_14
	li	a0, 0
	addi	t2, t2, 1
	sw	t2, -8(t4)
	sw	t0, -4(t1)
	sw	zero, -8(a6)
	ret
.LBB101_14:
	tail	ic_raw.list_calls.remove_slow.55ebd757a04f39fd
.Lfunc_end101:
	.size	ic_list32_remove, .Lfunc_end101-ic_list32_remove
	.cfi_endproc
	.section	.text.ic_list32_replace,"ax",@progbits
	.globl	ic_list32_replace
	.p2align	1
	.type	ic_list32_replace,@function
ic_list32_replace:
	.cfi_startproc
	addi	sp, sp, -32
	.cfi_def_cfa_offset 32
	sw	s0, 28(sp)
	sw	s1, 24(sp)
	sw	s2, 20(sp)
	sw	s3, 16(sp)
	sw	s4, 12(sp)
	sw	s5, 8(sp)
	sw	s6, 4(sp)
	sw	s7, 0(sp)
	.cfi_offset s0, -4
	.cfi_offset s1, -8
	.cfi_offset s2, -12
	.cfi_offset s3, -16
	.cfi_offset s4, -20
	.cfi_offset s5, -24
	.cfi_offset s6, -28
	.cfi_offset s7, -32
	.cfi_remember_state
	addi	a7, a4, 1
	bnez	a7, .LBB102_2
	li	a0, 4
	j	.LBB102_25
.LBB102_2:
	seqz	s1, a0
	seqz	s4, a2
	lui	a6, 131072
	addi	s0, s4, -1
	or	t2, s0, a1
	addi	s0, a6, -1
	slli	s1, s1, 12
	bltu	t2, s0, .LBB102_4
	mv	t2, s0
.LBB102_4:
	add	a0, a0, s1
	bltu	t2, a7, .LBB102_22
	slli	s5, a7, 3
	add	a6, a0, s5
	lw	s7, -8(a6)
	andi	s1, s7, 1
	beqz	s1, .LBB102_22
	lw	t4, 0(a3)
	lw	s0, 4(a3)
	lw	t0, 8(a3)
	lw	t1, 12(a3)
	lw	s1, -4(a6)
	srli	s3, a7, 29
	andi	t3, s0, 15
	andi	t4, t4, -8
	andi	a7, s1, -8
	add	t5, a0, a7
	beqz	a7, .LBB102_9
	srli	s1, s1, 3
	sltu	s1, a1, s1
	and	s1, s4, s1
	bnez	s1, .LBB102_22
	lw	s1, -8(t5)
	andi	s1, s1, -7
	addi	s0, s5, 1
	xor	s0, s0, s1
	or	s1, s0, s3
	beqz	s1, .LBB102_10
	j	.LBB102_22
.LBB102_9:
	xor	s1, t4, s5
	xor	s0, t3, s3
	or	s0, s0, s1
	bnez	s0, .LBB102_22
.LBB102_10:
	andi	t1, t1, 15
	andi	t0, t0, -8
	andi	t6, s7, -8
	add	s2, a0, t6
	mv	s0, t0
	mv	s6, t1
	beqz	t6, .LBB102_14
	srli	s0, s7, 3
	sltu	s0, a1, s0
	and	s0, s4, s0
	bnez	s0, .LBB102_22
	lbu	s0, -8(s2)
	andi	s0, s0, 1
	beqz	s0, .LBB102_22
	li	s6, 0
	lw	s0, -4(s2)
	andi	s0, s0, -8
.LBB102_14:
	addi	s1, a5, 1
	beqz	s1, .LBB102_22
	xor	s4, s0, s5
	xor	s0, s6, s3
	or	s0, s4, s0
	bnez	s0, .LBB102_22
	bltu	t2, s1, .LBB102_22
	slli	s3, s1, 3
	add	t2, a0, s3
	lbu	s0, -8(t2)
	andi	s0, s0, 1
	bnez	s0, .LBB102_22
	srli	s1, s1, 29
	mv	a1, s3
	mv	s4, s1
	beqz	a7, .LBB102_20
	addi	a0, s3, 1
	sw	a0, -8(t5)
	mv	a1, t4
	mv	s4, t3
.LBB102_20:
	beqz	t6, .LBB102_23
	sw	s3, -4(s2)
	j	.LBB102_24
.LBB102_22:
	mv	a3, a4
	mv	a4, a5
	lw	s0, 28(sp)
	lw	s1, 24(sp)
	lw	s2, 20(sp)
	lw	s3, 16(sp)
	lw	s4, 12(sp)
	lw	s5, 8(sp)
	lw	s6, 4(sp)
	lw	s7, 0(sp)
	.cfi_restore s0
	.cfi_restore s1
	.cfi_restore s2
	.cfi_restore s3
	.cfi_restore s4
	.cfi_restore s5
	.cfi_restore s6
	.cfi_restore s7
	addi	sp, sp, 32
	.cfi_def_cfa_offset 0
	tail	ic_raw.table.RawTable.refusal.05a19227735374d3
.LBB102_23:
	.cfi_restore_state
	mv	t0, s3
	mv	t1, s1
.LBB102_24:
	li	a0, 0
	addi	t6, t6, 1
	srli	t3, a1, 24
	srli	a5, a1, 16
	srli	s1, a1, 8
	sw	t6, -8(t2)
	sw	a7, -4(t2)
	srli	s0, t0, 24
	srli	a2, t0, 16
	sw	zero, -8(a6)
	srli	a4, t0, 8
	sb	s4, 4(a3)
	sb	zero, 5(a3)
	sb	zero, 6(a3)
	sb	zero, 7(a3)
	sb	a1, 0(a3)
	sb	s1, 1(a3)
	sb	a5, 2(a3)
	sb	t3, 3(a3)
	sb	t1, 12(a3)
	sb	zero, 13(a3)
	sb	zero, 14(a3)
	sb	zero, 15(a3)
	sb	t0, 8(a3)
	sb	a4, 9(a3)
	sb	a2, 10(a3)
	sb	s0, 11(a3)
.LBB102_25:
	lw	s0, 28(sp)
	lw	s1, 24(sp)
	lw	s2, 20(sp)
	lw	s3, 16(sp)
	lw	s4, 12(sp)
	lw	s5, 8(sp)
	lw	s6, 4(sp)
	lw	s7, 0(sp)
	.cfi_restore s0
	.cfi_restore s1
	.cfi_restore s2
	.cfi_restore s3
	.cfi_restore s4
	.cfi_restore s5
	.cfi_restore s6
	.cfi_restore s7
	addi	sp, sp, 32
	.cfi_def_cfa_offset 0
	ret
.Lfunc_end102:
	.size	ic_list32_replace, .Lfunc_end102-ic_list32_replace
	.cfi_endproc
	.section	.text.ic_list32_splice_after,"ax",@progbits
	.globl	ic_list32_splice_after
	.p2align	1
	.type	ic_list32_splice_after,@function
ic_list32_splice_after:
	.cfi_startproc
	addi	sp, sp, -16
	.cfi_def_cfa_offset 16
	sw	ra, 12(sp)
	sw	s0, 8(sp)
	.cfi_offset ra, -4
	.cfi_offset s0, -8
	.cfi_remember_state
	seqz	s0, a0
	slli	s0, s0, 12
	li	a6, -1
	add	a0, a0, s0
	bne	a4, a6, .LBB103_22
	lw	s0, 4(a3)
	lw	a6, 0(a3)
	andi	a7, s0, 15
	andi	a6, a6, -8
	or	s0, a6, a7
	beqz	s0, .LBB103_22
	seqz	s0, a2
	lui	t0, 131072
	addi	s0, s0, -1
	or	t3, s0, a1
	addi	s0, t0, -1
	srli	t0, a7, 3
	bgeu	t3, s0, .LBB103_5
	beqz	t0, .LBB103_6
.LBB103_4:
	beqz	t0, .LBB103_7
	j	.LBB103_22
.LBB103_5:
	mv	t3, s0
	bnez	t0, .LBB103_4
.LBB103_6:
	srli	t0, a6, 3
	slli	s0, a7, 29
	or	s0, t0, s0
	sltu	t0, t3, s0
	bnez	t0, .LBB103_22
.LBB103_7:
	add	t2, a0, a6
	lw	s0, -4(t2)
	bnez	s0, .LBB103_22
	lw	s0, 4(a5)
	lw	t0, 0(a5)
	andi	t1, s0, 15
	andi	t0, t0, -8
	or	s0, t0, t1
	beqz	s0, .LBB103_22
	lw	s0, -8(t2)
	andi	s0, s0, 1
	beqz	s0, .LBB103_22
	srli	t4, t1, 3
	bnez	t4, .LBB103_12
	srli	t4, t0, 3
	slli	s0, t1, 29
	or	s0, t4, s0
	sltu	t4, t3, s0
.LBB103_12:
	bnez	t4, .LBB103_22
	add	t4, a0, t0
	lw	s0, -4(t4)
	bnez	s0, .LBB103_22
	lw	s0, 12(a5)
	lw	t5, 8(a5)
	andi	t6, s0, 15
	andi	t5, t5, -8
	or	s0, t5, t6
	beqz	s0, .LBB103_22
	lw	s0, -8(t4)
	andi	s0, s0, 1
	beqz	s0, .LBB103_22
	srli	s0, t6, 3
	bnez	s0, .LBB103_18
	srli	s0, t5, 3
	slli	t6, t6, 29
	or	s0, s0, t6
	sltu	s0, t3, s0
.LBB103_18:
	bnez	s0, .LBB103_22
	xor	t3, a6, t0
	xor	s0, a7, t1
	or	s0, t3, s0
	beqz	s0, .LBB103_22
	add	a7, a0, t5
	lw	t3, -8(a7)
	li	s0, 1
	bne	t3, s0, .LBB103_22
	lw	a0, 8(a3)
	lw	a1, 12(a3)
	sw	t5, -4(t2)
	sw	zero, -4(t4)
	addi	a6, a6, 1
	srli	a2, t0, 24
	srli	a4, t0, 16
	srli	s0, t0, 8
	sw	a6, -8(a7)
	sb	t1, 4(a3)
	sb	zero, 5(a3)
	sb	zero, 6(a3)
	sb	zero, 7(a3)
	sb	t0, 0(a3)
	sb	s0, 1(a3)
	sb	a4, 2(a3)
	sb	a2, 3(a3)
	andi	a1, a1, 15
	andi	a0, a0, -8
	sb	a1, 12(a3)
	sb	zero, 13(a3)
	sb	zero, 14(a3)
	sb	zero, 15(a3)
	srli	a1, a0, 24
	srli	a2, a0, 16
	srli	a4, a0, 8
	sb	a0, 8(a3)
	sb	a4, 9(a3)
	sb	a2, 10(a3)
	sb	a1, 11(a3)
	li	a2, 16
	mv	a0, a5
	li	a1, 0
	li	a3, 0
	li	a4, 0
	call	ic.clear
	li	a0, 0
	lw	ra, 12(sp)
	lw	s0, 8(sp)
	.cfi_restore ra
	.cfi_restore s0
	addi	sp, sp, 16
	.cfi_def_cfa_offset 0
	ret
.LBB103_22:
	.cfi_restore_state
	li	a6, 0
	lw	ra, 12(sp)
	lw	s0, 8(sp)
	.cfi_restore ra
	.cfi_restore s0
	addi	sp, sp, 16
	.cfi_def_cfa_offset 0
	tail	ic_raw.list_calls.splice_slow.55ebd757a04f39fd
.Lfunc_end103:
	.size	ic_list32_splice_after, .Lfunc_end103-ic_list32_splice_after
	.cfi_endproc
	.section	.text.ic_list32_splice_before,"ax",@progbits
	.globl	ic_list32_splice_before
	.p2align	1
	.type	ic_list32_splice_before,@function
ic_list32_splice_before:
	.cfi_startproc
	addi	sp, sp, -16
	.cfi_def_cfa_offset 16
	sw	ra, 12(sp)
	sw	s0, 8(sp)
	sw	s1, 4(sp)
	.cfi_offset ra, -4
	.cfi_offset s0, -8
	.cfi_offset s1, -12
	.cfi_remember_state
	seqz	s0, a0
	slli	s0, s0, 12
	li	a6, -1
	add	a0, a0, s0
	bne	a4, a6, .LBB104_21
	lw	s0, 12(a3)
	lw	a6, 8(a3)
	andi	a7, s0, 15
	andi	a6, a6, -8
	or	s0, a6, a7
	beqz	s0, .LBB104_21
	seqz	s0, a2
	lui	t0, 131072
	addi	s0, s0, -1
	or	t2, s0, a1
	addi	t0, t0, -1
	srli	s0, a7, 3
	bgeu	t2, t0, .LBB104_5
	beqz	s0, .LBB104_6
.LBB104_4:
	beqz	s0, .LBB104_7
	j	.LBB104_21
.LBB104_5:
	mv	t2, t0
	bnez	s0, .LBB104_4
.LBB104_6:
	srli	s0, a6, 3
	slli	a7, a7, 29
	or	s0, s0, a7
	sltu	s0, t2, s0
	bnez	s0, .LBB104_21
.LBB104_7:
	lw	s0, 4(a5)
	lw	a7, 0(a5)
	andi	t4, s0, 15
	andi	t0, a7, -8
	or	s0, t0, t4
	beqz	s0, .LBB104_21
	add	t3, a0, a6
	lw	a7, -8(t3)
	li	s0, 1
	bne	a7, s0, .LBB104_21
	srli	s0, t4, 3
	bnez	s0, .LBB104_11
	srli	a7, t0, 3
	slli	s0, t4, 29
	or	s0, a7, s0
	sltu	s0, t2, s0
.LBB104_11:
	bnez	s0, .LBB104_21
	add	t5, a0, t0
	lw	s0, -4(t5)
	bnez	s0, .LBB104_21
	lw	s0, 12(a5)
	lw	a7, 8(a5)
	andi	t1, s0, 15
	andi	a7, a7, -8
	or	s0, a7, t1
	beqz	s0, .LBB104_21
	lw	s0, -8(t5)
	andi	s0, s0, 1
	beqz	s0, .LBB104_21
	srli	s0, t1, 3
	bnez	s0, .LBB104_17
	srli	t6, a7, 3
	slli	s0, t1, 29
	or	s0, t6, s0
	sltu	s0, t2, s0
.LBB104_17:
	bnez	s0, .LBB104_21
	lw	s0, 4(a3)
	lw	t2, 0(a3)
	andi	t6, s0, 15
	andi	t2, t2, -8
	xor	s1, t2, t0
	xor	s0, t6, t4
	or	s0, s0, s1
	beqz	s0, .LBB104_21
	add	t4, a0, a7
	lw	s1, -8(t4)
	li	s0, 1
	bne	s1, s0, .LBB104_21
	addi	t0, t0, 1
	sw	t0, -8(t3)
	srli	a0, t2, 24
	srli	a1, t2, 16
	sw	a6, -4(t5)
	srli	a2, t2, 8
	srli	a4, a7, 24
	sw	s0, -8(t4)
	srli	s1, a7, 16
	srli	s0, a7, 8
	sb	t6, 4(a3)
	sb	zero, 5(a3)
	sb	zero, 6(a3)
	sb	zero, 7(a3)
	sb	t2, 0(a3)
	sb	a2, 1(a3)
	sb	a1, 2(a3)
	sb	a0, 3(a3)
	sb	t1, 12(a3)
	sb	zero, 13(a3)
	sb	zero, 14(a3)
	sb	zero, 15(a3)
	sb	a7, 8(a3)
	sb	s0, 9(a3)
	sb	s1, 10(a3)
	sb	a4, 11(a3)
	li	a2, 16
	mv	a0, a5
	li	a1, 0
	li	a3, 0
	li	a4, 0
	call	ic.clear
	li	a0, 0
	lw	ra, 12(sp)
	lw	s0, 8(sp)
	lw	s1, 4(sp)
	.cfi_restore ra
	.cfi_restore s0
	.cfi_restore s1
	addi	sp, sp, 16
	.cfi_def_cfa_offset 0
	ret
.LBB104_21:
	.cfi_restore_state
	li	a6, 1
	lw	ra, 12(sp)
	lw	s0, 8(sp)
	lw	s1, 4(sp)
	.cfi_restore ra
	.cfi_restore s0
	.cfi_restore s1
	addi	sp, sp, 16
	.cfi_def_cfa_offset 0
	tail	ic_raw.list_calls.splice_slow.55ebd757a04f39fd
.Lfunc_end104:
	.size	ic_list32_splice_before, .Lfunc_end104-ic_list32_splice_before
	.cfi_endproc
	.section	.text.ic_list32_split_after,"ax",@progbits
	.globl	ic_list32_split_after
	.p2align	1
	.type	ic_list32_split_after,@function
ic_list32_split_after:
	.cfi_startproc
	lw	a6, 4(a5)
	lw	a7, 0(a5)
	andi	a6, a6, 15
	andi	a7, a7, -8
	or	a6, a7, a6
	seqz	a7, a0
	slli	a7, a7, 12
	add	a0, a0, a7
	bnez	a6, .LBB105_12
	lw	a6, 12(a5)
	lw	a7, 8(a5)
	li	t0, 15
	li	t1, -8
	and	a6, a6, t0
	and	a7, a7, t1
	or	a6, a7, a6
	bnez	a6, .LBB105_12
	addi	t1, a4, 1
	beqz	t1, .LBB105_12
	seqz	a6, a2
	lui	a7, 131072
	addi	a6, a6, -1
	or	t2, a6, a1
	addi	a6, a7, -1
	bltu	t2, a6, .LBB105_5
	mv	t2, a6
.LBB105_5:
	bltu	t2, t1, .LBB105_12
	slli	a7, t1, 3
	add	t0, a0, a7
	lw	t3, -8(t0)
	andi	a6, t3, 1
	beqz	a6, .LBB105_12
	andi	a6, t3, -8
	beqz	a6, .LBB105_12
	srli	t3, t3, 3
	bltu	t2, t3, .LBB105_12
	add	t2, a0, a6
	lw	t3, -4(t2)
	srli	t1, t1, 29
	xor	t3, a7, t3
	or	t3, t3, t1
	bnez	t3, .LBB105_12
	lw	t3, -8(t2)
	andi	t3, t3, 1
	beqz	t3, .LBB105_12
	addi	sp, sp, -16
	.cfi_def_cfa_offset 16
	sw	s0, 12(sp)
	sw	s1, 8(sp)
	sw	s2, 4(sp)
	.cfi_offset s0, -4
	.cfi_offset s1, -8
	.cfi_offset s2, -12
	lw	t4, 0(a3)
	lw	t6, 4(a3)
	lw	t5, 8(a3)
	lw	s2, 12(a3)
	li	t3, 1
	srli	a0, a7, 24
	srli	a2, a7, 16
	srli	a1, a7, 8
	sw	t3, -8(t0)
	srli	t0, a6, 16
	srli	t3, a6, 24
	sw	zero, -4(t2)
	srli	t2, a6, 8
	sb	t1, 12(a3)
	sb	zero, 13(a3)
	sb	zero, 14(a3)
	sb	zero, 15(a3)
	sb	a7, 8(a3)
	sb	a1, 9(a3)
	sb	a2, 10(a3)
	sb	a0, 11(a3)
	andi	a0, t6, 15
	andi	a1, t4, -8
	andi	a7, s2, 15
	andi	a4, t5, -8
	sb	a0, 4(a3)
	sb	zero, 5(a3)
	sb	zero, 6(a3)
	sb	zero, 7(a3)
	srli	a0, a1, 24
	srli	s0, a1, 16
	srli	a2, a1, 8
	srli	t1, a4, 16
	srli	t4, a4, 24
	srli	s1, a4, 8
	sb	a1, 0(a3)
	sb	a2, 1(a3)
	sb	s0, 2(a3)
	sb	a0, 3(a3)
	sb	a6, 0(a5)
	sb	t2, 1(a5)
	sb	t0, 2(a5)
	sb	t3, 3(a5)
	sb	zero, 4(a5)
	sb	zero, 5(a5)
	sb	zero, 6(a5)
	sb	zero, 7(a5)
	sb	a4, 8(a5)
	sb	s1, 9(a5)
	sb	t1, 10(a5)
	sb	t4, 11(a5)
	sb	a7, 12(a5)
	sb	zero, 13(a5)
	sb	zero, 14(a5)
	sb	zero, 15(a5)
	li	a0, 0
	lw	s0, 12(sp)
	lw	s1, 8(sp)
	lw	s2, 4(sp)
	.cfi_restore s0
	.cfi_restore s1
	.cfi_restore s2
	addi	sp, sp, 16
	.cfi_def_cfa_offset 0
	ret
.LBB105_12:
	li	a6, 0
	tail	ic_raw.list_calls.split_slow.55ebd757a04f39fd
.Lfunc_end105:
	.size	ic_list32_split_after, .Lfunc_end105-ic_list32_split_after
	.cfi_endproc
	.section	.text.ic_list32_split_before,"ax",@progbits
	.globl	ic_list32_split_before
	.p2align	1
	.type	ic_list32_split_before,@function
ic_list32_split_before:
	.cfi_startproc
	lw	a6, 4(a5)
	lw	a7, 0(a5)
	andi	a6, a6, 15
	andi	a7, a7, -8
	or	a6, a7, a6
	seqz	a7, a0
	slli	a7, a7, 12
	add	a0, a0, a7
	bnez	a6, .LBB106_11
	lw	a6, 12(a5)
	lw	a7, 8(a5)
	li	t0, 15
	li	t1, -8
	and	a6, a6, t0
	and	a7, a7, t1
	or	a6, a7, a6
	bnez	a6, .LBB106_11
	addi	t1, a4, 1
	beqz	t1, .LBB106_11
	seqz	a6, a2
	lui	a7, 131072
	addi	a6, a6, -1
	or	t2, a6, a1
	addi	a6, a7, -1
	bltu	t2, a6, .LBB106_5
	mv	t2, a6
.LBB106_5:
	bltu	t2, t1, .LBB106_11
	slli	a7, t1, 3
	add	t0, a0, a7
	lbu	a6, -8(t0)
	andi	a6, a6, 1
	beqz	a6, .LBB106_11
	lw	t3, -4(t0)
	andi	a6, t3, -8
	beqz	a6, .LBB106_11
	srli	t3, t3, 3
	bltu	t2, t3, .LBB106_11
	add	t2, a0, a6
	lw	t3, -8(t2)
	srli	t1, t1, 29
	addi	t4, a7, 1
	xor	t3, t4, t3
	or	t3, t3, t1
	bnez	t3, .LBB106_11
	addi	sp, sp, -16
	.cfi_def_cfa_offset 16
	sw	s0, 12(sp)
	sw	s1, 8(sp)
	sw	s2, 4(sp)
	.cfi_offset s0, -4
	.cfi_offset s1, -8
	.cfi_offset s2, -12
	lw	t3, 0(a3)
	lw	t5, 4(a3)
	lw	t4, 8(a3)
	lw	t6, 12(a3)
	li	a0, 1
	srli	s1, a7, 24
	srli	a2, a7, 16
	srli	a4, a7, 8
	sw	a0, -8(t2)
	srli	t2, a6, 16
	srli	s2, a6, 24
	sw	zero, -4(t0)
	srli	t0, a6, 8
	sb	t1, 4(a3)
	sb	zero, 5(a3)
	sb	zero, 6(a3)
	sb	zero, 7(a3)
	sb	a7, 0(a3)
	sb	a4, 1(a3)
	sb	a2, 2(a3)
	sb	s1, 3(a3)
	andi	a7, t5, 15
	andi	a4, t3, -8
	andi	s1, t6, 15
	andi	a0, t4, -8
	sb	s1, 12(a3)
	sb	zero, 13(a3)
	sb	zero, 14(a3)
	sb	zero, 15(a3)
	srli	s1, a0, 24
	srli	a1, a0, 16
	srli	s0, a0, 8
	srli	t3, a4, 16
	srli	t1, a4, 24
	srli	a2, a4, 8
	sb	a0, 8(a3)
	sb	s0, 9(a3)
	sb	a1, 10(a3)
	sb	s1, 11(a3)
	sb	a4, 0(a5)
	sb	a2, 1(a5)
	sb	t3, 2(a5)
	sb	t1, 3(a5)
	sb	a7, 4(a5)
	sb	zero, 5(a5)
	sb	zero, 6(a5)
	sb	zero, 7(a5)
	sb	a6, 8(a5)
	sb	t0, 9(a5)
	sb	t2, 10(a5)
	sb	s2, 11(a5)
	sb	zero, 12(a5)
	sb	zero, 13(a5)
	sb	zero, 14(a5)
	sb	zero, 15(a5)
	li	a0, 0
	lw	s0, 12(sp)
	lw	s1, 8(sp)
	lw	s2, 4(sp)
	.cfi_restore s0
	.cfi_restore s1
	.cfi_restore s2
	addi	sp, sp, 16
	.cfi_def_cfa_offset 0
	ret
.LBB106_11:
	li	a6, 1
	tail	ic_raw.list_calls.split_slow.55ebd757a04f39fd
.Lfunc_end106:
	.size	ic_list32_split_before, .Lfunc_end106-ic_list32_split_before
	.cfi_endproc
	.section	.text.ic_list32_transfer_after,"ax",@progbits
	.globl	ic_list32_transfer_after
	.p2align	1
	.type	ic_list32_transfer_after,@function
ic_list32_transfer_after:
	.cfi_startproc
	mv	a7, a6
	mv	a6, a5
	mv	a5, a4
	seqz	a4, a0
	slli	a4, a4, 12
	add	a0, a0, a4
	li	a4, 0
	tail	ic_raw_lists.transfer_calls.transfer_at.55ebd757a04f39fd
.Lfunc_end107:
	.size	ic_list32_transfer_after, .Lfunc_end107-ic_list32_transfer_after
	.cfi_endproc
	.section	.text.ic_list32_transfer_before,"ax",@progbits
	.globl	ic_list32_transfer_before
	.p2align	1
	.type	ic_list32_transfer_before,@function
ic_list32_transfer_before:
	.cfi_startproc
	mv	a7, a6
	mv	a6, a5
	mv	a5, a4
	seqz	a4, a0
	slli	a4, a4, 12
	add	a0, a0, a4
	li	a4, 1
	tail	ic_raw_lists.transfer_calls.transfer_at.55ebd757a04f39fd
.Lfunc_end108:
	.size	ic_list32_transfer_before, .Lfunc_end108-ic_list32_transfer_before
	.cfi_endproc
	.section	.text.ic_list_append,"ax",@progbits
	.globl	ic_list_append
	.p2align	1
	.type	ic_list_append,@function
ic_list_append:
	.cfi_startproc
	addi	sp, sp, -32
	.cfi_def_cfa_offset 32
	sw	ra, 28(sp)
	sw	s0, 24(sp)
	sw	s1, 20(sp)
	sw	s2, 16(sp)
	sw	s3, 12(sp)
	sw	s4, 8(sp)
	.cfi_offset ra, -4
	.cfi_offset s0, -8
	.cfi_offset s1, -12
	.cfi_offset s2, -16
	.cfi_offset s3, -20
	.cfi_offset s4, -24
	.cfi_remember_state
	mv	t0, a4
	lw	a5, 12(a3)
	lw	t1, 8(a3)
	seqz	s0, a0
	slli	s0, s0, 12
	andi	a7, a5, 15
	andi	a6, t1, -8
	or	a4, a6, a7
	add	a0, a0, s0
	beqz	a4, .LBB109_18
	srli	s0, a7, 3
	beq	s0, a2, .LBB109_3
	sltu	a4, a2, s0
	beqz	a4, .LBB109_4
	j	.LBB109_18
.LBB109_3:
	slli	a5, a5, 29
	srli	a4, t1, 3
	or	a4, a4, a5
	sltu	a4, a1, a4
	bnez	a4, .LBB109_18
.LBB109_4:
	lw	a4, 4(t0)
	lw	a5, 0(t0)
	andi	t2, a4, 15
	andi	t4, a5, -8
	or	a4, t4, t2
	beqz	a4, .LBB109_18
	slli	t1, a6, 1
	add	t1, t1, a0
	lw	a4, -16(t1)
	lw	a5, -12(t1)
	xori	a4, a4, 1
	or	a4, a4, a5
	bnez	a4, .LBB109_18
	srli	a4, t2, 3
	beq	a4, a2, .LBB109_8
	sltu	a4, a2, a4
	beqz	a4, .LBB109_9
	j	.LBB109_18
.LBB109_8:
	srli	a4, t4, 3
	slli	a5, t2, 29
	or	a4, a4, a5
	sltu	a4, a1, a4
	bnez	a4, .LBB109_18
.LBB109_9:
	slli	t5, t4, 1
	add	t5, t5, a0
	lw	a4, -8(t5)
	lw	a5, -4(t5)
	or	a4, a4, a5
	bnez	a4, .LBB109_18
	lw	a4, 12(t0)
	lw	a5, 8(t0)
	andi	t3, a4, 15
	andi	s2, a5, -8
	or	a4, s2, t3
	beqz	a4, .LBB109_18
	lw	a4, -16(t5)
	andi	a4, a4, 1
	beqz	a4, .LBB109_18
	srli	a4, t3, 3
	beq	a4, a2, .LBB109_14
	sltu	a4, a2, a4
	beqz	a4, .LBB109_15
	j	.LBB109_18
.LBB109_14:
	srli	a4, s2, 3
	slli	s0, t3, 29
	or	a4, a4, s0
	sltu	a4, a1, a4
	bnez	a4, .LBB109_18
.LBB109_15:
	lw	a4, 4(a3)
	lw	s0, 0(a3)
	andi	t6, a4, 15
	andi	a4, s0, -8
	xor	s0, a4, t4
	xor	s1, t6, t2
	or	s0, s0, s1
	beqz	s0, .LBB109_18
	slli	s0, s2, 1
	add	s0, s0, a0
	lw	s1, -16(s0)
	lw	a5, -12(s0)
	xori	s1, s1, 1
	or	a5, a5, s1
	bnez	a5, .LBB109_18
	addi	t4, t4, 1
	li	s3, 1
	srli	s4, a4, 24
	srli	a2, a4, 16
	sw	t4, -16(t1)
	sw	t2, -12(t1)
	srli	a5, a4, 8
	srli	s1, s2, 24
	sw	a6, -8(t5)
	sw	a7, -4(t5)
	srli	a0, s2, 16
	srli	a1, s2, 8
	sw	s3, -16(s0)
	sw	zero, -12(s0)
	sb	t6, 4(a3)
	sb	zero, 5(a3)
	sb	zero, 6(a3)
	sb	zero, 7(a3)
	sb	a4, 0(a3)
	sb	a5, 1(a3)
	sb	a2, 2(a3)
	sb	s4, 3(a3)
	sb	t3, 12(a3)
	sb	zero, 13(a3)
	sb	zero, 14(a3)
	sb	zero, 15(a3)
	sb	s2, 8(a3)
	sb	a1, 9(a3)
	sb	a0, 10(a3)
	sb	s1, 11(a3)
	li	a2, 16
	mv	a0, t0
	li	a1, 0
	li	a3, 0
	li	a4, 0
	call	ic.clear
	li	a0, 0
	lw	ra, 28(sp)
	lw	s0, 24(sp)
	lw	s1, 20(sp)
	lw	s2, 16(sp)
	lw	s3, 12(sp)
	lw	s4, 8(sp)
	.cfi_restore ra
	.cfi_restore s0
	.cfi_restore s1
	.cfi_restore s2
	.cfi_restore s3
	.cfi_restore s4
	addi	sp, sp, 32
	.cfi_def_cfa_offset 0
	ret
.LBB109_18:
	.cfi_restore_state
	li	a4, -1
	li	a6, 1
	mv	a5, t0
	lw	ra, 28(sp)
	lw	s0, 24(sp)
	lw	s1, 20(sp)
	lw	s2, 16(sp)
	lw	s3, 12(sp)
	lw	s4, 8(sp)
	.cfi_restore ra
	.cfi_restore s0
	.cfi_restore s1
	.cfi_restore s2
	.cfi_restore s3
	.cfi_restore s4
	addi	sp, sp, 32
	.cfi_def_cfa_offset 0
	tail	ic_raw.list_calls.splice_slow.5386baa488213e47
.Lfunc_end109:
	.size	ic_list_append, .Lfunc_end109-ic_list_append
	.cfi_endproc
	.section	.text.ic_list_check,"ax",@progbits
	.globl	ic_list_check
	.p2align	1
	.type	ic_list_check,@function
ic_list_check:
	.cfi_startproc
	addi	sp, sp, -16
	.cfi_def_cfa_offset 16
	sw	s0, 12(sp)
	sw	s1, 8(sp)
	sw	s2, 4(sp)
	sw	s3, 0(sp)
	.cfi_offset s0, -4
	.cfi_offset s1, -8
	.cfi_offset s2, -12
	.cfi_offset s3, -16
	.cfi_remember_state
	lw	s1, 4(a3)
	lw	s0, 0(a3)
	lw	a6, 8(a3)
	lw	a7, 12(a3)
	andi	s1, s1, 15
	andi	s0, s0, -8
	or	a3, s0, s1
	beqz	a3, .LBB110_14
	li	t5, 0
	li	t6, 0
	li	s2, 0
	li	s3, 0
	li	t0, 15
	seqz	a5, a0
	slli	a5, a5, 12
	add	t1, a0, a5
	li	t2, -8
.LBB110_2:
	mv	t3, s1
	mv	t4, s0
	beq	a2, s3, .LBB110_4
	sltu	s0, s3, a2
	li	a0, 5
	bnez	s0, .LBB110_5
	j	.LBB110_13
.LBB110_4:
	sltu	s0, s2, a1
	li	a0, 5
	beqz	s0, .LBB110_13
.LBB110_5:
	srli	s0, t3, 3
	beq	s0, a2, .LBB110_7
	sltu	s0, a2, s0
	beqz	s0, .LBB110_8
	j	.LBB110_13
.LBB110_7:
	srli	a5, t4, 3
	slli	s0, t3, 29
	or	a5, a5, s0
	sltu	s0, a1, a5
	bnez	s0, .LBB110_13
.LBB110_8:
	slli	s0, t4, 1
	add	s0, s0, t1
	lw	s1, -16(s0)
	andi	a5, s1, 1
	beqz	a5, .LBB110_13
	lw	a5, -8(s0)
	lw	a3, -4(s0)
	and	a5, a5, t2
	and	a3, a3, t0
	xor	a3, a3, t6
	xor	a5, a5, t5
	or	a3, a3, a5
	bnez	a3, .LBB110_13
	lw	a0, -12(s0)
	and	s0, s1, t2
	addi	s2, s2, 1
	and	s1, a0, t0
	seqz	a0, s2
	or	a3, s0, s1
	add	s3, s3, a0
	mv	t5, t4
	mv	t6, t3
	bnez	a3, .LBB110_2
	andi	a0, a7, 15
	andi	a1, a6, -8
	xor	a1, a1, t4
	xor	a0, a0, t3
	or	a0, a0, a1
	bnez	a0, .LBB110_15
.LBB110_12:
	sw	s2, 0(a4)
	sw	s3, 4(a4)
.LBB110_13:
	lw	s0, 12(sp)
	lw	s1, 8(sp)
	lw	s2, 4(sp)
	lw	s3, 0(sp)
	.cfi_restore s0
	.cfi_restore s1
	.cfi_restore s2
	.cfi_restore s3
	addi	sp, sp, 16
	.cfi_def_cfa_offset 0
	ret
.LBB110_14:
	.cfi_restore_state
	li	s2, 0
	li	s3, 0
	andi	a0, a7, 15
	andi	a1, a6, -8
	mv	a1, a1
	mv	a0, a0
	or	a0, a0, a1
	beqz	a0, .LBB110_12
.LBB110_15:
	li	a0, 5
	lw	s0, 12(sp)
	lw	s1, 8(sp)
	lw	s2, 4(sp)
	lw	s3, 0(sp)
	.cfi_restore s0
	.cfi_restore s1
	.cfi_restore s2
	.cfi_restore s3
	addi	sp, sp, 16
	.cfi_def_cfa_offset 0
	ret
.Lfunc_end110:
	.size	ic_list_check, .Lfunc_end110-ic_list_check
	.cfi_endproc
	.section	.text.ic_list_clear,"ax",@progbits
	.globl	ic_list_clear
	.p2align	1
	.type	ic_list_clear,@function
ic_list_clear:
	.cfi_startproc
	addi	sp, sp, -32
	.cfi_def_cfa_offset 32
	sw	ra, 28(sp)
	sw	s0, 24(sp)
	sw	s1, 20(sp)
	sw	s2, 16(sp)
	sw	s3, 12(sp)
	sw	s4, 8(sp)
	sw	s5, 4(sp)
	.cfi_offset ra, -4
	.cfi_offset s0, -8
	.cfi_offset s1, -12
	.cfi_offset s2, -16
	.cfi_offset s3, -20
	.cfi_offset s4, -24
	.cfi_offset s5, -28
	mv	t1, a0
	lw	a0, 4(a3)
	lw	a4, 0(a3)
	lw	a5, 12(a3)
	lw	s1, 8(a3)
	andi	t5, a0, 15
	andi	t3, a4, -8
	andi	t0, a5, 15
	or	a0, t3, t5
	andi	t2, s1, -8
	beqz	a0, .LBB111_10
	or	a4, a1, a2
	li	a0, 5
	beqz	a4, .LBB111_15
	li	t4, 0
	li	s2, 0
	li	a6, 15
	li	a7, -8
	seqz	a4, t1
	slli	a4, a4, 12
	add	t1, t1, a4
	mv	t6, t3
	mv	a4, a1
	mv	s3, a2
.LBB111_3:
	srli	s0, t5, 3
	beq	s0, a2, .LBB111_5
	sltu	s0, a2, s0
	beqz	s0, .LBB111_6
	j	.LBB111_15
.LBB111_5:
	srli	a5, t6, 3
	slli	s0, t5, 29
	or	a5, a5, s0
	sltu	s0, a1, a5
	bnez	s0, .LBB111_15
.LBB111_6:
	slli	s1, t6, 1
	add	s1, s1, t1
	lw	s0, -16(s1)
	andi	a5, s0, 1
	beqz	a5, .LBB111_15
	lw	a5, -8(s1)
	lw	s4, -4(s1)
	and	s5, a5, a7
	and	a5, s4, a6
	xor	s2, a5, s2
	xor	a5, s5, t4
	or	a5, a5, s2
	bnez	a5, .LBB111_15
	lw	a5, -12(s1)
	and	s0, s0, a7
	and	s1, a5, a6
	or	a5, s0, s1
	beqz	a5, .LBB111_12
	seqz	a5, a4
	sub	s3, s3, a5
	addi	a4, a4, -1
	or	a5, a4, s3
	mv	t4, t6
	mv	s2, t5
	mv	t6, s0
	mv	t5, s1
	bnez	a5, .LBB111_3
	j	.LBB111_15
.LBB111_10:
	or	a0, t2, t0
	beqz	a0, .LBB111_14
	li	a0, 5
	j	.LBB111_15
.LBB111_12:
	xor	a1, t2, t6
	xor	a2, t0, t5
	or	a1, a1, a2
	bnez	a1, .LBB111_15
.LBB111_13:
	slli	t3, t3, 1
	add	a0, t1, t3
	lw	a1, -12(a0)
	lw	a2, -16(a0)
	and	a1, a1, a6
	and	t3, a2, a7
	or	a1, t3, a1
	sw	zero, -16(a0)
	sw	zero, -12(a0)
	bnez	a1, .LBB111_13
.LBB111_14:
	li	a2, 16
	mv	a0, a3
	li	a1, 0
	li	a3, 0
	li	a4, 0
	call	ic.clear
	li	a0, 0
.LBB111_15:
	lw	ra, 28(sp)
	lw	s0, 24(sp)
	lw	s1, 20(sp)
	lw	s2, 16(sp)
	lw	s3, 12(sp)
	lw	s4, 8(sp)
	lw	s5, 4(sp)
	.cfi_restore ra
	.cfi_restore s0
	.cfi_restore s1
	.cfi_restore s2
	.cfi_restore s3
	.cfi_restore s4
	.cfi_restore s5
	addi	sp, sp, 32
	.cfi_def_cfa_offset 0
	ret
.Lfunc_end111:
	.size	ic_list_clear, .Lfunc_end111-ic_list_clear
	.cfi_endproc
	.section	.text.ic_list_fill,"ax",@progbits
	.globl	ic_list_fill
	.p2align	1
	.type	ic_list_fill,@function
ic_list_fill:
	.cfi_startproc
	beqz	a5, .LBB112_4
	addi	sp, sp, -32
	.cfi_def_cfa_offset 32
	sw	s0, 28(sp)
	sw	s1, 24(sp)
	sw	s2, 20(sp)
	sw	s3, 16(sp)
	sw	s4, 12(sp)
	sw	s5, 8(sp)
	.cfi_offset s0, -4
	.cfi_offset s1, -8
	.cfi_offset s2, -12
	.cfi_offset s3, -16
	.cfi_offset s4, -20
	.cfi_offset s5, -24
	.cfi_remember_state
	seqz	t3, a0
	lw	a7, 0(a3)
	lw	s0, 4(a3)
	lw	t1, 8(a3)
	lw	s1, 12(a3)
	slli	t3, t3, 12
	add	t2, a0, t3
	andi	t0, s0, 15
	andi	a6, s1, 15
	andi	t1, t1, -8
	or	s0, t1, a6
	andi	a7, a7, -8
	beqz	s0, .LBB112_5
	srli	s1, a6, 3
	beq	s1, a2, .LBB112_7
	sltu	s1, a2, s1
	li	t6, 1
	beqz	s1, .LBB112_8
	j	.LBB112_10
.LBB112_4:
	li	a0, 0
	ret
.LBB112_5:
	.cfi_restore_state
	or	s1, a7, t0
	beqz	s1, .LBB112_9
	li	s2, 0
	li	t4, 0
	li	t5, 0
	li	t6, 1
	j	.LBB112_11
.LBB112_7:
	srli	t4, t1, 3
	slli	s1, a6, 29
	or	s1, t4, s1
	sltu	s1, a1, s1
	li	t6, 1
	bnez	s1, .LBB112_10
.LBB112_8:
	li	t4, 15
	li	t5, -8
	slli	s1, t1, 1
	add	s1, s1, t2
	lw	s2, -16(s1)
	lw	s3, -12(s1)
	addi	t5, t5, 1
	seqz	s1, t5
	add	t4, t4, s1
	and	t4, s3, t4
	and	s1, s2, t5
	xori	s1, s1, 1
	or	s1, s1, t4
	bnez	s1, .LBB112_10
.LBB112_9:
	seqz	t6, s0
	li	s2, 1
	mv	t4, t1
	mv	t5, a6
	j	.LBB112_11
.LBB112_10:
	li	s2, 0
	li	t4, 0
	li	t5, 0
.LBB112_11:
	slli	s0, a4, 4
	add	a0, a0, s0
	add	s3, a0, t3
	addi	s0, a4, 1
	mv	s5, a5
.LBB112_12:
	li	a0, 1
	beqz	s0, .LBB112_33
	sltu	s4, a1, s0
	seqz	t3, a2
	and	s1, t3, s4
	bnez	s1, .LBB112_33
	lw	a0, 0(s3)
	slli	a0, a0, 1
	andi	a0, a0, 2
	bnez	a0, .LBB112_33
	addi	s5, s5, -1
	addi	s3, s3, 16
	addi	s0, s0, 1
	bnez	s5, .LBB112_12
	beqz	s2, .LBB112_22
	addi	s2, a4, 1
	beqz	s2, .LBB112_32
	sltu	a0, a1, s2
	and	a0, t3, a0
	bnez	a0, .LBB112_32
	slli	s0, s2, 3
	slli	a2, s0, 1
	add	a2, a2, t2
	lbu	s1, -16(a2)
	andi	s1, s1, 1
	bnez	s1, .LBB112_32
	srli	a6, s2, 29
	beqz	t6, .LBB112_23
	li	t4, 0
	li	t5, 0
	mv	a7, s0
	mv	t0, a6
	j	.LBB112_24
.LBB112_22:
	li	a0, 5
	j	.LBB112_33
.LBB112_23:
	slli	s1, t4, 1
	addi	a0, s0, 1
	add	s1, s1, t2
	sw	a0, -16(s1)
	sw	a6, -12(s1)
.LBB112_24:
	li	s1, 1
	addi	a5, a5, -1
	sw	s1, -16(a2)
	sw	zero, -12(a2)
	sw	t4, -8(a2)
	sw	t5, -4(a2)
	beqz	a5, .LBB112_31
	addi	a4, a4, 2
.LBB112_26:
	beqz	a4, .LBB112_31
	sltu	a2, a1, a4
	and	a2, t3, a2
	bnez	a2, .LBB112_31
	slli	t1, a4, 3
	slli	s1, t1, 1
	add	s1, s1, t2
	lbu	a2, -16(s1)
	andi	a2, a2, 1
	bnez	a2, .LBB112_31
	srli	a2, a4, 29
	slli	a0, s0, 1
	addi	t4, t1, 1
	li	t5, 1
	addi	a5, a5, -1
	add	a0, a0, t2
	sw	t4, -16(a0)
	sw	a2, -12(a0)
	sw	t5, -16(s1)
	sw	zero, -12(s1)
	sw	s0, -8(s1)
	sw	a6, -4(s1)
	addi	a4, a4, 1
	mv	s0, t1
	mv	a6, a2
	bnez	a5, .LBB112_26
	mv	a6, a2
	j	.LBB112_32
.LBB112_31:
	mv	t1, s0
.LBB112_32:
	li	a0, 0
	sb	t0, 4(a3)
	sb	zero, 5(a3)
	sb	zero, 6(a3)
	sb	zero, 7(a3)
	srli	t0, a7, 24
	srli	a2, a7, 16
	srli	a4, a7, 8
	srli	a5, t1, 24
	srli	s1, t1, 16
	srli	s0, t1, 8
	srli	a1, a6, 24
	sb	a7, 0(a3)
	sb	a4, 1(a3)
	sb	a2, 2(a3)
	sb	t0, 3(a3)
	srli	a2, a6, 16
	sb	t1, 8(a3)
	sb	s0, 9(a3)
	sb	s1, 10(a3)
	sb	a5, 11(a3)
	srli	a4, a6, 8
	sb	a6, 12(a3)
	sb	a4, 13(a3)
	sb	a2, 14(a3)
	sb	a1, 15(a3)
.LBB112_33:
	lw	s0, 28(sp)
	lw	s1, 24(sp)
	lw	s2, 20(sp)
	lw	s3, 16(sp)
	lw	s4, 12(sp)
	lw	s5, 8(sp)
	.cfi_restore s0
	.cfi_restore s1
	.cfi_restore s2
	.cfi_restore s3
	.cfi_restore s4
	.cfi_restore s5
	addi	sp, sp, 32
	.cfi_def_cfa_offset 0
	ret
.Lfunc_end112:
	.size	ic_list_fill, .Lfunc_end112-ic_list_fill
	.cfi_endproc
	.section	.text.ic_list_insert_after,"ax",@progbits
	.globl	ic_list_insert_after
	.p2align	1
	.type	ic_list_insert_after,@function
ic_list_insert_after:
	.cfi_startproc
	addi	sp, sp, -32
	.cfi_def_cfa_offset 32
	sw	s0, 28(sp)
	sw	s1, 24(sp)
	sw	s2, 20(sp)
	sw	s3, 16(sp)
	sw	s4, 12(sp)
	sw	s5, 8(sp)
	sw	s6, 4(sp)
	sw	s7, 0(sp)
	.cfi_offset s0, -4
	.cfi_offset s1, -8
	.cfi_offset s2, -12
	.cfi_offset s3, -16
	.cfi_offset s4, -20
	.cfi_offset s5, -24
	.cfi_offset s6, -28
	.cfi_offset s7, -32
	.cfi_remember_state
	li	s3, 15
	li	s2, -8
	seqz	s1, a0
	lw	a6, 0(a3)
	lw	s0, 4(a3)
	lw	t0, 8(a3)
	lw	a7, 12(a3)
	addi	t5, a4, 1
	slli	s1, s1, 12
	add	a0, a0, s1
	andi	t3, s0, 15
	andi	t4, a6, -8
	slli	a6, t5, 3
	seqz	s4, a2
	mv	t2, t4
	mv	t1, t3
	beqz	t5, .LBB113_4
	sltu	s1, a1, t5
	and	s1, s4, s1
	bnez	s1, .LBB113_20
	slli	s0, a6, 1
	add	s0, s0, a0
	lw	t1, -16(s0)
	andi	s1, t1, 1
	beqz	s1, .LBB113_20
	lw	s1, -12(s0)
	and	t2, t1, s2
	and	t1, s1, s3
.LBB113_4:
	andi	a7, a7, 15
	andi	t0, t0, -8
	or	s5, t2, t1
	slli	t6, t2, 1
	mv	s7, t0
	mv	s6, a7
	beqz	s5, .LBB113_10
	srli	s0, t1, 3
	beq	s0, a2, .LBB113_7
	sltu	s0, a2, s0
	beqz	s0, .LBB113_8
	j	.LBB113_20
.LBB113_7:
	srli	s0, t2, 3
	slli	s1, t1, 29
	or	s0, s0, s1
	sltu	s0, a1, s0
	bnez	s0, .LBB113_20
.LBB113_8:
	add	s0, a0, t6
	lbu	s1, -16(s0)
	andi	s1, s1, 1
	beqz	s1, .LBB113_20
	lw	s1, -4(s0)
	lw	s0, -8(s0)
	and	s6, s1, s3
	and	s7, s0, s2
.LBB113_10:
	addi	s1, a5, 1
	beqz	s1, .LBB113_20
	sltu	s0, a1, s1
	and	s0, s4, s0
	bnez	s0, .LBB113_20
	srli	s2, t5, 29
	xor	s3, s7, a6
	xor	s0, s6, s2
	or	s0, s3, s0
	bnez	s0, .LBB113_20
	slli	s4, s1, 3
	slli	s3, s4, 1
	add	s3, s3, a0
	lbu	s0, -16(s3)
	andi	s0, s0, 1
	bnez	s0, .LBB113_20
	srli	a4, s1, 29
	seqz	a5, s5
	mv	a2, s4
	mv	s5, a4
	beqz	t5, .LBB113_16
	slli	a1, a6, 1
	addi	a2, s4, 1
	add	a1, a1, a0
	sw	a2, -16(a1)
	sw	a4, -12(a1)
	mv	a2, t4
	mv	s5, t3
.LBB113_16:
	bnez	a5, .LBB113_18
	add	a0, a0, t6
	sw	s4, -8(a0)
	sw	a4, -4(a0)
	j	.LBB113_19
.LBB113_18:
	mv	t0, s4
	mv	a7, a4
.LBB113_19:
	addi	t2, t2, 1
	srli	a0, a2, 24
	srli	a4, a2, 16
	srli	a5, a2, 8
	srli	s1, t0, 24
	sw	t2, -16(s3)
	sw	t1, -12(s3)
	sw	a6, -8(s3)
	sw	s2, -4(s3)
	srli	s0, t0, 16
	srli	a1, t0, 8
	sb	a2, 0(a3)
	sb	a5, 1(a3)
	sb	a4, 2(a3)
	sb	a0, 3(a3)
	sb	s5, 4(a3)
	sb	zero, 5(a3)
	sb	zero, 6(a3)
	sb	zero, 7(a3)
	sb	t0, 8(a3)
	sb	a1, 9(a3)
	sb	s0, 10(a3)
	sb	s1, 11(a3)
	sb	a7, 12(a3)
	sb	zero, 13(a3)
	sb	zero, 14(a3)
	sb	zero, 15(a3)
	li	a0, 0
	lw	s0, 28(sp)
	lw	s1, 24(sp)
	lw	s2, 20(sp)
	lw	s3, 16(sp)
	lw	s4, 12(sp)
	lw	s5, 8(sp)
	lw	s6, 4(sp)
	lw	s7, 0(sp)
	.cfi_restore s0
	.cfi_restore s1
	.cfi_restore s2
	.cfi_restore s3
	.cfi_restore s4
	.cfi_restore s5
	.cfi_restore s6
	.cfi_restore s7
	addi	sp, sp, 32
	.cfi_def_cfa_offset 0
	ret
.LBB113_20:
	.cfi_restore_state
	mv	a3, a4
	mv	a4, a5
	lw	s0, 28(sp)
	lw	s1, 24(sp)
	lw	s2, 20(sp)
	lw	s3, 16(sp)
	lw	s4, 12(sp)
	lw	s5, 8(sp)
	lw	s6, 4(sp)
	lw	s7, 0(sp)
	.cfi_restore s0
	.cfi_restore s1
	.cfi_restore s2
	.cfi_restore s3
	.cfi_restore s4
	.cfi_restore s5
	.cfi_restore s6
	.cfi_restore s7
	addi	sp, sp, 32
	.cfi_def_cfa_offset 0
	tail	ic_raw.table.RawTable.refusal.85cd03e557136797
.Lfunc_end113:
	.size	ic_list_insert_after, .Lfunc_end113-ic_list_insert_after
	.cfi_endproc
	.section	.text.ic_list_insert_before,"ax",@progbits
	.globl	ic_list_insert_before
	.p2align	1
	.type	ic_list_insert_before,@function
ic_list_insert_before:
	.cfi_startproc
	addi	sp, sp, -32
	.cfi_def_cfa_offset 32
	sw	s0, 28(sp)
	sw	s1, 24(sp)
	sw	s2, 20(sp)
	sw	s3, 16(sp)
	sw	s4, 12(sp)
	sw	s5, 8(sp)
	sw	s6, 4(sp)
	sw	s7, 0(sp)
	.cfi_offset s0, -4
	.cfi_offset s1, -8
	.cfi_offset s2, -12
	.cfi_offset s3, -16
	.cfi_offset s4, -20
	.cfi_offset s5, -24
	.cfi_offset s6, -28
	.cfi_offset s7, -32
	.cfi_remember_state
	li	s2, 15
	li	s3, -8
	seqz	a6, a0
	lw	t4, 0(a3)
	lw	t6, 4(a3)
	lw	s0, 8(a3)
	lw	s1, 12(a3)
	addi	t3, a4, 1
	slli	a6, a6, 12
	add	a0, a0, a6
	andi	a6, s1, 15
	andi	a7, s0, -8
	slli	t0, t3, 3
	seqz	t5, a2
	mv	t2, a7
	mv	t1, a6
	beqz	t3, .LBB114_4
	sltu	s1, a1, t3
	and	s1, t5, s1
	bnez	s1, .LBB114_19
	slli	s1, t0, 1
	add	s1, s1, a0
	lbu	s0, -16(s1)
	andi	s0, s0, 1
	beqz	s0, .LBB114_19
	lw	s0, -4(s1)
	lw	s1, -8(s1)
	and	t1, s0, s2
	and	t2, s1, s3
.LBB114_4:
	andi	t6, t6, 15
	andi	s5, t4, -8
	srli	t4, t3, 29
	or	s6, t2, t1
	slli	s4, t2, 1
	beqz	s6, .LBB114_7
	srli	s0, t1, 3
	beq	s0, a2, .LBB114_8
	sltu	s0, a2, s0
	beqz	s0, .LBB114_9
	j	.LBB114_19
.LBB114_7:
	xor	s1, s5, t0
	xor	s0, t6, t4
	or	s0, s0, s1
	mv	t0, s5
	mv	t4, t6
	beqz	s0, .LBB114_10
	j	.LBB114_19
.LBB114_8:
	srli	s0, t2, 3
	slli	s1, t1, 29
	or	s0, s0, s1
	sltu	s0, a1, s0
	bnez	s0, .LBB114_19
.LBB114_9:
	add	s0, a0, s4
	addi	s3, s3, 1
	lw	s7, -16(s0)
	lw	s0, -12(s0)
	seqz	s1, s3
	add	s1, s1, s2
	addi	s2, t0, 1
	and	s0, s0, s1
	and	s1, s7, s3
	xor	s0, s0, t4
	xor	s1, s1, s2
	or	s0, s0, s1
	bnez	s0, .LBB114_19
.LBB114_10:
	addi	s1, a5, 1
	beqz	s1, .LBB114_19
	sltu	s0, a1, s1
	and	s0, t5, s0
	bnez	s0, .LBB114_19
	slli	s2, s1, 3
	slli	t5, s2, 1
	add	t5, t5, a0
	lbu	s0, -16(t5)
	andi	s0, s0, 1
	bnez	s0, .LBB114_19
	srli	a4, s1, 29
	seqz	a5, s6
	mv	a2, s2
	mv	s3, a4
	bnez	a5, .LBB114_15
	add	s4, s4, a0
	addi	a1, s2, 1
	sw	a1, -16(s4)
	sw	a4, -12(s4)
	mv	a2, s5
	mv	s3, t6
.LBB114_15:
	beqz	t3, .LBB114_17
	slli	a5, t0, 1
	add	a0, a0, a5
	sw	s2, -8(a0)
	sw	a4, -4(a0)
	j	.LBB114_18
.LBB114_17:
	mv	a7, s2
	mv	a6, a4
.LBB114_18:
	seqz	a0, t3
	srli	a4, a2, 24
	srli	a5, a2, 16
	srli	s1, a2, 8
	addi	a0, a0, -1
	and	s0, a0, t0
	and	a0, a0, t4
	srli	a1, a7, 24
	ori	s0, s0, 1
	sw	s0, -16(t5)
	sw	a0, -12(t5)
	sw	t2, -8(t5)
	sw	t1, -4(t5)
	srli	a0, a7, 16
	srli	s0, a7, 8
	sb	a2, 0(a3)
	sb	s1, 1(a3)
	sb	a5, 2(a3)
	sb	a4, 3(a3)
	sb	s3, 4(a3)
	sb	zero, 5(a3)
	sb	zero, 6(a3)
	sb	zero, 7(a3)
	sb	a7, 8(a3)
	sb	s0, 9(a3)
	sb	a0, 10(a3)
	sb	a1, 11(a3)
	sb	a6, 12(a3)
	sb	zero, 13(a3)
	sb	zero, 14(a3)
	sb	zero, 15(a3)
	li	a0, 0
	lw	s0, 28(sp)
	lw	s1, 24(sp)
	lw	s2, 20(sp)
	lw	s3, 16(sp)
	lw	s4, 12(sp)
	lw	s5, 8(sp)
	lw	s6, 4(sp)
	lw	s7, 0(sp)
	.cfi_restore s0
	.cfi_restore s1
	.cfi_restore s2
	.cfi_restore s3
	.cfi_restore s4
	.cfi_restore s5
	.cfi_restore s6
	.cfi_restore s7
	addi	sp, sp, 32
	.cfi_def_cfa_offset 0
	ret
.LBB114_19:
	.cfi_restore_state
	mv	a3, a4
	mv	a4, a5
	lw	s0, 28(sp)
	lw	s1, 24(sp)
	lw	s2, 20(sp)
	lw	s3, 16(sp)
	lw	s4, 12(sp)
	lw	s5, 8(sp)
	lw	s6, 4(sp)
	lw	s7, 0(sp)
	.cfi_restore s0
	.cfi_restore s1
	.cfi_restore s2
	.cfi_restore s3
	.cfi_restore s4
	.cfi_restore s5
	.cfi_restore s6
	.cfi_restore s7
	addi	sp, sp, 32
	.cfi_def_cfa_offset 0
	tail	ic_raw.table.RawTable.refusal.85cd03e557136797
.Lfunc_end114:
	.size	ic_list_insert_before, .Lfunc_end114-ic_list_insert_before
	.cfi_endproc
	.section	.text.ic_list_merge,"ax",@progbits
	.globl	ic_list_merge
	.p2align	1
	.type	ic_list_merge,@function
ic_list_merge:
	.cfi_startproc
	addi	sp, sp, -96
	.cfi_def_cfa_offset 96
	sw	ra, 92(sp)
	sw	s0, 88(sp)
	sw	s1, 84(sp)
	sw	s2, 80(sp)
	sw	s3, 76(sp)
	sw	s4, 72(sp)
	sw	s5, 68(sp)
	sw	s6, 64(sp)
	sw	s7, 60(sp)
	sw	s8, 56(sp)
	sw	s9, 52(sp)
	sw	s10, 48(sp)
	sw	s11, 44(sp)
	.cfi_offset ra, -4
	.cfi_offset s0, -8
	.cfi_offset s1, -12
	.cfi_offset s2, -16
	.cfi_offset s3, -20
	.cfi_offset s4, -24
	.cfi_offset s5, -28
	.cfi_offset s6, -32
	.cfi_offset s7, -36
	.cfi_offset s8, -40
	.cfi_offset s9, -44
	.cfi_offset s10, -48
	.cfi_offset s11, -52
	.cfi_remember_state
	seqz	s1, a0
	slli	s1, s1, 12
	add	s4, a0, s1
	seqz	a0, a3
	slli	a0, a0, 12
	add	a0, a0, a3
	sw	a0, 24(sp)
	sw	zero, 28(sp)
	sw	a4, 32(sp)
	sw	a5, 36(sp)
	sw	s4, 8(sp)
	sw	zero, 12(sp)
	sw	a1, 16(sp)
	sw	a2, 20(sp)
	beq	a5, a2, .LBB115_2
	sltu	a0, a5, a2
	beqz	a0, .LBB115_3
	j	.LBB115_39
.LBB115_2:
	sltu	a0, a4, a1
	bnez	a0, .LBB115_39
.LBB115_3:
	lw	a0, 0(a6)
	lw	a3, 4(a6)
	lw	s0, 8(a6)
	lw	s1, 12(a6)
	lw	t2, 0(a7)
	lw	t1, 4(a7)
	lw	t5, 8(a7)
	lw	t4, 12(a7)
	li	s2, 15
	li	s3, -8
	andi	t0, a3, 15
	andi	t3, a0, -8
	andi	s5, s1, 15
	or	t6, t3, t0
	andi	s6, s0, -8
	beqz	t6, .LBB115_17
	li	s9, 0
	li	s10, 0
	li	s11, 0
	li	ra, 0
	mv	a3, t3
	mv	a0, t0
.LBB115_5:
	mv	s7, a0
	mv	s8, a3
	beq	a2, ra, .LBB115_7
	sltu	a0, ra, a2
	j	.LBB115_8
.LBB115_7:
	sltu	a0, s11, a1
.LBB115_8:
	beqz	a0, .LBB115_39
	srli	a0, s7, 3
	beq	a0, a2, .LBB115_11
	sltu	a0, a2, a0
	j	.LBB115_12
.LBB115_11:
	srli	a0, s8, 3
	slli	a3, s7, 29
	or	a0, a0, a3
	sltu	a0, a1, a0
.LBB115_12:
	bnez	a0, .LBB115_39
	slli	a0, s8, 1
	add	a0, a0, s4
	lw	s1, -16(a0)
	andi	a3, s1, 1
	beqz	a3, .LBB115_39
	lw	a3, -8(a0)
	lw	s0, -4(a0)
	and	a3, a3, s3
	and	s0, s0, s2
	xor	s0, s0, s10
	xor	a3, a3, s9
	or	a3, a3, s0
	bnez	a3, .LBB115_39
	lw	a0, -12(a0)
	and	a3, s1, s3
	addi	s11, s11, 1
	and	a0, a0, s2
	seqz	s0, s11
	or	s1, a3, a0
	add	ra, ra, s0
	mv	s9, s8
	mv	s10, s7
	bnez	s1, .LBB115_5
	xor	a0, s6, s8
	xor	a3, s5, s7
	or	a0, a0, a3
	beqz	a0, .LBB115_18
	j	.LBB115_39
.LBB115_17:
	or	a0, s6, s5
	bnez	a0, .LBB115_39
.LBB115_18:
	andi	t1, t1, 15
	andi	t2, t2, -8
	andi	t4, t4, 15
	andi	t5, t5, -8
	or	a0, t2, t1
	seqz	t6, t6
	beqz	a0, .LBB115_36
	li	s7, 0
	li	s8, 0
	li	s9, 0
	li	s10, 0
	mv	s1, t2
	mv	s0, t1
.LBB115_20:
	mv	s5, s0
	mv	s6, s1
	beq	a2, s10, .LBB115_22
	sltu	s0, s10, a2
	j	.LBB115_23
.LBB115_22:
	sltu	s0, s9, a1
.LBB115_23:
	beqz	s0, .LBB115_39
	srli	s0, s5, 3
	beq	s0, a2, .LBB115_26
	sltu	s0, a2, s0
	j	.LBB115_27
.LBB115_26:
	srli	s0, s6, 3
	slli	s1, s5, 29
	or	s0, s0, s1
	sltu	s0, a1, s0
.LBB115_27:
	bnez	s0, .LBB115_39
	slli	s0, s6, 1
	add	s0, s0, s4
	lw	a0, -16(s0)
	andi	s1, a0, 1
	beqz	s1, .LBB115_39
	lw	s1, -8(s0)
	lw	a3, -4(s0)
	and	s1, s1, s3
	and	a3, a3, s2
	xor	a3, a3, s8
	xor	s1, s1, s7
	or	a3, a3, s1
	bnez	a3, .LBB115_39
	lw	a3, -12(s0)
	and	s1, a0, s3
	addi	s9, s9, 1
	and	s0, a3, s2
	seqz	a0, s9
	or	a3, s1, s0
	add	s10, s10, a0
	mv	s7, s6
	mv	s8, s5
	bnez	a3, .LBB115_20
	xor	a0, t3, t2
	xor	a3, t0, t1
	or	a0, a0, a3
	beqz	a0, .LBB115_39
	xor	a0, t5, s6
	xor	a3, t4, s5
	or	a0, a0, a3
	bnez	a0, .LBB115_39
	bnez	t6, .LBB115_40
	mv	s0, a6
	mv	s1, a7
	addi	a0, sp, 8
	addi	a1, sp, 24
	mv	a2, t3
	mv	a3, t0
	mv	a4, t2
	mv	a5, t1
	call	ic_list_algorithms.merge.merge_runs.6bd71b5c7308988e
	mv	t3, a0
	mv	t0, a1
	slli	a0, a0, 1
	add	a2, s4, a0
	lw	a0, -12(a2)
	lw	a1, -16(a2)
	and	a0, a0, s2
	and	a1, a1, s3
	or	a3, a1, a0
	sw	zero, -8(a2)
	sw	zero, -4(a2)
	mv	s6, t3
	mv	s5, t0
	mv	a7, s1
	mv	a6, s0
	beqz	a3, .LBB115_41
.LBB115_35:
	mv	a2, s6
	mv	s6, a1
	slli	a1, a1, 1
	add	a3, s4, a1
	lw	a1, -12(a3)
	lw	a4, -16(a3)
	mv	a5, s5
	mv	s5, a0
	and	a0, a1, s2
	and	a1, a4, s3
	or	a4, a1, a0
	sw	a5, -4(a3)
	sw	a2, -8(a3)
	bnez	a4, .LBB115_35
	j	.LBB115_41
.LBB115_36:
	or	a0, t5, t4
	bnez	a0, .LBB115_39
	beqz	t6, .LBB115_41
	li	t3, 0
	li	t0, 0
	li	s6, 0
	li	s5, 0
	j	.LBB115_41
.LBB115_39:
	mv	a0, a1
	mv	a1, a2
	mv	a2, a4
	mv	a3, a5
	lw	ra, 92(sp)
	lw	s0, 88(sp)
	lw	s1, 84(sp)
	lw	s2, 80(sp)
	lw	s3, 76(sp)
	lw	s4, 72(sp)
	lw	s5, 68(sp)
	lw	s6, 64(sp)
	lw	s7, 60(sp)
	lw	s8, 56(sp)
	lw	s9, 52(sp)
	lw	s10, 48(sp)
	lw	s11, 44(sp)
	.cfi_restore ra
	.cfi_restore s0
	.cfi_restore s1
	.cfi_restore s2
	.cfi_restore s3
	.cfi_restore s4
	.cfi_restore s5
	.cfi_restore s6
	.cfi_restore s7
	.cfi_restore s8
	.cfi_restore s9
	.cfi_restore s10
	.cfi_restore s11
	addi	sp, sp, 96
	.cfi_def_cfa_offset 0
	tail	ic_raw.sort_calls.refusal.78cbab63d6c27224
.LBB115_40:
	.cfi_restore_state
	mv	t3, t2
	mv	t0, t1
	mv	s6, t5
	mv	s5, t4
.LBB115_41:
	srli	t1, t3, 24
	srli	a1, t3, 16
	srli	a2, t3, 8
	srli	t2, t0, 24
	srli	a4, t0, 16
	srli	a5, t0, 8
	srli	s1, s6, 24
	srli	s0, s6, 16
	srli	a0, s6, 8
	srli	a3, s5, 24
	sb	t3, 0(a6)
	sb	a2, 1(a6)
	sb	a1, 2(a6)
	sb	t1, 3(a6)
	srli	a1, s5, 16
	sb	t0, 4(a6)
	sb	a5, 5(a6)
	sb	a4, 6(a6)
	sb	t2, 7(a6)
	srli	a2, s5, 8
	sb	s6, 8(a6)
	sb	a0, 9(a6)
	sb	s0, 10(a6)
	sb	s1, 11(a6)
	sb	s5, 12(a6)
	sb	a2, 13(a6)
	sb	a1, 14(a6)
	sb	a3, 15(a6)
	li	a2, 16
	mv	a0, a7
	li	a1, 0
	li	a3, 0
	li	a4, 0
	call	ic.clear
	li	a0, 0
	lw	ra, 92(sp)
	lw	s0, 88(sp)
	lw	s1, 84(sp)
	lw	s2, 80(sp)
	lw	s3, 76(sp)
	lw	s4, 72(sp)
	lw	s5, 68(sp)
	lw	s6, 64(sp)
	lw	s7, 60(sp)
	lw	s8, 56(sp)
	lw	s9, 52(sp)
	lw	s10, 48(sp)
	lw	s11, 44(sp)
	.cfi_restore ra
	.cfi_restore s0
	.cfi_restore s1
	.cfi_restore s2
	.cfi_restore s3
	.cfi_restore s4
	.cfi_restore s5
	.cfi_restore s6
	.cfi_restore s7
	.cfi_restore s8
	.cfi_restore s9
	.cfi_restore s10
	.cfi_restore s11
	addi	sp, sp, 96
	.cfi_def_cfa_offset 0
	ret
.Lfunc_end115:
	.size	ic_list_merge, .Lfunc_end115-ic_list_merge
	.cfi_endproc
	.section	.text.ic_list_move_after,"ax",@progbits
	.globl	ic_list_move_after
	.p2align	1
	.type	ic_list_move_after,@function
ic_list_move_after:
	.cfi_startproc
	addi	sp, sp, -48
	.cfi_def_cfa_offset 48
	sw	s0, 44(sp)
	sw	s1, 40(sp)
	sw	s2, 36(sp)
	sw	s3, 32(sp)
	sw	s4, 28(sp)
	sw	s5, 24(sp)
	sw	s6, 20(sp)
	sw	s7, 16(sp)
	sw	s8, 12(sp)
	sw	s9, 8(sp)
	sw	s10, 4(sp)
	.cfi_offset s0, -4
	.cfi_offset s1, -8
	.cfi_offset s2, -12
	.cfi_offset s3, -16
	.cfi_offset s4, -20
	.cfi_offset s5, -24
	.cfi_offset s6, -28
	.cfi_offset s7, -32
	.cfi_offset s8, -36
	.cfi_offset s9, -40
	.cfi_offset s10, -44
	.cfi_remember_state
	mv	a6, a5
	addi	a5, a5, 1
	bnez	a5, .LBB116_2
	li	a0, 4
	j	.LBB116_30
.LBB116_2:
	mv	a7, a4
	seqz	a4, a0
	sltu	s1, a1, a5
	seqz	s6, a2
	slli	a4, a4, 12
	and	s1, s6, s1
	add	a0, a0, a4
	bnez	s1, .LBB116_31
	slli	s5, a5, 3
	slli	a4, s5, 1
	add	s10, a0, a4
	lw	s0, -16(s10)
	andi	s1, s0, 1
	beqz	s1, .LBB116_31
	lw	s1, -4(s10)
	lw	a4, -8(s10)
	li	s3, 15
	li	s4, -8
	and	t0, s1, s3
	and	t1, a4, s4
	or	a4, t1, t0
	beqz	a4, .LBB116_31
	lw	a4, -12(s10)
	and	t3, s0, s4
	and	t2, a4, s3
	or	a4, t3, t2
	beqz	a4, .LBB116_31
	srli	s1, t0, 3
	beq	s1, a2, .LBB116_8
	sltu	s1, a2, s1
	j	.LBB116_9
.LBB116_8:
	srli	a4, t1, 3
	slli	s1, t0, 29
	or	a4, a4, s1
	sltu	s1, a1, a4
.LBB116_9:
	bnez	s1, .LBB116_31
	slli	t6, t1, 1
	add	t6, t6, a0
	lw	t5, -12(t6)
	lw	s2, -16(t6)
	srli	t4, a5, 29
	addi	a4, s5, 1
	xor	a5, t5, t4
	xor	a4, s2, a4
	or	a4, a4, a5
	bnez	a4, .LBB116_31
	srli	a5, t2, 3
	beq	a5, a2, .LBB116_13
	sltu	a5, a2, a5
	j	.LBB116_14
.LBB116_13:
	srli	a4, t3, 3
	slli	a5, t2, 29
	or	a4, a4, a5
	sltu	a5, a1, a4
.LBB116_14:
	bnez	a5, .LBB116_31
	slli	s8, t3, 1
	add	s8, s8, a0
	lw	a4, -4(s8)
	lw	a5, -8(s8)
	xor	a4, a4, t4
	xor	a5, a5, s5
	or	a4, a4, a5
	bnez	a4, .LBB116_31
	addi	s9, a7, 1
	sltu	a4, a1, s9
	and	a4, s6, a4
	bnez	a4, .LBB116_31
	beqz	s9, .LBB116_31
	lw	a4, -16(s8)
	andi	a4, a4, 1
	beqz	a4, .LBB116_31
	slli	s7, s9, 3
	slli	s6, s7, 1
	add	s6, s6, a0
	lw	a5, -16(s6)
	andi	a4, a5, 1
	beqz	a4, .LBB116_31
	lw	a4, -12(s6)
	and	s0, a5, s4
	and	s4, a4, s3
	or	a4, s0, s4
	beqz	a4, .LBB116_31
	srli	s1, s4, 3
	beq	s1, a2, .LBB116_23
	sltu	s1, a2, s1
	j	.LBB116_24
.LBB116_23:
	srli	a4, s0, 3
	slli	s1, s4, 29
	or	a4, a4, s1
	sltu	s1, a1, a4
.LBB116_24:
	bnez	s1, .LBB116_31
	slli	s1, s0, 1
	add	s1, s1, a0
	lw	a4, -4(s1)
	lw	a5, -8(s1)
	srli	s3, s9, 29
	xor	a4, a4, s3
	xor	a5, a5, s7
	or	a4, a4, a5
	bnez	a4, .LBB116_31
	lw	a4, -16(s1)
	andi	a4, a4, 1
	beqz	a4, .LBB116_31
	xor	a0, s7, s5
	xor	a1, s3, t4
	or	a1, a1, a0
	li	a0, 0
	beqz	a1, .LBB116_30
	xor	a1, s0, s5
	xor	a2, s4, t4
	or	a1, a1, a2
	beqz	a1, .LBB116_30
	li	a0, 0
	lw	a1, 0(a3)
	lw	a2, 4(a3)
	lw	a4, 8(a3)
	lw	a5, 12(a3)
	addi	t3, t3, 1
	addi	s0, s0, 1
	sw	t3, -16(t6)
	sw	t2, -12(t6)
	sw	t1, -8(s8)
	sw	t0, -4(s8)
	sw	s2, -16(s6)
	sw	t5, -12(s6)
	sw	s5, -8(s1)
	sw	t4, -4(s1)
	sw	s0, -16(s10)
	sw	s4, -12(s10)
	sw	s7, -8(s10)
	sw	s3, -4(s10)
	andi	a2, a2, 15
	andi	a1, a1, -8
	andi	a6, a5, 15
	andi	a4, a4, -8
	srli	a7, a1, 24
	srli	t0, a1, 16
	srli	a5, a1, 8
	sb	a2, 4(a3)
	sb	zero, 5(a3)
	sb	zero, 6(a3)
	sb	zero, 7(a3)
	srli	a2, a4, 24
	srli	s1, a4, 16
	srli	s0, a4, 8
	sb	a1, 0(a3)
	sb	a5, 1(a3)
	sb	t0, 2(a3)
	sb	a7, 3(a3)
	sb	a4, 8(a3)
	sb	s0, 9(a3)
	sb	s1, 10(a3)
	sb	a2, 11(a3)
	sb	a6, 12(a3)
	sb	zero, 13(a3)
	sb	zero, 14(a3)
	sb	zero, 15(a3)
.LBB116_30:
	lw	s0, 44(sp)
	lw	s1, 40(sp)
	lw	s2, 36(sp)
	lw	s3, 32(sp)
	lw	s4, 28(sp)
	lw	s5, 24(sp)
	lw	s6, 20(sp)
	lw	s7, 16(sp)
	lw	s8, 12(sp)
	lw	s9, 8(sp)
	lw	s10, 4(sp)
	.cfi_restore s0
	.cfi_restore s1
	.cfi_restore s2
	.cfi_restore s3
	.cfi_restore s4
	.cfi_restore s5
	.cfi_restore s6
	.cfi_restore s7
	.cfi_restore s8
	.cfi_restore s9
	.cfi_restore s10
	addi	sp, sp, 48
	.cfi_def_cfa_offset 0
	ret
.LBB116_31:
	.cfi_restore_state
	li	a4, 0
	mv	a5, a7
	lw	s0, 44(sp)
	lw	s1, 40(sp)
	lw	s2, 36(sp)
	lw	s3, 32(sp)
	lw	s4, 28(sp)
	lw	s5, 24(sp)
	lw	s6, 20(sp)
	lw	s7, 16(sp)
	lw	s8, 12(sp)
	lw	s9, 8(sp)
	lw	s10, 4(sp)
	.cfi_restore s0
	.cfi_restore s1
	.cfi_restore s2
	.cfi_restore s3
	.cfi_restore s4
	.cfi_restore s5
	.cfi_restore s6
	.cfi_restore s7
	.cfi_restore s8
	.cfi_restore s9
	.cfi_restore s10
	addi	sp, sp, 48
	.cfi_def_cfa_offset 0
	tail	ic_raw.move_calls.move_slow.5386baa488213e47
.Lfunc_end116:
	.size	ic_list_move_after, .Lfunc_end116-ic_list_move_after
	.cfi_endproc
	.section	.text.ic_list_move_before,"ax",@progbits
	.globl	ic_list_move_before
	.p2align	1
	.type	ic_list_move_before,@function
ic_list_move_before:
	.cfi_startproc
	addi	sp, sp, -64
	.cfi_def_cfa_offset 64
	sw	ra, 60(sp)
	sw	s0, 56(sp)
	sw	s1, 52(sp)
	sw	s2, 48(sp)
	sw	s3, 44(sp)
	sw	s4, 40(sp)
	sw	s5, 36(sp)
	sw	s6, 32(sp)
	sw	s7, 28(sp)
	sw	s8, 24(sp)
	sw	s9, 20(sp)
	sw	s10, 16(sp)
	sw	s11, 12(sp)
	.cfi_offset ra, -4
	.cfi_offset s0, -8
	.cfi_offset s1, -12
	.cfi_offset s2, -16
	.cfi_offset s3, -20
	.cfi_offset s4, -24
	.cfi_offset s5, -28
	.cfi_offset s6, -32
	.cfi_offset s7, -36
	.cfi_offset s8, -40
	.cfi_offset s9, -44
	.cfi_offset s10, -48
	.cfi_offset s11, -52
	.cfi_remember_state
	mv	a7, a4
	addi	a4, a5, 1
	bnez	a4, .LBB117_2
	li	a0, 4
	j	.LBB117_29
.LBB117_2:
	mv	a6, a5
	seqz	a5, a0
	sltu	s1, a1, a4
	seqz	s9, a2
	slli	a5, a5, 12
	and	s1, s9, s1
	add	a0, a0, a5
	bnez	s1, .LBB117_30
	slli	t4, a4, 3
	slli	s6, t4, 1
	add	s6, s6, a0
	lw	s1, -16(s6)
	andi	a5, s1, 1
	beqz	a5, .LBB117_30
	lw	a5, -4(s6)
	lw	s0, -8(s6)
	li	s3, 15
	li	s2, -8
	and	t0, a5, s3
	and	t1, s0, s2
	or	a5, t1, t0
	beqz	a5, .LBB117_30
	lw	a5, -12(s6)
	and	t3, s1, s2
	and	t2, a5, s3
	or	a5, t3, t2
	beqz	a5, .LBB117_30
	srli	a5, t0, 3
	beq	a5, a2, .LBB117_8
	sltu	a5, a2, a5
	j	.LBB117_9
.LBB117_8:
	srli	a5, t1, 3
	slli	s1, t0, 29
	or	a5, a5, s1
	sltu	a5, a1, a5
.LBB117_9:
	bnez	a5, .LBB117_30
	slli	s4, t1, 1
	add	s4, s4, a0
	lw	t5, -12(s4)
	lw	t6, -16(s4)
	srli	s5, a4, 29
	addi	a4, t4, 1
	xor	a5, t5, s5
	xor	a4, t6, a4
	or	a4, a4, a5
	bnez	a4, .LBB117_30
	srli	a4, t2, 3
	beq	a4, a2, .LBB117_13
	sltu	a4, a2, a4
	j	.LBB117_14
.LBB117_13:
	srli	a4, t3, 3
	slli	a5, t2, 29
	or	a4, a4, a5
	sltu	a4, a1, a4
.LBB117_14:
	bnez	a4, .LBB117_30
	slli	s7, t3, 1
	add	s7, s7, a0
	lw	a4, -4(s7)
	lw	a5, -8(s7)
	xor	a4, a4, s5
	xor	a5, a5, t4
	or	a4, a4, a5
	bnez	a4, .LBB117_30
	addi	s8, a7, 1
	sltu	a4, a1, s8
	and	a4, s9, a4
	bnez	a4, .LBB117_30
	beqz	s8, .LBB117_30
	lw	a4, -16(s7)
	andi	a4, a4, 1
	beqz	a4, .LBB117_30
	slli	s11, s8, 3
	slli	s0, s11, 1
	add	ra, a0, s0
	lbu	a4, -16(ra)
	andi	a4, a4, 1
	beqz	a4, .LBB117_30
	lw	a4, -4(ra)
	lw	a5, -8(ra)
	and	s9, a4, s3
	and	s10, a5, s2
	or	a4, s10, s9
	beqz	a4, .LBB117_30
	srli	a4, s9, 3
	beq	a4, a2, .LBB117_23
	sltu	a4, a2, a4
	j	.LBB117_24
.LBB117_23:
	slli	a4, s9, 29
	srli	a5, s10, 3
	or	a4, a4, a5
	sltu	a4, a1, a4
.LBB117_24:
	bnez	a4, .LBB117_30
	slli	a5, s10, 1
	add	a5, a5, a0
	lw	s2, -12(a5)
	lw	s3, -16(a5)
	srli	a4, s8, 29
	addi	s8, s11, 1
	xor	s1, s2, a4
	xor	s0, s3, s8
	or	s0, s0, s1
	bnez	s0, .LBB117_30
	xor	a0, s10, t4
	xor	a1, s9, s5
	or	a1, a1, a0
	li	a0, 0
	beqz	a1, .LBB117_29
	xor	a1, s11, t4
	xor	a2, a4, s5
	or	a1, a1, a2
	beqz	a1, .LBB117_29
	li	a0, 0
	lw	a1, 0(a3)
	lw	a2, 4(a3)
	lw	a4, 8(a3)
	lw	s1, 12(a3)
	addi	t3, t3, 1
	sw	t3, -16(s4)
	sw	t2, -12(s4)
	sw	t1, -8(s7)
	sw	t0, -4(s7)
	sw	t6, -16(a5)
	sw	t5, -12(a5)
	sw	t4, -8(ra)
	sw	s5, -4(ra)
	sw	s3, -16(s6)
	sw	s2, -12(s6)
	sw	s10, -8(s6)
	sw	s9, -4(s6)
	andi	a2, a2, 15
	andi	a1, a1, -8
	andi	a6, s1, 15
	andi	a4, a4, -8
	srli	a7, a1, 24
	srli	t0, a1, 16
	srli	s1, a1, 8
	sb	a2, 4(a3)
	sb	zero, 5(a3)
	sb	zero, 6(a3)
	sb	zero, 7(a3)
	srli	a2, a4, 24
	srli	a5, a4, 16
	srli	s0, a4, 8
	sb	a1, 0(a3)
	sb	s1, 1(a3)
	sb	t0, 2(a3)
	sb	a7, 3(a3)
	sb	a4, 8(a3)
	sb	s0, 9(a3)
	sb	a5, 10(a3)
	sb	a2, 11(a3)
	sb	a6, 12(a3)
	sb	zero, 13(a3)
	sb	zero, 14(a3)
	sb	zero, 15(a3)
.LBB117_29:
	lw	ra, 60(sp)
	lw	s0, 56(sp)
	lw	s1, 52(sp)
	lw	s2, 48(sp)
	lw	s3, 44(sp)
	lw	s4, 40(sp)
	lw	s5, 36(sp)
	lw	s6, 32(sp)
	lw	s7, 28(sp)
	lw	s8, 24(sp)
	lw	s9, 20(sp)
	lw	s10, 16(sp)
	lw	s11, 12(sp)
	.cfi_restore ra
	.cfi_restore s0
	.cfi_restore s1
	.cfi_restore s2
	.cfi_restore s3
	.cfi_restore s4
	.cfi_restore s5
	.cfi_restore s6
	.cfi_restore s7
	.cfi_restore s8
	.cfi_restore s9
	.cfi_restore s10
	.cfi_restore s11
	addi	sp, sp, 64
	.cfi_def_cfa_offset 0
	ret
.LBB117_30:
	.cfi_restore_state
	li	a4, 1
	mv	a5, a7
	lw	ra, 60(sp)
	lw	s0, 56(sp)
	lw	s1, 52(sp)
	lw	s2, 48(sp)
	lw	s3, 44(sp)
	lw	s4, 40(sp)
	lw	s5, 36(sp)
	lw	s6, 32(sp)
	lw	s7, 28(sp)
	lw	s8, 24(sp)
	lw	s9, 20(sp)
	lw	s10, 16(sp)
	lw	s11, 12(sp)
	.cfi_restore ra
	.cfi_restore s0
	.cfi_restore s1
	.cfi_restore s2
	.cfi_restore s3
	.cfi_restore s4
	.cfi_restore s5
	.cfi_restore s6
	.cfi_restore s7
	.cfi_restore s8
	.cfi_restore s9
	.cfi_restore s10
	.cfi_restore s11
	addi	sp, sp, 64
	.cfi_def_cfa_offset 0
	tail	ic_raw.move_calls.move_slow.5386baa488213e47
.Lfunc_end117:
	.size	ic_list_move_before, .Lfunc_end117-ic_list_move_before
	.cfi_endproc
	.section	.text.ic_list_move_to_back,"ax",@progbits
	.globl	ic_list_move_to_back
	.p2align	1
	.type	ic_list_move_to_back,@function
ic_list_move_to_back:
	.cfi_startproc
	addi	sp, sp, -32
	.cfi_def_cfa_offset 32
	sw	s0, 28(sp)
	sw	s1, 24(sp)
	sw	s2, 20(sp)
	sw	s3, 16(sp)
	sw	s4, 12(sp)
	sw	s5, 8(sp)
	sw	s6, 4(sp)
	.cfi_offset s0, -4
	.cfi_offset s1, -8
	.cfi_offset s2, -12
	.cfi_offset s3, -16
	.cfi_offset s4, -20
	.cfi_offset s5, -24
	.cfi_offset s6, -28
	.cfi_remember_state
	addi	a7, a4, 1
	bnez	a7, .LBB118_2
	li	a0, 4
	j	.LBB118_21
.LBB118_2:
	mv	a5, a4
	sltu	a4, a1, a7
	seqz	s1, a2
	and	a4, a4, s1
	seqz	s1, a0
	slli	s1, s1, 12
	add	a0, a0, s1
	bnez	a4, .LBB118_33
	srli	a6, a7, 29
	slli	a7, a7, 3
	li	t5, 15
	lw	s0, 8(a3)
	lw	a4, 12(a3)
	slli	s5, a7, 1
	add	s5, s5, a0
	lw	s1, -16(s5)
	li	t6, -8
	lw	s4, -12(s5)
	andi	t0, a4, 15
	andi	a4, s1, 1
	andi	t1, s0, -8
	beqz	a4, .LBB118_12
	lw	a4, -4(s5)
	lw	s0, -8(s5)
	and	t2, a4, t5
	and	t3, s0, t6
	or	a4, t3, t2
	beqz	a4, .LBB118_12
	and	s3, s1, t6
	and	t4, s4, t5
	or	a4, s3, t4
	beqz	a4, .LBB118_12
	srli	s2, t2, 3
	beq	s2, a2, .LBB118_11
	sltu	s2, a2, s2
	bnez	s2, .LBB118_12
.LBB118_8:
	slli	s2, t3, 1
	add	s2, s2, a0
	lw	t5, -12(s2)
	lw	t6, -16(s2)
	addi	a4, a7, 1
	xor	s0, t5, a6
	xor	a4, t6, a4
	or	a4, a4, s0
	bnez	a4, .LBB118_33
	srli	s0, t4, 3
	beq	s0, a2, .LBB118_22
	sltu	s0, a2, s0
	j	.LBB118_23
.LBB118_11:
	srli	a4, t3, 3
	slli	s0, t2, 29
	or	a4, a4, s0
	sltu	s2, a1, a4
	beqz	s2, .LBB118_8
.LBB118_12:
	xor	a4, t1, a7
	xor	s0, t0, a6
	or	a4, a4, s0
	bnez	a4, .LBB118_33
	xori	a4, s1, 1
	or	a4, a4, s4
	bnez	a4, .LBB118_33
	lw	a4, -4(s5)
	lw	s0, -8(s5)
	and	s1, a4, t5
	and	t0, s0, t6
	or	a4, t0, s1
	beqz	a4, .LBB118_33
	srli	s0, s1, 3
	beq	s0, a2, .LBB118_17
	sltu	s1, a2, s0
	j	.LBB118_18
.LBB118_17:
	slli	s1, s1, 29
	srli	a4, t0, 3
	or	a4, a4, s1
	sltu	s1, a1, a4
.LBB118_18:
	bnez	s1, .LBB118_33
	slli	t0, t0, 1
	add	t0, t0, a0
	lw	a4, -12(t0)
	lw	s1, -16(t0)
	addi	a7, a7, 1
	xor	a4, a4, a6
	xor	s1, s1, a7
	or	a4, a4, s1
	bnez	a4, .LBB118_33
	li	a0, 0
.LBB118_21:
	lw	s0, 28(sp)
	lw	s1, 24(sp)
	lw	s2, 20(sp)
	lw	s3, 16(sp)
	lw	s4, 12(sp)
	lw	s5, 8(sp)
	lw	s6, 4(sp)
	.cfi_restore s0
	.cfi_restore s1
	.cfi_restore s2
	.cfi_restore s3
	.cfi_restore s4
	.cfi_restore s5
	.cfi_restore s6
	addi	sp, sp, 32
	.cfi_def_cfa_offset 0
	ret
.LBB118_22:
	.cfi_restore_state
	srli	a4, s3, 3
	slli	s0, t4, 29
	or	a4, a4, s0
	sltu	s0, a1, a4
.LBB118_23:
	bnez	s0, .LBB118_33
	slli	s1, s3, 1
	add	s4, a0, s1
	lw	a4, -4(s4)
	lw	s0, -8(s4)
	xor	a4, a4, a6
	xor	s0, s0, a7
	or	a4, a4, s0
	bnez	a4, .LBB118_33
	lw	a4, -16(s4)
	andi	a4, a4, 1
	beqz	a4, .LBB118_33
	or	a4, t1, t0
	beqz	a4, .LBB118_33
	srli	s0, t0, 3
	beq	s0, a2, .LBB118_29
	sltu	s0, a2, s0
	j	.LBB118_30
.LBB118_29:
	srli	a4, t1, 3
	slli	s0, t0, 29
	or	a4, a4, s0
	sltu	s0, a1, a4
.LBB118_30:
	bnez	s0, .LBB118_33
	slli	s0, t1, 1
	add	s0, s0, a0
	lw	a4, -16(s0)
	lw	s1, -12(s0)
	xori	a4, a4, 1
	or	a4, a4, s1
	bnez	a4, .LBB118_33
	li	a0, 0
	lw	a1, 0(a3)
	lw	a2, 4(a3)
	addi	s3, s3, 1
	li	s6, 1
	sw	s3, -16(s2)
	sw	t4, -12(s2)
	srli	a5, a7, 24
	srli	s1, a7, 16
	sw	t3, -8(s4)
	sw	t2, -4(s4)
	srli	a4, a7, 8
	sw	t6, -16(s0)
	sw	t5, -12(s0)
	sw	s6, -16(s5)
	sw	zero, -12(s5)
	sw	t1, -8(s5)
	sw	t0, -4(s5)
	sb	a7, 8(a3)
	sb	a4, 9(a3)
	sb	s1, 10(a3)
	sb	a5, 11(a3)
	andi	a2, a2, 15
	andi	a1, a1, -8
	srli	a4, a1, 24
	srli	a5, a1, 16
	srli	s1, a1, 8
	sb	a2, 4(a3)
	sb	zero, 5(a3)
	sb	zero, 6(a3)
	sb	zero, 7(a3)
	sb	a1, 0(a3)
	sb	s1, 1(a3)
	sb	a5, 2(a3)
	sb	a4, 3(a3)
	sb	a6, 12(a3)
	sb	zero, 13(a3)
	sb	zero, 14(a3)
	sb	zero, 15(a3)
	j	.LBB118_21
.LBB118_33:
	li	a4, 1
	lw	s0, 28(sp)
	lw	s1, 24(sp)
	lw	s2, 20(sp)
	lw	s3, 16(sp)
	lw	s4, 12(sp)
	lw	s5, 8(sp)
	lw	s6, 4(sp)
	.cfi_restore s0
	.cfi_restore s1
	.cfi_restore s2
	.cfi_restore s3
	.cfi_restore s4
	.cfi_restore s5
	.cfi_restore s6
	addi	sp, sp, 32
	.cfi_def_cfa_offset 0
	tail	ic_raw.move_calls.move_to_end_slow.5386baa488213e47
.Lfunc_end118:
	.size	ic_list_move_to_back, .Lfunc_end118-ic_list_move_to_back
	.cfi_endproc
	.section	.text.ic_list_move_to_front,"ax",@progbits
	.globl	ic_list_move_to_front
	.p2align	1
	.type	ic_list_move_to_front,@function
ic_list_move_to_front:
	.cfi_startproc
	addi	sp, sp, -16
	.cfi_def_cfa_offset 16
	sw	s0, 12(sp)
	sw	s1, 8(sp)
	sw	s2, 4(sp)
	sw	s3, 0(sp)
	.cfi_offset s0, -4
	.cfi_offset s1, -8
	.cfi_offset s2, -12
	.cfi_offset s3, -16
	.cfi_remember_state
	addi	a7, a4, 1
	bnez	a7, .LBB119_2
	li	a0, 4
	lw	s0, 12(sp)
	lw	s1, 8(sp)
	lw	s2, 4(sp)
	lw	s3, 0(sp)
	.cfi_restore s0
	.cfi_restore s1
	.cfi_restore s2
	.cfi_restore s3
	addi	sp, sp, 16
	.cfi_def_cfa_offset 0
	ret
.LBB119_2:
	.cfi_restore_state
	.cfi_remember_state
	mv	a5, a4
	sltu	a4, a1, a7
	seqz	s1, a2
	and	a4, a4, s1
	seqz	s1, a0
	slli	s1, s1, 12
	add	a0, a0, s1
	bnez	a4, .LBB119_35
	srli	a6, a7, 29
	slli	a7, a7, 3
	li	t4, 15
	li	t5, -8
	lw	t0, 0(a3)
	lw	s1, 4(a3)
	slli	a4, a7, 1
	add	s3, a0, a4
	lw	a4, -16(s3)
	lw	s0, -12(s3)
	andi	t2, s1, 15
	andi	t3, t0, -8
	andi	s2, a4, 1
	and	t1, a4, t5
	and	t0, s0, t4
	beqz	s2, .LBB119_19
	lw	a4, -4(s3)
	lw	s1, -8(s3)
	and	t4, a4, t4
	and	t5, s1, t5
	or	a4, t5, t4
	beqz	a4, .LBB119_19
	or	a4, t1, t0
	beqz	a4, .LBB119_19
	srli	s1, t4, 3
	beq	s1, a2, .LBB119_8
	sltu	s1, a2, s1
	beqz	s1, .LBB119_9
	j	.LBB119_19
.LBB119_8:
	srli	a4, t5, 3
	slli	s1, t4, 29
	or	a4, a4, s1
	sltu	s1, a1, a4
	bnez	s1, .LBB119_19
.LBB119_9:
	slli	t6, t5, 1
	add	t6, t6, a0
	lw	a4, -12(t6)
	lw	s0, -16(t6)
	addi	s1, a7, 1
	xor	a4, a4, a6
	xor	s0, s0, s1
	or	a4, a4, s0
	bnez	a4, .LBB119_19
	srli	s0, t0, 3
	beq	s0, a2, .LBB119_12
	sltu	s0, a2, s0
	j	.LBB119_13
.LBB119_12:
	srli	a4, t1, 3
	slli	s0, t0, 29
	or	a4, a4, s0
	sltu	s0, a1, a4
.LBB119_13:
	bnez	s0, .LBB119_19
	slli	s1, t1, 1
	add	s1, s1, a0
	lw	a4, -4(s1)
	lw	s0, -8(s1)
	xor	a4, a4, a6
	xor	s0, s0, a7
	or	a4, a4, s0
	bnez	a4, .LBB119_19
	lw	a4, -16(s1)
	andi	a4, a4, 1
	beqz	a4, .LBB119_19
	or	a4, t3, t2
	beqz	a4, .LBB119_35
	srli	s0, t2, 3
	beq	s0, a2, .LBB119_30
	sltu	s0, a2, s0
	j	.LBB119_31
.LBB119_19:
	xor	a4, t3, a7
	xor	s1, t2, a6
	or	a4, a4, s1
	bnez	a4, .LBB119_35
	lw	a4, -8(s3)
	lw	s1, -4(s3)
	or	a4, a4, s1
	bnez	a4, .LBB119_35
	beqz	s2, .LBB119_35
	or	a4, t1, t0
	beqz	a4, .LBB119_35
	srli	a4, t0, 3
	beq	a4, a2, .LBB119_25
	sltu	a4, a2, a4
	j	.LBB119_26
.LBB119_25:
	srli	a4, t1, 3
	slli	t0, t0, 29
	or	a4, a4, t0
	sltu	a4, a1, a4
.LBB119_26:
	bnez	a4, .LBB119_35
	slli	a4, t1, 1
	add	a4, a4, a0
	lw	s1, -4(a4)
	lw	s0, -8(a4)
	xor	s1, s1, a6
	xor	s0, s0, a7
	or	s0, s0, s1
	bnez	s0, .LBB119_35
	lw	a4, -16(a4)
	andi	a4, a4, 1
	beqz	a4, .LBB119_35
	li	a0, 0
	lw	s0, 12(sp)
	lw	s1, 8(sp)
	lw	s2, 4(sp)
	lw	s3, 0(sp)
	.cfi_restore s0
	.cfi_restore s1
	.cfi_restore s2
	.cfi_restore s3
	addi	sp, sp, 16
	.cfi_def_cfa_offset 0
	ret
.LBB119_30:
	.cfi_restore_state
	.cfi_remember_state
	srli	a4, t3, 3
	slli	s0, t2, 29
	or	a4, a4, s0
	sltu	s0, a1, a4
.LBB119_31:
	bnez	s0, .LBB119_35
	slli	s0, t3, 1
	add	s0, s0, a0
	lw	s2, -8(s0)
	lw	a4, -4(s0)
	or	a4, s2, a4
	bnez	a4, .LBB119_35
	lw	a4, -16(s0)
	andi	a4, a4, 1
	beqz	a4, .LBB119_35
	li	a0, 0
	lw	s2, 8(a3)
	lw	a2, 12(a3)
	addi	t1, t1, 1
	addi	t3, t3, 1
	srli	a4, a7, 24
	sw	t1, -16(t6)
	sw	t0, -12(t6)
	srli	a5, a7, 16
	srli	a1, a7, 8
	sw	t5, -8(s1)
	sw	t4, -4(s1)
	sw	a7, -8(s0)
	sw	a6, -4(s0)
	sw	t3, -16(s3)
	sw	t2, -12(s3)
	sw	zero, -8(s3)
	sw	zero, -4(s3)
	sb	a7, 0(a3)
	sb	a1, 1(a3)
	sb	a5, 2(a3)
	sb	a4, 3(a3)
	sb	a6, 4(a3)
	sb	zero, 5(a3)
	sb	zero, 6(a3)
	sb	zero, 7(a3)
	andi	a2, a2, 15
	andi	a1, s2, -8
	srli	a4, a1, 24
	srli	a5, a1, 16
	srli	s1, a1, 8
	sb	a1, 8(a3)
	sb	s1, 9(a3)
	sb	a5, 10(a3)
	sb	a4, 11(a3)
	sb	a2, 12(a3)
	sb	zero, 13(a3)
	sb	zero, 14(a3)
	sb	zero, 15(a3)
	lw	s0, 12(sp)
	lw	s1, 8(sp)
	lw	s2, 4(sp)
	lw	s3, 0(sp)
	.cfi_restore s0
	.cfi_restore s1
	.cfi_restore s2
	.cfi_restore s3
	addi	sp, sp, 16
	.cfi_def_cfa_offset 0
	ret
.LBB119_35:
	.cfi_restore_state
	li	a4, 0
	lw	s0, 12(sp)
	lw	s1, 8(sp)
	lw	s2, 4(sp)
	lw	s3, 0(sp)
	.cfi_restore s0
	.cfi_restore s1
	.cfi_restore s2
	.cfi_restore s3
	addi	sp, sp, 16
	.cfi_def_cfa_offset 0
	tail	ic_raw.move_calls.move_to_end_slow.5386baa488213e47
.Lfunc_end119:
	.size	ic_list_move_to_front, .Lfunc_end119-ic_list_move_to_front
	.cfi_endproc
	.section	.text.ic_list_pop_back,"ax",@progbits
	.globl	ic_list_pop_back
	.p2align	1
	.type	ic_list_pop_back,@function
ic_list_pop_back:
	.cfi_startproc
	addi	sp, sp, -16
	.cfi_def_cfa_offset 16
	sw	s0, 12(sp)
	sw	s1, 8(sp)
	sw	s2, 4(sp)
	.cfi_offset s0, -4
	.cfi_offset s1, -8
	.cfi_offset s2, -12
	.cfi_remember_state
	lw	a6, 12(a3)
	lw	a5, 8(a3)
	andi	a7, a6, 15
	andi	t0, a5, -8
	or	s0, t0, a7
	beqz	s0, .LBB120_14
	slli	a6, a6, 29
	srli	s0, a5, 3
	srli	a5, a7, 3
	or	a6, s0, a6
	beq	a5, a2, .LBB120_3
	sltu	a5, a2, a5
	beqz	a5, .LBB120_4
	j	.LBB120_14
.LBB120_3:
	sltu	a5, a1, a6
	bnez	a5, .LBB120_14
.LBB120_4:
	seqz	s0, a0
	li	t2, 15
	li	t1, -8
	slli	a5, t0, 1
	slli	t6, s0, 12
	add	t6, t6, a0
	add	s2, t6, a5
	lw	a0, -16(s2)
	lw	s0, -12(s2)
	addi	t4, t1, 1
	seqz	t5, t4
	add	t5, t5, t2
	and	s0, s0, t5
	and	a0, a0, t4
	xori	a0, a0, 1
	or	a0, a0, s0
	bnez	a0, .LBB120_14
	lw	a0, 4(a3)
	lw	s0, -4(s2)
	lw	s1, -8(s2)
	lw	a5, 0(a3)
	andi	t3, a0, 15
	and	t2, s0, t2
	and	s1, s1, t1
	or	s0, s1, t2
	andi	t1, a5, -8
	beqz	s0, .LBB120_8
	srli	s0, t2, 3
	beq	s0, a2, .LBB120_10
	sltu	a1, a2, s0
	beqz	a1, .LBB120_11
	j	.LBB120_14
.LBB120_8:
	xor	a1, t1, t0
	xor	a2, t3, a7
	or	a1, a1, a2
	bnez	a1, .LBB120_14
	li	t1, 0
	li	t3, 0
	j	.LBB120_13
.LBB120_10:
	srli	a2, s1, 3
	slli	a5, t2, 29
	or	a2, a2, a5
	sltu	a1, a1, a2
	bnez	a1, .LBB120_14
.LBB120_11:
	slli	a1, s1, 1
	add	t6, t6, a1
	lw	a1, -12(t6)
	lw	a2, -16(t6)
	addi	t0, t0, 1
	and	a1, a1, t5
	and	a2, a2, t4
	xor	a1, a1, a7
	xor	a2, a2, t0
	or	a1, a1, a2
	bnez	a1, .LBB120_14
	li	a1, 1
	sw	a1, -16(t6)
	sw	zero, -12(t6)
.LBB120_13:
	sw	zero, -16(s2)
	sw	zero, -12(s2)
	sb	t3, 4(a3)
	sb	zero, 5(a3)
	sb	zero, 6(a3)
	sb	zero, 7(a3)
	srli	a7, t1, 24
	srli	a2, t1, 16
	srli	a5, t1, 8
	sb	t2, 12(a3)
	sb	zero, 13(a3)
	sb	zero, 14(a3)
	sb	zero, 15(a3)
	srli	a1, s1, 24
	srli	s0, s1, 16
	srli	a0, s1, 8
	addi	a6, a6, -1
	sb	t1, 0(a3)
	sb	a5, 1(a3)
	sb	a2, 2(a3)
	sb	a7, 3(a3)
	sb	s1, 8(a3)
	sb	a0, 9(a3)
	sb	s0, 10(a3)
	sb	a1, 11(a3)
	sw	a6, 0(a4)
	li	a0, 0
	lw	s0, 12(sp)
	lw	s1, 8(sp)
	lw	s2, 4(sp)
	.cfi_restore s0
	.cfi_restore s1
	.cfi_restore s2
	addi	sp, sp, 16
	.cfi_def_cfa_offset 0
	ret
.LBB120_14:
	.cfi_restore_state
	li	a1, 1
	mv	a0, a3
	lw	s0, 12(sp)
	lw	s1, 8(sp)
	lw	s2, 4(sp)
	.cfi_restore s0
	.cfi_restore s1
	.cfi_restore s2
	addi	sp, sp, 16
	.cfi_def_cfa_offset 0
	tail	ic_raw.list_calls.refusal_to_pop
.Lfunc_end120:
	.size	ic_list_pop_back, .Lfunc_end120-ic_list_pop_back
	.cfi_endproc
	.section	.text.ic_list_pop_front,"ax",@progbits
	.globl	ic_list_pop_front
	.p2align	1
	.type	ic_list_pop_front,@function
ic_list_pop_front:
	.cfi_startproc
	lw	a6, 4(a3)
	lw	t1, 0(a3)
	seqz	a5, a0
	slli	t2, a5, 12
	andi	t0, a6, 15
	andi	a7, t1, -8
	or	a5, a7, t0
	add	a0, a0, t2
	beqz	a5, .LBB121_13
	slli	a6, a6, 29
	srli	t1, t1, 3
	srli	a5, t0, 3
	or	a6, t1, a6
	beq	a5, a2, .LBB121_3
	sltu	a5, a2, a5
	beqz	a5, .LBB121_4
	j	.LBB121_13
.LBB121_3:
	sltu	a5, a1, a6
	bnez	a5, .LBB121_13
.LBB121_4:
	slli	t3, a7, 1
	add	t3, t3, a0
	lw	t1, -8(t3)
	lw	a5, -4(t3)
	or	a5, t1, a5
	bnez	a5, .LBB121_13
	lw	t1, -16(t3)
	andi	a5, t1, 1
	beqz	a5, .LBB121_13
	lw	t4, -12(t3)
	li	t2, 15
	li	a5, -8
	and	t1, t1, a5
	and	t2, t4, t2
	or	a5, t1, t2
	beqz	a5, .LBB121_13
	srli	a5, t2, 3
	beq	a5, a2, .LBB121_9
	sltu	a5, a2, a5
	beqz	a5, .LBB121_10
	j	.LBB121_13
.LBB121_9:
	srli	t4, t1, 3
	slli	a5, t2, 29
	or	a5, t4, a5
	sltu	a5, a1, a5
	bnez	a5, .LBB121_13
.LBB121_10:
	slli	a5, t1, 1
	add	t6, a0, a5
	lw	t4, -4(t6)
	lw	t5, -8(t6)
	xor	t0, t4, t0
	xor	a5, t5, a7
	or	a5, a5, t0
	bnez	a5, .LBB121_13
	lw	a5, -16(t6)
	andi	a5, a5, 1
	beqz	a5, .LBB121_13
	sw	zero, -8(t6)
	sw	zero, -4(t6)
	sw	zero, -16(t3)
	sw	zero, -12(t3)
	sw	t1, 0(a3)
	sw	t2, 4(a3)
	addi	a6, a6, -1
	sw	a6, 0(a4)
	li	a0, 0
	ret
.LBB121_13:
	tail	ic_raw.list_calls.pop_front_slow.5386baa488213e47
.Lfunc_end121:
	.size	ic_list_pop_front, .Lfunc_end121-ic_list_pop_front
	.cfi_endproc
	.section	.text.ic_list_push_back,"ax",@progbits
	.globl	ic_list_push_back
	.p2align	1
	.type	ic_list_push_back,@function
ic_list_push_back:
	.cfi_startproc
	lw	t0, 12(a3)
	lw	t1, 8(a3)
	seqz	a5, a0
	slli	t2, a5, 12
	andi	a6, t0, 15
	andi	a7, t1, -8
	or	a5, a7, a6
	add	a0, a0, t2
	beqz	a5, .LBB122_9
	srli	a5, a6, 3
	beq	a5, a2, .LBB122_3
	sltu	a5, a2, a5
	beqz	a5, .LBB122_4
	j	.LBB122_9
.LBB122_3:
	slli	t0, t0, 29
	srli	a5, t1, 3
	or	a5, a5, t0
	sltu	a5, a1, a5
	bnez	a5, .LBB122_9
.LBB122_4:
	addi	t0, a4, 1
	sltu	t1, a1, t0
	seqz	a5, a2
	and	a5, a5, t1
	bnez	a5, .LBB122_9
	beqz	t0, .LBB122_9
	slli	t2, a7, 1
	add	t2, t2, a0
	lw	a5, -16(t2)
	lw	t1, -12(t2)
	xori	a5, a5, 1
	or	a5, a5, t1
	bnez	a5, .LBB122_9
	slli	t1, t0, 3
	slli	a5, t1, 1
	add	t3, a0, a5
	lbu	a5, -16(t3)
	andi	a5, a5, 1
	bnez	a5, .LBB122_9
	srli	a0, t0, 29
	addi	a1, t1, 1
	li	a2, 1
	sw	a1, -16(t2)
	sw	a0, -12(t2)
	sw	a2, -16(t3)
	sw	zero, -12(t3)
	sw	a7, -8(t3)
	sw	a6, -4(t3)
	sw	t1, 8(a3)
	sw	a0, 12(a3)
	li	a0, 0
	ret
.LBB122_9:
	tail	ic_raw.list_calls.push_back_slow.5386baa488213e47
.Lfunc_end122:
	.size	ic_list_push_back, .Lfunc_end122-ic_list_push_back
	.cfi_endproc
	.section	.text.ic_list_push_front,"ax",@progbits
	.globl	ic_list_push_front
	.p2align	1
	.type	ic_list_push_front,@function
ic_list_push_front:
	.cfi_startproc
	addi	sp, sp, -16
	.cfi_def_cfa_offset 16
	sw	s0, 12(sp)
	.cfi_offset s0, -4
	.cfi_remember_state
	seqz	a6, a0
	lw	a7, 0(a3)
	lw	a5, 4(a3)
	lw	t0, 8(a3)
	lw	t1, 12(a3)
	slli	a6, a6, 12
	add	a0, a0, a6
	andi	a6, a5, 15
	andi	t3, a7, -8
	andi	a7, t1, 15
	andi	t0, t0, -8
	or	t2, t3, a6
	slli	t1, t3, 1
	mv	t4, t0
	mv	t5, a7
	beqz	t2, .LBB123_6
	srli	a5, a6, 3
	beq	a5, a2, .LBB123_3
	sltu	a5, a2, a5
	beqz	a5, .LBB123_4
	j	.LBB123_13
.LBB123_3:
	srli	t4, t3, 3
	slli	a5, a6, 29
	or	a5, t4, a5
	sltu	a5, a1, a5
	bnez	a5, .LBB123_13
.LBB123_4:
	add	t4, a0, t1
	lbu	a5, -16(t4)
	andi	a5, a5, 1
	beqz	a5, .LBB123_13
	lw	a5, -4(t4)
	lw	t4, -8(t4)
	li	t5, 15
	li	t6, -8
	and	t5, a5, t5
	and	t4, t4, t6
.LBB123_6:
	addi	a5, a4, 1
	beqz	a5, .LBB123_13
	sltu	t6, a1, a5
	seqz	s0, a2
	and	s0, s0, t6
	bnez	s0, .LBB123_13
	or	s0, t4, t5
	bnez	s0, .LBB123_13
	slli	t5, a5, 3
	slli	t4, t5, 1
	add	t4, t4, a0
	lbu	s0, -16(t4)
	andi	s0, s0, 1
	bnez	s0, .LBB123_13
	srli	a2, a5, 29
	seqz	a5, t2
	mv	a4, t5
	mv	t2, a2
	bnez	a5, .LBB123_12
	add	a0, a0, t1
	sw	t5, -8(a0)
	sw	a2, -4(a0)
	mv	a4, t0
	mv	t2, a7
.LBB123_12:
	addi	t3, t3, 1
	srli	a7, t5, 24
	srli	a5, t5, 16
	srli	s0, t5, 8
	srli	t0, a4, 24
	srli	a0, a4, 16
	sw	t3, -16(t4)
	sw	a6, -12(t4)
	sw	zero, -8(t4)
	sw	zero, -4(t4)
	srli	a1, a4, 8
	sb	t5, 0(a3)
	sb	s0, 1(a3)
	sb	a5, 2(a3)
	sb	a7, 3(a3)
	sb	a2, 4(a3)
	sb	zero, 5(a3)
	sb	zero, 6(a3)
	sb	zero, 7(a3)
	sb	a4, 8(a3)
	sb	a1, 9(a3)
	sb	a0, 10(a3)
	sb	t0, 11(a3)
	sb	t2, 12(a3)
	sb	zero, 13(a3)
	sb	zero, 14(a3)
	sb	zero, 15(a3)
	li	a0, 0
	lw	s0, 12(sp)
	.cfi_restore s0
	addi	sp, sp, 16
	.cfi_def_cfa_offset 0
	ret
.LBB123_13:
	.cfi_restore_state
	li	a3, -1
	lw	s0, 12(sp)
	.cfi_restore s0
	addi	sp, sp, 16
	.cfi_def_cfa_offset 0
	tail	ic_raw.table.RawTable.refusal.85cd03e557136797
.Lfunc_end123:
	.size	ic_list_push_front, .Lfunc_end123-ic_list_push_front
	.cfi_endproc
	.section	.text.ic_list_remove,"ax",@progbits
	.globl	ic_list_remove
	.p2align	1
	.type	ic_list_remove,@function
ic_list_remove:
	.cfi_startproc
	addi	sp, sp, -16
	.cfi_def_cfa_offset 16
	sw	s0, 12(sp)
	.cfi_offset s0, -4
	.cfi_remember_state
	addi	t3, a4, 1
	bnez	t3, .LBB124_2
	li	a0, 4
	lw	s0, 12(sp)
	.cfi_restore s0
	addi	sp, sp, 16
	.cfi_def_cfa_offset 0
	ret
.LBB124_2:
	.cfi_restore_state
	.cfi_remember_state
	sltu	a6, a1, t3
	seqz	a5, a2
	and	a6, a5, a6
	seqz	a5, a0
	slli	a5, a5, 12
	add	a0, a0, a5
	bnez	a6, .LBB124_18
	slli	t0, t3, 3
	slli	t4, t0, 1
	add	t4, t4, a0
	lw	t1, -16(t4)
	andi	a5, t1, 1
	beqz	a5, .LBB124_18
	lw	a5, -4(t4)
	lw	a7, -8(t4)
	andi	a6, a5, 15
	andi	a7, a7, -8
	or	a5, a7, a6
	beqz	a5, .LBB124_18
	lw	t6, -12(t4)
	li	t5, 15
	li	a5, -8
	and	t2, t1, a5
	and	t1, t6, t5
	or	a5, t2, t1
	beqz	a5, .LBB124_18
	srli	a5, a6, 3
	beq	a5, a2, .LBB124_8
	sltu	a5, a2, a5
	j	.LBB124_9
.LBB124_8:
	srli	t5, a7, 3
	slli	a5, a6, 29
	or	a5, t5, a5
	sltu	a5, a1, a5
.LBB124_9:
	bnez	a5, .LBB124_18
	slli	t5, a7, 1
	add	t5, t5, a0
	lw	a5, -12(t5)
	lw	t6, -16(t5)
	srli	t3, t3, 29
	addi	s0, t0, 1
	xor	a5, a5, t3
	xor	s0, t6, s0
	or	a5, a5, s0
	bnez	a5, .LBB124_18
	srli	a5, t1, 3
	beq	a5, a2, .LBB124_13
	sltu	a5, a2, a5
	j	.LBB124_14
.LBB124_13:
	srli	a5, t2, 3
	slli	s0, t1, 29
	or	a5, a5, s0
	sltu	a5, a1, a5
.LBB124_14:
	bnez	a5, .LBB124_18
	slli	a5, t2, 1
	add	a5, a5, a0
	lw	s0, -4(a5)
	lw	t6, -8(a5)
	xor	t3, s0, t3
	xor	s0, t6, t0
	or	s0, s0, t3
	bnez	s0, .LBB124_18
	lw	s0, -16(a5)
	andi	s0, s0, 1
	beqz	s0, .LBB124_18
	li	a0, 0
	addi	t2, t2, 1
	sw	t2, -16(t5)
	sw	t1, -12(t5)
	sw	a7, -8(a5)
	sw	a6, -4(a5)
	sw	zero, -16(t4)
	sw	zero, -12(t4)
	lw	s0, 12(sp)
	.cfi_restore s0
	addi	sp, sp, 16
	.cfi_def_cfa_offset 0
	ret
.LBB124_18:
	.cfi_restore_state
	lw	s0, 12(sp)
	.cfi_restore s0
	addi	sp, sp, 16
	.cfi_def_cfa_offset 0
	tail	ic_raw.list_calls.remove_slow.5386baa488213e47
.Lfunc_end124:
	.size	ic_list_remove, .Lfunc_end124-ic_list_remove
	.cfi_endproc
	.section	.text.ic_list_replace,"ax",@progbits
	.globl	ic_list_replace
	.p2align	1
	.type	ic_list_replace,@function
ic_list_replace:
	.cfi_startproc
	addi	sp, sp, -64
	.cfi_def_cfa_offset 64
	sw	ra, 60(sp)
	sw	s0, 56(sp)
	sw	s1, 52(sp)
	sw	s2, 48(sp)
	sw	s3, 44(sp)
	sw	s4, 40(sp)
	sw	s5, 36(sp)
	sw	s6, 32(sp)
	sw	s7, 28(sp)
	sw	s8, 24(sp)
	sw	s9, 20(sp)
	sw	s10, 16(sp)
	sw	s11, 12(sp)
	.cfi_offset ra, -4
	.cfi_offset s0, -8
	.cfi_offset s1, -12
	.cfi_offset s2, -16
	.cfi_offset s3, -20
	.cfi_offset s4, -24
	.cfi_offset s5, -28
	.cfi_offset s6, -32
	.cfi_offset s7, -36
	.cfi_offset s8, -40
	.cfi_offset s9, -44
	.cfi_offset s10, -48
	.cfi_offset s11, -52
	.cfi_remember_state
	addi	s1, a4, 1
	bnez	s1, .LBB125_2
	li	a0, 4
	j	.LBB125_29
.LBB125_2:
	seqz	a6, a0
	sltu	s0, a1, s1
	seqz	t6, a2
	slli	a6, a6, 12
	and	s0, t6, s0
	add	a0, a0, a6
	bnez	s0, .LBB125_26
	slli	t5, s1, 3
	slli	a6, t5, 1
	add	a6, a6, a0
	lw	s8, -16(a6)
	andi	s0, s8, 1
	beqz	s0, .LBB125_26
	srli	s3, s1, 29
	li	s6, 15
	li	s5, -8
	lw	s7, -12(a6)
	lw	t0, -8(a6)
	lw	a7, -4(a6)
	lw	s1, 4(a3)
	lw	s0, 0(a3)
	lw	t1, 8(a3)
	lw	t2, 12(a3)
	andi	t3, s1, 15
	andi	t4, s0, -8
	and	a7, a7, s6
	and	t0, t0, s5
	or	s4, t0, a7
	slli	s2, t0, 1
	beqz	s4, .LBB125_7
	srli	s1, a7, 3
	beq	s1, a2, .LBB125_8
	sltu	s1, a2, s1
	j	.LBB125_9
.LBB125_7:
	xor	s0, t4, t5
	xor	s1, t3, s3
	or	s0, s0, s1
	beqz	s0, .LBB125_11
	j	.LBB125_26
.LBB125_8:
	srli	s0, t0, 3
	slli	s1, a7, 29
	or	s0, s0, s1
	sltu	s1, a1, s0
.LBB125_9:
	bnez	s1, .LBB125_26
	add	s0, a0, s2
	lw	s10, -16(s0)
	lw	s0, -12(s0)
	addi	s9, s5, 1
	seqz	s1, s9
	add	s1, s1, s6
	and	s0, s0, s1
	addi	s11, t5, 1
	and	s1, s10, s9
	xor	s0, s0, s3
	xor	s1, s1, s11
	or	s0, s0, s1
	bnez	s0, .LBB125_26
.LBB125_11:
	andi	t2, t2, 15
	andi	t1, t1, -8
	and	s10, s8, s5
	and	s8, s7, s6
	or	s9, s10, s8
	slli	s7, s10, 1
	mv	ra, t1
	mv	s11, t2
	beqz	s9, .LBB125_18
	srli	s0, s8, 3
	beq	s0, a2, .LBB125_14
	sltu	s0, a2, s0
	j	.LBB125_15
.LBB125_14:
	srli	s0, s10, 3
	slli	s1, s8, 29
	or	s0, s0, s1
	sltu	s0, a1, s0
.LBB125_15:
	bnez	s0, .LBB125_26
	add	s0, a0, s7
	lbu	s1, -16(s0)
	andi	s1, s1, 1
	beqz	s1, .LBB125_26
	lw	s1, -4(s0)
	lw	s0, -8(s0)
	and	s11, s1, s6
	and	ra, s0, s5
.LBB125_18:
	addi	s0, a5, 1
	sltu	s1, a1, s0
	and	s1, t6, s1
	bnez	s1, .LBB125_26
	beqz	s0, .LBB125_26
	xor	t5, ra, t5
	xor	s1, s11, s3
	or	s1, t5, s1
	bnez	s1, .LBB125_26
	slli	t6, s0, 3
	slli	t5, t6, 1
	add	t5, t5, a0
	lbu	s1, -16(t5)
	andi	s1, s1, 1
	bnez	s1, .LBB125_26
	srli	a4, s0, 29
	seqz	s0, s4
	seqz	a5, s9
	mv	a1, t6
	mv	s3, a4
	bnez	s0, .LBB125_24
	add	s2, s2, a0
	addi	a1, t6, 1
	sw	a1, -16(s2)
	sw	a4, -12(s2)
	mv	a1, t4
	mv	s3, t3
.LBB125_24:
	bnez	a5, .LBB125_27
	add	a0, a0, s7
	sw	t6, -8(a0)
	sw	a4, -4(a0)
	j	.LBB125_28
.LBB125_26:
	mv	a3, a4
	mv	a4, a5
	lw	ra, 60(sp)
	lw	s0, 56(sp)
	lw	s1, 52(sp)
	lw	s2, 48(sp)
	lw	s3, 44(sp)
	lw	s4, 40(sp)
	lw	s5, 36(sp)
	lw	s6, 32(sp)
	lw	s7, 28(sp)
	lw	s8, 24(sp)
	lw	s9, 20(sp)
	lw	s10, 16(sp)
	lw	s11, 12(sp)
	.cfi_restore ra
	.cfi_restore s0
	.cfi_restore s1
	.cfi_restore s2
	.cfi_restore s3
	.cfi_restore s4
	.cfi_restore s5
	.cfi_restore s6
	.cfi_restore s7
	.cfi_restore s8
	.cfi_restore s9
	.cfi_restore s10
	.cfi_restore s11
	addi	sp, sp, 64
	.cfi_def_cfa_offset 0
	tail	ic_raw.table.RawTable.refusal.85cd03e557136797
.LBB125_27:
	.cfi_restore_state
	mv	t1, t6
	mv	t2, a4
.LBB125_28:
	li	a0, 0
	addi	s10, s10, 1
	srli	t3, a1, 24
	srli	a5, a1, 16
	srli	s1, a1, 8
	sw	s10, -16(t5)
	sw	s8, -12(t5)
	sw	t0, -8(t5)
	sw	a7, -4(t5)
	srli	s0, t1, 24
	srli	a2, t1, 16
	sw	zero, -16(a6)
	sw	zero, -12(a6)
	srli	a4, t1, 8
	sb	s3, 4(a3)
	sb	zero, 5(a3)
	sb	zero, 6(a3)
	sb	zero, 7(a3)
	sb	a1, 0(a3)
	sb	s1, 1(a3)
	sb	a5, 2(a3)
	sb	t3, 3(a3)
	sb	t2, 12(a3)
	sb	zero, 13(a3)
	sb	zero, 14(a3)
	sb	zero, 15(a3)
	sb	t1, 8(a3)
	sb	a4, 9(a3)
	sb	a2, 10(a3)
	sb	s0, 11(a3)
.LBB125_29:
	lw	ra, 60(sp)
	lw	s0, 56(sp)
	lw	s1, 52(sp)
	lw	s2, 48(sp)
	lw	s3, 44(sp)
	lw	s4, 40(sp)
	lw	s5, 36(sp)
	lw	s6, 32(sp)
	lw	s7, 28(sp)
	lw	s8, 24(sp)
	lw	s9, 20(sp)
	lw	s10, 16(sp)
	lw	s11, 12(sp)
	.cfi_restore ra
	.cfi_restore s0
	.cfi_restore s1
	.cfi_restore s2
	.cfi_restore s3
	.cfi_restore s4
	.cfi_restore s5
	.cfi_restore s6
	.cfi_restore s7
	.cfi_restore s8
	.cfi_restore s9
	.cfi_restore s10
	.cfi_restore s11
	addi	sp, sp, 64
	.cfi_def_cfa_offset 0
	ret
.Lfunc_end125:
	.size	ic_list_replace, .Lfunc_end125-ic_list_replace
	.cfi_endproc
	.section	.text.ic_list_sort,"ax",@progbits
	.globl	ic_list_sort
	.p2align	1
	.type	ic_list_sort,@function
ic_list_sort:
	.cfi_startproc
	addi	sp, sp, -112
	.cfi_def_cfa_offset 112
	sw	ra, 108(sp)
	sw	s0, 104(sp)
	sw	s1, 100(sp)
	sw	s2, 96(sp)
	sw	s3, 92(sp)
	sw	s4, 88(sp)
	sw	s5, 84(sp)
	sw	s6, 80(sp)
	sw	s7, 76(sp)
	sw	s8, 72(sp)
	sw	s9, 68(sp)
	.cfi_offset ra, -4
	.cfi_offset s0, -8
	.cfi_offset s1, -12
	.cfi_offset s2, -16
	.cfi_offset s3, -20
	.cfi_offset s4, -24
	.cfi_offset s5, -28
	.cfi_offset s6, -32
	.cfi_offset s7, -36
	.cfi_offset s8, -40
	.cfi_offset s9, -44
	.cfi_remember_state
	seqz	s1, a0
	slli	t1, s1, 12
	add	t1, t1, a0
	seqz	a0, a3
	slli	a0, a0, 12
	add	a0, a0, a3
	sw	a0, 24(sp)
	sw	zero, 28(sp)
	sw	a4, 32(sp)
	sw	a5, 36(sp)
	sw	t1, 8(sp)
	sw	zero, 12(sp)
	sw	a1, 16(sp)
	sw	a2, 20(sp)
	beq	a5, a2, .LBB126_2
	sltu	a0, a5, a2
	beqz	a0, .LBB126_3
	j	.LBB126_26
.LBB126_2:
	sltu	a0, a4, a1
	bnez	a0, .LBB126_26
.LBB126_3:
	lw	a0, 4(a6)
	lw	a3, 0(a6)
	lw	s1, 12(a6)
	lw	s0, 8(a6)
	andi	s2, a0, 15
	andi	s3, a3, -8
	andi	a7, s1, 15
	or	a0, s3, s2
	andi	t0, s0, -8
	beqz	a0, .LBB126_24
	li	t4, 0
	li	t5, 0
	li	t6, 0
	li	s4, 0
	li	s6, 15
	li	s7, -8
	mv	s1, s3
	mv	a0, s2
.LBB126_5:
	mv	t2, a0
	mv	t3, s1
	beq	a2, s4, .LBB126_7
	sltu	a0, s4, a2
	j	.LBB126_8
.LBB126_7:
	sltu	a0, t6, a1
.LBB126_8:
	beqz	a0, .LBB126_26
	srli	a0, t2, 3
	beq	a0, a2, .LBB126_11
	sltu	a0, a2, a0
	j	.LBB126_12
.LBB126_11:
	srli	a0, t3, 3
	slli	s1, t2, 29
	or	a0, a0, s1
	sltu	a0, a1, a0
.LBB126_12:
	bnez	a0, .LBB126_26
	slli	a0, t3, 1
	add	a0, a0, t1
	lw	s0, -16(a0)
	andi	s1, s0, 1
	beqz	s1, .LBB126_26
	lw	s1, -8(a0)
	lw	a3, -4(a0)
	and	s1, s1, s7
	and	a3, a3, s6
	xor	a3, a3, t5
	xor	s1, s1, t4
	or	a3, a3, s1
	bnez	a3, .LBB126_26
	lw	a0, -12(a0)
	and	s1, s0, s7
	addi	t6, t6, 1
	and	a0, a0, s6
	seqz	a3, t6
	or	s0, s1, a0
	add	s4, s4, a3
	mv	t4, t3
	mv	t5, t2
	bnez	s0, .LBB126_5
	xor	a0, t0, t3
	xor	a3, a7, t2
	or	a0, a0, a3
	bnez	a0, .LBB126_26
	slli	a0, s3, 1
	add	a1, t1, a0
	lw	a2, -12(a1)
	lw	a3, -16(a1)
	li	a4, 1
	and	s4, a2, s6
	and	s5, a3, s7
	or	a2, s5, s4
	sw	a4, -16(a1)
	sw	zero, -12(a1)
	beqz	a2, .LBB126_21
	mv	s8, a6
	li	s1, 0
	li	s0, 0
.LBB126_19:
	addi	a0, sp, 40
	addi	a1, sp, 8
	addi	a2, sp, 24
	mv	a3, s5
	mv	a4, s4
	mv	a5, s1
	mv	a6, s0
	call	ic_list_algorithms.sort.sort_front.6bd71b5c7308988e
	lw	s4, 60(sp)
	lw	a4, 40(sp)
	lw	a5, 44(sp)
	lbu	s9, 48(sp)
	lw	s5, 56(sp)
	addi	a0, sp, 8
	addi	a1, sp, 24
	mv	a2, s3
	mv	a3, s2
	call	ic_list_algorithms.merge.merge_runs.6bd71b5c7308988e
	mv	s3, a0
	mv	s2, a1
	addi	s1, s1, 1
	seqz	a0, s1
	li	a1, 1
	add	s0, s0, a0
	beq	s9, a1, .LBB126_19
	lw	t1, 8(sp)
	slli	a0, s3, 1
	mv	a6, s8
.LBB126_21:
	add	t1, t1, a0
	sw	zero, -8(t1)
	sw	zero, -4(t1)
	lw	a2, 8(sp)
	add	a0, a0, a2
	lw	a1, -12(a0)
	lw	a0, -16(a0)
	and	a3, a1, s6
	and	a4, a0, s7
	or	a0, a4, a3
	beqz	a0, .LBB126_27
	mv	a0, s3
	mv	a1, s2
.LBB126_23:
	mv	a5, a0
	mv	a0, a4
	slli	a4, a4, 1
	add	a2, a2, a4
	sw	a5, -8(a2)
	sw	a1, -4(a2)
	lw	a2, 8(sp)
	add	a4, a4, a2
	lw	a5, -12(a4)
	lw	a4, -16(a4)
	mv	a1, a3
	and	a3, a5, s6
	and	a4, a4, s7
	or	a5, a4, a3
	bnez	a5, .LBB126_23
	j	.LBB126_28
.LBB126_24:
	or	a0, t0, a7
	bnez	a0, .LBB126_26
	li	s3, 0
	li	s2, 0
	li	a1, 0
	j	.LBB126_28
.LBB126_26:
	mv	a0, a1
	mv	a1, a2
	mv	a2, a4
	mv	a3, a5
	lw	ra, 108(sp)
	lw	s0, 104(sp)
	lw	s1, 100(sp)
	lw	s2, 96(sp)
	lw	s3, 92(sp)
	lw	s4, 88(sp)
	lw	s5, 84(sp)
	lw	s6, 80(sp)
	lw	s7, 76(sp)
	lw	s8, 72(sp)
	lw	s9, 68(sp)
	.cfi_restore ra
	.cfi_restore s0
	.cfi_restore s1
	.cfi_restore s2
	.cfi_restore s3
	.cfi_restore s4
	.cfi_restore s5
	.cfi_restore s6
	.cfi_restore s7
	.cfi_restore s8
	.cfi_restore s9
	addi	sp, sp, 112
	.cfi_def_cfa_offset 0
	tail	ic_raw.sort_calls.refusal.78cbab63d6c27224
.LBB126_27:
	.cfi_restore_state
	mv	a0, s3
	mv	a1, s2
.LBB126_28:
	srli	a7, s3, 24
	srli	t2, s3, 16
	srli	a4, s3, 8
	srli	t0, s2, 24
	srli	s1, s2, 16
	srli	s0, s2, 8
	srli	t1, a0, 24
	srli	a5, a0, 16
	srli	a2, a0, 8
	srli	a3, a1, 24
	sb	s3, 0(a6)
	sb	a4, 1(a6)
	sb	t2, 2(a6)
	sb	a7, 3(a6)
	srli	a4, a1, 16
	sb	s2, 4(a6)
	sb	s0, 5(a6)
	sb	s1, 6(a6)
	sb	t0, 7(a6)
	srli	s1, a1, 8
	sb	a0, 8(a6)
	sb	a2, 9(a6)
	sb	a5, 10(a6)
	sb	t1, 11(a6)
	sb	a1, 12(a6)
	sb	s1, 13(a6)
	sb	a4, 14(a6)
	sb	a3, 15(a6)
	li	a0, 0
	lw	ra, 108(sp)
	lw	s0, 104(sp)
	lw	s1, 100(sp)
	lw	s2, 96(sp)
	lw	s3, 92(sp)
	lw	s4, 88(sp)
	lw	s5, 84(sp)
	lw	s6, 80(sp)
	lw	s7, 76(sp)
	lw	s8, 72(sp)
	lw	s9, 68(sp)
	.cfi_restore ra
	.cfi_restore s0
	.cfi_restore s1
	.cfi_restore s2
	.cfi_restore s3
	.cfi_restore s4
	.cfi_restore s5
	.cfi_restore s6
	.cfi_restore s7
	.cfi_restore s8
	.cfi_restore s9
	addi	sp, sp, 112
	.cfi_def_cfa_offset 0
	ret
.Lfunc_end126:
	.size	ic_list_sort, .Lfunc_end126-ic_list_sort
	.cfi_endproc
	.section	.text.ic_list_splice_after,"ax",@progbits
	.globl	ic_list_splice_after
	.p2align	1
	.type	ic_list_splice_after,@function
ic_list_splice_after:
	.cfi_startproc
	addi	sp, sp, -16
	.cfi_def_cfa_offset 16
	sw	ra, 12(sp)
	sw	s0, 8(sp)
	sw	s1, 4(sp)
	.cfi_offset ra, -4
	.cfi_offset s0, -8
	.cfi_offset s1, -12
	.cfi_remember_state
	seqz	a6, a0
	slli	a6, a6, 12
	li	a7, -1
	add	a0, a0, a6
	bne	a4, a7, .LBB127_20
	lw	t0, 0(a3)
	lw	t1, 4(a3)
	andi	a7, t0, -8
	andi	a6, t1, 15
	or	t2, a7, a6
	beqz	t2, .LBB127_20
	srli	t2, a6, 3
	beq	t2, a2, .LBB127_4
	sltu	t0, a2, t2
	beqz	t0, .LBB127_5
	j	.LBB127_20
.LBB127_4:
	slli	t1, t1, 29
	srli	t0, t0, 3
	or	t0, t0, t1
	sltu	t0, a1, t0
	bnez	t0, .LBB127_20
.LBB127_5:
	slli	t2, a7, 1
	add	t2, t2, a0
	lw	t0, -8(t2)
	lw	t1, -4(t2)
	or	t0, t0, t1
	bnez	t0, .LBB127_20
	lw	t0, 4(a5)
	lw	t3, 0(a5)
	andi	t1, t0, 15
	andi	t0, t3, -8
	or	t3, t0, t1
	beqz	t3, .LBB127_20
	lw	t3, -16(t2)
	andi	t3, t3, 1
	beqz	t3, .LBB127_20
	srli	t3, t1, 3
	beq	t3, a2, .LBB127_10
	sltu	t3, a2, t3
	beqz	t3, .LBB127_11
	j	.LBB127_20
.LBB127_10:
	srli	t3, t0, 3
	slli	t4, t1, 29
	or	t3, t3, t4
	sltu	t3, a1, t3
	bnez	t3, .LBB127_20
.LBB127_11:
	slli	t3, t0, 1
	add	t3, t3, a0
	lw	t4, -8(t3)
	lw	t5, -4(t3)
	or	t4, t4, t5
	bnez	t4, .LBB127_20
	lw	t4, 12(a5)
	lw	t5, 8(a5)
	andi	t4, t4, 15
	andi	t5, t5, -8
	or	t6, t5, t4
	beqz	t6, .LBB127_20
	lw	t6, -16(t3)
	andi	t6, t6, 1
	beqz	t6, .LBB127_20
	srli	t6, t4, 3
	beq	t6, a2, .LBB127_16
	sltu	t6, a2, t6
	beqz	t6, .LBB127_17
	j	.LBB127_20
.LBB127_16:
	srli	t6, t5, 3
	slli	s0, t4, 29
	or	s0, t6, s0
	sltu	t6, a1, s0
	bnez	t6, .LBB127_20
.LBB127_17:
	xor	t6, a7, t0
	xor	s0, a6, t1
	or	s0, t6, s0
	beqz	s0, .LBB127_20
	slli	t6, t5, 1
	add	t6, t6, a0
	lw	s0, -16(t6)
	lw	s1, -12(t6)
	xori	s0, s0, 1
	or	s0, s0, s1
	bnez	s0, .LBB127_20
	lw	a0, 8(a3)
	lw	a1, 12(a3)
	sw	t5, -8(t2)
	sw	t4, -4(t2)
	sw	zero, -8(t3)
	sw	zero, -4(t3)
	addi	a7, a7, 1
	srli	a2, t0, 24
	srli	a4, t0, 16
	srli	s1, t0, 8
	sw	a7, -16(t6)
	sw	a6, -12(t6)
	sb	t1, 4(a3)
	sb	zero, 5(a3)
	sb	zero, 6(a3)
	sb	zero, 7(a3)
	sb	t0, 0(a3)
	sb	s1, 1(a3)
	sb	a4, 2(a3)
	sb	a2, 3(a3)
	andi	a1, a1, 15
	andi	a0, a0, -8
	sb	a1, 12(a3)
	sb	zero, 13(a3)
	sb	zero, 14(a3)
	sb	zero, 15(a3)
	srli	a1, a0, 24
	srli	a2, a0, 16
	srli	a4, a0, 8
	sb	a0, 8(a3)
	sb	a4, 9(a3)
	sb	a2, 10(a3)
	sb	a1, 11(a3)
	li	a2, 16
	mv	a0, a5
	li	a1, 0
	li	a3, 0
	li	a4, 0
	call	ic.clear
	li	a0, 0
	lw	ra, 12(sp)
	lw	s0, 8(sp)
	lw	s1, 4(sp)
	.cfi_restore ra
	.cfi_restore s0
	.cfi_restore s1
	addi	sp, sp, 16
	.cfi_def_cfa_offset 0
	ret
.LBB127_20:
	.cfi_restore_state
	li	a6, 0
	lw	ra, 12(sp)
	lw	s0, 8(sp)
	lw	s1, 4(sp)
	.cfi_restore ra
	.cfi_restore s0
	.cfi_restore s1
	addi	sp, sp, 16
	.cfi_def_cfa_offset 0
	tail	ic_raw.list_calls.splice_slow.5386baa488213e47
.Lfunc_end127:
	.size	ic_list_splice_after, .Lfunc_end127-ic_list_splice_after
	.cfi_endproc
	.section	.text.ic_list_splice_before,"ax",@progbits
	.globl	ic_list_splice_before
	.p2align	1
	.type	ic_list_splice_before,@function
ic_list_splice_before:
	.cfi_startproc
	addi	sp, sp, -32
	.cfi_def_cfa_offset 32
	sw	ra, 28(sp)
	sw	s0, 24(sp)
	sw	s1, 20(sp)
	sw	s2, 16(sp)
	sw	s3, 12(sp)
	sw	s4, 8(sp)
	.cfi_offset ra, -4
	.cfi_offset s0, -8
	.cfi_offset s1, -12
	.cfi_offset s2, -16
	.cfi_offset s3, -20
	.cfi_offset s4, -24
	.cfi_remember_state
	seqz	s1, a0
	slli	s1, s1, 12
	li	s0, -1
	add	a0, a0, s1
	bne	a4, s0, .LBB128_19
	lw	t0, 8(a3)
	lw	s0, 12(a3)
	andi	a6, t0, -8
	andi	a7, s0, 15
	or	s1, a6, a7
	beqz	s1, .LBB128_19
	srli	s1, a7, 3
	beq	s1, a2, .LBB128_4
	sltu	s1, a2, s1
	beqz	s1, .LBB128_5
	j	.LBB128_19
.LBB128_4:
	slli	s0, s0, 29
	srli	s1, t0, 3
	or	s0, s0, s1
	sltu	s1, a1, s0
	bnez	s1, .LBB128_19
.LBB128_5:
	lw	s1, 4(a5)
	lw	s0, 0(a5)
	andi	t0, s1, 15
	andi	t3, s0, -8
	or	s1, t3, t0
	beqz	s1, .LBB128_19
	slli	t1, a6, 1
	add	t1, t1, a0
	lw	s1, -16(t1)
	lw	s0, -12(t1)
	xori	s1, s1, 1
	or	s0, s0, s1
	bnez	s0, .LBB128_19
	srli	s1, t0, 3
	beq	s1, a2, .LBB128_9
	sltu	s1, a2, s1
	beqz	s1, .LBB128_10
	j	.LBB128_19
.LBB128_9:
	srli	s1, t3, 3
	slli	s0, t0, 29
	or	s0, s0, s1
	sltu	s1, a1, s0
	bnez	s1, .LBB128_19
.LBB128_10:
	slli	t5, t3, 1
	add	t5, t5, a0
	lw	s1, -8(t5)
	lw	s0, -4(t5)
	or	s0, s0, s1
	bnez	s0, .LBB128_19
	lw	s1, 12(a5)
	lw	s0, 8(a5)
	andi	t4, s1, 15
	andi	t2, s0, -8
	or	s1, t2, t4
	beqz	s1, .LBB128_19
	lw	s1, -16(t5)
	andi	s1, s1, 1
	beqz	s1, .LBB128_19
	srli	s1, t4, 3
	beq	s1, a2, .LBB128_15
	sltu	s1, a2, s1
	beqz	s1, .LBB128_16
	j	.LBB128_19
.LBB128_15:
	srli	s1, t2, 3
	slli	s0, t4, 29
	or	s0, s0, s1
	sltu	s1, a1, s0
	bnez	s1, .LBB128_19
.LBB128_16:
	lw	s0, 4(a3)
	lw	s1, 0(a3)
	andi	s2, s0, 15
	andi	t6, s1, -8
	xor	s1, t6, t3
	xor	s0, s2, t0
	or	s0, s0, s1
	beqz	s0, .LBB128_19
	slli	s1, t2, 1
	add	s3, a0, s1
	lw	s0, -16(s3)
	lw	s1, -12(s3)
	xori	s0, s0, 1
	or	s0, s0, s1
	bnez	s0, .LBB128_19
	addi	t3, t3, 1
	li	s4, 1
	srli	a1, t6, 24
	srli	a2, t6, 16
	sw	t3, -16(t1)
	sw	t0, -12(t1)
	srli	a4, t6, 8
	srli	s1, t2, 24
	sw	a6, -8(t5)
	sw	a7, -4(t5)
	srli	s0, t2, 16
	srli	a0, t2, 8
	sw	s4, -16(s3)
	sw	zero, -12(s3)
	sb	s2, 4(a3)
	sb	zero, 5(a3)
	sb	zero, 6(a3)
	sb	zero, 7(a3)
	sb	t6, 0(a3)
	sb	a4, 1(a3)
	sb	a2, 2(a3)
	sb	a1, 3(a3)
	sb	t4, 12(a3)
	sb	zero, 13(a3)
	sb	zero, 14(a3)
	sb	zero, 15(a3)
	sb	t2, 8(a3)
	sb	a0, 9(a3)
	sb	s0, 10(a3)
	sb	s1, 11(a3)
	li	a2, 16
	mv	a0, a5
	li	a1, 0
	li	a3, 0
	li	a4, 0
	call	ic.clear
	li	a0, 0
	lw	ra, 28(sp)
	lw	s0, 24(sp)
	lw	s1, 20(sp)
	lw	s2, 16(sp)
	lw	s3, 12(sp)
	lw	s4, 8(sp)
	.cfi_restore ra
	.cfi_restore s0
	.cfi_restore s1
	.cfi_restore s2
	.cfi_restore s3
	.cfi_restore s4
	addi	sp, sp, 32
	.cfi_def_cfa_offset 0
	ret
.LBB128_19:
	.cfi_restore_state
	li	a6, 1
	lw	ra, 28(sp)
	lw	s0, 24(sp)
	lw	s1, 20(sp)
	lw	s2, 16(sp)
	lw	s3, 12(sp)
	lw	s4, 8(sp)
	.cfi_restore ra
	.cfi_restore s0
	.cfi_restore s1
	.cfi_restore s2
	.cfi_restore s3
	.cfi_restore s4
	addi	sp, sp, 32
	.cfi_def_cfa_offset 0
	tail	ic_raw.list_calls.splice_slow.5386baa488213e47
.Lfunc_end128:
	.size	ic_list_splice_before, .Lfunc_end128-ic_list_splice_before
	.cfi_endproc
	.section	.text.ic_list_split_after,"ax",@progbits
	.globl	ic_list_split_after
	.p2align	1
	.type	ic_list_split_after,@function
ic_list_split_after:
	.cfi_startproc
	lw	a6, 4(a5)
	lw	a7, 0(a5)
	andi	a6, a6, 15
	andi	a7, a7, -8
	or	a6, a7, a6
	seqz	a7, a0
	slli	a7, a7, 12
	add	a0, a0, a7
	bnez	a6, .LBB129_12
	lw	t0, 12(a5)
	lw	t1, 8(a5)
	li	a6, 15
	li	a7, -8
	and	t0, t0, a6
	and	t1, t1, a7
	or	t0, t1, t0
	bnez	t0, .LBB129_12
	addi	t2, a4, 1
	beqz	t2, .LBB129_12
	sltu	t0, a1, t2
	seqz	t1, a2
	and	t0, t1, t0
	bnez	t0, .LBB129_12
	slli	t0, t2, 3
	slli	t1, t0, 1
	add	t1, t1, a0
	lw	t3, -16(t1)
	andi	t4, t3, 1
	beqz	t4, .LBB129_12
	lw	t4, -12(t1)
	and	a7, t3, a7
	and	a6, t4, a6
	or	t3, a7, a6
	beqz	t3, .LBB129_12
	srli	t3, a6, 3
	beq	t3, a2, .LBB129_8
	sltu	t3, a2, t3
	beqz	t3, .LBB129_9
	j	.LBB129_12
.LBB129_8:
	srli	t3, a7, 3
	slli	t4, a6, 29
	or	t3, t3, t4
	sltu	t3, a1, t3
	bnez	t3, .LBB129_12
.LBB129_9:
	slli	t3, a7, 1
	add	t3, t3, a0
	lw	t4, -4(t3)
	lw	t5, -8(t3)
	srli	t2, t2, 29
	xor	t4, t4, t2
	xor	t5, t5, t0
	or	t4, t5, t4
	bnez	t4, .LBB129_12
	lw	t4, -16(t3)
	andi	t4, t4, 1
	beqz	t4, .LBB129_12
	addi	sp, sp, -32
	.cfi_def_cfa_offset 32
	sw	s0, 28(sp)
	sw	s1, 24(sp)
	sw	s2, 20(sp)
	sw	s3, 16(sp)
	sw	s4, 12(sp)
	.cfi_offset s0, -4
	.cfi_offset s1, -8
	.cfi_offset s2, -12
	.cfi_offset s3, -16
	.cfi_offset s4, -20
	lw	t5, 0(a3)
	lw	s2, 4(a3)
	lw	t6, 8(a3)
	lw	s3, 12(a3)
	li	t4, 1
	srli	a0, t0, 24
	srli	a2, t0, 16
	srli	s0, t0, 8
	srli	s4, a7, 16
	sw	t4, -16(t1)
	sw	zero, -12(t1)
	srli	t1, a7, 24
	sw	zero, -8(t3)
	sw	zero, -4(t3)
	srli	t3, a7, 8
	sb	t2, 12(a3)
	sb	zero, 13(a3)
	sb	zero, 14(a3)
	sb	zero, 15(a3)
	sb	t0, 8(a3)
	sb	s0, 9(a3)
	sb	a2, 10(a3)
	sb	a0, 11(a3)
	andi	a0, s2, 15
	andi	a2, t5, -8
	andi	t0, s3, 15
	andi	s1, t6, -8
	sb	a0, 4(a3)
	sb	zero, 5(a3)
	sb	zero, 6(a3)
	sb	zero, 7(a3)
	srli	a0, a2, 24
	srli	a1, a2, 16
	srli	s0, a2, 8
	srli	t2, s1, 16
	srli	t4, s1, 24
	srli	a4, s1, 8
	sb	a2, 0(a3)
	sb	s0, 1(a3)
	sb	a1, 2(a3)
	sb	a0, 3(a3)
	sb	a7, 0(a5)
	sb	t3, 1(a5)
	sb	s4, 2(a5)
	sb	t1, 3(a5)
	sb	a6, 4(a5)
	sb	zero, 5(a5)
	sb	zero, 6(a5)
	sb	zero, 7(a5)
	sb	s1, 8(a5)
	sb	a4, 9(a5)
	sb	t2, 10(a5)
	sb	t4, 11(a5)
	sb	t0, 12(a5)
	sb	zero, 13(a5)
	sb	zero, 14(a5)
	sb	zero, 15(a5)
	li	a0, 0
	lw	s0, 28(sp)
	lw	s1, 24(sp)
	lw	s2, 20(sp)
	lw	s3, 16(sp)
	lw	s4, 12(sp)
	.cfi_restore s0
	.cfi_restore s1
	.cfi_restore s2
	.cfi_restore s3
	.cfi_restore s4
	addi	sp, sp, 32
	.cfi_def_cfa_offset 0
	ret
.LBB129_12:
	li	a6, 0
	tail	ic_raw.list_calls.split_slow.5386baa488213e47
.Lfunc_end129:
	.size	ic_list_split_after, .Lfunc_end129-ic_list_split_after
	.cfi_endproc
	.section	.text.ic_list_split_before,"ax",@progbits
	.globl	ic_list_split_before
	.p2align	1
	.type	ic_list_split_before,@function
ic_list_split_before:
	.cfi_startproc
	lw	a6, 4(a5)
	lw	a7, 0(a5)
	andi	a6, a6, 15
	andi	a7, a7, -8
	or	a6, a7, a6
	seqz	a7, a0
	slli	a7, a7, 12
	add	a0, a0, a7
	bnez	a6, .LBB130_11
	lw	t0, 12(a5)
	lw	t1, 8(a5)
	li	a6, 15
	li	a7, -8
	and	t0, t0, a6
	and	t1, t1, a7
	or	t0, t1, t0
	bnez	t0, .LBB130_11
	addi	t2, a4, 1
	beqz	t2, .LBB130_11
	sltu	t0, a1, t2
	seqz	t1, a2
	and	t0, t1, t0
	bnez	t0, .LBB130_11
	slli	t0, t2, 3
	slli	t1, t0, 1
	add	t1, t1, a0
	lbu	t3, -16(t1)
	andi	t3, t3, 1
	beqz	t3, .LBB130_11
	lw	t3, -4(t1)
	lw	t4, -8(t1)
	and	a6, t3, a6
	and	a7, t4, a7
	or	t3, a7, a6
	beqz	t3, .LBB130_11
	srli	t3, a6, 3
	beq	t3, a2, .LBB130_8
	sltu	t3, a2, t3
	beqz	t3, .LBB130_9
	j	.LBB130_11
.LBB130_8:
	slli	t3, a6, 29
	srli	t4, a7, 3
	or	t3, t4, t3
	sltu	t3, a1, t3
	bnez	t3, .LBB130_11
.LBB130_9:
	slli	t3, a7, 1
	add	t3, t3, a0
	lw	t4, -12(t3)
	lw	t5, -16(t3)
	srli	t2, t2, 29
	addi	t6, t0, 1
	xor	t4, t4, t2
	xor	t5, t5, t6
	or	t4, t5, t4
	bnez	t4, .LBB130_11
	addi	sp, sp, -32
	.cfi_def_cfa_offset 32
	sw	s0, 28(sp)
	sw	s1, 24(sp)
	sw	s2, 20(sp)
	sw	s3, 16(sp)
	sw	s4, 12(sp)
	.cfi_offset s0, -4
	.cfi_offset s1, -8
	.cfi_offset s2, -12
	.cfi_offset s3, -16
	.cfi_offset s4, -20
	lw	t5, 0(a3)
	lw	s2, 4(a3)
	lw	t6, 8(a3)
	lw	s3, 12(a3)
	li	t4, 1
	srli	a0, t0, 24
	srli	a1, t0, 16
	srli	s0, t0, 8
	srli	s4, a7, 16
	sw	t4, -16(t3)
	sw	zero, -12(t3)
	srli	t3, a7, 24
	sw	zero, -8(t1)
	sw	zero, -4(t1)
	srli	t1, a7, 8
	sb	t2, 4(a3)
	sb	zero, 5(a3)
	sb	zero, 6(a3)
	sb	zero, 7(a3)
	sb	t0, 0(a3)
	sb	s0, 1(a3)
	sb	a1, 2(a3)
	sb	a0, 3(a3)
	andi	t0, s2, 15
	andi	a1, t5, -8
	andi	s0, s3, 15
	andi	s1, t6, -8
	sb	s0, 12(a3)
	sb	zero, 13(a3)
	sb	zero, 14(a3)
	sb	zero, 15(a3)
	srli	s0, s1, 24
	srli	a2, s1, 16
	srli	a4, s1, 8
	srli	t4, a1, 16
	srli	t2, a1, 24
	srli	a0, a1, 8
	sb	s1, 8(a3)
	sb	a4, 9(a3)
	sb	a2, 10(a3)
	sb	s0, 11(a3)
	sb	a1, 0(a5)
	sb	a0, 1(a5)
	sb	t4, 2(a5)
	sb	t2, 3(a5)
	sb	t0, 4(a5)
	sb	zero, 5(a5)
	sb	zero, 6(a5)
	sb	zero, 7(a5)
	sb	a7, 8(a5)
	sb	t1, 9(a5)
	sb	s4, 10(a5)
	sb	t3, 11(a5)
	sb	a6, 12(a5)
	sb	zero, 13(a5)
	sb	zero, 14(a5)
	sb	zero, 15(a5)
	li	a0, 0
	lw	s0, 28(sp)
	lw	s1, 24(sp)
	lw	s2, 20(sp)
	lw	s3, 16(sp)
	lw	s4, 12(sp)
	.cfi_restore s0
	.cfi_restore s1
	.cfi_restore s2
	.cfi_restore s3
	.cfi_restore s4
	addi	sp, sp, 32
	.cfi_def_cfa_offset 0
	ret
.LBB130_11:
	li	a6, 1
	tail	ic_raw.list_calls.split_slow.5386baa488213e47
.Lfunc_end130:
	.size	ic_list_split_before, .Lfunc_end130-ic_list_split_before
	.cfi_endproc
	.section	.text.ic_list_transfer_after,"ax",@progbits
	.globl	ic_list_transfer_after
	.p2align	1
	.type	ic_list_transfer_after,@function
ic_list_transfer_after:
	.cfi_startproc
	mv	a7, a6
	mv	a6, a5
	mv	a5, a4
	seqz	a4, a0
	slli	a4, a4, 12
	add	a0, a0, a4
	li	a4, 0
	tail	ic_raw_lists.transfer_calls.transfer_at.5386baa488213e47
.Lfunc_end131:
	.size	ic_list_transfer_after, .Lfunc_end131-ic_list_transfer_after
	.cfi_endproc
	.section	.text.ic_list_transfer_before,"ax",@progbits
	.globl	ic_list_transfer_before
	.p2align	1
	.type	ic_list_transfer_before,@function
ic_list_transfer_before:
	.cfi_startproc
	mv	a7, a6
	mv	a6, a5
	mv	a5, a4
	seqz	a4, a0
	slli	a4, a4, 12
	add	a0, a0, a4
	li	a4, 1
	tail	ic_raw_lists.transfer_calls.transfer_at.5386baa488213e47
.Lfunc_end132:
	.size	ic_list_transfer_before, .Lfunc_end132-ic_list_transfer_before
	.cfi_endproc
	.section	.text.ic_ring32_exchange,"ax",@progbits
	.globl	ic_ring32_exchange
	.p2align	1
	.type	ic_ring32_exchange,@function
ic_ring32_exchange:
	.cfi_startproc
	addi	sp, sp, -16
	.cfi_def_cfa_offset 16
	sw	s0, 12(sp)
	.cfi_offset s0, -4
	.cfi_remember_state
	addi	t3, a3, 1
	li	a5, 4
	beqz	t3, .LBB133_17
	addi	a6, a4, 1
	beqz	a6, .LBB133_17
	seqz	a7, a0
	seqz	t4, a2
	lui	t0, 131072
	addi	a5, t4, -1
	or	t5, a5, a1
	addi	a5, t0, -1
	slli	a7, a7, 12
	bltu	t5, a5, .LBB133_4
	mv	t5, a5
.LBB133_4:
	add	a0, a0, a7
	bltu	t5, t3, .LBB133_18
	slli	a7, t3, 3
	add	t0, a0, a7
	lw	t2, -8(t0)
	andi	a5, t2, 1
	beqz	a5, .LBB133_18
	andi	t1, t2, -8
	beqz	t1, .LBB133_18
	srli	a5, t2, 3
	sltu	a5, a1, a5
	and	a5, t4, a5
	bnez	a5, .LBB133_18
	add	t2, a0, t1
	lbu	a5, -8(t2)
	andi	a5, a5, 1
	beqz	a5, .LBB133_18
	lw	a5, -4(t2)
	srli	t3, t3, 29
	andi	a5, a5, -8
	xor	a5, a7, a5
	or	a5, a5, t3
	bnez	a5, .LBB133_18
	bltu	t5, a6, .LBB133_18
	slli	t3, a6, 3
	add	t5, a0, t3
	lw	s0, -8(t5)
	andi	a5, s0, 1
	beqz	a5, .LBB133_18
	andi	t6, s0, -8
	beqz	t6, .LBB133_18
	srli	s0, s0, 3
	sltu	a5, a1, s0
	and	a5, t4, a5
	bnez	a5, .LBB133_18
	add	t4, a0, t6
	lbu	a5, -8(t4)
	andi	a5, a5, 1
	beqz	a5, .LBB133_18
	lw	a5, -4(t4)
	srli	s0, a6, 29
	andi	a5, a5, -8
	xor	a5, t3, a5
	or	a5, a5, s0
	bnez	a5, .LBB133_18
	addi	t6, t6, 1
	sw	t6, -8(t0)
	addi	t1, t1, 1
	sw	a7, -4(t4)
	sw	t1, -8(t5)
	sw	t3, -4(t2)
.LBB133_17:
	mv	a0, a5
	lw	s0, 12(sp)
	.cfi_restore s0
	addi	sp, sp, 16
	.cfi_def_cfa_offset 0
	ret
.LBB133_18:
	.cfi_restore_state
	lw	s0, 12(sp)
	.cfi_restore s0
	addi	sp, sp, 16
	.cfi_def_cfa_offset 0
	tail	ic_raw.table.RawTable.refusal_at_both.05a19227735374d3
.Lfunc_end133:
	.size	ic_ring32_exchange, .Lfunc_end133-ic_ring32_exchange
	.cfi_endproc
	.section	.text.ic_ring32_init,"ax",@progbits
	.globl	ic_ring32_init
	.p2align	1
	.type	ic_ring32_init,@function
ic_ring32_init:
	.cfi_startproc
	seqz	a4, a0
	slli	a4, a4, 12
	addi	a6, a3, 1
	add	a0, a0, a4
	beqz	a6, .LBB134_6
	seqz	a4, a2
	lui	a7, 131072
	addi	a4, a4, -1
	or	a5, a4, a1
	addi	a4, a7, -1
	bltu	a5, a4, .LBB134_3
	mv	a5, a4
.LBB134_3:
	bltu	a5, a6, .LBB134_6
	slli	a6, a6, 3
	add	a5, a0, a6
	lbu	a4, -8(a5)
	andi	a4, a4, 1
	bnez	a4, .LBB134_6
	addi	a0, a6, 1
	sw	a0, -8(a5)
	sw	a6, -4(a5)
	li	a0, 0
	ret
.LBB134_6:
	tail	ic_raw.table.refusal_at_end.05a19227735374d3
.Lfunc_end134:
	.size	ic_ring32_init, .Lfunc_end134-ic_ring32_init
	.cfi_endproc
	.section	.text.ic_ring32_insert_after,"ax",@progbits
	.globl	ic_ring32_insert_after
	.p2align	1
	.type	ic_ring32_insert_after,@function
ic_ring32_insert_after:
	.cfi_startproc
	addi	a7, a3, 1
	bnez	a7, .LBB135_2
	li	a0, 4
	ret
.LBB135_2:
	seqz	a6, a0
	seqz	t2, a2
	lui	t0, 131072
	addi	a5, t2, -1
	or	t4, a5, a1
	addi	a5, t0, -1
	slli	a6, a6, 12
	bltu	t4, a5, .LBB135_4
	mv	t4, a5
.LBB135_4:
	add	a0, a0, a6
	bltu	t4, a7, .LBB135_14
	slli	t0, a7, 3
	add	a6, a0, t0
	lw	t3, -8(a6)
	andi	a5, t3, 1
	beqz	a5, .LBB135_14
	andi	t1, t3, -8
	beqz	t1, .LBB135_14
	srli	a5, t3, 3
	sltu	a5, a1, a5
	and	a5, t2, a5
	bnez	a5, .LBB135_14
	add	t2, a0, t1
	lbu	a5, -8(t2)
	andi	a5, a5, 1
	beqz	a5, .LBB135_14
	addi	t3, a4, 1
	beqz	t3, .LBB135_14
	lw	a5, -4(t2)
	srli	a7, a7, 29
	andi	a5, a5, -8
	xor	a5, t0, a5
	or	a5, a5, a7
	bnez	a5, .LBB135_14
	bltu	t4, t3, .LBB135_14
	slli	t3, t3, 3
	add	a7, a0, t3
	lbu	a5, -8(a7)
	andi	a5, a5, 1
	bnez	a5, .LBB135_14
	li	a0, 0
	addi	t1, t1, 1
	sw	t1, -8(a7)
	sw	t0, -4(a7)
	addi	a1, t3, 1
	sw	a1, -8(a6)
	sw	t3, -4(t2)
	ret
.LBB135_14:
	tail	ic_raw.table.RawTable.refusal.05a19227735374d3
.Lfunc_end135:
	.size	ic_ring32_insert_after, .Lfunc_end135-ic_ring32_insert_after
	.cfi_endproc
	.section	.text.ic_ring32_insert_before,"ax",@progbits
	.globl	ic_ring32_insert_before
	.p2align	1
	.type	ic_ring32_insert_before,@function
ic_ring32_insert_before:
	.cfi_startproc
	addi	a6, a3, 1
	bnez	a6, .LBB136_2
	li	a0, 4
	ret
.LBB136_2:
	seqz	a7, a0
	seqz	t2, a2
	lui	t0, 131072
	addi	a5, t2, -1
	or	t4, a5, a1
	addi	a5, t0, -1
	slli	a7, a7, 12
	bltu	t4, a5, .LBB136_4
	mv	t4, a5
.LBB136_4:
	add	a0, a0, a7
	bltu	t4, a6, .LBB136_14
	slli	t0, a6, 3
	add	a7, a0, t0
	lbu	a5, -8(a7)
	andi	a5, a5, 1
	beqz	a5, .LBB136_14
	lw	a5, -4(a7)
	andi	t1, a5, -8
	beqz	t1, .LBB136_14
	srli	a5, a5, 3
	sltu	a5, a1, a5
	and	a5, t2, a5
	bnez	a5, .LBB136_14
	add	t2, a0, t1
	lw	t5, -8(t2)
	andi	a5, t5, 1
	beqz	a5, .LBB136_14
	addi	t3, a4, 1
	beqz	t3, .LBB136_14
	srli	a6, a6, 29
	andi	a5, t5, -8
	xor	a5, t0, a5
	or	a5, a5, a6
	bnez	a5, .LBB136_14
	bltu	t4, t3, .LBB136_14
	slli	t3, t3, 3
	add	a6, a0, t3
	lbu	a5, -8(a6)
	andi	a5, a5, 1
	bnez	a5, .LBB136_14
	li	a0, 0
	addi	t0, t0, 1
	sw	t0, -8(a6)
	sw	t1, -4(a6)
	addi	a1, t3, 1
	sw	a1, -8(t2)
	sw	t3, -4(a7)
	ret
.LBB136_14:
	tail	ic_raw.table.RawTable.refusal.05a19227735374d3
.Lfunc_end136:
	.size	ic_ring32_insert_before, .Lfunc_end136-ic_ring32_insert_before
	.cfi_endproc
	.section	.text.ic_ring32_move_after,"ax",@progbits
	.globl	ic_ring32_move_after
	.p2align	1
	.type	ic_ring32_move_after,@function
ic_ring32_move_after:
	.cfi_startproc
	mv	a5, a4
	mv	a4, a3
	seqz	a3, a0
	slli	a3, a3, 12
	add	a0, a0, a3
	li	a3, 0
	tail	ic_raw.ring_calls.move_beside.5b268f449b4ebf83
.Lfunc_end137:
	.size	ic_ring32_move_after, .Lfunc_end137-ic_ring32_move_after
	.cfi_endproc
	.section	.text.ic_ring32_move_before,"ax",@progbits
	.globl	ic_ring32_move_before
	.p2align	1
	.type	ic_ring32_move_before,@function
ic_ring32_move_before:
	.cfi_startproc
	mv	a5, a4
	mv	a4, a3
	seqz	a3, a0
	slli	a3, a3, 12
	add	a0, a0, a3
	li	a3, 1
	tail	ic_raw.ring_calls.move_beside.5b268f449b4ebf83
.Lfunc_end138:
	.size	ic_ring32_move_before, .Lfunc_end138-ic_ring32_move_before
	.cfi_endproc
	.section	.text.ic_ring32_pop_back,"ax",@progbits
	.globl	ic_ring32_pop_back
	.p2align	1
	.type	ic_ring32_pop_back,@function
ic_ring32_pop_back:
	.cfi_startproc
	mv	a5, a4
	mv	a4, a3
	seqz	a3, a0
	slli	a3, a3, 12
	add	a0, a0, a3
	li	a3, 1
	tail	ic_raw.ring_calls.pop.5b268f449b4ebf83
.Lfunc_end139:
	.size	ic_ring32_pop_back, .Lfunc_end139-ic_ring32_pop_back
	.cfi_endproc
	.section	.text.ic_ring32_pop_front,"ax",@progbits
	.globl	ic_ring32_pop_front
	.p2align	1
	.type	ic_ring32_pop_front,@function
ic_ring32_pop_front:
	.cfi_startproc
	mv	a5, a4
	mv	a4, a3
	seqz	a3, a0
	slli	a3, a3, 12
	add	a0, a0, a3
	li	a3, 0
	tail	ic_raw.ring_calls.pop.5b268f449b4ebf83
.Lfunc_end140:
	.size	ic_ring32_pop_front, .Lfunc_end140-ic_ring32_pop_front
	.cfi_endproc
	.section	.text.ic_ring32_remove,"ax",@progbits
	.globl	ic_ring32_remove
	.p2align	1
	.type	ic_ring32_remove,@function
ic_ring32_remove:
	.cfi_startproc
	addi	t3, a3, 1
	bnez	t3, .LBB141_2
	li	a0, 4
	ret
.LBB141_2:
	seqz	a6, a0
	seqz	t0, a2
	lui	a4, 131072
	addi	a5, t0, -1
	or	a5, a5, a1
	addi	a4, a4, -1
	slli	a6, a6, 12
	bltu	a5, a4, .LBB141_4
	mv	a5, a4
.LBB141_4:
	add	a0, a0, a6
	bltu	a5, t3, .LBB141_15
	slli	t2, t3, 3
	add	a6, a0, t2
	lw	t4, -8(a6)
	andi	a4, t4, 1
	beqz	a4, .LBB141_15
	lw	a4, -4(a6)
	andi	a7, a4, -8
	beqz	a7, .LBB141_15
	srli	a4, a4, 3
	sltu	a4, a1, a4
	and	a4, t0, a4
	bnez	a4, .LBB141_15
	add	t1, a0, a7
	lw	a5, -8(t1)
	andi	a4, a5, 1
	beqz	a4, .LBB141_15
	srli	t3, t3, 29
	andi	a5, a5, -8
	xor	a4, t2, a5
	or	a4, a4, t3
	bnez	a4, .LBB141_15
	andi	t5, t4, -8
	beqz	t5, .LBB141_15
	srli	a5, t4, 3
	sltu	a5, a1, a5
	and	a5, t0, a5
	bnez	a5, .LBB141_15
	add	a5, a0, t5
	lbu	a4, -8(a5)
	andi	a4, a4, 1
	beqz	a4, .LBB141_15
	lw	a4, -4(a5)
	andi	a4, a4, -8
	xor	a4, t2, a4
	or	a4, a4, t3
	bnez	a4, .LBB141_15
	li	a0, 0
	addi	t5, t5, 1
	sw	t5, -8(t1)
	sw	a7, -4(a5)
	sw	zero, -8(a6)
	ret
.LBB141_15:
	tail	ic_raw.table.RawTable.refusal_at.05a19227735374d3
.Lfunc_end141:
	.size	ic_ring32_remove, .Lfunc_end141-ic_ring32_remove
	.cfi_endproc
	.section	.text.ic_ring32_replace,"ax",@progbits
	.globl	ic_ring32_replace
	.p2align	1
	.type	ic_ring32_replace,@function
ic_ring32_replace:
	.cfi_startproc
	addi	t2, a3, 1
	bnez	t2, .LBB142_2
	li	a0, 4
	ret
.LBB142_2:
	seqz	a6, a0
	seqz	t1, a2
	lui	a7, 131072
	addi	a5, t1, -1
	or	t4, a5, a1
	addi	a5, a7, -1
	slli	a6, a6, 12
	bltu	t4, a5, .LBB142_4
	mv	t4, a5
.LBB142_4:
	add	a0, a0, a6
	bltu	t4, t2, .LBB142_20
	slli	a7, t2, 3
	add	a6, a0, a7
	lw	t5, -8(a6)
	andi	a5, t5, 1
	beqz	a5, .LBB142_20
	lw	a5, -4(a6)
	andi	t0, a5, -8
	beqz	t0, .LBB142_20
	srli	a5, a5, 3
	sltu	a5, a1, a5
	and	a5, t1, a5
	bnez	a5, .LBB142_20
	add	t1, a0, t0
	lw	t3, -8(t1)
	andi	a5, t3, 1
	beqz	a5, .LBB142_20
	srli	t2, t2, 29
	andi	a5, t3, -8
	xor	a5, a7, a5
	or	a5, a5, t2
	bnez	a5, .LBB142_20
	andi	t3, t5, -8
	beqz	t3, .LBB142_20
	srli	a5, t5, 3
	bltu	t4, a5, .LBB142_20
	add	t6, a0, t3
	lbu	a5, -8(t6)
	andi	a5, a5, 1
	beqz	a5, .LBB142_20
	addi	t5, a4, 1
	beqz	t5, .LBB142_20
	lw	a5, -4(t6)
	andi	a5, a5, -8
	xor	a5, a7, a5
	or	a5, a5, t2
	bnez	a5, .LBB142_20
	bltu	t4, t5, .LBB142_20
	slli	t5, t5, 3
	add	t4, a0, t5
	lbu	a5, -8(t4)
	andi	a5, a5, 1
	bnez	a5, .LBB142_20
	sw	t0, -4(t4)
	addi	a1, t5, 1
	xor	a2, a7, t3
	sw	a1, -8(t1)
	or	a2, a2, t2
	sw	t5, -4(a6)
	mv	a1, t5
	beqz	a2, .LBB142_19
	mv	a1, t3
.LBB142_19:
	add	a3, a0, a1
	li	a0, 0
	addi	a1, a1, 1
	sw	a1, -8(t4)
	sw	t5, -4(a3)
	sw	zero, -8(a6)
	ret
.LBB142_20:
	tail	ic_raw.table.RawTable.refusal.05a19227735374d3
.Lfunc_end142:
	.size	ic_ring32_replace, .Lfunc_end142-ic_ring32_replace
	.cfi_endproc
	.section	.text.ic_ring32_splice_after,"ax",@progbits
	.globl	ic_ring32_splice_after
	.p2align	1
	.type	ic_ring32_splice_after,@function
ic_ring32_splice_after:
	.cfi_startproc
	mv	a5, a4
	mv	a4, a3
	seqz	a3, a0
	slli	a3, a3, 12
	add	a0, a0, a3
	li	a3, 0
	tail	ic_raw.ring_calls.splice.5b268f449b4ebf83
.Lfunc_end143:
	.size	ic_ring32_splice_after, .Lfunc_end143-ic_ring32_splice_after
	.cfi_endproc
	.section	.text.ic_ring32_splice_before,"ax",@progbits
	.globl	ic_ring32_splice_before
	.p2align	1
	.type	ic_ring32_splice_before,@function
ic_ring32_splice_before:
	.cfi_startproc
	mv	a5, a4
	mv	a4, a3
	seqz	a3, a0
	slli	a3, a3, 12
	add	a0, a0, a3
	li	a3, 1
	tail	ic_raw.ring_calls.splice.5b268f449b4ebf83
.Lfunc_end144:
	.size	ic_ring32_splice_before, .Lfunc_end144-ic_ring32_splice_before
	.cfi_endproc
	.section	.text.ic_ring_check,"ax",@progbits
	.globl	ic_ring_check
	.p2align	1
	.type	ic_ring_check,@function
ic_ring_check:
	.cfi_startproc
	addi	sp, sp, -16
	.cfi_def_cfa_offset 16
	sw	s0, 12(sp)
	sw	s1, 8(sp)
	.cfi_offset s0, -4
	.cfi_offset s1, -8
	.cfi_remember_state
	addi	a3, a3, 1
	bnez	a3, .LBB145_2
	li	a0, 4
	lw	s0, 12(sp)
	lw	s1, 8(sp)
	.cfi_restore s0
	.cfi_restore s1
	addi	sp, sp, 16
	.cfi_def_cfa_offset 0
	ret
.LBB145_2:
	.cfi_restore_state
	.cfi_remember_state
	seqz	a5, a0
	srli	a6, a3, 29
	slli	a5, a5, 12
	add	a0, a0, a5
	or	a5, a1, a2
	slli	a3, a3, 3
	beqz	a5, .LBB145_20
	li	t2, 0
	li	a7, 0
	li	t0, 15
	li	t1, -8
	mv	t3, a3
	mv	t4, a6
	j	.LBB145_5
.LBB145_4:
	sltu	t6, a7, a2
	mv	t3, t5
	mv	t4, s1
	beqz	t6, .LBB145_20
.LBB145_5:
	srli	a5, t4, 3
	beq	a5, a2, .LBB145_7
	sltu	a5, a2, a5
	j	.LBB145_8
.LBB145_7:
	srli	a5, t3, 3
	slli	s0, t4, 29
	or	a5, a5, s0
	sltu	a5, a1, a5
.LBB145_8:
	bnez	a5, .LBB145_20
	slli	s0, t3, 1
	add	s0, s0, a0
	lw	t5, -16(s0)
	andi	a5, t5, 1
	beqz	a5, .LBB145_20
	lw	a5, -12(s0)
	and	t5, t5, t1
	and	s1, a5, t0
	or	a5, t5, s1
	beqz	a5, .LBB145_20
	srli	a5, s1, 3
	beq	a5, a2, .LBB145_13
	sltu	a5, a2, a5
	j	.LBB145_14
.LBB145_13:
	srli	a5, t5, 3
	slli	s0, s1, 29
	or	a5, a5, s0
	sltu	a5, a1, a5
.LBB145_14:
	bnez	a5, .LBB145_20
	slli	a5, t5, 1
	add	a5, a5, a0
	lbu	s0, -16(a5)
	andi	s0, s0, 1
	beqz	s0, .LBB145_20
	lw	s0, -8(a5)
	lw	a5, -4(a5)
	and	s0, s0, t1
	and	a5, a5, t0
	xor	a5, a5, t4
	xor	s0, s0, t3
	or	a5, a5, s0
	bnez	a5, .LBB145_20
	xor	a5, t5, a3
	xor	s0, s1, a6
	or	a5, a5, s0
	beqz	a5, .LBB145_21
	addi	t2, t2, 1
	seqz	a5, t2
	add	a7, a7, a5
	bne	a7, a2, .LBB145_4
	sltu	t6, t2, a1
	mv	t3, t5
	mv	t4, s1
	bnez	t6, .LBB145_5
.LBB145_20:
	mv	a4, a6
	lw	s0, 12(sp)
	lw	s1, 8(sp)
	.cfi_restore s0
	.cfi_restore s1
	addi	sp, sp, 16
	.cfi_def_cfa_offset 0
	tail	ic_raw.table.RawTable.refusal_of.5f318a721acb0238
.LBB145_21:
	.cfi_restore_state
	li	a0, 0
	sw	t2, 0(a4)
	sw	a7, 4(a4)
	lw	s0, 12(sp)
	lw	s1, 8(sp)
	.cfi_restore s0
	.cfi_restore s1
	addi	sp, sp, 16
	.cfi_def_cfa_offset 0
	ret
.Lfunc_end145:
	.size	ic_ring_check, .Lfunc_end145-ic_ring_check
	.cfi_endproc
	.section	.text.ic_ring_exchange,"ax",@progbits
	.globl	ic_ring_exchange
	.p2align	1
	.type	ic_ring_exchange,@function
ic_ring_exchange:
	.cfi_startproc
	addi	sp, sp, -32
	.cfi_def_cfa_offset 32
	sw	s0, 28(sp)
	sw	s1, 24(sp)
	sw	s2, 20(sp)
	sw	s3, 16(sp)
	sw	s4, 12(sp)
	sw	s5, 8(sp)
	.cfi_offset s0, -4
	.cfi_offset s1, -8
	.cfi_offset s2, -12
	.cfi_offset s3, -16
	.cfi_offset s4, -20
	.cfi_offset s5, -24
	.cfi_remember_state
	mv	a5, a0
	addi	t3, a3, 1
	li	a0, 4
	beqz	t3, .LBB146_21
	addi	a6, a4, 1
	beqz	a6, .LBB146_21
	seqz	a0, a5
	sltu	s1, a1, t3
	seqz	t4, a2
	slli	a0, a0, 12
	and	s1, t4, s1
	add	a0, a0, a5
	bnez	s1, .LBB146_22
	slli	a7, t3, 3
	slli	t2, a7, 1
	add	t2, t2, a0
	lw	s0, -16(t2)
	andi	a5, s0, 1
	beqz	a5, .LBB146_22
	lw	a5, -12(t2)
	andi	t1, s0, -8
	andi	t0, a5, 15
	or	s1, t1, t0
	beqz	s1, .LBB146_22
	srli	s1, t0, 3
	beq	s1, a2, .LBB146_7
	sltu	a5, a2, s1
	j	.LBB146_8
.LBB146_7:
	srli	s0, s0, 3
	slli	a5, a5, 29
	or	a5, a5, s0
	sltu	a5, a1, a5
.LBB146_8:
	bnez	a5, .LBB146_22
	slli	t5, t1, 1
	add	t5, t5, a0
	lbu	a5, -16(t5)
	andi	a5, a5, 1
	beqz	a5, .LBB146_22
	sltu	a5, a1, a6
	and	a5, t4, a5
	bnez	a5, .LBB146_22
	lw	a5, -8(t5)
	lw	s1, -4(t5)
	srli	t3, t3, 29
	li	t6, 15
	li	s2, -8
	and	s1, s1, t6
	and	a5, a5, s2
	xor	a5, a5, a7
	xor	s1, s1, t3
	or	a5, a5, s1
	bnez	a5, .LBB146_22
	slli	t4, a6, 3
	slli	s3, t4, 1
	add	s3, s3, a0
	lw	a5, -16(s3)
	andi	s0, a5, 1
	beqz	s0, .LBB146_22
	lw	s1, -12(s3)
	and	s5, a5, s2
	and	s4, s1, t6
	or	a5, s5, s4
	beqz	a5, .LBB146_22
	srli	a5, s4, 3
	beq	a5, a2, .LBB146_16
	sltu	a5, a2, a5
	j	.LBB146_17
.LBB146_16:
	srli	a5, s5, 3
	slli	s1, s4, 29
	or	a5, a5, s1
	sltu	a5, a1, a5
.LBB146_17:
	bnez	a5, .LBB146_22
	slli	a5, s5, 1
	add	a5, a5, a0
	lbu	s1, -16(a5)
	andi	s1, s1, 1
	beqz	s1, .LBB146_22
	lw	s1, -8(a5)
	lw	s0, -4(a5)
	srli	a6, a6, 29
	and	s1, s1, s2
	and	s0, s0, t6
	xor	s0, s0, a6
	xor	s1, s1, t4
	or	s0, s0, s1
	bnez	s0, .LBB146_22
	li	a0, 0
	addi	s5, s5, 1
	addi	t1, t1, 1
	sw	s5, -16(t2)
	sw	s4, -12(t2)
	sw	a7, -8(a5)
	sw	t3, -4(a5)
	sw	t1, -16(s3)
	sw	t0, -12(s3)
	sw	t4, -8(t5)
	sw	a6, -4(t5)
.LBB146_21:
	lw	s0, 28(sp)
	lw	s1, 24(sp)
	lw	s2, 20(sp)
	lw	s3, 16(sp)
	lw	s4, 12(sp)
	lw	s5, 8(sp)
	.cfi_restore s0
	.cfi_restore s1
	.cfi_restore s2
	.cfi_restore s3
	.cfi_restore s4
	.cfi_restore s5
	addi	sp, sp, 32
	.cfi_def_cfa_offset 0
	ret
.LBB146_22:
	.cfi_restore_state
	lw	s0, 28(sp)
	lw	s1, 24(sp)
	lw	s2, 20(sp)
	lw	s3, 16(sp)
	lw	s4, 12(sp)
	lw	s5, 8(sp)
	.cfi_restore s0
	.cfi_restore s1
	.cfi_restore s2
	.cfi_restore s3
	.cfi_restore s4
	.cfi_restore s5
	addi	sp, sp, 32
	.cfi_def_cfa_offset 0
	tail	ic_raw.table.RawTable.refusal_at_both.85cd03e557136797
.Lfunc_end146:
	.size	ic_ring_exchange, .Lfunc_end146-ic_ring_exchange
	.cfi_endproc
	.section	.text.ic_ring_init,"ax",@progbits
	.globl	ic_ring_init
	.p2align	1
	.type	ic_ring_init,@function
ic_ring_init:
	.cfi_startproc
	seqz	a4, a0
	slli	a5, a4, 12
	addi	a7, a3, 1
	add	a0, a0, a5
	beqz	a7, .LBB147_4
	sltu	a6, a1, a7
	seqz	a5, a2
	and	a5, a5, a6
	bnez	a5, .LBB147_4
	slli	a6, a7, 3
	slli	a5, a6, 1
	add	a5, a5, a0
	lbu	a4, -16(a5)
	andi	a4, a4, 1
	bnez	a4, .LBB147_4
	srli	a0, a7, 29
	addi	a1, a6, 1
	sw	a1, -16(a5)
	sw	a0, -12(a5)
	sw	a6, -8(a5)
	sw	a0, -4(a5)
	li	a0, 0
	ret
.LBB147_4:
	tail	ic_raw.table.refusal_at_end.85cd03e557136797
.Lfunc_end147:
	.size	ic_ring_init, .Lfunc_end147-ic_ring_init
	.cfi_endproc
	.section	.text.ic_ring_insert_after,"ax",@progbits
	.globl	ic_ring_insert_after
	.p2align	1
	.type	ic_ring_insert_after,@function
ic_ring_insert_after:
	.cfi_startproc
	addi	sp, sp, -16
	.cfi_def_cfa_offset 16
	sw	s0, 12(sp)
	.cfi_offset s0, -4
	.cfi_remember_state
	addi	t0, a3, 1
	bnez	t0, .LBB148_2
	li	a0, 4
	lw	s0, 12(sp)
	.cfi_restore s0
	addi	sp, sp, 16
	.cfi_def_cfa_offset 0
	ret
.LBB148_2:
	.cfi_restore_state
	.cfi_remember_state
	seqz	a6, a0
	sltu	a5, a1, t0
	seqz	t3, a2
	slli	a6, a6, 12
	and	a5, t3, a5
	add	a0, a0, a6
	bnez	a5, .LBB148_15
	slli	a6, t0, 3
	slli	t2, a6, 1
	add	t2, t2, a0
	lw	t6, -16(t2)
	andi	a5, t6, 1
	beqz	a5, .LBB148_15
	lw	t4, -12(t2)
	andi	t1, t6, -8
	andi	a7, t4, 15
	or	a5, t1, a7
	beqz	a5, .LBB148_15
	srli	t5, a7, 3
	beq	t5, a2, .LBB148_7
	sltu	a5, a2, t5
	j	.LBB148_8
.LBB148_7:
	srli	a5, t6, 3
	slli	t4, t4, 29
	or	a5, a5, t4
	sltu	a5, a1, a5
.LBB148_8:
	bnez	a5, .LBB148_15
	slli	t4, t1, 1
	add	t4, t4, a0
	lbu	a5, -16(t4)
	andi	a5, a5, 1
	beqz	a5, .LBB148_15
	addi	t5, a4, 1
	beqz	t5, .LBB148_15
	sltu	a5, a1, t5
	and	a5, t3, a5
	bnez	a5, .LBB148_15
	lw	t3, -8(t4)
	lw	a5, -4(t4)
	srli	t0, t0, 29
	li	t6, 15
	li	s0, -8
	and	a5, a5, t6
	and	s0, t3, s0
	xor	s0, s0, a6
	xor	a5, a5, t0
	or	a5, a5, s0
	bnez	a5, .LBB148_15
	slli	t3, t5, 3
	slli	a5, t3, 1
	add	a5, a5, a0
	lbu	s0, -16(a5)
	andi	s0, s0, 1
	bnez	s0, .LBB148_15
	li	a0, 0
	srli	a1, t5, 29
	addi	t1, t1, 1
	addi	a2, t3, 1
	sw	t1, -16(a5)
	sw	a7, -12(a5)
	sw	a6, -8(a5)
	sw	t0, -4(a5)
	sw	a2, -16(t2)
	sw	a1, -12(t2)
	sw	t3, -8(t4)
	sw	a1, -4(t4)
	lw	s0, 12(sp)
	.cfi_restore s0
	addi	sp, sp, 16
	.cfi_def_cfa_offset 0
	ret
.LBB148_15:
	.cfi_restore_state
	lw	s0, 12(sp)
	.cfi_restore s0
	addi	sp, sp, 16
	.cfi_def_cfa_offset 0
	tail	ic_raw.table.RawTable.refusal.85cd03e557136797
.Lfunc_end148:
	.size	ic_ring_insert_after, .Lfunc_end148-ic_ring_insert_after
	.cfi_endproc
	.section	.text.ic_ring_insert_before,"ax",@progbits
	.globl	ic_ring_insert_before
	.p2align	1
	.type	ic_ring_insert_before,@function
ic_ring_insert_before:
	.cfi_startproc
	addi	sp, sp, -16
	.cfi_def_cfa_offset 16
	sw	s0, 12(sp)
	.cfi_offset s0, -4
	.cfi_remember_state
	addi	t1, a3, 1
	bnez	t1, .LBB149_2
	li	a0, 4
	lw	s0, 12(sp)
	.cfi_restore s0
	addi	sp, sp, 16
	.cfi_def_cfa_offset 0
	ret
.LBB149_2:
	.cfi_restore_state
	.cfi_remember_state
	seqz	a6, a0
	sltu	a5, a1, t1
	seqz	t2, a2
	slli	a6, a6, 12
	and	a5, t2, a5
	add	a0, a0, a6
	bnez	a5, .LBB149_15
	slli	a6, t1, 3
	slli	t3, a6, 1
	add	t3, t3, a0
	lbu	a5, -16(t3)
	andi	a5, a5, 1
	beqz	a5, .LBB149_15
	lw	t4, -4(t3)
	lw	t5, -8(t3)
	andi	a7, t4, 15
	andi	t0, t5, -8
	or	a5, t0, a7
	beqz	a5, .LBB149_15
	srli	a5, a7, 3
	beq	a5, a2, .LBB149_7
	sltu	a5, a2, a5
	j	.LBB149_8
.LBB149_7:
	slli	t4, t4, 29
	srli	a5, t5, 3
	or	a5, a5, t4
	sltu	a5, a1, a5
.LBB149_8:
	bnez	a5, .LBB149_15
	addi	t4, a4, 1
	beqz	t4, .LBB149_15
	sltu	a5, a1, t4
	and	a5, t2, a5
	bnez	a5, .LBB149_15
	slli	t2, t0, 1
	add	t2, t2, a0
	lw	t5, -16(t2)
	andi	a5, t5, 1
	beqz	a5, .LBB149_15
	srli	t1, t1, 29
	lw	a5, -12(t2)
	li	t6, 15
	li	s0, -8
	and	s0, t5, s0
	and	a5, a5, t6
	xor	s0, s0, a6
	xor	a5, a5, t1
	or	a5, a5, s0
	bnez	a5, .LBB149_15
	slli	t5, t4, 3
	slli	a5, t5, 1
	add	a5, a5, a0
	lbu	s0, -16(a5)
	andi	s0, s0, 1
	bnez	s0, .LBB149_15
	li	a0, 0
	srli	a1, t4, 29
	addi	a6, a6, 1
	addi	a2, t5, 1
	sw	a6, -16(a5)
	sw	t1, -12(a5)
	sw	t0, -8(a5)
	sw	a7, -4(a5)
	sw	a2, -16(t2)
	sw	a1, -12(t2)
	sw	t5, -8(t3)
	sw	a1, -4(t3)
	lw	s0, 12(sp)
	.cfi_restore s0
	addi	sp, sp, 16
	.cfi_def_cfa_offset 0
	ret
.LBB149_15:
	.cfi_restore_state
	lw	s0, 12(sp)
	.cfi_restore s0
	addi	sp, sp, 16
	.cfi_def_cfa_offset 0
	tail	ic_raw.table.RawTable.refusal.85cd03e557136797
.Lfunc_end149:
	.size	ic_ring_insert_before, .Lfunc_end149-ic_ring_insert_before
	.cfi_endproc
	.section	.text.ic_ring_merge,"ax",@progbits
	.globl	ic_ring_merge
	.p2align	1
	.type	ic_ring_merge,@function
ic_ring_merge:
	.cfi_startproc
	mv	t0, a0
	addi	a6, a6, 1
	li	a0, 4
	beqz	a6, .LBB150_70
	addi	sp, sp, -96
	.cfi_def_cfa_offset 96
	sw	ra, 92(sp)
	sw	s0, 88(sp)
	sw	s1, 84(sp)
	sw	s2, 80(sp)
	sw	s3, 76(sp)
	sw	s4, 72(sp)
	sw	s5, 68(sp)
	sw	s6, 64(sp)
	sw	s7, 60(sp)
	sw	s8, 56(sp)
	sw	s9, 52(sp)
	sw	s10, 48(sp)
	sw	s11, 44(sp)
	.cfi_offset ra, -4
	.cfi_offset s0, -8
	.cfi_offset s1, -12
	.cfi_offset s2, -16
	.cfi_offset s3, -20
	.cfi_offset s4, -24
	.cfi_offset s5, -28
	.cfi_offset s6, -32
	.cfi_offset s7, -36
	.cfi_offset s8, -40
	.cfi_offset s9, -44
	.cfi_offset s10, -48
	.cfi_offset s11, -52
	addi	s1, a7, 1
	beqz	s1, .LBB150_69
	seqz	a0, t0
	slli	a0, a0, 12
	add	s6, t0, a0
	sw	s6, 8(sp)
	sw	zero, 12(sp)
	sw	a1, 16(sp)
	sw	a2, 20(sp)
	mv	a0, a3
	beq	a5, a2, .LBB150_4
	mv	t0, a4
	mv	a7, a5
	sltu	s0, a5, a2
	j	.LBB150_5
.LBB150_4:
	mv	a7, a5
	mv	t0, a4
	sltu	s0, a4, a1
.LBB150_5:
	srli	a4, a6, 29
	slli	a3, a6, 3
	srli	a6, s1, 29
	slli	a5, s1, 3
	bnez	s0, .LBB150_44
	or	s1, a1, a2
	beqz	s1, .LBB150_44
	xor	s1, a5, a3
	xor	s0, a6, a4
	or	s0, s0, s1
	beqz	s0, .LBB150_44
	li	t2, 0
	li	t3, 0
	seqz	s1, a0
	li	s2, 15
	slli	t1, s1, 12
	add	t1, t1, a0
	li	s5, -8
	mv	t4, a3
	mv	t5, a4
.LBB150_9:
	srli	a0, t5, 3
	beq	a0, a2, .LBB150_11
	sltu	a0, a2, a0
	j	.LBB150_12
.LBB150_11:
	srli	a0, t4, 3
	slli	s1, t5, 29
	or	a0, a0, s1
	sltu	a0, a1, a0
.LBB150_12:
	bnez	a0, .LBB150_44
	slli	s1, t4, 1
	add	s1, s1, s6
	lw	s0, -16(s1)
	andi	a0, s0, 1
	beqz	a0, .LBB150_44
	lw	a0, -12(s1)
	and	t6, s0, s5
	and	s3, a0, s2
	or	a0, t6, s3
	beqz	a0, .LBB150_44
	srli	s1, s3, 3
	beq	s1, a2, .LBB150_17
	sltu	s1, a2, s1
	j	.LBB150_18
.LBB150_17:
	srli	a0, t6, 3
	slli	s1, s3, 29
	or	a0, a0, s1
	sltu	s1, a1, a0
.LBB150_18:
	bnez	s1, .LBB150_44
	slli	s1, t6, 1
	add	s1, s1, s6
	lbu	a0, -16(s1)
	andi	a0, a0, 1
	beqz	a0, .LBB150_44
	lw	a0, -8(s1)
	lw	s1, -4(s1)
	and	a0, a0, s5
	and	s1, s1, s2
	xor	s1, s1, t5
	xor	a0, a0, t4
	or	a0, a0, s1
	bnez	a0, .LBB150_44
	xor	a0, t6, a3
	xor	s0, s3, a4
	or	a0, a0, s0
	beqz	a0, .LBB150_27
	addi	t2, t2, 1
	seqz	a0, t2
	add	t3, t3, a0
	beq	t3, a2, .LBB150_24
	sltu	s1, t3, a2
	j	.LBB150_25
.LBB150_24:
	sltu	s1, t2, a1
.LBB150_25:
	beqz	s1, .LBB150_44
	xor	a0, a5, t6
	xor	s1, a6, s3
	or	a0, a0, s1
	mv	t4, t6
	mv	t5, s3
	bnez	a0, .LBB150_9
	j	.LBB150_44
.LBB150_27:
	li	t2, 0
	li	t3, 0
	mv	t4, a5
	mv	t6, a6
	j	.LBB150_29
.LBB150_28:
	sltu	t5, t3, a2
	mv	t4, s3
	mv	t6, s4
	beqz	t5, .LBB150_44
.LBB150_29:
	srli	a0, t6, 3
	beq	a0, a2, .LBB150_31
	sltu	a0, a2, a0
	j	.LBB150_32
.LBB150_31:
	srli	a0, t4, 3
	slli	s1, t6, 29
	or	a0, a0, s1
	sltu	a0, a1, a0
.LBB150_32:
	bnez	a0, .LBB150_44
	slli	s1, t4, 1
	add	s1, s1, s6
	lw	s0, -16(s1)
	andi	a0, s0, 1
	beqz	a0, .LBB150_44
	lw	a0, -12(s1)
	and	s3, s0, s5
	and	s4, a0, s2
	or	a0, s3, s4
	beqz	a0, .LBB150_44
	srli	a0, s4, 3
	beq	a0, a2, .LBB150_37
	sltu	s1, a2, a0
	j	.LBB150_38
.LBB150_37:
	srli	a0, s3, 3
	slli	s0, s4, 29
	or	a0, a0, s0
	sltu	s1, a1, a0
.LBB150_38:
	bnez	s1, .LBB150_44
	slli	s1, s3, 1
	add	s1, s1, s6
	lbu	a0, -16(s1)
	andi	a0, a0, 1
	beqz	a0, .LBB150_44
	lw	a0, -8(s1)
	lw	s1, -4(s1)
	and	a0, a0, s5
	and	s1, s1, s2
	xor	s1, s1, t6
	xor	a0, a0, t4
	or	a0, a0, s1
	bnez	a0, .LBB150_44
	xor	a0, s3, a5
	xor	s1, s4, a6
	or	a0, a0, s1
	beqz	a0, .LBB150_45
	addi	t2, t2, 1
	seqz	a0, t2
	add	t3, t3, a0
	bne	t3, a2, .LBB150_28
	sltu	t5, t2, a1
	mv	t4, s3
	mv	t6, s4
	bnez	t5, .LBB150_29
.LBB150_44:
	addi	a0, sp, 8
	mv	a1, t0
	mv	a2, a7
	call	ic_raw_lists.ring_sort_calls.refusal_at_both
	j	.LBB150_69
.LBB150_45:
	slli	s3, a3, 1
	add	s3, s3, s6
	lw	a0, -12(s3)
	lw	a1, -16(s3)
	and	s1, a0, s2
	and	a1, a1, s5
	or	a2, a1, s1
	sw	t1, 24(sp)
	sw	zero, 28(sp)
	sw	t0, 32(sp)
	sw	a7, 36(sp)
	beqz	a2, .LBB150_49
	xor	a2, a1, a3
	xor	a0, s1, a4
	or	a0, a0, a2
	li	a2, 0
	beqz	a0, .LBB150_50
	lw	a0, -4(s3)
	lw	s0, -8(s3)
	and	a7, a0, s2
	and	s0, s0, s5
	or	a0, s0, a7
	mv	t1, a2
	mv	t2, a2
	mv	t3, a2
	beqz	a0, .LBB150_51
	slli	a0, a1, 1
	slli	a2, s0, 1
	add	a0, a0, s6
	sw	zero, -8(a0)
	sw	zero, -4(a0)
	li	a0, 1
	add	a2, a2, s6
	sw	a0, -16(a2)
	sw	zero, -12(a2)
	mv	a2, a1
	mv	t1, s1
	mv	t2, s0
	mv	t3, a7
	j	.LBB150_51
.LBB150_49:
	li	t1, 0
	li	t2, 0
	li	t3, 0
	j	.LBB150_51
.LBB150_50:
	mv	t1, a2
	mv	t2, a2
	mv	t3, a2
.LBB150_51:
	slli	s4, a5, 1
	add	s4, s4, s6
	lw	a0, -12(s4)
	lw	a1, -16(s4)
	and	s7, a0, s2
	and	a0, a1, s5
	or	a1, a0, s7
	beqz	a1, .LBB150_55
	xor	a1, a0, a5
	xor	s0, s7, a6
	or	a1, a1, s0
	li	a7, 0
	beqz	a1, .LBB150_62
	lw	a1, -4(s4)
	lw	s0, -8(s4)
	and	t4, a1, s2
	and	t5, s0, s5
	or	t6, t5, t4
	mv	t0, a7
	mv	ra, a7
	mv	s11, a7
	beqz	t6, .LBB150_56
	slli	a1, a0, 1
	slli	s0, t5, 1
	add	a1, a1, s6
	sw	zero, -8(a1)
	sw	zero, -4(a1)
	li	a1, 1
	add	s0, s0, s6
	sw	a1, -16(s0)
	sw	zero, -12(s0)
	mv	a7, a0
	mv	t0, s7
	mv	ra, t5
	mv	s11, t4
	or	a0, a2, t1
	bnez	a0, .LBB150_57
	j	.LBB150_64
.LBB150_55:
	li	a7, 0
	li	t0, 0
	li	ra, 0
	li	s11, 0
.LBB150_56:
	or	a0, a2, t1
	beqz	a0, .LBB150_64
.LBB150_57:
	or	a0, a7, t0
	beqz	a0, .LBB150_61
	mv	s7, a3
	mv	s8, a4
	mv	s9, a5
	mv	s10, a6
	addi	a0, sp, 8
	addi	a1, sp, 24
	mv	a3, t1
	mv	a4, a7
	mv	a5, t0
	call	ic_list_algorithms.merge.merge_runs.e8da022ef74ca9e6
	mv	a7, a0
	mv	t0, a1
	slli	a0, a0, 1
	add	a1, s6, a0
	lw	a0, -12(a1)
	lw	a3, -16(a1)
	and	a2, a0, s2
	and	s0, a3, s5
	or	a3, s0, a2
	sw	zero, -8(a1)
	sw	zero, -4(a1)
	mv	ra, a7
	mv	s11, t0
	mv	a6, s10
	mv	a5, s9
	mv	a4, s8
	beqz	a3, .LBB150_63
	mv	a3, s7
.LBB150_60:
	mv	t1, ra
	mv	ra, s0
	slli	a0, s0, 1
	add	a0, a0, s6
	lw	s0, -12(a0)
	lw	a1, -16(a0)
	mv	s1, s11
	mv	s11, a2
	and	a2, s0, s2
	and	s0, a1, s5
	or	a1, s0, a2
	sw	s1, -4(a0)
	sw	t1, -8(a0)
	bnez	a1, .LBB150_60
	j	.LBB150_64
.LBB150_61:
	mv	a7, a2
	mv	t0, t1
	mv	ra, t2
	mv	s11, t3
	j	.LBB150_64
.LBB150_62:
	mv	t0, a7
	mv	ra, a7
	mv	s11, a7
	or	a0, a2, t1
	bnez	a0, .LBB150_57
	j	.LBB150_64
.LBB150_63:
	mv	a3, s7
.LBB150_64:
	or	a0, a7, t0
	mv	t1, a4
	mv	a2, a3
	beqz	a0, .LBB150_66
	mv	t1, t0
	mv	a2, a7
.LBB150_66:
	or	a0, ra, s11
	mv	a7, a4
	mv	s0, a3
	beqz	a0, .LBB150_68
	mv	a7, s11
	mv	s0, ra
.LBB150_68:
	li	a0, 0
	slli	s1, a2, 1
	slli	a1, s0, 1
	add	s1, s1, s6
	add	a1, a1, s6
	addi	t0, a3, 1
	addi	a2, a2, 1
	sw	a3, -8(s1)
	sw	a4, -4(s1)
	addi	a3, a5, 1
	sw	t0, -16(a1)
	sw	a4, -12(a1)
	sw	a2, -16(s3)
	sw	t1, -12(s3)
	sw	s0, -8(s3)
	sw	a7, -4(s3)
	sw	a3, -16(s4)
	sw	a6, -12(s4)
	sw	a5, -8(s4)
	sw	a6, -4(s4)
.LBB150_69:
	lw	ra, 92(sp)
	lw	s0, 88(sp)
	lw	s1, 84(sp)
	lw	s2, 80(sp)
	lw	s3, 76(sp)
	lw	s4, 72(sp)
	lw	s5, 68(sp)
	lw	s6, 64(sp)
	lw	s7, 60(sp)
	lw	s8, 56(sp)
	lw	s9, 52(sp)
	lw	s10, 48(sp)
	lw	s11, 44(sp)
	.cfi_restore ra
	.cfi_restore s0
	.cfi_restore s1
	.cfi_restore s2
	.cfi_restore s3
	.cfi_restore s4
	.cfi_restore s5
	.cfi_restore s6
	.cfi_restore s7
	.cfi_restore s8
	.cfi_restore s9
	.cfi_restore s10
	.cfi_restore s11
	addi	sp, sp, 96
	.cfi_def_cfa_offset 0
.LBB150_70:
	ret
.Lfunc_end150:
	.size	ic_ring_merge, .Lfunc_end150-ic_ring_merge
	.cfi_endproc
	.section	.text.ic_ring_move_after,"ax",@progbits
	.globl	ic_ring_move_after
	.p2align	1
	.type	ic_ring_move_after,@function
ic_ring_move_after:
	.cfi_startproc
	mv	a5, a4
	mv	a4, a3
	seqz	a3, a0
	slli	a3, a3, 12
	add	a0, a0, a3
	li	a3, 0
	tail	ic_raw.ring_calls.move_beside.354f48d5d890d6b4
.Lfunc_end151:
	.size	ic_ring_move_after, .Lfunc_end151-ic_ring_move_after
	.cfi_endproc
	.section	.text.ic_ring_move_before,"ax",@progbits
	.globl	ic_ring_move_before
	.p2align	1
	.type	ic_ring_move_before,@function
ic_ring_move_before:
	.cfi_startproc
	mv	a5, a4
	mv	a4, a3
	seqz	a3, a0
	slli	a3, a3, 12
	add	a0, a0, a3
	li	a3, 1
	tail	ic_raw.ring_calls.move_beside.354f48d5d890d6b4
.Lfunc_end152:
	.size	ic_ring_move_before, .Lfunc_end152-ic_ring_move_before
	.cfi_endproc
	.section	.text.ic_ring_pop_back,"ax",@progbits
	.globl	ic_ring_pop_back
	.p2align	1
	.type	ic_ring_pop_back,@function
ic_ring_pop_back:
	.cfi_startproc
	mv	a5, a4
	mv	a4, a3
	seqz	a3, a0
	slli	a3, a3, 12
	add	a0, a0, a3
	li	a3, 1
	tail	ic_raw.ring_calls.pop.354f48d5d890d6b4
.Lfunc_end153:
	.size	ic_ring_pop_back, .Lfunc_end153-ic_ring_pop_back
	.cfi_endproc
	.section	.text.ic_ring_pop_front,"ax",@progbits
	.globl	ic_ring_pop_front
	.p2align	1
	.type	ic_ring_pop_front,@function
ic_ring_pop_front:
	.cfi_startproc
	mv	a5, a4
	mv	a4, a3
	seqz	a3, a0
	slli	a3, a3, 12
	add	a0, a0, a3
	li	a3, 0
	tail	ic_raw.ring_calls.pop.354f48d5d890d6b4
.Lfunc_end154:
	.size	ic_ring_pop_front, .Lfunc_end154-ic_ring_pop_front
	.cfi_endproc
	.section	.text.ic_ring_remove,"ax",@progbits
	.globl	ic_ring_remove
	.p2align	1
	.type	ic_ring_remove,@function
ic_ring_remove:
	.cfi_startproc
	addi	sp, sp, -16
	.cfi_def_cfa_offset 16
	sw	s0, 12(sp)
	sw	s1, 8(sp)
	.cfi_offset s0, -4
	.cfi_offset s1, -8
	.cfi_remember_state
	addi	t1, a3, 1
	bnez	t1, .LBB155_2
	li	a0, 4
	lw	s0, 12(sp)
	lw	s1, 8(sp)
	.cfi_restore s0
	.cfi_restore s1
	addi	sp, sp, 16
	.cfi_def_cfa_offset 0
	ret
.LBB155_2:
	.cfi_restore_state
	.cfi_remember_state
	sltu	a4, a1, t1
	seqz	a5, a2
	and	a4, a4, a5
	seqz	a5, a0
	slli	a5, a5, 12
	add	a0, a0, a5
	bnez	a4, .LBB155_19
	slli	t0, t1, 3
	slli	t6, t0, 1
	add	t6, t6, a0
	lw	t2, -16(t6)
	andi	a4, t2, 1
	beqz	a4, .LBB155_19
	lw	a5, -4(t6)
	lw	t3, -8(t6)
	andi	a6, a5, 15
	andi	a7, t3, -8
	or	a4, a7, a6
	beqz	a4, .LBB155_19
	srli	a4, a6, 3
	beq	a4, a2, .LBB155_7
	sltu	a4, a2, a4
	j	.LBB155_8
.LBB155_7:
	slli	a5, a5, 29
	srli	a4, t3, 3
	or	a4, a4, a5
	sltu	a4, a1, a4
.LBB155_8:
	bnez	a4, .LBB155_19
	slli	t5, a7, 1
	add	t5, t5, a0
	lw	a4, -16(t5)
	andi	a5, a4, 1
	beqz	a5, .LBB155_19
	srli	t1, t1, 29
	lw	a5, -12(t5)
	li	t3, 15
	li	t4, -8
	and	a4, a4, t4
	and	a5, a5, t3
	xor	a4, a4, t0
	xor	a5, a5, t1
	or	a4, a4, a5
	bnez	a4, .LBB155_19
	lw	a5, -12(t6)
	and	a4, t2, t4
	and	t2, a5, t3
	or	a5, a4, t2
	beqz	a5, .LBB155_19
	srli	a5, t2, 3
	beq	a5, a2, .LBB155_14
	sltu	a5, a2, a5
	j	.LBB155_15
.LBB155_14:
	srli	a5, a4, 3
	slli	s0, t2, 29
	or	a5, a5, s0
	sltu	a5, a1, a5
.LBB155_15:
	bnez	a5, .LBB155_19
	slli	a5, a4, 1
	add	a5, a5, a0
	lbu	s0, -16(a5)
	andi	s0, s0, 1
	beqz	s0, .LBB155_19
	lw	s0, -8(a5)
	lw	s1, -4(a5)
	and	s0, s0, t4
	and	s1, s1, t3
	xor	s1, s1, t1
	xor	s0, s0, t0
	or	s0, s0, s1
	bnez	s0, .LBB155_19
	li	a0, 0
	addi	a4, a4, 1
	sw	a4, -16(t5)
	sw	t2, -12(t5)
	sw	a7, -8(a5)
	sw	a6, -4(a5)
	sw	zero, -16(t6)
	sw	zero, -12(t6)
	lw	s0, 12(sp)
	lw	s1, 8(sp)
	.cfi_restore s0
	.cfi_restore s1
	addi	sp, sp, 16
	.cfi_def_cfa_offset 0
	ret
.LBB155_19:
	.cfi_restore_state
	lw	s0, 12(sp)
	lw	s1, 8(sp)
	.cfi_restore s0
	.cfi_restore s1
	addi	sp, sp, 16
	.cfi_def_cfa_offset 0
	tail	ic_raw.table.RawTable.refusal_at.85cd03e557136797
.Lfunc_end155:
	.size	ic_ring_remove, .Lfunc_end155-ic_ring_remove
	.cfi_endproc
	.section	.text.ic_ring_replace,"ax",@progbits
	.globl	ic_ring_replace
	.p2align	1
	.type	ic_ring_replace,@function
ic_ring_replace:
	.cfi_startproc
	addi	sp, sp, -16
	.cfi_def_cfa_offset 16
	sw	s0, 12(sp)
	sw	s1, 8(sp)
	sw	s2, 4(sp)
	sw	s3, 0(sp)
	.cfi_offset s0, -4
	.cfi_offset s1, -8
	.cfi_offset s2, -12
	.cfi_offset s3, -16
	.cfi_remember_state
	addi	t3, a3, 1
	bnez	t3, .LBB156_2
	li	a1, 4
	j	.LBB156_24
.LBB156_2:
	seqz	a5, a0
	sltu	s1, a1, t3
	seqz	t1, a2
	slli	a5, a5, 12
	and	s1, t1, s1
	add	a0, a0, a5
	bnez	s1, .LBB156_25
	slli	a6, t3, 3
	slli	t6, a6, 1
	add	t6, t6, a0
	lw	t4, -16(t6)
	andi	a5, t4, 1
	beqz	a5, .LBB156_25
	lw	s0, -4(t6)
	lw	s1, -8(t6)
	andi	a7, s0, 15
	andi	t0, s1, -8
	or	a5, t0, a7
	beqz	a5, .LBB156_25
	srli	a5, a7, 3
	beq	a5, a2, .LBB156_7
	sltu	s1, a2, a5
	j	.LBB156_8
.LBB156_7:
	slli	s0, s0, 29
	srli	s1, s1, 3
	or	s0, s0, s1
	sltu	s1, a1, s0
.LBB156_8:
	bnez	s1, .LBB156_25
	slli	t2, t0, 1
	add	t2, t2, a0
	lw	s1, -16(t2)
	andi	a5, s1, 1
	beqz	a5, .LBB156_25
	srli	t3, t3, 29
	lw	a5, -12(t2)
	li	s3, 15
	li	s2, -8
	and	s1, s1, s2
	and	a5, a5, s3
	xor	s1, s1, a6
	xor	a5, a5, t3
	or	a5, a5, s1
	bnez	a5, .LBB156_25
	lw	a5, -12(t6)
	and	t4, t4, s2
	and	t5, a5, s3
	or	a5, t4, t5
	beqz	a5, .LBB156_25
	srli	a5, t5, 3
	beq	a5, a2, .LBB156_14
	sltu	a5, a2, a5
	j	.LBB156_15
.LBB156_14:
	srli	a5, t4, 3
	slli	s1, t5, 29
	or	a5, a5, s1
	sltu	a5, a1, a5
.LBB156_15:
	bnez	a5, .LBB156_25
	slli	a5, t4, 1
	add	a5, a5, a0
	lbu	s1, -16(a5)
	andi	s1, s1, 1
	beqz	s1, .LBB156_25
	addi	s1, a4, 1
	sltu	s0, a1, s1
	and	s0, t1, s0
	bnez	s0, .LBB156_25
	beqz	s1, .LBB156_25
	lw	s0, -4(a5)
	lw	a5, -8(a5)
	and	s0, s0, s3
	and	a5, a5, s2
	xor	a5, a5, a6
	xor	s0, s0, t3
	or	a5, a5, s0
	bnez	a5, .LBB156_25
	slli	t1, s1, 3
	slli	s0, t1, 1
	add	s0, s0, a0
	lbu	a5, -16(s0)
	andi	a5, a5, 1
	bnez	a5, .LBB156_25
	srli	a2, s1, 29
	sw	t0, -8(s0)
	sw	a7, -4(s0)
	addi	a1, t1, 1
	xor	a3, t4, a6
	xor	a4, t5, t3
	sw	a1, -16(t2)
	sw	a2, -12(t2)
	or	a1, a3, a4
	sw	t1, -8(t6)
	sw	a2, -4(t6)
	mv	a3, a2
	mv	a4, t1
	beqz	a1, .LBB156_23
	mv	a3, t5
	mv	a4, t4
.LBB156_23:
	li	a1, 0
	addi	a5, a4, 1
	slli	a4, a4, 1
	sw	a5, -16(s0)
	sw	a3, -12(s0)
	add	a0, a0, a4
	sw	t1, -8(a0)
	sw	a2, -4(a0)
	sw	zero, -16(t6)
	sw	zero, -12(t6)
.LBB156_24:
	mv	a0, a1
	lw	s0, 12(sp)
	lw	s1, 8(sp)
	lw	s2, 4(sp)
	lw	s3, 0(sp)
	.cfi_restore s0
	.cfi_restore s1
	.cfi_restore s2
	.cfi_restore s3
	addi	sp, sp, 16
	.cfi_def_cfa_offset 0
	ret
.LBB156_25:
	.cfi_restore_state
	lw	s0, 12(sp)
	lw	s1, 8(sp)
	lw	s2, 4(sp)
	lw	s3, 0(sp)
	.cfi_restore s0
	.cfi_restore s1
	.cfi_restore s2
	.cfi_restore s3
	addi	sp, sp, 16
	.cfi_def_cfa_offset 0
	tail	ic_raw.table.RawTable.refusal.85cd03e557136797
.Lfunc_end156:
	.size	ic_ring_replace, .Lfunc_end156-ic_ring_replace
	.cfi_endproc
	.section	.text.ic_ring_sort,"ax",@progbits
	.globl	ic_ring_sort
	.p2align	1
	.type	ic_ring_sort,@function
ic_ring_sort:
	.cfi_startproc
	addi	a6, a6, 1
	bnez	a6, .LBB157_2
	li	a0, 4
	ret
.LBB157_2:
	addi	sp, sp, -112
	.cfi_def_cfa_offset 112
	sw	ra, 108(sp)
	sw	s0, 104(sp)
	sw	s1, 100(sp)
	sw	s2, 96(sp)
	sw	s3, 92(sp)
	sw	s4, 88(sp)
	sw	s5, 84(sp)
	sw	s6, 80(sp)
	sw	s7, 76(sp)
	sw	s8, 72(sp)
	sw	s9, 68(sp)
	sw	s10, 64(sp)
	sw	s11, 60(sp)
	.cfi_offset ra, -4
	.cfi_offset s0, -8
	.cfi_offset s1, -12
	.cfi_offset s2, -16
	.cfi_offset s3, -20
	.cfi_offset s4, -24
	.cfi_offset s5, -28
	.cfi_offset s6, -32
	.cfi_offset s7, -36
	.cfi_offset s8, -40
	.cfi_offset s9, -44
	.cfi_offset s10, -48
	.cfi_offset s11, -52
	seqz	s1, a0
	slli	a7, s1, 12
	add	a7, a7, a0
	seqz	a0, a1
	sub	a0, a2, a0
	sw	a7, 0(sp)
	sw	zero, 4(sp)
	sw	a1, 8(sp)
	sw	a2, 12(sp)
	beq	a0, a5, .LBB157_4
	sltu	a0, a0, a5
	srli	s2, a6, 29
	slli	s3, a6, 3
	bnez	a0, .LBB157_5
	j	.LBB157_22
.LBB157_4:
	addi	a0, a1, -1
	sltu	a0, a0, a4
	srli	s2, a6, 29
	slli	s3, a6, 3
	beqz	a0, .LBB157_22
.LBB157_5:
	li	t0, 0
	li	t1, 0
	seqz	a0, a3
	li	s8, 15
	slli	a0, a0, 12
	add	a6, a3, a0
	li	s9, -8
	mv	t3, s3
	mv	t4, s2
	j	.LBB157_7
.LBB157_6:
	sltu	t2, t1, a2
	mv	t3, a3
	mv	t4, s0
	beqz	t2, .LBB157_22
.LBB157_7:
	srli	a0, t4, 3
	beq	a0, a2, .LBB157_9
	sltu	a0, a2, a0
	j	.LBB157_10
.LBB157_9:
	srli	a0, t3, 3
	slli	a3, t4, 29
	or	a0, a0, a3
	sltu	a0, a1, a0
.LBB157_10:
	bnez	a0, .LBB157_22
	slli	a3, t3, 1
	add	a3, a3, a7
	lw	s1, -16(a3)
	andi	a0, s1, 1
	beqz	a0, .LBB157_22
	lw	a0, -12(a3)
	and	a3, s1, s9
	and	s0, a0, s8
	or	a0, a3, s0
	beqz	a0, .LBB157_22
	srli	a0, s0, 3
	beq	a0, a2, .LBB157_15
	sltu	a0, a2, a0
	j	.LBB157_16
.LBB157_15:
	srli	a0, a3, 3
	slli	s1, s0, 29
	or	a0, a0, s1
	sltu	a0, a1, a0
.LBB157_16:
	bnez	a0, .LBB157_22
	slli	a0, a3, 1
	add	a0, a0, a7
	lbu	s1, -16(a0)
	andi	s1, s1, 1
	beqz	s1, .LBB157_22
	lw	s1, -8(a0)
	lw	a0, -4(a0)
	and	s1, s1, s9
	and	a0, a0, s8
	xor	a0, a0, t4
	xor	s1, s1, t3
	or	a0, a0, s1
	bnez	a0, .LBB157_22
	xor	a0, a3, s3
	xor	s1, s0, s2
	or	a0, a0, s1
	beqz	a0, .LBB157_23
	addi	t0, t0, 1
	seqz	a0, t0
	add	t1, t1, a0
	bne	t1, a2, .LBB157_6
	sltu	t2, t0, a1
	mv	t3, a3
	mv	t4, s0
	bnez	t2, .LBB157_7
.LBB157_22:
	mv	a0, sp
	mv	a1, a4
	mv	a2, a5
	mv	a3, s3
	mv	a4, s2
	call	ic_raw_lists.ring_sort_calls.refusal_at
	j	.LBB157_42
.LBB157_23:
	slli	s10, s3, 1
	add	a0, a7, s10
	lw	a1, -12(a0)
	lw	a3, -16(a0)
	and	a2, a1, s8
	and	a3, a3, s9
	or	a1, a3, a2
	sw	a6, 16(sp)
	sw	zero, 20(sp)
	sw	a4, 24(sp)
	sw	a5, 28(sp)
	beqz	a1, .LBB157_27
	xor	a1, a3, s3
	xor	a4, a2, s2
	or	a1, a1, a4
	li	s5, 0
	beqz	a1, .LBB157_37
	lw	a1, -4(a0)
	lw	a0, -8(a0)
	and	s1, a1, s8
	and	a5, a0, s9
	or	a4, a5, s1
	mv	s4, s5
	mv	a0, s5
	mv	a1, s5
	beqz	a4, .LBB157_28
	slli	a0, a3, 1
	slli	a1, a5, 1
	add	a0, a0, a7
	sw	zero, -8(a0)
	sw	zero, -4(a0)
	li	a0, 1
	add	a1, a1, a7
	sw	a0, -16(a1)
	sw	zero, -12(a1)
	mv	s5, a3
	mv	s4, a2
	mv	a0, a5
	mv	a1, s1
	or	a2, a2, a3
	bnez	a2, .LBB157_29
	j	.LBB157_38
.LBB157_27:
	li	s5, 0
	li	s4, 0
	li	a0, 0
.LBB157_28:
	or	a2, s5, s4
	beqz	a2, .LBB157_38
.LBB157_29:
	slli	a0, s5, 1
	add	a1, a7, a0
	lw	a2, -12(a1)
	lw	a3, -16(a1)
	li	a4, 1
	and	s6, a2, s8
	and	s7, a3, s9
	or	a2, s7, s6
	sw	a4, -16(a1)
	sw	zero, -12(a1)
	beqz	a2, .LBB157_33
	li	s1, 0
	li	s0, 0
.LBB157_31:
	addi	a0, sp, 32
	mv	a1, sp
	addi	a2, sp, 16
	mv	a3, s7
	mv	a4, s6
	mv	a5, s1
	mv	a6, s0
	call	ic_list_algorithms.sort.sort_front.e8da022ef74ca9e6
	lw	s6, 52(sp)
	lw	a4, 32(sp)
	lw	a5, 36(sp)
	lbu	s11, 40(sp)
	lw	s7, 48(sp)
	mv	a0, sp
	addi	a1, sp, 16
	mv	a2, s5
	mv	a3, s4
	call	ic_list_algorithms.merge.merge_runs.e8da022ef74ca9e6
	mv	s5, a0
	mv	s4, a1
	addi	s1, s1, 1
	seqz	a0, s1
	li	a1, 1
	add	s0, s0, a0
	beq	s11, a1, .LBB157_31
	lw	a7, 0(sp)
	slli	a0, s5, 1
.LBB157_33:
	add	a7, a7, a0
	sw	zero, -8(a7)
	sw	zero, -4(a7)
	lw	a7, 0(sp)
	add	a0, a0, a7
	lw	a1, -12(a0)
	lw	a0, -16(a0)
	and	a2, a1, s8
	and	a3, a0, s9
	or	a0, a3, a2
	beqz	a0, .LBB157_36
	mv	a0, s5
	mv	a1, s4
.LBB157_35:
	mv	a4, a0
	mv	a0, a3
	slli	a3, a3, 1
	add	a7, a7, a3
	sw	a4, -8(a7)
	sw	a1, -4(a7)
	lw	a7, 0(sp)
	add	a3, a3, a7
	lw	a4, -12(a3)
	lw	a3, -16(a3)
	mv	a1, a2
	and	a2, a4, s8
	and	a3, a3, s9
	or	a4, a3, a2
	bnez	a4, .LBB157_35
	j	.LBB157_39
.LBB157_36:
	mv	a0, s5
	mv	a1, s4
	j	.LBB157_39
.LBB157_37:
	mv	s4, s5
	mv	a0, s5
	mv	a1, s5
	or	a2, s5, s5
	bnez	a2, .LBB157_29
.LBB157_38:
	mv	s5, s3
	mv	s4, s2
.LBB157_39:
	or	a4, a0, a1
	mv	a2, s2
	mv	a3, s3
	beqz	a4, .LBB157_41
	mv	a2, a1
	mv	a3, a0
.LBB157_41:
	li	a0, 0
	slli	a1, s5, 1
	add	a1, a1, a7
	sw	s3, -8(a1)
	sw	s2, -4(a1)
	lw	a1, 0(sp)
	slli	a4, a3, 1
	add	a1, a1, a4
	addi	s3, s3, 1
	sw	s3, -16(a1)
	sw	s2, -12(a1)
	lw	a1, 0(sp)
	addi	s5, s5, 1
	add	a1, a1, s10
	sw	s5, -16(a1)
	sw	s4, -12(a1)
	lw	a1, 0(sp)
	add	a1, a1, s10
	sw	a3, -8(a1)
	sw	a2, -4(a1)
.LBB157_42:
	lw	ra, 108(sp)
	lw	s0, 104(sp)
	lw	s1, 100(sp)
	lw	s2, 96(sp)
	lw	s3, 92(sp)
	lw	s4, 88(sp)
	lw	s5, 84(sp)
	lw	s6, 80(sp)
	lw	s7, 76(sp)
	lw	s8, 72(sp)
	lw	s9, 68(sp)
	lw	s10, 64(sp)
	lw	s11, 60(sp)
	.cfi_restore ra
	.cfi_restore s0
	.cfi_restore s1
	.cfi_restore s2
	.cfi_restore s3
	.cfi_restore s4
	.cfi_restore s5
	.cfi_restore s6
	.cfi_restore s7
	.cfi_restore s8
	.cfi_restore s9
	.cfi_restore s10
	.cfi_restore s11
	addi	sp, sp, 112
	.cfi_def_cfa_offset 0
	ret
.Lfunc_end157:
	.size	ic_ring_sort, .Lfunc_end157-ic_ring_sort
	.cfi_endproc
	.section	.text.ic_ring_splice_after,"ax",@progbits
	.globl	ic_ring_splice_after
	.p2align	1
	.type	ic_ring_splice_after,@function
ic_ring_splice_after:
	.cfi_startproc
	mv	a5, a4
	mv	a4, a3
	seqz	a3, a0
	slli	a3, a3, 12
	add	a0, a0, a3
	li	a3, 0
	tail	ic_raw.ring_calls.splice.354f48d5d890d6b4
.Lfunc_end158:
	.size	ic_ring_splice_after, .Lfunc_end158-ic_ring_splice_after
	.cfi_endproc
	.section	.text.ic_ring_splice_before,"ax",@progbits
	.globl	ic_ring_splice_before
	.p2align	1
	.type	ic_ring_splice_before,@function
ic_ring_splice_before:
	.cfi_startproc
	mv	a5, a4
	mv	a4, a3
	seqz	a3, a0
	slli	a3, a3, 12
	add	a0, a0, a3
	li	a3, 1
	tail	ic_raw.ring_calls.splice.354f48d5d890d6b4
.Lfunc_end159:
	.size	ic_ring_splice_before, .Lfunc_end159-ic_ring_splice_before
	.cfi_endproc
	.section	.text.ic_stack_check,"ax",@progbits
	.globl	ic_stack_check
	.p2align	1
	.type	ic_stack_check,@function
ic_stack_check:
	.cfi_startproc
	lw	a5, 4(a3)
	lw	a3, 0(a3)
	andi	t2, a5, 15
	andi	a7, a3, -8
	li	t4, 0
	li	t5, 0
	or	a3, a7, t2
	beqz	a3, .LBB160_10
	li	a6, 15
	seqz	a3, a0
	slli	a3, a3, 12
	add	t0, a0, a3
	li	t1, -8
.LBB160_2:
	beq	a2, t5, .LBB160_4
	sltu	t3, t5, a2
	li	a0, 5
	bnez	t3, .LBB160_5
	j	.LBB160_11
.LBB160_4:
	sltu	t3, t4, a1
	li	a0, 5
	beqz	t3, .LBB160_11
.LBB160_5:
	srli	a3, t2, 3
	beq	a3, a2, .LBB160_7
	sltu	a3, a2, a3
	beqz	a3, .LBB160_8
	j	.LBB160_11
.LBB160_7:
	srli	a3, a7, 3
	slli	t2, t2, 29
	or	a3, a3, t2
	sltu	a3, a1, a3
	bnez	a3, .LBB160_11
.LBB160_8:
	add	a7, a7, t0
	lw	a5, -8(a7)
	andi	a3, a5, 1
	beqz	a3, .LBB160_11
	lw	a0, -4(a7)
	and	a7, a5, t1
	addi	t4, t4, 1
	and	t2, a0, a6
	seqz	a0, t4
	or	a3, a7, t2
	add	t5, t5, a0
	bnez	a3, .LBB160_2
.LBB160_10:
	li	a0, 0
	sw	t4, 0(a4)
	sw	t5, 4(a4)
.LBB160_11:
	ret
.Lfunc_end160:
	.size	ic_stack_check, .Lfunc_end160-ic_stack_check
	.cfi_endproc
	.section	.text.ic_stack_clear,"ax",@progbits
	.globl	ic_stack_clear
	.p2align	1
	.type	ic_stack_clear,@function
ic_stack_clear:
	.cfi_startproc
	lw	a4, 4(a3)
	lw	a5, 0(a3)
	andi	t2, a4, 15
	andi	t1, a5, -8
	or	a5, t1, t2
	beqz	a5, .LBB161_11
	mv	a4, a0
	or	a5, a1, a2
	li	a0, 5
	beqz	a5, .LBB161_9
	li	a6, 15
	li	a7, -8
	seqz	a5, a4
	slli	a5, a5, 12
	add	t0, a4, a5
	mv	t5, a1
	mv	t4, a2
	mv	t3, t1
.LBB161_3:
	srli	a5, t2, 3
	beq	a5, a2, .LBB161_5
	sltu	t2, a2, a5
	beqz	t2, .LBB161_6
	j	.LBB161_9
.LBB161_5:
	srli	a5, t3, 3
	slli	t2, t2, 29
	or	a5, a5, t2
	sltu	t2, a1, a5
	bnez	t2, .LBB161_9
.LBB161_6:
	add	t3, t3, t0
	lw	a4, -8(t3)
	andi	a5, a4, 1
	beqz	a5, .LBB161_9
	lw	a5, -4(t3)
	and	t3, a4, a7
	and	t2, a5, a6
	or	a4, t3, t2
	beqz	a4, .LBB161_10
	seqz	a5, t5
	sub	t4, t4, a5
	addi	t5, t5, -1
	or	a5, t5, t4
	bnez	a5, .LBB161_3
.LBB161_9:
	ret
.LBB161_10:
	add	a0, t0, t1
	lw	a1, -4(a0)
	lw	a2, -8(a0)
	and	a1, a1, a6
	and	t1, a2, a7
	or	a1, t1, a1
	sw	zero, -8(a0)
	sw	zero, -4(a0)
	bnez	a1, .LBB161_10
.LBB161_11:
	li	a0, 0
	sw	zero, 0(a3)
	sw	zero, 4(a3)
	ret
.Lfunc_end161:
	.size	ic_stack_clear, .Lfunc_end161-ic_stack_clear
	.cfi_endproc
	.section	.text.ic_stack_fill,"ax",@progbits
	.globl	ic_stack_fill
	.p2align	1
	.type	ic_stack_fill,@function
ic_stack_fill:
	.cfi_startproc
	beqz	a5, .LBB162_4
	addi	sp, sp, -32
	.cfi_def_cfa_offset 32
	sw	s0, 28(sp)
	sw	s1, 24(sp)
	sw	s2, 20(sp)
	sw	s3, 16(sp)
	sw	s4, 12(sp)
	sw	s5, 8(sp)
	.cfi_offset s0, -4
	.cfi_offset s1, -8
	.cfi_offset s2, -12
	.cfi_offset s3, -16
	.cfi_offset s4, -20
	.cfi_offset s5, -24
	.cfi_remember_state
	lw	s1, 4(a3)
	lw	s0, 0(a3)
	seqz	t3, a0
	slli	t3, t3, 12
	andi	a7, s1, 15
	andi	t2, s0, -8
	or	s1, t2, a7
	add	t0, a0, t3
	beqz	s1, .LBB162_8
	srli	s1, a7, 3
	beq	s1, a2, .LBB162_5
	sltu	s1, a2, s1
	li	t1, 1
	beqz	s1, .LBB162_6
	j	.LBB162_7
.LBB162_4:
	li	a0, 0
	ret
.LBB162_5:
	.cfi_restore_state
	srli	s1, t2, 3
	slli	s0, a7, 29
	or	s0, s0, s1
	sltu	s1, a1, s0
	li	t1, 1
	bnez	s1, .LBB162_7
.LBB162_6:
	add	s1, t0, t2
	lbu	s1, -8(s1)
	andi	s1, s1, 1
	bnez	s1, .LBB162_8
.LBB162_7:
	li	s2, 0
	li	t4, 0
	j	.LBB162_9
.LBB162_8:
	addi	t1, t2, 1
	li	s2, 1
	mv	t4, a7
.LBB162_9:
	slli	t6, a4, 3
	add	s3, a0, t6
	add	s3, s3, t3
	addi	s0, a4, 1
	mv	s5, a5
.LBB162_10:
	li	a6, 1
	beqz	s0, .LBB162_27
	sltu	s4, a1, s0
	seqz	t5, a2
	and	s1, t5, s4
	bnez	s1, .LBB162_27
	lw	s1, 0(s3)
	slli	s1, s1, 1
	andi	a6, s1, 2
	bnez	a6, .LBB162_27
	addi	s5, s5, -1
	addi	s3, s3, 8
	addi	s0, s0, 1
	bnez	s5, .LBB162_10
	beqz	s2, .LBB162_26
	addi	a2, a4, 1
	beqz	a2, .LBB162_25
	sltu	s1, a1, a2
	and	s1, t5, s1
	bnez	s1, .LBB162_25
	slli	a6, a2, 3
	add	s0, t0, a6
	lbu	s1, -8(s0)
	andi	s1, s1, 1
	bnez	s1, .LBB162_25
	srli	a7, a2, 29
	addi	a5, a5, -1
	sw	t1, -8(s0)
	sw	t4, -4(s0)
	beqz	a5, .LBB162_24
	addi	a4, a4, 2
	add	t3, t3, t6
	add	a0, a0, t3
.LBB162_20:
	beqz	a4, .LBB162_24
	sltu	a2, a1, a4
	and	a2, t5, a2
	bnez	a2, .LBB162_24
	slli	a2, a4, 3
	add	s1, t0, a2
	lbu	s0, -8(s1)
	andi	s0, s0, 1
	bnez	s0, .LBB162_24
	srli	s0, a4, 29
	addi	a2, a2, 1
	addi	a5, a5, -1
	addi	a4, a4, 1
	sw	a2, 0(a0)
	sw	s0, 4(a0)
	sw	t1, -8(s1)
	sw	t4, -4(s1)
	addi	a0, a0, 8
	bnez	a5, .LBB162_20
.LBB162_24:
	mv	t2, a6
.LBB162_25:
	li	a6, 0
	sw	t2, 0(a3)
	sw	a7, 4(a3)
	j	.LBB162_27
.LBB162_26:
	li	a6, 5
.LBB162_27:
	lw	s0, 28(sp)
	lw	s1, 24(sp)
	lw	s2, 20(sp)
	lw	s3, 16(sp)
	lw	s4, 12(sp)
	lw	s5, 8(sp)
	.cfi_restore s0
	.cfi_restore s1
	.cfi_restore s2
	.cfi_restore s3
	.cfi_restore s4
	.cfi_restore s5
	addi	sp, sp, 32
	.cfi_def_cfa_offset 0
	mv	a0, a6
	ret
.Lfunc_end162:
	.size	ic_stack_fill, .Lfunc_end162-ic_stack_fill
	.cfi_endproc
	.section	.text.ic_stack_insert_after,"ax",@progbits
	.globl	ic_stack_insert_after
	.p2align	1
	.type	ic_stack_insert_after,@function
ic_stack_insert_after:
	.cfi_startproc
	addi	sp, sp, -32
	.cfi_def_cfa_offset 32
	sw	ra, 28(sp)
	sw	s0, 24(sp)
	.cfi_offset ra, -4
	.cfi_offset s0, -8
	.cfi_remember_state
	seqz	a6, a0
	lw	a7, 0(a3)
	lw	t1, 4(a3)
	addi	t0, a4, 1
	slli	a6, a6, 12
	add	t5, a0, a6
	sw	t5, 8(sp)
	sw	zero, 12(sp)
	sw	a1, 16(sp)
	sw	a2, 20(sp)
	andi	a6, t1, 15
	andi	a7, a7, -8
	slli	t1, t0, 3
	seqz	t4, a2
	mv	t2, a7
	mv	t3, a6
	beqz	t0, .LBB163_4
	sltu	a0, a1, t0
	and	a0, t4, a0
	bnez	a0, .LBB163_17
	add	t3, t5, t1
	lw	t2, -8(t3)
	andi	a0, t2, 1
	beqz	a0, .LBB163_17
	lw	t6, -4(t3)
	li	t3, 15
	li	a0, -8
	and	t2, t2, a0
	and	t3, t6, t3
.LBB163_4:
	or	a0, t2, t3
	addi	s0, a5, 1
	beqz	a0, .LBB163_7
	srli	t6, t3, 3
	beq	t6, a2, .LBB163_8
	sltu	a2, a2, t6
	beqz	a2, .LBB163_9
	j	.LBB163_17
.LBB163_7:
	bnez	s0, .LBB163_11
	j	.LBB163_17
.LBB163_8:
	srli	a0, t2, 3
	slli	a2, t3, 29
	or	a0, a0, a2
	sltu	a2, a1, a0
	bnez	a2, .LBB163_17
.LBB163_9:
	beqz	s0, .LBB163_17
	add	a0, t5, t2
	lw	a0, -8(a0)
	andi	a0, a0, 1
	beqz	a0, .LBB163_17
.LBB163_11:
	sltu	a0, a1, s0
	and	a0, t4, a0
	bnez	a0, .LBB163_17
	slli	a2, s0, 3
	add	a1, t5, a2
	lbu	a0, -8(a1)
	andi	a0, a0, 1
	bnez	a0, .LBB163_17
	srli	a0, s0, 29
	beqz	t0, .LBB163_15
	add	t1, t1, t5
	addi	a2, a2, 1
	sw	a2, -8(t1)
	sw	a0, -4(t1)
	j	.LBB163_16
.LBB163_15:
	mv	a7, a2
	mv	a6, a0
.LBB163_16:
	li	a0, 0
	addi	t2, t2, 1
	sw	t2, -8(a1)
	sw	t3, -4(a1)
	sw	a7, 0(a3)
	sw	a6, 4(a3)
	lw	ra, 28(sp)
	lw	s0, 24(sp)
	.cfi_restore ra
	.cfi_restore s0
	addi	sp, sp, 32
	.cfi_def_cfa_offset 0
	ret
.LBB163_17:
	.cfi_restore_state
	addi	a0, sp, 8
	mv	a1, a4
	mv	a2, a5
	call	ic_raw.table.RawTable.refusal.feecb86c9dd45d96
	lw	ra, 28(sp)
	lw	s0, 24(sp)
	.cfi_restore ra
	.cfi_restore s0
	addi	sp, sp, 32
	.cfi_def_cfa_offset 0
	ret
.Lfunc_end163:
	.size	ic_stack_insert_after, .Lfunc_end163-ic_stack_insert_after
	.cfi_endproc
	.section	.text.ic_stack_merge,"ax",@progbits
	.globl	ic_stack_merge
	.p2align	1
	.type	ic_stack_merge,@function
ic_stack_merge:
	.cfi_startproc
	addi	sp, sp, -80
	.cfi_def_cfa_offset 80
	sw	ra, 76(sp)
	sw	s0, 72(sp)
	sw	s1, 68(sp)
	sw	s2, 64(sp)
	sw	s3, 60(sp)
	sw	s4, 56(sp)
	sw	s5, 52(sp)
	sw	s6, 48(sp)
	sw	s7, 44(sp)
	sw	s8, 40(sp)
	sw	s9, 36(sp)
	.cfi_offset ra, -4
	.cfi_offset s0, -8
	.cfi_offset s1, -12
	.cfi_offset s2, -16
	.cfi_offset s3, -20
	.cfi_offset s4, -24
	.cfi_offset s5, -28
	.cfi_offset s6, -32
	.cfi_offset s7, -36
	.cfi_offset s8, -40
	.cfi_offset s9, -44
	.cfi_remember_state
	seqz	s1, a0
	slli	t6, s1, 12
	add	t6, t6, a0
	seqz	a0, a3
	slli	a0, a0, 12
	add	a0, a0, a3
	sw	a0, 16(sp)
	sw	zero, 20(sp)
	sw	a4, 24(sp)
	sw	a5, 28(sp)
	sw	t6, 0(sp)
	sw	zero, 4(sp)
	sw	a1, 8(sp)
	sw	a2, 12(sp)
	beq	a5, a2, .LBB164_2
	sltu	a0, a5, a2
	beqz	a0, .LBB164_3
	j	.LBB164_27
.LBB164_2:
	sltu	a0, a4, a1
	bnez	a0, .LBB164_27
.LBB164_3:
	lw	a0, 0(a6)
	lw	a3, 4(a6)
	lw	t2, 0(a7)
	lw	t1, 4(a7)
	li	t4, 15
	li	t5, -8
	andi	a3, a3, 15
	andi	t0, a0, -8
	or	t3, t0, a3
	or	s2, a1, a2
	beqz	t3, .LBB164_12
	mv	s6, a1
	mv	s3, a2
	mv	s4, t0
	mv	s5, a3
	beqz	s2, .LBB164_27
.LBB164_5:
	srli	a0, s5, 3
	beq	a0, a2, .LBB164_7
	sltu	a0, a2, a0
	j	.LBB164_8
.LBB164_7:
	srli	a0, s4, 3
	slli	s0, s5, 29
	or	a0, a0, s0
	sltu	a0, a1, a0
.LBB164_8:
	bnez	a0, .LBB164_27
	add	s0, t6, s4
	lw	a0, -8(s0)
	andi	s1, a0, 1
	beqz	s1, .LBB164_27
	lw	s1, -4(s0)
	and	s0, a0, t5
	and	a0, s1, t4
	or	s1, s0, a0
	beqz	s1, .LBB164_13
	seqz	s1, s6
	sub	s3, s3, s1
	addi	s6, s6, -1
	or	s1, s6, s3
	mv	s4, s0
	mv	s5, a0
	bnez	s1, .LBB164_5
	j	.LBB164_27
.LBB164_12:
	li	s4, 0
	li	s5, 0
.LBB164_13:
	andi	t1, t1, 15
	andi	t2, t2, -8
	or	s3, t2, t1
	beqz	s3, .LBB164_22
	mv	s9, a1
	mv	s8, a2
	mv	s6, t2
	mv	s7, t1
	beqz	s2, .LBB164_27
.LBB164_15:
	srli	a0, s7, 3
	beq	a0, a2, .LBB164_17
	sltu	a0, a2, a0
	j	.LBB164_18
.LBB164_17:
	srli	a0, s6, 3
	slli	s0, s7, 29
	or	a0, a0, s0
	sltu	a0, a1, a0
.LBB164_18:
	bnez	a0, .LBB164_27
	add	s0, t6, s6
	lw	a0, -8(s0)
	andi	s1, a0, 1
	beqz	s1, .LBB164_27
	lw	s0, -4(s0)
	and	a0, a0, t5
	and	s0, s0, t4
	or	s1, a0, s0
	beqz	s1, .LBB164_23
	seqz	s1, s9
	sub	s8, s8, s1
	addi	s9, s9, -1
	or	s1, s9, s8
	mv	s6, a0
	mv	s7, s0
	bnez	s1, .LBB164_15
	j	.LBB164_27
.LBB164_22:
	li	s6, 0
	li	s7, 0
.LBB164_23:
	seqz	a0, t3
	bnez	a0, .LBB164_29
	xor	a0, s6, s4
	xor	s1, s7, s5
	or	a0, a0, s1
	beqz	a0, .LBB164_27
	seqz	a0, s3
	bnez	a0, .LBB164_28
	mv	a0, sp
	addi	a1, sp, 16
	mv	a2, t0
	mv	a4, t2
	mv	a5, t1
	mv	s0, a7
	mv	s1, a6
	call	ic_list_algorithms.merge.merge_runs.07d679d1abf7571e
	mv	a6, s1
	mv	a7, s0
	mv	t2, a0
	mv	t1, a1
	j	.LBB164_29
.LBB164_27:
	mv	a0, a1
	mv	a1, a2
	mv	a2, a4
	mv	a3, a5
	lw	ra, 76(sp)
	lw	s0, 72(sp)
	lw	s1, 68(sp)
	lw	s2, 64(sp)
	lw	s3, 60(sp)
	lw	s4, 56(sp)
	lw	s5, 52(sp)
	lw	s6, 48(sp)
	lw	s7, 44(sp)
	lw	s8, 40(sp)
	lw	s9, 36(sp)
	.cfi_restore ra
	.cfi_restore s0
	.cfi_restore s1
	.cfi_restore s2
	.cfi_restore s3
	.cfi_restore s4
	.cfi_restore s5
	.cfi_restore s6
	.cfi_restore s7
	.cfi_restore s8
	.cfi_restore s9
	addi	sp, sp, 80
	.cfi_def_cfa_offset 0
	tail	ic_raw.sort_calls.refusal.1b4d7615ba81168a
.LBB164_28:
	.cfi_restore_state
	mv	t2, t0
	mv	t1, a3
.LBB164_29:
	sw	t2, 0(a6)
	sw	t1, 4(a6)
	sw	zero, 0(a7)
	sw	zero, 4(a7)
	li	a0, 0
	lw	ra, 76(sp)
	lw	s0, 72(sp)
	lw	s1, 68(sp)
	lw	s2, 64(sp)
	lw	s3, 60(sp)
	lw	s4, 56(sp)
	lw	s5, 52(sp)
	lw	s6, 48(sp)
	lw	s7, 44(sp)
	lw	s8, 40(sp)
	lw	s9, 36(sp)
	.cfi_restore ra
	.cfi_restore s0
	.cfi_restore s1
	.cfi_restore s2
	.cfi_restore s3
	.cfi_restore s4
	.cfi_restore s5
	.cfi_restore s6
	.cfi_restore s7
	.cfi_restore s8
	.cfi_restore s9
	addi	sp, sp, 80
	.cfi_def_cfa_offset 0
	ret
.Lfunc_end164:
	.size	ic_stack_merge, .Lfunc_end164-ic_stack_merge
	.cfi_endproc
	.section	.text.ic_stack_pop_front,"ax",@progbits
	.globl	ic_stack_pop_front
	.p2align	1
	.type	ic_stack_pop_front,@function
ic_stack_pop_front:
	.cfi_startproc
	lw	a7, 4(a3)
	lw	a6, 0(a3)
	seqz	a5, a0
	slli	t0, a5, 12
	andi	a5, a7, 15
	andi	a7, a6, -8
	or	a6, a7, a5
	add	a0, a0, t0
	beqz	a6, .LBB165_6
	srli	a6, a7, 3
	slli	t0, a5, 29
	srli	a5, a5, 3
	or	a6, a6, t0
	beq	a5, a2, .LBB165_3
	sltu	a5, a2, a5
	beqz	a5, .LBB165_4
	j	.LBB165_6
.LBB165_3:
	sltu	a5, a1, a6
	bnez	a5, .LBB165_6
.LBB165_4:
	add	t0, a0, a7
	lw	a7, -8(t0)
	andi	a5, a7, 1
	beqz	a5, .LBB165_6
	li	a0, 15
	li	a1, -8
	lw	a2, -4(t0)
	sw	zero, -8(t0)
	sw	zero, -4(t0)
	addi	a6, a6, -1
	and	a1, a7, a1
	and	a0, a0, a2
	sw	a1, 0(a3)
	sw	a0, 4(a3)
	sw	a6, 0(a4)
	li	a0, 0
	ret
.LBB165_6:
	tail	ic_raw.stack_calls.pop_front_slow
.Lfunc_end165:
	.size	ic_stack_pop_front, .Lfunc_end165-ic_stack_pop_front
	.cfi_endproc
	.section	.text.ic_stack_push_front,"ax",@progbits
	.globl	ic_stack_push_front
	.p2align	1
	.type	ic_stack_push_front,@function
ic_stack_push_front:
	.cfi_startproc
	lw	a7, 0(a3)
	lw	a6, 4(a3)
	seqz	a5, a0
	slli	a5, a5, 12
	add	a0, a0, a5
	andi	a6, a6, 15
	andi	a7, a7, -8
	or	a5, a7, a6
	addi	t0, a4, 1
	beqz	a5, .LBB166_3
	srli	a5, a6, 3
	beq	a5, a2, .LBB166_4
	sltu	a5, a2, a5
	beqz	a5, .LBB166_5
	j	.LBB166_10
.LBB166_3:
	bnez	t0, .LBB166_7
	j	.LBB166_10
.LBB166_4:
	srli	t1, a7, 3
	slli	a5, a6, 29
	or	a5, t1, a5
	sltu	a5, a1, a5
	bnez	a5, .LBB166_10
.LBB166_5:
	beqz	t0, .LBB166_10
	add	a5, a0, a7
	lw	a5, -8(a5)
	andi	a5, a5, 1
	beqz	a5, .LBB166_10
.LBB166_7:
	sltu	t1, a1, t0
	seqz	a5, a2
	and	a5, a5, t1
	bnez	a5, .LBB166_10
	slli	t1, t0, 3
	add	t2, a0, t1
	lbu	a5, -8(t2)
	andi	a5, a5, 1
	bnez	a5, .LBB166_10
	srli	a0, t0, 29
	addi	a7, a7, 1
	sw	a7, -8(t2)
	sw	a6, -4(t2)
	sw	t1, 0(a3)
	sw	a0, 4(a3)
	li	a0, 0
	ret
.LBB166_10:
	mv	a3, a4
	tail	ic_raw.table.refusal_at_end.feecb86c9dd45d96
.Lfunc_end166:
	.size	ic_stack_push_front, .Lfunc_end166-ic_stack_push_front
	.cfi_endproc
	.section	.text.ic_stack_remove_after,"ax",@progbits
	.globl	ic_stack_remove_after
	.p2align	1
	.type	ic_stack_remove_after,@function
ic_stack_remove_after:
	.cfi_startproc
	addi	sp, sp, -16
	.cfi_def_cfa_offset 16
	sw	s0, 12(sp)
	sw	s1, 8(sp)
	.cfi_offset s0, -4
	.cfi_offset s1, -8
	.cfi_remember_state
	li	t0, 15
	li	t1, -8
	lw	a7, 0(a3)
	lw	a6, 4(a3)
	seqz	t2, a0
	slli	t2, t2, 12
	add	a0, a0, t2
	andi	a6, a6, 15
	andi	a7, a7, -8
	addi	t3, a4, 1
	slli	t2, t3, 3
	mv	t5, a7
	mv	t4, a6
	beqz	t3, .LBB167_4
	sltu	t4, a1, t3
	seqz	t5, a2
	and	t4, t5, t4
	bnez	t4, .LBB167_14
	add	t5, a0, t2
	lw	t4, -8(t5)
	andi	t6, t4, 1
	beqz	t6, .LBB167_14
	lw	t6, -4(t5)
	and	t5, t4, t1
	and	t4, t6, t0
.LBB167_4:
	or	t6, t5, t4
	beqz	t6, .LBB167_7
	srli	s0, t5, 3
	slli	s1, t4, 29
	srli	t6, t4, 3
	or	t4, s0, s1
	beq	t6, a2, .LBB167_8
	sltu	t6, a2, t6
	beqz	t6, .LBB167_9
	j	.LBB167_14
.LBB167_7:
	li	a0, 4
	lw	s0, 12(sp)
	lw	s1, 8(sp)
	.cfi_restore s0
	.cfi_restore s1
	addi	sp, sp, 16
	.cfi_def_cfa_offset 0
	ret
.LBB167_8:
	.cfi_restore_state
	.cfi_remember_state
	sltu	t6, a1, t4
	bnez	t6, .LBB167_14
.LBB167_9:
	add	t5, t5, a0
	lw	t6, -8(t5)
	andi	s0, t6, 1
	beqz	s0, .LBB167_14
	lw	a1, -4(t5)
	and	a2, t6, t1
	and	a1, a1, t0
	beqz	t3, .LBB167_12
	add	a0, a0, t2
	addi	a2, a2, 1
	sw	a2, -8(a0)
	sw	a1, -4(a0)
	j	.LBB167_13
.LBB167_12:
	mv	a7, a2
	mv	a6, a1
.LBB167_13:
	li	a0, 0
	sw	zero, -8(t5)
	sw	zero, -4(t5)
	sw	a7, 0(a3)
	sw	a6, 4(a3)
	addi	t4, t4, -1
	sw	t4, 0(a5)
	lw	s0, 12(sp)
	lw	s1, 8(sp)
	.cfi_restore s0
	.cfi_restore s1
	addi	sp, sp, 16
	.cfi_def_cfa_offset 0
	ret
.LBB167_14:
	.cfi_restore_state
	mv	a3, a4
	lw	s0, 12(sp)
	lw	s1, 8(sp)
	.cfi_restore s0
	.cfi_restore s1
	addi	sp, sp, 16
	.cfi_def_cfa_offset 0
	tail	ic_raw.table.RawTable.refusal_at.feecb86c9dd45d96
.Lfunc_end167:
	.size	ic_stack_remove_after, .Lfunc_end167-ic_stack_remove_after
	.cfi_endproc
	.section	.text.ic_stack_replace_after,"ax",@progbits
	.globl	ic_stack_replace_after
	.p2align	1
	.type	ic_stack_replace_after,@function
ic_stack_replace_after:
	.cfi_startproc
	addi	sp, sp, -48
	.cfi_def_cfa_offset 48
	sw	ra, 44(sp)
	sw	s0, 40(sp)
	sw	s1, 36(sp)
	sw	s2, 32(sp)
	sw	s3, 28(sp)
	.cfi_offset ra, -4
	.cfi_offset s0, -8
	.cfi_offset s1, -12
	.cfi_offset s2, -16
	.cfi_offset s3, -20
	li	a7, 15
	li	t0, -8
	seqz	t1, a0
	lw	s0, 0(a3)
	lw	s1, 4(a3)
	addi	t3, a4, 1
	slli	t1, t1, 12
	add	s3, a0, t1
	sw	s3, 8(sp)
	sw	zero, 12(sp)
	sw	a1, 16(sp)
	sw	a2, 20(sp)
	andi	t1, s1, 15
	andi	t2, s0, -8
	slli	t4, t3, 3
	seqz	t6, a2
	mv	s0, t2
	mv	s1, t1
	beqz	t3, .LBB168_4
	sltu	a0, a1, t3
	and	a0, t6, a0
	bnez	a0, .LBB168_15
	add	a0, s3, t4
	lw	s0, -8(a0)
	andi	s1, s0, 1
	beqz	s1, .LBB168_15
	lw	a0, -4(a0)
	and	s0, s0, t0
	and	s1, a0, a7
.LBB168_4:
	or	a0, s0, s1
	beqz	a0, .LBB168_7
	srli	t5, s0, 3
	slli	a0, s1, 29
	srli	s1, s1, 3
	or	t5, t5, a0
	beq	s1, a2, .LBB168_8
	sltu	a2, a2, s1
	beqz	a2, .LBB168_9
	j	.LBB168_15
.LBB168_7:
	li	a0, 4
	j	.LBB168_18
.LBB168_8:
	sltu	a2, a1, t5
	bnez	a2, .LBB168_15
.LBB168_9:
	add	a2, s3, s0
	lw	s2, -8(a2)
	andi	a0, s2, 1
	beqz	a0, .LBB168_15
	addi	s1, a5, 1
	beqz	s1, .LBB168_15
	sltu	a0, a1, s1
	and	a0, t6, a0
	bnez	a0, .LBB168_15
	slli	a1, s1, 3
	add	s0, s3, a1
	lbu	a0, -8(s0)
	andi	a0, a0, 1
	bnez	a0, .LBB168_15
	lw	a4, -4(a2)
	srli	s1, s1, 29
	beqz	t3, .LBB168_16
	add	t4, t4, s3
	addi	a1, a1, 1
	sw	a1, -8(t4)
	sw	s1, -4(t4)
	j	.LBB168_17
.LBB168_15:
	addi	a0, sp, 8
	mv	a1, a4
	mv	a2, a5
	call	ic_raw.table.RawTable.refusal.feecb86c9dd45d96
	j	.LBB168_18
.LBB168_16:
	mv	t2, a1
	mv	t1, s1
.LBB168_17:
	li	a0, 0
	addi	t0, t0, 1
	addi	t5, t5, -1
	and	a1, s2, t0
	seqz	a5, t0
	add	a5, a5, a7
	and	a4, a4, a5
	sw	a1, -8(s0)
	sw	a4, -4(s0)
	sw	zero, -8(a2)
	sw	zero, -4(a2)
	sw	t2, 0(a3)
	sw	t1, 4(a3)
	sw	t5, 0(a6)
.LBB168_18:
	lw	ra, 44(sp)
	lw	s0, 40(sp)
	lw	s1, 36(sp)
	lw	s2, 32(sp)
	lw	s3, 28(sp)
	.cfi_restore ra
	.cfi_restore s0
	.cfi_restore s1
	.cfi_restore s2
	.cfi_restore s3
	addi	sp, sp, 48
	.cfi_def_cfa_offset 0
	ret
.Lfunc_end168:
	.size	ic_stack_replace_after, .Lfunc_end168-ic_stack_replace_after
	.cfi_endproc
	.section	.text.ic_stack_sort,"ax",@progbits
	.globl	ic_stack_sort
	.p2align	1
	.type	ic_stack_sort,@function
ic_stack_sort:
	.cfi_startproc
	addi	sp, sp, -96
	.cfi_def_cfa_offset 96
	sw	ra, 92(sp)
	sw	s0, 88(sp)
	sw	s1, 84(sp)
	sw	s2, 80(sp)
	sw	s3, 76(sp)
	sw	s4, 72(sp)
	sw	s5, 68(sp)
	sw	s6, 64(sp)
	sw	s7, 60(sp)
	.cfi_offset ra, -4
	.cfi_offset s0, -8
	.cfi_offset s1, -12
	.cfi_offset s2, -16
	.cfi_offset s3, -20
	.cfi_offset s4, -24
	.cfi_offset s5, -28
	.cfi_offset s6, -32
	.cfi_offset s7, -36
	.cfi_remember_state
	mv	s2, a6
	seqz	s1, a0
	slli	t0, s1, 12
	add	t0, t0, a0
	seqz	a0, a3
	slli	a0, a0, 12
	add	a0, a0, a3
	sw	a0, 16(sp)
	sw	zero, 20(sp)
	sw	a4, 24(sp)
	sw	a5, 28(sp)
	sw	t0, 0(sp)
	sw	zero, 4(sp)
	sw	a1, 8(sp)
	sw	a2, 12(sp)
	beq	a5, a2, .LBB169_2
	sltu	a0, a5, a2
	beqz	a0, .LBB169_3
	j	.LBB169_13
.LBB169_2:
	sltu	a0, a4, a1
	bnez	a0, .LBB169_13
.LBB169_3:
	lw	a0, 4(s2)
	lw	a3, 0(s2)
	andi	s3, a0, 15
	andi	s4, a3, -8
	or	a0, s4, s3
	beqz	a0, .LBB169_17
	or	a0, a1, a2
	beqz	a0, .LBB169_13
	li	a7, 15
	li	a6, -8
	mv	s0, a1
	mv	t2, a2
	mv	t1, s4
	mv	a0, s3
.LBB169_6:
	srli	s1, a0, 3
	beq	s1, a2, .LBB169_8
	sltu	a0, a2, s1
	j	.LBB169_9
.LBB169_8:
	srli	a3, t1, 3
	slli	a0, a0, 29
	or	a0, a0, a3
	sltu	a0, a1, a0
.LBB169_9:
	bnez	a0, .LBB169_13
	add	s1, t0, t1
	lw	a0, -8(s1)
	andi	a3, a0, 1
	beqz	a3, .LBB169_13
	lw	a3, -4(s1)
	and	t1, a0, a6
	and	a0, a3, a7
	or	a3, t1, a0
	beqz	a3, .LBB169_14
	seqz	s1, s0
	sub	t2, t2, s1
	addi	s0, s0, -1
	or	a3, s0, t2
	bnez	a3, .LBB169_6
.LBB169_13:
	mv	a0, a1
	mv	a1, a2
	mv	a2, a4
	mv	a3, a5
	lw	ra, 92(sp)
	lw	s0, 88(sp)
	lw	s1, 84(sp)
	lw	s2, 80(sp)
	lw	s3, 76(sp)
	lw	s4, 72(sp)
	lw	s5, 68(sp)
	lw	s6, 64(sp)
	lw	s7, 60(sp)
	.cfi_restore ra
	.cfi_restore s0
	.cfi_restore s1
	.cfi_restore s2
	.cfi_restore s3
	.cfi_restore s4
	.cfi_restore s5
	.cfi_restore s6
	.cfi_restore s7
	addi	sp, sp, 96
	.cfi_def_cfa_offset 0
	tail	ic_raw.sort_calls.refusal.1b4d7615ba81168a
.LBB169_14:
	.cfi_restore_state
	add	t0, t0, s4
	lw	a0, -4(t0)
	lw	a1, -8(t0)
	and	s5, a0, a7
	li	a0, 1
	and	s6, a1, a6
	or	a1, s6, s5
	sw	a0, -8(t0)
	sw	zero, -4(t0)
	beqz	a1, .LBB169_18
	li	s0, 0
	li	s1, 0
.LBB169_16:
	addi	a0, sp, 32
	mv	a1, sp
	addi	a2, sp, 16
	mv	a3, s6
	mv	a4, s5
	mv	a5, s0
	mv	a6, s1
	call	ic_list_algorithms.sort.sort_front.07d679d1abf7571e
	lw	s5, 52(sp)
	lw	a4, 32(sp)
	lw	a5, 36(sp)
	lbu	s7, 40(sp)
	lw	s6, 48(sp)
	mv	a0, sp
	addi	a1, sp, 16
	mv	a2, s4
	mv	a3, s3
	call	ic_list_algorithms.merge.merge_runs.07d679d1abf7571e
	mv	s4, a0
	mv	s3, a1
	addi	s0, s0, 1
	seqz	a0, s0
	li	a1, 1
	add	s1, s1, a0
	beq	s7, a1, .LBB169_16
	j	.LBB169_18
.LBB169_17:
	li	s4, 0
	li	s3, 0
.LBB169_18:
	sw	s4, 0(s2)
	sw	s3, 4(s2)
	li	a0, 0
	lw	ra, 92(sp)
	lw	s0, 88(sp)
	lw	s1, 84(sp)
	lw	s2, 80(sp)
	lw	s3, 76(sp)
	lw	s4, 72(sp)
	lw	s5, 68(sp)
	lw	s6, 64(sp)
	lw	s7, 60(sp)
	.cfi_restore ra
	.cfi_restore s0
	.cfi_restore s1
	.cfi_restore s2
	.cfi_restore s3
	.cfi_restore s4
	.cfi_restore s5
	.cfi_restore s6
	.cfi_restore s7
	addi	sp, sp, 96
	.cfi_def_cfa_offset 0
	ret
.Lfunc_end169:
	.size	ic_stack_sort, .Lfunc_end169-ic_stack_sort
	.cfi_endproc
	.section	.text.ic_stack_splice_after,"ax",@progbits
	.globl	ic_stack_splice_after
	.p2align	1
	.type	ic_stack_splice_after,@function
ic_stack_splice_after:
	.cfi_startproc
	addi	sp, sp, -32
	.cfi_def_cfa_offset 32
	sw	s0, 28(sp)
	sw	s1, 24(sp)
	sw	s2, 20(sp)
	sw	s3, 16(sp)
	sw	s4, 12(sp)
	sw	s5, 8(sp)
	sw	s6, 4(sp)
	.cfi_offset s0, -4
	.cfi_offset s1, -8
	.cfi_offset s2, -12
	.cfi_offset s3, -16
	.cfi_offset s4, -20
	.cfi_offset s5, -24
	.cfi_offset s6, -28
	.cfi_remember_state
	seqz	a6, a0
	lw	a7, 0(a3)
	lw	t0, 4(a3)
	lw	s0, 0(a5)
	lw	s1, 4(a5)
	slli	a6, a6, 12
	add	a0, a0, a6
	andi	a6, a7, -8
	andi	a7, t0, 15
	andi	t0, s1, 15
	andi	t1, s0, -8
	xor	s1, a7, t0
	xor	s0, a6, t1
	or	s0, s0, s1
	or	s3, t1, t0
	bnez	s0, .LBB170_2
	bnez	s3, .LBB170_21
.LBB170_2:
	li	t3, 15
	li	t6, -8
	addi	t5, a4, 1
	slli	t2, t5, 3
	mv	s2, a6
	mv	t4, a7
	beqz	t5, .LBB170_6
	sltu	s1, a1, t5
	seqz	s0, a2
	and	s0, s0, s1
	bnez	s0, .LBB170_21
	add	s0, a0, t2
	lw	t4, -8(s0)
	andi	s1, t4, 1
	beqz	s1, .LBB170_21
	lw	s0, -4(s0)
	and	s2, t4, t6
	and	t4, s0, t3
.LBB170_6:
	or	s1, s2, t4
	seqz	s0, s3
	beqz	s1, .LBB170_9
	srli	s1, t4, 3
	beq	s1, a2, .LBB170_10
	sltu	s1, a2, s1
	beqz	s1, .LBB170_11
	j	.LBB170_21
.LBB170_9:
	beqz	s0, .LBB170_13
	j	.LBB170_26
.LBB170_10:
	srli	s3, s2, 3
	slli	s1, t4, 29
	or	s1, s3, s1
	sltu	s1, a1, s1
	bnez	s1, .LBB170_21
.LBB170_11:
	add	s1, a0, s2
	lbu	s1, -8(s1)
	andi	s1, s1, 1
	seqz	s1, s1
	or	s0, s0, s1
	beqz	s0, .LBB170_13
	beqz	s1, .LBB170_26
	j	.LBB170_21
.LBB170_13:
	or	s4, a1, a2
	mv	s6, a1
	mv	s5, a2
	mv	s3, t1
	mv	s0, t0
	beqz	s4, .LBB170_21
.LBB170_14:
	srli	s4, s0, 3
	beq	s4, a2, .LBB170_16
	sltu	s0, a2, s4
	j	.LBB170_17
.LBB170_16:
	srli	s1, s3, 3
	slli	s0, s0, 29
	or	s0, s0, s1
	sltu	s0, a1, s0
.LBB170_17:
	bnez	s0, .LBB170_21
	add	s4, a0, s3
	lw	s0, -8(s4)
	andi	s1, s0, 1
	beqz	s1, .LBB170_21
	lw	s1, -4(s4)
	and	s3, s0, t6
	and	s0, s1, t3
	or	s1, s3, s0
	beqz	s1, .LBB170_22
	seqz	s1, s6
	sub	s5, s5, s1
	addi	s6, s6, -1
	or	s1, s6, s5
	bnez	s1, .LBB170_14
.LBB170_21:
	mv	a3, a4
	lw	s0, 28(sp)
	lw	s1, 24(sp)
	lw	s2, 20(sp)
	lw	s3, 16(sp)
	lw	s4, 12(sp)
	lw	s5, 8(sp)
	lw	s6, 4(sp)
	.cfi_restore s0
	.cfi_restore s1
	.cfi_restore s2
	.cfi_restore s3
	.cfi_restore s4
	.cfi_restore s5
	.cfi_restore s6
	addi	sp, sp, 32
	.cfi_def_cfa_offset 0
	tail	ic_raw.table.RawTable.refusal_at.feecb86c9dd45d96
.LBB170_22:
	.cfi_restore_state
	beqz	t5, .LBB170_24
	add	a0, a0, t2
	addi	t1, t1, 1
	sw	t1, -8(a0)
	sw	t0, -4(a0)
	j	.LBB170_25
.LBB170_24:
	mv	a6, t1
	mv	a7, t0
.LBB170_25:
	addi	s2, s2, 1
	sw	s2, -8(s4)
	sw	t4, -4(s4)
.LBB170_26:
	sw	a6, 0(a3)
	sw	a7, 4(a3)
	sw	zero, 0(a5)
	sw	zero, 4(a5)
	li	a0, 0
	lw	s0, 28(sp)
	lw	s1, 24(sp)
	lw	s2, 20(sp)
	lw	s3, 16(sp)
	lw	s4, 12(sp)
	lw	s5, 8(sp)
	lw	s6, 4(sp)
	.cfi_restore s0
	.cfi_restore s1
	.cfi_restore s2
	.cfi_restore s3
	.cfi_restore s4
	.cfi_restore s5
	.cfi_restore s6
	addi	sp, sp, 32
	.cfi_def_cfa_offset 0
	ret
.Lfunc_end170:
	.size	ic_stack_splice_after, .Lfunc_end170-ic_stack_splice_after
	.cfi_endproc
	.section	.text.ic_stack_split_after,"ax",@progbits
	.globl	ic_stack_split_after
	.p2align	1
	.type	ic_stack_split_after,@function
ic_stack_split_after:
	.cfi_startproc
	lw	a6, 4(a5)
	lw	a7, 0(a5)
	andi	a6, a6, 15
	andi	a7, a7, -8
	or	a6, a7, a6
	seqz	a7, a0
	slli	a7, a7, 12
	add	a0, a0, a7
	bnez	a6, .LBB171_13
	lw	a6, 4(a3)
	lw	a7, 0(a3)
	addi	t1, a4, 1
	andi	a6, a6, 15
	andi	a7, a7, -8
	slli	t0, t1, 3
	add	t0, t0, a0
	mv	t2, a7
	mv	t3, a6
	beqz	t1, .LBB171_5
	sltu	t2, a1, t1
	seqz	t3, a2
	and	t2, t3, t2
	bnez	t2, .LBB171_13
	lw	t2, -8(t0)
	andi	t3, t2, 1
	beqz	t3, .LBB171_13
	lw	t3, -4(t0)
	li	t4, 15
	li	t5, -8
	and	t2, t2, t5
	and	t3, t3, t4
.LBB171_5:
	or	t4, t2, t3
	beqz	t4, .LBB171_10
	srli	t4, t3, 3
	beq	t4, a2, .LBB171_8
	sltu	t4, a2, t4
	beqz	t4, .LBB171_9
	j	.LBB171_13
.LBB171_8:
	srli	t4, t2, 3
	slli	t5, t3, 29
	or	t4, t4, t5
	sltu	t4, a1, t4
	bnez	t4, .LBB171_13
.LBB171_9:
	add	t4, a0, t2
	lbu	t4, -8(t4)
	andi	t4, t4, 1
	beqz	t4, .LBB171_13
.LBB171_10:
	beqz	t1, .LBB171_12
	li	a0, 1
	sw	a0, -8(t0)
	sw	zero, -4(t0)
	sw	a7, 0(a3)
	sw	a6, 4(a3)
	sw	t2, 0(a5)
	sw	t3, 4(a5)
	li	a0, 0
	ret
.LBB171_12:
	sw	zero, 0(a3)
	sw	zero, 4(a3)
	sw	t2, 0(a5)
	sw	t3, 4(a5)
	li	a0, 0
	ret
.LBB171_13:
	mv	a3, a4
	tail	ic_raw.table.RawTable.refusal_at.feecb86c9dd45d96
.Lfunc_end171:
	.size	ic_stack_split_after, .Lfunc_end171-ic_stack_split_after
	.cfi_endproc
	.section	.text.ic_tree_append,"ax",@progbits
	.globl	ic_tree_append
	.p2align	1
	.type	ic_tree_append,@function
ic_tree_append:
	.cfi_startproc
	addi	sp, sp, -144
	.cfi_def_cfa_offset 144
	sw	ra, 140(sp)
	sw	s0, 136(sp)
	sw	s1, 132(sp)
	sw	s2, 128(sp)
	sw	s3, 124(sp)
	sw	s4, 120(sp)
	sw	s5, 116(sp)
	sw	s6, 112(sp)
	sw	s7, 108(sp)
	sw	s8, 104(sp)
	sw	s9, 100(sp)
	sw	s10, 96(sp)
	sw	s11, 92(sp)
	.cfi_offset ra, -4
	.cfi_offset s0, -8
	.cfi_offset s1, -12
	.cfi_offset s2, -16
	.cfi_offset s3, -20
	.cfi_offset s4, -24
	.cfi_offset s5, -28
	.cfi_offset s6, -32
	.cfi_offset s7, -36
	.cfi_offset s8, -40
	.cfi_offset s9, -44
	.cfi_offset s10, -48
	.cfi_offset s11, -52
	.cfi_remember_state
	mv	s5, a4
	mv	s6, a3
	seqz	a3, a0
	lw	a4, 0(s6)
	lw	a5, 4(s6)
	slli	a3, a3, 12
	add	a0, a0, a3
	lw	a3, 0(s5)
	lw	s1, 4(s5)
	sw	a0, 48(sp)
	sw	zero, 52(sp)
	sw	a1, 56(sp)
	sw	a2, 60(sp)
	andi	s2, a5, 15
	andi	s3, a4, -8
	andi	s7, s1, 15
	andi	s8, a3, -8
	or	s1, s8, s7
	li	s0, 5
	beqz	s1, .LBB172_3
	xor	a0, s3, s8
	xor	a1, s2, s7
	or	a0, a0, a1
	bnez	a0, .LBB172_3
.LBB172_2:
	mv	a0, s0
	lw	ra, 140(sp)
	lw	s0, 136(sp)
	lw	s1, 132(sp)
	lw	s2, 128(sp)
	lw	s3, 124(sp)
	lw	s4, 120(sp)
	lw	s5, 116(sp)
	lw	s6, 112(sp)
	lw	s7, 108(sp)
	lw	s8, 104(sp)
	lw	s9, 100(sp)
	lw	s10, 96(sp)
	lw	s11, 92(sp)
	.cfi_restore ra
	.cfi_restore s0
	.cfi_restore s1
	.cfi_restore s2
	.cfi_restore s3
	.cfi_restore s4
	.cfi_restore s5
	.cfi_restore s6
	.cfi_restore s7
	.cfi_restore s8
	.cfi_restore s9
	.cfi_restore s10
	.cfi_restore s11
	addi	sp, sp, 144
	.cfi_def_cfa_offset 0
	ret
.LBB172_3:
	.cfi_restore_state
	or	a0, s3, s2
	snez	s4, a0
	addi	a0, sp, 64
	addi	a1, sp, 48
	li	t3, 66
	mv	a2, s4
	mv	a3, s3
	mv	a4, s2
	li	a5, 0
	li	a6, 0
	li	a7, 0
	call	ic_check.tree.check_below.ffc36cde30076884
	lbu	a1, 64(sp)
	li	a0, 1
	bne	a1, a0, .LBB172_2
	lbu	a1, 84(sp)
	bne	a1, a0, .LBB172_2
	snez	a2, s1
	addi	a0, sp, 64
	addi	a1, sp, 48
	li	t3, 66
	mv	a3, s8
	mv	a4, s7
	li	a5, 0
	li	a6, 0
	li	a7, 0
	call	ic_check.tree.check_below.ffc36cde30076884
	lbu	a1, 64(sp)
	li	a0, 1
	bne	a1, a0, .LBB172_2
	lbu	a1, 84(sp)
	bne	a1, a0, .LBB172_2
	beqz	s1, .LBB172_129
	lw	t6, 48(sp)
	li	t0, 15
	li	t1, -8
	li	a1, 67
	mv	a2, s8
	mv	a4, s7
.LBB172_9:
	mv	a5, a2
	andi	s0, a2, -8
	slli	a2, a2, 1
	andi	a2, a2, -16
	add	s0, s0, a2
	add	a2, t6, s0
	lw	s1, -20(a2)
	lw	a3, -24(a2)
	mv	a6, a4
	and	a4, s1, t0
	and	a2, a3, t1
	or	a0, a2, a4
	beqz	a0, .LBB172_12
	addi	a1, a1, -1
	bnez	a1, .LBB172_9
	andi	s0, a3, -8
	slli	a3, a3, 1
	andi	a3, a3, -16
	add	s0, s0, a3
	mv	a5, a2
	mv	a6, a4
.LBB172_12:
	add	s1, t6, s0
	lw	a0, -20(s1)
	lw	a1, -24(s1)
	lw	a2, -16(s1)
	lw	a3, -12(s1)
	and	a0, a0, t0
	and	a1, a1, t1
	or	a4, a1, a0
	and	a3, a3, t0
	and	a2, a2, t1
	sw	s4, 28(sp)
	beqz	a4, .LBB172_23
	or	a4, a2, a3
	beqz	a4, .LBB172_24
	li	a0, 67
.LBB172_15:
	mv	t2, a2
	andi	a1, a2, -8
	slli	a2, a2, 1
	andi	a2, a2, -16
	add	a1, a1, a2
	add	a2, t6, a1
	lw	a4, -20(a2)
	lw	s1, -24(a2)
	mv	a7, a3
	and	a3, a4, t0
	and	a2, s1, t1
	or	a4, a2, a3
	beqz	a4, .LBB172_18
	addi	a0, a0, -1
	bnez	a0, .LBB172_15
	andi	a1, s1, -8
	slli	s1, s1, 1
	andi	s1, s1, -16
	add	a1, a1, s1
	mv	t2, a2
	mv	a7, a3
.LBB172_18:
	add	a2, t6, a1
	lw	a0, -20(a2)
	lw	a3, -24(a2)
	and	s1, a0, t0
	and	a0, a3, t1
	or	a3, a0, s1
	bnez	a3, .LBB172_20
	lw	a0, -12(a2)
	lw	a3, -16(a2)
	and	s1, a0, t0
	and	a0, a3, t1
.LBB172_20:
	lw	a3, -4(a2)
	lw	ra, -8(a2)
	and	t4, a3, t0
	and	t5, ra, t1
	or	t3, t5, t4
	beqz	t3, .LBB172_32
	andi	a2, ra, -8
	slli	a3, ra, 1
	andi	a3, a3, -16
	add	a2, a2, t6
	add	a3, a3, a2
	lw	t6, -24(a3)
	lw	a4, -20(a3)
	and	a2, t6, t1
	and	a4, a4, t0
	xor	a4, a4, a7
	xor	a2, a2, t2
	or	a2, a2, a4
	bnez	a2, .LBB172_33
	li	a4, 0
	andi	a2, t6, 1
	or	a2, a2, a0
	sw	a2, -24(a3)
	sw	s1, -20(a3)
	j	.LBB172_34
.LBB172_23:
	mv	a1, a2
	mv	a0, a3
.LBB172_24:
	lw	a2, -4(s1)
	lw	ra, -8(s1)
	and	a7, a2, t0
	and	t2, ra, t1
	or	s1, t2, a7
	beqz	s1, .LBB172_27
	andi	a2, ra, -8
	slli	a3, ra, 1
	andi	a3, a3, -16
	add	a2, a2, t6
	add	a2, a2, a3
	lw	a3, -24(a2)
	lw	a4, -20(a2)
	and	s0, a3, t1
	and	a4, a4, t0
	xor	a4, a4, a6
	xor	s0, s0, a5
	or	a4, a4, s0
	bnez	a4, .LBB172_28
	andi	a3, a3, 1
	or	a3, a3, a1
	sw	a3, -24(a2)
	sw	a0, -20(a2)
	j	.LBB172_29
.LBB172_27:
	li	a4, 0
	mv	s8, a1
	mv	s7, a0
	j	.LBB172_29
.LBB172_28:
	sw	a1, -16(a2)
	sw	a0, -12(a2)
	li	a4, 1
.LBB172_29:
	or	a0, a0, a1
	beqz	a0, .LBB172_31
	lw	a0, 48(sp)
	andi	a2, a1, -8
	slli	a1, a1, 1
	andi	a1, a1, -16
	add	a1, a1, a2
	add	a0, a0, a1
	lw	a2, -8(a0)
	andi	a2, a2, 1
	or	a2, a2, t2
	sw	a2, -8(a0)
	sw	a7, -4(a0)
	lw	a0, 48(sp)
	add	a0, a0, a1
	lw	a1, -8(a0)
	ori	a1, a1, 1
	sw	a1, -8(a0)
	j	.LBB172_128
.LBB172_31:
	snez	a2, s1
	j	.LBB172_50
.LBB172_32:
	li	a4, 0
	mv	s8, a0
	mv	s7, s1
	j	.LBB172_34
.LBB172_33:
	sw	a0, -16(a3)
	sw	s1, -12(a3)
	li	a4, 1
.LBB172_34:
	or	s1, s1, a0
	beqz	s1, .LBB172_36
	li	ra, 0
	lw	a2, 48(sp)
	andi	a3, a0, -8
	slli	a0, a0, 1
	andi	a0, a0, -16
	add	a0, a0, a3
	add	a2, a2, a0
	lw	a3, -8(a2)
	andi	a3, a3, 1
	or	a3, a3, t5
	sw	a3, -8(a2)
	sw	t4, -4(a2)
	lw	a2, 48(sp)
	add	a0, a0, a2
	lw	a2, -8(a0)
	ori	a2, a2, 1
	sw	a2, -8(a0)
.LBB172_36:
	xor	a0, t2, a5
	xor	a2, a7, a6
	or	a0, a0, a2
	snez	a2, t3
	bnez	a0, .LBB172_38
	mv	t2, t5
	mv	a7, t4
	j	.LBB172_50
.LBB172_38:
	sw	a2, 12(sp)
	lw	a3, 48(sp)
	add	s0, s0, a3
	lw	s1, -8(s0)
	lw	a2, -4(s0)
	lw	t3, -24(s0)
	lw	a0, -20(s0)
	lw	t6, -16(s0)
	lw	s9, -12(s0)
	and	a2, a2, t0
	sw	s1, 24(sp)
	and	s0, s1, t1
	sw	a2, 20(sp)
	sw	s0, 16(sp)
	or	s0, s0, a2
	and	s10, a0, t0
	and	s11, t3, t1
	mv	a0, t2
	mv	a2, a7
	beqz	s0, .LBB172_43
	lw	s0, 24(sp)
	andi	a0, s0, -8
	slli	s0, s0, 1
	andi	s0, s0, -16
	add	a0, a0, a3
	add	a3, a0, s0
	lw	s0, -24(a3)
	lw	a0, -20(a3)
	and	a2, s0, t1
	and	a0, a0, t0
	xor	a0, a0, a6
	xor	a2, a2, a5
	or	a0, a0, a2
	bnez	a0, .LBB172_41
	andi	s0, s0, 1
	add	a0, s0, t2
	sltu	a2, a0, s0
	add	a2, a2, a7
	sw	a0, -24(a3)
	sw	a2, -20(a3)
	j	.LBB172_42
.LBB172_41:
	sw	t2, -16(a3)
	sw	a7, -12(a3)
.LBB172_42:
	mv	a0, s8
	mv	a2, s7
.LBB172_43:
	mv	s7, a2
	mv	s8, a0
	lw	a3, 48(sp)
	and	s9, s9, t0
	mv	a0, s10
	or	a2, s11, s10
	and	s10, t6, t1
	beqz	a2, .LBB172_45
	andi	a2, t3, -8
	slli	s1, t3, 1
	andi	s1, s1, -16
	add	a2, a2, a3
	add	a2, a2, s1
	lw	a3, -8(a2)
	andi	a3, a3, 1
	add	s1, a3, t2
	sltu	a3, s1, a3
	add	a3, a3, a7
	sw	s1, -8(a2)
	sw	a3, -4(a2)
	lw	a3, 48(sp)
.LBB172_45:
	or	a2, s10, s9
	beqz	a2, .LBB172_47
	andi	a2, t6, -8
	slli	t6, t6, 1
	andi	s1, t6, -16
	add	a2, a2, a3
	add	a2, a2, s1
	lw	a3, -8(a2)
	andi	a3, a3, 1
	add	s1, a3, t2
	sltu	a3, s1, a3
	add	a3, a3, a7
	sw	s1, -8(a2)
	sw	a3, -4(a2)
	lw	a3, 48(sp)
.LBB172_47:
	add	a3, a3, a1
	lw	a2, -24(a3)
	andi	a2, a2, 1
	or	a2, a2, s11
	sw	a2, -24(a3)
	sw	a0, -20(a3)
	lw	a2, 48(sp)
	add	a2, a2, a1
	sw	s10, -16(a2)
	sw	s9, -12(a2)
	lw	a0, 48(sp)
	add	a0, a0, a1
	lw	a2, -8(a0)
	andi	a2, a2, 1
	lw	a3, 16(sp)
	or	a2, a2, a3
	sw	a2, -8(a0)
	lw	a2, 20(sp)
	sw	a2, -4(a0)
	lw	a0, 48(sp)
	add	a0, a0, a1
	lw	a1, -8(a0)
	lw	a2, 24(sp)
	andi	a2, a2, 1
	xor	a3, t5, a5
	xor	s1, t4, a6
	andi	a1, a1, -2
	or	a1, a1, a2
	or	a3, a3, s1
	sw	a1, -8(a0)
	bnez	a3, .LBB172_49
	li	a2, 1
	j	.LBB172_50
.LBB172_49:
	mv	t2, t5
	mv	a7, t4
	lw	a2, 12(sp)
.LBB172_50:
	andi	a0, ra, 1
	beqz	a0, .LBB172_128
	beqz	a2, .LBB172_128
	lw	s10, 48(sp)
	li	s4, 67
.LBB172_53:
	andi	s11, t2, -8
	slli	a0, t2, 1
	andi	a0, a0, -16
	add	s11, s11, a0
	andi	a4, a4, 1
	add	a1, s10, s11
	beqz	a4, .LBB172_61
	lw	a0, -20(a1)
	lw	a3, -24(a1)
	and	t6, a0, t0
	and	s9, a3, t1
	or	a0, s9, t6
	beqz	a0, .LBB172_128
	andi	a4, a3, -8
	slli	a0, a3, 1
	andi	a0, a0, -16
	add	a4, a4, a0
	add	a0, s10, a4
	lw	a2, -8(a0)
	andi	a2, a2, 1
	bnez	a2, .LBB172_71
	lw	s1, -16(a0)
	lw	a2, -12(a0)
	lw	t4, -8(a1)
	lw	t3, -4(a1)
	andi	a3, a3, 1
	and	a2, a2, t0
	and	a0, s1, t1
	or	s0, a0, a2
	or	a0, a0, a3
	sw	a0, -24(a1)
	sw	a2, -20(a1)
	beqz	s0, .LBB172_58
	lw	a0, 48(sp)
	andi	a1, s1, -8
	slli	s1, s1, 1
	andi	s1, s1, -16
	add	a0, a0, a1
	add	a0, a0, s1
	lw	a1, -8(a0)
	andi	a1, a1, 1
	or	a1, a1, t2
	sw	a1, -8(a0)
	sw	a7, -4(a0)
.LBB172_58:
	lw	a0, 48(sp)
	add	a0, a0, a4
	lw	a1, -8(a0)
	and	a2, t3, t0
	and	a3, t4, t1
	andi	a1, a1, 1
	or	a1, a1, a3
	sw	a1, -8(a0)
	sw	a2, -4(a0)
	lw	a0, 48(sp)
	add	a0, a0, a4
	lw	a1, -8(a0)
	or	a3, a3, a2
	ori	a1, a1, 1
	sw	a1, -8(a0)
	mv	a1, s9
	mv	a2, t6
	beqz	a3, .LBB172_70
	lw	a0, 48(sp)
	andi	a1, t4, -8
	slli	t4, t4, 1
	andi	a2, t4, -16
	add	a0, a0, a1
	add	a0, a0, a2
	lw	a1, -24(a0)
	lw	a2, -20(a0)
	and	a3, a1, t1
	and	a2, a2, t0
	xor	a2, a2, a7
	xor	a3, a3, t2
	or	a2, a2, a3
	bnez	a2, .LBB172_68
	andi	a1, a1, 1
	or	a1, a1, s9
	sw	a1, -24(a0)
	sw	t6, -20(a0)
	j	.LBB172_69
.LBB172_61:
	lw	a2, -12(a1)
	lw	a0, -16(a1)
	and	t6, a2, t0
	and	s9, a0, t1
	or	a2, s9, t6
	beqz	a2, .LBB172_128
	andi	a4, a0, -8
	slli	a0, a0, 1
	andi	a0, a0, -16
	add	a4, a4, a0
	add	a0, s10, a4
	lw	a2, -8(a0)
	andi	a2, a2, 1
	bnez	a2, .LBB172_78
	lw	s1, -20(a0)
	lw	a3, -24(a0)
	lw	t4, -8(a1)
	lw	t3, -4(a1)
	and	s1, s1, t0
	and	a2, a3, t1
	or	a0, a2, s1
	sw	a2, -16(a1)
	sw	s1, -12(a1)
	beqz	a0, .LBB172_65
	lw	a0, 48(sp)
	andi	a1, a3, -8
	slli	a3, a3, 1
	andi	a3, a3, -16
	add	a0, a0, a1
	add	a0, a0, a3
	lw	a1, -8(a0)
	andi	a1, a1, 1
	or	a1, a1, t2
	sw	a1, -8(a0)
	sw	a7, -4(a0)
.LBB172_65:
	lw	a0, 48(sp)
	add	a0, a0, a4
	lw	a1, -8(a0)
	and	a2, t3, t0
	and	a3, t4, t1
	andi	a1, a1, 1
	or	a1, a1, a3
	sw	a1, -8(a0)
	sw	a2, -4(a0)
	lw	a0, 48(sp)
	add	a0, a0, a4
	lw	a1, -8(a0)
	or	a3, a3, a2
	ori	a1, a1, 1
	sw	a1, -8(a0)
	mv	a1, s9
	mv	a2, t6
	beqz	a3, .LBB172_77
	lw	a0, 48(sp)
	andi	a1, t4, -8
	slli	t4, t4, 1
	andi	a2, t4, -16
	add	a0, a0, a1
	add	a0, a0, a2
	lw	a1, -24(a0)
	lw	a2, -20(a0)
	and	a3, a1, t1
	and	a2, a2, t0
	xor	a2, a2, a7
	xor	a3, a3, t2
	or	a2, a2, a3
	bnez	a2, .LBB172_75
	andi	a1, a1, 1
	or	a1, a1, s9
	sw	a1, -24(a0)
	sw	t6, -20(a0)
	j	.LBB172_76
.LBB172_68:
	sw	s9, -16(a0)
	sw	t6, -12(a0)
.LBB172_69:
	mv	a1, s8
	mv	a2, s7
.LBB172_70:
	lw	a0, 48(sp)
	add	a0, a0, a4
	sw	t2, -16(a0)
	sw	a7, -12(a0)
	lw	a0, 48(sp)
	add	a0, a0, s11
	lw	a3, -8(a0)
	andi	a3, a3, 1
	or	a3, a3, s9
	sw	a3, -8(a0)
	sw	t6, -4(a0)
	lw	a0, 48(sp)
	add	a0, a0, s11
	lw	a3, -8(a0)
	andi	a3, a3, -2
	sw	a3, -8(a0)
	lw	s10, 48(sp)
	add	a0, s10, s11
	lw	a3, -20(a0)
	lw	a0, -24(a0)
	and	t6, a3, t0
	and	s9, a0, t1
	or	a0, s9, t6
	mv	s8, a1
	mv	s7, a2
	beqz	a0, .LBB172_128
.LBB172_71:
	andi	a0, s9, -8
	slli	a1, s9, 1
	andi	a1, a1, -16
	add	a0, a0, a1
	sw	a0, 24(sp)
	add	a4, s10, a0
	lw	a0, -20(a4)
	lw	a3, -24(a4)
	and	a0, a0, t0
	and	a2, a3, t1
	or	a2, a2, a0
	beqz	a2, .LBB172_73
	andi	ra, a3, -8
	slli	a0, a3, 1
	andi	a0, a0, -16
	add	ra, ra, a0
	add	a1, s10, ra
	lw	s0, -8(a1)
	andi	a0, s0, 1
	beqz	a0, .LBB172_100
.LBB172_73:
	lw	a1, -12(a4)
	lw	a0, -16(a4)
	and	t3, a1, t0
	and	t4, a0, t1
	or	a1, t4, t3
	beqz	a1, .LBB172_82
	andi	t5, a0, -8
	slli	a0, a0, 1
	andi	a0, a0, -16
	add	t5, t5, a0
	add	s1, s10, t5
	lw	a0, -8(s1)
	andi	a0, a0, 1
	bnez	a0, .LBB172_82
	j	.LBB172_93
.LBB172_75:
	sw	s9, -16(a0)
	sw	t6, -12(a0)
.LBB172_76:
	mv	a1, s8
	mv	a2, s7
.LBB172_77:
	lw	a0, 48(sp)
	add	a0, a0, a4
	lw	a3, -24(a0)
	andi	a3, a3, 1
	or	a3, a3, t2
	sw	a3, -24(a0)
	sw	a7, -20(a0)
	lw	a0, 48(sp)
	add	a0, a0, s11
	lw	a3, -8(a0)
	andi	a3, a3, 1
	or	a3, a3, s9
	sw	a3, -8(a0)
	sw	t6, -4(a0)
	lw	a0, 48(sp)
	add	a0, a0, s11
	lw	a3, -8(a0)
	andi	a3, a3, -2
	sw	a3, -8(a0)
	lw	s10, 48(sp)
	add	a0, s10, s11
	lw	a3, -12(a0)
	lw	a0, -16(a0)
	and	t6, a3, t0
	and	s9, a0, t1
	or	a0, s9, t6
	mv	s8, a1
	mv	s7, a2
	beqz	a0, .LBB172_128
.LBB172_78:
	andi	ra, s9, -8
	slli	a0, s9, 1
	andi	a0, a0, -16
	add	ra, ra, a0
	add	a4, s10, ra
	lw	a0, -20(a4)
	lw	a3, -24(a4)
	and	t3, a0, t0
	and	t4, a3, t1
	or	a0, t4, t3
	beqz	a0, .LBB172_80
	andi	t5, a3, -8
	slli	a0, a3, 1
	andi	a0, a0, -16
	add	t5, t5, a0
	add	a2, s10, t5
	lw	a0, -8(a2)
	andi	a0, a0, 1
	beqz	a0, .LBB172_86
.LBB172_80:
	lw	a1, -12(a4)
	lw	a0, -16(a4)
	and	a1, a1, t0
	and	a2, a0, t1
	or	a1, a1, a2
	beqz	a1, .LBB172_82
	andi	a1, a0, -8
	slli	a0, a0, 1
	andi	a0, a0, -16
	add	a1, a1, a0
	add	a2, s10, a1
	lw	a0, -8(a2)
	andi	a3, a0, 1
	beqz	a3, .LBB172_101
.LBB172_82:
	lw	a0, -8(a4)
	andi	a0, a0, -2
	sw	a0, -8(a4)
	lw	s10, 48(sp)
	add	s11, s11, s10
	lw	a0, -8(s11)
	lw	a1, -4(s11)
	andi	a2, a0, 1
	beqz	a2, .LBB172_85
	and	a2, a0, t1
	and	a1, a1, t0
	or	a3, a2, a1
	beqz	a3, .LBB172_128
	andi	a3, a0, -8
	slli	a0, a0, 1
	andi	a0, a0, -16
	add	a3, a3, s10
	add	a0, a0, a3
	lw	a3, -24(a0)
	lw	a0, -20(a0)
	and	a3, a3, t1
	and	a0, a0, t0
	xor	a0, a0, a7
	xor	a3, a3, t2
	or	a0, a0, a3
	addi	s4, s4, -1
	snez	a4, a0
	mv	t2, a2
	mv	a7, a1
	bnez	s4, .LBB172_53
	j	.LBB172_128
.LBB172_85:
	addi	a0, a0, 1
	sw	a0, -8(s11)
	sw	a1, -4(s11)
	j	.LBB172_128
.LBB172_86:
	lw	a1, -12(a4)
	lw	a0, -16(a4)
	and	a1, a1, t0
	and	s0, a0, t1
	or	a1, a1, s0
	beqz	a1, .LBB172_88
	andi	a1, a0, -8
	slli	a0, a0, 1
	andi	a0, a0, -16
	add	a1, a1, a0
	add	s0, s10, a1
	lw	a0, -8(s0)
	andi	s1, a0, 1
	beqz	s1, .LBB172_102
.LBB172_88:
	lw	s0, -16(a2)
	lw	a1, -12(a2)
	lw	s4, -8(a4)
	lw	a2, -4(a4)
	andi	s1, a3, 1
	and	a0, a1, t0
	and	s10, s0, t1
	and	a1, a2, t0
	and	a3, s4, t1
	or	a2, s10, a0
	or	s1, s10, s1
	sw	s1, -24(a4)
	sw	a0, -20(a4)
	beqz	a2, .LBB172_90
	lw	a0, 48(sp)
	andi	a2, s0, -8
	slli	s0, s0, 1
	andi	s0, s0, -16
	add	a0, a0, a2
	add	a0, a0, s0
	lw	a2, -8(a0)
	andi	a2, a2, 1
	or	a2, a2, s9
	sw	a2, -8(a0)
	sw	t6, -4(a0)
.LBB172_90:
	lw	a0, 48(sp)
	add	a0, a0, t5
	lw	a2, -8(a0)
	andi	a2, a2, 1
	or	a2, a2, a3
	sw	a2, -8(a0)
	sw	a1, -4(a0)
	lw	a0, 48(sp)
	add	a0, a0, t5
	lw	a2, -8(a0)
	or	a1, a1, a3
	ori	a2, a2, 1
	sw	a2, -8(a0)
	mv	a2, t4
	mv	s0, t3
	beqz	a1, .LBB172_105
	lw	a0, 48(sp)
	andi	a1, s4, -8
	slli	a2, s4, 1
	andi	a2, a2, -16
	add	a0, a0, a1
	add	a0, a0, a2
	lw	a1, -24(a0)
	lw	a2, -20(a0)
	and	a3, a1, t1
	and	a2, a2, t0
	xor	a2, a2, t6
	xor	a3, a3, s9
	or	a2, a2, a3
	bnez	a2, .LBB172_103
	andi	a1, a1, 1
	or	a1, a1, t4
	sw	a1, -24(a0)
	sw	t3, -20(a0)
	j	.LBB172_104
.LBB172_93:
	seqz	a0, a2
	bnez	a0, .LBB172_95
	andi	ra, a3, -8
	slli	a3, a3, 1
	andi	a3, a3, -16
	add	ra, ra, a3
	add	a1, s10, ra
	lw	s0, -8(a1)
	andi	a0, s0, 1
	beqz	a0, .LBB172_100
.LBB172_95:
	lw	a1, -20(s1)
	lw	a3, -24(s1)
	lw	a2, -4(a4)
	lw	s4, -8(a4)
	and	s0, a1, t0
	and	s1, a3, t1
	and	a1, a2, t0
	and	a2, s4, t1
	or	a0, s1, s0
	sw	s1, -16(a4)
	sw	s0, -12(a4)
	beqz	a0, .LBB172_97
	lw	a0, 48(sp)
	andi	a4, a3, -8
	slli	a3, a3, 1
	andi	a3, a3, -16
	add	a0, a0, a4
	add	a0, a0, a3
	lw	a3, -8(a0)
	andi	a3, a3, 1
	or	a3, a3, s9
	sw	a3, -8(a0)
	sw	t6, -4(a0)
.LBB172_97:
	lw	a0, 48(sp)
	add	a0, a0, t5
	lw	a3, -8(a0)
	andi	a3, a3, 1
	or	a3, a3, a2
	sw	a3, -8(a0)
	sw	a1, -4(a0)
	lw	a0, 48(sp)
	add	a0, a0, t5
	lw	a3, -8(a0)
	or	a4, a2, a1
	ori	a1, a3, 1
	sw	a1, -8(a0)
	mv	a2, t4
	mv	a1, t3
	beqz	a4, .LBB172_118
	lw	a0, 48(sp)
	andi	a1, s4, -8
	slli	s4, s4, 1
	andi	a2, s4, -16
	add	a0, a0, a1
	add	a0, a0, a2
	lw	a1, -24(a0)
	lw	a2, -20(a0)
	and	a3, a1, t1
	and	a2, a2, t0
	xor	a2, a2, t6
	xor	a3, a3, s9
	or	a2, a2, a3
	bnez	a2, .LBB172_116
	andi	a1, a1, 1
	or	a1, a1, t4
	sw	a1, -24(a0)
	sw	t3, -20(a0)
	j	.LBB172_117
.LBB172_100:
	lw	a4, -4(a1)
	lw	s4, 24(sp)
	j	.LBB172_120
.LBB172_101:
	lw	a4, -4(a2)
	j	.LBB172_107
.LBB172_102:
	lw	a4, -4(s0)
	j	.LBB172_107
.LBB172_103:
	sw	t4, -16(a0)
	sw	t3, -12(a0)
.LBB172_104:
	mv	a2, s8
	mv	s0, s7
.LBB172_105:
	lw	a0, 48(sp)
	add	a0, a0, t5
	sw	s9, -16(a0)
	sw	t6, -12(a0)
	lw	a0, 48(sp)
	add	a0, a0, ra
	lw	a1, -8(a0)
	andi	a1, a1, 1
	or	a1, a1, t4
	sw	a1, -8(a0)
	sw	t3, -4(a0)
	lw	a0, 48(sp)
	add	a0, a0, ra
	lw	a1, -8(a0)
	andi	a1, a1, -2
	sw	a1, -8(a0)
	lw	s10, 48(sp)
	add	a0, s10, t5
	lw	a1, -12(a0)
	lw	a0, -16(a0)
	and	a1, a1, t0
	and	a3, a0, t1
	or	a1, a1, a3
	beqz	a1, .LBB172_115
	andi	a1, a0, -8
	slli	a0, a0, 1
	andi	a0, a0, -16
	add	a1, a1, a0
	add	a3, s10, a1
	lw	a0, -8(a3)
	lw	a4, -4(a3)
	mv	s8, a2
	mv	s7, s0
	mv	s9, t4
	mv	t6, t3
	mv	ra, t5
.LBB172_107:
	add	a2, s10, s11
	add	a1, a1, s10
	ori	a3, a0, 1
	lw	t3, -8(a2)
	sw	a3, -8(a1)
	sw	a4, -4(a1)
	lw	a1, 48(sp)
	add	a2, a1, ra
	add	a1, a1, s11
	lw	a3, -20(a2)
	lw	a2, -24(a2)
	lw	a4, -4(a1)
	lw	t4, -8(a1)
	and	s0, a3, t0
	and	a0, a2, t1
	and	a3, a4, t0
	and	a4, t4, t1
	or	s1, a0, s0
	sw	a0, -16(a1)
	sw	s0, -12(a1)
	beqz	s1, .LBB172_109
	lw	a0, 48(sp)
	andi	a1, a2, -8
	slli	a2, a2, 1
	andi	a2, a2, -16
	add	a0, a0, a1
	add	a0, a0, a2
	lw	a1, -8(a0)
	andi	a1, a1, 1
	or	a1, a1, t2
	sw	a1, -8(a0)
	sw	a7, -4(a0)
.LBB172_109:
	lw	a0, 48(sp)
	add	a0, a0, ra
	lw	a1, -8(a0)
	andi	a1, a1, 1
	or	a1, a1, a4
	sw	a1, -8(a0)
	sw	a3, -4(a0)
	lw	a0, 48(sp)
	add	a0, a0, ra
	lw	a1, -8(a0)
	or	a4, a4, a3
	andi	a2, t3, 1
	andi	a1, a1, -2
	or	a1, a1, a2
	sw	a1, -8(a0)
	mv	a0, s9
	mv	a3, t6
	beqz	a4, .LBB172_114
	lw	a0, 48(sp)
	andi	a1, t4, -8
	slli	t4, t4, 1
	andi	a2, t4, -16
	add	a0, a0, a1
	add	a0, a0, a2
	lw	a1, -24(a0)
	lw	a2, -20(a0)
	and	a3, a1, t1
	and	a2, a2, t0
	xor	a2, a2, a7
	xor	a3, a3, t2
	or	a2, a2, a3
	bnez	a2, .LBB172_112
	andi	a1, a1, 1
	add	a2, a1, s9
	sltu	a1, a2, a1
	add	a1, a1, t6
	sw	a2, -24(a0)
	sw	a1, -20(a0)
	j	.LBB172_113
.LBB172_112:
	sw	s9, -16(a0)
	sw	t6, -12(a0)
.LBB172_113:
	mv	a0, s8
	mv	a3, s7
.LBB172_114:
	lw	a1, 48(sp)
	add	a1, a1, ra
	lw	a2, -24(a1)
	andi	a2, a2, 1
	or	a2, a2, t2
	sw	a2, -24(a1)
	sw	a7, -20(a1)
	lw	a1, 48(sp)
	add	a1, a1, s11
	lw	a2, -8(a1)
	andi	a2, a2, 1
	add	s9, s9, a2
	sltu	a2, s9, a2
	add	a2, a2, t6
	sw	s9, -8(a1)
	sw	a2, -4(a1)
	lw	a1, 48(sp)
	add	a1, a1, s11
	lw	a2, -8(a1)
	ori	a2, a2, 1
	sw	a2, -8(a1)
	mv	s8, a0
	mv	s7, a3
	j	.LBB172_128
.LBB172_115:
	mv	s8, a2
	mv	s7, s0
	j	.LBB172_128
.LBB172_116:
	sw	t4, -16(a0)
	sw	t3, -12(a0)
.LBB172_117:
	mv	a2, s8
	mv	a1, s7
.LBB172_118:
	lw	a0, 48(sp)
	add	a0, a0, t5
	lw	a3, -24(a0)
	andi	a3, a3, 1
	or	a3, a3, s9
	sw	a3, -24(a0)
	sw	t6, -20(a0)
	lw	a0, 48(sp)
	lw	a4, 24(sp)
	add	a0, a0, a4
	lw	a3, -8(a0)
	andi	a3, a3, 1
	or	a3, a3, t4
	sw	a3, -8(a0)
	sw	t3, -4(a0)
	lw	a0, 48(sp)
	add	a0, a0, a4
	lw	a3, -8(a0)
	andi	a3, a3, -2
	sw	a3, -8(a0)
	lw	s10, 48(sp)
	add	a0, s10, t5
	lw	a3, -20(a0)
	lw	a0, -24(a0)
	and	a3, a3, t0
	and	a4, a0, t1
	or	a3, a3, a4
	beqz	a3, .LBB172_130
	andi	ra, a0, -8
	slli	a0, a0, 1
	andi	a0, a0, -16
	add	ra, ra, a0
	add	a0, s10, ra
	lw	s0, -8(a0)
	lw	a4, -4(a0)
	mv	s8, a2
	mv	s7, a1
	mv	s9, t4
	mv	t6, t3
	mv	s4, t5
.LBB172_120:
	add	a0, s10, s11
	add	s10, s10, ra
	ori	a2, s0, 1
	lw	t3, -8(a0)
	sw	a2, -8(s10)
	sw	a4, -4(s10)
	lw	a0, 48(sp)
	add	a2, a0, s4
	add	a0, a0, s11
	lw	a3, -4(a0)
	lw	a4, -12(a2)
	lw	a2, -16(a2)
	lw	s0, -24(a0)
	lw	t4, -8(a0)
	and	a1, a4, t0
	and	s1, a2, t1
	and	t5, a3, t0
	and	a4, t4, t1
	andi	s0, s0, 1
	or	a3, s1, a1
	or	s0, s0, s1
	sw	s0, -24(a0)
	sw	a1, -20(a0)
	beqz	a3, .LBB172_122
	lw	a0, 48(sp)
	andi	a1, a2, -8
	slli	a2, a2, 1
	andi	a2, a2, -16
	add	a0, a0, a1
	add	a0, a0, a2
	lw	a1, -8(a0)
	andi	a1, a1, 1
	or	a1, a1, t2
	sw	a1, -8(a0)
	sw	a7, -4(a0)
.LBB172_122:
	lw	a0, 48(sp)
	add	a0, a0, s4
	lw	a1, -8(a0)
	andi	a1, a1, 1
	or	a1, a1, a4
	sw	a1, -8(a0)
	sw	t5, -4(a0)
	lw	a0, 48(sp)
	add	a0, a0, s4
	lw	a1, -8(a0)
	or	a3, a4, t5
	andi	a2, t3, 1
	andi	a1, a1, -2
	or	a1, a1, a2
	sw	a1, -8(a0)
	mv	a1, s9
	mv	a2, t6
	beqz	a3, .LBB172_127
	lw	a0, 48(sp)
	andi	a1, t4, -8
	slli	t4, t4, 1
	andi	a2, t4, -16
	add	a0, a0, a1
	add	a0, a0, a2
	lw	a1, -24(a0)
	lw	a2, -20(a0)
	and	a3, a1, t1
	and	a2, a2, t0
	xor	a2, a2, a7
	xor	a3, a3, t2
	or	a2, a2, a3
	bnez	a2, .LBB172_125
	andi	a1, a1, 1
	add	a2, a1, s9
	sltu	a1, a2, a1
	add	a1, a1, t6
	sw	a2, -24(a0)
	sw	a1, -20(a0)
	j	.LBB172_126
.LBB172_125:
	sw	s9, -16(a0)
	sw	t6, -12(a0)
.LBB172_126:
	mv	a1, s8
	mv	a2, s7
.LBB172_127:
	lw	a0, 48(sp)
	add	a0, a0, s4
	sw	t2, -16(a0)
	sw	a7, -12(a0)
	lw	a0, 48(sp)
	add	a0, a0, s11
	lw	a3, -8(a0)
	andi	a3, a3, 1
	add	s9, s9, a3
	sltu	a3, s9, a3
	add	a3, a3, t6
	sw	s9, -8(a0)
	sw	a3, -4(a0)
	lw	a0, 48(sp)
	add	a0, a0, s11
	lw	a3, -8(a0)
	ori	a3, a3, 1
	sw	a3, -8(a0)
	mv	s8, a1
	mv	s7, a2
.LBB172_128:
	or	a0, s8, s7
	snez	a7, a0
	addi	a0, sp, 32
	addi	a1, sp, 48
	lw	a2, 28(sp)
	mv	a3, s3
	mv	a4, s2
	mv	t3, s8
	mv	t4, s7
	call	ic_rbtree.join.roots.join.f4da04d8a93b4f27
	lbu	a0, 32(sp)
	lw	a1, 44(sp)
	lw	a2, 40(sp)
	seqz	a0, a0
	addi	a0, a0, -1
	and	s2, a0, a1
	and	s3, a0, a2
.LBB172_129:
	li	s0, 0
	sw	s3, 0(s6)
	sw	s2, 4(s6)
	sw	zero, 0(s5)
	sw	zero, 4(s5)
	j	.LBB172_2
.LBB172_130:
	mv	s8, a2
	mv	s7, a1
	j	.LBB172_128
.Lfunc_end172:
	.size	ic_tree_append, .Lfunc_end172-ic_tree_append
	.cfi_endproc
	.section	.text.ic_tree_check,"ax",@progbits
	.globl	ic_tree_check
	.p2align	1
	.type	ic_tree_check,@function
ic_tree_check:
	.cfi_startproc
	addi	sp, sp, -48
	.cfi_def_cfa_offset 48
	sw	ra, 44(sp)
	sw	s0, 40(sp)
	.cfi_offset ra, -4
	.cfi_offset s0, -8
	.cfi_remember_state
	mv	s0, a4
	seqz	a4, a0
	slli	a4, a4, 12
	add	a0, a0, a4
	lw	a5, 0(a3)
	lw	a4, 4(a3)
	sw	a0, 0(sp)
	sw	zero, 4(sp)
	sw	a1, 8(sp)
	sw	a2, 12(sp)
	andi	a4, a4, 15
	andi	a3, a5, -8
	or	a0, a3, a4
	snez	a2, a0
	addi	a0, sp, 16
	mv	a1, sp
	li	t3, 66
	li	a5, 0
	li	a6, 0
	li	a7, 0
	call	ic_check.tree.check_below.ffc36cde30076884
	lbu	a1, 16(sp)
	li	a0, 1
	bne	a1, a0, .LBB173_3
	lbu	a1, 36(sp)
	bne	a1, a0, .LBB173_3
	li	a0, 0
	lw	a1, 24(sp)
	lw	a2, 28(sp)
	sw	a1, 0(s0)
	sw	a2, 4(s0)
	lw	ra, 44(sp)
	lw	s0, 40(sp)
	.cfi_restore ra
	.cfi_restore s0
	addi	sp, sp, 48
	.cfi_def_cfa_offset 0
	ret
.LBB173_3:
	.cfi_restore_state
	li	a0, 5
	lw	ra, 44(sp)
	lw	s0, 40(sp)
	.cfi_restore ra
	.cfi_restore s0
	addi	sp, sp, 48
	.cfi_def_cfa_offset 0
	ret
.Lfunc_end173:
	.size	ic_tree_check, .Lfunc_end173-ic_tree_check
	.cfi_endproc
	.section	.text.ic_tree_clear,"ax",@progbits
	.globl	ic_tree_clear
	.p2align	1
	.type	ic_tree_clear,@function
ic_tree_clear:
	.cfi_startproc
	addi	sp, sp, -48
	.cfi_def_cfa_offset 48
	sw	s0, 44(sp)
	sw	s1, 40(sp)
	sw	s2, 36(sp)
	sw	s3, 32(sp)
	sw	s4, 28(sp)
	sw	s5, 24(sp)
	sw	s6, 20(sp)
	sw	s7, 16(sp)
	sw	s8, 12(sp)
	.cfi_offset s0, -4
	.cfi_offset s1, -8
	.cfi_offset s2, -12
	.cfi_offset s3, -16
	.cfi_offset s4, -20
	.cfi_offset s5, -24
	.cfi_offset s6, -28
	.cfi_offset s7, -32
	.cfi_offset s8, -36
	li	a6, 15
	lw	a4, 0(a3)
	lw	a5, 4(a3)
	seqz	s1, a0
	slli	t6, s1, 12
	add	t6, t6, a0
	andi	t0, a5, 15
	andi	t5, a4, -8
	or	t2, t5, t0
	li	a7, -8
	beqz	t2, .LBB174_3
	srli	a4, t5, 3
	slli	a5, t0, 29
	srli	a0, t0, 3
	or	a4, a4, a5
	beq	a0, a2, .LBB174_9
	sltu	a5, a2, a0
	li	a0, 5
	beqz	a5, .LBB174_10
	j	.LBB174_87
.LBB174_3:
	li	a0, 0
	li	s8, 0
	li	s6, 0
.LBB174_4:
	or	t1, a1, a2
	seqz	t2, t2
	beqz	t1, .LBB174_45
	srli	a4, t5, 3
	slli	a5, t0, 29
	srli	t4, t0, 3
	or	t3, a4, a5
	beq	t4, a2, .LBB174_16
	sltu	a4, a2, t4
	xori	a4, a4, 1
	or	a4, t2, a4
	bnez	a4, .LBB174_17
.LBB174_7:
	srli	a4, s8, 3
	slli	a5, s6, 29
	srli	a0, s6, 3
	or	a4, a4, a5
	beq	a0, a2, .LBB174_42
	sltu	a5, a2, a0
	li	a0, 5
	beqz	a5, .LBB174_43
	j	.LBB174_87
.LBB174_9:
	sltu	a5, a1, a4
	li	a0, 5
	bnez	a5, .LBB174_87
.LBB174_10:
	slli	a5, a4, 3
	slli	a4, a4, 4
	add	a4, a4, a5
	add	a4, a4, t6
	lbu	a4, -24(a4)
	andi	a4, a4, 1
	beqz	a4, .LBB174_87
	srli	a0, a1, 29
	slli	a4, a2, 3
	slli	t1, a1, 3
	or	t3, a4, a0
	li	a4, 67
	mv	s1, t5
	mv	t4, t0
.LBB174_12:
	andi	a0, s1, -8
	slli	a5, s1, 1
	andi	a5, a5, -16
	add	a0, a0, a5
	add	a0, a0, t6
	lw	a5, -20(a0)
	lw	a0, -24(a0)
	and	s6, a5, a6
	and	s8, a0, a7
	seqz	a0, s8
	sub	a0, s6, a0
	beq	a0, t3, .LBB174_14
	sltu	s0, a0, t3
	li	a0, 1
	bnez	s0, .LBB174_15
	j	.LBB174_59
.LBB174_14:
	addi	a0, s8, -1
	sltu	s0, a0, t1
	li	a0, 1
	beqz	s0, .LBB174_59
.LBB174_15:
	addi	a4, a4, -1
	mv	s1, s8
	mv	t4, s6
	bnez	a4, .LBB174_12
	j	.LBB174_4
.LBB174_16:
	sltu	a4, a1, t3
	xori	a4, a4, 1
	or	a4, t2, a4
	beqz	a4, .LBB174_7
.LBB174_17:
	srli	a4, a1, 29
	slli	a5, a2, 3
	or	s5, a5, a4
	slli	s2, a1, 3
	mv	s4, a1
	mv	s3, a2
	j	.LBB174_20
.LBB174_18:
	li	s8, 0
	li	s6, 0
.LBB174_19:
	seqz	a4, s4
	sub	s3, s3, a4
	addi	s4, s4, -1
	or	a4, s4, s3
	beqz	a4, .LBB174_45
.LBB174_20:
	zext.b	a0, a0
	li	a4, 1
	bne	a0, a4, .LBB174_85
	srli	a4, s8, 3
	slli	a5, s6, 29
	srli	a0, s6, 3
	or	a4, a4, a5
	beq	a0, a2, .LBB174_23
	sltu	s0, a2, a0
	li	a0, 5
	beqz	s0, .LBB174_24
	j	.LBB174_87
.LBB174_23:
	sltu	s0, a1, a4
	li	a0, 5
	bnez	s0, .LBB174_87
.LBB174_24:
	slli	a5, a4, 3
	slli	a4, a4, 4
	add	a4, a4, a5
	add	s0, t6, a4
	lbu	a4, -24(s0)
	andi	a4, a4, 1
	beqz	a4, .LBB174_87
	lw	a0, -12(s0)
	lw	a4, -16(s0)
	and	s1, a0, a6
	and	a4, a4, a7
	seqz	a0, a4
	sub	a0, s1, a0
	beq	a0, s5, .LBB174_29
	sltu	a0, a0, s5
	bnez	a0, .LBB174_30
.LBB174_27:
	lw	a0, -4(s0)
	lw	a4, -8(s0)
	and	s7, a0, a6
	and	s0, a4, a7
	seqz	a0, s0
	sub	a0, s7, a0
	beq	a0, s5, .LBB174_36
	sltu	a0, a0, s5
	beqz	a0, .LBB174_18
	j	.LBB174_37
.LBB174_29:
	addi	a0, a4, -1
	sltu	a0, a0, s2
	beqz	a0, .LBB174_27
.LBB174_30:
	li	s0, 67
.LBB174_31:
	andi	a0, a4, -8
	slli	a5, a4, 1
	andi	a5, a5, -16
	add	a0, a0, a5
	add	a0, a0, t6
	lw	a5, -20(a0)
	lw	a0, -24(a0)
	and	s6, a5, a6
	and	s8, a0, a7
	seqz	a0, s8
	sub	a0, s6, a0
	beq	a0, s5, .LBB174_33
	sltu	a5, a0, s5
	li	a0, 1
	bnez	a5, .LBB174_34
	j	.LBB174_35
.LBB174_33:
	addi	a0, s8, -1
	sltu	a5, a0, s2
	li	a0, 1
	beqz	a5, .LBB174_35
.LBB174_34:
	addi	s0, s0, -1
	mv	a4, s8
	mv	s1, s6
	bnez	s0, .LBB174_31
	j	.LBB174_19
.LBB174_35:
	mv	s8, a4
	mv	s6, s1
	j	.LBB174_19
.LBB174_36:
	addi	a0, s0, -1
	sltu	a0, a0, s2
	beqz	a0, .LBB174_18
.LBB174_37:
	li	a4, -67
	j	.LBB174_39
.LBB174_38:
	sltu	s1, a5, s5
	addi	a4, a4, 1
	beqz	s1, .LBB174_18
.LBB174_39:
	mv	a0, s8
	mv	s8, s0
	andi	a5, s0, -8
	slli	s0, s0, 1
	andi	s0, s0, -16
	add	a5, a5, s0
	add	s0, t6, a5
	lw	a5, -16(s0)
	lw	s1, -12(s0)
	and	a5, a5, a7
	and	s1, s1, a6
	xor	s1, s1, s6
	xor	a0, a0, a5
	or	a0, a0, s1
	snez	a0, a0
	seqz	a5, a4
	or	a0, a0, a5
	mv	s6, s7
	bnez	a0, .LBB174_19
	lw	a5, -4(s0)
	lw	s0, -8(s0)
	and	s7, a5, a6
	and	s0, s0, a7
	seqz	a5, s0
	sub	a5, s7, a5
	bne	a5, s5, .LBB174_38
	addi	a5, s0, -1
	sltu	s1, a5, s2
	addi	a4, a4, 1
	bnez	s1, .LBB174_39
	j	.LBB174_18
.LBB174_42:
	sltu	a5, a1, a4
	li	a0, 5
	bnez	a5, .LBB174_87
.LBB174_43:
	slli	a5, a4, 3
	slli	a4, a4, 4
	add	a4, a4, a5
	add	a4, a4, t6
	lbu	a4, -24(a4)
	andi	a4, a4, 1
	beqz	a4, .LBB174_87
	xori	a0, a1, 1
	or	a0, a0, a2
	bnez	a0, .LBB174_49
.LBB174_45:
	or	a4, t2, a0
	beqz	a4, .LBB174_48
	beqz	a0, .LBB174_86
	li	a0, 5
	j	.LBB174_87
.LBB174_48:
	srli	a0, t5, 3
	slli	a4, t0, 29
	or	t3, a0, a4
	srli	t4, t0, 3
.LBB174_49:
	beq	t4, a2, .LBB174_51
	sltu	a0, a2, t4
	beqz	a0, .LBB174_52
	j	.LBB174_86
.LBB174_51:
	sltu	a0, a1, t3
	bnez	a0, .LBB174_86
.LBB174_52:
	seqz	a5, t1
	srli	a0, a1, 29
	slli	a4, a2, 3
	slli	t4, a1, 3
	or	s2, a4, a0
	li	s1, 67
.LBB174_53:
	andi	a0, t5, -8
	slli	a4, t5, 1
	andi	a4, a4, -16
	add	a0, a0, a4
	add	a0, a0, t6
	lw	a4, -20(a0)
	lw	a0, -24(a0)
	and	s0, a4, a6
	and	a0, a0, a7
	seqz	a4, a0
	sub	a4, s0, a4
	beq	a4, s2, .LBB174_55
	sltu	a4, a4, s2
	bnez	a4, .LBB174_56
	j	.LBB174_57
.LBB174_55:
	addi	a4, a0, -1
	sltu	a4, a4, t4
	beqz	a4, .LBB174_57
.LBB174_56:
	addi	s1, s1, -1
	mv	t5, a0
	mv	t0, s0
	bnez	s1, .LBB174_53
.LBB174_57:
	bnez	a5, .LBB174_86
	mv	t2, a1
	mv	t1, a2
	j	.LBB174_62
.LBB174_59:
	mv	s8, s1
	mv	s6, t4
	j	.LBB174_4
.LBB174_60:
	mv	a4, t5
	mv	s3, t0
.LBB174_61:
	lw	a0, -24(t3)
	seqz	a5, t2
	addi	t2, t2, -1
	sub	t1, t1, a5
	andi	a0, a0, -2
	or	a5, t2, t1
	sw	a0, -24(t3)
	mv	t5, a4
	mv	t0, s3
	beqz	a5, .LBB174_86
.LBB174_62:
	srli	a0, t5, 3
	slli	a5, t0, 29
	srli	a4, t0, 3
	or	a0, a0, a5
	beq	a4, a2, .LBB174_64
	sltu	a4, a2, a4
	j	.LBB174_65
.LBB174_64:
	sltu	a4, a1, a0
.LBB174_65:
	bnez	a4, .LBB174_86
	slli	a4, a0, 3
	slli	a0, a0, 4
	add	a0, a0, a4
	add	t3, t6, a0
	lw	a0, -12(t3)
	lw	a4, -16(t3)
	and	s3, a0, a6
	and	a4, a4, a7
	seqz	a0, a4
	sub	a0, s3, a0
	beq	a0, s2, .LBB174_70
	sltu	a0, a0, s2
	bnez	a0, .LBB174_71
.LBB174_68:
	lw	a0, -4(t3)
	lw	a4, -8(t3)
	and	s3, a0, a6
	and	s0, a4, a7
	seqz	a0, s0
	sub	a0, s3, a0
	beq	a0, s2, .LBB174_76
	sltu	a0, a0, s2
	j	.LBB174_77
.LBB174_70:
	addi	a0, a4, -1
	sltu	a0, a0, t4
	beqz	a0, .LBB174_68
.LBB174_71:
	li	s0, 67
.LBB174_72:
	andi	a0, a4, -8
	slli	a5, a4, 1
	andi	a5, a5, -16
	add	a0, a0, a5
	add	a0, a0, t6
	lw	a5, -20(a0)
	lw	a0, -24(a0)
	and	a5, a5, a6
	and	s1, a0, a7
	seqz	a0, s1
	sub	a0, a5, a0
	beq	a0, s2, .LBB174_74
	sltu	a0, a0, s2
	bnez	a0, .LBB174_75
	j	.LBB174_61
.LBB174_74:
	addi	a0, s1, -1
	sltu	a0, a0, t4
	beqz	a0, .LBB174_61
.LBB174_75:
	addi	s0, s0, -1
	mv	a4, s1
	mv	s3, a5
	bnez	s0, .LBB174_72
	j	.LBB174_61
.LBB174_76:
	addi	a0, s0, -1
	sltu	a0, a0, t4
.LBB174_77:
	beqz	a0, .LBB174_84
	li	s1, -67
	j	.LBB174_80
.LBB174_79:
	sltu	a0, a0, s2
	addi	s1, s1, 1
	beqz	a0, .LBB174_84
.LBB174_80:
	mv	a4, t5
	mv	t5, s0
	andi	a0, s0, -8
	slli	s0, s0, 1
	andi	s0, s0, -16
	add	a0, a0, s0
	add	a0, a0, t6
	lw	s0, -16(a0)
	lw	a5, -12(a0)
	and	s0, s0, a7
	and	a5, a5, a6
	xor	a5, a5, t0
	xor	a4, a4, s0
	or	a4, a4, a5
	mv	t0, s3
	bnez	a4, .LBB174_60
	beqz	s1, .LBB174_60
	lw	a4, -4(a0)
	lw	a0, -8(a0)
	and	s3, a4, a6
	and	s0, a0, a7
	seqz	a0, s0
	sub	a0, s3, a0
	bne	a0, s2, .LBB174_79
	addi	a0, s0, -1
	sltu	a0, a0, t4
	addi	s1, s1, 1
	bnez	a0, .LBB174_80
.LBB174_84:
	lw	a0, -24(t3)
	andi	a0, a0, -2
	sw	a0, -24(t3)
	j	.LBB174_86
.LBB174_85:
	beqz	t2, .LBB174_49
.LBB174_86:
	li	a0, 0
	sw	zero, 0(a3)
	sw	zero, 4(a3)
.LBB174_87:
	lw	s0, 44(sp)
	lw	s1, 40(sp)
	lw	s2, 36(sp)
	lw	s3, 32(sp)
	lw	s4, 28(sp)
	lw	s5, 24(sp)
	lw	s6, 20(sp)
	lw	s7, 16(sp)
	lw	s8, 12(sp)
	.cfi_restore s0
	.cfi_restore s1
	.cfi_restore s2
	.cfi_restore s3
	.cfi_restore s4
	.cfi_restore s5
	.cfi_restore s6
	.cfi_restore s7
	.cfi_restore s8
	addi	sp, sp, 48
	.cfi_def_cfa_offset 0
	ret
.Lfunc_end174:
	.size	ic_tree_clear, .Lfunc_end174-ic_tree_clear
	.cfi_endproc
	.section	.text.ic_tree_ends_insert,"ax",@progbits
	.globl	ic_tree_ends_insert
	.p2align	1
	.type	ic_tree_ends_insert,@function
ic_tree_ends_insert:
	.cfi_startproc
	addi	sp, sp, -32
	.cfi_def_cfa_offset 32
	sw	ra, 28(sp)
	sw	s0, 24(sp)
	sw	s1, 20(sp)
	sw	s2, 16(sp)
	sw	s3, 12(sp)
	sw	s4, 8(sp)
	sw	s5, 4(sp)
	sw	s6, 0(sp)
	.cfi_offset ra, -4
	.cfi_offset s0, -8
	.cfi_offset s1, -12
	.cfi_offset s2, -16
	.cfi_offset s3, -20
	.cfi_offset s4, -24
	.cfi_offset s5, -28
	.cfi_offset s6, -32
	.cfi_remember_state
	mv	s3, a7
	mv	s1, a6
	mv	s5, a2
	mv	s4, a1
	lw	s0, 32(sp)
	seqz	a1, a0
	slli	a1, a1, 12
	add	s2, a0, a1
	seqz	a0, a3
	slli	a0, a0, 12
	add	a3, a3, a0
	mv	a0, s2
	mv	a1, s4
	mv	a7, s0
	call	ic_raw.search_calls.insert
	bnez	a0, .LBB175_10
	addi	a3, s0, 1
	beqz	a3, .LBB175_10
	beqz	s5, .LBB175_4
	li	a1, 1
	srli	a6, a3, 29
	slli	t5, a3, 3
	bnez	a1, .LBB175_5
	j	.LBB175_8
.LBB175_4:
	sltu	a1, s4, a3
	xori	a1, a1, 1
	srli	a6, a3, 29
	slli	t5, a3, 3
	beqz	a1, .LBB175_8
.LBB175_5:
	lw	a5, 0(s1)
	lw	a4, 4(s1)
	lw	a1, 0(s3)
	lw	a2, 4(s3)
	li	t2, 15
	li	t3, -8
	and	s1, a4, t2
	and	a5, a5, t3
	or	a4, a5, s1
	beqz	a4, .LBB175_12
	srli	a4, s1, 3
	beq	a4, s5, .LBB175_11
	sltu	a4, s5, a4
	beqz	a4, .LBB175_12
.LBB175_8:
	mv	s6, t5
	mv	t4, a6
.LBB175_9:
	sb	t4, 4(s3)
	sb	zero, 5(s3)
	sb	zero, 6(s3)
	sb	zero, 7(s3)
	srli	a1, s6, 24
	srli	a2, s6, 16
	srli	a3, s6, 8
	sb	a6, 12(s3)
	sb	zero, 13(s3)
	sb	zero, 14(s3)
	sb	zero, 15(s3)
	srli	a4, t5, 24
	srli	a5, t5, 16
	sb	s6, 0(s3)
	sb	a3, 1(s3)
	sb	a2, 2(s3)
	sb	a1, 3(s3)
	srli	a1, t5, 8
	sb	t5, 8(s3)
	sb	a1, 9(s3)
	sb	a5, 10(s3)
	sb	a4, 11(s3)
.LBB175_10:
	lw	ra, 28(sp)
	lw	s0, 24(sp)
	lw	s1, 20(sp)
	lw	s2, 16(sp)
	lw	s3, 12(sp)
	lw	s4, 8(sp)
	lw	s5, 4(sp)
	lw	s6, 0(sp)
	.cfi_restore ra
	.cfi_restore s0
	.cfi_restore s1
	.cfi_restore s2
	.cfi_restore s3
	.cfi_restore s4
	.cfi_restore s5
	.cfi_restore s6
	addi	sp, sp, 32
	.cfi_def_cfa_offset 0
	ret
.LBB175_11:
	.cfi_restore_state
	slli	s1, s1, 29
	srli	a5, a5, 3
	or	a5, a5, s1
	sltu	a4, s4, a5
	bnez	a4, .LBB175_8
.LBB175_12:
	slli	a4, a3, 3
	slli	a3, a3, 4
	add	a3, a3, a4
	add	t1, s2, a3
	lw	a3, -24(t1)
	lw	a4, -20(t1)
	srli	a5, s4, 29
	slli	s5, s5, 3
	or	t6, s5, a5
	and	a4, a4, t2
	and	a3, a3, t3
	seqz	a5, a3
	sub	a4, a4, a5
	slli	s4, s4, 3
	beq	a4, t6, .LBB175_14
	sltu	a3, a4, t6
	andi	a7, a2, 15
	andi	t0, a1, -8
	bnez	a3, .LBB175_15
	j	.LBB175_16
.LBB175_14:
	addi	a3, a3, -1
	sltu	a3, a3, s4
	andi	a7, a2, 15
	andi	t0, a1, -8
	beqz	a3, .LBB175_16
.LBB175_15:
	mv	s6, t0
	mv	t4, a7
	j	.LBB175_27
.LBB175_16:
	lw	a1, -4(t1)
	lw	a2, -8(t1)
	and	s5, a1, t2
	and	a3, a2, t3
	seqz	a1, a3
	sub	a1, s5, a1
	beq	a1, t6, .LBB175_18
	sltu	a2, a1, t6
	j	.LBB175_19
.LBB175_18:
	addi	a1, a3, -1
	sltu	a2, a1, s4
.LBB175_19:
	mv	s6, t5
	mv	t4, a6
	beqz	a2, .LBB175_27
	li	a1, -67
	mv	a2, t5
	mv	s1, a6
	j	.LBB175_22
.LBB175_21:
	sltu	a4, a4, t6
	addi	a1, a1, 1
	beqz	a4, .LBB175_26
.LBB175_22:
	mv	a4, a2
	mv	a2, a3
	andi	a3, a3, -8
	slli	a5, a2, 1
	andi	a5, a5, -16
	add	a3, a3, a5
	add	a3, a3, s2
	lw	a5, -24(a3)
	lw	s0, -20(a3)
	and	a5, a5, t3
	and	s0, s0, t2
	xor	s0, s0, s1
	xor	a4, a4, a5
	or	a4, a4, s0
	bnez	a4, .LBB175_15
	beqz	a1, .LBB175_15
	mv	s1, s5
	lw	a4, -4(a3)
	lw	a3, -8(a3)
	and	s5, a4, t2
	and	a3, a3, t3
	seqz	a4, a3
	sub	a4, s5, a4
	bne	a4, t6, .LBB175_21
	addi	a4, a3, -1
	sltu	a4, a4, s4
	addi	a1, a1, 1
	bnez	a4, .LBB175_22
.LBB175_26:
	mv	s6, t5
	mv	t4, a6
.LBB175_27:
	lw	a4, -12(t1)
	lw	a5, -16(t1)
	lw	a2, 8(s3)
	lw	a3, 12(s3)
	and	s1, a4, t2
	and	a4, a5, t3
	seqz	a5, a4
	sub	a5, s1, a5
	beq	a5, t6, .LBB175_29
	sltu	a4, a5, t6
	and	a7, a3, t2
	and	t0, a2, t3
	bnez	a4, .LBB175_30
	j	.LBB175_31
.LBB175_29:
	addi	a4, a4, -1
	sltu	a4, a4, s4
	and	a7, a3, t2
	and	t0, a2, t3
	beqz	a4, .LBB175_31
.LBB175_30:
	mv	t5, t0
	mv	a6, a7
	j	.LBB175_9
.LBB175_31:
	lw	a2, -4(t1)
	lw	a3, -8(t1)
	and	t1, a2, t2
	and	a2, a3, t3
	seqz	a3, a2
	sub	a3, t1, a3
	beq	a3, t6, .LBB175_33
	sltu	a3, a3, t6
	j	.LBB175_34
.LBB175_33:
	addi	a3, a2, -1
	sltu	a3, a3, s4
.LBB175_34:
	beqz	a3, .LBB175_9
	li	a3, -67
	mv	a1, t5
	mv	s1, a6
	j	.LBB175_37
.LBB175_36:
	sltu	a5, a5, t6
	addi	a3, a3, 1
	beqz	a5, .LBB175_9
.LBB175_37:
	mv	a5, a1
	mv	a1, a2
	andi	a2, a2, -8
	slli	s0, a1, 1
	andi	s0, s0, -16
	add	a2, a2, s0
	add	a2, a2, s2
	lw	s0, -16(a2)
	lw	a4, -12(a2)
	and	s0, s0, t3
	and	a4, a4, t2
	xor	a4, a4, s1
	xor	a5, a5, s0
	or	a4, a4, a5
	bnez	a4, .LBB175_30
	beqz	a3, .LBB175_30
	mv	s1, t1
	lw	a4, -4(a2)
	lw	a2, -8(a2)
	and	t1, a4, t2
	and	a2, a2, t3
	seqz	a4, a2
	sub	a5, t1, a4
	bne	a5, t6, .LBB175_36
	addi	a4, a2, -1
	sltu	a5, a4, s4
	addi	a3, a3, 1
	bnez	a5, .LBB175_37
	j	.LBB175_9
.Lfunc_end175:
	.size	ic_tree_ends_insert, .Lfunc_end175-ic_tree_ends_insert
	.cfi_endproc
	.section	.text.ic_tree_ends_insert_left,"ax",@progbits
	.globl	ic_tree_ends_insert_left
	.p2align	1
	.type	ic_tree_ends_insert_left,@function
ic_tree_ends_insert_left:
	.cfi_startproc
	addi	sp, sp, -16
	.cfi_def_cfa_offset 16
	sw	ra, 12(sp)
	sw	s0, 8(sp)
	sw	s1, 4(sp)
	sw	s2, 0(sp)
	.cfi_offset ra, -4
	.cfi_offset s0, -8
	.cfi_offset s1, -12
	.cfi_offset s2, -16
	.cfi_remember_state
	mv	s2, a6
	mv	s1, a5
	mv	s0, a4
	seqz	a4, a0
	slli	a4, a4, 12
	add	a0, a0, a4
	li	a4, 0
	call	ic_raw.tree_calls.insert_at
	beqz	a0, .LBB176_2
	lw	ra, 12(sp)
	lw	s0, 8(sp)
	lw	s1, 4(sp)
	lw	s2, 0(sp)
	.cfi_restore ra
	.cfi_restore s0
	.cfi_restore s1
	.cfi_restore s2
	addi	sp, sp, 16
	.cfi_def_cfa_offset 0
	ret
.LBB176_2:
	.cfi_restore_state
	addi	s1, s1, 1
	addi	s2, s2, 1
	srli	a1, s2, 29
	slli	a2, s2, 3
	bnez	s1, .LBB176_4
	mv	a3, a2
	mv	a7, a1
	j	.LBB176_12
.LBB176_4:
	lw	a3, 4(s0)
	lw	a4, 0(s0)
	slli	a5, s1, 3
	srli	s1, s1, 29
	andi	a3, a3, 15
	andi	a4, a4, -8
	xor	s1, s1, a3
	xor	a5, a5, a4
	or	a5, a5, s1
	bnez	a5, .LBB176_8
	bnez	a5, .LBB176_9
.LBB176_6:
	lw	a6, 8(s0)
	lw	s1, 12(s0)
	beqz	a5, .LBB176_10
.LBB176_7:
	or	a3, a3, a4
	seqz	a5, a3
	j	.LBB176_11
.LBB176_8:
	mv	a2, a4
	beqz	a5, .LBB176_6
.LBB176_9:
	mv	a1, a3
	lw	a6, 8(s0)
	lw	s1, 12(s0)
	bnez	a5, .LBB176_7
.LBB176_10:
	seqz	a5, s2
.LBB176_11:
	andi	a7, s1, 15
	andi	a3, a6, -8
	addi	a5, a5, -1
	and	a1, a1, a5
	and	a2, a2, a5
.LBB176_12:
	srli	t0, a2, 24
	srli	t2, a2, 16
	srli	t3, a2, 8
	srli	a6, a1, 24
	srli	t1, a1, 16
	srli	a5, a1, 8
	sb	a7, 12(s0)
	sb	zero, 13(s0)
	sb	zero, 14(s0)
	sb	zero, 15(s0)
	srli	s1, a3, 24
	srli	a4, a3, 16
	sb	a2, 0(s0)
	sb	t3, 1(s0)
	sb	t2, 2(s0)
	sb	t0, 3(s0)
	srli	a2, a3, 8
	sb	a1, 4(s0)
	sb	a5, 5(s0)
	sb	t1, 6(s0)
	sb	a6, 7(s0)
	sb	a3, 8(s0)
	sb	a2, 9(s0)
	sb	a4, 10(s0)
	sb	s1, 11(s0)
	lw	ra, 12(sp)
	lw	s0, 8(sp)
	lw	s1, 4(sp)
	lw	s2, 0(sp)
	.cfi_restore ra
	.cfi_restore s0
	.cfi_restore s1
	.cfi_restore s2
	addi	sp, sp, 16
	.cfi_def_cfa_offset 0
	ret
.Lfunc_end176:
	.size	ic_tree_ends_insert_left, .Lfunc_end176-ic_tree_ends_insert_left
	.cfi_endproc
	.section	.text.ic_tree_ends_insert_right,"ax",@progbits
	.globl	ic_tree_ends_insert_right
	.p2align	1
	.type	ic_tree_ends_insert_right,@function
ic_tree_ends_insert_right:
	.cfi_startproc
	addi	sp, sp, -16
	.cfi_def_cfa_offset 16
	sw	ra, 12(sp)
	sw	s0, 8(sp)
	sw	s1, 4(sp)
	sw	s2, 0(sp)
	.cfi_offset ra, -4
	.cfi_offset s0, -8
	.cfi_offset s1, -12
	.cfi_offset s2, -16
	.cfi_remember_state
	mv	s2, a6
	mv	s1, a5
	mv	s0, a4
	seqz	a4, a0
	slli	a4, a4, 12
	add	a0, a0, a4
	li	a4, 1
	call	ic_raw.tree_calls.insert_at
	beqz	a0, .LBB177_2
	lw	ra, 12(sp)
	lw	s0, 8(sp)
	lw	s1, 4(sp)
	lw	s2, 0(sp)
	.cfi_restore ra
	.cfi_restore s0
	.cfi_restore s1
	.cfi_restore s2
	addi	sp, sp, 16
	.cfi_def_cfa_offset 0
	ret
.LBB177_2:
	.cfi_restore_state
	addi	s1, s1, 1
	addi	s2, s2, 1
	srli	a2, s2, 29
	slli	a1, s2, 3
	bnez	s1, .LBB177_4
	mv	a4, a1
	mv	a3, a2
	j	.LBB177_12
.LBB177_4:
	lw	a3, 12(s0)
	lw	a4, 8(s0)
	slli	a5, s1, 3
	srli	s1, s1, 29
	andi	a3, a3, 15
	andi	a4, a4, -8
	xor	s1, s1, a3
	xor	a5, a5, a4
	or	a5, a5, s1
	bnez	a5, .LBB177_8
	bnez	a5, .LBB177_9
.LBB177_6:
	lw	a6, 0(s0)
	lw	s1, 4(s0)
	beqz	a5, .LBB177_10
.LBB177_7:
	or	a3, a3, a4
	seqz	a3, a3
	j	.LBB177_11
.LBB177_8:
	mv	a1, a4
	beqz	a5, .LBB177_6
.LBB177_9:
	mv	a2, a3
	lw	a6, 0(s0)
	lw	s1, 4(s0)
	bnez	a5, .LBB177_7
.LBB177_10:
	seqz	a3, s2
.LBB177_11:
	addi	a4, a3, -1
	and	a3, a4, a2
	andi	a2, s1, 15
	andi	a5, a6, -8
	and	a4, a4, a1
	mv	a1, a5
.LBB177_12:
	sb	a2, 4(s0)
	sb	zero, 5(s0)
	sb	zero, 6(s0)
	sb	zero, 7(s0)
	srli	a6, a1, 24
	srli	t0, a1, 16
	srli	s1, a1, 8
	srli	a7, a4, 24
	srli	a2, a4, 16
	srli	a5, a4, 8
	srli	t1, a3, 24
	sb	a1, 0(s0)
	sb	s1, 1(s0)
	sb	t0, 2(s0)
	sb	a6, 3(s0)
	srli	a1, a3, 16
	sb	a4, 8(s0)
	sb	a5, 9(s0)
	sb	a2, 10(s0)
	sb	a7, 11(s0)
	srli	a2, a3, 8
	sb	a3, 12(s0)
	sb	a2, 13(s0)
	sb	a1, 14(s0)
	sb	t1, 15(s0)
	lw	ra, 12(sp)
	lw	s0, 8(sp)
	lw	s1, 4(sp)
	lw	s2, 0(sp)
	.cfi_restore ra
	.cfi_restore s0
	.cfi_restore s1
	.cfi_restore s2
	addi	sp, sp, 16
	.cfi_def_cfa_offset 0
	ret
.Lfunc_end177:
	.size	ic_tree_ends_insert_right, .Lfunc_end177-ic_tree_ends_insert_right
	.cfi_endproc
	.section	.text.ic_tree_ends_pop_first,"ax",@progbits
	.globl	ic_tree_ends_pop_first
	.p2align	1
	.type	ic_tree_ends_pop_first,@function
ic_tree_ends_pop_first:
	.cfi_startproc
	addi	sp, sp, -16
	.cfi_def_cfa_offset 16
	sw	ra, 12(sp)
	sw	s0, 8(sp)
	sw	s1, 4(sp)
	.cfi_offset ra, -4
	.cfi_offset s0, -8
	.cfi_offset s1, -12
	.cfi_remember_state
	lw	t1, 4(a4)
	lw	s1, 0(a4)
	andi	t0, t1, 15
	andi	a6, s1, -8
	or	a7, a6, t0
	beqz	a7, .LBB178_4
	srli	a7, s1, 3
	slli	s0, t1, 29
	or	a7, a7, s0
	seqz	s0, a7
	addi	s0, s0, -1
	and	t1, t1, s0
	and	s0, s0, s1
	andi	s0, s0, -8
	andi	s1, t1, 7
	xor	s1, s1, t0
	xor	s0, s0, a6
	or	s0, s0, s1
	li	a6, 5
	bnez	s0, .LBB178_3
	mv	s1, a5
	seqz	a5, a0
	slli	a5, a5, 12
	add	a0, a0, a5
	addi	s0, a7, -1
	mv	a5, s0
	call	ic_raw_keyed.ends_calls.remove
	li	a6, 5
	beqz	a0, .LBB178_5
.LBB178_3:
	mv	a0, a6
	lw	ra, 12(sp)
	lw	s0, 8(sp)
	lw	s1, 4(sp)
	.cfi_restore ra
	.cfi_restore s0
	.cfi_restore s1
	addi	sp, sp, 16
	.cfi_def_cfa_offset 0
	ret
.LBB178_4:
	.cfi_restore_state
	.cfi_remember_state
	li	a0, 4
	lw	ra, 12(sp)
	lw	s0, 8(sp)
	lw	s1, 4(sp)
	.cfi_restore ra
	.cfi_restore s0
	.cfi_restore s1
	addi	sp, sp, 16
	.cfi_def_cfa_offset 0
	ret
.LBB178_5:
	.cfi_restore_state
	sw	s0, 0(s1)
	li	a0, 0
	lw	ra, 12(sp)
	lw	s0, 8(sp)
	lw	s1, 4(sp)
	.cfi_restore ra
	.cfi_restore s0
	.cfi_restore s1
	addi	sp, sp, 16
	.cfi_def_cfa_offset 0
	ret
.Lfunc_end178:
	.size	ic_tree_ends_pop_first, .Lfunc_end178-ic_tree_ends_pop_first
	.cfi_endproc
	.section	.text.ic_tree_ends_remove,"ax",@progbits
	.globl	ic_tree_ends_remove
	.p2align	1
	.type	ic_tree_ends_remove,@function
ic_tree_ends_remove:
	.cfi_startproc
	seqz	a6, a0
	slli	a6, a6, 12
	add	a0, a0, a6
	tail	ic_raw_keyed.ends_calls.remove
.Lfunc_end179:
	.size	ic_tree_ends_remove, .Lfunc_end179-ic_tree_ends_remove
	.cfi_endproc
	.section	.text.ic_tree_ends_replace,"ax",@progbits
	.globl	ic_tree_ends_replace
	.p2align	1
	.type	ic_tree_ends_replace,@function
ic_tree_ends_replace:
	.cfi_startproc
	addi	a7, a5, 1
	bnez	a7, .LBB180_2
	li	a0, 4
	ret
.LBB180_2:
	addi	sp, sp, -64
	.cfi_def_cfa_offset 64
	sw	ra, 60(sp)
	sw	s0, 56(sp)
	sw	s1, 52(sp)
	sw	s2, 48(sp)
	sw	s3, 44(sp)
	sw	s4, 40(sp)
	sw	s5, 36(sp)
	sw	s6, 32(sp)
	sw	s7, 28(sp)
	sw	s8, 24(sp)
	.cfi_offset ra, -4
	.cfi_offset s0, -8
	.cfi_offset s1, -12
	.cfi_offset s2, -16
	.cfi_offset s3, -20
	.cfi_offset s4, -24
	.cfi_offset s5, -28
	.cfi_offset s6, -32
	.cfi_offset s7, -36
	.cfi_offset s8, -40
	seqz	t2, a0
	lw	t1, 0(a3)
	lw	t3, 4(a3)
	sltu	s0, a1, a7
	seqz	t0, a2
	slli	t2, t2, 12
	and	s1, t0, s0
	add	t4, a0, t2
	sw	t4, 8(sp)
	sw	zero, 12(sp)
	sw	a1, 16(sp)
	sw	a2, 20(sp)
	andi	a0, t1, -8
	andi	t2, t3, 15
	sw	a0, 0(sp)
	sw	t2, 4(sp)
	bnez	s1, .LBB180_21
	slli	s4, a7, 3
	slli	s1, a7, 4
	add	s1, s1, s4
	add	s7, t4, s1
	lbu	s1, -24(s7)
	andi	s1, s1, 1
	beqz	s1, .LBB180_21
	srli	s1, a1, 29
	slli	a2, a2, 3
	or	a2, a2, s1
	seqz	s1, a0
	sub	s1, t2, s1
	beq	s1, a2, .LBB180_6
	sltu	a2, s1, a2
	bnez	a2, .LBB180_7
	j	.LBB180_21
.LBB180_6:
	slli	a2, a1, 3
	addi	s0, a0, -1
	sltu	a2, s0, a2
	beqz	a2, .LBB180_21
.LBB180_7:
	slli	t1, t1, 1
	andi	a2, t1, -16
	add	a2, a2, a0
	add	a2, a2, t4
	lbu	a2, -24(a2)
	andi	a2, a2, 1
	beqz	a2, .LBB180_21
	addi	s2, a6, 1
	sltu	a1, a1, s2
	and	a1, t0, a1
	bnez	a1, .LBB180_21
	beqz	s2, .LBB180_21
	srli	s8, a7, 29
	li	s6, 15
	li	s5, -8
	lw	a1, -8(s7)
	lw	a2, -4(s7)
	xor	a0, a0, s4
	xor	s1, t2, s8
	or	a0, a0, s1
	and	a2, a2, s6
	and	a1, a1, s5
	or	a1, a1, a2
	seqz	a1, a1
	snez	a0, a0
	and	a0, a0, a1
	bnez	a0, .LBB180_21
	slli	a0, s2, 3
	slli	a1, s2, 4
	add	a0, a0, a1
	add	a0, a0, t4
	lbu	a1, -24(a0)
	andi	a1, a1, 1
	bnez	a1, .LBB180_21
	srli	s3, s2, 29
	slli	s2, s2, 3
	sb	zero, -20(a0)
	sb	zero, -19(a0)
	sb	zero, -18(a0)
	sb	zero, -17(a0)
	li	a1, 1
	sb	a1, -24(a0)
	sb	zero, -23(a0)
	sb	zero, -22(a0)
	sb	zero, -21(a0)
	addi	a0, a0, -16
	li	a2, 16
	li	a1, 0
	mv	s1, a3
	li	a3, 0
	mv	s0, a4
	li	a4, 0
	call	ic.clear
	addi	a0, sp, 8
	mv	a1, sp
	mv	a2, s4
	mv	a3, s8
	mv	a4, s2
	mv	a5, s3
	call	ic_rbtree.repair.writers.take_place.b5b364724df62b0f
	mv	a1, s0
	lw	a0, 0(sp)
	lw	a2, 4(sp)
	sw	zero, -24(s7)
	sw	zero, -20(s7)
	sw	a0, 0(s1)
	sw	a2, 4(s1)
	lw	a0, 4(s0)
	lw	a2, 0(s0)
	and	a0, a0, s6
	and	a4, a2, s5
	xor	a2, a0, s8
	xor	s1, a4, s4
	or	s1, s1, a2
	mv	a2, s2
	beqz	s1, .LBB180_14
	mv	a2, a4
.LBB180_14:
	lw	a5, 8(a1)
	lw	s0, 12(a1)
	mv	a3, s3
	beqz	s1, .LBB180_16
	mv	a3, a0
.LBB180_16:
	or	a4, a4, a0
	and	a0, s0, s6
	and	s1, a5, s5
	xor	s0, a0, s8
	xor	a5, s1, s4
	or	a5, a5, s0
	or	s0, s1, a0
	beqz	a5, .LBB180_18
	mv	s2, s1
.LBB180_18:
	seqz	s1, a4
	seqz	a4, s0
	beqz	a5, .LBB180_20
	mv	s3, a0
.LBB180_20:
	li	a0, 0
	addi	s1, s1, -1
	and	a3, a3, s1
	and	a2, a2, s1
	addi	a4, a4, -1
	and	a5, a4, s3
	and	a4, a4, s2
	sw	a2, 0(a1)
	sw	a3, 4(a1)
	sw	a4, 8(a1)
	sw	a5, 12(a1)
	j	.LBB180_22
.LBB180_21:
	addi	a0, sp, 8
	mv	a1, a5
	mv	a2, a6
	call	ic_raw.table.RawTable.refusal.19bacce014a8892a
.LBB180_22:
	lw	ra, 60(sp)
	lw	s0, 56(sp)
	lw	s1, 52(sp)
	lw	s2, 48(sp)
	lw	s3, 44(sp)
	lw	s4, 40(sp)
	lw	s5, 36(sp)
	lw	s6, 32(sp)
	lw	s7, 28(sp)
	lw	s8, 24(sp)
	.cfi_restore ra
	.cfi_restore s0
	.cfi_restore s1
	.cfi_restore s2
	.cfi_restore s3
	.cfi_restore s4
	.cfi_restore s5
	.cfi_restore s6
	.cfi_restore s7
	.cfi_restore s8
	addi	sp, sp, 64
	.cfi_def_cfa_offset 0
	ret
.Lfunc_end180:
	.size	ic_tree_ends_replace, .Lfunc_end180-ic_tree_ends_replace
	.cfi_endproc
	.section	.text.ic_tree_find,"ax",@progbits
	.globl	ic_tree_find
	.p2align	1
	.type	ic_tree_find,@function
ic_tree_find:
	.cfi_startproc
	addi	sp, sp, -96
	.cfi_def_cfa_offset 96
	sw	ra, 92(sp)
	sw	s0, 88(sp)
	sw	s1, 84(sp)
	sw	s2, 80(sp)
	sw	s3, 76(sp)
	sw	s4, 72(sp)
	sw	s5, 68(sp)
	sw	s6, 64(sp)
	sw	s7, 60(sp)
	.cfi_offset ra, -4
	.cfi_offset s0, -8
	.cfi_offset s1, -12
	.cfi_offset s2, -16
	.cfi_offset s3, -20
	.cfi_offset s4, -24
	.cfi_offset s5, -28
	.cfi_offset s6, -32
	.cfi_offset s7, -36
	.cfi_remember_state
	mv	s2, a7
	lw	s3, 96(sp)
	lw	s5, 100(sp)
	seqz	s1, a0
	slli	s1, s1, 12
	add	s6, a0, s1
	lw	s1, 0(a6)
	lw	s0, 4(a6)
	sw	s6, 0(sp)
	sw	zero, 4(sp)
	sw	a1, 8(sp)
	sw	a2, 12(sp)
	beq	a5, a2, .LBB181_2
	sltu	a0, a5, a2
	beqz	a0, .LBB181_3
	j	.LBB181_15
.LBB181_2:
	sltu	a0, a4, a1
	bnez	a0, .LBB181_15
.LBB181_3:
	andi	s0, s0, 15
	andi	s7, s1, -8
	or	a0, s7, s0
	beqz	a0, .LBB181_8
	srli	a6, s7, 3
	slli	a0, s0, 29
	srli	s1, s0, 3
	or	a0, a6, a0
	beq	s1, a2, .LBB181_6
	sltu	a6, a2, s1
	beqz	a6, .LBB181_7
	j	.LBB181_15
.LBB181_6:
	sltu	a6, a1, a0
	bnez	a6, .LBB181_15
.LBB181_7:
	slli	s1, a0, 3
	slli	a0, a0, 4
	add	a0, a0, s1
	add	a0, a0, s6
	lbu	a0, -24(a0)
	andi	a0, a0, 1
	beqz	a0, .LBB181_15
.LBB181_8:
	seqz	a0, a3
	slli	a0, a0, 12
	add	s4, a3, a0
	addi	a0, sp, 16
	li	a2, 40
	li	a1, 0
	li	a3, 0
	li	a4, 0
	call	ic.clear
	addi	a0, sp, 16
	mv	a1, sp
	mv	a2, s7
	mv	a3, s0
	mv	a4, s4
	mv	a5, s2
	mv	a6, s3
	li	a7, 0
	call	ic_raw.search.descend
	lbu	a0, 16(sp)
	li	a1, 1
	bne	a0, a1, .LBB181_12
	lw	a0, 48(sp)
	lw	a1, 52(sp)
	or	a2, a0, a1
	beqz	a2, .LBB181_13
	add	s4, s4, a0
	lw	a2, -4(s4)
	lw	a3, -8(s4)
	xor	a2, s3, a2
	xor	a3, s2, a3
	or	a2, a2, a3
	bnez	a2, .LBB181_13
	srli	a2, a0, 3
	andi	a0, a0, -8
	slli	a3, a2, 4
	add	a0, a0, a3
	add	a0, a0, s6
	lbu	a0, -24(a0)
	andi	a0, a0, 1
	bnez	a0, .LBB181_16
.LBB181_12:
	li	a0, 5
	j	.LBB181_14
.LBB181_13:
	li	a0, 4
.LBB181_14:
	lw	ra, 92(sp)
	lw	s0, 88(sp)
	lw	s1, 84(sp)
	lw	s2, 80(sp)
	lw	s3, 76(sp)
	lw	s4, 72(sp)
	lw	s5, 68(sp)
	lw	s6, 64(sp)
	lw	s7, 60(sp)
	.cfi_restore ra
	.cfi_restore s0
	.cfi_restore s1
	.cfi_restore s2
	.cfi_restore s3
	.cfi_restore s4
	.cfi_restore s5
	.cfi_restore s6
	.cfi_restore s7
	addi	sp, sp, 96
	.cfi_def_cfa_offset 0
	ret
.LBB181_15:
	.cfi_restore_state
	.cfi_remember_state
	mv	a0, a1
	mv	a1, a2
	mv	a2, a4
	mv	a3, a5
	lw	ra, 92(sp)
	lw	s0, 88(sp)
	lw	s1, 84(sp)
	lw	s2, 80(sp)
	lw	s3, 76(sp)
	lw	s4, 72(sp)
	lw	s5, 68(sp)
	lw	s6, 64(sp)
	lw	s7, 60(sp)
	.cfi_restore ra
	.cfi_restore s0
	.cfi_restore s1
	.cfi_restore s2
	.cfi_restore s3
	.cfi_restore s4
	.cfi_restore s5
	.cfi_restore s6
	.cfi_restore s7
	addi	sp, sp, 96
	.cfi_def_cfa_offset 0
	tail	ic_raw.search.refusal
.LBB181_16:
	.cfi_restore_state
	li	a0, 0
	slli	a1, a1, 29
	or	a1, a1, a2
	addi	a1, a1, -1
	sw	a1, 0(s5)
	j	.LBB181_14
.Lfunc_end181:
	.size	ic_tree_find, .Lfunc_end181-ic_tree_find
	.cfi_endproc
	.section	.text.ic_tree_insert,"ax",@progbits
	.globl	ic_tree_insert
	.p2align	1
	.type	ic_tree_insert,@function
ic_tree_insert:
	.cfi_startproc
	seqz	t0, a0
	slli	t0, t0, 12
	add	a0, a0, t0
	seqz	t0, a3
	slli	t0, t0, 12
	add	a3, a3, t0
	tail	ic_raw.search_calls.insert
.Lfunc_end182:
	.size	ic_tree_insert, .Lfunc_end182-ic_tree_insert
	.cfi_endproc
	.section	.text.ic_tree_insert_left,"ax",@progbits
	.globl	ic_tree_insert_left
	.p2align	1
	.type	ic_tree_insert_left,@function
ic_tree_insert_left:
	.cfi_startproc
	mv	a6, a5
	mv	a5, a4
	seqz	a4, a0
	slli	a4, a4, 12
	add	a0, a0, a4
	li	a4, 0
	tail	ic_raw.tree_calls.insert_at
.Lfunc_end183:
	.size	ic_tree_insert_left, .Lfunc_end183-ic_tree_insert_left
	.cfi_endproc
	.section	.text.ic_tree_insert_right,"ax",@progbits
	.globl	ic_tree_insert_right
	.p2align	1
	.type	ic_tree_insert_right,@function
ic_tree_insert_right:
	.cfi_startproc
	mv	a6, a5
	mv	a5, a4
	seqz	a4, a0
	slli	a4, a4, 12
	add	a0, a0, a4
	li	a4, 1
	tail	ic_raw.tree_calls.insert_at
.Lfunc_end184:
	.size	ic_tree_insert_right, .Lfunc_end184-ic_tree_insert_right
	.cfi_endproc
	.section	.text.ic_tree_join,"ax",@progbits
	.globl	ic_tree_join
	.p2align	1
	.type	ic_tree_join,@function
ic_tree_join:
	.cfi_startproc
	addi	sp, sp, -112
	.cfi_def_cfa_offset 112
	sw	ra, 108(sp)
	sw	s0, 104(sp)
	sw	s1, 100(sp)
	sw	s2, 96(sp)
	sw	s3, 92(sp)
	sw	s4, 88(sp)
	sw	s5, 84(sp)
	sw	s6, 80(sp)
	sw	s7, 76(sp)
	sw	s8, 72(sp)
	sw	s9, 68(sp)
	sw	s10, 64(sp)
	sw	s11, 60(sp)
	.cfi_offset ra, -4
	.cfi_offset s0, -8
	.cfi_offset s1, -12
	.cfi_offset s2, -16
	.cfi_offset s3, -20
	.cfi_offset s4, -24
	.cfi_offset s5, -28
	.cfi_offset s6, -32
	.cfi_offset s7, -36
	.cfi_offset s8, -40
	.cfi_offset s9, -44
	.cfi_offset s10, -48
	.cfi_offset s11, -52
	mv	s0, a0
	addi	s7, a4, 1
	li	a0, 1
	beqz	s7, .LBB185_14
	sltu	a4, a1, s7
	seqz	s1, a2
	and	a4, a4, s1
	bnez	a4, .LBB185_14
	seqz	a0, s0
	slli	s9, s7, 3
	slli	s11, s7, 4
	slli	a0, a0, 12
	add	s0, s0, a0
	add	s11, s11, s9
	add	a0, s0, s11
	lw	a0, -24(a0)
	slli	a0, a0, 1
	andi	a0, a0, 2
	bnez	a0, .LBB185_14
	lw	a6, 0(a3)
	lw	a4, 4(a3)
	lw	s1, 0(a5)
	lw	a0, 4(a5)
	sw	s0, 16(sp)
	sw	zero, 20(sp)
	sw	a1, 24(sp)
	sw	a2, 28(sp)
	andi	s3, a4, 15
	andi	s8, a6, -8
	andi	s2, a0, 15
	andi	s4, s1, -8
	or	s0, s4, s2
	li	a0, 5
	beqz	s0, .LBB185_5
	xor	a1, s8, s4
	xor	a2, s3, s2
	or	a1, a1, a2
	beqz	a1, .LBB185_14
.LBB185_5:
	mv	s10, a3
	mv	s1, a5
	or	a0, s8, s3
	snez	s5, a0
	addi	a0, sp, 32
	addi	a1, sp, 16
	li	t3, 66
	mv	a2, s5
	mv	a3, s8
	mv	a4, s3
	li	a5, 0
	li	a6, 0
	li	a7, 0
	call	ic_check.tree.check_below.ffc36cde30076884
	lbu	a1, 32(sp)
	li	a0, 1
	bne	a1, a0, .LBB185_11
	lbu	a1, 52(sp)
	bne	a1, a0, .LBB185_11
	snez	s6, s0
	addi	a0, sp, 32
	addi	a1, sp, 16
	li	t3, 66
	mv	a2, s6
	mv	a3, s4
	mv	a4, s2
	li	a5, 0
	li	a6, 0
	li	a7, 0
	call	ic_check.tree.check_below.ffc36cde30076884
	lbu	a0, 32(sp)
	li	a3, 1
	bne	a0, a3, .LBB185_11
	lbu	a4, 52(sp)
	li	a0, 5
	bne	a4, a3, .LBB185_14
	lw	a0, 16(sp)
	add	s11, s11, a0
	lbu	a0, -24(s11)
	andi	a0, a0, 1
	bnez	a0, .LBB185_12
	srli	a6, s7, 29
	li	a0, 1
	sw	a0, -24(s11)
	sw	zero, -20(s11)
	mv	a0, sp
	addi	a1, sp, 16
	mv	a2, s5
	mv	a3, s8
	mv	a4, s3
	mv	a5, s9
	mv	a7, s6
	mv	t3, s4
	mv	t4, s2
	call	ic_rbtree.join.roots.join.f4da04d8a93b4f27
	mv	a2, s10
	mv	a1, s1
	li	s4, 0
	li	s2, 0
	lbu	a0, 0(sp)
	lw	a3, 12(sp)
	lw	a4, 8(sp)
	seqz	a0, a0
	addi	a0, a0, -1
	and	s3, a0, a3
	and	s8, a0, a4
	j	.LBB185_13
.LBB185_11:
	li	a0, 5
	j	.LBB185_14
.LBB185_12:
	mv	a1, s1
	mv	a2, s10
.LBB185_13:
	li	a0, 0
	sw	s8, 0(a2)
	sw	s3, 4(a2)
	sw	s4, 0(a1)
	sw	s2, 4(a1)
.LBB185_14:
	lw	ra, 108(sp)
	lw	s0, 104(sp)
	lw	s1, 100(sp)
	lw	s2, 96(sp)
	lw	s3, 92(sp)
	lw	s4, 88(sp)
	lw	s5, 84(sp)
	lw	s6, 80(sp)
	lw	s7, 76(sp)
	lw	s8, 72(sp)
	lw	s9, 68(sp)
	lw	s10, 64(sp)
	lw	s11, 60(sp)
	.cfi_restore ra
	.cfi_restore s0
	.cfi_restore s1
	.cfi_restore s2
	.cfi_restore s3
	.cfi_restore s4
	.cfi_restore s5
	.cfi_restore s6
	.cfi_restore s7
	.cfi_restore s8
	.cfi_restore s9
	.cfi_restore s10
	.cfi_restore s11
	addi	sp, sp, 112
	.cfi_def_cfa_offset 0
	ret
.Lfunc_end185:
	.size	ic_tree_join, .Lfunc_end185-ic_tree_join
	.cfi_endproc
	.section	.text.ic_tree_lower_bound,"ax",@progbits
	.globl	ic_tree_lower_bound
	.p2align	1
	.type	ic_tree_lower_bound,@function
ic_tree_lower_bound:
	.cfi_startproc
	addi	sp, sp, -96
	.cfi_def_cfa_offset 96
	sw	ra, 92(sp)
	sw	s0, 88(sp)
	sw	s1, 84(sp)
	sw	s2, 80(sp)
	sw	s3, 76(sp)
	sw	s4, 72(sp)
	sw	s5, 68(sp)
	sw	s6, 64(sp)
	sw	s7, 60(sp)
	.cfi_offset ra, -4
	.cfi_offset s0, -8
	.cfi_offset s1, -12
	.cfi_offset s2, -16
	.cfi_offset s3, -20
	.cfi_offset s4, -24
	.cfi_offset s5, -28
	.cfi_offset s6, -32
	.cfi_offset s7, -36
	.cfi_remember_state
	mv	s2, a7
	lw	s3, 96(sp)
	lw	s5, 100(sp)
	seqz	s1, a0
	slli	s1, s1, 12
	add	s6, a0, s1
	lw	s1, 0(a6)
	lw	s0, 4(a6)
	sw	s6, 0(sp)
	sw	zero, 4(sp)
	sw	a1, 8(sp)
	sw	a2, 12(sp)
	beq	a5, a2, .LBB186_2
	sltu	a0, a5, a2
	beqz	a0, .LBB186_3
	j	.LBB186_15
.LBB186_2:
	sltu	a0, a4, a1
	bnez	a0, .LBB186_15
.LBB186_3:
	andi	s0, s0, 15
	andi	s7, s1, -8
	or	a0, s7, s0
	beqz	a0, .LBB186_8
	srli	a6, s7, 3
	slli	a0, s0, 29
	srli	s1, s0, 3
	or	a0, a6, a0
	beq	s1, a2, .LBB186_6
	sltu	a6, a2, s1
	beqz	a6, .LBB186_7
	j	.LBB186_15
.LBB186_6:
	sltu	a6, a1, a0
	bnez	a6, .LBB186_15
.LBB186_7:
	slli	s1, a0, 3
	slli	a0, a0, 4
	add	a0, a0, s1
	add	a0, a0, s6
	lbu	a0, -24(a0)
	andi	a0, a0, 1
	beqz	a0, .LBB186_15
.LBB186_8:
	seqz	a0, a3
	slli	a0, a0, 12
	add	s4, a3, a0
	addi	a0, sp, 16
	li	a2, 40
	li	a1, 0
	li	a3, 0
	li	a4, 0
	call	ic.clear
	addi	a0, sp, 16
	mv	a1, sp
	mv	a2, s7
	mv	a3, s0
	mv	a4, s4
	mv	a5, s2
	mv	a6, s3
	li	a7, 0
	call	ic_raw.search.descend
	lbu	a0, 16(sp)
	li	a1, 1
	bne	a0, a1, .LBB186_11
	lw	a0, 48(sp)
	lw	a1, 52(sp)
	or	a2, a0, a1
	beqz	a2, .LBB186_12
	srli	a2, a0, 3
	andi	a0, a0, -8
	slli	a3, a2, 4
	add	a0, a0, a3
	add	a0, a0, s6
	lbu	a0, -24(a0)
	andi	a0, a0, 1
	bnez	a0, .LBB186_13
.LBB186_11:
	li	a0, 5
	j	.LBB186_14
.LBB186_12:
	li	a0, 4
	j	.LBB186_14
.LBB186_13:
	li	a0, 0
	slli	a1, a1, 29
	or	a1, a1, a2
	addi	a1, a1, -1
	sw	a1, 0(s5)
.LBB186_14:
	lw	ra, 92(sp)
	lw	s0, 88(sp)
	lw	s1, 84(sp)
	lw	s2, 80(sp)
	lw	s3, 76(sp)
	lw	s4, 72(sp)
	lw	s5, 68(sp)
	lw	s6, 64(sp)
	lw	s7, 60(sp)
	.cfi_restore ra
	.cfi_restore s0
	.cfi_restore s1
	.cfi_restore s2
	.cfi_restore s3
	.cfi_restore s4
	.cfi_restore s5
	.cfi_restore s6
	.cfi_restore s7
	addi	sp, sp, 96
	.cfi_def_cfa_offset 0
	ret
.LBB186_15:
	.cfi_restore_state
	mv	a0, a1
	mv	a1, a2
	mv	a2, a4
	mv	a3, a5
	lw	ra, 92(sp)
	lw	s0, 88(sp)
	lw	s1, 84(sp)
	lw	s2, 80(sp)
	lw	s3, 76(sp)
	lw	s4, 72(sp)
	lw	s5, 68(sp)
	lw	s6, 64(sp)
	lw	s7, 60(sp)
	.cfi_restore ra
	.cfi_restore s0
	.cfi_restore s1
	.cfi_restore s2
	.cfi_restore s3
	.cfi_restore s4
	.cfi_restore s5
	.cfi_restore s6
	.cfi_restore s7
	addi	sp, sp, 96
	.cfi_def_cfa_offset 0
	tail	ic_raw.search.refusal
.Lfunc_end186:
	.size	ic_tree_lower_bound, .Lfunc_end186-ic_tree_lower_bound
	.cfi_endproc
	.section	.text.ic_tree_next,"ax",@progbits
	.globl	ic_tree_next
	.p2align	1
	.type	ic_tree_next,@function
ic_tree_next:
	.cfi_startproc
	addi	sp, sp, -16
	.cfi_def_cfa_offset 16
	sw	s0, 12(sp)
	sw	s1, 8(sp)
	.cfi_offset s0, -4
	.cfi_offset s1, -8
	.cfi_remember_state
	mv	a6, a5
	seqz	a7, a0
	lw	t2, 0(a3)
	lw	a3, 4(a3)
	addi	a5, a4, 1
	slli	a7, a7, 12
	add	a0, a0, a7
	andi	t0, a3, 15
	andi	a7, t2, -8
	bnez	a5, .LBB187_2
	li	a5, 1
	mv	a3, a7
	mv	a4, t0
	lw	s0, 12(sp)
	lw	s1, 8(sp)
	.cfi_restore s0
	.cfi_restore s1
	addi	sp, sp, 16
	.cfi_def_cfa_offset 0
	tail	ic_raw.tree.step_from_none
.LBB187_2:
	.cfi_restore_state
	.cfi_remember_state
	srli	a4, a5, 29
	sltu	t1, a1, a5
	seqz	a3, a2
	and	t1, a3, t1
	slli	a3, a5, 3
	bnez	t1, .LBB187_18
	slli	t1, a5, 3
	slli	a5, a5, 4
	add	a5, a5, t1
	add	t1, a0, a5
	lbu	a5, -24(t1)
	andi	a5, a5, 1
	beqz	a5, .LBB187_18
	srli	t3, a1, 29
	slli	t4, a2, 3
	seqz	a5, a7
	or	t3, t4, t3
	sub	a5, t0, a5
	slli	t0, a1, 3
	beq	a5, t3, .LBB187_6
	sltu	a5, a5, t3
	bnez	a5, .LBB187_7
	j	.LBB187_18
.LBB187_6:
	addi	a5, a7, -1
	sltu	a5, a5, t0
	beqz	a5, .LBB187_18
.LBB187_7:
	slli	t2, t2, 1
	andi	a5, t2, -16
	add	a5, a5, a7
	add	a5, a5, a0
	lbu	a5, -24(a5)
	andi	a5, a5, 1
	beqz	a5, .LBB187_18
	lw	t4, -12(t1)
	lw	t5, -16(t1)
	li	a7, 15
	li	t2, -8
	and	a1, t4, a7
	and	a5, t5, t2
	seqz	a2, a5
	sub	a1, a1, a2
	beq	a1, t3, .LBB187_12
	sltu	a5, a1, t3
	bnez	a5, .LBB187_13
.LBB187_10:
	lw	a1, -4(t1)
	lw	a2, -8(t1)
	and	t4, a1, a7
	and	a5, a2, t2
	seqz	a1, a5
	sub	a1, t4, a1
	beq	a1, t3, .LBB187_19
	sltu	a1, a1, t3
	j	.LBB187_20
.LBB187_12:
	addi	a5, a5, -1
	sltu	a5, a5, t0
	beqz	a5, .LBB187_10
.LBB187_13:
	srli	a1, t5, 3
	slli	t4, t4, 29
	or	a1, a1, t4
	li	a2, 67
	j	.LBB187_16
.LBB187_14:
	addi	a5, a5, -1
	sltu	a5, a5, t0
	beqz	a5, .LBB187_29
.LBB187_15:
	srli	a5, t4, 3
	slli	a4, t5, 29
	addi	a2, a2, -1
	or	a1, a5, a4
	beqz	a2, .LBB187_28
.LBB187_16:
	slli	t1, a1, 3
	slli	a3, a1, 4
	add	t1, t1, a3
	add	a3, a0, t1
	lw	t5, -20(a3)
	lw	t4, -24(a3)
	and	a3, t5, a7
	and	a5, t4, t2
	seqz	a4, a5
	sub	a3, a3, a4
	beq	a3, t3, .LBB187_14
	sltu	a5, a3, t3
	bnez	a5, .LBB187_15
	j	.LBB187_29
.LBB187_18:
	lw	s0, 12(sp)
	lw	s1, 8(sp)
	.cfi_restore s0
	.cfi_restore s1
	addi	sp, sp, 16
	.cfi_def_cfa_offset 0
	tail	ic_raw.table.RawTable.refusal_of.19bacce014a8892a
.LBB187_19:
	.cfi_restore_state
	.cfi_remember_state
	addi	a1, a5, -1
	sltu	a1, a1, t0
.LBB187_20:
	beqz	a1, .LBB187_27
	li	a2, -67
	j	.LBB187_23
.LBB187_22:
	sltu	a1, a1, t3
	addi	a2, a2, 1
	beqz	a1, .LBB187_27
.LBB187_23:
	mv	t5, a3
	mv	a3, a5
	srli	t6, a5, 3
	andi	t1, a5, -8
	slli	a5, t6, 4
	add	t1, t1, a5
	add	a5, a0, t1
	lw	a1, -16(a5)
	lw	s0, -12(a5)
	and	s1, a1, t2
	and	s0, s0, a7
	xor	s0, s0, a4
	slli	a1, t4, 29
	xor	s1, s1, t5
	or	s0, s0, s1
	or	a1, t6, a1
	bnez	s0, .LBB187_29
	beqz	a2, .LBB187_29
	mv	a4, t4
	lw	a1, -4(a5)
	lw	a5, -8(a5)
	and	t4, a1, a7
	and	a5, a5, t2
	seqz	a1, a5
	sub	a1, t4, a1
	bne	a1, t3, .LBB187_22
	addi	a1, a5, -1
	sltu	a1, a1, t0
	addi	a2, a2, 1
	bnez	a1, .LBB187_23
.LBB187_27:
	li	a0, 0
	lw	s0, 12(sp)
	lw	s1, 8(sp)
	.cfi_restore s0
	.cfi_restore s1
	addi	sp, sp, 16
	.cfi_def_cfa_offset 0
	tail	ic_raw.tree.nothing_found
.LBB187_28:
	.cfi_restore_state
	.cfi_remember_state
	or	a1, a5, a4
	andi	t1, t4, -8
	slli	a5, a5, 4
	add	t1, t1, a5
.LBB187_29:
	add	a0, a0, t1
	lbu	a0, -24(a0)
	andi	a0, a0, 1
	beqz	a0, .LBB187_31
	addi	a1, a1, -1
	sw	a1, 0(a6)
	li	a0, 0
	lw	s0, 12(sp)
	lw	s1, 8(sp)
	.cfi_restore s0
	.cfi_restore s1
	addi	sp, sp, 16
	.cfi_def_cfa_offset 0
	ret
.LBB187_31:
	.cfi_restore_state
	li	a0, 1
	lw	s0, 12(sp)
	lw	s1, 8(sp)
	.cfi_restore s0
	.cfi_restore s1
	addi	sp, sp, 16
	.cfi_def_cfa_offset 0
	tail	ic_raw.tree.nothing_found
.Lfunc_end187:
	.size	ic_tree_next, .Lfunc_end187-ic_tree_next
	.cfi_endproc
	.section	.text.ic_tree_prev,"ax",@progbits
	.globl	ic_tree_prev
	.p2align	1
	.type	ic_tree_prev,@function
ic_tree_prev:
	.cfi_startproc
	addi	sp, sp, -16
	.cfi_def_cfa_offset 16
	sw	s0, 12(sp)
	sw	s1, 8(sp)
	.cfi_offset s0, -4
	.cfi_offset s1, -8
	.cfi_remember_state
	mv	a6, a5
	seqz	a7, a0
	lw	t2, 0(a3)
	lw	a3, 4(a3)
	addi	a5, a4, 1
	slli	a7, a7, 12
	add	a0, a0, a7
	andi	a7, a3, 15
	andi	t0, t2, -8
	bnez	a5, .LBB188_2
	mv	a3, t0
	mv	a4, a7
	lw	s0, 12(sp)
	lw	s1, 8(sp)
	.cfi_restore s0
	.cfi_restore s1
	addi	sp, sp, 16
	.cfi_def_cfa_offset 0
	tail	ic_raw.tree.step_from_none
.LBB188_2:
	.cfi_restore_state
	.cfi_remember_state
	srli	a4, a5, 29
	sltu	t1, a1, a5
	seqz	a3, a2
	and	t1, a3, t1
	slli	a3, a5, 3
	bnez	t1, .LBB188_21
	slli	t1, a5, 3
	slli	a5, a5, 4
	add	a5, a5, t1
	add	t1, a0, a5
	lw	t3, -24(t1)
	andi	a5, t3, 1
	beqz	a5, .LBB188_21
	srli	t4, a1, 29
	slli	t5, a2, 3
	seqz	a5, t0
	or	t4, t5, t4
	sub	a5, a7, a5
	slli	a7, a1, 3
	beq	a5, t4, .LBB188_6
	sltu	a5, a5, t4
	bnez	a5, .LBB188_7
	j	.LBB188_21
.LBB188_6:
	addi	a5, t0, -1
	sltu	a5, a5, a7
	beqz	a5, .LBB188_21
.LBB188_7:
	slli	t2, t2, 1
	andi	a5, t2, -16
	add	a5, a5, t0
	add	a5, a5, a0
	lbu	a5, -24(a5)
	andi	a5, a5, 1
	beqz	a5, .LBB188_21
	lw	t5, -20(t1)
	li	t0, 15
	li	t2, -8
	and	a2, t3, t2
	and	a5, t5, t0
	seqz	a1, a2
	sub	a5, a5, a1
	beq	a5, t4, .LBB188_12
	sltu	a2, a5, t4
	bnez	a2, .LBB188_13
.LBB188_10:
	lw	a1, -4(t1)
	lw	a2, -8(t1)
	and	t3, a1, t0
	and	a5, a2, t2
	seqz	a1, a5
	sub	a1, t3, a1
	beq	a1, t4, .LBB188_22
	sltu	a1, a1, t4
	j	.LBB188_23
.LBB188_12:
	addi	a2, a2, -1
	sltu	a2, a2, a7
	beqz	a2, .LBB188_10
.LBB188_13:
	srli	a1, t3, 3
	slli	t5, t5, 29
	or	a1, a1, t5
	li	a2, 67
.LBB188_14:
	slli	t1, a1, 3
	slli	a3, a1, 4
	add	t1, t1, a3
	add	a3, a0, t1
	lw	t5, -12(a3)
	lw	t3, -16(a3)
	and	a3, t5, t0
	and	a5, t3, t2
	seqz	a4, a5
	sub	a3, a3, a4
	beq	a3, t4, .LBB188_16
	sltu	a5, a3, t4
	bnez	a5, .LBB188_17
	j	.LBB188_19
.LBB188_16:
	addi	a5, a5, -1
	sltu	a5, a5, a7
	beqz	a5, .LBB188_19
.LBB188_17:
	srli	a5, t3, 3
	slli	a4, t5, 29
	addi	a2, a2, -1
	or	a1, a5, a4
	bnez	a2, .LBB188_14
	or	a1, a5, a4
	andi	t1, t3, -8
	slli	a5, a5, 4
	add	t1, t1, a5
.LBB188_19:
	add	a0, a0, t1
	lbu	a0, -24(a0)
	andi	a0, a0, 1
	beqz	a0, .LBB188_31
	addi	a1, a1, -1
	sw	a1, 0(a6)
	li	a0, 0
	lw	s0, 12(sp)
	lw	s1, 8(sp)
	.cfi_restore s0
	.cfi_restore s1
	addi	sp, sp, 16
	.cfi_def_cfa_offset 0
	ret
.LBB188_21:
	.cfi_restore_state
	.cfi_remember_state
	lw	s0, 12(sp)
	lw	s1, 8(sp)
	.cfi_restore s0
	.cfi_restore s1
	addi	sp, sp, 16
	.cfi_def_cfa_offset 0
	tail	ic_raw.table.RawTable.refusal_of.19bacce014a8892a
.LBB188_22:
	.cfi_restore_state
	.cfi_remember_state
	addi	a1, a5, -1
	sltu	a1, a1, a7
.LBB188_23:
	beqz	a1, .LBB188_30
	li	a2, -67
	j	.LBB188_26
.LBB188_25:
	sltu	a1, a1, t4
	addi	a2, a2, 1
	beqz	a1, .LBB188_30
.LBB188_26:
	mv	t5, a3
	mv	a3, a5
	srli	t6, a5, 3
	andi	t1, a5, -8
	slli	a5, t6, 4
	add	t1, t1, a5
	add	a5, a0, t1
	lw	a1, -24(a5)
	lw	s0, -20(a5)
	and	s1, a1, t2
	and	s0, s0, t0
	xor	s0, s0, a4
	slli	a1, t3, 29
	xor	s1, s1, t5
	or	s0, s0, s1
	or	a1, t6, a1
	bnez	s0, .LBB188_19
	beqz	a2, .LBB188_19
	mv	a4, t3
	lw	a1, -4(a5)
	lw	a5, -8(a5)
	and	t3, a1, t0
	and	a5, a5, t2
	seqz	a1, a5
	sub	a1, t3, a1
	bne	a1, t4, .LBB188_25
	addi	a1, a5, -1
	sltu	a1, a1, a7
	addi	a2, a2, 1
	bnez	a1, .LBB188_26
.LBB188_30:
	li	a0, 0
	lw	s0, 12(sp)
	lw	s1, 8(sp)
	.cfi_restore s0
	.cfi_restore s1
	addi	sp, sp, 16
	.cfi_def_cfa_offset 0
	tail	ic_raw.tree.nothing_found
.LBB188_31:
	.cfi_restore_state
	li	a0, 1
	lw	s0, 12(sp)
	lw	s1, 8(sp)
	.cfi_restore s0
	.cfi_restore s1
	addi	sp, sp, 16
	.cfi_def_cfa_offset 0
	tail	ic_raw.tree.nothing_found
.Lfunc_end188:
	.size	ic_tree_prev, .Lfunc_end188-ic_tree_prev
	.cfi_endproc
	.section	.text.ic_tree_remove,"ax",@progbits
	.globl	ic_tree_remove
	.p2align	1
	.type	ic_tree_remove,@function
ic_tree_remove:
	.cfi_startproc
	seqz	a5, a0
	slli	a5, a5, 12
	add	a0, a0, a5
	tail	ic_raw.tree_calls.remove
.Lfunc_end189:
	.size	ic_tree_remove, .Lfunc_end189-ic_tree_remove
	.cfi_endproc
	.section	.text.ic_tree_replace,"ax",@progbits
	.globl	ic_tree_replace
	.p2align	1
	.type	ic_tree_replace,@function
ic_tree_replace:
	.cfi_startproc
	addi	a6, a4, 1
	bnez	a6, .LBB190_2
	li	a0, 4
	ret
.LBB190_2:
	addi	sp, sp, -64
	.cfi_def_cfa_offset 64
	sw	ra, 60(sp)
	sw	s0, 56(sp)
	sw	s1, 52(sp)
	sw	s2, 48(sp)
	sw	s3, 44(sp)
	sw	s4, 40(sp)
	sw	s5, 36(sp)
	.cfi_offset ra, -4
	.cfi_offset s0, -8
	.cfi_offset s1, -12
	.cfi_offset s2, -16
	.cfi_offset s3, -20
	.cfi_offset s4, -24
	.cfi_offset s5, -28
	seqz	t1, a0
	lw	t0, 0(a3)
	lw	t2, 4(a3)
	sltu	s1, a1, a6
	seqz	a7, a2
	slli	t1, t1, 12
	and	s0, a7, s1
	add	t3, a0, t1
	sw	t3, 16(sp)
	sw	zero, 20(sp)
	sw	a1, 24(sp)
	sw	a2, 28(sp)
	andi	a0, t0, -8
	andi	t1, t2, 15
	sw	a0, 8(sp)
	sw	t1, 12(sp)
	bnez	s0, .LBB190_13
	slli	s2, a6, 3
	slli	s0, a6, 4
	add	s0, s0, s2
	add	s5, t3, s0
	lbu	s0, -24(s5)
	andi	s0, s0, 1
	beqz	s0, .LBB190_13
	srli	s0, a1, 29
	slli	a2, a2, 3
	or	a2, a2, s0
	seqz	s0, a0
	sub	s0, t1, s0
	beq	s0, a2, .LBB190_6
	sltu	a2, s0, a2
	bnez	a2, .LBB190_7
	j	.LBB190_13
.LBB190_6:
	slli	a2, a1, 3
	addi	s1, a0, -1
	sltu	a2, s1, a2
	beqz	a2, .LBB190_13
.LBB190_7:
	slli	t0, t0, 1
	andi	a2, t0, -16
	add	a2, a2, a0
	add	a2, a2, t3
	lbu	a2, -24(a2)
	andi	a2, a2, 1
	beqz	a2, .LBB190_13
	addi	a2, a5, 1
	sltu	a1, a1, a2
	and	a1, a7, a1
	bnez	a1, .LBB190_13
	beqz	a2, .LBB190_13
	srli	s4, a6, 29
	li	a6, 15
	li	a7, -8
	lw	s0, -8(s5)
	lw	a1, -4(s5)
	xor	a0, a0, s2
	xor	s1, t1, s4
	or	a0, a0, s1
	and	a1, a1, a6
	and	s1, s0, a7
	or	a1, a1, s1
	seqz	a1, a1
	snez	a0, a0
	and	a0, a0, a1
	bnez	a0, .LBB190_13
	slli	s0, a2, 3
	slli	a0, a2, 4
	add	a0, a0, s0
	add	a0, a0, t3
	lbu	a1, -24(a0)
	andi	a1, a1, 1
	bnez	a1, .LBB190_13
	srli	s3, a2, 29
	sb	zero, -20(a0)
	sb	zero, -19(a0)
	sb	zero, -18(a0)
	sb	zero, -17(a0)
	li	a1, 1
	sb	a1, -24(a0)
	sb	zero, -23(a0)
	sb	zero, -22(a0)
	sb	zero, -21(a0)
	addi	a0, a0, -16
	li	a2, 16
	li	a1, 0
	mv	s1, a3
	li	a3, 0
	li	a4, 0
	call	ic.clear
	addi	a0, sp, 16
	addi	a1, sp, 8
	mv	a2, s2
	mv	a3, s4
	mv	a4, s0
	mv	a5, s3
	call	ic_rbtree.repair.writers.take_place.b5b364724df62b0f
	li	a0, 0
	lw	a1, 8(sp)
	lw	a2, 12(sp)
	sw	zero, -24(s5)
	sw	zero, -20(s5)
	sw	a1, 0(s1)
	sw	a2, 4(s1)
	j	.LBB190_14
.LBB190_13:
	addi	a0, sp, 16
	mv	a1, a4
	mv	a2, a5
	call	ic_raw.table.RawTable.refusal.19bacce014a8892a
.LBB190_14:
	lw	ra, 60(sp)
	lw	s0, 56(sp)
	lw	s1, 52(sp)
	lw	s2, 48(sp)
	lw	s3, 44(sp)
	lw	s4, 40(sp)
	lw	s5, 36(sp)
	.cfi_restore ra
	.cfi_restore s0
	.cfi_restore s1
	.cfi_restore s2
	.cfi_restore s3
	.cfi_restore s4
	.cfi_restore s5
	addi	sp, sp, 64
	.cfi_def_cfa_offset 0
	ret
.Lfunc_end190:
	.size	ic_tree_replace, .Lfunc_end190-ic_tree_replace
	.cfi_endproc
	.section	.text.ic_tree_split,"ax",@progbits
	.globl	ic_tree_split
	.p2align	1
	.type	ic_tree_split,@function
ic_tree_split:
	.cfi_startproc
	addi	sp, sp, -176
	.cfi_def_cfa_offset 176
	sw	ra, 172(sp)
	sw	s0, 168(sp)
	sw	s1, 164(sp)
	sw	s2, 160(sp)
	sw	s3, 156(sp)
	sw	s4, 152(sp)
	sw	s5, 148(sp)
	sw	s6, 144(sp)
	sw	s7, 140(sp)
	sw	s8, 136(sp)
	sw	s9, 132(sp)
	sw	s10, 128(sp)
	sw	s11, 124(sp)
	.cfi_offset ra, -4
	.cfi_offset s0, -8
	.cfi_offset s1, -12
	.cfi_offset s2, -16
	.cfi_offset s3, -20
	.cfi_offset s4, -24
	.cfi_offset s5, -28
	.cfi_offset s6, -32
	.cfi_offset s7, -36
	.cfi_offset s8, -40
	.cfi_offset s9, -44
	.cfi_offset s10, -48
	.cfi_offset s11, -52
	addi	s0, a4, 1
	bnez	s0, .LBB191_2
	li	a0, 4
	j	.LBB191_46
.LBB191_2:
	sltu	a4, a1, s0
	seqz	s1, a2
	and	a4, a4, s1
	beqz	a4, .LBB191_4
	li	a0, 1
	j	.LBB191_46
.LBB191_4:
	seqz	a4, a0
	slli	s1, s0, 3
	slli	a4, a4, 12
	add	a0, a0, a4
	slli	a4, s0, 4
	add	s4, a4, s1
	add	a4, a0, s4
	lbu	a4, -24(a4)
	andi	a4, a4, 1
	bnez	a4, .LBB191_6
	li	a0, 3
	j	.LBB191_46
.LBB191_6:
	lw	a4, 0(a5)
	lw	s1, 4(a5)
	sw	a0, 32(sp)
	sw	zero, 36(sp)
	sw	a1, 40(sp)
	sw	a2, 44(sp)
	andi	s1, s1, 15
	andi	a4, a4, -8
	or	a4, a4, s1
	li	a0, 5
	bnez	a4, .LBB191_46
	sw	a5, 28(sp)
	lw	a0, 4(a3)
	sw	a3, 24(sp)
	lw	a1, 0(a3)
	andi	s2, a0, 15
	andi	s3, a1, -8
	or	a0, s3, s2
	snez	a2, a0
	addi	a0, sp, 96
	addi	a1, sp, 32
	li	t3, 66
	mv	a3, s3
	mv	a4, s2
	li	a5, 0
	li	a6, 0
	li	a7, 0
	call	ic_check.tree.check_below.ffc36cde30076884
	lbu	a1, 96(sp)
	li	a0, 1
	bne	a1, a0, .LBB191_24
	lbu	a1, 116(sp)
	bne	a1, a0, .LBB191_24
	lw	t2, 32(sp)
	srli	a5, s0, 29
	add	t0, t2, s4
	lw	a0, -8(t0)
	lw	a1, -4(t0)
	slli	a4, s0, 3
	li	s4, 15
	li	s5, -8
	and	s0, a1, s4
	and	a3, a0, s5
	or	a1, a3, s0
	mv	t4, a4
	mv	t5, a5
	lw	a6, 28(sp)
	lw	a7, 24(sp)
	li	a0, 5
	beqz	a1, .LBB191_20
	li	a2, 0
	li	s7, 0
	lw	t1, 40(sp)
	lw	t3, 44(sp)
	mv	t6, a4
	mv	s6, a5
.LBB191_11:
	mv	t5, s0
	mv	t4, a3
	srli	s1, a3, 3
	slli	a3, s0, 29
	srli	s0, s0, 3
	or	a3, a3, s1
	beq	s0, t3, .LBB191_13
	sltu	s0, t3, s0
	j	.LBB191_14
.LBB191_13:
	sltu	s0, t1, a3
.LBB191_14:
	bnez	s0, .LBB191_46
	slli	s0, a3, 3
	slli	a3, a3, 4
	add	a3, a3, s0
	add	s0, t2, a3
	lw	a3, -24(s0)
	andi	s1, a3, 1
	beqz	s1, .LBB191_46
	lw	s1, -20(s0)
	and	a3, a3, s5
	and	s1, s1, s4
	xor	a3, a3, t6
	xor	s1, s1, s6
	or	a3, a3, s1
	beqz	a3, .LBB191_18
	lw	a3, -16(s0)
	lw	s1, -12(s0)
	and	a3, a3, s5
	and	s1, s1, s4
	xor	s1, s1, s6
	xor	a3, a3, t6
	or	a3, a3, s1
	bnez	a3, .LBB191_46
.LBB191_18:
	sltiu	a3, a2, 65
	seqz	s1, s7
	and	a3, a3, s1
	beqz	a3, .LBB191_46
	lw	a3, -4(s0)
	lw	s1, -8(s0)
	addi	a2, a2, 1
	seqz	a1, a2
	and	s0, a3, s4
	and	a3, s1, s5
	or	s1, a3, s0
	add	s7, s7, a1
	mv	t6, t4
	mv	s6, t5
	bnez	s1, .LBB191_11
.LBB191_20:
	xor	a1, s3, t4
	xor	a2, s2, t5
	or	a1, a1, a2
	bnez	a1, .LBB191_46
	lw	a0, -20(t0)
	lw	a1, -24(t0)
	and	a0, a0, s4
	and	a1, a1, s5
	or	a2, a1, a0
	beqz	a2, .LBB191_25
.LBB191_22:
	mv	a4, a1
	andi	a1, a1, -8
	slli	a2, a4, 1
	andi	a2, a2, -16
	add	a1, a1, a2
	add	a1, a1, t2
	lw	a2, -12(a1)
	lw	a1, -16(a1)
	mv	a5, a0
	and	a0, a2, s4
	and	a1, a1, s5
	or	a2, a1, a0
	bnez	a2, .LBB191_22
	li	a0, 1
	j	.LBB191_26
.LBB191_24:
	li	a0, 5
	j	.LBB191_46
.LBB191_25:
	li	a0, 0
.LBB191_26:
	li	s8, 0
	li	t0, 0
	sw	zero, 8(sp)
	sw	zero, 20(sp)
	sw	zero, 16(sp)
	sw	zero, 12(sp)
	li	t3, 0
	li	s10, 0
	li	t2, 0
	li	a1, 1
	li	s7, 67
	j	.LBB191_30
.LBB191_27:
	addi	a0, sp, 48
	addi	a1, sp, 32
	addi	a2, sp, 72
	addi	a6, sp, 96
	li	a3, 0
.LBB191_28:
	call	ic_rbtree.join.roots.join_higher.f4da04d8a93b4f27
	lbu	t0, 48(sp)
	lw	s10, 56(sp)
	lw	t2, 60(sp)
	lw	t3, 64(sp)
	lw	a6, 28(sp)
	lw	a7, 24(sp)
.LBB191_29:
	snez	a1, s9
	andi	a0, s3, 1
	addi	s7, s7, -1
	add	s8, s8, a0
	mv	a0, s6
	mv	a4, s2
	mv	a5, s11
	beqz	s7, .LBB191_45
.LBB191_30:
	andi	a1, a1, 1
	beqz	a1, .LBB191_45
	lw	a3, 32(sp)
	andi	a1, a4, -8
	slli	a2, a4, 1
	andi	a2, a2, -16
	add	a1, a1, a2
	add	a1, a1, a3
	lw	a2, -4(a1)
	lw	s3, -8(a1)
	and	s11, a2, s4
	and	s2, s3, s5
	or	s9, s2, s11
	beqz	s9, .LBB191_34
	andi	a2, s3, -8
	slli	s1, s3, 1
	andi	s1, s1, -16
	add	a2, a2, a3
	add	a2, a2, s1
	lw	s1, -24(a2)
	lw	a2, -20(a2)
	and	s1, s1, s5
	and	a2, a2, s4
	xor	a2, a2, a5
	xor	s1, s1, a4
	or	a2, a2, s1
	snez	s6, a2
	zext.b	s1, a0
	beqz	s1, .LBB191_35
.LBB191_33:
	li	a0, -24
	j	.LBB191_36
.LBB191_34:
	li	s6, 0
	zext.b	s1, a0
	bnez	s1, .LBB191_33
.LBB191_35:
	li	a0, -16
.LBB191_36:
	add	a0, a0, a1
	lw	a1, 4(a0)
	lw	s0, 0(a0)
	and	a6, a1, s4
	and	a2, s0, s5
	or	a1, a2, a6
	mv	a0, s8
	beqz	a1, .LBB191_38
	andi	a0, s0, -8
	slli	s0, s0, 1
	andi	s0, s0, -16
	add	a0, a0, s0
	add	a3, a3, a0
	lw	s0, -8(a3)
	andi	s0, s0, 1
	sw	s0, -8(a3)
	sw	zero, -4(a3)
	lw	a3, 32(sp)
	add	a0, a0, a3
	lw	a3, -8(a0)
	sub	s0, s8, s0
	ori	a3, a3, 1
	sw	a3, -8(a0)
	addi	a0, s0, 1
.LBB191_38:
	snez	a3, a1
	beqz	s1, .LBB191_41
	sw	a0, 112(sp)
	sw	zero, 116(sp)
	sw	a3, 96(sp)
	sw	zero, 100(sp)
	sw	a2, 104(sp)
	sw	a6, 108(sp)
	sw	t3, 88(sp)
	sw	zero, 92(sp)
	sw	t0, 72(sp)
	sw	zero, 76(sp)
	sw	s10, 80(sp)
	sw	t2, 84(sp)
	sw	zero, 48(sp)
	sw	zero, 52(sp)
	sw	zero, 56(sp)
	sw	zero, 60(sp)
	sw	zero, 64(sp)
	sw	zero, 68(sp)
	bltu	a0, t3, .LBB191_27
	addi	a0, sp, 48
	addi	a1, sp, 32
	addi	a2, sp, 96
	li	a3, 1
	addi	a6, sp, 72
	j	.LBB191_28
.LBB191_41:
	sw	t3, 0(sp)
	sw	t2, 4(sp)
	mv	s0, t0
	lw	s1, 8(sp)
	sw	s1, 112(sp)
	sw	zero, 116(sp)
	lw	a1, 12(sp)
	sw	a1, 96(sp)
	sw	zero, 100(sp)
	lw	a1, 20(sp)
	sw	a1, 104(sp)
	lw	a1, 16(sp)
	sw	a1, 108(sp)
	sw	a0, 88(sp)
	sw	zero, 92(sp)
	sw	a3, 72(sp)
	sw	zero, 76(sp)
	sw	a2, 80(sp)
	sw	a6, 84(sp)
	sw	zero, 48(sp)
	sw	zero, 52(sp)
	sw	zero, 56(sp)
	sw	zero, 60(sp)
	sw	zero, 64(sp)
	sw	zero, 68(sp)
	bgeu	s1, a0, .LBB191_43
	addi	a0, sp, 48
	addi	a1, sp, 32
	addi	a2, sp, 72
	addi	a6, sp, 96
	li	a3, 0
	j	.LBB191_44
.LBB191_43:
	addi	a0, sp, 48
	addi	a1, sp, 32
	addi	a2, sp, 96
	li	a3, 1
	addi	a6, sp, 72
.LBB191_44:
	call	ic_rbtree.join.roots.join_higher.f4da04d8a93b4f27
	lbu	a0, 48(sp)
	sw	a0, 12(sp)
	lw	a0, 56(sp)
	sw	a0, 20(sp)
	lw	a0, 60(sp)
	sw	a0, 16(sp)
	lw	a0, 64(sp)
	sw	a0, 8(sp)
	lw	a6, 28(sp)
	lw	a7, 24(sp)
	mv	t0, s0
	lw	t2, 4(sp)
	lw	t3, 0(sp)
	j	.LBB191_29
.LBB191_45:
	li	a0, 0
	seqz	a1, t0
	addi	a1, a1, -1
	and	a2, a1, t2
	and	a1, a1, s10
	lw	a3, 12(sp)
	seqz	a3, a3
	addi	a3, a3, -1
	lw	a4, 16(sp)
	and	a4, a4, a3
	lw	a5, 20(sp)
	and	a3, a3, a5
	sw	a1, 0(a7)
	sw	a2, 4(a7)
	sw	a3, 0(a6)
	sw	a4, 4(a6)
.LBB191_46:
	lw	ra, 172(sp)
	lw	s0, 168(sp)
	lw	s1, 164(sp)
	lw	s2, 160(sp)
	lw	s3, 156(sp)
	lw	s4, 152(sp)
	lw	s5, 148(sp)
	lw	s6, 144(sp)
	lw	s7, 140(sp)
	lw	s8, 136(sp)
	lw	s9, 132(sp)
	lw	s10, 128(sp)
	lw	s11, 124(sp)
	.cfi_restore ra
	.cfi_restore s0
	.cfi_restore s1
	.cfi_restore s2
	.cfi_restore s3
	.cfi_restore s4
	.cfi_restore s5
	.cfi_restore s6
	.cfi_restore s7
	.cfi_restore s8
	.cfi_restore s9
	.cfi_restore s10
	.cfi_restore s11
	addi	sp, sp, 176
	.cfi_def_cfa_offset 0
	ret
.Lfunc_end191:
	.size	ic_tree_split, .Lfunc_end191-ic_tree_split
	.cfi_endproc
	.section	.text.ic_tree_sums_before,"ax",@progbits
	.globl	ic_tree_sums_before
	.p2align	1
	.type	ic_tree_sums_before,@function
ic_tree_sums_before:
	.cfi_startproc
	addi	sp, sp, -64
	.cfi_def_cfa_offset 64
	sw	ra, 60(sp)
	sw	s0, 56(sp)
	sw	s1, 52(sp)
	sw	s2, 48(sp)
	sw	s3, 44(sp)
	sw	s4, 40(sp)
	sw	s5, 36(sp)
	sw	s6, 32(sp)
	sw	s7, 28(sp)
	.cfi_offset ra, -4
	.cfi_offset s0, -8
	.cfi_offset s1, -12
	.cfi_offset s2, -16
	.cfi_offset s3, -20
	.cfi_offset s4, -24
	.cfi_offset s5, -28
	.cfi_offset s6, -32
	.cfi_offset s7, -36
	.cfi_remember_state
	seqz	s1, a0
	slli	t5, s1, 12
	add	t5, t5, a0
	addi	t3, a7, 1
	sw	t5, 8(sp)
	sw	zero, 12(sp)
	sw	a1, 16(sp)
	sw	a2, 20(sp)
	bnez	t3, .LBB192_2
	li	a0, 4
	j	.LBB192_50
.LBB192_2:
	beq	a5, a2, .LBB192_4
	sltu	s1, a5, a2
	j	.LBB192_5
.LBB192_4:
	sltu	s1, a4, a1
.LBB192_5:
	bnez	s1, .LBB192_51
	sltu	s1, a1, t3
	seqz	s0, a2
	and	s0, s0, s1
	bnez	s0, .LBB192_51
	slli	a0, t3, 3
	slli	s1, t3, 4
	add	a0, a0, s1
	add	s0, t5, a0
	lw	s1, -24(s0)
	andi	a0, s1, 1
	beqz	a0, .LBB192_51
	seqz	t1, a3
	lw	a0, -20(s0)
	andi	s1, s1, -8
	srli	s0, a1, 29
	slli	a2, a2, 3
	slli	t1, t1, 12
	or	t6, a2, s0
	andi	a2, a0, 15
	seqz	a0, s1
	sub	s0, a2, a0
	slli	t2, a1, 3
	beq	s0, t6, .LBB192_10
	sltu	a1, s0, t6
	add	t1, t1, a3
	bnez	a1, .LBB192_11
	j	.LBB192_13
.LBB192_10:
	addi	a0, s1, -1
	sltu	a1, a0, t2
	add	t1, t1, a3
	beqz	a1, .LBB192_13
.LBB192_11:
	srli	s1, s1, 3
	slli	a0, a2, 29
	or	a0, a0, s1
	srli	a2, a2, 3
	seqz	a1, a0
	sub	a2, a2, a1
	addi	a1, a0, -1
	beq	a2, a5, .LBB192_14
	sltu	a2, a2, a5
	bnez	a2, .LBB192_15
.LBB192_13:
	li	s2, 0
	li	s3, 0
	j	.LBB192_16
.LBB192_14:
	sltu	a2, a1, a4
	beqz	a2, .LBB192_13
.LBB192_15:
	slli	a1, a1, 4
	add	a1, a1, t1
	lw	s2, 8(a1)
	lw	s3, 12(a1)
.LBB192_16:
	lw	t0, 64(sp)
	srli	s5, t3, 29
	slli	s6, t3, 3
	li	t3, 15
	li	t4, -8
	li	s7, 67
	j	.LBB192_19
.LBB192_17:
	neg	a1, a2
	or	s3, a1, a0
	or	s2, a1, s2
.LBB192_18:
	addi	s7, s7, -1
	beqz	s7, .LBB192_51
.LBB192_19:
	mv	s0, s6
	andi	a0, s6, -8
	slli	a2, s6, 1
	andi	a2, a2, -16
	add	a0, a0, a2
	add	a0, a0, t5
	lw	a2, -4(a0)
	lw	a0, -8(a0)
	mv	s1, s5
	and	s5, a2, t3
	and	s6, a0, t4
	seqz	a0, s6
	sub	a0, s5, a0
	beq	a0, t6, .LBB192_21
	sltu	a0, a0, t6
	bnez	a0, .LBB192_22
	j	.LBB192_49
.LBB192_21:
	addi	a0, s6, -1
	sltu	a0, a0, t2
	beqz	a0, .LBB192_49
.LBB192_22:
	srli	a3, s6, 3
	andi	a2, s6, -8
	slli	a0, a3, 4
	add	a0, a0, a2
	add	a2, t5, a0
	lw	a0, -16(a2)
	lw	a1, -12(a2)
	and	a0, a0, t4
	and	a1, a1, t3
	xor	a1, a1, s1
	xor	a0, a0, s0
	or	a0, a0, a1
	bnez	a0, .LBB192_18
	slli	a0, s5, 29
	or	a0, a0, a3
	srli	a1, s5, 3
	seqz	a3, a0
	sub	s0, a1, a3
	addi	a0, a0, -1
	beq	s0, a5, .LBB192_28
	sltu	s0, s0, a5
	bnez	s0, .LBB192_29
.LBB192_25:
	li	s4, 0
	li	s1, 0
	beqz	a6, .LBB192_30
.LBB192_26:
	beq	s1, s3, .LBB192_33
	sltu	a0, s3, s1
	beqz	a0, .LBB192_34
	j	.LBB192_35
.LBB192_28:
	sltu	s0, a0, a4
	beqz	s0, .LBB192_25
.LBB192_29:
	slli	a0, a0, 4
	add	a0, a0, t1
	lw	s4, 0(a0)
	lw	s1, 4(a0)
	bnez	a6, .LBB192_26
.LBB192_30:
	add	s4, s4, s2
	sltu	s0, s4, s2
	add	a0, s3, s1
	add	a0, a0, s0
	beq	a0, s3, .LBB192_32
	sltu	s0, a0, s3
.LBB192_32:
	neg	a1, s0
	or	s1, a1, a0
	or	s4, a1, s4
	j	.LBB192_35
.LBB192_33:
	sltu	a0, s2, s4
	bnez	a0, .LBB192_35
.LBB192_34:
	mv	s1, s3
	mv	s4, s2
.LBB192_35:
	lw	a0, -20(a2)
	lw	a1, -24(a2)
	and	a2, a0, t3
	and	s0, a1, t4
	seqz	a0, s0
	sub	a0, a2, a0
	beq	a0, t6, .LBB192_37
	sltu	a0, a0, t6
	bnez	a0, .LBB192_38
	j	.LBB192_40
.LBB192_37:
	addi	a0, s0, -1
	sltu	a0, a0, t2
	beqz	a0, .LBB192_40
.LBB192_38:
	srli	s0, s0, 3
	slli	a0, a2, 29
	or	a0, a0, s0
	srli	a2, a2, 3
	seqz	a1, a0
	sub	a2, a2, a1
	addi	a0, a0, -1
	beq	a2, a5, .LBB192_45
	sltu	a2, a2, a5
	bnez	a2, .LBB192_46
.LBB192_40:
	li	s2, 0
	li	s3, 0
	beqz	a6, .LBB192_47
.LBB192_41:
	beq	s3, s1, .LBB192_43
	sltu	a0, s1, s3
	bnez	a0, .LBB192_18
	j	.LBB192_44
.LBB192_43:
	sltu	a0, s4, s2
	bnez	a0, .LBB192_18
.LBB192_44:
	mv	s3, s1
	mv	s2, s4
	j	.LBB192_18
.LBB192_45:
	sltu	a2, a0, a4
	beqz	a2, .LBB192_40
.LBB192_46:
	slli	a0, a0, 4
	add	a0, a0, t1
	lw	s2, 8(a0)
	lw	s3, 12(a0)
	bnez	a6, .LBB192_41
.LBB192_47:
	add	s2, s2, s4
	sltu	a2, s2, s4
	add	a0, s1, s3
	add	a0, a0, a2
	beq	a0, s1, .LBB192_17
	sltu	a2, a0, s1
	j	.LBB192_17
.LBB192_49:
	sw	s2, 0(t0)
	sw	s3, 4(t0)
.LBB192_50:
	lw	ra, 60(sp)
	lw	s0, 56(sp)
	lw	s1, 52(sp)
	lw	s2, 48(sp)
	lw	s3, 44(sp)
	lw	s4, 40(sp)
	lw	s5, 36(sp)
	lw	s6, 32(sp)
	lw	s7, 28(sp)
	.cfi_restore ra
	.cfi_restore s0
	.cfi_restore s1
	.cfi_restore s2
	.cfi_restore s3
	.cfi_restore s4
	.cfi_restore s5
	.cfi_restore s6
	.cfi_restore s7
	addi	sp, sp, 64
	.cfi_def_cfa_offset 0
	ret
.LBB192_51:
	.cfi_restore_state
	addi	a0, sp, 8
	mv	a1, a4
	mv	a2, a5
	mv	a3, a7
	call	ic_raw_augmented.sum_calls.refusal
	j	.LBB192_50
.Lfunc_end192:
	.size	ic_tree_sums_before, .Lfunc_end192-ic_tree_sums_before
	.cfi_endproc
	.section	.text.ic_tree_sums_find,"ax",@progbits
	.globl	ic_tree_sums_find
	.p2align	1
	.type	ic_tree_sums_find,@function
ic_tree_sums_find:
	.cfi_startproc
	addi	sp, sp, -80
	.cfi_def_cfa_offset 80
	sw	ra, 76(sp)
	sw	s0, 72(sp)
	sw	s1, 68(sp)
	sw	s2, 64(sp)
	sw	s3, 60(sp)
	sw	s4, 56(sp)
	sw	s5, 52(sp)
	sw	s6, 48(sp)
	.cfi_offset ra, -4
	.cfi_offset s0, -8
	.cfi_offset s1, -12
	.cfi_offset s2, -16
	.cfi_offset s3, -20
	.cfi_offset s4, -24
	.cfi_offset s5, -28
	.cfi_offset s6, -32
	mv	s4, a5
	mv	s3, a4
	mv	s1, a2
	mv	s5, a1
	seqz	a1, a0
	slli	a1, a1, 12
	add	s6, a0, a1
	lw	a1, 0(a7)
	lw	a2, 4(a7)
	sw	zero, 40(sp)
	sw	zero, 44(sp)
	sw	s6, 8(sp)
	sw	zero, 12(sp)
	sw	s5, 16(sp)
	sw	s1, 20(sp)
	sw	zero, 24(sp)
	sw	zero, 28(sp)
	sw	zero, 32(sp)
	sw	zero, 36(sp)
	beq	a5, s1, .LBB193_2
	sltu	a0, s4, s1
	lw	s2, 80(sp)
	beqz	a0, .LBB193_3
	j	.LBB193_19
.LBB193_2:
	sltu	a0, s3, s5
	lw	s2, 80(sp)
	bnez	a0, .LBB193_19
.LBB193_3:
	addi	a0, s2, 1
	slli	t5, a0, 3
	beqz	a0, .LBB193_6
	sltu	a4, s5, a0
	seqz	a5, s1
	and	a4, a4, a5
	bnez	a4, .LBB193_19
	slli	a4, a0, 4
	add	a4, a4, t5
	add	a4, a4, s6
	lbu	a4, -24(a4)
	andi	a4, a4, 1
	beqz	a4, .LBB193_19
.LBB193_6:
	andi	t3, a2, 15
	andi	a7, a1, -8
	or	a1, a7, t3
	snez	s0, a1
	beqz	s0, .LBB193_11
	srli	a1, a7, 3
	slli	a4, t3, 29
	srli	a2, t3, 3
	or	a1, a1, a4
	beq	a2, s1, .LBB193_9
	sltu	a2, s1, a2
	beqz	a2, .LBB193_10
	j	.LBB193_19
.LBB193_9:
	sltu	a2, s5, a1
	bnez	a2, .LBB193_19
.LBB193_10:
	slli	a2, a1, 3
	slli	a1, a1, 4
	add	a1, a1, a2
	add	a1, a1, s6
	lbu	a1, -24(a1)
	andi	a1, a1, 1
	beqz	a1, .LBB193_19
.LBB193_11:
	seqz	a1, a3
	lw	t0, 92(sp)
	lw	a4, 88(sp)
	snez	a5, a6
	slli	a1, a1, 12
	add	a2, a3, a1
	srli	t6, a0, 29
	snez	t4, a0
	addi	a0, sp, 24
	addi	a1, sp, 8
	sw	a4, 0(sp)
	sw	t0, 4(sp)
	mv	a3, s3
	mv	a4, s4
	mv	a6, s0
	call	ic_raw_augmented.find.find
	lbu	a1, 24(sp)
	li	a0, 1
	bne	a1, a0, .LBB193_19
	lbu	a1, 32(sp)
	bne	a1, a0, .LBB193_15
	lw	a0, 44(sp)
	lw	a1, 40(sp)
	slli	a2, a0, 29
	srli	a1, a1, 3
	srli	a0, a0, 3
	or	a1, a1, a2
	beq	a0, s1, .LBB193_16
	sltu	a0, s1, a0
	beqz	a0, .LBB193_17
	j	.LBB193_19
.LBB193_15:
	li	a0, 4
	j	.LBB193_20
.LBB193_16:
	sltu	a0, s5, a1
	bnez	a0, .LBB193_19
.LBB193_17:
	slli	a0, a1, 3
	slli	a2, a1, 4
	add	a0, a0, a2
	add	a0, a0, s6
	lbu	a0, -24(a0)
	andi	a0, a0, 1
	beqz	a0, .LBB193_19
	li	a0, 0
	lw	a2, 96(sp)
	addi	a1, a1, -1
	sw	a1, 0(a2)
	j	.LBB193_20
.LBB193_19:
	addi	a0, sp, 8
	mv	a1, s3
	mv	a2, s4
	mv	a3, s2
	call	ic_raw_augmented.sum_calls.refusal
.LBB193_20:
	lw	ra, 76(sp)
	lw	s0, 72(sp)
	lw	s1, 68(sp)
	lw	s2, 64(sp)
	lw	s3, 60(sp)
	lw	s4, 56(sp)
	lw	s5, 52(sp)
	lw	s6, 48(sp)
	.cfi_restore ra
	.cfi_restore s0
	.cfi_restore s1
	.cfi_restore s2
	.cfi_restore s3
	.cfi_restore s4
	.cfi_restore s5
	.cfi_restore s6
	addi	sp, sp, 80
	.cfi_def_cfa_offset 0
	ret
.Lfunc_end193:
	.size	ic_tree_sums_find, .Lfunc_end193-ic_tree_sums_find
	.cfi_endproc
	.section	.text.ic_tree_sums_insert,"ax",@progbits
	.globl	ic_tree_sums_insert
	.p2align	1
	.type	ic_tree_sums_insert,@function
ic_tree_sums_insert:
	.cfi_startproc
	addi	sp, sp, -272
	.cfi_def_cfa_offset 272
	sw	ra, 268(sp)
	sw	s0, 264(sp)
	sw	s1, 260(sp)
	sw	s2, 256(sp)
	sw	s3, 252(sp)
	sw	s4, 248(sp)
	sw	s5, 244(sp)
	sw	s6, 240(sp)
	sw	s7, 236(sp)
	sw	s8, 232(sp)
	sw	s9, 228(sp)
	sw	s10, 224(sp)
	sw	s11, 220(sp)
	.cfi_offset ra, -4
	.cfi_offset s0, -8
	.cfi_offset s1, -12
	.cfi_offset s2, -16
	.cfi_offset s3, -20
	.cfi_offset s4, -24
	.cfi_offset s5, -28
	.cfi_offset s6, -32
	.cfi_offset s7, -36
	.cfi_offset s8, -40
	.cfi_offset s9, -44
	.cfi_offset s10, -48
	.cfi_offset s11, -52
	mv	s10, a6
	mv	s11, a3
	mv	s1, a2
	mv	s6, a1
	lw	a1, 272(sp)
	beq	a1, a2, .LBB194_4
	sltu	a1, a1, s1
	bnez	a1, .LBB194_5
.LBB194_2:
	sw	a4, 8(sp)
	sw	a7, 16(sp)
	seqz	a1, a0
	seqz	s3, s10
	lw	s8, 284(sp)
	sw	a5, 20(sp)
	lw	s0, 280(sp)
	slli	a1, a1, 12
	slli	s3, s3, 12
	add	s4, a0, a1
	addi	s8, s8, 1
	slli	s5, s8, 3
	srli	a0, s8, 29
	snez	s7, s8
	sw	s5, 24(sp)
	sw	a0, 4(sp)
	sw	a0, 28(sp)
	addi	a0, sp, 32
	li	a2, 104
	li	a1, 0
	li	a3, 0
	li	a4, 0
	call	ic.clear
	sw	s7, 136(sp)
	sw	zero, 140(sp)
	sw	zero, 144(sp)
	sw	zero, 148(sp)
	lw	a0, 0(s0)
	lw	a1, 4(s0)
	lw	s0, 20(sp)
	sw	s4, 160(sp)
	sw	zero, 164(sp)
	sw	s6, 168(sp)
	sw	s1, 172(sp)
	andi	s9, a0, -8
	andi	s2, a1, 15
	sw	s9, 152(sp)
	sw	s2, 156(sp)
	addi	a0, sp, 176
	li	a2, 40
	li	a1, 0
	li	a3, 0
	li	a4, 0
	call	ic.clear
	beq	s0, s1, .LBB194_6
	sltu	a0, s0, s1
	add	s3, s3, s10
	sw	s3, 12(sp)
	lw	a1, 276(sp)
	snez	s3, a1
	beqz	a0, .LBB194_7
	j	.LBB194_21
.LBB194_4:
	sltu	a1, a7, s6
	beqz	a1, .LBB194_2
.LBB194_5:
	li	s0, 1
	j	.LBB194_23
.LBB194_6:
	lw	a0, 8(sp)
	sltu	a0, a0, s6
	add	s3, s3, s10
	sw	s3, 12(sp)
	lw	a1, 276(sp)
	snez	s3, a1
	bnez	a0, .LBB194_21
.LBB194_7:
	or	s10, s9, s2
	beqz	s10, .LBB194_13
	srli	a0, s9, 3
	slli	a2, s2, 29
	srli	a1, s2, 3
	or	a0, a0, a2
	beq	a1, s1, .LBB194_10
	sltu	a1, s1, a1
	j	.LBB194_11
.LBB194_10:
	sltu	a1, s6, a0
.LBB194_11:
	bnez	a1, .LBB194_21
	slli	a1, a0, 3
	slli	a0, a0, 4
	add	a0, a0, a1
	add	a0, a0, s4
	lbu	a0, -24(a0)
	snez	s0, s8
	and	s7, s0, a0
.LBB194_13:
	sltu	a0, s6, s8
	seqz	a1, s1
	and	a0, a0, a1
	bnez	a0, .LBB194_21
	beqz	s7, .LBB194_21
	seqz	a0, s11
	slli	a0, a0, 12
	add	a4, s11, a0
	add	a0, a4, s5
	lw	a5, -8(a0)
	lw	a6, -4(a0)
	addi	a0, sp, 176
	addi	a1, sp, 160
	li	a7, 1
	li	s0, 1
	mv	a2, s9
	mv	a3, s2
	call	ic_raw.search.descend
	lbu	a0, 176(sp)
	bne	a0, s0, .LBB194_21
	lw	s0, 184(sp)
	lw	s2, 188(sp)
	lbu	s9, 192(sp)
	or	a0, s0, s2
	beqz	a0, .LBB194_18
	andi	a1, s0, -8
	slli	a2, s0, 1
	andi	a2, a2, -16
	add	a1, a1, a2
	add	a1, a1, s4
	lbu	a1, -24(a1)
	andi	a1, a1, 1
	bnez	a1, .LBB194_19
	j	.LBB194_21
.LBB194_18:
	seqz	a1, s10
	beqz	a1, .LBB194_21
.LBB194_19:
	slli	s8, s8, 4
	add	a1, s8, s5
	add	a1, a1, s4
	lbu	a2, -24(a1)
	andi	a2, a2, 1
	bnez	a2, .LBB194_21
	snez	s7, a0
	sb	zero, -20(a1)
	sb	zero, -19(a1)
	sb	zero, -18(a1)
	sb	zero, -17(a1)
	li	a0, 1
	sb	a0, -24(a1)
	sb	zero, -23(a1)
	sb	zero, -22(a1)
	sb	zero, -21(a1)
	addi	a0, a1, -16
	li	a2, 16
	li	a1, 0
	li	a3, 0
	li	a4, 0
	call	ic.clear
	addi	a0, sp, 24
	addi	a1, sp, 160
	addi	a2, sp, 152
	mv	a3, s7
	mv	a4, s0
	mv	a5, s2
	mv	a6, s9
	mv	a7, s5
	lw	t3, 4(sp)
	call	ic_raw_augmented.noting.WrittenSurgery.attach
	li	s0, 0
	lw	a0, 152(sp)
	lw	a1, 156(sp)
	lw	a2, 280(sp)
	sw	a0, 0(a2)
	sw	a1, 4(a2)
	j	.LBB194_22
.LBB194_21:
	addi	a0, sp, 160
	lw	a1, 8(sp)
	lw	a2, 20(sp)
	lw	a3, 284(sp)
	call	ic_raw.search.refusal_of
	mv	s0, a0
.LBB194_22:
	addi	a7, sp, 24
	mv	a0, s4
	mv	a1, s6
	mv	a2, s1
	lw	a3, 12(sp)
	lw	a4, 16(sp)
	lw	a5, 272(sp)
	mv	a6, s3
	mv	t3, s0
	call	ic_raw_augmented.edit_calls.settle
.LBB194_23:
	mv	a0, s0
	lw	ra, 268(sp)
	lw	s0, 264(sp)
	lw	s1, 260(sp)
	lw	s2, 256(sp)
	lw	s3, 252(sp)
	lw	s4, 248(sp)
	lw	s5, 244(sp)
	lw	s6, 240(sp)
	lw	s7, 236(sp)
	lw	s8, 232(sp)
	lw	s9, 228(sp)
	lw	s10, 224(sp)
	lw	s11, 220(sp)
	.cfi_restore ra
	.cfi_restore s0
	.cfi_restore s1
	.cfi_restore s2
	.cfi_restore s3
	.cfi_restore s4
	.cfi_restore s5
	.cfi_restore s6
	.cfi_restore s7
	.cfi_restore s8
	.cfi_restore s9
	.cfi_restore s10
	.cfi_restore s11
	addi	sp, sp, 272
	.cfi_def_cfa_offset 0
	ret
.Lfunc_end194:
	.size	ic_tree_sums_insert, .Lfunc_end194-ic_tree_sums_insert
	.cfi_endproc
	.section	.text.ic_tree_sums_insert_left,"ax",@progbits
	.globl	ic_tree_sums_insert_left
	.p2align	1
	.type	ic_tree_sums_insert_left,@function
ic_tree_sums_insert_left:
	.cfi_startproc
	lw	t4, 0(sp)
	lw	t5, 4(sp)
	seqz	t0, a0
	slli	t0, t0, 12
	add	a0, a0, t0
	seqz	t0, a3
	slli	t0, t0, 12
	add	a3, a3, t0
	snez	a6, a6
	li	t3, 0
	tail	ic_raw_augmented.edit_calls.insert_at
.Lfunc_end195:
	.size	ic_tree_sums_insert_left, .Lfunc_end195-ic_tree_sums_insert_left
	.cfi_endproc
	.section	.text.ic_tree_sums_insert_right,"ax",@progbits
	.globl	ic_tree_sums_insert_right
	.p2align	1
	.type	ic_tree_sums_insert_right,@function
ic_tree_sums_insert_right:
	.cfi_startproc
	lw	t4, 0(sp)
	lw	t5, 4(sp)
	seqz	t0, a0
	slli	t0, t0, 12
	add	a0, a0, t0
	seqz	t0, a3
	slli	t0, t0, 12
	add	a3, a3, t0
	snez	a6, a6
	li	t3, 1
	tail	ic_raw_augmented.edit_calls.insert_at
.Lfunc_end196:
	.size	ic_tree_sums_insert_right, .Lfunc_end196-ic_tree_sums_insert_right
	.cfi_endproc
	.section	.text.ic_tree_sums_overlap,"ax",@progbits
	.globl	ic_tree_sums_overlap
	.p2align	1
	.type	ic_tree_sums_overlap,@function
ic_tree_sums_overlap:
	.cfi_startproc
	addi	sp, sp, -96
	.cfi_def_cfa_offset 96
	sw	ra, 92(sp)
	sw	s0, 88(sp)
	sw	s1, 84(sp)
	sw	s2, 80(sp)
	sw	s3, 76(sp)
	sw	s4, 72(sp)
	sw	s5, 68(sp)
	sw	s6, 64(sp)
	sw	s7, 60(sp)
	sw	s8, 56(sp)
	sw	s9, 52(sp)
	.cfi_offset ra, -4
	.cfi_offset s0, -8
	.cfi_offset s1, -12
	.cfi_offset s2, -16
	.cfi_offset s3, -20
	.cfi_offset s4, -24
	.cfi_offset s5, -28
	.cfi_offset s6, -32
	.cfi_offset s7, -36
	.cfi_offset s8, -40
	.cfi_offset s9, -44
	mv	s5, a7
	mv	s6, a5
	mv	s2, a4
	mv	s7, a3
	mv	s0, a2
	mv	s8, a1
	lw	a2, 100(sp)
	seqz	a1, a0
	slli	a1, a1, 12
	add	s9, a0, a1
	lw	a1, 0(a2)
	lw	a2, 4(a2)
	sw	s9, 8(sp)
	sw	zero, 12(sp)
	sw	s8, 16(sp)
	sw	s0, 20(sp)
	beq	a5, s0, .LBB197_2
	sltu	a0, s6, s0
	lw	s3, 104(sp)
	lw	s4, 96(sp)
	beqz	a0, .LBB197_3
	j	.LBB197_26
.LBB197_2:
	sltu	a0, s2, s8
	lw	s3, 104(sp)
	lw	s4, 96(sp)
	bnez	a0, .LBB197_26
.LBB197_3:
	beq	s4, s0, .LBB197_5
	sltu	a0, s4, s0
	beqz	a0, .LBB197_6
	j	.LBB197_26
.LBB197_5:
	sltu	a0, s5, s8
	bnez	a0, .LBB197_26
.LBB197_6:
	addi	a0, s3, 1
	slli	t5, a0, 3
	beqz	a0, .LBB197_9
	sltu	a3, s8, a0
	seqz	a4, s0
	and	a3, a3, a4
	bnez	a3, .LBB197_26
	slli	a3, a0, 4
	add	a3, a3, t5
	add	a3, a3, s9
	lbu	a3, -24(a3)
	andi	a3, a3, 1
	beqz	a3, .LBB197_26
.LBB197_9:
	andi	t3, a2, 15
	andi	a7, a1, -8
	or	a1, a7, t3
	snez	t0, a1
	beqz	t0, .LBB197_14
	srli	a1, a7, 3
	slli	a3, t3, 29
	srli	a2, t3, 3
	or	a1, a1, a3
	beq	a2, s0, .LBB197_12
	sltu	a2, s0, a2
	beqz	a2, .LBB197_13
	j	.LBB197_26
.LBB197_12:
	sltu	a2, s8, a1
	bnez	a2, .LBB197_26
.LBB197_13:
	slli	a2, a1, 3
	slli	a1, a1, 4
	add	a1, a1, a2
	add	a1, a1, s9
	lbu	a1, -24(a1)
	andi	a1, a1, 1
	beqz	a1, .LBB197_26
.LBB197_14:
	seqz	a1, a6
	lw	a3, 116(sp)
	lw	a4, 112(sp)
	slli	a1, a1, 12
	add	a2, a6, a1
	srli	t6, a0, 29
	snez	t4, a0
	sw	zero, 40(sp)
	sw	zero, 44(sp)
	sw	zero, 24(sp)
	sw	zero, 28(sp)
	sw	zero, 32(sp)
	sw	zero, 36(sp)
	sw	a4, 0(sp)
	sw	a3, 4(sp)
	addi	a0, sp, 24
	addi	a1, sp, 8
	li	a5, 1
	li	s1, 1
	mv	a3, s5
	mv	a4, s4
	mv	a6, t0
	call	ic_raw_augmented.find.find
	lbu	a0, 24(sp)
	bne	a0, s1, .LBB197_26
	lbu	a0, 32(sp)
	bne	a0, s1, .LBB197_18
	seqz	a1, s7
	lw	a0, 40(sp)
	slli	a2, a1, 12
	lw	a1, 124(sp)
	add	a2, a2, s7
	add	a2, a2, a0
	lw	a3, -4(a2)
	beq	a3, a1, .LBB197_19
	sltu	a1, a3, a1
	bnez	a1, .LBB197_20
.LBB197_18:
	li	a0, 4
	j	.LBB197_27
.LBB197_19:
	lw	a1, 120(sp)
	lw	a2, -8(a2)
	sltu	a1, a2, a1
	beqz	a1, .LBB197_18
.LBB197_20:
	lw	a1, 44(sp)
	srli	a2, a0, 3
	slli	a3, a1, 29
	srli	a0, a1, 3
	or	a1, a2, a3
	beq	a0, s0, .LBB197_22
	sltu	a0, s0, a0
	j	.LBB197_23
.LBB197_22:
	sltu	a0, s8, a1
.LBB197_23:
	bnez	a0, .LBB197_26
	slli	a0, a1, 3
	slli	a2, a1, 4
	add	a0, a0, a2
	add	a0, a0, s9
	lbu	a0, -24(a0)
	andi	a0, a0, 1
	beqz	a0, .LBB197_26
	li	a0, 0
	lw	a2, 128(sp)
	addi	a1, a1, -1
	sw	a1, 0(a2)
	j	.LBB197_27
.LBB197_26:
	addi	a0, sp, 8
	mv	a1, s2
	mv	a2, s6
	mv	a3, s5
	mv	a4, s4
	mv	a5, s3
	call	ic_raw_augmented.sum_calls.refusal_of_starts
.LBB197_27:
	lw	ra, 92(sp)
	lw	s0, 88(sp)
	lw	s1, 84(sp)
	lw	s2, 80(sp)
	lw	s3, 76(sp)
	lw	s4, 72(sp)
	lw	s5, 68(sp)
	lw	s6, 64(sp)
	lw	s7, 60(sp)
	lw	s8, 56(sp)
	lw	s9, 52(sp)
	.cfi_restore ra
	.cfi_restore s0
	.cfi_restore s1
	.cfi_restore s2
	.cfi_restore s3
	.cfi_restore s4
	.cfi_restore s5
	.cfi_restore s6
	.cfi_restore s7
	.cfi_restore s8
	.cfi_restore s9
	addi	sp, sp, 96
	.cfi_def_cfa_offset 0
	ret
.Lfunc_end197:
	.size	ic_tree_sums_overlap, .Lfunc_end197-ic_tree_sums_overlap
	.cfi_endproc
	.section	.text.ic_tree_sums_remove,"ax",@progbits
	.globl	ic_tree_sums_remove
	.p2align	1
	.type	ic_tree_sums_remove,@function
ic_tree_sums_remove:
	.cfi_startproc
	addi	sp, sp, -256
	.cfi_def_cfa_offset 256
	sw	ra, 252(sp)
	sw	s0, 248(sp)
	sw	s1, 244(sp)
	sw	s2, 240(sp)
	sw	s3, 236(sp)
	sw	s4, 232(sp)
	sw	s5, 228(sp)
	sw	s6, 224(sp)
	sw	s7, 220(sp)
	sw	s8, 216(sp)
	sw	s9, 212(sp)
	sw	s10, 208(sp)
	sw	s11, 204(sp)
	.cfi_offset ra, -4
	.cfi_offset s0, -8
	.cfi_offset s1, -12
	.cfi_offset s2, -16
	.cfi_offset s3, -20
	.cfi_offset s4, -24
	.cfi_offset s5, -28
	.cfi_offset s6, -32
	.cfi_offset s7, -36
	.cfi_offset s8, -40
	.cfi_offset s9, -44
	.cfi_offset s10, -48
	.cfi_offset s11, -52
	.cfi_remember_state
	mv	s5, a7
	mv	s6, a2
	mv	s4, a1
	beq	a5, a2, .LBB198_4
	sltu	a1, a5, s6
	bnez	a1, .LBB198_5
.LBB198_2:
	mv	s2, a4
	mv	s1, a5
	seqz	a1, a0
	seqz	a2, a3
	lw	s3, 256(sp)
	slli	a1, a1, 12
	slli	a2, a2, 12
	add	s11, a0, a1
	add	s10, a3, a2
	snez	s9, a6
	addi	s0, s3, 1
	addi	a0, sp, 72
	li	a2, 128
	li	a1, 0
	li	a3, 0
	li	a4, 0
	call	ic.clear
	bnez	s0, .LBB198_6
	li	s0, 4
	j	.LBB198_27
.LBB198_4:
	sltu	a1, a4, s4
	beqz	a1, .LBB198_2
.LBB198_5:
	li	s0, 1
	j	.LBB198_354
.LBB198_6:
	sltu	a0, s4, s0
	seqz	a1, s6
	and	a0, a0, a1
	bnez	a0, .LBB198_26
	slli	s8, s0, 3
	slli	a0, s0, 4
	add	a0, a0, s8
	add	t0, s11, a0
	lw	a0, -24(t0)
	andi	a1, a0, 1
	beqz	a1, .LBB198_26
	lw	a2, 4(s5)
	lw	a1, 0(s5)
	srli	a3, s4, 29
	slli	a4, s6, 3
	andi	t4, a2, 15
	andi	t3, a1, -8
	or	a7, a4, a3
	seqz	a2, t3
	sub	a2, t4, a2
	slli	t6, s4, 3
	beq	a2, a7, .LBB198_10
	sltu	a2, a2, a7
	j	.LBB198_11
.LBB198_10:
	addi	a2, t3, -1
	sltu	a2, a2, t6
.LBB198_11:
	beqz	a2, .LBB198_26
	andi	a2, a1, -8
	slli	a1, a1, 1
	andi	a1, a1, -16
	add	a1, a1, a2
	add	a1, a1, s11
	lbu	a1, -24(a1)
	andi	a1, a1, 1
	beqz	a1, .LBB198_26
	srli	t5, s0, 29
	li	t2, 15
	li	t1, -8
	lw	a3, -20(t0)
	lw	s7, -8(t0)
	lw	a1, -4(t0)
	xor	a2, t3, s8
	xor	a4, t4, t5
	or	a4, a4, a2
	and	a2, a1, t2
	and	a1, s7, t1
	beqz	a4, .LBB198_15
	or	a4, a1, a2
	beqz	a4, .LBB198_26
.LBB198_15:
	and	a6, a3, t2
	and	a0, a0, t1
	seqz	a4, a0
	sub	a4, a6, a4
	beq	a4, a7, .LBB198_17
	sltu	s0, a4, a7
	j	.LBB198_18
.LBB198_17:
	addi	a4, a0, -1
	sltu	s0, a4, t6
.LBB198_18:
	lw	a4, -12(t0)
	lw	a3, -16(t0)
	and	a5, a4, t2
	and	a4, a3, t1
	mv	s3, s1
	sw	s9, 56(sp)
	sw	s10, 52(sp)
	sw	s2, 48(sp)
	beqz	s0, .LBB198_24
	seqz	a3, a4
	sub	s1, a5, a3
	beq	s1, a7, .LBB198_28
	sltu	s1, s1, a7
	bnez	s1, .LBB198_29
.LBB198_21:
	beq	a2, a7, .LBB198_35
.LBB198_22:
	sltu	a4, a7, a2
	addi	a4, a4, -1
	and	s9, a4, a2
	and	s10, a4, a1
	or	a4, s10, s9
	bnez	a4, .LBB198_36
.LBB198_23:
	li	ra, 0
	sw	zero, 68(sp)
	li	s0, 0
	mv	t3, a0
	or	a1, a0, a6
	sw	a6, 64(sp)
	bnez	a1, .LBB198_41
	j	.LBB198_43
.LBB198_24:
	beq	a5, a7, .LBB198_34
	sltu	a0, a7, a5
	addi	a0, a0, -1
	and	a6, a0, a5
	and	a0, a0, a4
	bne	a2, a7, .LBB198_22
	j	.LBB198_35
.LBB198_26:
	mv	a0, s11
	mv	a1, s4
	mv	a2, s6
	mv	a3, s3
	call	ic_raw.table.RawTable.refusal_at.19bacce014a8892a
	mv	s0, a0
.LBB198_27:
	mv	s3, s1
	mv	a4, s2
	j	.LBB198_353
.LBB198_28:
	addi	a3, a4, -1
	sltu	s1, a3, t6
	beqz	s1, .LBB198_21
.LBB198_29:
	li	a2, 67
	j	.LBB198_32
.LBB198_30:
	addi	a1, s10, -1
	sltu	s0, a1, t6
	beqz	s0, .LBB198_48
.LBB198_31:
	addi	a2, a2, -1
	mv	a4, s10
	mv	a5, s9
	beqz	a2, .LBB198_44
.LBB198_32:
	andi	a0, a4, -8
	slli	a1, a4, 1
	andi	a1, a1, -16
	add	a0, a0, a1
	add	a3, s11, a0
	lw	a1, -20(a3)
	lw	s1, -24(a3)
	and	s9, a1, t2
	and	s10, s1, t1
	seqz	a1, s10
	sub	a1, s9, a1
	beq	a1, a7, .LBB198_30
	sltu	s0, a1, a7
	bnez	s0, .LBB198_31
	j	.LBB198_48
.LBB198_34:
	sltu	a0, t6, a4
	addi	a0, a0, -1
	and	a6, a0, a5
	and	a0, a0, a4
	bne	a2, a7, .LBB198_22
.LBB198_35:
	sltu	a4, t6, a1
	addi	a4, a4, -1
	and	s9, a4, a2
	and	s10, a4, a1
	or	a4, s10, s9
	beqz	a4, .LBB198_23
.LBB198_36:
	andi	a1, s10, -8
	slli	a2, s10, 1
	andi	a2, a2, -16
	add	a1, a1, a2
	add	a2, s11, a1
	lw	a1, -20(a2)
	lw	a5, -24(a2)
	and	s1, a1, t2
	and	s0, a5, t1
	beq	s1, a7, .LBB198_38
	sltu	a1, a7, s1
	j	.LBB198_39
.LBB198_38:
	sltu	a1, t6, s0
.LBB198_39:
	addi	a1, a1, -1
	sw	s10, 72(sp)
	sw	s9, 76(sp)
	and	s0, s0, a1
	and	a1, a1, s1
	li	ra, 1
	xor	a1, a1, t5
	xor	a3, s0, s8
	or	a1, a1, a3
	sw	ra, 184(sp)
	sw	zero, 188(sp)
	bnez	a1, .LBB198_42
	sw	zero, 68(sp)
	li	s0, 0
	andi	a5, a5, 1
	add	a1, a5, a0
	sltu	a3, a1, a5
	add	a3, a3, a6
	sw	a1, -24(a2)
	sw	a3, -20(a2)
	or	a1, a0, a6
	sw	t4, 64(sp)
	beqz	a1, .LBB198_43
.LBB198_41:
	andi	a1, a0, -8
	slli	a0, a0, 1
	addi	s10, s10, 1
	andi	a0, a0, -16
	add	a0, a0, a1
	add	a0, a0, s11
	sw	s10, -8(a0)
	sw	s9, -4(a0)
	j	.LBB198_352
.LBB198_42:
	sw	zero, 68(sp)
	sw	a0, -16(a2)
	sw	a6, -12(a2)
	li	s0, 1
	or	a1, a0, a6
	sw	t4, 64(sp)
	bnez	a1, .LBB198_41
.LBB198_43:
	snez	s2, a4
	j	.LBB198_105
.LBB198_44:
	andi	a0, s1, -8
	slli	s1, s1, 1
	andi	s1, s1, -16
	add	a0, a0, s1
	add	a3, s11, a0
	lw	a1, -20(a3)
	lw	a2, -24(a3)
	and	a6, a1, t2
	and	s1, a2, t1
	seqz	a1, s1
	sub	a1, a6, a1
	beq	a1, a7, .LBB198_46
	sltu	a2, a1, a7
	j	.LBB198_47
.LBB198_46:
	addi	a1, s1, -1
	sltu	a2, a1, t6
.LBB198_47:
	mv	a4, s10
	mv	a5, s9
	bnez	a2, .LBB198_52
.LBB198_48:
	lw	a1, -12(a3)
	lw	s1, -16(a3)
	and	a2, a1, t2
	and	a1, s1, t1
	beq	a2, a7, .LBB198_50
	sltu	s1, a7, a2
	j	.LBB198_51
.LBB198_50:
	sltu	s1, t6, a1
.LBB198_51:
	addi	s1, s1, -1
	and	a6, s1, a2
	and	s1, s1, a1
	mv	s10, a4
	mv	s9, a5
.LBB198_52:
	sw	t4, 64(sp)
	lw	a1, -4(a3)
	lw	s7, -8(a3)
	and	a3, a1, t2
	and	a2, s7, t1
	sw	t3, 44(sp)
	beq	a3, a7, .LBB198_54
	sltu	a4, a7, a3
	j	.LBB198_55
.LBB198_54:
	sltu	a4, t6, a2
.LBB198_55:
	addi	a1, a4, -1
	and	t4, a1, a3
	and	ra, a1, a2
	or	t3, ra, t4
	beqz	t3, .LBB198_58
	andi	a2, ra, -8
	slli	a3, ra, 1
	andi	a3, a3, -16
	add	a2, a2, a3
	add	a2, a2, s11
	lw	a3, -20(a2)
	lw	a4, -24(a2)
	and	s0, a3, t2
	and	a3, a4, t1
	beq	s0, a7, .LBB198_59
	sltu	a5, a7, s0
	j	.LBB198_60
.LBB198_58:
	sw	zero, 60(sp)
	sw	zero, 68(sp)
	li	s0, 0
	sw	s1, 44(sp)
	sw	a6, 64(sp)
	j	.LBB198_63
.LBB198_59:
	sltu	a5, t6, a3
.LBB198_60:
	addi	a5, a5, -1
	sw	ra, 72(sp)
	sw	t4, 76(sp)
	and	a3, a3, a5
	and	a5, a5, s0
	li	a1, 1
	xor	a5, a5, s9
	xor	a3, a3, s10
	or	a3, a3, a5
	li	a5, 1
	sw	a5, 60(sp)
	sw	a1, 184(sp)
	sw	zero, 188(sp)
	bnez	a3, .LBB198_62
	sw	zero, 68(sp)
	li	s0, 0
	andi	a4, a4, 1
	add	a3, a4, s1
	sltu	a4, a3, a4
	add	a4, a4, a6
	sw	a3, -24(a2)
	sw	a4, -20(a2)
	j	.LBB198_63
.LBB198_62:
	sw	zero, 68(sp)
	sw	s1, -16(a2)
	sw	a6, -12(a2)
	li	s0, 1
.LBB198_63:
	or	a2, s1, a6
	beqz	a2, .LBB198_65
	li	s7, 0
	andi	a2, s1, -8
	slli	s1, s1, 1
	andi	s1, s1, -16
	add	a2, a2, s1
	addi	a3, ra, 1
	add	a2, a2, s11
	sw	a3, -8(a2)
	sw	t4, -4(a2)
.LBB198_65:
	xor	a2, s10, s8
	xor	a3, s9, t5
	or	a2, a2, a3
	snez	s2, t3
	bnez	a2, .LBB198_67
	mv	s10, ra
	mv	s9, t4
	lw	t3, 44(sp)
	j	.LBB198_104
.LBB198_67:
	lw	a2, -4(t0)
	lw	a1, -8(t0)
	and	a3, a2, t2
	sw	a1, 24(sp)
	and	a1, a1, t1
	sw	t4, 28(sp)
	beq	a3, a7, .LBB198_69
	sltu	a4, a7, a3
	j	.LBB198_70
.LBB198_69:
	sltu	a4, t6, a1
.LBB198_70:
	lw	a5, -24(t0)
	lw	s1, -20(t0)
	addi	a4, a4, -1
	and	a2, a4, a3
	and	a3, a4, a1
	and	a4, s1, t2
	and	t4, a5, t1
	beq	a4, a7, .LBB198_72
	sltu	a5, a7, a4
	j	.LBB198_73
.LBB198_72:
	sltu	a5, t6, t4
.LBB198_73:
	lw	s1, -12(t0)
	lw	a1, -16(t0)
	sw	a3, 36(sp)
	sw	a2, 32(sp)
	or	a3, a3, a2
	addi	a5, a5, -1
	and	a6, s1, t2
	and	a2, a1, t1
	beq	a6, a7, .LBB198_75
	sltu	t3, a7, a6
	j	.LBB198_76
.LBB198_75:
	sltu	t3, t6, a2
.LBB198_76:
	and	a4, a4, a5
	sw	a4, 40(sp)
	and	s1, a5, t4
	addi	t3, t3, -1
	beqz	a3, .LBB198_79
	sw	a2, 16(sp)
	lw	a2, 36(sp)
	andi	a1, a2, -8
	slli	a2, a2, 1
	andi	a2, a2, -16
	add	a1, a1, a2
	add	a4, s11, a1
	lw	a1, -20(a4)
	lw	a2, -24(a4)
	and	a5, a1, t2
	and	a3, a2, t1
	sw	s3, 20(sp)
	sw	a2, 12(sp)
	beq	a5, a7, .LBB198_80
	sltu	a2, a7, a5
	j	.LBB198_81
.LBB198_79:
	sw	s10, 44(sp)
	sw	s9, 64(sp)
	j	.LBB198_91
.LBB198_80:
	sltu	a2, t6, a3
.LBB198_81:
	addi	a2, a2, -1
	lw	a1, 60(sp)
	slli	a1, a1, 3
	addi	t4, sp, 72
	and	a3, a3, a2
	and	a2, a2, a5
	add	a5, t4, a1
	xor	a2, a2, t5
	lw	a1, 0(a5)
	lw	s3, 4(a5)
	xor	a3, a3, s8
	or	a1, a1, s3
	or	a2, a2, a3
	bnez	a2, .LBB198_84
	lw	a3, 12(sp)
	beqz	a1, .LBB198_86
	li	a1, 1
	sb	a1, 192(sp)
	j	.LBB198_87
.LBB198_84:
	beqz	a1, .LBB198_88
	li	a1, 1
	sb	a1, 192(sp)
	j	.LBB198_89
.LBB198_86:
	lw	a1, 36(sp)
	sw	a1, 0(a5)
	lw	a1, 32(sp)
	sw	a1, 4(a5)
	lw	a1, 60(sp)
	addi	a1, a1, 1
	seqz	a2, a1
	sw	a1, 60(sp)
	sw	a1, 184(sp)
	sw	a2, 68(sp)
	sw	a2, 188(sp)
.LBB198_87:
	lw	s3, 20(sp)
	andi	a1, a3, 1
	or	a1, a1, s10
	sw	a1, -24(a4)
	sw	s9, -20(a4)
	j	.LBB198_90
.LBB198_88:
	lw	a1, 36(sp)
	sw	a1, 0(a5)
	lw	a1, 32(sp)
	sw	a1, 4(a5)
	lw	a1, 60(sp)
	addi	a1, a1, 1
	seqz	a2, a1
	sw	a1, 60(sp)
	sw	a1, 184(sp)
	sw	a2, 68(sp)
	sw	a2, 188(sp)
.LBB198_89:
	lw	s3, 20(sp)
	sw	s10, -16(a4)
	sw	s9, -12(a4)
.LBB198_90:
	lw	a2, 16(sp)
.LBB198_91:
	and	a6, t3, a6
	lw	a1, 40(sp)
	or	a1, a1, s1
	and	a4, t3, a2
	beqz	a1, .LBB198_93
	andi	a1, s1, -8
	slli	a2, s1, 1
	andi	a2, a2, -16
	add	a1, a1, a2
	add	a1, a1, s11
	lw	a2, -8(a1)
	andi	a2, a2, 1
	or	a2, a2, s10
	sw	a2, -8(a1)
	sw	s9, -4(a1)
.LBB198_93:
	mv	t4, s1
	or	a1, a4, a6
	lw	t3, 44(sp)
	beqz	a1, .LBB198_95
	andi	a1, a4, -8
	slli	a2, a4, 1
	andi	a2, a2, -16
	add	a1, a1, a2
	add	a1, a1, s11
	lw	a2, -8(a1)
	andi	a2, a2, 1
	or	a2, a2, s10
	sw	a2, -8(a1)
	sw	s9, -4(a1)
.LBB198_95:
	lw	a2, 60(sp)
	slli	a5, a2, 3
	addi	a3, sp, 72
	add	a3, a3, a5
	lw	a1, 0(a3)
	lw	s1, 4(a3)
	or	a1, a1, s1
	beqz	a1, .LBB198_97
	li	a1, 1
	sb	a1, 192(sp)
	j	.LBB198_98
.LBB198_97:
	sw	s10, 0(a3)
	sw	s9, 4(a3)
	addi	a2, a2, 1
	seqz	a1, a2
	lw	a3, 68(sp)
	add	a3, a3, a1
	sw	a2, 184(sp)
	sw	a3, 68(sp)
	sw	a3, 188(sp)
	sw	a2, 60(sp)
	slli	a5, a2, 3
.LBB198_98:
	add	a0, a0, s11
	addi	a1, sp, 72
	lw	a3, -24(a0)
	add	a2, a1, a5
	lw	a1, 0(a2)
	lw	s1, 4(a2)
	andi	a3, a3, 1
	or	a3, a3, t4
	or	a1, a1, s1
	sw	a3, -24(a0)
	lw	a3, 40(sp)
	sw	a3, -20(a0)
	beqz	a1, .LBB198_100
	li	a1, 1
	sb	a1, 192(sp)
	j	.LBB198_101
.LBB198_100:
	sw	s10, 0(a2)
	sw	s9, 4(a2)
	lw	a2, 60(sp)
	addi	a2, a2, 1
	seqz	a1, a2
	lw	a3, 68(sp)
	add	a3, a3, a1
	sw	a2, 60(sp)
	sw	a2, 184(sp)
	sw	a3, 68(sp)
	sw	a3, 188(sp)
.LBB198_101:
	lw	a5, 28(sp)
	lw	a1, 24(sp)
	andi	s1, a1, 1
	xor	a2, ra, s8
	xor	a3, a5, t5
	lw	a1, 36(sp)
	or	a1, a1, s1
	or	a2, a2, a3
	sw	a4, -16(a0)
	sw	a6, -12(a0)
	sw	a1, -8(a0)
	lw	a1, 32(sp)
	sw	a1, -4(a0)
	bnez	a2, .LBB198_103
	li	s2, 1
	j	.LBB198_104
.LBB198_103:
	mv	s10, ra
	mv	s9, a5
.LBB198_104:
	lw	ra, 60(sp)
.LBB198_105:
	andi	a0, s7, 1
	bnez	a0, .LBB198_106
	j	.LBB198_352
.LBB198_106:
	bnez	s2, .LBB198_107
	j	.LBB198_352
.LBB198_107:
	li	t4, 67
	sw	s5, 60(sp)
	j	.LBB198_110
.LBB198_108:
	sltu	a1, a7, a0
.LBB198_109:
	addi	a1, a1, -1
	and	a5, a5, a1
	and	a0, a0, a1
	xor	a0, a0, s9
	xor	a1, a5, s10
	or	a0, a0, a1
	addi	t4, t4, -1
	snez	s0, a0
	mv	s10, a4
	mv	s9, a2
	bnez	t4, .LBB198_110
	j	.LBB198_352
.LBB198_110:
	andi	a0, s10, -8
	slli	a1, s10, 1
	andi	a1, a1, -16
	add	a0, a0, a1
	andi	s0, s0, 1
	add	s2, s11, a0
	beqz	s0, .LBB198_113
	lw	a1, -20(s2)
	lw	a0, -24(s2)
	and	t5, a1, t2
	and	s7, a0, t1
	seqz	a1, s7
	sub	a1, t5, a1
	beq	a1, a7, .LBB198_115
	sltu	a1, a1, a7
	j	.LBB198_116
.LBB198_113:
	lw	a1, -12(s2)
	lw	a0, -16(s2)
	and	t5, a1, t2
	and	s7, a0, t1
	seqz	a1, s7
	sub	a1, t5, a1
	beq	a1, a7, .LBB198_121
	sltu	a1, a1, a7
	j	.LBB198_122
.LBB198_115:
	addi	a1, s7, -1
	sltu	a1, a1, t6
.LBB198_116:
	bnez	a1, .LBB198_117
	j	.LBB198_352
.LBB198_117:
	andi	a1, a0, -8
	slli	a2, a0, 1
	andi	a2, a2, -16
	add	a1, a1, a2
	add	s1, s11, a1
	lw	a1, -8(s1)
	andi	a1, a1, 1
	bnez	a1, .LBB198_169
	li	a5, -8
	mv	t1, t5
	mv	t5, t0
	mv	t0, ra
	mv	s8, t3
	lw	a1, -12(s1)
	lw	a2, -16(s1)
	and	s0, a1, t2
	li	t2, -8
	and	a5, a5, a2
	mv	s5, s3
	beq	s0, a7, .LBB198_127
	sltu	t3, a7, s0
	lw	a1, -4(s2)
	lw	a2, -8(s2)
	li	a4, 15
	and	a4, a4, a1
	and	s3, a2, t2
	bne	a4, a7, .LBB198_128
.LBB198_120:
	sltu	a6, t6, s3
	sltiu	a1, t0, 14
	lw	a2, 68(sp)
	seqz	a2, a2
	and	a1, a1, a2
	bnez	a1, .LBB198_129
	j	.LBB198_130
.LBB198_121:
	addi	a1, s7, -1
	sltu	a1, a1, t6
.LBB198_122:
	beqz	a1, .LBB198_352
	andi	a1, a0, -8
	slli	a0, a0, 1
	andi	a0, a0, -16
	add	a0, a0, a1
	add	s1, s11, a0
	lw	a0, -8(s1)
	andi	a0, a0, 1
	bnez	a0, .LBB198_189
	mv	a3, t3
	lw	a0, -20(s1)
	lw	a1, -24(s1)
	and	a5, a0, t2
	and	a4, a1, t1
	mv	s8, s3
	beq	a5, a7, .LBB198_136
	sltu	t3, a7, a5
	lw	a0, -4(s2)
	lw	a1, -8(s2)
	and	a2, a0, t2
	and	s3, a1, t1
	bne	a2, a7, .LBB198_137
.LBB198_126:
	sltu	a6, t6, s3
	sltiu	a1, ra, 14
	lw	a0, 68(sp)
	seqz	s0, a0
	and	a1, a1, s0
	bnez	a1, .LBB198_138
	j	.LBB198_139
.LBB198_127:
	sltu	t3, t6, a5
	lw	a1, -4(s2)
	lw	a2, -8(s2)
	li	a4, 15
	and	a4, a4, a1
	and	s3, a2, t2
	beq	a4, a7, .LBB198_120
.LBB198_128:
	sltu	a6, a7, a4
	sltiu	a1, t0, 14
	lw	a2, 68(sp)
	seqz	a2, a2
	and	a1, a1, a2
	beqz	a1, .LBB198_130
.LBB198_129:
	mv	ra, t0
	slli	a2, t0, 3
	addi	a1, sp, 72
	add	a2, a2, a1
	lw	a1, 0(a2)
	lw	a3, 4(a2)
	or	a1, a1, a3
	beqz	a1, .LBB198_204
.LBB198_130:
	li	a1, 1
	sb	a1, 192(sp)
.LBB198_131:
	addi	t3, t3, -1
	andi	a1, a0, 1
	and	a2, t3, s0
	and	a0, t3, a5
	or	a3, a0, a2
	or	a1, a1, a0
	sw	a1, -24(s2)
	sw	a2, -20(s2)
	beqz	a3, .LBB198_133
	andi	a1, a0, -8
	slli	a0, a0, 1
	andi	a0, a0, -16
	add	a0, a0, a1
	add	a0, a0, s11
	lw	a1, -8(a0)
	andi	a1, a1, 1
	or	a1, a1, s10
	sw	a1, -8(a0)
	sw	s9, -4(a0)
.LBB198_133:
	addi	a6, a6, -1
	and	a4, a6, a4
	and	a2, a6, s3
	or	a0, a2, a4
	addi	a1, a2, 1
	sw	a1, -8(s1)
	sw	a4, -4(s1)
	beqz	a0, .LBB198_145
	mv	t3, s8
	andi	a0, a2, -8
	slli	a1, a2, 1
	andi	a1, a1, -16
	add	a0, a0, a1
	add	a0, a0, s11
	lw	a1, -20(a0)
	lw	a6, -24(a0)
	li	s0, 15
	and	s0, s0, a1
	and	a5, a6, t2
	mv	s3, s5
	beq	s0, a7, .LBB198_147
	sltu	a1, a7, s0
	j	.LBB198_148
.LBB198_136:
	sltu	t3, t6, a4
	lw	a0, -4(s2)
	lw	a1, -8(s2)
	and	a2, a0, t2
	and	s3, a1, t1
	beq	a2, a7, .LBB198_126
.LBB198_137:
	sltu	a6, a7, a2
	sltiu	a1, ra, 14
	lw	a0, 68(sp)
	seqz	s0, a0
	and	a1, a1, s0
	beqz	a1, .LBB198_139
.LBB198_138:
	slli	s0, ra, 3
	addi	a1, sp, 72
	add	s0, s0, a1
	lw	a1, 0(s0)
	lw	a0, 4(s0)
	or	a0, a0, a1
	beqz	a0, .LBB198_205
.LBB198_139:
	li	a0, 1
	sb	a0, 192(sp)
.LBB198_140:
	addi	t3, t3, -1
	and	a0, t3, a5
	and	a4, t3, a4
	or	a1, a4, a0
	sw	a4, -16(s2)
	sw	a0, -12(s2)
	beqz	a1, .LBB198_142
	andi	a0, a4, -8
	slli	a4, a4, 1
	andi	a4, a4, -16
	add	a0, a0, a4
	add	a0, a0, s11
	lw	a1, -8(a0)
	andi	a1, a1, 1
	or	a1, a1, s10
	sw	a1, -8(a0)
	sw	s9, -4(a0)
.LBB198_142:
	addi	a6, a6, -1
	and	a2, a6, a2
	and	a4, a6, s3
	or	a0, a4, a2
	addi	a1, a4, 1
	sw	a1, -8(s1)
	sw	a2, -4(s1)
	beqz	a0, .LBB198_146
	mv	t3, a3
	andi	a0, a4, -8
	slli	a1, a4, 1
	andi	a1, a1, -16
	add	a0, a0, a1
	add	a0, a0, s11
	lw	a1, -20(a0)
	lw	a6, -24(a0)
	and	s0, a1, t2
	and	a5, a6, t1
	mv	s3, s8
	beq	s0, a7, .LBB198_153
	sltu	a1, a7, s0
	j	.LBB198_154
.LBB198_145:
	mv	t3, s7
	sw	t1, 64(sp)
	mv	s3, s5
	mv	ra, t0
	lw	s5, 60(sp)
	mv	t0, t5
	li	t2, 15
	sltiu	a0, ra, 14
	lw	a1, 68(sp)
	seqz	a1, a1
	and	a0, a0, a1
	bnez	a0, .LBB198_163
	j	.LBB198_164
.LBB198_146:
	mv	t3, s7
	sw	t5, 64(sp)
	mv	s3, s8
	sltiu	a0, ra, 14
	lw	a1, 68(sp)
	seqz	a1, a1
	and	a0, a0, a1
	bnez	a0, .LBB198_183
	j	.LBB198_184
.LBB198_147:
	sltu	a1, t6, a5
.LBB198_148:
	mv	ra, t0
	lw	s5, 60(sp)
	addi	a1, a1, -1
	and	a5, a5, a1
	and	a1, a1, s0
	xor	a1, a1, s9
	xor	a3, a5, s10
	or	a1, a1, a3
	mv	t0, t5
	li	t2, 15
	bnez	a1, .LBB198_159
	sltiu	a1, ra, 14
	lw	a3, 68(sp)
	seqz	a3, a3
	and	a1, a1, a3
	beqz	a1, .LBB198_151
	slli	a5, ra, 3
	addi	a1, sp, 72
	add	a5, a5, a1
	lw	a1, 0(a5)
	lw	a3, 4(a5)
	or	a1, a1, a3
	beqz	a1, .LBB198_208
.LBB198_151:
	li	a1, 1
	sb	a1, 192(sp)
.LBB198_152:
	andi	a1, a6, 1
	or	a1, a1, s7
	sw	a1, -24(a0)
	sw	t1, -20(a0)
	sltiu	a0, ra, 14
	lw	a1, 68(sp)
	seqz	a1, a1
	and	a0, a0, a1
	bnez	a0, .LBB198_163
	j	.LBB198_164
.LBB198_153:
	sltu	a1, t6, a5
.LBB198_154:
	addi	a1, a1, -1
	and	a5, a5, a1
	and	a1, a1, s0
	xor	a1, a1, s9
	xor	a5, a5, s10
	or	a1, a1, a5
	bnez	a1, .LBB198_179
	sltiu	a1, ra, 14
	lw	a3, 68(sp)
	seqz	a5, a3
	and	a1, a1, a5
	beqz	a1, .LBB198_157
	slli	a5, ra, 3
	addi	a1, sp, 72
	add	a5, a5, a1
	lw	a1, 0(a5)
	lw	s0, 4(a5)
	or	a1, a1, s0
	beqz	a1, .LBB198_209
.LBB198_157:
	li	a1, 1
	sb	a1, 192(sp)
.LBB198_158:
	andi	a1, a6, 1
	or	a1, a1, s7
	sw	a1, -24(a0)
	sw	t5, -20(a0)
	sltiu	a0, ra, 14
	lw	a1, 68(sp)
	seqz	a1, a1
	and	a0, a0, a1
	bnez	a0, .LBB198_183
	j	.LBB198_184
.LBB198_159:
	sltiu	a1, ra, 14
	lw	a3, 68(sp)
	seqz	a3, a3
	and	a1, a1, a3
	beqz	a1, .LBB198_161
	slli	a5, ra, 3
	addi	a1, sp, 72
	add	a5, a5, a1
	lw	a1, 0(a5)
	lw	a3, 4(a5)
	or	a1, a1, a3
	beqz	a1, .LBB198_210
.LBB198_161:
	li	a1, 1
	sb	a1, 192(sp)
.LBB198_162:
	sw	s7, -16(a0)
	sw	t1, -12(a0)
	sltiu	a0, ra, 14
	lw	a1, 68(sp)
	seqz	a1, a1
	and	a0, a0, a1
	beqz	a0, .LBB198_164
.LBB198_163:
	slli	a0, ra, 3
	addi	a1, sp, 72
	add	a0, a0, a1
	lw	a1, 0(a0)
	lw	a2, 4(a0)
	or	a1, a1, a2
	beqz	a1, .LBB198_206
.LBB198_164:
	li	a0, 1
	sb	a0, 192(sp)
.LBB198_165:
	sw	s10, -16(s1)
	sw	s9, -12(s1)
	lw	a0, -20(s2)
	lw	a1, -24(s2)
	sw	s7, -8(s2)
	sw	t1, -4(s2)
	and	t5, a0, t2
	li	t1, -8
	and	s7, a1, t1
	seqz	a0, s7
	sub	a0, t5, a0
	beq	a0, a7, .LBB198_167
	sltu	a0, a0, a7
	j	.LBB198_168
.LBB198_167:
	addi	a0, s7, -1
	sltu	a0, a0, t6
.LBB198_168:
	beqz	a0, .LBB198_352
.LBB198_169:
	andi	a0, s7, -8
	slli	a1, s7, 1
	andi	a1, a1, -16
	add	a0, a0, a1
	add	s1, s11, a0
	lw	a1, -20(s1)
	lw	a2, -24(s1)
	and	a3, a1, t2
	and	a1, a2, t1
	seqz	a4, a1
	sub	a4, a3, a4
	beq	a4, a7, .LBB198_171
	sltu	s0, a4, a7
	bnez	s0, .LBB198_172
	j	.LBB198_173
.LBB198_171:
	addi	a1, a1, -1
	sltu	s0, a1, t6
	beqz	s0, .LBB198_173
.LBB198_172:
	andi	a4, a2, -8
	slli	a1, a2, 1
	andi	a1, a1, -16
	add	a4, a4, a1
	add	a1, s11, a4
	lw	a5, -8(a1)
	andi	a3, a5, 1
	beqz	a3, .LBB198_215
.LBB198_173:
	lw	a1, -12(s1)
	lw	a4, -16(s1)
	and	s8, a1, t2
	and	a6, a4, t1
	seqz	a1, a6
	mv	s5, ra
	sub	a1, s8, a1
	beq	a1, a7, .LBB198_175
	sltu	a1, a1, a7
	bnez	a1, .LBB198_176
	j	.LBB198_177
.LBB198_175:
	addi	a1, a6, -1
	sltu	a1, a1, t6
	beqz	a1, .LBB198_177
.LBB198_176:
	andi	a1, a4, -8
	slli	a4, a4, 1
	andi	a4, a4, -16
	add	a1, a1, a4
	add	ra, s11, a1
	lw	a3, -8(ra)
	andi	a3, a3, 1
	beqz	a3, .LBB198_216
.LBB198_177:
	lw	a0, -8(s1)
	andi	a0, a0, -2
	sw	a0, -8(s1)
	lw	a0, -8(s2)
	lw	a2, -4(s2)
	andi	a1, a0, 1
	beqz	a1, .LBB198_212
	mv	ra, s5
	j	.LBB198_198
.LBB198_179:
	sltiu	a1, ra, 14
	lw	a3, 68(sp)
	seqz	a5, a3
	and	a1, a1, a5
	beqz	a1, .LBB198_181
	slli	a5, ra, 3
	addi	a1, sp, 72
	add	a5, a5, a1
	lw	a1, 0(a5)
	lw	s0, 4(a5)
	or	a1, a1, s0
	beqz	a1, .LBB198_211
.LBB198_181:
	li	a1, 1
	sb	a1, 192(sp)
.LBB198_182:
	sw	s7, -16(a0)
	sw	t5, -12(a0)
	sltiu	a0, ra, 14
	lw	a1, 68(sp)
	seqz	a1, a1
	and	a0, a0, a1
	beqz	a0, .LBB198_184
.LBB198_183:
	slli	a0, ra, 3
	addi	a1, sp, 72
	add	a0, a0, a1
	lw	a1, 0(a0)
	lw	a2, 4(a0)
	or	a1, a1, a2
	beqz	a1, .LBB198_207
.LBB198_184:
	li	a0, 1
	sb	a0, 192(sp)
.LBB198_185:
	lw	a0, -24(s1)
	andi	a0, a0, 1
	or	a0, a0, s10
	sw	a0, -24(s1)
	sw	s9, -20(s1)
	lw	a0, -12(s2)
	lw	a1, -16(s2)
	sw	s7, -8(s2)
	sw	t5, -4(s2)
	and	t5, a0, t2
	and	s7, a1, t1
	seqz	a0, s7
	sub	a0, t5, a0
	beq	a0, a7, .LBB198_187
	sltu	a0, a0, a7
	j	.LBB198_188
.LBB198_187:
	addi	a0, s7, -1
	sltu	a0, a0, t6
.LBB198_188:
	beqz	a0, .LBB198_352
.LBB198_189:
	andi	a0, s7, -8
	slli	a1, s7, 1
	andi	a1, a1, -16
	add	s5, a1, a0
	add	s1, s11, s5
	lw	a1, -20(s1)
	lw	s0, -24(s1)
	and	s8, a1, t2
	and	a6, s0, t1
	seqz	a1, a6
	mv	a0, ra
	sub	a1, s8, a1
	beq	a1, a7, .LBB198_191
	sltu	a1, a1, a7
	bnez	a1, .LBB198_192
	j	.LBB198_193
.LBB198_191:
	addi	a1, a6, -1
	sltu	a1, a1, t6
	beqz	a1, .LBB198_193
.LBB198_192:
	andi	a1, s0, -8
	slli	a2, s0, 1
	andi	a2, a2, -16
	add	a1, a1, a2
	add	ra, s11, a1
	lw	a2, -8(ra)
	andi	a2, a2, 1
	beqz	a2, .LBB198_213
.LBB198_193:
	lw	a1, -12(s1)
	lw	a2, -16(s1)
	and	a4, a1, t2
	and	a1, a2, t1
	seqz	a5, a1
	sub	a4, a4, a5
	beq	a4, a7, .LBB198_195
	sltu	a1, a4, a7
	mv	ra, a0
	bnez	a1, .LBB198_196
	j	.LBB198_197
.LBB198_195:
	addi	a1, a1, -1
	sltu	a1, a1, t6
	mv	ra, a0
	beqz	a1, .LBB198_197
.LBB198_196:
	andi	a1, a2, -8
	slli	a2, a2, 1
	andi	a2, a2, -16
	add	a2, a2, a1
	add	a1, s11, a2
	lw	a4, -8(a1)
	andi	a5, a4, 1
	beqz	a5, .LBB198_220
.LBB198_197:
	lw	a0, -8(s1)
	andi	a0, a0, -2
	sw	a0, -8(s1)
	lw	a0, -8(s2)
	lw	a2, -4(s2)
	andi	a1, a0, 1
	beqz	a1, .LBB198_212
.LBB198_198:
	and	a2, a2, t2
	and	a4, a0, t1
	seqz	a1, a4
	sub	a1, a2, a1
	beq	a1, a7, .LBB198_200
	sltu	a1, a1, a7
	j	.LBB198_201
.LBB198_200:
	addi	a1, a4, -1
	sltu	a1, a1, t6
.LBB198_201:
	lw	s5, 60(sp)
	beqz	a1, .LBB198_352
	andi	a1, a0, -8
	slli	a0, a0, 1
	andi	a0, a0, -16
	add	a0, a0, a1
	add	a0, a0, s11
	lw	a1, -20(a0)
	lw	a3, -24(a0)
	and	a0, a1, t2
	and	a5, a3, t1
	bne	a0, a7, .LBB198_108
	sltu	a1, t6, a5
	j	.LBB198_109
.LBB198_204:
	sw	s10, 0(a2)
	sw	s9, 4(a2)
	addi	ra, ra, 1
	seqz	a1, ra
	lw	a2, 68(sp)
	add	a2, a2, a1
	mv	t0, ra
	sw	ra, 184(sp)
	sw	a2, 68(sp)
	sw	a2, 188(sp)
	j	.LBB198_131
.LBB198_205:
	sw	s10, 0(s0)
	sw	s9, 4(s0)
	addi	ra, ra, 1
	seqz	a0, ra
	lw	a1, 68(sp)
	add	a1, a1, a0
	sw	ra, 184(sp)
	sw	a1, 68(sp)
	sw	a1, 188(sp)
	j	.LBB198_140
.LBB198_206:
	sw	s7, 0(a0)
	sw	t1, 4(a0)
	addi	ra, ra, 1
	seqz	a0, ra
	lw	a1, 68(sp)
	add	a1, a1, a0
	sw	ra, 184(sp)
	sw	a1, 68(sp)
	sw	a1, 188(sp)
	j	.LBB198_165
.LBB198_207:
	sw	s7, 0(a0)
	sw	t5, 4(a0)
	addi	ra, ra, 1
	seqz	a0, ra
	lw	a1, 68(sp)
	add	a1, a1, a0
	sw	ra, 184(sp)
	sw	a1, 68(sp)
	sw	a1, 188(sp)
	j	.LBB198_185
.LBB198_208:
	sw	a2, 0(a5)
	sw	a4, 4(a5)
	addi	ra, ra, 1
	seqz	a1, ra
	lw	a2, 68(sp)
	add	a2, a2, a1
	sw	ra, 184(sp)
	sw	a2, 68(sp)
	sw	a2, 188(sp)
	j	.LBB198_152
.LBB198_209:
	sw	a4, 0(a5)
	sw	a2, 4(a5)
	addi	ra, ra, 1
	seqz	a1, ra
	lw	a2, 68(sp)
	add	a2, a2, a1
	sw	ra, 184(sp)
	sw	a2, 68(sp)
	sw	a2, 188(sp)
	j	.LBB198_158
.LBB198_210:
	sw	a2, 0(a5)
	sw	a4, 4(a5)
	addi	ra, ra, 1
	seqz	a1, ra
	lw	a2, 68(sp)
	add	a2, a2, a1
	sw	ra, 184(sp)
	sw	a2, 68(sp)
	sw	a2, 188(sp)
	j	.LBB198_162
.LBB198_211:
	sw	a4, 0(a5)
	sw	a2, 4(a5)
	addi	ra, ra, 1
	seqz	a1, ra
	lw	a2, 68(sp)
	add	a2, a2, a1
	sw	ra, 184(sp)
	sw	a2, 68(sp)
	sw	a2, 188(sp)
	j	.LBB198_182
.LBB198_212:
	addi	a0, a0, 1
	sw	a0, -8(s2)
	sw	a2, -4(s2)
	lw	s5, 60(sp)
	j	.LBB198_352
.LBB198_213:
	lw	a3, -12(s1)
	lw	a2, -16(s1)
	and	a4, a3, t2
	and	a3, a2, t1
	seqz	a5, a3
	sub	a4, a4, a5
	beq	a4, a7, .LBB198_221
	sltu	a3, a4, a7
	j	.LBB198_222
.LBB198_215:
	mv	t4, t3
	lw	a2, -4(a1)
	j	.LBB198_323
.LBB198_216:
	beqz	s0, .LBB198_218
	andi	a4, a2, -8
	slli	a2, a2, 1
	andi	a2, a2, -16
	add	a4, a4, a2
	add	a2, s11, a4
	lw	a5, -8(a2)
	andi	a3, a5, 1
	beqz	a3, .LBB198_253
.LBB198_218:
	lw	a0, -20(ra)
	lw	a2, -24(ra)
	and	a4, a0, t2
	and	a3, a2, t1
	sw	t3, 44(sp)
	beq	a4, a7, .LBB198_238
	sltu	a5, a7, a4
	j	.LBB198_239
.LBB198_220:
	sw	s3, 20(sp)
	mv	s3, t3
	lw	a5, -4(a1)
	j	.LBB198_273
.LBB198_221:
	addi	a3, a3, -1
	sltu	a3, a3, t6
.LBB198_222:
	sw	s3, 20(sp)
	beqz	a3, .LBB198_224
	andi	a3, a2, -8
	slli	a2, a2, 1
	andi	a2, a2, -16
	add	a2, a2, a3
	add	a3, s11, a2
	lw	a4, -8(a3)
	andi	a5, a4, 1
	beqz	a5, .LBB198_252
.LBB198_224:
	lw	a3, -12(ra)
	lw	a2, -16(ra)
	and	a3, a3, t2
	and	t4, a2, t1
	beq	a3, a7, .LBB198_226
	sltu	a5, a7, a3
	j	.LBB198_227
.LBB198_226:
	sltu	a5, t6, t4
.LBB198_227:
	lw	a2, -4(s1)
	lw	a4, -8(s1)
	addi	a5, a5, -1
	and	s5, a2, t2
	and	a2, a4, t1
	sw	a2, 44(sp)
	beq	s5, a7, .LBB198_229
	sltu	a4, a7, s5
	j	.LBB198_230
.LBB198_229:
	sltu	a4, t6, a2
.LBB198_230:
	and	s3, a5, a3
	and	a5, a5, t4
	mv	a2, a0
	sltiu	a0, a0, 14
	lw	a3, 68(sp)
	seqz	a3, a3
	and	a0, a0, a3
	addi	a4, a4, -1
	beqz	a0, .LBB198_232
	slli	a0, a2, 3
	addi	a3, sp, 72
	add	a0, a0, a3
	lw	a3, 0(a0)
	mv	t4, t3
	lw	t3, 4(a0)
	or	a3, a3, t3
	mv	t3, t4
	beqz	a3, .LBB198_357
.LBB198_232:
	mv	t4, a2
	li	a0, 1
	sb	a0, 192(sp)
.LBB198_233:
	and	a2, a4, s5
	lw	a0, 44(sp)
	and	a4, a4, a0
	or	a0, a5, s3
	andi	s0, s0, 1
	or	s0, s0, a5
	sw	s0, -24(s1)
	sw	s3, -20(s1)
	beqz	a0, .LBB198_235
	andi	a0, a5, -8
	slli	a5, a5, 1
	andi	a5, a5, -16
	add	a0, a0, a5
	add	a0, a0, s11
	lw	a3, -8(a0)
	andi	a3, a3, 1
	or	a3, a3, s7
	sw	a3, -8(a0)
	sw	t5, -4(a0)
.LBB198_235:
	or	a0, a4, a2
	addi	a3, a4, 1
	sw	a3, -8(ra)
	sw	a2, -4(ra)
	beqz	a0, .LBB198_250
	mv	s3, t3
	andi	a0, a4, -8
	slli	a3, a4, 1
	andi	a3, a3, -16
	add	a0, a0, a3
	add	a0, a0, s11
	lw	a3, -20(a0)
	lw	t3, -24(a0)
	and	a5, a3, t2
	and	s0, t3, t1
	beq	a5, a7, .LBB198_254
	sltu	a3, a7, a5
	j	.LBB198_255
.LBB198_238:
	sltu	a5, t6, a3
.LBB198_239:
	lw	a0, -4(s1)
	lw	s0, -8(s1)
	addi	a5, a5, -1
	and	a2, a0, t2
	and	t3, s0, t1
	beq	a2, a7, .LBB198_241
	sltu	a0, a7, a2
	j	.LBB198_242
.LBB198_241:
	sltu	a0, t6, t3
.LBB198_242:
	and	s0, a5, a4
	and	a5, a5, a3
	sltiu	a3, s5, 14
	lw	a4, 68(sp)
	seqz	a4, a4
	and	a3, a3, a4
	addi	a4, a0, -1
	beqz	a3, .LBB198_244
	slli	a0, s5, 3
	addi	a3, sp, 72
	add	a0, a0, a3
	lw	t4, 0(a0)
	lw	a3, 4(a0)
	or	a3, t4, a3
	beqz	a3, .LBB198_359
.LBB198_244:
	mv	t4, s5
	li	a0, 1
	sb	a0, 192(sp)
.LBB198_245:
	and	a3, a4, a2
	and	a4, a4, t3
	or	a0, a5, s0
	sw	a5, -16(s1)
	sw	s0, -12(s1)
	lw	s5, 60(sp)
	beqz	a0, .LBB198_247
	andi	a0, a5, -8
	slli	a5, a5, 1
	andi	a5, a5, -16
	add	a0, a0, a5
	add	a0, a0, s11
	lw	a2, -8(a0)
	andi	a2, a2, 1
	or	a2, a2, s7
	sw	a2, -8(a0)
	sw	t5, -4(a0)
.LBB198_247:
	or	a0, a4, a3
	addi	a2, a4, 1
	sw	a2, -8(ra)
	sw	a3, -4(ra)
	beqz	a0, .LBB198_251
	andi	a0, a4, -8
	slli	a2, a4, 1
	andi	a2, a2, -16
	add	a0, a0, a2
	add	a0, a0, s11
	lw	a2, -20(a0)
	lw	t3, -24(a0)
	and	a5, a2, t2
	and	s0, t3, t1
	mv	t1, t5
	beq	a5, a7, .LBB198_304
	sltu	a2, a7, a5
	j	.LBB198_305
.LBB198_250:
	mv	t3, a6
	mv	a5, s8
	j	.LBB198_265
.LBB198_251:
	mv	t3, a6
	mv	a5, s8
	j	.LBB198_315
.LBB198_252:
	mv	s3, t3
	lw	a5, -4(a3)
	mv	ra, a0
	j	.LBB198_273
.LBB198_253:
	mv	t4, t3
	lw	a2, -4(a2)
	mv	ra, s5
	lw	s5, 60(sp)
	j	.LBB198_323
.LBB198_254:
	sltu	a3, t6, s0
.LBB198_255:
	addi	a3, a3, -1
	and	s0, s0, a3
	and	a3, a3, a5
	xor	a3, a3, t5
	xor	a5, s0, s7
	or	s0, a5, a3
	sltiu	a3, t4, 14
	lw	a5, 68(sp)
	seqz	a5, a5
	and	a3, a3, a5
	bnez	s0, .LBB198_260
	beqz	a3, .LBB198_258
	slli	a5, t4, 3
	addi	a3, sp, 72
	add	a5, a5, a3
	lw	a3, 0(a5)
	lw	s0, 4(a5)
	or	a3, a3, s0
	beqz	a3, .LBB198_365
.LBB198_258:
	li	a2, 1
	sb	a2, 192(sp)
.LBB198_259:
	andi	a2, t3, 1
	or	a2, a2, a6
	sw	a2, -24(a0)
	sw	s8, -20(a0)
	mv	t3, s3
	j	.LBB198_264
.LBB198_260:
	beqz	a3, .LBB198_262
	slli	a3, t4, 3
	addi	a5, sp, 72
	add	a3, a3, a5
	lw	a5, 0(a3)
	lw	s0, 4(a3)
	or	a5, a5, s0
	beqz	a5, .LBB198_366
.LBB198_262:
	li	a2, 1
	sb	a2, 192(sp)
.LBB198_263:
	mv	t3, s3
	sw	a6, -16(a0)
	sw	s8, -12(a0)
.LBB198_264:
	lw	a5, 64(sp)
.LBB198_265:
	sltiu	a0, t4, 14
	lw	a2, 68(sp)
	seqz	a2, a2
	and	a0, a0, a2
	beqz	a0, .LBB198_267
	mv	a4, t4
	slli	a0, t4, 3
	addi	a2, sp, 72
	add	a0, a0, a2
	lw	a2, 0(a0)
	lw	a3, 4(a0)
	or	a2, a2, a3
	beqz	a2, .LBB198_358
.LBB198_267:
	li	a0, 1
	sb	a0, 192(sp)
.LBB198_268:
	sw	s7, -16(ra)
	sw	t5, -12(ra)
	sw	a6, -8(s1)
	sw	s8, -4(s1)
	lw	a2, -12(ra)
	lw	a0, -16(ra)
	and	a3, a2, t2
	and	a2, a0, t1
	seqz	a4, a2
	sub	a3, a3, a4
	sw	a5, 64(sp)
	beq	a3, a7, .LBB198_270
	sltu	a2, a3, a7
	j	.LBB198_271
.LBB198_270:
	addi	a2, a2, -1
	sltu	a2, a2, t6
.LBB198_271:
	mv	ra, t4
	beqz	a2, .LBB198_301
	mv	s3, t3
	andi	a2, a0, -8
	slli	a0, a0, 1
	andi	a0, a0, -16
	add	a2, a2, a0
	add	a0, s11, a2
	lw	a4, -8(a0)
	lw	a5, -4(a0)
	mv	s7, a6
	mv	t5, s8
	mv	s5, a1
.LBB198_273:
	lw	a6, -8(s2)
	add	a2, a2, s11
	ori	a1, a4, 1
	sw	a1, -8(a2)
	sw	a5, -4(a2)
	add	t3, s11, s5
	lw	a0, -20(t3)
	lw	a1, -24(t3)
	and	s1, a0, t2
	and	a0, a1, t1
	beq	s1, a7, .LBB198_275
	sltu	s0, a7, s1
	j	.LBB198_276
.LBB198_275:
	sltu	s0, t6, a0
.LBB198_276:
	lw	t4, 64(sp)
	lw	s5, 60(sp)
	lw	a1, -4(s2)
	lw	a2, -8(s2)
	addi	s0, s0, -1
	and	a4, a1, t2
	and	a2, a2, t1
	beq	a4, a7, .LBB198_278
	sltu	a5, a7, a4
	j	.LBB198_279
.LBB198_278:
	sltu	a5, t6, a2
.LBB198_279:
	and	a3, s0, s1
	and	s1, s0, a0
	sltiu	a0, ra, 14
	lw	a1, 68(sp)
	seqz	a1, a1
	and	a0, a0, a1
	addi	a5, a5, -1
	beqz	a0, .LBB198_281
	slli	a0, ra, 3
	addi	a1, sp, 72
	add	a0, a0, a1
	lw	a1, 0(a0)
	lw	s0, 4(a0)
	or	a1, a1, s0
	beqz	a1, .LBB198_302
.LBB198_281:
	li	a0, 1
	sb	a0, 192(sp)
	and	a4, a4, a5
	and	a5, a5, a2
	or	a0, s1, a3
	sw	s1, -16(s2)
	sw	a3, -12(s2)
	beqz	a0, .LBB198_283
.LBB198_282:
	andi	a0, s1, -8
	slli	s1, s1, 1
	andi	s1, s1, -16
	add	a0, a0, s1
	add	a0, a0, s11
	lw	a1, -8(a0)
	andi	a1, a1, 1
	or	a1, a1, s10
	sw	a1, -8(a0)
	sw	s9, -4(a0)
.LBB198_283:
	or	a0, a5, a4
	andi	a1, a6, 1
	or	a1, a1, a5
	sw	a1, -8(t3)
	sw	a4, -4(t3)
	beqz	a0, .LBB198_286
	andi	a0, a5, -8
	slli	a1, a5, 1
	andi	a1, a1, -16
	add	a0, a0, a1
	add	a3, s11, a0
	lw	a0, -20(a3)
	lw	a2, -24(a3)
	and	s1, a0, t2
	and	s0, a2, t1
	beq	s1, a7, .LBB198_287
	sltu	a0, a7, s1
	j	.LBB198_288
.LBB198_286:
	mv	s3, s7
	mv	t4, t5
	j	.LBB198_297
.LBB198_287:
	sltu	a0, t6, s0
.LBB198_288:
	addi	a0, a0, -1
	and	s0, s0, a0
	and	a0, a0, s1
	xor	a0, a0, s9
	xor	a1, s0, s10
	or	a0, a0, a1
	bnez	a0, .LBB198_293
	sltiu	a0, ra, 14
	lw	a1, 68(sp)
	seqz	a1, a1
	and	a0, a0, a1
	beqz	a0, .LBB198_291
	slli	a0, ra, 3
	addi	a1, sp, 72
	add	a0, a0, a1
	lw	a1, 0(a0)
	lw	s1, 4(a0)
	or	a1, a1, s1
	beqz	a1, .LBB198_363
.LBB198_291:
	li	a0, 1
	sb	a0, 192(sp)
.LBB198_292:
	andi	a2, a2, 1
	or	a0, a2, s7
	sw	a0, -24(a3)
	sw	t5, -20(a3)
	j	.LBB198_297
.LBB198_293:
	sltiu	a0, ra, 14
	lw	a1, 68(sp)
	seqz	a1, a1
	and	a0, a0, a1
	beqz	a0, .LBB198_295
	slli	a0, ra, 3
	addi	a1, sp, 72
	add	a0, a0, a1
	lw	a1, 0(a0)
	lw	a2, 4(a0)
	or	a1, a1, a2
	beqz	a1, .LBB198_364
.LBB198_295:
	li	a0, 1
	sb	a0, 192(sp)
.LBB198_296:
	sw	s7, -16(a3)
	sw	t5, -12(a3)
.LBB198_297:
	sw	t4, 64(sp)
	sltiu	a0, ra, 14
	lw	a1, 68(sp)
	seqz	a1, a1
	and	a0, a0, a1
	beqz	a0, .LBB198_299
	slli	a0, ra, 3
	addi	a1, sp, 72
	add	a0, a0, a1
	lw	a1, 0(a0)
	lw	a2, 4(a0)
	or	a1, a1, a2
	beqz	a1, .LBB198_303
.LBB198_299:
	li	a0, 1
	sb	a0, 192(sp)
.LBB198_300:
	lw	a0, -24(t3)
	addi	s7, s7, 1
	andi	a0, a0, 1
	or	a0, a0, s10
	sw	a0, -24(t3)
	sw	s9, -20(t3)
	sw	s7, -8(s2)
	sw	t5, -4(s2)
	mv	t3, s3
	lw	s3, 20(sp)
	j	.LBB198_352
.LBB198_301:
	lw	s3, 20(sp)
	lw	s5, 60(sp)
	j	.LBB198_352
.LBB198_302:
	sw	s10, 0(a0)
	sw	s9, 4(a0)
	addi	ra, ra, 1
	seqz	a0, ra
	lw	a1, 68(sp)
	add	a1, a1, a0
	sw	ra, 184(sp)
	sw	a1, 68(sp)
	sw	a1, 188(sp)
	and	a4, a4, a5
	and	a5, a5, a2
	or	a0, s1, a3
	sw	s1, -16(s2)
	sw	a3, -12(s2)
	bnez	a0, .LBB198_282
	j	.LBB198_283
.LBB198_303:
	sw	s7, 0(a0)
	sw	t5, 4(a0)
	addi	t4, ra, 1
	seqz	a0, t4
	lw	a1, 68(sp)
	add	a0, a0, a1
	sw	t4, 184(sp)
	sw	a0, 188(sp)
	j	.LBB198_300
.LBB198_304:
	sltu	a2, t6, s0
.LBB198_305:
	mv	t5, t0
	bnez	a2, .LBB198_311
	xor	a2, s0, s7
	xor	a5, a5, t1
	or	a2, a2, a5
	bnez	a2, .LBB198_311
	sltiu	a2, t4, 14
	lw	a5, 68(sp)
	seqz	a5, a5
	and	a2, a2, a5
	beqz	a2, .LBB198_309
	mv	t0, t4
	slli	a5, t4, 3
	addi	a2, sp, 72
	add	a5, a5, a2
	lw	a2, 0(a5)
	lw	s0, 4(a5)
	or	a2, a2, s0
	beqz	a2, .LBB198_368
.LBB198_309:
	li	a2, 1
	sb	a2, 192(sp)
.LBB198_310:
	mv	t0, t5
	lw	a5, 64(sp)
	andi	a2, t3, 1
	or	a2, a2, a6
	sw	a2, -24(a0)
	sw	s8, -20(a0)
	lw	t3, 44(sp)
	mv	t5, t1
	li	t1, -8
	j	.LBB198_315
.LBB198_311:
	sltiu	a2, t4, 14
	lw	a5, 68(sp)
	seqz	a5, a5
	and	a2, a2, a5
	beqz	a2, .LBB198_313
	mv	t0, t4
	slli	a2, t4, 3
	addi	a5, sp, 72
	add	a2, a2, a5
	lw	a5, 0(a2)
	lw	s0, 4(a2)
	or	a5, a5, s0
	beqz	a5, .LBB198_367
.LBB198_313:
	li	a2, 1
	sb	a2, 192(sp)
.LBB198_314:
	lw	t3, 44(sp)
	mv	t0, t5
	sw	a6, -16(a0)
	sw	s8, -12(a0)
	mv	t5, t1
	li	t1, -8
	lw	a5, 64(sp)
.LBB198_315:
	sltiu	a0, t4, 14
	lw	a2, 68(sp)
	seqz	a2, a2
	and	a0, a0, a2
	beqz	a0, .LBB198_317
	mv	a4, t4
	slli	a0, t4, 3
	addi	a2, sp, 72
	add	a0, a0, a2
	lw	a2, 0(a0)
	lw	a3, 4(a0)
	or	a2, a2, a3
	beqz	a2, .LBB198_360
.LBB198_317:
	li	a0, 1
	sb	a0, 192(sp)
.LBB198_318:
	lw	a0, -24(ra)
	andi	a0, a0, 1
	or	a0, a0, s7
	sw	a0, -24(ra)
	sw	t5, -20(ra)
	sw	a6, -8(s1)
	sw	s8, -4(s1)
	lw	a2, -20(ra)
	lw	a0, -24(ra)
	and	a3, a2, t2
	and	a2, a0, t1
	seqz	a4, a2
	sub	a3, a3, a4
	sw	a5, 64(sp)
	beq	a3, a7, .LBB198_320
	sltu	a2, a3, a7
	j	.LBB198_321
.LBB198_320:
	addi	a2, a2, -1
	sltu	a2, a2, t6
.LBB198_321:
	mv	ra, t4
	beqz	a2, .LBB198_352
	mv	t4, t3
	andi	a4, a0, -8
	slli	a0, a0, 1
	andi	a0, a0, -16
	add	a4, a4, a0
	add	a0, s11, a4
	lw	a5, -8(a0)
	lw	a2, -4(a0)
	mv	s7, a6
	mv	t5, s8
	mv	a0, a1
.LBB198_323:
	lw	a6, -8(s2)
	add	a4, a4, s11
	ori	a1, a5, 1
	sw	a1, -8(a4)
	sw	a2, -4(a4)
	add	t3, s11, a0
	lw	a0, -12(t3)
	lw	a1, -16(t3)
	and	s1, a0, t2
	and	a0, a1, t1
	beq	s1, a7, .LBB198_325
	sltu	s0, a7, s1
	j	.LBB198_326
.LBB198_325:
	sltu	s0, t6, a0
.LBB198_326:
	lw	a1, -4(s2)
	lw	a2, -8(s2)
	addi	s0, s0, -1
	and	a4, a1, t2
	and	a2, a2, t1
	beq	a4, a7, .LBB198_328
	sltu	a5, a7, a4
	j	.LBB198_329
.LBB198_328:
	sltu	a5, t6, a2
.LBB198_329:
	and	a3, s0, s1
	and	s1, s0, a0
	sltiu	a0, ra, 14
	lw	a1, 68(sp)
	seqz	a1, a1
	and	a0, a0, a1
	addi	a5, a5, -1
	beqz	a0, .LBB198_331
	slli	a0, ra, 3
	addi	a1, sp, 72
	add	a0, a0, a1
	lw	a1, 0(a0)
	lw	s0, 4(a0)
	or	a1, a1, s0
	beqz	a1, .LBB198_355
.LBB198_331:
	li	a0, 1
	sb	a0, 192(sp)
.LBB198_332:
	lw	a0, -24(s2)
	and	a4, a4, a5
	and	a5, a5, a2
	or	a1, s1, a3
	andi	a0, a0, 1
	or	a0, a0, s1
	sw	a0, -24(s2)
	sw	a3, -20(s2)
	beqz	a1, .LBB198_334
	andi	a0, s1, -8
	slli	s1, s1, 1
	andi	s1, s1, -16
	add	a0, a0, s1
	add	a0, a0, s11
	lw	a1, -8(a0)
	andi	a1, a1, 1
	or	a1, a1, s10
	sw	a1, -8(a0)
	sw	s9, -4(a0)
.LBB198_334:
	or	a0, a5, a4
	andi	a1, a6, 1
	or	a1, a1, a5
	sw	a1, -8(t3)
	sw	a4, -4(t3)
	beqz	a0, .LBB198_337
	andi	a0, a5, -8
	slli	a1, a5, 1
	andi	a1, a1, -16
	add	a0, a0, a1
	add	a3, s11, a0
	lw	a0, -20(a3)
	lw	a2, -24(a3)
	and	s1, a0, t2
	and	s0, a2, t1
	beq	s1, a7, .LBB198_338
	sltu	a0, a7, s1
	j	.LBB198_339
.LBB198_337:
	mv	t4, s7
	sw	t5, 64(sp)
	j	.LBB198_348
.LBB198_338:
	sltu	a0, t6, s0
.LBB198_339:
	addi	a0, a0, -1
	and	s0, s0, a0
	and	a0, a0, s1
	xor	a0, a0, s9
	xor	a1, s0, s10
	or	a0, a0, a1
	bnez	a0, .LBB198_344
	sltiu	a0, ra, 14
	lw	a1, 68(sp)
	seqz	a1, a1
	and	a0, a0, a1
	beqz	a0, .LBB198_342
	slli	a0, ra, 3
	addi	a1, sp, 72
	add	a0, a0, a1
	lw	a1, 0(a0)
	lw	s1, 4(a0)
	or	a1, a1, s1
	beqz	a1, .LBB198_361
.LBB198_342:
	li	a0, 1
	sb	a0, 192(sp)
.LBB198_343:
	andi	a2, a2, 1
	or	a0, a2, s7
	sw	a0, -24(a3)
	sw	t5, -20(a3)
	j	.LBB198_348
.LBB198_344:
	sltiu	a0, ra, 14
	lw	a1, 68(sp)
	seqz	a1, a1
	and	a0, a0, a1
	beqz	a0, .LBB198_346
	slli	a0, ra, 3
	addi	a1, sp, 72
	add	a0, a0, a1
	lw	a1, 0(a0)
	lw	a2, 4(a0)
	or	a1, a1, a2
	beqz	a1, .LBB198_362
.LBB198_346:
	li	a0, 1
	sb	a0, 192(sp)
.LBB198_347:
	sw	s7, -16(a3)
	sw	t5, -12(a3)
.LBB198_348:
	sltiu	a0, ra, 14
	lw	a1, 68(sp)
	seqz	a1, a1
	and	a0, a0, a1
	beqz	a0, .LBB198_350
	slli	a0, ra, 3
	addi	a1, sp, 72
	add	a0, a0, a1
	lw	a1, 0(a0)
	lw	a2, 4(a0)
	or	a1, a1, a2
	beqz	a1, .LBB198_356
.LBB198_350:
	li	a0, 1
	sb	a0, 192(sp)
.LBB198_351:
	sw	s10, -16(t3)
	sw	s9, -12(t3)
	addi	s7, s7, 1
	sw	s7, -8(s2)
	sw	t5, -4(s2)
	mv	t3, t4
.LBB198_352:
	li	s0, 0
	sw	zero, -24(t0)
	sw	zero, -20(t0)
	sw	t3, 0(s5)
	lw	a0, 64(sp)
	sw	a0, 4(s5)
	lw	s9, 56(sp)
	lw	s10, 52(sp)
	lw	a4, 48(sp)
.LBB198_353:
	addi	a7, sp, 72
	mv	a0, s11
	mv	a1, s4
	mv	a2, s6
	mv	a3, s10
	mv	a5, s3
	mv	a6, s9
	mv	t3, s0
	call	ic_raw_augmented.edit_calls.settle
.LBB198_354:
	mv	a0, s0
	lw	ra, 252(sp)
	lw	s0, 248(sp)
	lw	s1, 244(sp)
	lw	s2, 240(sp)
	lw	s3, 236(sp)
	lw	s4, 232(sp)
	lw	s5, 228(sp)
	lw	s6, 224(sp)
	lw	s7, 220(sp)
	lw	s8, 216(sp)
	lw	s9, 212(sp)
	lw	s10, 208(sp)
	lw	s11, 204(sp)
	.cfi_restore ra
	.cfi_restore s0
	.cfi_restore s1
	.cfi_restore s2
	.cfi_restore s3
	.cfi_restore s4
	.cfi_restore s5
	.cfi_restore s6
	.cfi_restore s7
	.cfi_restore s8
	.cfi_restore s9
	.cfi_restore s10
	.cfi_restore s11
	addi	sp, sp, 256
	.cfi_def_cfa_offset 0
	ret
.LBB198_355:
	.cfi_restore_state
	sw	s10, 0(a0)
	sw	s9, 4(a0)
	addi	ra, ra, 1
	seqz	a0, ra
	lw	a1, 68(sp)
	add	a1, a1, a0
	sw	ra, 184(sp)
	sw	a1, 68(sp)
	sw	a1, 188(sp)
	j	.LBB198_332
.LBB198_356:
	sw	s7, 0(a0)
	sw	t5, 4(a0)
	addi	a0, ra, 1
	seqz	a1, a0
	lw	a2, 68(sp)
	add	a1, a1, a2
	sw	a0, 184(sp)
	sw	a1, 188(sp)
	j	.LBB198_351
.LBB198_357:
	sw	s7, 0(a0)
	sw	t5, 4(a0)
	addi	a2, a2, 1
	seqz	a0, a2
	lw	a3, 68(sp)
	add	a3, a3, a0
	mv	t4, a2
	sw	a2, 184(sp)
	sw	a3, 68(sp)
	sw	a3, 188(sp)
	j	.LBB198_233
.LBB198_358:
	sw	a6, 0(a0)
	sw	s8, 4(a0)
	addi	a4, a4, 1
	seqz	a0, a4
	lw	a2, 68(sp)
	add	a2, a2, a0
	mv	t4, a4
	sw	a4, 184(sp)
	sw	a2, 68(sp)
	sw	a2, 188(sp)
	j	.LBB198_268
.LBB198_359:
	sw	s7, 0(a0)
	sw	t5, 4(a0)
	addi	s5, s5, 1
	seqz	a0, s5
	lw	a3, 68(sp)
	add	a3, a3, a0
	mv	t4, s5
	sw	s5, 184(sp)
	sw	a3, 68(sp)
	sw	a3, 188(sp)
	j	.LBB198_245
.LBB198_360:
	sw	a6, 0(a0)
	sw	s8, 4(a0)
	addi	a4, a4, 1
	seqz	a0, a4
	lw	a2, 68(sp)
	add	a2, a2, a0
	mv	t4, a4
	sw	a4, 184(sp)
	sw	a2, 68(sp)
	sw	a2, 188(sp)
	j	.LBB198_318
.LBB198_361:
	sw	a5, 0(a0)
	sw	a4, 4(a0)
	addi	ra, ra, 1
	seqz	a0, ra
	lw	a1, 68(sp)
	add	a1, a1, a0
	sw	ra, 184(sp)
	sw	a1, 68(sp)
	sw	a1, 188(sp)
	j	.LBB198_343
.LBB198_362:
	sw	a5, 0(a0)
	sw	a4, 4(a0)
	addi	ra, ra, 1
	seqz	a0, ra
	lw	a1, 68(sp)
	add	a1, a1, a0
	sw	ra, 184(sp)
	sw	a1, 68(sp)
	sw	a1, 188(sp)
	j	.LBB198_347
.LBB198_363:
	sw	a5, 0(a0)
	sw	a4, 4(a0)
	addi	ra, ra, 1
	seqz	a0, ra
	lw	a1, 68(sp)
	add	a1, a1, a0
	sw	ra, 184(sp)
	sw	a1, 68(sp)
	sw	a1, 188(sp)
	j	.LBB198_292
.LBB198_364:
	sw	a5, 0(a0)
	sw	a4, 4(a0)
	addi	ra, ra, 1
	seqz	a0, ra
	lw	a1, 68(sp)
	add	a1, a1, a0
	sw	ra, 184(sp)
	sw	a1, 68(sp)
	sw	a1, 188(sp)
	j	.LBB198_296
.LBB198_365:
	sw	a4, 0(a5)
	sw	a2, 4(a5)
	addi	a3, t4, 1
	seqz	a2, a3
	lw	a4, 68(sp)
	add	a4, a4, a2
	mv	t4, a3
	sw	a3, 184(sp)
	sw	a4, 68(sp)
	sw	a4, 188(sp)
	j	.LBB198_259
.LBB198_366:
	sw	a4, 0(a3)
	sw	a2, 4(a3)
	addi	a3, t4, 1
	seqz	a2, a3
	lw	a4, 68(sp)
	add	a4, a4, a2
	mv	t4, a3
	sw	a3, 184(sp)
	sw	a4, 68(sp)
	sw	a4, 188(sp)
	j	.LBB198_263
.LBB198_367:
	sw	a4, 0(a2)
	sw	a3, 4(a2)
	addi	t0, t0, 1
	seqz	a2, t0
	lw	a3, 68(sp)
	add	a3, a3, a2
	mv	t4, t0
	sw	t0, 184(sp)
	sw	a3, 68(sp)
	sw	a3, 188(sp)
	j	.LBB198_314
.LBB198_368:
	sw	a4, 0(a5)
	sw	a3, 4(a5)
	addi	t0, t0, 1
	seqz	a2, t0
	lw	a3, 68(sp)
	add	a3, a3, a2
	mv	t4, t0
	sw	t0, 184(sp)
	sw	a3, 68(sp)
	sw	a3, 188(sp)
	j	.LBB198_310
.Lfunc_end198:
	.size	ic_tree_sums_remove, .Lfunc_end198-ic_tree_sums_remove
	.cfi_endproc
	.section	.text.ic_tree_sums_renew,"ax",@progbits
	.globl	ic_tree_sums_renew
	.p2align	1
	.type	ic_tree_sums_renew,@function
ic_tree_sums_renew:
	.cfi_startproc
	addi	sp, sp, -64
	.cfi_def_cfa_offset 64
	sw	ra, 60(sp)
	sw	s0, 56(sp)
	sw	s1, 52(sp)
	sw	s2, 48(sp)
	sw	s3, 44(sp)
	sw	s4, 40(sp)
	sw	s5, 36(sp)
	sw	s6, 32(sp)
	sw	s7, 28(sp)
	.cfi_offset ra, -4
	.cfi_offset s0, -8
	.cfi_offset s1, -12
	.cfi_offset s2, -16
	.cfi_offset s3, -20
	.cfi_offset s4, -24
	.cfi_offset s5, -28
	.cfi_offset s6, -32
	.cfi_offset s7, -36
	mv	s3, a5
	mv	s2, a4
	mv	s7, a2
	mv	s6, a1
	seqz	a1, a0
	slli	a1, a1, 12
	add	a0, a0, a1
	sw	a0, 8(sp)
	sw	zero, 12(sp)
	sw	s6, 16(sp)
	sw	a2, 20(sp)
	beq	a5, a2, .LBB199_2
	sltu	a1, s3, s7
	beqz	a1, .LBB199_3
	j	.LBB199_17
.LBB199_2:
	sltu	a1, s2, s6
	bnez	a1, .LBB199_17
.LBB199_3:
	seqz	a2, a3
	addi	a1, a7, 1
	slli	a2, a2, 12
	add	s5, a3, a2
	snez	s4, a6
	beqz	a1, .LBB199_7
	sltu	a2, s6, a1
	seqz	a3, s7
	and	a2, a2, a3
	bnez	a2, .LBB199_17
	slli	a5, a1, 3
	slli	a2, a1, 4
	add	a2, a2, a5
	add	a0, a0, a2
	lbu	a0, -24(a0)
	andi	a0, a0, 1
	beqz	a0, .LBB199_17
	srli	a6, a1, 29
	addi	a0, sp, 8
	mv	a1, s5
	mv	a2, s2
	mv	a3, s3
	mv	a4, s4
	call	ic_raw_augmented.recompute.recompute_up
	li	a0, 0
	j	.LBB199_18
.LBB199_7:
	or	a0, s6, s7
	beqz	a0, .LBB199_18
	li	s0, 0
	li	s1, 0
	j	.LBB199_10
.LBB199_9:
	sltu	a0, s1, s7
	beqz	a0, .LBB199_18
.LBB199_10:
	srli	a0, s0, 29
	slli	a1, s1, 3
	slli	a2, s0, 3
	or	a0, a0, a1
	addi	a5, a2, 8
	sltu	a1, a5, a2
	add	a0, a0, a1
	andi	a6, a0, 15
	or	a1, a5, a6
	beqz	a1, .LBB199_15
	srli	a1, a6, 3
	beq	a1, s7, .LBB199_13
	sltu	a0, s7, a1
	beqz	a0, .LBB199_14
	j	.LBB199_15
.LBB199_13:
	slli	a0, a0, 29
	srli	a1, a5, 3
	or	a0, a0, a1
	sltu	a0, s6, a0
	bnez	a0, .LBB199_15
.LBB199_14:
	addi	a0, sp, 8
	mv	a1, s5
	mv	a2, s2
	mv	a3, s3
	mv	a4, s4
	call	ic_raw_augmented.recompute.recompute_up
.LBB199_15:
	addi	s0, s0, 1
	seqz	a0, s0
	add	s1, s1, a0
	bne	s1, s7, .LBB199_9
	sltu	a0, s0, s6
	bnez	a0, .LBB199_10
	j	.LBB199_18
.LBB199_17:
	addi	a0, sp, 8
	mv	a1, s2
	mv	a2, s3
	mv	a3, a7
	call	ic_raw_augmented.sum_calls.refusal
.LBB199_18:
	lw	ra, 60(sp)
	lw	s0, 56(sp)
	lw	s1, 52(sp)
	lw	s2, 48(sp)
	lw	s3, 44(sp)
	lw	s4, 40(sp)
	lw	s5, 36(sp)
	lw	s6, 32(sp)
	lw	s7, 28(sp)
	.cfi_restore ra
	.cfi_restore s0
	.cfi_restore s1
	.cfi_restore s2
	.cfi_restore s3
	.cfi_restore s4
	.cfi_restore s5
	.cfi_restore s6
	.cfi_restore s7
	addi	sp, sp, 64
	.cfi_def_cfa_offset 0
	ret
.Lfunc_end199:
	.size	ic_tree_sums_renew, .Lfunc_end199-ic_tree_sums_renew
	.cfi_endproc
	.section	.text.ic_tree_upper_bound,"ax",@progbits
	.globl	ic_tree_upper_bound
	.p2align	1
	.type	ic_tree_upper_bound,@function
ic_tree_upper_bound:
	.cfi_startproc
	addi	sp, sp, -96
	.cfi_def_cfa_offset 96
	sw	ra, 92(sp)
	sw	s0, 88(sp)
	sw	s1, 84(sp)
	sw	s2, 80(sp)
	sw	s3, 76(sp)
	sw	s4, 72(sp)
	sw	s5, 68(sp)
	sw	s6, 64(sp)
	sw	s7, 60(sp)
	.cfi_offset ra, -4
	.cfi_offset s0, -8
	.cfi_offset s1, -12
	.cfi_offset s2, -16
	.cfi_offset s3, -20
	.cfi_offset s4, -24
	.cfi_offset s5, -28
	.cfi_offset s6, -32
	.cfi_offset s7, -36
	.cfi_remember_state
	mv	s2, a7
	lw	s3, 96(sp)
	lw	s5, 100(sp)
	seqz	s1, a0
	slli	s1, s1, 12
	add	s6, a0, s1
	lw	a7, 0(a6)
	lw	s0, 4(a6)
	sw	s6, 0(sp)
	sw	zero, 4(sp)
	sw	a1, 8(sp)
	sw	a2, 12(sp)
	beq	a5, a2, .LBB200_2
	sltu	a0, a5, a2
	beqz	a0, .LBB200_3
	j	.LBB200_15
.LBB200_2:
	sltu	a0, a4, a1
	bnez	a0, .LBB200_15
.LBB200_3:
	andi	s1, s0, 15
	andi	s7, a7, -8
	or	a0, s7, s1
	beqz	a0, .LBB200_8
	srli	a6, s7, 3
	slli	a0, s1, 29
	srli	s0, s1, 3
	or	a0, a6, a0
	beq	s0, a2, .LBB200_6
	sltu	a6, a2, s0
	beqz	a6, .LBB200_7
	j	.LBB200_15
.LBB200_6:
	sltu	a6, a1, a0
	bnez	a6, .LBB200_15
.LBB200_7:
	slli	s0, a0, 3
	slli	a0, a0, 4
	add	a0, a0, s0
	add	a0, a0, s6
	lbu	a0, -24(a0)
	andi	a0, a0, 1
	beqz	a0, .LBB200_15
.LBB200_8:
	seqz	a0, a3
	slli	a0, a0, 12
	add	s4, a3, a0
	addi	a0, sp, 16
	li	a2, 40
	li	a1, 0
	li	a3, 0
	li	a4, 0
	call	ic.clear
	addi	a0, sp, 16
	mv	a1, sp
	li	a7, 1
	li	s0, 1
	mv	a2, s7
	mv	a3, s1
	mv	a4, s4
	mv	a5, s2
	mv	a6, s3
	call	ic_raw.search.descend
	lbu	a0, 16(sp)
	bne	a0, s0, .LBB200_11
	lw	a0, 40(sp)
	lw	a1, 44(sp)
	or	a2, a0, a1
	beqz	a2, .LBB200_12
	srli	a2, a0, 3
	andi	a0, a0, -8
	slli	a3, a2, 4
	add	a0, a0, a3
	add	a0, a0, s6
	lbu	a0, -24(a0)
	andi	a0, a0, 1
	bnez	a0, .LBB200_13
.LBB200_11:
	li	a0, 5
	j	.LBB200_14
.LBB200_12:
	li	a0, 4
	j	.LBB200_14
.LBB200_13:
	li	a0, 0
	slli	a1, a1, 29
	or	a1, a1, a2
	addi	a1, a1, -1
	sw	a1, 0(s5)
.LBB200_14:
	lw	ra, 92(sp)
	lw	s0, 88(sp)
	lw	s1, 84(sp)
	lw	s2, 80(sp)
	lw	s3, 76(sp)
	lw	s4, 72(sp)
	lw	s5, 68(sp)
	lw	s6, 64(sp)
	lw	s7, 60(sp)
	.cfi_restore ra
	.cfi_restore s0
	.cfi_restore s1
	.cfi_restore s2
	.cfi_restore s3
	.cfi_restore s4
	.cfi_restore s5
	.cfi_restore s6
	.cfi_restore s7
	addi	sp, sp, 96
	.cfi_def_cfa_offset 0
	ret
.LBB200_15:
	.cfi_restore_state
	mv	a0, a1
	mv	a1, a2
	mv	a2, a4
	mv	a3, a5
	lw	ra, 92(sp)
	lw	s0, 88(sp)
	lw	s1, 84(sp)
	lw	s2, 80(sp)
	lw	s3, 76(sp)
	lw	s4, 72(sp)
	lw	s5, 68(sp)
	lw	s6, 64(sp)
	lw	s7, 60(sp)
	.cfi_restore ra
	.cfi_restore s0
	.cfi_restore s1
	.cfi_restore s2
	.cfi_restore s3
	.cfi_restore s4
	.cfi_restore s5
	.cfi_restore s6
	.cfi_restore s7
	addi	sp, sp, 96
	.cfi_def_cfa_offset 0
	tail	ic_raw.search.refusal
.Lfunc_end200:
	.size	ic_tree_upper_bound, .Lfunc_end200-ic_tree_upper_bound
	.cfi_endproc
	.section	.text.ic_xor_append,"ax",@progbits
	.globl	ic_xor_append
	.p2align	1
	.type	ic_xor_append,@function
ic_xor_append:
	.cfi_startproc
	addi	sp, sp, -16
	.cfi_def_cfa_offset 16
	sw	ra, 12(sp)
	.cfi_offset ra, -4
	mv	a7, a4
	lw	t0, 8(a3)
	lw	a4, 12(a3)
	seqz	a5, a0
	slli	a5, a5, 12
	add	a0, a0, a5
	andi	a6, a4, 15
	andi	a5, t0, -8
	or	a4, a5, a6
	snez	a4, a4
	li	t3, 0
	li	t4, 0
	li	t5, 0
	call	ic_raw.xor_calls.splice
	addi	a0, a0, -1
	andi	a0, a0, 5
	lw	ra, 12(sp)
	.cfi_restore ra
	addi	sp, sp, 16
	.cfi_def_cfa_offset 0
	ret
.Lfunc_end201:
	.size	ic_xor_append, .Lfunc_end201-ic_xor_append
	.cfi_endproc
	.section	.text.ic_xor_clear,"ax",@progbits
	.globl	ic_xor_clear
	.p2align	1
	.type	ic_xor_clear,@function
ic_xor_clear:
	.cfi_startproc
	addi	sp, sp, -32
	.cfi_def_cfa_offset 32
	sw	ra, 28(sp)
	sw	s0, 24(sp)
	sw	s1, 20(sp)
	sw	s2, 16(sp)
	sw	s3, 12(sp)
	sw	s4, 8(sp)
	.cfi_offset ra, -4
	.cfi_offset s0, -8
	.cfi_offset s1, -12
	.cfi_offset s2, -16
	.cfi_offset s3, -20
	.cfi_offset s4, -24
	mv	t3, a0
	lw	a0, 4(a3)
	lw	a4, 0(a3)
	lw	a5, 12(a3)
	lw	s1, 8(a3)
	andi	a6, a0, 15
	andi	t4, a4, -8
	andi	t1, a5, 15
	or	a0, t4, a6
	andi	t2, s1, -8
	beqz	a0, .LBB202_9
	or	a4, a1, a2
	li	a0, 5
	beqz	a4, .LBB202_21
	li	t5, 0
	li	t6, 0
	li	a7, 15
	li	t0, -8
	seqz	a4, t3
	slli	a4, a4, 12
	add	t3, t3, a4
	mv	s2, t4
	mv	s3, a6
	mv	s0, a1
	mv	s4, a2
.LBB202_3:
	srli	a4, s3, 3
	beq	a4, a2, .LBB202_5
	sltu	a4, a2, a4
	beqz	a4, .LBB202_6
	j	.LBB202_21
.LBB202_5:
	srli	a4, s2, 3
	slli	a5, s3, 29
	or	a4, a4, a5
	sltu	a4, a1, a4
	bnez	a4, .LBB202_21
.LBB202_6:
	add	a5, t3, s2
	lw	s1, -8(a5)
	andi	a4, s1, 1
	beqz	a4, .LBB202_21
	lw	a4, -4(a5)
	and	a5, s1, t0
	and	a4, a4, a7
	xor	a5, a5, t5
	xor	s1, a4, t6
	or	a4, a5, s1
	beqz	a4, .LBB202_11
	seqz	a4, s0
	sub	s4, s4, a4
	addi	s0, s0, -1
	or	a4, s0, s4
	mv	t5, s2
	mv	t6, s3
	mv	s2, a5
	mv	s3, s1
	bnez	a4, .LBB202_3
	j	.LBB202_21
.LBB202_9:
	or	a0, t2, t1
	beqz	a0, .LBB202_20
	li	a0, 5
	j	.LBB202_21
.LBB202_11:
	xor	a4, t2, s2
	xor	a5, t1, s3
	or	a4, a4, a5
	bnez	a4, .LBB202_21
	li	t1, 0
	li	t2, 0
	mv	a0, a1
	mv	t5, a2
.LBB202_13:
	srli	a5, a6, 3
	beq	a5, a2, .LBB202_15
	sltu	a5, a2, a5
	j	.LBB202_16
.LBB202_15:
	srli	a5, t4, 3
	slli	s1, a6, 29
	or	a5, a5, s1
	sltu	a5, a1, a5
.LBB202_16:
	bnez	a5, .LBB202_20
	add	s1, t3, t4
	lw	a4, -8(s1)
	andi	a5, a4, 1
	beqz	a5, .LBB202_20
	lw	s0, -4(s1)
	sb	zero, -4(s1)
	sb	zero, -3(s1)
	sb	zero, -2(s1)
	sb	zero, -1(s1)
	seqz	a5, a0
	addi	a0, a0, -1
	sub	t5, t5, a5
	or	a5, a0, t5
	sb	zero, -8(s1)
	sb	zero, -7(s1)
	sb	zero, -6(s1)
	sb	zero, -5(s1)
	beqz	a5, .LBB202_20
	and	a5, s0, a7
	and	a4, a4, t0
	xor	s1, a4, t1
	xor	s0, a5, t2
	xor	a4, a4, t1
	xor	a5, a5, t2
	or	a4, a4, a5
	mv	t1, t4
	mv	t2, a6
	mv	t4, s1
	mv	a6, s0
	bnez	a4, .LBB202_13
.LBB202_20:
	li	a2, 16
	mv	a0, a3
	li	a1, 0
	li	a3, 0
	li	a4, 0
	call	ic.clear
	li	a0, 0
.LBB202_21:
	lw	ra, 28(sp)
	lw	s0, 24(sp)
	lw	s1, 20(sp)
	lw	s2, 16(sp)
	lw	s3, 12(sp)
	lw	s4, 8(sp)
	.cfi_restore ra
	.cfi_restore s0
	.cfi_restore s1
	.cfi_restore s2
	.cfi_restore s3
	.cfi_restore s4
	addi	sp, sp, 32
	.cfi_def_cfa_offset 0
	ret
.Lfunc_end202:
	.size	ic_xor_clear, .Lfunc_end202-ic_xor_clear
	.cfi_endproc
	.section	.text.ic_xor_fill,"ax",@progbits
	.globl	ic_xor_fill
	.p2align	1
	.type	ic_xor_fill,@function
ic_xor_fill:
	.cfi_startproc
	beqz	a5, .LBB203_4
	addi	sp, sp, -32
	.cfi_def_cfa_offset 32
	sw	s0, 28(sp)
	sw	s1, 24(sp)
	sw	s2, 20(sp)
	sw	s3, 16(sp)
	sw	s4, 12(sp)
	sw	s5, 8(sp)
	sw	s6, 4(sp)
	sw	s7, 0(sp)
	.cfi_offset s0, -4
	.cfi_offset s1, -8
	.cfi_offset s2, -12
	.cfi_offset s3, -16
	.cfi_offset s4, -20
	.cfi_offset s5, -24
	.cfi_offset s6, -28
	.cfi_offset s7, -32
	.cfi_remember_state
	seqz	t6, a0
	li	a7, 15
	li	t0, -8
	lw	t3, 0(a3)
	lw	s0, 4(a3)
	lw	t1, 8(a3)
	lw	s1, 12(a3)
	slli	t6, t6, 12
	add	t2, a0, t6
	andi	t4, s0, 15
	andi	a6, s1, 15
	andi	t1, t1, -8
	or	s3, t1, a6
	andi	t3, t3, -8
	beqz	s3, .LBB203_5
	srli	s1, a6, 3
	beq	s1, a2, .LBB203_7
	sltu	s1, a2, s1
	li	t5, 1
	beqz	s1, .LBB203_8
	j	.LBB203_15
.LBB203_4:
	li	a0, 0
	ret
.LBB203_5:
	.cfi_restore_state
	or	s1, t3, t4
	beqz	s1, .LBB203_16
	li	s3, 0
	li	s2, 0
	li	s4, 0
	li	t5, 1
	j	.LBB203_17
.LBB203_7:
	srli	s1, t1, 3
	slli	s0, a6, 29
	or	s0, s0, s1
	sltu	s1, a1, s0
	li	t5, 1
	bnez	s1, .LBB203_15
.LBB203_8:
	add	s0, t2, t1
	lw	s2, -8(s0)
	andi	s1, s2, 1
	beqz	s1, .LBB203_15
	lw	s0, -4(s0)
	and	s2, s2, t0
	and	s1, s0, a7
	or	s0, s2, s1
	beqz	s0, .LBB203_12
	srli	s0, s1, 3
	beq	s0, a2, .LBB203_13
	sltu	s1, a2, s0
	beqz	s1, .LBB203_14
	j	.LBB203_15
.LBB203_12:
	xor	s0, t3, t1
	xor	s1, t4, a6
	or	s0, s0, s1
	bnez	s0, .LBB203_15
	j	.LBB203_16
.LBB203_13:
	srli	s0, s2, 3
	slli	s1, s1, 29
	or	s0, s0, s1
	sltu	s1, a1, s0
	bnez	s1, .LBB203_15
.LBB203_14:
	add	s2, s2, t2
	lbu	s0, -8(s2)
	andi	s0, s0, 1
	bnez	s0, .LBB203_16
.LBB203_15:
	li	s3, 0
	li	s2, 0
	li	s4, 0
	j	.LBB203_17
.LBB203_16:
	seqz	t5, s3
	li	s3, 1
	mv	s2, t1
	mv	s4, a6
.LBB203_17:
	slli	s0, a4, 3
	add	a0, a0, s0
	add	s5, a0, t6
	addi	s0, a4, 1
	mv	s7, a5
.LBB203_18:
	li	a0, 1
	beqz	s0, .LBB203_38
	sltu	s6, a1, s0
	seqz	t6, a2
	and	s1, t6, s6
	bnez	s1, .LBB203_38
	lw	a0, 0(s5)
	slli	a0, a0, 1
	andi	a0, a0, 2
	bnez	a0, .LBB203_38
	addi	s7, s7, -1
	addi	s5, s5, 8
	addi	s0, s0, 1
	bnez	s7, .LBB203_18
	beqz	s3, .LBB203_35
	addi	s0, a4, 1
	beqz	s0, .LBB203_37
	sltu	a0, a1, s0
	and	a0, t6, a0
	bnez	a0, .LBB203_37
	slli	s6, s0, 3
	add	a2, t2, s6
	lbu	s1, -8(a2)
	andi	s1, s1, 1
	bnez	s1, .LBB203_37
	srli	a6, s0, 29
	li	s0, 1
	sw	s0, -8(a2)
	sw	zero, -4(a2)
	mv	s5, s6
	mv	s3, a6
	bnez	t5, .LBB203_28
	add	s1, t2, s2
	lw	s0, -8(s1)
	lw	t1, -4(s1)
	and	t5, s0, t0
	and	s0, t1, a7
	xor	t1, s0, a6
	xor	s0, t5, s6
	addi	s0, s0, 1
	sw	s0, -8(s1)
	sw	t1, -4(s1)
	addi	s0, s2, 1
	mv	s1, s4
	mv	s5, t3
	mv	s3, t4
.LBB203_28:
	addi	a5, a5, -1
	sw	s0, -8(a2)
	sw	s1, -4(a2)
	beqz	a5, .LBB203_36
	addi	a4, a4, 2
.LBB203_30:
	beqz	a4, .LBB203_36
	sltu	a2, a1, a4
	and	a2, t6, a2
	bnez	a2, .LBB203_36
	slli	t1, a4, 3
	add	s1, t2, t1
	lbu	a2, -8(s1)
	andi	a2, a2, 1
	bnez	a2, .LBB203_36
	srli	a2, a4, 29
	li	s0, 1
	add	a0, t2, s6
	sw	s0, -8(s1)
	sw	zero, -4(s1)
	lw	s0, -8(a0)
	lw	t3, -4(a0)
	addi	s6, s6, 1
	addi	a5, a5, -1
	and	t4, s0, t0
	and	s0, t3, a7
	xor	t3, s0, a2
	xor	s0, t4, t1
	addi	s0, s0, 1
	sw	s0, -8(a0)
	sw	t3, -4(a0)
	sw	s6, -8(s1)
	sw	a6, -4(s1)
	addi	a4, a4, 1
	mv	s6, t1
	mv	a6, a2
	bnez	a5, .LBB203_30
	mv	t3, s5
	mv	t4, s3
	mv	a6, a2
	j	.LBB203_37
.LBB203_35:
	li	a0, 5
	j	.LBB203_38
.LBB203_36:
	mv	t3, s5
	mv	t4, s3
	mv	t1, s6
.LBB203_37:
	li	a0, 0
	sb	t4, 4(a3)
	sb	zero, 5(a3)
	sb	zero, 6(a3)
	sb	zero, 7(a3)
	srli	a7, t3, 24
	srli	a2, t3, 16
	srli	a4, t3, 8
	srli	a5, t1, 24
	srli	s1, t1, 16
	srli	s0, t1, 8
	srli	a1, a6, 24
	sb	t3, 0(a3)
	sb	a4, 1(a3)
	sb	a2, 2(a3)
	sb	a7, 3(a3)
	srli	a2, a6, 16
	sb	t1, 8(a3)
	sb	s0, 9(a3)
	sb	s1, 10(a3)
	sb	a5, 11(a3)
	srli	a4, a6, 8
	sb	a6, 12(a3)
	sb	a4, 13(a3)
	sb	a2, 14(a3)
	sb	a1, 15(a3)
.LBB203_38:
	lw	s0, 28(sp)
	lw	s1, 24(sp)
	lw	s2, 20(sp)
	lw	s3, 16(sp)
	lw	s4, 12(sp)
	lw	s5, 8(sp)
	lw	s6, 4(sp)
	lw	s7, 0(sp)
	.cfi_restore s0
	.cfi_restore s1
	.cfi_restore s2
	.cfi_restore s3
	.cfi_restore s4
	.cfi_restore s5
	.cfi_restore s6
	.cfi_restore s7
	addi	sp, sp, 32
	.cfi_def_cfa_offset 0
	ret
.Lfunc_end203:
	.size	ic_xor_fill, .Lfunc_end203-ic_xor_fill
	.cfi_endproc
	.section	.text.ic_xor_insert_between,"ax",@progbits
	.globl	ic_xor_insert_between
	.p2align	1
	.type	ic_xor_insert_between,@function
ic_xor_insert_between:
	.cfi_startproc
	addi	sp, sp, -80
	.cfi_def_cfa_offset 80
	sw	ra, 76(sp)
	sw	s0, 72(sp)
	sw	s1, 68(sp)
	sw	s2, 64(sp)
	sw	s3, 60(sp)
	sw	s4, 56(sp)
	sw	s5, 52(sp)
	sw	s6, 48(sp)
	sw	s7, 44(sp)
	sw	s8, 40(sp)
	sw	s9, 36(sp)
	sw	s10, 32(sp)
	sw	s11, 28(sp)
	.cfi_offset ra, -4
	.cfi_offset s0, -8
	.cfi_offset s1, -12
	.cfi_offset s2, -16
	.cfi_offset s3, -20
	.cfi_offset s4, -24
	.cfi_offset s5, -28
	.cfi_offset s6, -32
	.cfi_offset s7, -36
	.cfi_offset s8, -40
	.cfi_offset s9, -44
	.cfi_offset s10, -48
	.cfi_offset s11, -52
	li	t2, 15
	li	t1, -8
	seqz	a7, a0
	addi	s8, a4, 1
	addi	t5, a6, 1
	lw	s0, 0(a3)
	lw	s1, 4(a3)
	lw	t6, 8(a3)
	lw	s4, 12(a3)
	slli	s7, a7, 12
	srli	t0, s8, 29
	slli	a7, s8, 3
	srli	t4, t5, 29
	slli	t3, t5, 3
	add	s7, s7, a0
	andi	s2, s1, 15
	andi	s3, s0, -8
	seqz	s5, a2
	bnez	s8, .LBB204_2
	xor	a0, s3, t3
	xor	s0, s2, t4
	or	a0, a0, s0
	beqz	a0, .LBB204_11
	j	.LBB204_32
.LBB204_2:
	sltu	a0, a1, s8
	and	a0, s5, a0
	bnez	a0, .LBB204_32
	add	s1, s7, a7
	lw	a0, -8(s1)
	andi	s0, a0, 1
	beqz	s0, .LBB204_32
	lw	s0, -4(s1)
	and	a0, a0, t1
	and	s0, s0, t2
	xor	a0, a0, t3
	xor	s1, s0, t4
	or	s0, a0, s1
	bnez	s0, .LBB204_6
	xor	a0, s3, a7
	xor	s0, s2, t0
	or	a0, a0, s0
	beqz	a0, .LBB204_11
	j	.LBB204_32
.LBB204_6:
	srli	s0, s1, 3
	beq	s0, a2, .LBB204_8
	sltu	s1, a2, s0
	j	.LBB204_9
.LBB204_8:
	srli	s0, a0, 3
	slli	s1, s1, 29
	or	s0, s0, s1
	sltu	s1, a1, s0
.LBB204_9:
	bnez	s1, .LBB204_32
	add	a0, a0, s7
	lbu	a0, -8(a0)
	andi	a0, a0, 1
	beqz	a0, .LBB204_32
.LBB204_11:
	addi	s11, a5, 1
	andi	s4, s4, 15
	andi	t6, t6, -8
	add	s6, s7, t3
	beqz	t5, .LBB204_17
	sltu	a0, a1, t5
	and	a0, s5, a0
	bnez	a0, .LBB204_32
	lw	a0, -8(s6)
	andi	s0, a0, 1
	beqz	s0, .LBB204_32
	lw	s0, -4(s6)
	and	a0, a0, t1
	and	s0, s0, t2
	xor	s10, a0, a7
	xor	s0, s0, t0
	or	a0, s10, s0
	bnez	a0, .LBB204_20
	beqz	s11, .LBB204_32
	xor	a0, t6, t3
	xor	s0, s4, t4
	j	.LBB204_19
.LBB204_17:
	beqz	s11, .LBB204_32
	xor	a0, t6, a7
	xor	s0, s4, t0
.LBB204_19:
	or	a0, a0, s0
	beqz	a0, .LBB204_26
	j	.LBB204_32
.LBB204_20:
	srli	s9, s0, 3
	beq	s9, a2, .LBB204_22
	sltu	s0, a2, s9
	j	.LBB204_23
.LBB204_22:
	srli	a0, s10, 3
	slli	s0, s0, 29
	or	a0, a0, s0
	sltu	s0, a1, a0
.LBB204_23:
	bnez	s0, .LBB204_32
	beqz	s11, .LBB204_32
	add	s10, s10, s7
	lw	a0, -8(s10)
	andi	a0, a0, 1
	beqz	a0, .LBB204_32
.LBB204_26:
	sltu	a0, a1, s11
	and	a0, s5, a0
	bnez	a0, .LBB204_32
	slli	a0, s11, 3
	add	s0, s7, a0
	lbu	s1, -8(s0)
	andi	s1, s1, 1
	bnez	s1, .LBB204_32
	srli	s1, s11, 29
	li	a1, 1
	sw	a1, -8(s0)
	sw	zero, -4(s0)
	mv	a1, a0
	mv	a6, s1
	beqz	s8, .LBB204_30
	add	s7, s7, a7
	lw	a1, -4(s7)
	lw	a2, -8(s7)
	xor	a4, s1, t4
	and	a1, a1, t2
	xor	a1, a1, a4
	xor	a4, a0, t3
	and	a2, a2, t1
	xor	a2, a2, a4
	addi	a2, a2, 1
	sw	a2, -8(s7)
	sw	a1, -4(s7)
	mv	a1, s3
	mv	a6, s2
.LBB204_30:
	beqz	t5, .LBB204_33
	lw	a4, -4(s6)
	lw	a5, -8(s6)
	xor	s1, t0, s1
	xor	a0, a7, a0
	and	a4, a4, t2
	and	a5, a5, t1
	xor	a4, a4, s1
	xor	a0, a0, a5
	addi	a0, a0, 1
	sw	a0, -8(s6)
	sw	a4, -4(s6)
	j	.LBB204_34
.LBB204_32:
	sw	s7, 8(sp)
	sw	zero, 12(sp)
	sw	a1, 16(sp)
	sw	a2, 20(sp)
	addi	a0, sp, 8
	mv	a1, a4
	mv	a2, a6
	mv	a3, a5
	call	ic_raw.xor_calls.refusal_with_both
	j	.LBB204_35
.LBB204_33:
	mv	t6, a0
	mv	s4, s1
.LBB204_34:
	li	a0, 0
	xor	a4, t4, t0
	xor	a5, t3, a7
	srli	a7, a1, 24
	srli	a2, a1, 16
	srli	s1, a1, 8
	srli	t0, t6, 24
	addi	a5, a5, 1
	sw	a5, -8(s0)
	sw	a4, -4(s0)
	srli	a4, t6, 16
	srli	a5, t6, 8
	sb	a6, 4(a3)
	sb	zero, 5(a3)
	sb	zero, 6(a3)
	sb	zero, 7(a3)
	sb	a1, 0(a3)
	sb	s1, 1(a3)
	sb	a2, 2(a3)
	sb	a7, 3(a3)
	sb	s4, 12(a3)
	sb	zero, 13(a3)
	sb	zero, 14(a3)
	sb	zero, 15(a3)
	sb	t6, 8(a3)
	sb	a5, 9(a3)
	sb	a4, 10(a3)
	sb	t0, 11(a3)
.LBB204_35:
	lw	ra, 76(sp)
	lw	s0, 72(sp)
	lw	s1, 68(sp)
	lw	s2, 64(sp)
	lw	s3, 60(sp)
	lw	s4, 56(sp)
	lw	s5, 52(sp)
	lw	s6, 48(sp)
	lw	s7, 44(sp)
	lw	s8, 40(sp)
	lw	s9, 36(sp)
	lw	s10, 32(sp)
	lw	s11, 28(sp)
	.cfi_restore ra
	.cfi_restore s0
	.cfi_restore s1
	.cfi_restore s2
	.cfi_restore s3
	.cfi_restore s4
	.cfi_restore s5
	.cfi_restore s6
	.cfi_restore s7
	.cfi_restore s8
	.cfi_restore s9
	.cfi_restore s10
	.cfi_restore s11
	addi	sp, sp, 80
	.cfi_def_cfa_offset 0
	ret
.Lfunc_end204:
	.size	ic_xor_insert_between, .Lfunc_end204-ic_xor_insert_between
	.cfi_endproc
	.section	.text.ic_xor_pop_back,"ax",@progbits
	.globl	ic_xor_pop_back
	.p2align	1
	.type	ic_xor_pop_back,@function
ic_xor_pop_back:
	.cfi_startproc
	addi	sp, sp, -32
	.cfi_def_cfa_offset 32
	sw	s0, 28(sp)
	sw	s1, 24(sp)
	sw	s2, 20(sp)
	sw	s3, 16(sp)
	sw	s4, 12(sp)
	.cfi_offset s0, -4
	.cfi_offset s1, -8
	.cfi_offset s2, -12
	.cfi_offset s3, -16
	.cfi_offset s4, -20
	lw	a5, 12(a3)
	lw	s1, 8(a3)
	andi	t3, a5, 15
	andi	t4, s1, -8
	or	s1, t4, t3
	beqz	s1, .LBB205_3
	mv	a5, a0
	srli	s1, t4, 3
	slli	s0, t3, 29
	srli	a0, t3, 3
	or	a6, s1, s0
	beq	a0, a2, .LBB205_4
	sltu	s1, a2, a0
	li	a0, 5
	beqz	s1, .LBB205_5
	j	.LBB205_22
.LBB205_3:
	li	a0, 4
	j	.LBB205_22
.LBB205_4:
	sltu	s1, a1, a6
	li	a0, 5
	bnez	s1, .LBB205_22
.LBB205_5:
	seqz	s1, a5
	slli	s1, s1, 12
	add	s4, a5, s1
	add	t5, s4, t4
	lw	s1, -8(t5)
	andi	s0, s1, 1
	beqz	s0, .LBB205_22
	li	s2, 15
	lw	t0, 0(a3)
	lw	a5, 4(a3)
	lw	s0, -4(t5)
	li	s3, -8
	and	a7, s1, s3
	and	t2, a5, s2
	and	t1, s0, s2
	or	a5, a7, t1
	and	t0, t0, s3
	beqz	a5, .LBB205_9
	srli	s0, t1, 3
	beq	s0, a2, .LBB205_11
	sltu	s0, a2, s0
	beqz	s0, .LBB205_12
	j	.LBB205_22
.LBB205_9:
	xor	a1, t0, t4
	xor	a2, t2, t3
	or	a1, a1, a2
	bnez	a1, .LBB205_22
	li	t0, 0
	li	t2, 0
	j	.LBB205_21
.LBB205_11:
	srli	a5, a7, 3
	slli	s1, t1, 29
	or	a5, a5, s1
	sltu	s0, a1, a5
	bnez	s0, .LBB205_22
.LBB205_12:
	add	t6, s4, a7
	lw	s0, -8(t6)
	andi	a5, s0, 1
	beqz	a5, .LBB205_22
	lw	a5, -4(t6)
	and	s0, s0, s3
	and	a5, a5, s2
	xor	t4, s0, t4
	xor	s0, a5, t3
	or	a5, t4, s0
	bnez	a5, .LBB205_15
	xor	a1, t0, a7
	xor	a2, t2, t1
	or	a1, a1, a2
	beqz	a1, .LBB205_20
	j	.LBB205_22
.LBB205_15:
	srli	s1, s0, 3
	beq	s1, a2, .LBB205_17
	sltu	a1, a2, s1
	j	.LBB205_18
.LBB205_17:
	srli	a2, t4, 3
	slli	a5, s0, 29
	or	a2, a2, a5
	sltu	a1, a1, a2
.LBB205_18:
	bnez	a1, .LBB205_22
	add	s4, s4, t4
	lbu	a1, -8(s4)
	andi	a1, a1, 1
	beqz	a1, .LBB205_22
.LBB205_20:
	addi	t4, t4, 1
	sw	t4, -8(t6)
	sw	s0, -4(t6)
.LBB205_21:
	li	a0, 0
	sw	zero, -8(t5)
	sw	zero, -4(t5)
	sb	t2, 4(a3)
	sb	zero, 5(a3)
	sb	zero, 6(a3)
	sb	zero, 7(a3)
	srli	a1, t0, 24
	srli	a2, t0, 16
	srli	a5, t0, 8
	sb	t1, 12(a3)
	sb	zero, 13(a3)
	sb	zero, 14(a3)
	sb	zero, 15(a3)
	srli	s1, a7, 24
	srli	s0, a7, 16
	sb	t0, 0(a3)
	sb	a5, 1(a3)
	sb	a2, 2(a3)
	sb	a1, 3(a3)
	srli	a1, a7, 8
	addi	a6, a6, -1
	sb	a7, 8(a3)
	sb	a1, 9(a3)
	sb	s0, 10(a3)
	sb	s1, 11(a3)
	sw	a6, 0(a4)
.LBB205_22:
	lw	s0, 28(sp)
	lw	s1, 24(sp)
	lw	s2, 20(sp)
	lw	s3, 16(sp)
	lw	s4, 12(sp)
	.cfi_restore s0
	.cfi_restore s1
	.cfi_restore s2
	.cfi_restore s3
	.cfi_restore s4
	addi	sp, sp, 32
	.cfi_def_cfa_offset 0
	ret
.Lfunc_end205:
	.size	ic_xor_pop_back, .Lfunc_end205-ic_xor_pop_back
	.cfi_endproc
	.section	.text.ic_xor_pop_front,"ax",@progbits
	.globl	ic_xor_pop_front
	.p2align	1
	.type	ic_xor_pop_front,@function
ic_xor_pop_front:
	.cfi_startproc
	addi	sp, sp, -16
	.cfi_def_cfa_offset 16
	sw	s0, 12(sp)
	.cfi_offset s0, -4
	.cfi_remember_state
	lw	a6, 4(a3)
	lw	a7, 0(a3)
	seqz	a5, a0
	slli	t0, a5, 12
	andi	t2, a6, 15
	andi	t3, a7, -8
	or	a5, t3, t2
	add	a0, a0, t0
	beqz	a5, .LBB206_16
	slli	a6, a6, 29
	srli	a7, a7, 3
	srli	a5, t2, 3
	or	a6, a7, a6
	beq	a5, a2, .LBB206_3
	sltu	a5, a2, a5
	beqz	a5, .LBB206_4
	j	.LBB206_16
.LBB206_3:
	sltu	a5, a1, a6
	bnez	a5, .LBB206_16
.LBB206_4:
	add	t1, a0, t3
	lw	a7, -8(t1)
	andi	a5, a7, 1
	beqz	a5, .LBB206_16
	lw	a5, -4(t1)
	li	t5, 15
	li	t6, -8
	and	a7, a7, t6
	and	t0, a5, t5
	or	a5, a7, t0
	beqz	a5, .LBB206_16
	srli	a5, t0, 3
	beq	a5, a2, .LBB206_8
	sltu	a5, a2, a5
	beqz	a5, .LBB206_9
	j	.LBB206_16
.LBB206_8:
	srli	t4, a7, 3
	slli	a5, t0, 29
	or	a5, t4, a5
	sltu	a5, a1, a5
	bnez	a5, .LBB206_16
.LBB206_9:
	add	t4, a0, a7
	lw	a5, -8(t4)
	andi	s0, a5, 1
	beqz	s0, .LBB206_16
	lw	s0, -4(t4)
	and	a5, a5, t6
	and	s0, s0, t5
	xor	t5, a5, t3
	xor	t2, s0, t2
	or	a5, t5, t2
	beqz	a5, .LBB206_16
	srli	a5, t2, 3
	beq	a5, a2, .LBB206_13
	sltu	t3, a2, a5
	beqz	t3, .LBB206_14
	j	.LBB206_16
.LBB206_13:
	srli	a5, t5, 3
	slli	s0, t2, 29
	or	a5, a5, s0
	sltu	t3, a1, a5
	bnez	t3, .LBB206_16
.LBB206_14:
	add	a5, a0, t5
	lbu	a5, -8(a5)
	andi	a5, a5, 1
	beqz	a5, .LBB206_16
	addi	t5, t5, 1
	addi	a6, a6, -1
	sw	t5, -8(t4)
	sw	t2, -4(t4)
	sw	zero, -8(t1)
	sw	zero, -4(t1)
	sw	a7, 0(a3)
	sw	t0, 4(a3)
	sw	a6, 0(a4)
	li	a0, 0
	lw	s0, 12(sp)
	.cfi_restore s0
	addi	sp, sp, 16
	.cfi_def_cfa_offset 0
	ret
.LBB206_16:
	.cfi_restore_state
	lw	s0, 12(sp)
	.cfi_restore s0
	addi	sp, sp, 16
	.cfi_def_cfa_offset 0
	tail	ic_raw.xor_calls.pop_front_slow
.Lfunc_end206:
	.size	ic_xor_pop_front, .Lfunc_end206-ic_xor_pop_front
	.cfi_endproc
	.section	.text.ic_xor_push_back,"ax",@progbits
	.globl	ic_xor_push_back
	.p2align	1
	.type	ic_xor_push_back,@function
ic_xor_push_back:
	.cfi_startproc
	addi	sp, sp, -16
	.cfi_def_cfa_offset 16
	sw	s0, 12(sp)
	sw	s1, 8(sp)
	sw	s2, 4(sp)
	.cfi_offset s0, -4
	.cfi_offset s1, -8
	.cfi_offset s2, -12
	.cfi_remember_state
	lw	a6, 12(a3)
	lw	a5, 8(a3)
	seqz	a7, a0
	slli	t0, a7, 12
	andi	a7, a6, 15
	andi	t1, a5, -8
	or	t2, t1, a7
	add	a0, a0, t0
	beqz	t2, .LBB207_14
	srli	t0, a7, 3
	beq	t0, a2, .LBB207_3
	sltu	t0, a2, t0
	beqz	t0, .LBB207_4
	j	.LBB207_14
.LBB207_3:
	slli	t0, a6, 29
	srli	t2, a5, 3
	or	t0, t2, t0
	sltu	t0, a1, t0
	bnez	t0, .LBB207_14
.LBB207_4:
	add	t0, a0, t1
	lw	t4, -8(t0)
	andi	t2, t4, 1
	beqz	t2, .LBB207_14
	lw	t5, -4(t0)
	li	t2, 15
	li	t3, -8
	and	t4, t4, t3
	and	t5, t5, t2
	or	t6, t4, t5
	beqz	t6, .LBB207_14
	srli	t6, t5, 3
	beq	t6, a2, .LBB207_8
	sltu	t5, a2, t6
	beqz	t5, .LBB207_9
	j	.LBB207_14
.LBB207_8:
	srli	t6, t4, 3
	slli	t5, t5, 29
	or	t5, t6, t5
	sltu	t5, a1, t5
	bnez	t5, .LBB207_14
.LBB207_9:
	add	t4, t4, a0
	lbu	t4, -8(t4)
	andi	t4, t4, 1
	beqz	t4, .LBB207_14
	addi	t6, a4, 1
	beqz	t6, .LBB207_14
	sltu	t4, a1, t6
	seqz	t5, a2
	and	t4, t5, t4
	bnez	t4, .LBB207_14
	slli	t4, t6, 3
	add	t5, a0, t4
	lbu	s0, -8(t5)
	andi	s0, s0, 1
	bnez	s0, .LBB207_14
	srli	s2, t6, 29
	lw	a1, 0(a3)
	lw	a6, 4(a3)
	li	a4, 1
	addi	t1, t1, 1
	srli	t6, t4, 24
	sw	a4, -8(t5)
	sw	zero, -4(t5)
	lw	a4, -8(t0)
	srli	s0, t4, 16
	lw	a2, -4(t0)
	and	a1, a1, t3
	and	a4, a4, t3
	srli	a5, t4, 8
	and	a0, a6, t2
	and	a2, a2, t2
	srli	s1, a1, 24
	xor	a2, a2, s2
	xor	a4, a4, t4
	addi	a4, a4, 1
	sw	a4, -8(t0)
	sw	a2, -4(t0)
	srli	a2, a1, 16
	srli	a4, a1, 8
	sw	t1, -8(t5)
	sw	a7, -4(t5)
	sb	a0, 4(a3)
	sb	zero, 5(a3)
	sb	zero, 6(a3)
	sb	zero, 7(a3)
	sb	a1, 0(a3)
	sb	a4, 1(a3)
	sb	a2, 2(a3)
	sb	s1, 3(a3)
	sb	s2, 12(a3)
	sb	zero, 13(a3)
	sb	zero, 14(a3)
	sb	zero, 15(a3)
	sb	t4, 8(a3)
	sb	a5, 9(a3)
	sb	s0, 10(a3)
	sb	t6, 11(a3)
	li	a0, 0
	lw	s0, 12(sp)
	lw	s1, 8(sp)
	lw	s2, 4(sp)
	.cfi_restore s0
	.cfi_restore s1
	.cfi_restore s2
	addi	sp, sp, 16
	.cfi_def_cfa_offset 0
	ret
.LBB207_14:
	.cfi_restore_state
	li	a7, 0
	li	t3, 0
	lw	s0, 12(sp)
	lw	s1, 8(sp)
	lw	s2, 4(sp)
	.cfi_restore s0
	.cfi_restore s1
	.cfi_restore s2
	addi	sp, sp, 16
	.cfi_def_cfa_offset 0
	tail	ic_raw.xor_calls.put_slow
.Lfunc_end207:
	.size	ic_xor_push_back, .Lfunc_end207-ic_xor_push_back
	.cfi_endproc
	.section	.text.ic_xor_push_front,"ax",@progbits
	.globl	ic_xor_push_front
	.p2align	1
	.type	ic_xor_push_front,@function
ic_xor_push_front:
	.cfi_startproc
	addi	sp, sp, -16
	.cfi_def_cfa_offset 16
	sw	s0, 12(sp)
	sw	s1, 8(sp)
	sw	s2, 4(sp)
	.cfi_offset s0, -4
	.cfi_offset s1, -8
	.cfi_offset s2, -12
	.cfi_remember_state
	lw	t3, 4(a3)
	lw	a7, 0(a3)
	seqz	a5, a0
	slli	t1, a5, 12
	andi	a6, t3, 15
	andi	t0, a7, -8
	or	a5, t0, a6
	add	a0, a0, t1
	beqz	a5, .LBB208_14
	srli	a5, a6, 3
	beq	a5, a2, .LBB208_3
	sltu	a5, a2, a5
	beqz	a5, .LBB208_4
	j	.LBB208_14
.LBB208_3:
	slli	t1, t3, 29
	srli	a5, a7, 3
	or	a5, a5, t1
	sltu	a5, a1, a5
	bnez	a5, .LBB208_14
.LBB208_4:
	add	t4, a0, t0
	lw	t5, -8(t4)
	andi	a5, t5, 1
	beqz	a5, .LBB208_14
	lw	a5, -4(t4)
	li	t1, 15
	li	t2, -8
	and	t5, t5, t2
	and	s0, a5, t1
	or	a5, t5, s0
	beqz	a5, .LBB208_14
	srli	t6, s0, 3
	beq	t6, a2, .LBB208_8
	sltu	a5, a2, t6
	beqz	a5, .LBB208_9
	j	.LBB208_14
.LBB208_8:
	srli	a5, t5, 3
	slli	s0, s0, 29
	or	a5, a5, s0
	sltu	a5, a1, a5
	bnez	a5, .LBB208_14
.LBB208_9:
	add	t5, t5, a0
	lbu	a5, -8(t5)
	andi	a5, a5, 1
	beqz	a5, .LBB208_14
	addi	a5, a4, 1
	beqz	a5, .LBB208_14
	sltu	t5, a1, a5
	seqz	s0, a2
	and	s0, s0, t5
	bnez	s0, .LBB208_14
	slli	t6, a5, 3
	add	t5, a0, t6
	lbu	s0, -8(t5)
	andi	s0, s0, 1
	bnez	s0, .LBB208_14
	srli	a5, a5, 29
	lw	a0, 8(a3)
	lw	t3, 12(a3)
	li	a2, 1
	addi	t0, t0, 1
	srli	a7, t6, 24
	sw	a2, -8(t5)
	sw	zero, -4(t5)
	lw	a2, -8(t4)
	srli	s2, t6, 16
	lw	a4, -4(t4)
	and	a0, a0, t2
	and	a2, a2, t2
	srli	a1, t6, 8
	and	s0, t3, t1
	and	a4, a4, t1
	srli	s1, a0, 24
	xor	a4, a4, a5
	xor	a2, a2, t6
	addi	a2, a2, 1
	sw	a2, -8(t4)
	sw	a4, -4(t4)
	srli	a2, a0, 16
	srli	a4, a0, 8
	sw	t0, -8(t5)
	sw	a6, -4(t5)
	sb	a5, 4(a3)
	sb	zero, 5(a3)
	sb	zero, 6(a3)
	sb	zero, 7(a3)
	sb	t6, 0(a3)
	sb	a1, 1(a3)
	sb	s2, 2(a3)
	sb	a7, 3(a3)
	sb	s0, 12(a3)
	sb	zero, 13(a3)
	sb	zero, 14(a3)
	sb	zero, 15(a3)
	sb	a0, 8(a3)
	sb	a4, 9(a3)
	sb	a2, 10(a3)
	sb	s1, 11(a3)
	li	a0, 0
	lw	s0, 12(sp)
	lw	s1, 8(sp)
	lw	s2, 4(sp)
	.cfi_restore s0
	.cfi_restore s1
	.cfi_restore s2
	addi	sp, sp, 16
	.cfi_def_cfa_offset 0
	ret
.LBB208_14:
	.cfi_restore_state
	li	a5, 0
	li	a6, 0
	lw	s0, 12(sp)
	lw	s1, 8(sp)
	lw	s2, 4(sp)
	.cfi_restore s0
	.cfi_restore s1
	.cfi_restore s2
	addi	sp, sp, 16
	.cfi_def_cfa_offset 0
	tail	ic_raw.xor_calls.put_slow
.Lfunc_end208:
	.size	ic_xor_push_front, .Lfunc_end208-ic_xor_push_front
	.cfi_endproc
	.section	.text.ic_xor_remove,"ax",@progbits
	.globl	ic_xor_remove
	.p2align	1
	.type	ic_xor_remove,@function
ic_xor_remove:
	.cfi_startproc
	addi	sp, sp, -48
	.cfi_def_cfa_offset 48
	sw	s0, 44(sp)
	sw	s1, 40(sp)
	sw	s2, 36(sp)
	sw	s3, 32(sp)
	sw	s4, 28(sp)
	sw	s5, 24(sp)
	sw	s6, 20(sp)
	sw	s7, 16(sp)
	sw	s8, 12(sp)
	sw	s9, 8(sp)
	.cfi_offset s0, -4
	.cfi_offset s1, -8
	.cfi_offset s2, -12
	.cfi_offset s3, -16
	.cfi_offset s4, -20
	.cfi_offset s5, -24
	.cfi_offset s6, -28
	.cfi_offset s7, -32
	.cfi_offset s8, -36
	.cfi_offset s9, -40
	.cfi_remember_state
	addi	s1, a5, 1
	bnez	s1, .LBB209_2
	li	a0, 4
	j	.LBB209_37
.LBB209_2:
	seqz	a6, a0
	sltu	s0, a1, s1
	seqz	s6, a2
	slli	a6, a6, 12
	and	s0, s6, s0
	add	a0, a0, a6
	bnez	s0, .LBB209_33
	slli	t1, s1, 3
	add	a7, a0, t1
	lw	s7, -8(a7)
	andi	s0, s7, 1
	beqz	s0, .LBB209_33
	srli	t4, s1, 29
	li	t3, 15
	li	t2, -8
	addi	s8, a4, 1
	lw	s1, 0(a3)
	lw	s0, 4(a3)
	lw	s4, 8(a3)
	lw	s3, 12(a3)
	lw	s5, -4(a7)
	srli	t6, s8, 29
	slli	t5, s8, 3
	andi	t0, s0, 15
	andi	a6, s1, -8
	add	s2, a0, t5
	beqz	s8, .LBB209_9
	sltu	s0, a1, s8
	and	s0, s6, s0
	bnez	s0, .LBB209_33
	lw	s0, -8(s2)
	andi	s1, s0, 1
	beqz	s1, .LBB209_33
	lw	s1, -4(s2)
	and	s0, s0, t2
	and	s1, s1, t3
	xor	s9, s0, t1
	xor	s1, s1, t4
	or	s0, s9, s1
	bnez	s0, .LBB209_11
	xor	s0, a6, t5
	xor	s1, t0, t6
	j	.LBB209_10
.LBB209_9:
	xor	s0, a6, t1
	xor	s1, t0, t4
.LBB209_10:
	or	s0, s0, s1
	beqz	s0, .LBB209_16
	j	.LBB209_33
.LBB209_11:
	srli	s6, s1, 3
	beq	s6, a2, .LBB209_13
	sltu	s1, a2, s6
	j	.LBB209_14
.LBB209_13:
	srli	s0, s9, 3
	slli	s1, s1, 29
	or	s0, s0, s1
	sltu	s1, a1, s0
.LBB209_14:
	bnez	s1, .LBB209_33
	add	s9, s9, a0
	lbu	s0, -8(s9)
	andi	s0, s0, 1
	beqz	s0, .LBB209_33
.LBB209_16:
	andi	s3, s3, 15
	andi	s6, s4, -8
	and	s0, s5, t3
	and	s1, s7, t2
	xor	s4, s1, t5
	xor	s5, s1, t5
	xor	s1, s0, t6
	or	s5, s5, s1
	xor	s9, s0, t6
	bnez	s5, .LBB209_18
	xor	s0, s6, t1
	xor	s1, s3, t4
	or	s0, s0, s1
	beqz	s0, .LBB209_30
	j	.LBB209_33
.LBB209_18:
	srli	s0, s9, 3
	beq	s0, a2, .LBB209_20
	sltu	s1, a2, s0
	j	.LBB209_21
.LBB209_20:
	srli	s0, s4, 3
	slli	s1, s9, 29
	or	s0, s0, s1
	sltu	s1, a1, s0
.LBB209_21:
	bnez	s1, .LBB209_33
	add	s0, a0, s4
	lw	s7, -8(s0)
	andi	s1, s7, 1
	beqz	s1, .LBB209_33
	lw	s0, -4(s0)
	and	s1, s7, t2
	and	s0, s0, t3
	xor	s7, s1, t1
	xor	s1, s0, t4
	or	s0, s7, s1
	bnez	s0, .LBB209_25
	xor	s0, s6, s4
	xor	s1, s3, s9
	or	s0, s0, s1
	beqz	s0, .LBB209_30
	j	.LBB209_33
.LBB209_25:
	srli	s0, s1, 3
	beq	s0, a2, .LBB209_27
	sltu	s1, a2, s0
	j	.LBB209_28
.LBB209_27:
	srli	s0, s7, 3
	slli	s1, s1, 29
	or	s0, s0, s1
	sltu	s1, a1, s0
.LBB209_28:
	bnez	s1, .LBB209_33
	add	s7, s7, a0
	lbu	s0, -8(s7)
	andi	s0, s0, 1
	beqz	s0, .LBB209_33
.LBB209_30:
	beqz	s8, .LBB209_34
	lw	a1, -4(s2)
	lw	a2, -8(s2)
	and	a1, a1, t3
	and	a2, a2, t2
	xor	a2, t1, a2
	xor	a1, t4, a1
	xor	a1, a1, s9
	xor	a2, a2, s4
	addi	a2, a2, 1
	sw	a2, -8(s2)
	sw	a1, -4(s2)
	bnez	s5, .LBB209_35
.LBB209_32:
	mv	s6, t5
	mv	s3, t6
	j	.LBB209_36
.LBB209_33:
	mv	a3, a5
	lw	s0, 44(sp)
	lw	s1, 40(sp)
	lw	s2, 36(sp)
	lw	s3, 32(sp)
	lw	s4, 28(sp)
	lw	s5, 24(sp)
	lw	s6, 20(sp)
	lw	s7, 16(sp)
	lw	s8, 12(sp)
	lw	s9, 8(sp)
	.cfi_restore s0
	.cfi_restore s1
	.cfi_restore s2
	.cfi_restore s3
	.cfi_restore s4
	.cfi_restore s5
	.cfi_restore s6
	.cfi_restore s7
	.cfi_restore s8
	.cfi_restore s9
	addi	sp, sp, 48
	.cfi_def_cfa_offset 0
	tail	ic_raw.table.RawTable.refusal_at_both.feecb86c9dd45d96
.LBB209_34:
	.cfi_restore_state
	mv	a6, s4
	mv	t0, s9
	beqz	s5, .LBB209_32
.LBB209_35:
	add	a0, a0, s4
	lw	a1, -4(a0)
	lw	a2, -8(a0)
	xor	a4, t6, t4
	xor	a5, t5, t1
	and	a1, a1, t3
	and	a2, a2, t2
	xor	a1, a1, a4
	xor	a2, a2, a5
	addi	a2, a2, 1
	sw	a2, -8(a0)
	sw	a1, -4(a0)
.LBB209_36:
	li	a0, 0
	sw	zero, -8(a7)
	sw	zero, -4(a7)
	sb	t0, 4(a3)
	sb	zero, 5(a3)
	sb	zero, 6(a3)
	sb	zero, 7(a3)
	srli	a1, a6, 24
	srli	a2, a6, 16
	srli	a4, a6, 8
	sb	s3, 12(a3)
	sb	zero, 13(a3)
	sb	zero, 14(a3)
	sb	zero, 15(a3)
	srli	a5, s6, 24
	srli	s1, s6, 16
	sb	a6, 0(a3)
	sb	a4, 1(a3)
	sb	a2, 2(a3)
	sb	a1, 3(a3)
	srli	a1, s6, 8
	sb	s6, 8(a3)
	sb	a1, 9(a3)
	sb	s1, 10(a3)
	sb	a5, 11(a3)
.LBB209_37:
	lw	s0, 44(sp)
	lw	s1, 40(sp)
	lw	s2, 36(sp)
	lw	s3, 32(sp)
	lw	s4, 28(sp)
	lw	s5, 24(sp)
	lw	s6, 20(sp)
	lw	s7, 16(sp)
	lw	s8, 12(sp)
	lw	s9, 8(sp)
	.cfi_restore s0
	.cfi_restore s1
	.cfi_restore s2
	.cfi_restore s3
	.cfi_restore s4
	.cfi_restore s5
	.cfi_restore s6
	.cfi_restore s7
	.cfi_restore s8
	.cfi_restore s9
	addi	sp, sp, 48
	.cfi_def_cfa_offset 0
	ret
.Lfunc_end209:
	.size	ic_xor_remove, .Lfunc_end209-ic_xor_remove
	.cfi_endproc
	.section	.text.ic_xor_replace,"ax",@progbits
	.globl	ic_xor_replace
	.p2align	1
	.type	ic_xor_replace,@function
ic_xor_replace:
	.cfi_startproc
	addi	sp, sp, -80
	.cfi_def_cfa_offset 80
	sw	ra, 76(sp)
	sw	s0, 72(sp)
	sw	s1, 68(sp)
	sw	s2, 64(sp)
	sw	s3, 60(sp)
	sw	s4, 56(sp)
	sw	s5, 52(sp)
	sw	s6, 48(sp)
	sw	s7, 44(sp)
	sw	s8, 40(sp)
	sw	s9, 36(sp)
	sw	s10, 32(sp)
	sw	s11, 28(sp)
	.cfi_offset ra, -4
	.cfi_offset s0, -8
	.cfi_offset s1, -12
	.cfi_offset s2, -16
	.cfi_offset s3, -20
	.cfi_offset s4, -24
	.cfi_offset s5, -28
	.cfi_offset s6, -32
	.cfi_offset s7, -36
	.cfi_offset s8, -40
	.cfi_offset s9, -44
	.cfi_offset s10, -48
	.cfi_offset s11, -52
	addi	s1, a5, 1
	bnez	s1, .LBB210_2
	li	a0, 4
	j	.LBB210_41
.LBB210_2:
	seqz	a7, a0
	sltu	s0, a1, s1
	slli	a7, a7, 12
	add	s9, a0, a7
	seqz	s6, a2
	and	a0, s6, s0
	sw	s9, 8(sp)
	sw	zero, 12(sp)
	sw	a1, 16(sp)
	sw	a2, 20(sp)
	bnez	a0, .LBB210_40
	slli	t2, s1, 3
	add	a7, s9, t2
	lw	s10, -8(a7)
	andi	a0, s10, 1
	beqz	a0, .LBB210_40
	srli	t5, s1, 29
	li	t1, 15
	li	t0, -8
	lw	a0, 0(a3)
	lw	s0, 4(a3)
	lw	s2, 8(a3)
	lw	s3, 12(a3)
	addi	s11, a4, 1
	lw	s8, -4(a7)
	srli	s7, s11, 29
	slli	s1, s11, 3
	andi	t3, s0, 15
	andi	t4, a0, -8
	add	t6, s9, s1
	beqz	s11, .LBB210_9
	sltu	a0, a1, s11
	and	a0, s6, a0
	bnez	a0, .LBB210_40
	lw	a0, -8(t6)
	andi	s0, a0, 1
	beqz	s0, .LBB210_40
	lw	s0, -4(t6)
	and	a0, a0, t0
	and	s0, s0, t1
	xor	s5, a0, t2
	xor	s0, s0, t5
	or	a0, s5, s0
	bnez	a0, .LBB210_11
	xor	a0, t4, s1
	xor	s0, t3, s7
	j	.LBB210_10
.LBB210_9:
	xor	a0, t4, t2
	xor	s0, t3, t5
.LBB210_10:
	or	a0, a0, s0
	beqz	a0, .LBB210_16
	j	.LBB210_40
.LBB210_11:
	srli	s4, s0, 3
	beq	s4, a2, .LBB210_13
	sltu	s0, a2, s4
	j	.LBB210_14
.LBB210_13:
	srli	a0, s5, 3
	slli	s0, s0, 29
	or	a0, a0, s0
	sltu	s0, a1, a0
.LBB210_14:
	bnez	s0, .LBB210_40
	add	s5, s5, s9
	lbu	a0, -8(s5)
	andi	a0, a0, 1
	beqz	a0, .LBB210_40
.LBB210_16:
	andi	s4, s3, 15
	andi	s5, s2, -8
	and	s2, s8, t1
	and	s3, s10, t0
	xor	s8, s3, s1
	xor	s1, s2, s7
	or	s7, s8, s1
	addi	ra, a6, 1
	bnez	s7, .LBB210_19
	beqz	ra, .LBB210_40
	xor	a0, s5, t2
	xor	a2, s4, t5
	or	a0, a0, a2
	beqz	a0, .LBB210_33
	j	.LBB210_40
.LBB210_19:
	srli	a0, s1, 3
	beq	a0, a2, .LBB210_21
	sltu	a0, a2, a0
	j	.LBB210_22
.LBB210_21:
	srli	a0, s8, 3
	slli	s0, s1, 29
	or	a0, a0, s0
	sltu	a0, a1, a0
.LBB210_22:
	bnez	a0, .LBB210_40
	add	s0, s9, s8
	lw	s10, -8(s0)
	andi	a0, s10, 1
	beqz	a0, .LBB210_40
	lw	a0, -4(s0)
	and	s0, s10, t0
	and	a0, a0, t1
	xor	s10, s0, t2
	xor	a0, a0, t5
	or	s0, s10, a0
	bnez	s0, .LBB210_27
	beqz	ra, .LBB210_40
	xor	a0, s5, s8
	xor	a2, s4, s1
	or	a0, a0, a2
	beqz	a0, .LBB210_33
	j	.LBB210_40
.LBB210_27:
	srli	s0, a0, 3
	beq	s0, a2, .LBB210_29
	sltu	a0, a2, s0
	j	.LBB210_30
.LBB210_29:
	srli	a2, s10, 3
	slli	a0, a0, 29
	or	a0, a0, a2
	sltu	a0, a1, a0
.LBB210_30:
	bnez	a0, .LBB210_40
	beqz	ra, .LBB210_40
	add	s10, s10, s9
	lw	a0, -8(s10)
	andi	a0, a0, 1
	beqz	a0, .LBB210_40
.LBB210_33:
	sltu	a0, a1, ra
	and	a0, s6, a0
	bnez	a0, .LBB210_40
	slli	a1, ra, 3
	add	a2, s9, a1
	lbu	a0, -8(a2)
	andi	a0, a0, 1
	bnez	a0, .LBB210_40
	srli	s0, ra, 29
	li	a0, 1
	sw	a0, -8(a2)
	sw	zero, -4(a2)
	xor	s1, t5, s0
	xor	a5, t2, a1
	mv	a4, a1
	mv	a6, s0
	beqz	s11, .LBB210_37
	lw	a0, -4(t6)
	lw	a4, -8(t6)
	and	a0, a0, t1
	and	a4, a4, t0
	xor	a0, a0, s1
	xor	a4, a4, a5
	addi	a4, a4, 1
	sw	a4, -8(t6)
	sw	a0, -4(t6)
	mv	a4, t4
	mv	a6, t3
.LBB210_37:
	beqz	s7, .LBB210_39
	add	s8, s8, s9
	lw	a0, -4(s8)
	lw	a1, -8(s8)
	and	a0, a0, t1
	and	a1, a1, t0
	xor	a0, a0, s1
	xor	a1, a1, a5
	addi	a1, a1, 1
	sw	a1, -8(s8)
	sw	a0, -4(s8)
	mv	a1, s5
	mv	s0, s4
.LBB210_39:
	li	a0, 0
	addi	s3, s3, 1
	srli	t0, a4, 24
	srli	t1, a4, 16
	srli	a5, a4, 8
	sw	s3, -8(a2)
	sw	s2, -4(a2)
	srli	t2, a1, 24
	srli	s1, a1, 16
	sw	zero, -8(a7)
	sw	zero, -4(a7)
	srli	a2, a1, 8
	sb	a6, 4(a3)
	sb	zero, 5(a3)
	sb	zero, 6(a3)
	sb	zero, 7(a3)
	sb	a4, 0(a3)
	sb	a5, 1(a3)
	sb	t1, 2(a3)
	sb	t0, 3(a3)
	sb	s0, 12(a3)
	sb	zero, 13(a3)
	sb	zero, 14(a3)
	sb	zero, 15(a3)
	sb	a1, 8(a3)
	sb	a2, 9(a3)
	sb	s1, 10(a3)
	sb	t2, 11(a3)
	j	.LBB210_41
.LBB210_40:
	addi	a0, sp, 8
	mv	a1, a5
	mv	a2, a4
	mv	a3, a6
	call	ic_raw.xor_calls.refusal_with_both
.LBB210_41:
	lw	ra, 76(sp)
	lw	s0, 72(sp)
	lw	s1, 68(sp)
	lw	s2, 64(sp)
	lw	s3, 60(sp)
	lw	s4, 56(sp)
	lw	s5, 52(sp)
	lw	s6, 48(sp)
	lw	s7, 44(sp)
	lw	s8, 40(sp)
	lw	s9, 36(sp)
	lw	s10, 32(sp)
	lw	s11, 28(sp)
	.cfi_restore ra
	.cfi_restore s0
	.cfi_restore s1
	.cfi_restore s2
	.cfi_restore s3
	.cfi_restore s4
	.cfi_restore s5
	.cfi_restore s6
	.cfi_restore s7
	.cfi_restore s8
	.cfi_restore s9
	.cfi_restore s10
	.cfi_restore s11
	addi	sp, sp, 80
	.cfi_def_cfa_offset 0
	ret
.Lfunc_end210:
	.size	ic_xor_replace, .Lfunc_end210-ic_xor_replace
	.cfi_endproc
	.section	.text.ic_xor_reverse,"ax",@progbits
	.globl	ic_xor_reverse
	.p2align	1
	.type	ic_xor_reverse,@function
ic_xor_reverse:
	.cfi_startproc
	lw	a1, 8(a0)
	lw	a2, 12(a0)
	lw	a3, 0(a0)
	lw	a4, 4(a0)
	sw	a1, 0(a0)
	sw	a2, 4(a0)
	sw	a3, 8(a0)
	sw	a4, 12(a0)
	li	a0, 0
	ret
.Lfunc_end211:
	.size	ic_xor_reverse, .Lfunc_end211-ic_xor_reverse
	.cfi_endproc
	.section	.text.ic_xor_splice_between,"ax",@progbits
	.globl	ic_xor_splice_between
	.p2align	1
	.type	ic_xor_splice_between,@function
ic_xor_splice_between:
	.cfi_startproc
	addi	sp, sp, -32
	.cfi_def_cfa_offset 32
	sw	ra, 28(sp)
	sw	s0, 24(sp)
	sw	s1, 20(sp)
	sw	s2, 16(sp)
	sw	s3, 12(sp)
	sw	s4, 8(sp)
	sw	s5, 4(sp)
	.cfi_offset ra, -4
	.cfi_offset s0, -8
	.cfi_offset s1, -12
	.cfi_offset s2, -16
	.cfi_offset s3, -20
	.cfi_offset s4, -24
	.cfi_offset s5, -28
	.cfi_remember_state
	mv	s2, a6
	mv	a7, a5
	mv	s3, a4
	mv	s4, a2
	mv	s5, a1
	seqz	a1, a0
	addi	a2, a4, 1
	addi	s1, a6, 1
	slli	a1, a1, 12
	slli	a5, a2, 3
	srli	a6, a2, 29
	snez	a4, a2
	slli	t4, s1, 3
	add	s0, a0, a1
	srli	t5, s1, 29
	snez	t3, s1
	mv	a0, s0
	mv	a1, s5
	mv	a2, s4
	call	ic_raw.xor_calls.splice
	beqz	a0, .LBB212_2
	li	a0, 0
	lw	ra, 28(sp)
	lw	s0, 24(sp)
	lw	s1, 20(sp)
	lw	s2, 16(sp)
	lw	s3, 12(sp)
	lw	s4, 8(sp)
	lw	s5, 4(sp)
	.cfi_restore ra
	.cfi_restore s0
	.cfi_restore s1
	.cfi_restore s2
	.cfi_restore s3
	.cfi_restore s4
	.cfi_restore s5
	addi	sp, sp, 32
	.cfi_def_cfa_offset 0
	ret
.LBB212_2:
	.cfi_restore_state
	mv	a0, s0
	mv	a1, s5
	mv	a2, s4
	mv	a3, s3
	mv	a4, s2
	lw	ra, 28(sp)
	lw	s0, 24(sp)
	lw	s1, 20(sp)
	lw	s2, 16(sp)
	lw	s3, 12(sp)
	lw	s4, 8(sp)
	lw	s5, 4(sp)
	.cfi_restore ra
	.cfi_restore s0
	.cfi_restore s1
	.cfi_restore s2
	.cfi_restore s3
	.cfi_restore s4
	.cfi_restore s5
	addi	sp, sp, 32
	.cfi_def_cfa_offset 0
	tail	ic_raw.table.RawTable.refusal_at_both.feecb86c9dd45d96
.Lfunc_end212:
	.size	ic_xor_splice_between, .Lfunc_end212-ic_xor_splice_between
	.cfi_endproc
	.section	.text.ic_xor_split_between,"ax",@progbits
	.globl	ic_xor_split_between
	.p2align	1
	.type	ic_xor_split_between,@function
ic_xor_split_between:
	.cfi_startproc
	addi	sp, sp, -48
	.cfi_def_cfa_offset 48
	sw	s0, 44(sp)
	sw	s1, 40(sp)
	sw	s2, 36(sp)
	sw	s3, 32(sp)
	sw	s4, 28(sp)
	sw	s5, 24(sp)
	sw	s6, 20(sp)
	sw	s7, 16(sp)
	sw	s8, 12(sp)
	sw	s9, 8(sp)
	.cfi_offset s0, -4
	.cfi_offset s1, -8
	.cfi_offset s2, -12
	.cfi_offset s3, -16
	.cfi_offset s4, -20
	.cfi_offset s5, -24
	.cfi_offset s6, -28
	.cfi_offset s7, -32
	.cfi_offset s8, -36
	.cfi_offset s9, -40
	.cfi_remember_state
	lw	s1, 4(a6)
	lw	s0, 0(a6)
	andi	s1, s1, 15
	andi	s0, s0, -8
	or	s0, s0, s1
	seqz	s1, a0
	slli	s1, s1, 12
	add	a0, a0, s1
	bnez	s0, .LBB213_27
	lw	s1, 12(a6)
	lw	s0, 8(a6)
	li	t6, 15
	li	s2, -8
	and	s1, s1, t6
	and	s0, s0, s2
	or	s0, s0, s1
	bnez	s0, .LBB213_27
	lw	s0, 0(a3)
	lw	s1, 4(a3)
	lw	s3, 8(a3)
	lw	t5, 12(a3)
	addi	s9, a4, 1
	addi	s5, a5, 1
	seqz	s6, a2
	srli	t3, s9, 29
	slli	t1, s9, 3
	srli	a7, s5, 29
	slli	t0, s5, 3
	andi	t4, s1, 15
	andi	t2, s0, -8
	add	s4, a0, t1
	beqz	s9, .LBB213_7
	sltu	s0, a1, s9
	and	s0, s6, s0
	bnez	s0, .LBB213_27
	lw	s0, -8(s4)
	andi	s1, s0, 1
	beqz	s1, .LBB213_27
	lw	s1, -4(s4)
	and	s0, s0, s2
	and	s1, s1, t6
	xor	s7, s0, t0
	xor	s0, s1, a7
	or	s1, s7, s0
	bnez	s1, .LBB213_8
	xor	s0, t2, t1
	xor	s1, t4, t3
	or	s0, s0, s1
	beqz	s0, .LBB213_13
	j	.LBB213_27
.LBB213_7:
	xor	s0, t2, t0
	xor	s1, t4, a7
	or	s0, s0, s1
	beqz	s0, .LBB213_13
	j	.LBB213_27
.LBB213_8:
	srli	s8, s0, 3
	beq	s8, a2, .LBB213_10
	sltu	s0, a2, s8
	j	.LBB213_11
.LBB213_10:
	srli	s1, s7, 3
	slli	s0, s0, 29
	or	s0, s0, s1
	sltu	s0, a1, s0
.LBB213_11:
	bnez	s0, .LBB213_27
	add	s7, s7, a0
	lbu	s0, -8(s7)
	andi	s0, s0, 1
	beqz	s0, .LBB213_27
.LBB213_13:
	andi	t5, t5, 15
	andi	s3, s3, -8
	add	s7, a0, t0
	beqz	s5, .LBB213_18
	sltu	s0, a1, s5
	and	s0, s6, s0
	bnez	s0, .LBB213_27
	lw	s0, -8(s7)
	andi	s1, s0, 1
	beqz	s1, .LBB213_27
	lw	s1, -4(s7)
	and	s0, s0, s2
	and	s1, s1, t6
	xor	s6, s0, t1
	xor	s0, s1, t3
	or	s1, s6, s0
	bnez	s1, .LBB213_19
	xor	s0, s3, t0
	xor	s1, t5, a7
	or	s0, s0, s1
	beqz	s0, .LBB213_24
	j	.LBB213_27
.LBB213_18:
	xor	s0, s3, t1
	xor	s1, t5, t3
	or	s0, s0, s1
	beqz	s0, .LBB213_24
	j	.LBB213_27
.LBB213_19:
	srli	s8, s0, 3
	beq	s8, a2, .LBB213_21
	sltu	s0, a2, s8
	j	.LBB213_22
.LBB213_21:
	srli	s1, s6, 3
	slli	s0, s0, 29
	or	s0, s0, s1
	sltu	s0, a1, s0
.LBB213_22:
	bnez	s0, .LBB213_27
	add	s6, s6, a0
	lbu	s0, -8(s6)
	andi	s0, s0, 1
	beqz	s0, .LBB213_27
.LBB213_24:
	beqz	s9, .LBB213_28
	lw	a0, -8(s4)
	lw	a1, -4(s4)
	and	a0, a0, s2
	and	a1, a1, t6
	xor	a1, a1, a7
	xor	a0, a0, t0
	addi	a0, a0, 1
	sw	a0, -8(s4)
	sw	a1, -4(s4)
	beqz	s5, .LBB213_29
.LBB213_26:
	lw	a0, -8(s7)
	lw	a1, -4(s7)
	and	a0, a0, s2
	and	a1, a1, t6
	xor	a1, a1, t3
	xor	a0, a0, t1
	addi	a0, a0, 1
	sw	a0, -8(s7)
	sw	a1, -4(s7)
	j	.LBB213_30
.LBB213_27:
	mv	a3, a4
	mv	a4, a5
	lw	s0, 44(sp)
	lw	s1, 40(sp)
	lw	s2, 36(sp)
	lw	s3, 32(sp)
	lw	s4, 28(sp)
	lw	s5, 24(sp)
	lw	s6, 20(sp)
	lw	s7, 16(sp)
	lw	s8, 12(sp)
	lw	s9, 8(sp)
	.cfi_restore s0
	.cfi_restore s1
	.cfi_restore s2
	.cfi_restore s3
	.cfi_restore s4
	.cfi_restore s5
	.cfi_restore s6
	.cfi_restore s7
	.cfi_restore s8
	.cfi_restore s9
	addi	sp, sp, 48
	.cfi_def_cfa_offset 0
	tail	ic_raw.table.RawTable.refusal_at_both.feecb86c9dd45d96
.LBB213_28:
	.cfi_restore_state
	li	t2, 0
	li	t4, 0
	bnez	s5, .LBB213_26
.LBB213_29:
	li	t0, 0
	li	a7, 0
	li	s3, 0
	li	t5, 0
.LBB213_30:
	sb	t4, 4(a3)
	sb	zero, 5(a3)
	sb	zero, 6(a3)
	sb	zero, 7(a3)
	srli	t4, t2, 24
	srli	a1, t2, 16
	srli	a2, t2, 8
	sb	t3, 12(a3)
	sb	zero, 13(a3)
	sb	zero, 14(a3)
	sb	zero, 15(a3)
	srli	a4, t1, 24
	srli	a5, t1, 16
	srli	s1, t1, 8
	srli	t3, t0, 16
	srli	a0, t0, 24
	srli	s0, t0, 8
	sb	t2, 0(a3)
	sb	a2, 1(a3)
	sb	a1, 2(a3)
	sb	t4, 3(a3)
	srli	a1, s3, 16
	sb	t1, 8(a3)
	sb	s1, 9(a3)
	sb	a5, 10(a3)
	sb	a4, 11(a3)
	srli	a2, s3, 24
	srli	a3, s3, 8
	sb	t0, 0(a6)
	sb	s0, 1(a6)
	sb	t3, 2(a6)
	sb	a0, 3(a6)
	sb	a7, 4(a6)
	sb	zero, 5(a6)
	sb	zero, 6(a6)
	sb	zero, 7(a6)
	sb	s3, 8(a6)
	sb	a3, 9(a6)
	sb	a1, 10(a6)
	sb	a2, 11(a6)
	sb	t5, 12(a6)
	sb	zero, 13(a6)
	sb	zero, 14(a6)
	sb	zero, 15(a6)
	li	a0, 0
	lw	s0, 44(sp)
	lw	s1, 40(sp)
	lw	s2, 36(sp)
	lw	s3, 32(sp)
	lw	s4, 28(sp)
	lw	s5, 24(sp)
	lw	s6, 20(sp)
	lw	s7, 16(sp)
	lw	s8, 12(sp)
	lw	s9, 8(sp)
	.cfi_restore s0
	.cfi_restore s1
	.cfi_restore s2
	.cfi_restore s3
	.cfi_restore s4
	.cfi_restore s5
	.cfi_restore s6
	.cfi_restore s7
	.cfi_restore s8
	.cfi_restore s9
	addi	sp, sp, 48
	.cfi_def_cfa_offset 0
	ret
.Lfunc_end213:
	.size	ic_xor_split_between, .Lfunc_end213-ic_xor_split_between
	.cfi_endproc
	.section	.text.ic.remainder.divided,"ax",@progbits
	.p2align	1
	.type	ic.remainder.divided,@function
ic.remainder.divided:
	.cfi_startproc
	seqz	a5, a2
	addi	a6, a2, -1
	sub	a5, a3, a5
	and	a4, a2, a6
	and	a3, a3, a5
	or	a3, a3, a4
	beqz	a3, .LBB214_3
	remu	a3, a1, a2
	srli	a1, a2, 16
	bnez	a1, .LBB214_4
	slli	a3, a3, 16
	srli	a1, a0, 16
	or	a1, a1, a3
	remu	a1, a1, a2
	slli	a0, a0, 16
	slli	a1, a1, 16
	srli	a0, a0, 16
	or	a0, a0, a1
	remu	a0, a0, a2
	li	a1, 0
	ret
.LBB214_3:
	and	a0, a0, a6
	and	a1, a1, a5
	ret
.LBB214_4:
	addi	sp, sp, -16
	.cfi_def_cfa_offset 16
	sw	ra, 12(sp)
	.cfi_offset ra, -4
	mv	a1, a0
	mv	a0, a3
	call	ic.remainder.of.bits
	li	a1, 0
	lw	ra, 12(sp)
	.cfi_restore ra
	addi	sp, sp, 16
	.cfi_def_cfa_offset 0
	ret
.Lfunc_end214:
	.size	ic.remainder.divided, .Lfunc_end214-ic.remainder.divided
	.cfi_endproc
	.section	.text.ic.remainder.of.bits,"ax",@progbits
	.p2align	1
	.type	ic.remainder.of.bits,@function
ic.remainder.of.bits:
	.cfi_startproc
	li	a3, -32
.LBB215_1:
	slli	a0, a0, 1
	srli	a4, a1, 31
	addi	a3, a3, 1
	or	a0, a0, a4
	sltu	a4, a0, a2
	addi	a4, a4, -1
	and	a4, a4, a2
	sub	a0, a0, a4
	slli	a1, a1, 1
	bnez	a3, .LBB215_1
	ret
.Lfunc_end215:
	.size	ic.remainder.of.bits, .Lfunc_end215-ic.remainder.of.bits
	.cfi_endproc
	.section	.text.ic.clear,"ax",@progbits
	.p2align	1
	.type	ic.clear,@function
ic.clear:
	.cfi_startproc
	or	a1, a0, a2
	andi	a1, a1, 7
	beqz	a1, .LBB216_4
	beqz	a2, .LBB216_5
.LBB216_2:
	sb	zero, 0(a0)
	addi	a0, a0, 1
	addi	a2, a2, -1
	bnez	a2, .LBB216_2
	j	.LBB216_5
.LBB216_3:
	sw	zero, 0(a0)
	sw	zero, 4(a0)
	addi	a0, a0, 8
	addi	a2, a2, -8
.LBB216_4:
	bnez	a2, .LBB216_3
.LBB216_5:
	ret
.Lfunc_end216:
	.size	ic.clear, .Lfunc_end216-ic.clear
	.cfi_endproc
